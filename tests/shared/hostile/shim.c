/* What the scripts load into the program by LD_PRELOAD. It refuses memory, lets calls on the two files of a store fail, records what is written to them, and
   plants faults that a script has to find. What it is to do stands in the environment:

   HOSTILE_STORE   the path of the store's file; the log is beside it.
   HOSTILE_FILE    the path of a file that a command reads, whose reads count as those of standard input.
   HOSTILE_COUNTS  a file of COUNTS numbers of 64 bits, which counts calls as they are met.
   HOSTILE_RECORD  a file that gets each write, change of length and sync of the two files, and each write to standard output.
   HOSTILE_FAULT   faults, each "KIND FILE AT TIMES ACTION NUMBER", parted by semicolons: from call AT of that kind on that file on, so many times (0: for good).
   HOSTILE_REFUSE  requests for memory that are refused, each "AT TIMES", parted by semicolons.
   HOSTILE_PLANT   a fault of the program that is played, as "WORD" or "WORD OLD NEW". */
#define _GNU_SOURCE
#include <errno.h>
#include <fcntl.h>
#include <stdarg.h>
#include <stdint.h>
#include <stdio.h>
#include <stdlib.h>
#include <string.h>
#include <sys/mman.h>
#include <sys/socket.h>
#include <sys/stat.h>
#include <sys/syscall.h>
#include <sys/types.h>
#include <sys/uio.h>
#include <unistd.h>

enum { OPEN, READ, WRITE, TRUNCATE, SYNC, STAT, LOCK, ADVISE, OWN, HEAR, TELL, KINDS };
enum { NONE, DB, LOG, FOLDER, INPUT, OUTPUT };
enum { MET = KINDS, ASKED, REFUSED, TOLD_BEFORE, TOLD, COUNTS };
enum { MOST_FAULTS = 4, MOST_HANDLES = 1024, MOST_PLANT = 8 << 20 };

static const char *const kind_names[KINDS] = {"open", "read", "write", "truncate", "sync", "stat", "lock", "advise", "own", "hear", "tell"};

struct fault {
    int kind, file;
    uint64_t at, times, met;
    char action;
    long number;
};

struct refusal {
    uint64_t at, times;
};

struct step {
    uint32_t kind, file;
    uint64_t at, size;
};

void *__libc_malloc(size_t);
void *__libc_realloc(void *, size_t);

static uint64_t own_counts[COUNTS], *counts = own_counts;
static char store[4096], log_name[4100], folder[4096], heard[4096];
static unsigned char file_of[MOST_HANDLES];
static struct fault faults[MOST_FAULTS];
static uint64_t calls_of[MOST_FAULTS];
static struct refusal refusals[MOST_FAULTS];
static int fault_count, refusal_count, record = -1, is_begun;
static char plant[64], plant_old[512], plant_new[512];

/* ---- beginning */

static int kind_named(const char *name) {
    for (int kind = 0; kind < KINDS; kind++)
        if (strcmp(kind_names[kind], name) == 0) return kind;
    return -1;
}

static int file_named(const char *name) {
    return strcmp(name, "db") == 0 ? DB : strcmp(name, "log") == 0 ? LOG : strcmp(name, "folder") == 0 ? FOLDER : NONE;
}

static void read_faults(const char *text) {
    while (text && *text && fault_count < MOST_FAULTS) {
        char kind[16], file[16];
        unsigned long at, times;
        struct fault *fault = &faults[fault_count];
        if (sscanf(text, "%15s %15s %lu %lu %c %ld", kind, file, &at, &times, &fault->action, &fault->number) == 6) {
            fault->kind = kind_named(kind);
            fault->file = file_named(file);
            fault->at = at;
            fault->times = times;
            fault_count++;
        }
        text = strchr(text, ';');
        if (text) text++;
    }
}

static void read_refusals(const char *text) {
    while (text && *text && refusal_count < MOST_FAULTS) {
        unsigned long at, times;
        if (sscanf(text, "%lu %lu", &at, &times) == 2) refusals[refusal_count++] = (struct refusal){at, times};
        text = strchr(text, ';');
        if (text) text++;
    }
}

static void share_counts(const char *path) {
    int fd = path ? (int)syscall(SYS_openat, AT_FDCWD, path, O_RDWR | O_CREAT | O_CLOEXEC, 0600) : -1;
    if (fd < 0) return;
    if (syscall(SYS_ftruncate, fd, (long)sizeof own_counts) == 0) {
        void *shared = mmap(NULL, sizeof own_counts, PROT_READ | PROT_WRITE, MAP_SHARED, fd, 0);
        if (shared != MAP_FAILED) counts = shared;
    }
    syscall(SYS_close, fd);
}

__attribute__((constructor)) static void begin(void) {
    const char *path = getenv("HOSTILE_STORE"), *recorded = getenv("HOSTILE_RECORD"), *planted = getenv("HOSTILE_PLANT");
    const char *file = getenv("HOSTILE_FILE");
    if (file) snprintf(heard, sizeof heard, "%s", file);
    if (path) {
        snprintf(store, sizeof store, "%s", path);
        snprintf(log_name, sizeof log_name, "%s-wal", path);
        snprintf(folder, sizeof folder, "%s", path);
        char *slash = strrchr(folder, '/');
        if (slash) *slash = 0;
    }
    share_counts(getenv("HOSTILE_COUNTS"));
    if (recorded) record = (int)syscall(SYS_openat, AT_FDCWD, recorded, O_WRONLY | O_CREAT | O_APPEND | O_CLOEXEC, 0600);
    read_faults(getenv("HOSTILE_FAULT"));
    read_refusals(getenv("HOSTILE_REFUSE"));
    if (planted) sscanf(planted, "%63s %511s %511s", plant, plant_old, plant_new);
    file_of[0] = INPUT;
    file_of[1] = OUTPUT;
    is_begun = 1;
}

static int is_planted(const char *word) { return strcmp(plant, word) == 0; }

/* ---- memory */

static int is_refused(void) {
    if (!is_begun) return 0;
    uint64_t asked = ++counts[ASKED];
    for (int i = 0; i < refusal_count; i++) {
        const struct refusal *refusal = &refusals[i];
        int is_for_good = refusal->times == 0 || is_planted("stays_refused");
        if (asked >= refusal->at && (is_for_good || asked < refusal->at + refusal->times)) {
            if (counts[REFUSED]++ == 0) counts[TOLD_BEFORE] = counts[TOLD];
            return 1;
        }
    }
    return 0;
}

void *malloc(size_t size) {
    if (is_refused()) {
        errno = ENOMEM;
        return NULL;
    }
    return __libc_malloc(size);
}

void *realloc(void *old, size_t size) {
    if (is_refused()) {
        errno = ENOMEM;
        return NULL;
    }
    return __libc_realloc(old, size);
}

/* ---- which file a call is on */

static int file_at(const char *path) {
    if (heard[0] && strcmp(path, heard) == 0) return INPUT;
    if (!store[0]) return NONE;
    return strcmp(path, store) == 0 ? DB : strcmp(path, log_name) == 0 ? LOG : strcmp(path, folder) == 0 ? FOLDER : NONE;
}

static int file_under(int fd) { return fd >= 0 && fd < MOST_HANDLES ? file_of[fd] : NONE; }

static void hold(int fd, int file) {
    if (fd >= 0 && fd < MOST_HANDLES) file_of[fd] = (unsigned char)file;
}

/* ---- faults */

static struct fault *fault_at(int kind, int file) {
    struct fault *found = NULL;
    if (file == NONE) return NULL;
    counts[kind]++;
    for (int i = 0; i < fault_count; i++) {
        struct fault *fault = &faults[i];
        if (fault->kind != kind || (fault->file != NONE && fault->file != file)) continue;
        uint64_t call = ++calls_of[i];
        if (call >= fault->at && (fault->times == 0 || call < fault->at + fault->times)) found = fault;
    }
    if (found && counts[MET]++ == 0) counts[TOLD_BEFORE] = counts[TOLD];
    return found;
}

/* The call's answer under a fault. */
static long answer_of(const struct fault *fault) {
    errno = (int)fault->number;
    return -1;
}

static size_t fewer(size_t size, long most) { return most > 0 && size > (size_t)most ? (size_t)most : size; }

/* ---- the record */

static void note(uint32_t kind, int file, uint64_t at, uint64_t size, const void *bytes) {
    if (record < 0) return;
    struct step step = {kind, (uint32_t)file, at, size};
    struct iovec parts[2] = {{&step, sizeof step}, {(void *)bytes, bytes ? size : 0}};
    syscall(SYS_writev, record, parts, 2);
}

/* ---- calls on files */

static int opened(long fd, const char *path) {
    if (fd >= 0) hold((int)fd, file_at(path));
    return (int)fd;
}

static int open_at(int dir, const char *path, int flags, mode_t mode) {
    int file = file_at(path), is_new = 0;
    struct fault *fault = file == FOLDER || file == INPUT ? NULL : fault_at(OPEN, file);
    if (fault) return (int)answer_of(fault);
    if (record >= 0 && file != NONE && (flags & O_CREAT)) is_new = syscall(SYS_faccessat, AT_FDCWD, path, F_OK) != 0;
    long fd = syscall(SYS_openat, dir, path, flags, mode);
    if (fd >= 0 && is_new) note(OPEN, file, 0, 0, NULL);
    return opened(fd, path);
}

int open(const char *path, int flags, ...) {
    va_list rest;
    va_start(rest, flags);
    mode_t mode = (flags & (O_CREAT | O_TMPFILE)) ? va_arg(rest, mode_t) : 0;
    va_end(rest);
    return open_at(AT_FDCWD, path, flags, mode);
}

int open64(const char *path, int flags, ...) {
    va_list rest;
    va_start(rest, flags);
    mode_t mode = (flags & (O_CREAT | O_TMPFILE)) ? va_arg(rest, mode_t) : 0;
    va_end(rest);
    return open_at(AT_FDCWD, path, flags, mode);
}

int openat(int dir, const char *path, int flags, ...) {
    va_list rest;
    va_start(rest, flags);
    mode_t mode = (flags & (O_CREAT | O_TMPFILE)) ? va_arg(rest, mode_t) : 0;
    va_end(rest);
    return open_at(dir, path, flags, mode);
}

int close(int fd) {
    if (fd > 2) hold(fd, NONE);
    return (int)syscall(SYS_close, fd);
}

ssize_t pread(int fd, void *bytes, size_t size, off_t at) {
    struct fault *fault = fault_at(READ, file_under(fd));
    if (fault && fault->action != 'm') return answer_of(fault);
    return syscall(SYS_pread64, fd, bytes, fault ? fewer(size, fault->number) : size, at);
}

ssize_t pwrite(int fd, const void *bytes, size_t size, off_t at) {
    int file = file_under(fd);
    struct fault *fault = fault_at(WRITE, file);
    if (fault && fault->action != 'm') return is_planted("swallowed_write") ? (ssize_t)size : answer_of(fault);
    long put = syscall(SYS_pwrite64, fd, bytes, fault ? fewer(size, fault->number) : size, at);
    if (put > 0 && (file == DB || file == LOG)) note(WRITE, file, (uint64_t)at, (uint64_t)put, bytes);
    return put;
}

ssize_t pread64(int fd, void *bytes, size_t size, off64_t at) { return pread(fd, bytes, size, at); }

ssize_t pwrite64(int fd, const void *bytes, size_t size, off64_t at) { return pwrite(fd, bytes, size, at); }

int ftruncate(int fd, off_t size) {
    int file = file_under(fd);
    struct fault *fault = fault_at(TRUNCATE, file);
    if (fault) return (int)answer_of(fault);
    long done = syscall(SYS_ftruncate, fd, size);
    if (done == 0 && (file == DB || file == LOG)) note(TRUNCATE, file, 0, (uint64_t)size, NULL);
    return (int)done;
}

int ftruncate64(int fd, off64_t size) { return ftruncate(fd, size); }

/* A store for tests lies in memory, so a sync is only told. */
static int synced(int fd, long number) {
    int file = file_under(fd);
    struct fault *fault = fault_at(SYNC, file);
    if (fault) return (int)answer_of(fault);
    if (file == LOG && is_planted("dropped_sync")) return 0;
    long done = file == NONE ? syscall(number, fd) : 0;
    if (done == 0 && file != NONE) note(SYNC, file, 0, 0, NULL);
    return (int)done;
}

int fsync(int fd) { return synced(fd, SYS_fsync); }

int fdatasync(int fd) { return synced(fd, SYS_fdatasync); }

int posix_fadvise(int fd, off_t at, off_t size, int advice) {
    struct fault *fault = fault_at(ADVISE, file_under(fd));
    if (fault) return (int)fault->number;
    return syscall(SYS_fadvise64, fd, at, size, advice) == 0 ? 0 : errno;
}

int statx(int dir, const char *restrict path, int flags, unsigned mask, struct statx *restrict found) {
    int file = path[0] ? file_at(path) : file_under(dir);
    struct fault *fault = file == DB || file == LOG ? fault_at(STAT, file) : NULL;
    if (fault) return (int)answer_of(fault);
    return (int)syscall(SYS_statx, dir, path, flags, mask, found);
}

int fchown(int fd, uid_t owner, gid_t group) {
    struct fault *fault = fault_at(OWN, file_under(fd));
    if (fault) return (int)answer_of(fault);
    return (int)syscall(SYS_fchown, fd, owner, group);
}

int fchmod(int fd, mode_t mode) {
    struct fault *fault = fault_at(OWN, file_under(fd));
    if (fault) return (int)answer_of(fault);
    return (int)syscall(SYS_fchmod, fd, mode);
}

int fcntl(int fd, int command, ...) {
    va_list rest;
    va_start(rest, command);
    void *argument = va_arg(rest, void *);
    va_end(rest);
    if (command == F_OFD_SETLK) {
        struct fault *fault = fault_at(LOCK, file_under(fd));
        if (fault) return (int)answer_of(fault);
    }
    long done = syscall(SYS_fcntl, fd, command, argument);
    if (done >= 0 && (command == F_DUPFD || command == F_DUPFD_CLOEXEC)) hold((int)done, file_under(fd));
    return (int)done;
}

int fcntl64(int fd, int command, ...) {
    va_list rest;
    va_start(rest, command);
    void *argument = va_arg(rest, void *);
    va_end(rest);
    return fcntl(fd, command, argument);
}

/* ---- what is told */

/* The bytes with the first OLD of a planted change made NEW, which is as long. */
static const void *changed(const void *bytes, size_t size, char *room, size_t most) {
    size_t length = strlen(plant_old);
    if (!is_planted("changed_answer") || size > most || length == 0 || strlen(plant_new) != length) return bytes;
    char *found = memmem(bytes, size, plant_old, length);
    if (!found) return bytes;
    memcpy(room, bytes, size);
    memcpy(room + (found - (char *)bytes), plant_new, length);
    return room;
}

/* Stack that a call takes under the plant "deep_call". */
static __attribute__((noinline)) void go_deep(void) {
    volatile char taken[MOST_PLANT - 65536];
    for (size_t at = sizeof taken; at >= 4096; at -= 4096) taken[at - 4096] = 1;
}

ssize_t read(int fd, void *bytes, size_t size) {
    struct fault *fault = file_under(fd) == INPUT ? fault_at(HEAR, INPUT) : NULL;
    if (fault && fault->action != 'm') return answer_of(fault);
    return syscall(SYS_read, fd, bytes, fault ? fewer(size, fault->number) : size);
}

ssize_t write(int fd, const void *bytes, size_t size) {
    static char room[1 << 20];
    if (file_under(fd) != OUTPUT) return syscall(SYS_write, fd, bytes, size);
    if (is_planted("deep_call")) go_deep();
    struct fault *fault = fault_at(TELL, OUTPUT);
    if (fault && fault->action != 'm') return answer_of(fault);
    const void *told = changed(bytes, size, room, sizeof room);
    long put = syscall(SYS_write, fd, told, fault ? fewer(size, fault->number) : size);
    if (put > 0) {
        counts[TOLD] += (uint64_t)put;
        note(KINDS, OUTPUT, 0, (uint64_t)put, told);
    }
    return put;
}

ssize_t writev(int fd, const struct iovec *parts, int count) {
    if (file_under(fd) != OUTPUT) return syscall(SYS_writev, fd, parts, count);
    for (int i = 0; i < count; i++)
        if (parts[i].iov_len > 0) return write(fd, parts[i].iov_base, parts[i].iov_len);
    return 0;
}
