/* What reading the rows of a store costs in C over SQLite's own library: the statements by which the program reads a store of
   version 2 as it opens it, in its order, and each value of each row. It tests nothing and keeps nothing.
   Build: cc -O2 -o opening opening.c -lsqlite3.  Run: ./opening FILE [ROUNDS] (a store of version 2; each round opens it anew).
   It prints the processor time of each round, in seconds, and with the word `each` after the rounds that of each statement. */
#include <sqlite3.h>
#include <stdio.h>
#include <stdlib.h>
#include <string.h>
#include <sys/resource.h>

static const char *const STATEMENTS[] = {
    "SELECT version FROM desk WHERE id = 1",
    "SELECT id, version, day, last_day FROM desk ORDER BY id",
    "SELECT period, rate FROM rates ORDER BY period",
    "SELECT letter, number, denom, issued, owner, coowner, ticket FROM bonds ORDER BY letter, number",
    "SELECT rowid FROM bonds ORDER BY rowid",
    "SELECT ticket, day, payee, bonds, total FROM tickets ORDER BY ticket",
    "SELECT ticket, place, letter, number, cents FROM paid ORDER BY ticket, place",
    "SELECT rowid FROM paid ORDER BY rowid",
    "SELECT day, tickets, bonds, total FROM batches ORDER BY day",
    "SELECT desk, number, act, reply FROM answers ORDER BY desk, number",
    "SELECT rowid FROM answers ORDER BY rowid",
    "SELECT period, rate FROM extensions ORDER BY period",
};

static sqlite3 *db;
static long rows;
static unsigned long sum;

/* Processor time so far, of the program and of the system for it. */
static double now(void) {
    struct rusage used;
    getrusage(RUSAGE_SELF, &used);
    return used.ru_utime.tv_sec + used.ru_stime.tv_sec + (used.ru_utime.tv_usec + used.ru_stime.tv_usec) / 1e6;
}

static void fail(const char *what) {
    fprintf(stderr, "%s: %s\n", what, sqlite3_errmsg(db));
    exit(1);
}

/* Reads each value of the row at which the statement stands; of a text each byte. */
static void read_row(sqlite3_stmt *statement) {
    int count = sqlite3_column_count(statement);
    for (int at = 0; at < count; at++) {
        if (sqlite3_column_type(statement, at) == SQLITE_TEXT) {
            const unsigned char *text = sqlite3_column_text(statement, at);
            for (int i = 0, length = sqlite3_column_bytes(statement, at); i < length; i++) sum = sum * 31 + text[i];
        } else {
            sum = sum * 31 + sqlite3_column_int64(statement, at);
        }
    }
    rows++;
}

static void read_all(const char *sql) {
    sqlite3_stmt *statement;
    int step;
    if (sqlite3_prepare_v2(db, sql, -1, &statement, 0)) fail(sql);
    while ((step = sqlite3_step(statement)) == SQLITE_ROW) read_row(statement);
    if (step != SQLITE_DONE) fail(sql);
    sqlite3_finalize(statement);
}

int main(int count, char **words) {
    if (count < 2) return 2;
    int rounds = count > 2 ? atoi(words[2]) : 1, each = count > 3 && !strcmp(words[3], "each");
    for (int round = 0; round < rounds; round++) {
        double start = now();
        rows = 0, sum = 0;
        if (sqlite3_open_v2(words[1], &db, SQLITE_OPEN_READWRITE, 0)) fail("open");
        for (unsigned i = 0; i < sizeof STATEMENTS / sizeof *STATEMENTS; i++) {
            double before = now();
            read_all(STATEMENTS[i]);
            if (each) printf("%9.4f %s\n", now() - before, STATEMENTS[i]);
        }
        sqlite3_close(db);
        printf("%9.4f seconds, %ld rows, sum %lx\n", now() - start, rows, sum);
    }
    return 0;
}
