/* The counter as one would write it in C over SQLite's own library: the same tables, statements, tests, texts and kept replies,
   HTTP/1.1 on one thread, and the same durability (a write-ahead log, synchronous=FULL, one commit per request). It proves
   nothing, believes the rows of its store, and reads JSON by a small parser of its own.

   peer serve DB PORT VARIANT, peer apply DB VARIANT. VARIANT is default or best. Both keep in memory what the counter's cache has:
   terms, the open day, and the numbers of tickets. Both insert lines of a ticket by fours, as the counter does. `best` creates pages
   of 1,024 bytes, as the counter does, and holds the file's lock for itself, so that SQLite needs no shared memory.

   beside.py runs it, and compares every response with the counter's. Build: cc -O2 -o peer peer.c -lsqlite3 -lquadmath */
#define _GNU_SOURCE
#include <arpa/inet.h>
#include <netinet/in.h>
#include <netinet/tcp.h>
#include <quadmath.h>
#include <sqlite3.h>
#include <stdio.h>
#include <stdlib.h>
#include <string.h>
#include <sys/socket.h>
#include <unistd.h>
typedef long long Number;
static sqlite3 *db;

static void fail(const char *w) {
    fprintf(stderr, "%s: %s\n", w, db ? sqlite3_errmsg(db) : "");
    exit(3);
}

static void run(const char *s) {
    if (sqlite3_exec(db, s, 0, 0, 0)) fail(s);
}

static sqlite3_stmt *prepared(const char *s) {
    sqlite3_stmt *q;
    if (sqlite3_prepare_v3(db, s, -1, SQLITE_PREPARE_PERSISTENT, &q, 0)) fail(s);
    return q;
}

static sqlite3_stmt *q_begin, *q_commit, *q_rollback, *q_answer, *q_desk, *q_bond, *q_rate, *q_ext, *q_last, *q_first, *i_ticket,
    *i_paid, *i_four, *mark, *i_answer, *i_bond, *i_rate, *i_ext, *u_day, *q_owner, *q_daysum, *i_batch;

static void binds(sqlite3_stmt *q, int n, const Number *v) {
    for (int i = 0; i < n; i++) sqlite3_bind_int64(q, i + 1, v[i]);
}

#define BIND(q, ...) binds(q, sizeof((Number[]){__VA_ARGS__}) / sizeof(Number), (Number[]){__VA_ARGS__})

static void finish(sqlite3_stmt *q) {
    int s = sqlite3_step(q);
    if (s != SQLITE_DONE && s != SQLITE_ROW) fail("step");
    sqlite3_reset(q);
}

/* growing text */
typedef struct {
    char *s;
    size_t n, cap;
} Text;

static void make_room(Text *t, size_t k) {
    if (t->n + k + 1 > t->cap) {
        t->cap = (t->n + k + 1) * 2;
        t->s = realloc(t->s, t->cap);
        if (!t->s) exit(9);
    }
}

static void add_bytes(Text *t, const char *s, size_t k) {
    make_room(t, k);
    memcpy(t->s + t->n, s, k);
    t->n += k;
    t->s[t->n] = 0;
}

#define ADD(t, s) add_bytes(t, s, sizeof(s) - 1)

static void add_number(Text *t, Number v) {
    char b[24];
    int i = 24;
    int neg = v < 0;
    if (neg) v = -v;
    do b[--i] = '0' + v % 10;
    while (v /= 10);
    if (neg) b[--i] = '-';
    add_bytes(t, b + i, 24 - i);
}

static void add_two_digits(Text *t, int v) {
    char b[2] = {'0' + v / 10, '0' + v % 10};
    add_bytes(t, b, 2);
}

static void add_money(Text *t, Number c) {
    add_number(t, c / 100);
    ADD(t, ".");
    add_two_digits(t, c % 100);
}

static void add_serial(Text *t, int letter, Number n) {
    char c = 64 + letter;
    add_bytes(t, &c, 1);
    add_number(t, n);
    ADD(t, "EE");
}

static void add_month(Text *t, int c) {
    add_number(t, 2005 + (c + 4) / 12);
    ADD(t, "-");
    add_two_digits(t, (c + 4) % 12 + 1);
}

static void add_sheet_month(Text *t, int c) {
    add_two_digits(t, (c + 4) % 12 + 1);
    ADD(t, "/");
    add_number(t, 2005 + (c + 4) / 12);
}

static Number days_of(int y, int m, int d) {
    y -= m <= 2;
    Number era = y / 400;
    unsigned yoe = y - era * 400, doy = (153 * (m + (m > 2 ? -3 : 9)) + 2) / 5 + d - 1,
             doe = yoe * 365 + yoe / 4 - yoe / 100 + doy;
    return era * 146097 + (Number)doe - 719468;
}

/* values */
static struct {
    int r, e;
    Number *v;
} pairs[512];

static int npairs;

static Number *unit(int rate, int ext) {
    for (int i = 0; i < npairs; i++)
        if (pairs[i].r == rate && pairs[i].e == ext) return pairs[i].v;
    Number *v = malloc(361 * sizeof(Number)), start = 1250;
    for (int h = 0; h < 60; h++) {
        __float128 g = 1 + (__float128)(h < 40 ? rate : ext) / 20000;
        Number within[7];
        for (int m = 0; m < 6; m++) within[m] = (Number)floorq((__float128)start * powq(g, (__float128)m / 6) + 0.5Q);
        within[6] = (start * (20000 + (h < 40 ? rate : ext)) * 2 + 20000) / 40000;
        memcpy(v + h * 6, within, 6 * sizeof(Number));
        start = within[6];
        if (h == 39 && start < 2500) start = 2500;
    }
    v[360] = start;
    if (npairs == 512) exit(9);
    pairs[npairs].r = rate;
    pairs[npairs].e = ext;
    pairs[npairs++].v = v;
    return v;
}

static struct { int known, rate, ext; } terms_cache[256];

static int terms(int issued, int *rate, int *ext) {
    int period = issued - issued % 6;
    if (terms_cache[period / 6].known) {
        *rate = terms_cache[period / 6].rate;
        *ext = terms_cache[period / 6].ext;
        return 1;
    }
    BIND(q_rate, period);
    int ok = sqlite3_step(q_rate) == SQLITE_ROW;
    if (ok) *rate = *ext = sqlite3_column_int(q_rate, 0);
    sqlite3_reset(q_rate);
    if (!ok) return 0;
    BIND(q_ext, period);
    if (sqlite3_step(q_ext) == SQLITE_ROW) *ext = sqlite3_column_int(q_ext, 0);
    sqlite3_reset(q_ext);
    terms_cache[period / 6].known = 1;
    terms_cache[period / 6].rate = *rate;
    terms_cache[period / 6].ext = *ext;
    return 1;
}

typedef struct {
    Number price, interest, value;
    int rate, next, final;
    const char *note;
} Row;

static Row row_of(int denom, int issued, int now, int rate, int ext) {
    int age = now - issued;
    Number price = denom * 50;
    if (age < 0) return (Row){0, 0, 0, -1, -1, -1, "NI"};
    Number value = price;
    if (age >= 12) {
        int a = age < 60 ? age - 3 : age;
        if (a > 360) a = 360;
        value = unit(rate, ext)[a] * denom / 25;
    }
    if (age >= 360) return (Row){price, value - price, value, -1, -1, issued + 360, "MA"};
    return (Row){
        price, value - price, value, age >= 240 ? ext : rate, now + 1, issued + 360, age < 12 ? "NE" : age < 60 ? "P5" : ""};
}

/* JSON in: a pull parser over the body */
typedef struct {
    const char *p, *e;
    int bad;
} Cursor;

static void skip_blanks(Cursor *c) {
    while (c->p < c->e && (*c->p == ' ' || *c->p == '\n' || *c->p == '\t' || *c->p == '\r')) c->p++;
}

static int took(Cursor *c, char x) {
    skip_blanks(c);
    if (c->p < c->e && *c->p == x) {
        c->p++;
        return 1;
    }
    return 0;
}

static void take(Cursor *c, char x) {
    if (!took(c, x)) c->bad = 1;
}

static int read_string(Cursor *c, char *out, int cap) {
    skip_blanks(c);
    if (c->p >= c->e || *c->p != '"') {
        c->bad = 1;
        return 0;
    }
    c->p++;
    int n = 0;
    while (c->p < c->e && *c->p != '"') {
        if (*c->p == '\\' || (unsigned char)*c->p < 32 || n + 1 >= cap) {
            c->bad = 1;
            return 0;
        }
        out[n++] = *c->p++;
    }
    if (c->p >= c->e) {
        c->bad = 1;
        return 0;
    }
    c->p++;
    out[n] = 0;
    return n;
}

static Number read_number(Cursor *c) {
    skip_blanks(c);
    Number v = 0;
    int n = 0;
    while (c->p < c->e && *c->p >= '0' && *c->p <= '9' && n < 19) {
        v = v * 10 + *c->p++ - '0';
        n++;
    }
    if (!n) c->bad = 1;
    return v;
}

typedef struct {
    int letter;
    Number n;
} Serial;

static Serial read_serial(Cursor *c) {
    char b[32];
    Serial s = {0, 0};
    int n = read_string(c, b, 32);
    int i = 1;
    if (n < 4 || b[0] < 'A' || b[0] > 'Z') {
        c->bad = 1;
        return s;
    }
    s.letter = b[0] - 64;
    if (b[i] == '-') i++;
    int d = 0;
    for (; b[i] >= '0' && b[i] <= '9' && d < 10; i++, d++) s.n = s.n * 10 + b[i] - '0';
    if (b[i] == '-') i++;
    if (!d || !s.n || strcmp(b + i, "EE")) c->bad = 1;
    return s;
}

static int digits(const char *s, int n, Cursor *c) {
    int v = 0;
    for (int i = 0; i < n; i++) {
        if (s[i] < '0' || s[i] > '9') {
            c->bad = 1;
            return 0;
        }
        v = v * 10 + s[i] - '0';
    }
    return v;
}

static int month_of(const char *s, Cursor *c) {
    if (strlen(s) != 7 || s[4] != '-') {
        c->bad = 1;
        return 0;
    }
    int y = digits(s, 4, c), m = digits(s + 5, 2, c);
    if (m < 1 || m > 12) c->bad = 1;
    return (y - 2005) * 12 + m - 5;
}

static Number day_of(const char *s, Cursor *c, int *month) {
    if (strlen(s) != 10 || s[4] != '-' || s[7] != '-') {
        c->bad = 1;
        return 0;
    }
    int y = digits(s, 4, c), m = digits(s + 5, 2, c), d = digits(s + 8, 2, c);
    if (m < 1 || m > 12 || d < 1 || d > 31) c->bad = 1;
    *month = (y - 2005) * 12 + m - 5;
    return days_of(y, m, d);
}

static int rate_of(const char *s, Cursor *c) {
    int v = 0, i = 0, f = 0;
    for (; s[i] >= '0' && s[i] <= '9' && i < 2; i++) v = v * 10 + s[i] - '0';
    v *= 100;
    if (s[i] == '.') {
        i++;
        if (s[i] >= '0' && s[i] <= '9') {
            f = (s[i++] - '0') * 10;
            if (s[i] >= '0' && s[i] <= '9') f += s[i++] - '0';
        }
    }
    if (s[i] == '%') i++;
    if (s[i]) c->bad = 1;
    return v + f;
}

typedef struct {
    Serial s;
    int denom, issued, owner, coowner;
} Bond;

typedef struct {
    int from, rate, ext;
} Rates;

static struct {
    Number number, desk, day;
    int month, payee, nser, nbond, nrate;
    char day_s[16];
    Serial ser[128];
    Bond bond[512];
    Rates rate[512];
} asked;

static int read_body(const char *p, size_t n) {
    Cursor c = {p, p + n, 0};
    asked.number = asked.desk = asked.payee = 0;
    asked.nser = asked.nbond = asked.nrate = 0;
    asked.day_s[0] = 0;
    take(&c, '{');
    while (!c.bad) {
        char k[16], b[32];
        read_string(&c, k, 16);
        take(&c, ':');
        if (c.bad) break;
        if (!strcmp(k, "number")) asked.number = read_number(&c);
        else if (!strcmp(k, "desk")) asked.desk = read_number(&c);
        else if (!strcmp(k, "payee")) asked.payee = read_number(&c);
        else if (!strcmp(k, "day")) {
            read_string(&c, asked.day_s, 16);
            asked.day = day_of(asked.day_s, &c, &asked.month);
        } else if (!strcmp(k, "serials")) {
            take(&c, '[');
            while (!c.bad) {
                if (asked.nser == 100) {
                    c.bad = 1;
                    break;
                }
                asked.ser[asked.nser++] = read_serial(&c);
                if (!took(&c, ',')) break;
            }
            take(&c, ']');
        } else if (!strcmp(k, "bonds")) {
            take(&c, '[');
            while (!c.bad) {
                if (asked.nbond == 500) {
                    c.bad = 1;
                    break;
                }
                Bond *x = &asked.bond[asked.nbond++];
                *x = (Bond){0};
                take(&c, '{');
                while (!c.bad) {
                    read_string(&c, k, 16);
                    take(&c, ':');
                    if (!strcmp(k, "serial")) x->s = read_serial(&c);
                    else if (!strcmp(k, "denom")) x->denom = read_number(&c);
                    else if (!strcmp(k, "issued")) {
                        read_string(&c, b, 32);
                        x->issued = month_of(b, &c);
                    } else if (!strcmp(k, "owner")) x->owner = read_number(&c);
                    else if (!strcmp(k, "coowner")) x->coowner = read_number(&c);
                    else c.bad = 1;
                    if (!took(&c, ',')) break;
                }
                take(&c, '}');
                if (!took(&c, ',')) break;
            }
            take(&c, ']');
        } else if (!strcmp(k, "rates")) {
            take(&c, '[');
            while (!c.bad) {
                if (asked.nrate == 500) {
                    c.bad = 1;
                    break;
                }
                Rates *x = &asked.rate[asked.nrate++];
                x->ext = -1;
                take(&c, '{');
                while (!c.bad) {
                    read_string(&c, k, 16);
                    take(&c, ':');
                    read_string(&c, b, 32);
                    if (!strcmp(k, "from")) x->from = month_of(b, &c);
                    else if (!strcmp(k, "rate")) x->rate = rate_of(b, &c);
                    else if (!strcmp(k, "extension")) x->ext = rate_of(b, &c);
                    else c.bad = 1;
                    if (!took(&c, ',')) break;
                }
                take(&c, '}');
                if (!took(&c, ',')) break;
            }
            take(&c, ']');
        } else c.bad = 1;
        if (!took(&c, ',')) break;
    }
    take(&c, '}');
    skip_blanks(&c);
    return !c.bad && c.p == c.e && asked.number > 0;
}

static Text act, reply, out;

static void refuse(int code, const char *name) {
    reply.n = 0;
    ADD(&reply, "{\"code\":");
    add_number(&reply, code);
    ADD(&reply, ",\"refused\":\"");
    add_bytes(&reply, name, strlen(name));
    ADD(&reply, "\"}");
}

static void refuse_serial(int code, const char *name, Serial s) {
    refuse(code, name);
    reply.n--;
    ADD(&reply, ",\"serial\":\"");
    add_serial(&reply, s.letter, s.n);
    ADD(&reply, "\"}");
}

static struct {
    int known;
    Number day, last, tickets, first;
} desk_cache;

static void read_desk(Number *day, Number *last_day) {
    if (sqlite3_step(q_desk) != SQLITE_ROW) fail("desk");
    *day = sqlite3_column_type(q_desk, 1) == SQLITE_NULL ? -1 : sqlite3_column_int64(q_desk, 1);
    *last_day = sqlite3_column_type(q_desk, 2) == SQLITE_NULL ? -1 : sqlite3_column_int64(q_desk, 2);
    sqlite3_reset(q_desk);
}

static void redeem(void) {
    Number day, last_day, last, first;
    if (desk_cache.known) {
        day = desk_cache.day;
        last = desk_cache.tickets;
        first = desk_cache.first;
    } else {
        read_desk(&day, &last_day);
        last = sqlite3_step(q_last) == SQLITE_ROW ? sqlite3_column_int64(q_last, 0) : 0;
        sqlite3_reset(q_last);
        BIND(q_first, asked.day);
        first = sqlite3_step(q_first) == SQLITE_ROW ? sqlite3_column_int64(q_first, 0) : 0;
        sqlite3_reset(q_first);
        desk_cache.day = day;
        desk_cache.tickets = last;
        desk_cache.first = first;
        desk_cache.known = 1;
    }
    if (!asked.nser) {
        refuse(11, "Empty");
        return;
    }
    if (day < 0) {
        refuse(42, "NoDayOpen");
        return;
    }
    if (day != asked.day) {
        refuse(43, "NotOpenDay");
        return;
    }
    if (first && last + 1 - first >= 1000) {
        refuse(44, "DayFull");
        return;
    }
    for (int i = 1; i < asked.nser; i++)
        for (int k = 0; k < i; k++)
            if (asked.ser[k].n == asked.ser[i].n && asked.ser[k].letter == asked.ser[i].letter) {
                refuse_serial(13, "Twice", asked.ser[i]);
                return;
            }

    struct {
        int denom, issued;
        Number cents;
    } f[100];

    Number total = 0;
    for (int i = 0; i < asked.nser; i++) {
        BIND(q_bond, asked.ser[i].letter, asked.ser[i].n);
        if (sqlite3_step(q_bond) != SQLITE_ROW) {
            sqlite3_reset(q_bond);
            refuse_serial(50, "UnknownSerial", asked.ser[i]);
            return;
        }
        f[i].denom = sqlite3_column_int(q_bond, 0);
        f[i].issued = sqlite3_column_int(q_bond, 1);
        int owner = sqlite3_column_int(q_bond, 2),
            co = sqlite3_column_type(q_bond, 3) == SQLITE_NULL ? -1 : sqlite3_column_int(q_bond, 3);
        Number t = sqlite3_column_type(q_bond, 4) == SQLITE_NULL ? 0 : sqlite3_column_int64(q_bond, 4);
        sqlite3_reset(q_bond);
        if (asked.payee != owner && asked.payee != co) {
            refuse_serial(51, "NotOwner", asked.ser[i]);
            return;
        }
        if (t) {
            refuse_serial(52, "AlreadyPaid", asked.ser[i]);
            reply.n--;
            ADD(&reply, ",\"ticket\":");
            add_number(&reply, t);
            ADD(&reply, "}");
            return;
        }
        if (asked.month - f[i].issued < 12) {
            refuse_serial(53, "NotEligible", asked.ser[i]);
            return;
        }
    }
    for (int i = 0; i < asked.nser; i++) {
        int r, e;
        if (!terms(f[i].issued, &r, &e)) {
            refuse(21, "NoRates");
            return;
        }
        f[i].cents = row_of(f[i].denom, f[i].issued, asked.month, r, e).value;
        total += f[i].cents;
    }
    Number ticket = last + 1;
    BIND(i_ticket, ticket, asked.day, asked.payee, asked.nser, total);
    finish(i_ticket);
    int k = 0;
    for (; k + 4 <= asked.nser; k += 4) {
        BIND(i_four, ticket, k + 1, asked.ser[k].letter, asked.ser[k].n, f[k].cents, k + 2, asked.ser[k + 1].letter,
             asked.ser[k + 1].n, f[k + 1].cents, k + 3, asked.ser[k + 2].letter, asked.ser[k + 2].n, f[k + 2].cents, k + 4,
             asked.ser[k + 3].letter, asked.ser[k + 3].n, f[k + 3].cents);
        finish(i_four);
    }
    for (; k < asked.nser; k++) {
        BIND(i_paid, ticket, k + 1, asked.ser[k].letter, asked.ser[k].n, f[k].cents);
        finish(i_paid);
    }
    for (k = 0; k < asked.nser; k++) {
        BIND(mark, asked.ser[k].letter, asked.ser[k].n, ticket);
        finish(mark);
    }
    desk_cache.tickets = ticket;
    if (!first) desk_cache.first = ticket;
    reply.n = 0;
    ADD(&reply, "{\"day\":\"");
    add_bytes(&reply, asked.day_s, 10);
    ADD(&reply, "\",\"lines\":[");
    for (k = 0; k < asked.nser; k++) {
        if (k) ADD(&reply, ",");
        ADD(&reply, "{\"paid\":\"");
        add_money(&reply, f[k].cents);
        ADD(&reply, "\",\"serial\":\"");
        add_serial(&reply, asked.ser[k].letter, asked.ser[k].n);
        ADD(&reply, "\"}");
    }
    ADD(&reply, "],\"payee\":");
    add_number(&reply, asked.payee);
    ADD(&reply, ",\"ticket\":");
    add_number(&reply, ticket);
    ADD(&reply, ",\"total\":\"");
    add_money(&reply, total);
    ADD(&reply, "\"}");
}

static void add_bonds(void) {
    if (!asked.nbond) {
        refuse(11, "Empty");
        return;
    }
    Number fresh = 0, same = 0;
    for (int i = 0; i < asked.nbond; i++) {
        Bond *x = &asked.bond[i];
        int r, e;
        if (!terms(x->issued, &r, &e)) {
            refuse(21, "NoRates");
            return;
        }
        BIND(q_bond, x->s.letter, x->s.n);
        if (sqlite3_step(q_bond) == SQLITE_ROW) {
            int co = sqlite3_column_type(q_bond, 3) == SQLITE_NULL ? 0 : sqlite3_column_int(q_bond, 3);
            int eq = x->denom == sqlite3_column_int(q_bond, 0) && x->issued == sqlite3_column_int(q_bond, 1) &&
                     x->owner == sqlite3_column_int(q_bond, 2) && x->coowner == co;
            sqlite3_reset(q_bond);
            if (!eq) {
                refuse_serial(31, "BondDiffers", x->s);
                return;
            }
            x->denom = 0;
            same++;
        } else {
            sqlite3_reset(q_bond);
            fresh++;
        }
    }
    for (int i = 0; i < asked.nbond; i++) {
        Bond *x = &asked.bond[i];
        if (!x->denom) continue;
        BIND(i_bond, x->s.letter, x->s.n, x->denom, x->issued, x->owner);
        if (x->coowner) sqlite3_bind_int64(i_bond, 6, x->coowner);
        else sqlite3_bind_null(i_bond, 6);
        finish(i_bond);
    }
    reply.n = 0;
    ADD(&reply, "{\"new\":");
    add_number(&reply, fresh);
    ADD(&reply, ",\"same\":");
    add_number(&reply, same);
    ADD(&reply, "}");
    desk_cache.known = 0;
}

static void add_rates(void) {
    Number fresh = 0, same = 0;
    for (int i = 0; i < asked.nrate; i++) {
        Rates *x = &asked.rate[i];
        BIND(q_rate, x->from);
        int there = sqlite3_step(q_rate) == SQLITE_ROW;
        sqlite3_reset(q_rate);
        if (there) {
            same++;
            continue;
        }
        fresh++;
        BIND(i_rate, x->from, x->rate);
        finish(i_rate);
        if (x->ext >= 0 && x->ext != x->rate) {
            BIND(i_ext, x->from, x->ext);
            finish(i_ext);
        }
    }
    reply.n = 0;
    ADD(&reply, "{\"new\":");
    add_number(&reply, fresh);
    ADD(&reply, ",\"same\":");
    add_number(&reply, same);
    ADD(&reply, "}");
    memset(terms_cache, 0, sizeof terms_cache);
    desk_cache.known = 0;
}

static void open_day(void) {
    Number day, last;
    read_desk(&day, &last);
    if (day >= 0) {
        refuse(40, "DayOpen");
        return;
    }
    BIND(u_day, asked.day, last);
    if (last < 0) sqlite3_bind_null(u_day, 2);
    finish(u_day);
    reply.n = 0;
    ADD(&reply, "{\"opened\":\"");
    add_bytes(&reply, asked.day_s, 10);
    ADD(&reply, "\"}");
    desk_cache.known = 0;
}

static void close_day(void) {
    Number day, last, n = 0, b = 0, s = 0;
    read_desk(&day, &last);
    if (day != asked.day) {
        refuse(43, "NotOpenDay");
        return;
    }
    BIND(q_daysum, asked.day);
    while (sqlite3_step(q_daysum) == SQLITE_ROW) {
        n++;
        b += sqlite3_column_int64(q_daysum, 1);
        s += sqlite3_column_int64(q_daysum, 2);
    }
    sqlite3_reset(q_daysum);
    BIND(i_batch, asked.day, n, b, s);
    finish(i_batch);
    sqlite3_bind_null(u_day, 1);
    sqlite3_bind_int64(u_day, 2, asked.day);
    finish(u_day);
    reply.n = 0;
    ADD(&reply, "{\"bonds\":");
    add_number(&reply, b);
    ADD(&reply, ",\"day\":\"");
    add_bytes(&reply, asked.day_s, 10);
    ADD(&reply, "\",\"tickets\":");
    add_number(&reply, n);
    ADD(&reply, ",\"total\":\"");
    add_money(&reply, s);
    ADD(&reply, "\"}");
    desk_cache.known = 0;
}

static void canonical(int kind) {
    act.n = 0;
    if (kind == 0) {
        ADD(&act, "{\"act\":\"redeem\",\"day\":\"");
        add_bytes(&act, asked.day_s, 10);
        ADD(&act, "\",\"payee\":");
        add_number(&act, asked.payee);
        ADD(&act, ",\"serials\":[");
        for (int i = 0; i < asked.nser; i++) {
            if (i) ADD(&act, ",");
            ADD(&act, "\"");
            add_serial(&act, asked.ser[i].letter, asked.ser[i].n);
            ADD(&act, "\"");
        }
        ADD(&act, "]}");
    } else if (kind == 1) {
        ADD(&act, "{\"act\":\"bonds\",\"bonds\":[");
        for (int i = 0; i < asked.nbond; i++) {
            Bond *x = &asked.bond[i];
            if (i) ADD(&act, ",");
            ADD(&act, "{");
            if (x->coowner) {
                ADD(&act, "\"coowner\":");
                add_number(&act, x->coowner);
                ADD(&act, ",");
            }
            ADD(&act, "\"denom\":");
            add_number(&act, x->denom);
            ADD(&act, ",\"issued\":\"");
            add_month(&act, x->issued);
            ADD(&act, "\",\"owner\":");
            add_number(&act, x->owner);
            ADD(&act, ",\"serial\":\"");
            add_serial(&act, x->s.letter, x->s.n);
            ADD(&act, "\"}");
        }
        ADD(&act, "]}");
    } else if (kind == 2) {
        ADD(&act, "{\"act\":\"rates\",\"rates\":[");
        for (int i = 0; i < asked.nrate; i++) {
            Rates *x = &asked.rate[i];
            if (i) ADD(&act, ",");
            ADD(&act, "{");
            if (x->ext >= 0 && x->ext != x->rate) {
                ADD(&act, "\"extension\":\"");
                add_money(&act, x->ext);
                ADD(&act, "%\",");
            }
            ADD(&act, "\"from\":\"");
            add_month(&act, x->from);
            ADD(&act, "\",\"rate\":\"");
            add_money(&act, x->rate);
            ADD(&act, "%\"}");
        }
        ADD(&act, "]}");
    } else {
        if (kind == 3) ADD(&act, "{\"act\":\"open\",\"day\":\"");
        else ADD(&act, "{\"act\":\"close\",\"day\":\"");
        add_bytes(&act, asked.day_s, 10);
        ADD(&act, "\"}");
    }
}

static void deliver(int kind) {
    canonical(kind);
    finish(q_begin);
    BIND(q_answer, asked.desk, asked.number);
    if (sqlite3_step(q_answer) == SQLITE_ROW) {
        int n = sqlite3_column_bytes(q_answer, 0);
        if (n != (int)act.n || memcmp(sqlite3_column_text(q_answer, 0), act.s, n)) refuse(10, "NumberReused");
        else {
            reply.n = 0;
            const char *r = (const char *)sqlite3_column_text(q_answer, 1);
            add_bytes(&reply, r, sqlite3_column_bytes(q_answer, 1));
        }
        sqlite3_reset(q_answer);
        finish(q_rollback);
        return;
    }
    sqlite3_reset(q_answer);
    if (kind == 0) redeem();
    else if (kind == 1) add_bonds();
    else if (kind == 2) add_rates();
    else if (kind == 3) open_day();
    else close_day();
    BIND(i_answer, asked.desk, asked.number);
    sqlite3_bind_text(i_answer, 3, act.s, act.n, SQLITE_STATIC);
    sqlite3_bind_text(i_answer, 4, reply.s, reply.n, SQLITE_STATIC);
    finish(i_answer);
    finish(q_commit);
}

static void right_aligned(Text *t, const char *s, int n, int w) {
    while (w-- > n) ADD(t, " ");
    add_bytes(t, s, n);
}

static void left_aligned(Text *t, const char *s, int n, int w) {
    add_bytes(t, s, n);
    while (w-- > n) ADD(t, " ");
}

static Text cell;
#define CELL(f, w, side)                                                                                                         \
    do {                                                                                                                         \
        cell.n = 0;                                                                                                              \
        f;                                                                                                                       \
        side(o, cell.s ? cell.s : "", cell.n, w);                                                                                \
        ADD(o, " ");                                                                                                             \
    } while (0)

static void inventory(Text *o, Number customer, int now) {
    Number sp = 0, si = 0, sv = 0;

    struct {
        int known, rate, ext;
    } per[256];

    memset(per, 0, sizeof per);
    ADD(o, "Serial        Series  Denom Issued  Next    Final          Price       Interest   Rate          Value Note\n");
    make_room(&cell, 64);
    finish(q_begin);
    BIND(q_owner, customer);
    while (sqlite3_step(q_owner) == SQLITE_ROW) {
        int letter = sqlite3_column_int(q_owner, 0);
        Number n = sqlite3_column_int64(q_owner, 1);
        int denom = sqlite3_column_int(q_owner, 2), issued = sqlite3_column_int(q_owner, 3);
        int p = issued / 6;
        if (!per[p].known) {
            if (!terms(issued, &per[p].rate, &per[p].ext)) exit(3);
            per[p].known = 1;
        }
        Row r = row_of(denom, issued, now, per[p].rate, per[p].ext);
        sp += r.price;
        si += r.interest;
        sv += r.value;
        CELL(add_serial(&cell, letter, n), 13, left_aligned);
        CELL(ADD(&cell, "EE"), 6, left_aligned);
        CELL(add_number(&cell, denom), 6, right_aligned);
        CELL(add_sheet_month(&cell, issued), 7, left_aligned);
        CELL(if (r.next >= 0) add_sheet_month(&cell, r.next), 7, left_aligned);
        CELL(if (r.final >= 0) add_sheet_month(&cell, r.final), 7, left_aligned);
        CELL(add_money(&cell, r.price), 12, right_aligned);
        CELL(add_money(&cell, r.interest), 14, right_aligned);
        CELL(
            if (r.rate >= 0) {
                add_money(&cell, r.rate);
                ADD(&cell, "%");
            },
            6, right_aligned);
        CELL(add_money(&cell, r.value), 14, right_aligned);
        if (*r.note) add_bytes(o, r.note, strlen(r.note));
        else o->n--;
        ADD(o, "\n");
    }
    sqlite3_reset(q_owner);
    finish(q_rollback);
    CELL(ADD(&cell, "Total"), 13, left_aligned);
    CELL(, 6, left_aligned);
    CELL(, 6, right_aligned);
    CELL(, 7, left_aligned);
    CELL(, 7, left_aligned);
    CELL(, 7, left_aligned);
    CELL(add_money(&cell, sp), 12, right_aligned);
    CELL(add_money(&cell, si), 14, right_aligned);
    CELL(, 6, right_aligned);
    CELL(add_money(&cell, sv), 14, right_aligned);
    o->n--;
    ADD(o, "\n");
}

static int value(Text *o, const char *path) {
    int denom;
    char a[16], b[16];
    Cursor c = {0, 0, 0};
    if (sscanf(path, "%d/%15[^/]/%15[^/ ]", &denom, a, b) != 3) return 0;
    int issued = month_of(a, &c), now = month_of(b, &c), r, e;
    if (c.bad) return 0;
    finish(q_begin);
    int ok = terms(issued, &r, &e);
    finish(q_rollback);
    if (!ok) return 0;
    Row x = row_of(denom, issued, now, r, e);
    ADD(o, "{\"denom\":");
    add_number(o, denom);
    ADD(o, ",\"final\":\"");
    if (x.final >= 0) add_month(o, x.final);
    ADD(o, "\",\"interest\":\"");
    add_money(o, x.interest);
    ADD(o, "\",\"issued\":\"");
    add_month(o, issued);
    ADD(o, "\",\"next\":\"");
    if (x.next >= 0) add_month(o, x.next);
    ADD(o, "\",\"note\":\"");
    add_bytes(o, x.note, strlen(x.note));
    ADD(o, "\",\"price\":\"");
    add_money(o, x.price);
    ADD(o, "\",\"rate\":\"");
    if (x.rate >= 0) {
        add_money(o, x.rate);
        ADD(o, "%");
    }
    ADD(o, "\",\"value\":\"");
    add_money(o, x.value);
    ADD(o, "\"}");
    return 1;
}

static Text body;

static void answer(const char *head, const char *b, size_t n, int close) {
    const char *kind = "application/json", *status = "200 OK";
    body.n = 0;
    make_room(&body, 1);
    if (!strncmp(head, "POST ", 5)) {
        const char *p = head + 5;
        int k = !strncmp(p, "/redeem ", 8)       ? 0
                : !strncmp(p, "/bonds ", 7)      ? 1
                : !strncmp(p, "/rates ", 7)      ? 2
                : !strncmp(p, "/day/open ", 10)  ? 3
                : !strncmp(p, "/day/close ", 11) ? 4
                                                 : -1;
        if (k < 0) {
            status = "404 Not Found";
            ADD(&body, "{}");
        } else if (!read_body(b, n)) {
            status = "400 Bad Request";
            ADD(&body, "{\"code\":65}");
        } else {
            deliver(k);
            add_bytes(&body, reply.s, reply.n);
            if (!strncmp(reply.s, "{\"code\"", 7)) status = "409 Conflict";
        }
    } else if (!strncmp(head, "GET /value/", 11)) {
        if (!value(&body, head + 11)) status = "404 Not Found";
    } else if (!strncmp(head, "GET /inventory/", 15)) {
        Number cust;
        char m[16];
        Cursor c = {0, 0, 0};
        if (sscanf(head + 15, "%lld/%15[^/ ]", &cust, m) != 2) status = "404 Not Found";
        else {
            kind = "text/plain";
            inventory(&body, cust, month_of(m, &c));
        }
    } else {
        status = "404 Not Found";
        ADD(&body, "{}");
    }
    ADD(&out, "HTTP/1.1 ");
    add_bytes(&out, status, strlen(status));
    ADD(&out, "\r\nContent-Type: ");
    add_bytes(&out, kind, strlen(kind));
    ADD(&out, "\r\nContent-Length: ");
    add_number(&out, body.n);
    if (close) ADD(&out, "\r\nConnection: close");
    ADD(&out, "\r\n\r\n");
    add_bytes(&out, body.s, body.n);
}

static int flush(int fd) {
    for (size_t at = 0; at < out.n;) {
        ssize_t k = write(fd, out.s + at, out.n - at);
        if (k <= 0) return 0;
        at += k;
    }
    out.n = 0;
    return 1;
}

static char in[1 << 21];

static void connection(int rd, int wr) {
    size_t have = 0;
    for (;;) {
        char *end;
        while (!(end = have ? memmem(in, have, "\r\n\r\n", 4) : 0)) {
            if (have > 16384) return;
            ssize_t k = read(rd, in + have, 65536);
            if (k <= 0) return;
            have += k;
        }
        size_t head = end - in + 4, len = 0;
        int close = 0;
        char *l = in;
        while ((l = memchr(l, '\n', head - (l - in))) && ++l < in + head - 2) {
            if (!strncasecmp(l, "content-length:", 15)) len = strtoul(l + 15, 0, 10);
            else if (!strncasecmp(l, "connection: close", 17)) close = 1;
        }
        if (len > 1048576) return;
        if (memmem(in, head, "HTTP/1.0\r\n", 10)) close = 1;
        while (have < head + len) {
            ssize_t k = read(rd, in + have, sizeof in - have);
            if (k <= 0) return;
            have += k;
        }
        answer(in, in + head, len, close);
        if (!flush(wr) || close) return;
        memmove(in, in + head + len, have - head - len);
        have -= head + len;
    }
}

static void open_store(const char *path, const char *variant) {
    int is_best = !strcmp(variant, "best");
    if (!is_best && strcmp(variant, "default")) exit(2);
    if (sqlite3_open(path, &db)) fail("open");
    if (is_best) run("PRAGMA page_size = 1024; PRAGMA locking_mode = EXCLUSIVE");
    run("PRAGMA journal_mode = WAL; PRAGMA synchronous = FULL");
    run("BEGIN;"
        "CREATE TABLE IF NOT EXISTS desk (id INTEGER NOT NULL PRIMARY KEY, version INTEGER NOT NULL, day INTEGER, last_day "
        "INTEGER) STRICT;"
        "CREATE TABLE IF NOT EXISTS rates (period INTEGER NOT NULL PRIMARY KEY, rate INTEGER NOT NULL) STRICT;"
        "CREATE TABLE IF NOT EXISTS bonds (letter INTEGER NOT NULL, number INTEGER NOT NULL, denom INTEGER NOT NULL, issued "
        "INTEGER NOT NULL, owner INTEGER NOT NULL, coowner INTEGER, ticket INTEGER, PRIMARY KEY (letter, number)) STRICT;"
        "CREATE INDEX IF NOT EXISTS bonds_owner ON bonds (owner, letter, number);"
        "CREATE TABLE IF NOT EXISTS tickets (ticket INTEGER NOT NULL PRIMARY KEY, day INTEGER NOT NULL, payee INTEGER NOT NULL, "
        "bonds INTEGER NOT NULL, total INTEGER NOT NULL) STRICT;"
        "CREATE INDEX IF NOT EXISTS tickets_day ON tickets (day, ticket);"
        "CREATE TABLE IF NOT EXISTS paid (ticket INTEGER NOT NULL, place INTEGER NOT NULL, letter INTEGER NOT NULL, number "
        "INTEGER NOT NULL, cents INTEGER NOT NULL, PRIMARY KEY (ticket, place), UNIQUE (letter, number)) STRICT;"
        "CREATE TABLE IF NOT EXISTS batches (day INTEGER NOT NULL PRIMARY KEY, tickets INTEGER NOT NULL, bonds INTEGER NOT NULL, "
        "total INTEGER NOT NULL) STRICT;"
        "CREATE TABLE IF NOT EXISTS extensions (period INTEGER NOT NULL PRIMARY KEY, rate INTEGER NOT NULL) STRICT;"
        "CREATE TABLE IF NOT EXISTS answers (desk INTEGER NOT NULL, number INTEGER NOT NULL, act TEXT NOT NULL, reply TEXT NOT "
        "NULL, PRIMARY KEY (desk, number)) STRICT;"
        "INSERT OR IGNORE INTO desk VALUES (1, 2, NULL, NULL); COMMIT");
    q_begin = prepared("BEGIN");
    q_commit = prepared("COMMIT");
    q_rollback = prepared("ROLLBACK");
    q_answer = prepared("SELECT act, reply FROM answers WHERE desk = ?1 AND number = ?2");
    q_desk = prepared("SELECT version, day, last_day FROM desk WHERE id = 1");
    q_bond = prepared("SELECT denom, issued, owner, coowner, ticket FROM bonds WHERE letter = ?1 AND number = ?2");
    q_rate = prepared("SELECT rate FROM rates WHERE period = ?1");
    q_ext = prepared("SELECT rate FROM extensions WHERE period = ?1");
    q_last = prepared("SELECT ticket FROM tickets ORDER BY ticket DESC LIMIT 1");
    q_first = prepared("SELECT ticket FROM tickets WHERE day = ?1 ORDER BY ticket LIMIT 1");
    i_ticket = prepared("INSERT INTO tickets (ticket, day, payee, bonds, total) VALUES (?1, ?2, ?3, ?4, ?5)");
    i_paid = prepared("INSERT INTO paid (ticket, place, letter, number, cents) VALUES (?1, ?2, ?3, ?4, ?5)");
    i_four = prepared("INSERT INTO paid (ticket, place, letter, number, cents) VALUES (?1, ?2, ?3, ?4, ?5), (?1, ?6, ?7, ?8, "
                      "?9), (?1, ?10, ?11, ?12, ?13), (?1, ?14, ?15, ?16, ?17)");
    mark = prepared("UPDATE bonds SET ticket = ?3 WHERE letter = ?1 AND number = ?2");
    i_answer = prepared("INSERT INTO answers (desk, number, act, reply) VALUES (?1, ?2, ?3, ?4)");
    i_bond = prepared("INSERT INTO bonds (letter, number, denom, issued, owner, coowner) VALUES (?1, ?2, ?3, ?4, ?5, ?6) ON "
                      "CONFLICT (letter, number) DO NOTHING");
    i_rate = prepared("INSERT INTO rates (period, rate) VALUES (?1, ?2)");
    i_ext = prepared("INSERT INTO extensions (period, rate) VALUES (?1, ?2)");
    u_day = prepared("UPDATE desk SET day = ?1, last_day = ?2 WHERE id = 1");
    q_daysum = prepared("SELECT ticket, bonds, total FROM tickets WHERE day = ?1 ORDER BY ticket");
    i_batch = prepared("INSERT INTO batches (day, tickets, bonds, total) VALUES (?1, ?2, ?3, ?4)");
    q_owner = prepared("SELECT letter, number, denom, issued, owner, coowner FROM bonds WHERE ticket IS NULL AND owner = ?1 "
                       "ORDER BY letter, number");
}

static void close_store(void) {
    for (sqlite3_stmt *q; (q = sqlite3_next_stmt(db, 0));) sqlite3_finalize(q);
    sqlite3_close(db);
}

int main(int n, char **v) {
    make_room(&act, 4096);
    make_room(&reply, 8192);
    make_room(&out, 65536);
    if (n == 4 && !strcmp(v[1], "apply")) {
        open_store(v[2], v[3]);
        connection(0, 1);
    } else if (n == 5 && !strcmp(v[1], "serve")) {
        open_store(v[2], v[4]);
        int l = socket(AF_INET, SOCK_STREAM, 0), one = 1;
        setsockopt(l, SOL_SOCKET, SO_REUSEADDR, &one, sizeof one);
        struct sockaddr_in a = {.sin_family = AF_INET, .sin_port = htons(atoi(v[3])), .sin_addr.s_addr = htonl(INADDR_LOOPBACK)};
        if (bind(l, (void *)&a, sizeof a) || listen(l, 128)) {
            perror("listen");
            return 3;
        }
        for (;;) {
            int s = accept(l, 0, 0);
            if (s < 0) return 3;
            setsockopt(s, IPPROTO_TCP, TCP_NODELAY, &one, sizeof one);
            connection(s, s);
            shutdown(s, SHUT_WR);
            close(s);
        }
    } else return 2;
    close_store();
    return 0;
}
