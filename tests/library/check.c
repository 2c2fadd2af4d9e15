/* Compares the library with published redemption values, row by row, asks each refusal, each border and lists, and times the calls:
 * check PUBLISHED-VALUES.csv RATES.csv. It is C11, and C++11 too. */
#include "ee_value.h"

#include <stdio.h>
#include <stdlib.h>
#include <string.h>
#include <time.h>

#ifdef __cplusplus
#define HOLDS static_assert
#else
#define HOLDS _Static_assert
#endif

HOLDS(sizeof(struct ee_value_answer) == 48 && offsetof(struct ee_value_answer, status) == 32, "no gaps in a row");
HOLDS(sizeof(struct ee_value_question) == 20 && offsetof(struct ee_value_question, extension) == 16, "no gaps in a question");

static const uint32_t dollars[8] = {50, 75, 100, 200, 500, 1000, 5000, 10000};
static uint32_t rate_from[64], rate_of[64];
static int rates;
static long wrong;

static void expect(int holds, const char *what) {
    if (!holds) {
        wrong++;
        printf("wrong: %s\n", what);
    }
}

static uint32_t rate_at(uint32_t issued) {
    uint32_t rate = 9999;
    for (int k = 0; k < rates; k++)
        if (rate_from[k] <= issued) rate = rate_of[k];
    return rate;
}

static uint32_t months_between(uint32_t from, uint32_t to) {
    return (to / 100 - from / 100) * 12 + to % 100 - from % 100;
}

/* the month so many months after a January */
static uint32_t after(uint32_t january, uint32_t months) {
    return january + months / 12 * 100 + months % 12;
}

static struct ee_value_question question(uint32_t dollars_, uint32_t issued, uint32_t month, uint32_t rate, uint32_t extension) {
    struct ee_value_question asked;
    asked.dollars = dollars_;
    asked.issued = issued;
    asked.month = month;
    asked.rate = rate;
    asked.extension = extension;
    return asked;
}

/* processor time, which other programs don't take part in */
static double seconds(void) {
    return (double)clock() / CLOCKS_PER_SEC;
}

static int is_row(struct ee_value_answer row, uint64_t price, uint64_t value, uint32_t note, uint32_t next, uint32_t last) {
    return row.status == EE_VALUE_DONE && row.payable_cents == value && row.value_cents == value && row.price_cents == price
        && row.interest_cents == value - price && row.note == note && row.next_accrual == next && row.final_maturity == last;
}

/* each published value by each call; no rate of extended maturity is in force at these ages, so it doesn't matter */
static long compare(const char *path) {
    char line[256];
    long rows = 0;
    FILE *file = fopen(path, "r");
    if (!file || !fgets(line, sizeof line, file)) exit(3);
    while (fgets(line, sizeof line, file)) {
        unsigned iy, im, ry, rm, cents;
        if (sscanf(line, "%u-%u,%u-%u,%u", &iy, &im, &ry, &rm, &cents) != 5) exit(3);
        uint32_t issued = 100 * iy + im, month = 100 * ry + rm, rate = rate_at(issued);
        uint32_t age = months_between(issued, month), next = rm == 12 ? 100 * (ry + 1) + 1 : month + 1;
        for (int k = 0; k < 8; k++) {
            uint64_t units = dollars[k] / 25, value = units * cents, price = 50 * (uint64_t)dollars[k];
            uint32_t extension = (uint32_t)(rows % 2001), note = age < 60 ? EE_VALUE_P5 : EE_VALUE_PLAIN;
            struct ee_value_answer row = ee_value_row(dollars[k], issued, month, rate, extension), again, listed;
            struct ee_value_question asked = question(dollars[k], issued, month, rate, extension);
            memset(&again, 0xaa, sizeof again);
            memset(&listed, 0xaa, sizeof listed);
            int well = ee_value_cents(dollars[k], issued, month, rate, extension) == (int64_t)value
                && ee_value_row_into(dollars[k], issued, month, rate, extension, &again) == EE_VALUE_DONE
                && ee_value_rows(&asked, 1, &listed, 1) == 1 && memcmp(&row, &again, sizeof row) == 0
                && memcmp(&row, &listed, sizeof row) == 0 && is_row(row, price, value, note, next, issued + 3000);
            if (!well && wrong++ < 10) printf("differs: %u dollars, %s", (unsigned)dollars[k], line);
        }
        rows++;
    }
    fclose(file);
    return rows;
}

static int64_t cents(uint32_t dollars_, uint32_t issued, uint32_t month, uint32_t rate, uint32_t extension) {
    return ee_value_cents(dollars_, issued, month, rate, extension);
}

/* each field at its borders and beyond */
static void borders(void) {
    uint32_t k;
    for (k = 0; k <= 10001; k++) {
        int is_one = k == 50 || k == 75 || k == 100 || k == 200 || k == 500 || k == 1000 || k == 5000 || k == 10000;
        expect((cents(k, 201005, 201505, 350, 350) == -EE_VALUE_BAD_DENOMINATION) == !is_one, "denominations");
    }
    for (k = 200400; k <= 220101; k++) {
        int is_month = k % 100 >= 1 && k % 100 <= 12;
        int64_t early = is_month && k >= 200505 && k <= 209912 ? -EE_VALUE_NOT_ISSUED : -EE_VALUE_BAD_ISSUE_MONTH;
        if (k == 200505) early = -EE_VALUE_NOT_ELIGIBLE;
        expect(cents(50, k, 200505, 350, 350) == early, "months of issue");
        int good = is_month && k >= 200505 && k <= 219912;
        expect((cents(50, 200505, k, 350, 350) == -EE_VALUE_BAD_MONTH) == !good, "months");
    }
    for (k = 0; k <= 70000; k++) {
        expect((cents(50, 201005, 201505, k, 0) == -EE_VALUE_BAD_RATE) == (k > 2000), "rates");
        expect((cents(50, 201005, 201505, 0, k) == -EE_VALUE_BAD_EXTENSION) == (k > 2000), "extensions");
    }
    for (k = 0; k < 5; k++) {
        static const uint32_t beyond[5] = {UINT32_MAX, 0x80000000u, 0x7fffffffu, 65536u * 201 + 5, 0x10000u};
        uint32_t n = beyond[k];
        expect(cents(n, 201005, 201505, 350, 350) == -EE_VALUE_BAD_DENOMINATION, "dollars beyond");
        expect(cents(50, n, 201505, 350, 350) == -EE_VALUE_BAD_ISSUE_MONTH, "issue months beyond");
        expect(cents(50, 201005, n, 350, 350) == -EE_VALUE_BAD_MONTH, "months beyond");
        expect(cents(50, 201005, 201505, n, 350) == -EE_VALUE_BAD_RATE, "rates beyond");
        expect(cents(50, 201005, 201505, 350, n) == -EE_VALUE_BAD_EXTENSION, "extensions beyond");
    }
    /* the first refusal is told */
    expect(cents(1, 1, 1, 9999, 9999) == -EE_VALUE_BAD_DENOMINATION, "all wrong");
    expect(cents(50, 1, 1, 9999, 9999) == -EE_VALUE_BAD_ISSUE_MONTH, "all but the first wrong");
    expect(cents(50, 201005, 1, 9999, 9999) == -EE_VALUE_BAD_MONTH, "three wrong");
    expect(cents(50, 201005, 201004, 9999, 9999) == -EE_VALUE_BAD_RATE, "rates and age wrong");
    expect(cents(50, 201005, 201004, 350, 9999) == -EE_VALUE_BAD_EXTENSION, "extension and age wrong");
}

static void refusals(void) {
    struct ee_value_answer row, zero;
    memset(&zero, 0, sizeof zero);
    expect(cents(50, 201005, 201004, 350, 350) == -EE_VALUE_NOT_ISSUED, "before issue");
    expect(cents(50, 201005, 201104, 350, 350) == -EE_VALUE_NOT_ELIGIBLE, "11 months");
    expect(cents(50, 201005, 201105, 350, 350) == 2566, "12 months");
    expect(cents(50, 201005, 201505, 350, 350) == 2974, "29.74 in May 2015");
    expect(cents(50, 201005, 203011, 340, 400) == 5100, "51.00 after half a year of extended maturity at 4.00 %");
    row = ee_value_row(50, 201005, 201004, 350, 350);
    zero.note = EE_VALUE_NI;
    expect(memcmp(&row, &zero, sizeof row) == 0, "row before issue");
    row = ee_value_row(50, 201005, 201104, 350, 350);
    expect(row.status == 0 && row.note == EE_VALUE_NE && row.payable_cents == 0 && row.value_cents == 2500
        && row.price_cents == 2500 && row.interest_cents == 0 && row.next_accrual == 201105
        && row.final_maturity == 204005, "row at 11 months");
    row = ee_value_row(10000, 209912, 219912, 2000, 2000);
    expect(is_row(row, 500000, 400u * 380617u, EE_VALUE_MA, 0, 212912), "matured row at 20 percent");
    row = ee_value_row(60, 1, 2, 3, 4);
    zero.note = 0;
    zero.status = EE_VALUE_BAD_DENOMINATION;
    expect(memcmp(&row, &zero, sizeof row) == 0, "refused row");
    expect(ee_value_version() == EE_VALUE_VERSION, "version");
}

static void texts(void) {
    for (uint32_t k = 0; k < 11; k++) {
        char text[64], cut[8];
        memset(text, 'x', sizeof text);
        memset(cut, 'x', sizeof cut);
        size_t whole = ee_value_status_text(k, text, sizeof text);
        expect(whole < sizeof text && strlen(text) == whole, "text");
        expect(ee_value_status_text(k, cut, 5) == whole && memcmp(cut, text, 4) == 0 && cut[4] == 0 && cut[5] == 'x', "cut text");
        expect(ee_value_status_text(k, cut, 0) == whole && cut[0] == text[0], "no room");
        printf("  %u %s\n", (unsigned)k, text);
    }
}

enum { MANY = 5000 };
static struct ee_value_question questions[MANY];
static struct ee_value_answer answers[MANY + 1];

static void lists(void) {
    uint32_t seed = 7;
    for (int k = 0; k < MANY; k++) {
        seed = seed * 1664525 + 1013904223;
        uint32_t at = 12 * 2005 + 4 + (seed >> 16) % 400, on = at + (seed >> 8) % 420;
        questions[k] = question(dollars[seed >> 29], 100 * (at / 12) + at % 12 + 1, 100 * (on / 12) + on % 12 + 1,
            (seed >> 4) % 2010, (seed >> 12) % 2010);
    }
    memset(answers, 0xaa, sizeof answers);
    expect(ee_value_rows(questions, MANY, answers, 3) == 3, "three places");
    expect(answers[3].value_cents == 0xaaaaaaaaaaaaaaaa, "a place behind");
    expect(ee_value_rows(questions, MANY, answers, MANY + 1) == MANY, "all rows");
    expect(answers[MANY].value_cents == 0xaaaaaaaaaaaaaaaa, "a place behind all");
    expect(ee_value_rows(questions, 0, answers, MANY) == 0, "no question");
    for (int k = 0; k < MANY; k++) {
        struct ee_value_question q = questions[k];
        struct ee_value_answer row = ee_value_row(q.dollars, q.issued, q.month, q.rate, q.extension);
        expect(memcmp(&row, &answers[k], sizeof row) == 0, "a row of a list");
    }
}

static void times(void) {
    enum { SPAN = 348 };
    uint64_t sum = 0;
    long calls = 0;
    struct ee_value_answer out;
    double begun = seconds();
    for (uint32_t rate = 0; rate <= 2000; rate += 4)
        for (uint32_t m = 12; m < 12 + SPAN; m++, calls++) sum += (uint64_t)cents(50, 201001, after(201001, m), rate, 2000 - rate);
    double one = (seconds() - begun) / (double)calls;
    begun = seconds();
    for (uint32_t rate = 0; rate <= 2000; rate += 4)
        for (uint32_t m = 12; m < 12 + SPAN; m++) sum += ee_value_row(50, 201001, after(201001, m), rate, 2000 - rate).value_cents;
    double row = (seconds() - begun) / (double)calls;
    begun = seconds();
    for (uint32_t rate = 0; rate <= 2000; rate += 4)
        for (uint32_t m = 12; m < 12 + SPAN; m++) {
            ee_value_row_into(50, 201001, after(201001, m), rate, 2000 - rate, &out);
            sum += out.value_cents;
        }
    double into = (seconds() - begun) / (double)calls;
    begun = seconds();
    for (int k = 0; k < 20; k++) ee_value_rows(questions, MANY, answers, MANY);
    double listed = (seconds() - begun) / (20 * MANY);
    begun = seconds();
    for (uint32_t k = 0; k < 10000000; k++) sum += (uint64_t)cents(60, k, 201505, 350, 350);
    double refused = (seconds() - begun) / 1e7;
    printf("%ld calls of each, in nanoseconds (calls a second): cents %.0f (%.0f), row %.0f (%.0f), row_into %.0f (%.0f); a row of a list %.0f (%.0f); "
        "refused %.1f (%.0f); sum %llu\n", calls, one * 1e9, 1 / one, row * 1e9, 1 / row, into * 1e9, 1 / into, listed * 1e9, 1 / listed,
        refused * 1e9, 1 / refused, (unsigned long long)sum);
}

int main(int count, char **words) {
    if (count < 3) return 2;
    char line[64];
    FILE *file = fopen(words[2], "r");
    if (!file || !fgets(line, sizeof line, file)) return 3;
    unsigned year, month, whole, part;
    while (rates < 64 && fscanf(file, "%u-%u,%u.%u", &year, &month, &whole, &part) == 4) {
        rate_from[rates] = 100 * year + month;
        rate_of[rates++] = 100 * whole + part;
    }
    fclose(file);
    refusals();
    borders();
    texts();
    long rows = compare(words[1]);
    lists();
    printf("compared %ld published values at 8 denominations by 4 functions, refusals, borders, texts and lists: %ld wrong\n", rows, wrong);
    if (count > 3) times();
    return wrong != 0;
}
