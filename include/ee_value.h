/* ee_value.h: what a paper Series EE savings bond pays, to the cent: one that was issued from May 2005 on, at a fixed
 * rate for its first 20 years and a rate of extended maturity for the 10 years after them.
 *
 * Every function is proved: for every combination of arguments it returns, with exactly the answer that the definitions
 * of this repository give (docs/MODEL.md; 31 CFR Part 351). No call allocates memory, keeps anything between calls,
 * writes anything but what its pointer names, or calls the system, so any thread may call any function at any time.
 * This header is written by hand, and tested against the library.
 *
 * dollars    the denomination that is printed on the bond: 50, 75, 100, 200, 500, 1000, 5000 or 10000
 * issued     the month of issue as a number YYYYMM, such as 201005 for May 2010; from 200505 to 209912
 * month      the month that is asked for, likewise; from 200505 to 219912
 * rate       the fixed rate of the bond's issue period, in hundredths of a percent: 350 for 3.50 %; from 0 to 2000
 * extension  the rate of extended maturity, likewise; the fixed rate again if none was announced
 *
 * Amounts are cents. Link with libee_value.a; it needs only memmove of the C library.
 */
#ifndef EE_VALUE_H
#define EE_VALUE_H

#include <stddef.h>
#include <stdint.h>

#ifdef __cplusplus
extern "C" {
#endif

/* The version of this header: 10000 times the first part, 100 times the second, and the third. While the
 * first part is the same, so are the layout of the structs and the meaning of every number. */
#define EE_VALUE_VERSION 10000

/* Statuses. A call reports the first refusal in this order, which is the order of its arguments. */
enum {
    EE_VALUE_DONE = 0,
    EE_VALUE_BAD_DENOMINATION = 1, /* dollars isn't a denomination */
    EE_VALUE_BAD_ISSUE_MONTH = 2,  /* issued isn't a month from 200505 to 209912 */
    EE_VALUE_BAD_MONTH = 3,        /* month isn't a month from 200505 to 219912 */
    EE_VALUE_BAD_RATE = 4,         /* rate is above 2000 */
    EE_VALUE_BAD_EXTENSION = 5,    /* extension is above 2000 */
    EE_VALUE_NOT_ISSUED = 6,       /* ee_value_cents only: month is before issued */
    EE_VALUE_NOT_ELIGIBLE = 7,     /* ee_value_cents only: the bond can't be redeemed below 12 months of age */
    EE_VALUE_UNSETTLED = 8         /* the value is too close to a half cent for 62 binary places. No terms are known that
                                      have such a value: none of the 2,001 equal pairs of rates has one */
};

/* The notes of the Savings Bond Calculator. */
enum {
    EE_VALUE_PLAIN = 0, /* from 60 to 359 months of age */
    EE_VALUE_NI = 1,    /* not issued yet: all columns are 0, and nothing is paid */
    EE_VALUE_NE = 2,    /* not eligible for payment, below 12 months of age: the value is the price, and nothing is paid */
    EE_VALUE_P5 = 3,    /* from 12 to 59 months of age: the last three months of interest are taken off */
    EE_VALUE_MA = 4     /* matured, from 360 months of age on: no more interest */
};

/* The row of a bond in a month. If the status isn't EE_VALUE_DONE, all else is 0. 48 bytes without gaps. */
struct ee_value_answer {
    uint64_t payable_cents;  /* what is paid; 0 under the notes NI and NE */
    uint64_t price_cents;    /* half the denomination; 0 under NI */
    uint64_t interest_cents; /* the value above the price */
    uint64_t value_cents;    /* what the calculator shows as the value: the price and the interest */
    uint32_t status;
    uint32_t note;
    uint32_t next_accrual;   /* YYYYMM, the month in which interest is next added: the month after; 0 under NI and MA */
    uint32_t final_maturity; /* YYYYMM, the month in which interest stops, 30 years after issue; 0 under NI */
};

/* A question of ee_value_rows: the numbers that the other calls take, in their order. 20 bytes without gaps. */
struct ee_value_question {
    uint32_t dollars;
    uint32_t issued;
    uint32_t month;
    uint32_t rate;
    uint32_t extension;
};

/* What the bond pays in a month, in cents; or, below zero, the status of a refusal: -EE_VALUE_NOT_ELIGIBLE and so on. */
int64_t ee_value_cents(uint32_t dollars, uint32_t issued, uint32_t month, uint32_t rate, uint32_t extension);

/* The bond's row in a month. Its payable_cents are what ee_value_cents returns, or 0 if the bond pays nothing yet. */
struct ee_value_answer ee_value_row(uint32_t dollars, uint32_t issued, uint32_t month, uint32_t rate, uint32_t extension);

/* The same row, written to *row, which isn't null; returns its status. For languages without structs as results. */
uint32_t ee_value_row_into(uint32_t dollars, uint32_t issued, uint32_t month, uint32_t rate, uint32_t extension,
                           struct ee_value_answer *row);

/* Answers questions[i] in rows[i], for the lesser of `count` and `places`; other rows stay as they are. Returns how many
 * rows were written. Neither pointer may be null, and the two must not overlap. A refused question has a row with its
 * status; the others are answered. */
size_t ee_value_rows(const struct ee_value_question *questions, size_t count, struct ee_value_answer *rows, size_t places);

/* Writes the text of a status to a buffer of `size` bytes, as much of it as fits, and then a byte 0; other bytes
 * of the buffer stay as they are. Returns the length of the whole text, at most 63. The buffer may not be null; if
 * `size` is 0 it isn't touched. */
size_t ee_value_status_text(uint32_t status, char *buffer, size_t size);

/* Returns the version of the library, to compare with EE_VALUE_VERSION. */
uint32_t ee_value_version(void);

#ifdef __cplusplus
}
#endif

#endif
