#include "ee_value.h"

#include <stdio.h>

int main(void) { /* a 50-dollar bond of November 2005 at 3.20 % and then an invented 4.00 %, in November 2026 */
    int64_t cents = ee_value_cents(50, 200511, 202611, 320, 400);
    if (cents < 0) return 1;
    printf("%d.%02d\n", (int)(cents / 100), (int)(cents % 100));
    return 0;
}
