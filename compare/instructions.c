/* Calls of the library, to be counted by callgrind: what, how many, radix, base. The floats have random
 * bits with the sign bit clear, the numbers random bits; exponent radix 10, exponent required. A table has
 * 400 windows, each from the lesser of two such floats to the greater. */
#include <stdio.h>
#include <stdlib.h>
#include <string.h>

#include "hornbillrug.h"

static uint64_t random_bits(void) {
    static uint64_t x = 88172645463325252;
    x ^= x << 13;
    x ^= x >> 7;
    x ^= x << 17;
    return x;
}

static double random_float(void) {
    const uint64_t infinity = UINT64_C(0x7ff0000000000000);
    uint64_t bits = random_bits() >> 1;
    if (bits >= infinity) {
        bits = 0;
    }
    double x;
    memcpy(&x, &bits, sizeof x);
    return x;
}

static size_t numbers(const char *what, int count, lexical_format format) {
    uint8_t bytes[4096];
    size_t sum = 0;
    for (int i = 0; i < count; i++) {
        if (strcmp(what, "digits") == 0) {
            sum += lexical_write_integer(random_bits(), format.mantissa_radix, 1, bytes, sizeof bytes).value;
        } else {
            sum += lexical_write_f64(random_float(), format, bytes, sizeof bytes).value;
        }
    }
    return sum;
}

static void fill(uint8_t *table) {
    const uint32_t header[2] = {OUTAGE_MOST_WINDOWS, OUTAGE_LONGEST_TABLE};
    memcpy(table, header, 8);
    for (int i = 0; i < OUTAGE_MOST_WINDOWS; i++) {
        const double x = random_float();
        const double y = random_float();
        memcpy(table + 8 + 8 * i, x < y ? &x : &y, 8);
        memcpy(table + 8 + 8 * (OUTAGE_MOST_WINDOWS + i), x < y ? &y : &x, 8);
    }
}

static size_t tables(const char *what, int count, lexical_format format) {
    static uint8_t table[OUTAGE_LONGEST_TABLE];
    static uint8_t sheet[OUTAGE_LONGEST_SHEET];
    fill(table);
    const size_t length = outage_table_to_sheet(table, sizeof table, format, sheet, sizeof sheet).value;
    size_t sum = 0;
    for (int i = 0; i < count; i++) {
        if (strcmp(what, "to-sheet") == 0) {
            sum += outage_table_to_sheet(table, sizeof table, format, sheet, sizeof sheet).value;
        } else {
            sum += outage_sheet_to_table(sheet, length, format, table, sizeof table).value;
        }
    }
    return sum;
}

int main(int argc, char **argv) {
    if (argc != 5) {
        return 2;
    }
    const int count = atoi(argv[2]);
    const lexical_format format = {
        .required_exponent_notation = true,
        .exponent = 'p',
        .decimal_point = '.',
        .mantissa_radix = (uint32_t)atoi(argv[3]),
        .exponent_base = (uint32_t)atoi(argv[4]),
        .exponent_radix = 10,
        .exponent_width = 1,
    };
    const bool is_table = strncmp(argv[1], "to-", 3) == 0;
    printf("%zu\n", (is_table ? tables : numbers)(argv[1], count, format));
}
