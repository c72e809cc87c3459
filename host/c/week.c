/* A table of two windows through the week: 16/2 on Tuesday, 32/32 on Wednesday, 2/2 on Thursday, and
 * back into a table on Friday, which goes through the archive. Then one number along the same way, as a
 * chain. */
#include <inttypes.h>
#include <stdio.h>
#include <stdlib.h>
#include <string.h>

#include "hornbillrug.h"

static lexical_format format(uint32_t radix, uint32_t base) {
    return (lexical_format){
        .required_exponent_notation = true,
        .exponent = 'p',
        .decimal_point = '.',
        .mantissa_radix = radix,
        .exponent_base = base,
        .exponent_radix = 10,
        .exponent_width = 1,
    };
}

static size_t length_of(lexical_answer answer) {
    if (answer.number != 0) {
        printf("refused %" PRIu32 " at %zu\n", answer.number, answer.place);
        exit(1);
    }
    return answer.value;
}

static void put_word(uint8_t *bytes, uint64_t word, int count) {
    for (int i = 0; i < count; i++) {
        bytes[i] = (uint8_t)(word >> (8 * i));
    }
}

/* Packed for the archive, and unpacked again. */
static void archive(uint8_t *table, size_t size) {
    uint8_t packed[OUTAGE_LONGEST_TABLE];
    const size_t length = length_of(outage_pack(table, size, packed, sizeof packed));
    length_of(outage_unpack(packed, length, table, size));
}

int main(void) {
    /* Monday: a count, a length, the starts and the ends. The second window lies before second zero
     * and ends at minus zero, which comes back as that, and not as zero. */
    const double floats[4] = {1.0, -1.5, 1.5, -0.0};
    uint8_t monday[40];
    put_word(monday, 2, 4);
    put_word(monday + 4, sizeof monday, 4);
    for (int i = 0; i < 4; i++) {
        uint64_t bits;
        memcpy(&bits, &floats[i], sizeof bits);
        put_word(monday + 8 + 8 * i, bits, 8);
    }

    const lexical_format days[3] = {format(16, 2), format(32, 32), format(2, 2)};
    uint8_t table[40];
    memcpy(table, monday, sizeof table);
    static uint8_t sheet[OUTAGE_LONGEST_SHEET];
    for (int day = 0; day < 3; day++) {
        const size_t length =
            length_of(outage_table_to_sheet(table, sizeof table, days[day], sheet, sizeof sheet));
        fwrite(sheet, 1, length, stdout);
        length_of(outage_sheet_to_table(sheet, length, days[day], table, sizeof table));
    }
    archive(table, sizeof table);
    printf("%s\n", memcmp(table, monday, sizeof table) == 0 ? "the same table" : "another table");

    uint8_t further[2 * LEXICAL_RECORD];
    lexical_format_record(days[1], further);
    lexical_format_record(days[2], further + LEXICAL_RECORD);
    const uint8_t text[] = "-1.8p0";
    uint8_t buffer[LEXICAL_LONGEST_TEXT];
    const lexical_station_answer arrived =
        lexical_chain_f64(text, sizeof text - 1, days[0], days[0], further, sizeof further,
                          buffer, sizeof buffer);
    if (arrived.number != 0) {
        printf("refused %" PRIu32 " at %zu\n", arrived.number, arrived.place);
        return 1;
    }
    fwrite(buffer, 1, arrived.value, stdout);
    const lexical_answer_f64 read = lexical_read_f64(buffer, arrived.value, days[2]);
    printf(" is %a\n", read.value);
    return 0;
}
