/* Each call made from C, as the header declares it, for the tests in Rust. Structs go in and out by
 * pointer here, so that only this file rests on how C passes them. */
#include "hornbillrug.h"

/* The layout that the header gives each struct: its size, then where each field begins and how long it is. */
#define FIELD(type, field) offsetof(type, field), sizeof(((type *)0)->field)

const size_t through_format[] = {
    sizeof(lexical_format),
    FIELD(lexical_format, required_exponent_notation),
    FIELD(lexical_format, no_exponent_notation),
    FIELD(lexical_format, required_exponent_sign),
    FIELD(lexical_format, no_exponent_without_fraction),
    FIELD(lexical_format, truncate),
    FIELD(lexical_format, trim_floats),
    FIELD(lexical_format, exponent),
    FIELD(lexical_format, decimal_point),
    FIELD(lexical_format, mantissa_radix),
    FIELD(lexical_format, exponent_base),
    FIELD(lexical_format, max_significant_digits),
    FIELD(lexical_format, min_significant_digits),
    FIELD(lexical_format, positive_exponent_break),
    FIELD(lexical_format, negative_exponent_break),
    FIELD(lexical_format, exponent_radix),
    FIELD(lexical_format, exponent_width),
};
const size_t through_answer[] = {
    sizeof(lexical_answer),
    FIELD(lexical_answer, number),
    FIELD(lexical_answer, place),
    FIELD(lexical_answer, value),
};
const size_t through_answer_f64[] = {
    sizeof(lexical_answer_f64),
    FIELD(lexical_answer_f64, number),
    FIELD(lexical_answer_f64, place),
    FIELD(lexical_answer_f64, value),
};
const size_t through_answer_f32[] = {
    sizeof(lexical_answer_f32),
    FIELD(lexical_answer_f32, number),
    FIELD(lexical_answer_f32, place),
    FIELD(lexical_answer_f32, value),
};
const size_t through_station_answer[] = {
    sizeof(lexical_station_answer),
    FIELD(lexical_station_answer, number),
    FIELD(lexical_station_answer, writing),
    FIELD(lexical_station_answer, station),
    FIELD(lexical_station_answer, place),
    FIELD(lexical_station_answer, value),
};
const size_t through_limits[] = {
    LEXICAL_LONGEST_TEXT, LEXICAL_LONGEST_READ, OUTAGE_MOST_WINDOWS,
    OUTAGE_LONGEST_SHEET, OUTAGE_LONGEST_TABLE, LEXICAL_RECORD,
};

void through_write_integer(uint64_t value, uint32_t radix, uint32_t width, uint8_t *buffer,
                           size_t length, lexical_answer *answer) {
    *answer = lexical_write_integer(value, radix, width, buffer, length);
}

void through_write_f64(double x, const lexical_format *format, uint8_t *buffer, size_t length,
                       lexical_answer *answer) {
    *answer = lexical_write_f64(x, *format, buffer, length);
}

void through_write_f32(float x, const lexical_format *format, uint8_t *buffer, size_t length,
                       lexical_answer *answer) {
    *answer = lexical_write_f32(x, *format, buffer, length);
}

void through_read_f64(const uint8_t *text, size_t text_length, const lexical_format *format,
                      lexical_answer_f64 *answer) {
    *answer = lexical_read_f64(text, text_length, *format);
}

void through_read_f32(const uint8_t *text, size_t text_length, const lexical_format *format,
                      lexical_answer_f32 *answer) {
    *answer = lexical_read_f32(text, text_length, *format);
}

void through_rewrite_f64(const uint8_t *text, size_t text_length, const lexical_format *from,
                         const lexical_format *to, uint8_t *buffer, size_t length,
                         lexical_station_answer *answer) {
    *answer = lexical_rewrite_f64(text, text_length, *from, *to, buffer, length);
}

void through_rewrite_f32(const uint8_t *text, size_t text_length, const lexical_format *from,
                         const lexical_format *to, uint8_t *buffer, size_t length,
                         lexical_station_answer *answer) {
    *answer = lexical_rewrite_f32(text, text_length, *from, *to, buffer, length);
}

void through_chain_f64(const uint8_t *text, size_t text_length, const lexical_format *from,
                       const lexical_format *first, const uint8_t *further, size_t further_length,
                       uint8_t *buffer, size_t length, lexical_station_answer *answer) {
    *answer = lexical_chain_f64(text, text_length, *from, *first, further, further_length, buffer,
                                length);
}

void through_chain_f32(const uint8_t *text, size_t text_length, const lexical_format *from,
                       const lexical_format *first, const uint8_t *further, size_t further_length,
                       uint8_t *buffer, size_t length, lexical_station_answer *answer) {
    *answer = lexical_chain_f32(text, text_length, *from, *first, further, further_length, buffer,
                                length);
}

void through_table_to_sheet(const uint8_t *table, size_t table_length, const lexical_format *format,
                            uint8_t *sheet, size_t length, lexical_answer *answer) {
    *answer = outage_table_to_sheet(table, table_length, *format, sheet, length);
}

void through_sheet_to_table(const uint8_t *sheet, size_t sheet_length, const lexical_format *format,
                            uint8_t *table, size_t length, lexical_answer *answer) {
    *answer = outage_sheet_to_table(sheet, sheet_length, *format, table, length);
}

void through_pack(const uint8_t *table, size_t table_length, uint8_t *packed, size_t length,
                  lexical_answer *answer) {
    *answer = outage_pack(table, table_length, packed, length);
}

void through_unpack(const uint8_t *packed, size_t packed_length, uint8_t *table, size_t length,
                    lexical_answer *answer) {
    *answer = outage_unpack(packed, packed_length, table, length);
}

void through_record(const lexical_format *format, uint8_t *record) {
    lexical_format_record(*format, record);
}
