/* Number text in power-of-two radices, outage sheets, and packed tables.
 *
 * Link with libexports.a, which `rt lib` in crates/exports writes to its out/. Each call ends,
 * checks its own arguments, and answers a result or a refusal: number 0 and a value, or the number
 * and place of a refusal and value 0. docs/FORMAT.md has every call and every refusal. On a refusal
 * every byte of the buffer is as it was; after a text, the bytes past it are as they were.
 *
 * What a caller in C has to see to, since no call can check it:
 * - a pointer is not null, and is valid for as many bytes as the length behind it says, also for 0;
 * - the buffer that a call writes into overlaps nothing else that the call is given;
 * - a bool holds 0 or 1;
 * - where floating-point exceptions are unmasked, a call may raise one, since it tells a NaN by
 *   comparing the float with itself: invalid, for a signalling NaN to be written, and denormal
 *   operand, for a denormal in any call but lexical_read_f64, lexical_read_f32, outage_pack and
 *   outage_unpack.
 * In nothing else does an answer depend on the floating-point mode: neither on the rounding direction,
 * nor on denormals being taken for zero or flushed to zero, as -ffast-math sets it for a process.
 *
 * No call keeps a pointer, allocates, or has a state of its own, so any thread may call any of them. */
#ifndef HORNBILLRUG_H
#define HORNBILLRUG_H

#include <stdbool.h>
#include <stddef.h>
#include <stdint.h>

#ifdef __cplusplus
extern "C" {
#endif

/* Room for any text, sheet, and table, packed or not; a longer text is not read. */
#define LEXICAL_LONGEST_TEXT 2276
#define LEXICAL_LONGEST_READ 4096
#define OUTAGE_MOST_WINDOWS 400
#define OUTAGE_LONGEST_SHEET (4 + OUTAGE_MOST_WINDOWS * 2 * (LEXICAL_LONGEST_TEXT + 1))
#define OUTAGE_LONGEST_TABLE (8 + 16 * OUTAGE_MOST_WINDOWS)

/* A format: a pair of radix and base, an exponent radix, flags and options. Zero is absent in the two
 * counts and the two breaks, and not in exponent_width: there a call that writes refuses it, by 16. */
typedef struct {
    bool required_exponent_notation;
    bool no_exponent_notation;
    bool required_exponent_sign;
    bool no_exponent_without_fraction;
    bool truncate;         /* a digit limit cuts off, toward zero; false rounds to the nearest */
    bool trim_floats;
    uint8_t exponent;      /* the mark in front of an exponent */
    uint8_t decimal_point;
    uint32_t mantissa_radix;
    uint32_t exponent_base;
    uint32_t max_significant_digits;
    uint32_t min_significant_digits;
    int32_t positive_exponent_break;
    int32_t negative_exponent_break;
    uint32_t exponent_radix;
    uint32_t exponent_width; /* the least digits of an exponent, 1 to 4; ignored in reading */
} lexical_format;

/* The value is the length written. */
typedef struct {
    uint32_t number;
    size_t place;
    size_t value;
} lexical_answer;

/* The value is the float read. */
typedef struct {
    uint32_t number;
    size_t place;
    double value;
} lexical_answer_f64;

typedef struct {
    uint32_t number;
    size_t place;
    float value;
} lexical_answer_f32;

/* The value is the length of the last text. A refusal has its station, counted from 0, and whether
 * that station's writing refused and not its reading. A rewriting is one station. */
typedef struct {
    uint32_t number;
    bool writing;
    size_t station;
    size_t place;
    size_t value;
} lexical_station_answer;

/* The digits of a number in radix 2, 4, 8, 10, 16 or 32, with zeros in front up to the least width,
 * 1 to 4. But for radix 10 the leading digit is stored first, and the others behind it, one or two at
 * a time. */
lexical_answer lexical_write_integer(uint64_t value, uint32_t radix, uint32_t width,
                                     uint8_t *buffer, size_t length);

/* The text of a float: "-" where its sign bit is set, minus zero's too, and the text of its magnitude.
 * Only an infinity or a NaN has none, which is refusal 7. */
lexical_answer lexical_write_f64(double x, lexical_format format, uint8_t *buffer, size_t length);
lexical_answer lexical_write_f32(float x, lexical_format format, uint8_t *buffer, size_t length);

/* The float nearest to a text's value, ties to even. One "-" may stand in front, and no "+". The float's
 * sign bit is set exactly where a "-" does: "-0.0" is minus zero, and so is a text behind "-" whose value
 * rounds to zero. C's == takes the two zeros for equal; signbit tells them apart. */
lexical_answer_f64 lexical_read_f64(const uint8_t *text, size_t text_length, lexical_format format);
lexical_answer_f32 lexical_read_f32(const uint8_t *text, size_t text_length, lexical_format format);

/* A text that stands in one format, rewritten in another. */
lexical_station_answer lexical_rewrite_f64(const uint8_t *text, size_t text_length,
                                           lexical_format from, lexical_format to,
                                           uint8_t *buffer, size_t length);
lexical_station_answer lexical_rewrite_f32(const uint8_t *text, size_t text_length,
                                           lexical_format from, lexical_format to,
                                           uint8_t *buffer, size_t length);

/* A text rewritten by station after station: the first has the format `first`, each further one that
 * of a record of LEXICAL_RECORD bytes, one behind the other in `further`. */
lexical_station_answer lexical_chain_f64(const uint8_t *text, size_t text_length,
                                         lexical_format from, lexical_format first,
                                         const uint8_t *further, size_t further_length,
                                         uint8_t *buffer, size_t length);
lexical_station_answer lexical_chain_f32(const uint8_t *text, size_t text_length,
                                         lexical_format from, lexical_format first,
                                         const uint8_t *further, size_t further_length,
                                         uint8_t *buffer, size_t length);

/* The sheet of an outage table, and the table of a sheet. A window may lie before second zero. Its end is
 * held against its start by value, so one from zero to minus zero is taken, and both signs come back. */
lexical_answer outage_table_to_sheet(const uint8_t *table, size_t table_length,
                                     lexical_format format, uint8_t *sheet, size_t length);
lexical_answer outage_sheet_to_table(const uint8_t *sheet, size_t sheet_length,
                                     lexical_format format, uint8_t *table, size_t length);

/* An outage table packed for the archive, and unpacked again. A packed table is as long as its table: the
 * same eight bytes of header, then the bytes of the starts by planes, then those of the ends. Plane j is
 * byte j of each float, the lowest first, so bytes that are alike stand together. Only the header is judged:
 * the floats are copied as bytes, a NaN's and those of a window that ends before it starts too. */
lexical_answer outage_pack(const uint8_t *table, size_t table_length,
                           uint8_t *packed, size_t length);
lexical_answer outage_unpack(const uint8_t *packed, size_t packed_length,
                             uint8_t *table, size_t length);

#define LEXICAL_RECORD 20

/* A format's record, for a chain. A number that does not fit its bytes becomes the greatest or least
 * that does; such a format is refused, and its record with the same number. */
static inline void lexical_format_record(lexical_format format, uint8_t record[LEXICAL_RECORD]) {
    const uint32_t bytes[3] = {format.mantissa_radix, format.exponent_base, format.exponent_radix};
    const bool flags[6] = {format.required_exponent_notation, format.no_exponent_notation,
                           format.required_exponent_sign, format.no_exponent_without_fraction,
                           format.trim_floats, format.truncate};
    const uint32_t counts[2] = {format.max_significant_digits, format.min_significant_digits};
    const int32_t breaks[2] = {format.positive_exponent_break, format.negative_exponent_break};
    for (int i = 0; i < 3; i++) {
        record[i] = (uint8_t)(bytes[i] > UINT8_MAX ? UINT8_MAX : bytes[i]);
    }
    for (int i = 0; i < 6; i++) {
        record[3 + i] = flags[i];
    }
    for (int i = 0; i < 2; i++) {
        const uint32_t count = counts[i] > UINT16_MAX ? UINT16_MAX : counts[i];
        const int32_t high = breaks[i] > INT16_MAX ? INT16_MAX : breaks[i];
        const uint32_t at = (uint32_t)(high < INT16_MIN ? INT16_MIN : high);
        record[9 + 2 * i] = (uint8_t)count;
        record[10 + 2 * i] = (uint8_t)(count >> 8);
        record[13 + 2 * i] = (uint8_t)at;
        record[14 + 2 * i] = (uint8_t)(at >> 8);
    }
    record[17] = (uint8_t)(format.exponent_width > UINT8_MAX ? UINT8_MAX : format.exponent_width);
    record[18] = format.decimal_point;
    record[19] = format.exponent;
}

#ifdef __cplusplus
}
#endif

#endif
