/* Text in US-ASCII: which bytes are ASCII, case, comparison, searches, whitespace and lines. What each call returns is
 * proved for all bytes.
 *
 * Conditions: a pointer is not null, even if the length is 0; that many bytes can be read at it, and nothing
 * changes them during the call; what a call writes to overlaps nothing else that it is given. Positions are
 * counted from 0. Whitespace is space, tab, line feed, vertical tab, form feed and carriage return.
 *
 * Link libascii_c.a; nothing else is needed. It is compiled for the processor in ASCII_PROCESSOR: x86-64-v2 needs SSE4.2
 * and POPCNT, x86-64-v3 also AVX2, BMI1 and BMI2. No call checks that. No call allocates.
 */
#ifndef ASCII_H
#define ASCII_H

#define ASCII_VERSION "0.1.0"
#define ASCII_PROCESSOR "x86-64-v2"

#include <stdbool.h>
#include <stddef.h>
#include <stdint.h>

#ifdef __cplusplus
extern "C" {
#endif

/* Returns the position of the first byte above 127, or the length if every byte is less than 128. For ab\xc4 it
 * is 2. */
size_t ascii_first_other(const uint8_t *bytes, size_t length);

/* Returns true if the bytes from start up to end are within the source and all less than 128; *place is then
 * unchanged. Otherwise *place becomes the position of the first of them above 127, or the length if they are not
 * within the source. For ab\xc4 the part from 0 to 2 is accepted, the part from 1 to 3 is rejected at 2, and the
 * part from 2 to 4 at 3. */
bool ascii_accepts_part(const uint8_t *source, size_t length, size_t start, size_t end, size_t *place);

/* Changes each byte of a to z to that of A to Z. Every other byte is unchanged. Ab-1 becomes AB-1. */
void ascii_to_upper(uint8_t *bytes, size_t length);

/* Changes each byte of A to Z to that of a to z. Every other byte is unchanged. Ab-1 becomes ab-1. */
void ascii_to_lower(uint8_t *bytes, size_t length);

/* Returns true if two texts are equal, ignoring ASCII case. Host and HOST are. */
bool ascii_equal_ignoring_case(const uint8_t *first, size_t first_length, const uint8_t *second, size_t second_length);

/* Returns the position of the first needle in the text, or the length of the text if it does not contain the needle. An
 * empty needle is found at 0. In abcabc the needle bc is at 1. */
size_t ascii_find(const uint8_t *text, size_t length, const uint8_t *needle, size_t needle_length);

/* Returns the position of the first needle in the text, ignoring the case of ASCII letters, or the length of the text if
 * it does not contain the needle. An empty needle is found at 0. In abcABC the needle BC is at 1. */
size_t ascii_find_ignoring_case(const uint8_t *text, size_t length, const uint8_t *needle, size_t needle_length);

/* Returns the position at which the bytes begin without leading whitespace. For " ab " it is 1. */
size_t ascii_trim_start(const uint8_t *bytes, size_t length);

/* Returns the length of the bytes without trailing whitespace. For " ab " it is 3. */
size_t ascii_trim_end(const uint8_t *bytes, size_t length);

/* Returns the length of the first line of the text without its ending, and sets *next to where the line after it starts,
 * or to the length if there is none. A line ends in LF or CR LF; the last one may have no ending. An empty text has no
 * line, and both are 0. For ab\r\nc they are 2 and 4. */
size_t ascii_next_line(const uint8_t *text, size_t length, size_t *next);

#ifdef __cplusplus
}
#endif

#endif
