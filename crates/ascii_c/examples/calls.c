/* Calls each function of ascii.h once, and prints what it answers. */
#include <stdio.h>
#include "ascii.h"

static const uint8_t *bytes(const char *text) { return (const uint8_t *)text; }

int main(void) {
    uint8_t text[] = "Ab-1";
    size_t place = 9;
    bool accepted;
    printf("%zu %zu\n", ascii_first_other(bytes("ab\xc4\x8d"), 4), ascii_first_other(bytes("abc"), 3));
    accepted = ascii_accepts_part(bytes("ab\xc4"), 3, 0, 2, &place);
    printf("%d %zu\n", accepted, place);
    accepted = ascii_accepts_part(bytes("ab\xc4"), 3, 1, 3, &place);
    printf("%d %zu\n", accepted, place);
    accepted = ascii_accepts_part(bytes("ab\xc4"), 3, 2, 4, &place);
    printf("%d %zu\n", accepted, place);
    ascii_to_upper(text, 4);
    printf("%s\n", (const char *)text);
    ascii_to_lower(text, 4);
    printf("%s\n", (const char *)text);
    printf("%d %d\n", ascii_equal_ignoring_case(bytes("Host"), 4, bytes("HOST"), 4),
           ascii_equal_ignoring_case(bytes("Host"), 4, bytes("Hos"), 3));
    printf("%zu %zu\n", ascii_find(bytes("abcabc"), 6, bytes("bc"), 2), ascii_find(bytes("abcabc"), 6, bytes("BC"), 2));
    printf("%zu %zu\n", ascii_find_ignoring_case(bytes("abcABC"), 6, bytes("BC"), 2),
           ascii_find_ignoring_case(bytes("abc"), 3, bytes("d"), 1));
    printf("%zu %zu\n", ascii_trim_start(bytes(" \tab "), 5), ascii_trim_start(bytes("  "), 2));
    printf("%zu %zu\n", ascii_trim_end(bytes(" ab \n"), 5), ascii_trim_end(bytes("  "), 2));
    accepted = ascii_next_line(bytes("ab\r\nc"), 5, &place) == 2;
    printf("%d %zu\n", accepted, place);
    accepted = ascii_next_line(bytes(""), 0, &place) == 0;
    printf("%d %zu\n", accepted, place);
    return 0;
}
