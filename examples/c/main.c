/*
 * Calls the static library crates/example_c: each argument is a number, and is answered by its octets in DER, or `x` and
 * hexadecimal digits, and is answered by the number that these octets begin with, or by `none`.
 */
#include <inttypes.h>
#include <stdio.h>
#include <stdlib.h>
#include <string.h>

#include "example.h"

/* An INTEGER below 2^64 has at most so many octets: a tag, a length, and nine of the number. */
#define MOST_OCTETS 11

/* The number as the library writes it, which has to be the number that it reads again. */
static void answer_number(uint64_t number)
{
    uint8_t octets[MOST_OCTETS];
    size_t count = example_c_write_number(number, octets, sizeof octets);
    uint64_t again = 0;
    if (count == 0 || !example_c_read_number(octets, count, &again) || again != number) {
        puts("lost");
        return;
    }
    for (size_t i = 0; i < count; i++) {
        printf("%02x", octets[i]);
    }
    puts("");
}

/* The number that octets begin with. */
static void answer_octets(const char *digits)
{
    uint8_t octets[64];
    size_t count = 0;
    for (unsigned octet; count < sizeof octets && sscanf(digits + 2 * count, "%2x", &octet) == 1; count++) {
        octets[count] = (uint8_t)octet;
    }
    uint64_t number;
    if (example_c_read_number(octets, count, &number)) {
        printf("%" PRIu64 "\n", number);
    } else {
        puts("none");
    }
}

int main(int count, char **arguments)
{
    for (int i = 1; i < count; i++) {
        if (arguments[i][0] == 'x') {
            answer_octets(arguments[i] + 1);
        } else {
            answer_number(strtoull(arguments[i], NULL, 10));
        }
    }
    return 0;
}
