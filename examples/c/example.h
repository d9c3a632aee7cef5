/*
 * Numbers in DER (X.690 8.3): what the static library crates/example_c has for C.
 *
 * The functions are proved for every call that this page allows: pointers to as many octets as the length says, which
 * nobody else reads or writes during the call, and which don't overlap `number`. A pointer may not be null, even where
 * the length is 0. `malloc` and `free` are the program's own.
 */
#ifndef EXAMPLE_H
#define EXAMPLE_H

#include <stdbool.h>
#include <stddef.h>
#include <stdint.h>

/*
 * Reads the INTEGER that the octets begin with; what stands after it isn't read. Puts its number into `*number`, and
 * answers true. Where there is no INTEGER, or its number is negative or above 2^64 - 1, the answer is false, and
 * `*number` stays as it is.
 */
bool example_c_read_number(const uint8_t *octets, size_t length, uint64_t *number);

/*
 * Writes the number as an INTEGER to the front of the octets, and answers how many octets it takes: 3 to 11. Where there
 * is no room for them, or memory is refused, the answer is 0, and nothing is written.
 */
size_t example_c_write_number(uint64_t number, uint8_t *octets, size_t length);

#endif
