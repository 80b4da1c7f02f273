/* Bytes as digits. */
#ifndef DIGITS_H
#define DIGITS_H
#include "common.h"

/* The bytes of these digits, `-` for none, in a block of exactly their size. */
static uint8_t *bytes_of(const char *digits, size_t *size)
{
    *size = digits[0] == '-' ? 0 : strlen(digits) / 2;
    uint8_t *block = own(*size);
    for (size_t i = 0; i < *size; i++) {
        unsigned byte;
        if (sscanf(digits + 2 * i, "%2x", &byte) != 1)
            FAIL("no digits: %s", digits);
        block[i] = (uint8_t)byte;
    }
    return block;
}

static void put_digits(FILE *out, const uint8_t *bytes, size_t size)
{
    for (size_t i = 0; i < size; i++)
        fprintf(out, "%02x", bytes[i]);
    if (!size)
        fputc('-', out);
}
#endif
