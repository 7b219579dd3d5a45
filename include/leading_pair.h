/*
 * Leading Pair: the best and the second-best lot of any page, from a packed sheet.
 *
 * Bytes and bits. A sheet is a list of bits in packed bytes, the highest bit of each byte first: bit p is
 * (bytes[p / 8] >> (7 - p % 8)) & 1. The list has as many bits as the least of `bits`, 8 * `len` and 32,768;
 * what stands behind them is not looked at.
 *
 * Pointers. `bytes` points to `len` bytes that may be read, and nothing else asks anything of the caller. Where
 * `len` is 0, `bytes` is any pointer but NULL. The bytes stay the caller's: they are only read, and only during
 * the call. There is no state between calls and no heap; calls from several threads at once are fine as long as
 * nobody writes to the bytes meanwhile.
 *
 * Lots are numbered from 1; a sheet has 0 to 4,000. A page is the `size` lots from `start` on, or as many of
 * them as there are. Any numbers may be given.
 */
#ifndef LEADING_PAIR_H
#define LEADING_PAIR_H

#include <stddef.h>
#include <stdint.h>

#ifdef __cplusplus
extern "C" {
#endif

/* Why bits are not a sheet. The first that applies is told. */
enum {
    /* There are no bits, the first is 0, or there are never as many 0s as 1s. */
    LEADING_PAIR_UNBALANCED = 7,
    /* There are first as many 0s as 1s after more than 8,002 bits: more than 4,000 lots. */
    LEADING_PAIR_TOO_MANY_LOTS = 8,
    /* After the brackets stand more or fewer bits than these lots have. */
    LEADING_PAIR_OTHER_LENGTH = 9,
    /* Some lot's bits say more of one side than there is. */
    LEADING_PAIR_BAD_WORD = 10
};

/* 0 if the bits are a sheet, or one of the numbers above. */
uint32_t leading_pair_take(const uint8_t *bytes, size_t len, size_t bits);

/*
 * The best lot of a page. 0 if the bits are no sheet, if `start` is 0 or above the number of lots, or if `size`
 * is 0: leading_pair_take tells which.
 */
uint32_t leading_pair_best(const uint8_t *bytes, size_t len, size_t bits, uint32_t start, uint32_t size);

/* The second lot of a page. 0 if the page has one lot, and where leading_pair_best gives 0. */
uint32_t leading_pair_second(const uint8_t *bytes, size_t len, size_t bits, uint32_t start, uint32_t size);

#ifdef __cplusplus
}
#endif

#endif
