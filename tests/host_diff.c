/*
 * Holds the three functions of leading_pair.h to an independent implementation: books of random prices, their sheets
 * made by the definition, read whole and damaged, with pages of every sort. Prints what was compared, and fails at
 * the first difference.
 */
#include <stdio.h>
#include <stdlib.h>
#include <string.h>

#include "leading_pair.h"

#define MOST 4000
#define CASES 100000

static uint32_t price[MOST + 1];
static uint32_t up[MOST + 1], left[MOST + 1], right[MOST + 1], kids[MOST + 1], lefts[MOST + 1], word[MOST + 2];
static uint8_t sheet[32768], bytes[4096];
static size_t bits;

static uint64_t seed = 88172645463325252u;

static uint32_t below(uint32_t most)
{
    seed ^= seed << 13;
    seed ^= seed >> 7;
    seed ^= seed << 17;
    return (uint32_t)((seed >> 16) % most);
}

static int beats(uint32_t i, uint32_t j)
{
    return price[i] > price[j] || (price[i] == price[j] && i < j);
}

static uint32_t best_of(uint32_t i, uint32_t j, uint32_t without)
{
    uint32_t best = 0;
    for (uint32_t k = i; k <= j; k++)
        if (k != without && (best == 0 || beats(k, best)))
            best = k;
    return best;
}

/* Begins the sheet with the brackets, by the numbers of children. */
static void write_brackets(uint32_t n)
{
    bits = 0;
    sheet[bits++] = 1;
    for (uint32_t j = 0; j <= n; j++) {
        for (uint32_t c = 0; c < kids[j]; c++)
            sheet[bits++] = 1;
        sheet[bits++] = 0;
    }
}

/* The sheet of n lots by its definition, in time n to the third. */
static void cast_small(uint32_t n)
{
    memset(kids, 0, sizeof kids);
    for (uint32_t i = 1; i <= n; i++) {
        uint32_t j = i - 1;
        while (j != 0 && !beats(j, i))
            j--;
        kids[j]++;
    }
    write_brackets(n);
    for (uint32_t k = 1; k <= n; k++) {
        uint32_t spine[MOST], many = 0;
        for (uint32_t i = 1; i < k; i++)
            if (best_of(i, k, 0) == k && best_of(i, k - 1, 0) == i)
                spine[many++] = i;
        for (uint32_t j = k + 1; j <= n; j++)
            if (best_of(k, j, 0) == k && best_of(k + 1, j, 0) == j)
                spine[many++] = j;
        for (uint32_t a = 1; a < many; a++)
            for (uint32_t c = a; c > 0 && beats(spine[c], spine[c - 1]); c--) {
                uint32_t swap = spine[c];
                spine[c] = spine[c - 1];
                spine[c - 1] = swap;
            }
        for (uint32_t a = 0; a + 1 < many; a++)
            sheet[bits++] = spine[a] > k;
    }
}

/* The same in linear time. */
static void cast_long(uint32_t n)
{
    memset(kids, 0, sizeof kids);
    memset(right, 0, sizeof right);
    for (uint32_t k = 1; k <= n; k++) {
        uint32_t x = k - 1, last = 0;
        while (x != 0 && !beats(x, k)) {
            last = x;
            x = up[x];
        }
        up[k] = x;
        left[k] = last;
        right[x] = k;
        kids[x]++;
    }
    write_brackets(n);
    for (uint32_t k = 1; k <= n; k++) {
        uint32_t a = left[k], b = right[k];
        while (a != 0 || b != 0) {
            int turn = a == 0 || (b != 0 && beats(b, a));
            if (turn)
                b = left[b];
            else
                a = right[a];
            if (a != 0 || b != 0)
                sheet[bits++] = (uint8_t)turn;
        }
    }
}

/* Takes the bits: 0 and the number of lots, or the refusal. */
static uint32_t take(uint32_t *lots)
{
    size_t open = 0, at = 0, n, end;
    do {
        if (at == bits || (at == 0 && sheet[0] == 0))
            return 7;
        open += sheet[at] ? 1 : (size_t)-1;
        at++;
    } while (open != 0);
    if (at > 8002)
        return 8;
    end = at;
    n = at / 2 - 1;
    memset(kids, 0, sizeof kids);
    at = 1;
    for (size_t j = 0; j <= n; at++) {
        if (sheet[at])
            kids[j]++;
        else
            j++;
    }
    uint32_t places[MOST + 1];
    memcpy(places, kids, sizeof places);
    word[1] = (uint32_t)end;
    for (uint32_t k = 1; k <= n; k++) {
        uint32_t x = k - 1;
        for (lefts[k] = 0; places[x] == 0; x = up[x])
            lefts[k]++;
        places[x]--;
        up[k] = x;
        word[k + 1] = word[k] + (lefts[k] + kids[k] == 0 ? 0 : lefts[k] + kids[k] - 1);
    }
    if ((n == 0 ? end : word[n + 1]) != bits)
        return 9;
    for (uint32_t k = 1; k <= n; k++) {
        uint32_t ones = 0;
        for (uint32_t p = word[k]; p < word[k + 1]; p++)
            ones += sheet[p];
        if (ones > kids[k] || word[k + 1] - word[k] - ones > lefts[k])
            return 10;
    }
    *lots = (uint32_t)n;
    return 0;
}

static uint32_t best_up(uint32_t i, uint32_t j)
{
    while (up[j] >= i)
        j = up[j];
    return j;
}

/* The second of the lots i to j, with best lot k, of bits that are taken. */
static uint32_t second_up(uint32_t n, uint32_t i, uint32_t j, uint32_t k)
{
    uint32_t a = i < k ? best_up(i, k - 1) : 0, b = k < j ? best_up(k + 1, j) : 0, x = 1, y = 1;
    if (a == 0 || b == 0)
        return a + b;
    for (uint32_t t = up[a]; t != up[k]; t = up[t])
        x++;
    for (uint32_t c = b + 1; c <= n; c++)
        y += up[c] == k;
    for (uint32_t p = word[k]; p < word[k + 1]; p++) {
        if (sheet[p] == 0 && --x == 0)
            return a;
        if (sheet[p] == 1 && --y == 0)
            return b;
    }
    fprintf(stderr, "the test is wrong: no symbol decides\n");
    exit(1);
}

static void differ(const char *what, uint32_t wanted, uint32_t got)
{
    fprintf(stderr, "%s: %u wanted, %u got, for %zu bits\n", what, wanted, got, bits);
    exit(1);
}

static uint64_t accepted, refused[11], pages;

/* Compares take, and some pages if the bits are accepted; `whole` bits are the sheet of the prices. */
static void compare(int whole)
{
    uint32_t n = 0, refusal = take(&n);
    size_t len = (bits + 7) / 8 + below(3), count = bits;
    for (size_t p = 0; p < 8 * len && p < 32768; p++) {
        uint8_t bit = p < bits ? sheet[p] : (uint8_t)below(2);
        bytes[p / 8] = (uint8_t)(p % 8 == 0 ? bit << 7 : bytes[p / 8] | bit << (7 - p % 8));
    }
    if (bits == 8 * len)
        count += below(9);
    uint32_t got = leading_pair_take(bytes, len, count);
    if (got != refusal)
        differ("take", refusal, got);
    if (refusal == 0)
        accepted++;
    else
        refused[refusal]++;
    for (int t = 0; t < 4; t++) {
        uint32_t start = below(n + 2), size = below(8) == 0 ? UINT32_MAX - below(2) : below(n + 2);
        uint32_t best = 0, second = 0;
        if (refusal == 0 && start >= 1 && start <= n && size >= 1) {
            uint32_t end = size > n - start ? n : start + size - 1;
            best = best_up(start, end);
            second = second_up(n, start, end, best);
            if (whole && (best != best_of(start, end, 0) || second != best_of(start, end, best)))
                differ("the test itself", best, second);
        }
        got = leading_pair_best(bytes, len, count, start, size);
        if (got != best)
            differ("best", best, got);
        got = leading_pair_second(bytes, len, count, start, size);
        if (got != second)
            differ("second", second, got);
        pages++;
    }
}

static void damage(void)
{
    switch (below(4)) {
    case 0:
        bits = below((uint32_t)bits + 1);
        break;
    case 1:
        sheet[bits++] = (uint8_t)below(2);
        break;
    default:
        sheet[below((uint32_t)bits)] ^= 1;
    }
}

int main(void)
{
    for (int c = 0; c < CASES; c++) {
        int is_long = c % 1000 == 0;
        uint32_t n = is_long ? 250 + below(MOST - 249) : below(25), levels = 1 + below(is_long ? 100000 : 2 * n + 1);
        for (uint32_t k = 1; k <= n; k++)
            price[k] = below(levels);
        if (is_long)
            cast_long(n);
        else
            cast_small(n);
        compare(1);
        damage();
        compare(0);
    }
    for (int c = 0; c < CASES; c++) {
        bits = below(20);
        for (size_t p = 0; p < bits; p++)
            sheet[p] = (uint8_t)below(2);
        compare(0);
    }
    printf("%d books, their sheets whole and damaged, and %d lists of random bits: take and page agree.\n", CASES, CASES);
    if (accepted == 0 || refused[7] == 0 || refused[9] == 0 || refused[10] == 0)
        return 1;
    return 0;
}
