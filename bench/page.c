/*
 * The page by hand in C, over the packed bits of a sheet that is known to be one. It keeps a few numbers, and goes
 * over the brackets twice at most: back over the page, and back from the best lot to lot 1.
 */
#include "bench.h"

static inline uint32_t bit(const uint8_t *bytes, size_t p)
{
    return bytes[p / 8] >> (7 - p % 8) & 1;
}

/* The ones of a byte: without an instruction for it, sums of two, four and eight bits. */
static inline uint32_t ones(uint32_t byte)
{
    byte -= byte >> 1 & 0x55;
    byte = (byte & 0x33) + (byte >> 2 & 0x33);
    return (byte + (byte >> 4)) & 0x0f;
}

/* The bit after the first `zeros` zeros: whole bytes, then bits. */
static size_t after(const uint8_t *bytes, uint32_t zeros)
{
    size_t p = 0;
    for (;;) {
        uint32_t here = 8 - ones(bytes[p / 8]);
        if (here >= zeros)
            break;
        zeros -= here;
        p += 8;
    }
    for (; zeros != 0; p++)
        zeros -= !bit(bytes, p);
    return p;
}

/* Which comes first from bit p on: the zero after x zeros, or the one after y ones? */
static int zero_first(const uint8_t *bytes, size_t p, uint32_t x, uint32_t y)
{
    for (;; p++)
        if (bit(bytes, p)) {
            if (y-- == 0)
                return 0;
        } else if (x-- == 0) {
            return 1;
        }
}

/* The best lot so far on the way back, the roots in front of it, and how often the best has changed. */
struct path {
    uint32_t best, roots, steps;
};

/* The number of children of the lot before bit p, which then stands where that number begins. */
static inline uint32_t count_back(const uint8_t *bytes, size_t *p)
{
    uint32_t kids = 0;
    size_t at = *p - 1;
    while (bit(bytes, at - 1)) {
        kids++;
        at--;
    }
    *p = at;
    return kids;
}

static inline void step_back(struct path *path, uint32_t lot, uint32_t kids)
{
    if (kids <= path->roots) {
        path->roots += 1 - kids;
    } else {
        path->best = lot;
        path->roots = 0;
        path->steps++;
    }
}

static uint32_t page(const uint8_t *bytes, uint32_t lots, uint32_t start, uint32_t size)
{
    uint32_t end = size > lots - start ? lots : start + size - 1;
    struct path all = {end, 0, 0};
    size_t p = after(bytes, end), here = p;
    uint32_t right = 0, y = 0;
    for (uint32_t lot = end - 1; lot >= start; lot--) {
        uint32_t kids = count_back(bytes, &p);
        if (kids > all.roots) {
            right = all.best;
            y = kids - all.roots - 1;
            here = p;
        }
        step_back(&all, lot, kids);
    }
    if (all.best == start)
        return all.best * 65536 + right;

    /* In front of the best lot: the best of the page, then the path to lot 1. */
    uint32_t best = all.best, lone = 0;
    struct path left = {best - 1, 0, 0};
    p = here;
    uint32_t next = count_back(bytes, &p);
    for (uint32_t lot = best - 2; lot >= start; lot--) {
        uint32_t kids = count_back(bytes, &p);
        lone += kids != 0 && next == 0;
        next = kids;
        step_back(&left, lot, kids);
    }
    if (right == 0)
        return best * 65536 + left.best;

    uint32_t a = left.best, within = left.steps;
    all.steps = 0;
    for (uint32_t lot = start - 1; lot >= 1; lot--) {
        uint32_t kids = count_back(bytes, &p);
        lone += kids != 0 && next == 0;
        next = kids;
        step_back(&left, lot, kids);
        step_back(&all, lot, kids);
    }
    lone += next == 0;
    uint32_t x = left.steps - within - all.steps;
    size_t ones = here - p - (best - 1);
    size_t word = 2 * (size_t)lots + 2 + ones + lone - (left.steps + 1);
    return best * 65536 + (zero_first(bytes, word, x, y) ? a : right);
}

uint32_t hand_pages(const uint8_t *bytes, uint32_t lots, const struct page *pages, size_t count)
{
    uint32_t sum = 0;
    for (size_t i = 0; i < count; i++)
        sum += page(bytes, lots, pages[i].start, pages[i].size);
    return sum;
}
