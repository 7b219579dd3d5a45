/* A plain scan of the prices. */
#include "bench.h"

static uint32_t page(const uint32_t *prices, uint32_t lots, uint32_t start, uint32_t size)
{
    uint32_t end = size > lots - start ? lots : start + size - 1;
    uint32_t best = start, second = 0;
    for (uint32_t lot = start + 1; lot <= end; lot++) {
        if (prices[lot - 1] > prices[best - 1]) {
            second = best;
            best = lot;
        } else if (second == 0 || prices[lot - 1] > prices[second - 1]) {
            second = lot;
        }
    }
    return best * 65536 + second;
}

uint32_t scan_pages(const uint32_t *prices, uint32_t lots, const struct page *pages, size_t count)
{
    uint32_t sum = 0;
    for (size_t i = 0; i < count; i++)
        sum += page(prices, lots, pages[i].start, pages[i].size);
    return sum;
}
