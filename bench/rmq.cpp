// A succinct range-maximum structure of a library, with the prices kept beside it. A level price is worth more the
// lower the lot, so the keys are the prices with the lots behind.
#include "bench.h"
#include <sdsl/rmq_support.hpp>

static sdsl::int_vector<64> keys;
static sdsl::rmq_succinct_sct<false> structure;
static uint32_t many;

void rmq_build(const uint32_t *prices, uint32_t lots)
{
    keys.resize(lots);
    for (uint32_t i = 0; i < lots; i++)
        keys[i] = (uint64_t)prices[i] << 16 | (lots - i);
    structure = sdsl::rmq_succinct_sct<false>(&keys);
    many = lots;
}

static uint32_t page(uint32_t start, uint32_t size)
{
    size_t i = start - 1;
    size_t j = size > many - start ? many - 1 : i + size - 1;
    size_t k = structure(i, j);
    uint32_t best = (uint32_t)k + 1;
    if (i == j)
        return best * 65536;
    if (k == i)
        return best * 65536 + (uint32_t)structure(k + 1, j) + 1;
    size_t a = structure(i, k - 1);
    if (k == j)
        return best * 65536 + (uint32_t)a + 1;
    size_t b = structure(k + 1, j);
    return best * 65536 + (uint32_t)(keys[a] > keys[b] ? a : b) + 1;
}

uint32_t rmq_pages(const struct page *pages, size_t count)
{
    uint32_t sum = 0;
    for (size_t i = 0; i < count; i++)
        sum += page(pages[i].start, pages[i].size);
    return sum;
}
