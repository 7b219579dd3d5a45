/* What the benchmark compares: everyone gets a list of pages and adds up what is shown, best * 65536 + second. */
#include <stddef.h>
#include <stdint.h>

#ifdef __cplusplus
extern "C" {
#endif

struct page {
    uint32_t start;
    uint32_t size;
};

/* Ours, from target/staticlib/libtiming.a: takes the sheet once, then asks for the pages. */
uint32_t leading_pair_time_pages(const uint8_t *bytes, size_t len, size_t bits, const struct page *pages, size_t count);
/* Ours: casts the prices into the bytes; how many bits, or 0. */
uint32_t leading_pair_time_cast(const uint32_t *prices, size_t lots, uint8_t *bytes, size_t len, uint32_t *work, size_t numbers);

/* page.c: by hand over the same sheet, of which it is told the lots. */
uint32_t hand_pages(const uint8_t *bytes, uint32_t lots, const struct page *pages, size_t count);
/* scan.c: through the prices. */
uint32_t scan_pages(const uint32_t *prices, uint32_t lots, const struct page *pages, size_t count);
/* rmq.cpp: a succinct range-maximum structure, and the prices. */
void rmq_build(const uint32_t *prices, uint32_t lots);
uint32_t rmq_pages(const struct page *pages, size_t count);

#ifdef __cplusplus
}
#endif
