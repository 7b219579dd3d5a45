/*
 * Times our page, take and cast, and the page of three others, over the same bits in the same run. In each round
 * everyone has a turn. A time is the median of the rounds, with the least of them behind it; a ratio of two who have
 * turns side by side is the median of the rounds' ratios, so that what slows a whole round down is no matter.
 */
#include <stdio.h>
#include <stdlib.h>
#include <string.h>
#include <time.h>

#include "bench.h"
#include "leading_pair.h"

#define MOST 4000
#define BYTES 4096
#define NUMBERS (4 * (MOST + 1))
#define ROUNDS 25
#define PAGES 64
#define BOOKS 64
/* How long a call is made over and over before it is timed, and how long a turn lasts, in nanoseconds. */
#define WARM 1000000.0
#define TURN 200000.0

enum { SIZES = 5, SHAPES = 5, KINDS = 3 };
static const uint32_t sizes[SIZES] = {250, 500, 1000, 2000, 4000};
static const char *const shapes[SHAPES] = {"random", "rising", "falling", "saw", "level"};
static const char *const kinds[KINDS] = {"whole", "ten", "any"};

struct book {
    uint32_t prices[MOST], lots;
    uint8_t bytes[BYTES];
    size_t bits;
};

static struct book books[BOOKS], *book = books;
static struct page pages[PAGES];
static uint32_t work[NUMBERS];
static volatile uint32_t kept;
static uint64_t seed;

static uint32_t below(uint32_t most)
{
    seed ^= seed << 13;
    seed ^= seed >> 7;
    seed ^= seed << 17;
    return (uint32_t)((seed >> 16) % most);
}

static uint32_t price_of(int shape, uint32_t i)
{
    switch (shape) {
    case 0: return below(1000000);
    case 1: return i;
    case 2: return MOST - i;
    case 3: return i % 16;
    default: return 7;
    }
}

static uint32_t cast_book(void)
{
    return leading_pair_time_cast(book->prices, book->lots, book->bytes, BYTES, work, NUMBERS);
}

/* The current book, new, cast and taken: the same one for the same shape, lots and number. */
static void make_book(int shape, uint32_t lots, uint32_t number)
{
    seed = 88172645463325252u + lots + 65536 * number;
    book->lots = lots;
    for (uint32_t i = 0; i < lots; i++)
        book->prices[i] = price_of(shape, i);
    book->bits = cast_book();
    if (book->bits == 0 || leading_pair_take(book->bytes, BYTES, book->bits) != 0) {
        printf("No sheet of %u lots.\n", lots);
        exit(1);
    }
}

/* All lots; ten in the middle; ranges at random. */
static void choose_pages(int kind)
{
    uint32_t lots = book->lots;
    for (uint32_t i = 0; i < PAGES; i++) {
        uint32_t a = below(lots) + 1, b = below(lots) + 1;
        if (kind == 0)
            pages[i] = (struct page){1, lots};
        else if (kind == 1)
            pages[i] = (struct page){lots / 2 - 5 + i % 10, 10};
        else
            pages[i] = a < b ? (struct page){a, b - a + 1} : (struct page){b, a - b + 1};
    }
}

enum who { OURS, HAND, SCAN, RMQ, TAKE, CAST };
enum { PAGERS = RMQ + 1 };

/* One call: some pages, or a take, or a cast. Ours takes the sheet before its pages. */
static uint32_t call(enum who who, size_t count)
{
    switch (who) {
    case OURS: return leading_pair_time_pages(book->bytes, BYTES, book->bits, pages, count);
    case HAND: return hand_pages(book->bytes, book->lots, pages, count);
    case SCAN: return scan_pages(book->prices, book->lots, pages, count);
#ifdef WITH_RMQ
    case RMQ: return rmq_pages(pages, count);
#endif
    case TAKE: return leading_pair_take(book->bytes, BYTES, book->bits);
    case CAST: return cast_book();
    default: return 0;
    }
}

/* All give the same pages, one by one. */
static void agree(void)
{
    for (int i = 0; i < PAGES; i++) {
        struct page *page = &pages[i];
        uint32_t scan = scan_pages(book->prices, book->lots, page, 1);
        int same = scan == leading_pair_time_pages(book->bytes, BYTES, book->bits, page, 1);
        same = same && scan == hand_pages(book->bytes, book->lots, page, 1);
#ifdef WITH_RMQ
        same = same && scan == rmq_pages(page, 1);
#endif
        if (!same) {
            printf("They differ: %u lots, page %u,%u.\n", book->lots, page->start, page->size);
            exit(1);
        }
    }
}

static double now(void)
{
    struct timespec t;
    clock_gettime(CLOCK_MONOTONIC, &t);
    return 1e9 * (double)t.tv_sec + (double)t.tv_nsec;
}

/* The nanoseconds of one call, of so many. */
static double time_calls(enum who who, size_t count, int calls)
{
    uint32_t sum = 0;
    double before = now();
    for (int i = 0; i < calls; i++)
        sum += call(who, count);
    kept = sum;
    return (now() - before) / calls;
}

/* Warms up, and finds how many calls make a turn. */
static int calls_for(enum who who, size_t count)
{
    int calls = 0;
    for (double before = now(); now() - before < WARM; calls++)
        kept = call(who, count);
    return calls < WARM / TURN ? 1 : (int)(calls / (WARM / TURN));
}

/* The nanoseconds of one call for each of the books, of which none is called twice in a row. */
static double time_books(enum who who, size_t count)
{
    uint32_t sum = 0;
    double before = now();
    for (book = books; book < books + BOOKS; book++)
        sum += call(who, count);
    kept = sum;
    book = books;
    return (now() - before) / BOOKS;
}

static int by_size(const void *a, const void *b)
{
    double x = *(const double *)a, y = *(const double *)b;
    return (x > y) - (x < y);
}

static double median(const double *times)
{
    double sorted[ROUNDS];
    memcpy(sorted, times, sizeof sorted);
    qsort(sorted, ROUNDS, sizeof *sorted, by_size);
    return sorted[ROUNDS / 2];
}

static double least(const double *times)
{
    double out = times[0];
    for (int round = 1; round < ROUNDS; round++)
        if (times[round] < out)
            out = times[round];
    return out;
}

static double ratio(const double *times, const double *others)
{
    double ratios[ROUNDS];
    for (int round = 0; round < ROUNDS; round++)
        ratios[round] = times[round] / others[round];
    return median(ratios);
}

static double worst_page, worst_growth, longest_whole;

static void keep_worst(double *worst, double value)
{
    if (value > *worst)
        *worst = value;
}

/* Our times without the take, which was timed alone in the same round; gives the least. */
static double take_off(double *times, const double *takes)
{
    double out = least(times) - least(takes);
    for (int round = 0; round < ROUNDS; round++)
        times[round] -= takes[round];
    return out;
}

static void print_pages(int shape, int kind)
{
    double times[PAGERS][ROUNDS], takes[ROUNDS];
    int calls[PAGERS], take_calls = calls_for(OURS, 0);
    for (int who = OURS; who < PAGERS; who++)
        calls[who] = calls_for((enum who)who, PAGES);
    for (int round = 0; round < ROUNDS; round++) {
        takes[round] = time_calls(OURS, 0, take_calls) / PAGES;
        for (int who = OURS; who < PAGERS; who++)
            times[who][round] = time_calls((enum who)who, PAGES, calls[who]) / PAGES;
    }
    double fast = take_off(times[OURS], takes), to_hand = ratio(times[OURS], times[HAND]);
    printf("%-8s %5u %-6s", shapes[shape], book->lots, kinds[kind]);
    printf(" %8.0f (%7.0f) %8.0f (%7.0f) %6.2f", median(times[OURS]), fast, median(times[HAND]), least(times[HAND]), to_hand);
    printf(" %8.0f %7.2f", median(times[SCAN]), ratio(times[OURS], times[SCAN]));
#ifdef WITH_RMQ
    printf(" %8.0f %7.2f", median(times[RMQ]), ratio(times[OURS], times[RMQ]));
#endif
    printf("\n");
    keep_worst(&worst_page, to_hand);
    if (kind == 0 && book->lots == MOST)
        keep_worst(&longest_whole, median(times[OURS]));
}

/* A time, and its least over that of half the lots; nothing to say of the first. */
static void print_growth(double times[SIZES][ROUNDS], int size)
{
    printf("  %8.0f (%8.0f)", median(times[size]), least(times[size]));
    if (size == 0) {
        printf("      ");
        return;
    }
    double grew = least(times[size]) / least(times[size - 1]);
    printf(" %5.2f", grew);
    keep_worst(&worst_growth, grew);
}

static void print_takes_and_casts(int shape)
{
    double take[SIZES][ROUNDS], cast[SIZES][ROUNDS];
    for (int round = 0; round < ROUNDS; round++)
        for (int size = 0; size < SIZES; size++) {
            make_book(shape, sizes[size], 0);
            take[size][round] = time_calls(TAKE, 0, calls_for(TAKE, 0));
            cast[size][round] = time_calls(CAST, 0, calls_for(CAST, 0));
        }
    for (int size = 0; size < SIZES; size++) {
        printf("%-8s %5u", shapes[shape], sizes[size]);
        print_growth(take, size);
        print_growth(cast, size);
        printf("\n");
    }
}

/* Random books that the processor has not just seen. */
static void print_new_books(void)
{
    double ours[SIZES][ROUNDS], hand[SIZES][ROUNDS], take[SIZES][ROUNDS], cast[SIZES][ROUNDS];
    for (int round = 0; round < ROUNDS; round++)
        for (int size = 0; size < SIZES; size++) {
            for (uint32_t i = 0; i < BOOKS; i++) {
                book = books + i;
                make_book(0, sizes[size], i);
            }
            choose_pages(0);
            cast[size][round] = time_books(CAST, 0);
            take[size][round] = time_books(TAKE, 0);
            ours[size][round] = time_books(OURS, 1);
            hand[size][round] = time_books(HAND, 1);
        }
    for (int size = 0; size < SIZES; size++) {
        double fast = take_off(ours[size], take[size]), to_hand = ratio(ours[size], hand[size]);
        printf("%5u %8.0f (%7.0f) %8.0f (%7.0f) %6.2f", sizes[size], median(ours[size]), fast, median(hand[size]), least(hand[size]), to_hand);
        print_growth(take, size);
        print_growth(cast, size);
        printf("\n");
        keep_worst(&worst_page, to_hand);
        keep_worst(&longest_whole, median(ours[size]));
    }
}

int main(void)
{
    printf("Times in nanoseconds: median (least) of %d rounds. Ratios: median of the rounds' ratios.\n", ROUNDS);
    printf("In the first two tables each call is made over and over for %.0f ms before it is timed: caches and branch predictors are warm.\n", WARM / 1e6);
    printf("\nPages: 'whole' is all lots, 'ten' are ten in the middle, 'any' are %d ranges at random.\n", PAGES);
    printf("shape     lots page         ours            C by hand      ours/C     scan   /scan      rmq    /rmq\n");
    for (int shape = 0; shape < SHAPES; shape++)
        for (int size = 0; size < SIZES; size++) {
            make_book(shape, sizes[size], 0);
#ifdef WITH_RMQ
            rmq_build(book->prices, book->lots);
#endif
            for (int kind = 0; kind < KINDS; kind++) {
                choose_pages(kind);
                agree();
                print_pages(shape, kind);
            }
        }
    printf("\nTake and cast; 'grew' is the least time over that of half the lots.\n");
    printf("shape     lots          take          grew         cast          grew\n");
    for (int shape = 0; shape < SHAPES; shape++)
        print_takes_and_casts(shape);
    printf("\nNew books: %d random books in turn, one call for each, and the page of all lots. Caches are warm, branch predictors are not.\n", BOOKS);
    printf(" lots      our page          C by hand      ours/C          take          grew         cast          grew\n");
    print_new_books();
    printf("\nOur page is at most %.2f times the C page (bar: 1.5).\n", worst_page);
    printf("Take and cast grow at most %.2f times for twice the lots (bar: 2.2).\n", worst_growth);
    printf("The whole catalogue of 4,000 lots takes at most %.1f microseconds (bar: 100).\n", longest_whole / 1000);
    return 0;
}
