/* Shows the leaders of every page of three lots of a packed sheet, and a refusal: host FILE BITS. */
#include <stdio.h>
#include <stdlib.h>

#include "leading_pair.h"

/* Reads bytes in hexadecimal, parted by blanks; gives how many there are. */
static size_t load(const char *name, uint8_t *bytes, size_t most)
{
    FILE *file = fopen(name, "r");
    size_t len = 0;
    unsigned byte;
    if (file == NULL) {
        perror(name);
        exit(1);
    }
    while (len < most && fscanf(file, "%2x", &byte) == 1)
        bytes[len++] = (uint8_t)byte;
    fclose(file);
    return len;
}

static void show(uint32_t start, uint32_t size, uint32_t best, uint32_t second)
{
    printf("Lots %u to %u: lot %u leads", start, start + size - 1, best);
    if (second != 0)
        printf(", and lot %u is second", second);
    printf(".\n");
}

int main(int argc, char **argv)
{
    uint8_t bytes[4096];
    if (argc != 3) {
        fprintf(stderr, "host FILE BITS\n");
        return 1;
    }
    size_t len = load(argv[1], bytes, sizeof bytes);
    size_t bits = strtoul(argv[2], NULL, 10);
    uint32_t refusal = leading_pair_take(bytes, len, bits);
    if (refusal != 0) {
        printf("This is no sheet: refusal %u.\n", refusal);
        return 0;
    }
    for (uint32_t start = 1; leading_pair_best(bytes, len, bits, start + 2, 1) != 0; start++)
        show(start, 3, leading_pair_best(bytes, len, bits, start, 3), leading_pair_second(bytes, len, bits, start, 3));
    printf("Without its last bit: refusal %u.\n", leading_pair_take(bytes, len, bits - 1));
    return 0;
}
