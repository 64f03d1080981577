/* A yardstick for bench/bits.py: lists of words that are compared under a mask, one word after another. It prints the
   processor time of so many comparisons of lists of so many words, in seconds. */
#include <stdint.h>
#include <stdio.h>
#include <stdlib.h>
#include <time.h>

static int agree(const uint64_t *words, const uint64_t *others, const uint64_t *mask, size_t count) {
    for (size_t i = 0; i < count; i++)
        if ((words[i] ^ others[i]) & mask[i]) return 0;
    return 1;
}

int main(int argc, char **argv) {
    if (argc != 3) return 1;
    size_t count = strtoul(argv[1], NULL, 10);
    long times = strtol(argv[2], NULL, 10), agreed = 0;
    uint64_t *words = calloc(count, 8), *others = calloc(count, 8), *mask = calloc(count, 8);
    int (*volatile compare)(const uint64_t *, const uint64_t *, const uint64_t *, size_t) = agree;
    if (!words || !others || !mask) return 1;
    for (size_t i = 0; i < count; i++) words[i] = others[i] = i, mask[i] = ~i; /* so each page is one of its own */
    clock_t start = clock();
    for (long i = 0; i < times; i++) agreed += compare(words, others, mask, count);
    printf("%f\n", (double)(clock() - start) / CLOCKS_PER_SEC);
    return agreed != times;
}
