/* The sum of words in plain C, beside that of the library: `word_sum FILE TIMES` sums the file's bytes so many times and prints the nanoseconds for
 * each, or the sum where TIMES is 0. `word_sum FILE TIMES read` only reads the bytes, eight at a time, to tell how fast they come. */
#include <stdint.h>
#include <stdio.h>
#include <stdlib.h>
#include <string.h>
#include <time.h>

#define MOST (256u << 20)

static uint8_t bytes[MOST] __attribute__((aligned(64)));

__attribute__((noinline)) uint16_t word_sum(const uint8_t *from, size_t length)
{
    uint16_t sum = 0;
    size_t i;
    for (i = 0; i + 1 < length; i += 2)
        sum += (uint16_t)(from[i] << 8 | from[i + 1]);
    if (i < length)
        sum += (uint16_t)(from[i] << 8);
    return sum;
}

__attribute__((noinline)) uint16_t read_all(const uint8_t *from, size_t length)
{
    uint64_t seen = 0, eight;
    for (size_t i = 0; i + 8 <= length; i += 8) {
        memcpy(&eight, from + i, 8);
        seen |= eight;
    }
    return (uint16_t)(seen | seen >> 16 | seen >> 32 | seen >> 48);
}

static double now(void)
{
    struct timespec time;
    clock_gettime(CLOCK_MONOTONIC, &time);
    return (double)time.tv_sec * 1e9 + (double)time.tv_nsec;
}

int main(int argc, char **argv)
{
    uint16_t (*call)(const uint8_t *, size_t) = argc > 3 ? read_all : word_sum;
    FILE *file = argc > 2 ? fopen(argv[1], "rb") : NULL;
    volatile uint16_t answered;
    if (!file) {
        fprintf(stderr, "usage: word_sum FILE TIMES [read], with a file that can be read\n");
        return 2;
    }
    long times = atol(argv[2]);
    size_t length = fread(bytes, 1, MOST, file);
    answered = call(bytes, length);
    if (times == 0) {
        printf("%u\n", answered);
        return 0;
    }
    double start = now();
    for (long i = 0; i < times; i++)
        answered = call(bytes, length);
    printf("%.2f\n", (now() - start) / (double)times);
    return 0;
}
