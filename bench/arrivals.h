/* What the programs of the two jitter buffers share: `PROGRAM ARRIVALS TIMES` hands over all arrivals so many times, and prints the
 * nanoseconds for each. Reading the file does not count. */
#ifndef ARRIVALS_H
#define ARRIVALS_H

#include <inttypes.h>
#include <stdio.h>
#include <stdlib.h>
#include <string.h>
#include <time.h>

#define PACKET_SIZE 1080
#define THRESHOLD 4 /* positions, as the reorder buffer's */

struct arrival {
    uint32_t position;
    uint8_t packet[PACKET_SIZE];
};

struct arrivals {
    struct arrival *items;
    size_t count;
};

/* The file has the lowest byte of a position first, as this machine has. */
_Static_assert(sizeof(struct arrival) == 4 + PACKET_SIZE, "size of an arrival");

static inline struct arrivals read_arrivals(const char *name)
{
    struct arrivals all = {0};
    FILE *file = fopen(name, "rb");
    if (file == NULL || fseek(file, 0, SEEK_END) != 0) {
        perror(name);
        exit(1);
    }
    all.count = (size_t)ftell(file) / sizeof(struct arrival);
    all.items = calloc(all.count, sizeof(struct arrival));
    rewind(file);
    if (all.items == NULL || fread(all.items, sizeof(struct arrival), all.count, file) != all.count) {
        perror(name);
        exit(1);
    }
    fclose(file);
    return all;
}

/* What came of the arrivals, told on standard error. */
struct outcome {
    size_t packets, missing;
};

typedef struct outcome run_arrivals(const struct arrivals *arrivals);

static inline int measure(int argc, char **argv, const struct arrivals *arrivals, run_arrivals *run)
{
    struct timespec start, end;
    struct outcome outcome = {0};
    long times = argc == 3 ? strtol(argv[2], NULL, 10) : 0;
    clock_gettime(CLOCK_MONOTONIC, &start);
    for (long i = 0; i < times; i++)
        outcome = run(arrivals);
    clock_gettime(CLOCK_MONOTONIC, &end);
    int64_t elapsed = (int64_t)(end.tv_sec - start.tv_sec) * 1000000000 + end.tv_nsec - start.tv_nsec;
    int64_t hundredths = 100 * elapsed / ((times > 0 ? times : 1) * (int64_t)arrivals->count);
    fprintf(stderr, "%zu packets, %zu missing\n", outcome.packets, outcome.missing);
    printf("%" PRId64 ".%02" PRId64 "\n", hundredths / 100, hundredths % 100);
    return 0;
}

#endif
