/* Puts the packets of an AEDR file in order. Reads 1,230-byte records on standard input, in order of arrival, and prints what becomes of each, and
 * what is served after it:
 *
 *     record 3 held 2        the packet of record 3 is held at position 2
 *     record 4 refused 10    the packet of record 4 is refused: mola.h lists the numbers
 *     served 1               the packet at position 1 is served
 *     missing 2              position 2 is called missing
 *
 * The last line, `next N`, comes only where the input was read to its end and all of it was printed. The program's argument is the threshold, 1 to 31:
 * a position is called missing once a packet at least so many positions further on is held. The first packet that is accepted opens the buffer at
 * position 0; one whose position comes out below next is refused (23).
 *
 * After a gap longer than the buffer a packet is too far ahead (25), and so are all that follow it. This program then calls next missing by hand, by
 * mola_pass, until the packet fits. At the end of the input it does so until nothing is held. */
#include "mola.h"

#include <stdio.h>
#include <stdlib.h>

#define RECORD_SIZE 1230
#define HEADER_SIZE 150 /* the transport header, before the packet */
#define TOO_FAR_AHEAD 25

static struct mola_session session;
static uint8_t store[MOLA_STORE_SIZE], out[MOLA_STORE_SIZE];

static void stop(const char *call, uint32_t refusal)
{
    fprintf(stderr, "%s refused %u\n", call, refusal);
    exit(1);
}

/* The packet's bytes, for whoever wants them in order; here only the position is printed. */
static void serve_packet(uint32_t position, const uint8_t *packet)
{
    (void)packet;
    printf("served %u\n", position);
}

/* Serves all that can be served. */
static void drain(void)
{
    uint32_t descriptions[64];
    struct mola_count drained = mola_drain(&session, out, sizeof out, store, sizeof store, 32, descriptions);
    if (drained.refusal != 0)
        stop("drain", drained.refusal);
    for (uint32_t i = 0; i < drained.count; i++) {
        uint32_t kind = descriptions[2 * i], position = descriptions[2 * i + 1];
        if (kind == MOLA_PACKET)
            serve_packet(position, out + MOLA_PACKET_SIZE * i);
        else
            printf("missing %u\n", position);
    }
}

/* Calls next missing by hand; after a drain it isn't held. */
static void pass_next(void)
{
    struct mola_answer answer = mola_pass(&session);
    if (answer.refusal != 0)
        stop("pass", answer.refusal);
    printf("missing %u\n", answer.position);
    drain();
}

static struct mola_answer offer(const uint8_t *packet, size_t packet_len)
{
    struct mola_answer answer;
    while ((answer = mola_offer(&session, store, sizeof store, packet, packet_len)).refusal == TOO_FAR_AHEAD)
        pass_next();
    return answer;
}

/* Opens the buffer with a record's packet, or offers it to a buffer that is open. Whether the buffer is open then. */
static int take(unsigned long number, const uint8_t *record, size_t length, int is_open, uint32_t threshold)
{
    size_t packet_len = length < HEADER_SIZE ? 0 : length - HEADER_SIZE;
    const uint8_t *packet = record + (length - packet_len);
    struct mola_answer answer = is_open ? offer(packet, packet_len)
                                        : mola_open(&session, store, sizeof store, packet, packet_len, threshold, MOLA_SUM_WORD);
    if (answer.refusal != 0) {
        printf("record %lu refused %u\n", number, answer.refusal);
        return is_open;
    }
    printf("record %lu held %u\n", number, answer.position);
    drain();
    return 1;
}

static uint32_t threshold_of(int argc, char **argv)
{
    char *end = NULL;
    unsigned long threshold = argc == 2 ? strtoul(argv[1], &end, 10) : 0;
    if (end == NULL || *end != '\0' || threshold < 1 || threshold > 31) {
        fputs("usage: reorder THRESHOLD < FILE, with a threshold from 1 to 31\n", stderr);
        exit(2);
    }
    return (uint32_t)threshold;
}

int main(int argc, char **argv)
{
    uint8_t record[RECORD_SIZE];
    uint32_t threshold = threshold_of(argc, argv);
    int is_open = 0;
    size_t length;
    for (unsigned long number = 1; (length = fread(record, 1, RECORD_SIZE, stdin)) > 0; number++)
        is_open = take(number, record, length, is_open, threshold);
    if (ferror(stdin)) {
        perror("standard input");
        return 1;
    }
    if (!is_open) {
        fputs("no packet was accepted\n", stderr);
        return 1;
    }
    while (session.window.marks != 0)
        pass_next();
    printf("next %u\n", session.window.start);
    return fflush(stdout) == 0 && !ferror(stdout) ? 0 : 1;
}
