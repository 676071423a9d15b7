/* The stack that each function of mola.h uses: the deepest byte that it writes on a painted stack, less that of an empty function. Of
 * several cases of a call the deepest counts. Linked with libmola.a, and with reference_c.rs. */
#include "../include/mola.h"

#include <stdio.h>
#include <string.h>
#include <ucontext.h>

#define PAINT 0xA5

static uint8_t stack[256 * 1024] __attribute__((aligned(64)));
static ucontext_t here, there;

/* The bytes of the stack down to the lowest one that the call wrote. */
static size_t depth(void (*call)(void))
{
    size_t untouched = 0;
    memset(stack, PAINT, sizeof stack);
    getcontext(&there);
    there.uc_stack.ss_sp = stack;
    there.uc_stack.ss_size = sizeof stack;
    there.uc_link = &here;
    makecontext(&there, call, 0);
    swapcontext(&here, &there);
    while (untouched < sizeof stack && stack[untouched] == PAINT)
        untouched++;
    return sizeof stack - untouched;
}

/* ---- the arguments, which are not on the stack */

static const uint8_t temperatures[16], readings[14], bins[48];
static uint8_t carried[MOLA_CARRIED_SIZE], packet[MOLA_PACKET_SIZE], record[MOLA_RECORD_SIZE];
static uint8_t store[MOLA_STORE_SIZE], out[MOLA_STORE_SIZE];
static uint32_t descriptions[64], starts[48];
static struct mola_fields fields = {.count = 16380, .coarse_time = 1000000};
static struct mola_record given;
static size_t given_carried;
static struct mola_session session;

static volatile uint32_t answered;

static void empty(void) { answered = 0; }
static void word_sum(void) { answered = mola_word_sum(store, sizeof store); }
static void sum(void) { answered = mola_packet_sum(packet, sizeof packet, MOLA_SUM_WORD); }
static void check(void) { answered = mola_check_packet(packet, sizeof packet, MOLA_SUM_WORD); }
static void read_packet(void) { answered = mola_read_packet(packet, sizeof packet, MOLA_SUM_WORD).refusal; }
static void first_bin(void) { answered = mola_first_bin(fields.hstart); }
static void bin_starts(void) { mola_bin_starts(fields.hstart, starts); }
static void check_record(void) { answered = mola_check_record(record, sizeof record); }
static void read_record(void) { answered = mola_read_record(record, sizeof record).refusal; }
static void read_shot(void) { answered = mola_read_shot(record, sizeof record, 20).refusal; }
static void offer(void) { answered = mola_offer(&session, store, sizeof store, packet, sizeof packet).refusal; }
static void serve(void) { answered = mola_serve(&session, out, sizeof out, store, sizeof store).refusal; }
static void pass(void) { answered = mola_pass(&session).refusal; }

static void write_packet(void)
{
    answered = mola_write_packet(fields, temperatures, readings, bins, carried, sizeof carried, MOLA_SUM_WORD, packet, sizeof packet);
}

static void write_record(void)
{
    answered = mola_write_record(given.fields, given.block, given.arrays, given.runs, given.carried, given_carried, given.uninterpreted,
        sizeof given.uninterpreted, record, sizeof record);
}

static void open_session(void)
{
    answered = mola_open(&session, store, sizeof store, packet, sizeof packet, 4, MOLA_SUM_WORD).refusal;
}

static void drain(void)
{
    answered = mola_drain(&session, out, sizeof out, store, sizeof store, 32, descriptions).refusal;
}

/* ---- the rows */

static void row(const char *name, size_t deepest)
{
    printf("%s %zu\n", name, deepest - depth(empty));
}

/* The deepest of a call that is refused, as the packet or the session has a defect, and one that is not. */
static size_t deeper(void (*call)(void), uint8_t *defect)
{
    size_t refused, accepted;
    *defect ^= 0xFF;
    refused = depth(call);
    *defect ^= 0xFF;
    accepted = depth(call);
    return refused < accepted ? accepted : refused;
}

/* The deepest of a call over a record of each frame, to be read, and given to be written. */
static size_t deepest_frame(void (*call)(void), uint8_t *defect)
{
    static const size_t carried_bytes[7] = {0, 0, 2, 0, 4, 0, 10};
    size_t most = 0;
    for (uint8_t frame = 1; frame <= 7; frame++) {
        record[491] = frame;
        given = mola_read_record(record, sizeof record);
        given_carried = carried_bytes[frame - 1];
        size_t this = deeper(call, defect);
        if (most < this)
            most = this;
    }
    return most;
}

/* The deepest of a call over windows that are full, empty, and hold only the position ahead so far. */
static size_t deepest(void (*call)(void), uint32_t ahead)
{
    const uint32_t marks[] = {UINT32_MAX, 0, UINT32_C(1) << ahead};
    size_t most = 0;
    for (int i = 0; i < 3; i++) {
        session.window.start = 0;
        session.window.marks = marks[i];
        size_t this = deeper(call, (uint8_t *)&session.threshold);
        if (most < this)
            most = this;
    }
    return most;
}

int main(void)
{
    /* A first call, so that no row has the stack of the dynamic linker. */
    record[491] = 1;
    given = mola_read_record(record, sizeof record);
    row("mola_write_packet", deeper(write_packet, (uint8_t *)&fields.error_status));
    row("mola_word_sum", depth(word_sum));
    row("mola_packet_sum", depth(sum));
    row("mola_check_packet", deeper(check, &packet[700]));
    row("mola_read_packet", deeper(read_packet, &packet[700]));
    row("mola_first_bin", depth(first_bin));
    row("mola_bin_starts", depth(bin_starts));
    row("mola_check_record", deepest_frame(check_record, &record[31]));
    row("mola_read_record", deepest_frame(read_record, &record[31]));
    row("mola_read_shot", deepest_frame(read_shot, &record[31]));
    row("mola_write_record", deepest_frame(write_record, &given.arrays.shots.encoder[19].stop));
    row("mola_open", deeper(open_session, &packet[700]));
    session.window.marks = 0;
    row("mola_offer", deeper(offer, &packet[700]));
    row("mola_serve", deepest(serve, 4));
    row("mola_drain", deepest(drain, 4));
    row("mola_pass", deepest(pass, 4));
    return 0;
}
