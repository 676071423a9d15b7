/* The arrivals through the jitter buffer of libre.
 *
 * It copies no packet: it keeps a reference to memory of the caller, which it counts. The memory of all arrivals is allocated here before
 * the measured run. It keeps a list in order of sequence numbers of 16 bits, refuses duplicates and late packets, and gives its first
 * packet once it has more than THRESHOLD of them; a get that has nothing to give changes nothing, so the consumer gets until nothing comes.
 *
 * It does not look into a packet: no sum, no header, no position from count and clock, so a damaged packet is stored and given like any
 * other. It does not say that a position is missing. */
#include "arrivals.h"

#include <re/re.h>

static struct jbuf *jitter;
static void **packets;

static struct outcome run(const struct arrivals *arrivals)
{
    struct outcome outcome = {0};
    jbuf_flush(jitter);
    for (size_t i = 0; i < arrivals->count; i++) {
        struct rtp_header header = {.seq = (uint16_t)arrivals->items[i].position, .ts = arrivals->items[i].position};
        void *packet;
        jbuf_put(jitter, &header, packets[i]);
        while (jbuf_get(jitter, &header, &packet) == 0) {
            outcome.packets++;
            mem_deref(packet);
        }
    }
    return outcome;
}

int main(int argc, char **argv)
{
    if (argc != 3)
        return 2;
    struct arrivals arrivals = read_arrivals(argv[1]);
    packets = calloc(arrivals.count, sizeof *packets);
    if (packets == NULL || jbuf_alloc(&jitter, THRESHOLD, 32) != 0)
        return 1;
    for (size_t i = 0; i < arrivals.count; i++) {
        packets[i] = mem_alloc(PACKET_SIZE, NULL);
        if (packets[i] == NULL)
            return 1;
        memcpy(packets[i], arrivals.items[i].packet, PACKET_SIZE);
    }
    return measure(argc, argv, &arrivals, run);
}
