/* The arrivals through the jitter buffer of libspeexdsp.
 *
 * It copies each packet into memory that it allocates, and copies it out to the caller and frees it: the same two copies as the reorder
 * buffer makes. It has 200 places, and looks through all of them for each put and each get.
 *
 * It does not look into a packet: no sum, no header, no position from count and clock, so a damaged packet is stored and given like any
 * other. It does not see duplicates; a late copy is dropped with the packets that the pointer has passed. Its get always answers for the
 * position of its pointer and moves on, packet or not, so that a consumer cannot get until nothing comes: here it gets while the pointer
 * is at least THRESHOLD behind the newest arrival, with a tick after each get, as its header asks. It adapts that delay by itself. */
#include "arrivals.h"

#include <speex/speex_jitter.h>

static JitterBuffer *jitter;
static char out[PACKET_SIZE];

static struct outcome run(const struct arrivals *arrivals)
{
    struct outcome outcome = {0};
    uint32_t newest = 0;
    jitter_buffer_reset(jitter);
    for (size_t i = 0; i < arrivals->count; i++) {
        const struct arrival *arrival = &arrivals->items[i];
        JitterBufferPacket packet = {
            .data = (char *)arrival->packet, .len = PACKET_SIZE, .timestamp = arrival->position, .span = 1,
            .sequence = (uint16_t)arrival->position,
        };
        jitter_buffer_put(jitter, &packet);
        if (newest < arrival->position)
            newest = arrival->position;
        while ((uint32_t)jitter_buffer_get_pointer_timestamp(jitter) + THRESHOLD <= newest) {
            spx_int32_t offset;
            packet.data = out;
            packet.len = sizeof out;
            if (jitter_buffer_get(jitter, &packet, 1, &offset) == JITTER_BUFFER_OK)
                outcome.packets++;
            else
                outcome.missing++;
            jitter_buffer_tick(jitter);
        }
    }
    return outcome;
}

int main(int argc, char **argv)
{
    if (argc != 3)
        return 2;
    struct arrivals arrivals = read_arrivals(argv[1]);
    jitter = jitter_buffer_init(1);
    return measure(argc, argv, &arrivals, run);
}
