/* Each function of mola.h used from C: a packet written and read, a record read, corrected and written, and a short history of one reorder buffer. */
#include "../include/mola.h"

#include <stdio.h>
#include <string.h>

_Static_assert(sizeof(struct mola_session) == 24, "size of a session");
_Static_assert(offsetof(struct mola_session, anchor.count) == 0, "place of anchor.count");
_Static_assert(offsetof(struct mola_session, anchor.time) == 4, "place of anchor.time");
_Static_assert(offsetof(struct mola_session, sum_word) == 8, "place of sum_word");
_Static_assert(offsetof(struct mola_session, threshold) == 12, "place of threshold");
_Static_assert(offsetof(struct mola_session, window.start) == 16, "place of window.start");
_Static_assert(offsetof(struct mola_session, window.marks) == 20, "place of window.marks");
_Static_assert(sizeof(struct mola_fields) == 28, "size of the fields");
_Static_assert(offsetof(struct mola_fields, count) == 2 && offsetof(struct mola_fields, coarse_time) == 4, "places of count and time");
_Static_assert(offsetof(struct mola_fields, ram_flag_word) == 12 && offsetof(struct mola_fields, hstart) == 24, "places of words");
_Static_assert(sizeof(struct mola_read) == 112 && offsetof(struct mola_read, fields) == 4 && offsetof(struct mola_read, arrays) == 32, "a read");
_Static_assert(sizeof(struct mola_packet_arrays) == 78 && offsetof(struct mola_packet_arrays, bins) == 30, "a packet's arrays");
_Static_assert(sizeof(struct mola_record_fields) == 96, "size of a record's fields");
_Static_assert(offsetof(struct mola_record_fields, position) == 8 && offsetof(struct mola_record_fields, quality) == 32, "places of groups");
_Static_assert(offsetof(struct mola_record_fields, descriptor) == 40 && offsetof(struct mola_record_fields, pointing) == 48, "places of groups");
_Static_assert(offsetof(struct mola_record_fields, ranges) == 60 && offsetof(struct mola_record_fields, receiver) == 76, "places of groups");
_Static_assert(offsetof(struct mola_record_fields, link) == 88, "place of link");
_Static_assert(offsetof(struct mola_quality, counter) == 5 && offsetof(struct mola_descriptor, carried) == 4, "places of carried bits");
_Static_assert(sizeof(struct mola_shot_arrays) == 520 && offsetof(struct mola_shot_arrays, trigger_channel) == 160, "shots");
_Static_assert(offsetof(struct mola_shot_arrays, class_number) == 300 && offsetof(struct mola_shot_arrays, encoder) == 340, "shots");
_Static_assert(offsetof(struct mola_shot_arrays, failures) == 420 && sizeof(struct mola_failures) == 5, "failures");
_Static_assert(sizeof(struct mola_record_arrays) == 588 && offsetof(struct mola_record_arrays, channels) == 520, "a record's arrays");
_Static_assert(offsetof(struct mola_record_arrays, xyz) == 568 && offsetof(struct mola_record_arrays, source_header) == 580, "a record's arrays");
_Static_assert(sizeof(struct mola_frame_1) == 28 && sizeof(struct mola_frame_2) == 28 && sizeof(struct mola_frame_3) == 14, "numbers of a block");
_Static_assert(offsetof(struct mola_frame_3, flag_word) == 6 && offsetof(struct mola_frame_3, range_tracking_status) == 13, "numbers of frame 3");
_Static_assert(sizeof(struct mola_frame_5) == 8 && sizeof(struct mola_frame_6) == 2 && sizeof(struct mola_frame_7) == 20, "numbers of a block");
_Static_assert(offsetof(struct mola_frame_7, ots_pulse_width) == 12, "numbers of frame 7");
_Static_assert(offsetof(struct mola_frame_7, areocentric_longitude_of_sun) == 16, "numbers of frame 7");
_Static_assert(sizeof(struct mola_block) == 108 && offsetof(struct mola_block, frame_1) == 4, "a block");
_Static_assert(offsetof(struct mola_block, frame_2) == 32 && offsetof(struct mola_block, frame_3) == 60, "a block");
_Static_assert(offsetof(struct mola_block, frame_5) == 76, "a block");
_Static_assert(offsetof(struct mola_block, frame_6) == 84 && offsetof(struct mola_block, frame_7) == 88, "a block");
_Static_assert(sizeof(struct mola_block_runs) == 58 && offsetof(struct mola_block_runs, range_gate_tracker_array) == 4, "runs of a block");
_Static_assert(offsetof(struct mola_block_runs, memory_dump_segment) == 32, "runs of a block");
_Static_assert(offsetof(struct mola_block_runs, command_echo) == 42, "runs of a block");
_Static_assert(sizeof(struct mola_record) == 1084 && offsetof(struct mola_record, block) == 100, "a record");
_Static_assert(offsetof(struct mola_record, arrays) == 208 && offsetof(struct mola_record, runs) == 796, "a record");
_Static_assert(offsetof(struct mola_record, carried) == 854 && offsetof(struct mola_record, uninterpreted) == 864, "a record");
_Static_assert(sizeof(struct mola_shot) == 28 && offsetof(struct mola_shot, encoder) == 18 && offsetof(struct mola_shot, good) == 22, "a shot");
_Static_assert(sizeof(struct mola_shot_read) == 32 && offsetof(struct mola_shot_read, shot) == 4, "a shot's read");
_Static_assert(sizeof(struct mola_answer) == 12, "size of an answer");
_Static_assert(sizeof(struct mola_count) == 8, "size of a count");

static int failures;

#define EXPECT(condition) expect((condition), #condition, __LINE__)

static void expect(int holds, const char *condition, int line)
{
    if (!holds) {
        printf("line %d: not %s\n", line, condition);
        failures++;
    }
}

static int is(struct mola_answer answer, uint32_t refusal, uint32_t kind, uint32_t position)
{
    return answer.refusal == refusal && answer.kind == kind && answer.position == position;
}

static uint8_t packet[MOLA_PACKET_SIZE], store[MOLA_STORE_SIZE], out[MOLA_STORE_SIZE];
static struct mola_session session;

/* A packet of count 16,380 + position, 14 seconds for each position after time 1,000,000. */
static void write_at(uint32_t position)
{
    static const uint8_t temperatures[16] = {[15] = 3}, readings[14] = {[13] = 4}, bins[48] = {1, 2}, carried[MOLA_CARRIED_SIZE] = {5};
    struct mola_fields fields = {
        .error_status = 5, .count = (uint16_t)((16380 + position) % 16384), .coarse_time = 1000000 + 14 * position, .hstart = 7,
    };
    EXPECT(mola_write_packet(fields, temperatures, readings, bins, carried, sizeof carried, MOLA_SUM_WORD, packet, sizeof packet) == 0);
}

static int holds_packet(const uint8_t *bytes, uint32_t position)
{
    write_at(position);
    return memcmp(bytes, packet, sizeof packet) == 0;
}

static struct mola_answer offer_at(uint32_t position)
{
    write_at(position);
    return mola_offer(&session, store, sizeof store, packet, sizeof packet);
}

static void packets(void)
{
    write_at(9);
    struct mola_read read = mola_read_packet(packet, sizeof packet, MOLA_SUM_WORD);
    EXPECT(read.refusal == 0 && read.fields.error_status == 5 && read.fields.count == 5);
    EXPECT(read.fields.coarse_time == 1000126 && read.fields.hstart == 7);
    EXPECT(packet[57] == 1 && packet[56] == 2);
    EXPECT(read.arrays.bins[0] == 1 && read.arrays.bins[1] == 2 && read.arrays.bins[47] == 0);
    EXPECT(read.arrays.temperatures[15] == 3 && packet[27] == 3 && read.arrays.readings[13] == 4 && packet[41] == 4);
    EXPECT(packet[MOLA_CARRIED_AT] == 5);
    EXPECT(mola_check_packet(packet, sizeof packet, MOLA_SUM_WORD) == 0);
    uint16_t sum = mola_packet_sum(packet, sizeof packet, MOLA_SUM_WORD);
    EXPECT(packet[140] == sum >> 8 && packet[141] == (sum & 255));
    EXPECT(mola_packet_sum(NULL, 0, 0) == 0);
    EXPECT(mola_word_sum(packet, sizeof packet) == (uint16_t)(2 * sum));
    packet[141] ^= 1;
    EXPECT(mola_check_packet(packet, sizeof packet, MOLA_SUM_WORD) == 10);
    read = mola_read_packet(packet, sizeof packet, MOLA_SUM_WORD);
    EXPECT(read.refusal == 10 && read.fields.count == 0 && read.arrays.bins[0] == 0);
    EXPECT(mola_check_packet(packet, sizeof packet, 52) == 2);
    EXPECT(mola_check_packet(NULL, 0, MOLA_SUM_WORD) == 1);
}

/* The sum of words: carries dropped, a last odd byte an upper half, and the sums of two parts, cut at an even byte, added. */
static void sums(void)
{
    static const uint8_t bytes[] = {0xFF, 0xFE, 0x00, 0x05, 0x12};
    EXPECT(mola_word_sum(NULL, 0) == 0);
    EXPECT(mola_word_sum(bytes, 1) == 0xFF00);
    EXPECT(mola_word_sum(bytes, 4) == 0x0003);
    EXPECT(mola_word_sum(bytes, 5) == 0x1203);
    EXPECT((uint16_t)(mola_word_sum(bytes, 2) + mola_word_sum(bytes + 2, 3)) == mola_word_sum(bytes, 5));
}

static void bins(void)
{
    uint32_t starts[48];
    EXPECT(mola_first_bin(7) == 4 && mola_first_bin(3) == 0 && mola_first_bin(2) == 0 && mola_first_bin(1) == 65534);
    mola_bin_starts(7, starts);
    EXPECT(starts[0] == 4 * 1536 && starts[47] == 51 * 1536);
    mola_bin_starts(1, starts);
    EXPECT(starts[0] == 65534 * 1536 && starts[47] == 65581 * 1536);
}

static void records(void)
{
    uint8_t record[MOLA_RECORD_SIZE] = {0};
    EXPECT(mola_check_record(record, sizeof record) == 15);
    record[491] = 7;
    EXPECT(mola_check_record(record, sizeof record) == 0);
    record[31] = 1;
    EXPECT(mola_check_record(record, sizeof record) == 12);
    EXPECT(mola_read_record(record, sizeof record).refusal == 12 && mola_read_shot(record, sizeof record, 0).refusal == 12);
    EXPECT(mola_read_record(record, sizeof record).block.frame == 0);
    EXPECT(mola_check_record(record, 775) == 11);
}

/* Each byte is its own number, modulo 256, but for these: microseconds and latitude are 0 and the frame index is as given; shots 1 and 20 are good,
 * and only shot 20's power test failed; encoder 1 is 0x21. */
static void number_bytes(uint8_t record[MOLA_RECORD_SIZE], uint8_t frame)
{
    static const uint8_t quality[4] = {0x98, 0x00, 0x01, 2}, descriptor[16] = {[13] = 0x80};
    for (int at = 0; at < MOLA_RECORD_SIZE; at++) {
        record[at] = (uint8_t)(at + 1);
    }
    memset(record + 4, 0, 4);
    memset(record + 12, 0, 4);
    memcpy(record + 28, quality, sizeof quality);
    memcpy(record + 32, descriptor, sizeof descriptor);
    record[490] = 0;
    record[491] = frame;
    record[620] = 0x21;
}

static void shots(void)
{
    uint8_t record[MOLA_RECORD_SIZE];
    number_bytes(record, 7);
    struct mola_shot_read read = mola_read_shot(record, sizeof record, 1);
    EXPECT(read.refusal == 0 && read.shot.good && read.shot.radius == 0x31323334 && read.shot.energy == 0x9192);
    EXPECT(read.shot.encoder.start == 1 && read.shot.encoder.stop == 2 && read.shot.encoder.carried_low == 0 && read.shot.encoder.carried_high == 0);
    EXPECT(!read.shot.failures.power && !mola_read_shot(record, sizeof record, 2).shot.good);
    read = mola_read_shot(record, sizeof record, 20);
    EXPECT(read.refusal == 0 && read.shot.good && read.shot.failures.power && !read.shot.failures.energy && !read.shot.failures.comparison);
    EXPECT(read.shot.trigger_channel == 0xF4 && read.shot.class_number == 0xA7A8);
    read = mola_read_shot(record, sizeof record, 21);
    EXPECT(read.refusal == 16 && read.shot.radius == 0 && !read.shot.good);
}

static struct mola_record read_numbered(uint8_t frame)
{
    uint8_t record[MOLA_RECORD_SIZE];
    number_bytes(record, frame);
    return mola_read_record(record, sizeof record);
}

/* Record byte 509 is 0xFD, 513 is 1 and 536 is 0x18. */
static void block_numbers(void)
{
    struct mola_block block = read_numbered(1).block;
    EXPECT(block.frame == 1 && block.frame_1.computer_memory_temperature == (int16_t)0xFDFE && block.frame_1.honeycomb_panel_temperature == 0x1718);
    EXPECT(block.frame_2.electronics_box_top_sc_thrmstr == 0 && block.frame_7.ots_range == 0);
    block = read_numbered(2).block;
    EXPECT(block.frame == 2 && block.frame_2.laser_case_hot_foot_temp == (int16_t)0xFF00 && block.frame_2.plus_28_volt_voltage_monitor == 0x0102);
    block = read_numbered(3).block;
    EXPECT(block.frame == 3 && block.frame_3.minus_5_volt_current_monitor == 0xFDFE && block.frame_3.software_version_number == 2);
    EXPECT(block.frame_3.flag_word == 0x0304 && block.frame_3.range_tracking_status == 0x0E);
    EXPECT(read_numbered(4).block.frame == 4);
    block = read_numbered(5).block;
    EXPECT(block.frame == 5 && block.frame_5.hstart_value_histogram_dump == 0x090A0B0C && block.frame_5.valid_commands_received_count == 0x1112);
    block = read_numbered(6).block;
    EXPECT(block.frame == 6 && block.frame_6.packet_validity_checksum == 0x1718);
    block = read_numbered(7).block;
    EXPECT(block.frame == 7 && block.frame_7.ots_range == 0xFDFEFF00 && block.frame_7.ots_transmit_power == 0x090A0B0C);
    EXPECT(block.frame_7.packet_type == 0x10 && block.frame_7.areocentric_longitude_of_sun == 0x1112 && block.frame_6.packet_validity_checksum == 0);
}

static void block_runs(void)
{
    struct mola_block_runs runs = read_numbered(3).runs;
    EXPECT(runs.status_flags[0] == 0x0506 && runs.status_flags[1] == 0x0708 && runs.command_echo[0] == 0);
    EXPECT(runs.range_gate_tracker_array[0] == 0x1112 && runs.range_gate_tracker_array[3] == 0x1718 && runs.range_gate_tracker_array[4] == 0);
    runs = read_numbered(4).runs;
    EXPECT(runs.range_gate_tracker_array[0] == 0xFDFE && runs.range_gate_tracker_array[13] == 0x1718 && runs.status_flags[0] == 0);
    runs = read_numbered(5).runs;
    EXPECT(runs.range_gate_tracker_array[5] == 0x0708 && runs.range_gate_tracker_array[6] == 0);
    EXPECT(runs.memory_dump_segment[0] == 0x1314 && runs.memory_dump_segment[2] == 0x1718 && runs.memory_dump_segment[3] == 0);
    runs = read_numbered(6).runs;
    EXPECT(runs.memory_dump_segment[4] == 0x0506 && runs.command_echo[0] == 0x0708 && runs.command_echo[7] == 0x1516);
}

static void block_carried(void)
{
    static const uint8_t frame_3[MOLA_BLOCK_CARRIED_SIZE] = {0x0F, 0x10}, frame_5[MOLA_BLOCK_CARRIED_SIZE] = {0x0D, 0x0E, 0x0F, 0x10};
    static const uint8_t frame_7[MOLA_BLOCK_CARRIED_SIZE] = {5, 6, 7, 8, 0x13, 0x14, 0x15, 0x16, 0x17, 0x18}, none[MOLA_BLOCK_CARRIED_SIZE];
    static const uint8_t *const carried[7] = {none, none, frame_3, none, frame_5, none, frame_7};
    for (uint8_t frame = 1; frame <= 7; frame++) {
        EXPECT(memcmp(read_numbered(frame).carried, carried[frame - 1], MOLA_BLOCK_CARRIED_SIZE) == 0);
    }
}

/* How many bytes of the block the layout of the frame does not name. */
static size_t carried_len(uint32_t frame)
{
    return frame == 3 ? 2 : frame == 5 ? 4 : frame == 7 ? 10 : 0;
}

static uint8_t write_with(const struct mola_record *read, size_t carried, uint8_t *written, size_t written_len)
{
    return mola_write_record(read->fields, read->block, read->arrays, read->runs, read->carried, carried, read->uninterpreted,
        sizeof read->uninterpreted, written, written_len);
}

static uint8_t write_back(const struct mola_record *read, uint8_t *written, size_t written_len)
{
    return write_with(read, carried_len(read->block.frame), written, written_len);
}

/* Each frame's record is written back, whatever stands in what the frame lacks. */
static void blocks_written(void)
{
    uint8_t record[MOLA_RECORD_SIZE], written[MOLA_RECORD_SIZE] = {0};
    for (uint8_t frame = 1; frame <= 7; frame++) {
        number_bytes(record, frame);
        struct mola_record read = mola_read_record(record, sizeof record);
        if (frame != 1) {
            read.block.frame_1.start_detector_temperature = -1;
        }
        if (frame != 4) {
            read.runs.range_gate_tracker_array[13] = 0xFFFF;
        }
        if (frame != 6) {
            read.runs.command_echo[0] = 0xFFFF;
        }
        EXPECT(write_back(&read, written, sizeof written) == 0 && memcmp(written, record, sizeof record) == 0);
    }
}

static void record_corrected(void)
{
    uint8_t record[MOLA_RECORD_SIZE], written[MOLA_RECORD_SIZE] = {0};
    number_bytes(record, 7);
    struct mola_record read = mola_read_record(record, sizeof record);
    EXPECT(read.refusal == 0 && read.fields.time.whole == 0x01020304 && read.fields.position.ground_latitude == 0x51525354);
    EXPECT(read.fields.quality.good == 0x80001 && read.fields.quality.carried == 9 && read.fields.quality.counter == 2);
    EXPECT(read.fields.receiver.frame_index == 7 && read.fields.link.millis == (int16_t)0xF9FA && read.fields.link.fine_time == 0xFBFC);
    EXPECT(read.arrays.shots.failures[19].power && read.arrays.channels.thresholds[7] == 0xDFE0 && read.arrays.xyz[2] == 0x4D4E4F50);
    EXPECT(memcmp(read.uninterpreted, record + 536, 84) == 0 && memcmp(read.uninterpreted + 84, record + 640, 136) == 0);
    read.fields.quality.counter = 77;
    EXPECT(write_back(&read, written, sizeof written) == 0 && memcmp(written, record, sizeof record) == 0);

    read.fields.position.latitude = -90000000;
    read.fields.quality.good |= 1u << (20 - 2);
    read.arrays.shots.class_number[1] = 1;
    read.block.frame_7.ots_qual_flag = 0xAB;
    read.carried[4] = 0xCD;
    EXPECT(write_back(&read, written, sizeof written) == 0 && written[28] == 0x9C && written[31] == 3);
    EXPECT(written[526] == 0xAB && written[530] == 0xCD);
    EXPECT(mola_read_shot(written, sizeof written, 2).shot.good && mola_read_shot(written, sizeof written, 2).shot.class_number == 1);
    EXPECT(mola_read_record(written, sizeof written).fields.position.latitude == -90000000);
}

static void record_writes_refused(void)
{
    uint8_t record[MOLA_RECORD_SIZE], written[MOLA_RECORD_SIZE] = {0};
    number_bytes(record, 7);
    struct mola_record read = mola_read_record(record, sizeof record);
    read.block.frame = 5;
    EXPECT(write_with(&read, 4, written, sizeof written) == 42);
    EXPECT(write_with(&read, 4, written, 775) == 41);
    EXPECT(write_with(&read, 10, written, 775) == 49);
    read.block.frame = 8;
    EXPECT(write_with(&read, 0, written, sizeof written) == 42);
    EXPECT(write_with(&read, 1, written, sizeof written) == 49);
    read.block.frame = 7;
    EXPECT(write_back(&read, written, 775) == 41);
    EXPECT(mola_write_record(read.fields, read.block, read.arrays, read.runs, read.carried, 10, NULL, 0, written, 775) == 49);
    read.arrays.shots.encoder[19].stop = 4;
    EXPECT(write_back(&read, written, sizeof written) == 49);
    read.fields.receiver.frame_index = 8;
    EXPECT(write_back(&read, written, sizeof written) == 15);
    read.fields.position.latitude = -90000001;
    EXPECT(write_back(&read, written, sizeof written) == 14);
    read.fields.time.micros = 1000000;
    EXPECT(write_back(&read, written, sizeof written) == 13);
    EXPECT(memcmp(written, (uint8_t[MOLA_RECORD_SIZE]){0}, sizeof written) == 0);
}

/* Positions 0, 3, 1 and 5 come; with threshold 3 position 2 is missing when 5 is held. */
static void history(void)
{
    uint32_t descriptions[64];
    write_at(0);
    EXPECT(is(mola_open(&session, store, sizeof store, packet, sizeof packet, 32, MOLA_SUM_WORD), 20, MOLA_NOTHING, 0));
    EXPECT(is(mola_open(&session, store, sizeof store, packet, sizeof packet, 3, MOLA_SUM_WORD), 0, MOLA_PACKET, 0));
    EXPECT(session.anchor.count == 16380 && session.anchor.time == 1000000 && session.sum_word == MOLA_SUM_WORD);
    EXPECT(session.threshold == 3 && session.window.start == 0 && session.window.marks == 1);
    EXPECT(is(offer_at(3), 0, MOLA_PACKET, 3));
    EXPECT(is(offer_at(1), 0, MOLA_PACKET, 1));
    EXPECT(is(offer_at(1), 24, MOLA_NOTHING, 0));
    EXPECT(is(offer_at(32), 25, MOLA_NOTHING, 0));
    EXPECT(is(mola_pass(&session), 26, MOLA_NOTHING, 0));
    EXPECT(is(mola_serve(&session, out, 1079, store, sizeof store), 29, MOLA_NOTHING, 0));
    EXPECT(is(mola_serve(&session, out, MOLA_PACKET_SIZE, store, sizeof store), 0, MOLA_PACKET, 0) && holds_packet(out, 0));
    EXPECT(is(mola_serve(&session, out, MOLA_PACKET_SIZE, store, sizeof store), 0, MOLA_PACKET, 1) && holds_packet(out, 1));
    EXPECT(is(mola_serve(&session, out, MOLA_PACKET_SIZE, store, sizeof store), 0, MOLA_NOTHING, 0));
    EXPECT(is(offer_at(1), 23, MOLA_NOTHING, 0));
    EXPECT(is(offer_at(5), 0, MOLA_PACKET, 5));

    memset(descriptions, 255, sizeof descriptions);
    struct mola_count count = mola_drain(&session, out, sizeof out, store, sizeof store, 33, descriptions);
    EXPECT(count.refusal == 31 && count.count == 0 && descriptions[0] == UINT32_MAX);
    count = mola_drain(&session, out, sizeof out, store, sizeof store, 32, descriptions);
    EXPECT(count.refusal == 0 && count.count == 2);
    EXPECT(descriptions[0] == MOLA_MISSING && descriptions[1] == 2 && descriptions[2] == MOLA_PACKET && descriptions[3] == 3);
    EXPECT(descriptions[4] == 0 && descriptions[63] == 0 && holds_packet(out + MOLA_PACKET_SIZE, 3));
    EXPECT(is(mola_pass(&session), 0, MOLA_MISSING, 4));
    count = mola_drain(&session, out, sizeof out, store, sizeof store, 32, descriptions);
    EXPECT(count.refusal == 0 && count.count == 1 && holds_packet(out, 5));
    EXPECT(session.window.start == 6 && session.window.marks == 0);

    session.window.start = 1000000;
    EXPECT(is(mola_pass(&session), 28, MOLA_NOTHING, 0));
    session.window.start = 1000001;
    EXPECT(is(mola_pass(&session), 30, MOLA_NOTHING, 0) && session.window.start == 1000001);
}

int main(void)
{
    packets();
    sums();
    bins();
    records();
    shots();
    block_numbers();
    block_runs();
    block_carried();
    blocks_written();
    record_corrected();
    record_writes_refused();
    history();
    if (failures != 0) {
        return 1;
    }
    puts("smoke ok");
    return 0;
}
