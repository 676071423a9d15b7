/* Verified telemetry for the Mars Orbiter Laser Altimeter: the functions of libmola.a.
 *
 * Every function takes any bytes and any numbers, ends, and either does its work or gives a refusal number, which is never 0. A refusal
 * writes nothing: every byte of what is lent stays as it was, a lent session's too. What each sentence below says of a function's answer, and of
 * what the function leaves, is proved of it, in Rattle, before the archive is built; that the declarations here fit the archive is not proved but
 * tested.
 *
 * A pointer with a length is lent: that many bytes to read, or to write where the pointer is not const. A length of 0 takes any pointer, a null
 * pointer too. A pointer without a length (session, temperatures, readings, bins, starts, descriptions) points to one whole object of its type, and
 * is never null. What a call writes overlaps no other argument. Structures other than the session go by value, with their arrays; a bool in them is
 * 0 or 1, as C leaves it. Of the reorder buffer's arguments, the session comes first, then what is written, then what is read, then numbers: serve
 * and drain take out before store. No function keeps a pointer, allocates, or has a state of its own.
 *
 * Refusal numbers. "Gives" below has those that a function can give, in the order in which they are tested:
 *    1 packet not 1,080 bytes                       17 count over 16,383, error status over 7, or carried bytes not 974
 *    2 sum_word not 53 to 539                       18 output not 1,080 bytes
 *    3 version not 0                                20 threshold not 1 to 31
 *    4 spare bit not 0                              21 no position fits the packet's count and time
 *    5 secondary header flag not 0                  22 position over 999,999
 *    6 instrument not 35                            23 position below next
 *    7 segmentation not 3                           24 position already held
 *    8 length not 1,073                             25 position over next + 31
 *    9 type not 0                                   26 pass while next is held
 *   10 sum disagrees                                27 store not 34,560 bytes
 *   11 record not 776 bytes                         28 pass while next is 1,000,000
 *   12 quality counter wrong                        29 output under 1,080 bytes (serve), not 34,560 (drain)
 *   13 microseconds beyond 999,999 either way       30 session broken: a number out of its range, or a position held over 999,999
 *   14 latitude beyond 90,000,000 either way        31 budget over 32
 *   15 frame index not 1 to 7                       40 (a class given as unassigned with number 0 or 1: only in Rattle)
 *   16 shot not 1 to 20                             41 output not 776 bytes
 *                                                   42 block and frame index disagree
 *                                                   49 bits given over their width, carried block bytes not as many as the block's
 *                                                      layout leaves, or uninterpreted bytes not 220
 */
#ifndef MOLA_H
#define MOLA_H

#include <stdbool.h>
#include <stddef.h>
#include <stdint.h>

#ifdef __cplusplus
extern "C" {
#endif

#define MOLA_PACKET_SIZE 1080        /* a science packet */
#define MOLA_CARRIED_SIZE 974        /* its carried bytes */
#define MOLA_CARRIED_AT 106          /* where they start in the packet, counted from 0 */
#define MOLA_RECORD_SIZE 776         /* a PEDR record */
#define MOLA_BLOCK_CARRIED_SIZE 10   /* the most carried bytes of its engineering block: frame 3 has 2, frame 5 has 4, frame 7 has 10, others none */
#define MOLA_UNINTERPRETED_SIZE 220  /* its uninterpreted bytes: record bytes 537 to 620 and then 641 to 776, counted from 1 */
#define MOLA_STORE_SIZE 34560        /* the store of a reorder buffer, and a drain's output: 32 packets */
#define MOLA_SUM_WORD 70             /* the published place of a science packet's sum, a word number */

/* What an answer of the reorder buffer is about. */
#define MOLA_NOTHING 0               /* nothing: a refusal, or that a serve waits */
#define MOLA_PACKET 1                /* the packet at the position */
#define MOLA_MISSING 2               /* that the position is missing */

/* The free fields of a science packet that are single numbers. */
struct mola_fields {
    uint8_t error_status;
    uint16_t count;
    uint32_t coarse_time;
    uint8_t fine_time;
    uint8_t status_register;
    uint8_t software_version;
    uint16_t ram_flag_word;
    uint16_t status_word_1;
    uint16_t status_word_2;
    uint16_t software_checksum;
    uint8_t commands_received;
    uint8_t command_errors;
    uint8_t transmitter_threshold;
    uint8_t tracking_status;
    uint16_t hstart;
};

/* Those that are arrays. Bin j is at index j; the packet has it at byte 57 + j for even j and 55 + j for odd j. */
struct mola_packet_arrays {
    uint8_t temperatures[16];
    uint8_t readings[14];
    uint8_t bins[48];
};

/* A packet's refusal number and zeros, or 0 and its fields and arrays. */
struct mola_read {
    uint32_t refusal;
    struct mola_fields fields;
    struct mola_packet_arrays arrays;
};

/* The fields of a PEDR record that are single numbers, in groups, each as it stands in the record. */
struct mola_frame_time {
    int32_t whole;
    int32_t micros;
};

struct mola_orbit_position {
    uint32_t orbit;
    int32_t latitude;           /* at record byte 13; 14 is about this one */
    int32_t longitude;
    uint32_t radial_distance;
    int32_t ground_latitude;
    int32_t ground_longitude;
};

struct mola_quality {
    uint32_t good;              /* bits 0 to 19: bit 20 - s is set for a good shot s */
    uint8_t carried;            /* bits 20 to 23 */
    uint8_t counter;            /* the ones of good; the writer works it out and ignores what is given */
};

struct mola_descriptor {        /* the tests of the frame, true where one failed */
    bool packet_sum;
    bool software_sum;
    bool mode;
    bool ots;
    uint32_t carried;           /* bits 104 to 127 */
};

struct mola_pointing {
    int32_t right_ascension;
    int32_t declination;
    int32_t twist;
};

struct mola_ranges {
    uint32_t mid_point_range;
    uint32_t frame_radius;
    uint32_t delay;
    uint32_t width;
};

struct mola_receiver {
    uint16_t channel_mask;
    uint16_t minimum_hits;
    uint16_t hit_count;
    uint16_t frame_counter;
    uint16_t trigger;
    uint16_t frame_index;
};

struct mola_packet_link {       /* the time of the record's packet */
    int32_t seconds;
    int16_t millis;
    uint16_t fine_time;
};

struct mola_record_fields {
    struct mola_frame_time time;
    struct mola_orbit_position position;
    struct mola_quality quality;
    struct mola_descriptor descriptor;
    struct mola_pointing pointing;
    struct mola_ranges ranges;
    struct mola_receiver receiver;
    struct mola_packet_link link;
};

/* The four parts of a shot's encoder byte, two bits each. */
struct mola_encoder {
    uint8_t start;              /* bits 0 and 1 */
    uint8_t carried_low;        /* bits 2 and 3 */
    uint8_t stop;               /* bits 4 and 5 */
    uint8_t carried_high;       /* bits 6 and 7 */
};

/* The tests of one shot, true where it failed one. */
struct mola_failures {
    bool power;
    bool energy;
    bool range;
    bool window;
    bool comparison;
};

/* The columns that have a value for each shot, shot s at index s - 1. Class 0 is a false or no trigger, 1 probable ground; others are unassigned. */
struct mola_shot_arrays {
    uint32_t radius[20];
    uint16_t energy[20];
    uint16_t reflectivity[20];
    uint8_t trigger_channel[20];
    uint16_t pulse_width[20];
    uint16_t optical_width[20];
    uint16_t laser_power[20];
    uint16_t class_number[20];
    struct mola_encoder encoder[20];
    struct mola_failures failures[20];
};

/* Channels 1 to 4 in the frame's first half, then in its second. */
struct mola_channel_arrays {
    uint32_t noise[8];
    uint16_t thresholds[8];
};

struct mola_record_arrays {
    struct mola_shot_arrays shots;
    struct mola_channel_arrays channels;
    int32_t xyz[3];
    uint32_t source_header[2];
};

/* The engineering block of a record is record bytes 509 to 536, counted from 1. Each frame has a layout of its own, PEDRENG1.FMT to PEDRENG7.FMT: its
 * columns that are single numbers, by their names. Frame 4 has none. */
struct mola_frame_1 {            /* degrees Celsius * 100 */
    int16_t computer_memory_temperature;
    int16_t computer_cpu_temperature;
    int16_t power_supply_temperature;
    int16_t computer_io_temperature;
    int16_t laser_diode_array_temperature;
    int16_t laser_diode_drive_elecs_temp;
    int16_t optical_test_source_led_temp;
    int16_t hundred_mhz_oscillator_temp;
    int16_t start_detector_temperature;
    int16_t outside_detector_housing_temp;
    int16_t lasr_radiatr_opp_opt_port_temp;
    int16_t lser_radiator_output_port_temp;
    int16_t interface_plate_hot_foot_temp;
    int16_t honeycomb_panel_temperature;
};

struct mola_frame_2 {            /* temperatures in degrees Celsius * 100, voltages in millivolts but for high_voltage_monitor */
    int16_t electronics_box_top_sc_thrmstr;
    int16_t laser_case_hot_foot_temp;
    uint16_t plus_28_volt_voltage_monitor;
    uint16_t reference_voltage_monitor;
    uint16_t plus_12_volt_voltage_monitor;
    uint16_t plus_24_volt_voltage_monitor;
    uint16_t plus_5_volt_voltage_monitor;
    uint16_t minus_12_volt_voltage_monitor;
    uint16_t laser_thermal_current_monitor;     /* milliamperes * 10 */
    uint16_t minus_5_volt_voltage_monitor;
    uint16_t power_supply_current_monitor;      /* milliamperes * 10 */
    uint16_t high_voltage_monitor;              /* decivolts */
    uint16_t minus_12_volt_current_monitor;     /* milliamperes * 100 */
    uint16_t plus_12_volt_current_monitor;      /* milliamperes * 100 */
};

struct mola_frame_3 {
    uint16_t minus_5_volt_current_monitor;      /* milliamperes * 100 */
    uint16_t plus_5_volt_current_monitor;       /* milliamperes * 10 */
    uint8_t current_status_register_value;
    uint8_t software_version_number;
    uint16_t flag_word;
    uint16_t software_validity_checksum;
    uint8_t received_command_count;
    uint8_t command_error_count;
    uint8_t transmitter_threshold_setting;
    uint8_t range_tracking_status;
};

struct mola_frame_5 {
    uint32_t hstart_value_histogram_dump;       /* the number as it stands: document 000 does not settle its unit */
    uint16_t valid_commands_received_count;
};

struct mola_frame_6 {
    uint16_t packet_validity_checksum;
};

struct mola_frame_7 {
    uint32_t ots_range;                         /* centimetres */
    uint32_t first_ch_received_energy;          /* attojoules */
    uint32_t ots_transmit_power;                /* nanojoules */
    uint8_t ots_pulse_width;
    uint8_t ots_pulse_amplitude;
    uint8_t ots_qual_flag;
    uint8_t packet_type;
    uint16_t areocentric_longitude_of_sun;      /* degrees * 100 */
};

/* A block's frame and its numbers. The structures of other frames are zeros in what is read, and ignored by the writer. */
struct mola_block {
    uint32_t frame;             /* 1 to 7, or 0 in a refused read; a number not 1 to 7 has no carried bytes and agrees with no frame index */
    struct mola_frame_1 frame_1;
    struct mola_frame_2 frame_2;
    struct mola_frame_3 frame_3;
    struct mola_frame_5 frame_5;
    struct mola_frame_6 frame_6;
    struct mola_frame_7 frame_7;
};

/* The block's columns of several numbers. The frame's own items come first; what the frame lacks is zeros in what is read, and ignored by the writer. */
struct mola_block_runs {
    uint16_t status_flags[2];               /* frame 3 */
    uint16_t range_gate_tracker_array[14];  /* 4 in frame 3, 14 in frame 4, 6 in frame 5 */
    uint16_t memory_dump_segment[5];        /* 3 in frame 5, 5 in frame 6 */
    uint16_t command_echo[8];               /* frame 6 */
};

/* A record's refusal number and zeros, or 0 and what the record holds. */
struct mola_record {
    uint32_t refusal;
    struct mola_record_fields fields;
    struct mola_block block;                /* of the frame index */
    struct mola_record_arrays arrays;
    struct mola_block_runs runs;
    uint8_t carried[MOLA_BLOCK_CARRIED_SIZE];   /* the bytes of the block that its layout does not name, in the record's order, then zeros */
    uint8_t uninterpreted[MOLA_UNINTERPRETED_SIZE];
};

/* One shot's value of each of its columns, and its bit of good. */
struct mola_shot {
    uint32_t radius;
    uint16_t energy;
    uint16_t reflectivity;
    uint8_t trigger_channel;
    uint16_t pulse_width;
    uint16_t optical_width;
    uint16_t laser_power;
    uint16_t class_number;
    struct mola_encoder encoder;
    bool good;
    struct mola_failures failures;
};

/* A refusal number and zeros, or 0 and the shot. */
struct mola_shot_read {
    uint32_t refusal;
    struct mola_shot shot;
};

/* What a reorder buffer keeps between calls: six numbers of 32 bits, and no padding. The window starts at the next position to serve. */
struct mola_anchor {
    uint32_t count;
    uint32_t time;
};

struct mola_window {
    uint32_t start;
    uint32_t marks;
};

struct mola_session {
    struct mola_anchor anchor;
    uint32_t sum_word;
    uint32_t threshold;
    struct mola_window window;
};

/* A refusal number and zeros; or 0, a kind from above, and the position, which is 0 where the kind is MOLA_NOTHING. */
struct mola_answer {
    uint32_t refusal;
    uint32_t kind;
    uint32_t position;
};

/* A refusal number and 0; or 0 and how many answers there were. */
struct mola_count {
    uint32_t refusal;
    uint32_t count;
};

/* ---- science packets */

/* The refusal number of a packet whose sum stands at sum_word: 1 to 10, or 0. */
uint8_t mola_check_packet(const uint8_t *packet, size_t packet_len, size_t sum_word);

/* The same with the packet's fields and arrays. Its carried bytes stand in the packet itself, from MOLA_CARRIED_AT on. */
struct mola_read mola_read_packet(const uint8_t *packet, size_t packet_len, size_t sum_word);

/* The sum of the words of any bytes, carries out of 16 bits dropped. A word's upper half comes first; a last odd byte is the upper half of a word.
 * Of bytes cut at an even byte, the sums of the two parts add, modulo 65,536, to that of the whole. */
uint16_t mola_word_sum(const uint8_t *bytes, size_t bytes_len);

/* The packet sum: the sum of the words of any bytes, as above, with the word at sum_word taken as zero. A word past the end takes nothing out. */
uint16_t mola_packet_sum(const uint8_t *bytes, size_t bytes_len, size_t sum_word);

/* The number of a packet's first bin: hstart less 2, modulo 65,536, with its lowest bit cleared. */
uint16_t mola_first_bin(uint16_t hstart);

/* The metres at which a packet's bins start, bin j at index j: (first bin + j) * 1,536, a sum that does not wrap. */
void mola_bin_starts(uint16_t hstart, uint32_t starts[48]);

/* Writes a packet of these fields, arrays (bin j at index j) and carried bytes into out, with its sum at sum_word. Gives 2, 17, 18, or 0. */
uint8_t mola_write_packet(struct mola_fields fields, const uint8_t temperatures[16], const uint8_t readings[14], const uint8_t bins[48],
    const uint8_t *carried, size_t carried_len, size_t sum_word, uint8_t *out, size_t out_len);

/* ---- PEDR records */

/* The refusal number of a record: 11 to 15, or 0. */
uint8_t mola_check_record(const uint8_t *record, size_t record_len);

/* The same with what the record holds. */
struct mola_record mola_read_record(const uint8_t *record, size_t record_len);

/* One shot of a record, 1 to 20. Gives 11 to 16. */
struct mola_shot_read mola_read_shot(const uint8_t *record, size_t record_len, size_t shot);

/* Writes a record of these fields, block, arrays, runs, carried block bytes and uninterpreted bytes into out, with its counter worked out. The widths
 * of 49: good 20 bits, quality's carried 4, descriptor's carried 24, each part of an encoder 2. carried_len is 2 for a block of
 * frame 3, 4 for frame 5, 10 for frame 7 and 0 for the others, whatever the frame index: of the reader's carried, only these first bytes are given. Gives
 * 13, 14, 15, 49, 41, 42, or 0. */
uint8_t mola_write_record(struct mola_record_fields fields, struct mola_block block, struct mola_record_arrays arrays, struct mola_block_runs runs,
    const uint8_t *carried, size_t carried_len, const uint8_t *uninterpreted, size_t uninterpreted_len, uint8_t *out, size_t out_len);

/* ---- the reorder buffer, over one session that is lent to each call and updated there
 *
 * A session has a store of its own, in which opening and offers keep copies of packets. It need not be cleared before, and has to come back to each
 * call as the last one left it. The threshold decides when a position that has not come is called missing: once a packet at least so many positions
 * further on is held. A packet more than 31 positions after next is refused (25), and so are all later ones, until serves or passes have moved next on
 * or the session is opened again. */

/* Opens the session with this packet at position 0, and answers MOLA_PACKET with 0. Any values may stand in the session before. Gives 20, 27,
 * 1 to 10. */
struct mola_answer mola_open(struct mola_session *session, uint8_t *store, size_t store_len, const uint8_t *packet, size_t packet_len,
    uint32_t threshold, uint32_t sum_word);

/* Holds the packet at its position, and answers MOLA_PACKET with that position. Gives 30, 27, 1, 3 to 10, 21 to 25. */
struct mola_answer mola_offer(struct mola_session *session, uint8_t *store, size_t store_len, const uint8_t *packet, size_t packet_len);

/* Serves the next position: MOLA_PACKET, whose bytes are then the first 1,080 of out, or MOLA_MISSING, or MOLA_NOTHING where it waits.
 * Gives 30, 27, 29. */
struct mola_answer mola_serve(struct mola_session *session, uint8_t *out, size_t out_len, const uint8_t *store, size_t store_len);

/* Serves until a serve waits or the budget is spent. Answer i, from 0, is described by its kind at descriptions[2 i] and its position at
 * descriptions[2 i + 1], and where it is a packet its bytes stand at 1,080 i of out. Descriptions past the count, up to 32, are zeros.
 * Gives 30, 27, 29, 31. */
struct mola_count mola_drain(struct mola_session *session, uint8_t *out, size_t out_len, const uint8_t *store, size_t store_len,
    uint32_t budget, uint32_t descriptions[64]);

/* Passes the next position over, by hand, and answers MOLA_MISSING with it. Gives 30, 28, 26. */
struct mola_answer mola_pass(struct mola_session *session);

#ifdef __cplusplus
}
#endif

#endif
