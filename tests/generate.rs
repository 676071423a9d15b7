//! Random inputs: packets, fields, records and sessions, valid ones and damaged ones.

use crate::convert::lend_block;
use crate::mola::{Anchor, Block, Session, Window};
use crate::random::Random;
use crate::reference::record::block::{carried_length, Runs};
use crate::reference::record::{self, Record, UNINTERPRETED};
use crate::reference::{packet_sum, Arrays, Fields, CARRIED, END, PACKET, RECORD};

/// A sum word in range, its edges and the published one preferred.
pub fn sum_word(random: &Random) -> usize {
    match random.below(4) {
        0 => random.pick(&[53, 54, 538, 539]),
        1 => 70,
        _ => random.within(53, 539) as usize,
    }
}

/// A sum word out of range; some would be in range if bits of it were lost.
pub fn wrong_sum_word(random: &Random) -> usize {
    match random.below(3) {
        0 => random.pick(&[0, 1, 52, 540, 541, usize::MAX, 1 << 63]),
        1 => sum_word(random) + random.pick(&[1 << 10, 1 << 16, 1 << 32, 1 << 63]),
        _ => random.next() as usize,
    }
}

/// Mostly random bytes, else ones that make carries rare or frequent.
fn contents(random: &Random, length: usize) -> Vec<u8> {
    match random.below(8) {
        0 => vec![0; length],
        1 => vec![0xFF; length],
        2 => {
            let mut bytes = vec![0; length];
            for _ in 0..random.below(8).min(length) {
                bytes[random.below(length)] = random.u8();
            }
            bytes
        }
        _ => random.bytes(length),
    }
}

/// An accepted packet.
pub fn packet(random: &Random, count: u16, time: u32, sum_word: usize) -> Vec<u8> {
    let mut packet = contents(random, PACKET);
    packet[0] = random.u8() & 7;
    packet[1] = 35;
    packet[2..4].copy_from_slice(&(0xC000 | count).to_be_bytes());
    packet[4..6].copy_from_slice(&1_073_u16.to_be_bytes());
    packet[6..10].copy_from_slice(&time.to_be_bytes());
    packet[11] = 0;
    resum(&mut packet, sum_word);
    packet
}

fn resum(packet: &mut [u8], sum_word: usize) {
    let sum = packet_sum(packet, sum_word);
    store_sum(packet, sum_word, sum);
}

fn store_sum(packet: &mut [u8], sum_word: usize, sum: u16) {
    packet[2 * sum_word..2 * sum_word + 2].copy_from_slice(&sum.to_be_bytes());
}

pub fn count(random: &Random) -> u16 {
    match random.below(4) {
        0 => random.pick(&[0, 1, 16_380, 16_382, 16_383]),
        _ => random.below(16_384) as u16,
    }
}

/// Up to three defects of the header and then of the sum or the length: together they show the order of refusals.
pub fn damage(random: &Random, packet: &mut Vec<u8>, sum_word: usize) {
    for _ in 0..random.pick(&[1, 1, 2, 3]) {
        damage_header(random, packet);
    }
    match random.below(4) {
        0 => damage_sum(random, packet, sum_word),
        1 => {}
        _ => resum(packet, sum_word),
    }
    if random.once_in(12) {
        let length = random.pick(&[0, 1, 105, 106, 1_079, 1_081, 2_000, 2_160]);
        let length = random.pick(&[length, random.below(2_500)]);
        packet.resize(length, random.u8());
    }
}

/// One defect of the first twelve bytes, or none.
fn damage_header(random: &Random, packet: &mut [u8]) {
    match random.below(10) {
        0 => packet[0] |= random.pick(&[0x20, 0x40, 0x80, 0xE0]),
        1 => packet[0] |= 0x10,
        2 => packet[0] |= 0x08,
        3 => packet[1] = random.pick(&[34, 36, 0, 163, random.u8()]),
        4 => packet[2] &= random.pick(&[0x3F, 0x7F, 0xBF]),
        5 => {
            let length = random.pick(&[1_072, 1_074, 1_079, 1_080, 0, 0x3104, 49, random.u16()]);
            packet[4..6].copy_from_slice(&length.to_be_bytes());
        }
        6 => packet[11] = random.pick(&[1, 2, 3, 128, 255]),
        7 => packet[random.below(12)] ^= 1 << random.below(8),
        _ => {}
    }
}

/// A sum that is wrong by one, or has its end carry added back, or a packet with a changed bit.
fn damage_sum(random: &Random, packet: &mut [u8], sum_word: usize) {
    let sum = packet_sum(packet, sum_word);
    store_sum(packet, sum_word, sum);
    match random.below(4) {
        0 => store_sum(packet, sum_word, sum.wrapping_add(1)),
        1 => store_sum(packet, sum_word, sum.wrapping_sub(1)),
        2 => {
            store_sum(packet, sum_word, 0);
            let words = packet
                .chunks_exact(2)
                .map(|word| u32::from(word[0]) << 8 | u32::from(word[1]));
            let whole: u32 = words.sum();
            let carried = (whole & 0xFFFF) + (whole >> 16);
            store_sum(
                packet,
                sum_word,
                ((carried & 0xFFFF) + (carried >> 16)) as u16,
            );
        }
        _ => packet[random.below(PACKET)] ^= 1 << random.below(8),
    }
}

/// Any bytes for a packet, with a sum word to check them by.
pub fn any_packet(random: &Random) -> (Vec<u8>, usize) {
    let sum_word = sum_word(random);
    if random.once_in(20) {
        let length = random.pick(&[PACKET, PACKET, random.below(2_500)]);
        return (random.bytes(length), sum_word);
    }
    let (count, time) = (count(random), random.u32());
    let mut packet = packet(random, count, time, sum_word);
    if !random.once_in(3) {
        damage(random, &mut packet, sum_word);
    }
    match random.below(12) {
        0 => (packet, wrong_sum_word(random)),
        1 => (packet, self::sum_word(random)),
        _ => (packet, sum_word),
    }
}

/// The arguments of a write, with the length of the output that is lent to it.
pub struct Write {
    pub fields: Fields,
    pub arrays: Arrays,
    pub carried: Vec<u8>,
    pub sum_word: usize,
    pub room: usize,
}

/// No output of a write is longer.
pub const LONGEST_ROOM: usize = 2_500;

/// A write, in half the cases with a defect or two.
pub fn write(random: &Random) -> Write {
    let mut write = Write {
        fields: fields(random),
        arrays: Arrays {
            temperatures: std::array::from_fn(|_| random.u8()),
            readings: std::array::from_fn(|_| random.u8()),
            bins: std::array::from_fn(|_| random.u8()),
        },
        carried: contents(random, CARRIED),
        sum_word: sum_word(random),
        room: PACKET,
    };
    let rooms = [
        0,
        1,
        CARRIED,
        PACKET - 1,
        PACKET + 1,
        2_160,
        random.below(LONGEST_ROOM),
    ];
    let lengths = [0, 1, CARRIED - 1, CARRIED + 1, PACKET, 2_000];
    for _ in 0..random.pick(&[0, 0, 1, 2]) {
        match random.below(5) {
            0 => write.fields.count = random.pick(&[16_384, 65_535, random.u16()]),
            1 => write.fields.error_status = random.pick(&[8, 255, random.u8()]),
            2 => write.carried.resize(random.pick(&lengths), 7),
            3 => write.room = random.pick(&rooms),
            _ => write.sum_word = wrong_sum_word(random),
        }
    }
    write
}

fn fields(random: &Random) -> Fields {
    Fields {
        error_status: random.u8() & 7,
        count: count(random),
        coarse_time: random.u32(),
        fine_time: random.u8(),
        status_register: random.u8(),
        software_version: random.u8(),
        ram_flag_word: random.u16(),
        status_word_1: random.u16(),
        status_word_2: random.u16(),
        software_checksum: random.u16(),
        commands_received: random.u8(),
        command_errors: random.u8(),
        transmitter_threshold: random.u8(),
        tracking_status: random.u8(),
        hstart: random.u16(),
    }
}

/// The frames of a record's engineering block.
pub const FRAMES: std::ops::RangeInclusive<u16> = 1..=7;

fn frame(random: &Random) -> u16 {
    random.within(1, 7) as u16
}

/// An accepted record.
pub fn record(random: &Random) -> Vec<u8> {
    record_of(random, frame(random))
}

/// An accepted record of this frame.
pub fn record_of(random: &Random, frame: u16) -> Vec<u8> {
    let mut record = contents(random, RECORD);
    let ones = u32::from_be_bytes([0, record[28] & 0x0F, record[29], record[30]]).count_ones();
    record[31] = ones as u8;
    let micros = random.pick(&[-999_999, 999_999, 0, random.within(-999_999, 999_999)]);
    put_i32(&mut record, 4, micros);
    let latitude = random.pick(&[
        -90_000_000,
        90_000_000,
        0,
        random.within(-90_000_000, 90_000_000),
    ]);
    put_i32(&mut record, 12, latitude);
    record[490..492].copy_from_slice(&frame.to_be_bytes());
    record
}

fn put_i32(record: &mut [u8], at: usize, value: i64) {
    record[at..at + 4].copy_from_slice(&(value as i32).to_be_bytes());
}

/// One defect of a record at a refusal's border or anywhere, or none.
fn damage_record(random: &Random, record: &mut [u8]) {
    match random.below(8) {
        0 => {
            record[31] = random.pick(&[
                record[31].wrapping_add(1),
                record[31].wrapping_sub(1),
                random.u8(),
            ])
        }
        1 => record[28 + random.below(3)] ^= 1 << random.below(8),
        2 => {
            let far = random.pick(&[
                i64::from(i32::MIN),
                i64::from(i32::MAX),
                random.next() as i64,
            ]);
            put_i32(record, 4, random.pick(&[-1_000_000, 1_000_000, far]));
        }
        3 => {
            let far = random.pick(&[
                i64::from(i32::MIN),
                i64::from(i32::MAX),
                random.next() as i64,
            ]);
            put_i32(record, 12, random.pick(&[-90_000_001, 90_000_001, far]));
        }
        4 => {
            let index = random.pick(&[0, 8, 0x0100, 0x0701, 0xFFFF, random.u16()]);
            record[490..492].copy_from_slice(&index.to_be_bytes());
        }
        5 => record[random.below(RECORD)] ^= 1 << random.below(8),
        _ => {}
    }
}

/// Any bytes for a record.
pub fn any_record(random: &Random) -> Vec<u8> {
    let mut record = record(random);
    for _ in 0..random.pick(&[0, 1, 1, 2, 3]) {
        damage_record(random, &mut record);
    }
    if random.once_in(20) {
        let lengths = [0, 1, RECORD - 1, RECORD + 1, PACKET, random.below(1_600)];
        record.resize(random.pick(&lengths), 1);
    }
    if random.once_in(40) {
        random.fill(&mut record);
    }
    record
}

/// A shot number, some of which would be in range if bits of it were lost.
pub fn shot(random: &Random) -> usize {
    let shot = random.within(1, 20) as usize;
    let wide = shot + random.pick(&[1 << 5, 1 << 8, 1 << 16, 1 << 32, 1 << 63]);
    match random.below(4) {
        0 => random.pick(&[0, 1, 20, 21, 22, usize::MAX, wide]),
        _ => shot,
    }
}

/// The arguments of a record's write, with the length of the output that is lent to it. The block is as a caller in C gives it: its frame is any
/// number, and the structs of other frames and the runs that its frame lacks hold any numbers.
pub struct RecordWrite {
    pub fields: record::Fields,
    pub block: Block,
    pub arrays: record::Arrays,
    pub runs: Runs,
    pub carried: Vec<u8>,
    pub uninterpreted: Vec<u8>,
    pub room: usize,
}

/// No output of a record's write is longer.
pub const LONGEST_RECORD_ROOM: usize = 2_000;

/// A record's write of up to three defects, with the number that refuses it, or 0.
pub fn record_write(random: &Random) -> (RecordWrite, u32) {
    let defects = (0..random.pick(&[0, 0, 1, 1, 2, 3])).map(|_| random.below(DEFECTS.len()));
    spoiled_write(random, frame(random), defects.collect())
}

/// Writes of each frame without a defect, and of each other defect together with each one of 42, with the numbers that refuse them, or 0.
pub fn ordered_writes(random: &Random) -> Vec<(RecordWrite, u32)> {
    let accepted = FRAMES.map(|frame| spoiled_write(random, frame, vec![]));
    let last = (0..DEFECTS.len()).filter(|at| DEFECTS[*at].0 == 42);
    let pairs = last.flat_map(|last| (0..last).map(move |at| vec![at, last]));
    let spoiled = pairs.map(|defects| spoiled_write(random, frame(random), defects));
    accepted.chain(spoiled).collect()
}

/// Writes of each frame index with a block of each frame and of none, and with as many carried bytes as the layout of the block leaves and as that of
/// the frame index does, with the numbers that refuse them, or 0.
pub fn block_writes(random: &Random) -> Vec<(RecordWrite, u32)> {
    let mut writes = vec![];
    for index in FRAMES {
        for frame in 0..=8 {
            for carried in [frame, index].map(carried_length) {
                let mut write = accepted_write(random, index);
                write.block.frame = u32::from(frame);
                write.carried = contents(random, carried);
                writes.push((write, block_refusal(index, frame, carried)));
            }
        }
    }
    writes
}

fn block_refusal(index: u16, frame: u16, carried: usize) -> u32 {
    if carried != carried_length(frame) {
        49
    } else if frame != index {
        42
    } else {
        0
    }
}

/// A write of this frame with these defects, by their places in DEFECTS, and the number that refuses it, or 0.
fn spoiled_write(random: &Random, frame: u16, mut defects: Vec<usize>) -> (RecordWrite, u32) {
    let mut write = accepted_write(random, frame);
    defects.sort();
    // In reverse, since a number of carried bytes is wrong for the block that is given in the end.
    for at in defects.iter().rev() {
        let (_, spoil) = DEFECTS[*at];
        spoil(random, &mut write);
    }
    let refusal = defects.first().map_or(0, |at| DEFECTS[*at].0);
    (write, refusal)
}

fn accepted_write(random: &Random, frame: u16) -> RecordWrite {
    let read = read_of(random, frame);
    let mut write = RecordWrite {
        fields: read.fields,
        block: block(random, frame),
        arrays: read.arrays,
        runs: runs(random),
        carried: contents(random, carried_length(frame)),
        uninterpreted: read.uninterpreted.to_vec(),
        room: RECORD,
    };
    // The writer does not read the counter.
    write.fields.quality.counter = random.u8();
    write
}

fn read_of(random: &Random, frame: u16) -> Record {
    record::read(&record_of(random, frame)).expect("an accepted record")
}

/// A block of this frame; the writer does not read the structs of the others.
fn block(random: &Random, frame: u16) -> Block {
    let mut block = Block::default();
    for frame in FRAMES {
        lend_block(read_of(random, frame).block, &mut block);
    }
    block.frame = u32::from(frame);
    block
}

fn runs(random: &Random) -> Runs {
    Runs {
        status_flags: std::array::from_fn(|_| random.u16()),
        range_gate_tracker_array: std::array::from_fn(|_| random.u16()),
        memory_dump_segment: std::array::from_fn(|_| random.u16()),
        command_echo: std::array::from_fn(|_| random.u16()),
    }
}

impl RecordWrite {
    /// How many bytes the given block's layout leaves.
    fn left(&self) -> usize {
        u16::try_from(self.block.frame).map_or(0, carried_length)
    }
}

type Defect = (u32, fn(&Random, &mut RecordWrite));

/// What a record's write is refused for, with the number, in the order of the tests.
const DEFECTS: [Defect; 14] = [
    (13, |random, write| {
        write.fields.time.micros = beyond(random, 999_999)
    }),
    (14, |random, write| {
        write.fields.position.latitude = beyond(random, 90_000_000)
    }),
    (15, |random, write| {
        write.fields.receiver.frame_index = random.pick(&[0, 8, 0x0100, 0x0701, random.u16() | 8])
    }),
    (49, |random, write| {
        write.fields.quality.good = over(random, 20, 32)
    }),
    (49, |random, write| {
        write.fields.quality.carried = over(random, 4, 8) as u8
    }),
    (49, |random, write| {
        write.fields.descriptor.carried = over(random, 24, 32)
    }),
    (49, |random, write| {
        let encoder = &mut write.arrays.shots.encoder[random.below(20)];
        let part = match random.below(4) {
            0 => &mut encoder.start,
            1 => &mut encoder.carried_low,
            2 => &mut encoder.stop,
            _ => &mut encoder.carried_high,
        };
        *part = over(random, 2, 8) as u8;
    }),
    (49, |random, write| {
        let length = other_carried_length(random, write.left());
        write.carried.resize(length, 7);
    }),
    // As many as the layout of the frame index leaves, which are not as many as the block's.
    (49, |random, write| {
        let left = carried_length(write.fields.receiver.frame_index);
        let others: Vec<u16> = FRAMES.filter(|f| carried_length(*f) != left).collect();
        write.block.frame = u32::from(random.pick(&others));
        write.carried.resize(left, 7);
    }),
    (49, |random, write| {
        let length = other_length(random, UNINTERPRETED);
        write.uninterpreted.resize(length, 7);
    }),
    (41, |random, write| {
        write.room = other_length(random, RECORD)
    }),
    (42, |random, write| {
        let index = write.fields.receiver.frame_index;
        write.block.frame = other_frame(random, u32::from(index));
        write.carried.resize(write.left(), 7);
    }),
    (42, |random, write| {
        write.fields.receiver.frame_index = other_frame(random, write.block.frame) as u16
    }),
    (42, |random, write| {
        write.block.frame = no_frame(random, write.block.frame);
        write.carried.clear();
    }),
];

/// A frame that is not this one.
fn other_frame(random: &Random, frame: u32) -> u32 {
    let other = random.within(1, 6) as u32;
    other + u32::from(other >= frame)
}

/// A number that is no frame's, some of which would be this frame's if bits of them were lost.
fn no_frame(random: &Random, frame: u32) -> u32 {
    let wide = frame | random.pick(&[1 << 3, 1 << 8, 1 << 16, 1 << 31]);
    random.pick(&[0, 8, u32::MAX, wide, wide, random.u32() | 8])
}

fn other_carried_length(random: &Random, length: usize) -> usize {
    let other = random.pick(&[0, 1, 2, 3, 4, 5, 9, 10, 11, 28, random.below(1_000)]);
    if other == length {
        length + 1
    } else {
        other
    }
}

/// A number more than `limit` from 0.
fn beyond(random: &Random, limit: i32) -> i32 {
    let above = random.within(i64::from(limit) + 1, i64::from(i32::MAX)) as i32;
    random.pick(&[limit + 1, -limit - 1, i32::MIN, i32::MAX, above, -above])
}

/// A number of up to `width` bits that has more than `bits`.
fn over(random: &Random, bits: usize, width: usize) -> u32 {
    let greatest = u32::MAX >> (32 - width);
    let one = 1 << (bits + random.below(width - bits));
    random.pick(&[1 << bits, greatest, one, one | random.u32() & greatest])
}

fn other_length(random: &Random, length: usize) -> usize {
    let (shorter, longer) = (random.below(length), length + 1 + random.below(1_000));
    random.pick(&[0, 1, length - 1, length + 1, 2 * length, shorter, longer])
}

/// A session that no refusal 30 meets, with `next` given; marks of positions from END on are left out.
pub fn session(random: &Random, next: u32) -> Session {
    let marks = random.pick(&[0, u32::MAX, random.u32(), random.u32() & random.u32()]);
    let servable = (next..next + 32).filter(|position| *position < END);
    Session {
        anchor: Anchor {
            count: u32::from(count(random)),
            time: random.u32() >> random.below(16),
        },
        sum_word: sum_word(random) as u32,
        threshold: random.within(1, 31) as u32,
        window: Window {
            start: next,
            marks: servable.map(|position| marks & 1 << (position % 32)).sum(),
        },
    }
}

/// Spoils one or two fields of a session; not every outcome is a broken one.
pub fn spoil(random: &Random, session: &mut Session) {
    for _ in 0..random.pick(&[1, 1, 2]) {
        match random.below(7) {
            0 => {
                session.anchor.count =
                    random.pick(&[16_384, 16_385, 32_768, 65_536, u32::MAX, random.u32(), 1 << 16 | 5])
            }
            1 => {
                session.threshold =
                    random.pick(&[0, 32, 33, u32::MAX, random.u32(), 1 << 16 | 3, 31])
            }
            2 => session.sum_word = random.pick(&[0, 52, 540, 65_535, u32::MAX, random.u32(), 1 << 16 | 70, 53, 539]),
            3 => {
                let far = random.pick(&[u32::MAX, u32::MAX - 31, random.u32()]);
                session.window.start = random.pick(&[END, END + 1, END + 16, far]);
            }
            4 => session.window.start = END - random.below(34) as u32,
            5 => {
                session.window.marks = random.pick(&[1 << random.below(32), random.u32(), u32::MAX])
            }
            _ => *session = arbitrary_session(random),
        }
    }
}

/// Any values in every field.
pub fn arbitrary_session(random: &Random) -> Session {
    Session {
        anchor: Anchor {
            count: random.u32() >> random.below(32),
            time: random.u32(),
        },
        sum_word: random.u32() >> random.below(32),
        threshold: random.u32() >> random.below(32),
        window: Window {
            start: random.u32() >> random.below(32),
            marks: random.u32() & random.u32() & random.u32(),
        },
    }
}
