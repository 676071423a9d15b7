//! The PEDR record of document 01, read, and written as document 02's request 1 has it, with the engineering block of request 2. The columns are
//! those of document 001, the encoder bytes those of document 000; a test holds them against document 01's list.

use super::{Refusal, RECORD};
use block::{carried_length, Block, Runs, MOST_CARRIED};
use std::marker::PhantomData;
use std::ops::Range;

#[path = "reference_block.rs"]
pub mod block;

/// "Bytes 509-620 and 641-776 are not interpreted", and of these "the uninterpreted bytes outside the block".
pub const UNINTERPRETED: usize = 84 + 136;
const FIRST_UNINTERPRETED: Range<usize> = 536..620;
const LAST_UNINTERPRETED: Range<usize> = 640..776;

// ---- columns

/// A column of items that have their most significant byte first, by its START_BYTE, which counts from 1.
struct Column<T, const ITEMS: usize = 1> {
    start_byte: usize,
    item: PhantomData<T>,
}

const fn start_byte<T, const ITEMS: usize>(start_byte: usize) -> Column<T, ITEMS> {
    Column {
        start_byte,
        item: PhantomData,
    }
}

// Document 001, in its order and by its names.
const FRAME_TIME_WHOLE_SECONDS: Column<i32> = start_byte(1);
const FRAME_TIME_FRAC_SECONDS: Column<i32> = start_byte(5);
const ORBIT_NUMBER: Column<u32> = start_byte(9);
const AREOCENTRIC_LATITUDE: Column<i32> = start_byte(13);
const AREOCENTRIC_LONGITUDE: Column<i32> = start_byte(17);
const RADIAL_DISTANCE: Column<u32> = start_byte(21);
const FRAME_MID_POINT_RANGE: Column<u32> = start_byte(25);
const SHOT_QUALITY_FLAG: Column<u32> = start_byte(29);
/// "Reading the flag from right to left with the rightmost bit being bit 0": one number of 16 bytes.
const SHOT_QUALITY_DESCRIPTOR_FLAG: Column<u128> = start_byte(33);
const SHOT_PLANETARY_RADIUS: Column<u32, 20> = start_byte(49);
const FRAME_PLANETARY_RADIUS: Column<u32> = start_byte(129);
const RIGHT_ASCENSION: Column<i32> = start_byte(133);
const DECLINATION: Column<i32> = start_byte(137);
const TWIST: Column<i32> = start_byte(141);
const CORR_RECV_PULSE_ENRGY: Column<u16, 20> = start_byte(145);
const SURF_REFLECTIVITY: Column<u16, 20> = start_byte(185);
const TRIGGER_CHANNEL_NUMBER: Column<u8, 20> = start_byte(225);
const PULSE_WIDTH: Column<u16, 20> = start_byte(245);
const RECV_OPTICAL_PULSE_WIDTH: Column<u16, 20> = start_byte(285);
const FRAME_XYZ: Column<i32, 3> = start_byte(325);
const FRAME_LAT_LON: Column<i32, 2> = start_byte(337);
const LASER_TRANSMIT_POWER: Column<u16, 20> = start_byte(345);
const SHOT_CLASSIFICATION_CODE: Column<u16, 20> = start_byte(385);
const CHANNEL_BACKGROUND_NOISE_CTS: Column<u32, 8> = start_byte(425);
const RANGE_DELAY: Column<u32> = start_byte(457);
const RANGE_WIDTH: Column<u32> = start_byte(461);
const CHANNEL_THRESHOLD_SETTINGS: Column<u16, 8> = start_byte(465);
const RECEIVER_CHAN_MASK: Column<u16> = start_byte(481);
const ALGORITHM_WORD_MIN_HITS: Column<u16> = start_byte(483);
const ALGORITHM_WORD_HIT_COUNT: Column<u16> = start_byte(485);
const FRAME_COUNTER: Column<u16> = start_byte(487);
const TRIGGER_CHANNEL: Column<u16> = start_byte(489);
const FRAME_INDEX: Column<u16> = start_byte(491);
const PACKET_SOURCE_HEADER: Column<u32, 2> = start_byte(493);
const TIME_CODE_SECONDS: Column<i32> = start_byte(501);
const PKT_TIME_CODE_MILLISECONDS: Column<i16> = start_byte(505);
const PKT_FINE_TIME: Column<u16> = start_byte(507);
/// Document 000, Table 2: the 20 bytes before the last 136.
const ENCODER_BITS: Column<u8, 20> = start_byte(621);

impl<T: Number, const ITEMS: usize> Column<T, ITEMS> {
    const fn bytes(&self) -> Range<usize> {
        let at = self.start_byte - 1;
        at..at + ITEMS * T::BYTES
    }

    fn item(&self, record: &[u8; RECORD], item: usize) -> T {
        T::nth(&record[self.bytes()], item)
    }

    fn items(&self, record: &[u8; RECORD]) -> [T; ITEMS] {
        let bytes = &record[self.bytes()];
        std::array::from_fn(|item| T::nth(bytes, item))
    }

    fn set_items(&self, items: [T; ITEMS], record: &mut [u8; RECORD]) {
        let bytes = record[self.bytes()].chunks_exact_mut(T::BYTES);
        for (item, bytes) in items.into_iter().zip(bytes) {
            item.to_bytes(bytes);
        }
    }
}

impl<T: Number> Column<T> {
    fn get(&self, record: &[u8; RECORD]) -> T {
        self.item(record, 0)
    }

    fn set(&self, number: T, record: &mut [u8; RECORD]) {
        self.set_items([number], record);
    }
}

trait Number: Sized {
    const BYTES: usize;
    fn from_bytes(bytes: &[u8]) -> Self;
    fn to_bytes(self, bytes: &mut [u8]);

    fn nth(bytes: &[u8], item: usize) -> Self {
        Self::from_bytes(&bytes[item * Self::BYTES..][..Self::BYTES])
    }
}

macro_rules! number {
    ($($number:ty),*) => {$(
        impl Number for $number {
            const BYTES: usize = size_of::<$number>();

            fn from_bytes(bytes: &[u8]) -> $number {
                <$number>::from_be_bytes(bytes.try_into().expect("as many bytes as the item has"))
            }

            fn to_bytes(self, bytes: &mut [u8]) {
                bytes.copy_from_slice(&self.to_be_bytes());
            }
        }
    )*};
}
number!(u8, u16, u32, u128, i16, i32);

// ---- fields

#[repr(C)]
#[derive(Clone, Copy, Debug, PartialEq, Eq)]
pub struct FrameTime {
    pub whole: i32,
    pub micros: i32,
}

#[repr(C)]
#[derive(Clone, Copy, Debug, PartialEq, Eq)]
pub struct OrbitPosition {
    pub orbit: u32,
    pub latitude: i32,
    pub longitude: i32,
    pub radial_distance: u32,
    pub ground_latitude: i32,
    pub ground_longitude: i32,
}

/// "Bytes 29-31 are one number, byte 32 a counter." `good` is bits 0 to 19 of the number, `carried` bits 20 to 23.
#[repr(C)]
#[derive(Clone, Copy, Debug, PartialEq, Eq)]
pub struct Quality {
    pub good: u32,
    pub carried: u8,
    pub counter: u8,
}

/// The tests of the whole frame, "a one is a failure", and bits 104 to 127.
#[repr(C)]
#[derive(Clone, Copy, Debug, PartialEq, Eq)]
pub struct Descriptor {
    pub packet_sum: bool,
    pub software_sum: bool,
    pub mode: bool,
    pub ots: bool,
    pub carried: u32,
}

#[repr(C)]
#[derive(Clone, Copy, Debug, PartialEq, Eq)]
pub struct Pointing {
    pub right_ascension: i32,
    pub declination: i32,
    pub twist: i32,
}

#[repr(C)]
#[derive(Clone, Copy, Debug, PartialEq, Eq)]
pub struct Ranges {
    pub mid_point_range: u32,
    pub frame_radius: u32,
    pub delay: u32,
    pub width: u32,
}

#[repr(C)]
#[derive(Clone, Copy, Debug, PartialEq, Eq)]
pub struct Receiver {
    pub channel_mask: u16,
    pub minimum_hits: u16,
    pub hit_count: u16,
    pub frame_counter: u16,
    pub trigger: u16,
    pub frame_index: u16,
}

#[repr(C)]
#[derive(Clone, Copy, Debug, PartialEq, Eq)]
pub struct PacketLink {
    pub seconds: i32,
    pub millis: i16,
    pub fine_time: u16,
}

#[repr(C)]
#[derive(Clone, Copy, Debug, PartialEq, Eq)]
pub struct Fields {
    pub time: FrameTime,
    pub position: OrbitPosition,
    pub quality: Quality,
    pub descriptor: Descriptor,
    pub pointing: Pointing,
    pub ranges: Ranges,
    pub receiver: Receiver,
    pub link: PacketLink,
}

/// "Bits 0-1 are start, bits 4-5 stop, bit 0 the lowest." Bits 2-3 and 6-7 are carried.
#[repr(C)]
#[derive(Clone, Copy, Debug, PartialEq, Eq)]
pub struct Encoder {
    pub start: u8,
    pub carried_low: u8,
    pub stop: u8,
    pub carried_high: u8,
}

/// The tests that one shot failed.
#[repr(C)]
#[derive(Clone, Copy, Debug, PartialEq, Eq)]
pub struct Failures {
    pub power: bool,
    pub energy: bool,
    pub range: bool,
    pub window: bool,
    pub comparison: bool,
}

/// Shot s at index s - 1. A class is its number, so that 40, for one given as unassigned with number 0 or 1, cannot come.
#[repr(C)]
#[derive(Clone, Copy, Debug, PartialEq, Eq)]
pub struct ShotArrays {
    pub radius: [u32; 20],
    pub energy: [u16; 20],
    pub reflectivity: [u16; 20],
    pub trigger_channel: [u8; 20],
    pub pulse_width: [u16; 20],
    pub optical_width: [u16; 20],
    pub laser_power: [u16; 20],
    pub class_number: [u16; 20],
    pub encoder: [Encoder; 20],
    pub failures: [Failures; 20],
}

#[repr(C)]
#[derive(Clone, Copy, Debug, PartialEq, Eq)]
pub struct ChannelArrays {
    pub noise: [u32; 8],
    pub thresholds: [u16; 8],
}

#[repr(C)]
#[derive(Clone, Copy, Debug, PartialEq, Eq)]
pub struct Arrays {
    pub shots: ShotArrays,
    pub channels: ChannelArrays,
    pub xyz: [i32; 3],
    pub source_header: [u32; 2],
}

#[derive(Clone, Copy, Debug, PartialEq, Eq)]
pub struct Record {
    pub fields: Fields,
    pub block: Block,
    pub arrays: Arrays,
    pub runs: Runs,
    /// Those of the block's bytes that its layout does not name, then zeros.
    pub carried: [u8; MOST_CARRIED],
    pub uninterpreted: [u8; UNINTERPRETED],
}

#[repr(C)]
#[derive(Clone, Copy, Debug, PartialEq, Eq)]
pub struct Shot {
    pub radius: u32,
    pub energy: u16,
    pub reflectivity: u16,
    pub trigger_channel: u8,
    pub pulse_width: u16,
    pub optical_width: u16,
    pub laser_power: u16,
    pub class_number: u16,
    pub encoder: Encoder,
    pub good: bool,
    pub failures: Failures,
}

// ---- bits

impl Quality {
    fn of(flag: u32) -> Quality {
        Quality {
            good: flag >> 8 & 0xF_FFFF,
            carried: (flag >> 28) as u8,
            counter: flag as u8,
        }
    }

    /// "The counter equals the number of ones in bits 0 to 19."
    fn ones(&self) -> u32 {
        self.good.count_ones()
    }

    /// "It works out the quality counter itself."
    fn flag(&self) -> u32 {
        u32::from(self.carried) << 28 | self.good << 8 | self.ones()
    }

    /// "Bit 20 - s is set for a good shot s."
    fn is_good(&self, shot: usize) -> bool {
        self.good >> (20 - shot) & 1 == 1
    }
}

impl Descriptor {
    fn of(flag: u128) -> Descriptor {
        Descriptor {
            packet_sum: flag & 1 == 1,
            software_sum: flag >> 1 & 1 == 1,
            mode: flag >> 2 & 1 == 1,
            ots: flag >> 3 & 1 == 1,
            carried: (flag >> 104) as u32,
        }
    }

    fn flag(&self) -> u128 {
        u128::from(self.packet_sum)
            | u128::from(self.software_sum) << 1
            | u128::from(self.mode) << 2
            | u128::from(self.ots) << 3
            | u128::from(self.carried) << 104
    }
}

/// "Shot s is at 3 + s power, 23 + s energy, 43 + s range, 63 + s window, 83 + s comparison."
impl Failures {
    fn of(flag: u128, shot: usize) -> Failures {
        let tests = flag >> shot;
        let failed = |before: u32| tests >> before & 1 == 1;
        Failures {
            power: failed(3),
            energy: failed(23),
            range: failed(43),
            window: failed(63),
            comparison: failed(83),
        }
    }

    fn flag(&self, shot: usize) -> u128 {
        let tests = u128::from(self.power) << 3
            | u128::from(self.energy) << 23
            | u128::from(self.range) << 43
            | u128::from(self.window) << 63
            | u128::from(self.comparison) << 83;
        tests << shot
    }
}

impl Encoder {
    fn of(byte: u8) -> Encoder {
        Encoder {
            start: byte & 3,
            carried_low: byte >> 2 & 3,
            stop: byte >> 4 & 3,
            carried_high: byte >> 6,
        }
    }

    fn byte(&self) -> u8 {
        self.carried_high << 6 | self.stop << 4 | self.carried_low << 2 | self.start
    }

    fn fits(&self) -> bool {
        (self.start | self.carried_low | self.stop | self.carried_high) < 1 << 2
    }
}

// ---- reading

/// "Record: 11 to 15", the refusal alone.
pub fn check(record: &[u8]) -> Result<(), Refusal> {
    accept(record).map(|_| ())
}

/// The record as an array, or its first refusal of 11 to 15.
fn accept(record: &[u8]) -> Result<&[u8; RECORD], Refusal> {
    let record: &[u8; RECORD] = record.try_into().map_err(|_| 11)?;
    let quality = Quality::of(SHOT_QUALITY_FLAG.get(record));
    if quality.ones() != u32::from(quality.counter) {
        return Err(12);
    }
    check_ranges(
        FRAME_TIME_FRAC_SECONDS.get(record),
        AREOCENTRIC_LATITUDE.get(record),
        FRAME_INDEX.get(record),
    )?;
    Ok(record)
}

/// "µs part out of range; latitude at byte 13 beyond ±90,000,000; frame index not 1 to 7."
fn check_ranges(micros: i32, latitude: i32, frame_index: u16) -> Result<(), Refusal> {
    if !(-999_999..=999_999).contains(&micros) {
        return Err(13);
    }
    if !(-90_000_000..=90_000_000).contains(&latitude) {
        return Err(14);
    }
    if !(1..=7).contains(&frame_index) {
        return Err(15);
    }
    Ok(())
}

/// "Record: 11 to 15", with what an accepted record holds.
pub fn read(record: &[u8]) -> Result<Record, Refusal> {
    let record = accept(record)?;
    let frame = FRAME_INDEX.get(record);
    Ok(Record {
        fields: fields_of(record),
        block: Block::of(frame, record),
        arrays: Arrays {
            shots: shots_of(record),
            channels: ChannelArrays {
                noise: CHANNEL_BACKGROUND_NOISE_CTS.items(record),
                thresholds: CHANNEL_THRESHOLD_SETTINGS.items(record),
            },
            xyz: FRAME_XYZ.items(record),
            source_header: PACKET_SOURCE_HEADER.items(record),
        },
        runs: Runs::of(frame, record),
        carried: block::carried_of(frame, record),
        uninterpreted: uninterpreted_of(record),
    })
}

fn fields_of(record: &[u8; RECORD]) -> Fields {
    let [ground_latitude, ground_longitude] = FRAME_LAT_LON.items(record);
    Fields {
        time: FrameTime {
            whole: FRAME_TIME_WHOLE_SECONDS.get(record),
            micros: FRAME_TIME_FRAC_SECONDS.get(record),
        },
        position: OrbitPosition {
            orbit: ORBIT_NUMBER.get(record),
            latitude: AREOCENTRIC_LATITUDE.get(record),
            longitude: AREOCENTRIC_LONGITUDE.get(record),
            radial_distance: RADIAL_DISTANCE.get(record),
            ground_latitude,
            ground_longitude,
        },
        quality: Quality::of(SHOT_QUALITY_FLAG.get(record)),
        descriptor: Descriptor::of(SHOT_QUALITY_DESCRIPTOR_FLAG.get(record)),
        pointing: Pointing {
            right_ascension: RIGHT_ASCENSION.get(record),
            declination: DECLINATION.get(record),
            twist: TWIST.get(record),
        },
        ranges: Ranges {
            mid_point_range: FRAME_MID_POINT_RANGE.get(record),
            frame_radius: FRAME_PLANETARY_RADIUS.get(record),
            delay: RANGE_DELAY.get(record),
            width: RANGE_WIDTH.get(record),
        },
        receiver: Receiver {
            channel_mask: RECEIVER_CHAN_MASK.get(record),
            minimum_hits: ALGORITHM_WORD_MIN_HITS.get(record),
            hit_count: ALGORITHM_WORD_HIT_COUNT.get(record),
            frame_counter: FRAME_COUNTER.get(record),
            trigger: TRIGGER_CHANNEL.get(record),
            frame_index: FRAME_INDEX.get(record),
        },
        link: PacketLink {
            seconds: TIME_CODE_SECONDS.get(record),
            millis: PKT_TIME_CODE_MILLISECONDS.get(record),
            fine_time: PKT_FINE_TIME.get(record),
        },
    }
}

fn shots_of(record: &[u8; RECORD]) -> ShotArrays {
    let flag = SHOT_QUALITY_DESCRIPTOR_FLAG.get(record);
    ShotArrays {
        radius: SHOT_PLANETARY_RADIUS.items(record),
        energy: CORR_RECV_PULSE_ENRGY.items(record),
        reflectivity: SURF_REFLECTIVITY.items(record),
        trigger_channel: TRIGGER_CHANNEL_NUMBER.items(record),
        pulse_width: PULSE_WIDTH.items(record),
        optical_width: RECV_OPTICAL_PULSE_WIDTH.items(record),
        laser_power: LASER_TRANSMIT_POWER.items(record),
        class_number: SHOT_CLASSIFICATION_CODE.items(record),
        encoder: ENCODER_BITS.items(record).map(Encoder::of),
        failures: std::array::from_fn(|index| Failures::of(flag, index + 1)),
    }
}

fn uninterpreted_of(record: &[u8; RECORD]) -> [u8; UNINTERPRETED] {
    let mut bytes = [0; UNINTERPRETED];
    let (first, last) = bytes.split_at_mut(FIRST_UNINTERPRETED.len());
    first.copy_from_slice(&record[FIRST_UNINTERPRETED]);
    last.copy_from_slice(&record[LAST_UNINTERPRETED]);
    bytes
}

/// "Record: 11 to 15, and a shot entry then 16."
pub fn read_shot(record: &[u8], shot: usize) -> Result<Shot, Refusal> {
    let record = accept(record)?;
    if !(1..=20).contains(&shot) {
        return Err(16);
    }
    let index = shot - 1;
    Ok(Shot {
        radius: SHOT_PLANETARY_RADIUS.item(record, index),
        energy: CORR_RECV_PULSE_ENRGY.item(record, index),
        reflectivity: SURF_REFLECTIVITY.item(record, index),
        trigger_channel: TRIGGER_CHANNEL_NUMBER.item(record, index),
        pulse_width: PULSE_WIDTH.item(record, index),
        optical_width: RECV_OPTICAL_PULSE_WIDTH.item(record, index),
        laser_power: LASER_TRANSMIT_POWER.item(record, index),
        class_number: SHOT_CLASSIFICATION_CODE.item(record, index),
        encoder: Encoder::of(ENCODER_BITS.item(record, index)),
        good: Quality::of(SHOT_QUALITY_FLAG.get(record)).is_good(shot),
        failures: Failures::of(SHOT_QUALITY_DESCRIPTOR_FLAG.get(record), shot),
    })
}

// ---- writing

/// "Refusals: 13 to 15 as they apply to the fields", then "49 for any bits given over their width", which "now counts the uninterpreted bytes
/// outside the block, and is also given for carried block bytes not as many as the given block's layout leaves", "41 for an output not of 776
/// bytes", and 42 "where block and frame index disagree, after 41". None stands for a block whose frame is none of 1 to 7, which a caller in C can
/// give: its layout leaves no bytes, and it agrees with no frame index.
pub fn write(
    fields: Fields,
    block: Option<Block>,
    arrays: Arrays,
    runs: Runs,
    carried: &[u8],
    uninterpreted: &[u8],
    out: &mut [u8],
) -> Result<(), Refusal> {
    let frame_index = fields.receiver.frame_index;
    check_ranges(fields.time.micros, fields.position.latitude, frame_index)?;
    let left = block.map_or(0, |block| carried_length(block.frame()));
    if !fit(&fields, &arrays.shots.encoder) || carried.len() != left {
        return Err(49);
    }
    let uninterpreted: &[u8; UNINTERPRETED] = uninterpreted.try_into().map_err(|_| 49)?;
    let out: &mut [u8; RECORD] = out.try_into().map_err(|_| 41)?;
    let agrees = |block: &Block| block.frame() == frame_index;
    let block = block.filter(agrees).ok_or(42)?;
    write_fields(&fields, out);
    block.set(out);
    runs.set(frame_index, out);
    block::set_carried(frame_index, carried, out);
    write_shots(&arrays.shots, out);
    write_descriptor(&fields.descriptor, &arrays.shots.failures, out);
    CHANNEL_BACKGROUND_NOISE_CTS.set_items(arrays.channels.noise, out);
    CHANNEL_THRESHOLD_SETTINGS.set_items(arrays.channels.thresholds, out);
    FRAME_XYZ.set_items(arrays.xyz, out);
    PACKET_SOURCE_HEADER.set_items(arrays.source_header, out);
    write_uninterpreted(uninterpreted, out);
    Ok(())
}

/// Whether no bits are given over their width.
fn fit(fields: &Fields, encoder: &[Encoder; 20]) -> bool {
    fields.quality.good < 1 << 20
        && fields.quality.carried < 1 << 4
        && fields.descriptor.carried < 1 << 24
        && encoder.iter().all(Encoder::fits)
}

fn write_fields(fields: &Fields, out: &mut [u8; RECORD]) {
    let Fields {
        time,
        position,
        pointing,
        ranges,
        receiver,
        link,
        ..
    } = fields;
    FRAME_TIME_WHOLE_SECONDS.set(time.whole, out);
    FRAME_TIME_FRAC_SECONDS.set(time.micros, out);
    ORBIT_NUMBER.set(position.orbit, out);
    AREOCENTRIC_LATITUDE.set(position.latitude, out);
    AREOCENTRIC_LONGITUDE.set(position.longitude, out);
    RADIAL_DISTANCE.set(position.radial_distance, out);
    FRAME_LAT_LON.set_items([position.ground_latitude, position.ground_longitude], out);
    SHOT_QUALITY_FLAG.set(fields.quality.flag(), out);
    RIGHT_ASCENSION.set(pointing.right_ascension, out);
    DECLINATION.set(pointing.declination, out);
    TWIST.set(pointing.twist, out);
    FRAME_MID_POINT_RANGE.set(ranges.mid_point_range, out);
    FRAME_PLANETARY_RADIUS.set(ranges.frame_radius, out);
    RANGE_DELAY.set(ranges.delay, out);
    RANGE_WIDTH.set(ranges.width, out);
    RECEIVER_CHAN_MASK.set(receiver.channel_mask, out);
    ALGORITHM_WORD_MIN_HITS.set(receiver.minimum_hits, out);
    ALGORITHM_WORD_HIT_COUNT.set(receiver.hit_count, out);
    FRAME_COUNTER.set(receiver.frame_counter, out);
    TRIGGER_CHANNEL.set(receiver.trigger, out);
    FRAME_INDEX.set(receiver.frame_index, out);
    TIME_CODE_SECONDS.set(link.seconds, out);
    PKT_TIME_CODE_MILLISECONDS.set(link.millis, out);
    PKT_FINE_TIME.set(link.fine_time, out);
}

fn write_shots(shots: &ShotArrays, out: &mut [u8; RECORD]) {
    SHOT_PLANETARY_RADIUS.set_items(shots.radius, out);
    CORR_RECV_PULSE_ENRGY.set_items(shots.energy, out);
    SURF_REFLECTIVITY.set_items(shots.reflectivity, out);
    TRIGGER_CHANNEL_NUMBER.set_items(shots.trigger_channel, out);
    PULSE_WIDTH.set_items(shots.pulse_width, out);
    RECV_OPTICAL_PULSE_WIDTH.set_items(shots.optical_width, out);
    LASER_TRANSMIT_POWER.set_items(shots.laser_power, out);
    SHOT_CLASSIFICATION_CODE.set_items(shots.class_number, out);
    ENCODER_BITS.set_items(shots.encoder.map(|encoder| encoder.byte()), out);
}

fn write_descriptor(descriptor: &Descriptor, failures: &[Failures; 20], out: &mut [u8; RECORD]) {
    let tests = (1..).zip(failures);
    let flag = tests.fold(descriptor.flag(), |flag, (shot, failures)| {
        flag | failures.flag(shot)
    });
    SHOT_QUALITY_DESCRIPTOR_FLAG.set(flag, out);
}

fn write_uninterpreted(bytes: &[u8; UNINTERPRETED], out: &mut [u8; RECORD]) {
    let (first, last) = bytes.split_at(FIRST_UNINTERPRETED.len());
    out[FIRST_UNINTERPRETED].copy_from_slice(first);
    out[LAST_UNINTERPRETED].copy_from_slice(last);
}

/// The worked numbers of document 01, "Numbers to check by", its list of columns, and both round trips.
#[cfg(test)]
mod tests {
    use super::*;
    use std::any::type_name;

    /// No two bytes of a column alike, in a record that is accepted.
    fn patterned() -> [u8; RECORD] {
        patterned_of(6)
    }

    fn patterned_of(frame: u16) -> [u8; RECORD] {
        let mut record = std::array::from_fn(|at| (at * 151 + at / 251) as u8);
        FRAME_TIME_FRAC_SECONDS.set(-123_456, &mut record);
        AREOCENTRIC_LATITUDE.set(87_654_321, &mut record);
        FRAME_INDEX.set(frame, &mut record);
        with_quality(&mut record, 0xA5_5AC3, 10);
        record
    }

    fn with_quality(record: &mut [u8; RECORD], number: u32, counter: u8) {
        SHOT_QUALITY_FLAG.set(number << 8 | u32::from(counter), record);
    }

    fn written(record: &Record) -> Result<[u8; RECORD], Refusal> {
        let mut out = [0x77; RECORD];
        write(
            record.fields,
            Some(record.block),
            record.arrays,
            record.runs,
            &record.carried[..carried_length(record.block.frame())],
            &record.uninterpreted,
            &mut out,
        )?;
        Ok(out)
    }

    fn shown<T: Number, const ITEMS: usize>(column: &Column<T, ITEMS>) -> (usize, String, usize) {
        let item = type_name::<T>().replace(|digit: char| digit.is_ascii_digit(), "");
        (
            column.start_byte,
            format!("{item}{}", T::BYTES),
            T::BYTES * ITEMS,
        )
    }

    /// Document 01's list: start, item, bytes.
    #[test]
    fn columns() {
        let columns = [
            (shown(&FRAME_TIME_WHOLE_SECONDS), (1, "i4", 4)),
            (shown(&FRAME_TIME_FRAC_SECONDS), (5, "i4", 4)),
            (shown(&ORBIT_NUMBER), (9, "u4", 4)),
            (shown(&AREOCENTRIC_LATITUDE), (13, "i4", 4)),
            (shown(&AREOCENTRIC_LONGITUDE), (17, "i4", 4)),
            (shown(&RADIAL_DISTANCE), (21, "u4", 4)),
            (shown(&FRAME_MID_POINT_RANGE), (25, "u4", 4)),
            (shown(&SHOT_QUALITY_FLAG), (29, "u4", 4)),
            (shown(&SHOT_QUALITY_DESCRIPTOR_FLAG), (33, "u16", 16)),
            (shown(&SHOT_PLANETARY_RADIUS), (49, "u4", 80)),
            (shown(&FRAME_PLANETARY_RADIUS), (129, "u4", 4)),
            (shown(&RIGHT_ASCENSION), (133, "i4", 4)),
            (shown(&DECLINATION), (137, "i4", 4)),
            (shown(&TWIST), (141, "i4", 4)),
            (shown(&CORR_RECV_PULSE_ENRGY), (145, "u2", 40)),
            (shown(&SURF_REFLECTIVITY), (185, "u2", 40)),
            (shown(&TRIGGER_CHANNEL_NUMBER), (225, "u1", 20)),
            (shown(&PULSE_WIDTH), (245, "u2", 40)),
            (shown(&RECV_OPTICAL_PULSE_WIDTH), (285, "u2", 40)),
            (shown(&FRAME_XYZ), (325, "i4", 12)),
            (shown(&FRAME_LAT_LON), (337, "i4", 8)),
            (shown(&LASER_TRANSMIT_POWER), (345, "u2", 40)),
            (shown(&SHOT_CLASSIFICATION_CODE), (385, "u2", 40)),
            (shown(&CHANNEL_BACKGROUND_NOISE_CTS), (425, "u4", 32)),
            (shown(&RANGE_DELAY), (457, "u4", 4)),
            (shown(&RANGE_WIDTH), (461, "u4", 4)),
            (shown(&CHANNEL_THRESHOLD_SETTINGS), (465, "u2", 16)),
            (shown(&RECEIVER_CHAN_MASK), (481, "u2", 2)),
            (shown(&ALGORITHM_WORD_MIN_HITS), (483, "u2", 2)),
            (shown(&ALGORITHM_WORD_HIT_COUNT), (485, "u2", 2)),
            (shown(&FRAME_COUNTER), (487, "u2", 2)),
            (shown(&TRIGGER_CHANNEL), (489, "u2", 2)),
            (shown(&FRAME_INDEX), (491, "u2", 2)),
            (shown(&PACKET_SOURCE_HEADER), (493, "u4", 8)),
            (shown(&TIME_CODE_SECONDS), (501, "i4", 4)),
            (shown(&PKT_TIME_CODE_MILLISECONDS), (505, "i2", 2)),
            (shown(&PKT_FINE_TIME), (507, "u2", 2)),
        ];
        let mut end = 1;
        for ((start, item, bytes), listed) in &columns {
            assert_eq!((*start, item.as_str(), *bytes), *listed);
            assert_eq!(*start, end);
            end += bytes;
        }
        assert_eq!(end - 1, block::BLOCK.start);
        assert_eq!(block::BLOCK.end, FIRST_UNINTERPRETED.start);
        assert_eq!(shown(&ENCODER_BITS), (621, "u1".to_string(), 20));
        assert_eq!(FIRST_UNINTERPRETED.end..LAST_UNINTERPRETED.start, 620..640);
        assert_eq!(LAST_UNINTERPRETED.end, RECORD);
    }

    #[test]
    fn qualities() {
        let mut record = patterned();
        with_quality(&mut record, 0x08_0001, 2);
        let good = |shot: &usize| read_shot(&record, *shot).expect("accepted").good;
        assert_eq!((1..=20).filter(good).collect::<Vec<_>>(), [1, 20]);
        with_quality(&mut record, 0x10_0000, 0);
        let quality = read(&record).expect("accepted").fields.quality;
        assert_eq!((quality.good, quality.carried), (0, 1));
        with_quality(&mut record, 0x10_0000, 1);
        assert_eq!(read(&record), Err(12));
    }

    /// "Descriptor bit 23 is byte 46, bit 7": shot 20's power.
    #[test]
    fn descriptors() {
        let mut record = patterned();
        SHOT_QUALITY_DESCRIPTOR_FLAG.set(0, &mut record);
        record[45] = 0x80;
        let failed = |shot: &usize| {
            let failures = read_shot(&record, *shot).expect("accepted").failures;
            assert!(
                !failures.energy && !failures.range && !failures.window && !failures.comparison
            );
            failures.power
        };
        assert_eq!((1..=20).filter(failed).collect::<Vec<_>>(), [20]);
    }

    /// Each bit of the descriptor, by document 01's rule of its byte, is one field and comes back as that bit.
    #[test]
    fn descriptor_bits() {
        for k in 0..128 {
            let mut record = patterned();
            SHOT_QUALITY_DESCRIPTOR_FLAG.set(0, &mut record);
            record[47 - k / 8] = 1 << (k % 8);
            let read = read(&record).expect("accepted");
            let descriptor = read.fields.descriptor;
            let frame = [
                descriptor.packet_sum,
                descriptor.software_sum,
                descriptor.mode,
                descriptor.ots,
            ];
            let failures = read.arrays.shots.failures;
            let shots = [
                failures.map(|shot| shot.power),
                failures.map(|shot| shot.energy),
                failures.map(|shot| shot.range),
                failures.map(|shot| shot.window),
                failures.map(|shot| shot.comparison),
            ];
            let carried = (0..24).map(|bit| descriptor.carried >> bit & 1 == 1);
            let bits = frame.into_iter().chain(shots.concat()).chain(carried);
            let set: Vec<usize> = (0..128)
                .zip(bits)
                .filter(|bit| bit.1)
                .map(|b| b.0)
                .collect();
            assert_eq!(set, [k]);
            assert_eq!(written(&read), Ok(record));
        }
    }

    #[test]
    fn encoders() {
        let mut record = patterned();
        record[620] = 0x21;
        let encoder = read_shot(&record, 1).expect("accepted").encoder;
        assert_eq!((encoder.start, encoder.stop), (1, 2));
        assert_eq!((encoder.carried_low, encoder.carried_high), (0, 0));
        for byte in 0..=255 {
            assert_eq!(Encoder::of(byte).byte(), byte);
        }
    }

    #[test]
    fn microseconds() {
        let mut record = patterned();
        FRAME_TIME_WHOLE_SECONDS.set(-187_606_958, &mut record);
        FRAME_TIME_FRAC_SECONDS.set(-864_490, &mut record);
        assert_eq!(check(&record), Ok(()));
        FRAME_TIME_FRAC_SECONDS.set(-1_000_000, &mut record);
        assert_eq!(check(&record), Err(13));
    }

    #[test]
    fn shots() {
        let record = patterned();
        let shots = read(&record).expect("accepted").arrays.shots;
        for (index, encoder) in shots.encoder.into_iter().enumerate() {
            let shot = read_shot(&record, index + 1).expect("accepted");
            assert_eq!(shot.radius, shots.radius[index]);
            assert_eq!(shot.class_number, shots.class_number[index]);
            assert_eq!(shot.failures, shots.failures[index]);
            assert_eq!(shot.encoder, encoder);
        }
        assert_eq!(read_shot(&record, 0), Err(16));
        assert_eq!(read_shot(&record, 21), Err(16));
        assert_eq!(read_shot(&record[1..], 21), Err(11));
    }

    /// "An accepted record read and written is the same bytes", and what was written reads as what was given, the counter aside.
    #[test]
    fn round_trips() {
        let record = patterned();
        let mut given = read(&record).expect("accepted");
        assert_eq!(given.uninterpreted[83..85], [record[619], record[640]]);
        given.fields.quality.counter = 99;
        assert_eq!(written(&given), Ok(record));
        given.fields.quality = Quality {
            good: 0xF_0F0F,
            carried: 9,
            counter: 0,
        };
        given.arrays.shots.class_number[19] = 0xFFFF;
        let corrected = read(&written(&given).expect("accepted"));
        given.fields.quality.counter = 12;
        assert_eq!(corrected, Ok(given));
    }

    /// "Bytes of the block that a frame's layout does not name are carried beside its fields", and what a frame lacks is ignored.
    #[test]
    fn blocks() {
        for frame in 1..=7 {
            let record = patterned_of(frame);
            let mut given = read(&record).expect("accepted");
            assert_eq!(given.block.frame(), frame);
            assert_eq!(written(&given), Ok(record));
            given.runs = with_others(given.runs);
            assert_eq!(written(&given), Ok(record));
        }
    }

    /// The runs of a patterned record with other numbers for the zeros of what its frame lacks.
    fn with_others(runs: Runs) -> Runs {
        fn others<const N: usize>(run: [u16; N]) -> [u16; N] {
            run.map(|number| if number == 0 { 0x5A5A } else { number })
        }
        Runs {
            status_flags: others(runs.status_flags),
            range_gate_tracker_array: others(runs.range_gate_tracker_array),
            memory_dump_segment: others(runs.memory_dump_segment),
            command_echo: others(runs.command_echo),
        }
    }

    #[test]
    fn refusals() {
        let record = read(&patterned()).expect("accepted");
        let (fields, arrays) = (record.fields, record.arrays);
        let refusal = |fields: Fields, arrays: Arrays, bytes: usize, room: usize| {
            let mut given = record;
            (given.fields, given.arrays) = (fields, arrays);
            refusal(&given, Some(given.block), 0, bytes, room)
        };
        assert_eq!(refusal(fields, arrays, 220, 776), None);
        assert_eq!(refusal(fields, arrays, 220, 775), Some(41));
        assert_eq!(refusal(fields, arrays, 221, 775), Some(49));
        let mut wide = arrays;
        wide.shots.encoder[19].carried_high = 4;
        assert_eq!(refusal(fields, wide, 220, 776), Some(49));
        let mut wrong = fields;
        wrong.quality.good = 1 << 20;
        assert_eq!(refusal(wrong, arrays, 220, 777), Some(49));
        wrong.receiver.frame_index = 0;
        assert_eq!(refusal(wrong, wide, 0, 0), Some(15));
        wrong.position.latitude = -90_000_001;
        assert_eq!(refusal(wrong, wide, 0, 0), Some(14));
        wrong.time.micros = 1_000_000;
        assert_eq!(refusal(wrong, wide, 0, 0), Some(13));
        wrong = fields;
        wrong.position.ground_latitude = i32::MIN;
        assert_eq!(refusal(wrong, arrays, 220, 776), None);
    }

    /// 49 looks at the block's layout and not at the frame index, and 42 comes after 41.
    #[test]
    fn blocks_refused() {
        for index in 1..=7 {
            let record = read(&patterned_of(index)).expect("accepted");
            for frame in 1..=7 {
                let block = read(&patterned_of(frame)).expect("accepted").block;
                let left = carried_length(frame);
                let refusal = |carried, room| refusal(&record, Some(block), carried, 220, room);
                assert_eq!(refusal(left, 776), (frame != index).then_some(42));
                assert_eq!(refusal(left, 775), Some(41));
                assert_eq!(refusal(left + 1, 775), Some(49));
                if carried_length(index) != left {
                    assert_eq!(refusal(carried_length(index), 776), Some(49));
                }
            }
            assert_eq!(refusal(&record, None, 0, 220, 776), Some(42));
            assert_eq!(refusal(&record, None, 0, 220, 777), Some(41));
            assert_eq!(refusal(&record, None, 1, 220, 776), Some(49));
        }
    }

    /// Of a write with this block, so many carried and uninterpreted bytes and so long an output. A refusal writes nothing.
    fn refusal(
        given: &Record,
        block: Option<Block>,
        carried: usize,
        uninterpreted: usize,
        room: usize,
    ) -> Option<Refusal> {
        let mut out = vec![0x77; room];
        let answer = write(
            given.fields,
            block,
            given.arrays,
            given.runs,
            &vec![0; carried],
            &vec![0; uninterpreted],
            &mut out,
        );
        assert_eq!(answer.is_err(), out.iter().all(|byte| *byte == 0x77));
        answer.err()
    }
}
