//! The reference's values and answers as the header has them, which are the ones lent to the library.

use crate::mola;
use crate::reference::record::block::{self, Block};
use crate::reference::{record, Anchor, Answer, Arrays, Fields, Packet, Refusal, Session, Window};

pub trait Lent {
    type Lent;
    fn lent(self) -> Self::Lent;
}

macro_rules! numbers {
    ($($number:ty),*) => {$(
        impl Lent for $number {
            type Lent = $number;

            fn lent(self) -> $number {
                self
            }
        }
    )*};
}
numbers!(u8, u16, u32, i16, i32);

impl Lent for bool {
    type Lent = mola::Bool;

    fn lent(self) -> mola::Bool {
        mola::Bool::from(self)
    }
}

impl<T: Lent, const N: usize> Lent for [T; N] {
    type Lent = [T::Lent; N];

    fn lent(self) -> Self::Lent {
        self.map(T::lent)
    }
}

/// Structs of the same fields.
macro_rules! structs {
    ($($own:path = $lent:path { $($field:ident),* })*) => {$(
        impl Lent for $own {
            type Lent = $lent;

            fn lent(self) -> $lent {
                $lent { $($field: self.$field.lent()),* }
            }
        }
    )*};
}

structs! {
    Fields = mola::Fields {
        error_status, count, coarse_time, fine_time, status_register, software_version, ram_flag_word, status_word_1, status_word_2,
        software_checksum, commands_received, command_errors, transmitter_threshold, tracking_status, hstart
    }
    Arrays = mola::PacketArrays { temperatures, readings, bins }
    Anchor = mola::Anchor { count, time }
    Session = mola::Session { anchor, sum_word, threshold, window }
    record::FrameTime = mola::FrameTime { whole, micros }
    record::OrbitPosition = mola::OrbitPosition { orbit, latitude, longitude, radial_distance, ground_latitude, ground_longitude }
    record::Quality = mola::Quality { good, carried, counter }
    record::Descriptor = mola::Descriptor { packet_sum, software_sum, mode, ots, carried }
    record::Pointing = mola::Pointing { right_ascension, declination, twist }
    record::Ranges = mola::Ranges { mid_point_range, frame_radius, delay, width }
    record::Receiver = mola::Receiver { channel_mask, minimum_hits, hit_count, frame_counter, trigger, frame_index }
    record::PacketLink = mola::PacketLink { seconds, millis, fine_time }
    record::Fields = mola::RecordFields { time, position, quality, descriptor, pointing, ranges, receiver, link }
    record::Encoder = mola::Encoder { start, carried_low, stop, carried_high }
    record::Failures = mola::Failures { power, energy, range, window, comparison }
    record::ShotArrays = mola::ShotArrays {
        radius, energy, reflectivity, trigger_channel, pulse_width, optical_width, laser_power, class_number, encoder, failures
    }
    record::ChannelArrays = mola::ChannelArrays { noise, thresholds }
    record::Arrays = mola::RecordArrays { shots, channels, xyz, source_header }
    block::Runs = mola::BlockRuns { status_flags, range_gate_tracker_array, memory_dump_segment, command_echo }
    record::Shot = mola::Shot {
        radius, energy, reflectivity, trigger_channel, pulse_width, optical_width, laser_power, class_number, encoder, good, failures
    }
}

/// Structs of the same numbers, which are taken back too.
macro_rules! frames {
    ($($own:path = $lent:path { $($field:ident),* })*) => {
        structs! { $($own = $lent { $($field),* })* }

        $(impl From<$lent> for $own {
            fn from(lent: $lent) -> $own {
                $own { $($field: lent.$field),* }
            }
        })*
    };
}

frames! {
    block::Frame1 = mola::Frame1 {
        computer_memory_temperature, computer_cpu_temperature, power_supply_temperature, computer_io_temperature,
        laser_diode_array_temperature, laser_diode_drive_elecs_temp, optical_test_source_led_temp, hundred_mhz_oscillator_temp,
        start_detector_temperature, outside_detector_housing_temp, lasr_radiatr_opp_opt_port_temp, lser_radiator_output_port_temp,
        interface_plate_hot_foot_temp, honeycomb_panel_temperature
    }
    block::Frame2 = mola::Frame2 {
        electronics_box_top_sc_thrmstr, laser_case_hot_foot_temp, plus_28_volt_voltage_monitor, reference_voltage_monitor,
        plus_12_volt_voltage_monitor, plus_24_volt_voltage_monitor, plus_5_volt_voltage_monitor, minus_12_volt_voltage_monitor,
        laser_thermal_current_monitor, minus_5_volt_voltage_monitor, power_supply_current_monitor, high_voltage_monitor,
        minus_12_volt_current_monitor, plus_12_volt_current_monitor
    }
    block::Frame3 = mola::Frame3 {
        minus_5_volt_current_monitor, plus_5_volt_current_monitor, current_status_register_value, software_version_number, flag_word,
        software_validity_checksum, received_command_count, command_error_count, transmitter_threshold_setting, range_tracking_status
    }
    block::Frame5 = mola::Frame5 { hstart_value_histogram_dump, valid_commands_received_count }
    block::Frame6 = mola::Frame6 { packet_validity_checksum }
    block::Frame7 = mola::Frame7 {
        ots_range, first_ch_received_energy, ots_transmit_power, ots_pulse_width, ots_pulse_amplitude, ots_qual_flag, packet_type,
        areocentric_longitude_of_sun
    }
}

/// The structs of other frames are zeros.
impl Lent for Block {
    type Lent = mola::Block;

    fn lent(self) -> mola::Block {
        let mut lent = mola::Block::default();
        lend_block(self, &mut lent);
        lent
    }
}

/// Sets the frame and its struct; the structs of other frames stay.
pub fn lend_block(block: Block, lent: &mut mola::Block) {
    lent.frame = u32::from(block.frame());
    match block {
        Block::Frame1(numbers) => lent.frame_1 = numbers.lent(),
        Block::Frame2(numbers) => lent.frame_2 = numbers.lent(),
        Block::Frame3(numbers) => lent.frame_3 = numbers.lent(),
        Block::Frame4 => {}
        Block::Frame5(numbers) => lent.frame_5 = numbers.lent(),
        Block::Frame6(numbers) => lent.frame_6 = numbers.lent(),
        Block::Frame7(numbers) => lent.frame_7 = numbers.lent(),
    }
}

/// None where its frame is none of 1 to 7.
pub fn own_block(lent: mola::Block) -> Option<Block> {
    match lent.frame {
        1 => Some(Block::Frame1(lent.frame_1.into())),
        2 => Some(Block::Frame2(lent.frame_2.into())),
        3 => Some(Block::Frame3(lent.frame_3.into())),
        4 => Some(Block::Frame4),
        5 => Some(Block::Frame5(lent.frame_5.into())),
        6 => Some(Block::Frame6(lent.frame_6.into())),
        7 => Some(Block::Frame7(lent.frame_7.into())),
        _ => None,
    }
}

impl Lent for Window {
    type Lent = mola::Window;

    fn lent(self) -> mola::Window {
        mola::Window {
            start: self.next,
            marks: self.marks,
        }
    }
}

pub fn own_session(lent: mola::Session) -> Session {
    Session {
        anchor: Anchor {
            count: lent.anchor.count,
            time: lent.anchor.time,
        },
        sum_word: lent.sum_word,
        threshold: lent.threshold,
        window: Window {
            next: lent.window.start,
            marks: lent.window.marks,
        },
    }
}

// ---- answers: a refusal is its number and zeros

pub fn number(answer: Result<(), Refusal>) -> u8 {
    answer.err().unwrap_or(0)
}

pub fn packet_read(answer: Result<Packet, Refusal>) -> mola::Read {
    match answer {
        Ok(packet) => mola::Read {
            refusal: 0,
            fields: packet.fields.lent(),
            arrays: packet.arrays.lent(),
        },
        Err(refusal) => mola::Read {
            refusal: u32::from(refusal),
            fields: mola::Fields::default(),
            arrays: mola::PacketArrays {
                temperatures: [0; 16],
                readings: [0; 14],
                bins: [0; 48],
            },
        },
    }
}

pub fn record_read(answer: Result<record::Record, Refusal>) -> mola::Record {
    match answer {
        Ok(record) => mola::Record {
            refusal: 0,
            fields: record.fields.lent(),
            block: record.block.lent(),
            arrays: record.arrays.lent(),
            runs: record.runs.lent(),
            carried: record.carried,
            uninterpreted: record.uninterpreted,
        },
        Err(refusal) => mola::Record {
            refusal: u32::from(refusal),
            fields: mola::RecordFields::default(),
            block: mola::Block::default(),
            arrays: mola::RecordArrays::default(),
            runs: mola::BlockRuns::default(),
            carried: [0; block::MOST_CARRIED],
            uninterpreted: [0; record::UNINTERPRETED],
        },
    }
}

pub fn shot_read(answer: Result<record::Shot, Refusal>) -> mola::ShotRead {
    match answer {
        Ok(shot) => mola::ShotRead {
            refusal: 0,
            shot: shot.lent(),
        },
        Err(refusal) => mola::ShotRead {
            refusal: u32::from(refusal),
            shot: mola::Shot::default(),
        },
    }
}

pub fn answer(answer: Result<Answer, Refusal>) -> mola::Answer {
    let (refusal, kind, position) = match answer {
        Err(refusal) => (u32::from(refusal), mola::NOTHING, 0),
        Ok(Answer::Waiting) => (0, mola::NOTHING, 0),
        Ok(Answer::Packet(position)) => (0, mola::PACKET, position),
        Ok(Answer::Missing(position)) => (0, mola::MISSING, position),
    };
    mola::Answer {
        refusal,
        kind,
        position,
    }
}

pub fn count(answer: Result<u32, Refusal>) -> mola::Count {
    mola::Count {
        refusal: u32::from(number(answer.map(|_| ()))),
        count: answer.unwrap_or(0),
    }
}
