//! The engineering block of a PEDR record, as document 02's request 2 has it: "Read that block by its frame index: seven layouts, appendices C.3 to
//! C.9 of source document 000." The columns are those of the appendices, in their order and by their names, COMPUTER_I/O_TEMPERATURE without the
//! slash.

use super::{start_byte, Column, RECORD};
use std::ops::Range;

/// "The block ends just before the first column of appendix C.10", ORBIT_QUALITY_FLAG, whose START_BYTE is 537.
pub(super) const BLOCK: Range<usize> = 508..536;

/// No layout leaves more bytes unnamed than frame 7's.
pub const MOST_CARRIED: usize = 4 + 6;

// ---- single numbers

/// A frame's columns of one number, each by its START_BYTE, with a struct of the numbers. MSB_SIGNED_INTEGER is signed, and all else unsigned.
macro_rules! frame {
    ($(#[$doc:meta])* $frame:ident { $($column:ident: $number:ty = $start_byte:literal,)* }) => {
        $(#[$doc])*
        #[repr(C)]
        #[derive(Clone, Copy, Debug, PartialEq, Eq)]
        pub struct $frame {
            $(pub $column: $number,)*
        }

        impl $frame {
            fn of(record: &[u8; RECORD]) -> $frame {
                $frame {
                    $($column: start_byte::<$number, 1>($start_byte).get(record),)*
                }
            }

            fn set(&self, out: &mut [u8; RECORD]) {
                $(start_byte::<$number, 1>($start_byte).set(self.$column, out);)*
            }

            #[cfg(test)]
            fn columns() -> Vec<Range<usize>> {
                vec![$(start_byte::<$number, 1>($start_byte).bytes(),)*]
            }
        }
    };
}

frame! {
    /// C.3, PEDRENG1.FMT.
    Frame1 {
        computer_memory_temperature: i16 = 509,
        computer_cpu_temperature: i16 = 511,
        power_supply_temperature: i16 = 513,
        computer_io_temperature: i16 = 515,
        laser_diode_array_temperature: i16 = 517,
        laser_diode_drive_elecs_temp: i16 = 519,
        optical_test_source_led_temp: i16 = 521,
        hundred_mhz_oscillator_temp: i16 = 523,
        start_detector_temperature: i16 = 525,
        outside_detector_housing_temp: i16 = 527,
        lasr_radiatr_opp_opt_port_temp: i16 = 529,
        lser_radiator_output_port_temp: i16 = 531,
        interface_plate_hot_foot_temp: i16 = 533,
        honeycomb_panel_temperature: i16 = 535,
    }
}

frame! {
    /// C.4, PEDRENG2.FMT.
    Frame2 {
        electronics_box_top_sc_thrmstr: i16 = 509,
        laser_case_hot_foot_temp: i16 = 511,
        plus_28_volt_voltage_monitor: u16 = 513,
        reference_voltage_monitor: u16 = 515,
        plus_12_volt_voltage_monitor: u16 = 517,
        plus_24_volt_voltage_monitor: u16 = 519,
        plus_5_volt_voltage_monitor: u16 = 521,
        minus_12_volt_voltage_monitor: u16 = 523,
        laser_thermal_current_monitor: u16 = 525,
        minus_5_volt_voltage_monitor: u16 = 527,
        power_supply_current_monitor: u16 = 529,
        high_voltage_monitor: u16 = 531,
        minus_12_volt_current_monitor: u16 = 533,
        plus_12_volt_current_monitor: u16 = 535,
    }
}

frame! {
    /// C.5, PEDRENG3.FMT.
    Frame3 {
        minus_5_volt_current_monitor: u16 = 509,
        plus_5_volt_current_monitor: u16 = 511,
        current_status_register_value: u8 = 513,
        software_version_number: u8 = 514,
        flag_word: u16 = 515,
        software_validity_checksum: u16 = 521,
        received_command_count: u8 = 523,
        command_error_count: u8 = 524,
        transmitter_threshold_setting: u8 = 525,
        range_tracking_status: u8 = 526,
    }
}

frame! {
    /// C.7, PEDRENG5.FMT.
    Frame5 {
        hstart_value_histogram_dump: u32 = 521,
        valid_commands_received_count: u16 = 529,
    }
}

frame! {
    /// C.8, PEDRENG6.FMT.
    Frame6 {
        packet_validity_checksum: u16 = 535,
    }
}

frame! {
    /// C.9, PEDRENG7.FMT.
    Frame7 {
        ots_range: u32 = 509,
        first_ch_received_energy: u32 = 513,
        ots_transmit_power: u32 = 521,
        ots_pulse_width: u8 = 525,
        ots_pulse_amplitude: u8 = 526,
        ots_qual_flag: u8 = 527,
        packet_type: u8 = 528,
        areocentric_longitude_of_sun: u16 = 529,
    }
}

/// "The answer says which frame it is and carries that frame's fields." Frame 4's layout, C.6, has a run and no single number.
#[derive(Clone, Copy, Debug, PartialEq, Eq)]
pub enum Block {
    Frame1(Frame1),
    Frame2(Frame2),
    Frame3(Frame3),
    Frame4,
    Frame5(Frame5),
    Frame6(Frame6),
    Frame7(Frame7),
}

impl Block {
    pub(super) fn of(frame: u16, record: &[u8; RECORD]) -> Block {
        match frame {
            1 => Block::Frame1(Frame1::of(record)),
            2 => Block::Frame2(Frame2::of(record)),
            3 => Block::Frame3(Frame3::of(record)),
            4 => Block::Frame4,
            5 => Block::Frame5(Frame5::of(record)),
            6 => Block::Frame6(Frame6::of(record)),
            7 => Block::Frame7(Frame7::of(record)),
            _ => unreachable!("an accepted record's frame index is 1 to 7"),
        }
    }

    pub fn frame(&self) -> u16 {
        match self {
            Block::Frame1(_) => 1,
            Block::Frame2(_) => 2,
            Block::Frame3(_) => 3,
            Block::Frame4 => 4,
            Block::Frame5(_) => 5,
            Block::Frame6(_) => 6,
            Block::Frame7(_) => 7,
        }
    }

    pub(super) fn set(&self, out: &mut [u8; RECORD]) {
        match self {
            Block::Frame1(numbers) => numbers.set(out),
            Block::Frame2(numbers) => numbers.set(out),
            Block::Frame3(numbers) => numbers.set(out),
            Block::Frame4 => {}
            Block::Frame5(numbers) => numbers.set(out),
            Block::Frame6(numbers) => numbers.set(out),
            Block::Frame7(numbers) => numbers.set(out),
        }
    }
}

// ---- runs

/// The columns of several numbers, each in an array of the most that a frame has of it. What a frame lacks, whole arrays and the numbers past its
/// own, is zeros when read and ignored when written.
#[repr(C)]
#[derive(Clone, Copy, Debug, Default, PartialEq, Eq)]
pub struct Runs {
    pub status_flags: [u16; 2],
    pub range_gate_tracker_array: [u16; 14],
    pub memory_dump_segment: [u16; 5],
    pub command_echo: [u16; 8],
}

// C.5 to C.8; a name that several frames have, with the frame.
const STATUS_FLAGS: Column<u16, 2> = start_byte(517);
const RANGE_GATE_TRACKER_ARRAY_3: Column<u16, 4> = start_byte(529);
const RANGE_GATE_TRACKER_ARRAY_4: Column<u16, 14> = start_byte(509);
const RANGE_GATE_TRACKER_ARRAY_5: Column<u16, 6> = start_byte(509);
const MEMORY_DUMP_SEGMENT_5: Column<u16, 3> = start_byte(531);
const MEMORY_DUMP_SEGMENT_6: Column<u16, 5> = start_byte(509);
const COMMAND_ECHO: Column<u16, 8> = start_byte(519);

impl<const ITEMS: usize> Column<u16, ITEMS> {
    /// The items, then zeros.
    fn first_of<const ALL: usize>(&self, record: &[u8; RECORD]) -> [u16; ALL] {
        let mut all = [0; ALL];
        all[..ITEMS].copy_from_slice(&self.items(record));
        all
    }

    fn set_first_of<const ALL: usize>(&self, all: &[u16; ALL], out: &mut [u8; RECORD]) {
        let items = all
            .first_chunk()
            .expect("at least as many as the frame has");
        self.set_items(*items, out);
    }
}

impl Runs {
    pub(super) fn of(frame: u16, record: &[u8; RECORD]) -> Runs {
        let mut runs = Runs::default();
        match frame {
            3 => {
                runs.status_flags = STATUS_FLAGS.items(record);
                runs.range_gate_tracker_array = RANGE_GATE_TRACKER_ARRAY_3.first_of(record);
            }
            4 => runs.range_gate_tracker_array = RANGE_GATE_TRACKER_ARRAY_4.items(record),
            5 => {
                runs.range_gate_tracker_array = RANGE_GATE_TRACKER_ARRAY_5.first_of(record);
                runs.memory_dump_segment = MEMORY_DUMP_SEGMENT_5.first_of(record);
            }
            6 => {
                runs.memory_dump_segment = MEMORY_DUMP_SEGMENT_6.items(record);
                runs.command_echo = COMMAND_ECHO.items(record);
            }
            _ => {}
        }
        runs
    }

    pub(super) fn set(&self, frame: u16, out: &mut [u8; RECORD]) {
        match frame {
            3 => {
                STATUS_FLAGS.set_items(self.status_flags, out);
                RANGE_GATE_TRACKER_ARRAY_3.set_first_of(&self.range_gate_tracker_array, out);
            }
            4 => RANGE_GATE_TRACKER_ARRAY_4.set_items(self.range_gate_tracker_array, out),
            5 => {
                RANGE_GATE_TRACKER_ARRAY_5.set_first_of(&self.range_gate_tracker_array, out);
                MEMORY_DUMP_SEGMENT_5.set_first_of(&self.memory_dump_segment, out);
            }
            6 => {
                MEMORY_DUMP_SEGMENT_6.set_items(self.memory_dump_segment, out);
                COMMAND_ECHO.set_items(self.command_echo, out);
            }
            _ => {}
        }
    }
}

// ---- carried bytes

const SPARE_3: Column<u8, 2> = start_byte(527);
const SPARE_5: Column<u8, 4> = start_byte(525);
const FIRST_SPARE_7: Column<u8, 4> = start_byte(517);
const LAST_SPARE_7: Column<u8, 6> = start_byte(531);

/// "Bytes of the block that a frame's layout does not name are carried beside its fields": a column named SPARE is not named. Of a number that is
/// no frame's, none.
fn spares(frame: u16) -> &'static [Range<usize>] {
    match frame {
        3 => const { &[SPARE_3.bytes()] },
        5 => const { &[SPARE_5.bytes()] },
        7 => const { &[FIRST_SPARE_7.bytes(), LAST_SPARE_7.bytes()] },
        _ => &[],
    }
}

/// "As many as the given block's layout leaves."
pub fn carried_length(frame: u16) -> usize {
    spares(frame).iter().map(|spare| spare.len()).sum()
}

/// Where the carried bytes stand, in the record's order.
fn carried_places(frame: u16) -> impl Iterator<Item = usize> {
    spares(frame).iter().cloned().flatten()
}

/// The carried bytes, then zeros.
pub(super) fn carried_of(frame: u16, record: &[u8; RECORD]) -> [u8; MOST_CARRIED] {
    let mut carried = [0; MOST_CARRIED];
    for (byte, at) in carried.iter_mut().zip(carried_places(frame)) {
        *byte = record[at];
    }
    carried
}

pub(super) fn set_carried(frame: u16, carried: &[u8], out: &mut [u8; RECORD]) {
    for (byte, at) in carried.iter().zip(carried_places(frame)) {
        out[at] = *byte;
    }
}

/// The layouts against request 2's sentence on them, and numbers of each.
#[cfg(test)]
mod tests {
    use super::*;

    /// The columns of single numbers, in the order of their appendix.
    fn single(frame: u16) -> Vec<Range<usize>> {
        match frame {
            1 => Frame1::columns(),
            2 => Frame2::columns(),
            3 => Frame3::columns(),
            5 => Frame5::columns(),
            6 => Frame6::columns(),
            7 => Frame7::columns(),
            _ => vec![],
        }
    }

    fn runs(frame: u16) -> Vec<Range<usize>> {
        match frame {
            3 => vec![STATUS_FLAGS.bytes(), RANGE_GATE_TRACKER_ARRAY_3.bytes()],
            4 => vec![RANGE_GATE_TRACKER_ARRAY_4.bytes()],
            5 => vec![
                RANGE_GATE_TRACKER_ARRAY_5.bytes(),
                MEMORY_DUMP_SEGMENT_5.bytes(),
            ],
            6 => vec![MEMORY_DUMP_SEGMENT_6.bytes(), COMMAND_ECHO.bytes()],
            _ => vec![],
        }
    }

    /// "Named and carried bytes together cover the block, none twice."
    #[test]
    fn layouts() {
        for frame in 1..=7 {
            let columns = [&single(frame)[..], &runs(frame), spares(frame)].concat();
            let mut bytes: Vec<usize> = columns.into_iter().flatten().collect();
            bytes.sort();
            assert_eq!(bytes, BLOCK.collect::<Vec<_>>());
            assert!(single(frame).is_sorted_by_key(|column| column.start));
        }
        let lengths = |columns: fn(u16) -> usize| [1, 2, 3, 4, 5, 6, 7].map(columns);
        assert_eq!(
            lengths(|frame| single(frame).len()),
            [14, 14, 10, 0, 2, 1, 8]
        );
        assert_eq!(lengths(|frame| runs(frame).len()), [0, 0, 2, 1, 2, 2, 0]);
        assert_eq!(lengths(carried_length), [0, 0, 2, 0, 4, 0, 10]);
        assert_eq!((carried_length(0), carried_length(8)), (0, 0));
    }

    /// Each byte is its own number, modulo 256: byte 509 is 0xFD, 513 is 1 and 536 is 0x18.
    fn numbered() -> [u8; RECORD] {
        std::array::from_fn(|at| (at + 1) as u8)
    }

    #[test]
    fn temperatures() {
        let Block::Frame1(numbers) = Block::of(1, &numbered()) else {
            panic!("another frame");
        };
        assert_eq!(numbers.computer_memory_temperature, -0x0202);
        assert_eq!(numbers.computer_cpu_temperature, -0x0100);
        assert_eq!(numbers.computer_io_temperature, 0x0304);
        assert_eq!(numbers.honeycomb_panel_temperature, 0x1718);
    }

    #[test]
    fn monitors() {
        let Block::Frame2(numbers) = Block::of(2, &numbered()) else {
            panic!("another frame");
        };
        assert_eq!(numbers.electronics_box_top_sc_thrmstr, -0x0202);
        assert_eq!(numbers.laser_case_hot_foot_temp, -0x0100);
        assert_eq!(numbers.plus_28_volt_voltage_monitor, 0x0102);
        assert_eq!(numbers.plus_12_volt_current_monitor, 0x1718);
        let Block::Frame3(numbers) = Block::of(3, &numbered()) else {
            panic!("another frame");
        };
        assert_eq!(numbers.minus_5_volt_current_monitor, 0xFDFE);
        assert_eq!(numbers.software_version_number, 0x02);
        assert_eq!(numbers.flag_word, 0x0304);
        assert_eq!(numbers.software_validity_checksum, 0x090A);
        assert_eq!(numbers.range_tracking_status, 0x0E);
    }

    #[test]
    fn commands_and_test_shot() {
        let frame_5 = Frame5 {
            hstart_value_histogram_dump: 0x090A_0B0C,
            valid_commands_received_count: 0x1112,
        };
        assert_eq!(Block::of(5, &numbered()), Block::Frame5(frame_5));
        let frame_6 = Frame6 {
            packet_validity_checksum: 0x1718,
        };
        assert_eq!(Block::of(6, &numbered()), Block::Frame6(frame_6));
        let frame_7 = Frame7 {
            ots_range: 0xFDFE_FF00,
            first_ch_received_energy: 0x0102_0304,
            ots_transmit_power: 0x090A_0B0C,
            ots_pulse_width: 0x0D,
            ots_pulse_amplitude: 0x0E,
            ots_qual_flag: 0x0F,
            packet_type: 0x10,
            areocentric_longitude_of_sun: 0x1112,
        };
        assert_eq!(Block::of(7, &numbered()), Block::Frame7(frame_7));
    }

    /// What a frame lacks is zeros.
    #[test]
    fn arrays() {
        let zeros = Runs::default();
        for frame in [1, 2, 7] {
            assert_eq!(Runs::of(frame, &numbered()), zeros);
        }
        let mut frame_3 = zeros;
        frame_3.status_flags = [0x0506, 0x0708];
        frame_3.range_gate_tracker_array[..4].copy_from_slice(&[0x1112, 0x1314, 0x1516, 0x1718]);
        assert_eq!(Runs::of(3, &numbered()), frame_3);
        let frame_4 = Runs::of(4, &numbered());
        let tracker = frame_4.range_gate_tracker_array;
        assert_eq!(tracker[..3], [0xFDFE, 0xFF00, 0x0102]);
        assert_eq!(tracker[13], 0x1718);
        let mut frame_5 = zeros;
        frame_5.range_gate_tracker_array[..6].copy_from_slice(&tracker[..6]);
        frame_5.memory_dump_segment = [0x1314, 0x1516, 0x1718, 0, 0];
        assert_eq!(Runs::of(5, &numbered()), frame_5);
        let frame_6 = Runs::of(6, &numbered());
        assert_eq!(frame_6.memory_dump_segment[..], tracker[..5]);
        assert_eq!(frame_6.command_echo[..], tracker[5..13]);
        assert_eq!(frame_6.range_gate_tracker_array, [0; 14]);
    }

    #[test]
    fn carried() {
        let carried = |frame| carried_of(frame, &numbered());
        assert_eq!(carried(3), [0x0F, 0x10, 0, 0, 0, 0, 0, 0, 0, 0]);
        assert_eq!(carried(5), [0x0D, 0x0E, 0x0F, 0x10, 0, 0, 0, 0, 0, 0]);
        assert_eq!(carried(7), [5, 6, 7, 8, 0x13, 0x14, 0x15, 0x16, 0x17, 0x18]);
        for frame in [1, 2, 4, 6] {
            assert_eq!(carried(frame), [0; MOST_CARRIED]);
        }
    }
}
