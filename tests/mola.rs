//! The functions of `include/mola.h`, over slices.

use std::mem::size_of;

#[repr(C)]
#[derive(Clone, Copy, Debug, Default, PartialEq, Eq)]
pub struct Fields {
    pub error_status: u8,
    pub count: u16,
    pub coarse_time: u32,
    pub fine_time: u8,
    pub status_register: u8,
    pub software_version: u8,
    pub ram_flag_word: u16,
    pub status_word_1: u16,
    pub status_word_2: u16,
    pub software_checksum: u16,
    pub commands_received: u8,
    pub command_errors: u8,
    pub transmitter_threshold: u8,
    pub tracking_status: u8,
    pub hstart: u16,
}

#[repr(C)]
#[derive(Clone, Copy, Debug, PartialEq, Eq)]
pub struct PacketArrays {
    pub temperatures: [u8; 16],
    pub readings: [u8; 14],
    pub bins: [u8; 48],
}

#[repr(C)]
#[derive(Clone, Copy, Debug, PartialEq, Eq)]
pub struct Read {
    pub refusal: u32,
    pub fields: Fields,
    pub arrays: PacketArrays,
}

#[repr(C)]
#[derive(Clone, Copy, Debug, Default, PartialEq, Eq)]
pub struct FrameTime {
    pub whole: i32,
    pub micros: i32,
}

#[repr(C)]
#[derive(Clone, Copy, Debug, Default, PartialEq, Eq)]
pub struct OrbitPosition {
    pub orbit: u32,
    pub latitude: i32,
    pub longitude: i32,
    pub radial_distance: u32,
    pub ground_latitude: i32,
    pub ground_longitude: i32,
}

#[repr(C)]
#[derive(Clone, Copy, Debug, Default, PartialEq, Eq)]
pub struct Quality {
    pub good: u32,
    pub carried: u8,
    pub counter: u8,
}

/// A bool of C, as its byte: one that is neither 0 nor 1 is then a difference, where a bool of Rust would be undefined.
pub type Bool = u8;

#[repr(C)]
#[derive(Clone, Copy, Debug, Default, PartialEq, Eq)]
pub struct Descriptor {
    pub packet_sum: Bool,
    pub software_sum: Bool,
    pub mode: Bool,
    pub ots: Bool,
    pub carried: u32,
}

#[repr(C)]
#[derive(Clone, Copy, Debug, Default, PartialEq, Eq)]
pub struct Pointing {
    pub right_ascension: i32,
    pub declination: i32,
    pub twist: i32,
}

#[repr(C)]
#[derive(Clone, Copy, Debug, Default, PartialEq, Eq)]
pub struct Ranges {
    pub mid_point_range: u32,
    pub frame_radius: u32,
    pub delay: u32,
    pub width: u32,
}

#[repr(C)]
#[derive(Clone, Copy, Debug, Default, PartialEq, Eq)]
pub struct Receiver {
    pub channel_mask: u16,
    pub minimum_hits: u16,
    pub hit_count: u16,
    pub frame_counter: u16,
    pub trigger: u16,
    pub frame_index: u16,
}

#[repr(C)]
#[derive(Clone, Copy, Debug, Default, PartialEq, Eq)]
pub struct PacketLink {
    pub seconds: i32,
    pub millis: i16,
    pub fine_time: u16,
}

#[repr(C)]
#[derive(Clone, Copy, Debug, Default, PartialEq, Eq)]
pub struct RecordFields {
    pub time: FrameTime,
    pub position: OrbitPosition,
    pub quality: Quality,
    pub descriptor: Descriptor,
    pub pointing: Pointing,
    pub ranges: Ranges,
    pub receiver: Receiver,
    pub link: PacketLink,
}

#[repr(C)]
#[derive(Clone, Copy, Debug, Default, PartialEq, Eq)]
pub struct Encoder {
    pub start: u8,
    pub carried_low: u8,
    pub stop: u8,
    pub carried_high: u8,
}

#[repr(C)]
#[derive(Clone, Copy, Debug, Default, PartialEq, Eq)]
pub struct Failures {
    pub power: Bool,
    pub energy: Bool,
    pub range: Bool,
    pub window: Bool,
    pub comparison: Bool,
}

#[repr(C)]
#[derive(Clone, Copy, Debug, Default, PartialEq, Eq)]
pub struct ShotArrays {
    pub radius: [u32; 20],
    pub energy: [u16; 20],
    pub reflectivity: [u16; 20],
    pub trigger_channel: [u8; 20],
    pub pulse_width: [u16; 20],
    pub optical_width: [u16; 20],
    pub laser_power: [u16; 20],
    pub class_number: [u16; 20],
    pub encoder: [Encoder; 20],
    pub failures: [Failures; 20],
}

#[repr(C)]
#[derive(Clone, Copy, Debug, Default, PartialEq, Eq)]
pub struct ChannelArrays {
    pub noise: [u32; 8],
    pub thresholds: [u16; 8],
}

#[repr(C)]
#[derive(Clone, Copy, Debug, Default, PartialEq, Eq)]
pub struct RecordArrays {
    pub shots: ShotArrays,
    pub channels: ChannelArrays,
    pub xyz: [i32; 3],
    pub source_header: [u32; 2],
}

#[repr(C)]
#[derive(Clone, Copy, Debug, Default, PartialEq, Eq)]
pub struct Frame1 {
    pub computer_memory_temperature: i16,
    pub computer_cpu_temperature: i16,
    pub power_supply_temperature: i16,
    pub computer_io_temperature: i16,
    pub laser_diode_array_temperature: i16,
    pub laser_diode_drive_elecs_temp: i16,
    pub optical_test_source_led_temp: i16,
    pub hundred_mhz_oscillator_temp: i16,
    pub start_detector_temperature: i16,
    pub outside_detector_housing_temp: i16,
    pub lasr_radiatr_opp_opt_port_temp: i16,
    pub lser_radiator_output_port_temp: i16,
    pub interface_plate_hot_foot_temp: i16,
    pub honeycomb_panel_temperature: i16,
}

#[repr(C)]
#[derive(Clone, Copy, Debug, Default, PartialEq, Eq)]
pub struct Frame2 {
    pub electronics_box_top_sc_thrmstr: i16,
    pub laser_case_hot_foot_temp: i16,
    pub plus_28_volt_voltage_monitor: u16,
    pub reference_voltage_monitor: u16,
    pub plus_12_volt_voltage_monitor: u16,
    pub plus_24_volt_voltage_monitor: u16,
    pub plus_5_volt_voltage_monitor: u16,
    pub minus_12_volt_voltage_monitor: u16,
    pub laser_thermal_current_monitor: u16,
    pub minus_5_volt_voltage_monitor: u16,
    pub power_supply_current_monitor: u16,
    pub high_voltage_monitor: u16,
    pub minus_12_volt_current_monitor: u16,
    pub plus_12_volt_current_monitor: u16,
}

#[repr(C)]
#[derive(Clone, Copy, Debug, Default, PartialEq, Eq)]
pub struct Frame3 {
    pub minus_5_volt_current_monitor: u16,
    pub plus_5_volt_current_monitor: u16,
    pub current_status_register_value: u8,
    pub software_version_number: u8,
    pub flag_word: u16,
    pub software_validity_checksum: u16,
    pub received_command_count: u8,
    pub command_error_count: u8,
    pub transmitter_threshold_setting: u8,
    pub range_tracking_status: u8,
}

#[repr(C)]
#[derive(Clone, Copy, Debug, Default, PartialEq, Eq)]
pub struct Frame5 {
    pub hstart_value_histogram_dump: u32,
    pub valid_commands_received_count: u16,
}

#[repr(C)]
#[derive(Clone, Copy, Debug, Default, PartialEq, Eq)]
pub struct Frame6 {
    pub packet_validity_checksum: u16,
}

#[repr(C)]
#[derive(Clone, Copy, Debug, Default, PartialEq, Eq)]
pub struct Frame7 {
    pub ots_range: u32,
    pub first_ch_received_energy: u32,
    pub ots_transmit_power: u32,
    pub ots_pulse_width: u8,
    pub ots_pulse_amplitude: u8,
    pub ots_qual_flag: u8,
    pub packet_type: u8,
    pub areocentric_longitude_of_sun: u16,
}

#[repr(C)]
#[derive(Clone, Copy, Debug, Default, PartialEq, Eq)]
pub struct Block {
    pub frame: u32,
    pub frame_1: Frame1,
    pub frame_2: Frame2,
    pub frame_3: Frame3,
    pub frame_5: Frame5,
    pub frame_6: Frame6,
    pub frame_7: Frame7,
}

#[repr(C)]
#[derive(Clone, Copy, Debug, Default, PartialEq, Eq)]
pub struct BlockRuns {
    pub status_flags: [u16; 2],
    pub range_gate_tracker_array: [u16; 14],
    pub memory_dump_segment: [u16; 5],
    pub command_echo: [u16; 8],
}

#[repr(C)]
#[derive(Clone, Copy, Debug, PartialEq, Eq)]
pub struct Record {
    pub refusal: u32,
    pub fields: RecordFields,
    pub block: Block,
    pub arrays: RecordArrays,
    pub runs: BlockRuns,
    pub carried: [u8; 10],
    pub uninterpreted: [u8; 220],
}

#[repr(C)]
#[derive(Clone, Copy, Debug, Default, PartialEq, Eq)]
pub struct Shot {
    pub radius: u32,
    pub energy: u16,
    pub reflectivity: u16,
    pub trigger_channel: u8,
    pub pulse_width: u16,
    pub optical_width: u16,
    pub laser_power: u16,
    pub class_number: u16,
    pub encoder: Encoder,
    pub good: Bool,
    pub failures: Failures,
}

#[repr(C)]
#[derive(Clone, Copy, Debug, PartialEq, Eq)]
pub struct ShotRead {
    pub refusal: u32,
    pub shot: Shot,
}

#[repr(C)]
#[derive(Clone, Copy, Debug, Default, PartialEq, Eq)]
pub struct Anchor {
    pub count: u32,
    pub time: u32,
}

#[repr(C)]
#[derive(Clone, Copy, Debug, Default, PartialEq, Eq)]
pub struct Window {
    pub start: u32,
    pub marks: u32,
}

#[repr(C)]
#[derive(Clone, Copy, Debug, Default, PartialEq, Eq)]
pub struct Session {
    pub anchor: Anchor,
    pub sum_word: u32,
    pub threshold: u32,
    pub window: Window,
}

pub const NOTHING: u32 = 0;
pub const PACKET: u32 = 1;
pub const MISSING: u32 = 2;

#[repr(C)]
#[derive(Clone, Copy, Debug, PartialEq, Eq)]
pub struct Answer {
    pub refusal: u32,
    pub kind: u32,
    pub position: u32,
}

#[repr(C)]
#[derive(Clone, Copy, Debug, PartialEq, Eq)]
pub struct Count {
    pub refusal: u32,
    pub count: u32,
}

const _: () = assert!(size_of::<Fields>() == 28);
const _: () = assert!(size_of::<PacketArrays>() == 78);
const _: () = assert!(size_of::<Read>() == 112);
const _: () = assert!(size_of::<RecordFields>() == 96);
const _: () = assert!(size_of::<ShotArrays>() == 520);
const _: () = assert!(size_of::<RecordArrays>() == 588);
const _: () = assert!(size_of::<Block>() == 108);
const _: () = assert!(size_of::<BlockRuns>() == 58);
const _: () = assert!(size_of::<Record>() == 1084);
const _: () = assert!(size_of::<Shot>() == 28);
const _: () = assert!(size_of::<ShotRead>() == 32);
const _: () = assert!(size_of::<Session>() == 24);
const _: () = assert!(size_of::<Answer>() == 12);
const _: () = assert!(size_of::<Count>() == 8);

extern "C" {
    fn mola_check_packet(packet: *const u8, packet_len: usize, sum_word: usize) -> u8;
    fn mola_read_packet(packet: *const u8, packet_len: usize, sum_word: usize) -> Read;
    fn mola_word_sum(bytes: *const u8, bytes_len: usize) -> u16;
    fn mola_packet_sum(bytes: *const u8, bytes_len: usize, sum_word: usize) -> u16;
    fn mola_first_bin(hstart: u16) -> u16;
    fn mola_bin_starts(hstart: u16, starts: *mut [u32; 48]);
    fn mola_write_packet(
        fields: Fields,
        temperatures: *const [u8; 16],
        readings: *const [u8; 14],
        bins: *const [u8; 48],
        carried: *const u8,
        carried_len: usize,
        sum_word: usize,
        out: *mut u8,
        out_len: usize,
    ) -> u8;
    fn mola_check_record(record: *const u8, record_len: usize) -> u8;
    fn mola_read_record(record: *const u8, record_len: usize) -> Record;
    fn mola_read_shot(record: *const u8, record_len: usize, shot: usize) -> ShotRead;
    fn mola_write_record(
        fields: RecordFields,
        block: Block,
        arrays: RecordArrays,
        runs: BlockRuns,
        carried: *const u8,
        carried_len: usize,
        uninterpreted: *const u8,
        uninterpreted_len: usize,
        out: *mut u8,
        out_len: usize,
    ) -> u8;
    fn mola_open(
        session: *mut Session,
        store: *mut u8,
        store_len: usize,
        packet: *const u8,
        packet_len: usize,
        threshold: u32,
        sum_word: u32,
    ) -> Answer;
    fn mola_offer(
        session: *mut Session,
        store: *mut u8,
        store_len: usize,
        packet: *const u8,
        packet_len: usize,
    ) -> Answer;
    fn mola_serve(
        session: *mut Session,
        out: *mut u8,
        out_len: usize,
        store: *const u8,
        store_len: usize,
    ) -> Answer;
    fn mola_drain(
        session: *mut Session,
        out: *mut u8,
        out_len: usize,
        store: *const u8,
        store_len: usize,
        budget: u32,
        descriptions: *mut [u32; 64],
    ) -> Count;
    fn mola_pass(session: *mut Session) -> Answer;
}

// Safety of every call below: a slice is that many bytes (or numbers) to read, or to write where it is mutable, and Rust's borrows keep
// the arguments of one call apart. The header asks for nothing else.

pub fn check_packet(packet: &[u8], sum_word: usize) -> u8 {
    unsafe { mola_check_packet(packet.as_ptr(), packet.len(), sum_word) }
}

pub fn read_packet(packet: &[u8], sum_word: usize) -> Read {
    unsafe { mola_read_packet(packet.as_ptr(), packet.len(), sum_word) }
}

pub fn word_sum(bytes: &[u8]) -> u16 {
    unsafe { mola_word_sum(bytes.as_ptr(), bytes.len()) }
}

pub fn packet_sum(bytes: &[u8], sum_word: usize) -> u16 {
    unsafe { mola_packet_sum(bytes.as_ptr(), bytes.len(), sum_word) }
}

pub fn first_bin(hstart: u16) -> u16 {
    unsafe { mola_first_bin(hstart) }
}

pub fn bin_starts(hstart: u16, starts: &mut [u32; 48]) {
    unsafe { mola_bin_starts(hstart, starts) }
}

pub fn write_packet(
    fields: Fields,
    temperatures: &[u8; 16],
    readings: &[u8; 14],
    bins: &[u8; 48],
    carried: &[u8],
    sum_word: usize,
    out: &mut [u8],
) -> u8 {
    unsafe {
        mola_write_packet(
            fields,
            temperatures,
            readings,
            bins,
            carried.as_ptr(),
            carried.len(),
            sum_word,
            out.as_mut_ptr(),
            out.len(),
        )
    }
}

pub fn check_record(record: &[u8]) -> u8 {
    unsafe { mola_check_record(record.as_ptr(), record.len()) }
}

pub fn read_record(record: &[u8]) -> Record {
    unsafe { mola_read_record(record.as_ptr(), record.len()) }
}

pub fn read_shot(record: &[u8], shot: usize) -> ShotRead {
    unsafe { mola_read_shot(record.as_ptr(), record.len(), shot) }
}

pub fn write_record(
    fields: RecordFields,
    block: Block,
    arrays: RecordArrays,
    runs: BlockRuns,
    carried: &[u8],
    uninterpreted: &[u8],
    out: &mut [u8],
) -> u8 {
    unsafe {
        mola_write_record(
            fields,
            block,
            arrays,
            runs,
            carried.as_ptr(),
            carried.len(),
            uninterpreted.as_ptr(),
            uninterpreted.len(),
            out.as_mut_ptr(),
            out.len(),
        )
    }
}

pub fn open(
    session: &mut Session,
    store: &mut [u8],
    packet: &[u8],
    threshold: u32,
    sum_word: u32,
) -> Answer {
    unsafe {
        mola_open(
            session,
            store.as_mut_ptr(),
            store.len(),
            packet.as_ptr(),
            packet.len(),
            threshold,
            sum_word,
        )
    }
}

pub fn offer(session: &mut Session, store: &mut [u8], packet: &[u8]) -> Answer {
    unsafe {
        mola_offer(
            session,
            store.as_mut_ptr(),
            store.len(),
            packet.as_ptr(),
            packet.len(),
        )
    }
}

pub fn serve(session: &mut Session, out: &mut [u8], store: &[u8]) -> Answer {
    unsafe {
        mola_serve(
            session,
            out.as_mut_ptr(),
            out.len(),
            store.as_ptr(),
            store.len(),
        )
    }
}

pub fn drain(
    session: &mut Session,
    out: &mut [u8],
    store: &[u8],
    budget: u32,
    descriptions: &mut [u32; 64],
) -> Count {
    unsafe {
        mola_drain(
            session,
            out.as_mut_ptr(),
            out.len(),
            store.as_ptr(),
            store.len(),
            budget,
            descriptions,
        )
    }
}

pub fn pass(session: &mut Session) -> Answer {
    unsafe { mola_pass(session) }
}
