//! The reference behind the declarations of `include/mola.h`, to measure its stack by the same program.

#[allow(dead_code)]
#[path = "../tests/convert.rs"]
mod convert;
#[allow(dead_code)]
#[path = "../tests/mola.rs"]
mod mola;
#[path = "../tests/reference.rs"]
mod reference;

use convert::{answer, number, own_block, Lent};
use mola::{Answer, Block, Count};
use reference::record::block::{Runs, MOST_CARRIED};
use reference::record::{self, Shot, UNINTERPRETED};
use reference::{Arrays, Fields, Packet, Refusal, Session};
use std::mem::zeroed;
use std::slice::{from_raw_parts, from_raw_parts_mut};

/// A refusal number and zeros, or 0 and what was read.
#[repr(C)]
pub struct Read<T> {
    refusal: u32,
    read: T,
}

/// Safety: every bit of `T` may be zero.
unsafe fn read<T: From<Own>, Own>(answer: Result<Own, Refusal>) -> Read<T> {
    match answer {
        Ok(own) => Read {
            refusal: 0,
            read: own.into(),
        },
        Err(refusal) => Read {
            refusal: u32::from(refusal),
            read: zeroed(),
        },
    }
}

/// A record with its block as the header has it.
#[repr(C)]
pub struct Record {
    fields: record::Fields,
    block: Block,
    arrays: record::Arrays,
    runs: Runs,
    carried: [u8; MOST_CARRIED],
    uninterpreted: [u8; UNINTERPRETED],
}

impl From<record::Record> for Record {
    fn from(own: record::Record) -> Record {
        Record {
            fields: own.fields,
            block: own.block.lent(),
            arrays: own.arrays,
            runs: own.runs,
            carried: own.carried,
            uninterpreted: own.uninterpreted,
        }
    }
}

// Safety of every call below: the caller keeps to the header.

#[no_mangle]
pub unsafe extern "C" fn mola_word_sum(bytes: *const u8, len: usize) -> u16 {
    reference::word_sum(from_raw_parts(bytes, len))
}

#[no_mangle]
pub unsafe extern "C" fn mola_packet_sum(bytes: *const u8, len: usize, sum_word: usize) -> u16 {
    reference::packet_sum(from_raw_parts(bytes, len), sum_word)
}

#[no_mangle]
pub unsafe extern "C" fn mola_check_packet(packet: *const u8, len: usize, sum_word: usize) -> u8 {
    number(reference::check_packet(
        from_raw_parts(packet, len),
        sum_word,
    ))
}

#[no_mangle]
pub unsafe extern "C" fn mola_read_packet(
    packet: *const u8,
    len: usize,
    sum_word: usize,
) -> Read<Packet> {
    read(reference::read_packet(
        from_raw_parts(packet, len),
        sum_word,
    ))
}

#[no_mangle]
pub extern "C" fn mola_first_bin(hstart: u16) -> u16 {
    reference::first_bin(hstart)
}

#[no_mangle]
pub extern "C" fn mola_bin_starts(hstart: u16, starts: &mut [u32; 48]) {
    *starts = reference::bin_starts(hstart);
}

#[no_mangle]
pub unsafe extern "C" fn mola_write_packet(
    fields: Fields,
    temperatures: *const [u8; 16],
    readings: *const [u8; 14],
    bins: *const [u8; 48],
    carried: *const u8,
    carried_len: usize,
    sum_word: usize,
    out: *mut u8,
    out_len: usize,
) -> u8 {
    let arrays = Arrays {
        temperatures: *temperatures,
        readings: *readings,
        bins: *bins,
    };
    number(reference::write_packet(
        &fields,
        &arrays,
        from_raw_parts(carried, carried_len),
        sum_word,
        from_raw_parts_mut(out, out_len),
    ))
}

#[no_mangle]
pub unsafe extern "C" fn mola_check_record(bytes: *const u8, len: usize) -> u8 {
    number(record::check(from_raw_parts(bytes, len)))
}

#[no_mangle]
pub unsafe extern "C" fn mola_read_record(bytes: *const u8, len: usize) -> Read<Record> {
    read(record::read(from_raw_parts(bytes, len)))
}

#[no_mangle]
pub unsafe extern "C" fn mola_read_shot(bytes: *const u8, len: usize, shot: usize) -> Read<Shot> {
    read(record::read_shot(from_raw_parts(bytes, len), shot))
}

#[no_mangle]
pub unsafe extern "C" fn mola_write_record(
    fields: record::Fields,
    block: Block,
    arrays: record::Arrays,
    runs: Runs,
    carried: *const u8,
    carried_len: usize,
    uninterpreted: *const u8,
    uninterpreted_len: usize,
    out: *mut u8,
    out_len: usize,
) -> u8 {
    number(record::write(
        fields,
        own_block(block),
        arrays,
        runs,
        from_raw_parts(carried, carried_len),
        from_raw_parts(uninterpreted, uninterpreted_len),
        from_raw_parts_mut(out, out_len),
    ))
}

#[no_mangle]
pub unsafe extern "C" fn mola_open(
    session: &mut Session,
    store: *mut u8,
    store_len: usize,
    packet: *const u8,
    packet_len: usize,
    threshold: u32,
    sum_word: u32,
) -> Answer {
    let store = from_raw_parts_mut(store, store_len);
    let packet = from_raw_parts(packet, packet_len);
    answer(reference::open(session, store, packet, threshold, sum_word))
}

#[no_mangle]
pub unsafe extern "C" fn mola_offer(
    session: &mut Session,
    store: *mut u8,
    store_len: usize,
    packet: *const u8,
    packet_len: usize,
) -> Answer {
    let store = from_raw_parts_mut(store, store_len);
    let packet = from_raw_parts(packet, packet_len);
    answer(reference::offer(session, store, packet))
}

#[no_mangle]
pub unsafe extern "C" fn mola_serve(
    session: &mut Session,
    out: *mut u8,
    out_len: usize,
    store: *const u8,
    store_len: usize,
) -> Answer {
    let out = from_raw_parts_mut(out, out_len);
    let store = from_raw_parts(store, store_len);
    answer(reference::serve(session, out, store))
}

#[no_mangle]
pub unsafe extern "C" fn mola_drain(
    session: &mut Session,
    out: *mut u8,
    out_len: usize,
    store: *const u8,
    store_len: usize,
    budget: u32,
    descriptions: &mut [u32; 64],
) -> Count {
    let out = from_raw_parts_mut(out, out_len);
    let store = from_raw_parts(store, store_len);
    convert::count(reference::drain(session, out, store, budget, descriptions))
}

#[no_mangle]
pub unsafe extern "C" fn mola_pass(session: &mut Session) -> Answer {
    answer(reference::pass(session))
}
