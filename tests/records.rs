//! Records read and written, each call compared.

use crate::both::{Harness, Twin};
use crate::convert::{own_block, Lent};
use crate::generate::{self, RecordWrite, FRAMES, LONGEST_RECORD_ROOM};
use crate::random::Random;
use crate::reference::record::block::{carried_length, Runs, MOST_CARRIED};
use crate::reference::RECORD;

/// Bytes on either side of a written record that nobody may write.
const GUARD: usize = 40;

pub fn reads(harness: &mut Harness, random: &Random) {
    for _ in 0..800 {
        let record = generate::any_record(random);
        harness.check_record(&record);
        harness.read_record(&record);
        harness.read_shot(&record, generate::shot(random));
    }
    let record = generate::record(random);
    for shot in 0..=21 {
        harness.read_shot(&record, shot);
    }
}

/// What was written is read back, and what was read is written back.
pub fn writes(harness: &mut Harness, random: &Random) {
    for _ in 0..300 {
        write(harness, random, generate::record_write(random));
    }
    let ordered = generate::ordered_writes(random);
    for given in ordered.into_iter().chain(generate::block_writes(random)) {
        write(harness, random, given);
    }
    for _ in 0..200 {
        write_back(harness, random, &generate::any_record(random));
    }
    for frame in FRAMES {
        write_back(harness, random, &generate::record_of(random, frame));
    }
}

fn write(harness: &mut Harness, random: &Random, (write, refusal): (RecordWrite, u32)) {
    let mut out = output(random);
    let answer = harness.write_record(&write, &mut out);
    harness.same(format_args!("refusal of the first defect"), answer, refusal);
    if answer == 0 {
        read_back(harness, &write, out.reference(RECORD));
    }
}

fn output(random: &Random) -> Twin<u8> {
    let contents = random.bytes(LONGEST_RECORD_ROOM + 2 * GUARD);
    Twin::new(contents, GUARD, RECORD)
}

/// "Reading what was written gives the fields back", the counter aside, which is the ones of `good`, and with zeros for the runs that the frame lacks
/// and after the carried bytes.
fn read_back(harness: &mut Harness, write: &RecordWrite, record: &[u8]) {
    let call = format_args!("reading back");
    let Some(read) = harness.read_record(record) else {
        harness.differ(call, format_args!("it is refused"));
    };
    let mut fields = write.fields;
    fields.quality.counter = fields.quality.good.count_ones() as u8;
    harness.same(call, read.fields, fields);
    harness.same(call, Some(read.block), own_block(write.block));
    harness.same(call, read.arrays, write.arrays);
    let runs = kept(write.runs, fields.receiver.frame_index);
    harness.same(call, read.runs, runs);
    let mut carried = write.carried.clone();
    carried.resize(MOST_CARRIED, 0);
    harness.same_items(call, "carried", &read.carried, &carried);
    harness.same_items(
        call,
        "uninterpreted",
        &read.uninterpreted,
        &write.uninterpreted,
    );
}

/// The numbers that the frame has of each run, and zeros for those that it lacks.
fn kept(runs: Runs, frame: u16) -> Runs {
    let [flags, tracker, dump, echo] = match frame {
        3 => [2, 4, 0, 0],
        4 => [0, 14, 0, 0],
        5 => [0, 6, 3, 0],
        6 => [0, 0, 5, 8],
        _ => [0; 4],
    };
    Runs {
        status_flags: first(runs.status_flags, flags),
        range_gate_tracker_array: first(runs.range_gate_tracker_array, tracker),
        memory_dump_segment: first(runs.memory_dump_segment, dump),
        command_echo: first(runs.command_echo, echo),
    }
}

fn first<const N: usize>(mut run: [u16; N], length: usize) -> [u16; N] {
    run[length..].fill(0);
    run
}

/// "An accepted record read and written is the same bytes", whatever counter is given.
fn write_back(harness: &mut Harness, random: &Random, record: &[u8]) {
    let Some(mut read) = harness.read_record(record) else {
        return;
    };
    read.fields.quality.counter = random.u8();
    let write = RecordWrite {
        fields: read.fields,
        block: read.block.lent(),
        arrays: read.arrays,
        runs: read.runs,
        carried: read.carried[..carried_length(read.block.frame())].to_vec(),
        uninterpreted: read.uninterpreted.to_vec(),
        room: RECORD,
    };
    let mut out = output(random);
    harness.write_record(&write, &mut out);
    let call = format_args!("writing back");
    harness.same_items(call, "record", out.reference(RECORD), record);
}
