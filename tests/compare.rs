//! Random calls of the library and of the reference, compared to the byte.
//!
//!     compare [rounds] [first seed] [section]
//!
//! Round k uses the seed first + k, so a difference is found again by one round of its seed. The check program is run too where AEDR_CHECK
//! gives its path. Ends with 1 at the first difference, and where some answer that can be given never was in a long run.

mod both;
mod convert;
mod generate;
mod histories;
mod lists;
mod mola;
mod program;
mod random;
mod records;
mod reference;

use both::{Harness, Twin, BINS, FUNCTIONS};
use generate::{Write, LONGEST_ROOM};
use random::Random;
use reference::{Packet, PACKET};
use std::process::ExitCode;

const ROUNDS: u64 = 500;
const FIRST_SEED: u64 = 1;

/// So many rounds must give each answer that can be given; one round need not.
const COMPLETE: u64 = 100;

/// Bytes or numbers on either side of what is written that nobody may write.
const GUARD: usize = 40;

type Section = (&'static str, fn(&mut Harness, &Random));

const SECTIONS: [Section; 7] = [
    ("packets", packets),
    ("sums", sums),
    ("writes", writes),
    ("records", records::reads),
    ("record_writes", records::writes),
    ("histories", |harness, random| {
        (0..16).for_each(|_| histories::history(harness, random))
    }),
    ("lists", |harness, random| {
        (0..8).for_each(|_| lists::list(harness, random))
    }),
];

fn main() -> ExitCode {
    let arguments: Vec<String> = std::env::args().skip(1).collect();
    let number = |at: usize, usual: u64| match arguments.get(at) {
        Some(text) => text.parse().ok(),
        None => Some(usual),
    };
    let (Some(rounds), Some(first)) = (number(0, ROUNDS), number(1, FIRST_SEED)) else {
        eprintln!("usage: compare [rounds] [first seed] [section]");
        return ExitCode::from(2);
    };
    let only = arguments.get(2).map(String::as_str);
    let mut harness = Harness::new();
    for seed in first..first + rounds {
        for (name, section) in SECTIONS {
            if only.is_none_or(|only| only == name) {
                (harness.seed, harness.section) = (seed, name);
                section(&mut harness, &Random::new(seed));
            }
        }
    }
    if only.is_none_or(|only| only == "bins") {
        (harness.seed, harness.section) = (first, "bins");
        bins(&mut harness, &Random::new(first));
    }
    if only.is_none_or(|only| only == "program") {
        (harness.seed, harness.section) = (first, "program");
        if let Ok(path) = std::env::var("AEDR_CHECK") {
            program::program(&mut harness, &Random::new(first), &path);
        }
    }
    print_table(&harness);
    println!("differences 0");
    match only {
        None if rounds >= COMPLETE && !is_complete(&harness) => ExitCode::FAILURE,
        _ => ExitCode::SUCCESS,
    }
}

fn packets(harness: &mut Harness, random: &Random) {
    for _ in 0..600 {
        let (packet, sum_word) = generate::any_packet(random);
        harness.check_packet(&packet, sum_word);
        harness.read_packet(&packet, sum_word);
        harness.packet_sum(&packet, sum_word);
    }
    for _ in 0..200 {
        let bytes = any_bytes(random);
        let length = bytes.len();
        let about_end = (length / 2 + random.below(3)).saturating_sub(1);
        let far = generate::wrong_sum_word(random);
        harness.packet_sum(
            &bytes,
            random.pick(&[about_end, random.below(length / 2 + 1), far]),
        );
    }
}

fn any_bytes(random: &Random) -> Vec<u8> {
    let length = random.pick(&[0, 1, 2, 3, random.below(80), random.below(3_000)]);
    random.bytes(length)
}

/// The sum of any bytes, and of the two parts of a cut at an even byte, one past the end too: "two sums that add, modulo 65,536, to that of
/// the whole".
fn sums(harness: &mut Harness, random: &Random) {
    for _ in 0..100 {
        sum_and_cut(harness, random, &any_bytes(random));
    }
    let long = random.below(200_000);
    sum_and_cut(harness, random, &random.bytes(long));
}

fn sum_and_cut(harness: &mut Harness, random: &Random, bytes: &[u8]) {
    let whole = harness.word_sum(bytes);
    let cut = (2 * random.below(bytes.len() / 2 + 2)).min(bytes.len());
    let (before, after) = bytes.split_at(cut);
    let parts = harness
        .word_sum(before)
        .wrapping_add(harness.word_sum(after));
    harness.same(format_args!("cut at {cut}: {bytes:02x?}"), parts, whole);
}

/// Every HSTART.
fn bins(harness: &mut Harness, random: &Random) {
    for hstart in 0..=u16::MAX {
        harness.first_bin(hstart);
        let numbers = (0..BINS + 2 * GUARD).map(|_| random.u32()).collect();
        harness.bin_starts(hstart, &mut Twin::new(numbers, GUARD, BINS));
    }
}

/// What was written is read back, and what was read is written back.
fn writes(harness: &mut Harness, random: &Random) {
    let contents = random.bytes(LONGEST_ROOM + 2 * GUARD);
    let mut out = Twin::new(contents, GUARD, PACKET);
    for _ in 0..300 {
        let write = generate::write(random);
        if harness.write_packet(&write, &mut out) == 0 {
            let packet = out.reference(PACKET).to_vec();
            let read = harness.read_packet(&packet, write.sum_word);
            harness.same(
                format_args!("reading back"),
                read,
                Some(Packet {
                    fields: write.fields,
                    arrays: write.arrays,
                }),
            );
            write_back(harness, &packet, write.sum_word, &mut out);
        }
    }
    for _ in 0..100 {
        let (packet, sum_word) = generate::any_packet(random);
        write_back(harness, &packet, sum_word, &mut out);
    }
}

/// "Writing an accepted science packet's fields gives its bytes back."
fn write_back(harness: &mut Harness, packet: &[u8], sum_word: usize, out: &mut Twin<u8>) {
    let Some(Packet { fields, arrays }) = harness.read_packet(packet, sum_word) else {
        return;
    };
    let mut carried = packet[106..].to_vec();
    // The writer does not read the sum's own bytes.
    carried[2 * sum_word - 106] ^= 0x55;
    let write = Write {
        fields,
        arrays,
        carried,
        sum_word,
        room: PACKET,
    };
    harness.write_packet(&write, out);
    harness.same_items(
        format_args!("writing back"),
        "packet",
        out.reference(PACKET),
        packet,
    );
}

fn print_table(harness: &Harness) {
    println!(
        "{:<13} {:>9} {:>9}  refusals as number:times",
        "function", "calls", "accepted"
    );
    for ((name, refusals), given) in FUNCTIONS.iter().zip(&harness.given) {
        let calls: u64 = given.iter().sum();
        let times: Vec<String> = refusals
            .iter()
            .map(|number| format!("{number}:{}", given[usize::from(*number)]))
            .collect();
        println!("{name:<13} {calls:>9} {:>9}  {}", given[0], times.join(" "));
    }
    println!(
        "records by frame from 1 to 7: read {:?}, written {:?}",
        harness.frames_read, harness.frames_written
    );
    let [waiting, packet, missing] = harness.served;
    println!("serves: waiting {waiting}, packet {packet}, missing {missing}");
    let between: u64 = harness.drained[1..32].iter().sum();
    println!(
        "drains: of 0 {}, of 1 to 31 {between}, of 32 {}",
        harness.drained[0], harness.drained[32]
    );
    println!("lists of demand 3: {}", harness.lists);
    println!(
        "runs of the check program: {}, answers from 0 to 10: {:?}",
        harness.program_runs, harness.printed
    );
    println!("calls {}", harness.given.iter().flatten().sum::<u64>());
}

/// Whether each answer that can be given was given.
fn is_complete(harness: &Harness) -> bool {
    let mut complete = true;
    for ((name, refusals), given) in FUNCTIONS.iter().zip(&harness.given) {
        for number in [0]
            .iter()
            .chain(*refusals)
            .filter(|number| given[usize::from(**number)] == 0)
        {
            println!("never given: {name} {number}");
            complete = false;
        }
    }
    let frames = harness.frames_read.iter().chain(&harness.frames_written);
    if frames.into_iter().any(|times| *times == 0) {
        println!("never read or written: a record of some frame");
        complete = false;
    }
    let kinds = harness
        .served
        .iter()
        .chain([&harness.drained[0], &harness.drained[32]]);
    if kinds.into_iter().any(|times| *times == 0) {
        println!("never given: a kind of serve, or a drain of 0 or 32 answers");
        complete = false;
    }
    // The program's sum word is fixed: 2 cannot be printed.
    let printed = (0..=10)
        .filter(|number| *number != 2)
        .all(|number| harness.printed[number] > 0);
    if harness.program_runs > 0 && !printed {
        println!("never printed: some answer of the check program");
        complete = false;
    }
    complete
}
