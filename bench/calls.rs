//! The calls measured: `calls INPUT ROW SIDE TIMES` makes a row's calls so many times and prints the nanoseconds for each call, or for
//! each arrival. `calls INPUT tally SIDE 1` prints what the arrivals come to, `calls INPUT word-sum-tally SIDE 1` the sum that the row `word-sum`
//! works out. INPUT is a directory that has the files `arrivals`, `pedr` and `bytes`.
//!
//! The sides: `verified`, the library; `rust`, the reference behind functions that are not inlined and whose arguments the compiler does
//! not know, as the library's; `direct`, the reference called directly, so that the compiler may inline it and use the lengths and the sum
//! word.
//!
//! All sides run the same loops over the same bytes. Buffers are allocated and cleared once, before the first call, and are not cleared
//! between calls. The loop's own few instructions count on every side.

#[allow(dead_code)]
#[path = "../tests/convert.rs"]
mod convert;
#[allow(dead_code)]
#[path = "../tests/mola.rs"]
mod mola;
#[path = "../tests/reference.rs"]
mod reference;

use reference::record;
use reference::record::block::carried_length;
use reference::{Answer, Refusal, PACKET, PUBLISHED_SUM_WORD, RECORD, STORE};
use std::collections::BTreeMap;
use std::hint::black_box;
use std::path::Path;
use std::time::Instant;

const THRESHOLD: u32 = 4;
const BUDGET: u32 = 32;
const SUM_WORD: u32 = PUBLISHED_SUM_WORD as u32;

/// The rows of one packet or record take so many of the first ones in turn, all of them accepted: they stay in the nearest cache.
const IN_TURN: usize = 16;

/// Every position free.
const EMPTY: (u32, u32) = (0, 0);
/// Every position held.
const FULL: (u32, u32) = (0, u32::MAX);
/// Next is not held, and none is as far ahead as the threshold: it waits.
const WAITING: (u32, u32) = (0, 0b1110);

trait Side {
    type Session: Copy;
    type Check;
    type Answer;
    type Count;
    type Record;
    type Shot;
    /// What is given to write a record.
    type Write;

    /// A session with this next and these marks, and the first packet's count and time.
    fn session(window: (u32, u32), first: &[u8; PACKET]) -> Self::Session;
    fn word_sum(bytes: &[u8]) -> u16;
    fn packet_sum(bytes: &[u8], sum_word: usize) -> u16;
    fn check_packet(packet: &[u8], sum_word: usize) -> Self::Check;
    fn open(session: &mut Self::Session, store: &mut [u8], packet: &[u8]) -> Self::Answer;
    fn offer(session: &mut Self::Session, store: &mut [u8], packet: &[u8]) -> Self::Answer;
    fn serve(session: &mut Self::Session, out: &mut [u8], store: &[u8]) -> Self::Answer;
    fn drain(
        session: &mut Self::Session,
        out: &mut [u8],
        store: &[u8],
        descriptions: &mut [u32; 64],
    ) -> Self::Count;
    fn read_record(bytes: &[u8]) -> Self::Record;
    fn read_shot(bytes: &[u8], shot: usize) -> Self::Shot;
    fn write_record(write: &Self::Write, out: &mut [u8]) -> Self::Check;

    fn waits(answer: &Self::Answer) -> bool;
    /// Refusal and kind.
    fn numbers(answer: &Self::Answer) -> (u32, u32);
    fn counted(count: &Self::Count) -> u32;
    /// An accepted record, to write it.
    fn rewrite(record: Self::Record) -> Self::Write;
    fn record_said(record: Self::Record) -> mola::Record;
    fn shot_said(shot: Self::Shot) -> mola::ShotRead;
}

/// A record that was read, and how many carried bytes its block has.
struct Rewrite<R> {
    read: R,
    carried: usize,
}

struct Verified;

impl Side for Verified {
    type Session = mola::Session;
    type Check = u8;
    type Answer = mola::Answer;
    type Count = mola::Count;
    type Record = mola::Record;
    type Shot = mola::ShotRead;
    type Write = Rewrite<mola::Record>;

    fn session((next, marks): (u32, u32), first: &[u8; PACKET]) -> mola::Session {
        let read = mola::read_packet(first, PUBLISHED_SUM_WORD).fields;
        mola::Session {
            anchor: mola::Anchor {
                count: u32::from(read.count),
                time: read.coarse_time,
            },
            sum_word: SUM_WORD,
            threshold: THRESHOLD,
            window: mola::Window { start: next, marks },
        }
    }

    #[inline(always)]
    fn word_sum(bytes: &[u8]) -> u16 {
        mola::word_sum(bytes)
    }

    #[inline(always)]
    fn packet_sum(bytes: &[u8], sum_word: usize) -> u16 {
        mola::packet_sum(bytes, sum_word)
    }

    #[inline(always)]
    fn check_packet(packet: &[u8], sum_word: usize) -> u8 {
        mola::check_packet(packet, sum_word)
    }

    #[inline(always)]
    fn open(session: &mut mola::Session, store: &mut [u8], packet: &[u8]) -> mola::Answer {
        mola::open(session, store, packet, THRESHOLD, SUM_WORD)
    }

    #[inline(always)]
    fn offer(session: &mut mola::Session, store: &mut [u8], packet: &[u8]) -> mola::Answer {
        mola::offer(session, store, packet)
    }

    #[inline(always)]
    fn serve(session: &mut mola::Session, out: &mut [u8], store: &[u8]) -> mola::Answer {
        mola::serve(session, out, store)
    }

    #[inline(always)]
    fn drain(
        session: &mut mola::Session,
        out: &mut [u8],
        store: &[u8],
        descriptions: &mut [u32; 64],
    ) -> mola::Count {
        mola::drain(session, out, store, BUDGET, descriptions)
    }

    #[inline(always)]
    fn read_record(bytes: &[u8]) -> mola::Record {
        mola::read_record(bytes)
    }

    #[inline(always)]
    fn read_shot(bytes: &[u8], shot: usize) -> mola::ShotRead {
        mola::read_shot(bytes, shot)
    }

    #[inline(always)]
    fn write_record(Rewrite { read, carried }: &Self::Write, out: &mut [u8]) -> u8 {
        mola::write_record(
            read.fields,
            read.block,
            read.arrays,
            read.runs,
            &read.carried[..*carried],
            &read.uninterpreted,
            out,
        )
    }

    #[inline(always)]
    fn waits(answer: &mola::Answer) -> bool {
        answer.kind == mola::NOTHING
    }

    fn numbers(answer: &mola::Answer) -> (u32, u32) {
        (answer.refusal, answer.kind)
    }

    fn counted(count: &mola::Count) -> u32 {
        count.count
    }

    fn rewrite(read: mola::Record) -> Self::Write {
        let carried = carried_length(read.fields.receiver.frame_index);
        Rewrite { read, carried }
    }

    fn record_said(record: mola::Record) -> mola::Record {
        record
    }

    fn shot_said(shot: mola::ShotRead) -> mola::ShotRead {
        shot
    }
}

/// The reference as a library offers it. A symbol that others may call keeps the compiler from using what it knows of the callers here.
mod called {
    use super::reference::record::block::{Block, Runs};
    use super::reference::record::{self, Arrays, Fields, Record, Shot};
    use super::reference::{self, Answer, Refusal, Session};

    #[no_mangle]
    #[inline(never)]
    pub fn rust_word_sum(bytes: &[u8]) -> u16 {
        reference::word_sum(bytes)
    }

    #[no_mangle]
    #[inline(never)]
    pub fn rust_packet_sum(bytes: &[u8], sum_word: usize) -> u16 {
        reference::packet_sum(bytes, sum_word)
    }

    #[no_mangle]
    #[inline(never)]
    pub fn rust_check_packet(packet: &[u8], sum_word: usize) -> Result<(), Refusal> {
        reference::check_packet(packet, sum_word)
    }

    #[no_mangle]
    #[inline(never)]
    pub fn rust_open(
        session: &mut Session,
        store: &mut [u8],
        packet: &[u8],
        threshold: u32,
        sum_word: u32,
    ) -> Result<Answer, Refusal> {
        reference::open(session, store, packet, threshold, sum_word)
    }

    #[no_mangle]
    #[inline(never)]
    pub fn rust_offer(
        session: &mut Session,
        store: &mut [u8],
        packet: &[u8],
    ) -> Result<Answer, Refusal> {
        reference::offer(session, store, packet)
    }

    #[no_mangle]
    #[inline(never)]
    pub fn rust_serve(
        session: &mut Session,
        out: &mut [u8],
        store: &[u8],
    ) -> Result<Answer, Refusal> {
        reference::serve(session, out, store)
    }

    #[no_mangle]
    #[inline(never)]
    pub fn rust_drain(
        session: &mut Session,
        out: &mut [u8],
        store: &[u8],
        budget: u32,
        descriptions: &mut [u32; 64],
    ) -> Result<u32, Refusal> {
        reference::drain(session, out, store, budget, descriptions)
    }

    #[no_mangle]
    #[inline(never)]
    pub fn rust_read_record(bytes: &[u8]) -> Result<Record, Refusal> {
        record::read(bytes)
    }

    #[no_mangle]
    #[inline(never)]
    pub fn rust_read_shot(bytes: &[u8], shot: usize) -> Result<Shot, Refusal> {
        record::read_shot(bytes, shot)
    }

    #[no_mangle]
    #[inline(never)]
    pub fn rust_write_record(
        fields: Fields,
        block: Option<Block>,
        arrays: Arrays,
        runs: Runs,
        carried: &[u8],
        uninterpreted: &[u8],
        out: &mut [u8],
    ) -> Result<(), Refusal> {
        record::write(fields, block, arrays, runs, carried, uninterpreted, out)
    }
}

struct Rust;
struct Direct;

macro_rules! reference_side {
    ($side:ty, $word_sum:path, $sum:path, $check:path, $open:path, $offer:path, $serve:path, $drain:path,
     $read_record:path, $read_shot:path, $write_record:path) => {
        impl Side for $side {
            type Session = reference::Session;
            type Check = Result<(), Refusal>;
            type Answer = Result<Answer, Refusal>;
            type Count = Result<u32, Refusal>;
            type Record = Result<record::Record, Refusal>;
            type Shot = Result<record::Shot, Refusal>;
            type Write = Rewrite<record::Record>;

            fn session((next, marks): (u32, u32), first: &[u8; PACKET]) -> Self::Session {
                let read = reference::read_packet(first, PUBLISHED_SUM_WORD)
                    .expect("valid")
                    .fields;
                reference::Session {
                    anchor: reference::Anchor {
                        count: u32::from(read.count),
                        time: read.coarse_time,
                    },
                    sum_word: SUM_WORD,
                    threshold: THRESHOLD,
                    window: reference::Window { next, marks },
                }
            }

            #[inline(always)]
            fn word_sum(bytes: &[u8]) -> u16 {
                $word_sum(bytes)
            }

            #[inline(always)]
            fn packet_sum(bytes: &[u8], sum_word: usize) -> u16 {
                $sum(bytes, sum_word)
            }

            #[inline(always)]
            fn check_packet(packet: &[u8], sum_word: usize) -> Self::Check {
                $check(packet, sum_word)
            }

            #[inline(always)]
            fn open(session: &mut Self::Session, store: &mut [u8], packet: &[u8]) -> Self::Answer {
                $open(session, store, packet, THRESHOLD, SUM_WORD)
            }

            #[inline(always)]
            fn offer(session: &mut Self::Session, store: &mut [u8], packet: &[u8]) -> Self::Answer {
                $offer(session, store, packet)
            }

            #[inline(always)]
            fn serve(session: &mut Self::Session, out: &mut [u8], store: &[u8]) -> Self::Answer {
                $serve(session, out, store)
            }

            #[inline(always)]
            fn drain(
                session: &mut Self::Session,
                out: &mut [u8],
                store: &[u8],
                descriptions: &mut [u32; 64],
            ) -> Self::Count {
                $drain(session, out, store, BUDGET, descriptions)
            }

            #[inline(always)]
            fn read_record(bytes: &[u8]) -> Self::Record {
                $read_record(bytes)
            }

            #[inline(always)]
            fn read_shot(bytes: &[u8], shot: usize) -> Self::Shot {
                $read_shot(bytes, shot)
            }

            #[inline(always)]
            fn write_record(
                Rewrite { read, carried }: &Self::Write,
                out: &mut [u8],
            ) -> Self::Check {
                $write_record(
                    read.fields,
                    Some(read.block),
                    read.arrays,
                    read.runs,
                    &read.carried[..*carried],
                    &read.uninterpreted,
                    out,
                )
            }

            #[inline(always)]
            fn waits(answer: &Self::Answer) -> bool {
                matches!(answer, Ok(Answer::Waiting) | Err(_))
            }

            fn numbers(answer: &Self::Answer) -> (u32, u32) {
                match *answer {
                    Err(refusal) => (u32::from(refusal), 0),
                    Ok(Answer::Waiting) => (0, 0),
                    Ok(Answer::Packet(_)) => (0, 1),
                    Ok(Answer::Missing(_)) => (0, 2),
                }
            }

            fn counted(count: &Self::Count) -> u32 {
                count.unwrap_or(0)
            }

            fn rewrite(record: Self::Record) -> Self::Write {
                let read = record.expect("valid");
                let carried = carried_length(read.fields.receiver.frame_index);
                Rewrite { read, carried }
            }

            fn record_said(record: Self::Record) -> mola::Record {
                convert::record_read(record)
            }

            fn shot_said(shot: Self::Shot) -> mola::ShotRead {
                convert::shot_read(shot)
            }
        }
    };
}

reference_side!(
    Rust,
    called::rust_word_sum,
    called::rust_packet_sum,
    called::rust_check_packet,
    called::rust_open,
    called::rust_offer,
    called::rust_serve,
    called::rust_drain,
    called::rust_read_record,
    called::rust_read_shot,
    called::rust_write_record
);
reference_side!(
    Direct,
    reference::word_sum,
    reference::packet_sum,
    reference::check_packet,
    reference::open,
    reference::offer,
    reference::serve,
    reference::drain,
    record::read,
    record::read_shot,
    record::write
);

struct Buffers {
    store: Box<[u8; STORE]>,
    out: Box<[u8; STORE]>,
    descriptions: Box<[u32; 64]>,
}

/// The packets of the arrivals, in order; the first opens the buffer.
type Packets = [[u8; PACKET]];

/// PEDR records, all of them accepted.
type Records = [[u8; RECORD]];

struct Input {
    packets: Vec<[u8; PACKET]>,
    records: Vec<[u8; RECORD]>,
    /// Whose words are summed.
    bytes: Vec<u8>,
}

/// Makes the row's calls, and answers how many calls or arrivals they were.
fn run<S: Side>(row: &str, input: &Input, buffers: &mut Buffers, times: usize) -> usize {
    let Input {
        packets,
        records,
        bytes,
    } = input;
    match row {
        "word-sum" => word_sums::<S>(bytes, times),
        "word-sum-tally" => word_sum_tally::<S>(bytes),
        "sum" => sums::<S>(packets, times),
        "check" => checks::<S>(packets, times),
        "offer" => offers::<S>(packets, buffers, times),
        "serve-packet" => serves::<S>(FULL, packets, buffers, times),
        "serve-waits" => serves::<S>(WAITING, packets, buffers, times),
        "drain-full" => drains::<S>(FULL, packets, buffers, times),
        "drain-waits" => drains::<S>(WAITING, packets, buffers, times),
        "arrivals-serve" => arrivals_served::<S>(packets, buffers, times),
        "arrivals-drain" => arrivals_drained::<S>(packets, buffers, times),
        "record-read" => record_reads::<S>(records, times),
        "record-shot" => shot_reads::<S>(records, times),
        "record-write" => record_writes::<S>(records, buffers, times),
        "tally" => tally::<S>(packets, records, buffers),
        _ => panic!("no such row: {row}"),
    }
}

fn accepted(packets: &Packets) -> Vec<[u8; PACKET]> {
    let accepted = packets
        .iter()
        .filter(|packet| reference::check_packet(&packet[..], PUBLISHED_SUM_WORD).is_ok());
    accepted.take(IN_TURN).copied().collect()
}

fn word_sums<S: Side>(bytes: &[u8], times: usize) -> usize {
    for _ in 0..times {
        black_box(S::word_sum(black_box(bytes)));
    }
    times
}

fn word_sum_tally<S: Side>(bytes: &[u8]) -> usize {
    println!("{}", S::word_sum(bytes));
    1
}

fn sums<S: Side>(packets: &Packets, times: usize) -> usize {
    let packets = accepted(packets);
    for i in 0..times {
        let packet = black_box(&packets[i % IN_TURN]);
        black_box(S::packet_sum(packet, PUBLISHED_SUM_WORD));
    }
    times
}

fn checks<S: Side>(packets: &Packets, times: usize) -> usize {
    let packets = accepted(packets);
    for i in 0..times {
        let packet = black_box(&packets[i % IN_TURN]);
        black_box(S::check_packet(packet, PUBLISHED_SUM_WORD));
    }
    times
}

/// Each offer is to a copy of the same empty session.
fn offers<S: Side>(packets: &Packets, buffers: &mut Buffers, times: usize) -> usize {
    let packets = accepted(packets);
    let start = S::session(EMPTY, &packets[0]);
    for i in 0..times {
        let mut session = *black_box(&start);
        let packet = black_box(&packets[i % IN_TURN]);
        black_box(S::offer(&mut session, &mut buffers.store[..], packet));
        black_box((&session, &buffers.store));
    }
    times
}

/// Each serve is of a copy of the same session.
fn serves<S: Side>(
    window: (u32, u32),
    packets: &Packets,
    buffers: &mut Buffers,
    times: usize,
) -> usize {
    let start = S::session(window, &packets[0]);
    for _ in 0..times {
        let mut session = *black_box(&start);
        black_box(S::serve(
            &mut session,
            &mut buffers.out[..],
            &buffers.store[..],
        ));
        black_box((&session, &buffers.out));
    }
    times
}

/// Each drain is of a copy of the same session.
fn drains<S: Side>(
    window: (u32, u32),
    packets: &Packets,
    buffers: &mut Buffers,
    times: usize,
) -> usize {
    let start = S::session(window, &packets[0]);
    for _ in 0..times {
        let mut session = *black_box(&start);
        black_box(S::drain(
            &mut session,
            &mut buffers.out[..],
            &buffers.store[..],
            &mut buffers.descriptions,
        ));
        black_box((&session, &buffers.out, &buffers.descriptions));
    }
    times
}

/// Each packet is offered, then the buffer is served until it waits. The opening counts too, once for all arrivals.
fn arrivals_served<S: Side>(packets: &Packets, buffers: &mut Buffers, times: usize) -> usize {
    for _ in 0..times {
        let mut session = S::session(EMPTY, &packets[0]);
        black_box(S::open(&mut session, &mut buffers.store[..], &packets[0]));
        for packet in &packets[1..] {
            black_box(S::offer(&mut session, &mut buffers.store[..], packet));
            while !S::waits(&S::serve(
                &mut session,
                &mut buffers.out[..],
                &buffers.store[..],
            )) {
                black_box(&buffers.out);
            }
        }
    }
    times * (packets.len() - 1)
}

/// Each packet is offered, then the buffer is drained once: the budget is never spent.
fn arrivals_drained<S: Side>(packets: &Packets, buffers: &mut Buffers, times: usize) -> usize {
    for _ in 0..times {
        let mut session = S::session(EMPTY, &packets[0]);
        black_box(S::open(&mut session, &mut buffers.store[..], &packets[0]));
        for packet in &packets[1..] {
            black_box(S::offer(&mut session, &mut buffers.store[..], packet));
            black_box(S::drain(
                &mut session,
                &mut buffers.out[..],
                &buffers.store[..],
                &mut buffers.descriptions,
            ));
            black_box((&buffers.out, &buffers.descriptions));
        }
    }
    times * (packets.len() - 1)
}

/// The answer is not moved after the call.
fn record_reads<S: Side>(records: &Records, times: usize) -> usize {
    for i in 0..times {
        let answer = S::read_record(black_box(&records[i % IN_TURN]));
        black_box(&answer);
    }
    times
}

fn shot_reads<S: Side>(records: &Records, times: usize) -> usize {
    for i in 0..times {
        let record = black_box(&records[i % IN_TURN]);
        let answer = S::read_shot(record, black_box(1 + i % 20));
        black_box(&answer);
    }
    times
}

/// Fields, block, arrays and runs go by value: the copy that is made of them for each call counts.
fn record_writes<S: Side>(records: &Records, buffers: &mut Buffers, times: usize) -> usize {
    let writes: Vec<S::Write> = records
        .iter()
        .map(|record| S::rewrite(S::read_record(record)))
        .collect();
    for i in 0..times {
        let write = black_box(&writes[i % IN_TURN]);
        black_box(S::write_record(write, &mut buffers.out[..RECORD]));
        black_box(&buffers.out);
    }
    times
}

/// Prints what the arrivals come to, and sums of the bytes served and drained and of what is said of the records and written, which are to be the
/// same on every side.
fn tally<S: Side>(packets: &Packets, records: &Records, buffers: &mut Buffers) -> usize {
    let mut offers = BTreeMap::new();
    let (mut given, mut missing, mut served_bytes) = (0, 0, 0);
    let mut session = S::session(EMPTY, &packets[0]);
    S::open(&mut session, &mut buffers.store[..], &packets[0]);
    for packet in &packets[1..] {
        let (refusal, _) = S::numbers(&S::offer(&mut session, &mut buffers.store[..], packet));
        *offers.entry(refusal).or_insert(0) += 1;
        loop {
            match S::numbers(&S::serve(
                &mut session,
                &mut buffers.out[..],
                &buffers.store[..],
            )) {
                (0, 1) => {
                    given += 1;
                    served_bytes = mixed(served_bytes, &buffers.out[..PACKET]);
                }
                (0, 2) => missing += 1,
                _ => break,
            }
        }
    }
    let (mut drained, mut drained_bytes) = (0, 0);
    let mut session = S::session(EMPTY, &packets[0]);
    S::open(&mut session, &mut buffers.store[..], &packets[0]);
    for packet in &packets[1..] {
        S::offer(&mut session, &mut buffers.store[..], packet);
        let count = S::counted(&S::drain(
            &mut session,
            &mut buffers.out[..],
            &buffers.store[..],
            &mut buffers.descriptions,
        )) as usize;
        drained += count;
        for (i, description) in buffers.descriptions.chunks(2).take(count).enumerate() {
            if description[0] == 1 {
                let packet = &buffers.out[i * PACKET..(i + 1) * PACKET];
                drained_bytes = mixed(drained_bytes, packet);
            }
        }
    }
    println!(
        "{} after the opening, by refusal number {offers:?}; {given} packets served, {missing} positions missing; {drained} answers drained; \
         bytes {served_bytes:x} {drained_bytes:x} {:x}",
        packets.len() - 1,
        tally_records::<S>(records, buffers)
    );
    packets.len() - 1
}

fn tally_records<S: Side>(records: &Records, buffers: &mut Buffers) -> u64 {
    let mut sum = 0;
    for record in records {
        let read = S::record_said(S::read_record(record));
        sum = mixed(sum, format!("{read:?}").as_bytes());
        for shot in 1..=20 {
            let read = S::shot_said(S::read_shot(record, shot));
            sum = mixed(sum, format!("{read:?}").as_bytes());
        }
        S::write_record(
            &S::rewrite(S::read_record(record)),
            &mut buffers.out[..RECORD],
        );
        assert_eq!(buffers.out[..RECORD], record[..], "a record written back");
        sum = mixed(sum, &buffers.out[..RECORD]);
    }
    sum
}

fn mixed(sum: u64, bytes: &[u8]) -> u64 {
    bytes.iter().fold(sum, |sum, byte| {
        sum.rotate_left(5).wrapping_add(u64::from(*byte))
    })
}

fn read_input(directory: &Path) -> Input {
    let arrivals = std::fs::read(directory.join("arrivals")).expect("the arrivals");
    let pedr = std::fs::read(directory.join("pedr")).expect("the records");
    let packets = arrivals
        .chunks_exact(4 + PACKET)
        .map(|arrival| arrival[4..].try_into().expect("a packet"));
    let (records, _) = pedr.as_chunks();
    Input {
        packets: packets.collect(),
        records: records.to_vec(),
        bytes: std::fs::read(directory.join("bytes")).expect("the bytes"),
    }
}

fn main() {
    let arguments: Vec<String> = std::env::args().collect();
    let [_, directory, row, side, times] = &arguments[..] else {
        panic!("usage: calls INPUT ROW SIDE TIMES");
    };
    let times = times.parse().expect("a number of times");
    let input = read_input(Path::new(directory));
    let mut buffers = Buffers {
        store: Box::new([0; STORE]),
        out: Box::new([0; STORE]),
        descriptions: Box::new([0; 64]),
    };
    let run = match side.as_str() {
        "verified" => run::<Verified>,
        "rust" => run::<Rust>,
        "direct" => run::<Direct>,
        _ => panic!("no such side: {side}"),
    };
    let start = Instant::now();
    let units = run(row, &input, &mut buffers, times);
    let elapsed = start.elapsed();
    if !row.ends_with("tally") {
        // In hundredths, since to write a fraction takes more or fewer instructions by its value.
        let hundredths = 100 * elapsed.as_nanos() / units.max(1) as u128;
        println!("{}.{:02}", hundredths / 100, hundredths % 100);
    }
}
