//! Calls of the library beside the same calls of the reference: every answer, number and byte is compared after each.

use crate::convert::{self, Lent};
use crate::generate::{RecordWrite, Write};
use crate::random::Random;
use crate::reference::record::Record;
use crate::reference::{Packet, Refusal, STORE};
use crate::{mola, reference};
use std::fmt::{Arguments, Debug};

/// Indices of FUNCTIONS.
pub const CHECK_PACKET: usize = 0;
pub const READ_PACKET: usize = 1;
pub const WORD_SUM: usize = 2;
pub const PACKET_SUM: usize = 3;
pub const FIRST_BIN: usize = 4;
pub const BIN_STARTS: usize = 5;
pub const WRITE_PACKET: usize = 6;
pub const CHECK_RECORD: usize = 7;
pub const READ_RECORD: usize = 8;
pub const READ_SHOT: usize = 9;
pub const WRITE_RECORD: usize = 10;
pub const OPEN: usize = 11;
pub const OFFER: usize = 12;
pub const SERVE: usize = 13;
pub const DRAIN: usize = 14;
pub const PASS: usize = 15;

/// Every refusal number is below.
pub const NUMBERS: usize = 50;

/// Each function and the refusals it can give. An offer cannot give 2: a session with such a sum word is broken, 30. The writer of records
/// takes a class by its number, so 40 does not occur.
pub const FUNCTIONS: [(&str, &[u8]); 16] = [
    ("check_packet", &[1, 2, 3, 4, 5, 6, 7, 8, 9, 10]),
    ("read_packet", &[1, 2, 3, 4, 5, 6, 7, 8, 9, 10]),
    ("word_sum", &[]),
    ("packet_sum", &[]),
    ("first_bin", &[]),
    ("bin_starts", &[]),
    ("write_packet", &[2, 17, 18]),
    ("check_record", &[11, 12, 13, 14, 15]),
    ("read_record", &[11, 12, 13, 14, 15]),
    ("read_shot", &[11, 12, 13, 14, 15, 16]),
    ("write_record", &[13, 14, 15, 41, 42, 49]),
    ("open", &[1, 2, 3, 4, 5, 6, 7, 8, 9, 10, 20, 27]),
    (
        "offer",
        &[1, 3, 4, 5, 6, 7, 8, 9, 10, 21, 22, 23, 24, 25, 27, 30],
    ),
    ("serve", &[27, 29, 30]),
    ("drain", &[27, 29, 30, 31]),
    ("pass", &[26, 28, 30]),
];

pub struct Harness {
    pub seed: u64,
    pub section: &'static str,
    /// How often each function gave each refusal, 0 for none.
    pub given: [[u64; NUMBERS]; FUNCTIONS.len()],
    /// Accepted reads of records, and accepted writes, by frame, that of frame 1 first.
    pub frames_read: [u64; 7],
    pub frames_written: [u64; 7],
    /// Accepted serves of the histories by kind.
    pub served: [u64; 3],
    /// Accepted drains of the histories by count.
    pub drained: [u64; 33],
    pub lists: u64,
    pub program_runs: u64,
    /// How often the check program had to print each answer.
    pub printed: [u64; 11],
}

impl Harness {
    pub fn new() -> Harness {
        Harness {
            seed: 0,
            section: "",
            given: [[0; NUMBERS]; FUNCTIONS.len()],
            frames_read: [0; 7],
            frames_written: [0; 7],
            served: [0; 3],
            drained: [0; 33],
            lists: 0,
            program_runs: 0,
            printed: [0; 11],
        }
    }

    /// Ends the run at a difference.
    pub fn differ(&self, call: Arguments, what: Arguments) -> ! {
        println!(
            "difference in section {} of seed {}",
            self.section, self.seed
        );
        println!("{call}");
        println!("{what}");
        std::process::exit(1);
    }

    pub fn same<T: PartialEq + Debug>(&self, call: Arguments, library: T, reference: T) {
        if library != reference {
            self.differ(
                call,
                format_args!("library   {library:?}\nreference {reference:?}"),
            );
        }
    }

    pub fn same_items<T: PartialEq + Debug>(
        &self,
        call: Arguments,
        what: &str,
        library: &[T],
        reference: &[T],
    ) {
        self.same_around(call, what, library, reference, 0);
    }

    /// Items that begin `guard` before the first one lent; the index that is told counts from there.
    fn same_around<T: PartialEq + Debug>(
        &self,
        call: Arguments,
        what: &str,
        library: &[T],
        reference: &[T],
        guard: usize,
    ) {
        if library != reference {
            let longest = library.len().max(reference.len());
            let at = (0..longest)
                .find(|at| library.get(*at) != reference.get(*at))
                .unwrap_or(0);
            let index = at as i64 - guard as i64;
            let (library, reference) = (library.get(at), reference.get(at));
            self.differ(
                call,
                format_args!("{what} at {index}: library {library:?}, reference {reference:?}"),
            );
        }
    }

    /// Counts a call. A number that is no refusal of that function is a difference of its own.
    pub fn count(&mut self, function: usize, refusal: u32) {
        let (name, refusals) = FUNCTIONS[function];
        if refusal != 0 && !refusals.iter().any(|number| u32::from(*number) == refusal) {
            self.differ(
                format_args!("{name}"),
                format_args!("refusal {refusal} does not belong to it"),
            );
        }
        self.given[function][refusal as usize] += 1;
    }

    pub fn check_packet(&mut self, packet: &[u8], sum_word: usize) -> u32 {
        let lent = packet.to_vec();
        let library = u32::from(mola::check_packet(&lent, sum_word));
        let call = format_args!("check_packet(sum_word {sum_word}, {packet:02x?})");
        self.same(
            call,
            library,
            number(reference::check_packet(packet, sum_word)),
        );
        self.same_items(call, "packet", &lent, packet);
        self.count(CHECK_PACKET, library);
        library
    }

    pub fn read_packet(&mut self, packet: &[u8], sum_word: usize) -> Option<Packet> {
        let lent = packet.to_vec();
        let library = mola::read_packet(&lent, sum_word);
        let answer = reference::read_packet(packet, sum_word);
        let call = format_args!("read_packet(sum_word {sum_word}, {packet:02x?})");
        self.same(call, library, convert::packet_read(answer));
        self.same_items(call, "packet", &lent, packet);
        self.count(READ_PACKET, library.refusal);
        answer.ok()
    }

    pub fn word_sum(&mut self, bytes: &[u8]) -> u16 {
        let lent = bytes.to_vec();
        let library = mola::word_sum(&lent);
        let call = format_args!("word_sum({bytes:02x?})");
        self.same(call, library, reference::word_sum(bytes));
        self.same_items(call, "bytes", &lent, bytes);
        self.count(WORD_SUM, 0);
        library
    }

    pub fn packet_sum(&mut self, bytes: &[u8], sum_word: usize) {
        let lent = bytes.to_vec();
        let library = mola::packet_sum(&lent, sum_word);
        let call = format_args!("packet_sum(sum_word {sum_word}, {bytes:02x?})");
        self.same(call, library, reference::packet_sum(bytes, sum_word));
        self.same_items(call, "bytes", &lent, bytes);
        self.count(PACKET_SUM, 0);
    }

    pub fn first_bin(&mut self, hstart: u16) {
        let call = format_args!("first_bin({hstart})");
        self.same(call, mola::first_bin(hstart), reference::first_bin(hstart));
        self.count(FIRST_BIN, 0);
    }

    pub fn bin_starts(&mut self, hstart: u16, starts: &mut Twin<u32>) {
        let (lent, ours) = starts.lend(BINS);
        mola::bin_starts(hstart, lent.try_into().expect("48 numbers"));
        ours.copy_from_slice(&reference::bin_starts(hstart));
        starts.compare(self, format_args!("bin_starts({hstart})"), "starts", BINS);
        self.count(BIN_STARTS, 0);
    }

    pub fn write_packet(&mut self, write: &Write, out: &mut Twin<u8>) -> u32 {
        let Write {
            fields,
            arrays,
            carried,
            sum_word,
            room,
        } = write;
        let (lent, ours) = out.lend(*room);
        let lent_carried = carried.clone();
        let library = u32::from(mola::write_packet(
            fields.lent(),
            &arrays.temperatures,
            &arrays.readings,
            &arrays.bins,
            &lent_carried,
            *sum_word,
            lent,
        ));
        let answer = reference::write_packet(fields, arrays, carried, *sum_word, ours);
        let length = carried.len();
        let call = format_args!(
            "write_packet({fields:?}, {arrays:?}, carried of {length}, sum_word {sum_word}, out of {room})"
        );
        self.same(call, library, number(answer));
        out.compare(self, call, "out", *room);
        self.same_items(call, "carried", &lent_carried, carried);
        self.count(WRITE_PACKET, library);
        library
    }

    pub fn check_record(&mut self, record: &[u8]) -> u32 {
        let lent = record.to_vec();
        let library = u32::from(mola::check_record(&lent));
        let call = format_args!("check_record({record:02x?})");
        self.same(call, library, number(reference::record::check(record)));
        self.same_items(call, "record", &lent, record);
        self.count(CHECK_RECORD, library);
        library
    }

    pub fn read_record(&mut self, record: &[u8]) -> Option<Record> {
        let lent = record.to_vec();
        let library = mola::read_record(&lent);
        let answer = reference::record::read(record);
        let call = format_args!("read_record({record:02x?})");
        self.same(call, library, convert::record_read(answer));
        self.same_items(call, "record", &lent, record);
        self.count(READ_RECORD, library.refusal);
        if library.refusal == 0 {
            self.frames_read[library.block.frame as usize - 1] += 1;
        }
        answer.ok()
    }

    pub fn read_shot(&mut self, record: &[u8], shot: usize) {
        let lent = record.to_vec();
        let library = mola::read_shot(&lent, shot);
        let answer = reference::record::read_shot(record, shot);
        let call = format_args!("read_shot(shot {shot}, {record:02x?})");
        self.same(call, library, convert::shot_read(answer));
        self.same_items(call, "record", &lent, record);
        self.count(READ_SHOT, library.refusal);
    }

    pub fn write_record(&mut self, write: &RecordWrite, out: &mut Twin<u8>) -> u32 {
        let RecordWrite {
            fields,
            block,
            arrays,
            runs,
            carried,
            uninterpreted,
            room,
        } = write;
        let (lent, ours) = out.lend(*room);
        let (lent_carried, lent_bytes) = (carried.clone(), uninterpreted.clone());
        let library = u32::from(mola::write_record(
            fields.lent(),
            *block,
            arrays.lent(),
            runs.lent(),
            &lent_carried,
            &lent_bytes,
            lent,
        ));
        let answer = reference::record::write(
            *fields,
            convert::own_block(*block),
            *arrays,
            *runs,
            carried,
            uninterpreted,
            ours,
        );
        let call = format_args!(
            "write_record({fields:?}, {block:?}, {arrays:?}, {runs:?}, carried {carried:02x?}, uninterpreted {uninterpreted:02x?}, out of {room})"
        );
        self.same(call, library, number(answer));
        out.compare(self, call, "out", *room);
        self.same_items(call, "carried", &lent_carried, carried);
        self.same_items(call, "uninterpreted", &lent_bytes, uninterpreted);
        self.count(WRITE_RECORD, library);
        if library == 0 {
            self.frames_written[block.frame as usize - 1] += 1;
        }
        library
    }
}

/// The bins of a packet.
pub const BINS: usize = 48;

/// Two equal buffers, one for each side, with bytes around the lent part that nobody may write.
pub struct Twin<T> {
    library: Vec<T>,
    reference: Vec<T>,
    guard: usize,
    usual: usize,
}

impl<T: Copy + PartialEq + Debug> Twin<T> {
    /// `usual` is the length that is always compared; a longer lent part is compared as far as it goes.
    pub fn new(contents: Vec<T>, guard: usize, usual: usize) -> Twin<T> {
        Twin {
            library: contents.clone(),
            reference: contents,
            guard,
            usual,
        }
    }

    pub fn lend(&mut self, length: usize) -> (&mut [T], &mut [T]) {
        let part = self.guard..self.guard + length;
        (&mut self.library[part.clone()], &mut self.reference[part])
    }

    pub fn reference(&self, length: usize) -> &[T] {
        &self.reference[self.guard..self.guard + length]
    }

    fn compare(&self, harness: &Harness, call: Arguments, what: &str, length: usize) {
        let end = 2 * self.guard + length.max(self.usual);
        harness.same_around(
            call,
            what,
            &self.library[..end],
            &self.reference[..end],
            self.guard,
        );
    }
}

/// The lengths that one call lends; `room` is the output's.
#[derive(Clone, Copy)]
pub struct Lengths {
    pub store: usize,
    pub room: usize,
}

pub const LONGEST: usize = 2 * STORE;

/// The numbers that describe a drain's answers.
const DESCRIPTIONS: usize = 64;

/// One reorder buffer on both sides. After each call the two sessions are equal, so one is kept.
pub struct Pair {
    pub session: mola::Session,
    store: Twin<u8>,
    out: Twin<u8>,
    descriptions: Twin<u32>,
}

impl Pair {
    /// Buffers of any contents.
    pub fn new(random: &Random) -> Pair {
        let guard = random.within(32, 64) as usize;
        let numbers = (0..DESCRIPTIONS + 2 * guard)
            .map(|_| random.u32())
            .collect();
        Pair {
            session: mola::Session::default(),
            store: Twin::new(random.bytes(LONGEST + 2 * guard), guard, STORE),
            out: Twin::new(random.bytes(LONGEST + 2 * guard), guard, STORE),
            descriptions: Twin::new(numbers, guard, DESCRIPTIONS),
        }
    }

    pub fn open(
        &mut self,
        harness: &mut Harness,
        lengths: Lengths,
        packet: &[u8],
        threshold: u32,
        sum_word: u32,
    ) -> mola::Answer {
        let (mut session, mut ours) = self.sessions();
        let (store, our_store) = self.store.lend(lengths.store);
        let lent = packet.to_vec();
        let answer = mola::open(&mut session, store, &lent, threshold, sum_word);
        let expected = reference::open(&mut ours, our_store, packet, threshold, sum_word);
        let call = format_args!("open(threshold {threshold}, sum_word {sum_word}, {packet:02x?})");
        harness.same_items(call, "packet", &lent, packet);
        self.settle(
            harness,
            call,
            lengths,
            (answer, convert::answer(expected)),
            (session, ours),
        );
        harness.count(OPEN, answer.refusal);
        answer
    }

    pub fn offer(
        &mut self,
        harness: &mut Harness,
        lengths: Lengths,
        packet: &[u8],
    ) -> mola::Answer {
        let (mut session, mut ours) = self.sessions();
        let (store, our_store) = self.store.lend(lengths.store);
        let lent = packet.to_vec();
        let answer = mola::offer(&mut session, store, &lent);
        let expected = reference::offer(&mut ours, our_store, packet);
        let call = format_args!("offer({packet:02x?})");
        harness.same_items(call, "packet", &lent, packet);
        self.settle(
            harness,
            call,
            lengths,
            (answer, convert::answer(expected)),
            (session, ours),
        );
        harness.count(OFFER, answer.refusal);
        answer
    }

    pub fn serve(&mut self, harness: &mut Harness, lengths: Lengths) -> mola::Answer {
        let (mut session, mut ours) = self.sessions();
        let (store, our_store) = self.store.lend(lengths.store);
        let (out, our_out) = self.out.lend(lengths.room);
        let answer = mola::serve(&mut session, out, store);
        let expected = reference::serve(&mut ours, our_out, our_store);
        let call = format_args!("serve()");
        self.settle(
            harness,
            call,
            lengths,
            (answer, convert::answer(expected)),
            (session, ours),
        );
        harness.count(SERVE, answer.refusal);
        if answer.refusal == 0 {
            harness.served[answer.kind as usize] += 1;
        }
        answer
    }

    pub fn drain(&mut self, harness: &mut Harness, lengths: Lengths, budget: u32) -> mola::Count {
        let (mut session, mut ours) = self.sessions();
        let (store, our_store) = self.store.lend(lengths.store);
        let (out, our_out) = self.out.lend(lengths.room);
        let (described, our_described) = self.descriptions.lend(DESCRIPTIONS);
        let described = described.try_into().expect("64 numbers");
        let our_described = our_described.try_into().expect("64 numbers");
        let count = mola::drain(&mut session, out, store, budget, described);
        let expected = reference::drain(&mut ours, our_out, our_store, budget, our_described);
        let call = format_args!("drain(budget {budget})");
        self.settle(
            harness,
            call,
            lengths,
            (count, convert::count(expected)),
            (session, ours),
        );
        harness.count(DRAIN, count.refusal);
        if count.refusal == 0 {
            harness.drained[count.count as usize] += 1;
        }
        count
    }

    pub fn pass(&mut self, harness: &mut Harness, lengths: Lengths) -> mola::Answer {
        let (mut session, mut ours) = self.sessions();
        let answer = mola::pass(&mut session);
        let expected = reference::pass(&mut ours);
        let call = format_args!("pass()");
        self.settle(
            harness,
            call,
            lengths,
            (answer, convert::answer(expected)),
            (session, ours),
        );
        harness.count(PASS, answer.refusal);
        answer
    }

    fn sessions(&self) -> (mola::Session, reference::Session) {
        (self.session, convert::own_session(self.session))
    }

    /// Compares what a call answered and left, the library's first, and keeps the session.
    fn settle<A: PartialEq + Debug>(
        &mut self,
        harness: &Harness,
        call: Arguments,
        lengths: Lengths,
        answers: (A, A),
        sessions: (mola::Session, reference::Session),
    ) {
        let Lengths { store, room } = lengths;
        let before = self.session;
        let call =
            format_args!("{call}\nstore of {store}, out of {room}, session before {before:?}");
        harness.same(call, answers.0, answers.1);
        harness.same(call, sessions.0, sessions.1.lent());
        self.store.compare(harness, call, "store", store);
        self.out.compare(harness, call, "out", room);
        self.descriptions
            .compare(harness, call, "descriptions", DESCRIPTIONS);
        self.session = sessions.0;
    }
}

fn number(answer: Result<(), Refusal>) -> u32 {
    u32::from(convert::number(answer))
}
