//! The rules of document 01 and of document 02's requests 1 to 3 in plain Rust, written from their text without sight of the library's code: the
//! reference that the library is compared with, and the baseline of its speed. Where they are silent, on the packet sum of bytes of
//! another length or with a word past the end and on a block of no frame, it follows docs/DECISIONS.md.
//!
//! Refusals are document 01's numbers. "A number is given exactly on its condition, the first in the order below", so each function
//! tests in the order that document 01 lists for it, and nothing is written before the last test is passed.
//!
//! The structs that a caller in C gives or is given have C's layout, so that bench/reference_c.rs can hand them on as they are; a record's
//! block, an enum, is converted there.

// Each program that includes this module uses a part of it.
#![allow(dead_code)]

use std::fmt::Write;
use std::ops::RangeInclusive;

#[path = "reference_record.rs"]
pub mod record;

pub const PACKET: usize = 1_080;
pub const CARRIED: usize = 974;
pub const RECORD: usize = 776;

/// "Held bytes live in a lent store of 34,560 bytes": 32 packets.
pub const STORE: usize = 32 * PACKET;

/// "An AEDR record has 1,230 bytes: 150 of transport header, carried unread, then the packet."
pub const AEDR_HEADER: usize = 150;
pub const AEDR_RECORD: usize = AEDR_HEADER + PACKET;

/// "The published number for science packets is that of the column PACKET_VALIDITY_CHECKSUM in document 004": record byte 291, which is
/// packet byte 140.
pub const PUBLISHED_SUM_WORD: usize = 70;

/// "Its place is given as a word number from 53 to 539."
pub const SUM_WORDS: RangeInclusive<usize> = 53..=539;

/// The count's field has 14 bits.
pub const COUNTS: u16 = 1 << 14;

/// "Positions 0 to 999,999 are served": the first one that is not.
pub const END: u32 = 1_000_000;

/// One of document 01's refusal numbers, never 0.
pub type Refusal = u8;

// ---- packets

/// Request 3: "the sum of the words of any lent bytes, carries out of 16 bits dropped, a last odd byte being the upper half of a word".
pub fn word_sum(bytes: &[u8]) -> u16 {
    let (words, last) = bytes.as_chunks::<2>();
    let sum = words.iter().fold(0, |sum: u16, word| {
        sum.wrapping_add(u16::from_be_bytes(*word))
    });
    last.iter()
        .fold(sum, |sum, &byte| sum.wrapping_add(u16::from(byte) << 8))
}

/// "Packet sum: set its word to zero, add the 540 words with carries out of 16 bits dropped", here for any bytes. A sum word past the end
/// takes nothing out.
pub fn packet_sum(bytes: &[u8], sum_word: usize) -> u16 {
    word_sum(bytes).wrapping_sub(word_at(bytes, sum_word))
}

/// Word w, "packet bytes 2w and 2w + 1", where a byte past the end counts as zero.
fn word_at(bytes: &[u8], word: usize) -> u16 {
    let at = word.saturating_mul(2);
    match bytes.get(at..) {
        Some([upper, lower, ..]) => u16::from_be_bytes([*upper, *lower]),
        Some([upper]) => u16::from(*upper) << 8,
        _ => 0,
    }
}

/// The packet as an array, or its first refusal of 1 to 10.
fn accept(packet: &[u8], sum_word: usize) -> Result<&[u8; PACKET], Refusal> {
    let packet: &[u8; PACKET] = packet.try_into().map_err(|_| 1)?;
    if !SUM_WORDS.contains(&sum_word) {
        return Err(2);
    }
    check_header(packet)?;
    let stored = u16_at(packet, 2 * sum_word);
    if packet_sum(packet, sum_word) != stored {
        return Err(10);
    }
    Ok(packet)
}

/// "version 3 (0), spare 1 (0), secondary header flag 1 (0), error status 3, instrument 8 (35)", then segmentation, length and type.
fn check_header(packet: &[u8; PACKET]) -> Result<(), Refusal> {
    if packet[0] & 0b1110_0000 != 0 {
        return Err(3);
    }
    if packet[0] & 0b0001_0000 != 0 {
        return Err(4);
    }
    if packet[0] & 0b0000_1000 != 0 {
        return Err(5);
    }
    if packet[1] != 35 {
        return Err(6);
    }
    if packet[2] >> 6 != 3 {
        return Err(7);
    }
    if u16_at(packet, 4) != 1_073 {
        return Err(8);
    }
    if packet[11] != 0 {
        return Err(9);
    }
    Ok(())
}

/// "Reader: 1 to 10", the refusal alone.
pub fn check_packet(packet: &[u8], sum_word: usize) -> Result<(), Refusal> {
    accept(packet, sum_word).map(|_| ())
}

/// The free fields of a packet that are single numbers.
#[repr(C)]
#[derive(Clone, Copy, Debug, Default, PartialEq, Eq)]
pub struct Fields {
    pub error_status: u8,
    pub count: u16,
    pub coarse_time: u32,
    pub fine_time: u8,
    pub status_register: u8,
    pub software_version: u8,
    pub ram_flag_word: u16,
    pub status_word_1: u16,
    pub status_word_2: u16,
    pub software_checksum: u16,
    pub commands_received: u8,
    pub command_errors: u8,
    pub transmitter_threshold: u8,
    pub tracking_status: u8,
    pub hstart: u16,
}

/// The free fields of a packet that are arrays; the bins in bin order.
#[repr(C)]
#[derive(Clone, Copy, Debug, PartialEq, Eq)]
pub struct Arrays {
    pub temperatures: [u8; 16],
    pub readings: [u8; 14],
    pub bins: [u8; 48],
}

#[repr(C)]
#[derive(Clone, Copy, Debug, PartialEq, Eq)]
pub struct Packet {
    pub fields: Fields,
    pub arrays: Arrays,
}

/// "Reader: 1 to 10", with what an accepted packet holds.
pub fn read_packet(packet: &[u8], sum_word: usize) -> Result<Packet, Refusal> {
    let packet = accept(packet, sum_word)?;
    Ok(Packet {
        fields: fields_of(packet),
        arrays: arrays_of(packet),
    })
}

fn fields_of(packet: &[u8; PACKET]) -> Fields {
    Fields {
        error_status: packet[0] & 7,
        count: count_of(packet),
        coarse_time: time_of(packet),
        fine_time: packet[10],
        status_register: packet[42],
        software_version: packet[43],
        ram_flag_word: u16_at(packet, 44),
        status_word_1: u16_at(packet, 46),
        status_word_2: u16_at(packet, 48),
        software_checksum: u16_at(packet, 50),
        commands_received: packet[52],
        command_errors: packet[53],
        transmitter_threshold: packet[54],
        tracking_status: packet[55],
        hstart: u16_at(packet, 104),
    }
}

fn count_of(packet: &[u8; PACKET]) -> u16 {
    u16_at(packet, 2) % COUNTS
}

fn time_of(packet: &[u8; PACKET]) -> u32 {
    u32_at(packet, 6)
}

/// "Bytes are swapped in pairs, so bin j (0 to 47) is packet byte 56 + j + 1 for even j and 56 + j - 1 for odd j": j exclusive-or 1.
fn arrays_of(packet: &[u8; PACKET]) -> Arrays {
    Arrays {
        temperatures: std::array::from_fn(|i| packet[12 + i]),
        readings: std::array::from_fn(|i| packet[28 + i]),
        bins: std::array::from_fn(|j| packet[56 + (j ^ 1)]),
    }
}

/// "The first bin's number is HSTART plus 0xFFFE, modulo 65,536, then with its lowest bit cleared."
pub fn first_bin(hstart: u16) -> u16 {
    hstart.wrapping_add(0xFFFE) & !1
}

/// "Bin j starts at (first + j) × 1,536 metres, and that sum does not wrap."
pub fn bin_starts(hstart: u16) -> [u32; 48] {
    let first = u32::from(first_bin(hstart));
    std::array::from_fn(|j| (first + j as u32) * 1_536)
}

/// "The writer takes the free fields and 974 carried bytes. It sets the fixed fields, works out the sum, and ignores what the carried
/// bytes hold at the sum's word." "Writer: 2, 17, 18."
pub fn write_packet(
    fields: &Fields,
    arrays: &Arrays,
    carried: &[u8],
    sum_word: usize,
    out: &mut [u8],
) -> Result<(), Refusal> {
    if !SUM_WORDS.contains(&sum_word) {
        return Err(2);
    }
    let carried: &[u8; CARRIED] = carried.try_into().map_err(|_| 17)?;
    if fields.count >= COUNTS || fields.error_status > 7 {
        return Err(17);
    }
    let out: &mut [u8; PACKET] = out.try_into().map_err(|_| 18)?;
    write_head(fields, arrays, out);
    out[106..].copy_from_slice(carried);
    let sum = packet_sum(out, sum_word);
    out[2 * sum_word..2 * sum_word + 2].copy_from_slice(&sum.to_be_bytes());
    Ok(())
}

/// Packet bytes 0 to 105.
fn write_head(fields: &Fields, arrays: &Arrays, out: &mut [u8; PACKET]) {
    out[0] = fields.error_status;
    out[1] = 35;
    out[2..4].copy_from_slice(&(3 << 14 | fields.count).to_be_bytes());
    out[4..6].copy_from_slice(&1_073_u16.to_be_bytes());
    out[6..10].copy_from_slice(&fields.coarse_time.to_be_bytes());
    out[10] = fields.fine_time;
    out[11] = 0;
    out[12..28].copy_from_slice(&arrays.temperatures);
    out[28..42].copy_from_slice(&arrays.readings);
    out[42] = fields.status_register;
    out[43] = fields.software_version;
    out[44..46].copy_from_slice(&fields.ram_flag_word.to_be_bytes());
    out[46..48].copy_from_slice(&fields.status_word_1.to_be_bytes());
    out[48..50].copy_from_slice(&fields.status_word_2.to_be_bytes());
    out[50..52].copy_from_slice(&fields.software_checksum.to_be_bytes());
    out[52] = fields.commands_received;
    out[53] = fields.command_errors;
    out[54] = fields.transmitter_threshold;
    out[55] = fields.tracking_status;
    for (j, bin) in arrays.bins.iter().enumerate() {
        out[56 + (j ^ 1)] = *bin;
    }
    out[104..106].copy_from_slice(&fields.hstart.to_be_bytes());
}

// ---- the reorder buffer (document 01's rack)

/// The packet that opened the buffer, at position 0.
#[repr(C)]
#[derive(Clone, Copy, Debug, Default, PartialEq, Eq)]
pub struct Anchor {
    pub count: u32,
    pub time: u32,
}

/// "A session marks what it holds by p mod 32; a mark means the one such p from next to next + 31."
#[repr(C)]
#[derive(Clone, Copy, Debug, Default, PartialEq, Eq)]
pub struct Window {
    pub next: u32,
    pub marks: u32,
}

#[repr(C)]
#[derive(Clone, Copy, Debug, Default, PartialEq, Eq)]
pub struct Session {
    pub anchor: Anchor,
    pub sum_word: u32,
    /// The reordering threshold, document 01's patience H.
    pub threshold: u32,
    pub window: Window,
}

#[derive(Clone, Copy, Debug, PartialEq, Eq)]
pub enum Answer {
    Waiting,
    Packet(u32),
    Missing(u32),
}

/// "The position of count c and time t is the integer p for which p - (c - c0) is a multiple of 16,384 and 14p differs from t - t0 by at
/// most 3,600 either way. There is at most one."
pub fn position(anchor: Anchor, count: u16, time: u32) -> Option<i64> {
    let steps = i64::from(count) - i64::from(anchor.count);
    let clock = i64::from(time) - i64::from(anchor.time);
    // The least p with clock - 14p at most 3,600, then the least from there on with the count.
    let least = (clock - 3_600 + 13).div_euclid(14);
    let position = least + (steps - least).rem_euclid(i64::from(COUNTS));
    (14 * position - clock <= 3_600).then_some(position)
}

impl Window {
    /// The marks turned so that bit i says whether next + i is held.
    fn ahead(&self) -> u32 {
        self.marks.rotate_right(self.next % 32)
    }

    fn advance(&mut self) -> u32 {
        let position = self.next;
        self.marks &= !mark(position);
        self.next += 1;
        position
    }

    /// "If next is held, gives its position and bytes, frees it, and next grows by one. Otherwise, if some held position is at least
    /// next + H, answers Missing next and next grows by one. Otherwise Waiting, with nothing changed." Here without the bytes.
    fn serve(&mut self, threshold: u32) -> Answer {
        let ahead = self.ahead();
        if ahead & 1 == 1 {
            Answer::Packet(self.advance())
        } else if ahead >> threshold != 0 {
            Answer::Missing(self.advance())
        } else {
            Answer::Waiting
        }
    }
}

impl Session {
    /// "Session broken: c0 over 16,383, H or place out of range, next over 1,000,000, or a held position over 999,999."
    fn is_broken(&self) -> bool {
        let Window { next, .. } = self.window;
        self.anchor.count >= u32::from(COUNTS)
            || !is_threshold(self.threshold)
            || !SUM_WORDS.contains(&(self.sum_word as usize))
            || next > END
            || self
                .window
                .ahead()
                .checked_ilog2()
                .is_some_and(|furthest| next + furthest >= END)
    }
}

fn is_threshold(threshold: u32) -> bool {
    (1..=31).contains(&threshold)
}

fn mark(position: u32) -> u32 {
    1 << (position % 32)
}

/// "Position p uses the 1,080 from 1,080 × (p mod 32)."
fn slot(position: u32) -> std::ops::Range<usize> {
    let at = PACKET * (position % 32) as usize;
    at..at + PACKET
}

/// "Opening takes a patience H (1 to 31), the sum's place and a packet with count c0 and time t0, held at position 0. Next starts at 0."
/// "Open: 20, 27, 1 to 10."
pub fn open(
    session: &mut Session,
    store: &mut [u8],
    packet: &[u8],
    threshold: u32,
    sum_word: u32,
) -> Result<Answer, Refusal> {
    if !is_threshold(threshold) {
        return Err(20);
    }
    let store: &mut [u8; STORE] = store.try_into().map_err(|_| 27)?;
    let packet = accept(packet, sum_word as usize)?;
    store[slot(0)].copy_from_slice(packet);
    *session = Session {
        anchor: Anchor {
            count: u32::from(count_of(packet)),
            time: time_of(packet),
        },
        sum_word,
        threshold,
        window: Window {
            next: 0,
            marks: mark(0),
        },
    };
    Ok(Answer::Packet(0))
}

/// "Holds the packet at p where next ≤ p ≤ next + 31 and p is free, and answers p." "Offer: 30, 27, 1 to 10, 21 to 25."
pub fn offer(session: &mut Session, store: &mut [u8], packet: &[u8]) -> Result<Answer, Refusal> {
    if session.is_broken() {
        return Err(30);
    }
    let store: &mut [u8; STORE] = store.try_into().map_err(|_| 27)?;
    let packet = accept(packet, session.sum_word as usize)?;
    let position = position(session.anchor, count_of(packet), time_of(packet)).ok_or(21)?;
    let position = free_position(&session.window, position)?;
    store[slot(position)].copy_from_slice(packet);
    session.window.marks |= mark(position);
    Ok(Answer::Packet(position))
}

/// "21, 22: no position fits; position over 999,999. 23, 24, 25: position below next; already held; over next + 31."
fn free_position(window: &Window, position: i64) -> Result<u32, Refusal> {
    if position >= i64::from(END) {
        return Err(22);
    }
    let ahead = position - i64::from(window.next);
    if ahead < 0 {
        return Err(23);
    }
    if ahead > 31 {
        // Only positions up to next + 31 are ever held, so this one cannot be 24.
        return Err(25);
    }
    if window.ahead() >> ahead & 1 == 1 {
        return Err(24);
    }
    Ok(window.next + ahead as u32)
}

/// "A serve that gives a packet writes the first 1,080 bytes of its output, and otherwise writes nothing." "Serve: 30, 27, 29."
pub fn serve(session: &mut Session, out: &mut [u8], store: &[u8]) -> Result<Answer, Refusal> {
    if session.is_broken() {
        return Err(30);
    }
    let store: &[u8; STORE] = store.try_into().map_err(|_| 27)?;
    let out = out.first_chunk_mut::<PACKET>().ok_or(29)?;
    let answer = session.window.serve(session.threshold);
    if let Answer::Packet(position) = answer {
        out.copy_from_slice(&store[slot(position)]);
    }
    Ok(answer)
}

/// "Serves until Waiting or the budget (0 to 32) is spent. The count it reports equals next after less next before. The i-th answer from 0
/// is described and, where it is a packet, its bytes stand at 1,080 i of the output; other bytes there stay. A closing Waiting is neither
/// counted nor described, and descriptions past the count are all zeros." "Drain: 30, 27, 29, 31."
///
/// A description is a kind (1 packet, 2 missing) and a position.
pub fn drain(
    session: &mut Session,
    out: &mut [u8],
    store: &[u8],
    budget: u32,
    descriptions: &mut [u32; 64],
) -> Result<u32, Refusal> {
    if session.is_broken() {
        return Err(30);
    }
    let store: &[u8; STORE] = store.try_into().map_err(|_| 27)?;
    let out: &mut [u8; STORE] = out.try_into().map_err(|_| 29)?;
    if budget > 32 {
        return Err(31);
    }
    descriptions.fill(0);
    let before = session.window.next;
    for i in 0..budget {
        let (kind, position) = match session.window.serve(session.threshold) {
            Answer::Waiting => break,
            Answer::Packet(position) => {
                out[slot(i)].copy_from_slice(&store[slot(position)]);
                (1, position)
            }
            Answer::Missing(position) => (2, position),
        };
        descriptions[2 * i as usize] = kind;
        descriptions[2 * i as usize + 1] = position;
    }
    Ok(session.window.next - before)
}

/// "Pass, by hand: where next isn't held, answers Missing next and next grows by one." "Pass: 30, 28, 26."
pub fn pass(session: &mut Session) -> Result<Answer, Refusal> {
    if session.is_broken() {
        return Err(30);
    }
    if session.window.next == END {
        return Err(28);
    }
    if session.window.ahead() & 1 == 1 {
        return Err(26);
    }
    Ok(Answer::Missing(session.window.advance()))
}

// ---- the check program

/// The answer to one piece of the input, 0 if accepted. The packet is what stands after the transport header, so a short piece has a
/// packet that is not 1,080 bytes.
pub fn check_piece(piece: &[u8]) -> Refusal {
    let packet = piece.get(AEDR_HEADER..).unwrap_or(&[]);
    check_packet(packet, PUBLISHED_SUM_WORD).err().unwrap_or(0)
}

/// "Cuts its input into 1,230-byte pieces, the last perhaps short (1), and prints each piece's number and its answer by the published sum
/// place (0 if accepted), then a total."
pub fn program_text(input: &[u8]) -> String {
    let mut text = String::new();
    for (number, piece) in (1..).zip(input.chunks(AEDR_RECORD)) {
        let number: u64 = number;
        writeln!(text, "{number} {}", check_piece(piece)).expect("a string takes any text");
    }
    writeln!(text, "records {}", input.len().div_ceil(AEDR_RECORD))
        .expect("a string takes any text");
    text
}

// ---- numbers, "most significant byte first"

fn u16_at<const N: usize>(bytes: &[u8; N], at: usize) -> u16 {
    u16::from_be_bytes([bytes[at], bytes[at + 1]])
}

fn u32_at<const N: usize>(bytes: &[u8; N], at: usize) -> u32 {
    u32::from_be_bytes([bytes[at], bytes[at + 1], bytes[at + 2], bytes[at + 3]])
}

/// The worked numbers of document 01, "Numbers to check by", and the short forms above against the sentences they stand for.
#[cfg(test)]
mod tests {
    use super::*;

    const ARRAYS: Arrays = Arrays {
        temperatures: [0; 16],
        readings: [0; 14],
        bins: [0; 48],
    };

    fn packet(count: u16, time: u32, sum_word: usize) -> [u8; PACKET] {
        let mut packet = [0; PACKET];
        let fields = Fields {
            count,
            coarse_time: time,
            ..Fields::default()
        };
        write_packet(&fields, &ARRAYS, &[0; CARRIED], sum_word, &mut packet).expect("valid fields");
        packet
    }

    /// A session opened with count 16,380 at time 1,000,000; position 0 is held.
    fn opened(threshold: u32, store: &mut [u8]) -> Session {
        let mut session = Session::default();
        let first = packet(16_380, 1_000_000, 53);
        assert_eq!(
            open(&mut session, store, &first, threshold, 53),
            Ok(Answer::Packet(0))
        );
        session
    }

    #[test]
    fn sums() {
        let zero = packet(0, 0, 53);
        assert_eq!(packet_sum(&zero, 53), 50_260);
        assert_eq!(u16_at(&zero, 106), 50_260);
        let mut last = packet(16_383, 0, 53);
        assert_eq!(u16_at(&last, 106), 1_107);
        assert_eq!(check_packet(&last, 53), Ok(()));
        last[107] += 1;
        assert_eq!(check_packet(&last, 53), Err(10));
    }

    #[test]
    fn sums_of_any_bytes() {
        assert_eq!(packet_sum(&[], 0), 0);
        assert_eq!(packet_sum(&[1, 2, 3], 9), 0x0402);
        assert_eq!(packet_sum(&[1, 2, 3], 1), 0x0102);
        assert_eq!(packet_sum(&[1, 2, 3], 0), 0x0300);
        assert_eq!(packet_sum(&[1, 2, 3, 4], usize::MAX), 0x0406);
        assert_eq!(packet_sum(&[0xFF, 0xFF, 0, 2], 1 << 63), 1);
    }

    #[test]
    fn sums_of_words() {
        assert_eq!(word_sum(&[]), 0);
        assert_eq!(word_sum(&[1]), 0x0100);
        assert_eq!(word_sum(&[1, 2, 3]), 0x0402);
        assert_eq!(word_sum(&[0, 0xFF, 0, 1]), 0x0100);
        assert_eq!(word_sum(&[0xFF, 0xFF, 0, 2]), 1);
        assert_eq!(word_sum(&[0x80, 1, 0x80]), 1);
        let zero = packet(0, 0, 53);
        assert_eq!(word_sum(&zero), 50_260_u16.wrapping_mul(2));
    }

    #[test]
    fn bins() {
        let mut packet = packet(0, 0, 53);
        packet[57] = 1;
        packet[102] = 2;
        let bins = arrays_of(&packet).bins;
        assert_eq!((bins[0], bins[47]), (1, 2));
    }

    #[test]
    fn bins_of_hstart() {
        assert_eq!([7, 3, 2, 1].map(first_bin), [4, 0, 0, 65_534]);
        let starts = bin_starts(1);
        assert_eq!((starts[0], starts[47]), (65_534 * 1_536, 65_581 * 1_536));
    }

    #[test]
    fn reads_back() {
        let fields = Fields {
            error_status: 5,
            count: 77,
            hstart: 0x1234,
            status_word_2: 0xABCD,
            ..Fields::default()
        };
        let arrays = Arrays {
            bins: std::array::from_fn(|j| j as u8),
            ..ARRAYS
        };
        let mut packet = [0; PACKET];
        write_packet(&fields, &arrays, &[9; CARRIED], 70, &mut packet).expect("valid fields");
        assert_eq!(read_packet(&packet, 70), Ok(Packet { fields, arrays }));
    }

    #[test]
    fn positions() {
        let anchor = Anchor {
            count: 16_380,
            time: 1_000_000,
        };
        assert_eq!(position(anchor, 5, 1_000_126), Some(9));
        assert_eq!(position(anchor, 5, 1_229_502), Some(16_393));
        assert_eq!(position(anchor, 5, 1_003_726), Some(9));
        assert_eq!(position(anchor, 5, 1_003_727), None);
        assert_eq!(position(anchor, 16_379, 999_986), Some(-1));
        let mut store = vec![0; STORE];
        let mut session = opened(3, &mut store);
        assert_eq!(
            offer(&mut session, &mut store, &packet(5, 1_003_727, 53)),
            Err(21)
        );
        assert_eq!(
            offer(&mut session, &mut store, &packet(16_379, 999_986, 53)),
            Err(23)
        );
    }

    /// The two conditions of document 01's sentence, tried on every p in reach of the clock.
    #[test]
    fn positions_by_trial() {
        let mut found = 0;
        for (count, time) in [(0, 0), (9, 3_600), (16_383, 1 << 31), (5, u32::MAX)] {
            for step in 0..3_000_u32 {
                let t = time.wrapping_add(step * 1_777_777);
                let clock = i64::from(t) - i64::from(time);
                let about = clock / 14 - 290 + i64::from(step % 580);
                let c = (i64::from(count) + about).rem_euclid(16_384);
                let fits = |p: &i64| {
                    (p - (c - i64::from(count))) % 16_384 == 0 && (14 * p - clock).abs() <= 3_600
                };
                let trial = (clock / 14 - 300..clock / 14 + 300).find(fits);
                assert_eq!(position(Anchor { count, time }, c as u16, t), trial);
                found += usize::from(trial.is_some());
            }
        }
        assert!((8_000..12_000).contains(&found));
    }

    #[test]
    fn threshold() {
        let (mut store, mut out) = (vec![0; STORE], vec![0; PACKET]);
        for (held, answer) in [(2, Answer::Waiting), (3, Answer::Missing(0))] {
            let mut session = opened(3, &mut store);
            session.window.marks = mark(held);
            assert_eq!(serve(&mut session, &mut out, &store), Ok(answer));
        }
    }

    #[test]
    fn window() {
        let mut store = vec![0; STORE];
        let mut session = opened(3, &mut store);
        let at = |p: u16| packet((16_380 + p) % COUNTS, 1_000_000 + 14 * u32::from(p), 53);
        assert_eq!(
            offer(&mut session, &mut store, &at(31)),
            Ok(Answer::Packet(31))
        );
        assert_eq!(offer(&mut session, &mut store, &at(31)), Err(24));
        assert_eq!(offer(&mut session, &mut store, &at(32)), Err(25));
        assert_eq!(store[31 * PACKET..], at(31));
    }

    #[test]
    fn drains() {
        let (mut store, mut out, mut described) = (vec![0; STORE], vec![7; STORE], [9; 64]);
        let mut session = opened(1, &mut store);
        let two = packet(16_382, 1_000_028, 53);
        assert_eq!(offer(&mut session, &mut store, &two), Ok(Answer::Packet(2)));
        assert_eq!(
            drain(&mut session, &mut out, &store, 33, &mut described),
            Err(31)
        );
        assert_eq!(
            drain(&mut session, &mut out, &store, 32, &mut described),
            Ok(3)
        );
        assert_eq!(described[..6], [1, 0, 2, 1, 1, 2]);
        assert_eq!(described[6..], [0; 58]);
        assert_eq!(
            (
                out[PACKET..2 * PACKET].iter().all(|byte| *byte == 7),
                &out[slot(2)]
            ),
            (true, &two[..])
        );
    }

    /// The turned marks against the sentence on marks.
    #[test]
    fn marks() {
        for next in [0, 1, 31, 32, 33, 999_970] {
            for marks in [0, 1, 0x8000_0000, 0xDEAD_BEEF, u32::MAX] {
                let window = Window { next, marks };
                for p in next..next + 32 {
                    assert_eq!(window.ahead() >> (p - next) & 1, marks >> (p % 32) & 1);
                }
            }
        }
    }

    #[test]
    fn program() {
        assert_eq!(program_text(&[0; 1_235]), "1 6\n2 1\nrecords 2\n");
        assert_eq!(program_text(&[]), "records 0\n");
    }
}
