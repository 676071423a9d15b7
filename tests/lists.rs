//! Demand 3 on the library alone: two reorder buffers opened alike but for their reordering thresholds are offered the same packets, and
//! each is served until it waits after every offer.

use crate::both::{Harness, DRAIN, FUNCTIONS, OFFER, OPEN, PASS, SERVE};
use crate::generate;
use crate::mola::{self, Answer, Session, Window};
use crate::random::Random;
use crate::reference::{position, read_packet, Anchor, END, PACKET, STORE};
use std::collections::{BTreeMap, BTreeSet};

/// What one consumer's buffer was given and what came out of it.
struct Consumer {
    session: Session,
    store: Vec<u8>,
    out: Vec<u8>,
    served: BTreeMap<u32, Vec<u8>>,
    missing: BTreeSet<u32>,
}

pub fn list(harness: &mut Harness, random: &Random) {
    let mut thresholds = [random.within(1, 31) as u32, random.within(1, 31) as u32];
    thresholds.sort();
    let sum_word = generate::sum_word(random);
    let count = generate::count(random);
    let anchor = Anchor {
        count: u32::from(count),
        time: random.u32() >> random.below(8),
    };
    let first = generate::packet(random, count, anchor.time, sum_word);
    let mut consumers = thresholds
        .map(|threshold| Consumer::open(harness, random, &first, threshold, sum_word as u32));
    let spread = random.pick(&[2, 5, 12, 31]);
    for _ in 0..random.within(20, 160) {
        let reach = consumers
            .iter()
            .map(|consumer| consumer.session.window.start)
            .min()
            .unwrap_or(0);
        let Some(packet) = offered(random, anchor, reach, spread, sum_word) else {
            continue;
        };
        for consumer in &mut consumers {
            consumer.offer(harness, &packet);
            consumer.serve_until_waiting(harness, random);
        }
    }
    let [less, more] = &consumers;
    harness.lists += 1;
    check(harness, less, more);
}

/// A packet that neither buffer calls too far ahead: both windows reach `reach` + 31.
fn offered(
    random: &Random,
    anchor: Anchor,
    reach: u32,
    spread: i64,
    sum_word: usize,
) -> Option<Vec<u8>> {
    let at = match random.below(12) {
        0 => i64::from(reach) + random.pick(&[0, 31]),
        1 => i64::from(reach) - random.within(1, 40),
        2 => i64::from(reach) + random.within(0, 31) + 16_384 * random.within(-2, 70),
        _ => i64::from(reach) + random.within(0, spread),
    };
    let late = match random.below(8) {
        0 => random.within(-3_700, 3_700),
        _ => random.within(-30, 30),
    };
    let time = (i64::from(anchor.time) + 14 * at + late) as u32;
    let count = (i64::from(anchor.count) + at).rem_euclid(16_384) as u16;
    let mut packet = generate::packet(random, count, time, sum_word);
    if random.once_in(10) {
        generate::damage(random, &mut packet, sum_word);
    }
    let read = read_packet(&packet, sum_word).ok();
    let at = read.and_then(|read| position(anchor, read.fields.count, read.fields.coarse_time));
    let too_far = at.is_some_and(|p| p > i64::from(reach) + 31 && p < i64::from(END));
    (!too_far).then_some(packet)
}

impl Consumer {
    fn open(
        harness: &mut Harness,
        random: &Random,
        packet: &[u8],
        threshold: u32,
        sum_word: u32,
    ) -> Consumer {
        let mut consumer = Consumer {
            session: generate::arbitrary_session(random),
            store: random.bytes(STORE),
            out: random.bytes(STORE),
            served: BTreeMap::new(),
            missing: BTreeSet::new(),
        };
        let answer = mola::open(
            &mut consumer.session,
            &mut consumer.store,
            packet,
            threshold,
            sum_word,
        );
        harness.count(OPEN, answer.refusal);
        if answer.refusal != 0 {
            harness.differ(
                format_args!("open"),
                format_args!("a valid opening got {}", answer.refusal),
            );
        }
        if random.once_in(2) {
            consumer.serve_until_waiting(harness, random);
        }
        consumer
    }

    fn offer(&mut self, harness: &mut Harness, packet: &[u8]) {
        let answer = mola::offer(&mut self.session, &mut self.store, packet);
        harness.count(OFFER, answer.refusal);
        if answer.refusal == 25 {
            harness.differ(
                format_args!("offer"),
                format_args!("25 within next + 31: {:?}", self.session),
            );
        }
    }

    /// Serves and drains of any budget, with refused calls between.
    fn serve_until_waiting(&mut self, harness: &mut Harness, random: &Random) {
        // At most 32 answers come before a buffer waits, so a thousand calls are plenty.
        for _ in 0..1_000 {
            let waits = match random.below(8) {
                0 => self.refused(harness, random),
                1..=3 => self.serve(harness),
                _ => self.drain(harness, random.below(33) as u32),
            };
            if waits {
                return;
            }
        }
        harness.differ(
            format_args!("serve"),
            format_args!("never waits: {:?}", self.session),
        );
    }

    /// A call that must be refused; a pass only where next is held.
    fn refused(&mut self, harness: &mut Harness, random: &Random) -> bool {
        let Consumer {
            session,
            store,
            out,
            ..
        } = self;
        let next = session.window.start;
        let (function, refusal) = match random.below(4) {
            0 if is_held(session, next) => (PASS, mola::pass(session).refusal),
            1 => (
                DRAIN,
                mola::drain(session, out, store, 33, &mut [0; 64]).refusal,
            ),
            2 => (
                DRAIN,
                mola::drain(session, &mut out[..PACKET], store, 32, &mut [0; 64]).refusal,
            ),
            _ => (
                SERVE,
                mola::serve(session, &mut out[..PACKET - 1], store).refusal,
            ),
        };
        harness.count(function, refusal);
        if refusal == 0 {
            harness.differ(
                format_args!("{}", FUNCTIONS[function].0),
                format_args!("is not refused"),
            );
        }
        false
    }

    fn serve(&mut self, harness: &mut Harness) -> bool {
        let answer = mola::serve(&mut self.session, &mut self.out, &self.store);
        harness.count(SERVE, answer.refusal);
        self.take(answer, 0);
        answer.kind == mola::NOTHING
    }

    fn drain(&mut self, harness: &mut Harness, budget: u32) -> bool {
        let mut descriptions = [0; 64];
        let drained = mola::drain(
            &mut self.session,
            &mut self.out,
            &self.store,
            budget,
            &mut descriptions,
        );
        harness.count(DRAIN, drained.refusal);
        for i in 0..drained.count as usize {
            let (kind, position) = (descriptions[2 * i], descriptions[2 * i + 1]);
            self.take(
                Answer {
                    refusal: 0,
                    kind,
                    position,
                },
                i,
            );
        }
        drained.count < budget
    }

    /// Notes one answer, whose bytes are the output's packet `i`.
    fn take(&mut self, answer: Answer, i: usize) {
        match answer.kind {
            mola::PACKET => {
                let bytes = self.out[PACKET * i..PACKET * (i + 1)].to_vec();
                self.served.insert(answer.position, bytes);
            }
            mola::MISSING => {
                self.missing.insert(answer.position);
            }
            _ => {}
        }
    }

    /// The bytes held at a position.
    fn held(&self, position: u32) -> Option<&[u8]> {
        let at = PACKET * (position % 32) as usize;
        is_held(&self.session, position).then(|| &self.store[at..at + PACKET])
    }
}

/// Whether the position is in the window and marked.
fn is_held(session: &Session, position: u32) -> bool {
    let Window { start: next, marks } = session.window;
    (next..=next + 31).contains(&position) && marks >> (position % 32) & 1 == 1
}

/// "Each packet that the less patient rack served is served by the more patient one, or still held there, at the same place with the same
/// bytes. And each place that the more patient one called missing the other has called missing too."
fn check(harness: &Harness, less: &Consumer, more: &Consumer) {
    let lists = format_args!(
        "lists with thresholds {} and {}",
        less.session.threshold, more.session.threshold
    );
    for (position, bytes) in &less.served {
        let other = more
            .served
            .get(position)
            .map(Vec::as_slice)
            .or(more.held(*position));
        if other != Some(bytes.as_slice()) {
            harness.differ(
                lists,
                format_args!("position {position}: the second neither served nor holds what the first served"),
            );
        }
    }
    if let Some(position) = more.missing.difference(&less.missing).next() {
        harness.differ(
            lists,
            format_args!("position {position}: the second alone called it missing"),
        );
    }
}
