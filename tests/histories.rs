//! Histories of calls on one reorder buffer, each call compared.

use crate::both::{Harness, Lengths, Pair, LONGEST};
use crate::generate;
use crate::random::Random;
use crate::reference::{END, PACKET, STORE};

const USUAL: Lengths = Lengths {
    store: STORE,
    room: STORE,
};

struct History {
    pair: Pair,
    /// A call has each defect once in so many times; 0 for never.
    rate: usize,
    /// Of 100 calls, how many serve, drain or pass.
    eager: usize,
    /// The last packet offered, to offer it again.
    last: Vec<u8>,
}

pub fn history(harness: &mut Harness, random: &Random) {
    let mut history = History {
        pair: Pair::new(random),
        rate: random.pick(&[0, 0, 40, 10, 4]),
        eager: random.pick(&[5, 20, 40, 60]),
        last: Vec::new(),
    };
    history.begin(harness, random);
    for _ in 0..random.within(60, 240) {
        history.step(harness, random);
    }
}

impl History {
    fn defect(&self, random: &Random) -> bool {
        self.rate != 0 && random.once_in(self.rate)
    }

    /// Openings over any session, refused ones among them; or a session made by hand; or any session.
    fn begin(&mut self, harness: &mut Harness, random: &Random) {
        for _ in 0..random.within(1, 4) {
            self.pair.session = generate::arbitrary_session(random);
            self.open(harness, random);
        }
        match random.below(8) {
            0 => self.jump(random),
            1 => self.pair.session = generate::arbitrary_session(random),
            _ => {}
        }
    }

    /// A session made by hand that is not broken, often near the last position.
    fn jump(&mut self, random: &Random) {
        let near_end = END - random.below(40) as u32;
        let next = random.pick(&[near_end, near_end, random.below(END as usize) as u32]);
        self.pair.session = generate::session(random, next);
    }

    fn step(&mut self, harness: &mut Harness, random: &Random) {
        let kept = self.pair.session;
        if self.defect(random) {
            generate::spoil(random, &mut self.pair.session);
        }
        let spoiled = self.pair.session;
        let consumes = random.below(100) < self.eager;
        match random.below(20) {
            0 if random.once_in(2) => self.open(harness, random),
            1 if random.once_in(8) => self.jump(random),
            2..=8 if consumes => self.serve(harness, random),
            9..=15 if consumes => self.drain(harness, random),
            16..=17 if consumes => drop(self.pair.pass(harness, USUAL)),
            _ => self.offer(harness, random),
        }
        if self.pair.session == spoiled {
            self.pair.session = kept;
        }
    }

    fn open(&mut self, harness: &mut Harness, random: &Random) {
        let sum_word = generate::sum_word(random);
        let time = match random.below(4) {
            0 => random.pick(&[
                0,
                1,
                3_599,
                3_600,
                3_601,
                1_000_000,
                u32::MAX,
                u32::MAX - 3_600,
            ]),
            1 => random.u32(),
            _ => random.below(200_000_000) as u32,
        };
        let count = generate::count(random);
        let mut packet = generate::packet(random, count, time, sum_word);
        if self.defect(random) {
            generate::damage(random, &mut packet, sum_word);
        }
        let threshold = match self.defect(random) {
            true => random.pick(&[0, 32, 33, u32::MAX, random.u32()]),
            false => random.pick(&[1, 2, 3, 30, 31, random.within(1, 31) as u32]),
        };
        let sum_word = match self.defect(random) {
            true => generate::wrong_sum_word(random) as u32,
            false => sum_word as u32,
        };
        let lengths = Lengths {
            store: self.store_length(random),
            ..USUAL
        };
        self.pair
            .open(harness, lengths, &packet, threshold, sum_word);
    }

    fn store_length(&self, random: &Random) -> usize {
        if self.defect(random) {
            return random.pick(&[
                0,
                1,
                1_079,
                PACKET,
                STORE - 1,
                STORE + 1,
                LONGEST,
                random.below(LONGEST),
            ]);
        }
        STORE
    }

    fn offer(&mut self, harness: &mut Harness, random: &Random) {
        let again = random.once_in(12) && !self.last.is_empty();
        let packet = if again {
            self.last.clone()
        } else {
            self.packet(random)
        };
        let lengths = Lengths {
            store: self.store_length(random),
            ..USUAL
        };
        self.pair.offer(harness, lengths, &packet);
        self.last = packet;
    }

    /// A packet with the count of a position in or about the window, and a clock that fits it, barely fits it, or does not.
    fn packet(&self, random: &Random) -> Vec<u8> {
        let session = &self.pair.session;
        let position = self.position(random);
        let late = match random.below(12) {
            0 => random.pick(&[-3_600, 3_600, -3_599, 3_599]),
            1 => random.pick(&[-3_601, 3_601, -3_602, 3_602]),
            2 => random.within(-3_700, 3_700),
            3 if random.once_in(3) => random.within(-300_000, 300_000),
            _ => random.within(-60, 60),
        };
        // Both wrap where they leave their fields: such a clock seldom fits.
        let time = (i64::from(session.anchor.time) + 14 * position + late) as u32;
        let count = (i64::from(session.anchor.count) + position).rem_euclid(16_384) as u16;
        let sum_word = match session.sum_word as usize {
            sum_word @ 53..=539 => sum_word,
            _ => generate::sum_word(random),
        };
        let mut packet = generate::packet(random, count, time, sum_word);
        if self.defect(random) {
            generate::damage(random, &mut packet, sum_word);
        }
        packet
    }

    fn position(&self, random: &Random) -> i64 {
        let next = i64::from(self.pair.session.window.start);
        match random.below(24) {
            0 => next + random.pick(&[-1, 0, 31, 32]),
            1 => next - random.within(1, 600),
            2 => next + random.within(32, 600),
            // The window's counts in use again, earlier or later.
            3 => next + random.within(0, 31) + 16_384 * random.within(-3, 3),
            4 => random.pick(&[-1, 0, 999_999, 1_000_000, 1_000_001]),
            5 => random.pick(&[
                random.within(-40_000, 1_100_000),
                random.within(999_960, 1_000_040),
            ]),
            6..=12 => next + random.within(0, 6),
            _ => next + random.within(0, 31),
        }
    }

    fn serve(&mut self, harness: &mut Harness, random: &Random) {
        let room = match self.defect(random) {
            true => random.pick(&[0, 1, 1_079, random.below(PACKET)]),
            false => random.pick(&[
                PACKET,
                PACKET,
                PACKET + 1,
                STORE,
                random.within(1_080, 40_000) as usize,
            ]),
        };
        let lengths = Lengths {
            store: self.store_length(random),
            room,
        };
        self.pair.serve(harness, lengths);
    }

    fn drain(&mut self, harness: &mut Harness, random: &Random) {
        let budget = match self.defect(random) {
            true => random.pick(&[33, 34, 40, u32::MAX, 1 << 8, 1 << 16, random.u32()]),
            false => random.pick(&[0, 1, 31, 32, 32, random.below(33) as u32]),
        };
        let room = match self.defect(random) {
            true => random.pick(&[
                0,
                1_079,
                PACKET,
                STORE - 1,
                STORE + 1,
                LONGEST,
                random.below(LONGEST),
            ]),
            false => STORE,
        };
        let lengths = Lengths {
            store: self.store_length(random),
            room,
        };
        self.pair.drain(harness, lengths, budget);
    }
}
