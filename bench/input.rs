//! Makes the input of the measurements, the same each time: `input records COUNT`, `input arrivals COUNT`, `input pedr COUNT` or
//! `input bytes COUNT`, to standard output.

#[allow(dead_code)]
#[path = "../tests/random.rs"]
mod random;
#[path = "../tests/reference.rs"]
mod reference;

use random::Random;
use reference::{
    record, Arrays, Fields, AEDR_HEADER, CARRIED, COUNTS, PACKET, PUBLISHED_SUM_WORD, RECORD,
};
use std::io::{self, BufWriter, Write};

fn main() -> io::Result<()> {
    let arguments: Vec<String> = std::env::args().collect();
    let [_, kind, count] = &arguments[..] else {
        panic!("usage: input records|arrivals|pedr|bytes COUNT");
    };
    let count = count.parse().expect("a count");
    let mut output = BufWriter::with_capacity(1 << 20, io::stdout().lock());
    match kind.as_str() {
        "records" => records(&mut output, count)?,
        "arrivals" => arrivals(&mut output, count)?,
        "pedr" => pedr(&mut output, count)?,
        "bytes" => output.write_all(&Random::new(1).bytes(count as usize))?,
        _ => panic!("no such input: {kind}"),
    }
    output.flush()
}

/// A valid packet of random fields and bytes.
fn packet(random: &Random, count: u16, time: u32) -> [u8; PACKET] {
    let fields = Fields {
        error_status: random.u8() % 8,
        count,
        coarse_time: time,
        fine_time: random.u8(),
        software_checksum: random.u16(),
        hstart: random.u16(),
        ..Fields::default()
    };
    let mut arrays = Arrays {
        temperatures: [0; 16],
        readings: [0; 14],
        bins: [0; 48],
    };
    random.fill(&mut arrays.temperatures);
    random.fill(&mut arrays.readings);
    random.fill(&mut arrays.bins);
    let mut carried = [0; CARRIED];
    random.fill(&mut carried);
    let mut packet = [0; PACKET];
    reference::write_packet(&fields, &arrays, &carried, PUBLISHED_SUM_WORD, &mut packet)
        .expect("valid fields");
    packet
}

/// Valid AEDR records.
fn records(output: &mut impl Write, count: u32) -> io::Result<()> {
    let random = Random::new(1);
    let mut header = [0; AEDR_HEADER];
    for number in 0..count {
        random.fill(&mut header);
        output.write_all(&header)?;
        output.write_all(&packet(&random, number as u16 % COUNTS, 14 * number))?;
    }
    Ok(())
}

/// Arrivals at a reorder buffer: each is its position in four bytes, the lowest first, and its packet. The first has position 0 and opens
/// the buffer. Of the others most come in order, 1 in 8 up to 3 places late, 1 in 40 up to 12 (so that some are stale), 1 in 50 not at
/// all; 1 in 25 comes twice, and 1 in 40 is damaged.
fn arrivals(output: &mut impl Write, count: u32) -> io::Result<()> {
    let random = Random::new(2);
    let mut order = vec![(0, 0)];
    for position in 1..i64::from(count) + 100 {
        if random.once_in(50) {
            continue;
        }
        let late = match random.below(40) {
            0 => random.within(4, 12),
            1..=5 => random.within(1, 3),
            _ => 0,
        };
        order.push((position + late, position));
        if random.once_in(25) {
            order.push((position + late + random.within(0, 6), position));
        }
    }
    order.sort();
    for (number, (_, position)) in order.into_iter().take(count as usize).enumerate() {
        let time = 1_000_000 + 14 * position + random.within(-20, 20);
        let mut packet = packet(
            &random,
            ((16_380 + position) % i64::from(COUNTS)) as u16,
            time as u32,
        );
        if number != 0 && random.once_in(40) {
            packet[random.pick(&[1, 4, 300, 700, 1_000])] ^= 1;
        }
        output.write_all(&(position as u32).to_le_bytes())?;
        output.write_all(&packet)?;
    }
    Ok(())
}

/// Valid PEDR records of random bytes.
fn pedr(output: &mut impl Write, count: u32) -> io::Result<()> {
    let random = Random::new(3);
    let mut bytes = [0; RECORD];
    for _ in 0..count {
        random.fill(&mut bytes);
        let micros = random.within(-999_999, 999_999) as i32;
        let latitude = random.within(-90_000_000, 90_000_000) as i32;
        let good = u32::from_be_bytes([0, bytes[28] & 0x0F, bytes[29], bytes[30]]);
        bytes[4..8].copy_from_slice(&micros.to_be_bytes());
        bytes[12..16].copy_from_slice(&latitude.to_be_bytes());
        bytes[31] = good.count_ones() as u8;
        bytes[490..492].copy_from_slice(&[0, random.within(1, 7) as u8]);
        record::check(&bytes).expect("a valid record");
        output.write_all(&bytes)?;
    }
    Ok(())
}
