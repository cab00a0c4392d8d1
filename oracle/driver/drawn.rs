//! Random scripts: calls as `random` draws them, the same damaged in one place, and bytes that are no script.

use shared::calls::{Call, Extras};
use shared::records::{encode, record, NO_MANAGER};

use crate::judge::Judge;
use crate::random::{self, Random, Style};

/// A script in pieces, each a record if it was not damaged.
pub fn script(random: &mut Random) -> Vec<Vec<u8>> {
    match random.below(16) {
        0 => vec![bytes(random)],
        1 => headed(random),
        2..=6 => {
            let mut records = records(random);
            damage(random, &mut records);
            records
        }
        _ => records(random),
    }
}

/// The records of calls that mostly name live things.
fn records(random: &mut Random) -> Vec<Vec<u8>> {
    // Now and then more than a pipe holds at once.
    let most = if random.one_in(100) { 4000 } else { random.pick(&[3, 12, 60, 250, 700]) };
    let length = random.below(most + 1) as usize;
    let filling = most == 700 && random.one_in(2);
    let style = if filling { Style::filling(random) } else { Style::new(random) };
    let mut judge = Judge::new();
    let mut tables = judge.tables();
    let mut records = Vec::new();
    while records.len() < length {
        let call = match random::call(random, &style, &tables) {
            // A Management capability would take a slot that a region can have.
            Call::Open { .. } if filling => Call::Open { manager: None, cores: any_cores(random, 2) },
            Call::Open { manager: None, .. } => Call::Open { manager: None, cores: any_cores(random, 2) },
            // A script can't set a core map back, and a domain that has one can't be closed.
            Call::Open { manager, cores } => Call::Open { manager, cores: if cores == 0 { any_cores(random, 8) } else { cores } },
            // A script's send has neither flags nor a hash.
            Call::Send { domain, local, target, .. } => Call::Send { domain, local, target, extras: Extras::NONE },
            call => call,
        };
        // A script has seven of the calls only.
        let Some(record) = varied(random, &call) else { continue };
        if judge.perform(&call).is_ok() {
            tables = judge.tables();
        }
        records.push(record);
    }
    records
}

/// Any core map once in so many times, else 0.
fn any_cores(random: &mut Random, times: u64) -> u64 {
    if random.one_in(times) { random.next() } else { 0 }
}

/// A call's record. Where a domain is opened without a manager, any generation.
fn varied(random: &mut Random, call: &Call) -> Option<Vec<u8>> {
    match *call {
        Call::Open { manager: None, cores } => Some(record(1, &[NO_MANAGER, random.next(), cores])),
        _ => encode(call),
    }
}

/// Changes something in one place.
fn damage(random: &mut Random, records: &mut Vec<Vec<u8>>) {
    if records.is_empty() {
        records.push(record(6, &[0, 0, 0]));
    }
    let at = random.below(records.len() as u64) as usize;
    let place = random.below(records[at].len() as u64) as usize;
    match random.below(9) {
        0 => records[at][place] ^= 1 << random.below(8),
        1 => records[at][place] = random.next() as u8,
        2 => {
            records[at].truncate(place);
            records.truncate(at + 1);
        }
        3 => {
            let length = length(&records[at]);
            let other = random.pick(&[length - 1, length + 1, length - 8, length + 8, 0, 1, 2, 65535]);
            set_length(&mut records[at], other);
        }
        4 => {
            let kind: u16 = random.pick(&[0, 8, 65535, 256, 257, 263]);
            records[at][2..4].copy_from_slice(&kind.to_le_bytes());
        }
        5 => wide_rights(random, records),
        6 => glue(random, records, at),
        7 => records.push((0..1 + random.below(70)).map(|_| random.next() as u8).collect()),
        _ => records.push(vec![0; 1 + random.below(70) as usize]),
    }
}

fn length(record: &[u8]) -> u16 {
    u16::from_le_bytes([record[0], record[1]])
}

fn set_length(record: &mut [u8], length: u16) {
    record[..2].copy_from_slice(&length.to_le_bytes());
}

/// Rights above 255 in some root, alias or carve, whose last field they are.
fn wide_rights(random: &mut Random, records: &mut Vec<Vec<u8>>) {
    let having: Vec<usize> = (0..records.len()).filter(|&k| matches!(records[k][2..4], [2..=4, 0])).collect();
    let rights = random.pick(&[256, 257, 259, 511, 512, 65536, 1 << 32, 1 << 63, u64::MAX]);
    if having.is_empty() {
        records.push(record(2, &[0, 0, 0, 16, rights]));
        return;
    }
    let chosen = &mut records[random.pick(&having)];
    let field = chosen.len() - 8;
    chosen[field..].copy_from_slice(&rights.to_le_bytes());
}

/// Makes one record of two: the second's length is left out or stays.
fn glue(random: &mut Random, records: &mut Vec<Vec<u8>>, at: usize) {
    let mut second = if at + 1 < records.len() { records.remove(at + 1) } else { records[at].clone() };
    if random.one_in(2) {
        second.drain(..2);
    }
    let both = length(&records[at]) + second.len() as u16;
    records[at].extend(second);
    set_length(&mut records[at], both);
}

fn bytes(random: &mut Random) -> Vec<u8> {
    let most = random.pick(&[2, 8, 64, 400]);
    let small = random.one_in(2);
    (0..random.below(most + 1)).map(|_| random.next() as u8 & if small { 3 } else { 255 }).collect()
}

/// Records with the right lengths and any fields, mostly small.
fn headed(random: &mut Random) -> Vec<Vec<u8>> {
    let field = |random: &mut Random| match random.below(8) {
        0 => random.next(),
        1 => NO_MANAGER,
        _ => random.below(6),
    };
    let one = |random: &mut Random| {
        let kind = random.pick(&[1, 1, 2, 2, 3, 4, 5, 6, 7]);
        let fields = [3, 5, 6, 6, 4, 3, 3][kind as usize - 1];
        let fields: Vec<u64> = (0..fields).map(|_| field(random)).collect();
        record(kind, &fields)
    };
    (0..random.below(60)).map(|_| one(random)).collect()
}
