//! Makes calls of the meter for tests.

// Each program that includes this module uses a part of it.
#![allow(dead_code)]

pub mod day;

use crate::calls::{analysis, call, Call};
use crate::plain;
use crate::plain::meter::{GREATEST_TOTAL, GREATEST_VOLUME};
use crate::records::{self, hex, Random};
use day::random_day;
use loonstool::Totals;

/// A call on one of the given streams; one of eight meters a day file.
pub fn random_call(random: &mut Random, streams: &[usize]) -> Call {
    match random.below(8) {
        0 => random_day(random, streams),
        _ => random_single_call(random, streams),
    }
}

/// A reading, an analysis or, most often, a metering call on one of the given streams.
pub fn random_single_call(random: &mut Random, streams: &[usize]) -> Call {
    let stream = *random.one_of(streams);
    match random.below(5) {
        0 => call(b'r', stream, 0),
        1 => analysis(stream, "", &records::case(random).0),
        _ => call(b'm', stream, random_volume(random)),
    }
}

/// A volume in dm³, often on its limit or past it.
fn random_volume(random: &mut Random) -> u64 {
    match random.below(8) {
        0 => *random.one_of(&[0, 1, 9_999_999, 10_000_000]),
        1 => *random.one_of(&[10_000_001, 1 << 32, u64::MAX]),
        2 | 3 => random.below(100),
        _ => random.below(10_000_001),
    }
}

/// Calls on a fresh stream after which one call can fill it: a gas, and volumes of it.
pub fn filling(random: &mut Random, stream: usize) -> Vec<Call> {
    let mut calls = vec![analysis(stream, "", &accepted_record(random))];
    let mut room = GREATEST_TOTAL;
    while room > GREATEST_VOLUME {
        let volume = GREATEST_VOLUME - random.below(100_000);
        calls.push(call(b'm', stream, volume));
        room -= volume;
    }
    calls
}

/// A record that is accepted.
fn accepted_record(random: &mut Random) -> Vec<u8> {
    loop {
        let record = records::case(random).0;
        if plain::read(&record).is_ok() {
            return record;
        }
    }
}

/// What a stream with these totals takes until its volume total is the greatest, dm³.
pub fn room<E>(totals: Result<Totals, E>) -> Option<u64> {
    let totals = totals.ok();
    totals.map(|totals| GREATEST_TOTAL - totals.volume)
}

/// Now and then, on a stream that has room for no more than one call can add, has a call fill it or pass the greatest total by one.
pub fn aim(random: &mut Random, call: &mut Call, room: Option<u64>) {
    if let Some(room) = room.filter(|room| *room <= GREATEST_VOLUME) {
        if random.below(4) == 0 {
            let place = match call.volumes.len() {
                0 => &mut call.volume,
                length => &mut call.volumes[random.index(length)],
            };
            *place = room + random.below(2);
        }
    }
}

/// A call in words.
pub fn shown(call: &Call) -> String {
    let (k, volume) = (call.stream, call.volume);
    match call.kind {
        b'a' => format!("analysis {k}\nrecord: {}", hex(&call.record)),
        b'm' => format!("metering {k} {volume}"),
        b'd' => format!("day file {k} {:?}\nfile: {}", call.volumes, hex(&call.file)),
        _ => format!("reading {k}"),
    }
}
