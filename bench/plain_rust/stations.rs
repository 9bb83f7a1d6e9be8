//! An outstation that is polled, that reports changes, whose full lanes are read and that operates, as `bench/` calls it
//! from C.

use crate::controls::Switches;
use crate::outstation::{Actions, Block, Outstation, Times};

/// The octets of a fragment in one number.
fn number_of(fragment: &[u8]) -> u64 {
    fragment.iter().step_by(97).fold(fragment.len() as u64, |sum, octet| sum.wrapping_mul(31).wrapping_add(u64::from(*octet)))
}

/// An open outstation, which was announced, whose restart was cleared and class 1 enabled.
fn station_of(counts: [usize; 3], outputs: [u16; 2], is_unsolicited: bool) -> Outstation {
    let mut station = Outstation::of_class_1(counts, 200, outputs, is_unsolicited);
    open(&mut station);
    station
}

/// The outstation is opened, announces itself where it does, has its restart cleared and class 1 enabled.
fn open(station: &mut Outstation) {
    station.opened(0);
    station.receive(0, &[0xD0, 0x00]);
    station.receive(0, &[0xC0, 0x02, 0x50, 0x01, 0x00, 0x07, 0x07, 0x00]);
    station.receive(0, &[0xC0, 0x14, 0x3C, 0x02, 0x06]);
}

/// Sends a READ and each confirm that is asked for, looks at the timers, and makes a number of what comes.
fn poll(station: &mut Outstation, read: &[u8]) -> u64 {
    let mut sum = 0u64;
    let mut came = station.receive(0, read).send;
    while let Some(fragment) = came {
        sum = sum.wrapping_mul(31).wrapping_add(number_of(&fragment));
        if fragment[0] & 0x20 == 0 {
            break;
        }
        let actions = station.receive(0, &[0xC0 | fragment[0] & 15, 0]);
        sum = sum.wrapping_mul(31).wrapping_add(actions.discarded.len() as u64);
        came = actions.send;
    }
    station.tick(0);
    sum
}

fn change(station: &mut Outstation, turn: u64, event: u16) -> Actions {
    let value = (turn % 65_536) as i64 * 256 + i64::from(event) + 1;
    station.change(0, 2, 0, value, 1, Some(1_000 + turn % 65_536))
}

/// `count` changes of an analog, each of which is reported and confirmed, or none.
#[no_mangle]
pub extern "C" fn plain_change(count: u64, is_unsolicited: bool) -> u64 {
    let mut station = station_of([0, 0, 1], [0, 0], is_unsolicited);
    let mut sum = 0u64;
    for turn in 0..count {
        let actions = change(&mut station, turn, 0);
        sum = sum.wrapping_mul(31).wrapping_add(u64::from(actions.overwritten.is_some()));
        if let Some(fragment) = actions.report {
            sum = sum.wrapping_mul(31).wrapping_add(number_of(&fragment));
            let actions = station.receive(0, &[0xD0 | fragment[0] & 15, 0]);
            sum = sum.wrapping_mul(31).wrapping_add(actions.discarded.len() as u64);
        }
    }
    sum
}

/// `count` pairs of a SELECT and its OPERATE.
#[no_mangle]
pub extern "C" fn plain_operate(count: u64) -> u64 {
    let mut station = station_of([0, 0, 1], [6, 3], false);
    let mut sum = 0u64;
    for turn in 0..count {
        let seq = (2 * turn % 16) as u8;
        for [control, function] in [[0xC0 | seq, 3], [0xC1 | seq, 4]] {
            let answer = station.receive(0, &[control, function, 0x0C, 1, 0x28, 1, 0, 5, 0, 3, 1, 0, 0, 0, 0, 0, 0, 0, 0, 0]).send;
            sum = sum.wrapping_mul(31).wrapping_add(number_of(&answer.unwrap_or_default()));
        }
    }
    sum ^ station.panel().operated.len() as u64
}

/// `count` polls of classes 1, 2 and 3, before each of which an analog of class 1 changed `events` times.
#[no_mangle]
pub extern "C" fn plain_poll_events(count: u64, events: u16) -> u64 {
    let mut station = station_of([0, 0, 1], [0, 0], false);
    let mut sum = 0u64;
    for turn in 0..count {
        for event in 0..events {
            change(&mut station, turn, event);
        }
        let control = 0xC0 | (turn % 16) as u8;
        let read = [control, 0x01, 0x3C, 0x02, 0x06, 0x3C, 0x03, 0x06, 0x3C, 0x04, 0x06];
        sum = sum.wrapping_mul(31).wrapping_add(poll(&mut station, &read));
    }
    sum
}

/// `count` READs of class 0 over 400 binaries, 300 counters and 300 analogs.
#[no_mangle]
pub extern "C" fn plain_poll_values(count: u64) -> u64 {
    let mut station = station_of([400, 300, 300], [0, 0], false);
    let mut sum = 0u64;
    for turn in 0..count {
        let control = 0xC0 | (2 * turn % 16) as u8;
        sum = sum.wrapping_mul(31).wrapping_add(poll(&mut station, &[control, 0x01, 0x3C, 0x01, 0x06]));
    }
    sum
}

/// What stands in the lanes that are read.
const EVERY_KIND: u8 = 0;
const ANALOGS: u8 = 1;
const FAR_APART: u8 = 3;

/// So many rows stand in each lane.
const ROWS: u16 = 4_096;

/// An outstation with a point of each class and kind, whose lanes are full: those of all kinds, or those of analogs or of
/// binaries alone, whose times lie close together or too far apart for a group.
fn full_station(shape: u8) -> Outstation {
    let block = |kind| vec![Block::new(kind, 0, (1..=3).map(|class| (class, 0)))];
    let times = Times { confirm_ms: 5_000, select_ms: 5_000, retries: 0, is_unsolicited: false };
    let mut station = Outstation::new([0, 1, 2].map(block), [usize::from(ROWS); 9], Switches::new(0, 0), times);
    open(&mut station);
    let kinds = match shape {
        EVERY_KIND => 0..3,
        ANALOGS => 2..3,
        _ => 0..1,
    };
    let step = if shape == FAR_APART { 70_000 } else { 20 };
    for row in 0..ROWS {
        for kind in kinds.clone() {
            for index in 0..3 {
                let value = if kind == 0 { i64::from(row % 2) } else { i64::from(row) + 1 };
                station.change(0, kind, index, value, 1, Some(1_000 + u64::from(row) * step));
            }
        }
    }
    station
}

const READ: [u8; 11] = [0xC0, 0x01, 0x3C, 0x02, 0x06, 0x3C, 0x03, 0x06, 0x3C, 0x04, 0x06];

/// Full lanes of this shape, read to their end, fragment by fragment with its confirm, or only filled.
#[no_mangle]
pub extern "C" fn plain_read_lanes(shape: u8, is_read: bool) -> u64 {
    let mut station = full_station(shape);
    if is_read {
        poll(&mut station, &READ)
    } else {
        0
    }
}

/// In how many fragments full lanes of this shape are read.
#[no_mangle]
pub extern "C" fn plain_lane_fragments(shape: u8) -> u64 {
    let mut station = full_station(shape);
    let mut count = 0;
    let mut came = station.receive(0, &READ).send;
    while let Some(fragment) = came {
        count += 1;
        came = station.receive(0, &[0xC0 | fragment[0] & 15, 0]).send;
    }
    count
}
