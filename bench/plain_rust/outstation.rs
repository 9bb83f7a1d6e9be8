//! An outstation: READs of classes, events and present values, responses of several fragments, events after a
//! common time, confirms by sequence number, the repeated request, the WRITE that clears the restart, unsolicited
//! responses with the READs that wait for their confirms, and controls.

// Each program that has it uses a part of it.
#![allow(dead_code)]

use crate::controls::{Command, Outputs, Panel, Switches};
use crate::fragments::{headers, Fault, Header, Range, Row};
use std::collections::VecDeque;

const MOST: usize = 2_048;

/// A point, with what was read of it last, and what was reported.
#[derive(Clone, Copy)]
pub struct Point {
    class: u8,
    deadband: u32,
    now: Row,
    reported: (i64, u8),
}

/// Points of one kind with indices from `base` on.
pub struct Block {
    base: u16,
    points: Vec<Point>,
}

impl Block {
    /// Points of these classes and deadbands, of which nothing was read.
    pub fn new(kind: u8, base: u16, points: impl Iterator<Item = (u8, u32)>) -> Block {
        let points = points.enumerate().map(|(k, (class, deadband))| Point {
            class,
            deadband,
            now: Row { kind, index: base + k as u16, flags: 2, value: 0, time: None },
            reported: (0, 2),
        });
        Block { base, points: points.collect() }
    }
}

#[derive(Clone, Copy)]
pub struct Numbered {
    pub id: u64,
    pub row: Row,
}

#[derive(Default)]
pub struct Lane {
    pub rows: VecDeque<Numbered>,
    capacity: usize,
    pub lost: u64,
}

/// The longest time after a common one, in ms.
const MOST_AFTER: u64 = 65_535;

/// Whether the time can be told after the first one of a group.
fn is_in_reach(first: Option<u64>, time: Option<u64>) -> bool {
    matches!((first, time), (Some(first), Some(time)) if first <= time && time - first <= MOST_AFTER)
}

impl Lane {
    fn new(capacity: usize) -> Lane {
        Lane { capacity, ..Lane::default() }
    }

    /// Whether three rows or more from this place on, up to another, go in a group after the time of the first.
    fn has_group(&self, at: usize, to: usize) -> bool {
        let first = self.rows[at].row.time;
        to - at >= 3 && self.rows.range(at + 1..at + 3).all(|x| is_in_reach(first, x.row.time))
    }
}

/// What an outstation of a plan goes by, in ms.
#[derive(Clone, Copy)]
pub struct Times {
    pub confirm_ms: u64,
    pub select_ms: u64,
    pub retries: u8,
    pub is_unsolicited: bool,
}

type Upto = [u64; 9];

/// How far a READ has come: its header, how much of that one was given, and the last id of each lane.
#[derive(Clone, Copy, Default)]
struct Place {
    header: usize,
    count: usize,
    given: Upto,
}

struct First {
    octets: Vec<u8>,
    upto: Upto,
    is_awaited: bool,
}

/// The last request, the first fragment of its response while that is the last sent, and what is left; or that
/// it waits.
#[derive(Default)]
struct Asked {
    octets: Vec<u8>,
    is_held: bool,
    first: Option<First>,
    stood: u64,
    left: Option<Place>,
}

struct Awaited {
    seq: u8,
    upto: Upto,
    ends: u64,
}

/// An unsolicited response that awaits its confirm.
struct Reported {
    seq: u8,
    octets: Vec<u8>,
    upto: Upto,
    ends: u64,
    repeats: u8,
}

/// What the open header stands for: events of a lane as one variation, events of a lane after a common time, or
/// present values of a header of the READ, a kind and a block.
#[derive(Clone, Copy, PartialEq)]
enum Run {
    Lane(usize, u8),
    Group(usize, u64),
    Block(usize, usize, usize),
}

/// The outputs stand behind the kinds of points.
const OUTPUTS: usize = 3;

/// A fragment that is being written: its open header, where the header's count stands, what it holds.
struct Writer {
    octets: Vec<u8>,
    open: Option<(Run, usize)>,
    upto: Upto,
    place: Place,
}

/// The fragment is full.
struct Full;

impl Writer {
    fn new(place: Place) -> Writer {
        let mut octets = Vec::with_capacity(MOST);
        octets.extend_from_slice(&[0; 4]);
        Writer { octets, open: None, upto: [0; 9], place }
    }

    fn pass(&mut self, header: usize) {
        let before = if self.place.header == header { self.place.count } else { 0 };
        self.place.header = header;
        self.place.count = before + 1;
    }

    fn pass_event(&mut self, header: usize, lane: usize, id: u64) {
        self.pass(header);
        self.place.given[lane] = id;
        self.upto[lane] = id;
    }

    /// Where the number stands in which the run's header ends: the open one, or a new one with these octets. There is
    /// room for an object of so many octets behind it.
    #[inline(always)]
    fn header(&mut self, run: Run, octets: &[u8], size: usize) -> Result<usize, Full> {
        let at = match self.open {
            Some((open, at)) if open == run && self.octets.len() + size <= MOST => at,
            Some((open, _)) if open == run => return Err(Full),
            _ if self.octets.len() + octets.len() + size > MOST => return Err(Full),
            _ => {
                self.octets.extend_from_slice(octets);
                self.octets.len() - 2
            }
        };
        self.open = Some((run, at));
        Ok(at)
    }

    /// One event more stands under the header whose count is there.
    fn counted(&mut self, at: usize) {
        let n = u16::from_le_bytes([self.octets[at], self.octets[at + 1]]) + 1;
        self.octets[at..at + 2].copy_from_slice(&n.to_le_bytes());
    }

    /// An event goes with its index under the open header of its lane and variation, or a new one.
    fn event(&mut self, header: usize, lane: usize, x: &Numbered) -> Result<(), Full> {
        let (group, plain, timed, width) = [(2, 1, 2, 0), (22, 1, 5, 4), (32, 1, 3, 4)][lane % 3];
        let variation = if x.row.time.is_some() { timed } else { plain };
        let size = 3 + width + if x.row.time.is_some() { 6 } else { 0 };
        let at = self.header(Run::Lane(lane, variation), &[group, variation, 0x28, 0, 0], size)?;
        self.counted(at);
        self.octets.extend_from_slice(&x.row.index.to_le_bytes());
        self.value(lane % 3, &x.row);
        if let Some(time) = x.row.time {
            self.octets.extend_from_slice(&time.to_le_bytes()[..6]);
        }
        self.pass_event(header, lane, x.id);
        Ok(())
    }

    /// A binary event goes after the common time of its group.
    fn event_after(&mut self, common: u64, header: usize, lane: usize, x: &Numbered) -> Result<(), Full> {
        let [a, b, c, d, e, f, ..] = common.to_le_bytes();
        let front = [51, 1, 7, 1, a, b, c, d, e, f, 2, 3, 0x28, 0, 0];
        let at = self.header(Run::Group(lane, common), &front, 5)?;
        self.counted(at);
        let after = (x.row.time.unwrap_or(common) - common) as u16;
        self.octets.extend_from_slice(&x.row.index.to_le_bytes());
        self.value(0, &x.row);
        self.octets.extend_from_slice(&after.to_le_bytes());
        self.pass_event(header, lane, x.id);
        Ok(())
    }

    fn value(&mut self, kind: usize, row: &Row) {
        if kind == 0 || kind == OUTPUTS {
            self.octets.push(row.flags | (row.value as u8) << 7);
        } else {
            self.octets.push(row.flags);
            self.octets.extend_from_slice(&(row.value as u32).to_le_bytes());
        }
    }

    /// A present value goes under the open header of its block, or a new one of a range.
    #[inline(always)]
    fn present(&mut self, header: usize, kind: usize, block: usize, row: &Row) -> Result<(), Full> {
        let (group, variation) = [(1, 2), (20, 1), (30, 1), (10, 2)][kind];
        let size = if kind == 0 || kind == OUTPUTS { 1 } else { 5 };
        let [low, high] = row.index.to_le_bytes();
        let at = self.header(Run::Block(header, kind, block), &[group, variation, 0x01, low, high, low, high], size)?;
        self.octets[at..at + 2].copy_from_slice(&row.index.to_le_bytes());
        self.value(kind, row);
        self.pass(header);
        Ok(())
    }

    /// Rows of a lane go one after the other, from one place up to another: binaries in groups, where the header
    /// leaves it open as which object they go.
    fn rows(&mut self, header: usize, number: usize, lane: &Lane, from: usize, to: usize, is_open: bool) -> Result<(), Full> {
        if !(is_open && number % 3 == 0) {
            return lane.rows.range(from..to).try_for_each(|x| self.event(header, number, x));
        }
        let (mut first, mut common) = (None, None);
        for (at, x) in (from..to).zip(lane.rows.range(from..to)) {
            if !is_in_reach(first, x.row.time) {
                first = x.row.time;
                common = first.filter(|_| lane.has_group(at, to));
            }
            match common {
                Some(common) => self.event_after(common, header, number, x)?,
                None => self.event(header, number, x)?,
            }
        }
        Ok(())
    }
}

/// What a call did: a response, and an unsolicited one behind it.
pub struct Actions {
    pub send: Option<Vec<u8>>,
    pub report: Option<Vec<u8>>,
    pub discarded: Vec<Row>,
    pub overwritten: Option<Row>,
    pub close: bool,
}

const NOTHING: Actions = Actions { send: None, report: None, discarded: Vec::new(), overwritten: None, close: false };

pub struct Outstation<P = Switches> {
    kinds: [Vec<Block>; 3],
    lanes: [Lane; 9],
    last_id: u64,
    overflow: bool,
    restart: bool,
    times: Times,
    is_open: bool,
    announced: bool,
    enabled: [bool; 3],
    outputs: Outputs<P>,
    last: Option<Asked>,
    awaited: Option<Awaited>,
    reported: Option<Reported>,
    next: u8,
}

impl Outstation {
    /// One block of so many points of each kind, all of class 1, lanes that take so many rows each, and so many outputs
    /// and setpoints.
    pub fn of_class_1(counts: [usize; 3], capacity: usize, outputs: [u16; 2], is_unsolicited: bool) -> Outstation {
        let block = |kind: usize| vec![Block::new(kind as u8, 0, std::iter::repeat_n((1, 0), counts[kind]))];
        let times = Times { confirm_ms: 5_000, select_ms: 5_000, retries: 0, is_unsolicited };
        Outstation::new([0, 1, 2].map(block), [capacity; 9], Switches::new(outputs[0], outputs[1]), times)
    }
}

impl<P: Panel> Outstation<P> {
    pub fn new(kinds: [Vec<Block>; 3], capacities: [usize; 9], panel: P, times: Times) -> Outstation<P> {
        Outstation {
            kinds,
            lanes: capacities.map(Lane::new),
            last_id: 0,
            overflow: false,
            restart: true,
            times,
            is_open: false,
            announced: false,
            enabled: [false; 3],
            outputs: Outputs::new(panel, times.select_ms),
            last: None,
            awaited: None,
            reported: None,
            next: 0,
        }
    }

    pub fn lanes(&self) -> &[Lane; 9] {
        &self.lanes
    }

    pub fn panel(&mut self) -> &mut P {
        &mut self.outputs.panel
    }

    /// The command of the select that stands at this moment.
    pub fn standing(&self, now: u64) -> Option<Command> {
        self.outputs.standing(now)
    }

    /// Whether it is open, awaits no confirm and holds no READ.
    pub fn is_quiet(&self) -> bool {
        self.is_open && self.awaited.is_none() && self.reported.is_none() && !self.holds_read()
    }

    pub fn hung_up(&mut self) {
        self.is_open = false;
        self.last = None;
        self.awaited = None;
        self.reported = None;
        self.next = 0;
        self.outputs.forget();
    }

    pub fn opened(&mut self, now: u64) -> Actions {
        self.hung_up();
        self.is_open = true;
        if self.times.is_unsolicited && !self.announced {
            let report = Some(self.reports(now, Writer::new(Place::default())));
            return Actions { report, ..NOTHING };
        }
        self.end(now, NOTHING)
    }

    /// A new reading, and the row that a full lane dropped for its event.
    pub fn change(&mut self, now: u64, kind: usize, index: u16, value: i64, flags: u8, time: Option<u64>) -> Actions {
        let overwritten = self.set(kind, index, value, flags, time);
        self.end(now, Actions { overwritten, ..NOTHING })
    }

    fn set(&mut self, kind: usize, index: u16, value: i64, flags: u8, time: Option<u64>) -> Option<Row> {
        let block = self.kinds[kind].iter_mut().find(|b| usize::from(index.wrapping_sub(b.base)) < b.points.len())?;
        let point = &mut block.points[usize::from(index - block.base)];
        let row = Row { kind: kind as u8, index, flags, value, time };
        point.now = row;
        let moved = (value - point.reported.0).unsigned_abs() > u64::from(point.deadband);
        if point.class == 0 || !(moved || flags != point.reported.1) {
            return None;
        }
        point.reported = (value, flags);
        let lane = usize::from(point.class - 1) * 3 + kind;
        self.append(lane, row)
    }

    /// An event comes into a lane, and the row that a full one dropped for it.
    #[inline(always)]
    pub fn append(&mut self, lane: usize, row: Row) -> Option<Row> {
        let lane = &mut self.lanes[lane];
        let dropped = if lane.rows.len() == lane.capacity {
            lane.lost += 1;
            self.overflow = true;
            lane.rows.pop_front()
        } else {
            None
        };
        self.last_id += 1;
        lane.rows.push_back(Numbered { id: self.last_id, row });
        dropped.map(|x| x.row)
    }

    /// A point of a block reads this, which is no event. Answers the point's class, if there is such a point.
    pub fn show(&mut self, block: usize, row: Row) -> Option<u8> {
        let block = self.kinds[usize::from(row.kind)].get_mut(block)?;
        let point = block.points.get_mut(usize::from(row.index.wrapping_sub(block.base)))?;
        point.now = row;
        Some(point.class)
    }

    fn release(&mut self, upto: &Upto) -> Vec<Row> {
        let mut rows = Vec::new();
        for (lane, upto) in self.lanes.iter_mut().zip(upto) {
            let n = lane.rows.iter().take_while(|x| x.id <= *upto).count();
            rows.extend(lane.rows.drain(..n).map(|x| x.row));
        }
        if self.lanes.iter().all(|lane| lane.rows.len() < lane.capacity) {
            self.overflow = false;
        }
        rows
    }

    fn put_lanes(&self, w: &mut Writer, header: usize, lanes: [usize; 3], asked: &Header<'_>, stood: u64) -> Result<(), Full> {
        let is_open = asked.group == 60 || asked.variation == 0;
        let mut most = match asked.range {
            Range::Count { n } => usize::from(n),
            _ => usize::MAX,
        };
        if w.place.header == header {
            most = most.saturating_sub(w.place.count);
        }
        for number in lanes {
            let lane = &self.lanes[number];
            if lane.rows.is_empty() {
                continue;
            }
            let from = lane.rows.partition_point(|x| x.id <= w.place.given[number]);
            let to = lane.rows.partition_point(|x| x.id <= stood).min(from.saturating_add(most)).max(from);
            w.rows(header, number, lane, from, to, is_open)?;
            most -= to - from;
        }
        Ok(())
    }

    fn put_outputs(&self, w: &mut Writer, header: usize, range: Range, skip: &mut usize) -> Result<(), Full> {
        let panel = &self.outputs.panel;
        let indices = match range {
            Range::Span { first, last } => first..last.saturating_add(1).min(panel.outputs()),
            _ => 0..panel.outputs(),
        };
        let passed = (*skip).min(indices.len());
        *skip -= passed;
        for index in indices.skip(passed) {
            let status = panel.status(index);
            let row = Row { kind: 0, index, flags: status & 0x7F, value: i64::from(status >> 7), time: None };
            w.present(header, OUTPUTS, 0, &row)?;
        }
        Ok(())
    }

    fn put_points(&self, w: &mut Writer, header: usize, kind: usize, range: Range, skip: &mut usize) -> Result<(), Full> {
        for (number, block) in self.kinds[kind].iter().enumerate() {
            let (from, to) = match range {
                Range::Span { first, last } => {
                    let from = usize::from(first.saturating_sub(block.base));
                    let to = (usize::from(last) + 1).saturating_sub(usize::from(block.base)).min(block.points.len());
                    (from.min(to), to)
                }
                _ => (0, block.points.len()),
            };
            let points = &block.points[from..to];
            let passed = (*skip).min(points.len());
            *skip -= passed;
            for point in &points[passed..] {
                w.present(header, kind, number, &point.now)?;
            }
        }
        Ok(())
    }

    fn put_header(&self, w: &mut Writer, k: usize, header: &Header<'_>, stood: u64) -> Result<(), Full> {
        let mut skip = if w.place.header == k { w.place.count } else { 0 };
        match (header.group, header.variation) {
            (60, v @ 2..=4) => {
                let class = usize::from(v - 2) * 3;
                self.put_lanes(w, k, [class, class + 1, class + 2], header, stood)
            }
            (2, _) => self.put_lanes(w, k, [0, 3, 6], header, stood),
            (22, _) => self.put_lanes(w, k, [1, 4, 7], header, stood),
            (32, _) => self.put_lanes(w, k, [2, 5, 8], header, stood),
            (60, _) => {
                self.put_points(w, k, 0, Range::All, &mut skip)?;
                self.put_outputs(w, k, Range::All, &mut skip)?;
                (1..3).try_for_each(|kind| self.put_points(w, k, kind, Range::All, &mut skip))
            }
            (1, _) => self.put_points(w, k, 0, header.range, &mut skip),
            (10, _) => self.put_outputs(w, k, header.range, &mut skip),
            (20, _) => self.put_points(w, k, 1, header.range, &mut skip),
            (30, _) => self.put_points(w, k, 2, header.range, &mut skip),
            _ => Ok(()),
        }
    }

    fn has_all(&self, kind: usize, range: Range) -> bool {
        let Range::Span { first, last } = range else {
            return true;
        };
        (first..=last).all(|i| self.kinds[kind].iter().any(|b| usize::from(i.wrapping_sub(b.base)) < b.points.len()))
    }

    fn is_inside(&self, header: &Header<'_>) -> bool {
        match header.group {
            1 => self.has_all(0, header.range),
            20 => self.has_all(1, header.range),
            30 => self.has_all(2, header.range),
            10 => !matches!(header.range, Range::Span { last, .. } if last >= self.outputs.panel.outputs()),
            _ => true,
        }
    }

    fn indications(&self, upto: &Upto, bits: u8) -> [u8; 2] {
        let mut one = if self.restart { 0x80 } else { 0 };
        for (number, lane) in self.lanes.iter().enumerate() {
            if lane.rows.back().is_some_and(|x| x.id > upto[number]) {
                one |= 2 << (number / 3);
            }
        }
        [one, bits | if self.overflow { 8 } else { 0 }]
    }

    /// Sends a fragment of the response to the last request, and awaits its confirm where it asks for one.
    fn sends(&mut self, now: u64, seq: u8, is_first: bool, mut w: Writer, is_last: bool, bits: u8) -> Vec<u8> {
        let con = !is_last || w.upto.iter().any(|id| *id > 0);
        let [one, two] = self.indications(&w.upto, bits);
        let control = seq | if is_first { 0x80 } else { 0 } | if is_last { 0x40 } else { 0 } | if con { 0x20 } else { 0 };
        w.octets[..4].copy_from_slice(&[control, 129, one, two]);
        if let Some(asked) = &mut self.last {
            asked.left = (!is_last).then_some(w.place);
            asked.first = is_first.then(|| First { octets: w.octets.clone(), upto: w.upto, is_awaited: con });
        }
        self.awaited = con.then(|| Awaited { seq, upto: w.upto, ends: now.saturating_add(self.times.confirm_ms) });
        w.octets
    }

    fn read(&mut self, now: u64, seq: u8, is_first: bool, place: Place) -> Vec<u8> {
        let mut w = Writer::new(place);
        let asked = self.last.as_ref().expect("a request");
        let mut is_last = true;
        if let Ok(headers) = headers(&asked.octets) {
            for (k, header) in headers.enumerate().skip(place.header) {
                if self.put_header(&mut w, k, &header, asked.stood).is_err() {
                    is_last = false;
                    break;
                }
            }
        }
        self.sends(now, seq, is_first, w, is_last, 0)
    }

    /// Sends an unsolicited response, and awaits its confirm.
    fn reports(&mut self, now: u64, mut w: Writer) -> Vec<u8> {
        let [one, two] = self.indications(&w.upto, 0);
        w.octets[..4].copy_from_slice(&[0xF0 | self.next, 130, one, two]);
        let ends = now.saturating_add(self.times.confirm_ms);
        self.reported = Some(Reported { seq: self.next, octets: w.octets.clone(), upto: w.upto, ends, repeats: 0 });
        self.next = (self.next + 1) % 16;
        w.octets
    }

    fn holds_read(&self) -> bool {
        self.last.as_ref().is_some_and(|asked| asked.is_held)
    }

    /// The end of a call, with an unsolicited response where one is due.
    fn end(&mut self, now: u64, actions: Actions) -> Actions {
        let is_free = self.awaited.is_none() && self.reported.is_none() && !self.holds_read();
        let has_rows = |number: usize| self.enabled[number / 3] && !self.lanes[number].rows.is_empty();
        if !(self.times.is_unsolicited && self.announced && self.is_open && is_free && (0..9).any(has_rows)) {
            return actions;
        }
        let mut w = Writer::new(Place::default());
        for number in (0..9).filter(|number| has_rows(*number)) {
            let lane = &self.lanes[number];
            if w.rows(0, number, lane, 0, lane.rows.len(), true).is_err() {
                break;
            }
        }
        let report = Some(self.reports(now, w));
        Actions { report, ..actions }
    }

    /// The classes of a request that enables or disables them.
    fn switch(&mut self, on: bool, headers: &[u8]) -> u8 {
        if !headers.chunks(3).all(|header| matches!(header, [0x3C, 2..=4, 6])) {
            return 2;
        }
        for header in headers.chunks(3) {
            self.enabled[usize::from(header[1]) - 2] = on;
        }
        0
    }

    fn request(&mut self, now: u64, octets: &[u8]) -> Option<Vec<u8>> {
        let seq = octets[0] & 15;
        let mut w = Writer::new(Place::default());
        let bits = match octets[1] {
            3..=6 => match self.outputs.answer(now, octets) {
                Ok(answer) => {
                    w.octets = answer;
                    0
                }
                Err(Fault::Object) => 2,
                Err(_) => 4,
            },
            20 | 21 => self.switch(octets[1] == 20, &octets[2..]),
            2 if octets[2..] == [0x50, 1, 0, 7, 7, 0] => {
                self.restart = false;
                0
            }
            _ => match headers(octets).map(|mut headers| headers.all(|header| self.is_inside(&header))) {
                Ok(true) => {
                    let stood = self.lanes.iter().filter_map(|lane| lane.rows.back()).map(|x| x.id).max().unwrap_or(0);
                    self.last = Some(Asked { octets: octets.to_vec(), stood, ..Asked::default() });
                    return Some(self.read(now, seq, true, Place::default()));
                }
                Ok(false) | Err(_) => 4,
            },
        };
        self.last = Some(Asked { octets: octets.to_vec(), ..Asked::default() });
        (octets[1] != 6).then(|| self.sends(now, seq, true, w, true, bits))
    }

    fn confirm(&mut self, now: u64, seq: u8) -> Actions {
        let Some(awaited) = self.awaited.take_if(|w| w.seq == seq) else {
            return NOTHING;
        };
        let discarded = self.release(&awaited.upto);
        let mut left = None;
        if let Some(asked) = &mut self.last {
            left = asked.left;
            if let Some(first) = &mut asked.first {
                first.is_awaited = false;
            }
        }
        let send = left.map(|place| self.read(now, (seq + 1) % 16, false, place));
        Actions { send, discarded, ..NOTHING }
    }

    /// The confirm of an unsolicited response, behind which a READ that waited is answered.
    fn confirm_report(&mut self, now: u64, seq: u8) -> Actions {
        let Some(reported) = self.reported.take_if(|w| w.seq == seq) else {
            return NOTHING;
        };
        self.announced = true;
        let discarded = self.release(&reported.upto);
        let held = self.last.take_if(|asked| asked.is_held);
        let send = held.and_then(|asked| self.request(now, &asked.octets));
        Actions { send, discarded, ..NOTHING }
    }

    fn again(&mut self, now: u64, octets: &[u8]) -> Actions {
        let Some(first) = self.last.as_ref().and_then(|asked| asked.first.as_ref()) else {
            return NOTHING;
        };
        if first.is_awaited && self.reported.is_none() {
            self.awaited = Some(Awaited { seq: octets[0] & 15, upto: first.upto, ends: now.saturating_add(self.times.confirm_ms) });
        }
        Actions { send: Some(first.octets.clone()), ..NOTHING }
    }

    pub fn tick(&mut self, now: u64) -> Actions {
        self.awaited.take_if(|w| now >= w.ends);
        let holds_read = self.holds_read();
        if let Some(reported) = self.reported.as_mut().filter(|w| now >= w.ends) {
            if holds_read || reported.repeats >= self.times.retries {
                self.hung_up();
                return Actions { close: true, ..NOTHING };
            }
            reported.repeats += 1;
            reported.ends = now.saturating_add(self.times.confirm_ms);
            return Actions { report: Some(reported.octets.clone()), ..NOTHING };
        }
        self.end(now, NOTHING)
    }

    pub fn receive(&mut self, now: u64, octets: &[u8]) -> Actions {
        let [control, function, ..] = octets else {
            return NOTHING;
        };
        let is_closed = !self.is_open || octets.len() > MOST;
        if is_closed || control & 0xC0 != 0xC0 || *function >= 129 || control & 0x10 != 0 && *function != 0 {
            return NOTHING;
        }
        let actions = if *function == 0 {
            let confirm = if control & 0x10 == 0 { Outstation::<P>::confirm } else { Outstation::<P>::confirm_report };
            confirm(self, now, control & 15)
        } else if self.last.as_ref().is_some_and(|asked| asked.octets == octets) {
            self.again(now, octets)
        } else {
            self.asked(now, octets)
        };
        self.end(now, actions)
    }

    fn asked(&mut self, now: u64, octets: &[u8]) -> Actions {
        self.awaited = None;
        if !matches!(octets[1], 3..=6) {
            self.outputs.forget();
        }
        if octets[1] == 1 && self.reported.is_some() {
            self.last = Some(Asked { octets: octets.to_vec(), is_held: true, ..Asked::default() });
            return NOTHING;
        }
        Actions { send: self.request(now, octets), ..NOTHING }
    }
}
