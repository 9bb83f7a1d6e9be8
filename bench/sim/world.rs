//! Substations, a concentrator and two centres, with lines between them, and what became of every row and command.

use crate::controls::{Command, Switches};
use crate::fragments::Row;
use crate::lines::Channel;
use crate::master::{self, Master, Sink, Task};
use crate::outstation::{Actions, Block, Numbered, Outstation, Times};
use crate::plan::{Map, Plan, SubPlan};
use crate::relay::{Book, Relay, Relays, State};
use crate::script::{Line, Link, Way};
use std::cell::RefCell;
use std::io::{self, Write};
use std::rc::Rc;

const CENTRES: [u16; 2] = [1, 3];
const MASTER_BELOW: u16 = 2;
const CONCENTRATOR_ABOVE: u16 = 9;
const FIRST_OUTSTATION: u16 = 10;

/// The target of all controls in a centre's book.
const STATION_BELOW: u8 = 0;

/// What became of rows and commands, beside the substations that they are of.
#[derive(Default)]
pub struct History {
    pub confirmed: Vec<(u8, Row)>,
    pub overwritten: Vec<(u8, Row)>,
    /// Of each centre, as they stand above.
    pub dropped: [Vec<Row>; 2],
    pub issued: Vec<(u8, Command)>,
    pub operated: Vec<(u8, Command)>,
}

/// Why a round or a control isn't done.
enum Refusal {
    NotQuiet = 1,
    NotNext = 2,
    Refused = 3,
}

/// A substation with the link to it: its lines, and the concentrator's master of it.
struct Substation {
    outstation: Outstation<Switches>,
    channel: Channel,
    relay: Relay,
}

/// A centre with the link to it.
struct Centre {
    channel: Channel,
    relay: Relay,
    journal: Vec<Row>,
    orders: Book,
}

pub struct World {
    map: Rc<Map>,
    substations: Vec<Substation>,
    /// The concentrator towards each centre: its lanes are the queue for that one.
    concentrator: [Outstation<Relays>; 2],
    /// The concentrator's book of controls.
    book: Rc<RefCell<Book>>,
    centres: [Centre; 2],
    now: u64,
    pub history: History,
}

/// Queues a substation's events for both centres, and shows both its readings.
struct Queueing<'a> {
    map: &'a Map,
    concentrator: &'a mut [Outstation<Relays>; 2],
    dropped: &'a mut [Vec<Row>; 2],
    substation: u8,
}

impl Sink for Queueing<'_> {
    fn append(&mut self, events: &[Row], statics: &[Row]) -> Result<Vec<Row>, master::Fault> {
        let block = usize::from(self.substation);
        for row in events {
            let Some(row) = self.map.row_above(self.substation, row) else {
                continue;
            };
            for (towards, dropped) in self.concentrator.iter_mut().zip(&mut *self.dropped) {
                if let Some(class @ 1..) = towards.show(block, row) {
                    let lane = usize::from(class - 1) * 3 + usize::from(row.kind);
                    dropped.extend(towards.append(lane, row));
                }
            }
        }
        for row in statics.iter().filter_map(|row| self.map.row_above(self.substation, row)) {
            self.concentrator.iter_mut().for_each(|towards| {
                towards.show(block, row);
            });
        }
        Ok(Vec::new())
    }
}

/// Puts events into the centre's journal.
struct Journaling<'a>(&'a mut Vec<Row>);

impl Sink for Journaling<'_> {
    fn append(&mut self, events: &[Row], _statics: &[Row]) -> Result<Vec<Row>, master::Fault> {
        self.0.extend_from_slice(events);
        Ok(Vec::new())
    }
}

fn blocks_above(plan: &Plan, kind: usize) -> Vec<Block> {
    let of = |substation: &SubPlan| Block::new(kind as u8, substation.base[kind], substation.classes[kind].iter().map(|class| (*class, 0)));
    plan.substations.iter().map(of).collect()
}

fn new_substation(plan: &SubPlan, number: usize, times: Times, response_ms: u64) -> Substation {
    let block = |kind: usize| {
        let deadbands = if kind == 2 { &plan.deadbands[..] } else { &[] };
        let deadbands = deadbands.iter().copied().chain(std::iter::repeat(0));
        vec![Block::new(kind as u8, 0, plan.classes[kind].iter().copied().zip(deadbands))]
    };
    let panel = Switches::new(plan.outputs, plan.setpoints);
    let points = [0, 1, 2].map(|kind: usize| vec![(0, plan.classes[kind].clone())]);
    Substation {
        outstation: Outstation::new([0, 1, 2].map(block), plan.lanes, panel, times),
        channel: Channel::new(FIRST_OUTSTATION + number as u16, MASTER_BELOW),
        relay: Relay::new(Master::new(master::Plan::new(points), response_ms)),
    }
}

impl World {
    pub fn new(plan: &Plan) -> World {
        let Plan { confirm_ms, select_ms, retries, is_unsolicited, .. } = *plan;
        let times = Times { confirm_ms, select_ms, retries, is_unsolicited };
        let map = Rc::new(Map::new(plan));
        let book = Rc::new(RefCell::new(Book::default()));
        let towards = |queue| {
            let panel = Relays { map: map.clone(), book: book.clone(), reserved: None };
            Outstation::new([0, 1, 2].map(|kind| blocks_above(plan, kind)), queue, panel, times)
        };
        let points = || [0, 1, 2].map(|kind: usize| plan.substations.iter().map(|s| (s.base[kind], s.classes[kind].clone())).collect());
        let centre = |address| Centre {
            channel: Channel::new(CONCENTRATOR_ABOVE, address),
            relay: Relay::new(Master::new(master::Plan::new(points()), plan.response_ms)),
            journal: Vec::new(),
            orders: Book::default(),
        };
        let substations = plan.substations.iter().enumerate();
        World {
            substations: substations.map(|(number, plan_of)| new_substation(plan_of, number, times, plan.response_ms)).collect(),
            concentrator: plan.queues.map(towards),
            centres: CENTRES.map(centre),
            map,
            book,
            now: 0,
            history: History::default(),
        }
    }

    /// A line of a script happens, and how a round or a control came out is printed.
    pub fn run(&mut self, line: &Line, out: &mut impl Write) -> io::Result<()> {
        match *line {
            Line::Open(on) => self.open(on),
            Line::Deliver(on, way) => self.deliver(on, way, false),
            Line::Repeat(on, way) => self.deliver(on, way, true),
            Line::Lose(on, Way::Down) => self.link(on).0.down.lose(),
            Line::Lose(on, Way::Up) => self.link(on).0.up.lose(),
            Line::Flush(on, way) => self.flush(on, way),
            Line::Change { substation, kind, index, value, flags, time } => self.change(substation, kind, index, value, flags, time),
            Line::Ask(on, task) => self.ask(on, task),
            Line::Issue(centre, substation, command) => self.issue(centre, substation, command),
            Line::Relay(on) => self.relay(on),
            Line::Pass(ms) => self.now = self.now.saturating_add(ms),
            Line::Round(on) => return told(out, "round", on, self.round(on)),
            Line::Control(centre, id) => return told(out, ["control", "control2"][centre], id, self.control(centre, id)),
        }
        Ok(())
    }

    fn link(&mut self, on: Link) -> (&mut Channel, &mut Relay) {
        match on {
            Link::Below(number) => {
                let substation = &mut self.substations[usize::from(number)];
                (&mut substation.channel, &mut substation.relay)
            }
            Link::Above(centre) => {
                let centre = &mut self.centres[centre];
                (&mut centre.channel, &mut centre.relay)
            }
        }
    }

    fn open(&mut self, on: Link) {
        let actions = match on {
            Link::Below(number) => self.substations[usize::from(number)].outstation.opened(self.now),
            Link::Above(centre) => self.concentrator[centre].opened(self.now),
        };
        let (channel, relay) = self.link(on);
        channel.clear();
        channel.send_up(&actions);
        relay.opened();
    }

    fn deliver(&mut self, on: Link, way: Way, is_repeated: bool) {
        match (on, way) {
            (Link::Below(number), Way::Down) => self.come_down_below(number, is_repeated),
            (Link::Above(centre), Way::Down) => self.come_down_above(centre, is_repeated),
            (Link::Below(number), Way::Up) => self.come_up_below(number, is_repeated),
            (Link::Above(centre), Way::Up) => {
                let Centre { channel, relay, journal, .. } = &mut self.centres[centre];
                if channel.up.bring(&mut channel.master, is_repeated) {
                    let mut sink = Journaling(journal);
                    let confirm = relay.receive(self.now, channel.master.fragment(), &mut sink);
                    confirm.iter().for_each(|confirm| channel.send_down(confirm));
                }
            }
        }
    }

    /// The point that the other centre has selected is reserved for that one.
    fn come_down_above(&mut self, centre: usize, is_repeated: bool) {
        let channel = &mut self.centres[centre].channel;
        if !channel.down.bring(&mut channel.outstation, is_repeated) {
            return;
        }
        let reserved = self.concentrator[1 - centre].standing(self.now);
        let towards = &mut self.concentrator[centre];
        towards.panel().reserved = reserved;
        let actions = towards.receive(self.now, channel.outstation.fragment());
        channel.send_up(&actions);
    }

    fn come_down_below(&mut self, number: u8, is_repeated: bool) {
        let Substation { outstation, channel, .. } = &mut self.substations[usize::from(number)];
        if !channel.down.bring(&mut channel.outstation, is_repeated) {
            return;
        }
        let before = outstation.panel().operated.len();
        let actions = outstation.receive(self.now, channel.outstation.fragment());
        channel.send_up(&actions);
        self.history.confirmed.extend(actions.discarded.iter().map(|row| (number, *row)));
        let operated = &outstation.panel().operated[before..];
        self.history.operated.extend(operated.iter().map(|command| (number, *command)));
    }

    fn come_up_below(&mut self, number: u8, is_repeated: bool) {
        let Substation { channel, relay, .. } = &mut self.substations[usize::from(number)];
        if !channel.up.bring(&mut channel.master, is_repeated) {
            return;
        }
        let dropped = &mut self.history.dropped;
        let mut sink = Queueing { map: &self.map, concentrator: &mut self.concentrator, dropped, substation: number };
        let confirm = relay.receive(self.now, channel.master.fragment(), &mut sink);
        confirm.iter().for_each(|confirm| channel.send_down(confirm));
    }

    fn flush(&mut self, on: Link, way: Way) {
        let channel = self.link(on).0;
        let standing = if way == Way::Down { channel.down.len() } else { channel.up.len() };
        for _ in 0..standing {
            self.deliver(on, way, false);
        }
    }

    /// A reading that its kind can't be does nothing.
    fn change(&mut self, substation: u8, kind: u8, index: u16, value: i64, flags: u8, time: Option<u64>) {
        let is_value = match kind {
            0 => (0..=1).contains(&value) && flags < 0x80,
            1 => u32::try_from(value).is_ok(),
            _ => i32::try_from(value).is_ok(),
        };
        if !is_value || time.is_some_and(|time| time >= 1 << 48) {
            return;
        }
        let Substation { outstation, channel, .. } = &mut self.substations[usize::from(substation)];
        let actions: Actions = outstation.change(self.now, usize::from(kind), index, value, flags, time);
        channel.send_up(&actions);
        self.history.overwritten.extend(actions.overwritten.map(|row| (substation, row)));
    }

    fn ask(&mut self, on: Link, task: Task) {
        let now = self.now;
        let (channel, relay) = self.link(on);
        if relay.master.is_idle() {
            let request = relay.master.ask(now, task);
            request.iter().for_each(|request| channel.send_down(request));
        }
    }

    fn issue(&mut self, centre: usize, substation: u8, command: Command) {
        if let Some(above) = self.map.command_above(substation, command) {
            self.centres[centre].orders.add(STATION_BELOW, above);
            self.history.issued.push((substation, command));
        }
    }

    fn relay(&mut self, on: Link) {
        let (channel, request) = match on {
            Link::Below(number) => {
                let Substation { channel, relay, .. } = &mut self.substations[usize::from(number)];
                (channel, relay.step(self.now, number, &mut self.book.borrow_mut()))
            }
            Link::Above(centre) => {
                let Centre { channel, relay, orders, .. } = &mut self.centres[centre];
                (channel, relay.step(self.now, STATION_BELOW, orders))
            }
        };
        request.iter().for_each(|request| channel.send_down(request));
    }

    fn is_quiet(&self, on: Link) -> bool {
        match on {
            Link::Below(number) => {
                let Substation { outstation, channel, relay } = &self.substations[usize::from(number)];
                relay.master.is_idle() && outstation.is_quiet() && channel.is_quiet()
            }
            Link::Above(centre) => {
                let Centre { channel, relay, .. } = &self.centres[centre];
                relay.master.is_idle() && self.concentrator[centre].is_quiet() && channel.is_quiet()
            }
        }
    }

    /// A poll of classes 1, 2 and 3 over a quiet link, with its response and the confirm.
    fn round(&mut self, on: Link) -> Result<(), Refusal> {
        if !self.is_quiet(on) {
            return Err(Refusal::NotQuiet);
        }
        self.ask(on, Task::Poll([false, true, true, true]));
        self.flush(on, Way::Down);
        self.flush(on, Way::Up);
        self.flush(on, Way::Down);
        Ok(())
    }

    /// A step of relaying, which is refused where it finished this control with another status than SUCCESS.
    fn relay_one(&mut self, on: Link, id: Option<u64>) -> Result<(), Refusal> {
        self.relay(on);
        let state = match on {
            Link::Above(centre) => id.and_then(|id| self.centres[centre].orders.entry(id)).map(|entry| entry.state),
            Link::Below(_) => id.and_then(|id| self.book.borrow().entry(id).map(|entry| entry.state)),
        };
        match state {
            Some(State::Finished(1..)) => Err(Refusal::Refused),
            _ => Ok(()),
        }
    }

    /// The SELECT, the OPERATE, and what became of it.
    fn relay_through(&mut self, on: Link, id: Option<u64>) -> Result<(), Refusal> {
        for _ in 0..2 {
            self.relay_one(on, id)?;
            self.flush(on, Way::Down);
            self.flush(on, Way::Up);
        }
        self.relay_one(on, id)
    }

    /// Whether the control is the centre's next one, and no other is on its way to its substation.
    fn is_next(&mut self, centre: usize, id: u64, substation: Option<u8>) -> bool {
        let is_free = match substation {
            Some(number) => {
                let is_idle = self.substations[usize::from(number)].relay.in_progress().is_none();
                is_idle && self.book.borrow_mut().next(number).is_none()
            }
            None => true,
        };
        let Centre { relay, orders, .. } = &mut self.centres[centre];
        let is_alone = relay.in_progress().is_none_or(|other| other == id);
        is_free && is_alone && orders.next(STATION_BELOW).is_some_and(|entry| entry.id == id)
    }

    /// The control goes from its centre to its substation, over quiet links.
    fn control(&mut self, centre: usize, id: u64) -> Result<(), Refusal> {
        let above = Link::Above(centre);
        if !self.is_quiet(above) {
            return Err(Refusal::NotQuiet);
        }
        let command = self.centres[centre].orders.entry(id).map(|entry| entry.command);
        let substation = command.and_then(|command| self.map.command_below(command)).map(|(number, _)| number);
        if substation.is_some_and(|number| !self.is_quiet(Link::Below(number))) {
            return Err(Refusal::NotQuiet);
        }
        if !self.is_next(centre, id, substation) {
            return Err(Refusal::NotNext);
        }
        self.relay_through(above, Some(id))?;
        let Some(number) = substation else {
            return Ok(());
        };
        let queued = self.book.borrow_mut().next(number).map(|entry| entry.id);
        self.relay_through(Link::Below(number), queued)
    }

    /// Rows above as they stand at their substations.
    fn rows_below<'a>(&self, rows: impl Iterator<Item = &'a Row>) -> Vec<(u8, Row)> {
        rows.filter_map(|row| self.map.row_below(row)).collect()
    }

    pub fn journal_below(&self, centre: usize) -> Vec<(u8, Row)> {
        self.rows_below(self.centres[centre].journal.iter())
    }

    pub fn queue_below(&self, centre: usize) -> Vec<(u8, Row)> {
        let mut queue: Vec<&Numbered> = self.concentrator[centre].lanes().iter().flat_map(|lane| &lane.rows).collect();
        queue.sort_unstable_by_key(|x| x.id);
        self.rows_below(queue.iter().map(|x| &x.row))
    }

    pub fn dropped_below(&self, centre: usize) -> Vec<(u8, Row)> {
        self.rows_below(self.history.dropped[centre].iter())
    }

    pub fn buffered(&self) -> Vec<(u8, Row)> {
        let rows = self.substations.iter().zip(0..).flat_map(|(substation, number)| {
            let lanes = substation.outstation.lanes().iter();
            lanes.flat_map(|lane| &lane.rows).map(move |x| (number, x.row))
        });
        rows.collect()
    }

    pub fn lost(&self, centre: usize) -> u64 {
        self.concentrator[centre].lanes().iter().map(|lane| lane.lost).sum()
    }
}

fn told(out: &mut impl Write, what: &str, subject: impl std::fmt::Display, done: Result<(), Refusal>) -> io::Result<()> {
    match done {
        Ok(()) => writeln!(out, "{what} {subject} ok"),
        Err(refusal) => writeln!(out, "{what} {subject} refused {}", refusal as u8),
    }
}
