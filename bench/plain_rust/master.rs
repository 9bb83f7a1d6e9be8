//! A master: one request at a time, responses of several fragments and such that nobody asked for, rows
//! that are given to a sink and then confirmed, and the outcomes of tasks.

// The benchmark asks polls alone.
#![allow(dead_code)]

use crate::fragments::{count, headers, rows, Header, Headers, Range, Row};

#[derive(Clone, Copy, PartialEq)]
pub enum Fault {
    Malformed,
    Stranger,
    Sink,
}

/// What takes rows, all or none, and answers the rows that it dropped for them.
pub trait Sink {
    fn append(&mut self, events: &[Row], statics: &[Row]) -> Result<Vec<Row>, Fault>;
}

/// Points with indices from `base` on, by their classes.
struct Block {
    base: u16,
    classes: Vec<u8>,
}

/// The points of binaries, counters and analogs, by base.
pub struct Plan {
    blocks: [Vec<Block>; 3],
}

impl Plan {
    /// The points of each kind: the index of the first of a block, and their classes.
    pub fn new(kinds: [Vec<(u16, Vec<u8>)>; 3]) -> Plan {
        let blocks = kinds.map(|mut blocks| {
            blocks.retain(|(_, classes)| !classes.is_empty());
            blocks.sort_by_key(|(base, _)| *base);
            blocks.into_iter().map(|(base, classes)| Block { base, classes }).collect()
        });
        Plan { blocks }
    }

    fn class_of(&self, row: &Row) -> Option<u8> {
        let blocks = &self.blocks[usize::from(row.kind)];
        let place = blocks.partition_point(|block| block.base <= row.index).checked_sub(1)?;
        let block = &blocks[place];
        block.classes.get(usize::from(row.index - block.base)).copied()
    }
}

/// An output's command: its object without the status.
#[derive(Clone, Copy, PartialEq)]
pub struct Command {
    group: u8,
    variation: u8,
    index: u16,
    octets: [u8; 10],
}

impl Command {
    /// The object of this group and variation, whose octets are these, without the status.
    pub fn new(group: u8, variation: u8, index: u16, object: &[u8]) -> Command {
        let mut octets = [0; 10];
        octets[..object.len()].copy_from_slice(object);
        Command { group, variation, index, octets }
    }

    /// How many octets it has before its status.
    fn size(&self) -> usize {
        match (self.group, self.variation) {
            (12, _) => 10,
            (_, 1) => 4,
            _ => 2,
        }
    }

    fn read(header: &Header<'_>) -> Option<(Command, u8)> {
        let Range::Indexed { wide, n: 1 } = header.range else {
            return None;
        };
        let (index, object) = header.octets.split_at(1 + usize::from(wide));
        let index = if wide { u16::from_le_bytes([index[0], index[1]]) } else { u16::from(index[0]) };
        let mut command = Command { group: header.group, variation: header.variation, index, octets: [0; 10] };
        if !matches!(command.group, 12 | 41) {
            return None;
        }
        let size = command.size();
        command.octets[..size].copy_from_slice(&object[..size]);
        Some((command, object[size] & 0x7F))
    }
}

#[derive(Clone, Copy, PartialEq)]
pub enum Task {
    Poll([bool; 4]),
    ClearRestart,
    Enable([bool; 4]),
    Disable([bool; 4]),
    WriteTime(u64),
    Select(Command),
    Operate(Command),
}

impl Task {
    fn is_good(&self) -> bool {
        match self {
            Task::Poll(classes) => classes.contains(&true),
            Task::Enable(classes) | Task::Disable(classes) => classes.contains(&true) && !classes[0],
            Task::WriteTime(time) => *time < 1 << 48,
            _ => true,
        }
    }

    fn function(&self) -> u8 {
        match self {
            Task::Poll(_) => 1,
            Task::ClearRestart | Task::WriteTime(_) => 2,
            Task::Select(_) => 3,
            Task::Operate(_) => 4,
            Task::Enable(_) => 20,
            Task::Disable(_) => 21,
        }
    }

    fn command(&self) -> Option<Command> {
        match self {
            Task::Select(command) | Task::Operate(command) => Some(*command),
            _ => None,
        }
    }

    fn request(&self, seq: u8) -> Vec<u8> {
        let mut octets = Vec::with_capacity(32);
        octets.extend_from_slice(&[0xC0 | seq, self.function()]);
        match self {
            Task::Poll(classes) | Task::Enable(classes) | Task::Disable(classes) => {
                for class in [1, 2, 3, 0] {
                    if classes[class] {
                        octets.extend_from_slice(&[60, class as u8 + 1, 6]);
                    }
                }
            }
            Task::ClearRestart => octets.extend_from_slice(&[80, 1, 0, 7, 7, 0]),
            Task::WriteTime(time) => {
                octets.extend_from_slice(&[50, 1, 7, 1]);
                octets.extend_from_slice(&time.to_le_bytes()[..6]);
            }
            Task::Select(command) | Task::Operate(command) => {
                octets.extend_from_slice(&[command.group, command.variation, 0x28, 1, 0]);
                octets.extend_from_slice(&command.index.to_le_bytes());
                octets.extend_from_slice(&command.octets[..command.size()]);
                octets.push(0);
            }
        }
        octets
    }
}

/// What a response has repeated of the command of its request.
#[derive(Clone, Copy, PartialEq)]
enum Echo {
    Nothing,
    Same(u8),
    Other,
}

impl Echo {
    fn with(self, second: Echo) -> Echo {
        match (self, second) {
            (Echo::Nothing, second) => second,
            (Echo::Same(status), Echo::Nothing) => Echo::Same(status),
            _ => Echo::Other,
        }
    }
}

/// What a fragment repeats of the command.
fn echo_in(command: &Command, octets: &[u8]) -> Echo {
    let Ok(mut headers) = headers(octets) else {
        return Echo::Other;
    };
    match (headers.next(), headers.next()) {
        (None, _) => Echo::Nothing,
        (Some(header), None) => match Command::read(&header) {
            Some((repeated, status)) if repeated == *command => Echo::Same(status),
            _ => Echo::Other,
        },
        _ => Echo::Other,
    }
}

#[derive(Clone, Copy)]
struct Request {
    task: Task,
    has_begun: bool,
    echo: Echo,
    ends: u64,
}

#[derive(Clone, Copy, PartialEq)]
pub enum Outcome {
    Done([u8; 2]),
    Control(u8),
    Unlike,
}

pub struct Actions {
    pub send: Option<[u8; 2]>,
    pub taken: usize,
    pub dropped: Vec<Row>,
    pub outcome: Option<Outcome>,
    pub restart: bool,
}

const NOTHING: Actions = Actions { send: None, taken: 0, dropped: Vec::new(), outcome: None, restart: false };

pub struct Master {
    plan: Plan,
    response_ms: u64,
    is_open: bool,
    seq: u8,
    request: Option<Request>,
    selected: Option<Command>,
}

/// The rows of a header: packed binaries have the flags 01.
fn each_row(header: Header<'_>, mut put: impl FnMut(Row) -> Result<(), Fault>) -> Result<(), Fault> {
    if let (1, 1, Range::Span { first, .. }) = (header.group, header.variation, header.range) {
        for k in 0..count(header.range) {
            let value = i64::from(header.octets[k / 8] >> (k % 8) & 1);
            put(Row { kind: 0, index: first + k as u16, flags: 1, value, time: None })?;
        }
    }
    if let Some(rows) = rows(header) {
        for row in rows {
            put(row)?;
        }
    }
    Ok(())
}

impl Master {
    pub fn new(plan: Plan, response_ms: u64) -> Master {
        Master { plan, response_ms, is_open: false, seq: 0, request: None, selected: None }
    }

    pub fn opened(&mut self) {
        self.hung_up();
        self.is_open = true;
    }

    pub fn hung_up(&mut self) {
        (self.is_open, self.seq, self.request, self.selected) = (false, 0, None, None);
    }

    /// Whether it is open and awaits no response.
    pub fn is_idle(&self) -> bool {
        self.is_open && self.request.is_none()
    }

    /// The command whose select stands.
    pub fn selected(&self) -> Option<Command> {
        self.selected
    }

    /// The request, or nothing where the task can't be asked now.
    pub fn ask(&mut self, now: u64, task: Task) -> Option<Vec<u8>> {
        let follows = !matches!(task, Task::Operate(command) if self.selected != Some(command));
        if !self.is_open || self.request.is_some() || !follows || !task.is_good() {
            return None;
        }
        let ends = now.saturating_add(self.response_ms);
        self.request = Some(Request { task, has_begun: false, echo: Echo::Nothing, ends });
        self.selected = None;
        Some(task.request(self.seq))
    }

    /// Whether the response timer has ended, which closes the master.
    pub fn tick(&mut self, now: u64) -> bool {
        let has_ended = self.request.is_some_and(|request| request.ends <= now);
        if has_ended {
            self.hung_up();
        }
        has_ended
    }

    /// The events and the present values of the plan's points.
    fn rows_of(&self, headers: Headers<'_>) -> Result<(Vec<Row>, Vec<Row>), Fault> {
        let (mut events, mut statics) = (Vec::new(), Vec::new());
        for header in headers {
            let is_event = matches!(header.group, 2 | 22 | 32);
            each_row(header, |row| {
                let class = self.plan.class_of(&row);
                match (is_event, class) {
                    (true, None | Some(0)) => return Err(Fault::Stranger),
                    (true, _) => events.push(row),
                    (false, Some(_)) => statics.push(row),
                    (false, None) => {}
                }
                Ok(())
            })?;
        }
        Ok((events, statics))
    }

    pub fn receive(&mut self, now: u64, octets: &[u8], sink: &mut impl Sink) -> Result<Actions, Fault> {
        if !self.is_open {
            return Ok(NOTHING);
        }
        let all = headers(octets).map_err(|_| Fault::Malformed)?;
        let [control, function, one, two, ..] = *octets else {
            return Err(Fault::Malformed);
        };
        if function < 129 {
            return Err(Fault::Malformed);
        }
        let (fir, fin, con, uns, seq) = (control & 0x80 != 0, control & 0x40 != 0, control & 0x20 != 0, control & 0x10 != 0, control & 15);
        let is_report = function == 130 && fir && fin && uns;
        let awaited = self.request.filter(|request| function == 129 && !uns && seq == self.seq && fir != request.has_begun);
        if !is_report && awaited.is_none() {
            return Ok(NOTHING);
        }
        let (events, statics) = self.rows_of(all)?;
        let dropped = if events.is_empty() && statics.is_empty() { Vec::new() } else { sink.append(&events, &statics)? };
        let outcome = awaited.and_then(|mut request| {
            self.seq = (self.seq + 1) % 16;
            if let Some(command) = request.task.command() {
                request.echo = request.echo.with(echo_in(&command, octets));
            }
            if !fin {
                let ends = now.saturating_add(self.response_ms);
                self.request = Some(Request { has_begun: true, ends, ..request });
                return None;
            }
            self.request = None;
            self.selected = match (request.task, request.echo) {
                (Task::Select(command), Echo::Same(0)) => Some(command),
                _ => None,
            };
            Some(match (request.task.command(), request.echo) {
                (None, _) => Outcome::Done([one, two]),
                (_, Echo::Same(status)) => Outcome::Control(status),
                _ => Outcome::Unlike,
            })
        });
        let send = con.then_some([0xC0 | if uns { 0x10 } else { 0 } | seq, 0]);
        Ok(Actions { send, taken: events.len(), dropped, outcome, restart: one & 0x80 != 0 })
    }
}

/// A sink that makes a number of what comes, and drops nothing.
struct Summing {
    sum: u64,
}

impl Sink for Summing {
    fn append(&mut self, events: &[Row], statics: &[Row]) -> Result<Vec<Row>, Fault> {
        for row in events.iter().chain(statics) {
            let number = u64::from(row.index)
                ^ u64::from(row.flags) << 16
                ^ (row.value as u64) << 24
                ^ row.time.unwrap_or(0);
            self.sum = self.sum.wrapping_mul(31).wrapping_add(number);
        }
        Ok(Vec::new())
    }
}

/// The master polls `count` times, and each time takes the response with these octets, under the number
/// that it awaits. Makes a number of the rows that its sink takes, of its confirms and of the outcomes; all
/// ones where a call is refused.
///
/// # Safety
/// `octets` points to `size` octets.
#[no_mangle]
pub unsafe extern "C" fn plain_take(octets: *const u8, size: usize, count: u64) -> u64 {
    let mut response = std::slice::from_raw_parts(octets, size).to_vec();
    let analogs = vec![Block { base: 0, classes: vec![1; 400] }];
    let mut master = Master::new(Plan { blocks: [Vec::new(), Vec::new(), analogs] }, 10_000);
    let mut sink = Summing { sum: 0 };
    let mut sum = 0u64;
    master.opened();
    for now in 0..count {
        let Some(request) = master.ask(now, Task::Poll([true; 4])) else {
            return u64::MAX;
        };
        response[0] = response[0] & 0xF0 | request[0] & 15;
        let Ok(actions) = master.receive(now, &response, &mut sink) else {
            return u64::MAX;
        };
        let sent = actions.send.map_or(0, |octets| u64::from(octets[0]) + 1);
        let is_done = actions.outcome == Some(Outcome::Done([response[2], response[3]]));
        let said = sent ^ (actions.taken as u64) << 16 ^ u64::from(is_done) << 32 ^ u64::from(actions.restart) << 33;
        sum = sum.wrapping_mul(31).wrapping_add(said ^ actions.dropped.len() as u64);
        if master.tick(now) {
            return u64::MAX;
        }
    }
    sum ^ sink.sum
}
