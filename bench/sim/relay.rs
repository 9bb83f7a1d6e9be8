//! Books of controls, and the masters that relay them.

use crate::controls::{is_performed, Command, Panel, ALREADY_ACTIVE, NOT_SUPPORTED};
use crate::master::{self, Master, Outcome, Sink, Task};
use crate::plan::{is_same_point, Map};
use std::cell::RefCell;
use std::rc::Rc;

#[derive(Clone, Copy, PartialEq)]
pub enum State {
    Pending,
    Spent,
    Finished(u8),
}

#[derive(Clone, Copy)]
pub struct Entry {
    pub id: u64,
    pub target: u8,
    pub command: Command,
    pub state: State,
}

/// Controls with the ids 1, 2, 3 and so on.
#[derive(Default)]
pub struct Book {
    entries: Vec<Entry>,
    /// None before this place is pending.
    first: usize,
}

impl Book {
    pub fn add(&mut self, target: u8, command: Command) {
        let id = self.entries.len() as u64 + 1;
        self.entries.push(Entry { id, target, command, state: State::Pending });
    }

    pub fn entry(&self, id: u64) -> Option<&Entry> {
        self.entries.get(usize::try_from(id).ok()?.checked_sub(1)?)
    }

    /// The first pending control for a target.
    pub fn next(&mut self, target: u8) -> Option<Entry> {
        let rest = &self.entries[self.first..];
        self.first += rest.iter().position(|entry| entry.state == State::Pending).unwrap_or(rest.len());
        let is_next = |entry: &&Entry| entry.state == State::Pending && entry.target == target;
        self.entries[self.first..].iter().find(is_next).copied()
    }

    fn set(&mut self, id: u64, state: State) {
        self.entries[id as usize - 1].state = state;
    }

    /// Whether the control was pending, and is spent now.
    fn spend(&mut self, id: u64) -> bool {
        let is_pending = self.entry(id).is_some_and(|entry| entry.state == State::Pending);
        if is_pending {
            self.set(id, State::Spent);
        }
        is_pending
    }
}

/// Outputs of a concentrator towards a centre: what is performed is added to the one book for its substation, but for the point
/// that the other centre has selected.
pub struct Relays {
    pub map: Rc<Map>,
    pub book: Rc<RefCell<Book>>,
    pub reserved: Option<Command>,
}

impl Panel for Relays {
    const MOST: usize = 1;

    fn outputs(&self) -> u16 {
        0
    }

    fn status(&self, _index: u16) -> u8 {
        0
    }

    fn check(&self, command: &Command) -> u8 {
        let obeys = match *command {
            Command::Block { code, count, .. } => is_performed(code, count),
            Command::Set16 { .. } | Command::Set32 { .. } => true,
        };
        if !obeys || self.map.command_below(*command).is_none() {
            return NOT_SUPPORTED;
        }
        let is_reserved = self.reserved.is_some_and(|reserved| is_same_point(&reserved, command));
        if is_reserved { ALREADY_ACTIVE } else { 0 }
    }

    fn perform(&mut self, command: Command) {
        if let Some((substation, below)) = self.map.command_below(command) {
            self.book.borrow_mut().add(substation, below);
        }
    }
}

#[derive(Clone, Copy, PartialEq)]
enum Stage {
    Selecting,
    Selected,
    Operating,
    Known(u8),
}

#[derive(Clone, Copy)]
struct Progress {
    id: u64,
    command: master::Command,
    stage: Stage,
}

/// An answer that doesn't repeat the command counts as one in a wrong form.
const FORMAT_ERROR: u8 = 3;

/// The master of a link, and the control in progress there.
pub struct Relay {
    pub master: Master,
    progress: Option<Progress>,
}

impl Relay {
    pub fn new(master: Master) -> Relay {
        Relay { master, progress: None }
    }

    pub fn opened(&mut self) {
        self.master.opened();
        self.progress = None;
    }

    pub fn in_progress(&self) -> Option<u64> {
        self.progress.map(|progress| progress.id)
    }

    /// Takes a fragment in, and answers its confirm.
    pub fn receive(&mut self, now: u64, fragment: &[u8], sink: &mut impl Sink) -> Option<[u8; 2]> {
        let actions = self.master.receive(now, fragment, sink).ok()?;
        if let (Some(progress), Some(outcome)) = (&mut self.progress, actions.outcome) {
            let status = match outcome {
                Outcome::Control(status) => status,
                Outcome::Done(_) | Outcome::Unlike => FORMAT_ERROR,
            };
            progress.stage = match progress.stage {
                Stage::Selecting if status == 0 => Stage::Selected,
                Stage::Selecting | Stage::Operating => Stage::Known(status),
                stage => stage,
            };
        }
        actions.send
    }

    fn go_on(&mut self, now: u64, id: u64, command: master::Command, operates: bool) -> Option<Vec<u8>> {
        let (task, stage) = if operates { (Task::Operate(command), Stage::Operating) } else { (Task::Select(command), Stage::Selecting) };
        self.progress = Some(Progress { id, command, stage });
        self.master.ask(now, task)
    }

    /// The next step with a target's controls: the request to be sent.
    pub fn step(&mut self, now: u64, target: u8, book: &mut Book) -> Option<Vec<u8>> {
        if !self.master.is_idle() {
            return None;
        }
        let Some(Progress { id, command, stage }) = self.progress else {
            let entry = book.next(target)?;
            return self.go_on(now, entry.id, object_of(&entry.command), false);
        };
        match stage {
            Stage::Known(status) => {
                book.set(id, State::Finished(status));
                self.progress = None;
                None
            }
            Stage::Selected if self.master.selected() == Some(command) => {
                if book.spend(id) { self.go_on(now, id, command, true) } else { None }
            }
            Stage::Selected | Stage::Selecting => self.go_on(now, id, command, false),
            Stage::Operating => None,
        }
    }
}

fn object_of(command: &Command) -> master::Command {
    match *command {
        Command::Block { index, code, count, on_ms, off_ms } => {
            let mut object = [code, count, 0, 0, 0, 0, 0, 0, 0, 0];
            object[2..6].copy_from_slice(&on_ms.to_le_bytes());
            object[6..].copy_from_slice(&off_ms.to_le_bytes());
            master::Command::new(12, 1, index, &object)
        }
        Command::Set32 { index, value } => master::Command::new(41, 1, index, &value.to_le_bytes()),
        Command::Set16 { index, value } => master::Command::new(41, 2, index, &value.to_le_bytes()),
    }
}
