//! Outputs that are selected and operated, and what performs their commands.

use crate::fragments::{headers, Fault, Header, Range};

/// A command, of which an output makes what it will.
#[derive(Clone, Copy, PartialEq)]
#[allow(dead_code)]
pub enum Command {
    Block { index: u16, code: u8, count: u8, on_ms: u32, off_ms: u32 },
    Set16 { index: u16, value: i16 },
    Set32 { index: u16, value: i32 },
}

/// The status of a command that an output doesn't take, and of one whose point another master has selected.
pub const NOT_SUPPORTED: u8 = 4;
#[allow(dead_code)]
pub const ALREADY_ACTIVE: u8 = 5;

/// Whether outputs perform a block of this code and count.
pub fn is_performed(code: u8, count: u8) -> bool {
    matches!(code & 0x3F, 1..=4) && code & 0xC0 != 0xC0 && count != 0
}

/// What performs commands.
pub trait Panel {
    /// How many commands of a request it performs at most.
    const MOST: usize;

    /// How many binary outputs show a status.
    fn outputs(&self) -> u16;

    fn status(&self, index: u16) -> u8;

    /// The status by which a command is refused, or 0.
    fn check(&self, command: &Command) -> u8;

    fn perform(&mut self, command: Command);
}

/// Outputs that latch, and keep the commands that they performed.
pub struct Switches {
    latched: Vec<bool>,
    setpoints: u16,
    pub operated: Vec<Command>,
}

impl Switches {
    pub fn new(outputs: u16, setpoints: u16) -> Switches {
        Switches { latched: vec![false; usize::from(outputs)], setpoints, operated: Vec::new() }
    }
}

impl Panel for Switches {
    const MOST: usize = 8;

    fn outputs(&self) -> u16 {
        self.latched.len() as u16
    }

    fn status(&self, index: u16) -> u8 {
        1 | u8::from(self.latched[usize::from(index)]) << 7
    }

    fn check(&self, command: &Command) -> u8 {
        let is_there = match *command {
            Command::Block { index, code, count, .. } => usize::from(index) < self.latched.len() && is_performed(code, count),
            Command::Set16 { index, .. } | Command::Set32 { index, .. } => index < self.setpoints,
        };
        if is_there { 0 } else { NOT_SUPPORTED }
    }

    fn perform(&mut self, command: Command) {
        if let Command::Block { index, code, .. } = command {
            match code & 15 {
                3 => self.latched[usize::from(index)] = true,
                4 => self.latched[usize::from(index)] = false,
                _ => {}
            }
        }
        self.operated.push(command);
    }
}

struct Select {
    at: u64,
    seq: u8,
    objects: Vec<u8>,
}

/// The outputs of an outstation.
pub struct Outputs<P> {
    pub panel: P,
    select: Option<Select>,
    select_ms: u64,
}

fn four(octets: &[u8]) -> u32 {
    u32::from_le_bytes([octets[0], octets[1], octets[2], octets[3]])
}

fn command(header: &Header<'_>, index: u16, object: &[u8]) -> Command {
    match (header.group, header.variation) {
        (12, _) => Command::Block { index, code: object[0], count: object[1], on_ms: four(&object[2..]), off_ms: four(&object[6..]) },
        (_, 1) => Command::Set32 { index, value: four(object) as i32 },
        _ => Command::Set16 { index, value: i16::from_le_bytes([object[0], object[1]]) },
    }
}

/// The commands of a request, and where each has its status.
fn commands(octets: &[u8]) -> Result<Vec<(Command, usize)>, Fault> {
    let mut commands = Vec::new();
    let mut at = 2;
    for header in headers(octets)? {
        let Range::Indexed { wide, n } = header.range else {
            continue;
        };
        let prefix = 1 + usize::from(wide);
        at += 3 + prefix;
        for object in header.octets.chunks_exact((header.octets.len() / usize::from(n).max(1)).max(1)) {
            at += object.len();
            let index = if wide { u16::from_le_bytes([object[0], object[1]]) } else { u16::from(object[0]) };
            commands.push((command(&header, index, &object[prefix..]), at - 1));
        }
    }
    Ok(commands)
}

impl<P: Panel> Outputs<P> {
    pub fn new(panel: P, select_ms: u64) -> Outputs<P> {
        Outputs { panel, select: None, select_ms }
    }

    pub fn forget(&mut self) {
        self.select = None;
    }

    /// The first command of the select that stands at this moment.
    pub fn standing(&self, now: u64) -> Option<Command> {
        let select = self.select.as_ref().filter(|select| now < select.at.saturating_add(self.select_ms))?;
        let request = [&[0xC0, 3], &select.objects[..]].concat();
        Some(commands(&request).ok()?.first()?.0)
    }

    /// What each command of an OPERATE is answered because of its select; none, where it is carried out.
    fn refused(&mut self, now: u64, octets: &[u8]) -> Option<u8> {
        match self.select.take() {
            Some(s) if (s.seq + 1) % 16 == octets[0] & 15 && s.objects == octets[2..] => {
                (now >= s.at.saturating_add(self.select_ms)).then_some(1)
            }
            _ => Some(2),
        }
    }

    /// Carries out a control request: its objects with their statuses, behind room for the front of a response.
    pub fn answer(&mut self, now: u64, octets: &[u8]) -> Result<Vec<u8>, Fault> {
        let function = octets[1];
        if function != 4 {
            self.forget();
        }
        let commands = commands(octets)?;
        let mut refused = if function == 4 { self.refused(now, octets) } else { None };
        if commands.len() > P::MOST {
            refused = Some(8);
        }
        let mut answer = Vec::with_capacity(octets.len() + 2);
        answer.extend_from_slice(&[0; 4]);
        answer.extend_from_slice(&octets[2..]);
        let mut is_selected = function == 3;
        for (command, at) in commands {
            let code = refused.unwrap_or_else(|| self.panel.check(&command));
            answer[at + 2] = code;
            is_selected &= code == 0;
            if function != 3 && code == 0 {
                self.panel.perform(command);
            }
        }
        if is_selected {
            self.select = Some(Select { at: now, seq: octets[0] & 15, objects: octets[2..].to_vec() });
        }
        Ok(answer)
    }
}
