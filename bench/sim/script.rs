//! Scripts: a line for each thing that happens.

use crate::controls::Command;
use crate::master::Task;
use std::fmt;

#[derive(Clone, Copy, PartialEq)]
pub enum Link {
    Below(u8),
    /// To the centre of this number, from 0.
    Above(usize),
}

impl fmt::Display for Link {
    fn fmt(&self, f: &mut fmt::Formatter<'_>) -> fmt::Result {
        match self {
            Link::Below(substation) => write!(f, "{substation}"),
            Link::Above(0) => f.write_str("above"),
            Link::Above(_) => f.write_str("above2"),
        }
    }
}

#[derive(Clone, Copy, PartialEq)]
pub enum Way {
    Down,
    Up,
}

pub enum Line {
    Open(Link),
    Deliver(Link, Way),
    Repeat(Link, Way),
    Lose(Link, Way),
    Flush(Link, Way),
    Change { substation: u8, kind: u8, index: u16, value: i64, flags: u8, time: Option<u64> },
    Ask(Link, Task),
    /// At the centre of this number, for a substation.
    Issue(usize, u8, Command),
    Relay(Link),
    Pass(u64),
    Round(Link),
    Control(usize, u64),
}

/// The words of a line.
struct Words<'a> {
    words: std::str::Split<'a, char>,
    substations: usize,
}

impl Words<'_> {
    fn number<T: std::str::FromStr>(&mut self) -> Option<T> {
        let word = self.words.next()?;
        if word.starts_with('+') { None } else { word.parse().ok() }
    }

    fn substation(&mut self) -> Option<u8> {
        self.number().filter(|number| usize::from(*number) < self.substations)
    }

    fn link(&mut self) -> Option<Link> {
        let mut ahead = self.words.clone();
        let centre = match ahead.next()? {
            "above" => 0,
            "above2" => 1,
            _ => return self.substation().map(Link::Below),
        };
        self.words = ahead;
        Some(Link::Above(centre))
    }

    fn way(&mut self) -> Option<Way> {
        match self.words.next()? {
            "down" => Some(Way::Down),
            "up" => Some(Way::Up),
            _ => None,
        }
    }

    fn classes(&mut self) -> Option<[bool; 4]> {
        let mut classes = [false; 4];
        for digit in self.words.next()?.bytes() {
            let class = classes.get_mut(usize::from(digit.checked_sub(b'0')?))?;
            if std::mem::replace(class, true) {
                return None;
            }
        }
        Some(classes)
    }

    fn change(&mut self) -> Option<Line> {
        let substation = self.substation()?;
        let kind = match self.words.next()? {
            "binary" => 0,
            "counter" => 1,
            "analog" => 2,
            _ => return None,
        };
        let (index, value) = (self.number()?, self.number()?);
        let flags = self.words.next().filter(|word| word.len() == 2)?;
        let flags = u8::from_str_radix(flags, 16).ok()?;
        let time = match self.words.next()? {
            "-" => None,
            time => Some(time.parse().ok()?),
        };
        Some(Line::Change { substation, kind, index, value, flags, time })
    }

    fn command(&mut self) -> Option<Command> {
        Some(match self.words.next()? {
            "block" => Command::Block {
                index: self.number()?,
                code: self.number()?,
                count: self.number()?,
                on_ms: self.number()?,
                off_ms: self.number()?,
            },
            "set16" => Command::Set16 { index: self.number()?, value: self.number()? },
            "set32" => Command::Set32 { index: self.number()?, value: self.number()? },
            _ => return None,
        })
    }

    fn line(&mut self) -> Option<Line> {
        let line = match self.words.next()? {
            "open" => Line::Open(self.link()?),
            "deliver" => Line::Deliver(self.link()?, self.way()?),
            "repeat" => Line::Repeat(self.link()?, self.way()?),
            "lose" => Line::Lose(self.link()?, self.way()?),
            "flush" => Line::Flush(self.link()?, self.way()?),
            "change" => self.change()?,
            "poll" => Line::Ask(self.link()?, Task::Poll(self.classes()?)),
            "enable" => Line::Ask(self.link()?, Task::Enable(self.classes()?)),
            "disable" => Line::Ask(self.link()?, Task::Disable(self.classes()?)),
            "clear" => Line::Ask(self.link()?, Task::ClearRestart),
            "issue" => Line::Issue(0, self.substation()?, self.command()?),
            "issue2" => Line::Issue(1, self.substation()?, self.command()?),
            "relay" => Line::Relay(self.link()?),
            "pass" => Line::Pass(self.number()?),
            "round" => Line::Round(self.link()?),
            "control" => Line::Control(0, self.number()?),
            "control2" => Line::Control(1, self.number()?),
            _ => return None,
        };
        self.words.next().is_none().then_some(line)
    }
}

/// What a text says, or the number of the first line that doesn't fit.
pub fn read(text: &str, substations: usize) -> Result<Vec<Line>, usize> {
    let text = text.strip_suffix('\n').unwrap_or(text);
    if text.is_empty() {
        return Ok(Vec::new());
    }
    let lines = text.split('\n').enumerate();
    lines.map(|(k, line)| Words { words: line.split(' '), substations }.line().ok_or(k + 1)).collect()
}
