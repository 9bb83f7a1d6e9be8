//! The report at the end of a script.

use crate::controls::Command;
use crate::fragments::Row;
use crate::world::World;
use std::fmt;
use std::io::{self, Write};

impl fmt::Display for Row {
    fn fmt(&self, f: &mut fmt::Formatter<'_>) -> fmt::Result {
        let kind = ["binary", "counter", "analog"][usize::from(self.kind)];
        write!(f, "{kind} {} {} {:02X} ", self.index, self.value, self.flags)?;
        match self.time {
            Some(time) => write!(f, "{time}"),
            None => f.write_str("-"),
        }
    }
}

impl fmt::Display for Command {
    fn fmt(&self, f: &mut fmt::Formatter<'_>) -> fmt::Result {
        match *self {
            Command::Block { index, code, count, on_ms, off_ms } => write!(f, "block {index} {code} {count} {on_ms} {off_ms}"),
            Command::Set16 { index, value } => write!(f, "set16 {index} {value}"),
            Command::Set32 { index, value } => write!(f, "set32 {index} {value}"),
        }
    }
}

fn list<T: fmt::Display>(name: &str, things: &[(u8, T)], out: &mut impl Write) -> io::Result<()> {
    writeln!(out, "{name} {}", things.len())?;
    things.iter().try_for_each(|(substation, thing)| writeln!(out, " {substation} {thing}"))
}

pub fn print(world: &mut World, out: &mut impl Write) -> io::Result<()> {
    for (name, centre) in ["journal", "journal2"].into_iter().zip(0..) {
        list(name, &world.journal_below(centre), out)?;
    }
    for (name, centre) in ["queue", "queue2"].into_iter().zip(0..) {
        list(name, &world.queue_below(centre), out)?;
    }
    for (name, centre) in ["dropped", "dropped2"].into_iter().zip(0..) {
        list(name, &world.dropped_below(centre), out)?;
    }
    list("confirmed", &world.history.confirmed, out)?;
    list("buffered", &world.buffered(), out)?;
    list("overwritten", &world.history.overwritten, out)?;
    list::<Row>("gone", &[], out)?;
    list("issued", &world.history.issued, out)?;
    list("operated", &world.history.operated, out)?;
    writeln!(out, "lost {}", world.lost(0))?;
    writeln!(out, "lost2 {}", world.lost(1))
}
