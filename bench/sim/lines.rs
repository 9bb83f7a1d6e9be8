//! The lines between the two stations of a link, and the ports at their ends.

use crate::links::{pieces, Port};
use crate::outstation::Actions;
use crate::streams::frame_of;
use std::collections::VecDeque;

/// So many losses in a row break a line.
const BROKEN_LOSSES: u8 = 32;

/// Units on their way to one end, the front first.
#[derive(Default)]
pub struct Line {
    units: VecDeque<Vec<u8>>,
    /// How many were lost in a row.
    lost: u8,
}

impl Line {
    pub fn len(&self) -> usize {
        self.units.len()
    }

    fn is_broken(&self) -> bool {
        self.lost >= BROKEN_LOSSES
    }

    fn send(&mut self, port: &mut Port, fragment: &[u8]) {
        for piece in pieces(fragment) {
            let mut unit = Vec::with_capacity(292);
            port.write_segment(&piece, &mut unit);
            if !self.is_broken() {
                self.units.push_back(unit);
            }
        }
    }

    /// Brings the front unit to a port, and keeps it where it is repeated. Whether that completes a fragment.
    pub fn bring(&mut self, port: &mut Port, is_repeated: bool) -> bool {
        let Some(unit) = self.units.pop_front() else {
            return false;
        };
        self.lost = 0;
        let is_whole = frame_of(&unit).is_some_and(|frame| port.take(&frame).0);
        if is_repeated {
            self.units.push_front(unit);
        }
        is_whole
    }

    pub fn lose(&mut self) {
        if self.units.pop_front().is_some() {
            self.lost += 1;
            if self.is_broken() {
                self.units.clear();
            }
        }
    }

    fn clear(&mut self) {
        self.units.clear();
        self.lost = 0;
    }
}

/// The lines of a link: down to the outstation and up to the master.
pub struct Channel {
    pub down: Line,
    pub up: Line,
    pub outstation: Port,
    pub master: Port,
}

impl Channel {
    pub fn new(outstation: u16, master: u16) -> Channel {
        Channel {
            down: Line::default(),
            up: Line::default(),
            outstation: Port::new(outstation, master, false),
            master: Port::new(master, outstation, true),
        }
    }

    pub fn clear(&mut self) {
        self.down.clear();
        self.up.clear();
        self.outstation.reset();
        self.master.reset();
    }

    pub fn is_quiet(&self) -> bool {
        [&self.down, &self.up].iter().all(|line| line.len() == 0 && !line.is_broken())
    }

    pub fn send_down(&mut self, fragment: &[u8]) {
        self.down.send(&mut self.master, fragment);
    }

    pub fn send_up(&mut self, actions: &Actions) {
        for fragment in actions.send.iter().chain(&actions.report) {
            self.up.send(&mut self.outstation, fragment);
        }
    }
}
