//! A station's end of a link: the data link layer's answers, and the segments of fragments.

use crate::streams::{check_word, Frame};

const MOST_FRAGMENT: usize = 2_048;
const SEGMENT: usize = 249;

/// Joins segments to fragments.
#[derive(Default)]
struct Assembler {
    fragment: Vec<u8>,
    /// The last segment of a series that goes on.
    last: Vec<u8>,
    is_joining: bool,
}

impl Assembler {
    /// Whether the segment completes a fragment.
    fn push(&mut self, segment: &[u8]) -> bool {
        let [head, data @ ..] = segment else {
            return false;
        };
        if data.is_empty() {
            return false;
        }
        if head & 0x40 != 0 {
            self.fragment.clear();
        } else if !self.is_joining || self.last == segment {
            return false;
        } else if (self.last[0].wrapping_add(1) ^ head) & 0x3F != 0 {
            self.is_joining = false;
            return false;
        }
        self.is_joining = false;
        if self.fragment.len() + data.len() > MOST_FRAGMENT {
            return false;
        }
        self.fragment.extend_from_slice(data);
        if head & 0x80 != 0 {
            return true;
        }
        self.is_joining = true;
        self.last.clear();
        self.last.extend_from_slice(segment);
        false
    }
}

pub struct Port {
    own: u16,
    peer: u16,
    is_master: bool,
    /// Which frame count bit it expects, once the link states were reset.
    expected: Option<bool>,
    assembler: Assembler,
    /// The number of the next segment.
    number: u8,
}

impl Port {
    pub fn new(own: u16, peer: u16, is_master: bool) -> Port {
        Port { own, peer, is_master, expected: None, assembler: Assembler::default(), number: 0 }
    }

    /// Forgets what was sent and what came.
    #[allow(dead_code)]
    pub fn reset(&mut self) {
        self.expected = None;
        self.assembler.is_joining = false;
        self.number = 0;
    }

    fn counts(&mut self, frame: &Frame) -> bool {
        let bit = frame.control & 0x20 != 0;
        let is_new = self.expected == Some(bit);
        if is_new {
            self.expected = Some(!bit);
        }
        is_new
    }

    /// Whether the frame's user data go up, and the function of the reply.
    fn hear(&mut self, frame: &Frame) -> (bool, Option<u8>) {
        let direction = if self.is_master { 0x40 } else { 0xC0 };
        if (frame.dest, frame.source, frame.control & 0xC0) != (self.own, self.peer, direction) {
            return (false, None);
        }
        match frame.control & 15 {
            0 => {
                self.expected = Some(true);
                (false, Some(0))
            }
            2 | 3 if self.expected.is_none() => (false, Some(1)),
            2 => {
                self.counts(frame);
                (false, Some(0))
            }
            3 => (self.counts(frame), Some(0)),
            4 => (true, None),
            9 => (false, Some(11)),
            _ => (false, Some(15)),
        }
    }

    /// Whether the frame completes a fragment, and the function of the reply.
    pub fn take(&mut self, frame: &Frame) -> (bool, Option<u8>) {
        let (goes_up, reply) = self.hear(frame);
        (goes_up && self.assembler.push(frame.user()), reply)
    }

    /// The fragment that a frame completed.
    pub fn fragment(&self) -> &[u8] {
        &self.assembler.fragment
    }

    /// Appends the frame of this function and these user octets.
    pub fn write_frame(&self, function: u8, user: &[u8], out: &mut Vec<u8>) {
        let direction = if self.is_master { 0x80 } else { 0 };
        let mut header = [0x05, 0x64, user.len() as u8 + 5, direction | function, 0, 0, 0, 0];
        header[4..6].copy_from_slice(&self.peer.to_le_bytes());
        header[6..].copy_from_slice(&self.own.to_le_bytes());
        for block in std::iter::once(&header[..]).chain(user.chunks(16)) {
            out.extend_from_slice(block);
            out.extend_from_slice(&check_word(block).to_le_bytes());
        }
    }

    /// Appends the frame of the next segment, which has this piece of a fragment.
    pub fn write_segment(&mut self, piece: &Piece<'_>, out: &mut Vec<u8>) {
        let mut user = [0; SEGMENT + 1];
        user[0] = u8::from(piece.is_first) << 6 | u8::from(piece.is_last) << 7 | self.number;
        let user = &mut user[..=piece.octets.len()];
        user[1..].copy_from_slice(piece.octets);
        self.write_frame(0x44, user, out);
        self.number = (self.number + 1) % 64;
    }
}

/// What of a fragment goes into one segment.
pub struct Piece<'a> {
    octets: &'a [u8],
    is_first: bool,
    is_last: bool,
}

/// The pieces of a fragment.
pub fn pieces(fragment: &[u8]) -> impl Iterator<Item = Piece<'_>> {
    let count = fragment.len().div_ceil(SEGMENT);
    let of = move |(k, octets)| Piece { octets, is_first: k == 0, is_last: k + 1 == count };
    fragment.chunks(SEGMENT).enumerate().map(of)
}
