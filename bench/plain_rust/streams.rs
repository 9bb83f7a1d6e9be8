//! Link frames in a stream that comes in pieces.

const BLOCK: usize = 16;
const CHECKED_HEADER: usize = 10;

const fn table() -> [u16; 256] {
    let mut table = [0u16; 256];
    let mut octet = 0;
    while octet < 256 {
        let mut word = octet as u16;
        let mut bit = 0;
        while bit < 8 {
            word = if word & 1 == 1 { word >> 1 ^ 0xA6BC } else { word >> 1 };
            bit += 1;
        }
        table[octet] = word;
        octet += 1;
    }
    table
}

static TABLE: [u16; 256] = table();

pub fn check_word(octets: &[u8]) -> u16 {
    !octets.iter().fold(0u16, |word, octet| {
        word >> 8 ^ TABLE[((word ^ u16::from(*octet)) & 0xFF) as usize]
    })
}

fn is_checked(octets: &[u8], word: &[u8]) -> bool {
    check_word(octets) == u16::from_le_bytes([word[0], word[1]])
}

pub struct Frame {
    pub control: u8,
    pub dest: u16,
    pub source: u16,
    user: [u8; 250],
    count: usize,
}

impl Frame {
    pub fn user(&self) -> &[u8] {
        &self.user[..self.count]
    }
}

/// The frame that a unit of octets is, if it is one.
#[allow(dead_code)]
pub fn frame_of(unit: &[u8]) -> Option<Frame> {
    let is_header = unit.len() >= CHECKED_HEADER && unit[..2] == [0x05, 0x64] && unit[2] >= 5 && is_checked(&unit[..8], &unit[8..10]);
    if !is_header || unit.len() != size_of(usize::from(unit[2] - 5)) {
        return None;
    }
    read_frame(unit)
}

/// How many octets a frame with so many of user data has.
fn size_of(user: usize) -> usize {
    CHECKED_HEADER + user + 2 * user.div_ceil(BLOCK)
}

/// The frame of a header that was checked, with its blocks.
fn read_frame(unit: &[u8]) -> Option<Frame> {
    let mut frame = Frame {
        control: unit[3],
        dest: u16::from_le_bytes([unit[4], unit[5]]),
        source: u16::from_le_bytes([unit[6], unit[7]]),
        user: [0; 250],
        count: 0,
    };
    for block in unit[CHECKED_HEADER..].chunks(BLOCK + 2) {
        let (octets, word) = block.split_at(block.len() - 2);
        if !is_checked(octets, word) {
            return None;
        }
        frame.user[frame.count..frame.count + octets.len()].copy_from_slice(octets);
        frame.count += octets.len();
    }
    Some(frame)
}

#[derive(Default)]
pub struct FrameReader {
    waiting: Vec<u8>,
}

impl FrameReader {
    pub fn feed(&mut self, piece: &[u8], out: &mut Vec<Frame>) {
        self.waiting.extend_from_slice(piece);
        let mut done = 0;
        while self.waiting.len() - done >= CHECKED_HEADER {
            let rest = &self.waiting[done..];
            if rest[0] != 0x05 || rest[1] != 0x64 || !is_checked(&rest[..8], &rest[8..10]) {
                done += 1;
                continue;
            }
            if rest[2] < 5 {
                done += CHECKED_HEADER;
                continue;
            }
            let size = size_of(usize::from(rest[2] - 5));
            if rest.len() < size {
                break;
            }
            if let Some(frame) = read_frame(&rest[..size]) {
                out.push(frame);
            }
            done += size;
        }
        self.waiting.drain(..done);
    }
}

/// Feeds the octets in pieces of so many, and adds up a number of each frame.
///
/// # Safety
/// `octets` points to `count` octets.
#[no_mangle]
pub unsafe extern "C" fn plain_feed(octets: *const u8, count: usize, piece: usize) -> u64 {
    let stream = std::slice::from_raw_parts(octets, count);
    let mut reader = FrameReader::default();
    let mut frames = Vec::new();
    let mut sum = 0u64;
    for octets in stream.chunks(piece.max(1)) {
        reader.feed(octets, &mut frames);
        for frame in &frames {
            let user = frame.user();
            let picked = user.get(user.len() / 2).copied().unwrap_or(0);
            sum = sum.wrapping_mul(31).wrapping_add(
                u64::from(frame.control)
                    | u64::from(frame.dest) << 8
                    | u64::from(frame.source) << 24
                    | (user.len() as u64) << 40
                    | u64::from(picked) << 48,
            );
        }
        frames.clear();
    }
    sum
}
