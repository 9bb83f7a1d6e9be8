//! Application fragments: responses are read and their rows walked, and event responses are built.

#[derive(Clone, Copy)]
pub enum Fault {
    Short,
    Function,
    HeaderCut,
    Object,
    Qualifier,
    Backward,
    ObjectsCut,
    CommonTime,
}

#[derive(Clone, Copy)]
pub enum Range {
    All,
    Span { first: u16, last: u16 },
    Count { n: u16 },
    Indexed { wide: bool, n: u16 },
}

#[derive(Clone, Copy)]
pub struct Header<'a> {
    pub group: u8,
    pub variation: u8,
    pub range: Range,
    pub octets: &'a [u8],
    /// The common time that stands before it, if its objects give their times after one.
    pub common: Option<u64>,
}

#[derive(Clone, Copy, PartialEq)]
pub enum Form {
    Read,
    Control,
    Response,
}

/// The octets of an object, and which qualifiers go with it.
fn takes(form: Form, group: u8, variation: u8) -> Option<(usize, &'static [u8])> {
    const ALL: &[u8] = &[0x06];
    const ALL_OR_COUNT: &[u8] = &[0x06, 0x07, 0x08];
    const ALL_OR_SPAN: &[u8] = &[0x00, 0x01, 0x06];
    const SPAN: &[u8] = &[0x00, 0x01];
    const COUNT: &[u8] = &[0x07, 0x08];
    const INDEXED: &[u8] = &[0x17, 0x28];
    const ANY: &[u8] = &[0x00, 0x01, 0x17, 0x28];
    Some(match (form, group, variation) {
        (Form::Read, 60, 1) => (0, ALL),
        (Form::Read, 60, 2..=4) => (0, ALL_OR_COUNT),
        (Form::Read, 2 | 22 | 32, 0) | (Form::Read, 2, 2) | (Form::Read, 22, 5) | (Form::Read, 32, 3) => (0, ALL_OR_COUNT),
        (Form::Read, 1 | 10 | 20 | 30, 0) | (Form::Read, 1 | 10, 2) | (Form::Read, 20 | 30, 1) => (0, ALL_OR_SPAN),
        (Form::Control | Form::Response, 12, 1) => (11, INDEXED),
        (Form::Control | Form::Response, 41, 1) => (5, INDEXED),
        (Form::Control | Form::Response, 41, 2) => (3, INDEXED),
        (Form::Response, 1 | 10, 2) | (Form::Response, 2, 1) => (1, ANY),
        (Form::Response, 2, 2) => (7, ANY),
        (Form::Response, 2, 3) => (3, INDEXED),
        (Form::Response, 20 | 22 | 30 | 32 | 40, 1) => (5, ANY),
        (Form::Response, 20 | 22 | 30 | 32 | 40, 2) => (3, ANY),
        (Form::Response, 20, 5) | (Form::Response, 30, 3) => (4, ANY),
        (Form::Response, 20, 6) | (Form::Response, 30, 4) => (2, ANY),
        (Form::Response, 22, 5) | (Form::Response, 32, 3) => (11, ANY),
        (Form::Response, 22, 6) | (Form::Response, 32, 4) => (9, ANY),
        (Form::Response, 50, 1) | (Form::Response, 51, 1 | 2) => (6, COUNT),
        (Form::Response, 52, 2) => (2, COUNT),
        (Form::Response, 1, 1) | (Form::Response, 80, 1) => (0, SPAN),
        _ => return None,
    })
}

fn number(wide: bool, octets: &mut &[u8]) -> Result<u16, Fault> {
    let (number, rest) = match (wide, *octets) {
        (false, [one, rest @ ..]) => (u16::from(*one), rest),
        (true, [low, high, rest @ ..]) => (u16::from_le_bytes([*low, *high]), rest),
        _ => return Err(Fault::HeaderCut),
    };
    *octets = rest;
    Ok(number)
}

/// The header at the front, and what stands behind it.
fn header(form: Form, octets: &[u8]) -> Result<(Header<'_>, &[u8]), Fault> {
    let [group, variation, qualifier, behind @ ..] = octets else {
        return Err(Fault::HeaderCut);
    };
    let mut rest = behind;
    let (size, qualifiers) = takes(form, *group, *variation).ok_or(Fault::Object)?;
    if !qualifiers.contains(qualifier) {
        return Err(Fault::Qualifier);
    }
    let wide = matches!(qualifier, 0x01 | 0x08 | 0x28);
    let range = match qualifier {
        0x00 | 0x01 => {
            let first = number(wide, &mut rest)?;
            let last = number(wide, &mut rest)?;
            if last < first {
                return Err(Fault::Backward);
            }
            Range::Span { first, last }
        }
        0x06 => Range::All,
        0x07 | 0x08 => Range::Count { n: number(wide, &mut rest)? },
        _ => Range::Indexed { wide, n: number(wide, &mut rest)? },
    };
    let count = count(range);
    let wanted = match (form, range) {
        (Form::Read, _) => 0,
        (_, Range::Indexed { wide, .. }) => count * (size + 1 + usize::from(wide)),
        _ if size == 0 => (count + 7) / 8,
        _ => count * size,
    };
    if rest.len() < wanted {
        return Err(Fault::ObjectsCut);
    }
    let (octets, rest) = rest.split_at(wanted);
    Ok((Header { group: *group, variation: *variation, range, octets, common: None }, rest))
}

pub fn count(range: Range) -> usize {
    match range {
        Range::All => 0,
        Range::Span { first, last } => usize::from(last - first) + 1,
        Range::Count { n } | Range::Indexed { n, .. } => usize::from(n),
    }
}

/// The headers of a fragment that was read.
#[derive(Clone, Copy)]
pub struct Headers<'a> {
    form: Form,
    rest: &'a [u8],
    common: Option<u64>,
}

impl<'a> Headers<'a> {
    /// The next header, with the common time after which its objects give their times.
    fn step(&mut self) -> Result<Header<'a>, Fault> {
        let (mut header, rest) = header(self.form, self.rest)?;
        self.rest = rest;
        match (header.group, header.variation) {
            (51, _) => self.common = header.octets.chunks_exact(6).last().map(time).or(self.common),
            (2, 3) => header.common = self.common,
            _ => {}
        }
        Ok(header)
    }
}

impl<'a> Iterator for Headers<'a> {
    type Item = Header<'a>;

    fn next(&mut self) -> Option<Header<'a>> {
        self.step().ok()
    }
}

/// Whether each time is there that the header's objects give after a common one, and is under 2^48.
fn is_timed(header: &Header<'_>) -> bool {
    if (header.group, header.variation) != (2, 3) {
        return true;
    }
    let size = header.octets.len() / count(header.range).max(1);
    let mut objects = header.octets.chunks_exact(size.max(1));
    header.common.is_some_and(|common| objects.all(|object| common + after(&object[size - 2..]) < 1 << 48))
}

/// A time after a common one, in ms.
fn after(octets: &[u8]) -> u64 {
    u64::from(u16::from_le_bytes([octets[0], octets[1]]))
}

/// The headers of a READ, of a control request or of a response, or the first fault.
pub fn headers(octets: &[u8]) -> Result<Headers<'_>, Fault> {
    let (form, rest) = match octets {
        [_, 1, rest @ ..] => (Form::Read, rest),
        [_, 3..=6, rest @ ..] => (Form::Control, rest),
        [_, 129 | 130, _, _, rest @ ..] => (Form::Response, rest),
        [_, 129 | 130, ..] | [] | [_] => return Err(Fault::Short),
        _ => return Err(Fault::Function),
    };
    let all = Headers { form, rest, common: None };
    let mut left = all;
    while !left.rest.is_empty() {
        if !is_timed(&left.step()?) {
            return Err(Fault::CommonTime);
        }
    }
    Ok(all)
}

/// The binaries are of kind 0, the counters of 1, the analogs of 2.
#[derive(Clone, Copy, PartialEq)]
pub struct Row {
    pub kind: u8,
    pub index: u16,
    pub flags: u8,
    pub value: i64,
    pub time: Option<u64>,
}

fn time(octets: &[u8]) -> u64 {
    u64::from_le_bytes([octets[0], octets[1], octets[2], octets[3], octets[4], octets[5], 0, 0])
}

/// The rows of a header whose objects are rows.
pub fn rows<'a>(header: Header<'a>) -> Option<impl Iterator<Item = Row> + 'a> {
    let (kind, flags, width, timed) = match (header.group, header.variation) {
        (1, 2) | (2, 1) => (0, 1, 0, 0),
        (2, 2) => (0, 1, 0, 6),
        (2, 3) => (0, 1, 0, 2),
        (20 | 22, 1) => (1, 1, 4, 0),
        (20 | 22, 2) => (1, 1, 2, 0),
        (20, 5) => (1, 0, 4, 0),
        (20, 6) => (1, 0, 2, 0),
        (22, 5) => (1, 1, 4, 6),
        (22, 6) => (1, 1, 2, 6),
        (30 | 32, 1) => (2, 1, 4, 0),
        (30 | 32, 2) => (2, 1, 2, 0),
        (30, 3) => (2, 0, 4, 0),
        (30, 4) => (2, 0, 2, 0),
        (32, 3) => (2, 1, 4, 6),
        (32, 4) => (2, 1, 2, 6),
        _ => return None,
    };
    let (first, prefix) = match header.range {
        Range::Span { first, .. } => (first, 0),
        Range::Indexed { wide, .. } => (0, 1 + usize::from(wide)),
        _ => return None,
    };
    let size = prefix + flags + width + timed;
    let common = header.common.unwrap_or(0);
    Some(header.octets.chunks_exact(size).enumerate().map(move |(k, octets)| {
        let index = match prefix {
            0 => first + k as u16,
            1 => u16::from(octets[0]),
            _ => u16::from_le_bytes([octets[0], octets[1]]),
        };
        let octets = &octets[prefix..];
        let (own, octets) = if flags == 1 { (octets[0], &octets[1..]) } else { (1, octets) };
        let value = match (kind, width) {
            (0, _) => i64::from(own >> 7),
            (1, 4) => i64::from(u32::from_le_bytes([octets[0], octets[1], octets[2], octets[3]])),
            (1, _) => i64::from(u16::from_le_bytes([octets[0], octets[1]])),
            (_, 4) => i64::from(i32::from_le_bytes([octets[0], octets[1], octets[2], octets[3]])),
            _ => i64::from(i16::from_le_bytes([octets[0], octets[1]])),
        };
        let time = match timed {
            6 => Some(time(&octets[width..])),
            2 => Some(common + after(octets)),
            _ => None,
        };
        Row { kind, index, flags: if kind == 0 { own & 0x7F } else { own }, value, time }
    }))
}

/// Reads the fragment, walks its headers and rows, and makes a number of them; all ones where it is
/// refused.
///
/// # Safety
/// `octets` points to `count` octets.
#[no_mangle]
pub unsafe extern "C" fn plain_walk(octets: *const u8, count: usize) -> u64 {
    let fragment = std::slice::from_raw_parts(octets, count);
    let Ok(headers) = headers(fragment) else {
        return u64::MAX;
    };
    let mut sum = 0u64;
    for header in headers {
        sum = sum.wrapping_mul(31).wrapping_add(u64::from(header.group) << 8 | u64::from(header.variation));
        if let Some(rows) = rows(header) {
            for row in rows {
                sum = sum.wrapping_mul(31).wrapping_add(
                    u64::from(row.index)
                        ^ u64::from(row.flags) << 16
                        ^ (row.value as u64) << 24
                        ^ row.time.unwrap_or(0),
                );
            }
        }
    }
    sum
}

/// A response of events: 32.3 with their indices behind each other, as many as fit.
struct Builder {
    octets: Vec<u8>,
    run: Option<(u8, u8, usize)>,
}

struct Full;

impl Builder {
    const MOST: usize = 2_044;

    fn event(&mut self, index: u16, flags: u8, value: i32, time: u64) -> Result<(), Full> {
        let (group, variation) = (32, 3);
        let at = match self.run {
            Some((g, v, at)) if (g, v) == (group, variation) => {
                if self.octets.len() + 13 > Builder::MOST {
                    return Err(Full);
                }
                at
            }
            _ => {
                if self.octets.len() + 5 + 13 > Builder::MOST {
                    return Err(Full);
                }
                let at = self.octets.len() + 3;
                self.octets.extend_from_slice(&[group, variation, 0x28, 0, 0]);
                self.run = Some((group, variation, at));
                at
            }
        };
        let n = u16::from_le_bytes([self.octets[at], self.octets[at + 1]]) + 1;
        self.octets[at..at + 2].copy_from_slice(&n.to_le_bytes());
        self.octets.extend_from_slice(&index.to_le_bytes());
        self.octets.push(flags);
        self.octets.extend_from_slice(&value.to_le_bytes());
        self.octets.extend_from_slice(&time.to_le_bytes()[..6]);
        Ok(())
    }

    fn finish(self, control: u8) -> Vec<u8> {
        let mut fragment = Vec::with_capacity(2_048);
        fragment.extend_from_slice(&[control, 129, 0, 0]);
        fragment.extend_from_slice(&self.octets);
        fragment
    }
}

/// An event, by a call that stays one.
#[inline(never)]
fn event_apart(builder: &mut Builder, index: u16, flags: u8, value: i32, time: u64) -> Result<(), Full> {
    builder.event(index, flags, value, time)
}

/// Builds `count` responses, each of `most` events or as many as fit in one, and makes a number of them;
/// the turn makes each one another. Each event is a call apart, or stands in the loop.
#[inline(always)]
fn build<const APART: bool>(count: u64, most: u16) -> u64 {
    let mut sum = 0u64;
    for turn in 0..count {
        let turn = turn % 65_536;
        let mut builder = Builder { octets: Vec::with_capacity(2_048), run: None };
        let (value, time) = (turn as i32 & 0xFFFF, 1_000 + turn);
        for index in 0..most {
            let put = if APART { event_apart(&mut builder, index, 1, value, time) } else { builder.event(index, 1, value, time) };
            if put.is_err() {
                break;
            }
        }
        let fragment = builder.finish(0xE0 | turn as u8 & 15);
        let number = fragment.iter().step_by(97).fold(fragment.len() as u64, |sum, octet| sum.wrapping_mul(31).wrapping_add(u64::from(*octet)));
        sum = sum.wrapping_mul(31).wrapping_add(number);
    }
    sum
}

#[no_mangle]
pub extern "C" fn plain_build(count: u64, most: u16) -> u64 {
    build::<false>(count, most)
}

#[no_mangle]
pub extern "C" fn plain_build_apart(count: u64, most: u16) -> u64 {
    build::<true>(count, most)
}
