//! A master that measures outstations over TCP connections on this machine, one for each. It makes the link frames and
//! the segments itself, and checks of each answer its frames, segments, sequence numbers, function, indications and how
//! many rows it has; it shares nothing with the outstations.
//!
//! `client ROUNDS ROW NAME PROVED PLAIN` prints the line NAME of the table. ROW is `status`, `garbage`, `values` or
//! `polls:EVENTS`, and PROVED and PLAIN are each PORT/PROCESS of an outstation, or `-` where there is none. It goes
//! through the servers in turns, and the best round of each counts. Exit status 1: what they answered differs.

use std::error::Error;
use std::io::{Read, Write};
use std::net::TcpStream;
use std::time::{Duration, Instant};

type Res<T> = Result<T, Box<dyn Error>>;

const OUTSTATION: u16 = 10;
const MASTER: u16 = 2;
const READ_EVENTS: &[u8] = &[0x3C, 2, 6, 0x3C, 3, 6, 0x3C, 4, 6];
const READ_VALUES: &[u8] = &[0x3C, 1, 6];
const CLEAR_RESTART: &[u8] = &[0x50, 1, 0, 7, 7, 0];
const REQUEST_LINK_STATUS: u8 = 0xC9;
const LINK_STATUS: u8 = 0x0B;
const GARBAGE: usize = 1_000_000;

const TABLE: [u16; 256] = {
    let mut table = [0; 256];
    let mut k = 0;
    while k < 256 {
        let mut word = k as u16;
        let mut bit = 0;
        while bit < 8 {
            word = word >> 1 ^ (word & 1) * 0xA6BC;
            bit += 1;
        }
        table[k] = word;
        k += 1;
    }
    table
};

/// The octets with their check word behind them.
fn put_checked(block: &[u8], out: &mut Vec<u8>) {
    let word = block.iter().fold(0u16, |word, octet| word >> 8 ^ TABLE[usize::from(word as u8 ^ octet)]);
    out.extend_from_slice(block);
    out.extend_from_slice(&(!word).to_le_bytes());
}

/// The octets in front of the check word that ends them, where it is theirs.
fn checked(octets: &[u8]) -> Res<&[u8]> {
    let block = &octets[..octets.len() - 2];
    let mut wanted = Vec::with_capacity(18);
    put_checked(block, &mut wanted);
    if wanted != octets {
        return Err(format!("a wrong check word: {octets:02X?}").into());
    }
    Ok(block)
}

/// The link frame of these user octets.
fn frame(control: u8, user: &[u8]) -> Vec<u8> {
    let mut header = [0x05, 0x64, 5 + user.len() as u8, control, 0, 0, 0, 0];
    header[4..6].copy_from_slice(&OUTSTATION.to_le_bytes());
    header[6..].copy_from_slice(&MASTER.to_le_bytes());
    let mut unit = Vec::with_capacity(292);
    put_checked(&header, &mut unit);
    for block in user.chunks(16) {
        put_checked(block, &mut unit);
    }
    unit
}

/// How many rows the objects of a response have: events of analogs with times, or present values in ranges.
fn rows(objects: &[u8]) -> Res<usize> {
    let mut count = 0;
    let mut rest = objects;
    while let [group, variation, qualifier, a, b, behind @ ..] = rest {
        let first = u16::from_le_bytes([*a, *b]);
        let (n, size, behind) = match ([*group, *variation, *qualifier], behind) {
            ([32, 3, 0x28], _) => (usize::from(first), 13, behind),
            ([1, 2, 1] | [20, 1, 1] | [30, 1, 1], [c, d, behind @ ..]) => {
                let last = u16::from_le_bytes([*c, *d]);
                let more = last.checked_sub(first).ok_or("a range is backward")?;
                (usize::from(more) + 1, if *group == 1 { 1 } else { 5 }, behind)
            }
            _ => return Err(format!("an unknown header: {:02X?}", &rest[..5]).into()),
        };
        count += n;
        rest = behind.get(n * size..).ok_or("objects are cut")?;
    }
    if rest.is_empty() { Ok(count) } else { Err("a header is cut".into()) }
}

/// A connection to an outstation, and what was measured over it.
struct Master {
    stream: TcpStream,
    process: String,
    /// What came, and how much of it was read.
    came: Vec<u8>,
    at: usize,
    /// The numbers of the next segment each way, and of the next request.
    sends: u8,
    awaits: u8,
    seq: u8,
    /// A number of all fragments that came.
    sum: u64,
    /// The seconds of the best round, and the least that the server's process ran in one.
    best: f64,
    ran: f64,
}

impl Master {
    fn connect(server: &str) -> Res<Master> {
        let (port, process) = server.split_once('/').ok_or("a server is PORT/PROCESS")?;
        let stream = TcpStream::connect(("127.0.0.1", port.parse()?))?;
        stream.set_nodelay(true)?;
        stream.set_read_timeout(Some(Duration::from_secs(30)))?;
        Ok(Master {
            stream,
            process: process.to_string(),
            came: Vec::new(),
            at: 0,
            sends: 0,
            awaits: 0,
            seq: 0,
            sum: 0,
            best: f64::INFINITY,
            ran: f64::INFINITY,
        })
    }

    /// The next so many octets that come.
    fn octets(&mut self, count: usize) -> Res<&[u8]> {
        if self.at == self.came.len() {
            self.came.clear();
            self.at = 0;
        }
        while self.came.len() < self.at + count {
            let mut piece = [0; 4_096];
            match self.stream.read(&mut piece)? {
                0 => return Err("the connection ended".into()),
                n => self.came.extend_from_slice(&piece[..n]),
            }
        }
        self.at += count;
        Ok(&self.came[self.at - count..self.at])
    }

    /// The CONTROL of the next frame, and its user octets.
    fn frame(&mut self) -> Res<(u8, Vec<u8>)> {
        let header = checked(self.octets(10)?)?;
        let ([start @ .., _, control], addresses) = header.split_at(4) else { unreachable!() };
        let wanted = [MASTER.to_le_bytes(), OUTSTATION.to_le_bytes()].concat();
        if start != [0x05, 0x64] || header[2] < 5 || addresses != wanted {
            return Err(format!("another frame: {header:02X?}").into());
        }
        let (control, count) = (*control, usize::from(header[2]) - 5);
        let mut user = Vec::with_capacity(count);
        for block in self.octets(count + 2 * count.div_ceil(16))?.chunks(18) {
            user.extend_from_slice(checked(block)?);
        }
        Ok((control, user))
    }

    fn send(&mut self, fragment: &[u8]) -> Res<()> {
        let user = [&[0xC0 | self.sends], fragment].concat();
        self.sends = (self.sends + 1) % 64;
        Ok(self.stream.write_all(&frame(0xC4, &user))?)
    }

    /// The next fragment that comes.
    fn fragment(&mut self) -> Res<Vec<u8>> {
        let mut fragment = Vec::new();
        loop {
            let (control, user) = self.frame()?;
            let [head, data @ ..] = &user[..] else { return Err("a frame without data".into()) };
            let wanted = self.awaits | if fragment.is_empty() { 0x40 } else { 0 };
            if control != 0x44 || head & 0x7F != wanted || data.is_empty() {
                return Err(format!("another segment: {control:02X} {head:02X}, not {wanted:02X}").into());
            }
            self.awaits = (self.awaits + 1) % 64;
            fragment.extend_from_slice(data);
            if head & 0x80 != 0 {
                break;
            }
        }
        let numbers = fragment.chunks(8).map(|part| part.iter().fold(0, |n, octet| n << 8 | u64::from(*octet)));
        self.sum = numbers.fold(self.sum, |sum, n| sum.wrapping_mul(31).wrapping_add(n));
        Ok(fragment)
    }

    /// Asks, confirms each fragment of the response that asks for it, and checks all: so many rows have to come.
    fn ask(&mut self, function: u8, objects: &[u8], wanted: usize) -> Res<()> {
        self.send(&[&[0xC0 | self.seq, function], objects].concat())?;
        let (mut first, mut count) = (0x80, 0);
        loop {
            let fragment = self.fragment()?;
            let [control, 0x81, 0, 0, objects @ ..] = &fragment[..] else {
                return Err(format!("another response: {:02X?}", &fragment[..fragment.len().min(4)]).into());
            };
            if control & 0x9F != first | self.seq {
                return Err(format!("another CONTROL: {control:02X}").into());
            }
            if control & 0x20 != 0 {
                self.send(&[0xC0 | self.seq, 0])?;
            }
            self.seq = (self.seq + 1) % 16;
            first = 0;
            count += rows(objects)?;
            if control & 0x40 != 0 {
                break;
            }
        }
        if count == wanted { Ok(()) } else { Err(format!("{count} rows, not {wanted}").into()) }
    }

    /// Sends these octets and asks for the link's status, which alone has to come back.
    fn status(&mut self, before: &[u8]) -> Res<()> {
        self.stream.write_all(before)?;
        self.stream.write_all(&frame(REQUEST_LINK_STATUS, &[]))?;
        match self.frame()? {
            (LINK_STATUS, user) if user.is_empty() => Ok(()),
            (control, _) => Err(format!("another reply: {control:02X}").into()),
        }
    }

    /// How long the server's process has run so far, in seconds.
    fn running(&self) -> Res<f64> {
        let text = std::fs::read_to_string(format!("/proc/{}/schedstat", self.process))?;
        Ok(text.split(' ').next().unwrap_or("").parse::<f64>()? / 1e9)
    }

    fn round(&mut self, row: &Row, garbage: &[u8]) -> Res<()> {
        let ran = self.running()?;
        let start = Instant::now();
        for _ in 0..row.count {
            match row.work {
                Work::Status => self.status(&[])?,
                Work::Garbage => self.status(garbage)?,
                Work::Values => self.ask(1, READ_VALUES, 1_000)?,
                Work::Polls(events) => self.ask(1, READ_EVENTS, events)?,
            }
        }
        self.best = self.best.min(start.elapsed().as_secs_f64());
        self.ran = self.ran.min(self.running()? - ran);
        Ok(())
    }
}

/// What is done over and over.
enum Work {
    Status,
    Garbage,
    Values,
    Polls(usize),
}

/// What is done so many times a round, and counts for so many of the unit each time.
struct Row {
    work: Work,
    count: usize,
    each: f64,
    unit: &'static str,
}

fn row_of(word: &str) -> Res<Row> {
    let (work, count, each, unit) = match word.split_once(':') {
        None if word == "status" => (Work::Status, 1_000, 1.0, "/s"),
        None if word == "garbage" => (Work::Garbage, 5, GARBAGE as f64 / 1e6, "M/s"),
        None if word == "values" => (Work::Values, 200, 1.0, "/s"),
        Some(("polls", events)) => {
            let events: usize = events.parse()?;
            (Work::Polls(events), 1_000 / (1 + events / 32), 1.0, "/s")
        }
        _ => return Err(format!("no such row: {word}").into()),
    };
    Ok(Row { work, count, each, unit })
}

/// Random octets, always the same.
fn garbage() -> Vec<u8> {
    let mut state = 0x9E37_79B9_7F4A_7C15u64;
    let octet = |_| {
        state ^= state << 13;
        state ^= state >> 7;
        state ^= state << 17;
        (state >> 56) as u8
    };
    (0..GARBAGE).map(octet).collect()
}

/// Where there is a number, it with so many digits.
fn shown(number: Option<f64>, digits: usize) -> String {
    number.map_or("-".into(), |x| format!("{x:.digits$}"))
}

/// The line of the row: rates and their ratio, then the microseconds that each server ran for one, and their ratio.
fn line(name: &str, row: &Row, proved: Option<&Master>, plain: Option<&Master>) -> String {
    let total = row.count as f64 * row.each;
    let rate = |way: Option<&Master>| shown(way.map(|m| total / m.best), 0);
    let micros = |way: Option<&Master>| shown(way.map(|m| m.ran / total * 1e6), 1);
    let both = proved.zip(plain);
    let (faster, lighter) = (both.map(|(a, b)| b.best / a.best), both.map(|(a, b)| b.ran / a.ran));
    let rates = format!("{:>9} {:>9} {:<4}{:>5}", rate(proved), rate(plain), row.unit, shown(faster, 2));
    format!("{name:<43} {rates} {:>9} {:>9} {:>5}", micros(proved), micros(plain), shown(lighter, 2))
}

/// Measures and prints a row; whether the servers answered alike.
fn measure(rounds: usize, name: &str, row: &Row, servers: &[String]) -> Res<bool> {
    let garbage = garbage();
    let mut ways = Vec::new();
    for server in servers {
        ways.push(if server == "-" { None } else { Some(Master::connect(server)?) });
    }
    for master in ways.iter_mut().flatten() {
        master.ask(2, CLEAR_RESTART, 0)?;
    }
    for _ in 0..rounds {
        for master in ways.iter_mut().flatten() {
            master.round(row, &garbage)?;
        }
    }
    let [proved, plain] = &ways[..] else { return Err("there are PROVED and PLAIN".into()) };
    let (proved, plain) = (proved.as_ref(), plain.as_ref());
    let is_same = proved.zip(plain).map_or(true, |(a, b)| a.sum == b.sum);
    println!("{}{}", line(name, row, proved, plain), if is_same { "" } else { "  THE SUMS DIFFER" });
    Ok(is_same)
}

fn run() -> Res<bool> {
    let words: Vec<String> = std::env::args().skip(1).collect();
    let [rounds, row, name, servers @ ..] = &words[..] else {
        return Err("client ROUNDS ROW NAME PROVED PLAIN".into());
    };
    measure(rounds.parse()?, name, &row_of(row)?, servers)
}

fn main() {
    match run() {
        Ok(true) => {}
        Ok(false) => std::process::exit(1),
        Err(fault) => {
            eprintln!("client: {fault}");
            std::process::exit(3);
        }
    }
}
