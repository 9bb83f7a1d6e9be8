//! A plain Rust outstation that serves one TCP connection after the other, as `dnp outstation` does, over the frame
//! reader, the end of a link and the outstation of `plain_rust/`.
//!
//! `server EVENTS PIECE` prints the port that it listens on. An analog changes EVENTS times before each READ, and PIECE
//! octets at most are read of the connection at a time.

#[path = "../plain_rust/controls.rs"]
mod controls;
#[path = "../plain_rust/fragments.rs"]
mod fragments;
#[path = "../plain_rust/links.rs"]
mod links;
#[path = "../plain_rust/outstation.rs"]
mod outstation;
#[path = "../plain_rust/streams.rs"]
mod streams;

use links::{pieces, Port};
use outstation::{Actions, Outstation};
use std::io::{self, Read, Write};
use std::net::{TcpListener, TcpStream};
use std::time::{Duration, Instant};
use streams::FrameReader;

const OWN: u16 = 10;
const PEER: u16 = 2;
const SILENCE: Option<Duration> = Some(Duration::from_secs(300));

/// One connection: what came in part, and what goes out.
struct Connection {
    port: Port,
    out: Vec<u8>,
}

impl Connection {
    fn put_all(&mut self, actions: Actions) {
        for fragment in actions.send.iter().chain(&actions.report) {
            for piece in pieces(fragment) {
                self.port.write_segment(&piece, &mut self.out);
            }
        }
    }
}

/// The outstation, its clock and how often it was read.
struct Station {
    outstation: Outstation,
    start: Instant,
    events: u16,
    reads: u64,
}

impl Station {
    fn receive(&mut self, fragment: &[u8]) -> Actions {
        let now = self.start.elapsed().as_millis() as u64;
        if fragment.get(1) == Some(&1) {
            let turn = self.reads % 65_536;
            self.reads += 1;
            for event in 0..self.events {
                let value = turn as i64 * 256 + i64::from(event) + 1;
                self.outstation.change(now, 2, 0, value, 1, Some(1_000 + turn));
            }
        }
        self.outstation.receive(now, fragment)
    }
}

fn serve(mut stream: TcpStream, station: &mut Station, most: usize) -> io::Result<()> {
    stream.set_nodelay(true)?;
    stream.set_read_timeout(SILENCE)?;
    stream.set_write_timeout(SILENCE)?;
    let mut connection = Connection { port: Port::new(OWN, PEER, false), out: Vec::new() };
    let mut reader = FrameReader::default();
    let mut frames = Vec::new();
    let mut piece = vec![0; most];
    connection.put_all(station.outstation.opened(station.start.elapsed().as_millis() as u64));
    stream.write_all(&connection.out)?;
    loop {
        let count = stream.read(&mut piece)?;
        if count == 0 {
            return Ok(());
        }
        reader.feed(&piece[..count], &mut frames);
        for frame in frames.drain(..) {
            let Connection { port, out } = &mut connection;
            out.clear();
            let (is_whole, reply) = port.take(&frame);
            if let Some(function) = reply {
                port.write_frame(function, &[], out);
            }
            if is_whole {
                let actions = station.receive(port.fragment());
                connection.put_all(actions);
            }
            stream.write_all(&connection.out)?;
        }
    }
}

fn main() {
    let mut words = std::env::args().skip(1).map(|word| word.parse().expect("a number"));
    let (Some(events), Some(most)) = (words.next(), words.next()) else {
        panic!("server EVENTS PIECE");
    };
    let listener = TcpListener::bind(("127.0.0.1", 0)).expect("a port");
    println!("{}", listener.local_addr().expect("an address").port());
    let outstation = Outstation::of_class_1([400, 300, 300], 200, [0, 0], false);
    let mut station = Station { outstation, start: Instant::now(), events: events as u16, reads: 0 };
    for stream in listener.incoming() {
        if let Err(cause) = stream.and_then(|stream| serve(stream, &mut station, most)) {
            eprintln!("server: a connection: {cause}");
        }
        station.outstation.hung_up();
    }
}
