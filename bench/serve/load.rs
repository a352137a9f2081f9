//! Applications that load a DRDA gateway, a relay or a member: load PORT MODE CLIENTS UNITS.
//!
//! `units`: each client runs so many units of work over one connection, each an INSERT, an UPDATE and RDBCMM, so three round trips.
//! `sessions`: each client runs so many units over a connection of its own each, an INSERT and RDBCMM after access.
//! `checked`: the same, and the 194 bytes that a gateway answers are compared.
//!
//! It writes how many units were run in how many microseconds, and ends with status 1 where one went wrong.
use std::io::{Read, Write};
use std::net::TcpStream;
use std::time::Instant;
use std::{env, io, process, thread};

fn ebcdic(text: &str) -> Vec<u8> {
    text.bytes()
        .map(|c| match c {
            b' ' => 0x40,
            b'(' => 0x4D,
            b')' => 0x5D,
            b'\'' => 0x7D,
            b',' => 0x6B,
            b'=' => 0x7E,
            b'0'..=b'9' => 0xF0 + (c - b'0'),
            b'A'..=b'I' => 0xC1 + (c - b'A'),
            b'J'..=b'R' => 0xD1 + (c - b'J'),
            b'S'..=b'Z' => 0xE2 + (c - b'S'),
            _ => panic!("a character without a code"),
        })
        .collect()
}

fn bytes(digits: &str) -> Vec<u8> {
    (0..digits.len() / 2).map(|i| u8::from_str_radix(&digits[2 * i..2 * i + 2], 16).unwrap()).collect()
}

/// EXCSAT with ACCSEC, and SECCHK with ACCRDB.
const ACCESS: [&str; 2] = [
    "\
0022D0410001001C1041001814041403000724070007240F00071440000714740005\
0026D00100020020106D000611A2000300162110E2C1D4D7D3C5404040404040404040404040",
    "\
0039D04100010033106E000611A20003000911A0C1D3C9C3C5000A11A1E2C5C3D9C5E300162110E2C1D4D7D3C5404040404040404040404040\
0049D0010002004320010006210F2407000C112EE2C3D9F0F1F0F1F0000D002FD8E3C4E2D8D3F3F7F000162110E2C1D4D7D3C5404040404040404040404040000A00350006119C0025",
];

const COMMIT: &str = "000AD00100010004200E";

/// What a gateway answers to one unit, chain by chain.
const ANSWERS: [&str; 4] = [
    "\
003FD043000100391443000A1147C4D9C4C1C7E6000B116DC7C1E3C5E6C1E80008115AC7E6F0F1001814041403000724070007240F00071440000714740005\
0010D0030002000A14AC000611A20003",
    "0015D0420001000F1219000611490000000511A4000033D0020002002D2201000611490000000C112EC7D9D7F0F1F0F1F0000D002FD8E3C4E2D8D3F3F7F0000A00350006119C0025",
    "000BD003000100052408FF",
    "0015D0520001000F220C0006114900040005211501000BD003000100052408FF",
];

/// EXCSQLIMM of a statement.
fn statement(text: &str) -> Vec<u8> {
    let text = ebcdic(text);
    let mut chain = bytes("000AD05100010004200A");
    let data = 4 + 1 + 4 + text.len() + 1;
    chain.extend(((data + 6) as u16).to_be_bytes());
    chain.extend(bytes("D0030001"));
    chain.extend((data as u16).to_be_bytes());
    chain.extend(bytes("241400"));
    chain.extend((text.len() as u32).to_be_bytes());
    chain.extend(text);
    chain.push(0xFF);
    chain
}

struct Link {
    stream: TcpStream,
    read: Vec<u8>,
}

impl Link {
    fn connect(port: u16) -> io::Result<Link> {
        let stream = TcpStream::connect(("127.0.0.1", port))?;
        stream.set_nodelay(true)?;
        Ok(Link { stream, read: Vec::new() })
    }

    /// Sends a chain and reads its whole reply.
    fn ask(&mut self, chain: &[u8]) -> io::Result<Vec<u8>> {
        self.stream.write_all(chain)?;
        let mut end = 0;
        loop {
            while self.read.len() >= end + 6 {
                let length = usize::from(u16::from_be_bytes([self.read[end], self.read[end + 1]]));
                let chained = self.read[end + 3] & 0x40 != 0;
                if self.read.len() < end + length {
                    break;
                }
                end += length;
                if !chained {
                    let rest = self.read.split_off(end);
                    return Ok(std::mem::replace(&mut self.read, rest));
                }
            }
            let mut piece = [0; 4096];
            let count = self.stream.read(&mut piece)?;
            if count == 0 {
                return Err(io::ErrorKind::UnexpectedEof.into());
            }
            self.read.extend(&piece[..count]);
        }
    }

    /// Asks, and wants a reply that ends with a SQLCARD that is null.
    fn succeed(&mut self, chain: &[u8]) -> io::Result<()> {
        let reply = self.ask(chain)?;
        if reply.ends_with(&[0x24, 0x08, 0xFF]) { Ok(()) } else { Err(io::Error::other("a statement failed")) }
    }
}

fn run_units(port: u16, client: u32, units: u32) -> io::Result<()> {
    let mut link = Link::connect(port)?;
    for chain in ACCESS {
        link.ask(&bytes(chain))?;
    }
    let commit = bytes(COMMIT);
    for unit in 0..units {
        let key = client * 1_000_000 + unit;
        link.succeed(&statement(&format!("INSERT INTO T VALUES ({key}, 'A')")))?;
        link.succeed(&statement(&format!("UPDATE T SET V = 'B' WHERE K = {key}")))?;
        link.succeed(&commit)?;
    }
    Ok(())
}

fn run_session(port: u16, key: u32, checked: bool) -> io::Result<()> {
    let mut link = Link::connect(port)?;
    let insert = statement(&format!("INSERT INTO T VALUES ({key}, 'A')"));
    let chains = [bytes(ACCESS[0]), bytes(ACCESS[1]), insert, bytes(COMMIT)];
    for (chain, answer) in chains.iter().zip(ANSWERS) {
        let reply = link.ask(chain)?;
        if checked && reply != bytes(answer) {
            return Err(io::Error::other("a reply differs"));
        }
    }
    link.stream.shutdown(std::net::Shutdown::Write)?;
    match link.stream.read(&mut [0])? {
        0 => Ok(()),
        _ => Err(io::Error::other("more bytes came")),
    }
}

fn run(port: u16, mode: &str, client: u32, units: u32) -> io::Result<()> {
    match mode {
        "units" => run_units(port, client, units),
        _ => (0..units).try_for_each(|unit| run_session(port, client * 1_000_000 + unit, mode == "checked")),
    }
}

fn main() {
    let words: Vec<String> = env::args().collect();
    let [_, port, mode, clients, units] = &words[..] else {
        eprintln!("usage: load PORT units|sessions|checked CLIENTS UNITS");
        process::exit(2);
    };
    let (port, clients, units) = (port.parse().unwrap(), clients.parse().unwrap(), units.parse().unwrap());
    let began = Instant::now();
    let failed = thread::scope(|scope| {
        let all: Vec<_> = (0..clients).map(|client| scope.spawn(move || run(port, mode, client, units))).collect();
        all.into_iter().filter_map(|one| one.join().unwrap().err()).collect::<Vec<_>>()
    });
    println!("{} {}", clients * units, began.elapsed().as_micros());
    if let Some(error) = failed.first() {
        eprintln!("load: {} clients failed, the first by: {error}", failed.len());
        process::exit(1);
    }
}
