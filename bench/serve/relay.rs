//! A plain relay: relay PORT TARGET. It connects to the target for each connection that comes, and copies bytes both ways.
use std::io::{self, Read, Write};
use std::net::{Shutdown, TcpListener, TcpStream};
use std::{env, thread};

fn copy(mut from: TcpStream, mut to: TcpStream) -> io::Result<()> {
    let mut piece = [0; 4096];
    loop {
        let count = from.read(&mut piece)?;
        if count == 0 {
            return to.shutdown(Shutdown::Write);
        }
        to.write_all(&piece[..count])?;
    }
}

fn main() -> io::Result<()> {
    let ports: Vec<u16> = env::args().skip(1).map(|word| word.parse().unwrap()).collect();
    for near in TcpListener::bind(("127.0.0.1", ports[0]))?.incoming() {
        let near = near?;
        let far = TcpStream::connect(("127.0.0.1", ports[1]))?;
        near.set_nodelay(true)?;
        far.set_nodelay(true)?;
        let (near_again, far_again) = (near.try_clone()?, far.try_clone()?);
        thread::spawn(move || copy(near, far));
        thread::spawn(move || copy(far_again, near_again));
    }
    Ok(())
}
