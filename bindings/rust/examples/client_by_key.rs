//! A client over TCP: it authenticates by a key from OpenSSH's file, and prints how that ended.
//!
//!     client_by_key HOST:PORT USER IDENTITY HOST-KEY
//!
//! IDENTITY is a file that `ssh-keygen -t ed25519` wrote without a passphrase. HOST-KEY is the only host key that is trusted: the
//! second word of its `.pub` file, or the last one of its line in `known_hosts`. The status is 0 if the user is authenticated, else 1;
//! standard error has the reason.

mod keys;

use keys::{blob_of, draw, key_in};
use rezdolin::{Client, ClientParts, Draws, Proof, Stands};
use std::error::Error;
use std::ffi::OsString;
use std::io::{ErrorKind, Read, Write};
use std::net::TcpStream;
use std::process::ExitCode;
use std::time::{Duration, Instant};

const LIMIT: Duration = Duration::from_secs(60);

/// Reads what there is, until the deadline.
fn receive(stream: &mut TcpStream, piece: &mut [u8], deadline: Instant) -> Result<usize, Box<dyn Error>> {
    let left = deadline.saturating_duration_since(Instant::now());
    if left.is_zero() {
        return Err("the server takes too long".into()); // of bytes that keep coming no read takes long
    }
    stream.set_read_timeout(Some(left))?;
    match stream.read(piece) {
        Ok(0) => Err("the server has gone".into()),
        Err(why) if why.kind() == ErrorKind::WouldBlock => Err("the server takes too long".into()),
        read => Ok(read?),
    }
}

/// Carries a client over a stream until it has ended.
fn carry(stream: &mut TcpStream, user: &str, key: Proof, host_key: Vec<u8>) -> Result<Client, Box<dyn Error>> {
    let (mut out, mut piece, deadline) = (Vec::new(), [0; 4096], Instant::now() + LIMIT);
    let draws = Draws { cookie: draw()?, exchange_random: draw()?, padding_seed: draw()? };
    let mut client = Client::begin(ClientParts::new(draws, user, vec![key], vec![host_key]), &mut out)?;
    stream.write_all(&out)?;
    while client.stands() == &Stands::Open {
        let count = receive(stream, &mut piece, deadline)?;
        out.clear();
        client.step(&piece[..count], &mut out)?;
        stream.write_all(&out)?;
    }
    Ok(client)
}

/// Why a client isn't authenticated.
fn why_not(stands: &Stands) -> String {
    match stands {
        Stands::Failed { fault: 10, .. } => "F10: the host key isn't trusted".into(),
        Stands::Failed { fault: 14, .. } => "F14: the server doesn't accept the key".into(),
        Stands::Failed { fault, detail } => format!("F{fault} {detail}"),
        Stands::Closed(reason) => format!("the server disconnected, reason {reason}"),
        other => format!("{other:?}"),
    }
}

/// What is printed of an authenticated client.
fn run() -> Result<String, Box<dyn Error>> {
    let words: Result<Vec<String>, OsString> = std::env::args_os().skip(1).map(OsString::into_string).collect();
    let words = words.map_err(|word| format!("{word:?} isn't UTF-8"))?;
    let [address, user, identity, host_key] = &words[..] else {
        return Err("words: HOST:PORT USER IDENTITY HOST-KEY".into());
    };
    let host_key = blob_of(host_key).ok_or("HOST-KEY: it is no public key of ssh-ed25519")?;
    let key = key_in(identity, |key| Proof::Key(key.to_vec())).map_err(|why| format!("{identity}: {why}"))?;
    let mut stream = TcpStream::connect(address).map_err(|why| format!("{address}: {why}"))?;
    stream.set_write_timeout(Some(LIMIT))?;
    let client = carry(&mut stream, user, key, host_key)?;
    let why = why_not(client.stands());
    let link = client.into_link(draw()?).ok_or(why)?;
    Ok(format!("{} at {}", link.user().escape_ascii(), link.peer_version().escape_ascii()))
}

fn main() -> ExitCode {
    match run() {
        Ok(told) => {
            println!("{told}");
            ExitCode::SUCCESS
        }
        Err(why) => {
            eprintln!("client_by_key: {why}");
            ExitCode::FAILURE
        }
    }
}
