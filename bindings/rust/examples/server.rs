//! A server on its standard input and output: it accepts one user by a key, greets the user and closes.
//!
//!     server IDENTITY USER KEY
//!
//! IDENTITY is the file of the host key, which `ssh-keygen -t ed25519` wrote without a passphrase. KEY is the only key that is accepted:
//! the second word of its `.pub` file. OpenSSH's client tries it by `ssh -o ProxyCommand='server IDENTITY USER KEY' USER@HOST`, whatever
//! HOST is. The status is 0 if the user is authenticated and was greeted, else 1; standard error has the reason. After 60 seconds it
//! ends, whatever the client does.

mod deadline;
mod keys;

use keys::{blob_of, draw, key_in};
use rezdolin::{Draws, HostKey, Link, Proof, Server, ServerParts, Stands};
use std::error::Error;
use std::ffi::OsString;
use std::io::{ErrorKind, Read, Write};
use std::process::ExitCode;
use std::time::Duration;

const LIMIT: Duration = Duration::from_secs(60);

/// Prints a line to standard error, if it can be printed.
fn tell(line: &str) {
    let _ = writeln!(std::io::stderr(), "{line}");
}

/// Sends all of it.
fn send(out: &[u8]) -> Result<(), Box<dyn Error>> {
    let mut output = std::io::stdout().lock();
    match output.write_all(out).and_then(|()| output.flush()) {
        Err(why) if why.kind() == ErrorKind::BrokenPipe => Err("the client has gone".into()),
        sent => Ok(sent?),
    }
}

/// Carries a server of these parts over standard input and output until it has ended.
fn carry(parts: ServerParts) -> Result<Server, Box<dyn Error>> {
    let (mut out, mut piece) = (Vec::new(), [0; 4096]);
    let mut server = Server::begin(parts, &mut out)?;
    send(&out)?;
    while server.stands() == &Stands::Open {
        let count = std::io::stdin().read(&mut piece)?;
        if count == 0 {
            return Err("the client has gone".into());
        }
        out.clear();
        server.step(&piece[..count], &mut out)?;
        send(&out)?;
    }
    Ok(server)
}

/// Why a server has no authenticated user.
fn why_not(stands: &Stands) -> String {
    match stands {
        Stands::Failed { fault: 13, .. } => "F13: the client tried too often".into(),
        Stands::Failed { fault, detail } => format!("F{fault} {detail}"),
        Stands::Closed(reason) => format!("the client disconnected, reason {reason}"),
        other => format!("{other:?}"),
    }
}

/// The packet that greets the user: a DISCONNECT with reason 11 and a description, which clients print (RFC 4253 section 11.1).
fn greeting(link: &mut Link) -> Result<Vec<u8>, Box<dyn Error>> {
    let (text, mut out) = ([b"hello ", link.user()].concat(), Vec::new());
    let size = u32::try_from(text.len())?.to_be_bytes();
    link.seal(&[&[1, 0, 0, 0, 11], &size[..], &text, &[0; 4]].concat(), &mut out)?;
    Ok(out)
}

/// What is printed of an authenticated user.
fn run() -> Result<String, Box<dyn Error>> {
    let words: Result<Vec<String>, OsString> = std::env::args_os().skip(1).map(OsString::into_string).collect();
    let words = words.map_err(|word| format!("{word:?} isn't UTF-8"))?;
    let [identity, user, key] = &words[..] else {
        return Err("words: IDENTITY USER KEY".into());
    };
    if user.is_empty() {
        return Err("USER: it has no letter".into());
    }
    let key = blob_of(key).ok_or("KEY: it is no public key of ssh-ed25519")?;
    let host_key = key_in(identity, |key| HostKey::Here(*key)).map_err(|why| format!("{identity}: {why}"))?;
    deadline::set(LIMIT, "server: the client takes too long")?;
    let draws = Draws { cookie: draw()?, exchange_random: draw()?, padding_seed: draw()? };
    let server = carry(ServerParts::new(draws, host_key, vec![(user.clone(), Proof::Key(key))]))?;
    let why = why_not(server.stands());
    let mut link = server.into_link(draw()?).ok_or(why)?;
    send(&greeting(&mut link)?)?;
    Ok(format!("{} from {}", link.user().escape_ascii(), link.peer_version().escape_ascii()))
}

fn main() -> ExitCode {
    match run() {
        Ok(told) => {
            tell(&told);
            ExitCode::SUCCESS
        }
        Err(why) => {
            tell(&format!("server: {why}"));
            ExitCode::FAILURE
        }
    }
}
