//! A client over TCP: it authenticates by a password, or by a key that an agent has, and tells what was agreed.
//!
//!     client HOST:PORT USER SECRET KEY-FILE
//!
//! SECRET is the password; or `@` and the path of a public key's bytes, by which the agent of `SSH_AUTH_SOCK` signs (of an RSA key by
//! rsa-sha2-512). KEY-FILE has the host key's bytes, which `cut -d' ' -f2 host.pub | base64 -d` gives, as it does of another public
//! key; where it is `-`, a person is asked. The status is 0 if the user is authenticated, else 1; standard error has the reason. After
//! two minutes it ends, whatever the server does.

mod agent;
mod deadline;
mod person;

use rezdolin::{Answer, Client, ClientParts, Draws, Proof, PublicKey, Question, Stands};
use std::error::Error;
use std::fs::File;
use std::io::{Read, Write};
use std::net::TcpStream;
use std::process::ExitCode;
use std::time::Duration;

const LIMIT: Duration = Duration::from_secs(120);

/// Random bytes of the system.
fn draw<const N: usize>() -> std::io::Result<[u8; N]> {
    let mut bytes = [0; N];
    File::open("/dev/urandom")?.read_exact(&mut bytes)?;
    Ok(bytes)
}

/// Answers a question, by the host key that is trusted, and the agent.
fn answer(client: &mut Client, trusted: Option<&[u8]>, out: &mut Vec<u8>) -> Result<(), Box<dyn Error>> {
    let Stands::Asks(question) = client.stands().clone() else { return Ok(()) };
    match question {
        Question::HostKey { key, .. } => {
            let is_yes = match trusted {
                Some(trusted) => key == trusted,
                None => person::is_trusted(&key, || Ok(draw::<1>()?[0]))?,
            };
            client.answer(is_yes, out)?;
        }
        Question::Signature { algorithm, key, input } => {
            let path = std::env::var("SSH_AUTH_SOCK")?;
            let signature = agent::sign(path.as_ref(), agent::LIMIT, &algorithm, &key, &input)?;
            client.answer(signature.as_deref().map_or(Answer::NoSignature, Answer::Signature), out)?;
        }
        Question::User { .. } => unreachable!("a client isn't asked who is accepted"),
    }
    Ok(())
}

/// Carries the client over a stream until it has ended.
fn carry(
    stream: &mut (impl Read + Write),
    client: &mut Client,
    trusted: Option<&[u8]>,
    mut out: Vec<u8>,
) -> Result<(), Box<dyn Error>> {
    let mut piece = [0; 4096];
    loop {
        stream.write_all(&out)?;
        out.clear();
        match client.stands() {
            Stands::Open => match stream.read(&mut piece)? {
                0 => return Err("the server has gone".into()),
                count => client.step(&piece[..count], &mut out)?,
            },
            Stands::Asks(_) => answer(client, trusted, &mut out)?,
            _ => return Ok(()),
        }
    }
}

/// What is printed of an authenticated user.
fn run() -> Result<String, Box<dyn Error>> {
    let words: Vec<String> = std::env::args().skip(1).collect();
    let [address, user, secret, path] = &words[..] else {
        return Err("words: HOST:PORT USER SECRET KEY-FILE".into());
    };
    deadline::set(LIMIT, "client: it takes too long")?;
    let draws = Draws { cookie: draw()?, exchange_random: draw()?, padding_seed: draw()? };
    let proof = match secret.strip_prefix('@') {
        None => Proof::Password(secret.clone().into_bytes()),
        Some(path) => {
            let blob = std::fs::read(path)?;
            let algorithm = if blob.starts_with(b"\0\0\0\x07ssh-rsa") { "rsa-sha2-512" } else { "ssh-ed25519" };
            Proof::Signed(PublicKey { algorithm: algorithm.into(), blob })
        }
    };
    let trusted = if path == "-" { None } else { Some(std::fs::read(path)?) };
    let mut out = Vec::new();
    let mut client = Client::begin(ClientParts::asking(draws, user, vec![proof]), &mut out)?;
    carry(&mut TcpStream::connect(address)?, &mut client, trusted.as_deref(), out)?;
    let stands = client.stands().clone();
    let link = client.into_link(draw()?).ok_or_else(|| format!("{stands:?}"))?;
    Ok(format!("{} at {}", link.user().escape_ascii(), link.peer_version().escape_ascii()))
}

fn main() -> ExitCode {
    match run() {
        Ok(told) => {
            println!("{told}");
            ExitCode::SUCCESS
        }
        Err(why) => {
            eprintln!("client: {why}");
            ExitCode::FAILURE
        }
    }
}
