//! Signatures by keys that an ssh-agent has, over its socket (draft-ietf-sshm-ssh-agent). What the agent says is limited in time and
//! length, and a signature is verified before it is given.

use rezdolin::{Verdict, is_signed};
use std::io::{Error, ErrorKind, Read, Result, Write};
use std::os::unix::net::UnixStream;
use std::path::Path;
use std::time::{Duration, Instant};

/// How long an agent may take, in which a person may have to touch a token.
pub const LIMIT: Duration = Duration::from_secs(60);
/// The longest response that is read, without its length, and the longest signature.
const RESPONSE_LIMIT: usize = 16384;
const SIGNATURE_LIMIT: usize = 8192;

/// A string (RFC 4251 section 5).
fn string(bytes: &[u8]) -> Vec<u8> {
    [&u32::try_from(bytes.len()).expect("a request is short").to_be_bytes(), bytes].concat()
}

/// The string at the front of these bytes, and what stands after it.
fn string_in(bytes: &[u8]) -> Option<(&[u8], &[u8])> {
    let (size, rest) = bytes.split_first_chunk::<4>()?;
    rest.split_at_checked(usize::try_from(u32::from_be_bytes(*size)).ok()?)
}

/// What is left until the deadline.
fn left(deadline: Instant) -> Result<Duration> {
    let left = deadline.saturating_duration_since(Instant::now());
    if left.is_zero() { Err(Error::other("the agent takes too long")) } else { Ok(left) }
}

/// Reads so many bytes, until the deadline.
fn receive(agent: &mut UnixStream, len: usize, deadline: Instant) -> Result<Vec<u8>> {
    let (mut bytes, mut count) = (vec![0; len], 0);
    while count < len {
        agent.set_read_timeout(Some(left(deadline)?))?;
        match agent.read(&mut bytes[count..]) {
            Ok(0) => return Err(Error::other("the agent's response is cut off")),
            Ok(more) => count += more,
            // (then no time is left, or it reads on)
            Err(why) if matches!(why.kind(), ErrorKind::WouldBlock | ErrorKind::Interrupted) => {}
            Err(why) => return Err(why),
        }
    }
    Ok(bytes)
}

/// The agent's response to a request: the number of the message, and its body.
fn asked(path: &Path, request: &[u8], deadline: Instant) -> Result<(u8, Vec<u8>)> {
    let mut agent = UnixStream::connect(path)?;
    agent.set_write_timeout(Some(left(deadline)?))?;
    agent.write_all(&string(request))?;
    let size = receive(&mut agent, 4, deadline)?;
    let size = size.iter().fold(0, |sum, byte| sum << 8 | usize::from(*byte));
    if size == 0 || size > RESPONSE_LIMIT {
        return Err(Error::other(format!("the agent's response has {size} bytes")));
    }
    let mut body = receive(&mut agent, size, deadline)?;
    Ok((body.remove(0), body))
}

/// Whether a key is one of those that the library verifies no signature of: of ECDSA, or on a token. No RSA key is.
fn is_unverified(algorithm: &[u8], key: &[u8]) -> bool {
    let is_named = string_in(key).is_some_and(|(kind, _)| kind == algorithm);
    is_named && (algorithm.starts_with(b"ecdsa-sha2-") || algorithm.starts_with(b"sk-"))
}

/// The signature of an input by a key that the agent has; none where the agent refuses. One that is wrong is an error: a faulty one of RSA
/// can give the private key away.
pub fn sign(path: &Path, limit: Duration, algorithm: &[u8], key: &[u8], input: &[u8]) -> Result<Option<Vec<u8>>> {
    // by which hash an RSA key signs
    let flags = match algorithm {
        b"rsa-sha2-256" => 2_u32,
        b"rsa-sha2-512" => 4,
        _ => 0,
    };
    let request = [&[13], &string(key)[..], &string(input), &flags.to_be_bytes()].concat();
    let (kind, body) = asked(path, &request, Instant::now() + limit)?;
    let signature = match (kind, string_in(&body)) {
        (5, _) => return Ok(None),
        (14, Some((signature, []))) => signature,
        _ => return Err(Error::other("the agent's response can't be read")),
    };
    if signature.len() > SIGNATURE_LIMIT {
        return Err(Error::other("the agent's signature is too long"));
    }
    match is_signed(algorithm, key, input, signature) {
        Verdict::Right => Ok(Some(signature.to_vec())),
        Verdict::NotLookedAt if is_unverified(algorithm, key) => Ok(Some(signature.to_vec())),
        Verdict::Wrong => Err(Error::other("the agent's signature is wrong")),
        Verdict::NotLookedAt => Err(Error::other("the agent's signature can't be verified")),
    }
}
