//! Keys as OpenSSH writes them, and random bytes.

use rezdolin::read_identity;
use std::error::Error;
use std::fs::File;
use std::io::Read;

const TEXT_ROOM: usize = 65536;

/// Random bytes of the system.
pub fn draw<const N: usize>() -> std::io::Result<[u8; N]> {
    let mut bytes = [0; N];
    File::open("/dev/urandom")?.read_exact(&mut bytes)?;
    Ok(bytes)
}

/// Overwrites a secret. The hint keeps the compiler from leaving that out.
fn wipe(bytes: &mut [u8]) {
    bytes.fill(0);
    std::hint::black_box(bytes);
}

/// What is made of the private key in a file; the key itself is overwritten.
pub fn key_in<T>(path: &str, make: impl FnOnce(&[u8; 32]) -> T) -> Result<T, Box<dyn Error>> {
    let mut text = Vec::with_capacity(TEXT_ROOM + 1);
    File::open(path)?.take(TEXT_ROOM as u64).read_to_end(&mut text)?;
    let read = std::str::from_utf8(&text).map(read_identity);
    wipe(&mut text);
    let mut key = read??;
    let made = make(&key);
    wipe(&mut key);
    Ok(made)
}

/// The public key of ssh-ed25519 that these digits of base64 spell.
pub fn blob_of(digits: &str) -> Option<Vec<u8>> {
    const ALL: &[u8] = b"ABCDEFGHIJKLMNOPQRSTUVWXYZabcdefghijklmnopqrstuvwxyz0123456789+/";
    let mut blob = Vec::new();
    for four in digits.as_bytes().chunks(4) {
        let mut bits = 0;
        for digit in four {
            bits = bits << 6 | u32::try_from(ALL.iter().position(|it| it == digit)?).ok()?;
        }
        blob.extend_from_slice(&bits.to_be_bytes()[1..]);
    }
    (digits.len() == 68 && blob.starts_with(b"\0\0\0\x0bssh-ed25519\0\0\0\x20")).then_some(blob)
}
