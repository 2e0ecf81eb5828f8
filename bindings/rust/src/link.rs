//! The session that goes on.

use crate::door::{self, Secret};
use std::error::Error;
use std::fmt;
use std::ops::Range;

/// Why a link seals or opens no packet.
#[derive(Clone, Copy, Debug, PartialEq, Eq)]
pub enum LinkFault {
    /// Memory ran out, and nothing has changed: the same call may be made again.
    Memory,
    /// A payload has 1 to 32768 bytes.
    Payload,
    /// 2^31 packets, or 2^35 bytes, went in this direction: end the connection.
    UsedUp,
    /// What came is no packet; the number of the fault, 1 for P1. End the connection.
    Packet(u32),
    /// The padding seed has bytes that are all equal: nobody has drawn it.
    Draws,
}

impl fmt::Display for LinkFault {
    fn fmt(&self, f: &mut fmt::Formatter<'_>) -> fmt::Result {
        match self {
            LinkFault::Memory => f.write_str("out of memory"),
            LinkFault::Payload => f.write_str("a payload has 1 to 32768 bytes"),
            LinkFault::UsedUp => f.write_str("keys used up"),
            LinkFault::Packet(number) => write!(f, "no packet: P{number}"),
            LinkFault::Draws => f.write_str("the padding seed has bytes that are all equal"),
        }
    }
}

impl Error for LinkFault {}

/// Both directions of a session, and what was agreed. It has keys, and overwrites them when it is dropped.
///
/// **It can't know of a fork.** Where the process forks, go on with it in one process only: two that seal with one key and one packet
/// number let who listens read and forge packets.
pub struct Link {
    record: Secret,
    padding_seed: Secret,
    fields: Vec<Range<usize>>,
}

impl Link {
    pub(crate) fn new(record: Secret, padding_seed: [u8; 32]) -> Link {
        let fields = fields_of(&record.0);
        Link { record, padding_seed: Secret::copy(&padding_seed), fields }
    }

    /// Appends to `out` the packet of a payload.
    ///
    /// # Errors
    ///
    /// As [`LinkFault`] says; nothing has changed then.
    pub fn seal(&mut self, payload: &[u8], out: &mut Vec<u8>) -> Result<(), LinkFault> {
        let mut room = vec![0; 35000];
        let state = &mut self.record.0[self.fields[1].clone()];
        let answer = door::seal(state, &self.padding_seed.0, payload, &mut room);
        fault_of(answer.status, answer.fault)?;
        out.extend_from_slice(&room[..answer.len]);
        Ok(())
    }

    /// Opens the packet at the front of what was received: its payload, and how many bytes it had; none where it isn't
    /// all there.
    ///
    /// # Errors
    ///
    /// As [`LinkFault`] says.
    pub fn open(&mut self, received: &[u8]) -> Result<Option<(Vec<u8>, usize)>, LinkFault> {
        let mut room = Secret::room(35000);
        let state = &mut self.record.0[self.fields[0].clone()];
        let answer = door::open(state, received, &mut room.0);
        if answer.status == 8 {
            return Ok(None);
        }
        fault_of(answer.status, answer.fault)?;
        Ok(Some((room.0[..answer.len].to_vec(), answer.used)))
    }

    /// The session identifier.
    #[must_use]
    pub fn session_identifier(&self) -> &[u8] {
        self.field(2)
    }

    /// The user who was authenticated.
    #[must_use]
    pub fn user(&self) -> &[u8] {
        self.field(3)
    }

    /// The text of the peer's version line.
    #[must_use]
    pub fn peer_version(&self) -> &[u8] {
        self.field(6)
    }

    /// The server's public host key.
    #[must_use]
    pub fn host_key(&self) -> &[u8] {
        self.field(7)
    }

    /// Whether both sides are strict.
    #[must_use]
    pub fn is_strict(&self) -> bool {
        self.field(16) == [1]
    }

    /// The field of this number of the record, as `include/rezdolin.h` numbers them; none of the two states, which have the keys.
    #[must_use]
    pub fn field(&self, number: usize) -> &[u8] {
        match self.fields.get(number) {
            Some(place) if number > 1 => &self.record.0[place.clone()],
            _ => &[],
        }
    }
}

/// Where the fields of a record stand.
pub(crate) fn fields_of(record: &[u8]) -> Vec<Range<usize>> {
    let (mut fields, mut at) = (Vec::new(), 0);
    while let Some(size) = record.get(at..at + 4) {
        let start = at + 4;
        at = start + u32::from_be_bytes([size[0], size[1], size[2], size[3]]) as usize;
        fields.push(start..at);
    }
    fields
}

/// The fault of a status that isn't answered.
fn fault_of(status: u32, fault: u32) -> Result<(), LinkFault> {
    match status {
        0 => Ok(()),
        1 => Err(LinkFault::Memory),
        5 => Err(LinkFault::Payload),
        6 => Err(LinkFault::UsedUp),
        7 => Err(LinkFault::Packet(fault)),
        13 => Err(LinkFault::Draws),
        status => unreachable!("a link's own states and room are answered otherwise than by {status}"),
    }
}
