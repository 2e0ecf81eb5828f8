//! What an endpoint asks whoever runs it, and what is answered.

use crate::door;
use crate::link::fields_of;
use std::fmt;

/// A question. All of it but `number` and `signed` may be what the peer wants it to be.
#[derive(Clone, PartialEq, Eq)]
pub enum Question {
    /// Of a client: is this public key the server's? It is answered by yes or no.
    HostKey {
        /// The algorithm that was chosen.
        algorithm: Vec<u8>,
        /// The public key, as the server sent it.
        key: Vec<u8>,
    },
    /// Of a server: is what this request claims accepted, or would the key of this query do? It is answered by yes or no. A yes to a
    /// request accepts the user, unless more is required; a yes to a query accepts nobody. A request whose signature is wrong is
    /// refused without a question.
    User {
        /// The number of the request or query, counted from 1.
        number: u32,
        /// The user's name.
        user: Vec<u8>,
        /// The service that is to start.
        service: Vec<u8>,
        /// By what: nothing, a password, or a public key.
        proof: super::Proof,
        /// Whether the request has a signature by this key, which has been verified: a yes to it can be logged as a login by the key.
        /// A query has none, nor has a request by nothing or by a password.
        signed: bool,
    },
    /// A signature by a key that is elsewhere. It is answered by the signature, or by none.
    Signature {
        /// The algorithm to sign by.
        algorithm: Vec<u8>,
        /// The public key.
        key: Vec<u8>,
        /// What is to be signed.
        input: Vec<u8>,
    },
}

/// What is answered to a question.
#[derive(Clone, Copy, PartialEq, Eq)]
pub enum Answer<'a> {
    /// Yes.
    Yes,
    /// No.
    No,
    /// A signature, as an agent gives it: the algorithm's name and the signature's own bytes, each as a string (RFC 4253 section 6.6).
    Signature(&'a [u8]),
    /// No signature: a client tries the method `none` in its place, a server ends as F9.
    NoSignature,
}

impl From<bool> for Answer<'_> {
    fn from(is_yes: bool) -> Self {
        if is_yes { Answer::Yes } else { Answer::No }
    }
}

impl<'a> Answer<'a> {
    pub(crate) fn call(self) -> door::Call<'a> {
        match self {
            Answer::Yes => door::Call::Answer(1, b""),
            Answer::No => door::Call::Answer(2, b""),
            Answer::Signature(signature) => door::Call::Answer(3, signature),
            Answer::NoSignature => door::Call::Answer(4, b""),
        }
    }
}

impl fmt::Debug for Question {
    /// Without proofs: passwords are never printed.
    fn fmt(&self, f: &mut fmt::Formatter<'_>) -> fmt::Result {
        match self {
            Question::HostKey { key, .. } => write!(f, "HostKey({} bytes)", key.len()),
            Question::User { number, user, .. } => write!(f, "User({number}, {})", user.escape_ascii()),
            Question::Signature { algorithm, .. } => write!(f, "Signature({})", algorithm.escape_ascii()),
        }
    }
}

impl Question {
    /// The question of a record.
    pub(crate) fn new(record: &[u8]) -> Question {
        let fields: Vec<&[u8]> = fields_of(record).into_iter().map(|place| &record[place]).collect();
        let [kind, number, user, service, method, algorithm, key, last, signed] = fields[..] else {
            unreachable!("a question has 9 fields");
        };
        let (algorithm, key) = (algorithm.to_vec(), key.to_vec());
        match kind {
            [0] => return Question::HostKey { algorithm, key },
            [2] => return Question::Signature { algorithm, key, input: last.to_vec() },
            _ => {}
        }
        let number_in = |bytes: &[u8]| bytes.iter().fold(0, |sum, byte| sum << 8 | u32::from(*byte));
        let proof = match number_in(method) {
            door::METHOD_NONE => super::Proof::None,
            door::METHOD_PASSWORD => super::Proof::Password(last.to_vec()),
            door::METHOD_PUBLICKEY => super::Proof::Key(key),
            other => unreachable!("a request has no method {other}"),
        };
        let signed = signed == [1];
        Question::User { number: number_in(number), user: user.to_vec(), service: service.to_vec(), proof, signed }
    }
}
