//! SSH up to the authenticated user, as a client and as a server, and the packets of the session after that: safe Rust
//! over the proved static library `rezdolin`.
//!
//! A [`Client`] and a [`Server`] open no socket: [`step`](Client::step) takes what came, and appends what is to be sent. Whom
//! they trust they know by a list, or they ask: then [`stands`](Client::stands) is a [`Question`], and
//! [`answer`](Client::answer) goes on. Each keeps the record that the library writes at each call, and overwrites it when the next one
//! is there, and when it is dropped. It is a value of some thousand bytes that is moved, sent to another thread and kept in a table as
//! any other.
//!
//! **Draw random bytes for each connection, and fork with none at hand**: a process that forks goes on with a connection in one process
//! only. No [`Draws`], `Client`, `Server` or [`Link`] can know of a fork. With random bytes that were used before, what a client once
//! sent is accepted again; with a copy of a record, two packets are sealed with one key and one number.
//!
//! A call is `&mut`, so no other call of the same value can begin within it, as of a handler. This doesn't compile:
//!
//! ```compile_fail,E0501
//! # use rezdolin::{Client, Refused};
//! fn receive(client: &mut Client, piece: &[u8], out: &mut Vec<u8>) -> Result<(), Refused> {
//!     let mut too_slow = || client.disconnect(11, "too slow", &mut Vec::new());
//!     client.step(piece, out)?;
//!     too_slow()
//! }
//! ```
//!
//! One call after the other does:
//!
//! ```
//! # use rezdolin::{Client, Refused};
//! fn receive(client: &mut Client, piece: &[u8], out: &mut Vec<u8>) -> Result<(), Refused> {
//!     client.step(piece, out)?;
//!     let mut too_slow = || client.disconnect(11, "too slow", &mut Vec::new());
//!     too_slow()
//! }
//! ```
#![deny(missing_docs)]

mod door;
mod link;
mod question;

use door::{
    AttemptInput, Bytes, Call, ClientInput, HostKeyInput, Input, List, Rooms, Secret, ServerInput, SideInput,
    StepAnswer, UserInput,
};
pub use link::{Link, LinkFault};
pub use question::{Answer, Question};
use std::error::Error;
use std::fmt;

/// The bytes that one connection draws. They are random, and nobody can foresee them; no two connections have the same, also not one of a
/// process that forked after they were drawn and one of its child. Bytes that are all equal are [`Refused::Draws`].
pub struct Draws {
    /// The cookie of the KEXINIT.
    pub cookie: [u8; 16],
    /// The secret of which the own share is made.
    pub exchange_random: [u8; 32],
    /// The secret of which padding is made.
    pub padding_seed: [u8; 32],
}

impl Drop for Draws {
    fn drop(&mut self) {
        door::wipe(&mut self.exchange_random);
        door::wipe(&mut self.padding_seed);
    }
}

/// By which grammar an endpoint reads its peer's version line. A line that isn't taken ends it as F1. What it sends itself is
/// the same by either.
#[derive(Clone, Copy, Debug, Default, PartialEq, Eq)]
pub enum PeerReading {
    /// As deployed peers write it: what the letter takes, and a line with minus signs in its softwareversion, or ended by LF
    /// alone; a client takes `SSH-1.99-` as 2.0 (RFC 4253 section 5.1).
    #[default]
    Deployed,
    /// By the letter of RFC 4253 section 4.2.
    Strict,
}

impl PeerReading {
    fn number(self) -> u32 {
        match self {
            PeerReading::Deployed => door::READING_DEPLOYED,
            PeerReading::Strict => door::READING_STRICT,
        }
    }
}

/// What both sides list. A list of names is its text, with single commas between.
pub struct Side {
    /// The softwareversion of the version line.
    pub softwareversion: String,
    /// Key exchange methods.
    pub kex: String,
    /// Ciphers, both ways.
    pub ciphers: String,
    /// MACs, both ways.
    pub macs: String,
    /// Whether the side is willing to be strict.
    pub strict: bool,
    /// By which grammar the peer's version line is read.
    pub reading: PeerReading,
}

impl Default for Side {
    /// The algorithms that the library and peers in use have. The last two ciphers use a MAC.
    fn default() -> Side {
        Side {
            softwareversion: "rezdolin".into(),
            kex: "mlkem768x25519-sha256,curve25519-sha256,curve25519-sha256@libssh.org".into(),
            ciphers: "chacha20-poly1305@openssh.com,aes256-gcm@openssh.com,aes128-gcm@openssh.com,aes256-ctr,aes128-ctr"
                .into(),
            macs: "hmac-sha2-256-etm@openssh.com,hmac-sha2-512-etm@openssh.com,hmac-sha2-256,hmac-sha2-512".into(),
            strict: true,
            reading: PeerReading::default(),
        }
    }
}

impl Side {
    fn input<'a>(&'a self, draws: &'a Draws) -> SideInput<'a> {
        let (ciphers, macs) = (Bytes::new(self.ciphers.as_bytes()), Bytes::new(self.macs.as_bytes()));
        SideInput {
            softwareversion: Bytes::new(self.softwareversion.as_bytes()),
            comments: Bytes::new(b""),
            kex_algorithms: Bytes::new(self.kex.as_bytes()),
            encryption_client_to_server: ciphers,
            encryption_server_to_client: ciphers,
            mac_client_to_server: macs,
            mac_server_to_client: macs,
            cookie: Bytes::new(&draws.cookie),
            exchange_random: Bytes::new(&draws.exchange_random),
            padding_seed: Bytes::new(&draws.padding_seed),
            strict: if self.strict { door::STRICT_YES } else { door::STRICT_NO },
            reading: self.reading.number(),
        }
    }
}

/// How a client proves who its user is, or by what a server lets one in.
#[derive(Clone, PartialEq, Eq)]
pub enum Proof {
    /// By nothing: the method `none`.
    None,
    /// By a password. The time of `==` may tell where two differ.
    Password(Vec<u8>),
    /// By a key: at a client the 32 bytes of a private key of ssh-ed25519, about which the server is asked first; at a server a
    /// public key of ssh-ed25519 ([`public_key`]) or RSA. In a question it is any bytes that the client sends.
    Key(Vec<u8>),
    /// At a client that asks: by a key whose private half is elsewhere, as in an agent. The server is asked about it first, and then
    /// the client asks for a signature.
    Signed(PublicKey),
}

impl Drop for Proof {
    fn drop(&mut self) {
        match self {
            Proof::None | Proof::Signed(_) => {}
            Proof::Password(bytes) | Proof::Key(bytes) => door::wipe(bytes),
        }
    }
}

impl Proof {
    fn method(&self) -> u32 {
        match self {
            Proof::None => door::METHOD_NONE,
            Proof::Password(_) => door::METHOD_PASSWORD,
            Proof::Key(_) => door::METHOD_PUBLICKEY,
            Proof::Signed(_) => door::METHOD_SIGNED,
        }
    }

    fn algorithm(&self) -> &[u8] {
        match self {
            Proof::None | Proof::Password(_) => b"",
            Proof::Key(_) => b"ssh-ed25519",
            Proof::Signed(key) => key.algorithm.as_bytes(),
        }
    }

    fn bytes(&self) -> &[u8] {
        match self {
            Proof::None => b"",
            Proof::Password(bytes) | Proof::Key(bytes) => bytes,
            Proof::Signed(key) => &key.blob,
        }
    }
}

/// A public key, and the algorithm by which its private half signs.
#[derive(Clone, PartialEq, Eq)]
pub struct PublicKey {
    /// `ssh-ed25519`, `rsa-sha2-512`, or another one of the key's.
    pub algorithm: String,
    /// The public key, as an agent lists it: of `ssh-ed25519`, or of a kind whose keys have two fields, as those of RSA and ECDSA. The
    /// peer is sent it. A private key in an agent's form or in a file's is refused, as is a certificate.
    pub blob: Vec<u8>,
}

/// A server's host key.
pub enum HostKey {
    /// The 32 bytes of the private key of ssh-ed25519.
    Here([u8; 32]),
    /// The private half is elsewhere: a server that asks asks for a signature.
    Elsewhere(PublicKey),
}

impl Drop for HostKey {
    fn drop(&mut self) {
        if let HostKey::Here(bytes) = self {
            door::wipe(bytes);
        }
    }
}

impl HostKey {
    fn input(&self) -> HostKeyInput<'_> {
        match self {
            HostKey::Here(key) => {
                HostKeyInput { algorithm: Bytes::new(b"ssh-ed25519"), key: Bytes::new(key), place: door::KEY_HERE }
            }
            HostKey::Elsewhere(key) => HostKeyInput {
                algorithm: Bytes::new(key.algorithm.as_bytes()),
                key: Bytes::new(&key.blob),
                place: door::KEY_ELSEWHERE,
            },
        }
    }
}

/// How an endpoint stands.
#[derive(Clone, Debug, PartialEq, Eq)]
pub enum Stands {
    /// It takes the next piece.
    Open,
    /// It waits for the answer to this question.
    Asks(Question),
    /// The user is authenticated.
    Authenticated,
    /// It failed.
    Failed {
        /// The number of the failure, 1 for F1.
        fault: u32,
        /// Of F5, F6 and F7 the number of the message, of F8 the field of the KEXINIT, 1 to 8; else 0.
        detail: u32,
    },
    /// The peer sent a DISCONNECT with this reason.
    Closed(u32),
    /// It was told to disconnect, for this reason.
    Disconnected(u32),
}

/// Why a call wasn't answered. Nothing has changed then: the same call may be made again, but `begin`, which has taken its parts.
#[derive(Clone, Copy, Debug, PartialEq, Eq)]
pub enum Refused {
    /// Memory ran out.
    Memory,
    /// The parts make no config; the number of the refusal, 1 for C1. With 13 a list names an algorithm that the library hasn't,
    /// with 14 a private key hasn't 32 bytes, or the blob of a [`PublicKey`] is none.
    Config(u32),
    /// What was put in can't be read: an entry of a server has no user, an empty password or key, or a password of more than 1024
    /// bytes; a key is elsewhere, and the endpoint doesn't ask; or a signature has no byte.
    Unreadable,
    /// Nothing is asked that this answers.
    Unasked,
    /// The endpoint has ended.
    Ended,
    /// A text has no private key that can be used; the number of why, as `include/rezdolin.h` has it.
    Identity(u32),
    /// One of the [`Draws`] has bytes that are all equal: nobody has drawn it.
    Draws,
}

/// Why a text has no private key that can be used, by its number.
const IDENTITY_FAULTS: [&str; 12] = [
    "has no private key that can be used",
    "is no private key",
    "is a public key",
    "is a private key in another form",
    "has a passphrase",
    "is a key of RSA",
    "is a key of ECDSA",
    "is a key of another kind",
    "has several keys, or none",
    "ends too early",
    "has two halves that aren't of one key",
    "is filled up wrongly",
];

impl fmt::Display for Refused {
    fn fmt(&self, f: &mut fmt::Formatter<'_>) -> fmt::Result {
        match self {
            Refused::Memory => f.write_str("out of memory"),
            Refused::Config(number) => write!(f, "the parts make no config: C{number}"),
            Refused::Unreadable => f.write_str("what was put in can't be read"),
            Refused::Unasked => f.write_str("nothing is asked that this answers"),
            Refused::Ended => f.write_str("the endpoint has ended"),
            Refused::Identity(number) => {
                let why = usize::try_from(*number).ok().and_then(|number| IDENTITY_FAULTS.get(number));
                write!(f, "the text {}", why.unwrap_or(&IDENTITY_FAULTS[0]))
            }
            Refused::Draws => f.write_str("a draw has bytes that are all equal"),
        }
    }
}

impl Error for Refused {}

/// What changes of an endpoint.
struct Talk {
    /// Its record; none where it has ended.
    record: Secret,
    stands: Stands,
    /// The record of its session, where it is authenticated.
    session: Secret,
    /// What came and isn't used.
    left: Vec<u8>,
}

/// What a call came to.
struct Came {
    answer: StepAnswer,
    rooms: Rooms,
}

/// Makes a call by this record, in rooms that are large enough.
fn made(input: Input<'_>, record: &[u8], call: Call<'_>) -> Result<Came, Refused> {
    let more = match call {
        Call::Step(piece) => piece.len(),
        _ => 0,
    };
    let mut sizes = [4096 + record.len() + more, 8192, 4096];
    loop {
        let [next, out, told] = sizes.map(Secret::room);
        let mut rooms = Rooms { next, out, told };
        let answer = door::call(input, record, call, &mut rooms);
        match answer.status {
            0 => return Ok(Came { answer, rooms }),
            1 => return Err(Refused::Memory),
            2 => return Err(Refused::Config(answer.config)),
            3 => return Err(Refused::Unreadable),
            4 => {
                sizes = [sizes[0].max(answer.record_len), sizes[1].max(answer.sent_len), sizes[2].max(answer.told_len)]
            }
            11 => return Err(Refused::Unasked),
            13 => return Err(Refused::Draws),
            status => unreachable!("by its own parts and record an endpoint is answered otherwise than by {status}"),
        }
    }
}

impl Talk {
    /// An endpoint that has received nothing.
    fn begin(input: Input<'_>, out: &mut Vec<u8>) -> Result<Talk, Refused> {
        let came = made(input, &[], Call::Begin)?;
        let mut talk =
            Talk { record: Secret::default(), stands: Stands::Open, session: Secret::default(), left: Vec::new() };
        talk.take(came, out);
        Ok(talk)
    }

    /// Takes a piece.
    fn step(&mut self, input: Input<'_>, piece: &[u8], out: &mut Vec<u8>) -> Result<(), Refused> {
        if self.stands == Stands::Open {
            let came = made(input, &self.record.0, Call::Step(piece))?;
            self.left.extend_from_slice(&piece[came.answer.used..]);
            self.take(came, out);
        } else {
            self.left.extend_from_slice(piece);
        }
        Ok(())
    }

    /// Answers the question, and goes on with what is left. Where that isn't answered both calls count as not made: nothing of
    /// them was sent.
    fn answer(&mut self, input: Input<'_>, answer: Answer<'_>, out: &mut Vec<u8>) -> Result<(), Refused> {
        if !matches!(self.stands, Stands::Asks(_)) {
            return Err(Refused::Unasked);
        }
        let first = made(input, &self.record.0, answer.call())?;
        if first.answer.end != 0 || self.left.is_empty() {
            self.take(first, out);
            return Ok(());
        }
        let more = made(input, &first.rooms.next.0[..first.answer.record_len], Call::Step(&self.left))?;
        self.left.drain(..more.answer.used);
        self.take(first, out);
        self.take(more, out);
        Ok(())
    }

    fn disconnect(&mut self, input: Input<'_>, reason: u32, text: &str, out: &mut Vec<u8>) -> Result<(), Refused> {
        if !matches!(self.stands, Stands::Open | Stands::Asks(_)) {
            return Err(Refused::Ended);
        }
        let came = made(input, &self.record.0, Call::Disconnect(reason, text.as_bytes()))?;
        self.take(came, out);
        Ok(())
    }

    /// Goes on with what a call came to.
    fn take(&mut self, came: Came, out: &mut Vec<u8>) {
        let Came { answer, rooms } = came;
        let told = &rooms.told.0[..answer.told_len];
        out.extend_from_slice(&rooms.out.0[..answer.sent_len]);
        self.record = Secret::copy(&rooms.next.0[..answer.record_len]);
        self.stands = match answer.end {
            0 => Stands::Open,
            1 => Stands::Authenticated,
            2 => Stands::Failed { fault: answer.fault, detail: answer.detail },
            3 => Stands::Closed(answer.detail),
            4 => Stands::Disconnected(answer.detail),
            _ => Stands::Asks(Question::new(told)),
        };
        if answer.end == 1 {
            self.session = Secret::copy(told);
        }
    }

    fn into_link(self, padding_seed: [u8; 32]) -> Option<Link> {
        (self.stands == Stands::Authenticated).then(|| Link::new(self.session, padding_seed))
    }
}

/// What a client is made of. It is the same as long as the client lives.
pub struct ClientParts {
    /// What it lists.
    pub side: Side,
    /// What is drawn for the connection.
    pub draws: Draws,
    /// The user's name.
    pub user: String,
    /// The attempts to authenticate, in order.
    pub plan: Vec<Proof>,
    /// The host keys that are trusted ([`public_key`]).
    pub trusted_host_keys: Vec<Vec<u8>>,
    /// Whether it asks if the host key is trusted, and for signatures, and doesn't read the list.
    pub asks: bool,
}

impl ClientParts {
    /// The parts of a client that trusts these host keys.
    #[must_use]
    pub fn new(draws: Draws, user: &str, plan: Vec<Proof>, trusted_host_keys: Vec<Vec<u8>>) -> ClientParts {
        ClientParts { side: Side::default(), draws, user: user.into(), plan, trusted_host_keys, asks: false }
    }

    /// The parts of a client that asks.
    #[must_use]
    pub fn asking(draws: Draws, user: &str, plan: Vec<Proof>) -> ClientParts {
        ClientParts { asks: true, ..ClientParts::new(draws, user, plan, Vec::new()) }
    }
}

impl ClientParts {
    /// Makes a call with these parts.
    fn lend<T>(&self, call: impl FnOnce(Input<'_>) -> T) -> T {
        let plan: Vec<_> = self.plan.iter().map(|proof| attempt(&self.user, proof)).collect();
        let trusted: Vec<_> = self.trusted_host_keys.iter().map(|key| Bytes::new(key)).collect();
        call(Input::Client(&ClientInput {
            side: self.side.input(&self.draws),
            server_host_key_algorithms: Bytes::new(b"ssh-ed25519"),
            plan: List::new(&plan),
            trusted_host_keys: List::new(&trusted),
            guess: 0,
            asks: u32::from(self.asks),
        }))
    }
}

/// A client. It can't know of a fork: where the process forks, go on with it in one process only.
pub struct Client {
    parts: ClientParts,
    talk: Talk,
}

impl Client {
    /// A client of these parts that has received nothing; what it sends first is appended to `out`.
    ///
    /// # Errors
    ///
    /// As [`Refused`] says.
    pub fn begin(parts: ClientParts, out: &mut Vec<u8>) -> Result<Client, Refused> {
        let talk = parts.lend(|input| Talk::begin(input, out))?;
        Ok(Client { parts, talk })
    }

    /// Takes a piece of what came, and appends to `out` what is to be sent: send all of it. What it doesn't use is kept: for what follows
    /// the [`answer`](Client::answer) where it asks, and for the [`Link`] where it has ended ([`left`](Client::left)).
    ///
    /// # Errors
    ///
    /// As [`Refused`] says; the piece then counts as not received.
    pub fn step(&mut self, piece: &[u8], out: &mut Vec<u8>) -> Result<(), Refused> {
        let Client { parts, talk } = self;
        parts.lend(|input| talk.step(input, piece, out))
    }

    /// Answers the question, goes on with what came after it, and appends to `out` what is to be sent.
    ///
    /// # Errors
    ///
    /// As [`Refused`] says; it still asks then.
    pub fn answer<'a>(&mut self, answer: impl Into<Answer<'a>>, out: &mut Vec<u8>) -> Result<(), Refused> {
        let (Client { parts, talk }, answer) = (self, answer.into());
        parts.lend(|input| talk.answer(input, answer, out))
    }

    /// Ends it by a DISCONNECT with this reason and description (RFC 4253 section 11.1), which is appended to `out`.
    ///
    /// # Errors
    ///
    /// As [`Refused`] says.
    pub fn disconnect(&mut self, reason: u32, description: &str, out: &mut Vec<u8>) -> Result<(), Refused> {
        let Client { parts, talk } = self;
        parts.lend(|input| talk.disconnect(input, reason, description, out))
    }

    /// How it stands.
    #[must_use]
    pub fn stands(&self) -> &Stands {
        &self.talk.stands
    }

    /// What it has received and not used.
    #[must_use]
    pub fn left(&self) -> &[u8] {
        &self.talk.left
    }

    /// The session of an authenticated client, with 32 random bytes that served nothing else. Copy [`left`](Client::left) first: it
    /// goes with the client. None of any other client, which is gone, too.
    #[must_use]
    pub fn into_link(self, padding_seed: [u8; 32]) -> Option<Link> {
        self.talk.into_link(padding_seed)
    }
}

fn attempt<'a>(user: &'a str, proof: &'a Proof) -> AttemptInput<'a> {
    AttemptInput {
        user: Bytes::new(user.as_bytes()),
        service: Bytes::new(b"ssh-connection"),
        algorithm: Bytes::new(proof.algorithm()),
        secret: Bytes::new(proof.bytes()),
        method: proof.method(),
        ask: u32::from(matches!(proof, Proof::Key(_) | Proof::Signed(_))),
    }
}

/// What a server is made of. It is the same as long as the server lives.
pub struct ServerParts {
    /// What it lists.
    pub side: Side,
    /// What is drawn for the connection.
    pub draws: Draws,
    /// Its host key.
    pub host_key: HostKey,
    /// Who is accepted, and by what. Each request is compared with each entry in full, so its time tells neither who is a user nor where
    /// a password differs. A request by a password of more than 1024 bytes is refused without a look.
    pub users: Vec<(String, Proof)>,
    /// The methods that all have to succeed, as a list of names; none where one success is enough.
    pub required: String,
    /// The text of the BANNER; no bytes where none is sent.
    pub banner: Vec<u8>,
    /// The request at which a failure ends the session, 1 to 20.
    pub tries: u32,
    /// Whether it asks who is accepted, and for signatures, and doesn't read the list.
    pub asks: bool,
}

impl ServerParts {
    /// The parts of a server that accepts these users.
    #[must_use]
    pub fn new(draws: Draws, host_key: HostKey, users: Vec<(String, Proof)>) -> ServerParts {
        let (side, required, banner) = (Side::default(), String::new(), Vec::new());
        ServerParts { side, draws, host_key, users, required, banner, tries: 6, asks: false }
    }

    /// The parts of a server that asks.
    #[must_use]
    pub fn asking(draws: Draws, host_key: HostKey) -> ServerParts {
        ServerParts { asks: true, ..ServerParts::new(draws, host_key, Vec::new()) }
    }

    /// Makes a call with these parts.
    fn lend<T>(&self, call: impl FnOnce(Input<'_>) -> T) -> T {
        let users: Vec<_> = self.users.iter().map(|(user, proof)| user_input(user, proof)).collect();
        call(Input::Server(&ServerInput {
            side: self.side.input(&self.draws),
            host_keys: List::new(&[self.host_key.input()]),
            services: Bytes::new(b"ssh-connection"),
            methods: Bytes::new(b"publickey,password"),
            required: Bytes::new(self.required.as_bytes()),
            banner: Bytes::new(&self.banner),
            notice_lines: List::new(&[]),
            users: List::new(&users),
            tries: self.tries,
            asks: u32::from(self.asks),
        }))
    }
}

/// A server. It can't know of a fork: where the process forks, go on with it in one process only.
pub struct Server {
    parts: ServerParts,
    talk: Talk,
}

impl Server {
    /// A server of these parts that has received nothing; what it sends first is appended to `out`.
    ///
    /// # Errors
    ///
    /// As [`Refused`] says.
    pub fn begin(parts: ServerParts, out: &mut Vec<u8>) -> Result<Server, Refused> {
        let talk = parts.lend(|input| Talk::begin(input, out))?;
        Ok(Server { parts, talk })
    }

    /// Takes a piece of what came, and appends to `out` what is to be sent: send all of it. What it doesn't use is kept: for what follows
    /// the [`answer`](Server::answer) where it asks, and for the [`Link`] where it has ended ([`left`](Server::left)).
    ///
    /// # Errors
    ///
    /// As [`Refused`] says; the piece then counts as not received.
    pub fn step(&mut self, piece: &[u8], out: &mut Vec<u8>) -> Result<(), Refused> {
        let Server { parts, talk } = self;
        parts.lend(|input| talk.step(input, piece, out))
    }

    /// Answers the question, goes on with what came after it, and appends to `out` what is to be sent.
    ///
    /// # Errors
    ///
    /// As [`Refused`] says; it still asks then.
    pub fn answer<'a>(&mut self, answer: impl Into<Answer<'a>>, out: &mut Vec<u8>) -> Result<(), Refused> {
        let (Server { parts, talk }, answer) = (self, answer.into());
        parts.lend(|input| talk.answer(input, answer, out))
    }

    /// Ends it by a DISCONNECT with this reason and description (RFC 4253 section 11.1), which is appended to `out`.
    ///
    /// # Errors
    ///
    /// As [`Refused`] says.
    pub fn disconnect(&mut self, reason: u32, description: &str, out: &mut Vec<u8>) -> Result<(), Refused> {
        let Server { parts, talk } = self;
        parts.lend(|input| talk.disconnect(input, reason, description, out))
    }

    /// How it stands.
    #[must_use]
    pub fn stands(&self) -> &Stands {
        &self.talk.stands
    }

    /// What it has received and not used.
    #[must_use]
    pub fn left(&self) -> &[u8] {
        &self.talk.left
    }

    /// The session of an authenticated server, with 32 random bytes that served nothing else. Copy [`left`](Server::left) first: it
    /// goes with the server. None of any other server, which is gone, too.
    #[must_use]
    pub fn into_link(self, padding_seed: [u8; 32]) -> Option<Link> {
        self.talk.into_link(padding_seed)
    }
}

fn user_input<'a>(user: &'a str, proof: &'a Proof) -> UserInput<'a> {
    UserInput { user: Bytes::new(user.as_bytes()), proof: Bytes::new(proof.bytes()), method: proof.method() }
}

/// What [`is_signed`] finds.
#[derive(Clone, Copy, Debug, PartialEq, Eq)]
pub enum Verdict {
    /// The signature is right.
    Right,
    /// It is wrong.
    Wrong,
    /// It wasn't looked at, so it may be wrong: the library verifies no such algorithm (it verifies `ssh-ed25519`, `rsa-sha2-512` and
    /// `rsa-sha2-256`), an argument is too long, or memory ran out.
    NotLookedAt,
}

/// Whether a signature of an input is right, by this algorithm and this public key. The signature is all that an agent gives
/// ([`Answer::Signature`]). Hand in none by an RSA key that isn't [`Verdict::Right`]: a faulty one can give the private key away.
#[must_use]
pub fn is_signed(algorithm: &[u8], key: &[u8], input: &[u8], signature: &[u8]) -> Verdict {
    match door::is_signed(algorithm, key, input, signature) {
        1 => Verdict::Right,
        2 => Verdict::Wrong,
        _ => Verdict::NotLookedAt,
    }
}

/// The public key of the 32 bytes of a private key of ssh-ed25519, as servers send it; none where memory ran out.
#[must_use]
pub fn public_key(private_key: &[u8; 32]) -> Option<Vec<u8>> {
    let mut room = [0; 64];
    let answer = door::public_key(private_key, &mut room);
    (answer.status == 0).then(|| room[..answer.len].to_vec())
}

/// The 32 bytes of the private key in the text of a file as `ssh-keygen -t ed25519` writes it, without a passphrase.
///
/// # Errors
///
/// As [`Refused`] says.
pub fn read_identity(text: &str) -> Result<[u8; 32], Refused> {
    let mut key = [0; 32];
    let answer = door::read_identity(text.as_bytes(), &mut key);
    match answer.status {
        0 => Ok(key),
        12 => Err(Refused::Identity(answer.fault)),
        _ => Err(Refused::Memory),
    }
}
