//! A client and a server meet in memory.

use rezdolin::{
    Answer, Client, ClientParts, Draws, HostKey, LinkFault, PeerReading, Proof, PublicKey, Question, Refused, Server,
    ServerParts, Stands, Verdict, is_signed, public_key, read_identity,
};
use std::cell::RefCell;

const HOST: [u8; 32] = [9; 32];
const USER: [u8; 32] = [8; 32];
const NO_KEYS: Stands = Stands::Failed { fault: 14, detail: 0 };

/// Bytes that differ.
fn bytes<const N: usize>(seed: u8) -> [u8; N] {
    std::array::from_fn(|at| seed + at as u8)
}

fn draws(seed: u8) -> Draws {
    Draws { cookie: bytes(seed), exchange_random: bytes(seed + 1), padding_seed: bytes(seed + 2) }
}

fn client_parts(plan: Vec<Proof>) -> ClientParts {
    ClientParts::new(draws(1), "al", plan, vec![public_key(&HOST).unwrap()])
}

fn server_parts() -> ServerParts {
    let key = Proof::Key(public_key(&USER).unwrap());
    let users = vec![("al".into(), key), ("al".into(), Proof::Password(b"secret".to_vec()))];
    ServerParts::new(draws(5), HostKey::Here(HOST), users)
}

fn password() -> Proof {
    Proof::Password(b"secret".to_vec())
}

/// Both talk, by pieces of at most this many bytes, until neither has more to send; what they ask is decided so.
fn meet_deciding(
    client: ClientParts,
    server: ServerParts,
    size: usize,
    decide: impl Fn(&Question) -> Answer<'static>,
) -> (Client, Server) {
    let (mut to_server, mut to_client) = (Vec::new(), Vec::new());
    let mut client = Client::begin(client, &mut to_server).unwrap();
    let mut server = Server::begin(server, &mut to_client).unwrap();
    while !(to_server.is_empty() && to_client.is_empty()) {
        for piece in std::mem::take(&mut to_server).chunks(size) {
            server.step(piece, &mut to_client).unwrap();
            while let Stands::Asks(question) = server.stands().clone() {
                server.answer(decide(&question), &mut to_client).unwrap();
            }
        }
        for piece in std::mem::take(&mut to_client).chunks(size) {
            client.step(piece, &mut to_server).unwrap();
            while let Stands::Asks(question) = client.stands().clone() {
                client.answer(decide(&question), &mut to_server).unwrap();
            }
        }
    }
    (client, server)
}

/// The same of sides that ask nothing.
fn meet(client: ClientParts, server: ServerParts, size: usize) -> (Client, Server) {
    meet_deciding(client, server, size, |question| panic!("{question:?}"))
}

fn assert_authenticated(sides: &(Client, Server)) {
    assert_eq!((sides.0.stands(), sides.1.stands()), (&Stands::Authenticated, &Stands::Authenticated));
}

#[test]
fn authenticates_by_a_key_and_by_a_password() {
    for proof in [Proof::Key(USER.to_vec()), password()] {
        for size in [1, 11, 1000] {
            assert_authenticated(&meet(client_parts(vec![proof.clone()]), server_parts(), size));
        }
    }
}

#[test]
fn a_session_goes_on() {
    let (client, server) = meet(client_parts(vec![Proof::Key(USER.to_vec())]), server_parts(), 1000);
    let (mut ours, mut theirs) = (client.into_link(bytes(3)).unwrap(), server.into_link(bytes(4)).unwrap());
    assert_eq!(ours.session_identifier(), theirs.session_identifier());
    assert_eq!((ours.user(), ours.peer_version(), ours.is_strict()), (&b"al"[..], &b"SSH-2.0-rezdolin"[..], true));
    assert_eq!(ours.host_key(), public_key(&HOST).unwrap());
    for n in 1..50 {
        let (payload, mut packet) = (vec![n; usize::from(n) * 100], Vec::new());
        ours.seal(&payload, &mut packet).unwrap();
        assert_eq!(theirs.open(&packet[..packet.len() - 1]).unwrap(), None);
        let used = packet.len();
        packet.push(0);
        assert_eq!(theirs.open(&packet).unwrap(), Some((payload, used)));
    }
    assert_eq!(ours.seal(b"", &mut Vec::new()), Err(LinkFault::Payload));
    assert_eq!(theirs.open(&[7; 100]), Err(LinkFault::Packet(1)));
}

#[test]
fn refusals_are_told() {
    let wrong = vec![Proof::Password(b"wrong".to_vec())];
    let (client, server) = meet(client_parts(wrong), server_parts(), 1000);
    assert_eq!((client.stands(), server.stands()), (&NO_KEYS, &Stands::Closed(14)));
    assert!(client.into_link(bytes(3)).is_none());
    let parts = ClientParts::new(draws(1), "al", vec![Proof::None], Vec::new());
    let (client, _) = meet(parts, server_parts(), 1000);
    assert_eq!(client.stands(), &Stands::Failed { fault: 10, detail: 0 });
}

fn refusal(parts: ClientParts) -> Option<Refused> {
    Client::begin(parts, &mut Vec::new()).err()
}

fn server_refusal(parts: ServerParts) -> Option<Refused> {
    Server::begin(parts, &mut Vec::new()).err()
}

#[test]
fn parts_are_refused() {
    let mut parts = client_parts(vec![]);
    parts.side.kex = String::new();
    assert_eq!(refusal(parts), Some(Refused::Config(1)));
    let mut parts = server_parts();
    parts.tries = 21;
    assert_eq!(server_refusal(parts), Some(Refused::Config(9)));
    let mut parts = client_parts(vec![]);
    parts.side.ciphers = "chacha20-poly1305@openssh.com,aes192-ctr".into();
    assert_eq!(refusal(parts), Some(Refused::Config(13)));
    for len in [0, 31, 33, 64] {
        assert_eq!(refusal(client_parts(vec![Proof::Key(vec![9; len])])), Some(Refused::Config(14)));
    }
}

#[test]
fn draws_that_nobody_has_made_are_refused() {
    for byte in [0, 7, 0xff] {
        for which in 0..3 {
            let spoiled = || {
                let mut draws = draws(1);
                match which {
                    0 => draws.cookie = [byte; 16],
                    1 => draws.exchange_random = [byte; 32],
                    _ => draws.padding_seed = [byte; 32],
                }
                draws
            };
            let key = vec![public_key(&HOST).unwrap()];
            assert_eq!(refusal(ClientParts::new(spoiled(), "al", vec![password()], key)), Some(Refused::Draws));
            assert_eq!(refusal(ClientParts::asking(spoiled(), "al", vec![password()])), Some(Refused::Draws));
            let users = vec![("al".into(), password())];
            assert_eq!(server_refusal(ServerParts::new(spoiled(), HostKey::Here(HOST), users)), Some(Refused::Draws));
        }
        let (client, _) = meet(client_parts(vec![password()]), server_parts(), 1000);
        let (mut link, mut out) = (client.into_link([byte; 32]).unwrap(), Vec::new());
        assert_eq!((link.seal(b"x", &mut out), out.len()), (Err(LinkFault::Draws), 0));
    }
    let mut other = draws(1);
    (other.cookie, other.exchange_random, other.padding_seed) = ([0; 16], [0; 32], [0; 32]);
    (other.cookie[15], other.exchange_random[0], other.padding_seed[31]) = (1, 1, 1);
    assert_eq!(refusal(ClientParts::asking(other, "al", vec![])), None);
}

#[test]
fn signatures_are_verified() {
    // RFC 8032 section 7.1, TEST 2
    let hex = |digits: &str| -> Vec<u8> {
        (0..digits.len()).step_by(2).map(|at| u8::from_str_radix(&digits[at..at + 2], 16).unwrap()).collect()
    };
    let key: [u8; 32] = hex("4ccd089b28ff96da9db6c346ec114e0f5b8a319f35aba624da8cf6ed4fb8a6fb").try_into().unwrap();
    let own = hex(concat!(
        "92a009a9f0d4cab8720e820b5f642540a2b27b5416503f8fb3762223ebdb69da",
        "085ac1e43e15996e458f3613d0f11d8c387b2eaeb4302aeeb00d291612bb0c00"
    ));
    let (blob, front) = (public_key(&key).unwrap(), &b"\0\0\0\x0bssh-ed25519\0\0\0\x40"[..]);
    let signature = [front, &own].concat();
    assert_eq!(is_signed(b"ssh-ed25519", &blob, b"\x72", &signature), Verdict::Right);
    assert_eq!(is_signed(b"ssh-ed25519", &blob, b"\x73", &signature), Verdict::Wrong);
    assert_eq!(is_signed(b"ssh-ed25519", &public_key(&HOST).unwrap(), b"\x72", &signature), Verdict::Wrong);
    for at in 0..signature.len() {
        let mut spoiled = signature.clone();
        spoiled[at] ^= 1;
        assert_eq!(is_signed(b"ssh-ed25519", &blob, b"\x72", &spoiled), Verdict::Wrong, "{at}");
    }
    assert_eq!(is_signed(b"ssh-ed25519", &blob, b"\x72", b""), Verdict::Wrong);
    for name in [&b"ecdsa-sha2-nistp256"[..], b"sk-ssh-ed25519@openssh.com", b"ssh-rsa", b"", b"\xff", b"ssh-ed25519,"]
    {
        assert_eq!(is_signed(name, &blob, b"\x72", &signature), Verdict::NotLookedAt);
    }
}

/// A private key as an agent is given it: the public key, both halves and a comment.
fn in_an_agent_s_form(private_key: [u8; 32]) -> Vec<u8> {
    let mut key = public_key(&private_key).unwrap();
    let public = key[19..].to_vec();
    for field in [&[&private_key[..], &public[..]].concat()[..], b"al@host"] {
        key.extend(u32::try_from(field.len()).unwrap().to_be_bytes());
        key.extend(field);
    }
    key
}

#[test]
fn keys_elsewhere_want_one_who_is_asked() {
    let signed = |blob| PublicKey { algorithm: "ssh-ed25519".into(), blob };
    let plan = || vec![Proof::Signed(signed(public_key(&USER).unwrap()))];
    assert_eq!(refusal(client_parts(plan())), Some(Refused::Unreadable));
    assert_eq!(refusal(ClientParts::asking(draws(1), "al", plan())), None);
    for private in [USER.to_vec(), in_an_agent_s_form(USER)] {
        let mistaken = vec![Proof::Signed(signed(private.clone()))];
        assert_eq!(refusal(ClientParts::asking(draws(1), "al", mistaken)), Some(Refused::Config(14)));
        let mistaken = HostKey::Elsewhere(signed(private));
        assert_eq!(server_refusal(ServerParts::asking(draws(5), mistaken)), Some(Refused::Config(14)));
    }
    let host_key = || HostKey::Elsewhere(signed(public_key(&HOST).unwrap()));
    assert_eq!(server_refusal(ServerParts::new(draws(5), host_key(), vec![])), Some(Refused::Unreadable));
    assert_eq!(server_refusal(ServerParts::asking(draws(5), host_key())), None);
    // without a signature
    let decide = |question: &Question| match question {
        Question::Signature { .. } => Answer::NoSignature,
        _ => Answer::Yes,
    };
    let mut client = ClientParts::asking(draws(1), "al", plan());
    client.plan.push(password());
    assert_authenticated(&meet_deciding(client, server_parts(), 1000, decide));
    let server = ServerParts::asking(draws(5), host_key());
    let (client, server) = meet_deciding(client_parts(vec![password()]), server, 1000, decide);
    assert_eq!((client.stands(), server.stands()), (&Stands::Closed(3), &Stands::Failed { fault: 9, detail: 0 }));
}

#[test]
fn version_lines_are_read_as_deployed_or_by_the_letter() {
    let read = |line: &[u8], reading| {
        let (mut client, mut server) = (client_parts(vec![]), server_parts());
        (client.side.reading, server.side.reading) = (reading, reading);
        let mut client = Client::begin(client, &mut Vec::new()).unwrap();
        let mut server = Server::begin(server, &mut Vec::new()).unwrap();
        client.step(line, &mut Vec::new()).unwrap();
        server.step(line, &mut Vec::new()).unwrap();
        (client.stands().clone(), server.stands().clone())
    };
    let refused = || Stands::Failed { fault: 1, detail: 0 };
    assert_eq!(read(b"SSH-2.0-a-b\r\n", PeerReading::default()), (Stands::Open, Stands::Open));
    assert_eq!(read(b"SSH-2.0-a-b\r\n", PeerReading::Strict), (refused(), refused()));
    assert_eq!(read(b"SSH-1.99-a\r\n", PeerReading::Deployed), (Stands::Open, refused()));
    assert_eq!(read(b"SSH-2.0-a\r\n", PeerReading::Strict), (Stands::Open, Stands::Open));
}

#[test]
fn entries_that_let_anybody_in_are_refused() {
    let refuses = |user: &str, proof| {
        let users = vec![("al".into(), Proof::Password(b"x".to_vec())), (user.into(), proof)];
        let parts = ServerParts::new(draws(5), HostKey::Here(HOST), users);
        assert_eq!(server_refusal(parts), Some(Refused::Unreadable));
    };
    refuses("al", Proof::Password(Vec::new()));
    refuses("al", Proof::Key(Vec::new()));
    refuses("", password());
    refuses("", Proof::None);
    refuses("al", Proof::Password(vec![b'x'; 1025]));
    let server = ServerParts::new(draws(5), HostKey::Here(HOST), vec![("al".into(), Proof::None)]);
    assert_authenticated(&meet(client_parts(vec![Proof::None]), server, 1000));
}

#[test]
fn asks_and_goes_on() {
    let key = public_key(&HOST).unwrap();
    let decide = |question: &Question| match question {
        Question::HostKey { key: shown, .. } => (*shown == key).into(),
        Question::User { user, proof: Proof::Key(key), .. } => {
            (user == b"al" && *key == public_key(&USER).unwrap()).into()
        }
        Question::User { user, proof: Proof::Password(password), .. } => {
            (user == b"al" && password == b"secret").into()
        }
        _ => Answer::No,
    };
    let host_key = || HostKey::Here(HOST);
    for size in [1, 30, 1000] {
        for proof in [Proof::Key(USER.to_vec()), password()] {
            let client = ClientParts::asking(draws(1), "al", vec![Proof::None, proof]);
            let server = ServerParts::asking(draws(5), host_key());
            assert_authenticated(&meet_deciding(client, server, size, decide));
        }
    }
    let client = ClientParts::asking(draws(1), "al", vec![Proof::None]);
    let (client, server) = meet_deciding(client, ServerParts::asking(draws(5), host_key()), 1000, decide);
    assert_eq!((client.stands(), server.stands()), (&NO_KEYS, &Stands::Closed(14)));
    let client = ClientParts::asking(draws(1), "al", vec![]);
    let server = ServerParts::asking(draws(5), host_key());
    let (mut client, _) = meet_deciding(client, server, 1000, |_| Answer::No);
    assert_eq!(client.stands(), &Stands::Failed { fault: 10, detail: 0 });
    assert_eq!(client.answer(true, &mut Vec::new()), Err(Refused::Unasked));
}

#[test]
fn a_query_is_told_from_a_verified_signature() {
    let asked = RefCell::new(Vec::new());
    let decide = |question: &Question| match question {
        Question::User { number, proof, signed, .. } => {
            asked.borrow_mut().push((*number, matches!(proof, Proof::Key(_)), *signed));
            Answer::Yes
        }
        Question::Signature { .. } => Answer::Signature(b"none of this key"),
        Question::HostKey { .. } => Answer::Yes,
    };
    let server = || ServerParts::asking(draws(5), HostKey::Here(HOST));
    let client = |proof| ClientParts::asking(draws(1), "al", vec![proof, password()]);
    assert_authenticated(&meet_deciding(client(Proof::Key(USER.to_vec())), server(), 1000, decide));
    assert_eq!(asked.take(), [(1, true, false), (2, true, true)]);
    // nobody is asked about the request with a wrong signature, which is the second one
    let signed = PublicKey { algorithm: "ssh-ed25519".into(), blob: public_key(&USER).unwrap() };
    assert_authenticated(&meet_deciding(client(Proof::Signed(signed)), server(), 1000, decide));
    assert_eq!(asked.take(), [(1, true, false), (3, false, false)]);
}

/// A client that asks about the host key, and what it sends then.
fn asking() -> (Client, Server) {
    let (mut to_server, mut to_client) = (Vec::new(), Vec::new());
    let mut client = Client::begin(ClientParts::asking(draws(1), "al", vec![password()]), &mut to_server).unwrap();
    let mut server = Server::begin(server_parts(), &mut to_client).unwrap();
    while !matches!(client.stands(), Stands::Asks(_)) {
        server.step(&std::mem::take(&mut to_server), &mut to_client).unwrap();
        client.step(&std::mem::take(&mut to_client), &mut to_server).unwrap();
    }
    (client, server)
}

#[test]
fn waits_for_its_answer_in_another_thread() {
    let (mut client, mut server) = asking();
    let (question, mut out) = (client.stands().clone(), Vec::new());
    assert!(!client.left().is_empty());
    let left = client.left().len();
    client.step(b"", &mut out).unwrap();
    assert_eq!((client.stands(), out.len(), client.left().len()), (&question, 0, left));
    assert_eq!(client.answer(Answer::Signature(b"signature"), &mut out), Err(Refused::Unasked));
    assert_eq!(client.answer(Answer::NoSignature, &mut out), Err(Refused::Unasked));
    assert_eq!(client.answer(Answer::Signature(b""), &mut out), Err(Refused::Unreadable));
    assert_eq!((client.stands(), out.len(), client.left().len()), (&question, 0, left));
    let (client, server) = std::thread::spawn(move || {
        client.answer(true, &mut out).unwrap();
        let mut back = Vec::new();
        while !out.is_empty() {
            server.step(&std::mem::take(&mut out), &mut back).unwrap();
            client.step(&std::mem::take(&mut back), &mut out).unwrap();
        }
        (client, server)
    })
    .join()
    .unwrap();
    assert_authenticated(&(client, server));
}

#[test]
fn long_passwords() {
    for (len, is_accepted) in [(1024, true), (1025, false)] {
        let host_key = HostKey::Here(HOST);
        let users = vec![("al".into(), Proof::Password(vec![b'x'; 1024]))];
        let plan = vec![Proof::Password(vec![b'x'; len])];
        if !is_accepted {
            // (no client of the library sends one)
            assert_eq!(refusal(client_parts(plan)), Some(Refused::Config(6)));
            continue;
        }
        assert_authenticated(&meet(client_parts(plan), ServerParts::new(draws(5), host_key, users), 1000));
    }
}

#[test]
fn disconnects() {
    let (mut client, mut server) = asking();
    let mut out = Vec::new();
    client.disconnect(11, "going", &mut out).unwrap();
    server.step(&out, &mut Vec::new()).unwrap();
    assert_eq!((client.stands(), server.stands()), (&Stands::Disconnected(11), &Stands::Closed(11)));
    assert_eq!(client.disconnect(11, "", &mut out), Err(Refused::Ended));
    assert_eq!(client.answer(true, &mut out), Err(Refused::Unasked));
}

#[test]
fn a_text_that_is_no_key() {
    assert_eq!(read_identity(""), Err(Refused::Identity(1)));
    assert_eq!(read_identity("ssh-ed25519 AAAA al"), Err(Refused::Identity(2)));
    assert_eq!(Refused::Identity(4).to_string(), "the text has a passphrase");
    assert_eq!(Refused::Identity(12).to_string(), "the text has no private key that can be used");
}
