//! By keys that a real ssh-agent alone has, where OpenSSH is there; and at agents that say what no agent should.

#[path = "../examples/agent/mod.rs"]
mod agent;

use rezdolin::{
    Answer, Client, ClientParts, Draws, HostKey, Proof, PublicKey, Question, Server, ServerParts, Stands, Verdict,
    is_signed, public_key,
};
use std::io::{Read, Write};
use std::os::unix::net::{UnixListener, UnixStream};
use std::path::PathBuf;
use std::process::{Child, Command, Stdio};
use std::time::{Duration, Instant};

/// An agent in a folder of its own, which both go with.
struct Agent {
    folder: PathBuf,
    process: Child,
}

impl Agent {
    fn new() -> Option<Agent> {
        static COUNT: std::sync::atomic::AtomicU32 = std::sync::atomic::AtomicU32::new(0);
        let number = COUNT.fetch_add(1, std::sync::atomic::Ordering::Relaxed);
        let folder = std::env::temp_dir().join(format!("rezdolin-agent.{}.{number}", std::process::id()));
        std::fs::create_dir(&folder).unwrap();
        let mut command = Command::new("ssh-agent");
        let process = command.arg("-D").arg("-a").arg(folder.join("agent")).stdout(Stdio::null()).spawn().ok()?;
        while !folder.join("agent").exists() {
            std::thread::sleep(std::time::Duration::from_millis(20));
        }
        Some(Agent { folder, process })
    }

    /// The public key of a new key, of which the agent alone has the private half.
    fn key(&self, kind: &str) -> Vec<u8> {
        let path = self.folder.join(kind);
        let made = Command::new("ssh-keygen").args(["-q", "-t", kind, "-N", "", "-f"]).arg(&path).status().unwrap();
        let mut add = Command::new("ssh-add");
        let added = add.arg("-q").arg(&path).env("SSH_AUTH_SOCK", self.folder.join("agent")).status().unwrap();
        assert!(made.success() && added.success());
        std::fs::remove_file(&path).unwrap();
        let line = std::fs::read_to_string(path.with_extension("pub")).unwrap();
        bytes_of(line.split(' ').nth(1).unwrap())
    }
}

impl Drop for Agent {
    fn drop(&mut self) {
        self.process.kill().unwrap();
        self.process.wait().unwrap();
        std::fs::remove_dir_all(&self.folder).unwrap();
    }
}

/// The bytes of base64 (RFC 4648).
fn bytes_of(digits: &str) -> Vec<u8> {
    let alphabet: Vec<u8> = (b'A'..=b'Z').chain(b'a'..=b'z').chain(b'0'..=b'9').chain(*b"+/").collect();
    let (mut bits, mut count, mut bytes) = (0_u32, 0, Vec::new());
    for digit in digits.trim_end_matches('=').bytes() {
        bits = bits << 6 | u32::try_from(alphabet.iter().position(|it| *it == digit).unwrap()).unwrap();
        count += 6;
        if count >= 8 {
            count -= 8;
            bytes.push((bits >> count) as u8);
        }
    }
    bytes
}

/// Bytes that differ.
fn bytes<const N: usize>(seed: u8) -> [u8; N] {
    std::array::from_fn(|at| seed + at as u8)
}

fn draws(seed: u8) -> Draws {
    Draws { cookie: bytes(seed), exchange_random: bytes(seed + 1), padding_seed: bytes(seed + 2) }
}

#[test]
fn an_agent_signs_for_a_client_and_for_a_server() {
    let Some(agent) = Agent::new() else {
        println!("skipped: without ssh-agent");
        return;
    };
    let sign = |question: &Question| match question {
        Question::Signature { algorithm, key, input } => {
            agent::sign(&agent.folder.join("agent"), agent::LIMIT, algorithm, key, input).unwrap()
        }
        _ => None,
    };
    let host = agent.key("ed25519");
    std::fs::rename(agent.folder.join("ed25519.pub"), agent.folder.join("host.pub")).unwrap();
    for (kind, algorithm) in [("ed25519", "ssh-ed25519"), ("rsa", "rsa-sha2-512"), ("rsa", "rsa-sha2-256")] {
        let _ = std::fs::remove_file(agent.folder.join(format!("{kind}.pub")));
        let blob = agent.key(kind);
        let plan = vec![Proof::Signed(PublicKey { algorithm: algorithm.into(), blob: blob.clone() })];
        let host_key = HostKey::Elsewhere(PublicKey { algorithm: "ssh-ed25519".into(), blob: host.clone() });
        let (mut to_server, mut to_client) = (Vec::new(), Vec::new());
        let mut client = Client::begin(ClientParts::asking(draws(1), "al", plan), &mut to_server).unwrap();
        let mut server = Server::begin(ServerParts::asking(draws(5), host_key), &mut to_client).unwrap();
        let mut asked = Vec::new();
        while !(to_server.is_empty() && to_client.is_empty()) {
            server.step(&std::mem::take(&mut to_server), &mut to_client).unwrap();
            while let Stands::Asks(question) = server.stands().clone() {
                match (&question, sign(&question)) {
                    (_, Some(signature)) => server.answer(Answer::Signature(&signature), &mut to_client).unwrap(),
                    (Question::User { proof: Proof::Key(key), signed, .. }, None) => {
                        asked.push(*signed);
                        server.answer(*key == blob, &mut to_client).unwrap();
                    }
                    _ => server.answer(false, &mut to_client).unwrap(),
                }
            }
            client.step(&std::mem::take(&mut to_client), &mut to_server).unwrap();
            while let Stands::Asks(question) = client.stands().clone() {
                match (&question, sign(&question)) {
                    (_, Some(signature)) => client.answer(Answer::Signature(&signature), &mut to_server).unwrap(),
                    (Question::HostKey { key, .. }, None) => client.answer(*key == host, &mut to_server).unwrap(),
                    _ => client.answer(false, &mut to_server).unwrap(),
                }
            }
        }
        assert_eq!((client.stands(), server.stands()), (&Stands::Authenticated, &Stands::Authenticated));
        assert_eq!(asked, [false, true]);
        assert_eq!(server.into_link(bytes(4)).unwrap().field(19), blob);
    }
}

fn string(bytes: &[u8]) -> Vec<u8> {
    [&(bytes.len() as u32).to_be_bytes(), bytes].concat()
}

/// What comes of asking an agent that talks so, for a signature by this key: the signature, or the text of the error.
fn asked(
    algorithm: &str,
    key: &[u8],
    talk: impl FnOnce(&mut UnixStream) + Send + 'static,
) -> Result<Option<Vec<u8>>, String> {
    static COUNT: std::sync::atomic::AtomicU32 = std::sync::atomic::AtomicU32::new(0);
    let number = COUNT.fetch_add(1, std::sync::atomic::Ordering::Relaxed);
    let path = std::env::temp_dir().join(format!("rezdolin-hostile.{}.{number}", std::process::id()));
    let listener = UnixListener::bind(&path).unwrap();
    let agent = std::thread::spawn(move || {
        let (mut end, _) = listener.accept().unwrap();
        let mut size = [0; 4];
        end.read_exact(&mut size).unwrap();
        end.read_exact(&mut vec![0; u32::from_be_bytes(size) as usize]).unwrap();
        talk(&mut end);
    });
    let begun = Instant::now();
    let came = agent::sign(&path, Duration::from_secs(2), algorithm.as_bytes(), key, b"input");
    assert!(begun.elapsed() < Duration::from_secs(20));
    agent.join().unwrap();
    std::fs::remove_file(&path).unwrap();
    came.map_err(|why| why.to_string())
}

/// The same of an agent that says this.
fn answered(algorithm: &str, key: &[u8], says: Vec<u8>) -> Result<Option<Vec<u8>>, String> {
    asked(algorithm, key, move |end| {
        let _ = end.write_all(&says); // (who doesn't read on may be gone)
    })
}

/// The response with a signature.
fn signed(signature: &[u8]) -> Vec<u8> {
    string(&[&[14], &string(signature)[..]].concat())
}

#[test]
fn an_agent_s_response_is_limited() {
    let key = public_key(&[9; 32]).unwrap();
    let fails = |says: Vec<u8>, why: &str| {
        assert_eq!(answered("ssh-ed25519", &key, says), Err(format!("the agent's {why}")));
    };
    fails(vec![0xff; 4], "response has 4294967295 bytes");
    fails([&[0xff; 4][..], &[14; 100_000]].concat(), "response has 4294967295 bytes");
    fails(string(&[14; 16385]), "response has 16385 bytes");
    fails(string(&[14; 16384]), "response can't be read");
    fails(Vec::new(), "response is cut off");
    fails(vec![0, 0], "response is cut off");
    fails(vec![0; 4], "response has 0 bytes");
    let whole = signed(&[0; 83]);
    for len in 4..whole.len() {
        fails(whole[..len].to_vec(), "response is cut off");
    }
    fails(string(&[6]), "response can't be read");
    fails(string(&[14]), "response can't be read");
    fails(string(&[14, 0, 0, 0, 1]), "response can't be read");
    fails(string(&[&[14], &string(&[0; 83])[..], b"x"].concat()), "response can't be read");
    fails(signed(&[0; 8193]), "signature is too long");
    fails(signed(&[0; 8192]), "signature is wrong");
    assert_eq!(answered("ssh-ed25519", &key, string(&[5])), Ok(None));
}

#[test]
fn an_agent_s_time_is_limited() {
    let key = public_key(&[9; 32]).unwrap();
    let late = Err("the agent takes too long".to_string());
    let waits = |end: &mut UnixStream| assert!(matches!(end.read(&mut [0]), Ok(0) | Err(_)));
    assert_eq!(asked("ssh-ed25519", &key, waits), late);
    let drips = |end: &mut UnixStream| {
        end.write_all(&16000_u32.to_be_bytes()).unwrap();
        while end.write_all(&[14]).is_ok() {
            std::thread::sleep(Duration::from_millis(50));
        }
    };
    assert_eq!(asked("ssh-ed25519", &key, drips), late);
}

#[test]
fn signatures_are_verified_before_they_are_given() {
    let rsa = [string(b"ssh-rsa"), string(&[1, 0, 1]), string(&[&[0], &[0xc5; 256][..]].concat())].concat();
    let of = |algorithm: &str| [string(algorithm.as_bytes()), string(&[7; 256])].concat();
    let wrong = Err("the agent's signature is wrong".to_string());
    let unseen = Err("the agent's signature can't be verified".to_string());
    for algorithm in ["rsa-sha2-512", "rsa-sha2-256"] {
        assert_eq!(answered(algorithm, &rsa, signed(&of(algorithm))), wrong);
        assert_eq!(answered(algorithm, &rsa, signed(&of("ssh-rsa"))), wrong);
        assert_eq!(answered(algorithm, &rsa, signed(b"")), wrong);
    }
    assert_eq!(answered("ssh-ed25519", &public_key(&[9; 32]).unwrap(), signed(&of("ssh-ed25519"))), wrong);
    for algorithm in ["ssh-rsa", "ecdsa-sha2-nistp256", "sk-ssh-ed25519@openssh.com", ""] {
        assert_eq!(answered(algorithm, &rsa, signed(&of(algorithm))), unseen);
    }
    for algorithm in ["ecdsa-sha2-nistp256", "sk-ssh-ed25519@openssh.com"] {
        let key = [string(algorithm.as_bytes()), string(b"nistp256"), string(&[4; 65])].concat();
        assert_eq!(answered(algorithm, &key, signed(&of(algorithm))), Ok(Some(of(algorithm))));
    }
}

#[test]
fn an_agent_s_signature_by_rsa_is_verified() {
    let Some(real) = Agent::new() else {
        println!("skipped: without ssh-agent");
        return;
    };
    let key = real.key("rsa");
    for algorithm in ["rsa-sha2-512", "rsa-sha2-256"] {
        let path = real.folder.join("agent");
        let right = agent::sign(&path, agent::LIMIT, algorithm.as_bytes(), &key, b"input").unwrap().unwrap();
        assert_eq!(is_signed(algorithm.as_bytes(), &key, b"input", &right), Verdict::Right);
        assert_eq!(answered(algorithm, &key, signed(&right)), Ok(Some(right.clone())));
        for at in [0, 8, right.len() / 2, right.len() - 1] {
            let mut spoiled = right.clone();
            spoiled[at] ^= 1;
            assert_eq!(is_signed(algorithm.as_bytes(), &key, b"input", &spoiled), Verdict::Wrong);
            assert_eq!(answered(algorithm, &key, signed(&spoiled)), Err("the agent's signature is wrong".into()));
        }
    }
}
