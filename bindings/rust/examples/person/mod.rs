//! A person confirms a server's key: by groups of it that the program draws, so that the person looks at all of it, and so that nothing
//! counts that was typed before the question appeared.

use std::fmt::Write;
use std::io::{BufRead, Read, Result, stdin};

/// How many groups a person types, out of how many: not the last one, which has three digits.
const ASKED: usize = 3;
const CHOICE: u8 = 10;

/// A question, and the answer that trusts the key.
pub struct Question {
    pub text: String,
    answer: String,
}

impl Question {
    /// The question about a key of ssh-ed25519, by groups that random bytes choose; none about another key.
    pub fn new(key: &[u8], draw: impl FnMut() -> Result<u8>) -> Result<Option<Question>> {
        if key.len() != 51 || !key.starts_with(b"\0\0\0\x0bssh-ed25519\0\0\0\x20") {
            return Ok(None);
        }
        let digits = base64(key);
        // (all such keys have the first 25 digits)
        let groups: Vec<&[u8]> = digits.as_bytes()[25..].chunks(4).collect();
        let mut text = format!("the server's key is ssh-ed25519 {digits}");
        for (at, group) in groups.iter().enumerate() {
            let before = if at % 6 == 0 { '\n' } else { ' ' };
            write!(text, "{before}{:3} {}", at + 1, group.escape_ascii()).expect("a text grows");
        }
        let [one, two, three] = drawn_numbers(draw)?;
        let (a, b, c) = (one + 1, two + 1, three + 1);
        text += "\ncompare all of it with the second word of the server's .pub file; ";
        write!(text, "to trust it, type groups {a}, {b} and {c}: ").expect("a text grows");
        let answer = [groups[one], groups[two], groups[three]].concat().escape_ascii().to_string();
        Ok(Some(Question { text, answer }))
    }

    /// Whether a line says the groups, with blanks between them or without.
    pub fn is_answered(&self, line: &str) -> bool {
        let digits: String = line.trim_end_matches('\n').chars().filter(|it| !matches!(it, ' ' | '\t')).collect();
        digits == self.answer
    }
}

/// The base64 of some threes of bytes.
fn base64(bytes: &[u8]) -> String {
    const ALL: &[u8] = b"ABCDEFGHIJKLMNOPQRSTUVWXYZabcdefghijklmnopqrstuvwxyz0123456789+/";
    let digits = bytes.chunks(3).flat_map(|three| {
        let bits = three.iter().fold(0, |sum, byte| sum << 8 | usize::from(*byte));
        [18, 12, 6, 0].map(|shift| char::from(ALL[bits >> shift & 63]))
    });
    digits.collect()
}

/// Different numbers below CHOICE in ascending order, each as likely as any other.
fn drawn_numbers(mut draw: impl FnMut() -> Result<u8>) -> Result<[usize; ASKED]> {
    let mut is_drawn = [false; CHOICE as usize];
    while is_drawn.iter().filter(|it| **it).count() < ASKED {
        let byte = draw()?;
        // (of more no number would be as likely as any other)
        if byte < 250 {
            is_drawn[usize::from(byte % CHOICE)] = true;
        }
    }
    let mut numbers = (0..is_drawn.len()).filter(|at| is_drawn[*at]);
    Ok(std::array::from_fn(|_| numbers.next().expect("so many were drawn")))
}

/// Asks the person at standard input whether a key is the server's.
#[allow(dead_code)]
pub fn is_trusted(key: &[u8], draw: impl FnMut() -> Result<u8>) -> Result<bool> {
    let Some(question) = Question::new(key, draw)? else { return Ok(false) };
    eprint!("{}", question.text);
    let mut line = String::new();
    stdin().lock().take(80).read_line(&mut line)?;
    Ok(question.is_answered(&line))
}
