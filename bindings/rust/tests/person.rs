//! What a person is asked about a host key.

#[path = "../examples/person/mod.rs"]
mod person;

use person::Question;

/// The public key of ssh-ed25519 with these bytes.
fn key(bytes: [u8; 32]) -> Vec<u8> {
    [&b"\0\0\0\x0bssh-ed25519\0\0\0\x20"[..], &bytes].concat()
}

/// The question that these draws make.
fn question(draws: &[u8]) -> Question {
    let mut draws = draws.iter();
    let key = key(std::array::from_fn(|at| at as u8));
    Question::new(&key, || Ok(*draws.next().unwrap())).unwrap().unwrap()
}

#[test]
fn a_person_types_groups_that_were_drawn() {
    // (250 and above are drawn again, as is a number that was drawn before)
    let question = question(&[255, 8, 250, 28, 4, 248, 2]);
    assert_eq!(
        question.text,
        "the server's key is ssh-ed25519 AAAAC3NzaC1lZDI1NTE5AAAAIAABAgMEBQYHCAkKCwwNDg8QERITFBUWFxgZGhscHR4f\n  \
         1 AABA   2 gMEB   3 QYHC   4 AkKC   5 wwND   6 g8QE\n  \
         7 RITF   8 BUWF   9 xgZG  10 hscH  11 R4f\n\
         compare all of it with the second word of the server's .pub file; to trust it, type groups 3, 5 and 9: "
    );
    for line in ["QYHCwwNDxgZG\n", "QYHC wwND xgZG\n", " QYHC\twwND xgZG ", "Q Y H C w w N D x g Z G\n"] {
        assert!(question.is_answered(line), "{line}");
    }
    for line in [
        "",
        "\n",
        "yes\n",
        "QYHCwwND\n",
        "QYHCwwNDxgZH\n",
        "qyhcwwndxgzg\n",
        "wwNDQYHCxgZG\n",
        "QYHCwwNDxgZGA\n",
        "QYHC,wwND,xgZG\n",
    ] {
        assert!(!question.is_answered(line), "{line}");
    }
}

#[test]
fn each_group_but_the_last_is_asked_as_often() {
    let mut counts = [0; 11];
    for one in 0..=255 {
        let text = question(&[one, 7, 8, 9, 0, 1, 2, 3]).text;
        let numbers = text.rsplit_once("type groups ").unwrap().1;
        let first = if one < 250 { usize::from(one % 10) } else { 7 };
        counts[first] += 1;
        assert!(numbers.split(|it: char| !it.is_ascii_digit()).any(|it| it == (first + 1).to_string()));
    }
    assert_eq!(counts, [25, 25, 25, 25, 25, 25, 25, 31, 25, 25, 0]);
}

#[test]
fn nobody_is_asked_about_another_key() {
    let right = key([7; 32]);
    let mut other = right.clone();
    other[14] = b'8';
    for bytes in [&right[..50], &[&right[..], b"x"].concat(), &other, b""] {
        assert!(Question::new(bytes, || panic!()).unwrap().is_none());
    }
}
