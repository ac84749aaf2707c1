//! Drawn messages, in drawn fragments, cut into drawn pieces; and the same with bytes that are changed.

use super::*;
use crate::testing::Dice;

const MOST: usize = 3000;

fn bytes(dice: &mut Dice, most: u64) -> Vec<u8> {
    (0..dice.below(most)).map(|_| dice.below(256) as u8).collect()
}

fn words(dice: &mut Dice) -> String {
    let pieces: [&[u8]; 8] = [
        b"a",
        b"put . key 1\n",
        b"\n",
        "\u{e9}".as_bytes(),
        "\u{20ac}".as_bytes(),
        "\u{1f600}".as_bytes(),
        b"\0",
        b"x",
    ];
    let most = *dice.of(&[1, 4, 40, 200]);
    let mut text = String::from_utf8(dice.some(&pieces, most)).expect("pieces are UTF-8");
    while text.len() > MOST {
        text.pop();
    }
    text
}

/// A server's frame as a client would send it: with a mask, and this first byte.
fn masked(dice: &mut Dice, first: u8, payload: &[u8]) -> Vec<u8> {
    let mut frame = Vec::new();
    encode(Outgoing::Text(payload), &mut frame);
    let head = frame.len() - payload.len();
    let key: Vec<u8> = (0..4).map(|_| dice.below(256) as u8).collect();
    let masked: Vec<u8> = payload.iter().zip(key.iter().cycle()).map(|(byte, key)| byte ^ key).collect();
    (frame[0], frame[1]) = (first, frame[1] | 0x80);
    [&frame[..head], &key, &masked].concat()
}

/// A control frame that may come at any place, and what is made of it.
fn control(dice: &mut Dice, out: &mut Vec<u8>, expected: &mut Vec<Incoming>) {
    let payload = bytes(dice, 126);
    if dice.below(2) == 0 {
        out.extend(masked(dice, 0x89, &payload));
        expected.push(Incoming::Ping(payload));
    } else {
        out.extend(masked(dice, 0x8a, &payload));
        expected.push(Incoming::Pong(payload));
    }
}

/// A text in fragments, with control frames between them.
fn text(dice: &mut Dice, out: &mut Vec<u8>, expected: &mut Vec<Incoming>) {
    let sent = words(dice);
    let mut rest = sent.as_bytes();
    let mut opcode = 1;
    while dice.below(3) > 0 {
        let (front, back) = rest.split_at(dice.below(rest.len() as u64 + 1) as usize);
        out.extend(masked(dice, opcode, front));
        (opcode, rest) = (0, back);
        if dice.one_in(3) {
            control(dice, out, expected);
        }
    }
    out.extend(masked(dice, 0x80 | opcode, rest));
    expected.push(Incoming::Text(sent));
}

fn stream(dice: &mut Dice) -> (Vec<u8>, Vec<Incoming>) {
    let (mut out, mut expected) = (Vec::new(), Vec::new());
    for _ in 0..dice.below(6) {
        text(dice, &mut out, &mut expected);
    }
    if dice.one_in(2) {
        out.extend(masked(dice, 0x88, b"\x0f\xa0done"));
        expected.push(Incoming::Close { code: Some(4000), why: "done".into() });
    }
    (out, expected)
}

/// What comes of bytes that are fed in drawn pieces. Sometimes more is fed before what is there was taken.
fn decoded(dice: &mut Dice, mut bytes: &[u8]) -> (Vec<Incoming>, Option<Ended>) {
    let mut decoder = Decoder::new(MOST);
    let (mut messages, mut fed, most) = (Vec::new(), 0, *dice.of(&[2, 8, 100, 10_000]));
    while !bytes.is_empty() {
        let (piece, rest) = bytes.split_at((1 + dice.below(most) as usize).min(bytes.len()));
        (bytes, fed) = (rest, fed + piece.len());
        decoder.feed(piece);
        if dice.one_in(4) && !bytes.is_empty() {
            continue;
        }
        loop {
            match decoder.next() {
                Ok(Some(message)) => messages.push(message),
                Ok(None) => break,
                Err(ended) => return (messages, Some(ended)),
            }
        }
        assert!(decoder.kept() <= MOST + 2 * fed + 64, "{} bytes are kept of {fed}", decoder.kept());
    }
    (messages, None)
}

#[test]
fn what_is_sent_comes_in_whatever_pieces() {
    let mut dice = Dice::new(1);
    dice.each(|dice| {
        let (bytes, expected) = stream(dice);
        assert_eq!(decoded(dice, &bytes), (expected, None));
    });
}

#[test]
fn changed_bytes_end_the_same_way_in_whatever_pieces() {
    let mut dice = Dice::new(2);
    let (mut ends, mut count) = (std::collections::BTreeSet::new(), 0);
    dice.each(|dice| {
        count += 1;
        let (mut bytes, _) = stream(dice);
        (0..1 + dice.below(4)).for_each(|_| change(dice, &mut bytes));
        let (messages, ended) = decoded(dice, &bytes);
        assert!(messages.iter().all(|one| !matches!(one, Incoming::Text(text) if text.len() > MOST)));
        assert!(ended.is_none_or(|ended| [1002, 1003, 1007, 1009].contains(&ended.code)));
        ends.extend(ended.map(|ended| ended.code));
        for _ in 0..3 {
            assert_eq!(decoded(dice, &bytes), (messages.clone(), ended), "{bytes:02x?}");
        }
    });
    let all = [1002, 1003, 1007, 1009];
    assert!(count < 5000 || all.iter().all(|code| ends.contains(code)), "{ends:?} are reached");
}

fn change(dice: &mut Dice, bytes: &mut Vec<u8>) {
    let at = dice.below(bytes.len() as u64 + 1) as usize;
    match dice.below(4) {
        0 => bytes.insert(at, dice.below(256) as u8),
        1 if at < bytes.len() => drop(bytes.remove(at)),
        2 if at < bytes.len() => bytes[at] ^= 1 << dice.below(8),
        3 => bytes.truncate(at),
        _ => {}
    }
}

#[test]
fn any_handshake_is_judged() {
    let mut dice = Dice::new(3);
    let pieces: [&[u8]; 9] =
        [b"upgrade", b"websocket", b",", b" ", b"13", b"dGhlIHNhbXBsZSBub25jZQ==", b"=", b"A", "\u{e9}".as_bytes()];
    dice.each(|dice| {
        let drawn: Vec<String> =
            (0..4).map(|_| String::from_utf8(dice.some(&pieces, 4)).expect("pieces are UTF-8")).collect();
        let [upgrade, connection, version, key] = [0, 1, 2, 3].map(|at| drawn[at].as_str());
        let [has_body, is_of_1_1] = [10, 2].map(|bound| dice.one_in(bound));
        match accept(&Asked { upgrade, connection, version, key, has_body, is_of_1_1 }) {
            Ok(accepted) => {
                assert!(accepted.len() == 28 && version.trim() == "13" && key.trim().len() == 24);
                assert!(is_of_1_1 && !has_body);
            }
            Err(refusal) => assert!([400, 426].contains(&refusal.status)),
        }
    });
}
