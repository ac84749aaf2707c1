//! Cases of RFC 6455: its own examples, each rule broken once, and each piece of a frame by itself.

use super::frames::{self, unmask};
use super::*;
use crate::testing::processor_time;

const LAST: u8 = 0x80;
const KEY: [u8; 4] = [0x37, 0xfa, 0x21, 0x3d];

/// A frame as a client sends it, whose length is written in its shortest form.
fn frame(first: u8, payload: &[u8]) -> Vec<u8> {
    let length = match payload.len() {
        short @ 0..=125 => vec![short as u8],
        middle @ 126..=65535 => [vec![126], (middle as u16).to_be_bytes().to_vec()].concat(),
        long => [vec![127], (long as u64).to_be_bytes().to_vec()].concat(),
    };
    framed(first, &length, payload)
}

fn framed(first: u8, length: &[u8], payload: &[u8]) -> Vec<u8> {
    let mut length = length.to_vec();
    length[0] |= 0x80;
    let masked = payload.iter().zip(KEY.iter().cycle()).map(|(byte, key)| byte ^ key).collect();
    [vec![first], length, KEY.to_vec(), masked].concat()
}

fn text(text: &str) -> Vec<u8> {
    frame(LAST | 1, text.as_bytes())
}

/// What comes of some bytes: messages, and the end.
fn decoded(bytes: &[u8], pieces: usize, most: usize) -> (Vec<Incoming>, Option<Ended>) {
    let mut decoder = Decoder::new(most);
    let mut messages = Vec::new();
    for piece in bytes.chunks(pieces) {
        decoder.feed(piece);
        loop {
            match decoder.next() {
                Ok(Some(message)) => messages.push(message),
                Ok(None) => break,
                Err(ended) => return (messages, Some(ended)),
            }
        }
        assert!(decoder.kept() <= most + 2 * (pieces + 140), "{} bytes are kept", decoder.kept());
    }
    (messages, None)
}

/// The same by each size of pieces.
fn all_ways(bytes: &[u8], most: usize) -> (Vec<Incoming>, Option<Ended>) {
    let whole = decoded(bytes, bytes.len().max(1), most);
    for pieces in [1, 2, 3, 5, 7, 64, 1000] {
        assert_eq!(decoded(bytes, pieces, most), whole, "in pieces of {pieces}");
    }
    whole
}

fn messages(bytes: &[u8]) -> Vec<Incoming> {
    let (messages, ended) = all_ways(bytes, 1 << 20);
    assert_eq!(ended, None);
    messages
}

fn ended(bytes: &[u8]) -> Ended {
    all_ways(bytes, 1 << 20).1.expect("a rule is broken")
}

#[test]
fn the_examples_of_the_rfc() {
    let hello = b"\x81\x85\x37\xfa\x21\x3d\x7f\x9f\x4d\x51\x58";
    assert_eq!(messages(hello), [Incoming::Text("Hello".into())]);
    let pong = b"\x8a\x85\x37\xfa\x21\x3d\x7f\x9f\x4d\x51\x58";
    assert_eq!(messages(pong), [Incoming::Pong(b"Hello".to_vec())]);
    let mut out = Vec::new();
    encode(Outgoing::Text(b"Hello"), &mut out);
    assert_eq!(out, b"\x81\x05\x48\x65\x6c\x6c\x6f");
    out.clear();
    encode(Outgoing::Ping(b"Hello"), &mut out);
    assert_eq!(out, b"\x89\x05\x48\x65\x6c\x6c\x6f");
}

#[test]
fn lengths_of_each_form() {
    for length in [0, 1, 125, 126, 127, 128, 65535, 65536, 65537, 70_000] {
        let sent = "x".repeat(length);
        assert_eq!(messages(&text(&sent)), [Incoming::Text(sent)], "{length}");
    }
    for (length, payload) in [
        (&[126, 0, 125][..], 125),
        (&[126, 0, 0], 0),
        (&[127, 0, 0, 0, 0, 0, 0, 0, 126], 126),
        (&[127, 0, 0, 0, 0, 0, 0, 0xff, 0xff], 65535),
        (&[127, 0x80, 0, 0, 0, 0, 1, 0, 0], 10),
        (&[127, 0xff, 0xff, 0xff, 0xff, 0xff, 0xff, 0xff, 0xff], 10),
    ] {
        assert_eq!(ended(&framed(LAST | 1, length, &vec![b'x'; payload])), frames::LONG_LENGTH, "{length:?}");
    }
}

#[test]
fn heads_of_what_is_sent() {
    for (length, head) in [
        (125, &[0x81, 125][..]),
        (126, &[0x81, 126, 0, 126]),
        (65535, &[0x81, 126, 0xff, 0xff]),
        (65536, &[0x81, 127, 0, 0, 0, 0, 0, 1, 0, 0]),
    ] {
        let mut out = b"before".to_vec();
        encode(Outgoing::Text(&vec![b'x'; length]), &mut out);
        assert_eq!(out.len(), 6 + head.len() + length);
        assert!(out[6..].starts_with(head), "{length}");
    }
}

#[test]
fn fragments_with_control_frames_between_them() {
    let bytes = [frame(1, b"Hel"), frame(LAST | 9, b"1"), frame(0, b""), frame(LAST | 10, b"2"), frame(LAST, b"lo")];
    let expected = [Incoming::Ping(b"1".to_vec()), Incoming::Pong(b"2".to_vec()), Incoming::Text("Hello".into())];
    assert_eq!(messages(&bytes.concat()), expected);
    let bytes = [frame(1, b""), frame(LAST, b""), text("next")];
    assert_eq!(messages(&bytes.concat()), [Incoming::Text(String::new()), Incoming::Text("next".into())]);
}

#[test]
fn broken_rules_end_with_1002() {
    for (bytes, why) in [
        (frame(LAST | 0x40 | 1, b"a"), frames::RESERVED_BIT),
        (frame(LAST | 0x20 | 1, b"a"), frames::RESERVED_BIT),
        (frame(LAST | 0x10 | 1, b"a"), frames::RESERVED_BIT),
        (frame(LAST | 0x40 | 9, b"a"), frames::RESERVED_BIT),
        (b"\x81\x01a".to_vec(), frames::NO_MASK),
        (b"\x89\x00".to_vec(), frames::NO_MASK),
        (frame(9, b"a"), frames::CUT_CONTROL),
        (frame(8, b""), frames::CUT_CONTROL),
        (frame(LAST | 9, &[0; 126]), frames::LONG_CONTROL),
        (frame(LAST | 8, &[0; 70_000]), frames::LONG_CONTROL),
        (frame(LAST, b"a"), frames::NOTHING_TO_GO_ON),
        (frame(0, b"a"), frames::NOTHING_TO_GO_ON),
        ([frame(1, b"a"), text("b")].concat(), frames::NOT_AT_ITS_END),
        ([frame(1, b"a"), frame(LAST | 2, b"b")].concat(), frames::NOT_AT_ITS_END),
        ([text("a"), frame(LAST, b"b")].concat(), frames::NOTHING_TO_GO_ON),
    ] {
        assert_eq!(why.code, 1002);
        assert_eq!(ended(&bytes), why);
    }
    for opcode in [3, 4, 5, 6, 7, 11, 12, 13, 14, 15] {
        assert_eq!(ended(&frame(LAST | opcode, b"")), frames::RESERVED_OPCODE, "{opcode}");
    }
}

#[test]
fn a_rule_is_broken_by_its_first_byte() {
    assert_eq!(ended(b"\xc1"), frames::RESERVED_BIT);
    assert_eq!(ended(b"\x09"), frames::CUT_CONTROL);
    assert_eq!(ended(b"\x81\x00"), frames::NO_MASK);
    assert_eq!(ended(b"\x89\xfe"), frames::LONG_CONTROL);
    assert_eq!(ended(b"\x81\xfe\x00\x10"), frames::LONG_LENGTH);
}

#[test]
fn binary_messages_end_with_1003() {
    assert_eq!(ended(&frame(LAST | 2, b"a")), Ended { code: 1003, why: "lines are text" });
    assert_eq!(ended(&frame(2, b"")).code, 1003);
}

#[test]
fn texts_are_utf8_also_across_fragments() {
    let sent = "\u{3ba}\u{1f79}\u{3c3}\u{3bc}\u{3b5} \u{1f600} \u{10ffff}";
    for at in 0..=sent.len() {
        let (front, back) = sent.as_bytes().split_at(at);
        let bytes = [frame(1, front), frame(LAST, back)].concat();
        assert_eq!(messages(&bytes), [Incoming::Text(sent.into())], "cut at {at}");
    }
    for bad in [
        &b"\x80"[..],
        b"a\xff",
        b"\xc0\x80",
        b"\xe0\x80\x80",
        b"\xed\xa0\x80",
        b"\xf4\x90\x80\x80",
        b"\xf8\x88\x80\x80\x80",
        b"\xce",
        b"\xf0\x9f\x98",
        b"\xe2\x82a",
    ] {
        assert_eq!(ended(&frame(LAST | 1, bad)), frames::NO_UTF8, "{bad:x?}");
        let pieces: Vec<u8> = bad.iter().flat_map(|byte| frame(0, &[*byte])).collect();
        let bytes = [frame(1, b"a"), pieces, frame(LAST, b"")].concat();
        assert_eq!(ended(&bytes).code, 1007, "{bad:x?}");
    }
    // It is told at once, and not at the message's end.
    assert_eq!(ended(&[frame(1, b"a\xff"), frame(LAST | 9, b"")].concat()).code, 1007);
    assert_eq!(ended(&frame(LAST | 1, b"a\xffbcd")[..9]).code, 1007);
}

#[test]
fn a_message_that_is_too_long_is_refused_by_its_head() {
    let (found, ended) = all_ways(&text("12345"), 5);
    assert_eq!((found.len(), ended), (1, None));
    let head = &text("123456")[..6];
    assert_eq!(all_ways(head, 5), (vec![], Some(frames::TOO_LONG)));
    let head = [0x81, 0xff, 0x7f, 0xff, 0xff, 0xff, 0xff, 0xff, 0xff, 0xff, 0, 0, 0, 0];
    assert_eq!(all_ways(&head, 1 << 20), (vec![], Some(frames::TOO_LONG)));
    let bytes = [frame(1, b"123"), frame(0, b"45"), frame(LAST | 9, b"123456"), frame(LAST, b"6")].concat();
    assert_eq!(all_ways(&bytes, 5), (vec![Incoming::Ping(b"123456".to_vec())], Some(frames::TOO_LONG)));
    assert_eq!(frames::TOO_LONG.code, 1009);
}

#[test]
fn closes_with_and_without_a_code() {
    let close = |payload: &[u8]| frame(LAST | 8, payload);
    assert_eq!(messages(&close(b"")), [Incoming::Close { code: None, why: String::new() }]);
    for code in [1000, 1001, 1002, 1003, 1007, 1008, 1009, 1010, 1011, 1012, 1013, 1014, 3000, 3999, 4000, 4999_u16] {
        let bytes = close(&[&code.to_be_bytes()[..], b"why"].concat());
        assert_eq!(messages(&bytes), [Incoming::Close { code: Some(code), why: "why".into() }]);
    }
    for code in [0, 1, 999, 1004, 1005, 1006, 1015, 1016, 1100, 2000, 2999, 5000, 65535_u16] {
        assert_eq!(ended(&close(&code.to_be_bytes())), frames::CLOSE_CODE, "{code}");
    }
    assert_eq!(ended(&close(b"\x03")), frames::CLOSE_CODE);
    assert_eq!(ended(&close(b"\x03\xe8\xff")), frames::NO_UTF8);
    // Nothing is taken behind a close, not even what is broken.
    let bytes = [close(b"\x03\xe8"), text("later"), vec![0xff; 100]].concat();
    assert_eq!(messages(&bytes), [Incoming::Close { code: Some(1000), why: String::new() }]);
}

#[test]
fn closes_that_are_sent() {
    let sent = |close| {
        let mut out = Vec::new();
        encode(Outgoing::Close(close), &mut out);
        out
    };
    assert_eq!(sent(None), b"\x88\x00");
    assert_eq!(sent(Some((1001, "shutdown"))), b"\x88\x0a\x03\xe9shutdown");
    let long = "\u{e9}".repeat(100);
    let cut = sent(Some((1009, &long)));
    assert_eq!((cut.len(), cut[1]), (2 + 124, 124));
    assert!(std::str::from_utf8(&cut[4..]).is_ok());
}

#[test]
fn an_end_stays_and_keeps_nothing() {
    let mut decoder = Decoder::new(100);
    decoder.feed(&[frame(1, b"some text"), vec![0xff; 1000]].concat());
    assert_eq!(decoder.next(), Err(frames::RESERVED_BIT));
    decoder.feed(&text("more"));
    assert_eq!(decoder.next(), Err(frames::RESERVED_BIT));
    assert_eq!(decoder.kept(), 0);
}

#[test]
fn masks_fit_wherever_a_piece_begins() {
    let plain: Vec<u8> = (0..=255).collect();
    let masked: Vec<u8> = plain.iter().zip(KEY.iter().cycle()).map(|(byte, key)| byte ^ key).collect();
    for start in 0..40 {
        for end in start..plain.len() {
            let mut piece = masked[start..end].to_vec();
            unmask(&mut piece, KEY, start as u64);
            assert_eq!(piece, plain[start..end]);
        }
    }
}

/// The time grows with the bytes and not with their square: 8 times as many may take 24 times as long, and not 64.
#[test]
fn the_cost_is_linear_in_bytes() {
    let time = |count: usize, pieces: usize, of_one: bool| {
        let bytes = match of_one {
            true => [frame(1, b""), frame(0, b"x").repeat(count), frame(LAST, b"")].concat(),
            false => text(&"x".repeat(count)),
        };
        let start = processor_time();
        assert_eq!(decoded(&bytes, pieces, 1 << 30).0.len(), 1);
        processor_time() - start
    };
    for (pieces, of_one) in [(1, false), (1, true), (4096, true)] {
        let best = |count| (0..3).map(|_| time(count, pieces, of_one)).min().unwrap();
        let (few, many) = (best(20_000), best(160_000));
        assert!(many < 24 * few, "{pieces} {of_one}: {few} and {many} ns");
    }
}

/// All messages of a large buffer are taken one at a time, which must not move the rest each time.
#[test]
fn many_small_messages_of_one_read_are_linear() {
    let bytes = text("x").repeat(300_000);
    let start = processor_time();
    assert_eq!(decoded(&bytes, bytes.len(), 100).0.len(), 300_000);
    assert!(processor_time() - start < 5_000_000_000);
}
