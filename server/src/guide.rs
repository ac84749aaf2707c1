//! The transcripts of docs/GUIDE.md as lines of JSON, each under the heading where it stands.
//!
//! `build.rs` calls it, so the binary holds its answer and not the guide. The page offers them as examples to run.
//!
//! ```text
//! ### Why a write comes too late          {"heading":"Why a write comes too late","events":[
//! ```                                 =>    {"seat":"0","line":"begin 10","answer":"started"}]}
//! 0 0 begin 10 => started
//! ```
//! ```
//!
//! 1. A fenced piece that is a shell's, or that has no event, gives nothing.
//! 2. Pieces come in the guide's order, events in theirs.

use std::fmt::Write;

const FENCE: &str = "```";

/// An event of a transcript: who gave which line, and the answer.
struct Event<'a> {
    seat: &'a str,
    line: &'a str,
    answer: &'a str,
}

/// A line of JSON for each transcript of the guide.
pub fn examples_in(guide: &str) -> String {
    let (mut out, mut heading, mut fenced) = (String::new(), "", None::<Vec<&str>>);
    for line in guide.lines() {
        fenced = match fenced {
            Some(lines) if line.starts_with(FENCE) => {
                tell(&mut out, heading, &lines);
                None
            }
            Some(mut lines) => {
                lines.push(line);
                Some(lines)
            }
            None if line.starts_with(FENCE) => Some(Vec::new()),
            None => {
                heading = heading_of(line).unwrap_or(heading);
                None
            }
        };
    }
    out
}

fn heading_of(line: &str) -> Option<&str> {
    let text = line.trim_start_matches('#');
    (text.len() < line.len()).then_some(text)?.strip_prefix(' ')
}

fn tell(out: &mut String, heading: &str, lines: &[&str]) {
    let is_a_shells = lines.first().is_some_and(|line| line.starts_with('$'));
    let events: Vec<String> = lines.iter().filter_map(|line| event_of(line)).map(|event| object_of(&event)).collect();
    if is_a_shells || events.is_empty() {
        return;
    }
    out.push_str(&format!("{{\"heading\":{},\"events\":[{}]}}\n", quoted(heading), events.join(",")));
}

fn event_of(line: &str) -> Option<Event<'_>> {
    let (position, rest) = line.split_once(' ')?;
    let (seat, rest) = rest.split_once(' ')?;
    // A key may be spelled as the arrow is, so the answer stands behind the last one.
    let (line, answer) = rest.rsplit_once(" => ")?;
    let are_digits = [position, seat].iter().all(|word| !word.is_empty() && word.bytes().all(|it| it.is_ascii_digit()));
    (are_digits && !line.is_empty() && !answer.is_empty()).then_some(Event { seat, line, answer })
}

fn object_of(event: &Event<'_>) -> String {
    let [seat, line, answer] = [event.seat, event.line, event.answer].map(quoted);
    format!("{{\"seat\":{seat},\"line\":{line},\"answer\":{answer}}}")
}

/// A text as a string of JSON.
fn quoted(text: &str) -> String {
    let mut out = String::from("\"");
    for one in text.chars() {
        match one {
            '"' | '\\' => out.extend(['\\', one]),
            one if one.is_ascii() && !one.is_ascii_control() => out.push(one),
            one => one.encode_utf16(&mut [0; 2]).iter().for_each(|unit| {
                write!(out, "\\u{unit:04x}").expect("a string takes what is written");
            }),
        }
    }
    out.push('"');
    out
}

#[cfg(test)]
mod tests {
    use super::*;

    #[test]
    fn a_transcript_stands_under_its_heading() {
        let guide = "# Guide\ntext\n## Late\n\n```\n0 0 begin 10 => started\n1 1 get 20 a => none\n```\nmore\n";
        assert_eq!(
            examples_in(guide),
            "{\"heading\":\"Late\",\"events\":[{\"seat\":\"0\",\"line\":\"begin 10\",\"answer\":\"started\"},\
             {\"seat\":\"1\",\"line\":\"get 20 a\",\"answer\":\"none\"}]}\n"
        );
    }

    #[test]
    fn a_shells_piece_and_one_without_events_give_nothing() {
        let guide = "# A\n```\n$ ./mvfeed run\n0 0 begin 10 => started\n```\n```text\nno event\n```\n```\n```\n";
        assert_eq!(examples_in(guide), "");
    }

    #[test]
    fn a_heading_within_a_piece_is_none_and_messages_are_left_out() {
        let guide = "# A\n```\n# B\n9 0 poll 1 10 => messages 1\n{\"resolved\":\"30\"}\n```\n```\n10 0 put 5 => => => toolate\n```\n";
        let expected = concat!(
            "{\"heading\":\"A\",\"events\":[{\"seat\":\"0\",\"line\":\"poll 1 10\",\"answer\":\"messages 1\"}]}\n",
            "{\"heading\":\"A\",\"events\":[{\"seat\":\"0\",\"line\":\"put 5 => =>\",\"answer\":\"toolate\"}]}\n",
        );
        assert_eq!(examples_in(guide), expected);
    }

    #[test]
    fn strings_are_those_of_json() {
        assert_eq!(quoted("a\"b\\c\té\u{1f600}"), "\"a\\\"b\\\\c\\u0009\\u00e9\\ud83d\\ude00\"");
    }

    #[test]
    fn the_guide_has_the_late_write() {
        let guide = include_str!("../../docs/GUIDE.md");
        let told = examples_in(guide);
        let late = told
            .lines()
            .find(|line| line.starts_with("{\"heading\":\"Why a write comes too late\""))
            .expect("it is there");
        for event in [
            r#"{"seat":"0","line":"put 10 a 1","answer":"toolate"}"#,
            r#"{"seat":"0","line":"commit 10","answer":"ended"}"#,
            r#"{"seat":"1","line":"commit 20","answer":"committed 0"}"#,
        ] {
            assert!(late.contains(event), "{event}");
        }
    }
}
