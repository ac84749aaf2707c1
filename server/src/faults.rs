//! Why a line is faulty, in words that say what would be right. `lines` puts them behind the fault's name.
//!
//! ```text
//! put . k 10 EUR      fault 2 1 wordcount put takes TS KEY VALUE; a space inside a word is spelled %20
//! 0 begin 10          fault 3 2 unknowncommand no command has this name; leave out the session, which is the connection
//! ```
//!
//! Programs read the first four words. The words behind them may change.

/// What each command takes. A session's `begin` may leave its timestamp out.
const USAGE: [(&str, &str); 21] = [
    ("begin", "TS, or no word"),
    ("get", "TS KEY"),
    ("scan", "TS LO HI"),
    ("put", "TS KEY VALUE"),
    ("del", "TS KEY"),
    ("commit", "TS"),
    ("abort", "TS"),
    ("close", "TO"),
    ("closehard", "TO"),
    ("readat", "T KEY"),
    ("scanat", "T LO HI"),
    ("protect", "T"),
    ("release", "ID"),
    ("collect", "TO"),
    ("open", "LO HI CURSOR"),
    ("openinitial", "LO HI CURSOR"),
    ("openevery", "LO HI CURSOR GAP"),
    ("openinitialevery", "LO HI CURSOR GAP"),
    ("poll", "FEED MAX"),
    ("cancel", "FEED"),
    ("stats", "no word"),
];

/// The words of a fault by its name, of the line that has it.
pub fn why(name: &str, line: &[u8]) -> String {
    let words: Vec<&[u8]> = line.strip_suffix(b"\n").unwrap_or(line).split(|&byte| byte == b' ').collect();
    let usage = USAGE.iter().find(|(command, _)| command.as_bytes() == words[0]);
    let sentence = match name {
        "wordcount" => return wordcount(usage, &words),
        "unknowncommand" if words[0].first().is_some_and(u8::is_ascii_digit) => {
            "no command has this name; leave out the session, which is the connection"
        }
        "unknowncommand" => "no command has this name",
        "number" if words.get(1) == Some(&&b"."[..]) => {
            "the dot stands for no transaction: begin came to nothing, or wasn't there"
        }
        "number" => "a number has the digits of 0 to 18446744073709551615, without a leading zero",
        "keylength" => "a key has 1 to 256 bytes, a bound 257 at most",
        "valuelength" => "a value has 65536 bytes at most",
        "nonewline" => "the last line of a message ends in a newline too",
        "linetoolong" => "a line has 200000 bytes at most",
        "badbyte" if line.ends_with(b"\r\n") => "a line ends in a newline alone, without a carriage return",
        "badbyte" => "bytes other than ! to ~, and %, are spelled %XX in capitals; no bytes are -",
        "nomemory" => "there was no memory for it: nothing was changed",
        "spent" => "no position is left for an event",
        "notyours" => "the server holds it for a stream, a consumer or a request",
        "ahead" => "this timestamp lies more than --ahead above all others",
        "replytoolong" => "the answers to this message are longer than --max-reply",
        "answertoolong" => {
            "the answers to this message would be longer than --max-answer, or a scan has more than 32768 rows, or passes \
             over too many deleted keys: ask for less, or in another message"
        }
        "full" if line.starts_with(b"put") => "memory is full: keys can be deleted, and not put",
        "full" if line.starts_with(b"open") || line.starts_with(b"protect") => {
            "memory is full, and so is what feeds and protections may take beside it: end others first"
        }
        "full" => "memory is full, and so is what transactions and deletes may take beside it: ask again soon",
        "toomany" => "the session holds as many of these as it may",
        "noright" => "the token has no right to this, or is for other keys",
        "draining" => "the server is about to end",
        "skipped" => "a line before it in this message failed: commit . aborts",
        _ => "docs/GUIDE.md says more",
    };
    sentence.to_string()
}

fn wordcount(usage: Option<&(&str, &str)>, words: &[&[u8]]) -> String {
    let Some((command, takes)) = usage else {
        return "a line is a command and its words, with one space between two".to_string();
    };
    let is_spaced = takes.contains("VALUE") || takes.contains("KEY");
    let space = match is_spaced && words.len() > takes.split(' ').count() + 1 {
        true => "; a space inside a word is spelled %20",
        false => "",
    };
    format!("{command} takes {takes}{space}")
}

#[cfg(test)]
mod tests {
    use super::*;

    #[test]
    fn words_say_what_would_be_right() {
        for (name, line, words) in [
            ("wordcount", "put . k 10 EUR\n", "put takes TS KEY VALUE; a space inside a word is spelled %20"),
            ("wordcount", "put . k\n", "put takes TS KEY VALUE"),
            ("wordcount", "begin 1 2\n", "begin takes TS, or no word"),
            ("wordcount", "stats 1\n", "stats takes no word"),
            ("wordcount", "\n", "a line is a command and its words, with one space between two"),
            (
                "unknowncommand",
                "0 begin 10\n",
                "no command has this name; leave out the session, which is the connection",
            ),
            ("unknowncommand", "foo\n", "no command has this name"),
            ("number", "put . a 1\n", "the dot stands for no transaction: begin came to nothing, or wasn't there"),
            ("full", "put . a 1\n", "memory is full: keys can be deleted, and not put"),
            (
                "full",
                "protect 0\n",
                "memory is full, and so is what feeds and protections may take beside it: end others first",
            ),
            ("badbyte", "stats\r\n", "a line ends in a newline alone, without a carriage return"),
        ] {
            assert_eq!(why(name, line.as_bytes()), words, "{line}");
        }
    }

    #[test]
    fn each_fault_has_words_of_its_own() {
        for name in
            "wordcount unknowncommand number keylength valuelength nonewline linetoolong badbyte nomemory spent notyours \
             ahead replytoolong answertoolong full toomany noright draining skipped"
                .split_whitespace()
        {
            let words = why(name, b"put 1 a 1\n");
            assert!(!words.is_empty() && !words.contains("GUIDE") && !words.contains('\n'), "{name}");
        }
    }
}
