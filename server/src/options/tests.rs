use super::*;
use crate::testing::Dice;
use std::path::Path;

/// What is asked by a command line, an environment and a file `server.conf`.
fn given(words: &str, environment: &[(&str, &str)], file: &str) -> Result<Asked, Fault> {
    let words: Vec<String> = words.split_whitespace().map(str::to_string).collect();
    let look = |name: &str| environment.iter().find(|(one, _)| *one == name).map(|(_, value)| OsString::from(value));
    asked(&words, look, |name| {
        assert_eq!(name, Path::new("server.conf"));
        Ok(file.to_string())
    })
}

fn options_of(words: &str, environment: &[(&str, &str)], file: &str) -> Options {
    match given(words, environment, file) {
        Ok(Asked::Serve(options)) => *options,
        other => panic!("{other:?}"),
    }
}

fn fault_of(words: &str, environment: &[(&str, &str)], file: &str) -> String {
    given(words, environment, file).unwrap_err().to_string()
}

#[test]
fn defaults_are_those_that_operators_know() {
    let options = options_of("", &[], "");
    let seconds = |number: f64| Duration::from_secs_f64(number);
    assert_eq!((options.port, options.address.to_string()), (7077, "127.0.0.1".to_string()));
    assert_eq!((options.max_lag, options.ahead), (1_000_000, 1_000_000));
    assert_eq!((options.keep, options.keep_bytes), (10_000, 67_108_864));
    assert_eq!((options.max_message, options.max_reply, options.max_answer), (1_048_576, 8_388_608, 4_194_304));
    assert_eq!((options.max_connections, options.max_feeds, options.max_consumers), (512, 256, 1024));
    assert_eq!((options.close_every, options.max_age, options.history), (seconds(0.0), seconds(30.0), seconds(5.0)));
    assert_eq!((options.heartbeat, options.patience), (seconds(20.0), seconds(30.0)));
    assert_eq!((options.max_held, options.max_memory, options.max_lag_bytes), (1000, None, 1 << 30));
    assert_eq!((options.seat_age, options.drain), (seconds(0.0), seconds(0.0)));
    assert_eq!((options.tokens, options.tls, options.host), (None, None, vec![]));
    assert_eq!((options.log_level, options.log_json), (Level::Warn, false));
}

#[test]
fn what_is_kept_has_a_place() {
    let options = options_of("", &[], "");
    assert_eq!((options.data, options.restore, options.moved, options.checkpoint_bytes), (None, None, false, 64 << 20));
    let address = "postgresql://keeper@localhost/kept?options=-c%20a%3Db";
    let options = options_of("--moved --config server.conf", &[], &format!("data = {address}\nrestore = backup\n"));
    assert_eq!((options.data, options.restore, options.moved), (Some(address.into()), Some("backup".into()), true));
    for words in ["--moved", "--restore backup"] {
        assert!(fault_of(words, &[], "").contains("--data FOLDER"), "{words}");
    }
}

#[test]
fn the_command_line_says_more_than_the_environment_and_that_more_than_the_file() {
    let file = "# a comment\n\n max-lag = 3 \nport=30\nmax-feeds = 300\nhost = c.example\nhost = d.example\n";
    let environment = [("RIPSAWBEAN_MAX_LAG", "2"), ("RIPSAWBEAN_PORT", "20"), ("RIPSAWBEAN_KEEP", "")];
    let options = options_of("--max-lag 1 --config server.conf", &environment, file);
    assert_eq!((options.max_lag, options.port, options.max_feeds, options.keep), (1, 20, 300, 10_000));
    assert_eq!(options.host, ["c.example", "d.example"]);
    let environment = [("RIPSAWBEAN_CONFIG", "server.conf"), ("RIPSAWBEAN_HOST", " a.example  b.example:8443")];
    let options = options_of("", &environment, file);
    assert_eq!((options.port, options.host), (30, vec!["a.example".to_string(), "b.example:8443".to_string()]));
    let options = options_of("--host x --host=y", &environment, file);
    assert_eq!(options.host, ["x", "y"]);
}

#[test]
fn values_take_each_form() {
    let words = "--port=0 --patience 0.1 --seat-age 2.5 --log-level debug --log-json --max-memory 1000000";
    let options = options_of(words, &[], "");
    assert_eq!((options.port, options.max_memory), (0, Some(1_000_000)));
    assert_eq!(
        ["0", "auto"].map(|word| options_of(&format!("--max-memory {word}"), &[], "").max_memory),
        [Some(0), None]
    );
    assert_eq!(options.patience, Duration::from_millis(100));
    assert_eq!(options.seat_age, Duration::from_millis(2500));
    assert_eq!((options.log_level, options.log_json), (Level::Debug, true));
    let file = "log-json = yes\nlog-level = warn\n";
    assert!(options_of("--config server.conf", &[], file).log_json);
    assert!(!options_of("--config server.conf --log-json=no", &[], file).log_json);
    for (word, is_json) in [("1", true), ("true", true), ("yes", true), ("0", false), ("false", false), ("no", false)] {
        assert_eq!(options_of("", &[("RIPSAWBEAN_LOG_JSON", word)], "").log_json, is_json, "{word}");
        assert_eq!(options_of(&format!("--log-json={word}"), &[], "").log_json, is_json, "{word}");
    }
    assert_eq!(options_of("--tls-cert a --tls-key b", &[], "").tls.unwrap().key, Path::new("b"));
}

#[test]
fn values_out_of_their_range_are_refused_with_it() {
    for (words, sentence) in [
        ("--port 65536", "argument --port: 65536 is not 0 to 65535"),
        ("--port -1", "argument --port: -1 is not 0 to 65535"),
        ("--port x", "argument --port: x is not 0 to 65535"),
        ("--ring 0", "argument --ring: 0 is not 1 to 65536"),
        ("--ring=", "argument --ring:  is not 1 to 65536"),
        ("--max-connections 7", "argument --max-connections: 7 is not 8 to 1048576"),
        ("--max-lag 99999999999999999999", "argument --max-lag: 99999999999999999999 is not 1 to 4611686018427387904"),
        ("--patience 0.05", "argument --patience: 0.05 is not 0.1 to 1000000000"),
        ("--history nan", "argument --history: nan is not 0 to 1000000000"),
        ("--history -0.5", "argument --history: -0.5 is not 0 to 1000000000"),
        ("--history inf", "argument --history: inf is not 0 to 1000000000"),
        ("--max-age 1e10", "argument --max-age: 1e10 is not 0.01 to 1000000000"),
        ("--port", "argument --port: expected one argument"),
        ("--port 1 --port 1", "argument --port: it is given twice"),
        ("--port 1 --host a --port=2", "argument --port: it is given twice"),
        ("--log-json --log-json", "argument --log-json: it is given twice"),
        ("--prot 1", "unrecognized arguments: --prot"),
        ("7077", "unrecognized arguments: 7077"),
        ("--", "unrecognized arguments: --"),
        ("--max-memory 1G", "argument --max-memory: \"1G\" is not auto or a number of bytes"),
        ("--log-level loud", "argument --log-level: \"loud\" is not error, warn, info or debug"),
        ("--log-json=on", "argument --log-json: \"on\" is not yes or no"),
        ("--host http://a", "argument --host: \"http://a\" is not a name as a browser's Host says it"),
        ("--token=", "argument --token: \"\" is not a file"),
    ] {
        assert_eq!(fault_of(words, &[], ""), sentence, "{words}");
    }
    assert_eq!(fault_of("", &[("RIPSAWBEAN_PORT", "x")], ""), "RIPSAWBEAN_PORT: x is not 0 to 65535");
    let sentence = "RIPSAWBEAN_LOG_JSON: \"True\" is not yes or no";
    assert_eq!(fault_of("", &[("RIPSAWBEAN_LOG_JSON", "True")], ""), sentence);
    let sentence = "--config server.conf line 2: keep: x is not 0 to 4611686018427387904";
    assert_eq!(fault_of("--config server.conf", &[], "\nkeep = x\n"), sentence);
}

#[test]
fn a_file_has_options_alone_and_each_once() {
    for (file, sentence) in [
        ("port 1\n", "line 1: this is no NAME = VALUE"),
        ("\nprot = 1\n", "line 2: there is no option \"prot\" of a file"),
        ("--port = 1\n", "line 1: there is no option \"--port\" of a file"),
        ("config = a\n", "line 1: there is no option \"config\" of a file"),
        ("help = yes\n", "line 1: there is no option \"help\" of a file"),
        ("port = 1\nport = 1\n", "line 2: port is given twice"),
    ] {
        assert_eq!(fault_of("--config server.conf", &[], file), format!("--config server.conf {sentence}"));
    }
    let fault = sources::content(Path::new("/no/such/file")).unwrap_err();
    assert_eq!(fault.to_string(), "--config /no/such/file: No such file or directory (os error 2)");
    assert!(sources::content(Path::new("/dev/zero")).is_err());
}

#[test]
fn an_address_that_others_reach_needs_a_token() {
    for address in ["127.0.0.1", "127.9.9.9", "::1", "::ffff:127.0.0.1"] {
        options_of(&format!("--address {address}"), &[], "");
    }
    for address in ["0.0.0.0", "::", "192.0.2.1", "::ffff:192.0.2.1"] {
        let sentence = format!("--address {address} can be reached by others: it needs --token FILE");
        assert_eq!(fault_of(&format!("--address {address}"), &[], ""), sentence);
        let options = options_of(&format!("--address {address} --token a"), &[], "");
        assert_eq!(options.tokens, Some(TokenFile::One("a".into())));
        options_of(&format!("--address {address} --tokens a"), &[], "");
    }
    assert_eq!(fault_of("--address localhost", &[], ""), "--address localhost is no address");
    let sentence = "--token and --tokens are two ways to say it: give one of them";
    assert_eq!(fault_of("--token a", &[("RIPSAWBEAN_TOKENS", "b")], ""), sentence);
    let sentence = "--tls-cert and --tls-key belong together: give both";
    assert_eq!(fault_of("--tls-cert a", &[], ""), sentence);
    assert_eq!(fault_of("--tls-key a", &[], ""), sentence);
}

#[test]
fn help_lists_every_option_whatever_else_is_said() {
    for words in ["--help", "-h", "--port 1 --help --address 0.0.0.0"] {
        let Ok(Asked::Help(text)) = given(words, &[("RIPSAWBEAN_PORT", "x")], "") else { panic!("{words}") };
        for row in &TABLE {
            assert!(text.contains(&format!("  --{} ", row.name)), "{}", row.name);
        }
        let row = "  --history S             how long a timestamp can be read after it was closed (5)\n";
        assert!(text.contains(row) && text.contains("(7077)\n"));
    }
    assert!(matches!(given("--version", &[], ""), Ok(Asked::Version(_))));
}

#[test]
fn words_that_are_no_text_are_refused() {
    use std::os::unix::ffi::OsStringExt;
    let words = [OsString::from_vec(b"--port\xff".to_vec())];
    assert_eq!(sources::texts(words.into_iter()).unwrap_err().to_string(), "--port\u{fffd} is no UTF-8");
}

#[test]
fn any_file_gives_options_within_their_ranges_or_a_sentence() {
    let mut dice = Dice::new(13);
    let pieces: [&[u8]; 14] =
        [b" = ", b"=", b"\n", b"\n", b"#", b"0", b"1", b"77", b"0.5", b"-", b"yes", b"127.0.0.1", b"0.0.0.0", b"debug"];
    let (mut served, mut count) = (0, 0);
    dice.each(|dice| {
        count += 1;
        let mut file = Vec::new();
        for _ in 0..dice.below(5) {
            file.extend_from_slice(dice.of(&TABLE).name.as_bytes());
            file.extend_from_slice(if dice.one_in(20) { b"" } else { b" = " });
            file.extend(dice.some(&pieces, 4));
            file.push(b'\n');
        }
        let file = String::from_utf8(file).expect("pieces are UTF-8");
        match given("--config server.conf", &[], &file) {
            Ok(Asked::Serve(options)) => {
                served += 1;
                assert!(options.max_connections >= 8 && options.max_feeds >= 1, "{file}");
                assert!(options.patience >= Duration::from_millis(100) && options.max_message <= 1 << 30, "{file}");
                assert!(options.address.is_loopback() || options.tokens.is_some(), "{file}");
            }
            Ok(other) => panic!("{other:?}"),
            Err(fault) => assert!(!fault.to_string().is_empty() && !fault.to_string().contains('\n'), "{file}"),
        }
    });
    assert!(count < 1000 || served > 0);
}
