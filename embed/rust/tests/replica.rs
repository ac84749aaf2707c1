//! Which messages a replica takes, and what it shows.

use ripsawbean::{BeginError, Command, Message, Replica, ReplicaError, Row, Span, TakeError};

fn row(key: &[u8], after: Option<&[u8]>, updated: u64) -> Message {
    Message::Row(Row { key: key.to_vec(), after: after.map(<[u8]>::to_vec), updated })
}

#[test]
fn messages_are_taken_or_refused() {
    let mut replica = Replica::open(Command::OpenInitial { span: Span::ALL, cursor: 7 }).expect("it opens");
    assert_eq!((replica.complete_through(), replica.complete_at()), (None, None));
    let value = vec![b'v'; 65536];
    replica.take(&row(b"\xff", Some(&value), 7)).expect("it is taken");
    assert_eq!(replica.ready(&row(b"a", None, 8)), Ok(Some(7)));
    replica.take(&row(b"a", Some(b"-"), 8)).expect("it is taken");
    assert_eq!(replica.take(&row(b"a", None, 8)), Err(TakeError::NotAfter));
    assert_eq!(replica.take(&row(b"", None, 9)), Err(TakeError::NoMessage));
    assert_eq!(replica.take(&Message::Resolved(7)), Err(TakeError::ResolvedBack));
    assert_eq!(replica.complete_through(), Some(7));
    replica.take(&Message::Resolved(8)).expect("it is taken");
    assert_eq!((replica.complete_through(), replica.complete_at()), (Some(8), Some(8)));
    assert_eq!(replica.rows(), Ok(vec![(b"a".to_vec(), b"-".to_vec()), (b"\xff".to_vec(), value)]));
    assert_eq!(replica.get(b"a"), Ok(Some(b"-".as_slice())));
    assert_eq!(replica.get(b"b"), Ok(None));
    assert!(matches!(replica.get(b""), Err(ReplicaError::Line(_))));
    let far = Replica::open(Command::Open { span: Span::ALL, cursor: u64::MAX });
    assert_eq!(far.map(|_| ()), Err(ReplicaError::NoFeed));
}

#[test]
fn rows_to_begin_with() {
    let span = Span { lo: b"a", hi: Some(b"c") };
    let begin = |command, rows: &[(&[u8], &[u8])]| Replica::begin(command, rows.iter().copied());
    for cursor in [0, 5, i64::MAX as u64] {
        let mut replica = begin(Command::Open { span, cursor }, &[(b"a", b"-"), (b"b ", b"")]).expect("it opens");
        assert_eq!(replica.rows(), Ok(vec![(b"a".to_vec(), b"-".to_vec()), (b"b ".to_vec(), vec![])]));
        assert_eq!((replica.complete_through(), replica.complete_at()), (Some(cursor), Some(cursor)));
    }
    let mut empty = begin(Command::OpenEvery { span, cursor: 5, gap: 2 }, &[]).expect("it opens");
    assert_eq!(empty.ready(&row(b"a", None, 7)), Ok(Some(6)));
    let refused = |command, rows: &[(&[u8], &[u8])]| begin(command, rows).map(|_| ()).unwrap_err();
    let command = Command::Open { span, cursor: 5 };
    assert_eq!(refused(command, &[(b"d", b"1"), (b"", b"1")]), BeginError::NoRows);
    assert_eq!(refused(command, &[(b"b", b"1"), (b"a", b"1")]), BeginError::NotAfter);
    assert_eq!(refused(command, &[(b"a", b"1"), (b"c", b"1")]), BeginError::OutsideSpan);
    let no_feed = BeginError::Replica(ReplicaError::NoFeed);
    for command in [
        Command::OpenInitial { span, cursor: 5 },
        Command::OpenInitialEvery { span, cursor: 5, gap: 2 },
        Command::Open { span, cursor: u64::MAX },
        Command::Stats,
    ] {
        assert_eq!(refused(command, &[(b"d", b"1")]), no_feed);
    }
    let lo = [b'k'; 258];
    let command = Command::Open { span: Span { lo: &lo, hi: None }, cursor: 5 };
    assert!(matches!(refused(command, &[]), BeginError::Replica(ReplicaError::Line(_))));
}
