use super::*;

fn lines(inbox: &mut Inbox) -> Vec<String> {
    let lines = std::iter::from_fn(|| inbox.next_line());
    lines.map(|line| String::from_utf8(line).unwrap()).collect()
}

/// Takes what came, and returns the whole lines, as a server does that is done with all.
fn come(inbox: &mut Inbox, data: &[u8]) -> Vec<String> {
    inbox.push(data);
    let found = lines(inbox);
    inbox.cut();
    found
}

#[test]
fn lines_may_come_byte_by_byte() {
    let mut inbox = Inbox::default();
    let found: Vec<String> = b"1 lock a\n22 ood\n3"
        .iter()
        .flat_map(|byte| come(&mut inbox, &[*byte]))
        .collect();
    assert_eq!(found, ["1 lock a", "22 ood"]);
}

#[test]
fn lines_that_came_together_are_taken_one_by_one() {
    let mut inbox = Inbox::default();
    inbox.push(b"1 a\n2 b\n\n3 c");
    assert_eq!(inbox.next_line().unwrap(), b"1 a");
    inbox.push(b"c\n");
    assert_eq!(lines(&mut inbox), ["2 b", "", "3 cc"]);
}

#[test]
fn of_a_line_that_is_too_long_the_beginning_is_kept() {
    let mut inbox = Inbox::default();
    assert!(come(&mut inbox, b"7 look ").is_empty());
    for _ in 0..100 {
        assert!(come(&mut inbox, &[b'a'; 10_000]).is_empty());
        assert!(!inbox.is_full());
    }
    let found = come(&mut inbox, b"a\n8 ood\n");
    let lengths: Vec<usize> = found.iter().map(String::len).collect();
    assert_eq!(lengths, [MOST_LINE, 5]);
    assert!(found[0].starts_with("7 look a"));
}

#[test]
fn an_inbox_is_full_if_more_is_there_than_a_line_may_have() {
    let mut inbox = Inbox::default();
    inbox.push(&[b'a'; MOST_LINE]);
    assert!(!inbox.is_full());
    inbox.push(b"\n");
    assert!(inbox.is_full());
    assert_eq!(lines(&mut inbox).len(), 1);
    assert!(!inbox.is_full());
}

#[test]
fn the_first_line_may_be_that_a_client_only_asks() {
    for (data, wanted, rest) in [
        (&b"0 ques"[..], None, &[][..]),
        (b"0 question\n1 ood\n", Some(true), &["1 ood"]),
        (b"0 questions\n", Some(false), &["0 questions"]),
        (b"1 ood\n", Some(false), &["1 ood"]),
    ] {
        let mut inbox = Inbox::default();
        inbox.push(data);
        assert_eq!(inbox.begins_with_question(), wanted);
        assert_eq!(lines(&mut inbox), rest);
    }
}

#[test]
fn a_line_has_an_id_of_digits() {
    let (id, request) = parted(b"013 state a b").unwrap();
    assert_eq!((id.digits(), request), (&b"013"[..], &b"state a b"[..]));
    assert_eq!(parted(b"5").unwrap().1, b"");
    for line in ["", "x", "-1 ood", " 1 ood", "1x ood"] {
        assert!(parted(line.as_bytes()).is_none(), "{line}");
    }
}

#[test]
fn requests_of_the_server_are_read() {
    for (text, wanted) in [
        (
            "wait a -",
            Request::Wait {
                target: b"a",
                parent: b"-",
            },
        ),
        (
            "forget a b",
            Request::Forget {
                target: b"a",
                parent: b"b",
            },
        ),
        ("made a", Request::Made(b"a")),
        ("edited", Request::Edited(vec![])),
        ("look", Request::Look(vec![])),
        ("look a b", Request::Look(vec![b"a", b"b"])),
        ("look ", Request::Look(vec![b""])),
        ("group 5", Request::Group(vec![b"5"])),
        ("end", Request::End),
        ("session", Request::Session),
        ("turn", Request::Turn),
        ("ood", Request::Database(b"ood")),
        ("lock a b", Request::Database(b"lock a b")),
        ("", Request::Database(b"")),
        ("looks a", Request::Database(b"looks a")),
    ] {
        assert_eq!(Request::parse(text.as_bytes()), Ok(wanted), "{text}");
    }
}

#[test]
fn requests_of_the_server_may_be_faulty() {
    let long = format!("wait {} -", "a".repeat(256));
    for (text, wanted) in [
        ("wait", Fault::WrongWords),
        ("wait a", Fault::WrongWords),
        ("wait a - x", Fault::WrongWords),
        ("wait - a", Fault::BadName),
        ("wait #a a", Fault::BadName),
        ("wait a =>", Fault::BadName),
        ("wait  a", Fault::BadName),
        (&long, Fault::BadName),
        ("forget a", Fault::WrongWords),
        ("made", Fault::WrongWords),
        ("made a b", Fault::WrongWords),
        ("late 5", Fault::WrongWords),
        ("late x a", Fault::WrongWords),
        ("late -5 a", Fault::WrongWords),
        ("end now", Fault::WrongWords),
        ("session x", Fault::WrongWords),
        ("turn x", Fault::WrongWords),
    ] {
        assert_eq!(Request::parse(text.as_bytes()), Err(wanted), "{text}");
    }
}

#[test]
fn a_moment_may_have_any_number_of_digits() {
    let digits = "9".repeat(60);
    for (text, since) in [("5", 5), (digits.as_str(), i128::MAX)] {
        let request = format!("late {text} a b");
        let names = vec![&b"a"[..], b"b"];
        assert_eq!(
            Request::parse(request.as_bytes()),
            Ok(Request::Late { since, names })
        );
    }
}

#[test]
fn questions_need_no_session() {
    for request in [
        "look",
        "look a",
        "made a",
        "edited",
        "late 5 a",
        "session",
        "turn",
        "state a",
        "why a",
        "deps a",
        "ood",
        "targets",
        "sources",
        "file //always 5",
    ] {
        assert!(needs_no_session(request.as_bytes()), "{request}");
    }
    for request in [
        "lock a",
        "unlock a",
        "wait a -",
        "forget a -",
        "group 5",
        "ungroup 5",
        "end",
        "file a 1",
        "gone a",
        "file //alway 1",
        "file //always",
        "",
        "bogus",
    ] {
        assert!(!needs_no_session(request.as_bytes()), "{request}");
    }
}
