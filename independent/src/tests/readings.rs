//! Readings of path texts: refusals 1 to 7 with their places, and the limits on both sides.

use super::output;
use crate::paths::{read, Expression, Refused};

fn refusal(text: impl AsRef<[u8]>) -> Option<(u8, usize)> {
    read(text.as_ref(), None)
        .err()
        .map(|Refused { number, place }| (number, place))
}

/// Positions, names and mark.
fn figures(text: &str) -> String {
    output(text).trim_end().to_string()
}

fn distinct(count: usize) -> Vec<String> {
    (0..count).map(|number| format!("n{number}")).collect()
}

#[test]
fn sample_readings_of_refusals() {
    let samples = [
        ("", 4, 0),
        ("path end", 4, 5),
        ("path a", 4, 6),
        ("path a + end", 4, 9),
        ("path (a end", 4, 8),
        ("path 3 end", 2, 5),
        ("path a end end", 4, 11),
    ];
    for (text, number, place) in samples {
        assert_eq!(refusal(text), Some((number, place)), "{text}");
        assert_eq!(output(text), format!("refused {number} at {place}\n"));
    }
}

#[test]
fn sample_readings_of_paths() {
    assert_eq!(figures("path a b (a + b*) c end"), "path 5 3 0");
    assert_eq!(figures("path write (write (write read)* read)* read end"), "path 6 2 0");
    assert_eq!(figures("path a (b + b (a b)*) end"), "path 5 2 0");
    assert_eq!(figures("path a* end"), "path 1 1 1");
}

#[test]
fn where_the_grammar_stops() {
    let samples = [
        ("a", 0),
        ("end", 0),
        ("Path a end", 0),
        ("PATH a end", 0),
        ("paths a end", 0),
        ("path", 4),
        ("path  ", 6),
        ("path a \t\r", 9),
        ("path path a end", 5),
        ("path a path end", 7),
        ("path ; a end", 5),
        ("path a ;; b end", 8),
        ("path a ; + b end", 9),
        ("path a ; end", 9),
        ("path a + + b end", 9),
        ("path * a end", 5),
        ("path a + * end", 9),
        ("path a ) end", 7),
        ("path () end", 6),
        ("path (a + ) end", 10),
        ("path (a", 7),
        ("path a end b", 11),
        ("path a end (", 11),
        ("path a end *", 11),
        ("path aend", 9),
        ("patha end", 0),
        ("path a END", 10),
    ];
    for (text, place) in samples {
        assert_eq!(refusal(text), Some((4, place)), "{text}");
    }
}

#[test]
fn bad_bytes_and_digits() {
    for bad in [
        0, 11, 12, 31, b'!', b',', b'-', b'.', b'/', b':', b'@', b'[', b'`', b'{', 127, 128, 160, 255,
    ] {
        let text = [b"path a", &[bad][..], b" end"].concat();
        assert_eq!(refusal(&text), Some((2, 6)), "byte {bad}");
    }
    for digit in b'0'..=b'9' {
        assert_eq!(refusal([b"path a ", &[digit][..], b"a end"].concat()), Some((2, 7)));
        assert_eq!(refusal([b"path a", &[digit][..], b" end"].concat()), None);
    }
    // A bad byte is refused before the grammar speaks, at any place.
    assert_eq!(refusal("3"), Some((2, 0)));
    assert_eq!(refusal("path a end 3"), Some((2, 11)));
    assert_eq!(refusal("path a end a3 3"), Some((4, 11)));
}

#[test]
fn blanks_and_separators() {
    for text in [
        "path a end",
        "\t path\ra;b\n end \r",
        "path a(b)c end",
        "path(a)end",
        "path a*end",
        "path a;b+c*;d end",
    ] {
        assert_eq!(refusal(text), None, "{text}");
    }
    assert_eq!(read(b"path a b end", None), read(b"path a ; b end", None));
    assert_eq!(read(b"path ((a)) (b) end", None), read(b"path a ; b end", None));
}

#[test]
fn binding() {
    let name = |letter: &str| Expression::Name(letter.into());
    let starred = Expression::Star(Box::new(name("b")));
    let sequence = Expression::Sequence(vec![name("a"), starred]);
    let path = read(b"path a b** + c end", None).expect("a path");
    assert_eq!(path.expression, Expression::Choice(vec![sequence, name("c")]));
}

#[test]
fn limit_of_the_text() {
    for (text, padded) in [("path a end", b' '), ("path a", b'*')] {
        let end = if padded == b'*' { "end" } else { "" };
        let at = |length: usize| {
            let mut bytes = text.as_bytes().to_vec();
            bytes.resize(length - end.len(), padded);
            [&bytes[..], end.as_bytes()].concat()
        };
        assert_eq!(refusal(at(4_096)), None);
        assert_eq!(refusal(at(4_097)), Some((1, 4_096)));
    }
    assert_eq!(refusal(vec![b'3'; 5_000]), Some((1, 4_096)));
    assert_eq!(refusal(vec![b' '; 4_096]), Some((4, 4_096)));
}

#[test]
fn limit_of_a_name() {
    assert_eq!(refusal(format!("path {} end", "a".repeat(16))), None);
    assert_eq!(refusal(format!("path {} end", "a".repeat(17))), Some((3, 5)));
    assert_eq!(refusal("a".repeat(17)), Some((3, 0)));
    assert_eq!(refusal(format!("path a end {}", "a".repeat(17))), Some((3, 11)));
    assert_eq!(refusal(format!("path {}\u{e9} end", "a".repeat(17))), Some((3, 5)));
    assert_eq!(refusal(format!("path {}\u{e9} end", "a".repeat(16))), Some((2, 21)));
}

#[test]
fn limit_of_open_parentheses() {
    let nested = |depth: usize| format!("path {}a{} end", "(".repeat(depth), ")".repeat(depth));
    assert_eq!(refusal(nested(16)), None);
    assert_eq!(refusal(nested(17)), Some((5, 21)));
    assert_eq!(refusal(format!("path {} end", "(a)".repeat(40))), None);
    // The 17th is refused though the text would also stop short.
    assert_eq!(refusal(format!("path {}", "(".repeat(17))), Some((5, 21)));
    assert_eq!(refusal(format!("path {}", "(".repeat(16))), Some((4, 21)));
}

#[test]
fn limit_of_positions() {
    assert_eq!(figures(&format!("path{} end", " a".repeat(64))), "path 64 1 0");
    assert_eq!(refusal(format!("path{} end", " a".repeat(65))), Some((6, 133)));
}

#[test]
fn limit_of_distinct_names() {
    assert_eq!(figures(&format!("path {} end", distinct(32).join(" "))), "path 32 32 1");
    let text = format!("path {} end", distinct(33).join(" "));
    assert_eq!(refusal(&text), Some((7, text.find("n32").expect("the 33rd"))));
    let twice = [distinct(32), distinct(32)].concat();
    assert_eq!(figures(&format!("path {} end", twice.join("+"))), "path 64 32 0");
}

#[test]
fn the_lower_number_wins_on_one_token() {
    let full = [distinct(32), distinct(32)].concat().join(" ");
    let fewer = distinct(32).join(" ");
    let place = |text: &str, token: &str| text.rfind(token).expect("the token");
    let cases = [
        (format!("path {full} new end"), "new", 6),
        (format!("path {full} end new"), "new", 4),
        (format!("path {full} end n1"), "n1", 4),
        (format!("path {fewer} new end"), "new", 7),
        (format!("path {fewer} end new"), "new", 4),
        (format!("path {full} aaaaaaaaaaaaaaaaa end"), "aaaaaaaaaaaaaaaaa", 3),
        (format!("path {full} end 3"), "3", 2),
    ];
    for (text, token, number) in cases {
        assert_eq!(refusal(&text), Some((number, place(&text, token))), "{text}");
    }
}
