//! Sessions and whole inputs: replies, refusals 10 to 17, and the edges of call lines.

use super::{output, replies};

#[test]
fn the_listing_of_document_01() {
    let input = "path open (inject + read)* close end\nask 1 open\nask 2 inject\nask 3 close\nfinish 1\n\
                 finish 2\nfinish 3\nask 4 read\nwithdraw 4\n";
    let wanted = "path 4 4 1\ngranted\ndelayed 0\ndelayed 1\nfinished 1 granted 2 inject\n\
                  finished 1 granted 3 close\nfinished 0\ndelayed 0\nwithdrawn 0\n";
    assert_eq!(output(input), wanted);
    assert_eq!(output(input.trim_end()), wanted, "without the last LF");
}

#[test]
fn errors_to_expect() {
    let calls = ["ask 1 a", "finish 1", "ask 1 c", "finish 1", "ask 2 a"];
    assert_eq!(
        replies("path a b + a c end", &calls),
        ["granted", "finished 0", "granted", "finished 0", "granted"]
    );
    assert_eq!(replies("path a b* c end", &calls)[2], "granted");
    let calls = [
        "ask 1 a", "ask 2 a", "ask 3 c", "ask 4 b", "finish 1", "ask 5 b", "finish 4", "finish 5",
    ];
    let wanted = "granted, delayed 0, delayed 1, delayed 2, finished 3 granted 4 b, delayed 2, \
                  finished 1 granted 2 a, refused 14";
    assert_eq!(replies("path a b end", &calls)[2], "refused 11");
    assert_eq!(replies("path a b + c end", &calls).join(", "), wanted);
}

#[test]
fn a_free_line_lets_a_permitted_ask_pass_those_who_wait() {
    let calls = ["ask 1 b", "ask 2 b", "ask 3 a", "finish 3", "withdraw 2", "finish 1"];
    let wanted = [
        "delayed 0",
        "delayed 1",
        "granted",
        "finished 1 granted 1 b",
        "withdrawn 0",
        "finished 0",
    ];
    assert_eq!(replies("path a b end", &calls), wanted);
}

#[test]
fn refusals_in_number_order() {
    let cases = [
        ("ask 64 x", "refused 10"),
        ("ask 64 a", "refused 10"),
        ("ask 1 x", "refused 11"),
        ("ask 2 x", "refused 11"),
        ("ask 1 a", "refused 12"),
        ("ask 2 a", "refused 13"),
        ("finish 64", "refused 10"),
        ("finish 999", "refused 10"),
        ("finish 2", "refused 14"),
        ("finish 3", "refused 14"),
        ("withdraw 64", "refused 10"),
        ("withdraw 1", "refused 15"),
        ("withdraw 3", "refused 15"),
        ("ask 63 a", "delayed 1"),
    ];
    for (call, wanted) in cases {
        assert_eq!(
            replies("path a end", &["ask 1 a", "ask 2 a", call])[2],
            wanted,
            "{call}"
        );
    }
    assert_eq!(replies("path a end", &["finish 0"]), ["refused 14"]);
}

#[test]
fn edges_of_call_lines() {
    let unreadable = [
        "",
        " ",
        "ask",
        "ask ",
        "ask 1",
        "ask 1 ",
        "ask  1 a",
        "ask 1  a",
        " ask 1 a",
        "ask 1 a ",
        "ask 1 a b",
        "ask\t1 a",
        "ask 1\ta",
        "Ask 1 a",
        "ASK 1 a",
        "asks 1 a",
        "ask 0001 a",
        "ask +1 a",
        "ask -1 a",
        "ask x a",
        "ask  a",
        "ask 1a a",
        "finish",
        "finish ",
        "finish 1 ",
        "finish  1",
        "finish 1 a",
        "finish 1\r",
        "finish 1\t",
        "finish 0001",
        "Finish 1",
        "withdraw",
        "withdraw 1 ",
        "withdraw 1\r",
        "withdraw -1",
        "path a end",
        "1",
        "a",
        "ask 1 a\u{20}\r",
    ];
    for call in unreadable {
        assert_eq!(replies("path a end", &[call]), ["refused 16"], "{call:?}");
    }
    let long = format!("ask 1 {}", "a".repeat(500));
    for call in [
        "ask 1 a\r",
        "ask 1 a\t",
        "ask 1 *",
        "ask 1 path",
        "ask 1 end",
        "ask 1 A",
        "ask 1 \u{e9}",
        "ask 1 \0",
        &long,
    ] {
        assert_eq!(replies("path a end", &[call]), ["refused 11"], "{call:?}");
    }
    for call in ["ask 1 a", "ask 01 a", "ask 001 a", "ask 000 a", "ask 063 a"] {
        assert_eq!(replies("path a end", &[call]), ["granted"], "{call:?}");
    }
    assert_eq!(
        replies("path a end", &["ask 007 a", "finish 7", "ask 7 a", "finish 07"])[3],
        "finished 0"
    );
}

#[test]
fn a_full_list() {
    let asks: Vec<String> = (0..64).rev().map(|terminal| format!("ask {terminal} b")).collect();
    let asks: Vec<&str> = asks.iter().map(String::as_str).collect();
    let waiting = replies("path a b end", &asks);
    assert_eq!(waiting[63], "delayed 63");
    let more = replies(
        "path a b end",
        &[&asks[..], &["ask 5 a", "withdraw 0", "ask 0 a", "finish 0"]].concat(),
    );
    assert_eq!(
        more[64..],
        ["refused 13", "withdrawn 63", "granted", "finished 1 granted 63 b"]
    );
    let behind_one = replies("path a + b end", &[&asks[..], &["finish 63", "finish 62"]].concat());
    assert_eq!(
        behind_one[63..],
        ["delayed 62", "finished 1 granted 62 b", "finished 1 granted 61 b"]
    );
}

#[test]
fn smallest_inputs() {
    assert_eq!(output(""), "refused 4 at 0\n");
    assert_eq!(output("\n"), "refused 4 at 0\n");
    assert_eq!(output("\npath a end\n"), "refused 4 at 0\n");
    assert_eq!(output("path a\nend\nask 1 a\n"), "refused 4 at 6\n");
    assert_eq!(output("path a end"), "path 1 1 1\n");
    assert_eq!(output("path a end\n"), "path 1 1 1\n");
    assert_eq!(output("path a end\r\n"), "path 1 1 1\n");
    assert_eq!(output("path a end\n\n"), "path 1 1 1\nrefused 16\n");
}

#[test]
fn greatest_inputs() {
    let mut input = b"path a end\n".to_vec();
    input.resize(65_536, b'\n');
    let wanted = 1 + 65_536 - "path a end\n".len();
    assert_eq!(output(&input).lines().count(), wanted);
    input.push(b'x');
    assert_eq!(output(&input), "refused 17\n");
    assert_eq!(output(vec![b'\n'; 65_536]), "refused 4 at 0\n");
    assert_eq!(output(vec![b'a'; 65_536]), "refused 1 at 4096\n");
    assert_eq!(output(vec![b'\n'; 65_537]), "refused 17\n");
}
