// Texts of paths by chance, valid, damaged and at the limits; and inputs of `linerun`.
use crate::chance::{path, Dice};

// So many names, of which so many are distinct, each of so many bytes.
fn names(positions: usize, distinct: usize, length: usize) -> Vec<String> {
    (0..positions).map(|i| format!("n{:0width$}", i % distinct, width = length - 1)).collect()
}

fn between(d: &mut Dice) -> &'static str {
    d.one_of(&[" ", ";", " + ", "* ", "\t", "\r\n", "*;", "**+"])
}

// On both sides of the limits for positions, distinct names and a name's length; several of them may be met by one name.
fn many_names(d: &mut Dice) -> String {
    let positions = 62 + d.roll(5) as usize;
    let distinct = if d.roll(2) == 0 { 31 + d.roll(4) as usize } else { 1 + d.roll(70) as usize };
    let length = d.one_of(&[3, 15, 16, 17]);
    format!("path {} end", names(positions, distinct, length).join(between(d)))
}

// On both sides of the limit for open parentheses; a group opened and closed before does not count.
fn deep(d: &mut Dice) -> String {
    let open = 14 + d.roll(5) as usize;
    let closed = if d.roll(8) == 0 { open - 1 } else { open };
    let ahead = d.one_of(&["", "(a)", "((b c)*)", "a "]);
    let after = d.one_of(&[")", ")*", ") ", ")***"]);
    format!("path {ahead}{}x y{} end", "(".repeat(open), after.repeat(closed))
}

// A text as long as may be, or almost so, or longer: blanks, or stars, wherever they may stand.
fn long(d: &mut Dice) -> String {
    let length = d.one_of(&[4095, 4096, 4097, 5000]);
    let text = if d.roll(2) == 0 { path(d) } else { many_names(d) };
    let more = "*".repeat(usize::saturating_sub(length, text.len()));
    let blanks = more.replace('*', d.one_of(&[" ", "\t", "\n", "\r"]));
    match d.roll(4) {
        0 => format!("{blanks}{text}"),
        1 => format!("{text}{blanks}"),
        2 => text.replacen(' ', &format!(" {blanks}"), 1),
        _ => text.replacen(" end", &format!("{more} end"), 1),
    }
}

// Tokens in any order.
fn tokens(d: &mut Dice) -> String {
    const TOKENS: [&str; 16] = ["path", "end", "(", ")", "+", "*", ";", "a", "b", "a1", "Path", "9", "-", "  ", "((", "))"];
    let count = d.roll(14);
    let mut out = String::from(d.one_of(&["path ", "path", "", " path "]));
    for _ in 0..count {
        out.push_str(d.one_of(&TOKENS));
        out.push_str(d.one_of(&["", " "]));
    }
    out.push_str(d.one_of(&[" end", "end", "", " end ", " end end"]));
    out
}

// One byte is changed, put in or left out, or the text is cut.
fn damaged(d: &mut Dice, text: String) -> Vec<u8> {
    let mut out = text.into_bytes();
    for _ in 0..1 + d.roll(2) {
        let at = d.roll(out.len() as u64 + 1) as usize;
        let byte = match d.roll(3) {
            0 => d.roll(256) as u8,
            _ => d.one_of(b"()+*; \t\r\n\0az09AZ@[`{/:\x7f\x80\xff"),
        };
        match d.roll(4) {
            0 => out.insert(at, byte),
            1 if at < out.len() => out[at] = byte,
            2 if at < out.len() => drop(out.remove(at)),
            _ => out.truncate(at.max(1)),
        }
    }
    out
}

pub fn text(d: &mut Dice) -> Vec<u8> {
    match d.roll(12) {
        0..=2 => path(d).into_bytes(),
        3 | 4 => many_names(d).into_bytes(),
        5 => deep(d).into_bytes(),
        6 => long(d).into_bytes(),
        7 | 8 => tokens(d).into_bytes(),
        9 => {
            let text = if d.roll(2) == 0 { many_names(d) } else { deep(d) };
            damaged(d, text)
        }
        _ => {
            let text = path(d);
            damaged(d, text)
        }
    }
}

// A line of `linerun`'s input, with names of the path; some are unreadable.
fn order(d: &mut Dice, path: &str) -> String {
    const ODD: [&str; 16] = [
        "",
        " ",
        "ask",
        "ask 1",
        "ask 1 ",
        "ask  1 a",
        "ask 1 a ",
        "ask 1 a b",
        "finish",
        "finish ",
        "finish 1 ",
        "Finish 1",
        "finish +1",
        "withdraw 0001",
        "finish 1\r",
        "withdraw x",
    ];
    let words: Vec<&str> = path.split(|c: char| !c.is_ascii_alphanumeric()).filter(|w| !w.is_empty()).collect();
    let terminal = match d.roll(12) {
        0 => 60 + d.roll(7),
        1 => d.roll(1200),
        _ => d.roll(4),
    };
    match d.roll(12) {
        0 => d.one_of(&ODD).to_string(),
        1 => format!("ask {terminal:02} nobody"),
        2..=6 => format!("ask {terminal} {}", d.one_of(&words)),
        7..=9 => format!("finish {terminal}"),
        _ => format!("withdraw {terminal:03}"),
    }
}

// An input of `linerun`: a path and some lines, with or without an LF at the end; now and then one as long as may be, or longer.
pub fn input(d: &mut Dice) -> Vec<u8> {
    let path = if d.roll(8) == 0 { String::from_utf8_lossy(&text(d)).to_string() } else { path(d) };
    let mut out = path.clone().into_bytes();
    for _ in 0..d.roll(60) {
        out.push(b'\n');
        out.extend(order(d, &format!("{path} x")).into_bytes());
    }
    match d.roll(1000) {
        0 => out.resize(65536, b'\n'),
        1 => out.resize(65537, b'\n'),
        n if n % 2 == 0 => out.push(b'\n'),
        _ => {}
    }
    out
}
