// What is timed: texts to compile, calls on a line, and an input of `linerun`.
use crate::calls::{Call, Line};
use crate::chance::Dice;
use crate::wrapper::{compile, Table};

pub const TYPICAL: &str = "path open (inject + read)* close end";
pub const LONG_NAMES: &str = "path openTheLine (injectTestBag + readTheBagLabel)* closeTheLine end";

const LARGEST_TEXT: usize = 4096;

// Name i of 32 that have 16 bytes and differ only in the last two.
fn name(i: usize) -> String {
    format!("TheLongestName{:02}", i % 32)
}

// 64 names, each with something before it and something behind it.
fn names(before: &str, behind: &str, between: &str) -> String {
    let all: Vec<String> = (0..64).map(|i| format!("{before}{}{behind}", name(i))).collect();
    all.join(between)
}

fn padded(inner: &str) -> String {
    let blanks = LARGEST_TEXT - "path  end".len() - inner.len();
    format!("path {inner}{} end", " ".repeat(blanks))
}

// Each name in as many parentheses as may be, one after the other, and the rest is blanks.
pub fn largest_of_blanks() -> String {
    padded(&names(&"(".repeat(16), &")".repeat(16), " "))
}

// Any of the names, each with stars, in as many parentheses as may be, each with stars: every part can be followed by every other.
pub fn largest_of_stars() -> String {
    let names = names("", &"*".repeat(20), "+");
    let groups = format!("){}", "*".repeat(104)).repeat(16);
    padded(&format!("{}{names}{groups}", "(".repeat(16)))
}

// A line, and calls on it that begin with it as it is.
pub struct Load {
    pub line: Line,
    pub calls: Vec<Call>,
}

impl Load {
    fn over(text: &str) -> Load {
        let (reply, table) = compile(text.as_bytes());
        assert_eq!(reply.number, 0, "{text}");
        let mut line = Line::BLANK;
        Call::Open(Box::new(table)).by_library(&mut line);
        Load { line, calls: Vec::new() }
    }
}

fn ask(terminal: u16, name: &str) -> Call {
    Call::Ask(terminal, name.as_bytes().to_vec())
}

// A round of calls on a short list, after which the line is as it was.
pub fn typical() -> Load {
    let mut load = Load::over(TYPICAL);
    load.calls = vec![
        ask(1, "open"),
        ask(2, "inject"),
        ask(4, "read"),
        ask(3, "close"),
        ask(5, "open"),
        Call::Finish(1),
        Call::Finish(2),
        Call::Withdraw(5),
        Call::Finish(4),
        Call::Finish(3),
    ];
    load
}

// The name of the first position in a set.
fn first_name(table: &Table, set: u64) -> String {
    name(table.operations[set.trailing_zeros() as usize] as usize)
}

// 64 positions of 32 names of 16 bytes, one terminal running and 63 waiting: who finishes asks again for any name, or for the one that is
// permitted if nobody waits for it, and now and then somebody withdraws and asks again.
pub fn largest() -> Load {
    let mut load = Load::over(&padded(&names("", "", " ")));
    let mut d = Dice::of(1);
    for t in 0..64 {
        ask(t, &name(t as usize)).by_library(&mut load.line);
    }
    let mut line = load.line;
    let mut say = |line: &mut Line, call: Call| {
        assert_eq!(call.by_library(line).number, 0, "{}", call.show());
        load.calls.push(call);
    };
    for _ in 0..200 {
        let runner = line.record.terminal;
        say(&mut line, Call::Finish(runner));
        let wanted = match line.record.running {
            0 => first_name(&line.record.table, line.record.set),
            _ => name(d.roll(32) as usize),
        };
        say(&mut line, ask(runner, &wanted));
        if d.roll(3) == 0 {
            let waiter = d.one_of(line.waiters()).terminal;
            say(&mut line, Call::Withdraw(waiter));
            say(&mut line, ask(waiter, &name(d.roll(32) as usize)));
        }
    }
    load
}

// An input as long as may be: the typical path and its round of calls, over and over.
pub fn input() -> Vec<u8> {
    let mut out = TYPICAL.as_bytes().to_vec();
    for call in typical().calls.iter().cycle() {
        let line = match call {
            Call::Ask(terminal, name) => format!("\nask {terminal} {}", name.escape_ascii()),
            Call::Finish(terminal) => format!("\nfinish {terminal}"),
            Call::Withdraw(terminal) => format!("\nwithdraw {terminal}"),
            Call::Open(_) => continue,
        };
        if out.len() + line.len() > 65536 {
            break;
        }
        out.extend(line.into_bytes());
    }
    // blanks make the last line unreadable
    out.resize(65536, b' ');
    out
}
