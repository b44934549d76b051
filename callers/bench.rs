// Rattle beside Rust, in one process and one run: what a compile, a call with its full test and a whole transcript cost.
//
//   bench MACHINE RUSTC    what `uname -m` says, and the version of the compiler: both are only printed
#![no_main]

#[allow(dead_code)] // what compares calls is used here, and what shows a difference is not
mod calls;
#[allow(dead_code)]
mod cells;
#[path = "../reference/chance.rs"]
#[allow(dead_code)]
mod chance;
mod clock;
mod lines;
mod loads;
mod onepass;
#[path = "../reference/paths.rs"]
mod paths;
mod reading;
#[path = "../reference/session.rs"]
mod session;
#[path = "../reference/table.rs"]
mod table;
mod wrapper;

use calls::{same_line, Call};
use cells::same_reply;
use clock::{beside, done, seen, ROUNDS};
use loads::Load;
use session::{Entry, Session};
use std::sync::atomic::Ordering::Relaxed;
use wrapper::TRANSCRIPT;

fn bench_compile(name: &str, text: &str) {
    let text = text.as_bytes();
    let wanted = reading::compile(text);
    assert!(wrapper::compile(text) == wanted, "{name}: the library gives something else");
    assert!(reading::compile_out(onepass::compile(text)) == wanted, "{name}: Rust gives something else");
    let rattle = || done(wrapper::compile(seen(text)));
    let rust = || done(onepass::compile(seen(text)));
    beside(&format!("compile, {name}, {} bytes", text.len()), 1, rattle, rust);
}

// One call on the Rust side, by its own types.
fn by_rust(call: &Call, session: &mut Session, list: &mut [Entry]) -> session::Reply {
    match call {
        Call::Open(table) => session.open(list, reading::table_in(table)),
        Call::Ask(terminal, name) => session.ask(list, *terminal, name),
        Call::Finish(terminal) => session.finish(list, *terminal),
        Call::Withdraw(terminal) => session.withdraw(list, *terminal),
    }
}

// Both sides reply the same and leave the same cells, call by call.
fn check_calls(name: &str, load: &Load) {
    let (mut ours, mut theirs) = (load.line, load.line);
    for call in &load.calls {
        let (reply, rust_reply) = (call.by_library(&mut ours), call.by_reading(&mut theirs));
        let same = same_reply(&reply, &rust_reply).and_then(|()| same_line(&ours, &theirs));
        assert!(same.is_ok() && reply.number == 0, "{name}: the sides differ, or a call is refused: {}", call.show());
    }
}

fn bench_calls(name: &str, mut load: Load) {
    check_calls(name, &load);
    let (session, list) = (reading::session_in(&load.line.record), reading::list_in(load.line.list()));
    let mut entries = list.clone();
    let rattle = || {
        let mut line = load.line;
        for call in &load.calls {
            done(call.by_library(&mut line));
        }
        done(line);
    };
    let rust = || {
        let mut session = session;
        entries.copy_from_slice(&list);
        for call in &load.calls {
            done(by_rust(call, &mut session, &mut entries));
        }
        done(session);
    };
    beside(&format!("call, {name}"), load.calls.len(), rattle, rust);
}

fn bench_transcript() {
    let input = &loads::input()[..];
    let (mut ours, mut theirs) = (vec![0; TRANSCRIPT], vec![0; TRANSCRIPT]);
    let count = wrapper::transcript(input, &mut ours);
    assert!(count == lines::transcript(input, &mut theirs) && ours == theirs, "transcript: the sides differ");
    let rattle = || done(wrapper::transcript(seen(input), &mut ours));
    let rust = || done(lines::transcript(seen(input), &mut theirs));
    let lines = input.iter().filter(|b| **b == b'\n').count();
    beside(&format!("transcript, {} bytes, {lines} calls, whole", input.len()), 1, rattle, rust);
}

#[no_mangle]
pub extern "C" fn main(_count: i32, _words: *const *const u8) -> i32 {
    wrapper::assert_layout();
    let words: Vec<String> = std::env::args().skip(1).collect();
    println!("machine: {}", words.join(", "));
    println!("the best of {ROUNDS} rounds of each side, by turns; buffers are not cleared between runs");
    println!("Rust makes the same full test at every call, in one pass, and compiles with each token read once and sets as bits");
    session::FAST.store(true, Relaxed);
    bench_compile("small", "path a end");
    bench_compile("typical", loads::TYPICAL);
    bench_compile("typical with longer names", loads::LONG_NAMES);
    bench_compile("largest, parentheses and blanks", &loads::largest_of_blanks());
    bench_compile("largest, parentheses and stars", &loads::largest_of_stars());
    bench_calls("typical, up to 4 waiting", loads::typical());
    bench_calls("largest, 63 waiting", loads::largest());
    bench_transcript();
    0
}
