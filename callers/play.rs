// Calls by chance on one line: in season and out of it, on sound records and on damaged ones.
use crate::calls::{Call, Line, LONGEST};
use crate::cells::Same;
use crate::chance::{path, Dice};
use crate::comparison::Comparison;
use crate::damage::{damage_line, damage_table};
use crate::texts;
use crate::wrapper::{Entry, Table, TRANSCRIPT};

const SESSIONS: u64 = 3;
const TEXTS: u64 = 5;
const CALLS: u64 = 80;

// A name of the table.
fn true_name(d: &mut Dice, line: &Line) -> Vec<u8> {
    let t = &line.record.table;
    let o = d.roll(t.names.clamp(1, 32) as u64) as usize;
    let length = (t.lengths[o] as usize).min(16);
    t.bytes[16 * o..16 * o + length].to_vec()
}

// A name of the table, or something like one.
fn name(d: &mut Dice, line: &Line) -> Vec<u8> {
    let mut name = true_name(d, line);
    match d.roll(24) {
        0 => name.push(b'x'),
        1 => drop(name.pop()),
        2 => name.resize(16, 0),
        3 => name = vec![b'n'; d.roll(300) as usize],
        _ => {}
    }
    name
}

// The running terminal, one that waits, or any.
fn terminal(d: &mut Dice, line: &Line, terminals: u64, runner: u64, waiter: u64) -> u16 {
    let waiters = line.waiters();
    let pick = d.roll(20);
    if pick < runner {
        return line.record.terminal;
    }
    if pick < runner + waiter && !waiters.is_empty() {
        return d.one_of(waiters).terminal;
    }
    match d.roll(20) {
        0 => d.one_of(&[64, 65, 255, 256, 1000, 65535]),
        _ => d.roll(terminals) as u16,
    }
}

// Mostly asks while the list fills, mostly finishes while it empties.
fn any_call(d: &mut Dice, line: &Line, terminals: u64, filling: bool) -> Call {
    let asks = if filling { 14 } else { 6 };
    match d.roll(20) {
        n if n < asks => Call::Ask(terminal(d, line, terminals, 1, 1), name(d, line)),
        n if n < 17 => Call::Finish(terminal(d, line, terminals, 16, 1)),
        _ => Call::Withdraw(terminal(d, line, terminals, 1, 15)),
    }
}

// A table to open a session over: the one that was compiled, at times damaged; and how many entries are lent.
fn opening(d: &mut Dice, line: &mut Line, table: &Table) -> Call {
    let mut table = Box::new(*table);
    for _ in 0..d.one_of(&[0, 0, 0, 0, 0, 1, 1, 3]) {
        damage_table(d, &mut table);
    }
    line.entries = d.one_of(&[64, 64, 64, 64, 65, 70, LONGEST, LONGEST, 0, 1, 63]);
    Call::Open(table)
}

// A few calls on a damaged line; unless it stayed sound, it is then what it was.
fn damaged_calls(c: &mut Comparison, d: &mut Dice, line: &mut Line, terminals: u64) -> Same {
    let before = *line;
    for _ in 0..1 + d.roll(2) {
        damage_line(d, line);
    }
    let mut refused = 0;
    for _ in 0..1 + d.roll(3) {
        let filling = d.roll(2) == 0;
        let call = match d.roll(12) {
            0 => Call::Open(Box::new(line.record.table)),
            _ => any_call(d, line, terminals, filling),
        };
        refused = c.call(line, &call, true)?;
    }
    if refused == 9 {
        *line = before;
    }
    Ok(())
}

// Too few entries are lent to one call.
fn short_call(c: &mut Comparison, d: &mut Dice, line: &mut Line, terminals: u64) -> Same {
    let entries = line.entries;
    line.entries = d.one_of(&[0, 1, 63]);
    let filling = d.roll(2) == 0;
    let call = any_call(d, line, terminals, filling);
    c.call(line, &call, false)?;
    line.entries = entries;
    Ok(())
}

// The list gets full: for one name, which nobody gets if it is not permitted, or for several.
fn everybody_asks(c: &mut Comparison, d: &mut Dice, line: &mut Line) -> Same {
    let (one, only_one) = (true_name(d, line), d.roll(2) == 0);
    for t in 0..64 {
        let name = if only_one { one.clone() } else { true_name(d, line) };
        c.call(line, &Call::Ask(t, name), false)?;
    }
    Ok(())
}

fn session(c: &mut Comparison, d: &mut Dice, line: &mut Line, table: &Table) -> Same {
    let terminals = d.one_of(&[3, 6, 64, 70]);
    let call = opening(d, line, table);
    if c.call(line, &call, false)? != 0 && d.roll(8) > 0 {
        line.entries = 64;
        c.call(line, &Call::Open(Box::new(*table)), false)?;
    }
    if d.roll(8) == 0 {
        everybody_asks(c, d, line)?;
    }
    for i in 0..CALLS {
        match d.roll(20) {
            0 | 1 => damaged_calls(c, d, line, terminals)?,
            2 if i % 2 == 0 => short_call(c, d, line, terminals)?,
            _ => {
                let call = any_call(d, line, terminals, i / 10 % 2 == 0);
                c.call(line, &call, false)?;
            }
        }
    }
    Ok(())
}

// All that is done with one seed.
pub fn play(c: &mut Comparison, d: &mut Dice) -> Same {
    let mut line = Line::BLANK;
    for e in line.cells() {
        *e = Entry { terminal: d.roll(80) as u16, operation: d.roll(40) as u8 };
    }
    for _ in 0..d.roll(4) {
        damage_line(d, &mut line);
    }
    for _ in 0..SESSIONS {
        for _ in 0..TEXTS {
            c.compile(&texts::text(d))?;
        }
        let mut table = c.compile(path(d).as_bytes())?;
        if table.positions == 0 {
            table = c.compile(b"path open (inject + read)* close end")?;
        }
        session(c, d, &mut line, &table)?;
    }
    let room = d.one_of(&[0, 1, 9, 100, 1000, TRANSCRIPT]);
    c.transcript(&texts::input(d), room)
}
