// Document 01, "Program", in Rust over the session of reference/: what `linerun` prints of an input, for comparison.
use crate::onepass::compile;
use crate::session::{Entry, Session};
use crate::session::{Reply, BLANK};
use crate::table::{Table, ZEROS};

const LARGEST: usize = 65536;

// An output that takes what still has room.
struct Output<'a> {
    bytes: &'a mut [u8],
    at: usize,
}

impl Output<'_> {
    fn put(&mut self, bytes: &[u8]) {
        let n = bytes.len().min(self.bytes.len() - self.at);
        self.bytes[self.at..self.at + n].copy_from_slice(&bytes[..n]);
        self.at += n;
    }

    fn put_number(&mut self, number: usize) {
        let mut digits = [0; 20];
        let mut from = digits.len();
        let mut rest = number;
        loop {
            from -= 1;
            digits[from] = b'0' + (rest % 10) as u8;
            rest /= 10;
            if rest == 0 {
                break;
            }
        }
        self.put(&digits[from..]);
    }

    // A word with its space, a number, and the line's end.
    fn put_line(&mut self, word: &[u8], number: usize) {
        self.put(word);
        self.put_number(number);
        self.put(b"\n");
    }
}

enum Order<'a> {
    Ask(u16, &'a [u8]),
    Finish(u16),
    Withdraw(u16),
}

// A number of 1 to 3 digits.
fn terminal(field: &[u8]) -> Option<u16> {
    if field.is_empty() || field.len() > 3 || !field.iter().all(u8::is_ascii_digit) {
        return None;
    }
    Some(field.iter().fold(0, |n, digit| 10 * n + (digit - b'0') as u16))
}

// What a line asks for; none if it is unreadable.
fn order(line: &[u8]) -> Option<Order<'_>> {
    let mut fields = line.split(|b| *b == b' ');
    let word = fields.next()?;
    let terminal = terminal(fields.next()?)?;
    match (word, fields.next(), fields.next()) {
        (b"ask", Some(name), None) if !name.is_empty() => Some(Order::Ask(terminal, name)),
        (b"finish", None, None) => Some(Order::Finish(terminal)),
        (b"withdraw", None, None) => Some(Order::Withdraw(terminal)),
        _ => None,
    }
}

fn put_reply(out: &mut Output<'_>, table: &Table, reply: Reply) {
    match reply {
        Reply::Opened => {}
        Reply::Granted => out.put(b"granted\n"),
        Reply::Delayed(ahead) => out.put_line(b"delayed ", ahead),
        Reply::Finished(examined, None) => out.put_line(b"finished ", examined),
        Reply::Finished(examined, Some((terminal, operation))) => {
            out.put(b"finished ");
            out.put_number(examined);
            out.put(b" granted ");
            out.put_number(terminal as usize);
            out.put(b" ");
            out.put(table.name(operation as usize));
            out.put(b"\n");
        }
        Reply::Withdrawn(place) => out.put_line(b"withdrawn ", place),
        Reply::Refused(number) => out.put_line(b"refused ", number as usize),
    }
}

fn put_path(out: &mut Output<'_>, table: &Table) {
    out.put(b"path ");
    out.put_number(table.positions);
    out.put(b" ");
    out.put_number(table.names);
    out.put_line(b" ", table.mark as usize);
}

// The lines behind an accepted path.
fn talk<'a>(lines: impl Iterator<Item = &'a [u8]>, table: Table, out: &mut Output<'_>) {
    let mut session = Session { table: ZEROS, set: 0, running: None, waiting: 0 };
    let mut list: [Entry; 64] = [BLANK; 64];
    session.open(&mut list, table);
    for line in lines {
        let reply = match order(line) {
            Some(Order::Ask(terminal, name)) => session.ask(&mut list, terminal, name),
            Some(Order::Finish(terminal)) => session.finish(&mut list, terminal),
            Some(Order::Withdraw(terminal)) => session.withdraw(&mut list, terminal),
            None => Reply::Refused(16),
        };
        put_reply(out, &session.table, reply);
    }
}

// What is printed of an input, in front of `out` and as far as it goes; how many bytes that is.
pub fn transcript(input: &[u8], out: &mut [u8]) -> usize {
    let mut out = Output { bytes: out, at: 0 };
    if input.len() > LARGEST {
        out.put_line(b"refused ", 17);
        return out.at;
    }
    // what follows the last LF is a line only if there is any
    let whole = input.strip_suffix(b"\n").unwrap_or(input);
    let mut lines = whole.split(|b| *b == b'\n');
    match compile(lines.next().unwrap_or(b"")) {
        Ok(table) => {
            put_path(&mut out, &table);
            talk(lines, table, &mut out);
        }
        Err((number, place)) => {
            out.put(b"refused ");
            out.put_number(number as usize);
            out.put_line(b" at ", place);
        }
    }
    out.at
}
