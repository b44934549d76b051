// Scripts of calls, and what their lines give.
use crate::paths::compile;
use crate::session::{Entry, Reply, Session, BLANK};
use crate::table::ZEROS;

pub struct Line {
    pub session: Session,
    pub list: [Entry; 64],
}

// The number that starts at `at`, and where the space or the end behind it is; digits that would make it too large are passed over.
fn number(line: &[u8], at: usize) -> (u64, usize) {
    let mut n: u64 = 0;
    let mut k = at;
    while k < line.len() && line[k].is_ascii_digit() {
        if n < 1844674407370955161 {
            n = n * 10 + (line[k] - b'0') as u64;
        }
        k += 1;
    }
    (n, k)
}

fn rest(line: &[u8], from: usize) -> &[u8] {
    &line[from.min(line.len())..]
}

impl Line {
    // Nothing opened, nobody waiting.
    pub fn nothing() -> Line {
        Line { session: Session { table: ZEROS, set: 0, running: None, waiting: 0 }, list: [BLANK; 64] }
    }

    // One cell gets a value, which need not be one that it may have.
    fn damage(&mut self, kind: u64, at: usize, value: u64) {
        let t = &mut self.session.table;
        match kind {
            0 => self.session.set = value,
            1 => self.session.running = None,
            2 => self.session.running = Some(value as u16),
            3 => self.session.waiting = value as usize,
            4 if at < 64 => self.list[at].terminal = value as u16,
            5 if at < 64 => self.list[at].operation = value as u8,
            6 => t.start = value,
            7 if at < 64 => t.rows[at] = value,
            8 if at < 64 => t.operations[at] = value as u8,
            9 if at < 32 => t.lengths[at] = value as u8,
            10 if at < 512 => t.bytes[at] = value as u8,
            11 => t.mark = value as u8,
            12 => t.positions = value as usize,
            13 => t.names = value as usize,
            _ => {}
        }
    }

    fn show(&self, out: &mut String) {
        let runs = self.session.running.map_or("free".to_string(), |t| t.to_string());
        out.push_str(&format!("{} {} {}", self.session.set, runs, self.session.waiting));
        let used = self.list.iter().rposition(|e| e.terminal != 0 || e.operation != 0).map_or(0, |i| i + 1);
        for e in &self.list[..used] {
            out.push_str(&format!(" {}.{}", e.terminal, e.operation));
        }
        out.push('\n');
    }

    pub fn turn(&mut self, line: &[u8], out: &mut String) {
        let (a, behind) = number(line, 2);
        let reply = match line.first() {
            Some(b'p') => match compile(rest(line, 2)) {
                Ok(table) => self.session.open(&mut self.list, table),
                Err((n, place)) => {
                    out.push_str(&format!("refused {n} at {place}\n"));
                    return;
                }
            },
            Some(b'o') => {
                let table = self.session.table;
                self.session.open(&mut self.list, table)
            }
            Some(b'a') => self.session.ask(&mut self.list, a as u16, rest(line, behind + 1)),
            Some(b'f') => self.session.finish(&mut self.list, a as u16),
            Some(b'w') => self.session.withdraw(&mut self.list, a as u16),
            Some(b's') => return self.show(out),
            Some(b'd') => {
                let (at, behind) = number(line, behind + 1);
                let (value, _) = number(line, behind + 1);
                return self.damage(a, at.min(1000) as usize, value);
            }
            _ => return,
        };
        out.push_str(&match reply {
            Reply::Opened => "opened\n".to_string(),
            Reply::Granted => "granted\n".to_string(),
            Reply::Delayed(n) => format!("delayed {n}\n"),
            Reply::Finished(n, None) => format!("finished {n}\n"),
            Reply::Finished(n, Some((t, o))) => format!("finished {n} granted {t} {o}\n"),
            Reply::Withdrawn(p) => format!("withdrawn {p}\n"),
            Reply::Refused(n) => format!("refused {n}\n"),
        });
    }
}

// The script is run as often as its first line says, `t N`, from nothing each time; what the last run gives is returned.
pub fn run(script: &[u8]) -> String {
    let mut lines: Vec<&[u8]> = script.split(|b| *b == b'\n').collect();
    lines.pop();
    let times = match lines.first() {
        Some(l) if l.first() == Some(&b't') => number(l, 2).0,
        _ => 1,
    };
    let mut out = String::new();
    for _ in 0..times {
        out.clear();
        let mut line = Line::nothing();
        for l in &lines {
            line.turn(l, &mut out);
        }
    }
    out
}
