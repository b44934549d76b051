//! Call lines: calls in season by a simulated line, calls out of season, and lines that are hardly calls.

use crate::line::{Line, Terminal};
use crate::paths::{self, Name};
use crate::program;
use crate::random::Random;

#[derive(Clone, Copy)]
pub struct Mood {
    /// The shares of asks, finishes, withdrawals, calls out of season and odd lines.
    shares: [usize; 5],
    /// In a hundred asks on a free line: how many are for a permitted operation by intent.
    permitted: usize,
}

pub const STEADY: Mood = Mood::new([45, 42, 4, 6, 3], 75);
pub const CROWDED: Mood = Mood::new([68, 24, 4, 3, 1], 75);
pub const ODD: Mood = Mood::new([20, 15, 5, 20, 40], 75);
/// A long way through the path, with few others waiting.
pub const WALKING: Mood = Mood::new([47, 48, 2, 2, 1], 97);

impl Mood {
    const fn new(shares: [usize; 5], permitted: usize) -> Mood {
        Mood { shares, permitted }
    }
}

const ODD_BYTES: &[u8] = b"\r\x00\t\x0b*+;()~\x7f\x80\xa0\xc3\xff";
const ODD_WORDS: [&[u8]; 10] = [
    b"Ask",
    b"ASK",
    b"asks",
    b"as",
    b"",
    b"Finish",
    b"finished",
    b"Withdraw",
    b"withdra",
    b"path",
];

pub struct Caller<'a> {
    random: &'a mut Random,
    line: Line,
    /// The terminals that call.
    pool: Vec<Terminal>,
    mood: Mood,
    /// Whether lines end with CR LF.
    cr: bool,
}

impl<'a> Caller<'a> {
    /// Calls for this path text; for a refused one, calls that must not matter.
    pub fn new(random: &'a mut Random, text: &[u8], terminals: usize, mood: Mood, cr: bool) -> Caller<'a> {
        let path = paths::read(text, None).unwrap_or_else(|_| paths::read(b"path a b end", None).expect("a path"));
        let mut pool: Vec<Terminal> = (0..64).map(Terminal).collect();
        random.shuffle(&mut pool);
        pool.truncate(terminals);
        Caller {
            random,
            line: Line::open(&path, None),
            pool,
            mood,
            cr,
        }
    }

    /// The next call line, without its LF.
    pub fn next_line(&mut self) -> Vec<u8> {
        let call = match self.random.share(&self.mood.shares) {
            0 => self.ask(),
            1 => self.finish(),
            2 => self.withdraw(),
            3 => self.out_of_season(),
            _ => self.odd_line(),
        };
        self.written(call)
    }

    /// Asks by all terminals in turn: 63 wait behind one, or all 64 on a free line if that can be.
    pub fn fill(&mut self, keep_free: bool) -> Vec<Vec<u8>> {
        let terminals = self.pool.clone();
        let calls = terminals.into_iter().map(|terminal| {
            let delayed = self.name_that(|line, name| !line.permits(name));
            let name = delayed.filter(|_| keep_free).unwrap_or_else(|| self.known_name());
            let call = self.ask_line(terminal, name.as_bytes());
            self.written(call)
        });
        calls.collect()
    }

    /// The simulated line takes part in every call.
    fn written(&mut self, mut call: Vec<u8>) -> Vec<u8> {
        if self.cr {
            call.push(b'\r');
        }
        // A refusal is as good as a reply here.
        let _ = program::answer(&mut self.line, &call, None);
        call
    }

    fn ask(&mut self) -> Vec<u8> {
        let Some(terminal) = self.idle() else {
            return if self.line.running().is_some() {
                self.finish()
            } else {
                self.withdraw()
            };
        };
        let share = if self.line.running().is_none() { 100 } else { 170 };
        let lean = self.random.below(share) < self.mood.permitted;
        let name = self
            .name_that(Line::permits)
            .filter(|_| lean)
            .unwrap_or_else(|| self.known_name());
        self.ask_line(terminal, name.as_bytes())
    }

    fn finish(&mut self) -> Vec<u8> {
        match self.line.running() {
            Some(terminal) => self.short_line("finish", terminal),
            None if self.line.waiting().len() < self.pool.len() => self.ask(),
            None => self.withdraw(),
        }
    }

    fn withdraw(&mut self) -> Vec<u8> {
        match self.waiting() {
            Some(terminal) => self.short_line("withdraw", terminal),
            None => self.ask(),
        }
    }

    fn out_of_season(&mut self) -> Vec<u8> {
        let idle = self.idle();
        let far = Terminal(if self.random.one_in(3) {
            64
        } else {
            self.random.between(65, 999)
        });
        let running = self.line.running();
        let waiting = self.waiting();
        let any = Terminal(self.random.below(64));
        let name = if self.random.one_in(3) {
            self.strange_name()
        } else {
            self.known_name().as_bytes().to_vec()
        };
        match self.random.below(11) {
            0 => self.short_line("finish", idle.unwrap_or(any)),
            1 => self.short_line("finish", waiting.unwrap_or(any)),
            2 => self.short_line("withdraw", idle.unwrap_or(any)),
            3 => self.short_line("withdraw", running.unwrap_or(any)),
            4 | 5 => self.ask_line(running.unwrap_or(any), &name),
            6 | 7 => self.ask_line(waiting.unwrap_or(any), &name),
            8 => self.ask_line(far, &name),
            9 => {
                let word = self.random.pick(&["finish", "withdraw"]);
                self.short_line(word, far)
            }
            _ => {
                let name = self.strange_name();
                self.ask_line(idle.unwrap_or(any), &name)
            }
        }
    }

    /// A line that looks like a call in season but for one thing, or like nothing.
    fn odd_line(&mut self) -> Vec<u8> {
        let call = match self.random.below(4) {
            0 => self.finish(),
            1 => self.withdraw(),
            _ => self.ask(),
        };
        let mut fields: Vec<Vec<u8>> = call.split(|&byte| byte == b' ').map(<[u8]>::to_vec).collect();
        let last = fields.len() - 1;
        match self.random.below(21) {
            0 => fields.insert(0, vec![]),
            1 | 2 => fields.push(vec![]),
            3 => fields.insert(self.random.between(1, last), vec![]),
            4 => return fields.join(&b'\t'),
            5 => fields[1] = format!("{:04}", self.random.below(70)).into_bytes(),
            6 => {
                fields[1] = self
                    .random
                    .pick::<[u8]>(&[b"", b"0x1", b"1a", b"a", b"1.", b"0000", b"\xb2"])
                    .to_vec()
            }
            7 => fields[1].insert(0, self.random.choose(b"+-")),
            8 => drop(fields.pop()),
            9 => fields[0] = self.random.pick(&ODD_WORDS).to_vec(),
            10 => fields[last].push(b'\r'),
            11 => fields.push(self.random.choose(&fields)),
            12 => fields[last] = vec![],
            13 => fields[last].push(self.random.choose(ODD_BYTES)),
            14 => fields[last] = self.strange_name(),
            15 => return vec![],
            16 => return vec![b' '; self.random.between(1, 2)],
            17 => return self.random_bytes(),
            18 => drop(fields[last].pop()),
            19 => fields.swap(0, last),
            _ => fields[1] = format!("{:03}", self.random.below(64)).into_bytes(),
        }
        fields.join(&b' ')
    }

    fn random_bytes(&mut self) -> Vec<u8> {
        let length = self.random.between(1, 30);
        (0..length)
            .map(|_| self.random.byte())
            .map(|byte| if byte == b'\n' { b'a' } else { byte })
            .collect()
    }

    fn ask_line(&mut self, terminal: Terminal, name: &[u8]) -> Vec<u8> {
        let mut call = self.short_line("ask", terminal);
        call.push(b' ');
        call.extend_from_slice(name);
        call
    }

    fn short_line(&mut self, word: &str, terminal: Terminal) -> Vec<u8> {
        let width = if self.random.one_in(10) {
            self.random.between(2, 3)
        } else {
            1
        };
        format!("{word} {:0width$}", terminal.0).into_bytes()
    }

    /// A terminal that neither runs nor waits.
    fn idle(&mut self) -> Option<Terminal> {
        let busy: Vec<Terminal> = self.line.waiting().iter().map(|entry| entry.terminal).collect();
        let is_idle = |terminal: &Terminal| Some(*terminal) != self.line.running() && !busy.contains(terminal);
        let idle: Vec<Terminal> = self.pool.iter().copied().filter(is_idle).collect();
        (!idle.is_empty()).then(|| self.random.choose(&idle))
    }

    fn waiting(&mut self) -> Option<Terminal> {
        let count = self.line.waiting().len();
        (count > 0).then(|| self.line.waiting()[self.random.below(count)].terminal)
    }

    /// The last name comes more often than others, as it may be the 32nd.
    fn known_name(&mut self) -> Name {
        let names = self.line.names();
        let from = if self.random.one_in(8) { names.len() - 1 } else { 0 };
        self.random.choose(&names[from..])
    }

    /// Some name of the path with this property, if there is one.
    fn name_that(&mut self, property: impl Fn(&mut Line, &Name) -> bool) -> Option<Name> {
        let mut names = self.line.names().to_vec();
        names.retain(|name| property(&mut self.line, name));
        (!names.is_empty()).then(|| self.random.choose(&names))
    }

    /// A name that is close to one of the path, or far from all.
    fn strange_name(&mut self) -> Vec<u8> {
        let mut name = self.known_name().as_bytes().to_vec();
        match self.random.below(8) {
            0 => name.push(self.random.choose(b"a0Z")),
            1 if name.len() > 1 => drop(name.pop()),
            2 => name[0] ^= 0x20,
            3 => name = self.random.pick::<[u8]>(&[b"path", b"end", b"x", b"0", b"*"]).to_vec(),
            4 => name.resize(self.random.between(16, 18), b'q'),
            5 => name.resize(self.random.between(19, 400), b'q'),
            6 => name.insert(0, self.random.choose(ODD_BYTES)),
            _ => name.push(self.random.choose(ODD_BYTES)),
        }
        name
    }
}
