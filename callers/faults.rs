// Faults on the Rust side, to see that the comparison notices them: each changes one thing of what a call gave.
use crate::calls::{Call, Line};
use crate::wrapper::{Entry, Reply, Table};

#[derive(Clone, Copy, PartialEq)]
pub enum Fault {
    None,
    Row,
    Place,
    Count,
    Waiting,
    Kept,
    Number,
    Terminal,
    Running,
    Behind,
    Refused,
    Before,
    Transcript,
}

const NAMES: [(&str, Fault); 12] = [
    ("row", Fault::Row),
    ("place", Fault::Place),
    ("count", Fault::Count),
    ("waiting", Fault::Waiting),
    ("kept", Fault::Kept),
    ("number", Fault::Number),
    ("terminal", Fault::Terminal),
    ("running", Fault::Running),
    ("behind", Fault::Behind),
    ("refused", Fault::Refused),
    ("before", Fault::Before),
    ("transcript", Fault::Transcript),
];

pub fn names() -> Vec<&'static str> {
    NAMES.iter().map(|(name, _)| *name).collect()
}

pub fn named(name: &str) -> Option<Fault> {
    NAMES.iter().find(|(n, _)| *n == name).map(|(_, fault)| *fault)
}

impl Fault {
    pub fn in_compile(self, reply: &mut Reply, table: &mut Table) {
        match self {
            // one bit of the last row
            Fault::Row if reply.number == 0 => table.rows[table.positions - 1] ^= 1,
            Fault::Place if reply.number != 0 => reply.value += 1,
            _ => {}
        }
    }

    pub fn in_call(self, call: &Call, before: &Line, reply: &mut Reply, after: &mut Line) {
        match (self, call) {
            (Fault::Number, _) if reply.number == 14 => reply.number = 15,
            (Fault::Refused, _) if reply.number != 0 => after.record.set ^= 1,
            _ if reply.number != 0 => {}
            // one entry too many is said to be examined
            (Fault::Count, Call::Finish(_)) => reply.value += 1,
            (Fault::Waiting, Call::Ask(..)) if reply.granted == 0 => after.record.waiting -= 1,
            // the last used place is not made blank
            (Fault::Kept, Call::Finish(_) | Call::Withdraw(_)) if after.record.waiting < before.record.waiting => {
                let last = after.record.waiting;
                after.list()[last] = before.waiters()[last];
            }
            // a free record's cell `terminal` is cleared
            (Fault::Terminal, Call::Finish(_)) if reply.granted == 0 => after.record.terminal = 0,
            // a running record's cell `running` becomes 1, whatever it was
            (Fault::Running, Call::Ask(..)) if after.record.running != 0 => after.record.running = 1,
            // an entry from 64 on is made blank
            (Fault::Behind, Call::Open(_)) if after.entries > 64 => after.list()[64] = Entry::BLANK,
            _ => {}
        }
    }

    // What is taken for the line before a refused call.
    pub fn in_memory(self, before: &mut Line) {
        if self == Fault::Before {
            before.record.waiting ^= 1;
        }
    }

    pub fn in_transcript(self, out: &mut [u8]) {
        if let (Fault::Transcript, Some(b)) = (self, out.first_mut()) {
            *b ^= 1;
        }
    }
}
