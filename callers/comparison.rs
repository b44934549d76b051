// One call made by the library and by the Rust reading, and every cell of what they give compared.
use crate::calls::{same_line, Call, Line};
use crate::cells::{same, same_all, same_reply, same_table, Difference, Same};
use crate::chance::Dice;
use crate::faults::Fault;
use crate::play::play;
use crate::tally::Tally;
use crate::wrapper::{self, Table, TRANSCRIPT};
use crate::{lines, onepass, reading};

// What a table holds before a compile writes all of it.
const OTHER_TABLE: Table = Table {
    positions: usize::MAX,
    names: 170,
    start: u64::MAX,
    operations: [170; 64],
    rows: [u64::MAX; 64],
    lengths: [170; 32],
    bytes: [170; 512],
    mark: 170,
};

// Bytes behind an output, which no transcript may touch.
const BEHIND: usize = 64;

pub struct Comparison {
    fault: Fault,
    pub tally: Tally,
    // The calls of this seed, the last of them, and which two outcomes are being compared.
    made: u64,
    last: String,
    sides: (&'static str, &'static str),
    outs: [Vec<u8>; 2],
}

const BOTH: (&str, &str) = ("library", "Rust");

impl Comparison {
    pub fn new(fault: Fault) -> Comparison {
        let outs = [vec![0; TRANSCRIPT + BEHIND], vec![0; TRANSCRIPT + BEHIND]];
        Comparison { fault, tally: Tally::default(), made: 0, last: String::new(), sides: BOTH, outs }
    }

    // A seed, and what differs in it, if anything does.
    pub fn seed(&mut self, seed: u64) -> Option<String> {
        self.made = 0;
        let Difference { cell, one, other } = play(self, &mut Dice::of(seed)).err()?;
        let (side, other_side) = self.sides;
        Some(format!("seed {seed}, call {}: {}\n{cell}: {side} {one}, {other_side} {other}", self.made, self.last))
    }

    fn begin(&mut self, call: String) {
        self.made += 1;
        self.last = call;
    }

    pub fn compile(&mut self, text: &[u8]) -> Result<Table, Difference> {
        self.begin(format!("compile of {} bytes \"{}\"", text.len(), text.escape_ascii()));
        let lent = text.to_vec();
        let mut table = OTHER_TABLE;
        let reply = wrapper::compile_into(&lent, &mut table);
        let (mut rust_reply, mut rust_table) = reading::compile(text);
        let quick = reading::compile_out(onepass::compile(text)) == (rust_reply, rust_table);
        self.fault.in_compile(&mut rust_reply, &mut rust_table);
        same_reply(&reply, &rust_reply)?;
        same_table(&table, &rust_table)?;
        self.tally.compile(&reply);
        only_read(lent == text)?;
        same("what is compiled into zeros, the same", (wrapper::compile(text) == (reply, table)) as u64, 1)?;
        same("what the quicker Rust compiler gives, the same", quick as u64, 1)?;
        Ok(table)
    }

    pub fn call(&mut self, line: &mut Line, call: &Call, damaged: bool) -> Result<u8, Difference> {
        self.begin(format!("{} (a list of {} entries)", call.show(), line.entries));
        let mut before = *line;
        let mut rust = *line;
        let lent = call.clone();
        let reply = lent.by_library(line);
        let mut rust_reply = call.by_reading(&mut rust);
        self.fault.in_call(call, &before, &mut rust_reply, &mut rust);
        same_reply(&reply, &rust_reply)?;
        same_line(line, &rust)?;
        only_read(lent == *call)?;
        self.tally.call(call, damaged, &reply, line.record.waiting);
        if reply.number != 0 {
            self.fault.in_memory(&mut before);
            self.sides = ("after the refusal", "before");
            same_line(line, &before)?;
            self.sides = BOTH;
        }
        Ok(reply.number)
    }

    pub fn transcript(&mut self, input: &[u8], room: usize) -> Same {
        self.begin(format!("transcript of {} bytes into {room}", input.len()));
        let [ours, theirs] = &mut self.outs;
        let lent = input.to_vec();
        let count = wrapper::transcript(&lent, &mut ours[..room]);
        let rust_count = lines::transcript(input, &mut theirs[..room]);
        self.fault.in_transcript(&mut theirs[..room]);
        same("count", count as u64, rust_count as u64)?;
        // also what is behind the transcript, from calls before, and behind the output
        same_all("out", &ours[..room + BEHIND], &theirs[..room + BEHIND])?;
        only_read(lent == input)?;
        self.tally.transcript();
        Ok(())
    }
}

// Texts, names, inputs and tables to open over are only read.
fn only_read(unchanged: bool) -> Same {
    same("what is lent for reading, as it was", unchanged as u64, 1)
}
