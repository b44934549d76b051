// How many calls were made, and what they replied.
use crate::calls::Call;
use crate::wrapper::Reply;
use std::collections::BTreeMap;

#[derive(Default)]
pub struct Tally {
    calls: u64,
    transcripts: u64,
    served: BTreeMap<&'static str, u64>,
    refused: [u64; 16],
    damaged: u64,
    damaged_and_served: u64,
    most_waiting: usize,
}

impl Tally {
    fn reply(&mut self, kind: &'static str, reply: &Reply) {
        self.calls += 1;
        match reply.number {
            0 => *self.served.entry(kind).or_default() += 1,
            number => self.refused[number as usize] += 1,
        }
    }

    pub fn compile(&mut self, reply: &Reply) {
        self.reply("compiled", reply);
    }

    pub fn call(&mut self, call: &Call, damaged: bool, reply: &Reply, waiting: usize) {
        let kind = match (call, reply.granted) {
            (Call::Open(_), _) => "opened",
            (Call::Ask(..), 0) => "delayed",
            (Call::Ask(..), _) => "granted",
            (Call::Finish(_), 0) => "finished and free",
            (Call::Finish(_), _) => "finished and handed on",
            (Call::Withdraw(_), _) => "withdrawn",
        };
        self.reply(kind, reply);
        self.damaged += damaged as u64;
        if reply.number == 0 {
            self.damaged_and_served += damaged as u64;
            self.most_waiting = self.most_waiting.max(waiting);
        }
    }

    pub fn transcript(&mut self) {
        self.calls += 1;
        self.transcripts += 1;
    }

    pub fn calls(&self) -> u64 {
        self.calls
    }

    // The refusal numbers 1 to 15 that no call gave.
    pub fn never_refused(&self) -> Vec<usize> {
        (1..16).filter(|n| self.refused[*n] == 0).collect()
    }

    pub fn print(&self) {
        let served: Vec<String> = self.served.iter().map(|(kind, n)| format!("{kind} {n}")).collect();
        let refused: Vec<String> = (1..16).map(|n| format!("{n}: {}", self.refused[n])).collect();
        println!("served: {}; transcripts {}", served.join(", "), self.transcripts);
        println!("refused: {}", refused.join(", "));
        println!("most entries in use: {}", self.most_waiting);
        println!("on records or lists damaged before: {} calls, {} of them served", self.damaged, self.damaged_and_served);
    }
}
