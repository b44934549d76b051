//! The session as terminals see it: who runs, who waits for what, and what has happened so far.

use crate::faults::{limits, Fault};
use crate::meaning::{Meaning, State};
use crate::paths::{Name, Path};
use std::collections::VecDeque;

#[derive(Clone, Copy, Debug, PartialEq, Eq)]
pub struct Terminal(pub usize);

#[derive(Clone, Debug, PartialEq, Eq)]
pub struct Entry {
    pub terminal: Terminal,
    pub name: Name,
}

#[derive(Clone, Debug, PartialEq, Eq)]
pub enum Reply {
    Granted,
    /// With the number of entries ahead.
    Delayed(usize),
    Finished {
        examined: usize,
        granted: Option<Entry>,
    },
    /// With the place that the entry had.
    Withdrawn(usize),
}

/// A reply, or the number of refusal.
pub type Answer = Result<Reply, u8>;

pub struct Line {
    names: Vec<Name>,
    meaning: Meaning,
    /// All that was granted so far, the running operation too.
    history: State,
    running: Option<Terminal>,
    /// Longest waiting first.
    waiting: VecDeque<Entry>,
    fault: Option<Fault>,
}

impl Line {
    pub fn open(path: &Path, fault: Option<Fault>) -> Line {
        let (meaning, history) = Meaning::new(&path.expression, fault);
        Line {
            names: path.names.clone(),
            meaning,
            history,
            running: None,
            waiting: VecDeque::new(),
            fault,
        }
    }

    pub fn names(&self) -> &[Name] {
        &self.names
    }

    pub fn running(&self) -> Option<Terminal> {
        self.running
    }

    pub fn waiting(&self) -> &VecDeque<Entry> {
        &self.waiting
    }

    /// Whether the history may go on with this operation, now or as soon as the running one is finished.
    pub fn permits(&mut self, name: &Name) -> bool {
        self.meaning.after(self.history, name).is_some()
    }

    pub fn ask(&mut self, terminal: Terminal, name: &[u8]) -> Answer {
        let name = self.admit(terminal, name)?;
        let overtakes = self.fault != Some(Fault::AskQueuesBehind) || self.waiting.is_empty();
        match self.meaning.after(self.history, &name) {
            Some(history) if self.running.is_none() && overtakes => {
                self.history = history;
                self.running = Some(terminal);
                Ok(Reply::Granted)
            }
            _ => {
                let ahead = self.waiting.len();
                if ahead < 63 || self.fault != Some(Fault::Entry64Lost) {
                    self.waiting.push_back(Entry { terminal, name });
                }
                let off = usize::from(self.fault == Some(Fault::DelayedCountsItself));
                Ok(Reply::Delayed(ahead + off))
            }
        }
    }

    pub fn finish(&mut self, terminal: Terminal) -> Answer {
        if self.fault == Some(Fault::FourteenBeforeTen) && self.running != Some(terminal) {
            return Err(14);
        }
        check_terminal(terminal, self.fault)?;
        if self.running != Some(terminal) {
            return Err(14);
        }
        let found = self.first_permitted();
        let examined = self.examined(found.map(|(examined, _, _)| examined));
        self.running = None;
        let granted = found.and_then(|(_, place, history)| self.hand_on(place, history));
        Ok(Reply::Finished { examined, granted })
    }

    pub fn withdraw(&mut self, terminal: Terminal) -> Answer {
        check_terminal(terminal, self.fault)?;
        let place = self.place(terminal).ok_or(15)?;
        if self.fault != Some(Fault::WithdrawLeavesEntry) {
            self.waiting.remove(place);
        }
        let off = usize::from(self.fault == Some(Fault::PlaceFromOne));
        Ok(Reply::Withdrawn(place + off))
    }

    /// Refusals 10 to 13 in number order, else the operation asked for.
    fn admit(&self, terminal: Terminal, name: &[u8]) -> Result<Name, u8> {
        let operation = self.operation(name).ok_or(11);
        if self.fault == Some(Fault::ElevenBeforeTen) {
            operation.clone()?;
        }
        check_terminal(terminal, self.fault)?;
        let operation = operation?;
        if self.running == Some(terminal) {
            return Err(12);
        }
        match self.place(terminal) {
            Some(_) if self.fault == Some(Fault::ThirteenAsTwelve) => Err(12),
            Some(_) => Err(13),
            None => Ok(operation),
        }
    }

    fn operation(&self, name: &[u8]) -> Option<Name> {
        let place = self.names.iter().position(|known| known.as_bytes() == name)?;
        let lost = self.fault == Some(Fault::Name32Lost) && place == 31;
        (!lost).then(|| self.names[place].clone())
    }

    /// The first permitted entry: entries examined, its place, and the history with its operation.
    fn first_permitted(&mut self) -> Option<(usize, usize, State)> {
        let places = self.places_to_examine();
        places.into_iter().zip(1..).find_map(|(place, examined)| {
            let history = self.meaning.after(self.history, &self.waiting[place].name)?;
            Some((examined, place, history))
        })
    }

    /// Up to the granted entry, or the whole count.
    fn examined(&self, until_granted: Option<usize>) -> usize {
        let count = self.waiting.len();
        match (until_granted, self.fault) {
            (Some(examined), Some(Fault::ExaminedFromZero)) => examined - 1,
            (Some(_), Some(Fault::ExaminedIsCount)) => count,
            (None, Some(Fault::ExaminedOneMore)) => count + 1,
            (Some(examined), _) => examined,
            (None, _) => count,
        }
    }

    fn places_to_examine(&self) -> Vec<usize> {
        let all = 0..self.waiting.len();
        match self.fault {
            Some(Fault::FrontOnly) => all.take(1).collect(),
            Some(Fault::NewestFirst) => all.rev().collect(),
            _ => all.collect(),
        }
    }

    fn hand_on(&mut self, place: usize, history: State) -> Option<Entry> {
        let entry = self.waiting.remove(place)?;
        // The wrong reading says so, but lets the next ask in first.
        if self.fault != Some(Fault::FreeBeforeHandingOn) {
            self.history = history;
            self.running = Some(entry.terminal);
        }
        Some(entry)
    }

    fn place(&self, terminal: Terminal) -> Option<usize> {
        self.waiting.iter().position(|entry| entry.terminal == terminal)
    }
}

fn check_terminal(terminal: Terminal, fault: Option<Fault>) -> Result<(), u8> {
    if terminal.0 > limits(fault).terminal {
        return Err(10);
    }
    Ok(())
}
