// The session: one record, one list, four calls.
use crate::table::Table;
use std::sync::atomic::{AtomicBool, Ordering::Relaxed};

// Whether the test is made in one pass, for the comparison of times.
pub static FAST: AtomicBool = AtomicBool::new(false);

#[derive(Clone, Copy)]
pub struct Entry {
    pub terminal: u16,
    pub operation: u8,
}

pub const BLANK: Entry = Entry { terminal: 0, operation: 0 };

#[derive(Clone, Copy)]
pub struct Session {
    pub table: Table,
    pub set: u64,
    pub running: Option<u16>,
    pub waiting: usize,
}

#[derive(PartialEq)]
pub enum Reply {
    Opened,
    Granted,
    Delayed(usize),
    Finished(usize, Option<(u16, u8)>),
    Withdrawn(usize),
    Refused(u8),
}

impl Session {
    // "A record and list are sound if ..", clause by clause.
    fn sound_by_clauses(&self, list: &[Entry]) -> bool {
        let t = &self.table;
        if !t.sound() || !t.fits(self.set) || self.waiting > 64 {
            return false;
        }
        let listed = &list[..self.waiting];
        let runs_well = match self.running {
            None => true,
            Some(r) => r < 64 && (0..t.names).any(|o| self.set & !t.permission(o as u8) == 0),
        };
        runs_well
            && listed.iter().enumerate().all(|(i, e)| {
                e.terminal < 64
                    && listed[..i].iter().all(|d| d.terminal != e.terminal)
                    && self.running != Some(e.terminal)
                    && (e.operation as usize) < t.names
                    && (self.running.is_some() || self.set & t.permission(e.operation) == 0)
            })
    }

    // The operations of the set's positions, as bits.
    fn operations(&self, set: u64) -> u64 {
        let mut rest = set;
        let mut out = 0;
        while rest != 0 {
            let p = rest.trailing_zeros() as usize;
            rest &= rest - 1;
            if p < self.table.positions {
                out |= 1u64.checked_shl(self.table.operations[p] as u32).unwrap_or(0);
            }
        }
        out
    }

    // The same in one pass, for the comparison of times.
    fn sound_in_one_pass(&self, list: &[Entry]) -> bool {
        if !self.table.sound() || !self.table.fits(self.set) || self.waiting > 64 {
            return false;
        }
        let here = self.operations(self.set);
        let (mut taken, barred) = match self.running {
            None => (0, here),
            Some(t) if t > 63 || here.count_ones() != 1 => return false,
            Some(t) => (1u64 << t, 0),
        };
        for e in &list[..self.waiting] {
            if e.terminal > 63
                || taken >> e.terminal & 1 == 1
                || e.operation as usize >= self.table.names
                || barred >> e.operation & 1 == 1
            {
                return false;
            }
            taken |= 1 << e.terminal;
        }
        true
    }

    pub fn sound(&self, list: &[Entry]) -> bool {
        if FAST.load(Relaxed) {
            return self.sound_in_one_pass(list);
        }
        let sound = self.sound_by_clauses(list);
        assert_eq!(sound, self.sound_in_one_pass(list));
        sound
    }

    fn refused(&self, list: &[Entry], terminal: u16) -> Option<Reply> {
        if list.len() < 64 {
            Some(Reply::Refused(8))
        } else if !self.sound(list) {
            Some(Reply::Refused(9))
        } else if terminal > 63 {
            Some(Reply::Refused(10))
        } else {
            None
        }
    }

    fn place(&self, list: &[Entry], terminal: u16) -> Option<usize> {
        list[..self.waiting].iter().position(|e| e.terminal == terminal)
    }

    fn take_out(&mut self, list: &mut [Entry], at: usize) {
        list.copy_within(at + 1..self.waiting, at);
        self.waiting -= 1;
        list[self.waiting] = BLANK;
    }

    pub fn open(&mut self, list: &mut [Entry], table: Table) -> Reply {
        if list.len() < 64 {
            return Reply::Refused(8);
        }
        if !table.sound() {
            return Reply::Refused(9);
        }
        *self = Session { table, set: table.start, running: None, waiting: 0 };
        list[..64].fill(BLANK);
        Reply::Opened
    }

    pub fn ask(&mut self, list: &mut [Entry], terminal: u16, name: &[u8]) -> Reply {
        if let Some(r) = self.refused(list, terminal) {
            return r;
        }
        let operation = match self.table.find(name) {
            Some(operation) => operation,
            None => return Reply::Refused(11),
        };
        if self.running == Some(terminal) {
            return Reply::Refused(12);
        }
        if self.place(list, terminal).is_some() {
            return Reply::Refused(13);
        }
        let shared = self.set & self.table.permission(operation);
        if self.running.is_none() && shared != 0 {
            self.set = shared;
            self.running = Some(terminal);
            return Reply::Granted;
        }
        list[self.waiting] = Entry { terminal, operation };
        self.waiting += 1;
        Reply::Delayed(self.waiting - 1)
    }

    pub fn finish(&mut self, list: &mut [Entry], terminal: u16) -> Reply {
        if let Some(r) = self.refused(list, terminal) {
            return r;
        }
        if self.running != Some(terminal) {
            return Reply::Refused(14);
        }
        let mut union = 0;
        let mut rest = self.set;
        while rest != 0 {
            union |= self.table.rows[rest.trailing_zeros() as usize];
            rest &= rest - 1;
        }
        self.set = union;
        let found = if FAST.load(Relaxed) {
            let open = self.operations(union);
            list[..self.waiting].iter().position(|e| open >> e.operation & 1 == 1)
        } else {
            list[..self.waiting].iter().position(|e| self.table.permission(e.operation) & union != 0)
        };
        match found {
            None => {
                self.running = None;
                Reply::Finished(self.waiting, None)
            }
            Some(at) => {
                let e = list[at];
                self.take_out(list, at);
                self.set &= self.table.permission(e.operation);
                self.running = Some(e.terminal);
                Reply::Finished(at + 1, Some((e.terminal, e.operation)))
            }
        }
    }

    pub fn withdraw(&mut self, list: &mut [Entry], terminal: u16) -> Reply {
        if let Some(r) = self.refused(list, terminal) {
            return r;
        }
        match self.place(list, terminal) {
            None => Reply::Refused(15),
            Some(at) => {
                self.take_out(list, at);
                Reply::Withdrawn(at)
            }
        }
    }
}
