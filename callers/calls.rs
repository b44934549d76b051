// One line that is lent to calls, and the calls, made by the library or by the Rust reading.
use crate::cells::{same_entries, same_record, Same};
use crate::reading;
use crate::wrapper::{Entry, Record, Reply, Table};

// A list is lent out of the middle of these entries: no call may touch those ahead of it and behind it.
const AHEAD: usize = 8;
pub const LONGEST: usize = 130;

#[derive(Clone, Copy)]
pub struct Line {
    pub record: Record,
    pub entries: usize,
    cells: [Entry; AHEAD + LONGEST + AHEAD],
}

impl Line {
    pub const BLANK: Line = Line { record: Record::ZEROS, entries: 64, cells: [Entry::BLANK; AHEAD + LONGEST + AHEAD] };

    pub fn list(&mut self) -> &mut [Entry] {
        &mut self.cells[AHEAD..AHEAD + self.entries]
    }

    // Every entry, also those that are not lent.
    pub fn cells(&mut self) -> &mut [Entry] {
        &mut self.cells
    }

    // The entries in use, as many as there are of a damaged count.
    pub fn waiters(&self) -> &[Entry] {
        let list = &self.cells[AHEAD..AHEAD + self.entries];
        &list[..self.record.waiting.min(list.len())]
    }

    fn lend(&mut self) -> (&mut Record, &mut [Entry]) {
        (&mut self.record, &mut self.cells[AHEAD..AHEAD + self.entries])
    }
}

pub fn same_line(one: &Line, other: &Line) -> Same {
    same_record(&one.record, &other.record)?;
    same_entries(AHEAD, &one.cells, &other.cells)
}

#[derive(Clone, PartialEq)]
pub enum Call {
    Open(Box<Table>),
    Ask(u16, Vec<u8>),
    Finish(u16),
    Withdraw(u16),
}

impl Call {
    pub fn by_library(&self, line: &mut Line) -> Reply {
        let (record, list) = line.lend();
        match self {
            Call::Open(table) => record.open(list, table),
            Call::Ask(terminal, name) => record.ask(list, *terminal, name),
            Call::Finish(terminal) => record.finish(list, *terminal),
            Call::Withdraw(terminal) => record.withdraw(list, *terminal),
        }
    }

    pub fn by_reading(&self, line: &mut Line) -> Reply {
        let (record, list) = line.lend();
        match self {
            Call::Open(table) => reading::open(record, list, table),
            Call::Ask(terminal, name) => reading::ask(record, list, *terminal, name),
            Call::Finish(terminal) => reading::finish(record, list, *terminal),
            Call::Withdraw(terminal) => reading::withdraw(record, list, *terminal),
        }
    }

    pub fn show(&self) -> String {
        match self {
            Call::Open(table) => format!("open over a table of {} positions and {} names", table.positions, table.names),
            Call::Ask(terminal, name) => format!("ask by {terminal} for \"{}\"", name.escape_ascii()),
            Call::Finish(terminal) => format!("finish by {terminal}"),
            Call::Withdraw(terminal) => format!("withdraw by {terminal}"),
        }
    }
}
