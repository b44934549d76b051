// Cell by cell: the first that differs, with both values.
use crate::wrapper::{Entry, Record, Reply, Table};

pub struct Difference {
    pub cell: String,
    pub one: u64,
    pub other: u64,
}

pub type Same = Result<(), Difference>;

pub fn same(cell: &str, one: u64, other: u64) -> Same {
    if one == other {
        return Ok(());
    }
    Err(Difference { cell: cell.to_string(), one, other })
}

pub fn same_all<T: Copy + PartialEq + Into<u64>>(cell: &str, one: &[T], other: &[T]) -> Same {
    assert_eq!(one.len(), other.len(), "{cell}");
    match one.iter().zip(other).position(|(a, b)| a != b) {
        None => Ok(()),
        Some(i) => Err(Difference { cell: format!("{cell}[{i}]"), one: one[i].into(), other: other[i].into() }),
    }
}

// Each pattern names every cell, so that none is forgotten.
pub fn same_table(one: &Table, other: &Table) -> Same {
    let Table { positions, names, start, operations, rows, lengths, bytes, mark } = one;
    same("table.positions", *positions as u64, other.positions as u64)?;
    same("table.names", *names as u64, other.names as u64)?;
    same("table.start", *start, other.start)?;
    same_all("table.operations", operations, &other.operations)?;
    same_all("table.rows", rows, &other.rows)?;
    same_all("table.lengths", lengths, &other.lengths)?;
    same_all("table.bytes", bytes, &other.bytes)?;
    same("table.mark", *mark as u64, other.mark as u64)
}

pub fn same_record(one: &Record, other: &Record) -> Same {
    let Record { table, set, waiting, terminal, running } = one;
    same_table(table, &other.table)?;
    same("set", *set, other.set)?;
    same("waiting", *waiting as u64, other.waiting as u64)?;
    same("terminal", *terminal as u64, other.terminal as u64)?;
    same("running", *running as u64, other.running as u64)
}

// The entry at place `ahead` is the list's first; what is ahead of it is named by its distance.
pub fn same_entries(ahead: usize, one: &[Entry], other: &[Entry]) -> Same {
    for (i, (Entry { terminal, operation }, e)) in one.iter().zip(other).enumerate() {
        let place = i as isize - ahead as isize;
        if *terminal != e.terminal || *operation != e.operation {
            same(&format!("list[{place}].terminal"), *terminal as u64, e.terminal as u64)?;
            same(&format!("list[{place}].operation"), *operation as u64, e.operation as u64)?;
        }
    }
    Ok(())
}

pub fn same_reply(one: &Reply, other: &Reply) -> Same {
    let Reply { value, terminal, operation, number, granted } = one;
    same("reply.number", *number as u64, other.number as u64)?;
    same("reply.granted", *granted as u64, other.granted as u64)?;
    same("reply.value", *value as u64, other.value as u64)?;
    same("reply.terminal", *terminal as u64, other.terminal as u64)?;
    same("reply.operation", *operation as u64, other.operation as u64)
}
