// The Rust reading of document 01, reference/, behind the wrapper's types: what the library is compared with.
use crate::session::{self, Session};
use crate::wrapper::{Entry, Record, Reply, Table};
use crate::{paths, table};

pub fn table_in(t: &Table) -> table::Table {
    let Table { positions, names, start, operations, rows, lengths, bytes, mark } = *t;
    table::Table { positions, names, start, operations, rows, lengths, bytes, mark }
}

pub fn table_out(t: &table::Table) -> Table {
    let table::Table { positions, names, start, operations, rows, lengths, bytes, mark } = *t;
    Table { positions, names, start, operations, rows, lengths, bytes, mark }
}

pub fn list_in(list: &[Entry]) -> Vec<session::Entry> {
    list.iter().map(|e| session::Entry { terminal: e.terminal, operation: e.operation }).collect()
}

fn list_out(list: &mut [Entry], entries: &[session::Entry]) {
    for (place, e) in list.iter_mut().zip(entries) {
        *place = Entry { terminal: e.terminal, operation: e.operation };
    }
}

// The state is two cells of the record: while `running` is 0, `terminal` says nothing.
pub fn session_in(record: &Record) -> Session {
    let running = if record.running == 0 { None } else { Some(record.terminal) };
    Session { table: table_in(&record.table), set: record.set, running, waiting: record.waiting }
}

// While free, `terminal` stays as it was; a `running` that says so already stays as it was.
fn session_out(record: &mut Record, session: &Session) {
    record.table = table_out(&session.table);
    record.set = session.set;
    record.waiting = session.waiting;
    match session.running {
        None => record.running = 0,
        Some(terminal) => {
            record.terminal = terminal;
            record.running = record.running.max(1);
        }
    }
}

pub fn reply_out(reply: session::Reply) -> Reply {
    match reply {
        session::Reply::Opened => Reply::NOTHING,
        session::Reply::Granted => Reply { granted: 1, ..Reply::NOTHING },
        session::Reply::Delayed(value) | session::Reply::Withdrawn(value) | session::Reply::Finished(value, None) => {
            Reply { value, ..Reply::NOTHING }
        }
        session::Reply::Finished(value, Some((terminal, operation))) => {
            Reply { value, terminal, operation, granted: 1, ..Reply::NOTHING }
        }
        session::Reply::Refused(number) => Reply { number, ..Reply::NOTHING },
    }
}

pub fn compile_out(compiled: Result<table::Table, paths::Refusal>) -> (Reply, Table) {
    match compiled {
        Ok(t) => (Reply::NOTHING, table_out(&t)),
        Err((number, value)) => (Reply { value, number, ..Reply::NOTHING }, Table::ZEROS),
    }
}

pub fn compile(text: &[u8]) -> (Reply, Table) {
    compile_out(paths::compile(text))
}

// A call of the session, between the cells before it and those after it.
fn call(
    record: &mut Record,
    list: &mut [Entry],
    made: impl FnOnce(&mut Session, &mut [session::Entry]) -> session::Reply,
) -> Reply {
    let mut session = session_in(record);
    let mut entries = list_in(list);
    let reply = made(&mut session, &mut entries);
    session_out(record, &session);
    list_out(list, &entries);
    reply_out(reply)
}

pub fn open(record: &mut Record, list: &mut [Entry], table: &Table) -> Reply {
    call(record, list, |session, entries| session.open(entries, table_in(table)))
}

pub fn ask(record: &mut Record, list: &mut [Entry], terminal: u16, name: &[u8]) -> Reply {
    call(record, list, |session, entries| session.ask(entries, terminal, name))
}

pub fn finish(record: &mut Record, list: &mut [Entry], terminal: u16) -> Reply {
    call(record, list, |session, entries| session.finish(entries, terminal))
}

pub fn withdraw(record: &mut Record, list: &mut [Entry], terminal: u16) -> Reply {
    call(record, list, |session, entries| session.withdraw(entries, terminal))
}
