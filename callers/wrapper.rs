// The static library for Rust: the types and functions of include/wabbitsen.h, behind an interface that is safe.
//
// What the header asks of its caller, references give: a slice points to as many initialised, aligned objects as it says, and is not null
// even if it is empty; what is lent by `&mut` overlaps with nothing, and nobody else touches it. Every cell is a plain number, so that no
// value in it is wrong for Rust, a damaged one neither. Two things are left: the layout, which is asserted here, and the stack, which no type
// gives: a call needs up to 1 MiB of it, and the threads of std have 2 MiB if nothing else is said.
use std::mem::{align_of, size_of};

#[cfg(not(all(target_arch = "x86_64", target_os = "linux", target_pointer_width = "64")))]
compile_error!("libwabbitsen.a is for x86-64 Linux");

// No input's transcript is longer.
pub const TRANSCRIPT: usize = 720914;

#[repr(C)]
#[derive(Clone, Copy, PartialEq, Eq, Debug)]
pub struct Table {
    pub positions: usize,
    pub names: usize,
    pub start: u64,
    pub operations: [u8; 64],
    pub rows: [u64; 64],
    pub lengths: [u8; 32],
    pub bytes: [u8; 512],
    pub mark: u8,
}

#[repr(C)]
#[derive(Clone, Copy, PartialEq, Eq, Debug)]
pub struct Entry {
    pub terminal: u16,
    pub operation: u8,
}

#[repr(C)]
#[derive(Clone, Copy, PartialEq, Eq, Debug)]
pub struct Record {
    pub table: Table,
    pub set: u64,
    pub waiting: usize,
    pub terminal: u16,
    pub running: u8,
}

#[repr(C)]
#[derive(Clone, Copy, PartialEq, Eq, Debug)]
pub struct Reply {
    pub value: usize,
    pub terminal: u16,
    pub operation: u8,
    pub number: u8,
    pub granted: u8,
}

const _: () = assert!(size_of::<Table>() == 1152 && align_of::<Table>() == 8);
const _: () = assert!(size_of::<Entry>() == 4 && align_of::<Entry>() == 2);
const _: () = assert!(size_of::<Record>() == 1176 && align_of::<Record>() == 8);
const _: () = assert!(size_of::<Reply>() == 16 && align_of::<Reply>() == 8);

// The offsets that the header states; at start-up, since a constant cannot ask for them in every Rust that this is compiled with.
pub fn assert_layout() {
    fn offset<S, F>(whole: &S, field: &F) -> usize {
        field as *const F as usize - whole as *const S as usize
    }
    let (t, e, r, a) = (Table::ZEROS, Entry::BLANK, Record::ZEROS, Reply::NOTHING);
    assert_eq!([offset(&t, &t.positions), offset(&t, &t.names), offset(&t, &t.start)], [0, 8, 16]);
    assert_eq!([offset(&t, &t.operations), offset(&t, &t.rows), offset(&t, &t.lengths)], [24, 88, 600]);
    assert_eq!([offset(&t, &t.bytes), offset(&t, &t.mark)], [632, 1144]);
    assert_eq!([offset(&e, &e.terminal), offset(&e, &e.operation)], [0, 2]);
    assert_eq!([offset(&r, &r.table), offset(&r, &r.set), offset(&r, &r.waiting)], [0, 1152, 1160]);
    assert_eq!([offset(&r, &r.terminal), offset(&r, &r.running)], [1168, 1170]);
    assert_eq!([offset(&a, &a.value), offset(&a, &a.terminal), offset(&a, &a.operation)], [0, 8, 10]);
    assert_eq!([offset(&a, &a.number), offset(&a, &a.granted)], [11, 12]);
}

#[link(name = "wabbitsen", kind = "static")]
extern "C" {
    fn wabbitsen_compile(text: *const u8, length: usize, table: *mut Table) -> Reply;
    fn wabbitsen_open(record: *mut Record, list: *mut Entry, entries: usize, table: *const Table) -> Reply;
    fn wabbitsen_ask(
        record: *mut Record,
        list: *mut Entry,
        entries: usize,
        terminal: u16,
        name: *const u8,
        length: usize,
    ) -> Reply;
    fn wabbitsen_finish(record: *mut Record, list: *mut Entry, entries: usize, terminal: u16) -> Reply;
    fn wabbitsen_withdraw(record: *mut Record, list: *mut Entry, entries: usize, terminal: u16) -> Reply;
    fn wabbitsen_transcript(input: *const u8, length: usize, out: *mut u8, room: usize) -> usize;
}

impl Table {
    pub const ZEROS: Table = Table {
        positions: 0,
        names: 0,
        start: 0,
        operations: [0; 64],
        rows: [0; 64],
        lengths: [0; 32],
        bytes: [0; 512],
        mark: 0,
    };
}

impl Entry {
    pub const BLANK: Entry = Entry { terminal: 0, operation: 0 };
}

impl Reply {
    // Served, and nothing is said.
    pub const NOTHING: Reply = Reply { value: 0, terminal: 0, operation: 0, number: 0, granted: 0 };
}

// From the text of a path to its table, whatever it held before; of a refused text, the table of zeros.
pub fn compile_into(text: &[u8], table: &mut Table) -> Reply {
    // Sound: the text is a slice, and the table is lent by `&mut` and so apart from it.
    unsafe { wabbitsen_compile(text.as_ptr(), text.len(), table) }
}

pub fn compile(text: &[u8]) -> (Reply, Table) {
    let mut table = Table::ZEROS;
    let reply = compile_into(text, &mut table);
    (reply, table)
}

impl Record {
    // Nothing is opened.
    pub const ZEROS: Record = Record { table: Table::ZEROS, set: 0, waiting: 0, terminal: 0, running: 0 };

    // A session over a table is opened.
    pub fn open(&mut self, list: &mut [Entry], table: &Table) -> Reply {
        // Sound: record and list are lent by `&mut` and so apart from each other and from the table, which the library only reads.
        unsafe { wabbitsen_open(self, list.as_mut_ptr(), list.len(), table) }
    }

    // A terminal asks for the operation of a name.
    pub fn ask(&mut self, list: &mut [Entry], terminal: u16, name: &[u8]) -> Reply {
        // Sound: record and list are lent by `&mut` and so apart from each other and from the name, which the library only reads.
        unsafe { wabbitsen_ask(self, list.as_mut_ptr(), list.len(), terminal, name.as_ptr(), name.len()) }
    }

    // A terminal finishes what it runs.
    pub fn finish(&mut self, list: &mut [Entry], terminal: u16) -> Reply {
        // Sound: record and list are lent by `&mut`, so they are apart and each is what its pointer says.
        unsafe { wabbitsen_finish(self, list.as_mut_ptr(), list.len(), terminal) }
    }

    // A terminal withdraws what it waits for.
    pub fn withdraw(&mut self, list: &mut [Entry], terminal: u16) -> Reply {
        // Sound: record and list are lent by `&mut`, so they are apart and each is what its pointer says.
        unsafe { wabbitsen_withdraw(self, list.as_mut_ptr(), list.len(), terminal) }
    }
}

// What linerun prints of an input, in front of `out` and as far as it goes; how many bytes that is.
pub fn transcript(input: &[u8], out: &mut [u8]) -> usize {
    // Sound: both are slices, and the output is lent by `&mut` and so apart from the input.
    unsafe { wabbitsen_transcript(input.as_ptr(), input.len(), out.as_mut_ptr(), out.len()) }
}
