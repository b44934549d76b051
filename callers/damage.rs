// Tables, records and lists damaged on purpose: one cell gets a value that it need not have, or one that is sound by itself.
use crate::calls::Line;
use crate::chance::Dice;
use crate::wrapper::Table;

// A value of so many bits: near what it is, near a limit, or any.
fn value(d: &mut Dice, now: u64, bits: u64) -> u64 {
    match d.roll(9) {
        0 => d.roll(4),
        1 => 31 + d.roll(3),
        2 => 62 + d.roll(4),
        3 => d.all_bits(),
        4 => 1 << d.roll(bits),
        5 => now ^ 1 << d.roll(bits),
        6 => now.wrapping_add(1),
        7 => now.wrapping_sub(1),
        _ => u64::MAX,
    }
}

// A place below n, which may be 0 or anything in a damaged cell.
fn below(d: &mut Dice, n: usize, most: usize) -> usize {
    d.roll(n.clamp(1, most) as u64) as usize
}

// Some of the existing positions.
fn some_positions(d: &mut Dice, table: &Table) -> u64 {
    d.all_bits() & u64::MAX >> (64 - table.positions.clamp(1, 64))
}

fn rename(t: &mut Table, o: usize, name: &[u8]) {
    t.lengths[o] = name.len() as u8;
    t.bytes[16 * o..16 * o + 16].fill(0);
    t.bytes[16 * o..16 * o + name.len()].copy_from_slice(name);
}

// A name becomes another: one that stands already, a keyword, or one that is not well formed.
fn damage_name(d: &mut Dice, t: &mut Table) {
    let (o, p) = (below(d, t.names, 32), below(d, t.names, 32));
    let at = 16 * o + below(d, t.lengths[o] as usize, 16);
    match d.roll(5) {
        0 => {
            let copied: [u8; 16] = t.bytes[16 * p..16 * p + 16].try_into().expect("16 bytes");
            t.lengths[o] = t.lengths[p];
            t.bytes[16 * o..16 * o + 16].copy_from_slice(&copied);
        }
        1 => rename(t, o, d.one_of(&[&b"path"[..], b"end", b"Path", b"ends", b"pat", b"1a"])),
        2 => t.bytes[at] = d.one_of(b"/09:@AZ[`az{ \0\x80"),
        3 => t.bytes[at] ^= 32,
        _ => t.lengths[o] = value(d, t.lengths[o] as u64, 8) as u8,
    }
}

pub fn damage_table(d: &mut Dice, t: &mut Table) {
    let used = below(d, t.positions, 64);
    let p = if d.roll(2) == 0 { used } else { d.roll(64) as usize };
    let (o, b) = (d.roll(32) as usize, d.roll(512) as usize);
    match d.roll(13) {
        0 => t.positions = value(d, t.positions as u64, 64) as usize,
        1 => t.names = value(d, t.names as u64, 64) as usize,
        2 => t.start = value(d, t.start, 64),
        3 => t.start = some_positions(d, t),
        4 => t.operations[p] = value(d, t.operations[p] as u64, 8) as u8,
        5 => t.operations[used] = below(d, t.names, 32) as u8,
        6 => t.rows[p] = value(d, t.rows[p], 64),
        7 => t.rows[used] = some_positions(d, t),
        8 => t.lengths[o] = value(d, t.lengths[o] as u64, 8) as u8,
        9 => t.bytes[b] = value(d, t.bytes[b] as u64, 8) as u8,
        10 => t.mark = value(d, t.mark as u64, 8) as u8,
        _ => damage_name(d, t),
    }
}

// A place of the list: in use, behind those in use, or from 64 on.
fn place(d: &mut Dice, line: &Line) -> usize {
    match d.roll(4) {
        0 => d.roll(64) as usize,
        1 => line.waiters().len(),
        2 if line.entries > 64 => 64 + d.roll(line.entries as u64 - 64) as usize,
        _ => below(d, line.waiters().len(), 64),
    }
}

fn damage_list(d: &mut Dice, line: &mut Line) {
    let (at, from, runs, names) = (place(d, line), place(d, line), line.record.terminal, line.record.table.names);
    let list = line.list();
    if at >= list.len() || from >= list.len() {
        return;
    }
    match d.roll(6) {
        0 => list[at].terminal = value(d, list[at].terminal as u64, 16) as u16,
        1 => list[at].operation = value(d, list[at].operation as u64, 8) as u8,
        2 => list[at].operation = below(d, names, 32) as u8,
        3 => list[at].terminal = runs,
        4 => list[at] = list[from],
        _ => list.swap(at, from),
    }
}

pub fn damage_line(d: &mut Dice, line: &mut Line) {
    let waiter = line.waiters().first().map_or(0, |e| e.terminal);
    let record = &mut line.record;
    match d.roll(14) {
        0 => record.set = value(d, record.set, 64),
        1 => record.set = some_positions(d, &record.table),
        2 => record.waiting = value(d, record.waiting as u64, 64) as usize,
        3 => record.waiting = d.one_of(&[0, 64, 65, 66, usize::MAX, usize::MAX - 63]),
        4 => record.running = d.one_of(&[0, 1, 2, 128, 255]),
        5 => record.terminal = value(d, record.terminal as u64, 16) as u16,
        6 => record.terminal = waiter,
        7..=10 => damage_list(d, line),
        _ => damage_table(d, &mut record.table),
    }
}
