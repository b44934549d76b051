// A table: its cells, and when it is sound.

#[derive(Clone, Copy, PartialEq)]
pub struct Table {
    pub positions: usize,
    pub names: usize,
    pub start: u64,
    pub operations: [u8; 64],
    pub rows: [u64; 64],
    pub lengths: [u8; 32],
    pub bytes: [u8; 512],
    pub mark: u8,
}

pub const ZEROS: Table =
    Table { positions: 0, names: 0, start: 0, operations: [0; 64], rows: [0; 64], lengths: [0; 32], bytes: [0; 512], mark: 0 };

impl Table {
    pub fn name(&self, i: usize) -> &[u8] {
        let from = 16 * i;
        &self.bytes[from..(from + self.lengths[i] as usize).min(512)]
    }

    // A set that is not empty and names only existing positions.
    pub fn fits(&self, set: u64) -> bool {
        set != 0 && (self.positions >= 64 || set >> self.positions == 0)
    }

    pub fn permission(&self, o: u8) -> u64 {
        self.operations[..self.positions].iter().rev().fold(0, |set, x| set << 1 | (*x == o) as u64)
    }

    pub fn find(&self, name: &[u8]) -> Option<u8> {
        (0..self.names).find(|i| self.name(*i) == name).map(|i| i as u8)
    }

    pub fn sound(&self) -> bool {
        let (n, m) = (self.positions, self.names);
        if !(1..=64).contains(&n) || !(1..=32).contains(&m) {
            return false;
        }
        let used = &self.operations[..n];
        let mut placed = 0u64;
        let mut twice = false;
        for &o in used {
            if o as usize >= m {
                return false;
            }
            twice |= placed >> o & 1 == 1;
            placed |= 1 << o;
        }
        placed == u64::MAX >> (64 - m)
            && self.fits(self.start)
            && self.rows[..n].iter().all(|r| self.fits(*r))
            && self.operations[n..].iter().all(|o| *o == 0)
            && self.rows[n..].iter().all(|r| *r == 0)
            && self.lengths[m..].iter().all(|l| *l == 0)
            && (0..m).all(|i| self.named_well(i))
            && (0..32).all(|i| self.bytes[16 * i + self.lengths[i] as usize..16 * i + 16].iter().all(|b| *b == 0))
            && self.mark == !twice as u8
    }

    // Name i is well formed and no name before it is the same.
    fn named_well(&self, i: usize) -> bool {
        if !(1..=16).contains(&self.lengths[i]) {
            return false;
        }
        let name = self.name(i);
        name[0].is_ascii_alphabetic()
            && name.iter().all(|b| b.is_ascii_alphanumeric())
            && name != b"path"
            && name != b"end"
            && (0..i).all(|j| self.name(j) != name)
    }
}
