// Numbers and paths by chance, from a seed.

pub struct Dice(u64);

impl Dice {
    pub fn of(seed: u64) -> Dice {
        Dice(seed.wrapping_mul(0x9E3779B97F4A7C15) | 1)
    }

    pub fn roll(&mut self, n: u64) -> u64 {
        self.0 ^= self.0 << 13;
        self.0 ^= self.0 >> 7;
        self.0 ^= self.0 << 17;
        (self.0 >> 11) % n
    }

    pub fn one_of<T: Copy>(&mut self, all: &[T]) -> T {
        all[self.roll(all.len() as u64) as usize]
    }

    pub fn all_bits(&mut self) -> u64 {
        self.roll(1 << 32) << 32 | self.roll(1 << 32)
    }
}

fn part(d: &mut Dice, depth: u64, names: u64, left: &mut u64, out: &mut String) {
    let items = 1 + d.roll(3);
    for i in 0..items {
        if i > 0 {
            out.push_str(d.one_of(&[" ", " + ", ";"]));
        }
        if depth > 0 && d.roll(3) == 0 {
            out.push('(');
            part(d, depth - 1, names, left, out);
            out.push(')');
        } else if *left > 0 || i == 0 {
            *left = left.saturating_sub(1);
            out.push_str(&format!("n{}", d.roll(names)));
        }
        if d.roll(4) == 0 {
            out.push('*');
        }
    }
}

// 64 positions of 32 names, of 16 bytes some of them; one after the other, or any of them.
pub fn largest(between: &str) -> String {
    let name = |i: usize| if i % 32 % 3 == 0 { format!("LongestNameOf{:03}", i % 32) } else { format!("n{}", i % 32) };
    let names: Vec<String> = (0..64).map(name).collect();
    format!("path {} end", names.join(between))
}

pub fn path(d: &mut Dice) -> String {
    const PATHS: [&str; 8] = [
        "path (inject exclude)* count end",
        "path open (inject + read)* close end",
        "path a b + a c end",
        "path a b (a + b*) c end",
        "path a b* c end",
        "path write (write (write read)* read)* read end",
        "path a (b + b (a b)*) end",
        "path a + end",
    ];
    match d.roll(8) {
        0 => largest(" "),
        1 => largest(" + "),
        2..=4 => d.one_of(&PATHS).to_string(),
        _ => {
            let mut out = String::from("path ");
            let (depth, names) = (d.roll(5), 1 + d.roll(34));
            let mut left = 1 + d.roll(80);
            part(d, depth, names, &mut left, &mut out);
            out.push_str(" end");
            out
        }
    }
}
