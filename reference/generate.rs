// Scripts made by chance from a seed: calls in season and out of it, damaged records and lists.
use crate::chance::{largest, path, Dice};
use crate::scripts::Line;

fn damage(d: &mut Dice) -> String {
    let kind = d.roll(14);
    let at = if kind == 10 { d.roll(514) } else { d.roll(66) };
    let value = match d.roll(4) {
        0 => d.roll(4),
        1 => d.roll(70),
        2 => d.all_bits(),
        _ => 1 << d.roll(64),
    };
    format!("d {kind} {at} {value}")
}

fn name(d: &mut Dice, line: &Line) -> String {
    let table = &line.session.table;
    match d.roll(20) {
        0 => "nobody".to_string(),
        1 => String::new(),
        _ if table.names == 0 || table.names > 32 => "a".to_string(),
        _ => String::from_utf8_lossy(table.name(d.roll(table.names as u64) as usize)).to_string(),
    }
}

// One line of a script: asks most of the time while the list fills.
fn one(d: &mut Dice, line: &Line, terminals: u64, filling: bool) -> String {
    let runner = line.session.running.filter(|_| d.roll(3) > 0).map_or(d.roll(terminals), |t| t as u64);
    match d.roll(40) {
        0 => format!("p {}", path(d)),
        1 => d.one_of(&["o", "s", "s"]).to_string(),
        2 => damage(d),
        3..=20 => format!("a {} {}", d.roll(terminals), name(d, line)),
        21..=32 if filling => format!("a {} {}", d.roll(terminals), name(d, line)),
        21..=32 => format!("f {runner}"),
        33..=36 => format!("w {}", d.roll(terminals)),
        _ => "s".to_string(),
    }
}

pub fn generate(seed: u64, lines: u64) -> String {
    let mut d = Dice::of(seed);
    let mut line = Line::nothing();
    let mut out = String::new();
    let terminals = d.one_of(&[3, 6, 64, 70]);
    for i in 0..lines {
        let mut text = if i == 0 { format!("p {}", path(&mut d)) } else { one(&mut d, &line, terminals, i / 50 % 2 == 0) };
        line.turn(text.as_bytes(), &mut String::new());
        // a record that calls refuse as unsound is soon opened anew
        if !line.session.sound(&line.list) && d.roll(4) == 0 {
            let fresh = format!("p {}", path(&mut d));
            line.turn(fresh.as_bytes(), &mut String::new());
            text = format!("{text}\n{fresh}");
        }
        out.push_str(&text);
        out.push('\n');
    }
    out.push_str("s\n");
    out
}

// The largest path, every terminal asking for its turn, and each that finishes asking again.
pub fn busy(lines: u64) -> String {
    let mut line = Line::nothing();
    let mut out = String::new();
    let mut say = |line: &mut Line, text: String| {
        line.turn(text.as_bytes(), &mut String::new());
        out.push_str(&text);
        out.push('\n');
    };
    say(&mut line, format!("p {}", largest(" ")));
    let name = |line: &Line, o: usize| String::from_utf8_lossy(line.session.table.name(o % 32)).to_string();
    for t in 0..64 {
        let text = format!("a {t} {}", name(&line, t));
        say(&mut line, text);
    }
    for i in 0..lines {
        let runner = match line.session.running {
            Some(runner) => runner,
            None => break,
        };
        say(&mut line, format!("f {runner}"));
        let text = format!("a {runner} {}", name(&line, (i as usize) + 31));
        say(&mut line, text);
    }
    out
}
