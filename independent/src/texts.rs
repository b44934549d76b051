//! Path texts: valid ones and damaged ones.

use crate::random::Random;

const LOOKALIKES: [&str; 14] = [
    "Path", "END", "paths", "ending", "PATH", "End", "path1", "end0", "pat", "en", "xpath", "bend", "pathend",
    "endpath",
];
const FIRST: &[u8] = b"abcdefghijklmnopqrstuvwxyzABCDEFGHIJKLMNOPQRSTUVWXYZ";
const LATER: &[u8] = b"abcxyzABCXYZ0123456789";
const TOKENS: [&str; 10] = [";", "+", "*", "(", ")", "path", "end", "a", "3", "0x"];
/// The neighbours of the letters, digits and signs, and bytes that look like blanks.
const ODD_BYTES: &[u8] = b"\x00\x0b\x0c\x08\x0e\x1f!'),-./:@[`{_~\x7f\x80\x85\xa0\xc3\xff309";

/// A text that is accepted (but for a rare one above 4,096 bytes).
pub fn valid(random: &mut Random) -> Vec<u8> {
    let tokens = valid_tokens(random);
    render(random, &tokens)
}

/// A text with many positions and many names.
pub fn wide(random: &mut Random) -> Vec<u8> {
    let positions = random.choose(&[64, 64, 64, 63, 50, 40]);
    let names = random.choose(&[32, 32, 32, 31, 20]);
    let names = distinct_names(random, names);
    let depth = random.between(0, 5);
    let tokens = path_tokens(random, positions, &names, depth);
    render(random, &tokens)
}

pub fn valid_tokens(random: &mut Random) -> Vec<String> {
    let (positions, names) = match random.below(10) {
        0 => (random.between(1, 3), 1),
        1..=4 => (random.between(3, 9), random.between(1, 3)),
        5 | 6 => (random.between(6, 20), random.between(2, 6)),
        7 => (random.between(20, 64), random.between(2, 20)),
        8 => (64, random.between(1, 32)),
        _ => (0, random.between(1, 32)),
    };
    // Without a number of positions each name stands once, so that the mark is 1.
    let positions = if positions == 0 { names } else { positions };
    let depth = if random.one_in(3) { 16 } else { random.between(0, 4) };
    let names = distinct_names(random, names);
    path_tokens(random, positions, &names, depth)
}

/// `path`, an expression with exactly so many positions and these names, `end`.
pub fn path_tokens(random: &mut Random, positions: usize, names: &[String], depth: usize) -> Vec<String> {
    let mut words = names.to_vec();
    while words.len() < positions {
        words.push(random.choose(names));
    }
    random.shuffle(&mut words);
    let mut writer = Writer {
        many_stars: random.one_in(12),
        random,
        words,
        tokens: vec!["path".into()],
    };
    writer.expression(positions, depth);
    writer.tokens.push("end".into());
    writer.tokens
}

struct Writer<'a> {
    random: &'a mut Random,
    /// The names still to be written.
    words: Vec<String>,
    tokens: Vec<String>,
    many_stars: bool,
}

impl Writer<'_> {
    fn expression(&mut self, positions: usize, depth: usize) {
        for (index, part) in split(self.random, positions, 3).into_iter().enumerate() {
            if index > 0 {
                self.push("+");
            }
            self.sequence(part, depth);
        }
    }

    fn sequence(&mut self, positions: usize, depth: usize) {
        let parts = if depth == 0 {
            vec![1; positions]
        } else {
            split(self.random, positions, 5)
        };
        for (index, part) in parts.into_iter().enumerate() {
            if index > 0 && self.random.one_in(2) {
                self.push(";");
            }
            self.factor(part, depth);
        }
    }

    fn factor(&mut self, positions: usize, depth: usize) {
        if positions == 1 && (depth == 0 || !self.random.one_in(5)) {
            let word = self.words.pop().expect("a name for each position");
            self.tokens.push(word);
        } else {
            self.push("(");
            self.expression(positions, depth - 1);
            self.push(")");
        }
        self.stars();
    }

    fn stars(&mut self) {
        let stars = match self.random.below(60) {
            0 if self.many_stars => self.random.between(200, 500),
            0..=2 => self.random.between(2, 5),
            3..=19 => 1,
            _ => 0,
        };
        (0..stars).for_each(|_| self.push("*"));
    }

    fn push(&mut self, token: &str) {
        self.tokens.push(token.into());
    }
}

/// Cuts a number into one or more parts, each at least 1.
fn split(random: &mut Random, whole: usize, most: usize) -> Vec<usize> {
    let count = random.between(1, most.min(whole));
    let mut parts = vec![1; count];
    (count..whole).for_each(|_| parts[random.below(count)] += 1);
    parts
}

pub fn distinct_names(random: &mut Random, count: usize) -> Vec<String> {
    let mut names: Vec<String> = vec![];
    while names.len() < count {
        let name = name(random);
        if name != "path" && name != "end" && !names.contains(&name) {
            names.push(name);
        }
    }
    names
}

fn name(random: &mut Random) -> String {
    let length = match random.below(8) {
        0 => return random.pick(&LOOKALIKES).into(),
        1 => 16,
        2 | 3 => random.between(1, 16),
        _ => random.between(1, 2),
    };
    word(random, length)
}

pub fn word(random: &mut Random, length: usize) -> String {
    let letters = (0..length).map(|index| random.choose(if index == 0 { FIRST } else { LATER }));
    letters.map(char::from).collect()
}

/// The tokens with random blanks, at least one where two words would else be one.
pub fn render(random: &mut Random, tokens: &[String]) -> Vec<u8> {
    let airy = random.one_in(6);
    let is_word = |token: &str| token.as_bytes()[0].is_ascii_alphanumeric();
    let mut text = vec![];
    for (index, token) in tokens.iter().enumerate() {
        let apart = index > 0 && is_word(&tokens[index - 1]) && is_word(token);
        let blanks = if airy {
            random.below(4)
        } else {
            usize::from(index > 0 && random.one_in(2))
        };
        (0..blanks.max(usize::from(apart))).for_each(|_| text.push(blank(random, airy)));
        text.extend_from_slice(token.as_bytes());
    }
    let ends = if random.one_in(2) { random.below(4) } else { 0 };
    (0..ends).for_each(|_| text.push(blank(random, true)));
    text
}

/// LF cannot stand in line one.
pub fn blank(random: &mut Random, mixed: bool) -> u8 {
    if mixed {
        random.choose(b" \t\r")
    } else {
        b' '
    }
}

/// A valid text with one or two things wrong (a few stay valid by chance).
pub fn damaged(random: &mut Random) -> Vec<u8> {
    let mut tokens = valid_tokens(random);
    if random.one_in(2) {
        damage_tokens(random, &mut tokens);
        return render(random, &tokens);
    }
    let mut text = render(random, &tokens);
    damage_bytes(random, &mut text);
    if random.one_in(4) && !text.is_empty() {
        damage_bytes(random, &mut text);
    }
    text
}

fn damage_tokens(random: &mut Random, tokens: &mut Vec<String>) {
    let place = random.below(tokens.len());
    match random.below(9) {
        0 => drop(tokens.remove(0)),
        1 => drop(tokens.pop()),
        2 => tokens.insert(0, random.pick(&TOKENS).into()),
        3 => tokens.push(random.pick(&TOKENS).into()),
        4 => tokens.insert(place, random.pick(&["path", "end"]).into()),
        5 => drop(tokens.remove(place)),
        6 => tokens.truncate(place),
        7 => tokens[place] = random.pick(&TOKENS).into(),
        _ => tokens.insert(place, random.pick(&TOKENS).into()),
    }
}

fn damage_bytes(random: &mut Random, text: &mut Vec<u8>) {
    let place = random.below(text.len());
    match random.below(7) {
        0 => text[place] = random.byte(),
        1 => text.insert(place, random.byte()),
        2 => drop(text.remove(place)),
        3 => text.truncate(place),
        4 => text[place] = random.choose(ODD_BYTES),
        5 => text.insert(place, random.choose(ODD_BYTES)),
        _ => text.retain(|byte| *byte != b' '),
    }
}
