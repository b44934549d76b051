// The compiler: from a path's text to its table, or to a refusal.
use crate::table::{Table, ZEROS};

const BLANK: [u8; 4] = [32, 9, 10, 13];

#[derive(Clone, Copy, PartialEq, Debug)]
pub enum Token<'a> {
    Sign(u8),
    Path,
    End,
    Name(&'a [u8]),
}

// A refusal: its number and its place.
pub type Refusal = (u8, usize);

// The token at or behind `at`, its place, and where the next may start; none at the end of the text.
pub fn token(text: &[u8], at: usize) -> Result<Option<(Token<'_>, usize, usize)>, Refusal> {
    let mut k = at;
    while k < text.len() && BLANK.contains(&text[k]) {
        k += 1;
    }
    if k == text.len() {
        return Ok(None);
    }
    match text[k] {
        b @ (b';' | b'+' | b'*' | b'(' | b')') => Ok(Some((Token::Sign(b), k, k + 1))),
        b if b.is_ascii_alphabetic() => {
            let len = text[k..].iter().take_while(|b| b.is_ascii_alphanumeric()).count();
            let name = &text[k..k + len];
            match name {
                _ if len > 16 => Err((3, k)),
                b"path" => Ok(Some((Token::Path, k, k + len))),
                b"end" => Ok(Some((Token::End, k, k + len))),
                _ => Ok(Some((Token::Name(name), k, k + len))),
            }
        }
        _ => Err((2, k)),
    }
}

// A part of a path: whether it can be empty, and the positions it starts and ends with.
#[derive(Clone)]
struct Part {
    empty: bool,
    first: Vec<usize>,
    last: Vec<usize>,
}

struct Compiler<'a> {
    text: &'a [u8],
    at: usize,
    depth: usize,
    operations: Vec<usize>,
    names: Vec<&'a [u8]>,
    follows: Vec<Vec<usize>>,
}

impl<'a> Compiler<'a> {
    fn peek(&self) -> Result<Option<(Token<'a>, usize, usize)>, Refusal> {
        token(self.text, self.at)
    }

    // The next token must be this one.
    fn expect(&mut self, wanted: Token<'_>) -> Result<(), Refusal> {
        match self.peek()? {
            Some((t, _, next)) if t == wanted => {
                self.at = next;
                Ok(())
            }
            Some((_, place, _)) => Err((4, place)),
            None => Err((4, self.text.len())),
        }
    }

    fn link(&mut self, last: &[usize], first: &[usize]) {
        for &p in last {
            for &q in first {
                if !self.follows[p].contains(&q) {
                    self.follows[p].push(q);
                }
            }
        }
    }

    fn expression(&mut self) -> Result<Part, Refusal> {
        let mut whole = self.sequence()?;
        while let Some((Token::Sign(b'+'), _, next)) = self.peek()? {
            self.at = next;
            let more = self.sequence()?;
            whole.empty |= more.empty;
            whole.first.extend(more.first);
            whole.last.extend(more.last);
        }
        Ok(whole)
    }

    fn sequence(&mut self) -> Result<Part, Refusal> {
        let mut whole = self.factor()?;
        loop {
            match self.peek()? {
                Some((Token::Sign(b';'), _, next)) => self.at = next,
                Some((Token::Sign(b'('), ..)) | Some((Token::Name(_), ..)) => {}
                _ => return Ok(whole),
            }
            let more = self.factor()?;
            self.link(&whole.last.clone(), &more.first);
            let mut first = whole.first;
            if whole.empty {
                first.extend(&more.first);
            }
            let mut last = more.last;
            if more.empty {
                last.extend(&whole.last);
            }
            whole = Part { empty: whole.empty && more.empty, first, last };
        }
    }

    fn factor(&mut self) -> Result<Part, Refusal> {
        let mut part = match self.peek()? {
            Some((Token::Sign(b'('), place, next)) => {
                if self.depth == 16 {
                    return Err((5, place));
                }
                self.depth += 1;
                self.at = next;
                let inner = self.expression()?;
                self.expect(Token::Sign(b')'))?;
                self.depth -= 1;
                inner
            }
            Some((Token::Name(name), place, next)) => {
                if self.operations.len() == 64 {
                    return Err((6, place));
                }
                let o = match self.names.iter().position(|n| *n == name) {
                    Some(o) => o,
                    None if self.names.len() == 32 => return Err((7, place)),
                    None => {
                        self.names.push(name);
                        self.names.len() - 1
                    }
                };
                self.at = next;
                let p = self.operations.len();
                self.operations.push(o);
                self.follows.push(Vec::new());
                Part { empty: false, first: vec![p], last: vec![p] }
            }
            Some((_, place, _)) => return Err((4, place)),
            None => return Err((4, self.text.len())),
        };
        while let Some((Token::Sign(b'*'), _, next)) = self.peek()? {
            self.at = next;
            part.empty = true;
            self.link(&part.last.clone(), &part.first.clone());
        }
        Ok(part)
    }
}

fn set_of(positions: &[usize]) -> u64 {
    positions.iter().fold(0, |set, p| set | 1 << p)
}

pub fn compile(text: &[u8]) -> Result<Table, Refusal> {
    if text.len() > 4096 {
        return Err((1, 4096));
    }
    let mut c = Compiler { text, at: 0, depth: 0, operations: vec![], names: vec![], follows: vec![] };
    c.expect(Token::Path)?;
    let whole = c.expression()?;
    c.expect(Token::End)?;
    if let Some((_, place, _)) = c.peek()? {
        return Err((4, place));
    }
    c.link(&whole.last, &whole.first);
    let mut t = ZEROS;
    t.positions = c.operations.len();
    t.names = c.names.len();
    t.start = set_of(&whole.first);
    for (p, o) in c.operations.iter().enumerate() {
        t.operations[p] = *o as u8;
        t.rows[p] = set_of(&c.follows[p]);
    }
    for (i, name) in c.names.iter().enumerate() {
        t.lengths[i] = name.len() as u8;
        t.bytes[16 * i..16 * i + name.len()].copy_from_slice(name);
    }
    t.mark = (t.positions == t.names) as u8;
    Ok(t)
}
