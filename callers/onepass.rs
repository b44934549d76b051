// The compiler once more, for the comparison of times: each token is read once, and sets of positions are bits.
use crate::paths::{token, Refusal, Token};
use crate::table::{Table, ZEROS};

// A part of a path: whether it can be empty, and the positions it starts and ends with.
struct Part {
    empty: bool,
    first: u64,
    last: u64,
}

// `token` stands at `place`, and what is behind it starts at `behind`; none, and the text's length, at the end.
struct Compiler<'a> {
    text: &'a [u8],
    token: Option<Token<'a>>,
    place: usize,
    behind: usize,
    depth: usize,
    table: Table,
}

impl<'a> Compiler<'a> {
    // The token before is accepted, so that a refusal of the next one is the first.
    fn advance(&mut self) -> Result<(), Refusal> {
        match token(self.text, self.behind)? {
            Some((token, place, behind)) => {
                self.token = Some(token);
                self.place = place;
                self.behind = behind;
            }
            None => {
                self.token = None;
                self.place = self.text.len();
            }
        }
        Ok(())
    }

    fn at(&self, sign: u8) -> bool {
        self.token == Some(Token::Sign(sign))
    }

    // The next token must be this one.
    fn expect(&mut self, wanted: Token<'_>) -> Result<(), Refusal> {
        if self.token != Some(wanted) {
            return Err((4, self.place));
        }
        self.advance()
    }

    fn link(&mut self, last: u64, first: u64) {
        let mut rest = last;
        while rest != 0 {
            self.table.rows[rest.trailing_zeros() as usize] |= first;
            rest &= rest - 1;
        }
    }

    fn expression(&mut self) -> Result<Part, Refusal> {
        let mut whole = self.sequence()?;
        while self.at(b'+') {
            self.advance()?;
            let more = self.sequence()?;
            whole.empty |= more.empty;
            whole.first |= more.first;
            whole.last |= more.last;
        }
        Ok(whole)
    }

    fn sequence(&mut self) -> Result<Part, Refusal> {
        let mut whole = self.factor()?;
        loop {
            match self.token {
                Some(Token::Sign(b';')) => self.advance()?,
                Some(Token::Sign(b'(')) | Some(Token::Name(_)) => {}
                _ => return Ok(whole),
            }
            let more = self.factor()?;
            self.link(whole.last, more.first);
            if whole.empty {
                whole.first |= more.first;
            }
            whole.last = if more.empty { whole.last | more.last } else { more.last };
            whole.empty &= more.empty;
        }
    }

    fn factor(&mut self) -> Result<Part, Refusal> {
        let mut part = match self.token {
            Some(Token::Sign(b'(')) => self.inner()?,
            Some(Token::Name(name)) => self.name(name)?,
            _ => return Err((4, self.place)),
        };
        if self.at(b'*') {
            part.empty = true;
            self.link(part.last, part.first);
        }
        while self.at(b'*') {
            self.advance()?;
        }
        Ok(part)
    }

    fn inner(&mut self) -> Result<Part, Refusal> {
        if self.depth == 16 {
            return Err((5, self.place));
        }
        self.depth += 1;
        self.advance()?;
        let part = self.expression()?;
        self.depth -= 1;
        self.expect(Token::Sign(b')'))?;
        Ok(part)
    }

    fn name(&mut self, name: &[u8]) -> Result<Part, Refusal> {
        let p = self.table.positions;
        if p == 64 {
            return Err((6, self.place));
        }
        let known = self.table.find(name);
        let o = match known {
            Some(o) => o as usize,
            None => self.table.names,
        };
        if o == 32 {
            return Err((7, self.place));
        }
        if known.is_none() {
            self.table.lengths[o] = name.len() as u8;
            self.table.bytes[16 * o..16 * o + name.len()].copy_from_slice(name);
            self.table.names += 1;
        }
        self.table.operations[p] = o as u8;
        self.table.positions += 1;
        self.advance()?;
        Ok(Part { empty: false, first: 1 << p, last: 1 << p })
    }
}

pub fn compile(text: &[u8]) -> Result<Table, Refusal> {
    if text.len() > 4096 {
        return Err((1, 4096));
    }
    let mut c = Compiler { text, token: None, place: 0, behind: 0, depth: 0, table: ZEROS };
    c.advance()?;
    c.expect(Token::Path)?;
    let whole = c.expression()?;
    c.expect(Token::End)?;
    if c.token.is_some() {
        return Err((4, c.place));
    }
    c.link(whole.last, whole.first);
    c.table.start = whole.first;
    c.table.mark = (c.table.positions == c.table.names) as u8;
    Ok(c.table)
}
