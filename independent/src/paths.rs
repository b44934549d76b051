//! Reading path text: tokens from the left, the grammar as four stages, refusals 1 to 7 with their places.

use crate::faults::{limits, Fault};
use crate::limits::Limits;
use std::rc::Rc;

/// An operation's name, as the path text has it.
pub type Name = Rc<str>;

#[derive(Clone, Debug, PartialEq, Eq)]
pub enum Expression {
    Name(Name),
    Sequence(Vec<Expression>),
    Choice(Vec<Expression>),
    Star(Box<Expression>),
}

#[derive(Clone, Debug, PartialEq, Eq)]
pub struct Path {
    pub expression: Expression,
    pub positions: usize,
    /// The distinct names in order of first appearance.
    pub names: Vec<Name>,
}

#[derive(Clone, Copy, Debug, PartialEq, Eq)]
pub struct Refused {
    pub number: u8,
    pub place: usize,
}

#[derive(Clone, Copy)]
enum Token<'a> {
    Path,
    End,
    Name(&'a str),
    Then,
    Or,
    Star,
    Open,
    Close,
}

/// What the grammar waits for.
#[derive(Clone, Copy, PartialEq)]
enum Stage {
    Start,
    Factor,
    AfterFactor,
    Done,
}

/// The sequences of one expression, each a list of factors; the last one is still being read.
type Group = Vec<Vec<Expression>>;

struct Reader<'a> {
    text: &'a [u8],
    /// The first byte that is not yet read.
    place: usize,
    stage: Stage,
    /// The whole expression, then one group for each open parenthesis.
    groups: Vec<Group>,
    positions: usize,
    names: Vec<Name>,
    limits: Limits,
    fault: Option<Fault>,
}

pub fn read(text: &[u8], fault: Option<Fault>) -> Result<Path, Refused> {
    let limits = limits(fault);
    if text.len() > limits.text {
        return Err(Refused {
            number: 1,
            place: limits.text,
        });
    }
    let mut reader = Reader {
        text,
        place: 0,
        stage: Stage::Start,
        groups: vec![vec![vec![]]],
        positions: 0,
        names: vec![],
        limits,
        fault,
    };
    while let Some((place, token)) = reader.token()? {
        reader.take(token).map_err(|number| Refused { number, place })?;
    }
    reader.finish()
}

fn is_blank(byte: u8, fault: Option<Fault>) -> bool {
    match byte {
        b' ' | b'\t' | b'\n' => true,
        b'\r' => fault != Some(Fault::CrIsNoBlank),
        _ => false,
    }
}

impl<'a> Reader<'a> {
    /// The next token with its place, or nothing at the end of the text.
    fn token(&mut self) -> Result<Option<(usize, Token<'a>)>, Refused> {
        let from = self.place;
        let blanks = self.run(from, |byte| is_blank(byte, self.fault));
        let place = from + blanks;
        let Some(&byte) = self.text.get(place) else {
            return Ok(None);
        };
        if self.fault == Some(Fault::FourAfterEnd) && self.stage == Stage::Done {
            return Err(Refused { number: 4, place });
        }
        let (token, length) = match byte {
            b';' => (Token::Then, 1),
            b'+' => (Token::Or, 1),
            b'*' => (Token::Star, 1),
            b'(' => (Token::Open, 1),
            b')' => (Token::Close, 1),
            b'0'..=b'9' if self.fault == Some(Fault::DigitStartsName) => self.word(place)?,
            b'A'..=b'Z' | b'a'..=b'z' => self.word(place)?,
            _ => return Err(Refused { number: 2, place }),
        };
        self.place = place + length;
        Ok(Some((place, token)))
    }

    /// The longest run of letters and digits: a keyword or a name.
    fn word(&self, place: usize) -> Result<(Token<'a>, usize), Refused> {
        let length = self.run(place, |byte| byte.is_ascii_alphanumeric());
        if length > self.limits.name {
            return Err(Refused { number: 3, place });
        }
        let word = std::str::from_utf8(&self.text[place..place + length]).expect("letters and digits");
        let any_case = self.fault == Some(Fault::KeywordsInAnyCase);
        let is = |keyword: &str| word == keyword || any_case && word.eq_ignore_ascii_case(keyword);
        let token = if is("path") {
            Token::Path
        } else if is("end") {
            Token::End
        } else {
            Token::Name(word)
        };
        Ok((token, length))
    }

    /// How many bytes from `place` on belong to the class.
    fn run(&self, place: usize, class: impl Fn(u8) -> bool) -> usize {
        self.text[place..].iter().take_while(|&&byte| class(byte)).count()
    }

    /// Refusal 4 comes before 5, 6 and 7, since for one token the lower number wins.
    fn take(&mut self, token: Token) -> Result<(), u8> {
        match (self.fault, self.check_limits(token)) {
            (Some(Fault::SixBeforeFour), Err(6)) => return Err(6),
            (Some(Fault::SevenBeforeFour), Err(7)) => return Err(7),
            _ => {}
        }
        let stage = self.stage_after(token).ok_or(4)?;
        self.check_limits(token)?;
        self.build(token);
        self.stage = stage;
        Ok(())
    }

    /// Nothing, if no text of the grammar starts with the tokens so far and this one.
    fn stage_after(&self, token: Token) -> Option<Stage> {
        let inside = self.groups.len() > 1;
        match (self.stage, token) {
            (Stage::Start, Token::Path) => Some(Stage::Factor),
            (Stage::Factor | Stage::AfterFactor, Token::Open) => Some(Stage::Factor),
            (Stage::Factor | Stage::AfterFactor, Token::Name(_)) => Some(Stage::AfterFactor),
            (Stage::AfterFactor, Token::Then | Token::Or) => Some(Stage::Factor),
            (Stage::AfterFactor, Token::Star) => Some(Stage::AfterFactor),
            (Stage::AfterFactor, Token::Close) if inside => Some(Stage::AfterFactor),
            (Stage::AfterFactor, Token::End) if !inside => Some(Stage::Done),
            _ => None,
        }
    }

    fn check_limits(&self, token: Token) -> Result<(), u8> {
        match token {
            Token::Open if self.groups.len() > self.limits.open => Err(5),
            Token::Name(name) => self.check_name(name),
            _ => Ok(()),
        }
    }

    fn check_name(&self, name: &str) -> Result<(), u8> {
        let six = self.positions >= self.limits.positions;
        let seven = self.names.len() >= self.limits.names && !self.is_known(name);
        match (six, seven) {
            (true, true) if self.fault == Some(Fault::SevenBeforeSix) => Err(7),
            (true, _) => Err(6),
            (false, true) => Err(7),
            (false, false) => Ok(()),
        }
    }

    fn is_known(&self, name: &str) -> bool {
        self.names.iter().any(|known| **known == *name)
    }

    /// Adds a token that the grammar and the limits let in.
    fn build(&mut self, token: Token) {
        match token {
            Token::Path | Token::End | Token::Then => {}
            Token::Name(name) => self.name(name),
            Token::Or => self.groups.last_mut().expect("a group").push(vec![]),
            Token::Open => self.groups.push(vec![vec![]]),
            Token::Close => {
                let group = self.groups.pop().expect("an open parenthesis");
                self.factors().push(choice(group));
            }
            Token::Star => self.star(),
        }
    }

    fn name(&mut self, name: &str) {
        let name = Name::from(name);
        if !self.is_known(&name) {
            self.names.push(name.clone());
        }
        self.positions += 1;
        // No call can ask for the name that stands in for a lost one.
        let lost = self.fault == Some(Fault::Position64Lost) && self.positions == 64;
        self.factors()
            .push(Expression::Name(if lost { Name::from("") } else { name }));
    }

    fn star(&mut self) {
        let loose = self.fault == Some(Fault::StarTakesSequence);
        let factors = self.factors();
        let starred = if loose {
            sequence(std::mem::take(factors))
        } else {
            factors.pop().expect("a factor")
        };
        factors.push(star(starred));
    }

    fn factors(&mut self) -> &mut Vec<Expression> {
        self.groups
            .last_mut()
            .and_then(|group| group.last_mut())
            .expect("a sequence")
    }

    fn finish(mut self) -> Result<Path, Refused> {
        if self.stage != Stage::Done {
            let place = if self.fault == Some(Fault::FourAtLastToken) {
                self.place
            } else {
                self.text.len()
            };
            return Err(Refused { number: 4, place });
        }
        let expression = choice(self.groups.pop().expect("the whole expression"));
        Ok(Path {
            expression,
            positions: self.positions,
            names: self.names,
        })
    }
}

fn choice(group: Group) -> Expression {
    only_or(group.into_iter().map(sequence).collect(), Expression::Choice)
}

fn sequence(factors: Vec<Expression>) -> Expression {
    only_or(factors, Expression::Sequence)
}

/// A list of one part is that part.
fn only_or(mut parts: Vec<Expression>, join: fn(Vec<Expression>) -> Expression) -> Expression {
    match parts.len() {
        1 => parts.remove(0),
        _ => join(parts),
    }
}

/// The star of a star has the same words, so thousands of stars in a row stay one.
fn star(part: Expression) -> Expression {
    match part {
        Expression::Star(_) => part,
        _ => Expression::Star(Box::new(part)),
    }
}
