//! What is permitted after a history, by partial derivatives of the repeated expression.
//!
//! The derivatives of an expression by a name are expressions for what may follow that name. A history is a
//! beginning of a word exactly if its derivatives are not none, since no expression has an empty language.

use crate::faults::Fault;
use crate::paths::{Expression, Name};
use std::collections::{BTreeSet, HashMap};

/// The number of an expression; equal expressions have equal numbers.
#[derive(Clone, Copy, Debug, PartialEq, Eq, PartialOrd, Ord, Hash)]
struct Id(usize);

#[derive(Clone, Debug, PartialEq, Eq, Hash)]
enum Part {
    Empty,
    Name(Name),
    Choice(Id, Id),
    Then(Id, Id),
    Star(Id),
}

/// The number of a set of derivatives, reached by some history.
#[derive(Clone, Copy, Debug, PartialEq, Eq, Hash)]
pub struct State(usize);

pub struct Meaning {
    parts: Vec<Part>,
    /// Of each part: whether the empty word belongs to it.
    empty: Vec<bool>,
    ids: HashMap<Part, Id>,
    sets: Vec<BTreeSet<Id>>,
    states: HashMap<BTreeSet<Id>, State>,
    steps: HashMap<(State, Name), Option<State>>,
    fault: Option<Fault>,
}

impl Meaning {
    /// The meaning of `path expression end`, and the state of the empty history.
    pub fn new(expression: &Expression, fault: Option<Fault>) -> (Meaning, State) {
        let mut meaning = Meaning {
            parts: vec![],
            empty: vec![],
            ids: HashMap::new(),
            sets: vec![],
            states: HashMap::new(),
            steps: HashMap::new(),
            fault,
        };
        let once = meaning.enter(expression);
        let repeated = if fault == Some(Fault::NoWayBack) {
            once
        } else {
            meaning.star(once)
        };
        let start = meaning.state(BTreeSet::from([repeated]));
        (meaning, start)
    }

    /// The state after one operation more, or nothing if that history is not permitted.
    pub fn after(&mut self, state: State, name: &Name) -> Option<State> {
        let step = (state, name.clone());
        if let Some(&known) = self.steps.get(&step) {
            return known;
        }
        let set: Vec<Id> = self.sets[state.0].iter().copied().collect();
        let mut rests: Vec<Id> = set.into_iter().flat_map(|id| self.derivatives(id, name)).collect();
        if self.fault == Some(Fault::KeepsOneMatch) {
            rests.truncate(1);
        }
        let next = if rests.is_empty() {
            None
        } else {
            Some(self.state(rests.into_iter().collect()))
        };
        self.steps.insert(step, next);
        next
    }

    /// The partial derivatives by the name, from the left.
    fn derivatives(&mut self, id: Id, name: &Name) -> Vec<Id> {
        match self.parts[id.0].clone() {
            Part::Empty => vec![],
            Part::Name(own) if own == *name => vec![self.add(Part::Empty)],
            Part::Name(_) => vec![],
            Part::Choice(left, right) => {
                let mut rests = self.derivatives(left, name);
                rests.extend(self.derivatives(right, name));
                rests
            }
            Part::Then(left, right) => {
                let mut rests = self.followed(left, right, name);
                if self.empty[left.0] {
                    rests.extend(self.derivatives(right, name));
                }
                rests
            }
            Part::Star(part) => self.followed(part, id, name),
        }
    }

    /// The derivatives of the left expression, each followed by the right one.
    fn followed(&mut self, left: Id, right: Id, name: &Name) -> Vec<Id> {
        let rests = self.derivatives(left, name);
        rests.into_iter().map(|rest| self.then(rest, right)).collect()
    }

    fn enter(&mut self, expression: &Expression) -> Id {
        match expression {
            Expression::Name(name) => self.add(Part::Name(name.clone())),
            Expression::Sequence(parts) => self.join(parts, Meaning::then),
            Expression::Choice(parts) => {
                self.join(parts, |meaning, left, right| meaning.add(Part::Choice(left, right)))
            }
            Expression::Star(part) => {
                let part = self.enter(part);
                self.starred(part)
            }
        }
    }

    /// Zero or more times, unless a fault reads it as one or more, or as zero or one.
    fn starred(&mut self, part: Id) -> Id {
        let star = self.star(part);
        match self.fault {
            Some(Fault::StarNotSkipped) => self.then(part, star),
            Some(Fault::StarOnlyOnce) => {
                let empty = self.add(Part::Empty);
                self.add(Part::Choice(part, empty))
            }
            _ => star,
        }
    }

    fn join(&mut self, parts: &[Expression], two: fn(&mut Meaning, Id, Id) -> Id) -> Id {
        let ids: Vec<Id> = parts.iter().map(|part| self.enter(part)).collect();
        ids.into_iter()
            .rev()
            .reduce(|right, left| two(self, left, right))
            .expect("one or more parts")
    }

    fn then(&mut self, left: Id, right: Id) -> Id {
        match self.parts[left.0] {
            Part::Empty => right,
            _ => self.add(Part::Then(left, right)),
        }
    }

    fn star(&mut self, part: Id) -> Id {
        match self.parts[part.0] {
            Part::Star(_) => part,
            _ => self.add(Part::Star(part)),
        }
    }

    fn add(&mut self, part: Part) -> Id {
        if let Some(&id) = self.ids.get(&part) {
            return id;
        }
        let id = Id(self.parts.len());
        self.empty.push(match &part {
            Part::Empty | Part::Star(_) => true,
            Part::Name(_) => false,
            Part::Choice(left, right) => self.empty[left.0] || self.empty[right.0],
            Part::Then(left, right) => self.empty[left.0] && self.empty[right.0],
        });
        self.parts.push(part.clone());
        self.ids.insert(part, id);
        id
    }

    fn state(&mut self, set: BTreeSet<Id>) -> State {
        if let Some(&state) = self.states.get(&set) {
            return state;
        }
        let state = State(self.sets.len());
        self.sets.push(set.clone());
        self.states.insert(set, state);
        state
    }
}
