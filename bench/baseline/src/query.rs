//! Queries that keep every rule, with what a survey asks them worked out.
use crate::shape::Axis;

#[derive(Clone, Copy, PartialEq, Eq)]
pub enum Term {
    Mark(usize),
    Turn(usize),
    Meet(usize, usize),
    Join(usize, usize),
    SomeNeighbour(Axis, usize),
    EveryNeighbour(Axis, usize),
    Lowest,
    Highest,
}

#[derive(Clone, Copy)]
pub struct TermRow {
    pub kind: u32,
    pub a: u32,
    pub b: u32,
}

impl TermRow {
    pub fn term(self) -> Option<Term> {
        let axes = [Axis::First, Axis::Next, Axis::Owner, Axis::Previous];
        match (self.kind, self.a as usize, self.b as usize) {
            (0, tag, 0) => Some(Term::Mark(tag)),
            (1, a, 0) => Some(Term::Turn(a)),
            (2, a, b) => Some(Term::Meet(a, b)),
            (3, a, b) => Some(Term::Join(a, b)),
            (kind @ 4..=7, a, 0) => Some(Term::SomeNeighbour(axes[kind as usize - 4], a)),
            (kind @ 8..=11, a, 0) => Some(Term::EveryNeighbour(axes[kind as usize - 8], a)),
            (12, 0, 0) => Some(Term::Lowest),
            (13, 0, 0) => Some(Term::Highest),
            _ => None,
        }
    }
}

impl Term {
    pub fn operands(self) -> Option<(usize, usize)> {
        match self {
            Term::Mark(_) | Term::Lowest | Term::Highest => None,
            Term::Meet(a, b) | Term::Join(a, b) => Some((a, b)),
            Term::Turn(a) | Term::SomeNeighbour(_, a) | Term::EveryNeighbour(_, a) => Some((a, a)),
        }
    }
}

/// A block, and its terms: from the first up to the end.
#[derive(Clone, Copy)]
pub struct Block {
    pub greatest: bool,
    pub first: usize,
    pub end: usize,
}

/// A term, and the terms of its block that read it.
pub struct Defined {
    pub term: Term,
    pub block: usize,
    pub readers: Vec<usize>,
}

pub struct Query {
    pub tags: usize,
    pub blocks: Vec<Block>,
    pub terms: Vec<Defined>,
    /// For each tag, whether it reaches each block.
    pub reached: Vec<Vec<bool>>,
}

impl Query {
    /// The query of these blocks and terms, which keep every rule.
    pub fn new(tags: usize, blocks: Vec<Block>, terms: &[Term]) -> Query {
        let mut defined: Vec<Defined> = Vec::with_capacity(terms.len());
        for (block, &Block { first, end, .. }) in blocks.iter().enumerate() {
            for i in first..end {
                let readers = (first..end).filter(|&j| match terms[j].operands() {
                    Some((a, b)) => a == i || b == i,
                    None => false,
                });
                defined.push(Defined {
                    term: terms[i],
                    block,
                    readers: readers.collect(),
                });
            }
        }
        let reached = (0..tags)
            .map(|tag| {
                let mut reached = vec![false; blocks.len()];
                for Defined { term, block, .. } in &defined {
                    reached[*block] |= match term.operands() {
                        Some((a, b)) => reached[defined[a].block] || reached[defined[b].block],
                        None => *term == Term::Mark(tag),
                    };
                }
                reached
            })
            .collect();
        Query {
            tags,
            blocks,
            terms: defined,
            reached,
        }
    }
}
