//! Surveys: the rows of a query, kept up to date while marks change.
use crate::grade::Grade;
use crate::query::{Query, Term};
use crate::shape::Shape;

/// The entries that wait: first those from `fresh` up to `size`, then those that are threaded through the waiting table, from `head` to `tail`.
#[derive(Clone, Copy)]
struct Queue {
    fresh: usize,
    size: usize,
    ends: Option<(usize, usize)>,
}

const IDLE: u32 = 0;
const LAST: u32 = 1;

impl Queue {
    fn is_empty(&self) -> bool {
        self.fresh == self.size && self.ends.is_none()
    }

    fn take(&mut self, waiting: &mut [u32]) -> Option<usize> {
        if self.fresh < self.size {
            self.fresh += 1;
            return Some(self.fresh - 1);
        }
        let (head, tail) = self.ends?;
        let place = std::mem::replace(&mut waiting[head], IDLE);
        self.ends = if place == LAST {
            None
        } else {
            Some((place as usize - 2, tail))
        };
        Some(head)
    }

    fn put(&mut self, waiting: &mut [u32], entry: usize) {
        if entry >= self.fresh || waiting[entry] != IDLE {
            return;
        }
        waiting[entry] = LAST;
        self.ends = match self.ends {
            None => Some((entry, entry)),
            Some((head, tail)) => {
                waiting[tail] = entry as u32 + 2;
                Some((head, entry))
            }
        };
    }
}

#[derive(Clone, Copy)]
struct Work {
    block: usize,
    queue: Queue,
}

pub struct Survey<'a, G, S> {
    shape: &'a S,
    query: &'a Query,
    nodes: usize,
    marks: &'a mut [G],
    values: &'a mut [G],
    waiting: &'a mut [u32],
    settled: [bool; 64],
    current: Option<Work>,
}

impl<'a, G: Grade, S: Shape> Survey<'a, G, S> {
    pub fn open(
        shape: &'a S,
        query: &'a Query,
        marks: &'a mut [G],
        values: &'a mut [G],
        waiting: &'a mut [u32],
    ) -> Option<Survey<'a, G, S>> {
        let nodes = shape.node_count();
        let entries = query.terms.len() * nodes;
        if marks.len() < query.tags * nodes || values.len() < entries || waiting.len() < entries {
            return None;
        }
        let mut survey = Survey {
            shape,
            query,
            nodes,
            marks,
            values,
            waiting,
            settled: [false; 64],
            current: None,
        };
        for block in 0..query.blocks.len() {
            survey.reset(block);
        }
        survey.waiting[..entries].fill(IDLE);
        Some(survey)
    }

    fn reset(&mut self, block: usize) {
        let block = self.query.blocks[block];
        let start = if block.greatest {
            G::HIGHEST
        } else {
            G::LOWEST
        };
        self.values[block.first * self.nodes..block.end * self.nodes].fill(start);
    }

    /// Sets a mark, and answers whether that altered it; none where there is no such node or tag.
    pub fn retag(&mut self, node: usize, tag: usize, grade: G) -> Option<bool> {
        if node >= self.nodes || tag >= self.query.tags {
            return None;
        }
        let mark = &mut self.marks[tag * self.nodes + node];
        if *mark == grade {
            return Some(false);
        }
        *mark = grade;
        for (block, reached) in self.query.reached[tag].iter().enumerate() {
            if *reached {
                self.settled[block] = false;
                self.reset(block);
            }
        }
        if let Some(work) = self.current {
            if self.query.reached[tag][work.block] {
                self.waiting[..work.queue.size].fill(IDLE);
                self.current = None;
            }
        }
        Some(true)
    }

    fn first_stale(&self) -> Option<usize> {
        let blocks = self.query.blocks.len();
        self.settled[..blocks].iter().position(|settled| !settled)
    }

    fn next_work(&self) -> Option<Work> {
        if self.current.is_some() {
            return self.current;
        }
        let block = self.first_stale()?;
        let terms = self.query.blocks[block].end - self.query.blocks[block].first;
        let queue = Queue {
            fresh: 0,
            size: terms * self.nodes,
            ends: None,
        };
        Some(Work { block, queue })
    }

    fn grade_of(&self, term: Term, node: usize) -> G {
        let value = |term: usize, node: usize| self.values[term * self.nodes + node];
        match term {
            Term::Mark(tag) => self.marks[tag * self.nodes + node],
            Term::Turn(a) => value(a, node).turn(),
            Term::Meet(a, b) => value(a, node).meet(value(b, node)),
            Term::Join(a, b) => value(a, node).join(value(b, node)),
            Term::SomeNeighbour(axis, a) => match self.shape.neighbour(axis, node) {
                Some(node) => value(a, node),
                None => G::LOWEST,
            },
            Term::EveryNeighbour(axis, a) => match self.shape.neighbour(axis, node) {
                Some(node) => value(a, node),
                None => G::HIGHEST,
            },
            Term::Lowest => G::LOWEST,
            Term::Highest => G::HIGHEST,
        }
    }

    /// Puts the entries that read this one at the back of the queue.
    fn wake(&mut self, first: usize, term: usize, node: usize, queue: &mut Queue) {
        for &reader in &self.query.terms[term].readers {
            let at = match self.query.terms[reader].term {
                Term::SomeNeighbour(axis, _) | Term::EveryNeighbour(axis, _) => {
                    self.shape.neighbour(axis.reversed(), node)
                }
                _ => Some(node),
            };
            if let Some(at) = at {
                queue.put(self.waiting, (reader - first) * self.nodes + at);
            }
        }
    }

    /// Works off an entry of the block with this first term.
    fn work_off(&mut self, first: usize, entry: usize, queue: &mut Queue) {
        let (term, node) = (first + entry / self.nodes, entry % self.nodes);
        let grade = self.grade_of(self.query.terms[term].term, node);
        let value = &mut self.values[first * self.nodes + entry];
        if *value != grade {
            *value = grade;
            self.wake(first, term, node, queue);
        }
    }

    /// Makes steps until so many are made or all is settled; answers how many, and whether all is settled.
    pub fn run(&mut self, most: u32) -> (u32, bool) {
        let mut made = 0;
        while made < most {
            let Some(Work { block, mut queue }) = self.next_work() else {
                return (made, true);
            };
            let first = self.query.blocks[block].first;
            while made < most {
                let Some(entry) = queue.take(self.waiting) else {
                    break;
                };
                self.work_off(first, entry, &mut queue);
                made += 1;
            }
            let done = queue.is_empty();
            self.settled[block] = done;
            self.current = (!done).then_some(Work { block, queue });
        }
        (made, self.first_stale().is_none())
    }

    /// The row of a term, if its block is settled.
    pub fn read(&self, term: usize) -> Option<&[G]> {
        let block = self.query.terms.get(term)?.block;
        if !self.settled[block] {
            return None;
        }
        Some(&self.values[term * self.nodes..(term + 1) * self.nodes])
    }
}
