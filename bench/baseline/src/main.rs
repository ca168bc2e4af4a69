//! The work of `crates/bench`, written by hand in plain Rust, with the same arguments and the same output.
mod file;
mod grade;
mod query;
mod shape;
mod survey;

use file::{FileTables, OUTPUT_ROOM, list_file};
use grade::{Grade, StageSet};
use query::{Block, Query, TermRow};
use shape::DepthShape;
use std::fmt::Write;
use survey::Survey;

struct Checksum(u64);

impl Checksum {
    fn new() -> Checksum {
        Checksum(0xcbf2_9ce4_8422_2325)
    }

    fn add(&mut self, number: u64) {
        self.0 = (self.0 ^ number).wrapping_mul(0x100_0000_01b3);
    }
}

struct Size {
    nodes: usize,
    copies: usize,
    rounds: u32,
}

/// The terms of one copy of the query: the mark, the last term at the next and at the previous sibling, their join, and its join with the mark.
fn copied(first: u32) -> [TermRow; 5] {
    let row = |kind, a, b| TermRow { kind, a, b };
    [
        row(0, 0, 0),
        row(5, first + 4, 0),
        row(7, first + 4, 0),
        row(3, first + 1, first + 2),
        row(3, first, first + 3),
    ]
}

fn two_way(copies: usize) -> Query {
    let mut terms = Vec::new();
    for copy in 0..copies {
        for row in copied(5 * copy as u32) {
            terms.push(row.term().expect("a term"));
        }
    }
    let block = Block {
        greatest: false,
        first: 0,
        end: terms.len(),
    };
    Query::new(1, vec![block], &terms)
}

fn family(nodes: usize) -> DepthShape {
    let mut depths = vec![1; nodes];
    depths[0] = 0;
    DepthShape::of_depths(&depths)
}

fn settle_rounds<G: Grade>(size: Size, mut marks: Vec<G>, turns: [G; 2]) -> String {
    let shape = family(size.nodes);
    let query = two_way(size.copies);
    let last = query.terms.len() - 1;
    let entries = size.nodes * query.terms.len();
    let mut values = vec![G::LOWEST; entries];
    let mut waiting = vec![0; entries];
    let survey = Survey::open(&shape, &query, &mut marks, &mut values, &mut waiting);
    let mut survey = survey.expect("room");
    let mut steps = u64::from(survey.run(u32::MAX).0);
    let mut altered = 0;
    let mut sum = Checksum::new();
    for round in 0..size.rounds {
        let grade = turns[round as usize % 2];
        altered += u64::from(survey.retag(size.nodes / 2, 0, grade).expect("a mark"));
        let made = survey.run(u32::MAX).0;
        steps += u64::from(made);
        sum.add(u64::from(made));
    }
    for grade in survey.read(last).expect("a row") {
        sum.add(u64::from(grade.to_number()));
    }
    format!("steps {steps} altered {altered} sum {}", sum.0)
}

fn settle_two_way(size: Size) -> String {
    let mut marks = vec![false; size.nodes];
    marks[size.nodes / 2] = true;
    settle_rounds(size, marks, [false, true])
}

fn settle_stages(size: Size) -> String {
    let marks = (0..size.nodes).map(|node| StageSet(1 << (node % 32)));
    let turns = [StageSet::LOWEST, StageSet::HIGHEST];
    settle_rounds(size, marks.collect(), turns)
}

/// A survey file of 65,536 bytes, most of it marks.
fn text() -> Result<String, std::fmt::Error> {
    let (nodes, tags, marks) = (258u64, 8, 2_891);
    let mut text = String::new();
    writeln!(text, "H{nodes:>5}{tags:>5}{:>5}{:>5}GR", 1, 5)?;
    for node in 0..nodes {
        writeln!(text, "N{:>5}", u64::from(node > 0))?;
    }
    writeln!(text, "B{:>5}{:>5}", 0, 5)?;
    for row in copied(0) {
        writeln!(text, "T{:>5}{:>5}{:>5}", row.kind, row.a, row.b)?;
    }
    for i in 0..marks {
        let (node, tag) = (i % nodes, i / nodes % tags);
        let grade = 1_000_000_000 + (i * 1_048_583) % 3_000_000_000;
        writeln!(text, "M{node:>5}{tag:>5}{grade:>10}")?;
    }
    writeln!(text, "Q{:>5}", 4)?;
    Ok(text)
}

fn list_rounds(rounds: u32) -> String {
    let text = text().expect("a string takes it");
    let mut tables = FileTables::with_room(4_096, 16_384, 16_384);
    let mut output = vec![0; OUTPUT_ROOM];
    let mut listings = 0;
    for _ in 0..rounds {
        listings += list_file(text.as_bytes(), &mut tables, &mut output).expect("a listing");
    }
    let mut sum = Checksum::new();
    for &byte in &output {
        sum.add(u64::from(byte));
    }
    format!("bytes {} listed {listings} sum {}", text.len(), sum.0)
}

fn main() {
    let words: Vec<String> = std::env::args().skip(1).collect();
    let words: Vec<&str> = words.iter().map(String::as_str).collect();
    let number = |word: &str| word.parse::<u32>().expect("a number");
    let size = |nodes, copies, rounds| Size {
        nodes: number(nodes) as usize,
        copies: number(copies) as usize,
        rounds: number(rounds),
    };
    match words[..] {
        [] => {
            println!("two_way {}", settle_two_way(size("20", "2", "4")));
            println!("stages {}", settle_stages(size("20", "2", "4")));
            println!("file {}", list_rounds(2));
        }
        ["two_way", nodes, copies, rounds] => {
            println!("two_way {}", settle_two_way(size(nodes, copies, rounds)));
        }
        ["stages", nodes, copies, rounds] => {
            println!("stages {}", settle_stages(size(nodes, copies, rounds)));
        }
        ["file", rounds] => println!("file {}", list_rounds(number(rounds))),
        _ => eprintln!("usage: baseline [two_way|stages NODES COPIES ROUNDS | file ROUNDS]"),
    }
}
