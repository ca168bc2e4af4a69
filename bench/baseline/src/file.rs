//! The call on a survey file: from its bytes to the bytes of its listing.
use crate::grade::{Grade, StageSet};
use crate::query::{Block, Query, Term, TermRow};
use crate::shape::{DepthShape, Mirrored, Shape};
use crate::survey::Survey;

pub const OUTPUT_ROOM: usize = 34_840;
const MOST_BYTES: usize = 65_536;
const MOST_STEPS: u32 = 10_000;

/// Marks, values and waiting places for one kind of grade.
pub struct Tables<G> {
    marks: Vec<G>,
    values: Vec<G>,
    waiting: Vec<u32>,
}

impl<G: Grade> Tables<G> {
    fn with_room(marks: usize, values: usize, waiting: usize) -> Tables<G> {
        Tables {
            marks: vec![G::LOWEST; marks],
            values: vec![G::LOWEST; values],
            waiting: vec![0; waiting],
        }
    }

    fn clear(&mut self) {
        self.marks.fill(G::LOWEST);
        self.values.fill(G::LOWEST);
        self.waiting.fill(0);
    }
}

pub struct FileTables {
    yes_no: Tables<bool>,
    stage_sets: Tables<StageSet>,
}

impl FileTables {
    pub fn with_room(marks: usize, values: usize, waiting: usize) -> FileTables {
        FileTables {
            yes_no: Tables::with_room(marks, values, waiting),
            stage_sets: Tables::with_room(marks, values, waiting),
        }
    }

    fn clear(&mut self) {
        self.yes_no.clear();
        self.stage_sets.clear();
    }
}

/// Why a file is refused: the number of the cause, and its line.
#[derive(Clone, Copy, Debug)]
pub struct Fault {
    pub number: u8,
    pub line: usize,
}

/// The lines that are left, and the number of the next one.
struct Lines<'a> {
    rest: &'a [u8],
    line: usize,
}

/// The number in these columns: at the right end, with blanks before it and no leading zero.
fn number_in(columns: &[u8]) -> Option<u64> {
    let blanks = columns.iter().position(|&b| b != b' ')?;
    let digits = &columns[blanks..];
    if digits.len() > 1 && digits[0] == b'0' {
        return None;
    }
    digits.iter().try_fold(0, |number, &b| match b {
        b'0'..=b'9' => Some(number * 10 + u64::from(b - b'0')),
        _ => None,
    })
}

impl<'a> Lines<'a> {
    fn refused(&self, number: u8) -> Fault {
        Fault {
            number,
            line: self.line,
        }
    }

    fn take(&mut self, size: usize) -> Option<&'a [u8]> {
        let (taken, rest) = self.rest.split_at_checked(size)?;
        self.rest = rest;
        Some(taken)
    }

    fn take_byte(&mut self, byte: u8) -> Option<()> {
        (self.take(1)?[0] == byte).then_some(())
    }

    fn take_numbers<const N: usize>(&mut self, letter: u8, widths: [usize; N]) -> Option<[u64; N]> {
        self.take_byte(letter)?;
        let mut numbers = [0; N];
        for (number, width) in numbers.iter_mut().zip(widths) {
            *number = number_in(self.take(width)?)?;
        }
        Some(numbers)
    }

    /// A whole line of a letter and numbers.
    fn take_line<const N: usize>(
        &mut self,
        letter: u8,
        widths: [usize; N],
    ) -> Result<[u64; N], Fault> {
        let numbers = self.take_numbers(letter, widths);
        let numbers = numbers.ok_or(self.refused(12))?;
        self.take_byte(b'\n').ok_or(self.refused(12))?;
        Ok(numbers)
    }
}

/// The first line.
#[derive(Clone, Copy)]
struct Head {
    nodes: usize,
    tags: usize,
    blocks: usize,
    terms: usize,
    stage_sets: bool,
    mirrored: bool,
}

fn take_head(lines: &mut Lines) -> Option<Head> {
    let [nodes, tags, blocks, terms] = lines.take_numbers(b'H', [5; 4])?;
    let stage_sets = match lines.take(1)? {
        b"Y" => false,
        b"G" => true,
        _ => return None,
    };
    let mirrored = match lines.take(1)? {
        b"R" => false,
        b"L" => true,
        _ => return None,
    };
    lines.take_byte(b'\n')?;
    Some(Head {
        nodes: nodes as usize,
        tags: tags as usize,
        blocks: blocks as usize,
        terms: terms as usize,
        stage_sets,
        mirrored,
    })
}

fn read_head(lines: &mut Lines, tables: &FileTables) -> Result<Head, Fault> {
    let head = take_head(lines).ok_or(lines.refused(12))?;
    if head.nodes == 0 || head.nodes > 2_048 {
        return Err(lines.refused(1));
    }
    if head.tags > 16 || head.terms == 0 || head.terms > 64 || head.blocks == 0 {
        return Err(lines.refused(3));
    }
    let (marks, values, waiting) = if head.stage_sets {
        let tables = &tables.stage_sets;
        (&tables.marks.len(), tables.values.len(), tables.waiting.len())
    } else {
        let tables = &tables.yes_no;
        (&tables.marks.len(), tables.values.len(), tables.waiting.len())
    };
    let entries = head.terms * head.nodes;
    if head.tags * head.nodes > *marks || entries > values || entries > waiting {
        return Err(lines.refused(7));
    }
    lines.line += 1;
    Ok(head)
}

fn read_depths(lines: &mut Lines, head: Head) -> Result<Vec<u16>, Fault> {
    let mut depths: Vec<u16> = Vec::with_capacity(head.nodes);
    for _ in 0..head.nodes {
        let [depth] = lines.take_line(b'N', [5])?;
        let fits = match depths.last() {
            None => depth == 0,
            Some(&before) => depth >= 1 && depth - 1 <= u64::from(before),
        };
        if !fits {
            return Err(lines.refused(2));
        }
        depths.push(depth as u16);
        lines.line += 1;
    }
    Ok(depths)
}

fn read_blocks(lines: &mut Lines, head: Head) -> Result<Vec<Block>, Fault> {
    let mut blocks = Vec::new();
    let mut first = 0;
    for i in 0..head.blocks {
        let [kind, terms] = lines.take_line(b'B', [5, 5])?;
        let end = first + terms as usize;
        if kind > 1 || terms == 0 || (i + 1 == head.blocks && end != head.terms) {
            return Err(lines.refused(3));
        }
        blocks.push(Block {
            greatest: kind == 1,
            first,
            end,
        });
        first = end;
        lines.line += 1;
    }
    Ok(blocks)
}

fn block_of(blocks: &[Block], term: usize) -> usize {
    let found = blocks.iter().position(|block| term < block.end);
    found.unwrap_or(blocks.len())
}

/// The cause to refuse a term.
fn term_fault(term: Term, i: usize, head: Head, blocks: &[Block]) -> Option<u8> {
    let block = block_of(blocks, i);
    if let Term::Mark(tag) = term {
        return (tag >= head.tags).then_some(4);
    }
    let (a, b) = term.operands()?;
    if a >= head.terms || b >= head.terms {
        return Some(4);
    }
    if block_of(blocks, a) > block || block_of(blocks, b) > block {
        return Some(5);
    }
    (matches!(term, Term::Turn(_)) && block_of(blocks, a) == block).then_some(6)
}

fn read_terms(lines: &mut Lines, head: Head, blocks: &[Block]) -> Result<Vec<Term>, Fault> {
    let mut terms = Vec::with_capacity(head.terms);
    for i in 0..head.terms {
        let [kind, a, b] = lines.take_line(b'T', [5; 3])?;
        let row = TermRow {
            kind: kind as u32,
            a: a as u32,
            b: b as u32,
        };
        let term = row.term().ok_or(lines.refused(4))?;
        if let Some(number) = term_fault(term, i, head, blocks) {
            return Err(lines.refused(number));
        }
        terms.push(term);
        lines.line += 1;
    }
    Ok(terms)
}

/// Sets the marks of the file, later ones over earlier ones.
fn read_marks<G: Grade>(lines: &mut Lines, head: Head, marks: &mut [G]) -> Result<(), Fault> {
    while let Some(b'M') = lines.rest.first() {
        let [node, tag, number] = lines.take_line(b'M', [5, 5, 10])?;
        let grade = u32::try_from(number).ok().and_then(G::from_number);
        let grade = grade.ok_or(lines.refused(12))?;
        if node as usize >= head.nodes || tag as usize >= head.tags {
            return Err(lines.refused(8));
        }
        marks[tag as usize * head.nodes + node as usize] = grade;
        lines.line += 1;
    }
    Ok(())
}

/// The term whose row is asked for, in the last line.
fn read_asked(lines: &mut Lines, head: Head) -> Result<usize, Fault> {
    let [asked] = lines.take_line(b'Q', [5])?;
    if asked as usize >= head.terms {
        return Err(lines.refused(8));
    }
    lines.line += 1;
    if !lines.rest.is_empty() {
        return Err(lines.refused(12));
    }
    lines.line -= 1;
    Ok(asked as usize)
}

/// Writes a number at the right end of its columns, with blanks before it.
fn put_number(columns: &mut [u8], mut number: u64) {
    columns.fill(b' ');
    for column in columns.iter_mut().rev() {
        *column = b'0' + (number % 10) as u8;
        number /= 10;
        if number == 0 {
            break;
        }
    }
}

/// Writes a line at the front of the output, and answers how many bytes it takes.
fn put_line(output: &mut [u8], letter: u8, columns: &[(usize, u64)]) -> usize {
    output[0] = letter;
    let mut at = 1;
    for &(width, number) in columns {
        put_number(&mut output[at..at + width], number);
        at += width;
    }
    output[at] = b'\n';
    at + 1
}

fn write_listing<G: Grade>(output: &mut [u8], steps: u32, row: &[G]) -> usize {
    let mut at = put_line(output, b'A', &[(5, row.len() as u64), (10, steps.into())]);
    let mut count = 0;
    for (node, grade) in row.iter().enumerate() {
        if *grade != G::LOWEST {
            let columns = [(5, node as u64), (10, grade.to_number().into())];
            at += put_line(&mut output[at..], b'S', &columns);
            count += 1;
        }
    }
    at + put_line(&mut output[at..], b'E', &[(5, count)])
}

/// Settles the query and lists the row of a term.
fn settle<G: Grade, S: Shape>(
    shape: &S,
    query: &Query,
    asked: usize,
    tables: &mut Tables<G>,
    output: &mut [u8],
) -> Option<usize> {
    let Tables {
        marks,
        values,
        waiting,
    } = tables;
    let mut survey = Survey::open(shape, query, marks, values, waiting)?;
    let (steps, all) = survey.run(MOST_STEPS);
    if !all {
        return None;
    }
    Some(write_listing(output, steps, survey.read(asked)?))
}

fn list_kind<G: Grade>(
    lines: &mut Lines,
    head: Head,
    shape: DepthShape,
    query: &Query,
    tables: &mut Tables<G>,
    output: &mut [u8],
) -> Result<usize, Fault> {
    read_marks(lines, head, &mut tables.marks)?;
    let asked = read_asked(lines, head)?;
    let size = if head.mirrored {
        settle(&Mirrored(shape), query, asked, tables, output)
    } else {
        settle(&shape, query, asked, tables, output)
    };
    size.ok_or(lines.refused(14))
}

fn list_row(file: &[u8], tables: &mut FileTables, output: &mut [u8]) -> Result<usize, Fault> {
    if file.len() > MOST_BYTES {
        return Err(Fault {
            number: 13,
            line: 0,
        });
    }
    let mut lines = Lines {
        rest: file,
        line: 1,
    };
    let head = read_head(&mut lines, tables)?;
    let shape = DepthShape::of_depths(&read_depths(&mut lines, head)?);
    let blocks = read_blocks(&mut lines, head)?;
    let terms = read_terms(&mut lines, head, &blocks)?;
    let query = Query::new(head.tags, blocks, &terms);
    if head.stage_sets {
        list_kind(
            &mut lines,
            head,
            shape,
            &query,
            &mut tables.stage_sets,
            output,
        )
    } else {
        list_kind(&mut lines, head, shape, &query, &mut tables.yes_no, output)
    }
}

/// Lists the row that a file asks for, and answers how many bytes of the output that takes; of a refused file the output tells number and line.
pub fn list_file(
    file: &[u8],
    tables: &mut FileTables,
    output: &mut [u8],
) -> Result<usize, Fault> {
    assert!(output.len() >= OUTPUT_ROOM);
    tables.clear();
    let listed = list_row(file, tables, output);
    if let Err(fault) = listed {
        tables.clear();
        put_line(
            output,
            b'F',
            &[(5, fault.number.into()), (5, fault.line as u64)],
        );
    }
    listed
}
