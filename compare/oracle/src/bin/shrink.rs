//! `shrink NUMBER COMMAND.. < CASES > CASE`: a smallest case on which the command's answer still
//! differs from the oracle's, found by leaving out parts of one case that does.
//!
//! All the cases with a part of one width left out go to the command as one case file, and the
//! first that differs is gone on with; so a few dozen runs of the command come to an end.

use oracle::{answer, cases::Case, cases::Query};
use std::io::{self, BufReader, Write};
use std::process::{Command, Stdio};
use std::time::{Duration, Instant};

/// Shrinking goes on for so long at most.
const PATIENCE: Duration = Duration::from_secs(20);

fn main() -> io::Result<()> {
    let words: Vec<String> = std::env::args().skip(1).collect();
    let usage = || io::Error::other("shrink NUMBER COMMAND.. < CASES > CASE");
    let (number, command) = words.split_first().ok_or_else(usage)?;
    let mut from = BufReader::new(io::stdin().lock());
    for _ in 0..number.parse().map_err(|_| usage())? {
        Case::read(&mut from)?;
    }
    let case = Case::read(&mut from)?.ok_or_else(usage)?;
    shrink(case, command)?.write(&mut io::stdout().lock())
}

/// What is left out next.
enum Part {
    /// A query
    Query,
    /// So many bytes of the descriptor
    Bytes(usize),
    /// The half of a query's number
    Number,
}

/// Leave out parts as long as that helps and time is left: queries, then bytes, many at first, then
/// halves of numbers, and round again.
fn shrink(mut case: Case, command: &[String]) -> io::Result<Case> {
    let start = Instant::now();
    let (mut part, mut shrunk) = (Part::Query, false);
    while start.elapsed() < PATIENCE {
        let some = match part {
            Part::Query => fewer_queries(&case),
            Part::Bytes(width) => shorter(&case, width),
            Part::Number => lower_queries(&case),
        };
        if let Some(index) = first_difference(&some, command)? {
            (case, shrunk) = (some[index].clone(), true);
            continue;
        }
        part = match part {
            Part::Query => Part::Bytes(case.descriptor.len().max(1)),
            Part::Bytes(1) => Part::Number,
            Part::Bytes(width) => Part::Bytes(width / 2),
            Part::Number if shrunk => Part::Query,
            Part::Number => break,
        };
        shrunk = shrunk && !matches!(part, Part::Query);
    }
    Ok(case)
}

/// The case with each part of so many bytes left out of the descriptor.
fn shorter(case: &Case, width: usize) -> Vec<Case> {
    let length = case.descriptor.len();
    let without = |at: usize| {
        let mut less = case.clone();
        less.descriptor.drain(at..(at + width).min(length));
        less
    };
    (0..length).step_by(width).map(without).collect()
}

/// The case with each query left out.
fn fewer_queries(case: &Case) -> Vec<Case> {
    let without = |index| {
        let mut less = case.clone();
        less.queries.remove(index);
        less
    };
    (0..case.queries.len()).map(without).collect()
}

/// The case with a smaller offset, length or number of places in a query: 0 or the half.
fn lower_queries(case: &Case) -> Vec<Case> {
    let mut some = Vec::new();
    for (index, query) in case.queries.iter().enumerate() {
        for lower in lower(*query).into_iter().filter(|lower| lower != query) {
            let mut less = case.clone();
            less.queries[index] = lower;
            some.push(less);
        }
    }
    some
}

/// The query with one number 0 or halved.
fn lower(query: Query) -> Vec<Query> {
    let less = |number: u64| [0, number / 2];
    match query {
        Query::Map { offset, length } => {
            let offsets = less(offset).map(|offset| Query::Map { offset, length });
            let lengths = less(length).map(|length| Query::Map { offset, length });
            [offsets, lengths].concat()
        }
        Query::Walk { offset, length, places } => {
            let offsets = less(offset).map(|offset| Query::Walk { offset, length, places });
            let lengths = less(length).map(|length| Query::Walk { offset, length, places });
            let lists = [0, places / 2].map(|places| Query::Walk { offset, length, places });
            [offsets, lengths, lists].concat()
        }
    }
}

/// The first of the cases whose answers differ.
fn first_difference(cases: &[Case], command: &[String]) -> io::Result<Option<usize>> {
    let mut input = Vec::new();
    cases.iter().try_for_each(|case| case.write(&mut input))?;
    let output = run(command, input)?;
    let mut rest = &output[..];
    for (index, case) in cases.iter().enumerate() {
        let mut expected = Vec::new();
        answer::write(case, index as u64, &mut expected)?;
        match rest.strip_prefix(&expected[..]) {
            Some(after) => rest = after,
            None => return Ok(Some(index)),
        }
    }
    Ok(None)
}

/// What the command writes.
fn run(command: &[String], input: Vec<u8>) -> io::Result<Vec<u8>> {
    let (program, arguments) = command.split_first().ok_or_else(|| io::Error::other("a command"))?;
    let mut child = Command::new(program)
        .args(arguments)
        .stdin(Stdio::piped())
        .stdout(Stdio::piped())
        .stderr(Stdio::null())
        .spawn()?;
    let mut stdin = child.stdin.take().expect("a pipe");
    // A program that ends early does not take all of it
    let writer = std::thread::spawn(move || drop(stdin.write_all(&input)));
    let output = child.wait_with_output()?;
    writer.join().expect("the writer ends");
    Ok(output.stdout)
}
