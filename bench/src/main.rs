//! Times the Rust and our side on the same inputs, in turns, in one process after the other.
//!
//! - `bench [WORDS]`: the table of times, of the works whose names hold WORDS
//! - `bench list`: the works' names, a line each
//! - `bench rounds ALONE NAMES`: a round of each of these works, in this process, for the process that makes the table
//! - `bench once rust|ours WORK COUNT`: a work alone, so many times, for counting instructions

mod clock;
mod inputs;
mod measure;
#[cfg(ours)]
mod ours;
mod rust;
mod sums;

use measure::{Figure, Round};
use rust::Reel;
use std::sync::Arc;

/// A side's work done so many times: a sum over its answers, which must be the other side's.
type Run = Box<dyn Fn(u64) -> u64>;

/// Something to time.
struct Work {
    /// What the table of figures calls it
    name: String,
    /// So many answers of the two sides are compared before they are timed
    compared: u64,
    /// The Rust
    rust: Run,
    /// Our side, if it is linked
    ours: Option<Run>,
}

/// What is done with a descriptor.
#[derive(Clone, Copy)]
enum Doing {
    Read,
    Probe,
    Map { ascending: bool },
    Walk { window: u64 },
}

/// Every work of the benchmark.
fn works() -> Vec<Work> {
    let mut works = Vec::new();
    for (what, doing) in [("read", Doing::Read), ("probe", Doing::Probe)] {
        for input in inputs::descriptors() {
            works.push(work(format!("{what}: {}", input.name), &input.bytes, doing));
        }
    }
    for input in inputs::read_only() {
        works.push(work(format!("read: {}", input.name), &input.bytes, Doing::Read));
    }
    for (name, bytes) in inputs::scaled() {
        works.push(work(format!("scale: {name}"), &bytes, Doing::Read));
    }
    for (what, doing) in [
        ("map: random offsets", Doing::Map { ascending: false }),
        ("map: ascending offsets", Doing::Map { ascending: true }),
        ("walk: whole disk", Doing::Walk { window: sums::SIZE }),
        ("walk: windows of 64 KB", Doing::Walk { window: 65_536 }),
    ] {
        for rows in [1, 20, 128, 1000] {
            works.push(work(format!("{what}, {rows} rows"), &inputs::table(rows), doing));
        }
    }
    works
}

/// A work on a descriptor, for both sides, which read the same bytes.
fn work(name: String, descriptor: &[u8], doing: Doing) -> Work {
    let descriptor: Arc<[u8]> = Arc::from(descriptor);
    let reel = Reel::new(descriptor.clone());
    let rust = Box::new(move |count| match doing {
        Doing::Read => repeat(count, || rust::read(&reel)),
        Doing::Probe => repeat(count, || rust::probe(&reel)),
        Doing::Map { ascending } => rust::map(&reel, ascending, count),
        Doing::Walk { window } => rust::walk(&reel, window, count),
    });
    let compared = match doing {
        Doing::Probe => 1,
        // Our memory is lent again for the second
        Doing::Read => 3,
        Doing::Walk { window: sums::SIZE } => 1000,
        Doing::Map { .. } | Doing::Walk { .. } => 100_000,
    };
    Work { name, compared, rust, ours: our_run(descriptor, doing) }
}

/// Our side of a work.
#[cfg(ours)]
fn our_run(descriptor: Arc<[u8]>, doing: Doing) -> Option<Run> {
    Some(Box::new(move |count| match doing {
        Doing::Read => ours::reads(&descriptor, count),
        Doing::Probe => repeat(count, || ours::probe(&descriptor)),
        Doing::Map { ascending } => ours::map(&descriptor, ascending, count),
        Doing::Walk { window } => ours::walk(&descriptor, window, count),
    }))
}

/// Our side is not linked.
#[cfg(not(ours))]
fn our_run(_descriptor: Arc<[u8]>, _doing: Doing) -> Option<Run> {
    None
}

/// A function so many times, its answers folded.
fn repeat(count: u64, answer: impl Fn() -> u64) -> u64 {
    (0..count).fold(0, |sum, _| sums::fold(sum, std::hint::black_box(answer())))
}

fn main() {
    let words: Vec<String> = std::env::args().skip(1).collect();
    let words: Vec<&str> = words.iter().map(String::as_str).collect();
    match words[..] {
        ["list"] => works().iter().for_each(|work| println!("{}", work.name)),
        ["once", side, name, count] => once(side, name, count.parse().expect("a number of times")),
        ["rounds", alone, ref names @ ..] => rounds(f64::from_bits(alone.parse().expect("a number")), names),
        [] => table(""),
        [part] => table(part),
        _ => panic!("bench [WORDS] | list | rounds ALONE NAMES | once rust|ours WORK COUNT"),
    }
}

/// One side of a work alone.
fn once(side: &str, name: &str, count: u64) {
    let work = works().into_iter().find(|work| work.name == name).expect("a work's name");
    let run = if side == "rust" { Some(work.rust) } else { work.ours };
    println!("{}", run.expect("our side is not linked")(count));
}

/// A round of each of some works.
fn rounds(alone: f64, names: &[&str]) {
    clock::pin();
    let alone = alone.min(measure::alone());
    let works = works();
    let named = |name: &&str| works.iter().find(|work| work.name == *name).expect("a work's name");
    let rounds: Vec<Round> = names.iter().map(|name| measure::round(named(name), alone)).collect();
    measure::print(alone, &rounds, 1 + usize::from(cfg!(ours)));
}

/// The table of times.
fn table(part: &str) {
    let works: Vec<Work> = works().into_iter().filter(|work| work.name.contains(part)).collect();
    for work in &works {
        if let Some(ours) = &work.ours {
            let same = (work.rust)(work.compared) == ours(work.compared);
            assert!(same, "the two sides answer differently: {}", work.name);
        }
    }
    let measured = measure::measure(&works);
    let [fast, slow] = measured.cycle.map(|cycle| 1.0 / cycle);
    let [rounds, shared] = measured.rounds;
    println!("The processor ran at {slow:.2} to {fast:.2} GHz; ns are for 3 GHz. {rounds} rounds, {shared} of them on a shared core alone.");
    println!();
    println!("| work | Rust, ns | ours, ns | ours / Rust | halves differ: Rust | ours | ratio |");
    println!("|---|---|---|---|---|---|---|");
    for (work, sides) in works.iter().zip(&measured.figures) {
        println!("| {} |{}", work.name, row(sides));
    }
}

/// A work's figures, in the table of times.
fn row(sides: &[Figure]) -> String {
    let percent = |part: f64| format!("{:.1} %", 100.0 * part);
    match sides {
        [rust, ours] => {
            let (a, b) = (rust.nanoseconds(), ours.nanoseconds());
            let ratio = measure::apart([0, 1].map(|half| ours.each(half) / rust.each(half)));
            let halves = [rust.apart(), ours.apart(), ratio].map(percent).join(" | ");
            format!(" {a:.1} | {b:.1} | {:.2} | {halves} |", b / a)
        }
        [rust] => format!(" {:.1} | | | {} | | |", rust.nanoseconds(), percent(rust.apart())),
        _ => unreachable!("one side or two"),
    }
}
