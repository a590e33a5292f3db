//! Times the two sides of every work, in turns, in one process after the other, until the figures are stable.

use crate::{clock, Run, Work};
use std::{io::Write, process::Command};

/// A slice of a side takes about so many nanoseconds, or one time of its work where that is longer.
const SLICE: u64 = 1_000_000;

/// A round of a work has slices that count of so many nanoseconds together, and takes at most so many.
const ROUND: [u64; 2] = [200_000_000, 1_000_000_000];

/// A work has at least and at most so many pairs of rounds, each in a process of its own.
const PAIRS: [usize; 2] = [6, 18];

/// A side's figure is stable where that of its even rounds and that of its odd ones differ by at most this part.
const STABLE: f64 = 0.02;

/// A slice counts where a turn of the clock's additions, before it and after it, takes at most so many times what it takes on a core of our own.
const ALONE: f64 = 1.05;

/// The figures are for a processor whose cycle takes so many nanoseconds: 3 GHz.
const CYCLE: f64 = 1.0 / 3.0;

/// What the rounds of a side have shown: the least nanoseconds of one time in each round, of even rounds and of odd ones.
#[derive(Clone, Default)]
pub struct Figure([Vec<f64>; 2]);

impl Figure {
    /// The figure of a half of the rounds.
    pub fn each(&self, half: usize) -> f64 {
        median(self.0[half].clone())
    }

    /// The nanoseconds of one time.
    pub fn nanoseconds(&self) -> f64 {
        median(self.0.concat())
    }

    /// By what part the figures of the two halves differ.
    pub fn apart(&self) -> f64 {
        apart([self.each(0), self.each(1)])
    }
}

/// The median of some figures.
fn median(mut figures: Vec<f64>) -> f64 {
    figures.sort_by(f64::total_cmp);
    let [low, high] = [1, 0].map(|less| figures.get((figures.len() - less.min(figures.len())) / 2));
    low.zip(high).map_or(f64::NAN, |(low, high)| (low + high) / 2.0)
}

/// By what part two figures differ.
pub fn apart([a, b]: [f64; 2]) -> f64 {
    a.max(b) / a.min(b) - 1.0
}

/// A side of a work in a round, and what its slices have shown.
struct Side<'a> {
    run: &'a Run,
    /// So many times in a slice
    times: u64,
    /// The least nanoseconds of a slice
    least: u64,
    /// The least nanoseconds of the work done no time: the reading of the table, where it is to be mapped or walked, and the making of
    /// memory, where it is lent again
    none: u64,
}

impl<'a> Side<'a> {
    fn new(run: &'a Run) -> Self {
        let mut times = 1;
        while time(run, times) < SLICE / 2 {
            times *= 2;
        }
        Side { run, times, least: u64::MAX, none: u64::MAX }
    }

    /// What one slice more takes: of the work, and of the work done no time.
    fn slice(&self) -> [u64; 2] {
        [time(self.run, self.times), time(self.run, 0)]
    }

    /// A slice that counts.
    fn count(&mut self, [some, none]: [u64; 2]) {
        self.least = self.least.min(some);
        self.none = self.none.min(none);
    }

    /// The nanoseconds of one time.
    fn nanoseconds(&self) -> f64 {
        self.least.saturating_sub(self.none) as f64 / self.times as f64
    }
}

/// The nanoseconds that a run takes.
fn time(run: &Run, count: u64) -> u64 {
    let start = clock::nanoseconds();
    std::hint::black_box(run(count));
    clock::nanoseconds() - start
}

/// An act, so many frames of 272 bytes further down the stack: the place of the stack within its page makes some works
/// slower, and it is another one in each process.
#[inline(never)]
fn below(frames: usize, act: &mut dyn FnMut()) {
    let frame = std::hint::black_box([0u8; 192]);
    match frames {
        0 => act(),
        _ => below(frames - 1, act),
    }
    std::hint::black_box(&frame);
}

/// What a round has shown: the least nanoseconds of a cycle, and the figure of each side for a processor whose cycle takes CYCLE.
/// None, if no slice counted.
pub type Round = Option<(f64, Vec<f64>)>;

/// The cycles of a turn of the clock's additions on a core of our own: of 300 turns all but 30 take as many or more. (The least of all
/// would not do: where the processor's clock is just then changed, a turn seems to take less.)
pub fn alone() -> f64 {
    let mut turns: Vec<f64> = (0..300).map(|_| clock::pace().turn).collect();
    turns.sort_by(f64::total_cmp);
    turns[30]
}

/// A round of a work: slices of its sides in turns, at one place of the stack after the other. `alone` is what a turn of the clock's
/// additions takes on a core of our own.
pub fn round(work: &Work, alone: f64) -> Round {
    let mut sides: Vec<Side> =
        [Some(&work.rust), work.ours.as_ref()].into_iter().flatten().map(Side::new).collect();
    let (mut cycle, mut counted, mut frames) = (f64::INFINITY, 0, 0);
    let start = clock::nanoseconds();
    let mut before = clock::pace();
    while counted < ROUND[0] && clock::nanoseconds() - start < ROUND[1] {
        let mut slices = Vec::new();
        below(frames % 16, &mut || slices = sides.iter().map(Side::slice).collect());
        frames += 1;
        let after = clock::pace();
        if before.turn.max(after.turn) <= alone * ALONE {
            cycle = cycle.min(before.cycle).min(after.cycle);
            sides.iter_mut().zip(&slices).for_each(|(side, slice)| side.count(*slice));
            counted += slices.iter().flatten().sum::<u64>();
        }
        before = after;
    }
    (counted > 0).then(|| (cycle, sides.iter().map(|side| side.nanoseconds() * CYCLE / cycle).collect()))
}

/// A process that does a round of each of some works. It answers numbers, 8 bytes each, so that no code for texts is shared with what is
/// timed, which the compiler would then inline less.
fn process(alone: &mut f64, names: &[&str], sides: usize) -> Vec<Round> {
    let program = std::env::current_exe().expect("the benchmark's own file");
    let bits = alone.to_bits().to_string();
    let output = Command::new(program).args(["rounds", &bits]).args(names).output().expect("a process");
    assert!(output.status.success(), "a round failed");
    let number = |bytes: &[u8]| f64::from_bits(u64::from_le_bytes(bytes.try_into().expect("8 bytes")));
    let numbers: Vec<f64> = output.stdout.chunks_exact(8).map(number).collect();
    *alone = numbers[0];
    let round = |numbers: &[f64]| (!numbers[0].is_nan()).then(|| (numbers[0], numbers[1..].to_vec()));
    numbers[1..].chunks_exact(1 + sides).map(round).collect()
}

/// What `process` reads: the cycles of a turn on a core of our own, and for each work the cycle and the figures, which are no numbers
/// where no slice counted.
pub fn print(alone: f64, rounds: &[Round], sides: usize) {
    let none = (f64::NAN, vec![f64::NAN; sides]);
    let rounds = rounds.iter().map(|round| round.as_ref().unwrap_or(&none));
    let numbers = rounds.flat_map(|(cycle, figures)| std::iter::once(cycle).chain(figures));
    let bytes: Vec<u8> =
        std::iter::once(&alone).chain(numbers).flat_map(|n| n.to_bits().to_le_bytes()).collect();
    std::io::stdout().write_all(&bytes).expect("the table's process reads");
}

/// What was measured of some works.
pub struct Measured {
    /// The figures of each work's sides
    pub figures: Vec<Vec<Figure>>,
    /// The least and the most nanoseconds of a cycle, of all rounds
    pub cycle: [f64; 2],
    /// How many rounds there were, and how many of them had no slice that counted
    pub rounds: [usize; 2],
}

/// Time the sides of some works, round after round.
pub fn measure(works: &[Work]) -> Measured {
    let sides = 1 + usize::from(cfg!(ours));
    let none = |_: &Work| vec![Figure::default(); sides];
    let mut all =
        Measured { figures: works.iter().map(none).collect(), cycle: [f64::INFINITY, 0.0], rounds: [0, 0] };
    let mut alone = f64::INFINITY;
    for pair in 0..PAIRS[1] {
        let open: Vec<usize> = (0..works.len())
            .filter(|i| pair < PAIRS[0] || !all.figures[*i].iter().all(|figure| figure.apart() <= STABLE))
            .collect();
        if open.is_empty() {
            break;
        }
        let names: Vec<&str> = open.iter().map(|i| works[*i].name.as_str()).collect();
        for half in [0, 1] {
            for (i, round) in open.iter().zip(process(&mut alone, &names, sides)) {
                all.rounds[0] += 1;
                let Some((cycle, figures)) = round else {
                    all.rounds[1] += 1;
                    continue;
                };
                all.cycle = [all.cycle[0].min(cycle), all.cycle[1].max(cycle)];
                for (figure, now) in all.figures[*i].iter_mut().zip(figures) {
                    figure.0[half].push(now);
                }
            }
        }
    }
    all
}
