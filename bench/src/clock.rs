//! The time that this thread has run: on a machine that others use too, a pause is not counted. And the processor that it runs on: which, how
//! fast it is, and whether another thread has a part of it.

use std::arch::asm;

/// Seconds and nanoseconds, as the C library has them on 64-bit Linux.
#[repr(C)]
#[derive(Default)]
struct Timespec {
    seconds: i64,
    nanoseconds: i64,
}

/// The clock that counts this thread's own time.
const CLOCK_THREAD_CPUTIME_ID: i32 = 3;

extern "C" {
    fn clock_gettime(clock: i32, time: *mut Timespec) -> i32;
    fn sched_getcpu() -> i32;
    fn sched_setaffinity(process: i32, size: usize, set: *const u64) -> i32;
}

/// Stay on the processor that this thread runs on, if the system lets it.
pub fn pin() {
    // Safe: the call has no argument
    let processor = unsafe { sched_getcpu() };
    if let Ok(processor @ 0..1024) = usize::try_from(processor) {
        let mut set = [0u64; 16];
        set[processor / 64] = 1 << (processor % 64);
        // Safe: the call reads as many bytes as the set has
        unsafe { sched_setaffinity(0, std::mem::size_of_val(&set), set.as_ptr()) };
    }
}

/// The nanoseconds that this thread has run.
pub fn nanoseconds() -> u64 {
    let mut time = Timespec::default();
    // Safe: the call writes the two numbers and nothing else
    let status = unsafe { clock_gettime(CLOCK_THREAD_CPUTIME_ID, &mut time) };
    assert_eq!(status, 0);
    time.seconds as u64 * 1_000_000_000 + time.nanoseconds as u64
}

/// How the processor runs at a moment.
#[derive(Clone, Copy)]
pub struct Pace {
    /// The nanoseconds of a cycle
    pub cycle: f64,
    /// The cycles of a turn of `additions`: more where another thread has a part of the processor's core
    pub turn: f64,
}

/// How the processor runs now. Where its cycles do not last, a turn has no end.
pub fn pace() -> Pace {
    let tries = [(); 3].map(|()| [each(20_000, multiplications) / 3.0, each(10_000, additions)]);
    let least = |of: fn(&[f64; 2]) -> f64| tries.iter().map(of).fold(f64::INFINITY, f64::min);
    let cycle = least(|[cycle, _]| *cycle);
    let lasts = tries.iter().all(|[other, _]| *other <= cycle * 1.01);
    Pace { cycle, turn: if lasts { least(|[_, turn]| *turn) / cycle } else { f64::INFINITY } }
}

/// The nanoseconds that each of so many turns takes.
fn each(turns: u64, act: fn(u64)) -> f64 {
    let start = nanoseconds();
    act(turns);
    (nanoseconds() - start) as f64 / turns as f64
}

/// Multiplications, each of which waits for the one before: 3 cycles, on the x86-64 processors of the last ten years. (On Arm, where they take 3 or 4, three
/// additions in a row.)
fn multiplications(turns: u64) {
    // Safe: it changes its two registers and the flags
    #[cfg(target_arch = "x86_64")]
    unsafe {
        asm!("2:", "imul {x}, {x}", "dec {n}", "jnz 2b", x = inout(reg) 3u64 => _, n = inout(reg) turns => _)
    }
    #[cfg(target_arch = "aarch64")]
    unsafe {
        asm!(
            "2:", "add {x}, {x}, #1", "add {x}, {x}, #1", "add {x}, {x}, #1", "subs {n}, {n}, #1", "b.ne 2b",
            x = inout(reg) 3u64 => _, n = inout(reg) turns => _
        )
    }
}

/// Turns of 16 additions that hardly wait for each other: as many at a time as the core can do.
fn additions(turns: u64) {
    // Safe: it changes its registers and the flags
    #[cfg(target_arch = "aarch64")]
    unsafe {
        asm!(
            "2:",
            "add {a}, {a}, #1", "add {b}, {b}, #1", "add {c}, {c}, #1", "add {d}, {d}, #1", "add {e}, {e}, #1", "add {f}, {f}, #1", "add {g}, {g}, #1", "add {h}, {h}, #1",
            "add {a}, {a}, #1", "add {b}, {b}, #1", "add {c}, {c}, #1", "add {d}, {d}, #1", "add {e}, {e}, #1", "add {f}, {f}, #1", "add {g}, {g}, #1", "add {h}, {h}, #1",
            "subs {n}, {n}, #1", "b.ne 2b",
            a = inout(reg) 0u64 => _, b = inout(reg) 0u64 => _, c = inout(reg) 0u64 => _, d = inout(reg) 0u64 => _,
            e = inout(reg) 0u64 => _, f = inout(reg) 0u64 => _, g = inout(reg) 0u64 => _, h = inout(reg) 0u64 => _,
            n = inout(reg) turns => _
        )
    }
    #[cfg(target_arch = "x86_64")]
    unsafe {
        asm!(
            "2:",
            "add {a}, 1", "add {b}, 1", "add {c}, 1", "add {d}, 1", "add {e}, 1", "add {f}, 1", "add {g}, 1", "add {h}, 1",
            "add {a}, 1", "add {b}, 1", "add {c}, 1", "add {d}, 1", "add {e}, 1", "add {f}, 1", "add {g}, 1", "add {h}, 1",
            "dec {n}", "jnz 2b",
            a = inout(reg) 0u64 => _, b = inout(reg) 0u64 => _, c = inout(reg) 0u64 => _, d = inout(reg) 0u64 => _,
            e = inout(reg) 0u64 => _, f = inout(reg) 0u64 => _, g = inout(reg) 0u64 => _, h = inout(reg) 0u64 => _,
            n = inout(reg) turns => _
        )
    }
}
