//! Two or more sides of one comparison, the Rust's first, run in turn. Times
//! are the processor's for this thread: a long run is often interrupted.

unsafe extern "C" {
    fn clock_gettime(clock: i32, time: *mut [i64; 2]) -> i32;
}

/// CLOCK_THREAD_CPUTIME_ID of Linux.
const OF_THREAD: i32 = 3;

/// Nanoseconds that this thread ran.
fn now() -> i64 {
    let mut time = [0; 2];
    // SAFETY: on x86-64 a time is two words, seconds and nanoseconds.
    assert_eq!(unsafe { clock_gettime(OF_THREAD, &mut time) }, 0);
    time[0] * 1_000_000_000 + time[1]
}

pub struct Side<'c> {
    pub name: &'static str,
    pub run: Box<dyn FnMut() + 'c>,
}

/// Each side does the same work: so many units of it.
pub struct Comparison<'c> {
    pub title: String,
    pub unit: &'static str,
    pub units: usize,
    pub sides: Vec<Side<'c>>,
}

/// Makes a comparison when it is wanted.
pub type Maker = Box<dyn Fn() -> Comparison<'static>>;

pub fn side<'c>(name: &'static str, run: impl FnMut() + 'c) -> Side<'c> {
    Side {
        name,
        run: Box::new(run),
    }
}

impl Comparison<'_> {
    /// The medians of all sides, which run one after the other in an order
    /// that changes from round to round.
    pub fn time(&mut self, rounds: usize) {
        let sides = self.sides.len();
        let mut times = vec![Vec::with_capacity(rounds); sides];
        for round in 0..rounds {
            for turn in 0..sides {
                let side = (turn + round) % sides;
                let began = now();
                (self.sides[side].run)();
                times[side].push(now() - began);
            }
        }
        let medians: Vec<f64> = times
            .iter_mut()
            .map(|list| {
                list.sort_unstable();
                list[rounds / 2] as f64 / self.units as f64
            })
            .collect();
        println!("{}", self.title);
        for (side, median) in self.sides.iter().zip(&medians) {
            println!(
                "  {:32} {median:10.1} ns a {}: {:6.2} times",
                side.name,
                self.unit,
                median / medians[0]
            );
        }
    }

    /// One side once, for callgrind.
    pub fn once(&mut self, side: usize) {
        bench_side(&mut *self.sides[side].run);
    }
}

/// What callgrind counts: from the entry of this function to its end.
#[unsafe(no_mangle)]
#[inline(never)]
fn bench_side(run: &mut dyn FnMut()) {
    run();
}
