//! Batches of the three sides in turn, so that noise falls on all alike, and the medians of their times.

#[repr(C)]
struct Timespec {
    seconds: i64,
    nanoseconds: i64,
}

extern "C" {
    fn clock_gettime(clock: i32, time: *mut Timespec) -> i32;
}

/// Nanoseconds of processor time that this thread has had, so that what other programs take of the core is not counted.
fn processor_time() -> i64 {
    const CLOCK_THREAD_CPUTIME_ID: i32 = 3;
    let mut time = Timespec { seconds: 0, nanoseconds: 0 };
    assert_eq!(unsafe { clock_gettime(CLOCK_THREAD_CPUTIME_ID, &mut time) }, 0, "the thread's clock");
    1_000_000_000 * time.seconds + time.nanoseconds
}

/// Who does the work of a batch.
#[derive(Clone, Copy, PartialEq, Eq)]
pub enum Side {
    Library,
    Plain,
    Copy,
}

const SIDES: [Side; 3] = [Side::Library, Side::Plain, Side::Copy];
const WARM_UP: usize = 3;

/// The times of one row: nanoseconds for one operation, of each side in each round.
pub struct Times {
    rounds: Vec<[f64; 3]>,
}

/// Runs rounds of one batch for each side, the sides changing places, a batch being so many operations.
pub fn measure(rounds: usize, operations: u32, mut batch: impl FnMut(Side, usize)) -> Times {
    let mut times = Times { rounds: Vec::with_capacity(rounds) };
    for round in 0..WARM_UP + rounds {
        let mut spent = [0.0; 3];
        for turn in 0..3 {
            let side = SIDES[(round + turn) % 3];
            let begun = processor_time();
            batch(side, round);
            spent[side as usize] = (processor_time() - begun) as f64 / f64::from(operations);
        }
        if WARM_UP <= round {
            times.rounds.push(spent);
        }
    }
    times
}

impl Times {
    /// A quantile over the rounds.
    fn quantile(&self, part: f64, of: impl Fn(&[f64; 3]) -> f64) -> f64 {
        let mut values: Vec<f64> = self.rounds.iter().map(of).collect();
        values.sort_by(f64::total_cmp);
        values[((values.len() - 1) as f64 * part).round() as usize]
    }

    /// A row of the table: the median times, and the ratios of the library's to the others', each the median over the rounds with its quartiles.
    pub fn row(&self, what: &str) -> String {
        let time = |side: Side| nanoseconds(self.quantile(0.5, |spent| spent[side as usize]));
        let ratio = |side: Side| {
            let [low, middle, high] = [0.25, 0.5, 0.75].map(|part| self.quantile(part, |spent| spent[0] / spent[side as usize]));
            format!("**{middle:.2}** ({low:.2} to {high:.2})")
        };
        let [library, plain, copy] = SIDES.map(time);
        format!("| {what} | {library} | {plain} | {copy} | {} | {} |", ratio(Side::Plain), ratio(Side::Copy))
    }
}

fn nanoseconds(time: f64) -> String {
    match time {
        _ if time < 100.0 => format!("{time:.1} ns"),
        _ if time < 10_000.0 => format!("{time:.0} ns"),
        _ if time < 1_000_000.0 => format!("{:.1} µs", time / 1000.0),
        _ => format!("{:.1} ms", time / 1_000_000.0),
    }
}
