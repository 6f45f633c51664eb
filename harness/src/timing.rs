//! Times peers beside each other by the processor's clock, and prints their times as a table.

use std::hint::black_box;

/// How often each peer is timed on each case, and how many of its times count: the lowest.
const REPETITIONS: usize = 400;
const COUNTED: usize = REPETITIONS / 10;

/// The processor time of the calling thread, as Linux numbers its clocks.
const THREAD_CLOCK: i32 = 3;

/// A time as the C library gives it on x86-64.
#[repr(C)]
struct Timespec {
    seconds: i64,
    nanoseconds: i64,
}

extern "C" {
    fn clock_gettime(clock: i32, time: *mut Timespec) -> i32;
}

/// One of those that are compared: its name, and what it does with a case.
pub type Peer<C, A> = (&'static str, fn(&mut C) -> A);

/// The time of a peer's call in microseconds, beside the peer's name.
pub type Time = (&'static str, f64);

/// The time of each peer's call: the mean over the cases of what it takes on each. The peers are called in turn on each case in turn, as
/// often at a time as told, each time between two readings of the clock; a case is made ready before.
pub fn times<C, A>(
    peers: &[Peer<C, A>],
    cases: &mut [C],
    calls: usize,
    make_ready: fn(&mut C),
) -> Vec<Time> {
    let mut taken = vec![vec![Vec::new(); cases.len()]; peers.len()];
    for _ in 0..REPETITIONS {
        for (place, case) in cases.iter_mut().enumerate() {
            for ((_, call), taken) in peers.iter().zip(&mut taken) {
                make_ready(case);
                taken[place].push(time(*call, case, calls));
            }
        }
    }
    let means = taken.into_iter().map(|on_cases| {
        let lowest: f64 = on_cases.into_iter().map(lowest_tenth).sum();
        lowest / (cases.len() * calls) as f64
    });
    peers.iter().map(|peer| peer.0).zip(means).collect()
}

/// The time of so many calls on a case in microseconds. Reading the clock takes part of a microsecond, which is not taken off.
fn time<C, A>(call: fn(&mut C) -> A, case: &mut C, calls: usize) -> f64 {
    let begun = thread_time();
    for _ in 0..calls {
        black_box(call(black_box(case)));
    }
    thread_time() - begun
}

/// The processor time that this thread has used, in microseconds.
fn thread_time() -> f64 {
    let mut time = Timespec {
        seconds: 0,
        nanoseconds: 0,
    };
    // SAFETY: the time lives through the call and has the layout that the C library writes.
    let status = unsafe { clock_gettime(THREAD_CLOCK, &mut time) };
    assert_eq!(status, 0, "the processor's clock cannot be read");
    time.seconds as f64 * 1e6 + time.nanoseconds as f64 / 1e3
}

/// The mean of the lowest tenth.
fn lowest_tenth(mut times: Vec<f64>) -> f64 {
    times.sort_unstable_by(f64::total_cmp);
    times[..COUNTED].iter().sum::<f64>() / COUNTED as f64
}

/// A table of times: some columns that tell what was timed, one for each peer, and one for the first peer's time over each other's.
pub struct Table {
    peers: Vec<&'static str>,
    rows: Vec<Vec<String>>,
}

impl Table {
    /// A table with these columns and these peers, and no row but the heads.
    pub fn new<C, A>(told: &[&str], peers: &[Peer<C, A>]) -> Table {
        let peers: Vec<&str> = peers.iter().map(|peer| peer.0).collect();
        let told = told.iter().map(|head| head.to_string());
        let times = peers.iter().map(|peer| format!("{peer} us"));
        let others = peers[1..].iter();
        let ratios = others.map(|peer| format!("{}/{peer}", peers[0]));
        let heads = told.chain(times).chain(ratios).collect();
        Table {
            peers,
            rows: vec![heads],
        }
    }

    /// Adds a row; a peer without a time has a dash.
    pub fn add(&mut self, told: &[String], times: &[Time]) {
        let time_of = |name| times.iter().find(|time| time.0 == name).map(|time| time.1);
        let first = time_of(self.peers[0]);
        let microseconds = self.peers.iter().map(|&peer| cell(time_of(peer), 1));
        let others = self.peers[1..].iter();
        let ratios = others.map(|&peer| {
            let ratio = first.zip(time_of(peer)).map(|(first, time)| first / time);
            cell(ratio, 3)
        });
        let cells = told.iter().cloned().chain(microseconds).chain(ratios);
        self.rows.push(cells.collect());
    }

    /// Prints the rows, each column as wide as its widest cell.
    pub fn print(&self) {
        for row in &self.rows {
            let cells = row.iter().enumerate().map(|(column, cell)| {
                let widths = self.rows.iter().map(|row| row[column].len());
                let width = widths.max().unwrap_or(0);
                format!("{cell:>width$}")
            });
            println!("{}", cells.collect::<Vec<String>>().join("  "));
        }
    }
}

/// A number with so many decimal places, or a dash.
fn cell(number: Option<f64>, places: usize) -> String {
    number.map_or("-".to_string(), |number| format!("{number:.places$}"))
}
