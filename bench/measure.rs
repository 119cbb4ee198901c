//! The time of calls side by side.

#[repr(C)]
struct Timespec {
    seconds: i64,
    nanoseconds: i64,
}

extern "C" {
    fn clock_gettime(clock: i32, time: *mut Timespec) -> i32;
}

const PROCESS_TIME: i32 = 2; // CLOCK_PROCESS_CPUTIME_ID
const SAMPLE: f64 = 2_000.0; // microseconds that the calls of one repetition take at least, together

/// The processor time of this process, in microseconds.
fn now() -> f64 {
    let mut time = Timespec { seconds: 0, nanoseconds: 0 };
    assert_eq!(unsafe { clock_gettime(PROCESS_TIME, &mut time) }, 0);
    time.seconds as f64 * 1e6 + time.nanoseconds as f64 / 1e3
}

/// A call that is timed.
pub type Call<'a> = Box<dyn FnMut() + 'a>;

/// One of those that are compared: its call is made so often that a repetition lasts long enough; a time is that of one call.
struct Side<'a> {
    call: Call<'a>,
    calls: usize,
    times: Vec<f64>,
}

impl<'a> Side<'a> {
    fn new(call: Call<'a>) -> Side<'a> {
        let mut side = Side { call, calls: 1, times: Vec::new() };
        side.repetition();
        while side.repetition() * (side.calls as f64) < SAMPLE {
            side.calls *= 2;
        }
        side
    }

    fn repetition(&mut self) -> f64 {
        let before = now();
        (0..self.calls).for_each(|_| (self.call)());
        (now() - before) / self.calls as f64
    }
}

/// The time of one call over all repetitions, in microseconds.
#[derive(Clone, Copy)]
pub struct Times {
    pub smallest: f64,
    pub median: f64,
}

impl Times {
    fn of(mut times: Vec<f64>) -> Times {
        times.sort_by(f64::total_cmp);
        Times { smallest: times[0], median: (times[(times.len() - 1) / 2] + times[times.len() / 2]) / 2.0 }
    }
}

/// Measures the calls of one table; of each side the call that is the fastest counts, None where a side has none. The sides take turns, so that a busy
/// machine slows all.
pub fn measure(name: &str, repetitions: usize, sides: Vec<Vec<Call>>) -> Vec<Option<Times>> {
    eprintln!("bench: {name}");
    let mut sides: Vec<Vec<Side>> = sides.into_iter().map(|calls| calls.into_iter().map(Side::new).collect()).collect();
    for _ in 0..repetitions {
        for side in sides.iter_mut().flatten() {
            let time = side.repetition();
            side.times.push(time);
        }
    }
    let fastest = |ways: Vec<Side>| ways.into_iter().map(|side| Times::of(side.times)).min_by(|a, b| a.smallest.total_cmp(&b.smallest));
    sides.into_iter().map(fastest).collect()
}

/// Ends the run where an answer is not the yardstick's: nothing wrong is timed.
pub fn compare<T: PartialEq + std::fmt::Debug>(name: &str, side: &str, answer: T, expected: T) {
    if answer != expected {
        let cut = |answer| format!("{answer:?}").chars().take(200).collect::<String>();
        eprintln!("bench: {name}: THE ANSWERS DIFFER: {side} has {}, expected is {}", cut(answer), cut(expected));
        std::process::exit(1)
    }
}
