//! Times of what is run again and again.

use std::hint::black_box;
use std::time::{Duration, Instant};

/// The shortest and the median time of one run.
#[derive(Clone, Copy, Debug)]
pub struct Times {
    pub least: Duration,
    pub median: Duration,
}

impl Times {
    /// Of these times, of which there is at least one.
    fn of(mut times: Vec<Duration>) -> Times {
        times.sort_unstable();
        Times {
            least: times[0],
            median: times[times.len() / 2],
        }
    }
}

/// One thing to time: `prepare` is not timed, `run` is, so many times in a round.
pub struct Task<'a> {
    pub repeat: u32,
    pub prepare: Box<dyn FnMut() + 'a>,
    pub run: Box<dyn FnMut() + 'a>,
}

/// How long the rounds of one row take together, and how many there are at least and at most.
const ROW: Duration = Duration::from_millis(250);
const ROUNDS: std::ops::RangeInclusive<usize> = 15..=400;

/// Times the tasks in turn, round by round, so that each meets the same machine.
pub fn time(tasks: &mut [Task<'_>]) -> Vec<Times> {
    let mut times = vec![Vec::new(); tasks.len()];
    round(tasks, |_, _| ());
    let begin = Instant::now();
    while times[0].len() < *ROUNDS.start()
        || (times[0].len() < *ROUNDS.end() && begin.elapsed() < ROW)
    {
        round(tasks, |place, time| times[place].push(time));
    }
    times.into_iter().map(Times::of).collect()
}

fn round(tasks: &mut [Task<'_>], mut note: impl FnMut(usize, Duration)) {
    for (place, task) in tasks.iter_mut().enumerate() {
        (task.prepare)();
        let begin = Instant::now();
        for _ in 0..task.repeat {
            (task.run)();
        }
        note(place, begin.elapsed() / task.repeat);
    }
}

/// The memory limit of every call: the scratch is made zero and the image is read once, 64 bytes in a
/// turn, so that it is the memory that takes the time and not the loop.
pub fn memory(image: &[u8], scratch: &mut [u8]) {
    scratch.fill(0);
    black_box(&scratch);
    let mut sums = [0u64; 8];
    for block in image.as_chunks::<64>().0 {
        for (sum, word) in sums.iter_mut().zip(block.as_chunks::<8>().0) {
            *sum = sum.wrapping_add(u64::from_ne_bytes(*word));
        }
    }
    black_box(sums);
}
