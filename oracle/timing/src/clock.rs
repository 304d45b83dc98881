//! Times calls by the processor time of this process.
unsafe extern "C" {
    fn clock_gettime(clock: i32, time: *mut [i64; 2]) -> i32;
}

const PROCESSOR_TIME: i32 = 2;
const SECOND: u64 = 1_000_000_000;

fn now_ns() -> u64 {
    let mut time = [0i64; 2];
    unsafe { clock_gettime(PROCESSOR_TIME, &mut time) };
    time[0] as u64 * 1_000_000_000 + time[1] as u64
}

/// How long a batch of rounds takes at least, in nanoseconds, and of how many batches the best is taken.
pub struct Clock {
    pub least: u64,
    pub batches: usize,
}

impl Clock {
    /// Doubles the rounds of a batch until it takes long enough, and writes the name, the rounds, the time of the best batch, and the
    /// answers' sum by round. Where a batch takes a second or more it is the only one.
    pub fn time(&self, name: &str, mut call: impl FnMut() -> usize) {
        let mut batch = |rounds: usize| {
            let from = now_ns();
            let sum: usize = (0..rounds).map(|_| call()).sum();
            (now_ns() - from, sum)
        };
        let mut rounds = 1;
        let (mut best, mut sum) = batch(rounds);
        while best < self.least {
            rounds *= 2;
            (best, sum) = batch(rounds);
        }
        for _ in 1..self.batches {
            if best >= SECOND {
                break;
            }
            let took;
            (took, sum) = batch(rounds);
            best = best.min(took);
        }
        println!("{name}\t{rounds}\t{best}\t{}", sum / rounds);
    }
}
