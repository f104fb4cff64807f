//! Word of work that takes over a second, on standard error: after a second,
//! then after two more, four, and so on.

use std::time::{Duration, Instant};

pub struct Progress {
    unit: &'static str,
    count: u64,
    told: Instant,
    pause: Duration,
}

impl Progress {
    pub fn of(unit: &'static str) -> Progress {
        Progress {
            unit,
            count: 0,
            told: Instant::now(),
            pause: Duration::from_secs(1),
        }
    }

    /// So many more are done.
    pub fn add(&mut self, more: u64) {
        let before = self.count / 256;
        self.count += more;
        if self.count / 256 > before && self.told.elapsed() > self.pause {
            eprintln!("zemawulo: {} {} so far", self.count, self.unit);
            self.told = Instant::now();
            self.pause *= 2;
        }
    }
}
