//! Says on standard error how many seeds are done: on a terminal one line, written again each second;
//! elsewhere a plain line after each tenth of the seeds.

use std::io::{self, IsTerminal, Write};
use std::sync::atomic::{AtomicU64, Ordering};
use std::sync::mpsc::{self, RecvTimeoutError};
use std::thread;
use std::time::{Duration, Instant};

const SECOND: Duration = Duration::from_secs(1);

/// Does the work and says once a second how far it is: it counts in `done`, up to `count`.
pub fn with_progress<R>(done: &AtomicU64, count: u64, work: impl FnOnce() -> R) -> R {
    let (working, ended) = mpsc::channel::<()>();
    thread::scope(|scope| {
        scope.spawn(move || {
            let mut progress = Progress::new(count, io::stderr().is_terminal());
            let started = Instant::now();
            let say = |text: String| {
                // nothing is lost where standard error cannot be written
                let _ = io::stderr().write_all(text.as_bytes());
            };
            while ended.recv_timeout(SECOND) == Err(RecvTimeoutError::Timeout) {
                let done = done.load(Ordering::Relaxed);
                say(progress.at(done, started.elapsed().as_secs()));
            }
            say(progress.end());
        });
        let result = work();
        drop(working);
        result
    })
}

struct Progress {
    count: u64,
    terminal: bool,
    /// How many tenths of the seeds have their plain line.
    tenths: u64,
}

impl Progress {
    fn new(count: u64, terminal: bool) -> Progress {
        Progress {
            count,
            terminal,
            tenths: 0,
        }
    }

    /// What to write where so many seeds are done.
    fn at(&mut self, done: u64, seconds: u64) -> String {
        let line = format!("{done} of {} seeds done; {seconds} s so far", self.count);
        let tenths = done * 10 / self.count.max(1);
        if self.terminal {
            format!("\r\x1b[K{line}")
        } else if tenths > self.tenths {
            self.tenths = tenths;
            format!("{line}\n")
        } else {
            String::new()
        }
    }

    /// What to write at the end: on a terminal the line is cleared.
    fn end(&self) -> String {
        let clear = if self.terminal { "\r\x1b[K" } else { "" };
        clear.to_string()
    }
}

#[cfg(test)]
mod tests {
    use super::*;

    #[test]
    fn plain_lines_after_each_tenth() {
        let mut progress = Progress::new(200, false);
        let said: Vec<String> = [0, 19, 20, 39, 75, 79, 200]
            .map(|done| progress.at(done, 3))
            .into_iter()
            .filter(|text| !text.is_empty())
            .collect();
        let line = |done| format!("{done} of 200 seeds done; 3 s so far\n");
        assert_eq!(said, [20, 75, 200].map(line));
        assert_eq!(progress.end(), "");
    }

    #[test]
    fn one_line_on_a_terminal() {
        let mut progress = Progress::new(200, true);
        let said = progress.at(7, 1) + &progress.at(8, 2) + &progress.end();
        let [one, other] = ["7 of 200 seeds done; 1 s", "8 of 200 seeds done; 2 s"];
        assert_eq!(
            said,
            format!("\r\x1b[K{one} so far\r\x1b[K{other} so far\r\x1b[K")
        );
    }

    #[test]
    fn the_result_of_the_work() {
        let done = AtomicU64::new(0);
        let result = with_progress(&done, 1, || done.fetch_add(1, Ordering::Relaxed) + 4);
        assert_eq!(result, 4);
    }
}
