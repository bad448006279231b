//! What is being done, and how far it is, on a terminal where it takes long. A call of the library
//! cannot tell how far it is, so a thread beside it tells how long it has taken.

use crate::name;
use crate::output::{self, Progress};
use crate::words::grouped;
use std::ffi::OsStr;
use std::sync::atomic::{AtomicU64, Ordering};
use std::sync::mpsc::{self, Receiver, RecvTimeoutError, Sender};
use std::sync::{Arc, Mutex};
use std::thread::{self, JoinHandle};
use std::time::{Duration, Instant};

/// Work that ends sooner is not told of.
const LONG: Duration = Duration::from_secs(1);

/// A step of longer work that ends sooner is not told of either: nobody could read it.
const BRIEF: Duration = Duration::from_millis(200);

/// How long a line stands before it is written again.
const AGAIN: Duration = Duration::from_millis(250);

/// Steps with less than this between them are one piece of work.
const PAUSE: Duration = Duration::from_millis(100);

/// When the piece of work began that the last step belongs to, and when that step ended.
static LAST: Mutex<Option<[Instant; 2]>> = Mutex::new(None);

const MEBIBYTE: u64 = 1 << 20;

/// A step of the work. It is told of from when the work has taken long until it is dropped, and its
/// line is cleared by then; so it is held around the work alone, and nothing else is said meanwhile.
pub struct Working {
    done: Arc<AtomicU64>,
    ticker: Option<Ticker>,
}

struct Ticker {
    work: Instant,
    end: Sender<()>,
    thread: JoinHandle<()>,
}

impl Working {
    /// Work of which nobody knows how far it is.
    pub fn on(what: String) -> Working {
        Working::told(move |_, taken| timed(&what, taken))
    }

    /// Listing so many bytes, which each view does too.
    pub fn listing(input: &[u8]) -> Working {
        let length = mebibytes(input.len() as u64);
        Working::on(format!("listing {} MiB", length))
    }

    /// Reading a file, of so many bytes where that is known.
    pub fn reading(file: &OsStr, total: Option<u64>) -> Working {
        let what = format!("reading {}", name::file(file));
        Working::told(move |done, _| measured(&what, done, total))
    }

    /// Writing so many bytes.
    pub fn writing(out: &OsStr, total: u64) -> Working {
        let what = format!("writing {}", name::file(out));
        Working::told(move |done, _| measured(&what, done, Some(total)))
    }

    /// Printing so many entries. It is told of where they go into a file: a terminal shows them
    /// itself, and so may what reads a pipe.
    pub fn printing(entries: usize) -> Working {
        let total = grouped(entries as i64);
        let line =
            move |done, _| format!("printing: {} of {} entries", grouped(done as i64), total);
        match output::is_file("/dev/stdout") {
            true => Working::told(line),
            false => Working::untold(),
        }
    }

    /// How many bytes, or entries, are done.
    pub fn done(&self, done: u64) {
        self.done.store(done, Ordering::Relaxed);
    }

    /// A step and the line for it, by what is done and the time that was taken.
    fn told(line: impl Fn(u64, Duration) -> String + Send + 'static) -> Working {
        let mut working = Working::untold();
        if output::is_terminal("/dev/stderr") {
            working.ticker = Ticker::start(working.done.clone(), line);
        }
        working
    }

    fn untold() -> Working {
        Working {
            done: Arc::new(AtomicU64::new(0)),
            ticker: None,
        }
    }
}

impl Ticker {
    /// None where no thread can be had, and the work is done untold.
    fn start(
        done: Arc<AtomicU64>,
        line: impl Fn(u64, Duration) -> String + Send + 'static,
    ) -> Option<Ticker> {
        let (end, ended) = mpsc::channel();
        let step = Instant::now();
        let last = LAST.lock().ok().and_then(|last| *last);
        let work = began(last, step);
        let first = patience(step.duration_since(work));
        let line = move || line(done.load(Ordering::Relaxed), step.elapsed());
        let tick = move || tick(&ended, first, line);
        let thread = thread::Builder::new().spawn(tick).ok()?;
        Some(Ticker { work, end, thread })
    }
}

/// When the work began that a step belongs to, by the last one.
fn began(last: Option<[Instant; 2]>, step: Instant) -> Instant {
    match last {
        Some([work, ended]) if step.duration_since(ended) < PAUSE => work,
        _ => step,
    }
}

/// How long a step may take untold, when the work has taken so long before it.
fn patience(taken: Duration) -> Duration {
    LONG.saturating_sub(taken).max(BRIEF)
}

/// The line that stood is cleared when the progress is dropped, which is awaited.
impl Drop for Working {
    fn drop(&mut self) {
        if let Some(Ticker { work, end, thread }) = self.ticker.take() {
            drop(end);
            let _ = thread.join();
            if let Ok(mut last) = LAST.lock() {
                *last = Some([work, Instant::now()]);
            }
        }
    }
}

/// Shows a line, first after a while, until the work ends.
fn tick(ended: &Receiver<()>, first: Duration, line: impl Fn() -> String) {
    let goes_on = |wait| ended.recv_timeout(wait) == Err(RecvTimeoutError::Timeout);
    if !goes_on(first) {
        return;
    }
    let progress = Progress::new();
    loop {
        progress.show(&line());
        if !goes_on(AGAIN) {
            return;
        }
    }
}

fn timed(what: &str, taken: Duration) -> String {
    match taken.as_secs() {
        0 => what.to_string(),
        seconds => format!("{}, {} s", what, seconds),
    }
}

fn measured(what: &str, done: u64, total: Option<u64>) -> String {
    let done = grouped((done / MEBIBYTE) as i64);
    match total {
        Some(total) => format!("{}: {} of {} MiB", what, done, mebibytes(total)),
        None => format!("{}: {} MiB", what, done),
    }
}

/// So many bytes in whole mebibytes, the last one begun.
fn mebibytes(bytes: u64) -> String {
    let part = u64::from(bytes % MEBIBYTE > 0);
    grouped((bytes / MEBIBYTE + part) as i64)
}

#[cfg(test)]
mod tests {
    use super::*;
    use std::cell::Cell;

    #[test]
    fn a_step_is_told_by_what_is_known_of_it() {
        let taken = Duration::from_millis(3_900);
        assert_eq!(timed("placing", taken), "placing, 3 s");
        assert_eq!(timed("placing", Duration::from_millis(999)), "placing");
        let most = 1_073_741_824;
        let line = measured("reading \"a\"", 350 << 20, Some(most));
        assert_eq!(line, "reading \"a\": 350 of 1,024 MiB");
        let line = measured("reading \"a\"", most, Some(most + 1));
        assert_eq!(line, "reading \"a\": 1,024 of 1,025 MiB");
        assert_eq!(measured("reading \"-\"", 9, None), "reading \"-\": 0 MiB");
        assert_eq!(mebibytes(0), "0");
        assert_eq!(mebibytes(1), "1");
    }

    #[test]
    fn steps_that_follow_each_other_are_one_piece_of_work() {
        let start = Instant::now();
        let at = |milliseconds| start + Duration::from_millis(milliseconds);
        assert_eq!(began(None, at(7)), at(7));
        assert_eq!(began(Some([at(0), at(900)]), at(999)), at(0));
        assert_eq!(began(Some([at(0), at(900)]), at(1_000)), at(1_000));
        let untold = |taken| patience(Duration::from_millis(taken)).as_millis();
        assert_eq!([0, 300, 999, 5_000].map(untold), [1_000, 700, 200, 200]);
    }

    #[test]
    fn work_that_ends_soon_is_not_told_of() {
        let (end, ended) = mpsc::channel::<()>();
        drop(end);
        let told = Cell::new(0);
        tick(&ended, LONG, || {
            told.set(told.get() + 1);
            String::new()
        });
        assert_eq!(told.get(), 0);
        let working = Working::on(String::new());
        working.done(7);
        assert_eq!(working.done.load(Ordering::Relaxed), 7);
    }
}
