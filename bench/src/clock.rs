//! What a measurement counts: processor time, or instructions where an emulator counts them.

use std::fs::File;
use std::os::unix::fs::FileExt;

pub enum Clock {
    Time,
    Instructions(File),
}

impl Clock {
    /// Instructions where INSTRUCTIONS names the file of `count.c`, and time otherwise.
    pub fn open() -> Clock {
        match std::env::var_os("INSTRUCTIONS") {
            Some(path) => Clock::Instructions(File::open(path).expect("the counter's file")),
            None => Clock::Time,
        }
    }

    /// Nanoseconds of this thread, or instructions of this process, so far.
    pub fn now(&self) -> u64 {
        match self {
            Clock::Time => processor_time(),
            Clock::Instructions(file) => {
                // Asking for the process id is the sign at which the counter writes its count.
                let _ = std::process::id();
                let mut count = [0; 8];
                file.read_exact_at(&mut count, 0).expect("a count");
                u64::from_le_bytes(count)
            }
        }
    }

    /// Times differ from round to round and want a median; counts do not.
    pub fn rounds(&self) -> usize {
        match self {
            Clock::Time => 21,
            Clock::Instructions(_) => 1,
        }
    }

    /// The unit of a million.
    pub fn millions(&self) -> &'static str {
        match self {
            Clock::Time => "ms",
            Clock::Instructions(_) => "million instructions",
        }
    }

    /// The unit of a thousand.
    pub fn thousands(&self) -> &'static str {
        match self {
            Clock::Time => "µs",
            Clock::Instructions(_) => "thousand instructions",
        }
    }

    /// The unit of one.
    pub fn ones(&self) -> &'static str {
        match self {
            Clock::Time => "ns",
            Clock::Instructions(_) => "instructions",
        }
    }
}

/// `struct timespec` of 64-bit Linux.
#[repr(C)]
struct Timespec {
    seconds: i64,
    nanoseconds: i64,
}

extern "C" {
    fn clock_gettime(clock: i32, time: *mut Timespec) -> i32;
}

/// The time that this thread has had a processor, so that waiting for one does not count.
fn processor_time() -> u64 {
    const CLOCK_THREAD_CPUTIME_ID: i32 = 3;
    let mut time = Timespec {
        seconds: 0,
        nanoseconds: 0,
    };
    // SAFETY: the struct is the system's, and lent for the call.
    let status = unsafe { clock_gettime(CLOCK_THREAD_CPUTIME_ID, &mut time) };
    assert_eq!(status, 0);
    time.seconds as u64 * 1_000_000_000 + time.nanoseconds as u64
}
