//! Range locks of a file: `fcntl` with F_OFD_SETLK, whose locks belong to an open file description.

use crate::lent::Window;
use std::fs::{File, OpenOptions};
use std::os::fd::AsRawFd;
use std::path::Path;

const F_OFD_SETLK: i32 = 37;
const F_WRLCK: i16 = 1;
const F_UNLCK: i16 = 2;

/// `struct flock` of 64-bit Linux. The process number must be 0 for these locks.
#[repr(C)]
struct Flock {
    kind: i16,
    whence: i16,
    start: i64,
    length: i64,
    process: i32,
}

const RLIMIT_NOFILE: i32 = 7;

#[repr(C)]
#[derive(Default)]
struct Limit {
    soft: u64,
    hard: u64,
}

extern "C" {
    fn fcntl(descriptor: i32, command: i32, ...) -> i32;
    fn getrlimit(resource: i32, limit: *mut Limit) -> i32;
}

/// How many open files the process may have, less some that it has for other ends.
pub fn most_descriptions() -> usize {
    let mut limit = Limit::default();
    assert_eq!(unsafe { getrlimit(RLIMIT_NOFILE, &mut limit) }, 0);
    (limit.soft.min(1 << 20) as usize).saturating_sub(64)
}

/// A file on which others hold ranges, each through an open file description that is not the measured one.
pub struct Ranges {
    measured: File,
    others: Vec<File>,
}

/// Whether the range could be locked or unlocked.
fn set(file: &File, kind: i16, (l, r): Window) -> bool {
    let lock = Flock { kind, whence: 0, start: l as i64, length: (r - l) as i64, process: 0 };
    unsafe { fcntl(file.as_raw_fd(), F_OFD_SETLK, &lock) == 0 }
}

impl Ranges {
    /// Each range has a description of its own; past so many, ranges share those that there are.
    pub fn held(path: &Path, windows: &[Window], most: usize) -> Ranges {
        let open = || OpenOptions::new().read(true).write(true).create(true).truncate(false).open(path).expect("a file to lock");
        let others: Vec<File> = (0..windows.len().min(most)).map(|_| open()).collect();
        let ranges = Ranges { measured: open(), others };
        for (place, &window) in windows.iter().enumerate() {
            assert!(set(&ranges.others[place % ranges.others.len()], F_WRLCK, window), "{window:?} is not locked");
        }
        for &window in windows {
            assert!(!set(&ranges.measured, F_WRLCK, window), "{window:?} is locked twice");
        }
        ranges
    }

    pub fn take_and_give_back(&self, window: Window) {
        assert!(set(&self.measured, F_WRLCK, window), "{window:?} is not locked");
        assert!(set(&self.measured, F_UNLCK, window), "{window:?} is not unlocked");
    }

    pub fn descriptions(&self) -> usize {
        self.others.len()
    }
}
