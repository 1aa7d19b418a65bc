//! The memory that files take: all of it together stays within `--memory`.
//!
//! Requests for memory queue, so that small files do not overtake a large one for ever. Nobody waits while holding memory: whoever needs more
//! than is free gives back what is held, and asks for all of it at once.

use std::fs;
use std::sync::{Condvar, Mutex, MutexGuard};

struct State {
    limit: u64,
    used: u64,
    /// The number of the next request, and of the one whose turn it is.
    next: u64,
    turn: u64,
}

static STATE: Mutex<State> = Mutex::new(State { limit: u64::MAX, used: 0, next: 0, turn: 0 });
static FREED: Condvar = Condvar::new();

fn state() -> MutexGuard<'static, State> {
    STATE.lock().unwrap_or_else(|poisoned| poisoned.into_inner())
}

/// Sets the limit.
pub fn limit_to(bytes: u64) {
    state().limit = bytes;
}

/// The most that all files may take together.
pub fn limit() -> u64 {
    state().limit
}

/// Memory that was granted. It is given back when this is dropped.
#[derive(Default)]
pub struct Granted(u64);

impl Granted {
    /// Waits until so many bytes are free. It is an error if they never can be.
    pub fn wait_for(bytes: u64) -> Result<Granted, String> {
        let mut state = state();
        if bytes > state.limit {
            return Err(too_much(bytes, state.limit));
        }
        let number = state.next;
        state.next += 1;
        while state.turn != number || state.used + bytes > state.limit {
            state = FREED.wait(state).unwrap_or_else(|poisoned| poisoned.into_inner());
        }
        state.used += bytes;
        state.turn += 1;
        FREED.notify_all();
        Ok(Granted(bytes))
    }

    /// So many bytes, if they are free now.
    pub fn now(bytes: u64) -> Result<Granted, String> {
        let mut granted = Granted::default();
        match granted.grow_to(bytes) {
            true => Ok(granted),
            false => Err(too_much(bytes, limit())),
        }
    }

    /// Grows to so many bytes in all, if they are free now.
    pub fn grow_to(&mut self, bytes: u64) -> bool {
        let mut state = state();
        let more = bytes.saturating_sub(self.0);
        let fits = more <= state.limit.saturating_sub(state.used);
        if fits {
            state.used += more;
            self.0 += more;
        }
        fits
    }

    /// Gives back all but so many bytes.
    pub fn shrink_to(&mut self, bytes: u64) {
        drop(self.split(self.0.saturating_sub(bytes)));
    }

    /// Splits off so many bytes, or all if there are fewer.
    pub fn split(&mut self, bytes: u64) -> Granted {
        let taken = bytes.min(self.0);
        self.0 -= taken;
        Granted(taken)
    }
}

impl Drop for Granted {
    fn drop(&mut self) {
        if self.0 > 0 {
            state().used -= self.0;
            FREED.notify_all();
        }
    }
}

/// The message when there is not enough memory.
pub fn too_much(bytes: u64, limit: u64) -> String {
    format!("it needs {bytes} bytes of memory, but --memory allows {limit}; allow more, or use a larger machine")
}

/// A quarter of the machine's memory, or of the container's.
pub fn quarter() -> u64 {
    let whole = machine().into_iter().chain(container()).min();
    whole.map_or(1 << 30, |bytes| bytes / 4)
}

fn machine() -> Option<u64> {
    let text = fs::read_to_string("/proc/meminfo").ok()?;
    let line = text.lines().find_map(|line| line.strip_prefix("MemTotal:"))?;
    line.trim().strip_suffix("kB")?.trim().parse::<u64>().ok()?.checked_mul(1024)
}

fn container() -> Option<u64> {
    fs::read_to_string("/sys/fs/cgroup/memory.max").ok()?.trim().parse().ok()
}

/// The message for a wrong number of bytes.
const WRONG: &str = "expected a number of bytes, with or without K, M or G after it, such as 800M";

/// A number of bytes, such as 800M or 2G.
pub fn bytes(text: &str) -> Result<u64, &'static str> {
    let digits = text.trim_end_matches(|letter: char| letter.is_ascii_alphabetic());
    let factor: u64 = match text[digits.len()..].to_ascii_uppercase().as_str() {
        "" => 1,
        "K" => 1 << 10,
        "M" => 1 << 20,
        "G" => 1 << 30,
        _ => return Err(WRONG),
    };
    let number: Option<u64> = digits.parse().ok();
    number.and_then(|number| number.checked_mul(factor)).ok_or(WRONG)
}

#[cfg(test)]
mod tests {
    use super::*;

    #[test]
    fn numbers_of_bytes() {
        assert_eq!(
            ["17", "1K", "1k", "800M", "800m", "2G", "2g"].map(bytes),
            [17, 1 << 10, 1 << 10, 800 << 20, 800 << 20, 2 << 30, 2 << 30].map(Ok)
        );
        for wrong in ["", "-1", "many", "4T", "1.5G", "1GB", "99999999999999999999", "99999999999G"] {
            assert!(bytes(wrong).is_err(), "{wrong}");
        }
    }

    /// Memory is granted, given back in part, split, and given back at the end. There is one limit for all, so this is one test.
    #[test]
    fn grants() {
        limit_to(100);
        let mut one = Granted::now(60).unwrap();
        assert!(Granted::now(41).is_err() && Granted::wait_for(101).is_err());
        one.shrink_to(10);
        let mut other = Granted::wait_for(90).unwrap();
        assert!(!one.grow_to(11) && one.grow_to(5));
        let part = other.split(1000);
        drop(other);
        assert!(!one.grow_to(11));
        drop(part);
        assert!(one.grow_to(100));
        drop(one);
        assert_eq!(state().used, 0);
    }
}
