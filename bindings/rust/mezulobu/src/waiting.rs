//! How long a wait takes, in the milliseconds of the library's calls.
use mezulobu_sys::MEZULOBU_NO;
use std::os::raw::c_int;
use std::time::{Duration, Instant};

/// Waits by calls that wait for so many milliseconds each, until a status isn't `NO` or the time is over:
/// one call waits for 24 days at most. Without a time, or with one beyond the clock, it is one call
/// without an end.
pub(crate) fn waited(time: Option<Duration>, mut call: impl FnMut(c_int) -> c_int) -> c_int {
    match time.and_then(|it| Instant::now().checked_add(it)) {
        None => call(-1),
        Some(ends) => loop {
            let left = ends.saturating_duration_since(Instant::now());
            let status = call(milliseconds(left));
            if status != MEZULOBU_NO || Instant::now() >= ends {
                return status;
            }
        },
    }
}

/// Rounded up, and no more than one call waits for.
fn milliseconds(time: Duration) -> c_int {
    c_int::try_from(time.as_nanos().saturating_add(999_999) / 1_000_000).unwrap_or(c_int::MAX)
}

#[cfg(test)]
mod tests {
    use super::*;
    use mezulobu_sys::{MEZULOBU_DONE, MEZULOBU_PENDING};
    use std::thread;

    /// The status of a wait whose calls answer these, and the milliseconds of each call.
    fn asked(time: Option<Duration>, answers: &[c_int]) -> (c_int, Vec<c_int>) {
        let mut calls = Vec::new();
        let status = waited(time, |it| {
            calls.push(it);
            answers[calls.len() - 1]
        });
        (status, calls)
    }

    #[test]
    fn years_are_waited_for_in_parts() {
        let years = Some(Duration::from_secs(3 * 365 * 24 * 3600));
        let answers = [MEZULOBU_NO, MEZULOBU_NO, MEZULOBU_DONE];
        assert_eq!(asked(years, &answers), (MEZULOBU_DONE, vec![c_int::MAX; 3]));
    }

    #[test]
    fn what_has_no_end_is_one_call() {
        for time in [None, Some(Duration::MAX)] {
            assert_eq!(
                asked(time, &[MEZULOBU_PENDING]),
                (MEZULOBU_PENDING, vec![-1])
            );
        }
    }

    #[test]
    fn no_time_is_one_call() {
        assert_eq!(
            asked(Some(Duration::ZERO), &[MEZULOBU_NO]),
            (MEZULOBU_NO, vec![0])
        );
    }

    #[test]
    fn a_time_that_is_over_ends_the_wait() {
        let time = Duration::from_millis(20);
        let begun = Instant::now();
        let status = waited(Some(time), |it| {
            assert!((0..=20).contains(&it), "{it}");
            thread::sleep(Duration::from_millis(7));
            MEZULOBU_NO
        });
        assert_eq!(status, MEZULOBU_NO);
        assert!(begun.elapsed() >= time);
    }

    #[test]
    fn milliseconds_are_rounded_up() {
        for (time, wanted) in [
            (Duration::ZERO, 0),
            (Duration::from_nanos(1), 1),
            (Duration::from_micros(1000), 1),
            (Duration::from_micros(1001), 2),
            (Duration::from_millis(c_int::MAX as u64), c_int::MAX),
            (Duration::from_millis(c_int::MAX as u64 + 1), c_int::MAX),
            (Duration::from_millis(1 << 32), c_int::MAX),
        ] {
            assert_eq!(milliseconds(time), wanted, "{time:?}");
        }
    }
}
