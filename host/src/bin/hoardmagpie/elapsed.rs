//! The time gone by, on a terminal: one line that is written over each second and wiped at the end. Elsewhere nothing.
use std::io::{self, IsTerminal, Write};
use std::sync::mpsc::{channel, Receiver, RecvTimeoutError, Sender};
use std::thread;
use std::time::{Duration, Instant};

/// Does the work, and shows how long it takes where a person looks on.
pub fn shown<T>(work: impl FnOnce() -> T) -> T {
    if io::stderr().is_terminal() {
        with_clock(Duration::from_secs(1), io::stderr(), work)
    } else {
        work()
    }
}

/// Does the work while another thread writes the time. The thread ends with the work, also when that panics.
fn with_clock<T>(every: Duration, out: impl Write + Send, work: impl FnOnce() -> T) -> T {
    let (working, rest) = channel();
    thread::scope(|scope| {
        // Without a second thread the work is done all the same.
        let _ = thread::Builder::new().spawn_scoped(scope, move || tick(every, rest, out));
        // Gone when the work is done.
        let _working: Sender<()> = working;
        work()
    })
}

/// Writes the time until the other end of the channel is gone. A terminal that takes no more is no reason to stop.
fn tick(every: Duration, rest: Receiver<()>, mut out: impl Write) {
    let (start, mut wide) = (Instant::now(), 0);
    while rest.recv_timeout(every) == Err(RecvTimeoutError::Timeout) {
        let line = format!("closing the scan: {} s", start.elapsed().as_secs());
        let _ = write!(out, "\r{line}").and_then(|()| out.flush());
        wide = line.len();
    }
    if wide > 0 {
        let _ = write!(out, "\r{:wide$}\r", "").and_then(|()| out.flush());
    }
}

#[cfg(test)]
mod tests {
    use super::*;
    use std::sync::Mutex;

    /// What a person would see.
    #[derive(Default)]
    struct Screen(Mutex<Vec<u8>>);

    impl Write for &Screen {
        fn write(&mut self, bytes: &[u8]) -> io::Result<usize> {
            self.0.lock().unwrap().extend(bytes);
            Ok(bytes.len())
        }
        fn flush(&mut self) -> io::Result<()> {
            Ok(())
        }
    }

    #[test]
    fn the_line_is_written_over_and_wiped() {
        let screen = Screen::default();
        let answer = with_clock(Duration::from_millis(1), &screen, || {
            while !screen.0.lock().unwrap().ends_with(b" s") {
                thread::yield_now();
            }
            7
        });
        assert_eq!(answer, 7);
        let text = String::from_utf8(screen.0.into_inner().unwrap()).unwrap();
        let parts: Vec<&str> = text.split('\r').collect();
        let ["", lines @ .., blank, ""] = &parts[..] else { panic!("{text:?}") };
        assert!(lines.iter().all(|l| l.starts_with("closing the scan: ") && l.ends_with(" s")), "{text:?}");
        assert_eq!(*blank, " ".repeat(lines.last().expect("the work has waited for a line").len()));
    }

    #[test]
    fn short_work_shows_nothing() {
        let mut out = Vec::new();
        with_clock(Duration::from_secs(60), &mut out, || ());
        assert!(out.is_empty());
    }

    #[test]
    fn work_that_panics_stops_the_clock() {
        let broken = || with_clock(Duration::from_secs(60), io::sink(), || panic!("on purpose"));
        assert!(std::panic::catch_unwind(broken).is_err());
    }
}
