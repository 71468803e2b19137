//! Says on standard error that long work goes on.

use std::{
    io::{self, IsTerminal, Write},
    sync::mpsc::{self, RecvTimeoutError, Sender},
    thread::{self, JoinHandle},
    time::{Duration, Instant},
};

/// How long work may take before a word is said, where somebody watches and where nobody does.
const WATCHED: Duration = Duration::from_millis(400);
const UNWATCHED: Duration = Duration::from_millis(1_500);

/// How long it takes until the next word.
const AGAIN: Duration = Duration::from_secs(5);

/// Work that is going on. A word is said after a while, and again, until this is dropped.
pub struct Progress {
    done: Option<Sender<()>>,
    teller: Option<JoinHandle<()>>,
}

impl Progress {
    /// Begins to watch work that these words describe.
    pub fn of(what: String) -> Self {
        let first = if io::stderr().is_terminal() { WATCHED } else { UNWATCHED };
        Self::saying(what, first, AGAIN, |line| {
            // Without anybody to tell there is nothing to be done about it.
            let _ = writeln!(io::stderr(), "{line}");
        })
    }

    fn saying(
        what: String,
        first: Duration,
        again: Duration,
        mut say: impl FnMut(String) + Send + 'static,
    ) -> Self {
        let (done, over) = mpsc::channel();
        let start = Instant::now();
        let teller = thread::spawn(move || {
            let mut wait = first;
            while over.recv_timeout(wait) == Err(RecvTimeoutError::Timeout) {
                let seconds = start.elapsed().as_secs_f64();
                say(format!("chunklist: {what} ({seconds:.1} s so far)"));
                wait = again;
            }
        });
        Self { done: Some(done), teller: Some(teller) }
    }
}

impl Drop for Progress {
    /// The last word has been said when this returns.
    fn drop(&mut self) {
        self.done.take();
        if let Some(teller) = self.teller.take() {
            let _ = teller.join();
        }
    }
}

#[cfg(test)]
mod tests {
    use std::{
        sync::mpsc,
        thread,
        time::{Duration, Instant},
    };

    use super::Progress;

    /// What is said while work takes so many milliseconds, with the first word after so many.
    fn said(work: u64, first: u64) -> Vec<String> {
        let (send, lines) = mpsc::channel();
        let say = move |line| send.send(line).expect("somebody listens");
        let (first, again) = (Duration::from_millis(first), Duration::from_millis(20));
        let progress = Progress::saying("making".into(), first, again, say);
        thread::sleep(Duration::from_millis(work));
        drop(progress);
        lines.iter().collect()
    }

    #[test]
    fn long_work_says_so_again_and_again() {
        let lines = said(300, 20);
        assert!(lines.len() >= 2, "{lines:?}");
        assert!(lines[0].starts_with("chunklist: making (0."), "{lines:?}");
    }

    #[test]
    fn short_work_says_nothing_and_is_not_held_up() {
        let start = Instant::now();
        assert_eq!(said(1, 60_000), Vec::<String>::new());
        assert!(start.elapsed() < Duration::from_secs(30));
    }
}
