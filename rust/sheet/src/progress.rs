//! How far it is, on a terminal; elsewhere nothing is shown.
use indicatif::{ProgressBar, ProgressStyle};
use std::time::Duration;

/// A line that is taken away when this is dropped.
pub struct Progress(ProgressBar);

impl Progress {
    fn new(bar: ProgressBar, what: &str, form: &str) -> Progress {
        if let Ok(style) = ProgressStyle::with_template(form) {
            bar.set_style(style);
        }
        bar.set_message(what.to_string());
        bar.enable_steady_tick(Duration::from_millis(200));
        Progress(bar)
    }

    /// Of so many things.
    pub fn counted(what: &str, count: usize) -> Progress {
        let bar = ProgressBar::new(count as u64);
        Progress::new(bar, what, "{msg} {wide_bar} {pos}/{len} {elapsed}")
    }

    /// Of what ends some time.
    pub fn open(what: &str) -> Progress {
        Progress::new(
            ProgressBar::new_spinner(),
            what,
            "{spinner} {msg} {elapsed}",
        )
    }

    pub fn step(&self) {
        self.0.inc(1);
    }

    /// Writes something else in between.
    pub fn aside(&self, work: impl FnOnce()) {
        self.0.suspend(work);
    }
}

impl Drop for Progress {
    fn drop(&mut self) {
        self.0.finish_and_clear();
    }
}
