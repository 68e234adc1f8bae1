//! What is done at a moment.

use std::time::{Duration, Instant};

use redo_core::RunId;

use crate::client::ClientId;

/// What is done when its moment has come.
#[derive(Clone, Copy, Debug, PartialEq, Eq)]
pub enum Alarm {
    /// The server ends, since no client is there.
    Close,
    /// redodb-live is started again.
    Start,
    /// Clients are let in again.
    Listen,
    /// The connection of a client that closes is ended, whatever is unsent.
    Drop(ClientId),
    /// A program is told that it waits for its turn.
    Turn(ClientId),
    /// A run is told for which locks it has waited since the last time.
    Locks(RunId),
}

/// The alarms that are set, each once.
#[derive(Debug, Default)]
pub struct Timers(Vec<(Instant, Alarm)>);

impl Timers {
    /// Sets an alarm so long from now, in place of the one that was set.
    pub fn set(&mut self, alarm: Alarm, time: Duration) {
        self.drop(alarm);
        self.0.push((Instant::now() + time, alarm));
    }

    /// Calls an alarm off, if it is set.
    pub fn drop(&mut self, alarm: Alarm) {
        self.0.retain(|(_, other)| *other != alarm);
    }

    /// Returns the time to the first alarm. None if none is set.
    pub fn left(&self) -> Option<Duration> {
        let first = self.0.iter().map(|(moment, _)| *moment).min()?;
        Some(first.saturating_duration_since(Instant::now()))
    }

    /// Takes an alarm whose moment has come.
    pub fn take_due(&mut self) -> Option<Alarm> {
        if self.0.is_empty() {
            return None;
        }
        let now = Instant::now();
        let due = self.0.iter().position(|(moment, _)| *moment <= now)?;
        Some(self.0.remove(due).1)
    }
}

#[cfg(test)]
mod tests {
    use super::*;

    #[test]
    fn an_alarm_comes_once_when_its_moment_has_come() {
        let mut timers = Timers::default();
        assert_eq!((timers.left(), timers.take_due()), (None, None));
        timers.set(Alarm::Close, Duration::from_secs(100));
        timers.set(Alarm::Listen, Duration::ZERO);
        assert_eq!(timers.left(), Some(Duration::ZERO));
        assert_eq!(timers.take_due(), Some(Alarm::Listen));
        assert_eq!(timers.take_due(), None);
        assert!(timers.left() > Some(Duration::from_secs(99)));
    }

    #[test]
    fn an_alarm_that_is_set_again_has_another_moment() {
        let mut timers = Timers::default();
        timers.set(Alarm::Close, Duration::ZERO);
        timers.set(Alarm::Close, Duration::from_secs(100));
        assert_eq!(timers.take_due(), None);
        timers.drop(Alarm::Close);
        assert_eq!(timers.left(), None);
    }
}
