//! When the rounds end, for all threads alike; and the progress line.

use std::sync::Mutex;
use std::time::{Duration, Instant};

#[derive(Clone, Copy)]
pub enum Until {
    Rounds(u64),
    Seconds(u64),
}

pub struct Schedule {
    until: Until,
    started: Instant,
    progress: bool,
    state: Mutex<State>,
}

struct State {
    /// The last round that any thread has begun.
    begun: u64,
    samples: u64,
    said: Instant,
}

/// So far apart are the progress lines.
const APART: Duration = Duration::from_secs(5);

impl Schedule {
    pub fn new(until: Until, progress: bool) -> Schedule {
        let started = Instant::now();
        let state = State {
            begun: 0,
            samples: 0,
            said: started,
        };
        Schedule {
            until,
            started,
            progress,
            state: Mutex::new(state),
        }
    }

    /// Whether a thread begins this round; it has made so many samples since it asked last. Once the time is up, only rounds
    /// begin that another thread has begun: so all end with the same one.
    pub fn begins(&self, round: u64, samples: u64) -> bool {
        let mut state = self.state.lock().expect("no thread panics in here");
        state.samples += samples;
        let begins = match self.until {
            Until::Rounds(rounds) => round <= rounds,
            Until::Seconds(seconds) => {
                round <= state.begun || self.started.elapsed() < Duration::from_secs(seconds)
            }
        };
        if begins {
            state.begun = state.begun.max(round);
        }
        if self.progress && state.said.elapsed() > APART {
            state.said = Instant::now();
            self.say(&state);
        }
        begins
    }

    fn say(&self, state: &State) {
        let until = match self.until {
            Until::Rounds(rounds) => format!("{rounds} rounds"),
            Until::Seconds(seconds) => format!("{seconds} s"),
        };
        let (round, samples) = (state.begun, state.samples);
        let seconds = self.started.elapsed().as_secs();
        eprintln!("suite: round {round}, {samples} samples, {seconds} s, until {until}");
    }

    /// How many rounds every thread has run, once all have ended.
    pub fn rounds(&self) -> u64 {
        self.state.lock().expect("no thread panics in here").begun
    }

    pub fn seconds(&self) -> f64 {
        self.started.elapsed().as_secs_f64()
    }
}
