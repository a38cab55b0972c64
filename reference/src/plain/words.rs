//! The words of a record line: its state, and what it was before it was prepared.

use super::field::is_word;

#[derive(Clone, Copy, Debug, PartialEq, Eq)]
pub enum State {
    Absent,
    Committed,
    Prepared,
}

/// What a line comes back to if it is rolled back.
#[derive(Clone, Copy, Debug, PartialEq, Eq)]
pub enum Before {
    /// The line isn't prepared.
    Nothing,
    Absent,
    Committed,
}

/// In the order of their numbers.
pub const STATES: [State; 3] = [State::Absent, State::Committed, State::Prepared];
pub const BEFORES: [Before; 3] = [Before::Nothing, Before::Absent, Before::Committed];

impl State {
    pub fn word(self) -> &'static str {
        match self {
            State::Absent => "ABSENT",
            State::Committed => "COMMITTED",
            State::Prepared => "PREPARED",
        }
    }

    /// The state whose word these columns hold.
    pub fn read(columns: &[u8]) -> Option<State> {
        let mut states = STATES.into_iter();
        states.find(|state| is_word(columns, state.word()))
    }
}

impl Before {
    pub fn word(self) -> &'static str {
        match self {
            Before::Nothing => "-",
            Before::Absent => "ABSENT",
            Before::Committed => "COMMITTED",
        }
    }

    /// The same of a before state.
    pub fn read(columns: &[u8]) -> Option<Before> {
        let mut befores = BEFORES.into_iter();
        befores.find(|before| is_word(columns, before.word()))
    }

    /// What a line of this state becomes the before state of. A prepared one isn't prepared again.
    pub fn of(state: State) -> Before {
        match state {
            State::Absent => Before::Absent,
            State::Committed => Before::Committed,
            State::Prepared => Before::Nothing,
        }
    }

    /// The state of a line that is rolled back.
    pub fn state(self) -> State {
        match self {
            Before::Absent => State::Absent,
            Before::Nothing | Before::Committed => State::Committed,
        }
    }
}
