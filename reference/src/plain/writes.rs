//! What a write makes of a line, and when a prepared line has expired.

use super::record::{Before, Image, Record, State, NOTHING};

/// Ticks after which a prepared line has expired, and the last at which it counts so: beyond, the clock has gone back.
pub const EXPIRED: std::ops::RangeInclusive<u32> = 15_000..=2_147_483_647;

impl Image {
    /// What a put of these columns under this number makes of the image.
    fn after_put(&self, number: u32, columns: [u32; 2]) -> Image {
        Image {
            version: self.version + 1,
            tx_id: number,
            column_1: columns[0],
            column_2: columns[1],
        }
    }
}

impl Record {
    /// The line in a state that isn't prepared, with this image.
    fn settled(self, state: State, image: Image) -> Record {
        Record {
            state,
            image,
            before_state: Before::Nothing,
            before: NOTHING,
            prepare_clock: 0,
            ..self
        }
    }

    /// The line with a put committed at once.
    pub fn committed(self, number: u32, columns: [u32; 2]) -> Record {
        self.settled(State::Committed, self.image.after_put(number, columns))
    }

    /// The line with a put prepared. What the line holds, and not what was read, becomes the before image.
    pub fn prepared(self, number: u32, columns: [u32; 2], now: u32) -> Record {
        Record {
            state: State::Prepared,
            image: self.image.after_put(number, columns),
            before_state: Before::of(self.state),
            before: self.image,
            prepare_clock: now,
            ..self
        }
    }

    /// A prepared line rolled forward.
    pub fn forward(self) -> Record {
        self.settled(State::Committed, self.image)
    }

    /// A prepared line rolled back: its before image in its before state.
    pub fn back(self) -> Record {
        self.settled(self.before_state.state(), self.before)
    }

    pub fn is_prepared_by(&self, number: u32) -> bool {
        self.state == State::Prepared && self.image.tx_id == number
    }

    /// Whether a prepared line has expired at this reading of the clock. Whether its number has is another question.
    pub fn has_expired(&self, now: u32) -> bool {
        EXPIRED.contains(&now.wrapping_sub(self.prepare_clock))
    }
}
