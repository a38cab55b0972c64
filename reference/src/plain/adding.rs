//! Adding a line for a key, and removing one. The sheet stays as long as it is: a line that is added uses up the last spare, and
//! one that is removed leaves a spare below the others. No transaction takes part, and no decision is asked for.

use super::key::Key;
use super::rank::Rank;
use super::record::{Record, State};
use super::store::Store;
use super::{require, KEY_HAS_LINE, NOT_REMOVABLE, NO_SPARE};

/// Puts an ABSENT line of version 0 in key order, or refusal 5, 14 or 15.
pub fn add(store: &mut Store, key: Key) -> Result<(), u32> {
    let rank = Rank::among(&store.records, &key)?;
    require(!rank.present, KEY_HAS_LINE)?;
    require(store.spares() > 0, NO_SPARE)?;
    store.records.insert(rank.below, Record::absent(key));
    Ok(())
}

/// Takes the key's line away, or refusal 5, 6 or 16.
pub fn remove(store: &mut Store, key: Key) -> Result<(), u32> {
    let place = store.place_of(&key)?;
    require(is_removable(&store.records[place]), NOT_REMOVABLE)?;
    store.records.remove(place);
    Ok(())
}

/// Whether the line tells no more than no line does: nothing was ever committed under its key, and nothing is prepared.
fn is_removable(line: &Record) -> bool {
    line.state == State::Absent && line.image.version == 0
}
