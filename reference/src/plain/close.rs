//! Closing an order in one call. It is made of advances alone: what a step writes is seen by comparing the sheets' records
//! whole, so that nothing here knows the step table.

use super::calls::advance;
use super::coordinator::Decision;
use super::store::Store;
use super::transaction::*;
use super::{require, WRONG_PHASE};

/// An advance that was made on a copy of the records.
struct Step {
    store: Store,
    transaction: Transaction,
}

impl Step {
    fn tried(store: &Store, transaction: Transaction, now: u32) -> Result<Step, u32> {
        let mut store = store.clone();
        let transaction = advance(&mut store, transaction, now)?;
        Ok(Step { store, transaction })
    }

    /// Whether a line of any sheet is another than here, before the step.
    fn wrote(&self, store: &Store) -> bool {
        self.store.records != store.records || self.store.coordinator != store.coordinator
    }
}

/// Whether no step so far has found a decision. A number that is COMMITTED all the same was decided under another state.
fn is_before_finish(t: &Transaction) -> bool {
    matches!(t.phase, OPEN | PREPARE | CHECK | DECIDE | WITHDRAW)
}

/// Refuses as one advance would, and by the own line, before anything is written.
fn require_closing(store: &Store, t: &Transaction, now: u32) -> Result<(), u32> {
    Step::tried(store, *t, now)?;
    let is_committed = store.decision(t.number) == Decision::Committed;
    require(!is_committed || !is_before_finish(t), WRONG_PHASE)
}

/// Makes one advance after another until the transaction is done, all at this reading of the clock, and counts those that
/// wrote. A step that would write beyond the limit isn't made: the transaction is returned as it stands before it.
pub fn close(
    store: &mut Store,
    mut transaction: Transaction,
    now: u32,
    limit: u32,
) -> Result<(Transaction, u32), u32> {
    require_closing(store, &transaction, now)?;
    let mut writes = 0;
    while transaction.phase != DONE {
        let step = Step::tried(store, transaction, now);
        let step = step.expect("only the first step of a close is refused");
        if step.wrote(store) {
            if writes >= limit {
                break;
            }
            writes += 1;
        }
        *store = step.store;
        transaction = step.transaction;
    }
    Ok((transaction, writes))
}
