//! What histories of clients with lists have come to.

use crate::replay::Layout;
use crate::sequential_model::SequentialModel;
use std::fmt;

#[derive(Default)]
pub struct Clients {
    pub histories: u64,
    pub on_two_sheets: u64,
    pub crashes: u64,
    /// Transactions with puts, and those of them that were committed.
    pub orders: u64,
    pub committed: u64,
}

impl Clients {
    /// Notes a history that has come to an end.
    pub fn note(&mut self, layout: Layout, model: &SequentialModel) {
        self.histories += 1;
        self.on_two_sheets += u64::from(layout == Layout::Two);
        for number in model.with_puts() {
            self.orders += 1;
            self.committed += u64::from(model.is_committed(number));
        }
    }
}

impl fmt::Display for Clients {
    fn fmt(&self, out: &mut fmt::Formatter) -> fmt::Result {
        let Clients {
            histories,
            on_two_sheets,
            crashes,
            orders,
            committed,
        } = self;
        write!(
            out,
            "{histories} histories of clients with lists, {on_two_sheets} on two sheets, {crashes} crashes, {orders} orders, of these {committed} committed"
        )
    }
}
