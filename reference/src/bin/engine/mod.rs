//! The engine's functions for C, from its static archive. Beside `two`, `conversions`, `rank` and `written` the only calls in
//! this folder that the compiler can't vouch for.
//!
//! A slice is lent as its first element and its length. Answers are 0 or the refusal from check, add and remove, and from
//! the others what an accepted call gives or 1000 and the refusal.

pub mod calls;
mod two;

use reference::plain::by_place::Asked;
use reference::plain::key::Key;
use reference::plain::transaction::Transaction;

extern "C" {
    fn rapyheo_check(
        records: *const u8,
        records_length: usize,
        coordinator: *const u8,
        coordinator_length: usize,
    ) -> u32;
    fn rapyheo_begin(
        records: *const u8,
        records_length: usize,
        coordinator: *mut u8,
        coordinator_length: usize,
    ) -> u32;
    fn rapyheo_visit(
        records: *mut u8,
        records_length: usize,
        coordinator: *mut u8,
        coordinator_length: usize,
        storage: u32,
        namespace: u32,
        table: u32,
        partition: u32,
        clustering: u32,
        clock: u32,
    ) -> u32;
    fn rapyheo_add(
        records: *mut u8,
        records_length: usize,
        coordinator: *const u8,
        coordinator_length: usize,
        storage: u32,
        namespace: u32,
        table: u32,
        partition: u32,
        clustering: u32,
    ) -> u32;
    fn rapyheo_remove(
        records: *mut u8,
        records_length: usize,
        coordinator: *const u8,
        coordinator_length: usize,
        storage: u32,
        namespace: u32,
        table: u32,
        partition: u32,
        clustering: u32,
    ) -> u32;
    fn rapyheo_call_at(
        list: *mut Transaction,
        list_length: usize,
        place: usize,
        records: *mut u8,
        records_length: usize,
        coordinator: *mut u8,
        coordinator_length: usize,
        call: u32,
        storage: u32,
        namespace: u32,
        table: u32,
        partition: u32,
        clustering: u32,
        column1: u32,
        column2: u32,
        clock: u32,
        limit: u32,
    ) -> u32;
    fn rapyheo_lookup(
        records: *const u8,
        records_length: usize,
        storage: u32,
        namespace: u32,
        table: u32,
        partition: u32,
        clustering: u32,
    ) -> u32;
    fn rapyheo_version() -> u32;
}

fn check(records: &[u8], coordinator: &[u8]) -> u32 {
    // SAFETY: both slices live as long as the call, which reads no byte outside them and writes none.
    unsafe {
        rapyheo_check(
            records.as_ptr(),
            records.len(),
            coordinator.as_ptr(),
            coordinator.len(),
        )
    }
}

/// The number given to a transaction that isn't checked.
fn begin(records: &[u8], coordinator: &mut [u8]) -> u32 {
    // SAFETY: both slices live as long as the call, which stays inside them and writes the coordinator only.
    unsafe {
        rapyheo_begin(
            records.as_ptr(),
            records.len(),
            coordinator.as_mut_ptr(),
            coordinator.len(),
        )
    }
}

/// 0 stays, 1 forward, 2 back, 3 again.
fn visit(records: &mut [u8], coordinator: &mut [u8], key: Key, clock: u32) -> u32 {
    // SAFETY: both slices live as long as the call, which stays inside them.
    unsafe {
        rapyheo_visit(
            records.as_mut_ptr(),
            records.len(),
            coordinator.as_mut_ptr(),
            coordinator.len(),
            key.storage,
            key.namespace,
            key.table,
            key.partition,
            key.clustering,
            clock,
        )
    }
}

/// 0, and the key has an ABSENT line; or the refusal.
fn add(records: &mut [u8], coordinator: &[u8], key: Key) -> u32 {
    // SAFETY: both slices live as long as the call, which stays inside them and writes the records only.
    unsafe {
        rapyheo_add(
            records.as_mut_ptr(),
            records.len(),
            coordinator.as_ptr(),
            coordinator.len(),
            key.storage,
            key.namespace,
            key.table,
            key.partition,
            key.clustering,
        )
    }
}

/// 0, and the key has no line; or the refusal.
fn remove(records: &mut [u8], coordinator: &[u8], key: Key) -> u32 {
    // SAFETY: both slices live as long as the call, which stays inside them and writes the records only.
    unsafe {
        rapyheo_remove(
            records.as_mut_ptr(),
            records.len(),
            coordinator.as_ptr(),
            coordinator.len(),
            key.storage,
            key.namespace,
            key.table,
            key.partition,
            key.clustering,
        )
    }
}

/// What a read at this place of the list came to, how many writes a close made, else 0.
fn call_at(
    list: &mut [Transaction],
    place: usize,
    records: &mut [u8],
    coordinator: &mut [u8],
    asked: &Asked,
) -> u32 {
    // SAFETY: the slices live as long as the call, which stays inside them. A transaction is numbers in the order of C,
    // and any numbers are one.
    unsafe {
        rapyheo_call_at(
            list.as_mut_ptr(),
            list.len(),
            place,
            records.as_mut_ptr(),
            records.len(),
            coordinator.as_mut_ptr(),
            coordinator.len(),
            asked.call,
            asked.key.storage,
            asked.key.namespace,
            asked.key.table,
            asked.key.partition,
            asked.key.clustering,
            asked.columns[0],
            asked.columns[1],
            asked.now,
            asked.limit,
        )
    }
}

/// The place of the key's line, from 0.
fn lookup(records: &[u8], key: Key) -> u32 {
    // SAFETY: the slice lives as long as the call, which reads no byte outside it and writes none.
    unsafe {
        rapyheo_lookup(
            records.as_ptr(),
            records.len(),
            key.storage,
            key.namespace,
            key.table,
            key.partition,
            key.clustering,
        )
    }
}

fn version() -> u32 {
    // SAFETY: nothing is lent.
    unsafe { rapyheo_version() }
}
