//! The engine's functions for C on a plain sheet, a bookkeeping sheet and a coordinator sheet.

use reference::make::TwoSheets;
use reference::plain::by_place::Asked;
use reference::plain::key::Key;
use reference::plain::transaction::Transaction;

extern "C" {
    fn rapyheo_two_check(
        plain: *const u8,
        plain_length: usize,
        book: *const u8,
        book_length: usize,
        coordinator: *const u8,
        coordinator_length: usize,
    ) -> u32;
    fn rapyheo_two_visit(
        plain: *mut u8,
        plain_length: usize,
        book: *mut u8,
        book_length: usize,
        coordinator: *mut u8,
        coordinator_length: usize,
        storage: u32,
        namespace: u32,
        table: u32,
        partition: u32,
        clustering: u32,
        clock: u32,
    ) -> u32;
    fn rapyheo_two_add(
        plain: *mut u8,
        plain_length: usize,
        book: *mut u8,
        book_length: usize,
        coordinator: *const u8,
        coordinator_length: usize,
        storage: u32,
        namespace: u32,
        table: u32,
        partition: u32,
        clustering: u32,
    ) -> u32;
    fn rapyheo_two_remove(
        plain: *mut u8,
        plain_length: usize,
        book: *mut u8,
        book_length: usize,
        coordinator: *const u8,
        coordinator_length: usize,
        storage: u32,
        namespace: u32,
        table: u32,
        partition: u32,
        clustering: u32,
    ) -> u32;
    fn rapyheo_two_lookup(
        plain: *const u8,
        plain_length: usize,
        book: *const u8,
        book_length: usize,
        storage: u32,
        namespace: u32,
        table: u32,
        partition: u32,
        clustering: u32,
    ) -> u32;
    fn rapyheo_two_call_at(
        list: *mut Transaction,
        list_length: usize,
        place: usize,
        plain: *mut u8,
        plain_length: usize,
        book: *mut u8,
        book_length: usize,
        coordinator: *mut u8,
        coordinator_length: usize,
        call: u32,
        storage: u32,
        namespace: u32,
        table: u32,
        partition: u32,
        clustering: u32,
        column1: u32,
        column2: u32,
        clock: u32,
        limit: u32,
    ) -> u64;
}

pub fn check(sheets: &TwoSheets) -> u32 {
    let (plain, book) = (&sheets.plain, &sheets.bookkeeping);
    // SAFETY: the slices live as long as the call, which reads no byte outside them and writes none.
    unsafe {
        rapyheo_two_check(
            plain.as_ptr(),
            plain.len(),
            book.as_ptr(),
            book.len(),
            sheets.coordinator.as_ptr(),
            sheets.coordinator.len(),
        )
    }
}

/// 0 stays, 1 forward, 2 back, 3 again.
pub fn visit(sheets: &mut TwoSheets, key: Key, clock: u32) -> u32 {
    let (plain, book) = (&mut sheets.plain, &mut sheets.bookkeeping);
    // SAFETY: the slices live as long as the call, which stays inside them.
    unsafe {
        rapyheo_two_visit(
            plain.as_mut_ptr(),
            plain.len(),
            book.as_mut_ptr(),
            book.len(),
            sheets.coordinator.as_mut_ptr(),
            sheets.coordinator.len(),
            key.storage,
            key.namespace,
            key.table,
            key.partition,
            key.clustering,
            clock,
        )
    }
}

/// 0, and the key has an ABSENT line; or the refusal.
pub fn add(sheets: &mut TwoSheets, key: Key) -> u32 {
    let (plain, book) = (&mut sheets.plain, &mut sheets.bookkeeping);
    // SAFETY: the slices live as long as the call, which stays inside them and writes no byte of the coordinator.
    unsafe {
        rapyheo_two_add(
            plain.as_mut_ptr(),
            plain.len(),
            book.as_mut_ptr(),
            book.len(),
            sheets.coordinator.as_ptr(),
            sheets.coordinator.len(),
            key.storage,
            key.namespace,
            key.table,
            key.partition,
            key.clustering,
        )
    }
}

/// 0, and the key has no line; or the refusal.
pub fn remove(sheets: &mut TwoSheets, key: Key) -> u32 {
    let (plain, book) = (&mut sheets.plain, &mut sheets.bookkeeping);
    // SAFETY: the slices live as long as the call, which stays inside them and writes no byte of the coordinator.
    unsafe {
        rapyheo_two_remove(
            plain.as_mut_ptr(),
            plain.len(),
            book.as_mut_ptr(),
            book.len(),
            sheets.coordinator.as_ptr(),
            sheets.coordinator.len(),
            key.storage,
            key.namespace,
            key.table,
            key.partition,
            key.clustering,
        )
    }
}

/// The place of the key's line on both sheets, from 0.
pub fn lookup(sheets: &TwoSheets, key: Key) -> u32 {
    let (plain, book) = (&sheets.plain, &sheets.bookkeeping);
    // SAFETY: both slices live as long as the call, which reads no byte outside them and writes none.
    unsafe {
        rapyheo_two_lookup(
            plain.as_ptr(),
            plain.len(),
            book.as_ptr(),
            book.len(),
            key.storage,
            key.namespace,
            key.table,
            key.partition,
            key.clustering,
        )
    }
}

/// As on the joined sheet, but for the first call of a read that takes two: 10000 and its columns.
pub fn call_at(
    list: &mut [Transaction],
    place: usize,
    sheets: &mut TwoSheets,
    asked: &Asked,
) -> u64 {
    let (plain, book) = (&mut sheets.plain, &mut sheets.bookkeeping);
    // SAFETY: the slices live as long as the call, which stays inside them. A transaction is numbers in the order of C,
    // and any numbers are one.
    unsafe {
        rapyheo_two_call_at(
            list.as_mut_ptr(),
            list.len(),
            place,
            plain.as_mut_ptr(),
            plain.len(),
            book.as_mut_ptr(),
            book.len(),
            sheets.coordinator.as_mut_ptr(),
            sheets.coordinator.len(),
            asked.call,
            asked.key.storage,
            asked.key.namespace,
            asked.key.table,
            asked.key.partition,
            asked.key.clustering,
            asked.columns[0],
            asked.columns[1],
            asked.now,
            asked.limit,
        )
    }
}
