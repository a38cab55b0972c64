//! Where a key stands, told by the engine from its static archive.

use reference::make::{Sheets, TwoSheets};
use reference::plain::key::Key;
use reference::replay::laid_out::LaidOut;

extern "C" {
    fn rapyheo_rank(
        records: *const u8,
        records_length: usize,
        storage: u32,
        namespace: u32,
        table: u32,
        partition: u32,
        clustering: u32,
        rank: *mut u32,
        rank_length: usize,
    ) -> u32;
    fn rapyheo_two_rank(
        plain: *const u8,
        plain_length: usize,
        book: *const u8,
        book_length: usize,
        storage: u32,
        namespace: u32,
        table: u32,
        partition: u32,
        clustering: u32,
        rank: *mut u32,
        rank_length: usize,
    ) -> u32;
}

/// 0, and the target has how many lines have smaller keys, and 1 for a key that has a line, else 0.
pub fn by_engine(sheets: &LaidOut, key: Key, target: &mut [u32]) -> u32 {
    match sheets {
        LaidOut::Joined(sheets) => on_joined(sheets, key, target),
        LaidOut::Two(sheets) => on_two(sheets, key, target),
    }
}

fn on_joined(sheets: &Sheets, key: Key, target: &mut [u32]) -> u32 {
    // SAFETY: the slices live as long as the call, which stays inside them and writes the target only.
    unsafe {
        rapyheo_rank(
            sheets.records.as_ptr(),
            sheets.records.len(),
            key.storage,
            key.namespace,
            key.table,
            key.partition,
            key.clustering,
            target.as_mut_ptr(),
            target.len(),
        )
    }
}

fn on_two(sheets: &TwoSheets, key: Key, target: &mut [u32]) -> u32 {
    // SAFETY: the slices live as long as the call, which stays inside them and writes the target only.
    unsafe {
        rapyheo_two_rank(
            sheets.plain.as_ptr(),
            sheets.plain.len(),
            sheets.bookkeeping.as_ptr(),
            sheets.bookkeeping.len(),
            key.storage,
            key.namespace,
            key.table,
            key.partition,
            key.clustering,
            target.as_mut_ptr(),
            target.len(),
        )
    }
}
