//! The engine's conversions of sheets to numbers and back, from its static archive. Answers are 0 or the refusal.

use reference::conversions::{Conversion, Lent};

extern "C" {
    fn rapyheo_read_records(
        records: *const u8,
        records_length: usize,
        numbers: *mut u32,
        numbers_length: usize,
    ) -> u32;
    fn rapyheo_write_records(
        numbers: *const u32,
        numbers_length: usize,
        records: *mut u8,
        records_length: usize,
    ) -> u32;
    fn rapyheo_read_coordinator(
        coordinator: *const u8,
        coordinator_length: usize,
        numbers: *mut u32,
        numbers_length: usize,
    ) -> u32;
    fn rapyheo_write_coordinator(
        numbers: *const u32,
        numbers_length: usize,
        coordinator: *mut u8,
        coordinator_length: usize,
    ) -> u32;
}

/// Converts and answers as it does.
pub fn by_engine(conversion: Conversion, lent: &mut Lent) -> u32 {
    let Lent { sheet, numbers } = lent;
    match conversion {
        Conversion::ReadRecords => read_records(sheet, numbers),
        Conversion::WriteRecords => write_records(numbers, sheet),
        Conversion::ReadCoordinator => read_coordinator(sheet, numbers),
        Conversion::WriteCoordinator => write_coordinator(numbers, sheet),
    }
}

fn read_records(records: &[u8], numbers: &mut [u32]) -> u32 {
    // SAFETY: both slices live as long as the call, which stays inside them and writes the numbers only.
    unsafe {
        rapyheo_read_records(
            records.as_ptr(),
            records.len(),
            numbers.as_mut_ptr(),
            numbers.len(),
        )
    }
}

fn write_records(numbers: &[u32], records: &mut [u8]) -> u32 {
    // SAFETY: both slices live as long as the call, which stays inside them and writes the sheet only.
    unsafe {
        rapyheo_write_records(
            numbers.as_ptr(),
            numbers.len(),
            records.as_mut_ptr(),
            records.len(),
        )
    }
}

fn read_coordinator(coordinator: &[u8], numbers: &mut [u32]) -> u32 {
    // SAFETY: both slices live as long as the call, which stays inside them and writes the numbers only.
    unsafe {
        rapyheo_read_coordinator(
            coordinator.as_ptr(),
            coordinator.len(),
            numbers.as_mut_ptr(),
            numbers.len(),
        )
    }
}

fn write_coordinator(numbers: &[u32], coordinator: &mut [u8]) -> u32 {
    // SAFETY: both slices live as long as the call, which stays inside them and writes the sheet only.
    unsafe {
        rapyheo_write_coordinator(
            numbers.as_ptr(),
            numbers.len(),
            coordinator.as_mut_ptr(),
            coordinator.len(),
        )
    }
}
