//! What a call has written, told by the engine from its static archive.

use reference::make::Sheets;

extern "C" {
    fn rapyheo_written(
        records_before: *const u8,
        records_before_length: usize,
        records: *const u8,
        records_length: usize,
        coordinator_before: *const u8,
        coordinator_before_length: usize,
        coordinator: *const u8,
        coordinator_length: usize,
        lines: *mut u32,
        lines_length: usize,
    ) -> u32;
}

/// 0 nothing, 1 the coordinator sheet, 2 record lines, 3 both.
pub fn by_engine(before: &Sheets, after: &Sheets, lines: &mut [u32]) -> u32 {
    // SAFETY: the slices live as long as the call, which stays inside them and writes the lines told only.
    unsafe {
        rapyheo_written(
            before.records.as_ptr(),
            before.records.len(),
            after.records.as_ptr(),
            after.records.len(),
            before.coordinator.as_ptr(),
            before.coordinator.len(),
            after.coordinator.as_ptr(),
            after.coordinator.len(),
            lines.as_mut_ptr(),
            lines.len(),
        )
    }
}
