//! Sheets to numbers and back as they are exported for C: each answers 0 or the refusal, and may change the target.

use crate::plain::numbers::{
    coordinator_to_numbers, numbers_to_coordinator, numbers_to_records, records_to_numbers,
};

#[derive(Clone, Copy, Debug, PartialEq, Eq)]
pub enum Conversion {
    ReadRecords,
    WriteRecords,
    ReadCoordinator,
    WriteCoordinator,
}

/// What a conversion is lent: one is read, the other is the target.
#[derive(Clone, Debug, PartialEq, Eq)]
pub struct Lent {
    pub sheet: Vec<u8>,
    pub numbers: Vec<u32>,
}

pub fn by_plain(conversion: Conversion, lent: &mut Lent) -> u32 {
    let Lent { sheet, numbers } = lent;
    match conversion {
        Conversion::ReadRecords => records_to_numbers(sheet, numbers),
        Conversion::WriteRecords => numbers_to_records(numbers, sheet),
        Conversion::ReadCoordinator => coordinator_to_numbers(sheet, numbers),
        Conversion::WriteCoordinator => numbers_to_coordinator(numbers, sheet),
    }
}
