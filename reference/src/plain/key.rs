//! The key of a record.

/// The five key fields in the order in which they are compared.
#[derive(Clone, Copy, Debug, PartialEq, Eq, PartialOrd, Ord)]
#[repr(C)]
pub struct Key {
    pub storage: u32,
    pub namespace: u32,
    pub table: u32,
    pub partition: u32,
    pub clustering: u32,
}

impl Key {
    pub fn from_numbers(n: [u32; 5]) -> Key {
        Key {
            storage: n[0],
            namespace: n[1],
            table: n[2],
            partition: n[3],
            clustering: n[4],
        }
    }

    pub fn numbers(&self) -> [u32; 5] {
        [
            self.storage,
            self.namespace,
            self.table,
            self.partition,
            self.clustering,
        ]
    }

    pub fn in_range(&self) -> bool {
        (1..=9).contains(&self.storage)
            && (1..=99).contains(&self.namespace)
            && (1..=99).contains(&self.table)
            && self.partition <= 99_999
            && self.clustering <= 99_999
    }
}
