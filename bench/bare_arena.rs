//! An arena of 16-byte type records that is written as far as there is room, for the plain removal.

use crate::bare_validator::BARE;

const NO_ROOM: u64 = 11;

pub struct BareArena<'a> {
    bytes: &'a mut [u8],
    used: usize,
}

impl<'a> BareArena<'a> {
    pub fn new(bytes: &'a mut [u8]) -> Self {
        BareArena { bytes, used: 0 }
    }

    fn put(&mut self, at: usize, records: &[u8]) {
        if let Some(room) = self.bytes.get_mut(at..at + records.len()) {
            room.copy_from_slice(records);
        }
    }

    pub fn append(&mut self, records: &[u8]) {
        self.put(self.used, records);
        self.used += records.len();
    }

    /// Leaves room for a record, and says where.
    pub fn open(&mut self) -> usize {
        let at = self.used;
        self.used += BARE;
        at
    }

    /// Writes the record at a place that was left open; what was written since then stands inside it.
    pub fn close(&mut self, at: usize, kind: u8, key: u16, count: u64) {
        let span = ((self.used - at) / BARE) as u32;
        let mut record = [0; BARE];
        record[0] = kind;
        record[2..4].copy_from_slice(&key.to_le_bytes());
        record[4..8].copy_from_slice(&span.to_le_bytes());
        record[8..].copy_from_slice(&count.to_le_bytes());
        self.put(at, &record);
    }

    /// The number of records written, if all of them fit.
    pub fn records(&self) -> Result<usize, u64> {
        if self.used > self.bytes.len() {
            return Err(NO_ROOM);
        }
        Ok(self.used / BARE)
    }
}

/// Clears what a call leaves of its arena: all behind the type, and the whole after a refusal.
pub fn clear_bare_rest<E>(bytes: &mut [u8], records: &Result<usize, E>) {
    let used = records.as_ref().map_or(0, |n| BARE * n);
    bytes[used..].fill(0);
}
