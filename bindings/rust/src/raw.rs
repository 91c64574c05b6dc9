//! The exported functions with slices for pointers and lengths: any equivalence number, and the answer as three numbers.

use crate::Refusal;

/// The refusal number, the place and the count. On acceptance number and place are 0, on a refusal the count is 0.
#[repr(C)]
#[derive(Clone, Copy, Debug, PartialEq, Eq)]
pub struct Answer {
    pub number: u64,
    pub place: u64,
    pub count: u64,
}

#[link(name = "ct", kind = "static")]
extern "C" {
    fn ct_judge_table(table: *const u8, length: usize) -> Answer;
    fn ct_infer(
        table: *const u8,
        table_length: usize,
        equivalence: u64,
        arena: *mut u8,
        arena_length: usize,
        work: *mut u8,
        work_length: usize,
    ) -> Answer;
    fn ct_infer_default(
        table: *const u8,
        table_length: usize,
        arena: *mut u8,
        arena_length: usize,
        work: *mut u8,
        work_length: usize,
    ) -> Answer;
    fn ct_judge_type(bytes: *const u8, length: usize, equivalence: u64) -> Answer;
    fn ct_merge(
        first: *const u8,
        first_length: usize,
        second: *const u8,
        second_length: usize,
        equivalence: u64,
        arena: *mut u8,
        arena_length: usize,
    ) -> Answer;
    fn ct_read_text(
        text: *const u8,
        text_length: usize,
        book: *const u8,
        book_length: usize,
        table: *mut u8,
        table_length: usize,
    ) -> Answer;
    fn ct_remove(
        whole: *const u8,
        whole_length: usize,
        part: *const u8,
        part_length: usize,
        equivalence: u64,
        arena: *mut u8,
        arena_length: usize,
    ) -> Answer;
    fn ct_infer_tag_bus(
        table: *const u8,
        table_length: usize,
        arena: *mut u8,
        arena_length: usize,
        work: *mut u8,
        work_length: usize,
        entries: *mut u8,
        entries_length: usize,
    ) -> Answer;
    fn ct_fold(
        bytes: *const u8,
        length: usize,
        arena: *mut u8,
        arena_length: usize,
        work: *mut u8,
        work_length: usize,
    ) -> Answer;
}

// The library asks for pointers that are not null, to bytes that nobody else writes during the call, and for an arena, a
// working buffer, entries and a table to fill that overlap nothing: slices borrowed for the call are that.

pub fn judge_table(table: &[u8]) -> Answer {
    unsafe { ct_judge_table(table.as_ptr(), table.len()) }
}

pub fn infer(table: &[u8], equivalence: u64, arena: &mut [u8], work: &mut [u8]) -> Answer {
    unsafe {
        ct_infer(
            table.as_ptr(),
            table.len(),
            equivalence,
            arena.as_mut_ptr(),
            arena.len(),
            work.as_mut_ptr(),
            work.len(),
        )
    }
}

pub fn infer_default(table: &[u8], arena: &mut [u8], work: &mut [u8]) -> Answer {
    unsafe {
        ct_infer_default(
            table.as_ptr(),
            table.len(),
            arena.as_mut_ptr(),
            arena.len(),
            work.as_mut_ptr(),
            work.len(),
        )
    }
}

pub fn judge_type(bytes: &[u8], equivalence: u64) -> Answer {
    unsafe { ct_judge_type(bytes.as_ptr(), bytes.len(), equivalence) }
}

pub fn merge(first: &[u8], second: &[u8], equivalence: u64, arena: &mut [u8]) -> Answer {
    unsafe {
        ct_merge(
            first.as_ptr(),
            first.len(),
            second.as_ptr(),
            second.len(),
            equivalence,
            arena.as_mut_ptr(),
            arena.len(),
        )
    }
}

pub fn read_text(text: &[u8], book: &[u8], table: &mut [u8]) -> Answer {
    unsafe {
        ct_read_text(
            text.as_ptr(),
            text.len(),
            book.as_ptr(),
            book.len(),
            table.as_mut_ptr(),
            table.len(),
        )
    }
}

pub fn remove(whole: &[u8], part: &[u8], equivalence: u64, arena: &mut [u8]) -> Answer {
    unsafe {
        ct_remove(
            whole.as_ptr(),
            whole.len(),
            part.as_ptr(),
            part.len(),
            equivalence,
            arena.as_mut_ptr(),
            arena.len(),
        )
    }
}

pub fn infer_tag_bus(
    table: &[u8],
    arena: &mut [u8],
    work: &mut [u8],
    entries: &mut [u8],
) -> Answer {
    unsafe {
        ct_infer_tag_bus(
            table.as_ptr(),
            table.len(),
            arena.as_mut_ptr(),
            arena.len(),
            work.as_mut_ptr(),
            work.len(),
            entries.as_mut_ptr(),
            entries.len(),
        )
    }
}

pub fn fold(bytes: &[u8], arena: &mut [u8], work: &mut [u8]) -> Answer {
    unsafe {
        ct_fold(
            bytes.as_ptr(),
            bytes.len(),
            arena.as_mut_ptr(),
            arena.len(),
            work.as_mut_ptr(),
            work.len(),
        )
    }
}

impl Answer {
    /// The count, or the refusal.
    pub fn result(self) -> Result<usize, Refusal> {
        let place = self.place as usize;
        Err(match self.number {
            0 => return Ok(self.count as usize),
            1 => Refusal::Length,
            2 => Refusal::Equivalence,
            3 => Refusal::Kind { place },
            4 => Refusal::Span { place },
            5 => Refusal::Key { place },
            6 => Refusal::Repeat { place },
            7 => Refusal::Depth { place },
            8 => Refusal::FirstType,
            9 => Refusal::SecondType,
            10 => Refusal::Total,
            11 => Refusal::Room,
            12 => Refusal::Grammar { place },
            13 => Refusal::Unlisted { place },
            14 => Refusal::Book,
            15 => Refusal::Fields { place },
            16 => Refusal::NotPart,
            17 => Refusal::Large { place },
            number => unreachable!("no call answers {number}"),
        })
    }

    /// The same of [`read_text`], which says where the table was full.
    pub fn result_of_text(self) -> Result<usize, Refusal> {
        match self.number {
            11 => Err(Refusal::Full {
                place: self.place as usize,
            }),
            _ => self.result(),
        }
    }
}
