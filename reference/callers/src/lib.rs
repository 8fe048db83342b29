//! The static library for Rust callers: slices in, an answer out.
//!
//! The functions are those of `include/jobs.h`, which says what each refuses. A refusal changes
//! no byte and no number that was lent.

use std::ops::RangeInclusive;

mod library {
    extern "C" {
        pub fn jobs_check(job: *const u8, len: usize) -> u64;
        pub fn jobs_check_schedule(
            job: *const u8,
            len: usize,
            starts: *const u32,
            count: usize,
        ) -> u64;
        pub fn jobs_pairs(job: *const u8, len: usize) -> u64;
        pub fn jobs_partialize(job: *const u8, len: usize, out: *mut u8, out_len: usize) -> u64;
        pub fn jobs_alike(a: *const u8, a_len: usize, b: *const u8, b_len: usize) -> u64;
        pub fn jobs_order_header(file: *const u8, len: usize, list: *mut u32, count: usize) -> u64;
        pub fn jobs_order_record(
            file: *const u8,
            len: usize,
            table: u32,
            number: u32,
            list: *mut u32,
            count: usize,
        ) -> u64;
        pub fn jobs_from_pddl(
            actions: *const u8,
            actions_len: usize,
            plan: *const u8,
            plan_len: usize,
            out: *mut u8,
            out_len: usize,
        ) -> u64;
    }
}

/// What the library returns: answer × 2^32 + number × 2^16 + place.
#[derive(Clone, Copy, Debug, PartialEq, Eq)]
pub struct Packed(pub u64);

#[derive(Clone, Copy, Debug, PartialEq, Eq)]
pub enum Answer {
    /// The length from loosening or of a job, how many pairs were compared, 1 for alike, else 0.
    Accepted(u32),
    /// The place is none where no record or line is named.
    Refused { number: u16, place: Option<u16> },
}

impl Packed {
    pub fn answer(self) -> Answer {
        match self.number() {
            0 => Answer::Accepted((self.0 >> 32) as u32),
            number => Answer::Refused {
                number,
                place: self.place(),
            },
        }
    }

    /// The record or line that a refusal names; accepted, the step of the pair that `pairs` found.
    pub fn place(self) -> Option<u16> {
        let place = self.0 as u16;
        (place != u16::MAX || NAMES_A_LINE.contains(&self.number())).then_some(place)
    }

    fn number(self) -> u16 {
        (self.0 >> 16) as u16
    }
}

/// Refusals of texts, whose place is a line: even 65,535 is one.
const NAMES_A_LINE: RangeInclusive<u16> = 18..=20;

// Every call below lends the library whole slices, for as long as the call lasts: a shared one to
// read, a mutable one to read and write. A slice's pointer is aligned and not null, empty or not.

/// Whether a job is sound.
pub fn check(job: &[u8]) -> Packed {
    Packed(unsafe { library::jobs_check(job.as_ptr(), job.len()) })
}

/// Whether a list of starts is a sound timing of a job.
pub fn check_schedule(job: &[u8], starts: &[u32]) -> Packed {
    Packed(unsafe {
        library::jobs_check_schedule(job.as_ptr(), job.len(), starts.as_ptr(), starts.len())
    })
}

/// Searches each step's effects, from step 0 up, for a pair that sets one fact both ways at one
/// tick. The answer is how many pairs were compared, up to and with the first found; its step is
/// the place, which is none where none is found and all were compared.
pub fn pairs(job: &[u8]) -> Packed {
    Packed(unsafe { library::jobs_pairs(job.as_ptr(), job.len()) })
}

/// Loosens a job into an order file at the front of the buffer; the answer is its length.
pub fn partialize(job: &[u8], out: &mut [u8]) -> Packed {
    Packed(unsafe {
        library::jobs_partialize(job.as_ptr(), job.len(), out.as_mut_ptr(), out.len())
    })
}

/// Whether two order files have equal steps, limits, latest starts and orders: 1 if so.
pub fn alike(a: &[u8], b: &[u8]) -> Packed {
    Packed(unsafe { library::jobs_alike(a.as_ptr(), a.len(), b.as_ptr(), b.len()) })
}

/// Puts the eight numbers of an order file's header into the list, as many as it takes.
pub fn order_header(file: &[u8], list: &mut [u32]) -> Packed {
    Packed(unsafe {
        library::jobs_order_header(file.as_ptr(), file.len(), list.as_mut_ptr(), list.len())
    })
}

/// Puts the numbers of one record into the list, as many as it takes: of table 0 a window, of 1
/// an order, of 2 a link.
pub fn order_record(file: &[u8], table: u32, number: u32, list: &mut [u32]) -> Packed {
    let (list, count) = (list.as_mut_ptr(), list.len());
    Packed(unsafe {
        library::jobs_order_record(file.as_ptr(), file.len(), table, number, list, count)
    })
}

/// Makes two PDDL texts, the actions and the plan, into a job of edition 1 at the front of the buffer;
/// the answer is its length. The thread needs `JOBS_TEXTS_STACK` bytes of stack, 1.5 MiB.
pub fn from_pddl(actions: &[u8], plan: &[u8], out: &mut [u8]) -> Packed {
    let (out, out_len) = (out.as_mut_ptr(), out.len());
    Packed(unsafe {
        library::jobs_from_pddl(
            actions.as_ptr(),
            actions.len(),
            plan.as_ptr(),
            plan.len(),
            out,
            out_len,
        )
    })
}
