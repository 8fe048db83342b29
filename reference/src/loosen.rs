//! Loosening a job into a caller's buffer.

use crate::order_file::OrderFile;
use crate::orders::orders_of;
use crate::refusal::{number_and_place, refuse_if, Refusal};
use crate::timing::sound;
use crate::well_formed::well_formed;

/// What loosening returns; a refusal's length is 0.
#[derive(Clone, Copy, Debug, PartialEq, Eq)]
pub struct Loosened {
    pub number: u16,
    pub place: u16,
    pub length: usize,
}

/// Refusals 1 to 7, 17, 10 to 12, 21, 13 and 15. A refusal changes no byte, and bytes past the
/// file's end stay.
pub fn loosen(job: &[u8], buffer: &mut [u8]) -> Loosened {
    let written = loosen_into(job, buffer);
    let (number, place) = number_and_place(&written);
    let length = written.unwrap_or(0);
    Loosened {
        number,
        place,
        length,
    }
}

fn loosen_into(job: &[u8], buffer: &mut [u8]) -> Result<usize, Refusal> {
    let file = order_file_of(job)?.to_file();
    refuse_if(15, buffer.len() < file.len())?;
    buffer[..file.len()].copy_from_slice(&file);
    Ok(file.len())
}

/// The contents of the order file of a job, or what the job check refuses.
pub fn order_file_of(job: &[u8]) -> Result<OrderFile, Refusal> {
    let job = well_formed(job)?;
    sound(&job, &job.written_starts())?;
    Ok(orders_of(&job))
}
