//! The yardstick for speed: the job check and loosening, tuned, with the answers of this crate's
//! literal rules byte for byte.
//!
//! The points of a job are grouped by fact or level and sorted by tick within a group, so that one
//! walk along a fact meets everything in time order. All that is kept is on the stack.

mod clock;
mod form;
mod limits;
mod nearest;
mod needs;
mod points;
mod rounds;
mod sound;
mod ties;
mod write;

use crate::refusal::{number_and_place, refuse_if, Refusal, Verdict};
use clock::Clock;
use form::Form;
use limits::Limits;
use nearest::Nearest;
use needs::Needs;
use points::Points;
use sound::{Links, UNLINKED};

/// The number and place of the job check.
pub fn check(job: &[u8]) -> (u16, u16) {
    let mut links = UNLINKED;
    number_and_place(&check_into(job, &mut links))
}

fn check_into(job: &[u8], links: &mut Links) -> Verdict {
    let form = Form::read(job)?;
    let mut points = Points::NONE;
    points.gather(&form);
    let clock = Clock::of(&form, &points);
    let needs = Needs::of(&form);
    sound::link(&form, &points, clock.as_ref(), needs.as_ref(), links)?;
    Ok(())
}

/// The number, place and length of loosening. A refusal changes no byte of the buffer.
pub fn partialize(job: &[u8], out: &mut [u8]) -> (u16, u16, usize) {
    let written = partialize_into(job, out);
    let (number, place) = number_and_place(&written);
    (number, place, written.unwrap_or(0))
}

fn partialize_into(job: &[u8], out: &mut [u8]) -> Result<usize, Refusal> {
    let form = Form::read(job)?;
    let (mut points, mut links) = (Points::NONE, UNLINKED);
    points.gather(&form);
    let clock = Clock::of(&form, &points);
    let needs = Needs::of(&form);
    let tied = sound::link(&form, &points, clock.as_ref(), needs.as_ref(), &mut links)?;
    ties::settle(&tied, &points, &mut links);
    let mut nearest = Nearest::NONE;
    nearest.find(&form, &points, needs.as_ref(), &links);
    let length = write::length(&form, &nearest);
    refuse_if(15, out.len() < length)?;
    let limits = Limits::of(&form, &points, clock.as_ref(), &links);
    write::write(&form, &links, &nearest, &limits, &mut out[..length]);
    Ok(length)
}
