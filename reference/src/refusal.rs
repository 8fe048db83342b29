//! Refusals: a number and a place.

/// The place where no record is named, and the place of an acceptance, unless the search for pairs
/// found one.
pub const NOWHERE: u16 = 65_535;

#[derive(Clone, Copy, Debug, PartialEq, Eq)]
pub struct Refusal {
    pub number: u16,
    pub place: u16,
}

pub type Verdict = Result<(), Refusal>;

impl Refusal {
    pub fn nowhere(number: u16) -> Refusal {
        Refusal {
            number,
            place: NOWHERE,
        }
    }

    pub fn at(number: u16, place: usize) -> Refusal {
        let place = u16::try_from(place).expect("places are at most 65,535");
        Refusal { number, place }
    }
}

/// Refuses with this number at the lowest record concerned, if there is one.
pub fn refuse_at(number: u16, lowest: Option<usize>) -> Verdict {
    match lowest {
        Some(place) => Err(Refusal::at(number, place)),
        None => Ok(()),
    }
}

/// Refuses with this number, naming no record, if the rule is broken.
pub fn refuse_if(number: u16, broken: bool) -> Verdict {
    if broken {
        Err(Refusal::nowhere(number))
    } else {
        Ok(())
    }
}

/// The number and place that an answer returns: 0 and 65,535 when accepted.
pub fn number_and_place<T>(answer: &Result<T, Refusal>) -> (u16, u16) {
    match answer {
        Ok(_) => (0, NOWHERE),
        Err(refusal) => (refusal.number, refusal.place),
    }
}
