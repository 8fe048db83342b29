//! What steps need of levels, by level. A job without needs has none of this, and pays for none: what
//! is about needs stays out of the functions that every job goes through.

use super::form::Form;
use super::points::{Grouped, Point};

pub struct Needs(Grouped<128>);

impl Needs {
    pub fn of(form: &Form) -> Option<Needs> {
        (!form.needs.is_empty()).then(|| Needs::gather(form))
    }

    #[cold]
    fn gather(form: &Form) -> Needs {
        let mut needs = Needs(Grouped::NONE);
        needs
            .0
            .gather::<2, _>(form.levels.len(), form.needs, |number, need| {
                form.point(number, need, 0)
            });
        needs
    }

    pub fn group(&self, level: usize) -> &[Point] {
        self.0.group(level)
    }
}
