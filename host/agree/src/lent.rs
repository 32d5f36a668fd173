//! Buffers lent with guards around them: proved code is compiled without bounds checks, so a write outside would
//! change some other memory and go unseen.

use crate::compare::Difference;
use std::fmt::Debug;

const GUARDS: usize = 16;

pub struct Lent<T> {
    all: Vec<T>,
    guard: T,
}

impl<T: Copy + PartialEq + Debug> Lent<T> {
    pub fn new(contents: &[T], guard: T) -> Lent<T> {
        let mut all = vec![guard; GUARDS];
        all.extend_from_slice(contents);
        all.resize(contents.len() + 2 * GUARDS, guard);
        Lent { all, guard }
    }

    pub fn slice(&mut self) -> &mut [T] {
        let end = self.all.len() - GUARDS;
        &mut self.all[GUARDS..end]
    }

    pub fn contents(&self) -> &[T] {
        &self.all[GUARDS..self.all.len() - GUARDS]
    }

    /// The contents are these, and the guards stand.
    pub fn holds(&self, part: &str, theirs: &[T]) -> Result<(), Difference> {
        let end = self.all.len() - GUARDS;
        let guards = self.all[..GUARDS].iter().chain(&self.all[end..]);
        if guards.into_iter().any(|&g| g != self.guard) {
            return Err(Difference {
                part: format!("{part}: written outside"),
                ours: format!(
                    "{:x?} before, {:x?} after",
                    &self.all[..GUARDS],
                    &self.all[end..]
                ),
                theirs: format!("{:x?}", self.guard),
            });
        }
        let ours = self.contents();
        if ours == theirs {
            return Ok(());
        }
        let at = ours
            .iter()
            .zip(theirs)
            .position(|(a, b)| a != b)
            .unwrap_or(ours.len().min(theirs.len()));
        Err(Difference {
            part: format!("{part}: first different at {at} of {}", theirs.len()),
            ours: format!("{:x?}", &ours[at..ours.len().min(at + 16)]),
            theirs: format!("{:x?}", &theirs[at..theirs.len().min(at + 16)]),
        })
    }
}
