//! Memory lent to a converter. Guards on both sides show a write beside the lent part, and behind
//! them, or at once behind the lent part where it is not shifted, lies a page that nothing may
//! touch: a read there, too, ends the program.

use crate::pages::Pages;

const GUARDS: usize = 16;

/// Values lent for one call.
pub struct Lent<T> {
    pages: Pages,
    length: usize,
    guards_behind: usize,
    guard: T,
}

impl<T: Copy + PartialEq> Lent<T> {
    /// A copy of the values between guards: 16 before it, and behind it as many as the shift.
    pub fn new(values: &[T], shift: usize, guard: T) -> Lent<T> {
        let all = GUARDS + values.len() + shift;
        let mut lent = Lent {
            pages: Pages::new(all * size_of::<T>()),
            length: values.len(),
            guards_behind: shift,
            guard,
        };
        lent.memory().fill(guard);
        lent.part().copy_from_slice(values);
        lent
    }

    /// The part that is lent.
    pub fn part(&mut self) -> &mut [T] {
        let length = self.length;
        &mut self.memory()[GUARDS..GUARDS + length]
    }

    /// What the lent part holds.
    pub fn values(&self) -> &[T] {
        &self.held()[GUARDS..GUARDS + self.length]
    }

    /// Does the lent part still hold what was given, and do the guards hold?
    pub fn still_holds(&self, given: &[T]) -> bool {
        self.values() == given && self.guards_hold()
    }

    /// Are all guards unchanged?
    pub fn guards_hold(&self) -> bool {
        let (before, rest) = self.held().split_at(GUARDS);
        let behind = &rest[self.length..];
        before.iter().chain(behind).all(|it| *it == self.guard)
    }

    fn count(&self) -> usize {
        GUARDS + self.length + self.guards_behind
    }

    /// Lent part and guards.
    fn held(&self) -> &[T] {
        let start = self.pages.last(self.count() * size_of::<T>());
        // Safety: so many values lie there, all zero or written; a page's end is aligned for T.
        unsafe { std::slice::from_raw_parts(start.cast(), self.count()) }
    }

    fn memory(&mut self) -> &mut [T] {
        let start = self.pages.last(self.count() * size_of::<T>());
        // Safety: as above, and the pages are borrowed from this value alone.
        unsafe { std::slice::from_raw_parts_mut(start.cast(), self.count()) }
    }
}

#[cfg(test)]
mod tests {
    use super::{Lent, GUARDS};
    use std::os::unix::process::ExitStatusExt;
    use std::process::Command;

    const GIVEN: [u8; 3] = [1, 2, 3];
    const SEGMENTATION_FAULT: i32 = 11;

    #[test]
    fn a_write_to_the_lent_part_or_beside_it_is_seen() {
        let mut lent = Lent::new(&GIVEN, 5, 0xA5);
        assert!(lent.still_holds(&GIVEN));
        lent.part()[2] = 4;
        assert!(!lent.still_holds(&GIVEN) && lent.guards_hold());
        for beside in [GUARDS - 1, GUARDS + 3] {
            let mut lent = Lent::new(&GIVEN, 5, 0xA5);
            lent.memory()[beside] = 0;
            assert!(!lent.guards_hold());
        }
    }

    /// Runs itself in a process of its own that makes the read.
    #[test]
    fn a_read_past_the_lent_part_ends_the_program() {
        const MAKE_THE_READ: &str = "READ_PAST_THE_LENT_PART";
        let mut lent = Lent::new(&GIVEN, 0, 0xA5);
        if std::env::var_os(MAKE_THE_READ).is_some() {
            let end = lent.part().as_ptr_range().end;
            std::hint::black_box(unsafe { end.read_volatile() });
            return;
        }
        let own_name = "lent::tests::a_read_past_the_lent_part_ends_the_program";
        let own_program = std::env::current_exe().expect("the test program's path");
        let run = Command::new(own_program)
            .args(["--exact", own_name])
            .env(MAKE_THE_READ, "yes")
            .output();
        let status = run.expect("the test program runs").status;
        assert_eq!(status.signal(), Some(SEGMENTATION_FAULT), "{status}");
    }
}
