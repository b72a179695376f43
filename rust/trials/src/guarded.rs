//! A lent buffer inside a larger one, whose rest tells whether a call kept to what it was lent.

/// A buffer with guards on both sides.
#[derive(Debug, Clone, PartialEq, Eq)]
pub struct Guarded<T> {
    room: Vec<T>,
    start: usize,
    length: usize,
}

impl<T: Copy + PartialEq> Guarded<T> {
    /// A buffer with these contents, and so many guards before and after it. Without any it is an
    /// allocation of its own, of just its length.
    pub fn new(contents: &[T], guard: T, [before, after]: [usize; 2]) -> Self {
        let length = contents.len();
        let mut room = vec![guard; before + length + after];
        room[before..][..length].copy_from_slice(contents);
        Guarded { room, start: before, length }
    }

    /// What is lent.
    pub fn lent(&self) -> &[T] {
        &self.room[self.start..][..self.length]
    }

    /// What is lent, to be changed.
    pub fn lent_mut(&mut self) -> &mut [T] {
        &mut self.room[self.start..][..self.length]
    }

    /// Whether the guards are those of the buffer before the call.
    pub fn kept_guards_of(&self, before: &Self) -> bool {
        let end = self.start + self.length;
        self.room[..self.start] == before.room[..self.start]
            && self.room[end..] == before.room[end..]
    }
}

#[cfg(test)]
mod tests {
    use super::*;

    #[test]
    fn a_guard_that_was_changed_is_seen() {
        let before = Guarded::new(&[1, 2, 3], 9, [2, 1]);
        assert_eq!(before.lent(), [1, 2, 3]);
        let mut after = before.clone();
        after.lent_mut()[2] = 4;
        assert!(after.kept_guards_of(&before) && after != before);
        for place in [0, 1, 5] {
            let mut after = before.clone();
            after.room[place] = 8;
            assert!(!after.kept_guards_of(&before));
        }
    }
}
