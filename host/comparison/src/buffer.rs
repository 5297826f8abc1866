//! A lent buffer as both implementations get it: the same garbage, between the same guards; and
//! lengths of lent buffers.

use std::fmt::Display;

use crate::random::Random;

/// Entries kept on each side of a lent buffer, which no call may change.
pub const GUARD: usize = 8;

/// A lent buffer with its guards before the calls, after the reference and after the library.
pub struct Buffer<T> {
    before: Vec<T>,
    expected: Vec<T>,
    found: Vec<T>,
}

/// What each wrote.
pub struct Both<T> {
    pub reference: Vec<T>,
    pub library: Vec<T>,
}

impl<T: Clone + PartialEq + Display> Buffer<T> {
    /// A buffer of `len` entries of this garbage.
    pub fn new(len: usize, garbage: impl FnMut() -> T) -> Buffer<T> {
        let before: Vec<T> = std::iter::repeat_with(garbage)
            .take(GUARD + len + GUARD)
            .collect();
        Buffer {
            expected: before.clone(),
            found: before.clone(),
            before,
        }
    }

    /// The buffer that the reference is lent.
    pub fn expected(&mut self) -> &mut [T] {
        let end = self.expected.len() - GUARD;
        &mut self.expected[GUARD..end]
    }

    /// The buffer that the library is lent.
    pub fn found(&mut self) -> &mut [T] {
        let end = self.found.len() - GUARD;
        &mut self.found[GUARD..end]
    }

    /// The first `written` entries that the library wrote.
    pub fn into_written(self, written: usize) -> Vec<T> {
        self.into_both(written).library
    }

    /// The first `written` entries that each wrote.
    pub fn into_both(self, written: usize) -> Both<T> {
        let entries = GUARD..GUARD + written;
        Both {
            reference: self.expected[entries.clone()].to_vec(),
            library: self.found[entries].to_vec(),
        }
    }

    /// Whether both left the same, and all but the first `written` entries as they were.
    pub fn agrees(&self, written: usize) -> bool {
        let end = GUARD + written;
        self.found == self.expected
            && self.found[..GUARD] == self.before[..GUARD]
            && self.found[end..] == self.before[end..]
    }

    /// The first place that the two left different, or that a call changed past the first
    /// `written` entries; places count from the buffer's start.
    pub fn show(&self, written: usize) -> String {
        let len = self.before.len() - 2 * GUARD;
        for (i, found) in self.found.iter().enumerate() {
            let is_written = (GUARD..GUARD + written).contains(&i);
            let (before, expected) = (&self.before[i], &self.expected[i]);
            if found != expected || !is_written && found != before {
                let place = i as isize - GUARD as isize;
                return format!(
                    "{len} entries; place {place} was {before}, reference {expected}, library {found}"
                );
            }
        }
        format!("{len} entries; no difference")
    }
}

/// Lengths of a lent buffer: every one up to past the stated one where that is small, otherwise
/// some; longer ones, and one that is enough but not in its low 16 bits.
pub fn buffer_lengths(stated: usize) -> Vec<usize> {
    let mut lens: Vec<usize> = (0..stated + 3)
        .filter(|&len| stated <= 20 || len <= 3 || len.abs_diff(stated) <= 4)
        .collect();
    lens.extend([stated / 3, stated / 2, 2 * stated, stated + 64, 1 << 16]);
    lens
}

/// A number below `len`, often the next one; 0 has none below it.
pub fn shorter(random: &mut Random, len: usize) -> usize {
    let most = len.saturating_sub(1);
    let any = random.between(0, most.min(u16::MAX.into()) as u16).into();
    random.choose(&[most, any, 0])
}

#[cfg(test)]
mod tests {
    use super::*;

    fn buffer() -> Buffer<u8> {
        let mut entries = 10..;
        Buffer::new(3, move || entries.next().unwrap_or(0))
    }

    #[test]
    fn written_entries_agree_where_both_wrote_them() {
        let mut buffer = buffer();
        assert!(buffer.agrees(0));
        buffer.expected()[0] = 1;
        assert!(!buffer.agrees(1));
        buffer.found()[0] = 1;
        assert!(buffer.agrees(1));
        assert!(!buffer.agrees(0));
        assert_eq!(buffer.into_written(2), [1, 19]);
    }

    #[test]
    fn entries_past_the_written_ones_and_guards_stay() {
        let mut buffer = buffer();
        buffer.expected()[2] = 1;
        buffer.found()[2] = 1;
        assert!(!buffer.agrees(2));
        assert!(buffer.agrees(3));
        buffer.found[GUARD + 3] = 1;
        assert!(!buffer.agrees(3));
        assert_eq!(
            buffer.show(3),
            "3 entries; place 3 was 21, reference 21, library 1"
        );
    }
}
