//! Damaged plan files: a field or a byte set to another value, a file cut or longer, random bytes
//! behind a header.

use super::{Counts, Field, PlanFile};
use crate::random::Random;

impl PlanFile {
    /// The file with one field set to another value.
    pub fn with_field(&self, (at, field): (usize, Field), value: u16) -> PlanFile {
        let mut file = self.clone();
        let [low, high] = value.to_le_bytes();
        file.bytes[at] = low;
        if field.is_number() {
            file.bytes[at + 1] = high;
        }
        file
    }

    /// Every field set to each value at and beside its limits: field, value and the file.
    pub fn at_limits(&self) -> impl Iterator<Item = ((usize, Field), u16, PlanFile)> + '_ {
        self.fields.iter().flat_map(move |&field| {
            let values = field.1.limits().into_iter();
            values.map(move |value| (field, value, self.with_field(field, value)))
        })
    }

    /// The file cut at every byte.
    pub fn cuts(&self) -> impl Iterator<Item = &[u8]> {
        (0..self.bytes.len()).map(|end| &self.bytes[..end])
    }

    /// The file with so many random bytes behind its last output.
    pub fn with_tail(&self, random: &mut Random, extra: usize) -> Vec<u8> {
        [&self.bytes[..], &random.bytes(extra)].concat()
    }

    /// Every byte replaced by some values.
    pub fn changed_bytes<'a>(
        &'a self,
        random: &'a mut Random,
    ) -> impl Iterator<Item = Vec<u8>> + 'a {
        self.bytes.iter().enumerate().flat_map(move |(at, &byte)| {
            let flipped = byte ^ 1 << random.between(0, 7);
            let values = [byte.wrapping_add(1), flipped, random.byte()];
            values.map(|value| self.with_byte(at, value))
        })
    }

    /// Every byte replaced by every value.
    pub fn every_byte_value(&self) -> impl Iterator<Item = Vec<u8>> + '_ {
        let places = 0..self.bytes.len();
        places.flat_map(move |at| (0..=u8::MAX).map(move |value| self.with_byte(at, value)))
    }

    fn with_byte(&self, at: usize, value: u8) -> Vec<u8> {
        let mut bytes = self.bytes.clone();
        bytes[at] = value;
        bytes
    }
}

/// A header in range before random bytes, most of them so small that reading gets far.
pub fn random_body(random: &mut Random) -> Vec<u8> {
    let Counts(u, k, v) = Counts::random(random);
    let mut file = [u, k, v].map(u16::to_le_bytes).concat();
    let most = random.choose(&[0, 1, 2, 4, 7, 8, 255]);
    for _ in 0..random.between(0, 60) {
        let byte = random.between(0, most) as u8;
        file.push(random.choose(&[0, byte, byte]));
    }
    file
}
