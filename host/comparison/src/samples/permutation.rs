//! Permutations of a list's places: lists that have each of 1 to their length once.

use super::blocks::SIZES;
use crate::random::Random;

/// Every permutation of so many places.
pub fn every_permutation(size: u32) -> Vec<Vec<u16>> {
    let mut permutations = vec![Vec::new()];
    for entry in 1..=size as u16 {
        let with_entry = |shorter: Vec<u16>| {
            (0..=shorter.len()).map(move |place| {
                let mut longer = shorter.clone();
                longer.insert(place, entry);
                longer
            })
        };
        permutations = permutations.into_iter().flat_map(with_entry).collect();
    }
    permutations
}

/// Whether the list has each of 1 to its length once.
pub fn is_permutation(list: &[u16]) -> bool {
    let mut sorted = list.to_vec();
    sorted.sort_unstable();
    sorted == identity(list.len() as u32)
}

fn identity(size: u32) -> Vec<u16> {
    (1..=size as u16).collect()
}

/// A random permutation: of all places, of few of them, of pairs, or within stretches; each has
/// other loops of pairs.
pub fn random_permutation(random: &mut Random, size: u32) -> Vec<u16> {
    let mut list = identity(size);
    match random.between(1, 6) {
        1 => swap_few(random, &mut list),
        2 => return permutation_of_pairs(random, size),
        3 => {
            let stretch = random.choose(&SIZES).min(size) as usize;
            list.chunks_mut(stretch)
                .for_each(|stretch| random.shuffle(stretch));
        }
        4 => {
            list = permutation_of_pairs(random, size);
            swap_few(random, &mut list);
        }
        _ => random.shuffle(&mut list),
    }
    list
}

/// Exchanges a few places.
fn swap_few(random: &mut Random, list: &mut [u16]) {
    let last = list.len() as u16 - 1;
    for _ in 0..random.between(1, 4) {
        let places = [random.between(0, last), random.between(0, last)];
        list.swap(places[0].into(), places[1].into());
    }
}

/// Input pairs kept together: every loop has one input pair and one output pair.
fn permutation_of_pairs(random: &mut Random, size: u32) -> Vec<u16> {
    let mut pairs: Vec<Vec<u16>> = identity(size).chunks(2).map(<[u16]>::to_vec).collect();
    random.shuffle(&mut pairs);
    pairs.iter_mut().for_each(|pair| random.shuffle(pair));
    pairs.concat()
}

/// Permutations of a plain form: rotations, the identity first, reversal, swaps of neighbours, and
/// those that multiply places or exchange, move or turn their bits.
pub fn plain_permutations(size: u32) -> Vec<Vec<u16>> {
    let (half, bits) = (size / 2, size.ilog2());
    let list = |input: &dyn Fn(u32) -> u32| (0..size).map(|o| input(o) as u16 + 1).collect();
    let rotation = |k| list(&|o| (o + k) % size);
    let reversal = list(&|o| size - 1 - o);
    let odd_multiple = |k| list(&|o| (2 * k + 1) * o % size);
    let exchanged = |k| list(&|o| o ^ k);
    let interleaved = list(&|o| 2 * o % size + 2 * o / size);
    let parted = list(&|o| o / 2 + o % 2 * half);
    let turned = list(&|o| (0..bits).fold(0, |place, bit| place << 1 | o >> bit & 1));

    let mut lists: Vec<Vec<u16>> = (0..size).map(rotation).collect();
    lists.extend((0..half).map(odd_multiple));
    lists.extend((0..size).map(exchanged));
    lists.extend((0..size).map(|k| swapped_neighbours(size, k, 1)));
    lists.extend([0, 1].map(|k| swapped_neighbours(size, k, half)));
    lists.extend([reversal, interleaved, parted, turned]);
    lists
}

/// The identity with so many pairs of neighbours swapped, from place k on and round to the start.
fn swapped_neighbours(size: u32, k: u32, pairs: u32) -> Vec<u16> {
    let mut list = identity(size);
    let place = |o: u32| (o % size) as usize;
    for i in 0..pairs {
        list.swap(place(k + 2 * i), place(k + 2 * i + 1));
    }
    list
}

#[cfg(test)]
mod tests {
    use super::*;
    use std::collections::BTreeSet;

    #[test]
    fn every_permutation_is_there_once() {
        for (size, count) in [(1, 1), (2, 2), (3, 6), (4, 24), (8, 40_320)] {
            let lists = every_permutation(size);
            assert_eq!(lists.len(), count);
            assert!(lists.iter().all(|list| is_permutation(list)));
            assert_eq!(lists.iter().collect::<BTreeSet<_>>().len(), count);
        }
    }

    #[test]
    fn samples_are_permutations() {
        let mut random = Random::new(1);
        for size in SIZES {
            let plain = plain_permutations(size);
            assert!(plain.iter().all(|list| is_permutation(list)));
            for _ in 0..100 {
                let list = random_permutation(&mut random, size);
                assert!(is_permutation(&list));
            }
        }
    }
}
