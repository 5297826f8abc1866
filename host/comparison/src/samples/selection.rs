//! Sizes of S and lists of wanted inputs.

use super::blocks::SIZES;
use super::permutation::random_permutation;
use crate::random::Random;

/// Sizes at the limits, and ones whose network is full, has one place to spare or nearly half.
pub const CORNERS: [(u32, u32); 22] = [
    (1, 1),
    (1, 2),
    (2, 1),
    (2, 2),
    (3, 2),
    (2, 3),
    (4, 4),
    (5, 3),
    (7, 8),
    (8, 9),
    (16, 1),
    (31, 17),
    (64, 2),
    (33, 64),
    (100, 128),
    (255, 256),
    (257, 256),
    (256, 257),
    (3, 512),
    (1, 512),
    (512, 1),
    (512, 512),
];

/// Sizes beside those of networks.
pub fn beside_sizes() -> Vec<u32> {
    let most = SIZES[SIZES.len() - 1];
    let mut sizes: Vec<u32> = SIZES
        .into_iter()
        .flat_map(|size| [size - 1, size, size + 1])
        .filter(|size| (1..=most).contains(size))
        .collect();
    sizes.sort_unstable();
    sizes.dedup();
    sizes
}

/// Random sizes m, n whose networks have this size.
pub fn random_sizes(random: &mut Random, network_size: u32) -> (u32, u32) {
    let most = network_size as u16;
    let greater = random.between(most / 2 + 1, most);
    let greater = random.choose(&[greater, greater, most]).into();
    let other = random.between(1, most);
    let other = random.choose(&[1, other, other, other, most]).into();
    let other = u32::min(other, greater);
    random.choose(&[(greater, other), (other, greater)])
}

/// Every list of n wanted inputs out of m.
pub fn every_selection(m: u32, n: u32) -> impl Iterator<Item = Vec<u16>> {
    (0..m.pow(n)).map(move |list| {
        let entry = |place| (list / m.pow(place) % m) as u16 + 1;
        (0..n).map(entry).collect()
    })
}

/// A random list of n wanted inputs out of m: any, few different ones, each as seldom as can be,
/// in rising or falling order, or the same ones in a row.
pub fn random_wanted(random: &mut Random, m: u32, n: u32) -> Vec<u16> {
    let (m, n) = (m as u16, n as usize);
    let form = random.between(1, 8);
    let mut wanted: Vec<u16> = match form {
        1 => {
            let few = [0; 3].map(|_| random.between(1, m));
            (0..n).map(|_| random.choose(&few)).collect()
        }
        2 => vec![random.choose(&[1, m, m / 2 + 1]); n],
        3 => {
            let inputs = random_permutation(random, m.into());
            inputs.into_iter().cycle().take(n).collect()
        }
        4 => {
            let first = usize::from(random.between(0, m - 1));
            (1..=m).cycle().skip(first).take(n).collect()
        }
        _ => (0..n).map(|_| random.between(1, m)).collect(),
    };
    match form {
        5 => wanted.sort_unstable(),
        6 => wanted.sort_unstable_by(|first, second| second.cmp(first)),
        _ => {}
    }
    wanted
}

#[cfg(test)]
mod tests {
    use super::*;
    use std::collections::BTreeSet;

    #[test]
    fn every_selection_is_there_once() {
        for (m, n, count) in [(1, 3, 1), (2, 3, 8), (3, 2, 9), (4, 4, 256)] {
            let lists: Vec<Vec<u16>> = every_selection(m, n).collect();
            assert_eq!(lists.len(), count);
            assert_eq!(lists.iter().collect::<BTreeSet<_>>().len(), count);
            assert!(lists
                .iter()
                .flatten()
                .all(|&input| (1..=m as u16).contains(&input)));
        }
    }

    #[test]
    fn sizes_have_the_network_size() {
        let mut random = Random::new(1);
        for size in SIZES {
            for _ in 0..100 {
                let (m, n) = random_sizes(&mut random, size);
                assert_eq!(m.max(n).next_power_of_two(), size);
                let wanted = random_wanted(&mut random, m, n);
                assert_eq!(wanted.len(), n as usize);
                assert!(wanted.iter().all(|&input| (1..=m as u16).contains(&input)));
            }
        }
    }

    #[test]
    fn sizes_beside_networks_are_in_range() {
        let sizes = beside_sizes();
        assert_eq!(sizes[..5], [1, 2, 3, 4, 5]);
        assert_eq!(sizes[sizes.len() - 2..], [511, 512]);
    }
}
