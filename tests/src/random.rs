//! A small seeded source of numbers (splitmix64): the same seed gives the same numbers on every machine and in every
//! run.

/// The source; its whole state is one number.
pub struct Random {
    state: u64,
}

/// Mixes the bits of a number so that neighbouring numbers come out unlike each other.
fn mix(number: u64) -> u64 {
    let a = (number ^ (number >> 30)).wrapping_mul(0xbf58_476d_1ce4_e5b9);
    let b = (a ^ (a >> 27)).wrapping_mul(0x94d0_49bb_1331_11eb);
    b ^ (b >> 31)
}

impl Random {
    /// A source that is determined by all the given parts, in their order.
    pub fn from_parts(parts: &[u64]) -> Random {
        let mut state = 0x9e37_79b9_7f4a_7c15;
        for part in parts {
            state = mix(state ^ mix(part.wrapping_add(0x9e37_79b9_7f4a_7c15)));
        }
        Random { state }
    }

    /// A source beside this one, determined by where this one stands and by a label; this one stays where it stands.
    pub fn beside(&self, label: u64) -> Random {
        Random::from_parts(&[self.state, label])
    }

    /// The next 64 bits.
    pub fn number(&mut self) -> u64 {
        self.state = self.state.wrapping_add(0x9e37_79b9_7f4a_7c15);
        mix(self.state)
    }

    /// A number from 0 to `bound` - 1; 0 where `bound` is 0.
    pub fn below(&mut self, bound: usize) -> usize {
        ((u128::from(self.number()) * bound as u128) >> 64) as usize
    }

    /// A number from `low` to `high`, both included.
    pub fn between(&mut self, low: usize, high: usize) -> usize {
        low + self.below(high - low + 1)
    }

    /// True about once in `times`.
    pub fn once_in(&mut self, times: usize) -> bool {
        self.below(times) == 0
    }

    /// One of the given things, each equally often.
    pub fn pick<'a, T>(&mut self, things: &'a [T]) -> &'a T {
        &things[self.below(things.len())]
    }

    /// An octet.
    pub fn octet(&mut self) -> u8 {
        self.number() as u8
    }

    /// `count` octets.
    pub fn octets(&mut self, count: usize) -> Vec<u8> {
        let mut octets = Vec::with_capacity(count + 8);
        while octets.len() < count {
            octets.extend_from_slice(&self.number().to_be_bytes());
        }
        octets.truncate(count);
        octets
    }

    /// A place in `weights`, each as often as its weight says. At least one weight is above 0.
    pub fn weighted(&mut self, weights: &[usize]) -> usize {
        let mut rest = self.below(weights.iter().sum());
        for (place, weight) in weights.iter().enumerate() {
            if rest < *weight {
                return place;
            }
            rest -= weight;
        }
        unreachable!("the rest is below the sum of the weights")
    }
}

#[cfg(test)]
mod tests {
    use super::*;

    #[test]
    fn the_same_parts_give_the_same_numbers() {
        let (mut a, mut b) = (Random::from_parts(&[1, 2]), Random::from_parts(&[1, 2]));
        assert_eq!(a.octets(100), b.octets(100));
        assert_ne!(Random::from_parts(&[2, 1]).number(), Random::from_parts(&[1, 2]).number());
    }

    #[test]
    fn a_source_beside_another_leaves_it_alone() {
        let (mut a, mut b) = (Random::from_parts(&[1]), Random::from_parts(&[1]));
        let beside = a.beside(7).octets(20);
        assert_eq!((b.beside(7).octets(20), b.beside(8).octets(20) == beside), (beside.clone(), false));
        assert_eq!(a.octets(20), b.octets(20));
        assert_ne!(a.beside(7).octets(20), beside);
    }

    #[test]
    fn bounds_are_kept_and_reached() {
        let mut random = Random::from_parts(&[7]);
        let mut seen = [0usize; 5];
        for _ in 0..1000 {
            seen[random.below(5)] += 1;
            assert!((3..=4).contains(&random.between(3, 4)));
            assert_eq!(random.weighted(&[0, 1, 0]), 1);
        }
        assert!(seen.iter().all(|&times| times > 100));
        assert_eq!(random.below(0), 0);
    }
}
