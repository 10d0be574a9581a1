//! Seeded random numbers and sequences for comparisons and benchmarks. No rule
//! of the document is rendered here.

/// The same numbers for the same seed, wherever it runs.
pub struct Random(u64);

impl Random {
    /// A generator that starts at a seed.
    pub fn new(seed: u64) -> Random {
        Random(seed)
    }

    /// The next number: the seed steps by a fixed odd amount, and what is given
    /// is the step with its bits well mixed (the generator named splitmix64).
    pub fn number(&mut self) -> u64 {
        self.0 = self.0.wrapping_add(0x9E37_79B9_7F4A_7C15);
        let mixed = (self.0 ^ (self.0 >> 30)).wrapping_mul(0xBF58_476D_1CE4_E5B9);
        let mixed = (mixed ^ (mixed >> 27)).wrapping_mul(0x94D0_49BB_1331_11EB);
        mixed ^ (mixed >> 31)
    }

    /// A number below a bound that is not 0.
    pub fn below(&mut self, bound: usize) -> usize {
        (self.number() % bound as u64) as usize
    }

    /// A number from the least to the greatest, both included.
    pub fn between(&mut self, least: usize, greatest: usize) -> usize {
        least + self.below(greatest - least + 1)
    }

    /// True in so many cases of a thousand.
    pub fn chance(&mut self, in_a_thousand: usize) -> bool {
        self.below(1_000) < in_a_thousand
    }

    /// One of the choices, which are not none.
    pub fn one_of<T: Copy>(&mut self, choices: &[T]) -> T {
        choices[self.below(choices.len())]
    }

    /// So many letters of an alphabet.
    pub fn letters(&mut self, alphabet: &[u8], length: usize) -> Vec<u8> {
        (0..length).map(|_| self.one_of(alphabet)).collect()
    }

    /// A copy in which so many letters of a thousand differ: four in five are
    /// replaced, the others lost or joined by a new one.
    pub fn mutated(&mut self, parent: &[u8], in_a_thousand: usize) -> Vec<u8> {
        let mut child = Vec::with_capacity(parent.len() + parent.len() / 8);
        for &letter in parent {
            if self.chance(in_a_thousand) {
                self.mutate(letter, &mut child);
            } else {
                child.push(letter);
            }
        }
        child
    }

    fn mutate(&mut self, letter: u8, child: &mut Vec<u8>) {
        let other = self.one_of(b"ACGT");
        match self.below(10) {
            0 => {}
            1 => child.extend([letter, other]),
            _ if other == letter => self.mutate(letter, child),
            _ => child.push(other),
        }
    }

    /// The same items in another order.
    pub fn shuffle<T>(&mut self, items: &mut [T]) {
        for last in (1..items.len()).rev() {
            items.swap(last, self.below(last + 1));
        }
    }
}

#[cfg(test)]
mod tests {
    use super::*;

    #[test]
    fn one_seed_gives_one_sequence() {
        let letters = |seed| Random::new(seed).letters(b"ACGT", 40);
        assert_eq!(letters(7), letters(7));
        assert_ne!(letters(7), letters(8));
    }

    #[test]
    fn a_mutated_copy_differs_about_as_often_as_asked() {
        let mut random = Random::new(1);
        let parent = random.letters(b"ACGT", 10_000);
        assert_eq!(random.mutated(&parent, 0), parent);
        let child = random.mutated(&parent, 10);
        let same = parent
            .iter()
            .zip(&child)
            .take_while(|(one, other)| one == other);
        assert!((1..1_000).contains(&same.count()));
        assert!(child.len().abs_diff(parent.len()) < 50);
    }

    #[test]
    fn shuffling_keeps_the_items() {
        let mut items: Vec<u32> = (0..100).collect();
        Random::new(1).shuffle(&mut items);
        assert!(!items.is_sorted());
        items.sort_unstable();
        assert!(items.into_iter().eq(0..100));
    }
}
