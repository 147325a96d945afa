//! Seeded, repeatable random numbers (splitmix64).

pub struct Random {
    state: u64,
}

impl Random {
    pub fn new(seed: u64) -> Random {
        Random { state: seed }
    }

    pub fn number(&mut self) -> u64 {
        self.state = self.state.wrapping_add(0x9e37_79b9_7f4a_7c15);
        let mut mixed = self.state;
        mixed = (mixed ^ (mixed >> 30)).wrapping_mul(0xbf58_476d_1ce4_e5b9);
        mixed = (mixed ^ (mixed >> 27)).wrapping_mul(0x94d0_49bb_1331_11eb);
        mixed ^ (mixed >> 31)
    }

    /// 0 to `limit` - 1.
    pub fn below(&mut self, limit: usize) -> usize {
        (self.number() % limit as u64) as usize
    }

    /// `low` to `high`, both included.
    pub fn between(&mut self, low: u16, high: u16) -> u16 {
        low + self.below(usize::from(high - low) + 1) as u16
    }

    /// `low` to `high`, each of these two in about a quarter of the draws.
    pub fn often_extreme(&mut self, low: u16, high: u16) -> u16 {
        match self.below(4) {
            0 => low,
            1 => high,
            _ => self.between(low, high),
        }
    }

    /// Any number of 16 bits, small ones about as often as large ones.
    pub fn of_any_width(&mut self) -> u16 {
        (self.number() as u16) >> self.below(16)
    }

    pub fn one_in(&mut self, count: usize) -> bool {
        self.below(count) == 0
    }

    pub fn pick<'list, T>(&mut self, list: &'list [T]) -> &'list T {
        &list[self.below(list.len())]
    }

    pub fn bytes(&mut self, length: usize) -> Vec<u8> {
        (0..length).map(|_| self.number() as u8).collect()
    }
}

#[cfg(test)]
mod tests {
    use super::*;

    #[test]
    fn the_same_seed_gives_the_same_numbers() {
        let draw = |seed| Random::new(seed).bytes(16);
        assert_eq!(draw(7), draw(7));
        assert_ne!(draw(7), draw(8));
    }

    #[test]
    fn every_number_of_a_range_is_drawn() {
        let mut random = Random::new(1);
        let mut met = [false; 5];
        for _ in 0..1000 {
            met[usize::from(random.between(10, 14)) - 10] = true;
        }
        assert_eq!(met, [true; 5]);
    }
}
