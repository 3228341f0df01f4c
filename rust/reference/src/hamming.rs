//! Hamming's single-error code for any number of protected places.

/// What a syndrome names.
#[derive(Clone, Copy, Debug, PartialEq, Eq)]
pub enum Named {
    /// No place: the syndrome is 0 or above the highest position.
    None,
    /// The Hamming bit with this number.
    Hamming(usize),
    /// The protected place with this number.
    Protected(usize),
}

/// The code over a number of protected places.
#[derive(Clone, Debug)]
pub struct Hamming {
    /// The position of each protected place.
    positions: Vec<usize>,
    /// For each Hamming bit k and each protected place, whether the place's
    /// position has bit k.
    covers: Vec<Vec<bool>>,
}

impl Hamming {
    /// The code for this many protected places.
    ///
    /// Protected place i has as its position the (i+1)th number from 3 up that
    /// isn't a power of two. There are as many Hamming bits as the highest
    /// position has binary digits.
    pub fn new(protected: usize) -> Hamming {
        let positions: Vec<usize> = (3usize..)
            .filter(|number| !number.is_power_of_two())
            .take(protected)
            .collect();
        let highest = positions.last().copied().unwrap_or(0);
        let mut checks = 0;
        while highest >> checks != 0 {
            checks += 1;
        }
        let covers = (0..checks)
            .map(|k| positions.iter().map(|p| (p >> k) & 1 == 1).collect())
            .collect();
        Hamming { positions, covers }
    }

    /// The positions of the protected places.
    pub fn positions(&self) -> &[usize] {
        &self.positions
    }

    /// How many Hamming bits there are.
    pub fn checks(&self) -> usize {
        self.covers.len()
    }

    /// The highest position of all.
    pub fn highest(&self) -> usize {
        self.positions.last().copied().unwrap_or(0)
    }

    /// The Hamming bits of a protected word: bit k is the parity of the places
    /// whose position has bit k.
    pub fn bits(&self, protected: &[bool]) -> Vec<bool> {
        let parity = |covers: &Vec<bool>| {
            let places = covers.iter().zip(protected);
            places.fold(false, |parity, (covered, set)| parity ^ (covered & set))
        };
        self.covers.iter().map(parity).collect()
    }

    /// The syndrome: the exclusive or of the positions of all set protected
    /// places and of 2^k for each set Hamming bit k.
    pub fn syndrome(&self, protected: &[bool], hamming: &[bool]) -> usize {
        let mut syndrome = 0;
        for (&position, &set) in self.positions.iter().zip(protected) {
            if set {
                syndrome ^= position;
            }
        }
        for (k, &set) in hamming.iter().take(self.checks()).enumerate() {
            if set {
                syndrome ^= 1 << k;
            }
        }
        syndrome
    }

    /// What a syndrome names.
    pub fn named(&self, syndrome: usize) -> Named {
        if syndrome == 0 || syndrome > self.highest() {
            Named::None
        } else if syndrome.is_power_of_two() {
            Named::Hamming(syndrome.trailing_zeros() as usize)
        } else {
            match self.positions.iter().position(|&p| p == syndrome) {
                Some(place) => Named::Protected(place),
                None => Named::None,
            }
        }
    }
}
