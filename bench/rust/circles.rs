//! The circles that are planned: four families for the times, and any for the comparison of
//! answers.

use crate::run::MEMBERS;

/// A circle as the plan call takes it.
#[derive(Clone)]
pub struct Circle {
    pub n: usize,
    pub weights: [u64; MEMBERS],
    pub permissions: [u64; MEMBERS],
}

/// Numbers that look random and are the same in every run (splitmix64).
pub struct Random(pub u64);

impl Random {
    pub fn number(&mut self) -> u64 {
        self.0 = self.0.wrapping_add(0x9e37_79b9_7f4a_7c15);
        let mut x = self.0;
        x = (x ^ x >> 30).wrapping_mul(0xbf58_476d_1ce4_e5b9);
        x = (x ^ x >> 27).wrapping_mul(0x94d0_49bb_1331_11eb);
        x ^ x >> 31
    }

    /// A number from low to high.
    pub fn between(&mut self, low: u64, high: u64) -> u64 {
        low + self.number() % (high - low + 1)
    }

    fn member(&mut self) -> usize {
        self.between(0, MEMBERS as u64 - 1) as usize
    }

    fn weights(&mut self, low: u64, high: u64) -> [u64; MEMBERS] {
        std::array::from_fn(|_| self.between(low, high))
    }
}

/// The least and the greatest weight of nine digits, and the least that two of are above the
/// greatest.
const LOW: u64 = 100_000_000;
const HALF: u64 = 500_000_000;
const HIGH: u64 = 999_999_999;

pub struct Family {
    pub name: &'static str,
    circle: fn(&mut Random) -> Circle,
}

impl Family {
    pub fn make(&self, random: &mut Random) -> Circle {
        (self.circle)(random)
    }
}

pub const FAMILIES: [Family; 4] = [
    Family {
        name: "open",
        circle: open,
    },
    Family {
        name: "six",
        circle: six,
    },
    Family {
        name: "ring",
        circle: ring,
    },
    Family {
        name: "star",
        circle: star,
    },
];

fn no_bars() -> [u64; MEMBERS] {
    std::array::from_fn(|giver| !(1 << giver))
}

/// No bars.
fn open(random: &mut Random) -> Circle {
    Circle {
        n: MEMBERS,
        weights: random.weights(LOW, HIGH),
        permissions: no_bars(),
    }
}

/// Each giver permits six others. A plan exists or not, as it comes.
fn six(random: &mut Random) -> Circle {
    let weights = random.weights(LOW, HIGH);
    let permissions = std::array::from_fn(|giver| {
        let mut word = 0u64;
        while word.count_ones() < 6 {
            word |= 1 << random.member();
            word &= !(1 << giver);
        }
        word
    });
    Circle {
        n: MEMBERS,
        weights,
        permissions,
    }
}

/// Each giver permits the next two members of the ring. No weight is above the sum of two others,
/// so that a plan exists. Its last steps go far round the ring.
fn ring(random: &mut Random) -> Circle {
    let weights = random.weights(HALF, HIGH);
    let permissions =
        std::array::from_fn(|giver| 1 << ((giver + 1) % MEMBERS) | 1 << ((giver + 2) % MEMBERS));
    Circle {
        n: MEMBERS,
        weights,
        permissions,
    }
}

/// No bars, and one member heavier than all others together, who blocks every plan.
fn star(random: &mut Random) -> Circle {
    let mut weights = random.weights(LOW, HIGH);
    let heavy = random.member();
    weights[heavy] = 0;
    weights[heavy] = weights.iter().sum::<u64>() + random.between(LOW, HIGH);
    Circle {
        n: MEMBERS,
        weights,
        permissions: no_bars(),
    }
}

/// A circle of any size, with few or many bars, and weights of a few units, of nine digits or of
/// any size.
pub fn any_circle(random: &mut Random) -> Circle {
    let n = random.between(1, MEMBERS as u64) as usize;
    let high = [1, 9, HIGH, 1_000_000_000_000_000_000][random.between(0, 3) as usize];
    let chance = random.between(0, 100);
    let mut circle = Circle {
        n,
        weights: random.weights(0, high),
        permissions: [0; MEMBERS],
    };
    for giver in 0..n {
        for receiver in (0..n).filter(|&receiver| receiver != giver) {
            if random.between(1, 100) <= chance {
                circle.permissions[giver] |= 1 << receiver;
            }
        }
    }
    // What stands beyond the last member is ignored, so it may be anything.
    for beyond in n..MEMBERS {
        circle.weights[beyond] = random.number();
        circle.permissions[beyond] = random.number();
    }
    circle
}
