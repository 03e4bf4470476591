//! The contestants, each as a safe call on a circle.

use crate::circles::{Circle, Random};
use crate::run::{self, Answer, MEMBERS, PAIRS, Refusal};

/// The tables that a plan call fills.
#[derive(Clone, PartialEq, Eq)]
pub struct Tables {
    pub transfers: Vec<u64>,
    pub to_give: Vec<u64>,
    pub to_get: Vec<u64>,
}

impl Tables {
    /// Tables with any content.
    pub fn filled(random: &mut Random) -> Tables {
        let mut table = |length: usize| (0..length).map(|_| random.number()).collect();
        Tables {
            transfers: table(PAIRS),
            to_give: table(MEMBERS),
            to_get: table(MEMBERS),
        }
    }
}

pub struct Contestant {
    pub name: &'static str,
    pub call: Call,
}

/// A plan call takes the run's steps and fills the tables. A flow tells the greatest flow alone;
/// the sum of the weights must be below 2^63.
pub enum Call {
    Plan(fn(&Circle, &mut Tables) -> Result<Answer, Refusal>),
    Flow(fn(&Circle) -> i64),
}

impl Contestant {
    /// Whether the circle has a plan: what all contestants answer, and what is timed.
    pub fn has_plan(&self, circle: &Circle, tables: &mut Tables) -> bool {
        match self.call {
            Call::Plan(plan) => matches!(plan(circle, tables), Ok(Answer::Plan { .. })),
            Call::Flow(flow) => {
                flow(circle) == circle.weights[..circle.n].iter().sum::<u64>() as i64
            }
        }
    }
}

pub const CONTESTANTS: &[Contestant] = &[
    #[cfg(rattle)]
    Contestant {
        name: "Rattle",
        call: Call::Plan(proved::plan),
    },
    Contestant {
        name: "by hand",
        call: Call::Plan(by_hand::<false>),
    },
    Contestant {
        name: "shortcuts",
        call: Call::Plan(by_hand::<true>),
    },
    Contestant {
        name: "LEMON",
        call: Call::Flow(libraries::lemon),
    },
    Contestant {
        name: "Boost",
        call: Call::Flow(libraries::boost),
    },
];

pub fn by_hand<const SHORT: bool>(circle: &Circle, tables: &mut Tables) -> Result<Answer, Refusal> {
    run::plan::<SHORT>(
        circle.n,
        &circle.weights,
        &circle.permissions,
        &mut tables.transfers,
        &mut tables.to_give,
        &mut tables.to_get,
    )
}

pub mod libraries {
    use super::Circle;

    unsafe extern "C" {
        fn lemon_flow(n: usize, weights: *const u64, permissions: *const u64) -> i64;
        fn boost_flow(n: usize, weights: *const u64, permissions: *const u64) -> i64;
        /// Memory that is freed stays with the process, so that no graph pays for getting it anew.
        pub safe fn keep_memory();
    }

    pub fn lemon(circle: &Circle) -> i64 {
        // SAFETY: the call reads n numbers of each table, and n is at most 64.
        unsafe {
            lemon_flow(
                circle.n,
                circle.weights.as_ptr(),
                circle.permissions.as_ptr(),
            )
        }
    }

    pub fn boost(circle: &Circle) -> i64 {
        // SAFETY: the call reads n numbers of each table, and n is at most 64.
        unsafe {
            boost_flow(
                circle.n,
                circle.weights.as_ptr(),
                circle.permissions.as_ptr(),
            )
        }
    }
}

#[cfg(rattle)]
mod proved {
    use super::{Answer, Circle, Refusal, Tables};

    /// The answer in numbers, as the crate `plan_c` declares it. Nothing compares the two
    /// declarations, so they change together.
    #[repr(C)]
    struct Told {
        refusal: u64,
        kind: u64,
        steps: u64,
        members: u64,
    }

    // An amount of money lies in memory as a `u64`, and a slice is passed as a pointer and then a
    // length.
    unsafe extern "C" {
        fn plan_money(
            n: usize,
            weights: *const u64,
            weights_length: usize,
            permissions: *const u64,
            permissions_length: usize,
            transfers: *mut u64,
            transfers_length: usize,
            to_give: *mut u64,
            to_give_length: usize,
            to_get: *mut u64,
            to_get_length: usize,
        ) -> Told;
    }

    /// The proved plan call.
    pub fn plan(circle: &Circle, tables: &mut Tables) -> Result<Answer, Refusal> {
        // SAFETY: each pointer goes with its table's length, and no table that is written overlaps
        // another.
        let told = unsafe {
            plan_money(
                circle.n,
                circle.weights.as_ptr(),
                circle.weights.len(),
                circle.permissions.as_ptr(),
                circle.permissions.len(),
                tables.transfers.as_mut_ptr(),
                tables.transfers.len(),
                tables.to_give.as_mut_ptr(),
                tables.to_give.len(),
                tables.to_get.as_mut_ptr(),
                tables.to_get.len(),
            )
        };
        match (told.refusal, told.kind) {
            (0, 0) => Ok(Answer::Plan { steps: told.steps }),
            (0, 1) => Ok(Answer::Blocked {
                steps: told.steps,
                members: told.members,
            }),
            (9, _) => Err(Refusal::Length),
            (10, _) => Err(Refusal::MemberRange),
            (11, _) => Err(Refusal::PermissionWord),
            (12, _) => Err(Refusal::NotAnAmount),
            (refusal, kind) => {
                panic!("an answer that money never gets: refusal {refusal}, kind {kind}")
            }
        }
    }
}
