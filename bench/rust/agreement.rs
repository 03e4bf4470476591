//! Sees that the contestants agree, before anything is timed.

use crate::circles::{Circle, FAMILIES, Random};
use crate::contestants::{CONTESTANTS, Call, Tables, by_hand};
use crate::run::{Answer, MEMBERS, PAIRS, Refusal};

/// Sees that all contestants agree on a circle: plan calls on the answer and on every number of the
/// tables, flows on how much is given. Both tables come with any content.
pub fn on_circle(circle: &Circle, tables: &mut Tables, others: &mut Tables) -> Answer {
    let answer = by_hand::<false>(circle, tables).expect("the circle is not refused");
    assert!(
        stands(circle, tables, answer),
        "the answer by hand does not stand"
    );
    let total: u128 = circle.weights[..circle.n]
        .iter()
        .map(|&weight| u128::from(weight))
        .sum();
    let left: u128 = tables
        .to_give
        .iter()
        .map(|&amount| u128::from(amount))
        .sum();
    for contestant in CONTESTANTS {
        match contestant.call {
            Call::Plan(plan) => {
                assert_eq!(
                    plan(circle, others),
                    Ok(answer),
                    "{} answers otherwise",
                    contestant.name
                );
                assert!(
                    others == tables,
                    "{} fills the tables otherwise",
                    contestant.name
                );
            }
            Call::Flow(flow) if total < 1 << 63 => {
                assert_eq!(
                    flow(circle) as u128,
                    total - left,
                    "{} has another flow",
                    contestant.name
                );
                assert_eq!(
                    contestant.has_plan(circle, others),
                    matches!(answer, Answer::Plan { .. })
                );
            }
            Call::Flow(_) => {}
        }
    }
    answer
}

/// Whether the tables bear out the answer: they are a fair plan, or the members named weigh more
/// than all who may receive from any of them.
fn stands(circle: &Circle, tables: &Tables, answer: Answer) -> bool {
    let members = 0..circle.n;
    let has = |set: u64, member: usize| set >> member & 1 == 1;
    match answer {
        Answer::Plan { .. } => {
            let transfer = |giver: usize, receiver: usize| {
                u128::from(tables.transfers[MEMBERS * giver + receiver])
            };
            let permitted = |giver: usize, receiver: usize| {
                giver < circle.n && has(circle.permissions[giver], receiver)
            };
            let only_permitted = (0..PAIRS).all(|place| {
                tables.transfers[place] == 0 || permitted(place / MEMBERS, place % MEMBERS)
            });
            only_permitted
                && members.clone().all(|member| {
                    let weight = u128::from(circle.weights[member]);
                    let given: u128 = members
                        .clone()
                        .map(|receiver| transfer(member, receiver))
                        .sum();
                    let got: u128 = members.clone().map(|giver| transfer(giver, member)).sum();
                    given == weight && got == weight
                })
        }
        Answer::Blocked { members: set, .. } => {
            let weight = |set: u64| -> u128 {
                members
                    .clone()
                    .filter(|&member| has(set, member))
                    .map(|member| u128::from(circle.weights[member]))
                    .sum()
            };
            let receivers = members
                .clone()
                .filter(|&giver| has(set, giver))
                .fold(0, |receivers, giver| receivers | circle.permissions[giver]);
            weight(set) > weight(receivers)
        }
    }
}

/// Sees that all plan calls refuse the same damaged input and leave the tables as found.
pub fn on_refusals(random: &mut Random) {
    let circle = FAMILIES[0].make(random);
    for n in [0, MEMBERS + 1, usize::MAX] {
        refused(
            Refusal::MemberRange,
            &Circle {
                n,
                ..circle.clone()
            },
            Tables::filled(random),
        );
    }
    let shorter = Circle {
        n: MEMBERS - 1,
        ..circle.clone()
    };
    refused(Refusal::PermissionWord, &shorter, Tables::filled(random));
    for member in 0..MEMBERS {
        let mut heavy = circle.clone();
        heavy.weights[member] = 1_000_000_000_000_000_001;
        refused(Refusal::NotAnAmount, &heavy, Tables::filled(random));
        // Of two reasons the lower number is told.
        heavy.permissions[member] |= 1 << member;
        refused(Refusal::PermissionWord, &heavy, Tables::filled(random));
    }
    for cut in 0..3 {
        let mut tables = Tables::filled(random);
        [
            &mut tables.transfers,
            &mut tables.to_give,
            &mut tables.to_get,
        ][cut]
            .pop();
        refused(Refusal::Length, &circle, tables);
    }
}

fn refused(refusal: Refusal, circle: &Circle, mut tables: Tables) {
    let found = tables.clone();
    for contestant in CONTESTANTS {
        if let Call::Plan(plan) = contestant.call {
            assert_eq!(
                plan(circle, &mut tables),
                Err(refusal),
                "{} answers otherwise",
                contestant.name
            );
            assert!(
                tables == found,
                "{} writes in a refused call",
                contestant.name
            );
        }
    }
}
