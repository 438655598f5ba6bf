//! The refusals that end a run, on both sides of their limits.

mod common;

use common::{Sides, by_name, check};
use mutual_recursion::Refusal;

#[test]
fn limits() {
    let mut all = by_name();
    let mut take = |name: &str| {
        all.remove(name)
            .unwrap_or_else(|| panic!("no sheet '{name}'"))
            .sheet
    };
    let mut sides = |over: &str, within: &str| vec![(take(over), take(within))];
    check(
        Refusal::PlanTooLarge,
        &[
            (
                "after a substitution step a planned list has",
                sides("7 in front of a plan", "1025 alternatives without a step"),
            ),
            (
                "over 1,024 alternatives",
                sides("alternatives 1025", "alternatives 1024"),
            ),
            (
                "8,192 outermost elements",
                sides("elements 8193", "elements 8192"),
            ),
            (
                "2,048 options of its alternatives",
                sides("options 2049", "options 2048"),
            ),
        ],
    );
    let counters: Vec<Sides> = [
        "alternatives",
        "elements",
        "labels",
        "actions",
        "predicates",
    ]
    .into_iter()
    .flat_map(|sort| {
        sides(
            &format!("counter of {sort} past its end"),
            &format!("counter of {sort} at its end"),
        )
    })
    .collect();
    check(
        Refusal::CounterPastEnd,
        &[(
            "applying a plan would take a counter above 4,294,967,295",
            counters,
        )],
    );
    check(
        Refusal::ResultTooLarge,
        &[
            ("what would be handed back is too large", vec![]),
            (
                "a sheet over 32,768 bytes",
                sides("edge-9 with 39 options", "edge-9 with 38 options"),
            ),
            // no plan that is known has so long a trail with so small a sheet
            ("a trail over 4,096 entries", vec![]),
        ],
    );
}
