//! That ill-formed boards break each rule, and each two of them, in tables of every call that has the rules.

use boards::faults::cases;
use boards::refusal::{failed, refusal};
use std::collections::BTreeMap;

/// How many cases there are of each call with a pair of faults, by the pair; a fault alone counts as a pair with itself.
fn counted() -> BTreeMap<(u32, [u32; 2]), u32> {
    let mut counts = BTreeMap::new();
    cases(1, &mut |label, pair, case| {
        assert_eq!(refusal(case), pair[0], "{label}");
        assert!(pair.iter().all(|number| failed(case).contains(number)), "{label}");
        *counts.entry((case.call.number(), pair)).or_insert(0) += 1;
    });
    counts
}

#[test]
fn each_pair_of_refusals_occurs() {
    let counts = counted();
    for call in 1..=3 {
        let numbers: &[u32] = if call == 1 { &[1, 2, 3, 4, 5, 6, 7] } else { &[1, 2, 3, 4, 5, 7] };
        for (place, &first) in numbers.iter().enumerate() {
            for &second in &numbers[place..] {
                assert!(counts.contains_key(&(call, [first, second])), "call {call}: {first} and {second}");
            }
        }
    }
}
