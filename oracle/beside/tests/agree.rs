//! The text and the document's model agree on random boards of every family: gas, events, counts, zones as filled and as planned.

use beside::{Agreement, agree};

#[test]
fn every_family() {
    let Agreement { boards, refused, first, .. } = agree(300, 1);
    assert!(first.is_none(), "{}", first.unwrap());
    assert!(boards > 10_000 && refused.iter().all(|&count| count > 5), "{boards} boards, refusals {refused:?}");
}
