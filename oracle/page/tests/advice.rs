//! Advice on generated contracts: its edits are at parts of the contract.

use form::kind;
use isonkaypu::check_image;
use show::{Edit, faults};

/// Whatever stands in a contract, advice is made without a panic, and its edits are at nodes of the tree.
#[test]
fn edits_are_at_nodes() {
    for index in 0..3_000 {
        let image = generate::admitted(&mut generate::Rng::of_image(11, index));
        let report = check_image(&image).expect("admitted");
        let tree = report.tree().expect("a tree");
        for edit in faults(&report).iter().flat_map(|fault| &fault.ways).flatten() {
            let (Edit::Replace { node, .. } | Edit::Remove { node } | Edit::Before { node, .. }) = edit
            else {
                continue;
            };
            assert!(tree.kind(*node) != 0 && tree.kind(*node) != kind::CONTRACT, "{edit:?}");
        }
    }
}
