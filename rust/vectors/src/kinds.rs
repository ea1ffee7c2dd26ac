//! Kinds of nodes and where each may stand.

use crate::frame::{Case, Cases};
use crate::function::{KNOWN, MAY_STAND};
use corpus::format::KINDS;
use corpus::valid::unknown;
use reference::{known, may_stand};

pub fn add(cases: &mut Cases) {
    let mut rng = cases.rng(14);
    let kinds = KINDS.map(|kind| kind.0);
    cases.sweep("kinds", 40);
    for kind in kinds {
        add_kind(cases, kind);
        for bit in 0..u32::BITS {
            add_kind(cases, kind ^ 1 << bit);
        }
        add_kind(cases, kind.swap_bytes());
    }
    add_kind(cases, 0);
    add_kind(cases, u32::MAX);
    cases.sweep("kinds: drawn", 4);
    for _ in 0..cases.draws(50) {
        add_kind(cases, rng.next_u32());
    }

    cases.sweep("kinds: pairs", 40);
    for parent in [None].into_iter().chain(kinds.map(Some)) {
        for kind in kinds.into_iter().chain([unknown::kind(&mut rng)]) {
            add_pair(cases, parent, kind);
        }
        add_pair(cases, parent, 0);
    }
    cases.sweep("kinds: other parents", 12);
    for kind in kinds {
        let parent = unknown::kind(&mut rng);
        add_pair(cases, Some(parent), kind);
        add_pair(cases, Some(kind ^ 1 << rng.below(32)), *rng.pick(&kinds));
        add_pair(cases, Some(parent), unknown::kind(&mut rng));
        add_pair(cases, Some(u32::MAX), kind);
        add_pair(cases, Some(0), kind);
    }
}

fn add_kind(cases: &mut Cases, kind: u32) {
    let case = Case {
        function: KNOWN,
        x: kind.into(),
        ..Case::default()
    };
    cases.add(&case, &[known(kind).into()]);
}

/// A parent is one more than its kind, and none is 0.
fn add_pair(cases: &mut Cases, parent: Option<u32>, kind: u32) {
    let case = Case {
        function: MAY_STAND,
        x: parent.map_or(0, |kind| u64::from(kind) + 1),
        y: kind.into(),
        ..Case::default()
    };
    cases.add(&case, &[may_stand(parent, kind).into()]);
}
