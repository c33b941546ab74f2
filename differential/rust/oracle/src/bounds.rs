//! How many calls of a kind may be `outside`, by reason: the whole table.

use crate::{cases::Kind, text::Reason};

/// Of a kind's calls so many may be `outside` for this reason: as many as its exhaustive cases have, and so many in
/// 100,000 of all its calls (a fiftieth above what the generator makes, by its count with seed 1). What is not here may
/// not happen.
const BOUNDS: [(Kind, Reason, usize, usize); 14] = [
    (Kind::Blocks, Reason::ShortOutput, 65, 0),
    (Kind::Status, Reason::ShortOutput, 13, 1_275),
    (Kind::Replies, Reason::NotSectors, 50, 4_250),
    (Kind::Replies, Reason::TooManySectors, 5, 800),
    (Kind::Replies, Reason::ArraySize, 100, 0),
    (Kind::Operations, Reason::ShortOutput, 22, 0),
    (Kind::Operations, Reason::TooManyGiven, 23, 1_075),
    (Kind::Operations, Reason::NotAsked, 53, 4_970),
    (Kind::Operations, Reason::NotSectors, 4, 0),
    (Kind::Operations, Reason::NotThere, 8, 0),
    (Kind::Device, Reason::NotThere, 39, 0),
    (Kind::Uploads, Reason::ShortOutput, 2, 0),
    (Kind::Decks, Reason::NotThere, 2, 0),
    (Kind::Nor, Reason::NotThere, 78, 0),
];

/// To the share come four times its square root, by which chance moves a count: of ten million calls that is little, of
/// few it is what keeps a run from failing by its seed. With both a bound at scale is about a twentieth above the count.
pub fn bound(kind: Kind, reason: Reason, calls: usize) -> usize {
    let found = BOUNDS.iter().find(|(one, why, _, _)| (*one, *why) == (kind, reason));
    found.map_or(0, |(_, _, fixed, share)| {
        let expected = calls * share / 100_000;
        fixed + expected + 4 * (expected as f64).sqrt() as usize
    })
}
