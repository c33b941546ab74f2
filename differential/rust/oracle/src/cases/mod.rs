//! Makers of cases: `exhaustive` lists that need no seed, and one `random` case at a time.

pub mod blocks;
pub mod decks;
pub mod device;
pub mod loader;
pub mod make;
pub mod nor;
pub mod operations;
pub mod replies;
pub mod runs;
pub mod sizes;
pub mod status;
pub mod uploads;

use make::{Case, Rng};

#[derive(Clone, Copy, Debug, PartialEq, Eq)]
pub enum Kind {
    Blocks,
    Status,
    Replies,
    Operations,
    Device,
    Runs,
    Uploads,
    Decks,
    Nor,
    Loader,
    /// Images to 4 MiB; not one of `all`.
    Large,
    /// Flashes to 65,536 sectors; not one of `all`.
    Sizes,
}

pub const ALL: [Kind; 10] = [
    Kind::Blocks,
    Kind::Status,
    Kind::Replies,
    Kind::Operations,
    Kind::Device,
    Kind::Runs,
    Kind::Uploads,
    Kind::Decks,
    Kind::Nor,
    Kind::Loader,
];

impl Kind {
    pub fn name(self) -> &'static str {
        match self {
            Kind::Blocks => "blocks",
            Kind::Status => "status",
            Kind::Replies => "replies",
            Kind::Operations => "operations",
            Kind::Device => "device",
            Kind::Runs => "runs",
            Kind::Uploads => "uploads",
            Kind::Decks => "decks",
            Kind::Nor => "nor",
            Kind::Loader => "loader",
            Kind::Large => "large",
            Kind::Sizes => "sizes",
        }
    }

    pub fn named(name: &str) -> Option<Vec<Kind>> {
        if name == "all" {
            return Some(ALL.to_vec());
        }
        let found = ALL.into_iter().chain([Kind::Large, Kind::Sizes]).find(|kind| kind.name() == name)?;
        Some(vec![found])
    }

    pub fn exhaustive(self) -> Vec<Case> {
        match self {
            Kind::Blocks => blocks::exhaustive(),
            Kind::Status => status::exhaustive(),
            Kind::Replies => replies::exhaustive(),
            Kind::Operations => operations::exhaustive(),
            Kind::Device => device::exhaustive(),
            Kind::Runs => runs::exhaustive(),
            Kind::Uploads => uploads::exhaustive(),
            Kind::Decks => decks::exhaustive(),
            Kind::Nor => nor::exhaustive(),
            Kind::Loader => loader::exhaustive(),
            Kind::Large => Vec::new(),
            Kind::Sizes => sizes::exhaustive(),
        }
    }

    pub fn random(self, rng: &mut Rng) -> Case {
        match self {
            Kind::Blocks => blocks::random(rng),
            Kind::Status => status::random(rng),
            Kind::Replies => replies::random(rng),
            Kind::Operations => operations::random(rng),
            Kind::Device => device::random(rng),
            Kind::Runs => runs::random(rng),
            Kind::Uploads => uploads::random(rng),
            Kind::Decks => decks::random(rng),
            Kind::Nor => nor::random(rng),
            Kind::Loader => loader::random(rng),
            Kind::Large => uploads::large(rng),
            Kind::Sizes => sizes::random(rng),
        }
    }

    /// Random lines of the sample that stands in the gate. A block of a deck is a line of a thousand letters.
    pub fn sample_lines(self) -> usize {
        if self == Kind::Decks { 100 } else { 400 }
    }
}

/// What random cases are drawn from. The kinds `nor` and `loader` came after the others and each draws apart, so that these
/// have the same cases by a seed as before they came.
pub struct Draws {
    nor: Rng,
    loader: Rng,
    others: Rng,
}

/// Bits of a seed that are turned round where `loader` draws.
const LOADER_APART: u64 = 0x5555_5555_5555_5555;

impl Draws {
    pub fn new(seed: u64) -> Draws {
        Draws { nor: Rng::new(!seed), loader: Rng::new(seed ^ LOADER_APART), others: Rng::new(seed) }
    }

    pub fn of(&mut self, kind: Kind) -> &mut Rng {
        match kind {
            Kind::Nor => &mut self.nor,
            Kind::Loader => &mut self.loader,
            _ => &mut self.others,
        }
    }
}

/// The exhaustive cases of each kind, then random ones in turn until there are `count` lines of these; those of `nor` and of
/// `loader` are counted where it is alone.
pub fn generate(kinds: &[Kind], seed: u64, count: usize) -> impl Iterator<Item = (Kind, Case)> + use<> {
    let kinds = kinds.to_vec();
    let fixed: Vec<(Kind, Case)> =
        kinds.iter().flat_map(|kind| kind.exhaustive().into_iter().map(|case| (*kind, case))).collect();
    let mut draws = Draws::new(seed);
    let mut lines = 0;
    let mut turn = 0;
    let random = std::iter::from_fn(move || {
        if lines >= count {
            return None;
        }
        let kind = kinds[turn % kinds.len()];
        turn += 1;
        let case = kind.random(draws.of(kind));
        let is_counted = !matches!(kind, Kind::Nor | Kind::Loader) || kinds.len() == 1;
        lines += if is_counted { case.len() } else { 0 };
        Some((kind, case))
    });
    fixed.into_iter().chain(random)
}

/// Seed of the sample that stands in the gate.
pub const SAMPLE_SEED: u64 = 1137;
