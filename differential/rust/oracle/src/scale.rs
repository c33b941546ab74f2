//! The comparison at scale: every kind, more than ten million calls, on all cores.

use std::{
    collections::BTreeMap,
    io,
    sync::Mutex,
    thread,
    time::{Duration, Instant},
};

use crate::{
    cases::{Draws, Kind, device, make::Rng, uploads},
    compare::{COUNTED, Cases, Count, compare_cases, print_count, print_found, print_images, print_outside},
};

/// Random calls of each kind. Of uploads there are those of every length beside these.
const CALLS: [(Kind, usize); 12] = [
    (Kind::Blocks, 3_000_000),
    (Kind::Status, 1_500_000),
    (Kind::Replies, 1_000_000),
    (Kind::Operations, 2_500_000),
    (Kind::Device, 1_800_000),
    (Kind::Runs, 600_000),
    (Kind::Nor, 600_000),
    (Kind::Uploads, 4_000),
    (Kind::Large, 400),
    (Kind::Decks, 200_000),
    (Kind::Loader, 1_500_000),
    (Kind::Sizes, 160),
];

/// In place of a command: the kind is not asked.
const LEFT_OUT: &str = "-";

/// What a full store refuses with.
const FULL: &[&str] = &["58", "59"];

/// Refusals that a kind's cases have to meet, each of `COUNTED`.
const MET: [(Kind, &[&str]); 5] = [
    (Kind::Device, FULL),
    (Kind::Runs, FULL),
    (Kind::Nor, &["58", "59", "15", "62", "63"]),
    (Kind::Decks, FULL),
    (Kind::Loader, &["70", "71", "72", "73", "74"]),
];

/// Kinds that finish operations.
const FINISHING: [Kind; 5] = [Kind::Operations, Kind::Runs, Kind::Nor, Kind::Decks, Kind::Sizes];

/// Kinds that upload.
const UPLOADING: [Kind; 6] = [Kind::Runs, Kind::Nor, Kind::Uploads, Kind::Large, Kind::Decks, Kind::Sizes];

/// Short transfers that `operations` has at least.
pub const LEAST_SHORT: usize = 10_000;

/// A kind's calls are asked in so many pieces, so that no core is left idle for long.
const PIECES: usize = 8;

/// The shell command of the program that answers a kind, for each kind.
pub struct Programs(Vec<(Kind, String)>);

impl Programs {
    /// From words KIND=COMMAND; `sizes=-` leaves that kind out. None where a word is not such, or a kind has none.
    pub fn read(words: &[&str]) -> Option<Programs> {
        let mut programs = Vec::new();
        for word in words {
            let (kinds, command) = word.split_once('=')?;
            programs.extend(Kind::named(kinds)?.into_iter().map(|kind| (kind, command.to_string())));
        }
        let has = |kind: Kind| programs.iter().any(|(one, _)| *one == kind);
        let all = CALLS.iter().all(|(kind, _)| has(*kind));
        programs.retain(|(kind, command)| *kind != Kind::Sizes || command != LEFT_OUT);
        all.then_some(Programs(programs))
    }

    fn find(&self, kind: Kind) -> Option<&str> {
        self.0.iter().find(|(one, _)| *one == kind).map(|(_, command)| command.as_str())
    }

    fn of(&self, kind: Kind) -> &str {
        self.find(kind).expect("each kind that is asked has its program")
    }
}

struct Job {
    kind: Kind,
    cases: Cases,
}

/// Random cases until there are `calls` of them.
fn random(mut make: impl FnMut() -> Vec<String> + Send + 'static, calls: usize) -> Cases {
    let mut made = 0;
    Box::new(std::iter::from_fn(move || {
        if made >= calls {
            return None;
        }
        let case = make();
        made += case.len();
        Some(case)
    }))
}

/// One in five of the device's pieces is of sequences that are ten times as long.
fn random_piece(kind: Kind, piece: usize, mut rng: Rng, calls: usize) -> Cases {
    if kind == Kind::Device && piece % 5 == 0 {
        return random(move || device::random_long(&mut rng), calls);
    }
    random(move || kind.random(&mut rng), calls)
}

/// Every length that leaves `piece` over `PIECES`, or one in `share` of them.
fn lengths_piece(piece: usize, mut rng: Rng, share: usize) -> Cases {
    let lengths = uploads::EVERY.skip(piece).step_by(PIECES).step_by(share);
    Box::new(lengths.flat_map(move |len| uploads::of_every_length(&mut rng, len)))
}

/// The largest sizes hold a GiB: they are one job.
fn sizes(rng: Rng, calls: usize) -> Job {
    let fixed = Kind::Sizes.exhaustive().into_iter();
    Job { kind: Kind::Sizes, cases: Box::new(fixed.chain(random_piece(Kind::Sizes, 0, rng, calls))) }
}

/// The long jobs first. Every job has a seed of its own, so that the order in which they end changes nothing.
fn jobs(programs: &Programs, seed: u64, share: usize) -> Vec<Job> {
    let mut draws = Draws::new(seed);
    let mut jobs = Vec::new();
    for piece in 0..PIECES {
        jobs.push(Job {
            kind: Kind::Uploads,
            cases: lengths_piece(piece, Rng::new(draws.of(Kind::Uploads).next()), share),
        });
    }
    for (kind, calls) in CALLS.into_iter().rev() {
        if kind == Kind::Sizes {
            let job = sizes(Rng::new(draws.of(kind).next()), calls.div_ceil(share));
            jobs.extend(programs.find(kind).is_some().then_some(job));
            continue;
        }
        for piece in 0..PIECES {
            let rng = Rng::new(draws.of(kind).next());
            jobs.push(Job { kind, cases: random_piece(kind, piece, rng, calls.div_ceil(PIECES * share)) });
        }
        jobs.push(Job { kind, cases: Box::new(kind.exhaustive().into_iter()) });
    }
    jobs
}

fn work(
    programs: &Programs,
    jobs: &Mutex<impl Iterator<Item = Job>>,
    counts: &Mutex<BTreeMap<&'static str, Count>>,
) -> io::Result<()> {
    loop {
        let Some(job) = jobs.lock().expect("no job panics").next() else {
            return Ok(());
        };
        let count = compare_cases(programs.of(job.kind), job.cases)?;
        counts.lock().expect("no job panics").entry(job.kind.name()).or_default().add(count);
    }
}

/// Whether there was no difference, no reason for `outside` above its bound, images without a check in every kind that
/// uploads and, where all is asked, every refusal that has to be met and short transfers where they have to be, and there
/// alone. `share` takes one in so many of the calls.
pub fn scale(programs: &Programs, seed: u64, share: usize) -> io::Result<bool> {
    println!("seed {seed}");
    let began = Instant::now();
    let jobs = Mutex::new(jobs(programs, seed, share).into_iter());
    let counts = Mutex::new(BTreeMap::new());
    let cores = thread::available_parallelism().map_or(1, |n| n.get());
    thread::scope(|scope| {
        let workers: Vec<_> = (0..cores).map(|_| scope.spawn(|| work(programs, &jobs, &counts))).collect();
        workers.into_iter().try_for_each(|worker| worker.join().expect("no job panics"))
    })?;
    let counts = counts.into_inner().expect("no job panics");
    report(programs, share, counts, began.elapsed())
}

/// The refusals that a kind has to meet, each with how often its answers had it.
pub fn met(kind: Kind, count: &Count) -> Vec<(&'static str, usize)> {
    let wanted = MET.iter().find(|(one, _)| *one == kind).map_or(&[][..], |(_, wanted)| wanted);
    COUNTED.into_iter().zip(count.met).filter(|(number, _)| wanted.contains(number)).collect()
}

/// Whether each was among them.
fn has_met_all(kind: Kind, count: &Count) -> bool {
    let met = met(kind, count);
    for (number, n) in &met {
        println!("{}: answered {number} {n}{}", kind.name(), if *n == 0 { ", which is NONE" } else { "" });
    }
    met.iter().all(|(_, n)| *n > 0)
}

/// What is wrong with so many short transfers of a kind where all is asked: `operations`, whose statuses are given by
/// hand, is to have `LEAST_SHORT`, and no other kind has one, since the stand-in's residue is 0.
pub fn wrong_short(kind: Kind, short: usize) -> Option<&'static str> {
    match (kind, short) {
        (Kind::Operations, ..LEAST_SHORT) => Some(", which is TOO FEW"),
        (Kind::Operations, _) | (_, 0) => None,
        _ => Some(", where NONE may be"),
    }
}

/// Whether a kind had short transfers exactly where it is to have them.
fn is_short_by_hand(kind: Kind, count: &Count) -> bool {
    let wrong = wrong_short(kind, count.short);
    if FINISHING.contains(&kind) {
        println!("{}: answered short {}{}", kind.name(), count.short, wrong.unwrap_or_default());
    }
    wrong.is_none()
}

/// Whether a kind that uploads had images without a check, and no other had one.
fn has_images(kind: Kind, images: usize) -> bool {
    let is_uploading = UPLOADING.contains(&kind);
    if is_uploading {
        print_images(&format!("{}: ", kind.name()), images);
    }
    is_uploading == (images > 0)
}

fn report(
    programs: &Programs,
    share: usize,
    mut counts: BTreeMap<&str, Count>,
    took: Duration,
) -> io::Result<bool> {
    let mut all = Count::default();
    let mut all_kept = true;
    for (kind, _) in CALLS {
        if programs.find(kind).is_none() {
            println!("{}: not asked, since its program was left out", kind.name());
            continue;
        }
        let count = counts.remove(kind.name()).unwrap_or_default();
        print_found(programs.of(kind), &count)?;
        print_count(&format!("{}: ", kind.name()), &count);
        all_kept &= print_outside(kind, &count);
        all_kept &= share > 1 || has_met_all(kind, &count);
        all_kept &= share > 1 || is_short_by_hand(kind, &count);
        all_kept &= has_images(kind, count.images);
        all.add(count);
    }
    println!("{} seconds", took.as_secs());
    print_images("", all.images);
    print_count("", &all);
    Ok(all_kept && all.is_good())
}
