//! All cases, over some threads, to the first difference.

use crate::answer::Answer;
use crate::counts::{Counts, Group};
use crate::kinds::Kind;
use crate::trials::Trial;
use std::sync::atomic::{AtomicU64, Ordering};
use std::sync::Mutex;

/// Cases that a thread takes at a time.
const BLOCK: u64 = 1024;

#[derive(Clone, Debug)]
pub struct Asked {
    pub cases: u64,
    pub seed: u64,
    pub threads: u64,
    /// Flip a bit of the library's answer in every so-manyth case.
    pub spoil: Option<u64>,
}

/// A case in which library and model differ.
#[derive(Clone, Debug)]
pub struct Difference {
    pub case: u64,
    pub kind: Kind,
    pub seed: u64,
    pub what: Vec<String>,
}

/// The seed of a case, apart from those of other seeds asked for.
fn seed_of(asked: &Asked, case: u64) -> u64 {
    asked.seed.rotate_left(40) ^ case
}

fn spoils(spoil: Option<u64>, case: u64) -> bool {
    spoil.is_some_and(|every| (case + 1).is_multiple_of(every.max(1)))
}

/// The library's answer, spoiled or not, and the model's.
pub fn both(trial: &dyn Trial, seed: u64, spoiled: bool) -> (Answer, Answer) {
    let mut library = trial.library();
    if spoiled {
        library.spoil(seed);
    }
    (library, trial.model())
}

/// What differs in one case, if anything; an agreed answer is counted.
fn compare(asked: &Asked, case: u64, counts: &mut Counts) -> Option<Difference> {
    let (kind, seed) = (Kind::of_case(case), seed_of(asked, case));
    let trial = kind.trial(seed);
    let (library, model) = both(trial.as_ref(), seed, spoils(asked.spoil, case));
    counts.hit(Group::Cases, kind as usize);
    if library != model {
        return Some(Difference { case, kind, seed, what: library.differing(&model) });
    }
    trial.count(&model, counts);
    None
}

/// Where the threads meet.
struct Field<'a> {
    asked: &'a Asked,
    next: AtomicU64,
    /// No case from here on is needed any more.
    end: AtomicU64,
    found: Mutex<(Counts, Option<Difference>)>,
}

impl Field<'_> {
    /// Blocks are taken in order, and a case before a difference already found is still done: the difference reported
    /// is the first by number, whatever the threads do.
    fn work(&self) {
        let mut counts = Counts::new();
        loop {
            let from = self.next.fetch_add(BLOCK, Ordering::Relaxed);
            for case in from..from + BLOCK {
                if case >= self.end.load(Ordering::Relaxed) {
                    self.hand_in(&counts);
                    return;
                }
                if let Some(difference) = compare(self.asked, case, &mut counts) {
                    self.report(difference);
                }
            }
        }
    }

    fn report(&self, difference: Difference) {
        self.end.fetch_min(difference.case, Ordering::Relaxed);
        let found = &mut self.found.lock().expect("no thread panics").1;
        if found.as_ref().is_none_or(|known| difference.case < known.case) {
            *found = Some(difference);
        }
    }

    fn hand_in(&self, counts: &Counts) {
        self.found.lock().expect("no thread panics").0.add(counts);
    }
}

/// The counts of all cases, and the first difference.
pub fn run(asked: &Asked) -> (Counts, Option<Difference>) {
    let found = Mutex::new((Counts::new(), None));
    let field = Field { asked, next: AtomicU64::new(0), end: AtomicU64::new(asked.cases), found };
    std::thread::scope(|scope| {
        for _ in 0..asked.threads.max(1) {
            scope.spawn(|| field.work());
        }
    });
    field.found.into_inner().expect("no thread panics")
}
