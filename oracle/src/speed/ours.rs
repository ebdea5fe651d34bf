//! The library of this repository, by what it exports to C.

use super::Took;
use super::fleet::{ASKED, Fleet, NUMBERS, SECTIONS, SIZE};
use super::work::{Seen, Work};
use std::slice;
use std::time::{Duration, Instant};

#[repr(C)]
struct Limits {
    slots: u64,
    rows: u64,
    bytes: u64,
    width: u64,
}

#[repr(C)]
#[derive(Clone, Copy, Default)]
struct Parts {
    number: u64,
    layer: u64,
    section: u64,
    position: u64,
    amount: u64,
}

#[repr(C)]
#[derive(Clone, Copy, Default)]
struct Outcome {
    status: u64,
    fault: Parts,
}

#[repr(C)]
#[derive(Clone, Copy, Default)]
struct Place {
    number: u64,
    position: u64,
}

#[repr(C)]
struct Turn {
    call: u64,
    number: u64,
    position: u64,
    key: *const u8,
    key_length: usize,
    bytes: *mut u8,
    bytes_length: usize,
    places: *mut Place,
    places_length: usize,
    kind: u64,
    parts: Parts,
}

#[repr(C)]
struct Slices {
    entries: *mut u8,
    entries_length: usize,
    values: *mut u8,
    values_length: usize,
}

impl Slices {
    fn of(entries: &mut [u8], values: &mut [u8]) -> Self {
        Self {
            entries: entries.as_mut_ptr(),
            entries_length: entries.len(),
            values: values.as_mut_ptr(),
            values_length: values.len(),
        }
    }
}

unsafe extern "C" {
    fn lundwazo_entries_size(limits: &Limits) -> usize;
    fn lundwazo_values_size(limits: &Limits) -> usize;
    fn lundwazo_run(
        pages: &mut Slices,
        saved: &mut Slices,
        limits: &Limits,
        keys: u64,
        translator: u64,
        turns: *mut Turn,
        turns_length: usize,
    ) -> Outcome;
}

const LIMITS: Limits = Limits {
    slots: SECTIONS,
    rows: 2 * SIZE,
    bytes: 4_096,
    width: 11,
};

const BOX_NUMBERS: u64 = 1;

const LOAD: u64 = 1;
const PUT: u64 = 2;
const PUT_MULTI: u64 = 3;
const PRUNE: u64 = 4;
const GET_NUMBER: u64 = 5;
const GET_KEY: u64 = 6;
const HAS_NUMBER: u64 = 8;
const HAS_KEY: u64 = 9;
const HAS_BOTH: u64 = 10;
const LIST_NUMBER: u64 = 11;

const REFUSED: u64 = 1;
const LOADED: u64 = 2;
const STORED: u64 = 5;
const STRUCK: u64 = 7;
const ABSENT: u64 = 8;
const FOUND: u64 = 9;
const NO: u64 = 10;
const YES: u64 = 11;
const LISTED: u64 = 12;

/// Turns, with a value's room and two places for each.
struct Batch {
    turns: Vec<Turn>,
    values: Vec<[u8; 16]>,
    places: Vec<[Place; 2]>,
}

impl Batch {
    fn new(room: usize) -> Self {
        Self {
            turns: Vec::with_capacity(room),
            values: vec![[0; 16]; room],
            places: vec![[Place::default(); 2]; room],
        }
    }

    fn add(&mut self, call: u64, number: u64, key: &[u8]) -> &mut [u8; 16] {
        let at = self.turns.len();
        self.turns.push(Turn {
            call,
            number,
            position: 0,
            key: key.as_ptr(),
            key_length: key.len(),
            bytes: self.values[at].as_mut_ptr(),
            bytes_length: 16,
            places: self.places[at].as_mut_ptr(),
            places_length: 2,
            kind: 0,
            parts: Parts::default(),
        });
        &mut self.values[at]
    }
}

struct Pages {
    entries: Vec<u8>,
    values: Vec<u8>,
    saved_entries: Vec<u8>,
    saved_values: Vec<u8>,
    translator: u64,
}

impl Pages {
    fn new(translator: &str) -> Self {
        let (entries, values) = unsafe { (lundwazo_entries_size(&LIMITS), lundwazo_values_size(&LIMITS)) };
        let leading = translator
            .strip_prefix("leading")
            .map(|count| count.parse().expect("a count"));
        Self {
            entries: vec![0; entries],
            values: vec![0; values],
            saved_entries: vec![0; entries],
            saved_values: vec![0; values],
            translator: leading.unwrap_or(0),
        }
    }

    /// Runs a batch, and says how long that took.
    fn run(&mut self, batch: &mut Batch) -> Duration {
        let mut pages = Slices::of(&mut self.entries, &mut self.values);
        let mut saved = Slices::of(&mut self.saved_entries, &mut self.saved_values);
        let start = Instant::now();
        // No two of the slices overlap, and each is as long as is said.
        let outcome = unsafe {
            lundwazo_run(
                &mut pages,
                &mut saved,
                &LIMITS,
                BOX_NUMBERS,
                self.translator,
                batch.turns.as_mut_ptr(),
                batch.turns.len(),
            )
        };
        let time = start.elapsed();
        assert_eq!(outcome.status, 0, "the pages are mounted");
        // What was saved is what the next run mounts.
        std::mem::swap(&mut self.entries, &mut self.saved_entries);
        std::mem::swap(&mut self.values, &mut self.saved_values);
        assert_eq!(batch.turns[0].kind, LOADED, "the archive is loaded");
        time
    }

    /// How long mounting and loading alone take.
    fn load(&mut self) -> (Duration, u64) {
        let mut batch = Batch::new(1);
        batch.add(LOAD, SIZE, &[]);
        let time = self.run(&mut batch);
        (time, batch.turns[0].parts.amount)
    }
}

fn puts(fleet: &Fleet) -> Batch {
    let mut batch = Batch::new(fleet.moves.len() + 1);
    batch.add(LOAD, SIZE, &[]);
    for (at, m) in fleet.moves.iter().enumerate() {
        let call = if at < NUMBERS as usize { PUT } else { PUT_MULTI };
        *batch.add(call, m.number, &m.key) = m.value;
    }
    batch
}

fn prunes() -> Batch {
    let mut batch = Batch::new(SECTIONS as usize + 1);
    batch.add(LOAD, SIZE, &[]);
    for min in (SIZE..=NUMBERS).step_by(SIZE as usize) {
        batch.add(PRUNE, min, &[]);
    }
    batch
}

fn questions(work: Work, fleet: &Fleet) -> Batch {
    let mut batch = Batch::new(ASKED + 1);
    batch.add(LOAD, SIZE, &[]);
    for at in 0..ASKED {
        let m = fleet.asked(at);
        match work {
            Work::GetNumber | Work::GetNoNumber => batch.add(GET_NUMBER, work.number(at), &[]),
            Work::GetKey => batch.add(GET_KEY, 0, &m.key),
            Work::GetNoKey => batch.add(GET_KEY, 0, fleet.absent(at)),
            Work::HasNumber => batch.add(HAS_NUMBER, work.number(at), &[]),
            Work::ReadKey => batch.add(HAS_KEY, 0, fleet.wrong(at)),
            Work::HasKey => batch.add(HAS_KEY, 0, &m.key),
            Work::HasBoth => batch.add(HAS_BOTH, m.number, &m.key),
            Work::ListNumber => batch.add(LIST_NUMBER, work.number(at), &[]),
            Work::Put | Work::Prune | Work::Load => unreachable!("not asked one by one"),
        };
    }
    batch
}

fn seen(batch: &Batch) -> Seen {
    let mut seen = Seen::default();
    for turn in &batch.turns[1..] {
        match turn.kind {
            FOUND => {
                assert_eq!(turn.parts.amount, 16, "values have sixteen bytes");
                // The turn's bytes are those of the batch.
                seen.value(unsafe { slice::from_raw_parts(turn.bytes, 16) });
            }
            ABSENT => {}
            YES => seen.one(1),
            NO => seen.one(0),
            REFUSED => seen.one(turn.parts.number),
            LISTED => seen.one(turn.parts.amount),
            other => panic!("an answer of kind {other}"),
        }
    }
    seen
}

fn all_are(batch: &Batch, kind: u64) {
    assert!(
        batch.turns[1..].iter().all(|turn| turn.kind == kind),
        "all are accepted"
    );
}

/// A run of a batch mounts the pages and loads the archive, which a load alone does too.
pub fn time(work: Work, translator: &str, fleet: &Fleet) -> (Took, Seen) {
    let mut pages = Pages::new(translator);
    let (beside, _) = pages.load();
    let mut batch = puts(fleet);
    let whole = pages.run(&mut batch);
    all_are(&batch, STORED);
    let mut of = Seen::default();
    let (loaded, records) = pages.load();
    if work == Work::Put {
        of.one(records);
        return (Took { whole, beside }, of);
    }
    if work == Work::Load {
        of.one(records / 2 - 1);
        let (whole, beside) = (loaded, Duration::ZERO);
        return (Took { whole, beside }, of);
    }
    let mut batch = if work == Work::Prune {
        prunes()
    } else {
        questions(work, fleet)
    };
    let took = Took {
        whole: pages.run(&mut batch),
        beside: loaded,
    };
    if work == Work::Prune {
        all_are(&batch, STRUCK);
        of.one((pages.load().1 == 0).into());
        return (took, of);
    }
    (took, seen(&batch))
}
