//! The original, by its public calls.

use super::Took;
use super::fleet::{ASKED, Fleet, NUMBERS, SIZE};
use super::work::{Seen, Work};
use crate::archive::prunable::Archive;
use crate::archive::{Archive as _, Identifier, MultiArchive as _};
use crate::keys::{BoxNumber, Kind};
use crate::surroundings::configured;
use crate::translator::AnyTranslator;
use crate::value::Value;
use crate::{Disk, run};
use commonware_codec::Read;
use std::hint::black_box;
use std::time::{Duration, Instant};

type Held = Archive<AnyTranslator, Disk, BoxNumber, Value>;

fn open(disk: &Disk, translator: &str) -> Held {
    let translator = AnyTranslator::named(translator).expect("a translator");
    run(Held::init(disk.clone(), configured(translator, SIZE))).expect("the archive opens")
}

/// What is stored is made beforehand; the original takes keys by value.
fn fill(mut archive: Held, fleet: &Fleet) -> (Held, Duration) {
    let stored: Vec<_> = (fleet
        .moves
        .iter()
        .map(|m| (m.number, BoxNumber::of(&m.key), Value(m.value.to_vec()))))
    .collect();
    let (first, further) = stored.split_at(NUMBERS as usize);
    let start = Instant::now();
    for (number, key, value) in first {
        archive = run(archive.put(*number, key.clone(), value)).expect("stored");
    }
    for (number, key, value) in further {
        archive = run(archive.put_multi(*number, key.clone(), value)).expect("stored");
    }
    (archive, start.elapsed())
}

fn ask(work: Work, archive: &Held, fleet: &Fleet) -> (Duration, Seen) {
    let keys: Vec<_> = (0..ASKED)
        .map(|at| match work {
            Work::GetNoKey => BoxNumber::of(fleet.absent(at)),
            _ => BoxNumber::of(&fleet.asked(at).key),
        })
        .collect();
    let mut seen = Seen::default();
    let start = Instant::now();
    for (at, key) in keys.iter().enumerate() {
        match work {
            Work::GetNumber | Work::GetNoNumber => {
                if let Some(value) = run(archive.get(Identifier::Index(work.number(at)))).expect("answered") {
                    seen.value(&value.0);
                }
            }
            Work::GetKey | Work::GetNoKey => {
                if let Some(value) = run(archive.get(Identifier::Key(key))).expect("answered") {
                    seen.value(&value.0);
                }
            }
            Work::HasNumber => seen.one(
                run(archive.has(Identifier::Index(work.number(at))))
                    .expect("answered")
                    .into(),
            ),
            Work::HasKey => seen.one(run(archive.has(Identifier::Key(key))).expect("answered").into()),
            Work::HasBoth => seen.one(
                run(archive.has_at(fleet.asked(at).number, key))
                    .expect("answered")
                    .into(),
            ),
            Work::ListNumber => {
                let values = run(archive.get_all(work.number(at))).expect("answered");
                seen.one(values.map_or(0, |values| black_box(values).len() as u64));
            }
            Work::ReadKey => {
                let key = BoxNumber::read_cfg(&mut &fleet.wrong(at)[..], &());
                assert!(black_box(key).is_err(), "no key");
                seen.one(17);
            }
            Work::Put | Work::Prune | Work::Load => unreachable!("not asked one by one"),
        }
    }
    (start.elapsed(), seen)
}

pub fn time(work: Work, translator: &str, fleet: &Fleet) -> (Took, Seen) {
    let (whole, seen) = timed(work, translator, fleet);
    let beside = Duration::ZERO;
    (Took { whole, beside }, seen)
}

fn timed(work: Work, translator: &str, fleet: &Fleet) -> (Duration, Seen) {
    let disk = Disk::default();
    let (archive, filled) = fill(open(&disk, translator), fleet);
    let mut seen = Seen::default();
    match work {
        Work::Put => {
            seen.one(fleet.moves.len() as u64);
            (filled, seen)
        }
        Work::Prune => {
            let mut archive = archive;
            let start = Instant::now();
            for min in (SIZE..=NUMBERS).step_by(SIZE as usize) {
                archive = run(archive.prune(min)).expect("pruned");
            }
            let time = start.elapsed();
            seen.one(archive.first_index().is_none().into());
            (time, seen)
        }
        Work::Load => {
            drop(run(archive.sync()).expect("synced"));
            let start = Instant::now();
            let archive = open(&disk, translator);
            let time = start.elapsed();
            seen.one(archive.last_index().expect("there are records"));
            (time, seen)
        }
        _ => ask(work, &archive, fleet),
    }
}
