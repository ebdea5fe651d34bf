//! Lies inside the original's module of storage, so that it sees what the archive keeps to itself.

mod reading;

use super::*;
use crate::desk::Voyage;
use crate::keys::{BoxNumber, Digest, Kind};
use crate::script::{Start, number, number_or_none, refused_by_us};
use crate::surroundings::configured;
use crate::translator::AnyTranslator;
use crate::value::Value;
use crate::{Begin, Disk, Original, run};
use reading::{Held, told};

struct Sailing<K: Kind> {
    start: Start,
    disk: Disk,
    loaded: bool,
    /// None before a load, and after a call that took the archive and did not give it back.
    archive: Option<Box<Held<K>>>,
}

/// Answers the call, where the line is one.
type Answered = Option<Result<String, Error>>;

fn open_archive<K: Kind>(disk: &Disk, translator: AnyTranslator, size: u64) -> Result<Box<Held<K>>, Error> {
    run(Held::<K>::init(disk.clone(), configured(translator, size))).map(Box::new)
}

fn yes_or_no(yes: bool) -> String {
    if yes { "yes" } else { "no" }.into()
}

/// The size of a buffer or slice: the word that is left, or what the script has without one.
fn room(words: &[&str], without: u64) -> Option<u64> {
    match words {
        [] => Some(without),
        [word] => number(word).filter(|&room| room <= 65_536),
        _ => None,
    }
}

impl<K: Kind> Sailing<K> {
    fn load(&mut self, size: u64) -> Result<String, Error> {
        let of_ours = |number, words| Ok(refused_by_us(number, 3, [0; 3], words));
        if !self.start.bare {
            if self.loaded {
                return of_ours(10, "loaded already");
            }
            if !(1..=64).contains(&size) {
                return of_ours(1, "numbers a section outside 1 to 64");
            }
            if !self.start.limits.suit_an_archive() {
                return of_ours(2, "the journal's limits do not suit an archive");
            }
        }
        self.archive = None;
        let archive = open_archive::<K>(&self.disk, self.start.translator, size)?;
        let records = archive.keys.len();
        self.loaded = true;
        self.archive = Some(archive);
        Ok(format!("loaded {records}"))
    }

    // The calls that take the archive, and give it back where they go well.
    fn put(&mut self, number: u64, key: K, value: Value, multi: bool) -> Result<String, Error> {
        let archive = self.archive.take().expect("loaded");
        let below = number < archive.oldest_allowed.unwrap_or(0);
        let there = !multi && archive.has_index(number);
        if !below && !there && !self.start.bare {
            let length = value.0.len() as u64;
            if let Some(refusal) = archive.over_limits(&self.start, number, length) {
                self.archive = Some(archive);
                return Ok(refusal);
            }
        }
        let records = archive.keys.len();
        let archive = run(archive.put_internal(number, key, &value, !multi))?;
        let answer = if archive.keys.len() > records {
            let section = archive.section_of(number).expect("the section of the new record");
            format!("stored {} {}", section.start, section.keys.len() - 1)
        } else if below {
            "below the floor".into()
        } else {
            "already there".into()
        };
        self.archive = Some(archive);
        Ok(answer)
    }

    fn prune(&mut self, min: u64) -> Result<String, Error> {
        let archive = self.archive.take().expect("loaded");
        let (records, numbers) = (archive.keys.len(), archive.indices_pruned.get());
        let floor = archive.oldest_allowed;
        let archive = run(archive.prune(min))?;
        let answer = if archive.oldest_allowed == floor {
            "unchanged".into()
        } else {
            format!(
                "pruned floor {} numbers {} records {}",
                number_or_none(archive.oldest_allowed),
                archive.indices_pruned.get() - numbers,
                records - archive.keys.len(),
            )
        };
        self.archive = Some(archive);
        Ok(answer)
    }

    // From here on the disk writes nothing; `moves` has no such line.
    fn fail_writes(&mut self) -> Answered {
        self.disk.0.fail_writes();
        Some(Ok("writes fail".into()))
    }

    /// The key that a word stands for, or its refusal.
    fn key(word: &str) -> Option<Result<K, String>> {
        let bytes = K::bytes_of(word)?;
        Some(match K::flaw(&bytes) {
            None => Ok(K::of(&bytes)),
            Some(flaw) => Err(refused_by_us(17, 1, [0, 0, flaw as u64], "not a key")),
        })
    }

    fn not_loaded(&self) -> Option<String> {
        match (&self.archive, self.loaded) {
            (Some(_), _) => None,
            (None, true) => Some("the archive is gone".into()),
            (None, false) => Some(refused_by_us(9, 3, [0; 3], "not loaded")),
        }
    }

    fn without_key(&mut self, name: &str, words: &[&str]) -> Answered {
        let first = number(words.first().copied().unwrap_or("0"))?;
        if name == "load" && words.len() == 1 {
            return Some(self.load(first));
        }
        if let Some(refusal) = self.not_loaded() {
            return Some(Ok(refusal));
        }
        let archive = self.archive.as_ref()?;
        Some(match (name, words.len()) {
            ("prune", 1) => self.prune(first),
            ("counts", 0) => Ok(archive.counted()),
            ("has", 1) => run(archive.has(Identifier::Index(first))).map(yes_or_no),
            ("get", 1..) => archive.by_number(first, room(&words[1..], 4_096)?),
            ("list", 1..) => archive.of_number(first, room(&words[1..], 2_048)?, self.start.bare),
            ("value", 2..) => archive.by_place(first, number(words[1])?, room(&words[2..], 4_096)?),
            _ => return None,
        })
    }

    fn by_key(&self, name: &str, words: &[&str]) -> Answered {
        let key = match Self::key(words.first()?)? {
            Ok(key) => key,
            Err(refusal) => return Some(Ok(refusal)),
        };
        if let Some(refusal) = self.not_loaded() {
            return Some(Ok(refusal));
        }
        let archive = self.archive.as_ref()?;
        Some(match name {
            "has_key" => run(archive.has(Identifier::Key(&key))).map(yes_or_no),
            "get_key" => archive.by_key(&key, room(&words[1..], 4_096)?),
            _ => archive.of_key(&key, room(&words[1..], 2_048)?),
        })
    }

    fn by_both(&mut self, name: &str, words: &[&str], text: &str) -> Answered {
        let &[first, key, ..] = words else { return None };
        let first = number(first)?;
        let key = match Self::key(key)? {
            Ok(key) => key,
            Err(refusal) => return Some(Ok(refusal)),
        };
        if let Some(refusal) = self.not_loaded() {
            return Some(Ok(refusal));
        }
        if name == "has_at" {
            let archive = self.archive.as_ref()?;
            return Some(run(archive.has_at(first, &key)).map(yes_or_no));
        }
        let value = Value(text.as_bytes().to_vec());
        Some(self.put(first, key, value, name == "put_multi"))
    }
}

impl<K: Kind> Voyage for Sailing<K> {
    fn answer(&mut self, name: &str, words: &[&str], text: &str) -> Option<String> {
        let answered = match name {
            "fail_writes" => self.fail_writes(),
            "has_key" | "get_key" | "list_key" => self.by_key(name, words),
            "put" | "put_multi" | "has_at" => self.by_both(name, words, text),
            _ => self.without_key(name, words),
        };
        answered.map(|answer| answer.unwrap_or_else(told))
    }

    fn disk(&self) -> &Disk {
        &self.disk
    }
}

impl Begin for Original {
    fn voyage(start: Start, disk: Disk) -> Box<dyn Voyage> {
        if start.boxes {
            Box::new(Sailing::<BoxNumber> {
                start,
                disk,
                loaded: false,
                archive: None,
            })
        } else {
            Box::new(Sailing::<Digest> {
                start,
                disk,
                loaded: false,
                archive: None,
            })
        }
    }

    fn handle(slot: usize, position: u64) -> u64 {
        handle(slot, position)
    }
}
