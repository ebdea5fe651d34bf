//! The original's questions, and what its private state adds to them: which records bear a key, and where they lie.

use super::super::*;
use crate::script::{Start, number_or_none, ours, refused, refused_by_us, shown};
use crate::translator::AnyTranslator;
use crate::value::Value;
use crate::{Disk, run};
use std::hash::BuildHasher;

pub(super) type Held<K> = Inner<AnyTranslator, Disk, K, Value>;

/// A record as the script names it, with the row that the original keeps of it.
pub(super) struct Borne<K: Array> {
    start: u64,
    position: u64,
    row: Record<K>,
}

pub(super) fn told(error: Error) -> String {
    use crate::journal::Error as Journal;
    let unplaced = [None, None, Some(0)];
    match error {
        Error::Journal(Journal::Codec(_)) => refused(6, 1, unplaced, "a stored row is wrong"),
        Error::Journal(Journal::ChecksumMismatch(..)) => refused(7, 2, unplaced, "the stored value is damaged"),
        Error::RecordCorrupted => refused(8, 3, unplaced, "a row's move number is another section's"),
        other => format!("error: {other:?}"),
    }
}

fn is_checksum(error: &Error) -> bool {
    matches!(error, Error::Journal(crate::journal::Error::ChecksumMismatch(..)))
}

fn listed(count: usize, candidates: Option<usize>, places: &[(u64, u64)], room: u64) -> String {
    if room < count as u64 {
        return refused_by_us(15, 3, [0, 0, count as u64], "the buffer is too short");
    }
    let of = candidates.map_or(String::new(), |all| format!(" of {all}"));
    let places: String = places
        .iter()
        .map(|(number, position)| format!(" {number}/{position}"))
        .collect();
    format!("listed {count}{of}:{places}")
}

impl<K: Array> Held<K> {
    /// The records that bear the key, and how many candidates for it there are.
    pub(super) fn bearers(&self, key: &K) -> Result<(Vec<Borne<K>>, usize), Error> {
        let wanted = self.translator.transform(key.as_ref());
        let (mut borne, mut candidates) = (Vec::new(), 0);
        for handle in self.keys.get(self.translator.hash_one(wanted)) {
            let (slot, position) = unpack(handle);
            let kept = self.sections.slot(slot);
            let translated = &kept.keys[position as usize];
            if *translated != wanted {
                continue;
            }
            candidates += 1;
            let row = run(self.oversized.get(kept.start, position))?;
            if row.key == *key {
                borne.push(Borne {
                    start: kept.start,
                    position,
                    row,
                });
            }
        }
        borne.sort_by_key(|record| (record.row.index, record.position));
        Ok((borne, candidates))
    }

    /// A record for a buffer of this many bytes, with the value that was read of it.
    pub(super) fn shown(&self, record: &Borne<K>, value: Result<Value, Error>, room: u64) -> String {
        let number = record.row.index;
        let position = record.position;
        let length = u64::from(record.row.value_location().1) - 4;
        if room < length {
            return refused_by_us(15, 2, [record.start, position, length], "the buffer is too short");
        }
        match value {
            Ok(value) => format!("found {number} {position} {}", shown(&value.0)),
            Err(error) => told(error),
        }
    }

    pub(super) fn value_of(&self, record: &Borne<K>) -> Result<Value, Error> {
        let (offset, size) = record.row.value_location();
        Ok(run(self.oversized.get_value(record.start, offset, size))?)
    }

    pub(super) fn at(&self, number: u64, position: u64) -> Result<Borne<K>, Error> {
        let start = self.section(number);
        let row = run(self.oversized.get(start, position))?;
        Ok(Borne { start, position, row })
    }

    /// The record that the original names, and behind it, parted by tabs, the others that bear the key.
    pub(super) fn by_key(&self, key: &K, room: u64) -> Result<String, Error> {
        let got = run(self.get(Identifier::Key(key))).transpose();
        let Some((_, named)) = run(self.find(key))? else {
            assert!(got.is_none(), "what was got is found");
            return Ok("absent".into());
        };
        let (mut borne, _) = self.bearers(key)?;
        borne.sort_by_key(|record| record.row != named);
        let first = self.shown(&borne[0], got.expect("what is found was got"), room);
        let others = borne[1..]
            .iter()
            .map(|record| self.shown(record, self.value_of(record), room));
        Ok(std::iter::once(first).chain(others).collect::<Vec<_>>().join("\t"))
    }

    pub(super) fn by_number(&self, number: u64, room: u64) -> Result<String, Error> {
        let Some(value) = run(self.get(Identifier::Index(number))).transpose() else {
            return Ok("absent".into());
        };
        let position = self.first_position(number).expect("what was got has a place");
        Ok(self.shown(&self.at(number, position)?, value, room))
    }

    pub(super) fn by_place(&self, number: u64, position: u64, room: u64) -> Result<String, Error> {
        if !self.iter_positions(number).any(|kept| kept == position) {
            return Ok(ours("absent"));
        }
        let record = self.at(number, position)?;
        let answer = self.shown(&record, self.value_of(&record), room);
        Ok(if answer.starts_with('~') { answer } else { ours(answer) })
    }

    pub(super) fn of_number(&self, number: u64, room: u64, bare: bool) -> Result<String, Error> {
        let places: Vec<_> = self.iter_positions(number).map(|position| (number, position)).collect();
        match run(self.get_all(number)) {
            Ok(values) => Ok(listed(values.map_or(0, |values| values.len()), None, &places, room)),
            // One damaged value, and the original lists none.
            Err(error) if is_checksum(&error) && !bare => {
                let answer = listed(places.len(), None, &places, room);
                Ok(if answer.starts_with('~') { answer } else { ours(answer) })
            }
            Err(error) => Err(error),
        }
    }

    pub(super) fn of_key(&self, key: &K, room: u64) -> Result<String, Error> {
        let (borne, candidates) = self.bearers(key)?;
        let places: Vec<_> = borne.iter().map(|record| (record.row.index, record.position)).collect();
        let answer = listed(places.len(), Some(candidates), &places, room);
        Ok(if answer.starts_with('~') { answer } else { ours(answer) })
    }

    pub(super) fn counted(&self) -> String {
        let floor = number_or_none(self.oldest_allowed);
        format!(
            "counts records {} numbers {} floor {floor}",
            self.keys.len(),
            self.items
        )
    }

    pub(super) fn cost(&self, section: &Section<u64>) -> u64 {
        let rows = 0..section.keys.len() as u64;
        rows.map(|position| {
            let row = run(self.oversized.get(section.start, position)).expect("the row is there");
            u64::from(row.value_location().1)
        })
        .sum()
    }

    /// Which limit a put would pass, were it to be stored: the original has none.
    pub(super) fn over_limits(&self, start: &Start, number: u64, length: u64) -> Option<String> {
        let limits = start.limits;
        let at = [self.section(number), 0, 0];
        let (rows, cost) = match self.section_of(number) {
            Some(section) => (section.keys.len() as u64, self.cost(section)),
            None if self.sections.by_start.len() as u64 >= limits.slots => {
                return Some(refused_by_us(12, 2, at, "no slot is free for a new section"));
            }
            None => (0, 0),
        };
        if rows >= limits.rows {
            return Some(refused_by_us(13, 2, at, "the section has all its rows"));
        }
        (cost + length + 4 > limits.bytes).then(|| refused_by_us(14, 2, at, "the section's bytes are used up"))
    }
}
