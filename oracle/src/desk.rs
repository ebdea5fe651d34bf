//! Reads the script, and keeps what was begun and what was saved.

use crate::keys::from_hex;
use crate::script::{Limits, Start, number, open, ours, refused_by_us};
use crate::translator::AnyTranslator;
use crate::{Begin, Disk, Original};
use std::collections::HashMap;
use std::io::{BufRead, Write};
use std::panic::{AssertUnwindSafe, catch_unwind};

/// An archive of the original over its disk.
pub trait Voyage {
    /// The answer of a line; none where the line is no call.
    fn answer(&mut self, name: &str, words: &[&str], text: &str) -> Option<String>;
    fn disk(&self) -> &Disk;
}

enum Begun {
    Nothing,
    /// Rows that are written behind the archive's back, and the width of their keys.
    Rows(Disk, usize),
    Voyage(Start, Box<dyn Voyage>),
}

pub struct Desk {
    bare: bool,
    begun: Begun,
    /// What was saved, and the width of its keys.
    saved: HashMap<String, (Disk, usize)>,
}

impl Desk {
    pub fn new(bare: bool) -> Self {
        Self {
            bare,
            begun: Begun::Nothing,
            saved: HashMap::new(),
        }
    }

    pub fn serve(&mut self, script: impl BufRead, mut out: impl Write) {
        for line in script.lines() {
            let line = line.expect("the script is UTF-8");
            if line.starts_with('#') || line.chars().all(|c| c == ' ') {
                continue;
            }
            let answer = catch_unwind(AssertUnwindSafe(|| self.line(&line))).unwrap_or_else(|panic| {
                let told = panic.downcast_ref::<String>().map(String::as_str);
                let told = told.or(panic.downcast_ref::<&str>().copied()).unwrap_or_default();
                format!("panic: {}", told.replace('\n', " "))
            });
            writeln!(out, "{answer}").expect("the answer is written");
            out.flush().expect("the answer is written");
        }
    }

    fn line(&mut self, line: &str) -> String {
        let words: Vec<&str> = line.split(' ').collect();
        let text = line.splitn(4, ' ').nth(3).unwrap_or("");
        let answer = match words[0] {
            "voyage" => self.voyage(&words[1..]),
            "journal" => self.journal(&words[1..]),
            "append" => self.append(&words[1..], line),
            "save" => self.save(words.get(1).copied()),
            "open" => self.reopen(words.get(1).copied()),
            "damage" => self.spoil(&words[1..], Disk::damage),
            "alter_key" => self.spoil(&words[1..], Disk::alter_key),
            "handle" => handle(&words[1..]),
            name => match &mut self.begun {
                Begun::Voyage(_, voyage) => voyage.answer(name, &words[1..], text),
                _ => None,
            },
        };
        answer.unwrap_or_else(|| open("not understood"))
    }

    fn voyage(&mut self, words: &[&str]) -> Option<String> {
        let &[kind, translator, medium, slots, rows, bytes] = words else {
            return None;
        };
        let limits = Limits {
            slots: number(slots)?,
            rows: number(rows)?,
            bytes: number(bytes)?,
        };
        let translator = AnyTranslator::named(translator)?;
        let (boxes, on_pages) = (kind == "box", medium == "pages");
        let start = Start {
            boxes,
            translator,
            limits,
            on_pages,
            bare: self.bare,
        };
        if !limits.suit_a_journal() {
            return Some(sizes_refused());
        }
        self.begun = Begun::Voyage(start, Original::voyage(start, Disk::default()));
        Some(ours("voyage ready"))
    }

    fn journal(&mut self, words: &[&str]) -> Option<String> {
        let &[_medium, width, ..] = words else { return None };
        self.begun = Begun::Rows(Disk::default(), number(width)? as usize);
        Some(ours("journal ready"))
    }

    // No limits are kept here: the journal's own calls are not what is compared.
    fn append(&mut self, words: &[&str], line: &str) -> Option<String> {
        let Begun::Rows(disk, _) = &self.begun else { return None };
        let &[start, label, key, ..] = words else { return None };
        let text = line.splitn(5, ' ').nth(4).unwrap_or("");
        let position = disk.append(number(start)?, number(label)?, &from_hex(key)?, text.as_bytes());
        Some(ours(format!("row {position}")))
    }

    fn save(&mut self, file: Option<&str>) -> Option<String> {
        let (disk, width) = match &self.begun {
            Begun::Nothing => return None,
            Begun::Rows(disk, width) => (disk, *width),
            Begun::Voyage(start, voyage) if start.on_pages => (voyage.disk(), if start.boxes { 11 } else { 32 }),
            Begun::Voyage(..) => return None,
        };
        self.saved.insert(file?.into(), (disk.copy(), width));
        Some(open("saved: the bytes on disk differ"))
    }

    fn reopen(&mut self, file: Option<&str>) -> Option<String> {
        let Begun::Voyage(start, _) = self.begun else {
            return None;
        };
        let start = Start {
            on_pages: true,
            ..start
        };
        let disk = self.saved.get(file?)?.0.copy();
        let sections = disk.sections().len();
        self.begun = Begun::Voyage(start, Original::voyage(start, disk));
        Some(ours(format!("opened {sections} sections")))
    }
}

impl Desk {
    // The comparison spoils the file of `moves` in the same place.
    fn spoil(&self, words: &[&str], how: fn(&Disk, u64, usize, usize) -> Option<()>) -> Option<String> {
        let &[file, start, position] = words else { return None };
        let (disk, width) = self.saved.get(file)?;
        let spoilt = how(disk, number(start)?, number(position)? as usize, *width);
        Some(ours(spoilt.map_or("no such row", |()| "spoilt")))
    }
}

fn sizes_refused() -> String {
    refused_by_us(4, 2, [0; 3], "limits out of range, or a slice of another length")
}

// The original's own packing, which `moves` has no line for.
fn handle(words: &[&str]) -> Option<String> {
    let &[slot, position] = words else { return None };
    let handle = Original::handle(number(slot)? as usize, number(position)?);
    Some(format!("handle {handle}"))
}
