//! A run: one backup, made from a table, and a row of acts on it, each carried out by two programs and compared.

use crate::call::{common_outcome, Call, Outcome, Program};
use crate::dice::Dice;
use crate::handed;
use crate::library::{FINISHED, WRITTEN};
use crate::part::Part;
use std::fmt;

/// What an act does.
#[derive(Clone, Copy, Debug, PartialEq, Eq)]
pub enum Kind {
    /// Changes a byte of the table.
    EditByte,
    /// Raises a flag and takes down another in a page of the table.
    EditFlags,
    /// Writes over a page of the table.
    EditPage,
    /// Changes a few symbols, up to 5, of a page of the table.
    EditSymbols,
    /// Changes a byte of the image.
    DamageImage,
    /// Changes a byte of the map.
    DamageMap,
    /// A whole store, compared with its steps too; the list is long by up to 2.
    Store,
    /// A step at the run's place.
    Step,
    /// Sets the run's place.
    SetPlace,
    LoadPage,
    AskPage,
    LoadBucket,
    RepairPage,
}

/// An act on the backup at a byte, page or place; any numbers will do, so that a run can be shrunk.
#[derive(Clone, Copy, Debug, PartialEq, Eq)]
pub struct Act {
    pub kind: Kind,
    pub at: u64,
    pub with: u64,
}

/// A backup to start from, and acts.
#[derive(Clone, Debug, PartialEq)]
pub struct Run {
    pub n: u64,
    pub page_bytes: u64,
    pub table: Vec<u8>,
    pub acts: Vec<Act>,
}

impl fmt::Display for Run {
    fn fmt(&self, out: &mut fmt::Formatter<'_>) -> fmt::Result {
        write!(out, "Run\n  n: {}\n  page_bytes: {}\n  table: {}", self.n, self.page_bytes, self.table.show())?;
        self.acts.iter().try_for_each(|act| write!(out, "\n  {:?} at {} with {}", act.kind, act.at, act.with))
    }
}

/// How two programs differ in a run, or how they agree on a store that breaks its promise.
pub fn difference_in_run(one: &dyn Program, other: &dyn Program, run: &Run) -> Option<String> {
    carry_out(one, other, run).err()
}

fn carry_out(one: &dyn Program, other: &dyn Program, run: &Run) -> Result<(), String> {
    let room = 18 + 11 * (run.table.len() / run.page_bytes.max(1) as usize + 2);
    let make = handed::make_map(run.n, run.page_bytes, &run.table, room);
    let made = common_outcome(one, other, &make).map_err(|difference| format!("at the start, {make}\n{difference}"))?;
    let Outcome { status: 0, after: Call::MakeMap { mut output, value, .. }, .. } = made else { return Ok(()) };
    output.truncate(value as usize);
    let page_bytes = run.page_bytes as usize;
    let mut backup = Backup { page_bytes, table: run.table.clone(), image: run.table.clone(), map: output, place: 0 };
    for (number, act) in run.acts.iter().enumerate() {
        let Some(call) = backup.act(act) else { continue };
        let outcome = common_outcome(one, other, &call);
        let outcome = outcome.map_err(|difference| format!("at act {number}, {call}\n{difference}"))?;
        let checked = backup.check_store(run.n, &outcome).and_then(|()| check_steps(one, other, &call, &outcome));
        checked.map_err(|breach| format!("at act {number}, {call}\n{breach}"))?;
        backup.take_over(outcome);
    }
    Ok(())
}

/// The map of a bucket by the second program.
pub fn true_map(n: u64, page_bytes: u64, bucket: &[u8]) -> Vec<u8> {
    let mut map = vec![0; 18 + 11 * (bucket.len() / page_bytes as usize + 1)];
    let bytes = second::make_map(n, page_bytes, bucket, &mut map).expect("allowed sizes");
    map.truncate(bytes as usize);
    map
}

struct Backup {
    page_bytes: usize,
    table: Vec<u8>,
    image: Vec<u8>,
    map: Vec<u8>,
    place: u64,
}

impl Backup {
    /// Edits the backup, or gives the call that the act makes.
    fn act(&mut self, act: &Act) -> Option<Call> {
        match act.kind {
            Kind::EditByte => change(&mut self.table, act),
            Kind::DamageImage => change(&mut self.image, act),
            Kind::DamageMap => change(&mut self.map, act),
            Kind::EditFlags | Kind::EditPage | Kind::EditSymbols => self.edit_page(act),
            Kind::SetPlace => self.place = act.at,
            _ => return Some(self.call(act)),
        }
        None
    }

    fn edit_page(&mut self, act: &Act) {
        let pages = self.table.len().div_ceil(self.page_bytes).max(1) as u64;
        let Some(page) = self.table.chunks_mut(self.page_bytes).nth((act.at % pages) as usize) else { return };
        let mut dice = Dice::new(act.with);
        let page_bytes = page.len() as u64;
        let mut spot = || dice.below(page_bytes) as usize;
        match act.kind {
            Kind::EditFlags => {
                let (raised, lowered) = (spot(), spot());
                page[raised] |= 1;
                page[lowered] &= !1;
            }
            Kind::EditPage => page.copy_from_slice(&dice.bytes(page.len())),
            _ => (0..1 + act.with % 5).for_each(|_| page[spot()] ^= act.with as u8 | 1),
        }
    }

    fn call(&self, act: &Act) -> Call {
        let Backup { page_bytes, table, image, map, place } = self;
        match act.kind {
            Kind::Store => {
                let pages = table.len().div_ceil(*page_bytes);
                handed::store(table, image, map, pages + (act.with % 3) as usize)
            }
            Kind::Step => handed::step(*place, table, image, map),
            Kind::LoadPage => handed::load_page(image, map, act.at),
            Kind::AskPage => handed::ask_page(image, map, act.at),
            Kind::RepairPage => handed::repair_page(image, map, act.at),
            _ => handed::load_bucket(image, map, table),
        }
    }

    /// What the scope demands of a whole store, against plain comparison of bytes: from a true map, and with no page
    /// changed in more than n symbols, it makes the image the table and writes precisely the pages that differed.
    fn check_store(&self, n: u64, outcome: &Outcome) -> Result<(), String> {
        let Outcome { status: 0, after: Call::Store { table, image, map, list, value }, .. } = outcome else {
            return Ok(());
        };
        let page_bytes = self.page_bytes as u64;
        let changes = self.table.chunks(self.page_bytes).zip(self.image.chunks(self.page_bytes));
        let changes: Vec<usize> = changes.map(|(page, kept)| symbols_apart(page, kept)).collect();
        if self.map != true_map(n, page_bytes, &self.image) || changes.iter().any(|&symbols| symbols as u64 > n) {
            return Ok(());
        }
        let differed: Vec<u64> = (0..).zip(&changes).filter(|(_, symbols)| **symbols > 0).map(|(page, _)| page).collect();
        let kept = image == table && *map == true_map(n, page_bytes, table) && list[..*value as usize] == differed;
        if kept {
            Ok(())
        } else {
            Err(format!("the store did not write precisely the pages {differed:?}"))
        }
    }

    fn take_over(&mut self, outcome: Outcome) {
        match outcome.after {
            Call::Store { image, map, .. } => (self.image, self.map) = (image, map),
            Call::Step { place, image, map, .. } => (self.place, self.image, self.map) = (place, image, map),
            Call::LoadBucket { table, .. } => self.table = table,
            Call::RepairPage { image, .. } => self.image = image,
            _ => (),
        }
    }
}

/// Steps from place 0 to finished must do what a whole store did from the same start; tried up to 16 pages.
fn check_steps(one: &dyn Program, other: &dyn Program, store: &Call, stored: &Outcome) -> Result<(), String> {
    let Call::Store { table, image, map, list: room, .. } = store else { return Ok(()) };
    let Outcome { status: 0, after: Call::Store { image: stored_image, map: stored_map, list, value, .. }, .. } = stored else {
        return Ok(());
    };
    if room.len() > 16 {
        return Ok(());
    }
    let (mut next, mut written) = (handed::step(0, table, image, map), Vec::new());
    // One step more than the list has room for pages is enough to come to the end.
    for _ in 0..=room.len() {
        next = common_outcome(one, other, &next)?.after;
        match &next {
            Call::Step { answer: WRITTEN, value, .. } => written.push(*value),
            Call::Step { answer: FINISHED, image, map, .. } => {
                let same = image == stored_image && map == stored_map && written == list[..*value as usize];
                return if same { Ok(()) } else { Err("the steps did not do what the whole store did".to_string()) };
            }
            _ => (),
        }
    }
    Err("the steps did not finish".to_string())
}

/// Changes one byte to another value.
fn change(bytes: &mut [u8], act: &Act) {
    let at = act.at % bytes.len().max(1) as u64;
    if let Some(byte) = bytes.get_mut(at as usize) {
        *byte ^= (act.with % 255) as u8 + 1;
    }
}

/// In how many symbols two pages of one length differ.
fn symbols_apart(one: &[u8], other: &[u8]) -> usize {
    one.chunks(2).zip(other.chunks(2)).filter(|(one, other)| one != other).count()
}
