//! Pages of an image put right in its file.

use crate::failure::Failure;
use crate::files::{self, InPlace};
use crate::json::Json;
use crate::names::{map_of, Names};
use crate::picture::{Picture, State};
use crate::report::{commas, counted, listed, named, shown, Part, Report};
use crate::words::Words;
use cotelark::{Repair, Symbols};
use std::ops::Range;

/// A page that was put right: the symbol's position in it, what stood there and what stands there now, and whether it may have been two.
struct Repaired {
    page: usize,
    position: Symbols,
    old: u16,
    new: u16,
    marked: bool,
}

/// What became of the pages that were asked for.
#[derive(Default)]
struct Found {
    looked_at: usize,
    repaired: Vec<Repaired>,
    beyond: Vec<usize>,
}

pub fn repair(words: &Words) -> Result<Report, Failure> {
    let (image_file, map_file) = (words.file(0), words.file(1));
    files::all_different(&[image_file, map_file])?;
    let mut image = InPlace::open(image_file)?;
    let (map, names) = map_of(image_file, &image.bytes, map_file)?;
    let pages = words.k.map_or_else(|| (0..names.sizes.pages).collect(), |k| vec![k]);
    let found = mend(&mut image.bytes, &map, &names, &pages)?;
    image.write(found.repaired.iter().map(|repaired| repaired.symbol(&names)))?;
    Ok(found.report(&names, words.k.is_none()))
}

fn mend(image: &mut [u8], map: &[u8], names: &Names, pages: &[usize]) -> Result<Found, Failure> {
    let mut found = Found { looked_at: pages.len(), ..Found::default() };
    for &page in pages {
        match cotelark::repair_page(image, map, page).map_err(|refusal| names.refused(refusal))? {
            Repair::Whole => (),
            Repair::Repaired { position, old, new, marked } => found.repaired.push(Repaired { page, position, old, new, marked }),
            Repair::Beyond => found.beyond.push(page),
        }
    }
    Ok(found)
}

impl Found {
    fn report(&self, names: &Names, all: bool) -> Report {
        let repaired: Vec<usize> = self.repaired.iter().map(|repaired| repaired.page).collect();
        let whole = self.looked_at - repaired.len() - self.beyond.len();
        let figures = format!("{} whole, {} repaired, {} beyond repair", commas(whole), commas(repaired.len()), commas(self.beyond.len()));
        let mut parts = vec![Part::Line(format!("{} of {}: {figures}", counted(self.looked_at, "page"), shown(names.image())))];
        parts.extend(self.repaired.iter().map(|repaired| Part::Line(repaired.line())));
        parts.extend(listed("beyond repair", &self.beyond));
        if all {
            let changed = [(State::Repaired, &repaired[..]), (State::Damaged, &self.beyond)];
            parts.push(Part::Picture(Picture::new(names.sizes.pages, "whole", &changed)));
        }
        let json = vec![
            ("looked_at", Json::Number(self.looked_at)),
            ("repaired", Json::list(&self.repaired, Repaired::json)),
            ("beyond", Json::numbers(&self.beyond)),
        ];
        Report::new(parts, json).against(self.against(names))
    }

    fn against(&self, names: &Names) -> Option<Failure> {
        let cannot = || format!("no change of one symbol puts {} of {} right", named(&self.beyond), shown(names.image()));
        (!self.beyond.is_empty()).then(|| Failure::File(format!("{}; make a new backup of the table with `cotelark init`.", cannot())))
    }
}

impl Repaired {
    /// Where the symbol stands in the image: two bytes, or the odd last one.
    fn symbol(&self, names: &Names) -> Range<usize> {
        let page = names.page(self.page);
        let start = page.start + 2 * self.position.0;
        start..page.end.min(start + 2)
    }

    fn line(&self) -> String {
        let mark = if self.marked { " (n = 2: may be two damaged symbols taken for one)" } else { "" };
        format!("page {}: symbol {} put right, {:04x} became {:04x}{mark}", commas(self.page), commas(self.position.0), self.old, self.new)
    }

    fn json(&self) -> Json {
        Json::Object(vec![
            ("page", Json::Number(self.page)),
            ("position", Json::Number(self.position.0)),
            ("old", Json::Number(usize::from(self.old))),
            ("new", Json::Number(usize::from(self.new))),
            ("marked", Json::Bool(self.marked)),
        ])
    }
}
