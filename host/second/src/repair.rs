//! A damaged page of the image put right, where some change of one symbol gives it its entry's signature.

use crate::backup::matched;
use crate::field::{times_power, ORDER};
use crate::signature::symbols;
use crate::{refuse_if, Header, Refusal, PAGENO, THIN};

/// What a repair that is not refused answers.
#[derive(Clone, Copy, Debug, PartialEq, Eq)]
pub enum Repair {
    Whole,
    /// The symbol that was changed, by its position in the page, and whether the repair carries the mark.
    Repaired {
        position: u64,
        old: u16,
        new: u16,
        marked: bool,
    },
    Beyond,
}

/// Puts one symbol of a page right, if the page is not whole and that gives it its entry's signature.
pub fn repair_page(image: &mut [u8], map: &[u8], page: u64) -> Result<Repair, Refusal> {
    let header = matched(map, &[image.len()])?;
    refuse_if(page >= header.pages, PAGENO, 0)?;
    refuse_if(header.n == 1, THIN, 0)?;
    let (page, entry) = (&mut image[header.page(page)], &map[header.entry(page)]);
    if header.entry_of(page) == entry {
        return Ok(Repair::Whole);
    }
    let Some((i, repaired)) = repaired(&header, page, entry) else { return Ok(Repair::Beyond) };
    let answer = Repair::Repaired { position: i as u64, old: symbol(page, i), new: symbol(&repaired, i), marked: header.n == 2 };
    page.copy_from_slice(&repaired);
    Ok(answer)
}

/// The page with one symbol changed such that it has the entry's signature, if there is one, and that symbol's position.
/// A change d at position i adds d · α^(ij) to component j: the first component names the d of each position, and the second tells where that may fit.
/// There the changed page is signed afresh, which decides.
fn repaired(header: &Header, page: &[u8], entry: &[u8]) -> Option<(usize, Vec<u8>)> {
    let signature = header.entry_of(page);
    let differences: Vec<u16> = symbols(&signature).zip(symbols(entry)).map(|(found, due)| found ^ due).collect();
    let changes = (0..page.len().div_ceil(2)).map(|i| (i, times_power(differences[0], ORDER - i as u64)));
    let fitting = changes.filter(|&(i, d)| d != 0 && times_power(d, 2 * i as u64) == differences[1]);
    fitting.map(|(i, d)| (i, changed(page, i, d))).find(|(_, changed)| header.entry_of(changed) == entry)
}

/// The page with d added to symbol i, as far as that symbol has bytes: of the last one of an odd page only the low byte is there.
fn changed(page: &[u8], i: usize, d: u16) -> Vec<u8> {
    let mut changed = page.to_vec();
    changed[2 * i..].iter_mut().zip(d.to_le_bytes()).for_each(|(byte, change)| *byte ^= change);
    changed
}

fn symbol(page: &[u8], i: usize) -> u16 {
    symbols(page).nth(i).expect("a position in the page")
}

#[cfg(test)]
mod tests {
    use super::*;
    use crate::{make_map, sign};

    /// The definition: every page that is this one but for one symbol, kept if it has these components.
    fn all_that_fit(n: u64, page: &[u8], components: [u16; 4]) -> Vec<(usize, Vec<u8>)> {
        let values = |i: usize| if 2 * i + 1 < page.len() { 1..=u16::MAX } else { 1..=255 };
        let changes = (0..page.len().div_ceil(2)).flat_map(|i| values(i).map(move |d| (i, changed(page, i, d))));
        changes.filter(|(_, changed)| sign(n, changed).unwrap().components == components).collect()
    }

    /// A repair of the page, beside all that fit by the definition, of which there is at most one.
    fn is_as_defined(n: u64, page: &[u8], components: [u16; 4]) {
        let mut map = vec![0; 21 + 2 * n as usize];
        make_map(n, 6, page, &mut map).unwrap();
        map[21..].chunks_mut(2).zip(components).for_each(|(bytes, component)| bytes.copy_from_slice(&component.to_le_bytes()));
        let mut image = page.to_vec();
        let answer = repair_page(&mut image, &map, 0).unwrap();
        if sign(n, page).unwrap().components == components {
            assert_eq!((answer, &image[..]), (Repair::Whole, page));
            return;
        }
        match &all_that_fit(n, page, components)[..] {
            [] => assert_eq!((answer, &image[..]), (Repair::Beyond, page)),
            [(i, due)] => {
                let repaired = Repair::Repaired { position: *i as u64, old: symbol(page, *i), new: symbol(due, *i), marked: n == 2 };
                assert_eq!((answer, &image), (repaired, due));
            }
            more => panic!("{} changes fit", more.len()),
        }
    }

    /// The page itself; longer ones, of which the first byte more completes an odd page; and some with one or two symbols changed.
    fn objects(page: &[u8]) -> Vec<Vec<u8>> {
        let last = (page.len() - 1) / 2;
        let (longer, longest) = ([page, &[9]].concat(), [page, &[0, 0, 9]].concat());
        let (first_changed, last_changed) = (changed(page, 0, 0x8001), changed(page, last, 0x27));
        let (neighbours, ends) = (changed(&changed(page, 0, 8), last.min(1), 6), changed(&changed(page, 0, 8), last, 6));
        vec![page.to_vec(), longer, longest, first_changed, last_changed, neighbours, ends]
    }

    #[test]
    fn repairs_are_those_of_the_definition() {
        let page = [0x31, 0x41, 0x59, 0x26, 0x53, 0x58];
        for n in 2..=4 {
            for length in 1..=6 {
                for object in objects(&page[..length]) {
                    is_as_defined(n, &page[..length], sign(n, &object).unwrap().components);
                }
            }
        }
    }

    #[test]
    fn entries_of_no_page_are_as_defined() {
        let entries = [[0, 1, 0, 0], [1, 0, 0, 0], [0, 0, 1, 0], [0, 0, 0, 1], [1, 1, 2, 0], [1, 1, 1, 2], [4, 16, 64, 255], [0xFFFF, 1, 2, 3]];
        for n in 2..=4 {
            for entry in entries {
                let components = [0, 1, 2, 3].map(|j| if (j as u64) < n { entry[j] } else { 0 });
                is_as_defined(n, &[0; 5], components);
                is_as_defined(n, &[0; 6], components);
            }
        }
    }
}
