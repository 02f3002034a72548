//! From an input on which two programs differ to the smallest that can be found on which they still do.

use crate::call::{difference, Call, Program};
use crate::part::Part;
use crate::run::{difference_in_run, Run};
use second::Header;
use std::iter::successors;
use std::ops::Range;
use std::time::{Duration, Instant};

/// How long one search for a smaller input may take.
const TIME: Duration = Duration::from_secs(20);

/// An input with parts to cut and to lower, and with larger pieces that can be left out.
pub trait Input: Clone {
    fn parts_mut(&mut self) -> Vec<&mut dyn Part>;
    fn pieces(&self) -> usize;
    /// The input without some of its pieces, if they can be left out.
    fn without(&self, pieces: Range<usize>) -> Option<Self>;
}

/// The pieces of a call are those of its map, if it has one that reads: each page, with its bytes and its entry; the
/// last byte of the bucket; and the last component of every entry.
impl Input for Call {
    fn parts_mut(&mut self) -> Vec<&mut dyn Part> {
        Call::parts_mut(self)
    }

    fn pieces(&self) -> usize {
        let header = buckets_and_map(&mut self.clone()).and_then(|(_, map)| second::read_map(map).ok());
        header.map_or(0, |header| header.pages as usize + 2)
    }

    fn without(&self, pieces: Range<usize>) -> Option<Call> {
        let mut smaller = self.clone();
        let (buckets, map) = buckets_and_map(&mut smaller)?;
        let Header { n, page_bytes, bucket_bytes, pages } = second::read_map(map).ok()?;
        let (n, page_bytes, pages) = (n as usize, page_bytes as usize, pages as usize);
        let end = bucket_bytes as usize;
        let gone = if pieces.end <= pages {
            map.drain(18 + pieces.start * (3 + 2 * n)..18 + pieces.end * (3 + 2 * n));
            pieces.start * page_bytes..end.min(pieces.end * page_bytes)
        } else if pieces == (pages..pages + 1) && end % page_bytes != 1 && end > 0 {
            end - 1..end
        } else if pieces == (pages + 1..pages + 2) && n > 1 {
            drop_last_components(map, n);
            end..end
        } else {
            return None;
        };
        map[14..18].copy_from_slice(&((end - gone.len()) as u32).to_le_bytes());
        for bucket in buckets {
            bucket.drain(gone.start.min(bucket.len())..gone.end.min(bucket.len()));
        }
        Some(smaller)
    }
}

fn buckets_and_map(call: &mut Call) -> Option<(Vec<&mut Vec<u8>>, &mut Vec<u8>)> {
    match call {
        Call::ReadMap { map, .. } | Call::ListMap { map, .. } => Some((vec![], map)),
        Call::LoadPage { image, map, .. } | Call::AskPage { image, map, .. } | Call::RepairPage { image, map, .. } => Some((vec![image], map)),
        Call::Store { table, image, map, .. } | Call::Step { table, image, map, .. } | Call::LoadBucket { image, map, table, .. } => {
            Some((vec![table, image], map))
        }
        _ => None,
    }
}

fn drop_last_components(map: &mut Vec<u8>, n: usize) {
    let entries = map.split_off(18);
    map[3] -= 1;
    for entry in entries.chunks(3 + 2 * n) {
        map.extend([entry[0], entry[1] - 2, entry[2]]);
        map.extend(&entry[3..1 + 2 * n]);
    }
}

/// The pieces of a run are its acts.
impl Input for Run {
    fn parts_mut(&mut self) -> Vec<&mut dyn Part> {
        let mut parts: Vec<&mut dyn Part> = vec![&mut self.n, &mut self.page_bytes, &mut self.table];
        for act in &mut self.acts {
            parts.extend([&mut act.at as &mut dyn Part, &mut act.with]);
        }
        parts
    }

    fn pieces(&self) -> usize {
        self.acts.len()
    }

    fn without(&self, acts: Range<usize>) -> Option<Run> {
        let mut smaller = self.clone();
        smaller.acts.drain(acts);
        Some(smaller)
    }
}

/// The smallest call found on which the programs still differ.
pub fn smallest_call(call: &Call, one: &dyn Program, other: &dyn Program) -> Call {
    smallest(call, &|call| difference(one, other, call).is_some())
}

/// The smallest run found on which the programs still differ.
pub fn smallest_run(run: &Run, one: &dyn Program, other: &dyn Program) -> Run {
    smallest(run, &|run| difference_in_run(one, other, run).is_some())
}

fn smallest<I: Input>(input: &I, differs: &dyn Fn(&I) -> bool) -> I {
    let until = Instant::now() + TIME;
    let mut best = input.clone();
    loop {
        let smaller = candidates(&best).take_while(|_| Instant::now() < until).find(|input| differs(input));
        match smaller {
            Some(smaller) => best = smaller,
            None => return best,
        }
    }
}

/// Every input that is one change smaller, the larger changes first: at a long input only those end in time.
fn candidates<I: Input>(input: &I) -> impl Iterator<Item = I> + '_ {
    let pieces = [false, true].into_iter().flat_map(|fine| ranges(input.pieces(), fine));
    let changes = [false, true].into_iter().flat_map(|fine| cuts(input, fine).chain(lowerings(input, fine)));
    pieces.filter_map(|pieces| input.without(pieces)).chain(changes)
}

/// Ranges that cover so many values: the whole, then halves, quarters and so on to a 64th; or from there to single ones.
fn ranges(count: usize, fine: bool) -> impl Iterator<Item = Range<usize>> {
    let sizes = successors(Some(count), |size| (*size > 1).then(|| size.div_ceil(2))).filter(|size| *size > 0);
    sizes
        .filter(move |size| (size * 64 < count) == fine)
        .flat_map(move |size| (0..count).step_by(size).map(move |start| start..count.min(start + size)))
}

/// Each range cut out of all parts of one length, since some must be equally long, and out of one part alone.
fn cuts<I: Input>(input: &I, fine: bool) -> impl Iterator<Item = I> + '_ {
    let counts = shapes(input, |part| part.elastic().then(|| part.count()));
    let whole = counts.clone().into_iter().enumerate();
    let each = whole.flat_map(move |(index, count)| ranges(count.unwrap_or(0), fine).map(move |range| (index, range)));
    each.flat_map(|(index, range)| [(index, range.clone(), false), (index, range, true)]).map(move |(index, range, alone)| {
        let mut smaller = input.clone();
        for (twin, part) in smaller.parts_mut().into_iter().enumerate() {
            if twin == index || !alone && counts[twin] == counts[index] {
                part.cut(range.clone());
            }
        }
        smaller
    })
}

/// Each range of a part's values set to 0; to the rest by 27,720, which keeps the rest by every length up to 12; halved; lessened by an eighth, by 1,
/// or by 2, which keeps an even one even.
fn lowerings<I: Input>(input: &I, fine: bool) -> impl Iterator<Item = I> + '_ {
    let ways: [fn(u64) -> u64; 6] = [
        |_| 0,
        |value| value % 27_720,
        |value| value / 2,
        |value| value - value / 8,
        |value| value.saturating_sub(1),
        |value| value.saturating_sub(2),
    ];
    let counts = shapes(input, |part| part.count()).into_iter().enumerate();
    let each = counts.flat_map(move |(index, count)| ranges(count, fine).map(move |range| (index, range)));
    each.flat_map(move |(index, range)| ways.map(|way| (index, range.clone(), way))).filter_map(|(index, range, way)| {
        let mut smaller = input.clone();
        let lowered = smaller.parts_mut()[index].lower(range, way);
        lowered.then_some(smaller)
    })
}

fn shapes<I: Input, S>(input: &I, shape: impl Fn(&dyn Part) -> S) -> Vec<S> {
    input.clone().parts_mut().into_iter().map(|part| shape(part)).collect()
}
