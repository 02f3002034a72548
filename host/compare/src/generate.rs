//! Random calls and runs: mostly allowed, biased towards the edges of the scope's sizes.

use crate::call::Call;
use crate::dice::Dice;
use crate::handed;
use crate::run::{true_map, Act, Kind, Run};

/// A call of any operation.
pub fn call(dice: &mut Dice) -> Call {
    match dice.below(12) {
        0 => {
            let length = length(dice, 131_068);
            handed::sign(n(dice), &dice.bytes(length))
        }
        1 => join(dice),
        2 => edit(dice),
        3 => make_map(dice),
        4..=8 => on_backup(dice),
        9 => search(dice),
        kind => {
            let field = field(dice);
            let put = if kind == 10 { handed::encode } else { handed::decode };
            put(&field, room(dice, field.len()))
        }
    }
}

/// 1 to 4, and now and then something else.
fn n(dice: &mut Dice) -> u64 {
    let (usual, any) = (1 + dice.below(4), dice.number());
    if dice.once_in(16) {
        dice.pick(&[0, 5, u64::MAX, 1 << 32 | 2, any])
    } else {
        usual
    }
}

/// A length up to about a limit: the smallest ones, short ones, and rarely the limit itself.
fn length(dice: &mut Dice, limit: u64) -> usize {
    (match dice.below(80) {
        0 => limit - 3 + dice.below(6),
        1 => dice.below(limit),
        2..=9 => dice.below(300),
        10..=29 => dice.below(4),
        _ => dice.below(32),
    }) as usize
}

fn mostly_even(dice: &mut Dice, length: usize) -> usize {
    length & if dice.once_in(12) { !0 } else { !1 }
}

/// A room for an output: exact, or a little or much off.
fn room(dice: &mut Dice, needed: usize) -> usize {
    match dice.below(12) {
        0 => needed.saturating_sub(1),
        1 => needed + 1,
        2 => needed + dice.below(100) as usize,
        3 => dice.below(needed as u64 + 1) as usize,
        _ => needed,
    }
}

/// A signature with n, and a count of symbols such that the sum of two is often at the limit of 65,534.
fn signature(dice: &mut Dice, n: u64) -> (u64, [u16; 4], u64) {
    let components = [0; 4].map(|_| if dice.once_in(4) { dice.below(3) as u16 } else { dice.number() as u16 });
    let (any, inside) = (dice.number(), dice.below(65_536));
    (n, components, dice.pick(&[0, 1, 2, 32_767, 65_533, 65_534, 65_535, u64::MAX, any, inside, inside, inside % 100]))
}

fn join(dice: &mut Dice) -> Call {
    let first_n = n(dice);
    let second_n = if dice.once_in(8) { n(dice) } else { first_n };
    let (first, mut second) = (signature(dice, first_n), signature(dice, second_n));
    if dice.once_in(2) {
        second.2 = 65_534u64.saturating_sub(first.2);
    }
    handed::join(first, second)
}

fn edit(dice: &mut Dice) -> Call {
    let length = length(dice, 131_068);
    let length = mostly_even(dice, length);
    let new_length = if dice.once_in(8) { room(dice, length) } else { length };
    let n = n(dice);
    let (_, components, any_place) = signature(dice, n);
    let last_place = 65_534 - length.div_ceil(2).min(65_534) as u64;
    let places = [dice.below(200), last_place, last_place + 1, any_place];
    handed::edit(n, components, dice.pick(&places), &dice.bytes(length), &dice.bytes(new_length))
}

fn make_map(dice: &mut Dice) -> Call {
    let page_bytes = match dice.below(24) {
        0 => dice.pick(&[0, 1, 3, 65_537, 65_538, u64::MAX, 1 << 32 | 4]),
        1 => dice.pick(&[65_534, 65_536, 4_096]),
        _ => 2 + 2 * dice.below(12),
    };
    let (n, bucket) = (n(dice), bucket(dice, page_bytes));
    let pages = bucket.len().div_ceil(page_bytes.clamp(2, 65_536) as usize);
    handed::make_map(n, page_bytes, &bucket, room(dice, 18 + pages * (3 + 2 * n.min(4) as usize)))
}

/// A bucket of up to 6 pages, and rarely one of about 4,096 pages or of many bytes.
fn bucket(dice: &mut Dice, page_bytes: u64) -> Vec<u8> {
    let page_bytes = page_bytes.clamp(2, 64);
    let length = match dice.below(100) {
        0 => page_bytes * 4_096 + dice.below(3) - 1,
        1 => dice.below(300_000),
        _ => dice.below(page_bytes * 6),
    };
    dice.bytes(length as usize)
}

/// A call on a table, an image near to it, and a map near to the image's.
fn on_backup(dice: &mut Dice) -> Call {
    let (n, page_bytes) = (1 + dice.below(4), 2 + 2 * dice.pick(&[0, 0, 1, 1, 2, 5, 31, 32_767]));
    let mut table = bucket(dice, page_bytes);
    table.truncate(page_bytes as usize * 4_096);
    let mut image = table.clone();
    let mut map = true_map(n, page_bytes, &image);
    scatter(dice, &mut table, 4);
    if dice.once_in(4) {
        scatter(dice, &mut image, 2);
    }
    match dice.below(16) {
        0 | 1 => scatter(dice, &mut map, 1),
        2 => map.truncate(dice.below(map.len() as u64 + 1) as usize),
        3 => map.extend(dice.bytes(1)),
        4 => table.push(1),
        5 => drop(image.pop()),
        _ => (),
    }
    let pages = image.len().div_ceil(page_bytes as usize) as u64;
    let (one, other) = (dice.below(pages + 1), dice.below(pages + 1));
    let page = dice.pick(&[0, pages.saturating_sub(1), pages, pages + 1, u64::MAX, one, other]);
    call_on(dice, (&table, &image, &map), pages, page)
}

/// Changes up to so many bytes, mostly by one bit.
fn scatter(dice: &mut Dice, bytes: &mut [u8], most: u64) {
    for _ in 0..dice.below(most + 1).min(bytes.len() as u64) {
        let at = dice.below(bytes.len() as u64) as usize;
        bytes[at] ^= if dice.once_in(3) { dice.number() as u8 } else { 1 << dice.below(8) };
    }
}

fn call_on(dice: &mut Dice, (table, image, map): (&[u8], &[u8], &[u8]), pages: u64, page: u64) -> Call {
    match dice.below(8) {
        0 => handed::read_map(map),
        1 => {
            let needed = second::list_map(map, &mut []).unwrap_or_else(|refusal| refusal.value);
            handed::list_map(map, room(dice, needed as usize))
        }
        2 => handed::store(table, image, map, room(dice, pages as usize)),
        3 => handed::step(page, table, image, map),
        4 => handed::load_page(image, map, page),
        5 => handed::ask_page(image, map, page),
        6 => handed::load_bucket(image, map, table),
        _ => repair(dice, image, map, page),
    }
}

/// A repair of a page, if it is there, that is mostly damaged first.
fn repair(dice: &mut Dice, image: &[u8], map: &[u8], page: u64) -> Call {
    let (mut image, mut map) = (image.to_vec(), map.to_vec());
    if let Ok(header) = second::read_map(&map) {
        let bytes = image.chunks_mut(header.page_bytes as usize).nth(page as usize);
        let entry = map[18..].chunks_mut(3 + 2 * header.n as usize).nth(page as usize);
        if let (Some(bytes), Some(entry)) = (bytes, entry) {
            damage(dice, bytes, &mut entry[3..]);
        }
    }
    handed::repair_page(&image, &map, page)
}

/// Damages up to three symbols of a page, or its entry, or nothing.
fn damage(dice: &mut Dice, page: &mut [u8], entry: &mut [u8]) {
    let symbols = page.len().div_ceil(2) as u64;
    match dice.below(8) {
        0 => (),
        1..=4 => (0..dice.pick(&[1, 1, 1, 2, 3])).for_each(|_| add(page, dice.below(symbols), symbol(dice))),
        5 => damage_two_of_three(dice, page, symbols),
        6 => scatter(dice, entry, 2),
        _ => enter_a_change(dice, page, symbols, entry),
    }
}

/// Adds two symbols of a multiple of (8, 6, 1), which has the signature of zeros for n = 2: they look like the third alone.
fn damage_two_of_three(dice: &mut Dice, page: &mut [u8], symbols: u64) {
    let (start, multiple, left_out) = (dice.below(symbols), symbol(dice), dice.below(3));
    for (place, factor) in (0..3).zip([8, 6, 1]).filter(|(place, _)| *place != left_out && start + place < symbols) {
        add(page, start + place, second::product(multiple, factor));
    }
}

/// Makes the entry that of the page with one symbol changed, which may lie past the page: zeros there do not change the signature.
fn enter_a_change(dice: &mut Dice, page: &[u8], symbols: u64, entry: &mut [u8]) {
    let mut longer = page.to_vec();
    longer.resize(page.len() + 5, 0);
    add(&mut longer, dice.below(symbols + 2), symbol(dice));
    let signature = second::sign(entry.len() as u64 / 2, &longer).expect("allowed sizes");
    entry.chunks_mut(2).zip(signature.components).for_each(|(bytes, component)| bytes.copy_from_slice(&component.to_le_bytes()));
}

/// Adds to the symbol at a position, as far as it has bytes.
fn add(page: &mut [u8], position: u64, symbol: u16) {
    page[2 * position as usize..].iter_mut().zip(symbol.to_le_bytes()).for_each(|(byte, change)| *byte ^= change);
}

/// Any symbol, one with a zero byte, or 1.
fn symbol(dice: &mut Dice) -> u16 {
    let any = dice.number() as u16;
    dice.pick(&[any, any & 0xFF, any & 0xFF00, 1])
}

/// A caption field, nearly always of whole symbols.
fn field(dice: &mut Dice) -> Vec<u8> {
    let length = length(dice, 65_536);
    let length = mostly_even(dice, length);
    dice.bytes(length)
}

/// A search, mostly for a piece of the field.
fn search(dice: &mut Dice) -> Call {
    let plain = field(dice);
    let mut code = vec![0; plain.len()];
    if dice.once_in(8) || second::encode(&plain, &mut code).is_err() {
        code.clone_from(&plain);
    }
    let start = 2 * dice.below(plain.len() as u64 / 2 + 1) as usize;
    let length = length(dice, 65_536).min(plain.len() - start);
    let mut pattern = plain[start..start + mostly_even(dice, length)].to_vec();
    if dice.once_in(8) {
        pattern.extend(dice.bytes(2));
    }
    let places = (code.len().div_ceil(2) + 1).saturating_sub(pattern.len().div_ceil(2));
    handed::search(&code, &pattern, room(dice, places))
}

/// A run of up to 40 acts on a backup of a few pages.
pub fn run(dice: &mut Dice) -> Run {
    let (n, page_bytes) = (1 + dice.below(4), 2 + 2 * dice.below(16));
    let length = dice.below(page_bytes * 6) as usize;
    let table = dice.bytes(length);
    let acts = (0..dice.below(40)).map(|_| act(dice)).collect();
    Run { n, page_bytes, table, acts }
}

fn act(dice: &mut Dice) -> Act {
    use Kind::*;
    let kind = match dice.below(32) {
        0 => DamageImage,
        1 => DamageMap,
        2..=4 => SetPlace,
        5..=17 => dice.pick(&[EditByte, EditFlags, EditPage, EditSymbols]),
        _ => dice.pick(&[Store, Step, Step, Step, LoadPage, AskPage, LoadBucket, RepairPage]),
    };
    let at = match kind {
        EditByte | DamageImage | DamageMap => dice.number(),
        SetPlace if dice.once_in(2) => 0,
        _ if dice.once_in(40) => dice.pick(&[6, 7, 8, u64::MAX]),
        _ => dice.below(6),
    };
    Act { kind, at, with: dice.number() }
}
