//! Pages of an image put right.

mod person;

use person::{done, failed, Folder, BUCKET};

#[test]
fn one_damaged_symbol_is_put_right() {
    let table: Vec<u8> = (0..=255).collect();
    let folder = Folder::with_backup(&table, "64", "4");
    folder.patch("i", 2 * 64 + 10, &[0xEE, 0xEE]);
    let repaired = folder.run(&["repair", "i", "m"]);
    let line = "4 pages of i: 3 whole, 1 repaired, 0 beyond repair\npage 2: symbol 5 put right, eeee became 8b8a\n";
    assert_eq!(repaired, done(&format!("{line}0  ..R.\n. whole   R repaired\n")));
    assert_eq!(folder.read("i"), table);
    let whole = "4 pages of i: 4 whole, 0 repaired, 0 beyond repair\n0  ....\n. whole\n";
    assert_eq!(folder.run_unchanged(&["repair", "i", "m"]), done(whole));
}

#[test]
fn only_the_page_asked_for_is_put_right() {
    let table = [7; 35];
    let folder = Folder::with_backup(&table, "10", "3");
    folder.patch("i", 0, &[8]);
    folder.patch("i", 34, &[8]);
    let repaired = folder.run(&["repair", "i", "m", "3", "--json"]);
    let json = "{\"looked_at\":1,\"repaired\":[{\"page\":3,\"position\":2,\"old\":8,\"new\":7,\"marked\":false}],\"beyond\":[]}\n";
    assert_eq!(repaired, done(json));
    let image = folder.read("i");
    assert_eq!((image.len(), image[0], image[34]), (35, 8, 7));
    let line = "1 page of i: 0 whole, 1 repaired, 0 beyond repair\npage 0: symbol 0 put right, 0708 became 0707\n";
    assert_eq!(folder.run(&["repair", "i", "m", "0"]), done(line));
    assert_eq!(folder.read("i"), table);
}

#[test]
fn with_n_2_a_repair_is_marked() {
    let folder = Folder::with_backup(&[0; 6], "6", "2");
    folder.write("i", [8, 0, 6, 0, 0, 0]);
    let repaired = folder.run(&["repair", "i", "m", "0"]);
    let line = "page 0: symbol 2 put right, 0000 became 0001 (n = 2: may be two damaged symbols taken for one)\n";
    assert_eq!(repaired, done(&format!("1 page of i: 0 whole, 1 repaired, 0 beyond repair\n{line}")));
    assert_eq!(folder.read("i"), [8, 0, 6, 0, 1, 0]);
    folder.patch("i", 0, &[9]);
    assert!(folder.run(&["repair", "i", "m", "--json"]).out.contains(",\"marked\":true}"));
}

#[test]
fn a_page_beyond_repair_stays() {
    let folder = Folder::with_backup(&[0; 24], "6", "3");
    folder.patch("i", 6, &[8, 0, 6, 0, 0, 0]);
    folder.patch("i", 20, &[1]);
    let found = folder.run(&["repair", "i", "m"]);
    let text = "4 pages of i: 2 whole, 1 repaired, 1 beyond repair\npage 3: symbol 1 put right, 0001 became 0000\nbeyond repair: page 1\n";
    assert_eq!(found.out, format!("{text}0  .D.R\n. whole   R repaired   D damaged\n"));
    let line = "cotelark repair: no change of one symbol puts page 1 of i right; make a new backup of the table with `cotelark init`.\n";
    assert_eq!((found.status, found.err.as_str()), (Some(1), line));
    assert_eq!(folder.read("i")[6..12], [8, 0, 6, 0, 0, 0]);
    assert_eq!(folder.read("i")[18..], [0; 6]);
    let json = folder.run_unchanged(&["repair", "i", "m", "--json"]);
    assert_eq!((json.status, json.err.as_str()), (Some(1), line));
    assert!(json.out.starts_with("{\"looked_at\":4,\"repaired\":[],\"beyond\":[1],\"error\":\"no change of one symbol puts "), "{json:?}");
}

#[test]
fn repairs_are_refused() {
    let thin = Folder::with_backup(&BUCKET, "4", "1");
    let line = "cotelark repair: THIN (14), value 0: n = 1 does not tell which symbol of a page is damaged: m has n = 1; ";
    assert_eq!(thin.run_unchanged(&["repair", "i", "m"]), failed(1, &format!("{line}a repair wants a backup made with --n 2, 3 or 4.\n")));
    let folder = Folder::with_backup(&BUCKET, "4", "2");
    let page = folder.run_unchanged(&["repair", "i", "m", "2"]);
    assert!(page.status == Some(1) && page.err.starts_with("cotelark repair: PAGENO (9), value 0: "), "{page:?}");
    // The largest number that there is, and a larger one, are page numbers as any other.
    assert_eq!(folder.run_unchanged(&["repair", "i", "m", "18446744073709551615"]), page);
    assert_eq!(folder.run_unchanged(&["repair", "i", "m", "99999999999999999999999"]), page);
    folder.write("i", [0; 5]);
    let lengths = folder.run_unchanged(&["repair", "i", "m"]);
    assert!(lengths.status == Some(1) && lengths.err.starts_with("cotelark repair: MATCH (6), value 0: "), "{lengths:?}");
}
