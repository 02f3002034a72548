//! A backup made, brought up to date and loaded, as a person would do it, with what they get to see and what is in the files.

mod person;

use person::{done, failed, Folder, BUCKET, MAP};

#[test]
fn a_backup_is_made() {
    let folder = Folder::new();
    folder.write("t", BUCKET);
    let made = folder.run(&["init", "t", "i", "m", "--page=4", "--n=2"]);
    assert_eq!(made, done("t backed up to i and m: 6 bytes in 2 pages of 4, n = 2\n"));
    assert_eq!((folder.read("i"), folder.read("m")), (BUCKET.to_vec(), MAP.to_vec()));
    assert_eq!(folder.files().len(), 3);
}

#[test]
fn a_backup_is_made_with_sizes_that_serve_every_table() {
    let folder = Folder::new();
    folder.write("t", vec![7; 16_777_216]);
    let made = folder.run(&["init", "t", "i", "m", "--json"]);
    assert_eq!(made, done("{\"n\":4,\"page_bytes\":4096,\"bucket_bytes\":16777216,\"pages\":4096,\"map_bytes\":45074}\n"));
    assert_eq!((folder.read("i").len(), folder.read("m").len()), (16_777_216, 45_074));
}

#[test]
fn an_empty_table_has_a_backup() {
    let folder = Folder::with_backup(b"", "4096", "4");
    assert_eq!((folder.read("i").len(), folder.read("m").len()), (0, 18));
    assert_eq!(folder.run(&["store", "t", "i", "m"]), done("t stored: 0 of 0 pages written, 0 of 0 bytes\n"));
    assert_eq!(folder.run(&["check", "i", "m"]), done("i checked: 0 of 0 pages damaged\n"));
    assert_eq!(folder.run(&["load", "i", "m", "o"]), done("i loaded to o: 0 bytes, each of its 0 pages with its entry's signature\n"));
}

#[test]
fn init_refuses_sizes_by_their_numbers() {
    let folder = Folder::new();
    folder.write("t", [0; 8_193]);
    let refused = |options: &[&str]| folder.run_unchanged(&[&["init", "t", "i", "m"], options].concat());
    assert_eq!(
        refused(&["--n", "5"]),
        failed(1, "cotelark init: SIZE (1), value 0: n is not from 1 to 4: t has 8,193 bytes, --page is 4096 and --n is 5; give --n a number from 1 to 4.\n")
    );
    let page = refused(&["--page", "3"]);
    assert!(page.status == Some(1) && page.err.starts_with("cotelark init: PAGE (2), value 0: "), "{page:?}");
    assert!(page.err.ends_with("; give --page an even number from 2 to 65536.\n"), "{page:?}");
    let long = refused(&["--page", "2"]);
    assert!(long.status == Some(1) && long.err.starts_with("cotelark init: LONG (3), value 0: "), "{long:?}");
    assert!(long.err.ends_with("; a bucket has at most 4,096 pages, so give --page a larger number.\n"), "{long:?}");
}

#[test]
fn init_writes_over_nothing() {
    let folder = Folder::with_backup(&BUCKET, "4", "2");
    let there = |name| failed(1, &format!("cotelark init: {name} is there already, and nothing is written over it.\n"));
    assert_eq!(folder.run_unchanged(&["init", "t", "i", "m2"]), there("i"));
    assert_eq!(folder.run_unchanged(&["init", "t", "i2", "m"]), there("m"));
    std::os::unix::fs::symlink("nowhere", folder.path("link")).expect("a link");
    assert_eq!(folder.run_unchanged(&["init", "t", "link", "m2"]), there("link"));
    assert_eq!(folder.run_unchanged(&["init", "t", "x", "./x"]), there("./x"));
    assert_eq!(folder.run_unchanged(&["init", "t", "x", "x"]), failed(2, "cotelark init: x and x are one file.\n"));
}

#[test]
fn who_may_not_read_the_table_may_not_read_its_backup() {
    let folder = Folder::new();
    folder.write("t", BUCKET);
    folder.allow("t", 0o600);
    let usual = |words: &str| assert_eq!(folder.shell(&format!("umask 022; cotelark {words}")).status, Some(0));
    usual("init t i m --page 4");
    folder.allow("i", 0o640);
    usual("load i m o");
    assert_eq!(["i", "m", "o"].map(|name| folder.allowed(name)), [0o640, 0o600, 0o640]);
    // A table that is only read has a backup that can be stored.
    folder.allow("t", 0o444);
    usual("init t i2 m2 --page 4");
    assert_eq!(folder.allowed("i2"), 0o644);
}

#[test]
fn a_store_writes_the_page_that_changed() {
    let folder = Folder::with_backup(&BUCKET, "4", "2");
    folder.patch("t", 4, &[9]);
    let stored = folder.run(&["store", "t", "i", "m"]);
    assert_eq!(stored, done("t stored: 1 of 2 pages written, 2 of 6 bytes, 33.33 %\nwritten: page 1\n0  .W\n. kept   W written\n"));
    assert_eq!(folder.read("i"), folder.read("t"));
    // The one symbol of page 1 is 9 now, and so is each component.
    let mut map = MAP;
    (map[28], map[30]) = (9, 9);
    assert_eq!(folder.read("m"), map);
    let again = folder.run_unchanged(&["store", "t", "i", "m"]);
    assert_eq!(again, done("t stored: 0 of 2 pages written, 0 of 6 bytes, 0.00 %\n0  ..\n. kept\n"));
}

#[test]
fn two_flags_that_change_opposite_ways_are_stored() {
    let mut table = vec![0; 64 * 512];
    table[1_000] = 1;
    let folder = Folder::with_backup(&table, "512", "4");
    folder.patch("t", 1_000, &[0]);
    folder.patch("t", 1_016, &[1]);
    let stored = folder.run(&["store", "--json", "t", "i", "m"]);
    assert_eq!(stored, done("{\"pages\":64,\"written\":[1],\"bytes_written\":512,\"bucket_bytes\":32768}\n"));
    assert_eq!(folder.read("i"), folder.read("t"));
}

#[test]
fn a_store_names_the_file_of_another_length() {
    let folder = Folder::with_backup(&BUCKET, "4", "2");
    folder.write("short", &BUCKET[..5]);
    let differ = |lengths| {
        let line = format!(
            "cotelark store: MATCH (6), value 0: two lengths, or two n, that belong together differ: {lengths}, and m is the map of a bucket of 6"
        );
        failed(1, &(line + "; give the files that belong together.\n"))
    };
    assert_eq!(folder.run_unchanged(&["store", "short", "i", "m"]), differ("short has 5 bytes, i has 6 bytes"));
    assert_eq!(folder.run_unchanged(&["store", "t", "short", "m"]), differ("t has 6 bytes, short has 5 bytes"));
}

#[test]
fn a_store_names_the_map_that_breaks_a_rule() {
    let folder = Folder::with_backup(&BUCKET, "4", "2");
    folder.write("cut", &MAP[..31]);
    let refused = folder.run_unchanged(&["store", "t", "i", "cut", "--json"]);
    let line = "MAP (5), value 25: the map breaks a rule at byte 25: cut; take another copy of it, or make a new backup with `cotelark init`.";
    assert_eq!((refused.status, refused.err), (Some(1), format!("cotelark store: {line}\n")));
    assert_eq!(refused.out, format!("{{\"error\":\"{line}\",\"refused\":{{\"name\":\"MAP\",\"number\":5,\"value\":25}}}}\n"));
}

#[test]
fn a_store_takes_no_file_for_two() {
    let folder = Folder::with_backup(&BUCKET, "4", "2");
    std::fs::hard_link(folder.path("i"), folder.path("link")).expect("a link");
    assert_eq!(folder.run_unchanged(&["store", "i", "i", "m"]), failed(2, "cotelark store: i and i are one file.\n"));
    std::os::unix::fs::symlink("i", folder.path("symbolic")).expect("a link");
    assert_eq!(folder.run_unchanged(&["store", "link", "i", "m"]), failed(2, "cotelark store: link and i are one file.\n"));
    assert_eq!(folder.run_unchanged(&["store", "symbolic", "i", "m"]), failed(2, "cotelark store: symbolic and i are one file.\n"));
    for words in [["store", "t", "m", "m"], ["store", "m", "i", "m"]] {
        assert_eq!(folder.run_unchanged(&words), failed(2, "cotelark store: m and m are one file.\n"));
    }
    assert_eq!(folder.run_unchanged(&["repair", "m", "m"]), failed(2, "cotelark repair: m and m are one file.\n"));
}

#[test]
fn a_bucket_is_loaded() {
    let folder = Folder::with_backup(&BUCKET, "4", "2");
    let loaded = folder.run(&["load", "i", "m", "o"]);
    assert_eq!(loaded, done("i loaded to o: 6 bytes, each of its 2 pages with its entry's signature\n"));
    assert_eq!(folder.read("o"), BUCKET);
    assert_eq!(folder.run_unchanged(&["load", "i", "m", "o"]), failed(1, "cotelark load: o is there already, and nothing is written over it.\n"));
    assert_eq!(folder.run(&["load", "i", "m", "p", "--json"]), done("{\"bytes\":6,\"pages\":2}\n"));
}

#[test]
fn a_damaged_bucket_is_not_loaded() {
    let folder = Folder::with_backup(&BUCKET, "4", "2");
    folder.patch("i", 5, &[1]);
    let line = "cotelark load: DAMAGED (10), value 1: page 1 does not have the signature of its entry: i; ";
    let advice = "if it has one damaged symbol, `cotelark repair IMAGE MAP 1` puts it right.\n";
    assert_eq!(folder.run_unchanged(&["load", "i", "m", "o"]), failed(1, &format!("{line}{advice}")));
    folder.write("i", &BUCKET[..4]);
    let differ = folder.run_unchanged(&["load", "i", "m", "o"]);
    assert!(differ.status == Some(1) && differ.err.contains("MATCH (6)") && differ.err.contains("i has 4 bytes"), "{differ:?}");
}
