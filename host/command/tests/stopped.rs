//! Stores, repairs, loads and beginnings that are stopped in the middle, or find the disk full: a shell's limit on the size of files has a write above it fail, or end
//! the command. The limit is 32 or 64 KiB, by the shell's unit.

mod person;

use person::{Ended, Folder};

const PAGE: usize = 4_096;
/// Below the limit, and above it.
const LOW: usize = 2;
const HIGH: usize = 40;

/// A table of 64 pages, more than the limit, and its backup; a page below the limit and one above it have changed.
fn changed() -> Folder {
    let folder = Folder::with_backup(&[7; 64 * PAGE], "4096", "2");
    folder.patch("t", LOW * PAGE, &[1]);
    folder.patch("t", HIGH * PAGE, &[1]);
    folder
}

/// Runs the command under the limit: a write above it fails, as on a full disk.
fn on_a_full_disk(folder: &Folder, words: &str) -> Ended {
    folder.shell(&format!("trap '' XFSZ; ulimit -f 64; cotelark {words}"))
}

/// Runs the command under the limit: a write above it is its end.
fn stopped(folder: &Folder, words: &str) -> Ended {
    folder.shell(&format!("ulimit -c 0; ulimit -f 64; cotelark {words}; echo \"ended with $?\""))
}

/// After a store that came to page LOW of the image and no further.
fn map_is_true_and_the_next_store_mends(folder: &Folder, map: &[u8]) {
    assert!(folder.read("m") == map, "an entry was written before its page");
    let (table, image) = (folder.read("t"), folder.read("i"));
    assert_eq!(image[LOW * PAGE], 1);
    assert_eq!(image[HIGH * PAGE], 7);
    let again = folder.run(&["store", "t", "i", "m", "--json"]);
    assert!(again.out.contains(&format!("\"written\":[{LOW},{HIGH}]")), "{again:?}");
    assert!(folder.read("i") == table);
    assert_eq!(folder.run(&["check", "i", "m"]).status, Some(0));
}

#[test]
fn a_store_on_a_full_disk() {
    let folder = changed();
    let map = folder.read("m");
    let ended = on_a_full_disk(&folder, "store t i m");
    assert!(ended.status == Some(1) && ended.err.starts_with("cotelark store: i cannot be written: ") && ended.out.is_empty(), "{ended:?}");
    assert!(ended.err.ends_with("What was written before that stays; run this again once it can be.\n"), "{ended:?}");
    map_is_true_and_the_next_store_mends(&folder, &map);
}

#[test]
fn a_store_that_is_stopped() {
    let folder = changed();
    let map = folder.read("m");
    let ended = stopped(&folder, "store t i m");
    // 128 and the signal's number, 25.
    assert!(ended.out.ends_with("ended with 153\n"), "{ended:?}");
    map_is_true_and_the_next_store_mends(&folder, &map);
}

#[test]
fn a_store_writes_pages_and_entries_by_offset() {
    let folder = changed();
    folder.patch("t", HIGH * PAGE, &[7]);
    // Nothing that is written is above the limit, though the image is longer.
    let ended = on_a_full_disk(&folder, "store t i m --json");
    assert_eq!(ended.status, Some(0), "{ended:?}");
    assert!(folder.read("i") == folder.read("t"));
    // A map of 45,074 bytes, and a limit of 16 or 32 KiB.
    let folder = Folder::with_backup(&[7; 4_096 * 8], "8", "4");
    folder.patch("t", 8, &[1]);
    let ended = folder.shell("trap '' XFSZ; ulimit -f 32; cotelark store t i m --json");
    assert_eq!(ended.status, Some(0), "{ended:?}");
    assert!(folder.read("i") == folder.read("t"));
}

#[test]
fn a_repair_writes_the_symbol_alone() {
    let folder = Folder::with_backup(&[7; 64 * PAGE], "4096", "2");
    folder.patch("i", LOW * PAGE, &[1]);
    let ended = on_a_full_disk(&folder, "repair i m --json");
    assert_eq!(ended.status, Some(0), "{ended:?}");
    assert!(folder.read("i") == folder.read("t"));
    // Below the limit is the symbol, and not the end of its page.
    let long = Folder::with_backup(&[7; 65_536], "65536", "2");
    long.patch("i", 2, &[1]);
    let ended = long.shell("trap '' XFSZ; ulimit -f 32; cotelark repair i m --json");
    assert_eq!(ended.status, Some(0), "{ended:?}");
    folder.patch("i", HIGH * PAGE, &[1]);
    let ended = on_a_full_disk(&folder, "repair i m");
    assert!(ended.status == Some(1) && ended.err.starts_with("cotelark repair: i cannot be written: "), "{ended:?}");
}

#[test]
fn a_beginning_and_a_load_on_a_full_disk_leave_nothing() {
    let folder = changed();
    let before = folder.files();
    let ended = on_a_full_disk(&folder, "init t i2 m2");
    assert!(ended.status == Some(1) && ended.err.starts_with("cotelark init: i2 cannot be made: "), "{ended:?}");
    let ended = on_a_full_disk(&folder, "load i m o");
    assert!(ended.status == Some(1) && ended.err.starts_with("cotelark load: o cannot be made: "), "{ended:?}");
    assert!(folder.files() == before);
}

#[test]
fn a_load_that_is_stopped_leaves_no_table() {
    let folder = changed();
    // It is made in the folder that it goes to.
    std::fs::create_dir(folder.path("d")).expect("a folder");
    let ended = stopped(&folder, "load i m d/o");
    assert!(ended.out.ends_with("ended with 153\n"), "{ended:?}");
    assert!(!folder.path("d/o").exists() && folder.path("d/.cotelark-0.unfinished").exists());
    let ended = stopped(&folder, "load i m o");
    assert!(ended.out.ends_with("ended with 153\n"), "{ended:?}");
    assert!(!folder.path("o").exists() && folder.path(".cotelark-0.unfinished").exists());
    // What was left is in nobody's way.
    let ended = folder.run(&["load", "i", "m", "o"]);
    assert_eq!((ended.status, ended.err.as_str()), (Some(0), ""));
    assert!(folder.read("o") == folder.read("i") && !folder.path(".cotelark-1.unfinished").exists());
}
