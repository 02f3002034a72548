//! Looking into a backup: a page, all pages, the map, a signature.

mod person;

use person::{done, failed, Folder, BUCKET, MAP};

#[test]
fn a_page_is_shown() {
    let table = b"Deaf callers sign and read.\0\n";
    let folder = Folder::with_backup(table, "20", "2");
    let shown = folder.run(&["page", "i", "m", "1"]);
    let signature = folder.run(&["sign", "last", "--n", "2"]);
    assert_eq!(signature.status, Some(1));
    folder.write("last", &table[20..]);
    let signature = folder.run(&["sign", "last", "--n", "2"]);
    let components = signature.out.trim_end().rsplit_once("signature ").expect("a signature").1.to_string();
    let rows = "00000014  64 20 72 65 61 64 2e 00 0a                       d read...\n";
    assert_eq!(shown, done(&format!("page 1 of i: bytes 20 to 28 of the table, signature {components}\n{rows}")));
    let first = folder.run(&["page", "i", "m", "0"]);
    assert_eq!(
        first.out.lines().skip(1).collect::<Vec<&str>>(),
        [
            "00000000  44 65 61 66 20 63 61 6c 6c 65 72 73 20 73 69 67  Deaf callers sig",
            "00000010  6e 20 61 6e                                      n an",
        ]
    );
}

#[test]
fn a_page_is_shown_to_a_program() {
    let folder = Folder::with_backup(&BUCKET, "4", "2");
    let json = "{\"page\":0,\"start\":0,\"bytes\":4,\"signature\":[5,9],\"hex\":\"01000200\"}\n";
    assert_eq!(folder.run_unchanged(&["page", "i", "m", "0", "--json"]), done(json));
}

#[test]
fn a_page_is_refused() {
    let folder = Folder::with_backup(&BUCKET, "4", "2");
    let line = "cotelark page: PAGENO (9), value 0: there is no page of this number: m has 2 pages, counted from 0; give a number below that.\n";
    assert_eq!(folder.run_unchanged(&["page", "i", "m", "2"]), failed(1, line));
    folder.patch("i", 0, &[0]);
    let damaged = folder.run_unchanged(&["page", "i", "m", "0"]);
    assert!(damaged.status == Some(1) && damaged.err.starts_with("cotelark page: DAMAGED (10), value 0: "), "{damaged:?}");
    assert_eq!(folder.run_unchanged(&["page", "i", "m", "1"]).status, Some(0));
}

#[test]
fn a_check_shows_damaged_pages() {
    let folder = Folder::with_backup(&[0; 130 * 8], "8", "4");
    let dots = |count| ".".repeat(count);
    let whole = format!("i checked: 0 of 130 pages damaged\n  0  {}\n 64  {}\n128  ..\n. whole\n", dots(64), dots(64));
    assert_eq!(folder.run_unchanged(&["check", "i", "m"]), done(&whole));
    folder.patch("i", 65 * 8, &[1]);
    folder.patch("i", 129 * 8 + 7, &[1]);
    let found = folder.run_unchanged(&["check", "i", "m"]);
    let picture = format!("  0  {}\n 64  .D{}\n128  .D\n. whole   D damaged\n", dots(64), dots(62));
    assert_eq!(found.out, format!("i checked: 2 of 130 pages damaged\ndamaged: pages 65, 129\n{picture}"));
    assert_eq!(found.status, Some(1));
    assert!(found.err.starts_with("cotelark check: DAMAGED (10), value 65: ") && found.err.lines().count() == 1, "{found:?}");
    let json = folder.run(&["check", "--json", "i", "m"]);
    assert_eq!((json.status, &json.err), (found.status, &found.err));
    assert!(json.out.starts_with("{\"pages\":130,\"damaged\":[65,129],\"error\":\"DAMAGED (10), value 65: "), "{json:?}");
    assert!(json.out.ends_with(",\"refused\":{\"name\":\"DAMAGED\",\"number\":10,\"value\":65}}\n"), "{json:?}");
}

#[test]
fn a_repair_is_advised_where_there_can_be_one() {
    for (n, advice) in
        [("1", "n = 1 repairs nothing, so make a new backup with `cotelark init`.\n"), ("2", "`cotelark repair IMAGE MAP 1` puts it right.\n")]
    {
        let folder = Folder::with_backup(&BUCKET, "4", n);
        folder.patch("i", 4, &[0]);
        let found = folder.run(&["check", "i", "m"]);
        assert!(found.err.ends_with(advice), "{found:?}");
    }
}

#[test]
fn a_check_of_files_that_do_not_belong_together() {
    for pages in [0, 2] {
        let folder = Folder::with_backup(&BUCKET[..3 * pages], "4", "2");
        folder.write("i", [0; 7]);
        let differ = folder.run_unchanged(&["check", "i", "m"]);
        assert!(differ.status == Some(1) && differ.err.starts_with("cotelark check: MATCH (6), value 0: "), "{differ:?}");
        assert!(differ.err.contains(&format!("i has 7 bytes, and m is the map of a bucket of {}", 3 * pages)), "{differ:?}");
    }
}

#[test]
fn a_map_is_listed() {
    let folder = Folder::new();
    folder.write("m", MAP);
    assert_eq!(folder.run(&["list", "m"]), done("n 2 page 4 bucket 6 pages 2\n0 0005 0009\n1 0003 0003\n"));
    let json = "{\"n\":2,\"page_bytes\":4,\"bucket_bytes\":6,\"pages\":2,\"entries\":[[5,9],[3,3]]}\n";
    assert_eq!(folder.run(&["list", "m", "--json"]), done(json));
}

#[test]
fn a_map_of_every_page_is_listed() {
    let folder = Folder::with_backup(&[255; 4_096 * 2], "2", "4");
    let listed = folder.run(&["list", "m"]);
    assert_eq!((listed.status, listed.out.lines().count()), (Some(0), 4_097));
    assert_eq!(listed.out.lines().last(), Some("4095 ffff ffff ffff ffff"));
}

#[test]
fn broken_maps_are_refused_at_their_place() {
    let folder = Folder::new();
    let longer = [&MAP[..], &[0]].concat();
    let mut odd_page = MAP;
    odd_page[7] = 3;
    for (map, place) in [(&MAP[..31], 25), (&longer[..], 32), (&odd_page[..], 4), (&[][..], 0)] {
        folder.write("m", map);
        let refused = folder.run_unchanged(&["list", "m"]);
        assert!(refused.status == Some(1) && refused.err.starts_with(&format!("cotelark list: MAP (5), value {place}: ")), "{refused:?}");
    }
}

#[test]
fn a_file_is_signed() {
    let folder = Folder::new();
    folder.write("f", [8, 0, 6, 0, 1, 0]);
    assert_eq!(folder.run(&["sign", "f", "--n", "3"]), done("f: 6 bytes, 3 symbols, signature 0000 0000 0078\n"));
    folder.write("f", [0x41]);
    assert_eq!(folder.run(&["sign", "f", "--n", "2", "--json"]), done("{\"n\":2,\"bytes\":1,\"symbols\":1,\"signature\":[65,65]}\n"));
    folder.write("f", vec![0; 131_068]);
    assert_eq!(folder.run(&["sign", "f"]), done("f: 131,068 bytes, 65,534 symbols, signature 0000 0000 0000 0000\n"));
    folder.write("f", vec![0; 131_069]);
    let long = "cotelark sign: LONG (3), value 0: an object, a bucket, its page count or a caption field is above its limit: f has 131,069 bytes and --n is 4; \
                give a file of at most 131,068 bytes, or have `cotelark init` sign it page by page.\n";
    assert_eq!(folder.run(&["sign", "f"]), failed(1, long));
    let size = "cotelark sign: SIZE (1), value 0: n is not from 1 to 4: f has 131,069 bytes and --n is 0; give --n a number from 1 to 4.\n";
    assert_eq!(folder.run(&["sign", "f", "--n", "0"]), failed(1, size));
}
