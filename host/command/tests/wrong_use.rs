//! Wrong use, files that cannot be used, and the help.

mod person;

use person::{failed, Folder, BUCKET};
use std::collections::BTreeSet;

/// Each subcommand with operands that it takes.
const USES: [&[&str]; 11] = [
    &["init", "t", "i2", "m2"],
    &["store", "t", "i", "m"],
    &["load", "i", "m", "o"],
    &["page", "i", "m", "0"],
    &["check", "i", "m"],
    &["repair", "i", "m", "0"],
    &["list", "m"],
    &["sign", "t"],
    &["encode"],
    &["decode"],
    &["search", "t", "t"],
];

fn folder() -> Folder {
    Folder::with_backup(&BUCKET, "4", "2")
}

#[test]
fn each_use_is_one() {
    for words in USES {
        let ended = folder().run(words);
        assert_eq!((ended.status, ended.err.as_str()), (Some(0), ""), "{words:?}");
    }
}

#[test]
fn words_that_are_missing_or_too_many() {
    let folder = folder();
    let misuse = |name: &str, what: &str| failed(2, &format!("cotelark {name}: {what}; `cotelark {name} --help` tells how it is used.\n"));
    for words in USES {
        let more = folder.run_unchanged(&[words, &["more"]].concat());
        assert_eq!(more, misuse(words[0], "more is one word too many"));
        let option = folder.run_unchanged(&[words, &["--force"]].concat());
        assert_eq!(option, misuse(words[0], "there is no option --force"));
    }
    assert_eq!(folder.run_unchanged(&["init", "t", "i2"]), misuse("init", "MAP is missing"));
    assert_eq!(folder.run_unchanged(&["store"]), misuse("store", "TABLE is missing"));
    assert_eq!(folder.run_unchanged(&["page", "i", "m"]), misuse("page", "K is missing"));
    assert_eq!(folder.run_unchanged(&["page", "i", "m", "one"]), misuse("page", "K is a number, and one is none"));
    assert_eq!(folder.run_unchanged(&["repair", "i", "m", "--", "-1"]), misuse("repair", "K is a number, and -1 is none"));
    assert_eq!(folder.run_unchanged(&["sign", "t", "--n"]), misuse("sign", "--n wants a number"));
    assert_eq!(folder.run_unchanged(&["sign", "t", "--n", "two"]), misuse("sign", "--n is a number, and two is none"));
    assert_eq!(folder.run_unchanged(&["sign", "t", "--page", "4"]), misuse("sign", "there is no option --page"));
    assert_eq!(folder.run_unchanged(&["list", "m", "--json=1"]), misuse("list", "there is no option --json=1"));
    assert_eq!(folder.run_unchanged(&["list", "m", "--help=1"]), misuse("list", "there is no option --help=1"));
    assert_eq!(folder.run_unchanged(&["store", "t", "i", "m", "--n", "2"]), misuse("store", "there is no option --n"));
    assert_eq!(folder.run_unchanged(&["repair", "i", "m", "-1"]), misuse("repair", "there is no option -1"));
    assert_eq!(folder.run_unchanged(&["sign", "t", "--n="]), misuse("sign", "--n is a number, and '' is none"));
}

#[test]
fn no_such_subcommand() {
    let known = "init, store, load, page, check, repair, list, sign, encode, decode, search";
    let line = |name| failed(2, &format!("cotelark: {name} is no subcommand, but {known} are; `cotelark --help` tells more.\n"));
    assert_eq!(folder().run_unchanged(&["backup", "t"]), line("backup"));
    assert_eq!(folder().run_unchanged(&[]), line("''"));
}

#[test]
fn wrong_use_is_told_to_programs_too() {
    let folder = folder();
    let misuse = "MAP is missing; `cotelark store --help` tells how it is used.";
    let ended = folder.run_unchanged(&["store", "--json", "t", "i"]);
    assert_eq!((ended.status, ended.out), (Some(2), format!("{{\"error\":\"{misuse}\"}}\n")));
    assert_eq!(ended.err, format!("cotelark store: {misuse}\n"));
    // Behind -- it is a file's name.
    assert_eq!(folder.run_unchanged(&["sign", "--", "--json"]), failed(1, "cotelark sign: there is no file --json.\n"));
}

#[test]
fn numbers_of_any_size_are_refused_by_their_number() {
    let folder = folder();
    let large = "99999999999999999999999";
    for (words, name) in [
        (&["init", "t", "i2", "m2", "--page", large][..], "PAGE (2)"),
        (&["sign", "t", "--n", large], "SIZE (1)"),
        (&["page", "i", "m", large], "PAGENO (9)"),
    ] {
        let ended = folder.run_unchanged(words);
        assert!(ended.status == Some(1) && ended.err.starts_with(&format!("cotelark {}: {name}, value 0: ", words[0])), "{ended:?}");
    }
}

#[test]
fn a_name_never_breaks_the_line_or_the_json() {
    let folder = Folder::new();
    let name = "two\nlines \"and\" \\ \x1b[31m";
    let line = "there is no file two\\nlines \"and\" \\ \\u{1b}[31m.";
    let ended = folder.run(&["list", "--json", name]);
    assert_eq!((ended.status, ended.err), (Some(1), format!("cotelark list: {line}\n")));
    assert_eq!(ended.out, "{\"error\":\"there is no file two\\\\nlines \\\"and\\\" \\\\ \\\\u{1b}[31m.\"}\n");
}

#[test]
fn files_whose_names_look_like_options() {
    let folder = Folder::new();
    folder.write("--n=2", [0; 2]);
    let signed = folder.run(&["sign", "--", "--n=2"]);
    assert_eq!(signed.out, "--n=2: 2 bytes, 1 symbol, signature 0000 0000 0000 0000\n");
    assert_eq!(folder.run(&["init", "--", "--n=2", "--i", "--m"]).status, Some(0));
    folder.write("a=b", [0; 2]);
    assert_eq!(folder.run(&["sign", "a=b", "--n", "1"]).out, "a=b: 2 bytes, 1 symbol, signature 0000\n");
    // A name need not be text.
    let signed = folder.shell("name=$(printf 'a\\377'); printf hi > \"$name\"; cotelark sign \"$name\" --n 1");
    assert_eq!((signed.status, signed.out.as_str()), (Some(0), "a\u{fffd}: 2 bytes, 1 symbol, signature 6968\n"));
}

#[test]
fn a_missing_file_is_named() {
    for (words, index) in [(USES[0], 1), (USES[1], 1), (USES[1], 2), (USES[1], 3), (USES[2], 1), (USES[2], 2), (USES[3], 1), (USES[3], 2)]
        .into_iter()
        .chain([(USES[4], 1), (USES[4], 2), (USES[5], 1), (USES[5], 2), (USES[6], 1), (USES[7], 1), (USES[10], 1), (USES[10], 2)])
    {
        let mut words = words.to_vec();
        words[index] = "gone";
        let ended = folder().run_unchanged(&words);
        assert_eq!(ended, failed(1, &format!("cotelark {}: there is no file gone.\n", words[0])), "{words:?}");
    }
}

#[test]
fn a_folder_is_no_file() {
    let folder = folder();
    std::fs::create_dir(folder.path("d")).expect("a folder");
    for words in [["sign", "d"], ["list", "d"]] {
        let ended = folder.run_unchanged(&words);
        assert!(ended.status == Some(1) && ended.err.starts_with(&format!("cotelark {}: d cannot be read: ", words[0])), "{ended:?}");
    }
    let ended = folder.run_unchanged(&["store", "t", "d", "m"]);
    assert!(ended.status == Some(1) && ended.err.starts_with("cotelark store: d cannot be opened for reading and writing: "), "{ended:?}");
    let ended = folder.run_unchanged(&["load", "i", "m", "nowhere/o"]);
    assert!(ended.status == Some(1) && ended.err.starts_with("cotelark load: nowhere/o cannot be made: "), "{ended:?}");
}

#[test]
fn a_file_above_16_mib_is_named() {
    let folder = folder();
    let file = std::fs::File::create(folder.path("long")).expect("a file");
    file.set_len(16_777_217).expect("a long file");
    for words in
        [&["init", "long", "i2", "m2"][..], &["store", "long", "i", "m"], &["store", "t", "long", "m"], &["check", "long", "m"], &["list", "long"]]
    {
        let ended = folder.run(words);
        let line = format!("cotelark {}: long has more than 16,777,216 bytes, which is the most there may be.\n", words[0]);
        assert_eq!(ended, failed(1, &line));
    }
    assert!(!folder.path("i2").exists() && folder.read("i") == BUCKET);
}

#[test]
fn a_device_is_not_written() {
    let folder = folder();
    let ended = folder.run_unchanged(&["store", "t", "/dev/null", "m"]);
    assert_eq!(ended, failed(1, "cotelark store: /dev/null is no regular file.\n"));
    assert_eq!(folder.shell("mkfifo pipe").status, Some(0));
    let ended = folder.run_unchanged(&["load", "i", "m", "pipe"]);
    assert_eq!(ended, failed(1, "cotelark load: pipe is there already, and nothing is written over it.\n"));
}

#[test]
fn output_that_cannot_be_written() {
    let folder = folder();
    let full = folder.shell("cotelark list m > /dev/full");
    let line = "cotelark list: done, but standard output cannot be written: ";
    assert!(full.status == Some(1) && full.err.starts_with(line), "{full:?}");
    let full = folder.shell("cotelark list --help > /dev/full");
    assert!(full.status == Some(1) && full.err.starts_with("cotelark: standard output cannot be written: "), "{full:?}");
    assert_eq!(folder.shell("cotelark list gone --json > /dev/full"), failed(1, "cotelark list: there is no file gone.\n"));
    // Where nothing can be said at all, the status still can.
    assert_eq!(folder.shell("cotelark list gone 2> /dev/full").status, Some(1));
    assert_eq!(folder.shell("cotelark list gone --json 2> /dev/full").out, "{\"error\":\"there is no file gone.\"}\n");
    assert_eq!(folder.shell("cotelark list 2> /dev/full").status, Some(2));
    assert_eq!(folder.shell("cotelark nothing 2> /dev/full").status, Some(2));
    // A reader that takes one line of a long listing and goes away.
    let long = Folder::with_backup(&[0; 8_192], "2", "4");
    assert_eq!(long.shell("cotelark list m | head -n 1").out, "n 4 page 2 bucket 8192 pages 4096\n");
    assert_eq!(long.shell("cotelark list m | head -n 1").err, "");
}

#[test]
fn the_help() {
    let folder = folder();
    let general = folder.run_unchanged(&["--help"]);
    assert_eq!((general.status, general.err.as_str()), (Some(0), ""));
    assert_eq!(folder.run_unchanged(&["-h"]), general);
    let mut abouts = BTreeSet::new();
    for words in USES {
        let name = words[0];
        assert!(general.out.contains(&format!("\n  cotelark {name} ")), "{name}");
        for words in [&[name, "--help"][..], &[name, "-h"], &[words, &["--help"]].concat()] {
            let help = folder.run_unchanged(words);
            assert_eq!((help.status, help.err.as_str()), (Some(0), ""));
            assert!(help.out.starts_with(&format!("cotelark {name} ")) && help.out.contains("Exit status: 0 done; 1 refused"), "{}", help.out);
            assert!(help.out.lines().all(|line| line.chars().count() <= 80), "{}", help.out);
            let about = help.out.lines().nth(2).expect("what it does").to_string();
            assert!(general.out.contains(&format!("\n      {about}\n")), "{about}");
            abouts.insert(about);
        }
    }
    assert!(general.out.lines().all(|line| line.chars().count() <= 80), "{}", general.out);
    assert_eq!(abouts.len(), USES.len());
    let store = folder.run(&["store", "--help"]).out;
    assert!(store.contains("Not promised yet"));
}
