//! Caption fields through pipes and files.

mod person;

use person::{done, failed, Folder};

#[test]
fn a_field_goes_through_the_code_and_back() {
    let folder = Folder::new();
    let plain = [1, 0, 2, 0, 3, 0];
    let code = folder.pipe(&["encode"], &plain);
    assert_eq!((code.status.code(), &code.stdout[..], &code.stderr[..]), (Some(0), &[1, 0, 5, 0, 9, 0][..], &b""[..]));
    assert_eq!(folder.pipe(&["decode"], &code.stdout).stdout, plain);
    assert_eq!(folder.pipe(&["encode"], b"").stdout, b"");
    assert_eq!(folder.pipe(&["encode", "--json"], &plain).stdout, b"{\"bytes\":6,\"hex\":\"010005000900\"}\n");
    let longest: Vec<u8> = (0..65_536u32).map(|number| (number * 7) as u8).collect();
    let code = folder.pipe(&["encode"], &longest).stdout;
    assert!(code != longest && folder.pipe(&["decode"], &code).stdout == longest);
}

#[test]
fn fields_are_refused() {
    let folder = Folder::new();
    let long = "LONG (3), value 0: an object, a bucket, its page count or a caption field is above its limit";
    let odd = "ODD (4), value 0: there is an odd number of bytes where whole symbols are due";
    let (parts, even) = ("a field has at most 65,536 bytes, so take it in parts", "a symbol is two bytes, so give an even number of them");
    for subcommand in ["encode", "decode"] {
        for (bytes, given, why, advice) in [
            (65_537, "65,537 bytes", long, parts),
            (65_538, "65,538 bytes", long, parts),
            (65_535, "65,535 bytes", odd, even),
            (1, "1 byte", odd, even),
        ] {
            let ended = folder.pipe(&[subcommand], &vec![0; bytes]);
            assert_eq!((ended.status.code(), &ended.stdout[..]), (Some(1), &b""[..]));
            let line = format!("cotelark {subcommand}: {why}: standard input has {given}; {advice}.\n");
            assert_eq!(String::from_utf8(ended.stderr), Ok(line));
        }
    }
}

#[test]
fn a_pattern_is_found() {
    let folder = Folder::new();
    folder.write("code", [1, 0, 5, 0, 9, 0]);
    folder.write("p", [2, 0, 3, 0]);
    assert_eq!(folder.run_unchanged(&["search", "code", "p"]), done("p found in code: 1 place\nsymbol 1\n"));
    assert_eq!(folder.run(&["search", "code", "p", "--json"]), done("{\"places\":[1]}\n"));
    folder.write("p", [3, 0]);
    assert_eq!(folder.run(&["search", "code", "p"]), done("p found in code: 1 place\nsymbol 2\n"));
    folder.write("p", [2, 0, 2, 0]);
    assert_eq!(folder.run(&["search", "code", "p"]), done("p found in code: 0 places\n"));
    folder.write("p", [0; 200_000]);
    assert_eq!(folder.run(&["search", "code", "p"]), done("p found in code: 0 places\n"));
}

#[test]
fn a_pattern_is_refused() {
    let folder = Folder::new();
    folder.write("code", [1, 0, 5, 0, 9, 0]);
    folder.write("p", b"");
    let line =
        "cotelark search: EMPTY (8), value 0: the pattern has no symbol: code has 6 bytes and p has 0 bytes; give a pattern of two bytes or more.\n";
    assert_eq!(folder.run_unchanged(&["search", "code", "p"]), failed(1, line));
    folder.write("p", b"odd");
    let odd = folder.run_unchanged(&["search", "code", "p"]);
    assert!(odd.status == Some(1) && odd.err.starts_with("cotelark search: ODD (4), value 0: "), "{odd:?}");
    folder.write("code", vec![0; 65_538]);
    let long = folder.run_unchanged(&["search", "code", "p"]);
    assert!(long.status == Some(1) && long.err.starts_with("cotelark search: LONG (3), value 0: "), "{long:?}");
}
