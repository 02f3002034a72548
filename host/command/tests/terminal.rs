//! What a person sees at a terminal, which `script` stands in for: marks, in colours unless they are not wanted.

mod person;

use person::{Folder, BUCKET};

fn at_a_terminal(folder: &Folder, words: &str) -> String {
    let ended = folder.shell(&format!("script --quiet --return --command \"cotelark {words}\" /dev/null < /dev/null"));
    assert_eq!(ended.status, Some(0), "{ended:?}");
    ended.out.replace('\r', "")
}

#[test]
fn a_picture_in_marks_and_colours() {
    let folder = Folder::with_backup(&BUCKET, "4", "2");
    folder.patch("t", 4, &[9]);
    folder.write("i2", folder.read("i"));
    folder.write("m2", folder.read("m"));
    let figures = "t stored: 1 of 2 pages written, 2 of 6 bytes, 33.33 %\nwritten: page 1\n";
    let picture = "0  \x1b[2m·\x1b[0m\x1b[32m█\x1b[0m\n\x1b[2m·\x1b[0m kept   \x1b[32m█\x1b[0m written\n";
    assert_eq!(at_a_terminal(&folder, "store t i m"), format!("{figures}{picture}"));
    let ended = folder.shell("export NO_COLOR=1; script --quiet --return --command 'cotelark store t i2 m2' /dev/null < /dev/null");
    assert_eq!(ended.out.replace('\r', ""), format!("{figures}0  ·█\n· kept   █ written\n"));
    let ended = folder.shell("export NO_COLOR=; script --quiet --return --command 'cotelark check i m' /dev/null < /dev/null");
    assert!(ended.out.contains("0  \x1b[2m·\x1b[0m"), "an empty NO_COLOR says nothing: {ended:?}");
    let ended = folder.shell("export TERM=dumb; script --quiet --return --command 'cotelark check i m' /dev/null < /dev/null");
    assert_eq!(ended.out.replace('\r', ""), "i checked: 0 of 2 pages damaged\n0  ..\n. whole\n");
}

#[test]
fn a_field_is_shown_as_symbols() {
    let folder = Folder::new();
    folder.write("f", BUCKET);
    assert_eq!(at_a_terminal(&folder, "encode < f"), "0001 0005 0009\n");
    let ended = folder.shell("export TERM=dumb; script --quiet --return --command 'cotelark encode < f' /dev/null < /dev/null");
    assert_eq!(ended.out.replace('\r', ""), "0001 0005 0009\n");
}
