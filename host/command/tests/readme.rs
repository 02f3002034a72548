//! The front page says what is so: its session at a terminal is run as it is printed there, and its C program is compiled and run.

mod person;

use person::Folder;
use std::path::Path;
use std::process::Command;

fn repository() -> &'static Path {
    Path::new(concat!(env!("CARGO_MANIFEST_DIR"), "/../.."))
}

/// The one block of the front page that is marked so.
fn block(mark: &str) -> String {
    let page = std::fs::read_to_string(repository().join("README.md")).expect("the front page");
    let blocks: Vec<&str> = page.split(&format!("\n```{mark}\n")).skip(1).collect();
    assert_eq!(blocks.len(), 1, "blocks of {mark}");
    blocks[0].split("\n```\n").next().expect("an end").to_string() + "\n"
}

#[test]
fn the_session_at_a_terminal() {
    let session = block("console");
    let folder = Folder::new();
    let mut commands = 0;
    for step in session.split("$ ").skip(1) {
        let (command, printed) = step.split_once('\n').expect("a line");
        let ended = folder.shell(&format!("{command} 2>&1"));
        assert_eq!(ended.out, printed, "$ {command}");
        commands += usize::from(command.starts_with("cotelark "));
    }
    assert!(commands >= 5);
}

#[test]
fn the_c_program() {
    let folder = Folder::new();
    folder.write("ten.c", block("c"));
    let root = repository();
    let built = Command::new("gcc")
        .args(["-std=c11", "-Wall", "-Wextra", "-Werror", "-pedantic", "-o"])
        .arg(folder.path("ten"))
        .arg(folder.path("ten.c"))
        .arg("-I")
        .arg(root.join("include"))
        .arg(root.join("target/staticlib/libcotelark.a"))
        .output()
        .expect("gcc");
    assert!(built.status.success(), "{}", String::from_utf8_lossy(&built.stderr));
    let ended = folder.shell("./ten");
    assert_eq!((ended.status, ended.out.as_str(), ended.err.as_str()), (Some(0), "1 page written, the first is page 3\n", ""));
}
