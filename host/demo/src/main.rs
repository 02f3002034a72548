//! `demo COTELARK FOLDER`: the accident that Cotelark is there to prevent, played through with the command on a call table of 16 MiB in the folder. Whatever
//! is said on the way is checked, and the first thing that is not so ends the demonstration with status 1.

mod calls;

use calls::{change_flag, new_table, Dice, PAGE, SLOT};
use std::fs;
use std::path::PathBuf;
use std::process::{Command, ExitCode};
use std::time::Instant;

/// What went wrong, in a sentence.
type Outcome<T> = Result<T, String>;

fn main() -> ExitCode {
    let mut words = std::env::args_os().skip(1).map(PathBuf::from);
    let (Some(command), Some(folder), None) = (words.next(), words.next(), words.next()) else {
        eprintln!("demo COTELARK FOLDER: the command's file, and a folder for the files of the demonstration");
        return ExitCode::from(2);
    };
    // The command is run in the folder, from where a path of here may lead elsewhere.
    let command = command.canonicalize().unwrap_or(command);
    match (Demo { command, folder }).play() {
        Ok(()) => ExitCode::SUCCESS,
        Err(wrong) => {
            eprintln!("The demonstration ends here: {wrong}");
            ExitCode::FAILURE
        }
    }
}

struct Demo {
    command: PathBuf,
    folder: PathBuf,
}

impl Demo {
    fn play(&self) -> Outcome<()> {
        fs::create_dir_all(&self.folder).map_err(|error| format!("{}: {error}", self.folder.display()))?;
        for name in ["calls.table", "calls.image", "calls.map", "standby.table"] {
            let _ = fs::remove_file(self.folder.join(name));
        }
        let start = Instant::now();
        self.back_up()?;
        self.accident()?;
        self.damage()?;
        say(&format!("\nAll of it in {:.1} seconds.", start.elapsed().as_secs_f64()))
    }

    fn back_up(&self) -> Outcome<()> {
        let table = new_table();
        let calls = table.chunks(SLOT).filter(|slot| slot[..4] != [0; 4]).count();
        say(&format!("A call table of 16 MiB with {calls} calls, 16 bytes each, and its backup:"))?;
        self.write("calls.table", &table)?;
        self.cotelark(&["init", "calls.table", "calls.image", "calls.map"], 0)?;
        self.same("calls.image", &table)
    }

    /// Flags change all over the table, and in one page two of them in opposite ways.
    fn accident(&self) -> Outcome<()> {
        let before = self.read("calls.table")?;
        let mut table = before.clone();
        let mut dice = Dice(2004);
        // The unlucky page is in the middle; elsewhere no page has more than one flag changed.
        let unlucky = 1_777;
        for page in (0..table.len() / PAGE).filter(|&page| page != unlucky) {
            if dice.below(97) == 0 {
                change_flag(&mut table[page * PAGE..][..PAGE], &mut dice, None);
            }
        }
        let (first_half, second_half) = table[unlucky * PAGE..][..PAGE].split_at_mut(PAGE / 2);
        change_flag(first_half, &mut dice, Some(1));
        change_flag(second_half, &mut dice, Some(0));
        self.write("calls.table", &table)?;
        let differing = pages_where(&before, &table, |old, new| old != new);
        let summed = pages_where(&before, &table, |old, new| old_page_sum(old) != old_page_sum(new));
        let missed: Vec<usize> = differing.iter().copied().filter(|page| !summed.contains(page)).collect();
        expect(missed == [unlucky], "the old page sum misses the unlucky page, and no other")?;
        let sum = |table: &[u8]| old_page_sum(&table[unlucky * PAGE..][..PAGE]);
        say(&format!("\nCalls change their priority, in {} pages. In page {unlucky} one is raised and another lowered.", differing.len()))?;
        say(&format!("The old page sum of page {unlucky} was {} and is {}.", sum(&before), sum(&table)))?;
        say(&format!("It would have written {} pages and lost the calls of page {unlucky}. Cotelark:", summed.len()))?;
        self.cotelark(&["store", "calls.table", "calls.image", "calls.map"], 0)?;
        self.same("calls.image", &table)?;
        say("calls.image and calls.table are equal, byte for byte.")
    }

    /// The disk returns one symbol wrong.
    fn damage(&self) -> Outcome<()> {
        let table = self.read("calls.table")?;
        let mut image = table.clone();
        let at = 3_000 * PAGE + 1_234;
        image[at] ^= 0x5A;
        image[at + 1] ^= 0xC3;
        self.write("calls.image", &image)?;
        say("\nThe disk returns two bytes of the image wrong:")?;
        self.cotelark(&["check", "calls.image", "calls.map"], 1)?;
        self.cotelark(&["load", "calls.image", "calls.map", "standby.table"], 1)?;
        expect(!self.folder.join("standby.table").exists(), "a refused load makes no file")?;
        say("\nThey are one symbol, so the signature tells which and what it was:")?;
        self.cotelark(&["repair", "calls.image", "calls.map"], 0)?;
        self.cotelark(&["load", "calls.image", "calls.map", "standby.table"], 0)?;
        self.same("standby.table", &table)?;
        say("standby.table and calls.table are equal, byte for byte.")
    }

    /// Shows a command line and runs it here, where it says what it has to say itself.
    fn cotelark(&self, words: &[&str], status: i32) -> Outcome<()> {
        say(&format!("\n$ cotelark {}", words.join(" ")))?;
        let ended = Command::new(&self.command).args(words).current_dir(&self.folder).status();
        let ended = ended.map_err(|error| format!("{} cannot be started: {error}", self.command.display()))?;
        expect(ended.code() == Some(status), &format!("cotelark {} ends with status {status}", words[0]))
    }

    fn read(&self, name: &str) -> Outcome<Vec<u8>> {
        fs::read(self.folder.join(name)).map_err(|error| format!("{name}: {error}"))
    }

    fn write(&self, name: &str, bytes: &[u8]) -> Outcome<()> {
        fs::write(self.folder.join(name), bytes).map_err(|error| format!("{name}: {error}"))
    }

    /// Compares a file with the bytes that it should have.
    fn same(&self, name: &str, bytes: &[u8]) -> Outcome<()> {
        expect(self.read(name)? == bytes, &format!("{name} has the table's bytes"))
    }
}

/// What stood in the place of signatures once: the sum of a page's bytes.
fn old_page_sum(page: &[u8]) -> u32 {
    page.iter().map(|&byte| u32::from(byte)).sum()
}

fn pages_where(before: &[u8], after: &[u8], differ: impl Fn(&[u8], &[u8]) -> bool) -> Vec<usize> {
    let pages = before.chunks(PAGE).zip(after.chunks(PAGE)).enumerate();
    pages.filter(|(_, (old, new))| differ(old, new)).map(|(page, _)| page).collect()
}

/// Prints a line at once, so that it comes before what the command prints.
fn say(line: &str) -> Outcome<()> {
    println!("{line}");
    std::io::Write::flush(&mut std::io::stdout()).map_err(|error| error.to_string())
}

fn expect(holds: bool, what: &str) -> Outcome<()> {
    if holds {
        Ok(())
    } else {
        Err(format!("it is not so that {what}"))
    }
}
