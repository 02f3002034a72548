//! The picture of a bucket's pages, a mark a page, or a mark for several.

use crate::report::counted;
use std::fmt::Write;

/// What befell a page; of several pages that share a mark, the last of these counts.
#[derive(Clone, Copy, Debug, PartialEq, Eq, PartialOrd, Ord)]
pub enum State {
    /// Kept by a store, or found whole.
    Quiet,
    Written,
    Repaired,
    Damaged,
}

/// How a picture is drawn.
#[derive(Clone, Copy, Debug, PartialEq, Eq)]
pub enum Style {
    /// Letters, for a file or a pipe.
    Plain,
    /// Marks of a terminal, without colours.
    Marks,
    /// Marks in colours.
    Colours,
}

/// The pages of a bucket, and what a quiet one is called.
pub struct Picture {
    states: Vec<State>,
    quiet: &'static str,
}

const COLUMNS: usize = 64;
const ROWS: usize = 16;

impl Picture {
    /// So many pages, quiet but for those that something befell.
    pub fn new(pages: usize, quiet: &'static str, changed: &[(State, &[usize])]) -> Picture {
        let mut states = vec![State::Quiet; pages];
        changed.iter().for_each(|(state, pages)| pages.iter().for_each(|&page| states[page] = *state));
        Picture { states, quiet }
    }

    pub fn draw(&self, style: Style) -> String {
        let pages = self.states.len();
        let shared = pages.div_ceil(COLUMNS * ROWS).max(1);
        let marks: Vec<State> = self.states.chunks(shared).map(|pages| *pages.iter().max().expect("no chunk is empty")).collect();
        let digits = pages.to_string().len();
        let mut picture = String::new();
        for (row, marks) in marks.chunks(COLUMNS).enumerate() {
            let first = row * COLUMNS * shared;
            let marks: String = marks.iter().map(|&state| mark(state, style)).collect();
            writeln!(picture, "{first:>digits$}  {marks}").expect("a string takes everything");
        }
        picture + &self.legend(&marks, shared, style)
    }

    /// What the marks of this picture mean.
    fn legend(&self, marks: &[State], shared: usize, style: Style) -> String {
        let states = [State::Quiet, State::Written, State::Repaired, State::Damaged];
        let names = [self.quiet, "written", "repaired", "damaged"];
        let used = states.iter().zip(names).filter(|(state, _)| marks.contains(state));
        let legend: Vec<String> = used.map(|(&state, name)| format!("{} {name}", mark(state, style))).collect();
        match (legend.is_empty(), shared) {
            (true, _) => String::new(),
            (false, 1) => legend.join("   ") + "\n",
            (false, _) => format!("{}   (each mark stands for {})\n", legend.join("   "), counted(shared, "page")),
        }
    }
}

fn mark(state: State, style: Style) -> String {
    let (letter, mark, colour) = match state {
        State::Quiet => ('.', '·', "2"),
        State::Written => ('W', '█', "32"),
        State::Repaired => ('R', '◆', "33"),
        State::Damaged => ('D', '✖', "31"),
    };
    match style {
        Style::Plain => letter.to_string(),
        Style::Marks => mark.to_string(),
        Style::Colours => format!("\x1b[{colour}m{mark}\x1b[0m"),
    }
}

#[cfg(test)]
mod tests {
    use super::*;

    fn picture(pages: usize, changed: &[(State, &[usize])]) -> Picture {
        Picture::new(pages, "kept", changed)
    }

    #[test]
    fn a_mark_a_page_up_to_1024_pages() {
        let drawn = picture(66, &[(State::Written, &[1]), (State::Damaged, &[65])]).draw(Style::Plain);
        assert_eq!(drawn, format!(" 0  .W{}\n64  .D\n. kept   W written   D damaged\n", ".".repeat(62)));
        assert_eq!(picture(1_024, &[]).draw(Style::Plain).lines().count(), 17);
        assert!(picture(100, &[]).draw(Style::Plain).starts_with("  0  ."), "the row's numbers have room for the page count");
    }

    #[test]
    fn above_that_a_mark_shows_the_worst_of_its_pages() {
        let drawn = picture(1_025, &[(State::Written, &[2]), (State::Repaired, &[3]), (State::Damaged, &[1_024])]).draw(Style::Plain);
        let rows: Vec<&str> = drawn.lines().collect();
        assert_eq!(rows.len(), 10);
        assert_eq!(rows[0], format!("   0  .R{}", ".".repeat(62)));
        assert_eq!(rows[8], "1024  D");
        assert_eq!(rows[9], ". kept   R repaired   D damaged   (each mark stands for 2 pages)");
    }

    #[test]
    fn damage_hides_behind_nothing() {
        let drawn = picture(1_025, &[(State::Damaged, &[2]), (State::Repaired, &[3])]).draw(Style::Plain);
        assert!(drawn.starts_with("   0  .D."), "{drawn}");
    }

    #[test]
    fn a_terminal_gets_marks_and_colours() {
        let all = picture(4, &[(State::Written, &[1]), (State::Repaired, &[2]), (State::Damaged, &[3])]);
        assert_eq!(all.draw(Style::Marks), "0  ·█◆✖\n· kept   █ written   ◆ repaired   ✖ damaged\n");
        let colours = "0  \x1b[2m·\x1b[0m\x1b[32m█\x1b[0m\x1b[33m◆\x1b[0m\x1b[31m✖\x1b[0m";
        assert_eq!(all.draw(Style::Colours).lines().next(), Some(colours));
    }

    #[test]
    fn no_pages_have_no_picture() {
        assert_eq!(picture(0, &[]).draw(Style::Plain), "");
    }
}
