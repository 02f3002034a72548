//! The subcommands: what each takes, what it does, and how that is told.

use crate::failure::Failure;
use crate::report::Report;
use crate::words::Words;
use crate::{backup, captions, looking, repair};

/// One subcommand.
pub struct Subcommand {
    pub name: &'static str,
    /// Operands and options as they are shown; an operand in brackets may be left out.
    usage: &'static str,
    /// One line on what it does.
    about: &'static str,
    /// The rest of its help.
    more: &'static str,
    pub run: fn(&Words) -> Result<Report, Failure>,
}

impl Subcommand {
    /// The operands' names, those in brackets last.
    pub fn operands(&self) -> Vec<&'static str> {
        self.usage.split("  ").next().unwrap_or_default().split_whitespace().collect()
    }

    pub fn takes(&self, option: &str) -> bool {
        self.usage.contains(option)
    }

    pub fn misuse(&self, what: String) -> Failure {
        Failure::Misuse(format!("{what}; `cotelark {} --help` tells how it is used.", self.name))
    }

    pub fn help(&self) -> String {
        format!("{}\n\n{}\n\n{}\n\n{STATUS}\n", self.call(), self.about, self.more)
    }

    fn call(&self) -> String {
        format!("cotelark {} {}", self.name, self.usage).trim_end().to_string() + "  [--json]"
    }
}

pub fn general_help() -> String {
    let mut help = String::from(INTRODUCTION);
    for subcommand in &SUBCOMMANDS {
        help += &format!("  {}\n      {}\n", subcommand.call(), subcommand.about);
    }
    help + "\nEach tells more with --help.\n\n" + STATUS + "\n"
}

const INTRODUCTION: &str = "\
Backups of table files, by page signatures: a change of 1 to n symbols of a page
is never missed. Pages are drawn in marks and colours at a terminal (in marks
alone where NO_COLOR is set), and in plain letters elsewhere.

";

const STATUS: &str = "\
--json prints one line of JSON instead.
Exit status: 0 done; 1 refused, a file cannot be used, or a page is damaged;
2 wrong use.";

pub const SUBCOMMANDS: [Subcommand; 11] = [
    Subcommand {
        name: "init",
        usage: "TABLE IMAGE MAP  [--page BYTES] [--n N]",
        about: "makes a backup: IMAGE is a copy of TABLE, MAP has each page's signature",
        more: "\
--page  the bytes of a page, an even number from 2 to 65536. Unless given it is
        4096, which serves every table.
--n     the components of a signature, 1 to 4. Unless given it is 4. A repair
        wants 2 or more, and with 2 it may take two damaged symbols for one.

A symbol is two bytes. TABLE has at most 16777216 bytes, and 4096 pages. IMAGE
and MAP must not be there yet: nothing is written over. Each of them appears
whole or not at all, IMAGE first, and may be read by those who may read TABLE.",
        run: backup::init,
    },
    Subcommand {
        name: "store",
        usage: "TABLE IMAGE MAP",
        about: "brings a backup up to date: writes the pages whose signature changed",
        more: "\
Only those pages of IMAGE and their entries of MAP are written, each at its own
offset. All pages are written, and synced, before the first entry. So MAP never
has an entry of a page that was not written, wherever the store is stopped, and
on a full disk.

Not promised yet: a store that was stopped leaves pages in IMAGE that are newer
than their entries. The next store writes them again, but for a page that has
gone back, in TABLE, to what its entry says: that one is kept, and `cotelark
check` shows it as damaged.

A store does not look at the pages of IMAGE; `cotelark check` does. Nobody else
may write the three files meanwhile.",
        run: backup::store,
    },
    Subcommand {
        name: "load",
        usage: "IMAGE MAP OUT",
        about: "writes the table to OUT, if every page has its entry's signature",
        more: "OUT must not be there yet: nothing is written over. It appears whole or not at\nall.",
        run: backup::load,
    },
    Subcommand {
        name: "page",
        usage: "IMAGE MAP K",
        about: "shows page K, counted from 0, if it has its entry's signature",
        more: "\
Sixteen bytes a line: their offset in the table, in hex, and as letters. With
--json the bytes are one string in hex.",
        run: looking::page,
    },
    Subcommand {
        name: "check",
        usage: "IMAGE MAP",
        about: "shows the pages that do not have their entry's signature",
        more: "Nothing is changed. Where a page is damaged the exit status is 1.",
        run: looking::check,
    },
    Subcommand {
        name: "repair",
        usage: "IMAGE MAP [K]",
        about: "puts pages right that have one damaged symbol: page K, or all",
        more: "\
A page is repaired where the change of one symbol gives it its entry's
signature: that symbol of IMAGE is written, at its own offset, and nothing else.
As long as the entry is right, one damaged symbol is always restored.

With n of 3 or 4 two damaged symbols are beyond repair, and stay. With n = 2
they may be taken for one; a repair says so. With n = 1 nothing can be repaired.
Where a page is beyond repair the exit status is 1.",
        run: repair::repair,
    },
    Subcommand {
        name: "list",
        usage: "MAP",
        about: "lists a map: its sizes, then each page with its components in hex",
        more: "A map that breaks a rule is refused, with the place of the break.",
        run: looking::list,
    },
    Subcommand {
        name: "sign",
        usage: "FILE  [--n N]",
        about: "shows the signature of a file of at most 131068 bytes",
        more: "\
--n  the components, 1 to 4. Unless given it is 4.

They are shown in hex, the first one first. An odd last byte is completed by a
zero.",
        run: looking::sign,
    },
    Subcommand { name: "encode", usage: "", about: "turns a plain caption field into its cumulative code", more: FIELD, run: captions::encode },
    Subcommand { name: "decode", usage: "", about: "turns a cumulative code into the plain caption field", more: FIELD, run: captions::decode },
    Subcommand {
        name: "search",
        usage: "FIELD PATTERN",
        about: "finds the places at which a plain pattern hits in an encoded field",
        more: "\
FIELD is a file with an encoded field, PATTERN one with plain bytes. A place is
counted in symbols, from 0. It hits where the part of the field there has the
pattern's signature of one component: a part that is the pattern always does,
and another one seldom. To find none is no refusal.",
        run: captions::search,
    },
];

const FIELD: &str = "\
It is read from standard input and written to standard output, where a terminal
is shown the symbols in hex. A field has at most 65536 bytes, an even number: a
symbol is two bytes, low byte first.";
