//! A call of one of the 15 operations with everything that is handed over, what comes out of it, and the comparison of
//! two programs on it.

use crate::part::Part;
use std::fmt;

/// What a call may do with a part.
#[derive(Clone, Copy, Debug, PartialEq, Eq)]
pub enum Role {
    /// Handed in, never changed.
    Given,
    /// A buffer, or the place of a step: changed only when the call is not refused.
    Lent,
    /// A single number, written at each call.
    Told,
}

macro_rules! calls {
    ($($name:ident { $($role:ident $part:ident: $kind:ty),* })*) => {
        /// A call and the contents, before it, of every part handed over.
        #[derive(Clone, Debug, PartialEq)]
        pub enum Call {
            $($name { $($part: $kind),* },)*
        }

        impl Call {
            /// The operation's name.
            pub fn operation(&self) -> &'static str {
                match self {
                    $(Call::$name { .. } => stringify!($name),)*
                }
            }

            /// Every part with its name and role, in the order of the C interface.
            pub fn parts(&self) -> Vec<(&'static str, Role, &dyn Part)> {
                match self {
                    $(Call::$name { $($part),* } => vec![$((stringify!($part), Role::$role, $part as &dyn Part)),*],)*
                }
            }

            /// The same parts, to be changed.
            pub fn parts_mut(&mut self) -> Vec<&mut dyn Part> {
                match self {
                    $(Call::$name { $($part),* } => vec![$($part as &mut dyn Part),*],)*
                }
            }
        }
    };
}

type Bytes = Vec<u8>;
type Numbers = Vec<u64>;
type Symbols = [u16; 4];

calls! {
    Sign { Given n: u64, Given object: Bytes, Lent signature: Symbols }
    Join { Given first_n: u64, Given first: Symbols, Given first_symbols: u64,
           Given second_n: u64, Given second: Symbols, Given second_symbols: u64, Lent joined: Symbols }
    Edit { Given n: u64, Given signature: Symbols, Given at_symbol: u64,
           Given old_piece: Bytes, Given new_piece: Bytes, Lent edited: Symbols }
    MakeMap { Given n: u64, Given page_bytes: u64, Given bucket: Bytes, Lent output: Bytes, Told value: u64 }
    ReadMap { Given map: Bytes,
              Told n: u64, Told page_bytes: u64, Told bucket_bytes: u64, Told pages: u64, Told value: u64 }
    ListMap { Given map: Bytes, Lent output: Bytes, Told value: u64 }
    Store { Given table: Bytes, Lent image: Bytes, Lent map: Bytes, Lent list: Numbers, Told value: u64 }
    Step { Lent place: u64, Given table: Bytes, Lent image: Bytes, Lent map: Bytes, Told answer: u32, Told value: u64 }
    LoadPage { Given image: Bytes, Given map: Bytes, Given page: u64, Told start: u64, Told bytes: u64, Told value: u64 }
    AskPage { Given image: Bytes, Given map: Bytes, Given page: u64, Told value: u64 }
    LoadBucket { Given image: Bytes, Given map: Bytes, Lent table: Bytes, Told value: u64 }
    RepairPage { Lent image: Bytes, Given map: Bytes, Given page: u64,
                 Told answer: u32, Told position: u64, Told old_symbol: u16, Told new_symbol: u16, Told marked: u32, Told value: u64 }
    Encode { Given plain: Bytes, Lent output: Bytes, Told value: u64 }
    Decode { Given code: Bytes, Lent output: Bytes, Told value: u64 }
    Search { Given code: Bytes, Given pattern: Bytes, Lent list: Numbers, Told value: u64 }
}

impl Call {
    /// The value told; a call that tells none has only 0 to tell.
    pub fn value(&self) -> u64 {
        self.parts().iter().find(|(name, ..)| *name == "value").map_or(0, |(.., value)| value.values()[0])
    }
}

impl fmt::Display for Call {
    fn fmt(&self, out: &mut fmt::Formatter<'_>) -> fmt::Result {
        write!(out, "{}", self.operation())?;
        self.parts().iter().try_for_each(|(name, _, part)| write!(out, "\n  {name}: {}", part.show()))
    }
}

/// What came out of a call: the status, and every part as it is afterwards.
#[derive(Clone, Debug, PartialEq)]
pub struct Outcome {
    pub status: u32,
    pub after: Call,
    /// Whether the memory around each part is as it was.
    pub guards_kept: bool,
}

impl fmt::Display for Outcome {
    fn fmt(&self, out: &mut fmt::Formatter<'_>) -> fmt::Result {
        write!(out, "status {}, after it {}", self.status, self.after)
    }
}

/// Something that carries out calls.
pub trait Program {
    fn name(&self) -> String;
    fn run(&self, call: &Call) -> Outcome;
}

/// How two programs differ on a call, or how one of them breaks what holds for every call.
pub fn difference(one: &dyn Program, other: &dyn Program, call: &Call) -> Option<String> {
    common_outcome(one, other, call).err()
}

/// The outcome that two programs agree on, or how they differ.
pub fn common_outcome(one: &dyn Program, other: &dyn Program, call: &Call) -> Result<Outcome, String> {
    let (first, second) = (one.run(call), other.run(call));
    let mut findings = breaches(&one.name(), call, &first);
    findings.extend(breaches(&other.name(), call, &second));
    if first.status != second.status {
        findings.push(format!("status: {} {}, {} {}", one.name(), first.status, other.name(), second.status));
    }
    for ((name, _, part), (.., twin)) in first.after.parts().iter().zip(second.after.parts()) {
        if part.memory() != twin.memory() {
            findings.push(format!("{name}: {} {}, {} {}", one.name(), part.show(), other.name(), twin.show()));
        }
    }
    if findings.is_empty() {
        Ok(second)
    } else {
        Err(findings.join("\n"))
    }
}

/// What one program may do at no call: touch guards or inputs, or any lent buffer when it refuses.
fn breaches(program: &str, call: &Call, outcome: &Outcome) -> Vec<String> {
    let mut breaches = Vec::new();
    if !outcome.guards_kept {
        breaches.push(format!("{program} wrote outside the memory lent to it"));
    }
    for ((name, role, before), (.., after)) in call.parts().iter().zip(outcome.after.parts()) {
        let must_stay = *role == Role::Given || *role == Role::Lent && outcome.status != 0;
        if must_stay && before.memory() != after.memory() {
            breaches.push(format!("{program} changed {name}, with status {}", outcome.status));
        }
    }
    breaches
}
