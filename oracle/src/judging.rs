//! What judges have in common: demands that are broken, in words, and the cases that
//! calls met.

use std::collections::BTreeMap;
use std::fmt;

/// A bound, or another demand, that was broken, in words and numbers.
#[derive(Clone, PartialEq, Eq, Debug)]
pub struct Broken<B> {
    pub bound: B,
    pub text: String,
}

/// The bound, unless it holds.
pub fn unless<B>(holds: bool, bound: B, text: impl FnOnce() -> String) -> Option<Broken<B>> {
    (!holds).then(|| Broken { bound, text: text() })
}

/// An error says every bound that was broken, after a word for what was judged.
pub fn outcome<B>(judged: &str, broken: &[Broken<B>]) -> Result<(), String> {
    if broken.is_empty() {
        return Ok(());
    }
    let texts: Vec<&str> = broken.iter().map(|broken| broken.text.as_str()).collect();
    Err(format!("{judged}: {}", texts.join("; ")))
}

/// The kinds of case that a call can meet.
pub trait Cases: Copy + Ord + 'static {
    const ALL: &'static [Self];

    fn text(self) -> &'static str;
}

/// Makes of a table of cases, each with its words, their type.
macro_rules! cases {
    ($($case:ident $text:literal;)*) => {
        /// A case that a call can meet.
        #[derive(Clone, Copy, PartialEq, Eq, PartialOrd, Ord, Debug)]
        pub enum Case { $($case,)* }

        impl Case {
            pub const ALL: &'static [Case] = &[$(Case::$case),*];

            pub fn text(self) -> &'static str {
                match self { $(Case::$case => $text,)* }
            }
        }

        impl $crate::judging::Cases for Case {
            const ALL: &'static [Case] = Case::ALL;

            fn text(self) -> &'static str {
                Case::text(self)
            }
        }
    };
}
pub(crate) use cases;

/// Those of the cases that hold.
pub fn those<C: Copy>(cases: &[(bool, C)]) -> Vec<C> {
    cases.iter().filter(|(holds, _)| *holds).map(|(_, case)| *case).collect()
}

/// How often each case was met.
#[derive(Clone, PartialEq, Eq, Debug)]
pub struct Met<C> {
    /// The calls that the cases are of, and those of another implementation among them.
    pub calls: u64,
    pub linked: u64,
    pub cases: BTreeMap<C, u64>,
}

impl<C> Default for Met<C> {
    fn default() -> Met<C> {
        Met { calls: 0, linked: 0, cases: BTreeMap::new() }
    }
}

impl<C: Cases> Met<C> {
    /// Counts a call that the cases are of.
    pub fn count_call(&mut self, is_linked: bool) {
        self.calls += 1;
        self.linked += u64::from(is_linked);
    }

    /// Counts the cases that a call met.
    pub fn count_cases(&mut self, cases: &[C]) {
        for case in cases {
            *self.cases.entry(*case).or_default() += 1;
        }
    }

    pub fn of(&self, case: C) -> u64 {
        self.cases.get(&case).copied().unwrap_or(0)
    }

    /// The cases that no call met.
    pub fn unmet(&self) -> Vec<&'static str> {
        let unmet = C::ALL.iter().filter(|case| self.of(**case) == 0);
        unmet.map(|case| case.text()).collect()
    }

    /// Panics unless each case was met at least so often, but for these; says how often first.
    pub fn demand(&self, least: u64, but: &[C]) {
        println!("{self}");
        for case in C::ALL {
            assert!(but.contains(case) || self.of(*case) >= least, "{}", case.text());
        }
    }
}

impl<C: Cases> fmt::Display for Met<C> {
    fn fmt(&self, f: &mut fmt::Formatter) -> fmt::Result {
        write!(f, "{}, of the library {}", self.calls, self.linked)?;
        let mut each = C::ALL.iter();
        each.try_for_each(|case| write!(f, "; {}: {}", case.text(), self.of(*case)))
    }
}
