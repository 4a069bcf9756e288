//! Traces built by hand, each named by a sentence. Their lines come from the oracle.

mod builder;
mod damaged;
mod refusals;
mod rehearsals;
mod rules;

/// A trace built by hand.
pub struct Case {
    pub name: &'static str,
    pub trace: fn() -> Vec<u8>,
}

/// Every case, in the order of the files here.
pub fn all() -> impl Iterator<Item = &'static Case> {
    let parts = [
        rehearsals::CASES,
        rules::CASES,
        refusals::CASES,
        damaged::CASES,
    ];
    parts.into_iter().flatten()
}

pub fn named(name: &str) -> Option<&'static Case> {
    all().find(|case| case.name == name)
}

/// A table of cases, each a sentence and the builder's steps.
macro_rules! cases {
    ($($name:ident => $steps:expr,)*) => {
        pub const CASES: &[super::Case] = &[
            $(super::Case {
                name: stringify!($name),
                trace: || $steps.built(),
            },)*
        ];
    };
}
use cases;
