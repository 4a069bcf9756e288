//! Which cube root the Rust's CUBIC uses on this thread.

use crate::exact_root::exact_root;

#[derive(Clone, Copy, Debug, PartialEq, Eq)]
pub enum Root {
    /// 01's: the largest float whose exact cube is at most the argument.
    Exact,
    /// libm's, as shipped.
    Shipped,
}

/// Name and version of the libm whose root is built in, if any is.
pub fn shipped_name() -> Option<&'static str> {
    shipped_root::SHIPPED.map(|(name, _)| name)
}

impl Root {
    /// The root as a function, if it is built in.
    pub fn function(self) -> Option<fn(f64) -> f64> {
        match self {
            Root::Exact => Some(exact_root),
            Root::Shipped => shipped_root::SHIPPED.map(|(_, root)| root),
        }
    }

    /// Makes the Rust use this root on this thread from now on.
    pub fn choose(self) -> Result<(), String> {
        let missing = "libm's root is not built in: install Debian's librust-libm-dev \
                       (or set LIBM_SRC) and run oracle/build again";
        libm::choose_root(self.function().ok_or(missing)?);
        Ok(())
    }
}
