//! The three passes of the checker.

/// The passes, in the order in which they run.
#[derive(Clone, Copy, Debug, PartialEq, Eq, Hash)]
#[non_exhaustive]
pub enum Pass {
    /// Names and what may stand where: codes 20 to 40.
    Resolve,
    /// Which state may be read in an invariant and written by an entry: codes 50 and 51.
    Access,
    /// Lots, each used exactly once: codes 60 to 62.
    Linear,
}

impl Pass {
    /// Every pass, in the order in which they run.
    pub const ALL: &[Pass] = &[Pass::Resolve, Pass::Access, Pass::Linear];

    /// The word that the report has for it.
    pub fn word(self) -> &'static str {
        match self {
            Pass::Resolve => "resolve",
            Pass::Access => "access",
            Pass::Linear => "linear",
        }
    }

    /// The pass that has this code; `None` where it is no code.
    pub fn of_code(code: u16) -> Option<Pass> {
        match code {
            20..=40 => Some(Pass::Resolve),
            50..=51 => Some(Pass::Access),
            60..=62 => Some(Pass::Linear),
            _ => None,
        }
    }
}
