//! Why a match is left out.

#[derive(Clone, Copy, Debug, PartialEq, Eq)]
pub enum Reason {
    Cfg,
    Constant,
    ForeignType,
    LooksInside,
    DeclaredTwice,
    Misfit,
    NoType,
    NoLiteral,
    Macro,
    OtherPattern,
    TooManyTypes,
}

impl Reason {
    /// The reason as the table of docs/real-code.md words it.
    pub fn text(self) -> &'static str {
        match self {
            Reason::Cfg => "an arm, a variant or a field has `cfg`",
            Reason::Constant => "a constant whose value is no literal of the crate",
            Reason::ForeignType => "a variant or struct of another crate",
            Reason::LooksInside => "a pattern looks into a type that is not known",
            Reason::DeclaredTwice => "a name that the crate declares more than once",
            Reason::Misfit => "types that do not fit",
            Reason::NoType => "no arm tells the type",
            Reason::NoLiteral => "a byte string, float or C string",
            Reason::Macro => "a macro as a pattern",
            Reason::OtherPattern => "a pattern outside the grammar",
            Reason::TooManyTypes => "too many types, or a type without end",
        }
    }
}
