// An enum that may get more variants later always wants an arm for these.
#[non_exhaustive]
pub enum Error {
    NotFound,
    Denied { code: u16 },
}

pub fn code(e: Error) -> u16 {
    match e {
        Error::NotFound => 404,
        Error::Denied { code } => code,
    }
}

pub fn is_denied(e: &Error) -> bool {
    match e {
        Error::Denied { .. } => true,
        _ => false,
    }
}
