//! Stub.
#[derive(Debug)]
pub enum Error {
    Invalid(String),
    Format(String),
    Io(std::io::Error),
}

pub type Result<T> = core::result::Result<T, Error>;

impl From<std::io::Error> for Error {
    fn from(e: std::io::Error) -> Self {
        Error::Io(e)
    }
}
