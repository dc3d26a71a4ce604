//! Stand-in for `anyhow`: an error is its text.

use std::fmt::{self, Debug, Display};

pub struct Error(String);

impl Error {
    pub fn msg<M: Display>(message: M) -> Self {
        Error(message.to_string())
    }
}

impl Display for Error {
    fn fmt(&self, f: &mut fmt::Formatter<'_>) -> fmt::Result {
        f.write_str(&self.0)
    }
}

impl Debug for Error {
    fn fmt(&self, f: &mut fmt::Formatter<'_>) -> fmt::Result {
        f.write_str(&self.0)
    }
}

impl<E: std::error::Error> From<E> for Error {
    fn from(error: E) -> Self {
        Error(error.to_string())
    }
}

pub type Result<T, E = Error> = std::result::Result<T, E>;

#[macro_export]
macro_rules! anyhow {
    ($($part:tt)*) => { $crate::Error::msg(format!($($part)*)) };
}

#[macro_export]
macro_rules! bail {
    ($($part:tt)*) => { return Err($crate::anyhow!($($part)*)) };
}
