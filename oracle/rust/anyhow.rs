//! Stands in for the crate `anyhow`, as far as dlx 0.8.5 uses it: an error that holds a text, one word wide as the real one is.

pub struct Error(Box<String>);

pub type Result<T> = std::result::Result<T, Error>;

impl Error {
    #[cold]
    pub fn msg(text: String) -> Error {
        Error(Box::new(text))
    }
}

impl std::fmt::Display for Error {
    fn fmt(&self, f: &mut std::fmt::Formatter<'_>) -> std::fmt::Result {
        f.write_str(&self.0)
    }
}

#[macro_export]
macro_rules! anyhow {
    ($($arg:tt)*) => { $crate::Error::msg(format!($($arg)*)) };
}

#[macro_export]
macro_rules! bail {
    ($($arg:tt)*) => { return Err($crate::anyhow!($($arg)*)) };
}
