//! Stands in for the crate `tracing` in the reference's converter: its one message goes to standard error.

#[macro_export]
macro_rules! error {
    (%$value:ident, $text:literal) => {
        eprintln!("{}: {}", $text, $value)
    };
}
