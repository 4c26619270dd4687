//! A library that asks the engine itself.

pub fn is_table(bytes: &[u8]) -> bool {
    keshmirun::check(bytes).is_ok()
}
