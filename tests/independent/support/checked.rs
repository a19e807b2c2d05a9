//! What a check answers: the number of its cases, or why it failed.

pub type Checked = Result<usize, String>;

/// An error that names both sides where they differ.
pub fn same<T: PartialEq + std::fmt::Debug>(what: &str, got: T, expected: T) -> Result<(), String> {
    if got == expected {
        Ok(())
    } else {
        Err(format!("{what}: expected {expected:?} got {got:?}"))
    }
}
