//! What a form of functions must give, so that numbering and scripts can be played over more than one form.

/// A form in which equal functions are equal values. The numbering rests on that: it finds a node by its function,
/// and holds no diagram that could be wrong in the same way as the library's.
pub trait Function: Clone + Ord {
    fn never() -> Self;
    /// Holds where this fact is on.
    fn fact(fact: u16) -> Self;
    fn not(&self) -> Self;
    fn and(&self, other: &Self) -> Self;
    fn or(&self, other: &Self) -> Self;
    /// The lowest fact that the function depends on; none for never and always.
    fn lowest(&self) -> Option<u16>;
    /// The function that is left once this fact is known.
    fn fixed(&self, fact: u16, on: bool) -> Self;
}
