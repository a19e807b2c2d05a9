//! What a form of functions must give, so that the engine can be played over more than one.

/// A function of the facts. In one form equal functions have equal numbers; these numbers say nothing else, and are
/// not those of nodes.
#[derive(Clone, Copy, Debug, PartialEq, Eq, Hash)]
pub struct Function(pub usize);

/// Every form starts with these two.
pub const NEVER: Function = Function(0);
pub const ALWAYS: Function = Function(1);

pub trait Form {
    /// Holds where this fact is on.
    fn fact(&mut self, fact: usize) -> Function;
    fn not(&mut self, of: Function) -> Function;
    fn and(&mut self, left: Function, right: Function) -> Function;
    fn or(&mut self, left: Function, right: Function) -> Function;
    /// The lowest fact that the function depends on; none for never and always.
    fn lowest(&self, of: Function) -> Option<usize>;
    /// What is left of the function once this fact is known. It is asked only of functions that depend on no lower
    /// fact.
    fn fixed(&mut self, of: Function, fact: usize, on: bool) -> Function;

    /// One function where the fact is off, another where it is on.
    fn chosen(&mut self, fact: usize, low: Function, high: Function) -> Function {
        let on = self.fact(fact);
        let off = self.not(on);
        let (low, high) = (self.and(off, low), self.and(on, high));
        self.or(low, high)
    }
}
