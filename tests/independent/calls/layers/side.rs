//! Who works the layers out: the library, or a stand-in in its place.

use crate::calls::engine::answer::Listed;
use crate::calls::host::{reach_layers, Guarded};
use std::cell::Cell;

/// An error is a fault that no answer shows, as writing outside of what was lent.
pub trait Side {
    fn layers(&self, file: &[u8], out: &mut Vec<u8>) -> Result<Listed, String>;
}

/// Counts its calls, for the sentinels to differ from one to the next.
#[derive(Default)]
pub struct Library(Cell<usize>);

impl Side for Library {
    fn layers(&self, file: &[u8], out: &mut Vec<u8>) -> Result<Listed, String> {
        let turn = self.0.replace(self.0.get() + 1);
        let mut lent = Guarded::new(file, [0x00, 0xFF], turn);
        let mut output = Guarded::new(out, [0xFF, 0x00], turn);
        let (f, fl, o, ol) = (lent.start(), lent.len(), output.start(), output.len());
        // Each pointer goes with the length of the vector that it was taken from.
        let listed = unsafe { reach_layers(f, fl, o, ol) };
        *out = output.back("output")?;
        if lent.back("file")? == file {
            Ok(listed)
        } else {
            Err("the file was written to".to_string())
        }
    }
}
