//! The engine in the library's place: the honest one says what must come, mutants must be found out.

use super::call::{Answer, Call, Memory, Side};
use crate::calls::engine::calls::Engine;
use crate::calls::engine::given::Asked;

impl Side for Engine {
    fn call(&self, call: Call, memory: &mut Memory) -> Result<Answer, String> {
        let Memory { file, lent, state, evidence, numbers, out } = memory;
        Ok(match call {
            Call::Load => Answer::Step(self.load(file, lent)),
            Call::Update(atom) => Answer::Step(self.update(file, lent, *state, atom)),
            Call::Close => Answer::Step(self.close(file, lent, *state)),
            Call::Run(budget) => Answer::Ran(self.run(file, lent, *state, budget)),
            Call::Weight(atom) => Answer::Weighed(self.weight(file, lent, *state, atom, numbers)),
            Call::Given(atom) => Answer::Shared(self.given(file, lent, *state, Asked { atom, evidence, numbers })),
            Call::Listing(atom) => Answer::Listed(self.listing(file, lent, *state, atom, out)),
        })
    }
}
