//! One line for each test, and the count of both kinds at the end.

#[derive(Default)]
pub struct Report {
    passed: usize,
    failed: usize,
}

impl Report {
    /// A test that passed gives the number of its cases (files or scripts), one that failed says why.
    pub fn add(&mut self, name: &str, result: Result<usize, String>) {
        match result {
            Ok(cases) => {
                self.passed += 1;
                println!("ok {name} ({cases} cases)");
            }
            Err(reason) => {
                self.failed += 1;
                println!("FAILED {name}: {reason}");
            }
        }
    }

    /// Prints the last line and says whether all passed.
    pub fn finish(self) -> bool {
        println!("{} passed, {} failed", self.passed, self.failed);
        self.failed == 0
    }
}
