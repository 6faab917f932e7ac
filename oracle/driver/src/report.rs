//! The tests' outcomes: a line for each, and the closing line.

#[derive(Default)]
pub struct Report {
    passed: usize,
    failed: usize,
}

impl Report {
    pub fn line(&mut self, name: &str, outcome: Result<String, String>) {
        match outcome {
            Ok(what) => {
                self.passed += 1;
                println!("ok {name}: {what}");
            }
            Err(what) => {
                self.failed += 1;
                println!("FAILED {name}: {what}");
            }
        }
    }

    /// Prints the closing line. True if no test failed.
    pub fn close(self) -> bool {
        println!("{} passed, {} failed", self.passed, self.failed);
        self.failed == 0
    }
}
