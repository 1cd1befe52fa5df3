//! A call that ends in a panic has no answer, so two libraries that panic alike do not agree.

use differential::{run, Case, Library, Outcome};

/// A library without answers.
struct Broken;

impl Library for Broken {
    fn outcome(&self, _case: &Case) -> Outcome {
        panic!("no answer");
    }
}

#[test]
fn two_libraries_that_panic_alike_differ() {
    std::panic::set_hook(Box::new(|_| {}));
    let (_, finding) = run(&Broken, &Broken, 1, 1);
    assert!(finding.is_some_and(|finding| finding.input == 0));
}
