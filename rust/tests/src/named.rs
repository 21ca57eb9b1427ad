//! The name of a case, for a test that fails in a function which does not know it.

use std::fmt::Display;

/// Prints the name of a case if its test fails before this is dropped.
pub struct Named<'a, T: Display>(pub &'a T);

impl<T: Display> Drop for Named<'_, T> {
    fn drop(&mut self) {
        if std::thread::panicking() {
            eprintln!("case: {}", self.0);
        }
    }
}
