//! Shared by the tests: tables by name.

use tables::examples;

/// An example's bytes.
pub fn example(name: &str) -> Vec<u8> {
    let found = examples()
        .into_iter()
        .find(|example| example.name == name)
        .map(|example| example.bytes);
    found.unwrap_or_else(|| panic!("no example is called {name}"))
}
