//! A checked table that is told of: what its relations say, in words.

use mend::{Facts, Relations};
use std::ops::Deref;

/// What is known of a checked table. The modules of this crate add the words.
#[derive(Clone, Copy)]
pub struct Checked<'a>(pub Facts<'a>);

impl<'a> Deref for Checked<'a> {
    type Target = Facts<'a>;

    fn deref(&self) -> &Facts<'a> {
        &self.0
    }
}

impl<'a> From<&'a Relations<'_>> for Checked<'a> {
    fn from(relations: &'a Relations) -> Checked<'a> {
        Checked(relations.facts())
    }
}
