//! Small tables made by hand.

mod common;

use common::check_bytes_with;
use second::Chains;
use tables::litmus;

#[test]
fn answers_made_by_hand() {
    for case in litmus() {
        let chains = if case.chains { Chains::On } else { Chains::Off };
        let answer = check_bytes_with(chains, &case.bytes);
        assert_eq!(answer, case.answer, "{}", case.name);
    }
}
