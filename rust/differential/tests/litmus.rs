//! Small tables made by hand, answered by both.

use differential::Comparison;
use second::Chains;
use tables::litmus;

#[test]
fn both_give_the_answer_made_by_hand() {
    let mut comparison = Comparison::new(801);
    for case in litmus() {
        let chains = if case.chains { Chains::On } else { Chains::Off };
        let answer = comparison.check_with(chains, &case.bytes).unwrap();
        assert_eq!(answer.to_string(), case.answer, "{}", case.name);
        comparison.fill_with(chains, &case.bytes).unwrap();
        comparison.report_with(chains, &case.bytes).unwrap();
    }
}
