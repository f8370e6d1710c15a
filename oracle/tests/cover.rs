//! The lists of what need not be reached name only what a tally counts, and nothing is left to nobody.

use oracle::cover::*;

#[test]
fn every_name_is_asked_of_a_run_or_of_the_list() {
    let answers = ANSWERS.map(|(call, kind)| format!("{call}: {kind}"));
    let known = |name: &&str| answers.iter().any(|a| a == name) || SITUATIONS.contains(name);
    assert!(RARE.iter().chain(&PRESET).chain(&OUTSIDE).all(|name| known(&name)));
    assert!(!RARE.iter().any(|name| PRESET.contains(name)));
}
