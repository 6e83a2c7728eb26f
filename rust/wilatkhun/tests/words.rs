//! The words of the refusals stand once, in README.md's table: `Refusal` and `tools/refusal` (which `./rehearse` prints from)
//! both say them, for every number that a call can answer.

use std::process::Command;
use wilatkhun::Refusal;

const ROOT: &str = concat!(env!("CARGO_MANIFEST_DIR"), "/../..");

fn script(number: u8, index: usize) -> String {
    let answer = Command::new(format!("{ROOT}/tools/refusal"))
        .args([number.to_string(), index.to_string()])
        .output()
        .expect("tools/refusal runs");
    String::from_utf8(answer.stdout).expect("its words are text")
}

#[test]
fn every_number_has_its_words() {
    for number in (1..=20).chain([27]) {
        let refusal = Refusal { number, index: 3 };
        let said = [refusal.what(), refusal.index_names(), refusal.advice()];
        assert!(said.iter().all(|words| !words.is_empty()), "{number} has no words");
        let [what, index, advice] = said;
        assert_eq!(script(number, 3), format!("{number} at 3: {what}\nindex: {index}\nwhat to do: {advice}\n"));
    }
}

#[test]
fn other_numbers_have_none() {
    for number in (21..=26).chain(28..=255).chain([0]) {
        assert_eq!(Refusal { number, index: 0 }.what(), "no refusal has this number");
        assert_eq!(script(number, 0), "");
    }
}
