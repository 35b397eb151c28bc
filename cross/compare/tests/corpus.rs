//! The fuzzer's kept inputs, compared once each.

use compare::{one_of_many, paper, Comparison};
use std::path::Path;

#[test]
fn the_kept_inputs_show_no_difference_and_every_end() {
    let folder = Path::new(env!("CARGO_MANIFEST_DIR")).join("../fuzz/corpus");
    let mut comparison = Comparison::new(paper::outcome);
    let mut inputs = 0;
    for entry in std::fs::read_dir(folder).unwrap() {
        let path = entry.unwrap().path();
        let data = std::fs::read(&path).unwrap();
        if let Err(difference) = one_of_many(&mut comparison, &data) {
            panic!("{}\n{difference}", path.display());
        }
        inputs += 1;
    }
    assert!(inputs >= 100, "only {inputs} inputs");
    assert_eq!(comparison.tally.missing(), Vec::<String>::new());
}
