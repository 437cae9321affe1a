//! The stored cases of the program `trials` (crates/trials): what it is to answer, by this implementation, where it has
//! an answer.

use b3_compare::on_deep_stack;
use b3_compare::trials::answer;
use std::{fs, path::PathBuf};

fn lines(file: &str) -> Vec<String> {
    let path = PathBuf::from(env!("CARGO_MANIFEST_DIR")).join("../../crates/trials").join(file);
    let read = fs::read_to_string(&path).unwrap_or_else(|error| panic!("{}: {error}", path.display()));
    read.lines().map(str::to_string).collect()
}

#[test]
fn stored_trials() {
    on_deep_stack(|| {
        let (mut cases, mut wrong) = (0, 0);
        for (line, stored) in lines("stdin").iter().zip(lines("stdout")) {
            let Some(found) = answer(line) else { continue };
            cases += 1;
            if stored != format!("{line} => {found}") {
                wrong += 1;
                eprintln!("{stored}\n    found {found}");
            }
        }
        assert_eq!(wrong, 0, "{wrong} of {cases} cases differ");
        assert!(cases > 2_000, "there are few cases");
    });
}
