//! The worklists in examples/ that have their output beside them: the program and the separate
//! implementation write it, byte for byte. docs/pictures/delivery.sh draws from such an output.

use program::run_program;
use reference::drawtrack::transcript;
use std::path::Path;

#[test]
fn outputs_beside_worklists() {
    let examples = Path::new(env!("CARGO_MANIFEST_DIR")).join("../../examples");
    let mut compared = 0;
    for entry in std::fs::read_dir(&examples).expect("the folder examples can be read") {
        let output = entry.expect("its entries can be read").path();
        if output.extension().is_some_and(|extension| extension == "out") {
            let read = |path: &Path| std::fs::read(path).expect("an example can be read");
            let (worklist, expected) = (read(&output.with_extension("txt")), read(&output));
            assert!(transcript(&worklist) == expected, "reference: {}", output.display());
            assert!(run_program(&worklist) == expected, "program: {}", output.display());
            compared += 1;
        }
    }
    assert!(compared > 0, "no output in {}", examples.display());
}
