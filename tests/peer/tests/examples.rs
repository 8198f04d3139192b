//! Each sheet of the examples prints the lines that stand beside it.

use std::fs;
use std::path::Path;

#[test]
fn examples_print_what_stands_beside_them() {
    let folder = Path::new(env!("CARGO_MANIFEST_DIR")).join("../../examples");
    let mut sheets = 0;
    for entry in fs::read_dir(folder).expect("the examples") {
        let file = entry.expect("a file").path();
        if file.extension().is_some_and(|extension| extension == "sheet") {
            let text = fs::read(&file).expect("a sheet");
            let printed = fs::read(file.with_extension("printed")).expect("its printed lines");
            assert_eq!(peer::answer::answer(&text), printed, "{}", file.display());
            sheets += 1;
        }
    }
    assert!(sheets >= 6);
}
