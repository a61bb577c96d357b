//! Every catalogue of `examples/` and the output that stands beside it.

use std::fs::{read, read_dir};

use second::{LIMIT, text_combinations};

#[test]
fn each_example_prints_what_stands_beside_it() {
    let mut seen = 0;
    for file in read_dir(program::root().join("examples")).unwrap() {
        let path = file.unwrap().path();
        if path.extension().is_some_and(|extension| extension == "csv") {
            let text = read(&path).unwrap();
            let expected = read(path.with_extension("out")).unwrap();
            assert_eq!(program::run(&text), expected, "{}", path.display());
            if text_combinations(&text) <= LIMIT {
                assert_eq!(second::boxplan(&text), expected, "{}", path.display());
            }
            seen += 1;
        }
    }
    assert_eq!(seen, 5);
}
