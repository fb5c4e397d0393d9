//! The examples' explanations, by the second program.

use second::explain::explain;

#[test]
fn examples_have_their_explanations() {
    let folder = concat!(env!("CARGO_MANIFEST_DIR"), "/../examples/scenarios");
    let mut met = 0;
    for entry in std::fs::read_dir(folder).unwrap() {
        let file = entry.unwrap().path();
        if file.extension().is_some_and(|e| e == "explained") {
            let mut trace = Vec::new();
            let scenario = std::fs::read_to_string(file.with_extension("txt")).unwrap();
            tools::scenario::read(&scenario).unwrap().write(&mut trace).unwrap();
            assert_eq!(explain(&trace), std::fs::read_to_string(&file).unwrap(), "{file:?}");
            met += 1;
        }
    }
    assert_eq!(met, 9);
}
