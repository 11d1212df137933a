//! The stored cases of `cases/`: each is answered as its `.expected` says.

use std::fs;
use std::path::{Path, PathBuf};

use reference::batch::{decode_cases, run_case};

#[test]
fn every_stored_case_is_answered_as_expected() {
    let dir = Path::new(env!("CARGO_MANIFEST_DIR")).join("cases");
    let entries = fs::read_dir(dir)
        .unwrap()
        .map(|entry| entry.unwrap().path());
    let is = |path: &PathBuf, extension: &str| path.extension().is_some_and(|e| e == extension);
    let (cases, others): (Vec<PathBuf>, Vec<PathBuf>) = entries.partition(|p| is(p, "batch"));
    assert!(others.iter().all(|path| is(path, "expected")));
    assert_eq!(cases.len(), others.len());
    assert!(cases.len() > 330);
    for path in cases {
        let bytes = fs::read(&path).unwrap();
        let stored = decode_cases(&bytes).expect("a container");
        let [(kind, blobs)] = stored.as_slice() else {
            panic!("{}: not one case", path.display());
        };
        let expected = fs::read_to_string(path.with_extension("expected")).unwrap();
        let line = run_case(*kind, blobs, true);
        assert_eq!(format!("{line}\n"), expected, "{}", path.display());
    }
}
