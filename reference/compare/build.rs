//! Links the proved library's static archives, `libsstable.a` and `libsstable_data.a`.

use std::env;
use std::path::PathBuf;

fn main() {
    println!("cargo:rerun-if-env-changed=SSTABLE_ARCHIVE_DIR");
    let manifest = PathBuf::from(env::var_os("CARGO_MANIFEST_DIR").expect("set by cargo"));
    for name in ["sstable", "sstable_data"] {
        let dir = match env::var_os("SSTABLE_ARCHIVE_DIR") {
            Some(dir) => PathBuf::from(dir),
            None => manifest.join("../../crates").join(name).join("out"),
        };
        println!("cargo:rustc-link-search=native={}", dir.display());
        let archive = dir.join(format!("lib{name}.a"));
        println!("cargo:rerun-if-changed={}", archive.display());
        if !archive.is_file() {
            panic!(
                "\n\nThe proved library is not there: {}\n\
                 Build its static archives first (`rt lib` in crates/sstable and in \
                 crates/sstable_data), or name the folder that holds them in the environment \
                 variable SSTABLE_ARCHIVE_DIR.\n",
                archive.display()
            );
        }
        println!("cargo:rustc-link-lib=static={name}");
    }
}
