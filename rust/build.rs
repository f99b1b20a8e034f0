//! Links libtimetable.a: the file that the environment's TIMETABLE_LIBRARY names, else target/staticlib/libtimetable.a of the repository.
use std::path::{Path, PathBuf};

fn main() {
    println!("cargo::rerun-if-env-changed=TIMETABLE_LIBRARY");
    let repository = Path::new(env!("CARGO_MANIFEST_DIR")).join("../target/staticlib/libtimetable.a");
    let library = std::env::var_os("TIMETABLE_LIBRARY").map_or(repository, PathBuf::from);
    println!("cargo::rerun-if-changed={}", library.display());
    let name = library.file_stem().and_then(|stem| stem.to_str()).and_then(|stem| stem.strip_prefix("lib"));
    match (library.canonicalize(), name) {
        (Ok(found), Some(name)) => {
            let folder = found.parent().expect("a file stands in a folder");
            println!("cargo::rustc-link-search=native={}", folder.display());
            println!("cargo::rustc-link-lib=static={name}");
        }
        _ => println!(
            "cargo::error={} is no library: `tools/make timetable` makes it, or TIMETABLE_LIBRARY names a libNAME.a",
            library.display()
        ),
    }
}
