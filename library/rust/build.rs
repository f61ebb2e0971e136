// Links libtracker.a, which `bash library/build.sh` makes. It is looked for in the folder that the
// variable DRAW_TRACKER_LIB names, and nowhere else if that is set; then in ../lib, where a release
// has it; then in ../../target/library, where the build puts it in the repository.
use std::env;
use std::path::{Path, PathBuf};
use std::process::exit;

fn main() {
    println!("cargo:rerun-if-env-changed=DRAW_TRACKER_LIB");
    let here = PathBuf::from(env::var_os("CARGO_MANIFEST_DIR").expect("cargo names the folder"));
    let folders = match env::var_os("DRAW_TRACKER_LIB") {
        Some(named) => vec![PathBuf::from(named)],
        None => vec![here.join("../lib"), here.join("../../target/library")],
    };
    let Some(found) = folders.iter().find(|folder| archive(folder).is_file()) else {
        eprintln!("draw-tracker: there is no libtracker.a in:");
        for folder in &folders {
            eprintln!("  {}", folder.display());
        }
        eprintln!(
            "Make it by `bash library/build.sh` in the repository, or name its folder in the"
        );
        eprintln!("variable DRAW_TRACKER_LIB.");
        exit(1);
    };
    // A folder that is named from here, the crate's own, is another one to the linker.
    let found = found.canonicalize().expect("the folder is there");
    println!("cargo:rerun-if-changed={}", archive(&found).display());
    println!("cargo:rustc-link-search=native={}", found.display());
    println!("cargo:rustc-link-lib=static=tracker");
}

fn archive(folder: &Path) -> PathBuf {
    folder.join("libtracker.a")
}
