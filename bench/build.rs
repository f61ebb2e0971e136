// Links the proved sums that were compiled without vector instructions; those of the product's kind
// come with crate `sums`. `bash bench/sums.sh` makes both.
use std::path::Path;
use std::process::exit;

fn main() {
    let folder = Path::new(env!("CARGO_MANIFEST_DIR")).join("../target/sums");
    let library = folder.join("libsums_plain.a");
    if !library.is_file() {
        eprintln!("there is no {}: make it by `bash bench/sums.sh`", library.display());
        exit(1);
    }
    println!("cargo:rerun-if-changed={}", library.display());
    println!("cargo:rustc-link-search=native={}", folder.display());
    println!("cargo:rustc-link-lib=static=sums_plain");
}
