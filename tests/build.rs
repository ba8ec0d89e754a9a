//! With the feature `library`, links the reader's static library; READER_LIBRARY is its path (tests/library.sh prints it).

use std::path::PathBuf;

fn main() {
    println!("cargo:rerun-if-env-changed=READER_LIBRARY");
    if std::env::var_os("CARGO_FEATURE_LIBRARY").is_none() {
        return;
    }
    let path = PathBuf::from(std::env::var_os("READER_LIBRARY").expect("READER_LIBRARY"));
    println!("cargo:rerun-if-changed={}", path.display());
    println!(
        "cargo:rustc-link-search=native={}",
        path.parent().expect("a folder").display()
    );
    println!("cargo:rustc-link-lib=static=styrmflo");
}
