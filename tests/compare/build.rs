//! Tells the linker where the libraries are when the feature `linked` is on.

use std::env;
use std::path::Path;

fn main() {
    println!("cargo:rerun-if-changed=build.rs");
    println!("cargo:rerun-if-env-changed=ASKVIMUR_LIB");
    if env::var_os("CARGO_FEATURE_LINKED").is_none() {
        return;
    }
    let folder = env::var("ASKVIMUR_LIB")
        .expect("the feature `linked` needs ASKVIMUR_LIB, the folder of the libraries");
    for name in ["libaskvimur.a", "libaskvimur_service.a"] {
        let library = Path::new(&folder).join(name);
        assert!(library.is_file(), "no library at {}", library.display());
        println!("cargo:rerun-if-changed={}", library.display());
    }
    println!("cargo:rustc-link-search=native={folder}");
}
