//! Links the proved library, crates/frame/out/libframe.a, which `rt lib` in crates/frame writes, and the C code of the Rattle kit.

use std::path::{Path, PathBuf};
use std::process::Command;

fn main() {
    let root = PathBuf::from(std::env::var("CARGO_MANIFEST_DIR").unwrap()).join("..").canonicalize().unwrap();
    let library = root.join("crates/frame/out");
    assert!(library.join("libframe.a").exists(), "no {}/libframe.a: run `rt lib` in crates/frame first", library.display());
    // `rt doc` tells the path of a page that stands in the kit's folder, and the C code is in the folder c there
    let guide = Command::new("rt").arg("doc").output().expect("rt is on the path").stdout;
    let guide = String::from_utf8(guide).unwrap();
    let kit = Path::new(guide.trim()).parent().expect("the kit's folder");
    println!("cargo:rustc-link-search=native={}", library.display());
    println!("cargo:rustc-link-lib=static=frame");
    println!("cargo:rustc-link-search=native={}", kit.join("c").display());
    println!("cargo:rustc-link-lib=static=os_c");
    println!("cargo:rustc-link-lib=static=libc_c");
    println!("cargo:rerun-if-changed={}", library.join("libframe.a").display());
}
