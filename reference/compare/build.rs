//! Links the proved libraries, which `tools/build.sh listing frame_listing generator` writes, and for a benchmark an
//! earlier one of the first: the file that the environment variable LISTING_BEFORE names, its call under another name.

use std::path::Path;
use std::process::Command;

fn main() {
    let root = Path::new(env!("CARGO_MANIFEST_DIR")).join("../..");
    let library = root.join("target/staticlib");
    println!("cargo:rustc-link-search=native={}", library.display());
    for name in ["listing", "frame_listing", "generator"] {
        println!("cargo:rustc-link-lib=static={name}");
        let file = library.join(format!("lib{name}.a"));
        println!("cargo:rerun-if-changed={}", file.display());
    }
    println!("cargo:rustc-check-cfg=cfg(before)");
    println!("cargo:rerun-if-env-changed=LISTING_BEFORE");
    if let Ok(before) = std::env::var("LISTING_BEFORE") {
        let folder = std::env::var("OUT_DIR").expect("cargo names the folder");
        let renamed = Command::new("objcopy")
            .arg("--redefine-sym")
            .arg("belgwyth_listing=belgwyth_listing_before")
            .arg(&before)
            .arg(Path::new(&folder).join("liblisting_before.a"))
            .status();
        assert!(
            renamed.is_ok_and(|status| status.success()),
            "objcopy of {before} failed"
        );
        println!("cargo:rustc-link-search=native={folder}");
        println!("cargo:rustc-link-lib=static=listing_before");
        println!("cargo:rustc-cfg=before");
    }
}
