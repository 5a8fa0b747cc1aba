//! Links the library: that of `L4EMU_LIBRARY`, a folder, or else of `bindings/out`.
use std::env;
use std::path::PathBuf;

fn main() {
    let folder = env::var("L4EMU_LIBRARY").map(PathBuf::from).unwrap_or_else(|_| {
        PathBuf::from(env!("CARGO_MANIFEST_DIR")).join("../../out")
    });
    println!("cargo:rerun-if-env-changed=L4EMU_LIBRARY");
    println!("cargo:rerun-if-changed={}", folder.join("libl4emu.a").display());
    println!("cargo:rustc-link-search=native={}", folder.display());
    println!("cargo:rustc-link-lib=static=l4emu");
}
