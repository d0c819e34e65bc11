//! Links the proved library if it has been made; without it the crate still builds, and says so when it is run.
use std::env;
use std::path::{Path, PathBuf};

/// Where `tools/library.sh` writes it.
const MADE: &str = "../../target/staticlib/libface.a";

fn main() {
    println!("cargo:rustc-check-cfg=cfg(face)");
    println!("cargo:rerun-if-env-changed=SAPHYR_FACE");
    let named = env::var_os("SAPHYR_FACE").map(PathBuf::from);
    let library = named.unwrap_or_else(|| Path::new(MADE).to_owned());
    println!("cargo:rerun-if-changed={}", library.display());
    if env::var("CARGO_CFG_TARGET_ARCH").is_ok_and(|arch| arch != "x86_64") {
        println!("cargo:warning=the proved library is for x86-64: tools/host.sh, called as cargo, builds for it");
    } else if let Ok(library) = library.canonicalize() {
        link(&library);
    }
}

fn link(library: &Path) {
    let folder = library.parent().expect("a file stands in a folder");
    let name = library.file_name().expect("a file has a name");
    println!("cargo:rustc-link-search=native={}", folder.display());
    println!("cargo:rustc-link-lib=static:+verbatim={}", name.display());
    println!("cargo:rustc-cfg=face");
}
