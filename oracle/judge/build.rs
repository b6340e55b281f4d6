//! Links the library, whose archive LATCHPLUME_ARCHIVE names.

use std::path::Path;

fn main() {
    println!("cargo:rerun-if-env-changed=LATCHPLUME_ARCHIVE");
    let Ok(archive) = std::env::var("LATCHPLUME_ARCHIVE") else {
        println!("cargo:error=LATCHPLUME_ARCHIVE must name liblatchplume.a; `./build --static` prints its path");
        return;
    };
    println!("cargo:rerun-if-changed={archive}");
    let folder = Path::new(&archive).parent().expect("an archive lies in a folder");
    println!("cargo:rustc-link-search=native={}", folder.display());
    println!("cargo:rustc-link-lib=static=latchplume");
}
