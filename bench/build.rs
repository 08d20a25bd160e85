//! Tells the linker where the library's archives are. Only the binaries that declare its functions link them.

use std::env;
use std::path::Path;

fn main() {
    let here = env::var("CARGO_MANIFEST_DIR").expect("cargo names the folder of the package");
    let folder = env::var("PEKSTUVNA_LIB").unwrap_or_else(|_| "../build".to_owned());
    let folder = Path::new(&here).join(folder);
    println!("cargo:rustc-link-search=native={}", folder.display());
    println!("cargo:rerun-if-env-changed=PEKSTUVNA_LIB");
    println!("cargo:rerun-if-changed=build.rs");
    for archive in ["libpekstuvna.a", "librattle_c.a"] {
        println!("cargo:rerun-if-changed={}", folder.join(archive).display());
    }
}
