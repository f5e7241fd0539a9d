// Links the static library that `./archive` writes. Its folder is JEZYNAR_LIB; where that is not set, the
// nearest target/staticlib in the folders above this crate that has it.
use std::env;
use std::path::PathBuf;

const ARCHIVE: &str = "libjezynar.a";

fn main() {
    println!("cargo:rerun-if-env-changed=JEZYNAR_LIB");
    // Also where the archive is not found: `cargo check` and `cargo doc` do without it, and what is to be linked fails
    // with the name of the library, after the warning.
    println!("cargo:rustc-link-lib=static=jezynar");

    let (places, looked): (Vec<PathBuf>, _) = match env::var_os("JEZYNAR_LIB").filter(|folder| !folder.is_empty()) {
        Some(folder) => (vec![folder.into()], "in JEZYNAR_LIB"),
        None => {
            let here = PathBuf::from(env::var_os("CARGO_MANIFEST_DIR").unwrap_or_default());
            let above = here.ancestors().skip(1).map(|folder| folder.join("target/staticlib")).collect();
            (above, "in target/staticlib of a folder above the crate")
        }
    };
    if let Some(folder) = places.iter().find(|folder| folder.join(ARCHIVE).is_file()) {
        println!("cargo:rustc-link-search=native={}", folder.display());
        println!("cargo:rerun-if-changed={}", folder.join(ARCHIVE).display());
        return;
    }
    println!("cargo:warning={ARCHIVE} is not {looked}: run `./archive`, or set JEZYNAR_LIB to its folder");
    // So that the script runs again, and finds an archive that was written meanwhile.
    for folder in &places {
        println!("cargo:rerun-if-changed={}", folder.join(ARCHIVE).display());
    }
}
