// Links the static library that `./archive` wrote; JEZYNAR_LIB is the folder that holds it.
fn main() {
    let dir = std::env::var("JEZYNAR_LIB").expect("JEZYNAR_LIB: the folder of libjezynar.a");
    println!("cargo:rustc-link-search=native={dir}");
    println!("cargo:rustc-link-lib=static=jezynar");
    println!("cargo:rerun-if-env-changed=JEZYNAR_LIB");
    println!("cargo:rerun-if-changed={dir}/libjezynar.a");
}
