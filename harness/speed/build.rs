// Links the static libraries that `./archive` and `./archive test_bcd` wrote; JEZYNAR_LIB is the folder that holds them.
fn main() {
    let dir = std::env::var("JEZYNAR_LIB").expect("JEZYNAR_LIB: the folder of libjezynar.a and libtest_bcd.a");
    println!("cargo:rustc-link-search=native={dir}");
    println!("cargo:rerun-if-env-changed=JEZYNAR_LIB");
    for lib in ["jezynar", "test_bcd"] {
        println!("cargo:rustc-link-lib=static={lib}");
        println!("cargo:rerun-if-changed={dir}/lib{lib}.a");
    }
}
