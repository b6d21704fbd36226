// Links the static library that tests/library makes.
fn main() {
    let root = std::env::var("CARGO_MANIFEST_DIR").expect("cargo sets it");
    let library = format!("{root}/../../target/staticlib");
    println!("cargo:rustc-link-search=native={library}");
    println!("cargo:rustc-link-lib=static=splicelog");
    println!("cargo:rerun-if-changed={library}/libsplicelog.a");
}
