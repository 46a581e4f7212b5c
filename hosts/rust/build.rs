//! Links the archive of the C entries, at every build: cargo goes by dates, and a changed archive may bear an older one.

fn main() {
    println!("cargo:rustc-link-search=native={}/../../target/staticlib", env!("CARGO_MANIFEST_DIR"));
    println!("cargo:rustc-link-lib=static=fekhvina");
    println!("cargo:rerun-if-changed=no-such-file");
}
