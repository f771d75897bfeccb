//! Builds the driver again when the proved library changed.
fn main() {
    println!("cargo:rerun-if-changed=../../target/staticlib/libbench.a");
}
