//! Cargo does not watch a library that is linked by `-L`: a new one would wait for a change of a source here.
fn main() {
    println!("cargo:rerun-if-changed=../target/staticlib/libexpander.a");
}
