//! Links the static library that `rt lib` writes in crates/object_mesh.

fn main() {
    println!("cargo:rustc-link-search=native=../../crates/object_mesh/out");
    println!("cargo:rustc-link-lib=static=object_mesh");
    println!("cargo:rerun-if-changed=../../crates/object_mesh/out/libobject_mesh.a");
}
