//! Links the static library that `rt lib` writes in crates/object_mesh; OBJECT_MESH_LIB names another
//! folder that holds it.

fn main() {
    let root = std::env::var("CARGO_MANIFEST_DIR").expect("cargo sets it");
    let folder = std::env::var("OBJECT_MESH_LIB")
        .unwrap_or_else(|_| format!("{root}/../../crates/object_mesh/out"));
    println!("cargo:rustc-link-search=native={folder}");
    println!("cargo:rustc-link-lib=static=object_mesh");
    println!("cargo:rerun-if-env-changed=OBJECT_MESH_LIB");
    println!("cargo:rerun-if-changed={folder}/libobject_mesh.a");
}
