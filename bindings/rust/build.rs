//! Links libfigpliers, from the folder that FIGPLIERS_LIB names, or else from where the linker looks.

fn main() {
    println!("cargo:rerun-if-env-changed=FIGPLIERS_LIB");
    if let Ok(folder) = std::env::var("FIGPLIERS_LIB") {
        println!("cargo:rerun-if-changed={folder}/libfigpliers.a");
        println!("cargo:rustc-link-search=native={folder}");
    }
    let kind = if std::env::var_os("CARGO_FEATURE_SHARED").is_some() {
        "dylib"
    } else {
        "static"
    };
    println!("cargo:rustc-link-lib={kind}=figpliers");
}
