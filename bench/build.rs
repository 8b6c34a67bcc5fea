// With the feature `library`, links the static library that `rt lib` wrote in crates/tamchuwe into the program `bench`.
fn main() {
    println!("cargo:rerun-if-env-changed=TAMCHUWE_LIB");
    if std::env::var_os("CARGO_FEATURE_LIBRARY").is_none() {
        return;
    }
    let library = std::env::var("TAMCHUWE_LIB").expect("bench/run sets TAMCHUWE_LIB to the folder of libtamchuwe.a");
    println!("cargo:rustc-link-arg-bin=bench={library}/libtamchuwe.a");
    println!("cargo:rerun-if-changed={library}/libtamchuwe.a");
}
