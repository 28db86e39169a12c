fn main() {
    println!("cargo:rerun-if-changed=@ARCHIVE@/libexports.a");
    println!("cargo:rustc-link-search=native=@ARCHIVE@");
    println!("cargo:rustc-link-lib=static=exports");
    if std::env::var_os("CARGO_FEATURE_ANCHOR").is_some() {
        println!("cargo:rerun-if-changed=@ANCHOR@/libanchor.a");
        println!("cargo:rustc-link-search=native=@ANCHOR@");
        println!("cargo:rustc-link-lib=static=anchor");
    }
}
