//! Gives the shared library its name, with the number that rises when its functions change.

fn main() {
    let of = |key| std::env::var(key).unwrap_or_default();
    println!("cargo::rerun-if-changed=build.rs");
    if of("CARGO_CFG_TARGET_FAMILY") == "unix" && of("CARGO_CFG_TARGET_VENDOR") != "apple" {
        println!("cargo::rustc-cdylib-link-arg=-Wl,-soname,libwenc.so.0");
    }
}
