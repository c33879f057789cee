//! Where the feature `firmware` is on and FIRMWARE_DIR names a directory, link `libfirmware.a` from there.
//! Whoever would rather give the link arguments by RUSTFLAGS leaves FIRMWARE_DIR unset.

fn main() {
    println!("cargo:rerun-if-env-changed=FIRMWARE_DIR");
    let wanted = std::env::var_os("CARGO_FEATURE_FIRMWARE").is_some();
    if let (true, Ok(directory)) = (wanted, std::env::var("FIRMWARE_DIR")) {
        println!("cargo:rerun-if-changed={directory}/libfirmware.a");
        println!("cargo:rustc-link-search=native={directory}");
        println!("cargo:rustc-link-lib=static=firmware");
    }
}
