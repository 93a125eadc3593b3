//! Links the archive libcelbpf.a: that in the folder CELBPF_LIB_DIR, or that of `pkg-config celbpf`.
use std::env;
use std::process::Command;

fn main() {
    println!("cargo:rerun-if-env-changed=CELBPF_LIB_DIR");
    println!("cargo:rerun-if-env-changed=PKG_CONFIG_PATH");
    let folder = env::var("CELBPF_LIB_DIR").unwrap_or_else(|_| {
        let asked = Command::new("pkg-config").args(["--variable=libdir", "celbpf"]).output();
        match asked {
            Ok(told) if told.status.success() => String::from_utf8_lossy(&told.stdout).trim().to_string(),
            _ => panic!("set CELBPF_LIB_DIR to the folder of libcelbpf.a, or PKG_CONFIG_PATH to that of celbpf.pc"),
        }
    });
    println!("cargo:rustc-link-search=native={folder}");
    println!("cargo:rustc-link-lib=static=celbpf");
    println!("cargo:rerun-if-changed={folder}/libcelbpf.a");
}
