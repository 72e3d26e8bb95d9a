//! Tells where libbpf_host.a lies: in the folder BPF_HOST_LIB, or where pkg-config has it.

use std::process::Command;

fn main() {
    println!("cargo::rerun-if-env-changed=BPF_HOST_LIB");
    println!("cargo::rerun-if-env-changed=PKG_CONFIG_PATH");
    let folder = std::env::var("BPF_HOST_LIB").unwrap_or_else(|_| {
        let said = Command::new("pkg-config")
            .args(["--variable=libdir", "bpf_host"])
            .output()
            .ok()
            .filter(|said| said.status.success())
            .expect("libbpf_host.a: set BPF_HOST_LIB to its folder, or PKG_CONFIG_PATH");
        String::from_utf8_lossy(&said.stdout).trim().to_owned()
    });
    println!("cargo::rerun-if-changed={folder}/libbpf_host.a");
    println!("cargo::rustc-link-search=native={folder}");
}
