//! Finds the installed library: in `YURKIJE_PREFIX`, else by pkg-config.
use std::env;
use std::process::{exit, Command};

fn main() {
    println!("cargo:rerun-if-env-changed=YURKIJE_PREFIX");
    println!("cargo:rerun-if-env-changed=PKG_CONFIG_PATH");
    let folder = match env::var("YURKIJE_PREFIX") {
        Ok(prefix) => format!("{}/lib", prefix),
        Err(_) => by_pkg_config(),
    };
    println!("cargo:rerun-if-changed={}/libyurkije.a", folder);
    println!("cargo:rustc-link-search=native={}", folder);
    println!("cargo:rustc-link-lib=static=yurkije");
}

fn by_pkg_config() -> String {
    let ran = Command::new("pkg-config").args(["--variable=libdir", "yurkije"]).output();
    match ran {
        Ok(ran) if ran.status.success() => String::from_utf8_lossy(&ran.stdout).trim().to_string(),
        _ => {
            eprintln!("yurkije is not found: set YURKIJE_PREFIX to the folder that tools/install filled, or PKG_CONFIG_PATH to its lib/pkgconfig");
            exit(1)
        }
    }
}
