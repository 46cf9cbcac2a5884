//! Finds libdvdecc: in the folder of the variable DVDECC_LIBRARY_FOLDER, by pkg-config, or where the linker looks.

use std::path::Path;
use std::process::Command;

/// What pkg-config says of the library, where there is one and it knows it.
fn ask_pkg_config(words: &[&str]) -> Option<String> {
    let tool = std::env::var("PKG_CONFIG").unwrap_or_else(|_| "pkg-config".to_string());
    let output = Command::new(tool).args(words).arg("dvdecc").output().ok()?;
    output.status.success().then(|| String::from_utf8_lossy(&output.stdout).trim().to_string())
}

fn main() {
    for name in ["DVDECC_LIBRARY_FOLDER", "DVDECC_STATIC", "DVDECC_SHARED", "PKG_CONFIG", "PKG_CONFIG_PATH"] {
        println!("cargo:rerun-if-env-changed={name}");
    }
    let is_set = |name| std::env::var_os(name).is_some();
    let named = std::env::var("DVDECC_LIBRARY_FOLDER").ok();
    let folder = named.clone().or_else(|| ask_pkg_config(&["--variable=libdir"]));
    let include = match &named {
        Some(folder) => Some(format!("{folder}/../include")),
        None => ask_pkg_config(&["--variable=includedir"]),
    };
    let mut is_static = is_set("DVDECC_STATIC");
    if let Some(folder) = folder {
        println!("cargo:rustc-link-search=native={folder}");
        let has_archive = named.is_some() && Path::new(&folder).join("libdvdecc.a").exists();
        is_static = is_static || has_archive && !is_set("DVDECC_SHARED");
    }
    if let Some(include) = include.filter(|folder| Path::new(folder).join("dvdecc.h").exists()) {
        // (crates that depend on this one see it as DEP_DVDECC_INCLUDE)
        println!("cargo:include={include}");
    }
    println!("cargo:rustc-link-lib={}dvdecc", if is_static { "static=" } else { "" });
}
