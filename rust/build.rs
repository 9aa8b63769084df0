//! Links the static library `libhdt.a`: that of the folder `HDT_LIB_DIR`, else the one in the repository's `dist/`.

use std::env;
use std::path::{Path, PathBuf};
use std::process;

const LIBRARY: &str = "libhdt.a";
/// The targets that `dist/` has a library for: architecture, system, environment, and the folder.
const SHIPPED: [(&str, &str, &str, &str); 1] = [("x86_64", "linux", "gnu", "x86_64-linux-gnu")];

fn main() {
    println!("cargo:rerun-if-env-changed=HDT_LIB_DIR");
    match folder() {
        Ok(folder) => {
            println!("cargo:rerun-if-changed={}", folder.join(LIBRARY).display());
            println!("cargo:rustc-link-search=native={}", folder.display());
            println!("cargo:rustc-link-lib=static=hdt");
        }
        Err(message) => {
            eprintln!("error: {message}");
            process::exit(1);
        }
    }
}

/// The folder of the library. The error is a message for the user.
fn folder() -> Result<PathBuf, String> {
    let folder = match env::var_os("HDT_LIB_DIR").filter(|named| !named.is_empty()) {
        Some(named) => PathBuf::from(named),
        None => shipped()?,
    };
    if folder.join(LIBRARY).is_file() {
        return Ok(folder);
    }
    Err(format!(
        "there is no {LIBRARY} in {}; set HDT_LIB_DIR to the absolute path of the folder that has it",
        folder.display()
    ))
}

/// The folder in `dist/` of the target, whether or not it exists.
fn shipped() -> Result<PathBuf, String> {
    let of_target = |name: &str| env::var(format!("CARGO_CFG_TARGET_{name}")).unwrap_or_default();
    let (arch, os, environment) = (of_target("ARCH"), of_target("OS"), of_target("ENV"));
    let found = SHIPPED.iter().find(|shipped| (shipped.0, shipped.1, shipped.2) == (&arch, &os, &environment));
    let Some((.., name)) = found else {
        return Err(format!(
            "tickmarl-hdt has no library for the target {arch}-{os}-{environment}, only for x86_64-linux-gnu; \
             set HDT_LIB_DIR to the folder of a {LIBRARY} that was built for it"
        ));
    };
    let manifest = env::var("CARGO_MANIFEST_DIR").map_err(|error| error.to_string())?;
    Ok(Path::new(&manifest).join("../dist").join(name))
}
