//! The four published files are not part of this workspace. They are read, byte
//! for byte as published, from the folder that REFRESH_SRC names.
use std::{env, fs, path::PathBuf, process::exit};

fn main() {
    println!("cargo:rerun-if-env-changed=REFRESH_SRC");
    let Some(folder) = env::var_os("REFRESH_SRC") else {
        eprintln!(
            "REFRESH_SRC is not set: it must name the folder that holds the published \
             mod.rs, hook.rs, util.rs and options.rs of swc's refresh pass"
        );
        exit(1);
    };
    let folder = PathBuf::from(folder);
    let Ok(folder) = folder.canonicalize() else {
        eprintln!("REFRESH_SRC: no folder {}", folder.display());
        exit(1);
    };
    for file in ["mod.rs", "hook.rs", "util.rs", "options.rs"] {
        let path = folder.join(file);
        if !path.is_file() {
            eprintln!("REFRESH_SRC: no file {}", path.display());
            exit(1);
        }
        println!("cargo:rerun-if-changed={}", path.display());
    }
    let root = folder.join("mod.rs");
    let out = PathBuf::from(env::var_os("OUT_DIR").expect("OUT_DIR")).join("refresh.rs");
    let text = format!(
        "#[path = {:?}]\n#[allow(dead_code, unused, clippy::all)]\npub mod refresh;\n",
        root.to_str().expect("a path in UTF-8")
    );
    fs::write(&out, text).expect("write to OUT_DIR");
}
