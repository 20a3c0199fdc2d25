//! Links the proved archives: `libwivakkol.a` of an installation or of `dist/`, which has the objects of all of them; or, where `libwivakkol_turn.a` stands in the folder, the
//! archives that `python3 tools/dist.py archive` writes, those of the crate's features alone: `wivakkol_turn` and `wivakkol`, with `tables` also `wivakkol_tables`, with `marks` `wivakkol_marks`, with `deques`
//! `wivakkol_deque_turn` and `wivakkol_deques`, with `desk` `wivakkol_desk`, with `pace` `wivakkol_pace`. The folder is the one that `WIVAKKOL_ARCHIVE` names, or else the repository's
//! `target/staticlib`, or its `dist/`.
use std::path::{Path, PathBuf};
use std::{env, process};

fn main() {
    println!("cargo:rerun-if-env-changed=WIVAKKOL_ARCHIVE");
    let folder = match env::var_os("WIVAKKOL_ARCHIVE") {
        Some(folder) => PathBuf::from(folder),
        None => own_folder(),
    };
    let names = if apart(&folder) { with_features() } else { vec!["wivakkol"] };
    for name in names {
        let archive = folder.join(format!("lib{name}.a"));
        let Ok(archive) = archive.canonicalize() else {
            eprintln!(
                "{} is not there: `python3 tools/dist.py archive {name}` writes it to target/staticlib, and WIVAKKOL_ARCHIVE may name the folder of an archive",
                archive.display()
            );
            process::exit(1);
        };
        println!("cargo:rerun-if-changed={}", archive.display());
        println!("cargo:rustc-link-search=native={}", archive.parent().expect("it is in a folder").display());
        println!("cargo:rustc-link-lib=static={name}");
    }
}

/// The repository's folder: what was built there, else what is ready for this processor.
fn own_folder() -> PathBuf {
    let here = env::var_os("CARGO_MANIFEST_DIR").expect("cargo names the crate's folder");
    let top = Path::new(&here).join("../..");
    let built = top.join("target/staticlib");
    if apart(&built) {
        return built;
    }
    let processor = env::var("CARGO_CFG_TARGET_ARCH").expect("cargo names the processor");
    top.join(format!("dist/{processor}-linux"))
}

/// Whether a folder has the archives one by one.
fn apart(folder: &Path) -> bool {
    folder.join("libwivakkol_turn.a").exists()
}

fn with_features() -> Vec<&'static str> {
    let mut names = vec!["wivakkol_turn", "wivakkol"];
    for (feature, archives) in [
        ("TABLES", &["wivakkol_tables"][..]),
        ("MARKS", &["wivakkol_marks"]),
        ("DEQUES", &["wivakkol_deque_turn", "wivakkol_deques"]),
        ("DESK", &["wivakkol_desk"]),
        ("PACE", &["wivakkol_pace"]),
    ] {
        if env::var_os(format!("CARGO_FEATURE_{feature}")).is_some() {
            names.extend(archives);
        }
    }
    names
}
