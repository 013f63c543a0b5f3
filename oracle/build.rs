//! Brings the files of felica-rs that hold its command parser into the build's own folder, byte for byte, with the stand-ins for what they refer to.
use std::path::{Path, PathBuf};
use std::{env, fs};

/// Where they stand in a checkout and, below the root of the module, in the build.
const FELICA_STANDARD: &str = "src/felica_standard";

const FILES: [&str; 5] = ["command/mod.rs", "command/parse.rs", "constants.rs", "error.rs", "types.rs"];

/// Each stands in for the file of felica-rs that has its name in the second column. `serialize.rs` writes commands; the parser does without it.
const STAND_INS: [(&str, &str); 4] = [
    ("felica_standard.rs", "mod.rs"),
    ("redact.rs", "redact.rs"),
    ("secure.rs", "secure.rs"),
    ("serialize.rs", "command/serialize.rs"),
];

fn main() {
    let checkout = env::var("FELICA_RS").expect("FELICA_RS is the folder of a felica-rs checkout");
    let out = PathBuf::from(env::var("OUT_DIR").expect("cargo names a folder for the build"));
    let tree = out.join("felica_standard");
    fs::create_dir_all(tree.join("command")).expect("a folder for the files");
    for name in FILES {
        bring(&Path::new(&checkout).join(FELICA_STANDARD).join(name), &tree.join(name));
    }
    for (from, to) in STAND_INS {
        bring(&Path::new("stand_ins").join(from), &tree.join(to));
    }
    let module = format!("#[path = {:?}]\npub mod felica_standard;\n", tree.join("mod.rs"));
    fs::write(out.join("felica_rs.rs"), module).expect("the module of the files");
    println!("cargo:rerun-if-env-changed=FELICA_RS");
}

fn bring(from: &Path, to: &Path) {
    println!("cargo:rerun-if-changed={}", from.display());
    let bytes = fs::read(from).unwrap_or_else(|error| panic!("{}: {error}", from.display()));
    fs::write(to, bytes).unwrap_or_else(|error| panic!("{}: {error}", to.display()));
}
