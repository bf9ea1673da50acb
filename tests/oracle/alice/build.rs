//! Copies the original files byte for byte into OUT_DIR, writes the module tree over them, and cuts out of the
//! original `src/lib.rs` the two functions that document 01 refers to.
use std::{env, fs, path::Path};

const REPOSITORY: &str = "../../..";
const DEFAULT: &str = "../shared/docs/src";

const KERNEL: [&str; 4] =
    ["src/kernel/proof_tree.rs", "src/kernel/proof_term.rs", "src/kernel/prop.rs", "src/kernel/proof.rs"];
const CHECKER: [&str; 2] = ["src/kernel/checker/identifier.rs", "src/kernel/checker/identifier_context.rs"];
const UTIL: [&str; 1] = ["src/util/counter.rs"];
const FUNCTIONS: [&str; 2] = ["generate_proof_term_from_proof_tree", "proof_tree_conclusion_alpha_eq"];

fn main() {
    println!("cargo:rerun-if-env-changed=SKRIDUHOL_RUST_SRC");
    let repository = Path::new(&env::var("CARGO_MANIFEST_DIR").unwrap()).join(REPOSITORY);
    let sources = repository.join(env::var("SKRIDUHOL_RUST_SRC").unwrap_or(DEFAULT.into()));
    let out = env::var("OUT_DIR").unwrap();
    let out = Path::new(&out);

    let read = |file: &str| {
        let from = sources.join(file);
        println!("cargo:rerun-if-changed={}", from.display());
        fs::read_to_string(&from).unwrap_or_else(|e| panic!("{}: {e}; set SKRIDUHOL_RUST_SRC", from.display()))
    };
    let module = |file: &&str| {
        let copy = out.join(file);
        fs::create_dir_all(copy.parent().unwrap()).unwrap();
        fs::write(&copy, read(file)).unwrap();
        format!("#[path = {copy:?}] pub mod {};\n", copy.file_stem().unwrap().to_str().unwrap())
    };
    let modules = |files: &[&str]| files.iter().map(module).collect::<String>();
    let tree = format!(
        "pub mod kernel {{\n{}pub mod checker {{\n{}}}\n}}\npub mod util {{\n{}}}\n",
        modules(&KERNEL),
        modules(&CHECKER),
        modules(&UTIL),
    );
    fs::write(out.join("modules.rs"), tree).unwrap();

    let library = read("src/lib.rs");
    let functions: String = FUNCTIONS.map(|name| function(&library, name)).concat();
    fs::write(out.join("functions.rs"), functions).unwrap();
}

/// The text of a function, from `pub fn` to the brace that closes it in column 1.
fn function<'a>(source: &'a str, name: &str) -> &'a str {
    let from = source.find(&format!("pub fn {name}(")).unwrap_or_else(|| panic!("src/lib.rs has no {name}"));
    let length = source[from..].find("\n}\n").unwrap_or_else(|| panic!("{name} has no end")) + 3;
    &source[from..from + length]
}
