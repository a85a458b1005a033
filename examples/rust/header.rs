//! What build scripts of Rust programs take from the library's header: its numbers and the
//! rooms of buffers, so that they stand there alone. The tests and the benchmark have it
//! from here, too, and where the static library is in the repository.

use std::path::{Path, PathBuf};
use std::{env, fs};

/// The rooms of the buffers that deciding is lent, in their order, by their names
/// without UTVPI_.
const ROOMS: [&str; 6] = [
    "MODEL_ROOM",
    "BOUNDS_ROOM",
    "GROUPS_ROOM",
    "REFUTATION_ROOM",
    "IDENTIFIERS_ROOM",
    "WORK_ROOM",
];

/// What else goes by n, and the functions that say it: the rooms of the work area for
/// differences and of a session's state, and the greatest bound of a shown line.
const BY_N: [(&str, &str); 3] = [
    ("DIFFERENCES_WORK_ROOM", "differences_work_room"),
    ("SESSION_ROOM", "session_room"),
    ("MOST_SHOWN_BOUND", "most_shown_bound"),
];

/// The repository, in which the package has a folder.
fn root() -> PathBuf {
    PathBuf::from(env::var_os("CARGO_MANIFEST_DIR").unwrap()).join("..")
}

/// Tells the linker where the static library is: in the folder named by UTVPI_LIB_DIR,
/// or else in the repository's target/lib.
pub fn link() {
    println!("cargo:rerun-if-env-changed=UTVPI_LIB_DIR");
    let folder = match env::var_os("UTVPI_LIB_DIR") {
        Some(folder) => PathBuf::from(folder),
        None => root().join("target/lib"),
    };
    let archive = folder.join("libutvpi.a");
    // A new archive is linked anew.
    println!("cargo:rerun-if-changed={}", archive.display());
    assert!(
        archive.is_file(),
        "{} is not there: run ./build-library in the repository's root first",
        archive.display()
    );
    println!("cargo:rustc-link-search=native={}", folder.display());
    println!("cargo:rustc-link-lib=static=utvpi");
}

/// Writes what the repository's header defines under these names, given without UTVPI_, as
/// constants, and the rooms of the buffers and what else goes by n as functions, for
/// src/limits.rs to take in.
pub fn write_limits(names: &[&str]) {
    write_limits_of(&root().join("include/utvpi.h"), names);
}

/// The same for the header that stands there.
pub fn write_limits_of(header: &Path, names: &[&str]) {
    println!("cargo:rerun-if-changed={}", header.display());
    let text = fs::read_to_string(header)
        .unwrap_or_else(|why| panic!("{} can't be read: {why}", header.display()));
    let of_n = |name: &str| defined(&text, &format!("{name}(n)"));
    let mut items: Vec<String> = Vec::new();
    for name in names {
        items.push(format!("const {name}: usize = {};", defined(&text, name)));
    }
    let (count, rooms) = (ROOMS.len(), ROOMS.map(of_n).join(", "));
    items.push(format!(
        "const fn rooms(n: usize) -> [usize; {count}] {{ [{rooms}] }}"
    ));
    for (name, function) in BY_N {
        let value = of_n(name);
        items.push(format!(
            "const fn {function}(n: usize) -> usize {{ {value} }}"
        ));
    }
    let rust: String = items
        .iter()
        .map(|item| format!("{ALLOW}\npub {item}\n"))
        .collect();
    let out = PathBuf::from(env::var_os("OUT_DIR").unwrap());
    fs::write(out.join("limits.rs"), rust).unwrap();
}

/// The header has more parentheses than Rust asks for, and the benchmark does not show lines.
const ALLOW: &str = "#[allow(dead_code, unused_parens, clippy::double_parens)]";

/// The formula that the header defines under a name, given without UTVPI_.
fn defined(header: &str, name: &str) -> String {
    formula(header, &format!("UTVPI_{name}")).unwrap_or_else(|| {
        panic!("the header does not define UTVPI_{name} by sums and products of numbers and n")
    })
}

/// The formula that the header defines under this name, without its casts, and with their own formulas in place of other names. What stands in brackets behind the
/// name of a formula of n is put in place of n.
fn formula(header: &str, name: &str) -> Option<String> {
    let text = header.replace("\\\n", " ");
    let start = format!("#define {name} ");
    let found = text.lines().find_map(|line| line.strip_prefix(&start))?;
    let mut formula = found
        .trim()
        .replace("(size_t)", "")
        .replace("(int64_t)", "");
    while let Some(at) = formula.find("UTVPI_") {
        let of_name = |c: char| c.is_ascii_uppercase() || c == '_';
        let behind = formula[at..].find(|c| !of_name(c));
        let end = behind.map_or(formula.len(), |length| at + length);
        let (name, rest) = (&formula[at..end], &formula[end..]);
        let argument = rest.strip_prefix('(').and_then(|rest| rest.split_once(')'));
        let (named, end) = match argument {
            Some((n, _)) => {
                let of_n = self::formula(header, &format!("{name}(n)"))?;
                (of_n.replace('n', n), end + n.len() + 2)
            }
            None => (self::formula(header, name)?, end),
        };
        formula.replace_range(at..end, &format!("({named})"));
    }
    let known = |c: char| c.is_ascii_digit() || " n+*()".contains(c);
    formula.chars().all(known).then_some(formula)
}
