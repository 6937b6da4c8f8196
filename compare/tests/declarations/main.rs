//! Holds `include/rulantip.h` and `src/library.rs` to the source that exports the functions: names,
//! parameters in order, types, results, and the fields of the structs.

mod parse;

use compare::reference::{counters, NAMES, SPACES};
use parse::{c_header, constants, rattle_source, refusals, rust_module, Face};
use std::fs;
use std::path::{Path, PathBuf};

fn root() -> PathBuf {
    Path::new(env!("CARGO_MANIFEST_DIR")).join("..")
}

fn text(path: &str) -> String {
    let path = root().join(path);
    fs::read_to_string(&path).unwrap_or_else(|error| panic!("{}: {error}", path.display()))
}

/// All source files of the crate that exports the functions.
fn exported() -> Face {
    let folder = root().join("crates/rulantip/src");
    let files = fs::read_dir(&folder).unwrap_or_else(|error| panic!("{}: {error}", folder.display()));
    let mut paths: Vec<PathBuf> = files.map(|file| file.unwrap().path()).collect();
    paths.retain(|path| path.extension().is_some_and(|extension| extension == "rt"));
    let sources: Vec<String> = paths.iter().map(|path| fs::read_to_string(path).unwrap()).collect();
    rattle_source(&sources.join("\n")).unwrap_or_else(|problem| panic!("{}: {problem}", folder.display()))
}

fn hold(name: &str, declared: Result<Face, String>) {
    let declared = declared.unwrap_or_else(|problem| panic!("{name}: {problem}"));
    if let Some(problem) = declared.differs(&exported()) {
        panic!("{name} and crates/rulantip/src differ: {problem}");
    }
}

#[test]
fn header_is_as_the_source() {
    hold("include/rulantip.h", c_header(&text("include/rulantip.h")));
}

#[test]
fn rust_module_is_as_the_source() {
    hold("compare/src/library.rs", rust_module(&text("compare/src/library.rs")));
}

#[test]
fn header_is_as_the_rust_module() {
    let header = c_header(&text("include/rulantip.h")).unwrap();
    let module = rust_module(&text("compare/src/library.rs")).unwrap();
    assert_eq!(header.differs(&module), None);
    assert_eq!(header.functions.len(), 20);
    assert_eq!(header.structs.len(), 6);
}

/// The numbers that the header defines: refusals, transforms, spaces, counters.
#[test]
fn constants_of_the_header() {
    let mut constants = constants(&text("include/rulantip.h"));
    let refusals = refusals(&text("compare/src/library.rs"));
    assert_eq!(refusals.len(), 17);
    for (name, number) in refusals {
        let name = format!("RULANTIP_REFUSED_{}", name.to_uppercase());
        assert_eq!(constants.remove(&name), Some(number), "{name}");
    }
    for (name, number) in NAMES.iter().zip(0..) {
        let name = format!("RULANTIP_{}", name.to_uppercase().replace('-', "_"));
        assert_eq!(constants.remove(&name), Some(number), "{name}");
    }
    for space in SPACES {
        let name = format!("RULANTIP_{space:?}").to_uppercase();
        assert_eq!(constants.remove(&name), Some(space.number().into()), "{name}");
    }
    let most = (0..4).map(|transform| counters([16; 3], transform)).max().unwrap();
    assert_eq!(constants.remove("RULANTIP_COUNTERS_MAX"), Some(most as u64));
    assert!(constants.is_empty(), "not held to anything: {constants:?}");
}

const SOURCE: &str = r#"
    // A comment with a fn in it.
    ghost use lib.{_≡_};

    #[repr(C)]
    pub struct RulantipPair {
        pub refusal: u32,
        pub count: u32,
        pub share: f64,
    }

    fn inner(s: &[u8]) -> u32
        ensures { result ≡ 0 }
    {
        0
    }

    #[unsafe(no_mangle)]
    pub extern "C" fn rulantip_pair<'a>(width: u32, choices: &'a [u8], c1: &mut [i32], counters: &mut [u32]) -> RulantipPair
        ensures { result ≡ pair { width } }
    {
        RulantipPair { refusal: 0, count: 1, share: 0.5 }
    }

    #[unsafe(no_mangle)]
    pub extern "C" fn rulantip_none(file: &[u8], weight: f64)
    {
    }
"#;

const HEADER: &str = "
    #ifdef __cplusplus
    extern \"C\" {
    #endif
    typedef struct { uint32_t refusal, count; double share; } rulantip_pair; /* a pair; */
    rulantip_pair rulantip_pair(uint32_t width, const uint8_t *choices, size_t choices_len,
        int32_t *c1, size_t c1_len, uint32_t *counters, size_t counters_len);
    void rulantip_none(const uint8_t *file, size_t file_len, double weight); // nothing
";

const MODULE: &str = r#"
    #[repr(C)]
    #[derive(Clone, Copy)]
    pub struct RulantipPair { pub refusal: u32, pub count: u32, pub share: f64 }

    pub struct Other { pub a: u8 }

    extern "C" {
        pub fn rulantip_pair(width: u32, choices: *const u8, choices_len: usize, c1: *mut i32, c1_len: usize,
            counters: *mut u32, counters_len: usize) -> RulantipPair;
        pub fn rulantip_none(file: *const u8, file_len: usize, weight: f64);
    }
"#;

#[test]
fn equal_declarations_are_equal() {
    let source = rattle_source(SOURCE).unwrap();
    assert_eq!((source.functions.len(), source.structs.len()), (2, 1));
    assert_eq!(c_header(HEADER).unwrap().differs(&source), None);
    assert_eq!(rust_module(MODULE).unwrap().differs(&source), None);
}

#[test]
fn changed_declarations_are_found() {
    let source = rattle_source(SOURCE).unwrap();
    for (old, new) in [
        ("refusal, count", "count, refusal"),
        ("refusal, count", "refusal"),
        ("uint32_t refusal", "int32_t refusal"),
        ("} rulantip_pair;", "} rulantip_pairs;"),
        ("uint32_t width, ", ""),
        ("uint32_t width", "uint32_t height"),
        ("uint32_t width", "uint64_t width"),
        ("const uint8_t *choices", "uint8_t *choices"),
        ("int32_t *c1", "const int32_t *c1"),
        ("int32_t *c1, size_t c1_len", "size_t c1_len, int32_t *c1"),
        ("size_t c1_len", "uint32_t c1_len"),
        ("uint32_t *counters", "int32_t *counters"),
        ("rulantip_pair rulantip_pair(", "uint32_t rulantip_pair("),
        ("void rulantip_none", "uint32_t rulantip_none"),
        ("rulantip_none(", "rulantip_nothing("),
        ("double weight);", "double weight, uint32_t more);"),
        ("double weight", "float weight"),
        ("double weight", "uint32_t weight"),
        ("double share", "float share"),
        ("double share", "uint32_t share"),
        ("// nothing", "void rulantip_more(uint32_t width);"),
    ] {
        let changed = HEADER.replace(old, new);
        assert_ne!(changed, HEADER);
        let found = c_header(&changed).map(|face| face.differs(&source));
        assert_ne!(found, Ok(None), "{old} changed to {new}");
    }
    for (old, new) in [
        ("refusal: u32, pub count: u32", "count: u32, pub refusal: u32"),
        ("*const u8, choices_len", "*mut u8, choices_len"),
        ("c1: *mut i32", "c1: *mut u32"),
        ("width: u32, ", ""),
        ("share: f64", "share: f32"),
        ("weight: f64", "weight: u64"),
        ("#[repr(C)]", ""),
        (") -> RulantipPair", ") -> u32"),
    ] {
        let changed = MODULE.replace(old, new);
        assert_ne!(changed, MODULE);
        let found = rust_module(&changed).map(|face| face.differs(&source));
        assert_ne!(found, Ok(None), "{old} changed to {new}");
    }
    let header = c_header(HEADER).unwrap();
    for (old, new) in [
        ("width: u32, choices: &'a [u8]", "choices: &'a [u8], width: u32"),
        ("&mut [i32]", "&[i32]"),
        ("pub refusal: u32,\n", ""),
        ("#[unsafe(no_mangle)]\n    pub extern \"C\" fn rulantip_none", "pub fn rulantip_none"),
        ("    ensures { result ≡ pair", "    requires { width < 5 } ensures { result ≡ pair"),
        ("file: &[u8],", "file: &[u8; 4],"),
        ("share: f64", "share: f32"),
        (", weight: f64", ""),
    ] {
        let changed = SOURCE.replace(old, new);
        assert_ne!(changed, SOURCE, "{old}");
        let found = rattle_source(&changed).map(|face| header.differs(&face));
        assert_ne!(found, Ok(None), "{old} changed to {new}");
    }
}
