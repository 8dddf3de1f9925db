//! The order of the modules is the one that lib.rs lists.

use std::fs;

fn source(module: &str) -> String {
    let file = format!("{}/src/{module}.rs", env!("CARGO_MANIFEST_DIR"));
    fs::read_to_string(file).expect("a module's file")
}

#[test]
fn each_module_imports_only_those_before_it() {
    let lib = source("lib");
    let listed = lib.lines().filter(|line| line.contains(". `"));
    let mut listed: Vec<&str> = listed.filter_map(|line| line.split('`').nth(1)).collect();
    for (place, module) in listed.iter().enumerate() {
        for import in source(module).split("crate::").skip(1) {
            let name = import.split([':', ';']).next().expect("a name");
            assert!(listed[..place].contains(&name), "{module} imports {name}");
        }
    }
    let declared = lib.lines().filter_map(|line| line.strip_prefix("pub mod "));
    let declared: Vec<&str> = declared.map(|name| name.trim_end_matches(';')).collect();
    listed.sort();
    assert_eq!(listed, declared);
}
