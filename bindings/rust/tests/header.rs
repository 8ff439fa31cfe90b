//! include/vobzeile.h and the extern block of src/ffi.rs declare the same functions.

mod common;

use common::repository;
use std::collections::BTreeMap;
use std::fs;

/// Parameters and result of each function, by its name.
type Functions = BTreeMap<String, (Vec<(String, String)>, String)>;

/// The C type by its Rust name.
fn rust_type(c: &str) -> String {
    let words: Vec<&str> = c.split_whitespace().collect();
    let plain = |name: &str| match name {
        "size_t" => "usize",
        "double" => "f64",
        "uint8_t" => "u8",
        other => panic!("{other}"),
    };
    match words[..] {
        ["const", name, "*"] => format!("*const {}", plain(name)),
        [name, "*"] => format!("*mut {}", plain(name)),
        [name] => plain(name).to_string(),
        _ => panic!("{c}"),
    }
}

fn of_header(text: &str) -> Functions {
    let mut functions = Functions::new();
    let mut rest = text;
    while let Some(end) = rest.find("/*") {
        let after = &rest[end..];
        declare(&rest[..end], &mut functions);
        rest = &after[after.find("*/").expect("a comment's end") + 2..];
    }
    declare(rest, &mut functions);
    functions
}

/// The declarations in a text without comments.
fn declare(text: &str, functions: &mut Functions) {
    for declaration in text.split(';').filter(|part| part.contains("vobzeile_")) {
        let (head, parameters) = declaration.split_once('(').expect("parameters");
        let head = head.lines().last().expect("a name");
        let (result, name) = head.rsplit_once(' ').expect("a result");
        let parameters = parameters.trim_end().trim_end_matches(')').split(',');
        let parameters = parameters.map(|parameter| {
            let at = parameter.rfind([' ', '*']).expect("a type") + 1;
            (parameter[at..].to_string(), rust_type(&parameter[..at]))
        });
        let function = (parameters.collect(), rust_type(result));
        functions.insert(name.to_string(), function);
    }
}

fn of_ffi(text: &str) -> Functions {
    let block = text.split_once("unsafe extern \"C\" {").expect("a block").1;
    let block = block.split_once("\n}").expect("the block's end").0;
    let mut functions = Functions::new();
    for declaration in block.split(';').filter(|part| part.contains("fn ")) {
        let (head, rest) = declaration.split_once('(').expect("parameters");
        let (parameters, result) = rest.split_once(") -> ").expect("a result");
        let parameters = parameters.split(',').map(str::trim);
        let parameters = parameters
            .filter(|parameter| !parameter.is_empty())
            .map(|parameter| {
                let (name, kind) = parameter.split_once(": ").expect("a type");
                (name.to_string(), kind.to_string())
            });
        let name = head.trim().trim_start_matches("fn ").to_string();
        functions.insert(name, (parameters.collect(), result.to_string()));
    }
    functions
}

#[test]
fn same_functions() {
    let Some(root) = repository() else {
        return;
    };
    let header = of_header(&fs::read_to_string(root.join("include/vobzeile.h")).unwrap());
    let ffi = of_ffi(include_str!("../src/ffi.rs"));
    assert_eq!(header, ffi);
    assert_eq!(header.len(), 11);
    assert_eq!(header["vobzeile_solve"].0.len(), 30);
}
