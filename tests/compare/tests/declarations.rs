//! The C header and the declarations in `ffi` say what the source of the C functions says: the same
//! functions, with the same parameters in the same order.

const SOURCE: &str = include_str!("../../../crates/abi/src/lib.rt");
const HEADER: &str = include_str!("../../../include/boxplan.h");
const FFI: &str = include_str!("../src/ffi.rs");

/// A C function of the source: its name, and the name and type of each parameter.
struct Function {
    name: &'static str,
    parameters: Vec<(&'static str, &'static str)>,
}

/// The C functions of the source. All give back a byte.
fn functions() -> Vec<Function> {
    let heads = SOURCE.split("pub extern \"C\" fn ").skip(1);
    heads
        .map(|head| {
            let (name, rest) = head.split_once('(').unwrap();
            let (parameters, rest) = rest.split_once(')').unwrap();
            assert!(rest.starts_with(" -> u8\n"), "{name}");
            let parameters = parameters.split(',').map(str::trim);
            let parameters = parameters.filter(|parameter| !parameter.is_empty());
            Function {
                name,
                parameters: parameters
                    .map(|parameter| parameter.split_once(": ").unwrap())
                    .collect(),
            }
        })
        .collect()
}

/// The element of a slice, and whether it is written; none for a number.
fn slice(of: &'static str) -> Option<(&'static str, bool)> {
    let element = of.strip_suffix(']')?;
    match element.strip_prefix("&mut [") {
        Some(element) => Some((element, true)),
        None => Some((element.strip_prefix("&[").unwrap(), false)),
    }
}

/// A number's type in C.
fn c_number(of: &str) -> String {
    format!("uint{}_t", of.strip_prefix('u').unwrap())
}

/// The function as the header declares it.
fn in_c(function: &Function) -> String {
    let parameter = |(name, of): &(&str, &'static str)| match slice(of) {
        None => format!("{} {name}", c_number(of)),
        Some((element, written)) => {
            let lent = if written { "" } else { "const " };
            format!("{lent}{} *{name}, size_t {name}_len", c_number(element))
        }
    };
    let parameters: Vec<String> = function.parameters.iter().map(parameter).collect();
    format!("uint8_t {}({});", function.name, parameters.join(", "))
}

/// The function as `ffi` declares it.
fn in_rust(function: &Function) -> String {
    let parameter = |(name, of): &(&str, &'static str)| match slice(of) {
        None => format!("{name}: {of}"),
        Some((element, written)) => {
            let pointer = if written { "mut" } else { "const" };
            format!("{name}: *{pointer} {element}, {name}_len: usize")
        }
    };
    let parameters: Vec<String> = function.parameters.iter().map(parameter).collect();
    format!("fn {}({}) -> u8;", function.name, parameters.join(", "))
}

/// The text with one space for every run of blanks, and none within a list's brackets.
fn plain(text: &str) -> String {
    let words: Vec<&str> = text.split_whitespace().collect();
    let line = words.join(" ");
    line.replace("( ", "(").replace(", )", ")")
}

#[test]
fn the_source_has_the_six_calls() {
    let names: Vec<&str> = functions().iter().map(|function| function.name).collect();
    let expected = ["fits", "check", "first", "next", "turn", "read"];
    assert_eq!(names.len(), expected.len());
    for call in expected {
        assert!(
            names.contains(&format!("boxplan_{call}").as_str()),
            "{call}"
        );
    }
}

#[test]
fn the_header_declares_them() {
    let header = plain(HEADER);
    for function in functions() {
        let declared = in_c(&function);
        assert!(header.contains(&declared), "{declared}");
    }
    assert_eq!(header.matches("uint8_t boxplan_").count(), 6);
}

#[test]
fn ffi_declares_them() {
    let ffi = plain(FFI);
    for function in functions() {
        let declared = in_rust(&function);
        assert!(ffi.contains(&declared), "{declared}");
    }
    assert_eq!(ffi.matches("fn boxplan_").count(), 6);
}
