//! Declarations of Rattle, C and Rust, each brought to one plain form.

use std::collections::BTreeMap;

/// By name: the parameters of a function and its result, the fields of a struct, or the number of a constant.
///
/// A parameter is `name: type` with the type's name in Rust; what is lent is a pointer, as `file: *const u8` or `marks: *mut [bool; 500]`,
/// and a slice two parameters.
pub type Declarations = BTreeMap<String, Vec<String>>;

/// By name: a number, or an expression of other constants.
pub type Constants = BTreeMap<String, String>;

/// Of every constant in C.
const PREFIX: &str = "SHAYDHOQEL_";

// ---- texts

/// Without comments, on one line, with one blank where there were more.
fn plain(text: &str) -> String {
    let mut pieces = text.split("/*");
    let mut code = pieces.next().unwrap_or_default().to_string();
    for piece in pieces {
        code.push_str(piece.split_once("*/").map_or("", |(_, behind)| behind));
    }
    let lines = code.lines().map(|line| line.split("//").next());
    let words = lines.flatten().flat_map(str::split_whitespace);
    words.collect::<Vec<_>>().join(" ")
}

/// What stands before the first of the two, from there up to the second, and behind that.
pub fn around<'a>(text: &'a str, open: &str, close: &str) -> Option<[&'a str; 3]> {
    let (before, rest) = text.split_once(open)?;
    let (within, behind) = rest.split_once(close)?;
    Some([before, within, behind].map(str::trim))
}

/// The parts of a list; there is none behind its last separator.
fn parts(list: &str, separator: char) -> impl Iterator<Item = &str> {
    let trimmed = list.split(separator).map(str::trim);
    trimmed.filter(|part| !part.is_empty())
}

// ---- constants

/// The number that an expression comes to, or the expression itself where it comes to none.
pub fn value(expression: &str, constants: &Constants) -> String {
    let number = number(expression, constants);
    number.map_or(expression.to_string(), |number| number.to_string())
}

fn number(expression: &str, constants: &Constants) -> Option<u64> {
    if let Some((left, right)) = expression.split_once(" + ") {
        return Some(number(left, constants)? + number(right, constants)?);
    }
    if let Some((left, right)) = expression.split_once(" * ") {
        return Some(number(left, constants)? * number(right, constants)?);
    }
    let term = expression.split(" as ").next()?;
    match (constants.get(term), term) {
        (Some(defined), _) => number(defined, constants),
        (None, "UINT64_MAX" | "u64::MAX") => Some(u64::MAX),
        (None, _) => term.replace('_', "").parse().ok(),
    }
}

/// Of Rust or Rattle: `const NAME: TYPE = VALUE;`, after the name of the `impl` that it stands in.
pub fn rust_constants(text: &str) -> Constants {
    let mut constants = Constants::new();
    let mut owner = String::new();
    for line in text.lines() {
        if let Some(name) = line.strip_prefix("impl ") {
            owner = name.replace(" {", "::");
        } else if line == "}" {
            owner.clear();
        }
        let constant = line.trim_start().trim_start_matches("pub ");
        let Some(constant) = constant.strip_prefix("const ") else {
            continue;
        };
        if let Some([declared, defined, _]) = around(constant, " = ", ";") {
            let name = declared.split(':').next().unwrap_or_default();
            constants.insert(format!("{owner}{name}"), defined.to_string());
        }
    }
    constants
}

/// Of C, each name without its prefix: what is defined as one word, and the members of enums.
pub fn header_constants(text: &str) -> Constants {
    let text = text.replace(PREFIX, "");
    let code = plain(&text);
    let lines = text.lines().map(str::trim);
    let defines = lines.filter_map(|line| line.strip_prefix("#define ")?.split_once(' '));
    let enums = code.split("enum ").skip(1);
    let members = enums.filter_map(|text| Some(around(text, "{", "}")?[1]));
    let members = members.flat_map(|members| parts(members, ','));
    let members = members.filter_map(|member| member.split_once(" = "));
    let named = |(name, defined): (&str, &str)| (name.to_string(), defined.to_string());
    defines.chain(members).map(named).collect()
}

/// Of Python: what is set to a number outside of classes and functions.
pub fn python_constants(text: &str) -> Constants {
    let lines = text.lines().filter_map(|line| line.split_once(" = "));
    let numbers =
        lines.filter(|(_, defined)| defined.starts_with(|first: char| first.is_ascii_digit()));
    let numbers = numbers.filter(|(name, _)| !name.starts_with(' '));
    numbers
        .map(|(name, defined)| (name.to_string(), defined.to_string()))
        .collect()
}

/// Of Rust or Python, by the name in capitals: number and words of each line as `NAME = 17, "words"`.
pub fn faults(text: &str) -> BTreeMap<String, [String; 2]> {
    let lines = text.lines().filter_map(|line| {
        let (name, defined) = line.strip_prefix("    ")?.split_once(" = ")?;
        let [number, words, _] = around(defined, ", \"", "\"")?;
        number.parse::<u64>().ok()?;
        Some((name.to_uppercase(), [number, words].map(str::to_string)))
    });
    lines.collect()
}

// ---- Rattle and Rust

/// A reference is a pointer, and the size of an array a number.
fn rust_parameter(parameter: &str, constants: &Constants) -> String {
    let pointer = parameter.replace(": &mut ", ": *mut ");
    let pointer = pointer.replace(": &", ": *const ");
    match around(&pointer, "; ", "]") {
        Some([before, size, _]) => format!("{before}; {}]", value(size, constants)),
        None => pointer,
    }
}

/// What stands behind `fn`: the name, and the parameters with the result.
fn rust_function(text: &str, constants: &Constants) -> (String, Vec<String>) {
    let [name, listed, behind] = around(text, "(", ")").expect(text);
    let listed = parts(listed, ',').map(|part| rust_parameter(part, constants));
    let result = behind.strip_prefix("-> ").unwrap_or("()");
    let result = result.split([' ', ';']).next().unwrap_or_default();
    let declared = listed.chain([format!("-> {result}")]);
    (name.to_string(), declared.collect())
}

/// Only those that are laid out as in C.
fn rust_structs(code: &str) -> impl Iterator<Item = (String, Vec<String>)> + '_ {
    code.split("#[repr(C)]").skip(1).filter_map(|text| {
        let (_, text) = text.split_once("struct ")?;
        let [name, fields, _] = around(text, "{", "}")?;
        let fields = parts(fields, ',').map(|field| field.replace("pub ", ""));
        Some((name.to_string(), fields.collect()))
    })
}

/// A slice goes over the boundary as two arguments.
fn lent(parameter: &str) -> Vec<String> {
    match around(parameter, "[", "]") {
        Some([pointer, element, _]) if !element.contains(';') => {
            let name = pointer.split(':').next().unwrap_or_default();
            vec![
                format!("{pointer} {element}"),
                format!("{name}_length: usize"),
            ]
        }
        _ => vec![parameter.to_string()],
    }
}

pub fn of_export(text: &str, constants: &Constants) -> Declarations {
    // there `Shown` is the desk's own, which holds no numbers
    let code = plain(text).replace("SpokenText", "Shown");
    let functions = code
        .split("#[unsafe(no_mangle)] pub extern \"C\" fn ")
        .skip(1);
    let functions = functions.map(|text| {
        let (name, parameters) = rust_function(text, constants);
        (
            name,
            parameters
                .iter()
                .flat_map(|parameter| lent(parameter))
                .collect(),
        )
    });
    functions.chain(rust_structs(&code)).collect()
}

pub fn of_calls(text: &str, constants: &Constants) -> Declarations {
    let code = plain(text);
    let blocks = code.split("extern \"C\" {").skip(1);
    let blocks = blocks.filter_map(|text| text.split('}').next());
    let functions = blocks.flat_map(|block| block.split("fn ").skip(1));
    let functions = functions.map(|text| rust_function(text, constants));
    functions.chain(rust_structs(&code)).collect()
}

// ---- C

fn header_type(name: &str) -> String {
    match name.trim() {
        "void" => "()".to_string(),
        "size_t" => "usize".to_string(),
        "uint8_t" => "u8".to_string(),
        "uint64_t" => "u64".to_string(),
        "int64_t" => "i64".to_string(),
        "struct shaydhoqel_spoken" => "Spoken".to_string(),
        "struct shaydhoqel_shown" => "Shown".to_string(),
        other => other.to_string(),
    }
}

/// A parameter, or a field.
fn header_parameter(parameter: &str, constants: &Constants) -> String {
    let declared = parameter.trim_start_matches("const ");
    let pointer = if declared == parameter {
        "*mut"
    } else {
        "*const"
    };
    if let Some((kind, name)) = declared.split_once('*') {
        return format!("{name}: {pointer} {}", header_type(kind));
    }
    let (kind, name) = declared.rsplit_once(' ').expect(parameter);
    let kind = header_type(kind);
    match around(name, "[", "]") {
        Some([name, size, _]) => format!("{name}: {pointer} [{kind}; {}]", value(size, constants)),
        None => format!("{name}: {kind}"),
    }
}

/// A prototype, without its semicolon.
fn header_function(statement: &str, constants: &Constants) -> Option<(String, Vec<String>)> {
    let [before, listed, _] = around(statement, "(", ")")?;
    let (result, name) = before.rsplit(['{', '}']).next()?.rsplit_once(' ')?;
    let listed = parts(listed, ',').map(|part| header_parameter(part, constants));
    let declared = listed.chain([format!("-> {}", header_type(result))]);
    Some((name.to_string(), declared.collect()))
}

fn header_struct(text: &str, constants: &Constants) -> Option<(String, Vec<String>)> {
    let [name, fields, _] = around(text, "{", "}").filter(|[name, ..]| !name.contains(' '))?;
    let fields = parts(fields, ';').map(|field| header_parameter(field, constants));
    Some((header_type(&format!("struct {name}")), fields.collect()))
}

pub fn of_header(text: &str, constants: &Constants) -> Declarations {
    let text = text.replace(PREFIX, "");
    let lines = text.lines();
    let lines = lines.filter(|line| !line.trim().starts_with('#'));
    let code = plain(&lines.collect::<Vec<_>>().join("\n"));
    let functions = code.split(';');
    let functions = functions.filter_map(|text| header_function(text, constants));
    let structs = code.split("struct ").skip(1);
    let structs = structs.filter_map(|text| header_struct(text, constants));
    functions.chain(structs).collect()
}
