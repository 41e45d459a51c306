//! One interface, three texts: the exported functions of the Rattle source,
//! `kf.h` and `src/raw.rs` say the same functions, with the same parameters in
//! the same order, and the papers have a row for each. The compilers do not see
//! this: a `u32` declared as a `u64` links, and reads another number.
//!
//! Each text is brought into one form: a function is a name, parameters and a
//! result, with types written as in Rust. A Rattle slice `x: &[u8]` is the two
//! parameters `x: *const u8` and `x_len: usize`, `&mut [u64; 4]` is
//! `*mut [u64; 4]`, and so is `uint64_t x[4]` of C.

use std::collections::{BTreeMap, BTreeSet};
use std::fmt;
use std::fs;
use std::path::{Path, PathBuf};

// The form.

#[derive(Debug, Clone, PartialEq, Eq)]
struct Parameter {
    name: String,
    shape: String,
}

impl fmt::Display for Parameter {
    fn fmt(&self, f: &mut fmt::Formatter) -> fmt::Result {
        write!(f, "`{}: {}`", self.name, self.shape)
    }
}

#[derive(Debug, Clone, PartialEq, Eq)]
struct Function {
    name: String,
    parameters: Vec<Parameter>,
    result: String,
}

/// A text in the form.
struct Text {
    called: &'static str,
    functions: Vec<Function>,
}

impl Text {
    fn names(&self) -> Vec<&str> {
        self.functions.iter().map(|f| f.name.as_str()).collect()
    }
}

// What differs between two texts.

fn differences(a: &Text, b: &Text) -> Vec<String> {
    let mut found = Vec::new();
    for f in &a.functions {
        match b.functions.iter().find(|g| g.name == f.name) {
            Some(g) => found.extend(function_differences(a.called, f, b.called, g)),
            None => found.push(format!(
                "{} is in {}, not in {}",
                f.name, a.called, b.called
            )),
        }
    }
    for g in &b.functions {
        if a.functions.iter().all(|f| f.name != g.name) {
            found.push(format!(
                "{} is in {}, not in {}",
                g.name, b.called, a.called
            ));
        }
    }
    found
}

fn function_differences(in_a: &str, f: &Function, in_b: &str, g: &Function) -> Vec<String> {
    let mut found = Vec::new();
    let most = f.parameters.len().max(g.parameters.len());
    let said = |p: Option<&Parameter>| p.map_or("missing".to_string(), |p| p.to_string());
    for i in 0..most {
        let (p, q) = (f.parameters.get(i), g.parameters.get(i));
        if p != q {
            found.push(format!(
                "{}, parameter {}: {} in {in_a}, {} in {in_b}",
                f.name,
                i + 1,
                said(p),
                said(q)
            ));
        }
    }
    if f.result != g.result {
        found.push(format!(
            "{}, result: `{}` in {in_a}, `{}` in {in_b}",
            f.name, f.result, g.result
        ));
    }
    found
}

/// The same functions, in another order?
fn order_differences(a: &Text, b: &Text) -> Vec<String> {
    let (in_a, in_b) = (a.names(), b.names());
    in_a.iter()
        .zip(&in_b)
        .enumerate()
        .filter(|(_, (x, y))| x != y)
        .map(|(i, (x, y))| {
            format!(
                "function {}: {x} in {}, {y} in {}",
                i + 1,
                a.called,
                b.called
            )
        })
        .collect()
}

fn hold(found: Vec<String>) {
    assert!(found.is_empty(), "\n{}\n", found.join("\n"));
}

// Parts of a text.

fn is_word(c: char) -> bool {
    c.is_alphanumeric() || c == '_'
}

/// `text` with every whole word `word` replaced.
fn with_word(text: &str, word: &str, by: &str) -> String {
    let mut out = String::new();
    let mut rest = text;
    while let Some(at) = rest.find(word) {
        let end = at + word.len();
        let whole = !rest[..at].ends_with(is_word) && !rest[end..].starts_with(is_word);
        out.push_str(&rest[..at]);
        out.push_str(if whole { by } else { word });
        rest = &rest[end..];
    }
    out + rest
}

/// `text` without comments from `//` to the end of a line.
fn without_line_comments(text: &str) -> String {
    let line = |l: &str| l.split("//").next().unwrap_or("").to_string();
    text.lines().map(line).collect::<Vec<_>>().join("\n")
}

fn without_block_comments(text: &str) -> String {
    let mut out = String::new();
    let mut rest = text;
    while let Some((before, comment)) = rest.split_once("/*") {
        out.push_str(before);
        out.push(' ');
        rest = comment.split_once("*/").expect("a comment ends").1;
    }
    out + rest
}

/// `text` cut at every `at` that no bracket holds, without empty parts.
fn cut(text: &str, at: char) -> Vec<String> {
    let mut parts = vec![String::new()];
    let mut depth = 0;
    for c in text.chars() {
        match c {
            '(' | '[' | '{' => depth += 1,
            ')' | ']' | '}' => depth -= 1,
            _ => {}
        }
        if c == at && depth == 0 {
            parts.push(String::new());
        } else {
            parts.last_mut().unwrap().push(c);
        }
    }
    let squeezed = |p: String| p.split_whitespace().collect::<Vec<_>>().join(" ");
    parts
        .into_iter()
        .map(squeezed)
        .filter(|p| !p.is_empty())
        .collect()
}

/// What stands before `(`, between it and its `)`, and after that.
fn around_brackets(text: &str) -> (&str, &str, &str) {
    let open = text.find('(').unwrap_or_else(|| panic!("no ( in {text}"));
    let mut depth = 0;
    for (i, c) in text.char_indices() {
        match c {
            '(' => depth += 1,
            ')' => depth -= 1,
            _ => {}
        }
        if c == ')' && depth == 0 {
            return (&text[..open], &text[open + 1..i], &text[i + 1..]);
        }
    }
    panic!("( is not closed in {text}");
}

/// A number of Rust, Rattle and the form, or nothing.
fn number_type(name: &str) -> &str {
    const NUMBERS: [&str; 10] = [
        "u8", "u16", "u32", "u64", "usize", "i8", "i16", "i32", "i64", "isize",
    ];
    match NUMBERS.contains(&name) {
        true => name,
        false => panic!("`{name}` is no number"),
    }
}

/// `[T; n]` or a number, as the form writes it.
fn element(text: &str) -> String {
    match text.strip_prefix('[').and_then(|t| t.strip_suffix(']')) {
        Some(array) => {
            let (of, len) = array.split_once(';').expect("an array has a length");
            let len: usize = len.trim().parse().expect("a length is a number");
            format!("[{}; {len}]", number_type(of.trim()))
        }
        None => number_type(text).to_string(),
    }
}

// Rattle.

fn rattle_parameters(text: &str) -> Vec<Parameter> {
    let one = |name: &str, shape: String| Parameter {
        name: name.to_string(),
        shape,
    };
    let mut out = Vec::new();
    for p in cut(text, ',') {
        let (name, of) = p
            .split_once(':')
            .unwrap_or_else(|| panic!("`{p}` has no type"));
        let (name, of) = (name.trim(), of.trim());
        let (pointer, of) = match (of.strip_prefix("&mut "), of.strip_prefix('&')) {
            (Some(of), _) => ("*mut", of),
            (None, Some(of)) => ("*const", of),
            (None, None) => {
                out.push(one(name, element(of)));
                continue;
            }
        };
        let inner = of.strip_prefix('[').and_then(|t| t.strip_suffix(']'));
        match inner {
            Some(elements) if !elements.contains(';') => {
                out.push(one(name, format!("{pointer} {}", element(elements))));
                out.push(one(&format!("{name}_len"), "usize".to_string()));
            }
            _ => out.push(one(name, format!("{pointer} {}", element(of)))),
        }
    }
    out
}

/// The functions that a Rattle source exports. An `extern "C"` that is not
/// exported would not be in the archive, and is an error.
fn rattle_functions(source: &str) -> Vec<Function> {
    let text = without_line_comments(source);
    let mut parts = text.split("extern \"C\" fn ");
    let mut before = parts.next().unwrap_or("");
    let mut out = Vec::new();
    for part in parts {
        let words: Vec<&str> = before.split_whitespace().collect();
        assert!(
            words.ends_with(&["#[unsafe(no_mangle)]", "pub"]),
            "an extern \"C\" that is not exported: {}",
            part.lines().next().unwrap_or("")
        );
        let (name, parameters, after) = around_brackets(part);
        let result = after
            .trim_start()
            .strip_prefix("->")
            .and_then(|r| r.split_whitespace().next())
            .unwrap_or_else(|| panic!("{name} has no result"));
        out.push(Function {
            name: name.trim().to_string(),
            parameters: rattle_parameters(parameters),
            result: number_type(result).to_string(),
        });
        before = part;
    }
    out
}

// C.

/// A header: its declarations and its constants.
struct Header {
    functions: Vec<Function>,
    /// Of `#define` and of the enum, where they are numbers.
    constants: BTreeMap<String, u64>,
    /// The names of the enum, in order.
    answers: Vec<String>,
}

fn c_number(text: &str) -> Option<u64> {
    let digits = text.trim_end_matches(['u', 'U', 'l', 'L']);
    match digits.strip_prefix("0x") {
        Some(hex) => u64::from_str_radix(hex, 16).ok(),
        None => digits.parse().ok(),
    }
}

fn c_type(name: &str) -> &'static str {
    match name {
        "uint8_t" => "u8",
        "uint16_t" => "u16",
        "uint32_t" => "u32",
        "uint64_t" => "u64",
        "size_t" => "usize",
        "int8_t" => "i8",
        "int16_t" => "i16",
        "int32_t" => "i32",
        "int64_t" => "i64",
        "ptrdiff_t" => "isize",
        _ => panic!("`{name}` is no number of C whose width is fixed"),
    }
}

fn c_parameter(text: &str) -> Parameter {
    let (head, length) = match text.split_once('[') {
        Some((head, n)) => {
            let n = n.trim_end_matches(']');
            let n = c_number(n).unwrap_or_else(|| panic!("`{text}`: {n} is no number"));
            (head, Some(n))
        }
        None => (text, None),
    };
    let spaced = head.replace('*', " * ");
    let words: Vec<&str> = spaced.split_whitespace().collect();
    let (constant, words) = match words.split_first() {
        Some((&"const", rest)) => (true, rest),
        _ => (false, &words[..]),
    };
    let pointer = if constant { "*const" } else { "*mut" };
    let (name, shape) = match (words, length) {
        ([of, "*", name], None) => (name, format!("{pointer} {}", c_type(of))),
        ([of, name], Some(n)) => (name, format!("{pointer} [{}; {n}]", c_type(of))),
        ([of, name], None) if !constant => (name, c_type(of).to_string()),
        _ => panic!("`{text}` is no parameter of this interface"),
    };
    Parameter {
        name: name.to_string(),
        shape,
    }
}

fn c_header(source: &str) -> Header {
    let text = without_line_comments(&without_block_comments(source)).replace("\\\n", " ");
    let mut macros: Vec<(String, String)> = Vec::new();
    let mut declared = String::new();
    for line in text.lines().map(str::trim) {
        if let Some(define) = line.strip_prefix("#define ") {
            let (name, by) = define.trim().split_once(' ').unwrap_or((define, ""));
            macros.push((name.to_string(), by.trim().to_string()));
        } else if !line.starts_with('#') && line != "extern \"C\" {" && line != "}" {
            declared.push_str(line);
            declared.push('\n');
        }
    }
    for (name, by) in &macros {
        declared = with_word(&declared, name, by);
    }

    let mut constants = BTreeMap::new();
    for (name, by) in &macros {
        if let Some(n) = c_number(by) {
            constants.insert(name.clone(), n);
        }
    }
    let (mut functions, mut answers) = (Vec::new(), Vec::new());
    for statement in cut(&declared, ';') {
        if statement.starts_with("enum ") {
            let inside = statement
                .split_once('{')
                .expect("an enum has names")
                .1
                .trim_end_matches('}');
            for constant in cut(inside, ',') {
                let (name, n) = constant
                    .split_once('=')
                    .unwrap_or_else(|| panic!("`{constant}` has no number"));
                let n = c_number(n.trim()).expect("a number");
                let before = constants.insert(name.trim().to_string(), n);
                assert_eq!(before, None, "{name} is there twice");
                answers.push(name.trim().to_string());
            }
            continue;
        }
        let (head, inside, after) = around_brackets(&statement);
        assert_eq!(after.trim(), "", "`{statement}` is no declaration");
        let (result, name) = head.trim().split_once(' ').expect("a result and a name");
        functions.push(Function {
            name: name.trim().to_string(),
            parameters: cut(inside, ',').iter().map(|p| c_parameter(p)).collect(),
            result: c_type(result).to_string(),
        });
    }
    Header {
        functions,
        constants,
        answers,
    }
}

// Rust.

fn rust_parameter(text: &str) -> Parameter {
    let (name, of) = text
        .split_once(':')
        .unwrap_or_else(|| panic!("`{text}` has no type"));
    let of = of.trim();
    let shape = match (of.strip_prefix("*const "), of.strip_prefix("*mut ")) {
        (Some(of), _) => format!("*const {}", element(of)),
        (_, Some(of)) => format!("*mut {}", element(of)),
        _ => element(of),
    };
    Parameter {
        name: name.trim().to_string(),
        shape,
    }
}

/// The lines of the one `extern "C"` block.
fn extern_block(source: &str) -> String {
    let (_, block) = source
        .split_once("extern \"C\" {\n")
        .expect("an extern block");
    let (block, after) = block.split_once("\n}").expect("the block ends");
    assert!(!after.contains("extern \"C\" {"), "one extern block");
    block.to_string()
}

fn rust_functions(source: &str) -> Vec<Function> {
    let text = without_line_comments(&extern_block(source));
    let mut out = Vec::new();
    for statement in cut(&text, ';') {
        let declared = statement
            .strip_prefix("pub fn ")
            .unwrap_or_else(|| panic!("`{statement}` is no open function"));
        let (name, inside, after) = around_brackets(declared);
        let result = after
            .trim()
            .strip_prefix("->")
            .unwrap_or_else(|| panic!("{name} has no result"));
        out.push(Function {
            name: name.to_string(),
            parameters: cut(inside, ',').iter().map(|p| rust_parameter(p)).collect(),
            result: number_type(result.trim()).to_string(),
        });
    }
    out
}

/// The functions of the extern block whose documentation has no words under
/// `# Safety`.
fn without_safety(source: &str) -> Vec<String> {
    let mut missing = Vec::new();
    let mut documentation: Vec<&str> = Vec::new();
    for line in extern_block(source).lines().map(str::trim) {
        if let Some(words) = line.strip_prefix("///") {
            documentation.push(words.trim());
        } else if let Some(declared) = line.strip_prefix("pub fn ") {
            let mut lines = documentation.iter();
            let headed = lines.any(|l| *l == "# Safety");
            let said = lines
                .take_while(|l| !l.starts_with('#'))
                .any(|l| !l.is_empty());
            if !headed || !said {
                missing.push(declared.split('(').next().unwrap_or("").to_string());
            }
            documentation.clear();
        }
    }
    missing
}

// The papers.

/// The rows of the table whose header line starts with `header`, as cells.
fn table(paper: &str, header: &str) -> Vec<Vec<String>> {
    let mut lines = paper.lines().skip_while(|l| !l.starts_with(header));
    assert!(lines.next().is_some(), "no table that starts with {header}");
    let cells = |l: &str| {
        l.trim_matches('|')
            .split('|')
            .map(|c| c.trim().to_string())
            .collect()
    };
    lines
        .skip(1)
        .take_while(|l| l.starts_with('|'))
        .map(cells)
        .collect()
}

/// The functions that the first cells of a table name.
fn named_in(rows: &[Vec<String>]) -> Vec<String> {
    let names = |row: &Vec<String>| -> Vec<String> {
        row[0]
            .split('`')
            .skip(1)
            .step_by(2)
            .map(str::to_string)
            .collect()
    };
    rows.iter().flat_map(names).collect()
}

fn row_differences(paper: &str, rows: &[String], functions: &[&str]) -> Vec<String> {
    let mut found = Vec::new();
    for f in functions {
        let n = rows.iter().filter(|r| r == f).count();
        if n != 1 {
            found.push(format!("{f} has {n} rows in {paper}"));
        }
    }
    for r in rows {
        if !functions.contains(&r.as_str()) {
            found.push(format!("{paper} has a row for {r}, which is no function"));
        }
    }
    found
}

/// The questions of docs/QUESTIONS.md by number, each up to its question mark.
fn questions(paper: &str) -> BTreeMap<u64, String> {
    let mut out = BTreeMap::new();
    for row in table(paper, "| number | question |") {
        let n: u64 = row[0].parse().expect("a number");
        let question = row[1].split_inclusive('?').next().unwrap_or("");
        assert!(question.ends_with('?'), "row {n} has no question");
        let before = out.insert(n, question.replace('×', "x"));
        assert_eq!(before, None, "question {n} is there twice");
    }
    out
}

/// The comment in front of each constant of a header's enum.
fn comments_of_answers(source: &str) -> BTreeMap<String, String> {
    let inside = source.split_once("enum kf_answer {").expect("the enum").1;
    let inside = inside.split_once("};").expect("the enum ends").0;
    let mut out = BTreeMap::new();
    let mut rest = inside;
    while let Some((_, commented)) = rest.split_once("/*") {
        let (comment, after) = commented.split_once("*/").expect("a comment ends");
        let name = after.split('=').next().unwrap_or("").trim();
        let words: Vec<&str> = comment.split_whitespace().filter(|w| *w != "*").collect();
        out.insert(name.to_string(), words.join(" "));
        rest = after;
    }
    out
}

fn answer_differences(header: &str, paper: &str) -> Vec<String> {
    let questions = questions(paper);
    let Header {
        constants, answers, ..
    } = c_header(header);
    let comments = comments_of_answers(header);
    let mut found = Vec::new();
    for (n, question) in &questions {
        let named: Vec<&String> = answers.iter().filter(|a| constants[*a] == *n).collect();
        match named[..] {
            [name] if comments.get(name) == Some(question) => {}
            [name] => found.push(format!(
                "{name} says {:?}; question {n} is {question:?}",
                comments.get(name).map_or("", |c| c)
            )),
            _ => found.push(format!("question {n} has {} constants", named.len())),
        }
    }
    for name in &answers {
        let n = constants[name];
        if n != 0 && !questions.contains_key(&n) {
            found.push(format!("{name} is {n}, which is no question"));
        }
    }
    let numbers: Vec<u64> = answers.iter().map(|a| constants[a]).collect();
    if numbers.windows(2).any(|w| w[0] > w[1]) {
        found.push("the constants are not in the order of the questions".to_string());
    }
    found
}

// The texts of this repository.

fn repository() -> PathBuf {
    Path::new(env!("CARGO_MANIFEST_DIR")).join("..")
}

fn read(path: &str) -> String {
    let path = repository().join(path);
    fs::read_to_string(&path).unwrap_or_else(|e| panic!("{}: {e}", path.display()))
}

/// The exported functions of each module, of an archive's crate after another.
fn rattle_modules() -> Vec<(String, Vec<Function>)> {
    let mut out = Vec::new();
    for name in ["tree_calls", "list_calls"] {
        let dir = repository().join("crates").join(name).join("src");
        let entries = fs::read_dir(&dir).unwrap_or_else(|e| panic!("{}: {e}", dir.display()));
        let mut files: Vec<PathBuf> = entries.map(|e| e.expect("an entry").path()).collect();
        files.sort();
        for file in files
            .iter()
            .filter(|f| f.extension().is_some_and(|x| x == "rt"))
        {
            let module = file.file_stem().unwrap().to_string_lossy();
            let source = fs::read_to_string(file).expect("a module");
            out.push((format!("{name}::{module}"), rattle_functions(&source)));
        }
    }
    out
}

fn rattle() -> Text {
    Text {
        called: "Rattle",
        functions: rattle_modules().into_iter().flat_map(|(_, f)| f).collect(),
    }
}

fn c_of(source: &str) -> Text {
    Text {
        called: "kf.h",
        functions: c_header(source).functions,
    }
}

fn rust_of(source: &str) -> Text {
    Text {
        called: "raw.rs",
        functions: rust_functions(source),
    }
}

fn c() -> Text {
    c_of(&read("bindings/kf.h"))
}

fn rust() -> Text {
    rust_of(&read("bindings/src/raw.rs"))
}

#[test]
fn the_three_texts_are_one_interface() {
    let (rattle, c, rust) = (rattle(), c(), rust());
    assert!(!c.functions.is_empty());
    hold(differences(&rattle, &c));
    hold(differences(&rattle, &rust));
    hold(differences(&c, &rust));
    hold(order_differences(&c, &rust));
    for f in &c.functions {
        assert_eq!(f.result, "u32", "the result of {}", f.name);
        assert!(f.name.starts_with("kf_"), "{}", f.name);
    }
    let once: BTreeSet<&str> = c.names().into_iter().collect();
    assert_eq!(once.len(), c.functions.len(), "a function is there twice");
}

/// The archives are made of crates of their own, whose functions are those of the
/// libraries below them.
#[test]
fn the_archives_export_the_libraries() {
    for name in ["tree_calls", "list_calls"] {
        let exported = Text {
            called: "the archive",
            functions: rattle_functions(&read(&format!("crates/{name}_c/src/lib.rt"))),
        };
        let of_the_library = rattle_modules()
            .into_iter()
            .filter(|(module, _)| module.starts_with(&format!("{name}::")))
            .flat_map(|(_, f)| f)
            .collect();
        let library = Text {
            called: "Rattle",
            functions: of_the_library,
        };
        assert!(!exported.functions.is_empty());
        hold(differences(&library, &exported));
    }
}

/// kf.h has the functions of an archive together, and those of a module in the
/// module's order.
#[test]
fn the_header_goes_by_archive_and_module() {
    let c = c();
    let place = |name: &str| {
        c.names()
            .iter()
            .position(|n| *n == name)
            .expect("a function")
    };
    let mut archives: BTreeMap<String, Vec<usize>> = BTreeMap::new();
    for (module, functions) in rattle_modules() {
        let places: Vec<usize> = functions.iter().map(|f| place(&f.name)).collect();
        assert!(
            places.windows(2).all(|w| w[0] < w[1]),
            "{module} has another order than kf.h"
        );
        let archive = module.split("::").next().unwrap().to_string();
        archives.entry(archive).or_default().extend(places);
    }
    let last = archives["tree_calls"].iter().max();
    assert!(last < archives["list_calls"].iter().min());
}

#[test]
fn the_constants_are_the_crates() {
    let Header {
        mut constants,
        answers,
        ..
    } = c_header(&read("bindings/kf.h"));
    for name in &answers {
        constants.remove(name);
    }
    let expected = [
        ("KF_KIND_RMAP", kf::raw::KF_KIND_RMAP as u64),
        ("KF_KIND_REFCOUNT", kf::raw::KF_KIND_REFCOUNT as u64),
        ("KF_KIND_BY_BLOCK", kf::raw::KF_KIND_BY_BLOCK as u64),
        ("KF_KIND_BY_SIZE", kf::raw::KF_KIND_BY_SIZE as u64),
        ("KF_RMAP_BYTES", kf::RMAP as u64),
        ("KF_REFCOUNT_BYTES", kf::REFCOUNT as u64),
        ("KF_FREE_EXTENT_BYTES", kf::FREE_EXTENT as u64),
        ("KF_LEVELS", 9),
        ("KF_FIGURES", 4),
        ("KF_STACK_PLACES", kf::STACK_PLACES as u64),
        ("KF_NO_SIBLING", kf::NO_SIBLING as u64),
        ("KF_BLOCK_FREE", kf::raw::KF_BLOCK_FREE),
        ("KF_BLOCK_HELD", kf::raw::KF_BLOCK_HELD),
        ("KF_BLOCK_STAGING", kf::raw::KF_BLOCK_STAGING),
        ("KF_LIST_NONE", kf::raw::KF_LIST_NONE),
        ("KF_LIST_MAP", kf::raw::KF_LIST_MAP),
        ("KF_LIST_COUNTS", kf::raw::KF_LIST_COUNTS),
        ("KF_CHANGE_BYTES", kf::CHANGE as u64),
        ("KF_SHEET_BLOCK_BYTES", kf::SHEET_BLOCK as u64),
        ("KF_SHEET_BLOCK_CHANGES", kf::SHEET_BLOCK_CHANGES as u64),
        ("KF_SHEET_BLOCKS", kf::SHEET_BLOCKS as u64),
        ("KF_CHANGE_FIRST_TAKE", kf::raw::KF_CHANGE_FIRST_TAKE as u64),
        ("KF_CHANGE_LET_GO", kf::raw::KF_CHANGE_LET_GO as u64),
        ("KF_CHANGE_TAKE_HELD", kf::raw::KF_CHANGE_TAKE_HELD as u64),
    ];
    let expected = expected.map(|(name, n)| (name.to_string(), n));
    assert_eq!(constants, BTreeMap::from(expected));
    // 12 asks for the same places in the Rattle source.
    let asked = format!("pub const STACK_PLACES: usize = {};", kf::STACK_PLACES);
    assert!(read("crates/walks/src/path.rt").contains(&asked));
}

/// Every source of a crate, one after another.
fn source_of(name: &str) -> String {
    let dir = repository().join("crates").join(name).join("src");
    let entries = fs::read_dir(&dir).unwrap_or_else(|e| panic!("{}: {e}", dir.display()));
    let mut files: Vec<PathBuf> = entries.map(|e| e.expect("an entry").path()).collect();
    files.sort();
    let source = |path| fs::read_to_string(path).expect("a module");
    files.iter().map(source).collect()
}

/// A constant of sheets that a Rattle source lacks, or has with another number.
fn sheet_differences(source: &str) -> Vec<String> {
    let changes = kf::SHEET_BLOCK_CHANGES;
    let text = without_line_comments(source);
    [
        ("CHANGE_LEN: usize", kf::CHANGE),
        ("BLOCK_LEN: usize", kf::SHEET_BLOCK),
        ("PER_BLOCK: usize", changes),
        ("MAX_BLOCKS: usize", kf::SHEET_BLOCKS),
        ("MAX_CHANGES: usize", kf::SHEET_BLOCKS * changes),
        ("FIRST_TAKE: u32", kf::raw::KF_CHANGE_FIRST_TAKE as usize),
        ("LET_GO: u32", kf::raw::KF_CHANGE_LET_GO as usize),
        ("TAKE_HELD: u32", kf::raw::KF_CHANGE_TAKE_HELD as usize),
    ]
    .into_iter()
    .map(|(name, n)| format!("const {name} = {n};"))
    .filter(|declared| text.matches(declared.as_str()).count() != 1)
    .collect()
}

/// The numbers of sheets and changes are those of the Rattle source, and 32 and 33
/// are told there.
#[test]
fn the_library_has_these_sheets() {
    let source = source_of("sheets");
    hold(sheet_differences(&source));
    assert_eq!(told_in(&source, "plain"), [26, 32, 33]);
    assert_eq!(told_in(&source, "two"), [0; 0]);
}

#[test]
fn the_answers_are_the_questions() {
    let (header, paper) = (read("bindings/kf.h"), read("docs/QUESTIONS.md"));
    hold(answer_differences(&header, &paper));
    // The crate has the same questions, by the same names.
    let mut expected = vec![("KF_DONE".to_string(), 0)];
    expected.extend(kf::Question::ALL.iter().map(|q| {
        let name = format!("KF_Q{}", snake(&format!("{q:?}")));
        (name, u64::from(q.number()))
    }));
    let Header {
        constants, answers, ..
    } = c_header(&header);
    let answers: Vec<(String, u64)> = answers
        .into_iter()
        .map(|name| (name.clone(), constants[&name]))
        .collect();
    assert_eq!(answers, expected);
}

/// `BadGeometry` as `_BAD_GEOMETRY`.
fn snake(name: &str) -> String {
    let mut out = String::new();
    for c in name.chars() {
        if c.is_uppercase() {
            out.push('_');
        }
        out.push(c.to_ascii_uppercase());
    }
    out
}

/// The numbers in `Told::plain(n)`, or in `Told::two(n, ..)`, of a Rattle source.
fn told_in(source: &str, by: &str) -> Vec<u32> {
    let number = |after: &str| {
        let inside = after.strip_prefix(by)?.strip_prefix('(')?;
        inside.split([')', ',']).next()?.parse().ok()
    };
    let text = without_line_comments(source);
    text.split("Told::").skip(1).filter_map(number).collect()
}

/// The numbers that the refusals of the Rattle source are told by: `plain` without
/// values, `two` with expected and found.
fn told(by: &str) -> BTreeSet<u32> {
    let mut told = BTreeSet::new();
    let crates = repository().join("crates");
    for entry in fs::read_dir(&crates).expect("the crates") {
        let dir = entry.expect("an entry").path().join("src");
        for file in fs::read_dir(&dir).into_iter().flatten() {
            let path = file.expect("an entry").path();
            let source = fs::read_to_string(&path).expect("a module");
            told.extend(told_in(&source, by));
        }
    }
    told
}

#[test]
fn the_library_tells_these_numbers() {
    let (plain, two) = (told("plain"), told("two"));
    assert!(plain.is_disjoint(&two), "with values and without");
    let told: BTreeSet<u32> = plain.union(&two).copied().collect();
    let questions: BTreeSet<u32> = kf::Question::ALL.iter().map(|q| q.number()).collect();
    assert_eq!(told, questions);
}

/// What stands between `start` and the next `end` of a text.
fn between<'a>(text: &'a str, start: &str, end: &str) -> &'a str {
    let from = text
        .find(start)
        .unwrap_or_else(|| panic!("nothing starts with {start:?}"));
    let after = &text[from + start.len()..];
    after.split(end).next().unwrap_or("")
}

/// Which texts have other numbers than `told` for the questions that come with
/// expected and found.
fn value_differences(
    told: &BTreeSet<u32>,
    interface: &str,
    questions: &str,
    wrapper: &str,
) -> Vec<String> {
    let rows = table(questions, "| number | expected | found |");
    let numbers: Vec<&str> = rows.iter().map(|row| row[0].as_str()).collect();
    let texts = [
        (
            "docs/INTERFACE.md",
            between(
                interface,
                "Expected and found are numbers where ",
                " failed",
            )
            .to_string(),
        ),
        ("docs/QUESTIONS.md", numbers.join(", ")),
        (
            "question.rs",
            between(wrapper, "/// The two values; questions ", " have them").to_string(),
        ),
    ];
    let mut found = Vec::new();
    for (called, said) in texts {
        let numbers = numbers_in(&said);
        let once: BTreeSet<u32> = numbers.iter().copied().collect();
        if once != *told || once.len() != numbers.len() {
            found.push(format!("{called} has {numbers:?}, the library {told:?}"));
        }
    }
    found
}

/// The questions that come with two values are the same in the Rattle source, in
/// both papers and in the crate's words. That the crate goes by these words is
/// tested where it reads figures.
#[test]
fn the_papers_have_the_numbers_with_values() {
    let (interface, questions) = (read("docs/INTERFACE.md"), read("docs/QUESTIONS.md"));
    let wrapper = read("bindings/src/question.rs");
    let told = told("two");
    hold(value_differences(&told, &interface, &questions, &wrapper));
    // The table is headed by how many they are.
    let words = ["Six", "Seven", "Eight", "Nine"];
    let headed = format!(
        "\n{} of them, about fields of a block header",
        words[told.len() - 6]
    );
    assert!(questions.contains(&headed), "{headed}");
}

/// The table of constants has every constant of kf.h that is no answer, and the
/// first and the last question, with their numbers.
#[test]
fn the_papers_have_every_constant() {
    let header = c_header(&read("bindings/kf.h"));
    hold(constant_differences(&header, &read("docs/INTERFACE.md")));
}

/// A constant of kf.h that the table of docs/INTERFACE.md lacks, or has with
/// another number.
fn constant_differences(header: &Header, paper: &str) -> Vec<String> {
    let mut rows = BTreeMap::new();
    for row in table(paper, "| `kf.h` | number |") {
        let names = named_in(std::slice::from_ref(&row));
        let numbers = row[1].replace(',', "");
        let numbers: Vec<u64> = numbers
            .split(" to ")
            .map(|n| n.parse().expect("a number"))
            .collect();
        assert_eq!(names.len(), numbers.len(), "{row:?}");
        rows.extend(names.into_iter().zip(numbers));
    }
    let (first, last) = (header.answers.get(1), header.answers.last());
    let mut found = Vec::new();
    for (name, n) in &header.constants {
        let is_due = !name.starts_with("KF_Q_") || [first, last].contains(&Some(name));
        match rows.remove(name) {
            None if is_due => found.push(format!("{name} has no row")),
            Some(m) if m != *n => found.push(format!("{name} is {n}, in its row {m}")),
            Some(_) if !is_due => found.push(format!("{name} is neither first nor last")),
            _ => {}
        }
    }
    found.extend(rows.keys().map(|name| format!("{name} is no constant")));
    found
}

/// The numbers in a text, those of `a to b` between.
fn numbers_in(text: &str) -> Vec<u32> {
    let words: Vec<&str> = text
        .split(|c: char| !is_word(c))
        .filter(|w| !w.is_empty())
        .collect();
    let mut out: Vec<u32> = Vec::new();
    for (i, word) in words.iter().enumerate() {
        if let Ok(n) = word.parse() {
            match (i > 0 && words[i - 1] == "to", out.last().copied()) {
                (true, Some(last)) => out.extend(last + 1..=n),
                _ => out.push(n),
            }
        }
    }
    out
}

/// The questions in brackets above each declaration of kf.h are those of
/// docs/QUESTIONS.md, in the same order.
#[test]
fn the_header_has_the_questions_of_each_call() {
    let header = read("bindings/kf.h");
    let rows = table(&read("docs/QUESTIONS.md"), "| call | questions in order |");
    for row in rows {
        for call in named_in(std::slice::from_ref(&row)) {
            let declared = header.find(&format!("uint32_t {call}(")).expect("declared");
            let comment = header[..declared].rfind("/*").expect("a comment");
            let comment = &header[comment..declared];
            let bracket = |from: &str| -> Vec<u32> {
                let inside = from.split(')').next().unwrap_or("");
                let said = inside.replace(" * ", " ");
                numbers_in(&said)
            };
            // The first bracket that begins with a number.
            let said = comment
                .split('(')
                .skip(1)
                .find(|t| t.starts_with(|c: char| c.is_ascii_digit()))
                .map(bracket)
                .unwrap_or_default();
            let due = numbers_in(&row[1]);
            // kf_walk_linked asks what kf_walk does, as its words say.
            if call == "kf_walk_linked" {
                assert!(comment.contains("refuses and leaves what kf_walk does"));
                continue;
            }
            assert_eq!(said, due, "{call}");
        }
    }
}

#[test]
fn every_raw_function_says_what_is_unsafe() {
    let missing = without_safety(&read("bindings/src/raw.rs"));
    assert!(missing.is_empty(), "no `# Safety`: {}", missing.join(", "));
}

#[test]
fn the_papers_have_every_function() {
    let c = c();
    let figures = table(&read("docs/INTERFACE.md"), "| call | done |");
    hold(row_differences(
        "docs/INTERFACE.md",
        &named_in(&figures),
        &c.names(),
    ));
    let asked = table(&read("docs/QUESTIONS.md"), "| call | questions in order |");
    hold(row_differences(
        "docs/QUESTIONS.md",
        &named_in(&asked),
        &c.names(),
    ));
}

// The comparison can fail: each of these alters one text.

/// `text` with the first `from` made `to`.
fn altered(text: &str, from: &str, to: &str) -> String {
    assert!(text.contains(from), "nothing to alter: {from}");
    text.replacen(from, to, 1)
}

fn c_altered(from: &str, to: &str) -> Vec<String> {
    differences(&rattle(), &c_of(&altered(&read("bindings/kf.h"), from, to)))
}

fn rust_altered(from: &str, to: &str) -> Vec<String> {
    let source = read("bindings/src/raw.rs");
    differences(&rattle(), &rust_of(&altered(&source, from, to)))
}

#[test]
fn a_parameter_dropped_is_found() {
    let found = c_altered("uint32_t block, uint16_t level,", "uint32_t block,");
    assert_eq!(
        found[0],
        "kf_check_block, parameter 10: `level: u16` in Rattle, `bytes: *const u8` in kf.h"
    );
    assert_eq!(
        found.last().unwrap(),
        "kf_check_block, parameter 13: `said: *mut [u64; 4]` in Rattle, missing in kf.h"
    );
    assert_eq!(rust_altered("        block: u32,\n", "").len(), 5);
}

#[test]
fn two_parameters_exchanged_are_found() {
    let found = c_altered(
        "uint32_t root, uint32_t levels",
        "uint32_t levels, uint32_t root",
    );
    assert_eq!(
        found,
        [
            "kf_walk, parameter 11: `root: u32` in Rattle, `levels: u32` in kf.h",
            "kf_walk, parameter 12: `levels: u32` in Rattle, `root: u32` in kf.h"
        ]
    );
    let found = rust_altered(
        "        startblock: u32,\n        blockcount: u32,\n",
        "        blockcount: u32,\n        startblock: u32,\n",
    );
    assert_eq!(found.len(), 2);
    // In the geometry it is every call that has one.
    let found = c_altered(
        "uint32_t agblocks, uint32_t agno",
        "uint32_t agno, uint32_t agblocks",
    );
    assert_eq!(found.len(), 2 * 7);
    // And the last sequence number stands behind the UUID in each.
    let found = c_altered(
        "uint64_t uuid_high, uint64_t uuid_low, \\\n        uint64_t last_lsn",
        "uint64_t last_lsn, uint64_t uuid_high, uint64_t uuid_low",
    );
    assert_eq!(found.len(), 3 * 7);
}

#[test]
fn another_width_or_sign_is_found() {
    let found = c_altered(
        "uint64_t records, uint64_t levels",
        "uint32_t records, uint64_t levels",
    );
    assert_eq!(
        found,
        ["kf_plan, parameter 9: `records: u64` in Rattle, `records: u32` in kf.h"]
    );
    assert_eq!(c_altered("uint64_t owner", "int64_t owner").len(), 1);
    assert_eq!(c_altered("uint64_t *scratch", "uint32_t *scratch").len(), 1);
    assert_eq!(rust_altered("agno: u32", "agno: u64").len(), 1);
    assert_eq!(
        rust_altered("scratch: *mut u64", "scratch: *mut u32").len(),
        1
    );
    assert_eq!(rust_altered("bytes_len: usize", "bytes_len: u32").len(), 1);
}

#[test]
fn a_dropped_const_is_found() {
    let found = c_altered("const uint8_t *image", "uint8_t *image");
    assert_eq!(
        found,
        ["kf_walk, parameter 9: `image: *const u8` in Rattle, `image: *mut u8` in kf.h"]
    );
    assert_eq!(c_altered("uint8_t *out", "const uint8_t *out").len(), 1);
    assert_eq!(rust_altered("list: *const u8", "list: *mut u8").len(), 1);
}

#[test]
fn another_array_or_result_is_found() {
    let found = rust_altered("levels: *mut [u64; 9],", "levels: *mut [u64; 8],");
    assert_eq!(
        found,
        ["kf_plan, parameter 10: `levels: *mut [u64; 9]` in Rattle, `levels: *mut [u64; 8]` in raw.rs"]
    );
    assert_eq!(
        c_altered("uint64_t levels[KF_LEVELS]", "uint64_t *levels").len(),
        1
    );
    let found = c_altered("uint32_t kf_crc32c(", "uint64_t kf_crc32c(");
    assert_eq!(found, ["kf_crc32c, result: `u32` in Rattle, `u64` in kf.h"]);
}

#[test]
fn another_name_is_found() {
    let found = c_altered("uint8_t *new_counts, size_t", "uint8_t *counts_out, size_t");
    assert_eq!(found.len(), 1);
    let found = rust_altered("pub fn kf_plan(", "pub fn kf_plans(");
    assert_eq!(
        found,
        [
            "kf_plan is in Rattle, not in raw.rs",
            "kf_plans is in raw.rs, not in Rattle"
        ]
    );
}

#[test]
fn a_missing_function_is_found() {
    let one = "uint32_t kf_check_rmaps(const uint8_t *list, size_t list_len);";
    assert_eq!(
        c_altered(one, ""),
        ["kf_check_rmaps is in Rattle, not in kf.h"]
    );
    // A function that Rattle exports and no other text has.
    let more = "#[unsafe(no_mangle)]\npub extern \"C\" fn kf_more(\n    x: &mut [u32],\n    n: u16,\n) -> u32\n    ensures { .. }\n{\n}\n";
    let mut rattle = rattle();
    rattle.functions.extend(rattle_functions(more));
    assert_eq!(
        differences(&rattle, &rust()),
        ["kf_more is in Rattle, not in raw.rs"]
    );
    let parameters = &rattle.functions.last().unwrap().parameters;
    let shapes: Vec<String> = parameters.iter().map(Parameter::to_string).collect();
    assert_eq!(shapes, ["`x: *mut u32`", "`x_len: usize`", "`n: u16`"]);
}

#[test]
fn another_export_is_found() {
    let source = read("crates/list_calls/src/edits.rt");
    let c = c();
    let of = |source: &str| {
        let mut rattle = rattle();
        for f in rattle_functions(source) {
            let at = rattle.names().iter().position(|n| *n == f.name);
            rattle.functions[at.expect("a function")] = f;
        }
        differences(&rattle, &c)
    };
    assert_eq!(of(&source), [""; 0]);
    assert_eq!(
        of(&altered(&source, "new_map: &mut [u8]", "new_map: &[u8]")),
        ["kf_insert, parameter 7: `new_map: *const u8` in Rattle, `new_map: *mut u8` in kf.h"]
    );
    let found = of(&altered(&source, "    owner: u64,\n", ""));
    assert_eq!(
        found[0],
        "kf_insert, parameter 5: `offset: u64` in Rattle, `owner: u64` in kf.h"
    );
}

#[test]
#[should_panic(expected = "not exported")]
fn a_function_that_is_not_exported_is_found() {
    rattle_functions("pub extern \"C\" fn kf_more(n: u16) -> u32\n{\n}\n");
}

#[test]
fn another_order_is_found() {
    let source = read("bindings/kf.h");
    let one = "uint32_t kf_check_rmaps(const uint8_t *list, size_t list_len);";
    let moved = altered(&source, one, "");
    let moved = altered(
        &moved,
        "uint32_t kf_plan(",
        &format!("{one}\nuint32_t kf_plan("),
    );
    assert_eq!(differences(&rattle(), &c_of(&moved)), [""; 0]);
    assert!(!order_differences(&c_of(&moved), &rust()).is_empty());
}

#[test]
fn a_missing_safety_section_is_found() {
    let source = read("bindings/src/raw.rs");
    let found = without_safety(&altered(&source, "    /// # Safety\n", ""));
    assert_eq!(found, ["kf_crc32c"]);
}

#[test]
fn another_answer_is_found() {
    let (header, paper) = (read("bindings/kf.h"), read("docs/QUESTIONS.md"));
    let found = |from, to| answer_differences(&altered(&header, from, to), &paper);
    assert_eq!(
        found("KF_Q_SHEET_RULE = 33", "KF_Q_SHEET_RULE = 34"),
        [
            "question 33 has 0 constants",
            "KF_Q_SHEET_RULE is 34, which is no question"
        ]
    );
    assert_eq!(
        found("KF_Q_MAGIC = 4", "KF_Q_MAGIC = 5"),
        ["question 4 has 0 constants", "question 5 has 2 constants"]
    );
    assert_eq!(
        found("Is the CRC right?", "Is the UUID right?"),
        ["KF_Q_CRC says \"Is the UUID right?\"; question 5 is \"Is the CRC right?\""]
    );
}

#[test]
fn a_missing_row_is_found() {
    let rows = ["kf_a", "kf_b", "kf_b", "kf_d"].map(str::to_string);
    assert_eq!(
        row_differences("a paper", &rows, &["kf_a", "kf_b", "kf_c"]),
        [
            "kf_b has 2 rows in a paper",
            "kf_c has 0 rows in a paper",
            "a paper has a row for kf_d, which is no function"
        ]
    );
}

#[test]
fn other_numbers_with_values_are_found() {
    let (interface, questions) = (read("docs/INTERFACE.md"), read("docs/QUESTIONS.md"));
    let wrapper = read("bindings/src/question.rs");
    let source = read("crates/blocks/src/check.rt");
    let told: BTreeSet<u32> = told_in(&source, "two").into_iter().collect();
    let none = [""; 0];
    assert_eq!(
        value_differences(&told, &interface, &questions, &wrapper),
        none
    );
    let missing = "[4, 5, 7, 8, 9, 10], the library {4, 5, 7, 8, 9, 10, 30}";
    let paper = altered(
        &interface,
        "4, 5, 7 to 10 or 30 failed",
        "4, 5 or 7 to 10 failed",
    );
    assert_eq!(
        value_differences(&told, &paper, &questions, &wrapper),
        [format!("docs/INTERFACE.md has {missing}")]
    );
    let row = "| 30 | the volume's last sequence number | bytes 24 to 31 |\n";
    let paper = altered(&questions, row, "");
    assert_eq!(
        value_differences(&told, &interface, &paper, &wrapper),
        [format!("docs/QUESTIONS.md has {missing}")]
    );
    let twice = altered(&questions, row, &row.repeat(2));
    assert_eq!(
        value_differences(&told, &interface, &twice, &wrapper).len(),
        1
    );
    let words = altered(&wrapper, "7 to 10 and 30 have them", "7 to 10 have them");
    assert_eq!(
        value_differences(&told, &interface, &questions, &words),
        [format!("question.rs has {missing}")]
    );
    // A number that the source tells with values, or no longer.
    for (from, to) in [
        ("Told::plain(6)", "Told::two(6, expected, found)"),
        ("Told::two(10,", "Told::plain(10,"),
        ("=> Told::two(9", "=> // Told::two(9"),
    ] {
        let source = altered(&source, from, to);
        let told = told_in(&source, "two").into_iter().collect();
        let found = value_differences(&told, &interface, &questions, &wrapper);
        assert_eq!(found.len(), 3, "{to}");
    }
}

#[test]
fn another_constant_is_found() {
    let (header, paper) = (read("bindings/kf.h"), read("docs/INTERFACE.md"));
    let found = |header: &str, paper: &str| constant_differences(&c_header(header), paper);
    let changed = altered(&header, "KF_LIST_MAP 1u", "KF_LIST_MAP 2u");
    assert_eq!(found(&changed, &paper), ["KF_LIST_MAP is 2, in its row 1"]);
    let more = altered(
        &header,
        "#define KF_LEVELS",
        "#define KF_MORE 7u\n#define KF_LEVELS",
    );
    assert_eq!(found(&more, &paper), ["KF_MORE has no row"]);
    let fewer = altered(&header, "#define KF_FIGURES 4u\n", "");
    let fewer = fewer.replace("[KF_FIGURES]", "[4]");
    assert_eq!(found(&fewer, &paper), ["KF_FIGURES is no constant"]);
    let before = altered(
        &paper,
        "to `KF_Q_SHEET_RULE` | 1 to 33",
        "to `KF_Q_SHEET_CRC` | 1 to 32",
    );
    assert_eq!(
        found(&header, &before),
        [
            "KF_Q_SHEET_CRC is neither first nor last",
            "KF_Q_SHEET_RULE has no row"
        ]
    );
}

#[test]
fn another_number_of_sheets_is_found() {
    let source = source_of("sheets");
    for (from, to, missing) in [
        (
            "CHANGE_LEN: usize = 32",
            "CHANGE_LEN: usize = 24",
            "const CHANGE_LEN: usize = 32;",
        ),
        (
            "MAX_BLOCKS: usize = 65536",
            "MAX_BLOCKS: usize = 65535",
            "const MAX_BLOCKS: usize = 65536;",
        ),
        (
            "const LET_GO: u32 = 2",
            "// const LET_GO: u32 = 2",
            "const LET_GO: u32 = 2;",
        ),
    ] {
        assert_eq!(sheet_differences(&altered(&source, from, to)), [missing]);
    }
    let told = altered(&source, "Told::plain(33)", "Told::plain(34)");
    assert_eq!(told_in(&told, "plain"), [26, 32, 34]);
}
