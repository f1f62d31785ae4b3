//! Writes the engine's source as Rust modules, anew at each build: the proved source, less its proofs. Nothing that is written here
//! is kept in the repository.
//!
//! Rattle's source is Rust but for what follows, and nothing else is changed:
//!   - contracts (`requires { .. }` and `ensures { .. }`, with or without a name, and `ghost { .. }`), `ghost use ..;`, a ghost
//!     member of a trait or an impl (`ghost name: { .. };`), `#![tactic(..)]` and `#[tactic(..)]` are left out;
//!   - structs and enums for C get what lets Rust compare and show them, where they do not derive it themselves;
//!   - crates are modules here: `crate::` and the names of the crates that a crate may use become paths to modules, all public;
//!   - `std::` becomes a path to src/standard.rs, which has what the engine takes of Rattle's standard library, or to
//!     src/bin/turns/standard.rs, which has what the printer takes; so do the names that stand in Rattle without a `use` and not in Rust.
//!     `str::` becomes a path to Rust's module of that name. So does the method `copy_within` of a slice, so that the library takes no
//!     `memmove` from outside;
//!   - a function that is exported for C takes slices there, which rustc passes otherwise than Rattle does. Here it is a plain
//!     function, and exports.rs gets one of the same name that takes addresses and lengths;
//!   - rustc leaves calls in a step where Rattle leaves none, and a struct that is handed to a call is in memory. So the functions of some
//!     crates get `#[inline(always)]` or `#[inline]`, and the structs of one `#[repr(packed)]`; only how long they take depends on it
//!     (docs/PERFORMANCE.md, "What is measured").
//!
//! Each line keeps its number, so that what rustc says of a written file holds of the source. An item that is not known here, a path
//! that begins with an unknown name or an exported signature that cannot be had in C stops the build, with file and line.

use std::collections::{BTreeMap, BTreeSet};
use std::path::{Path, PathBuf};
use std::{env, fs, process};

/// The crate of the calls: it and all that it uses are the library.
const CALLS: &str = "sotjarn";
/// The crate of the turn printer, whose `print_path` the program `turns` calls: it and what it uses beside the library.
const PRINTER: &str = "print_files";
/// What Rattle has without a `use`, and Rust has not, or otherwise; only the printer uses it.
const PRELUDE: [&str; 3] = ["Print", "Eprint", "eprintln"];
/// The library's name, for paths from the program.
const LIBRARY: &str = "sotjarn_portable";

/// The crates whose functions are put where they are called: what a step goes through, the loops of merges and of views, and what compares strings.
const PUT_IN: [&str; 21] = [
    "dictionary_searches",
    "list_group_merges",
    "list_group_totals",
    "list_longs",
    "list_row_orders",
    "list_rows",
    "plan_endings",
    "state_saving",
    "step_cursor_moves",
    "step_fields",
    "step_moves",
    "step_next",
    "step_rows",
    "table_sides",
    "turn_attempts",
    "turn_runs",
    "turn_savings",
    "view_calls",
    "view_grants",
    "view_marks",
    "view_members",
];
/// Those whose functions may be, also in a program that compiles the library in several units and does not optimise it as a whole. The
/// searches of table_ranges and table_ends stay calls: put where they are called before those are optimised, they are slower. The
/// walk of the check is here and not above for the same reason.
const MAY_BE_PUT_IN: [&str; 12] = [
    "list_endings",
    "list_groups",
    "plan_parts",
    "plans",
    "sorts",
    "step_levels",
    "table_readings",
    "table_row_orders",
    "table_sorts",
    "table_walks",
    "tables",
    "words",
];
/// The crate of the fixed fields that each step copies: without gaps, since the bytes of those would be copied along one by one.
const PACKED: &str = "steps";

const SCALARS: [&str; 9] = ["u8", "u16", "u32", "u64", "usize", "i32", "i64", "isize", "bool"];

/// Stops the build.
fn stop(file: &Path, line: usize, what: &str) -> ! {
    eprintln!("{}:{line}: {what}", file.display());
    process::exit(1);
}

// Tokens.

#[derive(Clone, Copy, PartialEq)]
enum Kind {
    /// Blanks and comments.
    Space,
    /// A contract's clause, a `ghost use`, or the tactic of a file's proofs.
    Proof,
    /// Anything else: a name, keyword or number, a literal, a label, or a mark.
    Solid,
}

struct Token<'a> {
    kind: Kind,
    text: &'a str,
    line: usize,
}

fn is_word(c: char) -> bool {
    c.is_alphanumeric() || c == '_'
}

/// The bytes of `text` up to the end of its first part in braces.
fn braced(text: &str) -> Option<usize> {
    let mut open = 0;
    for (at, c) in text.char_indices() {
        open += i32::from(c == '{') - i32::from(c == '}');
        if c == '}' && open <= 0 {
            return Some(at + 1).filter(|_| open == 0);
        }
    }
    None
}

/// The bytes of `text` up to the end of its first literal in such quotes; a backslash takes the next character along.
fn quoted(text: &str, quote: char) -> Option<usize> {
    let (mut open, mut escaped) = (false, false);
    for (at, c) in text.char_indices() {
        if c == quote && open && !escaped {
            return Some(at + 1);
        }
        open = open || c == quote;
        escaped = c == '\\' && !escaped;
    }
    None
}

/// Whether the marks of a struct or enum derive a trait.
fn derives(mark: &str, name: &str) -> bool {
    mark.split(|c| !is_word(c)).any(|word| word == name)
}

/// Whether the marks of a struct or enum are one list of derives, with Clone and Copy among them. Nothing else is derived in the source.
fn is_copied(mark: &str) -> bool {
    let is_one_list = mark.starts_with("#[derive(") && mark.find(']') == Some(mark.len() - 1);
    is_one_list && derives(mark, "Clone") && derives(mark, "Copy")
}

/// The kind and the bytes of the token that `text` begins with; none where it does not end, or is not known.
fn token(text: &str) -> Option<(Kind, usize)> {
    let while_so = |start: usize, so: fn(char) -> bool| text[start..].find(|c| !so(c)).map_or(text.len(), |n| start + n);
    let word = while_so(0, is_word);
    let after = text[word..].trim_start();
    match &text[..word] {
        "requires" | "ensures" => braced(text).map(|n| (Kind::Proof, n)),
        "ghost" if after.starts_with('{') => braced(text).map(|n| (Kind::Proof, n)),
        "ghost" if after.starts_with("use ") => text.find(';').map(|n| (Kind::Proof, n + 1)),
        "ghost" => braced(text).filter(|&n| text[n..].starts_with(';')).map(|n| (Kind::Proof, n + 1)),
        "b" if text[word..].starts_with('"') => quoted(text, '"').map(|n| (Kind::Solid, n)),
        "b" if text[word..].starts_with('\'') => quoted(text, '\'').map(|n| (Kind::Solid, n)),
        "" if text.starts_with("#![tactic(") || text.starts_with("#[tactic(") => text.find(']').map(|n| (Kind::Proof, n + 1)),
        "" if text.starts_with("//") => Some((Kind::Space, while_so(0, |c| c != '\n'))),
        "" if text.starts_with("/*") => None,
        "" if text.starts_with(char::is_whitespace) => Some((Kind::Space, while_so(0, char::is_whitespace))),
        "" if text.starts_with('"') => quoted(text, '"').map(|n| (Kind::Solid, n)),
        "" if text.starts_with('\'') => Some((Kind::Solid, while_so(1, is_word))),
        "" if text.starts_with("::") || text.starts_with("->") => Some((Kind::Solid, 2)),
        "" => text.chars().next().map(|c| (Kind::Solid, c.len_utf8())),
        _ => Some((Kind::Solid, word)),
    }
}

fn tokens<'a>(file: &Path, text: &'a str) -> Vec<Token<'a>> {
    let (mut found, mut at, mut line) = (Vec::new(), 0, 1);
    while at < text.len() {
        let unknown = || stop(file, line, "a clause, comment or literal that does not end, or that is of a form not known here");
        let (kind, length) = token(&text[at..]).unwrap_or_else(unknown);
        let text = &text[at..at + length];
        found.push(Token { kind, text, line });
        at += length;
        line += text.matches('\n').count();
    }
    found
}

// Source files.

/// A function exported for C: the number of its name's token, names and types of its parameters, and the type of its answer.
struct Export {
    name: usize,
    parameters: Vec<(String, String)>,
    answer: String,
}

/// A source file, and the path of its module. Its tokens but for blanks and proofs are numbered; `edits` has what is put in place of some,
/// and `grouped` those in the braces of a `use`, where no path begins.
struct Source<'a> {
    file: &'a Path,
    module: String,
    tokens: Vec<Token<'a>>,
    solid: Vec<usize>,
    edits: BTreeMap<usize, String>,
    modules: BTreeSet<&'a str>,
    imported: BTreeSet<&'a str>,
    grouped: BTreeSet<usize>,
    for_c: BTreeSet<&'a str>,
    exports: Vec<Export>,
}

impl<'a> Source<'a> {
    /// Reads a file, item by item.
    fn read(file: &'a Path, module: String, text: &'a str) -> Source<'a> {
        let tokens = tokens(file, text);
        let solid = (0..tokens.len()).filter(|&at| tokens[at].kind == Kind::Solid).collect();
        let (edits, exports, grouped) = (BTreeMap::new(), Vec::new(), BTreeSet::new());
        let (modules, imported, for_c) = (BTreeSet::new(), BTreeSet::new(), BTreeSet::new());
        let mut source = Source { file, module, tokens, solid, edits, modules, imported, grouped, for_c, exports };
        let end = source.items(0);
        if end < source.solid.len() {
            source.stop(end, "a brace that closes nothing");
        }
        source
    }

    fn stop(&self, at: usize, what: &str) -> ! {
        let token = self.solid.get(at).or(self.solid.last());
        stop(self.file, token.map_or(1, |&token| self.tokens[token].line), what)
    }

    /// The name of the crate.
    fn name(&self) -> &str {
        self.module.split("::").nth(1).expect("a module's path begins with crate:: and its crate")
    }

    /// The text of the token with a number, empty past the last.
    fn text(&self, at: usize) -> &'a str {
        self.solid.get(at).map_or("", |&token| self.tokens[token].text)
    }

    fn joined(&self, from: usize, to: usize) -> String {
        (from..to).map(|at| self.text(at)).collect()
    }

    fn put(&mut self, at: usize, text: String) {
        self.edits.insert(self.solid[at], text);
    }

    /// The number of the next token that is one of `ends`, outside all brackets that are opened on the way.
    fn find(&self, from: usize, ends: &[&str]) -> usize {
        let mut open = 0;
        for at in from..self.solid.len() {
            let text = self.text(at);
            open -= i32::from(matches!(text, ")" | "]" | "}"));
            if open == 0 && ends.contains(&text) {
                return at;
            }
            open += i32::from(matches!(text, "(" | "[" | "{"));
        }
        self.stop(from, "an item that does not end")
    }

    /// The items from a number on, up to the closing brace of an `impl` or the end of the file.
    fn items(&mut self, mut at: usize) -> usize {
        while at < self.solid.len() && self.text(at) != "}" {
            at = self.item(at) + 1;
        }
        at
    }

    /// The item at a number; answers the number of its last token.
    fn item(&mut self, start: usize) -> usize {
        let mut first = start;
        while self.text(first) == "#" {
            first = self.find(first + 1, &["]"]) + 1;
        }
        let mark = self.joined(start, first);
        let head = first + usize::from(self.text(first) == "pub");
        match (&mark[..], self.text(head), self.text(head + 1), self.text(head + 2)) {
            ("", "use", ..) => self.import(head),
            ("", "mod", name, ";") => {
                self.modules.insert(name);
                self.put(head, if head == first { "pub mod" } else { "mod" }.to_string());
                head + 2
            }
            ("", "const" | "type", ..) => self.find(head, &[";"]),
            (mark, "struct" | "enum", name, _) if mark.strip_prefix("#[repr(C)]").map_or(false, is_copied) => {
                self.for_c.insert(name);
                let more: Vec<_> = ["Debug", "PartialEq", "Eq"].into_iter().filter(|&one| !derives(mark, one)).collect();
                self.put(first, format!("#[derive({})] {}", more.join(", "), self.text(first)));
                self.find(head, &[";", "}"])
            }
            (mark, "struct" | "enum", ..) if mark.is_empty() || is_copied(mark) => {
                if self.text(head) == "struct" && self.name() == PACKED {
                    self.put(first, format!("#[repr(packed)] {}", self.text(first)));
                }
                self.find(head, &[";", "}"])
            }
            ("", "impl", ..) => {
                let body = self.find(head, &["{"]);
                self.items(body + 1)
            }
            ("", "trait", ..) => self.find(head, &["}"]),
            ("", "fn", ..) => {
                if PUT_IN.contains(&self.name()) {
                    self.put(first, format!("#[inline(always)] {}", self.text(first)));
                } else if MAY_BE_PUT_IN.contains(&self.name()) {
                    self.put(first, format!("#[inline] {}", self.text(first)));
                }
                self.find(head, &["}"])
            }
            ("#[unsafe(no_mangle)]", "extern", "\"C\"", "fn") => {
                (start..first).chain(head..head + 2).for_each(|at| self.put(at, String::new()));
                self.export(head + 3)
            }
            (mark, text, ..) => self.stop(start, &format!("an item of a form not known here: {mark} {text}")),
        }
    }

    /// A `use` of names by their paths, and the names that it brings in.
    fn import(&mut self, head: usize) -> usize {
        let end = self.find(head, &[";"]);
        for at in head + 1..end {
            let (text, next) = (self.text(at), self.text(at + 1));
            match text {
                "{" if at > head + 1 => self.grouped.extend(at..end),
                "::" | "," | "}" => {}
                _ if !text.chars().all(is_word) => self.stop(head, "a `use` of a form not known here"),
                _ if matches!(next, "," | "}" | ";") => _ = self.imported.insert(text),
                _ => {}
            }
        }
        end
    }

    /// The signature of an exported function, from its name on.
    fn export(&mut self, name: usize) -> usize {
        let (mut parameters, mut at, close) = (Vec::new(), name + 2, self.find(name + 1, &[")"]));
        while at < close {
            let end = (at..close).find(|&at| self.text(at) == ",").unwrap_or(close);
            if self.text(at + 1) != ":" {
                self.stop(at, "a parameter of an exported function that is no name with a type");
            }
            parameters.push((self.text(at).to_string(), self.joined(at + 2, end)));
            at = end + 1;
        }
        let body = self.find(close + 1, &["{"]);
        let answer = self.joined(close + 1, body).replace("->", "");
        self.exports.push(Export { name, parameters, answer });
        self.find(body, &["}"])
    }

    /// Puts paths to modules where a path begins with `crate` or with a crate that this one may use; `roots` says where those are.
    fn translate_paths(&mut self, own: &str, roots: &BTreeMap<String, String>) {
        for at in 0..self.solid.len() {
            let head = self.text(at);
            if self.grouped.contains(&at) || (at > 0 && self.text(at - 1) == "::") {
                continue;
            }
            if PRELUDE.contains(&head) {
                self.put(at, format!("crate::standard::{head}"));
            }
            if head == "copy_within" {
                self.move_within(at);
            }
            if self.text(at + 1) != "::" || self.text(at + 2) == "<" {
                continue;
            }
            let is_module = self.modules.contains(head);
            let is_known =
                is_module || self.imported.contains(head) || SCALARS.contains(&head) || ["self", "super"].contains(&head);
            match roots.get(head) {
                _ if head == "crate" => self.put(at, format!("crate::{own}")),
                _ if head == "std" => self.put(at, "crate::standard".to_string()),
                _ if head == "str" => self.put(at, "core::str".to_string()),
                Some(_) if is_module => self.stop(at, &format!("{head} is both a module and a crate that is used")),
                Some(root) => self.put(at, format!("{root}::{head}")),
                None if is_known || head.starts_with(char::is_uppercase) => {}
                None => self.stop(at, &format!("{head} is no module of this file and no crate that {own} may use")),
            }
        }
    }

    /// Puts the function of src/standard.rs where a slice's method `copy_within` is called, of a slice that has a name.
    fn move_within(&mut self, method: usize) {
        let (slice, dot, open) = (self.text(method.saturating_sub(2)), self.text(method.saturating_sub(1)), self.text(method + 1));
        if dot != "." || open != "(" || !slice.chars().all(is_word) || matches!(self.text(method.saturating_sub(3)), "." | "::") {
            self.stop(method, "a `copy_within` of a form not known here");
        }
        self.put(method - 2, "crate::standard::copy_within".to_string());
        self.put(method - 1, String::new());
        self.put(method, String::new());
        self.put(method + 1, format!("({slice}, "));
    }

    /// The file as Rust, line by line.
    fn written(&self) -> String {
        let text = |(at, token): (usize, &Token)| match self.edits.get(&at) {
            Some(text) => text.clone(),
            None if token.kind == Kind::Proof => token.text.chars().filter(|&c| c == '\n').collect(),
            None => token.text.to_string(),
        };
        self.tokens.iter().enumerate().map(text).collect()
    }

    /// The functions for C of the exported ones; `for_c` has the paths of the structs that C can have.
    fn written_exports(&self, for_c: &BTreeMap<String, String>) -> String {
        self.exports.iter().map(|export| self.written_export(export, for_c)).collect()
    }

    fn stop_for_c(&self, export: &Export, kind: &str) -> ! {
        self.stop(export.name, &format!("the type {kind} of an exported function cannot be had in C"))
    }

    fn written_export(&self, export: &Export, for_c: &BTreeMap<String, String>) -> String {
        let (name, module) = (self.text(export.name), &self.module);
        let part = |(name, kind): &(String, String)| parameter(name, kind, for_c).unwrap_or_else(|| self.stop_for_c(export, kind));
        let parts = export.parameters.iter().map(part);
        let (parameters, arguments): (Vec<_>, Vec<_>) = parts.unzip();
        let answer = match (&export.answer[..], for_c.get(&export.answer[..])) {
            ("", _) => String::new(),
            (_, Some(path)) => format!(" -> {path}"),
            (kind, None) if SCALARS.contains(&kind) => format!(" -> {kind}"),
            (kind, None) => self.stop_for_c(export, kind),
        };
        let (parameters, arguments) = (parameters.join(", "), arguments.join(", "));
        format!(
            "/// `{name}` over addresses and lengths.\n///\n/// # Safety\n/// What bindings/c/sotjarn.h asks of the addresses.\n\
             #[no_mangle]\npub unsafe extern \"C\" fn {name}({parameters}){answer} {{\n    {module}::{name}({arguments})\n}}\n\n"
        )
    }
}

/// The parameters in C of one in Rattle, and the argument that is made of them; none where it has no such form. `for_c` has the paths of the
/// structs that C can have.
fn parameter(name: &str, kind: &str, for_c: &BTreeMap<String, String>) -> Option<(String, String)> {
    let item = |item: &str| for_c.get(item).cloned().or(Some(item.to_string()).filter(|item| SCALARS.contains(&&item[..])));
    let slice = |start: &str| kind.strip_prefix(start)?.strip_suffix(']').and_then(item);
    if let Some(item) = slice("&[") {
        return Some((format!("{name}: *const {item}, {name}_len: usize"), format!("lent({name}, {name}_len)")));
    }
    if let Some(item) = slice("&mut[") {
        return Some((format!("{name}: *mut {item}, {name}_len: usize"), format!("lent_mut({name}, {name}_len)")));
    }
    Some((format!("{name}: {kind}"), name.to_string())).filter(|_| SCALARS.contains(&kind))
}

// Crates.

/// The crates of crates.txt, with those that each may use.
type Crates = BTreeMap<String, Vec<String>>;

fn read(file: &Path) -> String {
    fs::read_to_string(file).unwrap_or_else(|error| stop(file, 1, &error.to_string()))
}

fn write(file: &Path, text: &str) {
    let folder = file.parent().expect("a file is in a folder");
    fs::create_dir_all(folder).and_then(|()| fs::write(file, text)).unwrap_or_else(|error| stop(file, 1, &error.to_string()));
}

fn read_crates(file: &Path) -> Crates {
    let text = read(file);
    let lines = text.lines().enumerate().filter(|(_, line)| !line.trim().is_empty() && !line.starts_with('#'));
    let words = |text: &str| text.split_whitespace().map(String::from).collect::<Vec<_>>();
    let entry = |(number, line): (usize, &str)| match line.split_once(':').map(|(name, uses)| (words(name), words(uses))) {
        Some((name, uses)) if !name.is_empty() => (name[0].clone(), uses), // a second word says what kind of library it is
        _ => stop(file, number + 1, "a line that names no crate"),
    };
    lines.map(entry).collect()
}

/// Finds a crate and all that it uses.
fn find_used(crates: &Crates, name: &str, found: &mut BTreeSet<String>) {
    if !found.insert(name.to_string()) {
        return;
    }
    match crates.get(name) {
        Some(uses) => uses.iter().for_each(|other| find_used(crates, other, found)),
        None => stop(Path::new("crates.txt"), 1, &format!("it has no crate {name}, which portable/build.rs asks for")),
    }
}

/// Finds the source files of a crate, by their names within its src/.
fn find_sources(folder: &Path, within: &Path, found: &mut Vec<PathBuf>) {
    let entries = fs::read_dir(folder.join(within)).unwrap_or_else(|error| stop(folder, 1, &error.to_string()));
    let mut names: Vec<PathBuf> = entries.filter_map(|entry| Some(within.join(entry.ok()?.file_name()))).collect();
    names.sort();
    for name in names {
        if folder.join(&name).is_dir() {
            find_sources(folder, &name, found);
        } else if name.extension().map_or(false, |extension| extension == "rt") {
            found.push(name);
        }
    }
}

/// The path of the module that a source file of a crate becomes.
fn module_of(name: &str, file: &Path) -> String {
    let parts = file.with_extension("").iter().map(|part| format!("::{}", part.to_string_lossy())).collect::<String>();
    format!("crate::{name}{}", parts.strip_suffix("::lib").unwrap_or(&parts))
}

/// Writes the modules of a crate to a folder, and answers its functions for C. `for_c` gets the paths of its structs that C can have.
fn write_crate(
    root: &Path,
    name: &str,
    roots: &BTreeMap<String, String>,
    target: &Path,
    for_c: &mut BTreeMap<String, String>,
) -> String {
    let within = Path::new("crates").join(name).join("src");
    println!("cargo:rerun-if-changed={}", root.join(&within).display());
    let mut files = Vec::new();
    find_sources(&root.join(&within), Path::new(""), &mut files);
    let texts: Vec<_> = files.iter().map(|file| (within.join(file), read(&root.join(&within).join(file)))).collect();
    let mut sources = Vec::new();
    for (file, (shown, text)) in files.iter().zip(&texts) {
        sources.push(Source::read(shown, module_of(name, file), text));
    }
    for (file, source) in files.iter().zip(&mut sources) {
        source.translate_paths(name, roots);
        let module = if file == Path::new("lib.rt") { PathBuf::from("mod.rs") } else { file.with_extension("rs") };
        write(&target.join(name).join(module), &source.written());
    }
    for source in &sources {
        for kind in &source.for_c {
            if let Some(other) = for_c.insert(kind.to_string(), format!("{}::{kind}", source.module)) {
                source.stop(0, &format!("{kind} for C is {other} too"));
            }
        }
    }
    sources.iter().map(|source| source.written_exports(for_c)).collect()
}

/// Writes the modules of some crates, and modules.rs, which declares them and ends with a line of its own; answers the functions for C.
/// `root_of` says where a crate is.
fn write_crates(
    root: &Path,
    crates: &Crates,
    chosen: &BTreeSet<String>,
    root_of: impl Fn(&str) -> String,
    target: &Path,
    last: &str,
) -> String {
    let _ = fs::remove_dir_all(target);
    let (mut declared, mut exports, mut for_c) = (String::new(), String::new(), BTreeMap::new());
    // The crate of the calls comes last: its functions for C may take structs of all others.
    let (calls, others): (Vec<_>, Vec<_>) = chosen.iter().partition(|name| *name == CALLS);
    for name in others.into_iter().chain(calls) {
        let roots = crates[name].iter().map(|other| (other.clone(), root_of(other))).collect();
        exports += &write_crate(root, name, &roots, target, &mut for_c);
        declared += &format!("#[doc(hidden)]\n#[forbid(unsafe_code)]\n#[allow(dead_code, unused, clippy::all)]\npub mod {name};\n");
    }
    write(&target.join("modules.rs"), &(declared + last));
    exports
}

fn main() {
    let root = Path::new(&env::var_os("CARGO_MANIFEST_DIR").expect("cargo sets it")).join("..");
    let out = PathBuf::from(env::var_os("OUT_DIR").expect("cargo sets it"));
    println!("cargo:rerun-if-changed=build.rs");
    println!("cargo:rerun-if-changed={}", root.join("crates.txt").display());
    let crates = read_crates(&root.join("crates.txt"));
    let (mut library, mut all) = (BTreeSet::new(), BTreeSet::new());
    find_used(&crates, CALLS, &mut library);
    find_used(&crates, PRINTER, &mut all);
    if let Some(name) = PUT_IN.iter().chain(&MAY_BE_PUT_IN).chain([&PACKED]).find(|&&name| !library.contains(name)) {
        stop(Path::new("crates.txt"), 1, &format!("the library has no crate {name}, which portable/build.rs names"));
    }

    let last = format!("pub use self::{CALLS}::*;\n");
    let exports = write_crates(&root, &crates, &library, |_| "crate".to_string(), &out.join("library"), &last);
    write(&out.join("exports.rs"), &exports);

    let printer = all.difference(&library).cloned().collect();
    let place = |name: &str| if library.contains(name) { LIBRARY } else { "crate" }.to_string();
    let last = format!("use self::{PRINTER}::print_path;\n");
    write_crates(&root, &crates, &printer, place, &out.join("printer"), &last);
}
