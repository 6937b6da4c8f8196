//! Reads declarations of exported functions and structs in three languages into one form.

use std::collections::BTreeMap;

/// Names with their types in Rust's words, as ("c1", "*mut i32").
type Named = Vec<(String, String)>;

/// Everything that is declared: names, in C's form, with their parameters and result or their fields.
#[derive(Debug, Default, PartialEq)]
pub struct Face {
    pub functions: BTreeMap<String, String>,
    pub structs: BTreeMap<String, String>,
}

impl Face {
    /// The first difference, in words.
    pub fn differs(&self, other: &Face) -> Option<String> {
        differs("struct", &self.structs, &other.structs).or(differs("function", &self.functions, &other.functions))
    }

    fn add_function(&mut self, name: String, parameters: Named, result: String) {
        self.functions.insert(name, format!("({}) -> {result}", listed(parameters)));
    }

    fn add_struct(&mut self, name: String, fields: Named) {
        self.structs.insert(name, format!("{{ {} }}", listed(fields)));
    }
}

fn listed(names: Named) -> String {
    names.into_iter().map(|(name, kind)| format!("{name}: {kind}")).collect::<Vec<_>>().join(", ")
}

fn differs(kind: &str, ours: &BTreeMap<String, String>, theirs: &BTreeMap<String, String>) -> Option<String> {
    for name in ours.keys().chain(theirs.keys()) {
        match (ours.get(name), theirs.get(name)) {
            (Some(our), Some(their)) if our == their => (),
            (Some(our), Some(their)) => return Some(format!("{kind} {name}\n  {our}\n  {their}")),
            (Some(_), None) => return Some(format!("{kind} {name} stands only in the first")),
            _ => return Some(format!("{kind} {name} stands only in the second")),
        }
    }
    None
}

/// `RulantipPixmap` as `rulantip_pixmap`.
fn c_name(name: &str) -> String {
    let mut out = String::new();
    for letter in name.chars() {
        if letter.is_ascii_uppercase() && !out.is_empty() {
            out.push('_');
        }
        out.push(letter.to_ascii_lowercase());
    }
    out
}

/// Words and single signs; `->` is one sign, a lifetime one word, and a letter in quotes too.
struct Tokens {
    tokens: Vec<String>,
    at: usize,
}

impl Tokens {
    fn new(text: &str) -> Tokens {
        let letters: Vec<char> = without_comments(text).chars().collect();
        let mut tokens = Vec::new();
        let mut at = 0;
        while at < letters.len() {
            let start = at;
            at += 1;
            if letters[start].is_whitespace() {
                continue;
            }
            if letters[start] == '\'' && letters.get(start + 2) == Some(&'\'') {
                at += 2;
            } else if letters[start].is_ascii_alphanumeric() || "_'".contains(letters[start]) {
                while at < letters.len() && (letters[at].is_ascii_alphanumeric() || letters[at] == '_') {
                    at += 1;
                }
            } else if letters[start..].starts_with(&['-', '>']) {
                at += 1;
            }
            tokens.push(letters[start..at].iter().collect());
        }
        Tokens { tokens, at: 0 }
    }

    fn peek(&self) -> &str {
        self.tokens.get(self.at).map_or("", String::as_str)
    }

    fn next(&mut self) -> String {
        let token = self.peek().to_string();
        self.at += 1;
        token
    }

    /// Takes the tokens if they come next.
    fn take(&mut self, words: &str) -> bool {
        let words: Vec<&str> = words.split(' ').collect();
        let come = words.iter().enumerate().all(|(i, word)| self.tokens.get(self.at + i).is_some_and(|t| t == word));
        if come {
            self.at += words.len();
        }
        come
    }

    fn expect(&mut self, words: &str) -> Result<(), String> {
        if self.take(words) {
            Ok(())
        } else {
            Err(format!("expected '{words}' before '{}'", self.context()))
        }
    }

    fn context(&self) -> String {
        self.tokens[self.at.min(self.tokens.len())..].iter().take(12).cloned().collect::<Vec<_>>().join(" ")
    }

    fn ended(&self) -> bool {
        self.at >= self.tokens.len()
    }

    /// Passes over a part in braces.
    fn skip_braces(&mut self) -> Result<(), String> {
        self.expect("{")?;
        let mut open = 1;
        while open > 0 {
            match self.next().as_str() {
                "{" => open += 1,
                "}" => open -= 1,
                "" => return Err("a brace is not closed".to_string()),
                _ => (),
            }
        }
        Ok(())
    }
}

fn without_comments(text: &str) -> String {
    let mut out = String::new();
    let mut rest = text;
    while let Some(start) = rest.find("/*").into_iter().chain(rest.find("//")).min() {
        out += &rest[..start];
        out.push(' ');
        let (end, length) = if rest[start..].starts_with("/*") { ("*/", 2) } else { ("\n", 0) };
        rest = rest[start..].find(end).map_or("", |at| &rest[start + at + length..]);
    }
    out + rest
}

/// A C header without comments, directives and what stands between `#ifdef __cplusplus` and `#endif`.
pub fn c_header(text: &str) -> Result<Face, String> {
    let mut cplusplus = false;
    let mut continued = false;
    let mut kept = String::new();
    for line in without_comments(text).lines() {
        let directive = continued || line.trim_start().starts_with('#');
        continued = directive && line.ends_with('\\');
        if directive {
            cplusplus = cplusplus && !line.contains("#endif") || line.contains("#ifdef __cplusplus");
        } else if !cplusplus {
            kept += line;
            kept.push('\n');
        }
    }
    let mut tokens = Tokens::new(&kept);
    let mut face = Face::default();
    while !tokens.ended() {
        if tokens.take("typedef struct {") {
            let mut fields = Vec::new();
            while !tokens.take("}") {
                let kind = c_type(&mut tokens)?;
                loop {
                    fields.push((tokens.next(), kind.clone()));
                    if !tokens.take(",") {
                        break;
                    }
                }
                tokens.expect(";")?;
            }
            face.add_struct(tokens.next(), fields);
        } else {
            let result = c_type(&mut tokens)?;
            let name = tokens.next();
            tokens.expect("(")?;
            let mut parameters = Vec::new();
            loop {
                let kind = c_type(&mut tokens)?;
                parameters.push((tokens.next(), kind));
                if !tokens.take(",") {
                    break;
                }
            }
            tokens.expect(")")?;
            face.add_function(name, parameters, result);
        }
        tokens.expect(";")?;
    }
    Ok(face)
}

fn c_type(tokens: &mut Tokens) -> Result<String, String> {
    let constant = tokens.take("const");
    let name = tokens.next();
    let kind = match name.as_str() {
        "uint8_t" => "u8",
        "int32_t" => "i32",
        "uint32_t" => "u32",
        "size_t" => "usize",
        "double" => "f64",
        "void" => "()",
        name if name.starts_with("rulantip_") => name,
        _ => return Err(format!("a type not known: {name} {}", tokens.context())),
    };
    match (constant, tokens.take("*")) {
        (true, true) => Ok(format!("*const {kind}")),
        (false, true) => Ok(format!("*mut {kind}")),
        (false, false) => Ok(kind.to_string()),
        (true, false) => Err(format!("a const that is no pointer before '{}'", tokens.context())),
    }
}

/// A type in Rust or Rattle: a slice's pointer type is marked by a leading `&`.
fn rust_type(tokens: &mut Tokens) -> Result<String, String> {
    if tokens.take("&") {
        if tokens.peek().starts_with('\'') {
            tokens.next();
        }
        let access = if tokens.take("mut") { "mut" } else { "const" };
        tokens.expect("[")?;
        let kind = tokens.next();
        tokens.expect("]")?;
        return Ok(format!("&*{access} {kind}"));
    }
    if tokens.take("*") {
        let access = tokens.next();
        return Ok(format!("*{access} {}", tokens.next()));
    }
    let name = tokens.next();
    Ok(if name.starts_with("Rulantip") { c_name(&name) } else { name })
}

/// `name: type, ..` up to the closing sign; a slice becomes a pointer and a length.
fn rust_names(tokens: &mut Tokens, close: &str) -> Result<Named, String> {
    let mut out = Vec::new();
    while !tokens.take(close) {
        tokens.take("pub");
        let name = tokens.next();
        tokens.expect(":")?;
        let kind = rust_type(tokens)?;
        match kind.strip_prefix('&') {
            Some(pointer) => {
                out.push((name.clone(), pointer.to_string()));
                out.push((format!("{name}_len"), "usize".to_string()));
            }
            None => out.push((name, kind)),
        }
        if tokens.peek() != close {
            tokens.expect(",")?;
        }
    }
    Ok(out)
}

/// What follows the word `fn`.
fn rust_function(tokens: &mut Tokens) -> Result<(String, Named, String), String> {
    let name = tokens.next();
    if tokens.take("<") {
        while tokens.next() != ">" {}
    }
    tokens.expect("(")?;
    let parameters = rust_names(tokens, ")")?;
    let result = if tokens.take("->") { rust_type(tokens)? } else { "()".to_string() };
    Ok((name, parameters, result))
}

/// Takes a struct if one marked `#[repr(C)]` comes next.
fn rust_struct(tokens: &mut Tokens, face: &mut Face) -> Result<bool, String> {
    if !tokens.take("# [ repr ( C ) ]") {
        return Ok(false);
    }
    while tokens.peek() == "#" {
        while tokens.next() != "]" {}
    }
    tokens.take("pub");
    tokens.expect("struct")?;
    let name = c_name(&tokens.next());
    tokens.expect("{")?;
    let fields = rust_names(tokens, "}")?;
    face.add_struct(name, fields);
    Ok(true)
}

/// The structs and the `extern "C"` block of a Rust module.
pub fn rust_module(text: &str) -> Result<Face, String> {
    let mut tokens = Tokens::new(text);
    let mut face = Face::default();
    while !tokens.ended() {
        if tokens.take("extern \" C \" {") {
            while !tokens.take("}") {
                tokens.expect("pub fn")?;
                let (name, parameters, result) = rust_function(&mut tokens)?;
                tokens.expect(";")?;
                face.add_function(name, parameters, result);
            }
        } else if !rust_struct(&mut tokens, &mut face)? {
            tokens.next();
        }
    }
    Ok(face)
}

/// The functions marked `#[unsafe(no_mangle)] pub extern "C"` and the structs marked `#[repr(C)]` of Rattle source.
pub fn rattle_source(text: &str) -> Result<Face, String> {
    let mut tokens = Tokens::new(text);
    let mut face = Face::default();
    while !tokens.ended() {
        if tokens.take("# [ unsafe ( no_mangle ) ]") {
            tokens.expect("pub extern \" C \" fn")?;
            let (name, parameters, result) = rust_function(&mut tokens)?;
            face.add_function(name.clone(), parameters, result);
            while tokens.peek() != "{" {
                match tokens.next().as_str() {
                    "ensures" => tokens.skip_braces()?,
                    word => return Err(format!("{name} has '{word}', which no caller in C is held to")),
                }
            }
            tokens.skip_braces()?;
        } else if !rust_struct(&mut tokens, &mut face)? {
            tokens.next();
        }
    }
    Ok(face)
}

/// The `#define NAME number` lines of a C header.
pub fn constants(text: &str) -> BTreeMap<String, u64> {
    let mut out = BTreeMap::new();
    for line in without_comments(text).lines() {
        let words: Vec<&str> = line.split_whitespace().collect();
        if let ["#define", name, number] = words[..] {
            if let Ok(number) = number.parse() {
                out.insert(name.to_string(), number);
            }
        }
    }
    out
}

/// The cases of `enum Refusal` with their numbers.
pub fn refusals(text: &str) -> Vec<(String, u64)> {
    let mut tokens = Tokens::new(text);
    let mut out = Vec::new();
    while !tokens.ended() {
        if tokens.take("enum Refusal {") {
            while !tokens.take("}") {
                let name = tokens.next();
                tokens.expect("=").unwrap();
                out.push((name, tokens.next().parse().unwrap()));
                tokens.take(",");
            }
        } else {
            tokens.next();
        }
    }
    out
}
