//! The declarations of bindings/c/nobyaluk.h: constants, structs and functions, without comments and with single blanks.

/// A declaration by its name.
#[derive(Clone, Debug, PartialEq, Eq)]
pub struct Declaration {
    pub name: String,
    pub text: String,
}

impl Declaration {
    /// FNV-1a of the text, 64 bits in hexadecimal.
    pub fn digest(&self) -> String {
        let step = |hash: u64, byte| (hash ^ u64::from(byte)).wrapping_mul(0x100_0000_01b3);
        let hash = self.text.bytes().fold(0xcbf2_9ce4_8422_2325, step);
        format!("{hash:016x}")
    }

    /// The names of a struct's fields; none of anything else.
    pub fn fields(&self) -> Vec<&str> {
        let Some((_, rest)) = self.text.split_once("typedef struct {") else {
            return vec![];
        };
        let inside = rest.split('}').next().unwrap_or_default();
        inside
            .split([';', ','])
            .filter_map(|part| {
                part.split('[')
                    .next()?
                    .split(' ')
                    .rfind(|word| !word.is_empty())
            })
            .collect()
    }

    /// Result and arguments of a function, without the arguments' names; none of anything else.
    pub fn signature(&self) -> Option<(&str, Vec<String>)> {
        let (head, arguments) = self.text.strip_suffix(')')?.split_once('(')?;
        let result = head.strip_suffix(self.name.as_str())?.trim();
        let arguments = arguments.split(',').map(str::trim);
        let types = arguments
            .filter(|&argument| argument != "void")
            .map(|argument| {
                let at = argument.rfind([' ', '*']).map_or(0, |at| at + 1);
                argument[..at].trim().to_string()
            });
        Some((result, types.collect()))
    }
}

/// The number in NOBYALUK_VERSION.
pub fn number(header: &str) -> Option<u32> {
    let constants = declarations(header);
    let version = constants.iter().find(|one| one.name == VERSION)?;
    version.text.split(' ').next_back()?.parse().ok()
}

pub const VERSION: &str = "NOBYALUK_VERSION";

/// All of them, in the header's order.
pub fn declarations(header: &str) -> Vec<Declaration> {
    let code = without_preprocessor(&without_comments(header));
    let mut found = vec![];
    for statement in statements(&code) {
        if let (true, Some((_, constants))) =
            (statement.starts_with("enum "), statement.split_once('{'))
        {
            let constants = constants.trim_end_matches('}').split(',').map(str::trim);
            found.extend(
                constants
                    .filter(|text| !text.is_empty())
                    .map(|text| Declaration {
                        name: text.split(' ').next().unwrap_or_default().to_string(),
                        text: text.to_string(),
                    }),
            );
        } else if !statement.starts_with("static_assert") {
            found.push(Declaration {
                name: name_of(&statement).to_string(),
                text: statement,
            });
        }
    }
    found
}

fn without_comments(text: &str) -> String {
    let mut parts = text.split("/*");
    let mut code = parts.next().unwrap_or_default().to_string();
    for part in parts {
        code.push(' ');
        code.push_str(part.split_once("*/").map_or("", |(_, after)| after));
    }
    code
}

/// Lines that are only for C++ are removed too.
fn without_preprocessor(code: &str) -> String {
    let (mut kept, mut for_cplusplus) = (String::new(), false);
    for line in code.lines() {
        match line.trim() {
            "#ifdef __cplusplus" => for_cplusplus = true,
            "#endif" => for_cplusplus = false,
            line if line.starts_with('#') || for_cplusplus => {}
            line => kept = kept + line + " ",
        }
    }
    kept
}

/// What ends with a semicolon outside of braces, with single blanks.
fn statements(code: &str) -> Vec<String> {
    let (mut depth, mut found, mut one) = (0, vec![], String::new());
    for letter in code.chars() {
        match letter {
            '{' => depth += 1,
            '}' => depth -= 1,
            _ => {}
        }
        if letter == ';' && depth == 0 {
            found.push(one.split_whitespace().collect::<Vec<_>>().join(" "));
            one.clear();
        } else {
            one.push(letter);
        }
    }
    found
}

/// A struct's name comes last, a function's before its arguments.
fn name_of(statement: &str) -> &str {
    let head = match statement.starts_with("typedef") {
        true => statement,
        false => statement.split('(').next().unwrap_or_default(),
    };
    head.rsplit([' ', '*']).next().unwrap_or_default()
}
