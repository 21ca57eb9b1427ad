//! The names that files declare: definitions, theorems, fields and constructors in .antt files, items in .rt and .rs files, tests.

use std::collections::BTreeSet;

pub type Names = BTreeSet<String>;

/// The words that may stand before a declared name of an .antt file.
const BEFORE: &[&str] = &[
    "pub",
    "abbrev",
    "unfoldable",
    "opaque",
    "private",
    "record",
    "data",
];

/// What an .antt file declares: each name that stands before a colon at the start of a line, or after `record` or `data`.
pub fn of_antt(text: &str) -> Names {
    let mut names = Names::new();
    for line in text.lines() {
        let words = line.split_whitespace();
        let marked = |word: &&str| BEFORE.contains(word);
        let opens = words
            .clone()
            .take_while(marked)
            .any(|word| word == "record" || word == "data");
        let words: Vec<&str> = words.skip_while(marked).collect();
        let colon = words.iter().position(|&word| word == ":");
        let end = match colon {
            Some(end) if !opens => end,
            _ => usize::from(opens).min(words.len()),
        };
        let declared = &words[..end];
        if declared
            .iter()
            .all(|word| is_name(word) || is_parameter(word))
        {
            let named = declared.iter().filter(|word| is_name(word));
            names.extend(named.map(|word| word.to_string()));
        }
    }
    names
}

/// Whether a word of an .antt file can be a declared name.
fn is_name(word: &str) -> bool {
    let others = [
        "--", "=", "→", "×", "≡", "λ", "let", "in", "use", "module", "mod",
    ];
    !others.contains(&word) && !word.contains(['(', ')', '{', '}', '`', ';'])
}

/// Whether a word is a parameter by itself, as `{ℓ}`.
fn is_parameter(word: &str) -> bool {
    word.starts_with('{') && word.ends_with('}')
}

/// The words that declare an item of a .rt or .rs file.
const ITEMS: &[&str] = &["fn", "struct", "enum", "const", "mod", "type"];

/// What a .rt or .rs file declares: functions, types, constants, modules, and the variants and fields of types.
pub fn of_source(text: &str) -> Names {
    let mut names = Names::new();
    let mut inside = false;
    for line in text.lines() {
        let words: Vec<&str> = line.split_whitespace().collect();
        let item = words.windows(2).find(|pair| ITEMS.contains(&pair[0]));
        if let Some(pair) = item {
            names.insert(ident(pair[1]).to_string());
        } else if inside {
            let word = words.iter().find(|word| **word != "pub");
            names.insert(ident(word.unwrap_or(&"")).to_string());
        }
        match line {
            "}" => inside = false,
            _ if line.contains("enum ") || line.contains("struct ") => inside = line.ends_with('{'),
            _ => {}
        }
    }
    names.remove("");
    names
}

/// The name that a word begins with.
fn ident(word: &str) -> &str {
    let end = word.find(|letter: char| !(letter.is_alphanumeric() || letter == '_'));
    &word[..end.unwrap_or(word.len())]
}

/// The tests of an .rs file: functions after `#[test]`.
pub fn of_tests(text: &str) -> Names {
    let mut names = Names::new();
    let mut marked = false;
    for line in text.lines().map(str::trim) {
        match line.strip_prefix("fn ") {
            Some(rest) if marked => {
                names.insert(ident(rest).to_string());
                marked = false;
            }
            _ => marked |= line == "#[test]",
        }
    }
    names
}

/// The functions of a .c file.
pub fn of_c(text: &str) -> Names {
    let opening = |line: &str| {
        let before = line.split_once('(')?.0;
        let name = before.rsplit([' ', '*']).next()?;
        let starts = line.starts_with(|letter: char| letter.is_ascii_lowercase());
        (starts && before.contains(' ')).then(|| ident(name).to_string())
    };
    text.lines().filter_map(opening).collect()
}

#[cfg(test)]
mod tests {
    use super::*;

    fn listed(names: Names) -> Vec<String> {
        names.into_iter().collect()
    }

    #[test]
    fn antt() {
        let text = "\
-- a comment : nothing
use lib.ListN.{length}
abbrev pub _orElse_ {ℓ} : Option A → A
unfoldable pub leads : Func → ℕ
leads f p = f p
pub record Largest (P : ℕ → Type 0) : Type 0 where
  -- bounds : no
  pub bounds : (n : ℕ) → P n
  pub first last : ℕ
pub data Walk (next : ℕ → List ℕ) : ℕ → Type 0 where
  here : Walk next 0
mem-upTo :
    (n : ℕ) → n ≤ 3
    → (h : T)
";
        assert_eq!(
            listed(of_antt(text)),
            [
                "Largest", "Walk", "_orElse_", "bounds", "first", "here", "last", "leads",
                "mem-upTo"
            ]
        );
    }

    #[test]
    fn source() {
        let text = "\
// fn nothing of the kind
pub struct Place {
    pub row: u32,
}
pub enum Line {
    Stack(u32),
    Close,
}
impl Place {
    pub const MOST: usize = 5;
}
pub fn read(a: u32) -> u32
    ensures { x }
{
    let y = a;
}
";
        let names = of_source(text);
        for name in ["Place", "row", "Line", "Stack", "Close", "MOST", "read"] {
            assert!(names.contains(name), "{name}");
        }
        assert!(!names.contains("y") && !names.contains("let"));
    }

    #[test]
    fn rust_tests_and_c_functions() {
        let text =
            "#[test]\nfn one() {\n}\nfn helper() {}\n/// Two.\n#[test]\n#[cfg(x)]\nfn two() {\n";
        assert_eq!(listed(of_tests(text)), ["one", "two"]);
        let text = "static void *each(void *x)\nint main(void)\n    call(x);\n#define F(x) x\n";
        assert_eq!(listed(of_c(text)), ["each", "main"]);
    }
}
