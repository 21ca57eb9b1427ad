//! Numbers that the sources of the repository state: those that the header defines, and those that the specs of the crates define.

use std::path::Path;

/// The text of a file, by its path from the top of the repository.
pub fn source(path: &str) -> String {
    let top = Path::new(env!("CARGO_MANIFEST_DIR")).join("../..");
    vectors::read_text(&top.join(path))
}

/// The names and numbers of the lines `#define FELKNOST_NAME NUMBER` of the header, in its order.
pub fn header_numbers() -> Vec<(String, usize)> {
    let number = |line: &str| {
        let (name, number) = line.strip_prefix("#define FELKNOST_")?.split_once(' ')?;
        Some((name.to_string(), number.parse().ok()?))
    };
    let header = source("include/felknost.h");
    header.lines().filter_map(number).collect()
}

/// The number that the header defines by this name.
pub fn header_number(name: &str) -> usize {
    let mut numbers = header_numbers().into_iter();
    let found = numbers.find(|(defined, _)| defined == name);
    found.unwrap_or_else(|| panic!("no number {name}")).1
}

/// The number that the specs of a crate define by this name, in the file at this path. It has to be `abbrev NAME : ℕ` with an equation, a sum of products of
/// numbers and of names that are defined so, in the same file or in the one that a `use` takes them from. Panics where it cannot be found or read.
pub fn spec_number(path: &str, name: &str) -> usize {
    let specs = Specs(&source);
    let number = specs.number(path, name, MOST_STEPS);
    number.unwrap_or_else(|wrong| panic!("{name} of {path}: {wrong}"))
}

/// The most names, each in the equation of the one before, that lead to a number. A name that leads back to itself passes this.
const MOST_STEPS: usize = 20;

/// The specs of the crates, by what reads a file.
struct Specs<'a>(&'a dyn Fn(&str) -> String);

impl Specs<'_> {
    /// The number that a file defines, or takes from another one.
    fn number(&self, path: &str, name: &str, steps: usize) -> Result<usize, String> {
        let steps = steps.checked_sub(1).ok_or(format!("{name} has no end"))?;
        let text = (self.0)(path);
        match equation(&text, name)? {
            Some(sum) => self.sum(path, &sum, steps),
            None => self.number(&origin(&text, name)?, name, steps),
        }
    }

    /// A sum of products. Nothing else has a number: what is not one, a bracket for example, becomes a part of a name that no file defines.
    fn sum(&self, path: &str, sum: &str, steps: usize) -> Result<usize, String> {
        let mut total: usize = 0;
        for product in sum.split('+') {
            let mut value: usize = 1;
            for factor in product.split('*') {
                let factor = self.factor(path, factor.trim(), steps)?;
                value = value.checked_mul(factor).ok_or("a product too large")?;
            }
            total = total.checked_add(value).ok_or("a sum too large")?;
        }
        Ok(total)
    }

    fn factor(&self, path: &str, factor: &str, steps: usize) -> Result<usize, String> {
        match factor.parse() {
            Ok(number) => Ok(number),
            Err(_) => self.number(path, factor, steps),
        }
    }
}

/// The right side of the equation of a name in a text that declares it, with the lines that go on with it. Nothing where the text has neither.
fn equation(text: &str, name: &str) -> Result<Option<String>, String> {
    let lines: Vec<&str> = text.lines().map(uncommented).collect();
    let declared = lines.iter().filter(|line| declares(line, name)).count();
    let numbered = lines.iter().copied().enumerate();
    let begun = numbered.filter_map(|(index, line)| Some((index, right_side(line, name)?)));
    let equations: Vec<(usize, &str)> = begun.collect();
    match (declared, &equations[..]) {
        (0, []) => Ok(None),
        (1, [(index, sum)]) => {
            // A line that goes on with another is indented, and empty ones may stand between them.
            let rest = lines[index + 1..].iter();
            let more = rest.take_while(|line| line.is_empty() || line.starts_with([' ', '\t']));
            Ok(Some([*sum].iter().chain(more).copied().collect()))
        }
        _ => Err(format!(
            "{name}: {declared} declarations, {} equations",
            equations.len()
        )),
    }
}

/// A line without the comment at its end, and without the spaces there.
fn uncommented(line: &str) -> &str {
    line.split("--").next().unwrap_or("").trim_end()
}

/// Whether a line is `abbrev NAME : ℕ`, public or not.
fn declares(line: &str, name: &str) -> bool {
    let words = line.split(' ').filter(|word| *word != "pub");
    words.eq(["abbrev", name, ":", "ℕ"])
}

/// What stands behind `NAME =` in a line that begins so.
fn right_side<'a>(line: &'a str, name: &str) -> Option<&'a str> {
    line.strip_prefix(name)?.trim_start().strip_prefix('=')
}

/// The path of the file that a text takes a name from, by its one line `use Rattle.CRATE.specs.FILE.{NAME, ..}`.
fn origin(text: &str, name: &str) -> Result<String, String> {
    let from = |line: &str| {
        let (module, names) = line.strip_prefix("use Rattle.")?.split_once(".{")?;
        let mut names = names.strip_suffix('}')?.split(',');
        names.any(|used| used.trim() == name).then_some(())?;
        let (of, file) = module.split_once(".specs.")?;
        Some(format!("crates/{of}/specs/{file}.antt"))
    };
    let origins: Vec<String> = text.lines().filter_map(from).collect();
    match &origins[..] {
        [path] => Ok(path.clone()),
        [] => Err(format!("nothing defines {name:?}")),
        _ => Err(format!("{name} comes from {origins:?}")),
    }
}

#[cfg(test)]
mod tests {
    use super::*;

    const LIMITS: &str =
        "abbrev pub most_stack : ℕ\nmost_stack = 64\n\nabbrev pub most_funcs : ℕ\nmost_funcs = 32\n";

    /// What stands before and behind `most` in a file.
    const BEFORE: &str =
        "use Rattle.model.specs.Limits.{most_stack, most_funcs}\n\nabbrev pub line : ℕ\nline = 39\n";
    const BEHIND: &str = "abbrev behind : ℕ\nbehind = 1000\n";

    /// What `most` is in a file with this text, beside one with limits.
    fn most(text: &str) -> Result<usize, String> {
        let read = |path: &str| match path {
            "crates/report/specs/Report.antt" => text.to_string(),
            "crates/model/specs/Limits.antt" => LIMITS.to_string(),
            _ => panic!("no file {path}"),
        };
        Specs(&read).number("crates/report/specs/Report.antt", "most", MOST_STEPS)
    }

    /// The same of a declared `most` with this equation.
    fn most_by(equation: &str) -> Result<usize, String> {
        most(&format!(
            "{BEFORE}\nabbrev pub most : ℕ\n{equation}\n\n{BEHIND}"
        ))
    }

    #[test]
    fn definitions_that_are_read() {
        for (equation, wanted) in [
            ("most = 7", 7),
            ("most = line", 39),
            ("most = most_funcs", 32),
            ("most = 10 + line * most_funcs + 3", 1_261),
            ("most = 2 * 3 * 4 + 5 * line", 219),
            ("most = 10 -- and 5", 10),
            ("most =\n    10\n    + line", 49),
            ("most = 10\n\n-- of the foot\n  + line\n\t+ 1", 50),
        ] {
            assert_eq!(most_by(equation), Ok(wanted), "{equation}");
        }
        assert_eq!(
            most("use Rattle.model.specs.Limits.{most_stack}\nabbrev most : ℕ\nmost = most_stack\n"),
            Ok(64)
        );
    }

    #[test]
    fn equations_that_are_not_read() {
        for equation in [
            "",
            "most =",
            "most = other",
            "most = most",
            "most = 2 * (line + 1)",
            "most = line - 1",
            "most = max line 7",
            "most = 1 +",
            "most = 99999999999999999999",
            "most = 9999999999999999999 * 2",
            "most = 7\nmost = 8",
            "most = n\n  where\n  n = 7",
            "most n = 7",
            "-- most = 7",
            "  most = 7",
        ] {
            assert!(most_by(equation).is_err(), "{equation}");
        }
    }

    #[test]
    fn declarations_that_are_not_read() {
        for text in [
            "",
            "most = 7\n",
            "abbrev pub most : ℕ\n",
            "abbrev pub most : ℕ → ℕ\nmost = 7\n",
            "unfoldable pub most : ℕ\nmost = 7\n",
            "abbrev pub most : ℕ\nmost = 7\nabbrev pub most : ℕ\n",
            "use Rattle.model.specs.Limits.{most}\n",
            "use Rattle.model.specs.Limits.{most_funcs}\nuse Rattle.other.specs.Limits.{most_funcs}\nabbrev most : ℕ\nmost = most_funcs\n",
            "use Rattle.report.specs.Report.{most}\n",
        ] {
            assert!(most(text).is_err(), "{text}");
        }
    }
}
