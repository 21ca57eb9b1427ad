//! The errors in the log of a check, and what each is about.
//!
//! An edit shows something only where a goal does not hold. An error about a name, the shape of a proof file, a type or a form of the language shows
//! nothing about a contract. An error of a form that is listed nowhere below counts as bad: read it, and list it.

/// An error of a log.
#[derive(Clone, Debug, PartialEq, Eq)]
pub struct LogError {
    /// The file that it is in.
    pub file: String,
    /// What follows `PLACE: error`, with the lines that belong to it. An error of the compiler's front end begins with its kind in brackets.
    /// Of a goal that has no answer, and that the kit's tactics do not prove: the goal, and what the log says of it.
    pub text: String,
    /// The function that has such a goal.
    pub function: Option<String>,
}

/// What an error is about.
#[derive(Clone, Copy, Debug, PartialEq, Eq)]
pub enum About {
    Fact,
    /// Another error, of which this one is the consequence.
    Other,
    Nothing(&'static str),
}

/// What is said of a proof that rests on something that is not proved itself.
const CONSEQUENCES: &[&str] = &[
    "was not admitted",
    "that depends on ``, which",
    "that depend on ``, which",
];

/// Errors that are about no fact, by a piece of their text in which each quoted part is written as two quotes.
const NO_FACT: &[(&str, &str)] = &[
    ("`` is not in scope", "a name that is not in scope"),
    ("cannot find", "a name that is not in scope"),
    (
        "no module, record or data type",
        "a name that is not in scope",
    ),
    (
        "that can be named from here",
        "a goal that the function does not have",
    ),
    (
        "record `` has no field ``",
        "a proof that reads a path that is not there",
    ),
    (
        "`` projects from a record",
        "a proof that reads a path that is not there",
    ),
    (
        "for this file to be the proof of",
        "a proof file that no function has",
    ),
    (
        "its type has room for only",
        "a proof file that does not fit",
    ),
    (
        "no occurrence of the path's",
        "a rewriting that finds nothing to rewrite",
    ),
    (
        "expected an expression, found",
        "a form that cannot be read",
    ),
    (
        "expected a declaration, found",
        "a form that cannot be read",
    ),
    ("expected a pattern, found", "a form that cannot be read"),
    ("needs a type here", "a form that cannot be read"),
    ("stopped at the step limit", "a limit of the prover"),
    ("arguments are given", "a proof file that does not fit"),
    ("too many arguments", "a proof file that does not fit"),
    (
        "expected type ``",
        "two types that differ, and nothing is said of a value",
    ),
];

/// Errors that are about a fact, likewise.
const FACT: &[&str] = &[
    "``: the goal does not follow from what it read",
    "``: the part `` of the goal does not follow from what it read",
    "the two types differ only where",
    "the two types first differ where",
    "the two types are `` (expected)",
    "the two values differ only where",
    "the two values first differ where",
    "`` ≟ `` does not hold",
    "the two sides differ only where",
    "the two sides first differ where",
    "the two sides are",
    "give a proof of that as the last argument",
    "``: no proof of ``",
    "``: the two sides of the goal are not joined",
    OPEN,
];

/// What the log says of an open goal.
const OPEN: &str = "it is not proved that";

/// How much of an error is looked at, in characters with the quoted parts left out.
const HEAD: usize = 200;

/// The part of a log that is about this crate: where libraries below it had to be built, the log begins with what was said of them.
pub fn own_part<'a>(log: &'a str, krate: &str) -> &'a str {
    let own = format!("crate {krate}: ");
    let (mut begin, mut end, mut is_other) = (0, 0, false);
    for line in log.split_inclusive('\n') {
        end += line.len();
        is_other |= line.starts_with("crate ") && !line.starts_with(&own);
        if line.starts_with("logic=") && std::mem::take(&mut is_other) {
            begin = end;
        }
    }
    &log[begin..]
}

/// All errors of a log. An open goal counts as one, where the log has the line of its function.
pub fn of_log(log: &str) -> Vec<LogError> {
    let mut errors: Vec<LogError> = Vec::new();
    let mut open: Vec<LogError> = Vec::new();
    let mut goes_on = false;
    for line in log.lines() {
        if goes_on && line.starts_with("  ") {
            let error = errors.last_mut().expect("an error goes on");
            error.text.push(' ');
            error.text.push_str(line.trim());
            continue;
        }
        goes_on = false;
        if let Some(goal) = open_goal(line) {
            open.push(goal);
        } else if let Some((name, proved)) = verdict(line) {
            let function = name
                .split_once("::")
                .map(|(_, function)| function.to_string());
            let mut goals = std::mem::take(&mut open);
            goals.retain(|_| !proved);
            goals
                .iter_mut()
                .for_each(|goal| goal.function = function.clone());
            errors.append(&mut goals);
        } else if let Some((file, text)) = error_of(line) {
            errors.push(LogError {
                file: file.to_string(),
                text: text.to_string(),
                function: None,
            });
            goes_on = true;
        }
    }
    errors.append(&mut open);
    errors
}

/// A goal that is not proved, on a line ``note: FILE:LINE:COLUMN: it is not proved that WHAT (`GOAL`)..``.
fn open_goal(line: &str) -> Option<LogError> {
    let (place, text) = line
        .strip_prefix("note: ")?
        .split_once(": it is not proved that ")?;
    let (file, _) = place_of(place)?;
    let goal = text
        .split("(`")
        .nth(1)
        .and_then(|rest| rest.split('`').next());
    Some(LogError {
        file: file.to_string(),
        text: format!("`{}`: {OPEN} {text}", goal.unwrap_or_default()),
        function: None,
    })
}

/// The name on a line `fn CRATE::NAME: ..`, and whether it is proved. A struct and the like have such lines too.
fn verdict(line: &str) -> Option<(&str, bool)> {
    let (name, verdict) = line.split_once(": ")?;
    let (kind, name) = name.split_once(' ')?;
    let known = ["proved", "not proved", "no proof", "could not tell"];
    let is_one = !kind.ends_with(':') && known.iter().any(|word| verdict.starts_with(word));
    is_one.then_some((name, verdict == "proved"))
}

/// The file and the text of an error on a line `FILE:LINE:COLUMN: error: TEXT` or `.. error[KIND]: TEXT`.
fn error_of(line: &str) -> Option<(&str, &str)> {
    let (place, text) = line.split_once(": error")?;
    let (file, _) = place_of(place)?;
    Some((file, text.strip_prefix(": ").unwrap_or(text)))
}

/// The file and the line of a place `FILE:LINE:COLUMN`.
fn place_of(place: &str) -> Option<(&str, u32)> {
    let (rest, column) = place.rsplit_once(':')?;
    let (file, line) = rest.rsplit_once(':')?;
    column.parse::<u32>().ok()?;
    Some((file, line.parse().ok()?))
}

impl LogError {
    /// What it is about. What stands first in it decides; an advice that follows may speak of names.
    pub fn about(&self) -> About {
        if self.text.starts_with('[') {
            return About::Nothing("a form that the compiler refuses");
        }
        let head = cut(&without_types(&told_whole(&self.text)), HEAD);
        let place = |text: &str| head.find(text);
        let fact = FACT.iter().filter_map(|text| place(text)).min();
        let before = |place: &usize| fact.is_none_or(|fact| *place < fact);
        let consequence = CONSEQUENCES.iter().filter_map(|text| place(text)).min();
        if consequence.filter(before).is_some() {
            return About::Other;
        }
        let first = |(text, why): &(&str, &'static str)| Some((place(text)?, *why));
        let none = NO_FACT.iter().filter_map(first).min();
        match none.filter(|(place, _)| before(place)) {
            Some((_, why)) => About::Nothing(why),
            None if fact.is_some() => About::Fact,
            None => About::Nothing("an error of a form that rust/gate/src/errors.rs does not list"),
        }
    }

    /// The definition or the goal that it is in: the first quoted word.
    pub fn goal(&self) -> &str {
        let quoted = self.text.strip_prefix('`').unwrap_or_default();
        quoted.split('`').next().unwrap_or_default()
    }

    /// Whether it is about what a call requires or a bound, and not about what a function ensures. Such an edit may stand for another fact than the one that
    /// refuses it first; whoever reads the list decides.
    pub fn is_side_goal(&self) -> bool {
        let starts = [
            "overflow_",
            "nonzero_",
            "bounds-",
            "slice_bounds-",
            "offset_bounds-",
            "shape_of-",
        ];
        let mut parts = self.goal().split('-');
        starts.iter().any(|start| self.goal().starts_with(start))
            || parts.any(|part| part == "requires")
    }
}

/// A text with each part between back quotes left out.
fn without_quoted(text: &str) -> String {
    let parts: Vec<&str> = text.split('`').step_by(2).collect();
    parts.join("``")
}

/// An error that shows two short types whole does not say where they differ. What it says of both as they are computed decides; else it is as if it said so,
/// where both have the same first word.
fn told_whole(text: &str) -> String {
    let parts: Vec<&str> = text.split('`').collect();
    let ["", goal, ": expected type ", wanted, ", but this has type ", found, ref rest @ ..] =
        parts[..]
    else {
        return text.to_string();
    };
    let rest = rest.join("`");
    let first_word = |text: &str| text.split_whitespace().next().map(str::to_string);
    if rest
        .trim_start()
        .starts_with("computed as far as they go, the two types")
    {
        format!("`{goal}`:{rest} expected type `{wanted}`")
    } else if first_word(wanted) == first_word(found) {
        format!("`{goal}`: the two types differ only where{rest}")
    } else {
        text.to_string()
    }
}

/// The same without what is said of types alone: that two of them differ from their first word on.
fn without_types(text: &str) -> String {
    let mut head = without_quoted(text);
    for differ in ["first differ where", "differ only where"] {
        let start = format!("the two types {differ} one has `` (expected), at the start");
        head = head.replace(&start, "");
    }
    let types = text.split_once("the two types are `");
    let mut types = types
        .into_iter()
        .flat_map(|(_, rest)| rest.split('`').step_by(2));
    let mut first_word = || types.next()?.split_whitespace().next();
    if first_word() != first_word() {
        head = head.replace("the two types are `` (expected)", "");
    }
    head
}

/// The first `most` characters.
pub fn cut(text: &str, most: usize) -> String {
    match text.char_indices().nth(most) {
        Some((end, _)) => format!("{} ..", &text[..end]),
        None => text.to_string(),
    }
}

#[cfg(test)]
mod tests {
    use super::*;

    fn about(text: &str) -> About {
        let errors = of_log(&format!(
            "note: a word\n{text}\nfn bits::top_of: not proved\n"
        ));
        errors.first().expect(text).about()
    }

    #[test]
    fn facts() {
        for error in [
            "./proofs/f/Answers.antt:20:11: error: `returns`: give a proof of that as the last argument, `rw L t` (`rw L ?` shows it)\n  `rw` has no last",
            "./proofs/f/Answers.antt:21:69: error: `returns`: `omega`: the goal does not follow from what it read. All of that holds",
            "./proofs/f/Answers.antt:39:6: error: `g-requires`: `omega`: the part `.number` of the goal does not follow from what it read.",
            "./specs/Cases.antt:225:22: error: `turns`: as printed, the two types differ only where one has `x`\n  (expected)\n  expected type `x`",
            "./specs/Examples.antt:123:3: error: `starred`: computed as far as they go, the two types are `Path ℕ 1 0` (expected) and `Path ℕ 1 1` (found)",
            "./proofs/f/Answers.antt:9:3: error: `returns-2`: as printed, the two sides first differ where one has `x` (left)",
            "./proofs/f/Answers.antt:9:3: error: `returns`: as printed, the two types first differ where one has `Post` (expected), at the start, and the other has `Does` (found)\n  computed as far as they go, the two types differ only where one has `1` (expected) and the other has `0` (found)\n  expected type `Post`",
            "./proofs/f/Answers.antt:9:3: error: `returns`: `search`: no proof of `Post c.args` was found.",
            "./specs/Cases.antt:288:9: error: `once`: expected type `◌≡◌ {A = ℕ} 10 8`, but this has type `◌≡◌ {A = ℕ} 10 10`\n  computed as far as they go, the two types are `Path ℕ 10 8` (expected) and `Path ℕ 10 10` (found)",
            "./proofs/f/Laws.antt:9:3: error: `least`: expected type `T (a x)`, but this has type `T (b x)`\n  computed as far as they go, the two types differ only where one has `c x` (expected) and the other has `d x` (found)",
            "./proofs/f/Laws.antt:9:3: error: `full`: expected type `n ≤ s - longest f`, but this has type `n ≤ s - shortest f`\n  `longest` does not unfold here",
            "note: src/lib.rt:65:1: it is not proved that what the function ensures holds when it returns (`returns`); the facts known there allow values at which this goal is false",
        ] {
            assert_eq!(about(error), About::Fact, "{error}");
        }
    }

    #[test]
    fn no_facts() {
        for (error, why) in [
            (
                "src/lib.rt:43:12: error[unknown-name]: cannot find value `kk` in this scope",
                "a form that the compiler refuses",
            ),
            (
                "./specs/Limits.antt:6:3: error: `most_stack`: `sixtyfour` is not in scope",
                "a name that is not in scope",
            ),
            (
                "./proofs/f/Answers.antt:9:14: error: `place`: `tie.Start`: no module, record or data type `tie` is in scope (a binder's dot is followed by a space: `tie. Start`)",
                "a name that is not in scope",
            ),
            (
                "./proofs/f/Answers.antt:9:3: error: `returns-2`: `goal.returns-2`: module `Rattle.x.proofs.f.Goals` has no `returns-2` that can be named from here",
                "a goal that the function does not have",
            ),
            (
                "./proofs/f/Answers.antt:9:3: error: `returns`: record `Rattle.x.proofs.f.Lts.Start` has no field `loop-i`",
                "a proof that reads a path that is not there",
            ),
            (
                "./proofs/f/Answers.antt:9:3: error: `returns`: `.shared_slice_known-3-1` projects from a record, but this has type `Prim.Native.Nat.ℕ`",
                "a proof that reads a path that is not there",
            ),
            (
                "./proofs/f/Answers.antt:9:3: error: `bits` has no function `union_of` for this file to be the proof of: help: delete the folder",
                "a proof file that no function has",
            ),
            (
                "./proofs/f/Answers.antt:9:3: error: `returns`: this λ has 2 binders, but its type has room for only 1: at `c` the type is `x`",
                "a proof file that does not fit",
            ),
            (
                "./proofs/f/Answers.antt:9:3: error: `returns`: `rw`: no occurrence of the path's left endpoint in the hypothesis's type: write",
                "a rewriting that finds nothing to rewrite",
            ),
            (
                "./proofs/f/Answers.antt:9:3: error: `returns-2`: expected type `◌≡◌ x y → Prim.⊥`\n  but this has type `◌≡◌ x z → Prim.⊥`",
                "two types that differ, and nothing is said of a value",
            ),
            (
                "./proofs/f/Answers.antt:9:3: error: `returns`: as printed, the two types first differ where one has `Put` (expected), at the start, and the other has `Learnt` (found)\n  expected type `Put`",
                "two types that differ, and nothing is said of a value",
            ),
            (
                "./proofs/f/Answers.antt:9:3: error: `returns`: computed as far as they go, the two types are `◌≡◌ {A = ℕ} (?4 c) 0` (expected) and `◌≤◌ 2 c.kind` (found)\n  expected type `◌≡◌ 1`",
                "two types that differ, and nothing is said of a value",
            ),
            (
                "./proofs/f/Answers.antt:9:3: error: `returns`: computed as far as they go, the two types are identical apart from the names of bound variables\n  expected type `Post`",
                "two types that differ, and nothing is said of a value",
            ),
            (
                "./proofs/f/Laws.antt:9:3: error: `least`: expected type `T (a x)`, but this has type `n ≤ b`",
                "two types that differ, and nothing is said of a value",
            ),
            (
                "./proofs/f/Laws.antt:9:3: error: `least`: expected type `T (a x)`, but this has type `T (b x)`\n  computed as far as they go, the two types are `T c` (expected) and `n ≤ m` (found)",
                "two types that differ, and nothing is said of a value",
            ),
            (
                "./specs/Cases.antt:206:5: error: `rows`: in its elaboration (it was elaborating the text at 216:45–216:49): stopped at the step limit (50000000 steps a task, the default)\n  it stopped while comparing two types; as printed, the two types differ only where one has `x`",
                "a limit of the prover",
            ),
            (
                "./specs/Limits.antt:6:3: error: expected an expression, found `=`",
                "a form that cannot be read",
            ),
            (
                "./proofs/f/Answers.antt:9:3: error: `returns`: something that nobody has read yet",
                "an error of a form that rust/gate/src/errors.rs does not list",
            ),
        ] {
            assert_eq!(about(error), About::Nothing(why), "{error}");
        }
    }

    #[test]
    fn consequences() {
        for error in [
            "./proofs/f/Answers.antt:9:3: error: `returns`: `close` was not admitted (it has holes or undetermined implicits, or was rejected)",
            "./proofs/f/Answers.antt:15:5: error: 5 declarations that depend on `place`, which was rejected, were not checked: bounds-kills-p and 4 more",
            "./proofs/f/Answers.antt:15:5: error: 1 declaration that depends on `place`, which has holes, was not checked: bounds-kills-p",
        ] {
            assert_eq!(about(error), About::Other, "{error}");
        }
    }

    /// What an error quotes does not decide what it is about.
    #[test]
    fn quoted_words_do_not_count() {
        let error = "./P.antt:1:1: error: `returns`: `omega`: the goal does not follow from what it read at `was not admitted`";
        assert_eq!(about(error), About::Fact);
    }

    #[test]
    fn side_goals() {
        for (goal, is) in [
            ("read_body-requires", true),
            ("put-requires-2", true),
            ("put-requires-then-c", true),
            ("overflow_add-t12", true),
            ("overflow_cast-x", true),
            ("bounds-s-i", true),
            ("offset_bounds-s-i", true),
            ("returns", false),
            ("returns-then-requires_few", false),
            ("loop-i-preserved", false),
        ] {
            let text = format!("`{goal}`: `omega`: the goal does not follow");
            let error = LogError {
                file: String::new(),
                text,
                function: None,
            };
            assert_eq!(error.is_side_goal(), is, "{goal}");
        }
    }

    #[test]
    fn libraries_below_are_left_out() {
        let low = "./proofs/Laws.antt:1:2: note: one\nfn low::a: proved\ncrate low: modules loaded=3 checked=1\nlogic=proved functions=1\n";
        let mid =
            "fn mid::a: proved\ncrate mid: modules loaded=3 checked=1\nlogic=proved functions=1\n";
        let refused = "fn list::a: not proved\ncrate list: modules loaded=3 checked=1\nlogic=not-proved\nrt: lists\n";
        let stopped = "src/lib.rt:1:2: error[unknown-name]: x\n";
        for own in [refused, stopped, mid, "logic=not-proved\n", ""] {
            let krate = if own == mid { "mid" } else { "list" };
            assert_eq!(own_part(own, krate), own);
            assert_eq!(own_part(&format!("{low}{own}"), krate), own);
        }
        assert_eq!(own_part(&format!("{low}{mid}{refused}"), "list"), refused);
    }

    #[test]
    fn errors_with_their_places() {
        let log = "\
note: a word
./proofs/put/Answers.antt:1:2: error: `returns`: one
  goes on
./proofs/take/Answers.antt:3:4: note: of that file
./proofs/take/Answers.antt:3:4: error: `close`: two
fn list::end: proved
  not of an error
note: src/lib.rt:6:1: it is not proved that x holds (`returns`)
note: `search` has not tried the goals of `list::put`, which wait for a callee's proof: some may be open after it
fn list::put: not proved; it calls `list::take`, which is not proved
note: src/lib.rt:9:1: it is not proved that y holds (`overflow_add-z`); it may be false
fn list::Ring::take: no proof: expected answers in ./proofs/Ring/take/Answers.antt; `search` did not prove `overflow_add-z`
note: src/lib.rt:9:1: it is not proved that the loop ends, by its measure
logic=not-proved
";
        let errors = of_log(log);
        let read: Vec<(&str, Option<&str>, &str, &str)> = errors
            .iter()
            .map(|e| (&e.file[..], e.function.as_deref(), &e.text[..], e.goal()))
            .collect();
        assert_eq!(
            read,
            [
                (
                    "./proofs/put/Answers.antt",
                    None,
                    "`returns`: one goes on",
                    "returns"
                ),
                ("./proofs/take/Answers.antt", None, "`close`: two", "close"),
                (
                    "src/lib.rt",
                    Some("put"),
                    "`returns`: it is not proved that x holds (`returns`)",
                    "returns"
                ),
                (
                    "src/lib.rt",
                    Some("Ring::take"),
                    "`overflow_add-z`: it is not proved that y holds (`overflow_add-z`); it may be false",
                    "overflow_add-z"
                ),
                (
                    "src/lib.rt",
                    None,
                    "``: it is not proved that the loop ends, by its measure",
                    ""
                ),
            ]
        );
        assert_eq!(of_log("no error here"), []);
    }
}
