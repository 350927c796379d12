//! Small made-up projects, and this one from the command line.

use believed::{reach, report, Book, Module, Place};
use std::process::Command;

const CALLS: &str = "crates/top/src/lib.rt";
const SPECS: &str = "crates/low/specs/Low.antt";

fn book(files: &[(&str, &str)]) -> Book {
    let module = |path: &str, text| match path.ends_with(".rt") {
        true => Module::of_rattle(text),
        false => Module::of_logic(text),
    };
    files.iter().map(|(path, text)| (path.to_string(), module(path, text))).collect()
}

fn place(path: &str, name: &str) -> Place {
    (path.into(), name.into())
}

/// A call `f` whose contract says of its answer `result` what is given, with the import that is given.
fn calls(import: &str, says: &str) -> String {
    format!(
        "ghost use Rattle.std.specs.Prelude.{{◌≡◌}};\nghost use {import};\n
pub fn f(x: &[u8]) -> usize\n    ensures told {{ {says} }}\n{{\n    other(x)\n}}\n"
    )
}

/// The names of the definitions that the call `f` reaches, and how many lines they have.
fn believed(files: &[(&str, &str)]) -> (Vec<String>, usize) {
    let book = book(files);
    let reached = reach(&book, &[place(CALLS, "f")], &[]).unwrap();
    assert!(reached.unknown.is_empty(), "{:?}", reached.unknown);
    let names = reached.definitions.keys().map(|(_, name)| name.clone()).collect();
    (names, report::count(&reached.definitions))
}

#[test]
fn renamed_import_is_followed_and_what_is_not_cited_is_not() {
    let calls = calls("Rattle.low.specs.Low.{twice as doubled}", "result ≡ doubled x.now");
    let low = "
use Rattle.std.specs.Prelude.{ℕ, ◌+◌}
use Rattle.low.specs.Lower.{same}

unfoldable pub twice : ℕ → ℕ
twice n = same n + same n

unfoldable pub thrice : ℕ → ℕ
thrice n = twice n + n
";
    let lower = "use Rattle.std.specs.Prelude.{ℕ}\nabbrev pub same : ℕ → ℕ\nsame n = n\n";
    let files = [(CALLS, calls.as_str()), (SPECS, low), ("crates/low/specs/Lower.antt", lower)];
    assert_eq!(believed(&files), (vec!["twice".into(), "same".into()], 4));
}

#[test]
fn types_of_the_kit_are_listed_where_a_file_imports_them() {
    let calls = "ghost use Rattle.low.specs.Low.{answer};\n
pub fn f(x: &[u8]) -> Result<usize, u8>\n    ensures told { answer result }\n{\n    other(x)\n}\n";
    let low = "
use Rattle.std.specs.Prelude.{ℕ, Result}

abbrev pub answer : Result ℕ ℕ → Type 0
answer r = Unit
";
    let book = book(&[(CALLS, calls), (SPECS, low)]);
    let reached = reach(&book, &[place(CALLS, "f")], &[]).unwrap();
    assert!(reached.unknown.is_empty(), "{:?}", reached.unknown);
    assert!(reached.kit.contains(&place("Rattle.std.specs.Prelude", "Result")), "{:?}", reached.kit);
}

#[test]
fn operators_and_escaped_names() {
    let calls = calls("Rattle.low.specs.Low.{choice}", "result ≡ choice x.now");
    let low = "
use Rattle.std.specs.Prelude.{ℕ, Bool, true, false}

infixr 10 if◌then◌else◌
abbrev pub if◌then◌else◌ {ℓ} : {A : Type ℓ} → Bool → A → A → A
if◌then◌else◌ true a b = a
if◌then◌else◌ false a b = b

abbrev pub ◌⊕◌ : Bool → Bool → Bool
a ⊕ true = a
a ⊕ false = false
infixl 20 ◌⊕◌

abbrev pub ◌⊖◌ : Bool → Bool → Bool
a ⊖ b = a

-- may be meant by a `⊕` as well
abbrev pub ⊕◌ : Bool → Bool
⊕ a = a

abbrev pub «-1» : ℕ
«-1» = 1

abbrev pub «x_1» : ℕ
«x_1» = 1

abbrev pub «x_t_1» : ℕ
«x_t_1» = 1

abbrev pub choice : Bool → ℕ
choice t = if t ⊕ true then «-1» else «x_1»
";
    let (names, lines) = believed(&[(CALLS, &calls), (SPECS, low)]);
    assert_eq!(names, ["-1", "choice", "if◌then◌else◌", "x_1", "⊕◌", "◌⊕◌"]);
    assert_eq!(lines, 14);
}

#[test]
fn constructor_stands_for_its_data_type() {
    let calls = calls("Rattle.low.specs.Low.{data_bit}", "result ≡ data_bit");
    let low = "use Rattle.low.specs.Entries.{+1}\nunfoldable pub data_bit : Type 0\ndata_bit = +1\n";
    let entries = "pub data Entry : Type 0 where\n  ·0 : Entry\n  +1 : Entry\n\npub data Other : Type 0 where\n  -1 : Other\n";
    let files = [(CALLS, calls.as_str()), (SPECS, low), ("crates/low/specs/Entries.antt", entries)];
    assert_eq!(believed(&files), (vec!["Entry".into(), "data_bit".into()], 5));
}

#[test]
fn declared_types_are_followed_into_the_sources() {
    let calls = calls("Rattle.low.specs.Low.{answer_of}", "result ≡ answer_of x.now");
    let low = "
use Rattle.std.specs.Prelude.{List}
use Rattle.low.specs.declared.Answer.TheVariants.{No as refused}
unfoldable pub answer_of : List Type → Type
answer_of l = refused
";
    let sources = "
use lower::{Size, Word};
// An answer.
#[derive(Clone, Copy)]
pub enum Answer {
    // Comments are not counted.
    Yes(Found),
    No,
}

#[derive(Clone, Copy)]
struct Found {
    size: Size,
}

struct No {
    size: usize,
}
";
    let lower =
        "pub struct Size {\n    pub bytes: usize,\n}\npub struct Unused {\n    pub bytes: usize,\n}\n";
    let files = [
        (CALLS, calls.as_str()),
        (SPECS, low),
        ("crates/low/src/lib.rt", sources),
        ("crates/lower/src/lib.rt", lower),
    ];
    let names = ["answer_of", "Answer", "Found", "Size"].map(String::from).to_vec();
    assert_eq!(believed(&files), (names, 2 + 3 + 2 + 2));
}

#[test]
fn comments_and_blank_lines_are_not_counted() {
    let calls = calls("Rattle.low.specs.Low.{Kept, last}", "Kept result × (result ≡ last)");
    let low = "-- What the promises cite.
use Rattle.std.specs.Prelude.{ℕ, ◌≤◌}

-- a record
pub record Kept (n : ℕ) : Type 0 where
  -- a field
  pub small : n ≤ 3 -- at most three

  pub row : ℕ
  pub known : row ≤ n

abbrev pub other : ℕ
other = 2

abbrev pub last : ℕ
last =
    -- the last
    1
";
    let files = [(CALLS, calls.as_str()), (SPECS, low)];
    assert_eq!(believed(&files), (vec!["Kept".into(), "last".into()], 7));
    let book = book(&files);
    let table = report::table(&book, &reach(&book, &[place(CALLS, "f")], &[]).unwrap());
    assert!(table.contains("| `crates/low/specs/Low.antt` | 7 | 5-10, 15-18 | `Kept` `last` |\n"), "{table}");
    assert!(
        table.contains("\nTotal: 7 lines of definitions, and 0 lines of the types that they speak of.\n"),
        "{table}"
    );
    assert!(table.contains("| `crates/top/src/lib.rt` | 2 | 4-5 | `f` |\n"), "{table}");
    assert!(table.contains("- `Rattle.std.specs.Prelude`: `ℕ` `◌≡◌` `◌≤◌`\n"), "{table}");
}

#[test]
fn theorem_is_its_type_below_its_parameters() {
    let theorem = "
use Rattle.low.specs.Low.{small, even, lemma}
module _ (n : Type 0) (is-small : small n) where
  pub law :
      (m : Type 0) → even m
      → even n
  law m e = lemma m e
";
    let low = "
unfoldable pub small : Type 0 → Type 0
small n = n
unfoldable pub even : Type 0 → Type 0
even n = n
pub lemma : Type 0
lemma = small
";
    let path = "crates/low/proofs/Law.antt";
    let book = book(&[(path, theorem), (SPECS, low)]);
    let reached = reach(&book, &[place(path, "law")], &[]).unwrap();
    assert!(reached.unknown.is_empty(), "{:?}", reached.unknown);
    assert_eq!(report::count(&reached.statements), 4);
    assert!(reached.definitions.keys().eq(&[place(SPECS, "even"), place(SPECS, "small")]));
}

#[test]
fn words_that_stand_for_nothing_known_are_told() {
    let calls = calls("Rattle.low.specs.Low.{first, gone}", "(result ≡ first) × (result ≡ gone)");
    let low = "
use Rattle.std.specs.Prelude.{ℕ, suc}
use Rattle.low.proofs.Whole as whole
unfoldable pub first : ℕ → ℕ
first (suc n) = let m = n in missing (λ k. k m) (record { at = n; to = whole.value }) n.at 12
first x =
    later
  where
    later : ℕ
    later = x
";
    let book = book(&[(CALLS, &calls), (SPECS, low)]);
    let unknown = reach(&book, &[place(CALLS, "f")], &[]).unwrap().unknown;
    let told: Vec<&str> = unknown.iter().map(|(_, word)| word.as_str()).collect();
    assert_eq!(told, ["missing", "whole", "gone"]);
    assert!(reach(&book, &[place(CALLS, "other")], &[]).is_err());
}

#[test]
fn what_is_determined_is_told_apart() {
    let calls = calls(
        "Rattle.low.specs.Low.{equation, Promise, Answer}",
        "(result ≡ equation x.now) × Promise x.now result",
    );
    let low = "
use Rattle.low.specs.declared.Kind.{Kind}
pub record Answer : Type 0 where
  pub value : Type 0

pub record Promise (x r : Answer) : Type 0 where
  pub kept : Answer

unfoldable pub decoded : Answer → Kind
decoded x = x

unfoldable pub equation : Answer → Answer
equation x = decoded x
";
    let sources = "pub enum Kind {\n    One,\n}\n";
    let book = book(&[(CALLS, &calls), (SPECS, low), ("crates/low/src/lib.rt", sources)]);
    let reached = reach(&book, &[place(CALLS, "f")], &[place(SPECS, "equation")]).unwrap();
    assert!(reached.unknown.is_empty(), "{:?}", reached.unknown);
    assert!(reached.definitions.keys().eq(&[place(SPECS, "Answer"), place(SPECS, "Promise")]));
    let kind = place("crates/low/src/lib.rt", "Kind");
    assert!(reached.determined.keys().eq(&[place(SPECS, "decoded"), place(SPECS, "equation"), kind]));
    let table = report::table(&book, &reached);
    assert!(table.contains("\nTotal: 4 lines of definitions, and 0 lines of the types"), "{table}");
    let (_, apart) = table.split_once("\nDetermined by `Reads`, need not be believed: 4 lines").unwrap();
    assert!(apart.contains("| `crates/low/specs/Low.antt` | 4 | 9-13 | `decoded` `equation` |\n"), "{table}");
    assert!(reach(&book, &[place(CALLS, "f")], &[place(SPECS, "other")]).is_err());
}

#[test]
fn private_functions_state_nothing() {
    let text = "fn g(x: u8) -> u8\n    ensures { result ≡ x }\n{\n    x\n}\n
#[unsafe(no_mangle)]\npub extern \"C\" fn h(x: u8) -> u8\n    ensures { result ≡ x }\n{\n    x\n}\n";
    assert!(Module::of_rattle(text).statements.keys().eq(["h"]));
}

#[test]
fn this_project() {
    let run = |arguments: &[&str]| {
        let root = concat!(env!("CARGO_MANIFEST_DIR"), "/../..");
        let output = Command::new(env!("CARGO_BIN_EXE_believed")).arg(root).args(arguments).output().unwrap();
        assert!(output.stderr.is_empty(), "{}", String::from_utf8_lossy(&output.stderr));
        (output.status.code(), String::from_utf8(output.stdout).unwrap())
    };
    let (status, table) = run(&[]);
    let (_, total) = table.split_once("\nTotal: ").unwrap();
    let total: usize = total.split(' ').next().unwrap().parse().unwrap();
    assert_eq!(status, Some(0));
    assert!(total > 800 && table.contains("`data_symbol`") && table.contains("`Refusal`"));
    let (believed, apart) = table.split_once("\nDetermined by `Reads`").unwrap();
    assert!(
        !believed.contains("`payload_in`") && apart.contains("`payload_in`") && apart.contains("`read_of`")
    );
    let (_, printed) = run(&["check", "0"]);
    assert!(printed.starts_with(&format!("{total} lines of definitions, ")), "{printed}");
    assert_eq!(run(&["check", &total.to_string()]), (Some(0), printed.clone()));
    assert_eq!(run(&["check", &(total - 1).to_string()]), (Some(1), printed));
}
