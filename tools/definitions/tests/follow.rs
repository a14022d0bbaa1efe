//! What is followed, counted and found in the wrong place: in the crates, and in a small tree.

use danivomel_definitions::faults::faults;
use danivomel_definitions::file::Kind;
use danivomel_definitions::listing::{count, list, Count};
use danivomel_definitions::origins::{entries, promised};
use danivomel_definitions::reach::Reached;
use danivomel_definitions::tree::Tree;
use std::path::Path;

const DEFINITIONS: &str = "-- Definitions.
use Rattle.std.specs.Prelude.{ℕ}
use Rattle.low.specs.declared.Answer.{Answer}
use Rattle.low.specs.declared.Answer.TheVariants as answer

-- twice
-- as much
abbrev pub twice : ℕ → ℕ
twice n = n + n

pub data Found : Type 0 where
  none : Found
  some : ℕ → Found

unfoldable pub told : Found → Answer
told Found.none = answer.Nothing
told (Found.some n) = answer.Is (twice n)

-- nothing leads here
pub record Apart : Type 0 where
  pub twice : ℕ
";

const LAWS: &str = "-- Laws.
use Rattle.low.specs.Definitions as defined
use Rattle.std.proofs.Common.{◌≡◌, refl}

pub data Held : Type 0 where
  held : Held

module _ (given : Held) where
  pub helper : Held
  helper = given

  -- what is told is told
  pub law : (f : defined.Found) → defined.told f ≡ defined.told f
  law f = refl (helper given)
";

const SOURCE: &str = "use low::Answer;
ghost use Rattle.low.specs.Definitions.{told as answered};

// Looks.
pub fn look(found: u64) -> Answer
    ensures twice { result ≡ answered found }
{
    Answer::Nothing
}

pub fn other(found: u64) -> u64
{
    found
}
";

fn small() -> Tree {
    let mut tree = Tree::default();
    tree.add("crates/low/specs/Definitions.antt", DEFINITIONS);
    tree.add("crates/low/proofs/Laws/Laws.antt", LAWS);
    tree.add("crates/low/proofs/look/Answers.antt", "abbrev pub left : ℕ\nleft = 1\n");
    tree.add("crates/low/src/lib.rt", "// An answer.\npub enum Answer {\n    Nothing,\n    Is(u64),\n}\n");
    tree.add("crates/high/src/lib.rt", SOURCE);
    tree
}

fn names(tree: &Tree, reached: &Reached, kind: Kind) -> Vec<String> {
    let list = list(tree, reached, kind);
    let lines = list.lines().filter(|line| line.starts_with(' '));
    lines.map(|line| line.split_whitespace().nth(2).unwrap().to_string()).collect()
}

/// In the crates, `checked` leads to `pick` and `greatest_share`, and to a type.
#[test]
fn checked_share() {
    let root = Path::new(env!("CARGO_MANIFEST_DIR")).join("../..");
    let tree = Tree::read(&root).unwrap();
    let mut reached = Reached::default();
    reached.follow(&tree, &promised(&tree, "`checked` of model/specs/Shares.antt")).unwrap();
    assert_eq!(names(&tree, &reached, Kind::Definition), ["pick", "greatest_share", "checked"]);
    assert_eq!(count(&tree, &reached, Kind::Definition), Count { declarations: 3, lines: 9, files: 1 });
    assert_eq!(names(&tree, &reached, Kind::Type), ["Share"]);
}

#[test]
fn from_a_contract() {
    let tree = small();
    let mut reached = Reached::default();
    reached.follow(&tree, &entries(&tree, "# entries\ncrates/high/src/lib.rt look\n").unwrap()).unwrap();
    assert_eq!(names(&tree, &reached, Kind::Function), ["look"]);
    assert_eq!(names(&tree, &reached, Kind::Type), ["Answer"]);
    assert_eq!(names(&tree, &reached, Kind::Definition), ["twice", "Found", "told"]);
    assert_eq!(count(&tree, &reached, Kind::Definition), Count { declarations: 3, lines: 10, files: 1 });
    let apart = "crates/low/specs/Definitions.antt:20: Apart stands right in specs/, and nothing promised leads to it";
    assert_eq!(faults(&tree, &reached), [apart]);
}

#[test]
fn from_a_law_by_its_statement() {
    let tree = small();
    let mut reached = Reached::default();
    reached.follow(&tree, &promised(&tree, "the `law` of `nothing`")).unwrap();
    assert_eq!(names(&tree, &reached, Kind::Definition), ["twice", "Found", "told", "Held"]);
    assert_eq!(faults(&tree, &reached)[1..], ["crates/low/proofs/Laws/Laws.antt:5: Held stands in Laws/"]);
}

#[test]
fn one_name_twice() {
    let mut tree = Tree::default();
    tree.add("crates/low/specs/One.antt", "abbrev pub one : ℕ\none = 1\n");
    tree.add("crates/high/specs/Laws/One.antt", "abbrev pub one : ℕ\none = 2\n\nabbrev two : ℕ\ntwo = 2\n");
    tree.add("crates/high/specs/Laws/Two.antt", "abbrev two : ℕ\ntwo = 2\n\npub one : ℕ\none = 2\n");
    let mut reached = Reached::default();
    reached.follow(&tree, &[(0, 0)]).unwrap();
    let expected = "crates/high/specs/Laws/One.antt:1: one has the name of crates/low/specs/One.antt:1";
    assert_eq!(faults(&tree, &reached), [expected]);
}

#[test]
fn count_as_quoted() {
    let contracts = Count { declarations: 2, lines: 1000, files: 1 };
    let all = Count { declarations: 3, lines: 12_034, files: 2 };
    let sentence =
        "3 definitions, 12,034 lines in 2 files (2 of them, 1,000 lines, from the contracts of the entry points alone)";
    assert_eq!(all.quoted(&contracts), sentence);
}

#[test]
fn among_laws() {
    let mut tree = Tree::default();
    let text = "abbrev pub one : ℕ\none = shut\n\nshut : ℕ\nshut = two\n\nabbrev two : ℕ\ntwo = 1\n";
    tree.add("crates/low/specs/Mixed.antt", text);
    let mut reached = Reached::default();
    reached.follow(&tree, &promised(&tree, "`one`")).unwrap();
    let expected =
        ["1: one stands among laws (1)", "4: shut is neither abbrev nor unfoldable", "7: two stands among laws (1)"];
    assert_eq!(faults(&tree, &reached), expected.map(|fault| format!("crates/low/specs/Mixed.antt:{fault}")));
}

#[test]
fn what_is_nowhere() {
    let mut tree = small();
    assert_eq!(
        entries(&tree, "crates/high/src/lib.rt missing").unwrap_err(),
        "no entry point 'crates/high/src/lib.rt missing'"
    );
    tree.add(
        "crates/low/specs/Lost.antt",
        "use Rattle.low.specs.Definitions.{gone}\n\nabbrev pub lost : ℕ\nlost = gone\n",
    );
    let followed = Reached::default().follow(&tree, &promised(&tree, "`lost`"));
    let message = "crates/low/specs/Lost.antt: 'Rattle.low.specs.Definitions.gone' is nowhere";
    assert_eq!(followed.unwrap_err(), message);
}
