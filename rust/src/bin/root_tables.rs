//! Writes the crates of root powers, crates/roots_*: for each pair of modulus and root a table, in each crate a function that hands
//! out the one that is asked for, whose contract says that these are the powers of the root, and the proof of it. With `--check` it
//! writes nothing, and fails where a file differs from what it would write.
//! It is run from the repository's root.

use comparison::parameters::{powers, set, Set};
use std::path::{Path, PathBuf};

const LEVELS: [&str; 6] = ["toy64", "lite96", "std128", "med160", "hi192", "super256"];
const ORDINALS: [&str; 3] = ["first", "second", "third"];
const LONGEST_LINE: usize = 99;

const TABLE: &str = "
// The powers of ROOT modulo MODULUS.
static POWERS_NAME: [u32; SIZE] = [ENTRIES];
";

const BENCH: &str = "\
// The powers of the roots of set 0. Written by root_tables, not by hand.
#![tactic(auto)]

ghost use Rattle.std.specs.Prelude.{◌≡◌};
ghost use Rattle.maths.specs.Root.{power_table};
TABLES
// The powers of the root of set 0, of which it has one.
pub fn powers() -> &'static [u32]
    ensures { result.now ≡ power_table MODULUS ROOT SIZE }
{
    &POWERS_NAME
}
";

const BENCH_PROOF: &str = "\
-- The table passes the test of recurrence, so it holds the powers of its root. Written by root_tables, not by hand.
-- Assumes nothing.
use mathlib.Core.Path.{refl}
use lib.Dec.{lit<}
use Rattle.maths.specs.Root.{continues, is_power_table}
use Rattle.maths.proofs.PowerTable.{power_table_lem}
use Rattle.roots_bench.proofs.powers.Goals as goal

pub returns : goal.returns
unfolding continues is_power_table
returns c = power_table_lem MODULUS ROOT SIZE _ (lit< tt) refl
";

const LEVEL: &str = "\
// The powers of the roots of sets ENCRYPTION and EXCHANGE. Written by root_tables, not by hand.
#![tactic(auto)]

ghost use Rattle.std.specs.Prelude.{◌≡◌, ◌⊎◌};
ghost use Rattle.sets.specs.Table.{set_of};
ghost use Rattle.sets.specs.Derived.{root_powers};
TABLES
// The powers of root number i of set ENCRYPTION or EXCHANGE.
pub fn powers(set: usize, i: usize) -> &'static [u32]
    requires { (set ≡ ENCRYPTION) ⊎ (set ≡ EXCHANGE) }
    ensures { result.now ≡ root_powers (set_of set) i }
{
    match MATCHED {
ARMS    }
}
";

const LEVEL_PROOF: &str = "\
-- Each table passes the test of recurrence, so it holds the powers of its root. Written by root_tables, not by hand.
-- Assumes nothing.
use mathlib.Core.Path.{◌≡◌, refl, sym, ap, ◌∙◌}
use mathlib.Core.List.{List}
use mathlib.Core.Logic.{◌⊎◌, inl, inr}
FALSEuse Prim.Native.Nat.{ℕ}
TACTICuse lib.Dec.{lit<}
use Rattle.maths.specs.Root.{continues, is_power_table}
use Rattle.maths.proofs.PowerTable.{power_table_lem}
use Rattle.sets.specs.Table.{none, table, set_of}
use Rattle.sets.specs.Derived.{UNFOLDEDroot_powers}
use Rattle.sets.proofs.Transforms.{powers_first, powers_second, powers_third}
use Rattle.CRATE.proofs.powers.Goals as goal
";

const SERVED: &str = "
module _ {set k : ℕ} (i : ℕ) (e : set ≡ k) where
  -- the powers of set k are those of the set that is asked for
  served : {out : List ℕ} → out ≡ root_powers (set_of k) i → out ≡ root_powers (set_of set) i
  served h = h ∙ sym (ap (λ (s : ℕ). root_powers (set_of s) i) e)
";

const OTHER: &str = "
-- a set that is not the first of the two is the second
other : {set a b : ℕ} → (set ≡ a) ⊎ (set ≡ b) → (set ≡ a → ⊥) → set ≡ b
other (inl e) n = absurd (n e)
other (inr e) n = e
";

const EITHER: &str = "
-- both sets have the same roots
same : (i : ℕ) → root_powers (set_of ENCRYPTION) i ≡ root_powers (set_of EXCHANGE) i
unfolding none table set_of transform_size_of transform_root root_powers
same i = refl

either : {set : ℕ} (i : ℕ) → (set ≡ ENCRYPTION) ⊎ (set ≡ EXCHANGE)
    → {out : List ℕ} → out ≡ root_powers (set_of ENCRYPTION) i → out ≡ root_powers (set_of set) i
either i (inl e) h = served i e h
either i (inr e) h = served i e (h ∙ same i)
";

const ANSWER: &str = "
pub returns-POINT : goal.returns-POINT
unfolding continues is_power_table none table set_of
returns-POINT c =
    OF_SET
    (power_table_lem MODULUS ROOT SIZE _ (lit< tt) refl ∙ sym (powers_ORDINAL (set_of OWNER) c.args.i NUMBER_FACT))
";

/// A file of the repository and its text.
struct Generated {
    path: PathBuf,
    text: String,
}

/// A template with each word in capitals replaced by its value.
fn fill(template: &str, words: &[(&str, String)]) -> String {
    words.iter().fold(template.to_string(), |text, (word, value)| text.replace(word, value))
}

/// The entries of a table: a short one stays on the line of its name, a long one fills lines of its own.
fn entries(table: &[u64]) -> String {
    let numbers: Vec<String> = table.iter().map(u64::to_string).collect();
    if numbers.len() < 8 {
        return numbers.join(", ");
    }
    format!("\n{}\n", lines(&numbers).join("\n"))
}

/// The numbers in indented lines, each with as many as fit, and a comma after every number.
fn lines(numbers: &[String]) -> Vec<String> {
    let mut all: Vec<String> = Vec::new();
    for number in numbers {
        match all.last_mut() {
            Some(line) if line.len() + number.len() + 2 <= LONGEST_LINE => *line += &format!(" {number},"),
            _ => all.push(format!("    {number},")),
        }
    }
    all
}

/// What the templates say of root number i + 1 of a set.
fn words(s: &Set, i: usize) -> Vec<(&'static str, String)> {
    vec![
        ("POWERS_NAME", format!("POWERS{}_{}", s.number, ORDINALS[i].to_uppercase())),
        ("OWNER", s.number.to_string()),
        ("ORDINAL", ORDINALS[i].to_string()),
        ("MODULUS", s.q.to_string()),
        ("ROOT", s.roots[i].to_string()),
        ("SIZE", s.sizes[i].to_string()),
        ("ENTRIES", entries(&powers(s.q, s.roots[i], s.sizes[i]))),
    ]
}

/// The source and the proof of a crate.
fn written(crate_name: &str, source: String, proof: String) -> [Generated; 2] {
    let folder = Path::new("crates").join(crate_name);
    [
        Generated { path: folder.join("src/lib.rt"), text: source },
        Generated { path: folder.join("proofs/powers/Answers.antt"), text: proof },
    ]
}

/// The crate of Bench: one table, since its three roots are one.
fn bench() -> [Generated; 2] {
    let w = words(&set(0).unwrap(), 0);
    let source = fill(&BENCH.replace("TABLES", TABLE), &w);
    written("roots_bench", source, fill(BENCH_PROOF, &w))
}

/// An arm of the match on a set and a number: its pattern, the name of the point where it returns, and what says its set and its number.
struct Arm {
    pattern: String,
    point: String,
    of_set: String,
    number_fact: String,
}

/// Both sets of a level have the same roots, so that the match is on the number alone.
fn shared_arm(i: usize) -> Arm {
    let (pattern, point, number_fact) = match i {
        2 => ("_".to_string(), "in_default".to_string(), "(λ e. omega arith) (λ e. omega arith)".to_string()),
        _ => ((i + 1).to_string(), format!("in-{}", i + 1), format!("c.in-{}.is", i + 1)),
    };
    Arm { pattern, point, of_set: "either c.args.i c.requires".to_string(), number_fact }
}

/// The arm of root number i + 1 of the first or the second set of a level.
fn own_arm(first: bool, number: usize, i: usize) -> Arm {
    let set = if first { number.to_string() } else { "_".to_string() };
    let root = if i == 2 { "_".to_string() } else { (i + 1).to_string() };
    let pattern = if !first && i == 2 { "_".to_string() } else { format!("({set}, {root})") };
    let start = if first { format!("in-{number}") } else { "in_default".to_string() };
    let point = match i {
        2 if first => format!("{start}-default"),
        2 => start,
        _ => format!("{start}-eq{}", i + 1),
    };
    let set_fact = if first { format!("c.{point}.is-0") } else { format!("(other c.requires c.{point}.is-0.1)") };
    let number_fact = if i == 2 { format!("c.{point}.is-1.0.1 c.{point}.is-1.1") } else { format!("c.{point}.is-1") };
    Arm { pattern, point, of_set: format!("served c.args.i {set_fact}"), number_fact }
}

/// The crate of one security level: the tables of its encryption set and of its exchange set, which may share them.
fn level(i: usize) -> [Generated; 2] {
    let crate_name = format!("roots_{}", LEVELS[i]);
    let pair = [set(i + 1).unwrap(), set(i + 7).unwrap()];
    let shared = pair[0].q == pair[1].q && pair[0].roots == pair[1].roots;
    let owners = if shared { &pair[..1] } else { &pair[..] };
    let (mut tables, mut arms, mut answers) = (String::new(), String::new(), String::new());
    for (s, j) in owners.iter().flat_map(|s| (0..ORDINALS.len()).map(move |j| (s, j))) {
        let arm = if shared { shared_arm(j) } else { own_arm(*s == pair[0], s.number, j) };
        let mut w = words(s, j);
        w.extend([("POINT", arm.point), ("OF_SET", arm.of_set), ("NUMBER_FACT", arm.number_fact)]);
        tables += &fill(TABLE, &w);
        arms += &format!("        {} => &{},\n", arm.pattern, w[0].1);
        answers += &fill(ANSWER, &w);
    }
    let w = [
        ("CRATE", crate_name.clone()),
        ("ENCRYPTION", pair[0].number.to_string()),
        ("EXCHANGE", pair[1].number.to_string()),
        ("MATCHED", if shared { "i" } else { "(set, i)" }.to_string()),
        ("TABLES", tables),
        ("ARMS", arms),
        ("FALSE", if shared { "" } else { "use Prim.{⊥}\n" }.to_string()),
        ("TACTIC", if shared { "use native.Mathlib.Omega.{arith}\n" } else { "" }.to_string()),
        ("UNFOLDED", if shared { "transform_size_of, transform_root, " } else { "" }.to_string()),
    ];
    let lemmas = if shared { EITHER } else { OTHER };
    written(&crate_name, fill(LEVEL, &w), fill(&[LEVEL_PROOF, SERVED, lemmas, &answers].concat(), &w))
}

fn main() {
    let check = std::env::args().any(|word| word == "--check");
    let mut differ = 0;
    for file in bench().into_iter().chain((0..LEVELS.len()).flat_map(level)) {
        if check {
            if std::fs::read_to_string(&file.path).ok().as_deref() != Some(&file.text) {
                println!("{} is not what root_tables writes", file.path.display());
                differ += 1;
            }
        } else {
            std::fs::create_dir_all(file.path.parent().unwrap()).unwrap();
            std::fs::write(&file.path, &file.text).unwrap();
        }
    }
    if differ > 0 {
        std::process::exit(1);
    }
    println!("root tables: ok");
}
