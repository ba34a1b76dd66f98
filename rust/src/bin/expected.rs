//! Writes what each program of crates/run_* must print, and what it reads, from this implementation and the vectors alone. With `--check` it
//! writes nothing, and fails where a file differs from what it would write. It is run from the repository's root.

use comparison::expected::script::Script;
use comparison::expected::store::Store;
use comparison::expected::{arithmetic, bytes, cases, damage_scheme, known, sheets, ties, whole};
use comparison::sheet::sheet;

/// The script of run_scheme.
fn run_scheme() -> Script {
    let mut store = Store::new();
    for part in [known::run, ties::run, cases::run, whole::run, sheets::run, damage_scheme::run] {
        part(&mut store);
    }
    store.script()
}

fn main() {
    let check = std::env::args().any(|word| word == "--check");
    let mut differs = false;
    let (bytes, arithmetic, scheme) = (bytes::script(), arithmetic::script(), run_scheme());
    let files = [
        ("run_bytes/stdin", bytes.commands.into_bytes()),
        ("run_bytes/stdout", bytes.text.into_bytes()),
        ("run_arithmetic/stdin", arithmetic.commands.into_bytes()),
        ("run_arithmetic/stdout", arithmetic.text.into_bytes()),
        ("run_scheme/stdin", scheme.commands.into_bytes()),
        ("run_scheme/stdout", scheme.text.into_bytes()),
        ("noisesheet/stdin", sheets::BENCH.to_vec()),
        ("noisesheet/stdout", sheet(&sheets::BENCH).into_bytes()),
    ];
    for (file, made) in files {
        let path = format!("crates/{file}");
        if !check {
            std::fs::write(&path, made).expect("the repository's root");
        } else if std::fs::read(&path).ok() != Some(made) {
            eprintln!("{path} is not what the comparison makes");
            differs = true;
        }
    }
    std::process::exit(differs as i32);
}
