//! Random trees, encoded here and lowered by the proved call, against the Rust itself: the oracle of shared/oracle.
//! WENDUULIG_ORACLE names its program; tests/run builds it where ../shared is at hand. Without it cargo reports these tests
//! as ignored, each by its name.
mod random;

use random::Random;
use std::collections::BTreeSet;
use std::env;
use std::fs;
use std::io::Write;
use std::path::{Path, PathBuf};
use std::process::Command;
use wenduulig::{to_geopackage_sql, to_sql, Op, Refusal, Settings, E};

/// The oracle's program. A test that needs it and has none fails: without it these tests are not to be run.
fn oracle() -> PathBuf {
    let program =
        env::var_os("WENDUULIG_ORACLE").map(PathBuf::from).expect("WENDUULIG_ORACLE names the oracle's program");
    assert!(program.is_file(), "there is no program at {}", program.display());
    program
}

/// What the oracle answers to `lower` or `reduce`: a text, or a letter for a panic (P), an error (E) or bytes that it cannot
/// decode (D).
fn answers(program: &Path, what: &str, cases: &[(Settings, E)]) -> Vec<(u8, String)> {
    // The tests of this file run at once, each on a thread of its name.
    let name = std::thread::current().name().unwrap_or("main").to_owned();
    let folder = Path::new(env!("CARGO_TARGET_TMPDIR"));
    let (asked, told) = (folder.join(format!("{name}.cases")), folder.join(format!("{name}.answers")));
    let mut bytes = Vec::new();
    for part in cases.iter().flat_map(|(s, e)| [s.encode(), e.encode()]) {
        bytes.extend_from_slice(&u32::try_from(part.len()).expect("a small record").to_le_bytes());
        bytes.extend_from_slice(&part);
    }
    fs::write(&asked, bytes).expect("the cases' file");
    let run = Command::new(program).arg(what).arg(&asked).arg(&told).status().expect("the oracle");
    assert!(run.success());
    let data = fs::read(&told).expect("the answers' file");
    let mut rest = &data[..];
    let mut all = Vec::new();
    while let [letter, a, b, c, d, more @ ..] = rest {
        let (text, after) = more.split_at(u32::from_le_bytes([*a, *b, *c, *d]) as usize);
        all.push((*letter, String::from_utf8(text.to_vec()).expect("a text")));
        rest = after;
    }
    all
}

/// Each operator in turn as the root, then trees of any kind, at depths 0 to 5, and some inside 24 more levels.
fn cases(count: usize) -> Vec<(Settings, E)> {
    let mut r = Random::new(2026);
    let mut all = Vec::new();
    for k in 0..count {
        let depth = r.below(6);
        let mut e = if k % 2 == 0 { r.node(Op::ALL[k / 2 % 53], depth.min(3)) } else { r.tree(depth) };
        if k % 50 == 49 {
            for _ in 0..24 {
                e = match r.below(4) {
                    0 => E::monadic(Op::Neg, e),
                    1 => E::dyadic(Op::And, E::id("a"), e),
                    2 => E::Array(vec![e]),
                    _ => E::function("f", vec![E::Null, e]),
                };
            }
        }
        all.push((r.settings(), e));
    }
    all
}

/// Notes the kinds, operators and flags that stand in a tree.
fn note(seen: &mut BTreeSet<String>, e: &E) {
    let shown = format!("{e:?}");
    seen.extend(shown.split('(').next().map(str::to_owned));
    match e {
        E::Str(s) => {
            seen.insert(format!("flags {}", s.flags()));
        }
        E::Monadic(op, x) => {
            seen.insert(format!("{op:?}"));
            note(seen, x);
        }
        E::Dyadic(op, x, y) => {
            seen.insert(format!("{op:?}"));
            [x, y].into_iter().for_each(|x| note(seen, x));
        }
        E::Interval(x, y) => [x, y].into_iter().for_each(|x| note(seen, x)),
        E::Function(x) => x.params.iter().for_each(|x| note(seen, x)),
        E::Array(x) => x.iter().for_each(|x| note(seen, x)),
        _ => {}
    }
}

/// The text without the sign of a zero: `-0` that no digit and no point follows.
fn unsigned_zeros(text: &str) -> String {
    let mut parts = text.split("-0");
    let mut out = parts.next().unwrap_or_default().to_owned();
    for part in parts {
        let sign = if part.starts_with(|c: char| c == '.' || c.is_ascii_digit()) { "-" } else { "" };
        out += &format!("{sign}0{part}");
    }
    out
}

fn expect_all(seen: &BTreeSet<String>) {
    let kinds = "Null Unbounded Bool Num Str Date Timestamp Spatial Id Monadic Dyadic Function Array Interval";
    let flags = (0..4).map(|f| format!("flags {f}"));
    let ops = Op::ALL.into_iter().map(|op| format!("{op:?}"));
    for word in kinds.split(' ').map(str::to_owned).chain(flags).chain(ops) {
        assert!(seen.contains(&word), "no tree that was compared has {word}");
    }
}

#[test]
#[ignore = "WENDUULIG_ORACLE must name the oracle's program"]
fn random_trees_against_the_rust() {
    let program = oracle();
    let cases = cases(6000);
    let told = answers(&program, "lower", &cases);
    assert_eq!(told.len(), cases.len());
    let (mut compared, mut seen) = (0, BTreeSet::new());
    for ((settings, e), (letter, want)) in cases.iter().zip(told) {
        // None of these trees breaks a rule: names of their letters are no reserved word, and all are small.
        let text = to_sql(settings, e).unwrap_or_else(|r| panic!("{r}: {settings:?} {e:?}"));
        assert_eq!((letter, &text), (b'T', &want), "{settings:?} {e:?}");
        compared += 1;
        note(&mut seen, e);
    }
    writeln!(std::io::stderr(), "compared with the Rust: {compared} texts, none differs").ok();
    assert_eq!(compared, cases.len());
    expect_all(&seen);
}

/// The tree with a string in the place of each timestamp, as a GeoPackage stores it, and of each open end: the Rust's text of
/// this tree is the second call's of the other.
fn stored(e: &E) -> E {
    match e {
        E::Interval(x, y) if **y == E::Unbounded => E::interval(stored(x), E::str("A")),
        E::Timestamp(t) => {
            let (d, clock) = (t.date, format!("{:02}:{:02}:{:02}.000Z", t.hour, t.minute, t.second));
            E::str(format!("{:04}-{:02}-{:02}T{clock}", d.year, d.month, d.day))
        }
        E::Monadic(op, x) => E::monadic(*op, stored(x)),
        E::Dyadic(op, x, y) => E::dyadic(*op, stored(x), stored(y)),
        E::Interval(x, y) => E::interval(stored(x), stored(y)),
        E::Function(x) => E::function(x.name.clone(), x.params.iter().map(stored).collect()),
        E::Array(x) => E::Array(x.iter().map(stored).collect()),
        leaf => leaf.clone(),
    }
}

#[test]
#[ignore = "WENDUULIG_ORACLE must name the oracle's program"]
fn geopackage_texts_against_the_rust() {
    let program = oracle();
    let cases = cases(6000);
    let with_strings: Vec<(Settings, E)> = cases.iter().map(|(s, e)| (s.clone(), stored(e))).collect();
    let told = answers(&program, "lower", &with_strings);
    assert_eq!(told.len(), cases.len());
    let (mut others, mut ended) = (0, 0);
    for (((settings, e), (_, other)), (letter, want)) in cases.iter().zip(&with_strings).zip(told) {
        let text = to_geopackage_sql(settings, e).unwrap_or_else(|r| panic!("{r}: {settings:?} {e:?}"));
        assert_eq!((letter, &text), (b'T', &want), "{settings:?} {e:?}");
        others += usize::from(e != other);
        ended += usize::from(ends_open(e));
    }
    let told = format!("{others} trees with timestamps or open ends, {ended} with open ends");
    writeln!(std::io::stderr(), "compared with the Rust: {told}, none differs").ok();
    assert!(others > 1000 && ended > 500, "{told}");
}

/// Whether `..` is the second end of an interval in the tree.
fn ends_open(e: &E) -> bool {
    match e {
        E::Interval(x, y) => **y == E::Unbounded || ends_open(x) || ends_open(y),
        E::Monadic(_, x) => ends_open(x),
        E::Dyadic(_, x, y) => ends_open(x) || ends_open(y),
        E::Function(x) => x.params.iter().any(ends_open),
        E::Array(x) => x.iter().any(ends_open),
        _ => false,
    }
}

/// The Rust's own names and order of the operators.
#[test]
#[ignore = "WENDUULIG_ORACLE must name the oracle's program"]
fn operators_against_the_rust() {
    let program = oracle();
    let told = Command::new(program).arg("ops").output().expect("the oracle").stdout;
    let told = String::from_utf8(told).expect("a text");
    let theirs: Vec<&str> = told.lines().filter_map(|line| line.split('\t').nth(1)).collect();
    let ours: Vec<String> = Op::ALL.iter().map(|op| format!("{op:?}")).collect();
    assert_eq!(ours, theirs);
}

/// `E::reduce` of the source, then its text; a zero under Minus is `-0` there.
#[test]
#[ignore = "WENDUULIG_ORACLE must name the oracle's program"]
fn reduced_trees_against_the_rust() {
    let program = oracle();
    let cases = cases(6000);
    let (mut equal, mut zeros, mut changed, mut constants) = (0, 0, 0, 0);
    for ((settings, e), (letter, want)) in cases.iter().zip(answers(&program, "reduce", &cases)) {
        match e.reduce() {
            Err(refusal) => {
                assert_eq!(refusal, Refusal::ConstantOperands, "{e:?}");
                constants += 1;
            }
            Ok(reduced) => {
                let text = to_sql(settings, &reduced).unwrap_or_else(|r| panic!("{r}: {settings:?} {e:?}"));
                assert_eq!((letter, unsigned_zeros(&text)), (b'T', unsigned_zeros(&want)), "{settings:?} {e:?}");
                equal += usize::from(text == want);
                zeros += usize::from(text != want);
                changed += usize::from(&reduced != e);
            }
        }
    }
    writeln!(std::io::stderr(), "reduced as the Rust does: {equal} texts, {changed} trees changed, {zeros} with -0")
        .ok();
    assert!(equal > 3500 && changed > 500 && constants > 500, "{equal} {changed} {constants}");
}
