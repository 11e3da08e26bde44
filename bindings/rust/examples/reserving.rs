//! What it costs to reserve by a preview: a text by `to_sql_bytes`, which tries a buffer first, beside a preview and a buffer of
//! just that length. Microseconds a call, the least of 31 rounds, the two in turn.
//!
//!     cargo run --offline --release --example reserving
use std::hint::black_box;
use std::time::Instant;
use wenduulig::{preview_sql_bytes, to_sql_bytes, to_sql_into, Op, Refusal, Settings, E};

const ROUNDS: usize = 31;

fn reserved(settings: &[u8], tree: &[u8]) -> Result<String, Refusal> {
    let mut out = vec![0; preview_sql_bytes(settings, tree, usize::MAX)?];
    to_sql_into(settings, tree, &mut out)?;
    Ok(String::from_utf8(out).expect("a text is UTF-8"))
}

fn filter() -> E {
    let stay = E::interval(E::id("entered"), E::id("exited"));
    let month = E::interval(E::date(2024, 1, 1), E::date(2024, 1, 31));
    E::dyadic(Op::And, E::dyadic(Op::Eq, E::id("label"), E::str("bolt")), E::dyadic(Op::TIntersects, stay, month))
}

/// Operands that are written twice at each level: a long text of a short tree.
fn doubled(levels: usize) -> E {
    (0..levels).fold(E::id("a"), |e, _| E::dyadic(Op::TEquals, e, E::interval(E::id("b"), E::id("c"))))
}

fn main() -> Result<(), Refusal> {
    let settings = Settings::default().encode();
    let list = |n| E::Array((0..n).map(|_| filter()).collect());
    println!("{:24} {:>6} {:>6} {:>8} {:>12} {:>6}", "", "tree", "text", "to_sql", "by preview", "ratio");
    for (name, e) in
        [("a filter", filter()), ("30 filters", list(30)), ("250 filters", list(250)), ("7 TEquals inside", doubled(7))]
    {
        let tree = e.encode();
        let text = to_sql_bytes(&settings, &tree)?;
        assert_eq!(reserved(&settings, &tree)?, text);
        let mut least = [f64::MAX; 2];
        let times = 1 + 500_000 / tree.len();
        for _ in 0..ROUNDS {
            for (side, call) in [to_sql_bytes, reserved].into_iter().enumerate() {
                let start = Instant::now();
                for _ in 0..times {
                    black_box(call(black_box(&settings), black_box(&tree))?);
                }
                least[side] = least[side].min(start.elapsed().as_secs_f64() * 1e6 / times as f64);
            }
        }
        let [tried, previewed] = least;
        let ratio = previewed / tried;
        println!("{name:24} {:6} {:6} {tried:8.2} {previewed:12.2} {ratio:6.2}", tree.len(), text.len());
    }
    Ok(())
}
