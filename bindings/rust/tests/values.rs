//! Trees as values: what the crate's own `Clone`, `==`, `Hash` and `Debug` say is what derived ones say of the same tree.
mod random;

use random::Random;
use std::collections::hash_map::DefaultHasher;
use std::hash::{Hash, Hasher};
use wenduulig::{Op, E};

/// The tree anew, with everything derived.
mod derived {
    use wenduulig::{Date, Num, Op, QString, Timestamp, G};

    #[derive(Clone, Debug, PartialEq)]
    #[allow(dead_code)]
    pub enum E {
        Null,
        Unbounded,
        Bool(bool),
        Num(Num),
        Str(QString),
        Date(Date),
        Timestamp(Timestamp),
        Spatial(G),
        Id(String),
        Monadic(Op, Box<E>),
        Dyadic(Op, Box<E>, Box<E>),
        Function(Call),
        Array(Vec<E>),
        Interval(Box<E>, Box<E>),
    }

    #[derive(Clone, Debug, PartialEq)]
    pub struct Call {
        pub name: String,
        pub params: Vec<E>,
    }
}

fn mirror(e: &E) -> derived::E {
    let boxed = |x: &E| Box::new(mirror(x));
    match e {
        E::Null => derived::E::Null,
        E::Unbounded => derived::E::Unbounded,
        E::Bool(x) => derived::E::Bool(*x),
        E::Num(x) => derived::E::Num(*x),
        E::Str(x) => derived::E::Str(x.clone()),
        E::Date(x) => derived::E::Date(*x),
        E::Timestamp(x) => derived::E::Timestamp(*x),
        E::Spatial(x) => derived::E::Spatial(x.clone()),
        E::Id(x) => derived::E::Id(x.clone()),
        E::Monadic(op, x) => derived::E::Monadic(*op, boxed(x)),
        E::Dyadic(op, x, y) => derived::E::Dyadic(*op, boxed(x), boxed(y)),
        E::Function(x) => {
            derived::E::Function(derived::Call { name: x.name.clone(), params: x.params.iter().map(mirror).collect() })
        }
        E::Array(x) => derived::E::Array(x.iter().map(mirror).collect()),
        E::Interval(x, y) => derived::E::Interval(boxed(x), boxed(y)),
    }
}

fn trees(count: usize) -> Vec<E> {
    let mut r = Random::new(7);
    let mut all = vec![E::Null, E::Array(vec![]), E::function("f", vec![]), E::str("two\nlines")];
    all.extend((0..count).map(|k| if k % 2 == 0 { r.tree(k % 5) } else { r.node(Op::ALL[k % 53], k % 4) }));
    all
}

fn hashed(e: &E) -> u64 {
    let mut hasher = DefaultHasher::new();
    e.hash(&mut hasher);
    hasher.finish()
}

#[test]
fn shown_as_derived() {
    for e in trees(3000) {
        let same = mirror(&e);
        assert_eq!(format!("{e:?}"), format!("{same:?}"));
        assert_eq!(format!("{e:#?}"), format!("{same:#?}"));
        assert_eq!(format!("{:?}", Some(&e)), format!("{:?}", Some(&same)));
        assert_eq!(format!("{:#?}", [&e]), format!("{:#?}", [&same]));
    }
}

#[test]
fn copied_and_compared_as_derived() {
    let all = trees(300);
    let mirrors: Vec<derived::E> = all.iter().map(mirror).collect();
    for (e, same) in all.iter().zip(&mirrors) {
        let copy = e.clone();
        assert_eq!(&mirror(&copy), same);
        assert_eq!((&copy, hashed(&copy)), (e, hashed(e)));
        for (other, mirrored) in all.iter().zip(&mirrors) {
            assert_eq!(e == other, same == mirrored, "{e:?} {other:?}");
            assert!(e != other || hashed(e) == hashed(other));
        }
    }
}
