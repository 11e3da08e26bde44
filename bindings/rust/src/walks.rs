//! `Clone`, `==`, `Hash` and `Debug` of a tree, each over a list instead of the stack: a tree of any depth is a value like
//! any other. They say what the derived ones would say.
use crate::expr::{Call, E};
use std::fmt::{self, Debug, Write};
use std::hash::{Hash, Hasher};

/// What is left to copy: a tree, or a node whose children are copied.
enum Step<'a> {
    Begin(&'a E),
    End(&'a E),
}

impl Clone for E {
    fn clone(&self) -> E {
        let mut open = vec![Step::Begin(self)];
        let mut done: Vec<E> = Vec::new();
        while let Some(step) = open.pop() {
            match step {
                Step::Begin(e) => {
                    open.push(Step::End(e));
                    open.extend(e.children().map(Step::Begin));
                }
                Step::End(e) => {
                    let first = done.len() - e.children().count();
                    let copy = e.with_children(&mut done.drain(first..));
                    done.push(copy);
                }
            }
        }
        done.pop().unwrap_or_default()
    }
}

impl E {
    /// The same node over other children, as many as it has.
    fn with_children(&self, children: &mut dyn Iterator<Item = E>) -> E {
        let mut next = || Box::new(children.next().unwrap_or_default());
        match self {
            E::Null => E::Null,
            E::Unbounded => E::Unbounded,
            E::Bool(x) => E::Bool(*x),
            E::Num(x) => E::Num(*x),
            E::Str(x) => E::Str(x.clone()),
            E::Date(x) => E::Date(*x),
            E::Timestamp(x) => E::Timestamp(*x),
            E::Spatial(x) => E::Spatial(x.clone()),
            E::Id(x) => E::Id(x.clone()),
            E::Monadic(op, _) => E::Monadic(*op, next()),
            E::Dyadic(op, ..) => E::Dyadic(*op, next(), next()),
            E::Function(x) => E::Function(Call { name: x.name.clone(), params: children.collect() }),
            E::Array(_) => E::Array(children.collect()),
            E::Interval(..) => E::Interval(next(), next()),
        }
    }

    /// Whether two nodes are the same but for what their children are.
    fn same_node(&self, other: &E) -> bool {
        match (self, other) {
            (E::Null, E::Null) | (E::Unbounded, E::Unbounded) | (E::Interval(..), E::Interval(..)) => true,
            (E::Bool(x), E::Bool(y)) => x == y,
            (E::Num(x), E::Num(y)) => x == y,
            (E::Str(x), E::Str(y)) => x == y,
            (E::Date(x), E::Date(y)) => x == y,
            (E::Timestamp(x), E::Timestamp(y)) => x == y,
            (E::Spatial(x), E::Spatial(y)) => x == y,
            (E::Id(x), E::Id(y)) => x == y,
            (E::Monadic(x, _), E::Monadic(y, _)) | (E::Dyadic(x, ..), E::Dyadic(y, ..)) => x == y,
            (E::Function(x), E::Function(y)) => x.name == y.name && x.params.len() == y.params.len(),
            (E::Array(x), E::Array(y)) => x.len() == y.len(),
            _ => false,
        }
    }

    fn hash_node<H: Hasher>(&self, state: &mut H) {
        self.kind().hash(state);
        match self {
            E::Null | E::Unbounded | E::Interval(..) => {}
            E::Bool(x) => x.hash(state),
            E::Num(x) => x.hash(state),
            E::Str(x) => x.hash(state),
            E::Date(x) => x.hash(state),
            E::Timestamp(x) => x.hash(state),
            E::Spatial(x) => x.hash(state),
            E::Id(x) => x.hash(state),
            E::Monadic(op, _) | E::Dyadic(op, ..) => op.hash(state),
            E::Function(x) => (&x.name, x.params.len()).hash(state),
            E::Array(x) => x.len().hash(state),
        }
    }
}

impl PartialEq for E {
    fn eq(&self, other: &E) -> bool {
        let mut open = vec![(self, other)];
        while let Some((x, y)) = open.pop() {
            if !x.same_node(y) {
                return false;
            }
            open.extend(x.children().zip(y.children()));
        }
        true
    }
}

impl Eq for E {}

impl Hash for E {
    fn hash<H: Hasher>(&self, state: &mut H) {
        let mut open = vec![self];
        while let Some(e) = open.pop() {
            e.hash_node(state);
            open.extend(e.children());
        }
    }
}

/// What is left to show: items inside brackets. A group is open from `Open` to `Close`.
enum Part<'a> {
    Tree(&'a E),
    Value(&'a dyn Debug),
    Word(&'static str),
    Open(&'static str),
    Item(&'static str),
    Close(char),
}

/// How far the showing is: for each open group the items that it has.
struct Shown {
    pretty: bool,
    groups: Vec<usize>,
}

impl Shown {
    fn line(&self, f: &mut fmt::Formatter<'_>, depth: usize) -> fmt::Result {
        f.write_char('\n')?;
        (0..depth).try_for_each(|_| f.write_str("    "))
    }

    fn open(&mut self, f: &mut fmt::Formatter<'_>, words: &str) -> fmt::Result {
        self.groups.push(0);
        f.write_str(words)
    }

    /// What stands before an item: a comma but for the first, a new line where it is wanted, and the item's name.
    fn item(&mut self, f: &mut fmt::Formatter<'_>, name: &str) -> fmt::Result {
        let depth = self.groups.len();
        let Some(count) = self.groups.last_mut() else {
            return Ok(());
        };
        let first = *count == 0;
        *count += 1;
        if !first {
            f.write_char(',')?;
        }
        if self.pretty {
            self.line(f, depth)?;
        } else if !first || !name.is_empty() {
            f.write_char(' ')?;
        }
        f.write_str(name)
    }

    fn close(&mut self, f: &mut fmt::Formatter<'_>, mark: char) -> fmt::Result {
        let count = self.groups.pop().unwrap_or(0);
        if self.pretty && count > 0 {
            f.write_char(',')?;
            self.line(f, self.groups.len())?;
        } else if mark == '}' {
            f.write_char(' ')?;
        }
        f.write_char(mark)
    }

    fn value(&self, f: &mut fmt::Formatter<'_>, value: &dyn Debug) -> fmt::Result {
        if !self.pretty {
            return value.fmt(f);
        }
        for (k, line) in format!("{value:#?}").split('\n').enumerate() {
            if k > 0 {
                self.line(f, self.groups.len())?;
            }
            f.write_str(line)?;
        }
        Ok(())
    }
}

impl Debug for E {
    fn fmt(&self, f: &mut fmt::Formatter<'_>) -> fmt::Result {
        let mut shown = Shown { pretty: f.alternate(), groups: Vec::new() };
        let mut open = vec![Part::Tree(self)];
        while let Some(part) = open.pop() {
            match part {
                Part::Tree(e) => {
                    let from = open.len();
                    e.parts(&mut open);
                    open[from..].reverse();
                }
                Part::Value(x) => shown.value(f, x)?,
                Part::Word(word) => f.write_str(word)?,
                Part::Open(words) => shown.open(f, words)?,
                Part::Item(name) => shown.item(f, name)?,
                Part::Close(mark) => shown.close(f, mark)?,
            }
        }
        Ok(())
    }
}

impl E {
    /// The parts of a node's showing, in order.
    fn parts<'a>(&'a self, out: &mut Vec<Part<'a>>) {
        let (words, value): (&'static str, Option<&dyn Debug>) = match self {
            E::Null => return out.push(Part::Word("Null")),
            E::Unbounded => return out.push(Part::Word("Unbounded")),
            E::Bool(x) => ("Bool(", Some(x)),
            E::Num(x) => ("Num(", Some(x)),
            E::Str(x) => ("Str(", Some(x)),
            E::Date(x) => ("Date(", Some(x)),
            E::Timestamp(x) => ("Timestamp(", Some(x)),
            E::Spatial(x) => ("Spatial(", Some(x)),
            E::Id(x) => ("Id(", Some(x)),
            E::Monadic(op, _) => ("Monadic(", Some(op)),
            E::Dyadic(op, ..) => ("Dyadic(", Some(op)),
            E::Function(_) => ("Function(", None),
            E::Array(_) => ("Array(", None),
            E::Interval(..) => ("Interval(", None),
        };
        out.push(Part::Open(words));
        out.extend(value.into_iter().flat_map(|x| [Part::Item(""), Part::Value(x)]));
        match self {
            E::Monadic(_, x) => out.extend([Part::Item(""), Part::Tree(x)]),
            E::Dyadic(_, x, y) | E::Interval(x, y) => {
                out.extend([x, y].into_iter().flat_map(|x| [Part::Item(""), Part::Tree(x)]))
            }
            E::Array(x) => list(x, Part::Item(""), out),
            E::Function(x) => {
                out.extend([Part::Item(""), Part::Open("Call {"), Part::Item("name: "), Part::Value(&x.name)]);
                list(&x.params, Part::Item("params: "), out);
                out.push(Part::Close('}'));
            }
            _ => {}
        }
        out.push(Part::Close(')'));
    }
}

/// A list in square brackets, as an item of the group around it.
fn list<'a>(items: &'a [E], before: Part<'a>, out: &mut Vec<Part<'a>>) {
    out.extend([before, Part::Open("[")]);
    out.extend(items.iter().flat_map(|x| [Part::Item(""), Part::Tree(x)]));
    out.push(Part::Close(']'));
}
