//! The types of a match as far as its patterns and the declarations tell them.
use crate::left_out::Reason;

/// A type, by its number.
pub type Node = usize;

#[derive(Clone, Debug)]
pub enum Shape {
    Unknown,
    /// The same type as another one.
    Same(Node),
    /// A type into which no pattern can look.
    Opaque,
    Never,
    /// An integer of which nobody tells the kind.
    Integer,
    /// A type without parts, by its name.
    Plain(&'static str),
    /// An enum or a struct with its arguments.
    Declared(usize, Vec<Node>),
    Tuple(Vec<Node>),
    Slice(Node),
    Array(Node, String),
    /// A reference, and whether it is `&mut`.
    Reference(bool, Node),
}

const INTEGERS: [&str; 12] = ["u8", "u16", "u32", "u64", "u128", "usize", "i8", "i16", "i32", "i64", "i128", "isize"];
const OTHERS: [&str; 5] = ["bool", "char", "str", "f32", "f64"];

/// The type without parts of this name.
pub fn plain(name: &str) -> Option<Shape> {
    INTEGERS.iter().chain(&OTHERS).find(|it| **it == name).map(|it| Shape::Plain(it))
}

#[derive(Default)]
pub struct Types {
    shapes: Vec<Shape>,
}

impl Types {
    pub fn add(&mut self, shape: Shape) -> Node {
        self.shapes.push(shape);
        self.shapes.len() - 1
    }

    pub fn unknown(&mut self) -> Node {
        self.add(Shape::Unknown)
    }

    fn root(&self, mut node: Node) -> Node {
        while let Shape::Same(next) = self.shapes[node] {
            node = next;
        }
        node
    }

    pub fn shape(&self, node: Node) -> Shape {
        self.shapes[self.root(node)].clone()
    }

    /// The type behind all references.
    pub fn behind(&self, mut node: Node) -> Node {
        while let Shape::Reference(_, inner) = self.shapes[self.root(node)] {
            node = inner;
        }
        self.root(node)
    }

    /// Makes a type also that of a shape.
    pub fn join_shape(&mut self, node: Node, shape: Shape) -> Result<(), Reason> {
        let other = self.add(shape);
        self.join(node, other)
    }

    /// Makes two types one.
    pub fn join(&mut self, first: Node, second: Node) -> Result<(), Reason> {
        let (first, second) = (self.root(first), self.root(second));
        if first == second {
            return Ok(());
        }
        match (self.shapes[first].clone(), self.shapes[second].clone()) {
            (Shape::Unknown, _) => self.same(first, second),
            (_, Shape::Unknown) => self.same(second, first),
            (Shape::Integer, Shape::Plain(name)) if INTEGERS.contains(&name) => self.same(first, second),
            (Shape::Plain(name), Shape::Integer) if INTEGERS.contains(&name) => self.same(second, first),
            (Shape::Slice(one), Shape::Array(other, _)) => {
                self.join(one, other)?;
                self.same(first, second)
            }
            (Shape::Array(one, _), Shape::Slice(other)) => self.join(one, other),
            (one, other) => self.join_parts(one, other),
        }
    }

    fn same(&mut self, node: Node, other: Node) -> Result<(), Reason> {
        self.shapes[node] = Shape::Same(other);
        Ok(())
    }

    /// Makes the parts of two shapes one, if they are of one kind.
    fn join_parts(&mut self, first: Shape, second: Shape) -> Result<(), Reason> {
        match (first, second) {
            (Shape::Opaque, Shape::Opaque) | (Shape::Never, Shape::Never) | (Shape::Integer, Shape::Integer) => Ok(()),
            (Shape::Opaque, _) | (_, Shape::Opaque) => Err(Reason::LooksInside),
            (Shape::Plain(one), Shape::Plain(other)) if one == other => Ok(()),
            (Shape::Declared(one, args), Shape::Declared(other, others)) if one == other => self.join_all(args, others),
            (Shape::Tuple(parts), Shape::Tuple(others)) if parts.len() == others.len() => self.join_all(parts, others),
            (Shape::Slice(one), Shape::Slice(other)) | (Shape::Array(one, _), Shape::Array(other, _)) => {
                self.join(one, other)
            }
            (Shape::Reference(_, one), Shape::Reference(_, other)) => self.join(one, other),
            _ => Err(Reason::Misfit),
        }
    }

    fn join_all(&mut self, firsts: Vec<Node>, seconds: Vec<Node>) -> Result<(), Reason> {
        firsts.into_iter().zip(seconds).try_for_each(|(first, second)| self.join(first, second))
    }
}
