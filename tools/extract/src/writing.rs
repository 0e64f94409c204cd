//! Writes a match that was read as a file of the checker's grammar.
//! A type with parameters is written once for each list of arguments, since the grammar has no parameters.
use crate::declared::{Form, World, STD};
use crate::left_out::Reason;
use crate::reading::{Piece, Read};
use crate::types::{Node, Shape, Types};
use crate::written::field_types;
use std::collections::{HashMap, HashSet, VecDeque};

pub struct Written {
    pub text: String,
    /// Whether the kind of an integer was chosen.
    pub guessed: bool,
}

/// Names that mean something else in a file.
const TAKEN: [&str; 3] = ["Opaque", "Option", "Result"];
const DEEPEST: usize = 48;
const MOST: usize = 400;

struct Writer<'a> {
    world: &'a World,
    types: Types,
    names: HashMap<(usize, String), String>,
    taken: HashSet<String>,
    /// The types that have a name and are not declared yet.
    open: VecDeque<(usize, Vec<Node>, String)>,
    has_opaque: bool,
    guessed: bool,
}

pub fn write(world: &World, read: Read) -> Result<Written, Reason> {
    let mut writer = Writer {
        world,
        types: read.types,
        names: HashMap::new(),
        taken: TAKEN.iter().map(|it| it.to_string()).collect(),
        open: VecDeque::new(),
        has_opaque: false,
        guessed: false,
    };
    let scrutinee = writer.type_text(read.scrutinee, 0)?;
    let mut arms = String::new();
    for arm in &read.arms {
        let pattern = writer.pattern_text(&arm.pattern)?;
        arms += &format!("        {pattern}{} => {{}}\n", if arm.is_guarded { " if crate::guard()" } else { "" });
    }
    let mut declarations = String::new();
    while let Some((number, args, name)) = writer.open.pop_front() {
        declarations += &writer.declaration(number, &args, &name)?;
    }
    let opaque = if writer.has_opaque { "struct Opaque;\n" } else { "" };
    let text = format!("{opaque}{declarations}fn matched(x: {scrutinee}) {{\n    match x {{\n{arms}    }}\n}}\n");
    Ok(Written { text, guessed: writer.guessed })
}

impl Writer<'_> {
    fn opaque(&mut self) -> String {
        self.has_opaque = true;
        "Opaque".into()
    }

    fn type_text(&mut self, node: Node, depth: usize) -> Result<String, Reason> {
        if depth > DEEPEST {
            return Err(Reason::TooManyTypes);
        }
        Ok(match self.types.shape(node) {
            Shape::Unknown | Shape::Same(_) | Shape::Opaque => self.opaque(),
            Shape::Never => "!".into(),
            Shape::Plain(name) => name.into(),
            Shape::Integer => {
                self.guessed = true;
                "i64".into()
            }
            Shape::Declared(number, args) => self.name_of(number, &args, depth)?,
            Shape::Tuple(parts) => match &self.all_texts(&parts, depth)?[..] {
                [one] => format!("({one},)"),
                texts => format!("({})", texts.join(", ")),
            },
            Shape::Slice(item) => format!("[{}]", self.type_text(item, depth + 1)?),
            Shape::Array(item, length) => format!("[{}; {length}]", self.type_text(item, depth + 1)?),
            Shape::Reference(is_mut, inner) => {
                format!("&'static {}{}", if is_mut { "mut " } else { "" }, self.type_text(inner, depth + 1)?)
            }
        })
    }

    fn all_texts(&mut self, nodes: &[Node], depth: usize) -> Result<Vec<String>, Reason> {
        nodes.iter().map(|node| self.type_text(*node, depth + 1)).collect()
    }

    /// Whether the grammar has the type itself: `Option` and `Result`.
    fn is_built_in(&self, number: usize) -> bool {
        let declared = &self.world.declared[number];
        declared.file == STD && TAKEN.contains(&declared.name.as_str())
    }

    /// The name of a type with arguments, which is declared later if it is new.
    fn name_of(&mut self, number: usize, args: &[Node], depth: usize) -> Result<String, Reason> {
        let texts = self.all_texts(args, depth)?.join(", ");
        let declared = &self.world.declared[number];
        if self.is_built_in(number) {
            return Ok(format!("{}<{texts}>", declared.name));
        }
        if let Some(name) = self.names.get(&(number, texts.clone())) {
            return Ok(name.clone());
        }
        if self.names.len() >= MOST {
            return Err(Reason::TooManyTypes);
        }
        let mut name = declared.name.clone();
        let mut count = 1;
        while !self.taken.insert(name.clone()) {
            count += 1;
            name = format!("{}{count}", declared.name);
        }
        self.names.insert((number, texts), name.clone());
        self.open.push_back((number, args.to_vec(), name.clone()));
        Ok(name)
    }

    fn pattern_text(&mut self, pieces: &[Piece]) -> Result<String, Reason> {
        let mut text = String::new();
        for piece in pieces {
            match piece {
                Piece::Text(it) => text += it,
                Piece::Variant(node, variant) => text += &self.variant_text(*node, *variant)?,
            }
        }
        Ok(text)
    }

    fn variant_text(&mut self, node: Node, variant: usize) -> Result<String, Reason> {
        let Shape::Declared(number, args) = self.types.shape(node) else { return Err(Reason::Misfit) };
        let declared = &self.world.declared[number];
        let variant = &declared.variants[variant].name;
        if self.is_built_in(number) {
            return Ok(variant.clone());
        }
        let name = self.name_of(number, &args, 0)?;
        Ok(if declared.is_enum { format!("{name}::{variant}") } else { name })
    }

    fn declaration(&mut self, number: usize, args: &[Node], name: &str) -> Result<String, Reason> {
        let declared = &self.world.declared[number];
        if declared.has_cfg {
            return Err(Reason::Cfg);
        }
        if !declared.is_enum {
            let fields = self.fields(number, args, 0)?;
            let end = if let Form::Braces(_) = declared.variants[0].form { "" } else { ";" };
            return Ok(format!("struct {name}{fields}{end}\n"));
        }
        let mut text = format!("enum {name} {{\n");
        for variant in 0..declared.variants.len() {
            let fields = self.fields(number, args, variant)?;
            text += &format!("    {}{fields},\n", declared.variants[variant].name);
        }
        Ok(text + "}\n")
    }

    /// The fields of a variant, with their brackets.
    fn fields(&mut self, number: usize, args: &[Node], variant: usize) -> Result<String, Reason> {
        let nodes = field_types(self.world, &mut self.types, number, args, variant);
        let texts = self.all_texts(&nodes, 0)?;
        Ok(match &self.world.declared[number].variants[variant].form {
            Form::Unit => String::new(),
            Form::Tuple(_) => format!("({})", texts.join(", ")),
            Form::Braces(fields) => {
                let named = fields.iter().zip(&texts).map(|((name, _), text)| format!("{name}: {text}"));
                format!(" {{ {} }}", named.collect::<Vec<_>>().join(", "))
            }
        })
    }
}
