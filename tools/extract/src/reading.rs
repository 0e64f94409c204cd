//! Reads the patterns of a match: each as text for the checker, with what it tells of the scrutinee's type.
use crate::declared::{has_cfg, Form, World};
use crate::left_out::Reason;
use crate::resolving::{is_constant, names_of, Found};
use crate::types::{plain, Node, Shape, Types};
use crate::written::{field_types, type_of};
use quote::ToTokens;
use std::collections::HashMap;

/// A part of a pattern's text. The name of a variant waits until its type has one.
#[derive(Clone)]
pub enum Piece {
    Text(String),
    Variant(Node, usize),
}

pub struct Arm {
    pub pattern: Vec<Piece>,
    pub is_guarded: bool,
}

/// A match as it was read.
pub struct Read {
    pub scrutinee: Node,
    pub arms: Vec<Arm>,
    pub types: Types,
}

type Items = syn::punctuated::Punctuated<syn::Pat, syn::Token![,]>;

struct Reader<'a> {
    world: &'a World,
    file: usize,
    owner: Option<String>,
    types: Types,
    /// The text of the pattern so far.
    text: Vec<Piece>,
}

pub fn read(world: &World, file: usize, owner: Option<String>, found: &syn::ExprMatch) -> Result<Read, Reason> {
    let mut reader = Reader { world, file, owner, types: Types::default(), text: vec![] };
    let scrutinee = reader.types.unknown();
    reader.read_self(&found.expr, scrutinee);
    // A pattern with `&` says more of a type than one that looks through references.
    let mut order: Vec<usize> = (0..found.arms.len()).collect();
    order.sort_by_key(|it| !has_reference(&found.arms[*it].pat));
    let mut patterns = vec![vec![]; found.arms.len()];
    for number in order {
        let arm = &found.arms[number];
        if has_cfg(&arm.attrs) {
            return Err(Reason::Cfg);
        }
        reader.pattern(&arm.pat, scrutinee)?;
        patterns[number] = std::mem::take(&mut reader.text);
    }
    let arms = patterns.into_iter().zip(&found.arms);
    let arms = arms.map(|(pattern, arm)| Arm { pattern, is_guarded: arm.guard.is_some() }).collect();
    match reader.types.shape(scrutinee) {
        Shape::Unknown | Shape::Opaque if found.arms.is_empty() => Err(Reason::NoType),
        _ => Ok(Read { scrutinee, arms, types: reader.types }),
    }
}

/// Whether a pattern has an `&` somewhere.
fn has_reference(pattern: &syn::Pat) -> bool {
    struct Finder(bool);
    impl<'ast> syn::visit::Visit<'ast> for Finder {
        fn visit_pat_reference(&mut self, _: &'ast syn::PatReference) {
            self.0 = true;
        }
    }
    let mut finder = Finder(false);
    syn::visit::Visit::visit_pat(&mut finder, pattern);
    finder.0
}

impl<'a> Reader<'a> {
    fn write(&mut self, text: &str) {
        self.text.push(Piece::Text(text.to_string()));
    }

    /// Where `self` is matched, the type is that of the `impl`.
    fn read_self(&mut self, scrutinee: &syn::Expr, node: Node) {
        let inner = match scrutinee {
            syn::Expr::Unary(syn::ExprUnary { op: syn::UnOp::Deref(_), expr, .. }) => expr,
            other => other,
        };
        let syn::Expr::Path(path) = inner else { return };
        if !path.path.is_ident("self") {
            return;
        }
        if let Some(number) = self.owner.clone().and_then(|name| self.world.type_at(self.file, &[name]).ok()) {
            let shape = self.declared(number);
            let _ = self.types.join_shape(node, shape);
        }
    }

    /// A declared type with arguments that nobody told yet.
    fn declared(&mut self, number: usize) -> Shape {
        let args = self.world.declared[number].params.iter().map(|_| self.types.unknown()).collect();
        Shape::Declared(number, args)
    }

    fn pattern(&mut self, pattern: &syn::Pat, node: Node) -> Result<(), Reason> {
        match pattern {
            syn::Pat::Wild(_) => self.write("_"),
            syn::Pat::Rest(_) => self.write(".."),
            syn::Pat::Ident(it) => self.name(it, node)?,
            syn::Pat::Path(it) if it.qself.is_none() => self.path(&it.path, node)?,
            syn::Pat::TupleStruct(it) => self.tuple_variant(it, node)?,
            syn::Pat::Struct(it) => self.brace_variant(it, node)?,
            syn::Pat::Lit(it) => self.literal(&it.expr, node)?,
            syn::Pat::Range(it) => self.range(Some(&it.lo), &it.limits, Some(&it.hi), node)?,
            syn::Pat::Verbatim(it) => self.half_open(it, node)?,
            syn::Pat::Or(it) => self.alternatives(it, node)?,
            syn::Pat::Tuple(it) => self.tuple(it, node)?,
            syn::Pat::Reference(it) => self.reference(it, node)?,
            syn::Pat::Slice(it) => self.slice(it, node)?,
            syn::Pat::Macro(_) => return Err(Reason::Macro),
            _ => return Err(Reason::OtherPattern),
        }
        Ok(())
    }

    /// A binding, or a name alone that stands for a variant, a struct or a constant.
    fn name(&mut self, it: &syn::PatIdent, node: Node) -> Result<(), Reason> {
        let name = it.ident.to_string();
        if it.by_ref.is_none() && it.mutability.is_none() && it.subpat.is_none() {
            match self.world.find(self.file, self.owner.as_deref(), &[name.clone()]) {
                Ok(Found::Variant(number, variant)) if self.has_no_braces(number, variant) => {
                    return self.variant(number, variant, node).map(|_| ());
                }
                Ok(Found::Constant(file, written, value)) => return self.constant(file, written, value, node),
                Err(Reason::DeclaredTwice) => return Err(Reason::DeclaredTwice),
                _ if is_constant(&name) && name.len() > 1 => return Err(Reason::Constant),
                _ if name.starts_with(char::is_uppercase) => return Err(Reason::ForeignType),
                _ => {}
            }
        }
        self.binding(it);
        match &it.subpat {
            None => Ok(()),
            Some((_, inner)) => {
                self.write(" @ ");
                self.pattern(inner, node)
            }
        }
    }

    fn has_no_braces(&self, number: usize, variant: usize) -> bool {
        !matches!(self.world.declared[number].variants[variant].form, Form::Braces(_))
    }

    fn binding(&mut self, it: &syn::PatIdent) {
        let by_ref = if it.by_ref.is_some() { "ref " } else { "" };
        let is_mut = if it.mutability.is_some() { "mut " } else { "" };
        self.write(&format!("{by_ref}{is_mut}{}", it.ident));
    }

    fn path(&mut self, path: &syn::Path, node: Node) -> Result<(), Reason> {
        match self.world.find(self.file, self.owner.as_deref(), &names_of(path))? {
            Found::Variant(number, variant) => self.variant(number, variant, node).map(|_| ()),
            Found::Constant(file, written, value) => self.constant(file, written, value, node),
        }
    }

    /// The variant or struct that a path has to stand for.
    fn variant_at(&self, path: &syn::Path) -> Result<(usize, usize), Reason> {
        match self.world.find(self.file, self.owner.as_deref(), &names_of(path))? {
            Found::Variant(number, variant) => Ok((number, variant)),
            Found::Constant(..) => Err(Reason::Misfit),
        }
    }

    /// Writes the name of a variant or struct, and gives the types of its fields.
    fn variant(&mut self, number: usize, variant: usize, node: Node) -> Result<Vec<Node>, Reason> {
        let behind = self.types.behind(node);
        let shape = self.declared(number);
        self.types.join_shape(behind, shape)?;
        self.text.push(Piece::Variant(behind, variant));
        let Shape::Declared(_, args) = self.types.shape(behind) else { return Err(Reason::Misfit) };
        Ok(field_types(self.world, &mut self.types, number, &args, variant))
    }

    fn tuple_variant(&mut self, it: &syn::PatTupleStruct, node: Node) -> Result<(), Reason> {
        let (number, variant) = self.variant_at(&it.path)?;
        let types = self.variant(number, variant, node)?;
        self.write("(");
        self.items(&it.pat.elems, &types)?;
        self.write(")");
        Ok(())
    }

    /// The items of a tuple or of a variant with round brackets.
    fn items(&mut self, items: &Items, types: &[Node]) -> Result<(), Reason> {
        let rest = items.iter().position(|it| matches!(it, syn::Pat::Rest(_)));
        for (number, item) in items.iter().enumerate() {
            if number > 0 {
                self.write(", ");
            }
            let at = match rest {
                Some(rest) if number > rest => (types.len() + number).checked_sub(items.len()).ok_or(Reason::Misfit)?,
                _ => number,
            };
            match types.get(at) {
                _ if Some(number) == rest => self.write(".."),
                Some(node) => self.pattern(item, *node)?,
                None => return Err(Reason::Misfit),
            }
        }
        Ok(())
    }

    fn brace_variant(&mut self, it: &syn::PatStruct, node: Node) -> Result<(), Reason> {
        let (number, variant) = self.variant_at(&it.path)?;
        let types = self.variant(number, variant, node)?;
        let names: Vec<String> = match &self.world.declared[number].variants[variant].form {
            Form::Unit => vec![],
            Form::Tuple(fields) => (0..fields.len()).map(|it| it.to_string()).collect(),
            Form::Braces(fields) => fields.iter().map(|it| it.0.clone()).collect(),
        };
        self.write(" { ");
        for field in &it.fields {
            let at = names.iter().position(|name| *name == field.member.to_token_stream().to_string());
            self.field(field, types[at.ok_or(Reason::Misfit)?])?;
            self.write(", ");
        }
        self.write(if it.dot2_token.is_some() { ".. }" } else { "}" });
        Ok(())
    }

    fn field(&mut self, field: &syn::FieldPat, node: Node) -> Result<(), Reason> {
        if has_cfg(&field.attrs) {
            return Err(Reason::Cfg);
        }
        match &*field.pat {
            syn::Pat::Ident(it) if field.colon_token.is_none() => {
                self.binding(it);
                Ok(())
            }
            inner => {
                self.write(&format!("{}: ", field.member.to_token_stream()));
                self.pattern(inner, node)
            }
        }
    }

    /// A literal, or a constant whose value is one.
    fn literal(&mut self, value: &syn::Expr, node: Node) -> Result<(), Reason> {
        match value {
            syn::Expr::Lit(it) => self.token(&it.lit, "", node),
            syn::Expr::Unary(syn::ExprUnary { op: syn::UnOp::Neg(_), expr, .. }) => match &**expr {
                syn::Expr::Lit(it) => self.token(&it.lit, "-", node),
                _ => Err(Reason::OtherPattern),
            },
            syn::Expr::Path(it) if it.qself.is_none() => self.path(&it.path, node),
            _ => Err(Reason::OtherPattern),
        }
    }

    fn token(&mut self, literal: &syn::Lit, sign: &str, node: Node) -> Result<(), Reason> {
        let behind = self.types.behind(node);
        let shape = match literal {
            syn::Lit::Int(it) if it.suffix().is_empty() => Shape::Integer,
            syn::Lit::Int(it) => plain(it.suffix()).ok_or(Reason::NoLiteral)?,
            syn::Lit::Byte(_) => Shape::Plain("u8"),
            syn::Lit::Char(_) => Shape::Plain("char"),
            syn::Lit::Bool(_) => Shape::Plain("bool"),
            syn::Lit::Str(_) => Shape::Plain("str"),
            _ => return Err(Reason::NoLiteral),
        };
        let is_new = matches!(shape, Shape::Plain("str")) && matches!(self.types.shape(node), Shape::Unknown);
        let shape = if is_new { Shape::Reference(false, self.types.add(shape)) } else { shape };
        self.types.join_shape(behind, shape)?;
        self.write(&format!("{sign}{}", literal.to_token_stream()));
        Ok(())
    }

    /// A constant stands for its value, which is a literal.
    fn constant(&mut self, file: usize, written: &syn::Type, value: &syn::Expr, node: Node) -> Result<(), Reason> {
        let is_literal = match value {
            syn::Expr::Unary(syn::ExprUnary { op: syn::UnOp::Neg(_), expr, .. }) => matches!(**expr, syn::Expr::Lit(_)),
            other => matches!(other, syn::Expr::Lit(_)),
        };
        if !is_literal {
            return Err(Reason::Constant);
        }
        let told = type_of(self.world, &mut self.types, file, written, &HashMap::new(), 0);
        if !matches!(self.types.shape(told), Shape::Opaque) {
            let (told, behind) = (self.types.behind(told), self.types.behind(node));
            if !matches!(self.types.shape(told), Shape::Plain("str")) {
                self.types.join(behind, told)?;
            }
        }
        self.literal(value, node)
    }

    fn range(
        &mut self,
        low: Option<&syn::Expr>,
        limits: &syn::RangeLimits,
        high: Option<&syn::Expr>,
        node: Node,
    ) -> Result<(), Reason> {
        if let Some(low) = low {
            self.literal(low, node)?;
        }
        self.write(if matches!(limits, syn::RangeLimits::Closed(_)) { "..=" } else { ".." });
        high.map_or(Ok(()), |high| self.literal(high, node))
    }

    /// A range without one of its ends, which `syn` leaves as it is written.
    fn half_open(&mut self, tokens: &proc_macro2::TokenStream, node: Node) -> Result<(), Reason> {
        let range: syn::ExprRange = syn::parse2(tokens.clone()).map_err(|_| Reason::OtherPattern)?;
        self.range(range.from.as_deref(), &range.limits, range.to.as_deref(), node)
    }

    fn alternatives(&mut self, it: &syn::PatOr, node: Node) -> Result<(), Reason> {
        for (number, alternative) in it.cases.iter().enumerate() {
            self.write(if number > 0 { " | " } else { "" });
            self.pattern(alternative, node)?;
        }
        Ok(())
    }

    fn tuple(&mut self, it: &syn::PatTuple, node: Node) -> Result<(), Reason> {
        let is_rest = |it: &syn::Pat| matches!(it, syn::Pat::Rest(_));
        if it.elems.len() == 1 && !it.elems.trailing_punct() && !is_rest(&it.elems[0]) {
            self.write("(");
            self.pattern(&it.elems[0], node)?;
            self.write(")");
            return Ok(());
        }
        let behind = self.types.behind(node);
        if let Shape::Unknown = self.types.shape(behind) {
            if it.elems.iter().any(is_rest) {
                return Err(Reason::NoType);
            }
            let parts = it.elems.iter().map(|_| self.types.unknown()).collect();
            self.types.join_shape(behind, Shape::Tuple(parts))?;
        }
        let parts = match self.types.shape(behind) {
            Shape::Tuple(parts) => parts,
            Shape::Opaque => return Err(Reason::LooksInside),
            _ => return Err(Reason::Misfit),
        };
        self.write("(");
        self.items(&it.elems, &parts)?;
        self.write(if it.elems.len() == 1 { ",)" } else { ")" });
        Ok(())
    }

    fn reference(&mut self, it: &syn::PatReference, node: Node) -> Result<(), Reason> {
        let inner = self.types.unknown();
        self.types.join_shape(node, Shape::Reference(it.mutability.is_some(), inner))?;
        self.write(if it.mutability.is_some() { "&mut " } else { "&" });
        self.pattern(&it.pat, inner)
    }

    fn slice(&mut self, it: &syn::PatSlice, node: Node) -> Result<(), Reason> {
        let behind = self.types.behind(node);
        let item = self.types.unknown();
        let mut shape = Shape::Slice(item);
        if matches!(self.types.shape(node), Shape::Unknown) {
            shape = Shape::Reference(false, self.types.add(shape));
        }
        self.types.join_shape(behind, shape)?;
        self.write("[");
        for (number, inner) in it.elems.iter().enumerate() {
            self.write(if number > 0 { ", " } else { "" });
            match inner {
                syn::Pat::Ident(whole) if matches!(&whole.subpat, Some((_, rest)) if is_rest(rest)) => {
                    self.binding(whole);
                    self.write(" @ ..");
                }
                inner => self.pattern(inner, item)?,
            }
        }
        self.write("]");
        Ok(())
    }
}

fn is_rest(pattern: &syn::Pat) -> bool {
    matches!(pattern, syn::Pat::Rest(_))
}
