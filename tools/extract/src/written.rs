//! The types that declarations write.
use crate::declared::{Form, World};
use crate::resolving::names_of;
use crate::types::{plain, Node, Shape, Types};
use std::collections::HashMap;

/// How deep a written type may lie in aliases and arguments.
const DEEPEST: usize = 32;

/// The types of the fields of a variant, where its type has these arguments.
pub fn field_types(world: &World, types: &mut Types, number: usize, args: &[Node], variant: usize) -> Vec<Node> {
    let declared = &world.declared[number];
    let params: HashMap<&str, Node> = declared.params.iter().map(String::as_str).zip(args.iter().copied()).collect();
    let written: Vec<&syn::Type> = match &declared.variants[variant].form {
        Form::Unit => vec![],
        Form::Tuple(fields) => fields.iter().collect(),
        Form::Braces(fields) => fields.iter().map(|it| &it.1).collect(),
    };
    let mut one = |written: &syn::Type| {
        let node = type_of(world, types, declared.file, written, &params, 0);
        match types.shape(node) {
            // Only the last field of a real struct has such a type, and it has no size.
            Shape::Slice(_) | Shape::Plain("str") => types.add(Shape::Opaque),
            _ => node,
        }
    };
    written.into_iter().map(&mut one).collect()
}

/// The type that a declaration of a file writes; a type that is not known is opaque.
pub fn type_of(
    world: &World,
    types: &mut Types,
    file: usize,
    written: &syn::Type,
    params: &HashMap<&str, Node>,
    depth: usize,
) -> Node {
    let inner = |types: &mut Types, it: &syn::Type| type_of(world, types, file, it, params, depth + 1);
    let shape = match written {
        _ if depth > DEEPEST => Shape::Opaque,
        syn::Type::Paren(it) => return inner(types, &it.elem),
        syn::Type::Group(it) => return inner(types, &it.elem),
        syn::Type::Never(_) => Shape::Never,
        syn::Type::Tuple(it) => Shape::Tuple(it.elems.iter().map(|part| inner(types, part)).collect()),
        syn::Type::Reference(it) => Shape::Reference(it.mutability.is_some(), inner(types, &it.elem)),
        syn::Type::Slice(it) => Shape::Slice(inner(types, &it.elem)),
        syn::Type::Array(it) => match &it.len {
            syn::Expr::Lit(syn::ExprLit { lit: syn::Lit::Int(length), .. }) => {
                Shape::Array(inner(types, &it.elem), length.base10_digits().to_string())
            }
            _ => Shape::Opaque,
        },
        syn::Type::Path(it) if it.qself.is_none() => return named_type(world, types, file, &it.path, params, depth),
        _ => Shape::Opaque,
    };
    types.add(shape)
}

/// The type that a path stands for in a declaration.
fn named_type(
    world: &World,
    types: &mut Types,
    file: usize,
    path: &syn::Path,
    params: &HashMap<&str, Node>,
    depth: usize,
) -> Node {
    let names = names_of(path);
    if let Some(node) = params.get(names[0].as_str()).filter(|_| names.len() == 1) {
        return *node;
    }
    if let Some(shape) = names.last().and_then(|name| plain(name)).filter(|_| world.type_at(file, &names).is_err()) {
        return types.add(shape);
    }
    if let Some((file, written)) = world.alias_at(file, &names) {
        return type_of(world, types, *file, written, &HashMap::new(), depth + 1);
    }
    let Ok(number) = world.type_at(file, &names) else { return types.add(Shape::Opaque) };
    let written = match path.segments.last().map(|segment| &segment.arguments) {
        Some(syn::PathArguments::AngleBracketed(it)) => it.args.iter().collect(),
        _ => vec![],
    };
    let types_written = written.into_iter().filter_map(|it| match it {
        syn::GenericArgument::Type(it) => Some(it),
        _ => None,
    });
    let mut args: Vec<Node> = types_written.map(|it| type_of(world, types, file, it, params, depth + 1)).collect();
    args.resize_with(world.declared[number].params.len(), || types.add(Shape::Opaque));
    types.add(Shape::Declared(number, args))
}
