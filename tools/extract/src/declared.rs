//! What the files of a crate declare and import, by name.
use std::collections::{HashMap, HashSet};
use std::path::Path;
use syn::visit::{self, Visit};

/// The number of the file of Rust's standard library.
pub const STD: usize = 0;

pub enum Form {
    Unit,
    Tuple(Vec<syn::Type>),
    Braces(Vec<(String, syn::Type)>),
}

pub struct Variant {
    pub name: String,
    pub form: Form,
}

/// An enum, or a struct, which has one variant.
pub struct Declared {
    pub name: String,
    pub file: usize,
    pub is_enum: bool,
    pub params: Vec<String>,
    pub variants: Vec<Variant>,
    pub has_cfg: bool,
}

/// What a file imports, by the name that it has there.
#[derive(Default)]
pub struct Imports {
    /// The last name of the module that the file is.
    pub module: String,
    /// The whole path of each imported name.
    pub paths: HashMap<String, Vec<String>>,
    /// The paths before each `::*`.
    pub globs: Vec<Vec<String>>,
}

/// What a name of a kind stands for, with the file of each.
pub type ByName<T> = HashMap<String, Vec<(usize, T)>>;

#[derive(Default)]
pub struct World {
    pub declared: Vec<Declared>,
    pub by_name: ByName<usize>,
    pub aliases: ByName<syn::Type>,
    pub constants: ByName<(syn::Type, syn::Expr)>,
    pub files: Vec<Imports>,
    pub modules: HashSet<String>,
}

impl World {
    /// What Rust's standard library declares.
    pub fn with_std() -> World {
        let mut world = World::default();
        let file = syn::parse_file(include_str!("std.rs")).expect("std.rs is Rust");
        world.add_file(Path::new("std.rs"), &file);
        world
    }

    /// Adds what a file declares and imports, and gives its number.
    pub fn add_file(&mut self, path: &Path, file: &syn::File) -> usize {
        let name = |part: Option<&std::ffi::OsStr>| part.map_or(String::new(), |name| name.to_string_lossy().into());
        let mut module: String = name(path.file_stem());
        if ["mod", "lib", "main"].contains(&module.as_str()) {
            module = name(path.parent().and_then(Path::file_name));
        }
        let number = self.files.len();
        self.modules.insert(module.clone());
        self.files.push(Imports { module, ..Imports::default() });
        Gatherer { world: self, file: number }.visit_file(file);
        number
    }
}

/// The last name of the path of a type, also behind a reference.
pub fn head_of(written: &syn::Type) -> Option<String> {
    match written {
        syn::Type::Path(it) => it.path.segments.last().map(|segment| segment.ident.to_string()),
        syn::Type::Reference(it) => head_of(&it.elem),
        syn::Type::Paren(it) => head_of(&it.elem),
        syn::Type::Group(it) => head_of(&it.elem),
        _ => None,
    }
}

pub fn has_cfg(attributes: &[syn::Attribute]) -> bool {
    attributes.iter().any(|it| it.path.is_ident("cfg") || it.path.is_ident("cfg_attr") && mentions_cfg(it))
}

/// Whether a `cfg_attr` adds a `cfg`.
fn mentions_cfg(attribute: &syn::Attribute) -> bool {
    attribute.tokens.to_string().contains(", cfg (")
}

fn form_of(fields: &syn::Fields) -> Form {
    match fields {
        syn::Fields::Unit => Form::Unit,
        syn::Fields::Unnamed(it) => Form::Tuple(it.unnamed.iter().map(|field| field.ty.clone()).collect()),
        syn::Fields::Named(it) => {
            let named = |field: &syn::Field| Some((field.ident.as_ref()?.to_string(), field.ty.clone()));
            Form::Braces(it.named.iter().filter_map(named).collect())
        }
    }
}

fn params_of(generics: &syn::Generics) -> Vec<String> {
    generics.type_params().map(|param| param.ident.to_string()).collect()
}

fn field_has_cfg(fields: &syn::Fields) -> bool {
    fields.iter().any(|field| has_cfg(&field.attrs))
}

/// Gathers what a file declares and imports.
struct Gatherer<'a> {
    world: &'a mut World,
    file: usize,
}

impl Gatherer<'_> {
    fn declare(&mut self, declared: Declared) {
        let number = self.world.declared.len();
        self.world.by_name.entry(declared.name.clone()).or_default().push((self.file, number));
        self.world.declared.push(declared);
    }

    /// Adds the names of an import behind the path so far.
    fn import(&mut self, before: &[String], tree: &syn::UseTree) {
        let behind = |name: &syn::Ident| {
            let last = (name != "self").then(|| name.to_string());
            before.iter().cloned().chain(last).collect::<Vec<String>>()
        };
        let imports = &mut self.world.files[self.file];
        match tree {
            syn::UseTree::Path(it) => self.import(&behind(&it.ident), &it.tree),
            syn::UseTree::Name(it) => {
                let path = behind(&it.ident);
                if let Some(name) = path.last().cloned() {
                    imports.paths.insert(name, path);
                }
            }
            syn::UseTree::Rename(it) => {
                imports.paths.insert(it.rename.to_string(), behind(&it.ident));
            }
            syn::UseTree::Glob(_) => imports.globs.push(before.to_vec()),
            syn::UseTree::Group(it) => it.items.iter().for_each(|tree| self.import(before, tree)),
        }
    }
}

impl<'ast> Visit<'ast> for Gatherer<'_> {
    fn visit_item_enum(&mut self, item: &'ast syn::ItemEnum) {
        let variant = |it: &syn::Variant| Variant { name: it.ident.to_string(), form: form_of(&it.fields) };
        self.declare(Declared {
            name: item.ident.to_string(),
            file: self.file,
            is_enum: true,
            params: params_of(&item.generics),
            variants: item.variants.iter().map(variant).collect(),
            has_cfg: item.variants.iter().any(|it| has_cfg(&it.attrs) || field_has_cfg(&it.fields)),
        });
    }

    fn visit_item_struct(&mut self, item: &'ast syn::ItemStruct) {
        let name = item.ident.to_string();
        self.declare(Declared {
            file: self.file,
            is_enum: false,
            params: params_of(&item.generics),
            variants: vec![Variant { name: name.clone(), form: form_of(&item.fields) }],
            has_cfg: field_has_cfg(&item.fields),
            name,
        });
    }

    fn visit_item_type(&mut self, item: &'ast syn::ItemType) {
        if item.generics.type_params().next().is_none() {
            let known = self.world.aliases.entry(item.ident.to_string()).or_default();
            known.push((self.file, (*item.ty).clone()));
        }
    }

    fn visit_item_const(&mut self, item: &'ast syn::ItemConst) {
        let known = self.world.constants.entry(item.ident.to_string()).or_default();
        known.push((self.file, ((*item.ty).clone(), (*item.expr).clone())));
        visit::visit_item_const(self, item);
    }

    fn visit_item_mod(&mut self, item: &'ast syn::ItemMod) {
        self.world.modules.insert(item.ident.to_string());
        visit::visit_item_mod(self, item);
    }

    fn visit_item_use(&mut self, item: &'ast syn::ItemUse) {
        self.import(&[], &item.tree);
    }
}
