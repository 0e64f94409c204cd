//! What a path in a file stands for. A path is found by its last names, since modules are not followed.
use crate::declared::{ByName, Imports, World, STD};
use crate::left_out::Reason;

/// What the path of a pattern stands for.
pub enum Found<'a> {
    /// A variant or struct: its declaration, and the number of its variant.
    Variant(usize, usize),
    /// A constant of the crate: its file, type and value.
    Constant(usize, &'a syn::Type, &'a syn::Expr),
}

/// Names of crates that every crate can name.
const BUILT_IN: [&str; 4] = ["std", "core", "alloc", "proc_macro"];

impl World {
    /// Whether a path begins in this crate, by its first name.
    fn is_inside(&self, first: &str) -> bool {
        !BUILT_IN.contains(&first)
            && (matches!(first, "crate" | "self" | "super" | "Self")
                || self.modules.contains(first)
                || self.by_name.contains_key(first))
    }

    /// The whole path, where the file imports its first name.
    fn whole(&self, file: usize, path: &[String]) -> Vec<String> {
        match self.files[file].paths.get(&path[0]) {
            Some(before) => before.iter().chain(&path[1..]).cloned().collect(),
            None => path.to_vec(),
        }
    }

    /// Those of a kind that a path may name: the ones of the file, else of the module named before, else all.
    fn choices<'a, T>(&self, known: &'a ByName<T>, file: usize, path: &[String]) -> Vec<&'a (usize, T)> {
        let path = self.whole(file, path);
        let Some((name, before)) = path.split_last() else { return vec![] };
        let all = known.get(name).map_or(&[][..], |found| &found[..]);
        if before.first().is_some_and(|first| !self.is_inside(first)) {
            return all.iter().filter(|it| it.0 == STD).collect();
        }
        let near = |is_near: &dyn Fn(usize) -> bool| all.iter().filter(|it| is_near(it.0)).collect::<Vec<_>>();
        let module = |file: usize| before.last().is_some_and(|module| self.files[file].module == *module);
        let ways: [&dyn Fn(usize) -> bool; 4] =
            [&|it| before.is_empty() && it == file, &|it| it != STD && module(it), &|it| it != STD, &|_| true];
        ways.iter().map(|way| near(way)).find(|found| !found.is_empty()).unwrap_or_default()
    }

    /// The declared type that a path names.
    pub fn type_at(&self, file: usize, path: &[String]) -> Result<usize, Reason> {
        one(&self.choices(&self.by_name, file, path)).map(|it| it.1)
    }

    /// The type that an alias of this path stands for, and its file.
    pub fn alias_at(&self, file: usize, path: &[String]) -> Option<&(usize, syn::Type)> {
        one(&self.choices(&self.aliases, file, path)).ok()
    }

    /// The variant of an enum that a path with two names or more stands for.
    fn variant_at(&self, file: usize, path: &[String]) -> Result<Found<'_>, Reason> {
        let (name, before) = path.split_last().ok_or(Reason::ForeignType)?;
        let mut before = before.to_vec();
        if let Some((file, syn::Type::Path(alias))) = self.alias_at(file, &before) {
            before = names_of(&alias.path);
            return self.variant_of(*file, &before, name);
        }
        self.variant_of(file, &before, name)
    }

    fn variant_of(&self, file: usize, path: &[String], name: &str) -> Result<Found<'_>, Reason> {
        let enums = self.choices(&self.by_name, file, path);
        let has = |it: &usize| self.declared[*it].variants.iter().position(|variant| variant.name == name);
        let found: Vec<(usize, usize)> =
            enums.iter().filter(|it| self.declared[it.1].is_enum).filter_map(|it| Some((it.1, has(&it.1)?))).collect();
        match (&found[..], enums.is_empty()) {
            ([(number, variant)], _) => Ok(Found::Variant(*number, *variant)),
            ([], true) => Err(Reason::ForeignType),
            ([], false) => Err(Reason::Constant),
            _ => Err(Reason::DeclaredTwice),
        }
    }

    /// The variant that a name alone stands for, by an import.
    fn imported(&self, file: usize, name: &str) -> Option<Found<'_>> {
        let Imports { paths, globs, .. } = &self.files[file];
        let listed = paths.get(name).filter(|path| path.len() > 1).and_then(|path| self.variant_at(file, path).ok());
        let by_glob = |before: &Vec<String>| {
            let path: Vec<String> = before.iter().cloned().chain([name.to_string()]).collect();
            self.variant_at(file, &path).ok()
        };
        let owner = match name {
            "Some" | "None" => "Option",
            "Ok" | "Err" => "Result",
            _ => "",
        };
        let prelude = || self.variant_of(STD, &["std".into(), owner.into()], name).ok();
        listed.or_else(|| globs.iter().filter(|before| !before.is_empty()).find_map(by_glob)).or_else(prelude)
    }

    /// What the path of a pattern stands for; `owner` is the type of the `impl` around it.
    pub fn find(&self, file: usize, owner: Option<&str>, names: &[String]) -> Result<Found<'_>, Reason> {
        let mut names = names.to_vec();
        if names[0] == "Self" {
            names[0] = owner.ok_or(Reason::ForeignType)?.to_string();
        }
        let variant = match &names[..] {
            [name] => self.imported(file, name).ok_or(Reason::ForeignType),
            _ => self.variant_at(file, &names),
        };
        match variant {
            Err(reason) => self.find_other(file, &names, reason),
            found => found,
        }
    }

    /// The struct or the constant that a path names where no variant has it.
    fn find_other(&self, file: usize, names: &[String], reason: Reason) -> Result<Found<'_>, Reason> {
        match self.type_at(file, names) {
            Ok(number) if !self.declared[number].is_enum => return Ok(Found::Variant(number, 0)),
            Err(Reason::DeclaredTwice) => return Err(Reason::DeclaredTwice),
            _ => {}
        }
        match one(&self.choices(&self.constants, file, names)) {
            Ok((file, (written, value))) => Ok(Found::Constant(*file, written, value)),
            Err(Reason::DeclaredTwice) => Err(Reason::DeclaredTwice),
            Err(_) if names.last().is_some_and(|name| is_constant(name)) => Err(Reason::Constant),
            Err(_) => Err(reason),
        }
    }
}

/// The only one of these.
fn one<'a, T>(choices: &[&'a T]) -> Result<&'a T, Reason> {
    match choices {
        [] => Err(Reason::ForeignType),
        [it] => Ok(it),
        _ => Err(Reason::DeclaredTwice),
    }
}

pub fn names_of(path: &syn::Path) -> Vec<String> {
    path.segments.iter().map(|segment| segment.ident.to_string()).collect()
}

/// Whether a name is written as constants are.
pub fn is_constant(name: &str) -> bool {
    name.starts_with(char::is_uppercase) && !name.contains(char::is_lowercase)
}
