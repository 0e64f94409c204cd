//! Takes the `match` expressions of crates into files of the checker's grammar.
//!
//!     extract OUT CRATE..
//!
//! Each CRATE is a folder with sources. OUT/CRATE gets one file for each match, and each file begins with the place
//! that its match came from. The types are those that patterns and declarations tell; a type that neither tells
//! becomes `Opaque`. For each crate one line of JSON counts the matches, and those left out by their reason.
//! docs/real-code.md says what is left out.
mod declared;
mod left_out;
mod reading;
mod resolving;
mod types;
mod writing;
mod written;

use declared::World;
use std::collections::BTreeMap;
use std::path::{Path, PathBuf};
use std::{env, fs, process};
use syn::visit::{self, Visit};

/// What was counted in one crate.
#[derive(Default)]
struct Counts {
    matches: usize,
    written: usize,
    guessed: usize,
    left_out: BTreeMap<&'static str, usize>,
}

impl Counts {
    /// Prints the counts of a crate with so many files, of which so many could not be read.
    fn print(&self, name: &str, files: usize, unread: usize) {
        let Counts { matches, written, guessed, .. } = self;
        let left_out: Vec<String> = self.left_out.iter().map(|(why, n)| format!("{}:{n}", quoted(why))).collect();
        let (name, left_out) = (quoted(name), left_out.join(","));
        println!(
            "{{\"crate\":{name},\"files\":{files},\"unread\":{unread},\"matches\":{matches},\
             \"written\":{written},\"guessed\":{guessed},\"left_out\":{{{left_out}}}}}"
        );
    }
}

/// Finds the matches of one file, and writes each into the folder.
struct Finder<'a> {
    world: &'a World,
    file: usize,
    path: String,
    folder: &'a Path,
    /// The types of the `impl` blocks around the place, the innermost last.
    owners: Vec<Option<String>>,
    counts: &'a mut Counts,
}

impl Finder<'_> {
    fn take(&mut self, found: &syn::ExprMatch) {
        self.counts.matches += 1;
        let owner = self.owners.last().cloned().flatten();
        let read = reading::read(self.world, self.file, owner, found);
        match read.and_then(|read| writing::write(self.world, read)) {
            Ok(written) => {
                self.counts.written += 1;
                self.counts.guessed += usize::from(written.guessed);
                let at = found.match_token.span.start();
                let text = format!("// {}:{}:{}\n{}", self.path, at.line, at.column + 1, written.text);
                save(&self.folder.join(format!("{:05}.rs", self.counts.written)), &text);
            }
            Err(reason) => *self.counts.left_out.entry(reason.text()).or_default() += 1,
        }
    }
}

impl<'ast> Visit<'ast> for Finder<'_> {
    fn visit_item_impl(&mut self, item: &'ast syn::ItemImpl) {
        self.owners.push(declared::head_of(&item.self_ty));
        visit::visit_item_impl(self, item);
        self.owners.pop();
    }

    fn visit_item_trait(&mut self, item: &'ast syn::ItemTrait) {
        self.owners.push(None);
        visit::visit_item_trait(self, item);
        self.owners.pop();
    }

    fn visit_expr_match(&mut self, found: &'ast syn::ExprMatch) {
        self.take(found);
        visit::visit_expr_match(self, found);
    }
}

/// Ends with a line on standard error.
fn fail(text: &str) -> ! {
    eprintln!("extract: {text}");
    process::exit(1)
}

fn save(path: &Path, text: &str) {
    if let Err(error) = fs::write(path, text) {
        fail(&format!("{}: {error}", path.display()));
    }
}

/// The Rust sources of a crate. A folder with a `Cargo.toml` of its own is another crate.
fn sources(folder: &Path, into: &mut Vec<PathBuf>) {
    for entry in fs::read_dir(folder).into_iter().flatten().flatten() {
        let path = entry.path();
        if path.is_dir() && !path.is_symlink() {
            if !path.join("Cargo.toml").exists() && !path.ends_with("target") {
                sources(&path, into);
            }
        } else if path.extension().is_some_and(|ending| ending == "rs") {
            into.push(path);
        }
    }
}

/// The text in quotes of JSON.
fn quoted(text: &str) -> String {
    format!("{text:?}")
}

/// The name of a crate, without the version that may stand behind it in the name of the folder.
fn own_name(folder: &str) -> String {
    let is_version = |part: &&str| part.starts_with(|it: char| it.is_ascii_digit());
    folder.split('-').take_while(|part| !is_version(part)).collect::<Vec<_>>().join("_")
}

/// Takes the matches of one crate, and prints what was counted.
fn take_crate(out: &Path, folder: &Path) {
    let name = folder.file_name().map_or("crate".into(), |name| name.to_string_lossy().into_owned());
    let target = out.join(&name);
    if let Err(error) = fs::create_dir_all(&target) {
        fail(&format!("{}: {error}", target.display()));
    }
    let mut paths = vec![];
    sources(folder, &mut paths);
    paths.sort();
    let mut world = World::with_std();
    // In tests and examples a crate goes by its own name.
    world.modules.insert(own_name(&name));
    let mut parsed = vec![];
    for path in &paths {
        if let Some(file) = fs::read_to_string(path).ok().and_then(|text| syn::parse_file(&text).ok()) {
            parsed.push((world.add_file(path, &file), path, file));
        }
    }
    let mut counts = Counts::default();
    for (number, path, file) in &parsed {
        let inside = path.strip_prefix(folder).unwrap_or(path);
        let path = format!("{name}/{}", inside.display());
        let mut finder =
            Finder { world: &world, file: *number, path, folder: &target, owners: vec![], counts: &mut counts };
        finder.visit_file(file);
    }
    counts.print(&name, paths.len(), paths.len() - parsed.len());
}

fn main() {
    let words: Vec<PathBuf> = env::args_os().skip(1).map(PathBuf::from).collect();
    let [out, crates @ ..] = &words[..] else { fail("expected OUT CRATE..") };
    for folder in crates {
        take_crate(out, folder);
    }
}
