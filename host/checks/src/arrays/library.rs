//! The sources of all crates together, and what a path names in them.

use std::collections::HashMap;
use std::mem;

use super::items::items;
use super::syntax::{Constant, Declared, Form, Function, Item, Path, Trait, Written};
use super::tokens::{fail, Failure};
use super::types::{width, Type};
use crate::files::File;
use crate::listing::Listed;

mod traits;

/// What a path names: a place in one of the library's lists.
#[derive(Clone, Copy, Debug, PartialEq, Eq)]
pub enum Entity {
    Module(usize),
    Declared(usize),
    /// A type, and which of its variants.
    Variant(usize, usize),
    Function(usize),
    Constant(usize),
    Trait(usize),
}

/// What a parameter between `<` and `>` stands for.
#[derive(Clone, Debug, PartialEq, Eq, PartialOrd, Ord)]
pub enum Meaning {
    Worth(u64),
    Type(Type),
}

/// Parameters with what they stand for.
pub type Meanings = [(String, Meaning)];

/// Where something stands: its module, the type whose `impl` block it stands in, and what the
/// parameters of its function stand for.
#[derive(Clone, Copy, Debug)]
pub struct Place<'a> {
    pub module: usize,
    pub own: Option<usize>,
    pub meanings: &'a Meanings,
}

/// A function with what its parameters between `<` and `>` stand for.
#[derive(Clone, Debug, PartialEq, Eq, PartialOrd, Ord)]
pub struct Instance {
    pub function: usize,
    pub meanings: Vec<(String, Meaning)>,
}

/// Something declared, and where.
pub struct Standing<T> {
    pub item: T,
    pub place: Place<'static>,
}

struct Module {
    file: String,
    /// The crate's first module, and the one that this one stands in.
    root: usize,
    above: Option<usize>,
    names: HashMap<String, Entity>,
    uses: HashMap<String, Path>,
    /// The crates that this one's may name.
    over: Vec<String>,
}

#[derive(Default)]
pub struct Library {
    modules: Vec<Module>,
    roots: HashMap<String, usize>,
    pub declared: Vec<Standing<Declared>>,
    pub functions: Vec<Standing<Function>>,
    pub constants: Vec<Standing<Constant>>,
    traits: Vec<Standing<Trait>>,
    /// The `impl` blocks, until all that they may name is known.
    blocks: Vec<Standing<Block>>,
    /// What stands in the `impl` blocks of a type, and of the traits of the sources that it has.
    members: HashMap<(usize, String), Entity>,
    /// The traits of the sources, each with a type that has it.
    has: Vec<(usize, usize)>,
    /// The functions of the kit's traits, each with the type that it is for.
    implemented: Vec<(Written, usize)>,
}

/// An `impl` block: its trait, if it is a trait's, the type that it is for, and what stands in it.
type Block = (Option<Written>, Written, Vec<Item>);

/// How far one name may stand for another: longer chains go round.
pub const CHAIN: usize = 100;

impl Library {
    /// Reads the crates that are listed.
    pub fn read(crates: &[Listed], files: &[File]) -> Result<Library, String> {
        let mut library = Library::default();
        for listed in crates {
            let file = |name: &str| {
                let path = format!("crates/{}/src/{name}.rt", listed.name);
                files.iter().find(|file| file.path == path)
            };
            let Some(file) = file("lib").or_else(|| file("main")) else {
                return Err(format!("crates/{}: no source", listed.name));
            };
            let root = library.modules.len();
            library.roots.insert(listed.name.clone(), root);
            library.module(file, files, root, None, &listed.over)?;
        }
        for Standing { item, place } in mem::take(&mut library.blocks) {
            let taken = library.methods(place, item);
            taken.map_err(|failure| library.located(place.module, failure))?;
        }
        library.traits_are_known()?;
        Ok(library)
    }

    fn module(
        &mut self,
        file: &File,
        files: &[File],
        root: usize,
        above: Option<usize>,
        over: &[String],
    ) -> Result<usize, String> {
        let module = self.modules.len();
        self.modules.push(Module {
            file: file.path.clone(),
            root,
            above,
            names: HashMap::new(),
            uses: HashMap::new(),
            over: over.to_vec(),
        });
        let within = |failure: Failure| located(&file.path, failure);
        let place = Place {
            module,
            own: None,
            meanings: &[],
        };
        for item in items(&file.text).map_err(within)? {
            let (name, line, entity) = match item {
                Item::Methods(of_trait, of, inside) => {
                    let item = (of_trait, of, inside);
                    self.blocks.push(Standing { item, place });
                    continue;
                }
                Item::Use(path, name) => {
                    let line = path.line;
                    no_number(&name, line).map_err(within)?;
                    let Module { names, uses, .. } = &mut self.modules[module];
                    if names.contains_key(&name) || uses.insert(name.clone(), path).is_some() {
                        return Err(within(twice(&name, line)));
                    }
                    continue;
                }
                Item::Module(name, line) => {
                    let folder = match above {
                        None => file.path.rsplit_once('/').map_or("", |(folder, _)| folder),
                        Some(_) => file.path.trim_end_matches(".rt"),
                    };
                    let path = format!("{folder}/{name}.rt");
                    let Some(inner) = files.iter().find(|file| file.path == path) else {
                        let problem = format!("the module {name} has no file {path}");
                        return Err(within(Failure { line, problem }));
                    };
                    let inner = self.module(inner, files, root, Some(module), over)?;
                    (name, line, Entity::Module(inner))
                }
                item => self.declare(item, place).map_err(within)?,
            };
            let Module { names, uses, .. } = &mut self.modules[module];
            if uses.contains_key(&name) || names.insert(name.clone(), entity).is_some() {
                return Err(within(twice(&name, line)));
            }
        }
        Ok(module)
    }

    /// Takes up a type, a constant, a function or a trait: its name, its line, and what it is.
    fn declare(
        &mut self,
        item: Item,
        place: Place<'static>,
    ) -> Result<(String, usize, Entity), Failure> {
        Ok(match item {
            Item::Declared(item) => {
                let (name, line) = (item.name.clone(), item.line);
                no_number(&name, line)?;
                self.declared.push(Standing { item, place });
                (name, line, Entity::Declared(self.declared.len() - 1))
            }
            Item::Constant(item) => {
                let (name, line) = (item.name.clone(), item.line);
                self.constants.push(Standing { item, place });
                (name, line, Entity::Constant(self.constants.len() - 1))
            }
            Item::Function(item) => {
                let (name, line) = (item.name.clone(), item.line);
                self.functions.push(Standing { item, place });
                (name, line, Entity::Function(self.functions.len() - 1))
            }
            Item::Trait(item) => {
                let (name, line) = (item.name.clone(), item.line);
                no_number(&name, line)?;
                self.traits.push(Standing { item, place });
                (name, line, Entity::Trait(self.traits.len() - 1))
            }
            Item::Use(Path { line, .. }, _) => return fail(line, "not read: use in an impl block"),
            Item::Methods(..) => return fail(1, "not read: an impl block in another"),
            Item::Module(_, line) => return fail(line, "not read: a module in an impl block"),
        })
    }

    /// What stands in an `impl` block. One of the kit's traits is for a type that may be a number's.
    fn methods(
        &mut self,
        place: Place<'static>,
        (of_trait, of, mut inside): Block,
    ) -> Result<(), Failure> {
        let at = match &of_trait {
            Some(of_trait) => self.of_trait(place, of_trait)?,
            None => None,
        };
        let of_kit = of_trait.is_some() && at.is_none();
        let (Written::Named(path) | Written::Generic(path, _)) = &of else {
            return fail(1, "an impl block of something that is no name");
        };
        let own = match self.entity(place, path) {
            Ok(Entity::Declared(own)) => Some(own),
            _ if of_kit => None,
            _ => return fail(path.line, "an impl block of something that is no type"),
        };
        if let (Some(at), Some(own)) = (at, own) {
            self.take_trait(at, own, &mut inside, path.line)?;
        }
        let own_place = Place { own, ..place };
        for item in inside {
            // `type Error = ..;` of a trait
            if matches!(&item, Item::Declared(Declared { form: Form::Alias(_), .. }) if of_kit) {
                continue;
            }
            let (name, line, entity) = self.declare(item, own_place)?;
            if let (true, Entity::Function(function)) = (of_kit, entity) {
                self.implemented.push((of.clone(), function));
            } else if let Some(own) = own {
                self.add_member(own, name, line, entity)?;
            }
        }
        Ok(())
    }

    fn add_member(
        &mut self,
        own: usize,
        name: String,
        line: usize,
        entity: Entity,
    ) -> Result<(), Failure> {
        match self.members.insert((own, name.clone()), entity) {
            Some(_) => Err(twice(&name, line)),
            None => Ok(()),
        }
    }

    /// The function of a kit's trait with this name that is for a type and takes such a first
    /// argument.
    pub fn implemented(&self, of: &Type, name: &str, first: &Type) -> Option<usize> {
        let fits = |(target, function): &&(Written, usize)| {
            let Standing { item, place } = &self.functions[*function];
            let kind = |written| self.kind(*place, written, item.line).ok();
            item.name == name
                && kind(target).as_ref() == Some(of)
                && item
                    .parameters
                    .first()
                    .and_then(|(_, of)| kind(of))
                    .as_ref()
                    == Some(first)
        };
        self.implemented
            .iter()
            .find(fits)
            .map(|(_, function)| *function)
    }

    /// The functions of which something holds, for each type that their bounds tell, but for those
    /// with a constant parameter or one of any type: what they hold is counted where they are called.
    pub fn instances_that(&self, is_so: impl Fn(&Function) -> bool) -> Vec<Instance> {
        let all = (0..self.functions.len()).filter(|at| is_so(&self.functions[*at].item));
        all.flat_map(|function| self.instances(function)).collect()
    }

    /// A function's name; a method has its type before it.
    pub fn function_name(&self, function: usize) -> String {
        let Standing { item, place } = &self.functions[function];
        match place.own {
            Some(own) => format!("{}::{}", self.declared[own].item.name, item.name),
            None => item.name.clone(),
        }
    }

    /// A failure with the file of the module in which it was found.
    pub fn located(&self, module: usize, failure: Failure) -> String {
        located(&self.modules[module].file, failure)
    }

    /// What a path names from a place.
    pub fn entity(&self, place: Place, path: &Path) -> Result<Entity, Failure> {
        self.follow(place, path, CHAIN)
    }

    fn follow(&self, place: Place, path: &Path, chain: usize) -> Result<Entity, Failure> {
        let shown = path.words.join("::");
        let unknown = || fail(path.line, format!("what {shown} names was not found"));
        if chain == 0 {
            return fail(path.line, format!("{shown} stands for itself"));
        }
        let Some((first, rest)) = path.words.split_first() else {
            return unknown();
        };
        let named = |module, word: &str| {
            let named = self.named(module, word, chain);
            named.map_err(|failure| failure.at(path.line))
        };
        let module = &self.modules[place.module];
        let mut entity = match (first.as_str(), place.own, module.above) {
            ("crate", _, _) => Entity::Module(module.root),
            ("self", _, _) => Entity::Module(place.module),
            ("super", _, Some(above)) => Entity::Module(above),
            ("Self", Some(own), _) => Entity::Declared(own),
            _ => match named(place.module, first)? {
                Some(entity) => entity,
                None if module.over.contains(first) => match self.roots.get(first) {
                    Some(root) => Entity::Module(*root),
                    None => return unknown(),
                },
                None => return unknown(),
            },
        };
        for word in rest {
            let inner = match entity {
                Entity::Module(inner) => named(inner, word)?,
                Entity::Declared(of) => self.member(of, word),
                _ => None,
            };
            entity = match inner {
                Some(entity) => entity,
                None => return unknown(),
            };
        }
        Ok(entity)
    }

    /// What a name is in a module.
    fn named(&self, module: usize, name: &str, chain: usize) -> Result<Option<Entity>, Failure> {
        let Module { names, uses, .. } = &self.modules[module];
        if let Some(entity) = names.get(name) {
            return Ok(Some(*entity));
        }
        let Some(path) = uses.get(name) else {
            return Ok(None);
        };
        let place = Place {
            module,
            own: None,
            meanings: &[],
        };
        self.follow(place, path, chain - 1).map(Some)
    }

    /// A variant of an enum, or what stands in an `impl` block of a type.
    pub fn member(&self, of: usize, name: &str) -> Option<Entity> {
        if let Form::Enum(variants) = &self.declared[of].item.form {
            if let Some(at) = variants.iter().position(|(variant, _)| variant == name) {
                return Some(Entity::Variant(of, at));
            }
        }
        self.members.get(&(of, name.to_string())).copied()
    }
}

/// A number's type has its name for itself.
fn no_number(name: &str, line: usize) -> Result<(), Failure> {
    match width(name) {
        Some(_) => fail(line, format!("{name} is the name of a number's type")),
        None => Ok(()),
    }
}

fn twice(name: &str, line: usize) -> Failure {
    let problem = format!("{name} is declared twice here");
    Failure { line, problem }
}

fn located(file: &str, Failure { line, problem }: Failure) -> String {
    format!("{file}:{line}: {problem}")
}
