//! Traits: which types have those of the sources, and what a bound lets a parameter stand for.
//!
//! A function of a trait is counted as that of a type: what the type's `impl` block has, or the
//! trait's own body. The kit's traits are known by name.

use super::{Entity, Instance, Library, Meaning, Place, Standing};
use crate::arrays::syntax::{Function, Item, Parameter, Written};
use crate::arrays::tokens::{fail, Failure};
use crate::arrays::types::Type;

/// The traits of the kit that sources name.
const TRAITS_OF_KIT: [&str; 3] = ["Copy", "From", "TryFrom"];

impl Library {
    /// The trait that is written at a place; none, where it is one of the kit's.
    pub fn of_trait(&self, place: Place, written: &Written) -> Result<Option<usize>, Failure> {
        let (Written::Named(path) | Written::Generic(path, _)) = written else {
            return fail(1, "a trait is expected");
        };
        match (self.entity(place, path), path.words.as_slice()) {
            (Ok(Entity::Trait(at)), _) => Ok(Some(at)),
            (Ok(_), _) => fail(path.line, "a trait is expected"),
            (Err(_), [name]) if TRAITS_OF_KIT.contains(&name.as_str()) => Ok(None),
            (Err(failure), _) => Err(failure),
        }
    }

    /// Takes up that a type has a trait, whose functions stand in its `impl` block. Each of these is
    /// as public as the trait, and has its contract if it has none. What the block leaves out has the
    /// trait's body.
    pub fn take_trait(
        &mut self,
        at: usize,
        own: usize,
        inside: &mut [Item],
        line: usize,
    ) -> Result<(), Failure> {
        let Standing { item, place } = &self.traits[at];
        let place = Place {
            own: Some(own),
            ..*place
        };
        let (name, mut left) = (item.name.clone(), item.functions.clone());
        for item in inside {
            let Item::Function(item) = item else {
                return fail(line, format!("not read: more than functions for {name}"));
            };
            let Some(at) = left.iter().position(|one| one.name == item.name) else {
                return fail(item.line, format!("{name} has no function {}", item.name));
            };
            let asked = left.swap_remove(at);
            item.is_public = asked.is_public;
            if item.contract.is_empty() {
                item.contract = asked.contract;
            }
        }
        for item in left {
            if item.body.is_none() {
                let problem = format!("{name} asks for {}, which is missing", item.name);
                return fail(line, problem);
            }
            let (name, _, entity) = self.declare(Item::Function(item), place)?;
            self.add_member(own, name, line, entity)?;
        }
        self.has.push((at, own));
        Ok(())
    }

    /// The types that have a trait.
    fn types_with(&self, at: usize) -> Vec<Type> {
        let has = self.has.iter().filter(|(of_trait, _)| *of_trait == at);
        has.map(|(_, of)| Type::Declared(*of)).collect()
    }

    /// The types that a parameter with these bounds may stand for, for what stands in a line; none
    /// are told where all bounds are the kit's traits.
    pub fn bounded<'a>(
        &self,
        place: Place,
        bounds: impl IntoIterator<Item = &'a Written>,
        line: usize,
    ) -> Result<Option<Vec<Type>>, Failure> {
        let mut found: Option<Vec<Type>> = None;
        for bound in bounds {
            let mut types = match bound {
                Written::Callable(..) => vec![self.kind(place, bound, line)?],
                _ => match self.of_trait(place, bound) {
                    Ok(Some(at)) => self.types_with(at),
                    Ok(None) => continue,
                    Err(failure) => return Err(failure.at(line)),
                },
            };
            if let Some(found) = &found {
                types.retain(|of| found.contains(of));
            }
            found = Some(types);
        }
        Ok(found)
    }

    /// A function with all that its parameters between `<` and `>` may stand for: none, where one is
    /// a constant or its bounds do not tell it.
    pub fn instances(&self, function: usize) -> Vec<Instance> {
        let Standing { item, place } = &self.functions[function];
        let mut all = vec![Vec::new()];
        for parameter in &item.generics {
            let Parameter::Type(name, bounds) = parameter else {
                return Vec::new();
            };
            let Ok(Some(types)) = self.bounded(*place, bounds, item.line) else {
                return Vec::new();
            };
            let mut more = Vec::new();
            for before in all {
                for of in &types {
                    let meaning = (name.clone(), Meaning::Type(of.clone()));
                    more.push([before.as_slice(), &[meaning]].concat());
                }
            }
            all = more;
        }
        let instance = |meanings| Instance { function, meanings };
        all.into_iter().map(instance).collect()
    }

    /// Each trait is some type's, and all bounds of a parameter are one type's: there they are counted.
    pub fn traits_are_known(&self) -> Result<(), String> {
        for (at, Standing { item, place }) in self.traits.iter().enumerate() {
            if self.types_with(at).is_empty() {
                let (line, problem) = (item.line, format!("no type has the trait {}", item.name));
                return Err(self.located(place.module, Failure { line, problem }));
            }
        }
        for Standing { item, place } in &self.functions {
            let known = self.bounds_are_known(*place, item);
            known.map_err(|failure| self.located(place.module, failure))?;
        }
        Ok(())
    }

    fn bounds_are_known(&self, place: Place, item: &Function) -> Result<(), Failure> {
        for parameter in &item.generics {
            let Parameter::Type(name, bounds) = parameter else {
                continue;
            };
            let is_trait = |bound: &&Written| !matches!(bound, Written::Callable(..));
            let types = self.bounded(place, bounds.iter().filter(is_trait), item.line)?;
            if types.is_some_and(|types| types.is_empty()) {
                return fail(item.line, format!("no type has the traits of {name}"));
            }
        }
        Ok(())
    }
}
