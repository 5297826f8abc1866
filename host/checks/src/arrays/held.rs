//! What one function holds, and what it calls.
//!
//! It holds the arrays of its parameters and its result where these go by value, of each local, and
//! of each value made inside an expression: by a list, by `[v; n]`, by a call, as a struct or as an
//! enum's variant, by a constant, or by an `if`, a `match`, a `loop` or a block. A value that is made
//! for a local or for the result is counted as that. Nothing counts as given back before the call
//! ends. What stands behind a reference is lent, and not held.

use std::collections::HashMap;

use super::library::{Entity, Instance, Library, Place, Standing};
use super::syntax::{Binding, Block, Form, Path, Pattern, Statement, Written};
use super::tokens::{fail, Failure};
use super::types::Type;

mod kit;
mod values;

/// Arrays that a function holds: in what, and how many bytes.
#[derive(Clone, Debug, PartialEq, Eq)]
pub struct Held {
    pub what: String,
    pub bytes: u64,
}

/// What a function holds, and the functions that it calls.
#[derive(Default)]
pub struct Holding {
    pub held: Vec<Held>,
    pub calls: Vec<Instance>,
    /// Those of them that stand in a closure which is lent to one of the others.
    pub lent: Vec<Instance>,
}

impl Holding {
    pub fn bytes(&self) -> u64 {
        let held = self.held.iter().map(|held| held.bytes);
        held.fold(0, u64::saturating_add)
    }
}

/// What a function holds and calls.
pub fn holding(library: &Library, at: &Instance) -> Result<Holding, Failure> {
    let Standing { item, place } = &library.functions[at.function];
    let place = Place {
        meanings: &at.meanings,
        ..*place
    };
    let result = library.kind(place, &item.result, item.line)?;
    let Some(body) = &item.body else {
        return fail(item.line, "a function without a body");
    };
    let mut walk = Walk {
        library,
        place,
        scopes: vec![HashMap::new()],
        loops: Vec::new(),
        result: result.clone(),
        found: Holding::default(),
    };
    for (name, written) in &item.parameters {
        let of = walk.kind(written, item.line)?;
        walk.bind(name, of, item.line)?;
    }
    walk.hold("the result", &result, item.line)?;
    walk.block(body, Some(&result), Counted::Elsewhere)?;
    Ok(walk.found)
}

/// Where a value that is made counts: as the local or the result that it goes into, or by itself.
#[derive(Clone, Copy, PartialEq, Eq)]
enum Counted {
    Elsewhere,
    Here,
}

/// A walk through the body of a function.
struct Walk<'a> {
    library: &'a Library,
    place: Place<'a>,
    /// The locals of the blocks around.
    scopes: Vec<HashMap<String, Type>>,
    /// What the loops around give.
    loops: Vec<Type>,
    result: Type,
    found: Holding,
}

type Walked<T> = Result<T, Failure>;

impl Walk<'_> {
    fn local(&self, name: &str) -> Option<&Type> {
        self.scopes.iter().rev().find_map(|scope| scope.get(name))
    }

    fn kind(&self, written: &Written, line: usize) -> Walked<Type> {
        self.library.kind(self.place, written, line)
    }

    fn hold(&mut self, what: &str, of: &Type, line: usize) -> Walked<()> {
        let bytes = self.library.array_bytes(of, line)?;
        if bytes > 0 {
            let what = what.to_string();
            self.found.held.push(Held { what, bytes });
        }
        Ok(())
    }

    /// A local of this name.
    fn bind(&mut self, name: &str, of: Type, line: usize) -> Walked<()> {
        self.hold(name, &of, line)?;
        if let Some(scope) = self.scopes.last_mut() {
            scope.insert(name.to_string(), of);
        }
        Ok(())
    }

    /// A value that is made here.
    fn made(&mut self, of: Type, counted: Counted, line: usize) -> Walked<Type> {
        if counted == Counted::Here {
            self.hold(&format!("a value in line {line}"), &of, line)?;
        }
        Ok(of)
    }

    fn block(&mut self, block: &Block, expected: Option<&Type>, counted: Counted) -> Walked<Type> {
        self.scopes.push(HashMap::new());
        let mut of = Type::Unit;
        for statement in &block.statements {
            let given = match statement {
                Statement::Expression(value) => {
                    let given = self.value(value, None, Counted::Here)?;
                    if value.is_place() {
                        self.made(given.clone(), Counted::Here, value.line)?;
                    }
                    given
                }
                Statement::Let(binding) => self.binding(binding)?,
            };
            if given == Type::Never {
                of = Type::Never;
            }
        }
        if let Some(value) = &block.value {
            of = self.value(value, expected, counted)?;
        }
        self.scopes.pop();
        Ok(of)
    }

    /// What a `let` binds. It gives what its value gives.
    fn binding(&mut self, binding: &Binding) -> Walked<Type> {
        let line = binding.line;
        let written = match &binding.of {
            Some(written) => Some(self.kind(written, line)?),
            None => None,
        };
        let counted = match &binding.pattern {
            Pattern::Name(name) if !self.is_constant(name) => Counted::Elsewhere,
            _ => Counted::Here,
        };
        let given = match &binding.value {
            Some(value) => Some(self.value(value, written.as_ref(), counted)?),
            None => None,
        };
        if let Some(otherwise) = &binding.otherwise {
            self.block(otherwise, None, Counted::Here)?;
        }
        let of = match (written, &given) {
            (Some(written), _) => written,
            (None, Some(Type::Never) | None) => {
                return fail(line, "the type of a local is not written")
            }
            (None, Some(given)) => given.clone(),
        };
        self.take_apart(&binding.pattern, of, line)?;
        Ok(given.unwrap_or(Type::Unit))
    }

    /// Whether a name in a pattern is a constant or a variant, and binds nothing.
    fn is_constant(&self, name: &str) -> bool {
        let path = Path {
            words: vec![name.to_string()],
            line: 0,
        };
        let named = self.library.entity(self.place, &path);
        name == "None" || matches!(named, Ok(Entity::Constant(_) | Entity::Variant(..)))
    }

    /// Binds the names of a pattern, which a value of this type is held to.
    fn take_apart(&mut self, pattern: &Pattern, of: Type, line: usize) -> Walked<()> {
        match pattern {
            Pattern::Nothing => {}
            Pattern::Name(name) => {
                if !self.is_constant(name) {
                    self.bind(name, of, line)?;
                }
            }
            Pattern::Either(patterns) => {
                for pattern in patterns {
                    self.take_apart(pattern, of.clone(), line)?;
                }
            }
            Pattern::Behind(pattern) => {
                let Type::Reference(of) = of else {
                    return fail(line, "& before something else than a reference");
                };
                self.take_apart(pattern, *of, line)?;
            }
            Pattern::List(patterns) => {
                let (of, is_lent) = lent(of);
                let (Type::Array(element, _) | Type::Slice(element)) = of else {
                    return fail(line, "elements are expected");
                };
                for pattern in patterns {
                    let element = relent(element.as_ref().clone(), is_lent);
                    self.take_apart(pattern, element, line)?;
                }
            }
            Pattern::Tuple(patterns) => {
                let (of, is_lent) = lent(of);
                let kinds = match of {
                    Type::Unit => Vec::new(),
                    Type::Tuple(kinds) => kinds,
                    _ => return fail(line, "a tuple is expected"),
                };
                if kinds.len() != patterns.len() {
                    return fail(line, "a tuple of another length");
                }
                for (pattern, of) in patterns.iter().zip(kinds) {
                    self.take_apart(pattern, relent(of, is_lent), line)?;
                }
            }
            Pattern::Variant(path, inner) => {
                let (of, is_lent) = lent(of);
                let fields = match (
                    self.library.entity(self.place, path),
                    variant_of_kit(path, &of),
                ) {
                    (Ok(Entity::Constant(_)), _) if inner.is_empty() => return Ok(()),
                    (Ok(entity), _) => self.made_of(entity, path.line)?.1,
                    (Err(_), Some(fields)) => fields,
                    (Err(failure), None) => return Err(failure),
                };
                for (name, pattern) in inner {
                    let field = field(&fields, name, path.line)?;
                    self.take_apart(pattern, relent(field, is_lent), path.line)?;
                }
            }
        }
        Ok(())
    }

    /// The type that a struct's name or a variant makes, and its fields.
    fn made_of(&self, entity: Entity, line: usize) -> Walked<(Type, Vec<(String, Type)>)> {
        // An alias of a struct makes that struct.
        let of = match entity {
            Entity::Declared(of) => self.library.unaliased(of, line)?,
            Entity::Variant(of, _) => Type::Declared(of),
            _ => Type::Never,
        };
        let Type::Declared(at) = of else {
            return fail(line, "a struct or a variant is expected");
        };
        let fields = match (&self.library.declared[at].item.form, entity) {
            (Form::Struct(fields), Entity::Declared(_)) => fields,
            (Form::Enum(variants), Entity::Variant(_, variant)) => &variants[variant].1,
            _ => return fail(line, "a struct or a variant is expected"),
        };
        Ok((of, self.library.fields(at, fields, line)?))
    }
}

/// What a variant of the kit's enums has in it.
fn variant_of_kit(path: &Path, of: &Type) -> Option<Vec<(String, Type)>> {
    let [name] = path.words.as_slice() else {
        return None;
    };
    let inner = match (name.as_str(), of) {
        ("Some", Type::Option(of)) | ("Ok", Type::Result(of, _)) => of,
        ("Err", Type::Result(_, of)) => of,
        ("None", Type::Option(_)) => return Some(Vec::new()),
        _ => return None,
    };
    Some(vec![("0".into(), inner.as_ref().clone())])
}

/// What stands behind a reference, and whether one was there.
fn lent(of: Type) -> (Type, bool) {
    match of {
        Type::Reference(of) => (*of, true),
        of => (of, false),
    }
}

/// A part of what is lent is lent.
fn relent(of: Type, is_lent: bool) -> Type {
    match is_lent {
        true => Type::Reference(Box::new(of)),
        false => of,
    }
}

fn field(fields: &[(String, Type)], name: &str, line: usize) -> Walked<Type> {
    match fields.iter().find(|(field, _)| field == name) {
        Some((_, of)) => Ok(of.clone()),
        None => fail(line, format!("the field {name} was not found")),
    }
}
