//! What a written type is, what a constant is worth, and how many bytes of arrays a value has in it.

use super::library::{Entity, Library, Meaning, Place, Standing, CHAIN};
use super::syntax::{Argument, Expression, ExpressionForm as Of, Form, Path, Written};
use super::tokens::{fail, Failure};

/// A type. The width of a number is known unless it is a literal's that nothing settles yet.
#[derive(Clone, Debug, PartialEq, Eq, PartialOrd, Ord)]
pub enum Type {
    Number(Option<u64>),
    Unit,
    /// Of what does not come to an end here.
    Never,
    Array(Box<Type>, u64),
    Slice(Box<Type>),
    Reference(Box<Type>),
    Declared(usize),
    Tuple(Vec<Type>),
    Option(Box<Type>),
    Result(Box<Type>, Box<Type>),
    /// A range or an iterator over what is lent, with what it gives.
    Steps(Box<Type>),
    /// What can be called, with its parameters and its result.
    Callable(Vec<Type>, Box<Type>),
    /// What nothing said yet, of a value of which another part is known.
    Open,
}

/// The bytes of a number of this name.
pub fn width(name: &str) -> Option<u64> {
    match name {
        "u8" | "i8" | "bool" => Some(1),
        "u16" | "i16" => Some(2),
        "u32" | "i32" | "f32" => Some(4),
        "u64" | "i64" | "f64" | "usize" | "isize" => Some(8),
        _ => None,
    }
}

impl<'a> Place<'a> {
    /// What a path means that is a parameter's name.
    pub fn meaning(self, path: &Path) -> Option<&'a Meaning> {
        let [name] = path.words.as_slice() else {
            return None;
        };
        let mut meanings = self.meanings.iter();
        meanings.find_map(|(one, meaning)| (one == name).then_some(meaning))
    }
}

impl Library {
    /// The type that is written at a place, for what stands in a line.
    pub fn kind(&self, place: Place, written: &Written, line: usize) -> Result<Type, Failure> {
        let of = self.kind_within(place, written, CHAIN);
        of.map_err(|failure| failure.at(line))
    }

    fn kind_within(&self, place: Place, written: &Written, chain: usize) -> Result<Type, Failure> {
        let inner = |written| self.kind_within(place, written, chain).map(Box::new);
        Ok(match written {
            Written::Unit => Type::Unit,
            Written::Array(element, length) => {
                Type::Array(inner(element)?, self.worth(place, length)?)
            }
            Written::Slice(element) => Type::Slice(inner(element)?),
            Written::Reference(to) => Type::Reference(inner(to)?),
            Written::Tuple(kinds) => {
                let kinds = kinds.iter().map(|of| self.kind_within(place, of, chain));
                Type::Tuple(kinds.collect::<Result<_, _>>()?)
            }
            Written::Callable(parameters, result) => {
                let parameters = parameters.iter();
                let parameters = parameters.map(|of| self.kind_within(place, of, chain));
                Type::Callable(parameters.collect::<Result<_, _>>()?, inner(result)?)
            }
            Written::Generic(path, arguments) => {
                let kinds = arguments.iter().map(|argument| match argument {
                    Argument::Type(of) => inner(of),
                    Argument::Constant(_) => fail(path.line, "a type with a constant argument"),
                });
                let mut kinds = kinds.collect::<Result<Vec<_>, _>>()?.into_iter();
                let name = path.words.last().map(String::as_str);
                match (name, kinds.next(), kinds.next(), kinds.next()) {
                    (Some("Option"), Some(of), None, None) => Type::Option(of),
                    (Some("Result"), Some(of), Some(or), None) => Type::Result(of, or),
                    _ => return fail(path.line, "not read: a type with these arguments"),
                }
            }
            Written::Named(path) => {
                if let Some(Meaning::Type(of)) = place.meaning(path) {
                    return Ok(of.clone());
                }
                if let Some(bytes) = number(path) {
                    return Ok(Type::Number(Some(bytes)));
                }
                match self.entity(place, path)? {
                    Entity::Declared(of) if chain > 0 => self.unalias(of, chain)?,
                    Entity::Declared(_) => return fail(path.line, "a type that stands for itself"),
                    _ => return fail(path.line, "a type is expected"),
                }
            }
        })
    }

    /// What a declared type is, where it may be an alias, for what stands in a line.
    pub fn unaliased(&self, of: usize, line: usize) -> Result<Type, Failure> {
        let of = self.unalias(of, CHAIN);
        of.map_err(|failure| failure.at(line))
    }

    fn unalias(&self, of: usize, chain: usize) -> Result<Type, Failure> {
        let Standing { item, place } = &self.declared[of];
        match &item.form {
            Form::Alias(written) => self.kind_within(*place, written, chain - 1),
            _ => Ok(Type::Declared(of)),
        }
    }

    /// The types of written fields of a declared type, for what stands in a line.
    pub fn fields(
        &self,
        of: usize,
        fields: &[(String, Written)],
        line: usize,
    ) -> Result<Vec<(String, Type)>, Failure> {
        let place = Place {
            own: Some(of),
            ..self.declared[of].place
        };
        let field = |(name, written): &(String, Written)| {
            Ok((name.clone(), self.kind(place, written, line)?))
        };
        fields.iter().map(field).collect()
    }

    /// What a constant expression is worth.
    pub fn worth(&self, place: Place, value: &Expression) -> Result<u64, Failure> {
        self.worth_within(place, value, CHAIN)
    }

    fn worth_within(&self, place: Place, value: &Expression, chain: usize) -> Result<u64, Failure> {
        let line = value.line;
        let inner = |value| self.worth_within(place, value, chain);
        let worth = match &value.form {
            Of::Number(value, None) => Some(*value),
            Of::Number(value, Some(of)) => width(of).map(|_| *value),
            Of::Path(path) if matches!(place.meaning(path), Some(Meaning::Worth(_))) => {
                match place.meaning(path) {
                    Some(Meaning::Worth(worth)) => Some(*worth),
                    _ => None,
                }
            }
            Of::Path(path) => {
                let Entity::Constant(at) = self.entity(place, path)? else {
                    return fail(line, "a constant is expected");
                };
                if chain == 0 {
                    return fail(line, "a constant that stands for itself");
                }
                let Standing { item, place } = &self.constants[at];
                let worth = self.worth_within(*place, &item.value, chain - 1);
                let worth = worth.map_err(|failure| failure.at(line))?;
                self.fitting(*place, &item.of, worth, line)?
            }
            Of::Cast(value, to) => {
                let worth = inner(value)?;
                self.fitting(place, to, worth, line)?
            }
            // These are exact, as Rattle has no constant that wraps. No other operator is needed.
            Of::Binary(operator, left, right) => {
                let (left, right) = (inner(left)?, inner(right)?);
                match *operator {
                    "+" => left.checked_add(right),
                    "-" => left.checked_sub(right),
                    "*" => left.checked_mul(right),
                    "/" => left.checked_div(right),
                    "%" => left.checked_rem(right),
                    _ => None,
                }
            }
            _ => None,
        };
        match worth {
            Some(worth) => Ok(worth),
            None => fail(line, "what this constant is worth was not found"),
        }
    }

    /// This worth, if a number of the written type holds it.
    fn fitting(
        &self,
        place: Place,
        of: &Written,
        worth: u64,
        line: usize,
    ) -> Result<Option<u64>, Failure> {
        Ok(match self.kind(place, of, line)? {
            Type::Number(Some(bytes)) if bytes >= 8 || worth >> (8 * bytes) == 0 => Some(worth),
            _ => None,
        })
    }

    /// The bytes of the arrays that a value of this type has in it.
    pub fn array_bytes(&self, of: &Type, line: usize) -> Result<u64, Failure> {
        match of {
            Type::Array(..) => Ok(self.size(of, line)?.0),
            Type::Declared(at) => {
                let variants = match &self.declared[*at].item.form {
                    Form::Struct(fields) => vec![fields],
                    // All variants together: no layout of an enum holds more.
                    Form::Enum(variants) => variants.iter().map(|(_, fields)| fields).collect(),
                    Form::Alias(_) => return fail(line, "an alias is no type of a value"),
                };
                let mut sum: u64 = 0;
                for fields in variants {
                    for (_, field) in self.fields(*at, fields, line)? {
                        sum = sum.saturating_add(self.array_bytes(&field, line)?);
                    }
                }
                Ok(sum)
            }
            Type::Tuple(kinds) => {
                let bytes = kinds.iter().map(|of| self.array_bytes(of, line));
                bytes.sum()
            }
            Type::Option(of) => self.array_bytes(of, line),
            Type::Result(of, or) => {
                let bytes = self.array_bytes(of, line)?;
                Ok(bytes.saturating_add(self.array_bytes(or, line)?))
            }
            Type::Steps(of) => self.array_bytes(of, line),
            Type::Number(_)
            | Type::Unit
            | Type::Never
            | Type::Slice(_)
            | Type::Reference(_)
            | Type::Callable(..)
            | Type::Open => Ok(0),
        }
    }

    /// The bytes of a value, and the number that its place is a multiple of, as in C.
    fn size(&self, of: &Type, line: usize) -> Result<(u64, u64), Failure> {
        match of {
            Type::Number(Some(bytes)) => Ok((*bytes, *bytes)),
            Type::Number(None) => fail(line, "the width of an array's elements is not written"),
            Type::Array(element, length) => {
                let (bytes, multiple) = self.size(element, line)?;
                Ok((bytes.saturating_mul(*length), multiple))
            }
            Type::Declared(at) => match &self.declared[*at].item.form {
                Form::Struct(fields) => {
                    let (mut end, mut largest): (u64, u64) = (0, 1);
                    for (_, field) in self.fields(*at, fields, line)? {
                        let (bytes, multiple) = self.size(&field, line)?;
                        end = padded(end, multiple).saturating_add(bytes);
                        largest = largest.max(multiple);
                    }
                    Ok((padded(end, largest), largest))
                }
                _ => fail(line, "how large an enum is inside an array is not known"),
            },
            _ => fail(line, "an array of something else than values"),
        }
    }
}

/// The bytes of a number, where a path is its type's name.
fn number(path: &Path) -> Option<u64> {
    match path.words.as_slice() {
        [name] => width(name),
        _ => None,
    }
}

/// The first multiple from a place on.
fn padded(place: u64, multiple: u64) -> u64 {
    place.checked_next_multiple_of(multiple).unwrap_or(u64::MAX)
}
