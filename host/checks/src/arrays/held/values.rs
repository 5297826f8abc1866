//! The values of expressions: their types, what is made for them, what is called.

use std::collections::HashMap;

use super::kit::{of_kit, steps};
use super::{field, Counted, Held, Walk, Walked};
use crate::arrays::library::{Entity, Instance, Meaning, Place, Standing};
use crate::arrays::syntax::{
    Argument, Block, Expression, ExpressionForm as Of, Form, Parameter, Path, Pattern, Written,
};
use crate::arrays::tokens::fail;
use crate::arrays::types::{width, Type};

impl Walk<'_> {
    /// A value: its type, which is the expected one where it does not say its own.
    pub fn value(
        &mut self,
        value: &Expression,
        expected: Option<&Type>,
        counted: Counted,
    ) -> Walked<Type> {
        let line = value.line;
        Ok(match &value.form {
            Of::Number(_, suffix) | Of::Float(suffix) => match (suffix, expected) {
                (Some(suffix), _) => match width(suffix) {
                    Some(bytes) => Type::Number(Some(bytes)),
                    None => return fail(line, format!("a number of type {suffix}")),
                },
                (None, Some(Type::Number(bytes))) => Type::Number(*bytes),
                (None, _) => Type::Number(None),
            },
            Of::Literal(of) => Type::Number(width(of)),
            Of::ByteString(length) => {
                let bytes = Type::Array(Box::new(Type::Number(Some(1))), *length);
                Type::Reference(Box::new(bytes))
            }
            Of::Path(path) => self.path(path, expected, counted)?,
            Of::Struct(path, given) => {
                let entity = self.library.entity(self.place, path)?;
                let (of, fields) = self.made_of(entity, line)?;
                for (name, value) in given {
                    let field = field(&fields, name, line)?;
                    self.value(value, Some(&field), Counted::Here)?;
                }
                self.made(of, counted, line)?
            }
            Of::List(elements) => {
                let mut of = element(expected).cloned();
                for value in elements {
                    let own = self.value(value, of.as_ref(), Counted::Here)?;
                    of.get_or_insert(own);
                }
                let Some(of) = of else {
                    return fail(line, "the elements' type of an empty list is not written");
                };
                let of = Type::Array(Box::new(of), elements.len() as u64);
                self.made(of, counted, line)?
            }
            Of::Repeat(value, length) => {
                let of = self.value(value, element(expected), Counted::Here)?;
                let length = self.library.worth(self.place, length)?;
                self.made(Type::Array(Box::new(of), length), counted, line)?
            }
            Of::Call(path, given, arguments) => {
                let of = self.called(path, given, arguments, expected, line)?;
                self.made(of, counted, line)?
            }
            Of::Tuple(values) => {
                let mut kinds = Vec::new();
                for (i, value) in values.iter().enumerate() {
                    let expected = match expected {
                        Some(Type::Tuple(kinds)) => kinds.get(i),
                        _ => None,
                    };
                    kinds.push(self.value(value, expected, Counted::Here)?);
                }
                match kinds.is_empty() {
                    true => Type::Unit,
                    false => self.made(Type::Tuple(kinds), counted, line)?,
                }
            }
            Of::Try(of) => match self.value(of, None, Counted::Elsewhere)? {
                Type::Option(of) | Type::Result(of, _) => self.made(*of, counted, line)?,
                _ => return fail(line, "? behind something else than an Option or a Result"),
            },
            Of::Closure(patterns, _) => {
                let written = |(_, of): &(Pattern, Option<Written>)| {
                    of.as_ref().and_then(|of| self.kind(of, line).ok())
                };
                let parameters = match expected {
                    Some(Type::Callable(parameters, _)) => Some(parameters.clone()),
                    _ => patterns.iter().map(written).collect(),
                };
                let Some(parameters) = parameters else {
                    return fail(line, "what a closure takes is not written");
                };
                let first = self.found.calls.len();
                let result = self.closure(value, &parameters)?;
                // Whatever it is lent to calls them.
                let called = self.found.calls[first..].to_vec();
                self.found.lent.extend(called);
                Type::Callable(parameters, Box::new(result))
            }
            Of::Method(of, name, arguments) => {
                let of = self.value(of, None, Counted::Here)?;
                let of = match referent(of.clone()) {
                    Type::Declared(at) => {
                        let Some(Entity::Function(function)) = self.library.member(at, name) else {
                            return fail(line, format!("the method {name} was not found"));
                        };
                        self.call(function, &[], arguments, 1, line)?
                    }
                    _ => self.method_of_kit(of, name, arguments, expected, line)?,
                };
                self.made(of, counted, line)?
            }
            Of::Field(of, name) => {
                let at = match referent(self.value(of, None, Counted::Here)?) {
                    Type::Declared(at) => at,
                    Type::Tuple(kinds) => match name.parse().ok().and_then(|i: usize| kinds.get(i))
                    {
                        Some(of) => return Ok(of.clone()),
                        None => return fail(line, format!("the field {name} of no tuple")),
                    },
                    _ => return fail(line, format!("the field {name} of no struct")),
                };
                let Form::Struct(fields) = &self.library.declared[at].item.form else {
                    return fail(line, format!("the field {name} of no struct"));
                };
                field(&self.library.fields(at, fields, line)?, name, line)?
            }
            Of::Index(of, index) => {
                let of = referent(self.value(of, None, Counted::Here)?);
                self.value(index, None, Counted::Here)?;
                let (Type::Array(element, _) | Type::Slice(element)) = of else {
                    return fail(line, "an index into something else than elements");
                };
                match index.form {
                    Of::Range(..) => Type::Slice(element),
                    _ => *element,
                }
            }
            Of::Range(from, to) => {
                let mut of = Type::Number(None);
                for end in [from, to].into_iter().flatten() {
                    let end = self.value(end, expected, Counted::Here)?;
                    of = settled(of, end, line)?;
                }
                Type::Steps(Box::new(of))
            }
            Of::Borrow(of) => {
                let expected = match expected {
                    Some(Type::Reference(of)) => Some(of.as_ref()),
                    _ => None,
                };
                Type::Reference(Box::new(self.value(of, expected, Counted::Here)?))
            }
            Of::Dereference(of) => match self.value(of, None, Counted::Here)? {
                Type::Reference(of) => *of,
                _ => return fail(line, "* before something else than a reference"),
            },
            Of::Negation(of) => self.value(of, expected, Counted::Here)?,
            Of::Cast(of, to) => {
                self.value(of, None, Counted::Here)?;
                self.kind(to, line)?
            }
            Of::Binary(operator, left, right) => {
                let left = self.value(left, None, Counted::Here)?;
                let right = self.value(right, None, Counted::Here)?;
                let of = match *operator {
                    "==" | "!=" | "<" | ">" | "<=" | ">=" | "&&" | "||" => Type::Number(Some(1)),
                    "<<" | ">>" => left,
                    _ => settled(left, right, line)?,
                };
                match (of, expected) {
                    (Type::Number(None), Some(Type::Number(bytes))) => Type::Number(*bytes),
                    (of, _) => of,
                }
            }
            Of::Assign(place, value) => {
                let of = self.value(place, None, Counted::Here)?;
                self.value(value, Some(&of), Counted::Here)?;
                Type::Unit
            }
            Of::Matches(pattern, value) => {
                let of = self.value(value, None, Counted::Here)?;
                self.take_apart(pattern, of, line)?;
                Type::Number(Some(1))
            }
            Of::If(condition, then, otherwise) => {
                let otherwise = otherwise.as_deref();
                self.chosen(condition, then, otherwise, expected, counted)?
            }
            Of::Match(value, arms) => self.matched(value, arms, expected, counted)?,
            Of::While(condition, body) => {
                self.scopes.push(HashMap::new());
                self.value(condition, None, Counted::Here)?;
                self.repeated(body, Type::Unit)?;
                self.scopes.pop();
                Type::Unit
            }
            Of::For(pattern, over, body) => {
                let of = self.value(over, None, Counted::Here)?;
                let of = steps(of, line)?;
                self.scopes.push(HashMap::new());
                self.take_apart(pattern, of, line)?;
                self.repeated(body, Type::Unit)?;
                self.scopes.pop();
                Type::Unit
            }
            Of::Loop(body) => {
                let of = self.repeated(body, Type::Never)?;
                self.made(of, counted, line)?
            }
            Of::Block(block) => {
                let of = self.block(block, expected, Counted::Elsewhere)?;
                self.made(of, counted, line)?
            }
            Of::Return(value) => {
                if let Some(value) = value {
                    let result = self.result.clone();
                    self.value(value, Some(&result), Counted::Elsewhere)?;
                }
                Type::Never
            }
            Of::Break(value) => {
                let of = match value {
                    Some(value) => self.value(value, None, Counted::Elsewhere)?,
                    None => Type::Unit,
                };
                let Some(around) = self.loops.pop() else {
                    return fail(line, "break outside a loop");
                };
                self.loops.push(settled(around, of, line)?);
                Type::Never
            }
            Of::Continue => Type::Never,
        })
    }

    /// An `if`.
    fn chosen(
        &mut self,
        condition: &Expression,
        then: &Block,
        otherwise: Option<&Expression>,
        expected: Option<&Type>,
        counted: Counted,
    ) -> Walked<Type> {
        let line = condition.line;
        self.scopes.push(HashMap::new());
        self.value(condition, None, Counted::Here)?;
        let mut of = self.block(then, expected, Counted::Elsewhere)?;
        self.scopes.pop();
        match otherwise {
            Some(otherwise) => {
                let second = self.value(otherwise, expected, Counted::Elsewhere)?;
                of = settled(of, second, line)?;
            }
            None => of = Type::Unit,
        }
        self.made(of, counted, line)
    }

    /// A `match`.
    fn matched(
        &mut self,
        value: &Expression,
        arms: &[(Pattern, Option<Expression>, Expression)],
        expected: Option<&Type>,
        counted: Counted,
    ) -> Walked<Type> {
        let of = self.value(value, None, Counted::Here)?;
        let mut given = Type::Never;
        for (pattern, guard, arm) in arms {
            self.scopes.push(HashMap::new());
            self.take_apart(pattern, of.clone(), value.line)?;
            if let Some(guard) = guard {
                self.value(guard, None, Counted::Here)?;
            }
            let arm = self.value(arm, expected, Counted::Elsewhere)?;
            given = settled(given, arm, value.line)?;
            self.scopes.pop();
        }
        self.made(given, counted, value.line)
    }

    /// The body of a loop that gives this, or what is broken with.
    fn repeated(&mut self, body: &Block, of: Type) -> Walked<Type> {
        self.loops.push(of);
        self.block(body, None, Counted::Here)?;
        Ok(self.loops.pop().unwrap_or(Type::Never))
    }

    /// The value that a path names.
    fn path(&mut self, path: &Path, expected: Option<&Type>, counted: Counted) -> Walked<Type> {
        if let [name] = path.words.as_slice() {
            if let Some(of) = self.local(name) {
                return Ok(of.clone());
            }
        }
        if let Some(Meaning::Worth(_)) = self.place.meaning(path) {
            return Ok(Type::Number(Some(8)));
        }
        let of = match self.library.entity(self.place, path) {
            Ok(Entity::Constant(at)) => {
                let Standing { item, place } = &self.library.constants[at];
                self.library.kind(*place, &item.of, path.line)?
            }
            Ok(Entity::Variant(of, _)) => Type::Declared(of),
            Ok(_) => return fail(path.line, "a value is expected"),
            Err(failure) => match (path.words.as_slice(), expected) {
                ([none], Some(Type::Option(of))) if none == "None" => Type::Option(of.clone()),
                ([none], _) if none == "None" => Type::Option(Box::new(Type::Open)),
                ([of, limit], _) if limit == "MAX" || limit == "MIN" || limit == "BITS" => {
                    match width(of) {
                        Some(_) if limit == "BITS" => Type::Number(Some(4)),
                        Some(bytes) => Type::Number(Some(bytes)),
                        None => return Err(failure),
                    }
                }
                _ => return Err(failure),
            },
        };
        self.made(of, counted, path.line)
    }

    /// What a call gives: of a local that can be called, of a function, of a struct's name or a
    /// variant, or of the kit.
    fn called(
        &mut self,
        path: &Path,
        given: &[Argument],
        arguments: &[Expression],
        expected: Option<&Type>,
        line: usize,
    ) -> Walked<Type> {
        if let [name] = path.words.as_slice() {
            let local = self.local(name).cloned().map(referent);
            if let Some(Type::Callable(parameters, result)) = local {
                self.arguments(arguments, &parameters, line)?;
                return Ok(*result);
            }
            if let Some(of) = self.variant_of_kit(name, arguments, expected, line)? {
                return Ok(of);
            }
        }
        match self.library.entity(self.place, path) {
            Ok(Entity::Function(function)) => self.call(function, given, arguments, 0, line),
            Ok(entity) => {
                let (of, fields) = self.made_of(entity, line)?;
                let fields: Vec<Type> = fields.into_iter().map(|(_, of)| of).collect();
                self.arguments(arguments, &fields, line)?;
                Ok(of)
            }
            Err(failure) => {
                if let Some(of) = self.of_trait(path, arguments, line)? {
                    return Ok(of);
                }
                let Some((of, bytes)) = of_kit(&path.words) else {
                    return Err(failure);
                };
                for argument in arguments {
                    self.value(argument, None, Counted::Here)?;
                }
                if bytes > 0 {
                    let what = format!("{} in line {line}", path.words.join("::"));
                    self.found.held.push(Held { what, bytes });
                }
                Ok(of)
            }
        }
    }

    /// A call of a trait's function by the name of the type that it is for: one of the sources, or
    /// a number made of a number.
    fn of_trait(
        &mut self,
        path: &Path,
        arguments: &[Expression],
        line: usize,
    ) -> Walked<Option<Type>> {
        let ([of, name], [argument]) = (path.words.as_slice(), arguments) else {
            return Ok(None);
        };
        if !["from", "try_from", "from_le_bytes"].contains(&name.as_str()) {
            return Ok(None);
        }
        let words = vec![of.clone()];
        let Ok(of) = self.kind(&Written::Named(Path { words, line }), line) else {
            return Ok(None);
        };
        let first = self.value(argument, None, Counted::Here)?;
        if let Some(function) = self.library.implemented(&of, name, &first) {
            let Standing { item, place } = &self.library.functions[function];
            self.found.calls.push(Instance {
                function,
                meanings: Vec::new(),
            });
            return self.library.kind(*place, &item.result, line).map(Some);
        }
        Ok(match (&of, name.as_str(), first) {
            (Type::Number(_), "from", Type::Number(_)) => Some(of),
            (Type::Number(_), "from_le_bytes", Type::Array(..)) => Some(of),
            _ => None,
        })
    }

    /// A call of a function, whose first parameters, if it is a method, were walked already.
    pub fn call(
        &mut self,
        function: usize,
        given: &[Argument],
        arguments: &[Expression],
        before: usize,
        line: usize,
    ) -> Walked<Type> {
        let Standing { item, place } = &self.library.functions[function];
        let mut meanings = Vec::new();
        let mut given = given.iter();
        for parameter in &item.generics {
            let (name, meaning) = match (parameter, given.next()) {
                (Parameter::Constant(name), Some(argument)) => {
                    (name, Meaning::Worth(self.constant(argument, line)?))
                }
                // The length of an array that is handed over says it.
                (Parameter::Constant(name), None) => {
                    let is_it = |of: &Written| is_array_of(of, name);
                    let parameters = item.parameters.iter().skip(before).zip(arguments);
                    let Some((_, argument)) = { parameters }.find(|((_, of), _)| is_it(of)) else {
                        return fail(line, "what a parameter stands for is not written");
                    };
                    match referent(self.type_of(argument)?) {
                        Type::Array(_, length) => (name, Meaning::Worth(length)),
                        _ => return fail(line, "an array is expected"),
                    }
                }
                (Parameter::Type(name, bounds), None) => {
                    let place = Place {
                        meanings: &meanings,
                        ..*place
                    };
                    let types = self.library.bounded(place, bounds, line)?;
                    if let Some([of @ Type::Callable(..)]) = types.as_deref() {
                        (name, Meaning::Type(of.clone()))
                    } else {
                        let is_it = |of: &Written| is_named(of, name);
                        let parameters = item.parameters.iter().skip(before).zip(arguments);
                        let given = { parameters }.find(|((_, of), _)| is_it(of));
                        let Some(((_, written), argument)) = given else {
                            return fail(line, "what a parameter stands for is not written");
                        };
                        let of = behind(written, self.type_of(argument)?, line)?;
                        if types.is_some_and(|types| !types.contains(&of)) {
                            let problem = format!("what {name} stands for lacks one of its traits");
                            return fail(line, problem);
                        }
                        (name, Meaning::Type(of))
                    }
                }
                _ => return fail(line, "what a parameter stands for is not written"),
            };
            meanings.push((name.clone(), meaning));
        }
        let place = Place {
            meanings: &meanings,
            ..*place
        };
        let kind = |written| self.library.kind(place, written, line);
        let result = kind(&item.result)?;
        let types = item.parameters.iter().skip(before);
        let types: Walked<Vec<Type>> = types.map(|(_, written)| kind(written)).collect();
        let types = types?;
        self.found.calls.push(Instance {
            function,
            meanings: meanings.clone(),
        });
        self.arguments(arguments, &types, line)?;
        Ok(result)
    }

    /// The type of a value that is counted where it stands.
    fn type_of(&mut self, value: &Expression) -> Walked<Type> {
        let (held, calls) = (self.found.held.len(), self.found.calls.len());
        let of = self.value(value, None, Counted::Elsewhere)?;
        self.found.held.truncate(held);
        self.found.calls.truncate(calls);
        Ok(of)
    }

    /// What a constant between `<` and `>` is worth.
    fn constant(&self, argument: &Argument, line: usize) -> Walked<u64> {
        match argument {
            Argument::Constant(value) => self.library.worth(self.place, value),
            Argument::Type(Written::Named(path)) => {
                let form = Of::Path(path.clone());
                self.library.worth(self.place, &Expression { line, form })
            }
            Argument::Type(_) => fail(line, "a constant is expected"),
        }
    }

    /// Arguments of these types.
    pub fn arguments(&mut self, given: &[Expression], types: &[Type], line: usize) -> Walked<()> {
        if given.len() != types.len() {
            return fail(line, "a call with more or fewer arguments than parameters");
        }
        for (argument, of) in given.iter().zip(types) {
            self.value(argument, Some(of), Counted::Here)?;
        }
        Ok(())
    }

    /// A closure, or a function by its name, that is lent to what calls it with these: its result.
    pub fn closure(&mut self, value: &Expression, parameters: &[Type]) -> Walked<Type> {
        let line = value.line;
        match &value.form {
            Of::Closure(patterns, body) => {
                if patterns.len() != parameters.len() {
                    return fail(line, "a closure with more or fewer parameters");
                }
                self.scopes.push(HashMap::new());
                for ((pattern, written), of) in patterns.iter().zip(parameters) {
                    let of = match written {
                        Some(written) => self.kind(written, line)?,
                        None => of.clone(),
                    };
                    self.take_apart(pattern, of, line)?;
                }
                let result = self.value(body, None, Counted::Here)?;
                self.scopes.pop();
                Ok(result)
            }
            Of::Path(path) => {
                if let [name] = path.words.as_slice() {
                    let local = self.local(name).cloned().map(referent);
                    if let Some(Type::Callable(_, result)) = local {
                        return Ok(*result);
                    }
                }
                match self.library.entity(self.place, path) {
                    Ok(Entity::Function(function)) => {
                        let Standing { item, place } = &self.library.functions[function];
                        self.found.calls.push(Instance {
                            function,
                            meanings: Vec::new(),
                        });
                        self.library.kind(*place, &item.result, line)
                    }
                    Ok(Entity::Variant(of, _) | Entity::Declared(of)) => {
                        self.library.unaliased(of, line)
                    }
                    _ => match path.words.as_slice() {
                        [of, from] if from == "from" && width(of).is_some() => {
                            Ok(Type::Number(width(of)))
                        }
                        _ => fail(line, "what is lent to be called was not found"),
                    },
                }
            }
            _ => fail(line, "a closure is expected"),
        }
    }
}

/// Whether a written type is an array whose length is this parameter, or a reference to one.
fn is_array_of(of: &Written, name: &str) -> bool {
    match of {
        Written::Reference(of) => is_array_of(of, name),
        Written::Array(_, length) => {
            matches!(&length.form, Of::Path(path) if path.words == [name.to_string()])
        }
        _ => false,
    }
}

/// Whether a written type is this parameter's name, or a reference to it.
fn is_named(of: &Written, name: &str) -> bool {
    match of {
        Written::Reference(of) => is_named(of, name),
        Written::Named(path) => path.words == [name.to_string()],
        _ => false,
    }
}

/// What stands behind as many references as a written type has.
fn behind(written: &Written, of: Type, line: usize) -> Walked<Type> {
    match (written, of) {
        (Written::Reference(written), Type::Reference(of)) => behind(written, *of, line),
        (Written::Reference(_), _) => fail(line, "a reference is expected"),
        (_, of) => Ok(of),
    }
}

/// What stands behind references.
pub fn referent(of: Type) -> Type {
    match of {
        Type::Reference(of) => referent(*of),
        of => of,
    }
}

/// The elements' type of an expected array, or of the slice that it is to be lent as.
fn element(expected: Option<&Type>) -> Option<&Type> {
    match expected {
        Some(Type::Array(element, _) | Type::Slice(element)) => Some(element),
        _ => None,
    }
}

/// The type of two ways to one value: what one leaves open, the other says.
pub fn settled(first: Type, second: Type, line: usize) -> Walked<Type> {
    Ok(match (first, second) {
        (Type::Never, of) | (of, Type::Never) => of,
        (Type::Number(None), Type::Number(bytes)) | (Type::Number(bytes), Type::Number(None)) => {
            Type::Number(bytes)
        }
        (Type::Open, of) | (of, Type::Open) => of,
        (Type::Option(first), Type::Option(second)) => {
            Type::Option(Box::new(settled(*first, *second, line)?))
        }
        (Type::Result(first, or), Type::Result(second, other)) => {
            let first = settled(*first, *second, line)?;
            Type::Result(Box::new(first), Box::new(settled(*or, *other, line)?))
        }
        (Type::Tuple(first), Type::Tuple(second)) if first.len() == second.len() => {
            let both = first.into_iter().zip(second);
            let kinds = both.map(|(first, second)| settled(first, second, line));
            Type::Tuple(kinds.collect::<Walked<_>>()?)
        }
        (Type::Array(first, length), Type::Array(second, other)) if length == other => {
            Type::Array(Box::new(settled(*first, *second, line)?), length)
        }
        (first, second) if first == second => first,
        _ => return fail(line, "two types of one value"),
    })
}
