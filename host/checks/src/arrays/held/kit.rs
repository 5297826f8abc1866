//! What the kit's library gives: its enums, its functions, its methods. None of them holds an array
//! of its own; what their results have in them is counted as a value.

use super::values::{referent, settled};
use super::{Counted, Walk, Walked};
use crate::arrays::syntax::Expression;
use crate::arrays::tokens::fail;
use crate::arrays::types::{width, Type};

const BOOL: Type = Type::Number(Some(1));
const SIZE: Type = Type::Number(Some(8));

impl Walk<'_> {
    /// A value of Option or Result by its variant's name.
    pub fn variant_of_kit(
        &mut self,
        name: &str,
        arguments: &[Expression],
        expected: Option<&Type>,
        line: usize,
    ) -> Walked<Option<Type>> {
        let (first, second) = match expected {
            Some(Type::Option(of)) => (of.as_ref().clone(), Type::Open),
            Some(Type::Result(of, or)) => (of.as_ref().clone(), or.as_ref().clone()),
            _ => (Type::Open, Type::Open),
        };
        let inner = match name {
            "Some" | "Ok" => first.clone(),
            "Err" => second.clone(),
            _ => return Ok(None),
        };
        let [argument] = arguments else {
            return fail(line, "a variant of one field is expected");
        };
        let expected = (inner != Type::Open).then_some(&inner);
        let given = self.value(argument, expected, Counted::Elsewhere)?;
        let inner = Box::new(settled(inner, given, line)?);
        Ok(Some(match name {
            "Some" => Type::Option(inner),
            "Ok" => Type::Result(inner, Box::new(second)),
            _ => Type::Result(Box::new(first), inner),
        }))
    }

    /// What a method of the kit gives.
    pub fn method_of_kit(
        &mut self,
        of: Type,
        name: &str,
        arguments: &[Expression],
        expected: Option<&Type>,
        line: usize,
    ) -> Walked<Type> {
        let found = match (&of, referent(of.clone())) {
            (_, Type::Number(bytes)) => {
                self.method_of_number(bytes, name, arguments, expected, line)?
            }
            (_, Type::Array(element, _) | Type::Slice(element)) => {
                self.method_of_slice(*element, name, arguments, line)?
            }
            (_, Type::Steps(of)) => self.method_of_steps(*of, name, arguments, expected, line)?,
            (_, Type::Option(of)) => self.method_of_option(*of, name, arguments, line)?,
            (_, Type::Result(of, or)) => self.method_of_result(*of, *or, name, arguments, line)?,
            _ => None,
        };
        match found {
            Some(of) => Ok(of),
            None => fail(line, format!("the method {name} was not found")),
        }
    }

    fn method_of_number(
        &mut self,
        bytes: Option<u64>,
        name: &str,
        arguments: &[Expression],
        expected: Option<&Type>,
        line: usize,
    ) -> Walked<Option<Type>> {
        let of = match (bytes, expected) {
            (None, Some(Type::Number(bytes))) => Type::Number(*bytes),
            _ => Type::Number(bytes),
        };
        let result = match name {
            "min" | "max" | "wrapping_add" | "wrapping_sub" | "wrapping_mul" | "saturating_add"
            | "saturating_sub" | "abs_diff" | "div_ceil" | "next_multiple_of" => {
                self.arguments(arguments, &[of.clone()], line)?;
                return Ok(Some(of));
            }
            "checked_add" | "checked_sub" | "checked_mul" | "checked_div" => {
                self.arguments(arguments, &[of.clone()], line)?;
                return Ok(Some(Type::Option(Box::new(of))));
            }
            "pow" => {
                self.arguments(arguments, &[Type::Number(Some(4))], line)?;
                return Ok(Some(of));
            }
            "then" => {
                let [closure] = arguments else {
                    return Ok(None);
                };
                let of = self.closure(closure, &[])?;
                return Ok(Some(Type::Option(Box::new(of))));
            }
            "then_some" => {
                let [value] = arguments else {
                    return Ok(None);
                };
                let of = self.value(value, None, Counted::Here)?;
                return Ok(Some(Type::Option(Box::new(of))));
            }
            "next_power_of_two" => of,
            "is_power_of_two" => BOOL,
            "leading_zeros" | "trailing_zeros" | "count_ones" | "ilog2" => Type::Number(Some(4)),
            "to_le_bytes" => match bytes {
                Some(bytes) => Type::Array(Box::new(Type::Number(Some(1))), bytes),
                None => return Ok(None),
            },
            _ => return Ok(None),
        };
        self.arguments(arguments, &[], line)?;
        Ok(Some(result))
    }

    fn method_of_slice(
        &mut self,
        element: Type,
        name: &str,
        arguments: &[Expression],
        line: usize,
    ) -> Walked<Option<Type>> {
        let lent = |of: Type| Type::Reference(Box::new(of));
        let part = || lent(Type::Slice(Box::new(element.clone())));
        let (types, result) = match name {
            "len" => (vec![], SIZE),
            "is_empty" => (vec![], BOOL),
            "iter" | "iter_mut" => (vec![], Type::Steps(Box::new(lent(element)))),
            "first" | "last" | "first_mut" | "last_mut" => {
                (vec![], Type::Option(Box::new(lent(element))))
            }
            "get" | "get_mut" => {
                let [index] = arguments else {
                    return Ok(None);
                };
                let of = match self.value(index, Some(&SIZE), Counted::Here)? {
                    Type::Steps(_) => part(),
                    _ => lent(element),
                };
                return Ok(Some(Type::Option(Box::new(of))));
            }
            "fill" => (vec![element], Type::Unit),
            "contains" => (vec![lent(element)], BOOL),
            "copy_from_slice" => (vec![part()], Type::Unit),
            "chunks" | "chunks_exact" | "chunks_mut" | "chunks_exact_mut" | "windows" => {
                (vec![SIZE], Type::Steps(Box::new(part())))
            }
            "split_at" | "split_at_mut" => (vec![SIZE], Type::Tuple(vec![part(), part()])),
            "split_first" | "split_first_mut" | "split_last" | "split_last_mut" => {
                let of = Type::Tuple(vec![lent(element.clone()), part()]);
                (vec![], Type::Option(Box::new(of)))
            }
            "swap" => (vec![SIZE, SIZE], Type::Unit),
            _ => return Ok(None),
        };
        self.arguments(arguments, &types, line)?;
        Ok(Some(result))
    }

    fn method_of_steps(
        &mut self,
        of: Type,
        name: &str,
        arguments: &[Expression],
        expected: Option<&Type>,
        line: usize,
    ) -> Walked<Option<Type>> {
        let all = |of: Type| Some(Type::Steps(Box::new(of)));
        let maybe = |of: Type| Some(Type::Option(Box::new(of)));
        let behind = |of: &Type| Type::Reference(Box::new(of.clone()));
        Ok(match (name, arguments) {
            ("by_ref" | "into_iter" | "iter" | "rev", []) => all(of),
            ("take" | "skip" | "step_by", [count]) => {
                self.value(count, Some(&SIZE), Counted::Here)?;
                all(of)
            }
            ("enumerate", []) => all(Type::Tuple(vec![SIZE, of])),
            ("copied" | "cloned", []) => all(referent(of)),
            ("zip" | "chain", [other]) => {
                let other = self.value(other, None, Counted::Here)?;
                let other = steps(other, line)?;
                match name {
                    "zip" => all(Type::Tuple(vec![of, other])),
                    _ => all(settled(of, other, line)?),
                }
            }
            ("map", [closure]) => all(self.closure(closure, &[of])?),
            ("filter" | "take_while" | "skip_while", [closure]) => {
                self.closure(closure, &[behind(&of)])?;
                all(of)
            }
            ("all" | "any", [closure]) => {
                self.closure(closure, &[of])?;
                Some(BOOL)
            }
            ("contains", [value]) => {
                self.value(value, Some(&behind(&of)), Counted::Here)?;
                Some(BOOL)
            }
            ("position", [closure]) => {
                self.closure(closure, &[of])?;
                maybe(SIZE)
            }
            ("find", [closure]) => {
                self.closure(closure, &[behind(&of)])?;
                maybe(of)
            }
            ("for_each", [closure]) => {
                self.closure(closure, &[of])?;
                Some(Type::Unit)
            }
            ("try_for_each", [closure]) => Some(self.closure(closure, &[of])?),
            ("fold", [first, closure]) => {
                let first = self.value(first, expected, Counted::Here)?;
                let given = self.closure(closure, &[first.clone(), of])?;
                Some(settled(first, given, line)?)
            }
            ("count", []) => Some(SIZE),
            ("sum", []) => Some(match (expected, referent(of)) {
                (Some(of), _) => of.clone(),
                (None, of) => of,
            }),
            ("next" | "last" | "min" | "max", []) => maybe(of),
            _ => None,
        })
    }

    fn method_of_option(
        &mut self,
        of: Type,
        name: &str,
        arguments: &[Expression],
        line: usize,
    ) -> Walked<Option<Type>> {
        let maybe = |of: Type| Some(Type::Option(Box::new(of)));
        Ok(match (name, arguments) {
            ("is_some" | "is_none", []) => Some(BOOL),
            ("unwrap", []) => Some(of),
            ("copied" | "cloned", []) => maybe(referent(of)),
            ("unwrap_or", [other]) => {
                let other = self.value(other, Some(&of), Counted::Here)?;
                Some(settled(of, other, line)?)
            }
            ("ok_or", [other]) => {
                let other = self.value(other, None, Counted::Here)?;
                Some(Type::Result(Box::new(of), Box::new(other)))
            }
            ("map", [closure]) => maybe(self.closure(closure, &[of])?),
            ("and_then", [closure]) => Some(self.closure(closure, &[of])?),
            ("is_some_and" | "is_none_or", [closure]) => {
                self.closure(closure, &[of])?;
                Some(BOOL)
            }
            ("map_or", [first, closure]) => {
                let first = self.value(first, None, Counted::Here)?;
                let given = self.closure(closure, &[of])?;
                Some(settled(first, given, line)?)
            }
            _ => None,
        })
    }

    fn method_of_result(
        &mut self,
        of: Type,
        or: Type,
        name: &str,
        arguments: &[Expression],
        line: usize,
    ) -> Walked<Option<Type>> {
        let result = |of: Type, or: Type| Some(Type::Result(Box::new(of), Box::new(or)));
        Ok(match (name, arguments) {
            ("is_ok" | "is_err", []) => Some(BOOL),
            ("unwrap", []) => Some(of),
            ("unwrap_or", [other]) => {
                let other = self.value(other, Some(&of), Counted::Here)?;
                Some(settled(of, other, line)?)
            }
            ("ok", []) => Some(Type::Option(Box::new(of))),
            ("map", [closure]) => {
                let of = self.closure(closure, &[of])?;
                result(of, or)
            }
            ("map_err", [closure]) => {
                let or = self.closure(closure, &[or])?;
                result(of, or)
            }
            ("and_then", [closure]) => Some(self.closure(closure, &[of])?),
            ("or_else", [closure]) => Some(self.closure(closure, &[or])?),
            _ => None,
        })
    }
}

/// What a `for` over a value takes, one after another.
pub fn steps(of: Type, line: usize) -> Walked<Type> {
    Ok(match of {
        Type::Steps(of) | Type::Array(of, _) => *of,
        Type::Reference(of) => match *of {
            Type::Array(element, _) | Type::Slice(element) => Type::Reference(element),
            Type::Steps(of) => *of,
            _ => return fail(line, "what this goes over was not found"),
        },
        _ => return fail(line, "what this goes over was not found"),
    })
}

/// What a call of the kit gives, and the bytes of arrays that it holds with the calls under it. Of
/// `read_full` these are the two buffers of 4,096 bytes that an older kit's held; today's has none.
pub fn of_kit(words: &[String]) -> Option<(Type, u64)> {
    let words: Vec<&str> = words.iter().map(String::as_str).collect();
    match words.as_slice() {
        ["std", "num", call] => {
            let mut names = ["wrapping_add_", "wrapping_sub_"].iter();
            let of = names.find_map(|name| call.strip_prefix(name))?;
            width(of).map(|bytes| (Type::Number(Some(bytes)), 0))
        }
        [of, "leading_zeros" | "trailing_zeros" | "count_ones"] => {
            width(of).map(|_| (Type::Number(Some(4)), 0))
        }
        ["io", "decimal"] => Some((Type::Number(Some(8)), 0)),
        ["io", "read_full"] => Some((Type::Number(Some(8)), 2 * 4096)),
        _ => None,
    }
}
