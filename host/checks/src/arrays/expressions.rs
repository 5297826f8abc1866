//! Expressions.

use super::parser::{Parsed, Parser};
use super::statements::ends_in_block;
use super::syntax::{Argument, Expression, ExpressionForm as Of, Path, Pattern};
use super::tokens::{fail, Token};

/// Binary operators, the loosest first; those of one row bind alike.
const OPERATORS: [&[&str]; 9] = [
    &["||"],
    &["&&"],
    &["==", "!=", "<", ">", "<=", ">="],
    &["|"],
    &["^"],
    &["&"],
    &["<<", ">>"],
    &["+", "-"],
    &["*", "/", "%"],
];

const ASSIGNMENTS: [&str; 11] = [
    "=", "+=", "-=", "*=", "/=", "%=", "&=", "|=", "^=", "<<=", ">>=",
];
impl Parser {
    pub fn expression(&mut self) -> Parsed<Expression> {
        self.assigned(true)
    }

    /// A condition or a matched value: no struct literal stands in it by itself, since its brace
    /// would be the block's.
    fn condition(&mut self) -> Parsed<Expression> {
        let line = self.line();
        if self.word("let") {
            let pattern = self.pattern()?;
            self.expect("=")?;
            let value = Box::new(self.assigned(false)?);
            let form = Of::Matches(pattern, value);
            return Ok(Expression { line, form });
        }
        self.assigned(false)
    }

    fn assigned(&mut self, structs: bool) -> Parsed<Expression> {
        let line = self.line();
        let place = self.range(structs)?;
        if !ASSIGNMENTS.iter().any(|symbol| self.symbol(symbol)) {
            return Ok(place);
        }
        let value = self.range(structs)?;
        let form = Of::Assign(Box::new(place), Box::new(value));
        Ok(Expression { line, form })
    }

    fn range(&mut self, structs: bool) -> Parsed<Expression> {
        let line = self.line();
        let from = if self.is_symbol("..") || self.is_symbol("..=") {
            None
        } else {
            Some(Box::new(self.binary(structs, 0)?))
        };
        if !self.symbol("..") && !self.symbol("..=") {
            if let Some(from) = from {
                return Ok(*from);
            }
        }
        let ends = [")", "]", "}", ",", ";", "{"];
        let to = if ends.iter().any(|end| self.is_symbol(end)) {
            None
        } else {
            Some(Box::new(self.binary(structs, 0)?))
        };
        let form = Of::Range(from, to);
        Ok(Expression { line, form })
    }

    fn binary(&mut self, structs: bool, level: usize) -> Parsed<Expression> {
        let Some(operators) = OPERATORS.get(level) else {
            return self.cast(structs);
        };
        let line = self.line();
        let mut left = self.binary(structs, level + 1)?;
        while let Some(operator) = operators.iter().find(|one| self.is_symbol(one)) {
            self.next();
            let right = Box::new(self.binary(structs, level + 1)?);
            let form = Of::Binary(operator, Box::new(left), right);
            left = Expression { line, form };
        }
        Ok(left)
    }

    fn cast(&mut self, structs: bool) -> Parsed<Expression> {
        let line = self.line();
        let mut value = self.unary(structs)?;
        while self.word("as") {
            let form = Of::Cast(Box::new(value), self.kind()?);
            value = Expression { line, form };
        }
        Ok(value)
    }

    fn unary(&mut self, structs: bool) -> Parsed<Expression> {
        let line = self.line();
        if self.symbol("&&") {
            self.word("mut");
            let inner = Of::Borrow(Box::new(self.unary(structs)?));
            let inner = Expression { line, form: inner };
            let form = Of::Borrow(Box::new(inner));
            return Ok(Expression { line, form });
        }
        let form: fn(Box<Expression>) -> Of = if self.symbol("&") {
            self.word("mut");
            Of::Borrow
        } else if self.symbol("*") {
            Of::Dereference
        } else if self.symbol("!") || self.symbol("-") {
            Of::Negation
        } else {
            return self.postfix(structs);
        };
        let form = form(Box::new(self.unary(structs)?));
        Ok(Expression { line, form })
    }

    fn postfix(&mut self, structs: bool) -> Parsed<Expression> {
        let mut value = self.primary(structs)?;
        loop {
            let line = self.line();
            let form = if self.symbol("[") {
                let index = Box::new(self.expression()?);
                self.expect("]")?;
                Of::Index(Box::new(value), index)
            } else if self.symbol("?") {
                Of::Try(Box::new(value))
            } else if self.symbol(".") {
                let name = match self.next() {
                    Some(Token::Word(name)) => name,
                    Some(Token::Number(place, None)) => place.to_string(),
                    _ => return fail(line, "not read: a field or a method is expected"),
                };
                if self.symbol("::") {
                    self.arguments_of_type()?;
                }
                if self.is_symbol("(") {
                    let arguments = self.listed("(", ")", Parser::expression)?;
                    Of::Method(Box::new(value), name, arguments)
                } else {
                    Of::Field(Box::new(value), name)
                }
            } else {
                return Ok(value);
            };
            value = Expression { line, form };
        }
    }

    pub fn primary(&mut self, structs: bool) -> Parsed<Expression> {
        let line = self.line();
        if self.is_symbol("{") {
            let form = Of::Block(self.block()?);
            return Ok(Expression { line, form });
        }
        if self.symbol("(") {
            let mut values = Vec::new();
            let mut is_tuple = false;
            while !self.symbol(")") {
                values.push(self.expression()?);
                if self.symbol(",") {
                    is_tuple = true;
                } else if !self.is_symbol(")") {
                    return self.unread(", is expected");
                }
            }
            let form = match values.pop() {
                Some(value) if !is_tuple => return Ok(value),
                last => Of::Tuple(values.into_iter().chain(last).collect()),
            };
            return Ok(Expression { line, form });
        }
        if self.word("move") || self.is_symbol("|") || self.is_symbol("||") {
            let form = self.closure()?;
            return Ok(Expression { line, form });
        }
        if self.symbol("[") {
            let form = self.list()?;
            return Ok(Expression { line, form });
        }
        let form = match self.peek().cloned() {
            Some(Token::Number(value, suffix)) => Of::Number(value, suffix),
            Some(Token::Float(suffix)) => Of::Float(suffix),
            Some(Token::Byte) => Of::Literal("u8"),
            Some(Token::ByteString(length)) => Of::ByteString(length),
            Some(Token::Word(word)) => {
                self.next();
                let form = self.worded(word, line, structs)?;
                return Ok(Expression { line, form });
            }
            _ => return self.unread("an expression is expected"),
        };
        self.next();
        Ok(Expression { line, form })
    }

    /// A list literal or `[value; length]`, behind its bracket.
    fn list(&mut self) -> Parsed<Of> {
        let mut elements = Vec::new();
        while !self.symbol("]") {
            let element = self.expression()?;
            if elements.is_empty() && self.symbol(";") {
                let length = Box::new(self.expression()?);
                self.expect("]")?;
                return Ok(Of::Repeat(Box::new(element), length));
            }
            elements.push(element);
            if !self.symbol(",") && !self.is_symbol("]") {
                return self.unread(", is expected");
            }
        }
        Ok(Of::List(elements))
    }

    /// An expression that begins with this word.
    fn worded(&mut self, word: String, line: usize, structs: bool) -> Parsed<Of> {
        Ok(match word.as_str() {
            "true" | "false" => Of::Literal("bool"),
            "if" => {
                let condition = Box::new(self.condition()?);
                let then = self.block()?;
                let otherwise = if self.word("else") {
                    Some(Box::new(self.primary(true)?))
                } else {
                    None
                };
                Of::If(condition, then, otherwise)
            }
            "match" => {
                let value = Box::new(self.condition()?);
                Of::Match(value, self.arms()?)
            }
            "while" => {
                let condition = Box::new(self.condition()?);
                Of::While(condition, self.block()?)
            }
            "loop" => Of::Loop(self.block()?),
            "for" => {
                let pattern = self.pattern()?;
                if !self.word("in") {
                    return self.unread("in is expected");
                }
                let over = Box::new(self.condition()?);
                Of::For(pattern, over, self.block()?)
            }
            "return" => Of::Return(self.given()?),
            "break" => Of::Break(self.given()?),
            "continue" => Of::Continue,
            "unsafe" | "async" | "static" | "let" => {
                return fail(line, format!("not read: {word} in an expression"))
            }
            _ => {
                let (path, given) = self.generic_path_from(word, line)?;
                if self.is_symbol("(") {
                    Of::Call(path, given, self.listed("(", ")", Parser::expression)?)
                } else if structs && self.is_symbol("{") {
                    let field = |parser: &mut Parser| {
                        let line = parser.line();
                        // `..rest` is a place or a constant.
                        if parser.symbol("..") {
                            parser.expression()?;
                            return Ok(None);
                        }
                        let name = parser.name()?;
                        let value = if parser.symbol(":") {
                            parser.expression()?
                        } else {
                            let words = vec![name.clone()];
                            let form = Of::Path(Path { words, line });
                            Expression { line, form }
                        };
                        Ok(Some((name, value)))
                    };
                    let fields = self.listed("{", "}", field)?;
                    Of::Struct(path, fields.into_iter().flatten().collect())
                } else if self.is_symbol("!") {
                    return fail(line, "not read: a macro");
                } else {
                    Of::Path(path)
                }
            }
        })
    }

    /// A closure, behind the word move.
    fn closure(&mut self) -> Parsed<Of> {
        let mut parameters = Vec::new();
        if !self.symbol("||") {
            parameters = self.listed("|", "|", |parser| {
                let pattern = parser.single_pattern()?;
                let of = if parser.symbol(":") {
                    Some(parser.kind()?)
                } else {
                    None
                };
                Ok((pattern, of))
            })?;
        }
        if self.symbol("->") {
            self.kind()?;
        }
        Ok(Of::Closure(parameters, Box::new(self.expression()?)))
    }

    /// The rest of a path whose first word was read, and what stands between `<` and `>` in it.
    fn generic_path_from(&mut self, first: String, line: usize) -> Parsed<(Path, Vec<Argument>)> {
        let mut words = vec![first];
        let mut given = Vec::new();
        while self.symbol("::") {
            if self.is_symbol("<") {
                given.extend(self.arguments_of_type()?);
            } else {
                words.push(self.name()?);
            }
        }
        Ok((Path { words, line }, given))
    }

    /// The value behind `return` or `break`, if there is one.
    fn given(&mut self) -> Parsed<Option<Box<Expression>>> {
        let ends = [";", "}", ","];
        if ends.iter().any(|end| self.is_symbol(end)) {
            return Ok(None);
        }
        Ok(Some(Box::new(self.expression()?)))
    }

    fn arms(&mut self) -> Parsed<Vec<(Pattern, Option<Expression>, Expression)>> {
        self.expect("{")?;
        let mut arms = Vec::new();
        while !self.symbol("}") {
            let pattern = self.pattern()?;
            let guard = if self.word("if") {
                Some(self.condition()?)
            } else {
                None
            };
            self.expect("=>")?;
            let value = self.statement()?;
            let ends = self.symbol(",") || self.is_symbol("}") || ends_in_block(&value);
            if !ends {
                return self.unread(", is expected");
            }
            arms.push((pattern, guard, value));
        }
        Ok(arms)
    }
}
