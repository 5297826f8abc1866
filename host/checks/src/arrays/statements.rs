//! Blocks, statements and patterns.

use super::parser::{Parsed, Parser};
use super::syntax::{Binding, Block, Expression, ExpressionForm as Of, Pattern, Statement};
use super::tokens::{fail, Token};

impl Parser {
    pub fn block(&mut self) -> Parsed<Block> {
        self.expect("{")?;
        let mut statements = Vec::new();
        let mut value = None;
        while !self.symbol("}") {
            if self.symbol(";") {
                continue;
            }
            if self.word("let") {
                statements.push(Statement::Let(self.binding()?));
                continue;
            }
            let expression = self.statement()?;
            if self.symbol(";") {
                statements.push(Statement::Expression(expression));
            } else if self.is_symbol("}") {
                value = Some(Box::new(expression));
            } else if ends_in_block(&expression) {
                statements.push(Statement::Expression(expression));
            } else {
                return self.unread("; or } is expected");
            }
        }
        Ok(Block { statements, value })
    }

    /// An expression as a statement: one that begins as a block ends with it.
    pub fn statement(&mut self) -> Parsed<Expression> {
        let words = ["if", "match", "while", "loop", "for"];
        let begins_block = words.iter().any(|word| self.is_word(word)) || self.is_symbol("{");
        if !begins_block {
            return self.expression();
        }
        self.primary(true)
    }

    /// A `let` behind its word.
    fn binding(&mut self) -> Parsed<Binding> {
        let line = self.line();
        let pattern = self.pattern()?;
        let of = if self.symbol(":") {
            Some(self.kind()?)
        } else {
            None
        };
        let value = if self.symbol("=") {
            Some(self.expression()?)
        } else {
            None
        };
        let otherwise = if self.word("else") {
            Some(self.block()?)
        } else {
            None
        };
        self.expect(";")?;
        Ok(Binding {
            line,
            pattern,
            of,
            value,
            otherwise,
        })
    }

    pub fn pattern(&mut self) -> Parsed<Pattern> {
        self.symbol("|");
        let first = self.single_pattern()?;
        if !self.is_symbol("|") {
            return Ok(first);
        }
        let mut either = vec![first];
        while self.symbol("|") {
            either.push(self.single_pattern()?);
        }
        Ok(Pattern::Either(either))
    }

    pub fn single_pattern(&mut self) -> Parsed<Pattern> {
        let line = self.line();
        let is_number =
            |token: Option<&Token>| matches!(token, Some(Token::Number(..) | Token::Byte));
        if self.symbol("-") || is_number(self.peek()) {
            // A number or a range of numbers.
            loop {
                if !is_number(self.peek()) {
                    return self.unread("a number is expected");
                }
                self.next();
                if !self.symbol("..=") && !self.symbol("..") {
                    return Ok(Pattern::Nothing);
                }
                self.symbol("-");
            }
        }
        if self.word("_") || self.word("true") || self.word("false") {
            return Ok(Pattern::Nothing);
        }
        if self.symbol("&") {
            return Ok(Pattern::Behind(Box::new(self.single_pattern()?)));
        }
        if self.is_symbol("(") {
            let patterns = self.listed("(", ")", Parser::pattern)?;
            return Ok(Pattern::Tuple(patterns));
        }
        if self.is_symbol("[") {
            let patterns = self.listed("[", "]", |parser| match parser.symbol("..") {
                true => Ok(Pattern::Nothing),
                false => parser.pattern(),
            })?;
            return Ok(Pattern::List(patterns));
        }
        let is_mut = self.word("mut");
        let first = self.name()?;
        if first == "ref" {
            return fail(line, "not read: a pattern with ref");
        }
        let path = self.path_from(first, line)?;
        if self.is_symbol("(") {
            let fields = self.listed("(", ")", Parser::pattern)?;
            let number = |(i, pattern): (usize, Pattern)| (i.to_string(), pattern);
            let fields = fields.into_iter().enumerate().map(number).collect();
            return Ok(Pattern::Variant(path, fields));
        }
        if self.is_symbol("{") {
            let fields = self.listed("{", "}", |parser| {
                // `..` binds nothing.
                if parser.symbol("..") {
                    return Ok(None);
                }
                let name = parser.name()?;
                let pattern = if parser.symbol(":") {
                    parser.pattern()?
                } else {
                    Pattern::Name(name.clone())
                };
                Ok(Some((name, pattern)))
            })?;
            let fields = fields.into_iter().flatten().collect();
            return Ok(Pattern::Variant(path, fields));
        }
        match path.words.as_slice() {
            [name] => Ok(Pattern::Name(name.clone())),
            _ if is_mut => self.unread("a name is expected"),
            _ => Ok(Pattern::Variant(path, Vec::new())),
        }
    }
}

/// Whether an expression may stand as a statement without a semicolon.
pub fn ends_in_block(expression: &Expression) -> bool {
    matches!(
        expression.form,
        Of::If(..) | Of::Match(..) | Of::While(..) | Of::Loop(_) | Of::For(..) | Of::Block(_)
    )
}
