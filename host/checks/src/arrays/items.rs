//! The items of a source: modules, uses, constants, types, traits, functions.

use super::parser::{Parsed, Parser};
use super::syntax::{
    Argument, Constant, Declared, Form, Function, Item, Parameter, Path, Trait, Written,
};
use super::tokens::Token;

/// The items of a source.
pub fn items(source: &str) -> Parsed<Vec<Item>> {
    let mut parser = Parser::new(source)?;
    let mut found = Vec::new();
    while parser.peek().is_some() {
        parser.item(&mut found)?;
    }
    Ok(found)
}

impl Parser {
    fn item(&mut self, found: &mut Vec<Item>) -> Parsed<()> {
        let line = self.line();
        let mut is_export = false;
        while self.symbol("#") {
            // `#![..]` is the whole file's.
            let of_file = self.symbol("!");
            self.expect("[")?;
            while !self.symbol("]") {
                is_export |= self.is_word("no_mangle");
                if self.next().is_none() {
                    return self.unread("] is expected");
                }
            }
            if of_file {
                return Ok(());
            }
        }
        if self.token(&Token::Ghost) {
            return Ok(());
        }
        let mut is_public = self.word("pub");
        if is_public && self.is_symbol("(") {
            // `pub(crate)`
            self.listed("(", ")", Parser::name)?;
            is_public = false;
        }
        if self.word("use") {
            self.uses(&[], found)?;
            return self.expect(";");
        }
        if self.word("mod") {
            found.push(Item::Module(self.name()?, line));
            return self.expect(";");
        }
        if self.word("impl") {
            self.generics()?;
            let mut of = self.kind()?;
            let mut of_trait = None;
            if self.word("for") {
                of_trait = match of {
                    Written::Named(_) | Written::Generic(..) => Some(of),
                    _ => return self.unread("a trait is expected"),
                };
                of = self.kind()?;
            }
            self.expect("{")?;
            let mut inside = Vec::new();
            while !self.symbol("}") {
                self.item(&mut inside)?;
                self.symbol(";");
            }
            found.push(Item::Methods(of_trait, of, inside));
            return Ok(());
        }
        if self.word("trait") {
            found.push(Item::Trait(self.asked(is_public)?));
            return Ok(());
        }
        if let Some(item) = self.declared()? {
            found.push(Item::Declared(item));
            return Ok(());
        }
        if self.word("extern") {
            self.next();
        }
        let is_constant = self.word("const");
        if self.word("fn") {
            found.push(Item::Function(self.function(is_public, is_export)?));
            return Ok(());
        }
        if is_constant {
            found.push(Item::Constant(self.constant()?));
            return Ok(());
        }
        self.unread("an item is expected")
    }

    /// What `use` names, each path with the name that it gets.
    fn uses(&mut self, before: &[String], found: &mut Vec<Item>) -> Parsed<()> {
        let line = self.line();
        let mut words = before.to_vec();
        loop {
            if self.is_symbol("{") {
                self.listed("{", "}", |parser| parser.uses(&words, found))?;
                return Ok(());
            }
            words.push(self.name()?);
            if !self.symbol("::") {
                break;
            }
        }
        let last = words.last().cloned().unwrap_or_default();
        let name = if self.word("as") { self.name()? } else { last };
        found.push(Item::Use(Path { words, line }, name));
        Ok(())
    }

    fn constant(&mut self) -> Parsed<Constant> {
        let line = self.line();
        let name = self.name()?;
        self.expect(":")?;
        let of = self.kind()?;
        self.expect("=")?;
        let value = self.expression()?;
        self.expect(";")?;
        Ok(Constant {
            name,
            line,
            of,
            value,
        })
    }

    fn declared(&mut self) -> Parsed<Option<Declared>> {
        let line = self.line();
        if self.word("type") {
            let name = self.name()?;
            self.expect("=")?;
            let form = Form::Alias(self.kind()?);
            self.expect(";")?;
            return Ok(Some(Declared { name, line, form }));
        }
        if self.word("struct") {
            let name = self.name()?;
            self.generics()?;
            let form = Form::Struct(self.fields()?);
            self.symbol(";");
            return Ok(Some(Declared { name, line, form }));
        }
        if self.word("enum") {
            let name = self.name()?;
            let variant = |parser: &mut Parser| {
                let name = parser.name()?;
                let fields = parser.fields()?;
                if parser.symbol("=") {
                    parser.expression()?;
                }
                Ok((name, fields))
            };
            let form = Form::Enum(self.listed("{", "}", variant)?);
            return Ok(Some(Declared { name, line, form }));
        }
        Ok(None)
    }

    /// The fields of a struct or a variant: in braces with names, in parentheses without, or none.
    fn fields(&mut self) -> Parsed<Vec<(String, Written)>> {
        fn visible(parser: &mut Parser) -> Parsed<()> {
            if parser.word("pub") && parser.is_symbol("(") {
                parser.listed("(", ")", Parser::name)?;
            }
            Ok(())
        }
        if self.is_symbol("{") {
            let fields = self.listed("{", "}", |parser| {
                visible(parser)?;
                if parser.token(&Token::Ghost) {
                    return Ok(None);
                }
                let name = parser.name()?;
                parser.expect(":")?;
                Ok(Some((name, parser.kind()?)))
            })?;
            return Ok(fields.into_iter().flatten().collect());
        }
        if self.is_symbol("(") {
            let kinds = self.listed("(", ")", |parser| {
                visible(parser)?;
                parser.kind()
            })?;
            let number = |(i, kind): (usize, Written)| (i.to_string(), kind);
            return Ok(kinds.into_iter().enumerate().map(number).collect());
        }
        Ok(Vec::new())
    }

    pub fn kind(&mut self) -> Parsed<Written> {
        if self.symbol("&&") {
            return Ok(Written::Reference(Box::new(self.referent()?)));
        }
        if self.symbol("&") {
            return self.referent();
        }
        if self.is_symbol("(") {
            let kinds = self.listed("(", ")", Parser::kind)?;
            return Ok(match kinds.len() {
                0 => Written::Unit,
                _ => Written::Tuple(kinds),
            });
        }
        if self.symbol("[") {
            let element = Box::new(self.kind()?);
            let of = if self.symbol(";") {
                Written::Array(element, Box::new(self.expression()?))
            } else {
                Written::Slice(element)
            };
            self.expect("]")?;
            return Ok(of);
        }
        self.word("impl");
        let path = self.path()?;
        if matches!(
            path.words.last().map(String::as_str),
            Some("Fn" | "FnMut" | "FnOnce")
        ) {
            let parameters = self.listed("(", ")", Parser::kind)?;
            let result = if self.symbol("->") {
                self.kind()?
            } else {
                Written::Unit
            };
            return Ok(Written::Callable(parameters, Box::new(result)));
        }
        if self.is_symbol("<") {
            let arguments = self.arguments_of_type()?;
            if !arguments.is_empty() {
                return Ok(Written::Generic(path, arguments));
            }
        }
        Ok(Written::Named(path))
    }

    /// What stands between `<` and `>` behind a path; lifetimes are left out.
    pub fn arguments_of_type(&mut self) -> Parsed<Vec<Argument>> {
        let found = self.listed("<", ">", |parser| {
            if parser.token(&Token::Lifetime) {
                return Ok(None);
            }
            if parser.is_symbol("{") || matches!(parser.peek(), Some(Token::Number(..))) {
                return Ok(Some(Argument::Constant(parser.primary(true)?)));
            }
            parser.kind().map(Argument::Type).map(Some)
        })?;
        Ok(found.into_iter().flatten().collect())
    }

    /// The parameters between `<` and `>` behind a name, if there are any; lifetimes are left out.
    fn generics(&mut self) -> Parsed<Vec<Parameter>> {
        if !self.is_symbol("<") {
            return Ok(Vec::new());
        }
        let found = self.listed("<", ">", |parser| {
            if parser.token(&Token::Lifetime) {
                return Ok(None);
            }
            if parser.word("const") {
                let name = parser.name()?;
                parser.expect(":")?;
                parser.kind()?;
                return Ok(Some(Parameter::Constant(name)));
            }
            let name = parser.name()?;
            if !parser.symbol(":") {
                return parser.unread("a bound is expected");
            }
            let mut bounds = vec![parser.kind()?];
            while parser.symbol("+") {
                bounds.push(parser.kind()?);
            }
            Ok(Some(Parameter::Type(name, bounds)))
        })?;
        Ok(found.into_iter().flatten().collect())
    }

    /// What a reference refers to, behind its `&`.
    fn referent(&mut self) -> Parsed<Written> {
        self.token(&Token::Lifetime);
        self.word("mut");
        Ok(Written::Reference(Box::new(self.kind()?)))
    }

    /// A trait behind its word: ghost members, and functions with a body or without.
    fn asked(&mut self, is_public: bool) -> Parsed<Trait> {
        let line = self.line();
        let name = self.name()?;
        self.expect("{")?;
        let mut functions = Vec::new();
        while !self.symbol("}") {
            if self.token(&Token::Ghost) {
                self.symbol(";");
                continue;
            }
            if !self.word("fn") {
                return self.unread("a function is expected");
            }
            let mut function = self.head(is_public, false)?;
            if !self.symbol(";") {
                function.body = Some(self.block()?);
            }
            functions.push(function);
        }
        Ok(Trait {
            name,
            line,
            functions,
        })
    }

    fn function(&mut self, is_public: bool, is_export: bool) -> Parsed<Function> {
        let mut function = self.head(is_public, is_export)?;
        function.body = Some(self.block()?);
        Ok(function)
    }

    /// A function up to its body.
    fn head(&mut self, is_public: bool, is_export: bool) -> Parsed<Function> {
        let line = self.line();
        let name = self.name()?;
        let generics = self.generics()?;
        let parameters = self.listed("(", ")", Parser::parameter)?;
        let result = if self.symbol("->") {
            self.kind()?
        } else {
            Written::Unit
        };
        let mut contract = String::new();
        while let Some(Token::Contract(text)) = self.peek() {
            contract.push_str(text);
            self.next();
        }
        Ok(Function {
            name,
            line,
            is_public,
            is_export,
            generics,
            parameters,
            result,
            contract,
            body: None,
        })
    }

    fn parameter(parser: &mut Parser) -> Parsed<(String, Written)> {
        let line = parser.line();
        let own = |line| {
            let words = vec!["Self".to_string()];
            Written::Named(Path { words, line })
        };
        if parser.symbol("&") {
            parser.token(&Token::Lifetime);
            parser.word("mut");
            if parser.word("self") {
                return Ok(("self".into(), Written::Reference(Box::new(own(line)))));
            }
            return parser.unread("self is expected");
        }
        parser.word("mut");
        let name = parser.name()?;
        if name == "self" {
            return Ok((name, own(line)));
        }
        parser.expect(":")?;
        Ok((name, parser.kind()?))
    }
}
