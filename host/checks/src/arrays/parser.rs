//! Reading tokens one after another: what all forms are read with. What stands in no form is refused,
//! with its line.

use super::syntax::Path;
use super::tokens::{fail, tokens, Failure, Placed, Token};

pub struct Parser {
    tokens: Vec<Placed>,
    at: usize,
}

pub type Parsed<T> = Result<T, Failure>;

impl Parser {
    pub fn new(source: &str) -> Parsed<Parser> {
        let tokens = tokens(source)?;
        Ok(Parser { tokens, at: 0 })
    }

    pub fn peek(&self) -> Option<&Token> {
        self.tokens.get(self.at).map(|(token, _)| token)
    }

    pub fn line(&self) -> usize {
        let last = self.tokens.len().saturating_sub(1);
        let here = self.tokens.get(self.at.min(last));
        here.map_or(1, |(_, line)| *line)
    }

    pub fn next(&mut self) -> Option<Token> {
        let token = self.peek().cloned();
        self.at += 1;
        token
    }

    pub fn is_symbol(&self, symbol: &str) -> bool {
        matches!(self.peek(), Some(Token::Symbol(s)) if *s == symbol)
    }

    pub fn is_word(&self, word: &str) -> bool {
        matches!(self.peek(), Some(Token::Word(w)) if w == word)
    }

    /// Takes this token, if it comes next.
    pub fn token(&mut self, token: &Token) -> bool {
        let is_next = self.peek() == Some(token);
        self.at += usize::from(is_next);
        is_next
    }

    /// Takes this symbol, if it comes next.
    pub fn symbol(&mut self, symbol: &str) -> bool {
        let is_next = self.is_symbol(symbol);
        self.at += usize::from(is_next);
        is_next
    }

    /// Takes this word, if it comes next.
    pub fn word(&mut self, word: &str) -> bool {
        let is_next = self.is_word(word);
        self.at += usize::from(is_next);
        is_next
    }

    pub fn expect(&mut self, symbol: &str) -> Parsed<()> {
        if self.symbol(symbol) {
            return Ok(());
        }
        self.unread(&format!("{symbol} is expected"))
    }

    /// What stands here is in no form that is read.
    pub fn unread<T>(&self, problem: &str) -> Parsed<T> {
        let found = match self.peek() {
            Some(token) => format!("{token:?}"),
            None => "the end".into(),
        };
        fail(
            self.line(),
            format!("not read: {problem}, {found} was found"),
        )
    }

    pub fn name(&mut self) -> Parsed<String> {
        match self.peek() {
            Some(Token::Word(word)) => {
                let word = word.clone();
                self.at += 1;
                Ok(word)
            }
            _ => self.unread("a name is expected"),
        }
    }

    /// Elements between two symbols, with commas between them.
    pub fn listed<T>(
        &mut self,
        open: &str,
        close: &str,
        mut element: impl FnMut(&mut Parser) -> Parsed<T>,
    ) -> Parsed<Vec<T>> {
        self.expect(open)?;
        let mut found = Vec::new();
        loop {
            // `>>` may end two lists.
            if close == ">" && self.is_symbol(">>") {
                self.tokens[self.at].0 = Token::Symbol(">");
                return Ok(found);
            }
            if self.symbol(close) {
                return Ok(found);
            }
            found.push(element(self)?);
            if !self.symbol(",") && ![close, ">>"].iter().any(|end| self.is_symbol(end)) {
                return self.unread(", is expected");
            }
        }
    }

    /// The rest of a path whose first word was read.
    pub fn path_from(&mut self, first: String, line: usize) -> Parsed<Path> {
        let mut words = vec![first];
        while self.symbol("::") {
            words.push(self.name()?);
        }
        Ok(Path { words, line })
    }

    pub fn path(&mut self) -> Parsed<Path> {
        let line = self.line();
        let first = self.name()?;
        self.path_from(first, line)
    }
}
