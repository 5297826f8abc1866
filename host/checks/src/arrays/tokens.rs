//! The tokens of a Rattle source. Comments are gone, and a contract is one token: neither holds
//! anything at run time.

use crate::rattle::{is_word, past_group};

/// What went wrong at a line of a source.
#[derive(Clone, Debug, PartialEq, Eq)]
pub struct Failure {
    pub line: usize,
    pub problem: String,
}

impl Failure {
    /// The same where another line led to it, of whatever file.
    pub fn at(self, line: usize) -> Failure {
        Failure { line, ..self }
    }
}

pub fn fail<T>(line: usize, problem: impl Into<String>) -> Result<T, Failure> {
    let problem = problem.into();
    Err(Failure { line, problem })
}

#[derive(Clone, Debug, PartialEq, Eq)]
pub enum Token {
    Word(String),
    /// An integer literal, and the type that it names.
    Number(u64, Option<String>),
    /// A literal `1.5`, `b'a'`, and one `b"abc"` with its length.
    Float(Option<String>),
    Byte,
    ByteString(u64),
    /// A string, as in `extern "C"`.
    Text,
    Lifetime,
    /// `requires { .. }` or `ensures { .. }`, with its text.
    Contract(String),
    /// `ghost use ..;`, or a ghost member of a type or an impl block
    Ghost,
    Symbol(&'static str),
}

/// A token and its line.
pub type Placed = (Token, usize);

/// Longer ones first.
const SYMBOLS: [&str; 48] = [
    "<<=", ">>=", "..=", "::", "->", "=>", "..", "==", "!=", "<=", ">=", "&&", "||", "<<", ">>",
    "+=", "-=", "*=", "/=", "%=", "&=", "|=", "^=", "(", ")", "[", "]", "{", "}", "<", ">", "=",
    "+", "-", "*", "/", "%", "&", "|", "^", "!", ".", ",", ";", ":", "#", "@", "?",
];

/// The words that begin a contract.
const CONTRACTS: [&str; 2] = ["requires", "ensures"];

/// What begins a comment, a text or a character in antt: a brace or a semicolon there ends nothing.
const UNREAD_IN_ANTT: [&str; 7] = ["//", "--", "{-", "\"", "b'", "'{", "'}"];

pub fn tokens(source: &str) -> Result<Vec<Placed>, Failure> {
    let mut reader = Reader {
        rest: source,
        line: 1,
    };
    let mut found = Vec::new();
    loop {
        reader.skip_blanks();
        let line = reader.line;
        match reader.token()? {
            Some(token) => found.push((token, line)),
            None => return Ok(found),
        }
    }
}

struct Reader<'a> {
    rest: &'a str,
    line: usize,
}

impl<'a> Reader<'a> {
    /// Takes this many bytes.
    fn take(&mut self, bytes: usize) -> &'a str {
        let (taken, rest) = self.rest.split_at(bytes);
        self.line += taken.matches('\n').count();
        self.rest = rest;
        taken
    }

    fn take_while(&mut self, belongs: impl Fn(char) -> bool) -> &'a str {
        let end = self.rest.find(|c| !belongs(c));
        self.take(end.unwrap_or(self.rest.len()))
    }

    /// Skips white space and line comments.
    fn skip_blanks(&mut self) {
        loop {
            self.take_while(char::is_whitespace);
            if !self.rest.starts_with("//") {
                return;
            }
            self.take_while(|c| c != '\n');
        }
    }

    fn token(&mut self) -> Result<Option<Token>, Failure> {
        let Some(first) = self.rest.chars().next() else {
            return Ok(None);
        };
        let token = if self.rest.starts_with("b'") {
            self.take(1);
            self.quoted('\'')?;
            Token::Byte
        } else if self.rest.starts_with("b\"") {
            self.take(1);
            Token::ByteString(self.quoted('"')?)
        } else if first == '"' {
            self.quoted('"')?;
            Token::Text
        } else if first == '\'' {
            self.take(1);
            self.take_while(is_word);
            Token::Lifetime
        } else if first.is_ascii_digit() {
            self.number()?
        } else if is_word(first) {
            let word = self.take_while(is_word);
            if CONTRACTS.contains(&word) {
                self.contract()?
            } else if word == "ghost" {
                self.ghost()?
            } else {
                Token::Word(word.to_string())
            }
        } else if self.rest.starts_with("/*") {
            return fail(self.line, "not read: a comment of this form");
        } else if let Some(symbol) = SYMBOLS.iter().find(|one| self.rest.starts_with(**one)) {
            self.take(symbol.len());
            Token::Symbol(symbol)
        } else {
            return fail(self.line, format!("no token of Rattle begins with {first}"));
        };
        Ok(Some(token))
    }

    /// Takes a text between quotes, and says how many bytes it stands for.
    fn quoted(&mut self, quote: char) -> Result<u64, Failure> {
        let line = self.line;
        self.take(1);
        let mut bytes = 0;
        let mut chars = self.rest.char_indices();
        while let Some((at, c)) = chars.next() {
            if c == quote {
                self.take(at + 1);
                return Ok(bytes);
            }
            bytes += c.len_utf8() as u64;
            if c == '\\' {
                // An escape stands for one byte: \n, or \x and two digits.
                let is_hex = matches!(chars.next(), Some((_, 'x')));
                if is_hex {
                    chars.nth(1);
                }
            }
        }
        fail(line, "a literal has no end")
    }

    fn number(&mut self) -> Result<Token, Failure> {
        let line = self.line;
        let radix = match self.rest.get(..2) {
            Some("0x") => 16,
            Some("0o") => 8,
            Some("0b") => 2,
            _ => 10,
        };
        if radix != 10 {
            self.take(2);
        }
        let digits = self.take_while(|c| c.is_digit(radix) || c == '_');
        let is_float = radix == 10 && {
            let mut next = self.rest.chars();
            next.next() == Some('.') && next.next().is_some_and(|c| c.is_ascii_digit())
        };
        if is_float {
            self.take(1);
            self.take_while(|c| c.is_ascii_digit() || c == '_');
        }
        let suffix = self.take_while(is_word);
        let suffix = (!suffix.is_empty()).then(|| suffix.to_string());
        if is_float {
            return Ok(Token::Float(suffix));
        }
        match u64::from_str_radix(&digits.replace('_', ""), radix) {
            Ok(value) => Ok(Token::Number(value, suffix)),
            Err(_) => fail(line, format!("{digits} is no number of 64 bits")),
        }
    }

    /// What a contract's text may name, or a ghost member with its text in braces, behind the word
    /// ghost.
    fn ghost(&mut self) -> Result<Token, Failure> {
        let line = self.line;
        self.skip_blanks();
        if self.take_while(is_word) == "use" {
            let Some(end) = self.rest.find(';') else {
                return fail(line, "ghost use has no end");
            };
            self.antt(end + 1)?;
            return Ok(Token::Ghost);
        }
        self.take_while(|c| is_word(c) || c.is_whitespace() || c == ':' || c == '=');
        if !self.rest.starts_with('{') {
            return fail(line, "a ghost member has no braces");
        }
        self.antt(past_group(self.rest, 0, '{', '}'))?;
        Ok(Token::Ghost)
    }

    /// A contract behind its first word: a name, if it has one, and a group in braces.
    fn contract(&mut self) -> Result<Token, Failure> {
        let line = self.line;
        self.skip_blanks();
        self.take_while(is_word);
        self.skip_blanks();
        if !self.rest.starts_with('{') {
            return fail(line, "a contract has no braces");
        }
        let text = self.antt(past_group(self.rest, 0, '{', '}'))?;
        Ok(Token::Contract(text.to_string()))
    }

    /// Takes this many bytes of antt, in which nothing may stand for something else.
    fn antt(&mut self, bytes: usize) -> Result<&'a str, Failure> {
        let line = self.line;
        let text = self.take(bytes);
        if UNREAD_IN_ANTT.iter().any(|mark| text.contains(mark)) {
            return fail(line, "not read: antt with a comment, a text or a character");
        }
        // What stands in these brackets is one name, whatever it spells.
        for name in text.split('«').skip(1) {
            let name = name.split('»').next().unwrap_or_default();
            if name.contains(['{', '}', ';']) {
                return fail(line, "not read: a name with a brace or a semicolon");
            }
        }
        Ok(text)
    }
}
