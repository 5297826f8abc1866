//! The tree of a Rattle source, as far as arrays and calls need it.

/// Words joined by `::`.
#[derive(Clone, Debug, PartialEq, Eq)]
pub struct Path {
    pub words: Vec<String>,
    pub line: usize,
}

/// What stands between `<` and `>` behind a path.
#[derive(Clone, Debug)]
pub enum Argument {
    Type(Written),
    /// A constant in braces, or a number.
    Constant(Expression),
}

/// A parameter between `<` and `>` behind a function's name; lifetimes are left out.
#[derive(Clone, Debug)]
pub enum Parameter {
    /// `const NAME: usize`
    Constant(String),
    /// `NAME: bound + ..`
    Type(String, Vec<Written>),
}

#[derive(Clone, Debug)]
pub enum Item {
    /// `use path;` or `use path as name;`, public or not.
    Use(Path, String),
    /// `mod name;`
    Module(String, usize),
    Constant(Constant),
    Declared(Declared),
    Function(Function),
    Trait(Trait),
    /// `impl name { .. }`, or `impl trait<type> for name { .. }`, with the trait
    Methods(Option<Written>, Written, Vec<Item>),
}

#[derive(Clone, Debug)]
pub struct Constant {
    pub name: String,
    pub line: usize,
    pub of: Written,
    pub value: Expression,
}

/// A declared type.
#[derive(Clone, Debug)]
pub struct Declared {
    pub name: String,
    pub line: usize,
    pub form: Form,
}

#[derive(Clone, Debug)]
pub enum Form {
    /// `type name = type;`
    Alias(Written),
    /// Fields by name; those of a tuple struct are 0, 1, ..
    Struct(Vec<(String, Written)>),
    /// Variants by name, with their fields.
    Enum(Vec<(String, Vec<(String, Written)>)>),
}

/// `trait name { .. }`, with its functions: each is as public as the trait.
#[derive(Clone, Debug)]
pub struct Trait {
    pub name: String,
    pub line: usize,
    pub functions: Vec<Function>,
}

#[derive(Clone, Debug)]
pub struct Function {
    pub name: String,
    pub line: usize,
    pub is_public: bool,
    /// Whether it is marked `#[unsafe(no_mangle)]`.
    pub is_export: bool,
    pub generics: Vec<Parameter>,
    pub parameters: Vec<(String, Written)>,
    pub result: Written,
    /// The text of its contracts.
    pub contract: String,
    /// None where a trait leaves it to its `impl` blocks.
    pub body: Option<Block>,
}

/// A type as it is written.
#[derive(Clone, Debug)]
pub enum Written {
    Named(Path),
    Array(Box<Written>, Box<Expression>),
    Slice(Box<Written>),
    Reference(Box<Written>),
    Tuple(Vec<Written>),
    /// `name<argument, ..>`
    Generic(Path, Vec<Argument>),
    /// `impl Fn(type, ..) -> type`, also as the bound of a parameter
    Callable(Vec<Written>, Box<Written>),
    Unit,
}

#[derive(Clone, Debug)]
pub struct Block {
    pub statements: Vec<Statement>,
    /// The expression behind the last semicolon, which is the block's value.
    pub value: Option<Box<Expression>>,
}

#[derive(Clone, Debug)]
pub enum Statement {
    Let(Binding),
    Expression(Expression),
}

/// `let pattern: type = value else { .. };`
#[derive(Clone, Debug)]
pub struct Binding {
    pub line: usize,
    pub pattern: Pattern,
    pub of: Option<Written>,
    pub value: Option<Expression>,
    pub otherwise: Option<Block>,
}

#[derive(Clone, Debug)]
pub enum Pattern {
    /// `_`, a number, a range or `true`: binds nothing.
    Nothing,
    /// A name, which is bound unless it is a constant's.
    Name(String),
    /// A path alone, or with the patterns of its fields.
    Variant(Path, Vec<(String, Pattern)>),
    Either(Vec<Pattern>),
    /// `(pattern, ..)`
    Tuple(Vec<Pattern>),
    /// `[pattern, ..]`
    List(Vec<Pattern>),
    /// `&pattern`
    Behind(Box<Pattern>),
}

#[derive(Clone, Debug)]
pub struct Expression {
    pub line: usize,
    pub form: ExpressionForm,
}

#[derive(Clone, Debug)]
pub enum ExpressionForm {
    /// An integer literal, and the type that it names.
    Number(u64, Option<String>),
    /// Another literal, of this type.
    Literal(&'static str),
    /// A float, and the type that it names.
    Float(Option<String>),
    ByteString(u64),
    Path(Path),
    /// `name { field: value, .. }`
    Struct(Path, Vec<(String, Expression)>),
    List(Vec<Expression>),
    Repeat(Box<Expression>, Box<Expression>),
    Call(Path, Vec<Argument>, Vec<Expression>),
    Tuple(Vec<Expression>),
    /// `value?`
    Try(Box<Expression>),
    /// `|pattern, ..| value`
    Closure(Vec<(Pattern, Option<Written>)>, Box<Expression>),
    Method(Box<Expression>, String, Vec<Expression>),
    Field(Box<Expression>, String),
    Index(Box<Expression>, Box<Expression>),
    Range(Option<Box<Expression>>, Option<Box<Expression>>),
    Borrow(Box<Expression>),
    Dereference(Box<Expression>),
    /// `!x` and `-x`
    Negation(Box<Expression>),
    Cast(Box<Expression>, Written),
    Binary(&'static str, Box<Expression>, Box<Expression>),
    /// `place = value`, `place += value`
    Assign(Box<Expression>, Box<Expression>),
    /// `let pattern = value` in a condition
    Matches(Pattern, Box<Expression>),
    If(Box<Expression>, Block, Option<Box<Expression>>),
    /// The arms: a pattern, a guard, a value.
    Match(
        Box<Expression>,
        Vec<(Pattern, Option<Expression>, Expression)>,
    ),
    While(Box<Expression>, Block),
    Loop(Block),
    For(Pattern, Box<Expression>, Block),
    Block(Block),
    Return(Option<Box<Expression>>),
    Break(Option<Box<Expression>>),
    Continue,
}

impl Expression {
    /// Whether it names a place, so that nothing is made where it is read in part.
    pub fn is_place(&self) -> bool {
        matches!(
            self.form,
            ExpressionForm::Path(_)
                | ExpressionForm::Field(..)
                | ExpressionForm::Index(..)
                | ExpressionForm::Dereference(_)
        )
    }
}
