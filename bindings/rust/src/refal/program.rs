//! A program as a tree, as document 01 lists its records.

/// From the first byte of the source to the one after the last; both 0 where nothing is known.
#[derive(Clone, Copy, Debug, Default, PartialEq, Eq)]
pub struct Span {
    pub start: u32,
    pub end: u32,
}

#[derive(Clone, Copy, Debug, PartialEq, Eq)]
pub enum Kind {
    Symbol,
    Term,
    Expression,
}

#[derive(Clone, Debug, PartialEq)]
pub struct Term {
    pub what: What,
    pub span: Span,
}

#[derive(Clone, Debug, PartialEq)]
pub enum What {
    Character(char),
    Identifier(String),
    Number(String),
    Variable(Kind, String),
    Bracket(Vec<Term>),
    Call(String, Vec<Term>),
    Block(Vec<Term>, Vec<Sentence>),
}

#[derive(Clone, Debug, PartialEq)]
pub struct Condition {
    pub result: Vec<Term>,
    pub pattern: Vec<Term>,
    pub span: Span,
}

#[derive(Clone, Debug, PartialEq)]
pub struct Sentence {
    pub pattern: Vec<Term>,
    pub conditions: Vec<Condition>,
    pub result: Vec<Term>,
    pub span: Span,
}

#[derive(Clone, Debug, PartialEq)]
pub struct Declaration {
    pub names: Vec<String>,
    pub span: Span,
}

#[derive(Clone, Debug, PartialEq)]
pub struct Function {
    pub name: String,
    pub entry: bool,
    pub sentences: Vec<Sentence>,
    pub span: Span,
}

#[derive(Clone, Debug, Default, PartialEq)]
pub struct Program {
    pub declarations: Vec<Declaration>,
    pub functions: Vec<Function>,
}

impl Program {
    /// The functions' own sentences in file order: the function's number, the sentence's in it, and the sentence.
    pub fn own_sentences(&self) -> impl Iterator<Item = (usize, usize, &Sentence)> {
        let functions = self.functions.iter().enumerate();
        functions
            .flat_map(|(f, function)| function.sentences.iter().enumerate().map(move |(s, sentence)| (f, s, sentence)))
    }

    /// The first function of a name, by document 01's "names meet without regard to ASCII case".
    pub fn function_named(&self, name: &str) -> Option<usize> {
        self.functions.iter().position(|function| function.name.eq_ignore_ascii_case(name))
    }

    pub fn declares(&self, name: &str) -> bool {
        let mut names = self.declarations.iter().flat_map(|declaration| &declaration.names);
        names.any(|declared| declared.eq_ignore_ascii_case(name))
    }

    /// "Root: first Entry function, else the first."
    pub fn root(&self) -> usize {
        self.functions.iter().position(|function| function.entry).unwrap_or(0)
    }
}

/// A call of one of these names can call any function: nothing is cleaned.
pub fn dispatches(name: &str) -> bool {
    ["Mu", "Up"].iter().any(|known| known.eq_ignore_ascii_case(name))
}
