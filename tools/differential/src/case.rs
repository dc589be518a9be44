//! Case files: the lines that describe one set of tables and a series of calls.

use std::fmt;
use std::str::{FromStr, Split};

/// A case file. What stands before its first malformed line is kept, since the calls up to there
/// are still performed.
#[derive(Debug)]
pub struct Case {
    /// Whether internal extractors are expanded.
    pub expand: bool,
    /// The lines that may add a symbol, in file order: symbols are numbered in this order.
    pub entries: Vec<Entry>,
    pub source: Vec<Source>,
    pub calls: Vec<Call>,
}

#[derive(Debug)]
pub enum Entry {
    Symbol(String),
    Type { name: String, kind: TypeKind },
    Const { name: String, ty: u16 },
    Term(Term),
}

impl Entry {
    pub fn name(&self) -> &str {
        match self {
            Entry::Symbol(name) | Entry::Type { name, .. } | Entry::Const { name, .. } => name,
            Entry::Term(term) => &term.name,
        }
    }
}

#[derive(Clone, Copy, Debug)]
pub enum TypeKind {
    Bool,
    Int,
    Prim,
    Enum,
    Struct,
}

#[derive(Debug)]
pub struct Term {
    pub name: String,
    pub kind: TermKind,
    pub ret: u16,
    pub args: Vec<u16>,
}

#[derive(Debug)]
pub enum TermKind {
    Variant,
    Struct,
    Decl {
        flags: Flags,
        constructor: Option<Constructor>,
        extractor: Option<Extractor>,
    },
}

#[derive(Clone, Copy, Debug, Default)]
pub struct Flags {
    pub pure: bool,
    pub multi: bool,
    pub partial: bool,
    pub rec: bool,
}

#[derive(Clone, Copy, Debug)]
pub enum Constructor {
    Internal,
    External,
}

#[derive(Clone, Copy, Debug)]
pub enum Extractor {
    External,
    Template(Part),
}

/// Source records from `start` up to `end`, `end` not included.
#[derive(Clone, Copy, Debug)]
pub struct Part {
    pub start: u32,
    pub end: u32,
}

/// A source record. Trees are laid out with the root last.
#[derive(Debug)]
pub struct Source {
    pub node: Node,
    /// Counts the record and all below it.
    pub size: u16,
    pub file: u32,
    pub offset: u32,
}

#[derive(Debug)]
pub enum Node {
    Pattern(PatternNode),
    Expr(ExprNode),
    LetDef {
        var: String,
        ty: String,
    },
    IfLet,
    Rule {
        priority: Option<i64>,
        name: Option<String>,
    },
    Name(String),
    Converter,
}

#[derive(Debug)]
pub enum PatternNode {
    Var(String),
    Bind(String),
    Bool(bool),
    Int(i64),
    Const(String),
    Term(String),
    Wild,
    And,
    Arg(u16),
}

#[derive(Debug)]
pub enum ExprNode {
    Term(String),
    Var(String),
    Bool(bool),
    Int(i64),
    Const(String),
    Let,
}

impl Node {
    /// The names that the record itself holds.
    pub fn names(&self) -> Vec<&str> {
        match self {
            Node::Pattern(
                PatternNode::Var(name)
                | PatternNode::Bind(name)
                | PatternNode::Const(name)
                | PatternNode::Term(name),
            )
            | Node::Expr(ExprNode::Term(name) | ExprNode::Var(name) | ExprNode::Const(name))
            | Node::Name(name) => vec![name],
            Node::LetDef { var, ty } => vec![var, ty],
            Node::Rule { name, .. } => name.iter().map(String::as_str).collect(),
            _ => vec![],
        }
    }
}

#[derive(Clone, Copy, Debug)]
pub enum Call {
    Open,
    Converter(Part),
    Close,
    Rule(Part),
    Finish,
    /// The crate's stage does not run rules, so the words after `run` are only read over.
    Run,
    Dump,
}

impl Call {
    /// The call's first word.
    pub fn word(self) -> &'static str {
        match self {
            Call::Open => "open",
            Call::Converter(_) => "converter",
            Call::Close => "close",
            Call::Rule(_) => "rule",
            Call::Finish => "finish",
            Call::Run => "run",
            Call::Dump => "dump",
        }
    }
}

/// Why a line is malformed, and its number, counted from 1.
#[derive(Debug)]
pub struct Malformed {
    line: usize,
    reason: String,
}

impl fmt::Display for Malformed {
    fn fmt(&self, f: &mut fmt::Formatter<'_>) -> fmt::Result {
        write!(f, "line {}: {}", self.line, self.reason)
    }
}

type Read<T> = Result<T, String>;

/// Reads a case file, up to its end or its first malformed line.
pub fn read(text: &str) -> (Case, Result<(), Malformed>) {
    let mut case = Case {
        expand: true,
        entries: Vec::new(),
        source: Vec::new(),
        calls: Vec::new(),
    };
    for (index, line) in text.split('\n').enumerate() {
        if let Err(reason) = case.read_line(line) {
            let line = index + 1;
            return (case, Err(Malformed { line, reason }));
        }
    }
    (case, Ok(()))
}

impl Case {
    fn read_line(&mut self, line: &str) -> Read<()> {
        if line.is_empty() || line.starts_with('#') {
            return Ok(());
        }
        if !line.is_ascii() {
            return Err("a line has ASCII characters only".to_string());
        }
        let mut words = Words(line.split(' '));
        match words.next()? {
            "host" | "row" | "code" | "make" | "lit" | "sign" => Ok(()),
            word @ ("open" | "converter" | "close" | "rule" | "finish" | "run" | "dump") => {
                let call = read_call(word, &mut words)?;
                words.end()?;
                self.calls.push(call);
                Ok(())
            }
            _ if !self.calls.is_empty() => {
                Err("an environment line stands before the first call".to_string())
            }
            word => {
                self.read_environment(word, &mut words)?;
                words.end()
            }
        }
    }

    fn read_environment(&mut self, word: &str, words: &mut Words) -> Read<()> {
        match word {
            "limit" => return read_limit(words),
            "expand" => self.expand = words.flag()?,
            "symbol" => self.entries.push(Entry::Symbol(words.name()?)),
            "type" => self.entries.push(Entry::Type {
                name: words.name()?,
                kind: read_type_kind(words)?,
            }),
            "const" => self.entries.push(Entry::Const {
                name: words.name()?,
                ty: words.number()?,
            }),
            "term" => self.entries.push(Entry::Term(read_term(words)?)),
            "src" => self.source.push(read_source(words)?),
            _ => return Err(format!("`{word}` begins no line")),
        }
        Ok(())
    }
}

/// The crate's tables have no capacities: a limit is checked for its form and passed over.
fn read_limit(words: &mut Words) -> Read<()> {
    let table: u8 = words.number()?;
    words.number::<u64>()?;
    if table > 12 {
        return Err(format!("there is no table {table}"));
    }
    Ok(())
}

fn read_type_kind(words: &mut Words) -> Read<TypeKind> {
    Ok(match words.next()? {
        "bool" => TypeKind::Bool,
        "int" => TypeKind::Int,
        "prim" => TypeKind::Prim,
        "enum" => TypeKind::Enum,
        "struct" => TypeKind::Struct,
        word => return Err(format!("`{word}` is no kind of type")),
    })
}

fn read_term(words: &mut Words) -> Read<Term> {
    let name = words.name()?;
    let kind = read_term_kind(words)?;
    let ret = words.number()?;
    let mut args = Vec::new();
    while let Some(word) = words.more()? {
        args.push(number(word)?);
    }
    Ok(Term {
        name,
        kind,
        ret,
        args,
    })
}

fn read_term_kind(words: &mut Words) -> Read<TermKind> {
    let kind = words.next()?;
    let (flags, constructor, extractor) = (words.next()?, words.next()?, words.next()?);
    let bare = flags == "-" && constructor == "-" && extractor == "-";
    match kind {
        "variant" if bare => Ok(TermKind::Variant),
        "struct" if bare => Ok(TermKind::Struct),
        "variant" | "struct" => Err(format!("a {kind} has `-` three times")),
        "decl" => Ok(TermKind::Decl {
            flags: read_flags(flags)?,
            constructor: match constructor {
                "-" => None,
                "int" => Some(Constructor::Internal),
                "ext" => Some(Constructor::External),
                _ => return Err(format!("`{constructor}` is no kind of constructor")),
            },
            extractor: read_extractor(extractor)?,
        }),
        _ => Err(format!("`{kind}` is no kind of term")),
    }
}

fn read_flags(word: &str) -> Read<Flags> {
    let mut flags = Flags::default();
    if word == "-" {
        return Ok(flags);
    }
    for letter in word.chars() {
        let flag = match letter {
            'p' => &mut flags.pure,
            'm' => &mut flags.multi,
            'o' => &mut flags.partial,
            'r' => &mut flags.rec,
            _ => return Err(format!("`{letter}` is no flag")),
        };
        if std::mem::replace(flag, true) {
            return Err(format!("the flag `{letter}` stands twice"));
        }
    }
    Ok(flags)
}

fn read_extractor(word: &str) -> Read<Option<Extractor>> {
    match word {
        "-" => return Ok(None),
        "ext" => return Ok(Some(Extractor::External)),
        _ => {}
    }
    let part = word
        .strip_prefix("tmpl:")
        .and_then(|part| part.split_once(':'));
    let Some((start, end)) = part else {
        return Err(format!("`{word}` is no kind of extractor"));
    };
    let part = Part {
        start: number(start)?,
        end: number(end)?,
    };
    Ok(Some(Extractor::Template(part)))
}

fn read_source(words: &mut Words) -> Read<Source> {
    let tag = words.next()?;
    let size = words.number()?;
    let file = words.number()?;
    let offset = words.number()?;
    let node = match tag.split_once('-') {
        Some(("p", tag)) => Node::Pattern(read_pattern(tag, words)?),
        Some(("e", tag)) => Node::Expr(read_expr(tag, words)?),
        _ => read_other(tag, words)?,
    };
    Ok(Source {
        node,
        size,
        file,
        offset,
    })
}

fn read_pattern(tag: &str, words: &mut Words) -> Read<PatternNode> {
    Ok(match tag {
        "var" => PatternNode::Var(words.name()?),
        "bind" => PatternNode::Bind(words.name()?),
        "bool" => PatternNode::Bool(words.flag()?),
        "int" => PatternNode::Int(words.number()?),
        "const" => PatternNode::Const(words.name()?),
        "term" => PatternNode::Term(words.name()?),
        "wild" => PatternNode::Wild,
        "and" => PatternNode::And,
        "arg" => PatternNode::Arg(words.number()?),
        _ => return Err(format!("`p-{tag}` is no tag")),
    })
}

fn read_expr(tag: &str, words: &mut Words) -> Read<ExprNode> {
    Ok(match tag {
        "term" => ExprNode::Term(words.name()?),
        "var" => ExprNode::Var(words.name()?),
        "bool" => ExprNode::Bool(words.flag()?),
        "int" => ExprNode::Int(words.number()?),
        "const" => ExprNode::Const(words.name()?),
        "let" => ExprNode::Let,
        _ => return Err(format!("`e-{tag}` is no tag")),
    })
}

fn read_other(tag: &str, words: &mut Words) -> Read<Node> {
    Ok(match tag {
        "def" => Node::LetDef {
            var: words.name()?,
            ty: words.name()?,
        },
        "iflet" => Node::IfLet,
        "rule" => Node::Rule {
            priority: words.unless_dash()?.map(number).transpose()?,
            name: words.unless_dash()?.map(str::to_string),
        },
        "name" => Node::Name(words.name()?),
        "converter" => Node::Converter,
        _ => return Err(format!("`{tag}` is no tag")),
    })
}

fn read_call(word: &str, words: &mut Words) -> Read<Call> {
    Ok(match word {
        "open" => Call::Open,
        "converter" => Call::Converter(words.part()?),
        "close" => Call::Close,
        "rule" => Call::Rule(words.part()?),
        "finish" => Call::Finish,
        "dump" => Call::Dump,
        _ => {
            for _ in ["RULE", "VALUES", "WORK"] {
                words.number::<u64>()?;
            }
            while let Some(argument) = words.more()? {
                number::<u64>(argument)?;
            }
            Call::Run
        }
    })
}

/// The words of a line that have not been read yet.
struct Words<'a>(Split<'a, char>);

impl<'a> Words<'a> {
    fn more(&mut self) -> Read<Option<&'a str>> {
        match self.0.next() {
            Some("") => Err("words are separated by one space".to_string()),
            word => Ok(word),
        }
    }

    fn next(&mut self) -> Read<&'a str> {
        self.more()?.ok_or_else(|| "a word is missing".to_string())
    }

    fn name(&mut self) -> Read<String> {
        self.next().map(str::to_string)
    }

    fn number<T: FromStr>(&mut self) -> Read<T> {
        number(self.next()?)
    }

    fn flag(&mut self) -> Read<bool> {
        match self.next()? {
            "0" => Ok(false),
            "1" => Ok(true),
            word => Err(format!("`{word}` is not 0 or 1")),
        }
    }

    fn part(&mut self) -> Read<Part> {
        Ok(Part {
            start: self.number()?,
            end: self.number()?,
        })
    }

    fn unless_dash(&mut self) -> Read<Option<&'a str>> {
        Ok(Some(self.next()?).filter(|word| *word != "-"))
    }

    fn end(&mut self) -> Read<()> {
        match self.more()? {
            None => Ok(()),
            Some(word) => Err(format!("`{word}` is one word too many")),
        }
    }
}

/// A decimal number. `parse` alone would take a leading `+`, which is not one of ours.
fn number<T: FromStr>(word: &str) -> Read<T> {
    let fits = if word.starts_with('+') {
        None
    } else {
        word.parse().ok()
    };
    fits.ok_or_else(|| format!("`{word}` is no number, or does not fit"))
}
