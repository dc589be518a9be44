//! `generate SEED` prints a random case file: an environment, converters and calls.
//!
//! The same seed gives the same file. Nothing in it is refused, since the crate refuses nothing.

use std::collections::HashSet;
use std::env;
use std::process::ExitCode;

const BUILT_IN: [&str; 13] = [
    "bool", "u8", "u16", "u32", "u64", "u128", "usize", "i8", "i16", "i32", "i64", "i128", "isize",
];

/// Few names, so that types, constants, terms and symbols often share one. The odd ones are there
/// because both sides have to keep apart what is a name and what stands around it.
const NAMES: [&str; 18] = [
    "Board",
    "Edge",
    "Joint",
    "Slab",
    "Peg",
    "Oak",
    "Ash",
    "plane",
    "saw",
    "glue",
    "fit",
    "edge",
    "Joint.Tenon",
    "Joint.Dowel",
    "'",
    "','",
    "-",
    "15",
];

/// Names that nothing is called by, unless a `symbol` line says so.
const STRANGE: [&str; 4] = ["Nail", "nail", "boo", "bool8"];

/// The longest name that is lawful.
const LONGEST: usize = 255;

/// What may stand after a source record's position.
#[derive(Clone, Copy)]
enum Word {
    Name,
    Flag,
    Literal,
    Index,
    NameOrNone,
    LiteralOrNone,
}

const TAGS: [(&str, &[Word]); 20] = [
    ("p-var", &[Word::Name]),
    ("p-bind", &[Word::Name]),
    ("p-bool", &[Word::Flag]),
    ("p-int", &[Word::Literal]),
    ("p-const", &[Word::Name]),
    ("p-term", &[Word::Name]),
    ("p-wild", &[]),
    ("p-and", &[]),
    ("p-arg", &[Word::Index]),
    ("e-term", &[Word::Name]),
    ("e-var", &[Word::Name]),
    ("e-bool", &[Word::Flag]),
    ("e-int", &[Word::Literal]),
    ("e-const", &[Word::Name]),
    ("e-let", &[]),
    ("def", &[Word::Name, Word::Name]),
    ("iflet", &[]),
    ("rule", &[Word::LiteralOrNone, Word::NameOrNone]),
    ("name", &[Word::Name]),
    ("converter", &[]),
];

/// Splitmix64: small, and every seed is as good as any other.
struct Random(u64);

impl Random {
    fn next(&mut self) -> u64 {
        self.0 = self.0.wrapping_add(0x9e37_79b9_7f4a_7c15);
        let mut z = self.0;
        z = (z ^ (z >> 30)).wrapping_mul(0xbf58_476d_1ce4_e5b9);
        z = (z ^ (z >> 27)).wrapping_mul(0x94d0_49bb_1331_11eb);
        z ^ (z >> 31)
    }

    fn below(&mut self, bound: usize) -> usize {
        (self.next() % bound as u64) as usize
    }

    fn between(&mut self, least: usize, most: usize) -> usize {
        least + self.below(most - least + 1)
    }

    fn percent(&mut self, percent: usize) -> bool {
        self.below(100) < percent
    }

    fn pick<T: Clone>(&mut self, items: &[T]) -> T {
        items[self.below(items.len())].clone()
    }

    fn shuffle<T>(&mut self, items: &mut [T]) {
        for end in (1..items.len()).rev() {
            items.swap(end, self.below(end + 1));
        }
    }

    /// Up to `count` different ones.
    fn sample(&mut self, items: &[String], count: usize) -> Vec<String> {
        let mut items = items.to_vec();
        self.shuffle(&mut items);
        items.truncate(count);
        items
    }
}

/// Source records in a row that belong together, and what they are for.
struct Block {
    records: Vec<String>,
    purpose: Purpose,
}

#[derive(Clone, Copy, PartialEq, Eq)]
enum Purpose {
    /// A template for terms with at least that many arguments, known by its number.
    Template {
        number: usize,
        arity: usize,
    },
    Converter,
    /// No call and no template names it.
    Idle,
}

/// An environment line to come.
#[derive(Clone, Copy)]
enum Entry {
    Symbol,
    Type(usize),
    Const(usize),
    Term(usize),
}

struct Term {
    name: String,
    ret: usize,
    args: Vec<usize>,
    kind: TermKind,
}

enum TermKind {
    /// `variant` or `struct`.
    Bare(&'static str),
    Decl {
        flags: String,
        constructor: &'static str,
        extractor: Extractor,
    },
}

enum Extractor {
    Named(&'static str),
    /// The number of a template.
    Template(usize),
}

struct Generator {
    random: Random,
    /// All names that may stand in the file.
    names: Vec<String>,
    types: Vec<String>,
    constants: Vec<String>,
    terms: Vec<Term>,
    /// Types that converters prefer, so that pairs come again.
    favourites: Vec<String>,
    blocks: Vec<Block>,
}

impl Generator {
    fn new(seed: u64) -> Self {
        let mut random = Random(seed);
        let mut names: Vec<String> = NAMES.iter().map(ToString::to_string).collect();
        if random.percent(10) {
            names.push("x".repeat(LONGEST));
        }
        let count = random.between(1, 6);
        let types = random.sample(&names, count);
        // Constants and terms may be called like built-in types, further types may not.
        names.extend(BUILT_IN.iter().take(4).map(ToString::to_string));
        let count = random.below(4);
        let constants = random.sample(&names, count);
        let (terms, favourites, blocks) = (Vec::new(), Vec::new(), Vec::new());
        Generator {
            random,
            names,
            types,
            constants,
            terms,
            favourites,
            blocks,
        }
    }

    fn case(mut self) -> String {
        self.plan_terms();
        self.plan_favourites();
        for _ in 0..self.random.below(13) {
            let records = self.converter();
            self.blocks.push(Block {
                records,
                purpose: Purpose::Converter,
            });
        }
        for _ in 0..self.random.below(4) {
            let records = self.idle();
            self.blocks.push(Block {
                records,
                purpose: Purpose::Idle,
            });
        }
        self.random.shuffle(&mut self.blocks);
        let mut lines = self.environment();
        lines.extend(self.calls());
        self.with_remarks(lines)
    }

    fn type_number(&mut self) -> usize {
        self.random.below(BUILT_IN.len() + self.types.len())
    }

    fn plan_terms(&mut self) {
        let count = self.random.between(1, 8);
        for name in self.random.sample(&self.names, count) {
            let most = if self.random.percent(10) { 16 } else { 3 };
            let args: Vec<usize> = (0..self.random.between(0, most))
                .map(|_| self.type_number())
                .collect();
            let ret = self.type_number();
            let kind = self.term_kind(args.len());
            self.terms.push(Term {
                name,
                ret,
                args,
                kind,
            });
        }
    }

    fn term_kind(&mut self, arity: usize) -> TermKind {
        if self.random.percent(30) {
            return TermKind::Bare(self.random.pick(&["variant", "struct"]));
        }
        let mut flags: String = "pmor".chars().filter(|_| self.random.percent(40)).collect();
        if flags.is_empty() {
            flags = "-".to_string();
        }
        let extractor = match self.random.below(4) {
            0 => Extractor::Named("-"),
            1 => Extractor::Named("ext"),
            _ => Extractor::Template(self.template(arity)),
        };
        let constructor = self.random.pick(&["-", "int", "ext"]);
        TermKind::Decl {
            flags,
            constructor,
            extractor,
        }
    }

    /// The number of a template for that many arguments: one that is there, or a new one.
    fn template(&mut self, arity: usize) -> usize {
        let fitting = self.blocks.iter().filter_map(|block| match block.purpose {
            Purpose::Template {
                number,
                arity: least,
            } if least <= arity => Some(number),
            _ => None,
        });
        let fitting: Vec<usize> = fitting.collect();
        if !fitting.is_empty() && self.random.percent(25) {
            return self.random.pick(&fitting);
        }
        let number = self.blocks.len();
        let records = self.pattern(arity, 3);
        self.blocks.push(Block {
            records,
            purpose: Purpose::Template { number, arity },
        });
        number
    }

    /// A pattern with macro arguments below `arity`, at most so many levels deep.
    fn pattern(&mut self, arity: usize, levels: usize) -> Vec<String> {
        let (tag, count) = match self.random.below(if levels == 0 { 6 } else { 10 }) {
            0 | 1 if arity > 0 => {
                let index = self.random.below(arity);
                return vec![self.record("p-arg", 1, &[index.to_string()])];
            }
            0..6 => (
                self.random
                    .pick(&["p-var", "p-bool", "p-int", "p-const", "p-wild"]),
                0,
            ),
            6 => ("p-bind", 1),
            7 => ("p-and", self.random.below(4)),
            _ => ("p-term", self.random.below(4)),
        };
        let mut records = Vec::new();
        for _ in 0..count {
            records.extend(self.pattern(arity, levels - 1));
        }
        let words = self.words(tag);
        let size = records.len() + 1;
        records.push(self.record(tag, size, &words));
        records
    }

    fn plan_favourites(&mut self) {
        let mut types = self.types.clone();
        types.extend(BUILT_IN.iter().map(ToString::to_string));
        let count = self.random.between(1, 4);
        self.favourites = self.random.sample(&types, count);
    }

    fn converter(&mut self) -> Vec<String> {
        let term = if self.random.percent(80) {
            let number = self.random.below(self.terms.len());
            self.terms[number].name.clone()
        } else {
            self.name()
        };
        let (inner, outer) = (self.converted_type(), self.converted_type());
        vec![
            self.record("name", 1, &[term]),
            self.record("name", 1, &[inner]),
            self.record("name", 1, &[outer]),
            self.record("converter", 4, &[]),
        ]
    }

    /// The name of a type, or now and then of none.
    fn converted_type(&mut self) -> String {
        match self.random.below(10) {
            0..7 => self.random.pick(&self.favourites),
            7 => self.random.pick(&BUILT_IN).to_string(),
            _ => self.name(),
        }
    }

    /// Any name: of one thing, of several or of none.
    fn name(&mut self) -> String {
        if self.random.percent(20) {
            self.random.pick(&STRANGE).to_string()
        } else {
            self.random.pick(&self.names)
        }
    }

    /// Records that are no part of any call, lawful or not.
    fn idle(&mut self) -> Vec<String> {
        if self.random.percent(40) {
            return self.pattern(2, 2);
        }
        let mut records = Vec::new();
        for _ in 0..self.random.between(1, 5) {
            let (tag, _) = self.random.pick(&TAGS);
            let words = self.words(tag);
            let size = self.random.below(6);
            records.push(self.record(tag, size, &words));
        }
        records
    }

    fn words(&mut self, tag: &str) -> Vec<String> {
        let kinds = TAGS
            .iter()
            .find(|(other, _)| *other == tag)
            .map_or(&[][..], |(_, kinds)| kinds);
        kinds.iter().map(|kind| self.word(*kind)).collect()
    }

    fn word(&mut self, kind: Word) -> String {
        match kind {
            Word::NameOrNone | Word::LiteralOrNone if self.random.percent(30) => "-".to_string(),
            Word::Name | Word::NameOrNone => self.name(),
            Word::Flag => self.random.below(2).to_string(),
            Word::Index => self.random.below(20).to_string(),
            Word::Literal | Word::LiteralOrNone => {
                let literal = self.random.next() as i64;
                // All sizes, from one bit to the widest.
                (literal >> self.random.below(64)).to_string()
            }
        }
    }

    fn record(&mut self, tag: &str, size: usize, words: &[String]) -> String {
        let file = self.random.below(4);
        let offset = if self.random.percent(3) {
            u32::MAX as usize - self.random.below(2)
        } else {
            self.random.below(5000)
        };
        let mut line = format!("src {tag} {size} {file} {offset}");
        for word in words {
            line += &format!(" {word}");
        }
        line
    }

    /// The environment's lines, those of source records somewhere between the others.
    fn environment(&mut self) -> Vec<String> {
        let mut lines = self.entries();
        if self.random.percent(30) {
            lines.push(format!("expand {}", self.random.below(2)));
        }
        let mut source: Vec<String> = self
            .blocks
            .iter()
            .flat_map(|block| block.records.iter().cloned())
            .collect();
        let mut merged = Vec::new();
        // From the back, where a line is taken off easily; each list keeps its order.
        while !(lines.is_empty() && source.is_empty()) {
            let from_source = self.random.below(lines.len() + source.len()) < source.len();
            merged.extend(if from_source {
                source.pop()
            } else {
                lines.pop()
            });
        }
        merged.reverse();
        merged
    }

    /// Symbols, types, constants and terms, in any order.
    fn entries(&mut self) -> Vec<String> {
        let mut entries = vec![Entry::Symbol; self.random.below(5)];
        entries.extend((0..self.types.len()).map(Entry::Type));
        entries.extend((0..self.constants.len()).map(Entry::Const));
        entries.extend((0..self.terms.len()).map(Entry::Term));
        self.random.shuffle(&mut entries);
        let mut interned: HashSet<String> = BUILT_IN.iter().map(ToString::to_string).collect();
        let mut lines = Vec::new();
        for entry in entries {
            let (name, line) = match entry {
                // A symbol that is there already would make the tables unlawful.
                Entry::Symbol => match Some(self.name()).filter(|name| !interned.contains(name)) {
                    Some(name) => (name.clone(), format!("symbol {name}")),
                    None => continue,
                },
                Entry::Type(number) => self.type_line(number),
                Entry::Const(number) => {
                    let name = self.constants[number].clone();
                    let line = format!("const {name} {}", self.type_number());
                    (name, line)
                }
                Entry::Term(number) => self.term_line(number),
            };
            interned.insert(name);
            lines.push(line);
        }
        lines
    }

    fn type_line(&mut self, number: usize) -> (String, String) {
        let name = self.types[number].clone();
        let line = format!(
            "type {name} {}",
            self.random.pick(&["prim", "enum", "struct"])
        );
        (name, line)
    }

    fn term_line(&self, number: usize) -> (String, String) {
        let Term {
            name,
            ret,
            args,
            kind,
        } = &self.terms[number];
        let kind = match kind {
            TermKind::Bare(kind) => format!("{kind} - - -"),
            TermKind::Decl {
                flags,
                constructor,
                extractor,
            } => {
                let extractor = match extractor {
                    Extractor::Named(extractor) => extractor.to_string(),
                    Extractor::Template(number) => self.template_word(*number),
                };
                format!("decl {flags} {constructor} {extractor}")
            }
        };
        let args: String = args.iter().map(|arg| format!(" {arg}")).collect();
        (name.clone(), format!("term {name} {kind} {ret}{args}"))
    }

    fn template_word(&self, wanted: usize) -> String {
        let is_wanted = |purpose| match purpose {
            Purpose::Template { number, .. } => number == wanted,
            _ => false,
        };
        let part = self
            .parts(is_wanted)
            .first()
            .map(|(start, end)| format!("tmpl:{start}:{end}"));
        part.unwrap_or_else(|| "-".to_string())
    }

    /// Where the blocks of that purpose lie in the source list.
    fn parts(&self, wanted: impl Fn(Purpose) -> bool) -> Vec<(usize, usize)> {
        let mut start = 0;
        let mut parts = Vec::new();
        for block in &self.blocks {
            let end = start + block.records.len();
            if wanted(block.purpose) {
                parts.push((start, end));
            }
            start = end;
        }
        parts
    }

    /// Opening, every converter once or twice, closing, opening again, and calls out of order.
    fn calls(&mut self) -> Vec<String> {
        let mut parts = self.parts(|purpose| purpose == Purpose::Converter);
        let again: Vec<_> = parts
            .iter()
            .copied()
            .filter(|_| self.random.percent(25))
            .collect();
        parts.extend(again);
        self.random.shuffle(&mut parts);
        let mut calls = Vec::new();
        if self.random.percent(30) {
            for _ in 0..self.random.between(1, 3) {
                calls.extend(self.any_call(&parts));
            }
        }
        calls.push("open".to_string());
        for (start, end) in &parts {
            calls.push(format!("converter {start} {end}"));
            match self.random.below(100) {
                0..15 => calls.push("dump".to_string()),
                15..18 => calls.push("open".to_string()),
                18..20 => calls.extend(["close".to_string(), "open".to_string()]),
                20..22 => calls.extend(["close", "dump", "open"].map(str::to_string)),
                _ => {}
            }
        }
        if self.random.percent(70) {
            calls.extend(["dump".to_string(), "close".to_string()]);
        }
        for _ in 0..self.random.below(4) {
            calls.extend(self.any_call(&parts));
        }
        calls.push("dump".to_string());
        calls
    }

    /// Any call, allowed or not, whether or not it was made before.
    fn any_call(&mut self, parts: &[(usize, usize)]) -> Option<String> {
        Some(match self.random.below(6) {
            0 => "open".to_string(),
            1 => "close".to_string(),
            2 => "dump".to_string(),
            _ if parts.is_empty() => return None,
            _ => {
                let (start, end) = self.random.pick(parts);
                format!("converter {start} {end}")
            }
        })
    }

    /// The lines with comments and empty lines between them now and then.
    fn with_remarks(&mut self, lines: Vec<String>) -> String {
        let mut text = String::new();
        for line in lines {
            text += match self.random.below(40) {
                0 => "\n",
                1 => "# a remark: open, close, dump\n",
                2 => "#open\n",
                _ => "",
            };
            text += &line;
            text.push('\n');
        }
        text
    }
}

fn main() -> ExitCode {
    let mut arguments = env::args().skip(1);
    match (arguments.next().map(|seed| seed.parse()), arguments.next()) {
        (Some(Ok(seed)), None) => {
            print!("{}", Generator::new(seed).case());
            ExitCode::SUCCESS
        }
        _ => {
            eprintln!("usage: generate SEED");
            ExitCode::from(2)
        }
    }
}
