//! The crate's stage on a case's tables. The build makes this a module inside the crate's `sema`,
//! since it needs functions that are private there.
#![warn(dead_code, unused)]

use super::{
    BuiltinType, ConstructorKind, ExtractorKind, Fields, Sym, Term, TermEnv, TermFlags, TermId,
    TermKind, Type, TypeEnv, TypeId, VariantId,
};
use crate::Outside;
use crate::ast;
use crate::case::{self, Case, Entry, Part, TypeKind};
use crate::fault;
use crate::lexer::Pos;
use crate::stablemapset::StableMap;
use crate::tree;

/// The crate's environments, and what it does not tell afterwards.
pub struct Stage<'a> {
    case: &'a Case,
    tyenv: TypeEnv,
    termenv: TermEnv,
    /// The crate's map of converters has no order; this is the order of registration.
    converters: Vec<(TypeId, TypeId, TermId)>,
}

impl<'a> Stage<'a> {
    /// Opens the case's tables for the first time.
    pub fn open(case: &'a Case) -> Result<Self, Outside> {
        check_names(case)?;
        let mut stage = Stage {
            case,
            tyenv: TypeEnv::default(),
            termenv: TermEnv {
                terms: Vec::new(),
                term_map: StableMap::new(),
                rules: Vec::new(),
                rule_map: StableMap::new(),
                converters: StableMap::new(),
                expand_internal_extractors: case.expand,
            },
            converters: Vec::new(),
        };
        for entry in &case.entries {
            stage.add(entry)?;
        }
        Ok(stage)
    }

    /// Opens the tables again: symbols and environment stay, all else is emptied.
    pub fn open_again(&mut self) {
        self.tyenv.errors.clear();
        self.termenv.rules.clear();
        self.termenv.rule_map = StableMap::new();
        self.termenv.converters = StableMap::new();
        self.converters.clear();
    }

    pub fn converter(&mut self, part: Part) -> Result<(), Outside> {
        let converter = tree::converter(&self.case.source, part)?;
        let inner = self.tyenv.get_type_by_name(&converter.inner_ty);
        let outer = self.tyenv.get_type_by_name(&converter.outer_ty);
        self.termenv
            .collect_converters(&mut self.tyenv, &[ast::Def::Converter(converter)]);
        if self.termenv.converters.len() > self.converters.len() {
            let pair = inner.zip(outer);
            let (inner, outer) = pair.ok_or_else(|| outside("a converter of unknown types"))?;
            self.converters
                .push((inner, outer, self.termenv.converters[&(inner, outer)]));
        }
        Ok(())
    }

    /// So far a rule's part is only read into the crate's form.
    pub fn rule(&mut self, part: Part) -> Result<(), Outside> {
        tree::rule(&self.case.source, part).map(drop)
    }

    /// The tables, one line a record.
    pub fn dump(&self) -> Result<String, Outside> {
        let mut lines = String::new();
        for (i, name) in self.tyenv.syms.iter().enumerate() {
            lines += &format!("symbol {i} {name}\n");
        }
        for (i, (inner, outer, term)) in self.converters.iter().enumerate() {
            let (inner, outer, term) = (inner.index(), outer.index(), term.index());
            lines += &format!("converter {i} {inner} {outer} {term}\n");
        }
        for (i, error) in self.tyenv.errors.iter().enumerate() {
            let fault = fault::show(error, &self.case.source, &self.tyenv)?;
            lines += &format!("fault {i} {fault}\n");
        }
        Ok(lines)
    }

    fn add(&mut self, entry: &Entry) -> Result<(), Outside> {
        let known = self.tyenv.syms.len();
        let sym = self
            .tyenv
            .intern_mut(&ast::Ident(entry.name().to_string(), Pos::default()));
        let twice = match entry {
            Entry::Symbol(_) => sym.index() < known,
            Entry::Type { kind, .. } => self.add_type(sym, *kind)?,
            Entry::Const { ty, .. } => {
                let ty = self.type_id(*ty)?;
                self.tyenv.const_types.insert(sym, ty).is_some()
            }
            Entry::Term(term) => self.add_term(sym, term)?,
        };
        if twice {
            let name = entry.name();
            return Err(outside(format_args!("the name `{name}` is there twice")));
        }
        Ok(())
    }

    /// Adds a type; says whether there was one of that name.
    fn add_type(&mut self, name: Sym, kind: TypeKind) -> Result<bool, Outside> {
        let id = TypeId(self.tyenv.types.len());
        let pos = Pos::default();
        let (is_extern, is_nodebug) = (true, false);
        self.tyenv.types.push(match kind {
            // The crate has these built in, and no others of their kind.
            TypeKind::Bool | TypeKind::Int => return Err(outside("a further bool or int type")),
            TypeKind::Prim => Type::Primitive(id, name, pos),
            TypeKind::Enum => {
                let variants = Vec::new();
                Type::Enum {
                    name,
                    id,
                    is_extern,
                    is_nodebug,
                    variants,
                    pos,
                }
            }
            TypeKind::Struct => {
                let fields = Fields::Unit;
                Type::Struct {
                    name,
                    id,
                    is_extern,
                    is_nodebug,
                    fields,
                    pos,
                }
            }
        });
        Ok(self.tyenv.type_map.insert(name, id).is_some())
    }

    /// Adds a term; says whether there was one of that name.
    fn add_term(&mut self, name: Sym, term: &case::Term) -> Result<bool, Outside> {
        if term.args.len() > 16 {
            return Err(outside(format_args!(
                "`{}` has more than 16 arguments",
                term.name
            )));
        }
        let id = TermId(self.termenv.terms.len());
        let args: Result<_, _> = term.args.iter().map(|ty| self.type_id(*ty)).collect();
        self.termenv.terms.push(Term {
            id,
            decl_pos: Pos::default(),
            name,
            arg_tys: args?,
            ret_ty: self.type_id(term.ret)?,
            kind: self.term_kind(name, term)?,
        });
        Ok(self.termenv.term_map.insert(name, id).is_some())
    }

    fn term_kind(&self, name: Sym, term: &case::Term) -> Result<TermKind, Outside> {
        Ok(match &term.kind {
            case::TermKind::Variant => {
                // The stage does not ask which variant it is.
                let variant = VariantId(0);
                TermKind::EnumVariant { variant }
            }
            case::TermKind::Struct => TermKind::Struct,
            case::TermKind::Decl {
                flags,
                constructor,
                extractor,
            } => TermKind::Decl {
                flags: TermFlags {
                    pure: flags.pure,
                    multi: flags.multi,
                    partial: flags.partial,
                    rec: flags.rec,
                },
                constructor_kind: constructor
                    .map(|constructor| constructor_kind(name, constructor)),
                extractor_kind: match extractor {
                    Some(extractor) => {
                        Some(self.extractor_kind(name, *extractor, term.args.len())?)
                    }
                    None => None,
                },
            },
        })
    }

    fn extractor_kind(
        &self,
        name: Sym,
        extractor: case::Extractor,
        arity: usize,
    ) -> Result<ExtractorKind, Outside> {
        Ok(match extractor {
            case::Extractor::External => ExtractorKind::ExternalExtractor {
                name,
                infallible: false,
                pos: Pos::default(),
            },
            case::Extractor::Template(part) => {
                let template = tree::template(&self.case.source, part, arity)?;
                ExtractorKind::InternalExtractor { template }
            }
        })
    }

    /// The type of that number. It may stand further down in the file.
    fn type_id(&self, number: u16) -> Result<TypeId, Outside> {
        let is_type = |entry: &&Entry| matches!(entry, Entry::Type { .. });
        let count = BuiltinType::ALL.len() + self.case.entries.iter().filter(is_type).count();
        if usize::from(number) < count {
            Ok(TypeId(number.into()))
        } else {
            Err(outside(format_args!("there is no type {number}")))
        }
    }
}

/// The host's functions are called like their terms: the stage does not look at these names.
fn constructor_kind(name: Sym, constructor: case::Constructor) -> ConstructorKind {
    match constructor {
        case::Constructor::Internal => ConstructorKind::InternalConstructor,
        case::Constructor::External => ConstructorKind::ExternalConstructor { name },
    }
}

/// The crate takes names of any length, the tables take 1 to 255 bytes.
fn check_names(case: &Case) -> Result<(), Outside> {
    let sources = case.source.iter().flat_map(|source| source.node.names());
    let mut names = case.entries.iter().map(Entry::name).chain(sources);
    match names.find(|name| name.len() > 255) {
        Some(name) => Err(outside(format_args!("the name `{name}` is too long"))),
        None => Ok(()),
    }
}

fn outside(why: impl ToString) -> Outside {
    Outside(why.to_string())
}
