//! Parts of the source list as the crate's syntax trees.

use crate::Outside;
use crate::ast;
use crate::case::{ExprNode, Node, Part, PatternNode, Source};
use crate::lexer::Pos;

/// A tree whose records have all been read.
enum Tree {
    Pattern(ast::Pattern),
    Expr(ast::Expr),
    LetDef(ast::LetDef),
    IfLet(ast::IfLet),
    Rule(ast::Rule),
    Ident(ast::Ident),
    Converter(ast::Converter),
}

/// The tree itself, if it is of the wanted kind.
impl Tree {
    fn pattern(self) -> Option<ast::Pattern> {
        match self {
            Tree::Pattern(pattern) => Some(pattern),
            _ => None,
        }
    }

    fn expr(self) -> Option<ast::Expr> {
        match self {
            Tree::Expr(expr) => Some(expr),
            _ => None,
        }
    }

    fn let_def(self) -> Option<ast::LetDef> {
        match self {
            Tree::LetDef(def) => Some(def),
            _ => None,
        }
    }

    fn iflet(self) -> Option<ast::IfLet> {
        match self {
            Tree::IfLet(iflet) => Some(iflet),
            _ => None,
        }
    }

    fn ident(self) -> Option<ast::Ident> {
        match self {
            Tree::Ident(ident) => Some(ident),
            _ => None,
        }
    }
}

/// The template of an extractor with that many arguments.
pub fn template(source: &[Source], part: Part, arity: usize) -> Result<ast::Pattern, Outside> {
    match build(source, part, arity)? {
        Tree::Pattern(pattern) => Ok(pattern),
        _ => Err(unlawful(part, "a pattern")),
    }
}

pub fn converter(source: &[Source], part: Part) -> Result<ast::Converter, Outside> {
    match build(source, part, 0)? {
        Tree::Converter(converter) => Ok(converter),
        _ => Err(unlawful(part, "a converter")),
    }
}

pub fn rule(source: &[Source], part: Part) -> Result<ast::Rule, Outside> {
    match build(source, part, 0)? {
        Tree::Rule(rule) => Ok(rule),
        _ => Err(unlawful(part, "a rule")),
    }
}

fn unlawful(part: Part, wanted: &str) -> Outside {
    Outside(format!(
        "records {} to {} are not {wanted}",
        part.start, part.end
    ))
}

/// The crate's position of a source record. The upper half of the file number, which no case can
/// reach, carries the record's number: it tells a fault's pattern from an expression where the
/// crate has the same message for both.
fn position(record: usize, source: &Source) -> Pos {
    Pos::new(record << 32 | source.file as usize, source.offset as usize)
}

/// The record, the file and the offset that `position` put together.
pub fn record_file_offset(pos: Pos) -> (usize, usize, usize) {
    (pos.file >> 32, pos.file & 0xffff_ffff, pos.offset)
}

/// Puts a part's records together to one tree. Macro arguments are lawful below `arity` only.
///
/// Children stand before their parent, so one pass with a stack does it, however deep the tree is.
fn build(source: &[Source], part: Part, arity: usize) -> Result<Tree, Outside> {
    let (start, end) = (part.start as usize, part.end as usize);
    let records = source
        .get(start..end)
        .ok_or_else(|| unlawful(part, "in the source list"))?;
    let mut stack: Vec<(Tree, usize)> = Vec::new();
    for (number, record) in (start..).zip(records) {
        let size = usize::from(record.size);
        let tree = children(&mut stack, size)
            .and_then(|below| node(position(number, record), &record.node, below, arity))
            .ok_or_else(|| Outside(format!("source record {number} is unlawful")))?;
        stack.push((tree, size));
    }
    match (stack.pop(), stack.is_empty()) {
        (Some((tree, _)), true) => Ok(tree),
        _ => Err(unlawful(part, "one tree")),
    }
}

/// Takes the trees off the stack that a record of that size stands over.
fn children(stack: &mut Vec<(Tree, usize)>, size: usize) -> Option<Vec<Tree>> {
    let mut left = size.checked_sub(1)?;
    let mut first = stack.len();
    while left > 0 {
        first = first.checked_sub(1)?;
        left = left.checked_sub(stack[first].1)?;
    }
    Some(stack.drain(first..).map(|(tree, _)| tree).collect())
}

/// A record over its children, if they may stand below it.
fn node(pos: Pos, node: &Node, below: Vec<Tree>, arity: usize) -> Option<Tree> {
    Some(match node {
        Node::Pattern(node) => Tree::Pattern(pattern(pos, node, below, arity)?),
        Node::Expr(node) => Tree::Expr(expr(pos, node, below)?),
        Node::LetDef { var, ty } => {
            let [val] = exactly(below)?;
            let (var, ty) = (ident(var, pos), ident(ty, pos));
            let val = Box::new(val.expr()?);
            Tree::LetDef(ast::LetDef { var, ty, val, pos })
        }
        Node::IfLet => {
            let [pattern, expr] = exactly(below)?;
            let (pattern, expr) = (pattern.pattern()?, expr.expr()?);
            Tree::IfLet(ast::IfLet { pattern, expr, pos })
        }
        Node::Rule { priority, name } => {
            let name = name.as_ref().map(|name| ident(name, pos));
            Tree::Rule(rule_node(pos, *priority, name, below)?)
        }
        Node::Name(name) => {
            let [] = exactly(below)?;
            Tree::Ident(ident(name, pos))
        }
        Node::Converter => {
            let [term, inner_ty, outer_ty] = exactly(below)?;
            Tree::Converter(ast::Converter {
                term: term.ident()?,
                inner_ty: inner_ty.ident()?,
                outer_ty: outer_ty.ident()?,
                pos,
            })
        }
    })
}

fn ident(name: &str, pos: Pos) -> ast::Ident {
    ast::Ident(name.to_string(), pos)
}

fn pattern(pos: Pos, node: &PatternNode, below: Vec<Tree>, arity: usize) -> Option<ast::Pattern> {
    Some(match node {
        PatternNode::Term(name) => {
            let sym = ident(name, pos);
            let args = all(below, Tree::pattern)?;
            ast::Pattern::Term { sym, args, pos }
        }
        PatternNode::And => {
            let subpats = all(below, Tree::pattern)?;
            ast::Pattern::And { subpats, pos }
        }
        PatternNode::Bind(name) => {
            let var = ident(name, pos);
            let [below] = exactly(below)?;
            let subpat = Box::new(below.pattern()?);
            ast::Pattern::BindPattern { var, subpat, pos }
        }
        _ if !below.is_empty() => return None,
        PatternNode::Var(name) => {
            let var = ident(name, pos);
            ast::Pattern::Var { var, pos }
        }
        &PatternNode::Bool(val) => ast::Pattern::ConstBool { val, pos },
        &PatternNode::Int(val) => {
            let val = i128::from(val);
            ast::Pattern::ConstInt { val, pos }
        }
        PatternNode::Const(name) => {
            let val = ident(name, pos);
            ast::Pattern::ConstPrim { val, pos }
        }
        PatternNode::Wild => ast::Pattern::Wildcard { pos },
        &PatternNode::Arg(index) => {
            let index = usize::from(index);
            return (index < arity).then_some(ast::Pattern::MacroArg { index, pos });
        }
    })
}

fn expr(pos: Pos, node: &ExprNode, mut below: Vec<Tree>) -> Option<ast::Expr> {
    Some(match node {
        ExprNode::Term(name) => {
            let sym = ident(name, pos);
            let args = all(below, Tree::expr)?;
            ast::Expr::Term { sym, args, pos }
        }
        ExprNode::Let => {
            let body = Box::new(below.pop()?.expr()?);
            let defs = all(below, Tree::let_def)?;
            ast::Expr::Let { defs, body, pos }
        }
        _ if !below.is_empty() => return None,
        ExprNode::Var(name) => {
            let name = ident(name, pos);
            ast::Expr::Var { name, pos }
        }
        &ExprNode::Bool(val) => ast::Expr::ConstBool { val, pos },
        &ExprNode::Int(val) => {
            let val = i128::from(val);
            ast::Expr::ConstInt { val, pos }
        }
        ExprNode::Const(name) => {
            let val = ident(name, pos);
            ast::Expr::ConstPrim { val, pos }
        }
    })
}

fn rule_node(
    pos: Pos,
    prio: Option<i64>,
    name: Option<ast::Ident>,
    mut below: Vec<Tree>,
) -> Option<ast::Rule> {
    let expr = below.pop()?.expr()?;
    let mut below = below.into_iter();
    let pattern = below.next()?.pattern()?;
    let iflets = all(below, Tree::iflet)?;
    Some(ast::Rule {
        pattern,
        iflets,
        expr,
        pos,
        prio,
        name,
    })
}

/// The children, if there are exactly that many.
fn exactly<const N: usize>(below: Vec<Tree>) -> Option<[Tree; N]> {
    below.try_into().ok()
}

/// The children, if all are of the wanted kind.
fn all<T>(
    below: impl IntoIterator<Item = Tree>,
    wanted: impl FnMut(Tree) -> Option<T>,
) -> Option<Vec<T>> {
    below.into_iter().map(wanted).collect()
}
