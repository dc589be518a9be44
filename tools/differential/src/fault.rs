//! The crate's messages, turned back into a fault's cause and values.

use crate::Outside;
use crate::case::{Node, Source};
use crate::error::Error;
use crate::sema::TypeEnv;
use crate::tree;

/// One kind of message. Where patterns and expressions share a message, the source record at the
/// fault's position decides.
struct Row {
    cause: u16,
    at: At,
    shape: &'static str,
}

#[derive(Clone, Copy, PartialEq, Eq)]
enum At {
    Anything,
    Pattern,
    Expr,
}

/// The words of every message. In a shape
/// - `_` is a word that does not matter, and `...` at the end stands for one or more of them;
/// - `@name`, `@type`, `@count` and `@flag` stand for a value, with what else its word holds around
///   it. Names have no spaces, so a value never reaches beyond its word;
/// - `=0` and `=1` stand for no word and give that value;
/// - all else is a word of the message, as few of them as tell the messages apart.
#[rustfmt::skip]
const ROWS: &[Row] = &[
    row(101, At::Anything, "_ inner _ _ converter: '@name'"),
    row(102, At::Anything, "_ outer _ _ converter: '@name'"),
    row(103, At::Anything, "_ term _ converter: '@name'"),
    row(104, At::Anything, "Converter _ _ _ _ _ _ '@name', '@name'"),
    row(105, At::Anything, "Incorrect _ _ _ _ '@name': _ @count, _ @count"),
    row(106, At::Anything, "Rule _ _ have ..."),
    row(107, At::Anything, "Cannot define _ _ for ..."),
    row(108, At::Anything, "Cannot define _ _ on ..."),
    row(109, At::Anything, "Cannot set ..."),
    row(110, At::Anything, "Duplicate _ _ '@name'"),
    row(111, At::Anything, "term `@name` ..."),
    row(112, At::Pattern, "expected _ _ @type, _ _ _ _ '@count'"),
    row(113, At::Pattern, "Boolean _ '@flag' _ _ _ _ _ _ @type _ _"),
    row(114, At::Pattern, "Unknown constant"),
    row(115, At::Anything, "Type mismatch _ _"),
    row(116, At::Anything, "Re-bound _ _ _ _ _ '@name'"),
    row(117, At::Anything, "_ _ pattern _ _ '@type' _ _ var '@name' _ _ '@type'"),
    row(118, At::Anything, "_ term _ pattern: '@name'"),
    row(119, At::Anything, "_ _ pattern _ _ '@type' _ term _ _ _ '@type'"),
    row(120, At::Anything, "Cannot use _ '@name' ..."),
    row(121, At::Anything, "_ term _ expression: '@name'. ..."),
    row(122, At::Anything, "_ term _ expression: '@name'"),
    row(123, At::Anything, "_ _ expression _ _ '@type' _ term _ _ _ '@type'"),
    row(124, At::Anything, "Used non-pure _ '@name' _ _ _ _"),
    row(125, At::Anything, "Used multi-constructor '@name' ..."),
    row(126, At::Anything, "Rule _ use _ _ '@name' =1 _ _ _ _ _ _ _"),
    row(126, At::Anything, "Rule _ use _ _ '@name' =0 _ _ _ _ _ _ _ or ..."),
    row(127, At::Anything, "_ variable '@name'"),
    row(128, At::Anything, "Variable '@name' _ _ @type _ _ _ @type _ _"),
    row(129, At::Expr, "Boolean _ '@flag' _ _ _ _ _ _ @type _ _"),
    row(130, At::Anything, "integer literal _ ..."),
    row(131, At::Expr, "expected _ _ @type, _ _ _ _ '@count'"),
    row(132, At::Expr, "Unknown constant"),
    row(133, At::Anything, "Constant '@name' _ _ _ _ @type, _ _ _ @type"),
    row(134, At::Anything, "_ type @name _ variable '@name'"),
];

const fn row(cause: u16, at: At, shape: &'static str) -> Row {
    Row { cause, at, shape }
}

/// A fault as a dump shows it: cause, file, offset and values.
pub fn show(error: &Error, source: &[Source], types: &TypeEnv) -> Result<String, Outside> {
    let Error::TypeError { msg, span } = error else {
        return Err(Outside(format!("not a type error: {error:?}")));
    };
    let (record, file, offset) = tree::record_file_offset(span.from);
    let at = match source.get(record).map(|source| &source.node) {
        Some(Node::Pattern(_)) => At::Pattern,
        Some(Node::Expr(_)) => At::Expr,
        _ => At::Anything,
    };
    ROWS.iter()
        .filter(|row| row.at == At::Anything || row.at == at)
        .find_map(|row| Some((row.cause, values(row.shape, msg, types)?)))
        .map(|(cause, values)| format!("{cause} {file} {offset}{values}"))
        .ok_or_else(|| Outside(format!("a message of no known shape: {msg}")))
}

/// The values of a message of that shape, each after a space.
fn values(shape: &str, message: &str, types: &TypeEnv) -> Option<String> {
    let mut words = message.split(' ');
    let mut values = String::new();
    for part in shape.split(' ') {
        if let Some(value) = part.strip_prefix('=') {
            values += &format!(" {value}");
            continue;
        }
        let word = words.next()?;
        match part {
            "_" => {}
            "..." => return Some(values),
            _ => {
                if let Some(value) = value(part, word, types)? {
                    values += &format!(" {value}");
                }
            }
        }
    }
    words.next().is_none().then_some(values)
}

/// What a word says where the shape has this part: a value, or no value, or that the message has
/// another shape.
fn value(part: &str, word: &str, types: &TypeEnv) -> Option<Option<String>> {
    let Some((before, rest)) = part.split_once('@') else {
        return (part == word).then_some(None);
    };
    let (kind, after) = rest.split_at(
        rest.find(|c: char| !c.is_alphabetic())
            .unwrap_or(rest.len()),
    );
    let shown = word.strip_prefix(before)?.strip_suffix(after)?;
    Some(Some(match (kind, shown) {
        ("type", name) => type_number(name, types)?.to_string(),
        ("flag", "true") => "1".to_string(),
        ("flag", "false") => "0".to_string(),
        ("flag", _) => return None,
        _ => shown.to_string(),
    }))
}

/// A message shows a type by its name, which no other type has.
fn type_number(name: &str, types: &TypeEnv) -> Option<usize> {
    types.types.iter().position(|ty| ty.name(types) == name)
}
