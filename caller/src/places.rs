//! What may stand where in a tree file, to say of a file that row 6 refuses where it breaks the list of kinds.

use crate::found::grouped;
use crate::tree::Fields;
use crate::{Kind, KindTable, TreeFile};

const DEEPEST: usize = 200;

/// A place under a node.
#[derive(Clone, Copy, PartialEq, Eq)]
enum Place {
    Script,
    Statement,
    Expression,
    Binding,
    /// A declarator's name, a catch's binding, left of a default.
    Name,
    /// A parameter, or inside a pattern.
    Target,
    PatternProperty,
    Block,
    Declarator,
    Catch,
    Case,
    Property,
    /// Under an update: a name or a member.
    Updated,
    /// Left of an assignment of a form other than `=`.
    Assigned,
    /// Left of `=`.
    Destructured,
    /// The start of `for (;;)`.
    Start,
    /// Before `in` or `of`.
    Head,
}

impl Place {
    /// What belongs there, in words.
    fn words(self) -> &'static str {
        match self {
            Place::Script => "a script (kind 1)",
            Place::Statement => "a statement",
            Place::Expression => "an expression",
            Place::Binding => "a binding (kind 20)",
            Place::Name => "a binding (kind 20) or a pattern (45, 46)",
            Place::Target => "a binding (kind 20), a pattern (45, 46) or a default (48)",
            Place::PatternProperty => "a pattern's property (kind 47)",
            Place::Block => "a block (kind 2)",
            Place::Declarator => "a declarator (kind 6)",
            Place::Catch => "a catch (kind 17)",
            Place::Case => "a case (kind 19)",
            Place::Property => "a property (kind 29)",
            Place::Updated => "an identifier (kind 21) or a member (37, 38)",
            Place::Assigned => "a binding (kind 20) or a member (37, 38)",
            Place::Destructured => "a binding (kind 20), a member (37, 38) or a pattern (45, 46)",
            Place::Start => "a declaration (kind 5) or an expression",
            Place::Head => "a declaration (kind 5) of one declarator, a binding (kind 20) or a pattern (45, 46)",
        }
    }

    fn takes(self, node: Fields) -> bool {
        match self {
            Place::Script => node.kind == 1,
            Place::Statement => matches!(node.kind, 2..=5 | 7..=16 | 18 | 43 | 44),
            Place::Expression => matches!(node.kind, 21..=28 | 30..=42),
            Place::Binding => node.kind == 20,
            Place::Name => matches!(node.kind, 20 | 45 | 46),
            Place::Target => matches!(node.kind, 20 | 45 | 46 | 48),
            Place::PatternProperty => node.kind == 47,
            Place::Block => node.kind == 2,
            Place::Declarator => node.kind == 6,
            Place::Catch => node.kind == 17,
            Place::Case => node.kind == 19,
            Place::Property => node.kind == 29,
            Place::Updated => matches!(node.kind, 21 | 37 | 38),
            Place::Assigned => matches!(node.kind, 20 | 37 | 38),
            Place::Destructured => matches!(node.kind, 20 | 37 | 38 | 45 | 46),
            Place::Start => node.kind == 5 || Place::Expression.takes(node),
            Place::Head => Place::Name.takes(node) || (node.kind == 5 && node.children == 1),
        }
    }
}

/// The places under a node: some, then any count of one, then some.
struct Row {
    first: Vec<Place>,
    many: Option<Place>,
    last: Vec<Place>,
}

impl Row {
    fn exactly(first: &[Place]) -> Row {
        Row {
            first: first.to_vec(),
            many: None,
            last: Vec::new(),
        }
    }

    fn then(first: &[Place], many: Place, last: &[Place]) -> Row {
        Row {
            first: first.to_vec(),
            many: Some(many),
            last: last.to_vec(),
        }
    }

    /// The place of each of so many children; none where there cannot be so many.
    fn places(&self, children: usize) -> Option<Vec<Place>> {
        let between = children.checked_sub(self.first.len() + self.last.len())?;
        let many = match self.many {
            Some(place) => vec![place; between],
            None if between == 0 => Vec::new(),
            None => return None,
        };
        Some([&self.first[..], &many, &self.last].concat())
    }
}

/// Those of some places whose bit a form has.
fn chosen(form: u8, places: &[(u8, Place)]) -> Vec<Place> {
    let present = places.iter().filter(|(bit, _)| form & bit != 0);
    present.map(|(_, place)| *place).collect()
}

/// How many forms a kind has, from 0 on.
fn forms(kind: u8) -> u8 {
    match kind {
        5 => 3,
        12 => 8,
        16 | 31 => 4,
        19 | 23 | 36 | 39 | 40 => 2,
        30 => 7,
        32 => 25,
        33 => 16,
        _ => 1,
    }
}

/// What may stand under a node of a kind that is listed.
fn row(node: Fields) -> Row {
    use Place::{
        Assigned, Binding, Block, Case, Catch, Declarator, Destructured, Expression, Head, Name,
        PatternProperty, Property, Start, Statement, Target, Updated,
    };
    match node.kind {
        1 | 2 => Row::then(&[], Statement, &[]),
        4 | 15 | 29 | 30 | 37 | 41 => Row::exactly(&[Expression]),
        5 => Row::then(&[Declarator], Declarator, &[]),
        6 if node.children == 2 => Row::exactly(&[Name, Expression]),
        6 => Row::exactly(&[Name]),
        7 => Row::then(&[Binding], Target, &[Block]),
        8 if node.children == 1 => Row::exactly(&[Expression]),
        9 if node.children == 3 => Row::exactly(&[Expression, Statement, Statement]),
        9..=11 => Row::exactly(&[Expression, Statement]),
        12 => {
            let head = chosen(node.form, &[(1, Start), (2, Expression), (4, Expression)]);
            Row::exactly(&[&head[..], &[Statement]].concat())
        }
        13 | 14 => Row::exactly(&[Head, Expression, Statement]),
        16 => {
            let rest = chosen(node.form, &[(1, Catch), (2, Block)]);
            Row::exactly(&[&[Block], &rest[..]].concat())
        }
        17 if node.children == 2 => Row::exactly(&[Name, Block]),
        17 => Row::exactly(&[Block]),
        18 => Row::then(&[Expression], Case, &[]),
        19 => Row::then(&chosen(node.form, &[(1, Expression)]), Statement, &[]),
        27 => Row::then(&[], Expression, &[]),
        28 => Row::then(&[], Property, &[]),
        31 => Row::exactly(&[Updated]),
        32 | 38 => Row::exactly(&[Expression, Expression]),
        33 if node.form == 0 => Row::exactly(&[Destructured, Expression]),
        33 => Row::exactly(&[Assigned, Expression]),
        34 => Row::exactly(&[Expression, Expression, Expression]),
        36 if node.form == 0 => Row::exactly(&[Expression]),
        35 | 36 | 42 => Row::then(&[Expression], Expression, &[]),
        39 => Row::then(&chosen(node.form, &[(1, Binding)]), Target, &[Block]),
        40 if node.form == 1 => Row::then(&[], Target, &[Expression]),
        40 => Row::then(&[], Target, &[Block]),
        45 => Row::then(&[], PatternProperty, &[]),
        46 => Row::then(&[], Target, &[]),
        47 => Row::exactly(&[Target]),
        48 => Row::exactly(&[Name, Expression]),
        _ => Row::exactly(&[]),
    }
}

/// Whether a node of one kind may stand anywhere under one of another.
pub(crate) fn stands(parent: u8, child: u8) -> bool {
    let node = |kind, form, children| Fields {
        kind,
        form,
        children,
        text: 0,
        bits: 0,
    };
    let child = node(child, 0, 1);
    let formed = (0..forms(parent)).filter(|form| parent != 16 || *form > 0);
    // Among four children are a first, a last and those between; a head takes a declaration of one declarator.
    let rows = formed.flat_map(|form| (1..=4).map(move |count| (form, count)));
    rows.filter_map(|(form, count)| row(node(parent, form, count)).places(count))
        .flatten()
        .any(|place| place.takes(child))
}

/// What is wrong with the fields of a node, its children aside.
fn wrong_field(node: Fields, texts: usize) -> Option<String> {
    let kind = Kind::from_number(node.kind);
    if matches!(kind, Kind::Unlisted(_)) {
        return Some(format!("with kind {}, which is none", node.kind));
    }
    if node.form >= forms(node.kind) || (node.kind == 16 && node.form == 0) {
        return Some(format!("with form {}", node.form));
    }
    if kind.has_text() && node.text as usize >= texts {
        return Some(format!("with text {} of {texts} texts", node.text));
    }
    if !kind.has_text() && node.text != 0 {
        return Some(format!("with text {}, where 0 belongs", node.text));
    }
    let has_bits = kind.has_context() || kind == Kind::Number;
    (!has_bits && node.bits != 0).then(|| "with a context or bits, where 0 belongs".into())
}

/// A node by its number from 1 on, and its kind.
fn named(number: usize, kind: u8) -> String {
    format!("node {number} (kind {kind})")
}

/// The first place where the nodes are no script, or where a table forbids one; none where there is no such place.
pub(crate) fn fault(tree: TreeFile, table: Option<&KindTable>) -> Option<String> {
    let texts = tree.texts().len();
    let count = tree.nodes().len();
    // Places still to be filled, the next one last, each with its depth and with the node that it is under.
    let mut open = vec![(Place::Script, 1, None)];
    for (number, node) in (1..).zip(tree.nodes().map(crate::Node::fields)) {
        let Some((place, depth, under)) = open.pop() else {
            return Some(format!("{} nodes left over", count + 1 - number));
        };
        let node_is = named(number, node.kind);
        if depth > DEEPEST {
            return Some(format!("{node_is} {depth} deep, at most {DEEPEST}"));
        }
        if let Some(wrong) = wrong_field(node, texts) {
            return Some(format!("{node_is} {wrong}"));
        }
        if !place.takes(node) {
            return Some(format!("{node_is} where {} belongs", place.words()));
        }
        if let (Some(table), Some((parent, above))) = (table, under) {
            let [above, kind] = [above, node.kind].map(Kind::from_number);
            if !table.allows(above, kind) {
                let above = named(parent, above.number());
                return Some(format!(
                    "{node_is} under {above}, which the kind table forbids"
                ));
            }
        }
        let follow = count - number;
        if open.len() + node.children > follow {
            let wanted = grouped(open.len() + node.children);
            return Some(format!(
                "{node_is} after which {wanted} nodes are wanted, and {follow} follow"
            ));
        }
        let Some(places) = row(node).places(node.children) else {
            return Some(format!("{node_is} with {} children", node.children));
        };
        let under = Some((number, node.kind));
        open.extend(
            places
                .into_iter()
                .rev()
                .map(|place| (place, depth + 1, under)),
        );
    }
    None
}
