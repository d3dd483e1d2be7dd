//! Rows 8 and 9 of the refusals, measured beside the walk.
//!
//! The two source files know no limits. The stand-in visitor tells this crate when a node's walk
//! opens and ends, how large that node is at that moment, and what the scopes hold, all counted
//! anew each time. What lies outside a node cannot change while its walk is open, so it is counted
//! when the walk opens; at the end of a run the sum must be the whole tree's. A limit that is
//! passed ends the whole pass by unwinding, since a visitor has no way to say "stop".
//!
//! The sources change a record or the tree between two calls of the visitor. Such a change is the
//! older step, so every call first settles what changed before it, then takes its own step.

use std::cell::RefCell;

pub const MAX_DEPTH: usize = 200;
pub const MAX_SCOPES: usize = 32;
pub const MAX_RIGHT_SIDES: usize = 12;
pub const MAX_NODES: usize = 1024;
pub const MAX_RECORDED: usize = 512;
pub const MAX_LIVE: usize = 256;

/// Whether the visitor measures at all; the benchmark times the original without it.
pub const WATCHED: bool = cfg!(not(feature = "unwatched"));

/// What unwinding carries: the row's number.
pub struct Refusal(pub u8);

/// A subtree's nodes and height, a leaf's height being 1; `part`s of a node add nothing of their own.
#[derive(Clone, Copy, Default, PartialEq, Eq, Debug)]
pub struct Size {
    pub nodes: usize,
    pub height: usize,
}

impl Size {
    pub fn beside(self, other: Size) -> Size {
        Size {
            nodes: self.nodes + other.nodes,
            height: self.height.max(other.height),
        }
    }

    /// A node over these children.
    pub fn node(self) -> Size {
        Size {
            nodes: self.nodes + 1,
            height: self.height + 1,
        }
    }
}

/// What the scopes from the current one to the root hold.
#[derive(Clone, Copy, Default, Debug)]
pub struct Records {
    pub scopes: usize,
    pub live: usize,
    pub recorded: usize,
}

/// How a node's walk was opened.
#[derive(Clone, Copy, PartialEq, Eq)]
pub enum Way {
    Plain,
    /// By the step of an expression; the flag says that it is an identifier.
    Expr(bool),
    /// A right side of `&&` or `||` in its Cond scope.
    RightSide,
}

struct Open {
    /// Nodes of the tree that are not in this node.
    outside: usize,
    /// The node's depth in the tree, the root's being 1.
    depth: usize,
    /// An identifier has no children: what opens inside its walk is a constant's copy in its place.
    is_ident: bool,
    way: Way,
}

#[derive(Default)]
struct Watch {
    open: Vec<Open>,
    total: usize,
    right_sides: usize,
    /// The highest figures seen, for making files that lie just at a limit.
    peaks: Peaks,
}

/// The largest figures of a pass.
#[derive(Clone, Copy, Default, Debug, PartialEq, Eq)]
pub struct Peaks {
    pub walk_depth: usize,
    pub tree_depth: usize,
    pub scopes: usize,
    pub right_sides: usize,
    pub nodes: usize,
    pub recorded: usize,
    pub live: usize,
    pub steps: usize,
}

thread_local! {
    static WATCH: RefCell<Watch> = RefCell::default();
}

fn refuse(row: u8) -> ! {
    // `resume_unwind` and not `panic!`: a refusal is an answer, and prints no message.
    std::panic::resume_unwind(Box::new(Refusal(row)))
}

fn raise(peak: &mut usize, now: usize) {
    *peak = (*peak).max(now);
}

impl Watch {
    /// The node at the top of the open walks now has this size.
    fn tree_is(&mut self, size: Size) -> Option<u8> {
        let top = self.open.last().expect("a walk is open");
        let depth = top.depth + size.height - 1;
        self.total = top.outside + size.nodes;
        raise(&mut self.peaks.tree_depth, depth);
        if depth > MAX_DEPTH {
            return Some(8);
        }
        raise(&mut self.peaks.nodes, self.total);
        (self.total > MAX_NODES).then_some(9)
    }

    /// Bindings and values that were recorded since the last call.
    fn records_are(&mut self, records: Records) -> Option<u8> {
        raise(&mut self.peaks.recorded, records.recorded);
        raise(&mut self.peaks.live, records.live);
        (records.recorded > MAX_RECORDED || records.live > MAX_LIVE).then_some(9)
    }

    fn scopes_are(&mut self, records: Records) -> Option<u8> {
        raise(&mut self.peaks.scopes, records.scopes);
        (records.scopes > MAX_SCOPES).then_some(8)
    }

    fn opens(&mut self, way: Way, size: Size) -> Option<u8> {
        let copy_in = self
            .open
            .last()
            .filter(|top| top.is_ident && matches!(way, Way::Expr(_)));
        let (outside, depth) = match (copy_in, self.open.last()) {
            (Some(ident), _) => (ident.outside, ident.depth),
            (None, Some(top)) => (self.total - size.nodes, top.depth + 1),
            (None, None) => (0, 1),
        };
        self.open.push(Open {
            outside,
            depth,
            is_ident: way == Way::Expr(true),
            way,
        });
        self.right_sides += usize::from(way == Way::RightSide);
        self.peaks.steps += 1;
        raise(&mut self.peaks.walk_depth, self.open.len());
        raise(&mut self.peaks.right_sides, self.right_sides);
        if self.open.len() > MAX_DEPTH || self.right_sides > MAX_RIGHT_SIDES {
            return Some(8);
        }
        self.tree_is(size)
    }
}

fn with(step: impl FnOnce(&mut Watch) -> Option<u8>) {
    if let Some(row) = WATCH.with(|w| step(&mut w.borrow_mut())) {
        refuse(row);
    }
}

/// Before a pass.
pub fn begin() {
    WATCH.with(|w| *w.borrow_mut() = Watch::default());
}

/// After a pass, or after a refusal.
pub fn peaks() -> Peaks {
    WATCH.with(|w| w.borrow().peaks)
}

/// A default walk begins: a scope may just have been opened for it.
pub fn step(records: Records) {
    with(|w| w.records_are(records).or_else(|| w.scopes_are(records)));
}

/// A node's walk opens.
pub fn enter(way: Way, size: Size, records: Records) {
    with(|w| {
        w.records_are(records)
            .or_else(|| w.scopes_are(records))
            .or_else(|| w.opens(way, size))
    });
}

/// A node's walk ends; the node may be another by now, or have lost its initialiser.
pub fn leave(size: Size, records: Records) {
    with(|w| {
        let refusal = w.tree_is(size).or_else(|| w.records_are(records));
        let closed = w.open.pop().expect("a walk is open");
        w.right_sides -= usize::from(closed.way == Way::RightSide);
        refusal
    });
}

/// The node at the top of the open walks has become this one, and its walk goes on.
pub fn replaced(size: Size) {
    with(|w| {
        w.open.last_mut().expect("a walk is open").is_ident = false;
        w.tree_is(size)
    });
}

/// An identifier was written.
pub fn written(records: Records) {
    with(|w| w.records_are(records));
}

/// At the end of a run no walk is open, and the sum kept along the way is the tree's.
pub fn run_ended(size: Size) {
    WATCH.with(|w| {
        let w = w.borrow();
        assert!(w.open.is_empty() && w.total == size.nodes);
    });
}
