//! Stand-in: two questions about a subtree, by ECMA-262.

use swc_ecma_ast::*;
use swc_ecma_visit::{Visit, VisitWith};

/// Contains `this`: looks into arrows, not into functions.
pub fn contains_this_expr<N: VisitWith<ContainsThis>>(node: &N) -> bool {
    let mut finder = ContainsThis { found: false };
    node.visit_with(&mut finder);
    finder.found
}

pub struct ContainsThis {
    found: bool,
}

impl Visit for ContainsThis {
    fn visit_this_expr(&mut self, _: &ThisExpr) {
        self.found = true;
    }

    fn visit_function(&mut self, _: &Function) {}
}

/// BoundNames: the names that a target or pattern binds. A member target binds none.
pub fn find_pat_ids<N: VisitWith<BoundNames>>(node: &N) -> Vec<Id> {
    let mut names = BoundNames { ids: Vec::new() };
    node.visit_with(&mut names);
    names.ids
}

pub struct BoundNames {
    ids: Vec<Id>,
}

impl Visit for BoundNames {
    fn visit_ident(&mut self, ident: &Ident) {
        self.ids.push(ident.to_id());
    }

    fn visit_expr(&mut self, _: &Expr) {}
}
