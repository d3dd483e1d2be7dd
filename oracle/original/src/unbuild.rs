//! From the tree types back to the file's nodes.

use swc_ecma_ast::*;
use tree_file::Tree;

pub fn program(program: &Program) -> Tree {
    let Program::Script(script) = program;
    Tree::new(1, 0, stmts(&script.body))
}

fn with_text(kind: u8, atom: &Atom, bits: u64, kids: Vec<Tree>) -> Tree {
    Tree {
        text: atom.number,
        bits,
        ..Tree::new(kind, 0, kids)
    }
}

fn ident(kind: u8, i: &Ident) -> Tree {
    with_text(kind, &i.sym, i.ctxt.0, vec![])
}

fn pat(p: &Pat) -> Tree {
    match p {
        Pat::Ident(binding) => ident(20, &binding.id),
        Pat::Array(a) => array_pat(a),
        Pat::Object(o) => object_pat(o),
        Pat::Assign(a) => Tree::new(48, 0, vec![pat(&a.left), expr(&a.right)]),
    }
}

fn array_pat(a: &ArrayPat) -> Tree {
    Tree::new(46, 0, a.elems.iter().flatten().map(pat).collect())
}

fn object_pat(o: &ObjectPat) -> Tree {
    let prop = |p: &ObjectPatProp| {
        let ObjectPatProp::KeyValue(p) = p;
        with_text(47, &p.key.sym, 0, vec![pat(&p.value)])
    };
    Tree::new(45, 0, o.props.iter().map(prop).collect())
}

fn stmts(list: &[Stmt]) -> Vec<Tree> {
    list.iter().map(stmt).collect()
}

fn block(b: &BlockStmt) -> Tree {
    Tree::new(2, 0, stmts(&b.stmts))
}

fn place<T: PartialEq>(all: &[T], op: T) -> u8 {
    all.iter().position(|o| *o == op).expect("an operator") as u8
}

fn optional(e: &Option<Box<Expr>>) -> Vec<Tree> {
    e.iter().map(|e| expr(e)).collect()
}

fn function(f: &Function) -> Vec<Tree> {
    let params = f.params.iter().map(|p| pat(&p.pat));
    params.chain(f.body.iter().map(block)).collect()
}

fn joined<const N: usize>(parts: [Vec<Tree>; N]) -> Vec<Tree> {
    parts.into_iter().flatten().collect()
}

fn var_decl(d: &VarDecl) -> Tree {
    let declarator =
        |d: &VarDeclarator| Tree::new(6, 0, joined([vec![pat(&d.name)], optional(&d.init)]));
    Tree::new(
        5,
        place(VarDeclKind::ALL, d.kind),
        d.decls.iter().map(declarator).collect(),
    )
}

fn for_stmt(s: &ForStmt) -> Tree {
    let init: Vec<Tree> = s.init.iter().map(start).collect();
    let (test, update) = (optional(&s.test), optional(&s.update));
    let form = init.len() + 2 * test.len() + 4 * update.len();
    let kids = joined([init, test, update, vec![stmt(&s.body)]]);
    Tree::new(12, form as u8, kids)
}

fn start(s: &VarDeclOrExpr) -> Tree {
    match s {
        VarDeclOrExpr::VarDecl(d) => var_decl(d),
        VarDeclOrExpr::Expr(e) => expr(e),
    }
}

fn for_head(h: &ForHead) -> Tree {
    match h {
        ForHead::VarDecl(d) => var_decl(d),
        ForHead::Pat(p) => pat(p),
    }
}

fn try_stmt(s: &TryStmt) -> Tree {
    let handler: Vec<Tree> = s.handler.iter().map(catch).collect();
    let finalizer: Vec<Tree> = s.finalizer.iter().map(block).collect();
    let form = handler.len() + 2 * finalizer.len();
    Tree::new(
        16,
        form as u8,
        joined([vec![block(&s.block)], handler, finalizer]),
    )
}

fn catch(c: &CatchClause) -> Tree {
    let param: Vec<Tree> = c.param.iter().map(pat).collect();
    Tree::new(17, 0, joined([param, vec![block(&c.body)]]))
}

fn case(c: &SwitchCase) -> Tree {
    let test = optional(&c.test);
    Tree::new(19, test.len() as u8, joined([test, stmts(&c.cons)]))
}

fn stmt(s: &Stmt) -> Tree {
    match s {
        Stmt::Block(b) => block(b),
        Stmt::Empty(_) => Tree::new(3, 0, vec![]),
        Stmt::Expr(s) => Tree::new(4, 0, vec![expr(&s.expr)]),
        Stmt::Decl(Decl::Var(d)) => var_decl(d),
        Stmt::Decl(Decl::Fn(f)) => Tree::new(
            7,
            0,
            joined([vec![ident(20, &f.ident)], function(&f.function)]),
        ),
        Stmt::Return(s) => Tree::new(8, 0, optional(&s.arg)),
        Stmt::If(s) => {
            let alt = s.alt.iter().map(|s| stmt(s)).collect();
            Tree::new(
                9,
                0,
                joined([vec![expr(&s.test)], vec![stmt(&s.cons)], alt]),
            )
        }
        Stmt::While(s) => Tree::new(10, 0, vec![expr(&s.test), stmt(&s.body)]),
        Stmt::DoWhile(s) => Tree::new(11, 0, vec![expr(&s.test), stmt(&s.body)]),
        Stmt::For(s) => for_stmt(s),
        Stmt::ForIn(s) => Tree::new(
            13,
            0,
            vec![for_head(&s.left), expr(&s.right), stmt(&s.body)],
        ),
        Stmt::ForOf(s) => Tree::new(
            14,
            0,
            vec![for_head(&s.left), expr(&s.right), stmt(&s.body)],
        ),
        Stmt::Throw(s) => Tree::new(15, 0, vec![expr(&s.arg)]),
        Stmt::Try(s) => try_stmt(s),
        Stmt::Switch(s) => {
            let cases = s.cases.iter().map(case).collect();
            Tree::new(18, 0, joined([vec![expr(&s.discriminant)], cases]))
        }
        Stmt::Break(_) => Tree::new(43, 0, vec![]),
        Stmt::Continue(_) => Tree::new(44, 0, vec![]),
    }
}

fn spreads(list: &[ExprOrSpread]) -> Vec<Tree> {
    list.iter().map(|item| expr(&item.expr)).collect()
}

fn literal(l: &Lit) -> Tree {
    match l {
        Lit::Null(_) => Tree::new(22, 0, vec![]),
        Lit::Bool(b) => Tree::new(23, u8::from(b.value), vec![]),
        Lit::Num(n) => Tree {
            bits: n.value.to_bits(),
            ..Tree::new(24, 0, vec![])
        },
        Lit::Str(s) => with_text(25, &s.value, 0, vec![]),
    }
}

fn property(p: &PropOrSpread) -> Tree {
    let PropOrSpread::Prop(p) = p;
    let Prop::KeyValue(p) = &**p;
    with_text(29, &p.key.sym, 0, vec![expr(&p.value)])
}

fn member(m: &MemberExpr) -> Tree {
    match &m.prop {
        MemberProp::Ident(name) => with_text(37, &name.sym, 0, vec![expr(&m.obj)]),
        MemberProp::Computed(c) => Tree::new(38, 0, vec![expr(&m.obj), expr(&c.expr)]),
    }
}

fn assign(e: &AssignExpr) -> Tree {
    let left = match &e.left {
        AssignTarget::Simple(SimpleAssignTarget::Ident(b)) => ident(20, &b.id),
        AssignTarget::Simple(SimpleAssignTarget::Member(m)) => member(m),
        AssignTarget::Pat(AssignTargetPat::Array(a)) => array_pat(a),
        AssignTarget::Pat(AssignTargetPat::Object(o)) => object_pat(o),
    };
    Tree::new(33, place(AssignOp::ALL, e.op), vec![left, expr(&e.right)])
}

fn arrow(a: &ArrowExpr) -> Tree {
    let params: Vec<Tree> = a.params.iter().map(pat).collect();
    match &*a.body {
        BlockStmtOrExpr::BlockStmt(b) => Tree::new(40, 0, joined([params, vec![block(b)]])),
        BlockStmtOrExpr::Expr(e) => Tree::new(40, 1, joined([params, vec![expr(e)]])),
    }
}

fn call(e: &CallExpr) -> Tree {
    let Callee::Expr(callee) = &e.callee;
    Tree::new(35, 0, joined([vec![expr(callee)], spreads(&e.args)]))
}

fn new(e: &NewExpr) -> Tree {
    let args = e.args.as_ref().map(|args| spreads(args));
    let form = u8::from(args.is_some());
    Tree::new(
        36,
        form,
        joined([vec![expr(&e.callee)], args.unwrap_or_default()]),
    )
}

fn fn_expr(f: &FnExpr) -> Tree {
    let name: Vec<Tree> = f.ident.iter().map(|i| ident(20, i)).collect();
    Tree::new(39, name.len() as u8, joined([name, function(&f.function)]))
}

fn expr(e: &Expr) -> Tree {
    match e {
        Expr::Ident(i) => ident(21, i),
        Expr::Lit(l) => literal(l),
        Expr::This(_) => Tree::new(26, 0, vec![]),
        Expr::Array(a) => {
            let elems = a.elems.iter().flatten();
            Tree::new(27, 0, elems.map(|item| expr(&item.expr)).collect())
        }
        Expr::Object(o) => Tree::new(28, 0, o.props.iter().map(property).collect()),
        Expr::Unary(e) => Tree::new(30, place(UnaryOp::ALL, e.op), vec![expr(&e.arg)]),
        Expr::Update(e) => {
            let postfix = 2 * u8::from(!e.prefix);
            let form = place(UpdateOp::ALL, e.op) + postfix;
            Tree::new(31, form, vec![expr(&e.arg)])
        }
        Expr::Bin(e) => Tree::new(
            32,
            place(BinaryOp::ALL, e.op),
            vec![expr(&e.left), expr(&e.right)],
        ),
        Expr::Assign(e) => assign(e),
        Expr::Cond(e) => Tree::new(34, 0, vec![expr(&e.test), expr(&e.cons), expr(&e.alt)]),
        Expr::Call(e) => call(e),
        Expr::New(e) => new(e),
        Expr::Member(m) => member(m),
        Expr::Fn(f) => fn_expr(f),
        Expr::Arrow(a) => arrow(a),
        Expr::Paren(e) => Tree::new(41, 0, vec![expr(&e.expr)]),
        Expr::Seq(e) => Tree::new(42, 0, e.exprs.iter().map(|e| expr(e)).collect()),
        Expr::Invalid(_) => unreachable!("a placeholder is never left in the tree"),
    }
}
