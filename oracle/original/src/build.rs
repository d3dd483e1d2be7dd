//! From the file's nodes to the tree types. The reader has checked every shape that is taken
//! apart here.

use std::rc::Rc;
use swc_ecma_ast::*;
use tree_file::{Script as FileScript, Tree};

struct Builder {
    texts: Vec<Atom>,
}

pub fn program(script: &FileScript) -> Program {
    let atom = |(number, text): (usize, &Vec<u8>)| Atom {
        number: number as u32,
        bytes: Rc::from(&text[..]),
    };
    let builder = Builder {
        texts: script.texts.iter().enumerate().map(atom).collect(),
    };
    Program::Script(Script {
        body: builder.stmts(&script.tree.kids),
    })
}

impl Builder {
    fn atom(&self, t: &Tree) -> Atom {
        self.texts[t.text as usize].clone()
    }

    fn ident(&self, t: &Tree) -> Ident {
        Ident {
            span: DUMMY_SP,
            ctxt: SyntaxContext(t.bits),
            sym: self.atom(t),
        }
    }

    fn binding(&self, t: &Tree) -> BindingIdent {
        BindingIdent { id: self.ident(t) }
    }

    fn pat(&self, t: &Tree) -> Pat {
        match t.kind {
            45 => Pat::Object(self.object_pat(t)),
            46 => Pat::Array(self.array_pat(t)),
            48 => Pat::Assign(AssignPat {
                left: Box::new(self.pat(&t.kids[0])),
                right: self.boxed(&t.kids[1]),
            }),
            _ => Pat::Ident(self.binding(t)),
        }
    }

    fn array_pat(&self, t: &Tree) -> ArrayPat {
        ArrayPat {
            elems: t.kids.iter().map(|p| Some(self.pat(p))).collect(),
        }
    }

    fn object_pat(&self, t: &Tree) -> ObjectPat {
        let prop = |p: &Tree| {
            ObjectPatProp::KeyValue(KeyValuePatProp {
                key: self.name(p),
                value: Box::new(self.pat(&p.kids[0])),
            })
        };
        ObjectPat {
            props: t.kids.iter().map(prop).collect(),
        }
    }

    fn name(&self, t: &Tree) -> IdentName {
        IdentName { sym: self.atom(t) }
    }

    fn stmts(&self, list: &[Tree]) -> Vec<Stmt> {
        list.iter().map(|t| self.stmt(t)).collect()
    }

    fn boxed_stmt(&self, t: &Tree) -> Box<Stmt> {
        Box::new(self.stmt(t))
    }

    fn block(&self, t: &Tree) -> BlockStmt {
        BlockStmt {
            stmts: self.stmts(&t.kids),
        }
    }

    /// Parameters and body.
    fn function(&self, list: &[Tree]) -> Box<Function> {
        let (body, params) = list.split_last().expect("a body");
        let param = |t| Param { pat: self.pat(t) };
        Box::new(Function {
            params: params.iter().map(param).collect(),
            body: Some(self.block(body)),
        })
    }

    fn var_decl(&self, t: &Tree) -> Box<VarDecl> {
        let declarator = |d: &Tree| VarDeclarator {
            name: self.pat(&d.kids[0]),
            init: d.kids.get(1).map(|e| self.boxed(e)),
        };
        Box::new(VarDecl {
            kind: VarDeclKind::ALL[t.form as usize],
            decls: t.kids.iter().map(declarator).collect(),
        })
    }

    fn for_stmt(&self, t: &Tree) -> ForStmt {
        let mut kids = t.kids.iter();
        let mut part = |bit: u8| (t.form & bit != 0).then(|| kids.next().expect("a part"));
        let (init, test, update) = (part(1), part(2), part(4));
        ForStmt {
            init: init.map(|s| match s.kind {
                5 => VarDeclOrExpr::VarDecl(self.var_decl(s)),
                _ => VarDeclOrExpr::Expr(self.boxed(s)),
            }),
            test: test.map(|e| self.boxed(e)),
            update: update.map(|e| self.boxed(e)),
            body: self.boxed_stmt(kids.next().expect("a statement")),
        }
    }

    fn for_head(&self, t: &Tree) -> ForHead {
        match t.kind {
            5 => ForHead::VarDecl(self.var_decl(t)),
            _ => ForHead::Pat(Box::new(self.pat(t))),
        }
    }

    fn try_stmt(&self, t: &Tree) -> Box<TryStmt> {
        let last = t.kids.last().expect("a part");
        Box::new(TryStmt {
            block: self.block(&t.kids[0]),
            handler: (t.form & 1 != 0).then(|| self.catch(&t.kids[1])),
            finalizer: (t.form & 2 != 0).then(|| self.block(last)),
        })
    }

    fn catch(&self, t: &Tree) -> CatchClause {
        let (body, param) = t.kids.split_last().expect("a body");
        CatchClause {
            param: param.first().map(|b| self.pat(b)),
            body: self.block(body),
        }
    }

    fn case(&self, t: &Tree) -> SwitchCase {
        let (test, cons) = t.kids.split_at(t.form as usize);
        SwitchCase {
            test: test.first().map(|e| self.boxed(e)),
            cons: self.stmts(cons),
        }
    }

    fn stmt(&self, t: &Tree) -> Stmt {
        let kids = &t.kids;
        match t.kind {
            2 => Stmt::Block(self.block(t)),
            3 => Stmt::Empty(EmptyStmt {}),
            4 => Stmt::Expr(ExprStmt {
                expr: self.boxed(&kids[0]),
            }),
            5 => Stmt::Decl(Decl::Var(self.var_decl(t))),
            7 => Stmt::Decl(Decl::Fn(FnDecl {
                ident: self.ident(&kids[0]),
                function: self.function(&kids[1..]),
            })),
            8 => Stmt::Return(ReturnStmt {
                arg: kids.first().map(|e| self.boxed(e)),
            }),
            9 => Stmt::If(IfStmt {
                test: self.boxed(&kids[0]),
                cons: self.boxed_stmt(&kids[1]),
                alt: kids.get(2).map(|s| self.boxed_stmt(s)),
            }),
            10 => Stmt::While(WhileStmt {
                test: self.boxed(&kids[0]),
                body: self.boxed_stmt(&kids[1]),
            }),
            11 => Stmt::DoWhile(DoWhileStmt {
                test: self.boxed(&kids[0]),
                body: self.boxed_stmt(&kids[1]),
            }),
            12 => Stmt::For(self.for_stmt(t)),
            13 => Stmt::ForIn(ForInStmt {
                left: self.for_head(&kids[0]),
                right: self.boxed(&kids[1]),
                body: self.boxed_stmt(&kids[2]),
            }),
            14 => Stmt::ForOf(ForOfStmt {
                left: self.for_head(&kids[0]),
                right: self.boxed(&kids[1]),
                body: self.boxed_stmt(&kids[2]),
            }),
            15 => Stmt::Throw(ThrowStmt {
                arg: self.boxed(&kids[0]),
            }),
            16 => Stmt::Try(self.try_stmt(t)),
            18 => Stmt::Switch(SwitchStmt {
                discriminant: self.boxed(&kids[0]),
                cases: kids[1..].iter().map(|c| self.case(c)).collect(),
            }),
            43 => Stmt::Break(BreakStmt {}),
            44 => Stmt::Continue(ContinueStmt {}),
            kind => unreachable!("no statement: {kind}"),
        }
    }

    fn boxed(&self, t: &Tree) -> Box<Expr> {
        Box::new(self.expr(t))
    }

    fn spreads(&self, list: &[Tree]) -> Vec<ExprOrSpread> {
        let item = |e| ExprOrSpread {
            expr: self.boxed(e),
        };
        list.iter().map(item).collect()
    }

    fn property(&self, t: &Tree) -> PropOrSpread {
        PropOrSpread::Prop(Box::new(Prop::KeyValue(KeyValueProp {
            key: self.name(t),
            value: self.boxed(&t.kids[0]),
        })))
    }

    fn member(&self, t: &Tree) -> MemberExpr {
        let prop = match t.kind {
            37 => MemberProp::Ident(self.name(t)),
            _ => MemberProp::Computed(ComputedPropName {
                expr: self.boxed(&t.kids[1]),
            }),
        };
        MemberExpr {
            obj: self.boxed(&t.kids[0]),
            prop,
        }
    }

    fn assign(&self, t: &Tree) -> AssignExpr {
        let left = &t.kids[0];
        let left = match left.kind {
            20 => AssignTarget::Simple(SimpleAssignTarget::Ident(self.binding(left))),
            45 => AssignTarget::Pat(AssignTargetPat::Object(self.object_pat(left))),
            46 => AssignTarget::Pat(AssignTargetPat::Array(self.array_pat(left))),
            _ => AssignTarget::Simple(SimpleAssignTarget::Member(self.member(left))),
        };
        AssignExpr {
            op: AssignOp::ALL[t.form as usize],
            left,
            right: self.boxed(&t.kids[1]),
        }
    }

    fn fn_expr(&self, t: &Tree) -> FnExpr {
        let (name, rest) = t.kids.split_at(t.form as usize);
        FnExpr {
            ident: name.first().map(|b| self.ident(b)),
            function: self.function(rest),
        }
    }

    fn arrow(&self, t: &Tree) -> ArrowExpr {
        let (body, params) = t.kids.split_last().expect("a body");
        let body = match t.form {
            0 => BlockStmtOrExpr::BlockStmt(self.block(body)),
            _ => BlockStmtOrExpr::Expr(self.boxed(body)),
        };
        ArrowExpr {
            params: params.iter().map(|b| self.pat(b)).collect(),
            body: Box::new(body),
        }
    }

    fn expr(&self, t: &Tree) -> Expr {
        let kids = &t.kids;
        let form = t.form as usize;
        match t.kind {
            21 => Expr::Ident(self.ident(t)),
            22 => Expr::Lit(Lit::Null(Null {})),
            23 => Expr::Lit(Lit::Bool(Bool { value: form == 1 })),
            24 => Expr::Lit(Lit::Num(Number {
                value: f64::from_bits(t.bits),
            })),
            25 => Expr::Lit(Lit::Str(Str {
                value: self.atom(t),
            })),
            26 => Expr::This(ThisExpr {}),
            27 => Expr::Array(ArrayLit {
                elems: self.spreads(kids).into_iter().map(Some).collect(),
            }),
            28 => Expr::Object(ObjectLit {
                props: kids.iter().map(|p| self.property(p)).collect(),
            }),
            30 => Expr::Unary(UnaryExpr {
                op: UnaryOp::ALL[form],
                arg: self.boxed(&kids[0]),
            }),
            31 => Expr::Update(UpdateExpr {
                op: UpdateOp::ALL[form % 2],
                prefix: form < 2,
                arg: self.boxed(&kids[0]),
            }),
            32 => Expr::Bin(Watched(BinExpr {
                op: BinaryOp::ALL[form],
                left: self.boxed(&kids[0]),
                right: self.boxed(&kids[1]),
            })),
            33 => Expr::Assign(self.assign(t)),
            34 => Expr::Cond(CondExpr {
                test: self.boxed(&kids[0]),
                cons: self.boxed(&kids[1]),
                alt: self.boxed(&kids[2]),
            }),
            35 => Expr::Call(CallExpr {
                callee: Callee::Expr(self.boxed(&kids[0])),
                args: self.spreads(&kids[1..]),
            }),
            36 => Expr::New(NewExpr {
                callee: self.boxed(&kids[0]),
                args: (form == 1).then(|| self.spreads(&kids[1..])),
            }),
            37 | 38 => Expr::Member(self.member(t)),
            39 => Expr::Fn(self.fn_expr(t)),
            40 => Expr::Arrow(self.arrow(t)),
            41 => Expr::Paren(ParenExpr {
                expr: self.boxed(&kids[0]),
            }),
            42 => Expr::Seq(SeqExpr {
                exprs: kids.iter().map(|e| self.boxed(e)).collect(),
            }),
            kind => unreachable!("no expression: {kind}"),
        }
    }
}
