//! Stand-in: tree types in swc's shapes, as far as the kinds of the tree file need them, and how
//! many nodes of the file each of them is.

use std::ops::{Deref, DerefMut};
use std::rc::Rc;

pub use limits::Size;
use swc_common::util::take::Take;
pub use swc_common::{Span, SyntaxContext, DUMMY_SP};

/// A text of the file. Two of a file's texts are never equal (row 5), so that their numbers tell them apart, as quickly as the tree
/// crate tells its texts apart; the number also lets a tree be written back.
#[derive(Clone, Debug)]
pub struct Atom {
    pub number: u32,
    pub bytes: Rc<[u8]>,
}

impl PartialEq for Atom {
    fn eq(&self, other: &Atom) -> bool {
        self.number == other.number
    }
}

impl Eq for Atom {}

impl PartialEq<&str> for Atom {
    fn eq(&self, other: &&str) -> bool {
        *self.bytes == *other.as_bytes()
    }
}

impl std::hash::Hash for Atom {
    fn hash<H: std::hash::Hasher>(&self, state: &mut H) {
        self.number.hash(state)
    }
}

pub type Id = (Atom, SyntaxContext);

/// What a pass does with a program.
pub trait Pass {
    fn process(&mut self, program: &mut Program);
}

macro_rules! tree_types {
    ($(struct $name:ident { $($field:ident : $ty:ty),* $(,)? })*) => {
        $(
            #[derive(Clone, Debug, PartialEq)]
            pub struct $name {
                $(pub $field: $ty,)*
            }
        )*
    };
}

tree_types! {
    struct Script { body: Vec<Stmt> }
    struct BlockStmt { stmts: Vec<Stmt> }
    struct EmptyStmt {}
    struct ExprStmt { expr: Box<Expr> }
    struct VarDecl { kind: VarDeclKind, decls: Vec<VarDeclarator> }
    struct VarDeclarator { name: Pat, init: Option<Box<Expr>> }
    struct FnDecl { ident: Ident, function: Box<Function> }
    struct Function { params: Vec<Param>, body: Option<BlockStmt> }
    struct Param { pat: Pat }
    struct ReturnStmt { arg: Option<Box<Expr>> }
    struct IfStmt { test: Box<Expr>, cons: Box<Stmt>, alt: Option<Box<Stmt>> }
    struct WhileStmt { test: Box<Expr>, body: Box<Stmt> }
    struct DoWhileStmt { test: Box<Expr>, body: Box<Stmt> }
    struct ForStmt {
        init: Option<VarDeclOrExpr>,
        test: Option<Box<Expr>>,
        update: Option<Box<Expr>>,
        body: Box<Stmt>,
    }
    struct ForInStmt { left: ForHead, right: Box<Expr>, body: Box<Stmt> }
    struct ForOfStmt { left: ForHead, right: Box<Expr>, body: Box<Stmt> }
    struct ThrowStmt { arg: Box<Expr> }
    struct TryStmt {
        block: BlockStmt,
        handler: Option<CatchClause>,
        finalizer: Option<BlockStmt>,
    }
    struct CatchClause { param: Option<Pat>, body: BlockStmt }
    struct SwitchStmt { discriminant: Box<Expr>, cases: Vec<SwitchCase> }
    struct SwitchCase { test: Option<Box<Expr>>, cons: Vec<Stmt> }
    struct BreakStmt {}
    struct ContinueStmt {}
    struct Ident { span: Span, ctxt: SyntaxContext, sym: Atom }
    struct BindingIdent { id: Ident }
    struct IdentName { sym: Atom }
    struct Null {}
    struct Bool { value: bool }
    struct Number { value: f64 }
    struct Str { value: Atom }
    struct ThisExpr {}
    struct ArrayLit { elems: Vec<Option<ExprOrSpread>> }
    struct ExprOrSpread { expr: Box<Expr> }
    struct ObjectLit { props: Vec<PropOrSpread> }
    struct KeyValueProp { key: IdentName, value: Box<Expr> }
    struct UnaryExpr { op: UnaryOp, arg: Box<Expr> }
    struct UpdateExpr { op: UpdateOp, prefix: bool, arg: Box<Expr> }
    struct BinExpr { op: BinaryOp, left: Box<Expr>, right: Box<Expr> }
    struct AssignExpr { op: AssignOp, left: AssignTarget, right: Box<Expr> }
    struct CondExpr { test: Box<Expr>, cons: Box<Expr>, alt: Box<Expr> }
    struct CallExpr { callee: Callee, args: Vec<ExprOrSpread> }
    struct NewExpr { callee: Box<Expr>, args: Option<Vec<ExprOrSpread>> }
    struct MemberExpr { obj: Box<Expr>, prop: MemberProp }
    struct ComputedPropName { expr: Box<Expr> }
    struct FnExpr { ident: Option<Ident>, function: Box<Function> }
    struct ArrowExpr { params: Vec<Pat>, body: Box<BlockStmtOrExpr> }
    struct ParenExpr { expr: Box<Expr> }
    struct SeqExpr { exprs: Vec<Box<Expr>> }
    struct Invalid {}
    struct ArrayPat { elems: Vec<Option<Pat>> }
    struct ObjectPat { props: Vec<ObjectPatProp> }
    struct KeyValuePatProp { key: IdentName, value: Box<Pat> }
    struct AssignPat { left: Box<Pat>, right: Box<Expr> }
}

macro_rules! choices {
    ($($name:ident { $($variant:ident($ty:ty)),* $(,)? })*) => {
        $(
            #[derive(Clone, Debug, PartialEq)]
            pub enum $name {
                $($variant($ty),)*
            }
        )*
    };
}

choices! {
    Program { Script(Script) }
    Stmt {
        Block(BlockStmt), Empty(EmptyStmt), Expr(ExprStmt), Decl(Decl), Return(ReturnStmt),
        If(IfStmt), While(WhileStmt), DoWhile(DoWhileStmt), For(ForStmt), ForIn(ForInStmt),
        ForOf(ForOfStmt), Throw(ThrowStmt), Try(Box<TryStmt>), Switch(SwitchStmt),
        Break(BreakStmt), Continue(ContinueStmt),
    }
    Decl { Var(Box<VarDecl>), Fn(FnDecl) }
    Expr {
        Ident(Ident), Lit(Lit), This(ThisExpr), Array(ArrayLit), Object(ObjectLit),
        Unary(UnaryExpr), Update(UpdateExpr), Bin(Watched<BinExpr>), Assign(AssignExpr),
        Cond(CondExpr), Call(CallExpr), New(NewExpr), Member(MemberExpr), Fn(FnExpr),
        Arrow(ArrowExpr), Paren(ParenExpr), Seq(SeqExpr), Invalid(Invalid),
    }
    Lit { Null(Null), Bool(Bool), Num(Number), Str(Str) }
    Pat { Ident(BindingIdent), Array(ArrayPat), Object(ObjectPat), Assign(AssignPat) }
    ObjectPatProp { KeyValue(KeyValuePatProp) }
    AssignTargetPat { Array(ArrayPat), Object(ObjectPat) }
    VarDeclOrExpr { VarDecl(Box<VarDecl>), Expr(Box<Expr>) }
    ForHead { VarDecl(Box<VarDecl>), Pat(Box<Pat>) }
    BlockStmtOrExpr { BlockStmt(BlockStmt), Expr(Box<Expr>) }
    Callee { Expr(Box<Expr>) }
    PropOrSpread { Prop(Box<Prop>) }
    Prop { KeyValue(KeyValueProp) }
    MemberProp { Ident(IdentName), Computed(ComputedPropName) }
    AssignTarget { Simple(SimpleAssignTarget), Pat(AssignTargetPat) }
    SimpleAssignTarget { Ident(BindingIdent), Member(MemberExpr) }
}

macro_rules! operators {
    ($($name:ident { $($variant:ident),* $(,)? })*) => {
        $(
            /// In the order of the forms.
            #[derive(Clone, Copy, Debug, PartialEq, Eq)]
            pub enum $name {
                $($variant,)*
            }

            impl $name {
                pub const ALL: &'static [$name] = &[$($name::$variant,)*];
            }
        )*
    };
}

operators! {
    VarDeclKind { Var, Let, Const }
    UnaryOp { Void, TypeOf, Bang, Minus, Plus, Tilde, Delete }
    UpdateOp { PlusPlus, MinusMinus }
    BinaryOp {
        LogicalAnd, LogicalOr, EqEq, NotEq, EqEqEq, NotEqEq, Lt, LtEq, Gt, GtEq, LShift, RShift,
        ZeroFillRShift, Add, Sub, Mul, Div, Mod, BitOr, BitXor, BitAnd, In, InstanceOf, Exp,
        NullishCoalescing,
    }
    AssignOp {
        Assign, AddAssign, SubAssign, MulAssign, DivAssign, ModAssign, LShiftAssign,
        RShiftAssign, ZeroFillRShiftAssign, BitOrAssign, BitXorAssign, BitAndAssign, ExpAssign,
        AndAssign, OrAssign, NullishAssign,
    }
}

/// The two operators that the sources name.
#[macro_export]
macro_rules! op {
    ("=") => {
        $crate::AssignOp::Assign
    };
    ("delete") => {
        $crate::UnaryOp::Delete
    };
}

/// A node whose parts the sources reach by a reference of their own while its walk is open. An
/// identifier may just have become this node, and no call of the visitor has shown it yet.
#[derive(Clone, Debug, PartialEq)]
pub struct Watched<T>(pub T);

impl<T> Deref for Watched<T> {
    type Target = T;

    fn deref(&self) -> &T {
        &self.0
    }
}

impl<T: Measured> DerefMut for Watched<T> {
    fn deref_mut(&mut self) -> &mut T {
        if limits::WATCHED {
            limits::replaced(self.0.size());
        }
        &mut self.0
    }
}

impl Ident {
    pub fn to_id(&self) -> Id {
        (self.sym.clone(), self.ctxt)
    }
}

impl Deref for BindingIdent {
    type Target = Ident;

    fn deref(&self) -> &Ident {
        &self.id
    }
}

impl From<&BindingIdent> for Ident {
    fn from(binding: &BindingIdent) -> Ident {
        binding.id.clone()
    }
}

impl From<Ident> for Expr {
    fn from(ident: Ident) -> Expr {
        Expr::Ident(ident)
    }
}

impl Expr {
    pub fn is_ident(&self) -> bool {
        matches!(self, Expr::Ident(_))
    }

    pub fn is_lit(&self) -> bool {
        matches!(self, Expr::Lit(_))
    }

    /// `void 0`
    pub fn undefined(_: Span) -> Box<Expr> {
        let zero = Expr::Lit(Lit::Num(Number { value: 0.0 }));
        Box::new(Expr::Unary(UnaryExpr {
            op: UnaryOp::Void,
            arg: Box::new(zero),
        }))
    }
}

impl AsRef<Expr> for Expr {
    fn as_ref(&self) -> &Expr {
        self
    }
}

impl Take for Expr {
    fn dummy() -> Expr {
        Expr::Invalid(Invalid {})
    }
}

impl AssignTarget {
    /// Only an assignment to a name has one.
    pub fn as_ident(&self) -> Option<&BindingIdent> {
        match self {
            AssignTarget::Simple(SimpleAssignTarget::Ident(binding)) => Some(binding),
            _ => None,
        }
    }
}

/// The table of the tree: each type's handlers, its children in the tree file's order, and what
/// it is in the file. `walked`: a node, whose walk opens when it is visited. `body`: a block,
/// whose walk opens with its statements, since a function's body is entered there. `inner`: a
/// node whose walk is opened by the expression or pattern that it stands for. `part`: no node.
#[macro_export]
macro_rules! tree_table {
    ($then:ident) => {
        $then! {
            structs {
                walked Script visit_script visit_mut_script { body }
                body BlockStmt visit_block_stmt visit_mut_block_stmt { stmts }
                walked EmptyStmt visit_empty_stmt visit_mut_empty_stmt {}
                walked ExprStmt visit_expr_stmt visit_mut_expr_stmt { expr }
                walked VarDecl visit_var_decl visit_mut_var_decl { decls }
                walked VarDeclarator visit_var_declarator visit_mut_var_declarator { name init }
                walked FnDecl visit_fn_decl visit_mut_fn_decl { ident function }
                part Function visit_function visit_mut_function { params body }
                part Param visit_param visit_mut_param { pat }
                walked ReturnStmt visit_return_stmt visit_mut_return_stmt { arg }
                walked IfStmt visit_if_stmt visit_mut_if_stmt { test cons alt }
                walked WhileStmt visit_while_stmt visit_mut_while_stmt { test body }
                walked DoWhileStmt visit_do_while_stmt visit_mut_do_while_stmt { test body }
                walked ForStmt visit_for_stmt visit_mut_for_stmt { init test update body }
                walked ForInStmt visit_for_in_stmt visit_mut_for_in_stmt { left right body }
                walked ForOfStmt visit_for_of_stmt visit_mut_for_of_stmt { left right body }
                walked ThrowStmt visit_throw_stmt visit_mut_throw_stmt { arg }
                walked TryStmt visit_try_stmt visit_mut_try_stmt { block handler finalizer }
                walked CatchClause visit_catch_clause visit_mut_catch_clause { param body }
                walked SwitchStmt visit_switch_stmt visit_mut_switch_stmt { discriminant cases }
                walked SwitchCase visit_switch_case visit_mut_switch_case { test cons }
                walked BreakStmt visit_break_stmt visit_mut_break_stmt {}
                walked ContinueStmt visit_continue_stmt visit_mut_continue_stmt {}
                inner Ident visit_ident visit_mut_ident {}
                part BindingIdent visit_binding_ident visit_mut_binding_ident { id }
                part IdentName visit_ident_name visit_mut_ident_name {}
                inner Null visit_null visit_mut_null {}
                inner Bool visit_bool visit_mut_bool {}
                inner Number visit_number visit_mut_number {}
                inner Str visit_str visit_mut_str {}
                inner ThisExpr visit_this_expr visit_mut_this_expr {}
                inner ArrayLit visit_array_lit visit_mut_array_lit { elems }
                part ExprOrSpread visit_expr_or_spread visit_mut_expr_or_spread { expr }
                inner ObjectLit visit_object_lit visit_mut_object_lit { props }
                walked KeyValueProp visit_key_value_prop visit_mut_key_value_prop { key value }
                inner UnaryExpr visit_unary_expr visit_mut_unary_expr { arg }
                inner UpdateExpr visit_update_expr visit_mut_update_expr { arg }
                inner BinExpr visit_bin_expr visit_mut_bin_expr { left right }
                inner AssignExpr visit_assign_expr visit_mut_assign_expr { left right }
                inner CondExpr visit_cond_expr visit_mut_cond_expr { test cons alt }
                inner CallExpr visit_call_expr visit_mut_call_expr { callee args }
                inner NewExpr visit_new_expr visit_mut_new_expr { callee args }
                inner MemberExpr visit_member_expr visit_mut_member_expr { obj prop }
                part ComputedPropName visit_computed_prop_name visit_mut_computed_prop_name { expr }
                inner FnExpr visit_fn_expr visit_mut_fn_expr { ident function }
                inner ArrowExpr visit_arrow_expr visit_mut_arrow_expr { params body }
                inner ParenExpr visit_paren_expr visit_mut_paren_expr { expr }
                inner SeqExpr visit_seq_expr visit_mut_seq_expr { exprs }
                inner Invalid visit_invalid visit_mut_invalid {}
                inner ArrayPat visit_array_pat visit_mut_array_pat { elems }
                inner ObjectPat visit_object_pat visit_mut_object_pat { props }
                walked KeyValuePatProp visit_key_value_pat_prop visit_mut_key_value_pat_prop { key value }
                inner AssignPat visit_assign_pat visit_mut_assign_pat { left right }
            }
            enums {
                part Program visit_program visit_mut_program { Script }
                part Stmt visit_stmt visit_mut_stmt {
                    Block Empty Expr Decl Return If While DoWhile For ForIn ForOf Throw Try
                    Switch Break Continue
                }
                part Decl visit_decl visit_mut_decl { Var Fn }
                walked Expr visit_expr visit_mut_expr {
                    Ident Lit This Array Object Unary Update Bin Assign Cond Call New Member Fn
                    Arrow Paren Seq Invalid
                }
                part Lit visit_lit visit_mut_lit { Null Bool Num Str }
                walked Pat visit_pat visit_mut_pat { Ident Array Object Assign }
                part ObjectPatProp visit_object_pat_prop visit_mut_object_pat_prop { KeyValue }
                walked AssignTargetPat visit_assign_target_pat visit_mut_assign_target_pat { Array Object }
                part VarDeclOrExpr visit_var_decl_or_expr visit_mut_var_decl_or_expr { VarDecl Expr }
                part ForHead visit_for_head visit_mut_for_head { VarDecl Pat }
                part BlockStmtOrExpr visit_block_stmt_or_expr visit_mut_block_stmt_or_expr {
                    BlockStmt Expr
                }
                part Callee visit_callee visit_mut_callee { Expr }
                part PropOrSpread visit_prop_or_spread visit_mut_prop_or_spread { Prop }
                part Prop visit_prop visit_mut_prop { KeyValue }
                part MemberProp visit_member_prop visit_mut_member_prop { Ident Computed }
                part AssignTarget visit_assign_target visit_mut_assign_target { Simple Pat }
                part SimpleAssignTarget visit_simple_assign_target visit_mut_simple_assign_target {
                    Ident Member
                }
            }
        }
    };
}

/// How many nodes of the file something is, and how high.
pub trait Measured {
    fn size(&self) -> Size;
}

impl<T: Measured> Measured for Box<T> {
    fn size(&self) -> Size {
        (**self).size()
    }
}

impl<T: Measured> Measured for Watched<T> {
    fn size(&self) -> Size {
        self.0.size()
    }
}

impl<T: Measured> Measured for Option<T> {
    fn size(&self) -> Size {
        self.as_ref().map(T::size).unwrap_or_default()
    }
}

impl<T: Measured> Measured for Vec<T> {
    fn size(&self) -> Size {
        self.iter().map(T::size).fold(Size::default(), Size::beside)
    }
}

macro_rules! of_parts {
    (part $size:expr) => {
        $size
    };
    ($node:ident $size:expr) => {
        $size.node()
    };
}

macro_rules! sizes {
    (
        structs { $($what:ident $name:ident $visit:ident $visit_mut:ident { $($field:ident)* })* }
        enums { $($how:ident $choice:ident $v:ident $vm:ident { $($variant:ident)* })* }
    ) => {
        $(
            impl Measured for $name {
                fn size(&self) -> Size {
                    let parts = Size::default()$(.beside(self.$field.size()))*;
                    of_parts!($what parts)
                }
            }
        )*
        $(
            impl Measured for $choice {
                fn size(&self) -> Size {
                    match self {
                        $($choice::$variant(inner) => inner.size(),)*
                    }
                }
            }
        )*
    };
}

tree_table!(sizes);
