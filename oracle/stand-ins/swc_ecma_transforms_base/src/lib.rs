//! Stand-in: two names that the sources import.

pub mod scope {
    #[derive(Clone, Copy, Debug, PartialEq, Eq)]
    pub enum IdentType {
        Binding,
        Ref,
        Label,
    }
}

pub mod ext {
    use swc_ecma_ast::{Expr, Ident};

    pub trait ExprRefExt: AsRef<Expr> {
        fn as_ident(&self) -> Option<&Ident> {
            match self.as_ref() {
                Expr::Ident(ident) => Some(ident),
                _ => None,
            }
        }
    }

    impl<T: AsRef<Expr>> ExprRefExt for T {}
}
