//! Stand-in: the visitors. A default walk calls each child's handler in the tree file's order.
//! Every call that changes or walks the tree is also reported to `limits`.

use limits::{Records, Way};
use std::borrow::Cow;
use swc_common::pass::{CompilerPass, Repeated};
use swc_ecma_ast::*;

/// A node that can be visited; `visit_with` calls its handler, `visit_children_with` its
/// children's.
pub trait VisitWith<V: ?Sized + Visit> {
    fn visit_with(&self, v: &mut V);
    fn visit_children_with(&self, v: &mut V);
}

pub trait VisitMutWith<V: ?Sized + VisitMut> {
    fn visit_mut_with(&mut self, v: &mut V);
    fn visit_mut_children_with(&mut self, v: &mut V);

    /// The handler of a list of these. Only statements have one of their own.
    fn visit_mut_list_with(list: &mut Vec<Self>, v: &mut V)
    where
        Self: Sized,
    {
        list.visit_mut_children_with(v)
    }

    /// The children of a box are its content's.
    fn visit_mut_boxed_children_with(&mut self, v: &mut V) {
        self.visit_mut_children_with(v)
    }
}

/// Tells `limits`, unless the walk is not measured.
macro_rules! watch {
    ($call:ident($($argument:expr),*)) => {
        if limits::WATCHED {
            limits::$call($($argument),*)
        }
    };
}

macro_rules! opening {
    (walked $self:ident $v:ident $visit:ident) => {
        watch!(enter(Way::Plain, $self.size(), $v.records()));
        $v.$visit($self);
        watch!(leave($self.size(), $v.records()))
    };
    ($other:ident $self:ident $v:ident $visit:ident) => {
        $v.$visit($self)
    };
}

macro_rules! inside {
    (body $self:ident $v:ident $walk:block) => {
        watch!(enter(Way::Plain, $self.size(), $v.records()));
        $walk
        watch!(leave($self.size(), $v.records()))
    };
    ($other:ident $self:ident $v:ident $walk:block) => {
        watch!(step($v.records()));
        $walk
    };
}

macro_rules! written {
    (Ident $v:ident) => {
        watch!(written($v.records()))
    };
    ($other:ident $v:ident) => {};
}

macro_rules! visitors {
    (
        structs { $($what:ident $name:ident $visit:ident $visit_mut:ident { $($field:ident)* })* }
        enums { $($how:ident $choice:ident $v:ident $vm:ident { $($variant:ident)* })* }
    ) => {
        pub trait Visit {
            /// What the scopes hold; written by `noop_visit_type!`.
            fn records(&self) -> Records {
                Records::default()
            }

            $(fn $visit(&mut self, node: &$name) {
                node.visit_children_with(self)
            })*
            $(fn $v(&mut self, node: &$choice) {
                node.visit_children_with(self)
            })*
        }

        pub trait VisitMut {
            /// What the scopes hold; written by `noop_visit_mut_type!`.
            fn records(&self) -> Records {
                Records::default()
            }

            /// The root scope's bindings, oldest first, each with its own mark.
            fn root_bindings(&self) -> Vec<(Id, bool)> {
                Vec::new()
            }

            fn visit_mut_stmts(&mut self, list: &mut Vec<Stmt>) {
                list.visit_mut_children_with(self)
            }

            $(fn $visit_mut(&mut self, node: &mut $name) {
                node.visit_mut_children_with(self)
            })*
            $(fn $vm(&mut self, node: &mut $choice) {
                node.visit_mut_children_with(self)
            })*
        }

        $(
            impl<V: ?Sized + Visit> VisitWith<V> for $name {
                fn visit_with(&self, v: &mut V) {
                    v.$visit(self);
                    written!($name v);
                }

                fn visit_children_with(&self, _v: &mut V) {
                    $(self.$field.visit_with(_v);)*
                }
            }

            impl<V: ?Sized + VisitMut> VisitMutWith<V> for $name {
                fn visit_mut_with(&mut self, v: &mut V) {
                    opening!($what self v $visit_mut);
                }

                fn visit_mut_children_with(&mut self, v: &mut V) {
                    inside!($what self v { $(self.$field.visit_mut_with(v);)* });
                }
            }
        )*
        $(
            impl<V: ?Sized + Visit> VisitWith<V> for $choice {
                fn visit_with(&self, v: &mut V) {
                    v.$v(self)
                }

                fn visit_children_with(&self, v: &mut V) {
                    match self {
                        $($choice::$variant(inner) => inner.visit_with(v),)*
                    }
                }
            }
        )*
        $(choice!($choice $how $vm { $($variant)* });)*
    };
}

/// The enums, for `VisitMutWith`: expressions, patterns and statements have something of their own.
macro_rules! choice {
    (Expr $how:ident $vm:ident $variants:tt) => {
        impl<V: ?Sized + VisitMut> VisitMutWith<V> for Expr {
            fn visit_mut_with(&mut self, v: &mut V) {
                watch!(enter(Way::Expr(self.is_ident()), self.size(), v.records()));
                v.visit_mut_expr(self);
                watch!(leave(self.size(), v.records()))
            }

            choice!(@children Expr $variants);

            // The sources walk a boxed expression's children only for a right side in its Cond
            // scope: its kind's own handler runs, not `visit_mut_expr`.
            fn visit_mut_boxed_children_with(&mut self, v: &mut V) {
                watch!(enter(Way::RightSide, self.size(), v.records()));
                self.visit_mut_children_with(v);
                watch!(leave(self.size(), v.records()))
            }
        }
    };
    (Stmt $how:ident $vm:ident $variants:tt) => {
        impl<V: ?Sized + VisitMut> VisitMutWith<V> for Stmt {
            fn visit_mut_with(&mut self, v: &mut V) {
                v.visit_mut_stmt(self)
            }

            choice!(@children Stmt $variants);

            fn visit_mut_list_with(list: &mut Vec<Stmt>, v: &mut V) {
                v.visit_mut_stmts(list)
            }
        }
    };
    ($choice:ident $how:ident $vm:ident $variants:tt) => {
        impl<V: ?Sized + VisitMut> VisitMutWith<V> for $choice {
            fn visit_mut_with(&mut self, v: &mut V) {
                opening!($how self v $vm);
            }

            choice!(@children $choice $variants);
        }
    };
    (@children $choice:ident { $($variant:ident)* }) => {
        fn visit_mut_children_with(&mut self, v: &mut V) {
            match self {
                $($choice::$variant(inner) => inner.visit_mut_with(v),)*
            }
        }
    };
}

tree_table!(visitors);

impl<V: ?Sized + Visit, T: VisitWith<V>> VisitWith<V> for Box<T> {
    fn visit_with(&self, v: &mut V) {
        (**self).visit_with(v)
    }

    fn visit_children_with(&self, v: &mut V) {
        (**self).visit_children_with(v)
    }
}

impl<V: ?Sized + Visit, T: VisitWith<V>> VisitWith<V> for Watched<T> {
    fn visit_with(&self, v: &mut V) {
        self.0.visit_with(v)
    }

    fn visit_children_with(&self, v: &mut V) {
        self.0.visit_children_with(v)
    }
}

impl<V: ?Sized + Visit, T: VisitWith<V>> VisitWith<V> for Option<T> {
    fn visit_with(&self, v: &mut V) {
        self.visit_children_with(v)
    }

    fn visit_children_with(&self, v: &mut V) {
        if let Some(inner) = self {
            inner.visit_with(v)
        }
    }
}

impl<V: ?Sized + Visit, T: VisitWith<V>> VisitWith<V> for Vec<T> {
    fn visit_with(&self, v: &mut V) {
        self.visit_children_with(v)
    }

    fn visit_children_with(&self, v: &mut V) {
        self.iter().for_each(|item| item.visit_with(v))
    }
}

impl<V: ?Sized + VisitMut, T: VisitMutWith<V>> VisitMutWith<V> for Box<T> {
    fn visit_mut_with(&mut self, v: &mut V) {
        (**self).visit_mut_with(v)
    }

    fn visit_mut_children_with(&mut self, v: &mut V) {
        (**self).visit_mut_boxed_children_with(v)
    }
}

impl<V: ?Sized + VisitMut, T: VisitMutWith<V>> VisitMutWith<V> for Watched<T> {
    fn visit_mut_with(&mut self, v: &mut V) {
        self.0.visit_mut_with(v)
    }

    fn visit_mut_children_with(&mut self, v: &mut V) {
        self.0.visit_mut_children_with(v)
    }
}

impl<V: ?Sized + VisitMut, T: VisitMutWith<V>> VisitMutWith<V> for Option<T> {
    fn visit_mut_with(&mut self, v: &mut V) {
        self.visit_mut_children_with(v)
    }

    fn visit_mut_children_with(&mut self, v: &mut V) {
        if let Some(inner) = self {
            inner.visit_mut_with(v)
        }
    }
}

impl<V: ?Sized + VisitMut, T: VisitMutWith<V>> VisitMutWith<V> for Vec<T> {
    fn visit_mut_with(&mut self, v: &mut V) {
        T::visit_mut_list_with(self, v)
    }

    fn visit_mut_children_with(&mut self, v: &mut V) {
        self.iter_mut().for_each(|item| item.visit_mut_with(v))
    }
}

/// Stands in the sources' visitor where the tree crate leaves out types; here it opens the
/// scopes to `limits` and to the printing of the root.
#[macro_export]
macro_rules! noop_visit_mut_type {
    () => {
        fn records(&self) -> ::limits::Records {
            self.scope.records()
        }

        fn root_bindings(&self) -> Vec<(Id, bool)> {
            self.scope.own_marks()
        }
    };
}

/// The same for the two visitors that only list identifiers.
#[macro_export]
macro_rules! noop_visit_type {
    () => {
        fn records(&self) -> ::limits::Records {
            self.scope.records()
        }
    };
}

/// Of a member only the object and a computed property are visited.
#[macro_export]
macro_rules! visit_obj_and_computed {
    () => {
        fn visit_member_expr(&mut self, node: &MemberExpr) {
            node.obj.visit_with(self);
            if let MemberProp::Computed(property) = &node.prop {
                property.visit_with(self);
            }
        }
    };
}

/// A visitor as a pass.
pub struct VisitMutPass<V> {
    visitor: V,
}

pub fn visit_mut_pass<V: VisitMut>(visitor: V) -> VisitMutPass<V> {
    VisitMutPass { visitor }
}

impl<V: VisitMut> Pass for VisitMutPass<V> {
    fn process(&mut self, program: &mut Program) {
        program.visit_mut_with(&mut self.visitor)
    }
}

impl<V: VisitMut> VisitMut for VisitMutPass<V> {
    fn records(&self) -> Records {
        self.visitor.records()
    }

    fn root_bindings(&self) -> Vec<(Id, bool)> {
        self.visitor.root_bindings()
    }

    fn visit_mut_program(&mut self, program: &mut Program) {
        self.visitor.visit_mut_program(program)
    }
}

impl<V: Repeated> Repeated for VisitMutPass<V> {
    fn changed(&self) -> bool {
        self.visitor.changed()
    }

    fn reset(&mut self) {
        self.visitor.reset()
    }
}

impl<V: CompilerPass> CompilerPass for VisitMutPass<V> {
    fn name(&self) -> Cow<'static, str> {
        self.visitor.name()
    }
}
