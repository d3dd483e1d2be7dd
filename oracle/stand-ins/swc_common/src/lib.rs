//! Stand-in: spans, syntax contexts, and the traits of a pass.

/// All spans are alike.
#[derive(Clone, Copy, Debug, Default, PartialEq, Eq, Hash)]
pub struct Span;

pub const DUMMY_SP: Span = Span;

/// Tells apart variables of one name.
#[derive(Clone, Copy, Debug, Default, PartialEq, Eq, Hash)]
pub struct SyntaxContext(pub u64);

pub mod pass {
    use std::borrow::Cow;

    pub trait CompilerPass {
        fn name(&self) -> Cow<'static, str>;
    }

    pub trait Repeated {
        fn changed(&self) -> bool;
        fn reset(&mut self);
    }
}

pub mod util {
    pub mod take {
        /// Takes a value out and leaves a placeholder.
        pub trait Take: Sized {
            fn dummy() -> Self;

            fn take(&mut self) -> Self {
                std::mem::replace(self, Self::dummy())
            }
        }

        impl<T: Take> Take for Box<T> {
            fn dummy() -> Self {
                Box::new(T::dummy())
            }
        }
    }
}
