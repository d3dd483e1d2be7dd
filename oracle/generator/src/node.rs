//! Short names for nodes.

use tree_file::Tree;

pub fn node(kind: u8, form: u8, kids: Vec<Tree>) -> Tree {
    Tree::new(kind, form, kids)
}

pub fn named(kind: u8, text: u32, bits: u64, kids: Vec<Tree>) -> Tree {
    Tree {
        text,
        bits,
        ..Tree::new(kind, 0, kids)
    }
}

/// The identifier of the text with this number, context 0.
pub fn ident(text: u32) -> Tree {
    named(21, text, 0, vec![])
}

pub fn binding(text: u32) -> Tree {
    named(20, text, 0, vec![])
}

pub fn number(value: f64) -> Tree {
    named(24, 0, value.to_bits(), vec![])
}

pub fn statement(e: Tree) -> Tree {
    node(4, 0, vec![e])
}

pub fn block(list: Vec<Tree>) -> Tree {
    node(2, 0, list)
}

pub fn array(list: Vec<Tree>) -> Tree {
    node(27, 0, list)
}

/// One declarator; form 0 var, 1 let, 2 const.
pub fn declare(form: u8, name: Tree, init: Option<Tree>) -> Tree {
    node(
        5,
        form,
        vec![node(6, 0, std::iter::once(name).chain(init).collect())],
    )
}

pub fn assign(target: Tree, value: Tree) -> Tree {
    node(33, 0, vec![target, value])
}

pub fn function(name: Tree, params: Vec<Tree>, body: Vec<Tree>) -> Tree {
    let mut kids = vec![name];
    kids.extend(params);
    kids.push(block(body));
    node(7, 0, kids)
}

pub fn call(callee: Tree, args: Vec<Tree>) -> Tree {
    node(35, 0, std::iter::once(callee).chain(args).collect())
}

pub fn as_binding(ident: &Tree) -> Tree {
    Tree {
        kind: 20,
        ..ident.clone()
    }
}

pub fn as_ident(binding: &Tree) -> Tree {
    Tree {
        kind: 21,
        ..binding.clone()
    }
}
