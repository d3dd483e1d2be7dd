//! Tree files written anew: the one file of a script, for an archive, and a file with its names resolved; a script as JavaScript; and whether two files hold one
//! script.

use crate::options::Options;
use crate::{named, print, put, Trouble, NOT_READ, REFUSED};
use negbosun::{Inliner, Node, Refusal, TreeFile};
use std::ffi::OsStr;

/// Of a file that is refused here, where neither options nor a kind table are given.
fn refused(name: &str, refusal: Refusal, file: &[u8]) -> Trouble {
    Trouble::refused(name, refusal, file, &Options::default(), None)
}

/// The one file of the script, to standard output.
pub fn canon(path: Option<&OsStr>) -> Result<(), Trouble> {
    let (name, file) = named(path)?;
    let one = negbosun::canon(&file);
    put(&one.map_err(|refusal| refused(&name, refusal, &file))?)
}

/// The file with each name's context worked out, to standard output.
pub fn resolve(path: Option<&OsStr>) -> Result<(), Trouble> {
    let (name, file) = named(path)?;
    let resolved = negbosun::resolve(&file);
    put(&resolved.map_err(|refusal| match refusal {
        // How many identifiers there are would be said of the contexts that the file has.
        Refusal::Identifiers => Trouble(REFUSED, format!("{name}: {refusal}")),
        _ => refused(&name, refusal, &file),
    })?)
}

/// The script as JavaScript, to standard output.
pub fn text(path: Option<&OsStr>) -> Result<(), Trouble> {
    let (name, file) = named(path)?;
    let text = negbosun::text(&file);
    print(&text.map_err(|refusal| refused(&name, refusal, &file))?)
}

/// A result as JavaScript.
pub fn text_of_result(name: &str, result: &[u8]) -> Result<String, Trouble> {
    negbosun::text(result).map_err(|refusal| {
        let Trouble(status, line) = refused("its result", refusal, result);
        Trouble(status, format!("{name}: {line}"))
    })
}

/// A file's name and the one file of its script. A status of its own tells two scripts, so that a refused file has that of one that is not read.
fn script(inliner: &mut Inliner, path: &OsStr) -> Result<(String, Vec<u8>), Trouble> {
    let (name, file) = named(Some(path))?;
    match inliner.canon(&file) {
        Ok(one) => Ok((name, one)),
        Err(refusal) => {
            let Trouble(_, line) = refused(&name, refusal, &file);
            Err(Trouble(NOT_READ, line))
        }
    }
}

/// Everything of two nodes but how their texts are numbered.
fn alike(x: Node, y: Node) -> bool {
    let fields = |node: Node| (node.kind(), node.form(), node.children());
    let bits = |node: Node| node.number().map(f64::to_bits).or(node.context());
    fields(x) == fields(y) && x.text() == y.text() && bits(x) == bits(y)
}

/// The number, from 1, of the first node that differs.
fn parting(one: &[u8], two: &[u8]) -> Option<usize> {
    let (one, two) = (TreeFile::new(one).ok()?, TreeFile::new(two).ok()?);
    let mut pairs = one.nodes().zip(two.nodes());
    pairs.position(|(x, y)| !alike(x, y)).map(|at| at + 1)
}

/// Whether two files hold one script, and in words.
pub fn same(one: &OsStr, two: &OsStr) -> Result<bool, Trouble> {
    let mut inliner = Inliner::new();
    let (one, first) = script(&mut inliner, one)?;
    let (two, second) = script(&mut inliner, two)?;
    let same = first == second;
    let words = if same {
        "one script".into()
    } else {
        parting(&first, &second).map_or("two scripts".into(), |node| {
            format!("two scripts, which differ from node {node} on")
        })
    };
    print(&format!("{one} and {two}: {words}\n"))?;
    Ok(same)
}
