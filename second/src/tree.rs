//! Fetch and put: the server's side.

use crate::answer::{ensure, Refusal};
use crate::sizes::Shape;

/// Copies the items of the path to `leaf` out of the tree.
pub fn fetch(
    tree: &[u8],
    height: u8,
    slots: u8,
    leaf: u16,
    path: &mut [u8],
) -> Result<(), Refusal> {
    let shape = may_copy(tree.len(), height, slots, leaf, path.len())?;
    for level in 0..shape.levels() {
        let item = &tree[shape.in_tree(shape.bucket(leaf, level))];
        path[shape.in_path(level)].copy_from_slice(item);
    }
    Ok(())
}

/// Copies the items of the path to `leaf` back into the tree.
pub fn put(tree: &mut [u8], height: u8, slots: u8, leaf: u16, path: &[u8]) -> Result<(), Refusal> {
    let shape = may_copy(tree.len(), height, slots, leaf, path.len())?;
    for level in 0..shape.levels() {
        let item = &path[shape.in_path(level)];
        tree[shape.in_tree(shape.bucket(leaf, level))].copy_from_slice(item);
    }
    Ok(())
}

fn may_copy(tree: usize, height: u8, slots: u8, leaf: u16, path: usize) -> Result<Shape, Refusal> {
    let shape = Shape::new(height, slots).ok_or(Refusal::BadSize)?;
    ensure(shape.is_leaf(leaf), Refusal::BadLeaf)?;
    ensure(tree == shape.tree_length(), Refusal::BadLength)?;
    ensure(path == shape.path_length(), Refusal::BadLength)?;
    Ok(shape)
}
