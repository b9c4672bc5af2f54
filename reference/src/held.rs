//! What becomes of the smoke that the flux correction holds back (request
//! 2026-05, "Held smoke stays by its face"). Quotations here are sentences of
//! that request.

use crate::closing::Nodes;
use crate::flux::face_elements;
use crate::shape::Shape;
use crate::tendency::node;

#[derive(Clone, Copy, Debug, PartialEq, Eq)]
pub enum Held {
    /// "It is to stay at that face's nodes."
    ByItsFace,
    /// As before the request: "levelled over the whole element". It is kept
    /// to compare with.
    Levelled,
}

/// "For each face let d = G − G*, and q = d / 6 truncated toward zero." The
/// weights along a face sum to 6, so three nodes that change by q take up d
/// but for at most 5. Division of whole numbers truncates toward zero.
pub fn share(g: i128, moved: i128) -> i128 {
    (g - moved) / 6
}

/// "Before the closing, the three face nodes of the west or south element rise
/// by q, and those of the other element fall by q." Both may be one element:
/// its nodes on one side rise, those on the other fall. A corner node lies on
/// two faces and gets both.
pub fn keep_by_faces(shape: Shape, psi: &mut [Nodes], amounts: &[i128], moved: &[i128]) {
    for (face, (&g, &left)) in amounts.iter().zip(moved).enumerate() {
        let q = share(g, left);
        let (low, high) = face_elements(shape, face);
        for at in 0..3 {
            let (low_node, high_node) = face_nodes(shape, face, at);
            psi[low][low_node] += q;
            psi[high][high_node] -= q;
        }
    }
}

/// At one place along a face, its node in the west (or south) element and its
/// node in the other.
fn face_nodes(shape: Shape, face: usize, at: usize) -> (usize, usize) {
    if face < shape.elements() {
        (node(2, at), node(0, at))
    } else {
        (node(at, 2), node(at, 0))
    }
}
