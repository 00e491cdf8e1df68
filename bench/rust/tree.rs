//! Node numbers, the pieces of a window and the lists that a client walks, without a loop: k levels are a shift by 2 k bits.

use crate::nolthewyr::Settings;

/// How many nodes the highest levels have: (4^levels - 1) / 3.
pub fn nodes(levels: u64) -> u64 {
    0x5555_5555_5555_5555 & ((1 << (2 * levels)) - 1)
}

pub fn level(node: u64) -> u64 {
    (65 - (3 * node - 2).leading_zeros() as u64) / 2
}

/// The node that so many steps to the parent lead to.
pub fn climb(node: u64, steps: u64) -> u64 {
    ((node - 1 - nodes(steps)) >> (2 * steps)) + 1
}

/// The node that an inner node checks at a place: those below it stand in the order of the nodes 1, 2, 3, .. below the root.
pub fn check_node(node: u64, place: u64) -> u64 {
    ((node - 1) << (2 * (level(place + 1) - 1))) + place + 1
}

/// How far above the leaves the lowest node stands that holds both leaves, which are counted from 0.
fn height(leaf: u64, other: u64) -> u64 {
    (65 - (leaf ^ other).leading_zeros() as u64) / 2
}

/// The node so many levels above a leaf, in a tree with so many inner nodes: at each level the count of nodes before it loses two
/// bits, as the leaf's place does.
fn above(inner: u64, leaf: u64, height: u64) -> u64 {
    (inner >> (2 * height)) + (leaf >> (2 * height)) + 1
}

/// What of a node's units is outside its part of the window: nothing for a leaf, of which only the wanted bits are taken.
fn over(height: u64, part: u64) -> u64 {
    if height == 0 {
        0
    } else {
        (64 << (2 * height)) - part
    }
}

/// The one or two pieces of a window, the second 0 for none, and their over-cover.
pub struct Cover {
    pub first: u64,
    pub second: u64,
    pub over: u64,
}

/// The cover of [l, r); nothing if the window is empty or ends past the tree. It is built into its callers, which then work out
/// only what they ask of it.
#[inline(always)]
pub fn cover(levels: u64, l: u64, r: u64) -> Option<Cover> {
    if l >= r || r > 64 << (2 * (levels - 1)) {
        return None;
    }
    let inner = nodes(levels - 1);
    let (left, right) = (l / 64, (r - 1) / 64);
    if left == right {
        return Some(Cover { first: above(inner, left, 0), second: 0, over: 0 });
    }
    // Where the window meets just two neighbouring children of the lowest node that holds it, a piece in each is less than that
    // node. Where it meets more, no two nodes below that node hold it.
    let whole = height(left, right);
    let child = 2 * (whole - 1);
    if (right >> child) - (left >> child) > 1 {
        return Some(Cover { first: above(inner, left, whole), second: 0, over: over(whole, r - l) });
    }
    let edge = right >> child << child;
    let (low, high) = (height(left, edge - 1), height(edge, right));
    Some(Cover {
        first: above(inner, left, low),
        second: above(inner, edge, high),
        over: over(low, 64 * edge - l) + over(high, r - 64 * edge),
    })
}

impl Settings {
    pub fn is_leaf(&self, node: u64) -> bool {
        node > nodes(self.levels - 1)
    }

    /// How many ancestors a node at level d notifies: (d + m - 2) / m, with a divisor for each m that the compiler knows.
    pub fn notify_count(&self, d: u64) -> u64 {
        match self.distance {
            1 => d - 1,
            2 => d / 2,
            3 => (d + 1) / 3,
            _ => (d + 2) / 4,
        }
    }

    /// The ancestor that a node at level d notifies at a place: m levels above the one before, and the last at level m.
    pub fn notify_node(&self, node: u64, d: u64, place: u64) -> u64 {
        climb(node, (place * self.distance + 1).min(d.saturating_sub(self.distance)).max(1))
    }

    /// How many nodes an inner node at level d checks.
    pub fn check_count(&self, d: u64) -> u64 {
        nodes(self.distance.min(self.levels - d))
    }

    /// How many steps a piece needs on an otherwise idle tree: one for each ancestor, the claim and the notices, and for an inner node
    /// also the ticket, the turn, the wait and the checks.
    fn piece_steps(&self, node: u64) -> u64 {
        let d = level(node);
        let notified = d + self.notify_count(d);
        if d == self.levels {
            notified
        } else {
            notified + 3 + self.check_count(d)
        }
    }

    /// How many steps a window of these pieces needs, second 0 for none.
    pub fn steps(&self, first: u64, second: u64) -> u64 {
        self.piece_steps(first) + if second == 0 { 0 } else { self.piece_steps(second) }
    }
}
