//! A judge of soundness apart from the library: no boxes, no marks, only lists and the definition.

use reference::Head;

/// The fields of a slot, turned so that the depth's cut field stands first.
fn turned(keys: &[i64], slot: usize, depth: usize, k: usize) -> Vec<i64> {
    let mut key = keys[k * (slot - 1)..k * slot].to_vec();
    key.rotate_left(depth % k);
    key
}

/// A slot of the tree and its depth.
pub type Met = (usize, usize);

/// The slots of the tree in the order of a walk from the root, or none where range, count or order fails.
fn walk(head: Head, keys: &[i64], links: &[usize]) -> Option<Vec<Met>> {
    let mut met = Vec::new();
    let mut ahead = vec![(head.root, Vec::<(usize, bool)>::new())];
    while let Some((slot, above)) = ahead.pop() {
        if slot == 0 {
            continue;
        }
        if slot > head.c || met.len() == head.n {
            return None;
        }
        for (depth, &(ancestor, went_left)) in above.iter().enumerate() {
            let (here, there) = (
                turned(keys, slot, depth, head.k),
                turned(keys, ancestor, depth, head.k),
            );
            if here == there || (here < there) != went_left {
                return None;
            }
        }
        met.push((slot, above.len()));
        for (side, went_left) in [(1, false), (0, true)] {
            let mut path = above.clone();
            path.push((slot, went_left));
            ahead.push((links[3 * (slot - 1) + side], path));
        }
    }
    Some(met)
}

/// Whether all met slots have the heights and the balance that their links give them.
fn heights_hold(met: &[Met], links: &[usize]) -> bool {
    let mut heights = vec![0; links.len() / 3 + 1];
    met.iter().rev().all(|&(slot, _)| {
        let link = 3 * (slot - 1);
        let (left, right) = (heights[links[link]], heights[links[link + 1]]);
        heights[slot] = 1 + usize::max(left, right);
        links[link + 2] == heights[slot] && usize::abs_diff(left, right) <= 1
    })
}

/// Whether the chain runs through so many cleared slots and then ends.
fn chain_holds(head: Head, keys: &[i64], links: &[usize]) -> bool {
    let mut slot = head.free;
    for _ in head.n..head.c {
        if slot == 0 || slot > head.c {
            return false;
        }
        let numbers = &keys[head.k * (slot - 1)..head.k * slot];
        if numbers.iter().any(|v| *v != 0) || links[3 * slot - 2] != 0 || links[3 * slot - 1] != 0 {
            return false;
        }
        slot = links[3 * (slot - 1)];
    }
    slot == 0
}

/// The slots of a sound pool's tree with their depths, root first, or none where the pool is not sound.
pub fn tree_slots(head: Head, keys: &[i64], links: &[usize]) -> Option<Vec<Met>> {
    let met = walk(head, keys, links)?;
    let sound = head.n <= head.c
        && met.len() == head.n
        && heights_hold(&met, links)
        && chain_holds(head, keys, links);
    sound.then_some(met)
}
