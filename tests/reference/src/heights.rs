//! How high a balanced tree can be.

/// Fewest entries of a balanced tree of height h: 0, 1, then one more than the two before it.
pub fn fewest(h: usize) -> usize {
    let (mut this, mut next) = (0, 1);
    for _ in 0..h {
        (this, next) = (next, this + next + 1);
    }
    this
}

/// Greatest height of a balanced tree of n entries.
pub fn greatest_height(n: usize) -> usize {
    let mut h = 0;
    while fewest(h + 1) <= n {
        h += 1;
    }
    h
}
