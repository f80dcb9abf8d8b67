//! The ranking by the standard library's sort.

use crate::tag_set::{self, TagSet};

/// Fills `out` with the containers, "most tags first; among equal sizes the lower number first".
pub fn ranking(tags: &[TagSet], out: &mut [u16]) {
    let size = |container: u16| tag_set::size(&tags[usize::from(container)]);
    for (place, container) in out.iter_mut().zip(0..) {
        *place = container;
    }
    out.sort_by(|&a, &b| size(b).cmp(&size(a)).then(a.cmp(&b)));
}
