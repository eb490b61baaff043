//! Stands in for Vine's typed tree: the two ids that the later stages share with it.

use vine_util::new_idx;

new_idx!(pub Local; n => ["l{n}"]);
new_idx!(pub ClosureId; n => ["c{n}"]);
