//! 24: on the `E` line, a ruled predicate that has a claim and heads no rule.

use super::{Detail, Fault};
use crate::heads::{headless, mend, wrong};
use crate::letters::Letter;
use crate::pack::Pack;

/// The whole line: what is missing stands nowhere.
pub fn of_end(seen: &Pack, line: &[u8]) -> Option<Fault> {
    if Letter::of(line)? != Letter::End || !Letter::End.may_stand(seen) {
        return None;
    }
    let found = headless(seen);
    if found.is_empty() {
        return None;
    }
    let (wrong, mend) = (wrong(&found), mend(&found));
    Some(Fault { mark: 0..line.len(), wrong, mend, detail: Some(Detail::Heads(found)) })
}
