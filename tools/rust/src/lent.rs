//! Ids from a list, in place of random ones: the call that runs takes them in order.
use crate::native::stun::TransId;
use std::cell::RefCell;

#[derive(Default)]
struct Lent {
    ids: Vec<TransId>,
    used: Vec<TransId>,
    /// Ids that a stand-in may not equal: pending, lent, or a stand-in before.
    taken: Vec<TransId>,
}

thread_local!(static LENT: RefCell<Lent> = RefCell::default());

/// Lends `ids` to the next call of a client that waits for the answers to `pending`.
pub fn lend(ids: &[TransId], pending: &[TransId]) {
    LENT.with(|l| {
        *l.borrow_mut() = Lent { ids: ids.to_vec(), used: Vec::new(), taken: [ids, pending].concat() };
    });
}

/// What the source's `new_tid` draws. An id that was not lent is a stand-in that equals no other,
/// so that a call which is short of ids still adds the records it would add.
pub fn next_id() -> TransId {
    LENT.with(|l| {
        let l = &mut *l.borrow_mut();
        let id = match l.ids.get(l.used.len()) {
            Some(id) => *id,
            None => stand_in(&mut l.taken),
        };
        l.used.push(id);
        id
    })
}

fn stand_in(taken: &mut Vec<TransId>) -> TransId {
    let free = (0u32..).map(|n| {
        let mut id = [0xEE; 12];
        id[8..].copy_from_slice(&n.to_be_bytes());
        id
    });
    let id = free.into_iter().find(|id| !taken.contains(id)).expect("more ids than records");
    taken.push(id);
    id
}

/// The ids that the call drew, in order, stand-ins too.
pub fn used() -> Vec<TransId> {
    LENT.with(|l| l.borrow().used.clone())
}
