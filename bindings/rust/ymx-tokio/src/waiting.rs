//! Futures that ask again once the connection has news for them.

use crate::{Shared, State};
use std::collections::BTreeMap;
use std::future::Future;
use std::io;
use std::mem;
use std::pin::Pin;
use std::task::{Context, Poll, Waker};

/// Futures that wait for news of one kind, in the order in which they came. Each has one slot, and frees it as it is dropped.
#[derive(Debug, Default)]
pub(crate) struct Waiters {
    last: u64,
    wakers: BTreeMap<u64, Waker>,
}

impl Waiters {
    pub(crate) fn wake(&mut self) {
        mem::take(&mut self.wakers).into_values().for_each(Waker::wake);
    }

    fn fill(&mut self, slot: &mut Option<u64>, waker: &Waker) {
        self.last += u64::from(slot.is_none());
        let number = *slot.get_or_insert(self.last);
        match self.wakers.get_mut(&number) {
            Some(kept) if kept.will_wake(waker) => {}
            _ => drop(self.wakers.insert(number, waker.clone())),
        }
    }
}

/// Waits until `ask` answers. Dropped before, it has taken nothing, and leaves nothing.
pub(crate) struct Waiting<'a, Ask> {
    shared: &'a Shared,
    kind: fn(&mut State) -> &mut Waiters,
    ask: Ask,
    slot: Option<u64>,
}

impl<'a, Ask> Waiting<'a, Ask> {
    pub(crate) fn new(shared: &'a Shared, kind: fn(&mut State) -> &mut Waiters, ask: Ask) -> Waiting<'a, Ask> {
        Waiting {
            shared,
            kind,
            ask,
            slot: None,
        }
    }
}

// Nothing in it is pinned.
impl<Ask> Unpin for Waiting<'_, Ask> {}

impl<T, Ask: FnMut(&mut State) -> io::Result<Option<T>>> Future for Waiting<'_, Ask> {
    type Output = io::Result<T>;

    fn poll(mut self: Pin<&mut Self>, context: &mut Context<'_>) -> Poll<io::Result<T>> {
        let this = &mut *self;
        let mut state = this.shared.lock();
        match (this.ask)(&mut state).transpose() {
            Some(answer) => Poll::Ready(answer),
            None => {
                (this.kind)(&mut state).fill(&mut this.slot, context.waker());
                Poll::Pending
            }
        }
    }
}

impl<Ask> Drop for Waiting<'_, Ask> {
    fn drop(&mut self) {
        if let Some(number) = self.slot {
            let mut state = self.shared.lock();
            (self.kind)(&mut state).wakers.remove(&number);
        }
    }
}
