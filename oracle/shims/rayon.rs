//! `scope` runs what is spawned at once, one after the other: no result depends on the order.
use std::marker::PhantomData;

pub struct Scope<'scope>(PhantomData<&'scope ()>);

impl<'scope> Scope<'scope> {
    pub fn spawn<F: FnOnce(&Scope<'scope>) + Send + 'scope>(&self, f: F) {
        f(self);
    }
}

pub fn scope<'scope, R, F: FnOnce(&Scope<'scope>) -> R>(f: F) -> R {
    f(&Scope(PhantomData))
}
