//! A pool of handles: a call takes one or makes one, and puts it back.

use std::fmt;
use std::sync::{Mutex, PoisonError};

/// Handles that no call has. At most as many are made as calls were under way at once.
pub(crate) struct Pool<T>(Mutex<Vec<T>>);

impl<T> Pool<T> {
    /// A pool of these.
    pub(crate) fn of(ready: Vec<T>) -> Pool<T> {
        Pool(Mutex::new(ready))
    }

    /// What a call makes of a handle, which is made where none is free. After a panic the handle is
    /// dropped.
    pub(crate) fn with<R>(&self, make: impl FnOnce() -> T, call: impl FnOnce(&mut T) -> R) -> R {
        let free = self.0.lock().unwrap_or_else(PoisonError::into_inner).pop();
        let mut taken = free.unwrap_or_else(make);
        let result = call(&mut taken);
        self.0
            .lock()
            .unwrap_or_else(PoisonError::into_inner)
            .push(taken);
        result
    }
}

impl<T> fmt::Debug for Pool<T> {
    fn fmt(&self, f: &mut fmt::Formatter<'_>) -> fmt::Result {
        f.write_str("Pool")
    }
}
