//! Stand-in for `arc_swap`: the one container in use, behind a lock.

use std::fmt;
use std::sync::{Arc, Mutex};

pub struct ArcSwapOption<T>(Mutex<Option<Arc<T>>>);

impl<T> ArcSwapOption<T> {
    pub fn load_full(&self) -> Option<Arc<T>> {
        self.0.lock().unwrap().clone()
    }

    pub fn swap(&self, new: Option<Arc<T>>) -> Option<Arc<T>> {
        std::mem::replace(&mut *self.0.lock().unwrap(), new)
    }
}

impl<T> Default for ArcSwapOption<T> {
    fn default() -> Self {
        ArcSwapOption(Mutex::new(None))
    }
}

impl<T> fmt::Debug for ArcSwapOption<T> {
    fn fmt(&self, f: &mut fmt::Formatter<'_>) -> fmt::Result {
        f.write_str("ArcSwapOption")
    }
}
