//! Stand-in for `parking_lot`: the standard locks without poisoning. A write of a list of doubles is shown
//! to the recorder.

use std::any::Any;
use std::fmt;
use std::ops::{Deref, DerefMut};
use std::sync;

pub use std::sync::MutexGuard;

#[derive(Default)]
pub struct Mutex<T>(sync::Mutex<T>);

impl<T> Mutex<T> {
    pub fn new(value: T) -> Self {
        Mutex(sync::Mutex::new(value))
    }

    pub fn lock(&self) -> sync::MutexGuard<'_, T> {
        self.0.lock().unwrap_or_else(|poison| poison.into_inner())
    }
}

impl<T> fmt::Debug for Mutex<T> {
    fn fmt(&self, f: &mut fmt::Formatter<'_>) -> fmt::Result {
        f.write_str("Mutex")
    }
}

#[derive(Default)]
pub struct RwLock<T>(sync::RwLock<T>);

impl<T> RwLock<T> {
    pub fn new(value: T) -> Self {
        RwLock(sync::RwLock::new(value))
    }

    pub fn read(&self) -> sync::RwLockReadGuard<'_, T> {
        self.0.read().unwrap_or_else(|poison| poison.into_inner())
    }

    pub fn write(&self) -> RwLockWriteGuard<'_, T>
    where
        T: 'static,
    {
        RwLockWriteGuard {
            guard: self.0.write().unwrap_or_else(|poison| poison.into_inner()),
            address: self as *const Self as usize,
        }
    }
}

impl<T> fmt::Debug for RwLock<T> {
    fn fmt(&self, f: &mut fmt::Formatter<'_>) -> fmt::Result {
        f.write_str("RwLock")
    }
}

pub struct RwLockWriteGuard<'a, T: 'static> {
    guard: sync::RwLockWriteGuard<'a, T>,
    address: usize,
}

impl<T: 'static> Deref for RwLockWriteGuard<'_, T> {
    type Target = T;
    fn deref(&self) -> &T {
        &self.guard
    }
}

impl<T: 'static> DerefMut for RwLockWriteGuard<'_, T> {
    fn deref_mut(&mut self) -> &mut T {
        &mut self.guard
    }
}

impl<T: 'static> Drop for RwLockWriteGuard<'_, T> {
    fn drop(&mut self) {
        if let Some(list) = (&*self.guard as &dyn Any).downcast_ref::<Vec<f64>>() {
            recorder::written(self.address, list);
        }
    }
}
