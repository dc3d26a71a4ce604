//! Stand-in for `atomic_float`: the bits of a double in an integer atomic.

use std::sync::atomic::{AtomicU64, Ordering};

#[derive(Debug)]
pub struct AtomicF64(AtomicU64);

impl AtomicF64 {
    #[inline]
    pub fn new(value: f64) -> Self {
        AtomicF64(AtomicU64::new(value.to_bits()))
    }

    #[inline]
    pub fn load(&self, order: Ordering) -> f64 {
        f64::from_bits(self.0.load(order))
    }

    #[inline]
    pub fn store(&self, value: f64, order: Ordering) {
        self.0.store(value.to_bits(), order)
    }

    #[inline]
    pub fn fetch_add(&self, value: f64, order: Ordering) -> f64 {
        let old = self
            .0
            .fetch_update(order, Ordering::SeqCst, |bits| {
                Some((f64::from_bits(bits) + value).to_bits())
            })
            .expect("the update always answers");
        f64::from_bits(old)
    }
}

impl Default for AtomicF64 {
    fn default() -> Self {
        AtomicF64::new(0.0)
    }
}

impl From<f64> for AtomicF64 {
    fn from(value: f64) -> Self {
        AtomicF64::new(value)
    }
}
