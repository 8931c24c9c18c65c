//! Boxed functions that do nothing, made before the time is taken, since the port's jobs are boxed.
use std::hint::black_box;

pub type Function = Box<dyn FnOnce() + Send>;

pub fn functions(count: u64) -> Vec<Function> {
    (0..count)
        .map(|number| {
            Box::new(move || {
                black_box(number);
            }) as Function
        })
        .collect()
}
