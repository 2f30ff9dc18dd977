//! The comparisons. Each takes the rules, and any reader, lookup, patch or evaluation as a closure; it panics at the first difference.

pub mod evaluate;
pub mod full_reads;
pub mod patches;
pub mod statement_reads;
pub mod tokens;
pub mod words;

use laqhoncu::Refusal;

/// How often each refusal was expected: a comparison that never meets one says nothing of it.
#[derive(Clone, Copy, Debug)]
pub struct Met([u64; 256]);

impl Default for Met {
    fn default() -> Self {
        Self([0; 256])
    }
}

impl Met {
    pub fn add(&mut self, refusal: &Refusal) {
        self.0[refusal.number as usize] += 1;
    }

    pub fn times(&self, number: u8) -> u64 {
        self.0[number as usize]
    }

    /// Panics where one of these was met too seldom.
    pub fn assert(&self, numbers: &[u8]) {
        for number in numbers {
            assert!(self.times(*number) > 10, "refusal {number} is met {} times only", self.times(*number));
        }
    }
}

/// Runs `f` on a stack on which the recursion of the original and of the model has room.
pub fn on_a_large_stack<T: Send>(f: impl FnOnce() -> T + Send) -> T {
    std::thread::scope(|scope| {
        let thread = std::thread::Builder::new().stack_size(1 << 30).spawn_scoped(scope, f).unwrap();
        thread.join().unwrap_or_else(|cause| std::panic::resume_unwind(cause))
    })
}
