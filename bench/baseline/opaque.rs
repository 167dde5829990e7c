//! What `std::hint::black_box` does, which Rust has from 1.66 on: the baselines are built by older ones too; and random positions of texts,
//! which may repeat.
use std::arch::asm;

/// The same value. The compiler has to take it, and all that it leads to, for another one.
#[inline(always)]
pub fn black_box<T>(value: T) -> T {
    // No instruction, which may read and write what the address leads to.
    unsafe { asm!("/* {0} */", in(reg) &value, options(nostack, preserves_flags)) };
    value
}

/// So many draws of a position below the count, the same as `tool_bench` draws. Each is drawn by itself, so that a
/// position may come more than once or not at all.
#[allow(dead_code)]
pub fn random_positions(count: u32, draws: u32) -> Vec<u32> {
    let mut state = 0u64;
    (0..draws)
        .map(|_| {
            state = state.wrapping_mul(6_364_136_223_846_793_005).wrapping_add(1_442_695_040_888_963_407);
            (state >> 33) as u32 % count
        })
        .collect()
}
