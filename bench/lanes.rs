//! Times the proved kernels of `ring_lanes` beside plain Rust loops, in one process.
//!
//! Each kernel and its loop are run in turn, in many short batches, on the same ring. The time of
//! each is that of its best batch, and a row's ratio divides the two. Before a row is timed, both
//! answers are compared.

use std::hint::black_box;
use std::time::Instant;

// A machine's value.
trait Value: Copy + Ord + Into<u32> {
    fn of(small: u8) -> Self;
}

impl Value for u8 {
    fn of(small: u8) -> u8 {
        small
    }
}

impl Value for u16 {
    fn of(small: u8) -> u16 {
        small as u16 * 257
    }
}

// No ring has this value or a greater one.
const ABSENT: u8 = 250;

// The library's kernels for rings of one kind of value. Their conditions hold of every ring below:
// at least 2 machines, at most 65,536, and at most 64 for each word where a mask is written.
macro_rules! kernels {
    ($kernels:ident, $value:ty, $words:literal,
     $mask:ident, $count:ident, $first:ident, $weight:ident, $below:ident, $holds:ident, $prefix:ident) => {
        unsafe extern "C" {
            fn $mask(s: *const $value, n: usize, out: *mut [u64; $words]);
            fn $count(s: *const $value, n: usize) -> usize;
            fn $first(s: *const $value, n: usize) -> usize;
            fn $weight(s: *const $value, n: usize) -> u64;
            fn $below(s: *const $value, n: usize, limit: u32) -> bool;
            fn $holds(s: *const $value, n: usize, v: $value) -> bool;
            fn $prefix(s: *const $value, n: usize) -> bool;
        }

        mod $kernels {
            use super::*;

            pub fn mask(s: &[$value]) -> u64 {
                let mut out = [0; $words];
                unsafe { $mask(s.as_ptr(), s.len(), &mut out) };
                out.iter().fold(0, |joined, word| joined ^ word)
            }
            pub fn count(s: &[$value]) -> u64 {
                unsafe { $count(s.as_ptr(), s.len()) as u64 }
            }
            pub fn first(s: &[$value]) -> u64 {
                unsafe { $first(s.as_ptr(), s.len()) as u64 }
            }
            pub fn weight(s: &[$value]) -> u64 {
                unsafe { $weight(s.as_ptr(), s.len()) }
            }
            pub fn below(s: &[$value]) -> u64 {
                let limit: $value = black_box(Value::of(ABSENT));
                unsafe { $below(s.as_ptr(), s.len(), limit as u32) as u64 }
            }
            pub fn holds(s: &[$value]) -> u64 {
                unsafe { $holds(s.as_ptr(), s.len(), black_box(Value::of(ABSENT))) as u64 }
            }
            pub fn prefix(s: &[$value]) -> u64 {
                unsafe { $prefix(s.as_ptr(), s.len()) as u64 }
            }
        }
    };
}

kernels!(
    bytes, u8, 4,
    ring_lanes_privileged_mask, ring_lanes_privileged_count, ring_lanes_first_privileged, ring_lanes_weight,
    ring_lanes_all_below, ring_lanes_holds_past_first, ring_lanes_first_value_is_prefix
);
kernels!(
    wide, u16, 16,
    ring_lanes_wide_mask, ring_lanes_wide_count, ring_lanes_wide_first, ring_lanes_wide_weight,
    ring_lanes_wide_all_below, ring_lanes_wide_holds_past_first, ring_lanes_wide_first_value_is_prefix
);

// The same in plain Rust. None but `first` leaves its loop early, so that the compiler can make
// vector code of it.
mod plain {
    use super::*;

    fn neighbours<V: Value>(s: &[V]) -> impl Iterator<Item = (V, V)> {
        s.iter().copied().zip(s[1..].iter().copied())
    }

    #[inline(never)]
    pub fn mask<V: Value, const WORDS: usize>(s: &[V]) -> u64 {
        let mut out = [0u64; WORDS];
        out[0] = (s[s.len() - 1] == s[0]) as u64;
        for (i, (left, own)) in neighbours(s).enumerate() {
            out[(i + 1) / 64] |= ((left != own) as u64) << ((i + 1) % 64);
        }
        out.iter().fold(0, |joined, word| joined ^ word)
    }
    #[inline(never)]
    pub fn count<V: Value>(s: &[V]) -> u64 {
        (s[s.len() - 1] == s[0]) as u64 + neighbours(s).map(|(left, own)| (left != own) as u64).sum::<u64>()
    }
    #[inline(never)]
    pub fn first<V: Value>(s: &[V]) -> u64 {
        if s[s.len() - 1] == s[0] {
            return 0;
        }
        neighbours(s).position(|(left, own)| left != own).map_or(s.len(), |i| i + 1) as u64
    }
    #[inline(never)]
    pub fn weight<V: Value>(s: &[V]) -> u64 {
        let n = s.len();
        neighbours(s).enumerate().map(|(i, (left, own))| if left != own { (n - 1 - i) as u64 } else { 0 }).sum()
    }
    #[inline(never)]
    pub fn below<V: Value>(s: &[V]) -> u64 {
        (s.iter().fold(V::of(0), |greatest, &v| greatest.max(v)) < black_box(V::of(ABSENT))) as u64
    }
    #[inline(never)]
    pub fn holds<V: Value>(s: &[V]) -> u64 {
        let value = black_box(V::of(ABSENT));
        s[1..].iter().fold(false, |held, &v| held | (v == value)) as u64
    }
    #[inline(never)]
    pub fn prefix<V: Value>(s: &[V]) -> u64 {
        let value = s[0];
        neighbours(s).fold(true, |prefix, (left, own)| prefix & ((left == value) | (own != value))) as u64
    }
}

// Values without rhythm, by a linear congruential generator.
fn mixed<V: Value>(n: usize) -> Vec<V> {
    let mut state = 1u64;
    (0..n)
        .map(|_| {
            state = state.wrapping_mul(6_364_136_223_846_793_005).wrapping_add(1_442_695_040_888_963_407);
            V::of((state >> 40) as u8 % 4)
        })
        .collect()
}

// Only the last machine is privileged.
fn late<V: Value>(n: usize) -> Vec<V> {
    (0..n).map(|i| V::of((i == n - 1) as u8)).collect()
}

// The first half holds the value of machine 0, and no other machine does.
fn halves<V: Value>(n: usize) -> Vec<V> {
    (0..n).map(|i| V::of(if i < n / 2 { 0 } else { 1 + (i % 3) as u8 })).collect()
}

fn batch<V>(f: fn(&[V]) -> u64, s: &[V], calls: u32) -> f64 {
    let start = Instant::now();
    for _ in 0..calls {
        black_box(f(black_box(s)));
    }
    start.elapsed().as_nanos() as f64 / calls as f64
}

fn row<V>(name: &str, ring: Vec<V>, kernel: fn(&[V]) -> u64, plain: fn(&[V]) -> u64) {
    assert_eq!(kernel(&ring), plain(&ring), "{name} at {}", ring.len());
    let calls = (2_000_000 / ring.len()) as u32;
    let (mut fast, mut slow) = (f64::INFINITY, f64::INFINITY);
    for _ in 0..200 {
        fast = fast.min(batch(kernel, &ring, calls));
        slow = slow.min(batch(plain, &ring, calls));
    }
    println!("{name:26} {:7} {fast:12.1} {slow:12.1} {:8.2}", ring.len(), fast / slow);
}

fn main() {
    println!("{:26} {:>7} {:>12} {:>12} {:>8}", "kernel", "n", "kernel ns", "plain ns", "ratio");
    for n in [256, 65_536] {
        row("privileged_count", mixed(n), bytes::count, plain::count);
        row("first_privileged", late(n), bytes::first, plain::first);
        if n <= 256 {
            row("privileged_mask", mixed(n), bytes::mask, plain::mask::<u8, 4>);
        }
        row("weight", mixed(n), bytes::weight, plain::weight);
        row("all_below", mixed(n), bytes::below, plain::below);
        row("holds_past_first", mixed(n), bytes::holds, plain::holds);
        row("first_value_is_prefix", halves(n), bytes::prefix, plain::prefix);
    }
    for n in [1_024, 65_536] {
        row("wide_count", mixed(n), wide::count, plain::count);
        row("wide_first", late(n), wide::first, plain::first);
        if n <= 1_024 {
            row("wide_mask", mixed(n), wide::mask, plain::mask::<u16, 16>);
        }
        row("wide_weight", mixed(n), wide::weight, plain::weight);
        row("wide_all_below", mixed(n), wide::below, plain::below);
        row("wide_holds_past_first", mixed(n), wide::holds, plain::holds);
        row("wide_first_value_is_prefix", halves(n), wide::prefix, plain::prefix);
    }
}
