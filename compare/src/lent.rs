//! Lent memory: filled with a pattern, with a guard on both sides, so that a
//! byte written where none should be is seen.

const GUARD: usize = 16;

/// What stands at a place before a call.
pub trait Filled: Copy + PartialEq + std::fmt::Debug {
    fn fill(i: usize) -> Self;
    const ZERO: Self;
}

impl Filled for u8 {
    fn fill(i: usize) -> u8 {
        (i.wrapping_mul(37) as u8) | 1
    }
    const ZERO: u8 = 0;
}

impl Filled for u32 {
    fn fill(i: usize) -> u32 {
        (i as u32).wrapping_mul(0x9E37_79B9) | 1
    }
    const ZERO: u32 = 0;
}

impl Filled for u64 {
    fn fill(i: usize) -> u64 {
        (i as u64).wrapping_mul(0x9E37_79B9_7F4A_7C15) | 1
    }
    const ZERO: u64 = 0;
}

#[derive(PartialEq)]
pub struct Lent<T> {
    all: Vec<T>,
}

impl<T: Filled> Lent<T> {
    pub fn new(places: usize) -> Lent<T> {
        Lent {
            all: (0..places + 2 * GUARD).map(T::fill).collect(),
        }
    }

    pub fn part(&mut self) -> &mut [T] {
        let n = self.all.len();
        &mut self.all[GUARD..n - GUARD]
    }

    /// Is the lent part `result`, then the pattern as before, and is the guard
    /// as it was?
    pub fn holds(&self, result: &[T]) -> Result<(), String> {
        let n = self.all.len() - 2 * GUARD;
        assert!(result.len() <= n, "the result is longer than what was lent");
        for (i, &x) in self.all.iter().enumerate() {
            let at = i.wrapping_sub(GUARD);
            let want = match result.get(at) {
                Some(&r) if i >= GUARD => r,
                _ => T::fill(i),
            };
            if x != want {
                let where_ = i as isize - GUARD as isize;
                return Err(format!("at {where_} of {n}: {x:?} where {want:?} is due"));
            }
        }
        Ok(())
    }

    pub fn untouched(&self) -> Result<(), String> {
        self.holds(&[])
    }

    pub fn zero(&self) -> Result<(), String> {
        self.holds(&vec![T::ZERO; self.all.len() - 2 * GUARD])
    }
}

/// Bytes as hex, for an input that is printed.
pub fn hex(bytes: &[u8]) -> String {
    bytes.iter().map(|b| format!("{b:02x}")).collect()
}
