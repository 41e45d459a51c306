//! How much of the machine's stack a call takes: it is made on memory that holds
//! a pattern, and the lowest word that is another afterwards tells.

use std::arch::asm;

/// What the memory holds before the call.
const PATTERN: u64 = 0x9E37_79B9_7F4A_7C15;

/// Its words: far more than any call takes, also one that would go deeper at each
/// child of a node.
const WORDS: usize = 1 << 18;

/// As many parameters as System V passes in registers.
const IN_REGISTERS: usize = 6;

/// A function of the library by its address, with its parameters, each as a word
/// of its own: numbers as they are, a slice as the address of its first element
/// and its length.
pub struct Call {
    pub function: *const (),
    pub parameters: Vec<u64>,
}

/// The words of a slice that a call writes.
pub fn lent<T>(x: &mut [T]) -> [u64; 2] {
    [x.as_mut_ptr() as u64, x.len() as u64]
}

/// The words of a slice that a call reads.
pub fn given<T>(x: &[T]) -> [u64; 2] {
    [x.as_ptr() as u64, x.len() as u64]
}

impl Call {
    /// The answer of the call, and the bytes of the stack from its parameters down to
    /// the lowest that it wrote.
    ///
    /// # Safety
    ///
    /// The function takes these parameters, and its duties are kept for them.
    pub unsafe fn measured(&self) -> (u32, usize) {
        // A register that the function has no parameter in may hold anything.
        let mut parameters = self.parameters.clone();
        parameters.resize(parameters.len().max(IN_REGISTERS), 0);
        let (registers, on_stack) = parameters.split_at(IN_REGISTERS);
        let pair = u128::from(PATTERN) << 64 | u128::from(PATTERN);
        let mut stack = vec![pair; WORDS / 2];
        // SAFETY: the same memory by halves, any of which are numbers.
        let (_, words, _) = unsafe { stack.align_to_mut::<u64>() };
        // Aligned at 16 bytes, as the stack is where a function is called.
        let top = WORDS - on_stack.len().next_multiple_of(2);
        words[top..][..on_stack.len()].copy_from_slice(on_stack);
        let answer: u64;
        // SAFETY: the stack of the call is memory of this function, and is put back
        // from a register that the call keeps.
        unsafe {
            asm!(
                "mov r12, rsp",
                "mov rsp, {top}",
                "call {function}",
                "mov rsp, r12",
                top = in(reg) words.as_mut_ptr().add(top),
                function = in(reg) self.function,
                in("rdi") registers[0],
                in("rsi") registers[1],
                in("rdx") registers[2],
                in("rcx") registers[3],
                in("r8") registers[4],
                in("r9") registers[5],
                lateout("rax") answer,
                out("r12") _,
                clobber_abi("C"),
            );
        }
        let kept = words.iter().take_while(|&&w| w == PATTERN).count();
        assert!(kept > 0, "the call went past what was measured");
        (answer as u32, 8 * (WORDS - kept))
    }
}
