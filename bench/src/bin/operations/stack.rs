//! How much stack a piece of work uses, to the byte.
//!
//! The work runs on a stack of its own, a buffer that was painted with one byte value: the lowest byte that has changed
//! afterwards is how deep the work went. A byte that is written with the paint's own value looks untouched, so there
//! are two runs with different paints, and the deeper one counts. The few dozen bytes of the call into the work are in.

use std::arch::asm;

/// Bytes of the painted stack. Nothing guards its end, so it is far larger than what is measured, and a run that
/// reaches its last part stops the program.
const SIZE: usize = 32 << 20;
const LAST: usize = SIZE / 2;

/// The most bytes of stack that the work used in two runs.
pub fn depth(work: &mut dyn FnMut()) -> usize {
    [0xa5, 0x5a].map(|paint| painted_run(paint, work)).into_iter().max().unwrap_or(0)
}

fn painted_run(paint: u8, mut work: &mut dyn FnMut()) -> usize {
    let mut stack = vec![paint; SIZE];
    let end = stack.as_mut_ptr_range().end;
    let top = end.wrapping_sub(end as usize % 16);
    // SAFETY: the stack pointer is 16-byte aligned before the call, as the C convention asks, and is put back after it
    // from r12, which a callee keeps. Until then the buffer is used as a stack and by nothing else. `enter` gets the
    // address of `work`, which lives on, and can't unwind.
    unsafe {
        asm!(
            "mov r12, rsp",
            "mov rsp, {top}",
            "call {enter}",
            "mov rsp, r12",
            top = in(reg) top,
            enter = sym enter,
            in("rdi") &mut work,
            out("r12") _,
            clobber_abi("C"),
        );
    }
    let untouched = stack.iter().take_while(|byte| **byte == paint).count();
    if untouched < LAST {
        eprintln!("the work used {} bytes of stack and more", SIZE - untouched);
        std::process::abort();
    }
    top as usize - (stack.as_ptr() as usize + untouched)
}

extern "C" fn enter(work: &mut &mut dyn FnMut()) {
    work();
}

#[cfg(test)]
mod tests {
    use super::depth;
    use std::hint::black_box;

    /// Work with an array of so many bytes, all written.
    fn array<const BYTES: usize>() -> usize {
        depth(&mut || {
            let mut array = [0_u8; BYTES];
            black_box(&mut array).fill(7);
        })
    }

    #[test]
    fn an_array_counts_with_all_its_bytes() {
        let (small, large) = (array::<1_000>(), array::<100_000>());
        assert!((1_000..2_000).contains(&small), "{small}");
        assert!((100_000..101_000).contains(&large), "{large}");
    }
}
