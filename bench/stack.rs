//! The stack that a call uses, by what it overwrites of a painted one.

use std::arch::asm;

const BYTES: usize = 1 << 20;
const PAINT: u8 = 0xA5;

#[repr(align(4096))]
struct Page([u8; 4096]);

/// The bytes of stack that the call writes to, with those of the calls around it, under 200. What the deepest frame leaves unwritten
/// at its end is not seen.
pub fn used<F: FnMut()>(mut call: F) -> usize {
    let mut area: Vec<Page> = (0..BYTES / 4096).map(|_| Page([PAINT; 4096])).collect();
    let top = area.as_mut_ptr_range().end;
    // r12 keeps the former stack, since a callee restores it. The area is far larger than what any call uses.
    unsafe {
        asm!(
            "xchg rsp, r12",
            "call {enter}",
            "mov rsp, r12",
            enter = sym enter::<F>,
            inout("r12") top => _,
            inout("rdi") &mut call => _,
            clobber_abi("C"),
        );
    }
    let bytes = area.iter().flat_map(|page| page.0);
    BYTES - bytes.take_while(|&byte| byte == PAINT).count()
}

extern "C" fn enter<F: FnMut()>(call: &mut F) {
    call();
}
