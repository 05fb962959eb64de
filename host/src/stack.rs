//! How much stack a call takes, by painting a stack of its own and looking at what is left of the paint.
use std::arch::asm;
use std::ffi::c_void;

const SIZE: usize = 4 << 20;
const PAINT: u8 = 0x6b;

/// The bytes of stack that `call` takes, without those that calling takes by itself.
pub fn taken_by<T>(mut call: impl FnMut() -> T) -> usize {
    let mut answer = None;
    on_painted_stack(&mut || answer = Some(call())) - on_painted_stack(&mut || ())
}

fn on_painted_stack(mut call: &mut dyn FnMut()) -> usize {
    let mut stack = vec![PAINT; SIZE];
    let top = (stack.as_mut_ptr() as usize + SIZE) & !15;
    let argument: *mut &mut dyn FnMut() = &mut call;
    // The old stack pointer waits in a register that the callee saves.
    unsafe {
        asm!(
            "mov r12, rsp",
            "mov rsp, {top}",
            "call {enter}",
            "mov rsp, r12",
            top = in(reg) top,
            enter = in(reg) enter as *const () as usize,
            in("rdi") argument,
            out("r12") _,
            clobber_abi("C"),
        );
    }
    SIZE - stack.iter().take_while(|&&byte| byte == PAINT).count()
}

extern "C" fn enter(argument: *mut c_void) {
    let call = unsafe { &mut *(argument as *mut &mut dyn FnMut()) };
    call();
}
