//! Where the code of the archive stands, in a program that measures it.

/// Where the archive's code stands, in steps of 16 bytes: 0 to 3, by the variable PLACE when this is compiled.
const PLACE: usize = match option_env!("PLACE") {
    Some(digit) => (digit.as_bytes()[0] - b'0') as usize,
    None => 0,
};

std::arch::global_asm!(
    ".section .text.place,\"ax\",@progbits",
    ".globl place",
    "place: ret",
    ".skip {}, 0x90",
    ".text",
    const 15 + 16 * PLACE,
);

unsafe extern "C" {
    fn place();
}

#[used]
static PLACED: unsafe extern "C" fn() = place;
