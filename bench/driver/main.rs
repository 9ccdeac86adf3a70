//! The program. It is compiled under several names, which say by how many bytes the code is moved.
use std::process::ExitCode;

const SHIFT: usize = match usize::from_str_radix(env!("CARGO_BIN_NAME").split_at("bench_".len()).1, 10) {
    Ok(bytes) => bytes,
    Err(_) => panic!("a name without a number"),
};

// Bytes that are never run: the code behind them, of both sides, is moved by so many.
std::arch::global_asm!(
    ".section .text.bench_shift, \"axR\", @progbits",
    ".skip {shift}",
    ".text",
    shift = const SHIFT,
);

fn main() -> ExitCode {
    driver::main()
}
