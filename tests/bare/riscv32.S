/* Where a program for a bare RISC-V starts when qemu-riscv32 loads it like one of Linux: the operands are on the stack and the data in
 * its place; what begins as zero has to be cleared here. */
    .globl _start
_start:
    .option push
    .option norelax
    la gp, __global_pointer$
    .option pop
    la tp, __tls_base
    la a0, __bss_start
    li a1, 0
    la a2, __bss_size
    call memset
    lw a0, 0(sp)
    addi a1, sp, 4
    call main
    tail exit
