// Start of an image on the emulated board: a stack whose end is guarded, and traps for what the library must not do.
// Floating-point and vector registers trap as after every reset (CPACR_EL1), unaligned accesses because they are told
// to here; both end in trapped() (machine.c).
    .section .text.start, "ax"
    .global _start
_start:
    ldr x0, =stack_top
    mov sp, x0
    ldr x0, =vectors
    msr vbar_el1, x0
    mrs x0, sctlr_el1
    orr x0, x0, #2              // A: alignment is checked
    msr sctlr_el1, x0
    isb
    // clear what starts as zero: this memory outlives a kill
    ldr x0, =bss_bottom
    ldr x1, =guard_bottom
0:  str xzr, [x0], #8
    cmp x0, x1
    b.lo 0b
    // paint from the guard's bottom up to the stack's top
    ldr x0, =guard_bottom
    ldr x1, =stack_top
    ldr x2, =0x5aa55aa55aa55aa5
1:  str x2, [x0], #8
    cmp x0, x1
    b.lo 1b
    bl main
    b power_off

// call_on(stack top, function): the function on another stack
    .global call_on
call_on:
    stp x29, x30, [sp, #-16]!
    mov x29, sp
    mov sp, x0
    blr x1
    mov sp, x29
    ldp x29, x30, [sp], #16
    ret

// PSCI SYSTEM_OFF: the emulator ends
    .global power_off
power_off:
    ldr x0, =0x84000008
    hvc #0
2:  wfe
    b 2b

    .balign 2048
vectors:
    .rept 16
    .balign 128
    mrs x0, esr_el1
    mrs x1, elr_el1
    ldr x2, =stack_top          // the stack may be what is wrong
    mov sp, x2
    b trapped
    .endr
