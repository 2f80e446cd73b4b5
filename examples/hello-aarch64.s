// hello.s for AArch64: prints its arguments, one a line and unchanged, and ends with their number (modulo 256) as status, or
// with 255 where a write fails. It uses no library. Linux on AArch64 starts it with the number of the words on the stack,
// and then their addresses, the program's own name first.

        .set    SYS_write, 64
        .set    SYS_exit, 93
        .set    STDOUT, 1

        .globl  _start
        .text
_start:
        ldr     x19, [sp]               // how many words there are
        add     x20, sp, #16            // where the address of the word after the name stands
        sub     x19, x19, #1            // how many are left to print
        mov     x21, x19                // the status
        b       .Lnext

.Lword:
        ldr     x1, [x20], #8
        sub     x19, x19, #1
        mov     x2, #0
.Llength:
        ldrb    w3, [x1, x2]
        add     x2, x2, #1
        cbnz    w3, .Llength
        add     x3, x1, x2
        mov     w4, #'\n'
        strb    w4, [x3, #-1]           // the zero behind the word isn't needed any more

.Lwrite:                                // x2 bytes from x1 on, which may take several calls
        mov     x8, #SYS_write
        mov     x0, #STDOUT
        svc     #0
        cmp     x0, #0
        b.le    .Lfailed
        add     x1, x1, x0
        subs    x2, x2, x0
        b.ne    .Lwrite

.Lnext:
        cmp     x19, #0
        b.gt    .Lword
        mov     x0, x21
        b       .Lexit

.Lfailed:
        mov     x0, #255
.Lexit:
        mov     x8, #SYS_exit
        svc     #0
