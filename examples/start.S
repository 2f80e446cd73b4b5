/* A start stub for programs that are linked into one file, for Linux on x86-64 and on AArch64.

   The start code of a C library looks for the program headers at the address that the kernel tells in the auxiliary vector.
   The linked file has a program header table of its own, which is in no load, so the kernel tells 0 or an address of
   something else. The program's own ELF header and table are in its first load, as linkers put them there by default. The
   stub tells these instead, and goes on to the start code with the stack and all registers of arguments as they were. The
   size of a program header, AT_PHENT, is right as it is.

   gcc -static -o PROGRAM PROGRAM.c start.S -Wl,-e,ape_start

   The stack is that of the System V psABI: the number of the arguments, their addresses and a zero, those of the environment
   and a zero, and the auxiliary vector, pairs of a type and a value that end with the type 0. */

#define AT_PHDR 3   /* where the program header table is */
#define AT_PHNUM 5  /* how many program headers it has */
#define E_PHOFF 32  /* in an ELF header of 64 bits */
#define E_PHNUM 56

        .globl  ape_start
        .hidden __ehdr_start            /* the linker's name for the program's own ELF header */
        .text

#if defined __x86_64__

        .type   ape_start, @function
ape_start:
        mov     (%rsp), %rcx
        lea     16(%rsp,%rcx,8), %rcx   /* the environment */
.Lvariable:
        add     $8, %rcx
        cmpq    $0, -8(%rcx)
        jne     .Lvariable

        lea     __ehdr_start(%rip), %r8
        movzwl  E_PHNUM(%r8), %r9d
        add     E_PHOFF(%r8), %r8       /* the table */
.Lpair:
        mov     (%rcx), %rax
        cmp     $AT_PHDR, %rax
        jne     .Lcount
        mov     %r8, 8(%rcx)
.Lcount:
        cmp     $AT_PHNUM, %rax
        jne     .Lnext
        mov     %r9, 8(%rcx)
.Lnext:
        add     $16, %rcx
        test    %rax, %rax
        jne     .Lpair
        jmp     _start

#elif defined __aarch64__

        .type   ape_start, %function
ape_start:
        ldr     x9, [sp]
        add     x10, sp, #16
        add     x10, x10, x9, lsl #3    /* the environment */
.Lvariable:
        ldr     x9, [x10], #8
        cbnz    x9, .Lvariable

        adrp    x11, __ehdr_start
        add     x11, x11, :lo12:__ehdr_start
        ldrh    w12, [x11, #E_PHNUM]
        ldr     x13, [x11, #E_PHOFF]
        add     x11, x11, x13           /* the table */
.Lpair:
        ldr     x9, [x10]
        cmp     x9, #AT_PHDR
        b.ne    .Lcount
        str     x11, [x10, #8]
.Lcount:
        cmp     x9, #AT_PHNUM
        b.ne    .Lnext
        str     x12, [x10, #8]
.Lnext:
        add     x10, x10, #16
        cbnz    x9, .Lpair
        b       _start

#else
#error "the machines of a linked file are x86-64 and AArch64"
#endif

        .size   ape_start, . - ape_start
        .section .note.GNU-stack, "", %progbits
