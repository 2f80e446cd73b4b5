# Prints its arguments, one a line and unchanged, and ends with their number (modulo 256) as status, or with 255 where a
# write fails. It uses no library. Linux on x86-64 starts it with the stack of the System V psABI: the number of the
# words, and then their addresses, the program's own name first.

        .set    SYS_write, 1
        .set    SYS_exit, 60
        .set    STDOUT, 1

        .globl  _start
        .text
_start:
        mov     (%rsp), %r12            # how many words there are
        lea     16(%rsp), %r13          # where the address of the word after the name stands
        mov     %r12, %r14
        dec     %r14                    # how many are left to print
        mov     %r14, %r15              # the status
        jmp     .Lnext

.Lword:
        mov     (%r13), %rsi
        add     $8, %r13
        dec     %r14
        xor     %edx, %edx
.Llength:
        cmpb    $0, (%rsi,%rdx)
        lea     1(%rdx), %rdx
        jne     .Llength
        movb    $'\n', -1(%rsi,%rdx)    # the zero behind the word isn't needed any more

.Lwrite:                                # rdx bytes from rsi on, which may take several calls
        mov     $SYS_write, %eax
        mov     $STDOUT, %edi
        syscall
        test    %rax, %rax
        jle     .Lfailed
        add     %rax, %rsi
        sub     %rax, %rdx
        jnz     .Lwrite

.Lnext:
        test    %r14, %r14
        jg      .Lword
        mov     %r15, %rdi
        jmp     .Lexit

.Lfailed:
        mov     $255, %edi
.Lexit:
        mov     $SYS_exit, %eax
        syscall
