/* Prints what the auxiliary vector tells of the program headers: AT_PHDR and AT_PHNUM, and whether they are the program's own,
   which its ELF header tells. It uses no library, so it starts whatever they are. On x86-64 and AArch64 Linux. */
#define AT_PHDR 3
#define AT_PHNUM 5

typedef unsigned long word;

extern const unsigned char __ehdr_start[] __attribute__((visibility("hidden")));

#if defined __x86_64__
__asm__(".globl _start\n_start: mov %rsp, %rdi\nand $-16, %rsp\ncall probe\n");

static word call(word number, word first, word second, word third)
{
    word answer;
    __asm__ volatile("syscall" : "=a"(answer) : "a"(number), "D"(first), "S"(second), "d"(third) : "rcx", "r11", "memory");
    return answer;
}

enum { write_number = 1, exit_number = 60 };
#else
__asm__(".globl _start\n_start: mov x0, sp\nbl probe\n");

static word call(word number, word first, word second, word third)
{
    register word x8 __asm__("x8") = number, x0 __asm__("x0") = first, x1 __asm__("x1") = second, x2 __asm__("x2") = third;
    __asm__ volatile("svc #0" : "+r"(x0) : "r"(x8), "r"(x1), "r"(x2) : "memory");
    return x0;
}

enum { write_number = 64, exit_number = 93 };
#endif

static void print(const char *text)
{
    word length = 0;
    while (text[length])
        length++;
    call(write_number, 1, (word)text, length);
}

static void print_number(word value, word base)
{
    char digits[24], *at = digits + 23;
    *at = 0;
    do
        *--at = "0123456789abcdef"[value % base];
    while (value /= base);
    print(at);
}

__attribute__((used, noreturn)) void probe(const word *stack)
{
    const word *pair = stack + stack[0] + 2;
    word table = (word)__ehdr_start + *(const word *)(__ehdr_start + 32), told = 0, count = 0;

    while (*pair)
        pair++;
    for (pair++; *pair; pair += 2) {
        if (*pair == AT_PHDR)
            told = pair[1];
        if (*pair == AT_PHNUM)
            count = pair[1];
    }
    print("AT_PHDR 0x");
    print_number(told, 16);
    print(told == table ? " own" : told ? " other" : " none");
    print(", AT_PHNUM ");
    print_number(count, 10);
    print(count == *(const unsigned short *)(__ehdr_start + 56) ? " own\n" : " other\n");
    call(exit_number, 0, 0, 0);
    for (;;)
        ;
}
