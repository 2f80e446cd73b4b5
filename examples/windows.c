/* What a program does on Windows: it does as hello.s does on Linux, prints its arguments, one a line and unchanged, and ends
   with their number (modulo 256) as status, or with 255 where a write fails. It uses no C library. Windows starts it at
   ape_pe_entry, and writes the functions of kernel32.dll into the tables of imports.S. What the program does on Linux is of
   another file, and has an entry of its own:

   gcc -O -static -nostdlib -ffreestanding -fno-stack-protector -mno-red-zone -o PROGRAM hello.s windows.c imports.S

   Code for Windows may keep nothing below the stack pointer, hence -mno-red-zone. */

#define WINDOWS __attribute__((ms_abi)) /* called as on Windows */

extern void (WINDOWS *ExitProcess)(unsigned status);
extern const char *(WINDOWS *GetCommandLineA)(void);
extern void *(WINDOWS *GetStdHandle)(unsigned number);
extern int (WINDOWS *WriteFile)(void *file, const void *bytes, unsigned count, unsigned *written, void *overlapped);

#define STD_OUTPUT_HANDLE -11u
#define LONGEST 32768 /* no command line of Windows is longer */

static int is_blank(char byte)
{
    return byte == ' ' || byte == '\t';
}

/* Takes the first word off a command line, as the C library of Windows does. Blanks between quotes are part of it. A
   backslash stands for itself, but in front of a quote two stand for one, and one more makes the quote part of the word.
   Returns the word's length. */
static unsigned take_word(const char **line, char *word)
{
    const char *at = *line;
    unsigned length = 0, backslashes = 0;
    int quoted = 0;
    for (; *at != 0 && (quoted || !is_blank(*at)); at++) {
        if (*at != '"') {
            word[length++] = *at;
        } else {
            length -= (backslashes + 1) / 2;
            if (backslashes % 2 != 0)
                word[length++] = '"';
            else
                quoted = !quoted;
        }
        backslashes = *at == '\\' ? backslashes + 1 : 0;
    }
    while (is_blank(*at))
        at++;
    *line = at;
    return length;
}

static int is_printed(const char *bytes, unsigned count)
{
    unsigned written;
    return WriteFile(GetStdHandle(STD_OUTPUT_HANDLE), bytes, count, &written, 0) && written == count;
}

void WINDOWS ape_pe_entry(void)
{
    static char word[LONGEST + 1];
    const char *line = GetCommandLineA();
    unsigned count = 0;
    take_word(&line, word); /* the program's name */
    while (*line != 0) {
        unsigned length = take_word(&line, word);
        word[length] = '\n';
        if (!is_printed(word, length + 1))
            ExitProcess(255);
        count++;
    }
    ExitProcess(count & 255);
}
