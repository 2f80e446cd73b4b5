/* Starts a command, and each program at fixed addresses that it becomes by exec, with another AT_PHDR than the kernel tells:
   the first load's address less its place in the file, and the place of the program header table more. Linux computed it so
   before it looked for the load that has the table; where none has, it is no place of the table. By ptrace, on x86-64 Linux.
   Usage: older COMMAND ARGUMENT.. */
#include <elf.h>
#include <errno.h>
#include <fcntl.h>
#include <signal.h>
#include <stdio.h>
#include <stdlib.h>
#include <string.h>
#include <sys/ptrace.h>
#include <sys/user.h>
#include <sys/wait.h>
#include <unistd.h>

static void stop(const char *what)
{
    fprintf(stderr, "older: %s: %s\n", what, strerror(errno));
    exit(125);
}

/* That AT_PHDR for the program that the process has become, or 0 where it isn't one at fixed addresses. */
static unsigned long older_table(pid_t child)
{
    char name[64];
    Elf64_Ehdr header;
    Elf64_Phdr entry;
    unsigned long table = 0;

    snprintf(name, sizeof name, "/proc/%d/exe", (int)child);
    int file = open(name, O_RDONLY);
    if (file < 0)
        stop(name);
    if (pread(file, &header, sizeof header, 0) == sizeof header && header.e_type == ET_EXEC)
        for (int i = 0; i < header.e_phnum && !table; i++)
            if (pread(file, &entry, sizeof entry, header.e_phoff + i * sizeof entry) == sizeof entry && entry.p_type == PT_LOAD)
                table = entry.p_vaddr - entry.p_offset + header.e_phoff;
    close(file);
    return table;
}

static unsigned long word_at(pid_t child, unsigned long at)
{
    errno = 0;
    unsigned long word = ptrace(PTRACE_PEEKDATA, child, at, 0);
    if (errno)
        stop("peek");
    return word;
}

static void change_table(pid_t child)
{
    struct user_regs_struct registers;
    unsigned long table = older_table(child);

    if (!table)
        return;
    if (ptrace(PTRACE_GETREGS, child, 0, &registers))
        stop("registers");
    unsigned long at = registers.rsp + 8 * (word_at(child, registers.rsp) + 2);
    while (word_at(child, at))
        at += 8;
    for (at += 8; word_at(child, at) != AT_NULL; at += 16)
        if (word_at(child, at) == AT_PHDR && ptrace(PTRACE_POKEDATA, child, at + 8, table))
            stop("poke");
}

int main(int count, char **words)
{
    int status;

    if (count < 2) {
        fprintf(stderr, "usage: older COMMAND ARGUMENT..\n");
        return 125;
    }
    pid_t child = fork();
    if (child < 0)
        stop("fork");
    if (!child) {
        if (ptrace(PTRACE_TRACEME, 0, 0, 0))
            stop("trace");
        raise(SIGSTOP);
        execvp(words[1], words + 1);
        stop(words[1]);
    }
    if (waitpid(child, &status, 0) != child || !WIFSTOPPED(status))
        return 125;
    if (ptrace(PTRACE_SETOPTIONS, child, 0, PTRACE_O_TRACEEXEC | PTRACE_O_EXITKILL))
        stop("options");
    for (int signal = 0;;) {
        if (ptrace(PTRACE_CONT, child, 0, signal))
            stop("continue");
        if (waitpid(child, &status, 0) != child)
            stop("wait");
        if (WIFEXITED(status))
            return WEXITSTATUS(status);
        if (WIFSIGNALED(status))
            return 128 + WTERMSIG(status);
        signal = WSTOPSIG(status);
        if (status >> 8 == (SIGTRAP | PTRACE_EVENT_EXEC << 8)) {
            change_table(child);
            signal = 0;
        }
    }
}
