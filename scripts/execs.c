/*
 * What a shell would execute: where the process that this library was loaded into would become a file, the name and the words
 * are written to the file EXECS_OUT instead, and the process ends with status 0. Its children run as ever. The answers of
 * uname are those of EXECS_SYSTEM and EXECS_MACHINE, also where a shell asks for itself.
 *
 * Names of the folder EXECS_TOOLS are those of utilities, and are run.
 */
#define _GNU_SOURCE
#include <dlfcn.h>
#include <fcntl.h>
#include <stdlib.h>
#include <string.h>
#include <sys/stat.h>
#include <sys/utsname.h>
#include <unistd.h>

static char out[4096];
static pid_t shell;

/* It takes EXECS_OUT out of the environment by hand, since bash has an unsetenv of its own. */
__attribute__((constructor)) static void begin(void) {
    char **to = environ;
    for (char **from = environ; *from; from++)
        if (strncmp(*from, "EXECS_OUT=", 10) == 0 && strlen(*from) < sizeof out) {
            strcpy(out, *from + 10);
            shell = getpid();
        } else {
            *to++ = *from;
        }
    *to = 0;
}

static int starts(const char *path) {
    struct stat found;
    return stat(path, &found) == 0 && S_ISREG(found.st_mode) && (found.st_mode & S_IXUSR);
}

int execve(const char *path, char *const argv[], char *const envp[]) {
    static int (*real)(const char *, char *const[], char *const[]);
    if (shell && getpid() == shell && starts(path)) {
        int file = open(out, O_WRONLY | O_CREAT | O_TRUNC, 0600);
        if (file < 0 || write(file, path, strlen(path) + 1) < 0)
            _exit(99);
        for (int i = 1; argv[0] && argv[i]; i++)
            if (write(file, argv[i], strlen(argv[i]) + 1) < 0)
                _exit(99);
        _exit(0);
    }
    if (!real)
        real = (int (*)(const char *, char *const[], char *const[]))dlsym(RTLD_NEXT, "execve");
    return real(path, argv, envp);
}

int uname(struct utsname *told) {
    const char *system = getenv("EXECS_SYSTEM");
    const char *machine = getenv("EXECS_MACHINE");
    memset(told, 0, sizeof *told);
    strncpy(told->sysname, system ? system : "", sizeof told->sysname - 1);
    strncpy(told->machine, machine ? machine : "", sizeof told->machine - 1);
    return 0;
}
