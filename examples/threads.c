/* A C program as its linker makes it: it prints its arguments from a thread that has thread-local data of its own, then an
   environment variable and what it reads, and ends with the number of its arguments. */
#include <pthread.h>
#include <stdio.h>
#include <stdlib.h>

static _Thread_local int printed = 100;
static _Thread_local char unset[64];

static void *print(void *arguments)
{
    for (char **at = arguments; *at; at++)
        printf("%d <%s>\n", printed++, *at);
    return &unset[printed % 64];
}

int main(int count, char **arguments)
{
    pthread_t thread;
    void *byte;
    char line[256];

    if (pthread_create(&thread, NULL, print, arguments + 1) || pthread_join(thread, &byte))
        return 120;
    printf("%d %d\n", printed, byte != (void *)unset);
    printf("%s\n", getenv("GREETING") ? getenv("GREETING") : "none");
    while (fgets(line, sizeof line, stdin))
        printf("read %s", line);
    return count - 1;
}
