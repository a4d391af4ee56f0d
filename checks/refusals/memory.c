/* Loaded before the C library by checks/refusals/memory.py: refuses the growths of memory, the calls of malloc and
   realloc, from the number REFUSED_FROM to REFUSED_TO, counted from 1. On standard error it says that the system has
   started the program, and at the end how many growths were asked for. */
#include <errno.h>
#include <stdio.h>
#include <stdlib.h>
#include <string.h>
#include <unistd.h>

extern void *__libc_malloc(size_t size);
extern void *__libc_realloc(void *memory, size_t size);

static unsigned long asked, first, last;

static void say(const char *text)
{
    if (write(STDERR_FILENO, text, strlen(text)) < 0)
        _exit(99);
}

static unsigned long number(const char *name)
{
    const char *text = getenv(name);
    return text ? strtoul(text, NULL, 10) : 0;
}

__attribute__((constructor)) static void begin(void)
{
    first = number("REFUSED_FROM");
    last = number("REFUSED_TO");
    say("started\n");
}

__attribute__((destructor)) static void end(void)
{
    char text[40];
    snprintf(text, sizeof text, "%lu growths\n", asked);
    say(text);
}

static int is_refused(void)
{
    asked++;
    if (asked < first || asked > last)
        return 0;
    errno = ENOMEM;
    return 1;
}

void *malloc(size_t size)
{
    return is_refused() ? NULL : __libc_malloc(size);
}

void *realloc(void *memory, size_t size)
{
    return is_refused() ? NULL : __libc_realloc(memory, size);
}
