/* What a program with picolibc needs of a system: standard input and output, memory, and an end. It stands in the place
   of the library's own start file, which is made for a bare board: link with -nostartfiles. */
#include <errno.h>
#include <fcntl.h>
#include <stdio.h>
#include <stdlib.h>
#include <sys/stat.h>
#include <sys/time.h>
#include <sys/times.h>
#include <unistd.h>
#include "start.h"

/* The program's own, which takes nothing, or the number of the words of its call and these. */
int main();
void __libc_init_array(void);

/* Only the library names what is marked so: link-time optimization would drop it. */
#define USED __attribute__((used))

/* Thread-local data (errno among them) are found from `tp`; none of them has a first value but zero. */
static char thread_storage[1024];

static unsigned char in_buffer[256], out_buffer[256];
static int in_place, in_length, out_length;

static int flush(FILE *file)
{
    (void)file;
    write_bytes(out_buffer, out_length);
    out_length = 0;
    return 0;
}

static int put(char byte, FILE *file)
{
    if (out_length == sizeof out_buffer)
        flush(file);
    out_buffer[out_length++] = byte;
    return (unsigned char)byte;
}

static int get(FILE *file)
{
    (void)file;
    if (in_place == in_length) {
        in_place = 0;
        in_length = read_bytes(in_buffer, sizeof in_buffer);
        if (in_length <= 0) {
            in_length = 0;
            return EOF;
        }
    }
    return in_buffer[in_place++];
}

static FILE both = FDEV_SETUP_STREAM(put, get, flush, _FDEV_SETUP_RW);
USED FILE *const stdin = &both;
USED FILE *const stdout = &both;
USED FILE *const stderr = &both;

/* Memory for `malloc`: the break moves up from where it is. */
USED void *sbrk(ptrdiff_t more)
{
    int old = environment_call(CALL_BRK, 0, 0, 0);
    int due = old + (int)more;
    return environment_call(CALL_BRK, due, 0, 0) == due ? (void *)old : (void *)-1;
}

USED _Noreturn void _exit(int code)
{
    flush(stdout);
    leave(code);
}

/* There are no other files and there is no clock: what `fopen`, `remove`, `rename`, `stat`, `time` and `clock` call
   answers -1, in as many registers as each has for its answer, unless the program has such a function of its own. Each
   is of the library's type, as a program's own is, too. */
static long long fail(void)
{
    errno = ENOSYS;
    return -1;
}

#pragma GCC diagnostic ignored "-Wattribute-alias"
#define FAILS(name) extern __typeof__(name) name __attribute__((used, weak, alias("fail")))
FAILS(open);
FAILS(close);
FAILS(read);
FAILS(write);
FAILS(lseek);
FAILS(stat);
FAILS(fstat);
FAILS(unlink);
FAILS(rename);
FAILS(gettimeofday);
FAILS(times);

/* Neither standard input nor output is a terminal. */
USED __attribute__((weak)) int isatty(int file)
{
    (void)file;
    return 0;
}

/* What `abort` and a failed `assert` call: the signal ends the program, with the code that a shell tells of it. */
USED __attribute__((weak)) int getpid(void)
{
    return 1;
}

USED __attribute__((weak)) int kill(int process, int signal)
{
    (void)process;
    _exit(128 + signal);
}

void run(void)
{
    __asm__ volatile("mv tp, %0" : : "r"(thread_storage));
    __libc_init_array();
    static char *words[] = {"program", NULL};
    exit(((int (*)(int, char **))main)(1, words));
}
