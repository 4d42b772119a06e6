/* What the proved program asks of the system beside the C library's own calls. The toolchain's crate os says what each
 * call answers. */
#include <errno.h>
#include <stddef.h>
#include <stdlib.h>
#include <string.h>
#include <sys/prctl.h>

static int count;
static char **words, **variables;

/* glibc hands these to each function that runs before main. */
static void keep(int argc, char **argv, char **envp) {
    count = argc;
    words = argv;
    variables = envp;
}
__attribute__((section(".init_array"), used)) static void (*const keeps)(int, char **, char **) = keep;

/* The length of a text that was put at the front of a buffer; -1 without a text, -2 where it does not fit: then the buffer
 * is full. */
static ptrdiff_t put(const char *text, unsigned char *buffer, size_t room) {
    size_t length;
    if (!text) return -1;
    length = strlen(text);
    memcpy(buffer, text, length < room ? length : room);
    return length > room ? -2 : (ptrdiff_t)length;
}

size_t rattle_arg_count(void) { return (size_t)count; }

ptrdiff_t rattle_arg(size_t place, unsigned char *buffer, size_t room) {
    return put(place < (size_t)count ? words[place] : NULL, buffer, room);
}

ptrdiff_t rattle_env(const char *name, unsigned char *buffer, size_t room) { return put(getenv(name), buffer, room); }

ptrdiff_t rattle_env_at(size_t place, unsigned char *buffer, size_t room) {
    size_t at = 0;
    while (variables && at < place && variables[at]) at++;
    return put(variables ? variables[at] : NULL, buffer, room);
}

int rattle_errno(void) { return errno; }

void rattle_set_errno(int error) { errno = error; }

int rattle_set_thread_name(const char *name) { return prctl(PR_SET_NAME, name, 0, 0, 0); }
