/* Preloaded into a program, it refuses requests for memory: those that REFUSED says, numbers from 1 on with commas between
 * them, and with a `+` behind the last all that follow it too. A file that REFUSALS names gets a line for each, as it is
 * refused, and one at the end:
 *     refused REQUEST LINES BYTES WRITTEN    how many lines had been read whole from standard input, how many bytes of the
 *                                            next one, and how many lines had been written
 *     ended REQUESTS HELD                    how many requests were made, and how many blocks nobody gave back
 * So that this can be told, a read from standard input gives one byte, or, if BY_LINE is set, one line. */
#define _GNU_SOURCE
#include <errno.h>
#include <fcntl.h>
#include <stddef.h>
#include <stdlib.h>
#include <sys/syscall.h>
#include <unistd.h>

extern void *__libc_malloc(size_t size);
extern void *__libc_realloc(void *block, size_t size);
extern void __libc_free(void *block);

enum { MOST = 64 };
static unsigned long refused[MOST], requests, lines, bytes, written;
static int count, goes_on, by_line, file = -1;
static long held;

__attribute__((constructor)) static void begin(void) {
    const char *text = getenv("REFUSED"), *name = getenv("REFUSALS");
    while (text && *text && count < MOST) {
        char *end;
        refused[count++] = strtoul(text, &end, 10);
        goes_on = *end == '+';
        text = *end == ',' ? end + 1 : NULL;
    }
    by_line = getenv("BY_LINE") != NULL;
    file = name ? open(name, O_WRONLY | O_CREAT | O_TRUNC, 0600) : -1;
    requests = lines = bytes = written = 0;
    held = 0;
}

/* Tells a word and numbers, in a line; it takes no memory. */
static void tell(const char *word, const unsigned long *numbers, int length) {
    char line[160];
    size_t end = 0;
    while (*word)
        line[end++] = *word++;
    for (int place = 0; place < length; place++) {
        char digits[24];
        int left = 0;
        unsigned long number = numbers[place];
        do
            digits[left++] = '0' + number % 10;
        while (number /= 10);
        line[end++] = ' ';
        while (left)
            line[end++] = digits[--left];
    }
    line[end++] = '\n';
    if (file >= 0)
        syscall(SYS_write, file, line, end);
}

__attribute__((destructor)) static void end(void) {
    unsigned long numbers[] = {requests, (unsigned long)held};
    tell("ended", numbers, 2);
}

/* Whether a request is one that is refused. */
static int is_refused(void) {
    int is_one = 0;
    requests++;
    for (int place = 0; place < count; place++)
        is_one |= requests == refused[place];
    is_one |= goes_on && requests > refused[count - 1];
    if (is_one) {
        unsigned long numbers[] = {requests, lines, bytes, written};
        tell("refused", numbers, 4);
        errno = ENOMEM;
    }
    return is_one;
}

void *malloc(size_t size) {
    void *block = is_refused() ? NULL : __libc_malloc(size);
    held += block != NULL;
    return block;
}

void *realloc(void *block, size_t size) {
    if (is_refused())
        return NULL;
    void *moved = __libc_realloc(block, size);
    held += (moved != NULL) - (block != NULL && (moved != NULL || size == 0));
    return moved;
}

void free(void *block) {
    held -= block != NULL;
    __libc_free(block);
}

ssize_t read(int from, void *buffer, size_t size) {
    if (from != 0 || size == 0)
        return syscall(SYS_read, from, buffer, size);
    char *text = buffer;
    size_t taken = 0;
    ssize_t given;
    do
        given = syscall(SYS_read, from, text + taken, 1);
    while (given == 1 && text[taken++] != '\n' && by_line && taken < size);
    if (taken ? text[taken - 1] == '\n' : given == 0 && bytes != 0) {
        lines++;
        bytes = 0;
    } else {
        bytes += taken;
    }
    return taken ? (ssize_t)taken : given;
}

ssize_t write(int to, const void *buffer, size_t size) {
    ssize_t taken = syscall(SYS_write, to, buffer, size);
    for (ssize_t place = 0; to == 1 && place < taken; place++)
        written += ((const char *)buffer)[place] == '\n';
    return taken;
}
