/* Preloaded into a program, it counts the bytes that the program requested and didn't free. Each time the program answers `bad`
 * to a command, it writes how many these are, and the most that they were, as a line of the file that COUNTED names. */
#include <errno.h>
#include <fcntl.h>
#include <stddef.h>
#include <stdint.h>
#include <stdio.h>
#include <stdlib.h>
#include <string.h>
#include <sys/syscall.h>
#include <unistd.h>

extern void *__libc_malloc(size_t size);
extern void *__libc_realloc(void *block, size_t size);
extern void __libc_free(void *block);

/* Stands before each block, as long as a block has to be aligned. */
union header {
    size_t size;
    char room[16];
};

static size_t held, most;

/* Counts a block of a size, and answers where it begins behind its header. */
static void *counted(union header *block, size_t size) {
    if (!block)
        return NULL;
    block->size = size;
    held += size;
    most = held > most ? held : most;
    return block + 1;
}

void *malloc(size_t size) {
    return size > PTRDIFF_MAX ? NULL : counted(__libc_malloc(size + sizeof(union header)), size);
}

void *calloc(size_t count, size_t size) {
    size_t whole;
    void *block = __builtin_mul_overflow(count, size, &whole) ? NULL : malloc(whole);
    return block ? memset(block, 0, whole) : NULL;
}

void *realloc(void *block, size_t size) {
    if (!block)
        return malloc(size);
    union header *header = (union header *)block - 1;
    size_t before = header->size;
    header = size > PTRDIFF_MAX ? NULL : __libc_realloc(header, size + sizeof(union header));
    if (header)
        held -= before;
    return counted(header, size);
}

void free(void *block) {
    if (!block)
        return;
    union header *header = (union header *)block - 1;
    held -= header->size;
    __libc_free(header);
}

/* Writes the counts behind those of the file. It requests no memory. */
static void tell(void) {
    const char *path = getenv("COUNTED");
    int file = path ? open(path, O_WRONLY | O_CREAT | O_APPEND, 0600) : -1;
    char line[64];
    int length = snprintf(line, sizeof line, "%zu %zu\n", held, most);
    if (file < 0)
        return;
    syscall(SYS_write, file, line, (size_t)length);
    close(file);
}

ssize_t write(int file, const void *bytes, size_t count) {
    if (file == 1 && count == 4 && memcmp(bytes, "bad\n", 4) == 0)
        tell();
    return syscall(SYS_write, file, bytes, count);
}
