/*
 * What the program and the library ask of the system beside the C library, for a target that the kit has no C code for:
 * aarch64, and musl. The kit's own objects do the same for x86-64 with glibc; the comments of the kit's crates libc and
 * os say what each function has to do. Nothing proves C code: release/README.md says what is trusted here.
 */
#include <stdint.h>
#include <stdlib.h>

/* 16 bytes, of which the first says whether there is memory: two registers, and none of their bits is left open. */
typedef struct {
    uint64_t ok;
    void *at;
} tried;

/* Where there is no memory a pointer still has to point somewhere. */
static char nothing[16] __attribute__((aligned(16)));

static tried told(void *at) {
    tried answer = {at != NULL, at != NULL ? at : nothing};
    return answer;
}

tried rattle_alloc(size_t size, size_t align) {
    return told(malloc(size != 0 ? size : align));
}

tried rattle_realloc(void *at, size_t kept, size_t size, size_t align) {
    (void)kept;
    return told(realloc(at, size != 0 ? size : align));
}

void rattle_dealloc(void *at) {
    free(at);
}

#ifndef LAZBENDIX_HEAP_ALONE
#include <errno.h>
#include <signal.h>
#include <stddef.h>

extern char **environ;

static size_t count;
static char **words;

int32_t rattle_errno(void) {
    return errno;
}

void rattle_set_errno(int32_t error) {
    errno = error;
}

/* Copies a text without its 0, and answers its length; -1 where there is none, -2 where it does not fit. */
static ptrdiff_t copied(const char *text, uint8_t *to, size_t room) {
    size_t at = 0;
    if (text == NULL)
        return -1;
    for (; text[at] != 0; at++) {
        if (at == room)
            return -2;
        to[at] = (uint8_t)text[at];
    }
    return (ptrdiff_t)at;
}

size_t rattle_arg_count(void) {
    return count;
}

ptrdiff_t rattle_arg(size_t number, uint8_t *to, size_t room) {
    return copied(number < count ? words[number] : NULL, to, room);
}

ptrdiff_t rattle_env(const char *name, uint8_t *to, size_t room) {
    return copied(getenv(name), to, room);
}

ptrdiff_t rattle_env_at(size_t number, uint8_t *to, size_t room) {
    char **at = environ;
    for (; at != NULL && *at != NULL; at++, number--)
        if (number == 0)
            return copied(*at, to, room);
    return -1;
}

#ifdef LAZBENDIX_MUSL
#include <sys/syscall.h>
#include <unistd.h>

/* Linux's call, which musl before 1.2.5 does not name. A later one's own is of the same words. */
int statx(int folder, const char *path, int flags, unsigned int mask, void *to) {
    return (int)syscall(SYS_statx, folder, path, flags, mask, to);
}

/* glibc's name of signal as System V has it; the program sets SIGPIPE to be ignored by it. */
void (*__sysv_signal(int number, void (*how)(int)))(int) {
    return signal(number, how);
}
#endif

#ifdef LAZBENDIX_MUSL
/* The linker is told --wrap=main: C's main keeps the words of the call, and makes that of the program. */
int __real_main(void);

int __wrap_main(int given, char **all) {
    count = (size_t)given;
    words = all;
    return __real_main();
}
#else
/* glibc hands the words of the call to what runs before main. */
__attribute__((constructor)) static void keep(int given, char **all) {
    count = (size_t)given;
    words = all;
}
#endif
#endif
