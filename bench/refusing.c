/* Refuses memory to a program, for refused_memory.py, which says by the environment what, and where to write what it asks for:

   REFUSE_ALLOCATION  the number of the one allocation that is refused, from 1
   TELL_REFUSED       a file for that allocation and the next one: its size, and the program's function that asked
   COUNT_ALLOCATIONS  a file for how many there were
   REFUSE_STILL       a file for how often a request of the size BEGIN came, from which on all are refused up to one of the size END, and
                      for how many were refused */
#define _GNU_SOURCE
#include <dlfcn.h>
#include <errno.h>
#include <execinfo.h>
#include <fcntl.h>
#include <malloc.h>
#include <stdio.h>
#include <stdlib.h>
#include <unistd.h>

enum { BEGIN = 65521, END = 65519, DEEPEST = 8 };

static long count, refused = -1, begun, refused_still;
static int is_own, is_still, tell = -1;
static const char *still;

static int to_write(const char *file) {
    return file ? open(file, O_WRONLY | O_CREAT | O_TRUNC, 0600) : -1;
}

__attribute__((constructor)) static void start(void) {
    void *frame;
    backtrace(&frame, 1);
    const char *n = getenv("REFUSE_ALLOCATION");
    refused = n ? atol(n) : -1;
    tell = to_write(getenv("TELL_REFUSED"));
    still = getenv("REFUSE_STILL");
    count = 0;
}

__attribute__((destructor)) static void end(void) {
    is_own = 1;
    int to = to_write(getenv("COUNT_ALLOCATIONS"));
    if (to >= 0) { dprintf(to, "%ld", count); close(to); }
    if ((to = to_write(still)) >= 0) { dprintf(to, "%ld %ld", begun, refused_still); close(to); }
}

/* The size that is asked for, and the program's function that asks, behind malloc and the runtime's call of it. */
static void tell_asker(size_t size) {
    void *frames[DEEPEST] = {0};
    Dl_info at, shim;
    dladdr(&count, &shim);
    int i = 0, all = backtrace(frames, DEEPEST);
    while (i < all && dladdr(frames[i], &at) && at.dli_fbase == shim.dli_fbase) i++;
    if (i + 1 < all && dladdr(frames[i + 1], &at))
        dprintf(tell, "%zu %lx\n", size, (unsigned long)((char *)frames[i + 1] - (char *)at.dli_fbase));
}

static int is_refused_still(size_t size) {
    if (size == BEGIN) { is_still = 1; begun++; return 0; }
    if (size == END) { is_still = 0; return 0; }
    refused_still += is_still;
    return is_still;
}

static int is_refused(size_t size) {
    if (is_own) return 0;
    is_own = 1;
    ++count;
    if (tell >= 0 && (count == refused || count == refused + 1)) tell_asker(size);
    int no = count == refused || (still && is_refused_still(size));
    is_own = 0;
    if (no) errno = ENOMEM;
    return no;
}

#define NEXT(name) (__typeof__(&name))dlsym(RTLD_NEXT, #name)
/* A block has the size that was asked for in its last bytes, for which a little more is asked. So a block that shrinks is known: it asks for no
   memory, and that can't be refused. */
enum { KEPT = sizeof(size_t) };
static size_t *asked_of(void *p) { return (size_t *)((char *)p + malloc_usable_size(p)) - 1; }
static void *keeping(void *p, size_t size) {
    if (p) *asked_of(p) = size;
    return p;
}
static int shrinks(void *p, size_t size) { return p && size <= *asked_of(p); }
void *malloc(size_t size) { return is_refused(size) ? NULL : keeping((NEXT(malloc))(size + KEPT), size); }
void *calloc(size_t many, size_t size) {
    size_t all;
    if (__builtin_mul_overflow(many, size, &all) || is_refused(all)) return NULL;
    return keeping((NEXT(calloc))(1, all + KEPT), all);
}
void *realloc(void *p, size_t size) {
    return !shrinks(p, size) && is_refused(size) ? NULL : keeping((NEXT(realloc))(p, size + KEPT), size);
}
void *aligned_alloc(size_t align, size_t size) {
    return is_refused(size) ? NULL : keeping((NEXT(aligned_alloc))(align, size + KEPT), size);
}
int posix_memalign(void **to, size_t align, size_t size) {
    if (is_refused(size)) return ENOMEM;
    int failed = (NEXT(posix_memalign))(to, align, size + KEPT);
    if (!failed) keeping(*to, size);
    return failed;
}
