// Refuses one allocation of one thread of the program into which it is loaded: of the thread that comes `aim`th to its first
// allocation, the `at`th. The file that REFUSE names says which, and is told how many threads came, how many allocations that
// thread asked for, and whether one was refused.
#include <errno.h>
#include <fcntl.h>
#include <stdatomic.h>
#include <stddef.h>
#include <stdlib.h>
#include <sys/mman.h>
#include <unistd.h>

extern void *__libc_malloc(size_t size);
extern void *__libc_realloc(void *block, size_t size);

struct told {
    _Atomic unsigned long aim, at, came, asked, refused;
};

static struct told *told;
static __thread unsigned long me __attribute__((tls_model("initial-exec")));
static __thread unsigned long mine __attribute__((tls_model("initial-exec")));

__attribute__((constructor)) static void begin(void) {
    const char *path = getenv("REFUSE");
    int file = path ? open(path, O_RDWR | O_CLOEXEC) : -1;
    if (file < 0)
        return;
    void *shared = mmap(NULL, sizeof *told, PROT_READ | PROT_WRITE, MAP_SHARED, file, 0);
    close(file);
    if (shared != MAP_FAILED)
        told = shared;
}

static int is_refused(void) {
    if (!told)
        return 0;
    if (!me)
        me = atomic_fetch_add(&told->came, 1) + 1;
    if (me != told->aim)
        return 0;
    mine++;
    told->asked = mine;
    if (mine != told->at)
        return 0;
    told->refused = 1;
    errno = ENOMEM;
    return 1;
}

void *malloc(size_t size) { return is_refused() ? NULL : __libc_malloc(size); }

void *realloc(void *block, size_t size) { return is_refused() ? NULL : __libc_realloc(block, size); }
