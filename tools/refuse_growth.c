// Preloaded into a program: refuses its N-th growth of memory, N from REFUSE_GROWTH, and where
// REFUSE_REST is set each growth after it too; every other growth is granted. Where REFUSE_THREAD is
// set, the growths are those of one thread: of the first, 0, or of the one that was made so many
// threads after it. The file that REFUSE_TOLD names gets a + from each process into which this was
// loaded, and a . for each growth that is refused.
#define _GNU_SOURCE
#include <dlfcn.h>
#include <errno.h>
#include <fcntl.h>
#include <limits.h>
#include <pthread.h>
#include <stdatomic.h>
#include <stdlib.h>
#include <unistd.h>

// The C library's own.
void *__libc_malloc(size_t);
void *__libc_realloc(void *, size_t);

// The growths so far, and the threads that were made; the numbers of the growths that are refused; the thread whose
// growths they are, or -1 for all; and this one.
static atomic_long count, made;
static long first = LONG_MAX, last, thread = -1;
static _Thread_local __attribute__((tls_model("initial-exec"))) long own;

// What a thread begins with.
struct begun {
    void *(*start)(void *);
    void *argument;
    long number;
};

static void tell(const char *what) {
    int file = open(getenv("REFUSE_TOLD"), O_WRONLY | O_APPEND);
    if (write(file, what, 1) != 1)
        abort();
    close(file);
}

__attribute__((constructor)) static void start(void) {
    const char *of = getenv("REFUSE_THREAD");
    count = 0;
    first = atol(getenv("REFUSE_GROWTH"));
    last = getenv("REFUSE_REST") ? LONG_MAX : first;
    thread = of ? atol(of) : -1;
    tell("+");
}

static int is_refused(void) {
    long number = thread < 0 || own == thread ? ++count : 0;
    if (number < first || number > last)
        return 0;
    tell(".");
    errno = ENOMEM;
    return 1;
}

void *malloc(size_t size) {
    return is_refused() ? NULL : __libc_malloc(size);
}

void *realloc(void *old, size_t size) {
    return is_refused() ? NULL : __libc_realloc(old, size);
}

static void *begin(void *given) {
    struct begun it = *(struct begun *)given;
    free(given);
    own = it.number;
    return it.start(it.argument);
}

int pthread_create(pthread_t *to, const pthread_attr_t *how, void *(*start)(void *),
                   void *argument) {
    int (*make)(pthread_t *, const pthread_attr_t *, void *(*)(void *), void *) =
        dlsym(RTLD_NEXT, "pthread_create");
    struct begun *it = __libc_malloc(sizeof *it);
    *it = (struct begun){start, argument, ++made};
    return make(to, how, begin, it);
}
