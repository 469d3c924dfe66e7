// Preloaded before the C library: refuses one allocation of a program, the one whose number is in REFUSE, and one start of a thread, the one whose
// number is in REFUSE_THREAD (both from 1; 0 refuses none), or all of them if that is `all`. If COUNT names a file, the number of allocations and of
// threads that were asked for is written there at the end.
//
// It includes no header, since the toolchain's own clang has none: what it takes of the C library of Linux on x86-64 is declared here.
typedef unsigned long size_t;
typedef unsigned long pthread_t;
typedef union pthread_attr_t pthread_attr_t;

enum { NO_MEMORY = 12, TRY_AGAIN = 11, WRITE_NEW = 01 | 0100 | 01000, END_OF_ALL = 231 };
#define NULL ((void *)0)
#define NEXT_LIBRARY ((void *)-1L)

int *__errno_location(void);
void *dlsym(void *library, const char *name);
char *getenv(const char *name);
unsigned long strtoul(const char *text, char **end, int base);
int strcmp(const char *one, const char *other);
int snprintf(char *text, size_t most, const char *form, ...);
int open(const char *name, int flags, ...);
long write(int file, const void *bytes, size_t count);
int unlink(const char *name);
int close(int file);
long syscall(long number, ...);

void *__libc_malloc(size_t size);
void *__libc_calloc(size_t count, size_t size);
void *__libc_realloc(void *old, size_t size);
void *__libc_memalign(size_t alignment, size_t size);

typedef int start_thread(pthread_t *, const pthread_attr_t *, void *(*)(void *), void *);

// Threads ask too, so the counts are kept by atomic steps. What is refused is read before the program begins, and nothing is counted until then.
static unsigned long asked, refused, threads, refused_thread;
static int are_all_threads_refused, is_counting;
static start_thread *start;

__attribute__((constructor)) static void begin(void) {
    const char *number = getenv("REFUSE"), *thread = getenv("REFUSE_THREAD");
    refused = number ? strtoul(number, NULL, 10) : 0;
    refused_thread = thread ? strtoul(thread, NULL, 10) : 0;
    are_all_threads_refused = thread && strcmp(thread, "all") == 0;
    start = (start_thread *)dlsym(NEXT_LIBRARY, "pthread_create");
    is_counting = 1;
}

static int refuses(void) {
    if (!is_counting || __atomic_add_fetch(&asked, 1, __ATOMIC_SEQ_CST) != refused) return 0;
    *__errno_location() = NO_MEMORY;
    return 1;
}

void *malloc(size_t size) { return refuses() ? NULL : __libc_malloc(size); }
void *calloc(size_t count, size_t size) { return refuses() ? NULL : __libc_calloc(count, size); }
void *realloc(void *old, size_t size) { return refuses() ? NULL : __libc_realloc(old, size); }
void *memalign(size_t alignment, size_t size) { return refuses() ? NULL : __libc_memalign(alignment, size); }
void *aligned_alloc(size_t alignment, size_t size) { return memalign(alignment, size); }
int posix_memalign(void **place, size_t alignment, size_t size) {
    void *memory = memalign(alignment, size);
    if (!memory) return NO_MEMORY;
    *place = memory;
    return 0;
}

int pthread_create(pthread_t *thread, const pthread_attr_t *attributes, void *(*run)(void *), void *given) {
    unsigned long number = __atomic_add_fetch(&threads, 1, __ATOMIC_SEQ_CST);
    if (!start || are_all_threads_refused || number == refused_thread) return TRY_AGAIN;
    return start(thread, attributes, run, given);
}

__attribute__((destructor)) static void tell(void) {
    const char *name = getenv("COUNT");
    char text[64];
    if (!name) return;
    int file = open(name, WRITE_NEW, 0600);
    if (file < 0) return;
    int length = snprintf(text, sizeof text, "%lu %lu\n", asked, threads);
    if (write(file, text, (size_t)length) != length) unlink(name);
    close(file);
}

// A program that may start threads ends by `_exit`, which runs no destructor.
void _exit(int status) {
    tell();
    for (;;) syscall(END_OF_ALL, status);
}
