/* Refuses requests for memory or for a thread: those with numbers from REFUSED_FIRST to REFUSED_LAST, counted from 1 over
   all threads. If it refuses one, it creates the file that REFUSED_MARK names. LD_PRELOAD puts it before the C library. It
   uses no headers, so that a compiler alone can build it.

   If REFUSED_FENCE gives a size, a request of that size is a fence. Fences are granted and not counted, and other requests
   count only after an odd number of fences. A request of REFUSED_RETRY bytes is granted too, and creates the file that
   REFUSED_RETRY_MARK names. */

typedef unsigned long size_type;

extern void *__libc_malloc(size_type size);
extern void *__libc_calloc(size_type count, size_type size);
extern void *__libc_realloc(void *old, size_type size);
extern void *__libc_memalign(size_type alignment, size_type size);
extern char *getenv(const char *name);
extern long strtol(const char *text, char **end, int base);
extern int open(const char *path, int flags, ...);
extern int close(int descriptor);
extern int *__errno_location(void);
extern void *dlsym(void *library, const char *name);

enum { TRY_AGAIN = 11, OUT_OF_MEMORY = 12, WRITE_ONLY = 1, CREATE = 64, OWNER_MAY_READ_AND_WRITE = 384 };

static long requests;
static long fences;

static long number_from(const char *name)
{
    const char *text = getenv(name);
    return text ? strtol(text, 0, 10) : 0;
}

static void make_file(const char *name)
{
    close(open(getenv(name), WRITE_ONLY | CREATE, OWNER_MAY_READ_AND_WRITE));
}

static int is_counted(size_type size)
{
    long fence = number_from("REFUSED_FENCE");
    if (!fence)
        return 1;
    if (size == (size_type)fence) {
        __atomic_add_fetch(&fences, 1, __ATOMIC_SEQ_CST);
        return 0;
    }
    if (size == (size_type)number_from("REFUSED_RETRY")) {
        make_file("REFUSED_RETRY_MARK");
        return 0;
    }
    return __atomic_load_n(&fences, __ATOMIC_SEQ_CST) % 2;
}

static int is_refused(size_type size)
{
    if (!is_counted(size))
        return 0;
    long request = __atomic_add_fetch(&requests, 1, __ATOMIC_SEQ_CST);
    if (request < number_from("REFUSED_FIRST") || number_from("REFUSED_LAST") < request)
        return 0;
    make_file("REFUSED_MARK");
    *__errno_location() = OUT_OF_MEMORY;
    return 1;
}

void *malloc(size_type size)
{
    return is_refused(size) ? 0 : __libc_malloc(size);
}

void *calloc(size_type count, size_type size)
{
    return is_refused(count * size) ? 0 : __libc_calloc(count, size);
}

void *realloc(void *old, size_type size)
{
    return is_refused(size) ? 0 : __libc_realloc(old, size);
}

void *memalign(size_type alignment, size_type size)
{
    return is_refused(size) ? 0 : __libc_memalign(alignment, size);
}

void *aligned_alloc(size_type alignment, size_type size)
{
    return memalign(alignment, size);
}

int posix_memalign(void **place, size_type alignment, size_type size)
{
    void *found = memalign(alignment, size);
    if (!found)
        return OUT_OF_MEMORY;
    *place = found;
    return 0;
}

typedef int starting(void *thread, const void *attributes, void *(*body)(void *), void *argument);

int pthread_create(void *thread, const void *attributes, void *(*body)(void *), void *argument)
{
    void *const next_library = (void *)-1;
    if (is_refused(0))
        return TRY_AGAIN;
    return ((starting *)dlsym(next_library, "pthread_create"))(thread, attributes, body, argument);
}
