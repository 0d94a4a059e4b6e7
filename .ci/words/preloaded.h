/* What hostile.c and delays.c share. No other header is needed. */
typedef unsigned long size;
extern int *__errno_location(void);
extern void *dlsym(void *, const char *);
extern void *mmap(void *, size, int, int, int, long);
extern char *getenv(const char *);
extern int getpid(void);
extern int gettid(void);

enum { READ_ONLY = 0, READ_AND_WRITE = 3, SHARED = 1 };
#define NEXT_LIBRARY ((void *)-1L)
#define NO_MAPPING ((void *)-1L)

/* The number in a variable of the environment, and 0 where there is none. */
static long number_in(const char *name) {
    const char *digits = getenv(name);
    long number = 0;
    while (digits && *digits >= '0' && *digits <= '9')
        number = 10 * number + (*digits++ - '0');
    return number;
}

/* The words of the file whose descriptor a variable of the environment has, so many of them, and where there is none these. */
static long *words_in(const char *name, size count, long *own) {
    long file = number_in(name);
    void *page = file ? mmap(0, count * sizeof(long), READ_AND_WRITE, SHARED, (int)file, 0) : NO_MAPPING;
    return page == NO_MAPPING ? own : page;
}

/* What starts a thread where this library does not stand before it. */
typedef int start_function(void *, const void *, void *(*)(void *), void *);
static start_function *system_start(void) {
    static start_function *create;
    if (!create)
        create = dlsym(NEXT_LIBRARY, "pthread_create");
    return create;
}
