/* Preloaded to a program (preloaded.py): a system that gives less than is asked for. Calls are counted by kind, from 1 on,
   and the environment says which of them are refused.

     HOSTILE_GROWTH=n        the growth of memory of this number is refused
     HOSTILE_START=n         the start of a thread of this number is
     HOSTILE_READ=n          the read of standard input of this number fails
     HOSTILE_READ_MOST=b     a read of standard input gives no more bytes than this
     HOSTILE_WRITE=n         the write to standard output of this number fails,
     HOSTILE_EMPTY_WRITE=n   or takes no byte
     HOSTILE_WRITE_MOST=b    a write to standard output takes no more bytes than this
     HOSTILE_ERROR=e         the error of a read or a write that fails
     HOSTILE_COUNTS=d        the descriptor of a file for the counts, whose first words are as `enum word` lists them; behind them
                             stands for each start in turn how many own growths came before it

   Own growths are those of the first thread which are not made within the start of another. Memory is counted as the program and the C
   library ask for it by malloc, calloc and realloc, also where a thread is started. */
#include "preloaded.h"

extern void *__libc_malloc(size);
extern void *__libc_calloc(size, size);
extern void *__libc_realloc(void *, size);
extern long __read(int, void *, size);
extern long __write(int, const void *, size);

enum { STANDARD_INPUT, STANDARD_OUTPUT };
enum { TRY_AGAIN = 11, NO_MEMORY = 12 };
enum { ALL_WORDS = 65536 };

/* The counts, what was refused, and the number of the refused growth among own ones. A growth within the start of a thread is told apart,
   and one of a thread that was started. */
enum word { GROWTHS, STARTS, READS, WRITES, REFUSED, OWN_GROWTHS, REFUSED_OWN, WORDS };
enum refused { A_GROWTH = 1, A_GROWTH_IN_A_START = 2, A_GROWTH_OF_A_WORKER = 4, A_START = 8, A_READ = 16, A_WRITE = 32 };

static long own_words[ALL_WORDS];
static long *words;
static long growth, start, failing_read, most_read, failing_write, empty_write, most_written, error;
static __thread int in_a_start __attribute__((tls_model("initial-exec")));

/* The first call comes before there is a second thread. */
static void set_up(void) {
    growth = number_in("HOSTILE_GROWTH");
    start = number_in("HOSTILE_START");
    failing_read = number_in("HOSTILE_READ");
    most_read = number_in("HOSTILE_READ_MOST");
    failing_write = number_in("HOSTILE_WRITE");
    empty_write = number_in("HOSTILE_EMPTY_WRITE");
    most_written = number_in("HOSTILE_WRITE_MOST");
    error = number_in("HOSTILE_ERROR");
    words = words_in("HOSTILE_COUNTS", ALL_WORDS, own_words);
}

/* The number of a call of this kind. */
static long number_of(enum word kind) {
    if (!words)
        set_up();
    return __sync_add_and_fetch(&words[kind], 1);
}

static int refuse(enum refused what, long with) {
    __sync_or_and_fetch(&words[REFUSED], what);
    *__errno_location() = (int)with;
    return 1;
}

static int growth_is_refused(void) {
    long number = number_of(GROWTHS);
    int is_first_thread = gettid() == getpid();
    if (is_first_thread && !in_a_start)
        words[OWN_GROWTHS]++;
    if (number != growth)
        return 0;
    if (!is_first_thread)
        return refuse(A_GROWTH_OF_A_WORKER, NO_MEMORY);
    words[REFUSED_OWN] = words[OWN_GROWTHS];
    return refuse(in_a_start ? A_GROWTH_IN_A_START : A_GROWTH, NO_MEMORY);
}

void *malloc(size bytes) { return growth_is_refused() ? 0 : __libc_malloc(bytes); }

void *calloc(size count, size bytes) { return growth_is_refused() ? 0 : __libc_calloc(count, bytes); }

void *realloc(void *memory, size bytes) { return growth_is_refused() ? 0 : __libc_realloc(memory, bytes); }

int pthread_create(void *thread, const void *attributes, void *(*routine)(void *), void *argument) {
    long number = number_of(STARTS);
    start_function *create;
    int status;
    if (WORDS - 1 + number < ALL_WORDS)
        words[WORDS - 1 + number] = words[OWN_GROWTHS];
    if (number == start) {
        refuse(A_START, TRY_AGAIN);
        return TRY_AGAIN;
    }
    create = system_start();
    in_a_start = 1;
    status = create(thread, attributes, routine, argument);
    in_a_start = 0;
    return status;
}

/* As many of these bytes as one call may move. */
static size at_most(size bytes, long most) { return most && bytes > (size)most ? (size)most : bytes; }

long read(int file, void *bytes, size count) {
    if (file != STANDARD_INPUT)
        return __read(file, bytes, count);
    if (number_of(READS) == failing_read) {
        refuse(A_READ, error);
        return -1;
    }
    return __read(file, bytes, at_most(count, most_read));
}

long write(int file, const void *bytes, size count) {
    long number;
    if (file != STANDARD_OUTPUT)
        return __write(file, bytes, count);
    number = number_of(WRITES);
    if (number == failing_write) {
        refuse(A_WRITE, error);
        return -1;
    }
    if (number == empty_write) {
        refuse(A_WRITE, error);
        return 0;
    }
    return __write(file, bytes, at_most(count, most_written));
}
