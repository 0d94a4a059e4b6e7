/* Preloaded to a program (preloaded.py): random threads of it sleep for random short times at random moments. The environment
   says how.

     DELAYS_SEED=n      what is random is drawn from this seed
     DELAYS_PAUSE=t     so many microseconds at most are between two strokes
     DELAYS_SLEEP=t     so many a thread sleeps at most when it is struck; without it none is
     DELAYS_COUNTS=d    the descriptor of a file for the counts, as `enum word` lists them

   A thread of this library's own lists those of the program, and sends a signal to one of them, whose handler sleeps. None is
   struck while it sleeps, so each goes on between two strokes. */
#include "preloaded.h"

struct time {
    long seconds, nanoseconds;
};
/* The head of an entry of a folder, as the kernel writes it; its name follows. */
struct entry {
    unsigned long file;
    long next;
    unsigned short length;
    unsigned char kind;
    char name[];
};
extern int tgkill(int, int, int);
extern int open(const char *, int, ...);
extern int close(int);
extern long getdents64(int, void *, size);
extern int nanosleep(const struct time *, struct time *);
extern void (*signal(int, void (*)(int)))(int);

/* A signal of real time, which nothing else here uses. */
enum { STROKE = 40 };
enum { MILLION = 1000000, THOUSAND = 1000, ROOM = 4096, PLACES = 4096 };

/* How many threads the program has started, and how often one slept. */
enum word { STARTS, DELAYS, WORDS };

static long own_words[WORDS];
static long *words = own_words;
static long pause_most, sleep_most;
static size seed;
/* Whether a thread was struck and has not slept yet, at its number modulo the places. A thread that ended so leaves its mark, so that
   one of some thousand later ones is spared. */
static int is_struck[PLACES];

/* The number at this place of the random ones that a seed gives (splitmix64), below a bound. */
static long drawn(size from, long place, long below) {
    size mixed = from + (size)place * 0x9e3779b97f4a7c15UL;
    mixed = (mixed ^ (mixed >> 30)) * 0xbf58476d1ce4e5b9UL;
    mixed = (mixed ^ (mixed >> 27)) * 0x94d049bb133111ebUL;
    return (long)((mixed ^ (mixed >> 31)) % (size)below);
}

/* The next random number of the striking thread, below a bound. */
static long next_below(long below) {
    static long place;
    return drawn(~seed, place++, below);
}

static void sleep_for(long microseconds) {
    struct time time = {microseconds / MILLION, microseconds % MILLION * THOUSAND};
    nanosleep(&time, 0);
}

/* What a thread does that is struck. */
static void sleep_a_while(int number) {
    int error = *__errno_location();
    (void)number;
    sleep_for(drawn(seed, __sync_add_and_fetch(&words[DELAYS], 1), sleep_most + 1));
    __atomic_store_n(&is_struck[gettid() % PLACES], 0, __ATOMIC_SEQ_CST);
    *__errno_location() = error;
}

/* The number that a name spells, and 0 where it is none. */
static int number_of(const char *name) {
    int number = 0;
    while (*name >= '0' && *name <= '9')
        number = 10 * number + (*name++ - '0');
    return *name ? 0 : number;
}

/* One of the program's threads, each as likely as the others, and 0 where none is found. */
static int random_thread(int own) {
    static char entries[ROOM] __attribute__((aligned(8)));
    int folder = open("/proc/self/task", READ_ONLY), chosen = 0;
    long count = 0, length, at;
    while (folder >= 0 && (length = getdents64(folder, entries, ROOM)) > 0)
        for (at = 0; at < length; at += ((struct entry *)(entries + at))->length) {
            int thread = number_of(((struct entry *)(entries + at))->name);
            if (thread && thread != own && next_below(++count) == 0)
                chosen = thread;
        }
    if (folder >= 0)
        close(folder);
    return chosen;
}

/* What the thread of this library does, until the program ends. */
static void *strike(void *nothing) {
    int own = gettid(), thread;
    for (;;) {
        sleep_for(next_below(pause_most + 1));
        thread = random_thread(own);
        if (thread && !__atomic_exchange_n(&is_struck[thread % PLACES], 1, __ATOMIC_SEQ_CST))
            tgkill(getpid(), thread, STROKE);
    }
    return nothing;
}

int pthread_create(void *thread, const void *attributes, void *(*routine)(void *), void *argument) {
    __sync_add_and_fetch(&words[STARTS], 1);
    return system_start()(thread, attributes, routine, argument);
}

/* Comes before the program's own first step. */
__attribute__((constructor)) static void set_up(void) {
    static unsigned long thread;
    words = words_in("DELAYS_COUNTS", WORDS, own_words);
    seed = (size)number_in("DELAYS_SEED");
    pause_most = number_in("DELAYS_PAUSE");
    sleep_most = number_in("DELAYS_SLEEP");
    if (!sleep_most)
        return;
    signal(STROKE, sleep_a_while);
    system_start()(&thread, 0, strike, 0);
}
