// Has one call of a program fail, for tools/refuse_each: of the calls that its own code makes, and not of those of the C
// library. It is loaded before the C library. REFUSE names what is counted: `growth`, `thread`, `random`, `read` or
// `write`. REFUSE_AT is the call, and REFUSE_HOW what becomes of it:
//   fail       it fails
//   all        it fails, and so do all after it
//   workers    it fails, and so do all after it of threads other than the first
//   starve     it fails, and after it each growth of the first thread where that starts no more threads
//   interrupt  it is interrupted
//   one        it moves one byte
//   less       it moves a byte less than it would
//   none       it moves nothing
// REFUSE_STEP is the most that a read or a write moves. A thread may meet a call which does not go on as it would. Then
// it writes its number to descriptor REFUSE_TELL, twice at most: 0 is the first one, and the others follow by their
// start. With `starve`, an `s` follows where a growth fails for it.
// (There are no headers, so that the kit's own compiler compiles it.)
typedef unsigned long size;

extern char *getenv(const char *);
extern void *dlsym(void *, const char *);
extern unsigned long getauxval(unsigned long);
extern int *__errno_location(void);
extern void *__libc_malloc(size);
extern void *__libc_realloc(void *, size);
extern long lseek(int, long, int);
extern int usleep(unsigned);

enum { FAILED = 5, INTERRUPTED = 4, NO_THREAD = 11, NO_MEMORY = 12, NO_ROOM = 28, FROM_HERE = 1 };

enum { MOST_THREADS = 64, WAITS = 40, WAIT = 50 };

// What becomes of a call, in the order of these words.
enum fate { FAIL, ALL, WORKERS, STARVE, INTERRUPT, ONE, LESS, NONE, GO_ON };

static const char *const words[] = {"fail", "all", "workers", "starve", "interrupt", "one", "less", "none"};

// A thread of the program.
struct task {
    void *(*body)(void *);
    void *given;
};

static long (*next_read)(int, void *, size);
static long (*next_write)(int, const void *, size);
static int (*next_thread)(void *, const void *, void *(*)(void *), void *);
static int (*next_join)(unsigned long, void **);
static int (*next_random)(void *, size);

static unsigned long begin, end;
static const char *what = "";
static enum fate how = GO_ON;
static unsigned long at, step, count;
static int tell = -1;
static int is_met, is_starved, threads_met;
static struct task tasks[MOST_THREADS];
// How many threads were started, and whether the first thread starts no more: it joins them, or could not start one.
static int started, is_closing;
static __thread int number __attribute__((tls_model("initial-exec")));
static __thread int calls_met __attribute__((tls_model("initial-exec")));

static int are_same(const char *one, const char *other) {
    for (; *one && *one == *other; one++) other++;
    return *one == *other;
}

static unsigned long value_of(const char *name) {
    const char *text = getenv(name);
    unsigned long value = 0;
    for (; text && *text; text++) value = value * 10 + (unsigned long)(*text - '0');
    return value;
}

// Where the program's own code lies.
static void find_code(void) {
    struct header {
        unsigned type, flags;
        unsigned long offset, place, physical, in_file, in_memory, alignment;
    };
    const struct header *all = (const struct header *)getauxval(3);
    unsigned long many = getauxval(5), base = 0;
    for (unsigned long i = 0; i < many; i++)
        if (all[i].type == 6) base = (unsigned long)all - all[i].place;
    for (unsigned long i = 0; i < many; i++)
        if (all[i].type == 1 && all[i].flags & 1) begin = base + all[i].place, end = begin + all[i].in_memory;
}

__attribute__((constructor)) static void start(void) {
    void *const behind = (void *)-1;
    next_read = (long (*)(int, void *, size))dlsym(behind, "read");
    next_write = (long (*)(int, const void *, size))dlsym(behind, "write");
    next_thread = (int (*)(void *, const void *, void *(*)(void *), void *))dlsym(behind, "pthread_create");
    next_join = (int (*)(unsigned long, void **))dlsym(behind, "pthread_join");
    next_random = (int (*)(void *, size))dlsym(behind, "getentropy");
    find_code();
    what = getenv("REFUSE") ? getenv("REFUSE") : "";
    const char *word = getenv("REFUSE_HOW") ? getenv("REFUSE_HOW") : "";
    for (how = FAIL; how < GO_ON && !are_same(word, words[how]); how++) {}
    step = value_of("REFUSE_STEP");
    tell = (int)value_of("REFUSE_TELL");
    at = value_of("REFUSE_AT");
}

// Notes that this thread met a call that does not go on.
static void meet(void) {
    char digit = (char)('0' + number);
    is_met = 1;
    if (calls_met++ < 2) next_write(tell, &digit, 1);
    if (calls_met == 1) __atomic_add_fetch(&threads_met, 1, __ATOMIC_SEQ_CST);
}

// The fate of a growth after the call that failed, where no memory is left for the first thread. Only that thread gets
// here with no memory left, so that only it writes the `s`.
static enum fate starved(void) {
    if (!is_met || !is_closing || number != 0) return GO_ON;
    if (!is_starved) next_write(tell, "s", 1);
    is_starved = 1;
    return FAIL;
}

// Waits for a moment for another thread to meet one, too: what one thread hears, the others are to hear no sooner.
static void wait_for_another(void) {
    if (number == 0 || started < 2) return;
    for (int i = 0; i < WAITS && __atomic_load_n(&threads_met, __ATOMIC_SEQ_CST) < 2; i++) usleep(WAIT);
}

static enum fate fate_of(const char *kind, void *caller) {
    if ((unsigned long)caller < begin || (unsigned long)caller >= end || at == 0) return GO_ON;
    if (how == STARVE && are_same(kind, "growth")) return starved();
    if (!are_same(kind, what)) return GO_ON;
    unsigned long now = __atomic_add_fetch(&count, 1, __ATOMIC_SEQ_CST);
    if (now < at || (now > at && how != ALL && (how != WORKERS || number == 0))) return GO_ON;
    meet();
    if (how == WORKERS) wait_for_another();
    return how;
}

#define FATE(kind) fate_of(kind, __builtin_return_address(0))

static int fails(enum fate fate) { return fate <= STARVE; }

void *malloc(size bytes) {
    if (!fails(FATE("growth"))) return __libc_malloc(bytes);
    *__errno_location() = NO_MEMORY;
    return 0;
}

void *realloc(void *block, size bytes) {
    if (!fails(FATE("growth"))) return __libc_realloc(block, bytes);
    *__errno_location() = NO_MEMORY;
    return 0;
}

static void *run(void *given) {
    const struct task *task = given;
    number = (int)(task - tasks) + 1;
    return task->body(task->given);
}

int pthread_create(void *thread, const void *attributes, void *(*body)(void *), void *given) {
    if (fails(FATE("thread")) || started == MOST_THREADS) {
        is_closing = 1;
        return NO_THREAD;
    }
    struct task *task = &tasks[started];
    task->body = body;
    task->given = given;
    int failed = next_thread(thread, attributes, run, task);
    if (!failed) started++;
    return failed;
}

int pthread_join(unsigned long thread, void **value) {
    is_closing = 1;
    return next_join(thread, value);
}

int getentropy(void *bytes, size many) {
    if (!fails(FATE("random"))) return next_random(bytes, many);
    *__errno_location() = FAILED;
    return -1;
}

// How many bytes a call moves: -1 where it fails, with this error or as interrupted.
static long room(enum fate fate, size many, int error) {
    if (step != 0 && step < many) many = step;
    if (fate == ONE && many > 1) many = 1;
    if (fate == NONE) many = 0;
    if (!fails(fate) && fate != INTERRUPT) return (long)many;
    *__errno_location() = fate == INTERRUPT ? INTERRUPTED : error;
    return -1;
}

long read(int file, void *bytes, size many) {
    enum fate fate = FATE("read");
    long most = room(fate, many, FAILED);
    if (most < 0) return -1;
    long moved = next_read(file, bytes, (size)most);
    // (only what was read shows how much there was; the last byte comes again)
    if (fate != LESS || moved < 2 || lseek(file, -1, FROM_HERE) < 0) return moved;
    return moved - 1;
}

long write(int file, const void *bytes, size many) {
    enum fate fate = FATE("write");
    long most = room(fate, many, NO_ROOM);
    if (most < 0) return -1;
    return next_write(file, bytes, (size)(fate == LESS && most > 1 ? most - 1 : most));
}
