/* Refuses a request for memory of the program that it is loaded into (LD_PRELOAD), or holds up one
   of its streams.

   REFUSED_REQUEST is the number of that request, counted from 1. With REFUSE_FROM_START all
   requests count. Without it, those count that come between a request of MARK bytes and the next
   such one, which crates/morris_trials makes around the call that it tries. Where the request came
   and was refused, the bytes that it was for go to the file descriptor REFUSAL_TOLD_TO, as a number
   in the machine's own form.

   Where LARGEST_TOLD_TO is the number of a file descriptor, each request that is larger than all
   before it is told there, refused or not, as a number in the machine's own form.

   STREAM is the file descriptor that is held up: 0 for what it reads, 1 or 2 for what it writes, a
   greater one for a file that it reads. A call on it moves at most MOST_BYTES bytes, and the call
   with the number FAILING_CALL, counted from 1, fails with EIO; calls after it don't. Where one of
   the two is 0, nothing is held up by it. For each call on the stream a byte goes to the file
   descriptor CALLS_TOLD_TO. */

typedef __SIZE_TYPE__ size_t;

void *__libc_malloc(size_t size);
void *__libc_realloc(void *block, size_t size);
long __read(int file, void *bytes, size_t count);
long __write(int file, const void *bytes, size_t count);
long __pread64(int file, void *bytes, size_t count, long place);
int *__errno_location(void);
char *getenv(const char *name);

static const size_t MARK = 7777777;
static const int EIO = 5;

static _Bool counting;
static long refused, refusal_told_to, largest_told_to, asked;
static size_t largest;
static long stream, most, failing, calls_told_to, calls;

/* The number that a variable has, or -1. */
static long number_of(const char *name) {
    const char *digit = getenv(name);
    long number = digit ? 0 : -1;
    while (digit && *digit)
        number = number * 10 + (*digit++ - '0');
    return number;
}

__attribute__((constructor)) static void start(void) {
    counting = getenv("REFUSE_FROM_START") != 0;
    refused = number_of("REFUSED_REQUEST");
    refusal_told_to = number_of("REFUSAL_TOLD_TO");
    largest_told_to = number_of("LARGEST_TOLD_TO");
    stream = number_of("STREAM");
    most = number_of("MOST_BYTES");
    failing = number_of("FAILING_CALL");
    calls_told_to = number_of("CALLS_TOLD_TO");
}

/* Workers ask side by side, so what is kept of the requests is atomic. */
static void tell_if_largest(size_t size) {
    size_t before = __atomic_load_n(&largest, __ATOMIC_SEQ_CST);
    while (largest_told_to >= 0 && size > before)
        if (__atomic_compare_exchange_n(&largest, &before, size, 0, __ATOMIC_SEQ_CST,
                                        __ATOMIC_SEQ_CST)) {
            __write(largest_told_to, &size, sizeof size);
            return;
        }
}

static _Bool is_refused(size_t size) {
    if (!counting || __atomic_add_fetch(&asked, 1, __ATOMIC_SEQ_CST) != refused)
        return 0;
    __write(refusal_told_to, &size, sizeof size);
    return 1;
}

void *malloc(size_t size) {
    tell_if_largest(size);
    if (size == MARK)
        counting = !counting;
    else if (is_refused(size))
        return 0;
    return __libc_malloc(size);
}

void *realloc(void *block, size_t size) {
    tell_if_largest(size);
    return is_refused(size) ? 0 : __libc_realloc(block, size);
}

/* Counts a call on a file, and says whether it fails; the bytes that it moves become fewer. */
static _Bool fails(int file, size_t *count) {
    if (file != stream)
        return 0;
    __write(calls_told_to, "c", 1);
    if (most > 0 && *count > (size_t)most)
        *count = most;
    if (++calls == failing)
        *__errno_location() = EIO;
    return calls == failing;
}

long read(int file, void *bytes, size_t count) {
    return fails(file, &count) ? -1 : __read(file, bytes, count);
}

long write(int file, const void *bytes, size_t count) {
    return fails(file, &count) ? -1 : __write(file, bytes, count);
}

long pread(int file, void *bytes, size_t count, long place) {
    return fails(file, &count) ? -1 : __pread64(file, bytes, count, place);
}
