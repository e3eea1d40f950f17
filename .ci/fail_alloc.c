/* Has allocations of a program fail: loaded before the C library (LD_PRELOAD). Where FAIL_ALLOC is n,
   it refuses the n-th call of malloc or realloc, and says so on standard error. Where FAIL_ALLOC_OF_PART
   is n, it refuses the n-th call of each part of the program that begins with a line "+" on standard
   output and ends with a line "-", and none elsewhere; and where n is 0, it says at the end of each part
   for how many bytes all of them asked. It needs no header. */
typedef __SIZE_TYPE__ size_t;

void abort(void);
long atol(const char *text);
char *getenv(const char *name);
long syscall(long number, ...);
void *__libc_malloc(size_t size);
void *__libc_realloc(void *old, size_t size);

enum { WRITE = 1 };

static long refused = -1; /* which call is refused, 0 for none */
static int by_parts;      /* whether calls are counted by parts */
static int in_part;
static long calls;
static size_t asked; /* by this part, in bytes */

static void read_settings(void) {
    const char *of_all = getenv("FAIL_ALLOC");
    const char *of_part = getenv("FAIL_ALLOC_OF_PART");
    by_parts = of_part != 0;
    refused = of_part ? atol(of_part) : of_all ? atol(of_all) : 0;
}

static int is_refused(void) {
    static const char told[] = "fail_alloc: refused\n";
    if (refused < 0) read_settings();
    if (refused == 0 || (by_parts && !in_part) || ++calls != refused) return 0;
    if (syscall(WRITE, 2, told, sizeof told - 1) < 0) abort();
    return 1;
}

static void say_asked(void) {
    static const char told[] = "fail_alloc: in all ";
    char digits[24];
    size_t at = sizeof digits;
    digits[--at] = '\n';
    do digits[--at] = '0' + asked % 10;
    while (asked /= 10);
    if (syscall(WRITE, 2, told, sizeof told - 1) < 0) abort();
    if (syscall(WRITE, 2, digits + at, sizeof digits - at) < 0) abort();
}

void *malloc(size_t size) {
    asked += size;
    return is_refused() ? 0 : __libc_malloc(size);
}

void *realloc(void *old, size_t size) {
    asked += size;
    return is_refused() ? 0 : __libc_realloc(old, size);
}

long write(int to, const void *bytes, size_t count) {
    const char *text = bytes;
    if (by_parts && to == 1 && count == 2 && text[1] == '\n' && (text[0] == '+' || text[0] == '-')) {
        if (in_part && refused == 0) say_asked();
        in_part = text[0] == '+';
        calls = 0;
        asked = 0;
    }
    return syscall(WRITE, to, bytes, count);
}
