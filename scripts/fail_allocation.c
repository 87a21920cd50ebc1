/* Makes one allocation fail: the one whose number is in the variable FAIL of the environment. It is loaded before the C
   library (LD_PRELOAD), counts the calls of malloc and realloc, and says on standard error that one has failed. */

extern char *getenv(const char *name);
extern long write(int file, const void *octets, unsigned long count);
extern void *__libc_malloc(unsigned long size);
extern void *__libc_realloc(void *old, unsigned long size);

static const char told[] = "allocation failed\n";

/* Counts this call. Returns whether it must fail. */
static int is_to_fail(void) {
    static unsigned long asked;
    const char *digits = getenv("FAIL");
    unsigned long number = 0;
    for (; digits && *digits; ++digits) number = 10 * number + (unsigned long)(*digits - '0');
    return ++asked == number && write(2, told, sizeof told - 1) > 0;
}

void *malloc(unsigned long size) { return is_to_fail() ? 0 : __libc_malloc(size); }

void *realloc(void *old, unsigned long size) { return is_to_fail() ? 0 : __libc_realloc(old, size); }
