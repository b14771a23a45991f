/* Refuses growths of the heap and says so on descriptor 9: the one whose number stands in REFUSED, counted
   from 1, or with a '-' behind the number that one and all after it. It is loaded before the C library. */
typedef unsigned long size_t;
extern void *__libc_malloc(size_t), *__libc_calloc(size_t, size_t), *__libc_realloc(void *, size_t);
extern char *getenv(const char *);
extern int *__errno_location(void);
extern long write(int, const void *, size_t);

static long number = -1, all_after, growths;

static int is_refused(void) {
    if (number < 0) { /* the program's first growth, when no thread is there yet */
        const char *text = getenv("REFUSED");
        for (number = 0; text && '0' <= *text && *text <= '9'; text++)
            number = number * 10 + *text - '0';
        all_after = text && *text == '-';
    }
    long growth = __atomic_add_fetch(&growths, 1, __ATOMIC_SEQ_CST);
    if (growth != number && !(all_after && growth > number))
        return 0;
    write(9, "r", 1);
    *__errno_location() = 12; /* ENOMEM, as malloc has it */
    return 1;
}

void *malloc(size_t size) { return is_refused() ? 0 : __libc_malloc(size); }
void *calloc(size_t count, size_t size) { return is_refused() ? 0 : __libc_calloc(count, size); }
void *realloc(void *block, size_t size) { return is_refused() ? 0 : __libc_realloc(block, size); }
