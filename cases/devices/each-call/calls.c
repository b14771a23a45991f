/* Between the program and the C library: notes each read of descriptor 0, each write of descriptor 1 and each thread that is started as a letter on
   descriptor 9. With SLOW=1 each such read and write moves a byte at most. The read or write whose number, from 0, is in FAILED_READ or FAILED_WRITE
   fails; with the value `interrupted` the first one is interrupted, and with FAILED_WRITE=none the first write takes nothing. It is loaded before the C library. */
typedef unsigned long size_t;
extern long __read(int, void *, size_t), __write(int, const void *, size_t);
extern char *getenv(const char *);
extern int *__errno_location(void);
extern void *dlsym(void *, const char *);

static long reads, writes;

static void note(const char *letter) { __write(9, letter, 1); }

static int is_number(const char *name, long number) {
    const char *text = getenv(name);
    long value = 0;
    if (!text || *text < '0' || *text > '9')
        return 0;
    for (; '0' <= *text && *text <= '9'; text++)
        value = value * 10 + *text - '0';
    return value == number;
}

static int begins(const char *name, char letter) {
    const char *text = getenv(name);
    return text && *text == letter;
}

static size_t moved(size_t size) { return size && begins("SLOW", '1') ? 1 : size; }

static long fails(int error) {
    *__errno_location() = error;
    return -1;
}

long read(int from, void *bytes, size_t size) {
    if (from != 0)
        return __read(from, bytes, size);
    note("r");
    if (is_number("FAILED_READ", reads++))
        return fails(5); /* EIO */
    if (reads == 1 && begins("FAILED_READ", 'i'))
        return fails(4); /* EINTR */
    return __read(from, bytes, moved(size));
}

long write(int to, const void *bytes, size_t size) {
    if (to != 1)
        return __write(to, bytes, size);
    note("w");
    if (is_number("FAILED_WRITE", writes++))
        return fails(5);
    if (writes == 1 && begins("FAILED_WRITE", 'i'))
        return fails(4);
    if (writes == 1 && begins("FAILED_WRITE", 'n'))
        return 0;
    return __write(to, bytes, moved(size));
}

int pthread_create(void *thread, const void *how, void *(*body)(void *), void *argument) {
    int (*create)(void *, const void *, void *(*)(void *), void *) = dlsym((void *)-1, "pthread_create"); /* RTLD_NEXT */
    note("t");
    return create(thread, how, body, argument);
}
