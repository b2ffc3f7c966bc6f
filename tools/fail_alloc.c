// Put before a program's own library by LD_PRELOAD, this refuses memory: the allocation whose number FAIL_ALLOC says, from 1, and with
// FAIL_FROM all behind it too. Each allocation is told by a byte on descriptor 9. Likewise it refuses the start of a thread whose number
// FAIL_THREAD says, each of which is told by a byte on descriptor 8. No header is needed, so that the kit's clang builds it.
extern void *__libc_malloc(unsigned long);
extern void *__libc_calloc(unsigned long, unsigned long);
extern void *__libc_realloc(void *, unsigned long);
extern long write(int, const void *, unsigned long);
extern char *getenv(const char *);
extern int *__errno_location(void);
extern void *dlsym(void *, const char *);

static unsigned long number_in(const char *word) {
  unsigned long number = 0;
  while (*word >= '0' && *word <= '9') number = number * 10 + (unsigned long)(*word++ - '0');
  return number;
}

// Threads may ask at the same time.
static int refuses(void) {
  static unsigned long asked;
  const char *word = getenv("FAIL_ALLOC");
  if (!word) return 0;
  unsigned long count = __atomic_add_fetch(&asked, 1, __ATOMIC_SEQ_CST);
  (void)!write(9, ".", 1);
  if (count != number_in(word) && !(getenv("FAIL_FROM") && count > number_in(word))) return 0;
  *__errno_location() = 12; // ENOMEM
  return 1;
}

void *malloc(unsigned long size) { return refuses() ? 0 : __libc_malloc(size); }
void *calloc(unsigned long many, unsigned long size) { return refuses() ? 0 : __libc_calloc(many, size); }
void *realloc(void *old, unsigned long size) { return refuses() ? 0 : __libc_realloc(old, size); }

int pthread_create(void *thread, const void *attributes, void *(*begin)(void *), void *with) {
  static unsigned long asked;
  const char *word = getenv("FAIL_THREAD");
  if (word) {
    (void)!write(8, ".", 1);
    if (++asked == number_in(word)) return 11; // EAGAIN
  }
  int (*next)(void *, const void *, void *(*)(void *), void *) = (int (*)(void *, const void *, void *(*)(void *), void *))dlsym((void *)-1L, "pthread_create");
  return next(thread, attributes, begin, with);
}
