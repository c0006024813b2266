/* A library that refuses the allocation of the number REFUSED_ALLOCATION, or each one of more than MOST_ALLOCATED bytes: it
   writes to descriptor 9 when it does. */
void *__libc_malloc(unsigned long);
void *__libc_calloc(unsigned long, unsigned long);
void *__libc_realloc(void *, unsigned long);
char *getenv(const char *);
long atol(const char *);
long write(int, const void *, unsigned long);

static long calls;

static int is_refused(unsigned long size) {
  const char *number = getenv("REFUSED_ALLOCATION"), *most = getenv("MOST_ALLOCATED");
  int is_chosen = number && ++calls == atol(number), is_large = most && size > (unsigned long)atol(most);
  return (is_chosen || is_large) && write(9, "x", 1) == 1;
}

void *malloc(unsigned long size) { return is_refused(size) ? 0 : __libc_malloc(size); }
void *calloc(unsigned long n, unsigned long size) { return is_refused(n * size) ? 0 : __libc_calloc(n, size); }
void *realloc(void *old, unsigned long size) { return is_refused(size) ? 0 : __libc_realloc(old, size); }
