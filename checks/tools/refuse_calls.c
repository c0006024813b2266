/* A library that refuses the file call of the number REFUSED_CALL: it writes to descriptor 9 when it does. Standard output
   isn't a file here. */
long syscall(long, ...);
int *__errno_location(void);
char *getenv(const char *);
long atol(const char *);

static long calls;

static int is_refused(void) {
  const char *number = getenv("REFUSED_CALL");
  if (!number || ++calls != atol(number)) return 0;
  syscall(1, 9L, "x", 1L);
  *__errno_location() = 5;
  return 1;
}

long write(long to, const void *bytes, unsigned long len) { return to > 2 && is_refused() ? -1 : syscall(1, to, bytes, len); }
long pwrite(long to, const void *bytes, unsigned long len, long at) { return is_refused() ? -1 : syscall(18, to, bytes, len, at); }
int fsync(long of) { return is_refused() ? -1 : (int)syscall(74, of); }
int fdatasync(long of) { return is_refused() ? -1 : (int)syscall(75, of); }
int ftruncate(long of, long len) { return is_refused() ? -1 : (int)syscall(77, of, len); }
int rename(const char *from, const char *to) { return is_refused() ? -1 : (int)syscall(82, from, to); }
int unlink(const char *path) { return is_refused() ? -1 : (int)syscall(87, path); }
int openat(long at, const char *path, int flags, int mode) {
  return flags & 64 && is_refused() ? -1 : (int)syscall(257, at, path, (long)flags, (long)mode);
}
