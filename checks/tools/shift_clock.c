/* A library that moves the clock on, by so many seconds as the file says that SHIFT_CLOCK names. */
long syscall(long, ...);
char *getenv(const char *);
long atol(const char *);

struct moment { long seconds, nanoseconds; };

int clock_gettime(int which, struct moment *at) {
  int failed = (int)syscall(228, (long)which, at);
  const char *path = getenv("SHIFT_CLOCK");
  char text[24] = {0};
  long file = failed || which || !path ? -1 : syscall(257, -100L, path, 0L, 0L);
  if (file < 0) return failed;
  syscall(0, file, text, 23L);
  syscall(3, file);
  at->seconds += atol(text);
  return 0;
}
