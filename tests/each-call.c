// Loaded before a program: each read of its standard input and each write to its standard output moves 7 bytes at most, and the one of a kind
// whose number stands in GX_FAIL ("read 3", "write 1") fails.
extern long syscall(long number, ...);
extern char *getenv(const char *name);
extern int *__errno_location(void);

enum { READ = 0, WRITE = 1, AT_MOST = 7, FAILED = 5 };

static unsigned long count;

// Whether this call is the one that fails.
static int is_failing(char kind) {
  const char *fail = getenv("GX_FAIL");
  unsigned long number = 0;
  if (!fail || *fail != kind)
    return 0;
  for (; *fail; fail++)
    if ('0' <= *fail && *fail <= '9')
      number = 10 * number + (unsigned long)(*fail - '0');
  return ++count == number;
}

static long call(long number, char kind, int file, const void *bytes, unsigned long length) {
  if (file == number) {
    if (is_failing(kind)) {
      *__errno_location() = FAILED;
      return -1;
    }
    if (length > AT_MOST)
      length = AT_MOST;
  }
  return syscall(number, (long)file, bytes, length);
}

long read(int file, void *bytes, unsigned long length) { return call(READ, 'r', file, bytes, length); }

long write(int file, const void *bytes, unsigned long length) { return call(WRITE, 'w', file, bytes, length); }
