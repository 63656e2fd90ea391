// A library that is loaded in front of a program (LD_PRELOAD): at each request for memory the program goes on in two copies in which
// the request finds none, in one that request alone, in the other all behind it too. What each copy comes to is held against the
// status and the output that the program has with memory enough; with the status of want of memory nothing may have been written.
//
//     STARVE_STATUS  the status, STARVE_OUTPUT  a file with the output, STARVE_REPORT  a file to which lines are added
//     STARVE_FROM, STARVE_STEP  the first request that fails, and how many lie from one to the next (1 and 1)
#define _GNU_SOURCE
#include <fcntl.h>
#include <stdarg.h>
#include <stdio.h>
#include <stdlib.h>
#include <string.h>
#include <sys/mman.h>
#include <sys/stat.h>
#include <sys/wait.h>
#include <unistd.h>
#include <errno.h>

extern void *__libc_malloc(size_t);
extern void *__libc_calloc(size_t, size_t);
extern void *__libc_realloc(void *, size_t);
extern void *__libc_memalign(size_t, size_t);

enum { WANT = 8 };  // the status of want of memory

static int armed, starved;
static long requests, from = 1, step = 1, want, same, wrong;
static int wanted_status, report = -1;
static char *wanted;
static size_t wanted_size;

static void tell(const char *format, ...) {
  char line[200];
  va_list args;
  va_start(args, format);
  int n = vsnprintf(line, sizeof line, format, args);
  va_end(args);
  if (write(report, line, n) != n) _Exit(99);
}

static long number(const char *name, long otherwise) {
  const char *text = getenv(name);
  return text ? atol(text) : otherwise;
}

__attribute__((constructor)) static void begin(void) {
  const char *output = getenv("STARVE_OUTPUT"), *lines = getenv("STARVE_REPORT");
  if (!output || !lines) return;
  int fd = open(output, O_RDONLY);
  struct stat it;
  if (fd < 0 || fstat(fd, &it)) _Exit(98);
  wanted_size = it.st_size;
  wanted = wanted_size ? mmap(0, wanted_size, PROT_READ, MAP_PRIVATE, fd, 0) : "";
  close(fd);
  report = open(lines, O_WRONLY | O_APPEND | O_CREAT | O_CLOEXEC, 0666);
  wanted_status = number("STARVE_STATUS", 0);
  from = number("STARVE_FROM", 1);
  step = number("STARVE_STEP", 1);
  armed = 1;
}

static void judge(int status, int out, int all) {
  struct stat it;
  fstat(out, &it);
  const char *how = all ? "and all behind it" : "alone";
  if (WIFSIGNALED(status)) {
    wrong++;
    tell("request %ld, %s: signal %d\n", requests, how, WTERMSIG(status));
  } else if (WEXITSTATUS(status) == WANT && it.st_size == 0) {
    want++;
  } else if (WEXITSTATUS(status) == WANT) {
    wrong++;
    tell("request %ld, %s: want of memory, and %ld bytes were written\n", requests, how, (long)it.st_size);
  } else if (WEXITSTATUS(status) != wanted_status) {
    wrong++;
    tell("request %ld, %s: status %d\n", requests, how, WEXITSTATUS(status));
  } else {
    char *got = it.st_size ? mmap(0, it.st_size, PROT_READ, MAP_SHARED, out, 0) : "";
    if ((size_t)it.st_size != wanted_size || memcmp(got, wanted, wanted_size)) {
      wrong++;
      tell("request %ld, %s: another output\n", requests, how);
    } else {
      same++;
    }
    if (it.st_size) munmap(got, it.st_size);
  }
}

// whether the request finds no memory: in a copy
static int finds_none(void) {
  if (starved) return 1;
  if (!armed) return 0;
  requests++;
  if (requests < from || (requests - from) % step) return 0;
  for (int all = 0; all < 2; all++) {
    int out = memfd_create("output", MFD_CLOEXEC);
    pid_t copy = fork();
    if (copy < 0) _Exit(97);
    if (copy == 0) {
      armed = 0;
      starved = all;
      off_t at = lseek(0, 0, SEEK_CUR);
      int in = open("/proc/self/fd/0", O_RDONLY), none = open("/dev/null", O_WRONLY);
      if (at >= 0 && in >= 0) { lseek(in, at, SEEK_SET); dup2(in, 0); }
      dup2(out, 1);
      dup2(none, 2);
      errno = ENOMEM;
      return 1;
    }
    int status = 0;
    waitpid(copy, &status, 0);
    judge(status, out, all);
    close(out);
  }
  return 0;
}

static void end(void) {
  if (!armed) return;
  armed = 0;
  tell("%ld requests, %ld copies: %ld told want of memory, %ld gave the output, %ld did neither\n", requests, want + same + wrong, want,
       same, wrong);
}
__attribute__((destructor)) static void last(void) { end(); }
void _exit(int status) { end(); _Exit(status); }

void *malloc(size_t size) { return finds_none() ? 0 : __libc_malloc(size); }
void *calloc(size_t count, size_t size) { return finds_none() ? 0 : __libc_calloc(count, size); }
void *realloc(void *old, size_t size) { return finds_none() ? 0 : __libc_realloc(old, size); }
void *memalign(size_t to, size_t size) { return finds_none() ? 0 : __libc_memalign(to, size); }
void *aligned_alloc(size_t to, size_t size) { return memalign(to, size); }
int posix_memalign(void **at, size_t to, size_t size) {
  void *it = memalign(to, size);
  if (!it) return ENOMEM;
  *at = it;
  return 0;
}
