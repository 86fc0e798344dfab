/* Loaded before a program by LD_PRELOAD, this refuses each of its requests for memory, or each of its writes to standard
   output. At each the process forks: the child is refused there, and has to end with the status ENDS, with SAYS on
   standard error; the parent goes on as if nothing had been, and says at its end how often it was so. Who asks for more
   than is needed may do with less: the child may then also end with the status OR, with OR_SAYS on standard error (nothing,
   if there is no OR_SAYS).
   REFUSED is
   - "once": the child is refused memory there and nowhere else;
   - "onwards": the child is refused all memory from there on;
   - "output": the child's write there fails. */

#define _GNU_SOURCE
#include <errno.h>
#include <fcntl.h>
#include <stdio.h>
#include <stdlib.h>
#include <string.h>
#include <sys/syscall.h>
#include <sys/wait.h>
#include <unistd.h>

void *__libc_malloc(size_t size);
void *__libc_realloc(void *block, size_t size);

/* How long the child may take, in seconds. */
enum { PATIENCE = 60, LONGEST = 256 };

static enum { NOTHING, ONCE, ONWARDS, OUTPUT } refused = NOTHING;
static long refusals = 0;
/* Whether this process is a child that has no more memory. */
static int is_exhausted = 0;

__attribute__((constructor)) static void begin(void) {
  const char *what = getenv("REFUSED");
  if (!what || !getenv("ENDS") || !getenv("OR") || !getenv("SAYS"))
    _exit(100);
  refused = strcmp(what, "once") == 0 ? ONCE : strcmp(what, "onwards") == 0 ? ONWARDS : OUTPUT;
}

static void stop(const char *why, int status, const char *said) {
  refused = NOTHING;
  fprintf(stderr, "refusal %ld: %s: status %d, \"%s\"\n", refusals, why, status, said);
  _exit(101);
}

__attribute__((destructor)) static void end(void) {
  if (refused == NOTHING)
    return;
  refused = NOTHING;
  fprintf(stderr, "%ld refusals\n", refusals);
}

/* Waits for the child, and stops where it did not end as it must. */
static void judge(pid_t child, int words) {
  char said[LONGEST + 1];
  size_t length = 0;
  ssize_t got;
  while (length < LONGEST && (got = read(words, said + length, LONGEST - length)) > 0)
    length += (size_t)got;
  said[length] = '\0';
  close(words);
  int status;
  if (waitpid(child, &status, 0) != child)
    stop("the child is lost", 0, said);
  if (!WIFEXITED(status))
    stop("the child was stopped by a signal", WTERMSIG(status), said);
  status = WEXITSTATUS(status);
  int is_refusal = status == atoi(getenv("ENDS")) && strcmp(said, getenv("SAYS")) == 0;
  const char *calm = getenv("OR_SAYS");
  int is_made_good = status == atoi(getenv("OR")) && strcmp(said, calm ? calm : "") == 0;
  if (!is_refusal && !is_made_good)
    stop("the child ended in another way", status, said);
}

/* Whether this process is the child that is refused now. */
static int is_refused(void) {
  int words[2];
  refusals++;
  if (pipe(words) != 0)
    stop("no pipe", errno, "");
  pid_t child = fork();
  if (child < 0)
    stop("no child", errno, "");
  if (child > 0) {
    close(words[1]);
    judge(child, words[0]);
    return 0;
  }
  is_exhausted = refused == ONWARDS;
  refused = NOTHING;
  alarm(PATIENCE);
  int nowhere = open("/dev/null", O_WRONLY);
  dup2(nowhere, STDOUT_FILENO);
  dup2(words[1], STDERR_FILENO);
  close(nowhere);
  close(words[0]);
  close(words[1]);
  return 1;
}

static int is_out_of_memory(void) {
  if (!is_exhausted && !((refused == ONCE || refused == ONWARDS) && is_refused()))
    return 0;
  errno = ENOMEM;
  return 1;
}

void *malloc(size_t size) { return is_out_of_memory() ? NULL : __libc_malloc(size); }

void *realloc(void *block, size_t size) { return is_out_of_memory() ? NULL : __libc_realloc(block, size); }

ssize_t write(int file, const void *bytes, size_t count) {
  if (refused == OUTPUT && file == STDOUT_FILENO && is_refused()) {
    errno = EIO;
    return -1;
  }
  return syscall(SYS_write, file, bytes, count);
}

ssize_t __write(int file, const void *bytes, size_t count) { return write(file, bytes, count); }
