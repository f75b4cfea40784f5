/* measure FIGURES COMMAND..: runs it, and appends to FIGURES the microseconds that passed, those of the processor, and
 * the most memory, in KiB. Ends as it ends. */
#include <stdio.h>
#include <sys/resource.h>
#include <sys/wait.h>
#include <time.h>
#include <unistd.h>

static long long now(void) {
  struct timespec at;
  clock_gettime(CLOCK_MONOTONIC, &at);
  return at.tv_sec * 1000000LL + at.tv_nsec / 1000;
}

static long long spent(struct timeval it) { return it.tv_sec * 1000000LL + it.tv_usec; }

int main(int count, char **words) {
  if (count < 3) return 2;
  const long long begun = now();
  const pid_t child = fork();
  if (child == 0) {
    execv(words[2], words + 2);
    perror(words[2]);
    _exit(127);
  }
  int status = 0;
  struct rusage used;
  if (child < 0 || wait4(child, &status, 0, &used) != child) return 2;
  const long long passed = now() - begun;
  FILE *figures = fopen(words[1], "a");
  if (figures == NULL) return 2;
  fprintf(figures, "%lld %lld %ld\n", passed, spent(used.ru_utime) + spent(used.ru_stime), used.ru_maxrss);
  fclose(figures);
  return WIFEXITED(status) ? WEXITSTATUS(status) : 1;
}
