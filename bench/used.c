/* Runs a program, and tells on standard error the processor's seconds and the peak KiB of memory that it used:

    used PROGRAM [WORD]..

   A child's peak is never below what its parent had when it was made, so a large parent (a script) can't tell that of a
   small child; this one has about 1 MiB. Its status is the program's, or 127 where that can't be run. */
#include <stdio.h>
#include <sys/resource.h>
#include <sys/wait.h>
#include <unistd.h>

static double seconds(struct timeval time) { return (double)time.tv_sec + (double)time.tv_usec / 1e6; }

int main(int count, char **words) {
    if (count < 2) return 127;
    pid_t child = fork();
    if (child < 0) return 127;
    if (child == 0) {
        execv(words[1], words + 1);
        _exit(127);
    }
    int status;
    struct rusage used;
    if (wait4(child, &status, 0, &used) < 0) return 127;
    fprintf(stderr, "%.6f %ld\n", seconds(used.ru_utime) + seconds(used.ru_stime), used.ru_maxrss);
    return WIFEXITED(status) ? WEXITSTATUS(status) : 127;
}
