/* Forks: the child goes on with the blocks of its parent, frees one of another thread, and runs a program. */
#define _GNU_SOURCE
#include <pthread.h>
#include <stdlib.h>
#include <sys/wait.h>
#include <unistd.h>

static void *ours, *theirs;

static void *make(void *unused) {
    theirs = malloc(111);
    pause();
    return unused;
}

int main(void) {
    pthread_t thread;
    ours = malloc(222);
    pthread_create(&thread, NULL, make, NULL);
    while (!__atomic_load_n(&theirs, __ATOMIC_SEQ_CST))
        usleep(1000);
    pid_t child = fork();
    if (!child) {
        free(ours);
        free(theirs);
        ours = malloc(333);
        execl("/bin/sh", "sh", "-c", "exit 4", (char *)NULL);
        _exit(1);
    }
    int status = 0;
    waitpid(child, &status, 0);
    free(ours);
    _exit(WEXITSTATUS(status));
}
