/* Passes a limit of traces, or ends, in the way that the first word says. */
#define _GNU_SOURCE
#include <pthread.h>
#include <signal.h>
#include <stdlib.h>
#include <string.h>
#include <unistd.h>

enum { MANY = 70000, HALF = 40000 };

static void *blocks[MANY];

static void *use(void *unused) {
    free(malloc(100));
    return unused;
}

static void *free_half(void *unused) {
    for (int i = 0; i < HALF; i++)
        free(blocks[i]);
    return unused;
}

static void run(void *(*what)(void *)) {
    pthread_t thread;
    if (!pthread_create(&thread, NULL, what, NULL))
        pthread_join(thread, NULL);
}

static void hold(int number) {
    for (int i = 0; i < number; i++)
        blocks[i] = malloc(24);
}

int main(int count, char **words) {
    const char *what = count > 1 ? words[1] : "";
    if (!strcmp(what, "threads"))
        for (int i = 0; i < 70; i++)
            run(use);
    else if (!strcmp(what, "names"))
        hold(MANY);
    else if (!strcmp(what, "trays"))
        for (int i = 0; i < 2; i++) {
            hold(HALF);
            run(free_half);
        }
    else if (!strcmp(what, "bytes"))
        for (int i = 0; i < 4000000; i++)
            free(malloc(100000));
    else if (!strcmp(what, "abort") || !strcmp(what, "exit") || !strcmp(what, "kill") || !strcmp(what, "exec")) {
        for (int i = 0; i < 1000; i++)
            blocks[i] = malloc((size_t)i);
        if (*what == 'a')
            abort();
        if (*what == 'k')
            raise(SIGKILL);
        if (!strcmp(what, "exec"))
            execl("/proc/self/exe", "limits", "names", (char *)NULL);
        _exit(5);
    }
    write(1, "done\n", 5);
    return 3;
}
