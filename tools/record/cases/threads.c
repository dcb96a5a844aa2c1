/* Threads that hand blocks to each other, leave some, and end. */
#define _GNU_SOURCE
#include <pthread.h>
#include <stdlib.h>
#include <string.h>

enum { MAKERS = 5, BLOCKS = 300 };

static void *left[MAKERS][BLOCKS];

static void *make(void *number) {
    long me = (long)number;
    for (int i = 0; i < BLOCKS; i++) {
        left[me][i] = malloc((size_t)(i * 7 + 24));
        if (i % 3 == 0) {
            free(left[me][i]);
            left[me][i] = NULL;
        }
    }
    return NULL;
}

static void *resize(void *number) {
    long me = (long)number;
    for (int i = 0; i < BLOCKS; i++)
        if (left[me][i] && i % 2)
            left[me][i] = realloc(left[me][i], (size_t)(i * 11 + 50));
    return NULL;
}

int main(void) {
    pthread_t threads[MAKERS];
    for (long i = 0; i < MAKERS; i++)
        pthread_create(&threads[i], NULL, make, (void *)i);
    for (long i = 0; i < MAKERS; i++)
        pthread_join(threads[i], NULL);
    for (long i = 0; i < MAKERS; i++)
        pthread_create(&threads[i], NULL, resize, (void *)i);
    for (long i = 0; i < MAKERS; i++)
        pthread_join(threads[i], NULL);
    for (int m = 0; m < MAKERS; m++)
        for (int i = 0; i < BLOCKS; i += 2)
            free(left[m][i]);
    return 0;
}
