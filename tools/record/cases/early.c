/* Calls before main, out of a constructor, and out of dlsym and dlopen. */
#define _GNU_SOURCE
#include <dlfcn.h>
#include <stdlib.h>

static void *volatile kept;

__attribute__((constructor(101))) static void before_main(void) { kept = malloc(12345); }

int main(void) {
    void *library = dlopen("libm.so.6", RTLD_NOW);
    kept = dlsym(RTLD_DEFAULT, "no_function_of_this_name");
    kept = library ? dlsym(library, "no_function_of_this_name") : NULL;
    kept = malloc(54321);
    return dlerror() ? 0 : 1;
}
