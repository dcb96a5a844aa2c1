/* record: runs a program with the recording library in it, and finishes the traces when it has ended. */
#define _GNU_SOURCE
#include "finish.h"
#include <elf.h>
#include <errno.h>
#include <fcntl.h>
#include <limits.h>
#include <signal.h>
#include <stdbool.h>
#include <stdarg.h>
#include <stdio.h>
#include <stdlib.h>
#include <string.h>
#include <sys/mman.h>
#include <sys/prctl.h>
#include <sys/stat.h>
#include <sys/wait.h>
#include <time.h>
#include <unistd.h>

/* Statuses as those of env(1) and timeout(1). */
enum { FAULT = 125, NOT_RUNNABLE = 126, NOT_FOUND = 127 };

static struct control *control;
static char control_path[PATH_ROOM];
static int errors;  /* traces that couldn't be written or finished */

__attribute__((format(printf, 2, 3), noreturn)) static void fail(int status, const char *form, ...) {
    va_list values;
    va_start(values, form);
    fputs("record: ", stderr);
    vfprintf(stderr, form, values);
    fputc('\n', stderr);
    va_end(values);
    if (*control_path)
        unlink(control_path);
    exit(status);
}

/* ---- words */

static const char usage[] =
    "usage: record [-o FILE] [--lines N] [--only NAME] [--follow] [--v1] [--cross owner] [--places FILE] -- PROGRAM ARGS..";

static void take_path(char *to, const char *word) {
    char folder[PATH_ROOM];
    if (!*word)
        fail(FAULT, "a file without a name");
    if (*word != '/' && !getcwd(folder, sizeof folder))
        fail(FAULT, "the current folder: %s", strerror(errno));
    int length = snprintf(to, PATH_ROOM, "%s%s%s", *word == '/' ? "" : folder, *word == '/' ? "" : "/", word);
    if (length >= PATH_ROOM - 2 * NAME_ROOM)
        fail(FAULT, "%s: the name is too long", word);
}

static uint64_t number_in(const char *word) {
    char *end;
    errno = 0;
    unsigned long long n = strtoull(word, &end, 10);
    if (*word < '0' || *word > '9' || *end || errno)
        fail(FAULT, "--lines %s: no number", word);
    return n;
}

static void take_option(const char *option, const char *value) {
    if (!strcmp(option, "-o"))
        take_path(control->output, value);
    else if (!strcmp(option, "--places"))
        take_path(control->places, value);
    else if (!strcmp(option, "--lines"))
        control->max_lines = number_in(value);
    else if (!strcmp(option, "--only")) {
        if (!*value || strchr(value, '/') || strlen(value) >= NAME_ROOM)
            fail(FAULT, "--only %s: no name of a program", value);
        strcpy(control->only, value);
    } else if (!strcmp(option, "--cross")) {
        if (strcmp(value, "owner"))
            fail(FAULT, "--cross %s: only owner is known", value);
        control->as_owner = 1;
    } else
        fail(FAULT, "%s: no such option; %s", option, usage);
}

/* The words from the program's name on. */
static char **read_words(char **words) {
    control->version = 2;
    control->max_lines = UINT64_MAX;
    for (words++; *words && **words == '-'; words++) {
        if (!strcmp(*words, "--")) {
            words++;
            break;
        }
        if (!strcmp(*words, "--help")) {
            puts(usage);
            exit(0);
        }
        if (!strcmp(*words, "--v1") || !strcmp(*words, "--v2"))
            control->version = (*words)[3] - '0';
        else if (!strcmp(*words, "--follow"))
            control->follow = 1;
        else if (words[1]) {
            take_option(words[0], words[1]);
            words++;
        } else
            fail(FAULT, "%s: no such option, or no value behind it; %s", *words, usage);
    }
    if (!*words)
        fail(FAULT, "no program; %s", usage);
    if (!*control->output)
        take_path(control->output, "%e.%p.trace");
    return words;
}

/* ---- the program */

/* Its path, found as the shell finds it. */
static void find_program(const char *name, char *path) {
    const char *list = strchr(name, '/') ? "" : getenv("PATH");
    if (!list)
        list = "/usr/bin:/bin";
    bool found = false;
    for (const char *from = list;; from++) {
        const char *end = strchrnul(from, ':');
        snprintf(path, PATH_ROOM, "%.*s%s%s", (int)(end - from), from, end > from ? "/" : "", name);
        struct stat file;
        if (!stat(path, &file) && S_ISREG(file.st_mode)) {
            found = true;
            if (!access(path, X_OK))
                return;
        }
        from = end;
        if (!*end)
            break;
    }
    if (found)
        fail(NOT_RUNNABLE, "%s: not a program that may be run", name);
    fail(NOT_FOUND, "%s: no such program", name);
}

/* Whether the file asks for the loader, which loads the library; null where it does, else why it doesn't. */
static const char *why_not_loaded(int fd) {
    Elf64_Ehdr head;
    Elf64_Phdr part;
    if (pread(fd, &head, sizeof head, 0) != sizeof head || memcmp(head.e_ident, ELFMAG, SELFMAG))
        return NULL;
    if (head.e_ident[EI_CLASS] != ELFCLASS64)
        return "not a program of 64 bits, so nothing of it can be recorded";
    for (int i = 0; i < head.e_phnum; i++) {
        off_t at = (off_t)(head.e_phoff + (uint64_t)i * head.e_phentsize);
        if (pread(fd, &part, sizeof part, at) == sizeof part && part.p_type == PT_INTERP)
            return NULL;
    }
    return "linked statically, so nothing of it can be recorded";
}

/* A program that can't be recorded is refused before it runs, where it is the one that is meant. */
static void check_program(const char *path) {
    struct stat file;
    int fd = open(path, O_RDONLY | O_CLOEXEC);
    if (fd < 0 || control->follow || *control->only)
        return;
    const char *why = why_not_loaded(fd);
    if (!why && !fstat(fd, &file) && (file.st_mode & S_ISUID) && file.st_uid != geteuid())
        why = "it runs as another user, so nothing of it can be recorded";
    close(fd);
    if (why)
        fail(FAULT, "%s: %s", path, why);
}

/* Whether FILE can be written is found out before the program runs: by the file itself where its name is known. True
 * where the file is there only since this. */
static bool check_output(const char *form) {
    char folder[PATH_ROOM];
    struct stat file;
    strcpy(folder, form);
    if (!strchr(form, '%')) {
        int fd = open(form, O_WRONLY | O_CREAT | O_EXCL | O_CLOEXEC, 0666);
        bool is_new = fd >= 0;
        if (!is_new)
            fd = open(form, O_WRONLY | O_CREAT | O_CLOEXEC, 0666);
        if (fd < 0 || fstat(fd, &file))
            fail(FAULT, "%s: %s", form, strerror(errno));
        close(fd);
        if (!S_ISREG(file.st_mode))
            fail(FAULT, "%s: not a plain file", form);
        return is_new;
    }
    *strrchr(folder, '/') = 0;
    if (!strchr(folder, '%') && access(*folder ? folder : "/", W_OK | X_OK))
        fail(FAULT, "%s: %s", form, strerror(errno));
    return false;
}

/* ---- the shared file and the library */

static void make_control(void) {
    const char *folder = getenv("TMPDIR");
    char path[PATH_ROOM];
    snprintf(path, sizeof path, "%s/ptmrecord.XXXXXX", folder && *folder == '/' ? folder : "/tmp");
    int fd = mkostemp(path, O_CLOEXEC);
    if (fd < 0)
        fail(FAULT, "%s: %s", path, strerror(errno));
    strcpy(control_path, path);
    if (ftruncate(fd, sizeof *control))
        fail(FAULT, "%s: %s", path, strerror(errno));
    control = mmap(NULL, sizeof *control, PROT_READ | PROT_WRITE, MAP_SHARED, fd, 0);
    if (control == MAP_FAILED)
        fail(FAULT, "%s: %s", path, strerror(errno));
    close(fd);
}

static void set_variables(void) {
    char library[PATH_ROOM], list[2 * PATH_ROOM];
    ssize_t length = readlink("/proc/self/exe", library, sizeof library - 16);
    if (length < 0)
        fail(FAULT, "/proc/self/exe: %s", strerror(errno));
    library[length] = 0;
    strcpy(strrchr(library, '/'), "/record.so");
    if (access(library, R_OK))
        fail(FAULT, "%s: %s; make builds it", library, strerror(errno));
    if (strpbrk(library, " :"))
        fail(FAULT, "%s: the loader takes no path with a space or a colon", library);
    const char *before = getenv("LD_PRELOAD");
    snprintf(list, sizeof list, "%s%s%s", library, before && *before ? ":" : "", before ? before : "");
    if (setenv("LD_PRELOAD", list, 1) || setenv(VARIABLE, control_path, 1))
        fail(FAULT, "no memory");
}

/* The signals that are other here than in the program, and what they were before. */
enum { GIVEN_BACK = 5 };
static const int changed[GIVEN_BACK] = {SIGXFSZ, SIGINT, SIGQUIT, SIGTERM, SIGHUP};
static void (*before_us[GIVEN_BACK])(int);

static pid_t program;

static void pass_on(int number) {
    if (program > 0)
        kill(program, number);
}

/* The terminal's signals are the program's, and the traces are finished behind it; a file that may not be so long is an
 * error, not a death. */
static void change_signals(void) {
    for (int i = 0; i < GIVEN_BACK; i++)
        before_us[i] = signal(changed[i], i < 3 ? SIG_IGN : pass_on);
}

static pid_t launch(const char *path, char **words, const sigset_t *mask) {
    pid_t child = fork();
    if (child < 0)
        fail(FAULT, "fork: %s", strerror(errno));
    if (child)
        return child;
    control->main_process = getpid();
    set_variables();
    for (int i = 0; i < GIVEN_BACK; i++)
        signal(changed[i], before_us[i]);
    sigprocmask(SIG_SETMASK, mask, NULL);
    execv(path, words);
    /* A script without a first line that names its shell. */
    if (errno == ENOEXEC) {
        size_t count = 0;
        while (words[count])
            count++;
        char **shell = calloc(count + 2, sizeof *shell);
        if (shell) {
            memcpy(shell + 1, words, count * sizeof *words);
            shell[0] = "sh";
            shell[1] = (char *)path;
            execv("/bin/sh", shell);
        }
    }
    fprintf(stderr, "record: %s: %s\n", words[0], strerror(errno));
    _exit(NOT_RUNNABLE);
}

/* ---- what is said */

static double seconds(uint64_t nanoseconds) { return (double)nanoseconds / 1e9; }

static uint64_t now(void) {
    struct timespec t;
    clock_gettime(CLOCK_MONOTONIC, &t);
    return (uint64_t)t.tv_sec * 1000000000u + (uint64_t)t.tv_nsec;
}

static const char *reason(const struct slot *slot) {
    switch (atomic_load(&slot->why)) {
    case NO_THREAD: return "a 65th thread";
    case NO_NAME: return control->version == 2 ? "more than 4,294,967,295 names" : "a name past 65,535 (a trace of version 2 has more)";
    case NO_TRAY: return "a tray past 65,535 (--cross owner needs fewer)";
    case NO_BYTES: return "more than 67,108,864 bytes";
    case NO_FILE: return strerror(slot->error);
    case NO_MEMORY: return "no memory for the recorder";
    default: return "as many lines as were asked for";
    }
}

static uint32_t used_slots(void) {
    uint32_t used = atomic_load(&control->used);
    return used < SLOTS ? used : SLOTS;
}

/* Notes when a program ended: another has its number, by exec, or nobody has. */
static void note_end(struct slot *slot) {
    struct slot *last = &control->slots[used_slots()], *next = slot + 1;
    int process = atomic_load(&slot->process);
    while (next < last && atomic_load(&next->process) != process)
        next++;
    if (next < last && next->began)
        slot->ended = next->began;
    else if (kill(process, 0) && errno == ESRCH)
        slot->ended = now();
}

/* A trace that ended before its program is told of at once. */
static void tell_ends(void) {
    static bool told[SLOTS];
    for (uint32_t i = 0; i < used_slots(); i++) {
        struct slot *slot = &control->slots[i];
        int why = atomic_load(&slot->why);
        if (why == RUNS && slot->began && !slot->ended)
            note_end(slot);
        if (why == RUNS || why == AS_ASKED || told[i])
            continue;
        told[i] = true;
        errors += why == NO_FILE || why == NO_MEMORY;
        fprintf(stderr, "record: %s: the trace of %s ends after %.2f s: %s\n", slot->path, slot->program,
                seconds(slot->ended - slot->began), reason(slot));
    }
}

static void tell_count(uint64_t count, const char *what) {
    if (count)
        fprintf(stderr, "; %llu %s", (unsigned long long)count, what);
}

static void tell_summary(const struct slot *slot) {
    static const char *const names[] = {"malloc", "calloc", "realloc", "aligned", "free"};
    uint64_t lines = 0, calls = 0;
    for (int k = 0; k < KINDS; k++)
        lines += slot->lines[k];
    for (int k = 0; k <= FREE; k++)
        calls += slot->lines[k];
    fprintf(stderr, "record: %s: %s, %llu lines in %.2f s, %llu thread%s;", slot->path, slot->program,
            (unsigned long long)(lines - slot->loose_lines), seconds(slot->ended - slot->began),
            (unsigned long long)slot->threads, slot->threads == 1 ? "" : "s");
    for (int k = 0; k <= FREE; k++)
        fprintf(stderr, " %s %.1f%%", names[k], calls ? 100.0 * (double)slot->lines[k] / (double)calls : 0.0);
    fprintf(stderr, "; peak %llu blocks, %llu bytes; largest %llu", (unsigned long long)slot->peak_blocks,
            (unsigned long long)slot->peak_bytes, (unsigned long long)slot->largest);
    tell_count(slot->taken, "handed over");
    tell_count(slot->as_owner, "inexact: another thread's, written as the owner's");
    tell_count(slot->late, "inexact: a thread's end, written too late");
    tell_count(slot->refused, "left out: refused by the system");
    tell_count(slot->nested, "left out: out of a signal's handler");
    tell_count(slot->unknown, "left out: of blocks that weren't recorded");
    tell_count(slot->tuned, "left out: mallopt or malloc_trim");
    tell_count(slot->children, "left out: children by fork (--follow records them)");
    tell_count(atomic_load(&control->others), "left out: programs in children (--follow records them)");
    tell_count(slot->replaced, "left out: lines before an exec (--follow keeps them)");
    if (lines == slot->loose_lines)
        fputs("; it has a malloc of its own, or calls none", stderr);
    if (atomic_load(&slot->why) != RUNS)
        fprintf(stderr, "; ended early: %s", reason(slot));
    fputc('\n', stderr);
}

static bool tell_all(void) {
    bool any = false;
    for (uint32_t i = 0; i < used_slots(); i++) {
        struct slot *slot = &control->slots[i];
        if (!atomic_load(&slot->length))
            continue;
        any = true;
        if (!slot->ended)
            slot->ended = now();
        if (!finish_trace(slot)) {
            errors++;
            fprintf(stderr, "record: %s: not finished: %s\n", slot->path, strerror(errno));
        }
        tell_summary(slot);
    }
    if (atomic_load(&control->used) > SLOTS)
        fprintf(stderr, "record: %u programs more weren't recorded\n", atomic_load(&control->used) - SLOTS);
    return any;
}

/* ---- waiting */

/* Waits for the program, and where more than it is recorded for all that it started; the status is its own. */
static int wait_all(void) {
    struct timespec short_time = {0, 200000000};
    sigset_t child;
    int status = 0, got;
    bool ended = false;
    sigemptyset(&child);
    sigaddset(&child, SIGCHLD);
    for (;;) {
        pid_t one;
        while ((one = waitpid(-1, &got, WNOHANG)) > 0)
            if (one == program) {
                status = got;
                ended = true;
                program = 0;
            }
        if (ended && (one < 0 || !(control->follow || *control->only)))
            break;
        tell_ends();
        sigtimedwait(&child, NULL, &short_time);
    }
    tell_ends();
    return WIFEXITED(status) ? WEXITSTATUS(status) : 128 + WTERMSIG(status);
}

int main(int count, char **words) {
    char path[PATH_ROOM];
    sigset_t child, before;
    (void)count;
    change_signals();
    make_control();
    char **rest = read_words(words);
    find_program(rest[0], path);
    check_program(path);
    bool is_new = check_output(control->output);
    if (*control->places)
        check_output(control->places);
    sigemptyset(&child);
    sigaddset(&child, SIGCHLD);
    sigprocmask(SIG_BLOCK, &child, &before);
    if (control->follow || *control->only)
        prctl(PR_SET_CHILD_SUBREAPER, 1);
    program = launch(path, rest, &before);
    int status = wait_all();
    bool any = tell_all();
    unlink(control_path);
    if (!any && is_new)
        unlink(control->output);
    if (!any && !errors && status != NOT_RUNNABLE)
        fail(FAULT, "nothing was recorded: no program that was meant loads the library, or it has a malloc of its own");
    return errors ? FAULT : status;
}
