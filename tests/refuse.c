// A shim that is preloaded into a program. It forks a child for each growth before the program's `main`. A growth is a call of `malloc`
// or `realloc`. In the child for growth N this call returns no memory. The last child is the one that has no growth of its number.
//
// The names of the files begin with FRONT, the value of REFUSE_EACH. The child for growth N writes to FRONT.N.out and FRONT.N.err, and
// reads the file that REFUSE_INPUT names. FRONT.runs has a line for each child: its growth, its status, and 1 if it came to the growth,
// or else 0.
#define _GNU_SOURCE
#include <dlfcn.h>
#include <errno.h>
#include <fcntl.h>
#include <stdatomic.h>
#include <stdio.h>
#include <stdlib.h>
#include <sys/mman.h>
#include <sys/wait.h>
#include <unistd.h>

static atomic_long growths;
static long refused_growth;
static atomic_int *met;

static int opened(const char *name, int flags) {
    int file = open(name, flags, 0600);
    if (file < 0) _exit(125);
    return file;
}

static void stand_for(int descriptor, const char *name, int flags) {
    int file = opened(name, flags);
    if (dup2(file, descriptor) < 0 || close(file) < 0) _exit(125);
}

static void begin_child(const char *front, long growth) {
    char name[4096];
    const char *input = getenv("REFUSE_INPUT");
    stand_for(STDIN_FILENO, input ? input : "/dev/null", O_RDONLY);
    snprintf(name, sizeof name, "%s.%ld.out", front, growth);
    stand_for(STDOUT_FILENO, name, O_CREAT | O_TRUNC | O_WRONLY);
    snprintf(name, sizeof name, "%s.%ld.err", front, growth);
    stand_for(STDERR_FILENO, name, O_CREAT | O_TRUNC | O_WRONLY);
    atomic_store(&growths, 0);
    refused_growth = growth;
}

static int status_of(pid_t child) {
    int status;
    if (waitpid(child, &status, 0) != child) _exit(125);
    return WIFEXITED(status) ? WEXITSTATUS(status) : 128 + WTERMSIG(status);
}

__attribute__((constructor)) static void start(void) {
    char name[4096];
    const char *front = getenv("REFUSE_EACH");
    if (!front) return;
    met = mmap(NULL, sizeof *met, PROT_READ | PROT_WRITE, MAP_SHARED | MAP_ANONYMOUS, -1, 0);
    if (met == MAP_FAILED) _exit(125);
    snprintf(name, sizeof name, "%s.runs", front);
    int runs = opened(name, O_CREAT | O_TRUNC | O_WRONLY | O_CLOEXEC);
    for (long growth = 1;; growth++) {
        atomic_store(met, 0);
        pid_t child = fork();
        if (child < 0) _exit(125);
        if (child == 0) {
            close(runs);
            begin_child(front, growth);
            return;
        }
        int status = status_of(child);
        dprintf(runs, "%ld %d %d\n", growth, status, atomic_load(met));
        if (!atomic_load(met)) _exit(0);
    }
}

static int is_refused(void) {
    if (!refused_growth || atomic_fetch_add(&growths, 1) + 1 != refused_growth) return 0;
    atomic_store(met, 1);
    errno = ENOMEM;
    return 1;
}

void *malloc(size_t size) {
    static void *(*real)(size_t);
    if (!real) real = dlsym(RTLD_NEXT, "malloc");
    return is_refused() ? NULL : real(size);
}

void *realloc(void *block, size_t size) {
    static void *(*real)(void *, size_t);
    if (!real) real = dlsym(RTLD_NEXT, "realloc");
    return is_refused() ? NULL : real(block, size);
}
