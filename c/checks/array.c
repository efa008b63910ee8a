/*
 * Requests blocks of many sizes and alignments from tcrx_static.c until its array is used up. A thousand processes do
 * this, and a thousand more, which then seal the storage. Each block must be aligned, lie in the array, and keep its
 * octets, so that two blocks that overlap are found. No block that fits may be refused, and a refused block must cut
 * nothing off the array. Once the storage is sealed, a request must stop the process by a trap, even a request for no
 * octets. The return of a block must not stop it.
 */
#define _POSIX_C_SOURCE 200809L
#include "../../dist/tcrx.h"
#include "expecting.h"

#include <signal.h>
#include <string.h>
#include <sys/wait.h>
#include <unistd.h>

typedef struct {
    bool given;
    void *at;
} rattle_block;

rattle_block rattle_alloc(size_t count, size_t alignment);
void rattle_dealloc(void *at);

enum { OCTETS = 100001, BLOCKS = 400, PROCESSES = 1000 };

TCRX_STATIC_STORAGE(OCTETS);

static struct { uint8_t *at; size_t count; } blocks[BLOCKS];

/* Fills the array with blocks. Returns whether each block met the conditions above. */
static bool fill(void) {
    bool good = true;
    for (size_t i = 0; i < BLOCKS; i++) {
        const size_t alignment = (size_t)1 << below(5), count = below(4) == 0 ? below(3000) : below(200);
        const size_t before = tcrx_storage_used();
        const rattle_block block = rattle_alloc(count, alignment);
        const size_t after = tcrx_storage_used();
        good = good && block.at != NULL;
        if (!block.given) {
            good = good && after == before && count + alignment > OCTETS - before;
            continue;
        }
        blocks[i].at = block.at;
        blocks[i].count = count;
        good = good && (uintptr_t)block.at % alignment == 0 && blocks[i].at >= tcrx_static_octets &&
               blocks[i].at + count <= tcrx_static_octets + OCTETS && after >= before + count && after < before + count + alignment;
        memset(block.at, (int)(i % 251), count);
    }
    for (size_t i = 0; i < BLOCKS; i++) {
        for (size_t k = 0; k < blocks[i].count; k++) good = good && blocks[i].at[k] == i % 251;
    }
    return good;
}

/* Returns the status of a process that fills the array. If `seals` is set, the process then seals the array, frees a
 * block, and requests one more. */
static int status_of(uint64_t seed, bool seals) {
    const pid_t child = fork();
    if (child == 0) {
        state = UINT64_C(88172645463325252) + seed;
        const bool good = fill();
        if (seals) {
            tcrx_storage_seal();
            rattle_dealloc(blocks[0].at);
            _exit(good && !rattle_alloc(seed % 2, 1 + seed % 2).given ? 0 : 1);
        }
        _exit(good ? 0 : 1);
    }
    int status = 0;
    return child > 0 && waitpid(child, &status, 0) == child ? status : -1;
}

/* Returns whether the process ended by a trap, or by a refusal if the trap is defined as one that returns. */
static bool is_stopped(int status) {
#ifdef RETURNS
    return status == 0;
#else
    return WIFSIGNALED(status) && (WTERMSIG(status) == SIGILL || WTERMSIG(status) == SIGTRAP);
#endif
}

int main(void) {
    unsigned long good = 0, trapped = 0;
    for (uint64_t seed = 0; seed < PROCESSES; seed++) {
        good += status_of(seed, false) == 0 ? 1 : 0;
        trapped += is_stopped(status_of(seed, true)) ? 1 : 0;
    }
    printf("%lu arrays filled correctly and %lu traps after the seal, of %d each\n", good, trapped, PROCESSES);
    return good == PROCESSES && trapped == PROCESSES ? 0 : 1;
}
