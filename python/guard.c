/* A mapped file that becomes shorter takes its pages along: whoever reads them then gets SIGBUS, and the process ends without a word. With this
 * guard the pages that are gone read as zeros instead, and the mapping is marked as cut, which the module asks after each of its calls. A SIGBUS from
 * anywhere else goes to the handler that was there before.
 */
#include <signal.h>
#include <stdatomic.h>
#include <stddef.h>
#include <stdint.h>
#include <sys/mman.h>
#include <unistd.h>

/* Mappings that are watched: from 0 is a free place. */
static struct {
    atomic_uintptr_t from;
    atomic_size_t length;
    atomic_int cut;
} watched[4096];
static const int most = sizeof watched / sizeof *watched;
static struct sigaction before;

static void handle(int number, siginfo_t *fault, void *context) {
    uintptr_t page = (uintptr_t)sysconf(_SC_PAGESIZE), at = (uintptr_t)fault->si_addr;
    for (int i = 0; i < most; i++) {
        uintptr_t from = watched[i].from, end = from + watched[i].length;
        if (from == 0 || at < from || at >= end) continue;
        uintptr_t start = at - at % page;
        if (mmap((void *)start, end - start, PROT_READ, MAP_PRIVATE | MAP_ANONYMOUS | MAP_FIXED, -1, 0) == MAP_FAILED) break;
        watched[i].cut = 1;
        return;
    }
    if (before.sa_flags & SA_SIGINFO) before.sa_sigaction(number, fault, context);
    else if (before.sa_handler != SIG_DFL && before.sa_handler != SIG_IGN) before.sa_handler(number);
    else {
        sigaction(SIGBUS, &before, NULL);
        if (fault->si_code <= 0) raise(number); /* it was sent: nothing faults again behind this */
    }
}

/* The number of a mapping that is watched from now on, or -1 where there is no place for it. */
int guard_watch(const void *from, size_t length) {
    struct sigaction now = {0}, there;
    now.sa_sigaction = handle;
    now.sa_flags = SA_SIGINFO | SA_ONSTACK | SA_NODEFER;
    sigemptyset(&now.sa_mask);
    /* Asked each time: somebody may have put a handler over this one. */
    if (sigaction(SIGBUS, NULL, &there) != 0) return -1;
    if (!(there.sa_flags & SA_SIGINFO) || there.sa_sigaction != handle) {
        before = there;
        if (sigaction(SIGBUS, &now, NULL) != 0) return -1;
    }
    for (int i = 0; i < most; i++) {
        uintptr_t none = 0;
        if (!atomic_compare_exchange_strong(&watched[i].from, &none, 1)) continue; /* taken: no page lies at 1 */
        watched[i].cut = 0;
        watched[i].length = length;
        watched[i].from = (uintptr_t)from;
        return i;
    }
    return -1;
}

/* Whether a page of it was gone when it was read. */
int guard_cut(int number) { return number >= 0 && number < most && watched[number].cut; }

void guard_forget(int number) {
    if (number < 0 || number >= most) return;
    watched[number].length = 0;
    watched[number].from = 0;
}
