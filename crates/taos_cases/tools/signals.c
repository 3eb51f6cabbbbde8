/* Preloaded: SIGUSR1 is handled, by nothing, and cuts short the system call that it comes in. */
#include <signal.h>
#include <string.h>

static void nothing(int number) {
    (void)number;
}

__attribute__((constructor)) static void handle(void) {
    struct sigaction action;
    memset(&action, 0, sizeof action);
    action.sa_handler = nothing;
    sigaction(SIGUSR1, &action, 0);
}
