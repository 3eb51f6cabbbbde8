/* Turns a second on one pthread_mutex_t: one thread locks it, adds one, and unlocks it. */
#include <pthread.h>
#include <stdint.h>
#include <stdio.h>
#include <time.h>

enum { TURNS = 200000, RUNS = 10 };

static pthread_mutex_t lock = PTHREAD_MUTEX_INITIALIZER;
static volatile uint64_t count;

static double seconds(void) {
    struct timespec now;
    clock_gettime(CLOCK_MONOTONIC, &now);
    return now.tv_sec + now.tv_nsec * 1e-9;
}

/* The C library takes no atomic step while there is but one thread: this one ends at once. */
static void *nothing(void *none) { return none; }

int main(void) {
    pthread_t other;
    if (pthread_create(&other, NULL, nothing, NULL) != 0) return 1;
    pthread_join(other, NULL);
    double best = 0;
    for (int run = 0; run < RUNS; run++) {
        double start = seconds();
        for (int turn = 0; turn < TURNS; turn++) {
            pthread_mutex_lock(&lock);
            count++;
            pthread_mutex_unlock(&lock);
        }
        double rate = TURNS / (seconds() - start);
        if (rate > best) best = rate;
    }
    printf("%.0f\n", best);
    return 0;
}
