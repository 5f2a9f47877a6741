/* Rounds of so much work each, shared out to threads that are started and joined anew in each round. */

#include <pthread.h>
#include <stdint.h>
#include <stdio.h>
#include <time.h>

static double now(void) {
    struct timespec t;
    clock_gettime(CLOCK_MONOTONIC, &t);
    return t.tv_sec + t.tv_nsec * 1e-9;
}

static void *work(void *steps) {
    uint64_t x = 1;
    for (uintptr_t i = 0; i < (uintptr_t)steps; i++) {
        x = x * 6364136223846793005u + 1;
        __asm__ volatile("" : "+r"(x));
    }
    return NULL;
}

static double rounds(int count, int threads, uintptr_t steps) {
    double begun = now();
    for (int i = 0; i < count; i++) {
        pthread_t others[4];
        for (int t = 1; t < threads; t++)
            pthread_create(&others[t], NULL, work, (void *)(steps / threads));
        work((void *)(steps / threads));
        for (int t = 1; t < threads; t++)
            pthread_join(others[t], NULL);
    }
    return now() - begun;
}

int main(void) {
    double begun = now();
    work((void *)400000000);
    double a_micro = 400000000 / ((now() - begun) * 1e6);
    int micros[] = {20, 50, 100, 200, 500, 1000};
    printf("microseconds a round       2       4\n");
    for (int m = 0; m < 6; m++) {
        double least[3] = {1e9, 1e9, 1e9};
        for (int turn = 0; turn < 3; turn++)
            for (int k = 0; k < 3; k++) {
                double took = rounds(500000 / micros[m], 1 << k, (uintptr_t)(micros[m] * a_micro));
                least[k] = took < least[k] ? took : least[k];
            }
        printf("%-22d %5.2f   %5.2f\n", micros[m], least[1] / least[0], least[2] / least[0]);
    }
    return 0;
}
