// What the words cost at least: `atomics WHAT THREADS TIMES`.
// visit: a fetch_add and a fetch_sub of one word; look: a load of one.
#include <pthread.h>
#include <stdatomic.h>
#include <stdint.h>
#include <stdlib.h>
#include <string.h>

static _Atomic uint64_t word;
static long times;

static void *visit(void *none) {
    uint64_t seen = 0;
    for (long i = times; i > 0; i--) {
        seen += atomic_fetch_add(&word, 1);
        atomic_fetch_sub(&word, 1);
    }
    return seen == 1 ? none : 0;
}

static void *look(void *none) {
    uint64_t seen = 0;
    for (long i = times; i > 0; i--) seen += atomic_load(&word);
    return seen == 1 ? none : 0;
}

int main(int count, char **words) {
    pthread_t threads[4];
    if (count < 4) return 2;
    void *(*work)(void *) = strcmp(words[1], "look") == 0 ? look : visit;
    int many = atoi(words[2]) < 4 ? atoi(words[2]) : 4;
    times = atol(words[3]);
    for (int i = 0; i < many; i++) pthread_create(&threads[i], 0, work, 0);
    for (int i = 0; i < many; i++) pthread_join(threads[i], 0);
    return 0;
}
