/* threads.c: the header's first example, cut out of it, called by four threads at once. Half of them ask for a caller who may, by a listing that
 * opens the path; the others for one who may not, by a listing that closes it. Whoever is denied alone must be denied beside the others. */
#include <pthread.h>
#include <stdio.h>
#include <string.h>
#include "../include/budquarry.h"
#include "example.h"

enum { THREADS = 4, CALLS = 500000 };

static const struct asked {
    const char *listing, *roles;
    int granted;
} asked[2] = {{"constraints\t1\nrole\tassessor\nconstraint\topen\ncollection\npattern\t/clock/*\nend\n", "assessor\n", 1},
              {"constraints\t1\nrole\tassessor\nconstraint\tauth\ncollection\npattern\t/clock/*\nend\n", "assessor\n", 0}};

static void *ask(void *of) {
    static size_t wrong[THREADS];
    size_t *mine = &wrong[*(const int *)of];
    const struct asked *a = &asked[*(const int *)of % 2];
    for (int i = 0; i < CALLS; i++)
        *mine += may_write_offset((const uint8_t *)a->listing, strlen(a->listing), (const uint8_t *)a->roles, strlen(a->roles)) != a->granted;
    return mine;
}

int main(void) {
    pthread_t thread[THREADS];
    int number[THREADS];
    size_t wrong = 0;
    for (int i = 0; i < THREADS; i++) {
        number[i] = i;
        if (pthread_create(&thread[i], NULL, ask, &number[i])) return perror("threads"), 1;
    }
    for (int i = 0; i < THREADS; i++) {
        void *mine;
        pthread_join(thread[i], &mine);
        wrong += *(size_t *)mine;
    }
    printf("threads: %zu of %d answers wrong\n", wrong, THREADS * CALLS);
    return wrong != 0;
}
