/* A deadlock: two cores take two locks, in two orders. Each may hold one and wait for the other for good. */
#include "amo.h"

volatile int a, b, moved[2];

void work(int me)
{
    for (int i = 0; i < 4; i++) {
        volatile int *first = me == 0 ? &a : &b, *second = me == 0 ? &b : &a;
        enter(first);
        moved[me]++;
        enter(second);
        moved[me]++;
        leave(second);
        leave(first);
    }
}
