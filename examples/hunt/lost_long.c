/* Eight cores, 60 rounds each of much work of their own. Each core counts under a lock, but once without it: that count
   may be lost, or lose another one. */
#include "amo.h"

volatile int lock, counter, mine[8 * 4];

void work(int me)
{
    for (int i = 0; i < 60; i++) {
        for (int k = 0; k < 5; k++)
            mine[4 * me] += k;
        if (i == 7 * me + 3)
            counter = counter + 1;      /* the lock is forgotten */
        else {
            enter(&lock);
            counter = counter + 1;
            leave(&lock);
        }
    }
}
