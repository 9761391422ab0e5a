/* Four cores count 40 times each under a lock, and once each without it: that count may be lost, or lose another
   one. */
#include "amo.h"

volatile int lock, counter;

void work(int me)
{
    for (int i = 0; i < 41; i++)
        if (i == 10 + 7 * me) {
            counter = counter + 1;      /* the lock is forgotten */
        } else {
            enter(&lock);
            counter = counter + 1;
            leave(&lock);
        }
}
