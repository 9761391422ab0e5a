/* Check, then act: each of the two is under the lock, but not both together. Two cores may both find that 100 is enough
   for 60, and both take it. */
#include "amo.h"

volatile int lock, balance = 100, paid[16];

int enough(int sum)
{
    enter(&lock);
    int yes = balance >= sum;
    leave(&lock);
    return yes;
}

void work(int me)
{
    if (enough(60)) {
        enter(&lock);
        balance = balance - 60;
        leave(&lock);
        paid[me] = 60;
    }
}
