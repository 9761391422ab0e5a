/* Double-checked initialization whose flag goes up too early: a core that sees it reads a table that is half filled. */
#include "amo.h"

volatile int lock, made, table[4], sum[16];

void make(void)
{
    if (made)
        return;
    enter(&lock);
    if (!made) {
        table[0] = 1;
        table[1] = 2;
        made = 1;                       /* should come last */
        table[2] = 3;
        table[3] = 4;
    }
    leave(&lock);
}

void work(int me)
{
    make();
    sum[me] = table[0] + table[1] + table[2] + table[3];
}
