/* A barrier for three cores that is set back too early: the first core that sees all three here says that nobody is. A
   core that hasn't looked by then waits for good. */
#include "amo.h"

volatile int here, gone[3], first[3];

void meet(void)
{
    fetch_add(&here, 1);
    while (here < 3)
        ;
    here = 0;                           /* a slow core still waits for 3 */
}

void work(int me)
{
    first[me] = 1;
    meet();
    gone[me] = 1;
}
