/* Sixteen cores bring a number each, meet, add up what all have brought, and meet again. */
#define CORES 16

volatile unsigned brought[CORES], sum[CORES];
volatile unsigned char here[CORES];
volatile unsigned gate;

void meet(unsigned me, unsigned round)
{
    here[me] = round;
    if (me == 0) {
        for (int core = 0; core < CORES; core++)
            while (here[core] != round)
                ;
        gate = round;
    }
    while (gate != round)
        ;
}

void work(unsigned me)
{
    unsigned total = 0;
    brought[me] = me + 1;
    meet(me, 1);
    for (int core = 0; core < CORES; core++)
        total += brought[core];
    sum[me] = total;
    meet(me, 2);
}
