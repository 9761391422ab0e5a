/* Peterson's lock with one wrong line: each core gives the turn to itself. So the core that comes second finds the turn
   its own, and goes in although the first one is in. */
volatile int flag[2], turn, counter;

void work(int me)
{
    for (int i = 0; i < 3; i++) {
        flag[me] = 1;
        turn = me;                      /* should be 1 - me */
        while (flag[1 - me] && turn == 1 - me)
            ;
        counter = counter + 1;
        flag[me] = 0;
    }
}
