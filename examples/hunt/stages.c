/* Core 1 looks three times and takes for granted that it can't see three stages that follow each other. It can: if
   core 0 makes one step before each look. That takes five changes of the core that goes on. */
volatile int stage, seen;

void work(int me)
{
    if (me == 0) {
        stage = 1;
        stage = 2;
        stage = 3;
        stage = 4;
    } else {
        int first = stage, second = stage, third = stage;
        if (first == 1 && second == 2 && third == 3)
            seen = 1;
    }
}
