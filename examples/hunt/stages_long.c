/* As stages.c, with other work between the stages and between the looks. */
volatile int stage, seen, work_done[2];

static void other(int me)
{
    for (int i = 0; i < 10; i++)
        work_done[me]++;
}

void work(int me)
{
    if (me == 0) {
        stage = 1;
        other(me);
        stage = 2;
        other(me);
        stage = 3;
        other(me);
        stage = 4;
    } else {
        int first = stage;
        other(me);
        int second = stage;
        other(me);
        int third = stage;
        if (first == 1 && second == 2 && third == 3)
            seen = 1;
    }
}
