/* Look, then act. Core 0 looks whether the file is open, and then writes. Core 1 closes it after long work. The bug
   shows only if core 0 is held between its last look and its last write for all of this work. */
volatile int open = 1, writes, after_close, work_done;

void work(int me)
{
    if (me == 0) {
        for (int i = 0; i < 5; i++)
            if (open)
                writes = writes + open; /* open may be 0 by now */
            else
                after_close = 1;
    } else {
        for (int i = 0; i < 100; i++)
            work_done = work_done + 1;
        open = 0;
    }
}
