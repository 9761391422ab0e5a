/* An order that is taken for granted. Core 0 fills a table. Core 1 has much else to do first, and reads the last entry
   without asking whether it is there. */
volatile int table[20], sum, work_done;

void work(int me)
{
    if (me == 0) {
        for (int i = 0; i < 20; i++)
            table[i] = i;
    } else {
        for (int i = 0; i < 150; i++)
            work_done = work_done + 1;
        sum = table[19];
    }
}
