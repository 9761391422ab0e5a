/* Look, use, look. Core 0 serves 40 requests while `open` is 1. Core 1 closes after long work, and core 2 opens anew
   after longer work. Core 0 may be between its look and its use when core 1 closes. */
volatile int open = 1, served, used_closed, other1, other2;

void work(int me)
{
    if (me == 0) {
        for (int i = 0; i < 40; i++) {
            if (open) {
                served++;
                if (!open)
                    used_closed = 1;
            }
        }
    } else if (me == 1) {
        for (int i = 0; i < 60; i++)
            other1++;
        open = 0;
    } else {
        for (int i = 0; i < 90; i++)
            other2++;
        open = 1;
    }
}
