/* Three cores and one account. Core 0 pays in if it is open, core 1 closes it, and core 2 opens it anew with nothing
   in it. Core 2 takes for granted that the account stays empty meanwhile. Yet core 0 may have looked before the
   closing, or look as soon as it is open, and pay in. */
volatile int open = 1, money = 10, given, lost;

void work(int me)
{
    if (me == 0) {                      /* pays in */
        if (open) {
            int m = money;
            money = m + 5;
            given = 5;
        }
    } else if (me == 1) {               /* closes */
        open = 0;
        int m = money;
        money = 0;
        lost = m;
    } else {                            /* opens anew, with nothing in it */
        if (!open && money == 0) {
            open = 1;
            if (money != 0)
                lost = -1;
        }
    }
}
