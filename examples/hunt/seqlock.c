/* A sequence lock whose reader looks once. The writer makes the number odd while it writes two words. The reader waits
   until the number is even, and doesn't look again after its reads: a write that began in between stays unseen. */
volatile int number, left, right, bad;

void work(int me)
{
    if (me == 0)
        for (int i = 1; i <= 3; i++) {
            number = number + 1;
            left = i;
            right = i;
            number = number + 1;
        }
    else
        for (int i = 0; i < 3; i++) {
            while (number & 1)
                ;
            int l = left, r = right;    /* number should be looked at again */
            if (l != r)
                bad = 1;
        }
}
