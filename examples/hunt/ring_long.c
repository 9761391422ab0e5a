/* As ring.c, with eight words and 100 sends. The consumer folds what it reads into a checksum. */
volatile unsigned result, ring[8], head, tail;

void work(int me)
{
    if (me == 0) {
        unsigned x = 1;
        for (unsigned i = 0; i < 100; i++) {
            while (head - tail >= 8)
                ;
            x = (x << 1) ^ (x >> 31) ^ i;
            unsigned h = head;
            head = h + 1;               /* should come after the next line */
            ring[h & 7] = x;
        }
    } else {
        unsigned sum = 0;
        for (unsigned i = 0; i < 100; i++) {
            while (head == tail)
                ;
            sum = (sum << 3) + (sum >> 29) + ring[tail & 7];
            tail = tail + 1;
        }
        result = sum;
    }
}
