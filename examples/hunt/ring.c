/* A ring of four words, with one producer and one consumer. The head goes up before the word is written, so the
   consumer may read the word that stood there before. */
volatile unsigned ring[4], head, tail, sum;

void work(int me)
{
    if (me == 0)
        for (unsigned i = 0; i < 8; i++) {
            while (head - tail >= 4)
                ;
            unsigned h = head;
            head = h + 1;               /* should come after the next line */
            ring[h & 3] = i + 1;
        }
    else
        for (unsigned i = 0; i < 8; i++) {
            while (head == tail)
                ;
            sum = sum + ring[tail & 3];
            tail = tail + 1;
        }
}
