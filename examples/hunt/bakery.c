/* Lamport's bakery lock for three cores, two rounds each, without its doors: nobody waits while another core draws its
   number. Two cores may draw the same one. The higher core goes in if the lower one hasn't written its number yet. The
   lower one then goes in as well, since it comes first at equal numbers. */
volatile unsigned number[4], counter;

void work(unsigned me)
{
    for (int round = 0; round < 2; round++) {
        unsigned most = 0;
        for (int i = 0; i < 3; i++) {
            unsigned n = number[i];
            if (n > most)
                most = n;
        }
        number[me] = most + 1;
        for (unsigned i = 0; i < 3; i++)
            for (;;) {
                unsigned n = number[i];
                if (n == 0 || n > number[me] || (n == number[me] && i >= me))
                    break;
            }
        counter = counter + 1;
        number[me] = 0;
    }
}
