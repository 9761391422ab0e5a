/* As bakery.c, for four cores with 20 rounds each. Each core closes its door while it draws its number, but nobody
   looks at the doors. */
#define CORES 4
#define APART 4                         /* each core's words have a block of the cache of their own */

volatile unsigned counter, choosing[CORES * APART], number[CORES * APART];

void work(unsigned me)
{
    for (int round = 0; round < 20; round++) {
        choosing[me * APART] = 1;
        unsigned most = 0;
        for (int i = 0; i < CORES; i++) {
            unsigned n = number[i * APART];
            if (n > most)
                most = n;
        }
        number[me * APART] = most + 1;
        choosing[me * APART] = 0;
        for (unsigned i = 0; i < CORES; i++)
            for (;;) {                  /* should wait first while choosing[i * APART] is 1 */
                unsigned n = number[i * APART];
                if (n == 0 || n > number[me * APART] || (n == number[me * APART] && i >= me))
                    break;
            }
        counter = counter + 1;
        number[me * APART] = 0;
    }
}
