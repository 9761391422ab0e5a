/* A missed wakeup. Core 1 looks whether there is something to do, finds nothing, and goes to sleep. In between core 0
   may make it ready, and find nobody asleep: then nobody wakes core 1. */
volatile int ready, asleep, signal, got;

void work(int me)
{
    if (me == 0) {
        ready = 1;
        if (asleep)
            signal = 1;
    } else {
        if (!ready) {
            asleep = 1;
            while (!signal)
                ;
        }
        got = ready;
    }
}
