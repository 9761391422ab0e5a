/* Atomic memory operations, and a lock that is one word: 0 where nobody holds it. */
static inline int swap(volatile int *word, int value)
{
    int old;
    __asm__ volatile ("amoswap.w %0, %2, (%1)" : "=r"(old) : "r"(word), "r"(value) : "memory");
    return old;
}

static inline int fetch_add(volatile int *word, int value)
{
    int old;
    __asm__ volatile ("amoadd.w %0, %2, (%1)" : "=r"(old) : "r"(word), "r"(value) : "memory");
    return old;
}

static inline void enter(volatile int *lock)
{
    while (swap(lock, 1))
        ;
}

static inline void leave(volatile int *lock)
{
    *lock = 0;
}
