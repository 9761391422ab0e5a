/* The ABA problem on a stack. `pop` looks at the head and at the node behind it, and makes that node the head if the
   head is still the same. Between look and exchange core 1 pops two nodes and pushes the first one again. The head is
   the same then, but core 1 has the node behind it: core 0 makes that node the head, and both use it. */
#include "amo.h"

struct node { int next; int used; };

/* nodes 1, 2 and 3, by number; 0 is the end */
volatile struct node nodes[4] = { { 0, 0 }, { 2, 0 }, { 3, 0 }, { 0, 0 } };
volatile int head = 1, guard, twice;

static int exchange_if(volatile int *word, int old, int new)
{
    enter(&guard);
    int same = *word == old;
    if (same)
        *word = new;
    leave(&guard);
    return same;
}

int pop(void)
{
    for (;;) {
        int top = head;
        if (!top)
            return 0;
        int next = nodes[top].next;
        if (exchange_if(&head, top, next))
            return top;
    }
}

void push(int top)
{
    for (;;) {
        int old = head;
        nodes[top].next = old;
        if (exchange_if(&head, old, top))
            return;
    }
}

void use(int node)
{
    if (node && fetch_add(&nodes[node].used, 1))
        twice = node;
}

void work(int me)
{
    if (me == 0) {
        use(pop());
        use(pop());
    } else {
        int first = pop();
        int second = pop();
        use(second);
        if (first)
            push(first);
    }
}
