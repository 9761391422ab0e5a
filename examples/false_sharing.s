# Each core counts to three in a word of its own; the two words lie in one block.
#
# What to look at: the block goes to and fro between the caches, and yet the log is empty, since no two accesses of one
# word conflict. Every order of the two programs gives the same.
#
#   rtr record --cores 2 --words 32 --seed 1

        slli    t1, a0, 2
        addi    t0, zero, 3
again:  lw      t2, 64(t1)
        addi    t2, t2, 1
        sw      t2, 64(t1)
        addi    t0, t0, -1
        bne     t0, zero, again
        ecall
