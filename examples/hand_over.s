# A word is handed over: core 0 stores 7 to it and loads it again, core 1 loads it and then stores 1 to it.
#
# What to look at: three pairs of accesses conflict, and two edges say it all. The third pair, the two stores,
# needs none, since core 1's load lies between them.
#
#   rtr record --cores 2 --words 32 --choices 00000001010101010101010101010101
#
# With --choices 010101010000000101010100 core 1 loads first, and the edges turn round.

        bne     a0, zero, second
        addi    t0, zero, 7
        sw      t0, 64(zero)
        lw      t1, 64(zero)
        ecall
second: lw      t2, 64(zero)
        sw      a0, 64(zero)
        ecall
