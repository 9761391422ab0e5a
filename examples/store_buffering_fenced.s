# Each core stores 1 to a word of its own, waits at a FENCE until the store is written, and then loads the other's.
#
# What to look at: a store that waits in its core's buffer isn't passed by the load any more,
# so that on cores with store buffers too at least one load gives 1, whatever the choices.
# Under seed 0 core 0's gives 0, and one edge says why.
#
#   rtr tsorun --cores 2 --words 64 --seed 0 --loads
#
# It is store_buffering.s with one instruction more.

        slli    t1, a0, 6
        addi    t0, zero, 128
        sub     t0, t0, t1
        addi    t2, zero, 1
        sw      t2, 64(t1)
        fence
        lw      t3, 0(t0)
        ecall
