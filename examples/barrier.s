# Three cores meet at a barrier: each stores its number and one more, comes to the barrier by an AMO, waits until all
# have come, and then loads what its neighbour stored.
#
# What to look at: each load gives what was stored, under every schedule. The edges between the AMOs and the loads of
# the barrier's word imply the order of each store and the neighbour's load, so that these need no edge of their own.
#
#   rtr run --cores 3 --words 64 --seed 1 --loads

        addi    t0, a0, 1
        slli    t1, a0, 4
        sw      t0, 64(t1)              # a word for each core, in a block of its own
        addi    t2, zero, 128
        addi    s0, zero, 1
        amoadd.w zero, s0, (t2)         # one more has come
        addi    s1, zero, 3
wait:   lw      a1, 128(zero)
        bne     a1, s1, wait
        addi    t1, t1, 16              # the neighbour's word, that of core 0 for core 2
        addi    a2, zero, 48
        bne     t1, a2, load
        addi    t1, zero, 0
load:   lw      a3, 64(t1)
        ecall
