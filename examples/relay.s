# Core 0 fills two hundred words, one after the other; core 1 begins later, and adds them up.
#
# What to look at: core 1 is always behind, so each load reads what core 0 stored. Each pair needs an edge of its own,
# since an earlier store says nothing of a later load: two hundred edges. They follow one another in equal strides, so
# that the regulated log says all of them in one vector.
#
#   rtr record --cores 2 --words 512 --seed 0
#
# The log isn't shorter where cores meet by chance, as in lost_update.s.

        addi    t0, zero, 200           # words left
        addi    t1, zero, 1024          # the next word
        bne     a0, zero, behind
fill:   sw      t0, 0(t1)
        addi    t1, t1, 4
        addi    t0, t0, -1
        bne     t0, zero, fill
        ecall
behind: addi    t2, zero, 400           # core 1 begins later
wait:   addi    t2, t2, -1
        bne     t2, zero, wait
sum:    lw      t3, 0(t1)
        add     t4, t4, t3
        addi    t1, t1, 4
        addi    t0, t0, -1
        bne     t0, zero, sum
        ecall
