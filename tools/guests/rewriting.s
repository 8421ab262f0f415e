# In each of ten rounds the instruction at `here` adds 1 or 2, and the guest writes the other one over it: 15 in all. The
# exit status is that and the lowest bit of the secret byte.
        addi a0, x0, 3          # descriptor 3 is the secret
        la   a1, byte
        addi a2, x0, 1
        addi a7, x0, 63         # read
        ecall
        la   s0, here
        lui  s1, 0x300          # the bits in which the two instructions differ
        addi s2, x0, 10
        addi s3, x0, 0
here:   addi s3, s3, 1
        lw   t0, 0(s0)
        xor  t0, t0, s1
        sw   t0, 0(s0)
        addi s2, s2, -1
        bne  s2, x0, here
        la   a1, byte
        lbu  a0, 0(a1)
        andi a0, a0, 1
        add  a0, a0, s3
        addi a7, x0, 93         # exit
        ecall
byte:   .zero 4
