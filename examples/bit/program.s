# The guest of this folder: it reads one secret byte and exits with its lowest bit as status.
# `flowcheck asm program.s >program` makes the program file.
        addi a0, x0, 3          # descriptor 3 is the secret
        lui  a1, 0x11           # to address 0x00011000
        addi a2, x0, 1          # one byte
        addi a7, x0, 63         # read
        ecall
        lbu  a0, 0(a1)
        andi a0, a0, 1          # keep its lowest bit
        addi a7, x0, 93         # exit with it as status
        ecall
