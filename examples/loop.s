# A loop of a hundred million instructions, by which the machine's speed is measured (docs/MEASUREMENTS.md).
        .option norvc
        .option norelax
        .globl _start
        .text
_start: la   x8,place
        lui  x5,2441                    # ten million turns
        addi x5,x5,1664
turn:   ld   x6,0(x8)
        add  x7,x6,x5
        xor  x7,x7,x6
        slli x7,x7,3
        mul  x7,x7,x5
        sltu x6,x7,x5
        sd   x7,0(x8)
        addi x5,x5,-1
        addi x6,x6,1
        bne  x5,x0,turn
        addi x10,x0,0
        addi x17,x0,93                  # the call that ends the program
        ecall
        .data
place:  .dword 1
