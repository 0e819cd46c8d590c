# Start-up, call routine and output for machines/rv32im.desc (see its header).
    .text
    .globl _start
_start:
    la s0,po_frames
    la t4,main
    jal t0,po_call
    li a7,93                    # exit(result)
    ecall

# Calls the unit at t4 with a frame of its own; the way back is t0.
po_call:
    addi sp,sp,-96
    sw ra,0(sp)
    sw t0,4(sp)
    sw s0,8(sp)
    sw a1,12(sp)
    sw a2,16(sp)
    sw a3,20(sp)
    sw a4,24(sp)
    sw t1,28(sp)
    sw t2,32(sp)
    sw t3,36(sp)
    sw a5,40(sp)
    sw a6,44(sp)
    sw a7,48(sp)
    sw s1,52(sp)
    sw s2,56(sp)
    sw s3,60(sp)
    sw s4,64(sp)
    sw s5,68(sp)
    sw s6,72(sp)
    sw s7,76(sp)
    sw s8,80(sp)
    sw s9,84(sp)
    sw s10,88(sp)
    sw s11,92(sp)
    addi s0,s0,1024             # a frame has 256 words
    sw a1,4(s0)
    sw a2,8(s0)
    sw a3,12(s0)
    sw a4,16(s0)
    jalr ra,0(t4)
    lw ra,0(sp)
    lw t0,4(sp)
    lw s0,8(sp)
    lw a1,12(sp)
    lw a2,16(sp)
    lw a3,20(sp)
    lw a4,24(sp)
    lw t1,28(sp)
    lw t2,32(sp)
    lw t3,36(sp)
    lw a5,40(sp)
    lw a6,44(sp)
    lw a7,48(sp)
    lw s1,52(sp)
    lw s2,56(sp)
    lw s3,60(sp)
    lw s4,64(sp)
    lw s5,68(sp)
    lw s6,72(sp)
    lw s7,76(sp)
    lw s8,80(sp)
    lw s9,84(sp)
    lw s10,88(sp)
    lw s11,92(sp)
    addi sp,sp,96
    sw a0,0(s0)                 # the result stands in the caller's word 0 too
    jr t0

# put(c) writes the byte c to standard output.
put:
    li a0,1
    addi a1,s0,4
    li a2,1
    li a7,64
    ecall
    li a0,0
    ret

    .bss
    .balign 16
po_frames:
    .space 1048576
    .text
