# Start-up, call routine and output for machines/mips32.desc (see its header).
    .text
    .globl _start
_start:
    la $s8,po_frames
    la $t7,main
    la $v1,po_call
    jalr $t6,$v1
    move $a0,$v0                # exit(result)
    li $v0,4001
    syscall

# Calls the unit at t7 with a frame of its own; the way back is t6.
po_call:
    addiu $sp,$sp,-88
    sw $ra,0($sp)
    sw $t6,4($sp)
    sw $s8,8($sp)
    sw $a0,12($sp)
    sw $a1,16($sp)
    sw $a2,20($sp)
    sw $a3,24($sp)
    sw $t0,28($sp)
    sw $t1,32($sp)
    sw $t2,36($sp)
    sw $t3,40($sp)
    sw $t4,44($sp)
    sw $t5,48($sp)
    sw $s0,52($sp)
    sw $s1,56($sp)
    sw $s2,60($sp)
    sw $s3,64($sp)
    sw $s4,68($sp)
    sw $s5,72($sp)
    sw $s6,76($sp)
    sw $s7,80($sp)
    addiu $s8,$s8,1024          # a frame has 256 words
    sw $a0,4($s8)
    sw $a1,8($s8)
    sw $a2,12($s8)
    sw $a3,16($s8)
    jalr $t7
    lw $ra,0($sp)
    lw $t6,4($sp)
    lw $s8,8($sp)
    lw $a0,12($sp)
    lw $a1,16($sp)
    lw $a2,20($sp)
    lw $a3,24($sp)
    lw $t0,28($sp)
    lw $t1,32($sp)
    lw $t2,36($sp)
    lw $t3,40($sp)
    lw $t4,44($sp)
    lw $t5,48($sp)
    lw $s0,52($sp)
    lw $s1,56($sp)
    lw $s2,60($sp)
    lw $s3,64($sp)
    lw $s4,68($sp)
    lw $s5,72($sp)
    lw $s6,76($sp)
    lw $s7,80($sp)
    addiu $sp,$sp,88
    sw $v0,0($s8)               # the result stands in the caller's word 0 too
    jr $t6

# put(c) writes the byte c to standard output. The low byte of a word is its last one.
put:
    li $a0,1
    addiu $a1,$s8,7
    li $a2,1
    li $v0,4004
    syscall
    li $v0,0
    jr $ra

    .bss
    .balign 16
po_frames:
    .space 1048576
    .text
