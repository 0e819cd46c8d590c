# Start-up, call routine and output for machines/ppc32.desc (see its header).
    .text
    .globl _start
_start:
    lis r31,po_frames@h
    ori r31,r31,po_frames@l
    lis r12,main@h
    ori r12,r12,main@l
    bl po_call
    li r0,1                     # exit(result)
    sc

# Calls the unit at r12 with a frame of its own; the way back is lr, and the caller's own way back is r11.
po_call:
    mflr r0
    stwu r0,-112(r1)
    stw r11,4(r1)
    stw r31,8(r1)
    stw r4,12(r1)
    stw r5,16(r1)
    stw r6,20(r1)
    stw r7,24(r1)
    stw r8,28(r1)
    stw r9,32(r1)
    stw r10,36(r1)
    stw r14,40(r1)
    stw r15,44(r1)
    stw r16,48(r1)
    stw r17,52(r1)
    stw r18,56(r1)
    stw r19,60(r1)
    stw r20,64(r1)
    stw r21,68(r1)
    stw r22,72(r1)
    stw r23,76(r1)
    stw r24,80(r1)
    stw r25,84(r1)
    stw r26,88(r1)
    stw r27,92(r1)
    stw r28,96(r1)
    stw r29,100(r1)
    stw r30,104(r1)
    addi r31,r31,1024           # a frame has 256 words
    stw r4,4(r31)
    stw r5,8(r31)
    stw r6,12(r31)
    stw r7,16(r31)
    mtctr r12
    bctrl
    lwz r0,0(r1)
    mtctr r0
    lwz r0,4(r1)
    mtlr r0
    lwz r31,8(r1)
    lwz r4,12(r1)
    lwz r5,16(r1)
    lwz r6,20(r1)
    lwz r7,24(r1)
    lwz r8,28(r1)
    lwz r9,32(r1)
    lwz r10,36(r1)
    lwz r14,40(r1)
    lwz r15,44(r1)
    lwz r16,48(r1)
    lwz r17,52(r1)
    lwz r18,56(r1)
    lwz r19,60(r1)
    lwz r20,64(r1)
    lwz r21,68(r1)
    lwz r22,72(r1)
    lwz r23,76(r1)
    lwz r24,80(r1)
    lwz r25,84(r1)
    lwz r26,88(r1)
    lwz r27,92(r1)
    lwz r28,96(r1)
    lwz r29,100(r1)
    lwz r30,104(r1)
    addi r1,r1,112
    stw r3,0(r31)               # the result stands in the caller's word 0 too
    bctr

# put(c) writes the byte c to standard output. The low byte of a word is its last one.
put:
    li r3,1
    addi r4,r31,7
    li r5,1
    li r0,4
    sc
    li r3,0
    blr

    .bss
    .balign 16
po_frames:
    .space 1048576
    .text
