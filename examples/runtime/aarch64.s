// Start-up, call routine and output for machines/aarch64.desc (see its header). Each register gets two names.
w_r0 .req w0
x_r0 .req x0
w_r1 .req w1
x_r1 .req x1
w_r2 .req w2
x_r2 .req x2
w_r3 .req w3
x_r3 .req x3
w_r4 .req w4
x_r4 .req x4
w_r5 .req w5
x_r5 .req x5
w_r6 .req w6
x_r6 .req x6
w_r7 .req w7
x_r7 .req x7
w_r8 .req w8
x_r8 .req x8
w_r9 .req w9
x_r9 .req x9
w_r10 .req w10
x_r10 .req x10
w_r11 .req w11
x_r11 .req x11
w_r12 .req w12
x_r12 .req x12
w_r13 .req w13
x_r13 .req x13
w_r14 .req w14
x_r14 .req x14
w_r15 .req w15
x_r15 .req x15
w_r16 .req w16
x_r16 .req x16
w_r17 .req w17
x_r17 .req x17
w_r18 .req w18
x_r18 .req x18
w_r19 .req w19
x_r19 .req x19
w_r20 .req w20
x_r20 .req x20
w_r21 .req w21
x_r21 .req x21
w_r22 .req w22
x_r22 .req x22
w_r23 .req w23
x_r23 .req x23
w_r24 .req w24
x_r24 .req x24
w_r25 .req w25
x_r25 .req x25
w_r26 .req w26
x_r26 .req x26
w_r27 .req w27
x_r27 .req x27
w_r28 .req w28
x_r28 .req x28
    .text
    .globl _start
_start:
    adrp x28,po_frames
    add x28,x28,:lo12:po_frames
    adrp x16,main
    add x16,x16,:lo12:main
    bl po_call
    mov x8,93                   // exit(result)
    svc 0

// Calls the unit at x16 with a frame of its own; the way back is x30, and x17 is the caller's own.
po_call:
    sub sp,sp,224
    stp x30,x17,[sp,0]
    stp x28,x1,[sp,16]
    stp x2,x3,[sp,32]
    stp x4,x5,[sp,48]
    stp x6,x7,[sp,64]
    stp x8,x9,[sp,80]
    stp x10,x11,[sp,96]
    stp x12,x13,[sp,112]
    stp x14,x15,[sp,128]
    stp x19,x20,[sp,144]
    stp x21,x22,[sp,160]
    stp x23,x24,[sp,176]
    stp x25,x26,[sp,192]
    stp x27,x18,[sp,208]
    add x28,x28,1024            // a frame has 256 words
    str w1,[x28,4]
    str w2,[x28,8]
    str w3,[x28,12]
    str w4,[x28,16]
    blr x16
    ldp x30,x17,[sp,0]
    ldp x28,x1,[sp,16]
    ldp x2,x3,[sp,32]
    ldp x4,x5,[sp,48]
    ldp x6,x7,[sp,64]
    ldp x8,x9,[sp,80]
    ldp x10,x11,[sp,96]
    ldp x12,x13,[sp,112]
    ldp x14,x15,[sp,128]
    ldp x19,x20,[sp,144]
    ldp x21,x22,[sp,160]
    ldp x23,x24,[sp,176]
    ldp x25,x26,[sp,192]
    ldp x27,x18,[sp,208]
    add sp,sp,224
    mov x16,x30
    mov x30,x17
    str w0,[x28]                // the result stands in the caller's word 0 too
    br x16

// put(c) writes the byte c to standard output.
put:
    mov x0,1
    add x1,x28,4
    mov x2,1
    mov x8,64
    svc 0
    mov w0,0
    ret

    .bss
    .balign 16
po_frames:
    .space 1048576
    .text
