@ Start-up, call routine and output for machines/arm.desc (see its header).
    .arch armv7-a
    .arm
    .text
    .globl _start
_start:
    movw r11,#:lower16:po_frames
    movt r11,#:upper16:po_frames
    mov r12,pc
    b po_call
    .word main
    mov r7,#1                   @ exit(result)
    svc #0

@ Calls the unit whose address is the word at r12; the way back is behind that word.
po_call:
    push {r1-r11,lr}
    ldr r10,[r12],#4
    push {r12}
    add r11,r11,#1024           @ a frame has 256 words
    str r1,[r11,#4]
    str r2,[r11,#8]
    str r3,[r11,#12]
    str r4,[r11,#16]
    blx r10
    pop {r12}
    pop {r1-r11,lr}
    str r0,[r11]                @ the result stands in the caller's word 0 too
    bx r12

@ put(c) writes the byte c to standard output.
put:
    mov r0,#1
    add r1,r11,#4
    mov r2,#1
    mov r7,#4
    svc #0
    mov r0,#0
    bx lr

    .bss
    .balign 16
po_frames:
    .space 1048576
    .text
