| Start-up, call routine and output for machines/m68k.desc (see its header).
    .text
    .globl _start
_start:
    lea po_frames,%a6
    lea main,%a0
    jsr po_call
    move.l %d2,%d1              | exit(result)
    moveq #1,%d0
    trap #0

| Calls the unit at a0 with a frame of its own; the way back is on the stack.
po_call:
    movem.l %d3-%d7/%a1-%a6,-(%sp)
    lea 1024(%a6),%a6           | a frame has 256 words
    movem.l %a1-%a4,4(%a6)
    jsr (%a0)
    movem.l (%sp)+,%d3-%d7/%a1-%a6
    move.l %d2,(%a6)            | the result stands in the caller's word 0 too
    rts

| put(c) writes the byte c to standard output. The low byte of a word is its last one.
put:
    moveq #1,%d1
    lea 7(%a6),%a0
    move.l %a0,%d2
    moveq #1,%d3
    moveq #4,%d0
    trap #0
    moveq #0,%d2
    rts

    .bss
    .balign 16
po_frames:
    .space 1048576
    .text
