! Start-up, call routine and output for machines/sparc32.desc (see its header).
    .text
    .globl _start
_start:
    sub %sp,96,%sp
    and %sp,-8,%sp
    set po_frames,%i6
    sethi %hi(po_call),%g2
    set main,%g1
    jmpl %g2+%lo(po_call),%g2
    nop
    mov 1,%g1                   ! exit(result)
    ta 0x10
    nop

! Calls the unit at g1 with a frame of its own; the way back is g2 + 8, and o7 is the caller's own. The 64 bytes from sp on are where
! the system may put a register window at any time, so what is saved lies behind them.
po_call:
    sub %sp,152,%sp
    st %g2,[%sp+64]
    st %o7,[%sp+68]
    st %i6,[%sp+72]
    st %o1,[%sp+76]
    st %o2,[%sp+80]
    st %o3,[%sp+84]
    st %o4,[%sp+88]
    st %l0,[%sp+92]
    st %l1,[%sp+96]
    st %l2,[%sp+100]
    st %l3,[%sp+104]
    st %l4,[%sp+108]
    st %l5,[%sp+112]
    st %l6,[%sp+116]
    st %l7,[%sp+120]
    st %i0,[%sp+124]
    st %i1,[%sp+128]
    st %i2,[%sp+132]
    st %i3,[%sp+136]
    st %i4,[%sp+140]
    st %i5,[%sp+144]
    st %o5,[%sp+148]
    add %i6,1024,%i6            ! a frame has 256 words
    st %o1,[%i6+4]
    st %o2,[%i6+8]
    st %o3,[%i6+12]
    st %o4,[%i6+16]
    jmpl %g1,%o7
    nop
    ld [%sp+64],%g2
    ld [%sp+68],%o7
    ld [%sp+72],%i6
    ld [%sp+76],%o1
    ld [%sp+80],%o2
    ld [%sp+84],%o3
    ld [%sp+88],%o4
    ld [%sp+92],%l0
    ld [%sp+96],%l1
    ld [%sp+100],%l2
    ld [%sp+104],%l3
    ld [%sp+108],%l4
    ld [%sp+112],%l5
    ld [%sp+116],%l6
    ld [%sp+120],%l7
    ld [%sp+124],%i0
    ld [%sp+128],%i1
    ld [%sp+132],%i2
    ld [%sp+136],%i3
    ld [%sp+140],%i4
    ld [%sp+144],%i5
    ld [%sp+148],%o5
    add %sp,152,%sp
    st %o0,[%i6]                ! the result stands in the caller's word 0 too
    jmp %g2+8
    nop

! put(c) writes the byte c to standard output.
put:
    mov 1,%o0
    add %i6,7,%o1
    mov 1,%o2
    mov 4,%g1
    ta 0x10
    nop
    mov 0,%o0
    retl
    nop

    .bss
    .balign 16
po_frames:
    .space 1048576
    .text
