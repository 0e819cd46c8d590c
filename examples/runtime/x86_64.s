# Start-up, call routine and output for machines/x86_64.desc (see its header).
    .text
    .globl _start
_start:
    mov $po_frames,%ebp
    mov $main,%r11d
    call po_call
    mov %eax,%edi               # exit(result)
    mov $60,%eax
    syscall

# Calls the unit at r11 with a frame of its own; the way back is on the stack.
po_call:
    push %rbp
    push %rdi
    push %rsi
    push %rdx
    push %r8
    push %rbx
    push %r9
    push %r10
    push %r12
    push %r13
    push %r14
    push %r15
    add $1024,%ebp              # a frame has 256 words
    mov %edi,4(%rbp)
    mov %esi,8(%rbp)
    mov %edx,12(%rbp)
    mov %r8d,16(%rbp)
    call *%r11
    pop %r15
    pop %r14
    pop %r13
    pop %r12
    pop %r10
    pop %r9
    pop %rbx
    pop %r8
    pop %rdx
    pop %rsi
    pop %rdi
    pop %rbp
    mov %eax,0(%rbp)            # the result stands in the caller's word 0 too
    ret

# put(c) writes the byte c to standard output.
put:
    mov $1,%eax
    mov $1,%edi
    lea 4(%rbp),%rsi
    mov $1,%edx
    syscall
    mov $0,%eax
    ret

    .bss
    .balign 16
po_frames:
    .space 1048576
    .text
