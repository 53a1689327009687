/* Where a process begins that is measured, and the functions of C's library that copy and fill: written out, so that no machine has its
   own, and each costs the same instructions everywhere. Those of the program are called counted_memcpy and so on: what the compiler
   has bench/measured.c copy is not counted. For x86-64. */
        .text
        .globl _start, measured_main, memcpy, memmove, memset, counted_memcpy, counted_memmove, counted_memset

/* The stack begins at a page, whatever the environment is long. */
        .type _start, @function
_start: mov     %rsp, %rdi
        and     $-4096, %rsp
        call    measured_begin
        hlt
        .size _start, . - _start

/* struct { long height, status; } measured_main(long octets, long count, char **words): calls `main`, and says how far below this
   call the stack went. For that it paints so many octets of the stack before, which OCTETS 0 leaves alone. */
        .type measured_main, @function
measured_main:
        push    %rbx
        push    %r12
        push    %r13
        mov     %rdi, %r12
        mov     %rsp, %rbx
        movabs  $0xa5a5a5a5a5a5a5a5, %r13
        mov     %rsp, %rax
        mov     %rsp, %rcx
        sub     %r12, %rcx
1:      cmp     %rcx, %rax
        jbe     2f
        sub     $8, %rax
        mov     %r13, (%rax)
        jmp     1b
2:      mov     %rsi, %rdi
        mov     %rdx, %rsi
        call    main
        movslq  %eax, %rdx
        mov     %rbx, %rcx
        sub     %r12, %rcx
3:      cmp     %rbx, %rcx
        jae     4f
        cmp     %r13, (%rcx)
        jne     4f
        add     $8, %rcx
        jmp     3b
4:      mov     %rbx, %rax
        sub     %rcx, %rax
        pop     %r13
        pop     %r12
        pop     %rbx
        ret
        .size measured_main, . - measured_main

/* Both copy octets that may overlap: what is written over is read before. */
        .type counted_memcpy, @function
        .type counted_memmove, @function
counted_memcpy:
counted_memmove:
        mov     %rdi, %rax
        cmp     $32, %rdx
        jbe     5f
        mov     %rdi, %rcx
        sub     %rsi, %rcx
        cmp     %rdx, %rcx
        jb      3f
        movups  -32(%rsi,%rdx), %xmm2
        movups  -16(%rsi,%rdx), %xmm3
        lea     (%rdi,%rdx), %rcx
1:      movups  (%rsi), %xmm0
        movups  16(%rsi), %xmm1
        movups  %xmm0, (%rdi)
        movups  %xmm1, 16(%rdi)
        add     $32, %rsi
        add     $32, %rdi
        sub     $32, %rdx
        cmp     $32, %rdx
        ja      1b
        movups  %xmm2, -32(%rcx)
        movups  %xmm3, -16(%rcx)
        ret
3:      movups  (%rsi), %xmm2
        movups  16(%rsi), %xmm3
4:      movups  -16(%rsi,%rdx), %xmm0
        movups  -32(%rsi,%rdx), %xmm1
        movups  %xmm0, -16(%rdi,%rdx)
        movups  %xmm1, -32(%rdi,%rdx)
        sub     $32, %rdx
        cmp     $32, %rdx
        ja      4b
        movups  %xmm2, (%rdi)
        movups  %xmm3, 16(%rdi)
        ret
5:      cmp     $16, %rdx
        jb      6f
        movups  (%rsi), %xmm0
        movups  -16(%rsi,%rdx), %xmm1
        movups  %xmm0, (%rdi)
        movups  %xmm1, -16(%rdi,%rdx)
        ret
6:      cmp     $8, %rdx
        jb      7f
        mov     (%rsi), %rcx
        mov     -8(%rsi,%rdx), %r8
        mov     %rcx, (%rdi)
        mov     %r8, -8(%rdi,%rdx)
        ret
7:      cmp     $4, %rdx
        jb      8f
        mov     (%rsi), %ecx
        mov     -4(%rsi,%rdx), %r8d
        mov     %ecx, (%rdi)
        mov     %r8d, -4(%rdi,%rdx)
        ret
8:      cmp     $2, %rdx
        jb      9f
        movzwl  (%rsi), %ecx
        movzwl  -2(%rsi,%rdx), %r8d
        mov     %cx, (%rdi)
        mov     %r8w, -2(%rdi,%rdx)
        ret
9:      test    %rdx, %rdx
        je      10f
        movzbl  (%rsi), %ecx
        mov     %cl, (%rdi)
10:     ret
        .size counted_memcpy, . - counted_memcpy
        .size counted_memmove, . - counted_memmove

        .type counted_memset, @function
counted_memset:
        mov     %rdi, %rax
        movzbl  %sil, %ecx
        movabs  $0x0101010101010101, %r8
        imul    %r8, %rcx
        cmp     $16, %rdx
        jb      2f
        movq    %rcx, %xmm0
        punpcklqdq %xmm0, %xmm0
        lea     -16(%rdi,%rdx), %r8
1:      movups  %xmm0, (%rdi)
        add     $16, %rdi
        cmp     %r8, %rdi
        jb      1b
        movups  %xmm0, (%r8)
        ret
2:      cmp     $8, %rdx
        jb      3f
        mov     %rcx, (%rdi)
        mov     %rcx, -8(%rdi,%rdx)
        ret
3:      cmp     $4, %rdx
        jb      4f
        mov     %ecx, (%rdi)
        mov     %ecx, -4(%rdi,%rdx)
        ret
4:      test    %rdx, %rdx
        je      5f
        mov     %cl, (%rdi)
        mov     %cl, -1(%rdi,%rdx)
        cmp     $3, %rdx
        jb      5f
        mov     %cl, 1(%rdi)
5:      ret
        .size counted_memset, . - counted_memset

        .type memcpy, @function
        .type memmove, @function
        .type memset, @function
memcpy:
memmove:
        mov     %rdi, %rax
        mov     %rdx, %rcx
        cmp     %rsi, %rdi
        ja      1f
        rep movsb
        ret
1:      lea     -1(%rdi,%rdx), %rdi
        lea     -1(%rsi,%rdx), %rsi
        std
        rep movsb
        cld
        ret
        .size memcpy, . - memcpy
        .size memmove, . - memmove
memset: mov     %rdi, %r8
        mov     %esi, %eax
        mov     %rdx, %rcx
        rep stosb
        mov     %r8, %rax
        ret
        .size memset, . - memset

        .section .note.GNU-stack, "", @progbits
