# Prints hello.
    .intel_syntax noprefix
    .globl _start
_start:
    mov eax, 1
    mov edi, 1
    lea rsi, [rip + text]
    mov edx, OFFSET text_end - text
    syscall                             # write(1, text, 6)
    mov eax, 60
    xor edi, edi
    syscall                             # exit(0)
text:
    .ascii "hello\n"
text_end:
