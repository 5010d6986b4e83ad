# Prints a text in Morse code, one call of write for each letter.
# The image has no page that may be written, so nothing is stored: letters, counts and places are in registers.
    .intel_syntax noprefix
    .globl _start
_start:
    lea r12, [rip + text]               # the next letter
    lea r13, [rip + codes - 8 * 'a']    # the code of a letter is at 8 times its number
    lea r14, [rip + between_words]
    mov ecx, OFFSET text_end - text     # how many letters are left
next_letter:
    movzx eax, byte ptr [r12]
    lea r12, [r12 + 1]
    lea rbp, [r13 + 8 * rax]
    xor eax, ' '                        # ZF is set where the letter is a space
    cmovz rbp, r14
    movzx edx, byte ptr [rbp]           # the length of its code
    lea rsi, [rbp + 1]
    mov edi, 1
    mov eax, 1
    xchg rbx, rcx                       # SYSCALL overwrites rcx
    syscall                             # write(1, rsi, rdx)
    xchg rbx, rcx
    loop next_letter

    lea rsi, [rip + end_of_line]
    mov edx, 1
    mov edi, 1
    mov eax, 1
    syscall
    xor edi, edi
    mov eax, 60
    syscall                             # exit(0)

    # 8 bytes for each letter: the length, and the code with a space behind it
    .macro code signs:vararg
    .irp sign, \signs
0:  .byte 2f - 1f
1:  .ascii "\sign "
2:  .skip 8 - (2b - 0b)
    .endr
    .endm
codes:
    code .-, -..., -.-., -.., ., ..-., --., ...., .., .---, -.-, .-.., --
    code -., ---, .--., --.-, .-., ..., -, ..-, ...-, .--, -..-, -.--, --..
between_words:
    .byte 2
    .ascii "/ "
text:
    .ascii "hello world"
text_end:
end_of_line:
    .ascii "\n"
