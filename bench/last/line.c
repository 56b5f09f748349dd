/*
 * Linked last before the archive, whose code so begins at a line of the processor's cache, however long the code of the benchmark is. Where
 * it begins 16 bytes later, the same code takes 6 to 11 in a hundred longer for a reading, which would be taken for a change of the code.
 *
 * Nothing refers to this line, so it asks the linker itself to be kept (R).
 */
__asm__(".section .text.line,\"axR\",@progbits\n"
        ".p2align 6\n"
        ".skip 64\n");
