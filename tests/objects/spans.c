/* Differences of labels in data: where a computed jump goes, and how long parts of code are. */
long follow(const unsigned char *steps, long value)
{
    static const int distances[] = { &&done - &&add, &&add - &&add, &&shift - &&add, &&turn - &&add };
next:
    goto *(&&add + distances[*steps++ & 3]);
add:
    value += 7;
    goto next;
shift:
    value <<= 3;
    goto next;
turn:
    value = ~value;
    goto next;
done:
    return value;
}

__asm__(".section .rodata\n"
        "extent: .byte end - begin\n"
        ".text\n"
        ".type begin, @function\n"
        "begin: addi x10, x0, 1\n"
        "jalr x0, 0(x1)\n"
        "end:\n"
        ".size begin, . - begin\n");
