# A line of text on the screen, with a number of at most three digits in it: green if the number is 0, else red. The
# words of the order: Y and X as a vertex, the address of the characters, that of the number, that of its digits among
# the characters.
text:
    lw $a2, 0($s0)
    lw $a3, 4($s0)
    lw $t0, 8($s0)
    lw $t1, 12($s0)
    lw $s6, 0($t0)
    addiu $s0, $s0, 16
    lui $a1, 0x6000
    bnez $s6, text_number
    ori $a1, $a1, 0x40FF
    lui $a1, 0x6000
    ori $a1, $a1, 0xFF40
text_number:
    addiu $t2, $zero, 100
text_digit:
    divu $zero, $s6, $t2
    mflo $t0
    mfhi $s6
    addiu $t0, $t0, 0x30
    sb $t0, 0($t1)
    addiu $t1, $t1, 1
    addiu $t0, $zero, 10
    divu $zero, $t2, $t0
    mflo $t2
    nop
    bnez $t2, text_digit
    nop
text_on:
    lbu $t0, 0($a3)
    addiu $a3, $a3, 1
    beqz $t0, text_end
    nop
    jal glyph
    nop
    b text_on
    nop
text_end:
    j next
    nop

# Draws the character $t0 at $a2 in the colour $a1, and moves $a2 to the right. A glyph has 15 bits: five rows of three
# dots. Each dot is a rectangle of 2 by 2.
glyph:
    move $v0, $ra
    addiu $t0, $t0, -32
    sll $t0, $t0, 1
    lui $t1, %hi(glyphs)
    addu $t1, $t1, $t0
    lhu $t6, %lo(glyphs)($t1)
    move $t7, $zero             # the dot
    move $v1, $a2
dot:
    andi $t0, $t6, 1
    beqz $t0, dot_next
    srl $t6, $t6, 1
    jal ready
    nop
    sw $a1, 0($s1)
    sw $v1, 0($s1)
    lui $t0, 2
    ori $t0, $t0, 2
    sw $t0, 0($s1)
dot_next:
    addiu $t7, $t7, 1
    addiu $t0, $zero, 3
    divu $zero, $t7, $t0
    mfhi $t0
    nop
    bnez $t0, dot_right
    addiu $v1, $v1, 2
    lui $t0, 2
    addiu $t0, $t0, -6
    addu $v1, $v1, $t0
dot_right:
    sltiu $t0, $t7, 15
    bnez $t0, dot
    nop
    jr $v0
    addiu $a2, $a2, 8

# The same line on the TTY, by the BIOS's putchar. The word of the order: the address of the characters.
say:
    lw $s4, 0($s0)
    addiu $s0, $s0, 4
say_on:
    lbu $a0, 0($s4)
    addiu $s4, $s4, 1
    beqz $a0, say_end
    nop
    jal putchar
    nop
    b say_on
    nop
say_end:
    jal putchar
    addiu $a0, $zero, 10
    j next
    nop
putchar:
    addiu $t2, $zero, 0xB0
    jr $t2
    addiu $t1, $zero, 0x3D
