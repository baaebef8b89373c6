# Packed orders. After the first order follow segments: a size of two bytes, and as many bytes of raw deflate (RFC
# 1951), which are SLOT bytes of orders. The last order of a segment is `more`: it unpacks the next one. Four slots
# form the window, a ring of 64 KB, so that distances of 32 KB reach into it.
#
# Here $a0 is where the next byte is, $a1 the bits at hand, $a2 how many these are, $a3 where the next byte goes, $t9
# the end of the slot, $t8 a table of codes:
#   0 to 1023: for each value of nine bits, 16 times a symbol plus the length of its code, or 0 if that is longer
#   1024 to 1055: how many codes have each length; from 1056 on: the symbols, by the lengths of their codes

packed:
    .word orders + 4
slot:
    .word WINDOW

more:
    lui $t0, %hi(packed)
    lw $a0, %lo(packed)($t0)
    lui $t1, %hi(slot)
    lw $a3, %lo(slot)($t1)
    lbu $t2, 0($a0)
    lbu $t3, 1($a0)
    addiu $a0, $a0, 2
    sll $t3, $t3, 8
    or $t2, $t2, $t3
    addu $t2, $t2, $a0
    sw $t2, %lo(packed)($t0)
    move $s0, $a3
    addiu $t9, $a3, SLOT
    lui $t2, WINDOW_HIGH + 1
    bne $t9, $t2, more_slot
    move $t3, $t9
    lui $t3, WINDOW_HIGH
more_slot:
    sw $t3, %lo(slot)($t1)
    move $a1, $zero
    move $a2, $zero
block:
    beq $a3, $t9, more_end
    addiu $t1, $zero, 3
    jal bits                    # whether it is the last block, and its type
    nop
    srl $t0, $v0, 1
    beqz $t0, stored
    addiu $t1, $zero, 1
    beq $t0, $t1, fixed
    nop
    b dynamic
    nop
more_end:
    j next
    nop

# Bytes as they are: the rest of the byte is left, then a size of two bytes and its complement.
stored:
    srl $t0, $a2, 3
    subu $a0, $a0, $t0
    move $a1, $zero
    move $a2, $zero
    lbu $t0, 0($a0)
    lbu $t1, 1($a0)
    addiu $a0, $a0, 4
    sll $t1, $t1, 8
    or $t0, $t0, $t1
    beqz $t0, block
    nop
stored_byte:
    lbu $t1, 0($a0)
    addiu $a0, $a0, 1
    addiu $t0, $t0, -1
    sb $t1, 0($a3)
    bnez $t0, stored_byte
    addiu $a3, $a3, 1
    b block
    nop

# Bytes, and copies of bytes in the window.
codes:
    jal decode
    nop
    sltiu $t0, $v0, 256
    beqz $t0, codes_copy
    addiu $t0, $zero, 256
    sb $v0, 0($a3)
    b codes
    addiu $a3, $a3, 1
codes_copy:
    beq $v0, $t0, block
    addiu $t7, $v0, -257
    lui $t0, %hi(length_extras)
    addu $t0, $t0, $t7
    lbu $t1, %lo(length_extras)($t0)
    lui $t0, %hi(length_bases)
    sll $t7, $t7, 1
    addu $t0, $t0, $t7
    lhu $t7, %lo(length_bases)($t0)
    jal bits
    nop
    addu $t7, $t7, $v0          # how many bytes
    jal decode
    addiu $t8, $t8, DISTANCES
    addiu $t8, $t8, -DISTANCES
    lui $t0, %hi(distance_extras)
    addu $t0, $t0, $v0
    lbu $t1, %lo(distance_extras)($t0)
    lui $t0, %hi(distance_bases)
    sll $v0, $v0, 1
    addu $t0, $t0, $v0
    lhu $t5, %lo(distance_bases)($t0)
    jal bits
    nop
    addu $t5, $t5, $v0
    subu $t5, $a3, $t5          # from where
    lui $t0, WINDOW_HIGH
    sltu $t1, $t5, $t0
    beqz $t1, copy
    lui $t1, 1
    addu $t5, $t5, $t1
copy:
    lui $t1, WINDOW_HIGH + 1
copy_byte:
    lbu $t2, 0($t5)
    addiu $t5, $t5, 1
    bne $t5, $t1, copy_on
    addiu $t7, $t7, -1
    move $t5, $t0
copy_on:
    sb $t2, 0($a3)
    bnez $t7, copy_byte
    addiu $a3, $a3, 1
    b codes
    nop
