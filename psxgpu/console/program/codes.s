# The tables of codes with which `unpack.s` decodes a block. $gp is how many codes literals and lengths have, $fp how
# many distances have. The lengths of codes are at CODE_LENGTHS, a byte each.

# The codes that RFC 1951 fixes.
fixed:
    lui $t6, %hi(CODE_LENGTHS)
    addiu $t6, $t6, %lo(CODE_LENGTHS)
    addiu $t0, $zero, 8
    jal equal_lengths
    addiu $t1, $zero, 144
    addiu $t0, $zero, 9
    jal equal_lengths
    addiu $t1, $zero, 112
    addiu $t0, $zero, 7
    jal equal_lengths
    addiu $t1, $zero, 24
    addiu $t0, $zero, 8
    jal equal_lengths
    addiu $t1, $zero, 8
    addiu $t0, $zero, 5
    jal equal_lengths
    addiu $t1, $zero, 30
    addiu $gp, $zero, 288
    b tables
    addiu $fp, $zero, 30

# Puts $t1 lengths of $t0 to $t6, and moves $t6 on.
equal_lengths:
    sb $t0, 0($t6)
    addiu $t1, $t1, -1
    bnez $t1, equal_lengths
    addiu $t6, $t6, 1
    jr $ra
    nop

# Codes that the block brings, whose lengths are coded themselves.
dynamic:
    jal bits
    addiu $t1, $zero, 5
    addiu $gp, $v0, 257
    jal bits
    addiu $t1, $zero, 5
    addiu $fp, $v0, 1
    jal bits
    addiu $t1, $zero, 4
    addiu $t7, $v0, 4
    lui $t6, %hi(CODE_LENGTHS)
    addiu $t6, $t6, %lo(CODE_LENGTHS)
    move $t0, $zero
    jal equal_lengths
    addiu $t1, $zero, 19
    addiu $t6, $t6, -19
    lui $t5, %hi(length_order)
    addiu $t5, $t5, %lo(length_order)
    addu $t7, $t7, $t5
dynamic_order:
    jal bits
    addiu $t1, $zero, 3
    lbu $t0, 0($t5)
    addiu $t5, $t5, 1
    addu $t0, $t0, $t6
    bne $t5, $t7, dynamic_order
    sb $v0, 0($t0)
    lui $t8, %hi(TABLES)
    addiu $t8, $t8, %lo(TABLES)
    jal construct
    addiu $t7, $zero, 19
    addu $t7, $t6, $gp
    addu $t7, $t7, $fp          # the end of the lengths
    move $s6, $t6
dynamic_next:
    jal decode
    nop
    sltiu $t0, $v0, 16
    beqz $t0, dynamic_repeat
    move $t6, $s6
    sb $v0, 0($t6)
    b dynamic_on
    addiu $t6, $t6, 1
dynamic_repeat:
    addiu $t0, $v0, -16
    bnez $t0, dynamic_zeros
    addiu $t0, $t0, -1
    jal bits                    # 16: the length before, 3 to 6 times
    addiu $t1, $zero, 2
    lbu $t0, -1($t6)
    b dynamic_equal
    addiu $t1, $v0, 3
dynamic_zeros:
    bnez $t0, dynamic_many
    nop
    jal bits                    # 17: 3 to 10 zeros
    addiu $t1, $zero, 3
    move $t0, $zero
    b dynamic_equal
    addiu $t1, $v0, 3
dynamic_many:
    jal bits                    # 18: 11 to 138 zeros
    addiu $t1, $zero, 7
    move $t0, $zero
    addiu $t1, $v0, 11
dynamic_equal:
    jal equal_lengths
    nop
dynamic_on:
    bne $t6, $t7, dynamic_next
    move $s6, $t6

# Both tables, from the lengths at CODE_LENGTHS.
tables:
    lui $t6, %hi(CODE_LENGTHS)
    addiu $t6, $t6, %lo(CODE_LENGTHS)
    addu $t6, $t6, $gp
    move $t7, $fp
    lui $t8, %hi(TABLES + DISTANCES)
    jal construct
    addiu $t8, $t8, %lo(TABLES + DISTANCES)
    subu $t6, $t6, $gp
    move $t7, $gp
    jal construct
    addiu $t8, $t8, -DISTANCES
    b codes
    nop
