# Video memory is read back in 128 parts of 64 by 64 cells, from the left, rows from the top. `found` gets 1 for each
# part whose CRC-32 is not that of `wanted_sums`.
sums:
    lui $t5, %hi(wanted_sums)
    addiu $t5, $t5, %lo(wanted_sums)
    lui $t6, %hi(found)
    addiu $t6, $t6, %lo(found)
    move $a2, $zero             # the part
    move $a3, $zero             # how many differ
part:
    jal part_sum
    nop
    lw $t0, 0($t5)
    addiu $t5, $t5, 4
    xor $t0, $t0, $s4
    sltu $t0, $zero, $t0
    sb $t0, 0($t6)
    addiu $t6, $t6, 1
    addu $a3, $a3, $t0
    addiu $a2, $a2, 1
    sltiu $t0, $a2, 128
    bnez $t0, part
    nop
    lui $t1, %hi(parts)
    sw $a3, %lo(parts)($t1)
    jal keep_waits
    nop
    j next
    nop

# Begins a store of the part $a2.
open_part:
    move $v0, $ra
    jal ready
    nop
    lui $t0, 0xC000
    sw $t0, 0($s1)
    andi $t0, $a2, 15
    sll $t0, $t0, 6
    srl $t1, $a2, 4
    sll $t1, $t1, 22
    or $t0, $t0, $t1
    sw $t0, 0($s1)
    lui $t0, 64
    ori $t0, $t0, 64
    jr $v0
    sw $t0, 0($s1)

# $s4: the CRC-32 of the part $a2.
part_sum:
    move $v1, $ra
    jal open_part
    addiu $s4, $zero, -1
    addiu $s6, $zero, 2048
part_word:
    jal wait
    lui $a0, 0x0800
    lw $a1, 0($s1)
    jal sum
    addiu $t4, $zero, 4
    addiu $s6, $s6, -1
    bnez $s6, part_word
    nop
    jr $v1
    nop

# Keeps how many waits were too long: the page has three digits.
keep_waits:
    sltiu $t0, $s2, 1000
    bnez $t0, waits_kept
    move $t2, $s2
    addiu $t2, $zero, 999
waits_kept:
    lui $t1, %hi(waits)
    jr $ra
    sw $t2, %lo(waits)($t1)

# The parts as squares: green if equal, red if not.
map:
    lui $t6, %hi(found)
    addiu $t6, $t6, %lo(found)
    move $a2, $zero
square:
    jal ready
    lbu $t1, 0($t6)
    addiu $t6, $t6, 1
    lui $t0, 0x6000
    bnez $t1, square_red
    ori $t0, $t0, 0x00FF
    lui $t0, 0x6000
    ori $t0, $t0, 0x6000
square_red:
    sw $t0, 0($s1)
    andi $t0, $a2, 15
    sll $t0, $t0, 4
    srl $t1, $a2, 4
    sll $t1, $t1, 20
    or $t0, $t0, $t1
    lui $t1, MAP_Y
    ori $t1, $t1, MAP_X
    addu $t0, $t0, $t1
    sw $t0, 0($s1)
    lui $t0, 15
    ori $t0, $t0, 15
    sw $t0, 0($s1)
    addiu $a2, $a2, 1
    sltiu $t0, $a2, 128
    bnez $t0, square
    nop
    j next
    nop

found:
    .space 128
