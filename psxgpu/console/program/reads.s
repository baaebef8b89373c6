# Reads of the data port: of an open store; of the last word of one with an odd number of cells; with no store open.
read:
    jal wait
    lui $a0, 0x0800
    lw $a1, 0($s1)
    jal sum
    addiu $t4, $zero, 4
    addiu $s6, $s6, -1
    bnez $s6, read
    nop
    j next
    nop
read_low:
    jal wait
    lui $a0, 0x0800
    lw $a1, 0($s1)
    jal sum
    addiu $t4, $zero, 2
    j next
    nop
read_loose:
    lw $t0, 0($s1)
    addiu $s6, $s6, -1
    bnez $s6, read_loose
    nop
    j next
    nop

# Adds $t4 bytes of $a1 to the CRC-32 in $s4.
sum:
    xor $t0, $s4, $a1
    andi $t0, $t0, 0xFF
    sll $t0, $t0, 2
    addu $t0, $t0, $s5
    lw $t0, 0($t0)
    srl $s4, $s4, 8
    xor $s4, $s4, $t0
    addiu $t4, $t4, -1
    bnez $t4, sum
    srl $a1, $a1, 8
    jr $ra
    nop

# Waits for n vertical blanks: bit 0 of I_STAT.
blank:
    lui $t0, 0x1F80
    addiu $t1, $zero, -2
    sw $t1, 0x1070($t0)
    lui $t2, 0x0020
blank_on:
    lw $t3, 0x1070($t0)
    addiu $t2, $t2, -1
    andi $t3, $t3, 1
    bnez $t3, blank_seen
    nop
    bnez $t2, blank_on
    nop
    addiu $s2, $s2, 1
blank_seen:
    addiu $s6, $s6, -1
    bnez $s6, blank
    nop
    j next
    nop

# Compares the CRC of what was read with the word of this order.
check_reads:
    lw $t0, 0($s0)
    addiu $s0, $s0, 4
    subu $t0, $t0, $s4
    sltu $t0, $zero, $t0
    lui $t1, %hi(reads)
    sw $t0, %lo(reads)($t1)
    j next
    nop
