# Tests: what they read, what they leave in video memory, and the page that shows them. The data of such a program are
# `wrong` (a word: 0 until the running test reads another word), a byte for each test (1: it failed), and a number for
# each chapter (how many of its tests failed). In `parts` is how many failed.

# A read of the data port, of an open store or with none open; the status word, which has time to become what it has to
# be. The words of these orders: a mask, and the word in the bits of the mask.
expect_store:
    jal wait
    lui $a0, 0x0800
expect:
    lw $t0, 0($s1)
    lw $t1, 0($s0)
    lw $t2, 4($s0)
    addiu $s0, $s0, 8
    and $t0, $t0, $t1
    bne $t0, $t2, differs
    nop
    j next
    nop
expect_status:
    lw $t1, 0($s0)
    lw $t2, 4($s0)
    addiu $s0, $s0, 8
    ori $t3, $zero, POLLS
poll:
    lw $t0, 4($s1)
    addiu $t3, $t3, -1
    and $t0, $t0, $t1
    beq $t0, $t2, as_expected
    nop
    bnez $t3, poll
    nop
differs:
    addiu $t0, $zero, 1
    lui $t1, %hi(wrong)
    sw $t0, %lo(wrong)($t1)
as_expected:
    j next
    nop

# The end of a test: compares video memory, part by part. The words of the order: the address of the test's byte, that
# of its chapter's number, a bit for each part that has cells (four words), and the CRC-32 of each of these. The cells of
# all others have to be 0. $t7 becomes something else than 0 if the test failed.
judge:
    lui $t0, %hi(wrong)
    lw $t7, %lo(wrong)($t0)
    sw $zero, %lo(wrong)($t0)
    move $a2, $zero             # the part
    addiu $a3, $s0, 24          # where the next CRC is
judge_part:
    srl $t0, $a2, 5
    sll $t0, $t0, 2
    addu $t0, $t0, $s0
    lw $t0, 8($t0)
    nop
    srlv $t0, $t0, $a2
    andi $t0, $t0, 1
    beqz $t0, judge_zeros
    nop
    jal part_sum
    nop
    lw $t0, 0($a3)
    addiu $a3, $a3, 4
    xor $t0, $t0, $s4
    b judge_next
    or $t7, $t7, $t0
judge_zeros:
    jal open_part
    nop
    addiu $s6, $zero, 2048
judge_zero:
    jal wait
    lui $a0, 0x0800
    lw $t0, 0($s1)
    addiu $s6, $s6, -1
    bnez $s6, judge_zero
    or $t7, $t7, $t0
judge_next:
    addiu $a2, $a2, 1
    sltiu $t0, $a2, 128
    bnez $t0, judge_part
    nop
    lw $t0, 0($s0)
    lw $t1, 4($s0)
    move $s0, $a3
    beqz $t7, judged
    addiu $t2, $zero, 1
    sb $t2, 0($t0)
    lw $t0, 0($t1)
    lui $t3, %hi(parts)
    addiu $t0, $t0, 1
    sw $t0, 0($t1)
    lw $t0, %lo(parts)($t3)
    nop
    addiu $t0, $t0, 1
    sw $t0, %lo(parts)($t3)
judged:
    jal keep_waits
    nop
    lui $s3, 0x0004             # the waits of the next test are as long as those of the first one
    j next
    nop

# A test as a square: green, or red if it failed. The words: Y and X as a vertex, and the address of the test's byte.
box:
    jal ready
    nop
    lw $t0, 4($s0)
    lw $t1, 0($s0)
    lbu $t0, 0($t0)
    addiu $s0, $s0, 8
    lui $t2, 0x6000
    bnez $t0, box_red
    ori $t2, $t2, 0x00FF
    lui $t2, 0x6000
    ori $t2, $t2, 0xA000
box_red:
    sw $t2, 0($s1)
    sw $t1, 0($s1)
    lui $t0, SIDE
    ori $t0, $t0, SIDE
    sw $t0, 0($s1)
    j next
    nop

# The name of a test on the TTY, if it failed. The words: the address of the test's byte, and that of the characters.
say_failed:
    lw $t0, 0($s0)
    addiu $s0, $s0, 4
    lbu $t0, 0($t0)
    nop
    bnez $t0, say
    nop
    j next
    addiu $s0, $s0, 4
