	.text
	.align	2
	.globl	factorial
	.type	factorial, @function
factorial:
	addi	sp,sp,-16
	sd	ra,8(sp)
	sd	s0,0(sp)
	mv	s0,a0
	li	a0,1
	bleu	s0,a0,.L0_9
	addi	a0,s0,-1
	call	factorial
	mul	a0,s0,a0
.L0_9:
	mv	a0,a0
	ld	ra,8(sp)
	ld	s0,0(sp)
	addi	sp,sp,16
	ret
	.size	factorial, .-factorial
