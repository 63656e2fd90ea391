	.text
	.align	2
	.globl	duplicate
	.type	duplicate, @function
duplicate:
	addi	sp,sp,-32
	sd	ra,24(sp)
	sd	s0,16(sp)
	sd	s1,8(sp)
	sd	s2,0(sp)
	mv	s0,a0
	call	strlen
	addi	s1,a0,1
	mv	a0,s1
	call	malloc
	mv	s2,a0
	beq	s2,zero,.L0_15
	mv	a0,s2
	mv	a1,s0
	mv	a2,s1
	call	memcpy
.L0_15:
	mv	a0,s2
	ld	ra,24(sp)
	ld	s0,16(sp)
	ld	s1,8(sp)
	ld	s2,0(sp)
	addi	sp,sp,32
	ret
	.size	duplicate, .-duplicate
