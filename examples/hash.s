	.text
	.align	2
	.globl	hash
	.type	hash, @function
hash:
	mv	a2,a0
	add	a0,a0,a1
	li	a1,-3750763034362895579
	li	a3,1099511628211
	j	.L0_12
.L0_8:
	lbu	a4,0(a2)
	addi	a2,a2,1
	xor	a1,a1,a4
	mul	a1,a1,a3
.L0_12:
	bltu	a2,a0,.L0_8
	mv	a0,a1
	ret
	.size	hash, .-hash
