	.text
	.align	2
	.globl	divide
	.type	divide, @function
divide:
	slli	a0,a0,32
	srli	a0,a0,32
	slli	a1,a1,2
	la	a2,reciprocals
	add	a1,a2,a1
	lwu	a1,0(a1)
	mul	a0,a0,a1
	srli	a0,a0,32
	ret
	.size	divide, .-divide
