	.text
	.align	2
	.globl	sort
	.type	sort, @function
sort:
	mv	a0,a0
	mv	a1,a1
	li	a2,1
	j	.L0_40
.L0_10:
	slli	a3,a2,2
	add	a3,a0,a3
	lw	a4,0(a3)
.L0_20:
	bleu	a3,a0,.L0_30
	lw	a5,-4(a3)
	ble	a5,a4,.L0_30
	sw	a5,0(a3)
	addi	a3,a3,-4
	j	.L0_20
.L0_30:
	sw	a4,0(a3)
	addi	a2,a2,1
.L0_40:
	blt	a2,a1,.L0_10
	ret
	.size	sort, .-sort
