# A function that is called through .plt.got, since its address is taken too, and one that is called through .plt.
	.text
	.globl	call
	.type	call, @function
call:
	.cfi_startproc
	subq	$8, %rsp
	.cfi_def_cfa_offset 16
	call	taken@PLT
	call	called@PLT
	addq	$8, %rsp
	.cfi_def_cfa_offset 8
	ret
	.cfi_endproc
	.size	call, .-call
	.globl	get
	.type	get, @function
get:
	.cfi_startproc
	movq	taken@GOTPCREL(%rip), %rax
	ret
	.cfi_endproc
	.size	get, .-get
	.section	.note.GNU-stack,"",@progbits
