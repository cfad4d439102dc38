# What gas 2.40 and 2.44 write without a word, and wrongly: the entry of a program, which has no caller; a return
# address in a register; a frame pointer that is the caller's again after it was saved.
	.text
	.globl	_start
	.type	_start, @function
_start:
	.cfi_startproc
	.cfi_undefined %rip
	xorl	%ebp, %ebp
	call	popped
	hlt
	.cfi_endproc
	.size	_start, .-_start
	.globl	popped
	.hidden	popped
	.type	popped, @function
popped:
	.cfi_startproc
	popq	%rdx
	.cfi_def_cfa_offset 0
	.cfi_register %rip, %rdx
	pushq	$0
	.cfi_def_cfa_offset 8
	popq	%rax
	.cfi_def_cfa_offset 0
	jmpq	*%rdx
	.cfi_endproc
	.size	popped, .-popped
	.globl	restored
	.type	restored, @function
restored:
	.cfi_startproc
	pushq	%rbp
	.cfi_def_cfa_offset 16
	.cfi_offset %rbp, -16
	xorl	%ebp, %ebp
	movq	(%rsp), %rbp
	.cfi_same_value %rbp
	movq	$0, (%rsp)
	addq	$8, %rsp
	.cfi_def_cfa_offset 8
	ret
	.cfi_endproc
	.size	restored, .-restored
	.section	.note.GNU-stack,"",@progbits
