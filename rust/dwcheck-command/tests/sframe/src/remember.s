# The rows of .eh_frame are right: each push has its row, and each pop. gas loses the second push in SFrame, since it
# forgets the outer one of two remembered states.
	.text
	.globl	nested
	.type	nested, @function
nested:
	.cfi_startproc
	pushq	%rax
	.cfi_def_cfa_offset 16
	testl	%edi, %edi
	je	2f
	.cfi_remember_state
	pushq	%rax
	.cfi_def_cfa_offset 24
	testl	%esi, %esi
	je	1f
	.cfi_remember_state
	pushq	%rax
	.cfi_def_cfa_offset 32
	addq	$24, %rsp
	.cfi_def_cfa_offset 8
	ret
1:
	.cfi_restore_state
	addq	$16, %rsp
	.cfi_def_cfa_offset 8
	ret
2:
	.cfi_restore_state
	nop
	popq	%rax
	.cfi_def_cfa_offset 8
	ret
	.cfi_endproc
	.size	nested, .-nested
	.section	.note.GNU-stack,"",@progbits
