# Hard cases for gas's SFrame: what does it write or leave out, and is it the row of .eh_frame?
	.text
	.macro fn name
	.globl \name
	.type \name, @function
\name:
	.cfi_startproc
	.endm
	.macro end name
	.cfi_endproc
	.size \name, . - \name
	.endm
	fn drap
	nop
	.cfi_def_cfa %r10, 0
	nop
	.cfi_def_cfa %rbp, 16
	nop
	end drap
	fn outermost
	.cfi_undefined %rip
	nop
	end outermost
	fn outermost_later
	nop
	.cfi_undefined %rip
	nop
	end outermost_later
	fn ra_in_register
	nop
	.cfi_register %rip, %rax
	nop
	end ra_in_register
	fn ra_elsewhere
	nop
	.cfi_def_cfa_offset 16
	.cfi_offset %rip, -16
	nop
	end ra_elsewhere
	fn fp_in_register
	nop
	.cfi_register %rbp, %rbx
	nop
	end fp_in_register
	fn fp_undefined
	nop
	.cfi_undefined %rbp
	nop
	end fp_undefined
	fn fp_undefined_after_save
	nop
	.cfi_def_cfa_offset 16
	.cfi_offset %rbp, -16
	nop
	.cfi_undefined %rbp
	nop
	end fp_undefined_after_save
	fn fp_same_after_save
	nop
	.cfi_def_cfa_offset 16
	.cfi_offset %rbp, -16
	nop
	.cfi_same_value %rbp
	nop
	end fp_same_after_save
	fn fp_restored
	nop
	.cfi_def_cfa_offset 16
	.cfi_offset %rbp, -16
	nop
	.cfi_restore %rbp
	.cfi_def_cfa_offset 8
	nop
	end fp_restored
	fn fp_val_offset
	nop
	.cfi_val_offset %rbp, -16
	nop
	end fp_val_offset
	fn remembered
	nop
	.cfi_def_cfa_offset 16
	.cfi_offset %rbp, -16
	nop
	.cfi_remember_state
	.cfi_def_cfa_offset 8
	.cfi_restore %rbp
	nop
	.cfi_restore_state
	nop
	end remembered
	fn remembered_twice
	nop
	.cfi_def_cfa_offset 16
	.cfi_remember_state
	nop
	.cfi_def_cfa_offset 24
	.cfi_remember_state
	.cfi_offset %rbp, -24
	nop
	.cfi_restore_state
	nop
	.cfi_restore_state
	nop
	end remembered_twice
	fn expression_cfa
	nop
	.cfi_escape 0x0f,0x03,0x77,0x08,0x06
	nop
	.cfi_def_cfa %rsp, 8
	nop
	end expression_cfa
	fn expression_fp
	nop
	.cfi_escape 0x10,0x06,0x02,0x76,0x70
	nop
	end expression_fp
	fn expression_other
	nop
	.cfi_escape 0x10,0x03,0x02,0x76,0x70
	nop
	end expression_other
	fn args_size
	nop
	.cfi_escape 0x2e,0x10
	nop
	.cfi_def_cfa_offset 24
	nop
	end args_size
	fn signal_frame
	.cfi_signal_frame
	nop
	end signal_frame
	fn big
	nop
	.cfi_def_cfa_offset 100000
	nop
	end big
	fn negative
	nop
	.cfi_def_cfa_offset -8
	nop
	end negative
	fn two_at_once
	nop
	.cfi_def_cfa_offset 16
	.cfi_def_cfa_offset 32
	nop
	end two_at_once
	fn adjusts
	nop
	.cfi_adjust_cfa_offset 8
	nop
	.cfi_adjust_cfa_offset -8
	nop
	end adjusts
	fn other_registers
	nop
	.cfi_def_cfa_offset 32
	.cfi_offset %rbx, -16
	.cfi_offset %r15, -24
	nop
	.cfi_def_cfa %rbx, 16
	nop
	end other_registers
	fn rbp_cfa_by_register_only
	nop
	.cfi_def_cfa_register %rbp
	nop
	end rbp_cfa_by_register_only
	fn fp_at_positive
	nop
	.cfi_offset %rbp, 8
	nop
	end fp_at_positive
	.globl simple
	.type simple, @function
simple:
	.cfi_startproc simple
	.cfi_def_cfa %rsp, 16
	.cfi_offset %rip, -8
	nop
	.cfi_endproc
	.size simple, . - simple
	.globl simple_without_ra
	.type simple_without_ra, @function
simple_without_ra:
	.cfi_startproc simple
	.cfi_def_cfa %rsp, 16
	nop
	.cfi_endproc
	.size simple_without_ra, . - simple_without_ra
	fn return_column
	.cfi_return_column %rax
	nop
	end return_column
	fn empty
	end empty
	fn long
	.fill 300, 1, 0x90
	.cfi_def_cfa_offset 16
	.fill 400, 1, 0x90
	.cfi_def_cfa_offset 24
	nop
	end long
	fn far_fp
	nop
	.cfi_def_cfa_offset 160
	.cfi_offset %rbp, -136
	nop
	end far_fp
	.section .note.GNU-stack,"",@progbits
