	.file	"rattle"
	.section	".text.amqp_in_place::canonical::are_canonical_values","ax",@progbits
	.p2align	4
	.type	"amqp_in_place::canonical::are_canonical_values",@function
"amqp_in_place::canonical::are_canonical_values":
	pushq	%r15
	pushq	%r14
	pushq	%r13
	pushq	%r12
	pushq	%rbx
	testq	%rsi, %rsi
	je	.LBB0_33
	movq	%rdx, %rbx
	movq	%rdi, %r15
	leaq	-1(%rdx), %r14
	jmp	.LBB0_6
	.p2align	4
.LBB0_2:
	cmpb	$2, 1(%r15)
	jae	.LBB0_36
.LBB0_3:
	addq	$2, %r15
	addq	$-2, %rsi
.LBB0_4:
	movq	%r15, %rcx
	movq	%rsi, %r13
.LBB0_5:
	movq	%r13, %rsi
	movq	%rcx, %r15
	testq	%r13, %r13
	je	.LBB0_33
.LBB0_6:
	movzbl	(%r15), %edx
	cmpq	$1, %rsi
	je	.LBB0_8
	cmpl	$116, %edx
	je	.LBB0_2
.LBB0_8:
	xorl	%eax, %eax
	cmpl	$76, %edx
	je	.LBB0_34
	cmpl	$85, %edx
	je	.LBB0_34
	xorl	%eax, %eax
	addl	$-65, %edx
	cmpl	$55, %edx
	ja	.LBB0_34
	leaq	1(%r15), %rcx
	leaq	-1(%rsi), %r13
	leaq	.LJTI0_0(%rip), %rdi
	movslq	(%rdi,%rdx,4), %rdx
	addq	%rdi, %rdx
	jmpq	*%rdx
.LBB0_29:
	cmpq	$8, %r13
	jb	.LBB0_36
	addq	$9, %r15
	addq	$-9, %rsi
	jmp	.LBB0_4
.LBB0_31:
	cmpq	$4, %r13
	jb	.LBB0_36
	addq	$5, %r15
	addq	$-5, %rsi
	jmp	.LBB0_4
.LBB0_35:
	testq	%r13, %r13
	jne	.LBB0_3
	jmp	.LBB0_36
.LBB0_27:
	cmpq	$2, %r13
	jb	.LBB0_36
	addq	$3, %r15
	addq	$-3, %rsi
	jmp	.LBB0_4
.LBB0_24:
	cmpq	$5, %rsi
	jb	.LBB0_36
	movl	(%rcx), %eax
	bswapl	%eax
	addq	$-5, %rsi
	movq	%rsi, %r13
	subq	%rax, %r13
	jb	.LBB0_36
	leaq	(%r15,%rax), %rcx
	addq	$5, %rcx
	jmp	.LBB0_5
.LBB0_13:
	cmpq	$6, %rsi
	jb	.LBB0_36
	addq	$6, %r15
	addq	$-6, %rsi
	jmp	.LBB0_4
.LBB0_15:
	cmpq	$5, %rsi
	jb	.LBB0_36
	movl	(%rcx), %r12d
	bswapl	%r12d
	addq	$-5, %rsi
	xorl	%eax, %eax
	movq	%rsi, %r13
	subq	%r12, %r13
	jb	.LBB0_34
	testq	%rbx, %rbx
	je	.LBB0_34
	leaq	5(%r15), %rdi
	movq	%r12, %rsi
	movq	%r14, %rdx
	callq	"amqp_in_place::canonical::are_canonical_values"
	testb	%al, %al
	jne	.LBB0_19
	jmp	.LBB0_36
.LBB0_20:
	cmpq	$5, %rsi
	jb	.LBB0_36
	movl	(%rcx), %r12d
	bswapl	%r12d
	addq	$-5, %rsi
	xorl	%eax, %eax
	movq	%rsi, %r13
	subq	%r12, %r13
	jb	.LBB0_34
	testq	%rbx, %rbx
	je	.LBB0_34
	leaq	5(%r15), %rdi
	movq	%r12, %rsi
	movq	%r14, %rdx
	callq	"amqp_in_place::canonical::are_canonical_pairs"
	testb	%al, %al
	je	.LBB0_36
.LBB0_19:
	leaq	(%r15,%r12), %rcx
	addq	$5, %rcx
	jmp	.LBB0_5
.LBB0_33:
	movb	$1, %al
	jmp	.LBB0_34
.LBB0_36:
	xorl	%eax, %eax
.LBB0_34:
	popq	%rbx
	popq	%r12
	popq	%r13
	popq	%r14
	popq	%r15
	retq
.Lfunc_end0:
	.size	"amqp_in_place::canonical::are_canonical_values", .Lfunc_end0-"amqp_in_place::canonical::are_canonical_values"
	.section	".rodata.amqp_in_place::canonical::are_canonical_values","a",@progbits
	.p2align	2, 0x0
.LJTI0_0:
	.long	.LBB0_15-.LJTI0_0
	.long	.LBB0_35-.LJTI0_0
	.long	.LBB0_34-.LJTI0_0
	.long	.LBB0_13-.LJTI0_0
	.long	.LBB0_34-.LJTI0_0
	.long	.LBB0_20-.LJTI0_0
	.long	.LBB0_34-.LJTI0_0
	.long	.LBB0_34-.LJTI0_0
	.long	.LBB0_31-.LJTI0_0
	.long	.LBB0_34-.LJTI0_0
	.long	.LBB0_34-.LJTI0_0
	.long	.LBB0_29-.LJTI0_0
	.long	.LBB0_34-.LJTI0_0
	.long	.LBB0_34-.LJTI0_0
	.long	.LBB0_34-.LJTI0_0
	.long	.LBB0_34-.LJTI0_0
	.long	.LBB0_34-.LJTI0_0
	.long	.LBB0_34-.LJTI0_0
	.long	.LBB0_24-.LJTI0_0
	.long	.LBB0_29-.LJTI0_0
	.long	.LBB0_27-.LJTI0_0
	.long	.LBB0_5-.LJTI0_0
	.long	.LBB0_34-.LJTI0_0
	.long	.LBB0_34-.LJTI0_0
	.long	.LBB0_34-.LJTI0_0
	.long	.LBB0_34-.LJTI0_0
	.long	.LBB0_34-.LJTI0_0
	.long	.LBB0_34-.LJTI0_0
	.long	.LBB0_34-.LJTI0_0
	.long	.LBB0_34-.LJTI0_0
	.long	.LBB0_34-.LJTI0_0
	.long	.LBB0_34-.LJTI0_0
	.long	.LBB0_34-.LJTI0_0
	.long	.LBB0_35-.LJTI0_0
	.long	.LBB0_34-.LJTI0_0
	.long	.LBB0_29-.LJTI0_0
	.long	.LBB0_34-.LJTI0_0
	.long	.LBB0_31-.LJTI0_0
	.long	.LBB0_34-.LJTI0_0
	.long	.LBB0_34-.LJTI0_0
	.long	.LBB0_31-.LJTI0_0
	.long	.LBB0_34-.LJTI0_0
	.long	.LBB0_34-.LJTI0_0
	.long	.LBB0_29-.LJTI0_0
	.long	.LBB0_34-.LJTI0_0
	.long	.LBB0_34-.LJTI0_0
	.long	.LBB0_34-.LJTI0_0
	.long	.LBB0_34-.LJTI0_0
	.long	.LBB0_34-.LJTI0_0
	.long	.LBB0_34-.LJTI0_0
	.long	.LBB0_27-.LJTI0_0
	.long	.LBB0_35-.LJTI0_0
	.long	.LBB0_27-.LJTI0_0
	.long	.LBB0_34-.LJTI0_0
	.long	.LBB0_34-.LJTI0_0
	.long	.LBB0_24-.LJTI0_0

	.section	".text.amqp_in_place::canonical::are_canonical_pairs","ax",@progbits
	.p2align	4
	.type	"amqp_in_place::canonical::are_canonical_pairs",@function
"amqp_in_place::canonical::are_canonical_pairs":
	pushq	%rbp
	pushq	%r15
	pushq	%r14
	pushq	%r13
	pushq	%r12
	pushq	%rbx
	subq	$24, %rsp
	testq	%rsi, %rsi
	je	.LBB1_1
	movq	%rsi, %r13
	movq	%rdi, %rbp
	movq	%rdx, 16(%rsp)
	leaq	-1(%rdx), %rax
	movq	%rax, 8(%rsp)
	xorl	%r15d, %r15d
	xorl	%r12d, %r12d
	xorl	%eax, %eax
	.p2align	4
.LBB1_3:
	movq	%r15, %rsi
	decq	%r13
	movzbl	(%rbp), %r15d
	movq	%r13, %r14
	subq	%r15, %r14
	jb	.LBB1_6
	movq	%r12, %rdi
	leaq	1(%rbp), %r12
	testb	$1, %al
	je	.LBB1_8
	movq	%r12, %rdx
	movq	%r15, %rcx
	callq	"core::cmp::slices::RefSliceOrd::cmp::<#914af4d8504a0b72>"
	testb	%al, %al
	jne	.LBB1_6
.LBB1_8:
	cmpb	$7, %r15b
	ja	.LBB1_24
	testq	%r15, %r15
	je	.LBB1_26
	cmpb	$0, 1(%rbp)
	js	.LBB1_25
	cmpl	$1, %r15d
	je	.LBB1_26
	cmpb	$0, 2(%rbp)
	js	.LBB1_25
	cmpl	$2, %r15d
	je	.LBB1_26
	cmpb	$0, 3(%rbp)
	js	.LBB1_25
	cmpl	$3, %r15d
	je	.LBB1_26
	cmpb	$0, 4(%rbp)
	js	.LBB1_25
	cmpl	$4, %r15d
	je	.LBB1_26
	cmpb	$0, 5(%rbp)
	js	.LBB1_25
	cmpl	$5, %r15d
	je	.LBB1_26
	cmpb	$0, 6(%rbp)
	js	.LBB1_25
	cmpl	$6, %r15d
	je	.LBB1_26
	cmpb	$0, 7(%rbp)
	js	.LBB1_25
	cmpb	$7, %r15b
	je	.LBB1_26
	jmp	.LBB1_25
	.p2align	4
.LBB1_24:
	movq	%r12, %rdi
	movq	%r15, %rsi
	callq	"amqp_in_place::read::is_ascii_by_words"
	testb	%al, %al
	je	.LBB1_25
.LBB1_26:
	leaq	(%r12,%r15), %rbx
	testq	%r14, %r14
	je	.LBB1_31
	cmpq	$1, %r14
	jne	.LBB1_28
	movzbl	(%rbx), %ecx
	xorl	%eax, %eax
	jmp	.LBB1_29
	.p2align	4
.LBB1_28:
	movzbl	(%rbx), %ecx
	xorl	%eax, %eax
	cmpl	$116, %ecx
	je	.LBB1_32
.LBB1_29:
	cmpl	$76, %ecx
	je	.LBB1_7
	cmpl	$85, %ecx
	je	.LBB1_7
.LBB1_31:
	cmpq	%r15, %r13
	je	.LBB1_6
.LBB1_34:
	movzbl	(%rbx), %ecx
	xorl	%eax, %eax
	addl	$-65, %ecx
	cmpl	$55, %ecx
	ja	.LBB1_7
	leaq	1(%rbx), %rbp
	leaq	-1(%r14), %r13
	leaq	.LJTI1_0(%rip), %rdx
	movslq	(%rdx,%rcx,4), %rcx
	addq	%rdx, %rcx
	jmpq	*%rcx
.LBB1_44:
	cmpq	$8, %r13
	jb	.LBB1_6
	addq	$9, %rbx
	addq	$-9, %r14
	jmp	.LBB1_39
.LBB1_32:
	cmpb	$1, 1(%rbx)
	ja	.LBB1_7
	cmpq	%r15, %r13
	jne	.LBB1_34
	jmp	.LBB1_7
.LBB1_37:
	testq	%r13, %r13
	je	.LBB1_6
	addq	$2, %rbx
	addq	$-2, %r14
	jmp	.LBB1_39
.LBB1_42:
	cmpq	$4, %r13
	jb	.LBB1_6
	addq	$5, %rbx
	addq	$-5, %r14
	jmp	.LBB1_39
.LBB1_40:
	cmpq	$2, %r13
	jb	.LBB1_6
	addq	$3, %rbx
	addq	$-3, %r14
	jmp	.LBB1_39
.LBB1_58:
	cmpq	$4, %r13
	jb	.LBB1_6
	movl	(%rbp), %eax
	bswapl	%eax
	addq	$-5, %r14
	movq	%r14, %r13
	subq	%rax, %r13
	jb	.LBB1_6
	leaq	(%rbx,%rax), %rbp
	addq	$5, %rbp
	movb	$1, %al
	testq	%r13, %r13
	jne	.LBB1_3
	jmp	.LBB1_7
.LBB1_25:
	movq	%r12, %rdi
	movq	%r15, %rsi
	callq	"amqp_in_place::read::is_utf8"
	testb	%al, %al
	jne	.LBB1_26
	jmp	.LBB1_6
.LBB1_53:
	cmpq	$4, %r13
	jb	.LBB1_6
	movl	(%rbp), %ebp
	bswapl	%ebp
	addq	$-5, %r14
	xorl	%eax, %eax
	movq	%r14, %r13
	subq	%rbp, %r13
	jb	.LBB1_7
	cmpq	$0, 16(%rsp)
	je	.LBB1_7
	leaq	5(%rbx), %rdi
	movq	%rbp, %rsi
	movq	8(%rsp), %rdx
	callq	"amqp_in_place::canonical::are_canonical_pairs"
	testb	%al, %al
	je	.LBB1_6
	addq	%rbx, %rbp
	addq	$5, %rbp
	movb	$1, %al
	testq	%r13, %r13
	jne	.LBB1_3
	jmp	.LBB1_7
.LBB1_46:
	leaq	-1(%r14), %rax
	cmpq	$5, %rax
	jb	.LBB1_6
	addq	$6, %rbx
	addq	$-6, %r14
	.p2align	4
.LBB1_39:
	movq	%rbx, %rbp
	movq	%r14, %r13
.LBB1_61:
	movb	$1, %al
	testq	%r13, %r13
	jne	.LBB1_3
	jmp	.LBB1_7
.LBB1_48:
	cmpq	$4, %r13
	jb	.LBB1_6
	movl	(%rbp), %ebp
	bswapl	%ebp
	addq	$-5, %r14
	xorl	%eax, %eax
	movq	%r14, %r13
	subq	%rbp, %r13
	jb	.LBB1_7
	cmpq	$0, 16(%rsp)
	je	.LBB1_7
	leaq	5(%rbx), %rdi
	movq	%rbp, %rsi
	movq	8(%rsp), %rdx
	callq	"amqp_in_place::canonical::are_canonical_values"
	testb	%al, %al
	je	.LBB1_6
	addq	%rbx, %rbp
	addq	$5, %rbp
	movb	$1, %al
	testq	%r13, %r13
	jne	.LBB1_3
	jmp	.LBB1_7
.LBB1_6:
	xorl	%eax, %eax
	jmp	.LBB1_7
.LBB1_1:
	movb	$1, %al
.LBB1_7:
	addq	$24, %rsp
	popq	%rbx
	popq	%r12
	popq	%r13
	popq	%r14
	popq	%r15
	popq	%rbp
	retq
.Lfunc_end1:
	.size	"amqp_in_place::canonical::are_canonical_pairs", .Lfunc_end1-"amqp_in_place::canonical::are_canonical_pairs"
	.section	".rodata.amqp_in_place::canonical::are_canonical_pairs","a",@progbits
	.p2align	2, 0x0
.LJTI1_0:
	.long	.LBB1_48-.LJTI1_0
	.long	.LBB1_37-.LJTI1_0
	.long	.LBB1_7-.LJTI1_0
	.long	.LBB1_46-.LJTI1_0
	.long	.LBB1_7-.LJTI1_0
	.long	.LBB1_53-.LJTI1_0
	.long	.LBB1_7-.LJTI1_0
	.long	.LBB1_7-.LJTI1_0
	.long	.LBB1_42-.LJTI1_0
	.long	.LBB1_7-.LJTI1_0
	.long	.LBB1_7-.LJTI1_0
	.long	.LBB1_44-.LJTI1_0
	.long	.LBB1_7-.LJTI1_0
	.long	.LBB1_7-.LJTI1_0
	.long	.LBB1_7-.LJTI1_0
	.long	.LBB1_7-.LJTI1_0
	.long	.LBB1_7-.LJTI1_0
	.long	.LBB1_7-.LJTI1_0
	.long	.LBB1_58-.LJTI1_0
	.long	.LBB1_44-.LJTI1_0
	.long	.LBB1_40-.LJTI1_0
	.long	.LBB1_61-.LJTI1_0
	.long	.LBB1_7-.LJTI1_0
	.long	.LBB1_7-.LJTI1_0
	.long	.LBB1_7-.LJTI1_0
	.long	.LBB1_7-.LJTI1_0
	.long	.LBB1_7-.LJTI1_0
	.long	.LBB1_7-.LJTI1_0
	.long	.LBB1_7-.LJTI1_0
	.long	.LBB1_7-.LJTI1_0
	.long	.LBB1_7-.LJTI1_0
	.long	.LBB1_7-.LJTI1_0
	.long	.LBB1_7-.LJTI1_0
	.long	.LBB1_37-.LJTI1_0
	.long	.LBB1_7-.LJTI1_0
	.long	.LBB1_44-.LJTI1_0
	.long	.LBB1_7-.LJTI1_0
	.long	.LBB1_42-.LJTI1_0
	.long	.LBB1_7-.LJTI1_0
	.long	.LBB1_7-.LJTI1_0
	.long	.LBB1_42-.LJTI1_0
	.long	.LBB1_7-.LJTI1_0
	.long	.LBB1_7-.LJTI1_0
	.long	.LBB1_44-.LJTI1_0
	.long	.LBB1_7-.LJTI1_0
	.long	.LBB1_7-.LJTI1_0
	.long	.LBB1_7-.LJTI1_0
	.long	.LBB1_7-.LJTI1_0
	.long	.LBB1_7-.LJTI1_0
	.long	.LBB1_7-.LJTI1_0
	.long	.LBB1_40-.LJTI1_0
	.long	.LBB1_37-.LJTI1_0
	.long	.LBB1_40-.LJTI1_0
	.long	.LBB1_7-.LJTI1_0
	.long	.LBB1_7-.LJTI1_0
	.long	.LBB1_58-.LJTI1_0

	.section	".text.core::cmp::slices::RefSliceOrd::cmp::<#914af4d8504a0b72>","ax",@progbits
	.p2align	4
	.type	"core::cmp::slices::RefSliceOrd::cmp::<#914af4d8504a0b72>",@function
"core::cmp::slices::RefSliceOrd::cmp::<#914af4d8504a0b72>":
	cmpq	%rsi, %rcx
	movq	%rsi, %rax
	cmovbq	%rcx, %rax
	xorl	%r8d, %r8d
	cmpq	$64, %rax
	jb	.LBB2_4
	movq	%rax, %r9
	.p2align	4
.LBB2_2:
	movdqu	(%rdi,%r8), %xmm0
	movdqu	16(%rdi,%r8), %xmm1
	movdqu	32(%rdi,%r8), %xmm2
	movdqu	48(%rdi,%r8), %xmm3
	movdqu	(%rdx,%r8), %xmm4
	pcmpeqb	%xmm0, %xmm4
	movdqu	16(%rdx,%r8), %xmm0
	pcmpeqb	%xmm1, %xmm0
	movdqu	32(%rdx,%r8), %xmm1
	pcmpeqb	%xmm2, %xmm1
	pand	%xmm4, %xmm1
	movdqu	48(%rdx,%r8), %xmm2
	pcmpeqb	%xmm3, %xmm2
	pand	%xmm0, %xmm2
	pand	%xmm1, %xmm2
	pmovmskb	%xmm2, %r10d
	cmpl	$65535, %r10d
	jne	.LBB2_4
	addq	$64, %r8
	addq	$-64, %r9
	cmpq	$63, %r9
	ja	.LBB2_2
.LBB2_4:
	movq	%rax, %r9
	subq	%r8, %r9
	cmpq	$8, %r9
	jb	.LBB2_7
	.p2align	4
.LBB2_5:
	movq	(%rdi,%r8), %r10
	cmpq	(%rdx,%r8), %r10
	jne	.LBB2_7
	addq	$8, %r8
	addq	$-8, %r9
	cmpq	$7, %r9
	ja	.LBB2_5
.LBB2_7:
	cmpq	%rax, %r8
	jae	.LBB2_8
	.p2align	4
.LBB2_10:
	movzbl	(%rdx,%r8), %r9d
	cmpb	%r9b, (%rdi,%r8)
	jne	.LBB2_11
	incq	%r8
	cmpq	%r8, %rax
	jne	.LBB2_10
.LBB2_8:
	cmpq	%rcx, %rsi
	setae	%al
	addb	%al, %al
	cmpq	%rcx, %rsi
	movzbl	%al, %ecx
	movl	$1, %eax
	cmovnel	%ecx, %eax
	retq
.LBB2_11:
	setae	%al
	addb	%al, %al
	retq
.Lfunc_end2:
	.size	"core::cmp::slices::RefSliceOrd::cmp::<#914af4d8504a0b72>", .Lfunc_end2-"core::cmp::slices::RefSliceOrd::cmp::<#914af4d8504a0b72>"

	.section	".text.amqp_in_place::read::is_ascii_by_words","ax",@progbits
	.p2align	4
	.type	"amqp_in_place::read::is_ascii_by_words",@function
"amqp_in_place::read::is_ascii_by_words":
	subq	$24, %rsp
	movq	%rdi, 8(%rsp)
	movq	%rsi, 16(%rsp)
	cmpq	$64, %rsi
	ja	.LBB3_6
	cmpq	$32, %rsi
	jb	.LBB3_3
	movdqu	(%rdi), %xmm0
	movdqu	16(%rdi), %xmm1
	movdqu	-32(%rdi,%rsi), %xmm2
	por	%xmm0, %xmm2
	movdqu	-16(%rdi,%rsi), %xmm0
	por	%xmm1, %xmm0
	por	%xmm2, %xmm0
	pshufd	$238, %xmm0, %xmm1
	por	%xmm0, %xmm1
	movq	%xmm1, %rax
	movabsq	$-9187201950435737472, %rcx
	testq	%rcx, %rax
	je	.LBB3_5
.LBB3_6:
	leaq	8(%rsp), %rdi
	callq	"core::slice::words::any_by_first::<#52f9edcae2f82f51>"
	xorb	$1, %al
	addq	$24, %rsp
	retq
.LBB3_3:
	leaq	-8(%rsi), %rcx
	cmpq	$8, %rcx
	movl	$8, %eax
	cmovbq	%rcx, %rax
	movq	(%rdi,%rax), %rax
	orq	(%rdi), %rax
	cmpq	$16, %rcx
	movl	$16, %edx
	cmovbq	%rcx, %rdx
	orq	(%rdi,%rdx), %rax
	orq	-8(%rdi,%rsi), %rax
	movabsq	$-9187201950435737472, %rcx
	testq	%rcx, %rax
	jne	.LBB3_6
.LBB3_5:
	movb	$1, %al
	addq	$24, %rsp
	retq
.Lfunc_end3:
	.size	"amqp_in_place::read::is_ascii_by_words", .Lfunc_end3-"amqp_in_place::read::is_ascii_by_words"

	.section	".text.core::slice::words::any_by_first::<#52f9edcae2f82f51>","ax",@progbits
	.p2align	4
	.type	"core::slice::words::any_by_first::<#52f9edcae2f82f51>",@function
"core::slice::words::any_by_first::<#52f9edcae2f82f51>":
	pushq	%rbx
	movq	%rsi, %rbx
	xorl	%esi, %esi
	movq	%rbx, %rdx
	callq	"core::slice::words::first::<#52f9edcae2f82f51>"
	cmpq	%rbx, %rax
	setb	%al
	popq	%rbx
	retq
.Lfunc_end4:
	.size	"core::slice::words::any_by_first::<#52f9edcae2f82f51>", .Lfunc_end4-"core::slice::words::any_by_first::<#52f9edcae2f82f51>"

	.section	".text.core::slice::words::first::<#52f9edcae2f82f51>","ax",@progbits
	.p2align	4
	.type	"core::slice::words::first::<#52f9edcae2f82f51>",@function
"core::slice::words::first::<#52f9edcae2f82f51>":
	pushq	%r15
	pushq	%r14
	pushq	%r12
	pushq	%rbx
	pushq	%rax
	movq	%rdx, %rbx
	movq	%rdi, %r14
	movq	%rdx, %rax
	subq	%rsi, %rax
	cmpq	$8, %rax
	jae	.LBB5_6
	cmpq	%rsi, %rbx
	jbe	.LBB5_21
	movq	(%r14), %rax
	.p2align	4
.LBB5_3:
	cmpb	$0, (%rax,%rsi)
	js	.LBB5_22
	incq	%rsi
	cmpq	%rsi, %rbx
	jne	.LBB5_3
	jmp	.LBB5_21
.LBB5_6:
	movabsq	$-9187201950435737472, %r15
	movq	(%r14), %r12
	movq	(%r12,%rsi), %rax
	andq	%r15, %rax
	je	.LBB5_10
	rep		bsfq	%rax, %rax
	shrl	$3, %eax
	addq	%rsi, %rax
	addq	$8, %rsi
	cmpq	%rsi, %rax
	movq	%rax, %rsi
	jb	.LBB5_22
	movq	%rbx, %rcx
	subq	%rax, %rcx
	cmpq	$32, %rcx
	jae	.LBB5_11
	jmp	.LBB5_13
.LBB5_10:
	addq	$8, %rsi
	movq	%rsi, %rax
	movq	%rbx, %rcx
	subq	%rax, %rcx
	cmpq	$32, %rcx
	jb	.LBB5_13
	.p2align	4
.LBB5_11:
	movdqu	(%r12,%rax), %xmm0
	movdqu	16(%r12,%rax), %xmm1
	por	%xmm0, %xmm1
	pshufd	$238, %xmm1, %xmm0
	por	%xmm1, %xmm0
	movq	%xmm0, %rcx
	testq	%r15, %rcx
	jne	.LBB5_13
	addq	$32, %rax
	movq	%r14, %rdi
	movq	%rax, %rsi
	movq	%rbx, %rdx
	callq	"core::slice::words::skip_far::<#52f9edcae2f82f51>"
	movq	%rbx, %rcx
	subq	%rax, %rcx
	cmpq	$31, %rcx
	ja	.LBB5_11
.LBB5_13:
	movq	%rbx, %rcx
	subq	%rax, %rcx
	jmp	.LBB5_16
	.p2align	4
.LBB5_14:
	rep		bsfq	%rdx, %rsi
	shrl	$3, %esi
	addq	%rax, %rsi
	addq	$8, %rax
	addq	$-8, %rcx
	cmpq	%rax, %rsi
	jb	.LBB5_22
.LBB5_16:
	cmpq	$9, %rcx
	jb	.LBB5_19
	movq	(%r12,%rax), %rdx
	andq	%r15, %rdx
	jne	.LBB5_14
	leaq	8(%rax), %rsi
	addq	$8, %rax
	addq	$-8, %rcx
	cmpq	%rax, %rsi
	jae	.LBB5_16
	jmp	.LBB5_22
.LBB5_19:
	andq	-8(%r12,%rbx), %r15
	je	.LBB5_21
	addq	$-8, %rbx
	rep		bsfq	%r15, %rsi
	shrl	$3, %esi
	addq	%rbx, %rsi
	jmp	.LBB5_22
.LBB5_21:
	movq	%rbx, %rsi
.LBB5_22:
	movq	%rsi, %rax
	addq	$8, %rsp
	popq	%rbx
	popq	%r12
	popq	%r14
	popq	%r15
	retq
.Lfunc_end5:
	.size	"core::slice::words::first::<#52f9edcae2f82f51>", .Lfunc_end5-"core::slice::words::first::<#52f9edcae2f82f51>"

	.section	".text.core::slice::words::skip_far::<#52f9edcae2f82f51>","ax",@progbits
	.p2align	4
	.type	"core::slice::words::skip_far::<#52f9edcae2f82f51>",@function
"core::slice::words::skip_far::<#52f9edcae2f82f51>":
	movq	%rsi, %rax
	subq	%rsi, %rdx
	cmpq	$64, %rdx
	jb	.LBB6_4
	movq	(%rdi), %rcx
	.p2align	4
.LBB6_2:
	movdqu	(%rcx,%rax), %xmm0
	movdqu	16(%rcx,%rax), %xmm1
	movdqu	32(%rcx,%rax), %xmm2
	por	%xmm0, %xmm2
	movdqu	48(%rcx,%rax), %xmm0
	por	%xmm1, %xmm0
	por	%xmm2, %xmm0
	pshufd	$238, %xmm0, %xmm1
	por	%xmm0, %xmm1
	movq	%xmm1, %rsi
	movabsq	$-9187201950435737472, %rdi
	testq	%rdi, %rsi
	jne	.LBB6_4
	addq	$64, %rax
	addq	$-64, %rdx
	cmpq	$63, %rdx
	ja	.LBB6_2
.LBB6_4:
	retq
.Lfunc_end6:
	.size	"core::slice::words::skip_far::<#52f9edcae2f82f51>", .Lfunc_end6-"core::slice::words::skip_far::<#52f9edcae2f82f51>"

	.section	.rodata.cst16,"aM",@progbits,16
	.p2align	4, 0x0
.LCPI7_0:
	.zero	16,240
.LCPI7_1:
	.zero	16,192
.LCPI7_2:
	.zero	16,128
.LCPI7_3:
	.zero	16,224
.LCPI7_4:
	.zero	16,160
.LCPI7_5:
	.zero	16,144
.LCPI7_6:
	.zero	16,237
.LCPI7_7:
	.zero	16,244
.LCPI7_8:
	.zero	16,127
.LCPI7_9:
	.zero	16,254
.LCPI7_10:
	.zero	16,1
.LCPI7_11:
	.zero	16,96
.LCPI7_12:
	.zero	16,112
.LCPI7_13:
	.byte	255
	.byte	255
	.byte	255
	.byte	255
	.byte	255
	.byte	255
	.byte	255
	.byte	255
	.byte	255
	.byte	255
	.byte	255
	.byte	255
	.byte	255
	.byte	239
	.byte	223
	.byte	191
.LCPI7_14:
	.long	255
	.long	0
	.long	0
	.long	0
.LCPI7_15:
	.byte	0
	.byte	255
	.byte	255
	.byte	255
	.byte	255
	.byte	255
	.byte	255
	.byte	255
	.byte	255
	.byte	255
	.byte	255
	.byte	255
	.byte	255
	.byte	0
	.byte	0
	.byte	0
.LCPI7_16:
	.byte	255
	.byte	255
	.byte	255
	.byte	255
	.byte	255
	.byte	0
	.byte	0
	.byte	0
	.byte	0
	.byte	0
	.byte	0
	.byte	0
	.byte	0
	.byte	255
	.byte	255
	.byte	255
.LCPI7_17:
	.byte	255
	.byte	255
	.byte	255
	.byte	255
	.byte	255
	.byte	255
	.byte	255
	.byte	255
	.byte	255
	.byte	255
	.byte	255
	.byte	255
	.byte	255
	.byte	0
	.byte	255
	.byte	255
.LCPI7_18:
	.byte	255
	.byte	255
	.byte	255
	.byte	255
	.byte	255
	.byte	255
	.byte	255
	.byte	255
	.byte	255
	.byte	255
	.byte	255
	.byte	255
	.byte	255
	.byte	255
	.byte	0
	.byte	255
.LCPI7_19:
	.byte	255
	.byte	255
	.byte	255
	.byte	255
	.byte	255
	.byte	255
	.byte	255
	.byte	255
	.byte	255
	.byte	255
	.byte	255
	.byte	255
	.byte	255
	.byte	255
	.byte	255
	.byte	0
	.section	".text.unlikely.amqp_in_place::read::is_utf8","ax",@progbits
	.p2align	4
	.type	"amqp_in_place::read::is_utf8",@function
"amqp_in_place::read::is_utf8":
	subq	$728, %rsp
	movq	%rsi, %rdx
	movq	%rdi, %rsi
	pxor	%xmm3, %xmm3
	cmpq	$64, %rdx
	jb	.LBB7_1
	movq	%rdx, %rcx
	negq	%rcx
	xorl	%eax, %eax
	movq	%rsi, %rdi
	.p2align	4
.LBB7_3:
	movdqu	(%rdi), %xmm0
	movdqu	16(%rdi), %xmm1
	por	%xmm0, %xmm1
	movdqu	32(%rdi), %xmm0
	movdqu	48(%rdi), %xmm2
	por	%xmm0, %xmm2
	por	%xmm1, %xmm2
	pmovmskb	%xmm2, %r8d
	testl	%r8d, %r8d
	jne	.LBB7_4
	addq	$64, %rdi
	addq	$64, %rcx
	leaq	(%rdx,%rax), %r8
	addq	$-64, %r8
	addq	$-64, %rax
	cmpq	$63, %r8
	ja	.LBB7_3
	addq	%rax, %rdx
	negq	%rax
	pxor	%xmm0, %xmm0
	movdqa	%xmm0, 192(%rsp)
	xorl	%edi, %edi
	movdqa	%xmm0, 144(%rsp)
	movdqa	%xmm0, 176(%rsp)
	movdqa	%xmm0, 160(%rsp)
	movdqa	%xmm0, 32(%rsp)
	movdqa	%xmm0, (%rsp)
	movdqa	%xmm0, 48(%rsp)
	movdqa	%xmm0, 16(%rsp)
	movdqa	%xmm0, 112(%rsp)
	jmp	.LBB7_12
.LBB7_1:
	xorl	%eax, %eax
	pxor	%xmm0, %xmm0
	movdqa	%xmm0, 192(%rsp)
	movdqa	%xmm0, 144(%rsp)
	movdqa	%xmm0, 176(%rsp)
	movdqa	%xmm0, 160(%rsp)
	movdqa	%xmm0, 32(%rsp)
	movdqa	%xmm0, (%rsp)
	movdqa	%xmm0, 48(%rsp)
	movdqa	%xmm0, 16(%rsp)
	movdqa	%xmm0, 112(%rsp)
	xorl	%edi, %edi
	jmp	.LBB7_12
.LBB7_4:
	movq	%rcx, %r8
	negq	%r8
	negq	%rax
	pxor	%xmm2, %xmm2
	xorl	%edx, %edx
	pxor	%xmm10, %xmm10
	pxor	%xmm13, %xmm13
	pxor	%xmm15, %xmm15
	pxor	%xmm12, %xmm12
	pxor	%xmm3, %xmm3
	pxor	%xmm7, %xmm7
	pxor	%xmm5, %xmm5
	pxor	%xmm6, %xmm6
	jmp	.LBB7_5
	.p2align	4
.LBB7_7:
	movdqa	%xmm4, %xmm12
	movdqa	%xmm4, %xmm0
	psrldq	$15, %xmm0
	movdqa	%xmm8, 256(%rsp)
	movdqa	%xmm8, %xmm10
	pslldq	$1, %xmm10
	por	%xmm0, %xmm10
	movdqa	%xmm8, %xmm0
	psrldq	$15, %xmm0
	movdqa	%xmm9, %xmm1
	pslldq	$1, %xmm1
	por	%xmm0, %xmm1
	movdqa	%xmm9, %xmm0
	movdqa	%xmm9, %xmm13
	psrldq	$15, %xmm0
	movdqa	%xmm11, %xmm14
	pslldq	$1, %xmm14
	por	%xmm0, %xmm14
	movdqa	%xmm4, %xmm0
	pslldq	$1, %xmm0
	movdqa	%xmm2, (%rsp)
	movdqa	(%rsp), %xmm9
	psrldq	$15, %xmm9
	por	%xmm0, %xmm9
	movdqa	%xmm7, 144(%rsp)
	movdqa	.LCPI7_1(%rip), %xmm7
	movdqa	%xmm10, %xmm0
	pmaxub	%xmm7, %xmm0
	movdqa	%xmm5, 176(%rsp)
	movdqa	%xmm0, %xmm5
	movdqa	%xmm1, %xmm0
	pmaxub	%xmm7, %xmm0
	pcmpeqb	%xmm1, %xmm0
	movdqa	%xmm1, %xmm8
	movdqa	%xmm14, %xmm1
	pmaxub	%xmm7, %xmm1
	pcmpeqb	%xmm14, %xmm1
	movdqa	%xmm9, %xmm2
	pmaxub	%xmm7, %xmm2
	pcmpeqb	%xmm9, %xmm2
	movdqa	%xmm3, 192(%rsp)
	movdqa	%xmm7, %xmm3
	movdqa	%xmm7, %xmm4
	movdqa	%xmm7, %xmm15
	movdqa	%xmm12, 400(%rsp)
	pcmpgtb	%xmm12, %xmm15
	pcmpgtb	%xmm11, %xmm3
	pcmpgtb	%xmm13, %xmm4
	movdqa	%xmm13, 592(%rsp)
	movdqa	%xmm15, 96(%rsp)
	pxor	%xmm2, %xmm15
	movdqa	%xmm15, 240(%rsp)
	movdqa	%xmm3, 80(%rsp)
	pxor	%xmm1, %xmm3
	movdqa	%xmm3, 48(%rsp)
	movdqa	%xmm4, 128(%rsp)
	pxor	%xmm0, %xmm4
	movdqa	%xmm4, 32(%rsp)
	movdqa	.LCPI7_0(%rip), %xmm15
	pand	%xmm15, %xmm12
	movdqa	%xmm12, 16(%rsp)
	movdqa	%xmm11, %xmm0
	pand	%xmm15, %xmm0
	movdqa	%xmm0, 560(%rsp)
	pand	%xmm15, %xmm13
	movdqa	%xmm13, 544(%rsp)
	movdqa	256(%rsp), %xmm4
	movdqa	%xmm4, %xmm0
	pand	%xmm15, %xmm0
	movdqa	%xmm0, 576(%rsp)
	movdqa	%xmm7, %xmm0
	pcmpgtb	%xmm9, %xmm0
	movdqa	%xmm0, 528(%rsp)
	movdqa	%xmm7, %xmm0
	pcmpgtb	%xmm14, %xmm0
	movdqa	%xmm0, 512(%rsp)
	movdqa	%xmm7, %xmm0
	pcmpgtb	%xmm8, %xmm0
	movdqa	%xmm0, 496(%rsp)
	movdqa	%xmm7, %xmm1
	movdqa	%xmm7, %xmm3
	pcmpgtb	%xmm10, %xmm1
	pcmpeqb	%xmm10, %xmm5
	movdqa	%xmm5, 448(%rsp)
	movdqa	.LCPI7_3(%rip), %xmm13
	movdqa	%xmm9, %xmm0
	pcmpeqb	%xmm13, %xmm0
	movdqa	%xmm0, 480(%rsp)
	movdqa	%xmm14, %xmm0
	pcmpeqb	%xmm13, %xmm0
	movdqa	%xmm0, 464(%rsp)
	movdqa	%xmm8, %xmm0
	pcmpeqb	%xmm13, %xmm0
	movdqa	%xmm0, 432(%rsp)
	pcmpeqb	%xmm10, %xmm13
	movdqa	%xmm9, %xmm0
	pcmpeqb	%xmm15, %xmm0
	movdqa	%xmm0, 224(%rsp)
	movdqa	%xmm14, %xmm0
	pcmpeqb	%xmm15, %xmm0
	movdqa	%xmm0, 64(%rsp)
	movdqa	%xmm8, %xmm0
	pcmpeqb	%xmm15, %xmm0
	movdqa	%xmm0, 416(%rsp)
	pcmpeqb	%xmm10, %xmm15
	movdqa	%xmm11, 112(%rsp)
	movdqa	.LCPI7_6(%rip), %xmm11
	movdqa	%xmm9, %xmm12
	pcmpeqb	%xmm11, %xmm12
	movdqa	%xmm14, %xmm0
	pcmpeqb	%xmm11, %xmm0
	movdqa	%xmm0, 368(%rsp)
	movdqa	%xmm8, %xmm0
	pcmpeqb	%xmm11, %xmm0
	movdqa	%xmm0, 352(%rsp)
	pcmpeqb	%xmm10, %xmm11
	movdqa	%xmm9, 384(%rsp)
	movdqa	%xmm9, 336(%rsp)
	movdqa	.LCPI7_9(%rip), %xmm0
	pand	%xmm0, %xmm9
	movdqa	%xmm14, %xmm7
	movdqa	%xmm14, 320(%rsp)
	pand	%xmm0, %xmm14
	movdqa	%xmm6, 160(%rsp)
	movdqa	%xmm8, %xmm6
	movdqa	%xmm8, 304(%rsp)
	pand	%xmm0, %xmm8
	movdqa	%xmm10, %xmm2
	movdqa	%xmm10, 288(%rsp)
	pand	%xmm0, %xmm2
	pcmpeqb	%xmm3, %xmm2
	movdqa	%xmm2, 208(%rsp)
	pcmpeqb	%xmm3, %xmm8
	movdqa	%xmm8, 272(%rsp)
	pcmpeqb	%xmm3, %xmm14
	pcmpeqb	%xmm3, %xmm9
	pcmpgtb	%xmm4, %xmm3
	movdqa	%xmm3, %xmm8
	pxor	448(%rsp), %xmm3
	movdqa	.LCPI7_2(%rip), %xmm2
	pand	%xmm2, %xmm8
	pand	%xmm1, %xmm8
	psubusb	%xmm1, %xmm3
	movdqa	128(%rsp), %xmm1
	pand	%xmm2, %xmm1
	movdqa	496(%rsp), %xmm0
	pand	%xmm0, %xmm1
	movdqa	%xmm1, 128(%rsp)
	movdqa	32(%rsp), %xmm1
	psubusb	%xmm0, %xmm1
	movdqa	%xmm1, 32(%rsp)
	movdqa	80(%rsp), %xmm1
	pand	%xmm2, %xmm1
	movdqa	512(%rsp), %xmm0
	pand	%xmm0, %xmm1
	movdqa	%xmm1, 80(%rsp)
	movdqa	48(%rsp), %xmm1
	psubusb	%xmm0, %xmm1
	movdqa	%xmm1, 48(%rsp)
	movdqa	96(%rsp), %xmm0
	pand	%xmm2, %xmm0
	movdqa	528(%rsp), %xmm4
	pand	%xmm4, %xmm0
	movdqa	%xmm0, 96(%rsp)
	movdqa	240(%rsp), %xmm1
	psubusb	%xmm4, %xmm1
	movdqa	%xmm1, 240(%rsp)
	movdqa	.LCPI7_4(%rip), %xmm2
	pand	%xmm2, %xmm13
	movdqa	432(%rsp), %xmm4
	pand	%xmm2, %xmm4
	movdqa	464(%rsp), %xmm0
	pand	%xmm2, %xmm0
	movdqa	480(%rsp), %xmm1
	pand	%xmm2, %xmm1
	movdqa	.LCPI7_5(%rip), %xmm2
	pand	%xmm2, %xmm15
	por	%xmm13, %xmm15
	movdqa	416(%rsp), %xmm13
	pand	%xmm2, %xmm13
	por	%xmm4, %xmm13
	movdqa	64(%rsp), %xmm5
	pand	%xmm2, %xmm5
	por	%xmm0, %xmm5
	movdqa	224(%rsp), %xmm0
	pand	%xmm2, %xmm0
	por	%xmm1, %xmm0
	movdqa	%xmm0, 224(%rsp)
	pcmpeqd	%xmm4, %xmm4
	pxor	%xmm4, %xmm12
	por	%xmm2, %xmm12
	movdqa	%xmm12, 64(%rsp)
	movdqa	368(%rsp), %xmm12
	pxor	%xmm4, %xmm12
	por	%xmm2, %xmm12
	movdqa	352(%rsp), %xmm0
	pxor	%xmm4, %xmm0
	por	%xmm2, %xmm0
	pxor	%xmm4, %xmm11
	por	%xmm2, %xmm11
	movdqa	.LCPI7_7(%rip), %xmm1
	pcmpeqb	%xmm1, %xmm10
	movdqa	.LCPI7_8(%rip), %xmm2
	pand	%xmm2, %xmm10
	pandn	%xmm11, %xmm10
	pcmpeqb	%xmm1, %xmm6
	pand	%xmm2, %xmm6
	pandn	%xmm0, %xmm6
	pcmpeqb	%xmm1, %xmm7
	pand	%xmm2, %xmm7
	pandn	%xmm12, %xmm7
	movdqa	384(%rsp), %xmm0
	pcmpeqb	%xmm1, %xmm0
	pand	%xmm2, %xmm0
	pandn	64(%rsp), %xmm0
	movdqa	16(%rsp), %xmm2
	movdqa	224(%rsp), %xmm4
	psubusb	%xmm2, %xmm4
	psubusb	%xmm0, %xmm2
	movdqa	%xmm2, 16(%rsp)
	movdqa	560(%rsp), %xmm12
	psubusb	%xmm12, %xmm5
	movdqa	%xmm5, 64(%rsp)
	psubusb	%xmm7, %xmm12
	movdqa	544(%rsp), %xmm7
	psubusb	%xmm7, %xmm13
	psubusb	%xmm6, %xmm7
	movdqa	576(%rsp), %xmm6
	psubusb	%xmm6, %xmm15
	psubusb	%xmm10, %xmm6
	movdqa	288(%rsp), %xmm2
	psubusb	%xmm1, %xmm2
	por	%xmm8, %xmm2
	movdqa	304(%rsp), %xmm0
	psubusb	%xmm1, %xmm0
	por	128(%rsp), %xmm0
	movdqa	%xmm0, %xmm11
	movdqa	320(%rsp), %xmm0
	psubusb	%xmm1, %xmm0
	por	80(%rsp), %xmm0
	movdqa	%xmm0, %xmm5
	movdqa	336(%rsp), %xmm0
	psubusb	%xmm1, %xmm0
	por	96(%rsp), %xmm0
	movdqa	.LCPI7_10(%rip), %xmm1
	movdqa	208(%rsp), %xmm10
	pand	%xmm1, %xmm10
	por	%xmm2, %xmm10
	por	%xmm3, %xmm10
	por	%xmm6, %xmm10
	por	%xmm15, %xmm10
	movdqa	%xmm10, 208(%rsp)
	movdqa	272(%rsp), %xmm8
	pand	%xmm1, %xmm8
	por	%xmm11, %xmm8
	por	32(%rsp), %xmm8
	por	%xmm7, %xmm8
	por	%xmm13, %xmm8
	pand	%xmm1, %xmm14
	por	%xmm5, %xmm14
	por	48(%rsp), %xmm14
	por	%xmm12, %xmm14
	por	64(%rsp), %xmm14
	pand	%xmm1, %xmm9
	por	%xmm0, %xmm9
	por	240(%rsp), %xmm9
	por	16(%rsp), %xmm9
	por	%xmm4, %xmm9
	movdqa	400(%rsp), %xmm11
	movdqa	%xmm11, %xmm1
	psrldq	$14, %xmm1
	movdqa	256(%rsp), %xmm13
	movdqa	%xmm13, %xmm0
	pslldq	$2, %xmm0
	por	%xmm1, %xmm0
	movdqa	%xmm13, %xmm1
	psrldq	$14, %xmm1
	movdqa	592(%rsp), %xmm15
	movdqa	%xmm15, %xmm5
	pslldq	$2, %xmm5
	por	%xmm1, %xmm5
	movdqa	%xmm15, %xmm1
	psrldq	$14, %xmm1
	movdqa	112(%rsp), %xmm10
	movdqa	%xmm10, %xmm6
	pslldq	$2, %xmm6
	por	%xmm1, %xmm6
	movdqa	%xmm11, %xmm1
	pslldq	$2, %xmm1
	movdqa	(%rsp), %xmm7
	psrldq	$14, %xmm7
	por	%xmm1, %xmm7
	movdqa	.LCPI7_11(%rip), %xmm1
	psubusb	%xmm1, %xmm7
	psubusb	%xmm1, %xmm6
	psubusb	%xmm1, %xmm5
	psubusb	%xmm1, %xmm0
	movdqa	%xmm11, %xmm2
	psrldq	$13, %xmm2
	movdqa	%xmm13, %xmm1
	pslldq	$3, %xmm1
	por	%xmm2, %xmm1
	movdqa	%xmm13, %xmm3
	psrldq	$13, %xmm3
	movdqa	%xmm15, %xmm2
	pslldq	$3, %xmm2
	por	%xmm3, %xmm2
	movdqa	%xmm15, %xmm3
	psrldq	$13, %xmm3
	movdqa	%xmm10, %xmm4
	pslldq	$3, %xmm4
	por	%xmm3, %xmm4
	movdqa	%xmm11, %xmm3
	pslldq	$3, %xmm3
	movdqa	(%rsp), %xmm12
	psrldq	$13, %xmm12
	movdqa	%xmm12, (%rsp)
	movdqa	(%rsp), %xmm12
	por	%xmm3, %xmm12
	movdqa	%xmm12, (%rsp)
	movdqa	.LCPI7_12(%rip), %xmm3
	movdqa	(%rsp), %xmm12
	psubusb	%xmm3, %xmm12
	movdqa	%xmm12, (%rsp)
	movdqa	(%rsp), %xmm12
	por	%xmm7, %xmm12
	movdqa	%xmm12, (%rsp)
	movdqa	144(%rsp), %xmm7
	psubusb	%xmm3, %xmm4
	por	%xmm6, %xmm4
	movdqa	160(%rsp), %xmm6
	psubusb	%xmm3, %xmm2
	por	%xmm5, %xmm2
	movdqa	176(%rsp), %xmm5
	psubusb	%xmm3, %xmm1
	movdqa	192(%rsp), %xmm3
	por	%xmm0, %xmm1
	movdqa	(%rsp), %xmm0
	movdqa	.LCPI7_2(%rip), %xmm12
	pand	%xmm12, %xmm0
	movdqa	%xmm0, (%rsp)
	movdqa	(%rsp), %xmm0
	pxor	%xmm9, %xmm0
	movdqa	%xmm0, (%rsp)
	movdqa	(%rsp), %xmm0
	pand	%xmm12, %xmm4
	pxor	%xmm14, %xmm4
	pand	%xmm12, %xmm2
	pxor	%xmm8, %xmm2
	pand	%xmm12, %xmm1
	pxor	208(%rsp), %xmm1
	pcmpeqd	%xmm8, %xmm8
	psubusb	%xmm8, %xmm11
	psubusb	%xmm8, %xmm13
	movdqa	%xmm10, %xmm9
	movdqa	%xmm10, %xmm12
	psubusb	.LCPI7_13(%rip), %xmm12
	psubusb	%xmm8, %xmm15
	movdqa	%xmm11, %xmm10
	movdqa	%xmm9, %xmm11
.LBB7_8:
	por	%xmm4, %xmm6
	por	%xmm2, %xmm5
	por	%xmm1, %xmm7
	por	%xmm0, %xmm3
	leaq	(%rdx,%r8), %r9
	addq	$-64, %r9
	addq	$-64, %rdx
	addq	$64, %rdi
	movdqa	%xmm11, %xmm2
	cmpq	$63, %r9
	jbe	.LBB7_9
.LBB7_5:
	movdqu	(%rdi), %xmm1
	movdqu	16(%rdi), %xmm8
	movdqu	32(%rdi), %xmm9
	movdqu	48(%rdi), %xmm11
	movdqa	%xmm8, %xmm0
	movdqa	%xmm1, %xmm4
	por	%xmm1, %xmm0
	movdqa	%xmm9, %xmm1
	por	%xmm11, %xmm1
	por	%xmm0, %xmm1
	pmovmskb	%xmm1, %r9d
	testl	%r9d, %r9d
	jne	.LBB7_7
	movdqa	%xmm10, %xmm0
	movdqa	%xmm13, %xmm1
	movdqa	%xmm15, %xmm2
	movdqa	%xmm12, %xmm4
	pxor	%xmm10, %xmm10
	pxor	%xmm13, %xmm13
	pxor	%xmm15, %xmm15
	pxor	%xmm12, %xmm12
	jmp	.LBB7_8
.LBB7_9:
	movdqa	%xmm12, 16(%rsp)
	movdqa	%xmm10, 32(%rsp)
	movdqa	%xmm15, 48(%rsp)
	movdqa	%xmm13, (%rsp)
	movdqa	%xmm11, 112(%rsp)
	movdqa	%xmm7, 144(%rsp)
	movdqa	%xmm6, 160(%rsp)
	movdqa	%xmm5, 176(%rsp)
	movdqa	%xmm3, 192(%rsp)
	movq	%rdx, %rdi
	negq	%rdi
	subq	%rcx, %rdx
	pxor	%xmm3, %xmm3
.LBB7_12:
	addq	%rax, %rsi
	addq	%rdi, %rsi
	movdqa	%xmm3, 656(%rsp)
	movdqa	%xmm3, 640(%rsp)
	movdqa	%xmm3, 624(%rsp)
	movdqa	%xmm3, 608(%rsp)
	leaq	608(%rsp), %rdi
	callq	memcpy@PLT
	movdqa	608(%rsp), %xmm6
	movdqa	624(%rsp), %xmm7
	movdqa	640(%rsp), %xmm5
	movd	657(%rsp), %xmm0
	movd	656(%rsp), %xmm1
	pand	.LCPI7_14(%rip), %xmm1
	movq	661(%rsp), %xmm2
	psllq	$8, %xmm0
	pand	.LCPI7_15(%rip), %xmm0
	por	%xmm1, %xmm0
	pslldq	$5, %xmm2
	movdqa	.LCPI7_16(%rip), %xmm15
	pand	%xmm15, %xmm0
	pandn	%xmm2, %xmm15
	por	%xmm0, %xmm15
	movzbl	669(%rsp), %eax
	movd	%eax, %xmm0
	pslldq	$13, %xmm0
	movdqa	.LCPI7_17(%rip), %xmm8
	pandn	%xmm0, %xmm8
	por	%xmm15, %xmm8
	movdqa	.LCPI7_18(%rip), %xmm12
	movdqa	%xmm8, %xmm0
	pand	%xmm12, %xmm0
	movzbl	670(%rsp), %eax
	movd	%eax, %xmm1
	pslldq	$14, %xmm1
	pandn	%xmm1, %xmm12
	por	%xmm0, %xmm12
	movdqa	.LCPI7_19(%rip), %xmm0
	pand	%xmm12, %xmm0
	movzbl	671(%rsp), %eax
	movd	%eax, %xmm2
	pslldq	$15, %xmm2
	por	%xmm0, %xmm2
	movdqa	%xmm7, %xmm0
	por	%xmm6, %xmm0
	por	%xmm5, %xmm0
	por	%xmm2, %xmm0
	pmovmskb	%xmm0, %eax
	testl	%eax, %eax
	movdqa	(%rsp), %xmm10
	movdqa	48(%rsp), %xmm11
	movdqa	32(%rsp), %xmm1
	movdqa	16(%rsp), %xmm9
	je	.LBB7_14
	movdqa	%xmm6, %xmm1
	psrldq	$15, %xmm1
	movdqa	%xmm7, %xmm4
	pslldq	$1, %xmm4
	por	%xmm1, %xmm4
	movdqa	%xmm7, %xmm1
	movdqa	%xmm7, 128(%rsp)
	psrldq	$15, %xmm1
	movdqa	%xmm5, %xmm3
	pslldq	$1, %xmm3
	por	%xmm1, %xmm3
	movdqa	%xmm6, %xmm1
	pslldq	$1, %xmm1
	movdqa	112(%rsp), %xmm11
	psrldq	$15, %xmm11
	por	%xmm1, %xmm11
	movdqa	%xmm5, %xmm1
	psrldq	$15, %xmm1
	pslldq	$1, %xmm12
	por	%xmm1, %xmm12
	movdqa	%xmm12, %xmm1
	movdqa	.LCPI7_1(%rip), %xmm12
	movdqa	%xmm12, %xmm0
	pcmpgtb	%xmm1, %xmm0
	movdqa	%xmm0, %xmm10
	movdqa	%xmm0, 592(%rsp)
	movdqa	%xmm1, %xmm0
	pmaxub	%xmm12, %xmm1
	pcmpeqb	%xmm0, %xmm1
	movdqa	%xmm0, %xmm13
	movdqa	%xmm12, %xmm0
	pcmpgtb	%xmm2, %xmm0
	movdqa	%xmm0, %xmm9
	pand	.LCPI7_2(%rip), %xmm10
	pand	%xmm0, %xmm10
	movdqa	%xmm10, 240(%rsp)
	pxor	%xmm1, %xmm9
	movdqa	%xmm9, (%rsp)
	movdqa	%xmm11, %xmm1
	pmaxub	%xmm12, %xmm1
	pcmpeqb	%xmm11, %xmm1
	movdqa	%xmm12, %xmm9
	pcmpgtb	%xmm6, %xmm9
	movdqa	%xmm9, 16(%rsp)
	pxor	%xmm1, %xmm9
	movdqa	%xmm9, 48(%rsp)
	movdqa	%xmm3, %xmm1
	pmaxub	%xmm12, %xmm1
	pcmpeqb	%xmm3, %xmm1
	movdqa	%xmm12, %xmm9
	movdqa	%xmm5, 224(%rsp)
	pcmpgtb	%xmm5, %xmm9
	movdqa	%xmm9, 96(%rsp)
	pxor	%xmm1, %xmm9
	movdqa	%xmm9, 32(%rsp)
	movdqa	%xmm4, %xmm0
	pmaxub	%xmm12, %xmm0
	movdqa	.LCPI7_0(%rip), %xmm14
	movdqa	%xmm2, %xmm1
	pand	%xmm14, %xmm1
	movdqa	%xmm1, 576(%rsp)
	movdqa	%xmm6, %xmm1
	pand	%xmm14, %xmm1
	movdqa	%xmm1, 64(%rsp)
	pand	%xmm14, %xmm5
	movdqa	%xmm5, 208(%rsp)
	movdqa	%xmm7, %xmm1
	pand	%xmm14, %xmm1
	movdqa	%xmm1, 256(%rsp)
	movdqa	%xmm12, %xmm1
	pcmpgtb	%xmm11, %xmm1
	movdqa	%xmm1, 544(%rsp)
	movdqa	%xmm12, %xmm1
	pcmpgtb	%xmm3, %xmm1
	movdqa	%xmm1, 528(%rsp)
	movdqa	%xmm12, %xmm7
	pcmpgtb	%xmm4, %xmm7
	pcmpeqb	%xmm4, %xmm0
	movdqa	.LCPI7_3(%rip), %xmm5
	movdqa	%xmm13, %xmm1
	pcmpeqb	%xmm5, %xmm1
	movdqa	%xmm1, 512(%rsp)
	movdqa	%xmm11, %xmm1
	pcmpeqb	%xmm5, %xmm1
	movdqa	%xmm1, 496(%rsp)
	movdqa	%xmm3, %xmm1
	pcmpeqb	%xmm5, %xmm1
	movdqa	%xmm1, 480(%rsp)
	pcmpeqb	%xmm4, %xmm5
	movdqa	%xmm5, %xmm1
	movdqa	%xmm13, %xmm5
	pcmpeqb	%xmm14, %xmm5
	movdqa	%xmm5, 464(%rsp)
	movdqa	%xmm11, %xmm5
	pcmpeqb	%xmm14, %xmm5
	movdqa	%xmm5, 448(%rsp)
	movdqa	%xmm3, %xmm5
	pcmpeqb	%xmm14, %xmm5
	movdqa	%xmm5, 432(%rsp)
	pcmpeqb	%xmm4, %xmm14
	movdqa	.LCPI7_6(%rip), %xmm5
	movdqa	%xmm13, %xmm9
	pcmpeqb	%xmm5, %xmm9
	movdqa	%xmm9, 336(%rsp)
	movdqa	%xmm11, %xmm9
	pcmpeqb	%xmm5, %xmm9
	movdqa	%xmm9, 384(%rsp)
	movdqa	%xmm3, %xmm9
	pcmpeqb	%xmm5, %xmm9
	movdqa	%xmm9, 368(%rsp)
	pcmpeqb	%xmm4, %xmm5
	movdqa	%xmm13, 400(%rsp)
	movdqa	%xmm13, 320(%rsp)
	movdqa	%xmm6, 352(%rsp)
	movdqa	.LCPI7_9(%rip), %xmm6
	pand	%xmm6, %xmm13
	movdqa	%xmm11, %xmm10
	movdqa	%xmm11, 304(%rsp)
	pand	%xmm6, %xmm11
	movdqa	%xmm8, 416(%rsp)
	movdqa	%xmm3, %xmm8
	movdqa	%xmm3, 288(%rsp)
	pand	%xmm6, %xmm3
	movdqa	%xmm4, %xmm9
	movdqa	%xmm2, 560(%rsp)
	movdqa	%xmm4, 272(%rsp)
	pand	%xmm6, %xmm4
	pcmpeqb	%xmm12, %xmm4
	movdqa	%xmm4, 80(%rsp)
	pcmpeqb	%xmm12, %xmm3
	movdqa	%xmm3, 704(%rsp)
	pcmpeqb	%xmm12, %xmm11
	movdqa	%xmm11, 688(%rsp)
	pcmpeqb	%xmm12, %xmm13
	movdqa	%xmm13, 672(%rsp)
	pcmpgtb	128(%rsp), %xmm12
	movdqa	%xmm12, %xmm6
	pxor	%xmm0, %xmm12
	movdqa	.LCPI7_2(%rip), %xmm0
	pand	%xmm0, %xmm6
	pand	%xmm7, %xmm6
	psubusb	%xmm7, %xmm12
	movdqa	96(%rsp), %xmm3
	pand	%xmm0, %xmm3
	movdqa	528(%rsp), %xmm2
	pand	%xmm2, %xmm3
	movdqa	%xmm3, 96(%rsp)
	movdqa	32(%rsp), %xmm7
	psubusb	%xmm2, %xmm7
	movdqa	%xmm7, 32(%rsp)
	movdqa	16(%rsp), %xmm3
	pand	%xmm0, %xmm3
	movdqa	544(%rsp), %xmm2
	pand	%xmm2, %xmm3
	movdqa	%xmm3, 16(%rsp)
	movdqa	48(%rsp), %xmm0
	psubusb	%xmm2, %xmm0
	movdqa	%xmm0, 48(%rsp)
	movdqa	(%rsp), %xmm0
	psubusb	592(%rsp), %xmm0
	movdqa	%xmm0, (%rsp)
	movdqa	%xmm15, %xmm7
	movdqa	.LCPI7_4(%rip), %xmm3
	movdqa	%xmm1, %xmm0
	pand	%xmm3, %xmm0
	movdqa	480(%rsp), %xmm2
	pand	%xmm3, %xmm2
	movdqa	496(%rsp), %xmm1
	pand	%xmm3, %xmm1
	movdqa	512(%rsp), %xmm4
	pand	%xmm3, %xmm4
	movdqa	.LCPI7_5(%rip), %xmm3
	pand	%xmm3, %xmm14
	por	%xmm0, %xmm14
	movdqa	432(%rsp), %xmm0
	pand	%xmm3, %xmm0
	por	%xmm2, %xmm0
	movdqa	%xmm0, %xmm11
	movdqa	448(%rsp), %xmm2
	pand	%xmm3, %xmm2
	por	%xmm1, %xmm2
	movdqa	464(%rsp), %xmm0
	pand	%xmm3, %xmm0
	por	%xmm4, %xmm0
	movdqa	%xmm0, %xmm4
	pcmpeqd	%xmm0, %xmm0
	movdqa	336(%rsp), %xmm1
	pxor	%xmm0, %xmm1
	movdqa	384(%rsp), %xmm13
	pxor	%xmm0, %xmm13
	movdqa	368(%rsp), %xmm15
	pxor	%xmm0, %xmm15
	pxor	%xmm0, %xmm5
	por	%xmm3, %xmm1
	por	%xmm3, %xmm13
	por	%xmm3, %xmm15
	por	%xmm3, %xmm5
	movdqa	.LCPI7_7(%rip), %xmm0
	pcmpeqb	%xmm0, %xmm9
	movdqa	.LCPI7_8(%rip), %xmm3
	pand	%xmm3, %xmm9
	pandn	%xmm5, %xmm9
	pcmpeqb	%xmm0, %xmm8
	pand	%xmm3, %xmm8
	pandn	%xmm15, %xmm8
	pcmpeqb	%xmm0, %xmm10
	pand	%xmm3, %xmm10
	pandn	%xmm13, %xmm10
	movdqa	400(%rsp), %xmm5
	pcmpeqb	%xmm0, %xmm5
	pand	%xmm3, %xmm5
	pandn	%xmm1, %xmm5
	movdqa	576(%rsp), %xmm1
	psubusb	%xmm1, %xmm4
	psubusb	%xmm5, %xmm1
	por	%xmm4, %xmm1
	movdqa	64(%rsp), %xmm3
	psubusb	%xmm3, %xmm2
	psubusb	%xmm10, %xmm3
	movdqa	208(%rsp), %xmm5
	movdqa	%xmm11, %xmm13
	psubusb	%xmm5, %xmm13
	psubusb	%xmm8, %xmm5
	movdqa	256(%rsp), %xmm8
	psubusb	%xmm8, %xmm14
	psubusb	%xmm9, %xmm8
	movdqa	272(%rsp), %xmm4
	psubusb	%xmm0, %xmm4
	por	%xmm6, %xmm4
	movdqa	%xmm4, %xmm11
	movdqa	288(%rsp), %xmm4
	psubusb	%xmm0, %xmm4
	por	96(%rsp), %xmm4
	movdqa	%xmm4, %xmm10
	movdqa	304(%rsp), %xmm4
	psubusb	%xmm0, %xmm4
	por	16(%rsp), %xmm4
	movdqa	%xmm4, %xmm9
	movdqa	320(%rsp), %xmm6
	psubusb	%xmm0, %xmm6
	movdqa	.LCPI7_10(%rip), %xmm0
	movdqa	80(%rsp), %xmm4
	pand	%xmm0, %xmm4
	por	%xmm11, %xmm4
	por	%xmm12, %xmm4
	por	%xmm8, %xmm4
	por	%xmm14, %xmm4
	movdqa	%xmm4, 80(%rsp)
	movdqa	704(%rsp), %xmm4
	pand	%xmm0, %xmm4
	por	%xmm10, %xmm4
	por	32(%rsp), %xmm4
	por	%xmm5, %xmm4
	por	%xmm13, %xmm4
	movdqa	688(%rsp), %xmm13
	pand	%xmm0, %xmm13
	por	%xmm9, %xmm13
	por	48(%rsp), %xmm13
	por	%xmm3, %xmm13
	por	%xmm2, %xmm13
	movdqa	672(%rsp), %xmm15
	pand	%xmm0, %xmm15
	por	%xmm6, %xmm15
	por	240(%rsp), %xmm15
	por	(%rsp), %xmm15
	por	%xmm1, %xmm15
	movdqa	352(%rsp), %xmm14
	movdqa	%xmm14, %xmm0
	psrldq	$14, %xmm0
	movdqa	128(%rsp), %xmm2
	movdqa	%xmm2, %xmm1
	pslldq	$2, %xmm1
	por	%xmm0, %xmm1
	movdqa	%xmm2, %xmm0
	movdqa	%xmm2, %xmm8
	psrldq	$14, %xmm0
	movdqa	224(%rsp), %xmm3
	movdqa	%xmm3, %xmm2
	pslldq	$2, %xmm2
	por	%xmm0, %xmm2
	movdqa	%xmm14, %xmm0
	pslldq	$2, %xmm0
	movdqa	112(%rsp), %xmm9
	movdqa	%xmm9, %xmm5
	psrldq	$14, %xmm5
	por	%xmm0, %xmm5
	movdqa	%xmm3, %xmm0
	movdqa	%xmm3, %xmm6
	psrldq	$14, %xmm0
	movdqa	416(%rsp), %xmm12
	pslldq	$2, %xmm12
	por	%xmm0, %xmm12
	movdqa	.LCPI7_11(%rip), %xmm0
	psubusb	%xmm0, %xmm12
	psubusb	%xmm0, %xmm5
	psubusb	%xmm0, %xmm2
	psubusb	%xmm0, %xmm1
	movdqa	%xmm14, %xmm0
	psrldq	$13, %xmm0
	movdqa	%xmm8, %xmm10
	pslldq	$3, %xmm10
	por	%xmm0, %xmm10
	psrldq	$13, %xmm8
	movdqa	%xmm3, %xmm11
	pslldq	$3, %xmm11
	por	%xmm8, %xmm11
	pslldq	$3, %xmm14
	movdqa	%xmm9, %xmm3
	psrldq	$13, %xmm3
	por	%xmm14, %xmm3
	psrldq	$13, %xmm6
	pslldq	$3, %xmm7
	por	%xmm6, %xmm7
	movdqa	.LCPI7_12(%rip), %xmm0
	psubusb	%xmm0, %xmm7
	por	%xmm12, %xmm7
	psubusb	%xmm0, %xmm3
	por	%xmm5, %xmm3
	psubusb	%xmm0, %xmm11
	por	%xmm2, %xmm11
	psubusb	%xmm0, %xmm10
	por	%xmm1, %xmm10
	movdqa	.LCPI7_2(%rip), %xmm0
	pand	%xmm0, %xmm7
	pxor	%xmm15, %xmm7
	pand	%xmm0, %xmm3
	pxor	%xmm13, %xmm3
	pand	%xmm0, %xmm11
	pxor	%xmm4, %xmm11
	pand	%xmm0, %xmm10
	movdqa	560(%rsp), %xmm0
	psubusb	.LCPI7_13(%rip), %xmm0
	pxor	80(%rsp), %xmm10
	por	%xmm7, %xmm0
	movdqa	%xmm3, %xmm1
	movdqa	%xmm0, %xmm9
.LBB7_14:
	por	144(%rsp), %xmm10
	por	192(%rsp), %xmm1
	por	%xmm10, %xmm1
	por	176(%rsp), %xmm11
	por	160(%rsp), %xmm9
	por	%xmm11, %xmm9
	por	%xmm1, %xmm9
	pxor	%xmm0, %xmm0
	pcmpeqb	%xmm9, %xmm0
	pmovmskb	%xmm0, %eax
	cmpl	$65535, %eax
	sete	%al
	addq	$728, %rsp
	retq
.Lfunc_end7:
	.size	"amqp_in_place::read::is_utf8", .Lfunc_end7-"amqp_in_place::read::is_utf8"

	.section	".text.amqp_in_place::canonical::canonical_len","ax",@progbits
	.p2align	4
	.type	"amqp_in_place::canonical::canonical_len",@function
"amqp_in_place::canonical::canonical_len":
	pushq	%r14
	pushq	%rbx
	pushq	%rax
	testq	%rsi, %rsi
	je	.LBB8_49
	movl	%edx, %r8d
	movzbl	(%rdi), %r10d
	xorl	%edx, %edx
	xorl	%eax, %eax
	leal	-65(%r10), %r9d
	cmpl	$55, %r9d
	ja	.LBB8_15
	leaq	.LJTI8_0(%rip), %r11
	movslq	(%r11,%r9,4), %rbx
	addq	%r11, %rbx
	xorl	%r11d, %r11d
	jmpq	*%rbx
.LBB8_3:
	cmpq	$5, %rsi
	jb	.LBB8_49
	movl	1(%rdi), %r11d
	bswapl	%r11d
	addq	$4, %r11
	movl	$4, %edx
	leaq	-1(%rsi), %rbx
	xorl	%eax, %eax
	cmpq	%r11, %rbx
	jae	.LBB8_10
	jmp	.LBB8_26
.LBB8_5:
	movl	$8, %edx
	movl	$8, %r11d
	leaq	-1(%rsi), %rbx
	xorl	%eax, %eax
	cmpq	%r11, %rbx
	jae	.LBB8_10
	jmp	.LBB8_26
.LBB8_6:
	movl	$1, %edx
	movl	$1, %r11d
	leaq	-1(%rsi), %rbx
	xorl	%eax, %eax
	cmpq	%r11, %rbx
	jae	.LBB8_10
	jmp	.LBB8_26
.LBB8_7:
	movl	$2, %edx
	movl	$2, %r11d
	leaq	-1(%rsi), %rbx
	xorl	%eax, %eax
	cmpq	%r11, %rbx
	jae	.LBB8_10
	jmp	.LBB8_26
.LBB8_8:
	movl	$4, %edx
	movl	$4, %r11d
.LBB8_9:
	leaq	-1(%rsi), %rbx
	xorl	%eax, %eax
	cmpq	%r11, %rbx
	jb	.LBB8_26
.LBB8_10:
	cmpq	%rdx, %rbx
	jb	.LBB8_26
	movl	%r8d, %r8d
	movl	$0, %edx
	cmpq	%r8, %r11
	jae	.LBB8_15
	xorl	%edx, %edx
	xorl	%eax, %eax
	cmpq	$1, %rsi
	jne	.LBB8_16
	cmpl	$76, %r10d
	je	.LBB8_15
	cmpl	$85, %r10d
	jne	.LBB8_20
.LBB8_15:
	addq	$8, %rsp
	popq	%rbx
	popq	%r14
	retq
.LBB8_16:
	cmpl	$76, %r10d
	je	.LBB8_15
	cmpl	$85, %r10d
	je	.LBB8_15
	cmpl	$116, %r10d
	jne	.LBB8_20
	cmpb	$2, 1(%rdi)
	jb	.LBB8_23
	jmp	.LBB8_49
.LBB8_20:
	xorl	%edx, %edx
	xorl	%eax, %eax
	cmpl	$55, %r9d
	ja	.LBB8_15
	movl	%ecx, %r8d
	leaq	.LJTI8_1(%rip), %r10
	movslq	(%r10,%r9,4), %r9
	addq	%r10, %r9
	jmpq	*%r9
.LBB8_29:
	cmpq	$8, %rbx
	jb	.LBB8_49
	leaq	-9(%rsi), %rbx
	jmp	.LBB8_24
.LBB8_25:
	movl	$5, %r11d
	movl	$1, %edx
	leaq	-1(%rsi), %rbx
	xorl	%eax, %eax
	cmpq	%r11, %rbx
	jae	.LBB8_10
.LBB8_26:
	xorl	%edx, %edx
	addq	$8, %rsp
	popq	%rbx
	popq	%r14
	retq
.LBB8_27:
	cmpq	$2, %rbx
	jb	.LBB8_49
	leaq	-3(%rsi), %rbx
	jmp	.LBB8_24
.LBB8_22:
	testq	%rbx, %rbx
	je	.LBB8_49
.LBB8_23:
	leaq	-2(%rsi), %rbx
.LBB8_24:
	subq	%rbx, %rsi
	movb	$1, %al
	movq	%rsi, %rdx
	addq	$8, %rsp
	popq	%rbx
	popq	%r14
	retq
.LBB8_44:
	cmpq	$4, %rbx
	jb	.LBB8_49
	leaq	-5(%rsi), %rbx
	jmp	.LBB8_24
.LBB8_31:
	cmpq	$5, %rsi
	jb	.LBB8_49
	movl	1(%rdi), %eax
	bswapl	%eax
	leaq	-5(%rsi), %rbx
	subq	%rax, %rbx
	jb	.LBB8_49
	jmp	.LBB8_24
.LBB8_34:
	leaq	-1(%rsi), %rax
	cmpq	$5, %rax
	jb	.LBB8_49
	leaq	-6(%rsi), %rbx
	jmp	.LBB8_24
.LBB8_37:
	cmpq	$5, %rsi
	jb	.LBB8_49
	movl	1(%rdi), %eax
	bswapl	%eax
	leaq	-5(%rsi), %rbx
	subq	%rax, %rbx
	setb	%dl
	testl	%ecx, %ecx
	sete	%cl
	orb	%dl, %cl
	jne	.LBB8_49
	addq	$5, %rdi
	decq	%r8
	movq	%rsi, %r14
	movq	%rax, %rsi
	movq	%r8, %rdx
	callq	"amqp_in_place::canonical::are_canonical_values"
	jmp	.LBB8_43
.LBB8_40:
	cmpq	$5, %rsi
	jb	.LBB8_49
	movl	1(%rdi), %eax
	bswapl	%eax
	leaq	-5(%rsi), %rbx
	subq	%rax, %rbx
	setb	%dl
	testl	%ecx, %ecx
	sete	%cl
	orb	%dl, %cl
	jne	.LBB8_49
	addq	$5, %rdi
	decq	%r8
	movq	%rsi, %r14
	movq	%rax, %rsi
	movq	%r8, %rdx
	callq	"amqp_in_place::canonical::are_canonical_pairs"
.LBB8_43:
	movq	%r14, %rsi
	testb	%al, %al
	jne	.LBB8_24
.LBB8_49:
	xorl	%edx, %edx
	xorl	%eax, %eax
	addq	$8, %rsp
	popq	%rbx
	popq	%r14
	retq
.Lfunc_end8:
	.size	"amqp_in_place::canonical::canonical_len", .Lfunc_end8-"amqp_in_place::canonical::canonical_len"
	.section	".rodata.amqp_in_place::canonical::canonical_len","a",@progbits
	.p2align	2, 0x0
.LJTI8_0:
	.long	.LBB8_3-.LJTI8_0
	.long	.LBB8_6-.LJTI8_0
	.long	.LBB8_15-.LJTI8_0
	.long	.LBB8_25-.LJTI8_0
	.long	.LBB8_15-.LJTI8_0
	.long	.LBB8_3-.LJTI8_0
	.long	.LBB8_15-.LJTI8_0
	.long	.LBB8_15-.LJTI8_0
	.long	.LBB8_8-.LJTI8_0
	.long	.LBB8_15-.LJTI8_0
	.long	.LBB8_15-.LJTI8_0
	.long	.LBB8_5-.LJTI8_0
	.long	.LBB8_15-.LJTI8_0
	.long	.LBB8_15-.LJTI8_0
	.long	.LBB8_15-.LJTI8_0
	.long	.LBB8_15-.LJTI8_0
	.long	.LBB8_15-.LJTI8_0
	.long	.LBB8_15-.LJTI8_0
	.long	.LBB8_3-.LJTI8_0
	.long	.LBB8_5-.LJTI8_0
	.long	.LBB8_7-.LJTI8_0
	.long	.LBB8_9-.LJTI8_0
	.long	.LBB8_15-.LJTI8_0
	.long	.LBB8_15-.LJTI8_0
	.long	.LBB8_15-.LJTI8_0
	.long	.LBB8_15-.LJTI8_0
	.long	.LBB8_15-.LJTI8_0
	.long	.LBB8_15-.LJTI8_0
	.long	.LBB8_15-.LJTI8_0
	.long	.LBB8_15-.LJTI8_0
	.long	.LBB8_15-.LJTI8_0
	.long	.LBB8_15-.LJTI8_0
	.long	.LBB8_15-.LJTI8_0
	.long	.LBB8_6-.LJTI8_0
	.long	.LBB8_15-.LJTI8_0
	.long	.LBB8_5-.LJTI8_0
	.long	.LBB8_15-.LJTI8_0
	.long	.LBB8_8-.LJTI8_0
	.long	.LBB8_15-.LJTI8_0
	.long	.LBB8_15-.LJTI8_0
	.long	.LBB8_8-.LJTI8_0
	.long	.LBB8_15-.LJTI8_0
	.long	.LBB8_15-.LJTI8_0
	.long	.LBB8_5-.LJTI8_0
	.long	.LBB8_15-.LJTI8_0
	.long	.LBB8_15-.LJTI8_0
	.long	.LBB8_15-.LJTI8_0
	.long	.LBB8_15-.LJTI8_0
	.long	.LBB8_15-.LJTI8_0
	.long	.LBB8_15-.LJTI8_0
	.long	.LBB8_7-.LJTI8_0
	.long	.LBB8_6-.LJTI8_0
	.long	.LBB8_7-.LJTI8_0
	.long	.LBB8_15-.LJTI8_0
	.long	.LBB8_15-.LJTI8_0
	.long	.LBB8_3-.LJTI8_0
.LJTI8_1:
	.long	.LBB8_37-.LJTI8_1
	.long	.LBB8_22-.LJTI8_1
	.long	.LBB8_15-.LJTI8_1
	.long	.LBB8_34-.LJTI8_1
	.long	.LBB8_15-.LJTI8_1
	.long	.LBB8_40-.LJTI8_1
	.long	.LBB8_15-.LJTI8_1
	.long	.LBB8_15-.LJTI8_1
	.long	.LBB8_44-.LJTI8_1
	.long	.LBB8_15-.LJTI8_1
	.long	.LBB8_15-.LJTI8_1
	.long	.LBB8_29-.LJTI8_1
	.long	.LBB8_15-.LJTI8_1
	.long	.LBB8_15-.LJTI8_1
	.long	.LBB8_15-.LJTI8_1
	.long	.LBB8_15-.LJTI8_1
	.long	.LBB8_15-.LJTI8_1
	.long	.LBB8_15-.LJTI8_1
	.long	.LBB8_31-.LJTI8_1
	.long	.LBB8_29-.LJTI8_1
	.long	.LBB8_27-.LJTI8_1
	.long	.LBB8_24-.LJTI8_1
	.long	.LBB8_15-.LJTI8_1
	.long	.LBB8_15-.LJTI8_1
	.long	.LBB8_15-.LJTI8_1
	.long	.LBB8_15-.LJTI8_1
	.long	.LBB8_15-.LJTI8_1
	.long	.LBB8_15-.LJTI8_1
	.long	.LBB8_15-.LJTI8_1
	.long	.LBB8_15-.LJTI8_1
	.long	.LBB8_15-.LJTI8_1
	.long	.LBB8_15-.LJTI8_1
	.long	.LBB8_15-.LJTI8_1
	.long	.LBB8_22-.LJTI8_1
	.long	.LBB8_15-.LJTI8_1
	.long	.LBB8_29-.LJTI8_1
	.long	.LBB8_15-.LJTI8_1
	.long	.LBB8_44-.LJTI8_1
	.long	.LBB8_15-.LJTI8_1
	.long	.LBB8_15-.LJTI8_1
	.long	.LBB8_44-.LJTI8_1
	.long	.LBB8_15-.LJTI8_1
	.long	.LBB8_15-.LJTI8_1
	.long	.LBB8_29-.LJTI8_1
	.long	.LBB8_15-.LJTI8_1
	.long	.LBB8_15-.LJTI8_1
	.long	.LBB8_15-.LJTI8_1
	.long	.LBB8_15-.LJTI8_1
	.long	.LBB8_15-.LJTI8_1
	.long	.LBB8_15-.LJTI8_1
	.long	.LBB8_27-.LJTI8_1
	.long	.LBB8_22-.LJTI8_1
	.long	.LBB8_27-.LJTI8_1
	.long	.LBB8_15-.LJTI8_1
	.long	.LBB8_15-.LJTI8_1
	.long	.LBB8_31-.LJTI8_1

	.section	".text.amqp_in_place::read::are_values","ax",@progbits
	.p2align	4
	.type	"amqp_in_place::read::are_values",@function
"amqp_in_place::read::are_values":
	pushq	%r15
	pushq	%r14
	pushq	%r13
	pushq	%r12
	pushq	%rbx
	testq	%rsi, %rsi
	je	.LBB9_30
	movq	%rdx, %rbx
	movq	%rdi, %r15
	leaq	-1(%rdx), %r14
	jmp	.LBB9_6
.LBB9_28:
	testq	%r13, %r13
	je	.LBB9_20
	addq	$2, %r15
	addq	$-2, %rsi
.LBB9_4:
	movq	%rsi, %r13
	movq	%r15, %rcx
.LBB9_5:
	movq	%r13, %rsi
	movq	%rcx, %r15
	testq	%r13, %r13
	je	.LBB9_30
.LBB9_6:
	movzbl	(%r15), %edx
	xorl	%eax, %eax
	addl	$-65, %edx
	cmpl	$55, %edx
	ja	.LBB9_31
	leaq	1(%r15), %rcx
	leaq	-1(%rsi), %r13
	leaq	.LJTI9_0(%rip), %rdi
	movslq	(%rdi,%rdx,4), %rdx
	addq	%rdi, %rdx
	jmpq	*%rdx
.LBB9_26:
	cmpq	$8, %r13
	jb	.LBB9_20
	addq	$9, %r15
	addq	$-9, %rsi
	jmp	.LBB9_4
.LBB9_2:
	cmpq	$4, %r13
	jb	.LBB9_20
	addq	$5, %r15
	addq	$-5, %rsi
	jmp	.LBB9_4
.LBB9_24:
	cmpq	$2, %r13
	jb	.LBB9_20
	addq	$3, %r15
	addq	$-3, %rsi
	jmp	.LBB9_4
.LBB9_21:
	cmpq	$5, %rsi
	jb	.LBB9_20
	movl	(%rcx), %eax
	bswapl	%eax
	addq	$-5, %rsi
	movq	%rsi, %r13
	subq	%rax, %r13
	jb	.LBB9_20
	leaq	(%r15,%rax), %rcx
	addq	$5, %rcx
	jmp	.LBB9_5
.LBB9_9:
	cmpq	$6, %rsi
	jb	.LBB9_20
	addq	$6, %r15
	addq	$-6, %rsi
	jmp	.LBB9_4
.LBB9_11:
	cmpq	$5, %rsi
	jb	.LBB9_20
	movl	(%rcx), %r12d
	bswapl	%r12d
	addq	$-5, %rsi
	xorl	%eax, %eax
	movq	%rsi, %r13
	subq	%r12, %r13
	jb	.LBB9_31
	testq	%rbx, %rbx
	je	.LBB9_31
	leaq	5(%r15), %rdi
	movq	%r12, %rsi
	movq	%r14, %rdx
	callq	"amqp_in_place::read::are_values"
	testb	%al, %al
	jne	.LBB9_15
	jmp	.LBB9_20
.LBB9_16:
	cmpq	$5, %rsi
	jb	.LBB9_20
	movl	(%rcx), %r12d
	bswapl	%r12d
	addq	$-5, %rsi
	xorl	%eax, %eax
	movq	%rsi, %r13
	subq	%r12, %r13
	jb	.LBB9_31
	testq	%rbx, %rbx
	je	.LBB9_31
	leaq	5(%r15), %rdi
	movq	%r12, %rsi
	movq	%r14, %rdx
	callq	"amqp_in_place::read::are_pairs"
	testb	%al, %al
	je	.LBB9_20
.LBB9_15:
	leaq	(%r15,%r12), %rcx
	addq	$5, %rcx
	jmp	.LBB9_5
.LBB9_30:
	movb	$1, %al
	jmp	.LBB9_31
.LBB9_20:
	xorl	%eax, %eax
.LBB9_31:
	popq	%rbx
	popq	%r12
	popq	%r13
	popq	%r14
	popq	%r15
	retq
.Lfunc_end9:
	.size	"amqp_in_place::read::are_values", .Lfunc_end9-"amqp_in_place::read::are_values"
	.section	".rodata.amqp_in_place::read::are_values","a",@progbits
	.p2align	2, 0x0
.LJTI9_0:
	.long	.LBB9_11-.LJTI9_0
	.long	.LBB9_28-.LJTI9_0
	.long	.LBB9_31-.LJTI9_0
	.long	.LBB9_9-.LJTI9_0
	.long	.LBB9_31-.LJTI9_0
	.long	.LBB9_16-.LJTI9_0
	.long	.LBB9_31-.LJTI9_0
	.long	.LBB9_31-.LJTI9_0
	.long	.LBB9_2-.LJTI9_0
	.long	.LBB9_31-.LJTI9_0
	.long	.LBB9_31-.LJTI9_0
	.long	.LBB9_26-.LJTI9_0
	.long	.LBB9_31-.LJTI9_0
	.long	.LBB9_31-.LJTI9_0
	.long	.LBB9_31-.LJTI9_0
	.long	.LBB9_31-.LJTI9_0
	.long	.LBB9_31-.LJTI9_0
	.long	.LBB9_31-.LJTI9_0
	.long	.LBB9_21-.LJTI9_0
	.long	.LBB9_26-.LJTI9_0
	.long	.LBB9_24-.LJTI9_0
	.long	.LBB9_5-.LJTI9_0
	.long	.LBB9_31-.LJTI9_0
	.long	.LBB9_31-.LJTI9_0
	.long	.LBB9_31-.LJTI9_0
	.long	.LBB9_31-.LJTI9_0
	.long	.LBB9_31-.LJTI9_0
	.long	.LBB9_31-.LJTI9_0
	.long	.LBB9_31-.LJTI9_0
	.long	.LBB9_31-.LJTI9_0
	.long	.LBB9_31-.LJTI9_0
	.long	.LBB9_31-.LJTI9_0
	.long	.LBB9_31-.LJTI9_0
	.long	.LBB9_28-.LJTI9_0
	.long	.LBB9_31-.LJTI9_0
	.long	.LBB9_26-.LJTI9_0
	.long	.LBB9_31-.LJTI9_0
	.long	.LBB9_2-.LJTI9_0
	.long	.LBB9_31-.LJTI9_0
	.long	.LBB9_31-.LJTI9_0
	.long	.LBB9_2-.LJTI9_0
	.long	.LBB9_31-.LJTI9_0
	.long	.LBB9_31-.LJTI9_0
	.long	.LBB9_26-.LJTI9_0
	.long	.LBB9_31-.LJTI9_0
	.long	.LBB9_31-.LJTI9_0
	.long	.LBB9_31-.LJTI9_0
	.long	.LBB9_31-.LJTI9_0
	.long	.LBB9_31-.LJTI9_0
	.long	.LBB9_31-.LJTI9_0
	.long	.LBB9_24-.LJTI9_0
	.long	.LBB9_28-.LJTI9_0
	.long	.LBB9_24-.LJTI9_0
	.long	.LBB9_31-.LJTI9_0
	.long	.LBB9_31-.LJTI9_0
	.long	.LBB9_21-.LJTI9_0

	.section	".text.amqp_in_place::read::are_pairs","ax",@progbits
	.p2align	4
	.type	"amqp_in_place::read::are_pairs",@function
"amqp_in_place::read::are_pairs":
	pushq	%r15
	pushq	%r14
	pushq	%r13
	pushq	%r12
	pushq	%rbx
	testq	%rsi, %rsi
	je	.LBB10_51
	movq	%rdx, %rbx
	movq	%rsi, %r14
	leaq	-1(%rdx), %r15
	jmp	.LBB10_6
.LBB10_2:
	cmpq	$4, %r14
	jb	.LBB10_41
	addq	$5, %r12
	addq	$-4, %r14
.LBB10_4:
	movq	%r12, %rdi
.LBB10_5:
	testq	%r14, %r14
	je	.LBB10_51
.LBB10_6:
	decq	%r14
	movzbl	(%rdi), %r13d
	cmpq	%r13, %r14
	jb	.LBB10_41
	leaq	1(%rdi), %r12
	cmpb	$7, %r13b
	ja	.LBB10_25
	testq	%r13, %r13
	je	.LBB10_26
	cmpb	$0, 1(%rdi)
	js	.LBB10_23
	cmpl	$1, %r13d
	je	.LBB10_26
	cmpb	$0, 2(%rdi)
	js	.LBB10_23
	cmpl	$2, %r13d
	je	.LBB10_26
	cmpb	$0, 3(%rdi)
	js	.LBB10_23
	cmpl	$3, %r13d
	je	.LBB10_26
	cmpb	$0, 4(%rdi)
	js	.LBB10_23
	cmpl	$4, %r13d
	je	.LBB10_26
	cmpb	$0, 5(%rdi)
	js	.LBB10_23
	cmpl	$5, %r13d
	je	.LBB10_26
	cmpb	$0, 6(%rdi)
	js	.LBB10_23
	cmpl	$6, %r13d
	je	.LBB10_26
	cmpb	$0, 7(%rdi)
	js	.LBB10_23
	cmpb	$7, %r13b
	je	.LBB10_26
.LBB10_23:
	movq	%r12, %rdi
	movq	%r13, %rsi
	callq	"amqp_in_place::read::is_utf8"
	movl	%eax, %ecx
	xorl	%eax, %eax
	cmpq	%r13, %r14
	je	.LBB10_52
	testb	%cl, %cl
	jne	.LBB10_27
	jmp	.LBB10_52
	.p2align	4
.LBB10_25:
	movq	%r12, %rdi
	movq	%r13, %rsi
	callq	"amqp_in_place::read::is_ascii_by_words"
	testb	%al, %al
	je	.LBB10_23
.LBB10_26:
	cmpq	%r13, %r14
	je	.LBB10_41
.LBB10_27:
	addq	%r13, %r12
	movzbl	(%r12), %ecx
	xorl	%eax, %eax
	addl	$-65, %ecx
	cmpl	$55, %ecx
	ja	.LBB10_52
	leaq	1(%r12), %rdi
	notq	%r13
	addq	%r13, %r14
	leaq	.LJTI10_0(%rip), %rdx
	movslq	(%rdx,%rcx,4), %rcx
	addq	%rdx, %rcx
	jmpq	*%rcx
.LBB10_47:
	cmpq	$8, %r14
	jb	.LBB10_41
	addq	$9, %r12
	addq	$-8, %r14
	jmp	.LBB10_4
.LBB10_49:
	testq	%r14, %r14
	je	.LBB10_41
	addq	$2, %r12
	decq	%r14
	jmp	.LBB10_4
.LBB10_45:
	cmpq	$2, %r14
	jb	.LBB10_41
	addq	$3, %r12
	addq	$-2, %r14
	jmp	.LBB10_4
.LBB10_42:
	cmpq	$4, %r14
	jb	.LBB10_41
	movl	(%rdi), %eax
	bswapl	%eax
	addq	$-4, %r14
	subq	%rax, %r14
	jb	.LBB10_41
	leaq	(%r12,%rax), %rdi
	addq	$5, %rdi
	jmp	.LBB10_5
.LBB10_30:
	cmpq	$5, %r14
	jb	.LBB10_41
	addq	$6, %r12
	addq	$-5, %r14
	jmp	.LBB10_4
.LBB10_32:
	cmpq	$4, %r14
	jb	.LBB10_41
	movl	(%rdi), %r13d
	bswapl	%r13d
	addq	$-4, %r14
	xorl	%eax, %eax
	subq	%r13, %r14
	jb	.LBB10_52
	testq	%rbx, %rbx
	je	.LBB10_52
	leaq	5(%r12), %rdi
	movq	%r13, %rsi
	movq	%r15, %rdx
	callq	"amqp_in_place::read::are_values"
	testb	%al, %al
	jne	.LBB10_36
	jmp	.LBB10_41
.LBB10_37:
	cmpq	$4, %r14
	jb	.LBB10_41
	movl	(%rdi), %r13d
	bswapl	%r13d
	addq	$-4, %r14
	xorl	%eax, %eax
	subq	%r13, %r14
	jb	.LBB10_52
	testq	%rbx, %rbx
	je	.LBB10_52
	leaq	5(%r12), %rdi
	movq	%r13, %rsi
	movq	%r15, %rdx
	callq	"amqp_in_place::read::are_pairs"
	testb	%al, %al
	je	.LBB10_41
.LBB10_36:
	leaq	(%r12,%r13), %rdi
	addq	$5, %rdi
	jmp	.LBB10_5
.LBB10_51:
	movb	$1, %al
	jmp	.LBB10_52
.LBB10_41:
	xorl	%eax, %eax
.LBB10_52:
	popq	%rbx
	popq	%r12
	popq	%r13
	popq	%r14
	popq	%r15
	retq
.Lfunc_end10:
	.size	"amqp_in_place::read::are_pairs", .Lfunc_end10-"amqp_in_place::read::are_pairs"
	.section	".rodata.amqp_in_place::read::are_pairs","a",@progbits
	.p2align	2, 0x0
.LJTI10_0:
	.long	.LBB10_32-.LJTI10_0
	.long	.LBB10_49-.LJTI10_0
	.long	.LBB10_52-.LJTI10_0
	.long	.LBB10_30-.LJTI10_0
	.long	.LBB10_52-.LJTI10_0
	.long	.LBB10_37-.LJTI10_0
	.long	.LBB10_52-.LJTI10_0
	.long	.LBB10_52-.LJTI10_0
	.long	.LBB10_2-.LJTI10_0
	.long	.LBB10_52-.LJTI10_0
	.long	.LBB10_52-.LJTI10_0
	.long	.LBB10_47-.LJTI10_0
	.long	.LBB10_52-.LJTI10_0
	.long	.LBB10_52-.LJTI10_0
	.long	.LBB10_52-.LJTI10_0
	.long	.LBB10_52-.LJTI10_0
	.long	.LBB10_52-.LJTI10_0
	.long	.LBB10_52-.LJTI10_0
	.long	.LBB10_42-.LJTI10_0
	.long	.LBB10_47-.LJTI10_0
	.long	.LBB10_45-.LJTI10_0
	.long	.LBB10_5-.LJTI10_0
	.long	.LBB10_52-.LJTI10_0
	.long	.LBB10_52-.LJTI10_0
	.long	.LBB10_52-.LJTI10_0
	.long	.LBB10_52-.LJTI10_0
	.long	.LBB10_52-.LJTI10_0
	.long	.LBB10_52-.LJTI10_0
	.long	.LBB10_52-.LJTI10_0
	.long	.LBB10_52-.LJTI10_0
	.long	.LBB10_52-.LJTI10_0
	.long	.LBB10_52-.LJTI10_0
	.long	.LBB10_52-.LJTI10_0
	.long	.LBB10_49-.LJTI10_0
	.long	.LBB10_52-.LJTI10_0
	.long	.LBB10_47-.LJTI10_0
	.long	.LBB10_52-.LJTI10_0
	.long	.LBB10_2-.LJTI10_0
	.long	.LBB10_52-.LJTI10_0
	.long	.LBB10_52-.LJTI10_0
	.long	.LBB10_2-.LJTI10_0
	.long	.LBB10_52-.LJTI10_0
	.long	.LBB10_52-.LJTI10_0
	.long	.LBB10_47-.LJTI10_0
	.long	.LBB10_52-.LJTI10_0
	.long	.LBB10_52-.LJTI10_0
	.long	.LBB10_52-.LJTI10_0
	.long	.LBB10_52-.LJTI10_0
	.long	.LBB10_52-.LJTI10_0
	.long	.LBB10_52-.LJTI10_0
	.long	.LBB10_45-.LJTI10_0
	.long	.LBB10_49-.LJTI10_0
	.long	.LBB10_45-.LJTI10_0
	.long	.LBB10_52-.LJTI10_0
	.long	.LBB10_52-.LJTI10_0
	.long	.LBB10_42-.LJTI10_0

	.section	.rodata.cst16,"aM",@progbits,16
	.p2align	4, 0x0
.LCPI11_0:
	.quad	1
	.quad	0
.LCPI11_1:
	.byte	0
	.byte	0
	.byte	0
	.byte	0
	.byte	0
	.byte	0
	.byte	0
	.byte	0
	.byte	1
	.byte	0
	.byte	0
	.byte	0
	.byte	0
	.byte	0
	.byte	0
	.byte	0
.LCPI11_2:
	.long	513
	.long	0
	.long	0
	.long	0
	.section	.rodata.cst4,"aM",@progbits,4
	.p2align	2, 0x0
.LCPI11_3:
	.long	1
.LCPI11_4:
	.long	513
	.section	".text.amqp_in_place::read::read_in_place","ax",@progbits
	.p2align	4
	.type	"amqp_in_place::read::read_in_place",@function
"amqp_in_place::read::read_in_place":
	pushq	%r15
	pushq	%r14
	pushq	%r13
	pushq	%r12
	pushq	%rbx
	testq	%rdx, %rdx
	je	.LBB11_5
	movzbl	(%rsi), %r10d
	movl	$1, %r9d
	xorl	%ebx, %ebx
	addl	$-65, %r10d
	cmpl	$55, %r10d
	ja	.LBB11_20
	leaq	.LJTI11_0(%rip), %rax
	movslq	(%rax,%r10,4), %r11
	addq	%rax, %r11
	xorl	%eax, %eax
	jmpq	*%r11
.LBB11_3:
	movl	$4, %ebx
	cmpq	$5, %rdx
	jae	.LBB11_10
	movl	$4, %eax
	movl	%ecx, %ecx
	cmpq	%rcx, %rax
	jb	.LBB11_12
	jmp	.LBB11_22
.LBB11_5:
	movl	$1, %r9d
	xorl	%ecx, %ecx
	xorl	%r15d, %r15d
	xorl	%r8d, %r8d
	movl	$1, %r14d
	movl	$1, %ebx
	jmp	.LBB11_23
.LBB11_6:
	movl	$8, %ebx
	movl	$8, %eax
	movl	%ecx, %ecx
	cmpq	%rcx, %rax
	jb	.LBB11_12
.LBB11_22:
	movl	$1025, %r8d
	xorl	%ecx, %ecx
	xorl	%r15d, %r15d
	xorl	%r14d, %r14d
	xorl	%ebx, %ebx
	jmp	.LBB11_23
.LBB11_7:
	movl	$1, %ebx
	movl	$1, %eax
	movl	%ecx, %ecx
	cmpq	%rcx, %rax
	jb	.LBB11_12
	jmp	.LBB11_22
.LBB11_8:
	movl	$2, %ebx
	movl	$2, %eax
	movl	%ecx, %ecx
	cmpq	%rcx, %rax
	jb	.LBB11_12
	jmp	.LBB11_22
.LBB11_9:
	movl	$4, %ebx
	movl	$4, %eax
	movl	%ecx, %ecx
	cmpq	%rcx, %rax
	jb	.LBB11_12
	jmp	.LBB11_22
.LBB11_10:
	movl	1(%rsi), %eax
	bswapl	%eax
	addq	$4, %rax
.LBB11_11:
	movl	%ecx, %ecx
	cmpq	%rcx, %rax
	jae	.LBB11_22
.LBB11_12:
	leaq	-1(%rdx), %r15
	subq	%r15, %rbx
	jbe	.LBB11_14
	xorl	%ecx, %ecx
	xorl	%r15d, %r15d
	xorl	%r8d, %r8d
	movl	$1, %r14d
	jmp	.LBB11_23
.LBB11_14:
	subq	%r15, %rax
	jbe	.LBB11_16
	xorl	%ecx, %ecx
	xorl	%r15d, %r15d
	xorl	%r8d, %r8d
	movl	$1, %r14d
	movq	%rax, %rbx
	jmp	.LBB11_23
.LBB11_16:
	movss	.LCPI11_3(%rip), %xmm0
	xorl	%r9d, %r9d
	cmpl	$55, %r10d
	ja	.LBB11_78
	movl	%r8d, %eax
	leaq	1(%rsi), %rcx
	leaq	.LJTI11_1(%rip), %r11
	movslq	(%r11,%r10,4), %r10
	addq	%r11, %r10
	jmpq	*%r10
.LBB11_18:
	cmpq	$8, %r15
	jb	.LBB11_63
	movq	1(%rsi), %r14
	bswapq	%r14
	addq	$9, %rsi
	addq	$-9, %rdx
	movl	$7, %eax
	jmp	.LBB11_62
.LBB11_20:
	xorl	%ecx, %ecx
	xorl	%r15d, %r15d
	movl	$1, %r8d
	xorl	%r14d, %r14d
	jmp	.LBB11_23
.LBB11_21:
	movl	$5, %eax
	movl	$1, %ebx
	movl	%ecx, %ecx
	cmpq	%rcx, %rax
	jb	.LBB11_12
	jmp	.LBB11_22
.LBB11_25:
	cmpq	$2, %r15
	jb	.LBB11_41
	movzwl	1(%rsi), %r10d
	rolw	$8, %r10w
	addq	$3, %rsi
	addq	$-3, %rdx
	movl	$3, %eax
	xorl	%r9d, %r9d
	jmp	.LBB11_69
.LBB11_27:
	cmpq	$5, %rdx
	jb	.LBB11_76
	movl	(%rcx), %ebx
	bswapl	%ebx
	addq	$-5, %rdx
	movq	%rdx, %r15
	subq	%rbx, %r15
	jb	.LBB11_80
	leaq	(%rsi,%rbx), %rcx
	addq	$5, %rcx
	addq	$5, %rsi
	movl	$11, %eax
	jmp	.LBB11_84
.LBB11_30:
	cmpq	$4, %r15
	jb	.LBB11_76
	movl	1(%rsi), %r8d
	bswapl	%r8d
	addq	$5, %rsi
	addq	$-5, %rdx
	movl	$8, %eax
	jmp	.LBB11_59
.LBB11_32:
	cmpq	$4, %r15
	jb	.LBB11_76
	movl	1(%rsi), %r8d
	bswapl	%r8d
	addq	$5, %rsi
	addq	$-5, %rdx
	movl	$6, %eax
	jmp	.LBB11_59
.LBB11_34:
	movaps	.LCPI11_1(%rip), %xmm0
	testq	%r15, %r15
	je	.LBB11_81
	leaq	-2(%rdx), %rax
	cmpq	$3, %rax
	ja	.LBB11_82
	movl	$6, %r9d
	subq	%rdx, %r9
	jmp	.LBB11_78
.LBB11_37:
	cmpq	$8, %r15
	jb	.LBB11_63
	movq	1(%rsi), %r14
	bswapq	%r14
	addq	$9, %rsi
	addq	$-9, %rdx
	movl	$13, %eax
	jmp	.LBB11_62
.LBB11_39:
	cmpq	$2, %r15
	jb	.LBB11_41
	movzwl	1(%rsi), %r10d
	rolw	$8, %r10w
	addq	$3, %rsi
	addq	$-3, %rdx
	movl	$4, %eax
	xorl	%r9d, %r9d
	jmp	.LBB11_69
.LBB11_41:
	movl	$3, %r9d
	jmp	.LBB11_77
.LBB11_42:
	cmpq	$5, %rdx
	jb	.LBB11_76
	movl	(%rcx), %ebx
	bswapl	%ebx
	addq	$-5, %rdx
	movq	%rdx, %r15
	subq	%rbx, %r15
	jb	.LBB11_80
	movss	.LCPI11_4(%rip), %xmm0
	testl	%r8d, %r8d
	je	.LBB11_87
	movq	%rdi, %r12
	movq	%rsi, %r13
	leaq	5(%rsi), %r14
	decq	%rax
	movq	%r14, %rdi
	movq	%rbx, %rsi
	movq	%rax, %rdx
	callq	"amqp_in_place::read::are_values"
	xorl	%r9d, %r9d
	testb	%al, %al
	je	.LBB11_85
	leaq	(%rbx,%r13), %rcx
	addq	$5, %rcx
	movl	$12, %r8d
	jmp	.LBB11_56
.LBB11_47:
	testq	%r15, %r15
	je	.LBB11_74
	addq	$-2, %rdx
	movzbl	1(%rsi), %r9d
	addq	$2, %rsi
	movl	$2, %eax
	jmp	.LBB11_68
.LBB11_49:
	testq	%r15, %r15
	je	.LBB11_74
	addq	$-2, %rdx
	xorl	%r9d, %r9d
	cmpb	$0, 1(%rsi)
	leaq	2(%rsi), %rcx
	setne	%r9b
	xorl	%eax, %eax
	movq	%rdx, %r15
	jmp	.LBB11_65
.LBB11_51:
	cmpq	$5, %rdx
	jb	.LBB11_76
	movl	(%rcx), %ebx
	bswapl	%ebx
	addq	$-5, %rdx
	movq	%rdx, %r15
	subq	%rbx, %r15
	jb	.LBB11_80
	movss	.LCPI11_4(%rip), %xmm0
	testl	%r8d, %r8d
	je	.LBB11_87
	movq	%rdi, %r12
	movq	%rsi, %r13
	leaq	5(%rsi), %r14
	decq	%rax
	movq	%r14, %rdi
	movq	%rbx, %rsi
	movq	%rax, %rdx
	callq	"amqp_in_place::read::are_pairs"
	xorl	%r9d, %r9d
	testb	%al, %al
	je	.LBB11_85
	leaq	(%rbx,%r13), %rcx
	addq	$5, %rcx
	movl	$14, %r8d
.LBB11_56:
	movq	%r12, %rdi
	jmp	.LBB11_23
.LBB11_57:
	cmpq	$4, %r15
	jb	.LBB11_76
	movl	1(%rsi), %r8d
	bswapl	%r8d
	addq	$5, %rsi
	addq	$-5, %rdx
	movl	$5, %eax
.LBB11_59:
	xorl	%r9d, %r9d
	movq	%rsi, %rcx
	movq	%rdx, %r15
	xorl	%r10d, %r10d
	jmp	.LBB11_71
.LBB11_60:
	cmpq	$8, %r15
	jb	.LBB11_63
	movq	1(%rsi), %r14
	bswapq	%r14
	addq	$9, %rsi
	addq	$-9, %rdx
	movl	$9, %eax
.LBB11_62:
	xorl	%r9d, %r9d
	movq	%rsi, %rcx
	movq	%rdx, %r15
	xorl	%r10d, %r10d
	xorl	%r8d, %r8d
	jmp	.LBB11_72
.LBB11_63:
	movl	$9, %r9d
	jmp	.LBB11_77
.LBB11_64:
	movl	$16, %eax
.LBB11_65:
	xorl	%r10d, %r10d
	jmp	.LBB11_70
.LBB11_66:
	testq	%r15, %r15
	je	.LBB11_74
	addq	$-2, %rdx
	movzbl	1(%rsi), %r9d
	addq	$2, %rsi
	movl	$1, %eax
.LBB11_68:
	xorl	%r10d, %r10d
.LBB11_69:
	movq	%rsi, %rcx
	movq	%rdx, %r15
.LBB11_70:
	xorl	%r8d, %r8d
.LBB11_71:
	xorl	%r14d, %r14d
.LBB11_72:
	xorl	%ebx, %ebx
.LBB11_73:
	shll	$8, %r9d
	shll	$16, %r10d
	shlq	$32, %r8
	orq	%r10, %r8
	orq	%r9, %r8
	orq	%rax, %r8
	xorl	%r9d, %r9d
.LBB11_23:
	movq	%r9, (%rdi)
	movq	%r8, 8(%rdi)
	movq	%r14, 16(%rdi)
	movq	%rbx, 24(%rdi)
	movq	%rcx, 32(%rdi)
	movq	%r15, 40(%rdi)
.LBB11_24:
	popq	%rbx
	popq	%r12
	popq	%r13
	popq	%r14
	popq	%r15
	retq
.LBB11_74:
	movaps	.LCPI11_1(%rip), %xmm0
	movl	$1, %r9d
	jmp	.LBB11_78
.LBB11_75:
	cmpq	$5, %rdx
	jae	.LBB11_79
.LBB11_76:
	movl	$5, %r9d
.LBB11_77:
	subq	%rdx, %r9
	movaps	.LCPI11_1(%rip), %xmm0
.LBB11_78:
	movq	$1, (%rdi)
	movups	%xmm0, 8(%rdi)
	movq	%r9, 24(%rdi)
	xorps	%xmm0, %xmm0
	movups	%xmm0, 32(%rdi)
	jmp	.LBB11_24
.LBB11_79:
	movl	(%rcx), %ebx
	bswapl	%ebx
	addq	$-5, %rdx
	movq	%rdx, %r15
	subq	%rbx, %r15
	jae	.LBB11_83
.LBB11_80:
	subq	%rdx, %rbx
	movaps	.LCPI11_1(%rip), %xmm0
	movq	%rbx, %r9
	jmp	.LBB11_78
.LBB11_81:
	movl	$1, %r9d
	jmp	.LBB11_78
.LBB11_82:
	movzbl	1(%rsi), %eax
	movl	2(%rsi), %r14d
	bswapl	%r14d
	addq	$6, %rsi
	addq	$-6, %rdx
	movq	%r14, %r8
	shlq	$32, %r8
	orq	%rax, %r8
	movl	$10, %eax
	xorl	%r9d, %r9d
	movq	%rsi, %rcx
	movq	%rdx, %r15
	xorl	%r10d, %r10d
	jmp	.LBB11_72
.LBB11_83:
	leaq	(%rsi,%rbx), %rcx
	addq	$5, %rcx
	addq	$5, %rsi
	movl	$15, %eax
.LBB11_84:
	xorl	%r9d, %r9d
	xorl	%r10d, %r10d
	xorl	%r8d, %r8d
	movq	%rsi, %r14
	jmp	.LBB11_73
.LBB11_87:
	xorl	%r9d, %r9d
	jmp	.LBB11_78
.LBB11_85:
	movq	%r12, %rdi
	movss	.LCPI11_4(%rip), %xmm0
	jmp	.LBB11_78
.Lfunc_end11:
	.size	"amqp_in_place::read::read_in_place", .Lfunc_end11-"amqp_in_place::read::read_in_place"
	.section	".rodata.amqp_in_place::read::read_in_place","a",@progbits
	.p2align	2, 0x0
.LJTI11_0:
	.long	.LBB11_3-.LJTI11_0
	.long	.LBB11_7-.LJTI11_0
	.long	.LBB11_20-.LJTI11_0
	.long	.LBB11_21-.LJTI11_0
	.long	.LBB11_20-.LJTI11_0
	.long	.LBB11_3-.LJTI11_0
	.long	.LBB11_20-.LJTI11_0
	.long	.LBB11_20-.LJTI11_0
	.long	.LBB11_9-.LJTI11_0
	.long	.LBB11_20-.LJTI11_0
	.long	.LBB11_20-.LJTI11_0
	.long	.LBB11_6-.LJTI11_0
	.long	.LBB11_20-.LJTI11_0
	.long	.LBB11_20-.LJTI11_0
	.long	.LBB11_20-.LJTI11_0
	.long	.LBB11_20-.LJTI11_0
	.long	.LBB11_20-.LJTI11_0
	.long	.LBB11_20-.LJTI11_0
	.long	.LBB11_3-.LJTI11_0
	.long	.LBB11_6-.LJTI11_0
	.long	.LBB11_8-.LJTI11_0
	.long	.LBB11_11-.LJTI11_0
	.long	.LBB11_20-.LJTI11_0
	.long	.LBB11_20-.LJTI11_0
	.long	.LBB11_20-.LJTI11_0
	.long	.LBB11_20-.LJTI11_0
	.long	.LBB11_20-.LJTI11_0
	.long	.LBB11_20-.LJTI11_0
	.long	.LBB11_20-.LJTI11_0
	.long	.LBB11_20-.LJTI11_0
	.long	.LBB11_20-.LJTI11_0
	.long	.LBB11_20-.LJTI11_0
	.long	.LBB11_20-.LJTI11_0
	.long	.LBB11_7-.LJTI11_0
	.long	.LBB11_20-.LJTI11_0
	.long	.LBB11_6-.LJTI11_0
	.long	.LBB11_20-.LJTI11_0
	.long	.LBB11_9-.LJTI11_0
	.long	.LBB11_20-.LJTI11_0
	.long	.LBB11_20-.LJTI11_0
	.long	.LBB11_9-.LJTI11_0
	.long	.LBB11_20-.LJTI11_0
	.long	.LBB11_20-.LJTI11_0
	.long	.LBB11_6-.LJTI11_0
	.long	.LBB11_20-.LJTI11_0
	.long	.LBB11_20-.LJTI11_0
	.long	.LBB11_20-.LJTI11_0
	.long	.LBB11_20-.LJTI11_0
	.long	.LBB11_20-.LJTI11_0
	.long	.LBB11_20-.LJTI11_0
	.long	.LBB11_8-.LJTI11_0
	.long	.LBB11_7-.LJTI11_0
	.long	.LBB11_8-.LJTI11_0
	.long	.LBB11_20-.LJTI11_0
	.long	.LBB11_20-.LJTI11_0
	.long	.LBB11_3-.LJTI11_0
.LJTI11_1:
	.long	.LBB11_42-.LJTI11_1
	.long	.LBB11_47-.LJTI11_1
	.long	.LBB11_78-.LJTI11_1
	.long	.LBB11_34-.LJTI11_1
	.long	.LBB11_78-.LJTI11_1
	.long	.LBB11_51-.LJTI11_1
	.long	.LBB11_78-.LJTI11_1
	.long	.LBB11_78-.LJTI11_1
	.long	.LBB11_57-.LJTI11_1
	.long	.LBB11_78-.LJTI11_1
	.long	.LBB11_78-.LJTI11_1
	.long	.LBB11_18-.LJTI11_1
	.long	.LBB11_78-.LJTI11_1
	.long	.LBB11_78-.LJTI11_1
	.long	.LBB11_78-.LJTI11_1
	.long	.LBB11_78-.LJTI11_1
	.long	.LBB11_78-.LJTI11_1
	.long	.LBB11_78-.LJTI11_1
	.long	.LBB11_27-.LJTI11_1
	.long	.LBB11_37-.LJTI11_1
	.long	.LBB11_25-.LJTI11_1
	.long	.LBB11_64-.LJTI11_1
	.long	.LBB11_78-.LJTI11_1
	.long	.LBB11_78-.LJTI11_1
	.long	.LBB11_78-.LJTI11_1
	.long	.LBB11_78-.LJTI11_1
	.long	.LBB11_78-.LJTI11_1
	.long	.LBB11_78-.LJTI11_1
	.long	.LBB11_78-.LJTI11_1
	.long	.LBB11_78-.LJTI11_1
	.long	.LBB11_78-.LJTI11_1
	.long	.LBB11_78-.LJTI11_1
	.long	.LBB11_78-.LJTI11_1
	.long	.LBB11_66-.LJTI11_1
	.long	.LBB11_78-.LJTI11_1
	.long	.LBB11_60-.LJTI11_1
	.long	.LBB11_78-.LJTI11_1
	.long	.LBB11_30-.LJTI11_1
	.long	.LBB11_78-.LJTI11_1
	.long	.LBB11_78-.LJTI11_1
	.long	.LBB11_32-.LJTI11_1
	.long	.LBB11_78-.LJTI11_1
	.long	.LBB11_78-.LJTI11_1
	.long	.LBB11_18-.LJTI11_1
	.long	.LBB11_78-.LJTI11_1
	.long	.LBB11_78-.LJTI11_1
	.long	.LBB11_78-.LJTI11_1
	.long	.LBB11_78-.LJTI11_1
	.long	.LBB11_78-.LJTI11_1
	.long	.LBB11_78-.LJTI11_1
	.long	.LBB11_25-.LJTI11_1
	.long	.LBB11_49-.LJTI11_1
	.long	.LBB11_39-.LJTI11_1
	.long	.LBB11_78-.LJTI11_1
	.long	.LBB11_78-.LJTI11_1
	.long	.LBB11_75-.LJTI11_1

	.section	".text.amqp_in_place::problems::search_table","ax",@progbits
	.p2align	4
	.type	"amqp_in_place::problems::search_table",@function
"amqp_in_place::problems::search_table":
	movq	%rdx, %rax
	cmpq	$-1, %rdx
	je	.LBB12_1
	movl	$5, %edx
	cmpq	$4, %rax
	jb	.LBB12_7
	movl	(%rsi), %edx
	bswapl	%edx
	addq	$5, %rdx
.LBB12_7:
	movl	%ecx, %ecx
	cmpq	%rcx, %rdx
	jbe	.LBB12_2
	movq	$1, (%rdi)
	movq	$0, 8(%rdi)
	movw	$6, 16(%rdi)
	retq
.LBB12_1:
	xorl	%edx, %edx
.LBB12_2:
	pushq	%r14
	pushq	%rbx
	subq	$24, %rsp
	leaq	-1(%rdx), %rcx
	movl	$1, %ebx
	cmpq	%rcx, %rax
	jae	.LBB12_10
	movb	$2, %al
	jmp	.LBB12_4
.LBB12_10:
	xorps	%xmm0, %xmm0
	movaps	%xmm0, (%rsp)
	movq	$0, 16(%rsp)
	testl	%r8d, %r8d
	je	.LBB12_11
	movq	%rdi, %r14
	addq	$4, %rsi
	addq	$-5, %rdx
	decl	%r8d
	movq	%rsp, %rdi
	movl	%r8d, %ecx
	callq	"amqp_in_place::problems::pairs"
	cmpb	$1, (%rsp)
	jne	.LBB12_16
	movzbl	17(%rsp), %edx
	movzbl	16(%rsp), %eax
	movq	8(%rsp), %rcx
	addq	$5, %rcx
	cmpq	$1, %rcx
	adcq	$-1, %rcx
	jmp	.LBB12_14
.LBB12_11:
	movb	$5, %al
.LBB12_4:
	xorl	%ecx, %ecx
	xorl	%edx, %edx
	jmp	.LBB12_15
.LBB12_16:
	xorl	%ebx, %ebx
	xorl	%ecx, %ecx
	xorl	%eax, %eax
	xorl	%edx, %edx
.LBB12_14:
	movq	%r14, %rdi
.LBB12_15:
	movq	%rbx, (%rdi)
	movq	%rcx, 8(%rdi)
	movb	%al, 16(%rdi)
	movb	%dl, 17(%rdi)
	addq	$24, %rsp
	popq	%rbx
	popq	%r14
	retq
.Lfunc_end12:
	.size	"amqp_in_place::problems::search_table", .Lfunc_end12-"amqp_in_place::problems::search_table"

	.section	".text.amqp_in_place::problems::values","ax",@progbits
	.p2align	4
	.type	"amqp_in_place::problems::values",@function
"amqp_in_place::problems::values":
	pushq	%rbp
	pushq	%r15
	pushq	%r14
	pushq	%r12
	pushq	%rbx
	subq	$32, %rsp
	movq	%rdi, %rbx
	xorps	%xmm0, %xmm0
	movaps	%xmm0, (%rsp)
	movq	$0, 16(%rsp)
	testq	%rdx, %rdx
	je	.LBB13_4
	movl	%ecx, %ebp
	movq	%rdx, %r14
	movq	%rsi, %r15
	xorl	%r12d, %r12d
	.p2align	4
.LBB13_2:
	leaq	(%r15,%r12), %rsi
	movq	%r14, %rdx
	subq	%r12, %rdx
	movq	%rsp, %rdi
	movl	%ebp, %ecx
	callq	"amqp_in_place::problems::value"
	cmpb	$0, (%rsp)
	movq	8(%rsp), %rax
	jne	.LBB13_6
	addq	%rax, %r12
	cmpq	%r14, %r12
	jb	.LBB13_2
.LBB13_4:
	xorps	%xmm0, %xmm0
	movups	%xmm0, (%rbx)
	movw	$0, 16(%rbx)
	jmp	.LBB13_5
.LBB13_6:
	movzwl	16(%rsp), %ecx
	addq	%r12, %rax
	movq	$1, (%rbx)
	movq	%rax, 8(%rbx)
	movw	%cx, 16(%rbx)
.LBB13_5:
	addq	$32, %rsp
	popq	%rbx
	popq	%r12
	popq	%r14
	popq	%r15
	popq	%rbp
	retq
.Lfunc_end13:
	.size	"amqp_in_place::problems::values", .Lfunc_end13-"amqp_in_place::problems::values"

	.section	".text.amqp_in_place::problems::value","ax",@progbits
	.p2align	4
	.type	"amqp_in_place::problems::value",@function
"amqp_in_place::problems::value":
	testq	%rdx, %rdx
	je	.LBB14_4
	pushq	%r15
	pushq	%r14
	pushq	%rbx
	subq	$64, %rsp
	movzbl	(%rsi), %eax
	movzbl	%al, %r8d
	leal	-65(%r8), %r9d
	cmpl	$55, %r9d
	ja	.LBB14_18
	movl	$3, %ebx
	leaq	.LJTI14_0(%rip), %r10
	movslq	(%r10,%r9,4), %r9
	addq	%r10, %r9
	jmpq	*%r9
.LBB14_3:
	movb	$7, %al
	jmp	.LBB14_6
.LBB14_4:
	movq	$1, (%rdi)
	movq	$0, 8(%rdi)
	movw	$2, 16(%rdi)
	retq
.LBB14_5:
	movb	$3, %al
.LBB14_6:
	addl	$-76, %r8d
	cmpl	$39, %r8d
	ja	.LBB14_31
	leaq	.LJTI14_1(%rip), %r9
	movslq	(%r9,%r8,4), %r8
	addq	%r9, %r8
	jmpq	*%r8
.LBB14_8:
	movl	$9, %ebx
	jmp	.LBB14_32
.LBB14_9:
	movb	$13, %al
	jmp	.LBB14_25
.LBB14_10:
	movl	$5, %ebx
	movb	$9, %al
	jmp	.LBB14_32
.LBB14_11:
	movl	$5, %ebx
	movb	$6, %al
	jmp	.LBB14_32
.LBB14_12:
	movl	$6, %ebx
	movb	$11, %al
	jmp	.LBB14_32
.LBB14_13:
	movl	$9, %ebx
	movb	$15, %al
	jmp	.LBB14_32
.LBB14_14:
	movb	$4, %al
	jmp	.LBB14_32
.LBB14_15:
	movb	$14, %al
	jmp	.LBB14_25
.LBB14_16:
	movl	$2, %ebx
	movb	$2, %al
	jmp	.LBB14_32
.LBB14_17:
	movl	$2, %ebx
	xorl	%eax, %eax
	jmp	.LBB14_32
.LBB14_18:
	movq	$1, (%rdi)
	movq	$0, 8(%rdi)
	movb	$0, 16(%rdi)
	movb	%al, 17(%rdi)
	jmp	.LBB14_38
.LBB14_19:
	movb	$16, %al
	jmp	.LBB14_25
.LBB14_20:
	movl	$5, %ebx
	movb	$5, %al
	jmp	.LBB14_32
.LBB14_21:
	movl	$9, %ebx
	movb	$10, %al
	jmp	.LBB14_32
.LBB14_22:
	movl	$1, %ebx
	movb	$18, %al
	jmp	.LBB14_32
.LBB14_23:
	movl	$2, %ebx
	movb	$1, %al
	jmp	.LBB14_32
.LBB14_24:
	movb	$17, %al
.LBB14_25:
	movl	$5, %ebx
	cmpq	$5, %rdx
	jb	.LBB14_32
	movl	1(%rsi), %ebx
	bswapl	%ebx
	addq	$5, %rbx
	jmp	.LBB14_32
.LBB14_27:
	movl	$5, %ebx
	jmp	.LBB14_32
.LBB14_28:
	movl	$1, %ebx
	jmp	.LBB14_32
.LBB14_29:
	movl	$2, %ebx
	jmp	.LBB14_32
.LBB14_31:
	xorl	%ebx, %ebx
.LBB14_32:
	decq	%rdx
	leaq	-1(%rbx), %r8
	movl	$1, %r14d
	cmpq	%r8, %rdx
	jae	.LBB14_34
	movb	$2, %al
	xorl	%ebx, %ebx
	jmp	.LBB14_36
.LBB14_34:
	xorps	%xmm0, %xmm0
	movaps	%xmm0, 32(%rsp)
	movq	$0, 48(%rsp)
	movaps	%xmm0, (%rsp)
	movq	$0, 16(%rsp)
	cmpb	$14, %al
	jae	.LBB14_39
.LBB14_35:
	xorl	%r14d, %r14d
	xorl	%eax, %eax
.LBB14_36:
	xorl	%ecx, %ecx
.LBB14_37:
	movq	%r14, (%rdi)
	movq	%rbx, 8(%rdi)
	movb	%al, 16(%rdi)
	movb	%cl, 17(%rdi)
.LBB14_38:
	addq	$64, %rsp
	popq	%rbx
	popq	%r14
	popq	%r15
	retq
.LBB14_39:
	movzbl	%al, %eax
	addl	$-14, %eax
	leaq	.LJTI14_2(%rip), %rdx
	movslq	(%rdx,%rax,4), %rax
	addq	%rdx, %rax
	jmpq	*%rax
.LBB14_40:
	testl	%ecx, %ecx
	je	.LBB14_46
	addq	$5, %rsi
	leaq	-5(%rbx), %rdx
	decl	%ecx
	leaq	32(%rsp), %rax
	movq	%rdi, %r15
	movq	%rax, %rdi
	callq	"amqp_in_place::problems::values"
	movq	%r15, %rdi
	cmpb	$1, 32(%rsp)
	jne	.LBB14_35
	movzbl	49(%rsp), %ecx
	movzbl	48(%rsp), %eax
	movq	40(%rsp), %rbx
	addq	$5, %rbx
	jmp	.LBB14_37
.LBB14_43:
	testl	%ecx, %ecx
	je	.LBB14_46
	addq	$5, %rsi
	leaq	-5(%rbx), %rdx
	decl	%ecx
	movq	%rsp, %rax
	movq	%rdi, %r15
	movq	%rax, %rdi
	callq	"amqp_in_place::problems::pairs"
	movq	%r15, %rdi
	cmpb	$1, (%rsp)
	jne	.LBB14_35
	movzbl	17(%rsp), %ecx
	movzbl	16(%rsp), %eax
	movq	8(%rsp), %rbx
	addq	$5, %rbx
	jmp	.LBB14_37
.LBB14_46:
	movb	$5, %al
	xorl	%ebx, %ebx
	jmp	.LBB14_36
.Lfunc_end14:
	.size	"amqp_in_place::problems::value", .Lfunc_end14-"amqp_in_place::problems::value"
	.section	".rodata.amqp_in_place::problems::value","a",@progbits
	.p2align	2, 0x0
.LJTI14_0:
	.long	.LBB14_15-.LJTI14_0
	.long	.LBB14_16-.LJTI14_0
	.long	.LBB14_18-.LJTI14_0
	.long	.LBB14_12-.LJTI14_0
	.long	.LBB14_18-.LJTI14_0
	.long	.LBB14_19-.LJTI14_0
	.long	.LBB14_18-.LJTI14_0
	.long	.LBB14_18-.LJTI14_0
	.long	.LBB14_20-.LJTI14_0
	.long	.LBB14_18-.LJTI14_0
	.long	.LBB14_18-.LJTI14_0
	.long	.LBB14_3-.LJTI14_0
	.long	.LBB14_18-.LJTI14_0
	.long	.LBB14_18-.LJTI14_0
	.long	.LBB14_18-.LJTI14_0
	.long	.LBB14_18-.LJTI14_0
	.long	.LBB14_18-.LJTI14_0
	.long	.LBB14_18-.LJTI14_0
	.long	.LBB14_9-.LJTI14_0
	.long	.LBB14_13-.LJTI14_0
	.long	.LBB14_5-.LJTI14_0
	.long	.LBB14_22-.LJTI14_0
	.long	.LBB14_18-.LJTI14_0
	.long	.LBB14_18-.LJTI14_0
	.long	.LBB14_18-.LJTI14_0
	.long	.LBB14_18-.LJTI14_0
	.long	.LBB14_18-.LJTI14_0
	.long	.LBB14_18-.LJTI14_0
	.long	.LBB14_18-.LJTI14_0
	.long	.LBB14_18-.LJTI14_0
	.long	.LBB14_18-.LJTI14_0
	.long	.LBB14_18-.LJTI14_0
	.long	.LBB14_18-.LJTI14_0
	.long	.LBB14_23-.LJTI14_0
	.long	.LBB14_18-.LJTI14_0
	.long	.LBB14_21-.LJTI14_0
	.long	.LBB14_18-.LJTI14_0
	.long	.LBB14_10-.LJTI14_0
	.long	.LBB14_18-.LJTI14_0
	.long	.LBB14_18-.LJTI14_0
	.long	.LBB14_11-.LJTI14_0
	.long	.LBB14_18-.LJTI14_0
	.long	.LBB14_18-.LJTI14_0
	.long	.LBB14_3-.LJTI14_0
	.long	.LBB14_18-.LJTI14_0
	.long	.LBB14_18-.LJTI14_0
	.long	.LBB14_18-.LJTI14_0
	.long	.LBB14_18-.LJTI14_0
	.long	.LBB14_18-.LJTI14_0
	.long	.LBB14_18-.LJTI14_0
	.long	.LBB14_5-.LJTI14_0
	.long	.LBB14_17-.LJTI14_0
	.long	.LBB14_14-.LJTI14_0
	.long	.LBB14_18-.LJTI14_0
	.long	.LBB14_18-.LJTI14_0
	.long	.LBB14_24-.LJTI14_0
.LJTI14_1:
	.long	.LBB14_8-.LJTI14_1
	.long	.LBB14_31-.LJTI14_1
	.long	.LBB14_31-.LJTI14_1
	.long	.LBB14_31-.LJTI14_1
	.long	.LBB14_31-.LJTI14_1
	.long	.LBB14_31-.LJTI14_1
	.long	.LBB14_31-.LJTI14_1
	.long	.LBB14_25-.LJTI14_1
	.long	.LBB14_8-.LJTI14_1
	.long	.LBB14_32-.LJTI14_1
	.long	.LBB14_28-.LJTI14_1
	.long	.LBB14_31-.LJTI14_1
	.long	.LBB14_31-.LJTI14_1
	.long	.LBB14_31-.LJTI14_1
	.long	.LBB14_31-.LJTI14_1
	.long	.LBB14_31-.LJTI14_1
	.long	.LBB14_31-.LJTI14_1
	.long	.LBB14_31-.LJTI14_1
	.long	.LBB14_31-.LJTI14_1
	.long	.LBB14_31-.LJTI14_1
	.long	.LBB14_31-.LJTI14_1
	.long	.LBB14_31-.LJTI14_1
	.long	.LBB14_29-.LJTI14_1
	.long	.LBB14_31-.LJTI14_1
	.long	.LBB14_8-.LJTI14_1
	.long	.LBB14_31-.LJTI14_1
	.long	.LBB14_27-.LJTI14_1
	.long	.LBB14_31-.LJTI14_1
	.long	.LBB14_31-.LJTI14_1
	.long	.LBB14_27-.LJTI14_1
	.long	.LBB14_31-.LJTI14_1
	.long	.LBB14_31-.LJTI14_1
	.long	.LBB14_8-.LJTI14_1
	.long	.LBB14_31-.LJTI14_1
	.long	.LBB14_31-.LJTI14_1
	.long	.LBB14_31-.LJTI14_1
	.long	.LBB14_31-.LJTI14_1
	.long	.LBB14_31-.LJTI14_1
	.long	.LBB14_31-.LJTI14_1
	.long	.LBB14_32-.LJTI14_1
.LJTI14_2:
	.long	.LBB14_40-.LJTI14_2
	.long	.LBB14_35-.LJTI14_2
	.long	.LBB14_43-.LJTI14_2
	.long	.LBB14_35-.LJTI14_2
	.long	.LBB14_35-.LJTI14_2

	.section	".text.amqp_in_place::problems::pairs","ax",@progbits
	.p2align	4
	.type	"amqp_in_place::problems::pairs",@function
"amqp_in_place::problems::pairs":
	pushq	%rbp
	pushq	%r15
	pushq	%r14
	pushq	%r13
	pushq	%r12
	pushq	%rbx
	subq	$40, %rsp
	movl	%ecx, 4(%rsp)
	movq	%rdi, 8(%rsp)
	testq	%rdx, %rdx
	je	.LBB15_28
	movq	%rdx, %r14
	movq	%rsi, %r15
	xorl	%ebp, %ebp
	.p2align	4
.LBB15_2:
	xorps	%xmm0, %xmm0
	movaps	%xmm0, 16(%rsp)
	movq	$0, 32(%rsp)
	movq	%rbp, %r13
	notq	%r13
	addq	%r14, %r13
	movzbl	(%r15,%rbp), %r12d
	subq	%r12, %r13
	jb	.LBB15_3
	leaq	(%r15,%rbp), %rbx
	incq	%rbx
	cmpb	$7, %r12b
	ja	.LBB15_22
	testq	%r12, %r12
	je	.LBB15_20
	leaq	(%r15,%rbp), %rax
	cmpb	$0, 1(%rax)
	js	.LBB15_23
	cmpl	$1, %r12d
	je	.LBB15_20
	cmpb	$0, 2(%rax)
	js	.LBB15_23
	cmpl	$2, %r12d
	je	.LBB15_20
	cmpb	$0, 3(%rax)
	js	.LBB15_23
	cmpl	$3, %r12d
	je	.LBB15_20
	cmpb	$0, 4(%rax)
	js	.LBB15_23
	cmpl	$4, %r12d
	je	.LBB15_20
	cmpb	$0, 5(%rax)
	js	.LBB15_23
	cmpl	$5, %r12d
	je	.LBB15_20
	cmpb	$0, 6(%rax)
	js	.LBB15_23
	cmpl	$6, %r12d
	je	.LBB15_20
	cmpb	$0, 7(%rax)
	js	.LBB15_23
	cmpb	$7, %r12b
	je	.LBB15_20
	jmp	.LBB15_23
	.p2align	4
.LBB15_22:
	movq	%rbx, %rdi
	movq	%r12, %rsi
	callq	"amqp_in_place::read::is_ascii_by_words"
	testb	%al, %al
	je	.LBB15_23
.LBB15_20:
	addq	%r12, %rbx
	leaq	16(%rsp), %rdi
	movq	%rbx, %rsi
	movq	%r13, %rdx
	movl	4(%rsp), %ecx
	callq	"amqp_in_place::problems::value"
	cmpb	$0, 16(%rsp)
	movq	24(%rsp), %rdx
	jne	.LBB15_21
	addq	%r12, %rbp
	addq	%rdx, %rbp
	incq	%rbp
	cmpq	%r14, %rbp
	jb	.LBB15_2
	jmp	.LBB15_28
.LBB15_23:
	movq	%rbx, %rdi
	movq	%r12, %rsi
	callq	"amqp_in_place::read::is_utf8"
	testb	%al, %al
	jne	.LBB15_20
	movb	$4, %al
	jmp	.LBB15_25
.LBB15_28:
	xorps	%xmm0, %xmm0
	movq	8(%rsp), %rax
	movups	%xmm0, (%rax)
	movw	$0, 16(%rax)
	jmp	.LBB15_29
.LBB15_3:
	movb	$3, %al
.LBB15_25:
	xorl	%ecx, %ecx
	xorl	%edx, %edx
	jmp	.LBB15_26
.LBB15_21:
	movzbl	32(%rsp), %eax
	movzbl	33(%rsp), %ecx
	addq	%r12, %rdx
	incq	%rdx
.LBB15_26:
	addq	%rbp, %rdx
	movq	8(%rsp), %rsi
	movq	$1, (%rsi)
	movq	%rdx, 8(%rsi)
	movb	%al, 16(%rsi)
	movb	%cl, 17(%rsi)
.LBB15_29:
	addq	$40, %rsp
	popq	%rbx
	popq	%r12
	popq	%r13
	popq	%r14
	popq	%r15
	popq	%rbp
	retq
.Lfunc_end15:
	.size	"amqp_in_place::problems::pairs", .Lfunc_end15-"amqp_in_place::problems::pairs"

	.section	".text.amqp_in_place::problems::search","ax",@progbits
	.p2align	4
	.type	"amqp_in_place::problems::search",@function
"amqp_in_place::problems::search":
	pushq	%rbx
	subq	$32, %rsp
	movq	%rdi, %rbx
	movq	$0, 24(%rsp)
	testq	%rdx, %rdx
	je	.LBB16_14
	movzbl	(%rsi), %eax
	addl	$-65, %eax
	cmpl	$55, %eax
	ja	.LBB16_14
	leaq	.LJTI16_0(%rip), %rdi
	movslq	(%rdi,%rax,4), %rax
	addq	%rdi, %rax
	jmpq	*%rax
.LBB16_9:
	movl	$5, %eax
	cmpq	$5, %rdx
	jb	.LBB16_11
	movl	1(%rsi), %eax
	bswapl	%eax
	addq	$5, %rax
	movl	%ecx, %ecx
	cmpq	%rcx, %rax
	ja	.LBB16_12
	jmp	.LBB16_14
.LBB16_7:
	movl	$9, %eax
	movl	%ecx, %ecx
	cmpq	%rcx, %rax
	ja	.LBB16_12
	jmp	.LBB16_14
.LBB16_5:
	movl	$3, %eax
	movl	%ecx, %ecx
	cmpq	%rcx, %rax
	ja	.LBB16_12
	jmp	.LBB16_14
.LBB16_6:
	movl	$5, %eax
	movl	%ecx, %ecx
	cmpq	%rcx, %rax
	ja	.LBB16_12
	jmp	.LBB16_14
.LBB16_4:
	movl	$2, %eax
	movl	%ecx, %ecx
	cmpq	%rcx, %rax
	ja	.LBB16_12
	jmp	.LBB16_14
.LBB16_8:
	movl	$6, %eax
.LBB16_11:
	movl	%ecx, %ecx
	cmpq	%rcx, %rax
	jbe	.LBB16_14
.LBB16_12:
	movq	$1, (%rbx)
	movq	$0, 8(%rbx)
	movw	$6, 16(%rbx)
	addq	$32, %rsp
	popq	%rbx
	retq
.LBB16_3:
	movl	$1, %eax
	movl	%ecx, %ecx
	cmpq	%rcx, %rax
	ja	.LBB16_12
.LBB16_14:
	leaq	8(%rsp), %rdi
	movl	%r8d, %ecx
	callq	"amqp_in_place::problems::value"
	cmpb	$0, 8(%rsp)
	je	.LBB16_15
	movzbl	25(%rsp), %ecx
	movzbl	24(%rsp), %edx
	movl	$1, %eax
	movq	16(%rsp), %rsi
	jmp	.LBB16_17
.LBB16_15:
	xorl	%eax, %eax
	xorl	%esi, %esi
	xorl	%edx, %edx
	xorl	%ecx, %ecx
.LBB16_17:
	movq	%rax, (%rbx)
	movq	%rsi, 8(%rbx)
	movb	%dl, 16(%rbx)
	movb	%cl, 17(%rbx)
	addq	$32, %rsp
	popq	%rbx
	retq
.Lfunc_end16:
	.size	"amqp_in_place::problems::search", .Lfunc_end16-"amqp_in_place::problems::search"
	.section	".rodata.amqp_in_place::problems::search","a",@progbits
	.p2align	2, 0x0
.LJTI16_0:
	.long	.LBB16_9-.LJTI16_0
	.long	.LBB16_4-.LJTI16_0
	.long	.LBB16_14-.LJTI16_0
	.long	.LBB16_8-.LJTI16_0
	.long	.LBB16_14-.LJTI16_0
	.long	.LBB16_9-.LJTI16_0
	.long	.LBB16_14-.LJTI16_0
	.long	.LBB16_14-.LJTI16_0
	.long	.LBB16_6-.LJTI16_0
	.long	.LBB16_14-.LJTI16_0
	.long	.LBB16_14-.LJTI16_0
	.long	.LBB16_7-.LJTI16_0
	.long	.LBB16_14-.LJTI16_0
	.long	.LBB16_14-.LJTI16_0
	.long	.LBB16_14-.LJTI16_0
	.long	.LBB16_14-.LJTI16_0
	.long	.LBB16_14-.LJTI16_0
	.long	.LBB16_14-.LJTI16_0
	.long	.LBB16_9-.LJTI16_0
	.long	.LBB16_7-.LJTI16_0
	.long	.LBB16_5-.LJTI16_0
	.long	.LBB16_3-.LJTI16_0
	.long	.LBB16_14-.LJTI16_0
	.long	.LBB16_14-.LJTI16_0
	.long	.LBB16_14-.LJTI16_0
	.long	.LBB16_14-.LJTI16_0
	.long	.LBB16_14-.LJTI16_0
	.long	.LBB16_14-.LJTI16_0
	.long	.LBB16_14-.LJTI16_0
	.long	.LBB16_14-.LJTI16_0
	.long	.LBB16_14-.LJTI16_0
	.long	.LBB16_14-.LJTI16_0
	.long	.LBB16_14-.LJTI16_0
	.long	.LBB16_4-.LJTI16_0
	.long	.LBB16_14-.LJTI16_0
	.long	.LBB16_7-.LJTI16_0
	.long	.LBB16_14-.LJTI16_0
	.long	.LBB16_6-.LJTI16_0
	.long	.LBB16_14-.LJTI16_0
	.long	.LBB16_14-.LJTI16_0
	.long	.LBB16_6-.LJTI16_0
	.long	.LBB16_14-.LJTI16_0
	.long	.LBB16_14-.LJTI16_0
	.long	.LBB16_7-.LJTI16_0
	.long	.LBB16_14-.LJTI16_0
	.long	.LBB16_14-.LJTI16_0
	.long	.LBB16_14-.LJTI16_0
	.long	.LBB16_14-.LJTI16_0
	.long	.LBB16_14-.LJTI16_0
	.long	.LBB16_14-.LJTI16_0
	.long	.LBB16_5-.LJTI16_0
	.long	.LBB16_4-.LJTI16_0
	.long	.LBB16_5-.LJTI16_0
	.long	.LBB16_14-.LJTI16_0
	.long	.LBB16_14-.LJTI16_0
	.long	.LBB16_9-.LJTI16_0

	.section	".text.unlikely.amqp_c::input::Input::header","ax",@progbits
	.p2align	4
	.type	"amqp_c::input::Input::header",@function
"amqp_c::input::Input::header":
	movq	(%rdi), %r8
	movq	8(%rdi), %rcx
	movl	16(%rdi), %esi
	testb	$1, 24(%rdi)
	jne	.LBB17_1
	testq	%rcx, %rcx
	je	.LBB17_2
	movzbl	(%r8), %edi
	xorl	%edx, %edx
	xorl	%eax, %eax
	addl	$-65, %edi
	cmpl	$55, %edi
	ja	.LBB17_23
	leaq	.LJTI17_0(%rip), %r9
	movslq	(%r9,%rdi,4), %r10
	addq	%r9, %r10
	xorl	%edi, %edi
	jmpq	*%r10
.LBB17_15:
	movl	$4, %edx
	cmpq	$5, %rcx
	jae	.LBB17_17
	movl	$4, %edi
	cmpq	%rsi, %rdi
	jb	.LBB17_19
	jmp	.LBB17_6
.LBB17_1:
	cmpq	$-1, %rcx
	je	.LBB17_2
	cmpq	$3, %rcx
	ja	.LBB17_5
	movl	$4, %edi
	subq	%rcx, %rdi
	cmpl	$5, %esi
	movb	$1, %al
	sbbb	$-1, %al
	xorl	%edx, %edx
	cmpl	$5, %esi
	jmp	.LBB17_22
.LBB17_2:
	movl	$1, %edx
	movb	$2, %al
	retq
.LBB17_5:
	movl	(%r8), %edi
	bswapl	%edi
	addq	$4, %rdi
	cmpq	%rsi, %rdi
	jb	.LBB17_21
	jmp	.LBB17_6
.LBB17_13:
	movl	$8, %edx
	movl	$8, %edi
	cmpq	%rsi, %rdi
	jb	.LBB17_19
	jmp	.LBB17_6
.LBB17_10:
	movl	$1, %edx
	movl	$1, %edi
	cmpq	%rsi, %rdi
	jb	.LBB17_19
	jmp	.LBB17_6
.LBB17_11:
	movl	$2, %edx
	movl	$2, %edi
	cmpq	%rsi, %rdi
	jb	.LBB17_19
	jmp	.LBB17_6
.LBB17_12:
	movl	$4, %edx
	movl	$4, %edi
	cmpq	%rsi, %rdi
	jb	.LBB17_19
	jmp	.LBB17_6
.LBB17_17:
	movl	1(%r8), %edi
	bswapl	%edi
	addq	$4, %rdi
.LBB17_18:
	cmpq	%rsi, %rdi
	jae	.LBB17_6
.LBB17_19:
	decq	%rcx
	subq	%rcx, %rdx
	jbe	.LBB17_21
	movb	$2, %al
	retq
.LBB17_21:
	cmpq	%rdi, %rcx
	setb	%al
	xorb	$3, %al
	xorl	%edx, %edx
	subq	%rcx, %rdi
.LBB17_22:
	cmovaeq	%rdi, %rdx
.LBB17_23:
	retq
.LBB17_14:
	movl	$5, %edi
	movl	$1, %edx
	cmpq	%rsi, %rdi
	jb	.LBB17_19
.LBB17_6:
	movb	$1, %al
	xorl	%edx, %edx
	retq
.Lfunc_end17:
	.size	"amqp_c::input::Input::header", .Lfunc_end17-"amqp_c::input::Input::header"
	.section	".rodata.unlikely.amqp_c::input::Input::header","a",@progbits
	.p2align	2, 0x0
.LJTI17_0:
	.long	.LBB17_15-.LJTI17_0
	.long	.LBB17_10-.LJTI17_0
	.long	.LBB17_23-.LJTI17_0
	.long	.LBB17_14-.LJTI17_0
	.long	.LBB17_23-.LJTI17_0
	.long	.LBB17_15-.LJTI17_0
	.long	.LBB17_23-.LJTI17_0
	.long	.LBB17_23-.LJTI17_0
	.long	.LBB17_12-.LJTI17_0
	.long	.LBB17_23-.LJTI17_0
	.long	.LBB17_23-.LJTI17_0
	.long	.LBB17_13-.LJTI17_0
	.long	.LBB17_23-.LJTI17_0
	.long	.LBB17_23-.LJTI17_0
	.long	.LBB17_23-.LJTI17_0
	.long	.LBB17_23-.LJTI17_0
	.long	.LBB17_23-.LJTI17_0
	.long	.LBB17_23-.LJTI17_0
	.long	.LBB17_15-.LJTI17_0
	.long	.LBB17_13-.LJTI17_0
	.long	.LBB17_11-.LJTI17_0
	.long	.LBB17_18-.LJTI17_0
	.long	.LBB17_23-.LJTI17_0
	.long	.LBB17_23-.LJTI17_0
	.long	.LBB17_23-.LJTI17_0
	.long	.LBB17_23-.LJTI17_0
	.long	.LBB17_23-.LJTI17_0
	.long	.LBB17_23-.LJTI17_0
	.long	.LBB17_23-.LJTI17_0
	.long	.LBB17_23-.LJTI17_0
	.long	.LBB17_23-.LJTI17_0
	.long	.LBB17_23-.LJTI17_0
	.long	.LBB17_23-.LJTI17_0
	.long	.LBB17_10-.LJTI17_0
	.long	.LBB17_23-.LJTI17_0
	.long	.LBB17_13-.LJTI17_0
	.long	.LBB17_23-.LJTI17_0
	.long	.LBB17_12-.LJTI17_0
	.long	.LBB17_23-.LJTI17_0
	.long	.LBB17_23-.LJTI17_0
	.long	.LBB17_12-.LJTI17_0
	.long	.LBB17_23-.LJTI17_0
	.long	.LBB17_23-.LJTI17_0
	.long	.LBB17_13-.LJTI17_0
	.long	.LBB17_23-.LJTI17_0
	.long	.LBB17_23-.LJTI17_0
	.long	.LBB17_23-.LJTI17_0
	.long	.LBB17_23-.LJTI17_0
	.long	.LBB17_23-.LJTI17_0
	.long	.LBB17_23-.LJTI17_0
	.long	.LBB17_11-.LJTI17_0
	.long	.LBB17_10-.LJTI17_0
	.long	.LBB17_11-.LJTI17_0
	.long	.LBB17_23-.LJTI17_0
	.long	.LBB17_23-.LJTI17_0
	.long	.LBB17_15-.LJTI17_0

	.section	".text.amq_protocol_types::parsing::values::parse_array_body::<#021be0914fa2e150>","ax",@progbits
	.p2align	4
	.type	"amq_protocol_types::parsing::values::parse_array_body::<#021be0914fa2e150>",@function
"amq_protocol_types::parsing::values::parse_array_body::<#021be0914fa2e150>":
	pushq	%rbp
	pushq	%r15
	pushq	%r14
	pushq	%r13
	pushq	%r12
	pushq	%rbx
	subq	$104, %rsp
	xorps	%xmm0, %xmm0
	movups	%xmm0, 64(%rsp)
	movq	%rsp, %r8
	movq	%r8, 56(%rsp)
	testq	%rdx, %rdx
	je	.LBB18_87
	movq	%rdx, %r12
	movq	%rsi, %rbp
	movq	%rdi, 80(%rsp)
	movq	%rcx, 96(%rsp)
	leaq	-1(%rcx), %rax
	movq	%rax, 88(%rsp)
	.p2align	4
.LBB18_2:
	movzbl	(%rbp), %esi
	movb	$1, %al
	xorl	%r13d, %r13d
	addl	$-65, %esi
	cmpl	$55, %esi
	ja	.LBB18_109
	leaq	1(%rbp), %rcx
	leaq	-1(%r12), %rdx
	leaq	.LJTI18_0(%rip), %rdi
	movslq	(%rdi,%rsi,4), %rsi
	addq	%rdi, %rsi
	jmpq	*%rsi
.LBB18_4:
	cmpq	$8, %rdx
	jb	.LBB18_90
	movq	1(%rbp), %r14
	bswapq	%r14
	addq	$9, %rbp
	addq	$-9, %r12
	movl	$7, %edi
	jmp	.LBB18_50
.LBB18_6:
	cmpq	$2, %rdx
	jb	.LBB18_90
	movzwl	1(%rbp), %eax
	rolw	$8, %ax
	addq	$3, %rbp
	addq	$-3, %r12
	movl	$3, %edi
	jmp	.LBB18_46
.LBB18_8:
	cmpq	$4, %rdx
	jb	.LBB18_90
	movl	1(%rbp), %r15d
	bswapl	%r15d
	addq	$5, %rbp
	addq	$-5, %r12
	movl	$8, %edi
	jmp	.LBB18_55
.LBB18_10:
	testq	%rdx, %rdx
	je	.LBB18_90
	addq	$-2, %r12
	xorl	%ebx, %ebx
	cmpb	$0, 1(%rbp)
	leaq	2(%rbp), %rbp
	setne	%bl
	xorl	%r13d, %r13d
	xorl	%esi, %esi
	xorl	%r15d, %r15d
	xorl	%r14d, %r14d
	xorl	%edi, %edi
	jmp	.LBB18_60
.LBB18_12:
	cmpq	$5, %r12
	jb	.LBB18_98
	movl	1(%rbp), %eax
	movl	%eax, %r13d
	bswapl	%r13d
	addq	$-5, %r12
	subq	%r13, %r12
	jb	.LBB18_98
	leaq	5(%rbp), %r15
	leaq	(%r15,%r13), %rbx
	movl	$16, %edi
	testl	%eax, %eax
	je	.LBB18_65
	movq	%r8, 8(%rsp)
	movl	$1, %esi
	movq	%r13, %rdi
	callq	rattle_alloc
	testb	$1, %al
	je	.LBB18_104
	movq	%rdx, %r14
	movq	%rdx, %rax
	subq	%r15, %rax
	cmpq	%r13, %rax
	jae	.LBB18_68
	cmpl	$4, %r13d
	movq	8(%rsp), %r8
	movl	$16, %edi
	jb	.LBB18_18
	movq	%r14, %rax
	subq	%rbp, %rax
	addq	$-5, %rax
	cmpq	$32, %rax
	jae	.LBB18_71
.LBB18_18:
	xorl	%eax, %eax
.LBB18_80:
	movq	%r13, %rdx
	movq	%rax, %rcx
	andq	$3, %rdx
	je	.LBB18_83
	movq	%rax, %rcx
	.p2align	4
.LBB18_82:
	movzbl	(%r15,%rcx), %esi
	movb	%sil, (%r14,%rcx)
	incq	%rcx
	decq	%rdx
	jne	.LBB18_82
.LBB18_83:
	subq	%r13, %rax
	cmpq	$-4, %rax
	jbe	.LBB18_85
.LBB18_84:
	xorl	%r15d, %r15d
	jmp	.LBB18_86
	.p2align	4
.LBB18_85:
	movzbl	5(%rbp,%rcx), %eax
	movb	%al, (%r14,%rcx)
	movzbl	6(%rbp,%rcx), %eax
	movb	%al, 1(%r14,%rcx)
	movzbl	7(%rbp,%rcx), %eax
	movb	%al, 2(%r14,%rcx)
	movzbl	8(%rbp,%rcx), %eax
	movb	%al, 3(%r14,%rcx)
	addq	$4, %rcx
	xorl	%r15d, %r15d
	cmpq	%rcx, %r13
	jne	.LBB18_85
.LBB18_86:
	movq	%rbx, %rbp
	movq	%r13, %rsi
	xorl	%ebx, %ebx
	jmp	.LBB18_60
.LBB18_19:
	cmpq	$5, %r12
	jb	.LBB18_98
	movl	1(%rbp), %eax
	movl	%eax, %ebx
	bswapl	%ebx
	addq	$-5, %r12
	subq	%rbx, %r12
	jb	.LBB18_98
	testl	%eax, %eax
	je	.LBB18_66
	movq	%r8, %r15
	movl	$1, %esi
	movq	%rbx, %rdi
	callq	rattle_alloc
	testb	$1, %al
	je	.LBB18_107
	leaq	5(%rbp), %rsi
	movq	%rdx, 16(%rsp)
	movq	$0, 24(%rsp)
	movq	%rbx, 32(%rsp)
	leaq	16(%rsp), %rdi
	movq	%rbx, %rdx
	callq	"std_alloc::vec::Vec::extend_from_slice::<#f0d03d630576da86>"
	testb	%al, %al
	jne	.LBB18_105
	movq	16(%rsp), %r14
	movq	24(%rsp), %r13
	movq	32(%rsp), %rsi
	movq	%r15, %r8
	jmp	.LBB18_67
.LBB18_25:
	xorps	%xmm0, %xmm0
	movaps	%xmm0, 32(%rsp)
	movaps	%xmm0, 16(%rsp)
	cmpq	$5, %r12
	jb	.LBB18_90
	movl	(%rcx), %ebx
	bswapl	%ebx
	addq	$-5, %r12
	subq	%rbx, %r12
	jb	.LBB18_90
	cmpq	$0, 96(%rsp)
	je	.LBB18_91
	movq	%r8, 8(%rsp)
	leaq	5(%rbp), %rsi
	leaq	16(%rsp), %rdi
	movq	%rbx, %rdx
	movq	88(%rsp), %rcx
	callq	"amq_protocol_types::parsing::values::parse_array_body::<#021be0914fa2e150>"
	movzbl	24(%rsp), %eax
	movzbl	25(%rsp), %r13d
	cmpb	$0, 16(%rsp)
	jne	.LBB18_102
	addq	%rbx, %rbp
	addq	$5, %rbp
	movzbl	%al, %eax
	movzbl	%r13b, %r14d
	movq	40(%rsp), %rsi
	movq	32(%rsp), %r13
	movzwl	30(%rsp), %ecx
	movl	26(%rsp), %edx
	shlq	$16, %rdx
	shlq	$48, %rcx
	orq	%rdx, %rcx
	shll	$8, %r14d
	orq	%rax, %r14
	orq	%rcx, %r14
	movl	$13, %edi
	jmp	.LBB18_35
.LBB18_30:
	xorps	%xmm0, %xmm0
	movaps	%xmm0, 32(%rsp)
	movaps	%xmm0, 16(%rsp)
	cmpq	$5, %r12
	jb	.LBB18_90
	movl	(%rcx), %ebx
	bswapl	%ebx
	addq	$-5, %r12
	subq	%rbx, %r12
	jb	.LBB18_90
	cmpq	$0, 96(%rsp)
	je	.LBB18_91
	movq	%r8, 8(%rsp)
	leaq	5(%rbp), %rsi
	leaq	16(%rsp), %rdi
	movq	%rbx, %rdx
	movq	88(%rsp), %rcx
	callq	"amq_protocol_types::parsing::values::parse_table_body::<#021be0914fa2e150>"
	movzbl	24(%rsp), %eax
	cmpb	$0, 16(%rsp)
	jne	.LBB18_103
	addq	%rbx, %rbp
	addq	$5, %rbp
	movzbl	%al, %r14d
	movq	32(%rsp), %r13
	movq	40(%rsp), %rsi
	movl	$15, %edi
.LBB18_35:
	xorl	%r15d, %r15d
	xorl	%ebx, %ebx
	xorl	%eax, %eax
	movq	8(%rsp), %r8
	jmp	.LBB18_61
.LBB18_36:
	cmpq	$6, %r12
	jb	.LBB18_90
	movzbl	1(%rbp), %eax
	movl	2(%rbp), %r14d
	bswapl	%r14d
	addq	$6, %rbp
	addq	$-6, %r12
	movq	%r14, %r15
	shlq	$32, %r15
	orq	%rax, %r15
	movl	$10, %edi
	xorl	%r13d, %r13d
	xorl	%esi, %esi
	xorl	%ebx, %ebx
	jmp	.LBB18_60
.LBB18_38:
	testq	%rdx, %rdx
	je	.LBB18_90
	addq	$-2, %r12
	movzbl	1(%rbp), %ebx
	addq	$2, %rbp
	movl	$2, %edi
	jmp	.LBB18_59
.LBB18_40:
	cmpq	$4, %rdx
	jb	.LBB18_90
	movl	1(%rbp), %r15d
	bswapl	%r15d
	addq	$5, %rbp
	addq	$-5, %r12
	movl	$5, %edi
	jmp	.LBB18_55
.LBB18_42:
	cmpq	$8, %rdx
	jb	.LBB18_90
	movq	1(%rbp), %r14
	bswapq	%r14
	addq	$9, %rbp
	addq	$-9, %r12
	movl	$14, %edi
	jmp	.LBB18_50
.LBB18_44:
	cmpq	$2, %rdx
	jb	.LBB18_90
	movzwl	1(%rbp), %eax
	rolw	$8, %ax
	addq	$3, %rbp
	addq	$-3, %r12
	movl	$4, %edi
.LBB18_46:
	xorl	%r13d, %r13d
	xorl	%esi, %esi
	xorl	%r15d, %r15d
	xorl	%r14d, %r14d
	xorl	%ebx, %ebx
	jmp	.LBB18_61
.LBB18_47:
	movl	$17, %edi
	movq	%rcx, %rbp
	movq	%rdx, %r12
	xorl	%esi, %esi
	xorl	%r15d, %r15d
	jmp	.LBB18_56
.LBB18_48:
	cmpq	$8, %rdx
	jb	.LBB18_90
	movq	1(%rbp), %r14
	bswapq	%r14
	addq	$9, %rbp
	addq	$-9, %r12
	movl	$9, %edi
.LBB18_50:
	xorl	%r13d, %r13d
.LBB18_51:
	xorl	%esi, %esi
.LBB18_52:
	xorl	%r15d, %r15d
	xorl	%ebx, %ebx
	jmp	.LBB18_60
.LBB18_53:
	cmpq	$4, %rdx
	jb	.LBB18_90
	movl	1(%rbp), %r15d
	bswapl	%r15d
	addq	$5, %rbp
	addq	$-5, %r12
	movl	$6, %edi
.LBB18_55:
	xorl	%r13d, %r13d
	xorl	%esi, %esi
.LBB18_56:
	xorl	%r14d, %r14d
	xorl	%ebx, %ebx
	jmp	.LBB18_60
.LBB18_57:
	testq	%rdx, %rdx
	je	.LBB18_90
	addq	$-2, %r12
	movzbl	1(%rbp), %ebx
	addq	$2, %rbp
	movl	$1, %edi
.LBB18_59:
	xorl	%r13d, %r13d
	xorl	%esi, %esi
	xorl	%r15d, %r15d
	xorl	%r14d, %r14d
	.p2align	4
.LBB18_60:
	xorl	%eax, %eax
.LBB18_61:
	movq	%r15, %rcx
	shlq	$32, %rcx
	shll	$16, %eax
	orq	%rcx, %rax
	shll	$8, %ebx
	orq	%rdi, %rbx
	orq	%rax, %rbx
	movq	64(%rsp), %rax
	cmpq	%rax, 72(%rsp)
	je	.LBB18_63
.LBB18_62:
	movq	%rax, %rcx
	shlq	$5, %rcx
	movq	%rbx, (%r8,%rcx)
	movq	%r14, 8(%r8,%rcx)
	movq	%r13, 16(%r8,%rcx)
	movq	%rsi, 24(%r8,%rcx)
	incq	%rax
	movq	%rax, 64(%rsp)
	testq	%r12, %r12
	jne	.LBB18_2
	jmp	.LBB18_88
.LBB18_63:
	movq	%rsi, 8(%rsp)
	leaq	56(%rsp), %rdi
	callq	"std_alloc::vec::Vec::grow_amortized::<#63c3e2efe2c28453>"
	testb	%al, %al
	je	.LBB18_92
	movq	56(%rsp), %r8
	movq	64(%rsp), %rax
	movq	8(%rsp), %rsi
	jmp	.LBB18_62
.LBB18_65:
	movq	%rsp, %r14
	xorl	%r13d, %r13d
	movq	%rbx, %rbp
	jmp	.LBB18_51
.LBB18_66:
	movq	%rsp, %r14
	xorl	%esi, %esi
	xorl	%r13d, %r13d
.LBB18_67:
	addq	%rbx, %rbp
	addq	$5, %rbp
	movl	$12, %edi
	jmp	.LBB18_52
.LBB18_68:
	movq	%r14, %rdi
	movq	%r15, %rsi
	movq	%r13, %rdx
	callq	memmove@PLT
	xorl	%r15d, %r15d
	movq	%rbx, %rbp
	movq	%r13, %rsi
	xorl	%ebx, %ebx
	xorl	%eax, %eax
	movq	8(%rsp), %r8
	movl	$16, %edi
	jmp	.LBB18_61
.LBB18_71:
	cmpl	$32, %r13d
	jae	.LBB18_73
	xorl	%eax, %eax
	jmp	.LBB18_77
.LBB18_73:
	movl	%r13d, %eax
	andl	$-32, %eax
	xorl	%ecx, %ecx
	.p2align	4
.LBB18_74:
	movups	5(%rbp,%rcx), %xmm0
	movups	21(%rbp,%rcx), %xmm1
	movups	%xmm0, (%r14,%rcx)
	movups	%xmm1, 16(%r14,%rcx)
	addq	$32, %rcx
	cmpq	%rcx, %rax
	jne	.LBB18_74
	cmpl	%r13d, %eax
	je	.LBB18_84
	testb	$28, %r13b
	je	.LBB18_80
.LBB18_77:
	movq	%rax, %rcx
	movl	%r13d, %eax
	andl	$-4, %eax
	.p2align	4
.LBB18_78:
	movl	(%r15,%rcx), %edx
	movl	%edx, (%r14,%rcx)
	addq	$4, %rcx
	cmpq	%rcx, %rax
	jne	.LBB18_78
	cmpl	%r13d, %eax
	je	.LBB18_84
	jmp	.LBB18_80
.LBB18_87:
	movq	%rsp, %rcx
	movq	64(%rsp), %rax
	jmp	.LBB18_89
.LBB18_88:
	movq	56(%rsp), %rcx
	movq	80(%rsp), %rdi
.LBB18_89:
	movq	72(%rsp), %rdx
	movq	$0, (%rdi)
	movq	%rcx, 8(%rdi)
	movq	%rax, 16(%rdi)
	movq	%rdx, 24(%rdi)
	jmp	.LBB18_115
.LBB18_90:
	xorl	%eax, %eax
	xorl	%r13d, %r13d
	jmp	.LBB18_109
.LBB18_98:
	xorl	%eax, %eax
	jmp	.LBB18_108
.LBB18_91:
	movb	$2, %r13b
	movb	$1, %al
	jmp	.LBB18_109
.LBB18_92:
	movl	%r15d, 20(%rsp)
	movq	%r14, 24(%rsp)
	movq	%r13, 32(%rsp)
	movq	8(%rsp), %rax
	movq	%rax, 40(%rsp)
	movl	%ebx, 16(%rsp)
	leaq	16(%rsp), %rdi
	callq	"amqp_value_core::amqp_value_core++value++AMQPValue+Destruct::drop"
	movq	56(%rsp), %rbx
	movq	64(%rsp), %r15
	movq	72(%rsp), %r14
	testq	%r15, %r15
	je	.LBB18_95
	leaq	20(%rsp), %r12
	leaq	4(%rbx), %r13
	.p2align	4
.LBB18_94:
	movl	-4(%r13), %eax
	movl	%eax, 16(%rsp)
	movups	(%r13), %xmm0
	movups	12(%r13), %xmm1
	movups	%xmm1, 12(%r12)
	movups	%xmm0, (%r12)
	leaq	16(%rsp), %rdi
	callq	"amq_protocol_types::amqp_value_core++value++AMQPValue+Destruct::drop"
	addq	$32, %r13
	decq	%r15
	jne	.LBB18_94
.LBB18_95:
	testq	%r14, %r14
	je	.LBB18_97
	movq	%rbx, %rdi
	callq	rattle_dealloc
.LBB18_97:
	movq	80(%rsp), %rax
	movq	$1, (%rax)
	movq	$770, 8(%rax)
	xorps	%xmm0, %xmm0
	movups	%xmm0, 16(%rax)
	jmp	.LBB18_115
.LBB18_102:
	movq	8(%rsp), %r8
	jmp	.LBB18_109
.LBB18_103:
	movzbl	25(%rsp), %r13d
	movq	8(%rsp), %r8
	jmp	.LBB18_109
.LBB18_104:
	movl	$770, %eax
	movq	8(%rsp), %r8
	jmp	.LBB18_108
.LBB18_105:
	cmpq	$0, 32(%rsp)
	je	.LBB18_107
	movq	16(%rsp), %rdi
	callq	rattle_dealloc
.LBB18_107:
	movl	$770, %eax
	movq	%r15, %r8
.LBB18_108:
	movl	%eax, %r13d
	shrl	$8, %r13d
.LBB18_109:
	movq	%r8, 8(%rsp)
	xorl	%ebx, %ebx
	cmpb	$2, %al
	movzbl	%r13b, %eax
	movl	$2, %ebp
	cmovel	%eax, %ebp
	sete	%bl
	movq	64(%rsp), %r15
	movq	72(%rsp), %r14
	testq	%r15, %r15
	je	.LBB18_112
	leaq	20(%rsp), %r12
	movq	8(%rsp), %rax
	leaq	4(%rax), %r13
	.p2align	4
.LBB18_111:
	movl	-4(%r13), %eax
	movl	%eax, 16(%rsp)
	movups	(%r13), %xmm0
	movups	12(%r13), %xmm1
	movups	%xmm1, 12(%r12)
	movups	%xmm0, (%r12)
	leaq	16(%rsp), %rdi
	callq	"amq_protocol_types::amqp_value_core++value++AMQPValue+Destruct::drop"
	addq	$32, %r13
	decq	%r15
	jne	.LBB18_111
.LBB18_112:
	incq	%rbx
	testq	%r14, %r14
	je	.LBB18_114
	movq	8(%rsp), %rdi
	callq	rattle_dealloc
.LBB18_114:
	movq	80(%rsp), %rcx
	movq	$1, (%rcx)
	movzbl	%bpl, %eax
	shll	$8, %eax
	orq	%rbx, %rax
	movq	%rax, 8(%rcx)
	xorps	%xmm0, %xmm0
	movups	%xmm0, 16(%rcx)
.LBB18_115:
	addq	$104, %rsp
	popq	%rbx
	popq	%r12
	popq	%r13
	popq	%r14
	popq	%r15
	popq	%rbp
	retq
.Lfunc_end18:
	.size	"amq_protocol_types::parsing::values::parse_array_body::<#021be0914fa2e150>", .Lfunc_end18-"amq_protocol_types::parsing::values::parse_array_body::<#021be0914fa2e150>"
	.section	".rodata.amq_protocol_types::parsing::values::parse_array_body::<#021be0914fa2e150>","a",@progbits
	.p2align	2, 0x0
.LJTI18_0:
	.long	.LBB18_25-.LJTI18_0
	.long	.LBB18_38-.LJTI18_0
	.long	.LBB18_109-.LJTI18_0
	.long	.LBB18_36-.LJTI18_0
	.long	.LBB18_109-.LJTI18_0
	.long	.LBB18_30-.LJTI18_0
	.long	.LBB18_109-.LJTI18_0
	.long	.LBB18_109-.LJTI18_0
	.long	.LBB18_40-.LJTI18_0
	.long	.LBB18_109-.LJTI18_0
	.long	.LBB18_109-.LJTI18_0
	.long	.LBB18_4-.LJTI18_0
	.long	.LBB18_109-.LJTI18_0
	.long	.LBB18_109-.LJTI18_0
	.long	.LBB18_109-.LJTI18_0
	.long	.LBB18_109-.LJTI18_0
	.long	.LBB18_109-.LJTI18_0
	.long	.LBB18_109-.LJTI18_0
	.long	.LBB18_19-.LJTI18_0
	.long	.LBB18_42-.LJTI18_0
	.long	.LBB18_6-.LJTI18_0
	.long	.LBB18_47-.LJTI18_0
	.long	.LBB18_109-.LJTI18_0
	.long	.LBB18_109-.LJTI18_0
	.long	.LBB18_109-.LJTI18_0
	.long	.LBB18_109-.LJTI18_0
	.long	.LBB18_109-.LJTI18_0
	.long	.LBB18_109-.LJTI18_0
	.long	.LBB18_109-.LJTI18_0
	.long	.LBB18_109-.LJTI18_0
	.long	.LBB18_109-.LJTI18_0
	.long	.LBB18_109-.LJTI18_0
	.long	.LBB18_109-.LJTI18_0
	.long	.LBB18_57-.LJTI18_0
	.long	.LBB18_109-.LJTI18_0
	.long	.LBB18_48-.LJTI18_0
	.long	.LBB18_109-.LJTI18_0
	.long	.LBB18_8-.LJTI18_0
	.long	.LBB18_109-.LJTI18_0
	.long	.LBB18_109-.LJTI18_0
	.long	.LBB18_53-.LJTI18_0
	.long	.LBB18_109-.LJTI18_0
	.long	.LBB18_109-.LJTI18_0
	.long	.LBB18_4-.LJTI18_0
	.long	.LBB18_109-.LJTI18_0
	.long	.LBB18_109-.LJTI18_0
	.long	.LBB18_109-.LJTI18_0
	.long	.LBB18_109-.LJTI18_0
	.long	.LBB18_109-.LJTI18_0
	.long	.LBB18_109-.LJTI18_0
	.long	.LBB18_6-.LJTI18_0
	.long	.LBB18_10-.LJTI18_0
	.long	.LBB18_44-.LJTI18_0
	.long	.LBB18_109-.LJTI18_0
	.long	.LBB18_109-.LJTI18_0
	.long	.LBB18_12-.LJTI18_0

	.section	".text.amq_protocol_types::parsing::values::parse_table_body::<#021be0914fa2e150>","ax",@progbits
	.p2align	4
	.type	"amq_protocol_types::parsing::values::parse_table_body::<#021be0914fa2e150>",@function
"amq_protocol_types::parsing::values::parse_table_body::<#021be0914fa2e150>":
	pushq	%rbp
	pushq	%r15
	pushq	%r14
	pushq	%r13
	pushq	%r12
	pushq	%rbx
	subq	$664, %rsp
	movq	%rcx, 336(%rsp)
	testq	%rdx, %rdx
	je	.LBB19_3
	movq	%rsi, %r13
	cmpq	$16383, %rdx
	movq	%rdi, 208(%rsp)
	jbe	.LBB19_4
	movq	%r13, %rdi
	movq	%rdx, %rsi
	movq	%rdx, %rbx
	callq	"amq_protocol_types::parsing::pairs::begins_small::<#021be0914fa2e150>"
	movq	%rbx, %rdx
	leaq	40(%rsp), %rsi
	movzbl	%al, %eax
	xorl	%ecx, %ecx
	testb	%al, %al
	movq	%rsi, 240(%rsp)
	cmovneq	%rsi, %rcx
	jmp	.LBB19_5
.LBB19_3:
	movq	$0, (%rdi)
	movw	$0, 8(%rdi)
	pxor	%xmm0, %xmm0
	movdqu	%xmm0, 16(%rdi)
	jmp	.LBB19_284
.LBB19_4:
	leaq	40(%rsp), %rax
	movq	%rax, 240(%rsp)
	xorl	%eax, %eax
	xorl	%ecx, %ecx
.LBB19_5:
	movq	%rax, 144(%rsp)
	movq	%rcx, 152(%rsp)
	movq	336(%rsp), %rax
	decq	%rax
	movq	%rax, 392(%rsp)
	pxor	%xmm0, %xmm0
	movdqu	%xmm0, 160(%rsp)
	jmp	.LBB19_9
	.p2align	4
.LBB19_128:
	movq	160(%rsp), %rax
	cmpq	%rax, 168(%rsp)
	je	.LBB19_175
.LBB19_129:
	movq	152(%rsp), %rcx
	imulq	$56, %rax, %rdx
	movq	%r12, (%rcx,%rdx)
	movq	%rbp, 8(%rcx,%rdx)
	movq	%rbp, 16(%rcx,%rdx)
	movq	%rsi, 24(%rcx,%rdx)
	movq	(%rsp), %rsi
	movq	%rsi, 32(%rcx,%rdx)
	movq	%rbx, 40(%rcx,%rdx)
	movq	8(%rsp), %rsi
	movq	%rsi, 48(%rcx,%rdx)
	incq	%rax
	movq	%rax, 160(%rsp)
	movq	184(%rsp), %rdx
	testq	%rdx, %rdx
	jne	.LBB19_9
	jmp	.LBB19_266
.LBB19_175:
	leaq	152(%rsp), %rdi
	callq	"std_alloc::vec::Vec::grow_amortized::<#b98889d35b5d373b>"
	testb	%al, %al
	je	.LBB19_305
	movq	160(%rsp), %rax
	movq	32(%rsp), %rsi
	jmp	.LBB19_129
	.p2align	4
.LBB19_6:
	movb	%bl, 64(%rsp)
	movb	%bpl, 65(%rsp)
	movw	%r14w, 66(%rsp)
	movl	%r15d, 68(%rsp)
	movq	%r13, 72(%rsp)
	movb	%sil, 80(%rsp)
	movb	%dil, 81(%rsp)
	movw	%r8w, 82(%rsp)
	movl	%r9d, 84(%rsp)
	movq	%r10, 88(%rsp)
	leaq	64(%rsp), %rdi
	callq	"amqp_value_core::amqp_value_core++value++AMQPValue+Destruct::drop"
.LBB19_7:
	movq	56(%rsp), %r13
	movq	184(%rsp), %rdx
	testq	%rdx, %rdx
	je	.LBB19_266
.LBB19_9:
	decq	%rdx
	movzbl	(%r13), %ebx
	cmpq	%rbx, %rdx
	jb	.LBB19_265
	movq	%r13, 56(%rsp)
	incq	%r13
	movq	%r13, 64(%rsp)
	movq	%rbx, 72(%rsp)
	cmpb	$7, %bl
	movq	%rdx, %r15
	ja	.LBB19_26
	testq	%rbx, %rbx
	je	.LBB19_31
	cmpb	$0, (%r13)
	js	.LBB19_32
	cmpl	$1, %ebx
	je	.LBB19_25
	movq	56(%rsp), %rax
	cmpb	$0, 2(%rax)
	js	.LBB19_33
	cmpl	$2, %ebx
	je	.LBB19_25
	movq	56(%rsp), %rax
	cmpb	$0, 3(%rax)
	js	.LBB19_34
	cmpl	$3, %ebx
	je	.LBB19_25
	movq	56(%rsp), %rax
	cmpb	$0, 4(%rax)
	js	.LBB19_35
	cmpl	$4, %ebx
	je	.LBB19_25
	movq	56(%rsp), %rax
	cmpb	$0, 5(%rax)
	js	.LBB19_36
	cmpl	$5, %ebx
	je	.LBB19_25
	movq	56(%rsp), %rax
	cmpb	$0, 6(%rax)
	js	.LBB19_37
	cmpl	$6, %ebx
	je	.LBB19_25
	movq	56(%rsp), %rax
	cmpb	$0, 7(%rax)
	js	.LBB19_38
.LBB19_25:
	movq	%rbx, %rbp
	movq	%r13, %r14
	jmp	.LBB19_44
	.p2align	4
.LBB19_26:
	cmpb	$64, %bl
	ja	.LBB19_29
	cmpb	$32, %bl
	jb	.LBB19_30
	movdqu	(%r13), %xmm0
	movdqu	16(%r13), %xmm1
	movdqu	-32(%r13,%rbx), %xmm2
	por	%xmm0, %xmm2
	movdqu	-16(%r13,%rbx), %xmm0
	por	%xmm1, %xmm0
	por	%xmm2, %xmm0
	pshufd	$238, %xmm0, %xmm1
	por	%xmm0, %xmm1
	movq	%xmm1, %rax
	movabsq	$-9187201950435737472, %rcx
	testq	%rcx, %rax
	je	.LBB19_31
	.p2align	4
.LBB19_29:
	leaq	64(%rsp), %rdi
	movq	%rbx, %rsi
	callq	"core::slice::words::any_by_first::<#52f9edcae2f82f51>"
	movq	%rbx, %rbp
	movq	%r13, %r14
	testb	%al, %al
	jne	.LBB19_40
	jmp	.LBB19_44
.LBB19_30:
	leaq	-8(%rbx), %rcx
	cmpq	$8, %rcx
	movl	$8, %eax
	cmovbq	%rcx, %rax
	movq	(%r13,%rax), %rax
	orq	(%r13), %rax
	cmpq	$16, %rcx
	movl	$16, %edx
	cmovbq	%rcx, %rdx
	orq	(%r13,%rdx), %rax
	orq	-8(%r13,%rbx), %rax
	movabsq	$-9187201950435737472, %rcx
	testq	%rcx, %rax
	jne	.LBB19_29
	.p2align	4
.LBB19_31:
	movq	%r13, %r14
	movq	%rbx, %rbp
	jmp	.LBB19_43
.LBB19_32:
	xorl	%eax, %eax
	jmp	.LBB19_39
.LBB19_33:
	movl	$1, %eax
	jmp	.LBB19_39
.LBB19_34:
	movl	$2, %eax
	jmp	.LBB19_39
.LBB19_35:
	movl	$3, %eax
	jmp	.LBB19_39
.LBB19_36:
	movl	$4, %eax
	jmp	.LBB19_39
.LBB19_37:
	movl	$5, %eax
	jmp	.LBB19_39
.LBB19_38:
	movl	$6, %eax
.LBB19_39:
	movq	%r13, %r14
	movq	%rbx, %rbp
	cmpl	%ebx, %eax
	jae	.LBB19_43
.LBB19_40:
	pxor	%xmm0, %xmm0
	movdqa	%xmm0, 64(%rsp)
	movq	$0, 80(%rsp)
	leaq	64(%rsp), %rdi
	movq	%r13, %rsi
	movq	%rbx, %rdx
	callq	"core::str::utf8::from_utf8"
	cmpb	$0, 64(%rsp)
	jne	.LBB19_271
	movq	80(%rsp), %rbp
	cmpq	$255, %rbp
	ja	.LBB19_315
	movq	72(%rsp), %r14
.LBB19_43:
	testq	%rbp, %rbp
	je	.LBB19_52
.LBB19_44:
	movl	$1, %esi
	movq	%rbp, %rdi
	callq	rattle_alloc
	testb	$1, %al
	je	.LBB19_270
	movq	%rdx, %r12
	movq	%rdx, %rax
	subq	%r14, %rax
	cmpq	%rbp, %rax
	jae	.LBB19_50
	xorl	%eax, %eax
	cmpq	$4, %rbp
	jb	.LBB19_60
	movq	%r12, %rcx
	subq	%r14, %rcx
	cmpq	$32, %rcx
	jb	.LBB19_60
	cmpq	$32, %rbp
	jae	.LBB19_53
	xorl	%eax, %eax
	jmp	.LBB19_57
	.p2align	4
.LBB19_50:
	movq	%r12, %rdi
	movq	%r14, %rsi
	movq	%rbp, %rdx
	callq	memmove@PLT
.LBB19_51:
	movl	$0, 28(%rsp)
	movq	%r15, %rdx
	jmp	.LBB19_66
	.p2align	4
.LBB19_52:
	movb	$1, %al
	movl	%eax, 28(%rsp)
	xorl	%ebp, %ebp
	movq	240(%rsp), %r12
	movq	%r15, %rdx
	jmp	.LBB19_66
.LBB19_53:
	movq	%rbp, %rax
	andq	$-32, %rax
	xorl	%ecx, %ecx
	.p2align	4
.LBB19_54:
	movdqu	(%r14,%rcx), %xmm0
	movdqu	16(%r14,%rcx), %xmm1
	movdqu	%xmm0, (%r12,%rcx)
	movdqu	%xmm1, 16(%r12,%rcx)
	addq	$32, %rcx
	cmpq	%rcx, %rax
	jne	.LBB19_54
	cmpq	%rax, %rbp
	je	.LBB19_51
	testb	$28, %bpl
	je	.LBB19_60
.LBB19_57:
	movq	%rax, %rcx
	movq	%rbp, %rax
	andq	$-4, %rax
	.p2align	4
.LBB19_58:
	movl	(%r14,%rcx), %edx
	movl	%edx, (%r12,%rcx)
	addq	$4, %rcx
	cmpq	%rcx, %rax
	jne	.LBB19_58
	cmpq	%rax, %rbp
	je	.LBB19_51
.LBB19_60:
	movq	%rbp, %rdx
	movq	%rax, %rcx
	andq	$3, %rdx
	je	.LBB19_63
	movq	%rax, %rcx
	.p2align	4
.LBB19_62:
	movzbl	(%r14,%rcx), %esi
	movb	%sil, (%r12,%rcx)
	incq	%rcx
	decq	%rdx
	jne	.LBB19_62
.LBB19_63:
	subq	%rbp, %rax
	cmpq	$-4, %rax
	movq	%r15, %rdx
	ja	.LBB19_65
	.p2align	4
.LBB19_64:
	movzbl	(%r14,%rcx), %eax
	movb	%al, (%r12,%rcx)
	movzbl	1(%r14,%rcx), %eax
	movb	%al, 1(%r12,%rcx)
	movzbl	2(%r14,%rcx), %eax
	movb	%al, 2(%r12,%rcx)
	movzbl	3(%r14,%rcx), %eax
	movb	%al, 3(%r12,%rcx)
	addq	$4, %rcx
	cmpq	%rcx, %rbp
	jne	.LBB19_64
.LBB19_65:
	movl	$0, 28(%rsp)
.LBB19_66:
	cmpq	%rbx, %rdx
	je	.LBB19_256
	movzbl	(%r13,%rbx), %edx
	movb	$1, %al
	xorl	%edi, %edi
	addl	$-65, %edx
	cmpl	$55, %edx
	ja	.LBB19_257
	leaq	(%rbx,%r13), %rcx
	incq	%rcx
	addq	%rbx, %r13
	movq	%rbx, %rsi
	notq	%rsi
	addq	%rsi, %r15
	leaq	.LJTI19_0(%rip), %rsi
	movslq	(%rsi,%rdx,4), %rdx
	addq	%rsi, %rdx
	jmpq	*%rdx
.LBB19_69:
	cmpq	$8, %r15
	jb	.LBB19_256
	movq	%r15, %rdx
	movq	1(%r13), %rax
	bswapq	%rax
	movq	%rax, (%rsp)
	addq	$9, %r13
	addq	$-8, %rdx
	movl	$7, %r14d
	jmp	.LBB19_121
.LBB19_71:
	cmpq	$2, %r15
	jb	.LBB19_256
	movq	%r15, %rdx
	movzwl	1(%r13), %eax
	rolw	$8, %ax
	addq	$3, %r13
	addq	$-2, %rdx
	movl	$3, %r14d
	jmp	.LBB19_117
.LBB19_73:
	cmpq	$4, %r15
	jb	.LBB19_256
	movq	%r15, %rdx
	movl	1(%r13), %ecx
	bswapl	%ecx
	addq	$5, %r13
	addq	$-4, %rdx
	movl	$8, %r14d
	jmp	.LBB19_124
.LBB19_75:
	testq	%r15, %r15
	je	.LBB19_256
	movq	%r15, %rdx
	decq	%rdx
	xorl	%esi, %esi
	cmpb	$0, 1(%r13)
	leaq	2(%r13), %r13
	setne	%sil
	xorl	%ebx, %ebx
	movq	$0, 8(%rsp)
	xorl	%ecx, %ecx
	movq	$0, (%rsp)
	xorl	%r14d, %r14d
	jmp	.LBB19_126
.LBB19_77:
	cmpq	$4, %r15
	jb	.LBB19_301
	movq	%r15, %rdx
	movl	1(%r13), %eax
	movl	%eax, %r15d
	bswapl	%r15d
	addq	$-4, %rdx
	subq	%r15, %rdx
	jb	.LBB19_301
	addq	$5, %r13
	leaq	(%r15,%r13), %rcx
	movl	$16, %r14d
	testl	%eax, %eax
	je	.LBB19_179
	movq	%rcx, 16(%rsp)
	movq	%rdx, 184(%rsp)
	movl	$1, %esi
	movq	%r15, %rdi
	callq	rattle_alloc
	testb	$1, %al
	je	.LBB19_313
	movq	%rdx, %rax
	subq	%r13, %rax
	cmpq	%r15, %rax
	movq	%rdx, (%rsp)
	jae	.LBB19_237
	movq	%r15, %rdi
	cmpl	$4, %r15d
	jb	.LBB19_84
	movq	56(%rsp), %rax
	addq	%rbx, %rax
	movq	(%rsp), %rcx
	subq	%rax, %rcx
	addq	$-6, %rcx
	cmpq	$32, %rcx
	jae	.LBB19_245
.LBB19_84:
	xorl	%eax, %eax
.LBB19_85:
	movq	%rdi, %rdx
	movq	%rax, %rcx
	andq	$3, %rdx
	movq	(%rsp), %r8
	je	.LBB19_88
	movq	%rax, %rcx
	.p2align	4
.LBB19_87:
	movzbl	(%r13,%rcx), %esi
	movb	%sil, (%r8,%rcx)
	incq	%rcx
	decq	%rdx
	jne	.LBB19_87
.LBB19_88:
	subq	%rdi, %rax
	cmpq	$-4, %rax
	jbe	.LBB19_242
	xorl	%ecx, %ecx
	movq	16(%rsp), %r13
	movq	%rdi, 8(%rsp)
	xorl	%esi, %esi
	xorl	%eax, %eax
	movq	184(%rsp), %rdx
	movq	%rdi, %rbx
	jmp	.LBB19_127
.LBB19_90:
	cmpq	$4, %r15
	jb	.LBB19_301
	movq	%r15, %rdx
	movl	1(%r13), %eax
	movl	%eax, %ebx
	bswapl	%ebx
	addq	$-4, %rdx
	subq	%rbx, %rdx
	jb	.LBB19_301
	testl	%eax, %eax
	je	.LBB19_180
	movq	%rdx, %r14
	movl	$1, %esi
	movq	%rbx, %rdi
	callq	rattle_alloc
	testb	$1, %al
	je	.LBB19_313
	leaq	5(%r13), %rsi
	movq	%rdx, 64(%rsp)
	movq	$0, 72(%rsp)
	movq	%rbx, 80(%rsp)
	leaq	64(%rsp), %rdi
	movq	%rbx, %rdx
	callq	"std_alloc::vec::Vec::extend_from_slice::<#f0d03d630576da86>"
	testb	%al, %al
	jne	.LBB19_311
	movq	64(%rsp), %rax
	movq	%rax, (%rsp)
	movq	72(%rsp), %rcx
	movq	80(%rsp), %rax
	movq	%rax, 8(%rsp)
	movq	%r14, %rdx
	jmp	.LBB19_181
.LBB19_96:
	pxor	%xmm0, %xmm0
	movdqa	%xmm0, 80(%rsp)
	movdqa	%xmm0, 64(%rsp)
	cmpq	$4, %r15
	jb	.LBB19_256
	movl	(%rcx), %ebx
	bswapl	%ebx
	addq	$-4, %r15
	subq	%rbx, %r15
	jb	.LBB19_256
	cmpq	$0, 336(%rsp)
	je	.LBB19_299
	leaq	5(%r13), %rsi
	leaq	64(%rsp), %rdi
	movq	%rbx, %rdx
	movq	392(%rsp), %rcx
	callq	"amq_protocol_types::parsing::values::parse_array_body::<#021be0914fa2e150>"
	movzbl	72(%rsp), %eax
	movzbl	73(%rsp), %edi
	cmpb	$0, 64(%rsp)
	jne	.LBB19_257
	addq	%rbx, %r13
	addq	$5, %r13
	movzbl	%al, %eax
	movzbl	%dil, %esi
	movq	88(%rsp), %rcx
	movq	%rcx, 8(%rsp)
	movq	80(%rsp), %rbx
	movzwl	78(%rsp), %ecx
	movl	74(%rsp), %edx
	shlq	$16, %rdx
	shlq	$48, %rcx
	orq	%rdx, %rcx
	shll	$8, %esi
	orq	%rax, %rsi
	orq	%rcx, %rsi
	movq	%rsi, (%rsp)
	movl	$13, %r14d
	jmp	.LBB19_106
.LBB19_101:
	pxor	%xmm0, %xmm0
	movdqa	%xmm0, 80(%rsp)
	movdqa	%xmm0, 64(%rsp)
	cmpq	$4, %r15
	jb	.LBB19_256
	movl	(%rcx), %ebx
	bswapl	%ebx
	addq	$-4, %r15
	subq	%rbx, %r15
	jb	.LBB19_256
	cmpq	$0, 336(%rsp)
	je	.LBB19_299
	leaq	5(%r13), %rsi
	leaq	64(%rsp), %rdi
	movq	%rbx, %rdx
	movq	392(%rsp), %rcx
	callq	"amq_protocol_types::parsing::values::parse_table_body::<#021be0914fa2e150>"
	movzbl	72(%rsp), %eax
	cmpb	$0, 64(%rsp)
	jne	.LBB19_304
	addq	%rbx, %r13
	addq	$5, %r13
	movzbl	%al, %eax
	movq	%rax, (%rsp)
	movq	80(%rsp), %rbx
	movq	88(%rsp), %rax
	movq	%rax, 8(%rsp)
	movl	$15, %r14d
.LBB19_106:
	xorl	%ecx, %ecx
	xorl	%esi, %esi
	xorl	%eax, %eax
	movq	%r15, %rdx
	jmp	.LBB19_127
.LBB19_107:
	cmpq	$5, %r15
	jb	.LBB19_256
	movq	%r15, %rdx
	movzbl	1(%r13), %eax
	movl	2(%r13), %ecx
	bswapl	%ecx
	addq	$6, %r13
	addq	$-5, %rdx
	movq	%rcx, (%rsp)
	shlq	$32, %rcx
	orq	%rax, %rcx
	movl	$10, %r14d
	xorl	%ebx, %ebx
	movq	$0, 8(%rsp)
	jmp	.LBB19_125
.LBB19_109:
	testq	%r15, %r15
	je	.LBB19_256
	movq	%r15, %rdx
	decq	%rdx
	movzbl	1(%r13), %esi
	addq	$2, %r13
	movl	$2, %r14d
	jmp	.LBB19_174
.LBB19_111:
	cmpq	$4, %r15
	jb	.LBB19_256
	movq	%r15, %rdx
	movl	1(%r13), %ecx
	bswapl	%ecx
	addq	$5, %r13
	addq	$-4, %rdx
	movl	$5, %r14d
	jmp	.LBB19_124
.LBB19_113:
	cmpq	$8, %r15
	jb	.LBB19_256
	movq	%r15, %rdx
	movq	1(%r13), %rax
	bswapq	%rax
	movq	%rax, (%rsp)
	addq	$9, %r13
	addq	$-8, %rdx
	movl	$14, %r14d
	jmp	.LBB19_121
.LBB19_115:
	cmpq	$2, %r15
	jb	.LBB19_256
	movq	%r15, %rdx
	movzwl	1(%r13), %eax
	rolw	$8, %ax
	addq	$3, %r13
	addq	$-2, %rdx
	movl	$4, %r14d
.LBB19_117:
	xorl	%ebx, %ebx
	movq	$0, 8(%rsp)
	xorl	%ecx, %ecx
	movq	$0, (%rsp)
	xorl	%esi, %esi
	jmp	.LBB19_127
.LBB19_118:
	movl	$17, %r14d
	movq	%rcx, %r13
	movq	$0, 8(%rsp)
	xorl	%ecx, %ecx
	movq	$0, (%rsp)
	xorl	%esi, %esi
	xorl	%eax, %eax
	movq	%r15, %rdx
	xorl	%ebx, %ebx
	jmp	.LBB19_127
.LBB19_119:
	cmpq	$8, %r15
	jb	.LBB19_256
	movq	%r15, %rdx
	movq	1(%r13), %rax
	bswapq	%rax
	movq	%rax, (%rsp)
	addq	$9, %r13
	addq	$-8, %rdx
	movl	$9, %r14d
.LBB19_121:
	xorl	%ebx, %ebx
	movq	$0, 8(%rsp)
	xorl	%ecx, %ecx
	jmp	.LBB19_125
.LBB19_122:
	cmpq	$4, %r15
	jb	.LBB19_256
	movq	%r15, %rdx
	movl	1(%r13), %ecx
	bswapl	%ecx
	addq	$5, %r13
	addq	$-4, %rdx
	movl	$6, %r14d
.LBB19_124:
	xorl	%ebx, %ebx
	movq	$0, 8(%rsp)
	movq	$0, (%rsp)
.LBB19_125:
	xorl	%esi, %esi
.LBB19_126:
	xorl	%eax, %eax
.LBB19_127:
	movq	%rcx, %rdi
	shlq	$32, %rcx
	shll	$16, %eax
	orq	%rcx, %rax
	shll	$8, %esi
	orq	%r14, %rsi
	orq	%rax, %rsi
	cmpb	$0, 144(%rsp)
	movq	%rsi, 32(%rsp)
	movq	%rdx, 184(%rsp)
	jne	.LBB19_128
	movq	%rdi, 248(%rsp)
	movq	%rbx, 344(%rsp)
	movq	%r13, 56(%rsp)
	cmpb	$1, 152(%rsp)
	jne	.LBB19_132
	movq	160(%rsp), %rdx
	movzwl	2(%rdx), %eax
	jmp	.LBB19_134
.LBB19_132:
	movl	$848, %edi
	movl	$8, %esi
	callq	rattle_alloc
	movq	32(%rsp), %rsi
	testb	$1, %al
	je	.LBB19_285
	movl	$0, (%rdx)
	movq	$1, 152(%rsp)
	movq	%rdx, 160(%rsp)
	xorl	%eax, %eax
.LBB19_134:
	movzwl	%ax, %eax
	movl	$15, %ebx
	subq	%rax, %rbx
	movq	%rax, 216(%rsp)
	negb	%al
	movb	%al, 224(%rsp)
	movq	$0, 192(%rsp)
	movq	%rdx, %rdi
	movq	$0, 16(%rsp)
	movq	%rdx, 176(%rsp)
	movq	%rdx, 48(%rsp)
	movq	%rbx, 232(%rsp)
	xorl	%r13d, %r13d
	.p2align	4
.LBB19_135:
	movq	%rdi, %rcx
	movzwl	(%rdi), %edx
	xorl	%eax, %eax
	testq	%rdx, %rdx
	jne	.LBB19_138
	jmp	.LBB19_164
	.p2align	4
.LBB19_136:
	jb	.LBB19_163
.LBB19_137:
	incq	%rax
	cmpq	%rdx, %rax
	je	.LBB19_162
.LBB19_138:
	leaq	(%rax,%rax,2), %rsi
	movq	8(%rcx,%rsi,8), %rdi
	movq	16(%rcx,%rsi,8), %rsi
	cmpq	%rbp, %rsi
	movq	%rbp, %r8
	cmovbq	%rsi, %r8
	cmpq	$7, %r8
	ja	.LBB19_141
	cmpq	$4, %r8
	jb	.LBB19_142
	movl	(%r12), %r10d
	movl	-4(%r12,%r8), %r9d
	shlq	$32, %r9
	orq	%r10, %r9
	bswapq	%r9
	movl	(%rdi), %r11d
	movl	-4(%rdi,%r8), %r10d
	shlq	$32, %r10
	orq	%r11, %r10
	bswapq	%r10
	cmpq	%r10, %r9
	jne	.LBB19_136
	jmp	.LBB19_144
	.p2align	4
.LBB19_141:
	movq	(%r12), %r9
	leaq	-8(%r8), %r10
	cmpq	$8, %r10
	movl	$8, %r11d
	cmovbq	%r10, %r11
	movq	(%rdi), %r10
	movq	(%r12,%r11), %r14
	bswapq	%r14
	movq	(%rdi,%r11), %r11
	bswapq	%r11
	cmpq	%r10, %r9
	bswapq	%r10
	bswapq	%r9
	cmoveq	%r14, %r9
	cmoveq	%r11, %r10
	cmpq	%r10, %r9
	je	.LBB19_144
	jmp	.LBB19_136
	.p2align	4
.LBB19_142:
	testq	%r8, %r8
	je	.LBB19_158
	movzbl	(%r12), %r9d
	movq	%r8, %r10
	shrq	%r10
	movzbl	(%r12,%r10), %r11d
	shll	$16, %r9d
	shll	$8, %r11d
	orl	%r9d, %r11d
	movzbl	-1(%r12,%r8), %r9d
	orq	%r11, %r9
	movzbl	(%rdi), %r11d
	movzbl	(%rdi,%r10), %r14d
	shll	$16, %r11d
	shll	$8, %r14d
	orl	%r11d, %r14d
	movzbl	-1(%rdi,%r8), %r10d
	orq	%r14, %r10
	cmpq	%r10, %r9
	jne	.LBB19_136
	.p2align	4
.LBB19_144:
	cmpq	$16, %r8
	ja	.LBB19_145
.LBB19_158:
	cmpq	%rsi, %rbp
	je	.LBB19_166
	cmpq	%rsi, %rbp
	jae	.LBB19_137
	jmp	.LBB19_163
	.p2align	4
.LBB19_145:
	leaq	-16(%r8), %r9
	cmpq	$79, %r9
	ja	.LBB19_149
	movl	$16, %r10d
	movq	%r9, %r11
	.p2align	4
.LBB19_147:
	cmpq	$17, %r11
	jb	.LBB19_160
	movdqu	(%r12,%r10), %xmm0
	movdqu	(%rdi,%r10), %xmm1
	pcmpeqb	%xmm0, %xmm1
	pmovmskb	%xmm1, %r14d
	notl	%r14d
	rep		bsfl	%r14d, %r14d
	leaq	(%r14,%r10), %r15
	addq	$16, %r10
	addq	$-16, %r11
	cmpq	%r10, %r15
	jae	.LBB19_147
	jmp	.LBB19_157
.LBB19_149:
	movdqu	16(%r12), %xmm0
	movdqu	16(%rdi), %xmm1
	pcmpeqb	%xmm0, %xmm1
	pmovmskb	%xmm1, %r10d
	notl	%r10d
	rep		bsfl	%r10d, %r10d
	cmpw	$16, %r10w
	jae	.LBB19_151
	addl	$16, %r10d
	cmpq	%r8, %r10
	jae	.LBB19_158
	jmp	.LBB19_161
.LBB19_151:
	leaq	-32(%r8), %r11
	movl	$32, %r10d
	.p2align	4
.LBB19_152:
	movdqu	(%r12,%r10), %xmm0
	movdqu	16(%r12,%r10), %xmm1
	movdqu	32(%r12,%r10), %xmm2
	movdqu	48(%r12,%r10), %xmm3
	movdqu	(%rdi,%r10), %xmm4
	pcmpeqb	%xmm0, %xmm4
	movdqu	16(%rdi,%r10), %xmm0
	pcmpeqb	%xmm1, %xmm0
	pand	%xmm4, %xmm0
	movdqu	32(%rdi,%r10), %xmm1
	pcmpeqb	%xmm2, %xmm1
	movdqu	48(%rdi,%r10), %xmm2
	pcmpeqb	%xmm3, %xmm2
	pand	%xmm1, %xmm2
	pand	%xmm0, %xmm2
	pmovmskb	%xmm2, %r14d
	cmpl	$65535, %r14d
	jne	.LBB19_154
	addq	$64, %r10
	addq	$-64, %r11
	cmpq	$63, %r11
	ja	.LBB19_152
.LBB19_154:
	movq	%r8, %r11
	subq	%r10, %r11
	.p2align	4
.LBB19_155:
	cmpq	$17, %r11
	jb	.LBB19_160
	movdqu	(%r12,%r10), %xmm0
	movdqu	(%rdi,%r10), %xmm1
	pcmpeqb	%xmm0, %xmm1
	pmovmskb	%xmm1, %r14d
	notl	%r14d
	rep		bsfl	%r14d, %r14d
	leaq	(%r14,%r10), %r15
	addq	$16, %r10
	addq	$-16, %r11
	cmpq	%r10, %r15
	jae	.LBB19_155
.LBB19_157:
	movzwl	%r14w, %r9d
	addq	%r9, %r10
	addq	$-16, %r10
	cmpq	%r8, %r10
	jb	.LBB19_161
	jmp	.LBB19_158
.LBB19_160:
	movdqu	(%r12,%r9), %xmm0
	movdqu	(%rdi,%r9), %xmm1
	pcmpeqb	%xmm0, %xmm1
	pmovmskb	%xmm1, %r10d
	notl	%r10d
	rep		bsfl	%r10d, %r10d
	addq	%r9, %r10
	cmpq	%r8, %r10
	jae	.LBB19_158
.LBB19_161:
	movzbl	(%r12,%r10), %esi
	cmpb	(%rdi,%r10), %sil
	jae	.LBB19_137
	jmp	.LBB19_163
	.p2align	4
.LBB19_162:
	movq	%rdx, %rax
.LBB19_163:
	movq	32(%rsp), %rsi
.LBB19_164:
	shlq	$4, %r13
	addq	%rax, %r13
	incq	%rbx
	cmpw	$0, 2(%rcx)
	je	.LBB19_169
	movq	848(%rcx,%rax,8), %rdi
	incq	192(%rsp)
	incb	224(%rsp)
	movq	%rax, 16(%rsp)
	movq	%rcx, 48(%rsp)
	jmp	.LBB19_135
	.p2align	4
.LBB19_166:
	andl	$15, %eax
	addq	216(%rsp), %rbx
	cmpq	$15, %rbx
	movq	48(%rsp), %rcx
	movq	16(%rsp), %rdx
	leaq	848(%rcx,%rdx,8), %rcx
	leaq	160(%rsp), %rdx
	cmoveq	%rdx, %rcx
	movq	(%rcx), %rcx
	movzwl	(%rcx), %edx
	cmpq	%rdx, %rax
	jae	.LBB19_315
	shll	$5, %eax
	movzbl	368(%rcx,%rax), %ebx
	movzbl	369(%rcx,%rax), %ebp
	movzwl	370(%rcx,%rax), %r14d
	movl	372(%rcx,%rax), %r15d
	movq	376(%rcx,%rax), %r13
	movzbl	384(%rcx,%rax), %esi
	movzbl	385(%rcx,%rax), %edi
	movzwl	386(%rcx,%rax), %r8d
	movl	388(%rcx,%rax), %r9d
	movq	392(%rcx,%rax), %r10
	movq	32(%rsp), %rdx
	movq	%rdx, 368(%rcx,%rax)
	movq	(%rsp), %rdx
	movq	%rdx, 376(%rcx,%rax)
	movq	344(%rsp), %rdx
	movq	%rdx, 384(%rcx,%rax)
	movq	8(%rsp), %rdx
	movq	%rdx, 392(%rcx,%rax)
	cmpb	$0, 28(%rsp)
	jne	.LBB19_6
	movb	%dil, 16(%rsp)
	movq	%r12, %rdi
	movb	%sil, 48(%rsp)
	movw	%r8w, 192(%rsp)
	movl	%r9d, 32(%rsp)
	movq	%r10, %r12
	callq	rattle_dealloc
	movq	%r12, %r10
	movl	32(%rsp), %r9d
	movzwl	192(%rsp), %r8d
	movzbl	16(%rsp), %edi
	movzbl	48(%rsp), %esi
	jmp	.LBB19_6
.LBB19_169:
	movabsq	$9223372036854775806, %rax
	cmpq	%rax, 168(%rsp)
	ja	.LBB19_285
	movq	%rbx, %rax
	movq	232(%rsp), %rdi
	subq	%rdi, %rax
	movq	%rax, 384(%rsp)
	cmpq	$1, %rax
	movq	48(%rsp), %rsi
	movq	16(%rsp), %rdx
	leaq	848(%rsi,%rdx,8), %rax
	leaq	160(%rsp), %rcx
	cmoveq	%rcx, %rax
	movq	(%rax), %rax
	cmpw	$15, (%rax)
	jae	.LBB19_177
	shlq	$3, %rdx
	movq	248(%rsp), %rcx
	movq	%rdx, %rax
	jmp	.LBB19_241
.LBB19_172:
	testq	%r15, %r15
	je	.LBB19_256
	movq	%r15, %rdx
	decq	%rdx
	movzbl	1(%r13), %esi
	addq	$2, %r13
	movl	$1, %r14d
.LBB19_174:
	xorl	%ebx, %ebx
	movq	$0, 8(%rsp)
	xorl	%ecx, %ecx
	movq	$0, (%rsp)
	jmp	.LBB19_126
.LBB19_177:
	movq	176(%rsp), %rax
	cmpw	$15, (%rax)
	jae	.LBB19_183
	movq	%rdi, %rax
	jmp	.LBB19_186
.LBB19_179:
	xorl	%ebx, %ebx
	movq	%rcx, %r13
	movq	$0, 8(%rsp)
	xorl	%ecx, %ecx
	movq	240(%rsp), %rax
	movq	%rax, (%rsp)
	jmp	.LBB19_125
.LBB19_180:
	xorl	%ecx, %ecx
	movq	$0, 8(%rsp)
	movq	240(%rsp), %rax
	movq	%rax, (%rsp)
.LBB19_181:
	addq	%rbx, %r13
	addq	$5, %r13
	movl	$12, %r14d
	xorl	%esi, %esi
	xorl	%eax, %eax
.LBB19_182:
	movq	%rcx, %rbx
	xorl	%ecx, %ecx
	jmp	.LBB19_127
.LBB19_183:
	cmpw	$10, 216(%rsp)
	ja	.LBB19_298
	movl	$976, %edi
	movl	$8, %esi
	callq	rattle_alloc
	movq	48(%rsp), %rsi
	testb	$1, %al
	je	.LBB19_298
	movq	216(%rsp), %rcx
	leal	1(%rcx), %eax
	movw	%ax, 2(%rdx)
	movq	176(%rsp), %rax
	movq	%rax, 848(%rdx)
	movw	$0, (%rdx)
	movq	%rdx, 160(%rsp)
	movl	$14, %eax
	subq	%rcx, %rax
	movq	%rdx, 176(%rsp)
	movq	232(%rsp), %rdi
.LBB19_186:
	pxor	%xmm0, %xmm0
	movdqa	%xmm0, 64(%rsp)
	movq	%rbx, %rcx
	subq	%rax, %rcx
	movq	%rcx, 384(%rsp)
	jbe	.LBB19_192
	movl	%ebx, %ecx
	subl	%eax, %ecx
	testb	$3, %cl
	je	.LBB19_190
	movzbl	224(%rsp), %ecx
	subb	%al, %cl
	movzbl	%cl, %ecx
	andl	$3, %ecx
	.p2align	4
.LBB19_189:
	movl	%r13d, %edx
	andb	$15, %dl
	movb	%dl, 63(%rsp,%rbx)
	decq	%rbx
	shrq	$4, %r13
	decq	%rcx
	jne	.LBB19_189
.LBB19_190:
	movq	192(%rsp), %rcx
	addq	%rdi, %rcx
	subq	%rax, %rcx
	cmpq	$3, %rcx
	jb	.LBB19_192
	.p2align	4
.LBB19_191:
	movl	%r13d, %ecx
	andb	$15, %cl
	movb	%cl, 63(%rsp,%rbx)
	movl	%r13d, %ecx
	shrb	$4, %cl
	movb	%cl, 62(%rsp,%rbx)
	movl	%r13d, %ecx
	shrl	$8, %ecx
	andb	$15, %cl
	movb	%cl, 61(%rsp,%rbx)
	movl	%r13d, %ecx
	shrl	$12, %ecx
	andb	$15, %cl
	movb	%cl, 60(%rsp,%rbx)
	addq	$-4, %rbx
	shrq	$16, %r13
	cmpq	%rbx, %rax
	jb	.LBB19_191
.LBB19_192:
	movdqa	64(%rsp), %xmm0
	movdqa	%xmm0, 624(%rsp)
	movl	$16, %r14d
	subq	%rax, %r14
	cmpq	$2, %r14
	movq	248(%rsp), %rcx
	jb	.LBB19_239
	leaq	(%rsp,%rax), %r15
	addq	$624, %r15
	leaq	160(%rsp), %rdi
	jmp	.LBB19_197
	.p2align	4
.LBB19_194:
	movq	424(%rsp), %rdx
	incl	%edx
	movb	%dl, (%r15)
	addb	$-8, %al
	movb	%al, 1(%r15)
.LBB19_195:
	movq	248(%rsp), %rcx
	movq	224(%rsp), %r14
.LBB19_196:
	movzbl	%dl, %edx
	leaq	(%rsi,%rdx,8), %rdi
	addq	$848, %rdi
	incq	%r15
	cmpq	$2, %r14
	leaq	-1(%r14), %r14
	jbe	.LBB19_238
.LBB19_197:
	movzbl	(%r15), %r8d
	movl	%r8d, %edx
	movq	(%rdi), %rsi
	movq	848(%rsi,%r8,8), %rax
	cmpw	$15, (%rax)
	jb	.LBB19_196
	movq	%r8, 48(%rsp)
	movq	%rdi, 16(%rsp)
	movq	%rdx, 424(%rsp)
	movzwl	2(%rsi), %ebx
	decq	%rbx
	movq	%r14, 224(%rsp)
	movq	%r15, 216(%rsp)
	je	.LBB19_200
	movl	$976, %edi
	movl	$8, %esi
	callq	rattle_alloc
	testb	$1, %al
	jne	.LBB19_201
	jmp	.LBB19_295
.LBB19_200:
	movl	$848, %edi
	movl	$8, %esi
	callq	rattle_alloc
	testb	$1, %al
	je	.LBB19_295
.LBB19_201:
	movq	%rdx, %r13
	movw	%bx, 2(%rdx)
	leaq	8(%rdx), %rdi
	movq	16(%rsp), %rax
	movq	(%rax), %rcx
	pxor	%xmm0, %xmm0
	movdqa	%xmm0, 560(%rsp)
	movq	$0, 576(%rsp)
	movdqa	%xmm0, 432(%rsp)
	movdqu	%xmm0, 444(%rsp)
	movzwl	(%rcx), %edx
	leaq	1(%rdx), %rsi
	xorl	%eax, %eax
	xorl	%r8d, %r8d
	cmpw	$0, 2(%rcx)
	setne	%r8b
	cmoveq	%rax, %rsi
	shll	$4, %r8d
	leaq	848(%rcx), %r11
	leaq	368(%rcx), %r9
	leaq	8(%rcx), %r10
	movq	%r10, 256(%rsp)
	movq	%rdx, 264(%rsp)
	movq	$15, 272(%rsp)
	movq	%r9, 280(%rsp)
	movq	%rdx, 288(%rsp)
	movq	$15, 296(%rsp)
	movq	%r11, 176(%rsp)
	movq	%r11, 304(%rsp)
	movq	%rsi, 312(%rsp)
	movq	%r8, 320(%rsp)
	movq	%rcx, 328(%rsp)
	movdqa	%xmm0, 400(%rsp)
	movq	$0, 416(%rsp)
	movdqa	%xmm0, 464(%rsp)
	movdqu	%xmm0, 476(%rsp)
	movq	48(%rsp), %rdx
	movq	848(%rcx,%rdx,8), %r15
	movdqa	%xmm0, 640(%rsp)
	movq	$0, 656(%rsp)
	movdqa	%xmm0, 496(%rsp)
	movdqu	%xmm0, 508(%rsp)
	leaq	72(%rsp), %rcx
	movdqu	%xmm0, 16(%rcx)
	movdqu	%xmm0, (%rcx)
	movdqu	%xmm0, 540(%rsp)
	movdqa	%xmm0, 528(%rsp)
	movzwl	2(%r15), %ebx
	movzwl	(%r15), %r14d
	leaq	1(%r14), %rcx
	xorl	%edx, %edx
	testw	%bx, %bx
	cmoveq	%rax, %rcx
	setne	%dl
	shll	$4, %edx
	leaq	848(%r15), %rax
	leaq	368(%r15), %rsi
	leaq	8(%r15), %r8
	movq	%r8, 64(%rsp)
	movq	$15, 80(%rsp)
	movq	%rsi, 88(%rsp)
	movq	$15, 104(%rsp)
	movq	%rax, 112(%rsp)
	movq	%rcx, 120(%rsp)
	movq	%rdx, 128(%rsp)
	movq	%r15, 136(%rsp)
	leaq	-8(%r14), %rax
	movq	%rax, 192(%rsp)
	leaq	200(%r15), %rsi
	leaq	-64(,%r14,8), %rax
	leaq	(%rax,%rax,2), %rdx
	movq	%rdi, %rax
	subq	%rsi, %rax
	cmpq	%rdx, %rax
	jae	.LBB19_204
	cmpl	$8, %r14d
	jne	.LBB19_205
	movq	$8, 72(%rsp)
	addq	$624, %r15
	xorl	%edx, %edx
	movq	%r15, %rsi
	leaq	368(%r13), %rdi
	jmp	.LBB19_216
	.p2align	4
.LBB19_204:
	callq	memmove@PLT
	leaq	368(%r13), %rdi
	jmp	.LBB19_212
.LBB19_205:
	movl	%r14d, %eax
	andl	$7, %eax
	leal	-9(%r14), %ecx
	cmpw	$7, %cx
	jae	.LBB19_207
	xorl	%ecx, %ecx
	leaq	368(%r13), %rdi
	jmp	.LBB19_210
.LBB19_207:
	leaq	-8(%r14), %rdx
	andq	$-8, %rdx
	xorl	%ecx, %ecx
	xorl	%r8d, %r8d
	.p2align	4
.LBB19_208:
	movups	(%rsi,%r8), %xmm0
	movq	16(%rsi,%r8), %r9
	movq	%r9, 16(%rdi,%r8)
	movups	%xmm0, (%rdi,%r8)
	movups	24(%rsi,%r8), %xmm0
	movq	40(%rsi,%r8), %r9
	movq	%r9, 40(%rdi,%r8)
	movups	%xmm0, 24(%rdi,%r8)
	movups	48(%rsi,%r8), %xmm0
	movq	64(%rsi,%r8), %r9
	movq	%r9, 64(%rdi,%r8)
	movups	%xmm0, 48(%rdi,%r8)
	movups	72(%rsi,%r8), %xmm0
	movq	88(%rsi,%r8), %r9
	movq	%r9, 88(%rdi,%r8)
	movups	%xmm0, 72(%rdi,%r8)
	movups	96(%rsi,%r8), %xmm0
	movq	112(%rsi,%r8), %r9
	movq	%r9, 112(%rdi,%r8)
	movups	%xmm0, 96(%rdi,%r8)
	movups	120(%rsi,%r8), %xmm0
	movq	136(%rsi,%r8), %r9
	movq	%r9, 136(%rdi,%r8)
	movups	%xmm0, 120(%rdi,%r8)
	movups	144(%rsi,%r8), %xmm0
	movq	160(%rsi,%r8), %r9
	movq	%r9, 160(%rdi,%r8)
	movups	%xmm0, 144(%rdi,%r8)
	movdqu	168(%rsi,%r8), %xmm0
	movq	184(%rsi,%r8), %r9
	movq	%r9, 184(%rdi,%r8)
	movdqu	%xmm0, 168(%rdi,%r8)
	addq	$8, %rcx
	addq	$192, %r8
	cmpq	%rcx, %rdx
	jne	.LBB19_208
	testq	%rax, %rax
	leaq	368(%r13), %rdi
	je	.LBB19_212
.LBB19_210:
	shlq	$3, %rcx
	leaq	(%rcx,%rcx,2), %rdx
	leaq	(%r15,%rdx), %rcx
	addq	$200, %rcx
	addq	%r13, %rdx
	addq	$8, %rdx
	shll	$3, %eax
	leaq	(%rax,%rax,2), %rax
	xorl	%esi, %esi
	.p2align	4
.LBB19_211:
	movdqu	(%rcx,%rsi), %xmm0
	movq	16(%rcx,%rsi), %r8
	movq	%r8, 16(%rdx,%rsi)
	movdqu	%xmm0, (%rdx,%rsi)
	addq	$24, %rsi
	cmpq	%rsi, %rax
	jne	.LBB19_211
.LBB19_212:
	movq	$8, 72(%rsp)
	leaq	624(%r15), %rsi
	leaq	-8(%r14), %rdx
	shlq	$5, %rdx
	movq	%rdi, %rax
	subq	%rsi, %rax
	cmpq	%rdx, %rax
	jae	.LBB19_216
	cmpl	$8, %r14d
	je	.LBB19_217
	addq	$628, %r15
	leaq	372(%r13), %rax
	xorl	%ecx, %ecx
	movq	192(%rsp), %rdx
	.p2align	4
.LBB19_215:
	movl	-4(%r15,%rcx), %esi
	movups	(%r15,%rcx), %xmm0
	movaps	%xmm0, 352(%rsp)
	movups	12(%r15,%rcx), %xmm0
	movups	%xmm0, 364(%rsp)
	movl	%esi, -4(%rax,%rcx)
	movaps	352(%rsp), %xmm0
	movups	%xmm0, (%rax,%rcx)
	movdqu	364(%rsp), %xmm0
	movdqu	%xmm0, 12(%rax,%rcx)
	addq	$32, %rcx
	decq	%rdx
	jne	.LBB19_215
	jmp	.LBB19_217
	.p2align	4
.LBB19_216:
	callq	memmove@PLT
.LBB19_217:
	movq	$8, 96(%rsp)
	pxor	%xmm0, %xmm0
	movdqa	%xmm0, 592(%rsp)
	movq	$0, 608(%rsp)
	movdqa	%xmm0, 352(%rsp)
	movdqa	%xmm0, 368(%rsp)
	leaq	592(%rsp), %rdi
	leaq	64(%rsp), %rsi
	movl	$7, %edx
	callq	"std_alloc::vec::Vec::remove::<#5ea93b9ddeb8aab1>"
	leaq	352(%rsp), %rdi
	movl	$7, %edx
	leaq	88(%rsp), %rsi
	callq	"std_alloc::vec::Vec::remove::<#cd5e489e5ed3d409>"
	movzbl	352(%rsp), %eax
	movb	%al, 232(%rsp)
	movzbl	353(%rsp), %r14d
	movzwl	354(%rsp), %eax
	movw	%ax, 206(%rsp)
	leaq	356(%rsp), %rax
	movdqu	(%rax), %xmm0
	movdqu	12(%rax), %xmm1
	movdqa	%xmm0, 528(%rsp)
	movdqu	%xmm1, 540(%rsp)
	testw	%bx, %bx
	je	.LBB19_223
	leaq	848(%r13), %rdi
	movq	112(%rsp), %rax
	movq	120(%rsp), %r8
	leaq	64(%rax), %rsi
	leaq	-64(,%r8,8), %rdx
	movq	%rdi, %rcx
	subq	%rsi, %rcx
	cmpq	%rdx, %rcx
	jae	.LBB19_222
	cmpq	$8, %r8
	je	.LBB19_223
	leaq	-8(%r8), %rcx
	cmpq	$4, %rcx
	jb	.LBB19_221
	movq	%r13, %rdx
	subq	%rax, %rdx
	addq	$784, %rdx
	cmpq	$32, %rdx
	jae	.LBB19_229
.LBB19_221:
	xorl	%edx, %edx
.LBB19_232:
	movq	%r8, %r10
	movq	%rdx, %r9
	andq	$3, %r10
	je	.LBB19_235
	movq	%rdx, %r9
	.p2align	4
.LBB19_234:
	movq	(%rsi,%r9,8), %r11
	movq	%r11, (%rdi,%r9,8)
	incq	%r9
	decq	%r10
	jne	.LBB19_234
.LBB19_235:
	subq	%rdx, %r8
	addq	$-9, %r8
	cmpq	$3, %r8
	jb	.LBB19_223
	.p2align	4
.LBB19_236:
	movq	64(%rax,%r9,8), %rdx
	movq	%rdx, 848(%r13,%r9,8)
	movq	72(%rax,%r9,8), %rdx
	movq	%rdx, 856(%r13,%r9,8)
	movq	80(%rax,%r9,8), %rdx
	movq	%rdx, 864(%r13,%r9,8)
	movq	88(%rax,%r9,8), %rdx
	movq	%rdx, 872(%r13,%r9,8)
	addq	$4, %r9
	cmpq	%r9, %rcx
	jne	.LBB19_236
	jmp	.LBB19_223
.LBB19_222:
	callq	memmove@PLT
.LBB19_223:
	movzwl	72(%rsp), %eax
	movq	136(%rsp), %rcx
	movw	%ax, (%rcx)
	movq	192(%rsp), %rax
	movw	%ax, (%r13)
	movq	608(%rsp), %rax
	movaps	592(%rsp), %xmm0
	movaps	528(%rsp), %xmm1
	movaps	%xmm1, 496(%rsp)
	movdqu	540(%rsp), %xmm1
	movdqu	%xmm1, 508(%rsp)
	movaps	%xmm0, 400(%rsp)
	movq	%rax, 416(%rsp)
	movaps	496(%rsp), %xmm0
	movaps	%xmm0, 464(%rsp)
	movups	508(%rsp), %xmm0
	movups	%xmm0, 476(%rsp)
	movq	48(%rsp), %r15
	movq	176(%rsp), %rax
	movq	%rcx, (%rax,%r15,8)
	movq	416(%rsp), %rax
	movq	%rax, 576(%rsp)
	movaps	400(%rsp), %xmm0
	movaps	%xmm0, 560(%rsp)
	movaps	464(%rsp), %xmm0
	movaps	%xmm0, 432(%rsp)
	movups	476(%rsp), %xmm0
	movups	%xmm0, 444(%rsp)
	leaq	256(%rsp), %rdi
	leaq	560(%rsp), %rdx
	movq	%r15, %rsi
	callq	"std_alloc::vec::lodged::Vec+T+Lodged::insert_reserved::<#0107ca75ede54906>"
	movzbl	232(%rsp), %eax
	movb	%al, 64(%rsp)
	movb	%r14b, 65(%rsp)
	movzwl	206(%rsp), %eax
	movw	%ax, 66(%rsp)
	movups	444(%rsp), %xmm0
	leaq	72(%rsp), %rax
	movups	%xmm0, 8(%rax)
	movdqa	432(%rsp), %xmm0
	movdqu	%xmm0, -4(%rax)
	leaq	64(%rsp), %rdx
	leaq	280(%rsp), %rdi
	movq	%r15, %rsi
	callq	"std_alloc::vec::lodged::Vec+T+Lodged::insert_reserved::<33'amqp_value_core::value::AMQPValue>"
	incq	%r15
	movq	304(%rsp), %rbx
	movq	312(%rsp), %rdx
	leal	(,%r15,8), %r14d
	subq	%r15, %rdx
	je	.LBB19_225
	leaq	(%rbx,%r14), %rsi
	leaq	(%rbx,%r14), %rdi
	addq	$8, %rdi
	shlq	$3, %rdx
	callq	memmove@PLT
.LBB19_225:
	movq	%r13, (%rbx,%r14)
	movzwl	264(%rsp), %eax
	movq	328(%rsp), %rsi
	movw	%ax, (%rsi)
	movq	16(%rsp), %rax
	movq	%rsi, (%rax)
	movq	216(%rsp), %r15
	movzbl	1(%r15), %eax
	cmpb	$7, %al
	ja	.LBB19_194
	movzbl	(%r15), %edx
	jmp	.LBB19_195
.LBB19_229:
	movq	%rcx, %rdx
	andq	$-4, %rdx
	xorl	%r9d, %r9d
	.p2align	4
.LBB19_230:
	movdqu	64(%rax,%r9,8), %xmm0
	movdqu	80(%rax,%r9,8), %xmm1
	movdqu	%xmm0, 848(%r13,%r9,8)
	movdqu	%xmm1, 864(%r13,%r9,8)
	addq	$4, %r9
	cmpq	%r9, %rdx
	jne	.LBB19_230
	cmpq	%rdx, %rcx
	je	.LBB19_223
	jmp	.LBB19_232
.LBB19_237:
	movq	%rdx, %rdi
	movq	%r13, %rsi
	movq	%r15, %rdx
	callq	memmove@PLT
	xorl	%ecx, %ecx
	movq	16(%rsp), %r13
	movq	%r15, 8(%rsp)
	xorl	%esi, %esi
	xorl	%eax, %eax
	movq	184(%rsp), %rdx
	movq	%r15, %rbx
	jmp	.LBB19_127
.LBB19_238:
	movq	%rdx, 16(%rsp)
	movq	160(%rsp), %rax
	movq	%rax, 176(%rsp)
.LBB19_239:
	movq	176(%rsp), %rax
	cmpw	$0, (%rax)
	je	.LBB19_296
	movzbl	639(%rsp), %r13d
	movq	16(%rsp), %rax
	shlq	$3, %rax
.LBB19_241:
	cmpq	$1, 384(%rsp)
	leaq	848(%rsi,%rax), %rbx
	leaq	160(%rsp), %rax
	cmoveq	%rax, %rbx
	andl	$15, %r13d
	movq	%r12, 352(%rsp)
	movq	%rbp, 360(%rsp)
	movq	%rbp, 368(%rsp)
	movl	%ecx, 260(%rsp)
	movq	(%rsp), %rax
	movq	%rax, 264(%rsp)
	movq	344(%rsp), %rax
	movq	%rax, 272(%rsp)
	movq	8(%rsp), %rax
	movq	%rax, 280(%rsp)
	movq	(%rbx), %rax
	movzwl	(%rax), %ecx
	leaq	1(%rcx), %rdx
	xorl	%esi, %esi
	xorl	%edi, %edi
	cmpw	$0, 2(%rax)
	setne	%dil
	cmovneq	%rdx, %rsi
	shll	$4, %edi
	leaq	848(%rax), %rdx
	leaq	368(%rax), %r8
	leaq	8(%rax), %r9
	movq	%r9, 64(%rsp)
	movq	%rcx, 72(%rsp)
	movq	$15, 80(%rsp)
	movq	%r8, 88(%rsp)
	movq	%rcx, 96(%rsp)
	movq	$15, 104(%rsp)
	movq	%rdx, 112(%rsp)
	movq	%rsi, 120(%rsp)
	movq	%rdi, 128(%rsp)
	movq	%rax, 136(%rsp)
	leaq	64(%rsp), %rdi
	leaq	352(%rsp), %rdx
	movq	%r13, %rsi
	callq	"std_alloc::vec::lodged::Vec+T+Lodged::insert_reserved::<#0107ca75ede54906>"
	movq	32(%rsp), %rax
	movl	%eax, 256(%rsp)
	leaq	256(%rsp), %rdx
	leaq	88(%rsp), %rdi
	movq	%r13, %rsi
	callq	"std_alloc::vec::lodged::Vec+T+Lodged::insert_reserved::<33'amqp_value_core::value::AMQPValue>"
	movzwl	72(%rsp), %eax
	movq	136(%rsp), %rcx
	movw	%ax, (%rcx)
	movq	%rcx, (%rbx)
	incq	168(%rsp)
	jmp	.LBB19_7
.LBB19_242:
	movq	56(%rsp), %rax
	addq	%rbx, %rax
	addq	$9, %rax
	movq	%rdi, %rbx
	movq	(%rsp), %rsi
	.p2align	4
.LBB19_243:
	movzbl	-3(%rax,%rcx), %edx
	movb	%dl, (%rsi,%rcx)
	movzbl	-2(%rax,%rcx), %edx
	movb	%dl, 1(%rsi,%rcx)
	movzbl	-1(%rax,%rcx), %edx
	movb	%dl, 2(%rsi,%rcx)
	movzbl	(%rax,%rcx), %edx
	movb	%dl, 3(%rsi,%rcx)
	addq	$4, %rcx
	cmpq	%rcx, %rbx
	jne	.LBB19_243
	movq	16(%rsp), %r13
	movq	%rbx, 8(%rsp)
	xorl	%esi, %esi
	xorl	%eax, %eax
	movq	184(%rsp), %rdx
	xorl	%ecx, %ecx
	jmp	.LBB19_127
.LBB19_245:
	movq	%rdi, %rax
	cmpl	$32, %eax
	jae	.LBB19_247
	xorl	%eax, %eax
	jmp	.LBB19_252
.LBB19_247:
	andl	$-32, %eax
	movq	56(%rsp), %rcx
	addq	%rbx, %rcx
	addq	$22, %rcx
	xorl	%edx, %edx
	movq	(%rsp), %rsi
.LBB19_248:
	movdqu	-16(%rcx,%rdx), %xmm0
	movdqu	(%rcx,%rdx), %xmm1
	movdqu	%xmm0, (%rsi,%rdx)
	movdqu	%xmm1, 16(%rsi,%rdx)
	addq	$32, %rdx
	cmpq	%rdx, %rax
	jne	.LBB19_248
	movq	%rdi, %rcx
	cmpl	%ecx, %eax
	jne	.LBB19_251
	movq	16(%rsp), %r13
	movq	%rcx, 8(%rsp)
	xorl	%esi, %esi
	xorl	%eax, %eax
	movq	184(%rsp), %rdx
	jmp	.LBB19_182
.LBB19_251:
	testb	$28, %cl
	je	.LBB19_85
.LBB19_252:
	movq	%rax, %rcx
	movl	%edi, %eax
	andl	$-4, %eax
	movq	(%rsp), %rsi
	.p2align	4
.LBB19_253:
	movl	(%r13,%rcx), %edx
	movl	%edx, (%rsi,%rcx)
	addq	$4, %rcx
	cmpq	%rcx, %rax
	jne	.LBB19_253
	cmpl	%edi, %eax
	jne	.LBB19_85
	xorl	%ecx, %ecx
	movq	16(%rsp), %r13
	movq	%rdi, %rbx
	movq	%rdi, 8(%rsp)
	xorl	%esi, %esi
	xorl	%eax, %eax
	movq	184(%rsp), %rdx
	jmp	.LBB19_127
.LBB19_256:
	xorl	%eax, %eax
	xorl	%edi, %edi
.LBB19_257:
	cmpb	$2, %al
	sete	%bl
	movzbl	%dil, %eax
	movl	$2, %r14d
	cmovel	%eax, %r14d
	cmpb	$0, 28(%rsp)
	jne	.LBB19_259
	movq	%r12, %rdi
	callq	rattle_dealloc
.LBB19_259:
	incb	%bl
	cmpb	$0, 144(%rsp)
	je	.LBB19_280
	movb	%bl, 48(%rsp)
	movq	152(%rsp), %rax
	movq	%rax, 16(%rsp)
	movq	160(%rsp), %r12
	movq	168(%rsp), %rax
	movq	%rax, 32(%rsp)
	testq	%r12, %r12
	je	.LBB19_278
	movq	16(%rsp), %rax
	leaq	28(%rax), %r13
	jmp	.LBB19_263
	.p2align	4
.LBB19_262:
	movb	%r15b, 64(%rsp)
	movb	%bl, 65(%rsp)
	movw	%bp, 66(%rsp)
	movups	268(%rsp), %xmm0
	leaq	72(%rsp), %rax
	movups	%xmm0, 8(%rax)
	movdqa	256(%rsp), %xmm0
	movdqu	%xmm0, -4(%rax)
	leaq	64(%rsp), %rdi
	callq	"amq_protocol_types::amqp_value_core++value++AMQPValue+Destruct::drop"
	addq	$56, %r13
	decq	%r12
	je	.LBB19_278
.LBB19_263:
	movq	-28(%r13), %rdi
	movzbl	-4(%r13), %r15d
	movzbl	-3(%r13), %ebx
	movzwl	-2(%r13), %ebp
	cmpq	$0, -12(%r13)
	movups	(%r13), %xmm0
	movdqu	12(%r13), %xmm1
	movdqu	%xmm1, 268(%rsp)
	movaps	%xmm0, 256(%rsp)
	je	.LBB19_262
	callq	rattle_dealloc
	jmp	.LBB19_262
.LBB19_265:
	xorl	%eax, %eax
	jmp	.LBB19_272
.LBB19_266:
	movzbl	152(%rsp), %edx
	movq	160(%rsp), %rax
	cmpb	$0, 144(%rsp)
	movq	168(%rsp), %rcx
	pxor	%xmm0, %xmm0
	movdqa	%xmm0, 64(%rsp)
	movdqa	%xmm0, 80(%rsp)
	je	.LBB19_269
	movb	%dl, 256(%rsp)
	movl	153(%rsp), %edx
	movl	156(%rsp), %esi
	movl	%edx, 257(%rsp)
	movl	%esi, 260(%rsp)
	movq	%rax, 264(%rsp)
	movq	%rcx, 272(%rsp)
	leaq	64(%rsp), %rdi
	leaq	256(%rsp), %rsi
	callq	"amqp_value_core::types::field_table::FieldTable::from_pairs"
	cmpb	$0, 64(%rsp)
	jne	.LBB19_310
	movzbl	72(%rsp), %edx
	movq	80(%rsp), %rax
	movq	88(%rsp), %rcx
.LBB19_269:
	movq	208(%rsp), %rsi
	movq	$0, (%rsi)
	movb	%dl, 8(%rsi)
	movb	$0, 9(%rsi)
	movq	%rax, 16(%rsi)
	movq	%rcx, 24(%rsi)
	jmp	.LBB19_284
.LBB19_270:
	movl	$770, %eax
	jmp	.LBB19_272
.LBB19_271:
	movl	$257, %eax
.LBB19_272:
	movl	%eax, %ecx
	shrl	$8, %ecx
	andl	$3, %eax
	cmpq	$2, %rax
	sete	%bl
	incb	%bl
	cmpl	$2, %eax
	movl	$2, %r14d
	cmovel	%ecx, %r14d
	cmpb	$0, 144(%rsp)
	je	.LBB19_280
	movb	%bl, 48(%rsp)
	movq	152(%rsp), %rax
	movq	%rax, 16(%rsp)
	movq	160(%rsp), %r12
	movq	168(%rsp), %rax
	movq	%rax, 32(%rsp)
	testq	%r12, %r12
	je	.LBB19_278
	movq	16(%rsp), %rax
	leaq	28(%rax), %r13
	jmp	.LBB19_276
	.p2align	4
.LBB19_275:
	movb	%r15b, 64(%rsp)
	movb	%bl, 65(%rsp)
	movw	%bp, 66(%rsp)
	movups	268(%rsp), %xmm0
	leaq	72(%rsp), %rax
	movups	%xmm0, 8(%rax)
	movdqa	256(%rsp), %xmm0
	movdqu	%xmm0, -4(%rax)
	leaq	64(%rsp), %rdi
	callq	"amq_protocol_types::amqp_value_core++value++AMQPValue+Destruct::drop"
	addq	$56, %r13
	decq	%r12
	je	.LBB19_278
.LBB19_276:
	movq	-28(%r13), %rdi
	movzbl	-4(%r13), %r15d
	movzbl	-3(%r13), %ebx
	movzwl	-2(%r13), %ebp
	cmpq	$0, -12(%r13)
	movups	(%r13), %xmm0
	movdqu	12(%r13), %xmm1
	movdqu	%xmm1, 268(%rsp)
	movaps	%xmm0, 256(%rsp)
	je	.LBB19_275
	callq	rattle_dealloc
	jmp	.LBB19_275
.LBB19_278:
	cmpq	$0, 32(%rsp)
	movzbl	48(%rsp), %ebx
	je	.LBB19_282
	movq	16(%rsp), %rdi
	callq	rattle_dealloc
	jmp	.LBB19_282
.LBB19_280:
	cmpb	$1, 152(%rsp)
	jne	.LBB19_282
	movq	160(%rsp), %rdi
	callq	"std_collections::btree::node::Node::destroy::<#c8513c7b35bfb086>"
.LBB19_282:
	movq	208(%rsp), %rax
	movq	$1, (%rax)
	movb	%bl, 8(%rax)
	movb	%r14b, 9(%rax)
.LBB19_283:
	pxor	%xmm0, %xmm0
	movdqu	%xmm0, 16(%rax)
.LBB19_284:
	addq	$664, %rsp
	popq	%rbx
	popq	%r12
	popq	%r13
	popq	%r14
	popq	%r15
	popq	%rbp
	retq
.LBB19_285:
	cmpb	$0, 28(%rsp)
	jne	.LBB19_287
.LBB19_286:
	movq	%r12, %rdi
	callq	rattle_dealloc
	movq	32(%rsp), %rsi
.LBB19_287:
	movq	%rsi, 64(%rsp)
	movq	(%rsp), %rax
	movq	%rax, 72(%rsp)
	movq	344(%rsp), %rax
	movq	%rax, 80(%rsp)
	movq	8(%rsp), %rax
	movq	%rax, 88(%rsp)
	leaq	64(%rsp), %rdi
	callq	"amqp_value_core::amqp_value_core++value++AMQPValue+Destruct::drop"
	cmpb	$0, 144(%rsp)
	je	.LBB19_308
.LBB19_288:
	movq	152(%rsp), %rbx
	movq	160(%rsp), %r15
	movq	168(%rsp), %rax
	movq	%rax, 16(%rsp)
	testq	%r15, %r15
	je	.LBB19_293
	leaq	28(%rbx), %r12
	jmp	.LBB19_291
	.p2align	4
.LBB19_290:
	movb	%bpl, 64(%rsp)
	movb	%r13b, 65(%rsp)
	movw	%r14w, 66(%rsp)
	movups	268(%rsp), %xmm0
	leaq	72(%rsp), %rax
	movups	%xmm0, 8(%rax)
	movdqa	256(%rsp), %xmm0
	movdqu	%xmm0, -4(%rax)
	leaq	64(%rsp), %rdi
	callq	"amq_protocol_types::amqp_value_core++value++AMQPValue+Destruct::drop"
	addq	$56, %r12
	decq	%r15
	je	.LBB19_293
.LBB19_291:
	movq	-28(%r12), %rdi
	movzbl	-4(%r12), %ebp
	movzbl	-3(%r12), %r13d
	movzwl	-2(%r12), %r14d
	cmpq	$0, -12(%r12)
	movups	(%r12), %xmm0
	movdqu	12(%r12), %xmm1
	movdqu	%xmm1, 268(%rsp)
	movaps	%xmm0, 256(%rsp)
	je	.LBB19_290
	callq	rattle_dealloc
	jmp	.LBB19_290
.LBB19_293:
	cmpq	$0, 16(%rsp)
	je	.LBB19_310
	movq	%rbx, %rdi
	callq	rattle_dealloc
	jmp	.LBB19_310
.LBB19_301:
	xorl	%eax, %eax
	jmp	.LBB19_314
.LBB19_295:
	movq	160(%rsp), %rax
	movq	%rax, 176(%rsp)
	cmpw	$0, (%rax)
	jne	.LBB19_298
.LBB19_296:
	movq	176(%rsp), %rax
	cmpw	$0, 2(%rax)
	je	.LBB19_298
	movq	176(%rsp), %rdi
	movq	848(%rdi), %rbx
	callq	rattle_dealloc
	movq	%rbx, 160(%rsp)
.LBB19_298:
	cmpb	$0, 28(%rsp)
	movq	32(%rsp), %rsi
	je	.LBB19_286
	jmp	.LBB19_287
.LBB19_299:
	movb	$2, %dil
	movb	$1, %al
	jmp	.LBB19_257
.LBB19_304:
	movzbl	73(%rsp), %edi
	jmp	.LBB19_257
.LBB19_305:
	cmpb	$0, 28(%rsp)
	jne	.LBB19_307
	movq	%r12, %rdi
	callq	rattle_dealloc
.LBB19_307:
	movq	32(%rsp), %rax
	movq	%rax, 64(%rsp)
	movq	(%rsp), %rax
	movq	%rax, 72(%rsp)
	movq	%rbx, 80(%rsp)
	movq	8(%rsp), %rax
	movq	%rax, 88(%rsp)
	leaq	64(%rsp), %rdi
	callq	"amq_protocol_types::amqp_value_core++value++AMQPValue+Destruct::drop"
	cmpb	$0, 144(%rsp)
	jne	.LBB19_288
.LBB19_308:
	cmpb	$1, 152(%rsp)
	jne	.LBB19_310
	movq	160(%rsp), %rdi
	callq	"std_collections::btree::node::Node::destroy::<#c8513c7b35bfb086>"
.LBB19_310:
	movq	208(%rsp), %rax
	movq	$1, (%rax)
	movw	$770, 8(%rax)
	jmp	.LBB19_283
.LBB19_311:
	cmpq	$0, 80(%rsp)
	je	.LBB19_313
	movq	64(%rsp), %rdi
	callq	rattle_dealloc
.LBB19_313:
	movl	$770, %eax
.LBB19_314:
	movl	%eax, %ecx
	shrl	$8, %ecx
	movq	%rcx, %rdi
	jmp	.LBB19_257
.LBB19_315:
	ud2
.Lfunc_end19:
	.size	"amq_protocol_types::parsing::values::parse_table_body::<#021be0914fa2e150>", .Lfunc_end19-"amq_protocol_types::parsing::values::parse_table_body::<#021be0914fa2e150>"
	.section	".rodata.amq_protocol_types::parsing::values::parse_table_body::<#021be0914fa2e150>","a",@progbits
	.p2align	2, 0x0
.LJTI19_0:
	.long	.LBB19_96-.LJTI19_0
	.long	.LBB19_109-.LJTI19_0
	.long	.LBB19_257-.LJTI19_0
	.long	.LBB19_107-.LJTI19_0
	.long	.LBB19_257-.LJTI19_0
	.long	.LBB19_101-.LJTI19_0
	.long	.LBB19_257-.LJTI19_0
	.long	.LBB19_257-.LJTI19_0
	.long	.LBB19_111-.LJTI19_0
	.long	.LBB19_257-.LJTI19_0
	.long	.LBB19_257-.LJTI19_0
	.long	.LBB19_69-.LJTI19_0
	.long	.LBB19_257-.LJTI19_0
	.long	.LBB19_257-.LJTI19_0
	.long	.LBB19_257-.LJTI19_0
	.long	.LBB19_257-.LJTI19_0
	.long	.LBB19_257-.LJTI19_0
	.long	.LBB19_257-.LJTI19_0
	.long	.LBB19_90-.LJTI19_0
	.long	.LBB19_113-.LJTI19_0
	.long	.LBB19_71-.LJTI19_0
	.long	.LBB19_118-.LJTI19_0
	.long	.LBB19_257-.LJTI19_0
	.long	.LBB19_257-.LJTI19_0
	.long	.LBB19_257-.LJTI19_0
	.long	.LBB19_257-.LJTI19_0
	.long	.LBB19_257-.LJTI19_0
	.long	.LBB19_257-.LJTI19_0
	.long	.LBB19_257-.LJTI19_0
	.long	.LBB19_257-.LJTI19_0
	.long	.LBB19_257-.LJTI19_0
	.long	.LBB19_257-.LJTI19_0
	.long	.LBB19_257-.LJTI19_0
	.long	.LBB19_172-.LJTI19_0
	.long	.LBB19_257-.LJTI19_0
	.long	.LBB19_119-.LJTI19_0
	.long	.LBB19_257-.LJTI19_0
	.long	.LBB19_73-.LJTI19_0
	.long	.LBB19_257-.LJTI19_0
	.long	.LBB19_257-.LJTI19_0
	.long	.LBB19_122-.LJTI19_0
	.long	.LBB19_257-.LJTI19_0
	.long	.LBB19_257-.LJTI19_0
	.long	.LBB19_69-.LJTI19_0
	.long	.LBB19_257-.LJTI19_0
	.long	.LBB19_257-.LJTI19_0
	.long	.LBB19_257-.LJTI19_0
	.long	.LBB19_257-.LJTI19_0
	.long	.LBB19_257-.LJTI19_0
	.long	.LBB19_257-.LJTI19_0
	.long	.LBB19_71-.LJTI19_0
	.long	.LBB19_75-.LJTI19_0
	.long	.LBB19_115-.LJTI19_0
	.long	.LBB19_257-.LJTI19_0
	.long	.LBB19_257-.LJTI19_0
	.long	.LBB19_77-.LJTI19_0

	.section	".text.amq_protocol_types::parsing::pairs::begins_small::<#021be0914fa2e150>","ax",@progbits
	.p2align	4
	.type	"amq_protocol_types::parsing::pairs::begins_small::<#021be0914fa2e150>",@function
"amq_protocol_types::parsing::pairs::begins_small::<#021be0914fa2e150>":
	movzbl	(%rdi), %ecx
	movzbl	1(%rdi,%rcx), %edx
	movb	$1, %al
	addl	$-65, %edx
	cmpl	$55, %edx
	ja	.LBB20_5
	movabsq	$36028797019226145, %r8
	btq	%rdx, %r8
	jae	.LBB20_5
	addq	$2, %rcx
	movq	%rsi, %rax
	subq	%rcx, %rax
	cmpq	$4, %rax
	jae	.LBB20_4
	xorl	%eax, %eax
	retq
.LBB20_4:
	movl	(%rdi,%rcx), %eax
	bswapl	%eax
	shrq	$9, %rsi
	cmpq	%rax, %rsi
	setae	%al
.LBB20_5:
	retq
.Lfunc_end20:
	.size	"amq_protocol_types::parsing::pairs::begins_small::<#021be0914fa2e150>", .Lfunc_end20-"amq_protocol_types::parsing::pairs::begins_small::<#021be0914fa2e150>"

	.section	".text.unlikely.std_alloc::vec::Vec::grow_amortized::<#a8e0b0c0cbc96d99>","ax",@progbits
	.p2align	4
	.type	"std_alloc::vec::Vec::grow_amortized::<#a8e0b0c0cbc96d99>",@function
"std_alloc::vec::Vec::grow_amortized::<#a8e0b0c0cbc96d99>":
	addq	8(%rdi), %rsi
	jae	.LBB21_2
	xorl	%eax, %eax
	retq
.LBB21_2:
	pushq	%r14
	pushq	%rbx
	pushq	%rax
	cmpq	$9, %rsi
	movl	$8, %ebx
	cmovaeq	%rsi, %rbx
	movq	16(%rdi), %rcx
	movq	%rcx, %rdx
	shrq	$62, %rdx
	leaq	(%rcx,%rcx), %rax
	cmpq	%rax, %rbx
	cmovaq	%rbx, %rax
	testq	%rdx, %rdx
	cmoveq	%rax, %rbx
	testq	%rbx, %rbx
	js	.LBB21_6
	testq	%rcx, %rcx
	je	.LBB21_8
	movq	%rdi, %r14
	movq	(%rdi), %rdi
	movl	$1, %edx
	movq	%rbx, %rsi
	callq	rattle_realloc
	testb	$1, %al
	je	.LBB21_6
.LBB21_9:
	movq	%rdx, (%r14)
	movq	%rbx, 16(%r14)
	movb	$1, %al
	addq	$8, %rsp
	popq	%rbx
	popq	%r14
	retq
.LBB21_8:
	movq	%rdi, %r14
	movl	$1, %esi
	movq	%rax, %rdi
	callq	rattle_alloc
	testb	$1, %al
	jne	.LBB21_9
.LBB21_6:
	xorl	%eax, %eax
	addq	$8, %rsp
	popq	%rbx
	popq	%r14
	retq
.Lfunc_end21:
	.size	"std_alloc::vec::Vec::grow_amortized::<#a8e0b0c0cbc96d99>", .Lfunc_end21-"std_alloc::vec::Vec::grow_amortized::<#a8e0b0c0cbc96d99>"

	.section	".text.std_alloc::vec::Vec::extend_from_slice::<#f0d03d630576da86>","ax",@progbits
	.p2align	4
	.type	"std_alloc::vec::Vec::extend_from_slice::<#f0d03d630576da86>",@function
"std_alloc::vec::Vec::extend_from_slice::<#f0d03d630576da86>":
	pushq	%r15
	pushq	%r14
	pushq	%r12
	pushq	%rbx
	pushq	%rax
	movq	%rdi, %rbx
	movq	8(%rdi), %rax
	movq	16(%rdi), %r14
	movq	%r14, %rcx
	subq	%rax, %rcx
	cmpq	%rcx, %rdx
	ja	.LBB22_24
.LBB22_1:
	leaq	8(%rbx), %rcx
	leaq	(%rax,%rdx), %r15
	movq	(%rbx), %r12
	xorps	%xmm0, %xmm0
	movups	%xmm0, (%rcx)
	leaq	(%r12,%rax), %rdi
	movq	%rdi, %rcx
	subq	%rsi, %rcx
	cmpq	%rdx, %rcx
	jae	.LBB22_4
	cmpq	$4, %rdx
	jb	.LBB22_3
	cmpq	$32, %rcx
	jae	.LBB22_7
.LBB22_3:
	xorl	%ecx, %ecx
.LBB22_16:
	movq	%rdx, %r9
	movq	%rcx, %r8
	andq	$3, %r9
	je	.LBB22_19
	movq	%rcx, %r8
	.p2align	4
.LBB22_18:
	movzbl	(%rsi,%r8), %r10d
	movb	%r10b, (%rdi,%r8)
	incq	%r8
	decq	%r9
	jne	.LBB22_18
.LBB22_19:
	subq	%rdx, %rcx
	cmpq	$-4, %rcx
	ja	.LBB22_22
	addq	%r12, %rax
	addq	$3, %rax
	.p2align	4
.LBB22_21:
	movzbl	(%rsi,%r8), %ecx
	movb	%cl, -3(%rax,%r8)
	movzbl	1(%rsi,%r8), %ecx
	movb	%cl, -2(%rax,%r8)
	movzbl	2(%rsi,%r8), %ecx
	movb	%cl, -1(%rax,%r8)
	movzbl	3(%rsi,%r8), %ecx
	movb	%cl, (%rax,%r8)
	addq	$4, %r8
	cmpq	%r8, %rdx
	jne	.LBB22_21
	jmp	.LBB22_22
.LBB22_4:
	callq	memmove@PLT
.LBB22_22:
	movq	%r12, (%rbx)
	movq	%r15, 8(%rbx)
	movq	%r14, 16(%rbx)
	xorl	%eax, %eax
.LBB22_23:
	addq	$8, %rsp
	popq	%rbx
	popq	%r12
	popq	%r14
	popq	%r15
	retq
.LBB22_7:
	cmpq	$32, %rdx
	jae	.LBB22_9
	xorl	%ecx, %ecx
	jmp	.LBB22_13
.LBB22_9:
	movq	%rdx, %rcx
	andq	$-32, %rcx
	leaq	(%rax,%r12), %r8
	addq	$16, %r8
	xorl	%r9d, %r9d
	.p2align	4
.LBB22_10:
	movups	(%rsi,%r9), %xmm0
	movups	16(%rsi,%r9), %xmm1
	movups	%xmm0, -16(%r8,%r9)
	movups	%xmm1, (%r8,%r9)
	addq	$32, %r9
	cmpq	%r9, %rcx
	jne	.LBB22_10
	cmpq	%rcx, %rdx
	je	.LBB22_22
	testb	$28, %dl
	je	.LBB22_16
.LBB22_13:
	movq	%rcx, %r8
	movq	%rdx, %rcx
	andq	$-4, %rcx
	.p2align	4
.LBB22_14:
	movl	(%rsi,%r8), %r9d
	movl	%r9d, (%rdi,%r8)
	addq	$4, %r8
	cmpq	%r8, %rcx
	jne	.LBB22_14
	cmpq	%rcx, %rdx
	je	.LBB22_22
	jmp	.LBB22_16
.LBB22_24:
	movq	%rsi, %r15
	movq	%rbx, %rdi
	movq	%rdx, %r12
	movq	%rdx, %rsi
	callq	"std_alloc::vec::Vec::grow_amortized::<#a8e0b0c0cbc96d99>"
	movl	%eax, %ecx
	movb	$1, %al
	testb	%cl, %cl
	je	.LBB22_23
	movq	8(%rbx), %rax
	movq	16(%rbx), %r14
	movq	%r12, %rdx
	movq	%r15, %rsi
	jmp	.LBB22_1
.Lfunc_end22:
	.size	"std_alloc::vec::Vec::extend_from_slice::<#f0d03d630576da86>", .Lfunc_end22-"std_alloc::vec::Vec::extend_from_slice::<#f0d03d630576da86>"

	.section	".text.core::str::utf8::from_utf8","ax",@progbits
	.p2align	4
	.type	"core::str::utf8::from_utf8",@function
"core::str::utf8::from_utf8":
	pushq	%r15
	pushq	%r14
	pushq	%rbx
	subq	$16, %rsp
	movq	%rdx, %r15
	movq	%rsi, %r14
	movq	%rdi, %rbx
	testq	%rdx, %rdx
	je	.LBB23_29
	xorl	%esi, %esi
	jmp	.LBB23_5
.LBB23_12:
	movl	$1, %eax
.LBB23_3:
	addq	%rsi, %rax
	movq	%rax, %rsi
	cmpq	%r15, %rax
	jb	.LBB23_5
	jmp	.LBB23_29
	.p2align	4
.LBB23_2:
	movl	$1, %eax
	testb	%dil, %dil
	jns	.LBB23_3
	movl	$257, %ecx
	cmpb	$-62, %dil
	jb	.LBB23_38
	cmpb	$-33, %dil
	ja	.LBB23_13
	cmpq	$2, %rdx
	jb	.LBB23_30
	movzbl	1(%r14,%rsi), %r8d
	movl	$2, %eax
	cmpb	$-65, %r8b
	jle	.LBB23_3
	jmp	.LBB23_32
.LBB23_13:
	cmpb	$-17, %dil
	ja	.LBB23_20
	cmpq	$3, %rdx
	jb	.LBB23_27
	movzbl	1(%r14,%rsi), %r8d
	cmpb	$-65, %r8b
	jg	.LBB23_32
	cmpb	$-65, 2(%r14,%rsi)
	jg	.LBB23_32
	movzbl	%r8b, %eax
	movl	%edi, %r9d
	shll	$6, %r9d
	addl	%eax, %r9d
	addl	$-14464, %r9d
	cmpl	$32, %r9d
	jb	.LBB23_32
	xorl	%r8d, %r8d
	cmpl	$896, %r9d
	setae	%r10b
	movl	$3, %eax
	cmpl	$864, %r9d
	jb	.LBB23_3
	movb	%r10b, %r8b
	leaq	(%r8,%r8,2), %rax
	testq	%rax, %rax
	jne	.LBB23_3
	jmp	.LBB23_26
.LBB23_20:
	cmpq	$4, %rdx
	jb	.LBB23_26
	movzbl	1(%r14,%rsi), %eax
	cmpb	$-65, %al
	jg	.LBB23_26
	cmpb	$-65, 2(%r14,%rsi)
	jg	.LBB23_26
	cmpb	$-65, 3(%r14,%rsi)
	jg	.LBB23_26
	movl	%edi, %r8d
	shll	$6, %r8d
	leal	(%r8,%rax), %r9d
	addl	$-15488, %r9d
	xorl	%eax, %eax
	cmpl	$272, %r9d
	setb	%r8b
	cmpl	$16, %r9d
	jb	.LBB23_26
	movb	%r8b, %al
	shll	$2, %eax
	testq	%rax, %rax
	jne	.LBB23_3
	jmp	.LBB23_26
	.p2align	4
.LBB23_5:
	movzbl	(%r14,%rsi), %edi
	testb	%dil, %dil
	sets	%al
	movq	%r15, %rdx
	subq	%rsi, %rdx
	cmpq	$2, %rdx
	setb	%cl
	orb	%al, %cl
	jne	.LBB23_2
	cmpb	$0, 1(%r14,%rsi)
	js	.LBB23_12
	movq	%r14, (%rsp)
	movq	%r15, 8(%rsp)
	movq	%rsp, %rdi
	movq	%r15, %rdx
	callq	"core::slice::words::first::<#52f9edcae2f82f51>"
	movq	%rax, %rsi
	cmpq	%r15, %rax
	jb	.LBB23_5
.LBB23_29:
	movq	$0, (%rbx)
	movq	%r14, 8(%rbx)
	movq	%r15, 16(%rbx)
	jmp	.LBB23_39
.LBB23_26:
	cmpb	$-12, %dil
	ja	.LBB23_38
.LBB23_27:
	cmpq	$2, %rdx
	jb	.LBB23_30
	movzbl	1(%r14,%rsi), %r8d
.LBB23_32:
	cmpl	$240, %edi
	sete	%al
	shlb	$4, %al
	orb	$-128, %al
	cmpl	$224, %edi
	movzbl	%al, %eax
	movl	$160, %r9d
	cmovnel	%eax, %r9d
	cmpl	$244, %edi
	movl	$143, %eax
	movl	$191, %r10d
	cmovel	%eax, %r10d
	cmpl	$237, %edi
	movl	$159, %eax
	cmovnel	%r10d, %eax
	cmpb	%r8b, %r9b
	ja	.LBB23_38
	cmpb	%al, %r8b
	ja	.LBB23_38
	cmpq	$2, %rdx
	jne	.LBB23_36
.LBB23_30:
	xorl	%ecx, %ecx
.LBB23_38:
	movq	$1, (%rbx)
	movq	%rsi, 8(%rbx)
	movq	%rcx, 16(%rbx)
.LBB23_39:
	addq	$16, %rsp
	popq	%rbx
	popq	%r14
	popq	%r15
	retq
.LBB23_36:
	movl	$513, %ecx
	cmpb	$-65, 2(%r14,%rsi)
	jg	.LBB23_38
	xorl	%eax, %eax
	cmpq	$4, %rdx
	movl	$769, %ecx
	cmovbq	%rax, %rcx
	jmp	.LBB23_38
.Lfunc_end23:
	.size	"core::str::utf8::from_utf8", .Lfunc_end23-"core::str::utf8::from_utf8"

	.section	".text.amqp_value_core::types::short_string::ShortStringOrd::cmp","ax",@progbits
	.p2align	4
	.type	"amqp_value_core::types::short_string::ShortStringOrd::cmp",@function
"amqp_value_core::types::short_string::ShortStringOrd::cmp":
	cmpq	%rsi, %rcx
	movq	%rsi, %rax
	cmovbq	%rcx, %rax
	cmpq	$7, %rax
	ja	.LBB24_5
	cmpq	$4, %rax
	jb	.LBB24_3
	movl	(%rdi), %r9d
	movl	-4(%rdi,%rax), %r8d
	shlq	$32, %r8
	orq	%r9, %r8
	bswapq	%r8
	movl	(%rdx), %r10d
	movl	-4(%rdx,%rax), %r9d
	shlq	$32, %r9
	orq	%r10, %r9
	bswapq	%r9
	cmpq	%r9, %r8
	je	.LBB24_9
	jmp	.LBB24_7
.LBB24_5:
	movq	(%rdi), %r8
	leaq	-8(%rax), %r9
	cmpq	$8, %r9
	movl	$8, %r10d
	cmovbq	%r9, %r10
	movq	(%rdx), %r9
	movq	(%rdi,%r10), %r11
	bswapq	%r11
	movq	(%rdx,%r10), %r10
	bswapq	%r10
	cmpq	%r9, %r8
	bswapq	%r9
	bswapq	%r8
	cmoveq	%r11, %r8
	cmoveq	%r10, %r9
	cmpq	%r9, %r8
	jne	.LBB24_7
.LBB24_9:
	cmpq	$16, %rax
	jbe	.LBB24_10
	pushq	%rbx
	leaq	-16(%rax), %r8
	cmpq	$79, %r8
	ja	.LBB24_15
	movl	$16, %r9d
	movq	%r8, %r10
	.p2align	4
.LBB24_13:
	cmpq	$17, %r10
	jb	.LBB24_24
	movdqu	(%rdi,%r9), %xmm0
	movdqu	(%rdx,%r9), %xmm1
	pcmpeqb	%xmm0, %xmm1
	pmovmskb	%xmm1, %r11d
	notl	%r11d
	rep		bsfl	%r11d, %r11d
	leaq	(%r11,%r9), %rbx
	addq	$16, %r9
	addq	$-16, %r10
	cmpq	%r9, %rbx
	jae	.LBB24_13
	jmp	.LBB24_23
.LBB24_3:
	testq	%rax, %rax
	je	.LBB24_10
	movzbl	(%rdi), %r8d
	movq	%rax, %r9
	shrq	%r9
	movzbl	(%rdi,%r9), %r10d
	shll	$16, %r8d
	shll	$8, %r10d
	orl	%r8d, %r10d
	movzbl	-1(%rdi,%rax), %r8d
	orq	%r10, %r8
	movzbl	(%rdx), %r10d
	movzbl	(%rdx,%r9), %r11d
	shll	$16, %r10d
	shll	$8, %r11d
	orl	%r10d, %r11d
	movzbl	-1(%rdx,%rax), %r9d
	orq	%r11, %r9
	cmpq	%r9, %r8
	je	.LBB24_9
.LBB24_7:
	setae	%al
	addb	%al, %al
	retq
.LBB24_10:
	cmpq	%rcx, %rsi
	setae	%al
	addb	%al, %al
	cmpq	%rcx, %rsi
	movzbl	%al, %ecx
	movl	$1, %eax
	cmovnel	%ecx, %eax
	retq
.LBB24_15:
	movdqu	16(%rdi), %xmm0
	movdqu	16(%rdx), %xmm1
	pcmpeqb	%xmm0, %xmm1
	pmovmskb	%xmm1, %r9d
	notl	%r9d
	rep		bsfl	%r9d, %r9d
	cmpw	$16, %r9w
	jae	.LBB24_17
	addl	$16, %r9d
	cmpq	%rax, %r9
	jae	.LBB24_27
	jmp	.LBB24_26
.LBB24_17:
	leaq	-32(%rax), %r10
	movl	$32, %r9d
	.p2align	4
.LBB24_18:
	movdqu	(%rdi,%r9), %xmm0
	movdqu	16(%rdi,%r9), %xmm1
	movdqu	32(%rdi,%r9), %xmm2
	movdqu	48(%rdi,%r9), %xmm3
	movdqu	(%rdx,%r9), %xmm4
	pcmpeqb	%xmm0, %xmm4
	movdqu	16(%rdx,%r9), %xmm0
	pcmpeqb	%xmm1, %xmm0
	pand	%xmm4, %xmm0
	movdqu	32(%rdx,%r9), %xmm1
	pcmpeqb	%xmm2, %xmm1
	movdqu	48(%rdx,%r9), %xmm2
	pcmpeqb	%xmm3, %xmm2
	pand	%xmm1, %xmm2
	pand	%xmm0, %xmm2
	pmovmskb	%xmm2, %r11d
	cmpl	$65535, %r11d
	jne	.LBB24_20
	addq	$64, %r9
	addq	$-64, %r10
	cmpq	$63, %r10
	ja	.LBB24_18
.LBB24_20:
	movq	%rax, %r10
	subq	%r9, %r10
	.p2align	4
.LBB24_21:
	cmpq	$17, %r10
	jb	.LBB24_24
	movdqu	(%rdi,%r9), %xmm0
	movdqu	(%rdx,%r9), %xmm1
	pcmpeqb	%xmm0, %xmm1
	pmovmskb	%xmm1, %r11d
	notl	%r11d
	rep		bsfl	%r11d, %r11d
	leaq	(%r11,%r9), %rbx
	addq	$16, %r9
	addq	$-16, %r10
	cmpq	%r9, %rbx
	jae	.LBB24_21
.LBB24_23:
	movzwl	%r11w, %r8d
	addq	%r8, %r9
	addq	$-16, %r9
	cmpq	%rax, %r9
	jb	.LBB24_26
.LBB24_27:
	cmpq	%rcx, %rsi
	setae	%al
	addb	%al, %al
	cmpq	%rcx, %rsi
	movzbl	%al, %ecx
	movl	$1, %eax
	cmovnel	%ecx, %eax
	popq	%rbx
	retq
.LBB24_24:
	movdqu	(%rdi,%r8), %xmm0
	movdqu	(%rdx,%r8), %xmm1
	pcmpeqb	%xmm0, %xmm1
	pmovmskb	%xmm1, %r9d
	notl	%r9d
	rep		bsfl	%r9d, %r9d
	addq	%r8, %r9
	cmpq	%rax, %r9
	jae	.LBB24_27
.LBB24_26:
	movzbl	(%rdi,%r9), %eax
	cmpb	(%rdx,%r9), %al
	setae	%al
	addb	%al, %al
	popq	%rbx
	retq
.Lfunc_end24:
	.size	"amqp_value_core::types::short_string::ShortStringOrd::cmp", .Lfunc_end24-"amqp_value_core::types::short_string::ShortStringOrd::cmp"

	.section	".text.std_alloc::vec::Vec::remove::<#5ea93b9ddeb8aab1>","ax",@progbits
	.p2align	4
	.type	"std_alloc::vec::Vec::remove::<#5ea93b9ddeb8aab1>",@function
"std_alloc::vec::Vec::remove::<#5ea93b9ddeb8aab1>":
	pushq	%rbp
	pushq	%r15
	pushq	%r14
	pushq	%r13
	pushq	%r12
	pushq	%rbx
	movq	(%rsi), %rax
	movq	8(%rsi), %r9
	movq	16(%rsi), %r12
	xorps	%xmm0, %xmm0
	movups	%xmm0, 8(%rsi)
	leaq	(,%rdx,8), %r14
	leaq	(%r14,%r14,2), %r11
	leaq	(%rax,%r11), %r10
	movq	16(%rax,%r11), %r8
	movq	%r8, -8(%rsp)
	movups	(%rax,%r11), %xmm0
	movaps	%xmm0, -24(%rsp)
	leaq	-1(%r9), %r8
	movq	%r8, %rbx
	subq	%rdx, %rbx
	cmpq	$-1, %rdx
	je	.LBB25_21
	cmpq	$86, %rbx
	jae	.LBB25_2
	cmpq	%rdx, %r8
	jne	.LBB25_11
	jmp	.LBB25_29
	.p2align	4
.LBB25_6:
	leaq	(%r11,%r11,2), %rdx
	leaq	(%rax,%rdx,8), %rdx
	movq	40(%rdx), %rbx
	movq	%rbx, 16(%rdx)
	movups	24(%rdx), %xmm0
	movups	%xmm0, (%rdx)
	movq	64(%rdx), %rbx
	movq	%rbx, 40(%rdx)
	movups	48(%rdx), %xmm0
	movups	%xmm0, 24(%rdx)
	movq	88(%rdx), %rbx
	movq	%rbx, 64(%rdx)
	movups	72(%rdx), %xmm0
	movups	%xmm0, 48(%rdx)
	movq	112(%rdx), %rbx
	movq	%rbx, 88(%rdx)
	movups	96(%rdx), %xmm0
	movups	%xmm0, 72(%rdx)
	movq	136(%rdx), %rbx
	movq	%rbx, 112(%rdx)
	movups	120(%rdx), %xmm0
	movups	%xmm0, 96(%rdx)
	movq	160(%rdx), %rbx
	movq	%rbx, 136(%rdx)
	movups	144(%rdx), %xmm0
	movups	%xmm0, 120(%rdx)
	movq	184(%rdx), %rbx
	movq	%rbx, 160(%rdx)
	movups	168(%rdx), %xmm0
	movups	%xmm0, 144(%rdx)
	movq	208(%rdx), %rbx
	movq	%rbx, 184(%rdx)
	movups	192(%rdx), %xmm0
	movups	%xmm0, 168(%rdx)
	movq	232(%rdx), %rbx
	movq	%rbx, 208(%rdx)
	movups	216(%rdx), %xmm0
	movups	%xmm0, 192(%rdx)
	movq	256(%rdx), %rbx
	movq	%rbx, 232(%rdx)
	movups	240(%rdx), %xmm0
	movups	%xmm0, 216(%rdx)
	movq	280(%rdx), %rbx
	movq	%rbx, 256(%rdx)
	movups	264(%rdx), %xmm0
	movups	%xmm0, 240(%rdx)
	movq	304(%rdx), %rbx
	movq	%rbx, 280(%rdx)
	movups	288(%rdx), %xmm0
	movups	%xmm0, 264(%rdx)
	movq	328(%rdx), %rbx
	movq	%rbx, 304(%rdx)
	movups	312(%rdx), %xmm0
	movups	%xmm0, 288(%rdx)
	movq	352(%rdx), %rbx
	movq	%rbx, 328(%rdx)
	movups	336(%rdx), %xmm0
	movups	%xmm0, 312(%rdx)
	movq	376(%rdx), %rbx
	movq	%rbx, 352(%rdx)
	movups	360(%rdx), %xmm0
	movups	%xmm0, 336(%rdx)
	movq	400(%rdx), %rbx
	movq	%rbx, 376(%rdx)
	movups	384(%rdx), %xmm0
	movups	%xmm0, 360(%rdx)
	movq	424(%rdx), %rbx
	movq	%rbx, 400(%rdx)
	movups	408(%rdx), %xmm0
	movups	%xmm0, 384(%rdx)
	movq	448(%rdx), %rbx
	movq	%rbx, 424(%rdx)
	movups	432(%rdx), %xmm0
	movups	%xmm0, 408(%rdx)
	movq	472(%rdx), %rbx
	movq	%rbx, 448(%rdx)
	movups	456(%rdx), %xmm0
	movups	%xmm0, 432(%rdx)
	movq	496(%rdx), %rbx
	movq	%rbx, 472(%rdx)
	movups	480(%rdx), %xmm0
	movups	%xmm0, 456(%rdx)
	movq	520(%rdx), %rbx
	movq	%rbx, 496(%rdx)
	movups	504(%rdx), %xmm0
	movups	%xmm0, 480(%rdx)
	movq	544(%rdx), %rbx
	movq	%rbx, 520(%rdx)
	movups	528(%rdx), %xmm0
	movups	%xmm0, 504(%rdx)
	movq	568(%rdx), %rbx
	movq	%rbx, 544(%rdx)
	movups	552(%rdx), %xmm0
	movups	%xmm0, 528(%rdx)
	movq	592(%rdx), %rbx
	movq	%rbx, 568(%rdx)
	movups	576(%rdx), %xmm0
	movups	%xmm0, 552(%rdx)
	movq	616(%rdx), %rbx
	movq	%rbx, 592(%rdx)
	movups	600(%rdx), %xmm0
	movups	%xmm0, 576(%rdx)
	movq	640(%rdx), %rbx
	movq	%rbx, 616(%rdx)
	movups	624(%rdx), %xmm0
	movups	%xmm0, 600(%rdx)
	movq	664(%rdx), %rbx
	movq	%rbx, 640(%rdx)
	movups	648(%rdx), %xmm0
	movups	%xmm0, 624(%rdx)
	movq	688(%rdx), %rbx
	movq	%rbx, 664(%rdx)
	movups	672(%rdx), %xmm0
	movups	%xmm0, 648(%rdx)
	movq	712(%rdx), %rbx
	movq	%rbx, 688(%rdx)
	movups	696(%rdx), %xmm0
	movups	%xmm0, 672(%rdx)
	movq	736(%rdx), %rbx
	movq	%rbx, 712(%rdx)
	movups	720(%rdx), %xmm0
	movups	%xmm0, 696(%rdx)
	movq	760(%rdx), %rbx
	movq	%rbx, 736(%rdx)
	movups	744(%rdx), %xmm0
	movups	%xmm0, 720(%rdx)
	movq	784(%rdx), %rbx
	movq	%rbx, 760(%rdx)
	movups	768(%rdx), %xmm0
	movups	%xmm0, 744(%rdx)
	movq	808(%rdx), %rbx
	movq	%rbx, 784(%rdx)
	movups	792(%rdx), %xmm0
	movups	%xmm0, 768(%rdx)
	movq	832(%rdx), %rbx
	movq	%rbx, 808(%rdx)
	movups	816(%rdx), %xmm0
	movups	%xmm0, 792(%rdx)
	movq	856(%rdx), %rbx
	movq	%rbx, 832(%rdx)
	movups	840(%rdx), %xmm0
	movups	%xmm0, 816(%rdx)
	movq	880(%rdx), %rbx
	movq	%rbx, 856(%rdx)
	movups	864(%rdx), %xmm0
	movups	%xmm0, 840(%rdx)
	movq	904(%rdx), %rbx
	movq	%rbx, 880(%rdx)
	movups	888(%rdx), %xmm0
	movups	%xmm0, 864(%rdx)
	movq	928(%rdx), %rbx
	movq	%rbx, 904(%rdx)
	movups	912(%rdx), %xmm0
	movups	%xmm0, 888(%rdx)
	movq	952(%rdx), %rbx
	movq	%rbx, 928(%rdx)
	movups	936(%rdx), %xmm0
	movups	%xmm0, 912(%rdx)
	movq	976(%rdx), %rbx
	movq	%rbx, 952(%rdx)
	movups	960(%rdx), %xmm0
	movups	%xmm0, 936(%rdx)
	movq	1000(%rdx), %rbx
	movq	%rbx, 976(%rdx)
	movups	984(%rdx), %xmm0
	movups	%xmm0, 960(%rdx)
	movq	1024(%rdx), %rbx
	movq	%rbx, 1000(%rdx)
	movups	1008(%rdx), %xmm0
	movups	%xmm0, 984(%rdx)
	movq	1048(%rdx), %rbx
	movq	%rbx, 1024(%rdx)
	movups	1032(%rdx), %xmm0
	movups	%xmm0, 1008(%rdx)
	movq	1072(%rdx), %rbx
	movq	%rbx, 1048(%rdx)
	movups	1056(%rdx), %xmm0
	movups	%xmm0, 1032(%rdx)
	movq	1096(%rdx), %rbx
	movq	%rbx, 1072(%rdx)
	movups	1080(%rdx), %xmm0
	movups	%xmm0, 1056(%rdx)
	movq	1120(%rdx), %rbx
	movq	%rbx, 1096(%rdx)
	movups	1104(%rdx), %xmm0
	movups	%xmm0, 1080(%rdx)
	movq	1144(%rdx), %rbx
	movq	%rbx, 1120(%rdx)
	movups	1128(%rdx), %xmm0
	movups	%xmm0, 1104(%rdx)
	movq	1168(%rdx), %rbx
	movq	%rbx, 1144(%rdx)
	movups	1152(%rdx), %xmm0
	movups	%xmm0, 1128(%rdx)
	movq	1192(%rdx), %rbx
	movq	%rbx, 1168(%rdx)
	movups	1176(%rdx), %xmm0
	movups	%xmm0, 1152(%rdx)
	movq	1216(%rdx), %rbx
	movq	%rbx, 1192(%rdx)
	movups	1200(%rdx), %xmm0
	movups	%xmm0, 1176(%rdx)
	movq	1240(%rdx), %rbx
	movq	%rbx, 1216(%rdx)
	movups	1224(%rdx), %xmm0
	movups	%xmm0, 1200(%rdx)
	movq	1264(%rdx), %rbx
	movq	%rbx, 1240(%rdx)
	movups	1248(%rdx), %xmm0
	movups	%xmm0, 1224(%rdx)
	movq	1288(%rdx), %rbx
	movq	%rbx, 1264(%rdx)
	movups	1272(%rdx), %xmm0
	movups	%xmm0, 1248(%rdx)
	movq	1312(%rdx), %rbx
	movq	%rbx, 1288(%rdx)
	movups	1296(%rdx), %xmm0
	movups	%xmm0, 1272(%rdx)
	movq	1336(%rdx), %rbx
	movq	%rbx, 1312(%rdx)
	movups	1320(%rdx), %xmm0
	movups	%xmm0, 1296(%rdx)
	movq	1360(%rdx), %rbx
	movq	%rbx, 1336(%rdx)
	movups	1344(%rdx), %xmm0
	movups	%xmm0, 1320(%rdx)
	movq	1384(%rdx), %rbx
	movq	%rbx, 1360(%rdx)
	movups	1368(%rdx), %xmm0
	movups	%xmm0, 1344(%rdx)
	movq	1408(%rdx), %rbx
	movq	%rbx, 1384(%rdx)
	movups	1392(%rdx), %xmm0
	movups	%xmm0, 1368(%rdx)
	movq	1432(%rdx), %rbx
	movq	%rbx, 1408(%rdx)
	movups	1416(%rdx), %xmm0
	movups	%xmm0, 1392(%rdx)
	movq	1456(%rdx), %rbx
	movq	%rbx, 1432(%rdx)
	movups	1440(%rdx), %xmm0
	movups	%xmm0, 1416(%rdx)
	movq	1480(%rdx), %rbx
	movq	%rbx, 1456(%rdx)
	movups	1464(%rdx), %xmm0
	movups	%xmm0, 1440(%rdx)
	movq	1504(%rdx), %rbx
	movq	%rbx, 1480(%rdx)
	movups	1488(%rdx), %xmm0
	movups	%xmm0, 1464(%rdx)
	movq	1528(%rdx), %rbx
	movq	%rbx, 1504(%rdx)
	movups	1512(%rdx), %xmm0
	movups	%xmm0, 1488(%rdx)
	movq	1552(%rdx), %rbx
	movq	%rbx, 1528(%rdx)
	movups	1536(%rdx), %xmm0
	movups	%xmm0, 1512(%rdx)
	movq	1576(%rdx), %rbx
	movq	%rbx, 1552(%rdx)
	movups	1560(%rdx), %xmm0
	movups	%xmm0, 1536(%rdx)
	movq	1600(%rdx), %rbx
	movq	%rbx, 1576(%rdx)
	movups	1584(%rdx), %xmm0
	movups	%xmm0, 1560(%rdx)
	movq	1624(%rdx), %rbx
	movq	%rbx, 1600(%rdx)
	movups	1608(%rdx), %xmm0
	movups	%xmm0, 1584(%rdx)
	movq	1648(%rdx), %rbx
	movq	%rbx, 1624(%rdx)
	movups	1632(%rdx), %xmm0
	movups	%xmm0, 1608(%rdx)
	movq	1672(%rdx), %rbx
	movq	%rbx, 1648(%rdx)
	movups	1656(%rdx), %xmm0
	movups	%xmm0, 1632(%rdx)
	movq	1696(%rdx), %rbx
	movq	%rbx, 1672(%rdx)
	movups	1680(%rdx), %xmm0
	movups	%xmm0, 1656(%rdx)
	movq	1720(%rdx), %rbx
	movq	%rbx, 1696(%rdx)
	movups	1704(%rdx), %xmm0
	movups	%xmm0, 1680(%rdx)
	movq	1744(%rdx), %rbx
	movq	%rbx, 1720(%rdx)
	movups	1728(%rdx), %xmm0
	movups	%xmm0, 1704(%rdx)
	movq	1768(%rdx), %rbx
	movq	%rbx, 1744(%rdx)
	movups	1752(%rdx), %xmm0
	movups	%xmm0, 1728(%rdx)
	movq	1792(%rdx), %rbx
	movq	%rbx, 1768(%rdx)
	movups	1776(%rdx), %xmm0
	movups	%xmm0, 1752(%rdx)
	movq	1816(%rdx), %rbx
	movq	%rbx, 1792(%rdx)
	movups	1800(%rdx), %xmm0
	movups	%xmm0, 1776(%rdx)
	movq	1840(%rdx), %rbx
	movq	%rbx, 1816(%rdx)
	movups	1824(%rdx), %xmm0
	movups	%xmm0, 1800(%rdx)
	movq	1864(%rdx), %rbx
	movq	%rbx, 1840(%rdx)
	movups	1848(%rdx), %xmm0
	movups	%xmm0, 1824(%rdx)
	movq	1888(%rdx), %rbx
	movq	%rbx, 1864(%rdx)
	movups	1872(%rdx), %xmm0
	movups	%xmm0, 1848(%rdx)
	movq	1912(%rdx), %rbx
	movq	%rbx, 1888(%rdx)
	movups	1896(%rdx), %xmm0
	movups	%xmm0, 1872(%rdx)
	movq	1936(%rdx), %rbx
	movq	%rbx, 1912(%rdx)
	movups	1920(%rdx), %xmm0
	movups	%xmm0, 1896(%rdx)
	movq	1960(%rdx), %rbx
	movq	%rbx, 1936(%rdx)
	movups	1944(%rdx), %xmm0
	movups	%xmm0, 1920(%rdx)
	movq	1984(%rdx), %rbx
	movq	%rbx, 1960(%rdx)
	movups	1968(%rdx), %xmm0
	movups	%xmm0, 1944(%rdx)
	movq	2008(%rdx), %rbx
	movq	%rbx, 1984(%rdx)
	movups	1992(%rdx), %xmm0
	movups	%xmm0, 1968(%rdx)
	movq	2032(%rdx), %rbx
	movq	%rbx, 2008(%rdx)
	movups	2016(%rdx), %xmm0
	movups	%xmm0, 1992(%rdx)
	movq	2056(%rdx), %rbx
	movq	%rbx, 2032(%rdx)
	movups	2040(%rdx), %xmm0
	movups	%xmm0, 2016(%rdx)
.LBB25_7:
	leaq	85(%r11), %rdx
	movq	%r8, %rbx
	subq	%rdx, %rbx
	addq	$2040, %r10
	cmpq	$85, %rbx
	jbe	.LBB25_8
.LBB25_2:
	movq	%rdx, %r11
	cmpq	$-1, %rdx
	jne	.LBB25_6
	movl	$1992, %edx
	.p2align	4
.LBB25_4:
	movq	64(%r10,%rdx), %rbx
	movq	%rbx, 40(%r10,%rdx)
	movups	48(%r10,%rdx), %xmm0
	movups	%xmm0, 24(%r10,%rdx)
	cmpq	$-24, %rdx
	je	.LBB25_7
	movq	40(%r10,%rdx), %rbx
	movq	%rbx, 16(%r10,%rdx)
	movups	24(%r10,%rdx), %xmm0
	movups	%xmm0, (%r10,%rdx)
	addq	$-48, %rdx
	jmp	.LBB25_4
.LBB25_21:
	testq	%r9, %r9
	je	.LBB25_29
	movq	%r9, %r15
	subq	%rdx, %r15
	addq	$-2, %r15
	movl	%ebx, %r11d
	andl	$3, %r11d
	cmpq	$3, %r15
	jae	.LBB25_24
	xorl	%r14d, %r14d
	jmp	.LBB25_27
.LBB25_8:
	cmpq	$-1, %rdx
	je	.LBB25_18
	leaq	(,%rdx,8), %r9
	leaq	(%r9,%r9,2), %r11
	cmpq	%rdx, %r8
	je	.LBB25_29
.LBB25_11:
	leaq	-1(%rbx), %r9
	movl	%ebx, %edx
	andl	$3, %edx
	cmpq	$3, %r9
	jae	.LBB25_13
	xorl	%r9d, %r9d
	jmp	.LBB25_16
.LBB25_13:
	andl	$124, %ebx
	leaq	(%rax,%r11), %r10
	xorl	%r9d, %r9d
	.p2align	4
.LBB25_14:
	movq	40(%r10), %r14
	movq	%r14, 16(%r10)
	movups	24(%r10), %xmm0
	movups	%xmm0, (%r10)
	movups	48(%r10), %xmm0
	movups	%xmm0, 24(%r10)
	movq	64(%r10), %r14
	movq	%r14, 40(%r10)
	movups	72(%r10), %xmm0
	movups	%xmm0, 48(%r10)
	movq	88(%r10), %r14
	movq	%r14, 64(%r10)
	movups	96(%r10), %xmm0
	movups	%xmm0, 72(%r10)
	movq	112(%r10), %r14
	movq	%r14, 88(%r10)
	addq	$96, %r10
	addq	$4, %r9
	cmpq	%r9, %rbx
	jne	.LBB25_14
	testq	%rdx, %rdx
	je	.LBB25_29
.LBB25_16:
	leaq	(%r9,%r9,2), %rcx
	leaq	(%r11,%rcx,8), %r9
	addq	%rax, %r9
	shll	$3, %edx
	leaq	(%rdx,%rdx,2), %rdx
	xorl	%r10d, %r10d
	.p2align	4
.LBB25_17:
	movq	40(%r9,%r10), %rcx
	movq	%rcx, 16(%r9,%r10)
	movups	24(%r9,%r10), %xmm0
	movups	%xmm0, (%r9,%r10)
	addq	$24, %r10
	cmpq	%r10, %rdx
	jne	.LBB25_17
	jmp	.LBB25_29
.LBB25_24:
	movq	%r12, -32(%rsp)
	movq	%rbx, %r15
	andq	$-4, %r15
	leaq	(%r14,%r14,2), %r12
	negq	%r12
	leaq	(%r9,%r9,2), %r14
	leaq	(%rax,%r14,8), %r13
	addq	$-48, %r13
	xorl	%r14d, %r14d
	.p2align	4
.LBB25_25:
	movups	(%r13,%r12), %xmm0
	movq	16(%r13,%r12), %rbp
	movq	%rbp, 16(%r13)
	movups	%xmm0, (%r13)
	movabsq	$2305843009213693950, %rbp
	xorq	%r14, %rbp
	addq	%rbx, %rbp
	shlq	$3, %rbp
	leaq	(%rbp,%rbp,2), %rbp
	movups	(%rax,%rbp), %xmm0
	movq	16(%rax,%rbp), %rcx
	movq	%rcx, 16(%r10,%rbp)
	movups	%xmm0, (%r10,%rbp)
	movabsq	$2305843009213693949, %rcx
	xorq	%r14, %rcx
	addq	%rbx, %rcx
	shlq	$3, %rcx
	leaq	(%rcx,%rcx,2), %rcx
	movups	(%rax,%rcx), %xmm0
	movq	16(%rax,%rcx), %rbp
	movq	%rbp, 16(%r10,%rcx)
	movups	%xmm0, (%r10,%rcx)
	movabsq	$2305843009213693948, %rcx
	xorq	%r14, %rcx
	addq	%rbx, %rcx
	shlq	$3, %rcx
	leaq	(%rcx,%rcx,2), %rcx
	movups	(%rax,%rcx), %xmm0
	movq	16(%rax,%rcx), %rbp
	movq	%rbp, 16(%r10,%rcx)
	movups	%xmm0, (%r10,%rcx)
	addq	$4, %r14
	addq	$-96, %r13
	cmpq	%r14, %r15
	jne	.LBB25_25
	testq	%r11, %r11
	movq	-32(%rsp), %r12
	je	.LBB25_29
.LBB25_27:
	leaq	(%r9,%r9,2), %rcx
	leaq	-48(,%rcx,8), %r9
	addq	%r14, %rdx
	shlq	$3, %rdx
	leaq	(%rdx,%rdx,2), %rcx
	movq	%r9, %rdx
	subq	%rcx, %rdx
	addq	%rax, %rdx
	shlq	$3, %r14
	leaq	(%r14,%r14,2), %rcx
	subq	%rcx, %r9
	addq	%rax, %r9
	shll	$3, %r11d
	leaq	(%r11,%r11,2), %r10
	xorl	%r11d, %r11d
	.p2align	4
.LBB25_28:
	movups	(%rdx,%r11), %xmm0
	movq	16(%rdx,%r11), %rcx
	movq	%rcx, 16(%r9,%r11)
	movups	%xmm0, (%r9,%r11)
	addq	$-24, %r11
	movq	%r10, %rcx
	addq	%r11, %rcx
	jne	.LBB25_28
	jmp	.LBB25_29
.LBB25_18:
	testq	%r9, %r9
	je	.LBB25_29
	leaq	(%r9,%r9,2), %rdx
	addq	$-86, %r9
	leaq	(%rax,%rdx,8), %rdx
	addq	$-24, %rdx
	.p2align	4
.LBB25_20:
	movq	16(%rdx), %r10
	movq	%r10, -8(%rdx)
	movups	(%rdx), %xmm0
	movups	%xmm0, -24(%rdx)
	addq	$-24, %rdx
	decq	%r9
	cmpq	%r9, %r11
	jne	.LBB25_20
.LBB25_29:
	movq	%rax, (%rsi)
	movq	%r8, 8(%rsi)
	movq	%r12, 16(%rsi)
	movq	-8(%rsp), %rax
	movq	%rax, 16(%rdi)
	movaps	-24(%rsp), %xmm0
	movups	%xmm0, (%rdi)
	popq	%rbx
	popq	%r12
	popq	%r13
	popq	%r14
	popq	%r15
	popq	%rbp
	retq
.Lfunc_end25:
	.size	"std_alloc::vec::Vec::remove::<#5ea93b9ddeb8aab1>", .Lfunc_end25-"std_alloc::vec::Vec::remove::<#5ea93b9ddeb8aab1>"

	.section	".text.std_alloc::vec::Vec::remove::<#cd5e489e5ed3d409>","ax",@progbits
	.p2align	4
	.type	"std_alloc::vec::Vec::remove::<#cd5e489e5ed3d409>",@function
"std_alloc::vec::Vec::remove::<#cd5e489e5ed3d409>":
	pushq	%rbp
	pushq	%r15
	pushq	%r14
	pushq	%r13
	pushq	%r12
	pushq	%rbx
	movq	(%rsi), %rax
	movq	8(%rsi), %r15
	movq	16(%rsi), %r8
	xorps	%xmm0, %xmm0
	movups	%xmm0, 8(%rsi)
	movq	%rdx, %r12
	shlq	$5, %r12
	leaq	(%rax,%r12), %rbx
	movzbl	(%rax,%r12), %ecx
	movzbl	1(%rax,%r12), %r9d
	movzwl	2(%rax,%r12), %r10d
	movups	4(%rax,%r12), %xmm0
	movaps	%xmm0, -72(%rsp)
	movups	16(%rax,%r12), %xmm0
	movups	%xmm0, -60(%rsp)
	leaq	-1(%r15), %r11
	movq	%r11, %r14
	subq	%rdx, %r14
	cmpq	$-1, %rdx
	je	.LBB26_17
	cmpq	$65, %r14
	jb	.LBB26_11
	leaq	(%r12,%rax), %r13
	addq	$68, %r13
	jmp	.LBB26_3
	.p2align	4
.LBB26_8:
	leaq	64(%r12), %rdx
	movq	%r11, %r14
	subq	%rdx, %r14
	addq	$2048, %r13
	addq	$2048, %rbx
	cmpq	$64, %r14
	jbe	.LBB26_9
.LBB26_3:
	movq	%rdx, %r12
	cmpq	$-1, %rdx
	je	.LBB26_6
	xorl	%edx, %edx
	.p2align	4
.LBB26_5:
	movl	-36(%r13,%rdx), %ebp
	movl	%ebp, -68(%r13,%rdx)
	movups	-32(%r13,%rdx), %xmm0
	movups	%xmm0, -64(%r13,%rdx)
	movups	-20(%r13,%rdx), %xmm0
	movups	%xmm0, -52(%r13,%rdx)
	movl	-4(%r13,%rdx), %ebp
	movl	%ebp, -36(%r13,%rdx)
	movups	(%r13,%rdx), %xmm0
	movups	%xmm0, -32(%r13,%rdx)
	movups	12(%r13,%rdx), %xmm0
	movups	%xmm0, -20(%r13,%rdx)
	addq	$64, %rdx
	cmpq	$2048, %rdx
	jne	.LBB26_5
	jmp	.LBB26_8
	.p2align	4
.LBB26_6:
	movl	$2052, %edx
	.p2align	4
.LBB26_7:
	movl	-4(%rbx,%rdx), %ebp
	movl	%ebp, -36(%rbx,%rdx)
	movups	(%rbx,%rdx), %xmm0
	movups	%xmm0, -32(%rbx,%rdx)
	movups	12(%rbx,%rdx), %xmm0
	movups	%xmm0, -20(%rbx,%rdx)
	addq	$-32, %rdx
	cmpq	$4, %rdx
	jne	.LBB26_7
	jmp	.LBB26_8
.LBB26_17:
	testq	%r15, %r15
	je	.LBB26_24
	leaq	-2(%r15), %r12
	cmpq	%rdx, %r12
	jne	.LBB26_20
	xorl	%r15d, %r15d
	jmp	.LBB26_23
.LBB26_9:
	cmpq	$-1, %rdx
	je	.LBB26_14
	movq	%rdx, %r12
	shlq	$5, %r12
.LBB26_11:
	cmpq	%rdx, %r11
	je	.LBB26_24
	leaq	(%r12,%rax), %rdx
	addq	$36, %rdx
	.p2align	4
.LBB26_13:
	movl	-4(%rdx), %ebx
	movups	(%rdx), %xmm0
	movaps	%xmm0, -40(%rsp)
	movups	12(%rdx), %xmm0
	movups	%xmm0, -28(%rsp)
	movl	%ebx, -36(%rdx)
	movaps	-40(%rsp), %xmm0
	movups	%xmm0, -32(%rdx)
	movups	-28(%rsp), %xmm0
	movups	%xmm0, -20(%rdx)
	addq	$32, %rdx
	decq	%r14
	jne	.LBB26_13
	jmp	.LBB26_24
.LBB26_20:
	movb	%cl, -81(%rsp)
	movq	%r8, -80(%rsp)
	movq	%r14, %r12
	andq	$-2, %r12
	shlq	$5, %rdx
	negq	%rdx
	shlq	$5, %r15
	leaq	(%r15,%rax), %r13
	addq	$-60, %r13
	xorl	%r15d, %r15d
	.p2align	4
.LBB26_21:
	movl	-4(%r13,%rdx), %ebp
	movl	%ebp, -4(%r13)
	movups	(%r13,%rdx), %xmm0
	movq	16(%r13,%rdx), %rbp
	movl	24(%r13,%rdx), %ecx
	movl	%ecx, 24(%r13)
	movq	%rbp, 16(%r13)
	movups	%xmm0, (%r13)
	movabsq	$576460752303423486, %rcx
	xorq	%r15, %rcx
	addq	%r14, %rcx
	shlq	$5, %rcx
	movl	(%rax,%rcx), %ebp
	movl	%ebp, (%rbx,%rcx)
	movups	4(%rax,%rcx), %xmm0
	movq	20(%rax,%rcx), %rbp
	movl	28(%rax,%rcx), %r8d
	movl	%r8d, 28(%rbx,%rcx)
	movq	%rbp, 20(%rbx,%rcx)
	movups	%xmm0, 4(%rbx,%rcx)
	addq	$2, %r15
	addq	$-64, %r13
	cmpq	%r15, %r12
	jne	.LBB26_21
	testb	$1, %r14b
	movq	-80(%rsp), %r8
	movzbl	-81(%rsp), %ecx
	je	.LBB26_24
.LBB26_23:
	notq	%r15
	addq	%r15, %r14
	shlq	$5, %r14
	movl	%ecx, %ebp
	movl	(%rax,%r14), %ecx
	movl	%ecx, (%rbx,%r14)
	movups	4(%rax,%r14), %xmm0
	movq	20(%rax,%r14), %rcx
	movl	28(%rax,%r14), %edx
	movl	%edx, 28(%rbx,%r14)
	movq	%rcx, 20(%rbx,%r14)
	movl	%ebp, %ecx
	movups	%xmm0, 4(%rbx,%r14)
	jmp	.LBB26_24
.LBB26_14:
	testq	%r15, %r15
	je	.LBB26_24
	leaq	-65(%r15), %rdx
	shlq	$5, %r15
	leaq	(%r15,%rax), %rbx
	addq	$-28, %rbx
	.p2align	4
.LBB26_16:
	movl	-4(%rbx), %ebp
	movl	%ebp, -36(%rbx)
	movups	(%rbx), %xmm0
	movups	%xmm0, -32(%rbx)
	movups	12(%rbx), %xmm0
	movups	%xmm0, -20(%rbx)
	addq	$-32, %rbx
	decq	%rdx
	cmpq	%rdx, %r12
	jne	.LBB26_16
.LBB26_24:
	movq	%rax, (%rsi)
	movq	%r11, 8(%rsi)
	movq	%r8, 16(%rsi)
	movb	%cl, (%rdi)
	movb	%r9b, 1(%rdi)
	movw	%r10w, 2(%rdi)
	movaps	-72(%rsp), %xmm0
	movups	%xmm0, 4(%rdi)
	movups	-60(%rsp), %xmm0
	movups	%xmm0, 16(%rdi)
	popq	%rbx
	popq	%r12
	popq	%r13
	popq	%r14
	popq	%r15
	popq	%rbp
	retq
.Lfunc_end26:
	.size	"std_alloc::vec::Vec::remove::<#cd5e489e5ed3d409>", .Lfunc_end26-"std_alloc::vec::Vec::remove::<#cd5e489e5ed3d409>"

	.section	.rodata.cst16,"aM",@progbits,16
	.p2align	4, 0x0
.LCPI27_0:
	.long	1
	.long	0
	.long	0
	.long	0
	.section	".text.std_alloc::vec::lodged::Vec+T+Lodged::insert_reserved::<#0107ca75ede54906>","ax",@progbits
	.p2align	4
	.type	"std_alloc::vec::lodged::Vec+T+Lodged::insert_reserved::<#0107ca75ede54906>",@function
"std_alloc::vec::lodged::Vec+T+Lodged::insert_reserved::<#0107ca75ede54906>":
	pushq	%r14
	pushq	%rbx
	movq	16(%rdx), %rax
	movq	%rax, -8(%rsp)
	movups	(%rdx), %xmm0
	movaps	%xmm0, -24(%rsp)
	movq	(%rdi), %rax
	movq	8(%rdi), %rcx
	movdqu	8(%rdi), %xmm0
	xorps	%xmm1, %xmm1
	movups	%xmm1, 8(%rdi)
	movq	%rsi, %r10
	incq	%r10
	je	.LBB27_1
	cmpq	%rsi, %rcx
	je	.LBB27_27
	movq	%rcx, %rdx
	subq	%rsi, %rdx
	leaq	(%rsi,%rsi,2), %r8
	leaq	(%rax,%r8,8), %r8
	leaq	(%r10,%r10,2), %r9
	leaq	(%rax,%r9,8), %r9
	cmpq	%r10, %rcx
	jne	.LBB27_23
	xorl	%ecx, %ecx
	jmp	.LBB27_26
.LBB27_1:
	leaq	1(%rcx), %rdx
	cmpq	$86, %rdx
	jb	.LBB27_12
	xorl	%r10d, %r10d
	movq	%rax, %r9
	jmp	.LBB27_3
	.p2align	4
.LBB27_7:
	leaq	(%r8,%r8,2), %r10
	leaq	(%rax,%r10,8), %r10
	movq	-8(%r10), %r11
	movq	%r11, 16(%r10)
	movups	-24(%r10), %xmm1
	movups	%xmm1, (%r10)
	movq	-8(%r10), %r11
	movq	%r11, 40(%r10)
	movups	-24(%r10), %xmm1
	movups	%xmm1, 24(%r10)
	movq	-8(%r10), %r11
	movq	%r11, 64(%r10)
	movups	-24(%r10), %xmm1
	movups	%xmm1, 48(%r10)
	movq	-8(%r10), %r11
	movq	%r11, 88(%r10)
	movups	-24(%r10), %xmm1
	movups	%xmm1, 72(%r10)
	movq	-8(%r10), %r11
	movq	%r11, 112(%r10)
	movups	-24(%r10), %xmm1
	movups	%xmm1, 96(%r10)
	movups	-24(%r10), %xmm1
	movups	%xmm1, 120(%r10)
	movq	-8(%r10), %r11
	movq	%r11, 136(%r10)
	movups	-24(%r10), %xmm1
	movups	%xmm1, 144(%r10)
	movq	-8(%r10), %r11
	movq	%r11, 160(%r10)
	movq	-8(%r10), %r11
	movq	%r11, 184(%r10)
	movups	-24(%r10), %xmm1
	movups	%xmm1, 168(%r10)
	movups	-24(%r10), %xmm1
	movups	%xmm1, 192(%r10)
	movq	-8(%r10), %r11
	movq	%r11, 208(%r10)
	movups	-24(%r10), %xmm1
	movups	%xmm1, 216(%r10)
	movq	-8(%r10), %r11
	movq	%r11, 232(%r10)
	movq	-8(%r10), %r11
	movq	%r11, 256(%r10)
	movups	-24(%r10), %xmm1
	movups	%xmm1, 240(%r10)
	movq	-8(%r10), %r11
	movq	%r11, 280(%r10)
	movups	-24(%r10), %xmm1
	movups	%xmm1, 264(%r10)
	movups	-24(%r10), %xmm1
	movups	%xmm1, 288(%r10)
	movq	-8(%r10), %r11
	movq	%r11, 304(%r10)
	movups	-24(%r10), %xmm1
	movups	%xmm1, 312(%r10)
	movq	-8(%r10), %r11
	movq	%r11, 328(%r10)
	movups	-24(%r10), %xmm1
	movups	%xmm1, 336(%r10)
	movq	-8(%r10), %r11
	movq	%r11, 352(%r10)
	movq	-8(%r10), %r11
	movq	%r11, 376(%r10)
	movups	-24(%r10), %xmm1
	movups	%xmm1, 360(%r10)
	movups	-24(%r10), %xmm1
	movups	%xmm1, 384(%r10)
	movq	-8(%r10), %r11
	movq	%r11, 400(%r10)
	movups	-24(%r10), %xmm1
	movups	%xmm1, 408(%r10)
	movq	-8(%r10), %r11
	movq	%r11, 424(%r10)
	movups	-24(%r10), %xmm1
	movups	%xmm1, 432(%r10)
	movq	-8(%r10), %r11
	movq	%r11, 448(%r10)
	movq	-8(%r10), %r11
	movq	%r11, 472(%r10)
	movups	-24(%r10), %xmm1
	movups	%xmm1, 456(%r10)
	movups	-24(%r10), %xmm1
	movups	%xmm1, 480(%r10)
	movq	-8(%r10), %r11
	movq	%r11, 496(%r10)
	movups	-24(%r10), %xmm1
	movups	%xmm1, 504(%r10)
	movq	-8(%r10), %r11
	movq	%r11, 520(%r10)
	movups	-24(%r10), %xmm1
	movups	%xmm1, 528(%r10)
	movq	-8(%r10), %r11
	movq	%r11, 544(%r10)
	movq	-8(%r10), %r11
	movq	%r11, 568(%r10)
	movups	-24(%r10), %xmm1
	movups	%xmm1, 552(%r10)
	movups	-24(%r10), %xmm1
	movups	%xmm1, 576(%r10)
	movq	-8(%r10), %r11
	movq	%r11, 592(%r10)
	movups	-24(%r10), %xmm1
	movups	%xmm1, 600(%r10)
	movq	-8(%r10), %r11
	movq	%r11, 616(%r10)
	movups	-24(%r10), %xmm1
	movups	%xmm1, 624(%r10)
	movq	-8(%r10), %r11
	movq	%r11, 640(%r10)
	movq	-8(%r10), %r11
	movq	%r11, 664(%r10)
	movups	-24(%r10), %xmm1
	movups	%xmm1, 648(%r10)
	movups	-24(%r10), %xmm1
	movups	%xmm1, 672(%r10)
	movq	-8(%r10), %r11
	movq	%r11, 688(%r10)
	movups	-24(%r10), %xmm1
	movups	%xmm1, 696(%r10)
	movq	-8(%r10), %r11
	movq	%r11, 712(%r10)
	movups	-24(%r10), %xmm1
	movups	%xmm1, 720(%r10)
	movq	-8(%r10), %r11
	movq	%r11, 736(%r10)
	movq	-8(%r10), %r11
	movq	%r11, 760(%r10)
	movups	-24(%r10), %xmm1
	movups	%xmm1, 744(%r10)
	movups	-24(%r10), %xmm1
	movups	%xmm1, 768(%r10)
	movq	-8(%r10), %r11
	movq	%r11, 784(%r10)
	movups	-24(%r10), %xmm1
	movups	%xmm1, 792(%r10)
	movq	-8(%r10), %r11
	movq	%r11, 808(%r10)
	movups	-24(%r10), %xmm1
	movups	%xmm1, 816(%r10)
	movq	-8(%r10), %r11
	movq	%r11, 832(%r10)
	movq	-8(%r10), %r11
	movq	%r11, 856(%r10)
	movups	-24(%r10), %xmm1
	movups	%xmm1, 840(%r10)
	movups	-24(%r10), %xmm1
	movups	%xmm1, 864(%r10)
	movq	-8(%r10), %r11
	movq	%r11, 880(%r10)
	movups	-24(%r10), %xmm1
	movups	%xmm1, 888(%r10)
	movq	-8(%r10), %r11
	movq	%r11, 904(%r10)
	movups	-24(%r10), %xmm1
	movups	%xmm1, 912(%r10)
	movq	-8(%r10), %r11
	movq	%r11, 928(%r10)
	movq	-8(%r10), %r11
	movq	%r11, 952(%r10)
	movups	-24(%r10), %xmm1
	movups	%xmm1, 936(%r10)
	movups	-24(%r10), %xmm1
	movups	%xmm1, 960(%r10)
	movq	-8(%r10), %r11
	movq	%r11, 976(%r10)
	movups	-24(%r10), %xmm1
	movups	%xmm1, 984(%r10)
	movq	-8(%r10), %r11
	movq	%r11, 1000(%r10)
	movups	-24(%r10), %xmm1
	movups	%xmm1, 1008(%r10)
	movq	-8(%r10), %r11
	movq	%r11, 1024(%r10)
	movq	-8(%r10), %r11
	movq	%r11, 1048(%r10)
	movups	-24(%r10), %xmm1
	movups	%xmm1, 1032(%r10)
	movups	-24(%r10), %xmm1
	movups	%xmm1, 1056(%r10)
	movq	-8(%r10), %r11
	movq	%r11, 1072(%r10)
	movups	-24(%r10), %xmm1
	movups	%xmm1, 1080(%r10)
	movq	-8(%r10), %r11
	movq	%r11, 1096(%r10)
	movups	-24(%r10), %xmm1
	movups	%xmm1, 1104(%r10)
	movq	-8(%r10), %r11
	movq	%r11, 1120(%r10)
	movq	-8(%r10), %r11
	movq	%r11, 1144(%r10)
	movups	-24(%r10), %xmm1
	movups	%xmm1, 1128(%r10)
	movups	-24(%r10), %xmm1
	movups	%xmm1, 1152(%r10)
	movq	-8(%r10), %r11
	movq	%r11, 1168(%r10)
	movups	-24(%r10), %xmm1
	movups	%xmm1, 1176(%r10)
	movq	-8(%r10), %r11
	movq	%r11, 1192(%r10)
	movups	-24(%r10), %xmm1
	movups	%xmm1, 1200(%r10)
	movq	-8(%r10), %r11
	movq	%r11, 1216(%r10)
	movq	-8(%r10), %r11
	movq	%r11, 1240(%r10)
	movups	-24(%r10), %xmm1
	movups	%xmm1, 1224(%r10)
	movups	-24(%r10), %xmm1
	movups	%xmm1, 1248(%r10)
	movq	-8(%r10), %r11
	movq	%r11, 1264(%r10)
	movups	-24(%r10), %xmm1
	movups	%xmm1, 1272(%r10)
	movq	-8(%r10), %r11
	movq	%r11, 1288(%r10)
	movups	-24(%r10), %xmm1
	movups	%xmm1, 1296(%r10)
	movq	-8(%r10), %r11
	movq	%r11, 1312(%r10)
	movq	-8(%r10), %r11
	movq	%r11, 1336(%r10)
	movups	-24(%r10), %xmm1
	movups	%xmm1, 1320(%r10)
	movups	-24(%r10), %xmm1
	movups	%xmm1, 1344(%r10)
	movq	-8(%r10), %r11
	movq	%r11, 1360(%r10)
	movups	-24(%r10), %xmm1
	movups	%xmm1, 1368(%r10)
	movq	-8(%r10), %r11
	movq	%r11, 1384(%r10)
	movups	-24(%r10), %xmm1
	movups	%xmm1, 1392(%r10)
	movq	-8(%r10), %r11
	movq	%r11, 1408(%r10)
	movq	-8(%r10), %r11
	movq	%r11, 1432(%r10)
	movups	-24(%r10), %xmm1
	movups	%xmm1, 1416(%r10)
	movups	-24(%r10), %xmm1
	movups	%xmm1, 1440(%r10)
	movq	-8(%r10), %r11
	movq	%r11, 1456(%r10)
	movups	-24(%r10), %xmm1
	movups	%xmm1, 1464(%r10)
	movq	-8(%r10), %r11
	movq	%r11, 1480(%r10)
	movups	-24(%r10), %xmm1
	movups	%xmm1, 1488(%r10)
	movq	-8(%r10), %r11
	movq	%r11, 1504(%r10)
	movq	-8(%r10), %r11
	movq	%r11, 1528(%r10)
	movups	-24(%r10), %xmm1
	movups	%xmm1, 1512(%r10)
	movups	-24(%r10), %xmm1
	movups	%xmm1, 1536(%r10)
	movq	-8(%r10), %r11
	movq	%r11, 1552(%r10)
	movups	-24(%r10), %xmm1
	movups	%xmm1, 1560(%r10)
	movq	-8(%r10), %r11
	movq	%r11, 1576(%r10)
	movups	-24(%r10), %xmm1
	movups	%xmm1, 1584(%r10)
	movq	-8(%r10), %r11
	movq	%r11, 1600(%r10)
	movq	-8(%r10), %r11
	movq	%r11, 1624(%r10)
	movups	-24(%r10), %xmm1
	movups	%xmm1, 1608(%r10)
	movups	-24(%r10), %xmm1
	movups	%xmm1, 1632(%r10)
	movq	-8(%r10), %r11
	movq	%r11, 1648(%r10)
	movups	-24(%r10), %xmm1
	movups	%xmm1, 1656(%r10)
	movq	-8(%r10), %r11
	movq	%r11, 1672(%r10)
	movups	-24(%r10), %xmm1
	movups	%xmm1, 1680(%r10)
	movq	-8(%r10), %r11
	movq	%r11, 1696(%r10)
	movq	-8(%r10), %r11
	movq	%r11, 1720(%r10)
	movups	-24(%r10), %xmm1
	movups	%xmm1, 1704(%r10)
	movups	-24(%r10), %xmm1
	movups	%xmm1, 1728(%r10)
	movq	-8(%r10), %r11
	movq	%r11, 1744(%r10)
	movups	-24(%r10), %xmm1
	movups	%xmm1, 1752(%r10)
	movq	-8(%r10), %r11
	movq	%r11, 1768(%r10)
	movups	-24(%r10), %xmm1
	movups	%xmm1, 1776(%r10)
	movq	-8(%r10), %r11
	movq	%r11, 1792(%r10)
	movq	-8(%r10), %r11
	movq	%r11, 1816(%r10)
	movups	-24(%r10), %xmm1
	movups	%xmm1, 1800(%r10)
	movups	-24(%r10), %xmm1
	movups	%xmm1, 1824(%r10)
	movq	-8(%r10), %r11
	movq	%r11, 1840(%r10)
	movups	-24(%r10), %xmm1
	movups	%xmm1, 1848(%r10)
	movq	-8(%r10), %r11
	movq	%r11, 1864(%r10)
	movups	-24(%r10), %xmm1
	movups	%xmm1, 1872(%r10)
	movq	-8(%r10), %r11
	movq	%r11, 1888(%r10)
	movq	-8(%r10), %r11
	movq	%r11, 1912(%r10)
	movups	-24(%r10), %xmm1
	movups	%xmm1, 1896(%r10)
	movups	-24(%r10), %xmm1
	movups	%xmm1, 1920(%r10)
	movq	-8(%r10), %r11
	movq	%r11, 1936(%r10)
	movups	-24(%r10), %xmm1
	movups	%xmm1, 1944(%r10)
	movq	-8(%r10), %r11
	movq	%r11, 1960(%r10)
	movups	-24(%r10), %xmm1
	movups	%xmm1, 1968(%r10)
	movq	-8(%r10), %r11
	movq	%r11, 1984(%r10)
	movq	-8(%r10), %r11
	movq	%r11, 2008(%r10)
	movups	-24(%r10), %xmm1
	movups	%xmm1, 1992(%r10)
	movups	-24(%r10), %xmm1
	movups	%xmm1, 2016(%r10)
	movq	-8(%r10), %r11
	movq	%r11, 2032(%r10)
.LBB27_8:
	leaq	85(%r8), %r10
	movq	%rdx, %r11
	subq	%r10, %r11
	addq	$2040, %r9
	cmpq	$85, %r11
	jbe	.LBB27_9
.LBB27_3:
	movq	%r10, %r8
	testq	%r10, %r10
	je	.LBB27_7
	movl	$2016, %r10d
	.p2align	4
.LBB27_5:
	movq	-8(%r9,%r10), %r11
	movq	%r11, 16(%r9,%r10)
	movups	-24(%r9,%r10), %xmm1
	movups	%xmm1, (%r9,%r10)
	testq	%r10, %r10
	je	.LBB27_8
	movq	-32(%r9,%r10), %r11
	movq	%r11, -8(%r9,%r10)
	movups	-48(%r9,%r10), %xmm1
	movups	%xmm1, -24(%r9,%r10)
	addq	$-48, %r10
	jmp	.LBB27_5
.LBB27_12:
	testq	%rdx, %rdx
	je	.LBB27_27
	movl	%edx, %r8d
	andl	$3, %r8d
	cmpq	$3, %rcx
	jae	.LBB27_15
	xorl	%ecx, %ecx
	jmp	.LBB27_18
.LBB27_9:
	cmpq	%r10, %rdx
	je	.LBB27_27
	leaq	(%rcx,%rcx,2), %rdx
	subq	%r8, %rcx
	addq	$-84, %rcx
	leaq	(%rax,%rdx,8), %rdx
	.p2align	4
.LBB27_11:
	movq	-8(%rdx), %r8
	movq	%r8, 16(%rdx)
	movups	-24(%rdx), %xmm1
	movups	%xmm1, (%rdx)
	addq	$-24, %rdx
	decq	%rcx
	jne	.LBB27_11
	jmp	.LBB27_27
.LBB27_23:
	movq	%rdx, %r10
	andq	$-2, %r10
	leaq	(%rcx,%rcx,2), %rcx
	leaq	(%rax,%rcx,8), %r11
	xorl	%ecx, %ecx
	.p2align	4
.LBB27_24:
	movq	-8(%r11), %rbx
	movq	%rbx, 16(%r11)
	movups	-24(%r11), %xmm1
	movups	%xmm1, (%r11)
	movabsq	$2305843009213693950, %rbx
	xorq	%rcx, %rbx
	addq	%rdx, %rbx
	shlq	$3, %rbx
	leaq	(%rbx,%rbx,2), %rbx
	movq	16(%r8,%rbx), %r14
	movq	%r14, 16(%r9,%rbx)
	movups	(%r8,%rbx), %xmm1
	movups	%xmm1, (%r9,%rbx)
	addq	$2, %rcx
	addq	$-48, %r11
	cmpq	%rcx, %r10
	jne	.LBB27_24
	testb	$1, %dl
	je	.LBB27_27
.LBB27_26:
	notq	%rcx
	addq	%rcx, %rdx
	shlq	$3, %rdx
	leaq	(%rdx,%rdx,2), %rcx
	movq	16(%r8,%rcx), %rdx
	movq	%rdx, 16(%r9,%rcx)
	movups	(%r8,%rcx), %xmm1
	movups	%xmm1, (%r9,%rcx)
	jmp	.LBB27_27
.LBB27_15:
	andl	$124, %edx
	leaq	(,%rsi,8), %rcx
	leaq	(%rcx,%rcx,2), %r9
	xorl	%ecx, %ecx
	movq	%rax, %r10
	.p2align	4
.LBB27_16:
	movq	16(%r10,%r9), %r11
	movq	%r11, 16(%r10)
	movups	(%r10,%r9), %xmm1
	movups	%xmm1, (%r10)
	movq	40(%r10,%r9), %r11
	movq	%r11, 40(%r10)
	movups	24(%r10,%r9), %xmm1
	movups	%xmm1, 24(%r10)
	movq	64(%r10,%r9), %r11
	movq	%r11, 64(%r10)
	movups	48(%r10,%r9), %xmm1
	movups	%xmm1, 48(%r10)
	movups	72(%r10,%r9), %xmm1
	movups	%xmm1, 72(%r10)
	movq	88(%r10,%r9), %r11
	movq	%r11, 88(%r10)
	addq	$4, %rcx
	addq	$96, %r10
	cmpq	%rcx, %rdx
	jne	.LBB27_16
	testq	%r8, %r8
	je	.LBB27_27
.LBB27_18:
	shlq	$3, %rcx
	leaq	(%rcx,%rcx,2), %rcx
	leaq	(%rsi,%rsi,2), %rdx
	leaq	(%rcx,%rdx,8), %rdx
	addq	%rax, %rdx
	addq	%rax, %rcx
	shll	$3, %r8d
	leaq	(%r8,%r8,2), %r8
	xorl	%r9d, %r9d
	.p2align	4
.LBB27_19:
	movq	16(%rdx,%r9), %r10
	movq	%r10, 16(%rcx,%r9)
	movups	(%rdx,%r9), %xmm1
	movups	%xmm1, (%rcx,%r9)
	addq	$24, %r9
	cmpq	%r9, %r8
	jne	.LBB27_19
.LBB27_27:
	leaq	(%rsi,%rsi,2), %rcx
	movq	-8(%rsp), %rdx
	movq	%rdx, 16(%rax,%rcx,8)
	movaps	-24(%rsp), %xmm1
	movups	%xmm1, (%rax,%rcx,8)
	movq	%rax, (%rdi)
	paddq	.LCPI27_0(%rip), %xmm0
	movdqu	%xmm0, 8(%rdi)
	popq	%rbx
	popq	%r14
	retq
.Lfunc_end27:
	.size	"std_alloc::vec::lodged::Vec+T+Lodged::insert_reserved::<#0107ca75ede54906>", .Lfunc_end27-"std_alloc::vec::lodged::Vec+T+Lodged::insert_reserved::<#0107ca75ede54906>"

	.section	".text.std_alloc::vec::lodged::Vec+T+Lodged::insert_reserved::<33'amqp_value_core::value::AMQPValue>","ax",@progbits
	.p2align	4
	.type	"std_alloc::vec::lodged::Vec+T+Lodged::insert_reserved::<33'amqp_value_core::value::AMQPValue>",@function
"std_alloc::vec::lodged::Vec+T+Lodged::insert_reserved::<33'amqp_value_core::value::AMQPValue>":
	pushq	%rbp
	pushq	%r15
	pushq	%r14
	pushq	%r12
	pushq	%rbx
	movzbl	(%rdx), %eax
	movzbl	1(%rdx), %ecx
	movzwl	2(%rdx), %r8d
	movups	4(%rdx), %xmm0
	movups	16(%rdx), %xmm1
	movups	%xmm1, -20(%rsp)
	movaps	%xmm0, -32(%rsp)
	movq	(%rdi), %rdx
	movq	8(%rdi), %r11
	movq	16(%rdi), %r9
	xorps	%xmm0, %xmm0
	movups	%xmm0, 8(%rdi)
	cmpq	$-1, %rsi
	je	.LBB28_1
	cmpq	%rsi, %r11
	je	.LBB28_24
	movq	%r11, %r10
	subq	%rsi, %r10
	movq	%r11, %rbx
	shlq	$5, %rbx
	addq	%rdx, %rbx
	.p2align	4
.LBB28_23:
	movl	-32(%rbx), %ebp
	movl	%ebp, (%rbx)
	movups	-28(%rbx), %xmm0
	movups	%xmm0, 4(%rbx)
	movups	-16(%rbx), %xmm0
	movups	%xmm0, 16(%rbx)
	addq	$-32, %rbx
	decq	%r10
	jne	.LBB28_23
.LBB28_24:
	incq	%r11
	movq	%r11, %r10
.LBB28_25:
	shlq	$5, %rsi
	movb	%al, (%rdx,%rsi)
	movb	%cl, 1(%rdx,%rsi)
	movw	%r8w, 2(%rdx,%rsi)
	movaps	-32(%rsp), %xmm0
	movups	%xmm0, 4(%rdx,%rsi)
	movups	-20(%rsp), %xmm0
	movups	%xmm0, 16(%rdx,%rsi)
	movq	%rdx, (%rdi)
	movq	%r10, 8(%rdi)
	movq	%r9, 16(%rdi)
	popq	%rbx
	popq	%r12
	popq	%r14
	popq	%r15
	popq	%rbp
	retq
.LBB28_1:
	leaq	1(%r11), %r10
	movq	%rdx, %rbx
	movq	%r10, %r15
	cmpq	$65, %r10
	jb	.LBB28_11
	xorl	%ebx, %ebx
	movq	%rdx, %r12
	jmp	.LBB28_3
	.p2align	4
.LBB28_8:
	leaq	64(%r14), %rbx
	movq	%r10, %r15
	subq	%rbx, %r15
	addq	$2048, %r12
	cmpq	$64, %r15
	jbe	.LBB28_9
.LBB28_3:
	movq	%rbx, %r14
	testq	%rbx, %rbx
	je	.LBB28_6
	movl	$1984, %ebx
	.p2align	4
.LBB28_5:
	movl	(%r12,%rbx), %ebp
	movl	%ebp, 32(%r12,%rbx)
	movups	4(%r12,%rbx), %xmm0
	movups	%xmm0, 36(%r12,%rbx)
	movups	16(%r12,%rbx), %xmm0
	movups	%xmm0, 48(%r12,%rbx)
	addq	$-32, %rbx
	cmpq	$-64, %rbx
	jne	.LBB28_5
	jmp	.LBB28_8
	.p2align	4
.LBB28_6:
	xorl	%ebx, %ebx
	.p2align	4
.LBB28_7:
	movl	-32(%r12,%rbx), %ebp
	movl	%ebp, (%r12,%rbx)
	movups	-28(%r12,%rbx), %xmm0
	movups	%xmm0, 4(%r12,%rbx)
	movups	-16(%r12,%rbx), %xmm0
	movups	%xmm0, 16(%r12,%rbx)
	movl	%ebp, 32(%r12,%rbx)
	movups	4(%r12,%rbx), %xmm0
	movups	16(%r12,%rbx), %xmm1
	movups	%xmm0, 36(%r12,%rbx)
	movups	%xmm1, 48(%r12,%rbx)
	addq	$64, %rbx
	cmpq	$2048, %rbx
	jne	.LBB28_7
	jmp	.LBB28_8
.LBB28_9:
	testq	%rbx, %rbx
	je	.LBB28_10
	cmpq	%rbx, %r10
	je	.LBB28_25
	movq	%r11, %rbx
	subq	%r14, %rbx
	addq	$-63, %rbx
	shlq	$5, %r11
	addq	%rdx, %r11
	.p2align	4
.LBB28_20:
	movl	-32(%r11), %ebp
	movl	%ebp, (%r11)
	movups	-28(%r11), %xmm0
	movups	%xmm0, 4(%r11)
	movups	-16(%r11), %xmm0
	movups	%xmm0, 16(%r11)
	addq	$-32, %r11
	decq	%rbx
	jne	.LBB28_20
	jmp	.LBB28_25
.LBB28_10:
	shlq	$5, %rbx
	addq	%rdx, %rbx
.LBB28_11:
	testq	%r10, %r10
	je	.LBB28_25
	cmpq	$1, %r15
	jne	.LBB28_14
	xorl	%r11d, %r11d
	jmp	.LBB28_17
.LBB28_14:
	movl	%r15d, %r14d
	andl	$126, %r14d
	xorl	%r11d, %r11d
	movq	%rbx, %r12
	.p2align	4
.LBB28_15:
	movl	-32(%r12), %ebp
	movl	%ebp, (%r12)
	movups	-28(%r12), %xmm0
	movups	%xmm0, 4(%r12)
	movups	-16(%r12), %xmm0
	movups	%xmm0, 16(%r12)
	movl	%ebp, 32(%r12)
	movups	4(%r12), %xmm0
	movups	16(%r12), %xmm1
	movups	%xmm0, 36(%r12)
	movups	%xmm1, 48(%r12)
	addq	$2, %r11
	addq	$64, %r12
	cmpq	%r11, %r14
	jne	.LBB28_15
	testb	$1, %r15b
	je	.LBB28_25
.LBB28_17:
	leaq	-32(%rbx), %r14
	shlq	$5, %r11
	movl	-32(%rbx,%r11), %ebp
	movl	%ebp, (%rbx,%r11)
	movups	4(%r14,%r11), %xmm0
	movups	16(%r14,%r11), %xmm1
	movups	%xmm0, 4(%rbx,%r11)
	movups	%xmm1, 16(%rbx,%r11)
	jmp	.LBB28_25
.Lfunc_end28:
	.size	"std_alloc::vec::lodged::Vec+T+Lodged::insert_reserved::<33'amqp_value_core::value::AMQPValue>", .Lfunc_end28-"std_alloc::vec::lodged::Vec+T+Lodged::insert_reserved::<33'amqp_value_core::value::AMQPValue>"

	.section	".text.amqp_value_core::amqp_value_core++value++AMQPValue+Destruct::drop","ax",@progbits
	.p2align	4
	.type	"amqp_value_core::amqp_value_core++value++AMQPValue+Destruct::drop",@function
"amqp_value_core::amqp_value_core++value++AMQPValue+Destruct::drop":
	pushq	%r15
	pushq	%r14
	pushq	%r13
	pushq	%r12
	pushq	%rbx
	subq	$32, %rsp
	movzbl	(%rdi), %eax
	movq	8(%rdi), %rbx
	movq	16(%rdi), %r14
	movq	24(%rdi), %r15
	leaq	.LJTI29_0(%rip), %rcx
	movslq	(%rcx,%rax,4), %rax
	addq	%rcx, %rax
	jmpq	*%rax
.LBB29_7:
	addq	$32, %rsp
	popq	%rbx
	popq	%r12
	popq	%r13
	popq	%r14
	popq	%r15
	retq
.LBB29_6:
	cmpb	$1, %bl
	jne	.LBB29_7
	movq	%r14, %rdi
	addq	$32, %rsp
	popq	%rbx
	popq	%r12
	popq	%r13
	popq	%r14
	popq	%r15
	jmp	"std_collections::btree::node::Node::destroy::<#17177a6839d38039>"
.LBB29_3:
	testq	%r14, %r14
	je	.LBB29_1
	leaq	4(%rsp), %r12
	leaq	4(%rbx), %r13
	.p2align	4
.LBB29_5:
	movl	-4(%r13), %eax
	movl	%eax, (%rsp)
	movups	(%r13), %xmm0
	movups	12(%r13), %xmm1
	movups	%xmm1, 12(%r12)
	movups	%xmm0, (%r12)
	movq	%rsp, %rdi
	callq	"amqp_value_core::amqp_value_core++value++AMQPValue+Destruct::drop"
	addq	$32, %r13
	decq	%r14
	jne	.LBB29_5
.LBB29_1:
	testq	%r15, %r15
	je	.LBB29_7
	movq	%rbx, %rdi
	addq	$32, %rsp
	popq	%rbx
	popq	%r12
	popq	%r13
	popq	%r14
	popq	%r15
	jmp	rattle_dealloc
.Lfunc_end29:
	.size	"amqp_value_core::amqp_value_core++value++AMQPValue+Destruct::drop", .Lfunc_end29-"amqp_value_core::amqp_value_core++value++AMQPValue+Destruct::drop"
	.section	".rodata.amqp_value_core::amqp_value_core++value++AMQPValue+Destruct::drop","a",@progbits
	.p2align	2, 0x0
.LJTI29_0:
	.long	.LBB29_7-.LJTI29_0
	.long	.LBB29_7-.LJTI29_0
	.long	.LBB29_7-.LJTI29_0
	.long	.LBB29_7-.LJTI29_0
	.long	.LBB29_7-.LJTI29_0
	.long	.LBB29_7-.LJTI29_0
	.long	.LBB29_7-.LJTI29_0
	.long	.LBB29_7-.LJTI29_0
	.long	.LBB29_7-.LJTI29_0
	.long	.LBB29_7-.LJTI29_0
	.long	.LBB29_7-.LJTI29_0
	.long	.LBB29_1-.LJTI29_0
	.long	.LBB29_1-.LJTI29_0
	.long	.LBB29_3-.LJTI29_0
	.long	.LBB29_7-.LJTI29_0
	.long	.LBB29_6-.LJTI29_0
	.long	.LBB29_1-.LJTI29_0
	.long	.LBB29_7-.LJTI29_0

	.section	".text.std_collections::btree::node::Node::destroy::<#17177a6839d38039>","ax",@progbits
	.p2align	4
	.type	"std_collections::btree::node::Node::destroy::<#17177a6839d38039>",@function
"std_collections::btree::node::Node::destroy::<#17177a6839d38039>":
	pushq	%rbp
	pushq	%r15
	pushq	%r14
	pushq	%r13
	pushq	%r12
	pushq	%rbx
	subq	$200, %rsp
	xorps	%xmm0, %xmm0
	movups	%xmm0, 172(%rsp)
	movaps	%xmm0, 160(%rsp)
	movzwl	(%rdi), %r15d
	movzwl	2(%rdi), %ecx
	xorl	%edx, %edx
	testw	%cx, %cx
	setne	%dl
	leaq	1(%r15), %rsi
	shll	$4, %edx
	leaq	848(%rdi), %rax
	leaq	368(%rdi), %r10
	leaq	8(%rdi), %r8
	xorl	%r9d, %r9d
	testw	%cx, %cx
	cmovneq	%rsi, %r9
	movq	%r8, 80(%rsp)
	movq	%r15, 88(%rsp)
	movq	$15, 96(%rsp)
	movq	%r10, 104(%rsp)
	movq	%r15, 112(%rsp)
	movq	$15, 120(%rsp)
	movq	%rax, 128(%rsp)
	movq	%r9, 136(%rsp)
	movq	%rdx, 144(%rsp)
	movq	%rdi, 152(%rsp)
	je	.LBB30_33
	leaq	136(%rsp), %r14
	testq	%r15, %r15
	je	.LBB30_27
	leaq	104(%rsp), %rbx
	leaq	4(%rsp), %r15
	jmp	.LBB30_4
	.p2align	4
.LBB30_3:
	movb	%bpl, (%rsp)
	movb	%r12b, 1(%rsp)
	movw	%r13w, 2(%rsp)
	movups	172(%rsp), %xmm0
	movups	%xmm0, 12(%r15)
	movaps	160(%rsp), %xmm0
	movups	%xmm0, (%r15)
	movq	%rsp, %rdi
	callq	"amqp_value_core::amqp_value_core++value++AMQPValue+Destruct::drop"
	cmpq	$0, 88(%rsp)
	je	.LBB30_26
.LBB30_4:
	movq	128(%rsp), %rcx
	movq	136(%rsp), %rax
	movq	(%rcx), %rdi
	decq	%rax
	cmpq	$257, %rax
	jb	.LBB30_10
	leaq	56(%rcx), %rsi
	xorl	%r9d, %r9d
	.p2align	4
.LBB30_6:
	xorl	%edx, %edx
	.p2align	4
.LBB30_7:
	movups	-48(%rsi,%rdx,8), %xmm0
	movups	-32(%rsi,%rdx,8), %xmm1
	movups	-16(%rsi,%rdx,8), %xmm2
	movups	(%rsi,%rdx,8), %xmm3
	movups	%xmm0, -56(%rsi,%rdx,8)
	movups	%xmm1, -40(%rsi,%rdx,8)
	movups	%xmm2, -24(%rsi,%rdx,8)
	movups	%xmm3, -8(%rsi,%rdx,8)
	addq	$8, %rdx
	cmpq	$256, %rdx
	jne	.LBB30_7
	addq	$256, %r9
	movq	%rax, %rdx
	subq	%r9, %rdx
	addq	$2048, %rsi
	cmpq	$256, %rdx
	ja	.LBB30_6
	leaq	(,%r9,8), %r8
	leaq	(%rcx,%r9,8), %rsi
	cmpq	%r9, %rax
	jne	.LBB30_11
	jmp	.LBB30_24
	.p2align	4
.LBB30_10:
	xorl	%r8d, %r8d
	movq	%rcx, %rsi
	movq	%rax, %rdx
	xorl	%r9d, %r9d
	cmpq	%r9, %rax
	je	.LBB30_24
.LBB30_11:
	leaq	(%rcx,%r8), %r9
	cmpq	$4, %rdx
	jb	.LBB30_12
	movq	%r9, %r10
	subq	%rsi, %r10
	addq	$-8, %r10
	cmpq	$32, %r10
	jae	.LBB30_15
.LBB30_12:
	xorl	%r10d, %r10d
.LBB30_18:
	movq	%rdx, %r12
	movq	%r10, %r11
	andq	$3, %r12
	je	.LBB30_21
	movq	%r10, %r11
	.p2align	4
.LBB30_20:
	movq	8(%rsi,%r11,8), %r13
	movq	%r13, (%r9,%r11,8)
	incq	%r11
	decq	%r12
	jne	.LBB30_20
.LBB30_21:
	subq	%rdx, %r10
	cmpq	$-4, %r10
	ja	.LBB30_24
	addq	%r8, %rcx
	addq	$24, %rcx
	.p2align	4
.LBB30_23:
	movq	8(%rsi,%r11,8), %r8
	movq	%r8, -24(%rcx,%r11,8)
	movq	16(%rsi,%r11,8), %r8
	movq	%r8, -16(%rcx,%r11,8)
	movq	24(%rsi,%r11,8), %r8
	movq	%r8, -8(%rcx,%r11,8)
	movq	32(%rsi,%r11,8), %r8
	movq	%r8, (%rcx,%r11,8)
	addq	$4, %r11
	cmpq	%r11, %rdx
	jne	.LBB30_23
	jmp	.LBB30_24
.LBB30_15:
	movl	%edx, %r10d
	andl	$508, %r10d
	leaq	(%rcx,%r8), %r11
	addq	$16, %r11
	xorl	%r12d, %r12d
	.p2align	4
.LBB30_16:
	movups	8(%rsi,%r12,8), %xmm0
	movups	24(%rsi,%r12,8), %xmm1
	movups	%xmm0, -16(%r11,%r12,8)
	movups	%xmm1, (%r11,%r12,8)
	addq	$4, %r12
	cmpq	%r12, %r10
	jne	.LBB30_16
	cmpq	%r10, %rdx
	jne	.LBB30_18
	.p2align	4
.LBB30_24:
	movq	144(%rsp), %rcx
	movq	%rax, 136(%rsp)
	movq	%rcx, 144(%rsp)
	callq	"std_collections::btree::node::Node::destroy::<#17177a6839d38039>"
	xorps	%xmm0, %xmm0
	movaps	%xmm0, 48(%rsp)
	movq	$0, 64(%rsp)
	movaps	%xmm0, (%rsp)
	movaps	%xmm0, 16(%rsp)
	leaq	48(%rsp), %rdi
	leaq	80(%rsp), %rsi
	xorl	%edx, %edx
	callq	"std_alloc::vec::Vec::remove::<#5ea93b9ddeb8aab1>"
	movq	%rsp, %rdi
	movq	%rbx, %rsi
	xorl	%edx, %edx
	callq	"std_alloc::vec::Vec::remove::<#cd5e489e5ed3d409>"
	movq	48(%rsp), %rdi
	movzbl	(%rsp), %ebp
	movzbl	1(%rsp), %r12d
	movzwl	2(%rsp), %r13d
	movups	(%r15), %xmm0
	movups	12(%r15), %xmm1
	movaps	%xmm0, 160(%rsp)
	movups	%xmm1, 172(%rsp)
	cmpq	$0, 64(%rsp)
	je	.LBB30_3
	callq	rattle_dealloc
	jmp	.LBB30_3
.LBB30_26:
	movq	128(%rsp), %rax
	movq	136(%rsp), %r15
	decq	%r15
.LBB30_27:
	xorps	%xmm0, %xmm0
	movups	%xmm0, (%r14)
	movq	(%rax), %rdi
	cmpq	$257, %r15
	jb	.LBB30_39
	leaq	56(%rax), %rdx
	xorl	%r8d, %r8d
	.p2align	4
.LBB30_29:
	xorl	%ecx, %ecx
	.p2align	4
.LBB30_30:
	movups	-48(%rdx,%rcx,8), %xmm0
	movups	-32(%rdx,%rcx,8), %xmm1
	movups	-16(%rdx,%rcx,8), %xmm2
	movups	(%rdx,%rcx,8), %xmm3
	movups	%xmm0, -56(%rdx,%rcx,8)
	movups	%xmm1, -40(%rdx,%rcx,8)
	movups	%xmm2, -24(%rdx,%rcx,8)
	movups	%xmm3, -8(%rdx,%rcx,8)
	addq	$8, %rcx
	cmpq	$256, %rcx
	jne	.LBB30_30
	addq	$256, %r8
	movq	%r15, %rcx
	subq	%r8, %rcx
	addq	$2048, %rdx
	cmpq	$256, %rcx
	ja	.LBB30_29
	leaq	(,%r8,8), %rsi
	leaq	(%rax,%r8,8), %rdx
	cmpq	%r8, %r15
	jne	.LBB30_40
	jmp	.LBB30_53
.LBB30_33:
	movq	%rdi, 40(%rsp)
	leaq	80(%rsp), %rdi
	callq	"std_collections::btree::row::Row::reverse::<#8af3e1b4e9e21b57>"
	testq	%r15, %r15
	je	.LBB30_38
	leaq	(%r15,%r15,2), %rax
	movq	40(%rsp), %rcx
	leaq	(%rcx,%rax,8), %r12
	shll	$5, %r15d
	leaq	340(%rcx), %r13
	jmp	.LBB30_36
	.p2align	4
.LBB30_35:
	movb	%bpl, (%rsp)
	movb	%bl, 1(%rsp)
	movw	%r14w, 2(%rsp)
	movups	60(%rsp), %xmm0
	leaq	4(%rsp), %rax
	movups	%xmm0, 12(%rax)
	movaps	48(%rsp), %xmm0
	movups	%xmm0, (%rax)
	movq	%rsp, %rdi
	callq	"amqp_value_core::amqp_value_core++value++AMQPValue+Destruct::drop"
	addq	$-24, %r12
	addq	$-32, %r15
	je	.LBB30_38
.LBB30_36:
	movq	-16(%r12), %rdi
	movzbl	-4(%r13,%r15), %ebp
	movzbl	-3(%r13,%r15), %ebx
	movzwl	-2(%r13,%r15), %r14d
	cmpq	$0, (%r12)
	movups	(%r13,%r15), %xmm0
	movups	12(%r13,%r15), %xmm1
	movups	%xmm1, 60(%rsp)
	movaps	%xmm0, 48(%rsp)
	je	.LBB30_35
	callq	rattle_dealloc
	jmp	.LBB30_35
.LBB30_38:
	movq	40(%rsp), %rdi
	jmp	.LBB30_54
.LBB30_39:
	xorl	%esi, %esi
	movq	%rax, %rdx
	movq	%r15, %rcx
	xorl	%r8d, %r8d
	cmpq	%r8, %r15
	je	.LBB30_53
.LBB30_40:
	leaq	(%rax,%rsi), %r8
	cmpq	$8, %rcx
	jb	.LBB30_41
	movq	%r8, %r9
	subq	%rdx, %r9
	addq	$-8, %r9
	cmpq	$32, %r9
	jae	.LBB30_44
.LBB30_41:
	xorl	%r9d, %r9d
.LBB30_47:
	movq	%rcx, %r11
	movq	%r9, %r10
	andq	$3, %r11
	je	.LBB30_50
	movq	%r9, %r10
	.p2align	4
.LBB30_49:
	movq	8(%rdx,%r10,8), %rbx
	movq	%rbx, (%r8,%r10,8)
	incq	%r10
	decq	%r11
	jne	.LBB30_49
.LBB30_50:
	subq	%rcx, %r9
	cmpq	$-4, %r9
	ja	.LBB30_53
	addq	%rsi, %rax
	addq	$24, %rax
	.p2align	4
.LBB30_52:
	movq	8(%rdx,%r10,8), %rsi
	movq	%rsi, -24(%rax,%r10,8)
	movq	16(%rdx,%r10,8), %rsi
	movq	%rsi, -16(%rax,%r10,8)
	movq	24(%rdx,%r10,8), %rsi
	movq	%rsi, -8(%rax,%r10,8)
	movq	32(%rdx,%r10,8), %rsi
	movq	%rsi, (%rax,%r10,8)
	addq	$4, %r10
	cmpq	%r10, %rcx
	jne	.LBB30_52
	jmp	.LBB30_53
.LBB30_44:
	movl	%ecx, %r9d
	andl	$508, %r9d
	leaq	(%rsi,%rax), %r10
	addq	$16, %r10
	xorl	%r11d, %r11d
	.p2align	4
.LBB30_45:
	movups	8(%rdx,%r11,8), %xmm0
	movups	24(%rdx,%r11,8), %xmm1
	movups	%xmm0, -16(%r10,%r11,8)
	movups	%xmm1, (%r10,%r11,8)
	addq	$4, %r11
	cmpq	%r11, %r9
	jne	.LBB30_45
	cmpq	%r9, %rcx
	jne	.LBB30_47
.LBB30_53:
	callq	"std_collections::btree::node::Node::destroy::<#17177a6839d38039>"
	movq	152(%rsp), %rdi
.LBB30_54:
	cmpw	$0, 2(%rdi)
	addq	$200, %rsp
	popq	%rbx
	popq	%r12
	popq	%r13
	popq	%r14
	popq	%r15
	popq	%rbp
	jmp	rattle_dealloc
.Lfunc_end30:
	.size	"std_collections::btree::node::Node::destroy::<#17177a6839d38039>", .Lfunc_end30-"std_collections::btree::node::Node::destroy::<#17177a6839d38039>"

	.section	".text.std_collections::btree::row::Row::reverse::<#8af3e1b4e9e21b57>","ax",@progbits
	.p2align	4
	.type	"std_collections::btree::row::Row::reverse::<#8af3e1b4e9e21b57>",@function
"std_collections::btree::row::Row::reverse::<#8af3e1b4e9e21b57>":
	pushq	%rbx
	subq	$32, %rsp
	movq	%rdi, %rbx
	movq	(%rdi), %rdi
	movq	8(%rbx), %rax
	cmpq	$15, %rax
	jbe	.LBB31_1
	movq	%rax, %rdx
	shrq	%rdx
	subq	%rdx, %rax
	leaq	(%rax,%rax,2), %rax
	leaq	(%rdi,%rax,8), %rsi
	callq	"core::slice::edits::mirror::<#0107ca75ede54906>"
	jmp	.LBB31_34
.LBB31_1:
	cmpq	$2, %rax
	jb	.LBB31_34
	leaq	-2(%rax), %rdx
	movq	%rdx, %rcx
	shrq	%rcx
	movq	%rax, %rsi
	decq	%rsi
	je	.LBB31_4
	leaq	(%rsi,%rsi,2), %rsi
	movq	16(%rdi), %r8
	movq	%r8, 16(%rsp)
	movups	(%rdi), %xmm0
	movaps	%xmm0, (%rsp)
	movq	16(%rdi,%rsi,8), %r8
	movups	(%rdi,%rsi,8), %xmm0
	movups	%xmm0, (%rdi)
	movq	%r8, 16(%rdi)
	movq	16(%rsp), %r8
	movq	%r8, 16(%rdi,%rsi,8)
	movaps	(%rsp), %xmm0
	movups	%xmm0, (%rdi,%rsi,8)
.LBB31_4:
	testq	%rcx, %rcx
	je	.LBB31_34
	cmpq	$1, %rdx
	jbe	.LBB31_6
	leaq	(%rdx,%rdx,2), %rdx
	movq	40(%rdi), %rsi
	movq	%rsi, 16(%rsp)
	movups	24(%rdi), %xmm0
	movaps	%xmm0, (%rsp)
	movq	16(%rdi,%rdx,8), %rsi
	movups	(%rdi,%rdx,8), %xmm0
	movups	%xmm0, 24(%rdi)
	movq	%rsi, 40(%rdi)
	movq	16(%rsp), %rsi
	movq	%rsi, 16(%rdi,%rdx,8)
	movaps	(%rsp), %xmm0
	movups	%xmm0, (%rdi,%rdx,8)
	jmp	.LBB31_9
.LBB31_6:
	testq	%rdx, %rdx
	jne	.LBB31_9
	leaq	(%rdx,%rdx,2), %rdx
	movq	16(%rdi,%rdx,8), %rsi
	movq	%rsi, 16(%rsp)
	movups	(%rdi,%rdx,8), %xmm0
	movaps	%xmm0, (%rsp)
	movq	40(%rdi), %rsi
	movups	24(%rdi), %xmm0
	movups	%xmm0, (%rdi,%rdx,8)
	movq	%rsi, 16(%rdi,%rdx,8)
	movq	16(%rsp), %rdx
	movq	%rdx, 40(%rdi)
	movaps	(%rsp), %xmm0
	movups	%xmm0, 24(%rdi)
.LBB31_9:
	cmpq	$1, %rcx
	je	.LBB31_34
	leaq	-3(%rax), %rdx
	cmpq	$2, %rdx
	jbe	.LBB31_11
	leaq	(%rdx,%rdx,2), %rdx
	movq	64(%rdi), %rsi
	movq	%rsi, 16(%rsp)
	movups	48(%rdi), %xmm0
	movaps	%xmm0, (%rsp)
	movq	16(%rdi,%rdx,8), %rsi
	movups	(%rdi,%rdx,8), %xmm0
	movups	%xmm0, 48(%rdi)
	movq	%rsi, 64(%rdi)
	movq	16(%rsp), %rsi
	movq	%rsi, 16(%rdi,%rdx,8)
	movaps	(%rsp), %xmm0
	movups	%xmm0, (%rdi,%rdx,8)
	jmp	.LBB31_14
.LBB31_11:
	je	.LBB31_14
	leaq	(%rdx,%rdx,2), %rdx
	movq	16(%rdi,%rdx,8), %rsi
	movq	%rsi, 16(%rsp)
	movups	(%rdi,%rdx,8), %xmm0
	movaps	%xmm0, (%rsp)
	movq	64(%rdi), %rsi
	movups	48(%rdi), %xmm0
	movups	%xmm0, (%rdi,%rdx,8)
	movq	%rsi, 16(%rdi,%rdx,8)
	movq	16(%rsp), %rdx
	movq	%rdx, 64(%rdi)
	movaps	(%rsp), %xmm0
	movups	%xmm0, 48(%rdi)
.LBB31_14:
	cmpq	$2, %rcx
	je	.LBB31_34
	leaq	-4(%rax), %rdx
	cmpq	$3, %rdx
	jbe	.LBB31_16
	leaq	(%rdx,%rdx,2), %rdx
	movq	88(%rdi), %rsi
	movq	%rsi, 16(%rsp)
	movups	72(%rdi), %xmm0
	movaps	%xmm0, (%rsp)
	movq	16(%rdi,%rdx,8), %rsi
	movups	(%rdi,%rdx,8), %xmm0
	movups	%xmm0, 72(%rdi)
	movq	%rsi, 88(%rdi)
	movq	16(%rsp), %rsi
	movq	%rsi, 16(%rdi,%rdx,8)
	movaps	(%rsp), %xmm0
	movups	%xmm0, (%rdi,%rdx,8)
	jmp	.LBB31_19
.LBB31_16:
	je	.LBB31_19
	leaq	(%rdx,%rdx,2), %rdx
	movq	16(%rdi,%rdx,8), %rsi
	movq	%rsi, 16(%rsp)
	movups	(%rdi,%rdx,8), %xmm0
	movaps	%xmm0, (%rsp)
	movq	88(%rdi), %rsi
	movups	72(%rdi), %xmm0
	movups	%xmm0, (%rdi,%rdx,8)
	movq	%rsi, 16(%rdi,%rdx,8)
	movq	16(%rsp), %rdx
	movq	%rdx, 88(%rdi)
	movaps	(%rsp), %xmm0
	movups	%xmm0, 72(%rdi)
.LBB31_19:
	cmpq	$3, %rcx
	je	.LBB31_34
	leaq	-5(%rax), %rdx
	cmpq	$4, %rdx
	jbe	.LBB31_21
	leaq	(%rdx,%rdx,2), %rdx
	movq	112(%rdi), %rsi
	movq	%rsi, 16(%rsp)
	movups	96(%rdi), %xmm0
	movaps	%xmm0, (%rsp)
	movq	16(%rdi,%rdx,8), %rsi
	movups	(%rdi,%rdx,8), %xmm0
	movups	%xmm0, 96(%rdi)
	movq	%rsi, 112(%rdi)
	movq	16(%rsp), %rsi
	movq	%rsi, 16(%rdi,%rdx,8)
	movaps	(%rsp), %xmm0
	movups	%xmm0, (%rdi,%rdx,8)
	jmp	.LBB31_24
.LBB31_21:
	je	.LBB31_24
	leaq	(%rdx,%rdx,2), %rdx
	movq	16(%rdi,%rdx,8), %rsi
	movq	%rsi, 16(%rsp)
	movups	(%rdi,%rdx,8), %xmm0
	movaps	%xmm0, (%rsp)
	movq	112(%rdi), %rsi
	movups	96(%rdi), %xmm0
	movups	%xmm0, (%rdi,%rdx,8)
	movq	%rsi, 16(%rdi,%rdx,8)
	movq	16(%rsp), %rdx
	movq	%rdx, 112(%rdi)
	movaps	(%rsp), %xmm0
	movups	%xmm0, 96(%rdi)
.LBB31_24:
	cmpq	$4, %rcx
	je	.LBB31_34
	leaq	-6(%rax), %rdx
	cmpq	$5, %rdx
	jbe	.LBB31_26
	leaq	(%rdx,%rdx,2), %rdx
	movq	136(%rdi), %rsi
	movq	%rsi, 16(%rsp)
	movups	120(%rdi), %xmm0
	movaps	%xmm0, (%rsp)
	movq	16(%rdi,%rdx,8), %rsi
	movups	(%rdi,%rdx,8), %xmm0
	movups	%xmm0, 120(%rdi)
	movq	%rsi, 136(%rdi)
	movq	16(%rsp), %rsi
	movq	%rsi, 16(%rdi,%rdx,8)
	movaps	(%rsp), %xmm0
	movups	%xmm0, (%rdi,%rdx,8)
	jmp	.LBB31_29
.LBB31_26:
	je	.LBB31_29
	leaq	(%rdx,%rdx,2), %rdx
	movq	16(%rdi,%rdx,8), %rsi
	movq	%rsi, 16(%rsp)
	movups	(%rdi,%rdx,8), %xmm0
	movaps	%xmm0, (%rsp)
	movq	136(%rdi), %rsi
	movups	120(%rdi), %xmm0
	movups	%xmm0, (%rdi,%rdx,8)
	movq	%rsi, 16(%rdi,%rdx,8)
	movq	16(%rsp), %rdx
	movq	%rdx, 136(%rdi)
	movaps	(%rsp), %xmm0
	movups	%xmm0, 120(%rdi)
.LBB31_29:
	cmpq	$5, %rcx
	je	.LBB31_34
	addq	$-7, %rax
	cmpq	$6, %rax
	jbe	.LBB31_31
	leaq	(%rax,%rax,2), %rax
	movq	160(%rdi), %rcx
	movq	%rcx, 16(%rsp)
	movups	144(%rdi), %xmm0
	movaps	%xmm0, (%rsp)
	movq	16(%rdi,%rax,8), %rcx
	movups	(%rdi,%rax,8), %xmm0
	movups	%xmm0, 144(%rdi)
	movq	%rcx, 160(%rdi)
	movq	16(%rsp), %rcx
	movq	%rcx, 16(%rdi,%rax,8)
	movaps	(%rsp), %xmm0
	movups	%xmm0, (%rdi,%rax,8)
	jmp	.LBB31_34
.LBB31_31:
	je	.LBB31_34
	leaq	(%rax,%rax,2), %rax
	movq	16(%rdi,%rax,8), %rcx
	movq	%rcx, 16(%rsp)
	movups	(%rdi,%rax,8), %xmm0
	movaps	%xmm0, (%rsp)
	movq	160(%rdi), %rcx
	movups	144(%rdi), %xmm0
	movups	%xmm0, (%rdi,%rax,8)
	movq	%rcx, 16(%rdi,%rax,8)
	movq	16(%rsp), %rax
	movq	%rax, 160(%rdi)
	movaps	(%rsp), %xmm0
	movups	%xmm0, 144(%rdi)
.LBB31_34:
	movq	24(%rbx), %rdi
	movq	32(%rbx), %rsi
	cmpq	$15, %rsi
	jbe	.LBB31_35
	movq	%rsi, %rdx
	shrq	%rdx
	subq	%rdx, %rsi
	shlq	$5, %rsi
	addq	%rdi, %rsi
	addq	$32, %rsp
	popq	%rbx
	jmp	"core::slice::edits::mirror::<33'amqp_value_core::value::AMQPValue>"
.LBB31_35:
	cmpq	$2, %rsi
	jb	.LBB31_42
	leaq	-2(%rsi), %rax
	shrq	%rax
	incq	%rax
	movq	%rsi, %rcx
	shlq	$5, %rcx
	addq	%rdi, %rcx
	addq	$-28, %rcx
	addq	$4, %rdi
	decq	%rsi
	xorl	%edx, %edx
	jmp	.LBB31_37
	.p2align	4
.LBB31_38:
	movl	-4(%rdi), %r8d
	movups	(%rdi), %xmm0
	movaps	%xmm0, (%rsp)
	movups	12(%rdi), %xmm0
	movups	%xmm0, 12(%rsp)
	movl	-4(%rcx), %r9d
	movl	%r9d, -4(%rdi)
	movl	24(%rcx), %r9d
	movq	16(%rcx), %r10
	movups	(%rcx), %xmm0
	movups	%xmm0, (%rdi)
	movq	%r10, 16(%rdi)
	movl	%r9d, 24(%rdi)
	movl	%r8d, -4(%rcx)
	movaps	(%rsp), %xmm0
	movups	%xmm0, (%rcx)
	movups	12(%rsp), %xmm0
	movups	%xmm0, 12(%rcx)
.LBB31_41:
	incq	%rdx
	addq	$32, %rdi
	addq	$-32, %rcx
	decq	%rsi
	cmpq	%rdx, %rax
	je	.LBB31_42
.LBB31_37:
	cmpq	%rsi, %rdx
	jb	.LBB31_38
	jbe	.LBB31_41
	movl	-4(%rcx), %r8d
	movups	(%rcx), %xmm0
	movaps	%xmm0, (%rsp)
	movups	12(%rcx), %xmm0
	movups	%xmm0, 12(%rsp)
	movl	-4(%rdi), %r9d
	movl	%r9d, -4(%rcx)
	movl	24(%rdi), %r9d
	movq	16(%rdi), %r10
	movups	(%rdi), %xmm0
	movups	%xmm0, (%rcx)
	movq	%r10, 16(%rcx)
	movl	%r9d, 24(%rcx)
	movl	%r8d, -4(%rdi)
	movaps	(%rsp), %xmm0
	movups	%xmm0, (%rdi)
	movups	12(%rsp), %xmm0
	movups	%xmm0, 12(%rdi)
	jmp	.LBB31_41
.LBB31_42:
	addq	$32, %rsp
	popq	%rbx
	retq
.Lfunc_end31:
	.size	"std_collections::btree::row::Row::reverse::<#8af3e1b4e9e21b57>", .Lfunc_end31-"std_collections::btree::row::Row::reverse::<#8af3e1b4e9e21b57>"

	.section	".text.core::slice::edits::mirror::<#0107ca75ede54906>","ax",@progbits
	.p2align	4
	.type	"core::slice::edits::mirror::<#0107ca75ede54906>",@function
"core::slice::edits::mirror::<#0107ca75ede54906>":
	leaq	(%rdx,%rdx,2), %rax
	leaq	(%rsi,%rax,8), %rax
	addq	$-24, %rax
	.p2align	4
.LBB32_1:
	movq	16(%rdi), %rcx
	movq	%rcx, -8(%rsp)
	movups	(%rdi), %xmm0
	movaps	%xmm0, -24(%rsp)
	movq	16(%rax), %rcx
	movups	(%rax), %xmm0
	movups	%xmm0, (%rdi)
	movq	%rcx, 16(%rdi)
	movq	-8(%rsp), %rcx
	movq	%rcx, 16(%rax)
	movaps	-24(%rsp), %xmm0
	movups	%xmm0, (%rax)
	addq	$24, %rdi
	addq	$-24, %rax
	decq	%rdx
	jne	.LBB32_1
	retq
.Lfunc_end32:
	.size	"core::slice::edits::mirror::<#0107ca75ede54906>", .Lfunc_end32-"core::slice::edits::mirror::<#0107ca75ede54906>"

	.section	".text.core::slice::edits::mirror::<33'amqp_value_core::value::AMQPValue>","ax",@progbits
	.p2align	4
	.type	"core::slice::edits::mirror::<33'amqp_value_core::value::AMQPValue>",@function
"core::slice::edits::mirror::<33'amqp_value_core::value::AMQPValue>":
	addq	$4, %rdi
	movq	%rdx, %rax
	shlq	$5, %rax
	addq	%rsi, %rax
	addq	$-28, %rax
	.p2align	4
.LBB33_1:
	movl	-4(%rdi), %ecx
	movups	(%rdi), %xmm0
	movaps	%xmm0, -72(%rsp)
	movups	12(%rdi), %xmm0
	movups	%xmm0, -60(%rsp)
	movl	-4(%rax), %esi
	movups	(%rax), %xmm0
	movaps	%xmm0, -40(%rsp)
	movups	12(%rax), %xmm0
	movups	%xmm0, -28(%rsp)
	movl	%esi, -4(%rdi)
	movaps	-40(%rsp), %xmm0
	movups	%xmm0, (%rdi)
	movups	-28(%rsp), %xmm0
	movups	%xmm0, 12(%rdi)
	movl	%ecx, -4(%rax)
	movaps	-72(%rsp), %xmm0
	movups	%xmm0, (%rax)
	movups	-60(%rsp), %xmm0
	movups	%xmm0, 12(%rax)
	addq	$32, %rdi
	addq	$-32, %rax
	decq	%rdx
	jne	.LBB33_1
	retq
.Lfunc_end33:
	.size	"core::slice::edits::mirror::<33'amqp_value_core::value::AMQPValue>", .Lfunc_end33-"core::slice::edits::mirror::<33'amqp_value_core::value::AMQPValue>"

	.section	".text.unlikely.std_alloc::vec::Vec::grow_amortized::<#b98889d35b5d373b>","ax",@progbits
	.p2align	4
	.type	"std_alloc::vec::Vec::grow_amortized::<#b98889d35b5d373b>",@function
"std_alloc::vec::Vec::grow_amortized::<#b98889d35b5d373b>":
	movq	8(%rdi), %rcx
	cmpq	$-1, %rcx
	je	.LBB34_5
	pushq	%r14
	pushq	%rbx
	pushq	%rax
	movq	16(%rdi), %rax
	cmpq	$4, %rcx
	movl	$3, %ebx
	cmovaeq	%rcx, %rbx
	incq	%rbx
	movq	%rax, %rdx
	shrq	$62, %rdx
	leaq	(%rax,%rax), %rcx
	cmpq	%rcx, %rbx
	cmovaq	%rbx, %rcx
	testq	%rdx, %rdx
	cmoveq	%rcx, %rbx
	movabsq	$164703072086692425, %rdx
	cmpq	%rdx, %rbx
	ja	.LBB34_6
	testq	%rax, %rax
	je	.LBB34_8
	movq	%rdi, %r14
	movq	(%rdi), %rdi
	imulq	$56, %rbx, %rsi
	movl	$8, %edx
	callq	rattle_realloc
	testb	$1, %al
	je	.LBB34_6
.LBB34_9:
	movq	%rdx, (%r14)
	movq	%rbx, 16(%r14)
	movb	$1, %al
	addq	$8, %rsp
	popq	%rbx
	popq	%r14
	retq
.LBB34_5:
	xorl	%eax, %eax
	retq
.LBB34_8:
	movq	%rdi, %r14
	imulq	$56, %rcx, %rdi
	movl	$8, %esi
	callq	rattle_alloc
	testb	$1, %al
	jne	.LBB34_9
.LBB34_6:
	xorl	%eax, %eax
	addq	$8, %rsp
	popq	%rbx
	popq	%r14
	retq
.Lfunc_end34:
	.size	"std_alloc::vec::Vec::grow_amortized::<#b98889d35b5d373b>", .Lfunc_end34-"std_alloc::vec::Vec::grow_amortized::<#b98889d35b5d373b>"

	.section	".text.amq_protocol_types::amqp_value_core++value++AMQPValue+Destruct::drop","ax",@progbits
	.p2align	4
	.type	"amq_protocol_types::amqp_value_core++value++AMQPValue+Destruct::drop",@function
"amq_protocol_types::amqp_value_core++value++AMQPValue+Destruct::drop":
	pushq	%r15
	pushq	%r14
	pushq	%r13
	pushq	%r12
	pushq	%rbx
	subq	$32, %rsp
	movzbl	(%rdi), %eax
	movq	8(%rdi), %rbx
	movq	16(%rdi), %r14
	movq	24(%rdi), %r15
	leaq	.LJTI35_0(%rip), %rcx
	movslq	(%rcx,%rax,4), %rax
	addq	%rcx, %rax
	jmpq	*%rax
.LBB35_7:
	addq	$32, %rsp
	popq	%rbx
	popq	%r12
	popq	%r13
	popq	%r14
	popq	%r15
	retq
.LBB35_6:
	cmpb	$1, %bl
	jne	.LBB35_7
	movq	%r14, %rdi
	addq	$32, %rsp
	popq	%rbx
	popq	%r12
	popq	%r13
	popq	%r14
	popq	%r15
	jmp	"std_collections::btree::node::Node::destroy::<#c8513c7b35bfb086>"
.LBB35_3:
	testq	%r14, %r14
	je	.LBB35_1
	leaq	4(%rsp), %r12
	leaq	4(%rbx), %r13
	.p2align	4
.LBB35_5:
	movl	-4(%r13), %eax
	movl	%eax, (%rsp)
	movups	(%r13), %xmm0
	movups	12(%r13), %xmm1
	movups	%xmm1, 12(%r12)
	movups	%xmm0, (%r12)
	movq	%rsp, %rdi
	callq	"amq_protocol_types::amqp_value_core++value++AMQPValue+Destruct::drop"
	addq	$32, %r13
	decq	%r14
	jne	.LBB35_5
.LBB35_1:
	testq	%r15, %r15
	je	.LBB35_7
	movq	%rbx, %rdi
	addq	$32, %rsp
	popq	%rbx
	popq	%r12
	popq	%r13
	popq	%r14
	popq	%r15
	jmp	rattle_dealloc
.Lfunc_end35:
	.size	"amq_protocol_types::amqp_value_core++value++AMQPValue+Destruct::drop", .Lfunc_end35-"amq_protocol_types::amqp_value_core++value++AMQPValue+Destruct::drop"
	.section	".rodata.amq_protocol_types::amqp_value_core++value++AMQPValue+Destruct::drop","a",@progbits
	.p2align	2, 0x0
.LJTI35_0:
	.long	.LBB35_7-.LJTI35_0
	.long	.LBB35_7-.LJTI35_0
	.long	.LBB35_7-.LJTI35_0
	.long	.LBB35_7-.LJTI35_0
	.long	.LBB35_7-.LJTI35_0
	.long	.LBB35_7-.LJTI35_0
	.long	.LBB35_7-.LJTI35_0
	.long	.LBB35_7-.LJTI35_0
	.long	.LBB35_7-.LJTI35_0
	.long	.LBB35_7-.LJTI35_0
	.long	.LBB35_7-.LJTI35_0
	.long	.LBB35_1-.LJTI35_0
	.long	.LBB35_1-.LJTI35_0
	.long	.LBB35_3-.LJTI35_0
	.long	.LBB35_7-.LJTI35_0
	.long	.LBB35_6-.LJTI35_0
	.long	.LBB35_1-.LJTI35_0
	.long	.LBB35_7-.LJTI35_0

	.section	".text.std_collections::btree::node::Node::destroy::<#c8513c7b35bfb086>","ax",@progbits
	.p2align	4
	.type	"std_collections::btree::node::Node::destroy::<#c8513c7b35bfb086>",@function
"std_collections::btree::node::Node::destroy::<#c8513c7b35bfb086>":
	pushq	%rbp
	pushq	%r15
	pushq	%r14
	pushq	%r13
	pushq	%r12
	pushq	%rbx
	subq	$200, %rsp
	xorps	%xmm0, %xmm0
	movups	%xmm0, 172(%rsp)
	movaps	%xmm0, 160(%rsp)
	movzwl	(%rdi), %r15d
	movzwl	2(%rdi), %ecx
	xorl	%edx, %edx
	testw	%cx, %cx
	setne	%dl
	leaq	1(%r15), %rsi
	shll	$4, %edx
	leaq	848(%rdi), %rax
	leaq	368(%rdi), %r10
	leaq	8(%rdi), %r8
	xorl	%r9d, %r9d
	testw	%cx, %cx
	cmovneq	%rsi, %r9
	movq	%r8, 80(%rsp)
	movq	%r15, 88(%rsp)
	movq	$15, 96(%rsp)
	movq	%r10, 104(%rsp)
	movq	%r15, 112(%rsp)
	movq	$15, 120(%rsp)
	movq	%rax, 128(%rsp)
	movq	%r9, 136(%rsp)
	movq	%rdx, 144(%rsp)
	movq	%rdi, 152(%rsp)
	je	.LBB36_33
	leaq	136(%rsp), %r14
	testq	%r15, %r15
	je	.LBB36_27
	leaq	104(%rsp), %rbx
	leaq	4(%rsp), %r15
	jmp	.LBB36_4
	.p2align	4
.LBB36_3:
	movb	%bpl, (%rsp)
	movb	%r12b, 1(%rsp)
	movw	%r13w, 2(%rsp)
	movups	172(%rsp), %xmm0
	movups	%xmm0, 12(%r15)
	movaps	160(%rsp), %xmm0
	movups	%xmm0, (%r15)
	movq	%rsp, %rdi
	callq	"amq_protocol_types::amqp_value_core++value++AMQPValue+Destruct::drop"
	cmpq	$0, 88(%rsp)
	je	.LBB36_26
.LBB36_4:
	movq	128(%rsp), %rcx
	movq	136(%rsp), %rax
	movq	(%rcx), %rdi
	decq	%rax
	cmpq	$257, %rax
	jb	.LBB36_10
	leaq	56(%rcx), %rsi
	xorl	%r9d, %r9d
	.p2align	4
.LBB36_6:
	xorl	%edx, %edx
	.p2align	4
.LBB36_7:
	movups	-48(%rsi,%rdx,8), %xmm0
	movups	-32(%rsi,%rdx,8), %xmm1
	movups	-16(%rsi,%rdx,8), %xmm2
	movups	(%rsi,%rdx,8), %xmm3
	movups	%xmm0, -56(%rsi,%rdx,8)
	movups	%xmm1, -40(%rsi,%rdx,8)
	movups	%xmm2, -24(%rsi,%rdx,8)
	movups	%xmm3, -8(%rsi,%rdx,8)
	addq	$8, %rdx
	cmpq	$256, %rdx
	jne	.LBB36_7
	addq	$256, %r9
	movq	%rax, %rdx
	subq	%r9, %rdx
	addq	$2048, %rsi
	cmpq	$256, %rdx
	ja	.LBB36_6
	leaq	(,%r9,8), %r8
	leaq	(%rcx,%r9,8), %rsi
	cmpq	%r9, %rax
	jne	.LBB36_11
	jmp	.LBB36_24
	.p2align	4
.LBB36_10:
	xorl	%r8d, %r8d
	movq	%rcx, %rsi
	movq	%rax, %rdx
	xorl	%r9d, %r9d
	cmpq	%r9, %rax
	je	.LBB36_24
.LBB36_11:
	leaq	(%rcx,%r8), %r9
	cmpq	$4, %rdx
	jb	.LBB36_12
	movq	%r9, %r10
	subq	%rsi, %r10
	addq	$-8, %r10
	cmpq	$32, %r10
	jae	.LBB36_15
.LBB36_12:
	xorl	%r10d, %r10d
.LBB36_18:
	movq	%rdx, %r12
	movq	%r10, %r11
	andq	$3, %r12
	je	.LBB36_21
	movq	%r10, %r11
	.p2align	4
.LBB36_20:
	movq	8(%rsi,%r11,8), %r13
	movq	%r13, (%r9,%r11,8)
	incq	%r11
	decq	%r12
	jne	.LBB36_20
.LBB36_21:
	subq	%rdx, %r10
	cmpq	$-4, %r10
	ja	.LBB36_24
	addq	%r8, %rcx
	addq	$24, %rcx
	.p2align	4
.LBB36_23:
	movq	8(%rsi,%r11,8), %r8
	movq	%r8, -24(%rcx,%r11,8)
	movq	16(%rsi,%r11,8), %r8
	movq	%r8, -16(%rcx,%r11,8)
	movq	24(%rsi,%r11,8), %r8
	movq	%r8, -8(%rcx,%r11,8)
	movq	32(%rsi,%r11,8), %r8
	movq	%r8, (%rcx,%r11,8)
	addq	$4, %r11
	cmpq	%r11, %rdx
	jne	.LBB36_23
	jmp	.LBB36_24
.LBB36_15:
	movl	%edx, %r10d
	andl	$508, %r10d
	leaq	(%rcx,%r8), %r11
	addq	$16, %r11
	xorl	%r12d, %r12d
	.p2align	4
.LBB36_16:
	movups	8(%rsi,%r12,8), %xmm0
	movups	24(%rsi,%r12,8), %xmm1
	movups	%xmm0, -16(%r11,%r12,8)
	movups	%xmm1, (%r11,%r12,8)
	addq	$4, %r12
	cmpq	%r12, %r10
	jne	.LBB36_16
	cmpq	%r10, %rdx
	jne	.LBB36_18
	.p2align	4
.LBB36_24:
	movq	144(%rsp), %rcx
	movq	%rax, 136(%rsp)
	movq	%rcx, 144(%rsp)
	callq	"std_collections::btree::node::Node::destroy::<#c8513c7b35bfb086>"
	xorps	%xmm0, %xmm0
	movaps	%xmm0, 48(%rsp)
	movq	$0, 64(%rsp)
	movaps	%xmm0, (%rsp)
	movaps	%xmm0, 16(%rsp)
	leaq	48(%rsp), %rdi
	leaq	80(%rsp), %rsi
	xorl	%edx, %edx
	callq	"std_alloc::vec::Vec::remove::<#5ea93b9ddeb8aab1>"
	movq	%rsp, %rdi
	movq	%rbx, %rsi
	xorl	%edx, %edx
	callq	"std_alloc::vec::Vec::remove::<#cd5e489e5ed3d409>"
	movq	48(%rsp), %rdi
	movzbl	(%rsp), %ebp
	movzbl	1(%rsp), %r12d
	movzwl	2(%rsp), %r13d
	movups	(%r15), %xmm0
	movups	12(%r15), %xmm1
	movaps	%xmm0, 160(%rsp)
	movups	%xmm1, 172(%rsp)
	cmpq	$0, 64(%rsp)
	je	.LBB36_3
	callq	rattle_dealloc
	jmp	.LBB36_3
.LBB36_26:
	movq	128(%rsp), %rax
	movq	136(%rsp), %r15
	decq	%r15
.LBB36_27:
	xorps	%xmm0, %xmm0
	movups	%xmm0, (%r14)
	movq	(%rax), %rdi
	cmpq	$257, %r15
	jb	.LBB36_39
	leaq	56(%rax), %rdx
	xorl	%r8d, %r8d
	.p2align	4
.LBB36_29:
	xorl	%ecx, %ecx
	.p2align	4
.LBB36_30:
	movups	-48(%rdx,%rcx,8), %xmm0
	movups	-32(%rdx,%rcx,8), %xmm1
	movups	-16(%rdx,%rcx,8), %xmm2
	movups	(%rdx,%rcx,8), %xmm3
	movups	%xmm0, -56(%rdx,%rcx,8)
	movups	%xmm1, -40(%rdx,%rcx,8)
	movups	%xmm2, -24(%rdx,%rcx,8)
	movups	%xmm3, -8(%rdx,%rcx,8)
	addq	$8, %rcx
	cmpq	$256, %rcx
	jne	.LBB36_30
	addq	$256, %r8
	movq	%r15, %rcx
	subq	%r8, %rcx
	addq	$2048, %rdx
	cmpq	$256, %rcx
	ja	.LBB36_29
	leaq	(,%r8,8), %rsi
	leaq	(%rax,%r8,8), %rdx
	cmpq	%r8, %r15
	jne	.LBB36_40
	jmp	.LBB36_53
.LBB36_33:
	movq	%rdi, 40(%rsp)
	leaq	80(%rsp), %rdi
	callq	"std_collections::btree::row::Row::reverse::<#8af3e1b4e9e21b57>"
	testq	%r15, %r15
	je	.LBB36_38
	leaq	(%r15,%r15,2), %rax
	movq	40(%rsp), %rcx
	leaq	(%rcx,%rax,8), %r12
	shll	$5, %r15d
	leaq	340(%rcx), %r13
	jmp	.LBB36_36
	.p2align	4
.LBB36_35:
	movb	%bpl, (%rsp)
	movb	%bl, 1(%rsp)
	movw	%r14w, 2(%rsp)
	movups	60(%rsp), %xmm0
	leaq	4(%rsp), %rax
	movups	%xmm0, 12(%rax)
	movaps	48(%rsp), %xmm0
	movups	%xmm0, (%rax)
	movq	%rsp, %rdi
	callq	"amq_protocol_types::amqp_value_core++value++AMQPValue+Destruct::drop"
	addq	$-24, %r12
	addq	$-32, %r15
	je	.LBB36_38
.LBB36_36:
	movq	-16(%r12), %rdi
	movzbl	-4(%r13,%r15), %ebp
	movzbl	-3(%r13,%r15), %ebx
	movzwl	-2(%r13,%r15), %r14d
	cmpq	$0, (%r12)
	movups	(%r13,%r15), %xmm0
	movups	12(%r13,%r15), %xmm1
	movups	%xmm1, 60(%rsp)
	movaps	%xmm0, 48(%rsp)
	je	.LBB36_35
	callq	rattle_dealloc
	jmp	.LBB36_35
.LBB36_38:
	movq	40(%rsp), %rdi
	jmp	.LBB36_54
.LBB36_39:
	xorl	%esi, %esi
	movq	%rax, %rdx
	movq	%r15, %rcx
	xorl	%r8d, %r8d
	cmpq	%r8, %r15
	je	.LBB36_53
.LBB36_40:
	leaq	(%rax,%rsi), %r8
	cmpq	$8, %rcx
	jb	.LBB36_41
	movq	%r8, %r9
	subq	%rdx, %r9
	addq	$-8, %r9
	cmpq	$32, %r9
	jae	.LBB36_44
.LBB36_41:
	xorl	%r9d, %r9d
.LBB36_47:
	movq	%rcx, %r11
	movq	%r9, %r10
	andq	$3, %r11
	je	.LBB36_50
	movq	%r9, %r10
	.p2align	4
.LBB36_49:
	movq	8(%rdx,%r10,8), %rbx
	movq	%rbx, (%r8,%r10,8)
	incq	%r10
	decq	%r11
	jne	.LBB36_49
.LBB36_50:
	subq	%rcx, %r9
	cmpq	$-4, %r9
	ja	.LBB36_53
	addq	%rsi, %rax
	addq	$24, %rax
	.p2align	4
.LBB36_52:
	movq	8(%rdx,%r10,8), %rsi
	movq	%rsi, -24(%rax,%r10,8)
	movq	16(%rdx,%r10,8), %rsi
	movq	%rsi, -16(%rax,%r10,8)
	movq	24(%rdx,%r10,8), %rsi
	movq	%rsi, -8(%rax,%r10,8)
	movq	32(%rdx,%r10,8), %rsi
	movq	%rsi, (%rax,%r10,8)
	addq	$4, %r10
	cmpq	%r10, %rcx
	jne	.LBB36_52
	jmp	.LBB36_53
.LBB36_44:
	movl	%ecx, %r9d
	andl	$508, %r9d
	leaq	(%rsi,%rax), %r10
	addq	$16, %r10
	xorl	%r11d, %r11d
	.p2align	4
.LBB36_45:
	movups	8(%rdx,%r11,8), %xmm0
	movups	24(%rdx,%r11,8), %xmm1
	movups	%xmm0, -16(%r10,%r11,8)
	movups	%xmm1, (%r10,%r11,8)
	addq	$4, %r11
	cmpq	%r11, %r9
	jne	.LBB36_45
	cmpq	%r9, %rcx
	jne	.LBB36_47
.LBB36_53:
	callq	"std_collections::btree::node::Node::destroy::<#c8513c7b35bfb086>"
	movq	152(%rsp), %rdi
.LBB36_54:
	cmpw	$0, 2(%rdi)
	addq	$200, %rsp
	popq	%rbx
	popq	%r12
	popq	%r13
	popq	%r14
	popq	%r15
	popq	%rbp
	jmp	rattle_dealloc
.Lfunc_end36:
	.size	"std_collections::btree::node::Node::destroy::<#c8513c7b35bfb086>", .Lfunc_end36-"std_collections::btree::node::Node::destroy::<#c8513c7b35bfb086>"

	.section	".text.amqp_value_core::types::field_table::FieldTable::from_pairs","ax",@progbits
	.p2align	4
	.type	"amqp_value_core::types::field_table::FieldTable::from_pairs",@function
"amqp_value_core::types::field_table::FieldTable::from_pairs":
	pushq	%rbp
	pushq	%r15
	pushq	%r14
	pushq	%r13
	pushq	%r12
	pushq	%rbx
	subq	$520, %rsp
	movq	%rdi, %rbx
	movq	(%rsi), %rdi
	movq	8(%rsi), %r12
	movq	16(%rsi), %r11
	testq	%r12, %r12
	je	.LBB37_20
	movq	%rbx, 168(%rsp)
	xorps	%xmm0, %xmm0
	movaps	%xmm0, 272(%rsp)
	movaps	%xmm0, 256(%rsp)
	movq	$0, 288(%rsp)
	leaq	28(%rdi), %rsi
	leaq	144(%rsp), %r14
	xorl	%ecx, %ecx
	xorl	%r10d, %r10d
	xorl	%eax, %eax
	xorl	%r15d, %r15d
	movq	%rsi, 136(%rsp)
.LBB37_2:
	movq	%r12, %rbp
	movq	%rax, %rbx
	imulq	$56, %r15, %rdx
	movq	%r14, %r12
	addq	%r14, %rdx
	movq	%r15, %r8
	subq	%rcx, %r8
	imulq	$56, %rax, %rax
	addq	%rsi, %rax
	xorl	%r9d, %r9d
	xorl	%esi, %esi
	.p2align	4
.LBB37_3:
	movq	%r9, %r13
	movq	%r8, %r9
	addq	%r13, %r9
	je	.LBB37_5
	leaq	(%rax,%rsi), %r9
	addq	$-28, %r9
	movups	(%r9), %xmm0
	movups	16(%r9), %xmm1
	movups	32(%r9), %xmm2
	movq	48(%r9), %r9
	movq	%r9, 48(%rdx,%rsi)
	movups	%xmm2, 32(%rdx,%rsi)
	movups	%xmm1, 16(%rdx,%rsi)
	movups	%xmm0, (%rdx,%rsi)
	addq	$56, %rsi
	leaq	1(%r13), %r9
	cmpq	%r9, %rbp
	jne	.LBB37_3
	jmp	.LBB37_11
	.p2align	4
.LBB37_5:
	movq	%r11, 40(%rsp)
	movq	-28(%rsi,%rax), %r14
	movq	-12(%rsi,%rax), %r11
	movups	-20(%rsi,%rax), %xmm2
	movzbl	-4(%rsi,%rax), %r8d
	movzbl	-3(%rsi,%rax), %r15d
	movzwl	-2(%rsi,%rax), %r9d
	movups	(%rsi,%rax), %xmm0
	movups	12(%rsi,%rax), %xmm1
	movups	%xmm1, 188(%rsp)
	movaps	%xmm0, 176(%rsp)
	movq	%r12, 208(%rsp)
	movq	%rcx, 216(%rsp)
	movq	%r10, 224(%rsp)
	movq	%r10, %rax
	subq	%rcx, %rax
	movq	%rbp, %rsi
	subq	%r13, %rsi
	leaq	-1(%rsi), %r12
	cmpq	%rax, %r12
	jae	.LBB37_7
.LBB37_6:
	decq	%rbp
	leaq	(%rbx,%r13), %rax
	incq	%rax
	movq	208(%rsp), %rsi
	imulq	$56, %rcx, %rdx
	movq	%r14, (%rsi,%rdx)
	movups	%xmm2, 8(%rsi,%rdx)
	movb	%r8b, 24(%rsi,%rdx)
	movq	%rsi, %r8
	movb	%r15b, 25(%rsi,%rdx)
	movw	%r9w, 26(%rsi,%rdx)
	movaps	176(%rsp), %xmm0
	movups	%xmm0, 28(%rsi,%rdx)
	movups	188(%rsp), %xmm0
	movups	%xmm0, 40(%rsi,%rdx)
	movq	%rcx, %r15
	xorl	%ecx, %ecx
	incq	%r15
	cmovneq	%r10, %rcx
	xorps	%xmm0, %xmm0
	leaq	216(%rsp), %rdx
	movups	%xmm0, (%rdx)
	cmpq	%r13, %rbp
	movq	136(%rsp), %rsi
	movq	%r8, %r14
	movq	40(%rsp), %r11
	jne	.LBB37_2
	jmp	.LBB37_12
.LBB37_7:
	movq	%r11, 472(%rsp)
	movaps	%xmm2, 480(%rsp)
	movq	%r14, 384(%rsp)
	movb	%r8b, 38(%rsp)
	movb	%r15b, 160(%rsp)
	movw	%r9w, 36(%rsp)
	movq	%rdi, 152(%rsp)
	leaq	208(%rsp), %rdi
	callq	"std_alloc::vec::Vec::grow_amortized::<#47f171320500d5e7>"
	movq	216(%rsp), %rcx
	movq	224(%rsp), %r10
	cmpq	%rcx, %r10
	setne	%dl
	orb	%al, %dl
	je	.LBB37_9
.LBB37_8:
	movq	152(%rsp), %rdi
	movzwl	36(%rsp), %r9d
	movzbl	160(%rsp), %r15d
	movzbl	38(%rsp), %r8d
	movq	384(%rsp), %r14
	movaps	480(%rsp), %xmm2
	jmp	.LBB37_6
.LBB37_9:
	leaq	208(%rsp), %rdi
	movl	$1, %esi
	callq	"std_alloc::vec::Vec::grow_amortized::<#47f171320500d5e7>"
	testb	%al, %al
	je	.LBB37_258
	movq	216(%rsp), %rcx
	movq	224(%rsp), %r10
	jmp	.LBB37_8
.LBB37_11:
	addq	%r9, %r15
	movq	%r12, %r14
.LBB37_12:
	movq	%r10, 40(%rsp)
	movq	%rdi, 48(%rsp)
	movq	$0, 56(%rsp)
	movq	%r11, 64(%rsp)
	leaq	(%rbx,%r13), %rax
	incq	%rax
	movq	%rax, 72(%rsp)
	movq	$0, 80(%rsp)
	leaq	48(%rsp), %rdi
	callq	"amqp_value_core::std_alloc++vec++into_iter++IntoIter+Destruct::drop::<#c1ae60f0dd767e0f>"
	cmpq	$20, %r15
	ja	.LBB37_23
	movl	$1, %edx
	movq	%r14, %rdi
	movq	%r15, %rsi
	callq	"core::slice::sort::small::insert_from::<#9d6850f96084634e>"
	cmpq	$15, %r15
	ja	.LBB37_55
.LBB37_14:
	cmpq	$2, %r15
	movq	40(%rsp), %rdi
	jb	.LBB37_84
	leaq	-2(%r15), %rcx
	movq	%rcx, %rax
	shrq	%rax
	movq	%r15, %rdx
	decq	%rdx
	je	.LBB37_17
	imulq	$56, %rdx, %rdx
	movq	48(%r14), %rsi
	movq	%rsi, 96(%rsp)
	movups	(%r14), %xmm0
	movups	16(%r14), %xmm1
	movups	32(%r14), %xmm2
	movaps	%xmm2, 80(%rsp)
	movaps	%xmm1, 64(%rsp)
	movaps	%xmm0, 48(%rsp)
	movq	48(%r14,%rdx), %rsi
	movups	(%r14,%rdx), %xmm0
	movups	16(%r14,%rdx), %xmm1
	movups	32(%r14,%rdx), %xmm2
	movups	%xmm0, (%r14)
	movq	%rsi, 48(%r14)
	movups	%xmm2, 32(%r14)
	movups	%xmm1, 16(%r14)
	movq	96(%rsp), %rsi
	movq	%rsi, 48(%r14,%rdx)
	movaps	48(%rsp), %xmm0
	movaps	64(%rsp), %xmm1
	movaps	80(%rsp), %xmm2
	movups	%xmm2, 32(%r14,%rdx)
	movups	%xmm1, 16(%r14,%rdx)
	movups	%xmm0, (%r14,%rdx)
.LBB37_17:
	testq	%rax, %rax
	je	.LBB37_84
	cmpq	$1, %rcx
	jbe	.LBB37_38
	imulq	$56, %rcx, %rcx
	movq	104(%r14), %rdx
	movq	%rdx, 96(%rsp)
	movups	56(%r14), %xmm0
	movups	72(%r14), %xmm1
	movups	88(%r14), %xmm2
	movaps	%xmm2, 80(%rsp)
	movaps	%xmm1, 64(%rsp)
	movaps	%xmm0, 48(%rsp)
	movq	48(%r14,%rcx), %rdx
	movups	(%r14,%rcx), %xmm0
	movups	16(%r14,%rcx), %xmm1
	movups	32(%r14,%rcx), %xmm2
	movups	%xmm0, 56(%r14)
	movq	%rdx, 104(%r14)
	movups	%xmm2, 88(%r14)
	movups	%xmm1, 72(%r14)
	movq	96(%rsp), %rdx
	movq	%rdx, 48(%r14,%rcx)
	movaps	48(%rsp), %xmm0
	movaps	64(%rsp), %xmm1
	movaps	80(%rsp), %xmm2
	movups	%xmm2, 32(%r14,%rcx)
	movups	%xmm1, 16(%r14,%rcx)
	movups	%xmm0, (%r14,%rcx)
	jmp	.LBB37_40
.LBB37_20:
	testq	%r11, %r11
	je	.LBB37_22
	callq	rattle_dealloc
.LBB37_22:
	movb	$0, (%rbx)
	jmp	.LBB37_254
.LBB37_23:
	movq	%r14, %rdi
	movq	%r15, %rsi
	xorl	%edx, %edx
	callq	"core::slice::sort::pivot::run_from::<#9d6850f96084634e>"
	movl	%edx, %ebp
	cmpq	%r15, %rax
	jne	.LBB37_26
	cmpb	$1, %bpl
	jne	.LBB37_55
	movq	%r15, %rdx
	shrq	%rdx
	movq	%r15, %rax
	subq	%rdx, %rax
	imulq	$56, %rax, %rsi
	addq	%r14, %rsi
	movq	%r14, %rdi
	callq	"core::slice::edits::mirror::<24'(,)::<#8af3e1b4e9e21b57>>"
	jmp	.LBB37_55
.LBB37_26:
	imulq	$56, %r15, %rdi
	testq	%rdi, %rdi
	js	.LBB37_31
	movq	%rax, %r13
	movl	$8, %esi
	callq	rattle_alloc
	xorl	%r12d, %r12d
	testb	$1, %al
	cmovneq	%rdx, %r12
	je	.LBB37_31
	movq	%rdx, 320(%rsp)
	movq	%r15, 328(%rsp)
	movq	%r15, %rax
	shrq	%rax
	cmpq	$64, %r15
	ja	.LBB37_43
	cmpq	%rax, %r13
	jae	.LBB37_43
	bsrq	%r15, %rcx
	xorl	$63, %ecx
	addl	%ecx, %ecx
	xorl	$126, %ecx
	leaq	320(%rsp), %r8
	movq	%r14, %rdi
	movq	%r15, %rsi
	movq	%r15, %rdx
	jmp	.LBB37_53
.LBB37_31:
	leaq	52(%rsp), %rbx
	movq	%r14, 136(%rsp)
	addq	$28, %r14
	jmp	.LBB37_33
	.p2align	4
.LBB37_32:
	movb	%bpl, 48(%rsp)
	movb	%r12b, 49(%rsp)
	movw	%r13w, 50(%rsp)
	movups	268(%rsp), %xmm0
	movups	%xmm0, 12(%rbx)
	movaps	256(%rsp), %xmm0
	movups	%xmm0, (%rbx)
	leaq	48(%rsp), %rdi
	callq	"amqp_value_core::amqp_value_core++value++AMQPValue+Destruct::drop"
	addq	$56, %r14
	decq	%r15
	je	.LBB37_35
.LBB37_33:
	movq	-28(%r14), %rdi
	movzbl	-4(%r14), %ebp
	movzbl	-3(%r14), %r12d
	movzwl	-2(%r14), %r13d
	cmpq	$0, -12(%r14)
	movups	(%r14), %xmm0
	movups	12(%r14), %xmm1
	movups	%xmm1, 268(%rsp)
	movaps	%xmm0, 256(%rsp)
	je	.LBB37_32
	callq	rattle_dealloc
	jmp	.LBB37_32
.LBB37_35:
	cmpq	$0, 40(%rsp)
	movq	168(%rsp), %rbx
	je	.LBB37_253
	movq	136(%rsp), %rdi
	callq	rattle_dealloc
	jmp	.LBB37_253
.LBB37_38:
	testq	%rcx, %rcx
	jne	.LBB37_40
	imulq	$56, %rcx, %rcx
	movq	48(%r14,%rcx), %rdx
	movq	%rdx, 96(%rsp)
	movups	(%r14,%rcx), %xmm0
	movups	16(%r14,%rcx), %xmm1
	movups	32(%r14,%rcx), %xmm2
	movaps	%xmm2, 80(%rsp)
	movaps	%xmm1, 64(%rsp)
	movaps	%xmm0, 48(%rsp)
	movq	104(%r14), %rdx
	movups	56(%r14), %xmm0
	movups	72(%r14), %xmm1
	movups	88(%r14), %xmm2
	movups	%xmm0, (%r14,%rcx)
	movq	%rdx, 48(%r14,%rcx)
	movups	%xmm2, 32(%r14,%rcx)
	movups	%xmm1, 16(%r14,%rcx)
	movq	96(%rsp), %rcx
	movq	%rcx, 104(%r14)
	movaps	48(%rsp), %xmm0
	movaps	64(%rsp), %xmm1
	movaps	80(%rsp), %xmm2
	movups	%xmm2, 88(%r14)
	movups	%xmm1, 72(%r14)
	movups	%xmm0, 56(%r14)
.LBB37_40:
	cmpq	$1, %rax
	je	.LBB37_84
	leaq	-3(%r15), %rcx
	cmpq	$2, %rcx
	jbe	.LBB37_56
	imulq	$56, %rcx, %rcx
	movq	160(%r14), %rdx
	movq	%rdx, 96(%rsp)
	movups	112(%r14), %xmm0
	movups	128(%r14), %xmm1
	movups	144(%r14), %xmm2
	movaps	%xmm2, 80(%rsp)
	movaps	%xmm1, 64(%rsp)
	movaps	%xmm0, 48(%rsp)
	movq	48(%r14,%rcx), %rdx
	movups	(%r14,%rcx), %xmm0
	movups	16(%r14,%rcx), %xmm1
	movups	32(%r14,%rcx), %xmm2
	movups	%xmm0, 112(%r14)
	movq	%rdx, 160(%r14)
	movups	%xmm2, 144(%r14)
	movups	%xmm1, 128(%r14)
	movq	96(%rsp), %rdx
	movq	%rdx, 48(%r14,%rcx)
	movaps	48(%rsp), %xmm0
	movaps	64(%rsp), %xmm1
	movaps	80(%rsp), %xmm2
	movups	%xmm2, 32(%r14,%rcx)
	movups	%xmm1, 16(%r14,%rcx)
	movups	%xmm0, (%r14,%rcx)
	jmp	.LBB37_58
.LBB37_43:
	xorps	%xmm0, %xmm0
	movaps	%xmm0, 272(%rsp)
	movaps	%xmm0, 256(%rsp)
	movq	$0, 288(%rsp)
	movl	$64, %r10d
	cmpq	$4097, %r15
	jb	.LBB37_47
	movabsq	$4294967296, %rdx
	xorl	%ecx, %ecx
	.p2align	4
.LBB37_45:
	movq	%rcx, %rsi
	addq	%rdx, %rcx
	shrq	%rcx
	movq	%rcx, %rdi
	imulq	%rcx, %rdi
	cmpq	%r15, %rdi
	cmovaq	%rcx, %rdx
	cmovaq	%rsi, %rcx
	leaq	1(%rcx), %rsi
	cmpq	%rdx, %rsi
	jb	.LBB37_45
	cmpq	$65, %rcx
	movl	$64, %r10d
	cmovaeq	%rcx, %r10
.LBB37_47:
	cmpq	%r10, %rax
	cmovbq	%rax, %r10
	movabsq	$4611686018427387904, %rax
	xorl	%edx, %edx
	divq	%r15
	incq	%rax
	cmpq	%r10, %r13
	movq	%r10, %r8
	cmovaq	%r13, %r8
	setae	%cl
	andb	%cl, %bpl
	cmpb	$1, %bpl
	jne	.LBB37_51
	cmpq	$15, %r13
	jbe	.LBB37_66
	movq	%r13, %rdx
	shrq	%rdx
	movq	%r13, %rcx
	subq	%rdx, %rcx
	imulq	$56, %rcx, %rsi
	addq	%r14, %rsi
	movq	%r14, %rdi
	movq	%rax, %rbx
	movq	%r10, %rbp
	callq	"core::slice::edits::mirror::<24'(,)::<#8af3e1b4e9e21b57>>"
	movq	%rbp, %r10
	movq	%rbx, %rax
.LBB37_50:
	movb	$1, %cl
	movq	%r13, %r8
.LBB37_51:
	leaq	320(%rsp), %rdx
	movq	%rdx, 24(%rsp)
	movq	%rax, 16(%rsp)
	movq	%r10, 8(%rsp)
	movl	$0, (%rsp)
	movzbl	%cl, %r9d
	leaq	256(%rsp), %rdi
	movq	%r14, %rsi
	movq	%r15, %rdx
	xorl	%ecx, %ecx
	callq	"core::slice::sort::runs::climb::<#9d6850f96084634e>"
	testb	$1, 264(%rsp)
	jne	.LBB37_54
	movq	256(%rsp), %rdx
	movl	$127, %eax
	bsrq	%rdx, %rax
	xorl	$63, %eax
	addl	%eax, %eax
	movl	$126, %ecx
	subl	%eax, %ecx
	leaq	320(%rsp), %r8
	movq	%r14, %rdi
	movq	%rdx, %rsi
.LBB37_53:
	callq	"core::slice::sort::stable::quicksort::<#9d6850f96084634e>"
.LBB37_54:
	movq	%r12, %rdi
	callq	rattle_dealloc
	cmpq	$15, %r15
	jbe	.LBB37_14
.LBB37_55:
	movq	%r15, %rdx
	shrq	%rdx
	movq	%r15, %rax
	subq	%rdx, %rax
	imulq	$56, %rax, %rsi
	addq	%r14, %rsi
	movq	%r14, %rdi
	callq	"core::slice::edits::mirror::<24'(,)::<#8af3e1b4e9e21b57>>"
	jmp	.LBB37_85
.LBB37_56:
	je	.LBB37_58
	imulq	$56, %rcx, %rcx
	movq	48(%r14,%rcx), %rdx
	movq	%rdx, 96(%rsp)
	movups	(%r14,%rcx), %xmm0
	movups	16(%r14,%rcx), %xmm1
	movups	32(%r14,%rcx), %xmm2
	movaps	%xmm2, 80(%rsp)
	movaps	%xmm1, 64(%rsp)
	movaps	%xmm0, 48(%rsp)
	movq	160(%r14), %rdx
	movups	112(%r14), %xmm0
	movups	128(%r14), %xmm1
	movups	144(%r14), %xmm2
	movups	%xmm0, (%r14,%rcx)
	movq	%rdx, 48(%r14,%rcx)
	movups	%xmm2, 32(%r14,%rcx)
	movups	%xmm1, 16(%r14,%rcx)
	movq	96(%rsp), %rcx
	movq	%rcx, 160(%r14)
	movaps	48(%rsp), %xmm0
	movaps	64(%rsp), %xmm1
	movaps	80(%rsp), %xmm2
	movups	%xmm2, 144(%r14)
	movups	%xmm1, 128(%r14)
	movups	%xmm0, 112(%r14)
.LBB37_58:
	cmpq	$2, %rax
	je	.LBB37_84
	leaq	-4(%r15), %rcx
	cmpq	$3, %rcx
	jbe	.LBB37_61
	imulq	$56, %rcx, %rcx
	movq	216(%r14), %rdx
	movq	%rdx, 96(%rsp)
	movups	168(%r14), %xmm0
	movups	184(%r14), %xmm1
	movups	200(%r14), %xmm2
	movaps	%xmm2, 80(%rsp)
	movaps	%xmm1, 64(%rsp)
	movaps	%xmm0, 48(%rsp)
	movq	48(%r14,%rcx), %rdx
	movups	(%r14,%rcx), %xmm0
	movups	16(%r14,%rcx), %xmm1
	movups	32(%r14,%rcx), %xmm2
	movups	%xmm0, 168(%r14)
	movq	%rdx, 216(%r14)
	movups	%xmm2, 200(%r14)
	movups	%xmm1, 184(%r14)
	movq	96(%rsp), %rdx
	movq	%rdx, 48(%r14,%rcx)
	movaps	48(%rsp), %xmm0
	movaps	64(%rsp), %xmm1
	movaps	80(%rsp), %xmm2
	movups	%xmm2, 32(%r14,%rcx)
	movups	%xmm1, 16(%r14,%rcx)
	movups	%xmm0, (%r14,%rcx)
	jmp	.LBB37_63
.LBB37_61:
	je	.LBB37_63
	imulq	$56, %rcx, %rcx
	movq	48(%r14,%rcx), %rdx
	movq	%rdx, 96(%rsp)
	movups	(%r14,%rcx), %xmm0
	movups	16(%r14,%rcx), %xmm1
	movups	32(%r14,%rcx), %xmm2
	movaps	%xmm2, 80(%rsp)
	movaps	%xmm1, 64(%rsp)
	movaps	%xmm0, 48(%rsp)
	movq	216(%r14), %rdx
	movups	168(%r14), %xmm0
	movups	184(%r14), %xmm1
	movups	200(%r14), %xmm2
	movups	%xmm0, (%r14,%rcx)
	movq	%rdx, 48(%r14,%rcx)
	movups	%xmm2, 32(%r14,%rcx)
	movups	%xmm1, 16(%r14,%rcx)
	movq	96(%rsp), %rcx
	movq	%rcx, 216(%r14)
	movaps	48(%rsp), %xmm0
	movaps	64(%rsp), %xmm1
	movaps	80(%rsp), %xmm2
	movups	%xmm2, 200(%r14)
	movups	%xmm1, 184(%r14)
	movups	%xmm0, 168(%r14)
.LBB37_63:
	cmpq	$3, %rax
	je	.LBB37_84
	leaq	-5(%r15), %rcx
	cmpq	$4, %rcx
	jbe	.LBB37_72
	imulq	$56, %rcx, %rcx
	movq	272(%r14), %rdx
	movq	%rdx, 96(%rsp)
	movups	224(%r14), %xmm0
	movups	240(%r14), %xmm1
	movups	256(%r14), %xmm2
	movaps	%xmm2, 80(%rsp)
	movaps	%xmm1, 64(%rsp)
	movaps	%xmm0, 48(%rsp)
	movq	48(%r14,%rcx), %rdx
	movups	(%r14,%rcx), %xmm0
	movups	16(%r14,%rcx), %xmm1
	movups	32(%r14,%rcx), %xmm2
	movups	%xmm0, 224(%r14)
	movq	%rdx, 272(%r14)
	movups	%xmm2, 256(%r14)
	movups	%xmm1, 240(%r14)
	movq	96(%rsp), %rdx
	movq	%rdx, 48(%r14,%rcx)
	movaps	48(%rsp), %xmm0
	movaps	64(%rsp), %xmm1
	movaps	80(%rsp), %xmm2
	movups	%xmm2, 32(%r14,%rcx)
	movups	%xmm1, 16(%r14,%rcx)
	movups	%xmm0, (%r14,%rcx)
	jmp	.LBB37_74
.LBB37_66:
	leaq	-2(%r13), %rcx
	shrq	%rcx
	incq	%rcx
	imulq	$56, %r13, %rdx
	addq	%r14, %rdx
	addq	$-56, %rdx
	movq	%r13, %rsi
	decq	%rsi
	xorl	%edi, %edi
	movq	%r14, %r8
	jmp	.LBB37_69
.LBB37_67:
	movq	48(%r8), %r9
	movq	%r9, 96(%rsp)
	movups	(%r8), %xmm0
	movups	16(%r8), %xmm1
	movups	32(%r8), %xmm2
	movaps	%xmm2, 80(%rsp)
	movaps	%xmm1, 64(%rsp)
	movaps	%xmm0, 48(%rsp)
	movq	48(%rdx), %r9
	movups	(%rdx), %xmm0
	movups	16(%rdx), %xmm1
	movups	32(%rdx), %xmm2
	movups	%xmm0, (%r8)
	movq	%r9, 48(%r8)
	movups	%xmm2, 32(%r8)
	movups	%xmm1, 16(%r8)
	movq	96(%rsp), %r9
	movq	%r9, 48(%rdx)
	movaps	48(%rsp), %xmm0
	movaps	64(%rsp), %xmm1
	movaps	80(%rsp), %xmm2
	movups	%xmm2, 32(%rdx)
	movups	%xmm1, 16(%rdx)
	movups	%xmm0, (%rdx)
.LBB37_68:
	incq	%rdi
	addq	$56, %r8
	addq	$-56, %rdx
	decq	%rsi
	cmpq	%rdi, %rcx
	je	.LBB37_50
.LBB37_69:
	cmpq	%rsi, %rdi
	jb	.LBB37_67
	jbe	.LBB37_68
	movq	48(%rdx), %r9
	movq	%r9, 96(%rsp)
	movups	(%rdx), %xmm0
	movups	16(%rdx), %xmm1
	movups	32(%rdx), %xmm2
	movaps	%xmm2, 80(%rsp)
	movaps	%xmm1, 64(%rsp)
	movaps	%xmm0, 48(%rsp)
	movq	48(%r8), %r9
	movups	(%r8), %xmm0
	movups	16(%r8), %xmm1
	movups	32(%r8), %xmm2
	movups	%xmm0, (%rdx)
	movq	%r9, 48(%rdx)
	movups	%xmm2, 32(%rdx)
	movups	%xmm1, 16(%rdx)
	movq	96(%rsp), %r9
	movq	%r9, 48(%r8)
	movaps	48(%rsp), %xmm0
	movaps	64(%rsp), %xmm1
	movaps	80(%rsp), %xmm2
	movups	%xmm2, 32(%r8)
	movups	%xmm1, 16(%r8)
	movups	%xmm0, (%r8)
	jmp	.LBB37_68
.LBB37_72:
	je	.LBB37_74
	imulq	$56, %rcx, %rcx
	movq	48(%r14,%rcx), %rdx
	movq	%rdx, 96(%rsp)
	movups	(%r14,%rcx), %xmm0
	movups	16(%r14,%rcx), %xmm1
	movups	32(%r14,%rcx), %xmm2
	movaps	%xmm2, 80(%rsp)
	movaps	%xmm1, 64(%rsp)
	movaps	%xmm0, 48(%rsp)
	movq	272(%r14), %rdx
	movups	224(%r14), %xmm0
	movups	240(%r14), %xmm1
	movups	256(%r14), %xmm2
	movups	%xmm0, (%r14,%rcx)
	movq	%rdx, 48(%r14,%rcx)
	movups	%xmm2, 32(%r14,%rcx)
	movups	%xmm1, 16(%r14,%rcx)
	movq	96(%rsp), %rcx
	movq	%rcx, 272(%r14)
	movaps	48(%rsp), %xmm0
	movaps	64(%rsp), %xmm1
	movaps	80(%rsp), %xmm2
	movups	%xmm2, 256(%r14)
	movups	%xmm1, 240(%r14)
	movups	%xmm0, 224(%r14)
.LBB37_74:
	cmpq	$4, %rax
	je	.LBB37_84
	leaq	-6(%r15), %rcx
	cmpq	$5, %rcx
	jbe	.LBB37_77
	imulq	$56, %rcx, %rcx
	movq	328(%r14), %rdx
	movq	%rdx, 96(%rsp)
	movups	280(%r14), %xmm0
	movups	296(%r14), %xmm1
	movups	312(%r14), %xmm2
	movaps	%xmm2, 80(%rsp)
	movaps	%xmm1, 64(%rsp)
	movaps	%xmm0, 48(%rsp)
	movq	48(%r14,%rcx), %rdx
	movups	(%r14,%rcx), %xmm0
	movups	16(%r14,%rcx), %xmm1
	movups	32(%r14,%rcx), %xmm2
	movups	%xmm0, 280(%r14)
	movq	%rdx, 328(%r14)
	movups	%xmm2, 312(%r14)
	movups	%xmm1, 296(%r14)
	movq	96(%rsp), %rdx
	movq	%rdx, 48(%r14,%rcx)
	movaps	48(%rsp), %xmm0
	movaps	64(%rsp), %xmm1
	movaps	80(%rsp), %xmm2
	movups	%xmm2, 32(%r14,%rcx)
	movups	%xmm1, 16(%r14,%rcx)
	movups	%xmm0, (%r14,%rcx)
	jmp	.LBB37_79
.LBB37_77:
	je	.LBB37_79
	imulq	$56, %rcx, %rcx
	movq	48(%r14,%rcx), %rdx
	movq	%rdx, 96(%rsp)
	movups	(%r14,%rcx), %xmm0
	movups	16(%r14,%rcx), %xmm1
	movups	32(%r14,%rcx), %xmm2
	movaps	%xmm2, 80(%rsp)
	movaps	%xmm1, 64(%rsp)
	movaps	%xmm0, 48(%rsp)
	movq	328(%r14), %rdx
	movups	280(%r14), %xmm0
	movups	296(%r14), %xmm1
	movups	312(%r14), %xmm2
	movups	%xmm0, (%r14,%rcx)
	movq	%rdx, 48(%r14,%rcx)
	movups	%xmm2, 32(%r14,%rcx)
	movups	%xmm1, 16(%r14,%rcx)
	movq	96(%rsp), %rcx
	movq	%rcx, 328(%r14)
	movaps	48(%rsp), %xmm0
	movaps	64(%rsp), %xmm1
	movaps	80(%rsp), %xmm2
	movups	%xmm2, 312(%r14)
	movups	%xmm1, 296(%r14)
	movups	%xmm0, 280(%r14)
.LBB37_79:
	cmpq	$5, %rax
	je	.LBB37_84
	leaq	-7(%r15), %rax
	cmpq	$6, %rax
	jbe	.LBB37_82
	imulq	$56, %rax, %rax
	movq	384(%r14), %rcx
	movq	%rcx, 96(%rsp)
	movups	336(%r14), %xmm0
	movups	352(%r14), %xmm1
	movups	368(%r14), %xmm2
	movaps	%xmm2, 80(%rsp)
	movaps	%xmm1, 64(%rsp)
	movaps	%xmm0, 48(%rsp)
	movq	48(%r14,%rax), %rcx
	movups	(%r14,%rax), %xmm0
	movups	16(%r14,%rax), %xmm1
	movups	32(%r14,%rax), %xmm2
	movups	%xmm0, 336(%r14)
	movq	%rcx, 384(%r14)
	movups	%xmm2, 368(%r14)
	movups	%xmm1, 352(%r14)
	movq	96(%rsp), %rcx
	movq	%rcx, 48(%r14,%rax)
	movaps	48(%rsp), %xmm0
	movaps	64(%rsp), %xmm1
	movaps	80(%rsp), %xmm2
	movups	%xmm2, 32(%r14,%rax)
	movups	%xmm1, 16(%r14,%rax)
	movups	%xmm0, (%r14,%rax)
	jmp	.LBB37_84
.LBB37_82:
	je	.LBB37_84
	imulq	$56, %rax, %rax
	movq	48(%r14,%rax), %rcx
	movq	%rcx, 96(%rsp)
	movups	(%r14,%rax), %xmm0
	movups	16(%r14,%rax), %xmm1
	movups	32(%r14,%rax), %xmm2
	movaps	%xmm2, 80(%rsp)
	movaps	%xmm1, 64(%rsp)
	movaps	%xmm0, 48(%rsp)
	movq	384(%r14), %rcx
	movups	336(%r14), %xmm0
	movups	352(%r14), %xmm1
	movups	368(%r14), %xmm2
	movups	%xmm0, (%r14,%rax)
	movq	%rcx, 48(%r14,%rax)
	movups	%xmm2, 32(%r14,%rax)
	movups	%xmm1, 16(%r14,%rax)
	movq	96(%rsp), %rax
	movq	%rax, 384(%r14)
	movaps	48(%rsp), %xmm0
	movaps	64(%rsp), %xmm1
	movaps	80(%rsp), %xmm2
	movups	%xmm2, 368(%r14)
	movups	%xmm1, 352(%r14)
	movups	%xmm0, 336(%r14)
.LBB37_84:
	testq	%r15, %r15
	je	.LBB37_98
.LBB37_85:
	leaq	144(%rsp), %rax
	movq	%rax, 320(%rsp)
	xorps	%xmm0, %xmm0
	movups	%xmm0, 328(%rsp)
	movq	%rax, 344(%rsp)
	movq	%rax, 352(%rsp)
	movups	%xmm0, 360(%rsp)
	movq	%rax, 376(%rsp)
	cmpq	$16, %r15
	movq	%r14, 136(%rsp)
	jb	.LBB37_101
	cmpq	$256, %r15
	jb	.LBB37_102
	cmpq	$4096, %r15
	jb	.LBB37_103
	cmpq	$65536, %r15
	jb	.LBB37_104
	cmpq	$1048576, %r15
	jb	.LBB37_105
	cmpq	$16777216, %r15
	jb	.LBB37_106
	cmpq	$268435456, %r15
	jb	.LBB37_107
	movq	%r15, %rax
	shrq	$32, %rax
	je	.LBB37_108
	movq	%r15, %rax
	shrq	$36, %rax
	je	.LBB37_109
	movq	%r15, %rax
	shrq	$40, %rax
	je	.LBB37_110
	movq	%r15, %rax
	shrq	$44, %rax
	je	.LBB37_111
	movq	%r15, %rax
	shrq	$48, %rax
	jne	.LBB37_245
	movl	$11, %ebx
	jmp	.LBB37_112
.LBB37_98:
	testq	%rdi, %rdi
	je	.LBB37_100
	movq	%r14, %rdi
	callq	rattle_dealloc
.LBB37_100:
	xorl	%eax, %eax
	xorl	%r14d, %r14d
	xorl	%edx, %edx
	movq	168(%rsp), %rcx
	jmp	.LBB37_243
.LBB37_101:
	xorl	%ebx, %ebx
	jmp	.LBB37_112
.LBB37_102:
	movl	$1, %ebx
	jmp	.LBB37_112
.LBB37_103:
	movl	$2, %ebx
	jmp	.LBB37_112
.LBB37_104:
	movl	$3, %ebx
	jmp	.LBB37_112
.LBB37_105:
	movl	$4, %ebx
	jmp	.LBB37_112
.LBB37_106:
	movl	$5, %ebx
	jmp	.LBB37_112
.LBB37_107:
	movl	$6, %ebx
	jmp	.LBB37_112
.LBB37_108:
	movl	$7, %ebx
	jmp	.LBB37_112
.LBB37_109:
	movl	$8, %ebx
	jmp	.LBB37_112
.LBB37_110:
	movl	$9, %ebx
	jmp	.LBB37_112
.LBB37_111:
	movl	$10, %ebx
.LBB37_112:
	movq	%r15, %r13
	shrq	$4, %r13
	leaq	1(%r13), %r12
	leaq	320(%rsp), %rdi
	movq	%r12, %rsi
	callq	"std_alloc::vec::Vec::grow_amortized::<#6fdb356ad8f82b1c>"
	testb	%al, %al
	je	.LBB37_245
	movq	328(%rsp), %r14
	cmpq	%r13, %r14
	ja	.LBB37_118
	leaq	(%r14,%r14,4), %r13
	shlq	$4, %r13
	addq	320(%rsp), %r13
	.p2align	4
.LBB37_115:
	movl	$848, %edi
	movl	$8, %esi
	callq	rattle_alloc
	testb	$1, %al
	je	.LBB37_132
	movw	$0, 2(%rdx)
	leaq	8(%rdx), %rax
	leaq	368(%rdx), %rcx
	movq	%rdx, %rsi
	addq	$848, %rsi
	movq	%rax, (%r13)
	movq	$0, 8(%r13)
	movq	$15, 16(%r13)
	movq	%rcx, 24(%r13)
	movq	$0, 32(%r13)
	movq	$15, 40(%r13)
	movq	%rsi, 48(%r13)
	xorps	%xmm0, %xmm0
	movups	%xmm0, 56(%r13)
	movq	%rdx, 72(%r13)
	incq	%r14
	addq	$80, %r13
	cmpq	%r14, %r12
	jne	.LBB37_115
	movq	%r12, 328(%rsp)
.LBB37_118:
	cmpq	$16, %r15
	movq	40(%rsp), %rsi
	jb	.LBB37_125
	movabsq	$-8608480567731124087, %rcx
	movq	%r15, %rax
	mulq	%rcx
	shrq	$7, %rdx
	leaq	(%rbx,%rdx), %r14
	movq	360(%rsp), %r12
	movq	368(%rsp), %rax
	subq	%r12, %rax
	cmpq	%rax, %r14
	jae	.LBB37_256
	cmpq	%r14, %r12
	ja	.LBB37_125
.LBB37_121:
	movq	352(%rsp), %rax
	incq	%r14
	addq	%rdx, %rbx
	incq	%rbx
	leaq	(%r12,%r12,4), %rcx
	shlq	$4, %rcx
	leaq	(%rcx,%rax), %r13
	addq	$72, %r13
	.p2align	4
.LBB37_122:
	movl	$976, %edi
	movl	$8, %esi
	callq	rattle_alloc
	testb	$1, %al
	je	.LBB37_244
	movw	$1, 2(%rdx)
	leaq	8(%rdx), %rax
	leaq	368(%rdx), %rcx
	movq	%rdx, %rsi
	addq	$848, %rsi
	movq	%rax, -72(%r13)
	movq	$0, -64(%r13)
	movq	$15, -56(%r13)
	movq	%rcx, -48(%r13)
	movq	$0, -40(%r13)
	movq	$15, -32(%r13)
	movq	%rsi, -24(%r13)
	movq	$0, -16(%r13)
	movq	$16, -8(%r13)
	movq	%rdx, (%r13)
	incq	%r12
	addq	$80, %r13
	cmpq	%r12, %rbx
	jne	.LBB37_122
	movq	%r14, 360(%rsp)
	movq	40(%rsp), %rsi
.LBB37_125:
	movq	136(%rsp), %rax
	movq	%rax, 392(%rsp)
	movq	%r15, 400(%rsp)
	movq	%rsi, 408(%rsp)
	movups	320(%rsp), %xmm0
	movups	336(%rsp), %xmm1
	movq	352(%rsp), %rax
	movq	360(%rsp), %rcx
	movups	368(%rsp), %xmm2
	movaps	%xmm0, 256(%rsp)
	movaps	%xmm1, 272(%rsp)
	movq	%rax, 288(%rsp)
	movq	%rcx, 296(%rsp)
	movaps	%xmm2, 304(%rsp)
	xorps	%xmm0, %xmm0
	movaps	%xmm0, 80(%rsp)
	movaps	%xmm0, 64(%rsp)
	movaps	%xmm0, 48(%rsp)
	movq	$0, 96(%rsp)
	movq	264(%rsp), %rcx
	decq	%rcx
	movq	%rcx, 264(%rsp)
	movq	256(%rsp), %rax
	shlq	$4, %rcx
	leaq	(%rcx,%rcx,4), %rcx
	movq	8(%rax,%rcx), %rbx
	movq	72(%rax,%rcx), %r14
	cmpq	$15, %rbx
	jae	.LBB37_130
	movq	24(%rax,%rcx), %rdx
	movq	32(%rax,%rcx), %rsi
	leaq	76(%rsp), %r15
	shlq	$5, %rsi
	leaq	(%rsi,%rdx), %r12
	addq	$4, %r12
	leaq	(%rbx,%rbx,2), %r13
	shlq	$3, %r13
	addq	(%rax,%rcx), %r13
	.p2align	4
.LBB37_127:
	cmpq	$0, 400(%rsp)
	je	.LBB37_133
	leaq	48(%rsp), %rdi
	leaq	392(%rsp), %rsi
	callq	"std_collections::btree::build::pop_distinct::<#920bafd588459e79>"
	movl	72(%rsp), %eax
	movaps	48(%rsp), %xmm0
	movups	%xmm0, (%r13)
	movq	64(%rsp), %rcx
	movq	%rcx, 16(%r13)
	incq	%rbx
	movl	%eax, -4(%r12)
	movups	(%r15), %xmm0
	movups	12(%r15), %xmm1
	movups	%xmm0, (%r12)
	movups	%xmm1, 12(%r12)
	addq	$32, %r12
	addq	$24, %r13
	cmpq	$15, %rbx
	jne	.LBB37_127
	cmpq	$0, 400(%rsp)
	movw	$15, (%r14)
	jne	.LBB37_131
	jmp	.LBB37_134
.LBB37_130:
	movw	%bx, (%r14)
	.p2align	4
.LBB37_131:
	leaq	392(%rsp), %rsi
	leaq	256(%rsp), %rdx
	movq	%r14, %rdi
	callq	"std_collections::btree::node::Node::fill_above::<#7c362c450315e67d>"
	movq	%rax, %r14
	cmpq	$0, 400(%rsp)
	jne	.LBB37_131
	jmp	.LBB37_134
.LBB37_132:
	movq	%r14, 328(%rsp)
	jmp	.LBB37_245
.LBB37_133:
	movw	%bx, (%r14)
.LBB37_134:
	movq	%r14, 248(%rsp)
	leaq	256(%rsp), %rdi
	callq	"std_collections::btree::blanks::Blanks::free::<#bb0aba1cc0c31969>"
	cmpw	$0, 2(%r14)
	je	.LBB37_232
	.p2align	4
.LBB37_135:
	movzwl	(%r14), %ebp
	testw	%bp, %bp
	jne	.LBB37_138
	movq	848(%r14), %rbx
	movq	%r14, %rdi
	callq	rattle_dealloc
	movq	%rbx, 248(%rsp)
	cmpw	$0, 2(%rbx)
	movq	%rbx, %r14
	jne	.LBB37_135
	movq	%rbx, %r14
	jmp	.LBB37_232
.LBB37_138:
	leaq	248(%rsp), %rax
	movq	%rax, 40(%rsp)
	jmp	.LBB37_140
	.p2align	4
.LBB37_139:
	cmpw	$0, 2(%rcx)
	movl	%edx, %ebp
	movq	%rcx, %r14
	movq	%rbx, 40(%rsp)
	je	.LBB37_231
.LBB37_140:
	movzwl	%bp, %r12d
	leaq	(%r14,%r12,8), %rbx
	addq	$848, %rbx
	movq	848(%r14,%r12,8), %rcx
	movzwl	(%rcx), %edx
	cmpw	$7, %dx
	ja	.LBB37_139
	leaq	848(%r14), %rax
	jmp	.LBB37_145
.LBB37_142:
	callq	memmove@PLT
.LBB37_143:
	cmpw	$0, 2(%r14)
	movq	%r14, %rdi
	callq	rattle_dealloc
	movq	152(%rsp), %rax
	movw	%ax, (%rbx)
	movq	%rbx, -8(%r15,%r12,8)
	movzwl	56(%rsp), %eax
	movq	120(%rsp), %r14
	movw	%ax, (%r14)
.LBB37_144:
	movq	40(%rsp), %rax
	movq	%r14, (%rax)
	movq	(%rax), %r14
	movzwl	(%r14), %r12d
	leaq	848(%r14), %rax
	leaq	848(%r14,%r12,8), %rbx
	movq	848(%r14,%r12,8), %rcx
	movzwl	(%rcx), %edx
	movl	%r12d, %ebp
	cmpw	$8, %dx
	jae	.LBB37_139
.LBB37_145:
	leaq	1(%r12), %rcx
	xorl	%edi, %edi
	xorl	%r8d, %r8d
	cmpw	$0, 2(%r14)
	cmovneq	%rcx, %rdi
	setne	%r8b
	shll	$4, %r8d
	leaq	368(%r14), %rcx
	leaq	8(%r14), %rsi
	movq	%rsi, 48(%rsp)
	movq	%r12, 56(%rsp)
	movq	$15, 64(%rsp)
	movq	%rcx, 72(%rsp)
	movq	%r12, 80(%rsp)
	movq	$15, 88(%rsp)
	movq	%rax, 96(%rsp)
	movq	%rdi, 104(%rsp)
	movq	%r8, 112(%rsp)
	movq	%r14, 120(%rsp)
	leaq	-1(%r12), %r15
	movq	-8(%rax,%r12,8), %rdi
	movzwl	(%rdi), %r8d
	movzwl	%dx, %edx
	addl	%r8d, %edx
	cmpl	$14, %edx
	ja	.LBB37_155
	xorps	%xmm0, %xmm0
	movaps	%xmm0, 416(%rsp)
	movq	$0, 432(%rsp)
	leaq	416(%rsp), %rdi
	leaq	48(%rsp), %rsi
	movq	%r15, %rdx
	callq	"std_alloc::vec::Vec::remove::<#5ea93b9ddeb8aab1>"
	movq	72(%rsp), %rcx
	movq	80(%rsp), %rdx
	movq	%r15, %rsi
	shlq	$5, %rsi
	movzbl	(%rcx,%rsi), %r11d
	movzbl	1(%rcx,%rsi), %r13d
	movzwl	2(%rcx,%rsi), %eax
	movw	%ax, 36(%rsp)
	movups	4(%rcx,%rsi), %xmm0
	movaps	%xmm0, 176(%rsp)
	movups	16(%rcx,%rsi), %xmm0
	movups	%xmm0, 188(%rsp)
	leaq	-1(%rdx), %rax
	testq	%r12, %r12
	je	.LBB37_157
	movq	%rdx, %r8
	subq	%r12, %r8
	cmpq	$65, %r8
	jb	.LBB37_172
	movq	%r12, %rdi
	shlq	$5, %rdi
	leaq	(%rcx,%rdi), %r9
	addq	$36, %r9
	addq	%rcx, %rdi
	movq	%rdx, %r10
	subq	%r12, %r10
	addq	$-64, %r10
	jmp	.LBB37_150
	.p2align	4
.LBB37_149:
	addq	$64, %r15
	movq	%rax, %r8
	subq	%r15, %r8
	addq	$2048, %r9
	addq	$2048, %rdi
	leaq	-64(%rsi), %r10
	cmpq	$64, %r8
	jbe	.LBB37_170
.LBB37_150:
	movq	%r10, %rsi
	cmpq	$-1, %r15
	je	.LBB37_153
	movq	$-32, %r8
	.p2align	4
.LBB37_152:
	movl	-4(%r9,%r8), %r10d
	movl	%r10d, -36(%r9,%r8)
	movups	(%r9,%r8), %xmm0
	movups	%xmm0, -32(%r9,%r8)
	movups	12(%r9,%r8), %xmm0
	movups	%xmm0, -20(%r9,%r8)
	movl	28(%r9,%r8), %r10d
	movl	%r10d, -4(%r9,%r8)
	movups	32(%r9,%r8), %xmm0
	movups	%xmm0, (%r9,%r8)
	movups	44(%r9,%r8), %xmm0
	movups	%xmm0, 12(%r9,%r8)
	addq	$64, %r8
	cmpq	$2016, %r8
	jne	.LBB37_152
	jmp	.LBB37_149
	.p2align	4
.LBB37_153:
	movl	$1984, %r8d
	.p2align	4
.LBB37_154:
	movl	32(%rdi,%r8), %r10d
	movl	%r10d, (%rdi,%r8)
	movups	36(%rdi,%r8), %xmm0
	movups	%xmm0, 4(%rdi,%r8)
	movups	48(%rdi,%r8), %xmm0
	movups	%xmm0, 16(%rdi,%r8)
	addq	$-32, %r8
	cmpq	$-64, %r8
	jne	.LBB37_154
	jmp	.LBB37_149
	.p2align	4
.LBB37_155:
	movzwl	2(%rdi), %r10d
	leaq	(%r8,%r8,2), %rdx
	movq	(%rdi,%rdx,8), %r9
	movq	%r9, 512(%rsp)
	movups	-16(%rdi,%rdx,8), %xmm0
	movaps	%xmm0, 496(%rsp)
	movw	%r10w, 136(%rsp)
	testw	%r10w, %r10w
	je	.LBB37_160
	movq	848(%rdi,%r8,8), %rdx
	movq	%rdx, 152(%rsp)
	jmp	.LBB37_161
.LBB37_157:
	testq	%rdx, %rdx
	je	.LBB37_186
	addq	%rcx, %rsi
	cmpq	$1, %rdx
	jne	.LBB37_179
	xorl	%edi, %edi
	jmp	.LBB37_182
.LBB37_160:
	movq	$0, 152(%rsp)
.LBB37_161:
	decq	%r8
	movq	%r8, %rdx
	shlq	$5, %rdx
	leaq	(%rdi,%rdx), %r9
	addq	$368, %r9
	movzbl	368(%rdi,%rdx), %r10d
	movzbl	369(%rdi,%rdx), %r11d
	movzwl	370(%rdi,%rdx), %edx
	movw	%r8w, (%rdi)
	movups	4(%r9), %xmm0
	movups	16(%r9), %xmm1
	movups	%xmm1, 220(%rsp)
	movaps	%xmm0, 208(%rsp)
	movq	%rdi, -8(%rax,%r12,8)
	leaq	(%r15,%r15,2), %rax
	movq	16(%rsi,%rax,8), %rdi
	movq	%rdi, 464(%rsp)
	movups	(%rsi,%rax,8), %xmm0
	movaps	%xmm0, 448(%rsp)
	movaps	496(%rsp), %xmm0
	movups	%xmm0, (%rsi,%rax,8)
	movq	512(%rsp), %rdi
	movq	%rdi, 16(%rsi,%rax,8)
	shlq	$5, %r15
	movzbl	(%rcx,%r15), %r9d
	movzbl	1(%rcx,%r15), %edi
	movzwl	2(%rcx,%r15), %r8d
	movups	16(%rcx,%r15), %xmm0
	movups	%xmm0, 428(%rsp)
	movups	4(%rcx,%r15), %xmm0
	movaps	%xmm0, 416(%rsp)
	movb	%r10b, (%rcx,%r15)
	movb	%r11b, 1(%rcx,%r15)
	movw	%dx, 2(%rcx,%r15)
	movups	220(%rsp), %xmm0
	movups	%xmm0, 16(%rcx,%r15)
	movaps	208(%rsp), %xmm0
	movups	%xmm0, 4(%rcx,%r15)
	movq	(%rbx), %r12
	movzwl	(%r12), %r13d
	leaq	8(%r12), %rsi
	movzwl	2(%r12), %r10d
	testq	%r13, %r13
	je	.LBB37_164
	movb	%dil, 36(%rsp)
	leaq	32(%r12), %rdi
	leal	(,%r13,8), %eax
	leaq	(%rax,%rax,2), %rdx
	movq	%rbx, 160(%rsp)
	movw	%bp, 38(%rsp)
	movl	%r9d, %ebp
	movl	%r8d, %r15d
	movl	%r10d, %ebx
	callq	memmove@PLT
	movl	%ebx, %r10d
	movl	%r15d, %r8d
	movzbl	36(%rsp), %edi
	movl	%ebp, %r9d
	movzwl	38(%rsp), %ebp
	movq	160(%rsp), %rbx
	movq	464(%rsp), %rax
	leaq	8(%r12), %rcx
	movq	%rax, 16(%rcx)
	movaps	448(%rsp), %xmm0
	movups	%xmm0, (%rcx)
	movups	428(%rsp), %xmm0
	movups	%xmm0, 188(%rsp)
	movaps	416(%rsp), %xmm0
	movaps	%xmm0, 176(%rsp)
	movl	%r13d, %eax
	shll	$5, %eax
	leaq	372(%r12), %rcx
	.p2align	4
.LBB37_163:
	movl	-36(%rcx,%rax), %edx
	movl	%edx, -4(%rcx,%rax)
	movups	-32(%rcx,%rax), %xmm0
	movups	%xmm0, (%rcx,%rax)
	movups	-20(%rcx,%rax), %xmm0
	movups	%xmm0, 12(%rcx,%rax)
	addq	$-32, %rax
	jne	.LBB37_163
	jmp	.LBB37_165
.LBB37_164:
	movq	464(%rsp), %rax
	movq	%rax, 16(%rsi)
	movaps	448(%rsp), %xmm0
	movups	%xmm0, (%rsi)
	movups	428(%rsp), %xmm0
	movups	%xmm0, 188(%rsp)
	movaps	416(%rsp), %xmm0
	movaps	%xmm0, 176(%rsp)
.LBB37_165:
	incq	%r13
	movb	%r9b, 368(%r12)
	movb	%dil, 369(%r12)
	movw	%r8w, 370(%r12)
	movaps	176(%rsp), %xmm0
	movups	%xmm0, 372(%r12)
	movups	188(%rsp), %xmm0
	movups	%xmm0, 384(%r12)
	cmpw	$0, 136(%rsp)
	je	.LBB37_169
	leaq	848(%r12), %r15
	testw	%r10w, %r10w
	je	.LBB37_168
	leaq	856(%r12), %rdi
	leal	(,%r13,8), %edx
	movq	%r15, %rsi
	callq	memmove@PLT
.LBB37_168:
	movq	152(%rsp), %rax
	movq	%rax, (%r15)
.LBB37_169:
	movw	%r13w, (%r12)
	movq	%r12, (%rbx)
	movw	%bp, (%r14)
	jmp	.LBB37_144
.LBB37_170:
	cmpq	$-1, %r15
	je	.LBB37_183
	movq	%r15, %rsi
	shlq	$5, %rsi
.LBB37_172:
	cmpq	%r15, %rax
	je	.LBB37_186
	cmpq	$1, %r8
	jne	.LBB37_175
	xorl	%edx, %edx
	jmp	.LBB37_178
.LBB37_175:
	movl	%r8d, %edi
	andl	$126, %edi
	leaq	(%rcx,%rsi), %r9
	addq	$68, %r9
	xorl	%edx, %edx
	.p2align	4
.LBB37_176:
	movl	-36(%r9), %r10d
	movl	%r10d, -68(%r9)
	movups	-32(%r9), %xmm0
	movups	%xmm0, -64(%r9)
	movups	-20(%r9), %xmm0
	movups	%xmm0, -52(%r9)
	movl	-4(%r9), %r10d
	movl	%r10d, -36(%r9)
	movups	(%r9), %xmm0
	movups	%xmm0, -32(%r9)
	movups	12(%r9), %xmm0
	movups	%xmm0, -20(%r9)
	addq	$2, %rdx
	addq	$64, %r9
	cmpq	%rdx, %rdi
	jne	.LBB37_176
	testb	$1, %r8b
	je	.LBB37_186
.LBB37_178:
	leaq	(%rcx,%rsi), %rdi
	addq	%rsi, %rcx
	addq	$32, %rcx
	shlq	$5, %rdx
	movl	32(%rdi,%rdx), %esi
	movl	%esi, (%rdi,%rdx)
	movups	4(%rcx,%rdx), %xmm0
	movups	16(%rcx,%rdx), %xmm1
	movups	%xmm0, 4(%rdi,%rdx)
	movups	%xmm1, 16(%rdi,%rdx)
	jmp	.LBB37_186
.LBB37_179:
	movl	%r11d, %r14d
	movq	%rdx, %r8
	shlq	$5, %r8
	addq	%rcx, %r8
	movq	%r12, %r9
	shlq	$5, %r9
	addq	$-60, %r9
	movq	%rdx, %r10
	andq	$-2, %r10
	subq	%r12, %r10
	xorl	%edi, %edi
	.p2align	4
.LBB37_180:
	movl	-32(%r8), %r11d
	movl	%r11d, -4(%r8,%r9)
	movups	-28(%r8), %xmm0
	movq	-12(%r8), %r11
	movl	-4(%r8), %ebx
	movl	%ebx, 24(%r8,%r9)
	movq	%r11, 16(%r8,%r9)
	movups	%xmm0, (%r8,%r9)
	movabsq	$576460752303423486, %r11
	xorq	%rdi, %r11
	addq	%rdx, %r11
	shlq	$5, %r11
	movl	(%rcx,%r11), %ebx
	movl	%ebx, (%rsi,%r11)
	movups	4(%rcx,%r11), %xmm0
	movq	20(%rcx,%r11), %rbx
	movl	28(%rcx,%r11), %ebp
	movl	%ebp, 28(%rsi,%r11)
	movq	%rbx, 20(%rsi,%r11)
	movups	%xmm0, 4(%rsi,%r11)
	addq	$2, %rdi
	addq	$-64, %r8
	cmpq	%rdi, %r10
	jne	.LBB37_180
	testb	$1, %dl
	movl	%r14d, %r11d
	je	.LBB37_186
.LBB37_182:
	notq	%rdi
	addq	%rdi, %rdx
	shlq	$5, %rdx
	movl	(%rcx,%rdx), %edi
	movl	%edi, (%rsi,%rdx)
	movups	4(%rcx,%rdx), %xmm0
	movq	20(%rcx,%rdx), %rdi
	movl	28(%rcx,%rdx), %ecx
	movl	%ecx, 28(%rsi,%rdx)
	movq	%rdi, 20(%rsi,%rdx)
	movups	%xmm0, 4(%rsi,%rdx)
	jmp	.LBB37_186
.LBB37_183:
	testq	%rdx, %rdx
	je	.LBB37_186
	shlq	$5, %rdx
	addq	%rdx, %rcx
	addq	$-28, %rcx
	.p2align	4
.LBB37_185:
	movl	-4(%rcx), %edx
	movl	%edx, -36(%rcx)
	movups	(%rcx), %xmm0
	movups	%xmm0, -32(%rcx)
	movups	12(%rcx), %xmm0
	movups	%xmm0, -20(%rcx)
	addq	$-32, %rcx
	decq	%rsi
	jne	.LBB37_185
	.p2align	4
.LBB37_186:
	movq	%rax, 80(%rsp)
	movaps	176(%rsp), %xmm0
	movaps	%xmm0, 208(%rsp)
	movups	188(%rsp), %xmm0
	movups	%xmm0, 220(%rsp)
	movq	96(%rsp), %r15
	movq	104(%rsp), %rax
	movq	(%r15,%r12,8), %r14
	leaq	-1(%rax), %rbx
	movq	%rbx, %rdx
	subq	%r12, %rdx
	cmpq	$257, %rdx
	movb	%r13b, 152(%rsp)
	jb	.LBB37_194
	leaq	(%r15,%r12,8), %rsi
	leaq	(%r15,%r12,8), %rdi
	addq	$56, %rdi
	xorl	%r8d, %r8d
	movq	%rsi, %r9
	movq	%r12, %r10
	jmp	.LBB37_189
	.p2align	4
.LBB37_188:
	leaq	256(%rcx), %r10
	movq	%rbx, %rdx
	subq	%r10, %rdx
	incq	%r8
	addq	$2048, %rdi
	addq	$2048, %r9
	cmpq	$256, %rdx
	jbe	.LBB37_195
.LBB37_189:
	movq	%r10, %rcx
	cmpq	$-1, %r10
	je	.LBB37_192
	xorl	%edx, %edx
	.p2align	4
.LBB37_191:
	movups	-48(%rdi,%rdx,8), %xmm0
	movups	-32(%rdi,%rdx,8), %xmm1
	movups	-16(%rdi,%rdx,8), %xmm2
	movups	(%rdi,%rdx,8), %xmm3
	movups	%xmm0, -56(%rdi,%rdx,8)
	movups	%xmm1, -40(%rdi,%rdx,8)
	movups	%xmm2, -24(%rdi,%rdx,8)
	movups	%xmm3, -8(%rdi,%rdx,8)
	addq	$8, %rdx
	cmpq	$256, %rdx
	jne	.LBB37_191
	jmp	.LBB37_188
	.p2align	4
.LBB37_192:
	movq	%r8, %rdx
	shlq	$11, %rdx
	movq	2048(%rsi,%rdx), %rdx
	movl	$2048, %r10d
	.p2align	4
.LBB37_193:
	movq	%rdx, -8(%r9,%r10)
	movq	%rdx, -16(%r9,%r10)
	movq	%rdx, -24(%r9,%r10)
	movq	%rdx, -32(%r9,%r10)
	addq	$-32, %r10
	jne	.LBB37_193
	jmp	.LBB37_188
	.p2align	4
.LBB37_194:
	leaq	(,%r12,8), %rax
	movq	%r12, %r10
	cmpq	%r10, %rbx
	jne	.LBB37_197
	jmp	.LBB37_201
	.p2align	4
.LBB37_195:
	cmpq	$-1, %r10
	je	.LBB37_198
	leaq	(,%r10,8), %rax
	cmpq	%r10, %rbx
	je	.LBB37_201
.LBB37_197:
	leaq	(%r15,%rax), %rdi
	leaq	(%r15,%rax), %rsi
	addq	$8, %rsi
	shlq	$3, %rdx
	movl	%r11d, %ebp
	callq	memmove@PLT
	movl	%ebp, %r11d
	jmp	.LBB37_201
.LBB37_198:
	testq	%rax, %rax
	je	.LBB37_201
	movq	-8(%r15,%rax,8), %rdx
	addq	$-257, %rax
	.p2align	4
.LBB37_200:
	movq	%rdx, 2040(%r15,%rax,8)
	decq	%rax
	cmpq	%rax, %rcx
	jne	.LBB37_200
	.p2align	4
.LBB37_201:
	movq	%rbx, 104(%rsp)
	movq	%r15, 136(%rsp)
	movq	-8(%r15,%r12,8), %rbx
	movzwl	(%rbx), %r15d
	movzwl	2(%rbx), %r8d
	leaq	1(%r15), %rbp
	movzwl	(%r14), %r13d
	movl	%r15d, %ecx
	shll	$5, %ecx
	movzwl	2(%r14), %esi
	leaq	(%r15,%r15,2), %rax
	movq	432(%rsp), %rdx
	movq	%rdx, 24(%rbx,%rax,8)
	movaps	416(%rsp), %xmm0
	movups	%xmm0, 8(%rbx,%rax,8)
	movb	%r11b, 368(%rbx,%rcx)
	movzbl	152(%rsp), %edx
	movb	%dl, 369(%rbx,%rcx)
	movzwl	36(%rsp), %edx
	movw	%dx, 370(%rbx,%rcx)
	movaps	208(%rsp), %xmm0
	movups	%xmm0, 372(%rbx,%rcx)
	movups	220(%rsp), %xmm0
	movups	%xmm0, 384(%rbx,%rcx)
	movq	%rbp, %rcx
	testq	%r13, %r13
	je	.LBB37_216
	movw	%si, 152(%rsp)
	leaq	8(%rbx), %rcx
	leaq	8(%r14), %rsi
	leaq	(,%rbp,2), %rdx
	addq	%rbp, %rdx
	leaq	(%rcx,%rdx,8), %rdi
	leal	(,%r13,8), %ecx
	leaq	(%rcx,%rcx,2), %rdx
	movq	%rdi, %rcx
	subq	%rsi, %rcx
	cmpq	%rdx, %rcx
	movw	%r8w, 160(%rsp)
	jae	.LBB37_205
	movl	%r13d, %ecx
	andl	$7, %ecx
	cmpw	$8, %r13w
	jae	.LBB37_206
	xorl	%edx, %edx
	jmp	.LBB37_209
.LBB37_205:
	callq	memmove@PLT
	jmp	.LBB37_211
.LBB37_206:
	movl	%r13d, %esi
	andl	$-8, %esi
	leaq	(%rbx,%rax,8), %rdi
	movl	$176, %r8d
	xorl	%edx, %edx
	.p2align	4
.LBB37_207:
	movups	-168(%r14,%r8), %xmm0
	movq	-152(%r14,%r8), %r9
	movq	%r9, -128(%rdi,%r8)
	movups	%xmm0, -144(%rdi,%r8)
	movups	-144(%r14,%r8), %xmm0
	movq	-128(%r14,%r8), %r9
	movq	%r9, -104(%rdi,%r8)
	movups	%xmm0, -120(%rdi,%r8)
	movups	-120(%r14,%r8), %xmm0
	movq	-104(%r14,%r8), %r9
	movq	%r9, -80(%rdi,%r8)
	movups	%xmm0, -96(%rdi,%r8)
	movups	-96(%r14,%r8), %xmm0
	movq	-80(%r14,%r8), %r9
	movq	%r9, -56(%rdi,%r8)
	movups	%xmm0, -72(%rdi,%r8)
	movups	-72(%r14,%r8), %xmm0
	movq	-56(%r14,%r8), %r9
	movq	%r9, -32(%rdi,%r8)
	movups	%xmm0, -48(%rdi,%r8)
	movups	-48(%r14,%r8), %xmm0
	movq	-32(%r14,%r8), %r9
	movq	%r9, -8(%rdi,%r8)
	movups	%xmm0, -24(%rdi,%r8)
	movups	-24(%r14,%r8), %xmm0
	movq	-8(%r14,%r8), %r9
	movq	%r9, 16(%rdi,%r8)
	movups	%xmm0, (%rdi,%r8)
	movups	(%r14,%r8), %xmm0
	movq	16(%r14,%r8), %r9
	movq	%r9, 40(%rdi,%r8)
	movups	%xmm0, 24(%rdi,%r8)
	addq	$8, %rdx
	addq	$192, %r8
	cmpq	%rdx, %rsi
	jne	.LBB37_207
	testq	%rcx, %rcx
	je	.LBB37_211
.LBB37_209:
	shlq	$3, %rdx
	leaq	(%rdx,%rdx,2), %rsi
	leaq	(%r14,%rsi), %rdx
	addq	$8, %rdx
	leaq	(%rsi,%rax,8), %rax
	addq	%rbx, %rax
	addq	$32, %rax
	shll	$3, %ecx
	leaq	(%rcx,%rcx,2), %rcx
	xorl	%esi, %esi
	.p2align	4
.LBB37_210:
	movups	(%rdx,%rsi), %xmm0
	movq	16(%rdx,%rsi), %rdi
	movq	%rdi, 16(%rax,%rsi)
	movups	%xmm0, (%rax,%rsi)
	addq	$24, %rsi
	cmpq	%rsi, %rcx
	jne	.LBB37_210
.LBB37_211:
	leaq	368(%rbx), %rax
	leaq	368(%r14), %rsi
	movl	%ebp, %edi
	shll	$5, %edi
	addq	%rax, %rdi
	movl	%r13d, %edx
	shll	$5, %edx
	movq	%rdi, %rax
	subq	%rsi, %rax
	cmpq	%rdx, %rax
	jae	.LBB37_214
	leaq	372(%r14), %rax
	shll	$5, %r15d
	leaq	(%rbx,%r15), %rcx
	addq	$404, %rcx
	xorl	%edx, %edx
	movq	%r13, %rsi
	movzwl	160(%rsp), %r8d
	.p2align	4
.LBB37_213:
	movl	-4(%rax,%rdx), %edi
	movups	(%rax,%rdx), %xmm0
	movaps	%xmm0, 176(%rsp)
	movups	12(%rax,%rdx), %xmm0
	movups	%xmm0, 188(%rsp)
	movl	%edi, -4(%rcx,%rdx)
	movaps	176(%rsp), %xmm0
	movups	%xmm0, (%rcx,%rdx)
	movups	188(%rsp), %xmm0
	movups	%xmm0, 12(%rcx,%rdx)
	addq	$32, %rdx
	decq	%rsi
	jne	.LBB37_213
	jmp	.LBB37_215
.LBB37_214:
	callq	memmove@PLT
	movzwl	160(%rsp), %r8d
.LBB37_215:
	movq	%rbp, %rcx
	addq	%r13, %rcx
	movzwl	152(%rsp), %esi
.LBB37_216:
	movq	%rcx, 152(%rsp)
	testw	%si, %si
	movq	136(%rsp), %r15
	je	.LBB37_143
	leaq	848(%rbx), %rdi
	leaq	848(%r14), %rsi
	shll	$3, %ebp
	xorl	%eax, %eax
	testw	%r8w, %r8w
	cmovneq	%rbp, %rax
	addq	%rax, %rdi
	leaq	8(,%r13,8), %rdx
	movq	%rdi, %rcx
	subq	%rsi, %rcx
	cmpq	%rdx, %rcx
	jae	.LBB37_142
	cmpw	$3, %r13w
	jb	.LBB37_219
	leaq	(%rax,%rbx), %rcx
	subq	%r14, %rcx
	cmpq	$32, %rcx
	jae	.LBB37_222
.LBB37_219:
	xorl	%ecx, %ecx
.LBB37_225:
	movl	%r13d, %r8d
	notl	%r8d
	movq	%rcx, %rdx
	testb	$3, %r8b
	je	.LBB37_228
	leal	1(%r13), %r8d
	andl	$3, %r8d
	movq	%rcx, %rdx
	.p2align	4
.LBB37_227:
	movq	(%rsi,%rdx,8), %r9
	movq	%r9, (%rdi,%rdx,8)
	incq	%rdx
	decq	%r8
	jne	.LBB37_227
.LBB37_228:
	movq	%r13, %rsi
	subq	%rcx, %rsi
	cmpl	$3, %esi
	jb	.LBB37_143
	leaq	(%rax,%rdx,8), %rax
	addq	%rbx, %rax
	addq	$872, %rax
	leaq	(%r14,%rdx,8), %rcx
	addq	$872, %rcx
	subq	%rdx, %r13
	movq	$-1, %rdx
	.p2align	4
.LBB37_230:
	movq	-16(%rcx,%rdx,8), %rsi
	movq	%rsi, -16(%rax,%rdx,8)
	movq	-8(%rcx,%rdx,8), %rsi
	movq	%rsi, -8(%rax,%rdx,8)
	movq	(%rcx,%rdx,8), %rsi
	movq	%rsi, (%rax,%rdx,8)
	movq	8(%rcx,%rdx,8), %rsi
	movq	%rsi, 8(%rax,%rdx,8)
	addq	$4, %rdx
	cmpq	%rdx, %r13
	jne	.LBB37_230
	jmp	.LBB37_143
.LBB37_222:
	leaq	1(%r13), %rdx
	movl	%edx, %ecx
	andl	$-4, %ecx
	leal	(,%rdx,8), %r8d
	andl	$-32, %r8d
	leaq	(%rbx,%rax), %r9
	addq	$864, %r9
	xorl	%r10d, %r10d
	.p2align	4
.LBB37_223:
	movups	848(%r14,%r10), %xmm0
	movups	864(%r14,%r10), %xmm1
	movups	%xmm0, -16(%r9,%r10)
	movups	%xmm1, (%r9,%r10)
	addq	$32, %r10
	cmpq	%r10, %r8
	jne	.LBB37_223
	cmpl	%ecx, %edx
	je	.LBB37_143
	jmp	.LBB37_225
.LBB37_231:
	movq	248(%rsp), %r14
.LBB37_232:
	cmpw	$0, (%r14)
	jne	.LBB37_235
	cmpw	$0, 2(%r14)
	je	.LBB37_235
	movq	848(%r14), %rbx
	movq	%r14, %rdi
	callq	rattle_dealloc
	movq	%rbx, 248(%rsp)
	movq	%rbx, %r14
.LBB37_235:
	leaq	248(%rsp), %rdi
	callq	"std_collections::btree::node::Node::count::<#d78cde125532770c>"
	movq	%rax, 136(%rsp)
	movq	392(%rsp), %rax
	movq	%rax, 40(%rsp)
	movq	400(%rsp), %r13
	movq	408(%rsp), %rax
	movq	%rax, 152(%rsp)
	testq	%r13, %r13
	je	.LBB37_240
	movq	40(%rsp), %rax
	leaq	28(%rax), %rbx
	jmp	.LBB37_238
	.p2align	4
.LBB37_237:
	movb	%r12b, 48(%rsp)
	movb	%r15b, 49(%rsp)
	movw	%bp, 50(%rsp)
	movups	188(%rsp), %xmm0
	leaq	52(%rsp), %rax
	movups	%xmm0, 12(%rax)
	movaps	176(%rsp), %xmm0
	movups	%xmm0, (%rax)
	leaq	48(%rsp), %rdi
	callq	"amqp_value_core::amqp_value_core++value++AMQPValue+Destruct::drop"
	addq	$56, %rbx
	decq	%r13
	je	.LBB37_240
.LBB37_238:
	movq	-28(%rbx), %rdi
	movzbl	-4(%rbx), %r12d
	movzbl	-3(%rbx), %r15d
	movzwl	-2(%rbx), %ebp
	cmpq	$0, -12(%rbx)
	movups	(%rbx), %xmm0
	movups	12(%rbx), %xmm1
	movups	%xmm1, 188(%rsp)
	movaps	%xmm0, 176(%rsp)
	je	.LBB37_237
	callq	rattle_dealloc
	jmp	.LBB37_237
.LBB37_240:
	cmpq	$0, 152(%rsp)
	je	.LBB37_242
	movq	40(%rsp), %rdi
	callq	rattle_dealloc
.LBB37_242:
	movl	$1, %eax
	movq	168(%rsp), %rcx
	movq	136(%rsp), %rdx
.LBB37_243:
	movb	$0, (%rcx)
	movq	%rax, 8(%rcx)
	movq	%r14, 16(%rcx)
	movq	%rdx, 24(%rcx)
	jmp	.LBB37_255
.LBB37_244:
	movq	%r12, 360(%rsp)
.LBB37_245:
	leaq	320(%rsp), %rdi
	callq	"std_collections::btree::blanks::Blanks::free::<#bb0aba1cc0c31969>"
	leaq	52(%rsp), %rbx
	movq	136(%rsp), %rax
	leaq	28(%rax), %r14
	jmp	.LBB37_247
	.p2align	4
.LBB37_246:
	movb	%bpl, 48(%rsp)
	movb	%r12b, 49(%rsp)
	movw	%r13w, 50(%rsp)
	movups	268(%rsp), %xmm0
	movups	%xmm0, 12(%rbx)
	movaps	256(%rsp), %xmm0
	movups	%xmm0, (%rbx)
	leaq	48(%rsp), %rdi
	callq	"amqp_value_core::amqp_value_core++value++AMQPValue+Destruct::drop"
	addq	$56, %r14
	decq	%r15
	je	.LBB37_249
.LBB37_247:
	movq	-28(%r14), %rdi
	movzbl	-4(%r14), %ebp
	movzbl	-3(%r14), %r12d
	movzwl	-2(%r14), %r13d
	cmpq	$0, -12(%r14)
	movups	(%r14), %xmm0
	movups	12(%r14), %xmm1
	movups	%xmm1, 268(%rsp)
	movaps	%xmm0, 256(%rsp)
	je	.LBB37_246
	callq	rattle_dealloc
	jmp	.LBB37_246
.LBB37_249:
	cmpq	$0, 40(%rsp)
	je	.LBB37_252
	movq	136(%rsp), %rdi
.LBB37_251:
	callq	rattle_dealloc
.LBB37_252:
	movq	168(%rsp), %rbx
.LBB37_253:
	movb	$1, (%rbx)
.LBB37_254:
	xorps	%xmm0, %xmm0
	movups	%xmm0, 8(%rbx)
	movq	$0, 24(%rbx)
.LBB37_255:
	addq	$520, %rsp
	popq	%rbx
	popq	%r12
	popq	%r13
	popq	%r14
	popq	%r15
	popq	%rbp
	retq
.LBB37_256:
	movq	%rdx, %r13
	leaq	1(%r14), %rsi
	leaq	352(%rsp), %rdi
	callq	"std_alloc::vec::Vec::grow_amortized::<#6fdb356ad8f82b1c>"
	testb	%al, %al
	je	.LBB37_245
	movq	360(%rsp), %r12
	movq	%r13, %rdx
	movq	40(%rsp), %rsi
	cmpq	%r14, %r12
	jbe	.LBB37_121
	jmp	.LBB37_125
.LBB37_258:
	addq	%r13, %rbx
	incq	%rbx
	notq	%r13
	addq	%rbp, %r13
	cmpq	$0, 472(%rsp)
	je	.LBB37_260
	movq	384(%rsp), %rdi
	callq	rattle_dealloc
.LBB37_260:
	movzbl	38(%rsp), %eax
	movb	%al, 320(%rsp)
	movzbl	160(%rsp), %eax
	movb	%al, 321(%rsp)
	movzwl	36(%rsp), %eax
	movw	%ax, 322(%rsp)
	movaps	176(%rsp), %xmm0
	movups	%xmm0, 324(%rsp)
	movups	188(%rsp), %xmm0
	movups	%xmm0, 336(%rsp)
	leaq	320(%rsp), %rdi
	callq	"amqp_value_core::amqp_value_core++value++AMQPValue+Destruct::drop"
	movq	152(%rsp), %rax
	movq	%rax, 256(%rsp)
	movq	%r13, 264(%rsp)
	movq	40(%rsp), %rax
	movq	%rax, 272(%rsp)
	movq	%rbx, 280(%rsp)
	movq	$0, 288(%rsp)
	leaq	256(%rsp), %rdi
	callq	"amqp_value_core::std_alloc++vec++into_iter++IntoIter+Destruct::drop::<#c1ae60f0dd767e0f>"
	movq	208(%rsp), %rax
	movq	%rax, 40(%rsp)
	movq	216(%rsp), %r15
	movq	224(%rsp), %rax
	movq	%rax, 136(%rsp)
	testq	%r15, %r15
	je	.LBB37_265
	leaq	52(%rsp), %r12
	movq	40(%rsp), %rax
	leaq	28(%rax), %r13
	jmp	.LBB37_263
.LBB37_262:
	movb	%bpl, 48(%rsp)
	movb	%bl, 49(%rsp)
	movw	%r14w, 50(%rsp)
	movups	268(%rsp), %xmm0
	movups	%xmm0, 12(%r12)
	movaps	256(%rsp), %xmm0
	movups	%xmm0, (%r12)
	leaq	48(%rsp), %rdi
	callq	"amqp_value_core::amqp_value_core++value++AMQPValue+Destruct::drop"
	addq	$56, %r13
	decq	%r15
	je	.LBB37_265
.LBB37_263:
	movq	-28(%r13), %rdi
	movzbl	-4(%r13), %ebp
	movzbl	-3(%r13), %ebx
	movzwl	-2(%r13), %r14d
	cmpq	$0, -12(%r13)
	movups	(%r13), %xmm0
	movups	12(%r13), %xmm1
	movups	%xmm1, 268(%rsp)
	movaps	%xmm0, 256(%rsp)
	je	.LBB37_262
	callq	rattle_dealloc
	jmp	.LBB37_262
.LBB37_265:
	cmpq	$0, 136(%rsp)
	je	.LBB37_252
	movq	40(%rsp), %rdi
	jmp	.LBB37_251
.Lfunc_end37:
	.size	"amqp_value_core::types::field_table::FieldTable::from_pairs", .Lfunc_end37-"amqp_value_core::types::field_table::FieldTable::from_pairs"

	.section	".text.amqp_value_core::std_alloc++vec++into_iter++IntoIter+Destruct::drop::<#c1ae60f0dd767e0f>","ax",@progbits
	.p2align	4
	.type	"amqp_value_core::std_alloc++vec++into_iter++IntoIter+Destruct::drop::<#c1ae60f0dd767e0f>",@function
"amqp_value_core::std_alloc++vec++into_iter++IntoIter+Destruct::drop::<#c1ae60f0dd767e0f>":
	pushq	%rbp
	pushq	%r15
	pushq	%r14
	pushq	%r13
	pushq	%r12
	pushq	%rbx
	subq	$88, %rsp
	movq	(%rdi), %r12
	movq	8(%rdi), %r13
	movq	16(%rdi), %rax
	movq	%rax, 80(%rsp)
	testq	%r13, %r13
	je	.LBB38_11
	movq	%r12, 8(%rsp)
	movq	24(%rdi), %rax
	movq	32(%rdi), %r15
	subq	%r15, %r13
	leaq	(%rax,%r13), %rcx
	cmpq	%rcx, %rax
	jae	.LBB38_6
	imulq	$56, %rax, %rax
	movq	8(%rsp), %rcx
	leaq	(%rax,%rcx), %rbp
	addq	$28, %rbp
	jmp	.LBB38_3
	.p2align	4
.LBB38_5:
	movb	%r14b, 16(%rsp)
	movb	%bl, 17(%rsp)
	movw	%r12w, 18(%rsp)
	movups	60(%rsp), %xmm0
	leaq	20(%rsp), %rax
	movups	%xmm0, 12(%rax)
	movaps	48(%rsp), %xmm0
	movups	%xmm0, (%rax)
	leaq	16(%rsp), %rdi
	callq	"amqp_value_core::amqp_value_core++value++AMQPValue+Destruct::drop"
	addq	$56, %rbp
	decq	%r13
	je	.LBB38_6
.LBB38_3:
	movq	-28(%rbp), %rdi
	movzbl	-4(%rbp), %r14d
	movzbl	-3(%rbp), %ebx
	movzwl	-2(%rbp), %r12d
	cmpq	$0, -12(%rbp)
	movups	(%rbp), %xmm0
	movups	12(%rbp), %xmm1
	movups	%xmm1, 60(%rsp)
	movaps	%xmm0, 48(%rsp)
	je	.LBB38_5
	callq	rattle_dealloc
	jmp	.LBB38_5
.LBB38_6:
	testq	%r15, %r15
	movq	8(%rsp), %r12
	je	.LBB38_11
	leaq	28(%r12), %r13
	jmp	.LBB38_8
	.p2align	4
.LBB38_10:
	movb	%bl, 16(%rsp)
	movb	%bpl, 17(%rsp)
	movw	%r14w, 18(%rsp)
	movups	60(%rsp), %xmm0
	leaq	20(%rsp), %rax
	movups	%xmm0, 12(%rax)
	movaps	48(%rsp), %xmm0
	movups	%xmm0, (%rax)
	leaq	16(%rsp), %rdi
	callq	"amqp_value_core::amqp_value_core++value++AMQPValue+Destruct::drop"
	addq	$56, %r13
	decq	%r15
	je	.LBB38_11
.LBB38_8:
	movq	-28(%r13), %rdi
	movzbl	-4(%r13), %ebx
	movzbl	-3(%r13), %ebp
	movzwl	-2(%r13), %r14d
	cmpq	$0, -12(%r13)
	movups	(%r13), %xmm0
	movups	12(%r13), %xmm1
	movups	%xmm1, 60(%rsp)
	movaps	%xmm0, 48(%rsp)
	je	.LBB38_10
	callq	rattle_dealloc
	jmp	.LBB38_10
.LBB38_11:
	cmpq	$0, 80(%rsp)
	je	.LBB38_12
	movq	%r12, %rdi
	addq	$88, %rsp
	popq	%rbx
	popq	%r12
	popq	%r13
	popq	%r14
	popq	%r15
	popq	%rbp
	jmp	rattle_dealloc
.LBB38_12:
	addq	$88, %rsp
	popq	%rbx
	popq	%r12
	popq	%r13
	popq	%r14
	popq	%r15
	popq	%rbp
	retq
.Lfunc_end38:
	.size	"amqp_value_core::std_alloc++vec++into_iter++IntoIter+Destruct::drop::<#c1ae60f0dd767e0f>", .Lfunc_end38-"amqp_value_core::std_alloc++vec++into_iter++IntoIter+Destruct::drop::<#c1ae60f0dd767e0f>"

	.section	".text.unlikely.std_alloc::vec::Vec::grow_amortized::<#47f171320500d5e7>","ax",@progbits
	.p2align	4
	.type	"std_alloc::vec::Vec::grow_amortized::<#47f171320500d5e7>",@function
"std_alloc::vec::Vec::grow_amortized::<#47f171320500d5e7>":
	addq	8(%rdi), %rsi
	jae	.LBB39_2
	xorl	%eax, %eax
	retq
.LBB39_2:
	pushq	%r14
	pushq	%rbx
	pushq	%rax
	movq	16(%rdi), %rax
	cmpq	$5, %rsi
	movl	$4, %ebx
	cmovaeq	%rsi, %rbx
	movq	%rax, %rdx
	shrq	$62, %rdx
	leaq	(%rax,%rax), %rcx
	cmpq	%rcx, %rbx
	cmovaq	%rbx, %rcx
	testq	%rdx, %rdx
	cmoveq	%rcx, %rbx
	movabsq	$164703072086692425, %rdx
	cmpq	%rdx, %rbx
	ja	.LBB39_6
	testq	%rax, %rax
	je	.LBB39_8
	movq	%rdi, %r14
	movq	(%rdi), %rdi
	imulq	$56, %rbx, %rsi
	movl	$8, %edx
	callq	rattle_realloc
	testb	$1, %al
	je	.LBB39_6
.LBB39_9:
	movq	%rdx, (%r14)
	movq	%rbx, 16(%r14)
	movb	$1, %al
	addq	$8, %rsp
	popq	%rbx
	popq	%r14
	retq
.LBB39_8:
	movq	%rdi, %r14
	imulq	$56, %rcx, %rdi
	movl	$8, %esi
	callq	rattle_alloc
	testb	$1, %al
	jne	.LBB39_9
.LBB39_6:
	xorl	%eax, %eax
	addq	$8, %rsp
	popq	%rbx
	popq	%r14
	retq
.Lfunc_end39:
	.size	"std_alloc::vec::Vec::grow_amortized::<#47f171320500d5e7>", .Lfunc_end39-"std_alloc::vec::Vec::grow_amortized::<#47f171320500d5e7>"

	.section	".text.core::slice::sort::small::insert_from::<#9d6850f96084634e>","ax",@progbits
	.p2align	4
	.type	"core::slice::sort::small::insert_from::<#9d6850f96084634e>",@function
"core::slice::sort::small::insert_from::<#9d6850f96084634e>":
	pushq	%rbp
	pushq	%r15
	pushq	%r14
	pushq	%r13
	pushq	%r12
	pushq	%rbx
	subq	$56, %rsp
	movq	%rsi, 8(%rsp)
	cmpq	%rsi, %rdx
	jae	.LBB40_36
	movq	%rdx, %rbx
	movq	%rdi, %r15
	jmp	.LBB40_2
.LBB40_32:
	xorl	%ecx, %ecx
.LBB40_33:
	imulq	$56, %rcx, %rax
.LBB40_34:
	movq	%r12, (%r15,%rax)
	movq	%r13, 8(%r15,%rax)
	movdqa	16(%rsp), %xmm0
	movdqa	32(%rsp), %xmm1
	movdqu	%xmm0, 16(%r15,%rax)
	movdqu	%xmm1, 32(%r15,%rax)
	movq	48(%rsp), %rcx
	movq	%rcx, 48(%r15,%rax)
.LBB40_35:
	incq	%rbx
	cmpq	8(%rsp), %rbx
	je	.LBB40_36
.LBB40_2:
	imulq	$56, %rbx, %rbp
	movq	(%r15,%rbp), %r12
	movq	8(%r15,%rbp), %r13
	movq	-56(%r15,%rbp), %rdx
	movq	-48(%r15,%rbp), %rcx
	movq	%r12, %rdi
	movq	%r13, %rsi
	callq	"amqp_value_core::types::short_string::ShortStringOrd::cmp"
	testb	%al, %al
	jne	.LBB40_35
	leaq	(%r15,%rbp), %rcx
	movq	%rbx, %rax
	leaq	(%r15,%rbp), %rdx
	addq	$-56, %rdx
	movq	48(%rcx), %rsi
	movq	%rsi, 48(%rsp)
	movups	16(%rcx), %xmm0
	movups	32(%rcx), %xmm1
	movaps	%xmm1, 32(%rsp)
	movaps	%xmm0, 16(%rsp)
	movdqu	(%rdx), %xmm0
	movdqu	16(%rdx), %xmm1
	movdqu	32(%rdx), %xmm2
	movdqu	%xmm0, (%rcx)
	movdqu	%xmm1, 16(%rcx)
	movdqu	%xmm2, 32(%rcx)
	movq	48(%rdx), %rdx
	movq	%rdx, 48(%rcx)
	decq	%rax
	jne	.LBB40_5
	xorl	%eax, %eax
	jmp	.LBB40_34
	.p2align	4
.LBB40_12:
	jae	.LBB40_33
.LBB40_31:
	addq	%r15, %rdx
	imulq	$56, %rcx, %rcx
	movq	48(%rdx), %rsi
	movq	%rsi, 48(%r15,%rcx)
	movdqu	(%rdx), %xmm0
	movdqu	16(%rdx), %xmm1
	movdqu	32(%rdx), %xmm2
	movdqu	%xmm2, 32(%r15,%rcx)
	movdqu	%xmm1, 16(%r15,%rcx)
	movdqu	%xmm0, (%r15,%rcx)
	testq	%rax, %rax
	je	.LBB40_32
.LBB40_5:
	movq	%rax, %rcx
	decq	%rax
	imulq	$56, %rax, %rdx
	movq	(%r15,%rdx), %rsi
	movq	8(%r15,%rdx), %rdi
	cmpq	%r13, %rdi
	movq	%r13, %r8
	cmovbq	%rdi, %r8
	cmpq	$7, %r8
	ja	.LBB40_10
	cmpq	$4, %r8
	jb	.LBB40_8
	movl	(%r12), %r10d
	movl	-4(%r12,%r8), %r9d
	shlq	$32, %r9
	orq	%r10, %r9
	bswapq	%r9
	movl	(%rsi), %r11d
	movl	-4(%rsi,%r8), %r10d
	shlq	$32, %r10
	orq	%r11, %r10
	bswapq	%r10
	cmpq	%r10, %r9
	jne	.LBB40_12
	jmp	.LBB40_13
	.p2align	4
.LBB40_10:
	movq	(%r12), %r9
	leaq	-8(%r8), %r10
	cmpq	$8, %r10
	movl	$8, %r11d
	cmovbq	%r10, %r11
	movq	(%rsi), %r10
	movq	(%r12,%r11), %rbp
	bswapq	%rbp
	movq	(%rsi,%r11), %r11
	bswapq	%r11
	cmpq	%r10, %r9
	bswapq	%r10
	bswapq	%r9
	cmoveq	%rbp, %r9
	cmoveq	%r11, %r10
	cmpq	%r10, %r9
	jne	.LBB40_12
	jmp	.LBB40_13
	.p2align	4
.LBB40_8:
	testq	%r8, %r8
	je	.LBB40_30
	movzbl	(%r12), %r9d
	movq	%r8, %r10
	shrq	%r10
	movzbl	(%r12,%r10), %r11d
	shll	$16, %r9d
	shll	$8, %r11d
	orl	%r9d, %r11d
	movzbl	-1(%r12,%r8), %r9d
	orq	%r11, %r9
	movzbl	(%rsi), %r11d
	movzbl	(%rsi,%r10), %ebp
	shll	$16, %r11d
	shll	$8, %ebp
	orl	%r11d, %ebp
	movzbl	-1(%rsi,%r8), %r10d
	orq	%rbp, %r10
	cmpq	%r10, %r9
	jne	.LBB40_12
	.p2align	4
.LBB40_13:
	cmpq	$16, %r8
	jbe	.LBB40_30
	leaq	-16(%r8), %r9
	cmpq	$79, %r9
	ja	.LBB40_18
	movl	$16, %r10d
	movq	%r9, %r11
	.p2align	4
.LBB40_16:
	cmpq	$17, %r11
	jb	.LBB40_27
	movdqu	(%r12,%r10), %xmm0
	movdqu	(%rsi,%r10), %xmm1
	pcmpeqb	%xmm0, %xmm1
	pmovmskb	%xmm1, %ebp
	notl	%ebp
	rep		bsfl	%ebp, %ebp
	leaq	(%r10,%rbp), %r14
	addq	$16, %r10
	addq	$-16, %r11
	cmpq	%r10, %r14
	jae	.LBB40_16
	jmp	.LBB40_26
.LBB40_18:
	movdqu	16(%r12), %xmm0
	movdqu	16(%rsi), %xmm1
	pcmpeqb	%xmm0, %xmm1
	pmovmskb	%xmm1, %r10d
	notl	%r10d
	rep		bsfl	%r10d, %r10d
	cmpw	$16, %r10w
	jae	.LBB40_20
	addl	$16, %r10d
	cmpq	%r8, %r10
	jae	.LBB40_30
	jmp	.LBB40_29
.LBB40_20:
	leaq	-32(%r8), %r11
	movl	$32, %r10d
	.p2align	4
.LBB40_21:
	movdqu	(%r12,%r10), %xmm0
	movdqu	16(%r12,%r10), %xmm1
	movdqu	32(%r12,%r10), %xmm2
	movdqu	48(%r12,%r10), %xmm3
	movdqu	(%rsi,%r10), %xmm4
	pcmpeqb	%xmm0, %xmm4
	movdqu	16(%rsi,%r10), %xmm0
	pcmpeqb	%xmm1, %xmm0
	pand	%xmm4, %xmm0
	movdqu	32(%rsi,%r10), %xmm1
	pcmpeqb	%xmm2, %xmm1
	movdqu	48(%rsi,%r10), %xmm2
	pcmpeqb	%xmm3, %xmm2
	pand	%xmm1, %xmm2
	pand	%xmm0, %xmm2
	pmovmskb	%xmm2, %ebp
	cmpl	$65535, %ebp
	jne	.LBB40_23
	addq	$64, %r10
	addq	$-64, %r11
	cmpq	$63, %r11
	ja	.LBB40_21
.LBB40_23:
	movq	%r8, %r11
	subq	%r10, %r11
	.p2align	4
.LBB40_24:
	cmpq	$17, %r11
	jb	.LBB40_27
	movdqu	(%r12,%r10), %xmm0
	movdqu	(%rsi,%r10), %xmm1
	pcmpeqb	%xmm0, %xmm1
	pmovmskb	%xmm1, %ebp
	notl	%ebp
	rep		bsfl	%ebp, %ebp
	leaq	(%r10,%rbp), %r14
	addq	$16, %r10
	addq	$-16, %r11
	cmpq	%r10, %r14
	jae	.LBB40_24
.LBB40_26:
	movzwl	%bp, %r9d
	addq	%r9, %r10
	addq	$-16, %r10
	cmpq	%r8, %r10
	jb	.LBB40_29
	.p2align	4
.LBB40_30:
	cmpq	%rdi, %r13
	jb	.LBB40_31
	jmp	.LBB40_33
.LBB40_27:
	movdqu	(%r12,%r9), %xmm0
	movdqu	(%rsi,%r9), %xmm1
	pcmpeqb	%xmm0, %xmm1
	pmovmskb	%xmm1, %r10d
	notl	%r10d
	rep		bsfl	%r10d, %r10d
	addq	%r9, %r10
	cmpq	%r8, %r10
	jae	.LBB40_30
.LBB40_29:
	movzbl	(%r12,%r10), %edi
	cmpb	(%rsi,%r10), %dil
	jb	.LBB40_31
	jmp	.LBB40_33
.LBB40_36:
	addq	$56, %rsp
	popq	%rbx
	popq	%r12
	popq	%r13
	popq	%r14
	popq	%r15
	popq	%rbp
	retq
.Lfunc_end40:
	.size	"core::slice::sort::small::insert_from::<#9d6850f96084634e>", .Lfunc_end40-"core::slice::sort::small::insert_from::<#9d6850f96084634e>"

	.section	".text.core::slice::sort::pivot::run_from::<#9d6850f96084634e>","ax",@progbits
	.p2align	4
	.type	"core::slice::sort::pivot::run_from::<#9d6850f96084634e>",@function
"core::slice::sort::pivot::run_from::<#9d6850f96084634e>":
	pushq	%r15
	pushq	%r14
	pushq	%r12
	pushq	%rbx
	pushq	%rax
	movq	%rdx, %rbx
	movq	%rsi, %r14
	movq	%rdi, %r15
	imulq	$56, %rdx, %r12
	addq	$2, %rbx
	movq	56(%rdi,%r12), %rdi
	movq	64(%r15,%r12), %rsi
	movq	(%r15,%r12), %rdx
	movq	8(%r15,%r12), %rcx
	callq	"amqp_value_core::types::short_string::ShortStringOrd::cmp"
	testb	%al, %al
	je	.LBB41_6
	cmpq	%r14, %rbx
	jae	.LBB41_12
	addq	%r12, %r15
	addq	$120, %r15
	.p2align	4
.LBB41_3:
	movq	-8(%r15), %rdi
	movq	(%r15), %rsi
	movq	-64(%r15), %rdx
	movq	-56(%r15), %rcx
	callq	"amqp_value_core::types::short_string::ShortStringOrd::cmp"
	testb	%al, %al
	je	.LBB41_12
	incq	%rbx
	addq	$56, %r15
	cmpq	%rbx, %r14
	jne	.LBB41_3
	xorl	%edx, %edx
	movq	%r14, %rbx
	jmp	.LBB41_14
.LBB41_12:
	xorl	%edx, %edx
	jmp	.LBB41_14
.LBB41_6:
	movb	$1, %dl
	cmpq	%r14, %rbx
	jae	.LBB41_14
	addq	%r12, %r15
	addq	$120, %r15
	.p2align	4
.LBB41_8:
	movq	-8(%r15), %rdi
	movq	(%r15), %rsi
	movq	-64(%r15), %rdx
	movq	-56(%r15), %rcx
	callq	"amqp_value_core::types::short_string::ShortStringOrd::cmp"
	testb	%al, %al
	jne	.LBB41_13
	incq	%rbx
	addq	$56, %r15
	cmpq	%rbx, %r14
	jne	.LBB41_8
	movq	%r14, %rbx
.LBB41_13:
	movb	$1, %dl
.LBB41_14:
	movq	%rbx, %rax
	addq	$8, %rsp
	popq	%rbx
	popq	%r12
	popq	%r14
	popq	%r15
	retq
.Lfunc_end41:
	.size	"core::slice::sort::pivot::run_from::<#9d6850f96084634e>", .Lfunc_end41-"core::slice::sort::pivot::run_from::<#9d6850f96084634e>"

	.section	".text.core::slice::edits::mirror::<24'(,)::<#8af3e1b4e9e21b57>>","ax",@progbits
	.p2align	4
	.type	"core::slice::edits::mirror::<24'(,)::<#8af3e1b4e9e21b57>>",@function
"core::slice::edits::mirror::<24'(,)::<#8af3e1b4e9e21b57>>":
	imulq	$56, %rdx, %rax
	addq	%rsi, %rax
	addq	$-56, %rax
	.p2align	4
.LBB42_1:
	movq	48(%rdi), %rcx
	movq	%rcx, -8(%rsp)
	movups	(%rdi), %xmm0
	movups	16(%rdi), %xmm1
	movups	32(%rdi), %xmm2
	movaps	%xmm2, -24(%rsp)
	movaps	%xmm1, -40(%rsp)
	movaps	%xmm0, -56(%rsp)
	movq	48(%rax), %rcx
	movups	(%rax), %xmm0
	movups	16(%rax), %xmm1
	movups	32(%rax), %xmm2
	movups	%xmm0, (%rdi)
	movq	%rcx, 48(%rdi)
	movups	%xmm2, 32(%rdi)
	movups	%xmm1, 16(%rdi)
	movq	-8(%rsp), %rcx
	movq	%rcx, 48(%rax)
	movaps	-56(%rsp), %xmm0
	movaps	-40(%rsp), %xmm1
	movaps	-24(%rsp), %xmm2
	movups	%xmm2, 32(%rax)
	movups	%xmm1, 16(%rax)
	movups	%xmm0, (%rax)
	addq	$56, %rdi
	addq	$-56, %rax
	decq	%rdx
	jne	.LBB42_1
	retq
.Lfunc_end42:
	.size	"core::slice::edits::mirror::<24'(,)::<#8af3e1b4e9e21b57>>", .Lfunc_end42-"core::slice::edits::mirror::<24'(,)::<#8af3e1b4e9e21b57>>"

	.section	".text.core::slice::sort::stable::quicksort::<#9d6850f96084634e>","ax",@progbits
	.p2align	4
	.type	"core::slice::sort::stable::quicksort::<#9d6850f96084634e>",@function
"core::slice::sort::stable::quicksort::<#9d6850f96084634e>":
	pushq	%rbp
	pushq	%r15
	pushq	%r14
	pushq	%r13
	pushq	%r12
	pushq	%rbx
	subq	$120, %rsp
	movq	%r8, %r13
	movl	%ecx, %r14d
	movq	%rdx, %rbx
	movq	%rsi, %r15
	movq	%rdi, 8(%rsp)
	cmpq	$33, %rsi
	movq	%r8, 48(%rsp)
	jae	.LBB43_1
.LBB43_33:
	movq	8(%rsp), %rdi
	movq	%r15, %rsi
	movq	%r13, %rdx
	addq	$120, %rsp
	popq	%rbx
	popq	%r12
	popq	%r13
	popq	%r14
	popq	%r15
	popq	%rbp
	jmp	"core::slice::sort::short::sort::<#9d6850f96084634e>"
	.p2align	4
.LBB43_43:
	movq	%r15, %rdi
	movq	%r12, %rsi
	callq	memmove@PLT
	movq	48(%rsp), %r13
	movl	36(%rsp), %r14d
	movq	64(%rsp), %r9
.LBB43_49:
	movq	%r12, (%r13)
	movq	%r9, 8(%r13)
	decl	%r14d
	movq	8(%rsp), %rdi
	movq	%rbp, %rsi
	movq	56(%rsp), %rdx
	movl	%r14d, %ecx
	movq	%r13, %r8
	callq	"core::slice::sort::stable::quicksort::<#9d6850f96084634e>"
	movq	40(%rsp), %r10
	movq	%rbx, %rbp
.LBB43_32:
	movq	%r10, %rbx
	movq	%r15, 8(%rsp)
	movq	%rbp, %r15
	cmpq	$33, %rbp
	jb	.LBB43_33
.LBB43_1:
	testl	%r14d, %r14d
	je	.LBB43_50
	movl	%r14d, 36(%rsp)
	movq	%r15, %rbp
	shrq	$3, %rbp
	cmpq	$63, %r15
	movq	%r15, 56(%rsp)
	ja	.LBB43_7
	imulq	$224, %rbp, %rax
	movq	8(%rsp), %r13
	movq	(%r13), %r14
	movq	8(%r13), %r12
	movq	(%r13,%rax), %rdx
	movq	8(%r13,%rax), %rcx
	movq	%r14, %rdi
	movq	%r12, %rsi
	movq	%rdx, 16(%rsp)
	movq	%rcx, 40(%rsp)
	callq	"amqp_value_core::types::short_string::ShortStringOrd::cmp"
	movl	%eax, %r15d
	testb	%al, %al
	sete	24(%rsp)
	imulq	$392, %rbp, %rax
	movq	(%r13,%rax), %rcx
	movq	8(%r13,%rax), %r13
	movq	%r14, %rdi
	movq	%r12, %rsi
	movq	%rcx, %r12
	movq	%rcx, %rdx
	movq	%r13, %rcx
	callq	"amqp_value_core::types::short_string::ShortStringOrd::cmp"
	testb	%al, %al
	sete	%al
	xorb	24(%rsp), %al
	je	.LBB43_6
	xorl	%ebp, %ebp
	jmp	.LBB43_5
	.p2align	4
.LBB43_7:
	leaq	(,%rbp,4), %rdx
	leaq	(,%rbp,8), %rcx
	subq	%rbp, %rcx
	movq	8(%rsp), %r12
	movq	%r12, %rdi
	xorl	%esi, %esi
	movq	%rbp, %r8
	callq	"core::slice::sort::pivot::median_of_medians::<#9d6850f96084634e>"
	movq	%rax, %rbp
	jmp	.LBB43_8
	.p2align	4
.LBB43_6:
	testb	%r15b, %r15b
	sete	%r15b
	leaq	(,%rbp,8), %r14
	subq	%rbp, %r14
	shlq	$2, %rbp
	movq	16(%rsp), %rdi
	movq	40(%rsp), %rsi
	movq	%r12, %rdx
	movq	%r13, %rcx
	callq	"amqp_value_core::types::short_string::ShortStringOrd::cmp"
	testb	%al, %al
	sete	%al
	xorb	%r15b, %al
	cmovneq	%r14, %rbp
.LBB43_5:
	movq	56(%rsp), %r15
	movq	8(%rsp), %r12
	movq	48(%rsp), %r13
.LBB43_8:
	imulq	$56, %rbp, %rsi
	leaq	(%r12,%rsi), %r14
	cmpq	%r15, %rbx
	movq	%rbp, 40(%rsp)
	movq	%rsi, 72(%rsp)
	jae	.LBB43_9
	imulq	$56, %rbx, %rax
	movq	(%r12,%rax), %rdi
	movq	8(%r12,%rax), %rsi
	movq	(%r14), %rdx
	movq	8(%r14), %rcx
	movq	%rdx, 24(%rsp)
	movq	%rcx, 16(%rsp)
	callq	"amqp_value_core::types::short_string::ShortStringOrd::cmp"
	movq	(%r13), %r12
	movq	8(%r13), %rcx
	testb	%al, %al
	movq	%rcx, 64(%rsp)
	je	.LBB43_13
	movq	48(%r14), %rax
	movq	%rax, 112(%rsp)
	movups	16(%r14), %xmm0
	movups	32(%r14), %xmm1
	movaps	%xmm1, 96(%rsp)
	movaps	%xmm0, 80(%rsp)
	xorl	%r14d, %r14d
	testq	%rbp, %rbp
	je	.LBB43_15
	movq	8(%rsp), %r13
	movq	%r13, %rbx
	xorl	%r15d, %r15d
	movq	24(%rsp), %rdi
	movq	16(%rsp), %rsi
	.p2align	4
.LBB43_17:
	movq	%r14, %rbp
	movq	(%rbx), %rdx
	movq	8(%rbx), %rcx
	callq	"amqp_value_core::types::short_string::ShortStringOrd::cmp"
	movq	16(%rsp), %rsi
	movq	24(%rsp), %rdi
	movq	%r15, %rcx
	subq	%r14, %rcx
	xorl	%r14d, %r14d
	testb	%al, %al
	movq	%r12, %rax
	cmovneq	%r13, %rax
	setne	%r14b
	cmovneq	%rbp, %rcx
	imulq	$56, %rcx, %rcx
	movq	48(%rbx), %rdx
	movups	(%rbx), %xmm0
	movups	16(%rbx), %xmm1
	movups	32(%rbx), %xmm2
	movups	%xmm0, (%rax,%rcx)
	movq	%rdx, 48(%rax,%rcx)
	movups	%xmm2, 32(%rax,%rcx)
	movups	%xmm1, 16(%rax,%rcx)
	addq	%rbp, %r14
	movq	40(%rsp), %rbp
	incq	%r15
	addq	$56, %rbx
	cmpq	%r15, %rbp
	jne	.LBB43_17
	jmp	.LBB43_18
	.p2align	4
.LBB43_9:
	movq	(%r13), %r12
	movq	8(%r13), %rax
	movq	%rax, 64(%rsp)
	movq	(%r14), %rdx
	movq	8(%r14), %rcx
	jmp	.LBB43_10
.LBB43_13:
	movq	24(%rsp), %rdx
	movq	16(%rsp), %rcx
	movq	72(%rsp), %rsi
.LBB43_10:
	movq	8(%rsp), %r13
	movq	48(%r13,%rsi), %rax
	movq	%rax, 112(%rsp)
	movups	16(%r13,%rsi), %xmm0
	movups	32(%r13,%rsi), %xmm1
	movaps	%xmm1, 96(%rsp)
	movaps	%xmm0, 80(%rsp)
	testq	%rbp, %rbp
	movq	%rdx, 24(%rsp)
	movq	%rcx, 16(%rsp)
	je	.LBB43_11
	xorl	%r14d, %r14d
	movq	%r13, %rbx
	xorl	%r15d, %r15d
	.p2align	4
.LBB43_35:
	movq	%r14, %rbp
	movq	(%rbx), %rdi
	movq	8(%rbx), %rsi
	callq	"amqp_value_core::types::short_string::ShortStringOrd::cmp"
	movq	16(%rsp), %rcx
	movq	24(%rsp), %rdx
	movq	%r15, %rsi
	subq	%r14, %rsi
	xorl	%r14d, %r14d
	testb	%al, %al
	movq	%r12, %rax
	cmoveq	%r13, %rax
	sete	%r14b
	cmoveq	%rbp, %rsi
	imulq	$56, %rsi, %rdi
	movq	48(%rbx), %rsi
	movups	(%rbx), %xmm0
	movups	16(%rbx), %xmm1
	movups	32(%rbx), %xmm2
	movups	%xmm0, (%rax,%rdi)
	movq	%rsi, 48(%rax,%rdi)
	movups	%xmm2, 32(%rax,%rdi)
	movups	%xmm1, 16(%rax,%rdi)
	addq	%rbp, %r14
	movq	40(%rsp), %rbp
	incq	%r15
	addq	$56, %rbx
	cmpq	%r15, %rbp
	jne	.LBB43_35
	jmp	.LBB43_36
	.p2align	4
.LBB43_11:
	xorl	%r14d, %r14d
.LBB43_36:
	leaq	1(%rbp), %rbx
	movq	%r14, %rbp
	movq	56(%rsp), %rsi
	cmpq	%rsi, %rbx
	movq	%r13, 8(%rsp)
	movq	%r12, %r8
	jae	.LBB43_39
	movq	72(%rsp), %rax
	movq	8(%rsp), %rdi
	leaq	(%rdi,%rax), %r15
	addq	$56, %r15
	movq	%r14, %rbp
	.p2align	4
.LBB43_38:
	movq	%rbp, %r13
	movq	(%r15), %rdi
	movq	%rsi, %r12
	movq	8(%r15), %rsi
	movq	%r8, %rbp
	callq	"amqp_value_core::types::short_string::ShortStringOrd::cmp"
	movq	%rbp, %r8
	movq	16(%rsp), %rcx
	movq	24(%rsp), %rdx
	movq	%rbx, %rsi
	subq	%r13, %rsi
	xorl	%ebp, %ebp
	testb	%al, %al
	movq	%r8, %rax
	cmoveq	8(%rsp), %rax
	sete	%bpl
	cmoveq	%r13, %rsi
	imulq	$56, %rsi, %rdi
	movq	48(%r15), %rsi
	movups	(%r15), %xmm0
	movups	16(%r15), %xmm1
	movups	32(%r15), %xmm2
	movups	%xmm0, (%rax,%rdi)
	movq	%rsi, 48(%rax,%rdi)
	movq	%r12, %rsi
	movups	%xmm2, 32(%rax,%rdi)
	movups	%xmm1, 16(%rax,%rdi)
	addq	%r13, %rbp
	incq	%rbx
	addq	$56, %r15
	cmpq	%rbx, %r12
	jne	.LBB43_38
.LBB43_39:
	movq	40(%rsp), %rax
	subq	%r14, %rax
	movq	%rax, 40(%rsp)
	imulq	$56, %rax, %rax
	movq	%rdx, (%r8,%rax)
	movq	%rcx, 8(%r8,%rax)
	movaps	80(%rsp), %xmm0
	movaps	96(%rsp), %xmm1
	movups	%xmm0, 16(%r8,%rax)
	movups	%xmm1, 32(%r8,%rax)
	movq	112(%rsp), %rcx
	movq	%rcx, 48(%r8,%rax)
	movq	%rsi, %rcx
	subq	%rbp, %rcx
	imulq	$56, %rbp, %rax
	movq	8(%rsp), %rdx
	leaq	(%rdx,%rax), %r15
	movq	%rcx, %rbx
	imulq	$56, %rcx, %rdx
	movq	%r15, %rcx
	subq	%r8, %rcx
	cmpq	%rdx, %rcx
	movq	%r8, %r12
	jae	.LBB43_43
	cmpq	%rbp, %rsi
	movq	48(%rsp), %r13
	movl	36(%rsp), %r14d
	movq	64(%rsp), %r9
	je	.LBB43_49
	movq	%rbx, %rsi
	movl	%esi, %ecx
	andl	$7, %ecx
	movq	%rbp, %rdx
	subq	56(%rsp), %rdx
	cmpq	$-8, %rdx
	jbe	.LBB43_44
	xorl	%edx, %edx
	jmp	.LBB43_47
.LBB43_15:
	movq	24(%rsp), %rdi
	movq	16(%rsp), %rsi
.LBB43_18:
	leaq	1(%r14), %r8
	incq	%rbp
	movq	56(%rsp), %r10
	cmpq	%r10, %rbp
	jae	.LBB43_21
	movq	72(%rsp), %rax
	movq	8(%rsp), %rcx
	leaq	(%rcx,%rax), %rbx
	addq	$56, %rbx
	.p2align	4
.LBB43_20:
	movq	%r8, %r15
	movq	(%rbx), %rdx
	movq	8(%rbx), %rcx
	movq	%r10, %r13
	callq	"amqp_value_core::types::short_string::ShortStringOrd::cmp"
	movq	%r13, %r10
	movq	16(%rsp), %rsi
	movq	24(%rsp), %rdi
	movq	%rbp, %rcx
	subq	%r15, %rcx
	xorl	%r8d, %r8d
	testb	%al, %al
	movq	%r12, %rax
	cmovneq	8(%rsp), %rax
	setne	%r8b
	cmovneq	%r15, %rcx
	imulq	$56, %rcx, %rcx
	movq	48(%rbx), %rdx
	movups	(%rbx), %xmm0
	movups	16(%rbx), %xmm1
	movups	32(%rbx), %xmm2
	movups	%xmm0, (%rax,%rcx)
	movq	%rdx, 48(%rax,%rcx)
	movups	%xmm2, 32(%rax,%rcx)
	movups	%xmm1, 16(%rax,%rcx)
	addq	%r15, %r8
	incq	%rbp
	addq	$56, %rbx
	cmpq	%rbp, %r13
	jne	.LBB43_20
.LBB43_21:
	imulq	$56, %r14, %rax
	movq	8(%rsp), %rdx
	movq	%rdi, (%rdx,%rax)
	movq	%rsi, 8(%rdx,%rax)
	movaps	80(%rsp), %xmm0
	movaps	96(%rsp), %xmm1
	movups	%xmm0, 16(%rdx,%rax)
	movups	%xmm1, 32(%rdx,%rax)
	movq	112(%rsp), %rcx
	movq	%rcx, 48(%rdx,%rax)
	movq	%r10, %rbp
	subq	%r8, %rbp
	imulq	$56, %r8, %rax
	leaq	(%rdx,%rax), %r15
	imulq	$56, %rbp, %rdx
	movq	%r15, %rcx
	subq	%r12, %rcx
	cmpq	%rdx, %rcx
	jae	.LBB43_25
	cmpq	%r8, %r10
	movl	36(%rsp), %r14d
	movq	64(%rsp), %r9
	movq	48(%rsp), %r13
	je	.LBB43_31
	movl	%ebp, %ecx
	andl	$7, %ecx
	subq	%r10, %r8
	cmpq	$-8, %r8
	jbe	.LBB43_26
	xorl	%edx, %edx
	movq	8(%rsp), %rdi
	jmp	.LBB43_29
.LBB43_25:
	movq	%r15, %rdi
	movq	%r12, %rsi
	movq	%r10, %rbx
	callq	memmove@PLT
	movq	%rbx, %r10
	movl	36(%rsp), %r14d
	movq	64(%rsp), %r9
	movq	48(%rsp), %r13
	jmp	.LBB43_31
.LBB43_44:
	andq	$-8, %rsi
	movl	$392, %edi
	xorl	%edx, %edx
	.p2align	4
.LBB43_45:
	movups	-392(%r12,%rdi), %xmm0
	movups	-376(%r12,%rdi), %xmm1
	movups	-360(%r12,%rdi), %xmm2
	movq	-344(%r12,%rdi), %r8
	movq	%r8, -344(%r15,%rdi)
	movups	%xmm2, -360(%r15,%rdi)
	movups	%xmm1, -376(%r15,%rdi)
	movups	%xmm0, -392(%r15,%rdi)
	movups	-336(%r12,%rdi), %xmm0
	movups	-320(%r12,%rdi), %xmm1
	movups	-304(%r12,%rdi), %xmm2
	movq	-288(%r12,%rdi), %r8
	movq	%r8, -288(%r15,%rdi)
	movups	%xmm2, -304(%r15,%rdi)
	movups	%xmm1, -320(%r15,%rdi)
	movups	%xmm0, -336(%r15,%rdi)
	movups	-280(%r12,%rdi), %xmm0
	movups	-264(%r12,%rdi), %xmm1
	movups	-248(%r12,%rdi), %xmm2
	movq	-232(%r12,%rdi), %r8
	movq	%r8, -232(%r15,%rdi)
	movups	%xmm2, -248(%r15,%rdi)
	movups	%xmm1, -264(%r15,%rdi)
	movups	%xmm0, -280(%r15,%rdi)
	movups	-224(%r12,%rdi), %xmm0
	movups	-208(%r12,%rdi), %xmm1
	movups	-192(%r12,%rdi), %xmm2
	movq	-176(%r12,%rdi), %r8
	movq	%r8, -176(%r15,%rdi)
	movups	%xmm2, -192(%r15,%rdi)
	movups	%xmm1, -208(%r15,%rdi)
	movups	%xmm0, -224(%r15,%rdi)
	movups	-168(%r12,%rdi), %xmm0
	movups	-152(%r12,%rdi), %xmm1
	movups	-136(%r12,%rdi), %xmm2
	movq	-120(%r12,%rdi), %r8
	movq	%r8, -120(%r15,%rdi)
	movups	%xmm2, -136(%r15,%rdi)
	movups	%xmm1, -152(%r15,%rdi)
	movups	%xmm0, -168(%r15,%rdi)
	movups	-112(%r12,%rdi), %xmm0
	movups	-96(%r12,%rdi), %xmm1
	movups	-80(%r12,%rdi), %xmm2
	movq	-64(%r12,%rdi), %r8
	movq	%r8, -64(%r15,%rdi)
	movups	%xmm2, -80(%r15,%rdi)
	movups	%xmm1, -96(%r15,%rdi)
	movups	%xmm0, -112(%r15,%rdi)
	movups	-56(%r12,%rdi), %xmm0
	movups	-40(%r12,%rdi), %xmm1
	movups	-24(%r12,%rdi), %xmm2
	movq	-8(%r12,%rdi), %r8
	movq	%r8, -8(%r15,%rdi)
	movups	%xmm2, -24(%r15,%rdi)
	movups	%xmm1, -40(%r15,%rdi)
	movups	%xmm0, -56(%r15,%rdi)
	movups	(%r12,%rdi), %xmm0
	movups	16(%r12,%rdi), %xmm1
	movups	32(%r12,%rdi), %xmm2
	movq	48(%r12,%rdi), %r8
	movq	%r8, 48(%r15,%rdi)
	movups	%xmm2, 32(%r15,%rdi)
	movups	%xmm1, 16(%r15,%rdi)
	movups	%xmm0, (%r15,%rdi)
	addq	$8, %rdx
	addq	$448, %rdi
	cmpq	%rdx, %rsi
	jne	.LBB43_45
	testq	%rcx, %rcx
	je	.LBB43_49
.LBB43_47:
	imulq	$56, %rdx, %rdx
	leaq	(%r12,%rdx), %rsi
	addq	8(%rsp), %rdx
	addq	%rax, %rdx
	imulq	$56, %rcx, %rax
	xorl	%ecx, %ecx
	.p2align	4
.LBB43_48:
	movups	(%rsi,%rcx), %xmm0
	movups	16(%rsi,%rcx), %xmm1
	movups	32(%rsi,%rcx), %xmm2
	movq	48(%rsi,%rcx), %rdi
	movq	%rdi, 48(%rdx,%rcx)
	movups	%xmm2, 32(%rdx,%rcx)
	movups	%xmm1, 16(%rdx,%rcx)
	movups	%xmm0, (%rdx,%rcx)
	addq	$56, %rcx
	cmpq	%rcx, %rax
	jne	.LBB43_48
	jmp	.LBB43_49
.LBB43_26:
	movq	%rbp, %rsi
	andq	$-8, %rsi
	movl	$392, %edi
	xorl	%edx, %edx
	.p2align	4
.LBB43_27:
	movups	-392(%r12,%rdi), %xmm0
	movups	-376(%r12,%rdi), %xmm1
	movups	-360(%r12,%rdi), %xmm2
	movq	-344(%r12,%rdi), %r8
	movq	%r8, -344(%r15,%rdi)
	movups	%xmm2, -360(%r15,%rdi)
	movups	%xmm1, -376(%r15,%rdi)
	movups	%xmm0, -392(%r15,%rdi)
	movups	-336(%r12,%rdi), %xmm0
	movups	-320(%r12,%rdi), %xmm1
	movups	-304(%r12,%rdi), %xmm2
	movq	-288(%r12,%rdi), %r8
	movq	%r8, -288(%r15,%rdi)
	movups	%xmm2, -304(%r15,%rdi)
	movups	%xmm1, -320(%r15,%rdi)
	movups	%xmm0, -336(%r15,%rdi)
	movups	-280(%r12,%rdi), %xmm0
	movups	-264(%r12,%rdi), %xmm1
	movups	-248(%r12,%rdi), %xmm2
	movq	-232(%r12,%rdi), %r8
	movq	%r8, -232(%r15,%rdi)
	movups	%xmm2, -248(%r15,%rdi)
	movups	%xmm1, -264(%r15,%rdi)
	movups	%xmm0, -280(%r15,%rdi)
	movups	-224(%r12,%rdi), %xmm0
	movups	-208(%r12,%rdi), %xmm1
	movups	-192(%r12,%rdi), %xmm2
	movq	-176(%r12,%rdi), %r8
	movq	%r8, -176(%r15,%rdi)
	movups	%xmm2, -192(%r15,%rdi)
	movups	%xmm1, -208(%r15,%rdi)
	movups	%xmm0, -224(%r15,%rdi)
	movups	-168(%r12,%rdi), %xmm0
	movups	-152(%r12,%rdi), %xmm1
	movups	-136(%r12,%rdi), %xmm2
	movq	-120(%r12,%rdi), %r8
	movq	%r8, -120(%r15,%rdi)
	movups	%xmm2, -136(%r15,%rdi)
	movups	%xmm1, -152(%r15,%rdi)
	movups	%xmm0, -168(%r15,%rdi)
	movups	-112(%r12,%rdi), %xmm0
	movups	-96(%r12,%rdi), %xmm1
	movups	-80(%r12,%rdi), %xmm2
	movq	-64(%r12,%rdi), %r8
	movq	%r8, -64(%r15,%rdi)
	movups	%xmm2, -80(%r15,%rdi)
	movups	%xmm1, -96(%r15,%rdi)
	movups	%xmm0, -112(%r15,%rdi)
	movups	-56(%r12,%rdi), %xmm0
	movups	-40(%r12,%rdi), %xmm1
	movups	-24(%r12,%rdi), %xmm2
	movq	-8(%r12,%rdi), %r8
	movq	%r8, -8(%r15,%rdi)
	movups	%xmm2, -24(%r15,%rdi)
	movups	%xmm1, -40(%r15,%rdi)
	movups	%xmm0, -56(%r15,%rdi)
	movups	(%r12,%rdi), %xmm0
	movups	16(%r12,%rdi), %xmm1
	movups	32(%r12,%rdi), %xmm2
	movq	48(%r12,%rdi), %r8
	movq	%r8, 48(%r15,%rdi)
	movups	%xmm2, 32(%r15,%rdi)
	movups	%xmm1, 16(%r15,%rdi)
	movups	%xmm0, (%r15,%rdi)
	addq	$8, %rdx
	addq	$448, %rdi
	cmpq	%rdx, %rsi
	jne	.LBB43_27
	testq	%rcx, %rcx
	movq	8(%rsp), %rdi
	je	.LBB43_31
.LBB43_29:
	imulq	$56, %rdx, %rsi
	leaq	(%r12,%rsi), %rdx
	addq	%rsi, %rdi
	addq	%rax, %rdi
	imulq	$56, %rcx, %rax
	xorl	%ecx, %ecx
	.p2align	4
.LBB43_30:
	movups	(%rdx,%rcx), %xmm0
	movups	16(%rdx,%rcx), %xmm1
	movups	32(%rdx,%rcx), %xmm2
	movq	48(%rdx,%rcx), %rsi
	movq	%rsi, 48(%rdi,%rcx)
	movups	%xmm2, 32(%rdi,%rcx)
	movups	%xmm1, 16(%rdi,%rcx)
	movups	%xmm0, (%rdi,%rcx)
	addq	$56, %rcx
	cmpq	%rcx, %rax
	jne	.LBB43_30
.LBB43_31:
	movq	%r12, (%r13)
	movq	%r9, 8(%r13)
	decl	%r14d
	jmp	.LBB43_32
.LBB43_50:
	movq	8(%rsp), %rdi
	movq	%r15, %rsi
	movq	%r13, %rdx
	addq	$120, %rsp
	popq	%rbx
	popq	%r12
	popq	%r13
	popq	%r14
	popq	%r15
	popq	%rbp
	jmp	"core::slice::sort::stable::merge_sort::<#9d6850f96084634e>"
.Lfunc_end43:
	.size	"core::slice::sort::stable::quicksort::<#9d6850f96084634e>", .Lfunc_end43-"core::slice::sort::stable::quicksort::<#9d6850f96084634e>"

	.section	".text.core::slice::sort::short::sort::<#9d6850f96084634e>","ax",@progbits
	.p2align	4
	.type	"core::slice::sort::short::sort::<#9d6850f96084634e>",@function
"core::slice::sort::short::sort::<#9d6850f96084634e>":
	pushq	%rbp
	pushq	%r15
	pushq	%r14
	pushq	%r13
	pushq	%r12
	pushq	%rbx
	subq	$104, %rsp
	movq	%rdi, %r14
	cmpq	$15, %rsi
	ja	.LBB44_1
	movq	%r14, %rdi
	addq	$104, %rsp
	popq	%rbx
	popq	%r12
	popq	%r13
	popq	%r14
	popq	%r15
	popq	%rbp
	jmp	"core::slice::sort::short::sort_half::<#9d6850f96084634e>"
.LBB44_1:
	movq	%rsi, %r12
	shrq	%r12
	imulq	$56, %r12, %r15
	addq	%r14, %r15
	movq	%rsi, %rbp
	subq	%r12, %rbp
	movq	%r14, %rdi
	movq	%rsi, %r13
	movq	%r12, %rsi
	movq	%rdx, %rbx
	callq	"core::slice::sort::short::sort_half::<#9d6850f96084634e>"
	movq	%r15, %rdi
	movq	%rbp, %rsi
	movq	%rbx, %rdx
	callq	"core::slice::sort::short::sort_half::<#9d6850f96084634e>"
	movq	%r12, %rsi
	movq	(%rbx), %rax
	movq	%rax, 16(%rsp)
	movq	%rbx, 24(%rsp)
	movq	8(%rbx), %rax
	movq	%rax, 8(%rsp)
	xorps	%xmm0, %xmm0
	movaps	%xmm0, 80(%rsp)
	movaps	%xmm0, 64(%rsp)
	leaq	64(%rsp), %rax
	addq	%r13, %rax
	decq	%rax
	xorl	%r12d, %r12d
	movq	%rsi, %rbx
	movq	%rsi, %rbp
	movq	%r13, 32(%rsp)
	xorl	%r15d, %r15d
	movq	%rsi, 40(%rsp)
	.p2align	4
.LBB44_2:
	movq	%rax, (%rsp)
	movq	%r13, 48(%rsp)
	movq	%rbx, 56(%rsp)
	movq	%rbp, %rbx
	movq	%r12, %r13
	imulq	$56, %rbp, %rax
	imulq	$56, %r12, %rcx
	movq	(%r14,%rax), %rdi
	movq	8(%r14,%rax), %rsi
	movq	(%r14,%rcx), %rdx
	movq	8(%r14,%rcx), %rcx
	callq	"amqp_value_core::types::short_string::ShortStringOrd::cmp"
	xorl	%r12d, %r12d
	xorl	%ebp, %ebp
	testb	%al, %al
	setne	%r12b
	sete	%bpl
	movl	%r13d, %eax
	cmovel	%ebx, %eax
	movb	%al, 64(%rsp,%r15)
	addq	%rbx, %rbp
	movq	56(%rsp), %rbx
	addq	%r13, %r12
	movq	48(%rsp), %r13
	imulq	$56, %r13, %rax
	imulq	$56, %rbx, %rcx
	movq	-56(%r14,%rax), %rdi
	movq	-48(%r14,%rax), %rsi
	movq	-56(%r14,%rcx), %rdx
	movq	-48(%r14,%rcx), %rcx
	callq	"amqp_value_core::types::short_string::ShortStringOrd::cmp"
	movq	40(%rsp), %rsi
	xorl	%ecx, %ecx
	xorl	%edx, %edx
	testb	%al, %al
	setne	%cl
	movl	%r13d, %eax
	cmovel	%ebx, %eax
	sete	%dl
	decb	%al
	movq	(%rsp), %rdi
	movb	%al, (%rdi)
	movq	(%rsp), %rax
	subq	%rdx, %rbx
	subq	%rcx, %r13
	incq	%r15
	decq	%rax
	cmpq	%r15, %rsi
	jne	.LBB44_2
	movq	32(%rsp), %r8
	testb	$1, %r8b
	je	.LBB44_5
	cmpq	%rbx, %r12
	movl	%ebp, %eax
	cmovbl	%r12d, %eax
	movb	%al, 64(%rsp,%rsi)
.LBB44_5:
	cmpq	%r13, %rbp
	ja	.LBB44_18
	cmpq	%rbx, %r12
	ja	.LBB44_18
	movl	%r8d, %eax
	andl	$3, %eax
	movq	%r8, %rcx
	shrq	$2, %rcx
	imulq	$224, %rcx, %rdx
	xorl	%ecx, %ecx
	movq	16(%rsp), %r15
	leaq	64(%rsp), %rdi
	.p2align	4
.LBB44_8:
	movzbl	(%rdi), %esi
	imulq	$56, %rsi, %rsi
	movups	(%r14,%rsi), %xmm0
	movups	16(%r14,%rsi), %xmm1
	movups	32(%r14,%rsi), %xmm2
	movq	48(%r14,%rsi), %rsi
	movq	%rsi, 48(%r15,%rcx)
	movups	%xmm2, 32(%r15,%rcx)
	movups	%xmm1, 16(%r15,%rcx)
	movups	%xmm0, (%r15,%rcx)
	movzbl	1(%rdi), %esi
	imulq	$56, %rsi, %rsi
	movups	(%r14,%rsi), %xmm0
	movups	16(%r14,%rsi), %xmm1
	movups	32(%r14,%rsi), %xmm2
	movq	48(%r14,%rsi), %rsi
	movq	%rsi, 104(%r15,%rcx)
	movups	%xmm2, 88(%r15,%rcx)
	movups	%xmm1, 72(%r15,%rcx)
	movups	%xmm0, 56(%r15,%rcx)
	movzbl	2(%rdi), %esi
	imulq	$56, %rsi, %rsi
	movups	(%r14,%rsi), %xmm0
	movups	16(%r14,%rsi), %xmm1
	movups	32(%r14,%rsi), %xmm2
	movq	48(%r14,%rsi), %rsi
	movq	%rsi, 160(%r15,%rcx)
	movups	%xmm2, 144(%r15,%rcx)
	movups	%xmm1, 128(%r15,%rcx)
	movups	%xmm0, 112(%r15,%rcx)
	movzbl	3(%rdi), %esi
	imulq	$56, %rsi, %rsi
	movups	(%r14,%rsi), %xmm0
	movups	16(%r14,%rsi), %xmm1
	movups	32(%r14,%rsi), %xmm2
	movq	48(%r14,%rsi), %rsi
	movq	%rsi, 216(%r15,%rcx)
	movups	%xmm2, 200(%r15,%rcx)
	movups	%xmm1, 184(%r15,%rcx)
	movups	%xmm0, 168(%r15,%rcx)
	addq	$4, %rdi
	addq	$224, %rcx
	cmpq	%rcx, %rdx
	jne	.LBB44_8
	testq	%rax, %rax
	movq	24(%rsp), %rbx
	je	.LBB44_12
	addq	%r15, %rcx
	.p2align	4
.LBB44_11:
	movzbl	(%rdi), %edx
	imulq	$56, %rdx, %rdx
	movups	(%r14,%rdx), %xmm0
	movups	16(%r14,%rdx), %xmm1
	movups	32(%r14,%rdx), %xmm2
	movq	48(%r14,%rdx), %rdx
	movq	%rdx, 48(%rcx)
	movups	%xmm2, 32(%rcx)
	movups	%xmm1, 16(%rcx)
	movups	%xmm0, (%rcx)
	addq	$56, %rcx
	incq	%rdi
	decq	%rax
	jne	.LBB44_11
.LBB44_12:
	imulq	$56, %r8, %rdx
	movq	%r14, %rax
	subq	%r15, %rax
	cmpq	%rdx, %rax
	jae	.LBB44_20
	movl	%r8d, %eax
	andl	$7, %eax
	shrq	$3, %r8
	imulq	$448, %r8, %rdx
	xorl	%ecx, %ecx
	.p2align	4
.LBB44_14:
	movups	(%r15,%rcx), %xmm0
	movups	16(%r15,%rcx), %xmm1
	movups	32(%r15,%rcx), %xmm2
	movq	48(%r15,%rcx), %rsi
	movq	%rsi, 48(%r14,%rcx)
	movups	%xmm2, 32(%r14,%rcx)
	movups	%xmm1, 16(%r14,%rcx)
	movups	%xmm0, (%r14,%rcx)
	movups	56(%r15,%rcx), %xmm0
	movups	72(%r15,%rcx), %xmm1
	movups	88(%r15,%rcx), %xmm2
	movq	104(%r15,%rcx), %rsi
	movq	%rsi, 104(%r14,%rcx)
	movups	%xmm2, 88(%r14,%rcx)
	movups	%xmm1, 72(%r14,%rcx)
	movups	%xmm0, 56(%r14,%rcx)
	movups	112(%r15,%rcx), %xmm0
	movups	128(%r15,%rcx), %xmm1
	movups	144(%r15,%rcx), %xmm2
	movq	160(%r15,%rcx), %rsi
	movq	%rsi, 160(%r14,%rcx)
	movups	%xmm2, 144(%r14,%rcx)
	movups	%xmm1, 128(%r14,%rcx)
	movups	%xmm0, 112(%r14,%rcx)
	movups	168(%r15,%rcx), %xmm0
	movups	184(%r15,%rcx), %xmm1
	movups	200(%r15,%rcx), %xmm2
	movq	216(%r15,%rcx), %rsi
	movq	%rsi, 216(%r14,%rcx)
	movups	%xmm2, 200(%r14,%rcx)
	movups	%xmm1, 184(%r14,%rcx)
	movups	%xmm0, 168(%r14,%rcx)
	movups	224(%r15,%rcx), %xmm0
	movups	240(%r15,%rcx), %xmm1
	movups	256(%r15,%rcx), %xmm2
	movq	272(%r15,%rcx), %rsi
	movq	%rsi, 272(%r14,%rcx)
	movups	%xmm2, 256(%r14,%rcx)
	movups	%xmm1, 240(%r14,%rcx)
	movups	%xmm0, 224(%r14,%rcx)
	movups	280(%r15,%rcx), %xmm0
	movups	296(%r15,%rcx), %xmm1
	movups	312(%r15,%rcx), %xmm2
	movq	328(%r15,%rcx), %rsi
	movq	%rsi, 328(%r14,%rcx)
	movups	%xmm2, 312(%r14,%rcx)
	movups	%xmm1, 296(%r14,%rcx)
	movups	%xmm0, 280(%r14,%rcx)
	movups	336(%r15,%rcx), %xmm0
	movups	352(%r15,%rcx), %xmm1
	movups	368(%r15,%rcx), %xmm2
	movq	384(%r15,%rcx), %rsi
	movq	%rsi, 384(%r14,%rcx)
	movups	%xmm2, 368(%r14,%rcx)
	movups	%xmm1, 352(%r14,%rcx)
	movups	%xmm0, 336(%r14,%rcx)
	movups	392(%r15,%rcx), %xmm0
	movups	408(%r15,%rcx), %xmm1
	movups	424(%r15,%rcx), %xmm2
	movq	440(%r15,%rcx), %rsi
	movq	%rsi, 440(%r14,%rcx)
	movups	%xmm2, 424(%r14,%rcx)
	movups	%xmm1, 408(%r14,%rcx)
	movups	%xmm0, 392(%r14,%rcx)
	addq	$448, %rcx
	cmpq	%rcx, %rdx
	jne	.LBB44_14
	testq	%rax, %rax
	je	.LBB44_17
	.p2align	4
.LBB44_16:
	movups	(%r15,%rcx), %xmm0
	movups	16(%r15,%rcx), %xmm1
	movups	32(%r15,%rcx), %xmm2
	movq	48(%r15,%rcx), %rdx
	movq	%rdx, 48(%r14,%rcx)
	movups	%xmm2, 32(%r14,%rcx)
	movups	%xmm1, 16(%r14,%rcx)
	movups	%xmm0, (%r14,%rcx)
	addq	$56, %rcx
	decq	%rax
	jne	.LBB44_16
	jmp	.LBB44_17
.LBB44_18:
	movl	$1, %edx
	movq	%r14, %rdi
	movq	%r8, %rsi
	addq	$104, %rsp
	popq	%rbx
	popq	%r12
	popq	%r13
	popq	%r14
	popq	%r15
	popq	%rbp
	jmp	"core::slice::sort::small::insert_from::<#9d6850f96084634e>"
.LBB44_20:
	movq	%r14, %rdi
	movq	%r15, %rsi
	callq	memmove@PLT
.LBB44_17:
	movq	%r15, (%rbx)
	movq	8(%rsp), %rax
	movq	%rax, 8(%rbx)
	addq	$104, %rsp
	popq	%rbx
	popq	%r12
	popq	%r13
	popq	%r14
	popq	%r15
	popq	%rbp
	retq
.Lfunc_end44:
	.size	"core::slice::sort::short::sort::<#9d6850f96084634e>", .Lfunc_end44-"core::slice::sort::short::sort::<#9d6850f96084634e>"

	.section	".text.core::slice::sort::short::sort_half::<#9d6850f96084634e>","ax",@progbits
	.p2align	4
	.type	"core::slice::sort::short::sort_half::<#9d6850f96084634e>",@function
"core::slice::sort::short::sort_half::<#9d6850f96084634e>":
	pushq	%rbp
	pushq	%r15
	pushq	%r14
	pushq	%r13
	pushq	%r12
	pushq	%rbx
	subq	$120, %rsp
	movq	%rdx, %rax
	movq	%rdi, %r14
	cmpq	$8, %rsi
	jb	.LBB45_9
	movq	%rsi, 32(%rsp)
	movq	(%rax), %r12
	movq	%rax, 48(%rsp)
	movq	8(%rax), %rax
	movq	%rax, 112(%rsp)
	leaq	56(%r14), %r15
	movq	56(%r14), %rdi
	movq	64(%r14), %rsi
	movq	(%r14), %rdx
	movq	8(%r14), %rcx
	callq	"amqp_value_core::types::short_string::ShortStringOrd::cmp"
	movb	%al, (%rsp)
	movq	168(%r14), %rdi
	movq	176(%r14), %rsi
	movq	112(%r14), %rdx
	movq	120(%r14), %rcx
	callq	"amqp_value_core::types::short_string::ShortStringOrd::cmp"
	xorl	%ebx, %ebx
	testb	%al, %al
	sete	%bl
	leaq	2(%rbx), %r13
	xorq	$3, %rbx
	imulq	$56, %r13, %rax
	xorl	%ecx, %ecx
	xorl	%ebp, %ebp
	cmpb	$0, (%rsp)
	setne	%cl
	movq	%rcx, (%rsp)
	movq	%r14, %rcx
	cmoveq	%r15, %rcx
	sete	%bpl
	movq	(%r14,%rax), %rdi
	movq	8(%r14,%rax), %rsi
	movq	(%rcx), %rdx
	movq	8(%rcx), %rcx
	cmoveq	%r14, %r15
	callq	"amqp_value_core::types::short_string::ShortStringOrd::cmp"
	movb	%al, 24(%rsp)
	imulq	$56, %rbx, %rax
	movq	(%r14,%rax), %rdi
	movq	8(%r14,%rax), %rsi
	movq	(%r15), %rdx
	movq	8(%r15), %rcx
	callq	"amqp_value_core::types::short_string::ShortStringOrd::cmp"
	testb	%al, %al
	movq	(%rsp), %rcx
	movq	%rcx, %r15
	cmoveq	%r13, %r15
	cmpb	$0, 24(%rsp)
	cmoveq	%rbp, %r15
	cmoveq	%r13, %rbp
	cmoveq	%rcx, %r13
	testb	%al, %al
	cmovneq	%rbx, %rcx
	movq	%rcx, (%rsp)
	cmoveq	%rbx, %r13
	imulq	$56, %r13, %rax
	imulq	$56, %r15, %rcx
	movq	(%r14,%rax), %rdi
	movq	8(%r14,%rax), %rsi
	movq	(%r14,%rcx), %rdx
	movq	8(%r14,%rcx), %rcx
	callq	"amqp_value_core::types::short_string::ShortStringOrd::cmp"
	testb	%al, %al
	movq	%r15, %rax
	cmoveq	%r13, %rax
	cmoveq	%r15, %r13
	imulq	$56, %rbp, %rcx
	movq	48(%r14,%rcx), %rdx
	movups	(%r14,%rcx), %xmm0
	movups	16(%r14,%rcx), %xmm1
	movups	32(%r14,%rcx), %xmm2
	movups	%xmm0, (%r12)
	movq	%rdx, 48(%r12)
	movups	%xmm2, 32(%r12)
	movups	%xmm1, 16(%r12)
	imulq	$56, %rax, %rax
	movups	(%r14,%rax), %xmm0
	movups	16(%r14,%rax), %xmm1
	movups	32(%r14,%rax), %xmm2
	movq	48(%r14,%rax), %rax
	movq	%rax, 104(%r12)
	movups	%xmm2, 88(%r12)
	movups	%xmm1, 72(%r12)
	movups	%xmm0, 56(%r12)
	imulq	$56, %r13, %rax
	movups	(%r14,%rax), %xmm0
	movups	16(%r14,%rax), %xmm1
	movups	32(%r14,%rax), %xmm2
	movq	48(%r14,%rax), %rax
	movq	%rax, 160(%r12)
	movups	%xmm2, 144(%r12)
	movups	%xmm1, 128(%r12)
	movups	%xmm0, 112(%r12)
	imulq	$56, (%rsp), %rax
	movups	(%r14,%rax), %xmm0
	movups	16(%r14,%rax), %xmm1
	movups	32(%r14,%rax), %xmm2
	movq	48(%r14,%rax), %rax
	movq	%rax, 216(%r12)
	movups	%xmm2, 200(%r12)
	movups	%xmm1, 184(%r12)
	movups	%xmm0, 168(%r12)
	movq	280(%r14), %rdi
	movq	288(%r14), %rsi
	movq	224(%r14), %rdx
	movq	232(%r14), %rcx
	callq	"amqp_value_core::types::short_string::ShortStringOrd::cmp"
	xorl	%r13d, %r13d
	testb	%al, %al
	sete	%r13b
	movq	392(%r14), %rdi
	movq	400(%r14), %rsi
	movq	336(%r14), %rdx
	movq	344(%r14), %rcx
	callq	"amqp_value_core::types::short_string::ShortStringOrd::cmp"
	xorl	%ebp, %ebp
	testb	%al, %al
	sete	%bpl
	leaq	4(%r13), %rcx
	movq	%rcx, (%rsp)
	xorq	$5, %r13
	leaq	6(%rbp), %rbx
	xorq	$7, %rbp
	imulq	$56, %rbx, %rax
	imulq	$56, %rcx, %rcx
	movq	(%r14,%rax), %rdi
	movq	8(%r14,%rax), %rsi
	movq	(%r14,%rcx), %rdx
	movq	8(%r14,%rcx), %rcx
	callq	"amqp_value_core::types::short_string::ShortStringOrd::cmp"
	movb	%al, 16(%rsp)
	imulq	$56, %rbp, %rax
	imulq	$56, %r13, %rcx
	movq	(%r14,%rax), %rdi
	movq	8(%r14,%rax), %rsi
	movq	(%r14,%rcx), %rdx
	movq	8(%r14,%rcx), %rcx
	callq	"amqp_value_core::types::short_string::ShortStringOrd::cmp"
	testb	%al, %al
	movq	%rbp, %rcx
	cmoveq	%r13, %rcx
	movq	%rcx, 24(%rsp)
	movq	%r13, %r15
	cmoveq	%rbx, %r15
	cmpb	$0, 16(%rsp)
	movq	(%rsp), %rcx
	cmoveq	%rcx, %r15
	cmoveq	%rbx, %rcx
	movq	%rcx, (%rsp)
	cmovneq	%rbx, %r13
	testb	%al, %al
	cmoveq	%rbp, %r13
	leaq	56(%r12), %rbx
	imulq	$56, %r13, %rax
	imulq	$56, %r15, %rcx
	movq	(%r14,%rax), %rdi
	movq	8(%r14,%rax), %rsi
	movq	(%r14,%rcx), %rdx
	movq	8(%r14,%rcx), %rcx
	callq	"amqp_value_core::types::short_string::ShortStringOrd::cmp"
	testb	%al, %al
	movq	%r15, %rax
	cmoveq	%r13, %rax
	cmoveq	%r15, %r13
	imulq	$56, (%rsp), %rcx
	movq	48(%r14,%rcx), %rdx
	movups	(%r14,%rcx), %xmm0
	movups	16(%r14,%rcx), %xmm1
	movups	32(%r14,%rcx), %xmm2
	movups	%xmm0, 224(%r12)
	movq	%rdx, 272(%r12)
	movups	%xmm2, 256(%r12)
	movups	%xmm1, 240(%r12)
	imulq	$56, %rax, %rax
	movups	(%r14,%rax), %xmm0
	movups	16(%r14,%rax), %xmm1
	movups	32(%r14,%rax), %xmm2
	movq	48(%r14,%rax), %rax
	movq	%rax, 328(%r12)
	movups	%xmm2, 312(%r12)
	movups	%xmm1, 296(%r12)
	movups	%xmm0, 280(%r12)
	imulq	$56, %r13, %rax
	movups	(%r14,%rax), %xmm0
	movups	16(%r14,%rax), %xmm1
	movups	32(%r14,%rax), %xmm2
	movq	48(%r14,%rax), %rax
	movq	%rax, 384(%r12)
	movups	%xmm2, 368(%r12)
	movups	%xmm1, 352(%r12)
	movups	%xmm0, 336(%r12)
	imulq	$56, 24(%rsp), %rax
	movups	(%r14,%rax), %xmm0
	movups	16(%r14,%rax), %xmm1
	movups	32(%r14,%rax), %xmm2
	movq	48(%r14,%rax), %rax
	movq	%rax, 440(%r12)
	movups	%xmm2, 424(%r12)
	movups	%xmm1, 408(%r12)
	movups	%xmm0, 392(%r12)
	movq	224(%r12), %rdi
	movq	232(%r12), %rsi
	movq	(%r12), %rdx
	movq	8(%r12), %rcx
	callq	"amqp_value_core::types::short_string::ShortStringOrd::cmp"
	movb	%al, 13(%rsp)
	testb	%al, %al
	movl	$0, %ebp
	setne	%bpl
	movq	%rbp, 24(%rsp)
	movq	%r12, %r15
	cmovneq	%rbx, %r15
	xorq	$5, %rbp
	movq	392(%r12), %rdi
	movq	400(%r12), %rsi
	movq	168(%r12), %rdx
	movq	176(%r12), %rcx
	callq	"amqp_value_core::types::short_string::ShortStringOrd::cmp"
	movb	%al, 14(%rsp)
	testb	%al, %al
	movl	$0, %eax
	sete	%al
	movq	%rax, 16(%rsp)
	movl	$4, %ecx
	subq	%rax, %rcx
	movq	%rcx, 40(%rsp)
	addq	$7, %rax
	movq	%rax, (%rsp)
	imulq	$56, %rbp, %rax
	movq	(%r12,%rax), %rdi
	movq	8(%r12,%rax), %rsi
	movq	(%r15), %rdx
	movq	8(%r15), %rcx
	callq	"amqp_value_core::types::short_string::ShortStringOrd::cmp"
	xorl	%ebx, %ebx
	xorl	%r13d, %r13d
	movb	%al, 12(%rsp)
	testb	%al, %al
	setne	%bl
	sete	%r13b
	movq	%rbp, 96(%rsp)
	addq	%rbp, %r13
	addq	24(%rsp), %rbx
	imulq	$56, (%rsp), %rax
	movq	40(%rsp), %r15
	imulq	$56, %r15, %rcx
	movq	-56(%r12,%rax), %rdi
	movq	-48(%r12,%rax), %rsi
	movq	-56(%r12,%rcx), %rdx
	movq	-48(%r12,%rcx), %rcx
	callq	"amqp_value_core::types::short_string::ShortStringOrd::cmp"
	xorl	%esi, %esi
	xorl	%ecx, %ecx
	movb	%al, 11(%rsp)
	testb	%al, %al
	setne	%sil
	sete	%cl
	movq	%r15, %rax
	subq	%rcx, %rax
	movq	%rax, 64(%rsp)
	negq	%rsi
	movq	16(%rsp), %rax
	addq	%rsi, %rax
	addq	$7, %rax
	movq	%rax, 16(%rsp)
	imulq	$56, %r13, %rax
	imulq	$56, %rbx, %rcx
	movq	(%r12,%rax), %rdi
	movq	8(%r12,%rax), %rsi
	movq	(%r12,%rcx), %rdx
	movq	8(%r12,%rcx), %rcx
	callq	"amqp_value_core::types::short_string::ShortStringOrd::cmp"
	xorl	%ecx, %ecx
	xorl	%r15d, %r15d
	movb	%al, 10(%rsp)
	testb	%al, %al
	setne	%cl
	sete	%r15b
	movq	%r13, 80(%rsp)
	addq	%r13, %r15
	movq	%rcx, %rbp
	movq	%rbx, 88(%rsp)
	addq	%rbx, %rbp
	movq	16(%rsp), %r13
	imulq	$56, %r13, %rax
	movq	64(%rsp), %rbx
	imulq	$56, %rbx, %rcx
	movq	-56(%r12,%rax), %rdi
	movq	-48(%r12,%rax), %rsi
	movq	-56(%r12,%rcx), %rdx
	movq	-48(%r12,%rcx), %rcx
	callq	"amqp_value_core::types::short_string::ShortStringOrd::cmp"
	xorl	%esi, %esi
	xorl	%ecx, %ecx
	movb	%al, 9(%rsp)
	testb	%al, %al
	setne	%sil
	sete	%cl
	movq	%rbx, %rax
	subq	%rcx, %rax
	movq	%rax, 104(%rsp)
	subq	%rsi, %r13
	imulq	$56, %r15, %rax
	movq	%rbp, 56(%rsp)
	imulq	$56, %rbp, %rcx
	movq	(%r12,%rax), %rdi
	movq	8(%r12,%rax), %rsi
	movq	(%r12,%rcx), %rdx
	movq	8(%r12,%rcx), %rcx
	callq	"amqp_value_core::types::short_string::ShortStringOrd::cmp"
	xorl	%ebp, %ebp
	xorl	%ebx, %ebx
	movb	%al, 8(%rsp)
	testb	%al, %al
	setne	15(%rsp)
	sete	%bl
	movq	%r15, 72(%rsp)
	addl	%r15d, %ebx
	movq	104(%rsp), %r15
	imulq	$56, %r13, %rax
	imulq	$56, %r15, %rcx
	movq	-56(%r12,%rax), %rdi
	movq	-48(%r12,%rax), %rsi
	movq	-56(%r12,%rcx), %rdx
	movq	-48(%r12,%rcx), %rcx
	callq	"amqp_value_core::types::short_string::ShortStringOrd::cmp"
	xorl	%esi, %esi
	xorl	%ecx, %ecx
	testb	%al, %al
	setne	%sil
	sete	%dl
	movl	%r13d, %edi
	subl	%esi, %edi
	cmpl	%edi, %ebx
	ja	.LBB45_4
	movzbl	15(%rsp), %esi
	movb	%sil, %bpl
	addq	56(%rsp), %rbp
	movb	%dl, %cl
	movq	%r15, %rdx
	subq	%rcx, %rdx
	cmpl	%edx, %ebp
	ja	.LBB45_4
	testb	%al, %al
	cmovel	%r15d, %r13d
	decl	%r13d
	cmpb	$0, 8(%rsp)
	movq	56(%rsp), %r8
	cmoveq	72(%rsp), %r8
	cmpb	$0, 9(%rsp)
	movq	16(%rsp), %rdi
	cmovel	64(%rsp), %edi
	decl	%edi
	cmpb	$0, 10(%rsp)
	movq	88(%rsp), %rsi
	cmoveq	80(%rsp), %rsi
	cmpb	$0, 11(%rsp)
	movq	(%rsp), %rdx
	cmovel	40(%rsp), %edx
	decl	%edx
	cmpb	$0, 12(%rsp)
	movq	24(%rsp), %rcx
	cmoveq	96(%rsp), %rcx
	cmpb	$0, 13(%rsp)
	leaq	224(%r12), %rax
	cmovneq	%r12, %rax
	movups	(%rax), %xmm0
	movups	16(%rax), %xmm1
	movups	32(%rax), %xmm2
	movq	48(%rax), %rax
	movq	%rax, 48(%r14)
	imulq	$56, %rcx, %rax
	movups	%xmm2, 32(%r14)
	movups	%xmm1, 16(%r14)
	movups	%xmm0, (%r14)
	movups	(%r12,%rax), %xmm0
	movups	16(%r12,%rax), %xmm1
	movups	32(%r12,%rax), %xmm2
	movq	48(%r12,%rax), %rax
	leaq	56(%r14), %rcx
	movq	%rax, 48(%rcx)
	movups	%xmm2, 32(%rcx)
	movups	%xmm1, 16(%rcx)
	movups	%xmm0, (%rcx)
	imulq	$56, %rsi, %rax
	movups	(%r12,%rax), %xmm0
	movups	16(%r12,%rax), %xmm1
	movups	32(%r12,%rax), %xmm2
	movq	48(%r12,%rax), %rax
	leaq	112(%r14), %rcx
	movq	%rax, 48(%rcx)
	movups	%xmm2, 32(%rcx)
	movups	%xmm1, 16(%rcx)
	movups	%xmm0, (%rcx)
	imulq	$56, %r8, %rax
	movups	(%r12,%rax), %xmm0
	movups	16(%r12,%rax), %xmm1
	movups	32(%r12,%rax), %xmm2
	movq	48(%r12,%rax), %rax
	leaq	168(%r14), %rcx
	movq	%rax, 48(%rcx)
	movups	%xmm2, 32(%rcx)
	movups	%xmm1, 16(%rcx)
	movups	%xmm0, (%rcx)
	movzbl	%r13b, %eax
	imulq	$56, %rax, %rax
	movups	(%r12,%rax), %xmm0
	movups	16(%r12,%rax), %xmm1
	movups	32(%r12,%rax), %xmm2
	movq	48(%r12,%rax), %rax
	leaq	224(%r14), %rcx
	movq	%rax, 48(%rcx)
	movups	%xmm2, 32(%rcx)
	movups	%xmm1, 16(%rcx)
	movups	%xmm0, (%rcx)
	movzbl	%dil, %eax
	imulq	$56, %rax, %rax
	movups	(%r12,%rax), %xmm0
	movups	16(%r12,%rax), %xmm1
	movups	32(%r12,%rax), %xmm2
	movq	48(%r12,%rax), %rax
	leaq	280(%r14), %rcx
	movq	%rax, 48(%rcx)
	movups	%xmm2, 32(%rcx)
	movups	%xmm1, 16(%rcx)
	movups	%xmm0, (%rcx)
	movzbl	%dl, %eax
	imulq	$56, %rax, %rax
	movups	(%r12,%rax), %xmm0
	movups	16(%r12,%rax), %xmm1
	movups	32(%r12,%rax), %xmm2
	movq	48(%r12,%rax), %rax
	leaq	336(%r14), %rcx
	movq	%rax, 48(%rcx)
	movups	%xmm2, 32(%rcx)
	movups	%xmm1, 16(%rcx)
	movups	%xmm0, (%rcx)
	cmpb	$0, 14(%rsp)
	leaq	168(%r12), %rax
	leaq	392(%r12), %rcx
	cmoveq	%rax, %rcx
	movups	(%rcx), %xmm0
	movups	16(%rcx), %xmm1
	movups	32(%rcx), %xmm2
	movq	48(%rcx), %rax
	leaq	392(%r14), %rcx
	movq	%rax, 48(%rcx)
	movups	%xmm2, 32(%rcx)
	movups	%xmm1, 16(%rcx)
	movups	%xmm0, (%rcx)
	movl	$8, %edx
	jmp	.LBB45_8
.LBB45_9:
	movl	$1, %edx
	cmpq	$4, %rsi
	jb	.LBB45_14
	movq	%rsi, 32(%rsp)
	movq	(%rax), %r12
	movq	%rax, 48(%rsp)
	movq	8(%rax), %rax
	movq	%rax, 24(%rsp)
	leaq	56(%r14), %r15
	movq	56(%r14), %rdi
	movq	64(%r14), %rsi
	movq	(%r14), %rdx
	movq	8(%r14), %rcx
	callq	"amqp_value_core::types::short_string::ShortStringOrd::cmp"
	movb	%al, (%rsp)
	movq	168(%r14), %rdi
	movq	176(%r14), %rsi
	movq	112(%r14), %rdx
	movq	120(%r14), %rcx
	callq	"amqp_value_core::types::short_string::ShortStringOrd::cmp"
	xorl	%r13d, %r13d
	testb	%al, %al
	sete	%r13b
	leaq	2(%r13), %rbp
	xorq	$3, %r13
	imulq	$56, %rbp, %rax
	xorl	%ebx, %ebx
	xorl	%edx, %edx
	cmpb	$0, (%rsp)
	setne	%bl
	movq	%r14, %rcx
	cmoveq	%r15, %rcx
	sete	%dl
	movq	%rdx, (%rsp)
	movq	(%r14,%rax), %rdi
	movq	8(%r14,%rax), %rsi
	movq	(%rcx), %rdx
	movq	8(%rcx), %rcx
	cmoveq	%r14, %r15
	callq	"amqp_value_core::types::short_string::ShortStringOrd::cmp"
	movb	%al, 40(%rsp)
	imulq	$56, %r13, %rax
	movq	(%r14,%rax), %rdi
	movq	8(%r14,%rax), %rsi
	movq	(%r15), %rdx
	movq	8(%r15), %rcx
	callq	"amqp_value_core::types::short_string::ShortStringOrd::cmp"
	testb	%al, %al
	movq	%r13, %rcx
	cmoveq	%rbx, %rcx
	movq	%rcx, 16(%rsp)
	movq	%rbx, %r15
	cmoveq	%rbp, %r15
	cmpb	$0, 40(%rsp)
	movq	(%rsp), %rcx
	cmoveq	%rcx, %r15
	cmoveq	%rbp, %rcx
	movq	%rcx, (%rsp)
	cmoveq	%rbx, %rbp
	testb	%al, %al
	cmoveq	%r13, %rbp
	imulq	$56, %rbp, %rax
	imulq	$56, %r15, %rcx
	movq	(%r14,%rax), %rdi
	movq	8(%r14,%rax), %rsi
	movq	(%r14,%rcx), %rdx
	movq	8(%r14,%rcx), %rcx
	callq	"amqp_value_core::types::short_string::ShortStringOrd::cmp"
	testb	%al, %al
	movq	%r15, %rax
	cmoveq	%rbp, %rax
	cmoveq	%r15, %rbp
	imulq	$56, (%rsp), %rcx
	movq	48(%r14,%rcx), %rdx
	movups	(%r14,%rcx), %xmm0
	movups	16(%r14,%rcx), %xmm1
	movups	32(%r14,%rcx), %xmm2
	movups	%xmm0, (%r12)
	movq	%rdx, 48(%r12)
	movups	%xmm2, 32(%r12)
	movups	%xmm1, 16(%r12)
	imulq	$56, %rax, %rax
	movups	(%r14,%rax), %xmm0
	movups	16(%r14,%rax), %xmm1
	movups	32(%r14,%rax), %xmm2
	movq	48(%r14,%rax), %rax
	movq	%rax, 104(%r12)
	movups	%xmm2, 88(%r12)
	movups	%xmm1, 72(%r12)
	movups	%xmm0, 56(%r12)
	imulq	$56, %rbp, %rax
	movups	(%r14,%rax), %xmm0
	movups	16(%r14,%rax), %xmm1
	movups	32(%r14,%rax), %xmm2
	movq	48(%r14,%rax), %rax
	movq	%rax, 160(%r12)
	movups	%xmm2, 144(%r12)
	movups	%xmm1, 128(%r12)
	movups	%xmm0, 112(%r12)
	imulq	$56, 16(%rsp), %rax
	movups	(%r14,%rax), %xmm0
	movups	16(%r14,%rax), %xmm1
	movups	32(%r14,%rax), %xmm2
	movq	48(%r14,%rax), %rax
	movq	%rax, 216(%r12)
	movups	%xmm2, 200(%r12)
	movups	%xmm1, 184(%r12)
	movups	%xmm0, 168(%r12)
	movq	%r14, %rax
	subq	%r12, %rax
	cmpq	$223, %rax
	ja	.LBB45_12
	leaq	168(%r14), %rax
	leaq	112(%r14), %rcx
	leaq	56(%r12), %rdx
	leaq	112(%r12), %rsi
	leaq	168(%r12), %rdi
	movups	(%r12), %xmm0
	movups	16(%r12), %xmm1
	movups	32(%r12), %xmm2
	movq	48(%r12), %r8
	movq	%r8, 48(%r14)
	movups	%xmm2, 32(%r14)
	movups	%xmm1, 16(%r14)
	movups	%xmm0, (%r14)
	movups	(%rdx), %xmm0
	movups	16(%rdx), %xmm1
	movups	32(%rdx), %xmm2
	movq	48(%rdx), %rdx
	leaq	56(%r14), %r8
	movq	%rdx, 48(%r8)
	movups	%xmm2, 32(%r8)
	movups	%xmm1, 16(%r8)
	movups	%xmm0, (%r8)
	movups	(%rsi), %xmm0
	movups	16(%rsi), %xmm1
	movups	32(%rsi), %xmm2
	movq	48(%rsi), %rdx
	movq	%rdx, 48(%rcx)
	movups	%xmm2, 32(%rcx)
	movups	%xmm1, 16(%rcx)
	movups	%xmm0, (%rcx)
	movups	(%rdi), %xmm0
	movups	16(%rdi), %xmm1
	movups	32(%rdi), %xmm2
	movq	48(%rdi), %rcx
	movq	%rcx, 48(%rax)
	movups	%xmm2, 32(%rax)
	movups	%xmm1, 16(%rax)
	movups	%xmm0, (%rax)
	jmp	.LBB45_13
.LBB45_4:
	movq	%r14, %rax
	subq	%r12, %rax
	cmpq	$447, %rax
	ja	.LBB45_6
	movups	(%r12), %xmm0
	movups	16(%r12), %xmm1
	movups	32(%r12), %xmm2
	movq	48(%r12), %rax
	movq	%rax, 48(%r14)
	movups	%xmm2, 32(%r14)
	movups	%xmm1, 16(%r14)
	movups	%xmm0, (%r14)
	leaq	56(%r12), %rax
	movups	(%rax), %xmm0
	movups	16(%rax), %xmm1
	movups	32(%rax), %xmm2
	movq	48(%rax), %rax
	leaq	56(%r14), %rcx
	movq	%rax, 48(%rcx)
	movups	%xmm2, 32(%rcx)
	movups	%xmm1, 16(%rcx)
	movups	%xmm0, (%rcx)
	leaq	112(%r12), %rax
	movups	(%rax), %xmm0
	movups	16(%rax), %xmm1
	movups	32(%rax), %xmm2
	movq	48(%rax), %rax
	leaq	112(%r14), %rcx
	movq	%rax, 48(%rcx)
	movups	%xmm2, 32(%rcx)
	movups	%xmm1, 16(%rcx)
	movups	%xmm0, (%rcx)
	leaq	168(%r12), %rax
	movups	(%rax), %xmm0
	movups	16(%rax), %xmm1
	movups	32(%rax), %xmm2
	movq	48(%rax), %rax
	leaq	168(%r14), %rcx
	movq	%rax, 48(%rcx)
	movups	%xmm2, 32(%rcx)
	movups	%xmm1, 16(%rcx)
	movups	%xmm0, (%rcx)
	leaq	224(%r12), %rax
	movups	(%rax), %xmm0
	movups	16(%rax), %xmm1
	movups	32(%rax), %xmm2
	movq	48(%rax), %rax
	leaq	224(%r14), %rcx
	movq	%rax, 48(%rcx)
	movups	%xmm2, 32(%rcx)
	movups	%xmm1, 16(%rcx)
	movups	%xmm0, (%rcx)
	leaq	280(%r12), %rax
	movups	(%rax), %xmm0
	movups	16(%rax), %xmm1
	movups	32(%rax), %xmm2
	movq	48(%rax), %rax
	leaq	280(%r14), %rcx
	movq	%rax, 48(%rcx)
	movups	%xmm2, 32(%rcx)
	movups	%xmm1, 16(%rcx)
	movups	%xmm0, (%rcx)
	leaq	336(%r12), %rax
	movups	(%rax), %xmm0
	movups	16(%rax), %xmm1
	movups	32(%rax), %xmm2
	movq	48(%rax), %rax
	leaq	336(%r14), %rcx
	movq	%rax, 48(%rcx)
	movups	%xmm2, 32(%rcx)
	movups	%xmm1, 16(%rcx)
	movups	%xmm0, (%rcx)
	leaq	392(%r12), %rax
	movups	(%rax), %xmm0
	movups	16(%rax), %xmm1
	movups	32(%rax), %xmm2
	movq	48(%rax), %rax
	leaq	392(%r14), %rcx
	movq	%rax, 48(%rcx)
	movups	%xmm2, 32(%rcx)
	movups	%xmm1, 16(%rcx)
	movups	%xmm0, (%rcx)
	jmp	.LBB45_7
.LBB45_6:
	movl	$448, %edx
	movq	%r14, %rdi
	movq	%r12, %rsi
	callq	memmove@PLT
.LBB45_7:
	movl	$4, %edx
.LBB45_8:
	movq	32(%rsp), %rsi
	movq	48(%rsp), %rax
	movq	%r12, (%rax)
	movq	112(%rsp), %rcx
	movq	%rcx, 8(%rax)
	jmp	.LBB45_14
.LBB45_12:
	movl	$224, %edx
	movq	%r14, %rdi
	movq	%r12, %rsi
	callq	memmove@PLT
.LBB45_13:
	movq	48(%rsp), %rax
	movq	%r12, (%rax)
	movq	24(%rsp), %rcx
	movq	%rcx, 8(%rax)
	movl	$4, %edx
	movq	32(%rsp), %rsi
.LBB45_14:
	movq	%r14, %rdi
	addq	$120, %rsp
	popq	%rbx
	popq	%r12
	popq	%r13
	popq	%r14
	popq	%r15
	popq	%rbp
	jmp	"core::slice::sort::small::insert_from::<#9d6850f96084634e>"
.Lfunc_end45:
	.size	"core::slice::sort::short::sort_half::<#9d6850f96084634e>", .Lfunc_end45-"core::slice::sort::short::sort_half::<#9d6850f96084634e>"

	.section	".text.core::slice::sort::stable::merge_sort::<#9d6850f96084634e>","ax",@progbits
	.p2align	4
	.type	"core::slice::sort::stable::merge_sort::<#9d6850f96084634e>",@function
"core::slice::sort::stable::merge_sort::<#9d6850f96084634e>":
	cmpq	$32, %rsi
	ja	.LBB46_2
	jmp	"core::slice::sort::short::sort::<#9d6850f96084634e>"
.LBB46_2:
	pushq	%rbp
	pushq	%r15
	pushq	%r14
	pushq	%r13
	pushq	%r12
	pushq	%rbx
	pushq	%rax
	movq	%rsi, %rbx
	shrq	%rbx
	imulq	$56, %rbx, %r14
	addq	%rdi, %r14
	movq	%rsi, %r15
	subq	%rbx, %r15
	movq	%rdi, %r12
	movq	%rsi, %r13
	movq	%rbx, %rsi
	movq	%rdx, %rbp
	callq	"core::slice::sort::stable::merge_sort::<#9d6850f96084634e>"
	movq	%r14, %rdi
	movq	%r15, %rsi
	movq	%rbp, %rdx
	callq	"core::slice::sort::stable::merge_sort::<#9d6850f96084634e>"
	movq	%r12, %rdi
	movq	%r13, %rsi
	movq	%rbx, %rdx
	movq	%rbp, %rcx
	addq	$8, %rsp
	popq	%rbx
	popq	%r12
	popq	%r13
	popq	%r14
	popq	%r15
	popq	%rbp
	jmp	"core::slice::sort::merge::merge::<#9d6850f96084634e>"
.Lfunc_end46:
	.size	"core::slice::sort::stable::merge_sort::<#9d6850f96084634e>", .Lfunc_end46-"core::slice::sort::stable::merge_sort::<#9d6850f96084634e>"

	.section	".text.core::slice::sort::merge::merge::<#9d6850f96084634e>","ax",@progbits
	.p2align	4
	.type	"core::slice::sort::merge::merge::<#9d6850f96084634e>",@function
"core::slice::sort::merge::merge::<#9d6850f96084634e>":
	pushq	%rbp
	pushq	%r15
	pushq	%r14
	pushq	%r13
	pushq	%r12
	pushq	%rbx
	subq	$56, %rsp
	movq	%rcx, %r12
	movq	%rdx, %r10
	movq	%rsi, %r11
	movq	%rdi, %r15
	movq	%rsi, %rax
	shrq	$2, %rax
	cmpq	%rdx, %rax
	setbe	%cl
	movq	%rsi, %rbp
	subq	%rdx, %rbp
	cmpq	%rbp, %rax
	setbe	%al
	andb	%cl, %al
	cmpq	$4097, %rsi
	setb	%cl
	xorb	$1, %al
	orb	%al, %cl
	movq	%rdx, (%rsp)
	je	.LBB47_7
	cmpq	$4097, %r11
	setae	%cl
	testb	%al, %cl
	je	.LBB47_8
.LBB47_2:
	imulq	$56, %r10, %r8
	movq	(%r12), %r13
	movq	8(%r12), %rbx
	cmpq	%rbp, %r10
	movq	%r12, 16(%rsp)
	movq	%rbx, 24(%rsp)
	jbe	.LBB47_12
	leaq	(%r15,%r8), %rsi
	leaq	(%r8,%r13), %r9
	imulq	$56, %rbp, %rdx
	movq	%r9, %rax
	subq	%rsi, %rax
	cmpq	%rdx, %rax
	jae	.LBB47_17
	cmpq	%r10, %r11
	je	.LBB47_74
	movl	%ebp, %eax
	andl	$7, %eax
	movq	%r10, %rcx
	subq	%r11, %rcx
	cmpq	$-8, %rcx
	jbe	.LBB47_69
	xorl	%ecx, %ecx
	jmp	.LBB47_72
.LBB47_7:
	cmpq	$65537, %r11
	jae	.LBB47_2
.LBB47_8:
	movq	(%r12), %r13
	movq	8(%r12), %r14
	imulq	$56, %r11, %rdx
	movq	%r13, %rax
	subq	%r15, %rax
	cmpq	%rdx, %rax
	jae	.LBB47_16
	testq	%r11, %r11
	je	.LBB47_24
	movl	%r11d, %eax
	andl	$7, %eax
	cmpq	$8, %r11
	jae	.LBB47_19
	xorl	%ecx, %ecx
	jmp	.LBB47_22
.LBB47_12:
	movq	%r13, %rax
	subq	%r15, %rax
	cmpq	%r8, %rax
	jae	.LBB47_18
	testq	%r10, %r10
	je	.LBB47_49
	movl	%r10d, %eax
	andl	$7, %eax
	cmpq	$8, %r10
	jae	.LBB47_51
	xorl	%ecx, %ecx
	jmp	.LBB47_54
.LBB47_16:
	movq	%r13, %rdi
	movq	%r15, %rsi
	movq	%r11, %rbx
	callq	memmove@PLT
	movq	%rbx, %r11
	movq	(%rsp), %r10
	jmp	.LBB47_24
.LBB47_17:
	movq	%r9, %rdi
	movq	%rdx, 8(%rsp)
	movq	%r11, %r14
	movq	%r8, %rbx
	movq	%r9, %r12
	callq	memmove@PLT
	movq	%r12, %r9
	movq	%rbx, %r8
	movq	24(%rsp), %rbx
	movq	16(%rsp), %r12
	movq	%r14, %r11
	movq	8(%rsp), %rdx
	movq	(%rsp), %r10
	jmp	.LBB47_74
.LBB47_18:
	movq	%r13, %rdi
	movq	%r15, %rsi
	movq	%r8, %rdx
	movq	%r11, %r14
	callq	memmove@PLT
	movq	%r14, %r11
	movq	(%rsp), %r10
	jmp	.LBB47_56
.LBB47_19:
	movq	%r11, %rdx
	andq	$-8, %rdx
	xorl	%ecx, %ecx
	xorl	%esi, %esi
	.p2align	4
.LBB47_20:
	movups	(%r15,%rsi), %xmm0
	movups	16(%r15,%rsi), %xmm1
	movups	32(%r15,%rsi), %xmm2
	movq	48(%r15,%rsi), %rdi
	movq	%rdi, 48(%r13,%rsi)
	movups	%xmm2, 32(%r13,%rsi)
	movups	%xmm1, 16(%r13,%rsi)
	movups	%xmm0, (%r13,%rsi)
	movups	56(%r15,%rsi), %xmm0
	movups	72(%r15,%rsi), %xmm1
	movups	88(%r15,%rsi), %xmm2
	movq	104(%r15,%rsi), %rdi
	movq	%rdi, 104(%r13,%rsi)
	movups	%xmm2, 88(%r13,%rsi)
	movups	%xmm1, 72(%r13,%rsi)
	movups	%xmm0, 56(%r13,%rsi)
	movups	112(%r15,%rsi), %xmm0
	movups	128(%r15,%rsi), %xmm1
	movups	144(%r15,%rsi), %xmm2
	movq	160(%r15,%rsi), %rdi
	movq	%rdi, 160(%r13,%rsi)
	movups	%xmm2, 144(%r13,%rsi)
	movups	%xmm1, 128(%r13,%rsi)
	movups	%xmm0, 112(%r13,%rsi)
	movups	168(%r15,%rsi), %xmm0
	movups	184(%r15,%rsi), %xmm1
	movups	200(%r15,%rsi), %xmm2
	movq	216(%r15,%rsi), %rdi
	movq	%rdi, 216(%r13,%rsi)
	movups	%xmm2, 200(%r13,%rsi)
	movups	%xmm1, 184(%r13,%rsi)
	movups	%xmm0, 168(%r13,%rsi)
	movups	224(%r15,%rsi), %xmm0
	movups	240(%r15,%rsi), %xmm1
	movups	256(%r15,%rsi), %xmm2
	movq	272(%r15,%rsi), %rdi
	movq	%rdi, 272(%r13,%rsi)
	movups	%xmm2, 256(%r13,%rsi)
	movups	%xmm1, 240(%r13,%rsi)
	movups	%xmm0, 224(%r13,%rsi)
	movups	280(%r15,%rsi), %xmm0
	movups	296(%r15,%rsi), %xmm1
	movups	312(%r15,%rsi), %xmm2
	movq	328(%r15,%rsi), %rdi
	movq	%rdi, 328(%r13,%rsi)
	movups	%xmm2, 312(%r13,%rsi)
	movups	%xmm1, 296(%r13,%rsi)
	movups	%xmm0, 280(%r13,%rsi)
	movups	336(%r15,%rsi), %xmm0
	movups	352(%r15,%rsi), %xmm1
	movups	368(%r15,%rsi), %xmm2
	movq	384(%r15,%rsi), %rdi
	movq	%rdi, 384(%r13,%rsi)
	movups	%xmm2, 368(%r13,%rsi)
	movups	%xmm1, 352(%r13,%rsi)
	movups	%xmm0, 336(%r13,%rsi)
	movups	392(%r15,%rsi), %xmm0
	movups	408(%r15,%rsi), %xmm1
	movups	424(%r15,%rsi), %xmm2
	movq	440(%r15,%rsi), %rdi
	movq	%rdi, 440(%r13,%rsi)
	movups	%xmm2, 424(%r13,%rsi)
	movups	%xmm1, 408(%r13,%rsi)
	movups	%xmm0, 392(%r13,%rsi)
	addq	$8, %rcx
	addq	$448, %rsi
	cmpq	%rcx, %rdx
	jne	.LBB47_20
	testq	%rax, %rax
	je	.LBB47_24
.LBB47_22:
	imulq	$56, %rcx, %rcx
	leaq	(%r15,%rcx), %rdx
	addq	%r13, %rcx
	imulq	$56, %rax, %rax
	xorl	%esi, %esi
	.p2align	4
.LBB47_23:
	movups	(%rdx,%rsi), %xmm0
	movups	16(%rdx,%rsi), %xmm1
	movups	32(%rdx,%rsi), %xmm2
	movq	48(%rdx,%rsi), %rdi
	movq	%rdi, 48(%rcx,%rsi)
	movups	%xmm2, 32(%rcx,%rsi)
	movups	%xmm1, 16(%rcx,%rsi)
	movups	%xmm0, (%rcx,%rsi)
	addq	$56, %rsi
	cmpq	%rsi, %rax
	jne	.LBB47_23
.LBB47_24:
	testq	%r10, %r10
	sete	%al
	cmpq	%r11, %r10
	setae	%cl
	orb	%al, %cl
	jne	.LBB47_37
	movq	%r14, 24(%rsp)
	movq	%r12, 16(%rsp)
	xorl	%ebx, %ebx
	movq	%r15, %r14
	movq	%r10, %r12
	movq	%r11, 8(%rsp)
	xorl	%ebp, %ebp
	movq	%r15, 32(%rsp)
	jmp	.LBB47_26
	.p2align	4
.LBB47_34:
	movq	32(%rsp), %r15
	incq	%rbp
	cmpq	%r10, %rbx
	jae	.LBB47_36
.LBB47_35:
	addq	$56, %r14
	cmpq	%r11, %r12
	jae	.LBB47_36
.LBB47_26:
	movq	%r11, (%rsp)
	movq	%r10, %r15
	imulq	$56, %r12, %rax
	imulq	$56, %rbx, %rcx
	movq	(%r13,%rax), %rdi
	movq	8(%r13,%rax), %rsi
	movq	(%r13,%rcx), %rdx
	movq	8(%r13,%rcx), %rcx
	callq	"amqp_value_core::types::short_string::ShortStringOrd::cmp"
	xorl	%ecx, %ecx
	xorl	%edx, %edx
	movq	%r12, %rdi
	testb	%al, %al
	setne	%al
	sete	%sil
	je	.LBB47_28
	movq	%rbx, %rdi
.LBB47_28:
	imulq	$56, %rdi, %rdi
	movq	48(%r13,%rdi), %r8
	movups	(%r13,%rdi), %xmm0
	movups	16(%r13,%rdi), %xmm1
	movups	32(%r13,%rdi), %xmm2
	movups	%xmm0, (%r14)
	movq	%r8, 48(%r14)
	movups	%xmm2, 32(%r14)
	movups	%xmm1, 16(%r14)
	movb	%sil, %dl
	addq	%rdx, %r12
	movb	%al, %cl
	addq	%rcx, %rbx
	movq	%r15, %r10
	cmpq	%r15, %rbx
	movq	(%rsp), %r11
	jae	.LBB47_34
	cmpq	%r11, %r12
	jae	.LBB47_34
	imulq	$56, %r11, %rax
	imulq	$56, %r10, %rcx
	movq	-56(%r13,%rax), %rdi
	movq	-48(%r13,%rax), %rsi
	movq	-56(%r13,%rcx), %rdx
	movq	-48(%r13,%rcx), %rcx
	callq	"amqp_value_core::types::short_string::ShortStringOrd::cmp"
	movq	(%rsp), %r11
	movq	%r15, %r10
	xorl	%ecx, %ecx
	xorl	%edx, %edx
	movq	%r15, %rdi
	testb	%al, %al
	setne	%al
	sete	%sil
	je	.LBB47_32
	movq	%r11, %rdi
.LBB47_32:
	movq	8(%rsp), %r8
	decq	%r8
	imulq	$56, %rdi, %rdi
	movq	%r8, 8(%rsp)
	imulq	$56, %r8, %r8
	movq	-8(%r13,%rdi), %r9
	movups	-56(%r13,%rdi), %xmm0
	movups	-40(%r13,%rdi), %xmm1
	movups	-24(%r13,%rdi), %xmm2
	movq	32(%rsp), %r15
	movups	%xmm0, (%r15,%r8)
	movq	%r9, 48(%r15,%r8)
	movups	%xmm2, 32(%r15,%r8)
	movups	%xmm1, 16(%r15,%r8)
	movb	%sil, %dl
	subq	%rdx, %r10
	movb	%al, %cl
	subq	%rcx, %r11
	incq	%rbp
	cmpq	%r10, %rbx
	jb	.LBB47_35
.LBB47_36:
	cmpq	%r10, %rbx
	cmovbq	%rbx, %r12
	imulq	$56, %r12, %rax
	movq	16(%rsp), %r12
	movq	8(%rsp), %r11
	movq	24(%rsp), %r14
	jmp	.LBB47_38
.LBB47_37:
	xorl	%ebp, %ebp
	xorl	%eax, %eax
.LBB47_38:
	movq	%r11, %r8
	subq	%rbp, %r8
	leaq	(%rax,%r13), %rsi
	imulq	$56, %rbp, %rcx
	leaq	(%r15,%rcx), %rdi
	imulq	$56, %r8, %rdx
	movq	%rdi, %r9
	subq	%rsi, %r9
	cmpq	%rdx, %r9
	jae	.LBB47_42
	cmpq	%rbp, %r11
	je	.LBB47_48
	movl	%r8d, %edx
	andl	$7, %edx
	subq	%r11, %rbp
	cmpq	$-8, %rbp
	jbe	.LBB47_43
	xorl	%r9d, %r9d
	jmp	.LBB47_46
.LBB47_42:
	callq	memmove@PLT
	jmp	.LBB47_48
.LBB47_43:
	andq	$-8, %r8
	movl	$392, %r10d
	xorl	%r9d, %r9d
	.p2align	4
.LBB47_44:
	movups	-392(%rsi,%r10), %xmm0
	movups	-376(%rsi,%r10), %xmm1
	movups	-360(%rsi,%r10), %xmm2
	movq	-344(%rsi,%r10), %r11
	movq	%r11, -344(%rdi,%r10)
	movups	%xmm2, -360(%rdi,%r10)
	movups	%xmm1, -376(%rdi,%r10)
	movups	%xmm0, -392(%rdi,%r10)
	movups	-336(%rsi,%r10), %xmm0
	movups	-320(%rsi,%r10), %xmm1
	movups	-304(%rsi,%r10), %xmm2
	movq	-288(%rsi,%r10), %r11
	movq	%r11, -288(%rdi,%r10)
	movups	%xmm2, -304(%rdi,%r10)
	movups	%xmm1, -320(%rdi,%r10)
	movups	%xmm0, -336(%rdi,%r10)
	movups	-280(%rsi,%r10), %xmm0
	movups	-264(%rsi,%r10), %xmm1
	movups	-248(%rsi,%r10), %xmm2
	movq	-232(%rsi,%r10), %r11
	movq	%r11, -232(%rdi,%r10)
	movups	%xmm2, -248(%rdi,%r10)
	movups	%xmm1, -264(%rdi,%r10)
	movups	%xmm0, -280(%rdi,%r10)
	movups	-224(%rsi,%r10), %xmm0
	movups	-208(%rsi,%r10), %xmm1
	movups	-192(%rsi,%r10), %xmm2
	movq	-176(%rsi,%r10), %r11
	movq	%r11, -176(%rdi,%r10)
	movups	%xmm2, -192(%rdi,%r10)
	movups	%xmm1, -208(%rdi,%r10)
	movups	%xmm0, -224(%rdi,%r10)
	movups	-168(%rsi,%r10), %xmm0
	movups	-152(%rsi,%r10), %xmm1
	movups	-136(%rsi,%r10), %xmm2
	movq	-120(%rsi,%r10), %r11
	movq	%r11, -120(%rdi,%r10)
	movups	%xmm2, -136(%rdi,%r10)
	movups	%xmm1, -152(%rdi,%r10)
	movups	%xmm0, -168(%rdi,%r10)
	movups	-112(%rsi,%r10), %xmm0
	movups	-96(%rsi,%r10), %xmm1
	movups	-80(%rsi,%r10), %xmm2
	movq	-64(%rsi,%r10), %r11
	movq	%r11, -64(%rdi,%r10)
	movups	%xmm2, -80(%rdi,%r10)
	movups	%xmm1, -96(%rdi,%r10)
	movups	%xmm0, -112(%rdi,%r10)
	movups	-56(%rsi,%r10), %xmm0
	movups	-40(%rsi,%r10), %xmm1
	movups	-24(%rsi,%r10), %xmm2
	movq	-8(%rsi,%r10), %r11
	movq	%r11, -8(%rdi,%r10)
	movups	%xmm2, -24(%rdi,%r10)
	movups	%xmm1, -40(%rdi,%r10)
	movups	%xmm0, -56(%rdi,%r10)
	movups	(%rsi,%r10), %xmm0
	movups	16(%rsi,%r10), %xmm1
	movups	32(%rsi,%r10), %xmm2
	movq	48(%rsi,%r10), %r11
	movq	%r11, 48(%rdi,%r10)
	movups	%xmm2, 32(%rdi,%r10)
	movups	%xmm1, 16(%rdi,%r10)
	movups	%xmm0, (%rdi,%r10)
	addq	$8, %r9
	addq	$448, %r10
	cmpq	%r9, %r8
	jne	.LBB47_44
	testq	%rdx, %rdx
	je	.LBB47_48
.LBB47_46:
	imulq	$56, %r9, %rsi
	addq	%rsi, %rax
	addq	%r13, %rax
	addq	%rsi, %rcx
	addq	%rcx, %r15
	imulq	$56, %rdx, %rcx
	xorl	%edx, %edx
	.p2align	4
.LBB47_47:
	movups	(%rax,%rdx), %xmm0
	movups	16(%rax,%rdx), %xmm1
	movups	32(%rax,%rdx), %xmm2
	movq	48(%rax,%rdx), %rsi
	movq	%rsi, 48(%r15,%rdx)
	movups	%xmm2, 32(%r15,%rdx)
	movups	%xmm1, 16(%r15,%rdx)
	movups	%xmm0, (%r15,%rdx)
	addq	$56, %rdx
	cmpq	%rdx, %rcx
	jne	.LBB47_47
.LBB47_48:
	movq	%r13, (%r12)
	movq	%r14, 8(%r12)
	jmp	.LBB47_99
.LBB47_49:
	movq	%r15, %rax
	subq	%r13, %rax
	cmpq	%r8, %rax
	jb	.LBB47_98
	xorl	%edx, %edx
	movq	%r13, %rsi
	jmp	.LBB47_68
.LBB47_51:
	movq	%r10, %rdx
	andq	$-8, %rdx
	xorl	%ecx, %ecx
	xorl	%esi, %esi
	.p2align	4
.LBB47_52:
	movups	(%r15,%rsi), %xmm0
	movups	16(%r15,%rsi), %xmm1
	movups	32(%r15,%rsi), %xmm2
	movq	48(%r15,%rsi), %rdi
	movq	%rdi, 48(%r13,%rsi)
	movups	%xmm2, 32(%r13,%rsi)
	movups	%xmm1, 16(%r13,%rsi)
	movups	%xmm0, (%r13,%rsi)
	movups	56(%r15,%rsi), %xmm0
	movups	72(%r15,%rsi), %xmm1
	movups	88(%r15,%rsi), %xmm2
	movq	104(%r15,%rsi), %rdi
	movq	%rdi, 104(%r13,%rsi)
	movups	%xmm2, 88(%r13,%rsi)
	movups	%xmm1, 72(%r13,%rsi)
	movups	%xmm0, 56(%r13,%rsi)
	movups	112(%r15,%rsi), %xmm0
	movups	128(%r15,%rsi), %xmm1
	movups	144(%r15,%rsi), %xmm2
	movq	160(%r15,%rsi), %rdi
	movq	%rdi, 160(%r13,%rsi)
	movups	%xmm2, 144(%r13,%rsi)
	movups	%xmm1, 128(%r13,%rsi)
	movups	%xmm0, 112(%r13,%rsi)
	movups	168(%r15,%rsi), %xmm0
	movups	184(%r15,%rsi), %xmm1
	movups	200(%r15,%rsi), %xmm2
	movq	216(%r15,%rsi), %rdi
	movq	%rdi, 216(%r13,%rsi)
	movups	%xmm2, 200(%r13,%rsi)
	movups	%xmm1, 184(%r13,%rsi)
	movups	%xmm0, 168(%r13,%rsi)
	movups	224(%r15,%rsi), %xmm0
	movups	240(%r15,%rsi), %xmm1
	movups	256(%r15,%rsi), %xmm2
	movq	272(%r15,%rsi), %rdi
	movq	%rdi, 272(%r13,%rsi)
	movups	%xmm2, 256(%r13,%rsi)
	movups	%xmm1, 240(%r13,%rsi)
	movups	%xmm0, 224(%r13,%rsi)
	movups	280(%r15,%rsi), %xmm0
	movups	296(%r15,%rsi), %xmm1
	movups	312(%r15,%rsi), %xmm2
	movq	328(%r15,%rsi), %rdi
	movq	%rdi, 328(%r13,%rsi)
	movups	%xmm2, 312(%r13,%rsi)
	movups	%xmm1, 296(%r13,%rsi)
	movups	%xmm0, 280(%r13,%rsi)
	movups	336(%r15,%rsi), %xmm0
	movups	352(%r15,%rsi), %xmm1
	movups	368(%r15,%rsi), %xmm2
	movq	384(%r15,%rsi), %rdi
	movq	%rdi, 384(%r13,%rsi)
	movups	%xmm2, 368(%r13,%rsi)
	movups	%xmm1, 352(%r13,%rsi)
	movups	%xmm0, 336(%r13,%rsi)
	movups	392(%r15,%rsi), %xmm0
	movups	408(%r15,%rsi), %xmm1
	movups	424(%r15,%rsi), %xmm2
	movq	440(%r15,%rsi), %rdi
	movq	%rdi, 440(%r13,%rsi)
	movups	%xmm2, 424(%r13,%rsi)
	movups	%xmm1, 408(%r13,%rsi)
	movups	%xmm0, 392(%r13,%rsi)
	addq	$8, %rcx
	addq	$448, %rsi
	cmpq	%rcx, %rdx
	jne	.LBB47_52
	testq	%rax, %rax
	je	.LBB47_56
.LBB47_54:
	imulq	$56, %rcx, %rcx
	leaq	(%r15,%rcx), %rdx
	addq	%r13, %rcx
	imulq	$56, %rax, %rax
	xorl	%esi, %esi
	.p2align	4
.LBB47_55:
	movups	(%rdx,%rsi), %xmm0
	movups	16(%rdx,%rsi), %xmm1
	movups	32(%rdx,%rsi), %xmm2
	movq	48(%rdx,%rsi), %rdi
	movq	%rdi, 48(%rcx,%rsi)
	movups	%xmm2, 32(%rcx,%rsi)
	movups	%xmm1, 16(%rcx,%rsi)
	movups	%xmm0, (%rcx,%rsi)
	addq	$56, %rsi
	cmpq	%rsi, %rax
	jne	.LBB47_55
.LBB47_56:
	testq	%r10, %r10
	sete	%al
	cmpq	%r11, %r10
	setae	%cl
	orb	%al, %cl
	jne	.LBB47_62
	movq	%r11, %rbp
	xorl	%ebx, %ebx
	xorl	%r14d, %r14d
	movq	%r10, %r12
	.p2align	4
.LBB47_58:
	imulq	$56, %r12, %rax
	imulq	$56, %r14, %rcx
	movq	(%r15,%rax), %rdi
	movq	8(%r15,%rax), %rsi
	movq	(%r13,%rcx), %rdx
	movq	8(%r13,%rcx), %rcx
	callq	"amqp_value_core::types::short_string::ShortStringOrd::cmp"
	xorl	%edx, %edx
	xorl	%ecx, %ecx
	movq	%r15, %rdi
	movq	%r12, %r8
	testb	%al, %al
	setne	%sil
	sete	%al
	je	.LBB47_60
	movq	%r13, %rdi
	movq	%r14, %r8
.LBB47_60:
	imulq	$56, %r8, %r8
	movq	48(%rdi,%r8), %r9
	movups	(%rdi,%r8), %xmm0
	movups	16(%rdi,%r8), %xmm1
	movups	32(%rdi,%r8), %xmm2
	movups	%xmm0, (%r15,%rbx)
	movq	%r9, 48(%r15,%rbx)
	movups	%xmm2, 32(%r15,%rbx)
	movups	%xmm1, 16(%r15,%rbx)
	movb	%sil, %dl
	addq	%rdx, %r14
	addq	$56, %rbx
	movq	(%rsp), %r10
	cmpq	%r10, %r14
	jae	.LBB47_63
	movb	%al, %cl
	addq	%rcx, %r12
	cmpq	%rbp, %r12
	jb	.LBB47_58
	jmp	.LBB47_63
.LBB47_62:
	xorl	%ebx, %ebx
	xorl	%r14d, %r14d
.LBB47_63:
	movq	%r10, %rdi
	subq	%r14, %rdi
	imulq	$56, %r14, %rax
	leaq	(%rax,%r13), %rsi
	leaq	(%r15,%rbx), %r8
	imulq	$56, %rdi, %rdx
	movq	%r8, %rcx
	subq	%rsi, %rcx
	cmpq	%rdx, %rcx
	jae	.LBB47_67
	cmpq	%r14, %r10
	movq	16(%rsp), %r12
	je	.LBB47_98
	movl	%edi, %ecx
	andl	$7, %ecx
	subq	%r10, %r14
	cmpq	$-8, %r14
	jbe	.LBB47_93
	xorl	%edx, %edx
	jmp	.LBB47_96
.LBB47_67:
	movq	%r8, %r15
	movq	16(%rsp), %r12
.LBB47_68:
	movq	%r15, %rdi
	callq	memmove@PLT
	jmp	.LBB47_98
.LBB47_69:
	movq	%rbp, %r14
	andq	$-8, %r14
	xorl	%ecx, %ecx
	movq	%r8, %rsi
	.p2align	4
.LBB47_70:
	movups	(%r15,%rsi), %xmm0
	movups	16(%r15,%rsi), %xmm1
	movups	32(%r15,%rsi), %xmm2
	movq	48(%r15,%rsi), %rdi
	movq	%rdi, 48(%r13,%rsi)
	movups	%xmm2, 32(%r13,%rsi)
	movups	%xmm1, 16(%r13,%rsi)
	movups	%xmm0, (%r13,%rsi)
	movups	56(%r15,%rsi), %xmm0
	movups	72(%r15,%rsi), %xmm1
	movups	88(%r15,%rsi), %xmm2
	movq	104(%r15,%rsi), %rdi
	movq	%rdi, 104(%r13,%rsi)
	movups	%xmm2, 88(%r13,%rsi)
	movups	%xmm1, 72(%r13,%rsi)
	movups	%xmm0, 56(%r13,%rsi)
	movups	112(%r15,%rsi), %xmm0
	movups	128(%r15,%rsi), %xmm1
	movups	144(%r15,%rsi), %xmm2
	movq	160(%r15,%rsi), %rdi
	movq	%rdi, 160(%r13,%rsi)
	movups	%xmm2, 144(%r13,%rsi)
	movups	%xmm1, 128(%r13,%rsi)
	movups	%xmm0, 112(%r13,%rsi)
	movups	168(%r15,%rsi), %xmm0
	movups	184(%r15,%rsi), %xmm1
	movups	200(%r15,%rsi), %xmm2
	movq	216(%r15,%rsi), %rdi
	movq	%rdi, 216(%r13,%rsi)
	movups	%xmm2, 200(%r13,%rsi)
	movups	%xmm1, 184(%r13,%rsi)
	movups	%xmm0, 168(%r13,%rsi)
	movups	224(%r15,%rsi), %xmm0
	movups	240(%r15,%rsi), %xmm1
	movups	256(%r15,%rsi), %xmm2
	movq	272(%r15,%rsi), %rdi
	movq	%rdi, 272(%r13,%rsi)
	movups	%xmm2, 256(%r13,%rsi)
	movups	%xmm1, 240(%r13,%rsi)
	movups	%xmm0, 224(%r13,%rsi)
	movups	280(%r15,%rsi), %xmm0
	movups	296(%r15,%rsi), %xmm1
	movups	312(%r15,%rsi), %xmm2
	movq	328(%r15,%rsi), %rdi
	movq	%rdi, 328(%r13,%rsi)
	movups	%xmm2, 312(%r13,%rsi)
	movups	%xmm1, 296(%r13,%rsi)
	movups	%xmm0, 280(%r13,%rsi)
	movups	336(%r15,%rsi), %xmm0
	movups	352(%r15,%rsi), %xmm1
	movups	368(%r15,%rsi), %xmm2
	movq	384(%r15,%rsi), %rdi
	movq	%rdi, 384(%r13,%rsi)
	movups	%xmm2, 368(%r13,%rsi)
	movups	%xmm1, 352(%r13,%rsi)
	movups	%xmm0, 336(%r13,%rsi)
	movups	392(%r15,%rsi), %xmm0
	movups	408(%r15,%rsi), %xmm1
	movups	424(%r15,%rsi), %xmm2
	movq	440(%r15,%rsi), %rdi
	movq	%rdi, 440(%r13,%rsi)
	movups	%xmm2, 424(%r13,%rsi)
	movups	%xmm1, 408(%r13,%rsi)
	movups	%xmm0, 392(%r13,%rsi)
	addq	$8, %rcx
	addq	$448, %rsi
	cmpq	%rcx, %r14
	jne	.LBB47_70
	testq	%rax, %rax
	je	.LBB47_74
.LBB47_72:
	imulq	$56, %rcx, %rcx
	addq	%r8, %rcx
	leaq	(%r15,%rcx), %r14
	addq	%r13, %rcx
	imulq	$56, %rax, %rax
	xorl	%esi, %esi
	.p2align	4
.LBB47_73:
	movups	(%r14,%rsi), %xmm0
	movups	16(%r14,%rsi), %xmm1
	movups	32(%r14,%rsi), %xmm2
	movq	48(%r14,%rsi), %rdi
	movq	%rdi, 48(%rcx,%rsi)
	movups	%xmm2, 32(%rcx,%rsi)
	movups	%xmm1, 16(%rcx,%rsi)
	movups	%xmm0, (%rcx,%rsi)
	addq	$56, %rsi
	cmpq	%rsi, %rax
	jne	.LBB47_73
.LBB47_74:
	cmpq	%r11, %r10
	jae	.LBB47_81
	movq	%r9, 40(%rsp)
	movq	%r8, 48(%rsp)
	imulq	$56, %r11, %rax
	leaq	(%rax,%r15), %r12
	addq	$-56, %r12
	movq	%r10, %r14
	.p2align	4
.LBB47_76:
	movq	%r11, 8(%rsp)
	leaq	-1(%r11), %rax
	movq	%rax, %rbx
	imulq	$56, %rax, %rax
	leaq	-1(%r14), %rbp
	imulq	$56, %rbp, %rcx
	movq	(%r13,%rax), %rdi
	movq	8(%r13,%rax), %rsi
	movq	(%r15,%rcx), %rdx
	movq	8(%r15,%rcx), %rcx
	callq	"amqp_value_core::types::short_string::ShortStringOrd::cmp"
	xorl	%edx, %edx
	xorl	%ecx, %ecx
	movq	%r15, %rdi
	testb	%al, %al
	setne	%al
	sete	%sil
	je	.LBB47_78
	movq	%r13, %rdi
	movq	%rbx, %rbp
.LBB47_78:
	imulq	$56, %rbp, %r8
	movq	48(%rdi,%r8), %r9
	movups	(%rdi,%r8), %xmm0
	movups	16(%rdi,%r8), %xmm1
	movups	32(%rdi,%r8), %xmm2
	movups	%xmm0, (%r12)
	movq	%r9, 48(%r12)
	movups	%xmm2, 32(%r12)
	movups	%xmm1, 16(%r12)
	movb	%sil, %cl
	movb	%al, %dl
	movq	8(%rsp), %r11
	subq	%rdx, %r11
	subq	%rcx, %r14
	movq	(%rsp), %r10
	je	.LBB47_80
	addq	$-56, %r12
	cmpq	%r10, %r11
	ja	.LBB47_76
.LBB47_80:
	movq	%r11, %rbp
	subq	%r10, %rbp
	imulq	$56, %r14, %rax
	imulq	$56, %rbp, %rdx
	movq	16(%rsp), %r12
	movq	24(%rsp), %rbx
	movq	48(%rsp), %r8
	movq	40(%rsp), %r9
	jmp	.LBB47_82
.LBB47_81:
	movq	%r8, %rax
.LBB47_82:
	addq	%rax, %r15
	movq	%r15, %rax
	subq	%r9, %rax
	cmpq	%rdx, %rax
	jae	.LBB47_86
	cmpq	%r10, %r11
	je	.LBB47_92
	leaq	-1(%rbp), %rcx
	movl	%ebp, %eax
	andl	$7, %eax
	cmpq	$7, %rcx
	jae	.LBB47_87
	xorl	%ecx, %ecx
	jmp	.LBB47_90
.LBB47_86:
	movq	%r15, %rdi
	movq	%r9, %rsi
	callq	memmove@PLT
	jmp	.LBB47_92
.LBB47_87:
	andq	$-8, %rbp
	movl	$392, %edx
	xorl	%ecx, %ecx
	.p2align	4
.LBB47_88:
	movups	-392(%r9,%rdx), %xmm0
	movups	-376(%r9,%rdx), %xmm1
	movups	-360(%r9,%rdx), %xmm2
	movq	-344(%r9,%rdx), %rsi
	movq	%rsi, -344(%r15,%rdx)
	movups	%xmm2, -360(%r15,%rdx)
	movups	%xmm1, -376(%r15,%rdx)
	movups	%xmm0, -392(%r15,%rdx)
	movups	-336(%r9,%rdx), %xmm0
	movups	-320(%r9,%rdx), %xmm1
	movups	-304(%r9,%rdx), %xmm2
	movq	-288(%r9,%rdx), %rsi
	movq	%rsi, -288(%r15,%rdx)
	movups	%xmm2, -304(%r15,%rdx)
	movups	%xmm1, -320(%r15,%rdx)
	movups	%xmm0, -336(%r15,%rdx)
	movups	-280(%r9,%rdx), %xmm0
	movups	-264(%r9,%rdx), %xmm1
	movups	-248(%r9,%rdx), %xmm2
	movq	-232(%r9,%rdx), %rsi
	movq	%rsi, -232(%r15,%rdx)
	movups	%xmm2, -248(%r15,%rdx)
	movups	%xmm1, -264(%r15,%rdx)
	movups	%xmm0, -280(%r15,%rdx)
	movups	-224(%r9,%rdx), %xmm0
	movups	-208(%r9,%rdx), %xmm1
	movups	-192(%r9,%rdx), %xmm2
	movq	-176(%r9,%rdx), %rsi
	movq	%rsi, -176(%r15,%rdx)
	movups	%xmm2, -192(%r15,%rdx)
	movups	%xmm1, -208(%r15,%rdx)
	movups	%xmm0, -224(%r15,%rdx)
	movups	-168(%r9,%rdx), %xmm0
	movups	-152(%r9,%rdx), %xmm1
	movups	-136(%r9,%rdx), %xmm2
	movq	-120(%r9,%rdx), %rsi
	movq	%rsi, -120(%r15,%rdx)
	movups	%xmm2, -136(%r15,%rdx)
	movups	%xmm1, -152(%r15,%rdx)
	movups	%xmm0, -168(%r15,%rdx)
	movups	-112(%r9,%rdx), %xmm0
	movups	-96(%r9,%rdx), %xmm1
	movups	-80(%r9,%rdx), %xmm2
	movq	-64(%r9,%rdx), %rsi
	movq	%rsi, -64(%r15,%rdx)
	movups	%xmm2, -80(%r15,%rdx)
	movups	%xmm1, -96(%r15,%rdx)
	movups	%xmm0, -112(%r15,%rdx)
	movups	-56(%r9,%rdx), %xmm0
	movups	-40(%r9,%rdx), %xmm1
	movups	-24(%r9,%rdx), %xmm2
	movq	-8(%r9,%rdx), %rsi
	movq	%rsi, -8(%r15,%rdx)
	movups	%xmm2, -24(%r15,%rdx)
	movups	%xmm1, -40(%r15,%rdx)
	movups	%xmm0, -56(%r15,%rdx)
	movups	(%r9,%rdx), %xmm0
	movups	16(%r9,%rdx), %xmm1
	movups	32(%r9,%rdx), %xmm2
	movq	48(%r9,%rdx), %rsi
	movq	%rsi, 48(%r15,%rdx)
	movups	%xmm2, 32(%r15,%rdx)
	movups	%xmm1, 16(%r15,%rdx)
	movups	%xmm0, (%r15,%rdx)
	addq	$8, %rcx
	addq	$448, %rdx
	cmpq	%rcx, %rbp
	jne	.LBB47_88
	testq	%rax, %rax
	je	.LBB47_92
.LBB47_90:
	imulq	$56, %rcx, %rcx
	addq	%rcx, %r8
	addq	%r13, %r8
	addq	%rcx, %r15
	imulq	$56, %rax, %rax
	xorl	%ecx, %ecx
	.p2align	4
.LBB47_91:
	movups	(%r8,%rcx), %xmm0
	movups	16(%r8,%rcx), %xmm1
	movups	32(%r8,%rcx), %xmm2
	movq	48(%r8,%rcx), %rdx
	movq	%rdx, 48(%r15,%rcx)
	movups	%xmm2, 32(%r15,%rcx)
	movups	%xmm1, 16(%r15,%rcx)
	movups	%xmm0, (%r15,%rcx)
	addq	$56, %rcx
	cmpq	%rcx, %rax
	jne	.LBB47_91
.LBB47_92:
	movq	%r13, (%r12)
	movq	%rbx, 8(%r12)
	jmp	.LBB47_99
.LBB47_93:
	andq	$-8, %rdi
	movl	$392, %r9d
	xorl	%edx, %edx
	.p2align	4
.LBB47_94:
	movups	-392(%rsi,%r9), %xmm0
	movups	-376(%rsi,%r9), %xmm1
	movups	-360(%rsi,%r9), %xmm2
	movq	-344(%rsi,%r9), %r10
	movq	%r10, -344(%r8,%r9)
	movups	%xmm2, -360(%r8,%r9)
	movups	%xmm1, -376(%r8,%r9)
	movups	%xmm0, -392(%r8,%r9)
	movups	-336(%rsi,%r9), %xmm0
	movups	-320(%rsi,%r9), %xmm1
	movups	-304(%rsi,%r9), %xmm2
	movq	-288(%rsi,%r9), %r10
	movq	%r10, -288(%r8,%r9)
	movups	%xmm2, -304(%r8,%r9)
	movups	%xmm1, -320(%r8,%r9)
	movups	%xmm0, -336(%r8,%r9)
	movups	-280(%rsi,%r9), %xmm0
	movups	-264(%rsi,%r9), %xmm1
	movups	-248(%rsi,%r9), %xmm2
	movq	-232(%rsi,%r9), %r10
	movq	%r10, -232(%r8,%r9)
	movups	%xmm2, -248(%r8,%r9)
	movups	%xmm1, -264(%r8,%r9)
	movups	%xmm0, -280(%r8,%r9)
	movups	-224(%rsi,%r9), %xmm0
	movups	-208(%rsi,%r9), %xmm1
	movups	-192(%rsi,%r9), %xmm2
	movq	-176(%rsi,%r9), %r10
	movq	%r10, -176(%r8,%r9)
	movups	%xmm2, -192(%r8,%r9)
	movups	%xmm1, -208(%r8,%r9)
	movups	%xmm0, -224(%r8,%r9)
	movups	-168(%rsi,%r9), %xmm0
	movups	-152(%rsi,%r9), %xmm1
	movups	-136(%rsi,%r9), %xmm2
	movq	-120(%rsi,%r9), %r10
	movq	%r10, -120(%r8,%r9)
	movups	%xmm2, -136(%r8,%r9)
	movups	%xmm1, -152(%r8,%r9)
	movups	%xmm0, -168(%r8,%r9)
	movups	-112(%rsi,%r9), %xmm0
	movups	-96(%rsi,%r9), %xmm1
	movups	-80(%rsi,%r9), %xmm2
	movq	-64(%rsi,%r9), %r10
	movq	%r10, -64(%r8,%r9)
	movups	%xmm2, -80(%r8,%r9)
	movups	%xmm1, -96(%r8,%r9)
	movups	%xmm0, -112(%r8,%r9)
	movups	-56(%rsi,%r9), %xmm0
	movups	-40(%rsi,%r9), %xmm1
	movups	-24(%rsi,%r9), %xmm2
	movq	-8(%rsi,%r9), %r10
	movq	%r10, -8(%r8,%r9)
	movups	%xmm2, -24(%r8,%r9)
	movups	%xmm1, -40(%r8,%r9)
	movups	%xmm0, -56(%r8,%r9)
	movups	(%rsi,%r9), %xmm0
	movups	16(%rsi,%r9), %xmm1
	movups	32(%rsi,%r9), %xmm2
	movq	48(%rsi,%r9), %r10
	movq	%r10, 48(%r8,%r9)
	movups	%xmm2, 32(%r8,%r9)
	movups	%xmm1, 16(%r8,%r9)
	movups	%xmm0, (%r8,%r9)
	addq	$8, %rdx
	addq	$448, %r9
	cmpq	%rdx, %rdi
	jne	.LBB47_94
	testq	%rcx, %rcx
	je	.LBB47_98
.LBB47_96:
	imulq	$56, %rdx, %rdx
	addq	%r13, %rax
	addq	%rdx, %rax
	addq	%rbx, %r15
	addq	%rdx, %r15
	imulq	$56, %rcx, %rcx
	xorl	%edx, %edx
	.p2align	4
.LBB47_97:
	movups	(%rax,%rdx), %xmm0
	movups	16(%rax,%rdx), %xmm1
	movups	32(%rax,%rdx), %xmm2
	movq	48(%rax,%rdx), %rsi
	movq	%rsi, 48(%r15,%rdx)
	movups	%xmm2, 32(%r15,%rdx)
	movups	%xmm1, 16(%r15,%rdx)
	movups	%xmm0, (%r15,%rdx)
	addq	$56, %rdx
	cmpq	%rdx, %rcx
	jne	.LBB47_97
.LBB47_98:
	movq	%r13, (%r12)
	movq	24(%rsp), %rax
	movq	%rax, 8(%r12)
.LBB47_99:
	addq	$56, %rsp
	popq	%rbx
	popq	%r12
	popq	%r13
	popq	%r14
	popq	%r15
	popq	%rbp
	retq
.Lfunc_end47:
	.size	"core::slice::sort::merge::merge::<#9d6850f96084634e>", .Lfunc_end47-"core::slice::sort::merge::merge::<#9d6850f96084634e>"

	.section	".text.core::slice::sort::pivot::median_of_medians::<#9d6850f96084634e>","ax",@progbits
	.p2align	4
	.type	"core::slice::sort::pivot::median_of_medians::<#9d6850f96084634e>",@function
"core::slice::sort::pivot::median_of_medians::<#9d6850f96084634e>":
	pushq	%rbp
	pushq	%r15
	pushq	%r14
	pushq	%r13
	pushq	%r12
	pushq	%rbx
	subq	$40, %rsp
	movq	%rcx, %r14
	movq	%rdx, %r12
	movq	%rsi, %rbx
	movq	%rdi, %r15
	cmpq	$8, %r8
	jae	.LBB48_3
	imulq	$56, %rbx, %rax
	imulq	$56, %r12, %rcx
	movq	(%r15,%rax), %r13
	movq	8(%r15,%rax), %rbp
	movq	(%r15,%rcx), %rdx
	movq	8(%r15,%rcx), %rcx
	movq	%r13, %rdi
	movq	%rbp, %rsi
	movq	%rdx, 24(%rsp)
	movq	%rcx, 16(%rsp)
	callq	"amqp_value_core::types::short_string::ShortStringOrd::cmp"
	movb	%al, 8(%rsp)
	testb	%al, %al
	sete	7(%rsp)
	imulq	$56, %r14, %rax
	movq	(%r15,%rax), %rcx
	movq	8(%r15,%rax), %r15
	movq	%r13, %rdi
	movq	%rcx, %r13
	movq	%rbp, %rsi
	movq	%rcx, %rdx
	movq	%r15, %rcx
	callq	"amqp_value_core::types::short_string::ShortStringOrd::cmp"
	testb	%al, %al
	sete	%al
	xorb	7(%rsp), %al
	jne	.LBB48_5
	cmpb	$0, 8(%rsp)
	sete	%bl
	movq	24(%rsp), %rdi
	movq	16(%rsp), %rsi
	movq	%r13, %rdx
	movq	%r15, %rcx
	callq	"amqp_value_core::types::short_string::ShortStringOrd::cmp"
	testb	%al, %al
	sete	%al
	xorb	%bl, %al
	cmovneq	%r14, %r12
	movq	%r12, %rbx
	jmp	.LBB48_5
.LBB48_3:
	movq	%r8, %r13
	shrq	$3, %r13
	leaq	(%rbx,%r13,4), %rdx
	andq	$-8, %r8
	subq	%r13, %r8
	leaq	(%r8,%rbx), %rcx
	movq	%r15, %rdi
	movq	%rbx, %rsi
	movq	%r8, %rbp
	movq	%r13, %r8
	callq	"core::slice::sort::pivot::median_of_medians::<#9d6850f96084634e>"
	movq	%rax, %rbx
	leaq	(%r12,%r13,4), %rdx
	leaq	(%r12,%rbp), %rcx
	movq	%r15, %rdi
	movq	%r12, %rsi
	movq	%r13, %r8
	callq	"core::slice::sort::pivot::median_of_medians::<#9d6850f96084634e>"
	movq	%rax, %r12
	leaq	(%r14,%r13,4), %rdx
	addq	%r14, %rbp
	movq	%r15, %rdi
	movq	%r14, %rsi
	movq	%rbp, %rcx
	movq	%r13, %r8
	callq	"core::slice::sort::pivot::median_of_medians::<#9d6850f96084634e>"
	movq	%rax, %r14
	imulq	$56, %rbx, %rax
	movq	%r12, 24(%rsp)
	imulq	$56, %r12, %rcx
	movq	(%r15,%rax), %r13
	movq	8(%r15,%rax), %rbp
	movq	(%r15,%rcx), %rdx
	movq	8(%r15,%rcx), %rcx
	movq	%r13, %rdi
	movq	%rbp, %rsi
	movq	%rdx, 8(%rsp)
	movq	%rcx, 32(%rsp)
	callq	"amqp_value_core::types::short_string::ShortStringOrd::cmp"
	movl	%eax, %r12d
	testb	%al, %al
	sete	7(%rsp)
	movq	%r14, 16(%rsp)
	imulq	$56, %r14, %rax
	movq	(%r15,%rax), %r14
	movq	8(%r15,%rax), %r15
	movq	%r13, %rdi
	movq	%rbp, %rsi
	movq	%r14, %rdx
	movq	%r15, %rcx
	callq	"amqp_value_core::types::short_string::ShortStringOrd::cmp"
	testb	%al, %al
	sete	%al
	xorb	7(%rsp), %al
	jne	.LBB48_5
	testb	%r12b, %r12b
	sete	%bl
	movq	8(%rsp), %rdi
	movq	32(%rsp), %rsi
	movq	%r14, %rdx
	movq	%r15, %rcx
	callq	"amqp_value_core::types::short_string::ShortStringOrd::cmp"
	testb	%al, %al
	sete	%al
	xorb	%bl, %al
	movq	24(%rsp), %rbx
	cmovneq	16(%rsp), %rbx
.LBB48_5:
	movq	%rbx, %rax
	addq	$40, %rsp
	popq	%rbx
	popq	%r12
	popq	%r13
	popq	%r14
	popq	%r15
	popq	%rbp
	retq
.Lfunc_end48:
	.size	"core::slice::sort::pivot::median_of_medians::<#9d6850f96084634e>", .Lfunc_end48-"core::slice::sort::pivot::median_of_medians::<#9d6850f96084634e>"

	.section	".text.core::slice::sort::runs::climb::<#9d6850f96084634e>","ax",@progbits
	.p2align	4
	.type	"core::slice::sort::runs::climb::<#9d6850f96084634e>",@function
"core::slice::sort::runs::climb::<#9d6850f96084634e>":
	pushq	%rbp
	pushq	%r15
	pushq	%r14
	pushq	%r13
	pushq	%r12
	pushq	%rbx
	subq	$168, %rsp
	movl	%r9d, %ebp
	movq	%rdx, %r13
	movq	%rsi, 112(%rsp)
	movq	$0, 152(%rsp)
	subq	%r8, %rdx
	jne	.LBB49_3
	movq	%r8, (%rdi)
	movb	%bpl, 8(%rdi)
	movl	$0, 9(%rdi)
	movl	$0, 12(%rdi)
	movq	%r8, 16(%rdi)
	movb	%bpl, 24(%rdi)
	movq	$0, 25(%rdi)
	movq	$0, 32(%rdi)
	jmp	.LBB49_2
.LBB49_3:
	xorl	%r15d, %r15d
	movq	%r13, %rax
	movl	$0, %r14d
	cmpq	232(%rsp), %rdx
	movq	%rcx, 104(%rsp)
	movq	%rdi, 40(%rsp)
	jb	.LBB49_43
	movq	112(%rsp), %rdi
	movq	%r13, %rsi
	movq	%r8, %rdx
	movq	%r8, %r12
	callq	"core::slice::sort::pivot::run_from::<#9d6850f96084634e>"
	movq	%r12, %r8
	movq	%rax, %r11
	subq	%r12, %r11
	movq	232(%rsp), %rcx
	cmpq	%rcx, %r11
	jae	.LBB49_6
	leaq	(%rcx,%r8), %rax
	xorl	%r14d, %r14d
	jmp	.LBB49_7
.LBB49_6:
	movb	$1, %r14b
	cmpb	$1, %dl
	jne	.LBB49_7
	imulq	$56, %r8, %rdi
	addq	112(%rsp), %rdi
	cmpq	$15, %r11
	jbe	.LBB49_9
	movq	%r11, %rdx
	shrq	%rdx
	subq	%rdx, %r11
	imulq	$56, %r11, %rsi
	addq	%rdi, %rsi
	movq	%rax, %rbx
	callq	"core::slice::edits::mirror::<24'(,)::<#8af3e1b4e9e21b57>>"
	movq	%rbx, %rax
	movq	%r12, %r8
	jmp	.LBB49_7
.LBB49_9:
	cmpq	$2, %r11
	jb	.LBB49_7
	leaq	-2(%r11), %rdx
	movq	%rdx, %r10
	shrq	%r10
	movq	%r11, %rsi
	decq	%rsi
	je	.LBB49_12
	imulq	$56, %rsi, %rsi
	movq	48(%rdi), %r9
	movq	%r9, 96(%rsp)
	movups	(%rdi), %xmm0
	movups	16(%rdi), %xmm1
	movups	32(%rdi), %xmm2
	movaps	%xmm2, 80(%rsp)
	movaps	%xmm1, 64(%rsp)
	movaps	%xmm0, 48(%rsp)
	movq	48(%rdi,%rsi), %r9
	movups	(%rdi,%rsi), %xmm0
	movups	16(%rdi,%rsi), %xmm1
	movups	32(%rdi,%rsi), %xmm2
	movups	%xmm0, (%rdi)
	movq	%r9, 48(%rdi)
	movups	%xmm2, 32(%rdi)
	movups	%xmm1, 16(%rdi)
	movq	96(%rsp), %r9
	movq	%r9, 48(%rdi,%rsi)
	movaps	48(%rsp), %xmm0
	movaps	64(%rsp), %xmm1
	movaps	80(%rsp), %xmm2
	movups	%xmm2, 32(%rdi,%rsi)
	movups	%xmm1, 16(%rdi,%rsi)
	movups	%xmm0, (%rdi,%rsi)
.LBB49_12:
	testq	%r10, %r10
	movq	104(%rsp), %rcx
	je	.LBB49_42
	cmpq	$1, %rdx
	jbe	.LBB49_14
	imulq	$56, %rdx, %rdx
	movq	104(%rdi), %rsi
	movq	%rsi, 96(%rsp)
	movups	56(%rdi), %xmm0
	movups	72(%rdi), %xmm1
	movups	88(%rdi), %xmm2
	movaps	%xmm2, 80(%rsp)
	movaps	%xmm1, 64(%rsp)
	movaps	%xmm0, 48(%rsp)
	movq	48(%rdi,%rdx), %rsi
	movups	(%rdi,%rdx), %xmm0
	movups	16(%rdi,%rdx), %xmm1
	movups	32(%rdi,%rdx), %xmm2
	movups	%xmm0, 56(%rdi)
	movq	%rsi, 104(%rdi)
	movups	%xmm2, 88(%rdi)
	movups	%xmm1, 72(%rdi)
	movq	96(%rsp), %rsi
	movq	%rsi, 48(%rdi,%rdx)
	movaps	48(%rsp), %xmm0
	movaps	64(%rsp), %xmm1
	movaps	80(%rsp), %xmm2
	movups	%xmm2, 32(%rdi,%rdx)
	movups	%xmm1, 16(%rdi,%rdx)
	movups	%xmm0, (%rdi,%rdx)
	jmp	.LBB49_17
.LBB49_7:
	movq	40(%rsp), %rdi
	movq	104(%rsp), %rcx
.LBB49_43:
	leaq	(%r8,%rcx), %r9
	movq	240(%rsp), %rdx
	imulq	%rdx, %r9
	leaq	(%rax,%r8), %rsi
	imulq	%rdx, %rsi
	xorq	%r9, %rsi
	movl	$127, %edx
	bsrq	%rsi, %rdx
	xorl	$63, %edx
	leal	1(%rdx), %esi
	movq	%r8, 120(%rsp)
	movb	%bpl, 128(%rsp)
	leaq	129(%rsp), %rbx
	movl	$0, 129(%rsp)
	movl	$0, 132(%rsp)
	movq	%rax, 136(%rsp)
	movb	%r14b, 144(%rsp)
	movl	$0, 145(%rsp)
	movl	$0, 148(%rsp)
	movl	%esi, 152(%rsp)
	cmpl	%edx, 224(%rsp)
	ja	.LBB49_56
	imulq	$56, %rcx, %rax
	addq	112(%rsp), %rax
	movq	%rax, 160(%rsp)
	movq	232(%rsp), %r15
	jmp	.LBB49_45
	.p2align	4
.LBB49_46:
	movl	%r12d, %ebp
.LBB49_54:
	movb	%bpl, 128(%rsp)
	movl	$0, 3(%rbx)
	movl	$0, (%rbx)
	movl	152(%rsp), %esi
	cmpl	%esi, 224(%rsp)
	jae	.LBB49_55
.LBB49_45:
	movq	%r8, %r14
	movq	136(%rsp), %r8
	movl	144(%rsp), %r9d
	movq	248(%rsp), %rax
	movq	%rax, 24(%rsp)
	movq	240(%rsp), %rcx
	movq	%rcx, 16(%rsp)
	movq	%r15, 8(%rsp)
	movl	%esi, (%rsp)
	leaq	120(%rsp), %rdi
	movq	112(%rsp), %rsi
	movq	%r13, %rdx
	movq	%r14, %rcx
	callq	"core::slice::sort::runs::climb::<#9d6850f96084634e>"
	movq	120(%rsp), %r8
	movzbl	128(%rsp), %r12d
	movl	%r12d, %eax
	orb	%bpl, %al
	testb	$1, %al
	je	.LBB49_46
	movq	%r13, %r15
	movq	%r8, %r13
	testb	$1, %bpl
	jne	.LBB49_49
	movq	%r14, %rdx
	subq	104(%rsp), %rdx
	movl	$127, %eax
	bsrq	%rdx, %rax
	xorl	$63, %eax
	addl	%eax, %eax
	movl	$126, %ecx
	subl	%eax, %ecx
	movq	160(%rsp), %rdi
	movq	%rdx, %rsi
	movq	248(%rsp), %r8
	callq	"core::slice::sort::stable::quicksort::<#9d6850f96084634e>"
.LBB49_49:
	imulq	$56, %r14, %rbp
	testb	$1, %r12b
	jne	.LBB49_51
	movq	112(%rsp), %rax
	leaq	(%rax,%rbp), %rdi
	movq	%r13, %rdx
	subq	%r14, %rdx
	movl	$127, %eax
	bsrq	%rdx, %rax
	xorl	$63, %eax
	addl	%eax, %eax
	movl	$126, %ecx
	subl	%eax, %ecx
	movq	%rdx, %rsi
	movq	248(%rsp), %r8
	callq	"core::slice::sort::stable::quicksort::<#9d6850f96084634e>"
.LBB49_51:
	movq	112(%rsp), %rax
	movq	(%rax,%rbp), %rdi
	movq	8(%rax,%rbp), %rsi
	movq	-56(%rax,%rbp), %rdx
	movq	-48(%rax,%rbp), %rcx
	callq	"amqp_value_core::types::short_string::ShortStringOrd::cmp"
	movb	$1, %bpl
	testb	%al, %al
	jne	.LBB49_53
	movq	%r13, %rsi
	movq	104(%rsp), %rax
	subq	%rax, %rsi
	subq	%rax, %r14
	movq	160(%rsp), %rdi
	movq	%r14, %rdx
	movq	248(%rsp), %rcx
	callq	"core::slice::sort::merge::merge::<#9d6850f96084634e>"
.LBB49_53:
	movq	%r13, %r8
	movq	%r15, %r13
	movq	232(%rsp), %r15
	jmp	.LBB49_54
.LBB49_55:
	movq	136(%rsp), %rax
	movzbl	144(%rsp), %r14d
	movl	156(%rsp), %r15d
	movq	40(%rsp), %rdi
.LBB49_56:
	movq	%r8, (%rdi)
	movb	%bpl, 8(%rdi)
	movl	(%rbx), %ecx
	movl	3(%rbx), %edx
	movl	%ecx, 9(%rdi)
	movl	%edx, 12(%rdi)
	movq	%rax, 16(%rdi)
	movb	%r14b, 24(%rdi)
	movl	16(%rbx), %ecx
	movl	19(%rbx), %edx
	movl	%ecx, 25(%rdi)
	movl	%edx, 28(%rdi)
	movl	%esi, 32(%rdi)
	movl	%r15d, 36(%rdi)
.LBB49_2:
	addq	$168, %rsp
	popq	%rbx
	popq	%r12
	popq	%r13
	popq	%r14
	popq	%r15
	popq	%rbp
	retq
.LBB49_14:
	testq	%rdx, %rdx
	jne	.LBB49_17
	imulq	$56, %rdx, %rdx
	movq	48(%rdi,%rdx), %rsi
	movq	%rsi, 96(%rsp)
	movups	(%rdi,%rdx), %xmm0
	movups	16(%rdi,%rdx), %xmm1
	movups	32(%rdi,%rdx), %xmm2
	movaps	%xmm2, 80(%rsp)
	movaps	%xmm1, 64(%rsp)
	movaps	%xmm0, 48(%rsp)
	movq	104(%rdi), %rsi
	movups	56(%rdi), %xmm0
	movups	72(%rdi), %xmm1
	movups	88(%rdi), %xmm2
	movups	%xmm0, (%rdi,%rdx)
	movq	%rsi, 48(%rdi,%rdx)
	movups	%xmm2, 32(%rdi,%rdx)
	movups	%xmm1, 16(%rdi,%rdx)
	movq	96(%rsp), %rdx
	movq	%rdx, 104(%rdi)
	movaps	48(%rsp), %xmm0
	movaps	64(%rsp), %xmm1
	movaps	80(%rsp), %xmm2
	movups	%xmm2, 88(%rdi)
	movups	%xmm1, 72(%rdi)
	movups	%xmm0, 56(%rdi)
.LBB49_17:
	cmpq	$1, %r10
	je	.LBB49_42
	leaq	-3(%r11), %rdx
	cmpq	$2, %rdx
	jbe	.LBB49_19
	imulq	$56, %rdx, %rdx
	movq	160(%rdi), %rsi
	movq	%rsi, 96(%rsp)
	movups	112(%rdi), %xmm0
	movups	128(%rdi), %xmm1
	movups	144(%rdi), %xmm2
	movaps	%xmm2, 80(%rsp)
	movaps	%xmm1, 64(%rsp)
	movaps	%xmm0, 48(%rsp)
	movq	48(%rdi,%rdx), %rsi
	movups	(%rdi,%rdx), %xmm0
	movups	16(%rdi,%rdx), %xmm1
	movups	32(%rdi,%rdx), %xmm2
	movups	%xmm0, 112(%rdi)
	movq	%rsi, 160(%rdi)
	movups	%xmm2, 144(%rdi)
	movups	%xmm1, 128(%rdi)
	movq	96(%rsp), %rsi
	movq	%rsi, 48(%rdi,%rdx)
	movaps	48(%rsp), %xmm0
	movaps	64(%rsp), %xmm1
	movaps	80(%rsp), %xmm2
	movups	%xmm2, 32(%rdi,%rdx)
	movups	%xmm1, 16(%rdi,%rdx)
	movups	%xmm0, (%rdi,%rdx)
	jmp	.LBB49_22
.LBB49_19:
	je	.LBB49_22
	imulq	$56, %rdx, %rdx
	movq	48(%rdi,%rdx), %rsi
	movq	%rsi, 96(%rsp)
	movups	(%rdi,%rdx), %xmm0
	movups	16(%rdi,%rdx), %xmm1
	movups	32(%rdi,%rdx), %xmm2
	movaps	%xmm2, 80(%rsp)
	movaps	%xmm1, 64(%rsp)
	movaps	%xmm0, 48(%rsp)
	movq	160(%rdi), %rsi
	movups	112(%rdi), %xmm0
	movups	128(%rdi), %xmm1
	movups	144(%rdi), %xmm2
	movups	%xmm0, (%rdi,%rdx)
	movq	%rsi, 48(%rdi,%rdx)
	movups	%xmm2, 32(%rdi,%rdx)
	movups	%xmm1, 16(%rdi,%rdx)
	movq	96(%rsp), %rdx
	movq	%rdx, 160(%rdi)
	movaps	48(%rsp), %xmm0
	movaps	64(%rsp), %xmm1
	movaps	80(%rsp), %xmm2
	movups	%xmm2, 144(%rdi)
	movups	%xmm1, 128(%rdi)
	movups	%xmm0, 112(%rdi)
.LBB49_22:
	cmpq	$2, %r10
	je	.LBB49_42
	leaq	-4(%r11), %rdx
	cmpq	$3, %rdx
	jbe	.LBB49_24
	imulq	$56, %rdx, %rdx
	movq	216(%rdi), %rsi
	movq	%rsi, 96(%rsp)
	movups	168(%rdi), %xmm0
	movups	184(%rdi), %xmm1
	movups	200(%rdi), %xmm2
	movaps	%xmm2, 80(%rsp)
	movaps	%xmm1, 64(%rsp)
	movaps	%xmm0, 48(%rsp)
	movq	48(%rdi,%rdx), %rsi
	movups	(%rdi,%rdx), %xmm0
	movups	16(%rdi,%rdx), %xmm1
	movups	32(%rdi,%rdx), %xmm2
	movups	%xmm0, 168(%rdi)
	movq	%rsi, 216(%rdi)
	movups	%xmm2, 200(%rdi)
	movups	%xmm1, 184(%rdi)
	movq	96(%rsp), %rsi
	movq	%rsi, 48(%rdi,%rdx)
	movaps	48(%rsp), %xmm0
	movaps	64(%rsp), %xmm1
	movaps	80(%rsp), %xmm2
	movups	%xmm2, 32(%rdi,%rdx)
	movups	%xmm1, 16(%rdi,%rdx)
	movups	%xmm0, (%rdi,%rdx)
	jmp	.LBB49_27
.LBB49_24:
	je	.LBB49_27
	imulq	$56, %rdx, %rdx
	movq	48(%rdi,%rdx), %rsi
	movq	%rsi, 96(%rsp)
	movups	(%rdi,%rdx), %xmm0
	movups	16(%rdi,%rdx), %xmm1
	movups	32(%rdi,%rdx), %xmm2
	movaps	%xmm2, 80(%rsp)
	movaps	%xmm1, 64(%rsp)
	movaps	%xmm0, 48(%rsp)
	movq	216(%rdi), %rsi
	movups	168(%rdi), %xmm0
	movups	184(%rdi), %xmm1
	movups	200(%rdi), %xmm2
	movups	%xmm0, (%rdi,%rdx)
	movq	%rsi, 48(%rdi,%rdx)
	movups	%xmm2, 32(%rdi,%rdx)
	movups	%xmm1, 16(%rdi,%rdx)
	movq	96(%rsp), %rdx
	movq	%rdx, 216(%rdi)
	movaps	48(%rsp), %xmm0
	movaps	64(%rsp), %xmm1
	movaps	80(%rsp), %xmm2
	movups	%xmm2, 200(%rdi)
	movups	%xmm1, 184(%rdi)
	movups	%xmm0, 168(%rdi)
.LBB49_27:
	cmpq	$3, %r10
	je	.LBB49_42
	leaq	-5(%r11), %rdx
	cmpq	$4, %rdx
	jbe	.LBB49_29
	imulq	$56, %rdx, %rdx
	movq	272(%rdi), %rsi
	movq	%rsi, 96(%rsp)
	movups	224(%rdi), %xmm0
	movups	240(%rdi), %xmm1
	movups	256(%rdi), %xmm2
	movaps	%xmm2, 80(%rsp)
	movaps	%xmm1, 64(%rsp)
	movaps	%xmm0, 48(%rsp)
	movq	48(%rdi,%rdx), %rsi
	movups	(%rdi,%rdx), %xmm0
	movups	16(%rdi,%rdx), %xmm1
	movups	32(%rdi,%rdx), %xmm2
	movups	%xmm0, 224(%rdi)
	movq	%rsi, 272(%rdi)
	movups	%xmm2, 256(%rdi)
	movups	%xmm1, 240(%rdi)
	movq	96(%rsp), %rsi
	movq	%rsi, 48(%rdi,%rdx)
	movaps	48(%rsp), %xmm0
	movaps	64(%rsp), %xmm1
	movaps	80(%rsp), %xmm2
	movups	%xmm2, 32(%rdi,%rdx)
	movups	%xmm1, 16(%rdi,%rdx)
	movups	%xmm0, (%rdi,%rdx)
	jmp	.LBB49_32
.LBB49_29:
	je	.LBB49_32
	imulq	$56, %rdx, %rdx
	movq	48(%rdi,%rdx), %rsi
	movq	%rsi, 96(%rsp)
	movups	(%rdi,%rdx), %xmm0
	movups	16(%rdi,%rdx), %xmm1
	movups	32(%rdi,%rdx), %xmm2
	movaps	%xmm2, 80(%rsp)
	movaps	%xmm1, 64(%rsp)
	movaps	%xmm0, 48(%rsp)
	movq	272(%rdi), %rsi
	movups	224(%rdi), %xmm0
	movups	240(%rdi), %xmm1
	movups	256(%rdi), %xmm2
	movups	%xmm0, (%rdi,%rdx)
	movq	%rsi, 48(%rdi,%rdx)
	movups	%xmm2, 32(%rdi,%rdx)
	movups	%xmm1, 16(%rdi,%rdx)
	movq	96(%rsp), %rdx
	movq	%rdx, 272(%rdi)
	movaps	48(%rsp), %xmm0
	movaps	64(%rsp), %xmm1
	movaps	80(%rsp), %xmm2
	movups	%xmm2, 256(%rdi)
	movups	%xmm1, 240(%rdi)
	movups	%xmm0, 224(%rdi)
.LBB49_32:
	cmpq	$4, %r10
	je	.LBB49_42
	leaq	-6(%r11), %rdx
	cmpq	$5, %rdx
	jbe	.LBB49_34
	imulq	$56, %rdx, %rdx
	movq	328(%rdi), %rsi
	movq	%rsi, 96(%rsp)
	movups	280(%rdi), %xmm0
	movups	296(%rdi), %xmm1
	movups	312(%rdi), %xmm2
	movaps	%xmm2, 80(%rsp)
	movaps	%xmm1, 64(%rsp)
	movaps	%xmm0, 48(%rsp)
	movq	48(%rdi,%rdx), %rsi
	movups	(%rdi,%rdx), %xmm0
	movups	16(%rdi,%rdx), %xmm1
	movups	32(%rdi,%rdx), %xmm2
	movups	%xmm0, 280(%rdi)
	movq	%rsi, 328(%rdi)
	movups	%xmm2, 312(%rdi)
	movups	%xmm1, 296(%rdi)
	movq	96(%rsp), %rsi
	movq	%rsi, 48(%rdi,%rdx)
	movaps	48(%rsp), %xmm0
	movaps	64(%rsp), %xmm1
	movaps	80(%rsp), %xmm2
	movups	%xmm2, 32(%rdi,%rdx)
	movups	%xmm1, 16(%rdi,%rdx)
	movups	%xmm0, (%rdi,%rdx)
	jmp	.LBB49_37
.LBB49_34:
	je	.LBB49_37
	imulq	$56, %rdx, %rdx
	movq	48(%rdi,%rdx), %rsi
	movq	%rsi, 96(%rsp)
	movups	(%rdi,%rdx), %xmm0
	movups	16(%rdi,%rdx), %xmm1
	movups	32(%rdi,%rdx), %xmm2
	movaps	%xmm2, 80(%rsp)
	movaps	%xmm1, 64(%rsp)
	movaps	%xmm0, 48(%rsp)
	movq	328(%rdi), %rsi
	movups	280(%rdi), %xmm0
	movups	296(%rdi), %xmm1
	movups	312(%rdi), %xmm2
	movups	%xmm0, (%rdi,%rdx)
	movq	%rsi, 48(%rdi,%rdx)
	movups	%xmm2, 32(%rdi,%rdx)
	movups	%xmm1, 16(%rdi,%rdx)
	movq	96(%rsp), %rdx
	movq	%rdx, 328(%rdi)
	movaps	48(%rsp), %xmm0
	movaps	64(%rsp), %xmm1
	movaps	80(%rsp), %xmm2
	movups	%xmm2, 312(%rdi)
	movups	%xmm1, 296(%rdi)
	movups	%xmm0, 280(%rdi)
.LBB49_37:
	cmpq	$5, %r10
	je	.LBB49_42
	addq	$-7, %r11
	cmpq	$6, %r11
	jbe	.LBB49_39
	imulq	$56, %r11, %rsi
	movq	384(%rdi), %rdx
	movq	%rdx, 96(%rsp)
	movups	336(%rdi), %xmm0
	movups	352(%rdi), %xmm1
	movups	368(%rdi), %xmm2
	movaps	%xmm2, 80(%rsp)
	movaps	%xmm1, 64(%rsp)
	movaps	%xmm0, 48(%rsp)
	movq	48(%rdi,%rsi), %rdx
	movups	(%rdi,%rsi), %xmm0
	movups	16(%rdi,%rsi), %xmm1
	movups	32(%rdi,%rsi), %xmm2
	movups	%xmm0, 336(%rdi)
	movq	%rdx, 384(%rdi)
	movups	%xmm2, 368(%rdi)
	movups	%xmm1, 352(%rdi)
	movq	96(%rsp), %rdx
	movq	%rdx, 48(%rdi,%rsi)
	movaps	48(%rsp), %xmm0
	movaps	64(%rsp), %xmm1
	movaps	80(%rsp), %xmm2
	movups	%xmm2, 32(%rdi,%rsi)
	movups	%xmm1, 16(%rdi,%rsi)
	movups	%xmm0, (%rdi,%rsi)
	jmp	.LBB49_42
.LBB49_39:
	je	.LBB49_42
	imulq	$56, %r11, %rsi
	movq	48(%rdi,%rsi), %rdx
	movq	%rdx, 96(%rsp)
	movups	(%rdi,%rsi), %xmm0
	movups	16(%rdi,%rsi), %xmm1
	movups	32(%rdi,%rsi), %xmm2
	movaps	%xmm2, 80(%rsp)
	movaps	%xmm1, 64(%rsp)
	movaps	%xmm0, 48(%rsp)
	movq	384(%rdi), %rdx
	movups	336(%rdi), %xmm0
	movups	352(%rdi), %xmm1
	movups	368(%rdi), %xmm2
	movups	%xmm0, (%rdi,%rsi)
	movq	%rdx, 48(%rdi,%rsi)
	movups	%xmm2, 32(%rdi,%rsi)
	movups	%xmm1, 16(%rdi,%rsi)
	movq	96(%rsp), %rdx
	movq	%rdx, 384(%rdi)
	movaps	48(%rsp), %xmm0
	movaps	64(%rsp), %xmm1
	movaps	80(%rsp), %xmm2
	movups	%xmm2, 368(%rdi)
	movups	%xmm1, 352(%rdi)
	movups	%xmm0, 336(%rdi)
.LBB49_42:
	movq	40(%rsp), %rdi
	jmp	.LBB49_43
.Lfunc_end49:
	.size	"core::slice::sort::runs::climb::<#9d6850f96084634e>", .Lfunc_end49-"core::slice::sort::runs::climb::<#9d6850f96084634e>"

	.section	".text.unlikely.std_alloc::vec::Vec::grow_amortized::<#6fdb356ad8f82b1c>","ax",@progbits
	.p2align	4
	.type	"std_alloc::vec::Vec::grow_amortized::<#6fdb356ad8f82b1c>",@function
"std_alloc::vec::Vec::grow_amortized::<#6fdb356ad8f82b1c>":
	addq	8(%rdi), %rsi
	jae	.LBB50_2
	xorl	%eax, %eax
	retq
.LBB50_2:
	pushq	%r14
	pushq	%rbx
	pushq	%rax
	movq	16(%rdi), %rax
	cmpq	$5, %rsi
	movl	$4, %ebx
	cmovaeq	%rsi, %rbx
	movq	%rax, %rdx
	shrq	$62, %rdx
	leaq	(%rax,%rax), %rcx
	cmpq	%rcx, %rbx
	cmovaq	%rbx, %rcx
	testq	%rdx, %rdx
	cmoveq	%rcx, %rbx
	movabsq	$115292150460684697, %rdx
	cmpq	%rdx, %rbx
	ja	.LBB50_6
	testq	%rax, %rax
	je	.LBB50_8
	movq	%rdi, %r14
	movq	(%rdi), %rdi
	movq	%rbx, %rax
	shlq	$4, %rax
	leaq	(%rax,%rax,4), %rsi
	movl	$8, %edx
	callq	rattle_realloc
	testb	$1, %al
	je	.LBB50_6
.LBB50_9:
	movq	%rdx, (%r14)
	movq	%rbx, 16(%r14)
	movb	$1, %al
	addq	$8, %rsp
	popq	%rbx
	popq	%r14
	retq
.LBB50_8:
	movq	%rdi, %r14
	shlq	$4, %rcx
	leaq	(%rcx,%rcx,4), %rdi
	movl	$8, %esi
	callq	rattle_alloc
	testb	$1, %al
	jne	.LBB50_9
.LBB50_6:
	xorl	%eax, %eax
	addq	$8, %rsp
	popq	%rbx
	popq	%r14
	retq
.Lfunc_end50:
	.size	"std_alloc::vec::Vec::grow_amortized::<#6fdb356ad8f82b1c>", .Lfunc_end50-"std_alloc::vec::Vec::grow_amortized::<#6fdb356ad8f82b1c>"

	.section	".text.std_collections::btree::blanks::Blanks::free::<#bb0aba1cc0c31969>","ax",@progbits
	.p2align	4
	.type	"std_collections::btree::blanks::Blanks::free::<#bb0aba1cc0c31969>",@function
"std_collections::btree::blanks::Blanks::free::<#bb0aba1cc0c31969>":
	pushq	%rbp
	pushq	%r15
	pushq	%r14
	pushq	%r13
	pushq	%r12
	pushq	%rbx
	pushq	%rax
	movq	(%rdi), %r14
	movq	8(%rdi), %rbp
	movq	16(%rdi), %r13
	movq	32(%rdi), %rbx
	movq	40(%rdi), %r12
	movq	48(%rdi), %rax
	movq	%rax, (%rsp)
	testq	%rbp, %rbp
	je	.LBB51_3
	leaq	(,%rbp,4), %rax
	addq	%rbp, %rax
	shlq	$4, %rax
	leaq	(%rax,%r14), %r15
	addq	$-8, %r15
	.p2align	4
.LBB51_2:
	movq	(%r15), %rdi
	cmpw	$0, 2(%rdi)
	callq	rattle_dealloc
	decq	%rbp
	addq	$-80, %r15
	testq	%rbp, %rbp
	jne	.LBB51_2
.LBB51_3:
	testq	%r13, %r13
	je	.LBB51_5
	movq	%r14, %rdi
	callq	rattle_dealloc
.LBB51_5:
	testq	%r12, %r12
	je	.LBB51_8
	leaq	(%r12,%r12,4), %rax
	shlq	$4, %rax
	leaq	(%rax,%rbx), %r14
	addq	$-8, %r14
	.p2align	4
.LBB51_7:
	movq	(%r14), %rdi
	cmpw	$0, 2(%rdi)
	callq	rattle_dealloc
	decq	%r12
	addq	$-80, %r14
	testq	%r12, %r12
	jne	.LBB51_7
.LBB51_8:
	cmpq	$0, (%rsp)
	je	.LBB51_9
	movq	%rbx, %rdi
	addq	$8, %rsp
	popq	%rbx
	popq	%r12
	popq	%r13
	popq	%r14
	popq	%r15
	popq	%rbp
	jmp	rattle_dealloc
.LBB51_9:
	addq	$8, %rsp
	popq	%rbx
	popq	%r12
	popq	%r13
	popq	%r14
	popq	%r15
	popq	%rbp
	retq
.Lfunc_end51:
	.size	"std_collections::btree::blanks::Blanks::free::<#bb0aba1cc0c31969>", .Lfunc_end51-"std_collections::btree::blanks::Blanks::free::<#bb0aba1cc0c31969>"

	.section	".text.std_collections::btree::build::pop_distinct::<#920bafd588459e79>","ax",@progbits
	.p2align	4
	.type	"std_collections::btree::build::pop_distinct::<#920bafd588459e79>",@function
"std_collections::btree::build::pop_distinct::<#920bafd588459e79>":
	pushq	%rbp
	pushq	%r15
	pushq	%r14
	pushq	%r13
	pushq	%r12
	pushq	%rbx
	subq	$168, %rsp
	movq	%rsi, %rbx
	movq	%rdi, 16(%rsp)
	movq	(%rsi), %rax
	movq	8(%rsi), %r14
	decq	%r14
	movq	%r14, 8(%rsi)
	imulq	$56, %r14, %rcx
	movq	(%rax,%rcx), %rdi
	movq	8(%rax,%rcx), %r13
	movq	16(%rax,%rcx), %r9
	movzbl	24(%rax,%rcx), %r8d
	movzbl	25(%rax,%rcx), %edx
	movzwl	26(%rax,%rcx), %esi
	movups	40(%rax,%rcx), %xmm0
	movups	%xmm0, 44(%rsp)
	movups	28(%rax,%rcx), %xmm0
	movaps	%xmm0, 32(%rsp)
	testq	%r14, %r14
	jne	.LBB52_4
	movq	%r9, %rcx
	movl	%r8d, %r10d
	movl	%edx, %r11d
	movl	%esi, %ebp
	movq	%rdi, %r15
.LBB52_2:
	movq	16(%rsp), %rax
	movq	%r15, (%rax)
	movq	%r13, 8(%rax)
	movq	%rcx, 16(%rax)
	movb	%r10b, 24(%rax)
	movb	%r11b, 25(%rax)
	movw	%bp, 26(%rax)
	jmp	.LBB52_3
	.p2align	4
.LBB52_8:
	movzbl	10(%rsp), %eax
	movb	%al, 96(%rsp)
	movzbl	11(%rsp), %eax
	movb	%al, 97(%rsp)
	movzwl	14(%rsp), %eax
	movw	%ax, 98(%rsp)
	movups	140(%rsp), %xmm0
	leaq	100(%rsp), %rax
	movups	%xmm0, 12(%rax)
	movaps	128(%rsp), %xmm0
	movups	%xmm0, (%rax)
	leaq	96(%rsp), %rdi
	callq	"amqp_value_core::amqp_value_core++value++AMQPValue+Destruct::drop"
	movq	8(%rbx), %r14
	movq	72(%rsp), %r15
	movq	%r15, %rdi
	movl	%r13d, %ebp
	movl	%r13d, %esi
	movzbl	12(%rsp), %r11d
	movl	%r11d, %edx
	movzbl	13(%rsp), %r10d
	movl	%r10d, %r8d
	movq	80(%rsp), %rcx
	movq	%rcx, %r9
	testq	%r14, %r14
	movq	88(%rsp), %r13
	je	.LBB52_2
.LBB52_4:
	movq	%r9, 24(%rsp)
	movb	%r8b, 10(%rsp)
	movw	%si, 14(%rsp)
	movb	%dl, 11(%rsp)
	decq	%r14
	movq	(%rbx), %rbp
	movq	%rbx, %r15
	imulq	$56, %r14, %rbx
	movq	(%rbp,%rbx), %rdx
	movq	8(%rbp,%rbx), %rcx
	movq	%rdi, %r12
	movq	%r13, %rsi
	callq	"amqp_value_core::types::short_string::ShortStringOrd::cmp"
	testb	%al, %al
	je	.LBB52_5
	addq	%rbx, %rbp
	movq	%r14, 8(%r15)
	movq	(%rbp), %rax
	movq	%rax, 72(%rsp)
	movq	8(%rbp), %rax
	movq	%rax, 88(%rsp)
	movq	16(%rbp), %rax
	movq	%rax, 80(%rsp)
	movzbl	24(%rbp), %eax
	movb	%al, 13(%rsp)
	movzbl	25(%rbp), %eax
	movb	%al, 12(%rsp)
	movzwl	26(%rbp), %r13d
	movups	44(%rsp), %xmm0
	movups	%xmm0, 140(%rsp)
	movaps	32(%rsp), %xmm0
	movaps	%xmm0, 128(%rsp)
	movups	28(%rbp), %xmm0
	movups	40(%rbp), %xmm1
	movaps	%xmm0, 32(%rsp)
	movups	%xmm1, 44(%rsp)
	cmpq	$0, 24(%rsp)
	movq	%r15, %rbx
	je	.LBB52_8
	movq	%r12, %rdi
	callq	rattle_dealloc
	jmp	.LBB52_8
.LBB52_5:
	movq	16(%rsp), %rax
	movq	%r12, (%rax)
	movq	%r13, 8(%rax)
	movq	24(%rsp), %rcx
	movq	%rcx, 16(%rax)
	movzbl	10(%rsp), %ecx
	movb	%cl, 24(%rax)
	movzbl	11(%rsp), %ecx
	movb	%cl, 25(%rax)
	movzwl	14(%rsp), %ecx
	movw	%cx, 26(%rax)
.LBB52_3:
	movaps	32(%rsp), %xmm0
	movups	%xmm0, 28(%rax)
	movups	44(%rsp), %xmm0
	movups	%xmm0, 40(%rax)
	addq	$168, %rsp
	popq	%rbx
	popq	%r12
	popq	%r13
	popq	%r14
	popq	%r15
	popq	%rbp
	retq
.Lfunc_end52:
	.size	"std_collections::btree::build::pop_distinct::<#920bafd588459e79>", .Lfunc_end52-"std_collections::btree::build::pop_distinct::<#920bafd588459e79>"

	.section	".text.std_collections::btree::node::Node::fill_above::<#7c362c450315e67d>","ax",@progbits
	.p2align	4
	.type	"std_collections::btree::node::Node::fill_above::<#7c362c450315e67d>",@function
"std_collections::btree::node::Node::fill_above::<#7c362c450315e67d>":
	pushq	%rbp
	pushq	%r15
	pushq	%r14
	pushq	%r13
	pushq	%r12
	pushq	%rbx
	subq	$328, %rsp
	movq	%rdx, %rbx
	movq	%rsi, %r13
	pxor	%xmm0, %xmm0
	movdqa	%xmm0, 224(%rsp)
	movdqa	%xmm0, 208(%rsp)
	movdqa	%xmm0, 192(%rsp)
	movq	$0, 240(%rsp)
	movzwl	2(%rdi), %esi
	movq	32(%rdx), %rax
	movq	40(%rdx), %rcx
	decq	%rcx
	movq	%rcx, 40(%rdx)
	leaq	(%rcx,%rcx,4), %rcx
	shlq	$4, %rcx
	movq	(%rax,%rcx), %rdx
	movq	%rdx, 88(%rsp)
	movq	8(%rax,%rcx), %rdx
	movq	24(%rax,%rcx), %r8
	movq	%r8, 80(%rsp)
	movq	32(%rax,%rcx), %r8
	movq	%r8, 16(%rsp)
	movq	48(%rax,%rcx), %r8
	movq	56(%rax,%rcx), %r9
	movq	72(%rax,%rcx), %rcx
	movq	%rsi, 96(%rsp)
	leal	1(%rsi), %eax
	movq	%rcx, 64(%rsp)
	movw	%ax, 2(%rcx)
	movq	%r8, 72(%rsp)
	movq	%rdi, (%r8,%r9,8)
	movq	%rdx, 8(%rsp)
	cmpq	$14, %rdx
	ja	.LBB53_47
	movq	%rbx, 120(%rsp)
	jmp	.LBB53_2
	.p2align	4
.LBB53_45:
	movq	112(%rsp), %r9
	incq	%r9
	movq	%rax, %rdx
	movq	8(%rsp), %rcx
	incq	%rcx
	incq	16(%rsp)
	movq	72(%rsp), %rax
	movq	%rdx, (%rax,%r9,8)
	movq	%rcx, 8(%rsp)
	cmpq	$15, %rcx
	je	.LBB53_46
.LBB53_2:
	cmpq	$0, 8(%r13)
	je	.LBB53_47
	movq	%r9, 112(%rsp)
	leaq	192(%rsp), %rdi
	movq	%r13, %rsi
	callq	"std_collections::btree::build::pop_distinct::<#920bafd588459e79>"
	movl	216(%rsp), %eax
	movq	8(%rsp), %rcx
	leaq	(%rcx,%rcx,2), %rcx
	movaps	192(%rsp), %xmm0
	movq	88(%rsp), %rsi
	movups	%xmm0, (%rsi,%rcx,8)
	movq	208(%rsp), %rdx
	movq	%rdx, 16(%rsi,%rcx,8)
	movq	16(%rsp), %rcx
	shlq	$5, %rcx
	movq	80(%rsp), %rdx
	movl	%eax, (%rdx,%rcx)
	leaq	220(%rsp), %rax
	movdqu	(%rax), %xmm0
	movdqu	12(%rax), %xmm1
	movdqu	%xmm0, 4(%rdx,%rcx)
	movdqu	%xmm1, 16(%rdx,%rcx)
	movq	(%rbx), %rax
	movq	8(%rbx), %rcx
	decq	%rcx
	movq	%rcx, 8(%rbx)
	shlq	$4, %rcx
	leaq	(%rcx,%rcx,4), %rcx
	movq	8(%rax,%rcx), %rsi
	movq	72(%rax,%rcx), %rdx
	movq	%rdx, 104(%rsp)
	cmpq	$14, %rsi
	ja	.LBB53_42
	movq	24(%rax,%rcx), %rdx
	movq	%rdx, 136(%rsp)
	movq	(%rax,%rcx), %rdx
	movq	%rdx, 128(%rsp)
	movq	32(%rax,%rcx), %r8
	jmp	.LBB53_5
	.p2align	4
.LBB53_39:
	movups	44(%rsp), %xmm0
	movups	%xmm0, 172(%rsp)
	movaps	32(%rsp), %xmm0
	movaps	%xmm0, 160(%rsp)
	movq	24(%rsp), %r8
	movzbl	5(%rsp), %ebx
	movzbl	4(%rsp), %r11d
	movzwl	6(%rsp), %r15d
.LBB53_40:
	movq	144(%rsp), %rsi
	leaq	(%rsi,%rsi,2), %rcx
	movq	128(%rsp), %rdx
	movq	%rdi, (%rdx,%rcx,8)
	movq	%rbp, 8(%rdx,%rcx,8)
	movq	%rax, 16(%rdx,%rcx,8)
	incq	%rsi
	movq	%r8, %rax
	shlq	$5, %rax
	movq	136(%rsp), %rcx
	movb	%bl, (%rcx,%rax)
	movb	%r11b, 1(%rcx,%rax)
	movw	%r15w, 2(%rcx,%rax)
	movaps	160(%rsp), %xmm0
	movups	%xmm0, 4(%rcx,%rax)
	movdqu	172(%rsp), %xmm0
	movdqu	%xmm0, 16(%rcx,%rax)
	incq	%r8
	cmpq	$15, %rsi
	movq	120(%rsp), %rbx
	je	.LBB53_41
.LBB53_5:
	movq	8(%r13), %rcx
	testq	%rcx, %rcx
	je	.LBB53_42
	movq	%r8, 24(%rsp)
	movq	%rsi, 144(%rsp)
	decq	%rcx
	movq	%rcx, 8(%r13)
	movq	(%r13), %rdx
	imulq	$56, %rcx, %rsi
	movq	(%rdx,%rsi), %rdi
	movq	8(%rdx,%rsi), %rbp
	movq	16(%rdx,%rsi), %rax
	movzbl	24(%rdx,%rsi), %ebx
	movzbl	25(%rdx,%rsi), %r11d
	movzwl	26(%rdx,%rsi), %r15d
	movups	40(%rdx,%rsi), %xmm0
	movups	%xmm0, 44(%rsp)
	movdqu	28(%rdx,%rsi), %xmm0
	movdqa	%xmm0, 32(%rsp)
	testq	%rcx, %rcx
	jne	.LBB53_8
.LBB53_7:
	movups	44(%rsp), %xmm0
	movups	%xmm0, 172(%rsp)
	movaps	32(%rsp), %xmm0
	movaps	%xmm0, 160(%rsp)
	movq	24(%rsp), %r8
	jmp	.LBB53_40
	.p2align	4
.LBB53_18:
	movzbl	5(%rsp), %eax
	movb	%al, 256(%rsp)
	movzbl	4(%rsp), %eax
	movb	%al, 257(%rsp)
	movzwl	6(%rsp), %eax
	movw	%ax, 258(%rsp)
	movups	300(%rsp), %xmm0
	leaq	260(%rsp), %rax
	movups	%xmm0, 12(%rax)
	movdqa	288(%rsp), %xmm0
	movdqu	%xmm0, (%rax)
	leaq	256(%rsp), %rdi
	callq	"amqp_value_core::amqp_value_core++value++AMQPValue+Destruct::drop"
	movq	8(%rbp), %rcx
	movq	%r14, %rax
	movl	%r13d, %r11d
	movq	%rbp, %r13
	movq	%r12, %rdi
	testq	%rcx, %rcx
	movq	152(%rsp), %rbp
	je	.LBB53_7
.LBB53_8:
	decq	%rcx
	movq	(%r13), %rdx
	imulq	$56, %rcx, %rsi
	movq	(%rdx,%rsi), %r8
	movq	8(%rdx,%rsi), %r9
	cmpq	%rbp, %r9
	movq	%rbp, %r10
	cmovbq	%r9, %r10
	cmpq	$7, %r10
	movb	%bl, 5(%rsp)
	movb	%r11b, 4(%rsp)
	movw	%r15w, 6(%rsp)
	ja	.LBB53_13
	cmpq	$4, %r10
	jb	.LBB53_11
	movl	(%rdi), %ebx
	movl	-4(%rdi,%r10), %r11d
	shlq	$32, %r11
	orq	%rbx, %r11
	bswapq	%r11
	movl	(%r8), %ebx
	movl	-4(%r8,%r10), %r12d
	shlq	$32, %r12
	orq	%rbx, %r12
	bswapq	%r12
	cmpq	%r12, %r11
	je	.LBB53_19
	jmp	.LBB53_15
	.p2align	4
.LBB53_13:
	movq	(%rdi), %r11
	leaq	-8(%r10), %rbx
	cmpq	$8, %rbx
	movl	$8, %r14d
	cmovbq	%rbx, %r14
	movq	(%r8), %r12
	movq	(%rdi,%r14), %rbx
	bswapq	%rbx
	movq	(%r8,%r14), %r14
	bswapq	%r14
	cmpq	%r12, %r11
	bswapq	%r12
	bswapq	%r11
	cmoveq	%rbx, %r11
	cmoveq	%r14, %r12
	cmpq	%r12, %r11
	jne	.LBB53_15
.LBB53_19:
	cmpq	$16, %r10
	jbe	.LBB53_38
	leaq	-16(%r10), %r12
	cmpq	$79, %r12
	ja	.LBB53_26
	movl	$16, %r11d
	movq	%r12, %rbx
	.p2align	4
.LBB53_22:
	cmpq	$17, %rbx
	jb	.LBB53_25
	movdqu	(%rdi,%r11), %xmm0
	movdqu	(%r8,%r11), %xmm1
	pcmpeqb	%xmm0, %xmm1
	pmovmskb	%xmm1, %r14d
	notl	%r14d
	rep		bsfl	%r14d, %r14d
	leaq	(%r14,%r11), %r15
	addq	$16, %r11
	addq	$-16, %rbx
	cmpq	%r11, %r15
	jae	.LBB53_22
	movzwl	%r14w, %ebx
	addq	%rbx, %r11
	addq	$-16, %r11
	cmpq	%r10, %r11
	jae	.LBB53_38
	jmp	.LBB53_37
	.p2align	4
.LBB53_11:
	testq	%r10, %r10
	je	.LBB53_38
	movzbl	(%rdi), %r11d
	movq	%r10, %rbx
	shrq	%rbx
	movzbl	(%rdi,%rbx), %r14d
	shll	$16, %r11d
	shll	$8, %r14d
	orl	%r11d, %r14d
	movzbl	-1(%rdi,%r10), %r11d
	orq	%r14, %r11
	movzbl	(%r8), %r14d
	movzbl	(%r8,%rbx), %ebx
	shll	$16, %r14d
	shll	$8, %ebx
	orl	%r14d, %ebx
	movzbl	-1(%r8,%r10), %r12d
	orq	%rbx, %r12
	cmpq	%r12, %r11
	je	.LBB53_19
	.p2align	4
.LBB53_15:
	jae	.LBB53_16
	jmp	.LBB53_39
.LBB53_26:
	movdqu	16(%rdi), %xmm0
	movdqu	16(%r8), %xmm1
	pcmpeqb	%xmm0, %xmm1
	pmovmskb	%xmm1, %r11d
	notl	%r11d
	rep		bsfl	%r11d, %r11d
	cmpw	$16, %r11w
	jae	.LBB53_28
	addl	$16, %r11d
	cmpq	%r10, %r11
	jae	.LBB53_38
	jmp	.LBB53_37
.LBB53_25:
	movdqu	(%rdi,%r12), %xmm0
	movdqu	(%r8,%r12), %xmm1
	pcmpeqb	%xmm0, %xmm1
	pmovmskb	%xmm1, %r11d
	notl	%r11d
	rep		bsfl	%r11d, %r11d
	addq	%r12, %r11
	cmpq	%r10, %r11
	jae	.LBB53_38
	jmp	.LBB53_37
.LBB53_28:
	movq	%r12, %r15
	leaq	-32(%r10), %r11
	movl	$32, %r12d
	.p2align	4
.LBB53_29:
	movdqu	(%rdi,%r12), %xmm0
	movdqu	16(%rdi,%r12), %xmm1
	movdqu	32(%rdi,%r12), %xmm2
	movdqu	48(%rdi,%r12), %xmm3
	movdqu	(%r8,%r12), %xmm4
	pcmpeqb	%xmm0, %xmm4
	movdqu	16(%r8,%r12), %xmm0
	pcmpeqb	%xmm1, %xmm0
	pand	%xmm4, %xmm0
	movdqu	32(%r8,%r12), %xmm1
	pcmpeqb	%xmm2, %xmm1
	movdqu	48(%r8,%r12), %xmm2
	pcmpeqb	%xmm3, %xmm2
	pand	%xmm1, %xmm2
	pand	%xmm0, %xmm2
	pmovmskb	%xmm2, %ebx
	cmpl	$65535, %ebx
	jne	.LBB53_31
	addq	$64, %r12
	addq	$-64, %r11
	cmpq	$63, %r11
	ja	.LBB53_29
.LBB53_31:
	movq	%r10, %r11
	subq	%r12, %r11
	.p2align	4
.LBB53_32:
	cmpq	$17, %r11
	jb	.LBB53_35
	movdqu	(%rdi,%r12), %xmm0
	movdqu	(%r8,%r12), %xmm1
	pcmpeqb	%xmm0, %xmm1
	pmovmskb	%xmm1, %ebx
	notl	%ebx
	rep		bsfl	%ebx, %ebx
	leaq	(%rbx,%r12), %r14
	addq	$16, %r12
	addq	$-16, %r11
	cmpq	%r12, %r14
	jae	.LBB53_32
	movzwl	%bx, %r11d
	addq	%r12, %r11
	addq	$-16, %r11
	cmpq	%r10, %r11
	jb	.LBB53_37
	.p2align	4
.LBB53_38:
	cmpq	%r9, %rbp
	jae	.LBB53_16
	jmp	.LBB53_39
.LBB53_35:
	movdqu	(%rdi,%r15), %xmm0
	movdqu	(%r8,%r15), %xmm1
	pcmpeqb	%xmm0, %xmm1
	pmovmskb	%xmm1, %r11d
	notl	%r11d
	rep		bsfl	%r11d, %r11d
	addq	%r15, %r11
	cmpq	%r10, %r11
	jae	.LBB53_38
.LBB53_37:
	movzbl	(%rdi,%r11), %r9d
	cmpb	(%r8,%r11), %r9b
	jb	.LBB53_39
	.p2align	4
.LBB53_16:
	addq	%rsi, %rdx
	movq	%r13, %rbp
	movq	%rcx, 8(%r13)
	movq	(%rdx), %r12
	movq	8(%rdx), %rcx
	movq	%rcx, 152(%rsp)
	movq	16(%rdx), %r14
	movzbl	24(%rdx), %ebx
	movzbl	25(%rdx), %r13d
	movzwl	26(%rdx), %r15d
	movups	44(%rsp), %xmm0
	movups	%xmm0, 300(%rsp)
	movaps	32(%rsp), %xmm0
	movaps	%xmm0, 288(%rsp)
	movups	28(%rdx), %xmm0
	movdqu	40(%rdx), %xmm1
	movaps	%xmm0, 32(%rsp)
	movdqu	%xmm1, 44(%rsp)
	testq	%rax, %rax
	je	.LBB53_18
	callq	rattle_dealloc
	jmp	.LBB53_18
	.p2align	4
.LBB53_41:
	movl	$15, %esi
.LBB53_42:
	movq	104(%rsp), %rax
	movw	%si, (%rax)
	movq	96(%rsp), %r14
	cmpw	%r14w, 2(%rax)
	jae	.LBB53_45
	.p2align	4
.LBB53_43:
	movq	%rax, %rdi
	movq	%r13, %rsi
	movq	%rbx, %rdx
	callq	"std_collections::btree::node::Node::fill_above::<#7c362c450315e67d>"
	cmpw	%r14w, 2(%rax)
	jb	.LBB53_43
	jmp	.LBB53_45
.LBB53_46:
	movl	$15, %eax
	movq	%rax, 8(%rsp)
.LBB53_47:
	movq	8(%rsp), %rax
	movq	64(%rsp), %rcx
	movw	%ax, (%rcx)
	movq	%rcx, %rax
	addq	$328, %rsp
	popq	%rbx
	popq	%r12
	popq	%r13
	popq	%r14
	popq	%r15
	popq	%rbp
	retq
.Lfunc_end53:
	.size	"std_collections::btree::node::Node::fill_above::<#7c362c450315e67d>", .Lfunc_end53-"std_collections::btree::node::Node::fill_above::<#7c362c450315e67d>"

	.section	".text.std_collections::btree::node::Node::count::<#d78cde125532770c>","ax",@progbits
	.p2align	4
	.type	"std_collections::btree::node::Node::count::<#d78cde125532770c>",@function
"std_collections::btree::node::Node::count::<#d78cde125532770c>":
	pushq	%rbp
	pushq	%r15
	pushq	%r14
	pushq	%r13
	pushq	%r12
	pushq	%rbx
	pushq	%rax
	movq	(%rdi), %r12
	movzwl	(%r12), %r15d
	cmpw	$0, 2(%r12)
	je	.LBB54_1
	xorl	%ebx, %ebx
	jmp	.LBB54_4
	.p2align	4
.LBB54_7:
	addq	%r13, %rbx
	movq	(%r12,%r15,8), %r12
	movzwl	(%r12), %r15d
	cmpw	$0, 2(%r12)
	je	.LBB54_2
.LBB54_4:
	addq	$848, %r12
	xorl	%r13d, %r13d
	testq	%r15, %r15
	je	.LBB54_7
	movq	%r12, %r14
	movq	%r15, %rbp
	.p2align	4
.LBB54_6:
	movq	%r14, %rdi
	callq	"std_collections::btree::node::Node::count::<#d78cde125532770c>"
	addq	%rax, %r13
	incq	%r13
	addq	$8, %r14
	decq	%rbp
	jne	.LBB54_6
	jmp	.LBB54_7
.LBB54_1:
	xorl	%ebx, %ebx
.LBB54_2:
	addq	%r15, %rbx
	movq	%rbx, %rax
	addq	$8, %rsp
	popq	%rbx
	popq	%r12
	popq	%r13
	popq	%r14
	popq	%r15
	popq	%rbp
	retq
.Lfunc_end54:
	.size	"std_collections::btree::node::Node::count::<#d78cde125532770c>", .Lfunc_end54-"std_collections::btree::node::Node::count::<#d78cde125532770c>"

	.section	".text.unlikely.std_alloc::vec::Vec::grow_amortized::<#63c3e2efe2c28453>","ax",@progbits
	.p2align	4
	.type	"std_alloc::vec::Vec::grow_amortized::<#63c3e2efe2c28453>",@function
"std_alloc::vec::Vec::grow_amortized::<#63c3e2efe2c28453>":
	movq	8(%rdi), %rax
	cmpq	$-1, %rax
	je	.LBB55_5
	pushq	%r14
	pushq	%rbx
	pushq	%rax
	movq	16(%rdi), %rcx
	cmpq	$4, %rax
	movl	$3, %ebx
	cmovaeq	%rax, %rbx
	incq	%rbx
	movq	%rcx, %rdx
	shrq	$62, %rdx
	leaq	(%rcx,%rcx), %rax
	cmpq	%rax, %rbx
	cmovaq	%rbx, %rax
	testq	%rdx, %rdx
	cmoveq	%rax, %rbx
	movq	%rbx, %rdx
	shrq	$58, %rdx
	jne	.LBB55_6
	testq	%rcx, %rcx
	je	.LBB55_8
	movq	%rdi, %r14
	movq	(%rdi), %rdi
	movq	%rbx, %rsi
	shlq	$5, %rsi
	movl	$8, %edx
	callq	rattle_realloc
	testb	$1, %al
	je	.LBB55_6
.LBB55_9:
	movq	%rdx, (%r14)
	movq	%rbx, 16(%r14)
	movb	$1, %al
	addq	$8, %rsp
	popq	%rbx
	popq	%r14
	retq
.LBB55_5:
	xorl	%eax, %eax
	retq
.LBB55_8:
	movq	%rdi, %r14
	shlq	$5, %rax
	movl	$8, %esi
	movq	%rax, %rdi
	callq	rattle_alloc
	testb	$1, %al
	jne	.LBB55_9
.LBB55_6:
	xorl	%eax, %eax
	addq	$8, %rsp
	popq	%rbx
	popq	%r14
	retq
.Lfunc_end55:
	.size	"std_alloc::vec::Vec::grow_amortized::<#63c3e2efe2c28453>", .Lfunc_end55-"std_alloc::vec::Vec::grow_amortized::<#63c3e2efe2c28453>"

	.section	".text.amq_protocol_types::generation::values::gen_value::<#4ea8deeae94023ba>","ax",@progbits
	.p2align	4
	.type	"amq_protocol_types::generation::values::gen_value::<#4ea8deeae94023ba>",@function
"amq_protocol_types::generation::values::gen_value::<#4ea8deeae94023ba>":
	pushq	%rbp
	pushq	%r15
	pushq	%r14
	pushq	%r13
	pushq	%r12
	pushq	%rbx
	subq	$24, %rsp
	movq	8(%rdx), %r14
	movq	16(%rdx), %rax
	movzbl	(%rsi), %ecx
	leaq	".Lswitch.table.amq_protocol_types::generation::values::gen_field_table::<#4ea8deeae94023ba>"(%rip), %r8
	movzbl	(%rcx,%r8), %ebx
	movq	%r14, %rcx
	cmpq	%r14, %rax
	je	.LBB56_12
.LBB56_1:
	movq	(%rdx), %r8
	movb	%bl, (%r8,%rcx)
	incq	%rcx
	movq	%r8, (%rdx)
	movq	%rcx, 8(%rdx)
	movq	%rax, 16(%rdx)
	movw	$0, 20(%rsp)
	movb	$0, 22(%rsp)
	movw	$0, 16(%rsp)
	movb	$0, 18(%rsp)
	movzbl	(%rsi), %r9d
	leaq	.LJTI56_0(%rip), %r10
	movslq	(%r10,%r9,4), %r9
	addq	%r10, %r9
	jmpq	*%r9
.LBB56_2:
	movzbl	1(%rsi), %ebx
	cmpq	%rcx, %rax
	je	.LBB56_33
.LBB56_3:
	movb	%bl, (%r8,%rcx)
	incq	%rcx
	jmp	.LBB56_17
.LBB56_4:
	movl	4(%rsi), %ebp
	movq	%rax, %rsi
	subq	%rcx, %rsi
	cmpq	$3, %rsi
	jbe	.LBB56_31
.LBB56_5:
	bswapl	%ebp
	movl	%ebp, (%r8,%rcx)
	addq	$4, %rcx
	jmp	.LBB56_17
.LBB56_6:
	movzwl	2(%rsi), %ebp
	movq	%rax, %rsi
	subq	%rcx, %rsi
	cmpq	$1, %rsi
	jbe	.LBB56_35
.LBB56_7:
	rolw	$8, %bp
	movw	%bp, (%r8,%rcx)
	addq	$2, %rcx
	jmp	.LBB56_17
.LBB56_8:
	movq	16(%rsi), %r9
	movq	%r9, %rax
	shrq	$32, %rax
	jne	.LBB56_24
	movq	8(%rsi), %r8
	movq	%r9, %rax
	shrq	$24, %rax
	movl	%r9d, %ecx
	andl	$16777215, %ecx
	bswapl	%ecx
	orl	%eax, %ecx
	movl	%ecx, 12(%rsp)
	movb	$0, 10(%rsp)
	movw	$0, 8(%rsp)
	leaq	8(%rsp), %rax
	leaq	12(%rsp), %r10
	movl	$4, %ecx
	movq	%rdi, %rbx
	movq	%rax, %rdi
	movq	%rdx, %rsi
	movq	%rdx, %r15
	movq	%r10, %rdx
	callq	"amq_protocol_types::generation::vector::VecU8Output::put_both"
	movq	%r15, %rdx
	movq	%rbx, %rdi
	movzbl	8(%rsp), %esi
	movzbl	9(%rsp), %eax
	movzbl	10(%rsp), %ecx
	cmpb	$1, %sil
	jne	.LBB56_19
	jmp	.LBB56_45
.LBB56_10:
	movq	8(%rsi), %r12
	movq	%rax, %rsi
	subq	%rcx, %rsi
	cmpq	$7, %rsi
	jbe	.LBB56_37
.LBB56_11:
	bswapq	%r12
	movq	%r12, (%r8,%rcx)
	jmp	.LBB56_16
.LBB56_12:
	movq	%rsi, %r12
	movq	%rdi, %r15
	movl	$1, %esi
	movq	%rdx, %r13
	movq	%rdx, %rdi
	callq	"std_alloc::vec::Vec::grow_amortized::<#a8e0b0c0cbc96d99>"
	testb	%al, %al
	je	.LBB56_29
	movq	%r13, %rdx
	movq	8(%r13), %rcx
	movq	16(%r13), %rax
	movq	%r15, %rdi
	movq	%r12, %rsi
	jmp	.LBB56_1
.LBB56_14:
	movq	8(%rsi), %rbx
	movq	%rax, %rsi
	subq	%rcx, %rsi
	cmpq	$7, %rsi
	jbe	.LBB56_40
.LBB56_15:
	bswapq	%rbx
	movq	%rbx, (%r8,%rcx)
.LBB56_16:
	addq	$8, %rcx
.LBB56_17:
	movq	%r8, (%rdx)
	movq	%rcx, 8(%rdx)
.LBB56_18:
	movq	%rax, 16(%rdx)
.LBB56_19:
	xorl	%esi, %esi
	xorl	%eax, %eax
	xorl	%ecx, %ecx
.LBB56_20:
	movb	%sil, (%rdi)
	movb	%al, 1(%rdi)
	movb	%cl, 2(%rdi)
	addq	$24, %rsp
	popq	%rbx
	popq	%r12
	popq	%r13
	popq	%r14
	popq	%r15
	popq	%rbp
	retq
.LBB56_21:
	movzbl	4(%rsi), %ebp
	movl	8(%rsi), %ebx
	movq	%rax, %rsi
	subq	%rcx, %rsi
	cmpq	$4, %rsi
	jbe	.LBB56_42
.LBB56_22:
	movl	%ebx, %esi
	shrl	$24, %esi
	movl	%ebx, %r9d
	shrl	$16, %r9d
	movl	%ebx, %r10d
	shrl	$8, %r10d
	leaq	5(%rcx), %r11
	movb	%bpl, (%r8,%rcx)
	movb	%sil, 1(%r8,%rcx)
	movb	%r9b, 2(%r8,%rcx)
	movb	%r10b, 3(%r8,%rcx)
	movb	%bl, 4(%r8,%rcx)
	movq	%r8, (%rdx)
	movq	%r11, 8(%rdx)
	jmp	.LBB56_18
.LBB56_23:
	movq	16(%rsi), %r9
	cmpq	$255, %r9
	jbe	.LBB56_30
.LBB56_24:
	movb	$1, %sil
	xorl	%ecx, %ecx
	movb	$1, %al
	cmpb	$1, %sil
	jne	.LBB56_19
	jmp	.LBB56_45
.LBB56_25:
	addq	$8, %rsi
	leaq	20(%rsp), %rax
	movq	%rdi, %r15
	movq	%rax, %rdi
	movq	%rdx, %rbx
	callq	"amq_protocol_types::generation::values::gen_field_array::<#4ea8deeae94023ba>"
	movq	%r15, %rdi
	cmpb	$0, 20(%rsp)
	je	.LBB56_19
	movq	%rbx, %rdx
	movzbl	21(%rsp), %eax
	movzbl	22(%rsp), %ecx
	jmp	.LBB56_45
.LBB56_27:
	addq	$8, %rsi
	leaq	16(%rsp), %rax
	movq	%rdi, %r15
	movq	%rax, %rdi
	movq	%rdx, %rbx
	callq	"amq_protocol_types::generation::values::gen_field_table::<#4ea8deeae94023ba>"
	movq	%r15, %rdi
	cmpb	$0, 16(%rsp)
	je	.LBB56_19
	movq	%rbx, %rdx
	movzbl	17(%rsp), %eax
	movzbl	18(%rsp), %ecx
	jmp	.LBB56_45
.LBB56_29:
	movb	$2, %al
	movb	$1, %sil
	xorl	%ecx, %ecx
	movq	%r15, %rdi
	jmp	.LBB56_20
.LBB56_30:
	movq	8(%rsi), %r8
	movb	%r9b, 8(%rsp)
	movb	$0, 14(%rsp)
	movw	$0, 12(%rsp)
	leaq	12(%rsp), %rax
	leaq	8(%rsp), %r10
	movl	$1, %ecx
	movq	%rdi, %rbx
	movq	%rax, %rdi
	movq	%rdx, %rsi
	movq	%rdx, %r15
	movq	%r10, %rdx
	callq	"amq_protocol_types::generation::vector::VecU8Output::put_both"
	movq	%r15, %rdx
	movq	%rbx, %rdi
	movzbl	12(%rsp), %esi
	movzbl	13(%rsp), %eax
	movzbl	14(%rsp), %ecx
	cmpb	$1, %sil
	jne	.LBB56_19
	jmp	.LBB56_45
.LBB56_31:
	movq	%rdi, %rbx
	movl	$4, %esi
	movq	%rdx, %r15
	movq	%rdx, %rdi
	callq	"std_alloc::vec::Vec::grow_amortized::<#a8e0b0c0cbc96d99>"
	testb	%al, %al
	je	.LBB56_39
	movq	%r15, %rdx
	movq	(%r15), %r8
	movq	8(%r15), %rcx
	movq	16(%r15), %rax
	movq	%rbx, %rdi
	jmp	.LBB56_5
.LBB56_33:
	movq	%rdi, %r15
	movl	$1, %esi
	movq	%rdx, %r12
	movq	%rdx, %rdi
	callq	"std_alloc::vec::Vec::grow_amortized::<#a8e0b0c0cbc96d99>"
	testb	%al, %al
	je	.LBB56_44
	movq	%r12, %rdx
	movq	(%r12), %r8
	movq	8(%r12), %rcx
	movq	16(%r12), %rax
	movq	%r15, %rdi
	jmp	.LBB56_3
.LBB56_35:
	movq	%rdi, %rbx
	movl	$2, %esi
	movq	%rdx, %r15
	movq	%rdx, %rdi
	callq	"std_alloc::vec::Vec::grow_amortized::<#a8e0b0c0cbc96d99>"
	testb	%al, %al
	je	.LBB56_39
	movq	%r15, %rdx
	movq	(%r15), %r8
	movq	8(%r15), %rcx
	movq	16(%r15), %rax
	movq	%rbx, %rdi
	jmp	.LBB56_7
.LBB56_37:
	movq	%rdi, %rbx
	movl	$8, %esi
	movq	%rdx, %r15
	movq	%rdx, %rdi
	callq	"std_alloc::vec::Vec::grow_amortized::<#a8e0b0c0cbc96d99>"
	testb	%al, %al
	je	.LBB56_39
	movq	%r15, %rdx
	movq	(%r15), %r8
	movq	8(%r15), %rcx
	movq	16(%r15), %rax
	movq	%rbx, %rdi
	jmp	.LBB56_11
.LBB56_39:
	movb	$2, %al
	xorl	%ecx, %ecx
	movq	%rbx, %rdi
	movq	%r15, %rdx
	jmp	.LBB56_45
.LBB56_40:
	movq	%rdi, %r15
	movl	$8, %esi
	movq	%rdx, %r12
	movq	%rdx, %rdi
	callq	"std_alloc::vec::Vec::grow_amortized::<#a8e0b0c0cbc96d99>"
	testb	%al, %al
	je	.LBB56_44
	movq	%r12, %rdx
	movq	(%r12), %r8
	movq	8(%r12), %rcx
	movq	16(%r12), %rax
	movq	%r15, %rdi
	jmp	.LBB56_15
.LBB56_42:
	movq	%rdi, %r15
	movl	$5, %esi
	movq	%rdx, %r12
	movq	%rdx, %rdi
	callq	"std_alloc::vec::Vec::grow_amortized::<#a8e0b0c0cbc96d99>"
	testb	%al, %al
	je	.LBB56_44
	movq	%r12, %rdx
	movq	(%r12), %r8
	movq	8(%r12), %rcx
	movq	16(%r12), %rax
	movq	%r15, %rdi
	jmp	.LBB56_22
.LBB56_44:
	movb	$2, %al
	xorl	%ecx, %ecx
	movq	%r15, %rdi
	movq	%r12, %rdx
.LBB56_45:
	movb	$1, %sil
	cmpq	%r14, 8(%rdx)
	jbe	.LBB56_20
	movq	%r14, 8(%rdx)
	jmp	.LBB56_20
.Lfunc_end56:
	.size	"amq_protocol_types::generation::values::gen_value::<#4ea8deeae94023ba>", .Lfunc_end56-"amq_protocol_types::generation::values::gen_value::<#4ea8deeae94023ba>"
	.section	".rodata.amq_protocol_types::generation::values::gen_value::<#4ea8deeae94023ba>","a",@progbits
	.p2align	2, 0x0
.LJTI56_0:
	.long	.LBB56_2-.LJTI56_0
	.long	.LBB56_2-.LJTI56_0
	.long	.LBB56_2-.LJTI56_0
	.long	.LBB56_6-.LJTI56_0
	.long	.LBB56_6-.LJTI56_0
	.long	.LBB56_4-.LJTI56_0
	.long	.LBB56_4-.LJTI56_0
	.long	.LBB56_10-.LJTI56_0
	.long	.LBB56_4-.LJTI56_0
	.long	.LBB56_10-.LJTI56_0
	.long	.LBB56_21-.LJTI56_0
	.long	.LBB56_23-.LJTI56_0
	.long	.LBB56_8-.LJTI56_0
	.long	.LBB56_25-.LJTI56_0
	.long	.LBB56_14-.LJTI56_0
	.long	.LBB56_27-.LJTI56_0
	.long	.LBB56_8-.LJTI56_0
	.long	.LBB56_19-.LJTI56_0

	.section	".text.amq_protocol_types::generation::vector::VecU8Output::put_both","ax",@progbits
	.p2align	4
	.type	"amq_protocol_types::generation::vector::VecU8Output::put_both",@function
"amq_protocol_types::generation::vector::VecU8Output::put_both":
	pushq	%rbp
	pushq	%r15
	pushq	%r14
	pushq	%r13
	pushq	%r12
	pushq	%rbx
	subq	$24, %rsp
	movq	%r9, %r15
	movq	%r8, %r12
	movq	%rsi, %r14
	movq	%rdi, 16(%rsp)
	leaq	(%r9,%rcx), %rsi
	movq	8(%r14), %rbp
	movq	16(%r14), %r13
	movq	%r13, %rax
	subq	%rbp, %rax
	cmpq	%rax, %rsi
	ja	.LBB57_17
	cmpq	%rax, %rcx
	ja	.LBB57_19
.LBB57_2:
	leaq	8(%r14), %rsi
	movq	(%r14), %rbx
	xorps	%xmm0, %xmm0
	movups	%xmm0, (%rsi)
	leaq	(%rbx,%rbp), %rdi
	addq	%rcx, %rbp
	movq	%rdi, %rax
	subq	%rdx, %rax
	cmpq	%rcx, %rax
	jae	.LBB57_7
	movzbl	(%rdx), %eax
	movb	%al, (%rdi)
	cmpq	$1, %rcx
	je	.LBB57_8
	movzbl	1(%rdx), %eax
	movb	%al, 1(%rdi)
	cmpq	$2, %rcx
	je	.LBB57_8
	movzbl	2(%rdx), %eax
	movb	%al, 2(%rdi)
	cmpq	$3, %rcx
	je	.LBB57_8
	movzbl	3(%rdx), %eax
	movb	%al, 3(%rdi)
	jmp	.LBB57_8
.LBB57_7:
	movq	%rdx, %rsi
	movq	%rcx, %rdx
	callq	memmove@PLT
	leaq	8(%r14), %rsi
.LBB57_8:
	movq	%rbx, (%r14)
	movq	%rbp, 8(%r14)
	movq	%r13, 16(%r14)
	movq	%r13, %rax
	subq	%rbp, %rax
	cmpq	%rax, %r15
	ja	.LBB57_36
.LBB57_9:
	leaq	(%r15,%rbp), %r8
	xorps	%xmm0, %xmm0
	movups	%xmm0, (%rsi)
	leaq	(%rbx,%rbp), %rdi
	movq	%rdi, %rax
	subq	%r12, %rax
	cmpq	%r15, %rax
	jae	.LBB57_12
	cmpq	$4, %r15
	jb	.LBB57_11
	cmpq	$32, %rax
	jae	.LBB57_15
.LBB57_11:
	xorl	%eax, %eax
.LBB57_28:
	movq	%r15, %rdx
	movq	%rax, %rcx
	andq	$3, %rdx
	je	.LBB57_31
	movq	%rax, %rcx
	.p2align	4
.LBB57_30:
	movzbl	(%r12,%rcx), %esi
	movb	%sil, (%rdi,%rcx)
	incq	%rcx
	decq	%rdx
	jne	.LBB57_30
.LBB57_31:
	subq	%r15, %rax
	cmpq	$-4, %rax
	ja	.LBB57_34
	leaq	(%rbx,%rbp), %rax
	addq	$3, %rax
	.p2align	4
.LBB57_33:
	movzbl	(%r12,%rcx), %edx
	movb	%dl, -3(%rax,%rcx)
	movzbl	1(%r12,%rcx), %edx
	movb	%dl, -2(%rax,%rcx)
	movzbl	2(%r12,%rcx), %edx
	movb	%dl, -1(%rax,%rcx)
	movzbl	3(%r12,%rcx), %edx
	movb	%dl, (%rax,%rcx)
	addq	$4, %rcx
	cmpq	%rcx, %r15
	jne	.LBB57_33
	jmp	.LBB57_34
.LBB57_12:
	movq	%r12, %rsi
	movq	%r15, %rdx
	movq	%r8, %r15
	callq	memmove@PLT
	movq	%r15, %r8
.LBB57_34:
	movq	%rbx, (%r14)
	movq	%r8, 8(%r14)
	movq	%r13, 16(%r14)
	xorl	%ecx, %ecx
	xorl	%eax, %eax
.LBB57_35:
	movq	16(%rsp), %rdx
	movb	%cl, (%rdx)
	movb	%al, 1(%rdx)
	movb	$0, 2(%rdx)
	addq	$24, %rsp
	popq	%rbx
	popq	%r12
	popq	%r13
	popq	%r14
	popq	%r15
	popq	%rbp
	retq
.LBB57_15:
	cmpq	$32, %r15
	jae	.LBB57_21
	xorl	%eax, %eax
	jmp	.LBB57_25
.LBB57_17:
	movq	%rcx, 8(%rsp)
	movq	%rdx, %rbx
	movq	%r14, %rdi
	callq	"std_alloc::vec::Vec::grow_amortized::<#a8e0b0c0cbc96d99>"
	testb	%al, %al
	je	.LBB57_38
	movq	8(%r14), %rbp
	movq	16(%r14), %r13
	movq	%r13, %rax
	subq	%rbp, %rax
	movq	%rbx, %rdx
	movq	8(%rsp), %rcx
	cmpq	%rax, %rcx
	jbe	.LBB57_2
.LBB57_19:
	movq	%rdx, 8(%rsp)
	movq	%r14, %rdi
	movq	%rcx, %rbx
	movq	%rcx, %rsi
	callq	"std_alloc::vec::Vec::grow_amortized::<#a8e0b0c0cbc96d99>"
	testb	%al, %al
	je	.LBB57_38
	movq	8(%r14), %rbp
	movq	16(%r14), %r13
	movq	8(%rsp), %rdx
	movq	%rbx, %rcx
	jmp	.LBB57_2
.LBB57_21:
	movq	%r15, %rax
	andq	$-32, %rax
	leaq	(%rbx,%rbp), %rcx
	addq	$16, %rcx
	xorl	%edx, %edx
	.p2align	4
.LBB57_22:
	movups	(%r12,%rdx), %xmm0
	movups	16(%r12,%rdx), %xmm1
	movups	%xmm0, -16(%rcx,%rdx)
	movups	%xmm1, (%rcx,%rdx)
	addq	$32, %rdx
	cmpq	%rdx, %rax
	jne	.LBB57_22
	cmpq	%rax, %r15
	je	.LBB57_34
	testb	$28, %r15b
	je	.LBB57_28
.LBB57_25:
	movq	%rax, %rcx
	movq	%r15, %rax
	andq	$-4, %rax
	.p2align	4
.LBB57_26:
	movl	(%r12,%rcx), %edx
	movl	%edx, (%rdi,%rcx)
	addq	$4, %rcx
	cmpq	%rcx, %rax
	jne	.LBB57_26
	cmpq	%rax, %r15
	je	.LBB57_34
	jmp	.LBB57_28
.LBB57_36:
	movq	%r14, %rdi
	movq	%r15, %rsi
	callq	"std_alloc::vec::Vec::grow_amortized::<#a8e0b0c0cbc96d99>"
	testb	%al, %al
	je	.LBB57_38
	movq	(%r14), %rbx
	movq	8(%r14), %rbp
	movq	16(%r14), %r13
	leaq	8(%r14), %rsi
	jmp	.LBB57_9
.LBB57_38:
	movb	$2, %al
	movb	$1, %cl
	jmp	.LBB57_35
.Lfunc_end57:
	.size	"amq_protocol_types::generation::vector::VecU8Output::put_both", .Lfunc_end57-"amq_protocol_types::generation::vector::VecU8Output::put_both"

	.section	".text.amq_protocol_types::generation::values::gen_field_array::<#4ea8deeae94023ba>","ax",@progbits
	.p2align	4
	.type	"amq_protocol_types::generation::values::gen_field_array::<#4ea8deeae94023ba>",@function
"amq_protocol_types::generation::values::gen_field_array::<#4ea8deeae94023ba>":
	pushq	%rbp
	pushq	%r15
	pushq	%r14
	pushq	%r13
	pushq	%r12
	pushq	%rbx
	subq	$40, %rsp
	movq	%rdx, %r14
	movq	%rdi, %rbp
	movq	8(%rdx), %rcx
	movq	16(%rdx), %rax
	subq	%rcx, %rax
	movq	%rcx, %rdi
	cmpq	$3, %rax
	jbe	.LBB58_1
.LBB58_3:
	movq	%rcx, 32(%rsp)
	leaq	4(%rcx), %rax
	movq	%rax, %rdx
	subq	%rdi, %rdx
	jbe	.LBB58_4
	movq	16(%r14), %rbx
	movq	%rbx, %rax
	subq	%rdi, %rax
	cmpq	%rax, %rdx
	ja	.LBB58_7
	leaq	(%rdi,%rdx), %r15
	movq	(%r14), %r12
	cmpq	%r15, %rdi
	jae	.LBB58_11
.LBB58_10:
	addq	%r12, %rdi
	movq	%rsi, %r13
	xorl	%esi, %esi
	callq	memset@PLT
	movq	%r13, %rsi
.LBB58_11:
	movq	%r12, (%r14)
	movq	%r15, 8(%r14)
	movq	%rbx, 16(%r14)
	movq	%r15, %rdi
	jmp	.LBB58_12
.LBB58_4:
	jae	.LBB58_12
	movq	%rax, 8(%r14)
	movq	%rax, %rdi
.LBB58_12:
	movq	8(%rsi), %r12
	testq	%r12, %r12
	je	.LBB58_34
	movq	(%rsi), %r15
	addq	$8, %r15
	movq	%rbp, 24(%rsp)
	jmp	.LBB58_14
.LBB58_41:
	movq	(%r15), %rbx
	movq	%rax, %rsi
	subq	%rcx, %rsi
	cmpq	$7, %rsi
	jbe	.LBB58_42
.LBB58_44:
	bswapq	%rbx
	movq	%rbx, (%rdx,%rcx)
	addq	$8, %rcx
.LBB58_31:
	movq	%rdx, (%r14)
	movq	%rcx, 8(%r14)
	movq	%rax, 16(%r14)
.LBB58_32:
	addq	$32, %r15
	decq	%r12
	je	.LBB58_33
.LBB58_14:
	movq	8(%r14), %r13
	movq	16(%r14), %rax
	movzbl	-8(%r15), %ecx
	leaq	".Lswitch.table.amq_protocol_types::generation::values::gen_field_table::<#4ea8deeae94023ba>"(%rip), %rdx
	movzbl	(%rcx,%rdx), %ebx
	movq	%r13, %rcx
	cmpq	%r13, %rax
	je	.LBB58_15
.LBB58_21:
	movq	(%r14), %rdx
	movb	%bl, (%rdx,%rcx)
	incq	%rcx
	movq	%rdx, (%r14)
	movq	%rcx, 8(%r14)
	movq	%rax, 16(%r14)
	movw	$0, 20(%rsp)
	movb	$0, 22(%rsp)
	movw	$0, 16(%rsp)
	movb	$0, 18(%rsp)
	movzbl	-8(%r15), %esi
	leaq	.LJTI58_0(%rip), %rdi
	movslq	(%rdi,%rsi,4), %rsi
	addq	%rdi, %rsi
	jmpq	*%rsi
.LBB58_22:
	movzbl	-7(%r15), %ebx
	cmpq	%rcx, %rax
	je	.LBB58_23
.LBB58_26:
	movb	%bl, (%rdx,%rcx)
	incq	%rcx
	jmp	.LBB58_31
.LBB58_37:
	movl	-4(%r15), %ebx
	movq	%rax, %rsi
	subq	%rcx, %rsi
	cmpq	$3, %rsi
	jbe	.LBB58_38
.LBB58_40:
	bswapl	%ebx
	movl	%ebx, (%rdx,%rcx)
	addq	$4, %rcx
	jmp	.LBB58_31
.LBB58_27:
	movzwl	-6(%r15), %ebx
	movq	%rax, %rsi
	subq	%rcx, %rsi
	cmpq	$1, %rsi
	jbe	.LBB58_28
.LBB58_30:
	rolw	$8, %bx
	movw	%bx, (%rdx,%rcx)
	addq	$2, %rcx
	jmp	.LBB58_31
.LBB58_57:
	movq	8(%r15), %r9
	movq	%r9, %rax
	shrq	$32, %rax
	jne	.LBB58_51
	movq	(%r15), %r8
	movq	%r9, %rax
	shrq	$24, %rax
	movl	%r9d, %ecx
	andl	$16777215, %ecx
	bswapl	%ecx
	orl	%eax, %ecx
	movl	%ecx, 12(%rsp)
	movb	$0, 10(%rsp)
	movw	$0, 8(%rsp)
	leaq	8(%rsp), %rdi
	leaq	12(%rsp), %rdx
	movl	$4, %ecx
	movq	%r14, %rsi
	callq	"amq_protocol_types::generation::vector::VecU8Output::put_both"
	movzbl	8(%rsp), %ecx
	movzbl	9(%rsp), %eax
	movzbl	10(%rsp), %edx
	cmpb	$1, %cl
	jne	.LBB58_32
	jmp	.LBB58_60
.LBB58_15:
	movl	$1, %esi
	movq	%r14, %rdi
	callq	"std_alloc::vec::Vec::grow_amortized::<#a8e0b0c0cbc96d99>"
	movq	8(%r14), %rcx
	testb	%al, %al
	je	.LBB58_16
	movq	16(%r14), %rax
	jmp	.LBB58_21
.LBB58_53:
	leaq	20(%rsp), %rdi
	movq	%r15, %rsi
	movq	%r14, %rdx
	callq	"amq_protocol_types::generation::values::gen_field_array::<#4ea8deeae94023ba>"
	cmpb	$0, 20(%rsp)
	je	.LBB58_32
	jmp	.LBB58_54
.LBB58_45:
	movzbl	-4(%r15), %ebp
	movl	(%r15), %ebx
	movq	%rax, %rsi
	subq	%rcx, %rsi
	cmpq	$4, %rsi
	jbe	.LBB58_46
.LBB58_49:
	movl	%ebx, %esi
	shrl	$24, %esi
	movl	%ebx, %edi
	shrl	$16, %edi
	movl	%ebx, %r8d
	shrl	$8, %r8d
	leaq	5(%rcx), %r9
	movb	%bpl, (%rdx,%rcx)
	movb	%sil, 1(%rdx,%rcx)
	movb	%dil, 2(%rdx,%rcx)
	movb	%r8b, 3(%rdx,%rcx)
	movb	%bl, 4(%rdx,%rcx)
	movq	%rdx, (%r14)
	movq	%r9, 8(%r14)
	movq	%rax, 16(%r14)
	movq	24(%rsp), %rbp
	jmp	.LBB58_32
.LBB58_55:
	leaq	16(%rsp), %rdi
	movq	%r15, %rsi
	movq	%r14, %rdx
	callq	"amq_protocol_types::generation::values::gen_field_table::<#4ea8deeae94023ba>"
	cmpb	$0, 16(%rsp)
	je	.LBB58_32
	jmp	.LBB58_56
.LBB58_50:
	movq	8(%r15), %r9
	cmpq	$255, %r9
	jbe	.LBB58_52
.LBB58_51:
	movb	$1, %cl
	xorl	%edx, %edx
	movb	$1, %al
	cmpb	$1, %cl
	jne	.LBB58_32
	jmp	.LBB58_60
.LBB58_52:
	movq	(%r15), %r8
	movb	%r9b, 8(%rsp)
	movb	$0, 14(%rsp)
	movw	$0, 12(%rsp)
	leaq	12(%rsp), %rdi
	leaq	8(%rsp), %rdx
	movl	$1, %ecx
	movq	%r14, %rsi
	callq	"amq_protocol_types::generation::vector::VecU8Output::put_both"
	movzbl	12(%rsp), %ecx
	movzbl	13(%rsp), %eax
	movzbl	14(%rsp), %edx
	cmpb	$1, %cl
	jne	.LBB58_32
	jmp	.LBB58_60
.LBB58_38:
	movl	$4, %esi
	movq	%r14, %rdi
	callq	"std_alloc::vec::Vec::grow_amortized::<#a8e0b0c0cbc96d99>"
	testb	%al, %al
	je	.LBB58_24
	movq	(%r14), %rdx
	movq	8(%r14), %rcx
	movq	16(%r14), %rax
	jmp	.LBB58_40
.LBB58_42:
	movl	$8, %esi
	movq	%r14, %rdi
	callq	"std_alloc::vec::Vec::grow_amortized::<#a8e0b0c0cbc96d99>"
	testb	%al, %al
	je	.LBB58_24
	movq	(%r14), %rdx
	movq	8(%r14), %rcx
	movq	16(%r14), %rax
	jmp	.LBB58_44
.LBB58_23:
	movl	$1, %esi
	movq	%r14, %rdi
	callq	"std_alloc::vec::Vec::grow_amortized::<#a8e0b0c0cbc96d99>"
	testb	%al, %al
	je	.LBB58_24
	movq	(%r14), %rdx
	movq	8(%r14), %rcx
	movq	16(%r14), %rax
	jmp	.LBB58_26
.LBB58_28:
	movl	$2, %esi
	movq	%r14, %rdi
	callq	"std_alloc::vec::Vec::grow_amortized::<#a8e0b0c0cbc96d99>"
	testb	%al, %al
	je	.LBB58_24
	movq	(%r14), %rdx
	movq	8(%r14), %rcx
	movq	16(%r14), %rax
	jmp	.LBB58_30
.LBB58_46:
	movl	$5, %esi
	movq	%r14, %rdi
	callq	"std_alloc::vec::Vec::grow_amortized::<#a8e0b0c0cbc96d99>"
	testb	%al, %al
	je	.LBB58_47
	movq	(%r14), %rdx
	movq	8(%r14), %rcx
	movq	16(%r14), %rax
	jmp	.LBB58_49
.LBB58_33:
	movq	8(%r14), %rdi
.LBB58_34:
	movq	%rdi, %rax
	movq	32(%rsp), %rdx
	subq	%rdx, %rax
	addq	$-4, %rax
	movq	%rax, %rcx
	shrq	$32, %rcx
	je	.LBB58_65
	movb	$1, %al
	cmpq	%rdx, %rdi
	jbe	.LBB58_69
	movq	%rdx, 8(%r14)
	jmp	.LBB58_69
.LBB58_65:
	movq	%rax, %rcx
	shrq	$24, %rcx
	andl	$16777215, %eax
	bswapl	%eax
	addq	(%r14), %rdx
	movq	%rdx, %rdi
	leaq	12(%rsp), %rdx
	movq	%rdi, %rsi
	subq	%rdx, %rsi
	cmpq	$3, %rsi
	ja	.LBB58_67
	movl	%eax, %edx
	shrl	$24, %edx
	movl	%eax, %esi
	shrl	$16, %esi
	movb	%cl, (%rdi)
	movb	%ah, 1(%rdi)
	movb	%sil, 2(%rdi)
	movb	%dl, 3(%rdi)
	jmp	.LBB58_68
.LBB58_67:
	orl	%ecx, %eax
	movl	%eax, (%rdi)
.LBB58_68:
	xorl	%eax, %eax
.LBB58_69:
	movb	%al, (%rbp)
	movb	%al, 1(%rbp)
.LBB58_18:
	movb	$0, 2(%rbp)
.LBB58_19:
	addq	$40, %rsp
	popq	%rbx
	popq	%r12
	popq	%r13
	popq	%r14
	popq	%r15
	popq	%rbp
	retq
.LBB58_1:
	movq	%rcx, %r15
	movq	%rsi, %rbx
	movl	$4, %esi
	movq	%r14, %rdi
	callq	"std_alloc::vec::Vec::grow_amortized::<#a8e0b0c0cbc96d99>"
	testb	%al, %al
	je	.LBB58_17
	movq	8(%r14), %rdi
	movq	%rbx, %rsi
	movq	%r15, %rcx
	jmp	.LBB58_3
.LBB58_7:
	movq	%rsi, %r15
	movq	%r14, %rdi
	movq	%rdx, %r12
	movq	%rdx, %rsi
	callq	"std_alloc::vec::Vec::grow_amortized::<#a8e0b0c0cbc96d99>"
	testb	%al, %al
	je	.LBB58_17
	movq	8(%r14), %rdi
	movq	16(%r14), %rbx
	movq	%r15, %rsi
	movq	%r12, %rdx
	leaq	(%rdi,%rdx), %r15
	movq	(%r14), %r12
	cmpq	%r15, %rdi
	jb	.LBB58_10
	jmp	.LBB58_11
.LBB58_17:
	movw	$513, (%rbp)
	jmp	.LBB58_18
.LBB58_16:
	movb	$2, %al
	xorl	%edx, %edx
	jmp	.LBB58_62
.LBB58_56:
	movzbl	17(%rsp), %eax
	movzbl	18(%rsp), %edx
	movq	8(%r14), %rcx
	cmpq	%r13, %rcx
	ja	.LBB58_61
	jmp	.LBB58_62
.LBB58_54:
	movzbl	21(%rsp), %eax
	movzbl	22(%rsp), %edx
	movq	8(%r14), %rcx
	cmpq	%r13, %rcx
	ja	.LBB58_61
	jmp	.LBB58_62
.LBB58_24:
	movb	$2, %al
	xorl	%edx, %edx
.LBB58_60:
	movq	8(%r14), %rcx
	cmpq	%r13, %rcx
	jbe	.LBB58_62
.LBB58_61:
	movq	%r13, 8(%r14)
	movq	%r13, %rcx
.LBB58_62:
	movq	32(%rsp), %rsi
	cmpq	%rsi, %rcx
	jbe	.LBB58_64
	movq	%rsi, 8(%r14)
.LBB58_64:
	movb	$1, (%rbp)
	movb	%al, 1(%rbp)
	movb	%dl, 2(%rbp)
	jmp	.LBB58_19
.LBB58_47:
	movb	$2, %al
	xorl	%edx, %edx
	movq	24(%rsp), %rbp
	movq	8(%r14), %rcx
	cmpq	%r13, %rcx
	ja	.LBB58_61
	jmp	.LBB58_62
.Lfunc_end58:
	.size	"amq_protocol_types::generation::values::gen_field_array::<#4ea8deeae94023ba>", .Lfunc_end58-"amq_protocol_types::generation::values::gen_field_array::<#4ea8deeae94023ba>"
	.section	".rodata.amq_protocol_types::generation::values::gen_field_array::<#4ea8deeae94023ba>","a",@progbits
	.p2align	2, 0x0
.LJTI58_0:
	.long	.LBB58_22-.LJTI58_0
	.long	.LBB58_22-.LJTI58_0
	.long	.LBB58_22-.LJTI58_0
	.long	.LBB58_27-.LJTI58_0
	.long	.LBB58_27-.LJTI58_0
	.long	.LBB58_37-.LJTI58_0
	.long	.LBB58_37-.LJTI58_0
	.long	.LBB58_41-.LJTI58_0
	.long	.LBB58_37-.LJTI58_0
	.long	.LBB58_41-.LJTI58_0
	.long	.LBB58_45-.LJTI58_0
	.long	.LBB58_50-.LJTI58_0
	.long	.LBB58_57-.LJTI58_0
	.long	.LBB58_53-.LJTI58_0
	.long	.LBB58_41-.LJTI58_0
	.long	.LBB58_55-.LJTI58_0
	.long	.LBB58_57-.LJTI58_0
	.long	.LBB58_32-.LJTI58_0

	.section	".text.amq_protocol_types::generation::values::gen_field_table::<#4ea8deeae94023ba>","ax",@progbits
	.p2align	4
	.type	"amq_protocol_types::generation::values::gen_field_table::<#4ea8deeae94023ba>",@function
"amq_protocol_types::generation::values::gen_field_table::<#4ea8deeae94023ba>":
	pushq	%rbp
	pushq	%r15
	pushq	%r14
	pushq	%r13
	pushq	%r12
	pushq	%rbx
	subq	$152, %rsp
	movq	%rdx, %r14
	movq	%rdi, %r13
	movq	8(%rdx), %rbp
	movq	16(%rdx), %rax
	subq	%rbp, %rax
	movq	%rbp, %rdi
	cmpq	$3, %rax
	jbe	.LBB59_1
	leaq	4(%rbp), %rax
	movq	%rax, %rdx
	subq	%rdi, %rdx
	jbe	.LBB59_4
.LBB59_6:
	movq	%rsi, 72(%rsp)
	movq	16(%r14), %rbx
	movq	%rbx, %rax
	subq	%rdi, %rax
	cmpq	%rax, %rdx
	ja	.LBB59_7
	leaq	(%rdi,%rdx), %r15
	movq	(%r14), %r12
	cmpq	%r15, %rdi
	jae	.LBB59_11
.LBB59_10:
	addq	%r12, %rdi
	xorl	%esi, %esi
	callq	memset@PLT
.LBB59_11:
	movq	%r12, (%r14)
	movq	%r15, 8(%r14)
	movq	%rbx, 16(%r14)
	movq	72(%rsp), %rsi
	jmp	.LBB59_12
.LBB59_1:
	movq	%rsi, %rbx
	movl	$4, %esi
	movq	%r14, %rdi
	callq	"std_alloc::vec::Vec::grow_amortized::<#a8e0b0c0cbc96d99>"
	testb	%al, %al
	je	.LBB59_25
	movq	8(%r14), %rdi
	movq	%rbx, %rsi
	leaq	4(%rbp), %rax
	movq	%rax, %rdx
	subq	%rdi, %rdx
	ja	.LBB59_6
.LBB59_4:
	jae	.LBB59_12
	movq	%rax, 8(%r14)
.LBB59_12:
	cmpb	$1, (%rsi)
	movq	%r13, 32(%rsp)
	movq	%rbp, 40(%rsp)
	jne	.LBB59_13
	movq	8(%rsi), %rcx
	cmpw	$0, 2(%rcx)
	je	.LBB59_16
	addq	$8, %rsi
	movb	$1, %al
	movq	%rax, 48(%rsp)
	leaq	24(%rsp), %rax
	xorl	%ebp, %ebp
	movq	%rax, 64(%rsp)
	movq	%rax, 56(%rsp)
	movq	$-1, %rax
	jmp	.LBB59_18
.LBB59_13:
	leaq	24(%rsp), %rax
	xorl	%ebp, %ebp
	movq	%rax, 64(%rsp)
	movq	%rax, 56(%rsp)
	jmp	.LBB59_17
.LBB59_16:
	movzwl	(%rcx), %ebp
	leaq	8(%rcx), %rax
	movq	%rax, 64(%rsp)
	addq	$368, %rcx
	movq	%rcx, 56(%rsp)
.LBB59_17:
	movq	$0, 48(%rsp)
	xorl	%esi, %esi
	xorl	%eax, %eax
.LBB59_18:
	xorl	%r15d, %r15d
	movq	%rsi, 72(%rsp)
	movq	%rsi, 128(%rsp)
	movq	%rax, 136(%rsp)
	movq	%rax, 144(%rsp)
	jmp	.LBB59_19
.LBB59_44:
	movzbl	1(%rbx), %ebx
	cmpq	%rcx, %rax
	je	.LBB59_45
.LBB59_48:
	movb	%bl, (%rdx,%rcx)
	incq	%rcx
.LBB59_49:
	movq	%rdx, (%r14)
	movq	%rcx, 8(%r14)
	movq	%rax, 16(%r14)
.LBB59_19:
	cmpq	%rbp, %r15
	jb	.LBB59_24
	xorps	%xmm0, %xmm0
	movaps	%xmm0, 112(%rsp)
	movaps	%xmm0, 96(%rsp)
	movaps	%xmm0, 80(%rsp)
	cmpb	$1, 48(%rsp)
	je	.LBB59_27
	xorl	%eax, %eax
.LBB59_22:
	cmpq	%rbp, %r15
	jae	.LBB59_83
	movq	%rax, 48(%rsp)
.LBB59_24:
	leaq	1(%r15), %rcx
	leaq	(%r15,%r15,2), %rax
	movq	64(%rsp), %rdx
	leaq	(%rdx,%rax,8), %rax
	shlq	$5, %r15
	movq	%r15, %rbx
	addq	56(%rsp), %rbx
	movq	%rcx, %r15
.LBB59_32:
	movq	8(%r14), %r12
	movq	(%rax), %r8
	movq	8(%rax), %r9
	movb	$0, 12(%rsp)
	cmpq	$256, %r9
	jae	.LBB59_33
	movzbl	(%rbx), %eax
	leaq	".Lswitch.table.amq_protocol_types::generation::values::gen_field_table::<#4ea8deeae94023ba>"(%rip), %rcx
	movzbl	(%rax,%rcx), %r13d
	movb	%r9b, 12(%rsp)
	movb	$0, 82(%rsp)
	movw	$0, 80(%rsp)
	leaq	80(%rsp), %rdi
	leaq	12(%rsp), %rdx
	movl	$1, %ecx
	movq	%r14, %rsi
	callq	"amq_protocol_types::generation::vector::VecU8Output::put_both"
	cmpb	$0, 80(%rsp)
	jne	.LBB59_38
	movq	8(%r14), %rcx
	movq	16(%r14), %rax
	cmpq	%rcx, %rax
	je	.LBB59_36
	movq	(%r14), %rdx
	movb	%r13b, (%rdx,%rcx)
	incq	%rcx
	movq	%rdx, (%r14)
	movq	%rcx, 8(%r14)
	movq	%rax, 16(%r14)
	movw	$0, 20(%rsp)
	movb	$0, 22(%rsp)
	movw	$0, 16(%rsp)
	movb	$0, 18(%rsp)
	movzbl	(%rbx), %esi
	leaq	.LJTI59_0(%rip), %rdi
	movslq	(%rdi,%rsi,4), %rsi
	addq	%rdi, %rsi
	jmpq	*%rsi
.LBB59_54:
	movl	4(%rbx), %ebx
	movq	%rax, %rsi
	subq	%rcx, %rsi
	cmpq	$3, %rsi
	jbe	.LBB59_55
.LBB59_57:
	bswapl	%ebx
	movl	%ebx, (%rdx,%rcx)
	addq	$4, %rcx
	jmp	.LBB59_49
.LBB59_27:
	leaq	80(%rsp), %rdi
	movq	136(%rsp), %rsi
	movq	128(%rsp), %rdx
	movq	72(%rsp), %rcx
	movq	144(%rsp), %r8
	callq	"std_collections::btree::iter::Cursor::advance::<#8af3e1b4e9e21b57>"
	cmpb	$1, 104(%rsp)
	jne	.LBB59_28
	movq	112(%rsp), %rcx
	movq	120(%rsp), %rdx
	movq	%rdx, 128(%rsp)
	movq	(%rdx), %rax
	movq	%rcx, 136(%rsp)
	andl	$15, %ecx
	movq	848(%rax,%rcx,8), %rcx
	movzwl	(%rcx), %ebp
	leaq	8(%rcx), %rax
	movq	%rax, 64(%rsp)
	addq	$368, %rcx
	movq	%rcx, 56(%rsp)
	movb	$1, %al
	xorl	%r15d, %r15d
	testb	$1, 80(%rsp)
	je	.LBB59_22
	jmp	.LBB59_31
.LBB59_28:
	xorl	%eax, %eax
	movq	$0, 72(%rsp)
	movq	$0, 136(%rsp)
	movq	$0, 128(%rsp)
	movq	$0, 144(%rsp)
	testb	$1, 80(%rsp)
	je	.LBB59_22
.LBB59_31:
	movq	%rax, 48(%rsp)
	movq	88(%rsp), %rax
	movq	96(%rsp), %rbx
	jmp	.LBB59_32
.LBB59_36:
	movl	$1, %esi
	movq	%r14, %rdi
	callq	"std_alloc::vec::Vec::grow_amortized::<#a8e0b0c0cbc96d99>"
	movq	8(%r14), %rcx
	testb	%al, %al
	je	.LBB59_39
	movq	16(%r14), %rax
	movq	(%r14), %rdx
	movb	%r13b, (%rdx,%rcx)
	incq	%rcx
	movq	%rdx, (%r14)
	movq	%rcx, 8(%r14)
	movq	%rax, 16(%r14)
	movw	$0, 20(%rsp)
	movb	$0, 22(%rsp)
	movw	$0, 16(%rsp)
	movb	$0, 18(%rsp)
	movzbl	(%rbx), %esi
	leaq	.LJTI59_0(%rip), %rdi
	movslq	(%rdi,%rsi,4), %rsi
	addq	%rdi, %rsi
	jmpq	*%rsi
.LBB59_58:
	movq	8(%rbx), %rbx
	movq	%rax, %rsi
	subq	%rcx, %rsi
	cmpq	$7, %rsi
	jbe	.LBB59_59
.LBB59_61:
	bswapq	%rbx
	movq	%rbx, (%rdx,%rcx)
	addq	$8, %rcx
	jmp	.LBB59_49
.LBB59_73:
	movq	16(%rbx), %r9
	movq	%r9, %rax
	shrq	$32, %rax
	jne	.LBB59_67
	movq	8(%rbx), %r8
	movq	%r9, %rax
	shrq	$24, %rax
	movl	%r9d, %ecx
	andl	$16777215, %ecx
	bswapl	%ecx
	orl	%eax, %ecx
	movl	%ecx, 80(%rsp)
	movb	$0, 14(%rsp)
	movw	$0, 12(%rsp)
	leaq	12(%rsp), %rdi
	leaq	80(%rsp), %rdx
	movl	$4, %ecx
	movq	%r14, %rsi
	callq	"amq_protocol_types::generation::vector::VecU8Output::put_both"
	movzbl	12(%rsp), %ecx
	movzbl	13(%rsp), %eax
	movzbl	14(%rsp), %edx
	cmpb	$1, %cl
	jne	.LBB59_19
	jmp	.LBB59_76
.LBB59_50:
	movzwl	2(%rbx), %ebx
	movq	%rax, %rsi
	subq	%rcx, %rsi
	cmpq	$1, %rsi
	jbe	.LBB59_51
.LBB59_53:
	rolw	$8, %bx
	movw	%bx, (%rdx,%rcx)
	addq	$2, %rcx
	jmp	.LBB59_49
.LBB59_71:
	addq	$8, %rbx
	leaq	16(%rsp), %rdi
	movq	%rbx, %rsi
	movq	%r14, %rdx
	callq	"amq_protocol_types::generation::values::gen_field_table::<#4ea8deeae94023ba>"
	cmpb	$0, 16(%rsp)
	je	.LBB59_19
	jmp	.LBB59_72
.LBB59_62:
	movzbl	4(%rbx), %r13d
	movl	8(%rbx), %ebx
	movq	%rax, %rsi
	subq	%rcx, %rsi
	cmpq	$4, %rsi
	jbe	.LBB59_63
.LBB59_65:
	movl	%ebx, %esi
	shrl	$24, %esi
	movl	%ebx, %edi
	shrl	$16, %edi
	movl	%ebx, %r8d
	shrl	$8, %r8d
	leaq	5(%rcx), %r9
	movb	%r13b, (%rdx,%rcx)
	movb	%sil, 1(%rdx,%rcx)
	movb	%dil, 2(%rdx,%rcx)
	movb	%r8b, 3(%rdx,%rcx)
	movb	%bl, 4(%rdx,%rcx)
	movq	%rdx, (%r14)
	movq	%r9, 8(%r14)
	movq	%rax, 16(%r14)
	jmp	.LBB59_19
.LBB59_66:
	movq	16(%rbx), %r9
	cmpq	$255, %r9
	jbe	.LBB59_68
.LBB59_67:
	movb	$1, %cl
	xorl	%edx, %edx
	movb	$1, %al
	cmpb	$1, %cl
	jne	.LBB59_19
	jmp	.LBB59_76
.LBB59_69:
	addq	$8, %rbx
	leaq	20(%rsp), %rdi
	movq	%rbx, %rsi
	movq	%r14, %rdx
	callq	"amq_protocol_types::generation::values::gen_field_array::<#4ea8deeae94023ba>"
	cmpb	$0, 20(%rsp)
	je	.LBB59_19
	jmp	.LBB59_70
.LBB59_68:
	movq	8(%rbx), %r8
	movb	%r9b, 12(%rsp)
	movb	$0, 82(%rsp)
	movw	$0, 80(%rsp)
	leaq	80(%rsp), %rdi
	leaq	12(%rsp), %rdx
	movl	$1, %ecx
	movq	%r14, %rsi
	callq	"amq_protocol_types::generation::vector::VecU8Output::put_both"
	movzbl	80(%rsp), %ecx
	movzbl	81(%rsp), %eax
	movzbl	82(%rsp), %edx
	cmpb	$1, %cl
	jne	.LBB59_19
	jmp	.LBB59_76
.LBB59_59:
	movl	$8, %esi
	movq	%r14, %rdi
	callq	"std_alloc::vec::Vec::grow_amortized::<#a8e0b0c0cbc96d99>"
	testb	%al, %al
	je	.LBB59_46
	movq	(%r14), %rdx
	movq	8(%r14), %rcx
	movq	16(%r14), %rax
	jmp	.LBB59_61
.LBB59_45:
	movl	$1, %esi
	movq	%r14, %rdi
	callq	"std_alloc::vec::Vec::grow_amortized::<#a8e0b0c0cbc96d99>"
	testb	%al, %al
	je	.LBB59_46
	movq	(%r14), %rdx
	movq	8(%r14), %rcx
	movq	16(%r14), %rax
	jmp	.LBB59_48
.LBB59_55:
	movl	$4, %esi
	movq	%r14, %rdi
	callq	"std_alloc::vec::Vec::grow_amortized::<#a8e0b0c0cbc96d99>"
	testb	%al, %al
	je	.LBB59_46
	movq	(%r14), %rdx
	movq	8(%r14), %rcx
	movq	16(%r14), %rax
	jmp	.LBB59_57
.LBB59_51:
	movl	$2, %esi
	movq	%r14, %rdi
	callq	"std_alloc::vec::Vec::grow_amortized::<#a8e0b0c0cbc96d99>"
	testb	%al, %al
	je	.LBB59_46
	movq	(%r14), %rdx
	movq	8(%r14), %rcx
	movq	16(%r14), %rax
	jmp	.LBB59_53
.LBB59_63:
	movl	$5, %esi
	movq	%r14, %rdi
	callq	"std_alloc::vec::Vec::grow_amortized::<#a8e0b0c0cbc96d99>"
	testb	%al, %al
	je	.LBB59_46
	movq	(%r14), %rdx
	movq	8(%r14), %rcx
	movq	16(%r14), %rax
	jmp	.LBB59_65
.LBB59_33:
	movb	$1, %al
	xorl	%edx, %edx
.LBB59_79:
	movq	32(%rsp), %rsi
	movq	40(%rsp), %rdi
	cmpq	%rdi, %r12
	jbe	.LBB59_82
.LBB59_81:
	movq	%rdi, 8(%r14)
.LBB59_82:
	movb	$1, (%rsi)
	movb	%al, 1(%rsi)
	movb	%dl, 2(%rsi)
.LBB59_26:
	addq	$152, %rsp
	popq	%rbx
	popq	%r12
	popq	%r13
	popq	%r14
	popq	%r15
	popq	%rbp
	retq
.LBB59_38:
	movzbl	81(%rsp), %eax
	movzbl	82(%rsp), %edx
	movq	8(%r14), %rcx
.LBB59_42:
	movq	32(%rsp), %rsi
	movq	40(%rsp), %rdi
	movq	%rcx, %r12
	cmpq	%rdi, %r12
	ja	.LBB59_81
	jmp	.LBB59_82
.LBB59_83:
	movq	8(%r14), %rcx
	movq	%rcx, %rax
	movq	40(%rsp), %rbx
	subq	%rbx, %rax
	addq	$-4, %rax
	movq	%rax, %rdx
	shrq	$32, %rdx
	je	.LBB59_86
	movb	$1, %al
	cmpq	%rbx, %rcx
	movq	32(%rsp), %rdi
	jbe	.LBB59_90
	movq	%rbx, 8(%r14)
	jmp	.LBB59_90
.LBB59_86:
	movq	%rax, %rcx
	shrq	$24, %rcx
	andl	$16777215, %eax
	bswapl	%eax
	addq	(%r14), %rbx
	leaq	80(%rsp), %rdx
	movq	%rbx, %rsi
	subq	%rdx, %rsi
	cmpq	$3, %rsi
	movq	32(%rsp), %rdi
	ja	.LBB59_88
	movl	%eax, %edx
	shrl	$24, %edx
	movl	%eax, %esi
	shrl	$16, %esi
	movb	%cl, (%rbx)
	movb	%ah, 1(%rbx)
	movb	%sil, 2(%rbx)
	movb	%dl, 3(%rbx)
	jmp	.LBB59_89
.LBB59_88:
	orl	%ecx, %eax
	movl	%eax, (%rbx)
.LBB59_89:
	xorl	%eax, %eax
.LBB59_90:
	movb	%al, (%rdi)
	movb	%al, 1(%rdi)
	movb	$0, 2(%rdi)
	jmp	.LBB59_26
.LBB59_7:
	movq	%r14, %rdi
	movq	%rdx, %r15
	movq	%rdx, %rsi
	callq	"std_alloc::vec::Vec::grow_amortized::<#a8e0b0c0cbc96d99>"
	testb	%al, %al
	je	.LBB59_25
	movq	8(%r14), %rdi
	movq	16(%r14), %rbx
	movq	%r15, %rdx
	leaq	(%rdi,%rdx), %r15
	movq	(%r14), %r12
	cmpq	%r15, %rdi
	jb	.LBB59_10
	jmp	.LBB59_11
.LBB59_25:
	movw	$513, (%r13)
	movb	$0, 2(%r13)
	jmp	.LBB59_26
.LBB59_39:
	movb	$2, %al
	cmpq	%r12, %rcx
	jbe	.LBB59_40
	movq	%r12, 8(%r14)
	xorl	%edx, %edx
	movq	%r12, %rcx
	jmp	.LBB59_42
.LBB59_70:
	movzbl	21(%rsp), %eax
	movzbl	22(%rsp), %edx
	jmp	.LBB59_76
.LBB59_72:
	movzbl	17(%rsp), %eax
	movzbl	18(%rsp), %edx
	jmp	.LBB59_76
.LBB59_46:
	movb	$2, %al
	xorl	%edx, %edx
.LBB59_76:
	movq	8(%r14), %rcx
	cmpq	%r12, %rcx
	jbe	.LBB59_77
	movq	%r12, 8(%r14)
	jmp	.LBB59_79
.LBB59_77:
	movq	%rcx, %r12
	jmp	.LBB59_79
.LBB59_40:
	xorl	%edx, %edx
	jmp	.LBB59_42
.Lfunc_end59:
	.size	"amq_protocol_types::generation::values::gen_field_table::<#4ea8deeae94023ba>", .Lfunc_end59-"amq_protocol_types::generation::values::gen_field_table::<#4ea8deeae94023ba>"
	.section	".rodata.amq_protocol_types::generation::values::gen_field_table::<#4ea8deeae94023ba>","a",@progbits
	.p2align	2, 0x0
.LJTI59_0:
	.long	.LBB59_44-.LJTI59_0
	.long	.LBB59_44-.LJTI59_0
	.long	.LBB59_44-.LJTI59_0
	.long	.LBB59_50-.LJTI59_0
	.long	.LBB59_50-.LJTI59_0
	.long	.LBB59_54-.LJTI59_0
	.long	.LBB59_54-.LJTI59_0
	.long	.LBB59_58-.LJTI59_0
	.long	.LBB59_54-.LJTI59_0
	.long	.LBB59_58-.LJTI59_0
	.long	.LBB59_62-.LJTI59_0
	.long	.LBB59_66-.LJTI59_0
	.long	.LBB59_73-.LJTI59_0
	.long	.LBB59_69-.LJTI59_0
	.long	.LBB59_58-.LJTI59_0
	.long	.LBB59_71-.LJTI59_0
	.long	.LBB59_73-.LJTI59_0
	.long	.LBB59_19-.LJTI59_0

	.section	".text.std_collections::btree::iter::Cursor::advance::<#8af3e1b4e9e21b57>","ax",@progbits
	.p2align	4
	.type	"std_collections::btree::iter::Cursor::advance::<#8af3e1b4e9e21b57>",@function
"std_collections::btree::iter::Cursor::advance::<#8af3e1b4e9e21b57>":
	pushq	%r15
	pushq	%r14
	pushq	%rbx
	movq	%rcx, %rax
	cmpq	$-1, %rsi
	je	.LBB60_1
	movl	%esi, %r9d
	andl	$15, %r9d
	movq	(%rdx), %r10
	movzwl	(%r10), %ecx
	cmpq	%rcx, %r9
	jae	.LBB60_8
	leaq	(%r9,%r9,2), %rax
	leaq	(%r10,%rax,8), %rcx
	addq	$8, %rcx
	shll	$5, %r9d
	leaq	(%r10,%r9), %r11
	addq	$368, %r11
	incq	%rsi
	movl	$1, %ebx
	movq	%rsi, %r9
	movq	%rdx, %rax
	cmpq	%r8, %r9
	je	.LBB60_22
	jmp	.LBB60_25
.LBB60_1:
	movq	(%rax), %rdx
	xorl	%ebx, %ebx
	cmpw	$1, 2(%rdx)
	movl	$0, %ecx
	movl	$0, %r11d
	movl	$0, %r9d
	je	.LBB60_21
	movq	848(%rdx), %rax
	cmpw	$1, 2(%rax)
	je	.LBB60_5
	.p2align	4
.LBB60_3:
	movq	%rax, %rdx
	movq	848(%rax), %rax
	cmpw	$1, 2(%rax)
	jne	.LBB60_3
.LBB60_5:
	addq	$848, %rdx
	xorl	%ebx, %ebx
	xorl	%ecx, %ecx
	xorl	%r11d, %r11d
	xorl	%r9d, %r9d
	movq	%rdx, %rax
.LBB60_21:
	cmpq	%r8, %r9
	jne	.LBB60_25
.LBB60_22:
	movq	%rbx, (%rdi)
	movq	%rcx, 8(%rdi)
	movq	%r11, 16(%rdi)
	xorps	%xmm0, %xmm0
	movups	%xmm0, 24(%rdi)
	movq	$0, 40(%rdi)
	popq	%rbx
	popq	%r14
	popq	%r15
	retq
.LBB60_8:
	movq	(%rax), %r11
	movzwl	2(%r11), %ecx
	cmpw	$1, %cx
	je	.LBB60_23
	xorl	%edx, %edx
	xorl	%r9d, %r9d
	xorl	%r10d, %r10d
	xorl	%ebx, %ebx
	xorl	%r14d, %r14d
	jmp	.LBB60_10
	.p2align	4
.LBB60_12:
	shlq	$4, %r14
	orq	%r15, %r14
	leaq	(%r11,%r15,8), %rax
	addq	$848, %rax
	movq	848(%r11,%r15,8), %r11
	movzwl	2(%r11), %ecx
	cmpw	$1, %cx
	je	.LBB60_13
.LBB60_10:
	shll	$2, %ecx
	addb	$-4, %cl
	movq	%rsi, %r15
	shrq	%cl, %r15
	andl	$15, %r15d
	movzwl	(%r11), %ecx
	cmpq	%rcx, %r15
	jae	.LBB60_12
	movb	$1, %bl
	movq	%rax, %r10
	movq	%r14, %r9
	movq	%r15, %rdx
	jmp	.LBB60_12
.LBB60_13:
	testb	%bl, %bl
	je	.LBB60_23
	movq	(%r10), %rax
	leaq	(%rdx,%rdx,2), %rcx
	movq	%rdx, %rsi
	shlq	$5, %rsi
	incq	%rdx
	cmpw	$1, 2(%rax)
	je	.LBB60_20
	shlq	$4, %r9
	addq	%rdx, %r9
	movq	848(%rax,%rdx,8), %r11
	cmpw	$1, 2(%r11)
	jne	.LBB60_17
	shlq	$3, %rdx
	movq	%rax, %r10
	jmp	.LBB60_19
	.p2align	4
.LBB60_17:
	movq	%r11, %r10
	shlq	$4, %r9
	movq	848(%r11), %r11
	cmpw	$1, 2(%r11)
	jne	.LBB60_17
	xorl	%edx, %edx
.LBB60_19:
	addq	%rdx, %r10
	addq	$848, %r10
	xorl	%edx, %edx
.LBB60_20:
	leaq	(%rax,%rcx,8), %rcx
	addq	$8, %rcx
	leaq	(%rax,%rsi), %r11
	addq	$368, %r11
	shlq	$4, %r9
	addq	%rdx, %r9
	movl	$1, %ebx
	movq	%r10, %rax
	cmpq	%r8, %r9
	je	.LBB60_22
.LBB60_25:
	movq	%rbx, (%rdi)
	movq	%rcx, 8(%rdi)
	movq	%r11, 16(%rdi)
	movq	$1, 24(%rdi)
	movq	%r9, 32(%rdi)
	movq	%rax, 40(%rdi)
	popq	%rbx
	popq	%r14
	popq	%r15
	retq
.LBB60_23:
	xorps	%xmm0, %xmm0
	movups	%xmm0, 32(%rdi)
	movups	%xmm0, 16(%rdi)
	movups	%xmm0, (%rdi)
	popq	%rbx
	popq	%r14
	popq	%r15
	retq
.Lfunc_end60:
	.size	"std_collections::btree::iter::Cursor::advance::<#8af3e1b4e9e21b57>", .Lfunc_end60-"std_collections::btree::iter::Cursor::advance::<#8af3e1b4e9e21b57>"

	.section	".text.std_alloc::vec::Vec::drop::<#075e21c32a54ff68>","ax",@progbits
	.p2align	4
	.type	"std_alloc::vec::Vec::drop::<#075e21c32a54ff68>",@function
"std_alloc::vec::Vec::drop::<#075e21c32a54ff68>":
	pushq	%r15
	pushq	%r14
	pushq	%r13
	pushq	%r12
	pushq	%rbx
	subq	$32, %rsp
	movq	(%rdi), %rbx
	movq	8(%rdi), %r15
	movq	16(%rdi), %r14
	testq	%r15, %r15
	je	.LBB61_3
	leaq	4(%rsp), %r12
	leaq	4(%rbx), %r13
	.p2align	4
.LBB61_2:
	movl	-4(%r13), %eax
	movl	%eax, (%rsp)
	movups	(%r13), %xmm0
	movups	12(%r13), %xmm1
	movups	%xmm1, 12(%r12)
	movups	%xmm0, (%r12)
	movq	%rsp, %rdi
	callq	"amqp_c_alloc::amqp_value_core++value++AMQPValue+Destruct::drop"
	addq	$32, %r13
	decq	%r15
	jne	.LBB61_2
.LBB61_3:
	testq	%r14, %r14
	je	.LBB61_4
	movq	%rbx, %rdi
	addq	$32, %rsp
	popq	%rbx
	popq	%r12
	popq	%r13
	popq	%r14
	popq	%r15
	jmp	rattle_dealloc
.LBB61_4:
	addq	$32, %rsp
	popq	%rbx
	popq	%r12
	popq	%r13
	popq	%r14
	popq	%r15
	retq
.Lfunc_end61:
	.size	"std_alloc::vec::Vec::drop::<#075e21c32a54ff68>", .Lfunc_end61-"std_alloc::vec::Vec::drop::<#075e21c32a54ff68>"

	.section	".text.amqp_c_alloc::amqp_value_core++value++AMQPValue+Destruct::drop","ax",@progbits
	.p2align	4
	.type	"amqp_c_alloc::amqp_value_core++value++AMQPValue+Destruct::drop",@function
"amqp_c_alloc::amqp_value_core++value++AMQPValue+Destruct::drop":
	pushq	%r15
	pushq	%r14
	pushq	%r13
	pushq	%r12
	pushq	%rbx
	subq	$32, %rsp
	movzbl	(%rdi), %eax
	movq	8(%rdi), %rbx
	movq	16(%rdi), %r14
	movq	24(%rdi), %r15
	leaq	.LJTI62_0(%rip), %rcx
	movslq	(%rcx,%rax,4), %rax
	addq	%rcx, %rax
	jmpq	*%rax
.LBB62_7:
	addq	$32, %rsp
	popq	%rbx
	popq	%r12
	popq	%r13
	popq	%r14
	popq	%r15
	retq
.LBB62_6:
	cmpb	$1, %bl
	jne	.LBB62_7
	movq	%r14, %rdi
	addq	$32, %rsp
	popq	%rbx
	popq	%r12
	popq	%r13
	popq	%r14
	popq	%r15
	jmp	"std_collections::btree::node::Node::destroy::<#906c1b7c2fff9a74>"
.LBB62_3:
	testq	%r14, %r14
	je	.LBB62_1
	leaq	4(%rsp), %r12
	leaq	4(%rbx), %r13
	.p2align	4
.LBB62_5:
	movl	-4(%r13), %eax
	movl	%eax, (%rsp)
	movups	(%r13), %xmm0
	movups	12(%r13), %xmm1
	movups	%xmm1, 12(%r12)
	movups	%xmm0, (%r12)
	movq	%rsp, %rdi
	callq	"amqp_c_alloc::amqp_value_core++value++AMQPValue+Destruct::drop"
	addq	$32, %r13
	decq	%r14
	jne	.LBB62_5
.LBB62_1:
	testq	%r15, %r15
	je	.LBB62_7
	movq	%rbx, %rdi
	addq	$32, %rsp
	popq	%rbx
	popq	%r12
	popq	%r13
	popq	%r14
	popq	%r15
	jmp	rattle_dealloc
.Lfunc_end62:
	.size	"amqp_c_alloc::amqp_value_core++value++AMQPValue+Destruct::drop", .Lfunc_end62-"amqp_c_alloc::amqp_value_core++value++AMQPValue+Destruct::drop"
	.section	".rodata.amqp_c_alloc::amqp_value_core++value++AMQPValue+Destruct::drop","a",@progbits
	.p2align	2, 0x0
.LJTI62_0:
	.long	.LBB62_7-.LJTI62_0
	.long	.LBB62_7-.LJTI62_0
	.long	.LBB62_7-.LJTI62_0
	.long	.LBB62_7-.LJTI62_0
	.long	.LBB62_7-.LJTI62_0
	.long	.LBB62_7-.LJTI62_0
	.long	.LBB62_7-.LJTI62_0
	.long	.LBB62_7-.LJTI62_0
	.long	.LBB62_7-.LJTI62_0
	.long	.LBB62_7-.LJTI62_0
	.long	.LBB62_7-.LJTI62_0
	.long	.LBB62_1-.LJTI62_0
	.long	.LBB62_1-.LJTI62_0
	.long	.LBB62_3-.LJTI62_0
	.long	.LBB62_7-.LJTI62_0
	.long	.LBB62_6-.LJTI62_0
	.long	.LBB62_1-.LJTI62_0
	.long	.LBB62_7-.LJTI62_0

	.section	".text.std_collections::btree::node::Node::destroy::<#906c1b7c2fff9a74>","ax",@progbits
	.p2align	4
	.type	"std_collections::btree::node::Node::destroy::<#906c1b7c2fff9a74>",@function
"std_collections::btree::node::Node::destroy::<#906c1b7c2fff9a74>":
	pushq	%rbp
	pushq	%r15
	pushq	%r14
	pushq	%r13
	pushq	%r12
	pushq	%rbx
	subq	$200, %rsp
	xorps	%xmm0, %xmm0
	movups	%xmm0, 172(%rsp)
	movaps	%xmm0, 160(%rsp)
	movzwl	(%rdi), %r15d
	movzwl	2(%rdi), %ecx
	xorl	%edx, %edx
	testw	%cx, %cx
	setne	%dl
	leaq	1(%r15), %rsi
	shll	$4, %edx
	leaq	848(%rdi), %rax
	leaq	368(%rdi), %r10
	leaq	8(%rdi), %r8
	xorl	%r9d, %r9d
	testw	%cx, %cx
	cmovneq	%rsi, %r9
	movq	%r8, 80(%rsp)
	movq	%r15, 88(%rsp)
	movq	$15, 96(%rsp)
	movq	%r10, 104(%rsp)
	movq	%r15, 112(%rsp)
	movq	$15, 120(%rsp)
	movq	%rax, 128(%rsp)
	movq	%r9, 136(%rsp)
	movq	%rdx, 144(%rsp)
	movq	%rdi, 152(%rsp)
	je	.LBB63_33
	leaq	136(%rsp), %r14
	testq	%r15, %r15
	je	.LBB63_27
	leaq	104(%rsp), %rbx
	leaq	4(%rsp), %r15
	jmp	.LBB63_4
	.p2align	4
.LBB63_3:
	movb	%bpl, (%rsp)
	movb	%r12b, 1(%rsp)
	movw	%r13w, 2(%rsp)
	movups	172(%rsp), %xmm0
	movups	%xmm0, 12(%r15)
	movaps	160(%rsp), %xmm0
	movups	%xmm0, (%r15)
	movq	%rsp, %rdi
	callq	"amqp_c_alloc::amqp_value_core++value++AMQPValue+Destruct::drop"
	cmpq	$0, 88(%rsp)
	je	.LBB63_26
.LBB63_4:
	movq	128(%rsp), %rcx
	movq	136(%rsp), %rax
	movq	(%rcx), %rdi
	decq	%rax
	cmpq	$257, %rax
	jb	.LBB63_10
	leaq	56(%rcx), %rsi
	xorl	%r9d, %r9d
	.p2align	4
.LBB63_6:
	xorl	%edx, %edx
	.p2align	4
.LBB63_7:
	movups	-48(%rsi,%rdx,8), %xmm0
	movups	-32(%rsi,%rdx,8), %xmm1
	movups	-16(%rsi,%rdx,8), %xmm2
	movups	(%rsi,%rdx,8), %xmm3
	movups	%xmm0, -56(%rsi,%rdx,8)
	movups	%xmm1, -40(%rsi,%rdx,8)
	movups	%xmm2, -24(%rsi,%rdx,8)
	movups	%xmm3, -8(%rsi,%rdx,8)
	addq	$8, %rdx
	cmpq	$256, %rdx
	jne	.LBB63_7
	addq	$256, %r9
	movq	%rax, %rdx
	subq	%r9, %rdx
	addq	$2048, %rsi
	cmpq	$256, %rdx
	ja	.LBB63_6
	leaq	(,%r9,8), %r8
	leaq	(%rcx,%r9,8), %rsi
	cmpq	%r9, %rax
	jne	.LBB63_11
	jmp	.LBB63_24
	.p2align	4
.LBB63_10:
	xorl	%r8d, %r8d
	movq	%rcx, %rsi
	movq	%rax, %rdx
	xorl	%r9d, %r9d
	cmpq	%r9, %rax
	je	.LBB63_24
.LBB63_11:
	leaq	(%rcx,%r8), %r9
	cmpq	$4, %rdx
	jb	.LBB63_12
	movq	%r9, %r10
	subq	%rsi, %r10
	addq	$-8, %r10
	cmpq	$32, %r10
	jae	.LBB63_15
.LBB63_12:
	xorl	%r10d, %r10d
.LBB63_18:
	movq	%rdx, %r12
	movq	%r10, %r11
	andq	$3, %r12
	je	.LBB63_21
	movq	%r10, %r11
	.p2align	4
.LBB63_20:
	movq	8(%rsi,%r11,8), %r13
	movq	%r13, (%r9,%r11,8)
	incq	%r11
	decq	%r12
	jne	.LBB63_20
.LBB63_21:
	subq	%rdx, %r10
	cmpq	$-4, %r10
	ja	.LBB63_24
	addq	%r8, %rcx
	addq	$24, %rcx
	.p2align	4
.LBB63_23:
	movq	8(%rsi,%r11,8), %r8
	movq	%r8, -24(%rcx,%r11,8)
	movq	16(%rsi,%r11,8), %r8
	movq	%r8, -16(%rcx,%r11,8)
	movq	24(%rsi,%r11,8), %r8
	movq	%r8, -8(%rcx,%r11,8)
	movq	32(%rsi,%r11,8), %r8
	movq	%r8, (%rcx,%r11,8)
	addq	$4, %r11
	cmpq	%r11, %rdx
	jne	.LBB63_23
	jmp	.LBB63_24
.LBB63_15:
	movl	%edx, %r10d
	andl	$508, %r10d
	leaq	(%rcx,%r8), %r11
	addq	$16, %r11
	xorl	%r12d, %r12d
	.p2align	4
.LBB63_16:
	movups	8(%rsi,%r12,8), %xmm0
	movups	24(%rsi,%r12,8), %xmm1
	movups	%xmm0, -16(%r11,%r12,8)
	movups	%xmm1, (%r11,%r12,8)
	addq	$4, %r12
	cmpq	%r12, %r10
	jne	.LBB63_16
	cmpq	%r10, %rdx
	jne	.LBB63_18
	.p2align	4
.LBB63_24:
	movq	144(%rsp), %rcx
	movq	%rax, 136(%rsp)
	movq	%rcx, 144(%rsp)
	callq	"std_collections::btree::node::Node::destroy::<#906c1b7c2fff9a74>"
	xorps	%xmm0, %xmm0
	movaps	%xmm0, 48(%rsp)
	movq	$0, 64(%rsp)
	movaps	%xmm0, (%rsp)
	movaps	%xmm0, 16(%rsp)
	leaq	48(%rsp), %rdi
	leaq	80(%rsp), %rsi
	xorl	%edx, %edx
	callq	"std_alloc::vec::Vec::remove::<#5ea93b9ddeb8aab1>"
	movq	%rsp, %rdi
	movq	%rbx, %rsi
	xorl	%edx, %edx
	callq	"std_alloc::vec::Vec::remove::<#cd5e489e5ed3d409>"
	movq	48(%rsp), %rdi
	movzbl	(%rsp), %ebp
	movzbl	1(%rsp), %r12d
	movzwl	2(%rsp), %r13d
	movups	(%r15), %xmm0
	movups	12(%r15), %xmm1
	movaps	%xmm0, 160(%rsp)
	movups	%xmm1, 172(%rsp)
	cmpq	$0, 64(%rsp)
	je	.LBB63_3
	callq	rattle_dealloc
	jmp	.LBB63_3
.LBB63_26:
	movq	128(%rsp), %rax
	movq	136(%rsp), %r15
	decq	%r15
.LBB63_27:
	xorps	%xmm0, %xmm0
	movups	%xmm0, (%r14)
	movq	(%rax), %rdi
	cmpq	$257, %r15
	jb	.LBB63_39
	leaq	56(%rax), %rdx
	xorl	%r8d, %r8d
	.p2align	4
.LBB63_29:
	xorl	%ecx, %ecx
	.p2align	4
.LBB63_30:
	movups	-48(%rdx,%rcx,8), %xmm0
	movups	-32(%rdx,%rcx,8), %xmm1
	movups	-16(%rdx,%rcx,8), %xmm2
	movups	(%rdx,%rcx,8), %xmm3
	movups	%xmm0, -56(%rdx,%rcx,8)
	movups	%xmm1, -40(%rdx,%rcx,8)
	movups	%xmm2, -24(%rdx,%rcx,8)
	movups	%xmm3, -8(%rdx,%rcx,8)
	addq	$8, %rcx
	cmpq	$256, %rcx
	jne	.LBB63_30
	addq	$256, %r8
	movq	%r15, %rcx
	subq	%r8, %rcx
	addq	$2048, %rdx
	cmpq	$256, %rcx
	ja	.LBB63_29
	leaq	(,%r8,8), %rsi
	leaq	(%rax,%r8,8), %rdx
	cmpq	%r8, %r15
	jne	.LBB63_40
	jmp	.LBB63_53
.LBB63_33:
	movq	%rdi, 40(%rsp)
	leaq	80(%rsp), %rdi
	callq	"std_collections::btree::row::Row::reverse::<#8af3e1b4e9e21b57>"
	testq	%r15, %r15
	je	.LBB63_38
	leaq	(%r15,%r15,2), %rax
	movq	40(%rsp), %rcx
	leaq	(%rcx,%rax,8), %r12
	shll	$5, %r15d
	leaq	340(%rcx), %r13
	jmp	.LBB63_36
	.p2align	4
.LBB63_35:
	movb	%bpl, (%rsp)
	movb	%bl, 1(%rsp)
	movw	%r14w, 2(%rsp)
	movups	60(%rsp), %xmm0
	leaq	4(%rsp), %rax
	movups	%xmm0, 12(%rax)
	movaps	48(%rsp), %xmm0
	movups	%xmm0, (%rax)
	movq	%rsp, %rdi
	callq	"amqp_c_alloc::amqp_value_core++value++AMQPValue+Destruct::drop"
	addq	$-24, %r12
	addq	$-32, %r15
	je	.LBB63_38
.LBB63_36:
	movq	-16(%r12), %rdi
	movzbl	-4(%r13,%r15), %ebp
	movzbl	-3(%r13,%r15), %ebx
	movzwl	-2(%r13,%r15), %r14d
	cmpq	$0, (%r12)
	movups	(%r13,%r15), %xmm0
	movups	12(%r13,%r15), %xmm1
	movups	%xmm1, 60(%rsp)
	movaps	%xmm0, 48(%rsp)
	je	.LBB63_35
	callq	rattle_dealloc
	jmp	.LBB63_35
.LBB63_38:
	movq	40(%rsp), %rdi
	jmp	.LBB63_54
.LBB63_39:
	xorl	%esi, %esi
	movq	%rax, %rdx
	movq	%r15, %rcx
	xorl	%r8d, %r8d
	cmpq	%r8, %r15
	je	.LBB63_53
.LBB63_40:
	leaq	(%rax,%rsi), %r8
	cmpq	$8, %rcx
	jb	.LBB63_41
	movq	%r8, %r9
	subq	%rdx, %r9
	addq	$-8, %r9
	cmpq	$32, %r9
	jae	.LBB63_44
.LBB63_41:
	xorl	%r9d, %r9d
.LBB63_47:
	movq	%rcx, %r11
	movq	%r9, %r10
	andq	$3, %r11
	je	.LBB63_50
	movq	%r9, %r10
	.p2align	4
.LBB63_49:
	movq	8(%rdx,%r10,8), %rbx
	movq	%rbx, (%r8,%r10,8)
	incq	%r10
	decq	%r11
	jne	.LBB63_49
.LBB63_50:
	subq	%rcx, %r9
	cmpq	$-4, %r9
	ja	.LBB63_53
	addq	%rsi, %rax
	addq	$24, %rax
	.p2align	4
.LBB63_52:
	movq	8(%rdx,%r10,8), %rsi
	movq	%rsi, -24(%rax,%r10,8)
	movq	16(%rdx,%r10,8), %rsi
	movq	%rsi, -16(%rax,%r10,8)
	movq	24(%rdx,%r10,8), %rsi
	movq	%rsi, -8(%rax,%r10,8)
	movq	32(%rdx,%r10,8), %rsi
	movq	%rsi, (%rax,%r10,8)
	addq	$4, %r10
	cmpq	%r10, %rcx
	jne	.LBB63_52
	jmp	.LBB63_53
.LBB63_44:
	movl	%ecx, %r9d
	andl	$508, %r9d
	leaq	(%rsi,%rax), %r10
	addq	$16, %r10
	xorl	%r11d, %r11d
	.p2align	4
.LBB63_45:
	movups	8(%rdx,%r11,8), %xmm0
	movups	24(%rdx,%r11,8), %xmm1
	movups	%xmm0, -16(%r10,%r11,8)
	movups	%xmm1, (%r10,%r11,8)
	addq	$4, %r11
	cmpq	%r11, %r9
	jne	.LBB63_45
	cmpq	%r9, %rcx
	jne	.LBB63_47
.LBB63_53:
	callq	"std_collections::btree::node::Node::destroy::<#906c1b7c2fff9a74>"
	movq	152(%rsp), %rdi
.LBB63_54:
	cmpw	$0, 2(%rdi)
	addq	$200, %rsp
	popq	%rbx
	popq	%r12
	popq	%r13
	popq	%r14
	popq	%r15
	popq	%rbp
	jmp	rattle_dealloc
.Lfunc_end63:
	.size	"std_collections::btree::node::Node::destroy::<#906c1b7c2fff9a74>", .Lfunc_end63-"std_collections::btree::node::Node::destroy::<#906c1b7c2fff9a74>"

	.section	".text.unlikely.std_alloc::vec::Vec::grow_amortized::<#1283936d4ef01d73>","ax",@progbits
	.p2align	4
	.type	"std_alloc::vec::Vec::grow_amortized::<#1283936d4ef01d73>",@function
"std_alloc::vec::Vec::grow_amortized::<#1283936d4ef01d73>":
	addq	8(%rdi), %rsi
	jae	.LBB64_2
	xorl	%eax, %eax
	retq
.LBB64_2:
	pushq	%r14
	pushq	%rbx
	pushq	%rax
	cmpq	$9, %rsi
	movl	$8, %ebx
	cmovaeq	%rsi, %rbx
	movq	16(%rdi), %rcx
	movq	%rcx, %rdx
	shrq	$62, %rdx
	leaq	(%rcx,%rcx), %rax
	cmpq	%rax, %rbx
	cmovaq	%rbx, %rax
	testq	%rdx, %rdx
	cmoveq	%rax, %rbx
	testq	%rbx, %rbx
	js	.LBB64_6
	testq	%rcx, %rcx
	je	.LBB64_8
	movq	%rdi, %r14
	movq	(%rdi), %rdi
	movl	$1, %edx
	movq	%rbx, %rsi
	callq	rattle_realloc
	testb	$1, %al
	je	.LBB64_6
.LBB64_9:
	movq	%rdx, (%r14)
	movq	%rbx, 16(%r14)
	movb	$1, %al
	addq	$8, %rsp
	popq	%rbx
	popq	%r14
	retq
.LBB64_8:
	movq	%rdi, %r14
	movl	$1, %esi
	movq	%rax, %rdi
	callq	rattle_alloc
	testb	$1, %al
	jne	.LBB64_9
.LBB64_6:
	xorl	%eax, %eax
	addq	$8, %rsp
	popq	%rbx
	popq	%r14
	retq
.Lfunc_end64:
	.size	"std_alloc::vec::Vec::grow_amortized::<#1283936d4ef01d73>", .Lfunc_end64-"std_alloc::vec::Vec::grow_amortized::<#1283936d4ef01d73>"

	.section	.rodata.cst16,"aM",@progbits,16
	.p2align	4, 0x0
.LCPI65_0:
	.zero	16,32
.LCPI65_1:
	.zero	16,123
.LCPI65_2:
	.zero	16,125
.LCPI65_3:
	.zero	16,58
.LCPI65_4:
	.zero	16,44
.LCPI65_5:
	.zero	16,10
.LCPI65_6:
	.zero	16,251
.LCPI65_7:
	.zero	16,9
.LCPI65_8:
	.zero	16,92
.LCPI65_9:
	.zero	16,34
	.section	".text.json::index::refill","ax",@progbits
	.p2align	4
	.type	"json::index::refill",@function
"json::index::refill":
	pushq	%rbp
	movq	%rsp, %rbp
	pushq	%r15
	pushq	%r14
	pushq	%r13
	pushq	%r12
	pushq	%rbx
	andq	$-64, %rsp
	subq	$192, %rsp
	movq	%rcx, 24(%rsp)
	movq	%rsi, 40(%rsp)
	movq	%rdi, 56(%rsp)
	movzbl	(%r9), %eax
	movzbl	1(%r9), %r13d
	movzbl	2(%r9), %r12d
	movb	$0, 20(%rsp)
	movl	$0, 16(%rsp)
	movq	%rdx, 32(%rsp)
	cmpq	%rdx, %r8
	movl	%eax, 12(%rsp)
	jae	.LBB65_1
	movabsq	$6148914691236517205, %r10
	movq	%r8, %r14
	.p2align	4
.LBB65_3:
	movq	%r14, %r8
	xorl	%eax, %eax
	xorl	%ebx, %ebx
	movq	%r14, 48(%rsp)
	jmp	.LBB65_4
	.p2align	4
.LBB65_12:
	shrq	$63, %rdx
	movl	%edx, %r13d
	shrq	$63, %r8
	movl	%r8d, %r12d
	addq	%rcx, %rbx
	leaq	64(%rax), %r15
	cmpq	$4032, %rax
	movq	%r15, %rax
	movq	48(%rsp), %r8
	movabsq	$6148914691236517205, %r10
	jae	.LBB65_13
.LBB65_4:
	leaq	(%rax,%r8), %r14
	movq	32(%rsp), %rcx
	subq	%r14, %rcx
	movabsq	$1085102592571150095, %r15
	movabsq	$72340172838076673, %r11
	cmpq	$64, %rcx
	jb	.LBB65_5
	movq	40(%rsp), %rcx
	movdqu	(%rcx,%r14), %xmm3
	movdqu	16(%rcx,%r14), %xmm2
	movdqu	32(%rcx,%r14), %xmm1
	movdqu	48(%rcx,%r14), %xmm0
	movdqa	.LCPI65_0(%rip), %xmm4
	movdqa	%xmm0, %xmm5
	por	%xmm4, %xmm5
	movdqa	%xmm1, %xmm6
	por	%xmm4, %xmm6
	movdqa	%xmm2, %xmm7
	por	%xmm4, %xmm7
	movdqa	%xmm3, %xmm8
	por	%xmm4, %xmm8
	movdqa	.LCPI65_1(%rip), %xmm9
	movdqa	%xmm8, %xmm10
	pcmpeqb	%xmm9, %xmm10
	movdqa	%xmm7, %xmm11
	pcmpeqb	%xmm9, %xmm11
	movdqa	%xmm6, %xmm12
	pcmpeqb	%xmm9, %xmm12
	pcmpeqb	%xmm5, %xmm9
	movdqa	.LCPI65_2(%rip), %xmm13
	pcmpeqb	%xmm13, %xmm8
	por	%xmm10, %xmm8
	pcmpeqb	%xmm13, %xmm7
	por	%xmm11, %xmm7
	pcmpeqb	%xmm13, %xmm6
	por	%xmm12, %xmm6
	pcmpeqb	%xmm13, %xmm5
	por	%xmm9, %xmm5
	movdqa	.LCPI65_3(%rip), %xmm10
	movdqa	%xmm0, %xmm11
	pcmpeqb	%xmm10, %xmm11
	movdqa	%xmm1, %xmm12
	pcmpeqb	%xmm10, %xmm12
	movdqa	%xmm2, %xmm13
	pcmpeqb	%xmm10, %xmm13
	pcmpeqb	%xmm3, %xmm10
	movdqa	.LCPI65_4(%rip), %xmm9
	movdqa	%xmm3, %xmm14
	pcmpeqb	%xmm9, %xmm14
	por	%xmm10, %xmm14
	por	%xmm8, %xmm14
	movdqa	%xmm2, %xmm8
	pcmpeqb	%xmm9, %xmm8
	por	%xmm13, %xmm8
	por	%xmm7, %xmm8
	movdqa	%xmm1, %xmm7
	pcmpeqb	%xmm9, %xmm7
	por	%xmm12, %xmm7
	por	%xmm6, %xmm7
	pcmpeqb	%xmm0, %xmm9
	por	%xmm11, %xmm9
	por	%xmm5, %xmm9
	pmovmskb	%xmm14, %ecx
	pmovmskb	%xmm8, %edx
	shll	$16, %edx
	orl	%ecx, %edx
	pmovmskb	%xmm7, %esi
	shlq	$32, %rsi
	orq	%rdx, %rsi
	pmovmskb	%xmm9, %ecx
	shlq	$48, %rcx
	orq	%rsi, %rcx
	movdqa	%xmm0, %xmm6
	pcmpeqb	%xmm4, %xmm6
	movdqa	%xmm1, %xmm7
	pcmpeqb	%xmm4, %xmm7
	movdqa	%xmm2, %xmm8
	pcmpeqb	%xmm4, %xmm8
	pcmpeqb	%xmm3, %xmm4
	movdqa	.LCPI65_5(%rip), %xmm9
	movdqa	%xmm0, %xmm5
	pcmpeqb	%xmm9, %xmm5
	por	%xmm6, %xmm5
	movdqa	%xmm1, %xmm6
	pcmpeqb	%xmm9, %xmm6
	por	%xmm7, %xmm6
	movdqa	%xmm2, %xmm7
	pcmpeqb	%xmm9, %xmm7
	por	%xmm8, %xmm7
	pcmpeqb	%xmm3, %xmm9
	por	%xmm4, %xmm9
	movdqa	.LCPI65_6(%rip), %xmm8
	movdqa	%xmm0, %xmm4
	pand	%xmm8, %xmm4
	movdqa	%xmm1, %xmm10
	pand	%xmm8, %xmm10
	movdqa	%xmm2, %xmm11
	pand	%xmm8, %xmm11
	pand	%xmm3, %xmm8
	movdqa	.LCPI65_7(%rip), %xmm12
	pcmpeqb	%xmm12, %xmm8
	por	%xmm9, %xmm8
	pcmpeqb	%xmm12, %xmm11
	por	%xmm7, %xmm11
	pcmpeqb	%xmm12, %xmm10
	por	%xmm6, %xmm10
	pcmpeqb	%xmm12, %xmm4
	por	%xmm5, %xmm4
	pmovmskb	%xmm8, %edx
	pmovmskb	%xmm11, %esi
	shll	$16, %esi
	orl	%edx, %esi
	pmovmskb	%xmm10, %edx
	shlq	$32, %rdx
	orq	%rsi, %rdx
	pmovmskb	%xmm4, %esi
	shlq	$48, %rsi
	orq	%rdx, %rsi
	orq	%rcx, %rsi
	notq	%rsi
	movdqa	.LCPI65_8(%rip), %xmm4
	movdqa	%xmm0, %xmm5
	pcmpeqb	%xmm4, %xmm5
	movdqa	%xmm1, %xmm6
	pcmpeqb	%xmm4, %xmm6
	movdqa	%xmm2, %xmm7
	pcmpeqb	%xmm4, %xmm7
	pcmpeqb	%xmm3, %xmm4
	pmovmskb	%xmm4, %edx
	pmovmskb	%xmm7, %edi
	shll	$16, %edi
	orl	%edx, %edi
	pmovmskb	%xmm6, %r8d
	shlq	$32, %r8
	orq	%rdi, %r8
	pmovmskb	%xmm5, %edx
	shlq	$48, %rdx
	movl	12(%rsp), %edi
	andb	$1, %dil
	orq	%r8, %rdx
	movzbl	%dil, %edi
	je	.LBB65_7
	movq	%rdi, %r8
	notq	%r8
	andq	%rdx, %r8
	leaq	(%rdi,%r8,2), %r9
	movabsq	$-6148914691236517206, %rdi
	andq	%rdi, %rdx
	movq	%r9, %rdi
	notq	%rdi
	andq	%rdx, %rdi
	addq	%r8, %rdi
	setb	%dl
	movl	%edx, 12(%rsp)
	addq	%rdi, %rdi
	xorq	%r10, %rdi
	andq	%r9, %rdi
	jmp	.LBB65_9
	.p2align	4
.LBB65_7:
	movl	$0, 12(%rsp)
.LBB65_9:
	movdqa	.LCPI65_9(%rip), %xmm4
	pcmpeqb	%xmm4, %xmm0
	pcmpeqb	%xmm4, %xmm1
	pcmpeqb	%xmm4, %xmm2
	pcmpeqb	%xmm4, %xmm3
	pmovmskb	%xmm3, %edx
	pmovmskb	%xmm2, %r8d
	shll	$16, %r8d
	orl	%edx, %r8d
	pmovmskb	%xmm1, %edx
	shlq	$32, %rdx
	orq	%r8, %rdx
	pmovmskb	%xmm0, %r8d
	shlq	$48, %r8
	orq	%rdx, %r8
	notq	%rdi
	andq	%r8, %rdi
	leaq	(%rdi,%rdi), %rdx
	xorq	%rdi, %rdx
	leaq	(,%rdx,4), %r8
	xorq	%rdx, %r8
	movq	%r8, %rdx
	shlq	$4, %rdx
	xorq	%r8, %rdx
	movq	%rdx, %r8
	shlq	$8, %r8
	xorq	%rdx, %r8
	movq	%r8, %rdx
	shlq	$16, %rdx
	xorq	%r8, %rdx
	andb	$1, %r13b
	movzbl	%r13b, %r8d
	negq	%r8
	xorq	%rdx, %r8
	shlq	$32, %rdx
	xorq	%r8, %rdx
	notq	%rdi
	movq	%rdi, %r8
	andq	%rsi, %r8
	andb	$1, %r12b
	movzbl	%r12b, %r9d
	leaq	(%r9,%r8,2), %r9
	notq	%r9
	andq	%rsi, %r9
	orq	%rcx, %r9
	xorq	%rdx, %rdi
	andq	%r9, %rdi
	movq	%rdi, %rcx
	shrq	%rcx
	andq	%r10, %rcx
	movq	%rdi, %rsi
	subq	%rcx, %rsi
	movq	%rsi, %rcx
	movabsq	$3689348814741910323, %r9
	andq	%r9, %rcx
	shrq	$2, %rsi
	andq	%r9, %rsi
	addq	%rcx, %rsi
	movq	%rsi, %rcx
	shrq	$4, %rcx
	addq	%rsi, %rcx
	andq	%r15, %rcx
	imulq	%r11, %rcx
	shrq	$56, %rcx
	movl	$64, %esi
	movl	$64, %r9d
	rep		bsfq	%rdi, %r9
	addl	%eax, %r9d
	movq	24(%rsp), %r11
	movl	%r9d, (%r11,%rbx,4)
	leaq	-1(%rdi), %r9
	andq	%rdi, %r9
	movl	$64, %edi
	rep		bsfq	%r9, %rdi
	addl	%eax, %edi
	movl	%edi, 4(%r11,%rbx,4)
	leaq	-1(%r9), %r10
	andq	%r9, %r10
	movl	$64, %edi
	rep		bsfq	%r10, %rdi
	addl	%eax, %edi
	movl	%edi, 8(%r11,%rbx,4)
	leaq	-1(%r10), %rdi
	andq	%r10, %rdi
	rep		bsfq	%rdi, %rsi
	addl	%eax, %esi
	movl	%esi, 12(%r11,%rbx,4)
	cmpq	$5, %rcx
	jb	.LBB65_12
	leaq	-1(%rdi), %r10
	andq	%rdi, %r10
	movq	24(%rsp), %rsi
	leaq	(%rsi,%rbx,4), %rsi
	movl	$4, %edi
	.p2align	4
.LBB65_11:
	movl	$64, %r9d
	movl	$64, %r11d
	rep		bsfq	%r10, %r11
	addl	%eax, %r11d
	movl	%r11d, (%rsi,%rdi,4)
	leaq	-1(%r10), %r11
	andq	%r10, %r11
	movl	$64, %r10d
	rep		bsfq	%r11, %r10
	addl	%eax, %r10d
	movl	%r10d, 4(%rsi,%rdi,4)
	leaq	-1(%r11), %r10
	andq	%r11, %r10
	movl	$64, %r11d
	rep		bsfq	%r10, %r11
	addl	%eax, %r11d
	movl	%r11d, 8(%rsi,%rdi,4)
	leaq	-1(%r10), %r11
	andq	%r10, %r11
	rep		bsfq	%r11, %r9
	addl	%eax, %r9d
	movl	%r9d, 12(%rsi,%rdi,4)
	leaq	-1(%r11), %r10
	andq	%r11, %r10
	addq	$4, %rdi
	cmpq	%rcx, %rdi
	jb	.LBB65_11
	jmp	.LBB65_12
	.p2align	4
.LBB65_5:
	movq	%rax, %r15
	jmp	.LBB65_15
	.p2align	4
.LBB65_13:
	cmpq	$4096, %r15
	jne	.LBB65_14
	leaq	4096(%r8), %r14
	movb	$0, 20(%rsp)
	movl	$0, 16(%rsp)
	testq	%rbx, %rbx
	je	.LBB65_26
	jmp	.LBB65_27
	.p2align	4
.LBB65_14:
	leaq	(%r15,%r8), %r14
	movabsq	$72340172838076673, %r11
.LBB65_15:
	movdqa	.LCPI65_0(%rip), %xmm14
	movdqa	%xmm14, 112(%rsp)
	movdqa	%xmm14, 96(%rsp)
	movdqa	%xmm14, 80(%rsp)
	movdqa	%xmm14, 64(%rsp)
	movq	32(%rsp), %rdx
	subq	%r14, %rdx
	jne	.LBB65_17
	movdqa	%xmm14, %xmm2
	movdqa	%xmm14, %xmm3
	movdqa	%xmm14, %xmm1
	movdqa	%xmm14, %xmm0
	jmp	.LBB65_18
	.p2align	4
.LBB65_17:
	movq	40(%rsp), %rax
	leaq	(%rax,%r14), %rsi
	leaq	64(%rsp), %rdi
	callq	memcpy@PLT
	movdqa	.LCPI65_0(%rip), %xmm14
	movabsq	$72340172838076673, %r11
	movabsq	$6148914691236517205, %r10
	movq	48(%rsp), %r8
	movdqa	64(%rsp), %xmm2
	movdqa	80(%rsp), %xmm3
	movdqa	96(%rsp), %xmm1
	movdqa	112(%rsp), %xmm0
.LBB65_18:
	movdqa	%xmm0, %xmm4
	por	%xmm14, %xmm4
	movdqa	%xmm1, %xmm5
	por	%xmm14, %xmm5
	movdqa	%xmm3, %xmm6
	por	%xmm14, %xmm6
	movdqa	%xmm2, %xmm7
	por	%xmm14, %xmm7
	movdqa	.LCPI65_1(%rip), %xmm8
	movdqa	%xmm7, %xmm9
	pcmpeqb	%xmm8, %xmm9
	movdqa	%xmm6, %xmm10
	pcmpeqb	%xmm8, %xmm10
	movdqa	%xmm5, %xmm11
	pcmpeqb	%xmm8, %xmm11
	pcmpeqb	%xmm4, %xmm8
	movdqa	.LCPI65_2(%rip), %xmm12
	pcmpeqb	%xmm12, %xmm7
	por	%xmm9, %xmm7
	pcmpeqb	%xmm12, %xmm6
	por	%xmm10, %xmm6
	pcmpeqb	%xmm12, %xmm5
	por	%xmm11, %xmm5
	pcmpeqb	%xmm12, %xmm4
	por	%xmm8, %xmm4
	movdqa	.LCPI65_3(%rip), %xmm9
	movdqa	%xmm0, %xmm10
	pcmpeqb	%xmm9, %xmm10
	movdqa	%xmm1, %xmm11
	pcmpeqb	%xmm9, %xmm11
	movdqa	%xmm3, %xmm12
	pcmpeqb	%xmm9, %xmm12
	pcmpeqb	%xmm2, %xmm9
	movdqa	.LCPI65_4(%rip), %xmm8
	movdqa	%xmm2, %xmm13
	pcmpeqb	%xmm8, %xmm13
	por	%xmm9, %xmm13
	por	%xmm7, %xmm13
	movdqa	%xmm3, %xmm7
	pcmpeqb	%xmm8, %xmm7
	por	%xmm12, %xmm7
	por	%xmm6, %xmm7
	movdqa	%xmm1, %xmm6
	pcmpeqb	%xmm8, %xmm6
	por	%xmm11, %xmm6
	por	%xmm5, %xmm6
	pcmpeqb	%xmm0, %xmm8
	por	%xmm10, %xmm8
	por	%xmm4, %xmm8
	pmovmskb	%xmm13, %eax
	pmovmskb	%xmm7, %ecx
	shll	$16, %ecx
	orl	%eax, %ecx
	pmovmskb	%xmm6, %edx
	shlq	$32, %rdx
	orq	%rcx, %rdx
	pmovmskb	%xmm8, %eax
	shlq	$48, %rax
	orq	%rdx, %rax
	movdqa	%xmm0, %xmm5
	pcmpeqb	%xmm14, %xmm5
	movdqa	%xmm1, %xmm7
	pcmpeqb	%xmm14, %xmm7
	movdqa	%xmm3, %xmm8
	pcmpeqb	%xmm14, %xmm8
	pcmpeqb	%xmm2, %xmm14
	movdqa	.LCPI65_5(%rip), %xmm9
	movdqa	%xmm0, %xmm4
	pcmpeqb	%xmm9, %xmm4
	por	%xmm5, %xmm4
	movdqa	%xmm1, %xmm6
	pcmpeqb	%xmm9, %xmm6
	por	%xmm7, %xmm6
	movdqa	%xmm3, %xmm7
	pcmpeqb	%xmm9, %xmm7
	por	%xmm8, %xmm7
	pcmpeqb	%xmm2, %xmm9
	por	%xmm14, %xmm9
	movdqa	.LCPI65_6(%rip), %xmm8
	movdqa	%xmm0, %xmm5
	pand	%xmm8, %xmm5
	movdqa	%xmm1, %xmm10
	pand	%xmm8, %xmm10
	movdqa	%xmm3, %xmm11
	pand	%xmm8, %xmm11
	pand	%xmm2, %xmm8
	movdqa	.LCPI65_7(%rip), %xmm12
	pcmpeqb	%xmm12, %xmm8
	por	%xmm9, %xmm8
	pcmpeqb	%xmm12, %xmm11
	por	%xmm7, %xmm11
	pcmpeqb	%xmm12, %xmm10
	por	%xmm6, %xmm10
	pcmpeqb	%xmm12, %xmm5
	por	%xmm4, %xmm5
	pmovmskb	%xmm8, %ecx
	pmovmskb	%xmm11, %edx
	shll	$16, %edx
	orl	%ecx, %edx
	pmovmskb	%xmm10, %ecx
	shlq	$32, %rcx
	orq	%rdx, %rcx
	pmovmskb	%xmm5, %esi
	shlq	$48, %rsi
	orq	%rcx, %rsi
	orq	%rax, %rsi
	notq	%rsi
	movdqa	.LCPI65_8(%rip), %xmm4
	movdqa	%xmm0, %xmm5
	pcmpeqb	%xmm4, %xmm5
	movdqa	%xmm1, %xmm6
	pcmpeqb	%xmm4, %xmm6
	movdqa	%xmm3, %xmm7
	pcmpeqb	%xmm4, %xmm7
	pcmpeqb	%xmm2, %xmm4
	pmovmskb	%xmm4, %ecx
	pmovmskb	%xmm7, %edx
	shll	$16, %edx
	orl	%ecx, %edx
	pmovmskb	%xmm6, %edi
	shlq	$32, %rdi
	orq	%rdx, %rdi
	pmovmskb	%xmm5, %ecx
	shlq	$48, %rcx
	movl	12(%rsp), %edx
	andb	$1, %dl
	orq	%rdi, %rcx
	movzbl	%dl, %edi
	je	.LBB65_19
	movq	%rdi, %rdx
	notq	%rdx
	andq	%rcx, %rdx
	leaq	(%rdi,%rdx,2), %r9
	movabsq	$-6148914691236517206, %rdi
	andq	%rdi, %rcx
	movq	%r9, %rdi
	notq	%rdi
	andq	%rcx, %rdi
	addq	%rdx, %rdi
	setb	%cl
	movl	%ecx, 12(%rsp)
	addq	%rdi, %rdi
	xorq	%r10, %rdi
	andq	%r9, %rdi
	jmp	.LBB65_21
	.p2align	4
.LBB65_19:
	movl	$0, 12(%rsp)
.LBB65_21:
	movdqa	.LCPI65_9(%rip), %xmm4
	pcmpeqb	%xmm4, %xmm0
	pcmpeqb	%xmm4, %xmm1
	pcmpeqb	%xmm4, %xmm3
	pcmpeqb	%xmm4, %xmm2
	pmovmskb	%xmm2, %ecx
	pmovmskb	%xmm3, %edx
	shll	$16, %edx
	orl	%ecx, %edx
	pmovmskb	%xmm1, %ecx
	shlq	$32, %rcx
	orq	%rdx, %rcx
	pmovmskb	%xmm0, %edx
	shlq	$48, %rdx
	orq	%rcx, %rdx
	notq	%rdi
	andq	%rdx, %rdi
	leaq	(%rdi,%rdi), %rcx
	xorq	%rdi, %rcx
	leaq	(,%rcx,4), %rdx
	xorq	%rcx, %rdx
	movq	%rdx, %rcx
	shlq	$4, %rcx
	xorq	%rdx, %rcx
	movq	%rcx, %rdx
	shlq	$8, %rdx
	xorq	%rcx, %rdx
	movq	%rdx, %rcx
	shlq	$16, %rcx
	xorq	%rdx, %rcx
	andb	$1, %r13b
	movzbl	%r13b, %edx
	negq	%rdx
	xorq	%rcx, %rdx
	shlq	$32, %rcx
	xorq	%rdx, %rcx
	notq	%rdi
	movq	%rdi, %rdx
	andq	%rsi, %rdx
	andb	$1, %r12b
	movzbl	%r12b, %r9d
	leaq	(%r9,%rdx,2), %r9
	notq	%r9
	andq	%rsi, %r9
	orq	%rax, %r9
	xorq	%rcx, %rdi
	andq	%r9, %rdi
	movq	%rdi, %rax
	shrq	%rax
	andq	%r10, %rax
	movq	%rdi, %rsi
	subq	%rax, %rsi
	movq	%rsi, %rax
	movabsq	$3689348814741910323, %r9
	andq	%r9, %rax
	shrq	$2, %rsi
	andq	%r9, %rsi
	addq	%rax, %rsi
	movq	%rsi, %rax
	shrq	$4, %rax
	addq	%rsi, %rax
	movabsq	$1085102592571150095, %rsi
	andq	%rsi, %rax
	imulq	%r11, %rax
	shrq	$56, %rax
	movl	$64, %esi
	movl	$64, %r9d
	rep		bsfq	%rdi, %r9
	addl	%r15d, %r9d
	movq	24(%rsp), %r11
	movl	%r9d, (%r11,%rbx,4)
	leaq	-1(%rdi), %r10
	andq	%rdi, %r10
	movl	$64, %edi
	rep		bsfq	%r10, %rdi
	addl	%r15d, %edi
	movl	%edi, 4(%r11,%rbx,4)
	leaq	-1(%r10), %r9
	andq	%r10, %r9
	movl	$64, %edi
	rep		bsfq	%r9, %rdi
	addl	%r15d, %edi
	movl	%edi, 8(%r11,%rbx,4)
	leaq	-1(%r9), %rdi
	andq	%r9, %rdi
	rep		bsfq	%rdi, %rsi
	addl	%r15d, %esi
	movl	%esi, 12(%r11,%rbx,4)
	cmpq	$5, %rax
	jb	.LBB65_24
	leaq	-1(%rdi), %r9
	andq	%rdi, %r9
	movq	24(%rsp), %rsi
	leaq	(%rsi,%rbx,4), %rsi
	movl	$4, %edi
	.p2align	4
.LBB65_23:
	movl	$64, %r11d
	movl	$64, %r10d
	rep		bsfq	%r9, %r10
	addl	%r15d, %r10d
	movl	%r10d, (%rsi,%rdi,4)
	leaq	-1(%r9), %r10
	andq	%r9, %r10
	movl	$64, %r9d
	rep		bsfq	%r10, %r9
	addl	%r15d, %r9d
	movl	%r9d, 4(%rsi,%rdi,4)
	leaq	-1(%r10), %r9
	andq	%r10, %r9
	movl	$64, %r10d
	rep		bsfq	%r9, %r10
	addl	%r15d, %r10d
	movl	%r10d, 8(%rsi,%rdi,4)
	leaq	-1(%r9), %r10
	andq	%r9, %r10
	rep		bsfq	%r10, %r11
	addl	%r15d, %r11d
	movl	%r11d, 12(%rsi,%rdi,4)
	leaq	-1(%r10), %r9
	andq	%r10, %r9
	addq	$4, %rdi
	cmpq	%rax, %rdi
	jb	.LBB65_23
.LBB65_24:
	shrq	$63, %rcx
	shrq	$63, %rdx
	addq	%rax, %rbx
	addq	$64, %r14
	movb	$0, 20(%rsp)
	movl	$0, 16(%rsp)
	movl	%ecx, %r13d
	movl	%edx, %r12d
	movabsq	$6148914691236517205, %r10
	testq	%rbx, %rbx
	jne	.LBB65_27
.LBB65_26:
	cmpq	32(%rsp), %r14
	jb	.LBB65_3
	jmp	.LBB65_27
.LBB65_1:
	xorl	%ebx, %ebx
	movq	%r8, %r14
.LBB65_27:
	movq	56(%rsp), %rcx
	movq	%r8, (%rcx)
	movq	%rbx, 8(%rcx)
	movq	%r14, 16(%rcx)
	movl	12(%rsp), %eax
	movb	%al, 24(%rcx)
	movb	%r13b, 25(%rcx)
	movb	%r12b, 26(%rcx)
	movl	16(%rsp), %eax
	movl	%eax, 27(%rcx)
	movzbl	20(%rsp), %eax
	movb	%al, 31(%rcx)
	leaq	-40(%rbp), %rsp
	popq	%rbx
	popq	%r12
	popq	%r13
	popq	%r14
	popq	%r15
	popq	%rbp
	retq
.Lfunc_end65:
	.size	"json::index::refill", .Lfunc_end65-"json::index::refill"

	.section	.rodata.cst16,"aM",@progbits,16
	.p2align	4, 0x0
.LCPI66_0:
	.zero	16,34
.LCPI66_1:
	.zero	16,92
.LCPI66_2:
	.zero	16,31
.LCPI66_3:
	.zero	16,198
.LCPI66_4:
	.zero	16,245
	.section	".text.amqp_json::reading::walk::put_value","ax",@progbits
	.p2align	4
	.type	"amqp_json::reading::walk::put_value",@function
"amqp_json::reading::walk::put_value":
	pushq	%rbp
	pushq	%r15
	pushq	%r14
	pushq	%r13
	pushq	%r12
	pushq	%rbx
	subq	$200, %rsp
	movq	%rcx, 168(%rsp)
	movq	%rdx, 104(%rsp)
	movq	%rsi, %r15
	movq	%rdi, %rbx
	pxor	%xmm0, %xmm0
	movdqa	%xmm0, 48(%rsp)
	movdqa	%xmm0, 32(%rsp)
	movq	80(%rsi), %r13
	movzbl	104(%rsi), %edx
	movq	8(%rsi), %r12
	movq	%r12, %rax
	subq	%r13, %rax
	jbe	.LBB66_8
	movq	(%r15), %rbp
	movzbl	(%rbp,%r13), %r14d
	movl	%r14d, %ecx
	andb	$-33, %cl
	cmpb	$93, %cl
	jne	.LBB66_6
	leal	-1(%rdx), %eax
	cmpb	$1, %al
	ja	.LBB66_15
	movdqa	%xmm0, (%rsp)
	movdqa	%xmm0, 16(%rsp)
	movq	40(%r15), %rax
	leaq	1(%rax), %rcx
	movq	%rcx, 40(%r15)
	leaq	48(%r15), %r12
	cmpq	56(%r15), %rcx
	jne	.LBB66_10
	movq	16(%r15), %rsi
	movq	24(%r15), %rdx
	movq	32(%r15), %rcx
	movq	64(%r15), %r8
	movzbl	74(%r15), %eax
	movb	%al, 66(%rsp)
	movzwl	72(%r15), %eax
	movw	%ax, 64(%rsp)
	movq	%rsp, %rdi
	leaq	64(%rsp), %r9
	callq	"json::index::refill"
	movdqa	(%rsp), %xmm0
	movdqa	16(%rsp), %xmm1
	movdqu	%xmm1, 16(%r12)
	movdqu	%xmm0, (%r12)
	movq	$0, 40(%r15)
	movq	32(%r15), %rcx
	movl	$1, %eax
	cmpq	$0, 8(%rsp)
	je	.LBB66_18
	movl	(%rcx), %edx
	addq	(%rsp), %rdx
	movq	%rdx, 80(%r15)
	movb	$2, %sil
	cmpq	8(%r15), %rdx
	jb	.LBB66_19
	jmp	.LBB66_26
.LBB66_6:
	cmpl	$32, %r14d
	ja	.LBB66_11
	movl	%r14d, %ecx
	movabsq	$4294977024, %rsi
	btq	%rcx, %rsi
	jae	.LBB66_11
.LBB66_8:
	xorl	%eax, %eax
	movl	%edx, %esi
	subb	$3, %sil
	setne	%al
	leal	-4(%rdx), %edi
	xorl	%ecx, %ecx
	cmpb	$-2, %sil
	leal	(%rax,%rax,8), %eax
	cmovael	%ecx, %eax
	movzbl	%dl, %edx
	movl	$3, %esi
	cmovael	%edx, %esi
	movb	%sil, 104(%r15)
	cmpb	$-3, %dil
	jae	.LBB66_16
	movzbl	%al, %eax
	leaq	.LJTI66_1(%rip), %rdx
	movslq	(%rdx,%rax,4), %rax
	addq	%rdx, %rax
	xorl	%r8d, %r8d
	xorl	%r12d, %r12d
	jmpq	*%rax
.LBB66_10:
	movq	32(%r15), %rcx
	movl	4(%rcx,%rax,4), %edx
	addq	48(%r15), %rdx
	addq	$2, %rax
	movq	%rdx, 80(%r15)
	movb	$2, %sil
	cmpq	8(%r15), %rdx
	jb	.LBB66_19
	jmp	.LBB66_26
.LBB66_11:
	cmpb	$2, %dl
	jae	.LBB66_15
	movq	%rbp, %r10
	addq	%r13, %r10
	movb	$3, %r11b
	movb	$9, %r9b
	leal	-34(%r14), %ecx
	cmpl	$89, %ecx
	ja	.LBB66_47
	leaq	.LJTI66_0(%rip), %rdx
	movslq	(%rdx,%rcx,4), %rcx
	addq	%rdx, %rcx
	jmpq	*%rcx
.LBB66_14:
	xorl	%ecx, %ecx
	xorl	%r8d, %r8d
	xorl	%r12d, %r12d
	jmp	.LBB66_155
.LBB66_15:
	movb	$3, 104(%r15)
	cmpb	$3, %dl
	jne	.LBB66_27
.LBB66_16:
	movb	$1, (%rbx)
	movq	$2, 8(%rbx)
	movq	$0, 16(%rbx)
.LBB66_17:
	movb	$0, 24(%rbx)
	jmp	.LBB66_201
.LBB66_18:
	movq	24(%r15), %rdx
	movq	%rdx, 80(%r15)
	movb	$2, %sil
	cmpq	8(%r15), %rdx
	jae	.LBB66_26
.LBB66_19:
	movq	(%r15), %rdi
	cmpb	$44, (%rdi,%rdx)
	jne	.LBB66_26
	pxor	%xmm0, %xmm0
	movdqa	%xmm0, (%rsp)
	movdqa	%xmm0, 16(%rsp)
	movq	%rax, 40(%r15)
	cmpq	56(%r15), %rax
	jne	.LBB66_23
	movq	16(%r15), %rsi
	movq	24(%r15), %rdx
	movq	64(%r15), %r8
	movzbl	74(%r15), %eax
	movb	%al, 66(%rsp)
	movzwl	72(%r15), %eax
	movw	%ax, 64(%rsp)
	movq	%rsp, %rdi
	leaq	64(%rsp), %r9
	callq	"json::index::refill"
	movdqa	(%rsp), %xmm0
	movdqa	16(%rsp), %xmm1
	movdqu	%xmm1, 16(%r12)
	movdqu	%xmm0, (%r12)
	movq	$0, 40(%r15)
	cmpq	$0, 8(%rsp)
	je	.LBB66_24
	movq	32(%r15), %rax
	movl	(%rax), %eax
	addq	(%rsp), %rax
	jmp	.LBB66_25
.LBB66_23:
	movl	(%rcx,%rax,4), %eax
	addq	(%r12), %rax
	jmp	.LBB66_25
.LBB66_24:
	movq	24(%r15), %rax
.LBB66_25:
	movq	%rax, 80(%r15)
	xorl	%esi, %esi
.LBB66_26:
	cmpl	$125, %r14d
	setne	%al
	addb	%al, %al
	incb	%al
	xorl	%ecx, %ecx
	movb	%sil, 104(%r15)
	movzbl	%al, %eax
	leaq	.LJTI66_1(%rip), %rdx
	movslq	(%rdx,%rax,4), %rax
	addq	%rdx, %rax
	xorl	%r8d, %r8d
	xorl	%r12d, %r12d
	jmpq	*%rax
.LBB66_27:
	movb	$1, 32(%rsp)
	movq	$2, 40(%rsp)
.LBB66_28:
	movq	$0, 48(%rsp)
	jmp	.LBB66_199
.LBB66_29:
	movb	$32, %dl
	cmpq	$5, %rax
	jae	.LBB66_55
	xorl	%ecx, %ecx
	jmp	.LBB66_57
.LBB66_31:
	movb	$32, %cl
	cmpq	$4, %rax
	jae	.LBB66_59
	xorl	%edx, %edx
	jmp	.LBB66_61
.LBB66_33:
	movb	$32, %cl
	cmpq	$4, %rax
	jae	.LBB66_64
	xorl	%edx, %edx
	jmp	.LBB66_66
.LBB66_35:
	leaq	1(%r13), %r14
	movq	%r12, %rax
	subq	%r14, %rax
	movq	%r14, %rdx
	cmpq	$32, %rax
	jb	.LBB66_40
	movq	%r13, %rdx
	notq	%rdx
	leaq	(%r14,%rbp), %rax
.LBB66_37:
	movdqu	(%rax), %xmm0
	movdqu	16(%rax), %xmm1
	movdqa	.LCPI66_0(%rip), %xmm2
	movdqa	%xmm1, %xmm3
	movdqa	.LCPI66_2(%rip), %xmm4
	movdqa	%xmm0, %xmm5
	pminub	%xmm4, %xmm5
	pminub	%xmm1, %xmm4
	pcmpeqb	%xmm1, %xmm4
	pcmpeqb	%xmm2, %xmm1
	movdqa	.LCPI66_1(%rip), %xmm6
	pcmpeqb	%xmm6, %xmm3
	por	%xmm1, %xmm3
	pcmpeqb	%xmm0, %xmm2
	pcmpeqb	%xmm0, %xmm6
	por	%xmm2, %xmm6
	pcmpeqb	%xmm0, %xmm5
	por	%xmm6, %xmm5
	por	%xmm3, %xmm4
	pmovmskb	%xmm5, %esi
	pmovmskb	%xmm4, %ecx
	shll	$16, %ecx
	orl	%esi, %ecx
	jne	.LBB66_72
	addq	$32, %rax
	leaq	(%r12,%rdx), %rcx
	addq	$-32, %rcx
	addq	$-32, %rdx
	cmpq	$31, %rcx
	ja	.LBB66_37
	negq	%rdx
.LBB66_40:
	movq	%rbp, %rdi
	movq	%r12, %rsi
	callq	"json::run::plain_end_16"
	movq	%rax, %r8
	jmp	.LBB66_73
.LBB66_41:
	movdqa	%xmm0, (%rsp)
	movdqa	%xmm0, 16(%rsp)
	movq	40(%r15), %rax
	leaq	1(%rax), %rcx
	movq	%rcx, 40(%r15)
	cmpq	56(%r15), %rcx
	jne	.LBB66_70
	leaq	48(%r15), %r14
	movq	16(%r15), %rsi
	movq	24(%r15), %rdx
	movq	32(%r15), %rcx
	movq	64(%r15), %r8
	movzbl	74(%r15), %eax
	movb	%al, 66(%rsp)
	movzwl	72(%r15), %eax
	movw	%ax, 64(%rsp)
	movq	%rsp, %rdi
	leaq	64(%rsp), %r9
	callq	"json::index::refill"
	movdqa	(%rsp), %xmm0
	movdqa	16(%rsp), %xmm1
	movdqu	%xmm1, 16(%r14)
	movdqu	%xmm0, (%r14)
	movq	$0, 40(%r15)
	cmpq	$0, 8(%rsp)
	je	.LBB66_94
	movq	32(%r15), %rax
	movl	(%rax), %eax
	addq	(%rsp), %rax
	jmp	.LBB66_95
.LBB66_44:
	movdqa	%xmm0, (%rsp)
	movdqa	%xmm0, 16(%rsp)
	movq	40(%r15), %rax
	leaq	1(%rax), %rcx
	movq	%rcx, 40(%r15)
	cmpq	56(%r15), %rcx
	jne	.LBB66_71
	leaq	48(%r15), %r14
	movq	16(%r15), %rsi
	movq	24(%r15), %rdx
	movq	32(%r15), %rcx
	movq	64(%r15), %r8
	movzbl	74(%r15), %eax
	movb	%al, 66(%rsp)
	movzwl	72(%r15), %eax
	movw	%ax, 64(%rsp)
	movq	%rsp, %rdi
	leaq	64(%rsp), %r9
	callq	"json::index::refill"
	movdqa	(%rsp), %xmm0
	movdqa	16(%rsp), %xmm1
	movdqu	%xmm1, 16(%r14)
	movdqu	%xmm0, (%r14)
	movq	$0, 40(%r15)
	cmpq	$0, 8(%rsp)
	je	.LBB66_96
	movq	32(%r15), %rax
	movl	(%rax), %eax
	addq	(%rsp), %rax
	jmp	.LBB66_97
.LBB66_47:
	xorl	%ecx, %ecx
	cmpl	$45, %r14d
	sete	%cl
	leaq	(%rcx,%r13), %r14
	movq	%r12, %rsi
	subq	%r14, %rsi
	jbe	.LBB66_50
	cmpb	$48, (%rbp,%r14)
	jne	.LBB66_50
	incq	%r14
	movq	%r14, %rax
	jmp	.LBB66_85
.LBB66_50:
	movq	%r14, %rdx
	cmpq	$16, %rsi
	jb	.LBB66_54
	subq	%rcx, %rax
	movq	%r14, %rdx
.LBB66_52:
	movdqu	(%rbp,%rdx), %xmm0
	paddb	.LCPI66_3(%rip), %xmm0
	movdqa	.LCPI66_4(%rip), %xmm1
	pminub	%xmm0, %xmm1
	pcmpeqb	%xmm0, %xmm1
	pmovmskb	%xmm1, %ecx
	testl	%ecx, %ecx
	jne	.LBB66_83
	addq	$16, %rdx
	addq	$-16, %rax
	cmpq	$15, %rax
	ja	.LBB66_52
.LBB66_54:
	movq	%rbp, %rdi
	movq	%r12, %rsi
	callq	"json::run::digits_end_slowly"
	movq	%rbp, %r10
	addq	%r13, %r10
	movb	$9, %r9b
	movb	$3, %r11b
	jmp	.LBB66_84
.LBB66_55:
	cmpl	$1702063201, 1(%r10)
	sete	%cl
	cmpq	$5, %rax
	je	.LBB66_57
	movzbl	5(%r10), %edx
.LBB66_57:
	movl	%edx, %eax
	andb	$-33, %al
	addb	$-91, %al
	testb	$-3, %al
	sete	%dil
	cmpb	$58, %dl
	sete	%r9b
	cmpb	$44, %dl
	sete	%al
	cmpb	$32, %dl
	sete	%sil
	leal	-9(%rdx), %r8d
	cmpb	$2, %r8b
	setb	%r10b
	cmpb	$13, %dl
	sete	%dl
	xorl	%r8d, %r8d
	xorl	%r12d, %r12d
	testb	%cl, %cl
	je	.LBB66_69
	orb	%r9b, %al
	orb	%dil, %al
	orb	%dl, %sil
	orb	%r10b, %sil
	orb	%al, %sil
	movb	$7, %dil
	jmp	.LBB66_63
.LBB66_59:
	movzbl	3(%r10), %edx
	xorb	$108, %dl
	movzbl	1(%r10), %esi
	movzbl	2(%r10), %edi
	xorb	$108, %dil
	orb	%dl, %dil
	xorb	$117, %sil
	orb	%dil, %sil
	sete	%dl
	cmpq	$4, %rax
	je	.LBB66_61
	movzbl	4(%r10), %ecx
.LBB66_61:
	movl	%ecx, %eax
	andb	$-33, %al
	addb	$-91, %al
	testb	$-3, %al
	sete	%dil
	cmpb	$58, %cl
	sete	%r9b
	cmpb	$44, %cl
	sete	%al
	cmpb	$32, %cl
	sete	%sil
	leal	-9(%rcx), %r8d
	cmpb	$2, %r8b
	setb	%r10b
	cmpb	$13, %cl
	sete	%cl
	xorl	%r8d, %r8d
	xorl	%r12d, %r12d
	testb	%dl, %dl
	je	.LBB66_69
	orb	%r9b, %al
	orb	%dil, %al
	orb	%cl, %sil
	orb	%r10b, %sil
	orb	%al, %sil
	movb	$8, %dil
.LBB66_63:
	movl	$0, %r10d
	movl	$0, %ecx
	movb	$9, %r9b
	jne	.LBB66_139
	jmp	.LBB66_155
.LBB66_64:
	movzbl	3(%r10), %edx
	xorb	$101, %dl
	movzbl	1(%r10), %esi
	movzbl	2(%r10), %edi
	xorb	$117, %dil
	orb	%dl, %dil
	xorb	$114, %sil
	orb	%dil, %sil
	sete	%dl
	cmpq	$4, %rax
	je	.LBB66_66
	movzbl	4(%r10), %ecx
.LBB66_66:
	movl	%ecx, %eax
	andb	$-33, %al
	addb	$-91, %al
	testb	$-3, %al
	sete	%dil
	cmpb	$58, %cl
	sete	%r9b
	cmpb	$44, %cl
	sete	%al
	cmpb	$32, %cl
	sete	%sil
	leal	-9(%rcx), %r8d
	cmpb	$2, %r8b
	setb	%r10b
	cmpb	$13, %cl
	sete	%cl
	xorl	%r8d, %r8d
	xorl	%r12d, %r12d
	testb	%dl, %dl
	je	.LBB66_69
	orb	%r9b, %al
	orb	%dil, %al
	orb	%cl, %sil
	orb	%r10b, %sil
	orb	%al, %sil
	je	.LBB66_69
	movb	$7, %dil
	movb	$1, %r12b
	xorl	%r10d, %r10d
	jmp	.LBB66_139
.LBB66_69:
	xorl	%ecx, %ecx
	movb	$9, %r9b
	jmp	.LBB66_155
.LBB66_70:
	movq	32(%r15), %rcx
	movl	4(%rcx,%rax,4), %eax
	addq	48(%r15), %rax
	jmp	.LBB66_95
.LBB66_71:
	movq	32(%r15), %rcx
	movl	4(%rcx,%rax,4), %eax
	addq	48(%r15), %rax
	jmp	.LBB66_97
.LBB66_72:
	rep		bsfl	%ecx, %r8d
	subq	%rdx, %r8
.LBB66_73:
	cmpq	%r12, %r8
	jae	.LBB66_78
	cmpb	$34, (%rbp,%r8)
	jne	.LBB66_78
	pxor	%xmm0, %xmm0
	movdqa	%xmm0, (%rsp)
	movdqa	%xmm0, 16(%rsp)
	movq	40(%r15), %rcx
	leaq	1(%rcx), %rdx
	movq	%rdx, 40(%r15)
	cmpq	56(%r15), %rdx
	jne	.LBB66_98
	movq	%r8, %r14
	leaq	48(%r15), %r12
	movq	16(%r15), %rsi
	movq	24(%r15), %rdx
	movq	32(%r15), %rcx
	movq	64(%r15), %r8
	movzbl	74(%r15), %eax
	movb	%al, 66(%rsp)
	movzwl	72(%r15), %eax
	movw	%ax, 64(%rsp)
	movq	%rsp, %rdi
	leaq	64(%rsp), %r9
	callq	"json::index::refill"
	movdqa	(%rsp), %xmm0
	movdqa	16(%rsp), %xmm1
	movdqu	%xmm1, 16(%r12)
	movdqu	%xmm0, (%r12)
	movq	$0, 40(%r15)
	movq	32(%r15), %rax
	cmpq	$0, 8(%rsp)
	je	.LBB66_101
	movl	(%rax), %esi
	addq	(%rsp), %rsi
	jmp	.LBB66_102
.LBB66_78:
	movq	88(%r15), %rcx
	movq	96(%r15), %rdx
	leaq	127(%rsp), %rax
	movq	%rax, 88(%r15)
	movq	$0, 96(%r15)
	movq	%rbp, %rdi
	movq	%r12, %rsi
	movq	%rdx, %r12
	movq	%r14, %rdx
	movq	%rcx, %r14
	movq	%r12, %r8
	callq	"json::unescape::unescape"
	cmpb	$1, %al
	jne	.LBB66_82
	movq	%rdx, %r8
	leaq	(%r14,%rdx), %rax
	subq	%rdx, %r12
	movq	%rax, 88(%r15)
	movq	%r12, 96(%r15)
	pxor	%xmm0, %xmm0
	movdqa	%xmm0, (%rsp)
	movdqa	%xmm0, 16(%rsp)
	movq	40(%r15), %rsi
	leaq	1(%rsi), %rdx
	movq	%rdx, 40(%r15)
	cmpq	56(%r15), %rdx
	jne	.LBB66_93
	movq	%r8, %r12
	leaq	48(%r15), %rbp
	movq	16(%r15), %rsi
	movq	24(%r15), %rdx
	movq	32(%r15), %rcx
	movq	64(%r15), %r8
	movzbl	74(%r15), %eax
	movb	%al, 66(%rsp)
	movzwl	72(%r15), %eax
	movw	%ax, 64(%rsp)
	movq	%rsp, %rdi
	leaq	64(%rsp), %r9
	callq	"json::index::refill"
	movdqa	(%rsp), %xmm0
	movdqa	16(%rsp), %xmm1
	movdqu	%xmm1, 16(%rbp)
	movdqu	%xmm0, (%rbp)
	movq	$0, 40(%r15)
	movq	32(%r15), %rax
	cmpq	$0, 8(%rsp)
	je	.LBB66_99
	movl	(%rax), %esi
	addq	(%rsp), %rsi
	jmp	.LBB66_100
.LBB66_82:
	movq	%r14, 88(%r15)
	movq	%r12, 96(%r15)
	movb	$3, %al
	movb	$9, %dl
	xorl	%ecx, %ecx
	movb	%al, 104(%r15)
	movzbl	%dl, %eax
	leaq	.LJTI66_1(%rip), %rdx
	movslq	(%rdx,%rax,4), %rax
	addq	%rdx, %rax
	xorl	%r8d, %r8d
	xorl	%r12d, %r12d
	jmpq	*%rax
.LBB66_83:
	rep		bsfl	%ecx, %eax
	addq	%rdx, %rax
.LBB66_84:
	cmpq	%r14, %rax
	je	.LBB66_14
.LBB66_85:
	cmpq	%r12, %rax
	jae	.LBB66_119
	cmpb	$46, (%rbp,%rax)
	jne	.LBB66_119
	leaq	1(%rax), %r14
	movq	%r12, %rcx
	subq	%r14, %rcx
	movq	%r14, %rdx
	cmpq	$16, %rcx
	jb	.LBB66_92
	notq	%rax
	leaq	(%r14,%rbp), %rcx
.LBB66_89:
	movdqu	(%rcx), %xmm0
	paddb	.LCPI66_3(%rip), %xmm0
	movdqa	.LCPI66_4(%rip), %xmm1
	pminub	%xmm0, %xmm1
	pcmpeqb	%xmm0, %xmm1
	pmovmskb	%xmm1, %edx
	testl	%edx, %edx
	jne	.LBB66_117
	addq	$16, %rcx
	leaq	(%r12,%rax), %rdx
	addq	$-16, %rdx
	addq	$-16, %rax
	cmpq	$15, %rdx
	ja	.LBB66_89
	negq	%rax
	movq	%rax, %rdx
.LBB66_92:
	movq	%rbp, %rdi
	movq	%r12, %rsi
	callq	"json::run::digits_end_slowly"
	jmp	.LBB66_118
.LBB66_93:
	movq	%r14, %rcx
	movq	32(%r15), %rax
	movl	4(%rax,%rsi,4), %esi
	addq	48(%r15), %rsi
	movq	%rsi, 80(%r15)
	jmp	.LBB66_104
.LBB66_94:
	movq	24(%r15), %rax
.LBB66_95:
	movq	%rax, 80(%r15)
	movb	$1, %al
	movb	$2, %dl
	xorl	%ecx, %ecx
	movb	%al, 104(%r15)
	movzbl	%dl, %eax
	leaq	.LJTI66_1(%rip), %rdx
	movslq	(%rdx,%rax,4), %rax
	addq	%rdx, %rax
	xorl	%r8d, %r8d
	xorl	%r12d, %r12d
	jmpq	*%rax
.LBB66_96:
	movq	24(%r15), %rax
.LBB66_97:
	movq	%rax, 80(%r15)
	movb	$1, %al
	xorl	%ecx, %ecx
	movb	%al, 104(%r15)
	movzbl	%cl, %eax
	leaq	.LJTI66_1(%rip), %rdx
	movslq	(%rdx,%rax,4), %rax
	addq	%rdx, %rax
	xorl	%r8d, %r8d
	xorl	%r12d, %r12d
	jmpq	*%rax
.LBB66_98:
	movq	32(%r15), %rax
	movl	4(%rax,%rcx,4), %esi
	addq	48(%r15), %rsi
	jmp	.LBB66_103
.LBB66_99:
	movq	24(%r15), %rsi
.LBB66_100:
	xorl	%edx, %edx
	movq	%r12, %r8
	movq	%r14, %rcx
	movq	%rsi, 80(%r15)
	jmp	.LBB66_104
.LBB66_101:
	movq	24(%r15), %rsi
.LBB66_102:
	xorl	%edx, %edx
	movq	%r14, %r8
	leaq	1(%r13), %r14
.LBB66_103:
	movq	%rsi, 80(%r15)
	addq	%r14, %rbp
	subq	%r14, %r8
	movq	%rbp, %rcx
.LBB66_104:
	movb	$2, %r11b
	movb	$5, %r9b
	cmpq	8(%r15), %rsi
	jae	.LBB66_110
	movq	(%r15), %rdi
	movzbl	(%rdi,%rsi), %esi
	cmpl	$44, %esi
	je	.LBB66_111
	cmpl	$58, %esi
	jne	.LBB66_110
	pxor	%xmm0, %xmm0
	movdqa	%xmm0, (%rsp)
	movdqa	%xmm0, 16(%rsp)
	leaq	1(%rdx), %rsi
	movq	%rsi, 40(%r15)
	leaq	48(%r15), %r12
	cmpq	56(%r15), %rsi
	jne	.LBB66_115
	movq	%rcx, %r14
	movq	%r8, %rbp
	movq	16(%r15), %rsi
	movq	24(%r15), %rdx
	movq	64(%r15), %r8
	movzbl	74(%r15), %ecx
	movb	%cl, 66(%rsp)
	movzwl	72(%r15), %ecx
	movw	%cx, 64(%rsp)
	movq	%rsp, %rdi
	leaq	64(%rsp), %r9
	movq	%rax, %rcx
	callq	"json::index::refill"
	movdqa	(%rsp), %xmm0
	movdqa	16(%rsp), %xmm1
	movdqu	%xmm1, 16(%r12)
	movdqu	%xmm0, (%r12)
	movq	$0, 40(%r15)
	cmpq	$0, 8(%rsp)
	je	.LBB66_171
	movq	32(%r15), %rax
	movl	(%rax), %eax
	addq	(%rsp), %rax
	movq	%rax, 80(%r15)
	movb	$1, %al
	movb	$4, %cl
	xorl	%r12d, %r12d
	movb	%al, 104(%r15)
	movzbl	%cl, %eax
	leaq	.LJTI66_1(%rip), %rcx
	movslq	(%rcx,%rax,4), %rax
	addq	%rcx, %rax
	movq	%rbp, %r8
	movq	%r14, %rcx
	jmpq	*%rax
.LBB66_110:
	xorl	%r12d, %r12d
	jmp	.LBB66_155
.LBB66_111:
	pxor	%xmm0, %xmm0
	movdqa	%xmm0, (%rsp)
	movdqa	%xmm0, 16(%rsp)
	leaq	1(%rdx), %rsi
	movq	%rsi, 40(%r15)
	leaq	48(%r15), %r12
	cmpq	56(%r15), %rsi
	jne	.LBB66_116
	movq	%rcx, %r14
	movq	%r8, %rbp
	movq	16(%r15), %rsi
	movq	24(%r15), %rdx
	movq	64(%r15), %r8
	movzbl	74(%r15), %ecx
	movb	%cl, 66(%rsp)
	movzwl	72(%r15), %ecx
	movw	%cx, 64(%rsp)
	movq	%rsp, %rdi
	leaq	64(%rsp), %r9
	movq	%rax, %rcx
	callq	"json::index::refill"
	movdqa	(%rsp), %xmm0
	movdqa	16(%rsp), %xmm1
	movdqu	%xmm1, 16(%r12)
	movdqu	%xmm0, (%r12)
	movq	$0, 40(%r15)
	cmpq	$0, 8(%rsp)
	je	.LBB66_173
	movq	32(%r15), %rax
	movl	(%rax), %eax
	addq	(%rsp), %rax
	movq	%rax, 80(%r15)
	movb	$5, %al
	xorl	%r12d, %r12d
	movb	%r12b, 104(%r15)
	movzbl	%al, %eax
	leaq	.LJTI66_1(%rip), %rcx
	movslq	(%rcx,%rax,4), %rax
	addq	%rcx, %rax
	movq	%rbp, %r8
	movq	%r14, %rcx
	jmpq	*%rax
.LBB66_115:
	movl	4(%rax,%rdx,4), %eax
	addq	(%r12), %rax
	jmp	.LBB66_172
.LBB66_116:
	movl	4(%rax,%rdx,4), %eax
	addq	(%r12), %rax
	jmp	.LBB66_174
.LBB66_117:
	rep		bsfl	%edx, %ecx
	subq	%rax, %rcx
	movq	%rcx, %rax
.LBB66_118:
	cmpq	%r14, %rax
	movb	$3, %r11b
	movb	$9, %r9b
	leaq	(%rbp,%r13), %r10
	je	.LBB66_14
.LBB66_119:
	cmpq	%r12, %rax
	jae	.LBB66_133
	movzbl	(%rbp,%rax), %ecx
	andb	$-33, %cl
	cmpb	$69, %cl
	jne	.LBB66_133
	leaq	1(%rax), %r14
	cmpq	%r12, %r14
	jae	.LBB66_125
	movzbl	(%rbp,%r14), %ecx
	cmpl	$45, %ecx
	je	.LBB66_124
	cmpl	$43, %ecx
	jne	.LBB66_125
.LBB66_124:
	addq	$2, %rax
	movq	%rax, %r14
.LBB66_125:
	movq	%r12, %rax
	subq	%r14, %rax
	movq	%r14, %rdx
	cmpq	$16, %rax
	jb	.LBB66_130
	movq	%r14, %rdx
	negq	%rdx
	leaq	(%r14,%rbp), %rax
.LBB66_127:
	movdqu	(%rax), %xmm0
	paddb	.LCPI66_3(%rip), %xmm0
	movdqa	.LCPI66_4(%rip), %xmm1
	pminub	%xmm0, %xmm1
	pcmpeqb	%xmm0, %xmm1
	pmovmskb	%xmm1, %ecx
	testl	%ecx, %ecx
	jne	.LBB66_131
	addq	$16, %rax
	leaq	(%r12,%rdx), %rcx
	addq	$-16, %rcx
	addq	$-16, %rdx
	cmpq	$15, %rcx
	ja	.LBB66_127
	negq	%rdx
.LBB66_130:
	movq	%rbp, %rdi
	movq	%r12, %rsi
	callq	"json::run::digits_end_slowly"
	jmp	.LBB66_132
.LBB66_131:
	rep		bsfl	%ecx, %eax
	subq	%rdx, %rax
.LBB66_132:
	cmpq	%r14, %rax
	movb	$3, %r11b
	movb	$9, %r9b
	leaq	(%rbp,%r13), %r10
	je	.LBB66_14
.LBB66_133:
	cmpq	%r12, %rax
	jae	.LBB66_138
	movzbl	(%rbp,%rax), %edx
	cmpq	$58, %rdx
	ja	.LBB66_136
	movabsq	$288247972632733184, %rcx
	btq	%rdx, %rcx
	jb	.LBB66_138
.LBB66_136:
	xorl	%ecx, %ecx
	xorl	%r12d, %r12d
	addl	$-91, %edx
	cmpl	$34, %edx
	ja	.LBB66_233
	movabsq	$21474836485, %rsi
	btq	%rdx, %rsi
	movl	$0, %r8d
	jae	.LBB66_155
.LBB66_138:
	subq	%r13, %rax
	movb	$6, %dil
	xorl	%r12d, %r12d
	movq	%rax, %r8
.LBB66_139:
	pxor	%xmm0, %xmm0
	movdqa	%xmm0, (%rsp)
	movdqa	%xmm0, 16(%rsp)
	movq	40(%r15), %rax
	leaq	1(%rax), %rcx
	movq	%rcx, 40(%r15)
	leaq	48(%r15), %rbp
	cmpq	56(%r15), %rcx
	jne	.LBB66_142
	movb	%dil, 96(%rsp)
	movq	%r10, 112(%rsp)
	movq	%r8, %r14
	movq	16(%r15), %rsi
	movq	24(%r15), %rdx
	movq	32(%r15), %rcx
	movq	64(%r15), %r8
	movzbl	74(%r15), %eax
	movb	%al, 66(%rsp)
	movzwl	72(%r15), %eax
	movw	%ax, 64(%rsp)
	movq	%rsp, %rdi
	leaq	64(%rsp), %r9
	callq	"json::index::refill"
	movdqa	(%rsp), %xmm0
	movdqa	16(%rsp), %xmm1
	movdqu	%xmm1, 16(%rbp)
	movdqu	%xmm0, (%rbp)
	movq	$0, 40(%r15)
	movq	32(%r15), %rcx
	movl	$1, %eax
	cmpq	$0, 8(%rsp)
	je	.LBB66_143
	movl	(%rcx), %edx
	addq	(%rsp), %rdx
	jmp	.LBB66_144
.LBB66_142:
	movq	32(%r15), %rcx
	movl	4(%rcx,%rax,4), %edx
	addq	48(%r15), %rdx
	addq	$2, %rax
	jmp	.LBB66_145
.LBB66_143:
	movq	24(%r15), %rdx
.LBB66_144:
	movq	%r14, %r8
	movq	112(%rsp), %r10
	movzbl	96(%rsp), %edi
.LBB66_145:
	movq	%rdx, 80(%r15)
	movb	$2, %r11b
	cmpq	8(%r15), %rdx
	jae	.LBB66_154
	movq	(%r15), %rsi
	cmpb	$44, (%rsi,%rdx)
	jne	.LBB66_154
	pxor	%xmm0, %xmm0
	movdqa	%xmm0, (%rsp)
	movdqa	%xmm0, 16(%rsp)
	movq	%rax, 40(%r15)
	cmpq	56(%r15), %rax
	jne	.LBB66_150
	movb	%dil, 96(%rsp)
	movq	%r10, 112(%rsp)
	movq	%r8, %r14
	movq	16(%r15), %rsi
	movq	24(%r15), %rdx
	movq	64(%r15), %r8
	movzbl	74(%r15), %eax
	movb	%al, 66(%rsp)
	movzwl	72(%r15), %eax
	movw	%ax, 64(%rsp)
	movq	%rsp, %rdi
	leaq	64(%rsp), %r9
	callq	"json::index::refill"
	movdqa	(%rsp), %xmm0
	movdqa	16(%rsp), %xmm1
	movdqu	%xmm1, 16(%rbp)
	movdqu	%xmm0, (%rbp)
	movq	$0, 40(%r15)
	cmpq	$0, 8(%rsp)
	je	.LBB66_151
	movq	32(%r15), %rax
	movl	(%rax), %eax
	addq	(%rsp), %rax
	jmp	.LBB66_152
.LBB66_150:
	movl	(%rcx,%rax,4), %eax
	addq	(%rbp), %rax
	jmp	.LBB66_153
.LBB66_151:
	movq	24(%r15), %rax
.LBB66_152:
	movq	%r14, %r8
	movq	112(%rsp), %r10
	movzbl	96(%rsp), %edi
.LBB66_153:
	movq	%rax, 80(%r15)
	xorl	%r11d, %r11d
.LBB66_154:
	movq	%r10, %rcx
	movl	%edi, %r9d
.LBB66_155:
	movb	%r11b, 104(%r15)
	movzbl	%r9b, %eax
	leaq	.LJTI66_1(%rip), %rdx
	movslq	(%rdx,%rax,4), %rax
	addq	%rdx, %rax
	jmpq	*%rax
.LBB66_156:
	cmpq	$0, 168(%rsp)
	je	.LBB66_202
	pxor	%xmm0, %xmm0
	movdqa	%xmm0, (%rsp)
	movdqa	%xmm0, 16(%rsp)
	movdqa	%xmm0, 64(%rsp)
	movdqa	%xmm0, 80(%rsp)
	movdqa	%xmm0, 128(%rsp)
	movdqa	%xmm0, 144(%rsp)
	movq	80(%r15), %r12
	leaq	64(%rsp), %rdi
	movq	%r15, %rsi
	callq	"amqp_json::reading::walk::next_key"
	movzbl	72(%rsp), %r13d
	movq	80(%rsp), %r14
	movzbl	88(%rsp), %ebp
	cmpb	$0, 64(%rsp)
	je	.LBB66_159
	movb	$1, 32(%rsp)
	movq	%r13, 40(%rsp)
	movq	%r14, 48(%rsp)
	movb	%bpl, 56(%rsp)
	jmp	.LBB66_200
.LBB66_159:
	movq	%r12, 96(%rsp)
	movzbl	95(%rsp), %eax
	shll	$16, %eax
	movzwl	93(%rsp), %ecx
	orl	%eax, %ecx
	shlq	$32, %rcx
	movl	89(%rsp), %r12d
	orq	%rcx, %r12
	cmpl	$1, %r13d
	jne	.LBB66_164
	movzbl	%bpl, %eax
	movq	%r12, %r8
	shlq	$8, %r8
	orq	%rax, %r8
	je	.LBB66_164
	cmpb	$36, (%r14)
	jne	.LBB66_164
	leaq	1(%r14), %rcx
	decq	%r8
	je	.LBB66_170
	cmpb	$36, (%rcx)
	jne	.LBB66_170
.LBB66_164:
	movq	104(%rsp), %rsi
	movq	8(%rsi), %rax
	movq	%rax, 112(%rsp)
	leaq	128(%rsp), %rdi
	movl	$70, %edx
	callq	"amqp_json::reading::put::put_head"
	cmpb	$0, 128(%rsp)
	jne	.LBB66_166
	movq	168(%rsp), %r9
	decq	%r9
	movq	%r13, 176(%rsp)
	movq	%r14, 184(%rsp)
	movb	%bpl, 192(%rsp)
	movl	%r12d, 193(%rsp)
	movq	%r12, %rax
	shrq	$48, %rax
	movb	%al, 199(%rsp)
	shrq	$32, %r12
	movw	%r12w, 197(%rsp)
	leaq	128(%rsp), %rdi
	leaq	176(%rsp), %rcx
	movq	%r15, %rsi
	movq	104(%rsp), %r14
	movq	%r14, %rdx
	movq	96(%rsp), %r8
	callq	"amqp_json::reading::walk::put_pairs"
	cmpb	$0, 128(%rsp)
	je	.LBB66_167
.LBB66_166:
	movzbl	152(%rsp), %eax
	movq	144(%rsp), %rcx
	movzbl	136(%rsp), %edx
	jmp	.LBB66_204
.LBB66_167:
	movq	112(%rsp), %rdi
	incq	%rdi
	movq	8(%r14), %rax
	movq	%rax, %rcx
	subq	$4, %rcx
	setb	%dl
	cmpq	%rdi, %rcx
	setb	%cl
	orb	%dl, %cl
	movb	$1, %cl
	jne	.LBB66_232
	subq	%rdi, %rax
	addq	$-4, %rax
	movq	%rax, %rdx
	shrq	$32, %rdx
	jne	.LBB66_232
	movq	(%r14), %rcx
	movq	%rax, %rdx
	shrq	$24, %rdx
	andl	$16777215, %eax
	bswapl	%eax
	orl	%edx, %eax
	movl	%eax, (%rcx,%rdi)
	jmp	.LBB66_231
.LBB66_170:
	movq	%rsp, %rdi
	movq	%r15, %rsi
	movq	104(%rsp), %rdx
	movq	96(%rsp), %r9
	callq	"amqp_json::reading::walk::put_named"
	movzbl	(%rsp), %eax
	movb	%al, 32(%rsp)
	movzbl	8(%rsp), %eax
	movq	%rax, 40(%rsp)
	movq	16(%rsp), %rax
	movq	%rax, 48(%rsp)
	movzbl	24(%rsp), %eax
	movb	%al, 56(%rsp)
	jmp	.LBB66_200
.LBB66_171:
	movq	24(%r15), %rax
	movq	%rbp, %r8
	movq	%r14, %rcx
.LBB66_172:
	movq	%rax, 80(%r15)
	movb	$1, %al
	movb	$4, %dl
	xorl	%r12d, %r12d
	movb	%al, 104(%r15)
	movzbl	%dl, %eax
	leaq	.LJTI66_1(%rip), %rdx
	movslq	(%rdx,%rax,4), %rax
	addq	%rdx, %rax
	jmpq	*%rax
.LBB66_173:
	movq	24(%r15), %rax
	movq	%rbp, %r8
	movq	%r14, %rcx
.LBB66_174:
	movq	%rax, 80(%r15)
	movb	$5, %al
	xorl	%r12d, %r12d
	movb	%r12b, 104(%r15)
	movzbl	%al, %eax
	leaq	.LJTI66_1(%rip), %rdx
	movslq	(%rdx,%rax,4), %rax
	addq	%rdx, %rax
	jmpq	*%rax
.LBB66_175:
	movq	168(%rsp), %r14
	testq	%r14, %r14
	je	.LBB66_202
	movq	104(%rsp), %r13
	movq	8(%r13), %rsi
	movq	16(%r13), %rax
	leaq	1(%rsi), %r12
	movq	%r12, %rcx
	cmpq	%rsi, %rax
	je	.LBB66_220
.LBB66_177:
	movq	(%r13), %rdx
	movb	$65, (%rdx,%rsi)
	movq	%rdx, (%r13)
	movq	%rcx, 8(%r13)
	movq	%rax, 16(%r13)
	movq	%rax, %rsi
	subq	%rcx, %rsi
	cmpq	$3, %rsi
	jbe	.LBB66_222
.LBB66_178:
	decq	%r14
	movl	$0, (%rdx,%rcx)
	addq	$4, %rcx
	movq	%rdx, (%r13)
	movq	%rcx, 8(%r13)
	movq	%rax, 16(%r13)
	pxor	%xmm0, %xmm0
	movdqa	%xmm0, 80(%rsp)
	movdqa	%xmm0, 64(%rsp)
	jmp	.LBB66_180
	.p2align	4
.LBB66_179:
	leaq	64(%rsp), %rdi
	movq	%r15, %rsi
	movq	%r13, %rdx
	movq	%r14, %rcx
	callq	"amqp_json::reading::walk::put_value"
	cmpb	$0, 64(%rsp)
	jne	.LBB66_203
.LBB66_180:
	movq	80(%r15), %rax
	cmpq	8(%r15), %rax
	jae	.LBB66_179
	movq	(%r15), %rcx
	cmpb	$93, (%rcx,%rax)
	jne	.LBB66_179
	movzbl	104(%r15), %eax
	decb	%al
	cmpb	$1, %al
	ja	.LBB66_179
	pxor	%xmm0, %xmm0
	movdqa	%xmm0, (%rsp)
	movdqa	%xmm0, 16(%rsp)
	movq	40(%r15), %rax
	leaq	1(%rax), %rcx
	movq	%rcx, 40(%r15)
	leaq	48(%r15), %r14
	cmpq	56(%r15), %rcx
	jne	.LBB66_207
	movq	16(%r15), %rsi
	movq	24(%r15), %rdx
	movq	32(%r15), %rcx
	movq	64(%r15), %r8
	movzbl	74(%r15), %eax
	movb	%al, 130(%rsp)
	movzwl	72(%r15), %eax
	movw	%ax, 128(%rsp)
	movq	%rsp, %rdi
	leaq	128(%rsp), %r9
	callq	"json::index::refill"
	movdqa	(%rsp), %xmm0
	movdqa	16(%rsp), %xmm1
	movdqu	%xmm1, 16(%r14)
	movdqu	%xmm0, (%r14)
	movq	$0, 40(%r15)
	movq	32(%r15), %rcx
	movl	$1, %eax
	cmpq	$0, 8(%rsp)
	je	.LBB66_214
	movl	(%rcx), %edx
	addq	(%rsp), %rdx
	jmp	.LBB66_215
.LBB66_186:
	movq	104(%rsp), %r14
	movq	8(%r14), %rax
	movq	16(%r14), %rcx
	cmpq	%rax, %rcx
	je	.LBB66_208
.LBB66_187:
	movq	(%r14), %rdx
	movb	$86, (%rdx,%rax)
	jmp	.LBB66_197
.LBB66_188:
	xorl	%eax, %eax
	.p2align	4
.LBB66_189:
	cmpq	%rax, %r8
	je	.LBB66_205
	movzbl	(%rcx,%rax), %edx
	incq	%rax
	addl	$-46, %edx
	cmpl	$55, %edx
	ja	.LBB66_189
	movabsq	$36028797027352577, %rsi
	btq	%rdx, %rsi
	jae	.LBB66_189
	movb	$10, %al
	jmp	.LBB66_206
.LBB66_193:
	leaq	32(%rsp), %rdi
	movq	104(%rsp), %rsi
	movl	$83, %edx
	callq	"amqp_json::reading::put::put_counted"
	jmp	.LBB66_200
.LBB66_194:
	movq	104(%rsp), %r14
	movq	8(%r14), %rax
	movq	16(%r14), %rcx
	cmpq	%rax, %rcx
	je	.LBB66_210
.LBB66_195:
	movq	(%r14), %rdx
	movb	$116, (%rdx,%rax)
	incq	%rax
	movq	%rdx, (%r14)
	movq	%rax, 8(%r14)
	movq	%rcx, 16(%r14)
	cmpq	%rax, %rcx
	je	.LBB66_212
.LBB66_196:
	movb	%r12b, (%rdx,%rax)
.LBB66_197:
	incq	%rax
	movq	%rdx, (%r14)
	movq	%rax, 8(%r14)
	movq	%rcx, 16(%r14)
	movb	$0, 32(%rsp)
.LBB66_198:
	pxor	%xmm0, %xmm0
	movdqu	%xmm0, 40(%rsp)
.LBB66_199:
	movb	$0, 56(%rsp)
.LBB66_200:
	movzbl	32(%rsp), %eax
	movzbl	40(%rsp), %ecx
	movq	48(%rsp), %rdx
	movzbl	56(%rsp), %esi
	movb	%al, (%rbx)
	movq	%rcx, 8(%rbx)
	movq	%rdx, 16(%rbx)
	movb	%sil, 24(%rbx)
.LBB66_201:
	addq	$200, %rsp
	popq	%rbx
	popq	%r12
	popq	%r13
	popq	%r14
	popq	%r15
	popq	%rbp
	retq
.LBB66_202:
	movb	$1, (%rbx)
	movq	$3, 8(%rbx)
	movq	%r13, 16(%rbx)
	jmp	.LBB66_17
.LBB66_203:
	movzbl	88(%rsp), %eax
	movq	80(%rsp), %rcx
	movzbl	72(%rsp), %edx
.LBB66_204:
	movb	$1, 32(%rsp)
	movq	%rdx, 40(%rsp)
	movq	%rcx, 48(%rsp)
	movb	%al, 56(%rsp)
	jmp	.LBB66_200
.LBB66_205:
	movb	$7, %al
.LBB66_206:
	movzbl	%al, %edx
	leaq	32(%rsp), %rdi
	movq	104(%rsp), %rsi
	movq	%r13, %r9
	callq	"amqp_json::reading::named::put_number"
	jmp	.LBB66_200
.LBB66_207:
	movq	32(%r15), %rcx
	movl	4(%rcx,%rax,4), %edx
	addq	48(%r15), %rdx
	addq	$2, %rax
	jmp	.LBB66_215
.LBB66_208:
	movl	$1, %esi
	movq	%r14, %rdi
	callq	"std_alloc::vec::Vec::grow_amortized::<#1283936d4ef01d73>"
	testb	%al, %al
	je	.LBB66_224
	movq	8(%r14), %rax
	movq	16(%r14), %rcx
	jmp	.LBB66_187
.LBB66_210:
	movl	$1, %esi
	movq	%r14, %rdi
	callq	"std_alloc::vec::Vec::grow_amortized::<#1283936d4ef01d73>"
	testb	%al, %al
	je	.LBB66_224
	movq	8(%r14), %rax
	movq	16(%r14), %rcx
	jmp	.LBB66_195
.LBB66_212:
	movl	$1, %esi
	movq	%r14, %rdi
	callq	"std_alloc::vec::Vec::grow_amortized::<#1283936d4ef01d73>"
	testb	%al, %al
	je	.LBB66_224
	movq	(%r14), %rdx
	movq	8(%r14), %rax
	movq	16(%r14), %rcx
	jmp	.LBB66_196
.LBB66_214:
	movq	24(%r15), %rdx
.LBB66_215:
	movq	%rdx, 80(%r15)
	movb	$2, %sil
	cmpq	8(%r15), %rdx
	jae	.LBB66_228
	movq	(%r15), %rdi
	cmpb	$44, (%rdi,%rdx)
	jne	.LBB66_228
	pxor	%xmm0, %xmm0
	movdqa	%xmm0, (%rsp)
	movdqa	%xmm0, 16(%rsp)
	movq	%rax, 40(%r15)
	cmpq	56(%r15), %rax
	jne	.LBB66_225
	movq	16(%r15), %rsi
	movq	24(%r15), %rdx
	movq	64(%r15), %r8
	movzbl	74(%r15), %eax
	movb	%al, 130(%rsp)
	movzwl	72(%r15), %eax
	movw	%ax, 128(%rsp)
	movq	%rsp, %rdi
	leaq	128(%rsp), %r9
	callq	"json::index::refill"
	movdqa	(%rsp), %xmm0
	movdqa	16(%rsp), %xmm1
	movdqu	%xmm1, 16(%r14)
	movdqu	%xmm0, (%r14)
	movq	$0, 40(%r15)
	cmpq	$0, 8(%rsp)
	je	.LBB66_226
	movq	32(%r15), %rax
	movl	(%rax), %eax
	addq	(%rsp), %rax
	jmp	.LBB66_227
.LBB66_220:
	movl	$1, %esi
	movq	%r13, %rdi
	callq	"std_alloc::vec::Vec::grow_amortized::<#1283936d4ef01d73>"
	testb	%al, %al
	je	.LBB66_224
	movq	8(%r13), %rsi
	movq	16(%r13), %rax
	leaq	1(%rsi), %rcx
	jmp	.LBB66_177
.LBB66_222:
	movl	$4, %esi
	movq	%r13, %rdi
	callq	"std_alloc::vec::Vec::grow_amortized::<#1283936d4ef01d73>"
	testb	%al, %al
	je	.LBB66_224
	movq	(%r13), %rdx
	movq	8(%r13), %rcx
	movq	16(%r13), %rax
	jmp	.LBB66_178
.LBB66_224:
	movb	$1, 32(%rsp)
	jmp	.LBB66_198
.LBB66_225:
	movl	(%rcx,%rax,4), %eax
	addq	(%r14), %rax
	jmp	.LBB66_227
.LBB66_226:
	movq	24(%r15), %rax
.LBB66_227:
	movq	%rax, 80(%r15)
	xorl	%esi, %esi
.LBB66_228:
	movb	%sil, 104(%r15)
	movq	8(%r13), %rax
	movq	%rax, %rcx
	subq	$4, %rcx
	setb	%dl
	cmpq	%r12, %rcx
	setb	%cl
	orb	%dl, %cl
	movb	$1, %cl
	jne	.LBB66_232
	subq	%r12, %rax
	addq	$-4, %rax
	movq	%rax, %rdx
	shrq	$32, %rdx
	jne	.LBB66_232
	movq	(%r13), %rcx
	movq	%rax, %rdx
	shrq	$24, %rdx
	andl	$16777215, %eax
	bswapl	%eax
	orl	%edx, %eax
	movl	%eax, (%rcx,%r12)
.LBB66_231:
	xorl	%ecx, %ecx
.LBB66_232:
	movb	%cl, 32(%rsp)
	movzbl	%cl, %eax
	movq	%rax, 40(%rsp)
	jmp	.LBB66_28
.LBB66_233:
	xorl	%r8d, %r8d
	jmp	.LBB66_155
.Lfunc_end66:
	.size	"amqp_json::reading::walk::put_value", .Lfunc_end66-"amqp_json::reading::walk::put_value"
	.section	".rodata.amqp_json::reading::walk::put_value","a",@progbits
	.p2align	2, 0x0
.LJTI66_0:
	.long	.LBB66_35-.LJTI66_0
	.long	.LBB66_47-.LJTI66_0
	.long	.LBB66_47-.LJTI66_0
	.long	.LBB66_47-.LJTI66_0
	.long	.LBB66_47-.LJTI66_0
	.long	.LBB66_47-.LJTI66_0
	.long	.LBB66_47-.LJTI66_0
	.long	.LBB66_47-.LJTI66_0
	.long	.LBB66_47-.LJTI66_0
	.long	.LBB66_47-.LJTI66_0
	.long	.LBB66_14-.LJTI66_0
	.long	.LBB66_47-.LJTI66_0
	.long	.LBB66_47-.LJTI66_0
	.long	.LBB66_47-.LJTI66_0
	.long	.LBB66_47-.LJTI66_0
	.long	.LBB66_47-.LJTI66_0
	.long	.LBB66_47-.LJTI66_0
	.long	.LBB66_47-.LJTI66_0
	.long	.LBB66_47-.LJTI66_0
	.long	.LBB66_47-.LJTI66_0
	.long	.LBB66_47-.LJTI66_0
	.long	.LBB66_47-.LJTI66_0
	.long	.LBB66_47-.LJTI66_0
	.long	.LBB66_47-.LJTI66_0
	.long	.LBB66_14-.LJTI66_0
	.long	.LBB66_47-.LJTI66_0
	.long	.LBB66_47-.LJTI66_0
	.long	.LBB66_47-.LJTI66_0
	.long	.LBB66_47-.LJTI66_0
	.long	.LBB66_47-.LJTI66_0
	.long	.LBB66_47-.LJTI66_0
	.long	.LBB66_47-.LJTI66_0
	.long	.LBB66_47-.LJTI66_0
	.long	.LBB66_47-.LJTI66_0
	.long	.LBB66_47-.LJTI66_0
	.long	.LBB66_47-.LJTI66_0
	.long	.LBB66_47-.LJTI66_0
	.long	.LBB66_47-.LJTI66_0
	.long	.LBB66_47-.LJTI66_0
	.long	.LBB66_47-.LJTI66_0
	.long	.LBB66_47-.LJTI66_0
	.long	.LBB66_47-.LJTI66_0
	.long	.LBB66_47-.LJTI66_0
	.long	.LBB66_47-.LJTI66_0
	.long	.LBB66_47-.LJTI66_0
	.long	.LBB66_47-.LJTI66_0
	.long	.LBB66_47-.LJTI66_0
	.long	.LBB66_47-.LJTI66_0
	.long	.LBB66_47-.LJTI66_0
	.long	.LBB66_47-.LJTI66_0
	.long	.LBB66_47-.LJTI66_0
	.long	.LBB66_47-.LJTI66_0
	.long	.LBB66_47-.LJTI66_0
	.long	.LBB66_47-.LJTI66_0
	.long	.LBB66_47-.LJTI66_0
	.long	.LBB66_47-.LJTI66_0
	.long	.LBB66_47-.LJTI66_0
	.long	.LBB66_41-.LJTI66_0
	.long	.LBB66_14-.LJTI66_0
	.long	.LBB66_47-.LJTI66_0
	.long	.LBB66_47-.LJTI66_0
	.long	.LBB66_47-.LJTI66_0
	.long	.LBB66_47-.LJTI66_0
	.long	.LBB66_47-.LJTI66_0
	.long	.LBB66_47-.LJTI66_0
	.long	.LBB66_47-.LJTI66_0
	.long	.LBB66_47-.LJTI66_0
	.long	.LBB66_47-.LJTI66_0
	.long	.LBB66_29-.LJTI66_0
	.long	.LBB66_47-.LJTI66_0
	.long	.LBB66_47-.LJTI66_0
	.long	.LBB66_47-.LJTI66_0
	.long	.LBB66_47-.LJTI66_0
	.long	.LBB66_47-.LJTI66_0
	.long	.LBB66_47-.LJTI66_0
	.long	.LBB66_47-.LJTI66_0
	.long	.LBB66_31-.LJTI66_0
	.long	.LBB66_47-.LJTI66_0
	.long	.LBB66_47-.LJTI66_0
	.long	.LBB66_47-.LJTI66_0
	.long	.LBB66_47-.LJTI66_0
	.long	.LBB66_47-.LJTI66_0
	.long	.LBB66_33-.LJTI66_0
	.long	.LBB66_47-.LJTI66_0
	.long	.LBB66_47-.LJTI66_0
	.long	.LBB66_47-.LJTI66_0
	.long	.LBB66_47-.LJTI66_0
	.long	.LBB66_47-.LJTI66_0
	.long	.LBB66_47-.LJTI66_0
	.long	.LBB66_44-.LJTI66_0
.LJTI66_1:
	.long	.LBB66_156-.LJTI66_1
	.long	.LBB66_27-.LJTI66_1
	.long	.LBB66_175-.LJTI66_1
	.long	.LBB66_27-.LJTI66_1
	.long	.LBB66_27-.LJTI66_1
	.long	.LBB66_193-.LJTI66_1
	.long	.LBB66_188-.LJTI66_1
	.long	.LBB66_194-.LJTI66_1
	.long	.LBB66_186-.LJTI66_1
	.long	.LBB66_27-.LJTI66_1

	.section	".text.amqp_json::reading::put::put","ax",@progbits
	.p2align	4
	.type	"amqp_json::reading::put::put",@function
"amqp_json::reading::put::put":
	pushq	%rbp
	pushq	%r15
	pushq	%r14
	pushq	%r13
	pushq	%r12
	pushq	%rbx
	pushq	%rax
	movq	%rsi, %r14
	movq	%rdi, %rbx
	movq	8(%rsi), %rax
	movq	16(%rsi), %r15
	cmpq	%rax, %r15
	je	.LBB67_25
.LBB67_1:
	movq	(%r14), %r12
	movb	%dl, (%r12,%rax)
	incq	%rax
	movq	%r12, (%r14)
	movq	%rax, 8(%r14)
	movq	%r15, 16(%r14)
	movq	%r15, %rdx
	subq	%rax, %rdx
	cmpq	%rdx, %r8
	ja	.LBB67_27
.LBB67_2:
	leaq	8(%r14), %rdx
	leaq	(%rax,%r8), %r13
	xorps	%xmm0, %xmm0
	movups	%xmm0, (%rdx)
	leaq	(%r12,%rax), %rdi
	movq	%rdi, %rdx
	subq	%rcx, %rdx
	cmpq	%r8, %rdx
	jae	.LBB67_5
	cmpq	$4, %r8
	jb	.LBB67_4
	cmpq	$32, %rdx
	jae	.LBB67_8
.LBB67_4:
	xorl	%edx, %edx
.LBB67_17:
	movq	%r8, %r9
	movq	%rdx, %rsi
	andq	$3, %r9
	je	.LBB67_20
	movq	%rdx, %rsi
	.p2align	4
.LBB67_19:
	movzbl	(%rcx,%rsi), %r10d
	movb	%r10b, (%rdi,%rsi)
	incq	%rsi
	decq	%r9
	jne	.LBB67_19
.LBB67_20:
	subq	%r8, %rdx
	cmpq	$-4, %rdx
	ja	.LBB67_23
	addq	%r12, %rax
	addq	$3, %rax
	.p2align	4
.LBB67_22:
	movzbl	(%rcx,%rsi), %edx
	movb	%dl, -3(%rax,%rsi)
	movzbl	1(%rcx,%rsi), %edx
	movb	%dl, -2(%rax,%rsi)
	movzbl	2(%rcx,%rsi), %edx
	movb	%dl, -1(%rax,%rsi)
	movzbl	3(%rcx,%rsi), %edx
	movb	%dl, (%rax,%rsi)
	addq	$4, %rsi
	cmpq	%rsi, %r8
	jne	.LBB67_22
	jmp	.LBB67_23
.LBB67_5:
	movq	%rcx, %rsi
	movq	%r8, %rdx
	callq	memmove@PLT
.LBB67_23:
	movq	%r12, (%r14)
	movq	%r13, 8(%r14)
	movq	%r15, 16(%r14)
	movb	$0, (%rbx)
.LBB67_24:
	xorps	%xmm0, %xmm0
	movups	%xmm0, 8(%rbx)
	movb	$0, 24(%rbx)
	addq	$8, %rsp
	popq	%rbx
	popq	%r12
	popq	%r13
	popq	%r14
	popq	%r15
	popq	%rbp
	retq
.LBB67_8:
	cmpq	$32, %r8
	jae	.LBB67_10
	xorl	%edx, %edx
	jmp	.LBB67_14
.LBB67_10:
	movq	%r8, %rdx
	andq	$-32, %rdx
	leaq	(%rax,%r12), %rsi
	addq	$16, %rsi
	xorl	%r9d, %r9d
	.p2align	4
.LBB67_11:
	movups	(%rcx,%r9), %xmm0
	movups	16(%rcx,%r9), %xmm1
	movups	%xmm0, -16(%rsi,%r9)
	movups	%xmm1, (%rsi,%r9)
	addq	$32, %r9
	cmpq	%r9, %rdx
	jne	.LBB67_11
	cmpq	%rdx, %r8
	je	.LBB67_23
	testb	$28, %r8b
	je	.LBB67_17
.LBB67_14:
	movq	%rdx, %rsi
	movq	%r8, %rdx
	andq	$-4, %rdx
	.p2align	4
.LBB67_15:
	movl	(%rcx,%rsi), %r9d
	movl	%r9d, (%rdi,%rsi)
	addq	$4, %rsi
	cmpq	%rsi, %rdx
	jne	.LBB67_15
	cmpq	%rdx, %r8
	je	.LBB67_23
	jmp	.LBB67_17
.LBB67_25:
	movl	%edx, %ebp
	movq	%rcx, %r12
	movq	%r8, %r13
	movl	$1, %esi
	movq	%r14, %rdi
	callq	"std_alloc::vec::Vec::grow_amortized::<#1283936d4ef01d73>"
	testb	%al, %al
	je	.LBB67_29
	movq	8(%r14), %rax
	movq	16(%r14), %r15
	movq	%r13, %r8
	movq	%r12, %rcx
	movl	%ebp, %edx
	jmp	.LBB67_1
.LBB67_27:
	movq	%rcx, %r13
	movq	%r14, %rdi
	movq	%r8, %rbp
	movq	%r8, %rsi
	callq	"std_alloc::vec::Vec::grow_amortized::<#1283936d4ef01d73>"
	testb	%al, %al
	je	.LBB67_29
	movq	(%r14), %r12
	movq	8(%r14), %rax
	movq	16(%r14), %r15
	movq	%rbp, %r8
	movq	%r13, %rcx
	jmp	.LBB67_2
.LBB67_29:
	movb	$1, (%rbx)
	jmp	.LBB67_24
.Lfunc_end67:
	.size	"amqp_json::reading::put::put", .Lfunc_end67-"amqp_json::reading::put::put"

	.section	.rodata.cst8,"aM",@progbits,8
	.p2align	3, 0x0
.LCPI68_0:
	.quad	0x7ff0000000000000
	.section	.rodata.cst16,"aM",@progbits,16
	.p2align	4, 0x0
.LCPI68_1:
	.quad	0x8000000000000000
	.quad	0x8000000000000000
.LCPI68_3:
	.long	0x80000000
	.long	0x80000000
	.long	0x80000000
	.long	0x80000000
	.section	.rodata.cst4,"aM",@progbits,4
	.p2align	2, 0x0
.LCPI68_2:
	.long	0x7f800000
	.section	".text.amqp_json::reading::named::put_number","ax",@progbits
	.p2align	4
	.type	"amqp_json::reading::named::put_number",@function
"amqp_json::reading::named::put_number":
	pushq	%rbp
	pushq	%r15
	pushq	%r14
	pushq	%r13
	pushq	%r12
	pushq	%rbx
	subq	$792, %rsp
	movq	%r9, 136(%rsp)
	movq	%r8, 8(%rsp)
	movq	%rsi, 24(%rsp)
	movq	%rdi, 184(%rsp)
	pxor	%xmm0, %xmm0
	movdqa	%xmm0, 48(%rsp)
	movdqa	%xmm0, 64(%rsp)
	movb	$0, 23(%rsp)
	movb	$0, 22(%rsp)
	movw	$0, 46(%rsp)
	movw	$0, 44(%rsp)
	movl	$0, 116(%rsp)
	movl	$0, 112(%rsp)
	movq	$0, 152(%rsp)
	movq	$0, 144(%rsp)
	movl	$0, 92(%rsp)
	movq	$0, 128(%rsp)
	movzbl	%dl, %r13d
	leaq	.LJTI68_0(%rip), %rax
	movslq	(%rax,%r13,4), %rdx
	addq	%rax, %rdx
	jmpq	*%rdx
.LBB68_1:
	movb	$4, %al
	movl	$4, %ecx
	movb	$1, %dl
	movl	$120831, %esi
	btl	%r13d, %esi
	jae	.LBB68_3
.LBB68_2:
	movb	$5, %al
	movl	$4, %ecx
	movb	$1, %dl
.LBB68_3:
	movq	184(%rsp), %rsi
	movb	%dl, (%rsi)
	movq	%rcx, 8(%rsi)
	movq	136(%rsp), %rcx
	movq	%rcx, 16(%rsi)
	movb	%al, 24(%rsi)
	addq	$792, %rsp
	popq	%rbx
	popq	%r12
	popq	%r13
	popq	%r14
	popq	%r15
	popq	%rbp
	retq
.LBB68_4:
	cmpq	$0, 8(%rsp)
	je	.LBB68_2
	cmpq	$1, 8(%rsp)
	jne	.LBB68_57
	movzbl	(%rcx), %eax
	addb	$-48, %al
	cmpb	$10, %al
	jae	.LBB68_2
	jmp	.LBB68_114
.LBB68_7:
	cmpq	$0, 8(%rsp)
	je	.LBB68_2
	cmpq	$1, 8(%rsp)
	jne	.LBB68_59
	movzbl	(%rcx), %eax
	addb	$-48, %al
	cmpb	$9, %al
	ja	.LBB68_2
	jmp	.LBB68_122
.LBB68_10:
	cmpq	$0, 8(%rsp)
	je	.LBB68_2
	cmpq	$1, 8(%rsp)
	jne	.LBB68_68
	movzbl	(%rcx), %eax
	addb	$-48, %al
	cmpb	$10, %al
	jae	.LBB68_2
	jmp	.LBB68_131
.LBB68_13:
	cmpq	$0, 8(%rsp)
	je	.LBB68_32
	movzbl	(%rcx), %eax
	jmp	.LBB68_33
.LBB68_15:
	cmpq	$0, 8(%rsp)
	je	.LBB68_2
	cmpq	$1, 8(%rsp)
	jne	.LBB68_70
	movzbl	(%rcx), %eax
	addb	$-48, %al
	cmpb	$10, %al
	jae	.LBB68_2
	jmp	.LBB68_139
.LBB68_18:
	cmpq	$0, 8(%rsp)
	je	.LBB68_2
	cmpq	$1, 8(%rsp)
	jne	.LBB68_72
	movzbl	(%rcx), %eax
	addb	$-48, %al
	cmpb	$9, %al
	ja	.LBB68_2
	jmp	.LBB68_147
.LBB68_21:
	cmpq	$0, 8(%rsp)
	je	.LBB68_2
	cmpq	$1, 8(%rsp)
	jne	.LBB68_81
	movzbl	(%rcx), %eax
	addb	$-48, %al
	cmpb	$9, %al
	ja	.LBB68_2
	jmp	.LBB68_156
.LBB68_24:
	cmpq	$0, 8(%rsp)
	je	.LBB68_2
	cmpq	$1, 8(%rsp)
	jne	.LBB68_90
	movzbl	(%rcx), %eax
	addb	$-48, %al
	cmpb	$10, %al
	jae	.LBB68_2
	jmp	.LBB68_165
.LBB68_27:
	cmpq	$0, 8(%rsp)
	je	.LBB68_2
	cmpq	$1, 8(%rsp)
	jne	.LBB68_92
	movzbl	(%rcx), %eax
	addb	$-48, %al
	cmpb	$9, %al
	ja	.LBB68_2
	jmp	.LBB68_172
.LBB68_30:
	cmpq	$0, 8(%rsp)
	je	.LBB68_44
	movzbl	(%rcx), %eax
	jmp	.LBB68_45
.LBB68_32:
	xorl	%eax, %eax
.LBB68_33:
	movq	%rax, 96(%rsp)
	addl	$-43, %eax
	xorl	%edx, %edx
	testb	$-3, %al
	sete	%dl
	leaq	(%rcx,%rdx), %r9
	movq	8(%rsp), %rsi
	movq	%rdx, 32(%rsp)
	subq	%rdx, %rsi
	cmpq	$8, %rsi
	movq	%r13, 104(%rsp)
	movq	%rsi, 120(%rsp)
	jb	.LBB68_37
	movabsq	$-9187201950435737472, %rdi
	movabsq	$9187201950435737470, %r14
	movabsq	$8536140394893047414, %r15
	movabsq	$3472328296227680304, %r12
	movabsq	$4294967296000100, %rbp
	movabsq	$42949672960001, %rax
	movabsq	$1095216660735, %r13
	xorl	%r10d, %r10d
	movq	%rsi, %rdx
	xorl	%ebx, %ebx
	.p2align	4
.LBB68_35:
	movq	%r9, %rsi
	movq	(%r9,%r10), %r11
	movq	%r11, %r8
	xorq	%r12, %r8
	movq	%r8, %r9
	andq	%r14, %r9
	addq	%r15, %r9
	orq	%r11, %r9
	testq	%rdi, %r9
	jne	.LBB68_101
	leaq	(%r8,%r8,4), %r9
	shrq	$8, %r8
	leaq	(%r8,%r9,2), %r8
	movq	%r8, %r9
	andq	%r13, %r9
	imulq	%rbp, %r9
	shrq	$16, %r8
	andq	%r13, %r8
	imulq	%rax, %r8
	addq	%r9, %r8
	shrq	$32, %r8
	imulq	$100000000, %rbx, %rbx
	addq	%r8, %rbx
	addq	$8, %r10
	addq	$-8, %rdx
	cmpq	$7, %rdx
	movq	%rsi, %r9
	ja	.LBB68_35
	jmp	.LBB68_38
.LBB68_37:
	xorl	%ebx, %ebx
	xorl	%r10d, %r10d
.LBB68_38:
	leaq	.Lstatic.1(%rip), %r11
	movq	120(%rsp), %rsi
	cmpq	%rsi, %r10
	jae	.LBB68_102
.LBB68_39:
	movq	32(%rsp), %r8
	leaq	(%r8,%rcx), %rax
	incq	%rax
	movq	104(%rsp), %r13
	.p2align	4
.LBB68_40:
	movzbl	-1(%rax,%r10), %ecx
	leal	-48(%rcx), %edx
	cmpb	$9, %dl
	ja	.LBB68_103
	leaq	(%rbx,%rbx,4), %rcx
	movzbl	%dl, %edx
	leaq	(%rdx,%rcx,2), %rbx
	incq	%r10
	cmpq	%rsi, %r10
	jb	.LBB68_40
	xorl	%ecx, %ecx
	movq	%rsi, %r10
.LBB68_43:
	xorl	%r14d, %r14d
	movq	%rsi, %rbp
	jmp	.LBB68_254
.LBB68_44:
	xorl	%eax, %eax
.LBB68_45:
	movq	%rax, 120(%rsp)
	addl	$-43, %eax
	xorl	%edx, %edx
	testb	$-3, %al
	sete	%dl
	leaq	(%rcx,%rdx), %rdi
	movq	8(%rsp), %r9
	movq	%rdx, 96(%rsp)
	subq	%rdx, %r9
	cmpq	$8, %r9
	movq	%r9, 32(%rsp)
	movq	%r13, 104(%rsp)
	jb	.LBB68_49
	movabsq	$-9187201950435737472, %rdx
	movabsq	$9187201950435737470, %r14
	movabsq	$8536140394893047414, %r15
	movabsq	$3472328296227680304, %r12
	movabsq	$4294967296000100, %rbp
	movabsq	$42949672960001, %rsi
	movabsq	$1095216660735, %r13
	xorl	%r10d, %r10d
	xorl	%ebx, %ebx
	.p2align	4
.LBB68_47:
	movq	(%rdi,%r10), %r11
	movq	%r11, %rax
	xorq	%r12, %rax
	movq	%rax, %r8
	andq	%r14, %r8
	addq	%r15, %r8
	orq	%r11, %r8
	testq	%rdx, %r8
	jne	.LBB68_50
	leaq	(%rax,%rax,4), %r8
	shrq	$8, %rax
	leaq	(%rax,%r8,2), %rax
	movq	%rax, %r8
	andq	%r13, %r8
	imulq	%rbp, %r8
	shrq	$16, %rax
	andq	%r13, %rax
	imulq	%rsi, %rax
	addq	%r8, %rax
	shrq	$32, %rax
	imulq	$100000000, %rbx, %rbx
	addq	%rax, %rbx
	addq	$8, %r10
	addq	$-8, %r9
	cmpq	$7, %r9
	ja	.LBB68_47
	jmp	.LBB68_50
.LBB68_49:
	xorl	%ebx, %ebx
	xorl	%r10d, %r10d
.LBB68_50:
	leaq	.Lstatic.1(%rip), %r11
	movq	32(%rsp), %rdx
	cmpq	%rdx, %r10
	jae	.LBB68_56
	movq	96(%rsp), %rax
	addq	%rax, %rcx
	incq	%rcx
	movq	104(%rsp), %r13
	.p2align	4
.LBB68_52:
	movzbl	-1(%rcx,%r10), %esi
	leal	-48(%rsi), %r8d
	cmpb	$9, %r8b
	ja	.LBB68_108
	leaq	(%rbx,%rbx,4), %rax
	movzbl	%r8b, %esi
	leaq	(%rsi,%rax,2), %rbx
	incq	%r10
	cmpq	%rdx, %r10
	jb	.LBB68_52
	xorl	%ecx, %ecx
	movq	%rdx, %r10
.LBB68_55:
	xorl	%r14d, %r14d
	movq	%rdx, %rbp
	jmp	.LBB68_309
.LBB68_56:
	xorl	%ecx, %ecx
	xorl	%r14d, %r14d
	movq	%r10, %rbp
	xorl	%r15d, %r15d
	movq	104(%rsp), %r13
	jmp	.LBB68_310
.LBB68_57:
	movzbl	(%rcx), %eax
	cmpb	$45, %al
	jne	.LBB68_113
	movzbl	1(%rcx), %eax
	addb	$-49, %al
	cmpb	$9, %al
	jae	.LBB68_2
	jmp	.LBB68_114
.LBB68_59:
	movzbl	(%rcx), %eax
	cmpb	$45, %al
	jne	.LBB68_121
	movzbl	1(%rcx), %eax
	addb	$-49, %al
	cmpb	$8, %al
	ja	.LBB68_2
	movabsq	$-9223372036854775808, %rdx
	movl	$1, %esi
	movabsq	$1844674407370955162, %r9
	xorl	%eax, %eax
.LBB68_62:
	cmpq	%r9, %rax
	jae	.LBB68_1
	movzbl	(%rcx,%rsi), %r10d
	leal	-48(%r10), %r8d
	cmpb	$9, %r8b
	ja	.LBB68_1
	addq	%rax, %rax
	leaq	(%rax,%rax,4), %r8
	andl	$15, %r10d
	movq	%r10, %rax
	addq	%r8, %rax
	jb	.LBB68_1
	cmpq	%rdx, %rax
	ja	.LBB68_1
	incq	%rsi
	cmpq	%rsi, 8(%rsp)
	jne	.LBB68_62
	negq	%rax
	jmp	.LBB68_128
.LBB68_68:
	movzbl	(%rcx), %eax
	cmpb	$45, %al
	jne	.LBB68_130
	movzbl	1(%rcx), %eax
	addb	$-49, %al
	cmpb	$9, %al
	jae	.LBB68_2
	jmp	.LBB68_131
.LBB68_70:
	movzbl	(%rcx), %eax
	cmpb	$45, %al
	jne	.LBB68_138
	movzbl	1(%rcx), %eax
	addb	$-49, %al
	cmpb	$9, %al
	jae	.LBB68_2
	jmp	.LBB68_139
.LBB68_72:
	movzbl	(%rcx), %eax
	cmpb	$45, %al
	jne	.LBB68_146
	movzbl	1(%rcx), %eax
	addb	$-49, %al
	cmpb	$8, %al
	ja	.LBB68_2
	movabsq	$-9223372036854775808, %rdx
	movl	$1, %esi
	movabsq	$1844674407370955162, %r9
	xorl	%eax, %eax
.LBB68_75:
	cmpq	%r9, %rax
	jae	.LBB68_1
	movzbl	(%rcx,%rsi), %r10d
	leal	-48(%r10), %r8d
	cmpb	$9, %r8b
	ja	.LBB68_1
	addq	%rax, %rax
	leaq	(%rax,%rax,4), %r8
	andl	$15, %r10d
	movq	%r10, %rax
	addq	%r8, %rax
	jb	.LBB68_1
	cmpq	%rdx, %rax
	ja	.LBB68_1
	incq	%rsi
	cmpq	%rsi, 8(%rsp)
	jne	.LBB68_75
	negq	%rax
	jmp	.LBB68_153
.LBB68_81:
	movzbl	(%rcx), %eax
	cmpb	$45, %al
	jne	.LBB68_155
	movzbl	1(%rcx), %eax
	addb	$-49, %al
	cmpb	$8, %al
	ja	.LBB68_2
	movabsq	$-9223372036854775808, %rdx
	movl	$1, %esi
	movabsq	$1844674407370955162, %r9
	xorl	%eax, %eax
.LBB68_84:
	cmpq	%r9, %rax
	jae	.LBB68_1
	movzbl	(%rcx,%rsi), %r10d
	leal	-48(%r10), %r8d
	cmpb	$9, %r8b
	ja	.LBB68_1
	addq	%rax, %rax
	leaq	(%rax,%rax,4), %r8
	andl	$15, %r10d
	movq	%r10, %rax
	addq	%r8, %rax
	jb	.LBB68_1
	cmpq	%rdx, %rax
	ja	.LBB68_1
	incq	%rsi
	cmpq	%rsi, 8(%rsp)
	jne	.LBB68_84
	negq	%rax
	jmp	.LBB68_162
.LBB68_90:
	movzbl	(%rcx), %eax
	cmpb	$45, %al
	jne	.LBB68_164
	movzbl	1(%rcx), %eax
	addb	$-49, %al
	cmpb	$9, %al
	jae	.LBB68_2
	jmp	.LBB68_165
.LBB68_92:
	movzbl	(%rcx), %eax
	cmpb	$45, %al
	jne	.LBB68_171
	movzbl	1(%rcx), %eax
	addb	$-49, %al
	cmpb	$8, %al
	ja	.LBB68_2
	movabsq	$-9223372036854775808, %rdx
	movl	$1, %esi
	movabsq	$1844674407370955162, %r9
	xorl	%eax, %eax
.LBB68_95:
	cmpq	%r9, %rax
	jae	.LBB68_1
	movzbl	(%rcx,%rsi), %r10d
	leal	-48(%r10), %r8d
	cmpb	$9, %r8b
	ja	.LBB68_1
	addq	%rax, %rax
	leaq	(%rax,%rax,4), %r8
	andl	$15, %r10d
	movq	%r10, %rax
	addq	%r8, %rax
	jb	.LBB68_1
	cmpq	%rdx, %rax
	ja	.LBB68_1
	incq	%rsi
	cmpq	%rsi, 8(%rsp)
	jne	.LBB68_95
	negq	%rax
	jmp	.LBB68_178
.LBB68_101:
	movq	%rsi, %r9
	leaq	.Lstatic.1(%rip), %r11
	movq	120(%rsp), %rsi
	cmpq	%rsi, %r10
	jb	.LBB68_39
.LBB68_102:
	xorl	%ecx, %ecx
	xorl	%r14d, %r14d
	movq	%r10, %rbp
	xorl	%r15d, %r15d
	movq	104(%rsp), %r13
	movq	32(%rsp), %r8
	jmp	.LBB68_255
.LBB68_103:
	cmpl	$46, %ecx
	je	.LBB68_190
	cmpl	$69, %ecx
	je	.LBB68_106
	cmpl	$101, %ecx
	jne	.LBB68_188
.LBB68_106:
	leaq	1(%r10), %r12
	cmpq	%rsi, %r12
	jae	.LBB68_179
	movzbl	1(%r10,%r9), %eax
	jmp	.LBB68_180
.LBB68_108:
	cmpl	$46, %esi
	je	.LBB68_207
	cmpl	$69, %esi
	je	.LBB68_111
	cmpl	$101, %esi
	jne	.LBB68_205
.LBB68_111:
	leaq	1(%r10), %r12
	cmpq	%rdx, %r12
	jae	.LBB68_196
	movzbl	1(%r10,%rdi), %ecx
	jmp	.LBB68_197
.LBB68_113:
	addb	$-49, %al
	cmpb	$8, %al
	ja	.LBB68_2
.LBB68_114:
	movabsq	$1844674407370955162, %rdx
	xorl	%eax, %eax
	xorl	%esi, %esi
	.p2align	4
.LBB68_115:
	cmpq	%rdx, %rax
	jae	.LBB68_1
	movzbl	(%rcx,%rsi), %r9d
	leal	-48(%r9), %r8d
	cmpb	$9, %r8b
	ja	.LBB68_1
	addq	%rax, %rax
	leaq	(%rax,%rax,4), %r8
	andl	$15, %r9d
	movq	%r9, %rax
	addq	%r8, %rax
	jb	.LBB68_1
	incq	%rsi
	cmpq	%rsi, 8(%rsp)
	jne	.LBB68_115
	cmpq	$65535, %rax
	ja	.LBB68_1
	movl	%eax, %ecx
	shrl	$8, %ecx
	shll	$8, %eax
	orl	%ecx, %eax
	movw	%ax, 44(%rsp)
	leaq	48(%rsp), %rdi
	leaq	44(%rsp), %rcx
	movl	$2, %r8d
	movq	24(%rsp), %rsi
	movl	$117, %edx
	callq	"amqp_json::reading::put::put"
	jmp	.LBB68_344
.LBB68_121:
	addb	$-49, %al
	cmpb	$9, %al
	jae	.LBB68_2
.LBB68_122:
	movabsq	$1844674407370955162, %rdx
	xorl	%eax, %eax
	xorl	%esi, %esi
.LBB68_123:
	cmpq	%rdx, %rax
	jae	.LBB68_1
	movzbl	(%rcx,%rsi), %r9d
	leal	-48(%r9), %r8d
	cmpb	$9, %r8b
	ja	.LBB68_1
	addq	%rax, %rax
	leaq	(%rax,%rax,4), %r8
	andl	$15, %r9d
	movq	%r9, %rax
	addq	%r8, %rax
	jb	.LBB68_1
	js	.LBB68_1
	incq	%rsi
	cmpq	%rsi, 8(%rsp)
	jne	.LBB68_123
.LBB68_128:
	movslq	%eax, %rcx
	cmpq	%rax, %rcx
	jne	.LBB68_1
	bswapl	%eax
	movl	%eax, 116(%rsp)
	leaq	48(%rsp), %rdi
	leaq	116(%rsp), %rcx
	movl	$4, %r8d
	movq	24(%rsp), %rsi
	movl	$73, %edx
	callq	"amqp_json::reading::put::put"
	jmp	.LBB68_344
.LBB68_130:
	addb	$-49, %al
	cmpb	$8, %al
	ja	.LBB68_2
.LBB68_131:
	movabsq	$1844674407370955162, %rdx
	xorl	%eax, %eax
	xorl	%esi, %esi
	.p2align	4
.LBB68_132:
	cmpq	%rdx, %rax
	jae	.LBB68_1
	movzbl	(%rcx,%rsi), %r9d
	leal	-48(%r9), %r8d
	cmpb	$9, %r8b
	ja	.LBB68_1
	addq	%rax, %rax
	leaq	(%rax,%rax,4), %r8
	andl	$15, %r9d
	movq	%r9, %rax
	addq	%r8, %rax
	jb	.LBB68_1
	incq	%rsi
	cmpq	%rsi, 8(%rsp)
	jne	.LBB68_132
	cmpq	$255, %rax
	ja	.LBB68_1
	movb	%al, 22(%rsp)
	leaq	48(%rsp), %rdi
	leaq	22(%rsp), %rcx
	movl	$1, %r8d
	movq	24(%rsp), %rsi
	movl	$66, %edx
	callq	"amqp_json::reading::put::put"
	jmp	.LBB68_344
.LBB68_138:
	addb	$-49, %al
	cmpb	$8, %al
	ja	.LBB68_2
.LBB68_139:
	movabsq	$1844674407370955162, %rdx
	xorl	%eax, %eax
	xorl	%esi, %esi
	.p2align	4
.LBB68_140:
	cmpq	%rdx, %rax
	jae	.LBB68_1
	movzbl	(%rcx,%rsi), %r9d
	leal	-48(%r9), %r8d
	cmpb	$9, %r8b
	ja	.LBB68_1
	addq	%rax, %rax
	leaq	(%rax,%rax,4), %r8
	andl	$15, %r9d
	movq	%r9, %rax
	addq	%r8, %rax
	jb	.LBB68_1
	incq	%rsi
	cmpq	%rsi, 8(%rsp)
	jne	.LBB68_140
	movq	%rax, %rcx
	shrq	$32, %rcx
	jne	.LBB68_1
	movq	%rax, %rcx
	shrq	$24, %rcx
	andl	$16777215, %eax
	bswapl	%eax
	orl	%ecx, %eax
	movl	%eax, 112(%rsp)
	leaq	48(%rsp), %rdi
	leaq	112(%rsp), %rcx
	movl	$4, %r8d
	movq	24(%rsp), %rsi
	movl	$105, %edx
	callq	"amqp_json::reading::put::put"
	jmp	.LBB68_344
.LBB68_146:
	addb	$-49, %al
	cmpb	$9, %al
	jae	.LBB68_2
.LBB68_147:
	movabsq	$1844674407370955162, %rdx
	xorl	%eax, %eax
	xorl	%esi, %esi
.LBB68_148:
	cmpq	%rdx, %rax
	jae	.LBB68_1
	movzbl	(%rcx,%rsi), %r9d
	leal	-48(%r9), %r8d
	cmpb	$9, %r8b
	ja	.LBB68_1
	addq	%rax, %rax
	leaq	(%rax,%rax,4), %r8
	andl	$15, %r9d
	movq	%r9, %rax
	addq	%r8, %rax
	jb	.LBB68_1
	js	.LBB68_1
	incq	%rsi
	cmpq	%rsi, 8(%rsp)
	jne	.LBB68_148
.LBB68_153:
	movswq	%ax, %rcx
	cmpq	%rax, %rcx
	jne	.LBB68_1
	rolw	$8, %ax
	movw	%ax, 46(%rsp)
	leaq	48(%rsp), %rdi
	leaq	46(%rsp), %rcx
	movl	$2, %r8d
	movq	24(%rsp), %rsi
	movl	$115, %edx
	callq	"amqp_json::reading::put::put"
	jmp	.LBB68_344
.LBB68_155:
	addb	$-49, %al
	cmpb	$9, %al
	jae	.LBB68_2
.LBB68_156:
	movabsq	$1844674407370955162, %rdx
	xorl	%eax, %eax
	xorl	%esi, %esi
.LBB68_157:
	cmpq	%rdx, %rax
	jae	.LBB68_1
	movzbl	(%rcx,%rsi), %r9d
	leal	-48(%r9), %r8d
	cmpb	$9, %r8b
	ja	.LBB68_1
	addq	%rax, %rax
	leaq	(%rax,%rax,4), %r8
	andl	$15, %r9d
	movq	%r9, %rax
	addq	%r8, %rax
	jb	.LBB68_1
	js	.LBB68_1
	incq	%rsi
	cmpq	%rsi, 8(%rsp)
	jne	.LBB68_157
.LBB68_162:
	movsbq	%al, %rcx
	cmpq	%rax, %rcx
	jne	.LBB68_1
	movb	%al, 23(%rsp)
	leaq	48(%rsp), %rdi
	leaq	23(%rsp), %rcx
	movl	$1, %r8d
	movq	24(%rsp), %rsi
	movl	$98, %edx
	callq	"amqp_json::reading::put::put"
	jmp	.LBB68_344
.LBB68_164:
	addb	$-49, %al
	cmpb	$8, %al
	ja	.LBB68_2
.LBB68_165:
	movabsq	$1844674407370955162, %rax
	xorl	%edx, %edx
	xorl	%esi, %esi
	.p2align	4
.LBB68_166:
	cmpq	%rax, %rdx
	jae	.LBB68_1
	movzbl	(%rcx,%rsi), %r9d
	leal	-48(%r9), %r8d
	cmpb	$9, %r8b
	ja	.LBB68_1
	addq	%rdx, %rdx
	leaq	(%rdx,%rdx,4), %r8
	andl	$15, %r9d
	movq	%r9, %rdx
	addq	%r8, %rdx
	jb	.LBB68_1
	incq	%rsi
	cmpq	%rsi, 8(%rsp)
	jne	.LBB68_166
	bswapq	%rdx
	movq	%rdx, 144(%rsp)
	leaq	48(%rsp), %rdi
	leaq	144(%rsp), %rcx
	movl	$8, %r8d
	movq	24(%rsp), %rsi
	movl	$84, %edx
	callq	"amqp_json::reading::put::put"
	jmp	.LBB68_344
.LBB68_171:
	addb	$-49, %al
	cmpb	$9, %al
	jae	.LBB68_2
.LBB68_172:
	movabsq	$1844674407370955162, %rdx
	xorl	%eax, %eax
	xorl	%esi, %esi
.LBB68_173:
	cmpq	%rdx, %rax
	jae	.LBB68_1
	movzbl	(%rcx,%rsi), %r9d
	leal	-48(%r9), %r8d
	cmpb	$9, %r8b
	ja	.LBB68_1
	addq	%rax, %rax
	leaq	(%rax,%rax,4), %r8
	andl	$15, %r9d
	movq	%r9, %rax
	addq	%r8, %rax
	jb	.LBB68_1
	js	.LBB68_1
	incq	%rsi
	cmpq	%rsi, 8(%rsp)
	jne	.LBB68_173
.LBB68_178:
	bswapq	%rax
	movq	%rax, 152(%rsp)
	leaq	48(%rsp), %rdi
	leaq	152(%rsp), %rcx
	movl	$8, %r8d
	movq	24(%rsp), %rsi
	movl	$108, %edx
	callq	"amqp_json::reading::put::put"
	jmp	.LBB68_344
.LBB68_179:
	xorl	%eax, %eax
.LBB68_180:
	leaq	2(%r10), %rbp
	addb	$-43, %al
	testb	$-3, %al
	cmovneq	%r12, %rbp
	cmpq	%rsi, %rbp
	jae	.LBB68_188
	xorl	%ecx, %ecx
	movl	$0, %r14d
	testq	%rbp, %rbp
	je	.LBB68_189
	movzbl	(%r9,%rbp), %eax
	addb	$-58, %al
	cmpb	$-10, %al
	jb	.LBB68_189
	movabsq	$1844674407370955162, %rax
	xorl	%r15d, %r15d
	jmp	.LBB68_185
.LBB68_184:
	incq	%rbp
	movq	%rcx, %r15
	cmpq	%rsi, %rbp
	jae	.LBB68_230
.LBB68_185:
	movzbl	(%r9,%rbp), %edx
	addb	$-48, %dl
	cmpb	$9, %dl
	ja	.LBB68_231
	movq	$-1, %rcx
	cmpq	%rax, %r15
	jae	.LBB68_184
	addq	%r15, %r15
	leaq	(%r15,%r15,4), %rcx
	movzbl	%dl, %edx
	addq	%rcx, %rdx
	movq	$-1, %rcx
	cmovaeq	%rdx, %rcx
	jmp	.LBB68_184
.LBB68_188:
	xorl	%ecx, %ecx
	xorl	%r14d, %r14d
.LBB68_189:
	movq	%r10, %rbp
	jmp	.LBB68_254
.LBB68_190:
	movabsq	$9187201950435737470, %r11
	movabsq	$8536140394893047414, %r15
	movabsq	$3472328296227680304, %r12
	movabsq	$1095216660735, %r14
	leaq	1(%r10), %rbp
	jmp	.LBB68_193
.LBB68_191:
	rep		bsfq	%rax, %rcx
	movl	%ecx, %eax
	shrl	$3, %eax
	notb	%cl
	andb	$56, %cl
	shlq	%cl, %rdx
	imulq	$2561, %rdx, %rcx
	movq	%rcx, %rdx
	andq	%r14, %rdx
	movabsq	$4294967296000100, %rdi
	imulq	%rdi, %rdx
	shrq	$16, %rcx
	andq	%r14, %rcx
	movabsq	$42949672960001, %rdi
	imulq	%rdi, %rcx
	addq	%rdx, %rcx
.LBB68_192:
	leaq	.Lstatic.2(%rip), %rdx
	imulq	(%rdx,%rax,8), %rbx
	shrq	$32, %rcx
	addq	%rcx, %rbx
	addq	%rax, %rbp
	cmpq	$8, %rax
	jb	.LBB68_240
.LBB68_193:
	movq	%rsi, %rax
	subq	%rbp, %rax
	cmpq	$8, %rax
	jb	.LBB68_213
	movq	(%r9,%rbp), %rcx
	movq	%rcx, %rdx
	xorq	%r12, %rdx
	movq	%rdx, %rax
	andq	%r11, %rax
	addq	%r15, %rax
	orq	%rcx, %rax
	movabsq	$-9187201950435737472, %rcx
	andq	%rcx, %rax
	jne	.LBB68_191
	leaq	(%rdx,%rdx,4), %rax
	shrq	$8, %rdx
	leaq	(%rdx,%rax,2), %rcx
	movq	%rcx, %rax
	andq	%r14, %rax
	movabsq	$4294967296000100, %rdx
	imulq	%rdx, %rax
	shrq	$16, %rcx
	andq	%r14, %rcx
	movabsq	$42949672960001, %rdx
	imulq	%rdx, %rcx
	addq	%rax, %rcx
	movl	$8, %eax
	jmp	.LBB68_192
.LBB68_196:
	xorl	%ecx, %ecx
.LBB68_197:
	leaq	2(%r10), %rbp
	addb	$-43, %cl
	testb	$-3, %cl
	cmovneq	%r12, %rbp
	cmpq	%rdx, %rbp
	jae	.LBB68_205
	xorl	%ecx, %ecx
	movl	$0, %r14d
	testq	%rbp, %rbp
	je	.LBB68_206
	movzbl	(%rdi,%rbp), %eax
	addb	$-58, %al
	cmpb	$-10, %al
	jb	.LBB68_206
	movabsq	$1844674407370955162, %rcx
	xorl	%r15d, %r15d
	jmp	.LBB68_202
.LBB68_201:
	incq	%rbp
	movq	%rsi, %r15
	movq	32(%rsp), %rdx
	cmpq	%rdx, %rbp
	jae	.LBB68_234
.LBB68_202:
	movzbl	(%rdi,%rbp), %r9d
	addb	$-48, %r9b
	cmpb	$9, %r9b
	ja	.LBB68_229
	movq	$-1, %rsi
	cmpq	%rcx, %r15
	jae	.LBB68_201
	addq	%r15, %r15
	leaq	(%r15,%r15,4), %rax
	movzbl	%r9b, %edx
	addq	%rax, %rdx
	cmovaeq	%rdx, %rsi
	jmp	.LBB68_201
.LBB68_205:
	xorl	%ecx, %ecx
	xorl	%r14d, %r14d
.LBB68_206:
	movq	%r10, %rbp
	jmp	.LBB68_309
.LBB68_207:
	movabsq	$9187201950435737470, %r11
	movabsq	$8536140394893047414, %r15
	movabsq	$3472328296227680304, %r12
	movabsq	$42949672960001, %r8
	movabsq	$1095216660735, %r14
	leaq	1(%r10), %rbp
	jmp	.LBB68_210
.LBB68_208:
	rep		bsfq	%rcx, %rcx
	movl	%ecx, %esi
	shrl	$3, %esi
	notb	%cl
	andb	$56, %cl
	shlq	%cl, %r9
	imulq	$2561, %r9, %rcx
	movq	%rcx, %rax
	andq	%r14, %rax
	movabsq	$4294967296000100, %rdx
	imulq	%rdx, %rax
	shrq	$16, %rcx
	andq	%r14, %rcx
	imulq	%r8, %rcx
	addq	%rax, %rcx
.LBB68_209:
	leaq	.Lstatic.2(%rip), %rax
	imulq	(%rax,%rsi,8), %rbx
	shrq	$32, %rcx
	addq	%rcx, %rbx
	addq	%rsi, %rbp
	cmpq	$8, %rsi
	movq	32(%rsp), %rdx
	jb	.LBB68_295
.LBB68_210:
	movq	%rdx, %rax
	subq	%rbp, %rax
	cmpq	$8, %rax
	jb	.LBB68_217
	movq	(%rdi,%rbp), %rax
	movq	%rax, %r9
	xorq	%r12, %r9
	movq	%r9, %rcx
	andq	%r11, %rcx
	addq	%r15, %rcx
	orq	%rax, %rcx
	movabsq	$-9187201950435737472, %rax
	andq	%rax, %rcx
	jne	.LBB68_208
	leaq	(%r9,%r9,4), %rax
	shrq	$8, %r9
	leaq	(%r9,%rax,2), %rcx
	movq	%rcx, %rax
	andq	%r14, %rax
	movabsq	$4294967296000100, %rdx
	imulq	%rdx, %rax
	shrq	$16, %rcx
	andq	%r14, %rcx
	imulq	%r8, %rcx
	addq	%rax, %rcx
	movl	$8, %esi
	jmp	.LBB68_209
.LBB68_213:
	cmpq	$12, %rsi
	jb	.LBB68_221
	cmpq	%rbp, %rsi
	jbe	.LBB68_221
	leaq	-8(%rsi), %rax
	movq	-8(%r9,%rsi), %rdx
	movl	%ebp, %ecx
	subl	%eax, %ecx
	shll	$3, %ecx
	shrq	%cl, %rdx
	xorq	%rdx, %r12
	andq	%r12, %r11
	addq	%r15, %r11
	orq	%rdx, %r11
	movabsq	$-9187201950435737472, %rax
	andq	%rax, %r11
	je	.LBB68_238
	rep		bsfq	%r11, %rcx
	movl	%ecx, %edx
	shrl	$3, %edx
	notb	%cl
	andb	$56, %cl
	shlq	%cl, %r12
	imulq	$2561, %r12, %rax
	movq	%rax, %rcx
	andq	%r14, %rcx
	movabsq	$4294967296000100, %r11
	imulq	%r11, %rcx
	shrq	$16, %rax
	andq	%r14, %rax
	movabsq	$42949672960001, %rdi
	imulq	%rdi, %rax
	addq	%rcx, %rax
	jmp	.LBB68_239
.LBB68_217:
	cmpq	$12, %rdx
	jb	.LBB68_225
	cmpq	%rbp, %rdx
	jbe	.LBB68_225
	leaq	-8(%rdx), %rax
	movq	-8(%rdi,%rdx), %rsi
	movl	%ebp, %ecx
	subl	%eax, %ecx
	shll	$3, %ecx
	shrq	%cl, %rsi
	xorq	%rsi, %r12
	andq	%r12, %r11
	addq	%r15, %r11
	orq	%rsi, %r11
	movabsq	$-9187201950435737472, %rax
	andq	%rax, %r11
	je	.LBB68_293
	rep		bsfq	%r11, %rcx
	movl	%ecx, %esi
	shrl	$3, %esi
	notb	%cl
	andb	$56, %cl
	shlq	%cl, %r12
	imulq	$2561, %r12, %rcx
	movq	%rcx, %rax
	andq	%r14, %rax
	movabsq	$4294967296000100, %r9
	imulq	%r9, %rax
	shrq	$16, %rcx
	andq	%r14, %rcx
	imulq	%r8, %rcx
	addq	%rax, %rcx
	jmp	.LBB68_294
.LBB68_221:
	cmpq	%rbp, %rsi
	jbe	.LBB68_240
.LBB68_222:
	movzbl	(%r9,%rbp), %eax
	addb	$-48, %al
	cmpb	$9, %al
	ja	.LBB68_240
	leaq	(%rbx,%rbx,4), %rcx
	movzbl	%al, %eax
	leaq	(%rax,%rcx,2), %rbx
	incq	%rbp
	cmpq	%rsi, %rbp
	jb	.LBB68_222
	leaq	(%r10,%r9), %r11
	incq	%r11
	movq	%r8, %rcx
	notq	%rcx
	addq	8(%rsp), %rcx
	subq	%r10, %rcx
	jmp	.LBB68_43
.LBB68_225:
	cmpq	%rbp, %rdx
	jbe	.LBB68_295
.LBB68_226:
	movzbl	(%rdi,%rbp), %ecx
	addb	$-48, %cl
	cmpb	$9, %cl
	ja	.LBB68_295
	leaq	(%rbx,%rbx,4), %rax
	movzbl	%cl, %ecx
	leaq	(%rcx,%rax,2), %rbx
	incq	%rbp
	cmpq	%rdx, %rbp
	jb	.LBB68_226
	leaq	(%r10,%rdi), %r11
	incq	%r11
	movq	96(%rsp), %rcx
	notq	%rcx
	addq	8(%rsp), %rcx
	subq	%r10, %rcx
	jmp	.LBB68_55
.LBB68_229:
	movq	32(%rsp), %rdx
	jmp	.LBB68_235
.LBB68_230:
	movq	%rcx, %r15
	movq	%rsi, %rbp
.LBB68_231:
	cmpq	%rsi, %r12
	jae	.LBB68_233
	cmpb	$45, 1(%r10,%r9)
	sete	%r14b
	xorl	%ecx, %ecx
	jmp	.LBB68_255
.LBB68_233:
	xorl	%ecx, %ecx
	xorl	%r14d, %r14d
	jmp	.LBB68_255
.LBB68_234:
	movq	%rsi, %r15
	movq	%rdx, %rbp
.LBB68_235:
	cmpq	%rdx, %r12
	jae	.LBB68_237
	cmpb	$45, 1(%r10,%rdi)
	sete	%r14b
	xorl	%ecx, %ecx
	jmp	.LBB68_310
.LBB68_237:
	xorl	%ecx, %ecx
	xorl	%r14d, %r14d
	jmp	.LBB68_310
.LBB68_238:
	leaq	(%r12,%r12,4), %rax
	shrq	$8, %r12
	leaq	(%r12,%rax,2), %rax
	movq	%rax, %rcx
	andq	%r14, %rcx
	movabsq	$4294967296000100, %rdx
	imulq	%rdx, %rcx
	shrq	$16, %rax
	andq	%r14, %rax
	movabsq	$42949672960001, %rdx
	imulq	%rdx, %rax
	addq	%rcx, %rax
	movl	$8, %edx
.LBB68_239:
	shrq	$32, %rax
	addq	%rdx, %rbp
	leaq	.Lstatic.2(%rip), %rcx
	imulq	(%rcx,%rdx,8), %rbx
	addq	%rax, %rbx
.LBB68_240:
	leaq	(%r10,%r9), %r11
	incq	%r11
	movq	%r10, %rcx
	notq	%rcx
	addq	%rbp, %rcx
	cmpq	%rsi, %rbp
	jae	.LBB68_253
	movzbl	(%r9,%rbp), %eax
	orl	$32, %eax
	cmpl	$101, %eax
	jne	.LBB68_253
	leaq	1(%rbp), %rdx
	cmpq	%rsi, %rdx
	jae	.LBB68_244
	movzbl	(%r9,%rdx), %eax
	jmp	.LBB68_245
.LBB68_244:
	xorl	%eax, %eax
.LBB68_245:
	leaq	2(%rbp), %r12
	addb	$-43, %al
	testb	$-3, %al
	cmovneq	%rdx, %r12
	cmpq	%rsi, %r12
	jae	.LBB68_253
	xorl	%r15d, %r15d
	movl	$0, %r14d
	testq	%r12, %r12
	je	.LBB68_255
	movzbl	(%r9,%r12), %eax
	addb	$-58, %al
	cmpb	$-10, %al
	jb	.LBB68_255
	movq	%rdx, %r14
	movabsq	$1844674407370955162, %rax
	xorl	%r15d, %r15d
	jmp	.LBB68_250
.LBB68_249:
	incq	%r12
	movq	%rdx, %r15
	cmpq	%rsi, %r12
	jae	.LBB68_358
.LBB68_250:
	movzbl	(%r9,%r12), %ebp
	addb	$-48, %bpl
	cmpb	$9, %bpl
	ja	.LBB68_356
	movq	$-1, %rdx
	cmpq	%rax, %r15
	jae	.LBB68_249
	addq	%r15, %r15
	leaq	(%r15,%r15,4), %rdx
	movq	%rsi, %rdi
	movzbl	%bpl, %esi
	addq	%rdx, %rsi
	movq	$-1, %rdx
	cmovaeq	%rsi, %rdx
	movq	%rdi, %rsi
	jmp	.LBB68_249
.LBB68_253:
	xorl	%r14d, %r14d
.LBB68_254:
	xorl	%r15d, %r15d
.LBB68_255:
	movq	%r10, %rax
	addq	%rcx, %rax
	je	.LBB68_275
	xorl	%r12d, %r12d
	testb	%r14b, %r14b
	movq	%r15, %r14
	cmovneq	%r12, %r14
	cmovneq	%r15, %r12
	cmpq	$19, %rax
	ja	.LBB68_277
	shrq	$32, %r15
	jne	.LBB68_277
	pxor	%xmm0, %xmm0
	testq	%rbx, %rbx
	je	.LBB68_278
	addq	%rcx, %r12
	movq	%r12, %r15
	subq	%r14, %r15
	jbe	.LBB68_263
	cmpq	$16777216, %rbx
	ja	.LBB68_266
	cmpq	$10, %r15
	ja	.LBB68_266
	xorps	%xmm0, %xmm0
	cvtsi2ss	%rbx, %xmm0
	leaq	.Lstatic.4(%rip), %rax
	divss	(%rax,%r15,4), %xmm0
	cmpb	$45, 96(%rsp)
	je	.LBB68_279
	jmp	.LBB68_280
.LBB68_263:
	subq	%r12, %r14
	cmpq	$16777216, %rbx
	ja	.LBB68_271
	cmpq	$10, %r14
	ja	.LBB68_271
	xorps	%xmm0, %xmm0
	cvtsi2ss	%rbx, %xmm0
	leaq	.Lstatic.4(%rip), %rax
	mulss	(%rax,%r14,4), %xmm0
	cmpb	$45, 96(%rsp)
	je	.LBB68_279
	jmp	.LBB68_280
.LBB68_266:
	cmpq	$342, %r15
	ja	.LBB68_278
	movl	$342, %r10d
	subq	%r15, %r10
	bsrq	%rbx, %r11
	xorq	$63, %r11
	movq	%rbx, %rax
	movl	%r11d, %ecx
	shlq	%cl, %rax
	imull	$217706, %r10d, %esi
	movl	%r10d, %ecx
	shll	$4, %ecx
	leaq	.Lstatic.3(%rip), %rdx
	mulq	8(%rcx,%rdx)
	movq	%rdx, %rcx
	shrq	$63, %rcx
	addl	$58980, %esi
	shrl	$16, %esi
	leaq	(%rsi,%rcx), %r14
	addq	$214, %r14
	addq	$1162, %r11
	subq	%r11, %r14
	jb	.LBB68_291
	movabsq	$-549755813888, %rax
	shlq	%cl, %rax
	notq	%rax
	movabsq	$274877906944, %rsi
	shlq	%cl, %rsi
	andq	%rdx, %rax
	movq	%rsi, %r8
	subq	%rax, %r8
	cmpq	$2, %r8
	jb	.LBB68_291
	addb	$39, %cl
	shrq	%cl, %rdx
	shlq	$23, %r14
	cmpq	%rax, %rsi
	adcq	%rdx, %r14
.LBB68_270:
	movq	32(%rsp), %r8
	movd	%r14d, %xmm0
	cmpb	$45, 96(%rsp)
	je	.LBB68_279
	jmp	.LBB68_280
.LBB68_271:
	cmpq	$308, %r14
	jbe	.LBB68_273
	movd	.LCPI68_2(%rip), %xmm0
	cmpb	$45, 96(%rsp)
	je	.LBB68_279
	jmp	.LBB68_280
.LBB68_273:
	bsrq	%rbx, %r10
	xorq	$63, %r10
	movq	%rbx, %rax
	movl	%r10d, %ecx
	shlq	%cl, %rax
	leaq	342(%r14), %r11
	movq	%r11, %rcx
	shlq	$4, %rcx
	leaq	.Lstatic.3(%rip), %rdx
	mulq	8(%rcx,%rdx)
	movq	%rdx, %rax
	shrq	$63, %rax
	movabsq	$-549755813888, %rsi
	movl	%eax, %ecx
	shlq	%cl, %rsi
	notq	%rsi
	movabsq	$274877906944, %r9
	shlq	%cl, %r9
	andq	%rdx, %rsi
	movq	%r9, %rcx
	subq	%rsi, %rcx
	cmpq	$1, %rcx
	jbe	.LBB68_352
	leal	39(%rax), %ecx
	shrq	%cl, %rdx
	imulq	$217706, %r11, %rcx
	addq	$58980, %rcx
	shrq	$16, %rcx
	subq	%r10, %rcx
	addq	%rax, %rcx
	shlq	$23, %rcx
	cmpq	%rsi, %r9
	adcq	%rdx, %rcx
	movabsq	$-7952400384, %rax
	addq	%rcx, %rax
	cmpq	$2139095040, %rax
	movl	$2139095040, %r15d
	cmovbq	%rax, %r15
	movd	%r15d, %xmm0
	cmpb	$45, 96(%rsp)
	je	.LBB68_279
	jmp	.LBB68_280
.LBB68_275:
	xorl	%ecx, %ecx
	cmpb	$45, 96(%rsp)
	sete	%cl
	leaq	160(%rsp), %rdi
	movq	%rsi, %rdx
	movq	%r9, %rsi
	callq	"core::dec2flt::words::read_word::<#11bd57d74d267e9b>"
	cmpb	$1, 160(%rsp)
	jne	.LBB68_1
	movd	168(%rsp), %xmm0
	movq	176(%rsp), %rbp
	movq	32(%rsp), %r8
	jmp	.LBB68_280
.LBB68_277:
	movq	%r9, %rdi
	movq	%r10, %rsi
	movq	%r11, %rdx
	movq	%r14, %r8
	movq	%r12, %r9
	callq	"core::dec2flt::long::from_long::<#11bd57d74d267e9b>"
	movq	32(%rsp), %r8
	movd	%eax, %xmm0
.LBB68_278:
	cmpb	$45, 96(%rsp)
	jne	.LBB68_280
.LBB68_279:
	pxor	.LCPI68_3(%rip), %xmm0
.LBB68_280:
	addq	%r8, %rbp
	cmpq	8(%rsp), %rbp
	jne	.LBB68_1
	movdqa	%xmm0, %xmm1
	subss	%xmm0, %xmm1
	xorps	%xmm2, %xmm2
	ucomiss	%xmm2, %xmm1
	jne	.LBB68_1
	jp	.LBB68_1
	movd	%xmm0, %ebx
	bswapl	%ebx
	movl	%ebx, 92(%rsp)
	movq	24(%rsp), %rcx
	movq	8(%rcx), %rax
	movq	16(%rcx), %rcx
	cmpq	%rax, %rcx
	je	.LBB68_287
.LBB68_283:
	movq	24(%rsp), %rsi
	movq	(%rsi), %rdx
	movb	$102, (%rdx,%rax)
	incq	%rax
	movq	%rdx, (%rsi)
	movq	%rax, 8(%rsi)
	movq	%rcx, 16(%rsi)
	movq	%rcx, %rsi
	subq	%rax, %rsi
	cmpq	$3, %rsi
	jbe	.LBB68_289
.LBB68_284:
	leaq	4(%rax), %rsi
	leaq	(%rdx,%rax), %r8
	leaq	92(%rsp), %r9
	subq	%r9, %r8
	cmpq	$4, %r8
	jae	.LBB68_286
	movl	92(%rsp), %ebx
.LBB68_286:
	movl	%ebx, (%rdx,%rax)
	jmp	.LBB68_342
.LBB68_287:
	movq	24(%rsp), %rdi
	movl	$1, %esi
	movq	%rdi, %r15
	callq	"std_alloc::vec::Vec::grow_amortized::<#1283936d4ef01d73>"
	testb	%al, %al
	je	.LBB68_349
	movq	8(%r15), %rax
	movq	16(%r15), %rcx
	jmp	.LBB68_283
.LBB68_289:
	movq	24(%rsp), %rdi
	movl	$4, %esi
	movq	%rdi, %r15
	callq	"std_alloc::vec::Vec::grow_amortized::<#1283936d4ef01d73>"
	testb	%al, %al
	je	.LBB68_349
	movq	(%r15), %rdx
	movq	8(%r15), %rax
	movq	16(%r15), %rcx
	jmp	.LBB68_284
.LBB68_291:
	leaq	192(%rsp), %rdi
	movq	%rbx, %rsi
	xorl	%edx, %edx
	movq	%r10, %rcx
	callq	"core::dec2flt::lemire::eisel_lemire_wide::<#11bd57d74d267e9b>"
	movq	200(%rsp), %r14
	cmpb	$0, 192(%rsp)
	je	.LBB68_270
	movq	208(%rsp), %r12
	movq	%rbx, 192(%rsp)
	leaq	200(%rsp), %rdi
	movl	$584, %edx
	xorl	%esi, %esi
	callq	memset@PLT
	movq	$1, 784(%rsp)
	leaq	192(%rsp), %rdi
	xorl	%esi, %esi
	xorl	%edx, %edx
	movq	%r15, %rcx
	movq	%r14, %r8
	movq	%r12, %r9
	callq	"core::dec2flt::decimal::break_tie::<#11bd57d74d267e9b>"
	movq	%rax, %r14
	jmp	.LBB68_270
.LBB68_293:
	leaq	(%r12,%r12,4), %rax
	shrq	$8, %r12
	leaq	(%r12,%rax,2), %rcx
	movq	%rcx, %rax
	andq	%r14, %rax
	movabsq	$4294967296000100, %rsi
	imulq	%rsi, %rax
	shrq	$16, %rcx
	andq	%r14, %rcx
	imulq	%r8, %rcx
	addq	%rax, %rcx
	movl	$8, %esi
.LBB68_294:
	shrq	$32, %rcx
	addq	%rsi, %rbp
	leaq	.Lstatic.2(%rip), %rax
	imulq	(%rax,%rsi,8), %rbx
	addq	%rcx, %rbx
.LBB68_295:
	leaq	(%r10,%rdi), %r11
	incq	%r11
	movq	%r10, %rcx
	notq	%rcx
	addq	%rbp, %rcx
	cmpq	%rdx, %rbp
	jae	.LBB68_308
	movzbl	(%rdi,%rbp), %eax
	orl	$32, %eax
	cmpl	$101, %eax
	jne	.LBB68_308
	leaq	1(%rbp), %r8
	cmpq	%rdx, %r8
	jae	.LBB68_299
	movzbl	(%rdi,%r8), %esi
	jmp	.LBB68_300
.LBB68_299:
	xorl	%esi, %esi
.LBB68_300:
	leaq	2(%rbp), %r12
	addb	$-43, %sil
	testb	$-3, %sil
	cmovneq	%r8, %r12
	cmpq	%rdx, %r12
	jae	.LBB68_308
	xorl	%r15d, %r15d
	movl	$0, %r14d
	testq	%r12, %r12
	je	.LBB68_310
	movzbl	(%rdi,%r12), %eax
	addb	$-58, %al
	cmpb	$-10, %al
	jb	.LBB68_310
	movabsq	$1844674407370955162, %rsi
	xorl	%r15d, %r15d
	jmp	.LBB68_305
.LBB68_304:
	incq	%r12
	movq	%r9, %r15
	cmpq	32(%rsp), %r12
	jae	.LBB68_362
.LBB68_305:
	movzbl	(%rdi,%r12), %ebp
	addb	$-48, %bpl
	cmpb	$9, %bpl
	ja	.LBB68_357
	movq	$-1, %r9
	cmpq	%rsi, %r15
	jae	.LBB68_304
	addq	%r15, %r15
	leaq	(%r15,%r15,4), %rax
	movzbl	%bpl, %edx
	addq	%rax, %rdx
	cmovaeq	%rdx, %r9
	jmp	.LBB68_304
.LBB68_308:
	xorl	%r14d, %r14d
.LBB68_309:
	xorl	%r15d, %r15d
.LBB68_310:
	movq	%r10, %rsi
	addq	%rcx, %rsi
	je	.LBB68_330
	xorl	%r12d, %r12d
	testb	%r14b, %r14b
	movq	%r15, %r14
	cmovneq	%r12, %r14
	cmovneq	%r15, %r12
	cmpq	$19, %rsi
	ja	.LBB68_332
	shrq	$32, %r15
	jne	.LBB68_332
	pxor	%xmm0, %xmm0
	testq	%rbx, %rbx
	je	.LBB68_333
	addq	%rcx, %r12
	movq	%r12, %r15
	subq	%r14, %r15
	jbe	.LBB68_318
	movabsq	$9007199254740992, %rax
	cmpq	%rax, %rbx
	ja	.LBB68_321
	cmpq	$22, %r15
	ja	.LBB68_321
	xorps	%xmm0, %xmm0
	cvtsi2sd	%rbx, %xmm0
	leaq	.Lstatic.8(%rip), %rax
	divsd	(%rax,%r15,8), %xmm0
	cmpb	$45, 120(%rsp)
	je	.LBB68_334
	jmp	.LBB68_335
.LBB68_318:
	subq	%r12, %r14
	movabsq	$9007199254740992, %rax
	cmpq	%rax, %rbx
	ja	.LBB68_326
	cmpq	$22, %r14
	ja	.LBB68_326
	xorps	%xmm0, %xmm0
	cvtsi2sd	%rbx, %xmm0
	leaq	.Lstatic.8(%rip), %rax
	mulsd	(%rax,%r14,8), %xmm0
	cmpb	$45, 120(%rsp)
	je	.LBB68_334
	jmp	.LBB68_335
.LBB68_321:
	cmpq	$342, %r15
	ja	.LBB68_333
	movl	$342, %r10d
	subq	%r15, %r10
	bsrq	%rbx, %r11
	xorq	$63, %r11
	movq	%rbx, %rax
	movl	%r11d, %ecx
	shlq	%cl, %rax
	imull	$217706, %r10d, %esi
	movl	%r10d, %ecx
	shll	$4, %ecx
	leaq	.Lstatic.3(%rip), %rdx
	mulq	8(%rcx,%rdx)
	movq	%rdx, %rcx
	shrq	$63, %rcx
	addl	$58980, %esi
	shrl	$16, %esi
	leaq	(%rsi,%rcx), %r14
	addq	$1139, %r14
	addq	$1191, %r11
	cmpq	%r11, %r14
	jb	.LBB68_350
	movl	$-1024, %r8d
	shll	%cl, %r8d
	notl	%r8d
	movl	%edx, %eax
	movl	$512, %esi
	shlq	%cl, %rsi
	andl	%r8d, %eax
	movq	%rsi, %r8
	subq	%rax, %r8
	cmpq	$2, %r8
	jb	.LBB68_350
	orb	$10, %cl
	shrq	%cl, %rdx
	subl	%r11d, %r14d
	shlq	$52, %r14
	cmpl	%eax, %esi
	adcq	%rdx, %r14
.LBB68_325:
	movq	%r14, %xmm0
	cmpb	$45, 120(%rsp)
	je	.LBB68_334
	jmp	.LBB68_335
.LBB68_326:
	cmpq	$308, %r14
	jbe	.LBB68_328
	movq	.LCPI68_0(%rip), %xmm0
	cmpb	$45, 120(%rsp)
	je	.LBB68_334
	jmp	.LBB68_335
.LBB68_328:
	bsrq	%rbx, %r10
	xorq	$63, %r10
	movq	%rbx, %rax
	movl	%r10d, %ecx
	shlq	%cl, %rax
	leaq	342(%r14), %r11
	movq	%r11, %rcx
	shlq	$4, %rcx
	leaq	.Lstatic.3(%rip), %rdx
	mulq	8(%rcx,%rdx)
	movq	%rdx, %rax
	shrq	$63, %rax
	movl	$-1024, %r8d
	movl	%eax, %ecx
	shll	%cl, %r8d
	notl	%r8d
	movl	%edx, %esi
	movl	$512, %r9d
	shlq	%cl, %r9
	andl	%r8d, %esi
	movq	%r9, %rcx
	subq	%rsi, %rcx
	cmpq	$1, %rcx
	jbe	.LBB68_354
	leal	10(%rax), %ecx
	shrq	%cl, %rdx
	imull	$217706, %r11d, %ecx
	addl	$58980, %ecx
	shrl	$16, %ecx
	subl	%r10d, %ecx
	leal	(%rcx,%rax), %r15d
	addl	$-52, %r15d
	shlq	$52, %r15
	cmpl	%esi, %r9d
	adcq	%rdx, %r15
	movabsq	$9218868437227405312, %rax
	cmpq	%rax, %r15
	cmovaeq	%rax, %r15
	movq	%r15, %xmm0
	cmpb	$45, 120(%rsp)
	je	.LBB68_334
	jmp	.LBB68_335
.LBB68_330:
	xorl	%ecx, %ecx
	cmpb	$45, 120(%rsp)
	sete	%cl
	leaq	160(%rsp), %r10
	movq	%rdi, %rsi
	movq	%r10, %rdi
	callq	"core::dec2flt::words::read_word::<#1d521972340cebc2>"
	cmpb	$1, 160(%rsp)
	jne	.LBB68_1
	movq	168(%rsp), %xmm0
	movq	176(%rsp), %rbp
	jmp	.LBB68_335
.LBB68_332:
	movq	%r10, %rsi
	movq	%r11, %rdx
	movq	%r14, %r8
	movq	%r12, %r9
	callq	"core::dec2flt::long::from_long::<#1d521972340cebc2>"
	movq	%rax, %xmm0
.LBB68_333:
	cmpb	$45, 120(%rsp)
	jne	.LBB68_335
.LBB68_334:
	pxor	.LCPI68_1(%rip), %xmm0
.LBB68_335:
	addq	96(%rsp), %rbp
	cmpq	8(%rsp), %rbp
	jne	.LBB68_1
	movdqa	%xmm0, %xmm1
	subsd	%xmm0, %xmm1
	xorps	%xmm2, %xmm2
	ucomisd	%xmm2, %xmm1
	jne	.LBB68_1
	jp	.LBB68_1
	movq	%xmm0, %rbx
	bswapq	%rbx
	movq	%rbx, 128(%rsp)
	movq	24(%rsp), %rcx
	movq	8(%rcx), %rax
	movq	16(%rcx), %rcx
	cmpq	%rax, %rcx
	je	.LBB68_345
.LBB68_338:
	movq	24(%rsp), %rsi
	movq	(%rsi), %rdx
	movb	$100, (%rdx,%rax)
	incq	%rax
	movq	%rdx, (%rsi)
	movq	%rax, 8(%rsi)
	movq	%rcx, 16(%rsi)
	movq	%rcx, %rsi
	subq	%rax, %rsi
	cmpq	$7, %rsi
	jbe	.LBB68_347
.LBB68_339:
	leaq	8(%rax), %rsi
	leaq	(%rdx,%rax), %r8
	leaq	128(%rsp), %r9
	subq	%r9, %r8
	cmpq	$8, %r8
	jae	.LBB68_341
	movq	128(%rsp), %rbx
.LBB68_341:
	movq	%rbx, (%rdx,%rax)
.LBB68_342:
	movq	24(%rsp), %rax
	movq	%rdx, (%rax)
	movq	%rsi, 8(%rax)
	movq	%rcx, 16(%rax)
	movb	$0, 48(%rsp)
.LBB68_343:
	pxor	%xmm0, %xmm0
	movdqu	%xmm0, 56(%rsp)
	movb	$0, 72(%rsp)
.LBB68_344:
	movzbl	48(%rsp), %edx
	movzbl	56(%rsp), %ecx
	movq	64(%rsp), %rax
	movq	%rax, 136(%rsp)
	movzbl	72(%rsp), %eax
	jmp	.LBB68_3
.LBB68_345:
	movq	24(%rsp), %rdi
	movl	$1, %esi
	movq	%rdi, %r15
	callq	"std_alloc::vec::Vec::grow_amortized::<#1283936d4ef01d73>"
	testb	%al, %al
	je	.LBB68_349
	movq	8(%r15), %rax
	movq	16(%r15), %rcx
	jmp	.LBB68_338
.LBB68_347:
	movq	24(%rsp), %rdi
	movl	$8, %esi
	movq	%rdi, %r15
	callq	"std_alloc::vec::Vec::grow_amortized::<#1283936d4ef01d73>"
	testb	%al, %al
	je	.LBB68_349
	movq	(%r15), %rdx
	movq	8(%r15), %rax
	movq	16(%r15), %rcx
	jmp	.LBB68_339
.LBB68_349:
	movb	$1, 48(%rsp)
	jmp	.LBB68_343
.LBB68_350:
	leaq	192(%rsp), %rdi
	movq	%rbx, %rsi
	xorl	%edx, %edx
	movq	%r10, %rcx
	callq	"core::dec2flt::lemire::eisel_lemire_wide::<#1d521972340cebc2>"
	movq	200(%rsp), %r14
	cmpb	$0, 192(%rsp)
	je	.LBB68_325
	movq	208(%rsp), %r12
	movq	%rbx, 192(%rsp)
	leaq	200(%rsp), %rdi
	movl	$584, %edx
	xorl	%esi, %esi
	callq	memset@PLT
	movq	$1, 784(%rsp)
	leaq	192(%rsp), %rdi
	xorl	%esi, %esi
	xorl	%edx, %edx
	movq	%r15, %rcx
	movq	%r14, %r8
	movq	%r12, %r9
	callq	"core::dec2flt::decimal::break_tie::<#1d521972340cebc2>"
	movq	%rax, %r14
	jmp	.LBB68_325
.LBB68_352:
	leaq	192(%rsp), %rdi
	movq	%rbx, %rsi
	xorl	%edx, %edx
	movq	%r11, %rcx
	callq	"core::dec2flt::lemire::eisel_lemire_wide::<#11bd57d74d267e9b>"
	movq	200(%rsp), %r15
	cmpb	$0, 192(%rsp)
	jne	.LBB68_366
.LBB68_353:
	movq	32(%rsp), %r8
	movd	%r15d, %xmm0
	cmpb	$45, 96(%rsp)
	je	.LBB68_279
	jmp	.LBB68_280
.LBB68_354:
	leaq	192(%rsp), %rdi
	movq	%rbx, %rsi
	xorl	%edx, %edx
	movq	%r11, %rcx
	callq	"core::dec2flt::lemire::eisel_lemire_wide::<#1d521972340cebc2>"
	movq	200(%rsp), %r15
	cmpb	$0, 192(%rsp)
	jne	.LBB68_367
	movq	%r15, %xmm0
	cmpb	$45, 120(%rsp)
	je	.LBB68_334
	jmp	.LBB68_335
.LBB68_356:
	movq	%r12, %rbp
	jmp	.LBB68_359
.LBB68_357:
	movq	%r12, %rbp
	movq	32(%rsp), %rdx
	jmp	.LBB68_363
.LBB68_358:
	movq	%rdx, %r15
	movq	%rsi, %rbp
.LBB68_359:
	cmpq	%rsi, %r14
	jae	.LBB68_361
	cmpb	$45, (%r9,%r14)
	sete	%r14b
	jmp	.LBB68_255
.LBB68_361:
	xorl	%r14d, %r14d
	jmp	.LBB68_255
.LBB68_362:
	movq	%r9, %r15
	movq	32(%rsp), %rdx
	movq	%rdx, %rbp
.LBB68_363:
	cmpq	%rdx, %r8
	jae	.LBB68_365
	cmpb	$45, (%rdi,%r8)
	sete	%r14b
	jmp	.LBB68_310
.LBB68_365:
	xorl	%r14d, %r14d
	jmp	.LBB68_310
.LBB68_366:
	movq	208(%rsp), %r12
	movq	%rbx, 192(%rsp)
	leaq	200(%rsp), %rdi
	movl	$584, %edx
	xorl	%esi, %esi
	callq	memset@PLT
	movq	$1, 784(%rsp)
	leaq	192(%rsp), %rdi
	xorl	%esi, %esi
	movq	%r14, %rdx
	xorl	%ecx, %ecx
	movq	%r15, %r8
	movq	%r12, %r9
	callq	"core::dec2flt::decimal::break_tie::<#11bd57d74d267e9b>"
	movq	%rax, %r15
	jmp	.LBB68_353
.LBB68_367:
	movq	208(%rsp), %r12
	movq	%rbx, 192(%rsp)
	leaq	200(%rsp), %rdi
	movl	$584, %edx
	xorl	%esi, %esi
	callq	memset@PLT
	movq	$1, 784(%rsp)
	leaq	192(%rsp), %rdi
	xorl	%esi, %esi
	movq	%r14, %rdx
	xorl	%ecx, %ecx
	movq	%r15, %r8
	movq	%r12, %r9
	callq	"core::dec2flt::decimal::break_tie::<#1d521972340cebc2>"
	movq	%rax, %r15
	movq	%r15, %xmm0
	cmpb	$45, 120(%rsp)
	je	.LBB68_334
	jmp	.LBB68_335
.Lfunc_end68:
	.size	"amqp_json::reading::named::put_number", .Lfunc_end68-"amqp_json::reading::named::put_number"
	.section	".rodata.amqp_json::reading::named::put_number","a",@progbits
	.p2align	2, 0x0
.LJTI68_0:
	.long	.LBB68_1-.LJTI68_0
	.long	.LBB68_21-.LJTI68_0
	.long	.LBB68_10-.LJTI68_0
	.long	.LBB68_18-.LJTI68_0
	.long	.LBB68_4-.LJTI68_0
	.long	.LBB68_7-.LJTI68_0
	.long	.LBB68_15-.LJTI68_0
	.long	.LBB68_27-.LJTI68_0
	.long	.LBB68_1-.LJTI68_0
	.long	.LBB68_13-.LJTI68_0
	.long	.LBB68_30-.LJTI68_0
	.long	.LBB68_1-.LJTI68_0
	.long	.LBB68_1-.LJTI68_0
	.long	.LBB68_1-.LJTI68_0
	.long	.LBB68_1-.LJTI68_0
	.long	.LBB68_24-.LJTI68_0
	.long	.LBB68_1-.LJTI68_0
	.long	.LBB68_1-.LJTI68_0

	.section	".text.amqp_json::reading::named::unsigned","ax",@progbits
	.p2align	4
	.type	"amqp_json::reading::named::unsigned",@function
"amqp_json::reading::named::unsigned":
	testq	%rsi, %rsi
	je	.LBB69_1
	cmpq	$1, %rsi
	jne	.LBB69_5
	movzbl	(%rdi), %eax
	addb	$-48, %al
	cmpb	$10, %al
	jb	.LBB69_8
	jmp	.LBB69_4
.LBB69_1:
	xorl	%eax, %eax
	movq	%rsi, %rdx
	retq
.LBB69_5:
	movzbl	(%rdi), %eax
	cmpb	$45, %al
	jne	.LBB69_7
	movzbl	1(%rdi), %eax
	addb	$-49, %al
	cmpb	$9, %al
	jb	.LBB69_8
	jmp	.LBB69_4
.LBB69_7:
	addb	$-49, %al
	cmpb	$8, %al
	ja	.LBB69_4
.LBB69_8:
	xorl	%ecx, %ecx
	xorl	%r8d, %r8d
	.p2align	4
.LBB69_9:
	xorl	%edx, %edx
	movabsq	$1844674407370955161, %r9
	movl	$0, %eax
	cmpq	%r9, %rcx
	ja	.LBB69_14
	movzbl	(%rdi,%r8), %r9d
	leal	-48(%r9), %r10d
	cmpb	$9, %r10b
	ja	.LBB69_14
	addq	%rcx, %rcx
	leaq	(%rcx,%rcx,4), %rax
	andl	$15, %r9d
	movq	%r9, %rcx
	addq	%rax, %rcx
	jb	.LBB69_4
	incq	%r8
	cmpq	%r8, %rsi
	jne	.LBB69_9
	movb	$1, %al
	movq	%rcx, %rdx
.LBB69_14:
	retq
.LBB69_4:
	xorl	%eax, %eax
	xorl	%edx, %edx
	retq
.Lfunc_end69:
	.size	"amqp_json::reading::named::unsigned", .Lfunc_end69-"amqp_json::reading::named::unsigned"

	.section	".text.unlikely.core::dec2flt::long::from_long::<#11bd57d74d267e9b>","ax",@progbits
	.p2align	4
	.type	"core::dec2flt::long::from_long::<#11bd57d74d267e9b>",@function
"core::dec2flt::long::from_long::<#11bd57d74d267e9b>":
	pushq	%rbp
	pushq	%r15
	pushq	%r14
	pushq	%r13
	pushq	%r12
	pushq	%rbx
	subq	$1288, %rsp
	movq	%rcx, %r12
	addq	%rsi, %r12
	je	.LBB70_1
	movq	%rdx, %rax
	subq	%rsi, %rax
	xorl	%ebx, %ebx
	.p2align	4
.LBB70_8:
	cmpq	%rsi, %rbx
	movq	%rax, %r10
	cmovbq	%rdi, %r10
	cmpb	$48, (%r10,%rbx)
	jne	.LBB70_2
	incq	%rbx
	cmpq	%rbx, %r12
	jne	.LBB70_8
	jmp	.LBB70_10
.LBB70_1:
	xorl	%ebx, %ebx
.LBB70_2:
	movq	%r12, %rbp
	subq	%rbx, %rbp
	je	.LBB70_10
	xorl	%r13d, %r13d
	addq	%rcx, %r9
	setb	%r13b
	cmpq	$19, %rbp
	movl	$19, %r14d
	cmovbq	%rbp, %r14
	movq	%rbp, %r10
	subq	%r14, %r10
	xorl	%r11d, %r11d
	addq	%r8, %r10
	setb	%r11b
	addq	$342, %r10
	adcq	$0, %r11
	cmpq	%r9, %r10
	movq	%r11, %rax
	sbbq	%r13, %rax
	jae	.LBB70_4
.LBB70_10:
	xorl	%eax, %eax
.LBB70_11:
	addq	$1288, %rsp
	popq	%rbx
	popq	%r12
	popq	%r13
	popq	%r14
	popq	%r15
	popq	%rbp
	retq
.LBB70_4:
	movq	%r14, (%rsp)
	subq	%r9, %r10
	sbbq	%r13, %r11
	movl	$2139095040, %eax
	xorl	%r14d, %r14d
	movl	$650, %r15d
	cmpq	%r10, %r15
	sbbq	%r11, %r14
	jb	.LBB70_11
	movq	%r8, 16(%rsp)
	movq	%r9, 24(%rsp)
	movq	%r13, 8(%rsp)
	cmpq	$1, %rbp
	jne	.LBB70_12
	movq	%rcx, %r14
	xorl	%eax, %eax
	xorl	%r11d, %r11d
	movq	%rdx, %r15
	jmp	.LBB70_15
.LBB70_12:
	movq	(%rsp), %r14
	andl	$30, %r14d
	movq	%rbx, %r13
	subq	%rsi, %r13
	addq	%rdx, %r13
	leaq	(%rdi,%rbx), %r15
	xorl	%eax, %eax
	xorl	%r11d, %r11d
	.p2align	4
.LBB70_13:
	leaq	(%r11,%r11,4), %r11
	leaq	(%rbx,%rax), %r8
	cmpq	%rsi, %r8
	movq	%r13, %r8
	cmovbq	%r15, %r8
	movzbl	(%r8,%rax), %r8d
	addb	$-48, %r8b
	movzbl	%r8b, %r8d
	leaq	(%r8,%r11,2), %r8
	leaq	(%r8,%r8,4), %r8
	leaq	(%rbx,%rax), %r11
	incq	%r11
	cmpq	%rsi, %r11
	movq	%r13, %r11
	cmovbq	%r15, %r11
	movzbl	1(%r11,%rax), %r11d
	addb	$-48, %r11b
	movzbl	%r11b, %r11d
	leaq	(%r11,%r8,2), %r11
	addq	$2, %rax
	cmpq	%rax, %r14
	jne	.LBB70_13
	movq	%rcx, %r14
	testb	$1, (%rsp)
	movq	%rdx, %r15
	je	.LBB70_16
.LBB70_15:
	leaq	(%r11,%r11,4), %rcx
	addq	%rbx, %rax
	leaq	(%rdi,%rax), %r8
	subq	%rsi, %rax
	leaq	(%r15,%rax), %rax
	cmovbq	%r8, %rax
	movzbl	(%rax), %eax
	addb	$-48, %al
	movzbl	%al, %eax
	leaq	(%rax,%rcx,2), %r11
.LBB70_16:
	xorl	%ebx, %ebx
	cmpq	$20, %rbp
	setae	%bl
	movl	$127, %ecx
	bsrq	%r11, %rcx
	xorq	$63, %rcx
	movq	%r11, %rax
	shlq	%cl, %rax
	movq	%r10, %rdx
	shlq	$4, %rdx
	leaq	.Lstatic.3(%rip), %r8
	mulq	8(%rdx,%r8)
	movq	%rdx, %rax
	shrq	$63, %rax
	imulq	$217706, %r10, %r8
	addq	$58980, %r8
	shrq	$16, %r8
	leaq	(%r8,%rax), %rbp
	addq	$214, %rbp
	leaq	1162(%rcx), %r8
	subq	%r8, %rbp
	jb	.LBB70_19
	movq	%rbx, %r9
	shlq	%cl, %r9
	movabsq	$-549755813888, %r8
	movl	%eax, %ecx
	shlq	%cl, %r8
	addq	$2, %r9
	notq	%r8
	movabsq	$274877906944, %r13
	shlq	%cl, %r13
	andq	%rdx, %r8
	movq	%r13, %rcx
	subq	%r8, %rcx
	cmpq	%r9, %rcx
	jb	.LBB70_19
	addb	$39, %al
	movl	%eax, %ecx
	shrq	%cl, %rdx
	shlq	$23, %rbp
	cmpq	%r8, %r13
	adcq	%rdx, %rbp
	cmpq	$2139095040, %rbp
	movl	$2139095040, %eax
	cmovbq	%rbp, %rax
	jmp	.LBB70_11
.LBB70_19:
	movq	24(%rsp), %rbp
	movq	%rdi, 40(%rsp)
	movq	%rsi, 32(%rsp)
	leaq	64(%rsp), %rdi
	movq	%r11, %rsi
	movq	%rbx, %rdx
	movq	%r10, %rcx
	callq	"core::dec2flt::lemire::eisel_lemire_wide::<#11bd57d74d267e9b>"
	movq	72(%rsp), %rax
	cmpb	$0, 64(%rsp)
	je	.LBB70_11
	movq	80(%rsp), %r8
	xorl	%r10d, %r10d
	movl	$150, %ecx
	subq	%r8, %rcx
	cmovaeq	%rcx, %r10
	xorl	%edx, %edx
	movq	%r10, %rsi
	addq	16(%rsp), %rsi
	setb	%dl
	cmpq	%rbp, %rsi
	movq	%rdx, %rdi
	movq	8(%rsp), %r9
	sbbq	%r9, %rdi
	movq	%rax, (%rsp)
	movq	%r8, 48(%rsp)
	jae	.LBB70_21
	movq	%rbp, %rcx
	movq	%r10, 16(%rsp)
	subq	%rsi, %rcx
	sbbq	%rdx, %r9
	xorl	%edx, %edx
	movq	%r12, %rbx
	subq	%rcx, %rbx
	movl	$0, %eax
	sbbq	%r9, %rax
	cmovbq	%rdx, %rbx
	cmpq	%rbx, %r12
	movq	%r9, %r8
	jbe	.LBB70_46
	cmpq	%r12, %rcx
	movq	%r8, %rax
	sbbq	$0, %rax
	movq	%r12, %rax
	cmovbq	%rcx, %rax
	subq	%rax, %r14
	addq	%r15, %r14
	movq	%rbx, %rax
	movq	32(%rsp), %rdx
	movq	40(%rsp), %rsi
.LBB70_42:
	leaq	(%rsi,%rax), %rdi
	cmpq	%rdx, %rax
	cmovaeq	%r14, %rdi
	cmpb	$48, (%rdi)
	jne	.LBB70_45
	incq	%rax
	incq	%r14
	cmpq	%r12, %rax
	jb	.LBB70_42
	movq	%r12, %rax
.LBB70_45:
	cmpq	%r12, %rax
	setb	%dl
.LBB70_46:
	movq	%rdx, 8(%rsp)
	leaq	688(%rsp), %rdi
	movl	$600, %edx
	xorl	%esi, %esi
	movq	%rcx, %r14
	movq	%r8, %r13
	callq	memset@PLT
	cmpq	%r12, %r14
	sbbq	$0, %r13
	movq	32(%rsp), %r9
	movq	40(%rsp), %r10
	movq	(%rsp), %r8
	jae	.LBB70_64
	movq	%r15, %rsi
	movq	%r15, %rax
	subq	%r9, %rax
	movq	%rax, 24(%rsp)
	xorl	%r12d, %r12d
	jmp	.LBB70_48
.LBB70_63:
	addq	%r13, %r12
	cmpq	%rbx, %r12
	jae	.LBB70_64
.LBB70_48:
	movq	%rbx, %rax
	subq	%r12, %rax
	cmpq	$19, %rax
	movl	$19, %r13d
	cmovbq	%rax, %r13
	cmpq	$1, %rax
	jne	.LBB70_50
	xorl	%eax, %eax
	xorl	%r14d, %r14d
	jmp	.LBB70_53
.LBB70_50:
	movl	%r13d, %ecx
	andl	$30, %ecx
	movq	24(%rsp), %rax
	leaq	(%rax,%r12), %rdx
	leaq	(%r10,%r12), %rdi
	xorl	%eax, %eax
	xorl	%r14d, %r14d
	.p2align	4
.LBB70_51:
	leaq	(%r14,%r14,4), %r11
	leaq	(%r12,%rax), %r14
	cmpq	%r9, %r14
	movq	%rdx, %r14
	cmovbq	%rdi, %r14
	movzbl	(%r14,%rax), %ebp
	addb	$-48, %bpl
	movzbl	%bpl, %r14d
	leaq	(%r14,%r11,2), %r11
	leaq	(%r11,%r11,4), %r11
	leaq	(%r12,%rax), %r14
	incq	%r14
	cmpq	%r9, %r14
	movq	%rdx, %r14
	cmovbq	%rdi, %r14
	movzbl	1(%r14,%rax), %ebp
	addb	$-48, %bpl
	movzbl	%bpl, %r14d
	leaq	(%r14,%r11,2), %r14
	addq	$2, %rax
	cmpq	%rax, %rcx
	jne	.LBB70_51
	testb	$1, %r13b
	je	.LBB70_54
.LBB70_53:
	leaq	(%r14,%r14,4), %rcx
	addq	%r12, %rax
	leaq	(%r10,%rax), %rdx
	subq	%r9, %rax
	leaq	(%rsi,%rax), %rax
	cmovbq	%rdx, %rax
	movzbl	(%rax), %eax
	addb	$-48, %al
	movzbl	%al, %eax
	leaq	(%rax,%rcx,2), %r14
.LBB70_54:
	movq	1280(%rsp), %r11
	testq	%r11, %r11
	je	.LBB70_61
	movl	%r13d, %eax
	leaq	.Lstatic.2(%rip), %rcx
	movq	(%rcx,%rax,8), %rcx
	cmpq	$1, %r11
	jne	.LBB70_57
	xorl	%ebp, %ebp
	jmp	.LBB70_60
.LBB70_57:
	movq	%r11, %r8
	andq	$-2, %r8
	xorl	%ebp, %ebp
	.p2align	4
.LBB70_58:
	movq	%rcx, %rax
	mulq	688(%rsp,%rbp,8)
	movq	%rdx, %rsi
	movq	%rax, %rdi
	movq	%rcx, %rax
	mulq	696(%rsp,%rbp,8)
	addq	%r14, %rdi
	adcq	%rsi, %rax
	movq	%rdx, %r14
	adcq	$0, %r14
	movq	%rdi, 688(%rsp,%rbp,8)
	movq	%rax, 696(%rsp,%rbp,8)
	addq	$2, %rbp
	cmpq	%rbp, %r8
	jne	.LBB70_58
	testb	$1, %r11b
	movq	%r15, %rsi
	movq	(%rsp), %r8
	je	.LBB70_61
.LBB70_60:
	movq	%rcx, %rax
	mulq	688(%rsp,%rbp,8)
	movq	(%rsp), %r8
	addq	%r14, %rax
	movq	%r15, %rsi
	adcq	$0, %rdx
	movq	%rax, 688(%rsp,%rbp,8)
	movq	%rdx, %r14
.LBB70_61:
	testq	%r14, %r14
	je	.LBB70_63
	movq	%r14, 688(%rsp,%r11,8)
	incq	%r11
	movq	%r11, 1280(%rsp)
	jmp	.LBB70_63
.LBB70_21:
	leaq	88(%rsp), %rdi
	movl	$600, %edx
	xorl	%esi, %esi
	callq	memset@PLT
	movq	(%rsp), %r8
	testq	%r12, %r12
	movq	32(%rsp), %r10
	movq	40(%rsp), %r11
	jne	.LBB70_22
.LBB70_39:
	xorl	%eax, %eax
	movq	16(%rsp), %r9
	movq	%r9, %rdx
	movq	24(%rsp), %rcx
	subq	%rcx, %rdx
	movl	$0, %edi
	movq	8(%rsp), %rsi
	sbbq	%rsi, %rdi
	cmovbq	%rax, %rdx
	subq	%r9, %rcx
	sbbq	$0, %rsi
	cmovbq	%rax, %rcx
	leaq	88(%rsp), %rdi
	xorl	%esi, %esi
	jmp	.LBB70_65
.LBB70_64:
	movzbl	8(%rsp), %esi
	leaq	688(%rsp), %rdi
	xorl	%edx, %edx
	movq	16(%rsp), %rcx
.LBB70_65:
	movq	48(%rsp), %r9
	callq	"core::dec2flt::decimal::break_tie::<#11bd57d74d267e9b>"
	jmp	.LBB70_11
.LBB70_22:
	movq	%r15, %rdi
	movq	%r15, %rax
	subq	%r10, %rax
	movq	%rax, 56(%rsp)
	xorl	%r14d, %r14d
	jmp	.LBB70_23
.LBB70_38:
	addq	%r9, %r14
	cmpq	%r12, %r14
	jae	.LBB70_39
.LBB70_23:
	movq	%r12, %rax
	subq	%r14, %rax
	cmpq	$19, %rax
	movl	$19, %r9d
	cmovbq	%rax, %r9
	cmpq	$1, %rax
	jne	.LBB70_25
	xorl	%eax, %eax
	xorl	%ebx, %ebx
	jmp	.LBB70_28
.LBB70_25:
	movl	%r9d, %ecx
	andl	$30, %ecx
	movq	56(%rsp), %rax
	leaq	(%rax,%r14), %rdx
	leaq	(%r11,%r14), %rsi
	xorl	%eax, %eax
	xorl	%ebx, %ebx
	.p2align	4
.LBB70_26:
	leaq	(%rbx,%rbx,4), %rbx
	leaq	(%r14,%rax), %r13
	cmpq	%r10, %r13
	movq	%rdx, %r13
	cmovbq	%rsi, %r13
	movzbl	(%r13,%rax), %ebp
	addb	$-48, %bpl
	movzbl	%bpl, %r13d
	leaq	(,%rbx,2), %rbx
	addq	%r13, %rbx
	leaq	(%rbx,%rbx,4), %rbx
	leaq	(%r14,%rax), %r13
	incq	%r13
	cmpq	%r10, %r13
	movq	%rdx, %r13
	cmovbq	%rsi, %r13
	movzbl	1(%r13,%rax), %ebp
	addb	$-48, %bpl
	movzbl	%bpl, %r13d
	leaq	(,%rbx,2), %rbx
	addq	%r13, %rbx
	addq	$2, %rax
	cmpq	%rax, %rcx
	jne	.LBB70_26
	testb	$1, %r9b
	je	.LBB70_29
.LBB70_28:
	leaq	(%rbx,%rbx,4), %rcx
	addq	%r14, %rax
	leaq	(%r11,%rax), %rdx
	subq	%r10, %rax
	leaq	(%rdi,%rax), %rax
	cmovbq	%rdx, %rax
	movzbl	(%rax), %eax
	addb	$-48, %al
	movzbl	%al, %eax
	leaq	(%rax,%rcx,2), %rbx
.LBB70_29:
	movq	680(%rsp), %rcx
	testq	%rcx, %rcx
	je	.LBB70_36
	movl	%r9d, %eax
	leaq	.Lstatic.2(%rip), %rdx
	movq	(%rdx,%rax,8), %rsi
	cmpq	$1, %rcx
	jne	.LBB70_32
	xorl	%ebp, %ebp
	jmp	.LBB70_35
.LBB70_32:
	movq	%rcx, %r13
	andq	$-2, %r13
	xorl	%ebp, %ebp
	.p2align	4
.LBB70_33:
	movq	%rsi, %rax
	mulq	88(%rsp,%rbp,8)
	movq	%rdx, %rdi
	movq	%rax, %r8
	movq	%rsi, %rax
	mulq	96(%rsp,%rbp,8)
	addq	%rbx, %r8
	adcq	%rdi, %rax
	movq	%rdx, %rbx
	adcq	$0, %rbx
	movq	%r8, 88(%rsp,%rbp,8)
	movq	%rax, 96(%rsp,%rbp,8)
	addq	$2, %rbp
	cmpq	%rbp, %r13
	jne	.LBB70_33
	testb	$1, %cl
	movq	%r15, %rdi
	movq	(%rsp), %r8
	je	.LBB70_36
.LBB70_35:
	movq	%rsi, %rax
	mulq	88(%rsp,%rbp,8)
	movq	(%rsp), %r8
	addq	%rbx, %rax
	movq	%rdx, %rbx
	movq	%r15, %rdi
	adcq	$0, %rbx
	movq	%rax, 88(%rsp,%rbp,8)
.LBB70_36:
	testq	%rbx, %rbx
	je	.LBB70_38
	movq	%rbx, 88(%rsp,%rcx,8)
	incq	%rcx
	movq	%rcx, 680(%rsp)
	jmp	.LBB70_38
.Lfunc_end70:
	.size	"core::dec2flt::long::from_long::<#11bd57d74d267e9b>", .Lfunc_end70-"core::dec2flt::long::from_long::<#11bd57d74d267e9b>"

	.section	".text.unlikely.core::dec2flt::lemire::eisel_lemire_wide::<#11bd57d74d267e9b>","ax",@progbits
	.p2align	4
	.type	"core::dec2flt::lemire::eisel_lemire_wide::<#11bd57d74d267e9b>",@function
"core::dec2flt::lemire::eisel_lemire_wide::<#11bd57d74d267e9b>":
	pushq	%r14
	pushq	%rbx
	movq	%rcx, %r9
	movq	%rsi, %r10
	movl	$127, %ecx
	bsrq	%rsi, %rcx
	xorq	$63, %rcx
	shlq	%cl, %r10
	movq	%rdx, %rsi
	movq	%r9, %rbx
	shlq	$4, %rbx
	leaq	.Lstatic.3(%rip), %r14
	movq	%r10, %rax
	mulq	8(%rbx,%r14)
	movq	%rdx, %r8
	movq	%rax, %r11
	movq	%r10, %rax
	mulq	(%rbx,%r14)
	addq	%r11, %rdx
	adcq	$0, %r8
	movq	%r8, %r11
	shrq	$63, %r11
	imulq	$217706, %r9, %rax
	addq	$58980, %rax
	shrq	$16, %rax
	addq	%r11, %rax
	addq	$214, %rax
	movq	%rcx, %r9
	addq	$1162, %r9
	shlq	%cl, %rsi
	xorl	%r10d, %r10d
	movq	%r9, %rcx
	subq	%rax, %rcx
	cmovbq	%r10, %rcx
	subq	%r9, %rax
	cmovbq	%r10, %rax
	addq	%r11, %rcx
	addq	$101, %rcx
	movl	$0, %r9d
	movl	$0, %r11d
	cmpq	$127, %rcx
	ja	.LBB71_7
	shrdq	$2, %r8, %rdx
	shrq	$2, %r8
	movq	%rdx, %r10
	shrdq	%cl, %r8, %r10
	movq	%r8, %r9
	shrq	%cl, %r9
	movq	$-1, %r11
	shlq	%cl, %r11
	xorl	%r14d, %r14d
	testb	$64, %cl
	cmoveq	%r10, %r9
	movq	$-1, %r10
	movq	%r11, %rbx
	cmovneq	%r14, %rbx
	cmoveq	%r10, %r11
	notq	%rbx
	andq	%rdx, %rbx
	decb	%cl
	movl	$1, %r10d
	xorl	%edx, %edx
	shldq	%cl, %r10, %rdx
	notq	%r11
	andq	%r8, %r11
	movl	$1, %r8d
	shlq	%cl, %r8
	testb	$64, %cl
	cmovneq	%r8, %rdx
	cmovneq	%r14, %r8
	cmpq	%rbx, %r8
	movq	%rdx, %rcx
	sbbq	%r11, %rcx
	jae	.LBB71_3
	shlq	$23, %rax
	addq	%r9, %rax
	incq	%rax
	jmp	.LBB71_6
.LBB71_3:
	movq	%rsi, %rcx
	shrq	$2, %rcx
	shlq	$62, %rsi
	orq	$2, %rsi
	subq	%rbx, %r8
	sbbq	%r11, %rdx
	cmpq	%rsi, %r8
	sbbq	%rcx, %rdx
	jae	.LBB71_5
	movq	%rax, %r11
	jmp	.LBB71_7
.LBB71_5:
	shlq	$23, %rax
	addq	%r9, %rax
.LBB71_6:
	cmpq	$2139095040, %rax
	movl	$2139095040, %r9d
	cmovbq	%rax, %r9
	xorl	%r10d, %r10d
	xorl	%r11d, %r11d
.LBB71_7:
	movq	%r10, (%rdi)
	movq	%r9, 8(%rdi)
	movq	%r11, 16(%rdi)
	popq	%rbx
	popq	%r14
	retq
.Lfunc_end71:
	.size	"core::dec2flt::lemire::eisel_lemire_wide::<#11bd57d74d267e9b>", .Lfunc_end71-"core::dec2flt::lemire::eisel_lemire_wide::<#11bd57d74d267e9b>"

	.section	".text.unlikely.core::dec2flt::decimal::break_tie::<#11bd57d74d267e9b>","ax",@progbits
	.p2align	4
	.type	"core::dec2flt::decimal::break_tie::<#11bd57d74d267e9b>",@function
"core::dec2flt::decimal::break_tie::<#11bd57d74d267e9b>":
	pushq	%rbp
	pushq	%r15
	pushq	%r14
	pushq	%r13
	pushq	%r12
	pushq	%rbx
	subq	$1208, %rsp
	movq	%r9, %rbx
	movq	%r8, %r14
	movq	%rcx, %r15
	movq	%rdx, %r12
	movl	%esi, %ebp
	movq	%rdi, %rsi
	leaq	608(%rsp), %rdi
	movl	$600, %edx
	callq	memcpy@PLT
	cmpq	$20, %r12
	jb	.LBB72_14
	movq	1200(%rsp), %r8
	testq	%r8, %r8
	jne	.LBB72_4
	addq	$-20, %r12
	movabsq	$-2912643801112034465, %rcx
	movq	%r12, %rax
	mulq	%rcx
	shrq	$4, %rdx
	leaq	(%rdx,%rdx,8), %rax
	leaq	(%rdx,%rax,2), %rax
	subq	%rax, %r12
	incq	%r12
	jmp	.LBB72_14
	.p2align	4
.LBB72_3:
	movq	1200(%rsp), %r8
.LBB72_4:
	testq	%r8, %r8
	je	.LBB72_13
	cmpq	$1, %r8
	jne	.LBB72_7
	xorl	%r9d, %r9d
	xorl	%r10d, %r10d
	jmp	.LBB72_10
	.p2align	4
.LBB72_7:
	movq	%r8, %r11
	andq	$-2, %r11
	xorl	%r9d, %r9d
	xorl	%r10d, %r10d
	.p2align	4
.LBB72_8:
	movabsq	$-8446744073709551616, %rcx
	movq	%rcx, %rax
	mulq	608(%rsp,%r10,8)
	movq	%rdx, %rsi
	movq	%rax, %rdi
	movq	%rcx, %rax
	mulq	616(%rsp,%r10,8)
	addq	%r9, %rdi
	adcq	%rsi, %rax
	movq	%rdx, %r9
	adcq	$0, %r9
	movq	%rdi, 608(%rsp,%r10,8)
	movq	%rax, 616(%rsp,%r10,8)
	addq	$2, %r10
	cmpq	%r10, %r11
	jne	.LBB72_8
	testb	$1, %r8b
	je	.LBB72_11
.LBB72_10:
	movabsq	$-8446744073709551616, %rax
	mulq	608(%rsp,%r10,8)
	addq	%r9, %rax
	adcq	$0, %rdx
	movq	%rax, 608(%rsp,%r10,8)
	movq	%rdx, %r9
.LBB72_11:
	testq	%r9, %r9
	je	.LBB72_13
	movq	%r9, 608(%rsp,%r8,8)
	incq	%r8
	movq	%r8, 1200(%rsp)
.LBB72_13:
	addq	$-19, %r12
	cmpq	$19, %r12
	ja	.LBB72_3
.LBB72_14:
	movq	1200(%rsp), %r8
	testq	%r8, %r8
	je	.LBB72_45
	leaq	.Lstatic.2(%rip), %rax
	movq	(%rax,%r12,8), %rcx
	cmpq	$1, %r8
	jne	.LBB72_17
	xorl	%r9d, %r9d
	xorl	%r10d, %r10d
	jmp	.LBB72_20
.LBB72_17:
	movq	%r8, %r11
	andq	$-2, %r11
	xorl	%r9d, %r9d
	xorl	%r10d, %r10d
	.p2align	4
.LBB72_18:
	movq	%rcx, %rax
	mulq	608(%rsp,%r10,8)
	movq	%rdx, %rsi
	movq	%rax, %rdi
	movq	%rcx, %rax
	mulq	616(%rsp,%r10,8)
	addq	%r9, %rdi
	adcq	%rsi, %rax
	movq	%rdx, %r9
	adcq	$0, %r9
	movq	%rdi, 608(%rsp,%r10,8)
	movq	%rax, 616(%rsp,%r10,8)
	addq	$2, %r10
	cmpq	%r10, %r11
	jne	.LBB72_18
	testb	$1, %r8b
	je	.LBB72_21
.LBB72_20:
	movq	%rcx, %rax
	mulq	608(%rsp,%r10,8)
	addq	%r9, %rax
	adcq	$0, %rdx
	movq	%rax, 608(%rsp,%r10,8)
	movq	%rdx, %r9
.LBB72_21:
	testq	%r9, %r9
	je	.LBB72_23
	movq	%r9, 608(%rsp,%r8,8)
	incq	%r8
	movq	%r8, 1200(%rsp)
	jmp	.LBB72_24
.LBB72_23:
	movq	1200(%rsp), %r8
.LBB72_24:
	xorl	%ecx, %ecx
	movl	$150, %eax
	subq	%rbx, %rax
	cmovaeq	%rax, %rcx
	cmpq	$64, %rcx
	jb	.LBB72_36
	testq	%r8, %r8
	jne	.LBB72_27
	jmp	.LBB72_45
	.p2align	4
.LBB72_26:
	addq	$-63, %rcx
	movq	1200(%rsp), %r8
	cmpq	$63, %rcx
	jbe	.LBB72_36
.LBB72_27:
	testq	%r8, %r8
	je	.LBB72_26
	cmpq	$1, %r8
	jne	.LBB72_30
	xorl	%eax, %eax
	xorl	%edx, %edx
	jmp	.LBB72_33
	.p2align	4
.LBB72_30:
	movq	%r8, %rsi
	andq	$-2, %rsi
	xorl	%eax, %eax
	xorl	%edx, %edx
	.p2align	4
.LBB72_31:
	movq	608(%rsp,%rdx,8), %rdi
	movq	%rdi, %r9
	shlq	$63, %r9
	orq	%rax, %r9
	movq	616(%rsp,%rdx,8), %rax
	movq	%r9, 608(%rsp,%rdx,8)
	shrdq	$1, %rax, %rdi
	movq	%rdi, 616(%rsp,%rdx,8)
	shrq	%rax
	addq	$2, %rdx
	cmpq	%rdx, %rsi
	jne	.LBB72_31
	testb	$1, %r8b
	je	.LBB72_34
.LBB72_33:
	movq	608(%rsp,%rdx,8), %rsi
	movq	%rsi, %rdi
	shlq	$63, %rdi
	orq	%rax, %rdi
	movq	%rdi, 608(%rsp,%rdx,8)
	shrq	%rsi
	movq	%rsi, %rax
.LBB72_34:
	testq	%rax, %rax
	je	.LBB72_26
	movq	%rax, 608(%rsp,%r8,8)
	incq	%r8
	movq	%r8, 1200(%rsp)
	jmp	.LBB72_26
.LBB72_36:
	testq	%r8, %r8
	je	.LBB72_45
	cmpq	$1, %r8
	jne	.LBB72_39
	xorl	%eax, %eax
	xorl	%edx, %edx
	jmp	.LBB72_42
.LBB72_39:
	movq	%r8, %rsi
	andq	$-2, %rsi
	xorl	%eax, %eax
	xorl	%edx, %edx
	.p2align	4
.LBB72_40:
	movq	616(%rsp,%rdx,8), %r9
	movq	%r9, %r10
	shlq	%cl, %r10
	xorl	%edi, %edi
	testb	$64, %cl
	movq	%r10, %r11
	cmovneq	%rdi, %r11
	xorl	%r12d, %r12d
	shldq	%cl, %r9, %r12
	movq	608(%rsp,%rdx,8), %r9
	testb	$64, %cl
	cmovneq	%r10, %r12
	movq	%r9, %r10
	shlq	%cl, %r10
	testb	$64, %cl
	movq	%r10, %r13
	cmovneq	%rdi, %r13
	shldq	%cl, %r9, %rdi
	testb	$64, %cl
	cmovneq	%r10, %rdi
	addq	%rax, %r13
	adcq	$0, %rdi
	addq	%r11, %rdi
	movq	%r12, %rax
	adcq	$0, %rax
	movq	%r13, 608(%rsp,%rdx,8)
	movq	%rdi, 616(%rsp,%rdx,8)
	addq	$2, %rdx
	cmpq	%rdx, %rsi
	jne	.LBB72_40
	testb	$1, %r8b
	je	.LBB72_43
.LBB72_42:
	movq	608(%rsp,%rdx,8), %rsi
	xorl	%edi, %edi
	shldq	%cl, %rsi, %rdi
	shlq	%cl, %rsi
	xorl	%r9d, %r9d
	testb	$64, %cl
	cmovneq	%rsi, %rdi
	cmovneq	%r9, %rsi
	addq	%rax, %rsi
	adcq	$0, %rdi
	movq	%rsi, 608(%rsp,%rdx,8)
	movq	%rdi, %rax
.LBB72_43:
	testq	%rax, %rax
	je	.LBB72_45
	movq	%rax, 608(%rsp,%r8,8)
	incq	%r8
	movq	%r8, 1200(%rsp)
.LBB72_45:
	leaq	1(,%r14,2), %rax
	movq	%rax, 8(%rsp)
	leaq	16(%rsp), %rdi
	movl	$584, %edx
	xorl	%esi, %esi
	callq	memset@PLT
	movq	$1, 600(%rsp)
	movl	$1, %r8d
	cmpq	$20, %r15
	jae	.LBB72_47
	jmp	.LBB72_57
	.p2align	4
.LBB72_46:
	addq	$-19, %r15
	movq	600(%rsp), %r8
	cmpq	$19, %r15
	jbe	.LBB72_56
.LBB72_47:
	testq	%r8, %r8
	je	.LBB72_46
	cmpq	$1, %r8
	jne	.LBB72_50
	xorl	%r9d, %r9d
	xorl	%r10d, %r10d
	jmp	.LBB72_53
	.p2align	4
.LBB72_50:
	movq	%r8, %r11
	andq	$-2, %r11
	xorl	%r9d, %r9d
	xorl	%r10d, %r10d
	.p2align	4
.LBB72_51:
	movabsq	$-8446744073709551616, %rcx
	movq	%rcx, %rax
	mulq	8(%rsp,%r10,8)
	movq	%rdx, %rsi
	movq	%rax, %rdi
	movq	%rcx, %rax
	mulq	16(%rsp,%r10,8)
	addq	%r9, %rdi
	adcq	%rsi, %rax
	movq	%rdx, %r9
	adcq	$0, %r9
	movq	%rdi, 8(%rsp,%r10,8)
	movq	%rax, 16(%rsp,%r10,8)
	addq	$2, %r10
	cmpq	%r10, %r11
	jne	.LBB72_51
	testb	$1, %r8b
	je	.LBB72_54
.LBB72_53:
	movabsq	$-8446744073709551616, %rax
	mulq	8(%rsp,%r10,8)
	addq	%r9, %rax
	adcq	$0, %rdx
	movq	%rax, 8(%rsp,%r10,8)
	movq	%rdx, %r9
.LBB72_54:
	testq	%r9, %r9
	je	.LBB72_46
	movq	%r9, 8(%rsp,%r8,8)
	incq	%r8
	movq	%r8, 600(%rsp)
	jmp	.LBB72_46
.LBB72_56:
	testq	%r8, %r8
	je	.LBB72_89
.LBB72_57:
	leaq	.Lstatic.2(%rip), %rax
	movq	(%rax,%r15,8), %rcx
	cmpq	$1, %r8
	jne	.LBB72_59
	xorl	%r9d, %r9d
	xorl	%r10d, %r10d
	jmp	.LBB72_62
.LBB72_59:
	movq	%r8, %r11
	andq	$-2, %r11
	xorl	%r9d, %r9d
	xorl	%r10d, %r10d
	.p2align	4
.LBB72_60:
	movq	%rcx, %rax
	mulq	8(%rsp,%r10,8)
	movq	%rdx, %rsi
	movq	%rax, %rdi
	movq	%rcx, %rax
	mulq	16(%rsp,%r10,8)
	addq	%r9, %rdi
	adcq	%rsi, %rax
	movq	%rdx, %r9
	adcq	$0, %r9
	movq	%rdi, 8(%rsp,%r10,8)
	movq	%rax, 16(%rsp,%r10,8)
	addq	$2, %r10
	cmpq	%r10, %r11
	jne	.LBB72_60
	testb	$1, %r8b
	je	.LBB72_63
.LBB72_62:
	movq	%rcx, %rax
	mulq	8(%rsp,%r10,8)
	addq	%r9, %rax
	adcq	$0, %rdx
	movq	%rax, 8(%rsp,%r10,8)
	movq	%rdx, %r9
.LBB72_63:
	testq	%r9, %r9
	je	.LBB72_65
	movq	%r9, 8(%rsp,%r8,8)
	incq	%r8
	movq	%r8, 600(%rsp)
	jmp	.LBB72_66
.LBB72_65:
	movq	600(%rsp), %r8
.LBB72_66:
	xorl	%ecx, %ecx
	movq	%rbx, %rax
	subq	$150, %rax
	cmovaeq	%rax, %rcx
	cmpq	$64, %rcx
	jb	.LBB72_79
	testq	%r8, %r8
	jne	.LBB72_70
	jmp	.LBB72_89
	.p2align	4
.LBB72_69:
	addq	$-63, %rcx
	movq	600(%rsp), %r8
	cmpq	$63, %rcx
	jbe	.LBB72_79
.LBB72_70:
	testq	%r8, %r8
	je	.LBB72_69
	cmpq	$1, %r8
	jne	.LBB72_73
	xorl	%eax, %eax
	xorl	%edx, %edx
	jmp	.LBB72_76
	.p2align	4
.LBB72_73:
	movq	%r8, %rsi
	andq	$-2, %rsi
	xorl	%eax, %eax
	xorl	%edx, %edx
	.p2align	4
.LBB72_74:
	movq	8(%rsp,%rdx,8), %rdi
	movq	%rdi, %r9
	shlq	$63, %r9
	orq	%rax, %r9
	movq	16(%rsp,%rdx,8), %rax
	movq	%r9, 8(%rsp,%rdx,8)
	shrdq	$1, %rax, %rdi
	movq	%rdi, 16(%rsp,%rdx,8)
	shrq	%rax
	addq	$2, %rdx
	cmpq	%rdx, %rsi
	jne	.LBB72_74
	testb	$1, %r8b
	je	.LBB72_77
.LBB72_76:
	movq	8(%rsp,%rdx,8), %rsi
	movq	%rsi, %rdi
	shlq	$63, %rdi
	orq	%rax, %rdi
	movq	%rdi, 8(%rsp,%rdx,8)
	shrq	%rsi
	movq	%rsi, %rax
.LBB72_77:
	testq	%rax, %rax
	je	.LBB72_69
	movq	%rax, 8(%rsp,%r8,8)
	incq	%r8
	movq	%r8, 600(%rsp)
	jmp	.LBB72_69
.LBB72_79:
	testq	%r8, %r8
	je	.LBB72_89
	cmpq	$1, %r8
	jne	.LBB72_83
	xorl	%eax, %eax
	xorl	%edx, %edx
	jmp	.LBB72_86
.LBB72_89:
	xorl	%r8d, %r8d
	jmp	.LBB72_91
.LBB72_83:
	movq	%r8, %rsi
	andq	$-2, %rsi
	xorl	%eax, %eax
	xorl	%edx, %edx
	.p2align	4
.LBB72_84:
	movq	16(%rsp,%rdx,8), %r9
	movq	%r9, %r10
	shlq	%cl, %r10
	xorl	%edi, %edi
	testb	$64, %cl
	movq	%r10, %r11
	cmovneq	%rdi, %r11
	xorl	%r15d, %r15d
	shldq	%cl, %r9, %r15
	movq	8(%rsp,%rdx,8), %r9
	testb	$64, %cl
	cmovneq	%r10, %r15
	movq	%r9, %r10
	shlq	%cl, %r10
	testb	$64, %cl
	movq	%r10, %r12
	cmovneq	%rdi, %r12
	shldq	%cl, %r9, %rdi
	testb	$64, %cl
	cmovneq	%r10, %rdi
	addq	%rax, %r12
	adcq	$0, %rdi
	addq	%r11, %rdi
	movq	%r15, %rax
	adcq	$0, %rax
	movq	%r12, 8(%rsp,%rdx,8)
	movq	%rdi, 16(%rsp,%rdx,8)
	addq	$2, %rdx
	cmpq	%rdx, %rsi
	jne	.LBB72_84
	testb	$1, %r8b
	je	.LBB72_87
.LBB72_86:
	movq	8(%rsp,%rdx,8), %rsi
	xorl	%edi, %edi
	shldq	%cl, %rsi, %rdi
	shlq	%cl, %rsi
	xorl	%r9d, %r9d
	testb	$64, %cl
	cmovneq	%rsi, %rdi
	cmovneq	%r9, %rsi
	addq	%rax, %rsi
	adcq	$0, %rdi
	movq	%rsi, 8(%rsp,%rdx,8)
	movq	%rdi, %rax
.LBB72_87:
	testq	%rax, %rax
	je	.LBB72_90
	movq	%rax, 8(%rsp,%r8,8)
	incq	%r8
	movq	%r8, 600(%rsp)
	jmp	.LBB72_91
.LBB72_90:
	movq	600(%rsp), %r8
.LBB72_91:
	movq	1200(%rsp), %rax
	cmpq	%rax, %r8
	cmovaq	%r8, %rax
	.p2align	4
.LBB72_92:
	subq	$1, %rax
	jb	.LBB72_95
	movq	608(%rsp,%rax,8), %rcx
	movq	8(%rsp,%rax,8), %rdx
	cmpq	%rdx, %rcx
	jb	.LBB72_97
	jbe	.LBB72_92
	jmp	.LBB72_96
.LBB72_95:
	testb	%bpl, %bpl
	je	.LBB72_98
.LBB72_96:
	shlq	$23, %rbx
	leaq	(%r14,%rbx), %rcx
	incq	%rcx
	cmpq	$2139095040, %rcx
	movl	$2139095040, %eax
	cmovbq	%rcx, %rax
	jmp	.LBB72_100
.LBB72_97:
	shlq	$23, %rbx
	addq	%r14, %rbx
	jmp	.LBB72_99
.LBB72_98:
	movl	%r14d, %eax
	andl	$1, %eax
	addq	%r14, %rax
	shlq	$23, %rbx
	addq	%rax, %rbx
.LBB72_99:
	cmpq	$2139095040, %rbx
	movl	$2139095040, %eax
	cmovbq	%rbx, %rax
.LBB72_100:
	addq	$1208, %rsp
	popq	%rbx
	popq	%r12
	popq	%r13
	popq	%r14
	popq	%r15
	popq	%rbp
	retq
.Lfunc_end72:
	.size	"core::dec2flt::decimal::break_tie::<#11bd57d74d267e9b>", .Lfunc_end72-"core::dec2flt::decimal::break_tie::<#11bd57d74d267e9b>"

	.section	.rodata.cst4,"aM",@progbits,4
	.p2align	2, 0x0
.LCPI73_0:
	.long	0xff800000
.LCPI73_1:
	.long	0x7f800000
.LCPI73_2:
	.long	0xffc00000
.LCPI73_3:
	.long	0x7fc00000
	.section	".text.unlikely.core::dec2flt::words::read_word::<#11bd57d74d267e9b>","ax",@progbits
	.p2align	4
	.type	"core::dec2flt::words::read_word::<#11bd57d74d267e9b>",@function
"core::dec2flt::words::read_word::<#11bd57d74d267e9b>":
	testl	%ecx, %ecx
	jne	.LBB73_1
	movss	.LCPI73_1(%rip), %xmm0
	cmpq	$8, %rdx
	jb	.LBB73_13
.LBB73_4:
	movzbl	(%rsi), %eax
	leal	-65(%rax), %edx
	leal	32(%rax), %r8d
	cmpb	$26, %dl
	movzbl	%r8b, %edx
	cmovael	%eax, %edx
	cmpb	$105, %dl
	jne	.LBB73_15
	movzbl	1(%rsi), %eax
	leal	-65(%rax), %edx
	leal	32(%rax), %r8d
	cmpb	$26, %dl
	movzbl	%r8b, %edx
	cmovael	%eax, %edx
	cmpb	$110, %dl
	jne	.LBB73_15
	movzbl	2(%rsi), %eax
	leal	-65(%rax), %edx
	leal	32(%rax), %r8d
	cmpb	$26, %dl
	movzbl	%r8b, %edx
	cmovael	%eax, %edx
	cmpb	$102, %dl
	jne	.LBB73_15
	movzbl	3(%rsi), %eax
	leal	-65(%rax), %edx
	leal	32(%rax), %r8d
	cmpb	$26, %dl
	movzbl	%r8b, %edx
	cmovael	%eax, %edx
	cmpb	$105, %dl
	jne	.LBB73_15
	movzbl	4(%rsi), %eax
	leal	-65(%rax), %edx
	leal	32(%rax), %r8d
	cmpb	$26, %dl
	movzbl	%r8b, %edx
	cmovael	%eax, %edx
	cmpb	$110, %dl
	jne	.LBB73_15
	movzbl	5(%rsi), %eax
	leal	-65(%rax), %edx
	leal	32(%rax), %r8d
	cmpb	$26, %dl
	movzbl	%r8b, %edx
	cmovael	%eax, %edx
	cmpb	$105, %dl
	jne	.LBB73_15
	movzbl	6(%rsi), %eax
	leal	-65(%rax), %edx
	leal	32(%rax), %r8d
	cmpb	$26, %dl
	movzbl	%r8b, %edx
	cmovael	%eax, %edx
	cmpb	$116, %dl
	jne	.LBB73_15
	movzbl	7(%rsi), %eax
	leal	-65(%rax), %edx
	leal	32(%rax), %r8d
	cmpb	$26, %dl
	movzbl	%r8b, %edx
	cmovael	%eax, %edx
	cmpb	$121, %dl
	jne	.LBB73_15
	movl	$1, %ecx
	movl	$8, %eax
	movaps	%xmm0, %xmm1
	jmp	.LBB73_27
.LBB73_1:
	movss	.LCPI73_0(%rip), %xmm0
	cmpq	$8, %rdx
	jae	.LBB73_4
.LBB73_13:
	cmpq	$3, %rdx
	jae	.LBB73_15
	xorps	%xmm1, %xmm1
	jmp	.LBB73_17
.LBB73_15:
	movzbl	(%rsi), %edx
	leal	-65(%rdx), %eax
	leal	32(%rdx), %r8d
	cmpb	$26, %al
	movzbl	%r8b, %eax
	cmovael	%edx, %eax
	xorps	%xmm1, %xmm1
	cmpb	$110, %al
	je	.LBB73_21
	movzbl	%al, %eax
	cmpl	$105, %eax
	jne	.LBB73_17
	movzbl	1(%rsi), %eax
	leal	-65(%rax), %ecx
	leal	32(%rax), %edx
	cmpb	$26, %cl
	movzbl	%dl, %ecx
	cmovael	%eax, %ecx
	cmpb	$110, %cl
	jne	.LBB73_17
	movzbl	2(%rsi), %eax
	leal	-65(%rax), %ecx
	leal	32(%rax), %edx
	cmpb	$26, %cl
	movzbl	%dl, %ecx
	cmovael	%eax, %ecx
	cmpb	$102, %cl
	jne	.LBB73_17
	movl	$1, %ecx
	movl	$3, %eax
	movaps	%xmm0, %xmm1
	jmp	.LBB73_27
.LBB73_21:
	movzbl	1(%rsi), %eax
	leal	-65(%rax), %edx
	leal	32(%rax), %r8d
	cmpb	$26, %dl
	movzbl	%r8b, %edx
	cmovael	%eax, %edx
	cmpb	$97, %dl
	jne	.LBB73_17
	movzbl	2(%rsi), %eax
	leal	-65(%rax), %edx
	leal	32(%rax), %esi
	cmpb	$26, %dl
	movzbl	%sil, %edx
	cmovael	%eax, %edx
	cmpb	$110, %dl
	jne	.LBB73_17
	testb	%cl, %cl
	jne	.LBB73_24
	movss	.LCPI73_3(%rip), %xmm1
	jmp	.LBB73_26
.LBB73_17:
	xorl	%eax, %eax
	xorl	%ecx, %ecx
.LBB73_27:
	movq	%rcx, (%rdi)
	movss	%xmm1, 8(%rdi)
	movl	$0, 12(%rdi)
	movq	%rax, 16(%rdi)
	retq
.LBB73_24:
	movss	.LCPI73_2(%rip), %xmm1
.LBB73_26:
	movl	$1, %ecx
	movl	$3, %eax
	jmp	.LBB73_27
.Lfunc_end73:
	.size	"core::dec2flt::words::read_word::<#11bd57d74d267e9b>", .Lfunc_end73-"core::dec2flt::words::read_word::<#11bd57d74d267e9b>"

	.section	".text.unlikely.core::dec2flt::long::from_long::<#1d521972340cebc2>","ax",@progbits
	.p2align	4
	.type	"core::dec2flt::long::from_long::<#1d521972340cebc2>",@function
"core::dec2flt::long::from_long::<#1d521972340cebc2>":
	pushq	%rbp
	pushq	%r15
	pushq	%r14
	pushq	%r13
	pushq	%r12
	pushq	%rbx
	subq	$1304, %rsp
	movq	%rcx, %r12
	addq	%rsi, %r12
	je	.LBB74_1
	movq	%rdx, %r11
	subq	%rsi, %r11
	xorl	%eax, %eax
	.p2align	4
.LBB74_7:
	cmpq	%rsi, %rax
	movq	%r11, %r10
	cmovbq	%rdi, %r10
	cmpb	$48, (%r10,%rax)
	jne	.LBB74_2
	incq	%rax
	cmpq	%rax, %r12
	jne	.LBB74_7
	jmp	.LBB74_9
.LBB74_1:
	xorl	%eax, %eax
.LBB74_2:
	movq	%r12, %r14
	subq	%rax, %r14
	je	.LBB74_9
	xorl	%r13d, %r13d
	addq	%rcx, %r9
	setb	%r13b
	cmpq	$19, %r14
	movl	$19, %ebp
	cmovbq	%r14, %rbp
	movq	%r14, %r10
	subq	%rbp, %r10
	xorl	%r11d, %r11d
	addq	%r8, %r10
	setb	%r11b
	addq	$342, %r10
	adcq	$0, %r11
	cmpq	%r9, %r10
	movq	%r11, %rbx
	sbbq	%r13, %rbx
	jae	.LBB74_4
.LBB74_9:
	xorl	%eax, %eax
.LBB74_10:
	addq	$1304, %rsp
	popq	%rbx
	popq	%r12
	popq	%r13
	popq	%r14
	popq	%r15
	popq	%rbp
	retq
.LBB74_4:
	subq	%r9, %r10
	sbbq	%r13, %r11
	xorl	%ebx, %ebx
	movl	$650, %r15d
	cmpq	%r10, %r15
	sbbq	%r11, %rbx
	jae	.LBB74_11
	movabsq	$9218868437227405312, %rax
	jmp	.LBB74_10
.LBB74_11:
	movq	%r8, 24(%rsp)
	movq	%r9, 32(%rsp)
	movq	%r13, 64(%rsp)
	cmpq	$1, %r14
	movq	%rcx, 72(%rsp)
	jne	.LBB74_13
	xorl	%r15d, %r15d
	xorl	%r11d, %r11d
	jmp	.LBB74_16
.LBB74_13:
	movq	%rbp, %r9
	andl	$30, %ebp
	movq	%rax, %r13
	subq	%rsi, %r13
	addq	%rdx, %r13
	leaq	(%rdi,%rax), %rbx
	xorl	%r15d, %r15d
	xorl	%r11d, %r11d
	.p2align	4
.LBB74_14:
	leaq	(%r11,%r11,4), %r11
	leaq	(%rax,%r15), %r8
	cmpq	%rsi, %r8
	movq	%r13, %r8
	cmovbq	%rbx, %r8
	movzbl	(%r8,%r15), %r8d
	addb	$-48, %r8b
	movzbl	%r8b, %r8d
	leaq	(%r8,%r11,2), %r8
	leaq	(%r8,%r8,4), %r8
	leaq	(%rax,%r15), %r11
	incq	%r11
	cmpq	%rsi, %r11
	movq	%r13, %r11
	cmovbq	%rbx, %r11
	movzbl	1(%r11,%r15), %r11d
	addb	$-48, %r11b
	movzbl	%r11b, %r11d
	leaq	(%r11,%r8,2), %r11
	addq	$2, %r15
	cmpq	%r15, %rbp
	jne	.LBB74_14
	testb	$1, %r9b
	je	.LBB74_17
.LBB74_16:
	leaq	(%r11,%r11,4), %rcx
	addq	%rax, %r15
	leaq	(%rdi,%r15), %rax
	subq	%rsi, %r15
	leaq	(%rdx,%r15), %r8
	cmovbq	%rax, %r8
	movzbl	(%r8), %eax
	addb	$-48, %al
	movzbl	%al, %eax
	leaq	(%rax,%rcx,2), %r11
.LBB74_17:
	movq	%rdx, 8(%rsp)
	xorl	%ebx, %ebx
	cmpq	$20, %r14
	setae	%bl
	movl	$127, %ecx
	bsrq	%r11, %rcx
	xorq	$63, %rcx
	movq	%r11, %rax
	shlq	%cl, %rax
	movq	%r10, %rdx
	shlq	$4, %rdx
	leaq	.Lstatic.3(%rip), %r8
	mulq	8(%rdx,%r8)
	movq	%rdx, %r14
	shrq	$63, %r14
	imulq	$217706, %r10, %rax
	addq	$58980, %rax
	shrq	$16, %rax
	addq	%r14, %rax
	addq	$1139, %rax
	leaq	1191(%rcx), %r15
	cmpq	%r15, %rax
	jb	.LBB74_20
	movq	%rbx, %r9
	shlq	%cl, %r9
	movl	$-1024, %ebp
	movl	%r14d, %ecx
	shll	%cl, %ebp
	addq	$2, %r9
	notl	%ebp
	movl	%edx, %r8d
	movl	$512, %r13d
	shlq	%cl, %r13
	andl	%ebp, %r8d
	movq	%r13, %rcx
	subq	%r8, %rcx
	cmpq	%r9, %rcx
	jb	.LBB74_20
	orb	$10, %r14b
	movl	%r14d, %ecx
	shrq	%cl, %rdx
	subl	%r15d, %eax
	shlq	$52, %rax
	cmpl	%r8d, %r13d
	adcq	%rdx, %rax
	movabsq	$9218868437227405312, %rcx
	cmpq	%rcx, %rax
	cmovaeq	%rcx, %rax
	jmp	.LBB74_10
.LBB74_20:
	movq	24(%rsp), %r15
	movq	32(%rsp), %r14
	movq	%rdi, 48(%rsp)
	movq	%rsi, 40(%rsp)
	leaq	80(%rsp), %rdi
	movq	%r11, %rsi
	movq	%rbx, %rdx
	movq	%r10, %rcx
	callq	"core::dec2flt::lemire::eisel_lemire_wide::<#1d521972340cebc2>"
	movq	88(%rsp), %rax
	cmpb	$0, 80(%rsp)
	je	.LBB74_10
	movq	96(%rsp), %r9
	xorl	%r8d, %r8d
	movl	$1075, %ecx
	subq	%r9, %rcx
	cmovaeq	%rcx, %r8
	xorl	%edx, %edx
	movq	%r8, %rsi
	addq	%r15, %rsi
	setb	%dl
	cmpq	%r14, %rsi
	movq	%rdx, %rdi
	movq	64(%rsp), %rbp
	sbbq	%rbp, %rdi
	movq	%rax, 16(%rsp)
	movq	%r9, 56(%rsp)
	jae	.LBB74_22
	movq	%r14, %rcx
	movq	%r8, 24(%rsp)
	subq	%rsi, %rcx
	sbbq	%rdx, %rbp
	xorl	%edx, %edx
	movq	%r12, %rbx
	subq	%rcx, %rbx
	movl	$0, %eax
	sbbq	%rbp, %rax
	cmovbq	%rdx, %rbx
	cmpq	%rbx, %r12
	jbe	.LBB74_47
	cmpq	%r12, %rcx
	movq	%rbp, %r8
	movq	%rbp, %rax
	sbbq	$0, %rax
	movq	%r12, %rax
	cmovbq	%rcx, %rax
	movq	72(%rsp), %rbp
	subq	%rax, %rbp
	addq	8(%rsp), %rbp
	movq	%rbx, %rax
	movq	40(%rsp), %rdx
	movq	48(%rsp), %rsi
.LBB74_43:
	leaq	(%rsi,%rax), %rdi
	cmpq	%rdx, %rax
	cmovaeq	%rbp, %rdi
	cmpb	$48, (%rdi)
	jne	.LBB74_46
	incq	%rax
	incq	%rbp
	cmpq	%r12, %rax
	jb	.LBB74_43
	movq	%r12, %rax
.LBB74_46:
	cmpq	%r12, %rax
	setb	%dl
	movq	%r8, %rbp
.LBB74_47:
	movq	%rdx, 32(%rsp)
	leaq	704(%rsp), %rdi
	movl	$600, %edx
	xorl	%esi, %esi
	movq	%rcx, %r14
	callq	memset@PLT
	cmpq	%r12, %r14
	sbbq	$0, %rbp
	movq	8(%rsp), %rsi
	movq	40(%rsp), %r9
	movq	48(%rsp), %r10
	movq	16(%rsp), %r8
	jae	.LBB74_65
	movq	%rsi, %r15
	subq	%r9, %r15
	xorl	%r12d, %r12d
	jmp	.LBB74_49
.LBB74_64:
	addq	%r13, %r12
	cmpq	%rbx, %r12
	jae	.LBB74_65
.LBB74_49:
	movq	%rbx, %rax
	subq	%r12, %rax
	cmpq	$19, %rax
	movl	$19, %r13d
	cmovbq	%rax, %r13
	cmpq	$1, %rax
	jne	.LBB74_51
	xorl	%eax, %eax
	xorl	%r14d, %r14d
	jmp	.LBB74_54
.LBB74_51:
	movl	%r13d, %ecx
	andl	$30, %ecx
	leaq	(%r15,%r12), %rdx
	leaq	(%r10,%r12), %rdi
	xorl	%eax, %eax
	xorl	%r14d, %r14d
	.p2align	4
.LBB74_52:
	leaq	(%r14,%r14,4), %r11
	leaq	(%r12,%rax), %r14
	cmpq	%r9, %r14
	movq	%rdx, %r14
	cmovbq	%rdi, %r14
	movzbl	(%r14,%rax), %ebp
	addb	$-48, %bpl
	movzbl	%bpl, %r14d
	leaq	(%r14,%r11,2), %r11
	leaq	(%r11,%r11,4), %r11
	leaq	(%r12,%rax), %r14
	incq	%r14
	cmpq	%r9, %r14
	movq	%rdx, %r14
	cmovbq	%rdi, %r14
	movzbl	1(%r14,%rax), %ebp
	addb	$-48, %bpl
	movzbl	%bpl, %r14d
	leaq	(%r14,%r11,2), %r14
	addq	$2, %rax
	cmpq	%rax, %rcx
	jne	.LBB74_52
	testb	$1, %r13b
	je	.LBB74_55
.LBB74_54:
	leaq	(%r14,%r14,4), %rcx
	addq	%r12, %rax
	leaq	(%r10,%rax), %rdx
	subq	%r9, %rax
	leaq	(%rsi,%rax), %rax
	cmovbq	%rdx, %rax
	movzbl	(%rax), %eax
	addb	$-48, %al
	movzbl	%al, %eax
	leaq	(%rax,%rcx,2), %r14
.LBB74_55:
	movq	1296(%rsp), %rbp
	testq	%rbp, %rbp
	je	.LBB74_62
	movl	%r13d, %eax
	leaq	.Lstatic.2(%rip), %rcx
	movq	(%rcx,%rax,8), %rcx
	cmpq	$1, %rbp
	jne	.LBB74_58
	xorl	%r11d, %r11d
	jmp	.LBB74_61
.LBB74_58:
	movq	%rbp, %r8
	andq	$-2, %r8
	xorl	%r11d, %r11d
	.p2align	4
.LBB74_59:
	movq	%rcx, %rax
	mulq	704(%rsp,%r11,8)
	movq	%rdx, %rsi
	movq	%rax, %rdi
	movq	%rcx, %rax
	mulq	712(%rsp,%r11,8)
	addq	%r14, %rdi
	adcq	%rsi, %rax
	movq	%rdx, %r14
	adcq	$0, %r14
	movq	%rdi, 704(%rsp,%r11,8)
	movq	%rax, 712(%rsp,%r11,8)
	addq	$2, %r11
	cmpq	%r11, %r8
	jne	.LBB74_59
	testb	$1, %bpl
	movq	8(%rsp), %rsi
	movq	16(%rsp), %r8
	je	.LBB74_62
.LBB74_61:
	movq	%rcx, %rax
	mulq	704(%rsp,%r11,8)
	movq	16(%rsp), %r8
	addq	%r14, %rax
	movq	8(%rsp), %rsi
	adcq	$0, %rdx
	movq	%rax, 704(%rsp,%r11,8)
	movq	%rdx, %r14
.LBB74_62:
	testq	%r14, %r14
	je	.LBB74_64
	movq	%r14, 704(%rsp,%rbp,8)
	incq	%rbp
	movq	%rbp, 1296(%rsp)
	jmp	.LBB74_64
.LBB74_22:
	leaq	104(%rsp), %rdi
	movl	$600, %edx
	xorl	%esi, %esi
	callq	memset@PLT
	movq	16(%rsp), %r8
	testq	%r12, %r12
	movq	8(%rsp), %rdi
	movq	40(%rsp), %r10
	movq	48(%rsp), %r11
	jne	.LBB74_23
.LBB74_40:
	xorl	%eax, %eax
	movq	24(%rsp), %r9
	movq	%r9, %rdx
	movq	32(%rsp), %rcx
	subq	%rcx, %rdx
	movl	$0, %edi
	movq	64(%rsp), %rsi
	sbbq	%rsi, %rdi
	cmovbq	%rax, %rdx
	subq	%r9, %rcx
	sbbq	$0, %rsi
	cmovbq	%rax, %rcx
	leaq	104(%rsp), %rdi
	xorl	%esi, %esi
	jmp	.LBB74_66
.LBB74_65:
	movzbl	32(%rsp), %esi
	leaq	704(%rsp), %rdi
	xorl	%edx, %edx
	movq	24(%rsp), %rcx
.LBB74_66:
	movq	56(%rsp), %r9
	callq	"core::dec2flt::decimal::break_tie::<#1d521972340cebc2>"
	jmp	.LBB74_10
.LBB74_23:
	movq	%rdi, %r13
	subq	%r10, %r13
	xorl	%r14d, %r14d
	jmp	.LBB74_24
.LBB74_39:
	addq	%r9, %r14
	cmpq	%r12, %r14
	jae	.LBB74_40
.LBB74_24:
	movq	%r12, %rax
	subq	%r14, %rax
	cmpq	$19, %rax
	movl	$19, %r9d
	cmovbq	%rax, %r9
	cmpq	$1, %rax
	jne	.LBB74_26
	xorl	%eax, %eax
	xorl	%ebp, %ebp
	jmp	.LBB74_29
.LBB74_26:
	movl	%r9d, %ecx
	andl	$30, %ecx
	leaq	(%r14,%r13), %rdx
	leaq	(%r11,%r14), %rsi
	xorl	%eax, %eax
	xorl	%ebp, %ebp
	.p2align	4
.LBB74_27:
	leaq	(,%rbp,4), %rbx
	addq	%rbp, %rbx
	leaq	(%r14,%rax), %r15
	cmpq	%r10, %r15
	movq	%rdx, %r15
	cmovbq	%rsi, %r15
	movzbl	(%r15,%rax), %ebp
	addb	$-48, %bpl
	movzbl	%bpl, %r15d
	leaq	(%r15,%rbx,2), %rbx
	leaq	(%rbx,%rbx,4), %rbx
	leaq	(%r14,%rax), %r15
	incq	%r15
	cmpq	%r10, %r15
	movq	%rdx, %r15
	cmovbq	%rsi, %r15
	movzbl	1(%r15,%rax), %ebp
	addb	$-48, %bpl
	movzbl	%bpl, %r15d
	leaq	(%r15,%rbx,2), %rbp
	addq	$2, %rax
	cmpq	%rax, %rcx
	jne	.LBB74_27
	testb	$1, %r9b
	je	.LBB74_30
.LBB74_29:
	leaq	(,%rbp,4), %rcx
	addq	%rbp, %rcx
	addq	%r14, %rax
	leaq	(%r11,%rax), %rdx
	subq	%r10, %rax
	leaq	(%rdi,%rax), %rax
	cmovbq	%rdx, %rax
	movzbl	(%rax), %eax
	addb	$-48, %al
	movzbl	%al, %eax
	leaq	(%rax,%rcx,2), %rbp
.LBB74_30:
	movq	696(%rsp), %rbx
	testq	%rbx, %rbx
	je	.LBB74_37
	movl	%r9d, %eax
	leaq	.Lstatic.2(%rip), %rcx
	movq	(%rcx,%rax,8), %rsi
	cmpq	$1, %rbx
	jne	.LBB74_33
	xorl	%ecx, %ecx
	jmp	.LBB74_36
.LBB74_33:
	movq	%rbx, %r15
	andq	$-2, %r15
	xorl	%ecx, %ecx
	.p2align	4
.LBB74_34:
	movq	%rsi, %rax
	mulq	104(%rsp,%rcx,8)
	movq	%rdx, %rdi
	movq	%rax, %r8
	movq	%rsi, %rax
	mulq	112(%rsp,%rcx,8)
	addq	%rbp, %r8
	adcq	%rdi, %rax
	movq	%rdx, %rbp
	adcq	$0, %rbp
	movq	%r8, 104(%rsp,%rcx,8)
	movq	%rax, 112(%rsp,%rcx,8)
	addq	$2, %rcx
	cmpq	%rcx, %r15
	jne	.LBB74_34
	testb	$1, %bl
	movq	8(%rsp), %rdi
	movq	16(%rsp), %r8
	je	.LBB74_37
.LBB74_36:
	movq	%rsi, %rax
	mulq	104(%rsp,%rcx,8)
	movq	16(%rsp), %r8
	addq	%rbp, %rax
	movq	8(%rsp), %rdi
	adcq	$0, %rdx
	movq	%rax, 104(%rsp,%rcx,8)
	movq	%rdx, %rbp
.LBB74_37:
	testq	%rbp, %rbp
	je	.LBB74_39
	movq	%rbp, 104(%rsp,%rbx,8)
	incq	%rbx
	movq	%rbx, 696(%rsp)
	jmp	.LBB74_39
.Lfunc_end74:
	.size	"core::dec2flt::long::from_long::<#1d521972340cebc2>", .Lfunc_end74-"core::dec2flt::long::from_long::<#1d521972340cebc2>"

	.section	".text.unlikely.core::dec2flt::lemire::eisel_lemire_wide::<#1d521972340cebc2>","ax",@progbits
	.p2align	4
	.type	"core::dec2flt::lemire::eisel_lemire_wide::<#1d521972340cebc2>",@function
"core::dec2flt::lemire::eisel_lemire_wide::<#1d521972340cebc2>":
	pushq	%r14
	pushq	%rbx
	movq	%rcx, %r9
	movq	%rsi, %r10
	movl	$127, %ecx
	bsrq	%rsi, %rcx
	xorq	$63, %rcx
	shlq	%cl, %r10
	movq	%rdx, %rsi
	movq	%r9, %rbx
	shlq	$4, %rbx
	leaq	.Lstatic.3(%rip), %r14
	movq	%r10, %rax
	mulq	8(%rbx,%r14)
	movq	%rdx, %r8
	movq	%rax, %r11
	movq	%r10, %rax
	mulq	(%rbx,%r14)
	addq	%r11, %rdx
	adcq	$0, %r8
	movq	%r8, %r11
	shrq	$63, %r11
	imulq	$217706, %r9, %rax
	addq	$58980, %rax
	shrq	$16, %rax
	addq	%r11, %rax
	addq	$1139, %rax
	movq	%rcx, %r9
	addq	$1191, %r9
	shlq	%cl, %rsi
	xorl	%r10d, %r10d
	movq	%r9, %rcx
	subq	%rax, %rcx
	cmovbq	%r10, %rcx
	subq	%r9, %rax
	cmovbq	%r10, %rax
	addq	%r11, %rcx
	addq	$72, %rcx
	movl	$0, %r9d
	movl	$0, %r11d
	cmpq	$127, %rcx
	ja	.LBB75_7
	shrdq	$2, %r8, %rdx
	shrq	$2, %r8
	movq	%rdx, %r10
	shrdq	%cl, %r8, %r10
	movq	%r8, %r9
	shrq	%cl, %r9
	movq	$-1, %r11
	shlq	%cl, %r11
	xorl	%r14d, %r14d
	testb	$64, %cl
	cmoveq	%r10, %r9
	movq	$-1, %r10
	movq	%r11, %rbx
	cmovneq	%r14, %rbx
	cmoveq	%r10, %r11
	notq	%rbx
	andq	%rdx, %rbx
	decb	%cl
	movl	$1, %r10d
	xorl	%edx, %edx
	shldq	%cl, %r10, %rdx
	notq	%r11
	andq	%r8, %r11
	movl	$1, %r8d
	shlq	%cl, %r8
	testb	$64, %cl
	cmovneq	%r8, %rdx
	cmovneq	%r14, %r8
	cmpq	%rbx, %r8
	movq	%rdx, %rcx
	sbbq	%r11, %rcx
	jae	.LBB75_3
	shlq	$52, %rax
	addq	%r9, %rax
	incq	%rax
	movabsq	$9218868437227405312, %r9
	cmpq	%r9, %rax
	cmovbq	%rax, %r9
	xorl	%r10d, %r10d
	jmp	.LBB75_6
.LBB75_3:
	movq	%rsi, %rcx
	shrq	$2, %rcx
	shlq	$62, %rsi
	orq	$2, %rsi
	subq	%rbx, %r8
	sbbq	%r11, %rdx
	cmpq	%rsi, %r8
	sbbq	%rcx, %rdx
	jae	.LBB75_5
	movq	%rax, %r11
	jmp	.LBB75_7
.LBB75_5:
	shlq	$52, %rax
	addq	%r9, %rax
	movabsq	$9218868437227405312, %rcx
	cmpq	%rcx, %rax
	cmovaeq	%rcx, %rax
	xorl	%r10d, %r10d
	movq	%rax, %r9
.LBB75_6:
	xorl	%r11d, %r11d
.LBB75_7:
	movq	%r10, (%rdi)
	movq	%r9, 8(%rdi)
	movq	%r11, 16(%rdi)
	popq	%rbx
	popq	%r14
	retq
.Lfunc_end75:
	.size	"core::dec2flt::lemire::eisel_lemire_wide::<#1d521972340cebc2>", .Lfunc_end75-"core::dec2flt::lemire::eisel_lemire_wide::<#1d521972340cebc2>"

	.section	".text.unlikely.core::dec2flt::decimal::break_tie::<#1d521972340cebc2>","ax",@progbits
	.p2align	4
	.type	"core::dec2flt::decimal::break_tie::<#1d521972340cebc2>",@function
"core::dec2flt::decimal::break_tie::<#1d521972340cebc2>":
	pushq	%rbp
	pushq	%r15
	pushq	%r14
	pushq	%r13
	pushq	%r12
	pushq	%rbx
	subq	$1208, %rsp
	movq	%r9, %rbx
	movq	%r8, %r14
	movq	%rcx, %r15
	movq	%rdx, %r12
	movl	%esi, %ebp
	movq	%rdi, %rsi
	leaq	608(%rsp), %rdi
	movl	$600, %edx
	callq	memcpy@PLT
	cmpq	$20, %r12
	jb	.LBB76_14
	movq	1200(%rsp), %r8
	testq	%r8, %r8
	jne	.LBB76_4
	addq	$-20, %r12
	movabsq	$-2912643801112034465, %rcx
	movq	%r12, %rax
	mulq	%rcx
	shrq	$4, %rdx
	leaq	(%rdx,%rdx,8), %rax
	leaq	(%rdx,%rax,2), %rax
	subq	%rax, %r12
	incq	%r12
	jmp	.LBB76_14
	.p2align	4
.LBB76_3:
	movq	1200(%rsp), %r8
.LBB76_4:
	testq	%r8, %r8
	je	.LBB76_13
	cmpq	$1, %r8
	jne	.LBB76_7
	xorl	%r9d, %r9d
	xorl	%r10d, %r10d
	jmp	.LBB76_10
	.p2align	4
.LBB76_7:
	movq	%r8, %r11
	andq	$-2, %r11
	xorl	%r9d, %r9d
	xorl	%r10d, %r10d
	.p2align	4
.LBB76_8:
	movabsq	$-8446744073709551616, %rcx
	movq	%rcx, %rax
	mulq	608(%rsp,%r10,8)
	movq	%rdx, %rsi
	movq	%rax, %rdi
	movq	%rcx, %rax
	mulq	616(%rsp,%r10,8)
	addq	%r9, %rdi
	adcq	%rsi, %rax
	movq	%rdx, %r9
	adcq	$0, %r9
	movq	%rdi, 608(%rsp,%r10,8)
	movq	%rax, 616(%rsp,%r10,8)
	addq	$2, %r10
	cmpq	%r10, %r11
	jne	.LBB76_8
	testb	$1, %r8b
	je	.LBB76_11
.LBB76_10:
	movabsq	$-8446744073709551616, %rax
	mulq	608(%rsp,%r10,8)
	addq	%r9, %rax
	adcq	$0, %rdx
	movq	%rax, 608(%rsp,%r10,8)
	movq	%rdx, %r9
.LBB76_11:
	testq	%r9, %r9
	je	.LBB76_13
	movq	%r9, 608(%rsp,%r8,8)
	incq	%r8
	movq	%r8, 1200(%rsp)
.LBB76_13:
	addq	$-19, %r12
	cmpq	$19, %r12
	ja	.LBB76_3
.LBB76_14:
	movq	1200(%rsp), %r8
	testq	%r8, %r8
	je	.LBB76_45
	leaq	.Lstatic.2(%rip), %rax
	movq	(%rax,%r12,8), %rcx
	cmpq	$1, %r8
	jne	.LBB76_17
	xorl	%r9d, %r9d
	xorl	%r10d, %r10d
	jmp	.LBB76_20
.LBB76_17:
	movq	%r8, %r11
	andq	$-2, %r11
	xorl	%r9d, %r9d
	xorl	%r10d, %r10d
	.p2align	4
.LBB76_18:
	movq	%rcx, %rax
	mulq	608(%rsp,%r10,8)
	movq	%rdx, %rsi
	movq	%rax, %rdi
	movq	%rcx, %rax
	mulq	616(%rsp,%r10,8)
	addq	%r9, %rdi
	adcq	%rsi, %rax
	movq	%rdx, %r9
	adcq	$0, %r9
	movq	%rdi, 608(%rsp,%r10,8)
	movq	%rax, 616(%rsp,%r10,8)
	addq	$2, %r10
	cmpq	%r10, %r11
	jne	.LBB76_18
	testb	$1, %r8b
	je	.LBB76_21
.LBB76_20:
	movq	%rcx, %rax
	mulq	608(%rsp,%r10,8)
	addq	%r9, %rax
	adcq	$0, %rdx
	movq	%rax, 608(%rsp,%r10,8)
	movq	%rdx, %r9
.LBB76_21:
	testq	%r9, %r9
	je	.LBB76_23
	movq	%r9, 608(%rsp,%r8,8)
	incq	%r8
	movq	%r8, 1200(%rsp)
	jmp	.LBB76_24
.LBB76_23:
	movq	1200(%rsp), %r8
.LBB76_24:
	xorl	%ecx, %ecx
	movl	$1075, %eax
	subq	%rbx, %rax
	cmovaeq	%rax, %rcx
	cmpq	$64, %rcx
	jb	.LBB76_36
	testq	%r8, %r8
	jne	.LBB76_27
	jmp	.LBB76_45
	.p2align	4
.LBB76_26:
	addq	$-63, %rcx
	movq	1200(%rsp), %r8
	cmpq	$63, %rcx
	jbe	.LBB76_36
.LBB76_27:
	testq	%r8, %r8
	je	.LBB76_26
	cmpq	$1, %r8
	jne	.LBB76_30
	xorl	%eax, %eax
	xorl	%edx, %edx
	jmp	.LBB76_33
	.p2align	4
.LBB76_30:
	movq	%r8, %rsi
	andq	$-2, %rsi
	xorl	%eax, %eax
	xorl	%edx, %edx
	.p2align	4
.LBB76_31:
	movq	608(%rsp,%rdx,8), %rdi
	movq	%rdi, %r9
	shlq	$63, %r9
	orq	%rax, %r9
	movq	616(%rsp,%rdx,8), %rax
	movq	%r9, 608(%rsp,%rdx,8)
	shrdq	$1, %rax, %rdi
	movq	%rdi, 616(%rsp,%rdx,8)
	shrq	%rax
	addq	$2, %rdx
	cmpq	%rdx, %rsi
	jne	.LBB76_31
	testb	$1, %r8b
	je	.LBB76_34
.LBB76_33:
	movq	608(%rsp,%rdx,8), %rsi
	movq	%rsi, %rdi
	shlq	$63, %rdi
	orq	%rax, %rdi
	movq	%rdi, 608(%rsp,%rdx,8)
	shrq	%rsi
	movq	%rsi, %rax
.LBB76_34:
	testq	%rax, %rax
	je	.LBB76_26
	movq	%rax, 608(%rsp,%r8,8)
	incq	%r8
	movq	%r8, 1200(%rsp)
	jmp	.LBB76_26
.LBB76_36:
	testq	%r8, %r8
	je	.LBB76_45
	cmpq	$1, %r8
	jne	.LBB76_39
	xorl	%eax, %eax
	xorl	%edx, %edx
	jmp	.LBB76_42
.LBB76_39:
	movq	%r8, %rsi
	andq	$-2, %rsi
	xorl	%eax, %eax
	xorl	%edx, %edx
	.p2align	4
.LBB76_40:
	movq	616(%rsp,%rdx,8), %r9
	movq	%r9, %r10
	shlq	%cl, %r10
	xorl	%edi, %edi
	testb	$64, %cl
	movq	%r10, %r11
	cmovneq	%rdi, %r11
	xorl	%r12d, %r12d
	shldq	%cl, %r9, %r12
	movq	608(%rsp,%rdx,8), %r9
	testb	$64, %cl
	cmovneq	%r10, %r12
	movq	%r9, %r10
	shlq	%cl, %r10
	testb	$64, %cl
	movq	%r10, %r13
	cmovneq	%rdi, %r13
	shldq	%cl, %r9, %rdi
	testb	$64, %cl
	cmovneq	%r10, %rdi
	addq	%rax, %r13
	adcq	$0, %rdi
	addq	%r11, %rdi
	movq	%r12, %rax
	adcq	$0, %rax
	movq	%r13, 608(%rsp,%rdx,8)
	movq	%rdi, 616(%rsp,%rdx,8)
	addq	$2, %rdx
	cmpq	%rdx, %rsi
	jne	.LBB76_40
	testb	$1, %r8b
	je	.LBB76_43
.LBB76_42:
	movq	608(%rsp,%rdx,8), %rsi
	xorl	%edi, %edi
	shldq	%cl, %rsi, %rdi
	shlq	%cl, %rsi
	xorl	%r9d, %r9d
	testb	$64, %cl
	cmovneq	%rsi, %rdi
	cmovneq	%r9, %rsi
	addq	%rax, %rsi
	adcq	$0, %rdi
	movq	%rsi, 608(%rsp,%rdx,8)
	movq	%rdi, %rax
.LBB76_43:
	testq	%rax, %rax
	je	.LBB76_45
	movq	%rax, 608(%rsp,%r8,8)
	incq	%r8
	movq	%r8, 1200(%rsp)
.LBB76_45:
	leaq	1(,%r14,2), %rax
	movq	%rax, 8(%rsp)
	leaq	16(%rsp), %rdi
	movl	$584, %edx
	xorl	%esi, %esi
	callq	memset@PLT
	movq	$1, 600(%rsp)
	movl	$1, %r8d
	cmpq	$20, %r15
	jae	.LBB76_47
	jmp	.LBB76_57
	.p2align	4
.LBB76_46:
	addq	$-19, %r15
	movq	600(%rsp), %r8
	cmpq	$19, %r15
	jbe	.LBB76_56
.LBB76_47:
	testq	%r8, %r8
	je	.LBB76_46
	cmpq	$1, %r8
	jne	.LBB76_50
	xorl	%r9d, %r9d
	xorl	%r10d, %r10d
	jmp	.LBB76_53
	.p2align	4
.LBB76_50:
	movq	%r8, %r11
	andq	$-2, %r11
	xorl	%r9d, %r9d
	xorl	%r10d, %r10d
	.p2align	4
.LBB76_51:
	movabsq	$-8446744073709551616, %rcx
	movq	%rcx, %rax
	mulq	8(%rsp,%r10,8)
	movq	%rdx, %rsi
	movq	%rax, %rdi
	movq	%rcx, %rax
	mulq	16(%rsp,%r10,8)
	addq	%r9, %rdi
	adcq	%rsi, %rax
	movq	%rdx, %r9
	adcq	$0, %r9
	movq	%rdi, 8(%rsp,%r10,8)
	movq	%rax, 16(%rsp,%r10,8)
	addq	$2, %r10
	cmpq	%r10, %r11
	jne	.LBB76_51
	testb	$1, %r8b
	je	.LBB76_54
.LBB76_53:
	movabsq	$-8446744073709551616, %rax
	mulq	8(%rsp,%r10,8)
	addq	%r9, %rax
	adcq	$0, %rdx
	movq	%rax, 8(%rsp,%r10,8)
	movq	%rdx, %r9
.LBB76_54:
	testq	%r9, %r9
	je	.LBB76_46
	movq	%r9, 8(%rsp,%r8,8)
	incq	%r8
	movq	%r8, 600(%rsp)
	jmp	.LBB76_46
.LBB76_56:
	testq	%r8, %r8
	je	.LBB76_89
.LBB76_57:
	leaq	.Lstatic.2(%rip), %rax
	movq	(%rax,%r15,8), %rcx
	cmpq	$1, %r8
	jne	.LBB76_59
	xorl	%r9d, %r9d
	xorl	%r10d, %r10d
	jmp	.LBB76_62
.LBB76_59:
	movq	%r8, %r11
	andq	$-2, %r11
	xorl	%r9d, %r9d
	xorl	%r10d, %r10d
	.p2align	4
.LBB76_60:
	movq	%rcx, %rax
	mulq	8(%rsp,%r10,8)
	movq	%rdx, %rsi
	movq	%rax, %rdi
	movq	%rcx, %rax
	mulq	16(%rsp,%r10,8)
	addq	%r9, %rdi
	adcq	%rsi, %rax
	movq	%rdx, %r9
	adcq	$0, %r9
	movq	%rdi, 8(%rsp,%r10,8)
	movq	%rax, 16(%rsp,%r10,8)
	addq	$2, %r10
	cmpq	%r10, %r11
	jne	.LBB76_60
	testb	$1, %r8b
	je	.LBB76_63
.LBB76_62:
	movq	%rcx, %rax
	mulq	8(%rsp,%r10,8)
	addq	%r9, %rax
	adcq	$0, %rdx
	movq	%rax, 8(%rsp,%r10,8)
	movq	%rdx, %r9
.LBB76_63:
	testq	%r9, %r9
	je	.LBB76_65
	movq	%r9, 8(%rsp,%r8,8)
	incq	%r8
	movq	%r8, 600(%rsp)
	jmp	.LBB76_66
.LBB76_65:
	movq	600(%rsp), %r8
.LBB76_66:
	xorl	%ecx, %ecx
	movq	%rbx, %rax
	subq	$1075, %rax
	cmovaeq	%rax, %rcx
	cmpq	$64, %rcx
	jb	.LBB76_79
	testq	%r8, %r8
	jne	.LBB76_70
	jmp	.LBB76_89
	.p2align	4
.LBB76_69:
	addq	$-63, %rcx
	movq	600(%rsp), %r8
	cmpq	$63, %rcx
	jbe	.LBB76_79
.LBB76_70:
	testq	%r8, %r8
	je	.LBB76_69
	cmpq	$1, %r8
	jne	.LBB76_73
	xorl	%eax, %eax
	xorl	%edx, %edx
	jmp	.LBB76_76
	.p2align	4
.LBB76_73:
	movq	%r8, %rsi
	andq	$-2, %rsi
	xorl	%eax, %eax
	xorl	%edx, %edx
	.p2align	4
.LBB76_74:
	movq	8(%rsp,%rdx,8), %rdi
	movq	%rdi, %r9
	shlq	$63, %r9
	orq	%rax, %r9
	movq	16(%rsp,%rdx,8), %rax
	movq	%r9, 8(%rsp,%rdx,8)
	shrdq	$1, %rax, %rdi
	movq	%rdi, 16(%rsp,%rdx,8)
	shrq	%rax
	addq	$2, %rdx
	cmpq	%rdx, %rsi
	jne	.LBB76_74
	testb	$1, %r8b
	je	.LBB76_77
.LBB76_76:
	movq	8(%rsp,%rdx,8), %rsi
	movq	%rsi, %rdi
	shlq	$63, %rdi
	orq	%rax, %rdi
	movq	%rdi, 8(%rsp,%rdx,8)
	shrq	%rsi
	movq	%rsi, %rax
.LBB76_77:
	testq	%rax, %rax
	je	.LBB76_69
	movq	%rax, 8(%rsp,%r8,8)
	incq	%r8
	movq	%r8, 600(%rsp)
	jmp	.LBB76_69
.LBB76_79:
	testq	%r8, %r8
	je	.LBB76_89
	cmpq	$1, %r8
	jne	.LBB76_83
	xorl	%eax, %eax
	xorl	%edx, %edx
	jmp	.LBB76_86
.LBB76_89:
	xorl	%r8d, %r8d
	jmp	.LBB76_91
.LBB76_83:
	movq	%r8, %rsi
	andq	$-2, %rsi
	xorl	%eax, %eax
	xorl	%edx, %edx
	.p2align	4
.LBB76_84:
	movq	16(%rsp,%rdx,8), %r9
	movq	%r9, %r10
	shlq	%cl, %r10
	xorl	%edi, %edi
	testb	$64, %cl
	movq	%r10, %r11
	cmovneq	%rdi, %r11
	xorl	%r15d, %r15d
	shldq	%cl, %r9, %r15
	movq	8(%rsp,%rdx,8), %r9
	testb	$64, %cl
	cmovneq	%r10, %r15
	movq	%r9, %r10
	shlq	%cl, %r10
	testb	$64, %cl
	movq	%r10, %r12
	cmovneq	%rdi, %r12
	shldq	%cl, %r9, %rdi
	testb	$64, %cl
	cmovneq	%r10, %rdi
	addq	%rax, %r12
	adcq	$0, %rdi
	addq	%r11, %rdi
	movq	%r15, %rax
	adcq	$0, %rax
	movq	%r12, 8(%rsp,%rdx,8)
	movq	%rdi, 16(%rsp,%rdx,8)
	addq	$2, %rdx
	cmpq	%rdx, %rsi
	jne	.LBB76_84
	testb	$1, %r8b
	je	.LBB76_87
.LBB76_86:
	movq	8(%rsp,%rdx,8), %rsi
	xorl	%edi, %edi
	shldq	%cl, %rsi, %rdi
	shlq	%cl, %rsi
	xorl	%r9d, %r9d
	testb	$64, %cl
	cmovneq	%rsi, %rdi
	cmovneq	%r9, %rsi
	addq	%rax, %rsi
	adcq	$0, %rdi
	movq	%rsi, 8(%rsp,%rdx,8)
	movq	%rdi, %rax
.LBB76_87:
	testq	%rax, %rax
	je	.LBB76_90
	movq	%rax, 8(%rsp,%r8,8)
	incq	%r8
	movq	%r8, 600(%rsp)
	jmp	.LBB76_91
.LBB76_90:
	movq	600(%rsp), %r8
.LBB76_91:
	movq	1200(%rsp), %rax
	cmpq	%rax, %r8
	cmovaq	%r8, %rax
	.p2align	4
.LBB76_92:
	subq	$1, %rax
	jb	.LBB76_95
	movq	608(%rsp,%rax,8), %rcx
	movq	8(%rsp,%rax,8), %rdx
	cmpq	%rdx, %rcx
	jb	.LBB76_97
	jbe	.LBB76_92
	jmp	.LBB76_96
.LBB76_95:
	testb	%bpl, %bpl
	je	.LBB76_98
.LBB76_96:
	shlq	$52, %rbx
	leaq	(%r14,%rbx), %rcx
	incq	%rcx
	movabsq	$9218868437227405312, %rax
	cmpq	%rax, %rcx
	cmovbq	%rcx, %rax
	jmp	.LBB76_100
.LBB76_97:
	shlq	$52, %rbx
	addq	%r14, %rbx
	jmp	.LBB76_99
.LBB76_98:
	movl	%r14d, %eax
	andl	$1, %eax
	addq	%r14, %rax
	shlq	$52, %rbx
	addq	%rax, %rbx
.LBB76_99:
	movabsq	$9218868437227405312, %rax
	cmpq	%rax, %rbx
	cmovaeq	%rax, %rbx
	movq	%rbx, %rax
.LBB76_100:
	addq	$1208, %rsp
	popq	%rbx
	popq	%r12
	popq	%r13
	popq	%r14
	popq	%r15
	popq	%rbp
	retq
.Lfunc_end76:
	.size	"core::dec2flt::decimal::break_tie::<#1d521972340cebc2>", .Lfunc_end76-"core::dec2flt::decimal::break_tie::<#1d521972340cebc2>"

	.section	.rodata.cst8,"aM",@progbits,8
	.p2align	3, 0x0
.LCPI77_0:
	.quad	0xfff0000000000000
.LCPI77_1:
	.quad	0x7ff0000000000000
.LCPI77_2:
	.quad	0xfff8000000000000
.LCPI77_3:
	.quad	0x7ff8000000000000
	.section	".text.unlikely.core::dec2flt::words::read_word::<#1d521972340cebc2>","ax",@progbits
	.p2align	4
	.type	"core::dec2flt::words::read_word::<#1d521972340cebc2>",@function
"core::dec2flt::words::read_word::<#1d521972340cebc2>":
	testl	%ecx, %ecx
	jne	.LBB77_1
	movsd	.LCPI77_1(%rip), %xmm0
	cmpq	$8, %rdx
	jb	.LBB77_14
.LBB77_4:
	movzbl	(%rsi), %eax
	leal	-65(%rax), %edx
	leal	32(%rax), %r8d
	cmpb	$26, %dl
	movzbl	%r8b, %edx
	cmovael	%eax, %edx
	cmpb	$105, %dl
	jne	.LBB77_16
	movzbl	1(%rsi), %eax
	leal	-65(%rax), %edx
	leal	32(%rax), %r8d
	cmpb	$26, %dl
	movzbl	%r8b, %edx
	cmovael	%eax, %edx
	cmpb	$110, %dl
	jne	.LBB77_16
	movzbl	2(%rsi), %eax
	leal	-65(%rax), %edx
	leal	32(%rax), %r8d
	cmpb	$26, %dl
	movzbl	%r8b, %edx
	cmovael	%eax, %edx
	cmpb	$102, %dl
	jne	.LBB77_16
	movzbl	3(%rsi), %eax
	leal	-65(%rax), %edx
	leal	32(%rax), %r8d
	cmpb	$26, %dl
	movzbl	%r8b, %edx
	cmovael	%eax, %edx
	cmpb	$105, %dl
	jne	.LBB77_16
	movzbl	4(%rsi), %eax
	leal	-65(%rax), %edx
	leal	32(%rax), %r8d
	cmpb	$26, %dl
	movzbl	%r8b, %edx
	cmovael	%eax, %edx
	cmpb	$110, %dl
	jne	.LBB77_16
	movzbl	5(%rsi), %eax
	leal	-65(%rax), %edx
	leal	32(%rax), %r8d
	cmpb	$26, %dl
	movzbl	%r8b, %edx
	cmovael	%eax, %edx
	cmpb	$105, %dl
	jne	.LBB77_16
	movzbl	6(%rsi), %eax
	leal	-65(%rax), %edx
	leal	32(%rax), %r8d
	cmpb	$26, %dl
	movzbl	%r8b, %edx
	cmovael	%eax, %edx
	cmpb	$116, %dl
	jne	.LBB77_16
	movzbl	7(%rsi), %eax
	leal	-65(%rax), %edx
	leal	32(%rax), %r8d
	cmpb	$26, %dl
	movzbl	%r8b, %edx
	cmovael	%eax, %edx
	cmpb	$121, %dl
	jne	.LBB77_16
	movl	$8, %ecx
	jmp	.LBB77_13
.LBB77_1:
	movsd	.LCPI77_0(%rip), %xmm0
	cmpq	$8, %rdx
	jae	.LBB77_4
.LBB77_14:
	cmpq	$3, %rdx
	jae	.LBB77_16
	xorps	%xmm1, %xmm1
	jmp	.LBB77_18
.LBB77_16:
	movzbl	(%rsi), %edx
	leal	-65(%rdx), %eax
	leal	32(%rdx), %r8d
	cmpb	$26, %al
	movzbl	%r8b, %eax
	cmovael	%edx, %eax
	xorps	%xmm1, %xmm1
	cmpb	$110, %al
	je	.LBB77_22
	movzbl	%al, %eax
	cmpl	$105, %eax
	jne	.LBB77_18
	movzbl	1(%rsi), %eax
	leal	-65(%rax), %ecx
	leal	32(%rax), %edx
	cmpb	$26, %cl
	movzbl	%dl, %ecx
	cmovael	%eax, %ecx
	cmpb	$110, %cl
	jne	.LBB77_18
	movzbl	2(%rsi), %eax
	leal	-65(%rax), %ecx
	leal	32(%rax), %edx
	cmpb	$26, %cl
	movzbl	%dl, %ecx
	cmovael	%eax, %ecx
	cmpb	$102, %cl
	jne	.LBB77_18
	movl	$3, %ecx
.LBB77_13:
	movl	$1, %eax
	movaps	%xmm0, %xmm1
	movq	%rax, (%rdi)
	movsd	%xmm1, 8(%rdi)
	movq	%rcx, 16(%rdi)
	retq
.LBB77_22:
	movzbl	1(%rsi), %eax
	leal	-65(%rax), %edx
	leal	32(%rax), %r8d
	cmpb	$26, %dl
	movzbl	%r8b, %edx
	cmovael	%eax, %edx
	cmpb	$97, %dl
	jne	.LBB77_18
	movzbl	2(%rsi), %eax
	leal	-65(%rax), %edx
	leal	32(%rax), %esi
	cmpb	$26, %dl
	movzbl	%sil, %edx
	cmovael	%eax, %edx
	cmpb	$110, %dl
	jne	.LBB77_18
	testb	%cl, %cl
	jne	.LBB77_25
	movsd	.LCPI77_3(%rip), %xmm1
	jmp	.LBB77_27
.LBB77_18:
	xorl	%eax, %eax
	xorl	%ecx, %ecx
	movq	%rax, (%rdi)
	movsd	%xmm1, 8(%rdi)
	movq	%rcx, 16(%rdi)
	retq
.LBB77_25:
	movsd	.LCPI77_2(%rip), %xmm1
.LBB77_27:
	movl	$3, %ecx
	movl	$1, %eax
	movq	%rax, (%rdi)
	movsd	%xmm1, 8(%rdi)
	movq	%rcx, 16(%rdi)
	retq
.Lfunc_end77:
	.size	"core::dec2flt::words::read_word::<#1d521972340cebc2>", .Lfunc_end77-"core::dec2flt::words::read_word::<#1d521972340cebc2>"

	.section	".text.amqp_json::reading::put::put_counted","ax",@progbits
	.p2align	4
	.type	"amqp_json::reading::put::put_counted",@function
"amqp_json::reading::put::put_counted":
	pushq	%rbp
	pushq	%r15
	pushq	%r14
	pushq	%r13
	pushq	%r12
	pushq	%rbx
	pushq	%rax
	movq	%r8, %rax
	shrq	$32, %rax
	jne	.LBB78_9
	movq	%r8, %rax
	shrq	$24, %rax
	movl	%r8d, %ebp
	andl	$16777215, %ebp
	bswapl	%ebp
	orl	%eax, %ebp
	movl	%ebp, 4(%rsp)
	movq	8(%rsi), %rax
	movq	16(%rsi), %rbx
	cmpq	%rax, %rbx
	je	.LBB78_15
.LBB78_2:
	movq	(%rsi), %r14
	movb	%dl, (%r14,%rax)
	incq	%rax
	movq	%r14, (%rsi)
	movq	%rax, 8(%rsi)
	movq	%rbx, 16(%rsi)
	movq	%rbx, %rdx
	subq	%rax, %rdx
	cmpq	$3, %rdx
	jbe	.LBB78_33
.LBB78_3:
	leaq	4(%rax), %rdx
	leaq	(%r14,%rax), %r9
	leaq	4(%rsp), %r10
	subq	%r10, %r9
	cmpq	$4, %r9
	jae	.LBB78_5
	movl	4(%rsp), %ebp
.LBB78_5:
	movl	%ebp, (%r14,%rax)
	movq	%r14, (%rsi)
	movq	%rdx, 8(%rsi)
	movq	%rbx, 16(%rsi)
	movq	%rbx, %rax
	subq	%rdx, %rax
	cmpq	%rax, %r8
	ja	.LBB78_36
.LBB78_6:
	leaq	8(%rsi), %rax
	leaq	(%rdx,%r8), %r15
	xorps	%xmm0, %xmm0
	movups	%xmm0, (%rax)
	leaq	(%r14,%rdx), %rax
	movq	%rax, %r9
	subq	%rcx, %r9
	cmpq	%r8, %r9
	jae	.LBB78_10
	cmpq	$4, %r8
	jb	.LBB78_8
	cmpq	$32, %r9
	jae	.LBB78_13
.LBB78_8:
	xorl	%r9d, %r9d
.LBB78_24:
	movq	%r8, %r11
	movq	%r9, %r10
	andq	$3, %r11
	je	.LBB78_27
	movq	%r9, %r10
	.p2align	4
.LBB78_26:
	movzbl	(%rcx,%r10), %ebp
	movb	%bpl, (%rax,%r10)
	incq	%r10
	decq	%r11
	jne	.LBB78_26
.LBB78_27:
	subq	%r8, %r9
	cmpq	$-4, %r9
	ja	.LBB78_30
	leaq	(%rdx,%r14), %rax
	addq	$3, %rax
	.p2align	4
.LBB78_29:
	movzbl	(%rcx,%r10), %edx
	movb	%dl, -3(%rax,%r10)
	movzbl	1(%rcx,%r10), %edx
	movb	%dl, -2(%rax,%r10)
	movzbl	2(%rcx,%r10), %edx
	movb	%dl, -1(%rax,%r10)
	movzbl	3(%rcx,%r10), %edx
	movb	%dl, (%rax,%r10)
	addq	$4, %r10
	cmpq	%r10, %r8
	jne	.LBB78_29
	jmp	.LBB78_30
.LBB78_9:
	movb	$1, (%rdi)
	movq	$1, 8(%rdi)
	movq	$0, 16(%rdi)
	jmp	.LBB78_31
.LBB78_10:
	movq	%rdi, %r12
	movq	%rax, %rdi
	movq	%rsi, %r13
	movq	%rcx, %rsi
	movq	%r8, %rdx
	callq	memmove@PLT
	movq	%r13, %rsi
	movq	%r12, %rdi
.LBB78_30:
	movq	%r14, (%rsi)
	movq	%r15, 8(%rsi)
	movq	%rbx, 16(%rsi)
	movb	$0, (%rdi)
	xorps	%xmm0, %xmm0
	movups	%xmm0, 8(%rdi)
.LBB78_31:
	movb	$0, 24(%rdi)
.LBB78_32:
	addq	$8, %rsp
	popq	%rbx
	popq	%r12
	popq	%r13
	popq	%r14
	popq	%r15
	popq	%rbp
	retq
.LBB78_13:
	cmpq	$32, %r8
	jae	.LBB78_17
	xorl	%r9d, %r9d
	jmp	.LBB78_21
.LBB78_15:
	movl	%edx, %r14d
	movq	%rcx, %r12
	movq	%r8, %r13
	movq	%rdi, %r15
	movq	%rsi, %rdi
	movl	$1, %esi
	movq	%rdi, %rbx
	callq	"std_alloc::vec::Vec::grow_amortized::<#1283936d4ef01d73>"
	testb	%al, %al
	je	.LBB78_35
	movq	%rbx, %rsi
	movq	8(%rbx), %rax
	movq	16(%rbx), %rbx
	movq	%r15, %rdi
	movq	%r13, %r8
	movq	%r12, %rcx
	movl	%r14d, %edx
	jmp	.LBB78_2
.LBB78_17:
	movl	%r8d, %r9d
	andl	$-32, %r9d
	leaq	(%rdx,%r14), %r10
	addq	$16, %r10
	xorl	%r11d, %r11d
	.p2align	4
.LBB78_18:
	movups	(%rcx,%r11), %xmm0
	movups	16(%rcx,%r11), %xmm1
	movups	%xmm0, -16(%r10,%r11)
	movups	%xmm1, (%r10,%r11)
	addq	$32, %r11
	cmpq	%r11, %r9
	jne	.LBB78_18
	cmpq	%r9, %r8
	je	.LBB78_30
	testb	$28, %r8b
	je	.LBB78_24
.LBB78_21:
	movq	%r9, %r10
	movl	%r8d, %r9d
	andl	$-4, %r9d
	.p2align	4
.LBB78_22:
	movl	(%rcx,%r10), %r11d
	movl	%r11d, (%rax,%r10)
	addq	$4, %r10
	cmpq	%r10, %r9
	jne	.LBB78_22
	cmpq	%r9, %r8
	je	.LBB78_30
	jmp	.LBB78_24
.LBB78_33:
	movq	%rcx, %r12
	movq	%r8, %r13
	movq	%rdi, %r15
	movq	%rsi, %rdi
	movl	$4, %esi
	movq	%rdi, %rbx
	callq	"std_alloc::vec::Vec::grow_amortized::<#1283936d4ef01d73>"
	testb	%al, %al
	je	.LBB78_35
	movq	%rbx, %rsi
	movq	(%rbx), %r14
	movq	8(%rbx), %rax
	movq	16(%rbx), %rbx
	movq	%r15, %rdi
	movq	%r13, %r8
	movq	%r12, %rcx
	jmp	.LBB78_3
.LBB78_35:
	movb	$1, (%r15)
	xorps	%xmm0, %xmm0
	movups	%xmm0, 8(%r15)
	movb	$0, 24(%r15)
	jmp	.LBB78_32
.LBB78_36:
	movq	%rcx, %r15
	movq	%rdi, %r12
	movq	%rsi, %rbx
	movq	%rsi, %rdi
	movq	%r8, %r13
	movq	%r8, %rsi
	callq	"std_alloc::vec::Vec::grow_amortized::<#1283936d4ef01d73>"
	testb	%al, %al
	je	.LBB78_38
	movq	%rbx, %rsi
	movq	(%rbx), %r14
	movq	8(%rbx), %rdx
	movq	16(%rbx), %rbx
	movq	%r12, %rdi
	movq	%r13, %r8
	movq	%r15, %rcx
	jmp	.LBB78_6
.LBB78_38:
	movb	$1, (%r12)
	xorps	%xmm0, %xmm0
	movups	%xmm0, 8(%r12)
	movb	$0, 24(%r12)
	jmp	.LBB78_32
.Lfunc_end78:
	.size	"amqp_json::reading::put::put_counted", .Lfunc_end78-"amqp_json::reading::put::put_counted"

	.section	".text.amqp_json::reading::put::put_head","ax",@progbits
	.p2align	4
	.type	"amqp_json::reading::put::put_head",@function
"amqp_json::reading::put::put_head":
	pushq	%r15
	pushq	%r14
	pushq	%rbx
	movq	8(%rsi), %rax
	movq	16(%rsi), %rcx
	cmpq	%rax, %rcx
	je	.LBB79_1
.LBB79_3:
	movq	(%rsi), %r8
	movb	%dl, (%r8,%rax)
	incq	%rax
	movq	%r8, (%rsi)
	movq	%rax, 8(%rsi)
	movq	%rcx, 16(%rsi)
	movq	%rcx, %rdx
	subq	%rax, %rdx
	cmpq	$3, %rdx
	jbe	.LBB79_4
.LBB79_6:
	movl	$0, (%r8,%rax)
	addq	$4, %rax
	movq	%r8, (%rsi)
	movq	%rax, 8(%rsi)
	movq	%rcx, 16(%rsi)
	xorl	%ecx, %ecx
.LBB79_7:
	movb	%cl, (%rdi)
	xorps	%xmm0, %xmm0
	movups	%xmm0, 8(%rdi)
	movb	$0, 24(%rdi)
	popq	%rbx
	popq	%r14
	popq	%r15
	retq
.LBB79_1:
	movl	%edx, %ebx
	movq	%rsi, %rax
	movl	$1, %esi
	movq	%rdi, %r15
	movq	%rax, %r14
	movq	%rax, %rdi
	callq	"std_alloc::vec::Vec::grow_amortized::<#1283936d4ef01d73>"
	movq	%r15, %rdi
	movb	$1, %cl
	testb	%al, %al
	je	.LBB79_7
	movq	%r14, %rsi
	movq	8(%r14), %rax
	movq	16(%r14), %rcx
	movl	%ebx, %edx
	jmp	.LBB79_3
.LBB79_4:
	movq	%rsi, %rax
	movl	$4, %esi
	movq	%rdi, %r14
	movq	%rax, %rbx
	movq	%rax, %rdi
	callq	"std_alloc::vec::Vec::grow_amortized::<#1283936d4ef01d73>"
	movq	%r14, %rdi
	movb	$1, %cl
	testb	%al, %al
	je	.LBB79_7
	movq	%rbx, %rsi
	movq	(%rbx), %r8
	movq	8(%rbx), %rax
	movq	16(%rbx), %rcx
	jmp	.LBB79_6
.Lfunc_end79:
	.size	"amqp_json::reading::put::put_head", .Lfunc_end79-"amqp_json::reading::put::put_head"

	.section	.rodata.cst16,"aM",@progbits,16
	.p2align	4, 0x0
.LCPI80_0:
	.quad	1
	.quad	2
.LCPI80_1:
	.zero	16,34
.LCPI80_2:
	.zero	16,92
.LCPI80_3:
	.zero	16,31
.LCPI80_4:
	.zero	16,198
.LCPI80_5:
	.zero	16,245
.LCPI80_6:
	.byte	0
	.byte	0
	.byte	0
	.byte	0
	.byte	0
	.byte	0
	.byte	0
	.byte	0
	.byte	1
	.byte	0
	.byte	0
	.byte	0
	.byte	0
	.byte	0
	.byte	0
	.byte	0
	.section	".text.amqp_json::reading::walk::next_key","ax",@progbits
	.p2align	4
	.type	"amqp_json::reading::walk::next_key",@function
"amqp_json::reading::walk::next_key":
	pushq	%rbp
	pushq	%r15
	pushq	%r14
	pushq	%r13
	pushq	%r12
	pushq	%rbx
	subq	$72, %rsp
	movzbl	104(%rsi), %ecx
	movq	8(%rsi), %r12
	movq	80(%rsi), %rbp
	movq	%r12, %rax
	subq	%rbp, %rax
	jbe	.LBB80_8
	movq	(%rsi), %r14
	movzbl	(%r14,%rbp), %ebx
	movl	%ebx, %edx
	andb	$-33, %dl
	cmpb	$93, %dl
	jne	.LBB80_6
	leal	-1(%rcx), %eax
	cmpb	$1, %al
	ja	.LBB80_21
	pxor	%xmm0, %xmm0
	movdqa	%xmm0, 16(%rsp)
	movdqa	%xmm0, 32(%rsp)
	movq	40(%rsi), %rax
	leaq	1(%rax), %rcx
	movq	%rcx, 40(%rsi)
	leaq	48(%rsi), %r14
	cmpq	56(%rsi), %rcx
	jne	.LBB80_11
	movq	%rdi, %r15
	movq	16(%rsi), %rax
	movq	24(%rsi), %rdx
	movq	32(%rsi), %rcx
	movq	64(%rsi), %r8
	movzbl	74(%rsi), %edi
	movb	%dil, 14(%rsp)
	movzwl	72(%rsi), %edi
	movw	%di, 12(%rsp)
	leaq	16(%rsp), %rdi
	leaq	12(%rsp), %r9
	movq	%rsi, %r12
	movq	%rax, %rsi
	callq	"json::index::refill"
	movq	%r12, %rsi
	movdqa	16(%rsp), %xmm0
	movdqa	32(%rsp), %xmm1
	movdqu	%xmm1, 16(%r14)
	movdqu	%xmm0, (%r14)
	movq	$0, 40(%r12)
	movq	32(%r12), %rcx
	movl	$1, %eax
	cmpq	$0, 24(%rsp)
	je	.LBB80_24
	movl	(%rcx), %edx
	addq	16(%rsp), %rdx
	jmp	.LBB80_25
.LBB80_6:
	cmpl	$32, %ebx
	ja	.LBB80_12
	movl	%ebx, %edx
	movabsq	$4294977024, %r8
	btq	%rdx, %r8
	jae	.LBB80_12
.LBB80_8:
	xorl	%eax, %eax
	movl	%ecx, %edx
	subb	$3, %dl
	setne	%al
	leal	-4(%rcx), %r8d
	xorl	%ebx, %ebx
	cmpb	$-2, %dl
	leal	(%rax,%rax,8), %r13d
	cmovael	%ebx, %r13d
	movzbl	%cl, %eax
	movl	$3, %ecx
	cmovael	%eax, %ecx
	movb	%cl, 104(%rsi)
	cmpb	$-3, %r8b
	jb	.LBB80_35
	movaps	.LCPI80_0(%rip), %xmm0
	jmp	.LBB80_39
.LBB80_11:
	movq	32(%rsi), %rcx
	movl	4(%rcx,%rax,4), %edx
	addq	48(%rsi), %rdx
	addq	$2, %rax
	movq	%rdx, 80(%rsi)
	movb	$2, %r8b
	cmpq	8(%rsi), %rdx
	jb	.LBB80_26
	jmp	.LBB80_34
.LBB80_12:
	cmpb	$2, %cl
	jae	.LBB80_21
	leaq	(%r14,%rbp), %r10
	movb	$3, %r9b
	movb	$9, %r13b
	leal	-34(%rbx), %ecx
	cmpl	$89, %ecx
	ja	.LBB80_56
	leaq	.LJTI80_0(%rip), %rdx
	movslq	(%rdx,%rcx,4), %rcx
	addq	%rdx, %rcx
	jmpq	*%rcx
.LBB80_15:
	leaq	1(%rbp), %r8
	movq	%r12, %rax
	subq	%r8, %rax
	movq	%r8, %rdx
	cmpq	$32, %rax
	movq	%rdi, 48(%rsp)
	jb	.LBB80_20
	notq	%rbp
	leaq	(%r14,%r8), %rax
.LBB80_17:
	movdqu	(%rax), %xmm0
	movdqu	16(%rax), %xmm1
	movdqa	.LCPI80_1(%rip), %xmm2
	movdqa	%xmm1, %xmm3
	movdqa	.LCPI80_3(%rip), %xmm4
	movdqa	%xmm0, %xmm5
	pminub	%xmm4, %xmm5
	pminub	%xmm1, %xmm4
	pcmpeqb	%xmm1, %xmm4
	pcmpeqb	%xmm2, %xmm1
	movdqa	.LCPI80_2(%rip), %xmm6
	pcmpeqb	%xmm6, %xmm3
	por	%xmm1, %xmm3
	pcmpeqb	%xmm0, %xmm2
	pcmpeqb	%xmm0, %xmm6
	por	%xmm2, %xmm6
	pcmpeqb	%xmm0, %xmm5
	por	%xmm6, %xmm5
	por	%xmm3, %xmm4
	pmovmskb	%xmm5, %edx
	pmovmskb	%xmm4, %ecx
	shll	$16, %ecx
	orl	%edx, %ecx
	jne	.LBB80_81
	addq	$32, %rax
	leaq	(%r12,%rbp), %rcx
	addq	$-32, %rcx
	addq	$-32, %rbp
	cmpq	$31, %rcx
	ja	.LBB80_17
	negq	%rbp
	movq	%rbp, %rdx
.LBB80_20:
	movq	%r14, %rdi
	movq	%rsi, %rbx
	movq	%r12, %rsi
	movq	%r8, %r15
	callq	"json::run::plain_end_16"
	movq	%r15, %r8
	movq	%rbx, %rsi
	movq	%rax, %rbx
	jmp	.LBB80_82
.LBB80_21:
	xorl	%r15d, %r15d
	movb	$3, 104(%rsi)
	movb	$9, %r13b
	cmpb	$3, %cl
	jne	.LBB80_23
	movaps	.LCPI80_0(%rip), %xmm0
	xorl	%ebx, %ebx
	jmp	.LBB80_40
.LBB80_23:
	xorl	%ebx, %ebx
	jmp	.LBB80_36
.LBB80_24:
	movq	24(%rsi), %rdx
.LBB80_25:
	movq	%r15, %rdi
	movq	%rdx, 80(%rsi)
	movb	$2, %r8b
	cmpq	8(%rsi), %rdx
	jae	.LBB80_34
.LBB80_26:
	movq	(%rsi), %r9
	cmpb	$44, (%r9,%rdx)
	jne	.LBB80_34
	pxor	%xmm0, %xmm0
	movdqa	%xmm0, 16(%rsp)
	movdqa	%xmm0, 32(%rsp)
	movq	%rax, 40(%rsi)
	cmpq	56(%rsi), %rax
	jne	.LBB80_30
	movq	%rdi, %r15
	movq	16(%rsi), %rax
	movq	24(%rsi), %rdx
	movq	64(%rsi), %r8
	movzbl	74(%rsi), %edi
	movb	%dil, 14(%rsp)
	movzwl	72(%rsi), %edi
	movw	%di, 12(%rsp)
	leaq	16(%rsp), %rdi
	leaq	12(%rsp), %r9
	movq	%rsi, %r12
	movq	%rax, %rsi
	callq	"json::index::refill"
	movq	%r12, %rsi
	movdqa	16(%rsp), %xmm0
	movdqa	32(%rsp), %xmm1
	movdqu	%xmm1, 16(%r14)
	movdqu	%xmm0, (%r14)
	movq	$0, 40(%r12)
	cmpq	$0, 24(%rsp)
	je	.LBB80_31
	movq	32(%rsi), %rax
	movl	(%rax), %eax
	addq	16(%rsp), %rax
	jmp	.LBB80_32
.LBB80_30:
	movl	(%rcx,%rax,4), %eax
	addq	(%r14), %rax
	jmp	.LBB80_33
.LBB80_31:
	movq	24(%rsi), %rax
.LBB80_32:
	movq	%r15, %rdi
.LBB80_33:
	movq	%rax, 80(%rsi)
	xorl	%r8d, %r8d
.LBB80_34:
	cmpl	$125, %ebx
	setne	%r13b
	addb	%r13b, %r13b
	incb	%r13b
	xorl	%ebx, %ebx
	movb	%r8b, 104(%rsi)
.LBB80_35:
	xorl	%r15d, %r15d
.LBB80_36:
	movl	%ebx, %eax
	shrq	$8, %rbx
	movzbl	%r13b, %ecx
	movaps	.LCPI80_6(%rip), %xmm0
	movl	$1005, %edx
	btl	%ecx, %edx
	jae	.LBB80_42
	movb	$3, 104(%rsi)
	movaps	.LCPI80_0(%rip), %xmm0
.LBB80_38:
	xorl	%ebx, %ebx
.LBB80_39:
	xorl	%r15d, %r15d
.LBB80_40:
	xorl	%eax, %eax
.LBB80_41:
	movups	%xmm0, (%rdi)
	movq	%r15, 16(%rdi)
	movb	%al, 24(%rdi)
	movl	%ebx, 25(%rdi)
	movq	%rbx, %rax
	shrq	$48, %rax
	movb	%al, 31(%rdi)
	shrq	$32, %rbx
	movw	%bx, 29(%rdi)
	addq	$72, %rsp
	popq	%rbx
	popq	%r12
	popq	%r13
	popq	%r14
	popq	%r15
	popq	%rbp
	retq
.LBB80_42:
	cmpl	$1, %ecx
	jne	.LBB80_41
	xorps	%xmm0, %xmm0
	jmp	.LBB80_38
.LBB80_44:
	movb	$32, %dl
	cmpq	$5, %rax
	jae	.LBB80_64
	xorl	%ecx, %ecx
	jmp	.LBB80_66
.LBB80_46:
	movb	$32, %cl
	cmpq	$4, %rax
	jae	.LBB80_68
	xorl	%edx, %edx
	jmp	.LBB80_70
.LBB80_48:
	movb	$32, %cl
	cmpq	$4, %rax
	jae	.LBB80_72
	xorl	%edx, %edx
	jmp	.LBB80_74
.LBB80_50:
	pxor	%xmm0, %xmm0
	movdqa	%xmm0, 16(%rsp)
	movdqa	%xmm0, 32(%rsp)
	movq	40(%rsi), %rax
	leaq	1(%rax), %rcx
	movq	%rcx, 40(%rsi)
	cmpq	56(%rsi), %rcx
	jne	.LBB80_79
	movq	%rdi, %rbx
	leaq	48(%rsi), %r15
	movq	16(%rsi), %rax
	movq	24(%rsi), %rdx
	movq	32(%rsi), %rcx
	movq	64(%rsi), %r8
	movzbl	74(%rsi), %edi
	movb	%dil, 14(%rsp)
	movzwl	72(%rsi), %edi
	movw	%di, 12(%rsp)
	leaq	16(%rsp), %rdi
	leaq	12(%rsp), %r9
	movq	%rsi, %r14
	movq	%rax, %rsi
	callq	"json::index::refill"
	movq	%r14, %rsi
	movdqa	16(%rsp), %xmm0
	movdqa	32(%rsp), %xmm1
	movdqu	%xmm1, 16(%r15)
	movdqu	%xmm0, (%r15)
	movq	$0, 40(%r14)
	cmpq	$0, 24(%rsp)
	je	.LBB80_104
	movq	32(%rsi), %rax
	movl	(%rax), %eax
	addq	16(%rsp), %rax
	jmp	.LBB80_105
.LBB80_53:
	pxor	%xmm0, %xmm0
	movdqa	%xmm0, 16(%rsp)
	movdqa	%xmm0, 32(%rsp)
	movq	40(%rsi), %rax
	leaq	1(%rax), %rcx
	movq	%rcx, 40(%rsi)
	cmpq	56(%rsi), %rcx
	jne	.LBB80_80
	movq	%rdi, %rbx
	leaq	48(%rsi), %r15
	movq	16(%rsi), %rax
	movq	24(%rsi), %rdx
	movq	32(%rsi), %rcx
	movq	64(%rsi), %r8
	movzbl	74(%rsi), %edi
	movb	%dil, 14(%rsp)
	movzwl	72(%rsi), %edi
	movw	%di, 12(%rsp)
	leaq	16(%rsp), %rdi
	leaq	12(%rsp), %r9
	movq	%rsi, %r14
	movq	%rax, %rsi
	callq	"json::index::refill"
	movq	%r14, %rsi
	movdqa	16(%rsp), %xmm0
	movdqa	32(%rsp), %xmm1
	movdqu	%xmm1, 16(%r15)
	movdqu	%xmm0, (%r15)
	movq	$0, 40(%r14)
	cmpq	$0, 24(%rsp)
	je	.LBB80_108
	movq	32(%rsi), %rax
	movl	(%rax), %eax
	addq	16(%rsp), %rax
	jmp	.LBB80_109
.LBB80_56:
	xorl	%ecx, %ecx
	cmpl	$45, %ebx
	sete	%cl
	leaq	(%rcx,%rbp), %rbx
	movq	%r12, %r8
	subq	%rbx, %r8
	jbe	.LBB80_59
	cmpb	$48, (%r14,%rbx)
	jne	.LBB80_59
	incq	%rbx
	movq	%rbx, %rax
	jmp	.LBB80_95
.LBB80_59:
	movq	%rbx, %rdx
	cmpq	$16, %r8
	jb	.LBB80_63
	subq	%rcx, %rax
	movq	%rbx, %rdx
.LBB80_61:
	movdqu	(%r14,%rdx), %xmm0
	paddb	.LCPI80_4(%rip), %xmm0
	movdqa	.LCPI80_5(%rip), %xmm1
	pminub	%xmm0, %xmm1
	pcmpeqb	%xmm0, %xmm1
	pmovmskb	%xmm1, %ecx
	testl	%ecx, %ecx
	jne	.LBB80_92
	addq	$16, %rdx
	addq	$-16, %rax
	cmpq	$15, %rax
	ja	.LBB80_61
.LBB80_63:
	movq	%rdi, 48(%rsp)
	movq	%r14, %rdi
	movq	%rsi, %r15
	movq	%r12, %rsi
	callq	"json::run::digits_end_slowly"
	leaq	(%r14,%rbp), %r10
	movb	$3, %r9b
	movq	%r15, %rsi
	movq	48(%rsp), %rdi
	jmp	.LBB80_93
.LBB80_64:
	cmpl	$1702063201, 1(%r10)
	sete	%cl
	cmpq	$5, %rax
	je	.LBB80_66
	movzbl	5(%r10), %edx
.LBB80_66:
	movl	%edx, %eax
	andb	$-33, %al
	addb	$-91, %al
	testb	$-3, %al
	sete	%r9b
	cmpb	$58, %dl
	sete	%r10b
	cmpb	$44, %dl
	sete	%al
	cmpb	$32, %dl
	sete	%r8b
	leal	-9(%rdx), %r11d
	cmpb	$2, %r11b
	setb	%r11b
	cmpb	$13, %dl
	sete	%dl
	xorl	%ebx, %ebx
	testb	%cl, %cl
	je	.LBB80_78
	orb	%r10b, %al
	orb	%r9b, %al
	orb	%dl, %r8b
	jmp	.LBB80_76
.LBB80_68:
	movzbl	3(%r10), %edx
	xorb	$108, %dl
	movzbl	1(%r10), %r8d
	movzbl	2(%r10), %r9d
	xorb	$108, %r9b
	orb	%dl, %r9b
	xorb	$117, %r8b
	orb	%r9b, %r8b
	sete	%dl
	cmpq	$4, %rax
	je	.LBB80_70
	movzbl	4(%r10), %ecx
.LBB80_70:
	movl	%ecx, %eax
	andb	$-33, %al
	addb	$-91, %al
	testb	$-3, %al
	sete	%r9b
	cmpb	$58, %cl
	sete	%r10b
	cmpb	$44, %cl
	sete	%al
	cmpb	$32, %cl
	sete	%r8b
	leal	-9(%rcx), %r11d
	cmpb	$2, %r11b
	setb	%r11b
	cmpb	$13, %cl
	sete	%cl
	xorl	%ebx, %ebx
	testb	%dl, %dl
	je	.LBB80_78
	orb	%r10b, %al
	orb	%r9b, %al
	orb	%cl, %r8b
	orb	%r11b, %r8b
	orb	%al, %r8b
	movb	$8, %bpl
	jmp	.LBB80_77
.LBB80_72:
	movzbl	3(%r10), %edx
	xorb	$101, %dl
	movzbl	1(%r10), %r8d
	movzbl	2(%r10), %r9d
	xorb	$117, %r9b
	orb	%dl, %r9b
	xorb	$114, %r8b
	orb	%r9b, %r8b
	sete	%dl
	cmpq	$4, %rax
	je	.LBB80_74
	movzbl	4(%r10), %ecx
.LBB80_74:
	movl	%ecx, %eax
	andb	$-33, %al
	addb	$-91, %al
	testb	$-3, %al
	sete	%r9b
	cmpb	$58, %cl
	sete	%r10b
	cmpb	$44, %cl
	sete	%al
	cmpb	$32, %cl
	sete	%r8b
	leal	-9(%rcx), %r11d
	cmpb	$2, %r11b
	setb	%r11b
	cmpb	$13, %cl
	sete	%cl
	xorl	%ebx, %ebx
	testb	%dl, %dl
	je	.LBB80_78
	orb	%r10b, %al
	orb	%r9b, %al
	orb	%cl, %r8b
.LBB80_76:
	orb	%r11b, %r8b
	orb	%al, %r8b
	movb	$7, %bpl
.LBB80_77:
	movl	$0, %r10d
	movl	$0, %r15d
	movb	$3, %r9b
	jne	.LBB80_153
	jmp	.LBB80_169
.LBB80_78:
	xorl	%r15d, %r15d
	movb	$3, %r9b
	movb	%r9b, 104(%rsi)
	jmp	.LBB80_36
.LBB80_79:
	movq	32(%rsi), %rcx
	movl	4(%rcx,%rax,4), %eax
	addq	48(%rsi), %rax
	jmp	.LBB80_106
.LBB80_80:
	movq	32(%rsi), %rcx
	movl	4(%rcx,%rax,4), %eax
	addq	48(%rsi), %rax
	jmp	.LBB80_110
.LBB80_81:
	rep		bsfl	%ecx, %ebx
	subq	%rbp, %rbx
.LBB80_82:
	cmpq	%r12, %rbx
	jae	.LBB80_87
	cmpb	$34, (%r14,%rbx)
	jne	.LBB80_87
	pxor	%xmm0, %xmm0
	movdqa	%xmm0, 16(%rsp)
	movdqa	%xmm0, 32(%rsp)
	movq	40(%rsi), %rdx
	leaq	1(%rdx), %rax
	movq	%rax, 40(%rsi)
	cmpq	56(%rsi), %rax
	jne	.LBB80_111
	movq	%r8, %r13
	leaq	48(%rsi), %r12
	movq	16(%rsi), %rax
	movq	24(%rsi), %rdx
	movq	32(%rsi), %rcx
	movq	64(%rsi), %r8
	movzbl	74(%rsi), %edi
	movb	%dil, 14(%rsp)
	movzwl	72(%rsi), %edi
	movw	%di, 12(%rsp)
	leaq	16(%rsp), %rdi
	leaq	12(%rsp), %r9
	movq	%rsi, %r15
	movq	%rax, %rsi
	callq	"json::index::refill"
	movq	%r15, %rsi
	movdqa	16(%rsp), %xmm0
	movdqa	32(%rsp), %xmm1
	movdqu	%xmm1, 16(%r12)
	movdqu	%xmm0, (%r12)
	movq	$0, 40(%r15)
	movq	32(%r15), %rcx
	cmpq	$0, 24(%rsp)
	je	.LBB80_115
	movl	(%rcx), %edx
	addq	16(%rsp), %rdx
	jmp	.LBB80_116
.LBB80_87:
	movq	88(%rsi), %r15
	movq	96(%rsi), %rbp
	leaq	71(%rsp), %rax
	movq	%rax, 88(%rsi)
	movq	%rsi, 56(%rsp)
	movq	$0, 96(%rsi)
	movq	%r14, %rdi
	movq	%r12, %rsi
	movq	%r8, %rdx
	movq	%r15, %rcx
	movq	%rbp, %r8
	callq	"json::unescape::unescape"
	cmpb	$1, %al
	jne	.LBB80_91
	movq	%rdx, %rbx
	leaq	(%r15,%rdx), %rax
	subq	%rdx, %rbp
	movq	56(%rsp), %rsi
	movq	%rax, 88(%rsi)
	movq	%rbp, 96(%rsi)
	pxor	%xmm0, %xmm0
	movdqa	%xmm0, 16(%rsp)
	movdqa	%xmm0, 32(%rsp)
	movq	40(%rsi), %rdx
	leaq	1(%rdx), %rax
	movq	%rax, 40(%rsi)
	cmpq	56(%rsi), %rax
	jne	.LBB80_103
	leaq	48(%rsi), %r14
	movq	16(%rsi), %rax
	movq	24(%rsi), %rdx
	movq	32(%rsi), %rcx
	movq	64(%rsi), %r8
	movzbl	74(%rsi), %edi
	movb	%dil, 14(%rsp)
	movzwl	72(%rsi), %esi
	movw	%si, 12(%rsp)
	leaq	16(%rsp), %rdi
	leaq	12(%rsp), %r9
	movq	%rax, %rsi
	callq	"json::index::refill"
	movq	56(%rsp), %rsi
	movdqa	16(%rsp), %xmm0
	movdqa	32(%rsp), %xmm1
	movdqu	%xmm1, 16(%r14)
	movdqu	%xmm0, (%r14)
	movq	$0, 40(%rsi)
	movq	32(%rsi), %rcx
	cmpq	$0, 24(%rsp)
	je	.LBB80_112
	movl	(%rcx), %edx
	addq	16(%rsp), %rdx
	jmp	.LBB80_113
.LBB80_91:
	movq	56(%rsp), %rsi
	movq	%r15, 88(%rsi)
	movq	%rbp, 96(%rsi)
	xorl	%r15d, %r15d
	xorl	%ebx, %ebx
	movq	48(%rsp), %rdi
	movb	$3, %r9b
	movb	%r9b, 104(%rsi)
	jmp	.LBB80_36
.LBB80_92:
	rep		bsfl	%ecx, %eax
	addq	%rdx, %rax
.LBB80_93:
	xorl	%r15d, %r15d
	cmpq	%rbx, %rax
	cmoveq	%r15, %rax
	jne	.LBB80_95
.LBB80_94:
	xorl	%ebx, %ebx
	movb	%r9b, 104(%rsi)
	jmp	.LBB80_36
.LBB80_95:
	cmpq	%r12, %rax
	jae	.LBB80_132
	cmpb	$46, (%r14,%rax)
	jne	.LBB80_132
	movq	%rsi, 56(%rsp)
	movq	%rdi, 48(%rsp)
	leaq	1(%rax), %rbx
	movq	%r12, %rcx
	subq	%rbx, %rcx
	movq	%rbx, %rdx
	cmpq	$16, %rcx
	jb	.LBB80_102
	notq	%rax
	leaq	(%r14,%rbx), %rcx
.LBB80_99:
	movdqu	(%rcx), %xmm0
	paddb	.LCPI80_4(%rip), %xmm0
	movdqa	.LCPI80_5(%rip), %xmm1
	pminub	%xmm0, %xmm1
	pcmpeqb	%xmm0, %xmm1
	pmovmskb	%xmm1, %edx
	testl	%edx, %edx
	jne	.LBB80_129
	addq	$16, %rcx
	leaq	(%r12,%rax), %rdx
	addq	$-16, %rdx
	addq	$-16, %rax
	cmpq	$15, %rdx
	ja	.LBB80_99
	negq	%rax
	movq	%rax, %rdx
.LBB80_102:
	movq	%r14, %rdi
	movq	%r12, %rsi
	callq	"json::run::digits_end_slowly"
	jmp	.LBB80_130
.LBB80_103:
	movq	32(%rsi), %rcx
	movl	4(%rcx,%rdx,4), %edx
	addq	48(%rsi), %rdx
	jmp	.LBB80_114
.LBB80_104:
	movq	24(%rsi), %rax
.LBB80_105:
	movq	%rbx, %rdi
.LBB80_106:
	movq	%rax, 80(%rsi)
	movb	$1, %r9b
	movb	$2, %r13b
.LBB80_107:
	xorl	%r15d, %r15d
	xorl	%ebx, %ebx
	movb	%r9b, 104(%rsi)
	jmp	.LBB80_36
.LBB80_108:
	movq	24(%rsi), %rax
.LBB80_109:
	movq	%rbx, %rdi
.LBB80_110:
	movq	%rax, 80(%rsi)
	movb	$1, %r9b
	xorl	%r15d, %r15d
	xorl	%ebx, %ebx
	xorl	%r13d, %r13d
	movb	%r9b, 104(%rsi)
	jmp	.LBB80_36
.LBB80_111:
	movq	32(%rsi), %rcx
	movl	4(%rcx,%rdx,4), %edx
	addq	48(%rsi), %rdx
	movq	48(%rsp), %rdi
	jmp	.LBB80_117
.LBB80_112:
	movq	24(%rsi), %rdx
.LBB80_113:
	xorl	%eax, %eax
.LBB80_114:
	movq	48(%rsp), %rdi
	movq	%rdx, 80(%rsi)
	jmp	.LBB80_118
.LBB80_115:
	movq	24(%rsi), %rdx
.LBB80_116:
	xorl	%eax, %eax
	movq	48(%rsp), %rdi
	movq	%r13, %r8
.LBB80_117:
	movq	%rdx, 80(%rsi)
	addq	%r8, %r14
	subq	%r8, %rbx
	movq	%r14, %r15
.LBB80_118:
	movb	$2, %r9b
	movb	$5, %r13b
	cmpq	8(%rsi), %rdx
	jae	.LBB80_169
	movq	(%rsi), %r8
	movzbl	(%r8,%rdx), %edx
	cmpl	$44, %edx
	je	.LBB80_124
	cmpl	$58, %edx
	jne	.LBB80_169
	pxor	%xmm0, %xmm0
	movdqa	%xmm0, 16(%rsp)
	movdqa	%xmm0, 32(%rsp)
	leaq	1(%rax), %rdx
	movq	%rdx, 40(%rsi)
	leaq	48(%rsi), %r12
	cmpq	56(%rsi), %rdx
	jne	.LBB80_127
	movq	%rdi, %r14
	movq	16(%rsi), %rax
	movq	24(%rsi), %rdx
	movq	64(%rsi), %r8
	movzbl	74(%rsi), %edi
	movb	%dil, 14(%rsp)
	movzwl	72(%rsi), %edi
	movw	%di, 12(%rsp)
	leaq	16(%rsp), %rdi
	leaq	12(%rsp), %r9
	movq	%rsi, %r13
	movq	%rax, %rsi
	callq	"json::index::refill"
	movq	%r13, %rsi
	movdqa	16(%rsp), %xmm0
	movdqa	32(%rsp), %xmm1
	movdqu	%xmm1, 16(%r12)
	movdqu	%xmm0, (%r12)
	movq	$0, 40(%r13)
	cmpq	$0, 24(%rsp)
	je	.LBB80_170
	movq	32(%rsi), %rax
	movl	(%rax), %eax
	addq	16(%rsp), %rax
	jmp	.LBB80_171
.LBB80_124:
	pxor	%xmm0, %xmm0
	movdqa	%xmm0, 16(%rsp)
	movdqa	%xmm0, 32(%rsp)
	leaq	1(%rax), %rdx
	movq	%rdx, 40(%rsi)
	leaq	48(%rsi), %r12
	cmpq	56(%rsi), %rdx
	jne	.LBB80_128
	movq	%rdi, %r14
	movq	16(%rsi), %rax
	movq	24(%rsi), %rdx
	movq	64(%rsi), %r8
	movzbl	74(%rsi), %edi
	movb	%dil, 14(%rsp)
	movzwl	72(%rsi), %edi
	movw	%di, 12(%rsp)
	leaq	16(%rsp), %rdi
	leaq	12(%rsp), %r9
	movq	%rsi, %rbp
	movq	%rax, %rsi
	callq	"json::index::refill"
	movq	%rbp, %rsi
	movdqa	16(%rsp), %xmm0
	movdqa	32(%rsp), %xmm1
	movdqu	%xmm1, 16(%r12)
	movdqu	%xmm0, (%r12)
	movq	$0, 40(%rbp)
	cmpq	$0, 24(%rsp)
	je	.LBB80_173
	movq	32(%rsi), %rax
	movl	(%rax), %eax
	addq	16(%rsp), %rax
	jmp	.LBB80_174
.LBB80_127:
	movl	4(%rcx,%rax,4), %eax
	addq	(%r12), %rax
	jmp	.LBB80_172
.LBB80_128:
	movl	4(%rcx,%rax,4), %eax
	addq	(%r12), %rax
	jmp	.LBB80_175
.LBB80_129:
	rep		bsfl	%edx, %ecx
	subq	%rax, %rcx
	movq	%rcx, %rax
.LBB80_130:
	xorl	%r15d, %r15d
	cmpq	%rbx, %rax
	cmoveq	%r15, %rax
	movq	48(%rsp), %rdi
	movq	56(%rsp), %rsi
	movb	$3, %r9b
	leaq	(%r14,%rbp), %r10
	je	.LBB80_94
.LBB80_132:
	cmpq	%r12, %rax
	jae	.LBB80_147
	movzbl	(%r14,%rax), %ecx
	andb	$-33, %cl
	cmpb	$69, %cl
	jne	.LBB80_147
	leaq	1(%rax), %rbx
	cmpq	%r12, %rbx
	jae	.LBB80_138
	movzbl	(%r14,%rbx), %ecx
	cmpl	$45, %ecx
	je	.LBB80_137
	cmpl	$43, %ecx
	jne	.LBB80_138
.LBB80_137:
	addq	$2, %rax
	movq	%rax, %rbx
.LBB80_138:
	movq	%rsi, 56(%rsp)
	movq	%rdi, 48(%rsp)
	movq	%r12, %rax
	subq	%rbx, %rax
	movq	%rbx, %rdx
	cmpq	$16, %rax
	jb	.LBB80_143
	movq	%rbx, %rdx
	negq	%rdx
	leaq	(%r14,%rbx), %rax
.LBB80_140:
	movdqu	(%rax), %xmm0
	paddb	.LCPI80_4(%rip), %xmm0
	movdqa	.LCPI80_5(%rip), %xmm1
	pminub	%xmm0, %xmm1
	pcmpeqb	%xmm0, %xmm1
	pmovmskb	%xmm1, %ecx
	testl	%ecx, %ecx
	jne	.LBB80_144
	addq	$16, %rax
	leaq	(%r12,%rdx), %rcx
	addq	$-16, %rcx
	addq	$-16, %rdx
	cmpq	$15, %rcx
	ja	.LBB80_140
	negq	%rdx
.LBB80_143:
	movq	%r14, %rdi
	movq	%r12, %rsi
	callq	"json::run::digits_end_slowly"
	jmp	.LBB80_145
.LBB80_144:
	rep		bsfl	%ecx, %eax
	subq	%rdx, %rax
.LBB80_145:
	xorl	%r15d, %r15d
	cmpq	%rbx, %rax
	movq	48(%rsp), %rdi
	movq	56(%rsp), %rsi
	movb	$3, %r9b
	leaq	(%r14,%rbp), %r10
	je	.LBB80_94
.LBB80_147:
	cmpq	%r12, %rax
	jae	.LBB80_152
	movzbl	(%r14,%rax), %ecx
	cmpq	$58, %rcx
	ja	.LBB80_150
	movabsq	$288247972632733184, %rdx
	btq	%rcx, %rdx
	jb	.LBB80_152
.LBB80_150:
	xorl	%r15d, %r15d
	addl	$-91, %ecx
	cmpl	$34, %ecx
	ja	.LBB80_94
	movabsq	$21474836485, %rdx
	btq	%rcx, %rdx
	movl	$0, %ebx
	jae	.LBB80_169
.LBB80_152:
	subq	%rbp, %rax
	movb	$6, %bpl
	movq	%rax, %rbx
.LBB80_153:
	pxor	%xmm0, %xmm0
	movdqa	%xmm0, 16(%rsp)
	movdqa	%xmm0, 32(%rsp)
	movq	40(%rsi), %rax
	leaq	1(%rax), %rcx
	movq	%rcx, 40(%rsi)
	leaq	48(%rsi), %r14
	cmpq	56(%rsi), %rcx
	jne	.LBB80_156
	movq	%r10, %r13
	movq	%rdi, %r15
	movq	16(%rsi), %rax
	movq	24(%rsi), %rdx
	movq	32(%rsi), %rcx
	movq	64(%rsi), %r8
	movzbl	74(%rsi), %edi
	movb	%dil, 14(%rsp)
	movzwl	72(%rsi), %edi
	movw	%di, 12(%rsp)
	leaq	16(%rsp), %rdi
	leaq	12(%rsp), %r9
	movq	%rsi, %r12
	movq	%rax, %rsi
	callq	"json::index::refill"
	movq	%r12, %rsi
	movdqa	16(%rsp), %xmm0
	movdqa	32(%rsp), %xmm1
	movdqu	%xmm1, 16(%r14)
	movdqu	%xmm0, (%r14)
	movq	$0, 40(%r12)
	movq	32(%r12), %rcx
	movl	$1, %eax
	cmpq	$0, 24(%rsp)
	je	.LBB80_157
	movl	(%rcx), %edx
	addq	16(%rsp), %rdx
	jmp	.LBB80_158
.LBB80_156:
	movq	32(%rsi), %rcx
	movl	4(%rcx,%rax,4), %edx
	addq	48(%rsi), %rdx
	addq	$2, %rax
	jmp	.LBB80_159
.LBB80_157:
	movq	24(%rsi), %rdx
.LBB80_158:
	movq	%r15, %rdi
	movq	%r13, %r10
.LBB80_159:
	movq	%rdx, 80(%rsi)
	movb	$2, %r9b
	cmpq	8(%rsi), %rdx
	jae	.LBB80_168
	movq	(%rsi), %r8
	cmpb	$44, (%r8,%rdx)
	jne	.LBB80_168
	pxor	%xmm0, %xmm0
	movdqa	%xmm0, 16(%rsp)
	movdqa	%xmm0, 32(%rsp)
	movq	%rax, 40(%rsi)
	cmpq	56(%rsi), %rax
	jne	.LBB80_164
	movq	%r10, %r13
	movq	%rdi, %r15
	movq	16(%rsi), %rax
	movq	24(%rsi), %rdx
	movq	64(%rsi), %r8
	movzbl	74(%rsi), %edi
	movb	%dil, 14(%rsp)
	movzwl	72(%rsi), %edi
	movw	%di, 12(%rsp)
	leaq	16(%rsp), %rdi
	leaq	12(%rsp), %r9
	movq	%rsi, %r12
	movq	%rax, %rsi
	callq	"json::index::refill"
	movq	%r12, %rsi
	movdqa	16(%rsp), %xmm0
	movdqa	32(%rsp), %xmm1
	movdqu	%xmm1, 16(%r14)
	movdqu	%xmm0, (%r14)
	movq	$0, 40(%r12)
	cmpq	$0, 24(%rsp)
	je	.LBB80_165
	movq	32(%rsi), %rax
	movl	(%rax), %eax
	addq	16(%rsp), %rax
	jmp	.LBB80_166
.LBB80_164:
	movl	(%rcx,%rax,4), %eax
	addq	(%r14), %rax
	jmp	.LBB80_167
.LBB80_165:
	movq	24(%rsi), %rax
.LBB80_166:
	movq	%r15, %rdi
	movq	%r13, %r10
.LBB80_167:
	movq	%rax, 80(%rsi)
	xorl	%r9d, %r9d
.LBB80_168:
	movq	%r10, %r15
	movl	%ebp, %r13d
.LBB80_169:
	movb	%r9b, 104(%rsi)
	jmp	.LBB80_36
.LBB80_170:
	movq	24(%rsi), %rax
.LBB80_171:
	movq	%r14, %rdi
.LBB80_172:
	movq	%rax, 80(%rsi)
	movb	$1, %r9b
	movb	$4, %r13b
	movb	%r9b, 104(%rsi)
	jmp	.LBB80_36
.LBB80_173:
	movq	24(%rsi), %rax
.LBB80_174:
	movq	%r14, %rdi
.LBB80_175:
	movq	%rax, 80(%rsi)
	xorl	%r9d, %r9d
	movb	%r9b, 104(%rsi)
	jmp	.LBB80_36
.Lfunc_end80:
	.size	"amqp_json::reading::walk::next_key", .Lfunc_end80-"amqp_json::reading::walk::next_key"
	.section	".rodata.amqp_json::reading::walk::next_key","a",@progbits
	.p2align	2, 0x0
.LJTI80_0:
	.long	.LBB80_15-.LJTI80_0
	.long	.LBB80_56-.LJTI80_0
	.long	.LBB80_56-.LJTI80_0
	.long	.LBB80_56-.LJTI80_0
	.long	.LBB80_56-.LJTI80_0
	.long	.LBB80_56-.LJTI80_0
	.long	.LBB80_56-.LJTI80_0
	.long	.LBB80_56-.LJTI80_0
	.long	.LBB80_56-.LJTI80_0
	.long	.LBB80_56-.LJTI80_0
	.long	.LBB80_107-.LJTI80_0
	.long	.LBB80_56-.LJTI80_0
	.long	.LBB80_56-.LJTI80_0
	.long	.LBB80_56-.LJTI80_0
	.long	.LBB80_56-.LJTI80_0
	.long	.LBB80_56-.LJTI80_0
	.long	.LBB80_56-.LJTI80_0
	.long	.LBB80_56-.LJTI80_0
	.long	.LBB80_56-.LJTI80_0
	.long	.LBB80_56-.LJTI80_0
	.long	.LBB80_56-.LJTI80_0
	.long	.LBB80_56-.LJTI80_0
	.long	.LBB80_56-.LJTI80_0
	.long	.LBB80_56-.LJTI80_0
	.long	.LBB80_107-.LJTI80_0
	.long	.LBB80_56-.LJTI80_0
	.long	.LBB80_56-.LJTI80_0
	.long	.LBB80_56-.LJTI80_0
	.long	.LBB80_56-.LJTI80_0
	.long	.LBB80_56-.LJTI80_0
	.long	.LBB80_56-.LJTI80_0
	.long	.LBB80_56-.LJTI80_0
	.long	.LBB80_56-.LJTI80_0
	.long	.LBB80_56-.LJTI80_0
	.long	.LBB80_56-.LJTI80_0
	.long	.LBB80_56-.LJTI80_0
	.long	.LBB80_56-.LJTI80_0
	.long	.LBB80_56-.LJTI80_0
	.long	.LBB80_56-.LJTI80_0
	.long	.LBB80_56-.LJTI80_0
	.long	.LBB80_56-.LJTI80_0
	.long	.LBB80_56-.LJTI80_0
	.long	.LBB80_56-.LJTI80_0
	.long	.LBB80_56-.LJTI80_0
	.long	.LBB80_56-.LJTI80_0
	.long	.LBB80_56-.LJTI80_0
	.long	.LBB80_56-.LJTI80_0
	.long	.LBB80_56-.LJTI80_0
	.long	.LBB80_56-.LJTI80_0
	.long	.LBB80_56-.LJTI80_0
	.long	.LBB80_56-.LJTI80_0
	.long	.LBB80_56-.LJTI80_0
	.long	.LBB80_56-.LJTI80_0
	.long	.LBB80_56-.LJTI80_0
	.long	.LBB80_56-.LJTI80_0
	.long	.LBB80_56-.LJTI80_0
	.long	.LBB80_56-.LJTI80_0
	.long	.LBB80_50-.LJTI80_0
	.long	.LBB80_107-.LJTI80_0
	.long	.LBB80_56-.LJTI80_0
	.long	.LBB80_56-.LJTI80_0
	.long	.LBB80_56-.LJTI80_0
	.long	.LBB80_56-.LJTI80_0
	.long	.LBB80_56-.LJTI80_0
	.long	.LBB80_56-.LJTI80_0
	.long	.LBB80_56-.LJTI80_0
	.long	.LBB80_56-.LJTI80_0
	.long	.LBB80_56-.LJTI80_0
	.long	.LBB80_44-.LJTI80_0
	.long	.LBB80_56-.LJTI80_0
	.long	.LBB80_56-.LJTI80_0
	.long	.LBB80_56-.LJTI80_0
	.long	.LBB80_56-.LJTI80_0
	.long	.LBB80_56-.LJTI80_0
	.long	.LBB80_56-.LJTI80_0
	.long	.LBB80_56-.LJTI80_0
	.long	.LBB80_46-.LJTI80_0
	.long	.LBB80_56-.LJTI80_0
	.long	.LBB80_56-.LJTI80_0
	.long	.LBB80_56-.LJTI80_0
	.long	.LBB80_56-.LJTI80_0
	.long	.LBB80_56-.LJTI80_0
	.long	.LBB80_48-.LJTI80_0
	.long	.LBB80_56-.LJTI80_0
	.long	.LBB80_56-.LJTI80_0
	.long	.LBB80_56-.LJTI80_0
	.long	.LBB80_56-.LJTI80_0
	.long	.LBB80_56-.LJTI80_0
	.long	.LBB80_56-.LJTI80_0
	.long	.LBB80_53-.LJTI80_0

	.section	.rodata.cst16,"aM",@progbits,16
	.p2align	4, 0x0
.LCPI81_0:
	.zero	16,34
.LCPI81_1:
	.zero	16,92
.LCPI81_2:
	.zero	16,31
.LCPI81_3:
	.zero	16,198
.LCPI81_4:
	.zero	16,245
.LCPI81_5:
	.zero	8
	.quad	7306357456645743973
.LCPI81_6:
	.zero	16,101
.LCPI81_7:
	.zero	16,127
.LCPI81_8:
	.zero	8
	.quad	9187201950435737471
	.section	".text.amqp_json::reading::walk::put_named","ax",@progbits
	.p2align	4
	.type	"amqp_json::reading::walk::put_named",@function
"amqp_json::reading::walk::put_named":
	pushq	%rbp
	pushq	%r15
	pushq	%r14
	pushq	%r13
	pushq	%r12
	pushq	%rbx
	subq	$344, %rsp
	addq	$-5, %r8
	cmpq	$9, %r8
	ja	.LBB81_20
	leaq	.LJTI81_0(%rip), %rax
	movslq	(%rax,%r8,4), %r8
	addq	%rax, %r8
	jmpq	*%r8
.LBB81_2:
	movl	(%rcx), %eax
	movl	1(%rcx), %ecx
	shlq	$32, %rcx
	orq	%rax, %rcx
	movb	$9, %bpl
	movabsq	$8386106492422417478, %rax
	cmpq	%rax, %rcx
	jne	.LBB81_20
	jmp	.LBB81_22
.LBB81_3:
	movq	(%rcx), %rax
	movq	1(%rcx), %rcx
	movabsq	$7946976976096421971, %r8
	xorq	%rax, %r8
	movabsq	$8389723787212517224, %r10
	xorq	%rcx, %r10
	movb	$4, %bpl
	orq	%r8, %r10
	je	.LBB81_22
	movabsq	$7881708861846808916, %r8
	xorq	%rax, %r8
	movabsq	$8101238457489517929, %r10
	xorq	%rcx, %r10
	movb	$15, %bpl
	orq	%r8, %r10
	je	.LBB81_22
	movabsq	$7021800394224597314, %r8
	xorq	%r8, %rax
	movabsq	$8746397786379220089, %r8
	xorq	%r8, %rcx
	movb	$17, %bpl
	orq	%rax, %rcx
	jne	.LBB81_20
	jmp	.LBB81_22
.LBB81_6:
	movabsq	$8027758095389124691, %rax
	cmpq	%rax, (%rcx)
	jne	.LBB81_20
	movb	$2, %bpl
	movabsq	$8389723787212517224, %rax
	cmpq	%rax, 6(%rcx)
	je	.LBB81_22
	jmp	.LBB81_20
.LBB81_8:
	movl	(%rcx), %eax
	movl	3(%rcx), %ecx
	shlq	$32, %rcx
	orq	%rax, %rcx
	movb	$5, %bpl
	movabsq	$8389723864303562572, %rax
	cmpq	%rax, %rcx
	jne	.LBB81_20
	jmp	.LBB81_22
.LBB81_9:
	movq	(%rcx), %rax
	movabsq	$8389723786994151244, %rcx
	cmpq	%rcx, %rax
	je	.LBB81_21
	movb	$3, %bpl
	movabsq	$8389723920322750547, %rcx
	cmpq	%rcx, %rax
	je	.LBB81_22
	jmp	.LBB81_20
.LBB81_11:
	movabsq	$6227459507294004548, %rax
	cmpq	%rax, (%rcx)
	jne	.LBB81_20
	movb	$11, %bpl
	movabsq	$7310868735423439213, %rax
	cmpq	%rax, 4(%rcx)
	je	.LBB81_22
	jmp	.LBB81_20
.LBB81_13:
	movl	(%rcx), %eax
	movl	2(%rcx), %ecx
	shlq	$32, %rcx
	orq	%rax, %rcx
	movb	$10, %bpl
	movabsq	$7308324551618031428, %rax
	cmpq	%rax, %rcx
	jne	.LBB81_20
	jmp	.LBB81_22
.LBB81_14:
	movabsq	$7598263422893846348, %rax
	cmpq	%rax, (%rcx)
	jne	.LBB81_20
	movb	$13, %bpl
	movabsq	$7453010373643560814, %rax
	cmpq	%rax, 2(%rcx)
	je	.LBB81_22
	jmp	.LBB81_20
.LBB81_16:
	movabsq	$7453016807288237900, %rax
	cmpq	%rax, (%rcx)
	jne	.LBB81_20
	movabsq	$8389723864303562572, %rax
	addq	$117497115, %rax
	movb	$7, %bpl
	cmpq	%rax, 3(%rcx)
	je	.LBB81_22
	jmp	.LBB81_20
.LBB81_18:
	movabsq	$8027758095389124691, %rax
	cmpq	%rax, (%rcx)
	jne	.LBB81_20
	movb	$1, %bpl
	movabsq	$8389723920322750547, %rax
	cmpq	%rax, 5(%rcx)
	je	.LBB81_22
.LBB81_20:
	movb	$1, (%rdi)
	movq	$4, 8(%rdi)
	movq	%r9, 16(%rdi)
	jmp	.LBB81_39
.LBB81_21:
	movb	$6, %bpl
.LBB81_22:
	movq	80(%rsi), %r11
	movzbl	104(%rsi), %ecx
	movq	8(%rsi), %r15
	movq	%r15, %rax
	subq	%r11, %rax
	jbe	.LBB81_30
	movq	(%rsi), %r14
	movzbl	(%r14,%r11), %r13d
	movl	%r13d, %r8d
	andb	$-33, %r8b
	cmpb	$93, %r8b
	jne	.LBB81_28
	leal	-1(%rcx), %eax
	cmpb	$1, %al
	ja	.LBB81_37
	pxor	%xmm0, %xmm0
	movdqa	%xmm0, 16(%rsp)
	movdqa	%xmm0, 32(%rsp)
	movq	40(%rsi), %rax
	leaq	1(%rax), %rcx
	movq	%rcx, 40(%rsi)
	leaq	48(%rsi), %r15
	cmpq	56(%rsi), %rcx
	jne	.LBB81_32
	movb	%bpl, 8(%rsp)
	movq	%r11, %rbp
	movq	%rdx, %r14
	movq	%rdi, %r12
	movq	16(%rsi), %rax
	movq	24(%rsi), %rdx
	movq	32(%rsi), %rcx
	movq	64(%rsi), %r8
	movzbl	74(%rsi), %edi
	movb	%dil, 98(%rsp)
	movzwl	72(%rsi), %edi
	movw	%di, 96(%rsp)
	leaq	16(%rsp), %rdi
	leaq	96(%rsp), %r9
	movq	%rsi, %rbx
	movq	%rax, %rsi
	callq	"json::index::refill"
	movq	%rbx, %rsi
	movdqa	16(%rsp), %xmm0
	movdqa	32(%rsp), %xmm1
	movdqu	%xmm1, 16(%r15)
	movdqu	%xmm0, (%r15)
	movq	$0, 40(%rbx)
	movq	32(%rbx), %rcx
	movl	$1, %eax
	cmpq	$0, 24(%rsp)
	je	.LBB81_41
	movl	(%rcx), %r8d
	addq	16(%rsp), %r8
	jmp	.LBB81_42
.LBB81_28:
	cmpl	$32, %r13d
	ja	.LBB81_33
	movl	%r13d, %r8d
	movabsq	$4294977024, %r9
	btq	%r8, %r9
	jae	.LBB81_33
.LBB81_30:
	xorl	%eax, %eax
	movl	%ecx, %r9d
	subb	$3, %r9b
	setne	%al
	leal	-4(%rcx), %r10d
	xorl	%r8d, %r8d
	cmpb	$-2, %r9b
	leal	(%rax,%rax,8), %eax
	cmovael	%r8d, %eax
	movzbl	%cl, %ecx
	movl	$3, %r9d
	cmovael	%ecx, %r9d
	movb	%r9b, 104(%rsi)
	cmpb	$-3, %r10b
	jae	.LBB81_38
.LBB81_31:
	xorl	%ecx, %ecx
	pxor	%xmm0, %xmm0
	movdqa	%xmm0, 192(%rsp)
	movdqa	%xmm0, 176(%rsp)
	movb	$2, %r14b
	xorl	%r12d, %r12d
	movzbl	%al, %eax
	leaq	.LJTI81_2(%rip), %r9
	movslq	(%r9,%rax,4), %r10
	addq	%r9, %r10
	xorl	%eax, %eax
	jmpq	*%r10
.LBB81_32:
	movq	32(%rsi), %rcx
	movl	4(%rcx,%rax,4), %r8d
	addq	48(%rsi), %r8
	addq	$2, %rax
	jmp	.LBB81_43
.LBB81_33:
	cmpb	$2, %cl
	jae	.LBB81_37
	leaq	(%r14,%r11), %r10
	movb	$3, %r12b
	movb	$9, %bl
	leal	-34(%r13), %ecx
	cmpl	$89, %ecx
	ja	.LBB81_75
	leaq	.LJTI81_1(%rip), %r8
	movslq	(%r8,%rcx,4), %rcx
	addq	%r8, %rcx
	jmpq	*%rcx
.LBB81_36:
	xorl	%ecx, %ecx
	xorl	%r8d, %r8d
	jmp	.LBB81_190
.LBB81_37:
	movb	$3, 104(%rsi)
	cmpb	$3, %cl
	jne	.LBB81_40
.LBB81_38:
	movb	$1, (%rdi)
	movq	$2, 8(%rdi)
	movq	$0, 16(%rdi)
.LBB81_39:
	movb	$0, 24(%rdi)
	jmp	.LBB81_351
.LBB81_40:
	xorl	%r8d, %r8d
	movb	$9, %al
	jmp	.LBB81_31
.LBB81_41:
	movq	24(%rsi), %r8
.LBB81_42:
	movq	%r12, %rdi
	movq	%r14, %rdx
	movq	%rbp, %r11
	movzbl	8(%rsp), %ebp
.LBB81_43:
	movq	%r8, 80(%rsi)
	movb	$2, %r14b
	movb	$2, %r9b
	cmpq	8(%rsi), %r8
	jae	.LBB81_52
	movq	(%rsi), %r9
	cmpb	$44, (%r9,%r8)
	movb	$2, %r9b
	jne	.LBB81_52
	pxor	%xmm0, %xmm0
	movdqa	%xmm0, 16(%rsp)
	movdqa	%xmm0, 32(%rsp)
	movq	%rax, 40(%rsi)
	cmpq	56(%rsi), %rax
	jne	.LBB81_48
	movb	%bpl, 8(%rsp)
	movq	%r11, %rbp
	movq	%rdx, 72(%rsp)
	movq	%rdi, %r12
	movq	16(%rsi), %rax
	movq	24(%rsi), %rdx
	movq	64(%rsi), %r8
	movzbl	74(%rsi), %edi
	movb	%dil, 98(%rsp)
	movzwl	72(%rsi), %edi
	movw	%di, 96(%rsp)
	leaq	16(%rsp), %rdi
	leaq	96(%rsp), %r9
	movq	%rsi, %rbx
	movq	%rax, %rsi
	callq	"json::index::refill"
	movq	%rbx, %rsi
	movdqa	16(%rsp), %xmm0
	movdqa	32(%rsp), %xmm1
	movdqu	%xmm1, 16(%r15)
	movdqu	%xmm0, (%r15)
	movq	$0, 40(%rbx)
	cmpq	$0, 24(%rsp)
	je	.LBB81_49
	movq	32(%rsi), %rax
	movl	(%rax), %eax
	addq	16(%rsp), %rax
	jmp	.LBB81_50
.LBB81_48:
	movl	(%rcx,%rax,4), %eax
	addq	(%r15), %rax
	jmp	.LBB81_51
.LBB81_49:
	movq	24(%rsi), %rax
.LBB81_50:
	movq	%r12, %rdi
	movq	72(%rsp), %rdx
	movq	%rbp, %r11
	movzbl	8(%rsp), %ebp
.LBB81_51:
	movq	%rax, 80(%rsi)
	xorl	%r9d, %r9d
.LBB81_52:
	cmpl	$125, %r13d
	setne	%al
	addb	%al, %al
	incb	%al
	xorl	%ecx, %ecx
	movb	%r9b, 104(%rsi)
	pxor	%xmm0, %xmm0
	movdqa	%xmm0, 192(%rsp)
	movdqa	%xmm0, 176(%rsp)
	xorl	%r12d, %r12d
	movzbl	%al, %eax
	leaq	.LJTI81_2(%rip), %r8
	movslq	(%r8,%rax,4), %r9
	addq	%r8, %r9
	xorl	%r8d, %r8d
	xorl	%eax, %eax
	jmpq	*%r9
.LBB81_53:
	movzbl	%bpl, %eax
	movb	$4, %r14b
	movl	$120831, %ecx
	btl	%eax, %ecx
	jae	.LBB81_56
	movb	$3, %r12b
.LBB81_55:
	movq	%r11, %rax
	jmp	.LBB81_350
.LBB81_56:
	movb	$4, %r12b
	jmp	.LBB81_55
.LBB81_57:
	movb	$32, %r8b
	cmpq	$5, %rax
	jae	.LBB81_83
	movq	%r11, %r12
	xorl	%ecx, %ecx
	jmp	.LBB81_85
.LBB81_59:
	leaq	1(%r11), %rbx
	movq	%r15, %rcx
	subq	%rbx, %rcx
	movq	%rbx, %rax
	cmpq	$32, %rcx
	movq	%rdi, 64(%rsp)
	movq	%rdx, 72(%rsp)
	movq	%r11, 88(%rsp)
	jb	.LBB81_64
	movq	%r11, %rax
	notq	%rax
	leaq	(%r14,%rbx), %rcx
.LBB81_61:
	movdqu	(%rcx), %xmm0
	movdqu	16(%rcx), %xmm1
	movdqa	.LCPI81_0(%rip), %xmm2
	movdqa	%xmm1, %xmm3
	movdqa	.LCPI81_2(%rip), %xmm4
	movdqa	%xmm0, %xmm5
	pminub	%xmm4, %xmm5
	pminub	%xmm1, %xmm4
	pcmpeqb	%xmm1, %xmm4
	pcmpeqb	%xmm2, %xmm1
	movdqa	.LCPI81_1(%rip), %xmm6
	pcmpeqb	%xmm6, %xmm3
	por	%xmm1, %xmm3
	pcmpeqb	%xmm0, %xmm2
	pcmpeqb	%xmm0, %xmm6
	por	%xmm2, %xmm6
	pcmpeqb	%xmm0, %xmm5
	por	%xmm6, %xmm5
	por	%xmm3, %xmm4
	pmovmskb	%xmm5, %r9d
	pmovmskb	%xmm4, %r8d
	shll	$16, %r8d
	orl	%r9d, %r8d
	jne	.LBB81_100
	addq	$32, %rcx
	leaq	(%r15,%rax), %r8
	addq	$-32, %r8
	addq	$-32, %rax
	cmpq	$31, %r8
	ja	.LBB81_61
	negq	%rax
.LBB81_64:
	movq	%r14, %rdi
	movq	%rbx, %r12
	movq	%rsi, %rbx
	movq	%r15, %rsi
	movq	%rax, %rdx
	callq	"json::run::plain_end_16"
	movq	%rbx, %rsi
	movq	%r12, %rbx
	movq	%rax, %r8
	jmp	.LBB81_101
.LBB81_65:
	movb	$32, %cl
	cmpq	$4, %rax
	jae	.LBB81_87
	movq	%r11, %rbx
	xorl	%r9d, %r9d
	jmp	.LBB81_89
.LBB81_67:
	movb	$32, %cl
	cmpq	$4, %rax
	jae	.LBB81_91
	movq	%r11, %rbx
	xorl	%r9d, %r9d
	jmp	.LBB81_93
.LBB81_69:
	pxor	%xmm0, %xmm0
	movdqa	%xmm0, 16(%rsp)
	movdqa	%xmm0, 32(%rsp)
	movq	40(%rsi), %rax
	leaq	1(%rax), %rcx
	movq	%rcx, 40(%rsi)
	cmpq	56(%rsi), %rcx
	jne	.LBB81_98
	movq	%r11, %r13
	movq	%rdx, %r14
	movq	%rdi, %r15
	leaq	48(%rsi), %r12
	movq	16(%rsi), %rax
	movq	24(%rsi), %rdx
	movq	32(%rsi), %rcx
	movq	64(%rsi), %r8
	movzbl	74(%rsi), %edi
	movb	%dil, 98(%rsp)
	movzwl	72(%rsi), %edi
	movw	%di, 96(%rsp)
	leaq	16(%rsp), %rdi
	leaq	96(%rsp), %r9
	movq	%rsi, %rbx
	movq	%rax, %rsi
	callq	"json::index::refill"
	movq	%rbx, %rsi
	movdqa	16(%rsp), %xmm0
	movdqa	32(%rsp), %xmm1
	movdqu	%xmm1, 16(%r12)
	movdqu	%xmm0, (%r12)
	movq	$0, 40(%rbx)
	cmpq	$0, 24(%rsp)
	je	.LBB81_124
	movq	32(%rsi), %rax
	movl	(%rax), %eax
	addq	16(%rsp), %rax
	jmp	.LBB81_125
.LBB81_72:
	pxor	%xmm0, %xmm0
	movdqa	%xmm0, 16(%rsp)
	movdqa	%xmm0, 32(%rsp)
	movq	40(%rsi), %rax
	leaq	1(%rax), %rcx
	movq	%rcx, 40(%rsi)
	cmpq	56(%rsi), %rcx
	jne	.LBB81_99
	movq	%r11, %r13
	movq	%rdx, %r14
	movq	%rdi, %r15
	leaq	48(%rsi), %r12
	movq	16(%rsi), %rax
	movq	24(%rsi), %rdx
	movq	32(%rsi), %rcx
	movq	64(%rsi), %r8
	movzbl	74(%rsi), %edi
	movb	%dil, 98(%rsp)
	movzwl	72(%rsi), %edi
	movw	%di, 96(%rsp)
	leaq	16(%rsp), %rdi
	leaq	96(%rsp), %r9
	movq	%rsi, %rbx
	movq	%rax, %rsi
	callq	"json::index::refill"
	movq	%rbx, %rsi
	movdqa	16(%rsp), %xmm0
	movdqa	32(%rsp), %xmm1
	movdqu	%xmm1, 16(%r12)
	movdqu	%xmm0, (%r12)
	movq	$0, 40(%rbx)
	cmpq	$0, 24(%rsp)
	je	.LBB81_127
	movq	32(%rsi), %rax
	movl	(%rax), %eax
	addq	16(%rsp), %rax
	jmp	.LBB81_128
.LBB81_75:
	xorl	%r8d, %r8d
	cmpl	$45, %r13d
	sete	%r8b
	leaq	(%r11,%r8), %r13
	movq	%r15, %r9
	subq	%r13, %r9
	jbe	.LBB81_78
	cmpb	$48, (%r14,%r13)
	jne	.LBB81_78
	incq	%r13
	movq	%r13, %rax
	jmp	.LBB81_115
.LBB81_78:
	movq	%r13, %rcx
	cmpq	$16, %r9
	jb	.LBB81_82
	subq	%r8, %rax
	movq	%r13, %rcx
.LBB81_80:
	movdqu	(%r14,%rcx), %xmm0
	paddb	.LCPI81_3(%rip), %xmm0
	movdqa	.LCPI81_4(%rip), %xmm1
	pminub	%xmm0, %xmm1
	pcmpeqb	%xmm0, %xmm1
	pmovmskb	%xmm1, %r8d
	testl	%r8d, %r8d
	jne	.LBB81_112
	addq	$16, %rcx
	addq	$-16, %rax
	cmpq	$15, %rax
	ja	.LBB81_80
.LBB81_82:
	movq	%rdi, 64(%rsp)
	movq	%r14, %rdi
	movq	%rsi, 48(%rsp)
	movq	%r15, %rsi
	movq	%rdx, 72(%rsp)
	movq	%rcx, %rdx
	movl	%ebp, %r12d
	movq	%r11, %rbp
	movq	%r10, %rbx
	callq	"json::run::digits_end_slowly"
	movq	%rbx, %r10
	movq	%rbp, %r11
	movl	%r12d, %ebp
	movb	$3, %r12b
	movq	72(%rsp), %rdx
	movb	$9, %bl
	movq	48(%rsp), %rsi
	movq	64(%rsp), %rdi
	jmp	.LBB81_113
.LBB81_83:
	cmpl	$1702063201, 1(%r10)
	sete	%cl
	movq	%r11, %r12
	cmpq	$5, %rax
	je	.LBB81_85
	movzbl	5(%r10), %r8d
.LBB81_85:
	movl	%r8d, %eax
	andb	$-33, %al
	addb	$-91, %al
	testb	$-3, %al
	sete	%r10b
	cmpb	$58, %r8b
	sete	%r11b
	cmpb	$44, %r8b
	sete	%al
	cmpb	$32, %r8b
	sete	%r9b
	leal	-9(%r8), %ebx
	cmpb	$2, %bl
	setb	%r14b
	cmpb	$13, %r8b
	sete	%r15b
	xorl	%r8d, %r8d
	testb	%cl, %cl
	je	.LBB81_111
	orb	%r11b, %al
	orb	%r10b, %al
	orb	%r15b, %r9b
	orb	%r14b, %r9b
	orb	%al, %r9b
	movb	$7, %r15b
	movl	$0, %r10d
	movl	$0, %ecx
	movq	%r12, %r11
	movb	$3, %r12b
	jmp	.LBB81_96
.LBB81_87:
	movzbl	3(%r10), %r8d
	xorb	$108, %r8b
	movzbl	1(%r10), %r9d
	movq	%r10, %r14
	movzbl	2(%r10), %r10d
	xorb	$108, %r10b
	orb	%r8b, %r10b
	xorb	$117, %r9b
	orb	%r10b, %r9b
	sete	%r9b
	movq	%r11, %rbx
	cmpq	$4, %rax
	je	.LBB81_89
	movzbl	4(%r14), %ecx
.LBB81_89:
	movl	%ecx, %eax
	andb	$-33, %al
	addb	$-91, %al
	testb	$-3, %al
	sete	%r11b
	cmpb	$58, %cl
	sete	%r14b
	cmpb	$44, %cl
	sete	%al
	cmpb	$32, %cl
	sete	%r10b
	leal	-9(%rcx), %r8d
	cmpb	$2, %r8b
	setb	%r15b
	cmpb	$13, %cl
	sete	%cl
	xorl	%r8d, %r8d
	testb	%r9b, %r9b
	je	.LBB81_97
	orb	%r14b, %al
	orb	%r11b, %al
	orb	%cl, %r10b
	orb	%r15b, %r10b
	orb	%al, %r10b
	movb	$8, %r15b
	jmp	.LBB81_95
.LBB81_91:
	movzbl	3(%r10), %r8d
	xorb	$101, %r8b
	movzbl	1(%r10), %r9d
	movq	%r10, %r14
	movzbl	2(%r10), %r10d
	xorb	$117, %r10b
	orb	%r8b, %r10b
	xorb	$114, %r9b
	orb	%r10b, %r9b
	sete	%r9b
	movq	%r11, %rbx
	cmpq	$4, %rax
	je	.LBB81_93
	movzbl	4(%r14), %ecx
.LBB81_93:
	movl	%ecx, %eax
	andb	$-33, %al
	addb	$-91, %al
	testb	$-3, %al
	sete	%r11b
	cmpb	$58, %cl
	sete	%r14b
	cmpb	$44, %cl
	sete	%al
	cmpb	$32, %cl
	sete	%r10b
	leal	-9(%rcx), %r8d
	cmpb	$2, %r8b
	setb	%r15b
	cmpb	$13, %cl
	sete	%cl
	xorl	%r8d, %r8d
	testb	%r9b, %r9b
	je	.LBB81_97
	orb	%r14b, %al
	orb	%r11b, %al
	orb	%cl, %r10b
	orb	%r15b, %r10b
	orb	%al, %r10b
	movb	$7, %r15b
.LBB81_95:
	movl	$0, %r10d
	movl	$0, %ecx
	movq	%rbx, %r11
.LBB81_96:
	movb	$9, %bl
	jne	.LBB81_172
	jmp	.LBB81_190
.LBB81_97:
	xorl	%ecx, %ecx
	movq	%rbx, %r11
	movb	$9, %bl
	jmp	.LBB81_190
.LBB81_98:
	movq	32(%rsi), %rcx
	movl	4(%rcx,%rax,4), %eax
	addq	48(%rsi), %rax
	jmp	.LBB81_126
.LBB81_99:
	movq	32(%rsi), %rcx
	movl	4(%rcx,%rax,4), %eax
	addq	48(%rsi), %rax
	jmp	.LBB81_129
.LBB81_100:
	rep		bsfl	%r8d, %r8d
	subq	%rax, %r8
.LBB81_101:
	cmpq	%r15, %r8
	jae	.LBB81_106
	cmpb	$34, (%r14,%r8)
	jne	.LBB81_106
	pxor	%xmm0, %xmm0
	movdqa	%xmm0, 16(%rsp)
	movdqa	%xmm0, 32(%rsp)
	movq	40(%rsi), %rcx
	leaq	1(%rcx), %r9
	movq	%r9, 40(%rsi)
	cmpq	56(%rsi), %r9
	jne	.LBB81_130
	movq	%rbx, %r13
	movq	%r8, %r15
	leaq	48(%rsi), %r12
	movq	16(%rsi), %rax
	movq	24(%rsi), %rdx
	movq	32(%rsi), %rcx
	movq	64(%rsi), %r8
	movzbl	74(%rsi), %edi
	movb	%dil, 98(%rsp)
	movzwl	72(%rsi), %edi
	movw	%di, 96(%rsp)
	leaq	16(%rsp), %rdi
	leaq	96(%rsp), %r9
	movq	%rsi, %rbx
	movq	%rax, %rsi
	callq	"json::index::refill"
	movq	%rbx, %rsi
	movdqa	16(%rsp), %xmm0
	movdqa	32(%rsp), %xmm1
	movdqu	%xmm1, 16(%r12)
	movdqu	%xmm0, (%r12)
	movq	$0, 40(%rbx)
	movq	32(%rbx), %rax
	cmpq	$0, 24(%rsp)
	je	.LBB81_133
	movl	(%rax), %r10d
	addq	16(%rsp), %r10
	jmp	.LBB81_134
.LBB81_106:
	movq	88(%rsi), %rcx
	movq	96(%rsi), %r13
	leaq	135(%rsp), %rax
	movq	%rax, 88(%rsi)
	movq	%rsi, %r12
	movq	$0, 96(%rsi)
	movq	%r14, %rdi
	movq	%r15, %rsi
	movq	%rbx, %rdx
	movq	%rcx, %r14
	movq	%r13, %r8
	callq	"json::unescape::unescape"
	cmpb	$1, %al
	jne	.LBB81_110
	movq	%rdx, %r8
	leaq	(%r14,%rdx), %rax
	subq	%rdx, %r13
	movq	%r12, %rsi
	movq	%rax, 88(%r12)
	movq	%r13, 96(%r12)
	pxor	%xmm0, %xmm0
	movdqa	%xmm0, 16(%rsp)
	movdqa	%xmm0, 32(%rsp)
	movq	40(%r12), %rdx
	leaq	1(%rdx), %r9
	movq	%r9, 40(%r12)
	cmpq	56(%r12), %r9
	jne	.LBB81_123
	movq	%r8, %r15
	leaq	48(%rsi), %rbx
	movq	16(%rsi), %rax
	movq	24(%rsi), %rdx
	movq	32(%rsi), %rcx
	movq	64(%rsi), %r8
	movzbl	74(%rsi), %edi
	movb	%dil, 98(%rsp)
	movzwl	72(%rsi), %esi
	movw	%si, 96(%rsp)
	leaq	16(%rsp), %rdi
	leaq	96(%rsp), %r9
	movq	%rax, %rsi
	callq	"json::index::refill"
	movq	%r12, %rsi
	movdqa	16(%rsp), %xmm0
	movdqa	32(%rsp), %xmm1
	movdqu	%xmm1, 16(%rbx)
	movdqu	%xmm0, (%rbx)
	movq	$0, 40(%r12)
	movq	32(%r12), %rax
	cmpq	$0, 24(%rsp)
	je	.LBB81_131
	movl	(%rax), %r10d
	addq	16(%rsp), %r10
	jmp	.LBB81_132
.LBB81_110:
	movq	%r12, %rsi
	movq	%r14, 88(%r12)
	movq	%r13, 96(%r12)
	movb	$3, %al
	movb	$9, %dl
	xorl	%ecx, %ecx
	movb	%al, 104(%r12)
	pxor	%xmm0, %xmm0
	movdqa	%xmm0, 192(%rsp)
	movdqa	%xmm0, 176(%rsp)
	movb	$2, %r14b
	xorl	%r12d, %r12d
	movzbl	%dl, %eax
	leaq	.LJTI81_2(%rip), %rdx
	movslq	(%rdx,%rax,4), %r9
	addq	%rdx, %r9
	xorl	%r8d, %r8d
	xorl	%eax, %eax
	movq	64(%rsp), %rdi
	movq	72(%rsp), %rdx
	movq	88(%rsp), %r11
	jmpq	*%r9
.LBB81_111:
	xorl	%ecx, %ecx
	movq	%r12, %r11
	movb	$3, %r12b
	movb	$9, %bl
	jmp	.LBB81_190
.LBB81_112:
	rep		bsfl	%r8d, %eax
	addq	%rcx, %rax
.LBB81_113:
	xorl	%ecx, %ecx
	cmpq	%r13, %rax
	cmoveq	%rcx, %rax
	jne	.LBB81_115
.LBB81_114:
	xorl	%r8d, %r8d
	jmp	.LBB81_190
.LBB81_115:
	cmpq	%r15, %rax
	jae	.LBB81_151
	cmpb	$46, (%r14,%rax)
	jne	.LBB81_151
	movq	%r10, 8(%rsp)
	leaq	1(%rax), %r13
	movq	%r15, %r8
	subq	%r13, %r8
	movq	%r13, %rcx
	cmpq	$16, %r8
	movq	%rdi, 64(%rsp)
	movq	%rsi, 48(%rsp)
	movq	%rdx, 72(%rsp)
	jb	.LBB81_122
	notq	%rax
	leaq	(%r14,%r13), %rcx
.LBB81_119:
	movdqu	(%rcx), %xmm0
	paddb	.LCPI81_3(%rip), %xmm0
	movdqa	.LCPI81_4(%rip), %xmm1
	pminub	%xmm0, %xmm1
	pcmpeqb	%xmm0, %xmm1
	pmovmskb	%xmm1, %r8d
	testl	%r8d, %r8d
	jne	.LBB81_148
	addq	$16, %rcx
	leaq	(%r15,%rax), %r8
	addq	$-16, %r8
	addq	$-16, %rax
	cmpq	$15, %r8
	ja	.LBB81_119
	negq	%rax
	movq	%rax, %rcx
.LBB81_122:
	movq	%r11, %rbx
	movq	%r14, %rdi
	movq	%r15, %rsi
	movq	%rcx, %rdx
	callq	"json::run::digits_end_slowly"
	jmp	.LBB81_149
.LBB81_123:
	movq	%r14, %rcx
	movq	32(%rsi), %rax
	movl	4(%rax,%rdx,4), %r10d
	addq	48(%rsi), %r10
	movq	64(%rsp), %rdi
	movq	72(%rsp), %rdx
	movq	%r10, 80(%rsi)
	jmp	.LBB81_136
.LBB81_124:
	movq	24(%rsi), %rax
.LBB81_125:
	movq	%r15, %rdi
	movq	%r14, %rdx
	movq	%r13, %r11
.LBB81_126:
	movq	%rax, 80(%rsi)
	movb	$1, %al
	movb	$2, %r14b
	xorl	%ecx, %ecx
	movb	%al, 104(%rsi)
	pxor	%xmm0, %xmm0
	movdqa	%xmm0, 192(%rsp)
	movdqa	%xmm0, 176(%rsp)
	xorl	%r12d, %r12d
	movzbl	%r14b, %eax
	leaq	.LJTI81_2(%rip), %r8
	movslq	(%r8,%rax,4), %r9
	addq	%r8, %r9
	xorl	%r8d, %r8d
	xorl	%eax, %eax
	jmpq	*%r9
.LBB81_127:
	movq	24(%rsi), %rax
.LBB81_128:
	movq	%r15, %rdi
	movq	%r14, %rdx
	movq	%r13, %r11
.LBB81_129:
	movq	%rax, 80(%rsi)
	movb	$1, %al
	xorl	%ecx, %ecx
	movb	%al, 104(%rsi)
	pxor	%xmm0, %xmm0
	movdqa	%xmm0, 192(%rsp)
	movdqa	%xmm0, 176(%rsp)
	movb	$2, %r14b
	xorl	%r12d, %r12d
	movzbl	%cl, %eax
	leaq	.LJTI81_2(%rip), %r8
	movslq	(%r8,%rax,4), %r9
	addq	%r8, %r9
	xorl	%r8d, %r8d
	xorl	%eax, %eax
	jmpq	*%r9
.LBB81_130:
	movq	32(%rsi), %rax
	movl	4(%rax,%rcx,4), %r10d
	addq	48(%rsi), %r10
	movq	64(%rsp), %rdi
	movq	72(%rsp), %rdx
	jmp	.LBB81_135
.LBB81_131:
	movq	24(%rsi), %r10
.LBB81_132:
	xorl	%r9d, %r9d
	movq	64(%rsp), %rdi
	movq	72(%rsp), %rdx
	movq	%r14, %rcx
	movq	%r15, %r8
	movq	%r10, 80(%rsi)
	jmp	.LBB81_136
.LBB81_133:
	movq	24(%rsi), %r10
.LBB81_134:
	xorl	%r9d, %r9d
	movq	64(%rsp), %rdi
	movq	72(%rsp), %rdx
	movq	%r15, %r8
	movq	%r13, %rbx
.LBB81_135:
	movq	%r10, 80(%rsi)
	addq	%rbx, %r14
	subq	%rbx, %r8
	movq	%r14, %rcx
.LBB81_136:
	movb	$2, %r12b
	movb	$5, %bl
	cmpq	8(%rsi), %r10
	jae	.LBB81_142
	movq	(%rsi), %r11
	movzbl	(%r11,%r10), %r10d
	cmpl	$44, %r10d
	je	.LBB81_143
	cmpl	$58, %r10d
	movq	88(%rsp), %r11
	jne	.LBB81_190
	pxor	%xmm0, %xmm0
	movdqa	%xmm0, 16(%rsp)
	movdqa	%xmm0, 32(%rsp)
	leaq	1(%r9), %r10
	movq	%r10, 40(%rsi)
	leaq	48(%rsi), %r14
	cmpq	56(%rsi), %r10
	jne	.LBB81_146
	movb	%bpl, 8(%rsp)
	movq	%r11, %rbp
	movq	%r8, 80(%rsp)
	movq	%rcx, %r15
	movq	%rdx, %r12
	movq	%rdi, %r13
	movq	16(%rsi), %rcx
	movq	24(%rsi), %rdx
	movq	64(%rsi), %r8
	movzbl	74(%rsi), %edi
	movb	%dil, 98(%rsp)
	movzwl	72(%rsi), %edi
	movw	%di, 96(%rsp)
	leaq	16(%rsp), %rdi
	leaq	96(%rsp), %r9
	movq	%rsi, %rbx
	movq	%rcx, %rsi
	movq	%rax, %rcx
	callq	"json::index::refill"
	movq	%rbx, %rsi
	movdqa	16(%rsp), %xmm0
	movdqa	32(%rsp), %xmm1
	movdqu	%xmm1, 16(%r14)
	movdqu	%xmm0, (%r14)
	movq	$0, 40(%rbx)
	cmpq	$0, 24(%rsp)
	je	.LBB81_342
	movq	32(%rsi), %rax
	movl	(%rax), %eax
	addq	16(%rsp), %rax
	jmp	.LBB81_343
.LBB81_142:
	movq	88(%rsp), %r11
	jmp	.LBB81_190
.LBB81_143:
	pxor	%xmm0, %xmm0
	movdqa	%xmm0, 16(%rsp)
	movdqa	%xmm0, 32(%rsp)
	leaq	1(%r9), %r10
	movq	%r10, 40(%rsi)
	leaq	48(%rsi), %r14
	cmpq	56(%rsi), %r10
	jne	.LBB81_147
	movq	%r8, 80(%rsp)
	movq	%rcx, %r15
	movq	%rdx, %r12
	movq	%rdi, %r13
	movq	16(%rsi), %rcx
	movq	24(%rsi), %rdx
	movq	64(%rsi), %r8
	movzbl	74(%rsi), %edi
	movb	%dil, 98(%rsp)
	movzwl	72(%rsi), %edi
	movw	%di, 96(%rsp)
	leaq	16(%rsp), %rdi
	leaq	96(%rsp), %r9
	movq	%rsi, %rbx
	movq	%rcx, %rsi
	movq	%rax, %rcx
	callq	"json::index::refill"
	movq	%rbx, %rsi
	movdqa	16(%rsp), %xmm0
	movdqa	32(%rsp), %xmm1
	movdqu	%xmm1, 16(%r14)
	movdqu	%xmm0, (%r14)
	movq	$0, 40(%rbx)
	cmpq	$0, 24(%rsp)
	je	.LBB81_345
	movq	32(%rsi), %rax
	movl	(%rax), %eax
	addq	16(%rsp), %rax
	jmp	.LBB81_346
.LBB81_146:
	movl	4(%rax,%r9,4), %eax
	addq	(%r14), %rax
	jmp	.LBB81_344
.LBB81_147:
	movl	4(%rax,%r9,4), %eax
	addq	(%r14), %rax
	jmp	.LBB81_347
.LBB81_148:
	movq	%r11, %rbx
	rep		bsfl	%r8d, %ecx
	subq	%rax, %rcx
	movq	%rcx, %rax
.LBB81_149:
	xorl	%ecx, %ecx
	cmpq	%r13, %rax
	cmoveq	%rcx, %rax
	movq	64(%rsp), %rdi
	movq	48(%rsp), %rsi
	movq	72(%rsp), %rdx
	movq	%rbx, %r11
	movb	$9, %bl
	movq	8(%rsp), %r10
	je	.LBB81_114
.LBB81_151:
	cmpq	%r15, %rax
	jae	.LBB81_166
	movzbl	(%r14,%rax), %ecx
	andb	$-33, %cl
	cmpb	$69, %cl
	jne	.LBB81_166
	leaq	1(%rax), %r13
	cmpq	%r15, %r13
	jae	.LBB81_157
	movzbl	(%r14,%r13), %ecx
	cmpl	$45, %ecx
	je	.LBB81_156
	cmpl	$43, %ecx
	jne	.LBB81_157
.LBB81_156:
	addq	$2, %rax
	movq	%rax, %r13
.LBB81_157:
	movq	%r10, 8(%rsp)
	movq	%r11, %rbx
	movq	%rdx, 72(%rsp)
	movq	%rsi, 48(%rsp)
	movq	%rdi, 64(%rsp)
	movq	%r15, %rax
	subq	%r13, %rax
	movq	%r13, %rdx
	cmpq	$16, %rax
	jb	.LBB81_162
	movq	%r13, %rdx
	negq	%rdx
	leaq	(%r14,%r13), %rax
.LBB81_159:
	movdqu	(%rax), %xmm0
	paddb	.LCPI81_3(%rip), %xmm0
	movdqa	.LCPI81_4(%rip), %xmm1
	pminub	%xmm0, %xmm1
	pcmpeqb	%xmm0, %xmm1
	pmovmskb	%xmm1, %ecx
	testl	%ecx, %ecx
	jne	.LBB81_163
	addq	$16, %rax
	leaq	(%r15,%rdx), %rcx
	addq	$-16, %rcx
	addq	$-16, %rdx
	cmpq	$15, %rcx
	ja	.LBB81_159
	negq	%rdx
.LBB81_162:
	movq	%r14, %rdi
	movq	%r15, %rsi
	callq	"json::run::digits_end_slowly"
	jmp	.LBB81_164
.LBB81_163:
	rep		bsfl	%ecx, %eax
	subq	%rdx, %rax
.LBB81_164:
	xorl	%ecx, %ecx
	cmpq	%r13, %rax
	movq	64(%rsp), %rdi
	movq	48(%rsp), %rsi
	movq	72(%rsp), %rdx
	movq	%rbx, %r11
	movb	$9, %bl
	movq	8(%rsp), %r10
	je	.LBB81_114
.LBB81_166:
	cmpq	%r15, %rax
	jae	.LBB81_171
	movzbl	(%r14,%rax), %r8d
	cmpq	$58, %r8
	ja	.LBB81_169
	movabsq	$288247972632733184, %rcx
	btq	%r8, %rcx
	jb	.LBB81_171
.LBB81_169:
	xorl	%ecx, %ecx
	addl	$-91, %r8d
	cmpl	$34, %r8d
	ja	.LBB81_114
	movabsq	$21474836485, %r9
	btq	%r8, %r9
	movl	$0, %r8d
	jae	.LBB81_190
.LBB81_171:
	subq	%r11, %rax
	movb	$6, %r15b
	movq	%rax, %r8
.LBB81_172:
	pxor	%xmm0, %xmm0
	movdqa	%xmm0, 16(%rsp)
	movdqa	%xmm0, 32(%rsp)
	movq	40(%rsi), %rax
	leaq	1(%rax), %rcx
	movq	%rcx, 40(%rsi)
	leaq	48(%rsi), %rbx
	cmpq	56(%rsi), %rcx
	jne	.LBB81_175
	movb	%r15b, 56(%rsp)
	movq	%r10, 8(%rsp)
	movq	%r11, 88(%rsp)
	movq	%r8, %r13
	movq	%rdx, %r15
	movq	%rdi, %r14
	movq	16(%rsi), %rax
	movq	24(%rsi), %rdx
	movq	32(%rsi), %rcx
	movq	64(%rsi), %r8
	movzbl	74(%rsi), %edi
	movb	%dil, 98(%rsp)
	movzwl	72(%rsi), %edi
	movw	%di, 96(%rsp)
	leaq	16(%rsp), %rdi
	leaq	96(%rsp), %r9
	movq	%rbx, %r12
	movq	%rsi, %rbx
	movq	%rax, %rsi
	callq	"json::index::refill"
	movq	%rbx, %rsi
	movq	%r12, %rbx
	movdqa	16(%rsp), %xmm0
	movdqa	32(%rsp), %xmm1
	movdqu	%xmm1, 16(%r12)
	movdqu	%xmm0, (%r12)
	movq	$0, 40(%rsi)
	movq	32(%rsi), %rcx
	movl	$1, %eax
	cmpq	$0, 24(%rsp)
	je	.LBB81_176
	movl	(%rcx), %r9d
	addq	16(%rsp), %r9
	jmp	.LBB81_177
.LBB81_175:
	movq	32(%rsi), %rcx
	movl	4(%rcx,%rax,4), %r9d
	addq	48(%rsi), %r9
	addq	$2, %rax
	jmp	.LBB81_178
.LBB81_176:
	movq	24(%rsi), %r9
.LBB81_177:
	movq	%r14, %rdi
	movq	%r15, %rdx
	movq	%r13, %r8
	movq	88(%rsp), %r11
	movq	8(%rsp), %r10
	movzbl	56(%rsp), %r15d
.LBB81_178:
	movq	%r9, 80(%rsi)
	movb	$2, %r12b
	cmpq	8(%rsi), %r9
	jae	.LBB81_183
	movq	%r10, %r14
	movq	(%rsi), %r10
	cmpb	$44, (%r10,%r9)
	jne	.LBB81_184
	pxor	%xmm0, %xmm0
	movdqa	%xmm0, 16(%rsp)
	movdqa	%xmm0, 32(%rsp)
	movq	%rax, 40(%rsi)
	cmpq	56(%rsi), %rax
	jne	.LBB81_185
	movb	%r15b, 56(%rsp)
	movq	%r11, 88(%rsp)
	movq	%r8, 80(%rsp)
	movq	%rdx, %r15
	movq	%rdi, %r13
	movq	16(%rsi), %rax
	movq	24(%rsi), %rdx
	movq	64(%rsi), %r8
	movzbl	74(%rsi), %edi
	movb	%dil, 98(%rsp)
	movzwl	72(%rsi), %edi
	movw	%di, 96(%rsp)
	leaq	16(%rsp), %rdi
	leaq	96(%rsp), %r9
	movq	%rsi, %r12
	movq	%rax, %rsi
	callq	"json::index::refill"
	movq	%r12, %rsi
	movdqa	16(%rsp), %xmm0
	movdqa	32(%rsp), %xmm1
	movdqu	%xmm1, 16(%rbx)
	movdqu	%xmm0, (%rbx)
	movq	$0, 40(%r12)
	cmpq	$0, 24(%rsp)
	je	.LBB81_186
	movq	32(%rsi), %rax
	movl	(%rax), %eax
	addq	16(%rsp), %rax
	jmp	.LBB81_187
.LBB81_183:
	movq	%r10, %rcx
	jmp	.LBB81_189
.LBB81_184:
	movq	%r14, %rcx
	jmp	.LBB81_189
.LBB81_185:
	movl	(%rcx,%rax,4), %eax
	addq	(%rbx), %rax
	movq	%r14, %rcx
	jmp	.LBB81_188
.LBB81_186:
	movq	24(%rsi), %rax
.LBB81_187:
	movq	%r13, %rdi
	movq	%r15, %rdx
	movq	80(%rsp), %r8
	movq	88(%rsp), %r11
	movq	%r14, %rcx
	movzbl	56(%rsp), %r15d
.LBB81_188:
	movq	%rax, 80(%rsi)
	xorl	%r12d, %r12d
.LBB81_189:
	movl	%r15d, %ebx
.LBB81_190:
	movb	%r12b, 104(%rsi)
	pxor	%xmm0, %xmm0
	movdqa	%xmm0, 192(%rsp)
	movdqa	%xmm0, 176(%rsp)
	movb	$2, %r14b
	xorl	%r12d, %r12d
	movzbl	%bl, %eax
	leaq	.LJTI81_2(%rip), %r9
	movslq	(%r9,%rax,4), %r10
	addq	%r9, %r10
	xorl	%eax, %eax
	jmpq	*%r10
.LBB81_191:
	movl	$0, 172(%rsp)
	movq	$0, 232(%rsp)
	movdqa	%xmm0, 16(%rsp)
	movdqa	%xmm0, 32(%rsp)
	movdqa	%xmm0, 96(%rsp)
	movdqa	%xmm0, 112(%rsp)
	movdqa	%xmm0, 304(%rsp)
	movdqa	%xmm0, 320(%rsp)
	movdqa	%xmm0, 272(%rsp)
	movdqa	%xmm0, 288(%rsp)
	movdqa	%xmm0, 240(%rsp)
	movdqa	%xmm0, 256(%rsp)
	movzbl	%bpl, %eax
	leaq	.LJTI81_3(%rip), %r9
	movslq	(%r9,%rax,4), %rax
	addq	%r9, %rax
	jmpq	*%rax
.LBB81_192:
	movb	$1, 16(%rsp)
	movq	$4, 24(%rsp)
	movq	%r11, 32(%rsp)
	movb	$3, 40(%rsp)
.LBB81_193:
	movzbl	16(%rsp), %ecx
	movzbl	24(%rsp), %r14d
	movq	32(%rsp), %rax
	movzbl	40(%rsp), %r12d
	jmp	.LBB81_349
.LBB81_194:
	movq	%rcx, 208(%rsp)
	movq	%r8, 216(%rsp)
	movb	$101, 224(%rsp)
	movl	$0, 225(%rsp)
	movl	$0, 228(%rsp)
	cmpq	$7, %r8
	ja	.LBB81_260
	testq	%r8, %r8
	je	.LBB81_277
	cmpb	$101, (%rcx)
	jne	.LBB81_279
.LBB81_277:
	xorl	%r9d, %r9d
	jmp	.LBB81_294
.LBB81_198:
	movb	$1, %al
	movl	$4, %r9d
	movb	$6, %r10b
	movq	%r11, %rbx
	testb	$1, %r8b
	jne	.LBB81_581
	movb	$8, %r10b
	cmpq	$8, %r8
	jne	.LBB81_581
	movzbl	(%rcx), %r11d
	movb	$7, %r10b
	cmpb	$48, %r11b
	jb	.LBB81_581
	movzbl	1(%rcx), %r8d
	cmpb	$57, %r11b
	ja	.LBB81_299
	movq	%rcx, %r13
	movq	%rsi, %r14
	movq	%rdi, %r15
	addb	$-48, %r11b
.LBB81_203:
	cmpb	$48, %r8b
	jb	.LBB81_580
	cmpb	$57, %r8b
	ja	.LBB81_307
	addb	$-48, %r8b
.LBB81_206:
	movzbl	2(%r13), %r12d
	cmpb	$48, %r12b
	jb	.LBB81_580
	movzbl	3(%r13), %ecx
	cmpb	$58, %r12b
	jae	.LBB81_437
	addb	$-48, %r12b
.LBB81_209:
	cmpb	$48, %cl
	jb	.LBB81_580
	cmpb	$58, %cl
	jae	.LBB81_472
	addb	$-48, %cl
.LBB81_212:
	movzbl	4(%r13), %ebp
	cmpb	$48, %bpl
	jb	.LBB81_580
	movzbl	5(%r13), %esi
	movq	%rsi, 8(%rsp)
	cmpb	$58, %bpl
	jae	.LBB81_523
	addb	$-48, %bpl
.LBB81_215:
	cmpb	$48, 8(%rsp)
	jb	.LBB81_580
	cmpb	$58, 8(%rsp)
	jae	.LBB81_537
	movq	8(%rsp), %rsi
	addb	$-48, %sil
.LBB81_218:
	movq	%rsi, 8(%rsp)
	movzbl	6(%r13), %esi
	movq	%rsi, 56(%rsp)
	cmpb	$48, %sil
	jb	.LBB81_580
	movzbl	7(%r13), %r13d
	cmpb	$58, 56(%rsp)
	jae	.LBB81_547
	movq	56(%rsp), %rsi
	addb	$-48, %sil
	jmp	.LBB81_566
.LBB81_221:
	movq	%rdx, %r15
	movq	%rsi, %r13
	movq	%rdi, %rbp
	leaq	240(%rsp), %rdi
	movq	%rcx, %rsi
	movq	%r8, %rdx
	movq	%r11, %rcx
	callq	"amqp_json::reading::named::bytes_of"
	movq	248(%rsp), %r14
	movq	256(%rsp), %rax
	movzbl	264(%rsp), %r12d
	cmpb	$0, 240(%rsp)
	jne	.LBB81_259
	movzbl	271(%rsp), %ecx
	shll	$16, %ecx
	movzwl	269(%rsp), %edx
	orl	%ecx, %edx
	shlq	$32, %rdx
	movl	265(%rsp), %ebx
	orq	%rdx, %rbx
	leaq	16(%rsp), %rdi
	movq	%r15, %rsi
	movl	$120, %edx
	jmp	.LBB81_272
.LBB81_223:
	movl	$0, 215(%rsp)
	movq	$0, 208(%rsp)
	testb	$1, %r8b
	jne	.LBB81_270
	cmpq	$16, %r8
	jne	.LBB81_275
	movq	%r11, %rbx
	movzbl	(%rcx), %r8d
	cmpb	$48, %r8b
	jb	.LBB81_637
	movzbl	1(%rcx), %eax
	cmpb	$57, %r8b
	ja	.LBB81_302
	addb	$-48, %r8b
.LBB81_228:
	cmpb	$48, %al
	jb	.LBB81_637
	movq	%rcx, %r11
	movq	%rsi, %r14
	movq	%rdi, %r15
	cmpb	$57, %al
	ja	.LBB81_310
	addb	$-48, %al
.LBB81_231:
	movzbl	2(%r11), %r9d
	cmpb	$48, %r9b
	movq	%r15, %rdi
	movq	%r14, %rsi
	jb	.LBB81_637
	movzbl	3(%r11), %ecx
	cmpb	$58, %r9b
	jae	.LBB81_440
	addb	$-48, %r9b
.LBB81_234:
	cmpb	$48, %cl
	movq	%r15, %rdi
	movq	%r14, %rsi
	jb	.LBB81_637
	cmpb	$58, %cl
	jae	.LBB81_475
	addb	$-48, %cl
.LBB81_237:
	movzbl	4(%r11), %r12d
	cmpb	$48, %r12b
	movq	%r15, %rdi
	movq	%r14, %rsi
	jb	.LBB81_637
	movzbl	5(%r11), %r10d
	cmpb	$58, %r12b
	jae	.LBB81_526
	addb	$-48, %r12b
.LBB81_240:
	cmpb	$48, %r10b
	movq	%r15, %rdi
	movq	%r14, %rsi
	jb	.LBB81_637
	cmpb	$58, %r10b
	jae	.LBB81_540
	addb	$-48, %r10b
.LBB81_243:
	movzbl	6(%r11), %ebp
	cmpb	$48, %bpl
	movq	%r15, %rdi
	movq	%r14, %rsi
	jb	.LBB81_637
	movzbl	7(%r11), %esi
	movq	%rsi, 8(%rsp)
	cmpb	$58, %bpl
	jae	.LBB81_550
	addb	$-48, %bpl
.LBB81_246:
	cmpb	$48, 8(%rsp)
	movq	%r15, %rdi
	movq	%r14, %rsi
	jb	.LBB81_637
	cmpb	$58, 8(%rsp)
	jae	.LBB81_561
	movq	8(%rsp), %rsi
	addb	$-48, %sil
.LBB81_249:
	movq	%rsi, 8(%rsp)
	movzbl	8(%r11), %esi
	movq	%rsi, 56(%rsp)
	cmpb	$48, %sil
	movq	%r15, %rdi
	movq	%r14, %rsi
	jb	.LBB81_637
	movzbl	9(%r11), %esi
	movq	%rsi, 80(%rsp)
	cmpb	$58, 56(%rsp)
	jae	.LBB81_574
	movq	56(%rsp), %rsi
	addb	$-48, %sil
.LBB81_252:
	movq	%rsi, 56(%rsp)
	cmpb	$48, 80(%rsp)
	movq	%r15, %rdi
	movq	%r14, %rsi
	jb	.LBB81_637
	cmpb	$58, 80(%rsp)
	jae	.LBB81_584
	movq	80(%rsp), %rsi
	addb	$-48, %sil
.LBB81_255:
	movq	%rsi, 80(%rsp)
	movzbl	10(%r11), %esi
	movq	%rsi, 160(%rsp)
	cmpb	$48, %sil
	movq	%r15, %rdi
	movq	%r14, %rsi
	jb	.LBB81_637
	movzbl	11(%r11), %esi
	movq	%rsi, 144(%rsp)
	cmpb	$58, 160(%rsp)
	jae	.LBB81_589
	movq	160(%rsp), %rsi
	addb	$-48, %sil
	jmp	.LBB81_596
.LBB81_258:
	movq	%rdx, %r15
	movq	%rsi, %r13
	movq	%rdi, %rbp
	leaq	272(%rsp), %rdi
	movq	%rcx, %rsi
	movq	%r8, %rdx
	movq	%r11, %rcx
	callq	"amqp_json::reading::named::bytes_of"
	movq	280(%rsp), %r14
	movq	288(%rsp), %rax
	movzbl	296(%rsp), %r12d
	cmpb	$0, 272(%rsp)
	je	.LBB81_271
.LBB81_259:
	movb	$1, %cl
	movq	%rbp, %rdi
	movq	%r13, %rsi
	jmp	.LBB81_349
.LBB81_260:
	movabsq	$-9187201950435737472, %r14
	movabsq	$9187201950435737471, %r15
	movabsq	$7306357456645743973, %rbx
	movq	(%rcx), %r9
	movq	%r9, %rax
	andq	%r15, %rax
	xorq	%rbx, %rax
	addq	%r15, %rax
	orq	%r9, %rax
	andq	%r14, %rax
	cmpq	%r14, %rax
	jne	.LBB81_274
	movq	%r11, 88(%rsp)
	movq	%rdi, 64(%rsp)
	movl	$8, %eax
	cmpq	$40, %r8
	jb	.LBB81_264
.LBB81_262:
	movdqu	(%rcx,%rax), %xmm0
	movdqu	16(%rcx,%rax), %xmm1
	movq	%r15, %xmm2
	pand	%xmm0, %xmm2
	movdqa	.LCPI81_5(%rip), %xmm3
	pxor	%xmm0, %xmm3
	pxor	.LCPI81_6(%rip), %xmm1
	movq	%rbx, %xmm4
	pxor	%xmm4, %xmm2
	pslldq	$8, %xmm4
	pxor	%xmm0, %xmm4
	movdqa	.LCPI81_7(%rip), %xmm0
	movdqa	%xmm1, %xmm5
	pand	.LCPI81_8(%rip), %xmm3
	pand	%xmm0, %xmm5
	movsd	%xmm2, %xmm3
	paddq	%xmm0, %xmm3
	por	%xmm4, %xmm3
	paddq	%xmm0, %xmm5
	por	%xmm1, %xmm5
	pand	%xmm3, %xmm5
	pshufd	$238, %xmm5, %xmm0
	pand	%xmm5, %xmm0
	movq	%xmm0, %rdi
	notq	%rdi
	testq	%rdi, %r14
	jne	.LBB81_264
	addq	$32, %rax
	leaq	208(%rsp), %rdi
	movq	%r15, %r14
	movq	%rbx, %r15
	movq	%rsi, %rbx
	movq	%rax, %rsi
	movq	%rdx, %rbp
	movq	%r8, %rdx
	movq	%rcx, %r13
	movq	%r8, %r12
	callq	"core::slice::words::skip_far::<#d9bf6fcacf29a880>"
	movq	%r12, %r8
	movq	%r13, %rcx
	movq	%rbp, %rdx
	movq	%rbx, %rsi
	movq	%r15, %rbx
	movq	%r14, %r15
	movabsq	$-9187201950435737472, %r14
	movq	%r12, %rdi
	subq	%rax, %rdi
	cmpq	$31, %rdi
	ja	.LBB81_262
.LBB81_264:
	movq	%r8, %r10
	subq	%rax, %r10
	movq	64(%rsp), %rdi
	movq	88(%rsp), %r11
	jmp	.LBB81_267
.LBB81_265:
	xorq	%r14, %r9
	rep		bsfq	%r9, %r9
	shrl	$3, %r9d
	addq	%rax, %r9
.LBB81_266:
	movq	88(%rsp), %r11
	addq	$8, %rax
	addq	$-8, %r10
	cmpq	%rax, %r9
	jb	.LBB81_294
.LBB81_267:
	cmpq	$9, %r10
	jb	.LBB81_291
	movq	(%rcx,%rax), %r11
	movq	%r11, %r9
	andq	%r15, %r9
	xorq	%rbx, %r9
	addq	%r15, %r9
	orq	%r11, %r9
	andq	%r14, %r9
	cmpq	%r14, %r9
	jne	.LBB81_265
	leaq	8(%rax), %r9
	jmp	.LBB81_266
.LBB81_270:
	movl	$1, 215(%rsp)
	movzbl	215(%rsp), %edx
	movb	$1, %al
	xorl	%ecx, %ecx
	leaq	.LJTI81_4(%rip), %r8
	movslq	(%r8,%rdx,4), %r9
	addq	%r8, %r9
	xorl	%r8d, %r8d
	xorl	%edx, %edx
	jmpq	*%r9
.LBB81_271:
	movzbl	303(%rsp), %ecx
	shll	$16, %ecx
	movzwl	301(%rsp), %edx
	orl	%ecx, %edx
	shlq	$32, %rdx
	movl	297(%rsp), %ebx
	orq	%rdx, %rbx
	leaq	16(%rsp), %rdi
	movq	%r15, %rsi
	movl	$83, %edx
.LBB81_272:
	movq	%r14, %rcx
	movq	%rax, %r8
	callq	"amqp_json::reading::put::put_counted"
	movzbl	%r12b, %eax
	orq	%rbx, %rax
	shlq	$8, %rax
	movq	%rbp, %rdi
	movq	%r13, %rsi
	je	.LBB81_193
	movq	%r14, %rdi
	callq	rattle_dealloc
	movq	%r13, %rsi
	movq	%rbp, %rdi
	jmp	.LBB81_193
.LBB81_274:
	xorq	%r14, %rax
	rep		bsfq	%rax, %r9
	shrl	$3, %r9d
	jmp	.LBB81_294
.LBB81_275:
	movl	$2, 215(%rsp)
	movzbl	215(%rsp), %edx
	movb	$1, %al
	xorl	%ecx, %ecx
	leaq	.LJTI81_4(%rip), %r8
	movslq	(%r8,%rdx,4), %r9
	addq	%r8, %r9
	xorl	%r8d, %r8d
	xorl	%edx, %edx
	jmpq	*%r9
.LBB81_276:
	movl	$4, %edx
	movb	$6, %cl
	jmp	.LBB81_639
.LBB81_278:
	movl	$4, %edx
	movb	$8, %cl
	jmp	.LBB81_639
.LBB81_279:
	cmpq	$1, %r8
	je	.LBB81_292
	movl	$1, %r9d
	cmpb	$101, 1(%rcx)
	je	.LBB81_294
	cmpq	$2, %r8
	je	.LBB81_292
	movl	$2, %r9d
	cmpb	$101, 2(%rcx)
	je	.LBB81_294
	cmpq	$3, %r8
	je	.LBB81_292
	movl	$3, %r9d
	cmpb	$101, 3(%rcx)
	je	.LBB81_294
	cmpq	$4, %r8
	je	.LBB81_292
	movl	$4, %r9d
	cmpb	$101, 4(%rcx)
	je	.LBB81_294
	cmpq	$5, %r8
	je	.LBB81_292
	movl	$5, %r9d
	cmpb	$101, 5(%rcx)
	je	.LBB81_294
	cmpq	$6, %r8
	je	.LBB81_292
	movl	$6, %r9d
	cmpb	$101, 6(%rcx)
	jne	.LBB81_292
	jmp	.LBB81_294
.LBB81_291:
	movq	-8(%rcx,%r8), %r9
	movq	%r9, %rax
	andq	%r15, %rax
	xorq	%rbx, %rax
	addq	%r15, %rax
	orq	%r9, %rax
	andq	%r14, %rax
	cmpq	%r14, %rax
	jne	.LBB81_293
.LBB81_292:
	movb	$9, %bpl
	movl	$4, %r13d
	movb	$1, %r12b
	jmp	.LBB81_337
.LBB81_293:
	leaq	-8(%r8), %r10
	xorq	%r14, %rax
	rep		bsfq	%rax, %r9
	shrl	$3, %r9d
	addq	%r10, %r9
.LBB81_294:
	movb	$9, %bpl
	movl	$4, %r13d
	movb	$1, %r12b
	cmpq	%r8, %r9
	jae	.LBB81_337
	leaq	1(%r9), %rax
	cmpq	%rax, %r8
	je	.LBB81_337
	movq	%r11, %rbx
	leaq	(%rcx,%r9), %rax
	incq	%rax
	movzbl	(%rax), %r11d
	movl	$1, %r10d
	testb	%r11b, %r11b
	jns	.LBB81_314
	movzbl	1(%rax), %r14d
	andl	$63, %r14d
	cmpb	$-33, %r11b
	ja	.LBB81_305
	andl	$31, %r11d
	shll	$6, %r11d
	orl	%r14d, %r11d
	movl	$2, %r10d
	jmp	.LBB81_314
.LBB81_299:
	cmpb	$65, %r11b
	jb	.LBB81_581
	movq	%rcx, %r13
	movq	%rsi, %r14
	movq	%rdi, %r15
	cmpb	$70, %r11b
	ja	.LBB81_338
	addb	$-55, %r11b
	jmp	.LBB81_203
.LBB81_302:
	cmpb	$65, %r8b
	jb	.LBB81_637
	cmpb	$70, %r8b
	ja	.LBB81_340
	addb	$-55, %r8b
	jmp	.LBB81_228
.LBB81_305:
	movzbl	2(%rax), %r15d
	andl	$63, %r15d
	cmpb	$-17, %r11b
	ja	.LBB81_313
	shll	$12, %r11d
	movzwl	%r11w, %r10d
	shll	$6, %r14d
	orl	%r10d, %r14d
	orl	%r15d, %r14d
	movl	$3, %r10d
	movl	%r14d, %r11d
	jmp	.LBB81_314
.LBB81_307:
	cmpb	$65, %r8b
	jb	.LBB81_580
	cmpb	$70, %r8b
	ja	.LBB81_457
	addb	$-55, %r8b
	jmp	.LBB81_206
.LBB81_310:
	cmpb	$65, %al
	movq	%r15, %rdi
	movq	%r14, %rsi
	jb	.LBB81_637
	cmpb	$70, %al
	ja	.LBB81_459
	addb	$-55, %al
	jmp	.LBB81_231
.LBB81_313:
	movzbl	3(%rax), %r10d
	andl	$63, %r10d
	andl	$7, %r11d
	shll	$18, %r11d
	shll	$12, %r14d
	orl	%r11d, %r14d
	shll	$6, %r15d
	orl	%r14d, %r15d
	orl	%r10d, %r15d
	movl	$4, %r10d
	movl	%r15d, %r11d
.LBB81_314:
	cmpl	$45, %r11d
	jne	.LBB81_336
	movq	%r9, %r11
	notq	%r11
	addq	%r8, %r11
	subq	%r10, %r11
	je	.LBB81_336
	movq	%rdx, 72(%rsp)
	movq	%rsi, %r15
	movq	%rdi, %r14
	cmpq	$1, %r11
	jne	.LBB81_320
	movzbl	(%rax,%r10), %eax
	addb	$-48, %al
	cmpb	$10, %al
	jb	.LBB81_323
	jmp	.LBB81_335
.LBB81_320:
	movzbl	(%rax,%r10), %edx
	cmpb	$45, %dl
	jne	.LBB81_322
	movzbl	1(%rax,%r10), %eax
	addb	$-49, %al
	cmpb	$9, %al
	jae	.LBB81_335
	jmp	.LBB81_323
.LBB81_322:
	addb	$-49, %dl
	cmpb	$8, %dl
	ja	.LBB81_335
.LBB81_323:
	leaq	(%r9,%r10), %rax
	incq	%rax
	xorl	%edx, %edx
	movq	%rcx, %rsi
	movq	%r8, %rdi
.LBB81_324:
	movabsq	$1844674407370955161, %r8
	cmpq	%r8, %rdx
	ja	.LBB81_335
	movzbl	(%rsi,%rax), %r8d
	leal	-48(%r8), %r10d
	cmpb	$9, %r10b
	ja	.LBB81_335
	addq	%rdx, %rdx
	leaq	(%rdx,%rdx,4), %r10
	andl	$15, %r8d
	movq	%r8, %rdx
	addq	%r10, %rdx
	jb	.LBB81_335
	incq	%rax
	cmpq	%rax, %rdi
	jne	.LBB81_324
	cmpq	$256, %rdx
	movl	$256, %eax
	cmovbq	%rdx, %rax
	movq	%rax, 8(%rsp)
	jae	.LBB81_335
	movq	%rcx, %rdi
	movq	%r9, %rsi
	callq	"amqp_json::reading::named::unsigned"
	movq	%rdx, 56(%rsp)
	cmpb	$1, %al
	jne	.LBB81_335
	movq	56(%rsp), %rax
	shrq	$32, %rax
	jne	.LBB81_335
	movq	72(%rsp), %rcx
	movq	8(%rcx), %rax
	movq	16(%rcx), %rcx
	cmpq	%rax, %rcx
	je	.LBB81_553
.LBB81_332:
	movq	72(%rsp), %rsi
	movq	(%rsi), %rdx
	movb	$68, (%rdx,%rax)
	incq	%rax
	movq	%rdx, (%rsi)
	movq	%rax, 8(%rsi)
	movq	%rcx, 16(%rsi)
	movq	%rcx, %rsi
	subq	%rax, %rsi
	cmpq	$4, %rsi
	jbe	.LBB81_555
.LBB81_333:
	movq	56(%rsp), %r11
	movl	%r11d, %esi
	shrl	$24, %esi
	movl	%r11d, %edi
	shrl	$16, %edi
	movl	%r11d, %r8d
	shrl	$8, %r8d
	leaq	5(%rax), %r9
	movq	8(%rsp), %r10
	movb	%r10b, (%rdx,%rax)
	movb	%sil, 1(%rdx,%rax)
	movb	%dil, 2(%rdx,%rax)
	movb	%r8b, 3(%rdx,%rax)
	movb	%r11b, 4(%rdx,%rax)
	movq	72(%rsp), %rax
	movq	%rdx, (%rax)
	movq	%r9, 8(%rax)
	movq	%rcx, 16(%rax)
	xorl	%r12d, %r12d
.LBB81_334:
	xorl	%r13d, %r13d
	xorl	%r11d, %r11d
	xorl	%ebp, %ebp
	movq	%r14, %rdi
	movq	%r15, %rsi
	jmp	.LBB81_337
.LBB81_335:
	movq	%r14, %rdi
	movq	%r15, %rsi
.LBB81_336:
	movq	%rbx, %r11
.LBB81_337:
	movb	%r12b, 16(%rsp)
	movq	%r13, 24(%rsp)
	movq	%r11, 32(%rsp)
	movb	%bpl, 40(%rsp)
	jmp	.LBB81_193
.LBB81_338:
	leal	-97(%r11), %ecx
	cmpb	$5, %cl
	ja	.LBB81_580
	addb	$-87, %r11b
	jmp	.LBB81_203
.LBB81_340:
	leal	-97(%r8), %r9d
	cmpb	$5, %r9b
	ja	.LBB81_637
	addb	$-87, %r8b
	jmp	.LBB81_228
.LBB81_342:
	movq	24(%rsi), %rax
.LBB81_343:
	movq	%r13, %rdi
	movq	%r12, %rdx
	movq	%r15, %rcx
	movq	80(%rsp), %r8
	movq	%rbp, %r11
	movzbl	8(%rsp), %ebp
.LBB81_344:
	movq	%rax, 80(%rsi)
	movb	$1, %al
	movb	$4, %r9b
	movb	%al, 104(%rsi)
	pxor	%xmm0, %xmm0
	movdqa	%xmm0, 192(%rsp)
	movdqa	%xmm0, 176(%rsp)
	movb	$2, %r14b
	xorl	%r12d, %r12d
	movzbl	%r9b, %eax
	leaq	.LJTI81_2(%rip), %r9
	movslq	(%r9,%rax,4), %r10
	addq	%r9, %r10
	xorl	%eax, %eax
	jmpq	*%r10
.LBB81_345:
	movq	24(%rsi), %rax
.LBB81_346:
	movq	%r13, %rdi
	movq	%r12, %rdx
	movq	%r15, %rcx
	movq	80(%rsp), %r8
.LBB81_347:
	movq	88(%rsp), %r11
	movq	%rax, 80(%rsi)
	movb	$5, %al
	xorl	%r9d, %r9d
	movb	%r9b, 104(%rsi)
	pxor	%xmm0, %xmm0
	movdqa	%xmm0, 192(%rsp)
	movdqa	%xmm0, 176(%rsp)
	movb	$2, %r14b
	xorl	%r12d, %r12d
	movzbl	%al, %eax
	leaq	.LJTI81_2(%rip), %r9
	movslq	(%r9,%rax,4), %r10
	addq	%r9, %r10
	xorl	%eax, %eax
	jmpq	*%r10
.LBB81_348:
	movzbl	%bpl, %eax
	leaq	176(%rsp), %r9
	movq	%rdi, %r14
	movq	%r9, %rdi
	movq	%rsi, %rbx
	movq	%rdx, %rsi
	movl	%eax, %edx
	movq	%r11, %r9
	callq	"amqp_json::reading::named::put_number"
	movq	%rbx, %rsi
	movq	%r14, %rdi
	movzbl	176(%rsp), %ecx
	movzbl	184(%rsp), %r14d
	movq	192(%rsp), %rax
	movzbl	200(%rsp), %r12d
.LBB81_349:
	testb	%cl, %cl
	je	.LBB81_352
.LBB81_350:
	movzbl	%r14b, %ecx
	movb	$1, (%rdi)
	movq	%rcx, 8(%rdi)
	movq	%rax, 16(%rdi)
	movb	%r12b, 24(%rdi)
.LBB81_351:
	addq	$344, %rsp
	popq	%rbx
	popq	%r12
	popq	%r13
	popq	%r14
	popq	%r15
	popq	%rbp
	retq
.LBB81_352:
	movq	80(%rsi), %rbp
	movzbl	104(%rsi), %ecx
	movq	8(%rsi), %r14
	movq	%r14, %rax
	subq	%rbp, %rax
	jbe	.LBB81_360
	movq	(%rsi), %rbx
	movzbl	(%rbx,%rbp), %r13d
	movl	%r13d, %edx
	andb	$-33, %dl
	cmpb	$93, %dl
	jne	.LBB81_358
	leal	-1(%rcx), %eax
	cmpb	$1, %al
	ja	.LBB81_372
	pxor	%xmm0, %xmm0
	movdqa	%xmm0, 16(%rsp)
	movdqa	%xmm0, 32(%rsp)
	movq	40(%rsi), %rax
	leaq	1(%rax), %rcx
	movq	%rcx, 40(%rsi)
	leaq	48(%rsi), %rbx
	cmpq	56(%rsi), %rcx
	jne	.LBB81_362
	movq	%rdi, %r14
	movq	16(%rsi), %rax
	movq	24(%rsi), %rdx
	movq	32(%rsi), %rcx
	movq	64(%rsi), %r8
	movzbl	74(%rsi), %edi
	movb	%dil, 98(%rsp)
	movzwl	72(%rsi), %edi
	movw	%di, 96(%rsp)
	leaq	16(%rsp), %rdi
	leaq	96(%rsp), %r9
	movq	%rsi, %r15
	movq	%rax, %rsi
	callq	"json::index::refill"
	movq	%r15, %rsi
	movdqa	16(%rsp), %xmm0
	movdqa	32(%rsp), %xmm1
	movdqu	%xmm1, 16(%rbx)
	movdqu	%xmm0, (%rbx)
	movq	$0, 40(%r15)
	movq	32(%r15), %rcx
	movl	$1, %eax
	cmpq	$0, 24(%rsp)
	je	.LBB81_374
	movl	(%rcx), %edx
	addq	16(%rsp), %rdx
	jmp	.LBB81_375
.LBB81_358:
	cmpl	$32, %r13d
	ja	.LBB81_363
	movl	%r13d, %edx
	movabsq	$4294977024, %r8
	btq	%rdx, %r8
	jae	.LBB81_363
.LBB81_360:
	xorl	%edx, %edx
	movl	%ecx, %r8d
	subb	$3, %r8b
	setne	%dl
	leal	-4(%rcx), %r9d
	xorl	%eax, %eax
	cmpb	$-2, %r8b
	leal	(%rdx,%rdx,8), %r15d
	cmovael	%eax, %r15d
	movzbl	%cl, %ecx
	movl	$3, %edx
	cmovael	%ecx, %edx
	movb	%dl, 104(%rsi)
	cmpb	$-3, %r9b
	jb	.LBB81_387
.LBB81_361:
	movl	$2, %ecx
	movb	$1, %dl
	jmp	.LBB81_389
.LBB81_362:
	movq	32(%rsi), %rcx
	movl	4(%rcx,%rax,4), %edx
	addq	48(%rsi), %rdx
	addq	$2, %rax
	jmp	.LBB81_376
.LBB81_363:
	cmpb	$2, %cl
	jae	.LBB81_372
	movb	$3, %r12b
	movb	$9, %r15b
	leal	-34(%r13), %ecx
	cmpl	$89, %ecx
	ja	.LBB81_405
	leaq	.LJTI81_5(%rip), %rdx
	movslq	(%rdx,%rcx,4), %rcx
	addq	%rdx, %rcx
	jmpq	*%rcx
.LBB81_366:
	movq	%rsi, 48(%rsp)
	movq	%rdi, 64(%rsp)
	leaq	1(%rbp), %rdx
	movq	%r14, %rax
	subq	%rdx, %rax
	cmpq	$32, %rax
	jb	.LBB81_371
	movq	%rbp, %rdx
	notq	%rdx
	leaq	1(%rbp), %rax
	addq	%rbx, %rax
.LBB81_368:
	movdqu	(%rax), %xmm0
	movdqu	16(%rax), %xmm1
	movdqa	.LCPI81_0(%rip), %xmm2
	movdqa	%xmm1, %xmm3
	movdqa	.LCPI81_2(%rip), %xmm4
	movdqa	%xmm0, %xmm5
	pminub	%xmm4, %xmm5
	pminub	%xmm1, %xmm4
	pcmpeqb	%xmm1, %xmm4
	pcmpeqb	%xmm2, %xmm1
	movdqa	.LCPI81_1(%rip), %xmm6
	pcmpeqb	%xmm6, %xmm3
	por	%xmm1, %xmm3
	pcmpeqb	%xmm0, %xmm2
	pcmpeqb	%xmm0, %xmm6
	por	%xmm2, %xmm6
	pcmpeqb	%xmm0, %xmm5
	por	%xmm6, %xmm5
	por	%xmm3, %xmm4
	pmovmskb	%xmm5, %esi
	pmovmskb	%xmm4, %ecx
	shll	$16, %ecx
	orl	%esi, %ecx
	jne	.LBB81_425
	addq	$32, %rax
	leaq	(%r14,%rdx), %rcx
	addq	$-32, %rcx
	addq	$-32, %rdx
	cmpq	$31, %rcx
	ja	.LBB81_368
	negq	%rdx
.LBB81_371:
	movq	%rbx, %rdi
	movq	%r14, %rsi
	callq	"json::run::plain_end_16"
	jmp	.LBB81_426
.LBB81_372:
	movb	$3, 104(%rsi)
	movb	$9, %r15b
	cmpb	$3, %cl
	jne	.LBB81_387
	xorl	%eax, %eax
	jmp	.LBB81_361
.LBB81_374:
	movq	24(%rsi), %rdx
.LBB81_375:
	movq	%r14, %rdi
.LBB81_376:
	movq	%rdx, 80(%rsi)
	movb	$2, %r12b
	cmpq	8(%rsi), %rdx
	jae	.LBB81_385
	movq	(%rsi), %r8
	cmpb	$44, (%r8,%rdx)
	jne	.LBB81_385
	pxor	%xmm0, %xmm0
	movdqa	%xmm0, 16(%rsp)
	movdqa	%xmm0, 32(%rsp)
	movq	%rax, 40(%rsi)
	cmpq	56(%rsi), %rax
	jne	.LBB81_381
	movq	%rdi, %r14
	movq	16(%rsi), %rax
	movq	24(%rsi), %rdx
	movq	64(%rsi), %r8
	movzbl	74(%rsi), %edi
	movb	%dil, 98(%rsp)
	movzwl	72(%rsi), %edi
	movw	%di, 96(%rsp)
	leaq	16(%rsp), %rdi
	leaq	96(%rsp), %r9
	movq	%rsi, %r15
	movq	%rax, %rsi
	callq	"json::index::refill"
	movq	%r15, %rsi
	movdqa	16(%rsp), %xmm0
	movdqa	32(%rsp), %xmm1
	movdqu	%xmm1, 16(%rbx)
	movdqu	%xmm0, (%rbx)
	movq	$0, 40(%r15)
	cmpq	$0, 24(%rsp)
	je	.LBB81_382
	movq	32(%rsi), %rax
	movl	(%rax), %eax
	addq	16(%rsp), %rax
	jmp	.LBB81_383
.LBB81_381:
	movl	(%rcx,%rax,4), %eax
	addq	(%rbx), %rax
	jmp	.LBB81_384
.LBB81_382:
	movq	24(%rsi), %rax
.LBB81_383:
	movq	%r14, %rdi
.LBB81_384:
	movq	%rax, 80(%rsi)
	xorl	%r12d, %r12d
.LBB81_385:
	cmpl	$125, %r13d
	setne	%r15b
	addb	%r15b, %r15b
	incb	%r15b
.LBB81_386:
	movb	%r12b, 104(%rsi)
.LBB81_387:
	movzbl	%r15b, %r8d
	xorl	%ecx, %ecx
	xorl	%edx, %edx
	movl	$1005, %eax
	btl	%r8d, %eax
	jae	.LBB81_391
	movb	$3, 104(%rsi)
	movl	$2, %ecx
	movb	$1, %dl
	xorl	%eax, %eax
.LBB81_389:
	xorl	%esi, %esi
.LBB81_390:
	movb	%dl, (%rdi)
	movq	%rcx, 8(%rdi)
	movq	%rax, 16(%rdi)
	movb	%sil, 24(%rdi)
	jmp	.LBB81_351
.LBB81_391:
	movl	$0, %eax
	movl	$0, %esi
	cmpl	$1, %r8d
	je	.LBB81_390
	movl	$4, %ecx
	movb	$1, %dl
	movq	%rbp, %rax
	movb	$1, %sil
	jmp	.LBB81_390
.LBB81_393:
	movb	$32, %cl
	cmpq	$5, %rax
	jb	.LBB81_398
	cmpl	$1702063201, 1(%rbx,%rbp)
	sete	%dl
	cmpq	$5, %rax
	je	.LBB81_421
	movzbl	5(%rbx,%rbp), %ecx
	jmp	.LBB81_421
.LBB81_395:
	movb	$32, %cl
	cmpq	$4, %rax
	jae	.LBB81_415
	xorl	%edx, %edx
	jmp	.LBB81_417
.LBB81_397:
	movb	$32, %cl
	cmpq	$4, %rax
	jae	.LBB81_419
.LBB81_398:
	xorl	%edx, %edx
.LBB81_421:
	movl	%ecx, %eax
	andb	$-33, %al
	addb	$-91, %al
	testb	$-3, %al
	sete	%r9b
	cmpb	$58, %cl
	sete	%r10b
	cmpb	$44, %cl
	sete	%al
	cmpb	$32, %cl
	sete	%r8b
	leal	-9(%rcx), %r11d
	cmpb	$2, %r11b
	setb	%r11b
	cmpb	$13, %cl
	sete	%cl
	testb	%dl, %dl
	je	.LBB81_386
	orb	%r10b, %al
	orb	%r9b, %al
	orb	%cl, %r8b
	orb	%r11b, %r8b
	orb	%al, %r8b
	movb	$7, %r13b
	jne	.LBB81_505
	jmp	.LBB81_386
.LBB81_399:
	movq	%rdi, %rbx
	pxor	%xmm0, %xmm0
	movdqa	%xmm0, 16(%rsp)
	movdqa	%xmm0, 32(%rsp)
	movq	40(%rsi), %rax
	leaq	1(%rax), %rcx
	movq	%rcx, 40(%rsi)
	movq	%rsi, %r14
	cmpq	56(%rsi), %rcx
	jne	.LBB81_423
	leaq	48(%r14), %r12
	movq	16(%r14), %rsi
	movq	24(%r14), %rdx
	movq	32(%r14), %rcx
	movq	64(%r14), %r8
	movzbl	74(%r14), %eax
	movb	%al, 98(%rsp)
	movzwl	72(%r14), %eax
	movw	%ax, 96(%rsp)
	leaq	16(%rsp), %rdi
	leaq	96(%rsp), %r9
	callq	"json::index::refill"
	movdqa	16(%rsp), %xmm0
	movdqa	32(%rsp), %xmm1
	movdqu	%xmm1, 16(%r12)
	movdqu	%xmm0, (%r12)
	movq	$0, 40(%r14)
	cmpq	$0, 24(%rsp)
	je	.LBB81_453
	movq	32(%r14), %rax
	movl	(%rax), %eax
	addq	16(%rsp), %rax
	jmp	.LBB81_454
.LBB81_402:
	movq	%rdi, %rbx
	pxor	%xmm0, %xmm0
	movdqa	%xmm0, 16(%rsp)
	movdqa	%xmm0, 32(%rsp)
	movq	40(%rsi), %rax
	leaq	1(%rax), %rcx
	movq	%rcx, 40(%rsi)
	movq	%rsi, %r14
	cmpq	56(%rsi), %rcx
	jne	.LBB81_424
	leaq	48(%r14), %r12
	movq	16(%r14), %rsi
	movq	24(%r14), %rdx
	movq	32(%r14), %rcx
	movq	64(%r14), %r8
	movzbl	74(%r14), %eax
	movb	%al, 98(%rsp)
	movzwl	72(%r14), %eax
	movw	%ax, 96(%rsp)
	leaq	16(%rsp), %rdi
	leaq	96(%rsp), %r9
	callq	"json::index::refill"
	movdqa	16(%rsp), %xmm0
	movdqa	32(%rsp), %xmm1
	movdqu	%xmm1, 16(%r12)
	movdqu	%xmm0, (%r12)
	movq	$0, 40(%r14)
	cmpq	$0, 24(%rsp)
	je	.LBB81_455
	movq	32(%r14), %rax
	movl	(%rax), %eax
	addq	16(%rsp), %rax
	jmp	.LBB81_456
.LBB81_405:
	movq	%rsi, 48(%rsp)
	movq	%rdi, 64(%rsp)
	xorl	%ecx, %ecx
	cmpl	$45, %r13d
	sete	%cl
	leaq	(%rcx,%rbp), %r13
	movq	%r14, %rsi
	subq	%r13, %rsi
	jbe	.LBB81_408
	cmpb	$48, (%rbx,%r13)
	jne	.LBB81_408
	incq	%r13
	movq	%r13, %rax
	jmp	.LBB81_445
.LBB81_408:
	movq	%r13, %rdx
	cmpq	$16, %rsi
	jb	.LBB81_412
	subq	%rcx, %rax
	movq	%r13, %rdx
.LBB81_410:
	movdqu	(%rbx,%rdx), %xmm0
	paddb	.LCPI81_3(%rip), %xmm0
	movdqa	.LCPI81_4(%rip), %xmm1
	pminub	%xmm0, %xmm1
	pcmpeqb	%xmm0, %xmm1
	pmovmskb	%xmm1, %ecx
	testl	%ecx, %ecx
	jne	.LBB81_443
	addq	$16, %rdx
	addq	$-16, %rax
	cmpq	$15, %rax
	ja	.LBB81_410
.LBB81_412:
	movq	%rbx, %rdi
	movq	%r14, %rsi
	callq	"json::run::digits_end_slowly"
	movq	%rax, %rcx
	jmp	.LBB81_444
.LBB81_415:
	movzbl	3(%rbx,%rbp), %edx
	xorb	$108, %dl
	movzbl	1(%rbx,%rbp), %r8d
	movzbl	2(%rbx,%rbp), %r9d
	xorb	$108, %r9b
	orb	%dl, %r9b
	xorb	$117, %r8b
	orb	%r9b, %r8b
	sete	%dl
	cmpq	$4, %rax
	je	.LBB81_417
	movzbl	4(%rbx,%rbp), %ecx
.LBB81_417:
	movl	%ecx, %eax
	andb	$-33, %al
	addb	$-91, %al
	testb	$-3, %al
	sete	%r9b
	cmpb	$58, %cl
	sete	%r10b
	cmpb	$44, %cl
	sete	%al
	cmpb	$32, %cl
	sete	%r8b
	leal	-9(%rcx), %r11d
	cmpb	$2, %r11b
	setb	%r11b
	cmpb	$13, %cl
	sete	%cl
	testb	%dl, %dl
	je	.LBB81_386
	orb	%r10b, %al
	orb	%r9b, %al
	orb	%cl, %r8b
	orb	%r11b, %r8b
	orb	%al, %r8b
	movb	$8, %r13b
	jne	.LBB81_505
	jmp	.LBB81_386
.LBB81_419:
	movzbl	3(%rbx,%rbp), %edx
	xorb	$101, %dl
	movzbl	1(%rbx,%rbp), %r8d
	movzbl	2(%rbx,%rbp), %r9d
	xorb	$117, %r9b
	orb	%dl, %r9b
	xorb	$114, %r8b
	orb	%r9b, %r8b
	sete	%dl
	cmpq	$4, %rax
	je	.LBB81_421
	movzbl	4(%rbx,%rbp), %ecx
	jmp	.LBB81_421
.LBB81_423:
	movq	32(%r14), %rdx
	movl	4(%rdx,%rax,4), %eax
	addq	48(%r14), %rax
	jmp	.LBB81_454
.LBB81_424:
	movq	32(%r14), %rdx
	movl	4(%rdx,%rax,4), %eax
	addq	48(%r14), %rax
	jmp	.LBB81_456
.LBB81_425:
	rep		bsfl	%ecx, %eax
	subq	%rdx, %rax
.LBB81_426:
	cmpq	%r14, %rax
	jae	.LBB81_429
	cmpb	$34, (%rbx,%rax)
	jne	.LBB81_429
	pxor	%xmm0, %xmm0
	movdqa	%xmm0, 16(%rsp)
	movdqa	%xmm0, 32(%rsp)
	movq	48(%rsp), %rcx
	jmp	.LBB81_431
.LBB81_429:
	movq	48(%rsp), %rax
	movq	88(%rax), %r13
	movq	96(%rax), %r8
	leaq	135(%rsp), %rcx
	movq	%rcx, 88(%rax)
	movq	$0, 96(%rax)
	movq	%rbx, %rdi
	movq	%r14, %rsi
	leaq	1(%rbp), %rdx
	movq	%r13, %rcx
	movq	%r8, %rbx
	callq	"json::unescape::unescape"
	cmpb	$1, %al
	jne	.LBB81_434
	addq	%rdx, %r13
	subq	%rdx, %rbx
	movq	48(%rsp), %rcx
	movq	%r13, 88(%rcx)
	movq	%rbx, 96(%rcx)
	pxor	%xmm0, %xmm0
	movdqa	%xmm0, 16(%rsp)
	movdqa	%xmm0, 32(%rsp)
.LBB81_431:
	movq	40(%rcx), %rdx
	leaq	1(%rdx), %rax
	movq	%rax, 40(%rcx)
	cmpq	56(%rcx), %rax
	jne	.LBB81_435
	movq	48(%rsp), %rbx
	leaq	48(%rbx), %r14
	movq	16(%rbx), %rsi
	movq	24(%rbx), %rdx
	movq	32(%rbx), %rcx
	movq	64(%rbx), %r8
	movzbl	74(%rbx), %eax
	movb	%al, 98(%rsp)
	movzwl	72(%rbx), %eax
	movw	%ax, 96(%rsp)
	leaq	16(%rsp), %rdi
	leaq	96(%rsp), %r9
	callq	"json::index::refill"
	movdqa	16(%rsp), %xmm0
	movdqa	32(%rsp), %xmm1
	movdqu	%xmm1, 16(%r14)
	movdqu	%xmm0, (%r14)
	movq	$0, 40(%rbx)
	movq	32(%rbx), %rcx
	cmpq	$0, 24(%rsp)
	je	.LBB81_461
	movl	(%rcx), %edx
	addq	16(%rsp), %rdx
	jmp	.LBB81_462
.LBB81_434:
	movq	48(%rsp), %rsi
	movq	%r13, 88(%rsi)
	movq	%rbx, 96(%rsi)
	movq	64(%rsp), %rdi
	jmp	.LBB81_386
.LBB81_435:
	movq	48(%rsp), %rsi
	movq	32(%rsi), %rcx
	movl	4(%rcx,%rdx,4), %edx
	addq	48(%rsi), %rdx
	jmp	.LBB81_463
.LBB81_437:
	cmpb	$65, %r12b
	jb	.LBB81_580
	cmpb	$71, %r12b
	jae	.LBB81_478
	addb	$-55, %r12b
	jmp	.LBB81_209
.LBB81_440:
	cmpb	$65, %r9b
	movq	%r15, %rdi
	movq	%r14, %rsi
	jb	.LBB81_637
	cmpb	$71, %r9b
	jae	.LBB81_480
	addb	$-55, %r9b
	jmp	.LBB81_234
.LBB81_443:
	rep		bsfl	%ecx, %ecx
	addq	%rdx, %rcx
.LBB81_444:
	xorl	%eax, %eax
	cmpq	%r13, %rcx
	cmovneq	%rcx, %rax
	je	.LBB81_500
.LBB81_445:
	cmpq	%r14, %rax
	jae	.LBB81_486
	cmpb	$46, (%rbx,%rax)
	jne	.LBB81_486
	leaq	1(%rax), %r13
	movq	%r14, %rcx
	subq	%r13, %rcx
	movq	%r13, %rdx
	cmpq	$16, %rcx
	jb	.LBB81_452
	notq	%rax
	leaq	(%rbx,%r13), %rcx
.LBB81_449:
	movdqu	(%rcx), %xmm0
	paddb	.LCPI81_3(%rip), %xmm0
	movdqa	.LCPI81_4(%rip), %xmm1
	pminub	%xmm0, %xmm1
	pcmpeqb	%xmm0, %xmm1
	pmovmskb	%xmm1, %edx
	testl	%edx, %edx
	jne	.LBB81_484
	addq	$16, %rcx
	leaq	(%r14,%rax), %rdx
	addq	$-16, %rdx
	addq	$-16, %rax
	cmpq	$15, %rdx
	ja	.LBB81_449
	negq	%rax
	movq	%rax, %rdx
.LBB81_452:
	movq	%rbx, %rdi
	movq	%r14, %rsi
	callq	"json::run::digits_end_slowly"
	movq	%rax, %rcx
	jmp	.LBB81_485
.LBB81_453:
	movq	24(%r14), %rax
.LBB81_454:
	movq	%r14, %rsi
	movq	%rax, 80(%r14)
	movb	$1, %r12b
	movb	$2, %r15b
	jmp	.LBB81_522
.LBB81_455:
	movq	24(%r14), %rax
.LBB81_456:
	movq	%r14, %rsi
	movq	%rax, 80(%r14)
	movb	$1, %r12b
	xorl	%r15d, %r15d
	jmp	.LBB81_522
.LBB81_457:
	leal	-97(%r8), %ecx
	cmpb	$5, %cl
	ja	.LBB81_580
	addb	$-87, %r8b
	jmp	.LBB81_206
.LBB81_459:
	leal	-97(%rax), %ecx
	cmpb	$5, %cl
	movq	%r15, %rdi
	movq	%r14, %rsi
	ja	.LBB81_637
	addb	$-87, %al
	jmp	.LBB81_231
.LBB81_461:
	movq	48(%rsp), %rax
	movq	24(%rax), %rdx
.LBB81_462:
	xorl	%eax, %eax
.LBB81_463:
	movq	48(%rsp), %rsi
	movq	%rdx, 80(%rsi)
	movb	$2, %r12b
	movb	$5, %r15b
	movq	48(%rsp), %rsi
	cmpq	8(%rsi), %rdx
	jae	.LBB81_500
	movq	48(%rsp), %rsi
	movq	(%rsi), %rsi
	movzbl	(%rsi,%rdx), %edx
	cmpl	$44, %edx
	je	.LBB81_469
	cmpl	$58, %edx
	movq	64(%rsp), %rdi
	movq	48(%rsp), %rsi
	jne	.LBB81_386
	pxor	%xmm0, %xmm0
	movdqa	%xmm0, 16(%rsp)
	movdqa	%xmm0, 32(%rsp)
	leaq	1(%rax), %rdx
	movq	%rdx, 40(%rsi)
	leaq	48(%rsi), %rbx
	cmpq	56(%rsi), %rdx
	jne	.LBB81_482
	movq	48(%rsp), %r14
	movq	16(%r14), %rsi
	movq	24(%r14), %rdx
	movq	64(%r14), %r8
	movzbl	74(%r14), %eax
	movb	%al, 98(%rsp)
	movzwl	72(%r14), %eax
	movw	%ax, 96(%rsp)
	leaq	16(%rsp), %rdi
	leaq	96(%rsp), %r9
	callq	"json::index::refill"
	movdqa	16(%rsp), %xmm0
	movdqa	32(%rsp), %xmm1
	movdqu	%xmm1, 16(%rbx)
	movdqu	%xmm0, (%rbx)
	movq	$0, 40(%r14)
	cmpq	$0, 24(%rsp)
	je	.LBB81_529
	movq	48(%rsp), %rax
	movq	32(%rax), %rax
	movl	(%rax), %eax
	addq	16(%rsp), %rax
	jmp	.LBB81_530
.LBB81_469:
	pxor	%xmm0, %xmm0
	movdqa	%xmm0, 16(%rsp)
	movdqa	%xmm0, 32(%rsp)
	leaq	1(%rax), %rdx
	movq	48(%rsp), %rsi
	movq	%rdx, 40(%rsi)
	leaq	48(%rsi), %rbx
	cmpq	56(%rsi), %rdx
	jne	.LBB81_483
	movq	48(%rsp), %r14
	movq	16(%r14), %rsi
	movq	24(%r14), %rdx
	movq	64(%r14), %r8
	movzbl	74(%r14), %eax
	movb	%al, 98(%rsp)
	movzwl	72(%r14), %eax
	movw	%ax, 96(%rsp)
	leaq	16(%rsp), %rdi
	leaq	96(%rsp), %r9
	callq	"json::index::refill"
	movdqa	16(%rsp), %xmm0
	movdqa	32(%rsp), %xmm1
	movdqu	%xmm1, 16(%rbx)
	movdqu	%xmm0, (%rbx)
	movq	$0, 40(%r14)
	cmpq	$0, 24(%rsp)
	je	.LBB81_531
	movq	48(%rsp), %rax
	movq	32(%rax), %rax
	movl	(%rax), %eax
	addq	16(%rsp), %rax
	jmp	.LBB81_532
.LBB81_472:
	cmpb	$65, %cl
	jb	.LBB81_580
	cmpb	$71, %cl
	jae	.LBB81_533
	addb	$-55, %cl
	jmp	.LBB81_212
.LBB81_475:
	cmpb	$65, %cl
	movq	%r15, %rdi
	movq	%r14, %rsi
	jb	.LBB81_637
	cmpb	$71, %cl
	jae	.LBB81_535
	addb	$-55, %cl
	jmp	.LBB81_237
.LBB81_478:
	leal	-97(%r12), %esi
	cmpb	$5, %sil
	ja	.LBB81_580
	addb	$-87, %r12b
	jmp	.LBB81_209
.LBB81_480:
	leal	-97(%r9), %esi
	cmpb	$5, %sil
	movq	%r15, %rdi
	movq	%r14, %rsi
	ja	.LBB81_637
	addb	$-87, %r9b
	jmp	.LBB81_234
.LBB81_482:
	movl	4(%rcx,%rax,4), %eax
	addq	(%rbx), %rax
	jmp	.LBB81_530
.LBB81_483:
	movl	4(%rcx,%rax,4), %eax
	addq	(%rbx), %rax
	jmp	.LBB81_532
.LBB81_484:
	rep		bsfl	%edx, %ecx
	subq	%rax, %rcx
.LBB81_485:
	xorl	%eax, %eax
	cmpq	%r13, %rcx
	cmovneq	%rcx, %rax
	je	.LBB81_500
.LBB81_486:
	cmpq	%r14, %rax
	jae	.LBB81_501
	movzbl	(%rbx,%rax), %ecx
	andb	$-33, %cl
	cmpb	$69, %cl
	jne	.LBB81_501
	leaq	1(%rax), %r13
	cmpq	%r14, %r13
	jae	.LBB81_492
	movzbl	(%rbx,%r13), %ecx
	cmpl	$45, %ecx
	je	.LBB81_491
	cmpl	$43, %ecx
	jne	.LBB81_492
.LBB81_491:
	addq	$2, %rax
	movq	%rax, %r13
.LBB81_492:
	movq	%r14, %rax
	subq	%r13, %rax
	movq	%r13, %rdx
	cmpq	$16, %rax
	jb	.LBB81_497
	movq	%r13, %rdx
	negq	%rdx
	leaq	(%rbx,%r13), %rax
.LBB81_494:
	movdqu	(%rax), %xmm0
	paddb	.LCPI81_3(%rip), %xmm0
	movdqa	.LCPI81_4(%rip), %xmm1
	pminub	%xmm0, %xmm1
	pcmpeqb	%xmm0, %xmm1
	pmovmskb	%xmm1, %ecx
	testl	%ecx, %ecx
	jne	.LBB81_498
	addq	$16, %rax
	leaq	(%r14,%rdx), %rcx
	addq	$-16, %rcx
	addq	$-16, %rdx
	cmpq	$15, %rcx
	ja	.LBB81_494
	negq	%rdx
.LBB81_497:
	movq	%rbx, %rdi
	movq	%r14, %rsi
	callq	"json::run::digits_end_slowly"
	jmp	.LBB81_499
.LBB81_498:
	rep		bsfl	%ecx, %eax
	subq	%rdx, %rax
.LBB81_499:
	cmpq	%r13, %rax
	jne	.LBB81_501
.LBB81_500:
	movq	64(%rsp), %rdi
	movq	48(%rsp), %rsi
	jmp	.LBB81_386
.LBB81_501:
	movb	$6, %r13b
	cmpq	%r14, %rax
	jae	.LBB81_504
	movzbl	(%rbx,%rax), %eax
	cmpq	$58, %rax
	ja	.LBB81_517
	movabsq	$288247972632733184, %rcx
	btq	%rax, %rcx
	jae	.LBB81_517
.LBB81_504:
	movq	64(%rsp), %rdi
	movq	48(%rsp), %rsi
.LBB81_505:
	movq	%rdi, %rbx
	pxor	%xmm0, %xmm0
	movdqa	%xmm0, 16(%rsp)
	movdqa	%xmm0, 32(%rsp)
	movq	40(%rsi), %rax
	leaq	1(%rax), %rcx
	movq	%rcx, 40(%rsi)
	leaq	48(%rsi), %r15
	cmpq	56(%rsi), %rcx
	jne	.LBB81_508
	movq	16(%rsi), %rax
	movq	24(%rsi), %rdx
	movq	32(%rsi), %rcx
	movq	64(%rsi), %r8
	movzbl	74(%rsi), %edi
	movb	%dil, 98(%rsp)
	movzwl	72(%rsi), %edi
	movw	%di, 96(%rsp)
	leaq	16(%rsp), %rdi
	leaq	96(%rsp), %r9
	movq	%rsi, %r14
	movq	%rax, %rsi
	callq	"json::index::refill"
	movdqa	16(%rsp), %xmm0
	movdqa	32(%rsp), %xmm1
	movdqu	%xmm1, 16(%r15)
	movdqu	%xmm0, (%r15)
	movq	$0, 40(%r14)
	movq	%r14, %rsi
	movq	32(%r14), %rcx
	movl	$1, %eax
	cmpq	$0, 24(%rsp)
	je	.LBB81_509
	movl	(%rcx), %edx
	addq	16(%rsp), %rdx
	jmp	.LBB81_510
.LBB81_508:
	movq	32(%rsi), %rcx
	movl	4(%rcx,%rax,4), %edx
	addq	48(%rsi), %rdx
	addq	$2, %rax
	jmp	.LBB81_510
.LBB81_509:
	movq	24(%rsi), %rdx
.LBB81_510:
	movq	%rdx, 80(%rsi)
	movb	$2, %r12b
	cmpq	8(%rsi), %rdx
	jae	.LBB81_521
	movq	%rsi, %r14
	movq	(%rsi), %rsi
	cmpb	$44, (%rsi,%rdx)
	jne	.LBB81_515
	pxor	%xmm0, %xmm0
	movdqa	%xmm0, 16(%rsp)
	movdqa	%xmm0, 32(%rsp)
	movq	%rax, 40(%r14)
	cmpq	56(%r14), %rax
	jne	.LBB81_516
	movq	16(%r14), %rsi
	movq	24(%r14), %rdx
	movq	64(%r14), %r8
	movzbl	74(%r14), %eax
	movb	%al, 98(%rsp)
	movzwl	72(%r14), %eax
	movw	%ax, 96(%rsp)
	leaq	16(%rsp), %rdi
	leaq	96(%rsp), %r9
	callq	"json::index::refill"
	movdqa	16(%rsp), %xmm0
	movdqa	32(%rsp), %xmm1
	movdqu	%xmm1, 16(%r15)
	movdqu	%xmm0, (%r15)
	movq	$0, 40(%r14)
	cmpq	$0, 24(%rsp)
	je	.LBB81_519
	movq	32(%r14), %rax
	movl	(%rax), %eax
	addq	16(%rsp), %rax
	jmp	.LBB81_520
.LBB81_515:
	movl	%r13d, %r15d
	movq	%rbx, %rdi
	movq	%r14, %rsi
	jmp	.LBB81_386
.LBB81_516:
	movl	(%rcx,%rax,4), %eax
	addq	(%r15), %rax
	jmp	.LBB81_520
.LBB81_517:
	addl	$-91, %eax
	cmpl	$34, %eax
	ja	.LBB81_500
	movabsq	$21474836485, %rcx
	btq	%rax, %rcx
	movq	64(%rsp), %rdi
	movq	48(%rsp), %rsi
	jb	.LBB81_505
	jmp	.LBB81_386
.LBB81_519:
	movq	24(%r14), %rax
.LBB81_520:
	movq	%r14, %rsi
	movq	%rax, 80(%r14)
	xorl	%r12d, %r12d
.LBB81_521:
	movl	%r13d, %r15d
.LBB81_522:
	movq	%rbx, %rdi
	jmp	.LBB81_386
.LBB81_523:
	cmpb	$65, %bpl
	jb	.LBB81_580
	cmpb	$71, %bpl
	jae	.LBB81_543
	addb	$-55, %bpl
	jmp	.LBB81_215
.LBB81_526:
	cmpb	$65, %r12b
	movq	%r15, %rdi
	movq	%r14, %rsi
	jb	.LBB81_637
	cmpb	$71, %r12b
	jae	.LBB81_545
	addb	$-55, %r12b
	jmp	.LBB81_240
.LBB81_529:
	movq	48(%rsp), %rax
	movq	24(%rax), %rax
.LBB81_530:
	movq	48(%rsp), %rsi
	movq	%rax, 80(%rsi)
	movb	$1, %r12b
	movb	$4, %r15b
	movq	64(%rsp), %rdi
	jmp	.LBB81_386
.LBB81_531:
	movq	48(%rsp), %rax
	movq	24(%rax), %rax
.LBB81_532:
	movq	48(%rsp), %rsi
	movq	%rax, 80(%rsi)
	xorl	%r12d, %r12d
	movq	64(%rsp), %rdi
	jmp	.LBB81_386
.LBB81_533:
	leal	-97(%rcx), %esi
	cmpb	$5, %sil
	ja	.LBB81_580
	addb	$-87, %cl
	jmp	.LBB81_212
.LBB81_535:
	leal	-97(%rcx), %esi
	cmpb	$5, %sil
	movq	%r15, %rdi
	movq	%r14, %rsi
	ja	.LBB81_637
	addb	$-87, %cl
	jmp	.LBB81_237
.LBB81_537:
	cmpb	$65, 8(%rsp)
	jb	.LBB81_580
	cmpb	$71, 8(%rsp)
	jae	.LBB81_557
	movq	8(%rsp), %rsi
	addb	$-55, %sil
	jmp	.LBB81_218
.LBB81_540:
	cmpb	$65, %r10b
	movq	%r15, %rdi
	movq	%r14, %rsi
	jb	.LBB81_637
	cmpb	$71, %r10b
	jae	.LBB81_559
	addb	$-55, %r10b
	jmp	.LBB81_243
.LBB81_543:
	leal	-97(%rbp), %esi
	cmpb	$5, %sil
	ja	.LBB81_580
	addb	$-87, %bpl
	jmp	.LBB81_215
.LBB81_545:
	leal	-97(%r12), %esi
	cmpb	$5, %sil
	movq	%r15, %rdi
	movq	%r14, %rsi
	ja	.LBB81_637
	addb	$-87, %r12b
	jmp	.LBB81_240
.LBB81_547:
	cmpb	$65, 56(%rsp)
	jb	.LBB81_580
	cmpb	$71, 56(%rsp)
	jae	.LBB81_564
	movq	56(%rsp), %rsi
	addb	$-55, %sil
	jmp	.LBB81_566
.LBB81_550:
	cmpb	$65, %bpl
	movq	%r15, %rdi
	movq	%r14, %rsi
	jb	.LBB81_637
	cmpb	$71, %bpl
	jae	.LBB81_572
	addb	$-55, %bpl
	jmp	.LBB81_246
.LBB81_553:
	movl	$1, %esi
	movq	72(%rsp), %rdi
	callq	"std_alloc::vec::Vec::grow_amortized::<#1283936d4ef01d73>"
	testb	%al, %al
	je	.LBB81_334
	movq	72(%rsp), %rcx
	movq	8(%rcx), %rax
	movq	16(%rcx), %rcx
	jmp	.LBB81_332
.LBB81_555:
	movl	$5, %esi
	movq	72(%rsp), %rdi
	callq	"std_alloc::vec::Vec::grow_amortized::<#1283936d4ef01d73>"
	testb	%al, %al
	je	.LBB81_334
	movq	72(%rsp), %rcx
	movq	(%rcx), %rdx
	movq	8(%rcx), %rax
	movq	16(%rcx), %rcx
	jmp	.LBB81_333
.LBB81_557:
	movq	8(%rsp), %rsi
	addl	$-97, %esi
	cmpb	$5, %sil
	ja	.LBB81_580
	movq	8(%rsp), %rsi
	addb	$-87, %sil
	jmp	.LBB81_218
.LBB81_559:
	leal	-97(%r10), %esi
	cmpb	$5, %sil
	movq	%r15, %rdi
	movq	%r14, %rsi
	ja	.LBB81_637
	addb	$-87, %r10b
	jmp	.LBB81_243
.LBB81_561:
	cmpb	$65, 8(%rsp)
	movq	%r15, %rdi
	movq	%r14, %rsi
	jb	.LBB81_637
	cmpb	$71, 8(%rsp)
	jae	.LBB81_582
	movq	8(%rsp), %rsi
	addb	$-55, %sil
	jmp	.LBB81_249
.LBB81_564:
	movq	56(%rsp), %rsi
	addl	$-97, %esi
	cmpb	$5, %sil
	ja	.LBB81_580
	movq	56(%rsp), %rsi
	addb	$-87, %sil
.LBB81_566:
	movq	%rsi, 56(%rsp)
	cmpb	$48, %r13b
	jb	.LBB81_580
	cmpb	$58, %r13b
	jae	.LBB81_569
	addb	$-48, %r13b
	jmp	.LBB81_579
.LBB81_569:
	cmpb	$65, %r13b
	jb	.LBB81_580
	cmpb	$71, %r13b
	jae	.LBB81_577
	addb	$-55, %r13b
	jmp	.LBB81_579
.LBB81_572:
	leal	-97(%rbp), %esi
	cmpb	$5, %sil
	movq	%r15, %rdi
	movq	%r14, %rsi
	ja	.LBB81_637
	addb	$-87, %bpl
	jmp	.LBB81_246
.LBB81_574:
	cmpb	$65, 56(%rsp)
	movq	%r15, %rdi
	movq	%r14, %rsi
	jb	.LBB81_637
	cmpb	$71, 56(%rsp)
	jae	.LBB81_587
	movq	56(%rsp), %rsi
	addb	$-55, %sil
	jmp	.LBB81_252
.LBB81_577:
	leal	-97(%r13), %esi
	cmpb	$5, %sil
	movq	%r15, %rdi
	movq	%r14, %rsi
	ja	.LBB81_581
	movq	%rsi, %r14
	movq	%rdi, %r15
	addb	$-87, %r13b
.LBB81_579:
	shlb	$4, %r11b
	addb	%r11b, %r8b
	shlb	$4, %r12b
	addb	%r12b, %cl
	shlb	$4, %bpl
	movq	8(%rsp), %rsi
	addb	%bpl, %sil
	movq	56(%rsp), %rax
	shlb	$4, %al
	addb	%r13b, %al
	movzbl	%al, %eax
	shll	$24, %eax
	movzbl	%sil, %esi
	shll	$16, %esi
	orl	%eax, %esi
	movzbl	%cl, %eax
	shll	$8, %eax
	orl	%esi, %eax
	movzbl	%r8b, %ecx
	orl	%eax, %ecx
	movl	%ecx, 172(%rsp)
	leaq	96(%rsp), %rdi
	leaq	172(%rsp), %rcx
	movl	$4, %r8d
	movq	%rdx, %rsi
	movl	$102, %edx
	callq	"amqp_json::reading::put::put"
	movzbl	96(%rsp), %eax
	movzbl	104(%rsp), %r9d
	movq	112(%rsp), %rbx
	movzbl	120(%rsp), %r10d
.LBB81_580:
	movq	%r15, %rdi
	movq	%r14, %rsi
.LBB81_581:
	movb	%al, 16(%rsp)
	movq	%r9, 24(%rsp)
	movq	%rbx, 32(%rsp)
	movb	%r10b, 40(%rsp)
	jmp	.LBB81_193
.LBB81_582:
	movq	8(%rsp), %rsi
	addl	$-97, %esi
	cmpb	$5, %sil
	movq	%r15, %rdi
	movq	%r14, %rsi
	ja	.LBB81_637
	movq	8(%rsp), %rsi
	addb	$-87, %sil
	jmp	.LBB81_249
.LBB81_584:
	cmpb	$65, 80(%rsp)
	movq	%r15, %rdi
	movq	%r14, %rsi
	jb	.LBB81_637
	cmpb	$71, 80(%rsp)
	jae	.LBB81_592
	movq	80(%rsp), %rsi
	addb	$-55, %sil
	jmp	.LBB81_255
.LBB81_587:
	movq	56(%rsp), %rsi
	addl	$-97, %esi
	cmpb	$5, %sil
	movq	%r15, %rdi
	movq	%r14, %rsi
	ja	.LBB81_637
	movq	56(%rsp), %rsi
	addb	$-87, %sil
	jmp	.LBB81_252
.LBB81_589:
	cmpb	$65, 160(%rsp)
	movq	%r15, %rdi
	movq	%r14, %rsi
	jb	.LBB81_637
	cmpb	$71, 160(%rsp)
	jae	.LBB81_594
	movq	160(%rsp), %rsi
	addb	$-55, %sil
	jmp	.LBB81_596
.LBB81_592:
	movq	80(%rsp), %rsi
	addl	$-97, %esi
	cmpb	$5, %sil
	movq	%r15, %rdi
	movq	%r14, %rsi
	ja	.LBB81_637
	movq	80(%rsp), %rsi
	addb	$-87, %sil
	jmp	.LBB81_255
.LBB81_594:
	movq	160(%rsp), %rsi
	addl	$-97, %esi
	cmpb	$5, %sil
	movq	%r15, %rdi
	movq	%r14, %rsi
	ja	.LBB81_637
	movq	160(%rsp), %rsi
	addb	$-87, %sil
.LBB81_596:
	movq	%rsi, 160(%rsp)
	cmpb	$48, 144(%rsp)
	movq	%r15, %rdi
	movq	%r14, %rsi
	jb	.LBB81_637
	cmpb	$58, 144(%rsp)
	jae	.LBB81_608
	movq	144(%rsp), %rsi
	addb	$-48, %sil
.LBB81_599:
	movq	%rsi, 144(%rsp)
	movzbl	12(%r11), %esi
	movq	%rsi, 152(%rsp)
	cmpb	$48, %sil
	movq	%r15, %rdi
	movq	%r14, %rsi
	jb	.LBB81_637
	movzbl	13(%r11), %esi
	movq	%rsi, 136(%rsp)
	cmpb	$58, 152(%rsp)
	jae	.LBB81_611
	movq	152(%rsp), %rsi
	addb	$-48, %sil
.LBB81_602:
	movq	%rsi, 152(%rsp)
	cmpb	$48, 136(%rsp)
	movq	%r15, %rdi
	movq	%r14, %rsi
	jb	.LBB81_637
	cmpb	$58, 136(%rsp)
	jae	.LBB81_616
	movq	136(%rsp), %rsi
	addb	$-48, %sil
.LBB81_605:
	movq	%rsi, 136(%rsp)
	movq	%r11, %r13
	movzbl	14(%r11), %r11d
	cmpb	$48, %r11b
	movq	%r15, %rdi
	movq	%r14, %rsi
	jb	.LBB81_637
	movzbl	15(%r13), %r13d
	cmpb	$58, %r11b
	jae	.LBB81_621
	addb	$-48, %r11b
	jmp	.LBB81_628
.LBB81_608:
	cmpb	$65, 144(%rsp)
	movq	%r15, %rdi
	movq	%r14, %rsi
	jb	.LBB81_637
	cmpb	$71, 144(%rsp)
	jae	.LBB81_614
	movq	144(%rsp), %rsi
	addb	$-55, %sil
	jmp	.LBB81_599
.LBB81_611:
	cmpb	$65, 152(%rsp)
	movq	%r15, %rdi
	movq	%r14, %rsi
	jb	.LBB81_637
	cmpb	$71, 152(%rsp)
	jae	.LBB81_619
	movq	152(%rsp), %rsi
	addb	$-55, %sil
	jmp	.LBB81_602
.LBB81_614:
	movq	144(%rsp), %rsi
	addl	$-97, %esi
	cmpb	$5, %sil
	movq	%r15, %rdi
	movq	%r14, %rsi
	ja	.LBB81_637
	movq	144(%rsp), %rsi
	addb	$-87, %sil
	jmp	.LBB81_599
.LBB81_616:
	cmpb	$65, 136(%rsp)
	movq	%r15, %rdi
	movq	%r14, %rsi
	jb	.LBB81_637
	cmpb	$71, 136(%rsp)
	jae	.LBB81_624
	movq	136(%rsp), %rsi
	addb	$-55, %sil
	jmp	.LBB81_605
.LBB81_619:
	movq	152(%rsp), %rsi
	addl	$-97, %esi
	cmpb	$5, %sil
	movq	%r15, %rdi
	movq	%r14, %rsi
	ja	.LBB81_637
	movq	152(%rsp), %rsi
	addb	$-87, %sil
	jmp	.LBB81_602
.LBB81_621:
	cmpb	$65, %r11b
	movq	%r15, %rdi
	movq	%r14, %rsi
	jb	.LBB81_637
	cmpb	$71, %r11b
	jae	.LBB81_626
	addb	$-55, %r11b
	jmp	.LBB81_628
.LBB81_624:
	movq	136(%rsp), %rsi
	addl	$-97, %esi
	cmpb	$5, %sil
	movq	%r15, %rdi
	movq	%r14, %rsi
	ja	.LBB81_637
	movq	136(%rsp), %rsi
	addb	$-87, %sil
	jmp	.LBB81_605
.LBB81_626:
	leal	-97(%r11), %esi
	cmpb	$5, %sil
	movq	%r15, %rdi
	movq	%r14, %rsi
	ja	.LBB81_637
	addb	$-87, %r11b
.LBB81_628:
	cmpb	$48, %r13b
	movq	%r15, %rdi
	movq	%r14, %rsi
	jb	.LBB81_637
	cmpb	$58, %r13b
	jae	.LBB81_632
	addb	$-48, %r13b
.LBB81_631:
	shlb	$4, %r8b
	addb	%r8b, %al
	shlb	$4, %r9b
	addb	%r9b, %cl
	shlb	$4, %r12b
	addb	%r12b, %r10b
	shlb	$4, %bpl
	movq	8(%rsp), %r8
	addb	%bpl, %r8b
	movq	56(%rsp), %rsi
	shlb	$4, %sil
	movq	80(%rsp), %rdi
	addb	%sil, %dil
	movq	160(%rsp), %r9
	shlb	$4, %r9b
	movq	144(%rsp), %rsi
	addb	%r9b, %sil
	movq	152(%rsp), %rbx
	shlb	$4, %bl
	movq	136(%rsp), %r9
	addb	%bl, %r9b
	shlb	$4, %r11b
	addb	%r13b, %r11b
	movzbl	%sil, %esi
	shlq	$40, %rsi
	movzbl	%dil, %edi
	shlq	$32, %rdi
	orq	%rsi, %rdi
	movzbl	%r9b, %esi
	shlq	$48, %rsi
	orq	%rsi, %rdi
	movzbl	%r8b, %esi
	shll	$24, %esi
	movzbl	%r10b, %r8d
	shll	$16, %r8d
	orl	%esi, %r8d
	orq	%rdi, %r8
	movzbl	%cl, %ecx
	shll	$8, %ecx
	movzbl	%al, %eax
	orq	%rcx, %rax
	orq	%r8, %rax
	movzbl	%r11b, %ecx
	shlq	$56, %rcx
	orq	%rax, %rcx
	movq	%rcx, 232(%rsp)
	leaq	304(%rsp), %rdi
	leaq	232(%rsp), %rcx
	movl	$8, %r8d
	movq	%rdx, %rsi
	movl	$100, %edx
	callq	"amqp_json::reading::put::put"
	movzbl	304(%rsp), %eax
	movzbl	312(%rsp), %edx
	movq	320(%rsp), %r8
	movzbl	328(%rsp), %ecx
	movq	%r15, %rdi
	movq	%r14, %rsi
	jmp	.LBB81_640
.LBB81_632:
	cmpb	$65, %r13b
	movq	%r15, %rdi
	movq	%r14, %rsi
	jb	.LBB81_637
	cmpb	$71, %r13b
	jae	.LBB81_635
	addb	$-55, %r13b
	jmp	.LBB81_631
.LBB81_635:
	leal	-97(%r13), %esi
	cmpb	$5, %sil
	movq	%r15, %rdi
	movq	%r14, %rsi
	ja	.LBB81_637
	addb	$-87, %r13b
	jmp	.LBB81_631
.LBB81_637:
	movq	%rbx, %r11
.LBB81_638:
	movb	$1, %al
	movl	$4, %edx
	movb	$7, %cl
.LBB81_639:
	movq	%r11, %r8
.LBB81_640:
	movb	%al, 16(%rsp)
	movq	%rdx, 24(%rsp)
	movq	%r8, 32(%rsp)
	movb	%cl, 40(%rsp)
	jmp	.LBB81_193
.Lfunc_end81:
	.size	"amqp_json::reading::walk::put_named", .Lfunc_end81-"amqp_json::reading::walk::put_named"
	.section	".rodata.amqp_json::reading::walk::put_named","a",@progbits
	.p2align	2, 0x0
.LJTI81_0:
	.long	.LBB81_2-.LJTI81_0
	.long	.LBB81_13-.LJTI81_0
	.long	.LBB81_8-.LJTI81_0
	.long	.LBB81_9-.LJTI81_0
	.long	.LBB81_3-.LJTI81_0
	.long	.LBB81_14-.LJTI81_0
	.long	.LBB81_16-.LJTI81_0
	.long	.LBB81_11-.LJTI81_0
	.long	.LBB81_18-.LJTI81_0
	.long	.LBB81_6-.LJTI81_0
.LJTI81_1:
	.long	.LBB81_59-.LJTI81_1
	.long	.LBB81_75-.LJTI81_1
	.long	.LBB81_75-.LJTI81_1
	.long	.LBB81_75-.LJTI81_1
	.long	.LBB81_75-.LJTI81_1
	.long	.LBB81_75-.LJTI81_1
	.long	.LBB81_75-.LJTI81_1
	.long	.LBB81_75-.LJTI81_1
	.long	.LBB81_75-.LJTI81_1
	.long	.LBB81_75-.LJTI81_1
	.long	.LBB81_36-.LJTI81_1
	.long	.LBB81_75-.LJTI81_1
	.long	.LBB81_75-.LJTI81_1
	.long	.LBB81_75-.LJTI81_1
	.long	.LBB81_75-.LJTI81_1
	.long	.LBB81_75-.LJTI81_1
	.long	.LBB81_75-.LJTI81_1
	.long	.LBB81_75-.LJTI81_1
	.long	.LBB81_75-.LJTI81_1
	.long	.LBB81_75-.LJTI81_1
	.long	.LBB81_75-.LJTI81_1
	.long	.LBB81_75-.LJTI81_1
	.long	.LBB81_75-.LJTI81_1
	.long	.LBB81_75-.LJTI81_1
	.long	.LBB81_36-.LJTI81_1
	.long	.LBB81_75-.LJTI81_1
	.long	.LBB81_75-.LJTI81_1
	.long	.LBB81_75-.LJTI81_1
	.long	.LBB81_75-.LJTI81_1
	.long	.LBB81_75-.LJTI81_1
	.long	.LBB81_75-.LJTI81_1
	.long	.LBB81_75-.LJTI81_1
	.long	.LBB81_75-.LJTI81_1
	.long	.LBB81_75-.LJTI81_1
	.long	.LBB81_75-.LJTI81_1
	.long	.LBB81_75-.LJTI81_1
	.long	.LBB81_75-.LJTI81_1
	.long	.LBB81_75-.LJTI81_1
	.long	.LBB81_75-.LJTI81_1
	.long	.LBB81_75-.LJTI81_1
	.long	.LBB81_75-.LJTI81_1
	.long	.LBB81_75-.LJTI81_1
	.long	.LBB81_75-.LJTI81_1
	.long	.LBB81_75-.LJTI81_1
	.long	.LBB81_75-.LJTI81_1
	.long	.LBB81_75-.LJTI81_1
	.long	.LBB81_75-.LJTI81_1
	.long	.LBB81_75-.LJTI81_1
	.long	.LBB81_75-.LJTI81_1
	.long	.LBB81_75-.LJTI81_1
	.long	.LBB81_75-.LJTI81_1
	.long	.LBB81_75-.LJTI81_1
	.long	.LBB81_75-.LJTI81_1
	.long	.LBB81_75-.LJTI81_1
	.long	.LBB81_75-.LJTI81_1
	.long	.LBB81_75-.LJTI81_1
	.long	.LBB81_75-.LJTI81_1
	.long	.LBB81_69-.LJTI81_1
	.long	.LBB81_36-.LJTI81_1
	.long	.LBB81_75-.LJTI81_1
	.long	.LBB81_75-.LJTI81_1
	.long	.LBB81_75-.LJTI81_1
	.long	.LBB81_75-.LJTI81_1
	.long	.LBB81_75-.LJTI81_1
	.long	.LBB81_75-.LJTI81_1
	.long	.LBB81_75-.LJTI81_1
	.long	.LBB81_75-.LJTI81_1
	.long	.LBB81_75-.LJTI81_1
	.long	.LBB81_57-.LJTI81_1
	.long	.LBB81_75-.LJTI81_1
	.long	.LBB81_75-.LJTI81_1
	.long	.LBB81_75-.LJTI81_1
	.long	.LBB81_75-.LJTI81_1
	.long	.LBB81_75-.LJTI81_1
	.long	.LBB81_75-.LJTI81_1
	.long	.LBB81_75-.LJTI81_1
	.long	.LBB81_65-.LJTI81_1
	.long	.LBB81_75-.LJTI81_1
	.long	.LBB81_75-.LJTI81_1
	.long	.LBB81_75-.LJTI81_1
	.long	.LBB81_75-.LJTI81_1
	.long	.LBB81_75-.LJTI81_1
	.long	.LBB81_67-.LJTI81_1
	.long	.LBB81_75-.LJTI81_1
	.long	.LBB81_75-.LJTI81_1
	.long	.LBB81_75-.LJTI81_1
	.long	.LBB81_75-.LJTI81_1
	.long	.LBB81_75-.LJTI81_1
	.long	.LBB81_75-.LJTI81_1
	.long	.LBB81_72-.LJTI81_1
.LJTI81_2:
	.long	.LBB81_53-.LJTI81_2
	.long	.LBB81_350-.LJTI81_2
	.long	.LBB81_53-.LJTI81_2
	.long	.LBB81_350-.LJTI81_2
	.long	.LBB81_350-.LJTI81_2
	.long	.LBB81_191-.LJTI81_2
	.long	.LBB81_348-.LJTI81_2
	.long	.LBB81_53-.LJTI81_2
	.long	.LBB81_53-.LJTI81_2
	.long	.LBB81_350-.LJTI81_2
.LJTI81_3:
	.long	.LBB81_192-.LJTI81_3
	.long	.LBB81_192-.LJTI81_3
	.long	.LBB81_192-.LJTI81_3
	.long	.LBB81_192-.LJTI81_3
	.long	.LBB81_192-.LJTI81_3
	.long	.LBB81_192-.LJTI81_3
	.long	.LBB81_192-.LJTI81_3
	.long	.LBB81_192-.LJTI81_3
	.long	.LBB81_192-.LJTI81_3
	.long	.LBB81_198-.LJTI81_3
	.long	.LBB81_223-.LJTI81_3
	.long	.LBB81_194-.LJTI81_3
	.long	.LBB81_192-.LJTI81_3
	.long	.LBB81_258-.LJTI81_3
	.long	.LBB81_192-.LJTI81_3
	.long	.LBB81_192-.LJTI81_3
	.long	.LBB81_192-.LJTI81_3
	.long	.LBB81_221-.LJTI81_3
.LJTI81_4:
	.long	.LBB81_638-.LJTI81_4
	.long	.LBB81_276-.LJTI81_4
	.long	.LBB81_278-.LJTI81_4
	.long	.LBB81_640-.LJTI81_4
.LJTI81_5:
	.long	.LBB81_366-.LJTI81_5
	.long	.LBB81_405-.LJTI81_5
	.long	.LBB81_405-.LJTI81_5
	.long	.LBB81_405-.LJTI81_5
	.long	.LBB81_405-.LJTI81_5
	.long	.LBB81_405-.LJTI81_5
	.long	.LBB81_405-.LJTI81_5
	.long	.LBB81_405-.LJTI81_5
	.long	.LBB81_405-.LJTI81_5
	.long	.LBB81_405-.LJTI81_5
	.long	.LBB81_386-.LJTI81_5
	.long	.LBB81_405-.LJTI81_5
	.long	.LBB81_405-.LJTI81_5
	.long	.LBB81_405-.LJTI81_5
	.long	.LBB81_405-.LJTI81_5
	.long	.LBB81_405-.LJTI81_5
	.long	.LBB81_405-.LJTI81_5
	.long	.LBB81_405-.LJTI81_5
	.long	.LBB81_405-.LJTI81_5
	.long	.LBB81_405-.LJTI81_5
	.long	.LBB81_405-.LJTI81_5
	.long	.LBB81_405-.LJTI81_5
	.long	.LBB81_405-.LJTI81_5
	.long	.LBB81_405-.LJTI81_5
	.long	.LBB81_386-.LJTI81_5
	.long	.LBB81_405-.LJTI81_5
	.long	.LBB81_405-.LJTI81_5
	.long	.LBB81_405-.LJTI81_5
	.long	.LBB81_405-.LJTI81_5
	.long	.LBB81_405-.LJTI81_5
	.long	.LBB81_405-.LJTI81_5
	.long	.LBB81_405-.LJTI81_5
	.long	.LBB81_405-.LJTI81_5
	.long	.LBB81_405-.LJTI81_5
	.long	.LBB81_405-.LJTI81_5
	.long	.LBB81_405-.LJTI81_5
	.long	.LBB81_405-.LJTI81_5
	.long	.LBB81_405-.LJTI81_5
	.long	.LBB81_405-.LJTI81_5
	.long	.LBB81_405-.LJTI81_5
	.long	.LBB81_405-.LJTI81_5
	.long	.LBB81_405-.LJTI81_5
	.long	.LBB81_405-.LJTI81_5
	.long	.LBB81_405-.LJTI81_5
	.long	.LBB81_405-.LJTI81_5
	.long	.LBB81_405-.LJTI81_5
	.long	.LBB81_405-.LJTI81_5
	.long	.LBB81_405-.LJTI81_5
	.long	.LBB81_405-.LJTI81_5
	.long	.LBB81_405-.LJTI81_5
	.long	.LBB81_405-.LJTI81_5
	.long	.LBB81_405-.LJTI81_5
	.long	.LBB81_405-.LJTI81_5
	.long	.LBB81_405-.LJTI81_5
	.long	.LBB81_405-.LJTI81_5
	.long	.LBB81_405-.LJTI81_5
	.long	.LBB81_405-.LJTI81_5
	.long	.LBB81_399-.LJTI81_5
	.long	.LBB81_386-.LJTI81_5
	.long	.LBB81_405-.LJTI81_5
	.long	.LBB81_405-.LJTI81_5
	.long	.LBB81_405-.LJTI81_5
	.long	.LBB81_405-.LJTI81_5
	.long	.LBB81_405-.LJTI81_5
	.long	.LBB81_405-.LJTI81_5
	.long	.LBB81_405-.LJTI81_5
	.long	.LBB81_405-.LJTI81_5
	.long	.LBB81_405-.LJTI81_5
	.long	.LBB81_393-.LJTI81_5
	.long	.LBB81_405-.LJTI81_5
	.long	.LBB81_405-.LJTI81_5
	.long	.LBB81_405-.LJTI81_5
	.long	.LBB81_405-.LJTI81_5
	.long	.LBB81_405-.LJTI81_5
	.long	.LBB81_405-.LJTI81_5
	.long	.LBB81_405-.LJTI81_5
	.long	.LBB81_395-.LJTI81_5
	.long	.LBB81_405-.LJTI81_5
	.long	.LBB81_405-.LJTI81_5
	.long	.LBB81_405-.LJTI81_5
	.long	.LBB81_405-.LJTI81_5
	.long	.LBB81_405-.LJTI81_5
	.long	.LBB81_397-.LJTI81_5
	.long	.LBB81_405-.LJTI81_5
	.long	.LBB81_405-.LJTI81_5
	.long	.LBB81_405-.LJTI81_5
	.long	.LBB81_405-.LJTI81_5
	.long	.LBB81_405-.LJTI81_5
	.long	.LBB81_405-.LJTI81_5
	.long	.LBB81_402-.LJTI81_5

	.section	.rodata.cst16,"aM",@progbits,16
	.p2align	4, 0x0
.LCPI82_0:
	.zero	16,127
	.section	".text.core::slice::words::skip_far::<#d9bf6fcacf29a880>","ax",@progbits
	.p2align	4
	.type	"core::slice::words::skip_far::<#d9bf6fcacf29a880>",@function
"core::slice::words::skip_far::<#d9bf6fcacf29a880>":
	movq	%rsi, %rax
	subq	%rsi, %rdx
	cmpq	$64, %rdx
	jb	.LBB82_4
	movabsq	$-9187201950435737472, %rcx
	movq	(%rdi), %rsi
	movzbl	16(%rdi), %edi
	movabsq	$72340172838076673, %r8
	imulq	%rdi, %r8
	movq	%r8, %xmm0
	pshufd	$68, %xmm0, %xmm0
	.p2align	4
.LBB82_2:
	movdqu	(%rsi,%rax), %xmm2
	movdqu	16(%rsi,%rax), %xmm3
	movdqu	32(%rsi,%rax), %xmm1
	movdqu	48(%rsi,%rax), %xmm4
	pxor	%xmm0, %xmm1
	pxor	%xmm0, %xmm2
	pxor	%xmm0, %xmm4
	pxor	%xmm0, %xmm3
	movdqa	.LCPI82_0(%rip), %xmm5
	movdqa	%xmm3, %xmm6
	pand	%xmm5, %xmm6
	movdqa	%xmm4, %xmm7
	pand	%xmm5, %xmm7
	movdqa	%xmm2, %xmm8
	pand	%xmm5, %xmm8
	movdqa	%xmm1, %xmm9
	pand	%xmm5, %xmm9
	paddq	%xmm5, %xmm9
	paddq	%xmm5, %xmm8
	paddq	%xmm5, %xmm7
	paddq	%xmm5, %xmm6
	por	%xmm3, %xmm6
	por	%xmm4, %xmm7
	pand	%xmm6, %xmm7
	por	%xmm2, %xmm8
	por	%xmm1, %xmm9
	pand	%xmm8, %xmm9
	pand	%xmm7, %xmm9
	pshufd	$238, %xmm9, %xmm1
	pand	%xmm9, %xmm1
	movq	%xmm1, %rdi
	notq	%rdi
	testq	%rdi, %rcx
	jne	.LBB82_4
	addq	$64, %rax
	addq	$-64, %rdx
	cmpq	$63, %rdx
	ja	.LBB82_2
.LBB82_4:
	retq
.Lfunc_end82:
	.size	"core::slice::words::skip_far::<#d9bf6fcacf29a880>", .Lfunc_end82-"core::slice::words::skip_far::<#d9bf6fcacf29a880>"

	.section	".text.amqp_json::reading::named::bytes_of","ax",@progbits
	.p2align	4
	.type	"amqp_json::reading::named::bytes_of",@function
"amqp_json::reading::named::bytes_of":
	pushq	%rbp
	pushq	%r15
	pushq	%r14
	pushq	%r13
	pushq	%r12
	pushq	%rbx
	subq	$24, %rsp
	movq	%rdi, %rbx
	movl	$4, %r12d
	testb	$1, %dl
	jne	.LBB83_1
	testq	%rdx, %rdx
	je	.LBB83_3
	movq	%rsi, %r14
	movq	%rcx, 16(%rsp)
	movq	%rdx, %r15
	movq	%rdx, %rbp
	shrq	%rbp
	movl	$1, %r13d
	movl	$1, %esi
	movq	%rbp, %rdi
	callq	rattle_alloc
	testb	$1, %al
	je	.LBB83_5
	cmpq	$2, %r15
	jne	.LBB83_8
	xorl	%r15d, %r15d
	jmp	.LBB83_9
.LBB83_1:
	movb	$6, %r14b
	movl	$1, %r13d
	xorl	%eax, %eax
	jmp	.LBB83_31
.LBB83_3:
	leaq	7(%rsp), %r12
	xorl	%ebp, %ebp
.LBB83_29:
	movq	%rbp, %rax
	shrq	$8, %rax
	xorl	%r13d, %r13d
	movq	%rbp, %rcx
	movl	%ebp, %r14d
	jmp	.LBB83_31
.LBB83_5:
	xorl	%eax, %eax
	xorl	%r12d, %r12d
	xorl	%ecx, %ecx
	xorl	%r14d, %r14d
	jmp	.LBB83_31
.LBB83_8:
	leaq	-1(%rbp), %r15
	movq	%rdx, %rdi
	xorl	%esi, %esi
	movq	%rdx, 8(%rsp)
	movq	%r15, %rdx
	callq	memset@PLT
	movq	8(%rsp), %rdx
.LBB83_9:
	movq	%r14, %rax
	movb	$0, (%rdx,%r15)
	incq	%r15
	movb	$8, %r14b
	cmpq	%r15, %rbp
	jne	.LBB83_30
	xorl	%ecx, %ecx
	jmp	.LBB83_11
	.p2align	4
.LBB83_21:
	addb	$-48, %dil
.LBB83_27:
	shlb	$4, %sil
	addb	%dil, %sil
	movb	%sil, (%rdx,%rcx)
	incq	%rcx
	cmpq	%rcx, %r15
	je	.LBB83_28
.LBB83_11:
	movzbl	(%rax,%rcx,2), %esi
	movb	$7, %r14b
	cmpb	$48, %sil
	jb	.LBB83_30
	movzbl	1(%rax,%rcx,2), %edi
	cmpb	$57, %sil
	ja	.LBB83_14
	addb	$-48, %sil
	jmp	.LBB83_19
	.p2align	4
.LBB83_14:
	cmpb	$65, %sil
	jb	.LBB83_30
	cmpb	$70, %sil
	ja	.LBB83_17
	addb	$-55, %sil
	jmp	.LBB83_19
.LBB83_17:
	leal	-97(%rsi), %r8d
	cmpb	$5, %r8b
	ja	.LBB83_30
	addb	$-87, %sil
.LBB83_19:
	cmpb	$48, %dil
	jb	.LBB83_30
	cmpb	$57, %dil
	jbe	.LBB83_21
	cmpb	$65, %dil
	jb	.LBB83_30
	cmpb	$70, %dil
	ja	.LBB83_25
	addb	$-55, %dil
	jmp	.LBB83_27
.LBB83_25:
	leal	-97(%rdi), %r8d
	cmpb	$5, %r8b
	ja	.LBB83_30
	addb	$-87, %dil
	jmp	.LBB83_27
.LBB83_30:
	movq	%rdx, %rdi
	callq	rattle_dealloc
	xorl	%eax, %eax
	movq	16(%rsp), %rcx
.LBB83_31:
	movq	%r13, (%rbx)
	movq	%r12, 8(%rbx)
	movq	%rcx, 16(%rbx)
	movb	%r14b, 24(%rbx)
	movl	%eax, 25(%rbx)
	movq	%rax, %rcx
	shrq	$48, %rcx
	movb	%cl, 31(%rbx)
	shrq	$32, %rax
	movw	%ax, 29(%rbx)
	addq	$24, %rsp
	popq	%rbx
	popq	%r12
	popq	%r13
	popq	%r14
	popq	%r15
	popq	%rbp
	retq
.LBB83_28:
	movq	%rdx, %r12
	jmp	.LBB83_29
.Lfunc_end83:
	.size	"amqp_json::reading::named::bytes_of", .Lfunc_end83-"amqp_json::reading::named::bytes_of"

	.section	".text.amqp_json::reading::walk::put_pairs","ax",@progbits
	.p2align	4
	.type	"amqp_json::reading::walk::put_pairs",@function
"amqp_json::reading::walk::put_pairs":
	pushq	%rbp
	pushq	%r15
	pushq	%r14
	pushq	%r13
	pushq	%r12
	pushq	%rbx
	subq	$104, %rsp
	movq	%r9, 96(%rsp)
	movq	%rsi, %r12
	movq	%rdi, 8(%rsp)
	movzbl	(%rcx), %eax
	movq	8(%rcx), %rsi
	movq	16(%rcx), %r13
	xorps	%xmm0, %xmm0
	movaps	%xmm0, 64(%rsp)
	movaps	%xmm0, 48(%rsp)
	movaps	%xmm0, 16(%rsp)
	movaps	%xmm0, 32(%rsp)
	cmpb	$1, %al
	jne	.LBB84_39
	movq	%r8, %rbp
	movq	%rdx, %r15
	.p2align	4
.LBB84_2:
	testq	%r13, %r13
	je	.LBB84_9
	cmpb	$36, (%rsi)
	jne	.LBB84_7
	movl	$4, %ecx
	movb	$1, %al
	decq	%r13
	je	.LBB84_43
	cmpb	$36, 1(%rsi)
	jne	.LBB84_43
	incq	%rsi
.LBB84_7:
	cmpq	$255, %r13
	ja	.LBB84_42
	movq	8(%r15), %rbp
	movq	16(%r15), %rbx
	cmpq	%rbp, %rbx
	jne	.LBB84_10
	jmp	.LBB84_35
	.p2align	4
.LBB84_9:
	xorl	%r13d, %r13d
	movq	8(%r15), %rbp
	movq	16(%r15), %rbx
	cmpq	%rbp, %rbx
	je	.LBB84_35
.LBB84_10:
	movq	(%r15), %r14
	movb	%r13b, (%r14,%rbp)
	incq	%rbp
	movq	%r14, (%r15)
	movq	%rbp, 8(%r15)
	movq	%rbx, 16(%r15)
	movq	%rbx, %rax
	subq	%rbp, %rax
	cmpq	%rax, %r13
	ja	.LBB84_37
.LBB84_11:
	xorps	%xmm0, %xmm0
	leaq	8(%r15), %rax
	movups	%xmm0, (%rax)
	leaq	(%r14,%rbp), %rdi
	movq	%rdi, %rax
	subq	%rsi, %rax
	cmpq	%r13, %rax
	jae	.LBB84_14
	cmpq	$4, %r13
	jb	.LBB84_13
	cmpq	$32, %rax
	jae	.LBB84_17
.LBB84_13:
	xorl	%eax, %eax
.LBB84_26:
	movq	%r13, %rdx
	movq	%rax, %rcx
	andq	$3, %rdx
	je	.LBB84_29
	movq	%rax, %rcx
	.p2align	4
.LBB84_28:
	movzbl	(%rsi,%rcx), %r8d
	movb	%r8b, (%rdi,%rcx)
	incq	%rcx
	decq	%rdx
	jne	.LBB84_28
.LBB84_29:
	subq	%r13, %rax
	cmpq	$-4, %rax
	ja	.LBB84_32
	leaq	(%r14,%rbp), %rax
	addq	$3, %rax
	.p2align	4
.LBB84_31:
	movzbl	(%rsi,%rcx), %edx
	movb	%dl, -3(%rax,%rcx)
	movzbl	1(%rsi,%rcx), %edx
	movb	%dl, -2(%rax,%rcx)
	movzbl	2(%rsi,%rcx), %edx
	movb	%dl, -1(%rax,%rcx)
	movzbl	3(%rsi,%rcx), %edx
	movb	%dl, (%rax,%rcx)
	addq	$4, %rcx
	cmpq	%rcx, %r13
	jne	.LBB84_31
	jmp	.LBB84_32
	.p2align	4
.LBB84_14:
	movq	%r13, %rdx
	callq	memmove@PLT
.LBB84_32:
	addq	%r13, %rbp
	movq	%r14, (%r15)
	movq	%rbp, 8(%r15)
	movq	%rbx, 16(%r15)
	movb	$0, 48(%rsp)
	xorps	%xmm0, %xmm0
	leaq	56(%rsp), %rax
	movups	%xmm0, (%rax)
	movb	$0, 16(%rax)
	leaq	48(%rsp), %rdi
	movq	%r12, %rsi
	movq	%r15, %rdx
	movq	96(%rsp), %rcx
	callq	"amqp_json::reading::walk::put_value"
	cmpb	$0, 48(%rsp)
	jne	.LBB84_40
	movq	80(%r12), %rbp
	leaq	16(%rsp), %rdi
	movq	%r12, %rsi
	callq	"amqp_json::reading::walk::next_key"
	movzbl	24(%rsp), %eax
	movq	32(%rsp), %rsi
	movzbl	40(%rsp), %ecx
	cmpb	$0, 16(%rsp)
	jne	.LBB84_41
	movzbl	%cl, %ecx
	movzbl	47(%rsp), %edx
	shll	$16, %edx
	movzwl	45(%rsp), %edi
	orl	%edx, %edi
	movl	41(%rsp), %r13d
	shlq	$40, %rdi
	shlq	$8, %r13
	orq	%rdi, %r13
	orq	%rcx, %r13
	cmpl	$1, %eax
	je	.LBB84_2
	jmp	.LBB84_39
.LBB84_17:
	cmpq	$32, %r13
	jae	.LBB84_19
	xorl	%eax, %eax
	jmp	.LBB84_23
.LBB84_19:
	movl	%r13d, %eax
	andl	$224, %eax
	leaq	(%r14,%rbp), %rcx
	addq	$16, %rcx
	xorl	%edx, %edx
	.p2align	4
.LBB84_20:
	movups	(%rsi,%rdx), %xmm0
	movups	16(%rsi,%rdx), %xmm1
	movups	%xmm0, -16(%rcx,%rdx)
	movups	%xmm1, (%rcx,%rdx)
	addq	$32, %rdx
	cmpq	%rdx, %rax
	jne	.LBB84_20
	cmpq	%rax, %r13
	je	.LBB84_32
	testb	$28, %r13b
	je	.LBB84_26
.LBB84_23:
	movq	%rax, %rcx
	movl	%r13d, %eax
	andl	$252, %eax
	.p2align	4
.LBB84_24:
	movl	(%rsi,%rcx), %edx
	movl	%edx, (%rdi,%rcx)
	addq	$4, %rcx
	cmpq	%rcx, %rax
	jne	.LBB84_24
	cmpq	%rax, %r13
	je	.LBB84_32
	jmp	.LBB84_26
.LBB84_35:
	movq	%rsi, %r14
	movl	$1, %esi
	movq	%r15, %rdi
	callq	"std_alloc::vec::Vec::grow_amortized::<#1283936d4ef01d73>"
	testb	%al, %al
	je	.LBB84_45
	movq	8(%r15), %rbp
	movq	16(%r15), %rbx
	movq	%r14, %rsi
	jmp	.LBB84_10
.LBB84_37:
	movq	%rsi, 88(%rsp)
	movq	%r15, %rdi
	movq	%r13, %rsi
	callq	"std_alloc::vec::Vec::grow_amortized::<#1283936d4ef01d73>"
	testb	%al, %al
	je	.LBB84_45
	movq	(%r15), %r14
	movq	8(%r15), %rbp
	movq	16(%r15), %rbx
	movq	88(%rsp), %rsi
	jmp	.LBB84_11
.LBB84_39:
	movq	8(%rsp), %rax
	movb	$0, (%rax)
	xorps	%xmm0, %xmm0
	movups	%xmm0, 8(%rax)
	movb	$0, 24(%rax)
	jmp	.LBB84_44
.LBB84_40:
	movzbl	72(%rsp), %eax
	movq	64(%rsp), %rcx
	movzbl	56(%rsp), %edx
	movq	8(%rsp), %rsi
	movb	$1, (%rsi)
	movq	%rdx, 8(%rsi)
	movq	%rcx, 16(%rsi)
	movb	%al, 24(%rsi)
	jmp	.LBB84_44
.LBB84_41:
	movq	8(%rsp), %rdx
	movb	$1, (%rdx)
	movq	%rax, 8(%rdx)
	movq	%rsi, 16(%rdx)
	movb	%cl, 24(%rdx)
	jmp	.LBB84_44
.LBB84_42:
	movl	$4, %ecx
	movb	$2, %al
.LBB84_43:
	movq	8(%rsp), %rdx
	movb	$1, (%rdx)
	movq	%rcx, 8(%rdx)
	movq	%rbp, 16(%rdx)
	movb	%al, 24(%rdx)
.LBB84_44:
	addq	$104, %rsp
	popq	%rbx
	popq	%r12
	popq	%r13
	popq	%r14
	popq	%r15
	popq	%rbp
	retq
.LBB84_45:
	xorl	%eax, %eax
	xorl	%ebp, %ebp
	xorl	%ecx, %ecx
	jmp	.LBB84_43
.Lfunc_end84:
	.size	"amqp_json::reading::walk::put_pairs", .Lfunc_end84-"amqp_json::reading::walk::put_pairs"

	.section	.rodata.cst16,"aM",@progbits,16
	.p2align	4, 0x0
.LCPI85_0:
	.zero	16,34
.LCPI85_1:
	.zero	16,92
.LCPI85_2:
	.zero	16,31
.LCPI85_3:
	.byte	34
	.byte	34
	.byte	34
	.byte	34
	.byte	34
	.byte	34
	.byte	34
	.byte	34
	.zero	1
	.zero	1
	.zero	1
	.zero	1
	.zero	1
	.zero	1
	.zero	1
	.zero	1
.LCPI85_4:
	.byte	92
	.byte	92
	.byte	92
	.byte	92
	.byte	92
	.byte	92
	.byte	92
	.byte	92
	.zero	1
	.zero	1
	.zero	1
	.zero	1
	.zero	1
	.zero	1
	.zero	1
	.zero	1
.LCPI85_5:
	.byte	32
	.byte	32
	.byte	32
	.byte	32
	.byte	32
	.byte	32
	.byte	32
	.byte	32
	.zero	1
	.zero	1
	.zero	1
	.zero	1
	.zero	1
	.zero	1
	.zero	1
	.zero	1
	.section	".text.json::run::plain_end_16","ax",@progbits
	.p2align	4
	.type	"json::run::plain_end_16",@function
"json::run::plain_end_16":
	movq	%rdx, %rax
	movq	%rsi, %rcx
	subq	%rdx, %rcx
	cmpq	$16, %rcx
	jae	.LBB85_8
	cmpq	$7, %rcx
	ja	.LBB85_16
	cmpq	%rax, %rsi
	jbe	.LBB85_19
	.p2align	4
.LBB85_3:
	movzbl	(%rdi,%rax), %ecx
	cmpl	$34, %ecx
	je	.LBB85_19
	cmpl	$92, %ecx
	je	.LBB85_19
	cmpb	$32, %cl
	jb	.LBB85_19
	incq	%rax
	cmpq	%rax, %rsi
	jne	.LBB85_3
	movq	%rsi, %rax
	retq
.LBB85_8:
	movdqu	(%rdi,%rax), %xmm0
	movdqa	.LCPI85_0(%rip), %xmm1
	pcmpeqb	%xmm0, %xmm1
	movdqa	.LCPI85_1(%rip), %xmm2
	pcmpeqb	%xmm0, %xmm2
	por	%xmm1, %xmm2
	movdqa	.LCPI85_2(%rip), %xmm1
	pminub	%xmm0, %xmm1
	pcmpeqb	%xmm0, %xmm1
	por	%xmm2, %xmm1
	pmovmskb	%xmm1, %ecx
	testl	%ecx, %ecx
	jne	.LBB85_18
	leaq	16(%rax), %rcx
	movq	%rsi, %rdx
	subq	%rcx, %rdx
	cmpq	$7, %rdx
	ja	.LBB85_20
	cmpq	%rcx, %rsi
	jbe	.LBB85_28
	.p2align	4
.LBB85_11:
	movzbl	(%rdi,%rcx), %eax
	cmpl	$34, %eax
	je	.LBB85_28
	cmpl	$92, %eax
	je	.LBB85_28
	cmpb	$32, %al
	jb	.LBB85_28
	incq	%rcx
	cmpq	%rcx, %rsi
	jne	.LBB85_11
	movq	%rsi, %rax
	retq
.LBB85_16:
	movq	(%rdi,%rax), %xmm0
	movdqa	.LCPI85_3(%rip), %xmm1
	pcmpeqb	%xmm0, %xmm1
	movdqa	.LCPI85_4(%rip), %xmm2
	pcmpeqb	%xmm0, %xmm2
	por	%xmm1, %xmm2
	movdqa	.LCPI85_5(%rip), %xmm1
	pmaxub	%xmm0, %xmm1
	pcmpeqb	%xmm0, %xmm1
	pcmpeqd	%xmm0, %xmm0
	pxor	%xmm1, %xmm0
	por	%xmm2, %xmm0
	pmovmskb	%xmm0, %ecx
	testb	%cl, %cl
	je	.LBB85_22
	movzbl	%cl, %ecx
.LBB85_18:
	rep		bsfl	%ecx, %ecx
	addq	%rcx, %rax
.LBB85_19:
	retq
.LBB85_20:
	movq	(%rdi,%rcx), %xmm0
	movdqa	.LCPI85_3(%rip), %xmm1
	pcmpeqb	%xmm0, %xmm1
	movdqa	.LCPI85_4(%rip), %xmm2
	pcmpeqb	%xmm0, %xmm2
	por	%xmm1, %xmm2
	movdqa	.LCPI85_5(%rip), %xmm1
	pmaxub	%xmm0, %xmm1
	pcmpeqb	%xmm0, %xmm1
	pcmpeqd	%xmm0, %xmm0
	pxor	%xmm1, %xmm0
	por	%xmm2, %xmm0
	pmovmskb	%xmm0, %edx
	testb	%dl, %dl
	je	.LBB85_29
	movzbl	%dl, %eax
	rep		bsfl	%eax, %eax
	addq	%rax, %rcx
	movq	%rcx, %rax
	retq
.LBB85_22:
	addq	$8, %rax
	cmpq	%rsi, %rax
	jae	.LBB85_19
	.p2align	4
.LBB85_23:
	movzbl	(%rdi,%rax), %ecx
	cmpl	$34, %ecx
	je	.LBB85_19
	cmpl	$92, %ecx
	je	.LBB85_19
	cmpb	$32, %cl
	jb	.LBB85_19
	incq	%rax
	cmpq	%rax, %rsi
	jne	.LBB85_23
	movq	%rsi, %rax
	retq
.LBB85_28:
	movq	%rcx, %rax
	retq
.LBB85_29:
	addq	$24, %rax
	cmpq	%rsi, %rax
	jae	.LBB85_19
.LBB85_30:
	movzbl	(%rdi,%rax), %ecx
	cmpl	$34, %ecx
	je	.LBB85_19
	cmpl	$92, %ecx
	je	.LBB85_19
	cmpb	$32, %cl
	jb	.LBB85_19
	incq	%rax
	cmpq	%rax, %rsi
	jne	.LBB85_30
	movq	%rsi, %rax
	retq
.Lfunc_end85:
	.size	"json::run::plain_end_16", .Lfunc_end85-"json::run::plain_end_16"

	.section	.rodata.cst16,"aM",@progbits,16
	.p2align	4, 0x0
.LCPI86_0:
	.zero	16,34
.LCPI86_1:
	.zero	16,92
.LCPI86_2:
	.zero	16,31
	.section	".text.json::unescape::unescape","ax",@progbits
	.p2align	4
	.type	"json::unescape::unescape",@function
"json::unescape::unescape":
	pushq	%rbp
	pushq	%r15
	pushq	%r14
	pushq	%r13
	pushq	%r12
	pushq	%rbx
	subq	$40, %rsp
	movq	%r8, 32(%rsp)
	movq	%rdx, %r13
	movq	%rsi, %r15
	movq	%rdi, %r12
	movq	%rcx, 16(%rsp)
	leaq	16(%rcx), %rax
	movq	%rax, 24(%rsp)
	xorl	%ebx, %ebx
	.p2align	4
.LBB86_1:
	movq	%r15, %rax
	subq	%r13, %rax
	movq	%r13, %rdx
	cmpq	$32, %rax
	jb	.LBB86_7
	movq	%r13, %rdx
	negq	%rdx
	leaq	(%r12,%r13), %rax
	.p2align	4
.LBB86_3:
	movdqu	(%rax), %xmm0
	movdqu	16(%rax), %xmm1
	movdqa	.LCPI86_0(%rip), %xmm2
	movdqa	%xmm1, %xmm3
	movdqa	.LCPI86_2(%rip), %xmm4
	movdqa	%xmm0, %xmm5
	pminub	%xmm4, %xmm5
	pminub	%xmm1, %xmm4
	pcmpeqb	%xmm1, %xmm4
	pcmpeqb	%xmm2, %xmm1
	movdqa	.LCPI86_1(%rip), %xmm6
	pcmpeqb	%xmm6, %xmm3
	por	%xmm1, %xmm3
	pcmpeqb	%xmm0, %xmm2
	pcmpeqb	%xmm0, %xmm6
	por	%xmm2, %xmm6
	pcmpeqb	%xmm0, %xmm5
	por	%xmm6, %xmm5
	por	%xmm3, %xmm4
	pmovmskb	%xmm5, %esi
	pmovmskb	%xmm4, %ecx
	shll	$16, %ecx
	orl	%esi, %ecx
	jne	.LBB86_4
	addq	$32, %rax
	leaq	(%r15,%rdx), %rcx
	addq	$-32, %rcx
	addq	$-32, %rdx
	cmpq	$31, %rcx
	ja	.LBB86_3
	negq	%rdx
.LBB86_7:
	movq	%r12, %rdi
	movq	%r15, %rsi
	callq	"json::run::plain_end_16"
	movq	%rax, %r14
	movq	%r15, %rax
	subq	%r14, %rax
	jne	.LBB86_11
	jmp	.LBB86_9
	.p2align	4
.LBB86_4:
	rep		bsfl	%ecx, %r14d
	subq	%rdx, %r14
	movq	%r15, %rax
	subq	%r14, %rax
	je	.LBB86_9
.LBB86_11:
	cmpb	$32, (%r12,%r14)
	jb	.LBB86_9
	movq	%r14, %rbp
	subq	%r13, %rbp
	cmpq	$32, %rax
	jb	.LBB86_17
	movq	32(%rsp), %rcx
	subq	%rbx, %rcx
	subq	%rbp, %rcx
	cmpq	$32, %rcx
	jae	.LBB86_14
.LBB86_17:
	leaq	(%r12,%r13), %rsi
	movq	16(%rsp), %rax
	leaq	(%rax,%rbx), %rdi
	movq	%rdi, %rax
	subq	%rsi, %rax
	cmpq	%rbp, %rax
	jae	.LBB86_60
	cmpq	$4, %rbp
	jb	.LBB86_19
	cmpq	$32, %rax
	jae	.LBB86_22
.LBB86_19:
	xorl	%eax, %eax
	jmp	.LBB86_20
	.p2align	4
.LBB86_60:
	movq	%rbp, %rdx
	callq	memmove@PLT
	jmp	.LBB86_31
	.p2align	4
.LBB86_14:
	cmpq	%r13, %r14
	je	.LBB86_31
	addq	%r12, %r13
	movq	16(%rsp), %rax
	addq	%rbx, %rax
	xorl	%ecx, %ecx
	.p2align	4
.LBB86_16:
	movdqu	(%r13,%rcx), %xmm0
	movdqu	16(%r13,%rcx), %xmm1
	movdqu	%xmm1, 16(%rax,%rcx)
	movdqu	%xmm0, (%rax,%rcx)
	addq	$32, %rcx
	cmpq	%rbp, %rcx
	jb	.LBB86_16
	jmp	.LBB86_31
.LBB86_22:
	cmpq	$32, %rbp
	jae	.LBB86_24
	xorl	%eax, %eax
	jmp	.LBB86_28
.LBB86_24:
	movq	%rbp, %rax
	andq	$-32, %rax
	leaq	16(%r12), %rcx
	addq	%rcx, %r13
	movq	24(%rsp), %rcx
	addq	%rbx, %rcx
	xorl	%edx, %edx
	.p2align	4
.LBB86_25:
	movdqu	-16(%r13,%rdx), %xmm0
	movdqu	(%r13,%rdx), %xmm1
	movdqu	%xmm0, -16(%rcx,%rdx)
	movdqu	%xmm1, (%rcx,%rdx)
	addq	$32, %rdx
	cmpq	%rdx, %rax
	jne	.LBB86_25
	cmpq	%rax, %rbp
	je	.LBB86_31
	testb	$28, %bpl
	je	.LBB86_20
.LBB86_28:
	movq	%rax, %rcx
	movq	%rbp, %rax
	andq	$-4, %rax
	.p2align	4
.LBB86_29:
	movl	(%rsi,%rcx), %edx
	movl	%edx, (%rdi,%rcx)
	addq	$4, %rcx
	cmpq	%rcx, %rax
	jne	.LBB86_29
	jmp	.LBB86_30
	.p2align	4
.LBB86_20:
	movzbl	(%rsi,%rax), %ecx
	movb	%cl, (%rdi,%rax)
	incq	%rax
.LBB86_30:
	cmpq	%rax, %rbp
	jne	.LBB86_20
.LBB86_31:
	addq	%rbx, %rbp
	cmpb	$34, (%r12,%r14)
	je	.LBB86_32
	leaq	1(%r14), %rax
	cmpq	%r15, %rax
	je	.LBB86_9
	movzbl	(%r12,%rax), %ecx
	xorl	%edx, %edx
	xorl	%eax, %eax
	leal	-34(%rcx), %esi
	cmpl	$83, %esi
	ja	.LBB86_10
	leaq	.LJTI86_0(%rip), %rdi
	movslq	(%rdi,%rsi,4), %rsi
	addq	%rdi, %rsi
	jmpq	*%rsi
.LBB86_50:
	movb	$8, %cl
	jmp	.LBB86_55
.LBB86_51:
	movb	$12, %cl
	jmp	.LBB86_55
.LBB86_36:
	leaq	2(%r14), %rsi
	movq	%r15, %rax
	subq	%rsi, %rax
	cmpq	$4, %rax
	jb	.LBB86_9
	movq	%r12, %rdi
	callq	"json::unescape::hex4"
	cmpb	$1, %al
	jne	.LBB86_9
	movl	%edx, %ebx
	movl	%edx, %eax
	andl	$-1024, %eax
	cmpl	$55296, %eax
	jne	.LBB86_46
	leaq	6(%r14), %rcx
	movq	%r15, %rax
	subq	%rcx, %rax
	cmpq	$6, %rax
	jb	.LBB86_9
	xorl	%edx, %edx
	cmpb	$92, (%r12,%rcx)
	movl	$0, %eax
	jne	.LBB86_10
	cmpb	$117, 1(%r12,%rcx)
	jne	.LBB86_10
	leaq	8(%r14), %rsi
	movq	%r12, %rdi
	callq	"json::unescape::hex4"
	movl	%eax, %esi
	movl	%edx, %ecx
	xorl	%edx, %edx
	movl	$0, %eax
	cmpb	$1, %sil
	jne	.LBB86_10
	movl	%ecx, %esi
	andl	$-1024, %esi
	cmpl	$56320, %esi
	jne	.LBB86_10
	shll	$10, %ebx
	addl	%ecx, %ebx
	addl	$-56613888, %ebx
	addq	$12, %r14
.LBB86_45:
	movl	%ebx, %eax
	shrl	$18, %eax
	addb	$-16, %al
	movb	%al, 12(%rsp)
	movl	%ebx, %eax
	shrl	$12, %eax
	andb	$63, %al
	orb	$-128, %al
	movb	%al, 13(%rsp)
	movl	%ebx, %eax
	shrl	$6, %eax
	andb	$63, %al
	orb	$-128, %al
	movb	%al, 14(%rsp)
	andb	$63, %bl
	orb	$-128, %bl
	movb	%bl, 15(%rsp)
	movl	$4, %ebx
	jmp	.LBB86_59
.LBB86_53:
	movb	$13, %cl
	jmp	.LBB86_55
.LBB86_52:
	movb	$10, %cl
	jmp	.LBB86_55
.LBB86_54:
	movb	$9, %cl
	.p2align	4
.LBB86_55:
	movzbl	%cl, %ebx
	addq	$2, %r14
	movl	$0, 12(%rsp)
.LBB86_56:
	movb	%bl, 12(%rsp)
	movl	$1, %ebx
.LBB86_59:
	movq	16(%rsp), %rax
	leaq	(%rax,%rbp), %rdi
	leaq	12(%rsp), %rsi
	movq	%rbx, %rdx
	callq	memcpy@PLT
	addq	%rbp, %rbx
	movq	%r14, %r13
	jmp	.LBB86_1
.LBB86_46:
	cmpl	$55296, %ebx
	setb	%al
	leal	-57344(%rbx), %ecx
	cmpl	$1056768, %ecx
	setb	%cl
	orb	%al, %cl
	je	.LBB86_9
	addq	$6, %r14
	movl	$0, 12(%rsp)
	cmpl	$127, %ebx
	jbe	.LBB86_56
	cmpl	$2047, %ebx
	ja	.LBB86_57
	movl	%ebx, %eax
	shrl	$6, %eax
	orb	$-64, %al
	movb	%al, 12(%rsp)
	andb	$63, %bl
	orb	$-128, %bl
	movb	%bl, 13(%rsp)
	movl	$2, %ebx
	jmp	.LBB86_59
.LBB86_57:
	cmpl	$65535, %ebx
	ja	.LBB86_45
	movl	%ebx, %eax
	shrl	$12, %eax
	orb	$-32, %al
	movb	%al, 12(%rsp)
	movl	%ebx, %eax
	shrl	$6, %eax
	andb	$63, %al
	orb	$-128, %al
	movb	%al, 13(%rsp)
	andb	$63, %bl
	orb	$-128, %bl
	movb	%bl, 14(%rsp)
	movl	$3, %ebx
	jmp	.LBB86_59
.LBB86_9:
	xorl	%edx, %edx
	xorl	%eax, %eax
	jmp	.LBB86_10
.LBB86_32:
	movb	$1, %al
	movq	%rbp, %rdx
.LBB86_10:
	addq	$40, %rsp
	popq	%rbx
	popq	%r12
	popq	%r13
	popq	%r14
	popq	%r15
	popq	%rbp
	retq
.Lfunc_end86:
	.size	"json::unescape::unescape", .Lfunc_end86-"json::unescape::unescape"
	.section	".rodata.json::unescape::unescape","a",@progbits
	.p2align	2, 0x0
.LJTI86_0:
	.long	.LBB86_55-.LJTI86_0
	.long	.LBB86_10-.LJTI86_0
	.long	.LBB86_10-.LJTI86_0
	.long	.LBB86_10-.LJTI86_0
	.long	.LBB86_10-.LJTI86_0
	.long	.LBB86_10-.LJTI86_0
	.long	.LBB86_10-.LJTI86_0
	.long	.LBB86_10-.LJTI86_0
	.long	.LBB86_10-.LJTI86_0
	.long	.LBB86_10-.LJTI86_0
	.long	.LBB86_10-.LJTI86_0
	.long	.LBB86_10-.LJTI86_0
	.long	.LBB86_10-.LJTI86_0
	.long	.LBB86_55-.LJTI86_0
	.long	.LBB86_10-.LJTI86_0
	.long	.LBB86_10-.LJTI86_0
	.long	.LBB86_10-.LJTI86_0
	.long	.LBB86_10-.LJTI86_0
	.long	.LBB86_10-.LJTI86_0
	.long	.LBB86_10-.LJTI86_0
	.long	.LBB86_10-.LJTI86_0
	.long	.LBB86_10-.LJTI86_0
	.long	.LBB86_10-.LJTI86_0
	.long	.LBB86_10-.LJTI86_0
	.long	.LBB86_10-.LJTI86_0
	.long	.LBB86_10-.LJTI86_0
	.long	.LBB86_10-.LJTI86_0
	.long	.LBB86_10-.LJTI86_0
	.long	.LBB86_10-.LJTI86_0
	.long	.LBB86_10-.LJTI86_0
	.long	.LBB86_10-.LJTI86_0
	.long	.LBB86_10-.LJTI86_0
	.long	.LBB86_10-.LJTI86_0
	.long	.LBB86_10-.LJTI86_0
	.long	.LBB86_10-.LJTI86_0
	.long	.LBB86_10-.LJTI86_0
	.long	.LBB86_10-.LJTI86_0
	.long	.LBB86_10-.LJTI86_0
	.long	.LBB86_10-.LJTI86_0
	.long	.LBB86_10-.LJTI86_0
	.long	.LBB86_10-.LJTI86_0
	.long	.LBB86_10-.LJTI86_0
	.long	.LBB86_10-.LJTI86_0
	.long	.LBB86_10-.LJTI86_0
	.long	.LBB86_10-.LJTI86_0
	.long	.LBB86_10-.LJTI86_0
	.long	.LBB86_10-.LJTI86_0
	.long	.LBB86_10-.LJTI86_0
	.long	.LBB86_10-.LJTI86_0
	.long	.LBB86_10-.LJTI86_0
	.long	.LBB86_10-.LJTI86_0
	.long	.LBB86_10-.LJTI86_0
	.long	.LBB86_10-.LJTI86_0
	.long	.LBB86_10-.LJTI86_0
	.long	.LBB86_10-.LJTI86_0
	.long	.LBB86_10-.LJTI86_0
	.long	.LBB86_10-.LJTI86_0
	.long	.LBB86_10-.LJTI86_0
	.long	.LBB86_55-.LJTI86_0
	.long	.LBB86_10-.LJTI86_0
	.long	.LBB86_10-.LJTI86_0
	.long	.LBB86_10-.LJTI86_0
	.long	.LBB86_10-.LJTI86_0
	.long	.LBB86_10-.LJTI86_0
	.long	.LBB86_50-.LJTI86_0
	.long	.LBB86_10-.LJTI86_0
	.long	.LBB86_10-.LJTI86_0
	.long	.LBB86_10-.LJTI86_0
	.long	.LBB86_51-.LJTI86_0
	.long	.LBB86_10-.LJTI86_0
	.long	.LBB86_10-.LJTI86_0
	.long	.LBB86_10-.LJTI86_0
	.long	.LBB86_10-.LJTI86_0
	.long	.LBB86_10-.LJTI86_0
	.long	.LBB86_10-.LJTI86_0
	.long	.LBB86_10-.LJTI86_0
	.long	.LBB86_52-.LJTI86_0
	.long	.LBB86_10-.LJTI86_0
	.long	.LBB86_10-.LJTI86_0
	.long	.LBB86_10-.LJTI86_0
	.long	.LBB86_53-.LJTI86_0
	.long	.LBB86_10-.LJTI86_0
	.long	.LBB86_54-.LJTI86_0
	.long	.LBB86_36-.LJTI86_0

	.section	".text.json::unescape::hex4","ax",@progbits
	.p2align	4
	.type	"json::unescape::hex4",@function
"json::unescape::hex4":
	movzbl	(%rdi,%rsi), %eax
	movl	$36, %ecx
	movl	$36, %r8d
	cmpl	$48, %eax
	jb	.LBB87_9
	cmpb	$57, %al
	ja	.LBB87_3
	addb	$-48, %al
	movzbl	%al, %r8d
	jmp	.LBB87_9
.LBB87_3:
	cmpb	$65, %al
	jb	.LBB87_9
	cmpb	$90, %al
	ja	.LBB87_6
	addl	$-55, %eax
	jmp	.LBB87_8
.LBB87_6:
	leal	-97(%rax), %edx
	cmpb	$25, %dl
	ja	.LBB87_9
	addl	$-87, %eax
.LBB87_8:
	movl	%eax, %r8d
.LBB87_9:
	movzbl	1(%rdi,%rsi), %eax
	cmpl	$48, %eax
	jb	.LBB87_18
	cmpb	$57, %al
	ja	.LBB87_12
	addb	$-48, %al
	movzbl	%al, %ecx
	jmp	.LBB87_18
.LBB87_12:
	cmpb	$65, %al
	jb	.LBB87_18
	cmpb	$90, %al
	ja	.LBB87_15
	addl	$-55, %eax
	jmp	.LBB87_17
.LBB87_15:
	leal	-97(%rax), %edx
	cmpb	$25, %dl
	ja	.LBB87_18
	addl	$-87, %eax
.LBB87_17:
	movl	%eax, %ecx
.LBB87_18:
	movzbl	2(%rdi,%rsi), %eax
	movl	$36, %r9d
	movl	$36, %r10d
	cmpl	$48, %eax
	jb	.LBB87_27
	cmpb	$57, %al
	ja	.LBB87_21
	addb	$-48, %al
	movzbl	%al, %r10d
	jmp	.LBB87_27
.LBB87_21:
	cmpb	$65, %al
	jb	.LBB87_27
	cmpb	$90, %al
	ja	.LBB87_24
	addl	$-55, %eax
	jmp	.LBB87_26
.LBB87_24:
	leal	-97(%rax), %edx
	cmpb	$25, %dl
	ja	.LBB87_27
	addl	$-87, %eax
.LBB87_26:
	movl	%eax, %r10d
.LBB87_27:
	movzbl	3(%rdi,%rsi), %eax
	cmpl	$48, %eax
	jb	.LBB87_36
	cmpb	$57, %al
	ja	.LBB87_30
	addb	$-48, %al
	movzbl	%al, %r9d
	jmp	.LBB87_36
.LBB87_30:
	cmpb	$65, %al
	jb	.LBB87_36
	cmpb	$90, %al
	ja	.LBB87_33
	addl	$-55, %eax
	jmp	.LBB87_35
.LBB87_33:
	leal	-97(%rax), %edx
	cmpb	$25, %dl
	ja	.LBB87_36
	addl	$-87, %eax
.LBB87_35:
	movl	%eax, %r9d
.LBB87_36:
	movl	%ecx, %eax
	orl	%r8d, %eax
	movl	%r10d, %esi
	orl	%r9d, %esi
	orl	%eax, %esi
	xorl	%edx, %edx
	movl	$0, %eax
	cmpl	$15, %esi
	ja	.LBB87_38
	shll	$12, %r8d
	shll	$8, %ecx
	addl	%r8d, %ecx
	shll	$4, %r10d
	addl	%ecx, %r10d
	orl	%r9d, %r10d
	movb	$1, %al
	movl	%r10d, %edx
.LBB87_38:
	retq
.Lfunc_end87:
	.size	"json::unescape::hex4", .Lfunc_end87-"json::unescape::hex4"

	.section	".text.json::run::digits_end_slowly","ax",@progbits
	.p2align	4
	.type	"json::run::digits_end_slowly",@function
"json::run::digits_end_slowly":
	movq	%rdx, %rax
	cmpq	%rsi, %rdx
	jae	.LBB88_4
	.p2align	4
.LBB88_1:
	movzbl	(%rdi,%rax), %ecx
	addb	$-48, %cl
	cmpb	$9, %cl
	ja	.LBB88_4
	incq	%rax
	cmpq	%rax, %rsi
	jne	.LBB88_1
	movq	%rsi, %rax
.LBB88_4:
	retq
.Lfunc_end88:
	.size	"json::run::digits_end_slowly", .Lfunc_end88-"json::run::digits_end_slowly"

	.section	".text.amqp_json::reading::syntax::Scan::after_value","ax",@progbits
	.p2align	4
	.type	"amqp_json::reading::syntax::Scan::after_value",@function
"amqp_json::reading::syntax::Scan::after_value":
	xorps	%xmm0, %xmm0
	movaps	%xmm0, -24(%rsp)
	movl	$0, -9(%rsp)
	movaps	%xmm0, -56(%rsp)
	movl	$0, -41(%rsp)
	movaps	%xmm0, -88(%rsp)
	movl	$0, -73(%rsp)
	movq	152(%rsi), %rcx
	leaq	-1(%rcx), %rax
	cmpq	$126, %rax
	ja	.LBB89_6
	cmpb	$0, 23(%rsi,%rcx)
	je	.LBB89_7
	movzbl	%dl, %ecx
	cmpl	$44, %ecx
	jg	.LBB89_11
	cmpl	$34, %ecx
	je	.LBB89_19
	cmpl	$44, %ecx
	jne	.LBB89_17
	movups	%xmm0, -85(%rsp)
	movb	$1, %dl
	xorl	%eax, %eax
	xorl	%ecx, %ecx
	movb	$1, %sil
	jmp	.LBB89_22
.LBB89_6:
	movw	$2305, (%rdi)
	movl	$0, 8(%rdi)
	movb	$0, 12(%rdi)
	movups	%xmm0, 16(%rdi)
	retq
.LBB89_7:
	movzbl	%dl, %ecx
	cmpl	$44, %ecx
	jg	.LBB89_14
	cmpl	$34, %ecx
	je	.LBB89_25
	cmpl	$44, %ecx
	jne	.LBB89_23
	movups	%xmm0, -53(%rsp)
	movb	$1, %sil
	xorl	%eax, %eax
	xorl	%ecx, %ecx
	xorl	%edx, %edx
	jmp	.LBB89_28
.LBB89_11:
	cmpl	$45, %ecx
	je	.LBB89_19
	cmpl	$125, %ecx
	jne	.LBB89_17
	movq	%rax, 152(%rsi)
	movups	%xmm0, -85(%rsp)
	movb	$3, %dl
	xorl	%eax, %eax
	xorl	%ecx, %ecx
	jmp	.LBB89_21
.LBB89_14:
	cmpl	$45, %ecx
	je	.LBB89_25
	cmpl	$93, %ecx
	jne	.LBB89_23
	movq	%rax, 152(%rsi)
	movups	%xmm0, -53(%rsp)
	movb	$3, %dl
	xorl	%eax, %eax
	xorl	%ecx, %ecx
	jmp	.LBB89_27
.LBB89_17:
	movb	$2, %cl
	movb	$1, %al
	cmpb	$48, %dl
	jb	.LBB89_20
	cmpb	$58, %dl
	jae	.LBB89_30
.LBB89_19:
	movb	$6, %cl
	movb	$1, %al
.LBB89_20:
	xorl	%edx, %edx
.LBB89_21:
	xorl	%esi, %esi
.LBB89_22:
	movups	-85(%rsp), %xmm0
	jmp	.LBB89_29
.LBB89_23:
	movb	$2, %cl
	movb	$1, %al
	cmpb	$48, %dl
	jb	.LBB89_26
	cmpb	$58, %dl
	jae	.LBB89_32
.LBB89_25:
	movb	$6, %cl
	movb	$1, %al
.LBB89_26:
	xorl	%edx, %edx
.LBB89_27:
	xorl	%esi, %esi
.LBB89_28:
	movups	-53(%rsp), %xmm0
.LBB89_29:
	movups	%xmm0, -21(%rsp)
	movb	%al, (%rdi)
	movb	%cl, 1(%rdi)
	movb	%dl, 8(%rdi)
	movb	%sil, 9(%rdi)
	movw	$0, 10(%rdi)
	movb	$0, 12(%rdi)
	movups	-21(%rsp), %xmm0
	movups	%xmm0, 16(%rdi)
	retq
.LBB89_30:
	cmpb	$65, %dl
	jb	.LBB89_20
	cmpb	$92, %dl
	setae	%sil
	addb	$-97, %dl
	cmpb	$27, %dl
	setae	%dl
	testb	%dl, %sil
	je	.LBB89_19
	jmp	.LBB89_20
.LBB89_32:
	cmpb	$65, %dl
	jb	.LBB89_26
	cmpb	$92, %dl
	setae	%sil
	addb	$-97, %dl
	cmpb	$27, %dl
	setae	%dl
	testb	%dl, %sil
	je	.LBB89_25
	jmp	.LBB89_26
.Lfunc_end89:
	.size	"amqp_json::reading::syntax::Scan::after_value", .Lfunc_end89-"amqp_json::reading::syntax::Scan::after_value"

	.section	".text.std_alloc::vec::Vec::drop::<#a80c6f5142a8b983>","ax",@progbits
	.p2align	4
	.type	"std_alloc::vec::Vec::drop::<#a80c6f5142a8b983>",@function
"std_alloc::vec::Vec::drop::<#a80c6f5142a8b983>":
	pushq	%r15
	pushq	%r14
	pushq	%r13
	pushq	%r12
	pushq	%rbx
	subq	$32, %rsp
	movq	(%rdi), %rbx
	movq	8(%rdi), %r15
	movq	16(%rdi), %r14
	testq	%r15, %r15
	je	.LBB90_3
	leaq	4(%rsp), %r12
	leaq	4(%rbx), %r13
	.p2align	4
.LBB90_2:
	movl	-4(%r13), %eax
	movl	%eax, (%rsp)
	movups	(%r13), %xmm0
	movups	12(%r13), %xmm1
	movups	%xmm1, 12(%r12)
	movups	%xmm0, (%r12)
	movq	%rsp, %rdi
	callq	"amqp_json::amqp_value_core++value++AMQPValue+Destruct::drop"
	addq	$32, %r13
	decq	%r15
	jne	.LBB90_2
.LBB90_3:
	testq	%r14, %r14
	je	.LBB90_4
	movq	%rbx, %rdi
	addq	$32, %rsp
	popq	%rbx
	popq	%r12
	popq	%r13
	popq	%r14
	popq	%r15
	jmp	rattle_dealloc
.LBB90_4:
	addq	$32, %rsp
	popq	%rbx
	popq	%r12
	popq	%r13
	popq	%r14
	popq	%r15
	retq
.Lfunc_end90:
	.size	"std_alloc::vec::Vec::drop::<#a80c6f5142a8b983>", .Lfunc_end90-"std_alloc::vec::Vec::drop::<#a80c6f5142a8b983>"

	.section	".text.amqp_json::amqp_value_core++value++AMQPValue+Destruct::drop","ax",@progbits
	.p2align	4
	.type	"amqp_json::amqp_value_core++value++AMQPValue+Destruct::drop",@function
"amqp_json::amqp_value_core++value++AMQPValue+Destruct::drop":
	pushq	%r15
	pushq	%r14
	pushq	%r13
	pushq	%r12
	pushq	%rbx
	subq	$32, %rsp
	movzbl	(%rdi), %eax
	movq	8(%rdi), %rbx
	movq	16(%rdi), %r14
	movq	24(%rdi), %r15
	leaq	.LJTI91_0(%rip), %rcx
	movslq	(%rcx,%rax,4), %rax
	addq	%rcx, %rax
	jmpq	*%rax
.LBB91_7:
	addq	$32, %rsp
	popq	%rbx
	popq	%r12
	popq	%r13
	popq	%r14
	popq	%r15
	retq
.LBB91_6:
	cmpb	$1, %bl
	jne	.LBB91_7
	movq	%r14, %rdi
	addq	$32, %rsp
	popq	%rbx
	popq	%r12
	popq	%r13
	popq	%r14
	popq	%r15
	jmp	"std_collections::btree::node::Node::destroy::<#6f4b2ed543d1e00a>"
.LBB91_3:
	testq	%r14, %r14
	je	.LBB91_1
	leaq	4(%rsp), %r12
	leaq	4(%rbx), %r13
	.p2align	4
.LBB91_5:
	movl	-4(%r13), %eax
	movl	%eax, (%rsp)
	movups	(%r13), %xmm0
	movups	12(%r13), %xmm1
	movups	%xmm1, 12(%r12)
	movups	%xmm0, (%r12)
	movq	%rsp, %rdi
	callq	"amqp_json::amqp_value_core++value++AMQPValue+Destruct::drop"
	addq	$32, %r13
	decq	%r14
	jne	.LBB91_5
.LBB91_1:
	testq	%r15, %r15
	je	.LBB91_7
	movq	%rbx, %rdi
	addq	$32, %rsp
	popq	%rbx
	popq	%r12
	popq	%r13
	popq	%r14
	popq	%r15
	jmp	rattle_dealloc
.Lfunc_end91:
	.size	"amqp_json::amqp_value_core++value++AMQPValue+Destruct::drop", .Lfunc_end91-"amqp_json::amqp_value_core++value++AMQPValue+Destruct::drop"
	.section	".rodata.amqp_json::amqp_value_core++value++AMQPValue+Destruct::drop","a",@progbits
	.p2align	2, 0x0
.LJTI91_0:
	.long	.LBB91_7-.LJTI91_0
	.long	.LBB91_7-.LJTI91_0
	.long	.LBB91_7-.LJTI91_0
	.long	.LBB91_7-.LJTI91_0
	.long	.LBB91_7-.LJTI91_0
	.long	.LBB91_7-.LJTI91_0
	.long	.LBB91_7-.LJTI91_0
	.long	.LBB91_7-.LJTI91_0
	.long	.LBB91_7-.LJTI91_0
	.long	.LBB91_7-.LJTI91_0
	.long	.LBB91_7-.LJTI91_0
	.long	.LBB91_1-.LJTI91_0
	.long	.LBB91_1-.LJTI91_0
	.long	.LBB91_3-.LJTI91_0
	.long	.LBB91_7-.LJTI91_0
	.long	.LBB91_6-.LJTI91_0
	.long	.LBB91_1-.LJTI91_0
	.long	.LBB91_7-.LJTI91_0

	.section	".text.std_collections::btree::node::Node::destroy::<#6f4b2ed543d1e00a>","ax",@progbits
	.p2align	4
	.type	"std_collections::btree::node::Node::destroy::<#6f4b2ed543d1e00a>",@function
"std_collections::btree::node::Node::destroy::<#6f4b2ed543d1e00a>":
	pushq	%rbp
	pushq	%r15
	pushq	%r14
	pushq	%r13
	pushq	%r12
	pushq	%rbx
	subq	$200, %rsp
	xorps	%xmm0, %xmm0
	movups	%xmm0, 172(%rsp)
	movaps	%xmm0, 160(%rsp)
	movzwl	(%rdi), %r15d
	movzwl	2(%rdi), %ecx
	xorl	%edx, %edx
	testw	%cx, %cx
	setne	%dl
	leaq	1(%r15), %rsi
	shll	$4, %edx
	leaq	848(%rdi), %rax
	leaq	368(%rdi), %r10
	leaq	8(%rdi), %r8
	xorl	%r9d, %r9d
	testw	%cx, %cx
	cmovneq	%rsi, %r9
	movq	%r8, 80(%rsp)
	movq	%r15, 88(%rsp)
	movq	$15, 96(%rsp)
	movq	%r10, 104(%rsp)
	movq	%r15, 112(%rsp)
	movq	$15, 120(%rsp)
	movq	%rax, 128(%rsp)
	movq	%r9, 136(%rsp)
	movq	%rdx, 144(%rsp)
	movq	%rdi, 152(%rsp)
	je	.LBB92_33
	leaq	136(%rsp), %r14
	testq	%r15, %r15
	je	.LBB92_27
	leaq	104(%rsp), %rbx
	leaq	4(%rsp), %r15
	jmp	.LBB92_4
	.p2align	4
.LBB92_3:
	movb	%bpl, (%rsp)
	movb	%r12b, 1(%rsp)
	movw	%r13w, 2(%rsp)
	movups	172(%rsp), %xmm0
	movups	%xmm0, 12(%r15)
	movaps	160(%rsp), %xmm0
	movups	%xmm0, (%r15)
	movq	%rsp, %rdi
	callq	"amqp_json::amqp_value_core++value++AMQPValue+Destruct::drop"
	cmpq	$0, 88(%rsp)
	je	.LBB92_26
.LBB92_4:
	movq	128(%rsp), %rcx
	movq	136(%rsp), %rax
	movq	(%rcx), %rdi
	decq	%rax
	cmpq	$257, %rax
	jb	.LBB92_10
	leaq	56(%rcx), %rsi
	xorl	%r9d, %r9d
	.p2align	4
.LBB92_6:
	xorl	%edx, %edx
	.p2align	4
.LBB92_7:
	movups	-48(%rsi,%rdx,8), %xmm0
	movups	-32(%rsi,%rdx,8), %xmm1
	movups	-16(%rsi,%rdx,8), %xmm2
	movups	(%rsi,%rdx,8), %xmm3
	movups	%xmm0, -56(%rsi,%rdx,8)
	movups	%xmm1, -40(%rsi,%rdx,8)
	movups	%xmm2, -24(%rsi,%rdx,8)
	movups	%xmm3, -8(%rsi,%rdx,8)
	addq	$8, %rdx
	cmpq	$256, %rdx
	jne	.LBB92_7
	addq	$256, %r9
	movq	%rax, %rdx
	subq	%r9, %rdx
	addq	$2048, %rsi
	cmpq	$256, %rdx
	ja	.LBB92_6
	leaq	(,%r9,8), %r8
	leaq	(%rcx,%r9,8), %rsi
	cmpq	%r9, %rax
	jne	.LBB92_11
	jmp	.LBB92_24
	.p2align	4
.LBB92_10:
	xorl	%r8d, %r8d
	movq	%rcx, %rsi
	movq	%rax, %rdx
	xorl	%r9d, %r9d
	cmpq	%r9, %rax
	je	.LBB92_24
.LBB92_11:
	leaq	(%rcx,%r8), %r9
	cmpq	$4, %rdx
	jb	.LBB92_12
	movq	%r9, %r10
	subq	%rsi, %r10
	addq	$-8, %r10
	cmpq	$32, %r10
	jae	.LBB92_15
.LBB92_12:
	xorl	%r10d, %r10d
.LBB92_18:
	movq	%rdx, %r12
	movq	%r10, %r11
	andq	$3, %r12
	je	.LBB92_21
	movq	%r10, %r11
	.p2align	4
.LBB92_20:
	movq	8(%rsi,%r11,8), %r13
	movq	%r13, (%r9,%r11,8)
	incq	%r11
	decq	%r12
	jne	.LBB92_20
.LBB92_21:
	subq	%rdx, %r10
	cmpq	$-4, %r10
	ja	.LBB92_24
	addq	%r8, %rcx
	addq	$24, %rcx
	.p2align	4
.LBB92_23:
	movq	8(%rsi,%r11,8), %r8
	movq	%r8, -24(%rcx,%r11,8)
	movq	16(%rsi,%r11,8), %r8
	movq	%r8, -16(%rcx,%r11,8)
	movq	24(%rsi,%r11,8), %r8
	movq	%r8, -8(%rcx,%r11,8)
	movq	32(%rsi,%r11,8), %r8
	movq	%r8, (%rcx,%r11,8)
	addq	$4, %r11
	cmpq	%r11, %rdx
	jne	.LBB92_23
	jmp	.LBB92_24
.LBB92_15:
	movl	%edx, %r10d
	andl	$508, %r10d
	leaq	(%rcx,%r8), %r11
	addq	$16, %r11
	xorl	%r12d, %r12d
	.p2align	4
.LBB92_16:
	movups	8(%rsi,%r12,8), %xmm0
	movups	24(%rsi,%r12,8), %xmm1
	movups	%xmm0, -16(%r11,%r12,8)
	movups	%xmm1, (%r11,%r12,8)
	addq	$4, %r12
	cmpq	%r12, %r10
	jne	.LBB92_16
	cmpq	%r10, %rdx
	jne	.LBB92_18
	.p2align	4
.LBB92_24:
	movq	144(%rsp), %rcx
	movq	%rax, 136(%rsp)
	movq	%rcx, 144(%rsp)
	callq	"std_collections::btree::node::Node::destroy::<#6f4b2ed543d1e00a>"
	xorps	%xmm0, %xmm0
	movaps	%xmm0, 48(%rsp)
	movq	$0, 64(%rsp)
	movaps	%xmm0, (%rsp)
	movaps	%xmm0, 16(%rsp)
	leaq	48(%rsp), %rdi
	leaq	80(%rsp), %rsi
	xorl	%edx, %edx
	callq	"std_alloc::vec::Vec::remove::<#5ea93b9ddeb8aab1>"
	movq	%rsp, %rdi
	movq	%rbx, %rsi
	xorl	%edx, %edx
	callq	"std_alloc::vec::Vec::remove::<#cd5e489e5ed3d409>"
	movq	48(%rsp), %rdi
	movzbl	(%rsp), %ebp
	movzbl	1(%rsp), %r12d
	movzwl	2(%rsp), %r13d
	movups	(%r15), %xmm0
	movups	12(%r15), %xmm1
	movaps	%xmm0, 160(%rsp)
	movups	%xmm1, 172(%rsp)
	cmpq	$0, 64(%rsp)
	je	.LBB92_3
	callq	rattle_dealloc
	jmp	.LBB92_3
.LBB92_26:
	movq	128(%rsp), %rax
	movq	136(%rsp), %r15
	decq	%r15
.LBB92_27:
	xorps	%xmm0, %xmm0
	movups	%xmm0, (%r14)
	movq	(%rax), %rdi
	cmpq	$257, %r15
	jb	.LBB92_39
	leaq	56(%rax), %rdx
	xorl	%r8d, %r8d
	.p2align	4
.LBB92_29:
	xorl	%ecx, %ecx
	.p2align	4
.LBB92_30:
	movups	-48(%rdx,%rcx,8), %xmm0
	movups	-32(%rdx,%rcx,8), %xmm1
	movups	-16(%rdx,%rcx,8), %xmm2
	movups	(%rdx,%rcx,8), %xmm3
	movups	%xmm0, -56(%rdx,%rcx,8)
	movups	%xmm1, -40(%rdx,%rcx,8)
	movups	%xmm2, -24(%rdx,%rcx,8)
	movups	%xmm3, -8(%rdx,%rcx,8)
	addq	$8, %rcx
	cmpq	$256, %rcx
	jne	.LBB92_30
	addq	$256, %r8
	movq	%r15, %rcx
	subq	%r8, %rcx
	addq	$2048, %rdx
	cmpq	$256, %rcx
	ja	.LBB92_29
	leaq	(,%r8,8), %rsi
	leaq	(%rax,%r8,8), %rdx
	cmpq	%r8, %r15
	jne	.LBB92_40
	jmp	.LBB92_53
.LBB92_33:
	movq	%rdi, 40(%rsp)
	leaq	80(%rsp), %rdi
	callq	"std_collections::btree::row::Row::reverse::<#8af3e1b4e9e21b57>"
	testq	%r15, %r15
	je	.LBB92_38
	leaq	(%r15,%r15,2), %rax
	movq	40(%rsp), %rcx
	leaq	(%rcx,%rax,8), %r12
	shll	$5, %r15d
	leaq	340(%rcx), %r13
	jmp	.LBB92_36
	.p2align	4
.LBB92_35:
	movb	%bpl, (%rsp)
	movb	%bl, 1(%rsp)
	movw	%r14w, 2(%rsp)
	movups	60(%rsp), %xmm0
	leaq	4(%rsp), %rax
	movups	%xmm0, 12(%rax)
	movaps	48(%rsp), %xmm0
	movups	%xmm0, (%rax)
	movq	%rsp, %rdi
	callq	"amqp_json::amqp_value_core++value++AMQPValue+Destruct::drop"
	addq	$-24, %r12
	addq	$-32, %r15
	je	.LBB92_38
.LBB92_36:
	movq	-16(%r12), %rdi
	movzbl	-4(%r13,%r15), %ebp
	movzbl	-3(%r13,%r15), %ebx
	movzwl	-2(%r13,%r15), %r14d
	cmpq	$0, (%r12)
	movups	(%r13,%r15), %xmm0
	movups	12(%r13,%r15), %xmm1
	movups	%xmm1, 60(%rsp)
	movaps	%xmm0, 48(%rsp)
	je	.LBB92_35
	callq	rattle_dealloc
	jmp	.LBB92_35
.LBB92_38:
	movq	40(%rsp), %rdi
	jmp	.LBB92_54
.LBB92_39:
	xorl	%esi, %esi
	movq	%rax, %rdx
	movq	%r15, %rcx
	xorl	%r8d, %r8d
	cmpq	%r8, %r15
	je	.LBB92_53
.LBB92_40:
	leaq	(%rax,%rsi), %r8
	cmpq	$8, %rcx
	jb	.LBB92_41
	movq	%r8, %r9
	subq	%rdx, %r9
	addq	$-8, %r9
	cmpq	$32, %r9
	jae	.LBB92_44
.LBB92_41:
	xorl	%r9d, %r9d
.LBB92_47:
	movq	%rcx, %r11
	movq	%r9, %r10
	andq	$3, %r11
	je	.LBB92_50
	movq	%r9, %r10
	.p2align	4
.LBB92_49:
	movq	8(%rdx,%r10,8), %rbx
	movq	%rbx, (%r8,%r10,8)
	incq	%r10
	decq	%r11
	jne	.LBB92_49
.LBB92_50:
	subq	%rcx, %r9
	cmpq	$-4, %r9
	ja	.LBB92_53
	addq	%rsi, %rax
	addq	$24, %rax
	.p2align	4
.LBB92_52:
	movq	8(%rdx,%r10,8), %rsi
	movq	%rsi, -24(%rax,%r10,8)
	movq	16(%rdx,%r10,8), %rsi
	movq	%rsi, -16(%rax,%r10,8)
	movq	24(%rdx,%r10,8), %rsi
	movq	%rsi, -8(%rax,%r10,8)
	movq	32(%rdx,%r10,8), %rsi
	movq	%rsi, (%rax,%r10,8)
	addq	$4, %r10
	cmpq	%r10, %rcx
	jne	.LBB92_52
	jmp	.LBB92_53
.LBB92_44:
	movl	%ecx, %r9d
	andl	$508, %r9d
	leaq	(%rsi,%rax), %r10
	addq	$16, %r10
	xorl	%r11d, %r11d
	.p2align	4
.LBB92_45:
	movups	8(%rdx,%r11,8), %xmm0
	movups	24(%rdx,%r11,8), %xmm1
	movups	%xmm0, -16(%r10,%r11,8)
	movups	%xmm1, (%r10,%r11,8)
	addq	$4, %r11
	cmpq	%r11, %r9
	jne	.LBB92_45
	cmpq	%r9, %rcx
	jne	.LBB92_47
.LBB92_53:
	callq	"std_collections::btree::node::Node::destroy::<#6f4b2ed543d1e00a>"
	movq	152(%rsp), %rdi
.LBB92_54:
	cmpw	$0, 2(%rdi)
	addq	$200, %rsp
	popq	%rbx
	popq	%r12
	popq	%r13
	popq	%r14
	popq	%r15
	popq	%rbp
	jmp	rattle_dealloc
.Lfunc_end92:
	.size	"std_collections::btree::node::Node::destroy::<#6f4b2ed543d1e00a>", .Lfunc_end92-"std_collections::btree::node::Node::destroy::<#6f4b2ed543d1e00a>"

	.section	".text.amqp_in_place::rabbitmq::warning::inside","ax",@progbits
	.p2align	4
	.type	"amqp_in_place::rabbitmq::warning::inside",@function
"amqp_in_place::rabbitmq::warning::inside":
	pushq	%rbx
	subq	$64, %rsp
	movl	80(%rsp), %eax
	xorps	%xmm0, %xmm0
	movaps	%xmm0, 32(%rsp)
	movq	$0, 48(%rsp)
	movaps	%xmm0, (%rsp)
	movq	$0, 16(%rsp)
	testl	%eax, %eax
	je	.LBB93_1
	cmpq	$4, %r9
	movl	$4, %r10d
	cmovbq	%r9, %r10
	cmpb	$1, %dl
	jne	.LBB93_17
	cmpb	$14, %cl
	jae	.LBB93_10
.LBB93_17:
	cmpb	$3, %sil
	jb	.LBB93_20
	movzbl	%sil, %eax
	cmpl	$4, %eax
	jne	.LBB93_19
	cmpb	$11, %cl
	sete	%al
	testb	%al, %dl
	je	.LBB93_20
	movb	$1, %al
	jmp	.LBB93_23
.LBB93_1:
	cmpb	$3, %sil
	jae	.LBB93_2
.LBB93_6:
	xorl	%eax, %eax
.LBB93_7:
	movb	$0, (%rdi)
	movq	%rax, 8(%rdi)
	movq	$0, 16(%rdi)
	addq	$64, %rsp
	popq	%rbx
	retq
.LBB93_2:
	movzbl	%sil, %eax
	cmpl	$4, %eax
	jne	.LBB93_3
	cmpb	$11, %cl
	sete	%cl
	movl	$1, %eax
	testb	%cl, %dl
	je	.LBB93_6
	jmp	.LBB93_7
.LBB93_19:
	testb	$1, %dl
.LBB93_20:
	xorl	%eax, %eax
.LBB93_23:
	xorl	%ecx, %ecx
.LBB93_24:
	movzbl	%al, %eax
	movb	$0, (%rdi)
	movq	%rax, 8(%rdi)
	movq	%rcx, 16(%rdi)
	addq	$64, %rsp
	popq	%rbx
	retq
.LBB93_10:
	addq	%r10, %r8
	subq	%r10, %r9
	movzbl	%cl, %r10d
	addl	$-14, %r10d
	leaq	.LJTI93_0(%rip), %r11
	movslq	(%r11,%r10,4), %r10
	addq	%r11, %r10
	jmpq	*%r10
.LBB93_11:
	movq	%rdi, %rbx
	decl	%eax
	movzbl	%sil, %esi
	leaq	32(%rsp), %rdi
	movq	%r8, %rdx
	movq	%r9, %rcx
	movl	%eax, %r8d
	callq	"amqp_in_place::rabbitmq::warning::in_values"
	cmpb	$0, 32(%rsp)
	jne	.LBB93_16
	movq	48(%rsp), %rdx
	movzbl	40(%rsp), %eax
	jmp	.LBB93_13
.LBB93_3:
	testb	$1, %dl
	je	.LBB93_6
	movzbl	%cl, %eax
	leaq	".Lswitch.table.amqp_in_place::rabbitmq::warning::inside"(%rip), %rcx
	movq	(%rcx,%rax,8), %rax
	jmp	.LBB93_7
.LBB93_14:
	movq	%rdi, %rbx
	decl	%eax
	movzbl	%sil, %esi
	movq	%rsp, %rdi
	movq	%r8, %rdx
	movq	%r9, %rcx
	movl	%eax, %r8d
	callq	"amqp_in_place::rabbitmq::warning::in_pairs"
	cmpb	$0, (%rsp)
	je	.LBB93_15
.LBB93_16:
	movb	$1, (%rbx)
	xorps	%xmm0, %xmm0
	movups	%xmm0, 8(%rbx)
	addq	$64, %rsp
	popq	%rbx
	retq
.LBB93_15:
	movq	16(%rsp), %rdx
	movzbl	8(%rsp), %eax
.LBB93_13:
	addq	$5, %rdx
	xorl	%ecx, %ecx
	cmpb	$1, %al
	cmoveq	%rdx, %rcx
	movq	%rbx, %rdi
	jmp	.LBB93_24
.Lfunc_end93:
	.size	"amqp_in_place::rabbitmq::warning::inside", .Lfunc_end93-"amqp_in_place::rabbitmq::warning::inside"
	.section	".rodata.amqp_in_place::rabbitmq::warning::inside","a",@progbits
	.p2align	2, 0x0
.LJTI93_0:
	.long	.LBB93_11-.LJTI93_0
	.long	.LBB93_17-.LJTI93_0
	.long	.LBB93_14-.LJTI93_0
	.long	.LBB93_17-.LJTI93_0
	.long	.LBB93_17-.LJTI93_0

	.section	".text.amqp_in_place::rabbitmq::warning::in_values","ax",@progbits
	.p2align	4
	.type	"amqp_in_place::rabbitmq::warning::in_values",@function
"amqp_in_place::rabbitmq::warning::in_values":
	pushq	%rbp
	pushq	%r15
	pushq	%r14
	pushq	%r13
	pushq	%r12
	pushq	%rbx
	subq	$40, %rsp
	movl	%r8d, 12(%rsp)
	movq	%rdi, (%rsp)
	xorps	%xmm0, %xmm0
	movaps	%xmm0, 16(%rsp)
	movq	$0, 32(%rsp)
	testq	%rcx, %rcx
	je	.LBB94_18
	movq	%rcx, %rbx
	movq	%rdx, %r15
	movl	%esi, %r12d
	xorl	%ebp, %ebp
	jmp	.LBB94_2
.LBB94_13:
	movl	$9, %eax
.LBB94_17:
	addq	%rax, %rbp
	cmpq	%rbx, %rbp
	jae	.LBB94_18
.LBB94_2:
	leaq	(%r15,%rbp), %r13
	movq	%rbx, %r14
	subq	%rbp, %r14
	movzbl	%r12b, %esi
	leaq	16(%rsp), %rdi
	movq	%r13, %rdx
	movq	%r14, %rcx
	movl	12(%rsp), %r8d
	callq	"amqp_in_place::rabbitmq::warning::in_value"
	cmpb	$0, 16(%rsp)
	jne	.LBB94_5
	cmpb	$1, 24(%rsp)
	je	.LBB94_4
	movzbl	(%r13), %ecx
	movl	$1, %eax
	addl	$-65, %ecx
	cmpl	$55, %ecx
	ja	.LBB94_17
	leaq	.LJTI94_0(%rip), %rdx
	movslq	(%rdx,%rcx,4), %rcx
	addq	%rdx, %rcx
	jmpq	*%rcx
.LBB94_15:
	movl	$5, %eax
	cmpq	$5, %r14
	jb	.LBB94_17
	movl	1(%r13), %eax
	bswapl	%eax
	addq	$5, %rax
	jmp	.LBB94_17
.LBB94_10:
	movl	$2, %eax
	jmp	.LBB94_17
.LBB94_12:
	movl	$5, %eax
	jmp	.LBB94_17
.LBB94_11:
	movl	$3, %eax
	jmp	.LBB94_17
.LBB94_14:
	movl	$6, %eax
	jmp	.LBB94_17
.LBB94_18:
	movq	(%rsp), %rax
	movb	$0, (%rax)
	jmp	.LBB94_6
.LBB94_5:
	movq	(%rsp), %rax
	movb	$1, (%rax)
.LBB94_6:
	xorps	%xmm0, %xmm0
	movups	%xmm0, 8(%rax)
	jmp	.LBB94_7
.LBB94_4:
	addq	32(%rsp), %rbp
	movq	(%rsp), %rax
	movb	$0, (%rax)
	movq	$1, 8(%rax)
	movq	%rbp, 16(%rax)
.LBB94_7:
	addq	$40, %rsp
	popq	%rbx
	popq	%r12
	popq	%r13
	popq	%r14
	popq	%r15
	popq	%rbp
	retq
.Lfunc_end94:
	.size	"amqp_in_place::rabbitmq::warning::in_values", .Lfunc_end94-"amqp_in_place::rabbitmq::warning::in_values"
	.section	".rodata.amqp_in_place::rabbitmq::warning::in_values","a",@progbits
	.p2align	2, 0x0
.LJTI94_0:
	.long	.LBB94_15-.LJTI94_0
	.long	.LBB94_10-.LJTI94_0
	.long	.LBB94_17-.LJTI94_0
	.long	.LBB94_14-.LJTI94_0
	.long	.LBB94_17-.LJTI94_0
	.long	.LBB94_15-.LJTI94_0
	.long	.LBB94_17-.LJTI94_0
	.long	.LBB94_17-.LJTI94_0
	.long	.LBB94_12-.LJTI94_0
	.long	.LBB94_17-.LJTI94_0
	.long	.LBB94_17-.LJTI94_0
	.long	.LBB94_13-.LJTI94_0
	.long	.LBB94_17-.LJTI94_0
	.long	.LBB94_17-.LJTI94_0
	.long	.LBB94_17-.LJTI94_0
	.long	.LBB94_17-.LJTI94_0
	.long	.LBB94_17-.LJTI94_0
	.long	.LBB94_17-.LJTI94_0
	.long	.LBB94_15-.LJTI94_0
	.long	.LBB94_13-.LJTI94_0
	.long	.LBB94_11-.LJTI94_0
	.long	.LBB94_17-.LJTI94_0
	.long	.LBB94_17-.LJTI94_0
	.long	.LBB94_17-.LJTI94_0
	.long	.LBB94_17-.LJTI94_0
	.long	.LBB94_17-.LJTI94_0
	.long	.LBB94_17-.LJTI94_0
	.long	.LBB94_17-.LJTI94_0
	.long	.LBB94_17-.LJTI94_0
	.long	.LBB94_17-.LJTI94_0
	.long	.LBB94_17-.LJTI94_0
	.long	.LBB94_17-.LJTI94_0
	.long	.LBB94_17-.LJTI94_0
	.long	.LBB94_10-.LJTI94_0
	.long	.LBB94_17-.LJTI94_0
	.long	.LBB94_13-.LJTI94_0
	.long	.LBB94_17-.LJTI94_0
	.long	.LBB94_12-.LJTI94_0
	.long	.LBB94_17-.LJTI94_0
	.long	.LBB94_17-.LJTI94_0
	.long	.LBB94_12-.LJTI94_0
	.long	.LBB94_17-.LJTI94_0
	.long	.LBB94_17-.LJTI94_0
	.long	.LBB94_13-.LJTI94_0
	.long	.LBB94_17-.LJTI94_0
	.long	.LBB94_17-.LJTI94_0
	.long	.LBB94_17-.LJTI94_0
	.long	.LBB94_17-.LJTI94_0
	.long	.LBB94_17-.LJTI94_0
	.long	.LBB94_17-.LJTI94_0
	.long	.LBB94_11-.LJTI94_0
	.long	.LBB94_10-.LJTI94_0
	.long	.LBB94_11-.LJTI94_0
	.long	.LBB94_17-.LJTI94_0
	.long	.LBB94_17-.LJTI94_0
	.long	.LBB94_15-.LJTI94_0

	.section	".text.amqp_in_place::rabbitmq::warning::in_value","ax",@progbits
	.p2align	4
	.type	"amqp_in_place::rabbitmq::warning::in_value",@function
"amqp_in_place::rabbitmq::warning::in_value":
	pushq	%rbx
	subq	$48, %rsp
	movq	%rdi, %rbx
	xorps	%xmm0, %xmm0
	movaps	%xmm0, 16(%rsp)
	movq	$0, 32(%rsp)
	testq	%rcx, %rcx
	je	.LBB95_32
	movq	%rdx, %rax
	movzbl	(%rdx), %edx
	incq	%rax
	xorl	%r9d, %r9d
	addl	$-65, %edx
	cmpl	$55, %edx
	ja	.LBB95_11
	leaq	.LJTI95_0(%rip), %rdi
	movslq	(%rdi,%rdx,4), %r10
	addq	%rdi, %r10
	jmpq	*%r10
.LBB95_8:
	movl	$4, %r9d
	cmpq	$5, %rcx
	jb	.LBB95_10
	movl	(%rax), %r9d
	bswapl	%r9d
	addq	$4, %r9
	jmp	.LBB95_10
.LBB95_32:
	movb	$0, (%rbx)
	movups	%xmm0, 8(%rbx)
	addq	$48, %rsp
	popq	%rbx
	retq
.LBB95_6:
	movl	$8, %r9d
	jmp	.LBB95_10
.LBB95_3:
	movl	$1, %r9d
	jmp	.LBB95_10
.LBB95_4:
	movl	$2, %r9d
	jmp	.LBB95_10
.LBB95_5:
	movl	$4, %r9d
	jmp	.LBB95_10
.LBB95_7:
	movl	$5, %r9d
.LBB95_10:
	decq	%rcx
	cmpq	%rcx, %r9
	cmovaeq	%rcx, %r9
.LBB95_11:
	cmpl	$55, %edx
	ja	.LBB95_29
	movb	$1, %cl
	leaq	.LJTI95_1(%rip), %rdi
	movslq	(%rdi,%rdx,4), %rdx
	addq	%rdi, %rdx
	jmpq	*%rdx
.LBB95_19:
	movb	$7, %dil
	jmp	.LBB95_31
.LBB95_15:
	movb	$3, %dil
	jmp	.LBB95_31
.LBB95_21:
	movb	$10, %dil
	jmp	.LBB95_31
.LBB95_20:
	movb	$9, %dil
	jmp	.LBB95_31
.LBB95_25:
	movb	$15, %dil
	jmp	.LBB95_31
.LBB95_14:
	movb	$2, %dil
	jmp	.LBB95_31
.LBB95_17:
	movb	$5, %dil
	jmp	.LBB95_31
.LBB95_23:
	movb	$13, %dil
	jmp	.LBB95_31
.LBB95_16:
	movb	$4, %dil
	jmp	.LBB95_31
.LBB95_18:
	movb	$6, %dil
	jmp	.LBB95_31
.LBB95_24:
	movb	$14, %dil
	jmp	.LBB95_31
.LBB95_29:
	xorl	%ecx, %ecx
.LBB95_30:
	xorl	%edi, %edi
	jmp	.LBB95_31
.LBB95_22:
	movb	$11, %dil
	jmp	.LBB95_31
.LBB95_13:
	movb	$1, %cl
	movb	$1, %dil
	jmp	.LBB95_31
.LBB95_26:
	movb	$16, %dil
	jmp	.LBB95_31
.LBB95_28:
	movb	$18, %dil
	jmp	.LBB95_31
.LBB95_27:
	movb	$17, %dil
.LBB95_31:
	movl	%r8d, (%rsp)
	movzbl	%sil, %esi
	movzbl	%cl, %edx
	movzbl	%dil, %ecx
	leaq	16(%rsp), %rdi
	movq	%rax, %r8
	callq	"amqp_in_place::rabbitmq::warning::inside"
	movzbl	16(%rsp), %eax
	movb	%al, (%rbx)
	movzbl	24(%rsp), %eax
	movq	%rax, 8(%rbx)
	movq	32(%rsp), %rax
	movq	%rax, 16(%rbx)
	addq	$48, %rsp
	popq	%rbx
	retq
.Lfunc_end95:
	.size	"amqp_in_place::rabbitmq::warning::in_value", .Lfunc_end95-"amqp_in_place::rabbitmq::warning::in_value"
	.section	".rodata.amqp_in_place::rabbitmq::warning::in_value","a",@progbits
	.p2align	2, 0x0
.LJTI95_0:
	.long	.LBB95_8-.LJTI95_0
	.long	.LBB95_3-.LJTI95_0
	.long	.LBB95_11-.LJTI95_0
	.long	.LBB95_7-.LJTI95_0
	.long	.LBB95_11-.LJTI95_0
	.long	.LBB95_8-.LJTI95_0
	.long	.LBB95_11-.LJTI95_0
	.long	.LBB95_11-.LJTI95_0
	.long	.LBB95_5-.LJTI95_0
	.long	.LBB95_11-.LJTI95_0
	.long	.LBB95_11-.LJTI95_0
	.long	.LBB95_6-.LJTI95_0
	.long	.LBB95_11-.LJTI95_0
	.long	.LBB95_11-.LJTI95_0
	.long	.LBB95_11-.LJTI95_0
	.long	.LBB95_11-.LJTI95_0
	.long	.LBB95_11-.LJTI95_0
	.long	.LBB95_11-.LJTI95_0
	.long	.LBB95_8-.LJTI95_0
	.long	.LBB95_6-.LJTI95_0
	.long	.LBB95_4-.LJTI95_0
	.long	.LBB95_10-.LJTI95_0
	.long	.LBB95_11-.LJTI95_0
	.long	.LBB95_11-.LJTI95_0
	.long	.LBB95_11-.LJTI95_0
	.long	.LBB95_11-.LJTI95_0
	.long	.LBB95_11-.LJTI95_0
	.long	.LBB95_11-.LJTI95_0
	.long	.LBB95_11-.LJTI95_0
	.long	.LBB95_11-.LJTI95_0
	.long	.LBB95_11-.LJTI95_0
	.long	.LBB95_11-.LJTI95_0
	.long	.LBB95_11-.LJTI95_0
	.long	.LBB95_3-.LJTI95_0
	.long	.LBB95_11-.LJTI95_0
	.long	.LBB95_6-.LJTI95_0
	.long	.LBB95_11-.LJTI95_0
	.long	.LBB95_5-.LJTI95_0
	.long	.LBB95_11-.LJTI95_0
	.long	.LBB95_11-.LJTI95_0
	.long	.LBB95_5-.LJTI95_0
	.long	.LBB95_11-.LJTI95_0
	.long	.LBB95_11-.LJTI95_0
	.long	.LBB95_6-.LJTI95_0
	.long	.LBB95_11-.LJTI95_0
	.long	.LBB95_11-.LJTI95_0
	.long	.LBB95_11-.LJTI95_0
	.long	.LBB95_11-.LJTI95_0
	.long	.LBB95_11-.LJTI95_0
	.long	.LBB95_11-.LJTI95_0
	.long	.LBB95_4-.LJTI95_0
	.long	.LBB95_3-.LJTI95_0
	.long	.LBB95_4-.LJTI95_0
	.long	.LBB95_11-.LJTI95_0
	.long	.LBB95_11-.LJTI95_0
	.long	.LBB95_8-.LJTI95_0
.LJTI95_1:
	.long	.LBB95_24-.LJTI95_1
	.long	.LBB95_14-.LJTI95_1
	.long	.LBB95_29-.LJTI95_1
	.long	.LBB95_22-.LJTI95_1
	.long	.LBB95_29-.LJTI95_1
	.long	.LBB95_26-.LJTI95_1
	.long	.LBB95_29-.LJTI95_1
	.long	.LBB95_29-.LJTI95_1
	.long	.LBB95_17-.LJTI95_1
	.long	.LBB95_29-.LJTI95_1
	.long	.LBB95_29-.LJTI95_1
	.long	.LBB95_19-.LJTI95_1
	.long	.LBB95_29-.LJTI95_1
	.long	.LBB95_29-.LJTI95_1
	.long	.LBB95_29-.LJTI95_1
	.long	.LBB95_29-.LJTI95_1
	.long	.LBB95_29-.LJTI95_1
	.long	.LBB95_29-.LJTI95_1
	.long	.LBB95_23-.LJTI95_1
	.long	.LBB95_25-.LJTI95_1
	.long	.LBB95_15-.LJTI95_1
	.long	.LBB95_28-.LJTI95_1
	.long	.LBB95_29-.LJTI95_1
	.long	.LBB95_29-.LJTI95_1
	.long	.LBB95_29-.LJTI95_1
	.long	.LBB95_29-.LJTI95_1
	.long	.LBB95_29-.LJTI95_1
	.long	.LBB95_29-.LJTI95_1
	.long	.LBB95_29-.LJTI95_1
	.long	.LBB95_29-.LJTI95_1
	.long	.LBB95_29-.LJTI95_1
	.long	.LBB95_29-.LJTI95_1
	.long	.LBB95_29-.LJTI95_1
	.long	.LBB95_13-.LJTI95_1
	.long	.LBB95_29-.LJTI95_1
	.long	.LBB95_21-.LJTI95_1
	.long	.LBB95_29-.LJTI95_1
	.long	.LBB95_20-.LJTI95_1
	.long	.LBB95_29-.LJTI95_1
	.long	.LBB95_29-.LJTI95_1
	.long	.LBB95_18-.LJTI95_1
	.long	.LBB95_29-.LJTI95_1
	.long	.LBB95_29-.LJTI95_1
	.long	.LBB95_19-.LJTI95_1
	.long	.LBB95_29-.LJTI95_1
	.long	.LBB95_29-.LJTI95_1
	.long	.LBB95_29-.LJTI95_1
	.long	.LBB95_29-.LJTI95_1
	.long	.LBB95_29-.LJTI95_1
	.long	.LBB95_29-.LJTI95_1
	.long	.LBB95_15-.LJTI95_1
	.long	.LBB95_30-.LJTI95_1
	.long	.LBB95_16-.LJTI95_1
	.long	.LBB95_29-.LJTI95_1
	.long	.LBB95_29-.LJTI95_1
	.long	.LBB95_27-.LJTI95_1

	.section	".text.amqp_in_place::rabbitmq::warning::in_pairs","ax",@progbits
	.p2align	4
	.type	"amqp_in_place::rabbitmq::warning::in_pairs",@function
"amqp_in_place::rabbitmq::warning::in_pairs":
	pushq	%rbp
	pushq	%r15
	pushq	%r14
	pushq	%r13
	pushq	%r12
	pushq	%rbx
	subq	$264, %rsp
	movl	%r8d, 104(%rsp)
	movl	%esi, 108(%rsp)
	pxor	%xmm0, %xmm0
	movdqa	%xmm0, 160(%rsp)
	movq	$0, 176(%rsp)
	movq	$0, 8(%rsp)
	testq	%rcx, %rcx
	je	.LBB96_137
	movq	%rdi, 64(%rsp)
	leaq	49(%rdx), %rax
	movq	%rax, 208(%rsp)
	xorl	%esi, %esi
	movq	$0, 144(%rsp)
	xorl	%ebp, %ebp
	movq	%rcx, 224(%rsp)
	movq	%rdx, 216(%rsp)
	jmp	.LBB96_4
	.p2align	4
.LBB96_2:
	xorl	%esi, %esi
.LBB96_3:
	addq	%r13, %rsi
	movq	224(%rsp), %rcx
	cmpq	%rcx, %rsi
	movq	216(%rsp), %rdx
	jae	.LBB96_135
.LBB96_4:
	leaq	(%rdx,%rsi), %rdi
	leaq	(%rdx,%rsi), %rbx
	incq	%rbx
	movq	%rsi, %r14
	notq	%r14
	addq	%rcx, %r14
	movzbl	(%rdx,%rsi), %edx
	cmpq	%r14, %rdx
	movq	%r14, %r12
	cmovbq	%rdx, %r12
	movzbl	108(%rsp), %r8d
	leaq	.LJTI96_0(%rip), %rax
	movslq	(%rax,%r8,4), %rcx
	addq	%rax, %rcx
	movq	%rsi, 152(%rsp)
	movq	%rdx, 232(%rsp)
	jmpq	*%rcx
.LBB96_5:
	movq	%rdi, 40(%rsp)
	movq	%r14, 200(%rsp)
	cmpb	$1, %bpl
	jne	.LBB96_24
	movq	8(%rsp), %rax
	movq	%rax, (%rsp)
	movzwl	2(%rax), %eax
	jmp	.LBB96_26
	.p2align	4
.LBB96_7:
	testq	%r12, %r12
	jne	.LBB96_48
	jmp	.LBB96_139
.LBB96_8:
	cmpq	$7, %r12
	ja	.LBB96_47
	testq	%r12, %r12
	je	.LBB96_48
	cmpb	$0, 1(%rdi)
	js	.LBB96_64
	cmpq	$1, %r12
	je	.LBB96_48
	cmpb	$0, 2(%rdi)
	js	.LBB96_64
	cmpq	$2, %r12
	je	.LBB96_48
	cmpb	$0, 3(%rdi)
	js	.LBB96_64
	cmpq	$3, %r12
	je	.LBB96_48
	cmpb	$0, 4(%rdi)
	js	.LBB96_64
	cmpq	$4, %r12
	je	.LBB96_48
	cmpb	$0, 5(%rdi)
	js	.LBB96_64
	cmpq	$5, %r12
	je	.LBB96_48
	cmpb	$0, 6(%rdi)
	js	.LBB96_64
	cmpq	$6, %r12
	je	.LBB96_48
	cmpb	$0, 7(%rdi)
	js	.LBB96_64
	cmpq	$7, %r12
	je	.LBB96_48
	jmp	.LBB96_64
.LBB96_24:
	movq	%r8, %r15
	movq	%rsi, %r14
	movl	$248, %edi
	movl	$8, %esi
	callq	rattle_alloc
	movq	%rdx, (%rsp)
	testb	$1, %al
	je	.LBB96_131
	movq	(%rsp), %rax
	movl	$0, (%rax)
	movq	%rax, 8(%rsp)
	xorl	%eax, %eax
	movq	%r14, %rsi
	movq	%r15, %r8
.LBB96_26:
	movzwl	%ax, %ecx
	movl	$15, %ebp
	subq	%rcx, %rbp
	movq	208(%rsp), %rax
	addq	%rsi, %rax
	movq	%rcx, 56(%rsp)
	negb	%cl
	movb	%cl, 72(%rsp)
	xorl	%edx, %edx
	movq	(%rsp), %rcx
	movq	%rcx, %rdi
	movq	$0, 16(%rsp)
	movq	%rcx, 32(%rsp)
	movq	%rbp, 48(%rsp)
	xorl	%r14d, %r14d
	movq	%rdi, %rsi
	movzwl	(%rdi), %edi
	testq	%rdi, %rdi
	je	.LBB96_42
.LBB96_27:
	movq	%rdx, 24(%rsp)
	movq	%r8, %rdx
	xorl	%ecx, %ecx
	.p2align	4
.LBB96_30:
	movq	%rcx, %r8
	shlq	$4, %r8
	movq	8(%rsi,%r8), %r9
	movq	16(%rsi,%r8), %r8
	cmpq	%r12, %r8
	movq	%r12, %r13
	cmovbq	%r8, %r13
	xorl	%r11d, %r11d
	cmpq	$64, %r13
	jb	.LBB96_34
	movq	%r13, %r10
	.p2align	4
.LBB96_32:
	movdqu	-48(%rax,%r11), %xmm0
	movdqu	-32(%rax,%r11), %xmm1
	movdqu	-16(%rax,%r11), %xmm2
	movdqu	(%rax,%r11), %xmm3
	movdqu	(%r9,%r11), %xmm4
	pcmpeqb	%xmm0, %xmm4
	movdqu	16(%r9,%r11), %xmm0
	pcmpeqb	%xmm1, %xmm0
	movdqu	32(%r9,%r11), %xmm1
	pcmpeqb	%xmm2, %xmm1
	pand	%xmm4, %xmm1
	movdqu	48(%r9,%r11), %xmm2
	pcmpeqb	%xmm3, %xmm2
	pand	%xmm0, %xmm2
	pand	%xmm1, %xmm2
	pmovmskb	%xmm2, %r15d
	cmpl	$65535, %r15d
	jne	.LBB96_34
	addq	$64, %r11
	addq	$-64, %r10
	cmpq	$63, %r10
	ja	.LBB96_32
.LBB96_34:
	movq	%r13, %r10
	subq	%r11, %r10
	cmpq	$8, %r10
	jb	.LBB96_37
	.p2align	4
.LBB96_35:
	movq	(%rbx,%r11), %r15
	cmpq	(%r9,%r11), %r15
	jne	.LBB96_37
	addq	$8, %r11
	addq	$-8, %r10
	cmpq	$7, %r10
	ja	.LBB96_35
.LBB96_37:
	cmpq	%r13, %r11
	jae	.LBB96_40
	.p2align	4
.LBB96_38:
	movzbl	(%r9,%r11), %r10d
	cmpb	%r10b, (%rbx,%r11)
	jne	.LBB96_28
	incq	%r11
	cmpq	%r11, %r13
	jne	.LBB96_38
.LBB96_40:
	cmpq	%r8, %r12
	je	.LBB96_125
.LBB96_28:
	jb	.LBB96_44
	incq	%rcx
	cmpq	%rdi, %rcx
	jne	.LBB96_30
	movq	%rdi, %rcx
.LBB96_44:
	movq	%rdx, %r8
	movq	24(%rsp), %rdx
	jmp	.LBB96_45
	.p2align	4
.LBB96_42:
	xorl	%ecx, %ecx
.LBB96_45:
	shlq	$4, %r14
	addq	%rcx, %r14
	incq	%rbp
	cmpw	$0, 2(%rsi)
	je	.LBB96_59
	movq	248(%rsi,%rcx,8), %rdi
	incq	%rdx
	incb	72(%rsp)
	movq	%rcx, 16(%rsp)
	movq	%rsi, 32(%rsp)
	movq	%rdi, %rsi
	movzwl	(%rdi), %edi
	testq	%rdi, %rdi
	jne	.LBB96_27
	jmp	.LBB96_42
.LBB96_47:
	movq	%rdi, %r15
	movq	%rbx, %rdi
	movq	%r12, %rsi
	movq	%r8, %r13
	callq	"amqp_in_place::read::is_ascii_by_words"
	movq	%r13, %r8
	movq	%r15, %rdi
	testb	%al, %al
	je	.LBB96_64
	.p2align	4
.LBB96_48:
	leaq	(%r12,%rdi), %rbx
	incq	%rbx
	movq	%r14, %r15
	subq	%r12, %r14
	leaq	160(%rsp), %rdi
	movl	%r8d, %esi
	movq	%rbx, %rdx
	movq	%r14, %rcx
	movl	104(%rsp), %r8d
	callq	"amqp_in_place::rabbitmq::warning::in_value"
	cmpb	$0, 160(%rsp)
	jne	.LBB96_128
	movq	152(%rsp), %rax
	leaq	(%rax,%r12), %r13
	incq	%r13
	cmpb	$1, 168(%rsp)
	je	.LBB96_132
	cmpq	232(%rsp), %r15
	jbe	.LBB96_2
	movzbl	(%rbx), %eax
	xorl	%esi, %esi
	addl	$-65, %eax
	cmpl	$55, %eax
	ja	.LBB96_3
	leaq	.LJTI96_1(%rip), %rcx
	movslq	(%rcx,%rax,4), %rax
	addq	%rcx, %rax
	jmpq	*%rax
.LBB96_53:
	movl	$5, %esi
	cmpq	$5, %r14
	jb	.LBB96_3
	movl	1(%rbx), %esi
	bswapl	%esi
	addq	$5, %rsi
	jmp	.LBB96_3
.LBB96_55:
	movl	$9, %esi
	jmp	.LBB96_3
.LBB96_56:
	movl	$3, %esi
	jmp	.LBB96_3
.LBB96_57:
	movl	$5, %esi
	jmp	.LBB96_3
.LBB96_58:
	movl	$2, %esi
	jmp	.LBB96_3
.LBB96_59:
	movabsq	$9223372036854775806, %rax
	cmpq	%rax, 144(%rsp)
	ja	.LBB96_143
	movq	%rdx, 24(%rsp)
	movq	%rbp, %rcx
	subq	48(%rsp), %rcx
	cmpq	$1, %rcx
	movq	16(%rsp), %r10
	movq	32(%rsp), %rsi
	leaq	248(%rsi,%r10,8), %rax
	leaq	8(%rsp), %rdx
	movq	%rdx, 80(%rsp)
	cmoveq	%rdx, %rax
	movq	(%rax), %rax
	cmpw	$15, (%rax)
	jae	.LBB96_66
	shlq	$3, %r10
	movq	40(%rsp), %rdi
	jmp	.LBB96_122
.LBB96_62:
	movl	$6, %esi
	jmp	.LBB96_3
.LBB96_63:
	movl	$1, %esi
	jmp	.LBB96_3
.LBB96_64:
	movq	%rdi, %r15
	movq	%rbx, %rdi
	movq	%r12, %rsi
	movq	%r8, %rbx
	callq	"amqp_in_place::read::is_utf8"
	testb	%al, %al
	je	.LBB96_139
	movq	%rbx, %r8
	movq	%r15, %rdi
	jmp	.LBB96_48
.LBB96_66:
	movq	(%rsp), %rax
	cmpw	$15, (%rax)
	movq	40(%rsp), %rdi
	jae	.LBB96_68
	movq	48(%rsp), %rax
	jmp	.LBB96_71
.LBB96_68:
	cmpw	$10, 56(%rsp)
	ja	.LBB96_143
	movq	%r8, %r15
	movq	(%rsp), %r13
	movl	$376, %edi
	movl	$8, %esi
	callq	rattle_alloc
	testb	$1, %al
	je	.LBB96_143
	movq	56(%rsp), %rcx
	leal	1(%rcx), %eax
	movw	%ax, 2(%rdx)
	movq	%r13, 248(%rdx)
	movw	$0, (%rdx)
	movq	%rdx, 8(%rsp)
	movl	$14, %eax
	subq	%rcx, %rax
	movq	%rdx, (%rsp)
	movq	40(%rsp), %rdi
	movq	%r15, %r8
	movq	16(%rsp), %r10
	movq	32(%rsp), %rsi
.LBB96_71:
	pxor	%xmm0, %xmm0
	movdqa	%xmm0, 112(%rsp)
	movq	%rbp, %rcx
	subq	%rax, %rcx
	movq	%rcx, 192(%rsp)
	jbe	.LBB96_78
	movl	%ebp, %ecx
	subl	%eax, %ecx
	testb	$3, %cl
	je	.LBB96_75
	movzbl	72(%rsp), %ecx
	subb	%al, %cl
	movzbl	%cl, %ecx
	andl	$3, %ecx
	movq	24(%rsp), %rdx
	.p2align	4
.LBB96_74:
	movl	%r14d, %esi
	andb	$15, %sil
	movb	%sil, 111(%rsp,%rbp)
	decq	%rbp
	shrq	$4, %r14
	decq	%rcx
	jne	.LBB96_74
	jmp	.LBB96_76
.LBB96_75:
	movq	24(%rsp), %rdx
.LBB96_76:
	addq	48(%rsp), %rdx
	subq	%rax, %rdx
	cmpq	$3, %rdx
	movq	16(%rsp), %r10
	movq	32(%rsp), %rsi
	jb	.LBB96_78
	.p2align	4
.LBB96_77:
	movl	%r14d, %ecx
	andb	$15, %cl
	movb	%cl, 111(%rsp,%rbp)
	movl	%r14d, %ecx
	shrb	$4, %cl
	movb	%cl, 110(%rsp,%rbp)
	movl	%r14d, %ecx
	shrl	$8, %ecx
	andb	$15, %cl
	movb	%cl, 109(%rsp,%rbp)
	movl	%r14d, %ecx
	shrl	$12, %ecx
	andb	$15, %cl
	movb	%cl, 108(%rsp,%rbp)
	addq	$-4, %rbp
	shrq	$16, %r14
	cmpq	%rbp, %rax
	jb	.LBB96_77
.LBB96_78:
	movdqa	112(%rsp), %xmm0
	movdqa	%xmm0, 240(%rsp)
	movl	$16, %ebp
	subq	%rax, %rbp
	cmpq	$2, %rbp
	jb	.LBB96_120
	leaq	(%rsp,%rax), %r9
	addq	$240, %r9
	movq	%r8, 136(%rsp)
	jmp	.LBB96_82
.LBB96_80:
	leal	1(%r10), %ecx
	movb	%cl, (%r9)
	addb	$-8, %al
	movb	%al, 1(%r9)
	movzbl	%cl, %r10d
	movl	%r10d, %ecx
	shll	$3, %ecx
.LBB96_81:
	leaq	(%rsi,%rcx), %rax
	addq	$248, %rax
	movq	%rax, 80(%rsp)
	incq	%r9
	cmpq	$2, %rbp
	leaq	-1(%rbp), %rbp
	jbe	.LBB96_119
.LBB96_82:
	movzbl	(%r9), %r10d
	movq	80(%rsp), %rax
	movq	(%rax), %rsi
	movl	%r10d, %ecx
	shll	$3, %ecx
	movq	248(%rsi,%rcx), %rax
	cmpw	$15, (%rax)
	jb	.LBB96_81
	movq	%rcx, 24(%rsp)
	movq	%r9, (%rsp)
	movq	%r10, 16(%rsp)
	movzwl	2(%rsi), %r13d
	decq	%r13
	movq	%rbp, 72(%rsp)
	je	.LBB96_85
	movl	$376, %edi
	movl	$8, %esi
	callq	rattle_alloc
	testb	$1, %al
	jne	.LBB96_86
	jmp	.LBB96_140
.LBB96_85:
	movl	$248, %edi
	movl	$8, %esi
	callq	rattle_alloc
	testb	$1, %al
	je	.LBB96_140
.LBB96_86:
	movq	%rdx, %r14
	movw	%r13w, 2(%rdx)
	leaq	8(%rdx), %rdi
	movq	80(%rsp), %rax
	movq	(%rax), %rax
	movzwl	(%rax), %r13d
	leaq	1(%r13), %rdx
	xorl	%esi, %esi
	cmpw	$0, 2(%rax)
	movq	%rdx, 56(%rsp)
	cmovneq	%rdx, %rsi
	movq	%rsi, 48(%rsp)
	movq	%rax, 32(%rsp)
	movq	24(%rsp), %rcx
	movq	248(%rax,%rcx), %rbp
	movzwl	2(%rbp), %r9d
	movzwl	(%rbp), %r15d
	leaq	-8(%r15), %r10
	leaq	136(%rbp), %rsi
	movq	%r10, %rdx
	shlq	$4, %rdx
	movq	%rdi, %rax
	subq	%rsi, %rax
	cmpq	%rdx, %rax
	jae	.LBB96_90
	testq	%r10, %r10
	je	.LBB96_96
	movl	%r15d, %eax
	andl	$7, %eax
	leal	-9(%r15), %ecx
	cmpw	$7, %cx
	jae	.LBB96_91
	xorl	%ecx, %ecx
	jmp	.LBB96_94
.LBB96_90:
	movq	%r15, 96(%rsp)
	movl	%r9d, %r15d
	callq	memmove@PLT
	movl	%r15d, %r9d
	movq	96(%rsp), %r15
	leaq	-8(%r15), %r10
	jmp	.LBB96_96
.LBB96_91:
	movq	%r10, %rdx
	andq	$-8, %rdx
	leaq	120(%r14), %rsi
	leaq	248(%rbp), %rdi
	xorl	%ecx, %ecx
	xorl	%r8d, %r8d
	.p2align	4
.LBB96_92:
	movups	-112(%rdi,%r8), %xmm0
	movups	%xmm0, -112(%rsi,%r8)
	movups	-96(%rdi,%r8), %xmm0
	movups	%xmm0, -96(%rsi,%r8)
	movups	-80(%rdi,%r8), %xmm0
	movups	%xmm0, -80(%rsi,%r8)
	movups	-64(%rdi,%r8), %xmm0
	movups	%xmm0, -64(%rsi,%r8)
	movups	-48(%rdi,%r8), %xmm0
	movups	%xmm0, -48(%rsi,%r8)
	movups	-32(%rdi,%r8), %xmm0
	movups	%xmm0, -32(%rsi,%r8)
	movups	-16(%rdi,%r8), %xmm0
	movups	%xmm0, -16(%rsi,%r8)
	movdqu	(%rdi,%r8), %xmm0
	movdqu	%xmm0, (%rsi,%r8)
	addq	$8, %rcx
	subq	$-128, %r8
	cmpq	%rcx, %rdx
	jne	.LBB96_92
	testq	%rax, %rax
	je	.LBB96_96
.LBB96_94:
	shlq	$4, %rcx
	leaq	(%rcx,%rbp), %rdx
	addq	$136, %rdx
	addq	%r14, %rcx
	addq	$8, %rcx
	shll	$4, %eax
	xorl	%esi, %esi
	.p2align	4
.LBB96_95:
	movdqu	(%rdx,%rsi), %xmm0
	movdqu	%xmm0, (%rcx,%rsi)
	addq	$16, %rsi
	cmpq	%rsi, %rax
	jne	.LBB96_95
.LBB96_96:
	movq	120(%rbp), %rax
	movq	%rax, 96(%rsp)
	movq	128(%rbp), %r8
	testw	%r9w, %r9w
	je	.LBB96_112
	leaq	248(%r14), %rdi
	leaq	312(%rbp), %rsi
	leaq	-56(,%r15,8), %rdx
	movq	%rdi, %rax
	subq	%rsi, %rax
	cmpq	%rdx, %rax
	jae	.LBB96_101
	movq	%r15, %rax
	addq	$-7, %rax
	je	.LBB96_112
	cmpl	$4, %eax
	jb	.LBB96_100
	movq	%r14, %rcx
	subq	%rbp, %rcx
	addq	$-64, %rcx
	cmpq	$32, %rcx
	jae	.LBB96_104
.LBB96_100:
	xorl	%ecx, %ecx
.LBB96_107:
	movq	%r8, 88(%rsp)
	movl	%r15d, %r8d
	notl	%r8d
	movq	%rcx, %rdx
	testb	$3, %r8b
	je	.LBB96_110
	leal	1(%r15), %r8d
	andl	$3, %r8d
	movq	%rcx, %rdx
	.p2align	4
.LBB96_109:
	movq	(%rsi,%rdx,8), %r9
	movq	%r9, (%rdi,%rdx,8)
	incq	%rdx
	decq	%r8
	jne	.LBB96_109
.LBB96_110:
	negq	%rcx
	addq	%r15, %rcx
	addq	$-8, %rcx
	cmpl	$3, %ecx
	movq	88(%rsp), %r8
	jb	.LBB96_112
	.p2align	4
.LBB96_111:
	movq	312(%rbp,%rdx,8), %rcx
	movq	%rcx, 248(%r14,%rdx,8)
	movq	320(%rbp,%rdx,8), %rcx
	movq	%rcx, 256(%r14,%rdx,8)
	movq	328(%rbp,%rdx,8), %rcx
	movq	%rcx, 264(%r14,%rdx,8)
	movq	336(%rbp,%rdx,8), %rcx
	movq	%rcx, 272(%r14,%rdx,8)
	addq	$4, %rdx
	cmpq	%rdx, %rax
	jne	.LBB96_111
	jmp	.LBB96_112
.LBB96_101:
	movq	%r10, %r15
	movq	%r8, 88(%rsp)
	callq	memmove@PLT
	movq	88(%rsp), %r8
	movq	%r15, %r10
.LBB96_112:
	movq	32(%rsp), %rsi
	leaq	248(%rsi), %rcx
	leaq	8(%rsi), %rax
	movw	$7, (%rbp)
	movw	%r10w, (%r14)
	movq	16(%rsp), %r10
	movq	%rbp, (%rcx,%r10,8)
	movl	%r10d, %ebp
	shll	$4, %ebp
	addq	%rax, %rbp
	cmpl	%r10d, %r13d
	je	.LBB96_114
	leaq	16(%rbp), %rdi
	subq	%r10, %r13
	shlq	$4, %r13
	movq	%rbp, %rsi
	movq	%r13, %rdx
	movq	%r8, %r15
	movq	%rcx, %r13
	callq	memmove@PLT
	movq	%r13, %rcx
	movq	%r15, %r8
	movq	32(%rsp), %rsi
	movq	16(%rsp), %r10
.LBB96_114:
	movq	96(%rsp), %rax
	movq	%rax, (%rbp)
	movq	%r8, 8(%rbp)
	leaq	1(%r10), %rax
	movq	48(%rsp), %rdx
	cmpl	%eax, %edx
	jne	.LBB96_116
	shll	$3, %edx
	jmp	.LBB96_117
.LBB96_116:
	leal	(,%rax,8), %r15d
	leaq	(%rcx,%r15), %rdi
	addq	$8, %rdi
	addq	%r15, %rcx
	subq	%rax, %rdx
	shlq	$3, %rdx
	movq	%rcx, %rsi
	callq	memmove@PLT
	movq	32(%rsp), %rsi
	movq	16(%rsp), %r10
	movq	%r15, %rdx
.LBB96_117:
	movq	40(%rsp), %rdi
	movq	136(%rsp), %r8
	movq	72(%rsp), %rbp
	movq	(%rsp), %r9
	movq	%r14, 248(%rsi,%rdx)
	movq	56(%rsp), %rax
	movw	%ax, (%rsi)
	movq	80(%rsp), %rax
	movq	%rsi, (%rax)
	movzbl	1(%r9), %eax
	cmpb	$8, %al
	jae	.LBB96_80
	movq	24(%rsp), %rcx
	jmp	.LBB96_81
.LBB96_104:
	movq	%rax, %rcx
	andq	$-4, %rcx
	xorl	%edx, %edx
	.p2align	4
.LBB96_105:
	movdqu	312(%rbp,%rdx,8), %xmm0
	movdqu	328(%rbp,%rdx,8), %xmm1
	movdqu	%xmm0, 248(%r14,%rdx,8)
	movdqu	%xmm1, 264(%r14,%rdx,8)
	addq	$4, %rdx
	cmpq	%rdx, %rcx
	jne	.LBB96_105
	cmpl	%ecx, %eax
	je	.LBB96_112
	jmp	.LBB96_107
.LBB96_119:
	movq	8(%rsp), %rax
	movq	%rax, (%rsp)
.LBB96_120:
	movq	(%rsp), %rax
	cmpw	$0, (%rax)
	je	.LBB96_141
	movzbl	255(%rsp), %r14d
	shlq	$3, %r10
	movq	192(%rsp), %rcx
.LBB96_122:
	cmpq	$1, %rcx
	leaq	248(%rsi,%r10), %rax
	leaq	8(%rsp), %r15
	cmovneq	%rax, %r15
	andl	$15, %r14d
	movq	(%r15), %rbp
	movzwl	(%rbp), %eax
	movl	%r14d, %r13d
	shll	$4, %r13d
	movq	%rax, %rdx
	subq	%r14, %rdx
	je	.LBB96_124
	leaq	8(%rbp), %rsi
	leaq	(%rsi,%r13), %rdi
	addq	$16, %rdi
	addq	%r13, %rsi
	shlq	$4, %rdx
	movq	%r8, %r14
	movq	%rax, 16(%rsp)
	callq	memmove@PLT
	movq	16(%rsp), %rax
	movq	%r14, %r8
	movq	40(%rsp), %rdi
.LBB96_124:
	incl	%eax
	movq	%rbx, 8(%rbp,%r13)
	movq	%r12, 16(%rbp,%r13)
	movw	%ax, (%rbp)
	movq	%rbp, (%r15)
	incq	144(%rsp)
	movb	$1, %bpl
	movq	200(%rsp), %r14
	jmp	.LBB96_48
.LBB96_125:
	andl	$15, %ecx
	addq	56(%rsp), %rbp
	cmpq	$15, %rbp
	movq	16(%rsp), %rax
	movq	32(%rsp), %rdx
	leaq	248(%rdx,%rax,8), %rax
	leaq	8(%rsp), %rdx
	cmovneq	%rax, %rdx
	movq	(%rdx), %rax
	movzwl	(%rax), %eax
	cmpl	%eax, %ecx
	jae	.LBB96_144
.LBB96_126:
	movq	8(%rsp), %rdi
	callq	"std_collections::btree::node::Node::destroy::<#a6f6331eefc34dfe>"
.LBB96_127:
	movq	64(%rsp), %rax
	movb	$0, (%rax)
	movq	$1, 8(%rax)
	movq	152(%rsp), %rcx
	movq	%rcx, 16(%rax)
	jmp	.LBB96_138
.LBB96_128:
	testb	%bpl, %bpl
	je	.LBB96_131
	movq	8(%rsp), %rdi
.LBB96_130:
	callq	"std_collections::btree::node::Node::destroy::<#a6f6331eefc34dfe>"
.LBB96_131:
	movq	64(%rsp), %rax
	movb	$1, (%rax)
	pxor	%xmm0, %xmm0
	movdqu	%xmm0, 8(%rax)
	jmp	.LBB96_138
.LBB96_132:
	addq	176(%rsp), %r13
	testb	%bpl, %bpl
	je	.LBB96_134
	movq	8(%rsp), %rdi
	callq	"std_collections::btree::node::Node::destroy::<#a6f6331eefc34dfe>"
.LBB96_134:
	movq	64(%rsp), %rax
	movb	$0, (%rax)
	movq	$1, 8(%rax)
	movq	%r13, 16(%rax)
	jmp	.LBB96_138
.LBB96_135:
	testb	%bpl, %bpl
	movq	64(%rsp), %rdi
	je	.LBB96_137
	movq	%rdi, %rbx
	movq	8(%rsp), %rdi
	callq	"std_collections::btree::node::Node::destroy::<#a6f6331eefc34dfe>"
	movq	%rbx, %rdi
.LBB96_137:
	movb	$0, (%rdi)
	pxor	%xmm0, %xmm0
	movdqu	%xmm0, 8(%rdi)
.LBB96_138:
	addq	$264, %rsp
	popq	%rbx
	popq	%r12
	popq	%r13
	popq	%r14
	popq	%r15
	popq	%rbp
	retq
.LBB96_139:
	cmpb	$1, %bpl
	je	.LBB96_126
	jmp	.LBB96_127
.LBB96_140:
	movq	8(%rsp), %rax
	movq	%rax, (%rsp)
	cmpw	$0, (%rax)
	jne	.LBB96_143
.LBB96_141:
	movq	(%rsp), %rax
	cmpw	$0, 2(%rax)
	je	.LBB96_143
	movq	(%rsp), %rdi
	movq	248(%rdi), %rbx
	callq	rattle_dealloc
	movq	%rbx, (%rsp)
.LBB96_143:
	movq	(%rsp), %rdi
	jmp	.LBB96_130
.LBB96_144:
	ud2
.Lfunc_end96:
	.size	"amqp_in_place::rabbitmq::warning::in_pairs", .Lfunc_end96-"amqp_in_place::rabbitmq::warning::in_pairs"
	.section	".rodata.amqp_in_place::rabbitmq::warning::in_pairs","a",@progbits
	.p2align	2, 0x0
.LJTI96_0:
	.long	.LBB96_5-.LJTI96_0
	.long	.LBB96_8-.LJTI96_0
	.long	.LBB96_7-.LJTI96_0
	.long	.LBB96_48-.LJTI96_0
	.long	.LBB96_48-.LJTI96_0
.LJTI96_1:
	.long	.LBB96_53-.LJTI96_1
	.long	.LBB96_58-.LJTI96_1
	.long	.LBB96_3-.LJTI96_1
	.long	.LBB96_62-.LJTI96_1
	.long	.LBB96_3-.LJTI96_1
	.long	.LBB96_53-.LJTI96_1
	.long	.LBB96_3-.LJTI96_1
	.long	.LBB96_3-.LJTI96_1
	.long	.LBB96_57-.LJTI96_1
	.long	.LBB96_3-.LJTI96_1
	.long	.LBB96_3-.LJTI96_1
	.long	.LBB96_55-.LJTI96_1
	.long	.LBB96_3-.LJTI96_1
	.long	.LBB96_3-.LJTI96_1
	.long	.LBB96_3-.LJTI96_1
	.long	.LBB96_3-.LJTI96_1
	.long	.LBB96_3-.LJTI96_1
	.long	.LBB96_3-.LJTI96_1
	.long	.LBB96_53-.LJTI96_1
	.long	.LBB96_55-.LJTI96_1
	.long	.LBB96_56-.LJTI96_1
	.long	.LBB96_63-.LJTI96_1
	.long	.LBB96_3-.LJTI96_1
	.long	.LBB96_3-.LJTI96_1
	.long	.LBB96_3-.LJTI96_1
	.long	.LBB96_3-.LJTI96_1
	.long	.LBB96_3-.LJTI96_1
	.long	.LBB96_3-.LJTI96_1
	.long	.LBB96_3-.LJTI96_1
	.long	.LBB96_3-.LJTI96_1
	.long	.LBB96_3-.LJTI96_1
	.long	.LBB96_3-.LJTI96_1
	.long	.LBB96_3-.LJTI96_1
	.long	.LBB96_58-.LJTI96_1
	.long	.LBB96_3-.LJTI96_1
	.long	.LBB96_55-.LJTI96_1
	.long	.LBB96_3-.LJTI96_1
	.long	.LBB96_57-.LJTI96_1
	.long	.LBB96_3-.LJTI96_1
	.long	.LBB96_3-.LJTI96_1
	.long	.LBB96_57-.LJTI96_1
	.long	.LBB96_3-.LJTI96_1
	.long	.LBB96_3-.LJTI96_1
	.long	.LBB96_55-.LJTI96_1
	.long	.LBB96_3-.LJTI96_1
	.long	.LBB96_3-.LJTI96_1
	.long	.LBB96_3-.LJTI96_1
	.long	.LBB96_3-.LJTI96_1
	.long	.LBB96_3-.LJTI96_1
	.long	.LBB96_3-.LJTI96_1
	.long	.LBB96_56-.LJTI96_1
	.long	.LBB96_58-.LJTI96_1
	.long	.LBB96_56-.LJTI96_1
	.long	.LBB96_3-.LJTI96_1
	.long	.LBB96_3-.LJTI96_1
	.long	.LBB96_53-.LJTI96_1

	.section	".text.std_collections::btree::node::Node::destroy::<#a6f6331eefc34dfe>","ax",@progbits
	.p2align	4
	.type	"std_collections::btree::node::Node::destroy::<#a6f6331eefc34dfe>",@function
"std_collections::btree::node::Node::destroy::<#a6f6331eefc34dfe>":
	pushq	%rbp
	pushq	%r15
	pushq	%r14
	pushq	%r13
	pushq	%r12
	pushq	%rbx
	subq	$24, %rsp
	movq	%rdi, %rbx
	movzwl	(%rdi), %r14d
	leaq	8(%rdi), %r15
	cmpw	$0, 2(%rdi)
	je	.LBB97_5
	testq	%r14, %r14
	je	.LBB97_61
	leaq	248(%rbx), %r13
	leaq	1(%r14), %rbp
	jmp	.LBB97_3
	.p2align	4
.LBB97_60:
	testq	%r14, %r14
	je	.LBB97_61
.LBB97_3:
	movq	(%r13), %r12
	decq	%rbp
	xorl	%eax, %eax
	cmpq	$257, %rbp
	jb	.LBB97_4
	leaq	304(%rbx), %rcx
	.p2align	4
.LBB97_40:
	xorl	%edx, %edx
	.p2align	4
.LBB97_41:
	movups	-48(%rcx,%rdx,8), %xmm0
	movups	-32(%rcx,%rdx,8), %xmm1
	movups	-16(%rcx,%rdx,8), %xmm2
	movups	(%rcx,%rdx,8), %xmm3
	movups	%xmm0, -56(%rcx,%rdx,8)
	movups	%xmm1, -40(%rcx,%rdx,8)
	movups	%xmm2, -24(%rcx,%rdx,8)
	movups	%xmm3, -8(%rcx,%rdx,8)
	addq	$8, %rdx
	cmpq	$256, %rdx
	jne	.LBB97_41
	addq	$256, %rax
	movq	%rbp, %rdx
	subq	%rax, %rdx
	addq	$2048, %rcx
	cmpq	$256, %rdx
	ja	.LBB97_40
	cmpq	%rax, %rbp
	je	.LBB97_45
.LBB97_44:
	leaq	(,%rax,8), %rdi
	addq	%r13, %rdi
	leaq	8(,%rax,8), %rsi
	addq	%r13, %rsi
	shlq	$3, %rdx
	callq	memmove@PLT
.LBB97_45:
	movq	%r12, %rdi
	callq	"std_collections::btree::node::Node::destroy::<#a6f6331eefc34dfe>"
	decq	%r14
	cmpq	$129, %r14
	jb	.LBB97_46
	xorl	%ecx, %ecx
	leaq	72(%rbx), %rax
	.p2align	4
.LBB97_48:
	xorl	%edx, %edx
	.p2align	4
.LBB97_49:
	movups	-48(%rax,%rdx), %xmm0
	movups	-32(%rax,%rdx), %xmm1
	movups	-16(%rax,%rdx), %xmm2
	movups	(%rax,%rdx), %xmm3
	movups	%xmm0, -64(%rax,%rdx)
	movups	%xmm1, -48(%rax,%rdx)
	movups	%xmm2, -32(%rax,%rdx)
	movups	%xmm3, -16(%rax,%rdx)
	addq	$64, %rdx
	cmpq	$2048, %rdx
	jne	.LBB97_49
	subq	$-128, %rcx
	movq	%r14, %rsi
	subq	%rcx, %rsi
	addq	$2048, %rax
	cmpq	$128, %rsi
	ja	.LBB97_48
	movq	%rcx, %rax
	shlq	$4, %rax
	leaq	(%r15,%rax), %rdx
	cmpq	%rcx, %r14
	je	.LBB97_60
	jmp	.LBB97_53
	.p2align	4
.LBB97_4:
	movq	%rbp, %rdx
	cmpq	%rax, %rbp
	jne	.LBB97_44
	jmp	.LBB97_45
	.p2align	4
.LBB97_46:
	xorl	%eax, %eax
	movq	%r15, %rdx
	movq	%r14, %rsi
	xorl	%ecx, %ecx
	cmpq	%rcx, %r14
	je	.LBB97_60
.LBB97_53:
	leaq	-1(%rsi), %rdi
	movl	%esi, %ecx
	andl	$3, %ecx
	cmpq	$3, %rdi
	jae	.LBB97_55
	xorl	%edi, %edi
	jmp	.LBB97_58
	.p2align	4
.LBB97_55:
	andl	$252, %esi
	leaq	56(%rbx), %rdi
	leaq	(%rdi,%rax), %r8
	leaq	64(%rdx), %r9
	xorl	%edi, %edi
	xorl	%r10d, %r10d
	.p2align	4
.LBB97_56:
	movups	-48(%r9,%r10), %xmm0
	movups	%xmm0, -48(%r8,%r10)
	movups	-32(%r9,%r10), %xmm0
	movups	%xmm0, -32(%r8,%r10)
	movups	-16(%r9,%r10), %xmm0
	movups	%xmm0, -16(%r8,%r10)
	movups	(%r9,%r10), %xmm0
	movups	%xmm0, (%r8,%r10)
	addq	$4, %rdi
	addq	$64, %r10
	cmpq	%rdi, %rsi
	jne	.LBB97_56
	testq	%rcx, %rcx
	je	.LBB97_60
.LBB97_58:
	shlq	$4, %rdi
	addq	%rdi, %rdx
	addq	$16, %rdx
	leaq	8(%rbx), %rsi
	addq	%rsi, %rax
	addq	%rdi, %rax
	shll	$4, %ecx
	xorl	%esi, %esi
	.p2align	4
.LBB97_59:
	movups	(%rdx,%rsi), %xmm0
	movups	%xmm0, (%rax,%rsi)
	addq	$16, %rsi
	cmpq	%rsi, %rcx
	jne	.LBB97_59
	jmp	.LBB97_60
.LBB97_61:
	movq	248(%rbx), %rdi
	callq	"std_collections::btree::node::Node::destroy::<#a6f6331eefc34dfe>"
	jmp	.LBB97_62
.LBB97_5:
	cmpw	$15, %r14w
	jbe	.LBB97_6
	movl	%r14d, %edx
	shrl	%edx
	subq	%rdx, %r14
	shlq	$4, %r14
	addq	%r15, %r14
	movq	%r15, %rdi
	movq	%r14, %rsi
	callq	"core::slice::edits::mirror::<3'&[](*,i64,)>"
	jmp	.LBB97_62
.LBB97_6:
	cmpw	$2, %r14w
	jb	.LBB97_62
	leaq	-2(%r14), %rcx
	movq	%rcx, %rax
	shrq	%rax
	movq	%r14, %rdx
	decq	%rdx
	je	.LBB97_9
	shlq	$4, %rdx
	movups	(%r15), %xmm0
	movaps	%xmm0, (%rsp)
	movups	(%r15,%rdx), %xmm0
	movups	%xmm0, (%r15)
	movaps	(%rsp), %xmm0
	movups	%xmm0, (%r15,%rdx)
.LBB97_9:
	testq	%rax, %rax
	je	.LBB97_62
	cmpq	$1, %rcx
	jbe	.LBB97_11
	shlq	$4, %rcx
	movups	24(%rbx), %xmm0
	movaps	%xmm0, (%rsp)
	movups	(%r15,%rcx), %xmm0
	movups	%xmm0, 24(%rbx)
	movaps	(%rsp), %xmm0
	movups	%xmm0, (%r15,%rcx)
	jmp	.LBB97_14
.LBB97_11:
	testq	%rcx, %rcx
	jne	.LBB97_14
	movups	(%r15), %xmm0
	movaps	%xmm0, (%rsp)
	movups	24(%rbx), %xmm0
	movups	%xmm0, (%r15)
	movaps	(%rsp), %xmm0
	movups	%xmm0, 24(%rbx)
.LBB97_14:
	cmpq	$1, %rax
	je	.LBB97_62
	leaq	-3(%r14), %rcx
	cmpq	$2, %rcx
	jbe	.LBB97_16
	shlq	$4, %rcx
	movups	40(%rbx), %xmm0
	movaps	%xmm0, (%rsp)
	movups	(%r15,%rcx), %xmm0
	movups	%xmm0, 40(%rbx)
	movaps	(%rsp), %xmm0
	movups	%xmm0, (%r15,%rcx)
	jmp	.LBB97_19
.LBB97_16:
	cmpl	$2, %ecx
	je	.LBB97_19
	shlq	$4, %rcx
	movups	(%r15,%rcx), %xmm0
	movaps	%xmm0, (%rsp)
	movups	40(%rbx), %xmm0
	movups	%xmm0, (%r15,%rcx)
	movaps	(%rsp), %xmm0
	movups	%xmm0, 40(%rbx)
.LBB97_19:
	cmpq	$2, %rax
	je	.LBB97_62
	leaq	-4(%r14), %rcx
	cmpq	$3, %rcx
	jbe	.LBB97_21
	shlq	$4, %rcx
	movups	56(%rbx), %xmm0
	movaps	%xmm0, (%rsp)
	movups	(%r15,%rcx), %xmm0
	movups	%xmm0, 56(%rbx)
	movaps	(%rsp), %xmm0
	movups	%xmm0, (%r15,%rcx)
	jmp	.LBB97_24
.LBB97_21:
	cmpl	$3, %ecx
	je	.LBB97_24
	shlq	$4, %rcx
	movups	(%r15,%rcx), %xmm0
	movaps	%xmm0, (%rsp)
	movups	56(%rbx), %xmm0
	movups	%xmm0, (%r15,%rcx)
	movaps	(%rsp), %xmm0
	movups	%xmm0, 56(%rbx)
.LBB97_24:
	cmpq	$3, %rax
	je	.LBB97_62
	leaq	-5(%r14), %rcx
	cmpq	$4, %rcx
	jbe	.LBB97_26
	shlq	$4, %rcx
	movups	72(%rbx), %xmm0
	movaps	%xmm0, (%rsp)
	movups	(%r15,%rcx), %xmm0
	movups	%xmm0, 72(%rbx)
	movaps	(%rsp), %xmm0
	movups	%xmm0, (%r15,%rcx)
	jmp	.LBB97_29
.LBB97_26:
	cmpl	$4, %ecx
	je	.LBB97_29
	shlq	$4, %rcx
	movups	(%r15,%rcx), %xmm0
	movaps	%xmm0, (%rsp)
	movups	72(%rbx), %xmm0
	movups	%xmm0, (%r15,%rcx)
	movaps	(%rsp), %xmm0
	movups	%xmm0, 72(%rbx)
.LBB97_29:
	cmpq	$4, %rax
	je	.LBB97_62
	leaq	-6(%r14), %rcx
	cmpq	$5, %rcx
	jbe	.LBB97_31
	shlq	$4, %rcx
	movups	88(%rbx), %xmm0
	movaps	%xmm0, (%rsp)
	movups	(%r15,%rcx), %xmm0
	movups	%xmm0, 88(%rbx)
	movaps	(%rsp), %xmm0
	movups	%xmm0, (%r15,%rcx)
	jmp	.LBB97_34
.LBB97_31:
	cmpl	$5, %ecx
	je	.LBB97_34
	shlq	$4, %rcx
	movups	(%r15,%rcx), %xmm0
	movaps	%xmm0, (%rsp)
	movups	88(%rbx), %xmm0
	movups	%xmm0, (%r15,%rcx)
	movaps	(%rsp), %xmm0
	movups	%xmm0, 88(%rbx)
.LBB97_34:
	cmpq	$5, %rax
	je	.LBB97_62
	addq	$-7, %r14
	cmpq	$6, %r14
	jbe	.LBB97_36
	shlq	$4, %r14
	movups	104(%rbx), %xmm0
	movaps	%xmm0, (%rsp)
	movups	(%r15,%r14), %xmm0
	movups	%xmm0, 104(%rbx)
	movaps	(%rsp), %xmm0
	movups	%xmm0, (%r15,%r14)
	jmp	.LBB97_62
.LBB97_36:
	cmpl	$6, %r14d
	je	.LBB97_62
	shlq	$4, %r14
	movups	(%r15,%r14), %xmm0
	movaps	%xmm0, (%rsp)
	movups	104(%rbx), %xmm0
	movups	%xmm0, (%r15,%r14)
	movaps	(%rsp), %xmm0
	movups	%xmm0, 104(%rbx)
.LBB97_62:
	cmpw	$0, 2(%rbx)
	movq	%rbx, %rdi
	addq	$24, %rsp
	popq	%rbx
	popq	%r12
	popq	%r13
	popq	%r14
	popq	%r15
	popq	%rbp
	jmp	rattle_dealloc
.Lfunc_end97:
	.size	"std_collections::btree::node::Node::destroy::<#a6f6331eefc34dfe>", .Lfunc_end97-"std_collections::btree::node::Node::destroy::<#a6f6331eefc34dfe>"

	.section	".text.core::slice::edits::mirror::<3'&[](*,i64,)>","ax",@progbits
	.p2align	4
	.type	"core::slice::edits::mirror::<3'&[](*,i64,)>",@function
"core::slice::edits::mirror::<3'&[](*,i64,)>":
	movq	%rdx, %rax
	shlq	$4, %rax
	addq	%rsi, %rax
	addq	$-16, %rax
	.p2align	4
.LBB98_1:
	movups	(%rdi), %xmm0
	movaps	%xmm0, -24(%rsp)
	movups	(%rax), %xmm0
	movups	%xmm0, (%rdi)
	movaps	-24(%rsp), %xmm0
	movups	%xmm0, (%rax)
	addq	$16, %rdi
	addq	$-16, %rax
	decq	%rdx
	jne	.LBB98_1
	retq
.Lfunc_end98:
	.size	"core::slice::edits::mirror::<3'&[](*,i64,)>", .Lfunc_end98-"core::slice::edits::mirror::<3'&[](*,i64,)>"

	.section	.text.amqpv_canonical,"ax",@progbits
	.globl	amqpv_canonical
	.p2align	4
	.type	amqpv_canonical,@function
amqpv_canonical:
	pushq	%rbp
	pushq	%r15
	pushq	%r14
	pushq	%r13
	pushq	%r12
	pushq	%rbx
	subq	$248, %rsp
	movq	%rcx, %r12
	xorl	%r14d, %r14d
	testq	%rsi, %rsi
	sete	%al
	xorps	%xmm0, %xmm0
	movaps	%xmm0, 64(%rsp)
	movaps	%xmm0, 80(%rsp)
	movaps	%xmm0, 192(%rsp)
	movq	$0, 208(%rsp)
	movaps	%xmm0, 160(%rsp)
	movq	$0, 176(%rsp)
	movl	24(%rdi), %ecx
	movl	$12, %ebp
	cmpl	$31, %ecx
	ja	.LBB99_116
	movq	%rdx, %r8
	movq	%rdi, %r15
	movb	%al, %r14b
	shll	$12, %r14d
	movq	(%rdi), %r13
	movq	8(%rdi), %rax
	testb	$1, %cl
	movq	%r12, 8(%rsp)
	jne	.LBB99_8
	movl	16(%r15), %edx
	movl	20(%r15), %ecx
	movq	%r13, %rdi
	movq	%rsi, %rbx
	movq	%rax, %rsi
	movq	%r8, %r12
	callq	"amqp_in_place::canonical::canonical_len"
	movq	%r12, %r8
	movq	%rbx, %rsi
	xorl	%ecx, %ecx
	cmpb	$1, %al
	cmovneq	%rcx, %r13
	cmovneq	%rcx, %rdx
	leaq	(%rsi,%r14), %r12
	cmpb	$1, %al
	je	.LBB99_13
.LBB99_3:
	movl	24(%r15), %eax
	cmpl	$31, %eax
	ja	.LBB99_26
	movq	(%r15), %r9
	movq	8(%r15), %r13
	testb	$1, %al
	movq	%rsi, 104(%rsp)
	movq	%r8, 152(%rsp)
	jne	.LBB99_18
	movl	16(%r15), %ecx
	movl	20(%r15), %r8d
	leaq	16(%rsp), %rdi
	movq	%r9, %rsi
	movq	%r13, %rdx
	callq	"amqp_in_place::read::read_in_place"
	cmpb	$0, 16(%rsp)
	jne	.LBB99_34
	movzbl	24(%rsp), %ecx
	movzbl	25(%rsp), %eax
	movl	28(%rsp), %edx
	movq	32(%rsp), %r8
	movq	40(%rsp), %rbp
	xorps	%xmm0, %xmm0
	movzbl	%cl, %esi
	leaq	.LJTI99_1(%rip), %rdi
	movslq	(%rdi,%rsi,4), %rsi
	addq	%rdi, %rsi
	jmpq	*%rsi
.LBB99_7:
	xorl	%eax, %eax
	xorl	%esi, %esi
	jmp	.LBB99_71
.LBB99_8:
	cmpq	$4, %rax
	jb	.LBB99_11
	movl	16(%r15), %ecx
	movl	(%r13), %ebx
	bswapl	%ebx
	leaq	5(%rbx), %rdx
	cmpq	%rcx, %rdx
	ja	.LBB99_11
	movl	20(%r15), %edx
	addq	$-4, %rax
	cmpq	%rbx, %rax
	setb	%al
	testq	%rdx, %rdx
	sete	%cl
	orb	%al, %cl
	je	.LBB99_28
.LBB99_11:
	xorl	%edx, %edx
	xorl	%eax, %eax
.LBB99_12:
	xorl	%ecx, %ecx
	testb	%al, %al
	cmoveq	%rcx, %r13
	cmoveq	%rcx, %rdx
	leaq	(%rsi,%r14), %r12
	cmpb	$1, %al
	jne	.LBB99_3
.LBB99_13:
	cmpq	%rdx, %r8
	jae	.LBB99_15
	movq	%rdx, %r15
	movl	$16, %edx
	movq	8(%rsp), %r12
	jmp	.LBB99_118
.LBB99_15:
	movq	%r12, %rax
	subq	%r13, %rax
	cmpq	%rdx, %rax
	jae	.LBB99_27
	cmpq	$4, %rdx
	jb	.LBB99_17
	cmpq	$32, %rax
	jae	.LBB99_32
.LBB99_17:
	xorl	%eax, %eax
.LBB99_45:
	movq	%rdx, %rdi
	movq	%rax, %rcx
	andq	$3, %rdi
	je	.LBB99_48
	movq	%rax, %rcx
	.p2align	4
.LBB99_47:
	movzbl	(%r13,%rcx), %r8d
	movb	%r8b, (%r12,%rcx)
	incq	%rcx
	decq	%rdi
	jne	.LBB99_47
.LBB99_48:
	subq	%rdx, %rax
	cmpq	$-4, %rax
	ja	.LBB99_51
	leaq	(%r14,%rsi), %rax
	addq	$3, %rax
	.p2align	4
.LBB99_50:
	movzbl	(%r13,%rcx), %esi
	movb	%sil, -3(%rax,%rcx)
	movzbl	1(%r13,%rcx), %esi
	movb	%sil, -2(%rax,%rcx)
	movzbl	2(%r13,%rcx), %esi
	movb	%sil, -1(%rax,%rcx)
	movzbl	3(%r13,%rcx), %esi
	movb	%sil, (%rax,%rcx)
	addq	$4, %rcx
	cmpq	%rcx, %rdx
	jne	.LBB99_50
	jmp	.LBB99_51
.LBB99_18:
	movl	20(%r15), %ebx
	cmpq	$4, %r13
	jb	.LBB99_35
	testl	%ebx, %ebx
	je	.LBB99_34
	movl	(%r9), %ebp
	bswapl	%ebp
	addq	$-4, %r13
	cmpq	%rbp, %r13
	jb	.LBB99_34
	movl	16(%r15), %eax
	leaq	5(%rbp), %rcx
	cmpq	%rax, %rcx
	ja	.LBB99_34
	addq	$4, %r9
	decq	%rbx
	movq	%r9, %rdi
	movq	%rbp, %rsi
	movq	%rbx, %rdx
	movq	%r9, %rbx
	callq	"amqp_in_place::read::are_pairs"
	movq	%rbx, %r8
	testb	%al, %al
	je	.LBB99_34
.LBB99_23:
	xorps	%xmm0, %xmm0
	movaps	%xmm0, 32(%rsp)
	movaps	%xmm0, 16(%rsp)
	leaq	16(%rsp), %rdi
	movq	%r8, %rsi
	movq	%rbp, %rdx
	movq	%rbp, %rcx
	callq	"amq_protocol_types::parsing::values::parse_table_body::<#021be0914fa2e150>"
	cmpb	$0, 16(%rsp)
	movzbl	24(%rsp), %r8d
	je	.LBB99_31
	cmpq	$2, %r8
	jne	.LBB99_129
.LBB99_25:
	movl	$17, %ebp
.LBB99_26:
	xorl	%r15d, %r15d
	movq	8(%rsp), %r12
	jmp	.LBB99_117
.LBB99_27:
	movq	%r12, %rdi
	movq	%r13, %rsi
	movq	%rdx, %rbx
	callq	memmove@PLT
	movq	%rbx, %rdx
.LBB99_51:
	xorl	%eax, %eax
	movq	8(%rsp), %r12
	jmp	.LBB99_119
.LBB99_28:
	leaq	4(%r13), %rdi
	decq	%rdx
	movq	%rsi, 104(%rsp)
	movq	%rbx, %rsi
	movq	%r8, %r12
	callq	"amqp_in_place::canonical::are_canonical_pairs"
	movq	%r12, %r8
	movq	104(%rsp), %rsi
	addq	$4, %rbx
	xorl	%edx, %edx
	testb	%al, %al
	cmovneq	%rbx, %rdx
	jmp	.LBB99_12
.LBB99_31:
	movaps	32(%rsp), %xmm0
	xorl	%eax, %eax
	movb	$15, %cl
	jmp	.LBB99_99
.LBB99_32:
	cmpq	$32, %rdx
	jae	.LBB99_38
	xorl	%eax, %eax
	jmp	.LBB99_42
.LBB99_34:
	movq	(%r15), %r9
	movq	8(%r15), %r13
	movl	24(%r15), %eax
	movl	20(%r15), %ebx
.LBB99_35:
	movl	16(%r15), %r12d
	testb	$1, %al
	jne	.LBB99_52
	movq	$0, 240(%rsp)
	leaq	16(%rsp), %rdi
	movq	%r9, %rsi
	movq	%r13, %rdx
	movl	%r12d, %ecx
	movl	%ebx, %r8d
	movq	%r9, %r14
	callq	"amqp_in_place::read::read_in_place"
	cmpb	$0, 16(%rsp)
	jne	.LBB99_56
.LBB99_37:
	xorl	%eax, %eax
	xorl	%r14d, %r14d
	xorl	%ebx, %ebx
	jmp	.LBB99_57
.LBB99_38:
	movq	%rdx, %rax
	andq	$-32, %rax
	leaq	(%r14,%rsi), %rcx
	addq	$16, %rcx
	xorl	%edi, %edi
	.p2align	4
.LBB99_39:
	movups	(%r13,%rdi), %xmm0
	movups	16(%r13,%rdi), %xmm1
	movups	%xmm0, -16(%rcx,%rdi)
	movups	%xmm1, (%rcx,%rdi)
	addq	$32, %rdi
	cmpq	%rdi, %rax
	jne	.LBB99_39
	cmpq	%rax, %rdx
	je	.LBB99_51
	testb	$28, %dl
	je	.LBB99_45
.LBB99_42:
	movq	%rax, %rcx
	movq	%rdx, %rax
	andq	$-4, %rax
	.p2align	4
.LBB99_43:
	movl	(%r13,%rcx), %edi
	movl	%edi, (%r12,%rcx)
	addq	$4, %rcx
	cmpq	%rcx, %rax
	jne	.LBB99_43
	cmpq	%rax, %rdx
	je	.LBB99_51
	jmp	.LBB99_45
.LBB99_52:
	movq	$0, 32(%rsp)
	cmpq	$4, %r13
	jae	.LBB99_62
.LBB99_53:
	leaq	16(%rsp), %rdi
	movq	%r9, %rsi
	movq	%r13, %rdx
	movl	%r12d, %ecx
	movl	%ebx, %r8d
	callq	"amqp_in_place::problems::search_table"
	movzbl	16(%rsp), %eax
	movq	24(%rsp), %r14
	movzbl	32(%rsp), %ebx
	jmp	.LBB99_57
.LBB99_54:
	movzwl	26(%rsp), %esi
	xorl	%eax, %eax
	jmp	.LBB99_70
.LBB99_55:
	xorl	%eax, %eax
	jmp	.LBB99_99
.LBB99_56:
	leaq	224(%rsp), %rdi
	movq	%r14, %rsi
	movq	%r13, %rdx
	movl	%r12d, %ecx
	movl	%ebx, %r8d
	callq	"amqp_in_place::problems::search"
	movzbl	224(%rsp), %eax
	movq	232(%rsp), %r14
	movzbl	240(%rsp), %ebx
.LBB99_57:
	movq	8(%rsp), %r12
	cmpb	$1, %al
	jne	.LBB99_128
	movups	(%r15), %xmm0
	movups	16(%r15), %xmm1
	movaps	%xmm1, 128(%rsp)
	movaps	%xmm0, 112(%rsp)
	leaq	112(%rsp), %rdi
	callq	"amqp_c::input::Input::header"
	testq	%r14, %r14
	je	.LBB99_60
	movzbl	%bl, %eax
	leaq	.Lswitch.table.amqpv_canonical(%rip), %rcx
	movq	(%rcx,%rax,8), %rbp
	jmp	.LBB99_116
.LBB99_60:
	movq	%rdx, %r15
	movzbl	%bl, %ecx
	leaq	.LJTI99_0(%rip), %rdx
	movslq	(%rdx,%rcx,4), %rcx
	addq	%rdx, %rcx
	jmpq	*%rcx
.LBB99_61:
	movl	$1, %ebp
	jmp	.LBB99_116
.LBB99_62:
	testl	%ebx, %ebx
	je	.LBB99_53
	movl	(%r9), %esi
	bswapl	%esi
	leaq	-4(%r13), %rax
	cmpq	%rsi, %rax
	jb	.LBB99_53
	leaq	5(%rsi), %rax
	cmpq	%r12, %rax
	ja	.LBB99_53
	movl	%ebx, %edx
	leaq	4(%r9), %rdi
	decq	%rdx
	movq	%r9, %r14
	callq	"amqp_in_place::read::are_pairs"
	movq	%r14, %r9
	testb	%al, %al
	jne	.LBB99_37
	jmp	.LBB99_53
.LBB99_66:
	xorl	%eax, %eax
	movb	$17, %cl
	jmp	.LBB99_69
.LBB99_67:
	movl	%r8d, %r8d
	movb	$10, %cl
	xorl	%eax, %eax
	xorl	%esi, %esi
	jmp	.LBB99_100
.LBB99_68:
	andb	$1, %al
	xorl	%ecx, %ecx
.LBB99_69:
	xorl	%esi, %esi
.LBB99_70:
	xorl	%edx, %edx
.LBB99_71:
	xorl	%r8d, %r8d
	jmp	.LBB99_100
.LBB99_72:
	testq	%rbp, %rbp
	je	.LBB99_87
	js	.LBB99_25
	movl	$1, %esi
	movq	%rbp, %rdi
	movq	%r8, %rbx
	callq	rattle_alloc
	testb	$1, %al
	je	.LBB99_25
	movq	%rbx, %rsi
	movq	%rdx, 16(%rsp)
	movq	$0, 24(%rsp)
	movq	%rbp, 32(%rsp)
	leaq	16(%rsp), %rdi
	movq	%rbp, %rdx
	callq	"std_alloc::vec::Vec::extend_from_slice::<#f0d03d630576da86>"
	testb	%al, %al
	jne	.LBB99_84
	movq	16(%rsp), %r8
	movups	24(%rsp), %xmm0
	jmp	.LBB99_88
.LBB99_77:
	movaps	%xmm0, 32(%rsp)
	movaps	%xmm0, 16(%rsp)
	leaq	16(%rsp), %rdi
	movq	%r8, %rsi
	movq	%rbp, %rdx
	movq	%rbp, %rcx
	callq	"amq_protocol_types::parsing::values::parse_array_body::<#021be0914fa2e150>"
	cmpb	$0, 16(%rsp)
	je	.LBB99_89
	movzbl	24(%rsp), %eax
	cmpl	$2, %eax
	je	.LBB99_25
	cmpl	$1, %eax
	jmp	.LBB99_128
.LBB99_80:
	testq	%rbp, %rbp
	je	.LBB99_90
	js	.LBB99_25
	movl	$1, %esi
	movq	%rbp, %rdi
	movq	%r8, %rbx
	callq	rattle_alloc
	testb	$1, %al
	je	.LBB99_25
	movq	%rbx, %rsi
	movq	%rdx, 16(%rsp)
	movq	$0, 24(%rsp)
	movq	%rbp, 32(%rsp)
	leaq	16(%rsp), %rdi
	movq	%rbp, %rdx
	callq	"std_alloc::vec::Vec::extend_from_slice::<#f0d03d630576da86>"
	testb	%al, %al
	je	.LBB99_97
.LBB99_84:
	cmpq	$0, 32(%rsp)
	je	.LBB99_25
	movq	16(%rsp), %rdi
	callq	rattle_dealloc
	jmp	.LBB99_25
.LBB99_86:
	xorl	%eax, %eax
	movb	$14, %cl
	jmp	.LBB99_99
.LBB99_87:
	leaq	7(%rsp), %r8
.LBB99_88:
	xorl	%eax, %eax
	movb	$12, %cl
	jmp	.LBB99_99
.LBB99_89:
	movq	24(%rsp), %r8
	movaps	32(%rsp), %xmm0
	xorl	%eax, %eax
	movb	$13, %cl
	jmp	.LBB99_99
.LBB99_90:
	leaq	7(%rsp), %r8
	jmp	.LBB99_98
.LBB99_91:
	movl	$4, %ebp
	jmp	.LBB99_116
.LBB99_92:
	xorl	%ebp, %ebp
	cmpb	$2, %al
	cmovneq	%rbp, %r15
	jmp	.LBB99_117
.LBB99_93:
	movl	$3, %ebp
	jmp	.LBB99_116
.LBB99_94:
	movl	$5, %ebp
	jmp	.LBB99_116
.LBB99_95:
	movl	$6, %ebp
	jmp	.LBB99_116
.LBB99_96:
	movl	$7, %ebp
	jmp	.LBB99_116
.LBB99_97:
	movq	16(%rsp), %r8
	movups	24(%rsp), %xmm0
.LBB99_98:
	xorl	%eax, %eax
	movb	$16, %cl
.LBB99_99:
	xorl	%esi, %esi
	xorl	%edx, %edx
.LBB99_100:
	movb	%cl, 64(%rsp)
	movb	%al, 65(%rsp)
	movw	%si, 66(%rsp)
	movl	%edx, 68(%rsp)
	leaq	72(%rsp), %rbx
	movq	%r8, 72(%rsp)
	movaps	%xmm0, 80(%rsp)
	movb	$0, 114(%rsp)
	movw	$0, 112(%rsp)
	leaq	7(%rsp), %rax
	movq	%rax, 16(%rsp)
	xorps	%xmm0, %xmm0
	movups	%xmm0, 24(%rsp)
	movq	$0, 40(%rsp)
	leaq	112(%rsp), %rdi
	leaq	64(%rsp), %rsi
	leaq	16(%rsp), %rdx
	callq	"amq_protocol_types::generation::values::gen_value::<#4ea8deeae94023ba>"
	cmpb	$0, 112(%rsp)
	je	.LBB99_104
	cmpb	$2, 113(%rsp)
	movq	8(%rsp), %r12
	jne	.LBB99_128
	cmpq	$0, 32(%rsp)
	je	.LBB99_109
	movq	16(%rsp), %rdi
	callq	rattle_dealloc
	movzbl	64(%rsp), %eax
	movl	$17, %ebp
	xorl	%r15d, %r15d
	leaq	.LJTI99_2(%rip), %rcx
	movslq	(%rcx,%rax,4), %rax
	addq	%rcx, %rax
	jmpq	*%rax
.LBB99_104:
	movq	16(%rsp), %rbp
	movq	24(%rsp), %r13
	movq	32(%rsp), %rbx
	movl	24(%r15), %ecx
	andl	$1, %ecx
	subq	%rcx, %r13
	movl	$16, %edx
	movq	%r13, %r15
	movq	152(%rsp), %r8
	cmpq	%r13, %r8
	jb	.LBB99_133
	leaq	(%rcx,%rbp), %rsi
	movq	%r12, %rax
	subq	%rsi, %rax
	cmpq	%r13, %rax
	jae	.LBB99_112
	cmpq	$4, %r13
	jb	.LBB99_108
	cmpq	$32, %rax
	jae	.LBB99_120
.LBB99_108:
	xorl	%eax, %eax
	jmp	.LBB99_130
.LBB99_109:
	movzbl	64(%rsp), %eax
	movl	$17, %ebp
	xorl	%r15d, %r15d
	leaq	.LJTI99_2(%rip), %rcx
	movslq	(%rcx,%rax,4), %rax
	addq	%rcx, %rax
	jmpq	*%rax
.LBB99_110:
	cmpq	$0, 88(%rsp)
	je	.LBB99_116
	movq	72(%rsp), %rdi
	callq	rattle_dealloc
	jmp	.LBB99_116
.LBB99_112:
	movq	%r12, %rdi
	movq	%r13, %rdx
	movq	%r8, %r14
	callq	memmove@PLT
	movq	%r14, %r8
	jmp	.LBB99_132
.LBB99_113:
	movq	16(%rbx), %rax
	movq	%rax, 208(%rsp)
	movups	(%rbx), %xmm0
	movaps	%xmm0, 192(%rsp)
	leaq	192(%rsp), %rdi
	callq	"std_alloc::vec::Vec::drop::<#075e21c32a54ff68>"
	movl	$17, %ebp
	jmp	.LBB99_116
.LBB99_114:
	cmpb	$1, 72(%rsp)
	jne	.LBB99_116
	movq	80(%rsp), %rdi
	callq	"std_collections::btree::node::Node::destroy::<#906c1b7c2fff9a74>"
.LBB99_116:
	xorl	%r15d, %r15d
.LBB99_117:
	movq	%rbp, %rdx
.LBB99_118:
	xorl	%ecx, %ecx
	cmpb	$16, %dl
	cmoveq	%r15, %rcx
	notl	%edx
	movl	%edx, %eax
	orl	$-256, %eax
	movq	%rcx, %rdx
.LBB99_119:
	movq	%rdx, (%r12)
	addq	$248, %rsp
	popq	%rbx
	popq	%r12
	popq	%r13
	popq	%r14
	popq	%r15
	popq	%rbp
	retq
.LBB99_120:
	cmpq	$32, %r13
	jae	.LBB99_122
	xorl	%eax, %eax
	jmp	.LBB99_126
.LBB99_122:
	movq	%r13, %rax
	andq	$-32, %rax
	addq	%rbp, %rcx
	addq	$16, %rcx
	movq	104(%rsp), %rdx
	addq	%r14, %rdx
	addq	$16, %rdx
	xorl	%edi, %edi
.LBB99_123:
	movups	-16(%rcx,%rdi), %xmm0
	movups	(%rcx,%rdi), %xmm1
	movups	%xmm0, -16(%rdx,%rdi)
	movups	%xmm1, (%rdx,%rdi)
	addq	$32, %rdi
	cmpq	%rdi, %rax
	jne	.LBB99_123
	cmpq	%rax, %r13
	je	.LBB99_132
	testb	$28, %r13b
	je	.LBB99_130
.LBB99_126:
	movq	%rax, %rcx
	movq	%r13, %rax
	andq	$-4, %rax
.LBB99_127:
	movl	(%rsi,%rcx), %edx
	movl	%edx, (%r12,%rcx)
	addq	$4, %rcx
	cmpq	%rcx, %rax
	jne	.LBB99_127
	jmp	.LBB99_131
.LBB99_128:
	ud2
.LBB99_129:
	cmpl	$1, %r8d
	ud2
.LBB99_130:
	movzbl	(%rsi,%rax), %ecx
	movb	%cl, (%r12,%rax)
	incq	%rax
.LBB99_131:
	cmpq	%rax, %r13
	jne	.LBB99_130
.LBB99_132:
	xorl	%r15d, %r15d
	movq	%r13, %rdx
.LBB99_133:
	testq	%rbx, %rbx
	je	.LBB99_135
	movq	%rbp, %rdi
	movq	%rdx, %rbx
	movq	%r8, %r14
	callq	rattle_dealloc
	movq	%r14, %r8
	movq	%rbx, %rdx
.LBB99_135:
	movzbl	64(%rsp), %eax
	leaq	.LJTI99_3(%rip), %rcx
	movslq	(%rcx,%rax,4), %rax
	addq	%rcx, %rax
	movq	8(%rsp), %r12
	jmpq	*%rax
.LBB99_136:
	cmpq	$0, 88(%rsp)
	je	.LBB99_142
	movq	72(%rsp), %rdi
	movq	%rdx, %rbx
	movq	%r8, %r14
	callq	rattle_dealloc
	jmp	.LBB99_141
.LBB99_138:
	cmpb	$1, 72(%rsp)
	jne	.LBB99_142
	movq	80(%rsp), %rdi
	movq	%rdx, %rbx
	movq	%r8, %r14
	callq	"std_collections::btree::node::Node::destroy::<#906c1b7c2fff9a74>"
	jmp	.LBB99_141
.LBB99_140:
	leaq	72(%rsp), %rcx
	movq	16(%rcx), %rax
	movq	%rax, 176(%rsp)
	movups	(%rcx), %xmm0
	movaps	%xmm0, 160(%rsp)
	leaq	160(%rsp), %rdi
	movq	%rdx, %rbx
	movq	%r8, %r14
	callq	"std_alloc::vec::Vec::drop::<#075e21c32a54ff68>"
.LBB99_141:
	movq	%r14, %r8
	movq	%rbx, %rdx
.LBB99_142:
	xorl	%eax, %eax
	cmpq	%r13, %r8
	jb	.LBB99_118
	jmp	.LBB99_119
.Lfunc_end99:
	.size	amqpv_canonical, .Lfunc_end99-amqpv_canonical
	.section	.rodata.amqpv_canonical,"a",@progbits
	.p2align	2, 0x0
.LJTI99_0:
	.long	.LBB99_61-.LJTI99_0
	.long	.LBB99_94-.LJTI99_0
	.long	.LBB99_92-.LJTI99_0
	.long	.LBB99_93-.LJTI99_0
	.long	.LBB99_91-.LJTI99_0
	.long	.LBB99_95-.LJTI99_0
	.long	.LBB99_96-.LJTI99_0
.LJTI99_1:
	.long	.LBB99_68-.LJTI99_1
	.long	.LBB99_69-.LJTI99_1
	.long	.LBB99_69-.LJTI99_1
	.long	.LBB99_54-.LJTI99_1
	.long	.LBB99_54-.LJTI99_1
	.long	.LBB99_7-.LJTI99_1
	.long	.LBB99_7-.LJTI99_1
	.long	.LBB99_55-.LJTI99_1
	.long	.LBB99_7-.LJTI99_1
	.long	.LBB99_55-.LJTI99_1
	.long	.LBB99_67-.LJTI99_1
	.long	.LBB99_72-.LJTI99_1
	.long	.LBB99_77-.LJTI99_1
	.long	.LBB99_86-.LJTI99_1
	.long	.LBB99_23-.LJTI99_1
	.long	.LBB99_80-.LJTI99_1
	.long	.LBB99_66-.LJTI99_1
.LJTI99_2:
	.long	.LBB99_117-.LJTI99_2
	.long	.LBB99_117-.LJTI99_2
	.long	.LBB99_117-.LJTI99_2
	.long	.LBB99_117-.LJTI99_2
	.long	.LBB99_117-.LJTI99_2
	.long	.LBB99_117-.LJTI99_2
	.long	.LBB99_117-.LJTI99_2
	.long	.LBB99_117-.LJTI99_2
	.long	.LBB99_117-.LJTI99_2
	.long	.LBB99_117-.LJTI99_2
	.long	.LBB99_117-.LJTI99_2
	.long	.LBB99_110-.LJTI99_2
	.long	.LBB99_110-.LJTI99_2
	.long	.LBB99_113-.LJTI99_2
	.long	.LBB99_117-.LJTI99_2
	.long	.LBB99_114-.LJTI99_2
	.long	.LBB99_110-.LJTI99_2
	.long	.LBB99_117-.LJTI99_2
.LJTI99_3:
	.long	.LBB99_142-.LJTI99_3
	.long	.LBB99_142-.LJTI99_3
	.long	.LBB99_142-.LJTI99_3
	.long	.LBB99_142-.LJTI99_3
	.long	.LBB99_142-.LJTI99_3
	.long	.LBB99_142-.LJTI99_3
	.long	.LBB99_142-.LJTI99_3
	.long	.LBB99_142-.LJTI99_3
	.long	.LBB99_142-.LJTI99_3
	.long	.LBB99_142-.LJTI99_3
	.long	.LBB99_142-.LJTI99_3
	.long	.LBB99_136-.LJTI99_3
	.long	.LBB99_136-.LJTI99_3
	.long	.LBB99_140-.LJTI99_3
	.long	.LBB99_142-.LJTI99_3
	.long	.LBB99_138-.LJTI99_3
	.long	.LBB99_136-.LJTI99_3
	.long	.LBB99_142-.LJTI99_3

	.section	.rodata.cst16,"aM",@progbits,16
	.p2align	4, 0x0
.LCPI100_0:
	.short	14906
	.short	14906
	.short	11308
	.short	11308
	.short	8224
	.short	8224
	.short	3341
	.short	3341
.LCPI100_1:
	.zero	16,34
.LCPI100_2:
	.zero	16,92
.LCPI100_3:
	.zero	16,31
.LCPI100_4:
	.zero	16,198
.LCPI100_5:
	.zero	16,245
	.section	.text.amqpv_proved_from_json,"ax",@progbits
	.p2align	4
	.type	amqpv_proved_from_json,@function
amqpv_proved_from_json:
	pushq	%rbp
	pushq	%r15
	pushq	%r14
	pushq	%r13
	pushq	%r12
	pushq	%rbx
	subq	$3072, %rsp
	movq	$0, (%rsp)
	subq	$3072, %rsp
	movq	$0, (%rsp)
	subq	$3072, %rsp
	movq	$0, (%rsp)
	subq	$3072, %rsp
	movq	$0, (%rsp)
	subq	$3072, %rsp
	movq	$0, (%rsp)
	subq	$1688, %rsp
	movq	%r9, %r14
	movq	%r8, %rbx
	movq	%rcx, %r15
	movl	%edx, %ebp
	movq	%rsi, %rdx
	xorl	%esi, %esi
	testq	%rdi, %rdi
	sete	%sil
	shll	$12, %esi
	addq	%rdi, %rsi
	testq	%rcx, %rcx
	sete	%r12b
	movl	$0, 504(%rsp)
	movw	$0, 508(%rsp)
	movl	$0, 216(%rsp)
	movw	$0, 220(%rsp)
	xorps	%xmm0, %xmm0
	movaps	%xmm0, 544(%rsp)
	movq	$0, 560(%rsp)
	movl	$0, 536(%rsp)
	movw	$0, 540(%rsp)
	leaq	544(%rsp), %rdi
	callq	"core::str::utf8::from_utf8"
	cmpb	$0, 544(%rsp)
	je	.LBB100_2
	movq	552(%rsp), %rbx
	movl	$0, 216(%rsp)
	movw	$0, 220(%rsp)
	movl	$8, %r15d
	xorl	%r13d, %r13d
	jmp	.LBB100_450
.LBB100_2:
	movb	%r12b, 31(%rsp)
	movq	%r15, 568(%rsp)
	movq	%rbx, 208(%rsp)
	movq	%r14, 200(%rsp)
	movq	552(%rsp), %r14
	movq	560(%rsp), %r15
	cmpl	$127, %ebp
	movl	$127, %eax
	cmovbl	%ebp, %eax
	movl	%eax, 16(%rsp)
	xorps	%xmm0, %xmm0
	movaps	%xmm0, 32(%rsp)
	movaps	%xmm0, 48(%rsp)
	movaps	%xmm0, 64(%rsp)
	movaps	%xmm0, 80(%rsp)
	movaps	%xmm0, 96(%rsp)
	movaps	%xmm0, 112(%rsp)
	movaps	%xmm0, 128(%rsp)
	movaps	%xmm0, 448(%rsp)
	movq	$0, 464(%rsp)
	leaq	12(%rsp), %rbp
	movq	%rbp, 608(%rsp)
	leaq	616(%rsp), %rdi
	movl	$16400, %edx
	xorl	%esi, %esi
	callq	memset@PLT
	movq	%rbp, 17016(%rsp)
	xorps	%xmm0, %xmm0
	movups	%xmm0, 17024(%rsp)
	testq	%r15, %r15
	jne	.LBB100_34
	xorl	%r12d, %r12d
	movq	%rbp, %r13
.LBB100_4:
	leaq	632(%rsp), %rbx
	xorps	%xmm0, %xmm0
	movaps	%xmm0, 288(%rsp)
	movaps	%xmm0, 304(%rsp)
	movw	$0, 224(%rsp)
	movb	$0, 226(%rsp)
	leaq	288(%rsp), %rdi
	leaq	224(%rsp), %r9
	movq	%r14, %rsi
	movq	%r15, %rdx
	movq	%rbx, %rcx
	xorl	%r8d, %r8d
	callq	"json::index::refill"
	movl	632(%rsp), %eax
	addq	288(%rsp), %rax
	cmpq	$0, 296(%rsp)
	cmoveq	%r15, %rax
	movaps	288(%rsp), %xmm0
	movdqa	304(%rsp), %xmm1
	movaps	%xmm0, 80(%rsp)
	movdqa	%xmm1, 96(%rsp)
	movq	%r14, 32(%rsp)
	movq	%r15, 40(%rsp)
	movq	%r14, 152(%rsp)
	movq	%r14, 48(%rsp)
	movq	%r15, 56(%rsp)
	movq	%rbx, 64(%rsp)
	movq	$0, 72(%rsp)
	movq	%rax, 112(%rsp)
	movq	%r13, 120(%rsp)
	movq	%r12, 128(%rsp)
	movb	$1, 136(%rsp)
	movl	$0, 140(%rsp)
	movl	$0, 137(%rsp)
	testq	%r15, %r15
	je	.LBB100_8
	js	.LBB100_11
	movl	$1, %esi
	movq	%r15, %rdi
	callq	rattle_alloc
	testb	$1, %al
	je	.LBB100_11
	movq	%rdx, %rbp
.LBB100_8:
	movq	%rbp, 448(%rsp)
	movq	$0, 456(%rsp)
	movq	%r15, 464(%rsp)
	movl	16(%rsp), %ebp
	xorps	%xmm0, %xmm0
	movaps	%xmm0, 240(%rsp)
	movaps	%xmm0, 224(%rsp)
	leaq	224(%rsp), %rdi
	leaq	32(%rsp), %rsi
	leaq	448(%rsp), %rdx
	movq	%rbp, %rcx
	callq	"amqp_json::reading::walk::put_value"
	cmpb	$0, 224(%rsp)
	je	.LBB100_15
	movzbl	232(%rsp), %r12d
	movzbl	%r12b, %eax
	leaq	.LJTI100_0(%rip), %rcx
	movslq	(%rcx,%rax,4), %rax
	addq	%rcx, %rax
	movq	152(%rsp), %r14
	jmpq	*%rax
.LBB100_10:
	xorl	%ebx, %ebx
	xorl	%r13d, %r13d
	jmp	.LBB100_437
.LBB100_11:
	cmpq	$0, 624(%rsp)
	je	.LBB100_13
	movq	608(%rsp), %rdi
	callq	rattle_dealloc
.LBB100_13:
	cmpq	$0, 17032(%rsp)
	movq	200(%rsp), %r14
	je	.LBB100_443
	movq	17016(%rsp), %rdi
	callq	rattle_dealloc
	xorl	%ebx, %ebx
	movl	$17, %r15d
	movzbl	%bl, %r13d
	leaq	.LJTI100_14(%rip), %rax
	movslq	(%rax,%r13,4), %rcx
	addq	%rax, %rcx
	jmpq	*%rcx
.LBB100_15:
	movzbl	136(%rsp), %ecx
	movq	40(%rsp), %rbp
	movq	112(%rsp), %rbx
	movq	%rbp, %rax
	subq	%rbx, %rax
	movq	152(%rsp), %r14
	jbe	.LBB100_40
	leaq	80(%rsp), %r13
	movq	32(%rsp), %rdi
	movzbl	(%rdi,%rbx), %edx
	movl	%edx, %esi
	andb	$-33, %sil
	cmpb	$93, %sil
	jne	.LBB100_38
	leal	-1(%rcx), %eax
	cmpb	$1, %al
	ja	.LBB100_70
	xorps	%xmm0, %xmm0
	movaps	%xmm0, 288(%rsp)
	movaps	%xmm0, 304(%rsp)
	movq	64(%rsp), %rcx
	movq	72(%rsp), %rax
	leaq	1(%rax), %rdx
	movq	%rdx, 72(%rsp)
	cmpq	88(%rsp), %rdx
	jne	.LBB100_59
	movq	48(%rsp), %rsi
	movq	56(%rsp), %rdx
	movq	96(%rsp), %r8
	movzwl	104(%rsp), %eax
	movw	%ax, 160(%rsp)
	movzbl	106(%rsp), %eax
	movb	%al, 162(%rsp)
	leaq	288(%rsp), %rdi
	leaq	160(%rsp), %r9
	callq	"json::index::refill"
	movaps	288(%rsp), %xmm0
	movdqa	304(%rsp), %xmm1
	movdqu	%xmm1, 16(%r13)
	movups	%xmm0, (%r13)
	movq	$0, 72(%rsp)
	movq	64(%rsp), %rcx
	movl	$1, %eax
	cmpq	$0, 296(%rsp)
	je	.LBB100_77
	movl	(%rcx), %edx
	addq	288(%rsp), %rdx
	jmp	.LBB100_78
.LBB100_21:
	movzbl	248(%rsp), %r13d
	movq	240(%rsp), %rbx
	cmpq	%rbx, %r15
	cmovbq	%r15, %rbx
	movb	$4, %r12b
	jmp	.LBB100_437
.LBB100_22:
	testq	%r15, %r15
	je	.LBB100_488
	xorl	%ebx, %ebx
	xorl	%eax, %eax
	jmp	.LBB100_27
	.p2align	4
.LBB100_25:
	movl	%ecx, %eax
	andb	$-33, %al
	cmpb	$91, %al
	sete	%dl
	cmpb	$93, %al
	sete	%sil
	movzbl	%cl, %eax
	movd	%eax, %xmm0
	punpcklbw	%xmm0, %xmm0
	pshuflw	$0, %xmm0, %xmm0
	addb	$-9, %cl
	cmpb	$2, %cl
	punpcklbw	%xmm0, %xmm0
	punpcklwd	%xmm0, %xmm0
	pcmpeqb	.LCPI100_0(%rip), %xmm0
	setb	%al
	movmskps	%xmm0, %ecx
	testl	%ecx, %ecx
	setne	%cl
	orb	%sil, %al
	orb	%dl, %al
	orb	%cl, %al
	xorb	$1, %al
.LBB100_26:
	incq	%rbx
	cmpq	%rbx, %r15
	je	.LBB100_488
.LBB100_27:
	movzbl	(%r14,%rbx), %ecx
	cmpb	$1, %al
	ja	.LBB100_30
	movl	%ecx, %edx
	andb	$-33, %dl
	cmpb	$91, %dl
	jne	.LBB100_31
	subq	$1, %rbp
	jb	.LBB100_33
.LBB100_30:
	movzbl	%al, %eax
	leaq	.LJTI100_1(%rip), %rdx
	movslq	(%rdx,%rax,4), %rsi
	addq	%rdx, %rsi
	movb	$2, %al
	jmpq	*%rsi
	.p2align	4
.LBB100_31:
	xorl	%esi, %esi
	cmpb	$93, %dl
	sete	%sil
	addq	%rsi, %rbp
	movzbl	%al, %eax
	leaq	.LJTI100_1(%rip), %rdx
	movslq	(%rdx,%rax,4), %rsi
	addq	%rdx, %rsi
	movb	$2, %al
	jmpq	*%rsi
.LBB100_24:
	movb	$2, %al
	cmpb	$34, %cl
	je	.LBB100_26
	jmp	.LBB100_25
	.p2align	4
.LBB100_32:
	cmpb	$92, %cl
	sete	%al
	orb	$2, %al
	xorl	%edx, %edx
	cmpb	$34, %cl
	movzbl	%al, %eax
	cmovel	%edx, %eax
	jmp	.LBB100_26
.LBB100_33:
	xorl	%r13d, %r13d
	movb	$3, %r12b
	jmp	.LBB100_437
.LBB100_34:
	leaq	608(%rsp), %rdi
	movq	%r15, %rsi
	callq	"std_alloc::vec::Vec::grow_amortized::<#1283936d4ef01d73>"
	testb	%al, %al
	je	.LBB100_55
	movq	608(%rsp), %r13
	movq	616(%rsp), %rdi
	movq	624(%rsp), %rbx
	leaq	(%rdi,%r15), %rax
	movq	%rax, %r12
	cmpq	%rax, %rdi
	jae	.LBB100_37
	addq	%r13, %rdi
	xorl	%esi, %esi
	movq	%r15, %rdx
	callq	memset@PLT
.LBB100_37:
	movq	%r13, 608(%rsp)
	movq	%r12, 616(%rsp)
	movq	%rbx, 624(%rsp)
	jmp	.LBB100_4
.LBB100_38:
	cmpl	$32, %edx
	ja	.LBB100_61
	movl	%edx, %esi
	movabsq	$4294977024, %r8
	btq	%rsi, %r8
	jae	.LBB100_61
.LBB100_40:
	leal	-1(%rcx), %eax
	cmpb	$2, %al
	movzbl	%cl, %eax
	movl	$3, %ecx
	cmovbl	%eax, %ecx
	movb	%cl, 136(%rsp)
	ja	.LBB100_71
.LBB100_41:
	movq	448(%rsp), %r14
	movq	456(%rsp), %rbp
	movzbl	464(%rsp), %r15d
	cmpq	$0, 624(%rsp)
	je	.LBB100_43
	movq	608(%rsp), %rdi
	callq	rattle_dealloc
.LBB100_43:
	cmpq	$0, 17032(%rsp)
	je	.LBB100_45
	movq	17016(%rsp), %rdi
	callq	rattle_dealloc
.LBB100_45:
	movzbl	471(%rsp), %eax
	shll	$16, %eax
	movzwl	469(%rsp), %ecx
	orl	%eax, %ecx
	movl	465(%rsp), %ebx
	shlq	$40, %rcx
	shlq	$8, %rbx
	orq	%rcx, %rbx
	orq	%r15, %rbx
	movq	%r14, %rdi
	movq	%rbp, %rsi
	movl	$-1, %edx
	movl	$128, %ecx
	callq	"amqp_in_place::canonical::canonical_len"
	cmpb	$1, %al
	sete	%al
	cmpq	%rbp, %rdx
	sete	%cl
	testb	%cl, %al
	je	.LBB100_50
.LBB100_46:
	movl	$16, %r15d
	movq	%rbp, %r12
	cmpq	%rbp, 208(%rsp)
	jb	.LBB100_100
	xorl	%r9d, %r9d
	movzbl	31(%rsp), %eax
	movb	%al, %r9b
	shll	$12, %r9d
	movq	568(%rsp), %r8
	leaq	(%r8,%r9), %rdi
	movq	%rdi, %rax
	subq	%r14, %rax
	cmpq	%rbp, %rax
	jae	.LBB100_60
	cmpq	$4, %rbp
	jb	.LBB100_49
	movq	%rdi, %rax
	subq	%r14, %rax
	cmpq	$32, %rax
	jae	.LBB100_75
.LBB100_49:
	xorl	%eax, %eax
.LBB100_93:
	movq	%rbp, %rdx
	movq	%rax, %rcx
	andq	$3, %rdx
	je	.LBB100_96
	movq	%rax, %rcx
.LBB100_95:
	movzbl	(%r14,%rcx), %esi
	movb	%sil, (%rdi,%rcx)
	incq	%rcx
	decq	%rdx
	jne	.LBB100_95
.LBB100_96:
	subq	%rbp, %rax
	cmpq	$-4, %rax
	ja	.LBB100_99
	leaq	(%r9,%r8), %rax
	addq	$3, %rax
.LBB100_98:
	movzbl	(%r14,%rcx), %edx
	movb	%dl, -3(%rax,%rcx)
	movzbl	1(%r14,%rcx), %edx
	movb	%dl, -2(%rax,%rcx)
	movzbl	2(%r14,%rcx), %edx
	movb	%dl, -1(%rax,%rcx)
	movzbl	3(%r14,%rcx), %edx
	movb	%dl, (%rax,%rcx)
	addq	$4, %rcx
	cmpq	%rcx, %rbp
	jne	.LBB100_98
	jmp	.LBB100_99
.LBB100_50:
	xorps	%xmm0, %xmm0
	movaps	%xmm0, 288(%rsp)
	movaps	%xmm0, 304(%rsp)
	movaps	%xmm0, 32(%rsp)
	movaps	%xmm0, 48(%rsp)
	movw	$0, 256(%rsp)
	movb	$0, 258(%rsp)
	movaps	%xmm0, 160(%rsp)
	movq	$0, 176(%rsp)
	movaps	%xmm0, 448(%rsp)
	movq	$0, 464(%rsp)
	testq	%rbp, %rbp
	je	.LBB100_110
	movzbl	(%r14), %ecx
	addl	$-65, %ecx
	cmpl	$55, %ecx
	ja	.LBB100_110
	leaq	-1(%rbp), %rax
	leaq	.LJTI100_3(%rip), %rdx
	movslq	(%rdx,%rcx,4), %rcx
	addq	%rdx, %rcx
	jmpq	*%rcx
.LBB100_53:
	cmpq	$8, %rax
	jb	.LBB100_110
	movq	1(%r14), %rdx
	bswapq	%rdx
	movl	$7, %ecx
	jmp	.LBB100_140
.LBB100_55:
	cmpq	$0, 624(%rsp)
	je	.LBB100_57
	movq	608(%rsp), %rdi
	callq	rattle_dealloc
.LBB100_57:
	cmpq	$0, 17032(%rsp)
	movq	200(%rsp), %r14
	je	.LBB100_443
	movq	17016(%rsp), %rdi
	callq	rattle_dealloc
	xorl	%ebx, %ebx
	movl	$17, %r15d
	movzbl	%bl, %r13d
	leaq	.LJTI100_14(%rip), %rax
	movslq	(%rax,%r13,4), %rcx
	addq	%rax, %rcx
	jmpq	*%rcx
.LBB100_443:
	xorl	%r12d, %r12d
	xorl	%ebx, %ebx
	xorl	%r13d, %r13d
	jmp	.LBB100_444
.LBB100_59:
	movl	4(%rcx,%rax,4), %edx
	addq	80(%rsp), %rdx
	addq	$2, %rax
	jmp	.LBB100_78
.LBB100_60:
	movq	%r14, %rsi
	movq	%rbp, %rdx
	callq	memmove@PLT
.LBB100_99:
	xorl	%r12d, %r12d
	movq	%rbp, %r15
.LBB100_100:
	testq	%rbx, %rbx
	je	.LBB100_102
	movq	%r14, %rdi
	callq	rattle_dealloc
.LBB100_102:
	xorl	%eax, %eax
	cmpq	%rbp, 208(%rsp)
	movq	200(%rsp), %r14
	jb	.LBB100_452
	jmp	.LBB100_453
.LBB100_61:
	cmpb	$2, %cl
	jae	.LBB100_70
	movb	$3, %r12b
	leal	-34(%rdx), %ecx
	cmpl	$89, %ecx
	ja	.LBB100_189
	leaq	.LJTI100_2(%rip), %rsi
	movslq	(%rsi,%rcx,4), %rcx
	addq	%rsi, %rcx
	jmpq	*%rcx
.LBB100_183:
	xorps	%xmm0, %xmm0
	movaps	%xmm0, 288(%rsp)
	movaps	%xmm0, 304(%rsp)
	movq	64(%rsp), %rcx
	movq	72(%rsp), %rax
	leaq	1(%rax), %rdx
	movq	%rdx, 72(%rsp)
	cmpq	88(%rsp), %rdx
	jne	.LBB100_187
	movq	48(%rsp), %rsi
	movq	56(%rsp), %rdx
	movq	96(%rsp), %r8
	movzwl	104(%rsp), %eax
	movw	%ax, 160(%rsp)
	movzbl	106(%rsp), %eax
	movb	%al, 162(%rsp)
	leaq	288(%rsp), %rdi
	leaq	160(%rsp), %r9
	callq	"json::index::refill"
	movaps	288(%rsp), %xmm0
	movdqa	304(%rsp), %xmm1
	movdqu	%xmm1, 16(%r13)
	movups	%xmm0, (%r13)
	movq	$0, 72(%rsp)
	cmpq	$0, 296(%rsp)
	je	.LBB100_185
	movq	64(%rsp), %rax
	movl	(%rax), %eax
	addq	288(%rsp), %rax
	jmp	.LBB100_188
.LBB100_70:
	movb	$3, 136(%rsp)
	cmpb	$3, %cl
	je	.LBB100_41
	jmp	.LBB100_71
.LBB100_77:
	movq	56(%rsp), %rdx
.LBB100_78:
	movq	%rdx, 112(%rsp)
	movb	$2, %r12b
	cmpq	40(%rsp), %rdx
	jae	.LBB100_268
	movq	32(%rsp), %rsi
	cmpb	$44, (%rsi,%rdx)
	jne	.LBB100_268
	xorps	%xmm0, %xmm0
	movaps	%xmm0, 288(%rsp)
	movaps	%xmm0, 304(%rsp)
	movq	%rax, 72(%rsp)
	cmpq	88(%rsp), %rax
	jne	.LBB100_83
	movq	48(%rsp), %rsi
	movq	56(%rsp), %rdx
	movq	96(%rsp), %r8
	movzwl	104(%rsp), %eax
	movw	%ax, 160(%rsp)
	movzbl	106(%rsp), %eax
	movb	%al, 162(%rsp)
	leaq	288(%rsp), %rdi
	leaq	160(%rsp), %r9
	callq	"json::index::refill"
	movaps	288(%rsp), %xmm0
	movdqa	304(%rsp), %xmm1
	movdqu	%xmm1, 16(%r13)
	movups	%xmm0, (%r13)
	movq	$0, 72(%rsp)
	cmpq	$0, 296(%rsp)
	je	.LBB100_174
	movq	64(%rsp), %rax
	movl	(%rax), %eax
	addq	288(%rsp), %rax
	jmp	.LBB100_175
.LBB100_83:
	movl	(%rcx,%rax,4), %eax
	addq	80(%rsp), %rax
	jmp	.LBB100_175
.LBB100_75:
	cmpq	$32, %rbp
	jae	.LBB100_86
	xorl	%eax, %eax
	jmp	.LBB100_90
.LBB100_84:
	cmpq	$2, %rax
	jb	.LBB100_110
	movzwl	1(%r14), %ebp
	rolw	$8, %bp
	movl	$3, %ecx
	jmp	.LBB100_122
.LBB100_86:
	movq	%rbp, %rax
	andq	$-32, %rax
	leaq	(%r9,%r8), %rcx
	addq	$16, %rcx
	xorl	%edx, %edx
.LBB100_87:
	movups	(%r14,%rdx), %xmm0
	movdqu	16(%r14,%rdx), %xmm1
	movups	%xmm0, -16(%rcx,%rdx)
	movdqu	%xmm1, (%rcx,%rdx)
	addq	$32, %rdx
	cmpq	%rdx, %rax
	jne	.LBB100_87
	cmpq	%rax, %rbp
	je	.LBB100_99
	testb	$28, %bpl
	je	.LBB100_93
.LBB100_90:
	movq	%rax, %rcx
	movq	%rbp, %rax
	andq	$-4, %rax
.LBB100_91:
	movl	(%r14,%rcx), %edx
	movl	%edx, (%rdi,%rcx)
	addq	$4, %rcx
	cmpq	%rcx, %rax
	jne	.LBB100_91
	cmpq	%rax, %rbp
	je	.LBB100_99
	jmp	.LBB100_93
.LBB100_103:
	cmpq	$5, %rbp
	jb	.LBB100_110
	movl	1(%r14), %eax
	movl	%eax, %r15d
	bswapl	%r15d
	addq	$-5, %rbp
	cmpq	%r15, %rbp
	jb	.LBB100_110
	testl	%eax, %eax
	je	.LBB100_241
	movl	$1, %esi
	movq	%r15, %rdi
	callq	rattle_alloc
	testb	$1, %al
	je	.LBB100_110
	leaq	5(%r14), %rsi
	movq	%rdx, 608(%rsp)
	movq	$0, 616(%rsp)
	movq	%r15, 624(%rsp)
	leaq	608(%rsp), %rdi
	movq	%r15, %rdx
	callq	"std_alloc::vec::Vec::extend_from_slice::<#f0d03d630576da86>"
	testb	%al, %al
	je	.LBB100_269
	cmpq	$0, 624(%rsp)
	je	.LBB100_110
	movq	608(%rsp), %rdi
	callq	rattle_dealloc
	jmp	.LBB100_110
.LBB100_112:
	cmpq	$4, %rax
	jb	.LBB100_110
	movl	1(%r14), %edi
	bswapl	%edi
	movl	$8, %ecx
	jmp	.LBB100_137
.LBB100_114:
	cmpq	$4, %rax
	jb	.LBB100_110
	movl	1(%r14), %edi
	bswapl	%edi
	movl	$6, %ecx
	jmp	.LBB100_137
.LBB100_116:
	cmpq	$6, %rbp
	jb	.LBB100_110
	movzbl	1(%r14), %edi
	movl	2(%r14), %edx
	bswapl	%edx
	movl	$10, %ecx
	xorl	%r12d, %r12d
	xorl	%esi, %esi
	jmp	.LBB100_144
.LBB100_118:
	cmpq	$8, %rax
	jb	.LBB100_110
	movq	1(%r14), %rdx
	bswapq	%rdx
	movl	$14, %ecx
	jmp	.LBB100_140
.LBB100_120:
	cmpq	$2, %rax
	jb	.LBB100_110
	movzwl	1(%r14), %ebp
	rolw	$8, %bp
	movl	$4, %ecx
.LBB100_122:
	xorl	%r12d, %r12d
	xorl	%esi, %esi
	xorl	%edi, %edi
	xorl	%edx, %edx
	xorl	%r15d, %r15d
	testq	%rbx, %rbx
	jne	.LBB100_147
	jmp	.LBB100_148
.LBB100_123:
	movaps	%xmm0, 624(%rsp)
	movaps	%xmm0, 608(%rsp)
	cmpq	$5, %rbp
	jb	.LBB100_110
	movl	1(%r14), %edx
	bswapl	%edx
	leaq	-5(%rbp), %rax
	cmpq	%rdx, %rax
	jb	.LBB100_110
	leaq	5(%r14), %rsi
	addq	$-2, %rbp
	leaq	608(%rsp), %rdi
	movq	%rbp, %rcx
	callq	"amq_protocol_types::parsing::values::parse_array_body::<#021be0914fa2e150>"
	cmpb	$0, 608(%rsp)
	jne	.LBB100_110
	movq	632(%rsp), %rsi
	movq	616(%rsp), %rdx
	movq	624(%rsp), %r12
	movl	$13, %ecx
	xorl	%edi, %edi
	jmp	.LBB100_144
.LBB100_127:
	testq	%rax, %rax
	je	.LBB100_110
	movzbl	1(%r14), %r15d
	movl	$2, %ecx
	jmp	.LBB100_164
.LBB100_129:
	testq	%rax, %rax
	je	.LBB100_110
	cmpb	$0, 1(%r14)
	setne	%r15b
	xorl	%r12d, %r12d
	xorl	%esi, %esi
	xorl	%edi, %edi
	xorl	%edx, %edx
	xorl	%ecx, %ecx
	xorl	%ebp, %ebp
	testq	%rbx, %rbx
	jne	.LBB100_147
	jmp	.LBB100_148
.LBB100_131:
	movaps	%xmm0, 624(%rsp)
	movaps	%xmm0, 608(%rsp)
	cmpq	$5, %rbp
	jb	.LBB100_110
	movl	1(%r14), %edx
	bswapl	%edx
	leaq	-5(%rbp), %rax
	cmpq	%rdx, %rax
	jb	.LBB100_110
	leaq	5(%r14), %rsi
	addq	$-2, %rbp
	leaq	608(%rsp), %rdi
	movq	%rbp, %rcx
	callq	"amq_protocol_types::parsing::values::parse_table_body::<#021be0914fa2e150>"
	cmpb	$0, 608(%rsp)
	jne	.LBB100_110
	movq	624(%rsp), %r12
	movq	632(%rsp), %rsi
	movzbl	616(%rsp), %edx
	movl	$15, %ecx
	xorl	%edi, %edi
	jmp	.LBB100_144
.LBB100_135:
	cmpq	$4, %rax
	jb	.LBB100_110
	movl	1(%r14), %edi
	bswapl	%edi
	movl	$5, %ecx
.LBB100_137:
	xorl	%r12d, %r12d
	xorl	%esi, %esi
	jmp	.LBB100_143
.LBB100_138:
	cmpq	$8, %rax
	jb	.LBB100_110
	movq	1(%r14), %rdx
	bswapq	%rdx
	movl	$9, %ecx
.LBB100_140:
	xorl	%r12d, %r12d
.LBB100_141:
	xorl	%esi, %esi
	xorl	%edi, %edi
	jmp	.LBB100_144
.LBB100_142:
	movl	$17, %ecx
	xorl	%r12d, %r12d
	xorl	%esi, %esi
	xorl	%edi, %edi
.LBB100_143:
	xorl	%edx, %edx
.LBB100_144:
	xorl	%r15d, %r15d
	xorl	%ebp, %ebp
	testq	%rbx, %rbx
	je	.LBB100_148
.LBB100_147:
	movq	%rdi, 16(%rsp)
	movq	%r14, %rdi
	movq	%rdx, %rbx
	movq	%rcx, %r14
	movq	%rsi, %r13
	callq	rattle_dealloc
	movq	16(%rsp), %rdi
	movq	%r13, %rsi
	movq	%r14, %rcx
	movq	%rbx, %rdx
.LBB100_148:
	shlq	$32, %rdi
	shll	$16, %ebp
	orq	%rdi, %rbp
	movzbl	%r15b, %eax
	shll	$8, %eax
	orq	%rbp, %rax
	orq	%rcx, %rax
	movq	%rax, 288(%rsp)
	leaq	296(%rsp), %r15
	movq	%rdx, 296(%rsp)
	movq	%r12, 304(%rsp)
	movq	%rsi, 312(%rsp)
	leaq	12(%rsp), %rax
	movq	%rax, 32(%rsp)
	xorps	%xmm0, %xmm0
	movups	%xmm0, 40(%rsp)
	movq	$0, 56(%rsp)
	leaq	256(%rsp), %rdi
	leaq	288(%rsp), %rsi
	leaq	32(%rsp), %rdx
	callq	"amq_protocol_types::generation::values::gen_value::<#4ea8deeae94023ba>"
	cmpb	$0, 256(%rsp)
	je	.LBB100_154
	cmpb	$2, 257(%rsp)
	movq	48(%rsp), %rax
	jne	.LBB100_157
	testq	%rax, %rax
	movq	200(%rsp), %r14
	je	.LBB100_152
	movq	32(%rsp), %rdi
	callq	rattle_dealloc
.LBB100_152:
	movzbl	288(%rsp), %eax
	leaq	.LJTI100_5(%rip), %rcx
	movslq	(%rcx,%rax,4), %rax
	addq	%rcx, %rax
	jmpq	*%rax
.LBB100_153:
	xorl	%eax, %eax
	jmp	.LBB100_173
.LBB100_154:
	movq	32(%rsp), %r14
	movq	40(%rsp), %rbp
	movq	48(%rsp), %rbx
	movzbl	288(%rsp), %eax
	leaq	.LJTI100_6(%rip), %rcx
	movslq	(%rcx,%rax,4), %rax
	addq	%rcx, %rax
	jmpq	*%rax
.LBB100_155:
	cmpq	$0, 312(%rsp)
	je	.LBB100_46
	movq	296(%rsp), %rdi
	callq	rattle_dealloc
	jmp	.LBB100_46
.LBB100_157:
	testq	%rax, %rax
	movq	200(%rsp), %r14
	je	.LBB100_159
	movq	32(%rsp), %rdi
	callq	rattle_dealloc
.LBB100_159:
	movzbl	288(%rsp), %ecx
	movb	$1, %al
	leaq	.LJTI100_4(%rip), %rdx
	movslq	(%rdx,%rcx,4), %rcx
	addq	%rdx, %rcx
	jmpq	*%rcx
.LBB100_160:
	cmpq	$0, 312(%rsp)
	je	.LBB100_173
	movq	296(%rsp), %rdi
	callq	rattle_dealloc
	movb	$1, %al
	xorl	%ebx, %ebx
	movl	$17, %r15d
	movzbl	%al, %eax
	leaq	.LJTI100_14(%rip), %rcx
	movslq	(%rcx,%rax,4), %rax
	addq	%rcx, %rax
	xorl	%r13d, %r13d
	jmpq	*%rax
.LBB100_162:
	testq	%rax, %rax
	je	.LBB100_110
	movzbl	1(%r14), %r15d
	movl	$1, %ecx
.LBB100_164:
	xorl	%r12d, %r12d
	xorl	%esi, %esi
	xorl	%edi, %edi
	xorl	%edx, %edx
	xorl	%ebp, %ebp
	testq	%rbx, %rbx
	jne	.LBB100_147
	jmp	.LBB100_148
.LBB100_165:
	cmpq	$5, %rbp
	jb	.LBB100_110
	movl	1(%r14), %eax
	movl	%eax, %r15d
	bswapl	%r15d
	addq	$-5, %rbp
	cmpq	%r15, %rbp
	jb	.LBB100_110
	testl	%eax, %eax
	je	.LBB100_242
	movl	$1, %esi
	movq	%r15, %rdi
	callq	rattle_alloc
	testb	$1, %al
	je	.LBB100_110
	leaq	5(%r14), %rsi
	movq	%rdx, %rax
	subq	%rsi, %rax
	movq	%r15, %r12
	cmpq	%r15, %rax
	jae	.LBB100_271
	cmpl	$4, %r12d
	jb	.LBB100_171
	movq	%rdx, %rax
	subq	%r14, %rax
	addq	$-5, %rax
	cmpq	$32, %rax
	jae	.LBB100_462
.LBB100_171:
	xorl	%eax, %eax
.LBB100_496:
	movq	%r12, %r8
	movq	%rax, %rcx
	andq	$3, %r8
	je	.LBB100_499
	movq	%rax, %rcx
.LBB100_498:
	movzbl	(%rsi,%rcx), %edi
	movb	%dil, (%rdx,%rcx)
	incq	%rcx
	decq	%r8
	jne	.LBB100_498
.LBB100_499:
	subq	%r12, %rax
	cmpq	$-4, %rax
	jbe	.LBB100_501
	xorl	%edi, %edi
	jmp	.LBB100_502
.LBB100_110:
	testq	%rbx, %rbx
	je	.LBB100_172
	movq	%r14, %rdi
	callq	rattle_dealloc
	xorl	%eax, %eax
	xorl	%ebx, %ebx
	movl	$17, %r15d
	movzbl	%al, %eax
	leaq	.LJTI100_14(%rip), %rcx
	movslq	(%rcx,%rax,4), %rax
	addq	%rcx, %rax
	xorl	%r13d, %r13d
	movq	200(%rsp), %r14
	jmpq	*%rax
.LBB100_172:
	xorl	%eax, %eax
	movq	200(%rsp), %r14
.LBB100_173:
	xorl	%ebx, %ebx
	movl	$17, %r15d
	movzbl	%al, %eax
	leaq	.LJTI100_14(%rip), %rcx
	movslq	(%rcx,%rax,4), %rax
	addq	%rcx, %rax
	xorl	%r13d, %r13d
	jmpq	*%rax
.LBB100_174:
	movq	56(%rsp), %rax
.LBB100_175:
	movq	%rax, 112(%rsp)
	xorl	%r12d, %r12d
.LBB100_268:
	movb	%r12b, 136(%rsp)
.LBB100_71:
	movq	$0, 288(%rsp)
	xorps	%xmm0, %xmm0
	movaps	%xmm0, 576(%rsp)
	movl	$0, 591(%rsp)
	cmpq	$3, %r15
	jae	.LBB100_273
	movb	$2, 289(%rsp)
	movb	$0, 291(%rsp)
	movups	%xmm0, 296(%rsp)
	movups	%xmm0, 312(%rsp)
	movups	%xmm0, 328(%rsp)
	movups	%xmm0, 344(%rsp)
	movups	%xmm0, 360(%rsp)
	movups	%xmm0, 376(%rsp)
	movups	%xmm0, 392(%rsp)
	movups	%xmm0, 408(%rsp)
	movups	%xmm0, 424(%rsp)
	movq	$0, 440(%rsp)
	testq	%r15, %r15
	je	.LBB100_434
	leaq	296(%rsp), %rax
	movq	%rax, 16(%rsp)
	jmp	.LBB100_278
.LBB100_273:
	cmpb	$-17, (%r14)
	jne	.LBB100_277
	cmpb	$-69, 1(%r14)
	jne	.LBB100_277
	cmpb	$-65, 2(%r14)
	jne	.LBB100_277
	movb	$10, %r13b
	jmp	.LBB100_435
.LBB100_277:
	movb	$2, 289(%rsp)
	movb	$0, 291(%rsp)
	leaq	296(%rsp), %rax
	movq	%rax, 16(%rsp)
	movups	%xmm0, 296(%rsp)
	movups	%xmm0, 312(%rsp)
	movups	%xmm0, 328(%rsp)
	movups	%xmm0, 344(%rsp)
	movups	%xmm0, 360(%rsp)
	movups	%xmm0, 376(%rsp)
	movups	%xmm0, 392(%rsp)
	movups	%xmm0, 408(%rsp)
	movups	%xmm0, 424(%rsp)
	movq	$0, 440(%rsp)
.LBB100_278:
	leaq	176(%rsp), %rbp
	leaq	579(%rsp), %r12
	movb	$2, %al
	xorl	%r8d, %r8d
	xorl	%edi, %edi
	xorl	%r9d, %r9d
	xorl	%ecx, %ecx
	xorl	%ebx, %ebx
	jmp	.LBB100_282
	.p2align	4
.LBB100_279:
	movq	16(%rsp), %rdx
	movups	(%rdx), %xmm0
	movups	%xmm0, (%rbp)
.LBB100_280:
	movups	(%rbp), %xmm0
	movups	%xmm0, (%r12)
	movl	%eax, %esi
.LBB100_281:
	movb	%cl, 288(%rsp)
	movb	%sil, 289(%rsp)
	movb	%r9b, 290(%rsp)
	movb	%r8b, 291(%rsp)
	movb	%dil, 292(%rsp)
	movups	(%r12), %xmm0
	movq	16(%rsp), %rax
	movups	%xmm0, (%rax)
	incq	%rbx
	movl	%esi, %eax
	cmpq	%rbx, %r15
	je	.LBB100_433
.LBB100_282:
	movzbl	(%r14,%rbx), %edx
	xorps	%xmm0, %xmm0
	movaps	%xmm0, 160(%rsp)
	movaps	%xmm0, 176(%rsp)
	movaps	%xmm0, 512(%rsp)
	movl	$0, 527(%rsp)
	movaps	%xmm0, 480(%rsp)
	movl	$0, 495(%rsp)
	movzbl	%cl, %esi
	leaq	.LJTI100_7(%rip), %r10
	movslq	(%r10,%rsi,4), %r11
	addq	%r10, %r11
	jmpq	*%r11
.LBB100_283:
	cmpl	$13, %edx
	je	.LBB100_279
	cmpl	$32, %edx
	je	.LBB100_279
	leal	-9(%rdx), %r10d
	cmpb	$1, %r10b
	jbe	.LBB100_279
	leaq	.LJTI100_8(%rip), %rcx
	movslq	(%rcx,%rsi,4), %rsi
	addq	%rcx, %rsi
	jmpq	*%rsi
.LBB100_287:
	leal	-34(%rdx), %esi
	cmpl	$89, %esi
	ja	.LBB100_414
	movb	$5, %cl
	movl	$3, %edi
	leaq	.LJTI100_9(%rip), %r8
	movslq	(%r8,%rsi,4), %rsi
	addq	%r8, %rsi
	jmpq	*%rsi
.LBB100_289:
	movb	$7, %cl
	jmp	.LBB100_428
.LBB100_290:
	movzbl	%al, %eax
	leaq	.LJTI100_10(%rip), %rcx
	movslq	(%rcx,%rax,4), %rax
	addq	%rcx, %rax
	jmpq	*%rax
.LBB100_291:
	movb	$1, %sil
	cmpl	$48, %edx
	leaq	515(%rsp), %rdi
	je	.LBB100_378
	addb	$-48, %dl
	movb	$2, %sil
	cmpb	$10, %dl
	jb	.LBB100_378
	jmp	.LBB100_293
.LBB100_294:
	movzbl	%r9b, %ecx
	leaq	.LJTI100_11(%rip), %rsi
	movslq	(%rsi,%rcx,4), %r9
	addq	%rsi, %r9
	jmpq	*%r9
.LBB100_295:
	leal	-48(%rdx), %esi
	cmpb	$10, %sil
	jb	.LBB100_297
	movl	%edx, %esi
	andb	$-33, %sil
	addb	$-65, %sil
	cmpb	$5, %sil
	ja	.LBB100_454
.LBB100_297:
	addl	$-2, %ecx
	leaq	.LJTI100_12(%rip), %rsi
	movslq	(%rsi,%rcx,4), %rcx
	addq	%rsi, %rcx
	jmpq	*%rcx
.LBB100_298:
	movl	%r8d, %esi
	andb	$1, %sil
	addb	$-68, %dl
	movb	$3, %r9b
	testb	$-33, %dl
	sete	%dil
	je	.LBB100_362
	testb	$1, %r8b
	leaq	483(%rsp), %r8
	je	.LBB100_363
	jmp	.LBB100_300
.LBB100_301:
	movaps	%xmm0, 256(%rsp)
	movl	$0, 271(%rsp)
	movaps	%xmm0, 224(%rsp)
	movaps	%xmm0, 240(%rsp)
	movb	$2, %r13b
	movb	$1, %al
	cmpl	$43, %edx
	jne	.LBB100_307
.LBB100_302:
	xorl	%ecx, %ecx
	xorl	%esi, %esi
	xorl	%r9d, %r9d
	xorl	%r8d, %r8d
	xorl	%edi, %edi
	leaq	259(%rsp), %rdx
	jmp	.LBB100_391
.LBB100_303:
	movq	304(%rsp), %rsi
	movb	$2, %r13b
	movb	$1, %al
	testq	%rsi, %rsi
	je	.LBB100_312
	movq	296(%rsp), %rdi
	cmpq	$1, %rsi
	jne	.LBB100_313
	cmpb	%dl, (%rdi)
	jne	.LBB100_315
	movb	$4, %cl
	xorl	%eax, %eax
	xorl	%r13d, %r13d
	jmp	.LBB100_316
.LBB100_307:
	cmpb	$45, %dl
	leaq	227(%rsp), %rdi
	jae	.LBB100_319
.LBB100_308:
	cmpl	$13, %edx
	je	.LBB100_311
	cmpl	$32, %edx
	je	.LBB100_311
	movl	%edx, %eax
	addb	$-9, %al
	cmpb	$1, %al
	ja	.LBB100_321
.LBB100_311:
	movups	%xmm0, 13(%rdi)
	movb	$3, %cl
	movq	%rdi, %rdx
	xorl	%edi, %edi
	xorl	%r8d, %r8d
	xorl	%r9d, %r9d
	xorl	%esi, %esi
	xorl	%r13d, %r13d
	xorl	%eax, %eax
	jmp	.LBB100_322
.LBB100_312:
	xorl	%ecx, %ecx
	jmp	.LBB100_317
.LBB100_313:
	cmpb	%dl, (%rdi)
	jne	.LBB100_315
	decq	%rsi
	incq	%rdi
	movb	$5, %cl
	xorl	%eax, %eax
	xorl	%r13d, %r13d
	jmp	.LBB100_318
.LBB100_315:
	xorl	%ecx, %ecx
.LBB100_316:
	xorl	%esi, %esi
.LBB100_317:
	xorl	%edi, %edi
.LBB100_318:
	movq	%rdi, 176(%rsp)
	movq	%rsi, 184(%rsp)
	xorl	%edi, %edi
	xorl	%r8d, %r8d
	xorl	%r9d, %r9d
	xorl	%esi, %esi
	movups	(%rbp), %xmm0
	movups	%xmm0, (%r12)
	testb	%al, %al
	je	.LBB100_281
	jmp	.LBB100_436
.LBB100_319:
	cmpb	$47, %dl
	jb	.LBB100_302
	cmpl	$47, %edx
	jne	.LBB100_379
.LBB100_321:
	movq	%rdi, %r13
	leaq	224(%rsp), %rdi
	leaq	288(%rsp), %rsi
	callq	"amqp_json::reading::syntax::Scan::after_value"
	movq	%r13, %rdx
	movzbl	224(%rsp), %eax
	movzbl	225(%rsp), %r13d
	movzbl	232(%rsp), %ecx
	movzbl	233(%rsp), %esi
	movzbl	234(%rsp), %r9d
	movzbl	235(%rsp), %r8d
	movzbl	236(%rsp), %edi
.LBB100_322:
	movups	13(%rdx), %xmm0
	leaq	259(%rsp), %rdx
	jmp	.LBB100_390
.LBB100_323:
	movb	$5, %sil
	movl	%edx, %eax
	orl	$32, %eax
	cmpl	$101, %eax
	leaq	515(%rsp), %rdi
	je	.LBB100_378
	leal	-48(%rdx), %eax
	movb	$4, %sil
	jmp	.LBB100_329
.LBB100_325:
	cmpl	$46, %edx
	leaq	515(%rsp), %rdi
	je	.LBB100_377
	movb	$5, %sil
	cmpl	$69, %edx
	je	.LBB100_378
	cmpl	$101, %edx
	je	.LBB100_378
	leal	-48(%rdx), %eax
	movb	$2, %sil
.LBB100_329:
	cmpb	$10, %al
	jae	.LBB100_341
	jmp	.LBB100_378
.LBB100_330:
	cmpl	$34, %edx
	je	.LBB100_382
	cmpl	$92, %edx
	leaq	483(%rsp), %r8
	jne	.LBB100_383
	movb	$1, %r9b
	xorl	%edi, %edi
	xorl	%esi, %esi
	jmp	.LBB100_363
.LBB100_333:
	movb	$4, %sil
	addl	$-34, %edx
	cmpl	$83, %edx
	ja	.LBB100_293
	leaq	.LJTI100_13(%rip), %rcx
	movslq	(%rcx,%rdx,4), %rdx
	addq	%rcx, %rdx
	jmpq	*%rdx
.LBB100_335:
	xorl	%edi, %edi
	xorl	%esi, %esi
	xorl	%r9d, %r9d
	jmp	.LBB100_362
.LBB100_336:
	addb	$-48, %dl
	movb	$4, %sil
	cmpb	$10, %dl
	leaq	515(%rsp), %rdi
	jb	.LBB100_378
	jmp	.LBB100_456
.LBB100_337:
	leal	-48(%rdx), %eax
	movb	$7, %sil
	cmpb	$10, %al
	leaq	515(%rsp), %rdi
	jae	.LBB100_341
	jmp	.LBB100_378
.LBB100_338:
	cmpl	$46, %edx
	leaq	515(%rsp), %rdi
	je	.LBB100_377
	movb	$5, %sil
	cmpl	$69, %edx
	je	.LBB100_378
	cmpl	$101, %edx
	je	.LBB100_378
.LBB100_341:
	movaps	%xmm0, 256(%rsp)
	movl	$0, 271(%rsp)
	movaps	%xmm0, 224(%rsp)
	movaps	%xmm0, 240(%rsp)
	movb	$2, %r13b
	movb	$1, %al
	cmpl	$43, %edx
	jne	.LBB100_372
.LBB100_342:
	xorl	%ecx, %ecx
	xorl	%esi, %esi
	xorl	%r9d, %r9d
	xorl	%r8d, %r8d
	xorl	%edi, %edi
	leaq	259(%rsp), %rdx
	jmp	.LBB100_389
.LBB100_343:
	cmpl	$117, %edx
	jne	.LBB100_300
	movb	$2, %r9b
	movb	$1, %sil
	jmp	.LBB100_361
.LBB100_345:
	movb	$6, %sil
	cmpl	$43, %edx
	leaq	515(%rsp), %rdi
	je	.LBB100_378
	cmpl	$45, %edx
	je	.LBB100_378
	addb	$-48, %dl
	movb	$7, %sil
	cmpb	$10, %dl
	jb	.LBB100_378
	jmp	.LBB100_456
.LBB100_455:
	addb	$-48, %dl
	movb	$7, %sil
	cmpb	$10, %dl
	leaq	515(%rsp), %rdi
	jb	.LBB100_378
	jmp	.LBB100_456
.LBB100_348:
	cmpl	$92, %edx
	jne	.LBB100_300
	movb	$7, %r9b
.LBB100_350:
	xorl	%edi, %edi
	jmp	.LBB100_353
.LBB100_351:
	andb	$1, %r8b
	movb	$5, %r9b
	xorl	%edi, %edi
	movl	%r8d, %esi
	jmp	.LBB100_362
.LBB100_352:
	xorl	%edi, %edi
	testb	$1, %r8b
	movl	$6, %r9d
	cmovel	%edi, %r9d
.LBB100_353:
	xorl	%esi, %esi
	jmp	.LBB100_362
.LBB100_354:
	xorl	%esi, %esi
	cmpb	$56, %dl
	jb	.LBB100_359
	testb	$1, %dil
	je	.LBB100_359
	movb	$1, %sil
	cmpb	$58, %dl
	jb	.LBB100_359
	cmpb	$65, %dl
	jae	.LBB100_395
.LBB100_358:
	xorl	%esi, %esi
.LBB100_359:
	testb	$1, %r8b
	jne	.LBB100_300
.LBB100_360:
	movb	$4, %r9b
.LBB100_361:
	xorl	%edi, %edi
.LBB100_362:
	leaq	483(%rsp), %r8
.LBB100_363:
	movups	%xmm0, (%r8)
	movb	$7, %cl
.LBB100_364:
	movups	(%r8), %xmm0
	movups	%xmm0, (%rbp)
	movl	%esi, %r8d
	jmp	.LBB100_280
.LBB100_365:
	cmpl	$58, %edx
	jne	.LBB100_457
	movups	%xmm0, (%rbp)
	movb	$2, %al
	xorl	%edi, %edi
	xorl	%r8d, %r8d
	xorl	%r9d, %r9d
	xorl	%ecx, %ecx
	jmp	.LBB100_280
.LBB100_367:
	leaq	160(%rsp), %rdi
	leaq	288(%rsp), %rsi
	callq	"amqp_json::reading::syntax::Scan::after_value"
	movzbl	160(%rsp), %eax
	movzbl	161(%rsp), %r13d
	movzbl	168(%rsp), %ecx
	movzbl	169(%rsp), %esi
	movzbl	170(%rsp), %r9d
	movzbl	171(%rsp), %r8d
	movzbl	172(%rsp), %edi
	movups	(%rbp), %xmm0
	movups	%xmm0, (%r12)
	testb	%al, %al
	je	.LBB100_281
	jmp	.LBB100_436
.LBB100_368:
	movaps	%xmm0, 224(%rsp)
	movl	$0, 239(%rsp)
	movaps	%xmm0, 256(%rsp)
	movl	$0, 271(%rsp)
	cmpl	$125, %edx
	je	.LBB100_392
	cmpl	$34, %edx
	leaq	227(%rsp), %rdi
	jne	.LBB100_394
	movups	%xmm0, (%rdi)
	movb	$1, %sil
	movb	$7, %cl
	xorl	%eax, %eax
	xorl	%r13d, %r13d
	jmp	.LBB100_401
.LBB100_371:
	movups	%xmm0, (%rbp)
	movb	$8, %cl
	xorl	%edi, %edi
	xorl	%r8d, %r8d
	xorl	%r9d, %r9d
	xorl	%eax, %eax
	jmp	.LBB100_280
.LBB100_372:
	cmpb	$45, %dl
	leaq	227(%rsp), %rdi
	jae	.LBB100_385
.LBB100_373:
	cmpl	$13, %edx
	je	.LBB100_376
	cmpl	$32, %edx
	je	.LBB100_376
	movl	%edx, %eax
	addb	$-9, %al
	cmpb	$1, %al
	ja	.LBB100_387
.LBB100_376:
	movups	%xmm0, 13(%rdi)
	movb	$3, %cl
	movq	%rdi, %rdx
	xorl	%edi, %edi
	xorl	%r8d, %r8d
	xorl	%r9d, %r9d
	xorl	%esi, %esi
	xorl	%r13d, %r13d
	xorl	%eax, %eax
	jmp	.LBB100_388
.LBB100_377:
	movb	$3, %sil
.LBB100_378:
	movups	%xmm0, (%rdi)
	movb	$6, %cl
	xorl	%eax, %eax
	xorl	%r13d, %r13d
	xorl	%r9d, %r9d
	movq	%rdi, %rdx
	xorl	%r8d, %r8d
	xorl	%edi, %edi
	jmp	.LBB100_391
.LBB100_379:
	cmpb	$58, %dl
	jb	.LBB100_302
	cmpb	$65, %dl
	jb	.LBB100_308
	cmpb	$91, %dl
	setb	%cl
	leal	-97(%rdx), %esi
	cmpb	$26, %sil
	setb	%sil
	orb	%cl, %sil
	jne	.LBB100_302
	jmp	.LBB100_308
.LBB100_382:
	leaq	483(%rsp), %r8
	movups	%xmm0, (%r8)
	xorb	$3, %al
	xorl	%r9d, %r9d
	movl	%eax, %ecx
	xorl	%eax, %eax
	xorl	%esi, %esi
	xorl	%edi, %edi
	jmp	.LBB100_364
.LBB100_383:
	cmpb	$32, %dl
	jb	.LBB100_458
	xorl	%edi, %edi
	xorl	%esi, %esi
	xorl	%r9d, %r9d
	jmp	.LBB100_363
.LBB100_385:
	cmpb	$47, %dl
	jb	.LBB100_342
	cmpl	$47, %edx
	jne	.LBB100_417
.LBB100_387:
	movq	%rdi, %r13
	leaq	224(%rsp), %rdi
	leaq	288(%rsp), %rsi
	callq	"amqp_json::reading::syntax::Scan::after_value"
	movq	%r13, %rdx
	movzbl	224(%rsp), %eax
	movzbl	225(%rsp), %r13d
	movzbl	232(%rsp), %ecx
	movzbl	233(%rsp), %esi
	movzbl	234(%rsp), %r9d
	movzbl	235(%rsp), %r8d
	movzbl	236(%rsp), %edi
.LBB100_388:
	movups	13(%rdx), %xmm0
	leaq	259(%rsp), %rdx
	movups	%xmm0, (%rdx)
.LBB100_389:
	movups	(%rdx), %xmm0
	leaq	515(%rsp), %rdx
.LBB100_390:
	movups	%xmm0, (%rdx)
.LBB100_391:
	movups	(%rdx), %xmm0
	movups	%xmm0, (%rbp)
	movups	(%rbp), %xmm0
	movups	%xmm0, (%r12)
	testb	%al, %al
	je	.LBB100_281
	jmp	.LBB100_436
.LBB100_392:
	testb	%al, %al
	leaq	259(%rsp), %rdx
	leaq	227(%rsp), %rdi
	jne	.LBB100_398
	movq	440(%rsp), %rax
	cmpq	$1, %rax
	adcq	$-1, %rax
	movq	%rax, 440(%rsp)
	movups	%xmm0, (%rdx)
	movb	$3, %cl
	xorl	%eax, %eax
	xorl	%r13d, %r13d
	jmp	.LBB100_399
.LBB100_394:
	movb	$2, %r13b
	movb	$1, %al
	xorl	%ecx, %ecx
	jmp	.LBB100_400
.LBB100_395:
	cmpb	$71, %dl
	jae	.LBB100_420
	cmpb	$67, %dl
	setae	%sil
	jmp	.LBB100_422
.LBB100_397:
	movb	$2, %r9b
	jmp	.LBB100_350
.LBB100_398:
	movb	$8, %r13b
	movb	$1, %al
	xorl	%ecx, %ecx
.LBB100_399:
	movups	(%rdx), %xmm0
	movups	%xmm0, (%rdi)
.LBB100_400:
	xorl	%esi, %esi
.LBB100_401:
	movups	(%rdi), %xmm0
	movups	%xmm0, (%rbp)
	jmp	.LBB100_432
.LBB100_402:
	movb	$6, %cl
	movb	$1, %sil
	jmp	.LBB100_416
.LBB100_403:
	leaq	.Lstatic.27(%rip), %rdx
	movl	$4, %edi
	jmp	.LBB100_429
.LBB100_404:
	movb	$6, %cl
	jmp	.LBB100_428
.LBB100_405:
	leaq	.Lstatic.28(%rip), %rdx
	jmp	.LBB100_429
.LBB100_406:
	leaq	.Lstatic.26(%rip), %rdx
	jmp	.LBB100_429
.LBB100_407:
	movq	440(%rsp), %rax
	cmpq	$127, %rax
	je	.LBB100_413
	movb	$0, 312(%rsp,%rax)
	incq	440(%rsp)
	xorl	%edi, %edi
	xorl	%edx, %edx
	xorl	%esi, %esi
	xorl	%ecx, %ecx
	jmp	.LBB100_430
.LBB100_409:
	cmpb	$2, %al
	je	.LBB100_424
	movzbl	%al, %ecx
	cmpl	$1, %ecx
	jne	.LBB100_427
	movb	$8, %r13b
	jmp	.LBB100_425
.LBB100_412:
	movq	440(%rsp), %rax
	cmpq	$127, %rax
	jne	.LBB100_426
.LBB100_413:
	movb	$8, %cl
	jmp	.LBB100_428
.LBB100_414:
	addb	$-48, %dl
	cmpb	$10, %dl
	jae	.LBB100_424
	movb	$6, %cl
	movb	$2, %sil
.LBB100_416:
	xorl	%edi, %edi
	xorl	%edx, %edx
	jmp	.LBB100_430
.LBB100_417:
	cmpb	$58, %dl
	jb	.LBB100_342
	cmpb	$65, %dl
	jb	.LBB100_373
	cmpb	$91, %dl
	setb	%cl
	leal	-97(%rdx), %esi
	cmpb	$26, %sil
	setb	%sil
	orb	%cl, %sil
	jne	.LBB100_342
	jmp	.LBB100_373
.LBB100_420:
	leal	-97(%rdx), %ecx
	cmpb	$6, %cl
	jae	.LBB100_358
	addb	$-99, %dl
	cmpb	$4, %dl
	setb	%sil
.LBB100_422:
	xorb	%sil, %r8b
	testb	$1, %r8b
	jne	.LBB100_300
	xorb	$1, %sil
	jmp	.LBB100_360
.LBB100_424:
	movb	$1, %al
	movb	$2, %r13b
.LBB100_425:
	xorl	%edi, %edi
	xorl	%edx, %edx
	xorl	%esi, %esi
	xorl	%ecx, %ecx
	jmp	.LBB100_431
.LBB100_426:
	movb	$1, 312(%rsp,%rax)
	incq	440(%rsp)
	movb	$1, %cl
	jmp	.LBB100_428
.LBB100_427:
	movq	440(%rsp), %rax
	cmpq	$1, %rax
	adcq	$-1, %rax
	movq	%rax, 440(%rsp)
	movb	$3, %cl
.LBB100_428:
	xorl	%edi, %edi
	xorl	%edx, %edx
.LBB100_429:
	xorl	%esi, %esi
.LBB100_430:
	xorl	%r13d, %r13d
	xorl	%eax, %eax
.LBB100_431:
	movq	%rdx, 176(%rsp)
	movq	%rdi, 184(%rsp)
.LBB100_432:
	xorl	%edi, %edi
	xorl	%r8d, %r8d
	xorl	%r9d, %r9d
	movups	(%rbp), %xmm0
	movups	%xmm0, (%r12)
	testb	%al, %al
	je	.LBB100_281
	jmp	.LBB100_436
.LBB100_433:
	cmpb	$7, %cl
	sete	%r13b
	movq	%r15, %rbx
	jmp	.LBB100_436
.LBB100_434:
	xorl	%r13d, %r13d
.LBB100_435:
	xorl	%ebx, %ebx
.LBB100_436:
	movb	$2, %r12b
.LBB100_437:
	movq	200(%rsp), %r14
	cmpq	$0, 464(%rsp)
	je	.LBB100_439
	movq	448(%rsp), %rdi
	callq	rattle_dealloc
.LBB100_439:
	cmpq	$0, 624(%rsp)
	je	.LBB100_441
	movq	608(%rsp), %rdi
	callq	rattle_dealloc
.LBB100_441:
	cmpq	$0, 17032(%rsp)
	je	.LBB100_444
	movq	17016(%rsp), %rdi
	callq	rattle_dealloc
	movl	$17, %r15d
	movzbl	%r12b, %eax
	leaq	.LJTI100_14(%rip), %rcx
	movslq	(%rcx,%rax,4), %rax
	addq	%rcx, %rax
	jmpq	*%rax
.LBB100_444:
	movl	$17, %r15d
	movzbl	%r12b, %eax
	leaq	.LJTI100_14(%rip), %rcx
	movslq	(%rcx,%rax,4), %rax
	addq	%rcx, %rax
	jmpq	*%rax
.LBB100_445:
	movl	$11, %r15d
	jmp	.LBB100_451
.LBB100_454:
	movb	$4, %sil
	movl	%esi, %r13d
	jmp	.LBB100_436
.LBB100_300:
	movb	$5, %sil
	movl	%esi, %r13d
	jmp	.LBB100_436
.LBB100_456:
	movb	$2, %sil
	movl	%esi, %r13d
	jmp	.LBB100_436
.LBB100_457:
	movb	$7, %r13b
	jmp	.LBB100_436
.LBB100_293:
	movl	%esi, %r13d
	jmp	.LBB100_436
.LBB100_501:
	movzbl	5(%r14,%rcx), %eax
	movb	%al, (%rdx,%rcx)
	movzbl	6(%r14,%rcx), %eax
	movb	%al, 1(%rdx,%rcx)
	movzbl	7(%r14,%rcx), %eax
	movb	%al, 2(%rdx,%rcx)
	movzbl	8(%r14,%rcx), %eax
	movb	%al, 3(%rdx,%rcx)
	addq	$4, %rcx
	xorl	%edi, %edi
	cmpq	%rcx, %r12
	jne	.LBB100_501
.LBB100_502:
	movq	%r12, %rsi
	xorl	%r15d, %r15d
	xorl	%ebp, %ebp
	movl	$16, %ecx
	testq	%rbx, %rbx
	jne	.LBB100_147
	jmp	.LBB100_148
.LBB100_176:
	movb	$32, %cl
	cmpq	$5, %rax
	jb	.LBB100_182
	cmpl	$1702063201, 1(%rdi,%rbx)
	sete	%dl
	cmpq	$5, %rax
	je	.LBB100_200
	movzbl	5(%rdi,%rbx), %ecx
	jmp	.LBB100_200
.LBB100_179:
	movb	$32, %cl
	cmpq	$4, %rax
	jb	.LBB100_182
	movzbl	3(%rdi,%rbx), %edx
	xorb	$108, %dl
	movzbl	1(%rdi,%rbx), %esi
	movzbl	2(%rdi,%rbx), %r8d
	xorb	$108, %r8b
	orb	%dl, %r8b
	xorb	$117, %sil
	jmp	.LBB100_198
.LBB100_181:
	movb	$32, %cl
	cmpq	$4, %rax
	jae	.LBB100_197
.LBB100_182:
	xorl	%edx, %edx
	jmp	.LBB100_200
.LBB100_64:
	leaq	1(%rbx), %rsi
	movq	%rbp, %rax
	subq	%rsi, %rax
	movq	%rsi, %rdx
	cmpq	$32, %rax
	movq	%rdi, 16(%rsp)
	movq	%rsi, 208(%rsp)
	jb	.LBB100_69
	notq	%rbx
	leaq	(%rdi,%rsi), %rax
.LBB100_66:
	movdqu	(%rax), %xmm0
	movdqu	16(%rax), %xmm1
	movdqa	.LCPI100_1(%rip), %xmm2
	movdqa	%xmm1, %xmm3
	movdqa	.LCPI100_3(%rip), %xmm4
	movdqa	%xmm0, %xmm5
	pminub	%xmm4, %xmm5
	pminub	%xmm1, %xmm4
	pcmpeqb	%xmm1, %xmm4
	pcmpeqb	%xmm2, %xmm1
	movdqa	.LCPI100_2(%rip), %xmm6
	pcmpeqb	%xmm6, %xmm3
	por	%xmm1, %xmm3
	pcmpeqb	%xmm0, %xmm2
	pcmpeqb	%xmm0, %xmm6
	por	%xmm2, %xmm6
	pcmpeqb	%xmm0, %xmm5
	por	%xmm6, %xmm5
	por	%xmm3, %xmm4
	pmovmskb	%xmm5, %edx
	pmovmskb	%xmm4, %ecx
	shll	$16, %ecx
	orl	%edx, %ecx
	jne	.LBB100_231
	leaq	(%rbx,%rbp), %rcx
	addq	$-32, %rcx
	addq	$-32, %rbx
	addq	$32, %rax
	cmpq	$31, %rcx
	ja	.LBB100_66
	negq	%rbx
	movq	%rbx, %rdx
.LBB100_69:
	movq	%rbp, %rsi
	callq	"json::run::plain_end_16"
	jmp	.LBB100_232
.LBB100_187:
	movl	4(%rcx,%rax,4), %eax
	addq	80(%rsp), %rax
	jmp	.LBB100_188
.LBB100_189:
	xorl	%ecx, %ecx
	cmpl	$45, %edx
	sete	%cl
	addq	%rcx, %rbx
	movq	%rbp, %rsi
	subq	%rbx, %rsi
	movq	%rdi, 16(%rsp)
	jbe	.LBB100_192
	cmpb	$48, (%rdi,%rbx)
	jne	.LBB100_192
	incq	%rbx
	movq	%rbx, %rax
	jmp	.LBB100_247
.LBB100_458:
	movb	$3, %sil
	movl	%esi, %r13d
	jmp	.LBB100_436
.LBB100_192:
	movq	%rbx, %rdx
	cmpq	$16, %rsi
	jb	.LBB100_196
	subq	%rcx, %rax
	movq	%rbx, %rdx
.LBB100_194:
	movdqu	(%rdi,%rdx), %xmm0
	paddb	.LCPI100_4(%rip), %xmm0
	movdqa	.LCPI100_5(%rip), %xmm1
	pminub	%xmm0, %xmm1
	pcmpeqb	%xmm0, %xmm1
	pmovmskb	%xmm1, %ecx
	testl	%ecx, %ecx
	jne	.LBB100_245
	addq	$16, %rdx
	addq	$-16, %rax
	cmpq	$15, %rax
	ja	.LBB100_194
.LBB100_196:
	movq	%rbp, %rsi
	callq	"json::run::digits_end_slowly"
	jmp	.LBB100_246
.LBB100_197:
	movzbl	3(%rdi,%rbx), %edx
	xorb	$101, %dl
	movzbl	1(%rdi,%rbx), %esi
	movzbl	2(%rdi,%rbx), %r8d
	xorb	$117, %r8b
	orb	%dl, %r8b
	xorb	$114, %sil
.LBB100_198:
	orb	%r8b, %sil
	sete	%dl
	cmpq	$4, %rax
	je	.LBB100_200
	movzbl	4(%rdi,%rbx), %ecx
.LBB100_200:
	movl	%ecx, %eax
	andb	$-33, %al
	addb	$-91, %al
	testb	$-3, %al
	sete	%dil
	cmpb	$58, %cl
	sete	%r8b
	cmpb	$44, %cl
	sete	%al
	cmpb	$32, %cl
	sete	%sil
	leal	-9(%rcx), %r9d
	cmpb	$2, %r9b
	setb	%r9b
	cmpb	$13, %cl
	sete	%cl
	testb	%dl, %dl
	je	.LBB100_268
	orb	%r8b, %al
	orb	%dil, %al
	orb	%cl, %sil
	orb	%r9b, %sil
	orb	%al, %sil
	je	.LBB100_268
.LBB100_202:
	xorps	%xmm0, %xmm0
	movaps	%xmm0, 288(%rsp)
	movaps	%xmm0, 304(%rsp)
	movq	64(%rsp), %rcx
	movq	72(%rsp), %rax
	leaq	1(%rax), %rdx
	movq	%rdx, 72(%rsp)
	cmpq	88(%rsp), %rdx
	jne	.LBB100_205
	movq	48(%rsp), %rsi
	movq	56(%rsp), %rdx
	movq	96(%rsp), %r8
	movzwl	104(%rsp), %eax
	movw	%ax, 160(%rsp)
	movzbl	106(%rsp), %eax
	movb	%al, 162(%rsp)
	leaq	288(%rsp), %rdi
	leaq	160(%rsp), %r9
	callq	"json::index::refill"
	movaps	288(%rsp), %xmm0
	movdqa	304(%rsp), %xmm1
	movdqu	%xmm1, 16(%r13)
	movups	%xmm0, (%r13)
	movq	$0, 72(%rsp)
	movq	64(%rsp), %rcx
	movl	$1, %eax
	cmpq	$0, 296(%rsp)
	je	.LBB100_225
	movl	(%rcx), %edx
	addq	288(%rsp), %rdx
	jmp	.LBB100_226
.LBB100_205:
	movl	4(%rcx,%rax,4), %edx
	addq	80(%rsp), %rdx
	addq	$2, %rax
	jmp	.LBB100_226
.LBB100_206:
	cmpb	$1, 296(%rsp)
	jne	.LBB100_46
	movq	304(%rsp), %rdi
	callq	"std_collections::btree::node::Node::destroy::<#6f4b2ed543d1e00a>"
	jmp	.LBB100_46
.LBB100_208:
	movq	16(%r15), %rax
	movq	%rax, 240(%rsp)
	movups	(%r15), %xmm0
	movaps	%xmm0, 224(%rsp)
	leaq	224(%rsp), %rdi
	callq	"std_alloc::vec::Vec::drop::<#a80c6f5142a8b983>"
	jmp	.LBB100_46
.LBB100_209:
	movq	16(%r15), %rax
	movq	%rax, 176(%rsp)
	movups	(%r15), %xmm0
	movaps	%xmm0, 160(%rsp)
	leaq	160(%rsp), %rdi
	callq	"std_alloc::vec::Vec::drop::<#a80c6f5142a8b983>"
	xorl	%eax, %eax
	xorl	%ebx, %ebx
	movl	$17, %r15d
	movzbl	%al, %eax
	leaq	.LJTI100_14(%rip), %rcx
	movslq	(%rcx,%rax,4), %rax
	addq	%rcx, %rax
	xorl	%r13d, %r13d
	jmpq	*%rax
.LBB100_210:
	movq	16(%r15), %rax
	movq	%rax, 464(%rsp)
	movups	(%r15), %xmm0
	movaps	%xmm0, 448(%rsp)
	leaq	448(%rsp), %rdi
	callq	"std_alloc::vec::Vec::drop::<#a80c6f5142a8b983>"
	movb	$1, %al
	xorl	%ebx, %ebx
	movl	$17, %r15d
	movzbl	%al, %eax
	leaq	.LJTI100_14(%rip), %rcx
	movslq	(%rcx,%rax,4), %rax
	addq	%rcx, %rax
	xorl	%r13d, %r13d
	jmpq	*%rax
.LBB100_211:
	cmpq	$0, 312(%rsp)
	je	.LBB100_153
	movq	296(%rsp), %rdi
	callq	rattle_dealloc
	xorl	%eax, %eax
	xorl	%ebx, %ebx
	movl	$17, %r15d
	movzbl	%al, %eax
	leaq	.LJTI100_14(%rip), %rcx
	movslq	(%rcx,%rax,4), %rax
	addq	%rcx, %rax
	xorl	%r13d, %r13d
	jmpq	*%rax
.LBB100_213:
	cmpq	$0, 312(%rsp)
	je	.LBB100_153
	movq	296(%rsp), %rdi
	callq	rattle_dealloc
	xorl	%eax, %eax
	xorl	%ebx, %ebx
	movl	$17, %r15d
	movzbl	%al, %eax
	leaq	.LJTI100_14(%rip), %rcx
	movslq	(%rcx,%rax,4), %rax
	addq	%rcx, %rax
	xorl	%r13d, %r13d
	jmpq	*%rax
.LBB100_215:
	cmpq	$0, 312(%rsp)
	je	.LBB100_173
	movq	296(%rsp), %rdi
	callq	rattle_dealloc
	movb	$1, %al
	xorl	%ebx, %ebx
	movl	$17, %r15d
	movzbl	%al, %eax
	leaq	.LJTI100_14(%rip), %rcx
	movslq	(%rcx,%rax,4), %rax
	addq	%rcx, %rax
	xorl	%r13d, %r13d
	jmpq	*%rax
.LBB100_217:
	cmpq	$0, 312(%rsp)
	je	.LBB100_153
	movq	296(%rsp), %rdi
	callq	rattle_dealloc
	xorl	%eax, %eax
	xorl	%ebx, %ebx
	movl	$17, %r15d
	movzbl	%al, %eax
	leaq	.LJTI100_14(%rip), %rcx
	movslq	(%rcx,%rax,4), %rax
	addq	%rcx, %rax
	xorl	%r13d, %r13d
	jmpq	*%rax
.LBB100_219:
	cmpq	$0, 312(%rsp)
	je	.LBB100_173
	movq	296(%rsp), %rdi
	callq	rattle_dealloc
	movb	$1, %al
	xorl	%ebx, %ebx
	movl	$17, %r15d
	movzbl	%al, %eax
	leaq	.LJTI100_14(%rip), %rcx
	movslq	(%rcx,%rax,4), %rax
	addq	%rcx, %rax
	xorl	%r13d, %r13d
	jmpq	*%rax
.LBB100_221:
	cmpb	$1, 296(%rsp)
	jne	.LBB100_153
	movq	304(%rsp), %rdi
	callq	"std_collections::btree::node::Node::destroy::<#6f4b2ed543d1e00a>"
	xorl	%eax, %eax
	xorl	%ebx, %ebx
	movl	$17, %r15d
	movzbl	%al, %eax
	leaq	.LJTI100_14(%rip), %rcx
	movslq	(%rcx,%rax,4), %rax
	addq	%rcx, %rax
	xorl	%r13d, %r13d
	jmpq	*%rax
.LBB100_223:
	cmpb	$1, 296(%rsp)
	jne	.LBB100_173
	movq	304(%rsp), %rdi
	callq	"std_collections::btree::node::Node::destroy::<#6f4b2ed543d1e00a>"
	movb	$1, %al
	xorl	%ebx, %ebx
	movl	$17, %r15d
	movzbl	%al, %eax
	leaq	.LJTI100_14(%rip), %rcx
	movslq	(%rcx,%rax,4), %rax
	addq	%rcx, %rax
	xorl	%r13d, %r13d
	jmpq	*%rax
.LBB100_447:
	incb	%r13b
	movw	$0, 612(%rsp)
	movl	$0, 608(%rsp)
	movl	$9, %r15d
	jmp	.LBB100_449
.LBB100_446:
	addb	$101, %r13b
	movw	$0, 612(%rsp)
	movl	$0, 608(%rsp)
	movl	$10, %r15d
	jmp	.LBB100_449
.LBB100_448:
	movw	$0, 612(%rsp)
	movl	$0, 608(%rsp)
	movl	$6, %r15d
	xorl	%r13d, %r13d
.LBB100_449:
	movzwl	612(%rsp), %eax
	movw	%ax, 540(%rsp)
	movl	608(%rsp), %ecx
	movl	%ecx, 504(%rsp)
	movw	%ax, 508(%rsp)
	movl	%ecx, 216(%rsp)
	movw	%ax, 220(%rsp)
.LBB100_450:
	movq	17104(%rsp), %rax
	movq	%rbx, (%rax)
	movq	$0, 8(%rax)
	movb	$0, 16(%rax)
	movb	%r13b, 17(%rax)
	movl	216(%rsp), %ecx
	movl	%ecx, 18(%rax)
	movzwl	220(%rsp), %ecx
	movw	%cx, 22(%rax)
.LBB100_451:
	xorl	%r12d, %r12d
.LBB100_452:
	xorl	%ecx, %ecx
	cmpb	$16, %r15b
	cmoveq	%r12, %rcx
	notl	%r15d
	movl	%r15d, %eax
	orl	$-256, %eax
	movq	%rcx, %r15
.LBB100_453:
	movq	%r15, (%r14)
	addq	$17048, %rsp
	popq	%rbx
	popq	%r12
	popq	%r13
	popq	%r14
	popq	%r15
	popq	%rbp
	retq
.LBB100_185:
	movq	56(%rsp), %rax
.LBB100_188:
	movq	%rax, 112(%rsp)
	movb	$1, %r12b
	jmp	.LBB100_268
.LBB100_225:
	movq	56(%rsp), %rdx
.LBB100_226:
	movq	%rdx, 112(%rsp)
	movb	$2, %r12b
	cmpq	40(%rsp), %rdx
	jae	.LBB100_268
	movq	32(%rsp), %rsi
	cmpb	$44, (%rsi,%rdx)
	jne	.LBB100_268
	xorps	%xmm0, %xmm0
	movaps	%xmm0, 288(%rsp)
	movaps	%xmm0, 304(%rsp)
	movq	%rax, 72(%rsp)
	cmpq	88(%rsp), %rax
	jne	.LBB100_243
	movq	48(%rsp), %rsi
	movq	56(%rsp), %rdx
	movq	96(%rsp), %r8
	movzwl	104(%rsp), %eax
	movw	%ax, 160(%rsp)
	movzbl	106(%rsp), %eax
	movb	%al, 162(%rsp)
	leaq	288(%rsp), %rdi
	leaq	160(%rsp), %r9
	callq	"json::index::refill"
	movaps	288(%rsp), %xmm0
	movdqa	304(%rsp), %xmm1
	movdqu	%xmm1, 16(%r13)
	movups	%xmm0, (%r13)
	movq	$0, 72(%rsp)
	cmpq	$0, 296(%rsp)
	je	.LBB100_265
.LBB100_230:
	movq	64(%rsp), %rax
	movl	(%rax), %eax
	addq	288(%rsp), %rax
	jmp	.LBB100_266
.LBB100_231:
	rep		bsfl	%ecx, %eax
	subq	%rbx, %rax
.LBB100_232:
	movq	%r13, %rbx
	cmpq	%rbp, %rax
	movq	16(%rsp), %rdi
	jae	.LBB100_234
	cmpb	$34, (%rdi,%rax)
	je	.LBB100_236
.LBB100_234:
	movq	120(%rsp), %r13
	movq	128(%rsp), %rcx
	leaq	12(%rsp), %rax
	movq	%rax, 120(%rsp)
	movq	$0, 128(%rsp)
	movq	%rbp, %rsi
	movq	%rcx, %rbp
	movq	208(%rsp), %rdx
	movq	%r13, %rcx
	movq	%rbp, %r8
	callq	"json::unescape::unescape"
	cmpb	$1, %al
	jne	.LBB100_239
	addq	%rdx, %r13
	subq	%rdx, %rbp
	movq	%r13, 120(%rsp)
	movq	%rbp, 128(%rsp)
.LBB100_236:
	xorps	%xmm0, %xmm0
	movaps	%xmm0, 288(%rsp)
	movaps	%xmm0, 304(%rsp)
	movq	64(%rsp), %rcx
	movq	72(%rsp), %rdx
	leaq	1(%rdx), %rax
	movq	%rax, 72(%rsp)
	cmpq	88(%rsp), %rax
	jne	.LBB100_240
	movq	48(%rsp), %rsi
	movq	56(%rsp), %rdx
	movq	96(%rsp), %r8
	movzwl	104(%rsp), %eax
	movw	%ax, 160(%rsp)
	movzbl	106(%rsp), %eax
	movb	%al, 162(%rsp)
	leaq	288(%rsp), %rdi
	leaq	160(%rsp), %r9
	callq	"json::index::refill"
	movaps	288(%rsp), %xmm0
	movdqa	304(%rsp), %xmm1
	movdqu	%xmm1, 16(%rbx)
	movups	%xmm0, (%rbx)
	movq	$0, 72(%rsp)
	movq	64(%rsp), %rcx
	cmpq	$0, 296(%rsp)
	je	.LBB100_255
	movl	(%rcx), %edx
	addq	288(%rsp), %rdx
	jmp	.LBB100_256
.LBB100_239:
	movq	%r13, 120(%rsp)
	movq	%rbp, 128(%rsp)
	jmp	.LBB100_268
.LBB100_240:
	movl	4(%rcx,%rdx,4), %edx
	addq	80(%rsp), %rdx
	jmp	.LBB100_257
.LBB100_241:
	leaq	12(%rsp), %rdx
	xorl	%esi, %esi
	xorl	%r12d, %r12d
	jmp	.LBB100_270
.LBB100_242:
	movl	$16, %ecx
	xorl	%r12d, %r12d
	leaq	12(%rsp), %rdx
	jmp	.LBB100_141
.LBB100_243:
	movl	(%rcx,%rax,4), %eax
.LBB100_244:
	addq	80(%rsp), %rax
	jmp	.LBB100_266
.LBB100_245:
	rep		bsfl	%ecx, %eax
	addq	%rdx, %rax
.LBB100_246:
	cmpq	%rbx, %rax
	je	.LBB100_268
.LBB100_247:
	movq	%r15, 208(%rsp)
	cmpq	%rbp, %rax
	jae	.LBB100_466
	movq	16(%rsp), %rcx
	cmpb	$46, (%rcx,%rax)
	jne	.LBB100_466
	leaq	1(%rax), %rbx
	movq	%rbp, %rcx
	subq	%rbx, %rcx
	movq	%rbx, %rdx
	cmpq	$16, %rcx
	jb	.LBB100_254
	notq	%rax
	movq	16(%rsp), %rcx
	addq	%rbx, %rcx
.LBB100_251:
	movdqu	(%rcx), %xmm0
	paddb	.LCPI100_4(%rip), %xmm0
	movdqa	.LCPI100_5(%rip), %xmm1
	pminub	%xmm0, %xmm1
	pcmpeqb	%xmm0, %xmm1
	pmovmskb	%xmm1, %edx
	testl	%edx, %edx
	jne	.LBB100_464
	leaq	(%rax,%rbp), %rdx
	addq	$-16, %rdx
	addq	$-16, %rax
	addq	$16, %rcx
	cmpq	$15, %rdx
	ja	.LBB100_251
	negq	%rax
	movq	%rax, %rdx
.LBB100_254:
	movq	16(%rsp), %rdi
	movq	%rbp, %rsi
	callq	"json::run::digits_end_slowly"
	jmp	.LBB100_465
.LBB100_255:
	movq	56(%rsp), %rdx
.LBB100_256:
	xorl	%eax, %eax
.LBB100_257:
	movq	%rdx, 112(%rsp)
	movb	$2, %r12b
	cmpq	40(%rsp), %rdx
	jae	.LBB100_267
	movq	32(%rsp), %rsi
	movzbl	(%rsi,%rdx), %edx
	cmpl	$44, %edx
	je	.LBB100_263
	cmpl	$58, %edx
	movq	152(%rsp), %r14
	jne	.LBB100_268
	xorps	%xmm0, %xmm0
	movaps	%xmm0, 288(%rsp)
	movaps	%xmm0, 304(%rsp)
	leaq	1(%rax), %rdx
	movq	%rdx, 72(%rsp)
	cmpq	88(%rsp), %rdx
	jne	.LBB100_459
	movq	48(%rsp), %rsi
	movq	56(%rsp), %rdx
	movq	96(%rsp), %r8
	movzwl	104(%rsp), %eax
	movw	%ax, 160(%rsp)
	movzbl	106(%rsp), %eax
	movb	%al, 162(%rsp)
	leaq	288(%rsp), %rdi
	leaq	160(%rsp), %r9
	callq	"json::index::refill"
	movaps	288(%rsp), %xmm0
	movdqa	304(%rsp), %xmm1
	movdqu	%xmm1, 16(%rbx)
	movups	%xmm0, (%rbx)
	movq	$0, 72(%rsp)
	cmpq	$0, 296(%rsp)
	je	.LBB100_486
	movq	64(%rsp), %rax
	movl	(%rax), %eax
	addq	288(%rsp), %rax
	jmp	.LBB100_487
.LBB100_263:
	xorps	%xmm0, %xmm0
	movaps	%xmm0, 288(%rsp)
	movaps	%xmm0, 304(%rsp)
	leaq	1(%rax), %rdx
	movq	%rdx, 72(%rsp)
	cmpq	88(%rsp), %rdx
	jne	.LBB100_460
	movq	48(%rsp), %rsi
	movq	56(%rsp), %rdx
	movq	96(%rsp), %r8
	movzwl	104(%rsp), %eax
	movw	%ax, 160(%rsp)
	movzbl	106(%rsp), %eax
	movb	%al, 162(%rsp)
	leaq	288(%rsp), %rdi
	leaq	160(%rsp), %r9
	callq	"json::index::refill"
	movaps	288(%rsp), %xmm0
	movdqa	304(%rsp), %xmm1
	movdqu	%xmm1, 16(%rbx)
	movups	%xmm0, (%rbx)
	movq	$0, 72(%rsp)
	cmpq	$0, 296(%rsp)
	jne	.LBB100_230
.LBB100_265:
	movq	56(%rsp), %rax
.LBB100_266:
	movq	%rax, 112(%rsp)
	xorl	%r12d, %r12d
.LBB100_267:
	movq	152(%rsp), %r14
	jmp	.LBB100_268
.LBB100_269:
	movq	608(%rsp), %rdx
	movq	616(%rsp), %r12
	movq	624(%rsp), %rsi
.LBB100_270:
	movl	$12, %ecx
	xorl	%edi, %edi
	jmp	.LBB100_144
.LBB100_271:
	movq	%rdx, %r15
	movq	%rdx, %rdi
	movq	%r12, %rdx
	callq	memmove@PLT
	movq	%r15, %rdx
.LBB100_272:
	movl	$16, %ecx
	xorl	%edi, %edi
	movq	%r12, %rsi
	jmp	.LBB100_144
.LBB100_459:
	movl	4(%rcx,%rax,4), %eax
	addq	80(%rsp), %rax
	jmp	.LBB100_487
.LBB100_460:
	movl	4(%rcx,%rax,4), %eax
	jmp	.LBB100_244
.LBB100_464:
	rep		bsfl	%edx, %ecx
	subq	%rax, %rcx
	movq	%rcx, %rax
.LBB100_465:
	cmpq	%rbx, %rax
	je	.LBB100_480
.LBB100_466:
	cmpq	%rbp, %rax
	jae	.LBB100_481
	movq	16(%rsp), %rcx
	movzbl	(%rcx,%rax), %ecx
	andb	$-33, %cl
	cmpb	$69, %cl
	jne	.LBB100_481
	leaq	1(%rax), %rbx
	cmpq	%rbp, %rbx
	jae	.LBB100_472
	movq	16(%rsp), %rcx
	movzbl	(%rcx,%rbx), %ecx
	cmpl	$45, %ecx
	je	.LBB100_471
	cmpl	$43, %ecx
	jne	.LBB100_472
.LBB100_471:
	addq	$2, %rax
	movq	%rax, %rbx
.LBB100_472:
	movq	%rbp, %rax
	subq	%rbx, %rax
	movq	%rbx, %rdx
	cmpq	$16, %rax
	jb	.LBB100_477
	movq	%rbx, %rdx
	negq	%rdx
	movq	16(%rsp), %rax
	addq	%rbx, %rax
.LBB100_474:
	movdqu	(%rax), %xmm0
	paddb	.LCPI100_4(%rip), %xmm0
	movdqa	.LCPI100_5(%rip), %xmm1
	pminub	%xmm0, %xmm1
	pcmpeqb	%xmm0, %xmm1
	pmovmskb	%xmm1, %ecx
	testl	%ecx, %ecx
	jne	.LBB100_478
	leaq	(%rdx,%rbp), %rcx
	addq	$-16, %rcx
	addq	$-16, %rdx
	addq	$16, %rax
	cmpq	$15, %rcx
	ja	.LBB100_474
	negq	%rdx
.LBB100_477:
	movq	16(%rsp), %rdi
	movq	%rbp, %rsi
	callq	"json::run::digits_end_slowly"
	jmp	.LBB100_479
.LBB100_478:
	rep		bsfl	%ecx, %eax
	subq	%rdx, %rax
.LBB100_479:
	cmpq	%rbx, %rax
	jne	.LBB100_481
.LBB100_480:
	movq	152(%rsp), %r14
	movq	208(%rsp), %r15
	jmp	.LBB100_268
.LBB100_481:
	cmpq	%rbp, %rax
	movq	152(%rsp), %r14
	movq	208(%rsp), %r15
	jae	.LBB100_202
	movq	16(%rsp), %rcx
	movzbl	(%rcx,%rax), %eax
	cmpq	$58, %rax
	ja	.LBB100_484
	movabsq	$288247972632733184, %rcx
	btq	%rax, %rcx
	jb	.LBB100_202
.LBB100_484:
	addl	$-91, %eax
	cmpl	$34, %eax
	ja	.LBB100_480
	movabsq	$21474836485, %rcx
	btq	%rax, %rcx
	movq	152(%rsp), %r14
	movq	208(%rsp), %r15
	jb	.LBB100_202
	jmp	.LBB100_268
.LBB100_462:
	cmpl	$32, %r12d
	jae	.LBB100_489
	xorl	%eax, %eax
	jmp	.LBB100_493
.LBB100_486:
	movq	56(%rsp), %rax
.LBB100_487:
	movq	%rax, 112(%rsp)
	movb	$1, %r12b
	jmp	.LBB100_267
.LBB100_488:
	ud2
.LBB100_489:
	movl	%r12d, %eax
	andl	$-32, %eax
	xorl	%ecx, %ecx
	movq	%rdx, %rdi
.LBB100_490:
	movups	5(%r14,%rcx), %xmm0
	movdqu	21(%r14,%rcx), %xmm1
	movups	%xmm0, (%rdi,%rcx)
	movdqu	%xmm1, 16(%rdi,%rcx)
	addq	$32, %rcx
	cmpq	%rcx, %rax
	jne	.LBB100_490
	cmpl	%r12d, %eax
	je	.LBB100_272
	testb	$28, %r12b
	je	.LBB100_496
.LBB100_493:
	movq	%rax, %rcx
	movl	%r12d, %eax
	andl	$-4, %eax
	movq	%rdx, %rdi
.LBB100_494:
	movl	(%rsi,%rcx), %r8d
	movl	%r8d, (%rdi,%rcx)
	addq	$4, %rcx
	cmpq	%rcx, %rax
	jne	.LBB100_494
	cmpl	%r12d, %eax
	je	.LBB100_272
	jmp	.LBB100_496
.Lfunc_end100:
	.size	amqpv_proved_from_json, .Lfunc_end100-amqpv_proved_from_json
	.section	.rodata.amqpv_proved_from_json,"a",@progbits
	.p2align	2, 0x0
.LJTI100_0:
	.long	.LBB100_10-.LJTI100_0
	.long	.LBB100_10-.LJTI100_0
	.long	.LBB100_71-.LJTI100_0
	.long	.LBB100_22-.LJTI100_0
	.long	.LBB100_21-.LJTI100_0
.LJTI100_1:
	.long	.LBB100_24-.LJTI100_1
	.long	.LBB100_25-.LJTI100_1
	.long	.LBB100_32-.LJTI100_1
	.long	.LBB100_26-.LJTI100_1
.LJTI100_2:
	.long	.LBB100_64-.LJTI100_2
	.long	.LBB100_189-.LJTI100_2
	.long	.LBB100_189-.LJTI100_2
	.long	.LBB100_189-.LJTI100_2
	.long	.LBB100_189-.LJTI100_2
	.long	.LBB100_189-.LJTI100_2
	.long	.LBB100_189-.LJTI100_2
	.long	.LBB100_189-.LJTI100_2
	.long	.LBB100_189-.LJTI100_2
	.long	.LBB100_189-.LJTI100_2
	.long	.LBB100_268-.LJTI100_2
	.long	.LBB100_189-.LJTI100_2
	.long	.LBB100_189-.LJTI100_2
	.long	.LBB100_189-.LJTI100_2
	.long	.LBB100_189-.LJTI100_2
	.long	.LBB100_189-.LJTI100_2
	.long	.LBB100_189-.LJTI100_2
	.long	.LBB100_189-.LJTI100_2
	.long	.LBB100_189-.LJTI100_2
	.long	.LBB100_189-.LJTI100_2
	.long	.LBB100_189-.LJTI100_2
	.long	.LBB100_189-.LJTI100_2
	.long	.LBB100_189-.LJTI100_2
	.long	.LBB100_189-.LJTI100_2
	.long	.LBB100_268-.LJTI100_2
	.long	.LBB100_189-.LJTI100_2
	.long	.LBB100_189-.LJTI100_2
	.long	.LBB100_189-.LJTI100_2
	.long	.LBB100_189-.LJTI100_2
	.long	.LBB100_189-.LJTI100_2
	.long	.LBB100_189-.LJTI100_2
	.long	.LBB100_189-.LJTI100_2
	.long	.LBB100_189-.LJTI100_2
	.long	.LBB100_189-.LJTI100_2
	.long	.LBB100_189-.LJTI100_2
	.long	.LBB100_189-.LJTI100_2
	.long	.LBB100_189-.LJTI100_2
	.long	.LBB100_189-.LJTI100_2
	.long	.LBB100_189-.LJTI100_2
	.long	.LBB100_189-.LJTI100_2
	.long	.LBB100_189-.LJTI100_2
	.long	.LBB100_189-.LJTI100_2
	.long	.LBB100_189-.LJTI100_2
	.long	.LBB100_189-.LJTI100_2
	.long	.LBB100_189-.LJTI100_2
	.long	.LBB100_189-.LJTI100_2
	.long	.LBB100_189-.LJTI100_2
	.long	.LBB100_189-.LJTI100_2
	.long	.LBB100_189-.LJTI100_2
	.long	.LBB100_189-.LJTI100_2
	.long	.LBB100_189-.LJTI100_2
	.long	.LBB100_189-.LJTI100_2
	.long	.LBB100_189-.LJTI100_2
	.long	.LBB100_189-.LJTI100_2
	.long	.LBB100_189-.LJTI100_2
	.long	.LBB100_189-.LJTI100_2
	.long	.LBB100_189-.LJTI100_2
	.long	.LBB100_183-.LJTI100_2
	.long	.LBB100_268-.LJTI100_2
	.long	.LBB100_189-.LJTI100_2
	.long	.LBB100_189-.LJTI100_2
	.long	.LBB100_189-.LJTI100_2
	.long	.LBB100_189-.LJTI100_2
	.long	.LBB100_189-.LJTI100_2
	.long	.LBB100_189-.LJTI100_2
	.long	.LBB100_189-.LJTI100_2
	.long	.LBB100_189-.LJTI100_2
	.long	.LBB100_189-.LJTI100_2
	.long	.LBB100_176-.LJTI100_2
	.long	.LBB100_189-.LJTI100_2
	.long	.LBB100_189-.LJTI100_2
	.long	.LBB100_189-.LJTI100_2
	.long	.LBB100_189-.LJTI100_2
	.long	.LBB100_189-.LJTI100_2
	.long	.LBB100_189-.LJTI100_2
	.long	.LBB100_189-.LJTI100_2
	.long	.LBB100_179-.LJTI100_2
	.long	.LBB100_189-.LJTI100_2
	.long	.LBB100_189-.LJTI100_2
	.long	.LBB100_189-.LJTI100_2
	.long	.LBB100_189-.LJTI100_2
	.long	.LBB100_189-.LJTI100_2
	.long	.LBB100_181-.LJTI100_2
	.long	.LBB100_189-.LJTI100_2
	.long	.LBB100_189-.LJTI100_2
	.long	.LBB100_189-.LJTI100_2
	.long	.LBB100_189-.LJTI100_2
	.long	.LBB100_189-.LJTI100_2
	.long	.LBB100_189-.LJTI100_2
	.long	.LBB100_183-.LJTI100_2
.LJTI100_3:
	.long	.LBB100_123-.LJTI100_3
	.long	.LBB100_127-.LJTI100_3
	.long	.LBB100_110-.LJTI100_3
	.long	.LBB100_116-.LJTI100_3
	.long	.LBB100_110-.LJTI100_3
	.long	.LBB100_131-.LJTI100_3
	.long	.LBB100_110-.LJTI100_3
	.long	.LBB100_110-.LJTI100_3
	.long	.LBB100_135-.LJTI100_3
	.long	.LBB100_110-.LJTI100_3
	.long	.LBB100_110-.LJTI100_3
	.long	.LBB100_53-.LJTI100_3
	.long	.LBB100_110-.LJTI100_3
	.long	.LBB100_110-.LJTI100_3
	.long	.LBB100_110-.LJTI100_3
	.long	.LBB100_110-.LJTI100_3
	.long	.LBB100_110-.LJTI100_3
	.long	.LBB100_110-.LJTI100_3
	.long	.LBB100_103-.LJTI100_3
	.long	.LBB100_118-.LJTI100_3
	.long	.LBB100_84-.LJTI100_3
	.long	.LBB100_142-.LJTI100_3
	.long	.LBB100_110-.LJTI100_3
	.long	.LBB100_110-.LJTI100_3
	.long	.LBB100_110-.LJTI100_3
	.long	.LBB100_110-.LJTI100_3
	.long	.LBB100_110-.LJTI100_3
	.long	.LBB100_110-.LJTI100_3
	.long	.LBB100_110-.LJTI100_3
	.long	.LBB100_110-.LJTI100_3
	.long	.LBB100_110-.LJTI100_3
	.long	.LBB100_110-.LJTI100_3
	.long	.LBB100_110-.LJTI100_3
	.long	.LBB100_162-.LJTI100_3
	.long	.LBB100_110-.LJTI100_3
	.long	.LBB100_138-.LJTI100_3
	.long	.LBB100_110-.LJTI100_3
	.long	.LBB100_112-.LJTI100_3
	.long	.LBB100_110-.LJTI100_3
	.long	.LBB100_110-.LJTI100_3
	.long	.LBB100_114-.LJTI100_3
	.long	.LBB100_110-.LJTI100_3
	.long	.LBB100_110-.LJTI100_3
	.long	.LBB100_53-.LJTI100_3
	.long	.LBB100_110-.LJTI100_3
	.long	.LBB100_110-.LJTI100_3
	.long	.LBB100_110-.LJTI100_3
	.long	.LBB100_110-.LJTI100_3
	.long	.LBB100_110-.LJTI100_3
	.long	.LBB100_110-.LJTI100_3
	.long	.LBB100_84-.LJTI100_3
	.long	.LBB100_129-.LJTI100_3
	.long	.LBB100_120-.LJTI100_3
	.long	.LBB100_110-.LJTI100_3
	.long	.LBB100_110-.LJTI100_3
	.long	.LBB100_165-.LJTI100_3
.LJTI100_4:
	.long	.LBB100_173-.LJTI100_4
	.long	.LBB100_173-.LJTI100_4
	.long	.LBB100_173-.LJTI100_4
	.long	.LBB100_173-.LJTI100_4
	.long	.LBB100_173-.LJTI100_4
	.long	.LBB100_173-.LJTI100_4
	.long	.LBB100_173-.LJTI100_4
	.long	.LBB100_173-.LJTI100_4
	.long	.LBB100_173-.LJTI100_4
	.long	.LBB100_173-.LJTI100_4
	.long	.LBB100_173-.LJTI100_4
	.long	.LBB100_160-.LJTI100_4
	.long	.LBB100_219-.LJTI100_4
	.long	.LBB100_210-.LJTI100_4
	.long	.LBB100_173-.LJTI100_4
	.long	.LBB100_223-.LJTI100_4
	.long	.LBB100_215-.LJTI100_4
	.long	.LBB100_173-.LJTI100_4
.LJTI100_5:
	.long	.LBB100_153-.LJTI100_5
	.long	.LBB100_153-.LJTI100_5
	.long	.LBB100_153-.LJTI100_5
	.long	.LBB100_153-.LJTI100_5
	.long	.LBB100_153-.LJTI100_5
	.long	.LBB100_153-.LJTI100_5
	.long	.LBB100_153-.LJTI100_5
	.long	.LBB100_153-.LJTI100_5
	.long	.LBB100_153-.LJTI100_5
	.long	.LBB100_153-.LJTI100_5
	.long	.LBB100_153-.LJTI100_5
	.long	.LBB100_211-.LJTI100_5
	.long	.LBB100_217-.LJTI100_5
	.long	.LBB100_209-.LJTI100_5
	.long	.LBB100_153-.LJTI100_5
	.long	.LBB100_221-.LJTI100_5
	.long	.LBB100_213-.LJTI100_5
	.long	.LBB100_153-.LJTI100_5
.LJTI100_6:
	.long	.LBB100_46-.LJTI100_6
	.long	.LBB100_46-.LJTI100_6
	.long	.LBB100_46-.LJTI100_6
	.long	.LBB100_46-.LJTI100_6
	.long	.LBB100_46-.LJTI100_6
	.long	.LBB100_46-.LJTI100_6
	.long	.LBB100_46-.LJTI100_6
	.long	.LBB100_46-.LJTI100_6
	.long	.LBB100_46-.LJTI100_6
	.long	.LBB100_46-.LJTI100_6
	.long	.LBB100_46-.LJTI100_6
	.long	.LBB100_155-.LJTI100_6
	.long	.LBB100_155-.LJTI100_6
	.long	.LBB100_208-.LJTI100_6
	.long	.LBB100_46-.LJTI100_6
	.long	.LBB100_206-.LJTI100_6
	.long	.LBB100_155-.LJTI100_6
	.long	.LBB100_46-.LJTI100_6
.LJTI100_7:
	.long	.LBB100_283-.LJTI100_7
	.long	.LBB100_283-.LJTI100_7
	.long	.LBB100_283-.LJTI100_7
	.long	.LBB100_283-.LJTI100_7
	.long	.LBB100_301-.LJTI100_7
	.long	.LBB100_303-.LJTI100_7
	.long	.LBB100_290-.LJTI100_7
	.long	.LBB100_294-.LJTI100_7
	.long	.LBB100_283-.LJTI100_7
.LJTI100_8:
	.long	.LBB100_287-.LJTI100_8
	.long	.LBB100_368-.LJTI100_8
	.long	.LBB100_365-.LJTI100_8
	.long	.LBB100_367-.LJTI100_8
	.long	.LBB100_301-.LJTI100_8
	.long	.LBB100_303-.LJTI100_8
	.long	.LBB100_290-.LJTI100_8
	.long	.LBB100_294-.LJTI100_8
	.long	.LBB100_371-.LJTI100_8
.LJTI100_9:
	.long	.LBB100_289-.LJTI100_9
	.long	.LBB100_414-.LJTI100_9
	.long	.LBB100_414-.LJTI100_9
	.long	.LBB100_414-.LJTI100_9
	.long	.LBB100_414-.LJTI100_9
	.long	.LBB100_414-.LJTI100_9
	.long	.LBB100_414-.LJTI100_9
	.long	.LBB100_414-.LJTI100_9
	.long	.LBB100_414-.LJTI100_9
	.long	.LBB100_414-.LJTI100_9
	.long	.LBB100_414-.LJTI100_9
	.long	.LBB100_404-.LJTI100_9
	.long	.LBB100_414-.LJTI100_9
	.long	.LBB100_414-.LJTI100_9
	.long	.LBB100_402-.LJTI100_9
	.long	.LBB100_414-.LJTI100_9
	.long	.LBB100_414-.LJTI100_9
	.long	.LBB100_414-.LJTI100_9
	.long	.LBB100_414-.LJTI100_9
	.long	.LBB100_414-.LJTI100_9
	.long	.LBB100_414-.LJTI100_9
	.long	.LBB100_414-.LJTI100_9
	.long	.LBB100_414-.LJTI100_9
	.long	.LBB100_414-.LJTI100_9
	.long	.LBB100_414-.LJTI100_9
	.long	.LBB100_414-.LJTI100_9
	.long	.LBB100_414-.LJTI100_9
	.long	.LBB100_414-.LJTI100_9
	.long	.LBB100_414-.LJTI100_9
	.long	.LBB100_414-.LJTI100_9
	.long	.LBB100_414-.LJTI100_9
	.long	.LBB100_414-.LJTI100_9
	.long	.LBB100_414-.LJTI100_9
	.long	.LBB100_414-.LJTI100_9
	.long	.LBB100_414-.LJTI100_9
	.long	.LBB100_414-.LJTI100_9
	.long	.LBB100_414-.LJTI100_9
	.long	.LBB100_414-.LJTI100_9
	.long	.LBB100_414-.LJTI100_9
	.long	.LBB100_414-.LJTI100_9
	.long	.LBB100_414-.LJTI100_9
	.long	.LBB100_414-.LJTI100_9
	.long	.LBB100_414-.LJTI100_9
	.long	.LBB100_414-.LJTI100_9
	.long	.LBB100_414-.LJTI100_9
	.long	.LBB100_414-.LJTI100_9
	.long	.LBB100_414-.LJTI100_9
	.long	.LBB100_414-.LJTI100_9
	.long	.LBB100_414-.LJTI100_9
	.long	.LBB100_414-.LJTI100_9
	.long	.LBB100_414-.LJTI100_9
	.long	.LBB100_414-.LJTI100_9
	.long	.LBB100_414-.LJTI100_9
	.long	.LBB100_414-.LJTI100_9
	.long	.LBB100_414-.LJTI100_9
	.long	.LBB100_414-.LJTI100_9
	.long	.LBB100_414-.LJTI100_9
	.long	.LBB100_407-.LJTI100_9
	.long	.LBB100_414-.LJTI100_9
	.long	.LBB100_409-.LJTI100_9
	.long	.LBB100_414-.LJTI100_9
	.long	.LBB100_414-.LJTI100_9
	.long	.LBB100_414-.LJTI100_9
	.long	.LBB100_414-.LJTI100_9
	.long	.LBB100_414-.LJTI100_9
	.long	.LBB100_414-.LJTI100_9
	.long	.LBB100_414-.LJTI100_9
	.long	.LBB100_414-.LJTI100_9
	.long	.LBB100_403-.LJTI100_9
	.long	.LBB100_414-.LJTI100_9
	.long	.LBB100_414-.LJTI100_9
	.long	.LBB100_414-.LJTI100_9
	.long	.LBB100_414-.LJTI100_9
	.long	.LBB100_414-.LJTI100_9
	.long	.LBB100_414-.LJTI100_9
	.long	.LBB100_414-.LJTI100_9
	.long	.LBB100_405-.LJTI100_9
	.long	.LBB100_414-.LJTI100_9
	.long	.LBB100_414-.LJTI100_9
	.long	.LBB100_414-.LJTI100_9
	.long	.LBB100_414-.LJTI100_9
	.long	.LBB100_414-.LJTI100_9
	.long	.LBB100_406-.LJTI100_9
	.long	.LBB100_414-.LJTI100_9
	.long	.LBB100_414-.LJTI100_9
	.long	.LBB100_414-.LJTI100_9
	.long	.LBB100_414-.LJTI100_9
	.long	.LBB100_414-.LJTI100_9
	.long	.LBB100_414-.LJTI100_9
	.long	.LBB100_412-.LJTI100_9
.LJTI100_10:
	.long	.LBB100_291-.LJTI100_10
	.long	.LBB100_338-.LJTI100_10
	.long	.LBB100_325-.LJTI100_10
	.long	.LBB100_336-.LJTI100_10
	.long	.LBB100_323-.LJTI100_10
	.long	.LBB100_345-.LJTI100_10
	.long	.LBB100_455-.LJTI100_10
	.long	.LBB100_337-.LJTI100_10
.LJTI100_11:
	.long	.LBB100_330-.LJTI100_11
	.long	.LBB100_333-.LJTI100_11
	.long	.LBB100_295-.LJTI100_11
	.long	.LBB100_295-.LJTI100_11
	.long	.LBB100_295-.LJTI100_11
	.long	.LBB100_295-.LJTI100_11
	.long	.LBB100_348-.LJTI100_11
	.long	.LBB100_343-.LJTI100_11
.LJTI100_12:
	.long	.LBB100_298-.LJTI100_12
	.long	.LBB100_354-.LJTI100_12
	.long	.LBB100_351-.LJTI100_12
	.long	.LBB100_352-.LJTI100_12
.LJTI100_13:
	.long	.LBB100_335-.LJTI100_13
	.long	.LBB100_293-.LJTI100_13
	.long	.LBB100_293-.LJTI100_13
	.long	.LBB100_293-.LJTI100_13
	.long	.LBB100_293-.LJTI100_13
	.long	.LBB100_293-.LJTI100_13
	.long	.LBB100_293-.LJTI100_13
	.long	.LBB100_293-.LJTI100_13
	.long	.LBB100_293-.LJTI100_13
	.long	.LBB100_293-.LJTI100_13
	.long	.LBB100_293-.LJTI100_13
	.long	.LBB100_293-.LJTI100_13
	.long	.LBB100_293-.LJTI100_13
	.long	.LBB100_335-.LJTI100_13
	.long	.LBB100_293-.LJTI100_13
	.long	.LBB100_293-.LJTI100_13
	.long	.LBB100_293-.LJTI100_13
	.long	.LBB100_293-.LJTI100_13
	.long	.LBB100_293-.LJTI100_13
	.long	.LBB100_293-.LJTI100_13
	.long	.LBB100_293-.LJTI100_13
	.long	.LBB100_293-.LJTI100_13
	.long	.LBB100_293-.LJTI100_13
	.long	.LBB100_293-.LJTI100_13
	.long	.LBB100_293-.LJTI100_13
	.long	.LBB100_293-.LJTI100_13
	.long	.LBB100_293-.LJTI100_13
	.long	.LBB100_293-.LJTI100_13
	.long	.LBB100_293-.LJTI100_13
	.long	.LBB100_293-.LJTI100_13
	.long	.LBB100_293-.LJTI100_13
	.long	.LBB100_293-.LJTI100_13
	.long	.LBB100_293-.LJTI100_13
	.long	.LBB100_293-.LJTI100_13
	.long	.LBB100_293-.LJTI100_13
	.long	.LBB100_293-.LJTI100_13
	.long	.LBB100_293-.LJTI100_13
	.long	.LBB100_293-.LJTI100_13
	.long	.LBB100_293-.LJTI100_13
	.long	.LBB100_293-.LJTI100_13
	.long	.LBB100_293-.LJTI100_13
	.long	.LBB100_293-.LJTI100_13
	.long	.LBB100_293-.LJTI100_13
	.long	.LBB100_293-.LJTI100_13
	.long	.LBB100_293-.LJTI100_13
	.long	.LBB100_293-.LJTI100_13
	.long	.LBB100_293-.LJTI100_13
	.long	.LBB100_293-.LJTI100_13
	.long	.LBB100_293-.LJTI100_13
	.long	.LBB100_293-.LJTI100_13
	.long	.LBB100_293-.LJTI100_13
	.long	.LBB100_293-.LJTI100_13
	.long	.LBB100_293-.LJTI100_13
	.long	.LBB100_293-.LJTI100_13
	.long	.LBB100_293-.LJTI100_13
	.long	.LBB100_293-.LJTI100_13
	.long	.LBB100_293-.LJTI100_13
	.long	.LBB100_293-.LJTI100_13
	.long	.LBB100_335-.LJTI100_13
	.long	.LBB100_293-.LJTI100_13
	.long	.LBB100_293-.LJTI100_13
	.long	.LBB100_293-.LJTI100_13
	.long	.LBB100_293-.LJTI100_13
	.long	.LBB100_293-.LJTI100_13
	.long	.LBB100_335-.LJTI100_13
	.long	.LBB100_293-.LJTI100_13
	.long	.LBB100_293-.LJTI100_13
	.long	.LBB100_293-.LJTI100_13
	.long	.LBB100_335-.LJTI100_13
	.long	.LBB100_293-.LJTI100_13
	.long	.LBB100_293-.LJTI100_13
	.long	.LBB100_293-.LJTI100_13
	.long	.LBB100_293-.LJTI100_13
	.long	.LBB100_293-.LJTI100_13
	.long	.LBB100_293-.LJTI100_13
	.long	.LBB100_293-.LJTI100_13
	.long	.LBB100_335-.LJTI100_13
	.long	.LBB100_293-.LJTI100_13
	.long	.LBB100_293-.LJTI100_13
	.long	.LBB100_293-.LJTI100_13
	.long	.LBB100_335-.LJTI100_13
	.long	.LBB100_293-.LJTI100_13
	.long	.LBB100_335-.LJTI100_13
	.long	.LBB100_397-.LJTI100_13
.LJTI100_14:
	.long	.LBB100_451-.LJTI100_14
	.long	.LBB100_445-.LJTI100_14
	.long	.LBB100_447-.LJTI100_14
	.long	.LBB100_448-.LJTI100_14
	.long	.LBB100_446-.LJTI100_14

	.section	.text.amqpv_warn,"ax",@progbits
	.globl	amqpv_warn
	.p2align	4
	.type	amqpv_warn,@function
amqpv_warn:
	movl	24(%rdi), %r8d
	movl	$-13, %eax
	cmpl	$31, %r8d
	ja	.LBB101_63
	pushq	%rbp
	pushq	%r15
	pushq	%r14
	pushq	%r13
	pushq	%r12
	pushq	%rbx
	subq	$280, %rsp
	movq	(%rdi), %r9
	movq	8(%rdi), %r14
	movl	20(%rdi), %r15d
	testb	$1, %r8b
	jne	.LBB101_2
	movl	%edx, %ebp
	movl	%esi, %r13d
	movq	%rdi, 8(%rsp)
	movq	%rcx, %r12
	pxor	%xmm0, %xmm0
	movdqa	%xmm0, 16(%rsp)
	movq	$0, 32(%rsp)
	movdqa	%xmm0, 256(%rsp)
	movq	$0, 272(%rsp)
	movdqa	%xmm0, 224(%rsp)
	movq	$0, 240(%rsp)
	movdqa	%xmm0, 192(%rsp)
	movq	$0, 208(%rsp)
	movdqa	%xmm0, 160(%rsp)
	movq	$0, 176(%rsp)
	movdqa	%xmm0, 128(%rsp)
	movq	$0, 144(%rsp)
	leaq	16(%rsp), %rdi
	xorl	%esi, %esi
	movq	%r9, %rdx
	movq	%r14, %rcx
	movl	%r15d, %r8d
	movq	%r9, %rbx
	callq	"amqp_in_place::rabbitmq::warning::in_value"
	cmpb	$0, 16(%rsp)
	jne	.LBB101_61
	movq	32(%rsp), %rax
	movq	%rax, 48(%rsp)
	movzbl	24(%rsp), %eax
	movq	%rax, 120(%rsp)
	leaq	256(%rsp), %rdi
	movl	$1, %esi
	movq	%rbx, %rdx
	movq	%r14, %rcx
	movl	%r15d, %r8d
	callq	"amqp_in_place::rabbitmq::warning::in_value"
	cmpb	$0, 256(%rsp)
	jne	.LBB101_61
	movq	272(%rsp), %rax
	movq	%rax, 96(%rsp)
	movzbl	264(%rsp), %eax
	movq	%rax, 72(%rsp)
	leaq	224(%rsp), %rdi
	movl	$2, %esi
	movq	%rbx, %rdx
	movq	%r14, %rcx
	movl	%r15d, %r8d
	callq	"amqp_in_place::rabbitmq::warning::in_value"
	cmpb	$0, 224(%rsp)
	jne	.LBB101_61
	movq	240(%rsp), %rax
	movq	%rax, 64(%rsp)
	movzbl	232(%rsp), %eax
	movq	%rax, 88(%rsp)
	movl	%ebp, %r8d
	cmpl	%ebp, %r15d
	cmovbl	%r15d, %r8d
	leaq	192(%rsp), %rdi
	movl	$3, %esi
	movq	%rbx, %rdx
	movq	%r14, %rcx
	callq	"amqp_in_place::rabbitmq::warning::in_value"
	cmpb	$0, 192(%rsp)
	jne	.LBB101_61
	movq	208(%rsp), %rax
	movq	%rax, 80(%rsp)
	movzbl	200(%rsp), %eax
	movb	%al, 56(%rsp)
	leaq	160(%rsp), %rdi
	movl	$4, %esi
	movq	%rbx, %rdx
	movq	%r14, %rcx
	movl	%r15d, %r8d
	callq	"amqp_in_place::rabbitmq::warning::in_value"
	cmpb	$0, 160(%rsp)
	jne	.LBB101_61
	movq	176(%rsp), %rax
	movq	%rax, 112(%rsp)
	movzbl	168(%rsp), %ebp
	xorl	%r8d, %r8d
	testl	%r15d, %r15d
	setne	%r8b
	leaq	128(%rsp), %rdi
	movl	$3, %esi
	movq	%rbx, %rdx
	movq	%r14, %rcx
	callq	"amqp_in_place::rabbitmq::warning::in_value"
	cmpb	$0, 128(%rsp)
	jne	.LBB101_61
	movq	%rbp, %r15
	movq	112(%rsp), %r10
	movl	$8, %eax
	testq	%r14, %r14
	je	.LBB101_45
	movzbl	(%rbx), %edx
	addl	$-65, %edx
	cmpl	$55, %edx
	movq	%r12, %rcx
	movq	8(%rsp), %rdi
	movq	48(%rsp), %rbp
	movq	72(%rsp), %r12
	movzbl	56(%rsp), %r11d
	ja	.LBB101_47
	movq	%rbx, %r8
	leaq	.LJTI101_0(%rip), %rsi
	movslq	(%rsi,%rdx,4), %rdx
	addq	%rsi, %rdx
	movq	80(%rsp), %rbx
	jmpq	*%rdx
.LBB101_53:
	movl	$12, %eax
	cmpq	$5, %r14
	jb	.LBB101_56
	movl	1(%r8), %eax
	bswapl	%eax
	addq	$12, %rax
	jmp	.LBB101_56
.LBB101_2:
	cmpq	$-1, %r14
	je	.LBB101_3
	movl	$4, %r10d
	cmpq	$4, %r14
	jb	.LBB101_6
	movl	(%r9), %r10d
	bswapl	%r10d
	addq	$4, %r10
	jmp	.LBB101_6
.LBB101_3:
	xorl	%r10d, %r10d
.LBB101_6:
	pxor	%xmm0, %xmm0
	movdqa	%xmm0, 16(%rsp)
	movq	$0, 32(%rsp)
	testl	%r15d, %r15d
	je	.LBB101_18
	movl	%edx, 64(%rsp)
	movl	%esi, 44(%rsp)
	movq	%rdi, 8(%rsp)
	movq	%rcx, 88(%rsp)
	cmpq	%r14, %r10
	movq	%r14, %r12
	cmovbq	%r10, %r12
	cmpq	$4, %r12
	movl	$4, %eax
	cmovbq	%r12, %rax
	movq	%r14, 80(%rsp)
	leaq	(%r9,%rax), %r14
	subq	%rax, %r12
	leal	-1(%r15), %ebp
	leaq	16(%rsp), %rdi
	xorl	%esi, %esi
	movq	%r14, %rdx
	movq	%r12, %rcx
	movl	%ebp, %r8d
	movq	%r9, %rbx
	movq	%r15, %r13
	movq	%r10, %r15
	callq	"amqp_in_place::rabbitmq::warning::in_pairs"
	cmpb	$0, 16(%rsp)
	jne	.LBB101_61
	movq	%r15, 104(%rsp)
	movq	%rbx, 56(%rsp)
	movzbl	24(%rsp), %eax
	movq	%rax, 120(%rsp)
	cmpb	$1, %al
	jne	.LBB101_9
	movq	32(%rsp), %rax
	addq	$5, %rax
	cmpq	$1, %rax
	adcq	$-1, %rax
	movq	%rax, 48(%rsp)
	jmp	.LBB101_11
.LBB101_18:
	movq	$0, 88(%rsp)
	xorl	%ebp, %ebp
	movq	$0, 120(%rsp)
	movq	$0, 96(%rsp)
	movq	$0, 72(%rsp)
.LBB101_19:
	movq	$0, 64(%rsp)
.LBB101_20:
	cmpl	%edx, %r15d
	cmovbl	%r15d, %edx
	pxor	%xmm0, %xmm0
	movdqa	%xmm0, 16(%rsp)
	movq	$0, 32(%rsp)
	testl	%edx, %edx
	je	.LBB101_21
	movq	%r15, 8(%rsp)
	movq	%rbp, 48(%rsp)
	movl	%esi, %r12d
	movq	%rdi, %r13
	movq	%rcx, %rbp
	cmpq	%r14, %r10
	movq	%r14, %rcx
	cmovbq	%r10, %rcx
	cmpq	$4, %rcx
	movl	$4, %esi
	cmovbq	%rcx, %rsi
	leaq	(%r9,%rsi), %rax
	subq	%rsi, %rcx
	decl	%edx
	leaq	16(%rsp), %rdi
	movl	$3, %esi
	movl	%edx, %r8d
	movq	%rax, %rdx
	movq	%r9, %rbx
	movq	%r10, %r15
	callq	"amqp_in_place::rabbitmq::warning::in_pairs"
	cmpb	$0, 16(%rsp)
	jne	.LBB101_61
	movq	%r15, %r10
	movq	%rbx, %r9
	movzbl	24(%rsp), %r11d
	cmpb	$1, %r11b
	jne	.LBB101_24
	movq	32(%rsp), %rbx
	addq	$5, %rbx
	cmpq	$1, %rbx
	adcq	$-1, %rbx
	jmp	.LBB101_26
.LBB101_21:
	movb	$1, %r11b
	xorl	%ebx, %ebx
	jmp	.LBB101_27
.LBB101_9:
	movq	$0, 48(%rsp)
.LBB101_11:
	movq	%r13, %r15
	movq	%r14, %rbx
	pxor	%xmm0, %xmm0
	movdqa	%xmm0, 16(%rsp)
	movq	$0, 32(%rsp)
	leaq	16(%rsp), %rdi
	movl	$1, %esi
	movq	%r14, %rdx
	movq	%r12, %rcx
	movl	%ebp, %r8d
	callq	"amqp_in_place::rabbitmq::warning::in_pairs"
	cmpb	$0, 16(%rsp)
	movq	80(%rsp), %r14
	jne	.LBB101_61
	movq	32(%rsp), %rax
	movq	%rax, 96(%rsp)
	movzbl	24(%rsp), %r13d
	pxor	%xmm0, %xmm0
	movdqa	%xmm0, 16(%rsp)
	movq	$0, 32(%rsp)
	leaq	16(%rsp), %rdi
	movl	$2, %esi
	movq	%rbx, %rdx
	movq	%r12, %rcx
	movl	%ebp, %r8d
	callq	"amqp_in_place::rabbitmq::warning::in_pairs"
	cmpb	$0, 16(%rsp)
	jne	.LBB101_61
	movq	96(%rsp), %rax
	movq	%r13, 72(%rsp)
	cmpb	$1, %r13b
	jne	.LBB101_14
	addq	$5, %rax
	cmpq	$1, %rax
	adcq	$-1, %rax
	movq	%rax, 96(%rsp)
	jmp	.LBB101_16
.LBB101_24:
	xorl	%ebx, %ebx
.LBB101_26:
	movq	%rbp, %rcx
	movq	%r13, %rdi
	movl	%r12d, %esi
	movq	8(%rsp), %r15
	movq	48(%rsp), %rbp
.LBB101_27:
	pxor	%xmm0, %xmm0
	movdqa	%xmm0, 16(%rsp)
	movq	$0, 32(%rsp)
	testl	%r15d, %r15d
	je	.LBB101_36
	movb	%r11b, 56(%rsp)
	movl	%esi, 44(%rsp)
	movq	%rdi, 8(%rsp)
	movq	%rcx, %r12
	cmpq	%r14, %r10
	cmovbq	%r10, %r14
	cmpq	$4, %r14
	movl	$4, %eax
	cmovbq	%r14, %rax
	addq	%rax, %r9
	subq	%rax, %r14
	decl	%r15d
	leaq	16(%rsp), %rdi
	movl	$4, %esi
	movq	%r9, %rdx
	movq	%r14, %rcx
	movl	%r15d, %r8d
	movq	%r9, %r15
	movq	%r10, %r13
	callq	"amqp_in_place::rabbitmq::warning::in_pairs"
	cmpb	$0, 16(%rsp)
	jne	.LBB101_61
	movq	%r13, 104(%rsp)
	movq	32(%rsp), %rax
	movq	%rax, 112(%rsp)
	movzbl	24(%rsp), %r13d
	pxor	%xmm0, %xmm0
	movdqa	%xmm0, 16(%rsp)
	movq	$0, 32(%rsp)
	leaq	16(%rsp), %rdi
	movl	$3, %esi
	movq	%r15, %rdx
	movq	%r14, %rcx
	xorl	%r8d, %r8d
	callq	"amqp_in_place::rabbitmq::warning::in_pairs"
	cmpb	$0, 16(%rsp)
	je	.LBB101_30
.LBB101_61:
	movl	$-18, %eax
.LBB101_62:
	addq	$280, %rsp
	popq	%rbx
	popq	%r12
	popq	%r13
	popq	%r14
	popq	%r15
	popq	%rbp
.LBB101_63:
	retq
.LBB101_36:
	movb	$1, %r9b
	xorl	%edx, %edx
	xorl	%r14d, %r14d
	xorl	%r8d, %r8d
	movq	72(%rsp), %r12
.LBB101_37:
	testl	%esi, %esi
	setne	%al
	movl	%esi, %esi
	addq	$8, %r10
	cmpq	%rsi, %r10
	seta	%sil
	andb	%al, %sil
	movb	%sil, 8(%rsp)
.LBB101_57:
	xorl	%eax, %eax
	testb	$16, 24(%rdi)
	movq	%rbx, 80(%rsp)
	movq	%rbp, 48(%rsp)
	jne	.LBB101_59
	xorl	%r14d, %r14d
	xorl	%edx, %edx
	xorl	%ebp, %ebp
	xorl	%r8d, %r8d
	jmp	.LBB101_60
.LBB101_59:
	movq	%r9, %rbp
.LBB101_60:
	movq	120(%rsp), %rbx
	movl	%ebx, %edi
	andb	$1, %dil
	movl	%r12d, %r9d
	andb	$1, %r9b
	movq	%r12, %r13
	movq	88(%rsp), %r12
	movl	%r12d, %r10d
	andb	$1, %r10b
	movl	%r11d, %r15d
	andb	$1, %r11b
	addb	%r10b, %r11b
	addb	%r9b, %r11b
	addb	%dil, %r11b
	movl	%r14d, %edi
	andb	$1, %dil
	addb	%r11b, %dil
	movl	%ebp, %r9d
	andb	$1, %r9b
	movzbl	8(%rsp), %esi
	addb	%sil, %dil
	addb	%r9b, %dil
	cmpb	$1, %bl
	movq	$-1, %r9
	movq	48(%rsp), %r11
	cmovneq	%r9, %r11
	cmpb	$1, %r13b
	movq	96(%rsp), %rbx
	cmovneq	%r9, %rbx
	cmpb	$1, %r12b
	movq	64(%rsp), %r10
	cmovneq	%r9, %r10
	cmpb	$1, %r15b
	movq	80(%rsp), %r13
	cmovneq	%r9, %r13
	movzbl	%dil, %edi
	cmpb	$1, %r14b
	cmovneq	%r9, %rdx
	cmpb	$1, %bpl
	cmovneq	%r9, %r8
	movq	%rdi, (%rcx)
	movq	%r11, 8(%rcx)
	movq	%rbx, 16(%rcx)
	movq	%r10, 24(%rcx)
	movq	%r13, 32(%rcx)
	movq	%rdx, 40(%rcx)
	movq	%r8, 48(%rcx)
	pcmpeqd	%xmm0, %xmm0
	movdqu	%xmm0, 56(%rcx)
	movdqu	%xmm0, 72(%rcx)
	movb	%sil, 88(%rcx)
	movl	$0, 89(%rcx)
	movl	$0, 92(%rcx)
	jmp	.LBB101_62
.LBB101_30:
	movq	112(%rsp), %rdx
	cmpb	$1, %r13b
	movq	%r13, %r14
	jne	.LBB101_31
	addq	$5, %rdx
	cmpq	$1, %rdx
	adcq	$-1, %rdx
	jmp	.LBB101_33
.LBB101_14:
	movq	$0, 96(%rsp)
.LBB101_16:
	movq	88(%rsp), %rcx
	movq	8(%rsp), %rdi
	movl	44(%rsp), %esi
	movl	64(%rsp), %edx
	movq	48(%rsp), %rbp
	movq	56(%rsp), %r9
	movq	104(%rsp), %r10
	movzbl	24(%rsp), %eax
	movq	%rax, 88(%rsp)
	cmpb	$1, %al
	jne	.LBB101_19
	movq	32(%rsp), %rax
	addq	$5, %rax
	cmpq	$1, %rax
	adcq	$-1, %rax
	movq	%rax, 64(%rsp)
	jmp	.LBB101_20
.LBB101_31:
	xorl	%edx, %edx
.LBB101_33:
	movq	%r12, %rcx
	movq	8(%rsp), %rdi
	movl	44(%rsp), %esi
	movq	72(%rsp), %r12
	movzbl	56(%rsp), %r11d
	movq	104(%rsp), %r10
	movzbl	24(%rsp), %r9d
	cmpb	$1, %r9b
	jne	.LBB101_34
	movq	32(%rsp), %r8
	addq	$5, %r8
	cmpq	$1, %r8
	adcq	$-1, %r8
	jmp	.LBB101_37
.LBB101_34:
	xorl	%r8d, %r8d
	jmp	.LBB101_37
.LBB101_45:
	movq	%r12, %rcx
	movq	8(%rsp), %rdi
	movq	48(%rsp), %rbp
	movq	72(%rsp), %r12
	movq	80(%rsp), %rbx
	movzbl	56(%rsp), %r11d
	jmp	.LBB101_56
.LBB101_51:
	movl	$16, %eax
	jmp	.LBB101_56
.LBB101_55:
	movl	$9, %eax
	jmp	.LBB101_56
.LBB101_50:
	movl	$12, %eax
	jmp	.LBB101_56
.LBB101_49:
	movl	$10, %eax
	jmp	.LBB101_56
.LBB101_52:
	movl	$13, %eax
	jmp	.LBB101_56
.LBB101_47:
	movq	80(%rsp), %rbx
.LBB101_56:
	movq	144(%rsp), %r8
	movzbl	136(%rsp), %edx
	testl	%r13d, %r13d
	setne	%r9b
	movl	%r13d, %esi
	cmpq	%rsi, %rax
	seta	%al
	andb	%r9b, %al
	movb	%al, 8(%rsp)
	movq	%rdx, %r9
	movq	%r10, %rdx
	movq	%r15, %r14
	jmp	.LBB101_57
.Lfunc_end101:
	.size	amqpv_warn, .Lfunc_end101-amqpv_warn
	.section	.rodata.amqpv_warn,"a",@progbits
	.p2align	2, 0x0
.LJTI101_0:
	.long	.LBB101_53-.LJTI101_0
	.long	.LBB101_55-.LJTI101_0
	.long	.LBB101_56-.LJTI101_0
	.long	.LBB101_52-.LJTI101_0
	.long	.LBB101_56-.LJTI101_0
	.long	.LBB101_53-.LJTI101_0
	.long	.LBB101_56-.LJTI101_0
	.long	.LBB101_56-.LJTI101_0
	.long	.LBB101_50-.LJTI101_0
	.long	.LBB101_56-.LJTI101_0
	.long	.LBB101_56-.LJTI101_0
	.long	.LBB101_51-.LJTI101_0
	.long	.LBB101_56-.LJTI101_0
	.long	.LBB101_56-.LJTI101_0
	.long	.LBB101_56-.LJTI101_0
	.long	.LBB101_56-.LJTI101_0
	.long	.LBB101_56-.LJTI101_0
	.long	.LBB101_56-.LJTI101_0
	.long	.LBB101_53-.LJTI101_0
	.long	.LBB101_51-.LJTI101_0
	.long	.LBB101_49-.LJTI101_0
	.long	.LBB101_56-.LJTI101_0
	.long	.LBB101_56-.LJTI101_0
	.long	.LBB101_56-.LJTI101_0
	.long	.LBB101_56-.LJTI101_0
	.long	.LBB101_56-.LJTI101_0
	.long	.LBB101_56-.LJTI101_0
	.long	.LBB101_56-.LJTI101_0
	.long	.LBB101_56-.LJTI101_0
	.long	.LBB101_56-.LJTI101_0
	.long	.LBB101_56-.LJTI101_0
	.long	.LBB101_56-.LJTI101_0
	.long	.LBB101_56-.LJTI101_0
	.long	.LBB101_55-.LJTI101_0
	.long	.LBB101_56-.LJTI101_0
	.long	.LBB101_51-.LJTI101_0
	.long	.LBB101_56-.LJTI101_0
	.long	.LBB101_50-.LJTI101_0
	.long	.LBB101_56-.LJTI101_0
	.long	.LBB101_56-.LJTI101_0
	.long	.LBB101_50-.LJTI101_0
	.long	.LBB101_56-.LJTI101_0
	.long	.LBB101_56-.LJTI101_0
	.long	.LBB101_51-.LJTI101_0
	.long	.LBB101_56-.LJTI101_0
	.long	.LBB101_56-.LJTI101_0
	.long	.LBB101_56-.LJTI101_0
	.long	.LBB101_56-.LJTI101_0
	.long	.LBB101_56-.LJTI101_0
	.long	.LBB101_56-.LJTI101_0
	.long	.LBB101_49-.LJTI101_0
	.long	.LBB101_55-.LJTI101_0
	.long	.LBB101_49-.LJTI101_0
	.long	.LBB101_56-.LJTI101_0
	.long	.LBB101_56-.LJTI101_0
	.long	.LBB101_53-.LJTI101_0

	.section	.text.amqpv_from_json,"ax",@progbits
	.globl	amqpv_from_json
	.p2align	4
	.type	amqpv_from_json,@function
amqpv_from_json:
	.cfi_startproc
	subq	$40, %rsp
	.cfi_def_cfa_offset 48
	movq	48(%rsp), %rax
	testq	%rax, %rax
	leaq	16(%rsp), %r10
	cmovneq	%rax, %r10
	movq	%r10, (%rsp)
	callq	amqpv_proved_from_json@PLT
	addq	$40, %rsp
	.cfi_def_cfa_offset 8
	retq
.Lfunc_end102:
	.size	amqpv_from_json, .Lfunc_end102-amqpv_from_json
	.cfi_endproc

	.section	.text.rattle_alloc,"ax",@progbits
	.p2align	4
	.type	rattle_alloc,@function
rattle_alloc:
	.cfi_startproc
	pushq	%rax
	.cfi_def_cfa_offset 16
	testq	%rdi, %rdi
	cmoveq	%rsi, %rdi
	callq	malloc@PLT
	xorl	%ecx, %ecx
	testq	%rax, %rax
	setne	%cl
	leaq	nothing(%rip), %rdx
	cmovneq	%rax, %rdx
	movq	%rcx, %rax
	popq	%rcx
	.cfi_def_cfa_offset 8
	retq
.Lfunc_end103:
	.size	rattle_alloc, .Lfunc_end103-rattle_alloc
	.cfi_endproc

	.section	.text.rattle_realloc,"ax",@progbits
	.p2align	4
	.type	rattle_realloc,@function
rattle_realloc:
	.cfi_startproc
	pushq	%rax
	.cfi_def_cfa_offset 16
	testq	%rsi, %rsi
	cmoveq	%rdx, %rsi
	callq	realloc@PLT
	xorl	%ecx, %ecx
	testq	%rax, %rax
	setne	%cl
	leaq	nothing(%rip), %rdx
	cmovneq	%rax, %rdx
	movq	%rcx, %rax
	popq	%rcx
	.cfi_def_cfa_offset 8
	retq
.Lfunc_end104:
	.size	rattle_realloc, .Lfunc_end104-rattle_realloc
	.cfi_endproc

	.section	.text.rattle_dealloc,"ax",@progbits
	.p2align	4
	.type	rattle_dealloc,@function
rattle_dealloc:
	.cfi_startproc
	jmp	free@PLT
.Lfunc_end105:
	.size	rattle_dealloc, .Lfunc_end105-rattle_dealloc
	.cfi_endproc

	.type	.Lstatic.1,@object
	.section	.rodata..Lstatic.1,"a",@progbits
.Lstatic.1:
	.size	.Lstatic.1, 0

	.type	.Lstatic.2,@object
	.section	.rodata..Lstatic.2,"a",@progbits
	.p2align	3, 0x0
.Lstatic.2:
	.ascii	"\001\000\000\000\000\000\000\000\n\000\000\000\000\000\000\000d\000\000\000\000\000\000\000\350\003\000\000\000\000\000\000\020'\000\000\000\000\000\000\240\206\001\000\000\000\000\000@B\017\000\000\000\000\000\200\226\230\000\000\000\000\000\000\341\365\005\000\000\000\000\000\312\232;\000\000\000\000\000\344\013T\002\000\000\000\000\350vH\027\000\000\000\000\020\245\324\350\000\000\000\000\240rN\030\t\000\000\000@z\020\363Z\000\000\000\200\306\244~\215\003\000\000\000\301o\362\206#\000\000\000\212]xEc\001\000\000d\247\263\266\340\r\000\000\350\211\004#\307\212"
	.size	.Lstatic.2, 160

	.type	.Lstatic.3,@object
	.section	.rodata..Lstatic.3,"a",@progbits
	.p2align	4, 0x0
.Lstatic.3:
	.ascii	"?;\241\006)\252?\021Z\326;\222\326S\364\356\007\305$\244Y\312\307J\370ee\033f\264X\225I\366-\r\360\274y]v\277>\242\177\341\256\272\334sy\020,,\330\364So\316\212\337\231Z\351i\350K\212\233\033\007y\224\005\301\266+\240\330\221\204\342\336l\202\342H\227\371Fq\2446\310N\266%\233\026\b#\033\033\375\267\230\215MDz\342\343\367 \016\345\365\3600\376r\177x\260j\214m\2165\251Q^3-\275\275O\237\226\\\205\357\b\262\202\023\3465\200x,\255#G\274\263f+\213\3361\314\257!P\313;Lv\254U0 \373\026\213=\277\033*$\276J\337\223\027k<\350\271\334\255\r\257\2424\255m\035\327x\335\205Kb\350S\331h\255\345@\214dr\206k\2523o=q\324\207\302\030\037Q\257\375\016h\006\225\000\313\214\215\311\251\362\336f%\033\275\022\002H\272\300\375\357\360;\324WK`\3670\266K\001mt\230\376\225v\245\204-^85\275\243\236A\210\221>~;\324\316\245\271u\206\202\254L\006R\3525\316]J\211B\317\223\t\224\321\353\357Cs\262\341\240z\316\225\211\201\370\013\371\305\346\353\024\020\037\032I\031B\373\353\241\366Nww\340&\032\324\246`\233\237\022\372f\312\264\"U\225\230\260 \211\3208\202G\227\270\000\375\2605U]_n\264U\202c\261\214^s \236\035\203\2524\367\211!\353b\274\335/6\220\250\305\344#\325\001u\354\351\245{+\325\273C\264\022\367n6%!\3113\262G-;eU\252\260k\232\n\204ni\273\300\236\231\370\211\276\352\324\234\006\301\r%\312C\352p\006\300v,n%\nDH\361(W^j\222\006\0048\312\333dW\206*\315\226\362\354\365\0047\b\005\306\274\022>\355'u\200\274.h3\306DJ\206\367k\227\215\350q\222\240\353\035!\340\373j\356\263z\243~X1\207[D\223d)\330\272\005\352`YL\236\256\375hr\025\270\2753\216)\207$\271o\337E\032=\003\317\032\346V\340\370y\324\266\323\245\253k0\006b\301\320\217l\030w\230\211\244H\217\226\206\274\207\272\361\304\263\207\336\224\376\253\315\0323<\250\253)).\266\340\024\013\035\177\213\300\360\237%I\013\272\331\334q\214\331M\344^\256\360\354\007o\033\216(\020T\216\257Pa\235\366\331,\350\311J\242\2612\024\351q\333\322\\\":\b\0341\276n\005\257\237\2541'\211\006\364\252H\nc\275m\312\306\232\307\027\376p\253\b\261\325\332\314\273,\t}x\201\271\235=M\326\245\216\305\b`\365\273%N\353\360\223\202F\360\205N\362\366\n\270\362*\257!&\3558#Xl\247\341\256\264\rf\257\365\032\252o(\007,nG\321M\355\220\310\237\215\331P\312Ey\204\333\244\314\202\240(\265\272\007\361\017\345<\227\227e\022\316\177\243\310rb\251I\355S\036\f}\375\376\226\301_\314z\017\273\023\234\350\350%O\334\274\276\374\261w\377\254\351T\214a\221\261w\261\t6\367=\317\252\237\027$j\357\271\365\235\325\035\214\003u\r\203\225\307\035\255Dk(s\005K%oD\322\320\343z\3712\354\nC\371g\343Nw\305j\203b\316\354\233?\247\315\223\367A\234\"\325vE$\373\001\350\302\017\021\301xuRCk\212\324V\355y\002\242\363\251\252xk\211\023\n\203\326DV4\214AE\230S\325V\306k\230\314#\f\326kA\357\221V\276\250\212\354\267\206\276\277,\217\313\306\021k6\354\355\251\326\3632\024\327\367{9?\034\353\002\242\263\224S\314\260?\331\314\365\332\007O\343\245\203\212\340\271h\377\234\217\017@\263\321\311\"\\\217$\255X\350\241\037\302\271\t\b\020#\276\225\231\3316l7\221\212\2472(\f\n\324\253-\373\377\217DG\205\265lQ?2\217\f\311\026\371\371\377\263\025\231\346\342\343\222g\177\331\247=\256;\374\177\220\255\037\320\215\234wA\337\317\021\315\231J\373\237\364\230'D\261\203\325\021\327CV@@\035\372\3071\1771\225\335r%kf\3525(HR\374\034\177\357>}\212\317\356\005\000eC2\332f;\344^\253\216\034\255\202j\007@>\324\276\220@J\2356V\262c\330\221\242\004\350\246DwZhN\"\342uO>\2076\313\005\242\320\025\025q\002\342\252ZS\343\r\251\003>\207\312D[Z\r\203\232U1(\\Q\323\302\206\224\376\nyX\350\221\200\325\036\231\331\022\204r\2509\276M\227nb\266\340\212f\377\217\027\245\217\022\310-!=\n\373\343\230-@\377s]\316\231\013\235\2744f\346|\216\177\034\210\177h\372\200\200N\304\353\301\377\037\034r\237#j\237\0029\241 b\265f\262\377'\243N\207\254DGC\207\311\250\272b\000\237\377\361K\"\251\327\025\031\024\351\373\251\264=`\303?wo\265\311\246\255\217\254q\235\323!M8\264\017U\313\"|\020\231\263\027\316\304Hj`F\241S*~+\233T\177\240\235\001\366mB\374\313Dt\332.\373\340\224O\204\002\301\231\bS\373\376U\021\221\3729\031zc%C1\300\312'\272~\253U5y\210\237X\274\356\223=\360\336X4/\213U\301K\265c\2675u|&\226\026o\001\373\355\252\261\236\242<%\203\222\033\260\273\334\312\301y\251\025^F\313\213\356#w\"\234\352\311\036\031\354\211\315\372\013_\027uv\212\225\241\222{f\037g\354\200\371\3166]\022\024\355\372I\267\032@\347\200'\341\267\202\204\364\026Y\250y\034\345\020\210\220\260\270\354\262\321\322X\2567\t\3141\217\025\252\264\334\346\247\037\206\007\357\231\205\013?\376\262\232\324\341\223\340\221\247g\311j\000g\316\316\275\337\340$m\\,\273\310\340\275B`\000A\241\326\213\030n\210s\367\351\372XmSx@\221I\314\256\236\211jPu\2449\257Hh\226\220\365[\177\332\003\226BR\311\006\204m-\001^zy\231\217\210\203;\323\246{\b\345\310x\201\365\330\327\177\263\252d\n\210\220\232J\036\373\326\3412\317\315_`\325\177\006U\232\240\356\362\\&\315\177\241\340;\\\205\036H\352\300H\252/\364o\300\337\311\330J\263\246&\332$\361\332\224;\361\213\260W\374\216\035`\320X\b\267\326\b=\305vW\316\266]y\022<\202n\312d\fK\214vT\355\201$\265\027\027\313\242\t\375}\317]/\224\251h\242m\242\335\334}\313L|]C5;\371\323\002\013\t\013\025T]\376\257m\032J\001\305{\304\341\246\345&\215T\372\236\033\t\241\234A\266\2325\232\020\237p\260\351\270\306bK\311\003\322c\001\303\300\324\306\214\034$g\370\035\317]Bc\336\340y\370D\374\327\221v@\233\344B\365\022\374\025Y\2306V\373M6\224\020\302\235\223\262\027{[o>\304+z\341C\271\224\362B\234\317\356,\231\005\247Z[\354l\312\363\234\227S\203\203*x\377\306P1r'\b\2750\204\275(d$5V\277\370\244\275N1J\354<\345\354\231\2766\341\225w\033\2076\321^\256\023F\017\224?n\204Y{U\342(\204\205\366\231\230\027\023\271\317\211\345/\332\352\0323\345&t\300~\335W\347!v\357]\310\322\360?O\230H8o\352\226\220\251Skuz\007\355\017c\276Z\006\013\245\274\264\224(\306\022YI\350\323\373m\361\307M\316\353\341\\\331\273\253\327-qd\275\344\366\234\360`3\215\263\317\252\226My\215\275\354\2354\304,9\200\260\240\203U\374\240\327\360\354g\305A\365wG\240\334Dr\265\235\304\206\026\364`\033I\371\252,\344\211\325\316\"\305u(\03419b\233\267\3257]\254\213\202k6\2232c}\307:\202%\313\205t\327\2271\003\002\234\377]\256\274dq\367\236\323\250\206\374\375\203\002\203\177\365\331\353\275M\265\206\bS\250{\375$\303c\337r\320f-\241b\250\312g\322m\036\367Y\236\313GB`\274\244=\251\336\200\203\b\346t\360\205\276\331Rx\353\r\215S\026a\244\213\037\222l'.\220gVfQp\350[y\315\266S\333\243\330\034\272\000\366\3372Fq\331k\200\244(\322\314\016\244\350\200\363\227\277\227\315\317\206\240\315\262\006\200\022\315\"a\360}\257\375\300\203\250\310\201_\b W\200kyl]\033=\261\244\322\372\260;\005t60\343\313c\0321\306\356\246\303\234\234\212\006\021D\374\333\276\374`\275w\252\220\364\303D-H\025U\373\222\356;\271\254\025\325\264\361\364J\034M-\025\335\033u\305\363\213-\005\021\027\231]c\240xZ\324b\322\266\360\356xF\325\\\2774|\310\026q\211\373\206\344\254*\027\230\n4\357\240M=\256\3465]\324\016\254z\016\237\206\200\225\t\241\314Y`\203t\211\022W\031\322F\250\340\272K\311?p8\244\321+\327\254\237\206X\322\230\351\317\335'F\243\006c{\006\314#Tw\203\377\221B\325\261\027L\310;\032\b\277,)Ud\177\266\223J\236\035_\272\312 \312\356wsj=\037\344\234\356\202r{\264~T>\365*\210b\206\223\216C\252#O\232a\236\351\215\2625*\373g8\262\324\224\354\342\000\372\005d1\037\303\364\371\201\306\336\004\335\323\215@\274\203\336~\363\3718<\021<\213E\324H\261P\253$\226^p8G\213\025\013\256W\t\233\335$\326\255;v\214\006\031\356\332\215\331\326\345\200\n\327\245L\345\311\027\244\317\324\250\370\207L\037!\315L\317\237^\274\035\215\003\n\323\366\251\037gi\000 \303Gv+ep\204\314\207t\324s\340A\000\364\331\354);?\306\322\337\324\310\204\220XR\000q\020h\364\t\317w\307\027\n\373\245\264\356f@\215\024\202q\314\302U\271\235\314y\3170U@H\330L\361\306\277\231\325\223\342\037\254\201|jPZ\016\240\255\270/\000\3138\333'\027\242\034\205\344\360\021\b\331\246;\300\375\006\322\361\234\312c\246\035m\026J\217\220J0\275\210F.D\375\376\2072\004N\216Y\232.>v\025\354\234J\236\375)?\205\341\361\357@\272\315\323\032'D\335\305|\364\216\346Y\356+\321(\301\210\3410\225T\367\316X\0310\370t\273\202\271x\365\214>\335\224\232\001\257\037<6Rj\343\347\32620\216\024:\301\301\232'\313\303\346D\334\241\214?\274\261\231\210\361\271\300\370^:\020\253)\345\267\247\025\017`\365\226\347\360\266\366H\324\025t\336\245\021\333\022\270\262\274!\255d4[I\033\021V\017\326\221\027f\337\3534\354\276\000\331\r\261\312\225\311%\273\316\237k\223B\247\356@OQ]=\373;\357i\302\207F\270\022Q*\021\243\245\264\f\372\nk\004\263)X\346\253r\272\352\205\347\360G\334\346\302\342\017\032\367\217V\017ieg!\355Y\223\240s\333\223\340\364\263,S\303>\301ih0\270\210P\322\270\030\362\340\373\023:\307\030BA\036sUr\203sO\227\214\372\230\b\371\236\222\321\345\317\352NdP#\275\2579\277J\267F\367E\337\203\245b}$l\254\333\203\267\2162\214\272\213kr\247]\316\226\303K\211de2?/\251n\006O\021\365\201|\264\236\253\275\376\376\016{S\n\310\242Ur\242\233a\206\3266__\351,t\006\275\205u\207E\001\375\023\206\0047\267#8\021H,\347R\351\226A\374\230\247\305\004\245,\206\025Z\367\240\247\243\374Q;\177\321\373\"\347\333sM\230\232\304H\346=\023\205\357\202\272\353\340\322\320`>\301\365\332_\rXf\253\243\250&\231\007\005\371\2151\263\321\267\020\356?\226\314Rp\177IFw\361\375\037\306\345\224\351\317\273\3773\246\357\355\213\352\266\376\323\233\017\375\361a\325\237\300\217k\351.\245d\376\310\202S|n\272\312\307\260s\306\243z\316\375={ch\033\ni\275\371N\b\\\246\f\241\276\006->!Q\246a\026\234b\n\363\317OInH\270\215i\345\017\372\033\303\372\314\357\303\243\333\211Z&\361\303\336\223\370\342\363\034\340uZF)\226\370\267v:k\\\333m\230#X\023\361\227\263\273\366e\024\t\2063R\211\276,.X\355}\240jt\177Y\213g\300\246+\356\334\034W\264N\244\302\250\357\027\267@8H\333\224\023\344labM\363\222\353\335\344PF\032\022\272\027\035\310\371\272 \260wf\025\036\345\327\240\226\350.\022\035\334t\024\316\n`\3152\357\206$^\221\272V$\023\222\231\201\r\270\200\377\252\250\255\265\265il\355\227\366\377\341\020\346`\277\325\022\031#\343\301c\364\036\372?\215\312\217\234\227\305\253\357\365\215\262|\261\246\370\2170\275\263\203\375\266\226ks\261\336\333]\320\366\263|\254\240\344\274d|F\320\335k\251:Bz\360\315k\344\016\366\276\r,\242\212\306S\311\322\230l\301\206\235\222\263.\021\267J\255\267\250{\007\277\307q\350Dw`z\325d\235\330rI\255d\327\034G\021\213J|l\005_b\207\317\233\330=\r\344\230\325-]\233\307\306\366:\251\303\302N\215\020\035\377Jy4\202yx\264\211\323\2729QX*r\337\316\313`\361K\313\0206\204(\210e\356\264N\227\302\376\270\355\036\376\224C\2452\352\376)b\"=s>'\251\246=z\224\316_R?Z}5\006\b\207\270)\210f\314\034\201\367&\317\260\334\302\007\312\250&4*\200\377c\241\265\360\002\335\223\263\211\374R0\3014`\377\274\311\342\254C\324x \254\273g|\361A8?,\374\rL\252\204K\224K\325\300\3556)\203\247\233\235\021\337\324e^y\236\n1\251\204\363c\221\002\305\325\026J\377\265\027FM}\323e\360\2745C\366EN\216\277\321\316KP.\244?\026\226\001\352\231\326\341q/\206\302^\3449\215\317\233\373\201d\300LZN\273'sv]\210p\303\202z\242}\360o\370\020\325\370\007j:U&\272\221\214\205N\226\2136U\n\367\211\004\211\352\257(\266\357&\342\273.\204\352\314t\254E+\345\333\262\243\253\260\332\352\235\222\022\000\311\213\013;o\311OFk\256\310\222D7\027@\273n\316\t\313\273\343\027\006\332z\267\025\005\035\020j\nB\314\275\252\334\235\207\220Y\345-#\022J\202F\251\237\266\352\251\302T\372W\217\371\253\226\334\"\230\223GdeT\363\351\370-\263\367V\274\223+~xY\275~)p$w\371\337Z\266U<\333N\353W6\357\031\306v\352\373\213\361#k\013\222\"\346\355\003k\240w\024\345\372\256\355\354E\2166\253_\351\304\205\210\225Y\236\271\332\024\264\353\030\002\313\333\021\233Su\375\367\002\264\210\031\241&\237\302\275R\326\201\250\322\374\265\003\341\252_I\360F3m\347K\242R\007|\243D\231\325\333-V\f@\244po\245\223\204-\346\312\177\205R\271k\017P\315L\313\216\270\345\270\237\275\337\246\247\247F\023\244\000 ~\262&\037\247\007\255\227\320\310(\f\214f\000\324\216/xs\310$\314^\202\3722\017/\200\000\211r;V\220\372-\177\366\242\271\377\322:\240@+O\312k4y\371\036\264\313\250\277\207I\310\020\366\342\274\206\201\327\267&\241\376\311\327\364-}\312\331\r6\364\260\3462\270$\237\273\rry\034=P\221C1]\240?\346\355\306*\221\316\227cL\244u\224}t\210\317_\251\370\272\032\341>\276\257\206\311|\316H\265\341\333i\233ha\231\316\255[\350\373\033\002\233\"\332RD\302\303\271?B\231r\342\372\242\302A\253\220g\325\362\032\324g\311\237\207\315\334\245\031\tk\272`\305\227 \311\301\273\207\351\000T\017`\313\005\351\270\266\275h;\262\252\351#\001)\0238>G#g$\355!e\257\nr\266\240\371\013\343\206\fv\3006\224i>[\215\016\344\b\370\316\233\250\217\223pD\271\004\016\2620\022\035\013\266\302\302\222s\270\214\225\347\302Ho^+\362\306\261\271\271;H\363w\275\220\363\032\0136\266\2568\036(\250J\032\360\325\354\264\260\341\215\303c\332\306%2R\335 l\013(\342\016\2558Z~H\234W_S\212\224#\007Y\215Q\330\306\360\235Z\203-7\350\254y\354H\257\260e\216\370lE1\344\370D\"\030\230'\033\333\334\377X\033d\313\236\216\033k\025\017\277\370\360\b\212?/\"=~Fr\342\305\332\322\3566-\213\254\017\273j\314\035\330\016[w\221\207\252\204\370\255\327\351\264\302\237\022G\351\230\352\272\224\352R\273\314\206$b\263G\327\230#?\245\3519\245'\352\177\250\255:\240\031\r\177\354\216\016d\210\216\261\344\237\322\254$\0040h\317S\031\211>\025\371\356\356\243\203\327-\005<B\303\250_+\216Z\267\252\352\214\244My\006\313\022\364\2227\26611eU%\260\315\320\013\344\276\213\330\273\342\021\277>_U\027\216\200\304\016\235\256\256\316j[\326n\016\267*\235\261\240uRDZZ\202E\362\213\n\322du\004\336\310\022g\325\360\360\342\326\356.\215\006\276\222\205\025\373k`\205\226\326MFU=\030\304\266{s\355\234\206\270&<L\341\227\252L\036u\244Z\320(\304\250f0K\237\331=\325\337e\222Mq\0043\365)@\376\216\003\250F\345\253\177{\320\306\342?\2313\320\275r\004R\230\336\226_\232\204x\333\217\277@Dm\217\205f>\226|\367\300\245V\322s\357\250J\244y\023\000\347\335\255\232\230'vc\250\225R]\rX\030\300`UY\301~\261S|\022\273\246\264\020n\036\360\270\252\257q\336\235h\033\327\351\350p\312\004\023\226\263\312\r\007\253b!q&\222\"\r\375\305\227{`=\321\310U\273i\r\260\266jP|\267}\232\270\214\005;+*\304\020\\\344B\262\255\222\216`\363w\343\004[\232z\212\271\216\323\036Y7\2628\360U\034\306\361@\031\355g\262\210f/\305\336Flk\2437.\221_\350\001\337\025\240=;K\254##\306\342\274\272;1a\213\032\b\r\n^\227\354\253w\033l\251\212}9\256!J\220\2145\275\347\226U\"\307S\355\334\307\331T.\332wA\326P~uu\\T\024\352\034\210\351\271\320\325\321\013\345\335\322\222si\231$$\252d\350DK\306N^\225\207w\320\303\277-\255\324>\021\013\357;\361Z\275\264Jb\332\227<\354\204\216\325\315\352\212\255\261\354a\335\372\320\275K'\246\362J\201\245\355\030\336g\272\2249E\255\036\261\317\327\316p\207\224\317\352\200\364\374CK,\263\316\201\215\002M\251y\203%\2411\374\024^\367_B\2420C\240\023X\344n\t>;\2325\365\367\322\312\374S\210\030n\235\312\213\r\312\000\203\362\265\207\375}4U\317d\242^wH~\340\221\267\321t\236\235\201*\003\376J6\225\332\235Xv%\006\022\306\004\"\365\203\275\335\203:Q\305\356\323\256\207\226\367B5yr\226j\222\304R;uD\315\024\276\232\223\202\027\017<\005\267u'\212\222\225\000\232m\3018c\335\022\213\306$S\261,\367\272\200\000\311\361\003^\312\353\026\374\366\323\356{\332tP\240\035\227\204\365\274\246\034\273\364\210\352\032\021\222d\b\345\274\3452l\320\343\3511+\245a\225\266}J\036\354\317\237Cb.2\377:\007]\035\222\216\356\222\223\302\207\324\372\271\376\276\tI\264\24462\252w\270\263\251\211yh\276.L[\341M\304\276\224\225\346\020\n\366K\0017\235\017\331\254\260:\367|\035\220\224\214\363\236\301\204\204S\017\330\\\t5\334$\264\271o\260\006\362\245e(\023\016\264KB\023.\341\323E.D\267\207?\371\313\210Po\t\314\274\214H\3279\025\245i\217\367\376\252$\313\013\377\353\257\033M\210Z\016Ds\265\276\325\355\275\316\376\346\33300\225\370\210\nh1\227\245\2646A_p\211=|\2726+\r\302\375\374\316a\204\021w\314\253L\033i\004v\2202=\274Bz\345\325\224\277\326\017\261\301\302I\232?\246\265il\257\005\2757\206S\035r3\334\200\317\017#\204G\033G\254\305\247\250\244N@\023a\303\323+e\031\342X\027\267\321\351&1\b\254\034Zd;\337O\215\227n\022\203\243p=\n\327\243p=\n\327\243p=\n\327\243\314\314\314\314\314\314\314\314\314\314\314\314\314\314\314\314\000\000\000\000\000\000\000\000\000\000\000\000\000\000\000\200\000\000\000\000\000\000\000\000\000\000\000\000\000\000\000\240\000\000\000\000\000\000\000\000\000\000\000\000\000\000\000\310\000\000\000\000\000\000\000\000\000\000\000\000\000\000\000\372\000\000\000\000\000\000\000\000\000\000\000\000\000\000@\234\000\000\000\000\000\000\000\000\000\000\000\000\000\000P\303\000\000\000\000\000\000\000\000\000\000\000\000\000\000$\364\000\000\000\000\000\000\000\000\000\000\000\000\000\200\226\230\000\000\000\000\000\000\000\000\000\000\000\000\000 \274\276\000\000\000\000\000\000\000\000\000\000\000\000\000(k\356\000\000\000\000\000\000\000\000\000\000\000\000\000\371\002\225\000\000\000\000\000\000\000\000\000\000\000\000@\267C\272\000\000\000\000\000\000\000\000\000\000\000\000\020\245\324\350\000\000\000\000\000\000\000\000\000\000\000\000*\347\204\221\000\000\000\000\000\000\000\000\000\000\000\200\364 \346\265\000\000\000\000\000\000\000\000\000\000\000\2401\251_\343\000\000\000\000\000\000\000\000\000\000\000\004\277\311\033\216\000\000\000\000\000\000\000\000\000\000\000\305.\274\242\261\000\000\000\000\000\000\000\000\000\000@v:k\013\336\000\000\000\000\000\000\000\000\000\000\350\211\004#\307\212\000\000\000\000\000\000\000\000\000\000b\254\305\353x\255\000\000\000\000\000\000\000\000\000\200z\027\267&\327\330\000\000\000\000\000\000\000\000\000\220\254n2x\206\207\000\000\000\000\000\000\000\000\000\264W\n?\026h\251\000\000\000\000\000\000\000\000\000\241\355\314\316\033\302\323\000\000\000\000\000\000\000\000\240\204\024@aQY\204\000\000\000\000\000\000\000\000\310\245\031\220\271\245o\245\000\000\000\000\000\000\000\000:\017 \364'\217\313\316\000\000\000\000\000\000\000@\204\t\224\370x9?\201\000\000\000\000\000\000\000P\345\013\2716\327\007\217\241\000\000\000\000\000\000\000\244\336Ng\004\315\311\362\311\000\000\000\000\000\000\000M\226\"\201E@|o\374\000\000\000\000\000\000 \360\235\265p+\250\255\305\235\000\000\000\000\000\000(l\005\343L6\022\0317\305\000\000\000\000\000\0002\307\306\033\340\303V\337\204\366\000\000\000\000\000@\177<\\\021l:\226\013\023\232\000\000\000\000\000\020\237K\263\025\007\311{\316\227\300\000\000\000\000\000\324\206\036 \333H\273\032\302\275\360\000\000\000\000\200D\024\023\364\210\r\265P\231v\226\000\000\000\000\240U\331\0271\353P\342\244?\024\274\000\000\000\000\b\253\317]\375%\345\032\216O\031\353\000\000\000\000\345\312\241Z\2767\317\320\270\321\357\222\000\000\000@\236=J\361\255\005\003\005'\306\253\267\000\000\000\320\005\315\234m\031\307C\306\260\267\226\345\000\000\000\242#\000\202\344o\\\352{\3162~\217\000\000\200\212,\200\242\335\213\363\344\032\202\277]\263\000\000 \2557 \013\325n0\236\241b/5\340\000\0004\314\"\364&EE\336\002\245\235=!\214\000\000A\177+\261p\226\326\225C\016\005\215)\257\000@\021_v\335\f<L{\324QF\360\363\332\000\310j\373i\n\210\245\017\315$\363+v\330\210\000zEz\004\r\352\216S\000\356\357\266\223\016\253\200\330\326\230E\220\244rh\200\351\253\2448\322\325PG\206\177+\332\246GA\360q\353fc\243\205$\331g_\266\220\220\231QlN\246@<\f\247m\317A\367\343\264\364\377e\007\342\317PK\317\320\244!\211z\016\361\370\277\237D\355\201\022\217\201\202\rj+\031R-\367\257\307\225h\"\327\362!\243\220Dv\237\246\370\364\2339\273\002\353\214o\352\313\264\325SG\3206\362\002\bj\303%p\013\345\376\220e\224,Bb\327\001E\"\232\027&'O\237\365~\271\267\322:MB\326\252\200\235\357\360\"\307\262\336\247e\207\211\340\322\213\325\340\204+\255\353\370/\353\210\237\364U\314cw\205\f3;L\223\233\373%k\307qk\277<\325\246\317\377I\037x\302z\357E9NF\357\213\212\220\303\177\034'\026\363\254\265\313\343\360\213u\227V:\332\317q\330\355\227\027\243\276\034\355\356R=\354\310\320C\216N\351\275\335K\356c\250\252\247L'\373\304\3241\242c\355j\357t>\251\312\350\217\370\034\373$_E^\224D+\022\216S\375\342\2636\3449\356\266\326u\271\026\266\226q\250\274\333`D]\310\251dL\323\347\3151\376F\351U\211\274J:\035\352\276\017\344\220A\276\275\230c\253\253k\335\210\244\244\256\023\035\265\321-\355~<\226\226\306\024\253\315M\232Xd\342\242<T\317\345\035\036\374\354\212\240p`\267~\215\313K)C_\245%;\250\255\310\2148e\336\260\276\236\363\023\267\016\357I\022\331\372\257\206\376\025\3357Cxl2i5n\253\307\374-\024\277-\212\004T\226\007\177\303\302I\226\371{9\331.\271\254\006\351{\311^t3\334\373\367\332\207\217z\347\327\243q\355=\273(\240i\375\332\350\264\231\254\360\206\f\316h\r\3522\b\304\274\021#\"\300\327\254\250\220\001\303\220\244?\n\365+\326\253*\260\r\330\322\372\340y\332\306g&y\333e\253\032\216\b\307\2038Y\030\221\270\001pWR?V\241\261\312\270\244\206o^\265&\002L\355&\317\253\t^\375\346\315\264\005[1X\201OTxa\013\306Z^\260\200!\307\261=\256aci\3269\216w\361u\334\240\3518\036\315\031:\274\003L\310q\325m\223\023\311#\307e@\240H\253\004_:\316JIxX\373v\234?(d\r\353b{\344\300\316-K\027\235\224\203O2\275\320\245;\232\035qB\371\035]\304yd\343~\354D\217\312\000e\r\223wet\365\313\036N\317\023\213\231~ _\350\273j\277h\231~\246!\303\330\355?\236\350v\342jE\357\302\277\036\020\352\363N\351\317\305\242\024\233\305\026\253\263\357\022JrX\321\361\241\273\345\354\200;\356J\320\225\227\334\216\256En\212*\037(a\312\251]D\273\275\2232\032\327\t-\365&r\371<\024u\025\352V\234_p&&<YX\347\033\246,iM\222l\203w\f\260/\213o.\341\242\317w\303\340\266Gd\225\017\234\373m\013z\231\213\303U\364\230\344\254^\275\211A\275$G\354?7\232\265\230\337\216W\266,\354\221\354\355X\347\017\305\000\343~\227\262\355\3437g\266g)/\341S\366\300\233^=\337t\356\202\000\322\340y\275l\364\231X![\206\213\021\252\243\200\006Y\330\354\207q\300\256\351\361g\256\225\224\314 Ho\016\350\351\215p\032d\356\001\332\335\334\177\024\215\005\t1\262X\206\220\3764A\210\025\324\237Y\360FK\275\336\356\2474>\202Q\252\032\311\007p\254\030\236l\226\352\321\301\315\342\345\324\260\335\004\306k\317\342\003\2362#\231\300\255\017\205\034\025\206\267F\203\333\204E\377k\2770\231S\246c\232ge\030d\022\346\026\377F\357|\177\350\317~\300`?\217~\313On_\214\025\256O\361\201\235\3608\0173^\276\343Iw\357\232\231\243m\242\305,\007\323\277\365\255\\\034U\253\001\200\f\t\313\366\367\310\307/s\331sc*\026\002\240O\313\375\372\232\335\334\375\347g(~\332M\001\304\021\237\236\270\001\025T\375\341\201\262\035Q\241\0015\326F\306&B\032\251|Z\"\037e\245\tB\302\213\330\367Xi\260\351\215xu3_\007FiYW\347\232\256\203\034d\261\326R\0007\211\227\303/-\241\301\232\244#\275]\214g\300\204k}\264{x\t\362\340F6\226\272\267@\3702c\316PM\353E\227\230\330\303;\251\345P\266\377\373\001\245 f\027\275\276\316\264\212\023\037\345\243\377zB\316\250?]\3547\001\2616l3o\306\337\214\351\200\311G\272\223\204A]DG\000\013\270\027\360#\341\273\331\250\270\345\221t\025Y\300\r\246\035\354l\331*\020\323\346/\333h\2557\230\310\207\222\023\344\307\032\352C\220\373\021\303\230E\276\272)w\030\335y\241\344T\264z\326\363\376\326m)\364\224^T\330\311\035j\341\ffX_\246\344\231\030\035\2734'\236R\342\214\217\177.\367\317]\300^\344\351\001\261E\347\032\260s\037\372\364Cupv]dB\035\027\241!\334\250S\034yJI\006j\272~Ir\256\004\225\211\222hc\027\235\333\207\004i\336\333\016\332E\372\253\266B<]\204\322\251E\003\326\222\222P\327\370\326\262\251E\272\222#\212\013\302\305\233[\222\206[\206\036\024\327hw\254l\2162\267\202\3626h\362\247&\331\fC\225\327\0072\377d#\257D\002\357\321\270\007\350I\275\346D\177\037\037v\355ja5\203\246\tb\234l \026_\347\246\323\250\305\271\002\244\017\214z\303\207\250\3336\241\220\b\0237h\003\315\211\227,\332TII\302dZ\345k\"!\"\200l\275\267\020\252\233\333\362\375\260\336\006k\251*\240\307\254\345\224\224\202\222o=]\226\310\305S5\310\371\027\037\2729#w\313\214\364\273:\267\250B\372\373nS\024\004v*\377\327x\265\204r\251i\234\272Jh\031\205\023\365\376\r\327\342%\317\023\204\303i]\302_fX\262~\321\214[\357\302\030e\364az\331\373?w/\357\0028\231\325y/\277\230\372\330\317\372\017U\373\252\003\206\377JX\373\356\2768\317\203\371S*\272\225\204g\277].\272\252\356\203a\362{tZ\224\335\262\240\227\372\\\264*\225\344\371\356\232\021q\371\224\337\210=9tau\272]\270\252\001V\3157z\027\353\214G\321\271\022\351:\263\n\301U\340b\254\356\022\270\314\"\264\253\221\t`M1k\230{W\252\027\346\177+\241\026\266\013\270\240\375\205~Z\355\224\235\337_vI\234\343\007s\204\276\023\217X\024}\302\353\373\351\255A\216\310\217%\256\330\262nY\034\263\346zd\031\322\261\273\363\256\331\216_\312o\343_\240\231\275\237F\336TX\rH\271{\336%\356;\004\200\326#\354\212j\256\020\232\247\032V\257\351J\005 \314,\247\255\004\332\224\200Q\241+\033\244\235\006(\377\367\020\331B\b]\360\322D\373\220\206\"\004y\377\232\252\207SJt\254\007\026:5(+EW\277A\225\251\350\\\221\227\211\233\210B\362u\026-/\222\372\323\021\332\272\3765a\225i\267\t.|]\233|\204\225\220i~\203\271\372C%\2149\3334\302\233\245\273\364\003^\344g\371\224.\357\007\022\302\262\002\317\365x\302\272\356\340\033\035}\365DK\271\257a\2012\027si*\331bd\3342\026\236\247\033\272\241\376\334\317\003u\217{}\223\277\233\205\221\242(\312>\324\303DRs\332\\x\257\002\3475\313\262\374\247d\372j\023\210\b:\253\255a\260\001\277\357\235\320\375\270E\030\252\212\b\026\031z\034\302\256k\305E='W\236T\255\212[\237\230\243r\232\306\366K\206x\366\342T\2546\231c?\246\207 <\232\335\247\026\264\033jW\204\177<\317\217\251(\313\300\325Q\034\241\242Dme\237\013\303\363\323\362\375\360%\263\261\244\345Jd\237C\347Yx\304\267\236\226\356\037\336\r\237]=\207\024ap\226\265eF\274\352\247U\321\006\265\f\251Yy\f\374\"\377W\353\362\210\325B$\361\247\t\330\313\207\335u\377\026\223/\353\212Sm\355\021\f\316\276\351TS\277\334\267\372\245m\250\310h\026\217\201.$*(\357\323\345\274\207Di}\001n\371\020\235V\032yu\244\217\254\251\225\303\334\201\3117UD\354`\327\222\215\263\027\024{\364S\342\273\205jU'9\215\367p\340\216\354\314xtm\225\223b\225\270C\270\232F\214\262'\000\227\321\310z8\273\272\246TfAX\257\2361\300\374\005{\231\006ji\320\351\277Q.\333\003\037\370\275\343\354\037D\342A\"\362\027\363\374\210\303&v\255\034\350'\325Z\322\252\356\335/<\253t\260\323\330#\342q\212\361\206Uj\325;\013\326IN\204gV-\207\366Vtube\005\307\205\333ae\001\254\370(\264l\321\022\273\276\3068\247R\272\276\001\32763\341\307\205\327in\370\006\321s4\027aF\002\300\354\234\263&\002E[\244\202\220\001]\371\327\002\360'\204`\260B\026rM\243\364A\264\367\215\003\3541\245x\\\323\233\316 \314qR\241uq\004g~\316\2263\310B\002)\377\206\323\204\351\306b\000\017A> \275i\241y\237h\b\346\243x{\300R\321Mh,\304\tX\307\202\212\337\314V\232p\247Ea\20275\f.\371\221\266\013@v`\246\210\313|\261B\241\307\274\2335\244\016\320\223\370\317j\376\333]\223\211\371\253\302CM\022\304\270\366\203\005\376R5\370\353\367V\363Jp\213z3zr\303\336S!{\363Z\026\230\\L.Y\300\030Ot\326\250\351Y\260\361\033\276s\337yo\360\336b\021\f\023dp\034\356\242\355\250+\254EV\313\335\212\347\213>\306\321\324\205\224\2226\027\327+>\225m\341.\3167\006J\247\2717\004\335\314\266\215\372\310\231\272\301\305\207\034\021\350\242\"\n@\222\230\234\035\240\024\231\333\324\261\n\221K\253\f\320\266\276\003%\310Y\177\022J^M\265\035\326\017\204d\256D.:0\037\227\334\265\240\342\322\345\211\322\376\354\352\\$~s\336\251q\244\215G_,\207>\250%t\255]\020V\024\216\r\261\031w\367(N\022/\321\030u\224k\231\361P\335o\252\232\331pk\275\202/\311<\343\377\226R\212\013U\001\020M\306lc{\373\013\334\277<\347\254N\252\001T\340\367G<Z\372\016\323\357\013!\330q\n\2014\354\372\254ex\\\351\343u\247\024\207\rM\241A\2479\030\177\226\263\343\\S\321\331\250P\240\t\022\021H\336\036|\240\0344\250E\020\3232\004F\253\n\355J\223M\344\221 \211+\352\203?\205\027VM\250\035\370`]\266hk\266\344\244\216f\235\253`\022%6\271\364\343B\006\344\035\316\031`Bk|+\327\301\363x\316\351\203\256\322\200\037\370\022\206[\366L\2620\027B\344$Z\007\241'\266\227g\3623\340\336\374\234R\035\2560I\311\261\243}\001\357@\230\026<D\247\244\331|\233\373N\206\356`\225(\037\216\245\212\350\006\b.A\235\342'*\271\272\362\246\361N\255\242\b\212y\221\304\333\261tgi\257\020\256\242X\313\212\354\327\265\365)\357\250\340\241m\312\254e\027\277\326\363\246\221\231\363*\323X\n\t\375\027?\335n\314\260\020\366\277\260\365\007\357LK\374\335\216\224\212\377\334\224\363\357\216\371d\025\020\257\275J\331\234\266\037\n=\370\225\3617\276\032\324\032m\235\017D\244\247LLv\273\355\305m!\211a\310\204\023U\215\321_\337S\352\264\233\344\264\365<\3752,U\370\342\233kt\222\241\302\035\"3\214\274?wj\266\333\202\206\021\267J3\245\352?\257\253\017\025\005\244\222#\350\325\344\016@\247\362\207M\313)-\203\246;\026\261\005\217\022\020Q\357\351 >t\370#\220\312[\035\307\262\026T%k$\251M\221\366,4\275\262\344x\337\216T\367\302\266\211\320\032\032\234@\266\357\216\253\213\261)\265s$\254\204\241 \303\320\243\253r\226\256\036t\242\220-\327\345\311\350\363\304\214V\017<\332\222\210ez|\246/~q\030\373\027\226\211e\210\267\352\376\230\033\220\273\335\215\336\371\235\373\353~\252e\245>\177\"t*U1Vx\205\372\246\036\325_'\207\217\225\210:\325\3365k\223\\(3\2057\361h\363\272*\211\212V\003F\270s\362\177\246\205-C\260iu+-,\204W\246\020\357\037\320s\374)\016b);\234\233\262\366gj\365\023\202\217{\264\221\272\363I\203B_\364\001\305\362\230\242s\232!6\251p\034$\023wqBv/?\313\020\001\252\203\323\214#\355\327\324\r\323S\373\016\376\252@J2\00486\364\006\245\350c\024]\311\236\325\320\334>\005\306C\261H\316\342|Y\264{\306\n\005\224\216\206\267\224\335\332\201\033\334o\241\032\370&\203\034\031\264\362|\312(1\221\351\345\244\020\233\360\243c\037a/\034\375r}\365c\037\316\324\301\354\214<g9;c\274\317\334\362<\247\001J\362\023\330\205\340\003\005\276\325\001\312\027\206\bAn\227\030N\247\330D\206-K\202\274\235\247J\321I\275\236!\321\016\326\347\370\335\242+\205Q\235E\234\354\003\265B\311\345\220\273\312E;\363R\202\253\341\223Cb\223;\037uj=\027\n\260\347b\026\332\270\324:x\ng\022\305\f\235\f\234\241\373\233\020\347\305$\213f\200+\373'\342\207\001E}aj\220\366\355-\200`\366\371\261\332\351A\226\334\371\204\264si9\240\370sx^Qd\322\273S8\246\341\350\341#d{H\013\333\262~cU4\343\007\215b\332,=\232\032\316\221_^\274j\001\334I\260\373\020x\314@\241Av\367uk\305\001S\\\334\235\n\313\177\310\004\351\251\272)c\033\341\263\271\211D\315\275\237\372EcT)\364;b\331 (\254\225@\255Gy\027|\2513\361\312\272\017)2\327]H\314\314\253\216\355I\300\326\276\324\251Y\177\206tZ\377\277V\362h\\p\214\356I\0240\037\250\0211\377o\354.\203s\214/j\\\031\374&\322\253~\377\305S\3751\310\267]\302\331\217]X\203U^\177\267\250|>\272%\3652\320\363t.\244\3535_\345\322\033\316(o\262?\3040\022:\315\263\201[\317c\321\200y\205\317\247z^KD\200\037b2\303\274\005\341\327f\303Q\0316^U\240\247\372\376\363+G\331\215@4\246\237\303\265j\310Q\271\376\360\366\230O\261P\301\217\2074c\205\372\3233\237V\232\277\321n\322\330\271\324\000^\223\234\310\000G\354\200/\206\n\007O\350\t\2015\270\303\372\300X'a\273'\315\310bbL\341B\246\364\234x\227\270\034\3258\200\275}\275\317\314\351\347\230\303V\275\346c\nG\340,\335\254\003@\344!\277t\254l\340\374\314X\030x\024\230\004P]\352\356\310\353C\f\036\2007\017\313\f\337\002RzR\225\272\346T\217%`\005\323\375\317\226\203\346\030\247\272i *\363.\270\306G\375\203|$ \337P\351AT\372W\0353\334L~\322\315\026t\213\322\221R\351\370\255\344?\023\340\035G\201\034Q.G\266\246#w\331\335\017\030X\345\230\241c\345\371\330\343Hv\352\247\352\t\017W\217\377D^/\234g\216\332\023\345Qe\314\322,s?\3265;\203\001\262\321X^\246~\177\007\370O\317K\003\n\344\201\336\202\367\372'\257\257\004\373\221a\017B\206.\021\213c\265\371\361\232\333\305y\3669\223\322'z\325\255\274\"x\256\201R7\030t\b8\307\261\330J\331\265\025\013\r\221\223\"\217H\005\203\034o\307\316\207\"\333MPu8\353\262\232\306\243\343Jy\302\251\353Qa\244\222\006\246_A\270\214\234\235\0273\3243\323\274\246\033\304\307\333(\363\327\201\302\356\237\204\000\bl\220\"\265\271\022\363\357M\"s\352\307\245\000\n\2074k\"h\327\357k\341\352\017\3459\317@f\324\000\203\025\241\346u\343\314\362)/\204\201\320\177\t\301\343ZI`S\034\200o\364:\345\241\304\337K\261\234\261[8h#`\213\261\211^\312\265\327\236\335\003\236rFB,8\356\035,\366\374\321F\203j\302\242\007l\251\033\343\264\222\333\031\236\205\030$\005s\213\t\307\223\342\033bwR\240\305"
	.size	.Lstatic.3, 10688

	.type	.Lstatic.4,@object
	.section	.rodata..Lstatic.4,"a",@progbits
	.p2align	2, 0x0
.Lstatic.4:
	.ascii	"\000\000\200?\000\000 A\000\000\310B\000\000zD\000@\034F\000P\303G\000$tI\200\226\030K \274\276L(knN\371\002\025P"
	.size	.Lstatic.4, 44

	.type	.Lstatic.8,@object
	.section	.rodata..Lstatic.8,"a",@progbits
	.p2align	3, 0x0
.Lstatic.8:
	.ascii	"\000\000\000\000\000\000\360?\000\000\000\000\000\000$@\000\000\000\000\000\000Y@\000\000\000\000\000@\217@\000\000\000\000\000\210\303@\000\000\000\000\000j\370@\000\000\000\000\200\204.A\000\000\000\000\320\022cA\000\000\000\000\204\327\227A\000\000\000\000e\315\315A\000\000\000 _\240\002B\000\000\000\350vH7B\000\000\000\242\224\032mB\000\000@\345\2340\242B\000\000\220\036\304\274\326B\000\0004&\365k\fC\000\200\3407y\303AC\000\240\330\205W4vC\000\310Ngm\301\253C\000=\221`\344X\341C@\214\265x\035\257\025DP\357\342\326\344\032KD\222\325M\006\317\360\200D"
	.size	.Lstatic.8, 184

	.type	.Lstatic.26,@object
	.section	.rodata..Lstatic.26,"a",@progbits
.Lstatic.26:
	.ascii	"rue"
	.size	.Lstatic.26, 3

	.type	.Lstatic.27,@object
	.section	.rodata.cst4,"aM",@progbits,4
.Lstatic.27:
	.ascii	"alse"
	.size	.Lstatic.27, 4

	.type	.Lstatic.28,@object
	.section	.rodata..Lstatic.28,"a",@progbits
.Lstatic.28:
	.ascii	"ull"
	.size	.Lstatic.28, 3

	.type	nothing,@object
	.section	.rodata.nothing,"a",@progbits
nothing:
	.byte	0
	.size	nothing, 1

	.type	".Lswitch.table.amq_protocol_types::generation::values::gen_field_table::<#4ea8deeae94023ba>",@object
	.section	".rodata..Lswitch.table.amq_protocol_types::generation::values::gen_field_table::<#4ea8deeae94023ba>","a",@progbits
".Lswitch.table.amq_protocol_types::generation::values::gen_field_table::<#4ea8deeae94023ba>":
	.ascii	"tbBsuIilfdD_SATFxV"
	.size	".Lswitch.table.amq_protocol_types::generation::values::gen_field_table::<#4ea8deeae94023ba>", 18

	.type	".Lswitch.table.amqp_in_place::rabbitmq::warning::inside",@object
	.section	".rodata..Lswitch.table.amqp_in_place::rabbitmq::warning::inside","a",@progbits
	.p2align	3, 0x0
".Lswitch.table.amqp_in_place::rabbitmq::warning::inside":
	.quad	0
	.quad	0
	.quad	0
	.quad	0
	.quad	0
	.quad	0
	.quad	0
	.quad	0
	.quad	0
	.quad	0
	.quad	0
	.quad	0
	.quad	0
	.quad	0
	.quad	1
	.quad	0
	.quad	1
	.quad	0
	.quad	0
	.size	".Lswitch.table.amqp_in_place::rabbitmq::warning::inside", 152

	.type	.Lswitch.table.amqpv_canonical,@object
	.section	.rodata..Lswitch.table.amqpv_canonical,"a",@progbits
	.p2align	3, 0x0
.Lswitch.table.amqpv_canonical:
	.quad	1
	.quad	5
	.quad	2
	.quad	3
	.quad	4
	.quad	6
	.quad	7
	.size	.Lswitch.table.amqpv_canonical, 56

	.ident	"rattle logic=dac8208d650f15bf3e2dc313a14fa4c783a3acf887bdfab66e1714b038d9e11b"
	.ident	"clang version 22.1.8"
	.section	".note.GNU-stack","",@progbits
