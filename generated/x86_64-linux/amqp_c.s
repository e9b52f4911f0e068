	.file	"rattle"
	.section	".text.core::cmp::slices::groups_equal::<i8,31'core::cmp::numbers::U8PartialEq{}>","ax",@progbits
	.p2align	4
	.type	"core::cmp::slices::groups_equal::<i8,31'core::cmp::numbers::U8PartialEq{}>",@function
"core::cmp::slices::groups_equal::<i8,31'core::cmp::numbers::U8PartialEq{}>":
	cmpq	$8, %rsi
	ja	.LBB0_2
	movd	-4(%rdi,%rsi), %xmm0
	movd	(%rdi), %xmm1
	punpckldq	%xmm0, %xmm1
	movd	-4(%rdx,%rsi), %xmm0
	movd	(%rdx), %xmm2
	punpckldq	%xmm0, %xmm2
	movq	%xmm1, %rax
	movq	%xmm2, %rcx
	cmpq	%rcx, %rax
	jmp	.LBB0_17
.LBB0_2:
	cmpq	$32, %rsi
	ja	.LBB0_4
	leaq	-8(%rsi), %rax
	cmpq	$8, %rax
	movl	$8, %ecx
	cmovbq	%rax, %rcx
	cmpq	$16, %rax
	movl	$16, %r8d
	cmovbq	%rax, %r8
	movq	(%rdi,%rcx), %xmm0
	movq	(%rdi), %xmm1
	punpcklqdq	%xmm0, %xmm1
	movq	(%rdi,%r8), %xmm0
	movq	-8(%rdi,%rsi), %xmm2
	punpcklqdq	%xmm2, %xmm0
	movq	(%rdx,%rcx), %xmm2
	movq	(%rdx), %xmm3
	punpcklqdq	%xmm2, %xmm3
	pcmpeqb	%xmm1, %xmm3
	movq	(%rdx,%r8), %xmm1
	movq	-8(%rdx,%rsi), %xmm2
	punpcklqdq	%xmm2, %xmm1
	pcmpeqb	%xmm0, %xmm1
	pand	%xmm3, %xmm1
	pmovmskb	%xmm1, %eax
	jmp	.LBB0_16
.LBB0_4:
	cmpq	$65, %rsi
	jae	.LBB0_5
	movdqu	(%rdi), %xmm0
	movdqu	16(%rdi), %xmm1
	movdqu	(%rdx), %xmm2
	pcmpeqb	%xmm0, %xmm2
	movdqu	16(%rdx), %xmm0
	pcmpeqb	%xmm1, %xmm0
	movdqu	-32(%rdi,%rsi), %xmm1
	movdqu	-16(%rdi,%rsi), %xmm3
	movdqu	-32(%rdx,%rsi), %xmm4
	pcmpeqb	%xmm1, %xmm4
	pand	%xmm2, %xmm4
	movdqu	-16(%rdx,%rsi), %xmm1
	pcmpeqb	%xmm3, %xmm1
	pand	%xmm0, %xmm1
	pand	%xmm4, %xmm1
	pmovmskb	%xmm1, %eax
	jmp	.LBB0_16
.LBB0_5:
	xorl	%eax, %eax
	movq	%rsi, %rcx
	.p2align	4
.LBB0_6:
	movdqu	(%rdi,%rax), %xmm0
	movdqu	16(%rdi,%rax), %xmm1
	movdqu	32(%rdi,%rax), %xmm2
	movdqu	48(%rdi,%rax), %xmm3
	movdqu	(%rdx,%rax), %xmm4
	pcmpeqb	%xmm0, %xmm4
	movdqu	16(%rdx,%rax), %xmm0
	pcmpeqb	%xmm1, %xmm0
	movdqu	32(%rdx,%rax), %xmm1
	pcmpeqb	%xmm2, %xmm1
	pand	%xmm4, %xmm1
	movdqu	48(%rdx,%rax), %xmm2
	pcmpeqb	%xmm3, %xmm2
	pand	%xmm0, %xmm2
	pand	%xmm1, %xmm2
	pmovmskb	%xmm2, %r8d
	cmpl	$65535, %r8d
	jne	.LBB0_8
	addq	$64, %rax
	addq	$-64, %rcx
	cmpq	$63, %rcx
	ja	.LBB0_6
.LBB0_8:
	cmpq	$32, %rcx
	jb	.LBB0_15
	movq	%rsi, %rcx
	subq	%rax, %rcx
	.p2align	4
.LBB0_10:
	movdqu	(%rdi,%rax), %xmm0
	movdqu	16(%rdi,%rax), %xmm1
	movdqu	(%rdx,%rax), %xmm2
	pcmpeqb	%xmm0, %xmm2
	movdqu	16(%rdx,%rax), %xmm0
	pcmpeqb	%xmm1, %xmm0
	pand	%xmm2, %xmm0
	pmovmskb	%xmm0, %r8d
	xorl	$65535, %r8d
	jne	.LBB0_14
	addq	$32, %rax
	addq	$-32, %rcx
	cmpq	$32, %rcx
	jae	.LBB0_10
	jmp	.LBB0_15
.LBB0_14:
	movb	$1, %al
	cmpq	$31, %rcx
	ja	.LBB0_18
.LBB0_15:
	movdqu	-32(%rdi,%rsi), %xmm0
	movdqu	-16(%rdi,%rsi), %xmm1
	movdqu	-32(%rdx,%rsi), %xmm2
	pcmpeqb	%xmm0, %xmm2
	movdqu	-16(%rdx,%rsi), %xmm0
	pcmpeqb	%xmm1, %xmm0
	pand	%xmm2, %xmm0
	pmovmskb	%xmm0, %eax
.LBB0_16:
	xorl	$65535, %eax
.LBB0_17:
	setne	%al
.LBB0_18:
	xorb	$1, %al
	retq
.Lfunc_end0:
	.size	"core::cmp::slices::groups_equal::<i8,31'core::cmp::numbers::U8PartialEq{}>", .Lfunc_end0-"core::cmp::slices::groups_equal::<i8,31'core::cmp::numbers::U8PartialEq{}>"

	.section	".text.amqp_in_place::canonical::are_canonical_values","ax",@progbits
	.p2align	4
	.type	"amqp_in_place::canonical::are_canonical_values",@function
"amqp_in_place::canonical::are_canonical_values":
	pushq	%r15
	pushq	%r14
	pushq	%r13
	pushq	%r12
	pushq	%rbx
	testq	%rsi, %rsi
	je	.LBB1_33
	movq	%rdx, %rbx
	movq	%rdi, %r15
	leaq	-1(%rdx), %r14
	jmp	.LBB1_6
	.p2align	4
.LBB1_2:
	cmpb	$2, 1(%r15)
	jae	.LBB1_36
.LBB1_3:
	addq	$2, %r15
	addq	$-2, %rsi
.LBB1_4:
	movq	%r15, %rcx
	movq	%rsi, %r13
.LBB1_5:
	movq	%r13, %rsi
	movq	%rcx, %r15
	testq	%r13, %r13
	je	.LBB1_33
.LBB1_6:
	movzbl	(%r15), %edx
	cmpq	$1, %rsi
	je	.LBB1_8
	cmpl	$116, %edx
	je	.LBB1_2
.LBB1_8:
	xorl	%eax, %eax
	cmpl	$76, %edx
	je	.LBB1_34
	cmpl	$85, %edx
	je	.LBB1_34
	xorl	%eax, %eax
	addl	$-65, %edx
	cmpl	$55, %edx
	ja	.LBB1_34
	leaq	1(%r15), %rcx
	leaq	-1(%rsi), %r13
	leaq	.LJTI1_0(%rip), %rdi
	movslq	(%rdi,%rdx,4), %rdx
	addq	%rdi, %rdx
	jmpq	*%rdx
.LBB1_29:
	cmpq	$8, %r13
	jb	.LBB1_36
	addq	$9, %r15
	addq	$-9, %rsi
	jmp	.LBB1_4
.LBB1_31:
	cmpq	$4, %r13
	jb	.LBB1_36
	addq	$5, %r15
	addq	$-5, %rsi
	jmp	.LBB1_4
.LBB1_35:
	testq	%r13, %r13
	jne	.LBB1_3
	jmp	.LBB1_36
.LBB1_27:
	cmpq	$2, %r13
	jb	.LBB1_36
	addq	$3, %r15
	addq	$-3, %rsi
	jmp	.LBB1_4
.LBB1_24:
	cmpq	$5, %rsi
	jb	.LBB1_36
	movl	(%rcx), %eax
	bswapl	%eax
	addq	$-5, %rsi
	movq	%rsi, %r13
	subq	%rax, %r13
	jb	.LBB1_36
	leaq	(%r15,%rax), %rcx
	addq	$5, %rcx
	jmp	.LBB1_5
.LBB1_13:
	cmpq	$6, %rsi
	jb	.LBB1_36
	addq	$6, %r15
	addq	$-6, %rsi
	jmp	.LBB1_4
.LBB1_15:
	cmpq	$5, %rsi
	jb	.LBB1_36
	movl	(%rcx), %r12d
	bswapl	%r12d
	addq	$-5, %rsi
	xorl	%eax, %eax
	movq	%rsi, %r13
	subq	%r12, %r13
	jb	.LBB1_34
	testq	%rbx, %rbx
	je	.LBB1_34
	leaq	5(%r15), %rdi
	movq	%r12, %rsi
	movq	%r14, %rdx
	callq	"amqp_in_place::canonical::are_canonical_values"
	testb	%al, %al
	jne	.LBB1_19
	jmp	.LBB1_36
.LBB1_20:
	cmpq	$5, %rsi
	jb	.LBB1_36
	movl	(%rcx), %r12d
	bswapl	%r12d
	addq	$-5, %rsi
	xorl	%eax, %eax
	movq	%rsi, %r13
	subq	%r12, %r13
	jb	.LBB1_34
	testq	%rbx, %rbx
	je	.LBB1_34
	leaq	5(%r15), %rdi
	movq	%r12, %rsi
	movq	%r14, %rdx
	callq	"amqp_in_place::canonical::are_canonical_pairs"
	testb	%al, %al
	je	.LBB1_36
.LBB1_19:
	leaq	(%r15,%r12), %rcx
	addq	$5, %rcx
	jmp	.LBB1_5
.LBB1_33:
	movb	$1, %al
	jmp	.LBB1_34
.LBB1_36:
	xorl	%eax, %eax
.LBB1_34:
	popq	%rbx
	popq	%r12
	popq	%r13
	popq	%r14
	popq	%r15
	retq
.Lfunc_end1:
	.size	"amqp_in_place::canonical::are_canonical_values", .Lfunc_end1-"amqp_in_place::canonical::are_canonical_values"
	.section	".rodata.amqp_in_place::canonical::are_canonical_values","a",@progbits
	.p2align	2, 0x0
.LJTI1_0:
	.long	.LBB1_15-.LJTI1_0
	.long	.LBB1_35-.LJTI1_0
	.long	.LBB1_34-.LJTI1_0
	.long	.LBB1_13-.LJTI1_0
	.long	.LBB1_34-.LJTI1_0
	.long	.LBB1_20-.LJTI1_0
	.long	.LBB1_34-.LJTI1_0
	.long	.LBB1_34-.LJTI1_0
	.long	.LBB1_31-.LJTI1_0
	.long	.LBB1_34-.LJTI1_0
	.long	.LBB1_34-.LJTI1_0
	.long	.LBB1_29-.LJTI1_0
	.long	.LBB1_34-.LJTI1_0
	.long	.LBB1_34-.LJTI1_0
	.long	.LBB1_34-.LJTI1_0
	.long	.LBB1_34-.LJTI1_0
	.long	.LBB1_34-.LJTI1_0
	.long	.LBB1_34-.LJTI1_0
	.long	.LBB1_24-.LJTI1_0
	.long	.LBB1_29-.LJTI1_0
	.long	.LBB1_27-.LJTI1_0
	.long	.LBB1_5-.LJTI1_0
	.long	.LBB1_34-.LJTI1_0
	.long	.LBB1_34-.LJTI1_0
	.long	.LBB1_34-.LJTI1_0
	.long	.LBB1_34-.LJTI1_0
	.long	.LBB1_34-.LJTI1_0
	.long	.LBB1_34-.LJTI1_0
	.long	.LBB1_34-.LJTI1_0
	.long	.LBB1_34-.LJTI1_0
	.long	.LBB1_34-.LJTI1_0
	.long	.LBB1_34-.LJTI1_0
	.long	.LBB1_34-.LJTI1_0
	.long	.LBB1_35-.LJTI1_0
	.long	.LBB1_34-.LJTI1_0
	.long	.LBB1_29-.LJTI1_0
	.long	.LBB1_34-.LJTI1_0
	.long	.LBB1_31-.LJTI1_0
	.long	.LBB1_34-.LJTI1_0
	.long	.LBB1_34-.LJTI1_0
	.long	.LBB1_31-.LJTI1_0
	.long	.LBB1_34-.LJTI1_0
	.long	.LBB1_34-.LJTI1_0
	.long	.LBB1_29-.LJTI1_0
	.long	.LBB1_34-.LJTI1_0
	.long	.LBB1_34-.LJTI1_0
	.long	.LBB1_34-.LJTI1_0
	.long	.LBB1_34-.LJTI1_0
	.long	.LBB1_34-.LJTI1_0
	.long	.LBB1_34-.LJTI1_0
	.long	.LBB1_27-.LJTI1_0
	.long	.LBB1_35-.LJTI1_0
	.long	.LBB1_27-.LJTI1_0
	.long	.LBB1_34-.LJTI1_0
	.long	.LBB1_34-.LJTI1_0
	.long	.LBB1_24-.LJTI1_0

	.section	".text.amqp_in_place::canonical::are_canonical_pairs","ax",@progbits
	.p2align	4
	.type	"amqp_in_place::canonical::are_canonical_pairs",@function
"amqp_in_place::canonical::are_canonical_pairs":
	pushq	%rbp
	pushq	%r15
	pushq	%r14
	pushq	%r13
	pushq	%r12
	pushq	%rbx
	subq	$24, %rsp
	testq	%rsi, %rsi
	je	.LBB2_71
	movq	%rsi, %r13
	movq	%rdx, 16(%rsp)
	leaq	-1(%rdx), %rax
	movq	%rax, 8(%rsp)
	xorl	%r15d, %r15d
	xorl	%r12d, %r12d
	xorl	%eax, %eax
	.p2align	4
.LBB2_2:
	movq	%r15, %rcx
	decq	%r13
	movzbl	(%rdi), %r15d
	movq	%r13, %r14
	subq	%r15, %r14
	jb	.LBB2_70
	movq	%r12, %rdx
	leaq	1(%rdi), %r12
	testb	$1, %al
	je	.LBB2_16
	cmpq	%rcx, %r15
	movq	%rcx, %rax
	cmovbq	%r15, %rax
	xorl	%esi, %esi
	cmpq	$64, %rax
	jb	.LBB2_8
	movq	%rax, %r8
	.p2align	4
.LBB2_6:
	movdqu	(%rdx,%rsi), %xmm0
	movdqu	16(%rdx,%rsi), %xmm1
	movdqu	32(%rdx,%rsi), %xmm2
	movdqu	48(%rdx,%rsi), %xmm3
	movdqu	1(%rdi,%rsi), %xmm4
	pcmpeqb	%xmm0, %xmm4
	movdqu	17(%rdi,%rsi), %xmm0
	pcmpeqb	%xmm1, %xmm0
	movdqu	33(%rdi,%rsi), %xmm1
	pcmpeqb	%xmm2, %xmm1
	pand	%xmm4, %xmm1
	movdqu	49(%rdi,%rsi), %xmm2
	pcmpeqb	%xmm3, %xmm2
	pand	%xmm0, %xmm2
	pand	%xmm1, %xmm2
	pmovmskb	%xmm2, %r9d
	cmpl	$65535, %r9d
	jne	.LBB2_8
	addq	$64, %rsi
	addq	$-64, %r8
	cmpq	$63, %r8
	ja	.LBB2_6
.LBB2_8:
	movq	%rax, %r8
	subq	%rsi, %r8
	cmpq	$8, %r8
	jb	.LBB2_11
	.p2align	4
.LBB2_9:
	movq	(%rdx,%rsi), %r9
	cmpq	(%r12,%rsi), %r9
	jne	.LBB2_11
	addq	$8, %rsi
	addq	$-8, %r8
	cmpq	$7, %r8
	ja	.LBB2_9
.LBB2_11:
	cmpq	%rax, %rsi
	jae	.LBB2_14
	.p2align	4
.LBB2_12:
	movzbl	(%rdx,%rsi), %r8d
	movzbl	(%r12,%rsi), %r9d
	cmpb	%r9b, %r8b
	jne	.LBB2_15
	incq	%rsi
	cmpq	%rsi, %rax
	jne	.LBB2_12
.LBB2_14:
	cmpq	%r15, %rcx
.LBB2_15:
	jae	.LBB2_70
.LBB2_16:
	cmpb	$7, %r15b
	ja	.LBB2_32
	testq	%r15, %r15
	je	.LBB2_33
	cmpb	$0, 1(%rdi)
	js	.LBB2_55
	cmpl	$1, %r15d
	je	.LBB2_33
	cmpb	$0, 2(%rdi)
	js	.LBB2_55
	cmpl	$2, %r15d
	je	.LBB2_33
	cmpb	$0, 3(%rdi)
	js	.LBB2_55
	cmpl	$3, %r15d
	je	.LBB2_33
	cmpb	$0, 4(%rdi)
	js	.LBB2_55
	cmpl	$4, %r15d
	je	.LBB2_33
	cmpb	$0, 5(%rdi)
	js	.LBB2_55
	cmpl	$5, %r15d
	je	.LBB2_33
	cmpb	$0, 6(%rdi)
	js	.LBB2_55
	cmpl	$6, %r15d
	je	.LBB2_33
	cmpb	$0, 7(%rdi)
	js	.LBB2_55
	cmpb	$7, %r15b
	je	.LBB2_33
	jmp	.LBB2_55
	.p2align	4
.LBB2_32:
	movq	%r12, %rdi
	movq	%r15, %rsi
	callq	"amqp_in_place::read::is_ascii_by_words"
	testb	%al, %al
	je	.LBB2_55
.LBB2_33:
	leaq	(%r12,%r15), %rbx
	testq	%r14, %r14
	je	.LBB2_39
	cmpq	$1, %r14
	jne	.LBB2_36
	movzbl	(%rbx), %ecx
	xorl	%eax, %eax
	jmp	.LBB2_37
	.p2align	4
.LBB2_36:
	movzbl	(%rbx), %ecx
	xorl	%eax, %eax
	cmpl	$116, %ecx
	je	.LBB2_44
.LBB2_37:
	cmpl	$76, %ecx
	je	.LBB2_72
	cmpl	$85, %ecx
	je	.LBB2_72
.LBB2_39:
	cmpq	%r15, %r13
	je	.LBB2_70
.LBB2_40:
	movzbl	(%rbx), %ecx
	xorl	%eax, %eax
	addl	$-65, %ecx
	cmpl	$55, %ecx
	ja	.LBB2_72
	leaq	1(%rbx), %rdi
	leaq	-1(%r14), %r13
	leaq	.LJTI2_0(%rip), %rdx
	movslq	(%rdx,%rcx,4), %rcx
	addq	%rdx, %rcx
	jmpq	*%rcx
.LBB2_42:
	cmpq	$8, %r13
	jb	.LBB2_70
	addq	$9, %rbx
	addq	$-9, %r14
	jmp	.LBB2_63
.LBB2_44:
	cmpb	$1, 1(%rbx)
	ja	.LBB2_72
	cmpq	%r15, %r13
	jne	.LBB2_40
	jmp	.LBB2_72
.LBB2_46:
	testq	%r13, %r13
	je	.LBB2_70
	addq	$2, %rbx
	addq	$-2, %r14
	jmp	.LBB2_63
.LBB2_48:
	cmpq	$4, %r13
	jb	.LBB2_70
	addq	$5, %rbx
	addq	$-5, %r14
	jmp	.LBB2_63
.LBB2_50:
	cmpq	$2, %r13
	jb	.LBB2_70
	addq	$3, %rbx
	addq	$-3, %r14
	jmp	.LBB2_63
.LBB2_52:
	cmpq	$4, %r13
	jb	.LBB2_70
	movl	(%rdi), %eax
	bswapl	%eax
	addq	$-5, %r14
	movq	%r14, %r13
	subq	%rax, %r13
	jb	.LBB2_70
	leaq	(%rbx,%rax), %rdi
	addq	$5, %rdi
	movb	$1, %al
	testq	%r13, %r13
	jne	.LBB2_2
	jmp	.LBB2_72
.LBB2_55:
	movq	%r12, %rdi
	movq	%r15, %rsi
	callq	"amqp_in_place::read::is_utf8"
	testb	%al, %al
	jne	.LBB2_33
	jmp	.LBB2_70
.LBB2_56:
	cmpq	$4, %r13
	jb	.LBB2_70
	movl	(%rdi), %ebp
	bswapl	%ebp
	addq	$-5, %r14
	xorl	%eax, %eax
	movq	%r14, %r13
	subq	%rbp, %r13
	jb	.LBB2_72
	cmpq	$0, 16(%rsp)
	je	.LBB2_72
	leaq	5(%rbx), %rdi
	movq	%rbp, %rsi
	movq	8(%rsp), %rdx
	callq	"amqp_in_place::canonical::are_canonical_pairs"
	testb	%al, %al
	je	.LBB2_70
	leaq	(%rbx,%rbp), %rdi
	addq	$5, %rdi
	movb	$1, %al
	testq	%r13, %r13
	jne	.LBB2_2
	jmp	.LBB2_72
.LBB2_61:
	leaq	-1(%r14), %rax
	cmpq	$5, %rax
	jb	.LBB2_70
	addq	$6, %rbx
	addq	$-6, %r14
	.p2align	4
.LBB2_63:
	movq	%rbx, %rdi
	movq	%r14, %r13
.LBB2_64:
	movb	$1, %al
	testq	%r13, %r13
	jne	.LBB2_2
	jmp	.LBB2_72
.LBB2_65:
	cmpq	$4, %r13
	jb	.LBB2_70
	movl	(%rdi), %ebp
	bswapl	%ebp
	addq	$-5, %r14
	xorl	%eax, %eax
	movq	%r14, %r13
	subq	%rbp, %r13
	jb	.LBB2_72
	cmpq	$0, 16(%rsp)
	je	.LBB2_72
	leaq	5(%rbx), %rdi
	movq	%rbp, %rsi
	movq	8(%rsp), %rdx
	callq	"amqp_in_place::canonical::are_canonical_values"
	testb	%al, %al
	je	.LBB2_70
	leaq	(%rbx,%rbp), %rdi
	addq	$5, %rdi
	movb	$1, %al
	testq	%r13, %r13
	jne	.LBB2_2
	jmp	.LBB2_72
.LBB2_70:
	xorl	%eax, %eax
	jmp	.LBB2_72
.LBB2_71:
	movb	$1, %al
.LBB2_72:
	addq	$24, %rsp
	popq	%rbx
	popq	%r12
	popq	%r13
	popq	%r14
	popq	%r15
	popq	%rbp
	retq
.Lfunc_end2:
	.size	"amqp_in_place::canonical::are_canonical_pairs", .Lfunc_end2-"amqp_in_place::canonical::are_canonical_pairs"
	.section	".rodata.amqp_in_place::canonical::are_canonical_pairs","a",@progbits
	.p2align	2, 0x0
.LJTI2_0:
	.long	.LBB2_65-.LJTI2_0
	.long	.LBB2_46-.LJTI2_0
	.long	.LBB2_72-.LJTI2_0
	.long	.LBB2_61-.LJTI2_0
	.long	.LBB2_72-.LJTI2_0
	.long	.LBB2_56-.LJTI2_0
	.long	.LBB2_72-.LJTI2_0
	.long	.LBB2_72-.LJTI2_0
	.long	.LBB2_48-.LJTI2_0
	.long	.LBB2_72-.LJTI2_0
	.long	.LBB2_72-.LJTI2_0
	.long	.LBB2_42-.LJTI2_0
	.long	.LBB2_72-.LJTI2_0
	.long	.LBB2_72-.LJTI2_0
	.long	.LBB2_72-.LJTI2_0
	.long	.LBB2_72-.LJTI2_0
	.long	.LBB2_72-.LJTI2_0
	.long	.LBB2_72-.LJTI2_0
	.long	.LBB2_52-.LJTI2_0
	.long	.LBB2_42-.LJTI2_0
	.long	.LBB2_50-.LJTI2_0
	.long	.LBB2_64-.LJTI2_0
	.long	.LBB2_72-.LJTI2_0
	.long	.LBB2_72-.LJTI2_0
	.long	.LBB2_72-.LJTI2_0
	.long	.LBB2_72-.LJTI2_0
	.long	.LBB2_72-.LJTI2_0
	.long	.LBB2_72-.LJTI2_0
	.long	.LBB2_72-.LJTI2_0
	.long	.LBB2_72-.LJTI2_0
	.long	.LBB2_72-.LJTI2_0
	.long	.LBB2_72-.LJTI2_0
	.long	.LBB2_72-.LJTI2_0
	.long	.LBB2_46-.LJTI2_0
	.long	.LBB2_72-.LJTI2_0
	.long	.LBB2_42-.LJTI2_0
	.long	.LBB2_72-.LJTI2_0
	.long	.LBB2_48-.LJTI2_0
	.long	.LBB2_72-.LJTI2_0
	.long	.LBB2_72-.LJTI2_0
	.long	.LBB2_48-.LJTI2_0
	.long	.LBB2_72-.LJTI2_0
	.long	.LBB2_72-.LJTI2_0
	.long	.LBB2_42-.LJTI2_0
	.long	.LBB2_72-.LJTI2_0
	.long	.LBB2_72-.LJTI2_0
	.long	.LBB2_72-.LJTI2_0
	.long	.LBB2_72-.LJTI2_0
	.long	.LBB2_72-.LJTI2_0
	.long	.LBB2_72-.LJTI2_0
	.long	.LBB2_50-.LJTI2_0
	.long	.LBB2_46-.LJTI2_0
	.long	.LBB2_50-.LJTI2_0
	.long	.LBB2_72-.LJTI2_0
	.long	.LBB2_72-.LJTI2_0
	.long	.LBB2_52-.LJTI2_0

	.section	".text.amqp_in_place::read::is_ascii_by_words","ax",@progbits
	.p2align	4
	.type	"amqp_in_place::read::is_ascii_by_words",@function
"amqp_in_place::read::is_ascii_by_words":
	subq	$24, %rsp
	movq	%rdi, 8(%rsp)
	movq	%rsi, 16(%rsp)
	cmpq	$64, %rsi
	ja	.LBB3_6
	cmpq	$32, %rsi
	jb	.LBB3_3
	movdqu	(%rdi), %xmm0
	movdqu	16(%rdi), %xmm1
	movdqu	-32(%rdi,%rsi), %xmm2
	por	%xmm0, %xmm2
	movdqu	-16(%rdi,%rsi), %xmm0
	por	%xmm1, %xmm0
	por	%xmm2, %xmm0
	pshufd	$238, %xmm0, %xmm1
	por	%xmm0, %xmm1
	movq	%xmm1, %rax
	movabsq	$-9187201950435737472, %rcx
	testq	%rcx, %rax
	je	.LBB3_5
.LBB3_6:
	leaq	8(%rsp), %rdi
	callq	"core::slice::words::any_by_first::<#52f9edcae2f82f51>"
	xorb	$1, %al
	addq	$24, %rsp
	retq
.LBB3_3:
	leaq	-8(%rsi), %rcx
	cmpq	$8, %rcx
	movl	$8, %eax
	cmovbq	%rcx, %rax
	movq	(%rdi,%rax), %rax
	orq	(%rdi), %rax
	cmpq	$16, %rcx
	movl	$16, %edx
	cmovbq	%rcx, %rdx
	orq	(%rdi,%rdx), %rax
	orq	-8(%rdi,%rsi), %rax
	movabsq	$-9187201950435737472, %rcx
	testq	%rcx, %rax
	jne	.LBB3_6
.LBB3_5:
	movb	$1, %al
	addq	$24, %rsp
	retq
.Lfunc_end3:
	.size	"amqp_in_place::read::is_ascii_by_words", .Lfunc_end3-"amqp_in_place::read::is_ascii_by_words"

	.section	".text.core::str::ascii::slice+u8::is_ascii","ax",@progbits
	.p2align	4
	.type	"core::str::ascii::slice+u8::is_ascii",@function
"core::str::ascii::slice+u8::is_ascii":
	subq	$24, %rsp
	movq	%rdi, 8(%rsp)
	movq	%rsi, 16(%rsp)
	cmpq	$7, %rsi
	ja	.LBB4_15
	testq	%rsi, %rsi
	je	.LBB4_19
	cmpb	$0, (%rdi)
	js	.LBB4_22
	movq	%rsi, %rax
	cmpq	$1, %rsi
	je	.LBB4_28
	cmpb	$0, 1(%rdi)
	js	.LBB4_23
	movq	%rsi, %rax
	cmpq	$2, %rsi
	je	.LBB4_28
	cmpb	$0, 2(%rdi)
	js	.LBB4_24
	movq	%rsi, %rax
	cmpq	$3, %rsi
	je	.LBB4_28
	cmpb	$0, 3(%rdi)
	js	.LBB4_25
	movq	%rsi, %rax
	cmpq	$4, %rsi
	je	.LBB4_28
	cmpb	$0, 4(%rdi)
	js	.LBB4_26
	movq	%rsi, %rax
	cmpq	$5, %rsi
	je	.LBB4_28
	cmpb	$0, 5(%rdi)
	js	.LBB4_27
	movq	%rsi, %rax
	cmpq	$6, %rsi
	je	.LBB4_28
	cmpb	$0, 6(%rdi)
	movl	$6, %eax
	cmovnsq	%rsi, %rax
	jmp	.LBB4_28
.LBB4_15:
	cmpq	$64, %rsi
	ja	.LBB4_18
	cmpq	$32, %rsi
	jb	.LBB4_20
	movdqu	(%rdi), %xmm0
	movdqu	16(%rdi), %xmm1
	movdqu	-32(%rdi,%rsi), %xmm2
	por	%xmm0, %xmm2
	movdqu	-16(%rdi,%rsi), %xmm0
	por	%xmm1, %xmm0
	por	%xmm2, %xmm0
	pshufd	$238, %xmm0, %xmm1
	por	%xmm0, %xmm1
	movq	%xmm1, %rax
	movabsq	$-9187201950435737472, %rcx
	testq	%rcx, %rax
	jne	.LBB4_18
.LBB4_19:
	xorl	%eax, %eax
	xorb	$1, %al
	addq	$24, %rsp
	retq
.LBB4_20:
	leaq	-8(%rsi), %rcx
	cmpq	$8, %rcx
	movl	$8, %eax
	cmovbq	%rcx, %rax
	movq	(%rdi,%rax), %rax
	orq	(%rdi), %rax
	cmpq	$16, %rcx
	movl	$16, %edx
	cmovbq	%rcx, %rdx
	orq	(%rdi,%rdx), %rax
	orq	-8(%rdi,%rsi), %rax
	movabsq	$-9187201950435737472, %rcx
	testq	%rcx, %rax
	je	.LBB4_19
.LBB4_18:
	leaq	8(%rsp), %rdi
	callq	"core::slice::words::any_by_first::<#52f9edcae2f82f51>"
	xorb	$1, %al
	addq	$24, %rsp
	retq
.LBB4_22:
	xorl	%eax, %eax
	jmp	.LBB4_28
.LBB4_23:
	movl	$1, %eax
	jmp	.LBB4_28
.LBB4_24:
	movl	$2, %eax
	jmp	.LBB4_28
.LBB4_25:
	movl	$3, %eax
	jmp	.LBB4_28
.LBB4_26:
	movl	$4, %eax
	jmp	.LBB4_28
.LBB4_27:
	movl	$5, %eax
.LBB4_28:
	cmpq	%rsi, %rax
	setb	%al
	xorb	$1, %al
	addq	$24, %rsp
	retq
.Lfunc_end4:
	.size	"core::str::ascii::slice+u8::is_ascii", .Lfunc_end4-"core::str::ascii::slice+u8::is_ascii"

	.section	".text.core::slice::words::any_by_first::<#52f9edcae2f82f51>","ax",@progbits
	.p2align	4
	.type	"core::slice::words::any_by_first::<#52f9edcae2f82f51>",@function
"core::slice::words::any_by_first::<#52f9edcae2f82f51>":
	pushq	%rbx
	movq	%rsi, %rbx
	xorl	%esi, %esi
	movq	%rbx, %rdx
	callq	"core::slice::words::first::<#52f9edcae2f82f51>"
	cmpq	%rbx, %rax
	setb	%al
	popq	%rbx
	retq
.Lfunc_end5:
	.size	"core::slice::words::any_by_first::<#52f9edcae2f82f51>", .Lfunc_end5-"core::slice::words::any_by_first::<#52f9edcae2f82f51>"

	.section	".text.core::slice::words::first::<#52f9edcae2f82f51>","ax",@progbits
	.p2align	4
	.type	"core::slice::words::first::<#52f9edcae2f82f51>",@function
"core::slice::words::first::<#52f9edcae2f82f51>":
	pushq	%r15
	pushq	%r14
	pushq	%r12
	pushq	%rbx
	pushq	%rax
	movq	%rdx, %rbx
	movq	%rdi, %r14
	movq	%rdx, %rax
	subq	%rsi, %rax
	cmpq	$8, %rax
	jae	.LBB6_6
	cmpq	%rsi, %rbx
	jbe	.LBB6_21
	movq	(%r14), %rax
	.p2align	4
.LBB6_3:
	cmpb	$0, (%rax,%rsi)
	js	.LBB6_22
	incq	%rsi
	cmpq	%rsi, %rbx
	jne	.LBB6_3
	jmp	.LBB6_21
.LBB6_6:
	movabsq	$-9187201950435737472, %r15
	movq	(%r14), %r12
	movq	(%r12,%rsi), %rax
	andq	%r15, %rax
	je	.LBB6_10
	rep		bsfq	%rax, %rax
	shrl	$3, %eax
	addq	%rsi, %rax
	addq	$8, %rsi
	cmpq	%rsi, %rax
	movq	%rax, %rsi
	jb	.LBB6_22
	movq	%rbx, %rcx
	subq	%rax, %rcx
	cmpq	$32, %rcx
	jae	.LBB6_11
	jmp	.LBB6_13
.LBB6_10:
	addq	$8, %rsi
	movq	%rsi, %rax
	movq	%rbx, %rcx
	subq	%rax, %rcx
	cmpq	$32, %rcx
	jb	.LBB6_13
	.p2align	4
.LBB6_11:
	movdqu	(%r12,%rax), %xmm0
	movdqu	16(%r12,%rax), %xmm1
	por	%xmm0, %xmm1
	pshufd	$238, %xmm1, %xmm0
	por	%xmm1, %xmm0
	movq	%xmm0, %rcx
	testq	%r15, %rcx
	jne	.LBB6_13
	addq	$32, %rax
	movq	%r14, %rdi
	movq	%rax, %rsi
	movq	%rbx, %rdx
	callq	"core::slice::words::skip_far::<#52f9edcae2f82f51>"
	movq	%rbx, %rcx
	subq	%rax, %rcx
	cmpq	$31, %rcx
	ja	.LBB6_11
.LBB6_13:
	movq	%rbx, %rcx
	subq	%rax, %rcx
	jmp	.LBB6_16
	.p2align	4
.LBB6_14:
	rep		bsfq	%rdx, %rsi
	shrl	$3, %esi
	addq	%rax, %rsi
	addq	$8, %rax
	addq	$-8, %rcx
	cmpq	%rax, %rsi
	jb	.LBB6_22
.LBB6_16:
	cmpq	$9, %rcx
	jb	.LBB6_19
	movq	(%r12,%rax), %rdx
	andq	%r15, %rdx
	jne	.LBB6_14
	leaq	8(%rax), %rsi
	addq	$8, %rax
	addq	$-8, %rcx
	cmpq	%rax, %rsi
	jae	.LBB6_16
	jmp	.LBB6_22
.LBB6_19:
	andq	-8(%r12,%rbx), %r15
	je	.LBB6_21
	addq	$-8, %rbx
	rep		bsfq	%r15, %rsi
	shrl	$3, %esi
	addq	%rbx, %rsi
	jmp	.LBB6_22
.LBB6_21:
	movq	%rbx, %rsi
.LBB6_22:
	movq	%rsi, %rax
	addq	$8, %rsp
	popq	%rbx
	popq	%r12
	popq	%r14
	popq	%r15
	retq
.Lfunc_end6:
	.size	"core::slice::words::first::<#52f9edcae2f82f51>", .Lfunc_end6-"core::slice::words::first::<#52f9edcae2f82f51>"

	.section	".text.core::slice::words::skip_far::<#52f9edcae2f82f51>","ax",@progbits
	.p2align	4
	.type	"core::slice::words::skip_far::<#52f9edcae2f82f51>",@function
"core::slice::words::skip_far::<#52f9edcae2f82f51>":
	movq	%rsi, %rax
	subq	%rsi, %rdx
	cmpq	$64, %rdx
	jb	.LBB7_4
	movq	(%rdi), %rcx
	.p2align	4
.LBB7_2:
	movdqu	(%rcx,%rax), %xmm0
	movdqu	16(%rcx,%rax), %xmm1
	movdqu	32(%rcx,%rax), %xmm2
	por	%xmm0, %xmm2
	movdqu	48(%rcx,%rax), %xmm0
	por	%xmm1, %xmm0
	por	%xmm2, %xmm0
	pshufd	$238, %xmm0, %xmm1
	por	%xmm0, %xmm1
	movq	%xmm1, %rsi
	movabsq	$-9187201950435737472, %rdi
	testq	%rdi, %rsi
	jne	.LBB7_4
	addq	$64, %rax
	addq	$-64, %rdx
	cmpq	$63, %rdx
	ja	.LBB7_2
.LBB7_4:
	retq
.Lfunc_end7:
	.size	"core::slice::words::skip_far::<#52f9edcae2f82f51>", .Lfunc_end7-"core::slice::words::skip_far::<#52f9edcae2f82f51>"

	.section	.rodata.cst16,"aM",@progbits,16
	.p2align	4, 0x0
.LCPI8_0:
	.zero	16,240
.LCPI8_1:
	.zero	16,192
.LCPI8_2:
	.zero	16,128
.LCPI8_3:
	.zero	16,224
.LCPI8_4:
	.zero	16,160
.LCPI8_5:
	.zero	16,144
.LCPI8_6:
	.zero	16,237
.LCPI8_7:
	.zero	16,244
.LCPI8_8:
	.zero	16,127
.LCPI8_9:
	.zero	16,254
.LCPI8_10:
	.zero	16,1
.LCPI8_11:
	.zero	16,96
.LCPI8_12:
	.zero	16,112
.LCPI8_13:
	.byte	255
	.byte	255
	.byte	255
	.byte	255
	.byte	255
	.byte	255
	.byte	255
	.byte	255
	.byte	255
	.byte	255
	.byte	255
	.byte	255
	.byte	255
	.byte	239
	.byte	223
	.byte	191
.LCPI8_14:
	.long	255
	.long	0
	.long	0
	.long	0
.LCPI8_15:
	.byte	0
	.byte	255
	.byte	255
	.byte	255
	.byte	255
	.byte	255
	.byte	255
	.byte	255
	.byte	255
	.byte	255
	.byte	255
	.byte	255
	.byte	255
	.byte	0
	.byte	0
	.byte	0
.LCPI8_16:
	.byte	255
	.byte	255
	.byte	255
	.byte	255
	.byte	255
	.byte	0
	.byte	0
	.byte	0
	.byte	0
	.byte	0
	.byte	0
	.byte	0
	.byte	0
	.byte	255
	.byte	255
	.byte	255
.LCPI8_17:
	.byte	255
	.byte	255
	.byte	255
	.byte	255
	.byte	255
	.byte	255
	.byte	255
	.byte	255
	.byte	255
	.byte	255
	.byte	255
	.byte	255
	.byte	255
	.byte	0
	.byte	255
	.byte	255
.LCPI8_18:
	.byte	255
	.byte	255
	.byte	255
	.byte	255
	.byte	255
	.byte	255
	.byte	255
	.byte	255
	.byte	255
	.byte	255
	.byte	255
	.byte	255
	.byte	255
	.byte	255
	.byte	0
	.byte	255
.LCPI8_19:
	.byte	255
	.byte	255
	.byte	255
	.byte	255
	.byte	255
	.byte	255
	.byte	255
	.byte	255
	.byte	255
	.byte	255
	.byte	255
	.byte	255
	.byte	255
	.byte	255
	.byte	255
	.byte	0
	.section	".text.unlikely.amqp_in_place::read::is_utf8","ax",@progbits
	.p2align	4
	.type	"amqp_in_place::read::is_utf8",@function
"amqp_in_place::read::is_utf8":
	subq	$728, %rsp
	movq	%rsi, %rdx
	movq	%rdi, %rsi
	pxor	%xmm3, %xmm3
	cmpq	$64, %rdx
	jb	.LBB8_1
	movq	%rdx, %rcx
	negq	%rcx
	xorl	%eax, %eax
	movq	%rsi, %rdi
	.p2align	4
.LBB8_3:
	movdqu	(%rdi), %xmm0
	movdqu	16(%rdi), %xmm1
	por	%xmm0, %xmm1
	movdqu	32(%rdi), %xmm0
	movdqu	48(%rdi), %xmm2
	por	%xmm0, %xmm2
	por	%xmm1, %xmm2
	pmovmskb	%xmm2, %r8d
	testl	%r8d, %r8d
	jne	.LBB8_4
	addq	$64, %rdi
	addq	$64, %rcx
	leaq	(%rdx,%rax), %r8
	addq	$-64, %r8
	addq	$-64, %rax
	cmpq	$63, %r8
	ja	.LBB8_3
	addq	%rax, %rdx
	negq	%rax
	pxor	%xmm0, %xmm0
	movdqa	%xmm0, 192(%rsp)
	xorl	%edi, %edi
	movdqa	%xmm0, 144(%rsp)
	movdqa	%xmm0, 176(%rsp)
	movdqa	%xmm0, 160(%rsp)
	movdqa	%xmm0, 32(%rsp)
	movdqa	%xmm0, (%rsp)
	movdqa	%xmm0, 48(%rsp)
	movdqa	%xmm0, 16(%rsp)
	movdqa	%xmm0, 112(%rsp)
	jmp	.LBB8_12
.LBB8_1:
	xorl	%eax, %eax
	pxor	%xmm0, %xmm0
	movdqa	%xmm0, 192(%rsp)
	movdqa	%xmm0, 144(%rsp)
	movdqa	%xmm0, 176(%rsp)
	movdqa	%xmm0, 160(%rsp)
	movdqa	%xmm0, 32(%rsp)
	movdqa	%xmm0, (%rsp)
	movdqa	%xmm0, 48(%rsp)
	movdqa	%xmm0, 16(%rsp)
	movdqa	%xmm0, 112(%rsp)
	xorl	%edi, %edi
	jmp	.LBB8_12
.LBB8_4:
	movq	%rcx, %r8
	negq	%r8
	negq	%rax
	pxor	%xmm2, %xmm2
	xorl	%edx, %edx
	pxor	%xmm10, %xmm10
	pxor	%xmm13, %xmm13
	pxor	%xmm15, %xmm15
	pxor	%xmm12, %xmm12
	pxor	%xmm3, %xmm3
	pxor	%xmm7, %xmm7
	pxor	%xmm5, %xmm5
	pxor	%xmm6, %xmm6
	jmp	.LBB8_5
	.p2align	4
.LBB8_7:
	movdqa	%xmm4, %xmm12
	movdqa	%xmm4, %xmm0
	psrldq	$15, %xmm0
	movdqa	%xmm8, 256(%rsp)
	movdqa	%xmm8, %xmm10
	pslldq	$1, %xmm10
	por	%xmm0, %xmm10
	movdqa	%xmm8, %xmm0
	psrldq	$15, %xmm0
	movdqa	%xmm9, %xmm1
	pslldq	$1, %xmm1
	por	%xmm0, %xmm1
	movdqa	%xmm9, %xmm0
	movdqa	%xmm9, %xmm13
	psrldq	$15, %xmm0
	movdqa	%xmm11, %xmm14
	pslldq	$1, %xmm14
	por	%xmm0, %xmm14
	movdqa	%xmm4, %xmm0
	pslldq	$1, %xmm0
	movdqa	%xmm2, (%rsp)
	movdqa	(%rsp), %xmm9
	psrldq	$15, %xmm9
	por	%xmm0, %xmm9
	movdqa	%xmm7, 144(%rsp)
	movdqa	.LCPI8_1(%rip), %xmm7
	movdqa	%xmm10, %xmm0
	pmaxub	%xmm7, %xmm0
	movdqa	%xmm5, 176(%rsp)
	movdqa	%xmm0, %xmm5
	movdqa	%xmm1, %xmm0
	pmaxub	%xmm7, %xmm0
	pcmpeqb	%xmm1, %xmm0
	movdqa	%xmm1, %xmm8
	movdqa	%xmm14, %xmm1
	pmaxub	%xmm7, %xmm1
	pcmpeqb	%xmm14, %xmm1
	movdqa	%xmm9, %xmm2
	pmaxub	%xmm7, %xmm2
	pcmpeqb	%xmm9, %xmm2
	movdqa	%xmm3, 192(%rsp)
	movdqa	%xmm7, %xmm3
	movdqa	%xmm7, %xmm4
	movdqa	%xmm7, %xmm15
	movdqa	%xmm12, 400(%rsp)
	pcmpgtb	%xmm12, %xmm15
	pcmpgtb	%xmm11, %xmm3
	pcmpgtb	%xmm13, %xmm4
	movdqa	%xmm13, 592(%rsp)
	movdqa	%xmm15, 96(%rsp)
	pxor	%xmm2, %xmm15
	movdqa	%xmm15, 240(%rsp)
	movdqa	%xmm3, 80(%rsp)
	pxor	%xmm1, %xmm3
	movdqa	%xmm3, 48(%rsp)
	movdqa	%xmm4, 128(%rsp)
	pxor	%xmm0, %xmm4
	movdqa	%xmm4, 32(%rsp)
	movdqa	.LCPI8_0(%rip), %xmm15
	pand	%xmm15, %xmm12
	movdqa	%xmm12, 16(%rsp)
	movdqa	%xmm11, %xmm0
	pand	%xmm15, %xmm0
	movdqa	%xmm0, 560(%rsp)
	pand	%xmm15, %xmm13
	movdqa	%xmm13, 544(%rsp)
	movdqa	256(%rsp), %xmm4
	movdqa	%xmm4, %xmm0
	pand	%xmm15, %xmm0
	movdqa	%xmm0, 576(%rsp)
	movdqa	%xmm7, %xmm0
	pcmpgtb	%xmm9, %xmm0
	movdqa	%xmm0, 528(%rsp)
	movdqa	%xmm7, %xmm0
	pcmpgtb	%xmm14, %xmm0
	movdqa	%xmm0, 512(%rsp)
	movdqa	%xmm7, %xmm0
	pcmpgtb	%xmm8, %xmm0
	movdqa	%xmm0, 496(%rsp)
	movdqa	%xmm7, %xmm1
	movdqa	%xmm7, %xmm3
	pcmpgtb	%xmm10, %xmm1
	pcmpeqb	%xmm10, %xmm5
	movdqa	%xmm5, 448(%rsp)
	movdqa	.LCPI8_3(%rip), %xmm13
	movdqa	%xmm9, %xmm0
	pcmpeqb	%xmm13, %xmm0
	movdqa	%xmm0, 480(%rsp)
	movdqa	%xmm14, %xmm0
	pcmpeqb	%xmm13, %xmm0
	movdqa	%xmm0, 464(%rsp)
	movdqa	%xmm8, %xmm0
	pcmpeqb	%xmm13, %xmm0
	movdqa	%xmm0, 432(%rsp)
	pcmpeqb	%xmm10, %xmm13
	movdqa	%xmm9, %xmm0
	pcmpeqb	%xmm15, %xmm0
	movdqa	%xmm0, 224(%rsp)
	movdqa	%xmm14, %xmm0
	pcmpeqb	%xmm15, %xmm0
	movdqa	%xmm0, 64(%rsp)
	movdqa	%xmm8, %xmm0
	pcmpeqb	%xmm15, %xmm0
	movdqa	%xmm0, 416(%rsp)
	pcmpeqb	%xmm10, %xmm15
	movdqa	%xmm11, 112(%rsp)
	movdqa	.LCPI8_6(%rip), %xmm11
	movdqa	%xmm9, %xmm12
	pcmpeqb	%xmm11, %xmm12
	movdqa	%xmm14, %xmm0
	pcmpeqb	%xmm11, %xmm0
	movdqa	%xmm0, 368(%rsp)
	movdqa	%xmm8, %xmm0
	pcmpeqb	%xmm11, %xmm0
	movdqa	%xmm0, 352(%rsp)
	pcmpeqb	%xmm10, %xmm11
	movdqa	%xmm9, 384(%rsp)
	movdqa	%xmm9, 336(%rsp)
	movdqa	.LCPI8_9(%rip), %xmm0
	pand	%xmm0, %xmm9
	movdqa	%xmm14, %xmm7
	movdqa	%xmm14, 320(%rsp)
	pand	%xmm0, %xmm14
	movdqa	%xmm6, 160(%rsp)
	movdqa	%xmm8, %xmm6
	movdqa	%xmm8, 304(%rsp)
	pand	%xmm0, %xmm8
	movdqa	%xmm10, %xmm2
	movdqa	%xmm10, 288(%rsp)
	pand	%xmm0, %xmm2
	pcmpeqb	%xmm3, %xmm2
	movdqa	%xmm2, 208(%rsp)
	pcmpeqb	%xmm3, %xmm8
	movdqa	%xmm8, 272(%rsp)
	pcmpeqb	%xmm3, %xmm14
	pcmpeqb	%xmm3, %xmm9
	pcmpgtb	%xmm4, %xmm3
	movdqa	%xmm3, %xmm8
	pxor	448(%rsp), %xmm3
	movdqa	.LCPI8_2(%rip), %xmm2
	pand	%xmm2, %xmm8
	pand	%xmm1, %xmm8
	psubusb	%xmm1, %xmm3
	movdqa	128(%rsp), %xmm1
	pand	%xmm2, %xmm1
	movdqa	496(%rsp), %xmm0
	pand	%xmm0, %xmm1
	movdqa	%xmm1, 128(%rsp)
	movdqa	32(%rsp), %xmm1
	psubusb	%xmm0, %xmm1
	movdqa	%xmm1, 32(%rsp)
	movdqa	80(%rsp), %xmm1
	pand	%xmm2, %xmm1
	movdqa	512(%rsp), %xmm0
	pand	%xmm0, %xmm1
	movdqa	%xmm1, 80(%rsp)
	movdqa	48(%rsp), %xmm1
	psubusb	%xmm0, %xmm1
	movdqa	%xmm1, 48(%rsp)
	movdqa	96(%rsp), %xmm0
	pand	%xmm2, %xmm0
	movdqa	528(%rsp), %xmm4
	pand	%xmm4, %xmm0
	movdqa	%xmm0, 96(%rsp)
	movdqa	240(%rsp), %xmm1
	psubusb	%xmm4, %xmm1
	movdqa	%xmm1, 240(%rsp)
	movdqa	.LCPI8_4(%rip), %xmm2
	pand	%xmm2, %xmm13
	movdqa	432(%rsp), %xmm4
	pand	%xmm2, %xmm4
	movdqa	464(%rsp), %xmm0
	pand	%xmm2, %xmm0
	movdqa	480(%rsp), %xmm1
	pand	%xmm2, %xmm1
	movdqa	.LCPI8_5(%rip), %xmm2
	pand	%xmm2, %xmm15
	por	%xmm13, %xmm15
	movdqa	416(%rsp), %xmm13
	pand	%xmm2, %xmm13
	por	%xmm4, %xmm13
	movdqa	64(%rsp), %xmm5
	pand	%xmm2, %xmm5
	por	%xmm0, %xmm5
	movdqa	224(%rsp), %xmm0
	pand	%xmm2, %xmm0
	por	%xmm1, %xmm0
	movdqa	%xmm0, 224(%rsp)
	pcmpeqd	%xmm4, %xmm4
	pxor	%xmm4, %xmm12
	por	%xmm2, %xmm12
	movdqa	%xmm12, 64(%rsp)
	movdqa	368(%rsp), %xmm12
	pxor	%xmm4, %xmm12
	por	%xmm2, %xmm12
	movdqa	352(%rsp), %xmm0
	pxor	%xmm4, %xmm0
	por	%xmm2, %xmm0
	pxor	%xmm4, %xmm11
	por	%xmm2, %xmm11
	movdqa	.LCPI8_7(%rip), %xmm1
	pcmpeqb	%xmm1, %xmm10
	movdqa	.LCPI8_8(%rip), %xmm2
	pand	%xmm2, %xmm10
	pandn	%xmm11, %xmm10
	pcmpeqb	%xmm1, %xmm6
	pand	%xmm2, %xmm6
	pandn	%xmm0, %xmm6
	pcmpeqb	%xmm1, %xmm7
	pand	%xmm2, %xmm7
	pandn	%xmm12, %xmm7
	movdqa	384(%rsp), %xmm0
	pcmpeqb	%xmm1, %xmm0
	pand	%xmm2, %xmm0
	pandn	64(%rsp), %xmm0
	movdqa	16(%rsp), %xmm2
	movdqa	224(%rsp), %xmm4
	psubusb	%xmm2, %xmm4
	psubusb	%xmm0, %xmm2
	movdqa	%xmm2, 16(%rsp)
	movdqa	560(%rsp), %xmm12
	psubusb	%xmm12, %xmm5
	movdqa	%xmm5, 64(%rsp)
	psubusb	%xmm7, %xmm12
	movdqa	544(%rsp), %xmm7
	psubusb	%xmm7, %xmm13
	psubusb	%xmm6, %xmm7
	movdqa	576(%rsp), %xmm6
	psubusb	%xmm6, %xmm15
	psubusb	%xmm10, %xmm6
	movdqa	288(%rsp), %xmm2
	psubusb	%xmm1, %xmm2
	por	%xmm8, %xmm2
	movdqa	304(%rsp), %xmm0
	psubusb	%xmm1, %xmm0
	por	128(%rsp), %xmm0
	movdqa	%xmm0, %xmm11
	movdqa	320(%rsp), %xmm0
	psubusb	%xmm1, %xmm0
	por	80(%rsp), %xmm0
	movdqa	%xmm0, %xmm5
	movdqa	336(%rsp), %xmm0
	psubusb	%xmm1, %xmm0
	por	96(%rsp), %xmm0
	movdqa	.LCPI8_10(%rip), %xmm1
	movdqa	208(%rsp), %xmm10
	pand	%xmm1, %xmm10
	por	%xmm2, %xmm10
	por	%xmm3, %xmm10
	por	%xmm6, %xmm10
	por	%xmm15, %xmm10
	movdqa	%xmm10, 208(%rsp)
	movdqa	272(%rsp), %xmm8
	pand	%xmm1, %xmm8
	por	%xmm11, %xmm8
	por	32(%rsp), %xmm8
	por	%xmm7, %xmm8
	por	%xmm13, %xmm8
	pand	%xmm1, %xmm14
	por	%xmm5, %xmm14
	por	48(%rsp), %xmm14
	por	%xmm12, %xmm14
	por	64(%rsp), %xmm14
	pand	%xmm1, %xmm9
	por	%xmm0, %xmm9
	por	240(%rsp), %xmm9
	por	16(%rsp), %xmm9
	por	%xmm4, %xmm9
	movdqa	400(%rsp), %xmm11
	movdqa	%xmm11, %xmm1
	psrldq	$14, %xmm1
	movdqa	256(%rsp), %xmm13
	movdqa	%xmm13, %xmm0
	pslldq	$2, %xmm0
	por	%xmm1, %xmm0
	movdqa	%xmm13, %xmm1
	psrldq	$14, %xmm1
	movdqa	592(%rsp), %xmm15
	movdqa	%xmm15, %xmm5
	pslldq	$2, %xmm5
	por	%xmm1, %xmm5
	movdqa	%xmm15, %xmm1
	psrldq	$14, %xmm1
	movdqa	112(%rsp), %xmm10
	movdqa	%xmm10, %xmm6
	pslldq	$2, %xmm6
	por	%xmm1, %xmm6
	movdqa	%xmm11, %xmm1
	pslldq	$2, %xmm1
	movdqa	(%rsp), %xmm7
	psrldq	$14, %xmm7
	por	%xmm1, %xmm7
	movdqa	.LCPI8_11(%rip), %xmm1
	psubusb	%xmm1, %xmm7
	psubusb	%xmm1, %xmm6
	psubusb	%xmm1, %xmm5
	psubusb	%xmm1, %xmm0
	movdqa	%xmm11, %xmm2
	psrldq	$13, %xmm2
	movdqa	%xmm13, %xmm1
	pslldq	$3, %xmm1
	por	%xmm2, %xmm1
	movdqa	%xmm13, %xmm3
	psrldq	$13, %xmm3
	movdqa	%xmm15, %xmm2
	pslldq	$3, %xmm2
	por	%xmm3, %xmm2
	movdqa	%xmm15, %xmm3
	psrldq	$13, %xmm3
	movdqa	%xmm10, %xmm4
	pslldq	$3, %xmm4
	por	%xmm3, %xmm4
	movdqa	%xmm11, %xmm3
	pslldq	$3, %xmm3
	movdqa	(%rsp), %xmm12
	psrldq	$13, %xmm12
	movdqa	%xmm12, (%rsp)
	movdqa	(%rsp), %xmm12
	por	%xmm3, %xmm12
	movdqa	%xmm12, (%rsp)
	movdqa	.LCPI8_12(%rip), %xmm3
	movdqa	(%rsp), %xmm12
	psubusb	%xmm3, %xmm12
	movdqa	%xmm12, (%rsp)
	movdqa	(%rsp), %xmm12
	por	%xmm7, %xmm12
	movdqa	%xmm12, (%rsp)
	movdqa	144(%rsp), %xmm7
	psubusb	%xmm3, %xmm4
	por	%xmm6, %xmm4
	movdqa	160(%rsp), %xmm6
	psubusb	%xmm3, %xmm2
	por	%xmm5, %xmm2
	movdqa	176(%rsp), %xmm5
	psubusb	%xmm3, %xmm1
	movdqa	192(%rsp), %xmm3
	por	%xmm0, %xmm1
	movdqa	(%rsp), %xmm0
	movdqa	.LCPI8_2(%rip), %xmm12
	pand	%xmm12, %xmm0
	movdqa	%xmm0, (%rsp)
	movdqa	(%rsp), %xmm0
	pxor	%xmm9, %xmm0
	movdqa	%xmm0, (%rsp)
	movdqa	(%rsp), %xmm0
	pand	%xmm12, %xmm4
	pxor	%xmm14, %xmm4
	pand	%xmm12, %xmm2
	pxor	%xmm8, %xmm2
	pand	%xmm12, %xmm1
	pxor	208(%rsp), %xmm1
	pcmpeqd	%xmm8, %xmm8
	psubusb	%xmm8, %xmm11
	psubusb	%xmm8, %xmm13
	movdqa	%xmm10, %xmm9
	movdqa	%xmm10, %xmm12
	psubusb	.LCPI8_13(%rip), %xmm12
	psubusb	%xmm8, %xmm15
	movdqa	%xmm11, %xmm10
	movdqa	%xmm9, %xmm11
.LBB8_8:
	por	%xmm4, %xmm6
	por	%xmm2, %xmm5
	por	%xmm1, %xmm7
	por	%xmm0, %xmm3
	leaq	(%rdx,%r8), %r9
	addq	$-64, %r9
	addq	$-64, %rdx
	addq	$64, %rdi
	movdqa	%xmm11, %xmm2
	cmpq	$63, %r9
	jbe	.LBB8_9
.LBB8_5:
	movdqu	(%rdi), %xmm1
	movdqu	16(%rdi), %xmm8
	movdqu	32(%rdi), %xmm9
	movdqu	48(%rdi), %xmm11
	movdqa	%xmm8, %xmm0
	movdqa	%xmm1, %xmm4
	por	%xmm1, %xmm0
	movdqa	%xmm9, %xmm1
	por	%xmm11, %xmm1
	por	%xmm0, %xmm1
	pmovmskb	%xmm1, %r9d
	testl	%r9d, %r9d
	jne	.LBB8_7
	movdqa	%xmm10, %xmm0
	movdqa	%xmm13, %xmm1
	movdqa	%xmm15, %xmm2
	movdqa	%xmm12, %xmm4
	pxor	%xmm10, %xmm10
	pxor	%xmm13, %xmm13
	pxor	%xmm15, %xmm15
	pxor	%xmm12, %xmm12
	jmp	.LBB8_8
.LBB8_9:
	movdqa	%xmm12, 16(%rsp)
	movdqa	%xmm10, 32(%rsp)
	movdqa	%xmm15, 48(%rsp)
	movdqa	%xmm13, (%rsp)
	movdqa	%xmm11, 112(%rsp)
	movdqa	%xmm7, 144(%rsp)
	movdqa	%xmm6, 160(%rsp)
	movdqa	%xmm5, 176(%rsp)
	movdqa	%xmm3, 192(%rsp)
	movq	%rdx, %rdi
	negq	%rdi
	subq	%rcx, %rdx
	pxor	%xmm3, %xmm3
.LBB8_12:
	addq	%rax, %rsi
	addq	%rdi, %rsi
	movdqa	%xmm3, 656(%rsp)
	movdqa	%xmm3, 640(%rsp)
	movdqa	%xmm3, 624(%rsp)
	movdqa	%xmm3, 608(%rsp)
	leaq	608(%rsp), %rdi
	callq	memcpy@PLT
	movdqa	608(%rsp), %xmm6
	movdqa	624(%rsp), %xmm7
	movdqa	640(%rsp), %xmm5
	movd	657(%rsp), %xmm0
	movd	656(%rsp), %xmm1
	pand	.LCPI8_14(%rip), %xmm1
	movq	661(%rsp), %xmm2
	psllq	$8, %xmm0
	pand	.LCPI8_15(%rip), %xmm0
	por	%xmm1, %xmm0
	pslldq	$5, %xmm2
	movdqa	.LCPI8_16(%rip), %xmm15
	pand	%xmm15, %xmm0
	pandn	%xmm2, %xmm15
	por	%xmm0, %xmm15
	movzbl	669(%rsp), %eax
	movd	%eax, %xmm0
	pslldq	$13, %xmm0
	movdqa	.LCPI8_17(%rip), %xmm8
	pandn	%xmm0, %xmm8
	por	%xmm15, %xmm8
	movdqa	.LCPI8_18(%rip), %xmm12
	movdqa	%xmm8, %xmm0
	pand	%xmm12, %xmm0
	movzbl	670(%rsp), %eax
	movd	%eax, %xmm1
	pslldq	$14, %xmm1
	pandn	%xmm1, %xmm12
	por	%xmm0, %xmm12
	movdqa	.LCPI8_19(%rip), %xmm0
	pand	%xmm12, %xmm0
	movzbl	671(%rsp), %eax
	movd	%eax, %xmm2
	pslldq	$15, %xmm2
	por	%xmm0, %xmm2
	movdqa	%xmm7, %xmm0
	por	%xmm6, %xmm0
	por	%xmm5, %xmm0
	por	%xmm2, %xmm0
	pmovmskb	%xmm0, %eax
	testl	%eax, %eax
	movdqa	(%rsp), %xmm10
	movdqa	48(%rsp), %xmm11
	movdqa	32(%rsp), %xmm1
	movdqa	16(%rsp), %xmm9
	je	.LBB8_14
	movdqa	%xmm6, %xmm1
	psrldq	$15, %xmm1
	movdqa	%xmm7, %xmm4
	pslldq	$1, %xmm4
	por	%xmm1, %xmm4
	movdqa	%xmm7, %xmm1
	movdqa	%xmm7, 128(%rsp)
	psrldq	$15, %xmm1
	movdqa	%xmm5, %xmm3
	pslldq	$1, %xmm3
	por	%xmm1, %xmm3
	movdqa	%xmm6, %xmm1
	pslldq	$1, %xmm1
	movdqa	112(%rsp), %xmm11
	psrldq	$15, %xmm11
	por	%xmm1, %xmm11
	movdqa	%xmm5, %xmm1
	psrldq	$15, %xmm1
	pslldq	$1, %xmm12
	por	%xmm1, %xmm12
	movdqa	%xmm12, %xmm1
	movdqa	.LCPI8_1(%rip), %xmm12
	movdqa	%xmm12, %xmm0
	pcmpgtb	%xmm1, %xmm0
	movdqa	%xmm0, %xmm10
	movdqa	%xmm0, 592(%rsp)
	movdqa	%xmm1, %xmm0
	pmaxub	%xmm12, %xmm1
	pcmpeqb	%xmm0, %xmm1
	movdqa	%xmm0, %xmm13
	movdqa	%xmm12, %xmm0
	pcmpgtb	%xmm2, %xmm0
	movdqa	%xmm0, %xmm9
	pand	.LCPI8_2(%rip), %xmm10
	pand	%xmm0, %xmm10
	movdqa	%xmm10, 240(%rsp)
	pxor	%xmm1, %xmm9
	movdqa	%xmm9, (%rsp)
	movdqa	%xmm11, %xmm1
	pmaxub	%xmm12, %xmm1
	pcmpeqb	%xmm11, %xmm1
	movdqa	%xmm12, %xmm9
	pcmpgtb	%xmm6, %xmm9
	movdqa	%xmm9, 16(%rsp)
	pxor	%xmm1, %xmm9
	movdqa	%xmm9, 48(%rsp)
	movdqa	%xmm3, %xmm1
	pmaxub	%xmm12, %xmm1
	pcmpeqb	%xmm3, %xmm1
	movdqa	%xmm12, %xmm9
	movdqa	%xmm5, 224(%rsp)
	pcmpgtb	%xmm5, %xmm9
	movdqa	%xmm9, 96(%rsp)
	pxor	%xmm1, %xmm9
	movdqa	%xmm9, 32(%rsp)
	movdqa	%xmm4, %xmm0
	pmaxub	%xmm12, %xmm0
	movdqa	.LCPI8_0(%rip), %xmm14
	movdqa	%xmm2, %xmm1
	pand	%xmm14, %xmm1
	movdqa	%xmm1, 576(%rsp)
	movdqa	%xmm6, %xmm1
	pand	%xmm14, %xmm1
	movdqa	%xmm1, 64(%rsp)
	pand	%xmm14, %xmm5
	movdqa	%xmm5, 208(%rsp)
	movdqa	%xmm7, %xmm1
	pand	%xmm14, %xmm1
	movdqa	%xmm1, 256(%rsp)
	movdqa	%xmm12, %xmm1
	pcmpgtb	%xmm11, %xmm1
	movdqa	%xmm1, 544(%rsp)
	movdqa	%xmm12, %xmm1
	pcmpgtb	%xmm3, %xmm1
	movdqa	%xmm1, 528(%rsp)
	movdqa	%xmm12, %xmm7
	pcmpgtb	%xmm4, %xmm7
	pcmpeqb	%xmm4, %xmm0
	movdqa	.LCPI8_3(%rip), %xmm5
	movdqa	%xmm13, %xmm1
	pcmpeqb	%xmm5, %xmm1
	movdqa	%xmm1, 512(%rsp)
	movdqa	%xmm11, %xmm1
	pcmpeqb	%xmm5, %xmm1
	movdqa	%xmm1, 496(%rsp)
	movdqa	%xmm3, %xmm1
	pcmpeqb	%xmm5, %xmm1
	movdqa	%xmm1, 480(%rsp)
	pcmpeqb	%xmm4, %xmm5
	movdqa	%xmm5, %xmm1
	movdqa	%xmm13, %xmm5
	pcmpeqb	%xmm14, %xmm5
	movdqa	%xmm5, 464(%rsp)
	movdqa	%xmm11, %xmm5
	pcmpeqb	%xmm14, %xmm5
	movdqa	%xmm5, 448(%rsp)
	movdqa	%xmm3, %xmm5
	pcmpeqb	%xmm14, %xmm5
	movdqa	%xmm5, 432(%rsp)
	pcmpeqb	%xmm4, %xmm14
	movdqa	.LCPI8_6(%rip), %xmm5
	movdqa	%xmm13, %xmm9
	pcmpeqb	%xmm5, %xmm9
	movdqa	%xmm9, 336(%rsp)
	movdqa	%xmm11, %xmm9
	pcmpeqb	%xmm5, %xmm9
	movdqa	%xmm9, 384(%rsp)
	movdqa	%xmm3, %xmm9
	pcmpeqb	%xmm5, %xmm9
	movdqa	%xmm9, 368(%rsp)
	pcmpeqb	%xmm4, %xmm5
	movdqa	%xmm13, 400(%rsp)
	movdqa	%xmm13, 320(%rsp)
	movdqa	%xmm6, 352(%rsp)
	movdqa	.LCPI8_9(%rip), %xmm6
	pand	%xmm6, %xmm13
	movdqa	%xmm11, %xmm10
	movdqa	%xmm11, 304(%rsp)
	pand	%xmm6, %xmm11
	movdqa	%xmm8, 416(%rsp)
	movdqa	%xmm3, %xmm8
	movdqa	%xmm3, 288(%rsp)
	pand	%xmm6, %xmm3
	movdqa	%xmm4, %xmm9
	movdqa	%xmm2, 560(%rsp)
	movdqa	%xmm4, 272(%rsp)
	pand	%xmm6, %xmm4
	pcmpeqb	%xmm12, %xmm4
	movdqa	%xmm4, 80(%rsp)
	pcmpeqb	%xmm12, %xmm3
	movdqa	%xmm3, 704(%rsp)
	pcmpeqb	%xmm12, %xmm11
	movdqa	%xmm11, 688(%rsp)
	pcmpeqb	%xmm12, %xmm13
	movdqa	%xmm13, 672(%rsp)
	pcmpgtb	128(%rsp), %xmm12
	movdqa	%xmm12, %xmm6
	pxor	%xmm0, %xmm12
	movdqa	.LCPI8_2(%rip), %xmm0
	pand	%xmm0, %xmm6
	pand	%xmm7, %xmm6
	psubusb	%xmm7, %xmm12
	movdqa	96(%rsp), %xmm3
	pand	%xmm0, %xmm3
	movdqa	528(%rsp), %xmm2
	pand	%xmm2, %xmm3
	movdqa	%xmm3, 96(%rsp)
	movdqa	32(%rsp), %xmm7
	psubusb	%xmm2, %xmm7
	movdqa	%xmm7, 32(%rsp)
	movdqa	16(%rsp), %xmm3
	pand	%xmm0, %xmm3
	movdqa	544(%rsp), %xmm2
	pand	%xmm2, %xmm3
	movdqa	%xmm3, 16(%rsp)
	movdqa	48(%rsp), %xmm0
	psubusb	%xmm2, %xmm0
	movdqa	%xmm0, 48(%rsp)
	movdqa	(%rsp), %xmm0
	psubusb	592(%rsp), %xmm0
	movdqa	%xmm0, (%rsp)
	movdqa	%xmm15, %xmm7
	movdqa	.LCPI8_4(%rip), %xmm3
	movdqa	%xmm1, %xmm0
	pand	%xmm3, %xmm0
	movdqa	480(%rsp), %xmm2
	pand	%xmm3, %xmm2
	movdqa	496(%rsp), %xmm1
	pand	%xmm3, %xmm1
	movdqa	512(%rsp), %xmm4
	pand	%xmm3, %xmm4
	movdqa	.LCPI8_5(%rip), %xmm3
	pand	%xmm3, %xmm14
	por	%xmm0, %xmm14
	movdqa	432(%rsp), %xmm0
	pand	%xmm3, %xmm0
	por	%xmm2, %xmm0
	movdqa	%xmm0, %xmm11
	movdqa	448(%rsp), %xmm2
	pand	%xmm3, %xmm2
	por	%xmm1, %xmm2
	movdqa	464(%rsp), %xmm0
	pand	%xmm3, %xmm0
	por	%xmm4, %xmm0
	movdqa	%xmm0, %xmm4
	pcmpeqd	%xmm0, %xmm0
	movdqa	336(%rsp), %xmm1
	pxor	%xmm0, %xmm1
	movdqa	384(%rsp), %xmm13
	pxor	%xmm0, %xmm13
	movdqa	368(%rsp), %xmm15
	pxor	%xmm0, %xmm15
	pxor	%xmm0, %xmm5
	por	%xmm3, %xmm1
	por	%xmm3, %xmm13
	por	%xmm3, %xmm15
	por	%xmm3, %xmm5
	movdqa	.LCPI8_7(%rip), %xmm0
	pcmpeqb	%xmm0, %xmm9
	movdqa	.LCPI8_8(%rip), %xmm3
	pand	%xmm3, %xmm9
	pandn	%xmm5, %xmm9
	pcmpeqb	%xmm0, %xmm8
	pand	%xmm3, %xmm8
	pandn	%xmm15, %xmm8
	pcmpeqb	%xmm0, %xmm10
	pand	%xmm3, %xmm10
	pandn	%xmm13, %xmm10
	movdqa	400(%rsp), %xmm5
	pcmpeqb	%xmm0, %xmm5
	pand	%xmm3, %xmm5
	pandn	%xmm1, %xmm5
	movdqa	576(%rsp), %xmm1
	psubusb	%xmm1, %xmm4
	psubusb	%xmm5, %xmm1
	por	%xmm4, %xmm1
	movdqa	64(%rsp), %xmm3
	psubusb	%xmm3, %xmm2
	psubusb	%xmm10, %xmm3
	movdqa	208(%rsp), %xmm5
	movdqa	%xmm11, %xmm13
	psubusb	%xmm5, %xmm13
	psubusb	%xmm8, %xmm5
	movdqa	256(%rsp), %xmm8
	psubusb	%xmm8, %xmm14
	psubusb	%xmm9, %xmm8
	movdqa	272(%rsp), %xmm4
	psubusb	%xmm0, %xmm4
	por	%xmm6, %xmm4
	movdqa	%xmm4, %xmm11
	movdqa	288(%rsp), %xmm4
	psubusb	%xmm0, %xmm4
	por	96(%rsp), %xmm4
	movdqa	%xmm4, %xmm10
	movdqa	304(%rsp), %xmm4
	psubusb	%xmm0, %xmm4
	por	16(%rsp), %xmm4
	movdqa	%xmm4, %xmm9
	movdqa	320(%rsp), %xmm6
	psubusb	%xmm0, %xmm6
	movdqa	.LCPI8_10(%rip), %xmm0
	movdqa	80(%rsp), %xmm4
	pand	%xmm0, %xmm4
	por	%xmm11, %xmm4
	por	%xmm12, %xmm4
	por	%xmm8, %xmm4
	por	%xmm14, %xmm4
	movdqa	%xmm4, 80(%rsp)
	movdqa	704(%rsp), %xmm4
	pand	%xmm0, %xmm4
	por	%xmm10, %xmm4
	por	32(%rsp), %xmm4
	por	%xmm5, %xmm4
	por	%xmm13, %xmm4
	movdqa	688(%rsp), %xmm13
	pand	%xmm0, %xmm13
	por	%xmm9, %xmm13
	por	48(%rsp), %xmm13
	por	%xmm3, %xmm13
	por	%xmm2, %xmm13
	movdqa	672(%rsp), %xmm15
	pand	%xmm0, %xmm15
	por	%xmm6, %xmm15
	por	240(%rsp), %xmm15
	por	(%rsp), %xmm15
	por	%xmm1, %xmm15
	movdqa	352(%rsp), %xmm14
	movdqa	%xmm14, %xmm0
	psrldq	$14, %xmm0
	movdqa	128(%rsp), %xmm2
	movdqa	%xmm2, %xmm1
	pslldq	$2, %xmm1
	por	%xmm0, %xmm1
	movdqa	%xmm2, %xmm0
	movdqa	%xmm2, %xmm8
	psrldq	$14, %xmm0
	movdqa	224(%rsp), %xmm3
	movdqa	%xmm3, %xmm2
	pslldq	$2, %xmm2
	por	%xmm0, %xmm2
	movdqa	%xmm14, %xmm0
	pslldq	$2, %xmm0
	movdqa	112(%rsp), %xmm9
	movdqa	%xmm9, %xmm5
	psrldq	$14, %xmm5
	por	%xmm0, %xmm5
	movdqa	%xmm3, %xmm0
	movdqa	%xmm3, %xmm6
	psrldq	$14, %xmm0
	movdqa	416(%rsp), %xmm12
	pslldq	$2, %xmm12
	por	%xmm0, %xmm12
	movdqa	.LCPI8_11(%rip), %xmm0
	psubusb	%xmm0, %xmm12
	psubusb	%xmm0, %xmm5
	psubusb	%xmm0, %xmm2
	psubusb	%xmm0, %xmm1
	movdqa	%xmm14, %xmm0
	psrldq	$13, %xmm0
	movdqa	%xmm8, %xmm10
	pslldq	$3, %xmm10
	por	%xmm0, %xmm10
	psrldq	$13, %xmm8
	movdqa	%xmm3, %xmm11
	pslldq	$3, %xmm11
	por	%xmm8, %xmm11
	pslldq	$3, %xmm14
	movdqa	%xmm9, %xmm3
	psrldq	$13, %xmm3
	por	%xmm14, %xmm3
	psrldq	$13, %xmm6
	pslldq	$3, %xmm7
	por	%xmm6, %xmm7
	movdqa	.LCPI8_12(%rip), %xmm0
	psubusb	%xmm0, %xmm7
	por	%xmm12, %xmm7
	psubusb	%xmm0, %xmm3
	por	%xmm5, %xmm3
	psubusb	%xmm0, %xmm11
	por	%xmm2, %xmm11
	psubusb	%xmm0, %xmm10
	por	%xmm1, %xmm10
	movdqa	.LCPI8_2(%rip), %xmm0
	pand	%xmm0, %xmm7
	pxor	%xmm15, %xmm7
	pand	%xmm0, %xmm3
	pxor	%xmm13, %xmm3
	pand	%xmm0, %xmm11
	pxor	%xmm4, %xmm11
	pand	%xmm0, %xmm10
	movdqa	560(%rsp), %xmm0
	psubusb	.LCPI8_13(%rip), %xmm0
	pxor	80(%rsp), %xmm10
	por	%xmm7, %xmm0
	movdqa	%xmm3, %xmm1
	movdqa	%xmm0, %xmm9
.LBB8_14:
	por	144(%rsp), %xmm10
	por	192(%rsp), %xmm1
	por	%xmm10, %xmm1
	por	176(%rsp), %xmm11
	por	160(%rsp), %xmm9
	por	%xmm11, %xmm9
	por	%xmm1, %xmm9
	pxor	%xmm0, %xmm0
	pcmpeqb	%xmm9, %xmm0
	pmovmskb	%xmm0, %eax
	cmpl	$65535, %eax
	sete	%al
	addq	$728, %rsp
	retq
.Lfunc_end8:
	.size	"amqp_in_place::read::is_utf8", .Lfunc_end8-"amqp_in_place::read::is_utf8"

	.section	".text.amqp_c::input::Input::read_error","ax",@progbits
	.p2align	4
	.type	"amqp_c::input::Input::read_error",@function
"amqp_c::input::Input::read_error":
	pushq	%rbp
	pushq	%r15
	pushq	%r14
	pushq	%r13
	pushq	%r12
	pushq	%rbx
	subq	$120, %rsp
	movl	%edx, %ebx
	movq	%rsi, %r14
	movq	%rdi, (%rsp)
	testb	$1, 24(%rsi)
	movq	(%rsi), %rbp
	movq	8(%rsi), %r13
	movl	16(%rsi), %r15d
	movl	20(%rsi), %r12d
	jne	.LBB9_1
	movq	$0, 24(%rsp)
	cmpb	$2, %bl
	je	.LBB9_10
	leaq	32(%rsp), %rdi
	movq	%rbp, %rsi
	movq	%r13, %rdx
	movl	%r15d, %ecx
	movl	%r12d, %r8d
	callq	"amqp_in_place::read::read_in_place"
	cmpb	$0, 32(%rsp)
	je	.LBB9_6
.LBB9_10:
	movzbl	%bl, %ecx
	leaq	8(%rsp), %rdi
	movq	%rbp, %rsi
	movq	%r13, %rdx
	movl	%r15d, %r8d
	movl	%r12d, %r9d
	callq	"amqp_in_place::problems::search"
	movzbl	8(%rsp), %eax
	movq	16(%rsp), %rbx
	movzbl	24(%rsp), %r15d
	movzbl	25(%rsp), %r12d
	cmpb	$1, %al
	jne	.LBB9_24
	jmp	.LBB9_12
.LBB9_1:
	movq	$0, 48(%rsp)
	cmpb	$2, %bl
	sete	%al
	cmpq	$4, %r13
	setb	%cl
	orb	%al, %cl
	je	.LBB9_2
.LBB9_7:
	movzbl	%bl, %ecx
	leaq	32(%rsp), %rdi
	movq	%rbp, %rsi
	movq	%r13, %rdx
	movl	%r15d, %r8d
	movl	%r12d, %r9d
	callq	"amqp_in_place::problems::search_table"
	movzbl	32(%rsp), %eax
	movq	40(%rsp), %rbx
	movzbl	48(%rsp), %r15d
	movzbl	49(%rsp), %r12d
	cmpb	$1, %al
	je	.LBB9_12
.LBB9_24:
	xorps	%xmm0, %xmm0
	movq	(%rsp), %rax
	movups	%xmm0, 32(%rax)
	movups	%xmm0, 16(%rax)
	movups	%xmm0, (%rax)
.LBB9_25:
	addq	$120, %rsp
	popq	%rbx
	popq	%r12
	popq	%r13
	popq	%r14
	popq	%r15
	popq	%rbp
	retq
.LBB9_2:
	testq	%r12, %r12
	je	.LBB9_7
	movl	(%rbp), %esi
	bswapl	%esi
	leaq	5(%rsi), %rax
	cmpq	%r15, %rax
	ja	.LBB9_7
	leaq	-4(%r13), %rax
	cmpq	%rsi, %rax
	jb	.LBB9_7
	leaq	4(%rbp), %rdi
	leaq	-1(%r12), %rdx
	callq	"amqp_in_place::read::are_pairs"
	testb	%al, %al
	je	.LBB9_7
.LBB9_6:
	xorl	%eax, %eax
	xorl	%ebx, %ebx
	xorl	%r15d, %r15d
	xorl	%r12d, %r12d
	cmpb	$1, %al
	jne	.LBB9_24
.LBB9_12:
	movups	(%r14), %xmm0
	movups	16(%r14), %xmm1
	movaps	%xmm1, 96(%rsp)
	movaps	%xmm0, 80(%rsp)
	leaq	80(%rsp), %rdi
	callq	"amqp_c::input::Input::header"
	movzbl	%r15b, %ecx
	testq	%rbx, %rbx
	je	.LBB9_13
	leaq	".Lswitch.table.amqp_c::input::Input::read_error"(%rip), %rsi
	movq	(%rsi,%rcx,8), %rcx
.LBB9_22:
	xorl	%esi, %esi
.LBB9_23:
	movq	(%rsp), %r9
	movl	%r15d, %edi
	xorb	$2, %dil
	xorb	$2, %al
	xorl	%r8d, %r8d
	orb	%dil, %al
	cmovneq	%r8, %rdx
	testq	%rbx, %rbx
	cmovneq	%r8, %rdx
	testb	%r15b, %r15b
	movzbl	%r12b, %eax
	cmovnel	%r8d, %eax
	movq	$1, (%r9)
	movq	%rcx, 8(%r9)
	movq	%rsi, 16(%r9)
	movq	%rbx, 24(%r9)
	movq	%rdx, 32(%r9)
	movb	%al, 40(%r9)
	movl	$0, 41(%r9)
	movl	$0, 44(%r9)
	jmp	.LBB9_25
.LBB9_13:
	leaq	.LJTI9_0(%rip), %rsi
	movslq	(%rsi,%rcx,4), %rcx
	addq	%rsi, %rcx
	jmpq	*%rcx
.LBB9_20:
	movl	$1, %ecx
	jmp	.LBB9_22
.LBB9_17:
	movl	$4, %ecx
	jmp	.LBB9_22
.LBB9_15:
	xorl	%ecx, %ecx
	cmpb	$2, %al
	movl	$0, %esi
	cmoveq	%rdx, %rsi
	jmp	.LBB9_23
.LBB9_18:
	movl	$3, %ecx
	jmp	.LBB9_22
.LBB9_19:
	movl	$5, %ecx
	jmp	.LBB9_22
.LBB9_16:
	movl	$6, %ecx
	jmp	.LBB9_22
.LBB9_14:
	movl	$7, %ecx
	jmp	.LBB9_22
.Lfunc_end9:
	.size	"amqp_c::input::Input::read_error", .Lfunc_end9-"amqp_c::input::Input::read_error"
	.section	".rodata.amqp_c::input::Input::read_error","a",@progbits
	.p2align	2, 0x0
.LJTI9_0:
	.long	.LBB9_20-.LJTI9_0
	.long	.LBB9_19-.LJTI9_0
	.long	.LBB9_15-.LJTI9_0
	.long	.LBB9_18-.LJTI9_0
	.long	.LBB9_17-.LJTI9_0
	.long	.LBB9_16-.LJTI9_0
	.long	.LBB9_14-.LJTI9_0

	.section	".text.amqp_in_place::read::are_values","ax",@progbits
	.p2align	4
	.type	"amqp_in_place::read::are_values",@function
"amqp_in_place::read::are_values":
	pushq	%r15
	pushq	%r14
	pushq	%r13
	pushq	%r12
	pushq	%rbx
	testq	%rsi, %rsi
	je	.LBB10_30
	movq	%rdx, %rbx
	movq	%rdi, %r15
	leaq	-1(%rdx), %r14
	jmp	.LBB10_6
.LBB10_28:
	testq	%r13, %r13
	je	.LBB10_20
	addq	$2, %r15
	addq	$-2, %rsi
.LBB10_4:
	movq	%rsi, %r13
	movq	%r15, %rcx
.LBB10_5:
	movq	%r13, %rsi
	movq	%rcx, %r15
	testq	%r13, %r13
	je	.LBB10_30
.LBB10_6:
	movzbl	(%r15), %edx
	xorl	%eax, %eax
	addl	$-65, %edx
	cmpl	$55, %edx
	ja	.LBB10_31
	leaq	1(%r15), %rcx
	leaq	-1(%rsi), %r13
	leaq	.LJTI10_0(%rip), %rdi
	movslq	(%rdi,%rdx,4), %rdx
	addq	%rdi, %rdx
	jmpq	*%rdx
.LBB10_26:
	cmpq	$8, %r13
	jb	.LBB10_20
	addq	$9, %r15
	addq	$-9, %rsi
	jmp	.LBB10_4
.LBB10_2:
	cmpq	$4, %r13
	jb	.LBB10_20
	addq	$5, %r15
	addq	$-5, %rsi
	jmp	.LBB10_4
.LBB10_24:
	cmpq	$2, %r13
	jb	.LBB10_20
	addq	$3, %r15
	addq	$-3, %rsi
	jmp	.LBB10_4
.LBB10_21:
	cmpq	$5, %rsi
	jb	.LBB10_20
	movl	(%rcx), %eax
	bswapl	%eax
	addq	$-5, %rsi
	movq	%rsi, %r13
	subq	%rax, %r13
	jb	.LBB10_20
	leaq	(%r15,%rax), %rcx
	addq	$5, %rcx
	jmp	.LBB10_5
.LBB10_9:
	cmpq	$6, %rsi
	jb	.LBB10_20
	addq	$6, %r15
	addq	$-6, %rsi
	jmp	.LBB10_4
.LBB10_11:
	cmpq	$5, %rsi
	jb	.LBB10_20
	movl	(%rcx), %r12d
	bswapl	%r12d
	addq	$-5, %rsi
	xorl	%eax, %eax
	movq	%rsi, %r13
	subq	%r12, %r13
	jb	.LBB10_31
	testq	%rbx, %rbx
	je	.LBB10_31
	leaq	5(%r15), %rdi
	movq	%r12, %rsi
	movq	%r14, %rdx
	callq	"amqp_in_place::read::are_values"
	testb	%al, %al
	jne	.LBB10_15
	jmp	.LBB10_20
.LBB10_16:
	cmpq	$5, %rsi
	jb	.LBB10_20
	movl	(%rcx), %r12d
	bswapl	%r12d
	addq	$-5, %rsi
	xorl	%eax, %eax
	movq	%rsi, %r13
	subq	%r12, %r13
	jb	.LBB10_31
	testq	%rbx, %rbx
	je	.LBB10_31
	leaq	5(%r15), %rdi
	movq	%r12, %rsi
	movq	%r14, %rdx
	callq	"amqp_in_place::read::are_pairs"
	testb	%al, %al
	je	.LBB10_20
.LBB10_15:
	leaq	(%r15,%r12), %rcx
	addq	$5, %rcx
	jmp	.LBB10_5
.LBB10_30:
	movb	$1, %al
	jmp	.LBB10_31
.LBB10_20:
	xorl	%eax, %eax
.LBB10_31:
	popq	%rbx
	popq	%r12
	popq	%r13
	popq	%r14
	popq	%r15
	retq
.Lfunc_end10:
	.size	"amqp_in_place::read::are_values", .Lfunc_end10-"amqp_in_place::read::are_values"
	.section	".rodata.amqp_in_place::read::are_values","a",@progbits
	.p2align	2, 0x0
.LJTI10_0:
	.long	.LBB10_11-.LJTI10_0
	.long	.LBB10_28-.LJTI10_0
	.long	.LBB10_31-.LJTI10_0
	.long	.LBB10_9-.LJTI10_0
	.long	.LBB10_31-.LJTI10_0
	.long	.LBB10_16-.LJTI10_0
	.long	.LBB10_31-.LJTI10_0
	.long	.LBB10_31-.LJTI10_0
	.long	.LBB10_2-.LJTI10_0
	.long	.LBB10_31-.LJTI10_0
	.long	.LBB10_31-.LJTI10_0
	.long	.LBB10_26-.LJTI10_0
	.long	.LBB10_31-.LJTI10_0
	.long	.LBB10_31-.LJTI10_0
	.long	.LBB10_31-.LJTI10_0
	.long	.LBB10_31-.LJTI10_0
	.long	.LBB10_31-.LJTI10_0
	.long	.LBB10_31-.LJTI10_0
	.long	.LBB10_21-.LJTI10_0
	.long	.LBB10_26-.LJTI10_0
	.long	.LBB10_24-.LJTI10_0
	.long	.LBB10_5-.LJTI10_0
	.long	.LBB10_31-.LJTI10_0
	.long	.LBB10_31-.LJTI10_0
	.long	.LBB10_31-.LJTI10_0
	.long	.LBB10_31-.LJTI10_0
	.long	.LBB10_31-.LJTI10_0
	.long	.LBB10_31-.LJTI10_0
	.long	.LBB10_31-.LJTI10_0
	.long	.LBB10_31-.LJTI10_0
	.long	.LBB10_31-.LJTI10_0
	.long	.LBB10_31-.LJTI10_0
	.long	.LBB10_31-.LJTI10_0
	.long	.LBB10_28-.LJTI10_0
	.long	.LBB10_31-.LJTI10_0
	.long	.LBB10_26-.LJTI10_0
	.long	.LBB10_31-.LJTI10_0
	.long	.LBB10_2-.LJTI10_0
	.long	.LBB10_31-.LJTI10_0
	.long	.LBB10_31-.LJTI10_0
	.long	.LBB10_2-.LJTI10_0
	.long	.LBB10_31-.LJTI10_0
	.long	.LBB10_31-.LJTI10_0
	.long	.LBB10_26-.LJTI10_0
	.long	.LBB10_31-.LJTI10_0
	.long	.LBB10_31-.LJTI10_0
	.long	.LBB10_31-.LJTI10_0
	.long	.LBB10_31-.LJTI10_0
	.long	.LBB10_31-.LJTI10_0
	.long	.LBB10_31-.LJTI10_0
	.long	.LBB10_24-.LJTI10_0
	.long	.LBB10_28-.LJTI10_0
	.long	.LBB10_24-.LJTI10_0
	.long	.LBB10_31-.LJTI10_0
	.long	.LBB10_31-.LJTI10_0
	.long	.LBB10_21-.LJTI10_0

	.section	".text.amqp_in_place::read::are_pairs","ax",@progbits
	.p2align	4
	.type	"amqp_in_place::read::are_pairs",@function
"amqp_in_place::read::are_pairs":
	pushq	%r15
	pushq	%r14
	pushq	%r13
	pushq	%r12
	pushq	%rbx
	testq	%rsi, %rsi
	je	.LBB11_51
	movq	%rdx, %rbx
	movq	%rsi, %r14
	leaq	-1(%rdx), %r15
	jmp	.LBB11_6
.LBB11_2:
	cmpq	$4, %r14
	jb	.LBB11_41
	addq	$5, %r12
	addq	$-4, %r14
.LBB11_4:
	movq	%r12, %rdi
.LBB11_5:
	testq	%r14, %r14
	je	.LBB11_51
.LBB11_6:
	decq	%r14
	movzbl	(%rdi), %r13d
	cmpq	%r13, %r14
	jb	.LBB11_41
	leaq	1(%rdi), %r12
	cmpb	$7, %r13b
	ja	.LBB11_25
	testq	%r13, %r13
	je	.LBB11_26
	cmpb	$0, 1(%rdi)
	js	.LBB11_23
	cmpl	$1, %r13d
	je	.LBB11_26
	cmpb	$0, 2(%rdi)
	js	.LBB11_23
	cmpl	$2, %r13d
	je	.LBB11_26
	cmpb	$0, 3(%rdi)
	js	.LBB11_23
	cmpl	$3, %r13d
	je	.LBB11_26
	cmpb	$0, 4(%rdi)
	js	.LBB11_23
	cmpl	$4, %r13d
	je	.LBB11_26
	cmpb	$0, 5(%rdi)
	js	.LBB11_23
	cmpl	$5, %r13d
	je	.LBB11_26
	cmpb	$0, 6(%rdi)
	js	.LBB11_23
	cmpl	$6, %r13d
	je	.LBB11_26
	cmpb	$0, 7(%rdi)
	js	.LBB11_23
	cmpb	$7, %r13b
	je	.LBB11_26
.LBB11_23:
	movq	%r12, %rdi
	movq	%r13, %rsi
	callq	"amqp_in_place::read::is_utf8"
	movl	%eax, %ecx
	xorl	%eax, %eax
	cmpq	%r13, %r14
	je	.LBB11_52
	testb	%cl, %cl
	jne	.LBB11_27
	jmp	.LBB11_52
	.p2align	4
.LBB11_25:
	movq	%r12, %rdi
	movq	%r13, %rsi
	callq	"amqp_in_place::read::is_ascii_by_words"
	testb	%al, %al
	je	.LBB11_23
.LBB11_26:
	cmpq	%r13, %r14
	je	.LBB11_41
.LBB11_27:
	addq	%r13, %r12
	movzbl	(%r12), %ecx
	xorl	%eax, %eax
	addl	$-65, %ecx
	cmpl	$55, %ecx
	ja	.LBB11_52
	leaq	1(%r12), %rdi
	notq	%r13
	addq	%r13, %r14
	leaq	.LJTI11_0(%rip), %rdx
	movslq	(%rdx,%rcx,4), %rcx
	addq	%rdx, %rcx
	jmpq	*%rcx
.LBB11_47:
	cmpq	$8, %r14
	jb	.LBB11_41
	addq	$9, %r12
	addq	$-8, %r14
	jmp	.LBB11_4
.LBB11_49:
	testq	%r14, %r14
	je	.LBB11_41
	addq	$2, %r12
	decq	%r14
	jmp	.LBB11_4
.LBB11_45:
	cmpq	$2, %r14
	jb	.LBB11_41
	addq	$3, %r12
	addq	$-2, %r14
	jmp	.LBB11_4
.LBB11_42:
	cmpq	$4, %r14
	jb	.LBB11_41
	movl	(%rdi), %eax
	bswapl	%eax
	addq	$-4, %r14
	subq	%rax, %r14
	jb	.LBB11_41
	leaq	(%r12,%rax), %rdi
	addq	$5, %rdi
	jmp	.LBB11_5
.LBB11_30:
	cmpq	$5, %r14
	jb	.LBB11_41
	addq	$6, %r12
	addq	$-5, %r14
	jmp	.LBB11_4
.LBB11_32:
	cmpq	$4, %r14
	jb	.LBB11_41
	movl	(%rdi), %r13d
	bswapl	%r13d
	addq	$-4, %r14
	xorl	%eax, %eax
	subq	%r13, %r14
	jb	.LBB11_52
	testq	%rbx, %rbx
	je	.LBB11_52
	leaq	5(%r12), %rdi
	movq	%r13, %rsi
	movq	%r15, %rdx
	callq	"amqp_in_place::read::are_values"
	testb	%al, %al
	jne	.LBB11_36
	jmp	.LBB11_41
.LBB11_37:
	cmpq	$4, %r14
	jb	.LBB11_41
	movl	(%rdi), %r13d
	bswapl	%r13d
	addq	$-4, %r14
	xorl	%eax, %eax
	subq	%r13, %r14
	jb	.LBB11_52
	testq	%rbx, %rbx
	je	.LBB11_52
	leaq	5(%r12), %rdi
	movq	%r13, %rsi
	movq	%r15, %rdx
	callq	"amqp_in_place::read::are_pairs"
	testb	%al, %al
	je	.LBB11_41
.LBB11_36:
	leaq	(%r12,%r13), %rdi
	addq	$5, %rdi
	jmp	.LBB11_5
.LBB11_51:
	movb	$1, %al
	jmp	.LBB11_52
.LBB11_41:
	xorl	%eax, %eax
.LBB11_52:
	popq	%rbx
	popq	%r12
	popq	%r13
	popq	%r14
	popq	%r15
	retq
.Lfunc_end11:
	.size	"amqp_in_place::read::are_pairs", .Lfunc_end11-"amqp_in_place::read::are_pairs"
	.section	".rodata.amqp_in_place::read::are_pairs","a",@progbits
	.p2align	2, 0x0
.LJTI11_0:
	.long	.LBB11_32-.LJTI11_0
	.long	.LBB11_49-.LJTI11_0
	.long	.LBB11_52-.LJTI11_0
	.long	.LBB11_30-.LJTI11_0
	.long	.LBB11_52-.LJTI11_0
	.long	.LBB11_37-.LJTI11_0
	.long	.LBB11_52-.LJTI11_0
	.long	.LBB11_52-.LJTI11_0
	.long	.LBB11_2-.LJTI11_0
	.long	.LBB11_52-.LJTI11_0
	.long	.LBB11_52-.LJTI11_0
	.long	.LBB11_47-.LJTI11_0
	.long	.LBB11_52-.LJTI11_0
	.long	.LBB11_52-.LJTI11_0
	.long	.LBB11_52-.LJTI11_0
	.long	.LBB11_52-.LJTI11_0
	.long	.LBB11_52-.LJTI11_0
	.long	.LBB11_52-.LJTI11_0
	.long	.LBB11_42-.LJTI11_0
	.long	.LBB11_47-.LJTI11_0
	.long	.LBB11_45-.LJTI11_0
	.long	.LBB11_5-.LJTI11_0
	.long	.LBB11_52-.LJTI11_0
	.long	.LBB11_52-.LJTI11_0
	.long	.LBB11_52-.LJTI11_0
	.long	.LBB11_52-.LJTI11_0
	.long	.LBB11_52-.LJTI11_0
	.long	.LBB11_52-.LJTI11_0
	.long	.LBB11_52-.LJTI11_0
	.long	.LBB11_52-.LJTI11_0
	.long	.LBB11_52-.LJTI11_0
	.long	.LBB11_52-.LJTI11_0
	.long	.LBB11_52-.LJTI11_0
	.long	.LBB11_49-.LJTI11_0
	.long	.LBB11_52-.LJTI11_0
	.long	.LBB11_47-.LJTI11_0
	.long	.LBB11_52-.LJTI11_0
	.long	.LBB11_2-.LJTI11_0
	.long	.LBB11_52-.LJTI11_0
	.long	.LBB11_52-.LJTI11_0
	.long	.LBB11_2-.LJTI11_0
	.long	.LBB11_52-.LJTI11_0
	.long	.LBB11_52-.LJTI11_0
	.long	.LBB11_47-.LJTI11_0
	.long	.LBB11_52-.LJTI11_0
	.long	.LBB11_52-.LJTI11_0
	.long	.LBB11_52-.LJTI11_0
	.long	.LBB11_52-.LJTI11_0
	.long	.LBB11_52-.LJTI11_0
	.long	.LBB11_52-.LJTI11_0
	.long	.LBB11_45-.LJTI11_0
	.long	.LBB11_49-.LJTI11_0
	.long	.LBB11_45-.LJTI11_0
	.long	.LBB11_52-.LJTI11_0
	.long	.LBB11_52-.LJTI11_0
	.long	.LBB11_42-.LJTI11_0

	.section	".text.amqp_in_place::problems::search_table","ax",@progbits
	.p2align	4
	.type	"amqp_in_place::problems::search_table",@function
"amqp_in_place::problems::search_table":
	movq	%rdx, %rax
	cmpq	$-1, %rdx
	je	.LBB12_1
	movl	$5, %edx
	cmpq	$4, %rax
	jb	.LBB12_7
	movl	(%rsi), %edx
	bswapl	%edx
	addq	$5, %rdx
.LBB12_7:
	movl	%r8d, %r8d
	cmpq	%r8, %rdx
	jbe	.LBB12_2
	movq	$1, (%rdi)
	movq	$0, 8(%rdi)
	movw	$6, 16(%rdi)
	retq
.LBB12_1:
	xorl	%edx, %edx
.LBB12_2:
	pushq	%r14
	pushq	%rbx
	subq	$24, %rsp
	leaq	-1(%rdx), %r8
	movl	$1, %ebx
	cmpq	%r8, %rax
	jae	.LBB12_10
	movb	$2, %al
	jmp	.LBB12_4
.LBB12_10:
	xorps	%xmm0, %xmm0
	movaps	%xmm0, (%rsp)
	movq	$0, 16(%rsp)
	testl	%r9d, %r9d
	je	.LBB12_11
	movq	%rdi, %r14
	addq	$4, %rsi
	addq	$-5, %rdx
	decl	%r9d
	movzbl	%cl, %ecx
	movq	%rsp, %rdi
	movl	%r9d, %r8d
	callq	"amqp_in_place::problems::pairs"
	cmpb	$1, (%rsp)
	jne	.LBB12_14
	movzbl	17(%rsp), %edx
	movzbl	16(%rsp), %eax
	movq	8(%rsp), %rcx
	addq	$5, %rcx
	cmpq	$1, %rcx
	adcq	$-1, %rcx
	jmp	.LBB12_15
.LBB12_11:
	movb	$5, %al
.LBB12_4:
	xorl	%ecx, %ecx
	xorl	%edx, %edx
	jmp	.LBB12_16
.LBB12_14:
	xorl	%ebx, %ebx
	xorl	%ecx, %ecx
	xorl	%eax, %eax
	xorl	%edx, %edx
.LBB12_15:
	movq	%r14, %rdi
.LBB12_16:
	movq	%rbx, (%rdi)
	movq	%rcx, 8(%rdi)
	movb	%al, 16(%rdi)
	movb	%dl, 17(%rdi)
	addq	$24, %rsp
	popq	%rbx
	popq	%r14
	retq
.Lfunc_end12:
	.size	"amqp_in_place::problems::search_table", .Lfunc_end12-"amqp_in_place::problems::search_table"

	.section	".text.amqp_in_place::problems::payload","ax",@progbits
	.p2align	4
	.type	"amqp_in_place::problems::payload",@function
"amqp_in_place::problems::payload":
	leaq	-1(%r8), %rax
	cmpq	%rax, %rcx
	jae	.LBB13_2
	movq	$1, (%rdi)
	movq	$0, 8(%rdi)
	movw	$2, 16(%rdi)
	retq
.LBB13_2:
	pushq	%r14
	pushq	%rbx
	subq	$56, %rsp
	movl	80(%rsp), %eax
	xorps	%xmm0, %xmm0
	movaps	%xmm0, 32(%rsp)
	movq	$0, 48(%rsp)
	movaps	%xmm0, (%rsp)
	movq	$0, 16(%rsp)
	movzbl	%sil, %ecx
	leaq	.LJTI13_0(%rip), %rsi
	movslq	(%rsi,%rcx,4), %rcx
	addq	%rsi, %rcx
	jmpq	*%rcx
.LBB13_7:
	xorl	%eax, %eax
	xorl	%ecx, %ecx
	xorl	%edx, %edx
	xorl	%esi, %esi
.LBB13_19:
	xorl	%r9d, %r9d
	testb	%sil, %sil
	cmoveq	%r8, %rdx
	movzbl	%cl, %ecx
	cmovel	%r9d, %ecx
	movzbl	%al, %eax
	cmovel	%r9d, %eax
	movzbl	%sil, %esi
	movq	%rsi, (%rdi)
	movq	%rdx, 8(%rdi)
	movb	%cl, 16(%rdi)
	movb	%al, 17(%rdi)
	addq	$56, %rsp
	popq	%rbx
	popq	%r14
	retq
.LBB13_3:
	cmpb	$2, %r9b
	jne	.LBB13_7
	movzwl	(%rdx), %eax
	notl	%eax
	testl	$32895, %eax
	jmp	.LBB13_5
.LBB13_9:
	testl	%eax, %eax
	je	.LBB13_10
	movq	%rdi, %rbx
	addq	$4, %rdx
	movq	%r8, %r14
	addq	$-5, %r8
	decl	%eax
	movzbl	%r9b, %ecx
	leaq	32(%rsp), %rdi
	movq	%rdx, %rsi
	movq	%r8, %rdx
	movl	%eax, %r8d
	callq	"amqp_in_place::problems::values"
	cmpb	$1, 32(%rsp)
	jne	.LBB13_12
	movzbl	49(%rsp), %eax
	movzbl	48(%rsp), %ecx
	movq	40(%rsp), %rdx
	jmp	.LBB13_17
.LBB13_14:
	testl	%eax, %eax
	je	.LBB13_10
	movq	%rdi, %rbx
	addq	$4, %rdx
	movq	%r8, %r14
	addq	$-5, %r8
	decl	%eax
	movzbl	%r9b, %ecx
	movq	%rsp, %rdi
	movq	%rdx, %rsi
	movq	%r8, %rdx
	movl	%eax, %r8d
	callq	"amqp_in_place::problems::pairs"
	cmpb	$1, (%rsp)
	jne	.LBB13_12
	movzbl	17(%rsp), %eax
	movzbl	16(%rsp), %ecx
	movq	8(%rsp), %rdx
.LBB13_17:
	addq	$5, %rdx
	movb	$1, %sil
	jmp	.LBB13_18
.LBB13_6:
	cmpb	$2, %r9b
	jne	.LBB13_7
	movzwl	(%rdx), %eax
	notl	%eax
	testl	$61567, %eax
.LBB13_5:
	sete	%cl
	xorl	%eax, %eax
	xorl	%edx, %edx
	movl	%ecx, %esi
	jmp	.LBB13_19
.LBB13_10:
	movb	$5, %cl
	movb	$1, %sil
	xorl	%edx, %edx
	xorl	%eax, %eax
	jmp	.LBB13_19
.LBB13_12:
	xorl	%esi, %esi
	xorl	%edx, %edx
	xorl	%ecx, %ecx
	xorl	%eax, %eax
.LBB13_18:
	movq	%rbx, %rdi
	movq	%r14, %r8
	jmp	.LBB13_19
.Lfunc_end13:
	.size	"amqp_in_place::problems::payload", .Lfunc_end13-"amqp_in_place::problems::payload"
	.section	".rodata.amqp_in_place::problems::payload","a",@progbits
	.p2align	2, 0x0
.LJTI13_0:
	.long	.LBB13_7-.LJTI13_0
	.long	.LBB13_7-.LJTI13_0
	.long	.LBB13_7-.LJTI13_0
	.long	.LBB13_7-.LJTI13_0
	.long	.LBB13_7-.LJTI13_0
	.long	.LBB13_7-.LJTI13_0
	.long	.LBB13_7-.LJTI13_0
	.long	.LBB13_7-.LJTI13_0
	.long	.LBB13_7-.LJTI13_0
	.long	.LBB13_3-.LJTI13_0
	.long	.LBB13_6-.LJTI13_0
	.long	.LBB13_7-.LJTI13_0
	.long	.LBB13_7-.LJTI13_0
	.long	.LBB13_7-.LJTI13_0
	.long	.LBB13_9-.LJTI13_0
	.long	.LBB13_7-.LJTI13_0
	.long	.LBB13_14-.LJTI13_0
	.long	.LBB13_7-.LJTI13_0
	.long	.LBB13_7-.LJTI13_0

	.section	".text.amqp_in_place::problems::values","ax",@progbits
	.p2align	4
	.type	"amqp_in_place::problems::values",@function
"amqp_in_place::problems::values":
	pushq	%rbp
	pushq	%r15
	pushq	%r14
	pushq	%r13
	pushq	%r12
	pushq	%rbx
	subq	$24, %rsp
	movq	%rdi, %rbx
	xorps	%xmm0, %xmm0
	movaps	%xmm0, (%rsp)
	movq	$0, 16(%rsp)
	testq	%rdx, %rdx
	je	.LBB14_4
	movl	%r8d, %ebp
	movl	%ecx, %r14d
	movq	%rdx, %r15
	movq	%rsi, %r12
	xorl	%r13d, %r13d
	.p2align	4
.LBB14_2:
	leaq	(%r12,%r13), %rsi
	movq	%r15, %rdx
	subq	%r13, %rdx
	movzbl	%r14b, %ecx
	movq	%rsp, %rdi
	movl	%ebp, %r8d
	callq	"amqp_in_place::problems::value"
	cmpb	$0, (%rsp)
	movq	8(%rsp), %rax
	jne	.LBB14_6
	addq	%rax, %r13
	cmpq	%r15, %r13
	jb	.LBB14_2
.LBB14_4:
	xorps	%xmm0, %xmm0
	movups	%xmm0, (%rbx)
	movw	$0, 16(%rbx)
	jmp	.LBB14_5
.LBB14_6:
	movzwl	16(%rsp), %ecx
	addq	%r13, %rax
	movq	$1, (%rbx)
	movq	%rax, 8(%rbx)
	movw	%cx, 16(%rbx)
.LBB14_5:
	addq	$24, %rsp
	popq	%rbx
	popq	%r12
	popq	%r13
	popq	%r14
	popq	%r15
	popq	%rbp
	retq
.Lfunc_end14:
	.size	"amqp_in_place::problems::values", .Lfunc_end14-"amqp_in_place::problems::values"

	.section	".text.amqp_in_place::problems::value","ax",@progbits
	.p2align	4
	.type	"amqp_in_place::problems::value",@function
"amqp_in_place::problems::value":
	pushq	%rbx
	subq	$48, %rsp
	movq	%rdx, %rax
	movq	%rdi, %rbx
	xorps	%xmm0, %xmm0
	movaps	%xmm0, 16(%rsp)
	movq	$0, 32(%rsp)
	testq	%rdx, %rdx
	je	.LBB15_5
	movq	%rsi, %rdx
	movzbl	(%rsi), %esi
	incq	%rdx
	movzbl	%sil, %edi
	leal	-65(%rdi), %r9d
	cmpb	$2, %cl
	jne	.LBB15_6
	cmpl	$55, %r9d
	ja	.LBB15_21
	movl	$3, %r10d
	leaq	.LJTI15_1(%rip), %r11
	movslq	(%r11,%r9,4), %r9
	addq	%r11, %r9
	jmpq	*%r9
.LBB15_4:
	movb	$3, %sil
	jmp	.LBB15_35
.LBB15_5:
	movq	$1, (%rbx)
	movq	$0, 8(%rbx)
	movw	$2, 16(%rbx)
	addq	$48, %rsp
	popq	%rbx
	retq
.LBB15_6:
	cmpl	$55, %r9d
	ja	.LBB15_21
	leaq	.LJTI15_0(%rip), %r10
	movslq	(%r10,%r9,4), %r9
	addq	%r10, %r9
	jmpq	*%r9
.LBB15_8:
	movb	$7, %sil
	xorl	%r10d, %r10d
	addl	$-76, %edi
	cmpl	$39, %edi
	jbe	.LBB15_27
	jmp	.LBB15_35
.LBB15_9:
	movb	$9, %sil
	movl	$5, %r10d
	jmp	.LBB15_35
.LBB15_10:
	movb	$10, %sil
	movl	$9, %r10d
	jmp	.LBB15_35
.LBB15_11:
	movb	$13, %sil
	jmp	.LBB15_24
.LBB15_12:
	movb	$1, %sil
	jmp	.LBB15_34
.LBB15_13:
	movb	$6, %sil
	movl	$5, %r10d
	jmp	.LBB15_35
.LBB15_14:
	movl	$6, %r10d
	movb	$11, %sil
	jmp	.LBB15_35
.LBB15_15:
	movb	$2, %sil
	jmp	.LBB15_34
.LBB15_16:
	movb	$5, %sil
	movl	$5, %r10d
	jmp	.LBB15_35
.LBB15_17:
	movb	$14, %sil
	jmp	.LBB15_24
.LBB15_18:
	movb	$16, %sil
	jmp	.LBB15_24
.LBB15_19:
	xorl	%esi, %esi
.LBB15_34:
	movl	$2, %r10d
	jmp	.LBB15_35
.LBB15_20:
	movl	$1, %r10d
	movb	$18, %sil
	jmp	.LBB15_35
.LBB15_21:
	movq	$1, (%rbx)
	movq	$0, 8(%rbx)
	movb	$0, 16(%rbx)
	movb	%sil, 17(%rbx)
	addq	$48, %rsp
	popq	%rbx
	retq
.LBB15_22:
	movb	$15, %sil
	movl	$9, %r10d
	jmp	.LBB15_35
.LBB15_23:
	movb	$17, %sil
.LBB15_24:
	movl	$5, %r10d
	cmpq	$5, %rax
	jb	.LBB15_35
	movl	(%rdx), %r10d
	bswapl	%r10d
	addq	$5, %r10
	jmp	.LBB15_35
.LBB15_26:
	movb	$3, %sil
	xorl	%r10d, %r10d
	addl	$-76, %edi
	cmpl	$39, %edi
	ja	.LBB15_35
.LBB15_27:
	leaq	.LJTI15_2(%rip), %r9
	movslq	(%r9,%rdi,4), %rdi
	addq	%r9, %rdi
	jmpq	*%rdi
.LBB15_28:
	movl	$9, %r10d
	jmp	.LBB15_35
.LBB15_29:
	movb	$4, %sil
	jmp	.LBB15_35
.LBB15_30:
	movl	$5, %r10d
	jmp	.LBB15_35
.LBB15_31:
	movl	$3, %r10d
	jmp	.LBB15_35
.LBB15_32:
	movl	$3, %r10d
	movb	$4, %sil
	jmp	.LBB15_35
.LBB15_33:
	movl	$1, %r10d
.LBB15_35:
	decq	%rax
	movl	%r8d, (%rsp)
	movzbl	%sil, %esi
	movzbl	%cl, %r9d
	leaq	16(%rsp), %rdi
	movq	%rax, %rcx
	movq	%r10, %r8
	callq	"amqp_in_place::problems::payload"
	movzbl	16(%rsp), %eax
	movq	%rax, (%rbx)
	movq	24(%rsp), %rax
	movq	%rax, 8(%rbx)
	movzbl	32(%rsp), %eax
	movb	%al, 16(%rbx)
	movzbl	33(%rsp), %eax
	movb	%al, 17(%rbx)
	addq	$48, %rsp
	popq	%rbx
	retq
.Lfunc_end15:
	.size	"amqp_in_place::problems::value", .Lfunc_end15-"amqp_in_place::problems::value"
	.section	".rodata.amqp_in_place::problems::value","a",@progbits
	.p2align	2, 0x0
.LJTI15_0:
	.long	.LBB15_17-.LJTI15_0
	.long	.LBB15_15-.LJTI15_0
	.long	.LBB15_21-.LJTI15_0
	.long	.LBB15_14-.LJTI15_0
	.long	.LBB15_21-.LJTI15_0
	.long	.LBB15_18-.LJTI15_0
	.long	.LBB15_21-.LJTI15_0
	.long	.LBB15_21-.LJTI15_0
	.long	.LBB15_16-.LJTI15_0
	.long	.LBB15_21-.LJTI15_0
	.long	.LBB15_21-.LJTI15_0
	.long	.LBB15_8-.LJTI15_0
	.long	.LBB15_21-.LJTI15_0
	.long	.LBB15_21-.LJTI15_0
	.long	.LBB15_21-.LJTI15_0
	.long	.LBB15_21-.LJTI15_0
	.long	.LBB15_21-.LJTI15_0
	.long	.LBB15_21-.LJTI15_0
	.long	.LBB15_11-.LJTI15_0
	.long	.LBB15_22-.LJTI15_0
	.long	.LBB15_26-.LJTI15_0
	.long	.LBB15_20-.LJTI15_0
	.long	.LBB15_21-.LJTI15_0
	.long	.LBB15_21-.LJTI15_0
	.long	.LBB15_21-.LJTI15_0
	.long	.LBB15_21-.LJTI15_0
	.long	.LBB15_21-.LJTI15_0
	.long	.LBB15_21-.LJTI15_0
	.long	.LBB15_21-.LJTI15_0
	.long	.LBB15_21-.LJTI15_0
	.long	.LBB15_21-.LJTI15_0
	.long	.LBB15_21-.LJTI15_0
	.long	.LBB15_21-.LJTI15_0
	.long	.LBB15_12-.LJTI15_0
	.long	.LBB15_21-.LJTI15_0
	.long	.LBB15_10-.LJTI15_0
	.long	.LBB15_21-.LJTI15_0
	.long	.LBB15_9-.LJTI15_0
	.long	.LBB15_21-.LJTI15_0
	.long	.LBB15_21-.LJTI15_0
	.long	.LBB15_13-.LJTI15_0
	.long	.LBB15_21-.LJTI15_0
	.long	.LBB15_21-.LJTI15_0
	.long	.LBB15_8-.LJTI15_0
	.long	.LBB15_21-.LJTI15_0
	.long	.LBB15_21-.LJTI15_0
	.long	.LBB15_21-.LJTI15_0
	.long	.LBB15_21-.LJTI15_0
	.long	.LBB15_21-.LJTI15_0
	.long	.LBB15_21-.LJTI15_0
	.long	.LBB15_26-.LJTI15_0
	.long	.LBB15_19-.LJTI15_0
	.long	.LBB15_32-.LJTI15_0
	.long	.LBB15_21-.LJTI15_0
	.long	.LBB15_21-.LJTI15_0
	.long	.LBB15_23-.LJTI15_0
.LJTI15_1:
	.long	.LBB15_17-.LJTI15_1
	.long	.LBB15_15-.LJTI15_1
	.long	.LBB15_21-.LJTI15_1
	.long	.LBB15_14-.LJTI15_1
	.long	.LBB15_21-.LJTI15_1
	.long	.LBB15_18-.LJTI15_1
	.long	.LBB15_21-.LJTI15_1
	.long	.LBB15_21-.LJTI15_1
	.long	.LBB15_16-.LJTI15_1
	.long	.LBB15_21-.LJTI15_1
	.long	.LBB15_21-.LJTI15_1
	.long	.LBB15_8-.LJTI15_1
	.long	.LBB15_21-.LJTI15_1
	.long	.LBB15_21-.LJTI15_1
	.long	.LBB15_21-.LJTI15_1
	.long	.LBB15_21-.LJTI15_1
	.long	.LBB15_21-.LJTI15_1
	.long	.LBB15_21-.LJTI15_1
	.long	.LBB15_11-.LJTI15_1
	.long	.LBB15_22-.LJTI15_1
	.long	.LBB15_21-.LJTI15_1
	.long	.LBB15_20-.LJTI15_1
	.long	.LBB15_21-.LJTI15_1
	.long	.LBB15_21-.LJTI15_1
	.long	.LBB15_21-.LJTI15_1
	.long	.LBB15_21-.LJTI15_1
	.long	.LBB15_21-.LJTI15_1
	.long	.LBB15_21-.LJTI15_1
	.long	.LBB15_21-.LJTI15_1
	.long	.LBB15_21-.LJTI15_1
	.long	.LBB15_21-.LJTI15_1
	.long	.LBB15_21-.LJTI15_1
	.long	.LBB15_21-.LJTI15_1
	.long	.LBB15_12-.LJTI15_1
	.long	.LBB15_21-.LJTI15_1
	.long	.LBB15_10-.LJTI15_1
	.long	.LBB15_21-.LJTI15_1
	.long	.LBB15_9-.LJTI15_1
	.long	.LBB15_21-.LJTI15_1
	.long	.LBB15_21-.LJTI15_1
	.long	.LBB15_13-.LJTI15_1
	.long	.LBB15_21-.LJTI15_1
	.long	.LBB15_21-.LJTI15_1
	.long	.LBB15_8-.LJTI15_1
	.long	.LBB15_21-.LJTI15_1
	.long	.LBB15_21-.LJTI15_1
	.long	.LBB15_21-.LJTI15_1
	.long	.LBB15_21-.LJTI15_1
	.long	.LBB15_21-.LJTI15_1
	.long	.LBB15_21-.LJTI15_1
	.long	.LBB15_4-.LJTI15_1
	.long	.LBB15_19-.LJTI15_1
	.long	.LBB15_29-.LJTI15_1
	.long	.LBB15_21-.LJTI15_1
	.long	.LBB15_21-.LJTI15_1
	.long	.LBB15_23-.LJTI15_1
.LJTI15_2:
	.long	.LBB15_28-.LJTI15_2
	.long	.LBB15_35-.LJTI15_2
	.long	.LBB15_35-.LJTI15_2
	.long	.LBB15_35-.LJTI15_2
	.long	.LBB15_35-.LJTI15_2
	.long	.LBB15_35-.LJTI15_2
	.long	.LBB15_35-.LJTI15_2
	.long	.LBB15_24-.LJTI15_2
	.long	.LBB15_28-.LJTI15_2
	.long	.LBB15_31-.LJTI15_2
	.long	.LBB15_33-.LJTI15_2
	.long	.LBB15_35-.LJTI15_2
	.long	.LBB15_35-.LJTI15_2
	.long	.LBB15_35-.LJTI15_2
	.long	.LBB15_35-.LJTI15_2
	.long	.LBB15_35-.LJTI15_2
	.long	.LBB15_35-.LJTI15_2
	.long	.LBB15_35-.LJTI15_2
	.long	.LBB15_35-.LJTI15_2
	.long	.LBB15_35-.LJTI15_2
	.long	.LBB15_35-.LJTI15_2
	.long	.LBB15_35-.LJTI15_2
	.long	.LBB15_34-.LJTI15_2
	.long	.LBB15_35-.LJTI15_2
	.long	.LBB15_28-.LJTI15_2
	.long	.LBB15_35-.LJTI15_2
	.long	.LBB15_30-.LJTI15_2
	.long	.LBB15_35-.LJTI15_2
	.long	.LBB15_35-.LJTI15_2
	.long	.LBB15_30-.LJTI15_2
	.long	.LBB15_35-.LJTI15_2
	.long	.LBB15_35-.LJTI15_2
	.long	.LBB15_28-.LJTI15_2
	.long	.LBB15_35-.LJTI15_2
	.long	.LBB15_35-.LJTI15_2
	.long	.LBB15_35-.LJTI15_2
	.long	.LBB15_35-.LJTI15_2
	.long	.LBB15_35-.LJTI15_2
	.long	.LBB15_35-.LJTI15_2
	.long	.LBB15_31-.LJTI15_2

	.section	".text.amqp_in_place::problems::pairs","ax",@progbits
	.p2align	4
	.type	"amqp_in_place::problems::pairs",@function
"amqp_in_place::problems::pairs":
	pushq	%rbp
	pushq	%r15
	pushq	%r14
	pushq	%r13
	pushq	%r12
	pushq	%rbx
	subq	$40, %rsp
	movq	%rdi, 24(%rsp)
	testq	%rdx, %rdx
	je	.LBB16_32
	movl	%r8d, %ebp
	movl	%ecx, %ebx
	movq	%rdx, %r14
	movq	%rsi, %r15
	xorl	%r13d, %r13d
	testb	%bl, %bl
	je	.LBB16_6
	.p2align	4
.LBB16_2:
	xorps	%xmm0, %xmm0
	movaps	%xmm0, (%rsp)
	movq	$0, 16(%rsp)
	movq	%r13, %rdx
	notq	%rdx
	addq	%r14, %rdx
	movzbl	(%r15,%r13), %r12d
	subq	%r12, %rdx
	jb	.LBB16_8
	leaq	(%r15,%r13), %rax
	leaq	(%rax,%r12), %rsi
	incq	%rsi
	movzbl	%bl, %ecx
	movq	%rsp, %rdi
	movl	%ebp, %r8d
	callq	"amqp_in_place::problems::value"
	cmpb	$0, (%rsp)
	jne	.LBB16_4
	movq	8(%rsp), %rax
	addq	%r12, %r13
	addq	%rax, %r13
	incq	%r13
	cmpq	%r14, %r13
	jb	.LBB16_2
.LBB16_32:
	xorps	%xmm0, %xmm0
	movq	24(%rsp), %rax
	movups	%xmm0, (%rax)
	movw	$0, 16(%rax)
	jmp	.LBB16_33
.LBB16_6:
	movq	%r14, 32(%rsp)
	.p2align	4
.LBB16_7:
	movq	%r14, %rax
	movl	%ebp, %r14d
	xorps	%xmm0, %xmm0
	movaps	%xmm0, (%rsp)
	movq	$0, 16(%rsp)
	movq	%r13, %rbp
	notq	%rbp
	addq	%rax, %rbp
	movzbl	(%r15,%r13), %r12d
	subq	%r12, %rbp
	jb	.LBB16_8
	leaq	(%r15,%r13), %rbx
	incq	%rbx
	cmpb	$8, %r12b
	jae	.LBB16_11
	testq	%r12, %r12
	je	.LBB16_12
	leaq	(%r15,%r13), %rax
	cmpb	$0, 1(%rax)
	js	.LBB16_29
	cmpl	$1, %r12d
	je	.LBB16_12
	cmpb	$0, 2(%rax)
	js	.LBB16_29
	cmpl	$2, %r12d
	je	.LBB16_12
	cmpb	$0, 3(%rax)
	js	.LBB16_29
	cmpl	$3, %r12d
	je	.LBB16_12
	cmpb	$0, 4(%rax)
	js	.LBB16_29
	cmpl	$4, %r12d
	je	.LBB16_12
	cmpb	$0, 5(%rax)
	js	.LBB16_29
	cmpl	$5, %r12d
	je	.LBB16_12
	cmpb	$0, 6(%rax)
	js	.LBB16_29
	cmpl	$6, %r12d
	je	.LBB16_12
	cmpb	$0, 7(%rax)
	js	.LBB16_29
	cmpb	$7, %r12b
	je	.LBB16_12
	jmp	.LBB16_29
	.p2align	4
.LBB16_11:
	movq	%rbx, %rdi
	movq	%r12, %rsi
	callq	"amqp_in_place::read::is_ascii_by_words"
	testb	%al, %al
	je	.LBB16_29
.LBB16_12:
	addq	%r12, %rbx
	movq	%rsp, %rdi
	movq	%rbx, %rsi
	movq	%rbp, %rdx
	xorl	%ecx, %ecx
	movl	%r14d, %ebp
	movl	%r14d, %r8d
	callq	"amqp_in_place::problems::value"
	cmpb	$0, (%rsp)
	jne	.LBB16_4
	movq	8(%rsp), %rax
	addq	%r12, %r13
	addq	%rax, %r13
	incq	%r13
	movq	32(%rsp), %r14
	cmpq	%r14, %r13
	jb	.LBB16_7
	jmp	.LBB16_32
.LBB16_29:
	movq	%rbx, %rdi
	movq	%r12, %rsi
	callq	"amqp_in_place::read::is_utf8"
	testb	%al, %al
	jne	.LBB16_12
	movb	$4, %al
	jmp	.LBB16_9
.LBB16_8:
	movb	$3, %al
.LBB16_9:
	xorl	%ecx, %ecx
	xorl	%edx, %edx
	jmp	.LBB16_5
.LBB16_4:
	movq	8(%rsp), %rdx
	movzbl	16(%rsp), %eax
	movzbl	17(%rsp), %ecx
	addq	%r12, %rdx
	incq	%rdx
.LBB16_5:
	movq	24(%rsp), %rsi
	addq	%rdx, %r13
	movq	$1, (%rsi)
	movq	%r13, 8(%rsi)
	movb	%al, 16(%rsi)
	movb	%cl, 17(%rsi)
.LBB16_33:
	addq	$40, %rsp
	popq	%rbx
	popq	%r12
	popq	%r13
	popq	%r14
	popq	%r15
	popq	%rbp
	retq
.Lfunc_end16:
	.size	"amqp_in_place::problems::pairs", .Lfunc_end16-"amqp_in_place::problems::pairs"

	.section	.rodata.cst16,"aM",@progbits,16
	.p2align	4, 0x0
.LCPI17_0:
	.quad	1
	.quad	0
.LCPI17_1:
	.byte	0
	.byte	0
	.byte	0
	.byte	0
	.byte	0
	.byte	0
	.byte	0
	.byte	0
	.byte	1
	.byte	0
	.byte	0
	.byte	0
	.byte	0
	.byte	0
	.byte	0
	.byte	0
.LCPI17_2:
	.long	513
	.long	0
	.long	0
	.long	0
	.section	.rodata.cst4,"aM",@progbits,4
	.p2align	2, 0x0
.LCPI17_3:
	.long	1
.LCPI17_4:
	.long	513
	.section	".text.amqp_in_place::read::read_in_place","ax",@progbits
	.p2align	4
	.type	"amqp_in_place::read::read_in_place",@function
"amqp_in_place::read::read_in_place":
	pushq	%r15
	pushq	%r14
	pushq	%r13
	pushq	%r12
	pushq	%rbx
	testq	%rdx, %rdx
	je	.LBB17_5
	movzbl	(%rsi), %r10d
	movl	$1, %r9d
	xorl	%ebx, %ebx
	addl	$-65, %r10d
	cmpl	$55, %r10d
	ja	.LBB17_20
	leaq	.LJTI17_0(%rip), %rax
	movslq	(%rax,%r10,4), %r11
	addq	%rax, %r11
	xorl	%eax, %eax
	jmpq	*%r11
.LBB17_3:
	movl	$4, %ebx
	cmpq	$5, %rdx
	jae	.LBB17_10
	movl	$4, %eax
	movl	%ecx, %ecx
	cmpq	%rcx, %rax
	jb	.LBB17_12
	jmp	.LBB17_22
.LBB17_5:
	movl	$1, %r9d
	xorl	%ecx, %ecx
	xorl	%r15d, %r15d
	xorl	%r8d, %r8d
	movl	$1, %r14d
	movl	$1, %ebx
	jmp	.LBB17_23
.LBB17_6:
	movl	$8, %ebx
	movl	$8, %eax
	movl	%ecx, %ecx
	cmpq	%rcx, %rax
	jb	.LBB17_12
.LBB17_22:
	movl	$1025, %r8d
	xorl	%ecx, %ecx
	xorl	%r15d, %r15d
	xorl	%r14d, %r14d
	xorl	%ebx, %ebx
	jmp	.LBB17_23
.LBB17_7:
	movl	$1, %ebx
	movl	$1, %eax
	movl	%ecx, %ecx
	cmpq	%rcx, %rax
	jb	.LBB17_12
	jmp	.LBB17_22
.LBB17_8:
	movl	$2, %ebx
	movl	$2, %eax
	movl	%ecx, %ecx
	cmpq	%rcx, %rax
	jb	.LBB17_12
	jmp	.LBB17_22
.LBB17_9:
	movl	$4, %ebx
	movl	$4, %eax
	movl	%ecx, %ecx
	cmpq	%rcx, %rax
	jb	.LBB17_12
	jmp	.LBB17_22
.LBB17_10:
	movl	1(%rsi), %eax
	bswapl	%eax
	addq	$4, %rax
.LBB17_11:
	movl	%ecx, %ecx
	cmpq	%rcx, %rax
	jae	.LBB17_22
.LBB17_12:
	leaq	-1(%rdx), %r15
	subq	%r15, %rbx
	jbe	.LBB17_14
	xorl	%ecx, %ecx
	xorl	%r15d, %r15d
	xorl	%r8d, %r8d
	movl	$1, %r14d
	jmp	.LBB17_23
.LBB17_14:
	subq	%r15, %rax
	jbe	.LBB17_16
	xorl	%ecx, %ecx
	xorl	%r15d, %r15d
	xorl	%r8d, %r8d
	movl	$1, %r14d
	movq	%rax, %rbx
	jmp	.LBB17_23
.LBB17_16:
	movss	.LCPI17_3(%rip), %xmm0
	xorl	%r9d, %r9d
	cmpl	$55, %r10d
	ja	.LBB17_78
	movl	%r8d, %eax
	leaq	1(%rsi), %rcx
	leaq	.LJTI17_1(%rip), %r11
	movslq	(%r11,%r10,4), %r10
	addq	%r11, %r10
	jmpq	*%r10
.LBB17_18:
	cmpq	$8, %r15
	jb	.LBB17_63
	movq	1(%rsi), %r14
	bswapq	%r14
	addq	$9, %rsi
	addq	$-9, %rdx
	movl	$7, %eax
	jmp	.LBB17_62
.LBB17_20:
	xorl	%ecx, %ecx
	xorl	%r15d, %r15d
	movl	$1, %r8d
	xorl	%r14d, %r14d
	jmp	.LBB17_23
.LBB17_21:
	movl	$5, %eax
	movl	$1, %ebx
	movl	%ecx, %ecx
	cmpq	%rcx, %rax
	jb	.LBB17_12
	jmp	.LBB17_22
.LBB17_25:
	cmpq	$2, %r15
	jb	.LBB17_41
	movzwl	1(%rsi), %r10d
	rolw	$8, %r10w
	addq	$3, %rsi
	addq	$-3, %rdx
	movl	$3, %eax
	xorl	%r9d, %r9d
	jmp	.LBB17_69
.LBB17_27:
	cmpq	$5, %rdx
	jb	.LBB17_76
	movl	(%rcx), %ebx
	bswapl	%ebx
	addq	$-5, %rdx
	movq	%rdx, %r15
	subq	%rbx, %r15
	jb	.LBB17_80
	leaq	(%rsi,%rbx), %rcx
	addq	$5, %rcx
	addq	$5, %rsi
	movl	$11, %eax
	jmp	.LBB17_84
.LBB17_30:
	cmpq	$4, %r15
	jb	.LBB17_76
	movl	1(%rsi), %r8d
	bswapl	%r8d
	addq	$5, %rsi
	addq	$-5, %rdx
	movl	$8, %eax
	jmp	.LBB17_59
.LBB17_32:
	cmpq	$4, %r15
	jb	.LBB17_76
	movl	1(%rsi), %r8d
	bswapl	%r8d
	addq	$5, %rsi
	addq	$-5, %rdx
	movl	$6, %eax
	jmp	.LBB17_59
.LBB17_34:
	movaps	.LCPI17_1(%rip), %xmm0
	testq	%r15, %r15
	je	.LBB17_81
	leaq	-2(%rdx), %rax
	cmpq	$3, %rax
	ja	.LBB17_82
	movl	$6, %r9d
	subq	%rdx, %r9
	jmp	.LBB17_78
.LBB17_37:
	cmpq	$8, %r15
	jb	.LBB17_63
	movq	1(%rsi), %r14
	bswapq	%r14
	addq	$9, %rsi
	addq	$-9, %rdx
	movl	$13, %eax
	jmp	.LBB17_62
.LBB17_39:
	cmpq	$2, %r15
	jb	.LBB17_41
	movzwl	1(%rsi), %r10d
	rolw	$8, %r10w
	addq	$3, %rsi
	addq	$-3, %rdx
	movl	$4, %eax
	xorl	%r9d, %r9d
	jmp	.LBB17_69
.LBB17_41:
	movl	$3, %r9d
	jmp	.LBB17_77
.LBB17_42:
	cmpq	$5, %rdx
	jb	.LBB17_76
	movl	(%rcx), %ebx
	bswapl	%ebx
	addq	$-5, %rdx
	movq	%rdx, %r15
	subq	%rbx, %r15
	jb	.LBB17_80
	movss	.LCPI17_4(%rip), %xmm0
	testl	%r8d, %r8d
	je	.LBB17_87
	movq	%rdi, %r12
	movq	%rsi, %r13
	leaq	5(%rsi), %r14
	decq	%rax
	movq	%r14, %rdi
	movq	%rbx, %rsi
	movq	%rax, %rdx
	callq	"amqp_in_place::read::are_values"
	xorl	%r9d, %r9d
	testb	%al, %al
	je	.LBB17_85
	leaq	(%rbx,%r13), %rcx
	addq	$5, %rcx
	movl	$12, %r8d
	jmp	.LBB17_56
.LBB17_47:
	testq	%r15, %r15
	je	.LBB17_74
	addq	$-2, %rdx
	movzbl	1(%rsi), %r9d
	addq	$2, %rsi
	movl	$2, %eax
	jmp	.LBB17_68
.LBB17_49:
	testq	%r15, %r15
	je	.LBB17_74
	addq	$-2, %rdx
	xorl	%r9d, %r9d
	cmpb	$0, 1(%rsi)
	leaq	2(%rsi), %rcx
	setne	%r9b
	xorl	%eax, %eax
	movq	%rdx, %r15
	jmp	.LBB17_65
.LBB17_51:
	cmpq	$5, %rdx
	jb	.LBB17_76
	movl	(%rcx), %ebx
	bswapl	%ebx
	addq	$-5, %rdx
	movq	%rdx, %r15
	subq	%rbx, %r15
	jb	.LBB17_80
	movss	.LCPI17_4(%rip), %xmm0
	testl	%r8d, %r8d
	je	.LBB17_87
	movq	%rdi, %r12
	movq	%rsi, %r13
	leaq	5(%rsi), %r14
	decq	%rax
	movq	%r14, %rdi
	movq	%rbx, %rsi
	movq	%rax, %rdx
	callq	"amqp_in_place::read::are_pairs"
	xorl	%r9d, %r9d
	testb	%al, %al
	je	.LBB17_85
	leaq	(%rbx,%r13), %rcx
	addq	$5, %rcx
	movl	$14, %r8d
.LBB17_56:
	movq	%r12, %rdi
	jmp	.LBB17_23
.LBB17_57:
	cmpq	$4, %r15
	jb	.LBB17_76
	movl	1(%rsi), %r8d
	bswapl	%r8d
	addq	$5, %rsi
	addq	$-5, %rdx
	movl	$5, %eax
.LBB17_59:
	xorl	%r9d, %r9d
	movq	%rsi, %rcx
	movq	%rdx, %r15
	xorl	%r10d, %r10d
	jmp	.LBB17_71
.LBB17_60:
	cmpq	$8, %r15
	jb	.LBB17_63
	movq	1(%rsi), %r14
	bswapq	%r14
	addq	$9, %rsi
	addq	$-9, %rdx
	movl	$9, %eax
.LBB17_62:
	xorl	%r9d, %r9d
	movq	%rsi, %rcx
	movq	%rdx, %r15
	xorl	%r10d, %r10d
	xorl	%r8d, %r8d
	jmp	.LBB17_72
.LBB17_63:
	movl	$9, %r9d
	jmp	.LBB17_77
.LBB17_64:
	movl	$16, %eax
.LBB17_65:
	xorl	%r10d, %r10d
	jmp	.LBB17_70
.LBB17_66:
	testq	%r15, %r15
	je	.LBB17_74
	addq	$-2, %rdx
	movzbl	1(%rsi), %r9d
	addq	$2, %rsi
	movl	$1, %eax
.LBB17_68:
	xorl	%r10d, %r10d
.LBB17_69:
	movq	%rsi, %rcx
	movq	%rdx, %r15
.LBB17_70:
	xorl	%r8d, %r8d
.LBB17_71:
	xorl	%r14d, %r14d
.LBB17_72:
	xorl	%ebx, %ebx
.LBB17_73:
	shll	$8, %r9d
	shll	$16, %r10d
	shlq	$32, %r8
	orq	%r10, %r8
	orq	%r9, %r8
	orq	%rax, %r8
	xorl	%r9d, %r9d
.LBB17_23:
	movq	%r9, (%rdi)
	movq	%r8, 8(%rdi)
	movq	%r14, 16(%rdi)
	movq	%rbx, 24(%rdi)
	movq	%rcx, 32(%rdi)
	movq	%r15, 40(%rdi)
.LBB17_24:
	popq	%rbx
	popq	%r12
	popq	%r13
	popq	%r14
	popq	%r15
	retq
.LBB17_74:
	movaps	.LCPI17_1(%rip), %xmm0
	movl	$1, %r9d
	jmp	.LBB17_78
.LBB17_75:
	cmpq	$5, %rdx
	jae	.LBB17_79
.LBB17_76:
	movl	$5, %r9d
.LBB17_77:
	subq	%rdx, %r9
	movaps	.LCPI17_1(%rip), %xmm0
.LBB17_78:
	movq	$1, (%rdi)
	movups	%xmm0, 8(%rdi)
	movq	%r9, 24(%rdi)
	xorps	%xmm0, %xmm0
	movups	%xmm0, 32(%rdi)
	jmp	.LBB17_24
.LBB17_79:
	movl	(%rcx), %ebx
	bswapl	%ebx
	addq	$-5, %rdx
	movq	%rdx, %r15
	subq	%rbx, %r15
	jae	.LBB17_83
.LBB17_80:
	subq	%rdx, %rbx
	movaps	.LCPI17_1(%rip), %xmm0
	movq	%rbx, %r9
	jmp	.LBB17_78
.LBB17_81:
	movl	$1, %r9d
	jmp	.LBB17_78
.LBB17_82:
	movzbl	1(%rsi), %eax
	movl	2(%rsi), %r14d
	bswapl	%r14d
	addq	$6, %rsi
	addq	$-6, %rdx
	movq	%r14, %r8
	shlq	$32, %r8
	orq	%rax, %r8
	movl	$10, %eax
	xorl	%r9d, %r9d
	movq	%rsi, %rcx
	movq	%rdx, %r15
	xorl	%r10d, %r10d
	jmp	.LBB17_72
.LBB17_83:
	leaq	(%rsi,%rbx), %rcx
	addq	$5, %rcx
	addq	$5, %rsi
	movl	$15, %eax
.LBB17_84:
	xorl	%r9d, %r9d
	xorl	%r10d, %r10d
	xorl	%r8d, %r8d
	movq	%rsi, %r14
	jmp	.LBB17_73
.LBB17_87:
	xorl	%r9d, %r9d
	jmp	.LBB17_78
.LBB17_85:
	movq	%r12, %rdi
	movss	.LCPI17_4(%rip), %xmm0
	jmp	.LBB17_78
.Lfunc_end17:
	.size	"amqp_in_place::read::read_in_place", .Lfunc_end17-"amqp_in_place::read::read_in_place"
	.section	".rodata.amqp_in_place::read::read_in_place","a",@progbits
	.p2align	2, 0x0
.LJTI17_0:
	.long	.LBB17_3-.LJTI17_0
	.long	.LBB17_7-.LJTI17_0
	.long	.LBB17_20-.LJTI17_0
	.long	.LBB17_21-.LJTI17_0
	.long	.LBB17_20-.LJTI17_0
	.long	.LBB17_3-.LJTI17_0
	.long	.LBB17_20-.LJTI17_0
	.long	.LBB17_20-.LJTI17_0
	.long	.LBB17_9-.LJTI17_0
	.long	.LBB17_20-.LJTI17_0
	.long	.LBB17_20-.LJTI17_0
	.long	.LBB17_6-.LJTI17_0
	.long	.LBB17_20-.LJTI17_0
	.long	.LBB17_20-.LJTI17_0
	.long	.LBB17_20-.LJTI17_0
	.long	.LBB17_20-.LJTI17_0
	.long	.LBB17_20-.LJTI17_0
	.long	.LBB17_20-.LJTI17_0
	.long	.LBB17_3-.LJTI17_0
	.long	.LBB17_6-.LJTI17_0
	.long	.LBB17_8-.LJTI17_0
	.long	.LBB17_11-.LJTI17_0
	.long	.LBB17_20-.LJTI17_0
	.long	.LBB17_20-.LJTI17_0
	.long	.LBB17_20-.LJTI17_0
	.long	.LBB17_20-.LJTI17_0
	.long	.LBB17_20-.LJTI17_0
	.long	.LBB17_20-.LJTI17_0
	.long	.LBB17_20-.LJTI17_0
	.long	.LBB17_20-.LJTI17_0
	.long	.LBB17_20-.LJTI17_0
	.long	.LBB17_20-.LJTI17_0
	.long	.LBB17_20-.LJTI17_0
	.long	.LBB17_7-.LJTI17_0
	.long	.LBB17_20-.LJTI17_0
	.long	.LBB17_6-.LJTI17_0
	.long	.LBB17_20-.LJTI17_0
	.long	.LBB17_9-.LJTI17_0
	.long	.LBB17_20-.LJTI17_0
	.long	.LBB17_20-.LJTI17_0
	.long	.LBB17_9-.LJTI17_0
	.long	.LBB17_20-.LJTI17_0
	.long	.LBB17_20-.LJTI17_0
	.long	.LBB17_6-.LJTI17_0
	.long	.LBB17_20-.LJTI17_0
	.long	.LBB17_20-.LJTI17_0
	.long	.LBB17_20-.LJTI17_0
	.long	.LBB17_20-.LJTI17_0
	.long	.LBB17_20-.LJTI17_0
	.long	.LBB17_20-.LJTI17_0
	.long	.LBB17_8-.LJTI17_0
	.long	.LBB17_7-.LJTI17_0
	.long	.LBB17_8-.LJTI17_0
	.long	.LBB17_20-.LJTI17_0
	.long	.LBB17_20-.LJTI17_0
	.long	.LBB17_3-.LJTI17_0
.LJTI17_1:
	.long	.LBB17_42-.LJTI17_1
	.long	.LBB17_47-.LJTI17_1
	.long	.LBB17_78-.LJTI17_1
	.long	.LBB17_34-.LJTI17_1
	.long	.LBB17_78-.LJTI17_1
	.long	.LBB17_51-.LJTI17_1
	.long	.LBB17_78-.LJTI17_1
	.long	.LBB17_78-.LJTI17_1
	.long	.LBB17_57-.LJTI17_1
	.long	.LBB17_78-.LJTI17_1
	.long	.LBB17_78-.LJTI17_1
	.long	.LBB17_18-.LJTI17_1
	.long	.LBB17_78-.LJTI17_1
	.long	.LBB17_78-.LJTI17_1
	.long	.LBB17_78-.LJTI17_1
	.long	.LBB17_78-.LJTI17_1
	.long	.LBB17_78-.LJTI17_1
	.long	.LBB17_78-.LJTI17_1
	.long	.LBB17_27-.LJTI17_1
	.long	.LBB17_37-.LJTI17_1
	.long	.LBB17_25-.LJTI17_1
	.long	.LBB17_64-.LJTI17_1
	.long	.LBB17_78-.LJTI17_1
	.long	.LBB17_78-.LJTI17_1
	.long	.LBB17_78-.LJTI17_1
	.long	.LBB17_78-.LJTI17_1
	.long	.LBB17_78-.LJTI17_1
	.long	.LBB17_78-.LJTI17_1
	.long	.LBB17_78-.LJTI17_1
	.long	.LBB17_78-.LJTI17_1
	.long	.LBB17_78-.LJTI17_1
	.long	.LBB17_78-.LJTI17_1
	.long	.LBB17_78-.LJTI17_1
	.long	.LBB17_66-.LJTI17_1
	.long	.LBB17_78-.LJTI17_1
	.long	.LBB17_60-.LJTI17_1
	.long	.LBB17_78-.LJTI17_1
	.long	.LBB17_30-.LJTI17_1
	.long	.LBB17_78-.LJTI17_1
	.long	.LBB17_78-.LJTI17_1
	.long	.LBB17_32-.LJTI17_1
	.long	.LBB17_78-.LJTI17_1
	.long	.LBB17_78-.LJTI17_1
	.long	.LBB17_18-.LJTI17_1
	.long	.LBB17_78-.LJTI17_1
	.long	.LBB17_78-.LJTI17_1
	.long	.LBB17_78-.LJTI17_1
	.long	.LBB17_78-.LJTI17_1
	.long	.LBB17_78-.LJTI17_1
	.long	.LBB17_78-.LJTI17_1
	.long	.LBB17_25-.LJTI17_1
	.long	.LBB17_49-.LJTI17_1
	.long	.LBB17_39-.LJTI17_1
	.long	.LBB17_78-.LJTI17_1
	.long	.LBB17_78-.LJTI17_1
	.long	.LBB17_75-.LJTI17_1

	.section	".text.amqp_in_place::problems::search","ax",@progbits
	.p2align	4
	.type	"amqp_in_place::problems::search",@function
"amqp_in_place::problems::search":
	pushq	%rbx
	subq	$32, %rsp
	movq	%rdi, %rbx
	movq	$0, 24(%rsp)
	testq	%rdx, %rdx
	je	.LBB18_14
	movzbl	(%rsi), %eax
	addl	$-65, %eax
	cmpl	$55, %eax
	ja	.LBB18_14
	leaq	.LJTI18_0(%rip), %rdi
	movslq	(%rdi,%rax,4), %rax
	addq	%rdi, %rax
	jmpq	*%rax
.LBB18_9:
	movl	$5, %eax
	cmpq	$5, %rdx
	jb	.LBB18_11
	movl	1(%rsi), %eax
	bswapl	%eax
	addq	$5, %rax
	movl	%r8d, %edi
	cmpq	%rdi, %rax
	ja	.LBB18_12
	jmp	.LBB18_14
.LBB18_7:
	movl	$9, %eax
	movl	%r8d, %edi
	cmpq	%rdi, %rax
	ja	.LBB18_12
	jmp	.LBB18_14
.LBB18_5:
	movl	$3, %eax
	movl	%r8d, %edi
	cmpq	%rdi, %rax
	ja	.LBB18_12
	jmp	.LBB18_14
.LBB18_6:
	movl	$5, %eax
	movl	%r8d, %edi
	cmpq	%rdi, %rax
	ja	.LBB18_12
	jmp	.LBB18_14
.LBB18_4:
	movl	$2, %eax
	movl	%r8d, %edi
	cmpq	%rdi, %rax
	ja	.LBB18_12
	jmp	.LBB18_14
.LBB18_8:
	movl	$6, %eax
.LBB18_11:
	movl	%r8d, %edi
	cmpq	%rdi, %rax
	jbe	.LBB18_14
.LBB18_12:
	movq	$1, (%rbx)
	movq	$0, 8(%rbx)
	movw	$6, 16(%rbx)
	addq	$32, %rsp
	popq	%rbx
	retq
.LBB18_3:
	movl	$1, %eax
	movl	%r8d, %edi
	cmpq	%rdi, %rax
	ja	.LBB18_12
.LBB18_14:
	movzbl	%cl, %ecx
	leaq	8(%rsp), %rdi
	movl	%r9d, %r8d
	callq	"amqp_in_place::problems::value"
	cmpb	$0, 8(%rsp)
	je	.LBB18_15
	movzbl	25(%rsp), %ecx
	movzbl	24(%rsp), %edx
	movl	$1, %eax
	movq	16(%rsp), %rsi
	jmp	.LBB18_17
.LBB18_15:
	xorl	%eax, %eax
	xorl	%esi, %esi
	xorl	%edx, %edx
	xorl	%ecx, %ecx
.LBB18_17:
	movq	%rax, (%rbx)
	movq	%rsi, 8(%rbx)
	movb	%dl, 16(%rbx)
	movb	%cl, 17(%rbx)
	addq	$32, %rsp
	popq	%rbx
	retq
.Lfunc_end18:
	.size	"amqp_in_place::problems::search", .Lfunc_end18-"amqp_in_place::problems::search"
	.section	".rodata.amqp_in_place::problems::search","a",@progbits
	.p2align	2, 0x0
.LJTI18_0:
	.long	.LBB18_9-.LJTI18_0
	.long	.LBB18_4-.LJTI18_0
	.long	.LBB18_14-.LJTI18_0
	.long	.LBB18_8-.LJTI18_0
	.long	.LBB18_14-.LJTI18_0
	.long	.LBB18_9-.LJTI18_0
	.long	.LBB18_14-.LJTI18_0
	.long	.LBB18_14-.LJTI18_0
	.long	.LBB18_6-.LJTI18_0
	.long	.LBB18_14-.LJTI18_0
	.long	.LBB18_14-.LJTI18_0
	.long	.LBB18_7-.LJTI18_0
	.long	.LBB18_14-.LJTI18_0
	.long	.LBB18_14-.LJTI18_0
	.long	.LBB18_14-.LJTI18_0
	.long	.LBB18_14-.LJTI18_0
	.long	.LBB18_14-.LJTI18_0
	.long	.LBB18_14-.LJTI18_0
	.long	.LBB18_9-.LJTI18_0
	.long	.LBB18_7-.LJTI18_0
	.long	.LBB18_5-.LJTI18_0
	.long	.LBB18_3-.LJTI18_0
	.long	.LBB18_14-.LJTI18_0
	.long	.LBB18_14-.LJTI18_0
	.long	.LBB18_14-.LJTI18_0
	.long	.LBB18_14-.LJTI18_0
	.long	.LBB18_14-.LJTI18_0
	.long	.LBB18_14-.LJTI18_0
	.long	.LBB18_14-.LJTI18_0
	.long	.LBB18_14-.LJTI18_0
	.long	.LBB18_14-.LJTI18_0
	.long	.LBB18_14-.LJTI18_0
	.long	.LBB18_14-.LJTI18_0
	.long	.LBB18_4-.LJTI18_0
	.long	.LBB18_14-.LJTI18_0
	.long	.LBB18_7-.LJTI18_0
	.long	.LBB18_14-.LJTI18_0
	.long	.LBB18_6-.LJTI18_0
	.long	.LBB18_14-.LJTI18_0
	.long	.LBB18_14-.LJTI18_0
	.long	.LBB18_6-.LJTI18_0
	.long	.LBB18_14-.LJTI18_0
	.long	.LBB18_14-.LJTI18_0
	.long	.LBB18_7-.LJTI18_0
	.long	.LBB18_14-.LJTI18_0
	.long	.LBB18_14-.LJTI18_0
	.long	.LBB18_14-.LJTI18_0
	.long	.LBB18_14-.LJTI18_0
	.long	.LBB18_14-.LJTI18_0
	.long	.LBB18_14-.LJTI18_0
	.long	.LBB18_5-.LJTI18_0
	.long	.LBB18_4-.LJTI18_0
	.long	.LBB18_5-.LJTI18_0
	.long	.LBB18_14-.LJTI18_0
	.long	.LBB18_14-.LJTI18_0
	.long	.LBB18_9-.LJTI18_0

	.section	".text.unlikely.amqp_c::input::Input::header","ax",@progbits
	.p2align	4
	.type	"amqp_c::input::Input::header",@function
"amqp_c::input::Input::header":
	movq	(%rdi), %r8
	movq	8(%rdi), %rcx
	movl	16(%rdi), %esi
	testb	$1, 24(%rdi)
	jne	.LBB19_1
	testq	%rcx, %rcx
	je	.LBB19_2
	movzbl	(%r8), %edi
	xorl	%edx, %edx
	xorl	%eax, %eax
	addl	$-65, %edi
	cmpl	$55, %edi
	ja	.LBB19_23
	leaq	.LJTI19_0(%rip), %r9
	movslq	(%r9,%rdi,4), %r10
	addq	%r9, %r10
	xorl	%edi, %edi
	jmpq	*%r10
.LBB19_15:
	movl	$4, %edx
	cmpq	$5, %rcx
	jae	.LBB19_17
	movl	$4, %edi
	cmpq	%rsi, %rdi
	jb	.LBB19_19
	jmp	.LBB19_6
.LBB19_1:
	cmpq	$-1, %rcx
	je	.LBB19_2
	cmpq	$3, %rcx
	ja	.LBB19_5
	movl	$4, %edi
	subq	%rcx, %rdi
	cmpl	$5, %esi
	movb	$1, %al
	sbbb	$-1, %al
	xorl	%edx, %edx
	cmpl	$5, %esi
	jmp	.LBB19_22
.LBB19_2:
	movl	$1, %edx
	movb	$2, %al
	retq
.LBB19_5:
	movl	(%r8), %edi
	bswapl	%edi
	addq	$4, %rdi
	cmpq	%rsi, %rdi
	jb	.LBB19_21
	jmp	.LBB19_6
.LBB19_13:
	movl	$8, %edx
	movl	$8, %edi
	cmpq	%rsi, %rdi
	jb	.LBB19_19
	jmp	.LBB19_6
.LBB19_10:
	movl	$1, %edx
	movl	$1, %edi
	cmpq	%rsi, %rdi
	jb	.LBB19_19
	jmp	.LBB19_6
.LBB19_11:
	movl	$2, %edx
	movl	$2, %edi
	cmpq	%rsi, %rdi
	jb	.LBB19_19
	jmp	.LBB19_6
.LBB19_12:
	movl	$4, %edx
	movl	$4, %edi
	cmpq	%rsi, %rdi
	jb	.LBB19_19
	jmp	.LBB19_6
.LBB19_17:
	movl	1(%r8), %edi
	bswapl	%edi
	addq	$4, %rdi
.LBB19_18:
	cmpq	%rsi, %rdi
	jae	.LBB19_6
.LBB19_19:
	decq	%rcx
	subq	%rcx, %rdx
	jbe	.LBB19_21
	movb	$2, %al
	retq
.LBB19_21:
	cmpq	%rdi, %rcx
	setb	%al
	xorb	$3, %al
	xorl	%edx, %edx
	subq	%rcx, %rdi
.LBB19_22:
	cmovaeq	%rdi, %rdx
.LBB19_23:
	retq
.LBB19_14:
	movl	$5, %edi
	movl	$1, %edx
	cmpq	%rsi, %rdi
	jb	.LBB19_19
.LBB19_6:
	movb	$1, %al
	xorl	%edx, %edx
	retq
.Lfunc_end19:
	.size	"amqp_c::input::Input::header", .Lfunc_end19-"amqp_c::input::Input::header"
	.section	".rodata.unlikely.amqp_c::input::Input::header","a",@progbits
	.p2align	2, 0x0
.LJTI19_0:
	.long	.LBB19_15-.LJTI19_0
	.long	.LBB19_10-.LJTI19_0
	.long	.LBB19_23-.LJTI19_0
	.long	.LBB19_14-.LJTI19_0
	.long	.LBB19_23-.LJTI19_0
	.long	.LBB19_15-.LJTI19_0
	.long	.LBB19_23-.LJTI19_0
	.long	.LBB19_23-.LJTI19_0
	.long	.LBB19_12-.LJTI19_0
	.long	.LBB19_23-.LJTI19_0
	.long	.LBB19_23-.LJTI19_0
	.long	.LBB19_13-.LJTI19_0
	.long	.LBB19_23-.LJTI19_0
	.long	.LBB19_23-.LJTI19_0
	.long	.LBB19_23-.LJTI19_0
	.long	.LBB19_23-.LJTI19_0
	.long	.LBB19_23-.LJTI19_0
	.long	.LBB19_23-.LJTI19_0
	.long	.LBB19_15-.LJTI19_0
	.long	.LBB19_13-.LJTI19_0
	.long	.LBB19_11-.LJTI19_0
	.long	.LBB19_18-.LJTI19_0
	.long	.LBB19_23-.LJTI19_0
	.long	.LBB19_23-.LJTI19_0
	.long	.LBB19_23-.LJTI19_0
	.long	.LBB19_23-.LJTI19_0
	.long	.LBB19_23-.LJTI19_0
	.long	.LBB19_23-.LJTI19_0
	.long	.LBB19_23-.LJTI19_0
	.long	.LBB19_23-.LJTI19_0
	.long	.LBB19_23-.LJTI19_0
	.long	.LBB19_23-.LJTI19_0
	.long	.LBB19_23-.LJTI19_0
	.long	.LBB19_10-.LJTI19_0
	.long	.LBB19_23-.LJTI19_0
	.long	.LBB19_13-.LJTI19_0
	.long	.LBB19_23-.LJTI19_0
	.long	.LBB19_12-.LJTI19_0
	.long	.LBB19_23-.LJTI19_0
	.long	.LBB19_23-.LJTI19_0
	.long	.LBB19_12-.LJTI19_0
	.long	.LBB19_23-.LJTI19_0
	.long	.LBB19_23-.LJTI19_0
	.long	.LBB19_13-.LJTI19_0
	.long	.LBB19_23-.LJTI19_0
	.long	.LBB19_23-.LJTI19_0
	.long	.LBB19_23-.LJTI19_0
	.long	.LBB19_23-.LJTI19_0
	.long	.LBB19_23-.LJTI19_0
	.long	.LBB19_23-.LJTI19_0
	.long	.LBB19_11-.LJTI19_0
	.long	.LBB19_10-.LJTI19_0
	.long	.LBB19_11-.LJTI19_0
	.long	.LBB19_23-.LJTI19_0
	.long	.LBB19_23-.LJTI19_0
	.long	.LBB19_15-.LJTI19_0

	.section	".text.amqp_in_place::measure::counts_of_values","ax",@progbits
	.p2align	4
	.type	"amqp_in_place::measure::counts_of_values",@function
"amqp_in_place::measure::counts_of_values":
	pushq	%r15
	pushq	%r14
	pushq	%r12
	pushq	%rbx
	pushq	%rax
	testq	%rsi, %rsi
	je	.LBB20_1
	xorl	%ebx, %ebx
	xorl	%r14d, %r14d
	jmp	.LBB20_3
.LBB20_5:
	testq	%r15, %r15
	je	.LBB20_29
	addq	$2, %rdi
	addq	$-2, %rsi
.LBB20_7:
	xorl	%edx, %edx
	movq	%rsi, %r15
	movq	%rdi, %r12
.LBB20_27:
	addq	%rax, %r14
	cmpq	%rbx, %rdx
	cmovaq	%rdx, %rbx
	movq	%r15, %rsi
	movq	%r12, %rdi
	testq	%r15, %r15
	je	.LBB20_28
.LBB20_3:
	movzbl	(%rdi), %ecx
	addl	$-65, %ecx
	cmpl	$55, %ecx
	ja	.LBB20_29
	leaq	1(%rdi), %r12
	leaq	-1(%rsi), %r15
	movl	$1, %eax
	leaq	.LJTI20_0(%rip), %rdx
	movslq	(%rdx,%rcx,4), %rcx
	addq	%rdx, %rcx
	jmpq	*%rcx
.LBB20_12:
	cmpq	$8, %r15
	jb	.LBB20_29
	addq	$9, %rdi
	addq	$-9, %rsi
	jmp	.LBB20_7
.LBB20_8:
	cmpq	$2, %r15
	jb	.LBB20_29
	addq	$3, %rdi
	addq	$-3, %rsi
	jmp	.LBB20_7
.LBB20_10:
	cmpq	$4, %r15
	jb	.LBB20_29
	addq	$5, %rdi
	addq	$-5, %rsi
	jmp	.LBB20_7
.LBB20_23:
	cmpq	$5, %rsi
	jb	.LBB20_29
	movl	(%r12), %ecx
	bswapl	%ecx
	addq	$-5, %rsi
	movq	%rsi, %r15
	subq	%rcx, %r15
	jb	.LBB20_29
	leaq	(%rdi,%rcx), %r12
	addq	$5, %r12
.LBB20_26:
	xorl	%edx, %edx
	jmp	.LBB20_27
.LBB20_19:
	cmpq	$5, %rsi
	jb	.LBB20_29
	movl	(%r12), %eax
	bswapl	%eax
	addq	$-5, %rsi
	movq	%rsi, %r15
	subq	%rax, %r15
	jb	.LBB20_29
	leaq	(%rdi,%rax), %r12
	addq	$5, %r12
	addq	$5, %rdi
	movq	%rax, %rsi
	callq	"amqp_in_place::measure::counts_of_pairs"
	jmp	.LBB20_22
.LBB20_14:
	cmpq	$6, %rsi
	jb	.LBB20_29
	addq	$6, %rdi
	addq	$-6, %rsi
	jmp	.LBB20_7
.LBB20_16:
	cmpq	$5, %rsi
	jb	.LBB20_29
	movl	(%r12), %eax
	bswapl	%eax
	addq	$-5, %rsi
	movq	%rsi, %r15
	subq	%rax, %r15
	jb	.LBB20_29
	leaq	(%rdi,%rax), %r12
	addq	$5, %r12
	addq	$5, %rdi
	movq	%rax, %rsi
	callq	"amqp_in_place::measure::counts_of_values"
.LBB20_22:
	incq	%rax
	incq	%rdx
	jmp	.LBB20_27
.LBB20_1:
	xorl	%r14d, %r14d
	xorl	%ebx, %ebx
.LBB20_28:
	movq	%r14, %rax
	movq	%rbx, %rdx
	addq	$8, %rsp
	popq	%rbx
	popq	%r12
	popq	%r14
	popq	%r15
	retq
.LBB20_29:
	ud2
.Lfunc_end20:
	.size	"amqp_in_place::measure::counts_of_values", .Lfunc_end20-"amqp_in_place::measure::counts_of_values"
	.section	".rodata.amqp_in_place::measure::counts_of_values","a",@progbits
	.p2align	2, 0x0
.LJTI20_0:
	.long	.LBB20_16-.LJTI20_0
	.long	.LBB20_5-.LJTI20_0
	.long	.LBB20_29-.LJTI20_0
	.long	.LBB20_14-.LJTI20_0
	.long	.LBB20_29-.LJTI20_0
	.long	.LBB20_19-.LJTI20_0
	.long	.LBB20_29-.LJTI20_0
	.long	.LBB20_29-.LJTI20_0
	.long	.LBB20_10-.LJTI20_0
	.long	.LBB20_29-.LJTI20_0
	.long	.LBB20_29-.LJTI20_0
	.long	.LBB20_12-.LJTI20_0
	.long	.LBB20_29-.LJTI20_0
	.long	.LBB20_29-.LJTI20_0
	.long	.LBB20_29-.LJTI20_0
	.long	.LBB20_29-.LJTI20_0
	.long	.LBB20_29-.LJTI20_0
	.long	.LBB20_29-.LJTI20_0
	.long	.LBB20_23-.LJTI20_0
	.long	.LBB20_12-.LJTI20_0
	.long	.LBB20_8-.LJTI20_0
	.long	.LBB20_26-.LJTI20_0
	.long	.LBB20_29-.LJTI20_0
	.long	.LBB20_29-.LJTI20_0
	.long	.LBB20_29-.LJTI20_0
	.long	.LBB20_29-.LJTI20_0
	.long	.LBB20_29-.LJTI20_0
	.long	.LBB20_29-.LJTI20_0
	.long	.LBB20_29-.LJTI20_0
	.long	.LBB20_29-.LJTI20_0
	.long	.LBB20_29-.LJTI20_0
	.long	.LBB20_29-.LJTI20_0
	.long	.LBB20_29-.LJTI20_0
	.long	.LBB20_5-.LJTI20_0
	.long	.LBB20_29-.LJTI20_0
	.long	.LBB20_12-.LJTI20_0
	.long	.LBB20_29-.LJTI20_0
	.long	.LBB20_10-.LJTI20_0
	.long	.LBB20_29-.LJTI20_0
	.long	.LBB20_29-.LJTI20_0
	.long	.LBB20_10-.LJTI20_0
	.long	.LBB20_29-.LJTI20_0
	.long	.LBB20_29-.LJTI20_0
	.long	.LBB20_12-.LJTI20_0
	.long	.LBB20_29-.LJTI20_0
	.long	.LBB20_29-.LJTI20_0
	.long	.LBB20_29-.LJTI20_0
	.long	.LBB20_29-.LJTI20_0
	.long	.LBB20_29-.LJTI20_0
	.long	.LBB20_29-.LJTI20_0
	.long	.LBB20_8-.LJTI20_0
	.long	.LBB20_5-.LJTI20_0
	.long	.LBB20_8-.LJTI20_0
	.long	.LBB20_29-.LJTI20_0
	.long	.LBB20_29-.LJTI20_0
	.long	.LBB20_23-.LJTI20_0

	.section	".text.amqp_in_place::measure::counts_of_pairs","ax",@progbits
	.p2align	4
	.type	"amqp_in_place::measure::counts_of_pairs",@function
"amqp_in_place::measure::counts_of_pairs":
	pushq	%r15
	pushq	%r14
	pushq	%r12
	pushq	%rbx
	pushq	%rax
	testq	%rsi, %rsi
	je	.LBB21_1
	movq	%rsi, %r14
	movq	%rdi, %r12
	xorl	%ebx, %ebx
	xorl	%r15d, %r15d
	jmp	.LBB21_3
.LBB21_10:
	cmpq	$2, %r14
	jb	.LBB21_31
	addq	$3, %rdi
	addq	$-2, %r14
.LBB21_9:
	xorl	%edx, %edx
	movq	%rdi, %r12
.LBB21_29:
	addq	%rax, %r15
	cmpq	%rbx, %rdx
	cmovaq	%rdx, %rbx
	testq	%r14, %r14
	je	.LBB21_30
.LBB21_3:
	decq	%r14
	movzbl	(%r12), %eax
	cmpq	%rax, %r14
	jb	.LBB21_31
	je	.LBB21_31
	movzbl	1(%r12,%rax), %ecx
	addl	$-65, %ecx
	cmpl	$55, %ecx
	ja	.LBB21_31
	leaq	(%r12,%rax), %rdi
	incq	%rdi
	addq	%rax, %r12
	addq	$2, %r12
	notq	%rax
	addq	%rax, %r14
	movl	$1, %eax
	leaq	.LJTI21_0(%rip), %rdx
	movslq	(%rdx,%rcx,4), %rcx
	addq	%rdx, %rcx
	jmpq	*%rcx
.LBB21_14:
	cmpq	$8, %r14
	jb	.LBB21_31
	addq	$9, %rdi
	addq	$-8, %r14
	jmp	.LBB21_9
.LBB21_7:
	testq	%r14, %r14
	je	.LBB21_31
	addq	$2, %rdi
	decq	%r14
	jmp	.LBB21_9
.LBB21_12:
	cmpq	$4, %r14
	jb	.LBB21_31
	addq	$5, %rdi
	addq	$-4, %r14
	jmp	.LBB21_9
.LBB21_25:
	cmpq	$4, %r14
	jb	.LBB21_31
	movl	(%r12), %ecx
	bswapl	%ecx
	addq	$-4, %r14
	subq	%rcx, %r14
	jb	.LBB21_31
	leaq	(%rdi,%rcx), %r12
	addq	$5, %r12
.LBB21_28:
	xorl	%edx, %edx
	jmp	.LBB21_29
.LBB21_21:
	cmpq	$4, %r14
	jb	.LBB21_31
	movl	(%r12), %esi
	bswapl	%esi
	addq	$-4, %r14
	subq	%rsi, %r14
	jb	.LBB21_31
	leaq	(%rdi,%rsi), %r12
	addq	$5, %r12
	addq	$5, %rdi
	callq	"amqp_in_place::measure::counts_of_pairs"
	jmp	.LBB21_24
.LBB21_16:
	cmpq	$5, %r14
	jb	.LBB21_31
	addq	$6, %rdi
	addq	$-5, %r14
	jmp	.LBB21_9
.LBB21_18:
	cmpq	$4, %r14
	jb	.LBB21_31
	movl	(%r12), %esi
	bswapl	%esi
	addq	$-4, %r14
	subq	%rsi, %r14
	jb	.LBB21_31
	leaq	(%rdi,%rsi), %r12
	addq	$5, %r12
	addq	$5, %rdi
	callq	"amqp_in_place::measure::counts_of_values"
.LBB21_24:
	incq	%rax
	incq	%rdx
	jmp	.LBB21_29
.LBB21_1:
	xorl	%r15d, %r15d
	xorl	%ebx, %ebx
.LBB21_30:
	movq	%r15, %rax
	movq	%rbx, %rdx
	addq	$8, %rsp
	popq	%rbx
	popq	%r12
	popq	%r14
	popq	%r15
	retq
.LBB21_31:
	ud2
.Lfunc_end21:
	.size	"amqp_in_place::measure::counts_of_pairs", .Lfunc_end21-"amqp_in_place::measure::counts_of_pairs"
	.section	".rodata.amqp_in_place::measure::counts_of_pairs","a",@progbits
	.p2align	2, 0x0
.LJTI21_0:
	.long	.LBB21_18-.LJTI21_0
	.long	.LBB21_7-.LJTI21_0
	.long	.LBB21_31-.LJTI21_0
	.long	.LBB21_16-.LJTI21_0
	.long	.LBB21_31-.LJTI21_0
	.long	.LBB21_21-.LJTI21_0
	.long	.LBB21_31-.LJTI21_0
	.long	.LBB21_31-.LJTI21_0
	.long	.LBB21_12-.LJTI21_0
	.long	.LBB21_31-.LJTI21_0
	.long	.LBB21_31-.LJTI21_0
	.long	.LBB21_14-.LJTI21_0
	.long	.LBB21_31-.LJTI21_0
	.long	.LBB21_31-.LJTI21_0
	.long	.LBB21_31-.LJTI21_0
	.long	.LBB21_31-.LJTI21_0
	.long	.LBB21_31-.LJTI21_0
	.long	.LBB21_31-.LJTI21_0
	.long	.LBB21_25-.LJTI21_0
	.long	.LBB21_14-.LJTI21_0
	.long	.LBB21_10-.LJTI21_0
	.long	.LBB21_28-.LJTI21_0
	.long	.LBB21_31-.LJTI21_0
	.long	.LBB21_31-.LJTI21_0
	.long	.LBB21_31-.LJTI21_0
	.long	.LBB21_31-.LJTI21_0
	.long	.LBB21_31-.LJTI21_0
	.long	.LBB21_31-.LJTI21_0
	.long	.LBB21_31-.LJTI21_0
	.long	.LBB21_31-.LJTI21_0
	.long	.LBB21_31-.LJTI21_0
	.long	.LBB21_31-.LJTI21_0
	.long	.LBB21_31-.LJTI21_0
	.long	.LBB21_7-.LJTI21_0
	.long	.LBB21_31-.LJTI21_0
	.long	.LBB21_14-.LJTI21_0
	.long	.LBB21_31-.LJTI21_0
	.long	.LBB21_12-.LJTI21_0
	.long	.LBB21_31-.LJTI21_0
	.long	.LBB21_31-.LJTI21_0
	.long	.LBB21_12-.LJTI21_0
	.long	.LBB21_31-.LJTI21_0
	.long	.LBB21_31-.LJTI21_0
	.long	.LBB21_14-.LJTI21_0
	.long	.LBB21_31-.LJTI21_0
	.long	.LBB21_31-.LJTI21_0
	.long	.LBB21_31-.LJTI21_0
	.long	.LBB21_31-.LJTI21_0
	.long	.LBB21_31-.LJTI21_0
	.long	.LBB21_31-.LJTI21_0
	.long	.LBB21_10-.LJTI21_0
	.long	.LBB21_7-.LJTI21_0
	.long	.LBB21_10-.LJTI21_0
	.long	.LBB21_31-.LJTI21_0
	.long	.LBB21_31-.LJTI21_0
	.long	.LBB21_25-.LJTI21_0

	.section	".text.amqp_json::printing::walk::put_array","ax",@progbits
	.p2align	4
	.type	"amqp_json::printing::walk::put_array",@function
"amqp_json::printing::walk::put_array":
	pushq	%r15
	pushq	%r14
	pushq	%r13
	pushq	%r12
	pushq	%rbx
	subq	$32, %rsp
	movq	%rsi, %r14
	movq	%rdi, %rbx
	testb	$1, %cl
	je	.LBB22_3
	movq	%rdx, %rax
	incq	%rax
	movq	$-1, %rcx
	cmovneq	%rax, %rcx
	cmpq	%r14, %rcx
	ja	.LBB22_4
	movb	$44, (%rbx,%rdx)
	jmp	.LBB22_4
.LBB22_3:
	movq	%rdx, %rcx
.LBB22_4:
	movq	%rcx, %rdx
	incq	%rdx
	movq	$-1, %rax
	cmovneq	%rdx, %rax
	cmpq	%r14, %rax
	ja	.LBB22_6
	movb	$91, (%rbx,%rcx)
.LBB22_6:
	testq	%r9, %r9
	je	.LBB22_57
	xorl	%edx, %edx
	jmp	.LBB22_16
.LBB22_8:
	testq	%r12, %r12
	je	.LBB22_60
	addq	$-2, %r9
	movzbl	1(%r8), %ecx
	addq	$2, %r8
	xorl	%r10d, %r10d
	movb	$1, %sil
	.p2align	4
.LBB22_10:
	movq	%r8, %r15
	movq	%r9, %r12
.LBB22_11:
	xorl	%edi, %edi
.LBB22_12:
	xorl	%r11d, %r11d
.LBB22_13:
	xorl	%r13d, %r13d
.LBB22_14:
	movb	%sil, 8(%rsp)
	movb	%cl, 9(%rsp)
	movw	%r10w, 10(%rsp)
	movl	%edi, 12(%rsp)
	movq	%r11, 16(%rsp)
	movq	%r13, 24(%rsp)
	movzbl	%dl, %ecx
	leaq	8(%rsp), %r8
	movq	%rbx, %rdi
	movq	%r14, %rsi
	movq	%rax, %rdx
	callq	"amqp_json::printing::leaves::put_leaf"
.LBB22_15:
	movq	%r12, %r9
	movq	%r15, %r8
	testq	%r12, %r12
	je	.LBB22_57
.LBB22_16:
	movzbl	(%r8), %ecx
	addl	$-65, %ecx
	cmpl	$55, %ecx
	ja	.LBB22_60
	leaq	1(%r8), %r15
	leaq	-1(%r9), %r12
	leaq	.LJTI22_0(%rip), %rsi
	movslq	(%rsi,%rcx,4), %rcx
	addq	%rsi, %rcx
	jmpq	*%rcx
.LBB22_18:
	cmpq	$8, %r12
	jb	.LBB22_60
	movq	1(%r8), %r11
	bswapq	%r11
	addq	$9, %r8
	addq	$-9, %r9
	xorl	%ecx, %ecx
	movb	$7, %sil
	jmp	.LBB22_54
.LBB22_20:
	cmpq	$2, %r12
	jb	.LBB22_60
	movzwl	1(%r8), %r10d
	rolw	$8, %r10w
	addq	$3, %r8
	addq	$-3, %r9
	xorl	%ecx, %ecx
	movb	$3, %sil
	jmp	.LBB22_10
.LBB22_22:
	cmpq	$8, %r12
	jb	.LBB22_60
	movq	1(%r8), %r11
	bswapq	%r11
	addq	$9, %r8
	addq	$-9, %r9
	xorl	%ecx, %ecx
	movb	$9, %sil
	jmp	.LBB22_54
.LBB22_24:
	cmpq	$2, %r12
	jb	.LBB22_60
	movzwl	1(%r8), %r10d
	rolw	$8, %r10w
	addq	$3, %r8
	addq	$-3, %r9
	xorl	%ecx, %ecx
	movb	$4, %sil
	jmp	.LBB22_10
.LBB22_26:
	cmpq	$4, %r12
	jb	.LBB22_60
	movl	1(%r8), %edi
	bswapl	%edi
	addq	$5, %r8
	addq	$-5, %r9
	movb	$8, %sil
	jmp	.LBB22_37
.LBB22_28:
	testq	%r12, %r12
	je	.LBB22_60
	addq	$-2, %r9
	cmpb	$0, 1(%r8)
	leaq	2(%r8), %r15
	setne	%cl
	xorl	%esi, %esi
	movq	%r9, %r12
	jmp	.LBB22_56
.LBB22_30:
	cmpq	$4, %r12
	jb	.LBB22_60
	movl	1(%r8), %edi
	bswapl	%edi
	addq	$5, %r8
	addq	$-5, %r9
	movb	$6, %sil
	jmp	.LBB22_37
.LBB22_32:
	cmpq	$5, %r9
	jb	.LBB22_60
	movl	(%r15), %r13d
	bswapl	%r13d
	addq	$-5, %r9
	movq	%r9, %r12
	subq	%r13, %r12
	jb	.LBB22_60
	leaq	(%r8,%r13), %r15
	addq	$5, %r15
	addq	$5, %r8
	xorl	%ecx, %ecx
	movb	$11, %sil
	jmp	.LBB22_48
.LBB22_35:
	cmpq	$4, %r12
	jb	.LBB22_60
	movl	1(%r8), %edi
	bswapl	%edi
	addq	$5, %r8
	addq	$-5, %r9
	movb	$5, %sil
.LBB22_37:
	xorl	%ecx, %ecx
	movq	%r8, %r15
	movq	%r9, %r12
	xorl	%r10d, %r10d
	jmp	.LBB22_12
.LBB22_38:
	cmpq	$6, %r9
	jb	.LBB22_60
	movzbl	1(%r8), %edi
	movl	2(%r8), %r11d
	bswapl	%r11d
	addq	$6, %r8
	addq	$-6, %r9
	movb	$10, %sil
	xorl	%ecx, %ecx
	movq	%r8, %r15
	movq	%r9, %r12
	xorl	%r10d, %r10d
	jmp	.LBB22_13
.LBB22_40:
	cmpq	$5, %r9
	jb	.LBB22_60
	movl	(%r15), %r10d
	bswapl	%r10d
	addq	$-5, %r9
	movq	%r9, %r12
	subq	%r10, %r12
	jb	.LBB22_60
	leaq	(%r8,%r10), %r15
	addq	$5, %r15
	addq	$5, %r8
	movzbl	%dl, %ecx
	movq	%rbx, %rdi
	movq	%r14, %rsi
	movq	%rax, %rdx
	movq	%r10, %r9
	callq	"amqp_json::printing::walk::put_table"
	jmp	.LBB22_15
.LBB22_43:
	testq	%r12, %r12
	je	.LBB22_60
	addq	$-2, %r9
	movzbl	1(%r8), %ecx
	addq	$2, %r8
	xorl	%r10d, %r10d
	movb	$2, %sil
	jmp	.LBB22_10
.LBB22_45:
	cmpq	$5, %r9
	jb	.LBB22_60
	movl	(%r15), %r13d
	bswapl	%r13d
	addq	$-5, %r9
	movq	%r9, %r12
	subq	%r13, %r12
	jb	.LBB22_60
	leaq	(%r8,%r13), %r15
	addq	$5, %r15
	addq	$5, %r8
	xorl	%ecx, %ecx
	movb	$15, %sil
.LBB22_48:
	xorl	%r10d, %r10d
	xorl	%edi, %edi
	movq	%r8, %r11
	jmp	.LBB22_14
.LBB22_49:
	cmpq	$5, %r9
	jb	.LBB22_60
	movl	(%r15), %r10d
	bswapl	%r10d
	addq	$-5, %r9
	movq	%r9, %r12
	subq	%r10, %r12
	jb	.LBB22_60
	leaq	(%r8,%r10), %r15
	addq	$5, %r15
	addq	$5, %r8
	movzbl	%dl, %ecx
	movq	%rbx, %rdi
	movq	%r14, %rsi
	movq	%rax, %rdx
	movq	%r10, %r9
	callq	"amqp_json::printing::walk::put_array"
	jmp	.LBB22_15
.LBB22_52:
	cmpq	$8, %r12
	jb	.LBB22_60
	movq	1(%r8), %r11
	bswapq	%r11
	addq	$9, %r8
	addq	$-9, %r9
	xorl	%ecx, %ecx
	movb	$13, %sil
.LBB22_54:
	movq	%r8, %r15
	movq	%r9, %r12
	xorl	%r10d, %r10d
	xorl	%edi, %edi
	jmp	.LBB22_13
.LBB22_55:
	movb	$16, %sil
	xorl	%ecx, %ecx
.LBB22_56:
	xorl	%r10d, %r10d
	jmp	.LBB22_11
.LBB22_57:
	movq	%rax, %rdx
	incq	%rdx
	movq	$-1, %rcx
	cmovneq	%rdx, %rcx
	cmpq	%r14, %rcx
	ja	.LBB22_59
	movb	$93, (%rbx,%rax)
.LBB22_59:
	movq	%rcx, %rax
	movb	$1, %dl
	addq	$32, %rsp
	popq	%rbx
	popq	%r12
	popq	%r13
	popq	%r14
	popq	%r15
	retq
.LBB22_60:
	ud2
.Lfunc_end22:
	.size	"amqp_json::printing::walk::put_array", .Lfunc_end22-"amqp_json::printing::walk::put_array"
	.section	".rodata.amqp_json::printing::walk::put_array","a",@progbits
	.p2align	2, 0x0
.LJTI22_0:
	.long	.LBB22_49-.LJTI22_0
	.long	.LBB22_43-.LJTI22_0
	.long	.LBB22_60-.LJTI22_0
	.long	.LBB22_38-.LJTI22_0
	.long	.LBB22_60-.LJTI22_0
	.long	.LBB22_40-.LJTI22_0
	.long	.LBB22_60-.LJTI22_0
	.long	.LBB22_60-.LJTI22_0
	.long	.LBB22_35-.LJTI22_0
	.long	.LBB22_60-.LJTI22_0
	.long	.LBB22_60-.LJTI22_0
	.long	.LBB22_18-.LJTI22_0
	.long	.LBB22_60-.LJTI22_0
	.long	.LBB22_60-.LJTI22_0
	.long	.LBB22_60-.LJTI22_0
	.long	.LBB22_60-.LJTI22_0
	.long	.LBB22_60-.LJTI22_0
	.long	.LBB22_60-.LJTI22_0
	.long	.LBB22_32-.LJTI22_0
	.long	.LBB22_52-.LJTI22_0
	.long	.LBB22_20-.LJTI22_0
	.long	.LBB22_55-.LJTI22_0
	.long	.LBB22_60-.LJTI22_0
	.long	.LBB22_60-.LJTI22_0
	.long	.LBB22_60-.LJTI22_0
	.long	.LBB22_60-.LJTI22_0
	.long	.LBB22_60-.LJTI22_0
	.long	.LBB22_60-.LJTI22_0
	.long	.LBB22_60-.LJTI22_0
	.long	.LBB22_60-.LJTI22_0
	.long	.LBB22_60-.LJTI22_0
	.long	.LBB22_60-.LJTI22_0
	.long	.LBB22_60-.LJTI22_0
	.long	.LBB22_8-.LJTI22_0
	.long	.LBB22_60-.LJTI22_0
	.long	.LBB22_22-.LJTI22_0
	.long	.LBB22_60-.LJTI22_0
	.long	.LBB22_26-.LJTI22_0
	.long	.LBB22_60-.LJTI22_0
	.long	.LBB22_60-.LJTI22_0
	.long	.LBB22_30-.LJTI22_0
	.long	.LBB22_60-.LJTI22_0
	.long	.LBB22_60-.LJTI22_0
	.long	.LBB22_18-.LJTI22_0
	.long	.LBB22_60-.LJTI22_0
	.long	.LBB22_60-.LJTI22_0
	.long	.LBB22_60-.LJTI22_0
	.long	.LBB22_60-.LJTI22_0
	.long	.LBB22_60-.LJTI22_0
	.long	.LBB22_60-.LJTI22_0
	.long	.LBB22_20-.LJTI22_0
	.long	.LBB22_28-.LJTI22_0
	.long	.LBB22_24-.LJTI22_0
	.long	.LBB22_60-.LJTI22_0
	.long	.LBB22_60-.LJTI22_0
	.long	.LBB22_45-.LJTI22_0

	.section	.rodata.cst16,"aM",@progbits,16
	.p2align	4, 0x0
.LCPI23_0:
	.byte	34
	.byte	34
	.byte	34
	.byte	34
	.byte	34
	.byte	34
	.byte	34
	.byte	34
	.zero	1
	.zero	1
	.zero	1
	.zero	1
	.zero	1
	.zero	1
	.zero	1
	.zero	1
.LCPI23_1:
	.byte	92
	.byte	92
	.byte	92
	.byte	92
	.byte	92
	.byte	92
	.byte	92
	.byte	92
	.zero	1
	.zero	1
	.zero	1
	.zero	1
	.zero	1
	.zero	1
	.zero	1
	.zero	1
.LCPI23_2:
	.byte	32
	.byte	32
	.byte	32
	.byte	32
	.byte	32
	.byte	32
	.byte	32
	.byte	32
	.zero	1
	.zero	1
	.zero	1
	.zero	1
	.zero	1
	.zero	1
	.zero	1
	.zero	1
	.section	".text.amqp_json::printing::put::put_escaped","ax",@progbits
	.p2align	4
	.type	"amqp_json::printing::put::put_escaped",@function
"amqp_json::printing::put::put_escaped":
	pushq	%rbp
	pushq	%r15
	pushq	%r14
	pushq	%r13
	pushq	%r12
	pushq	%rbx
	pushq	%rax
	testq	%r8, %r8
	je	.LBB23_49
	movq	%r8, %rbp
	movq	%rcx, %r14
	movq	%rsi, %r15
	movq	%rdi, %r12
	xorl	%ecx, %ecx
	jmp	.LBB23_4
	.p2align	4
.LBB23_2:
	incq	%rcx
	movq	%rcx, %rbx
.LBB23_3:
	movq	%r13, %rdx
	movq	%rbx, %rcx
	cmpq	%rbp, %rbx
	jae	.LBB23_50
.LBB23_4:
	movzbl	(%r14,%rcx), %eax
	cmpl	$32, %eax
	jb	.LBB23_21
	cmpl	$34, %eax
	je	.LBB23_32
	cmpl	$92, %eax
	je	.LBB23_32
	movq	%rbp, %rax
	subq	%rcx, %rax
	movq	%rcx, %rbx
	cmpq	$8, %rax
	jb	.LBB23_11
	movq	%rcx, %rbx
	.p2align	4
.LBB23_9:
	movq	(%r14,%rbx), %xmm0
	movdqa	.LCPI23_0(%rip), %xmm1
	pcmpeqb	%xmm0, %xmm1
	movdqa	.LCPI23_1(%rip), %xmm2
	pcmpeqb	%xmm0, %xmm2
	por	%xmm1, %xmm2
	movdqa	.LCPI23_2(%rip), %xmm1
	pmaxub	%xmm0, %xmm1
	pcmpeqb	%xmm0, %xmm1
	pcmpeqd	%xmm0, %xmm0
	pxor	%xmm1, %xmm0
	por	%xmm2, %xmm0
	pmovmskb	%xmm0, %esi
	testb	%sil, %sil
	jne	.LBB23_11
	addq	$8, %rbx
	addq	$-8, %rax
	cmpq	$7, %rax
	ja	.LBB23_9
.LBB23_11:
	cmpq	%rbp, %rbx
	jae	.LBB23_17
	.p2align	4
.LBB23_12:
	movzbl	(%r14,%rbx), %eax
	cmpl	$32, %eax
	jb	.LBB23_17
	cmpl	$34, %eax
	je	.LBB23_17
	cmpl	$92, %eax
	je	.LBB23_17
	incq	%rbx
	cmpq	%rbx, %rbp
	jne	.LBB23_12
	movq	%rbp, %rbx
.LBB23_17:
	movq	%rbx, %rax
	subq	%rcx, %rax
	movq	%rax, %rsi
	addq	%rdx, %rsi
	movq	$-1, %r13
	cmovaeq	%rsi, %r13
	cmpq	%r15, %r13
	ja	.LBB23_3
	leaq	(%r14,%rcx), %rsi
	leaq	(%r12,%rdx), %rdi
	movq	%rdi, %r8
	subq	%rsi, %r8
	cmpq	%rax, %r8
	jae	.LBB23_34
	cmpq	$4, %rax
	jb	.LBB23_20
	cmpq	$32, %r8
	jae	.LBB23_39
.LBB23_20:
	xorl	%r8d, %r8d
	jmp	.LBB23_48
	.p2align	4
.LBB23_21:
	leal	-8(%rax), %esi
	cmpl	$26, %esi
	ja	.LBB23_24
	leaq	.LJTI23_0(%rip), %rdi
	movslq	(%rdi,%rsi,4), %rsi
	addq	%rdi, %rsi
	jmpq	*%rsi
.LBB23_23:
	movb	$98, %al
	jmp	.LBB23_32
.LBB23_24:
	cmpl	$92, %eax
	je	.LBB23_32
.LBB23_25:
	movq	%rdx, %rsi
	cmpb	$31, %al
	ja	.LBB23_35
	addq	$6, %rsi
	movq	$-1, %r13
	cmovaeq	%rsi, %r13
	cmpq	%r15, %r13
	ja	.LBB23_2
	movl	%eax, %esi
	andb	$15, %sil
	movl	%eax, %edi
	orb	$48, %dil
	leal	87(%rsi), %r8d
	cmpb	$10, %sil
	movzbl	%dil, %esi
	movzbl	%r8b, %edi
	cmovbl	%esi, %edi
	shrb	$4, %al
	orb	$48, %al
	movl	$808482140, (%r12,%rdx)
	movb	%al, 4(%r12,%rdx)
	movb	%dil, 5(%r12,%rdx)
	jmp	.LBB23_2
.LBB23_28:
	movb	$116, %al
	jmp	.LBB23_32
.LBB23_29:
	movb	$114, %al
	jmp	.LBB23_32
.LBB23_30:
	movb	$110, %al
	jmp	.LBB23_32
.LBB23_31:
	movb	$102, %al
	.p2align	4
.LBB23_32:
	movq	%rdx, %rsi
	addq	$2, %rsi
	movq	$-1, %r13
	cmovaeq	%rsi, %r13
	cmpq	%r15, %r13
	ja	.LBB23_2
	movzbl	%al, %eax
	shll	$8, %eax
	orl	$92, %eax
	movw	%ax, (%r12,%rdx)
	jmp	.LBB23_2
.LBB23_34:
	movq	%rax, %rdx
	callq	memmove@PLT
	jmp	.LBB23_3
.LBB23_35:
	incq	%rsi
	movq	$-1, %r13
	cmovneq	%rsi, %r13
	cmpq	%r15, %r13
	ja	.LBB23_2
	movb	%al, (%r12,%rdx)
	jmp	.LBB23_2
.LBB23_39:
	cmpq	$32, %rax
	jae	.LBB23_41
	xorl	%r8d, %r8d
	jmp	.LBB23_45
.LBB23_41:
	movq	%rax, %r8
	andq	$-32, %r8
	leaq	16(%r14), %r9
	addq	%r9, %rcx
	leaq	16(%r12), %r9
	addq	%r9, %rdx
	xorl	%r9d, %r9d
	.p2align	4
.LBB23_42:
	movdqu	-16(%rcx,%r9), %xmm0
	movdqu	(%rcx,%r9), %xmm1
	movdqu	%xmm0, -16(%rdx,%r9)
	movdqu	%xmm1, (%rdx,%r9)
	addq	$32, %r9
	cmpq	%r9, %r8
	jne	.LBB23_42
	cmpq	%r8, %rax
	je	.LBB23_3
	testb	$28, %al
	je	.LBB23_48
.LBB23_45:
	movq	%r8, %rcx
	movq	%rax, %r8
	andq	$-4, %r8
	.p2align	4
.LBB23_46:
	movl	(%rsi,%rcx), %edx
	movl	%edx, (%rdi,%rcx)
	addq	$4, %rcx
	cmpq	%rcx, %r8
	jne	.LBB23_46
	.p2align	4
.LBB23_47:
	cmpq	%r8, %rax
	je	.LBB23_3
.LBB23_48:
	movzbl	(%rsi,%r8), %ecx
	movb	%cl, (%rdi,%r8)
	incq	%r8
	jmp	.LBB23_47
.LBB23_49:
	movq	%rdx, %r13
.LBB23_50:
	movq	%r13, %rax
	addq	$8, %rsp
	popq	%rbx
	popq	%r12
	popq	%r13
	popq	%r14
	popq	%r15
	popq	%rbp
	retq
.Lfunc_end23:
	.size	"amqp_json::printing::put::put_escaped", .Lfunc_end23-"amqp_json::printing::put::put_escaped"
	.section	".rodata.amqp_json::printing::put::put_escaped","a",@progbits
	.p2align	2, 0x0
.LJTI23_0:
	.long	.LBB23_23-.LJTI23_0
	.long	.LBB23_28-.LJTI23_0
	.long	.LBB23_30-.LJTI23_0
	.long	.LBB23_25-.LJTI23_0
	.long	.LBB23_31-.LJTI23_0
	.long	.LBB23_29-.LJTI23_0
	.long	.LBB23_25-.LJTI23_0
	.long	.LBB23_25-.LJTI23_0
	.long	.LBB23_25-.LJTI23_0
	.long	.LBB23_25-.LJTI23_0
	.long	.LBB23_25-.LJTI23_0
	.long	.LBB23_25-.LJTI23_0
	.long	.LBB23_25-.LJTI23_0
	.long	.LBB23_25-.LJTI23_0
	.long	.LBB23_25-.LJTI23_0
	.long	.LBB23_25-.LJTI23_0
	.long	.LBB23_25-.LJTI23_0
	.long	.LBB23_25-.LJTI23_0
	.long	.LBB23_25-.LJTI23_0
	.long	.LBB23_25-.LJTI23_0
	.long	.LBB23_25-.LJTI23_0
	.long	.LBB23_25-.LJTI23_0
	.long	.LBB23_25-.LJTI23_0
	.long	.LBB23_25-.LJTI23_0
	.long	.LBB23_25-.LJTI23_0
	.long	.LBB23_25-.LJTI23_0
	.long	.LBB23_32-.LJTI23_0

	.section	".text.amqp_json::printing::walk::put_table","ax",@progbits
	.p2align	4
	.type	"amqp_json::printing::walk::put_table",@function
"amqp_json::printing::walk::put_table":
	pushq	%rbp
	pushq	%r15
	pushq	%r14
	pushq	%r13
	pushq	%r12
	pushq	%rbx
	subq	$72, %rsp
	movq	%r9, %r15
	movq	%r8, %r12
	testb	$1, %cl
	je	.LBB24_1
	movq	%rdx, %rax
	incq	%rax
	movq	$-1, %rcx
	cmovneq	%rax, %rcx
	cmpq	%rsi, %rcx
	ja	.LBB24_4
	movb	$44, (%rdi,%rdx)
	jmp	.LBB24_4
.LBB24_1:
	movq	%rdx, %rcx
.LBB24_4:
	movq	%rcx, %rdx
	incq	%rdx
	movq	$-1, %rax
	cmovneq	%rdx, %rax
	cmpq	%rsi, %rax
	ja	.LBB24_6
	movb	$123, (%rdi,%rcx)
.LBB24_6:
	testq	%r15, %r15
	je	.LBB24_82
	xorl	%edx, %edx
	movq	%rsi, 40(%rsp)
	jmp	.LBB24_8
	.p2align	4
.LBB24_76:
	cmpb	$12, %bl
	jae	.LBB24_77
.LBB24_80:
	movb	%bl, 48(%rsp)
	movq	32(%rsp), %rax
	movb	%al, 49(%rsp)
	movq	24(%rsp), %rax
	movw	%ax, 50(%rsp)
	movl	12(%rsp), %eax
	movl	%eax, 52(%rsp)
	movq	16(%rsp), %rax
	movq	%rax, 56(%rsp)
	movq	%r13, 64(%rsp)
	leaq	48(%rsp), %r8
	movq	%r14, %rdi
	movq	40(%rsp), %rsi
	xorl	%ecx, %ecx
	callq	"amqp_json::printing::leaves::put_leaf"
.LBB24_81:
	testq	%r15, %r15
	movq	%r14, %rdi
	movq	40(%rsp), %rsi
	je	.LBB24_82
.LBB24_8:
	leaq	1(%r12), %rcx
	decq	%r15
	movzbl	(%r12), %r8d
	cmpq	%r8, %r15
	jb	.LBB24_59
	je	.LBB24_59
	movzbl	(%rcx,%r8), %r9d
	addl	$-65, %r9d
	cmpl	$55, %r9d
	ja	.LBB24_59
	movq	%r12, %r14
	leaq	(%rcx,%r8), %r11
	leaq	(%rcx,%r8), %r12
	incq	%r12
	movq	%r8, %r10
	notq	%r10
	addq	%r10, %r15
	leaq	.LJTI24_0(%rip), %r10
	movslq	(%r10,%r9,4), %r9
	addq	%r10, %r9
	jmpq	*%r9
.LBB24_32:
	cmpq	$8, %r15
	jb	.LBB24_59
	movq	1(%r11), %r9
	bswapq	%r9
	movq	%r9, 16(%rsp)
	addq	$9, %r11
	addq	$-8, %r15
	movq	$0, 32(%rsp)
	movb	$7, %bl
	jmp	.LBB24_34
	.p2align	4
.LBB24_77:
	movzbl	%bl, %eax
	addl	$-12, %eax
	leaq	.LJTI24_1(%rip), %rcx
	movslq	(%rcx,%rax,4), %rax
	addq	%rcx, %rax
	jmpq	*%rax
.LBB24_78:
	movq	%r14, %rdi
	movq	40(%rsp), %rsi
	xorl	%ecx, %ecx
	movq	16(%rsp), %r8
	movq	%r13, %r9
	callq	"amqp_json::printing::walk::put_array"
	jmp	.LBB24_81
.LBB24_23:
	cmpq	$2, %r15
	jb	.LBB24_59
	movzwl	1(%r11), %r9d
	rolw	$8, %r9w
	movq	%r9, 24(%rsp)
	addq	$3, %r11
	addq	$-2, %r15
	movq	$0, 32(%rsp)
	movb	$3, %bl
	jmp	.LBB24_18
.LBB24_79:
	movq	%r14, %rdi
	movq	40(%rsp), %rsi
	xorl	%ecx, %ecx
	movq	16(%rsp), %r8
	movq	%r13, %r9
	callq	"amqp_json::printing::walk::put_table"
	jmp	.LBB24_81
.LBB24_16:
	testq	%r15, %r15
	je	.LBB24_59
	decq	%r15
	movzbl	1(%r11), %r9d
	movq	%r9, 32(%rsp)
	addq	$2, %r11
	movq	$0, 24(%rsp)
	movb	$1, %bl
	jmp	.LBB24_18
.LBB24_37:
	cmpq	$8, %r15
	jb	.LBB24_59
	movq	1(%r11), %r9
	bswapq	%r9
	movq	%r9, 16(%rsp)
	addq	$9, %r11
	addq	$-8, %r15
	movq	$0, 32(%rsp)
	movb	$9, %bl
	jmp	.LBB24_34
.LBB24_25:
	cmpq	$2, %r15
	jb	.LBB24_59
	movzwl	1(%r11), %r9d
	rolw	$8, %r9w
	movq	%r9, 24(%rsp)
	addq	$3, %r11
	addq	$-2, %r15
	movq	$0, 32(%rsp)
	movb	$4, %bl
	jmp	.LBB24_18
.LBB24_35:
	cmpq	$4, %r15
	jb	.LBB24_59
	movl	1(%r11), %r9d
	bswapl	%r9d
	movl	%r9d, 12(%rsp)
	addq	$5, %r11
	addq	$-4, %r15
	movb	$8, %bl
	jmp	.LBB24_29
.LBB24_14:
	testq	%r15, %r15
	je	.LBB24_59
	leaq	2(%r11), %r12
	decq	%r15
	cmpb	$0, 1(%r11)
	setne	%r9b
	movq	%r9, 32(%rsp)
	xorl	%ebx, %ebx
	movq	$0, 24(%rsp)
	jmp	.LBB24_19
.LBB24_30:
	cmpq	$4, %r15
	jb	.LBB24_59
	movl	1(%r11), %r9d
	bswapl	%r9d
	movl	%r9d, 12(%rsp)
	addq	$5, %r11
	addq	$-4, %r15
	movb	$6, %bl
	jmp	.LBB24_29
.LBB24_50:
	cmpq	$4, %r15
	jb	.LBB24_59
	movl	(%r12), %r13d
	bswapl	%r13d
	addq	$-4, %r15
	subq	%r13, %r15
	jb	.LBB24_59
	leaq	(%r11,%r13), %r12
	addq	$5, %r12
	addq	$5, %r11
	movq	$0, 32(%rsp)
	movb	$11, %bl
	jmp	.LBB24_53
.LBB24_27:
	cmpq	$4, %r15
	jb	.LBB24_59
	movl	1(%r11), %r9d
	bswapl	%r9d
	movl	%r9d, 12(%rsp)
	addq	$5, %r11
	addq	$-4, %r15
	movb	$5, %bl
.LBB24_29:
	movq	$0, 32(%rsp)
	movq	%r11, %r12
	movq	$0, 24(%rsp)
	jmp	.LBB24_20
.LBB24_39:
	cmpq	$5, %r15
	jb	.LBB24_59
	movzbl	1(%r11), %r9d
	movl	%r9d, 12(%rsp)
	movl	2(%r11), %r9d
	bswapl	%r9d
	movq	%r9, 16(%rsp)
	addq	$6, %r11
	addq	$-5, %r15
	movb	$10, %bl
	movq	$0, 32(%rsp)
	movq	%r11, %r12
	movq	$0, 24(%rsp)
	xorl	%r13d, %r13d
	cmpb	$1, %dl
	jne	.LBB24_46
	jmp	.LBB24_60
.LBB24_47:
	cmpq	$4, %r15
	jb	.LBB24_59
	movl	(%r12), %r13d
	bswapl	%r13d
	addq	$-4, %r15
	subq	%r13, %r15
	jb	.LBB24_59
	leaq	(%r11,%r13), %r12
	addq	$5, %r12
	addq	$5, %r11
	movb	$14, %bl
	jmp	.LBB24_44
.LBB24_21:
	testq	%r15, %r15
	je	.LBB24_59
	decq	%r15
	movzbl	1(%r11), %r9d
	movq	%r9, 32(%rsp)
	addq	$2, %r11
	movq	$0, 24(%rsp)
	movb	$2, %bl
	.p2align	4
.LBB24_18:
	movq	%r11, %r12
.LBB24_19:
	movl	$0, 12(%rsp)
.LBB24_20:
	movq	$0, 16(%rsp)
	xorl	%r13d, %r13d
	cmpb	$1, %dl
	jne	.LBB24_46
	jmp	.LBB24_60
.LBB24_56:
	cmpq	$4, %r15
	jb	.LBB24_59
	movl	(%r12), %r13d
	bswapl	%r13d
	addq	$-4, %r15
	subq	%r13, %r15
	jb	.LBB24_59
	leaq	(%r11,%r13), %r12
	addq	$5, %r12
	addq	$5, %r11
	movq	$0, 32(%rsp)
	movb	$15, %bl
.LBB24_53:
	movq	$0, 24(%rsp)
	movl	$0, 12(%rsp)
	movq	%r11, 16(%rsp)
	cmpb	$1, %dl
	jne	.LBB24_46
	jmp	.LBB24_60
.LBB24_41:
	cmpq	$4, %r15
	jb	.LBB24_59
	movl	(%r12), %r13d
	bswapl	%r13d
	addq	$-4, %r15
	subq	%r13, %r15
	jb	.LBB24_59
	leaq	(%r11,%r13), %r12
	addq	$5, %r12
	addq	$5, %r11
	movb	$12, %bl
.LBB24_44:
	movl	$0, 12(%rsp)
	movq	%r11, 16(%rsp)
	movq	$0, 32(%rsp)
	movq	$0, 24(%rsp)
	cmpb	$1, %dl
	je	.LBB24_60
	.p2align	4
.LBB24_46:
	movq	%rax, %r10
	jmp	.LBB24_62
.LBB24_54:
	cmpq	$8, %r15
	jb	.LBB24_59
	movq	1(%r11), %r9
	bswapq	%r9
	movq	%r9, 16(%rsp)
	addq	$9, %r11
	addq	$-8, %r15
	movq	$0, 32(%rsp)
	movb	$13, %bl
.LBB24_34:
	movq	%r11, %r12
	movq	$0, 24(%rsp)
	movl	$0, 12(%rsp)
	xorl	%r13d, %r13d
	cmpb	$1, %dl
	jne	.LBB24_46
.LBB24_60:
	movq	%rax, %rdx
	incq	%rdx
	movq	$-1, %r10
	cmovneq	%rdx, %r10
	cmpq	%rsi, %r10
	ja	.LBB24_62
	movb	$44, (%rdi,%rax)
.LBB24_62:
	testq	%r8, %r8
	je	.LBB24_72
	movzbl	(%rcx), %eax
	testb	%al, %al
	jns	.LBB24_69
	movzbl	2(%r14), %edx
	andl	$63, %edx
	cmpb	$-33, %al
	ja	.LBB24_66
	andl	$31, %eax
	shll	$6, %eax
	orl	%edx, %eax
	cmpl	$36, %eax
	je	.LBB24_70
	jmp	.LBB24_72
.LBB24_66:
	movzbl	3(%r14), %r9d
	andl	$63, %r9d
	cmpb	$-17, %al
	ja	.LBB24_68
	shll	$12, %eax
	movzwl	%ax, %eax
	shll	$6, %edx
	orl	%eax, %edx
	orl	%r9d, %edx
	movl	%edx, %eax
	.p2align	4
.LBB24_69:
	cmpl	$36, %eax
	jne	.LBB24_72
.LBB24_70:
	movq	%r10, %rax
	addq	$2, %rax
	movq	$-1, %rdx
	cmovaeq	%rax, %rdx
	cmpq	%rsi, %rdx
	ja	.LBB24_74
	addq	%rdi, %r10
	leaq	.Lstatic.11(%rip), %rax
	movq	%r10, %rsi
	subq	%rax, %rsi
	cmpq	$1, %rsi
	movw	$9250, (%r10)
	jmp	.LBB24_74
.LBB24_68:
	movzbl	4(%r14), %r11d
	andl	$63, %r11d
	andl	$7, %eax
	shll	$18, %eax
	shll	$12, %edx
	orl	%eax, %edx
	shll	$6, %r9d
	orl	%edx, %r9d
	orl	%r11d, %r9d
	movl	%r9d, %eax
	cmpl	$36, %eax
	je	.LBB24_70
	.p2align	4
.LBB24_72:
	movq	%r10, %rax
	incq	%rax
	movq	$-1, %rdx
	cmovneq	%rax, %rdx
	cmpq	%rsi, %rdx
	ja	.LBB24_74
	movb	$34, (%rdi,%r10)
.LBB24_74:
	movq	%rdi, %r14
	movq	40(%rsp), %rbp
	movq	%rbp, %rsi
	callq	"amqp_json::printing::put::put_escaped"
	movq	%rax, %rcx
	addq	$2, %rcx
	movq	$-1, %rdx
	cmovaeq	%rcx, %rdx
	cmpq	%rbp, %rdx
	ja	.LBB24_76
	addq	%r14, %rax
	leaq	.Lstatic.6(%rip), %rcx
	movq	%rax, %rsi
	subq	%rcx, %rsi
	cmpq	$1, %rsi
	movw	$14882, (%rax)
	jmp	.LBB24_76
.LBB24_12:
	movq	$0, 32(%rsp)
	movb	$16, %bl
	movq	$0, 24(%rsp)
	jmp	.LBB24_19
.LBB24_82:
	movq	%rax, %rdx
	incq	%rdx
	movq	$-1, %rcx
	cmovneq	%rdx, %rcx
	cmpq	%rsi, %rcx
	ja	.LBB24_84
	movb	$125, (%rdi,%rax)
.LBB24_84:
	movq	%rcx, %rax
	movb	$1, %dl
	addq	$72, %rsp
	popq	%rbx
	popq	%r12
	popq	%r13
	popq	%r14
	popq	%r15
	popq	%rbp
	retq
.LBB24_59:
	ud2
.Lfunc_end24:
	.size	"amqp_json::printing::walk::put_table", .Lfunc_end24-"amqp_json::printing::walk::put_table"
	.section	".rodata.amqp_json::printing::walk::put_table","a",@progbits
	.p2align	2, 0x0
.LJTI24_0:
	.long	.LBB24_41-.LJTI24_0
	.long	.LBB24_21-.LJTI24_0
	.long	.LBB24_59-.LJTI24_0
	.long	.LBB24_39-.LJTI24_0
	.long	.LBB24_59-.LJTI24_0
	.long	.LBB24_47-.LJTI24_0
	.long	.LBB24_59-.LJTI24_0
	.long	.LBB24_59-.LJTI24_0
	.long	.LBB24_27-.LJTI24_0
	.long	.LBB24_59-.LJTI24_0
	.long	.LBB24_59-.LJTI24_0
	.long	.LBB24_32-.LJTI24_0
	.long	.LBB24_59-.LJTI24_0
	.long	.LBB24_59-.LJTI24_0
	.long	.LBB24_59-.LJTI24_0
	.long	.LBB24_59-.LJTI24_0
	.long	.LBB24_59-.LJTI24_0
	.long	.LBB24_59-.LJTI24_0
	.long	.LBB24_50-.LJTI24_0
	.long	.LBB24_54-.LJTI24_0
	.long	.LBB24_23-.LJTI24_0
	.long	.LBB24_12-.LJTI24_0
	.long	.LBB24_59-.LJTI24_0
	.long	.LBB24_59-.LJTI24_0
	.long	.LBB24_59-.LJTI24_0
	.long	.LBB24_59-.LJTI24_0
	.long	.LBB24_59-.LJTI24_0
	.long	.LBB24_59-.LJTI24_0
	.long	.LBB24_59-.LJTI24_0
	.long	.LBB24_59-.LJTI24_0
	.long	.LBB24_59-.LJTI24_0
	.long	.LBB24_59-.LJTI24_0
	.long	.LBB24_59-.LJTI24_0
	.long	.LBB24_16-.LJTI24_0
	.long	.LBB24_59-.LJTI24_0
	.long	.LBB24_37-.LJTI24_0
	.long	.LBB24_59-.LJTI24_0
	.long	.LBB24_35-.LJTI24_0
	.long	.LBB24_59-.LJTI24_0
	.long	.LBB24_59-.LJTI24_0
	.long	.LBB24_30-.LJTI24_0
	.long	.LBB24_59-.LJTI24_0
	.long	.LBB24_59-.LJTI24_0
	.long	.LBB24_32-.LJTI24_0
	.long	.LBB24_59-.LJTI24_0
	.long	.LBB24_59-.LJTI24_0
	.long	.LBB24_59-.LJTI24_0
	.long	.LBB24_59-.LJTI24_0
	.long	.LBB24_59-.LJTI24_0
	.long	.LBB24_59-.LJTI24_0
	.long	.LBB24_23-.LJTI24_0
	.long	.LBB24_14-.LJTI24_0
	.long	.LBB24_25-.LJTI24_0
	.long	.LBB24_59-.LJTI24_0
	.long	.LBB24_59-.LJTI24_0
	.long	.LBB24_56-.LJTI24_0
.LJTI24_1:
	.long	.LBB24_78-.LJTI24_1
	.long	.LBB24_80-.LJTI24_1
	.long	.LBB24_79-.LJTI24_1
	.long	.LBB24_80-.LJTI24_1
	.long	.LBB24_80-.LJTI24_1

	.section	".text.amqp_json::printing::leaves::put_leaf","ax",@progbits
	.p2align	4
	.type	"amqp_json::printing::leaves::put_leaf",@function
"amqp_json::printing::leaves::put_leaf":
	pushq	%r15
	pushq	%r14
	pushq	%rbx
	subq	$16, %rsp
	movq	%r8, %r9
	movzbl	(%r8), %r14d
	movsbq	1(%r8), %r11
	movswq	2(%r8), %rbx
	movslq	4(%r8), %r8
	movl	%r8d, %eax
	movq	8(%r9), %r10
	movq	16(%r9), %r9
	leaq	.LJTI25_0(%rip), %r15
	movslq	(%r15,%r14,4), %r14
	addq	%r15, %r14
	jmpq	*%r14
.LBB25_1:
	cmpb	$1, %cl
	jne	.LBB25_21
	movq	%rdx, %rax
	incq	%rax
	movq	$-1, %rcx
	cmovneq	%rax, %rcx
	cmpq	%rsi, %rcx
	ja	.LBB25_22
	movb	$44, (%rdi,%rdx)
	jmp	.LBB25_22
.LBB25_4:
	movq	%r10, (%rsp)
	movzbl	%cl, %ecx
	leaq	.Lstatic.18(%rip), %r8
	jmp	.LBB25_7
.LBB25_5:
	movzbl	%cl, %ecx
	movq	%r10, %r8
	addq	$16, %rsp
	popq	%rbx
	popq	%r14
	popq	%r15
	jmp	"amqp_json::printing::leaves::long_string"
.LBB25_6:
	movzwl	%bx, %eax
	movq	%rax, (%rsp)
	movzbl	%cl, %ecx
	leaq	.Lstatic.15(%rip), %r8
.LBB25_7:
	movl	$10, %r9d
	callq	"amqp_json::printing::leaves::natural"
	jmp	.LBB25_34
.LBB25_8:
	movzbl	%cl, %ecx
	movq	%r10, %r8
	addq	$16, %rsp
	popq	%rbx
	popq	%r14
	popq	%r15
	jmp	"amqp_json::printing::leaves::double"
.LBB25_9:
	movzbl	%r11b, %eax
	movq	%rax, (%rsp)
	movzbl	%cl, %ecx
	leaq	.Lstatic.13(%rip), %r8
	movl	$15, %r9d
	callq	"amqp_json::printing::leaves::natural"
	jmp	.LBB25_34
.LBB25_10:
	movq	%rbx, (%rsp)
	movzbl	%cl, %ecx
	leaq	.Lstatic.14(%rip), %r8
	movl	$9, %r9d
	callq	"amqp_json::printing::leaves::integer"
	jmp	.LBB25_34
.LBB25_11:
	movzbl	%cl, %ecx
	movq	%r10, %r8
	addq	$16, %rsp
	popq	%rbx
	popq	%r14
	popq	%r15
	jmp	"amqp_json::printing::leaves::plain_integer"
.LBB25_12:
	movq	%r11, (%rsp)
	movzbl	%cl, %ecx
	leaq	.Lstatic.12(%rip), %r8
	movl	$14, %r9d
	callq	"amqp_json::printing::leaves::integer"
	jmp	.LBB25_34
.LBB25_13:
	movq	%r8, (%rsp)
	movzbl	%cl, %ecx
	leaq	.Lstatic.16(%rip), %r8
	movl	$8, %r9d
	callq	"amqp_json::printing::leaves::integer"
	jmp	.LBB25_34
.LBB25_14:
	movq	%rax, (%rsp)
	movzbl	%cl, %ecx
	leaq	.Lstatic.17(%rip), %r8
	movl	$9, %r9d
	callq	"amqp_json::printing::leaves::natural"
	jmp	.LBB25_34
.LBB25_15:
	movzbl	%cl, %ecx
	movl	%eax, %r8d
	movl	%r10d, %r9d
	addq	$16, %rsp
	popq	%rbx
	popq	%r14
	popq	%r15
	jmp	"amqp_json::printing::leaves::decimal"
.LBB25_16:
	movzbl	%cl, %ecx
	addq	$16, %rsp
	popq	%rbx
	popq	%r14
	popq	%r15
	jmp	"amqp_json::printing::leaves::float"
.LBB25_17:
	movq	%r9, 8(%rsp)
	movq	%r10, (%rsp)
	movzbl	%cl, %ecx
	leaq	.Lstatic.19(%rip), %r8
	movl	$10, %r9d
	callq	"amqp_json::printing::leaves::digits"
	jmp	.LBB25_34
.LBB25_18:
	cmpb	$1, %cl
	jne	.LBB25_28
	movq	%rdx, %rax
	incq	%rax
	movq	$-1, %rcx
	cmovneq	%rax, %rcx
	cmpq	%rsi, %rcx
	ja	.LBB25_29
	movb	$44, (%rdi,%rdx)
	jmp	.LBB25_29
.LBB25_21:
	movq	%rdx, %rcx
.LBB25_22:
	movq	%rcx, %rdx
	testb	$1, %r11b
	je	.LBB25_25
	addq	$4, %rdx
	movq	$-1, %rax
	cmovaeq	%rdx, %rax
	cmpq	%rsi, %rax
	ja	.LBB25_33
	addq	%rcx, %rdi
	leaq	.Lstatic.8(%rip), %rcx
	movq	%rdi, %rdx
	subq	%rcx, %rdx
	cmpq	$3, %rdx
	movl	$1702195828, (%rdi)
	jmp	.LBB25_33
.LBB25_25:
	addq	$5, %rdx
	movq	$-1, %rax
	cmovaeq	%rdx, %rax
	cmpq	%rsi, %rax
	ja	.LBB25_33
	addq	%rcx, %rdi
	leaq	.Lstatic.9(%rip), %rcx
	movq	%rdi, %rdx
	subq	%rcx, %rdx
	cmpq	$4, %rdx
	ja	.LBB25_32
	movl	$1936482662, (%rdi)
	movb	$101, 4(%rdi)
	jmp	.LBB25_33
.LBB25_28:
	movq	%rdx, %rcx
.LBB25_29:
	movq	%rcx, %rdx
	addq	$4, %rdx
	movq	$-1, %rax
	cmovaeq	%rdx, %rax
	cmpq	%rsi, %rax
	ja	.LBB25_33
	addq	%rcx, %rdi
	leaq	.Lstatic.10(%rip), %rcx
	movq	%rdi, %rdx
	subq	%rcx, %rdx
	cmpq	$3, %rdx
	movl	$1819047278, (%rdi)
	jmp	.LBB25_33
.LBB25_32:
	movb	$101, 4(%rdi)
	movl	$1936482662, (%rdi)
.LBB25_33:
	movb	$1, %dl
.LBB25_34:
	addq	$16, %rsp
	popq	%rbx
	popq	%r14
	popq	%r15
	retq
.LBB25_35:
	ud2
.Lfunc_end25:
	.size	"amqp_json::printing::leaves::put_leaf", .Lfunc_end25-"amqp_json::printing::leaves::put_leaf"
	.section	".rodata.amqp_json::printing::leaves::put_leaf","a",@progbits
	.p2align	2, 0x0
.LJTI25_0:
	.long	.LBB25_1-.LJTI25_0
	.long	.LBB25_12-.LJTI25_0
	.long	.LBB25_9-.LJTI25_0
	.long	.LBB25_10-.LJTI25_0
	.long	.LBB25_6-.LJTI25_0
	.long	.LBB25_13-.LJTI25_0
	.long	.LBB25_14-.LJTI25_0
	.long	.LBB25_11-.LJTI25_0
	.long	.LBB25_16-.LJTI25_0
	.long	.LBB25_8-.LJTI25_0
	.long	.LBB25_15-.LJTI25_0
	.long	.LBB25_5-.LJTI25_0
	.long	.LBB25_35-.LJTI25_0
	.long	.LBB25_4-.LJTI25_0
	.long	.LBB25_35-.LJTI25_0
	.long	.LBB25_17-.LJTI25_0
	.long	.LBB25_18-.LJTI25_0

	.section	".text.amqp_json::printing::leaves::integer","ax",@progbits
	.p2align	4
	.type	"amqp_json::printing::leaves::integer",@function
"amqp_json::printing::leaves::integer":
	pushq	%rbp
	pushq	%r15
	pushq	%r14
	pushq	%r13
	pushq	%r12
	pushq	%rbx
	subq	$40, %rsp
	movq	%rdx, %r10
	movq	%rsi, %r14
	movq	%rdi, %rbx
	movq	96(%rsp), %rdi
	xorps	%xmm0, %xmm0
	movaps	%xmm0, 16(%rsp)
	movaps	%xmm0, (%rsp)
	movq	$0, 32(%rsp)
	movq	%rdi, %rsi
	negq	%rsi
	cmovsq	%rdi, %rsi
	movl	$40, %r12d
	cmpq	$10000, %rsi
	jb	.LBB26_1
	.p2align	4
.LBB26_2:
	movabsq	$3777893186295716171, %rdx
	movq	%rsi, %rax
	mulq	%rdx
	shrq	$11, %rdx
	imull	$10000, %edx, %eax
	movl	%esi, %r11d
	subl	%eax, %r11d
	imull	$5243, %r11d, %eax
	shrl	$19, %eax
	imull	$100, %eax, %ebp
	subl	%ebp, %r11d
	movzwl	%r11w, %r11d
	leaq	.Lstatic.20(%rip), %r15
	movzwl	(%r15,%r11,2), %r11d
	movw	%r11w, -2(%rsp,%r12)
	movzwl	(%r15,%rax,2), %eax
	movw	%ax, -4(%rsp,%r12)
	addq	$-4, %r12
	cmpq	$99999999, %rsi
	movq	%rdx, %rsi
	ja	.LBB26_2
	cmpq	$99, %rdx
	ja	.LBB26_7
.LBB26_4:
	cmpq	$9, %rdx
	ja	.LBB26_6
	orb	$48, %dl
	movb	%dl, -1(%rsp,%r12)
	decq	%r12
	testq	%rdi, %rdi
	jns	.LBB26_12
	jmp	.LBB26_11
.LBB26_1:
	movq	%rsi, %rdx
	cmpq	$99, %rdx
	jbe	.LBB26_4
.LBB26_7:
	movl	%edx, %eax
	shrl	$2, %eax
	movzwl	%ax, %eax
	imull	$5243, %eax, %eax
	shrl	$17, %eax
	imull	$100, %eax, %esi
	movl	%edx, %r11d
	subl	%esi, %r11d
	movzwl	%r11w, %r11d
	leaq	.Lstatic.20(%rip), %rsi
	movzwl	(%rsi,%r11,2), %r11d
	movw	%r11w, -2(%rsp,%r12)
	cmpq	$999, %rdx
	ja	.LBB26_9
	orb	$48, %al
	movb	%al, -3(%rsp,%r12)
	addq	$-3, %r12
	testq	%rdi, %rdi
	jns	.LBB26_12
	jmp	.LBB26_11
.LBB26_6:
	leaq	.Lstatic.20(%rip), %rax
	movzwl	(%rax,%rdx,2), %eax
	movw	%ax, -2(%rsp,%r12)
	addq	$-2, %r12
	testq	%rdi, %rdi
	jns	.LBB26_12
	jmp	.LBB26_11
.LBB26_9:
	movzwl	%ax, %eax
	movzwl	(%rsi,%rax,2), %eax
	movw	%ax, -4(%rsp,%r12)
	addq	$-4, %r12
	testq	%rdi, %rdi
	js	.LBB26_11
.LBB26_12:
	cmpb	$1, %cl
	jne	.LBB26_13
.LBB26_14:
	movq	%r10, %rcx
	incq	%rcx
	movq	$-1, %rax
	cmovneq	%rcx, %rax
	cmpq	%r14, %rax
	ja	.LBB26_16
	movb	$44, (%rbx,%r10)
	jmp	.LBB26_16
.LBB26_11:
	movb	$45, -1(%rsp,%r12)
	decq	%r12
	cmpb	$1, %cl
	je	.LBB26_14
.LBB26_13:
	movq	%r10, %rax
.LBB26_16:
	movq	%rax, %rdi
	addq	$2, %rdi
	movq	$-1, %rcx
	cmovbq	%rcx, %rdi
	cmpq	%r14, %rdi
	ja	.LBB26_18
	leaq	(%rbx,%rax), %rdx
	leaq	.Lstatic.21(%rip), %rsi
	movq	%rdx, %r10
	subq	%rsi, %r10
	cmpq	$1, %r10
	movw	$8827, (%rdx)
.LBB26_18:
	movl	$40, %r15d
	movq	%r9, %r13
	addq	%rdi, %r13
	cmovbq	%rcx, %r13
	cmpq	%r14, %r13
	ja	.LBB26_24
	addq	%rbx, %rdi
	movq	%rdi, %rcx
	subq	%r8, %rcx
	cmpq	%r9, %rcx
	jae	.LBB26_31
	movl	%r9d, %ecx
	andl	$3, %ecx
	andl	$12, %r9d
	cmpq	$-3, %rax
	movq	$-3, %rdx
	cmovbq	%rax, %rdx
	addq	%rbx, %rdx
	addq	$5, %rdx
	xorl	%eax, %eax
	.p2align	4
.LBB26_21:
	movzbl	(%r8,%rax), %esi
	movb	%sil, -3(%rdx,%rax)
	movzbl	1(%r8,%rax), %esi
	movb	%sil, -2(%rdx,%rax)
	movzbl	2(%r8,%rax), %esi
	movb	%sil, -1(%rdx,%rax)
	movzbl	3(%r8,%rax), %esi
	movb	%sil, (%rdx,%rax)
	addq	$4, %rax
	cmpq	%rax, %r9
	jne	.LBB26_21
	testq	%rcx, %rcx
	je	.LBB26_24
	.p2align	4
.LBB26_23:
	movzbl	(%r8,%rax), %edx
	movb	%dl, (%rdi,%rax)
	incq	%rax
	decq	%rcx
	jne	.LBB26_23
	jmp	.LBB26_24
.LBB26_31:
	movq	%r8, %rsi
	movq	%r9, %rdx
	callq	memmove@PLT
.LBB26_24:
	subq	%r12, %r15
	movq	%r13, %rdi
	addq	$2, %rdi
	movq	$-1, %rax
	cmovbq	%rax, %rdi
	cmpq	%r14, %rdi
	ja	.LBB26_26
	addq	%rbx, %r13
	leaq	.Lstatic.6(%rip), %rcx
	movq	%r13, %rdx
	subq	%rcx, %rdx
	cmpq	$1, %rdx
	movw	$14882, (%r13)
.LBB26_26:
	movq	%r15, %r13
	addq	%rdi, %r13
	cmovbq	%rax, %r13
	cmpq	%r14, %r13
	ja	.LBB26_28
	leaq	(%rsp,%r12), %rsi
	addq	%rbx, %rdi
	movq	%r15, %rdx
	callq	memcpy@PLT
.LBB26_28:
	movq	%r13, %rcx
	incq	%rcx
	movq	$-1, %rax
	cmovneq	%rcx, %rax
	cmpq	%r14, %rax
	ja	.LBB26_30
	movb	$125, (%rbx,%r13)
.LBB26_30:
	movb	$1, %dl
	addq	$40, %rsp
	popq	%rbx
	popq	%r12
	popq	%r13
	popq	%r14
	popq	%r15
	popq	%rbp
	retq
.Lfunc_end26:
	.size	"amqp_json::printing::leaves::integer", .Lfunc_end26-"amqp_json::printing::leaves::integer"

	.section	".text.amqp_json::printing::leaves::plain_integer","ax",@progbits
	.p2align	4
	.type	"amqp_json::printing::leaves::plain_integer",@function
"amqp_json::printing::leaves::plain_integer":
	pushq	%rbp
	pushq	%r14
	pushq	%rbx
	subq	$48, %rsp
	movq	%rdx, %r9
	xorps	%xmm0, %xmm0
	movaps	%xmm0, 16(%rsp)
	movaps	%xmm0, (%rsp)
	movq	$0, 32(%rsp)
	movq	%r8, %r10
	negq	%r10
	cmovsq	%r8, %r10
	movl	$40, %r11d
	cmpq	$10000, %r10
	jb	.LBB27_1
	.p2align	4
.LBB27_2:
	movabsq	$3777893186295716171, %rdx
	movq	%r10, %rax
	mulq	%rdx
	shrq	$11, %rdx
	imull	$10000, %edx, %eax
	movl	%r10d, %ebx
	subl	%eax, %ebx
	imull	$5243, %ebx, %eax
	shrl	$19, %eax
	imull	$100, %eax, %ebp
	subl	%ebp, %ebx
	movzwl	%bx, %ebx
	leaq	.Lstatic.20(%rip), %r14
	movzwl	(%r14,%rbx,2), %ebx
	movw	%bx, -2(%rsp,%r11)
	movzwl	(%r14,%rax,2), %eax
	movw	%ax, -4(%rsp,%r11)
	addq	$-4, %r11
	cmpq	$99999999, %r10
	movq	%rdx, %r10
	ja	.LBB27_2
	cmpq	$99, %rdx
	ja	.LBB27_7
.LBB27_4:
	cmpq	$9, %rdx
	ja	.LBB27_6
	orb	$48, %dl
	movb	%dl, -1(%rsp,%r11)
	decq	%r11
	testq	%r8, %r8
	jns	.LBB27_12
	jmp	.LBB27_11
.LBB27_1:
	movq	%r10, %rdx
	cmpq	$99, %rdx
	jbe	.LBB27_4
.LBB27_7:
	movl	%edx, %eax
	shrl	$2, %eax
	movzwl	%ax, %eax
	imull	$5243, %eax, %eax
	shrl	$17, %eax
	imull	$100, %eax, %r10d
	movl	%edx, %ebx
	subl	%r10d, %ebx
	movzwl	%bx, %ebx
	leaq	.Lstatic.20(%rip), %r10
	movzwl	(%r10,%rbx,2), %ebx
	movw	%bx, -2(%rsp,%r11)
	cmpq	$999, %rdx
	ja	.LBB27_9
	orb	$48, %al
	movb	%al, -3(%rsp,%r11)
	addq	$-3, %r11
	testq	%r8, %r8
	jns	.LBB27_12
	jmp	.LBB27_11
.LBB27_6:
	leaq	.Lstatic.20(%rip), %rax
	movzwl	(%rax,%rdx,2), %eax
	movw	%ax, -2(%rsp,%r11)
	addq	$-2, %r11
	testq	%r8, %r8
	jns	.LBB27_12
	jmp	.LBB27_11
.LBB27_9:
	movzwl	%ax, %eax
	movzwl	(%r10,%rax,2), %eax
	movw	%ax, -4(%rsp,%r11)
	addq	$-4, %r11
	testq	%r8, %r8
	js	.LBB27_11
.LBB27_12:
	movl	$40, %edx
	subq	%r11, %rdx
	cmpb	$1, %cl
	jne	.LBB27_13
.LBB27_14:
	movq	%r9, %rcx
	incq	%rcx
	movq	$-1, %rax
	cmovneq	%rcx, %rax
	cmpq	%rsi, %rax
	ja	.LBB27_16
	movb	$44, (%rdi,%r9)
	jmp	.LBB27_16
.LBB27_11:
	movb	$45, -1(%rsp,%r11)
	decq	%r11
	movl	$40, %edx
	subq	%r11, %rdx
	cmpb	$1, %cl
	je	.LBB27_14
.LBB27_13:
	movq	%r9, %rax
.LBB27_16:
	movq	%rdx, %rcx
	addq	%rax, %rcx
	movq	$-1, %rbx
	cmovaeq	%rcx, %rbx
	cmpq	%rsi, %rbx
	ja	.LBB27_18
	leaq	(%rsp,%r11), %rsi
	addq	%rax, %rdi
	callq	memcpy@PLT
.LBB27_18:
	movq	%rbx, %rax
	movb	$1, %dl
	addq	$48, %rsp
	popq	%rbx
	popq	%r14
	popq	%rbp
	retq
.Lfunc_end27:
	.size	"amqp_json::printing::leaves::plain_integer", .Lfunc_end27-"amqp_json::printing::leaves::plain_integer"

	.section	".text.amqp_json::printing::leaves::float","ax",@progbits
	.p2align	4
	.type	"amqp_json::printing::leaves::float",@function
"amqp_json::printing::leaves::float":
	pushq	%rbp
	pushq	%r15
	pushq	%r14
	pushq	%r12
	pushq	%rbx
	subq	$176, %rsp
	movl	%r8d, %r12d
	movl	%ecx, %ebp
	movq	%rdx, %r15
	movq	%rsi, %r14
	movq	%rdi, %rbx
	xorps	%xmm0, %xmm0
	movaps	%xmm0, 32(%rsp)
	movq	$0, 48(%rsp)
	movq	$0, 72(%rsp)
	movl	$0, 64(%rsp)
	movl	%r8d, 68(%rsp)
	movaps	%xmm0, 80(%rsp)
	movaps	%xmm0, 96(%rsp)
	movaps	%xmm0, 112(%rsp)
	movaps	%xmm0, 128(%rsp)
	movaps	%xmm0, 144(%rsp)
	movaps	%xmm0, 160(%rsp)
	leaq	32(%rsp), %rdi
	leaq	64(%rsp), %rsi
	leaq	80(%rsp), %rdx
	callq	"amqp_json::printing::decimals::float_text"
	cmpb	$1, 32(%rsp)
	jne	.LBB28_4
	cmpb	$1, %bpl
	jne	.LBB28_5
	movq	%r15, %rcx
	incq	%rcx
	movq	$-1, %rax
	cmovneq	%rcx, %rax
	cmpq	%r14, %rax
	ja	.LBB28_6
	movb	$44, (%rbx,%r15)
	jmp	.LBB28_6
.LBB28_4:
	bswapl	%r12d
	movl	%r12d, 28(%rsp)
	leaq	28(%rsp), %rax
	movq	%rax, (%rsp)
	movq	$4, 8(%rsp)
	movzbl	%bpl, %ecx
	leaq	.Lstatic.22(%rip), %r8
	movl	$6, %r9d
	movq	%rbx, %rdi
	movq	%r14, %rsi
	movq	%r15, %rdx
	callq	"amqp_json::printing::leaves::digits"
	jmp	.LBB28_39
.LBB28_5:
	movq	%r15, %rax
.LBB28_6:
	movq	%rax, %rdx
	addq	$2, %rdx
	movq	$-1, %rsi
	cmovbq	%rsi, %rdx
	cmpq	%r14, %rdx
	ja	.LBB28_8
	leaq	(%rbx,%rax), %rcx
	leaq	.Lstatic.21(%rip), %rdi
	movq	%rcx, %r8
	subq	%rdi, %r8
	cmpq	$1, %r8
	movw	$8827, (%rcx)
.LBB28_8:
	movq	%rax, %rcx
	addq	$8, %rcx
	cmovbq	%rsi, %rcx
	cmpq	%r14, %rcx
	ja	.LBB28_12
	addq	%rbx, %rdx
	leaq	.Lstatic.22(%rip), %rsi
	movq	%rdx, %rdi
	subq	%rsi, %rdi
	cmpq	$5, %rdi
	ja	.LBB28_11
	movl	$1869366820, (%rdx)
	movw	$29793, 4(%rdx)
	jmp	.LBB28_12
.LBB28_11:
	movw	$29793, 4(%rdx)
	movl	$1869366820, (%rdx)
.LBB28_12:
	movq	48(%rsp), %rdx
	movq	%rax, %rdi
	addq	$10, %rdi
	movq	$-1, %rsi
	cmovbq	%rsi, %rdi
	cmpq	%r14, %rdi
	ja	.LBB28_14
	addq	%rbx, %rcx
	leaq	.Lstatic.6(%rip), %r8
	movq	%rcx, %r9
	subq	%r8, %r9
	cmpq	$1, %r9
	movw	$14882, (%rcx)
.LBB28_14:
	movq	%rdx, %r15
	addq	%rdi, %r15
	cmovbq	%rsi, %r15
	cmpq	%r14, %r15
	ja	.LBB28_36
	movq	40(%rsp), %rsi
	addq	%rbx, %rdi
	movq	%rdi, %rcx
	subq	%rsi, %rcx
	cmpq	%rdx, %rcx
	jae	.LBB28_18
	cmpq	$4, %rdx
	jb	.LBB28_17
	cmpq	$-11, %rax
	movq	$-11, %r8
	cmovbq	%rax, %r8
	leaq	(%r8,%rbx), %rcx
	subq	%rsi, %rcx
	addq	$10, %rcx
	cmpq	$32, %rcx
	jae	.LBB28_21
.LBB28_17:
	xorl	%ecx, %ecx
.LBB28_30:
	movq	%rdx, %r9
	movq	%rcx, %r8
	andq	$3, %r9
	je	.LBB28_33
	movq	%rcx, %r8
	.p2align	4
.LBB28_32:
	movzbl	(%rsi,%r8), %r10d
	movb	%r10b, (%rdi,%r8)
	incq	%r8
	decq	%r9
	jne	.LBB28_32
.LBB28_33:
	subq	%rdx, %rcx
	cmpq	$-4, %rcx
	ja	.LBB28_36
	cmpq	$-11, %rax
	movq	$-11, %rcx
	cmovbq	%rax, %rcx
	leaq	(%rcx,%rbx), %rax
	addq	$13, %rax
	.p2align	4
.LBB28_35:
	movzbl	(%rsi,%r8), %ecx
	movb	%cl, -3(%rax,%r8)
	movzbl	1(%rsi,%r8), %ecx
	movb	%cl, -2(%rax,%r8)
	movzbl	2(%rsi,%r8), %ecx
	movb	%cl, -1(%rax,%r8)
	movzbl	3(%rsi,%r8), %ecx
	movb	%cl, (%rax,%r8)
	addq	$4, %r8
	cmpq	%r8, %rdx
	jne	.LBB28_35
	jmp	.LBB28_36
.LBB28_18:
	callq	memmove@PLT
.LBB28_36:
	movq	%r15, %rcx
	incq	%rcx
	movq	$-1, %rax
	cmovneq	%rcx, %rax
	cmpq	%r14, %rax
	ja	.LBB28_38
	movb	$125, (%rbx,%r15)
.LBB28_38:
	movb	$1, %dl
.LBB28_39:
	addq	$176, %rsp
	popq	%rbx
	popq	%r12
	popq	%r14
	popq	%r15
	popq	%rbp
	retq
.LBB28_21:
	cmpq	$32, %rdx
	jae	.LBB28_23
	xorl	%ecx, %ecx
	jmp	.LBB28_27
.LBB28_23:
	movq	%rdx, %rcx
	andq	$-32, %rcx
	addq	%rbx, %r8
	addq	$26, %r8
	xorl	%r9d, %r9d
	.p2align	4
.LBB28_24:
	movups	(%rsi,%r9), %xmm0
	movups	16(%rsi,%r9), %xmm1
	movups	%xmm0, -16(%r8,%r9)
	movups	%xmm1, (%r8,%r9)
	addq	$32, %r9
	cmpq	%r9, %rcx
	jne	.LBB28_24
	cmpq	%rcx, %rdx
	je	.LBB28_36
	testb	$28, %dl
	je	.LBB28_30
.LBB28_27:
	movq	%rcx, %r8
	movq	%rdx, %rcx
	andq	$-4, %rcx
	.p2align	4
.LBB28_28:
	movl	(%rsi,%r8), %r9d
	movl	%r9d, (%rdi,%r8)
	addq	$4, %r8
	cmpq	%r8, %rcx
	jne	.LBB28_28
	cmpq	%rcx, %rdx
	je	.LBB28_36
	jmp	.LBB28_30
.Lfunc_end28:
	.size	"amqp_json::printing::leaves::float", .Lfunc_end28-"amqp_json::printing::leaves::float"

	.section	.rodata.cst8,"aM",@progbits,8
	.p2align	3, 0x0
.LCPI29_0:
	.quad	0x7ff0000000000000
	.section	.rodata.cst16,"aM",@progbits,16
	.p2align	4, 0x0
.LCPI29_1:
	.quad	0x8000000000000000
	.quad	0x8000000000000000
.LCPI29_3:
	.long	0x80000000
	.long	0x80000000
	.long	0x80000000
	.long	0x80000000
	.section	.rodata.cst4,"aM",@progbits,4
	.p2align	2, 0x0
.LCPI29_2:
	.long	0x7f800000
	.section	".text.amqp_json::printing::decimals::float_text","ax",@progbits
	.p2align	4
	.type	"amqp_json::printing::decimals::float_text",@function
"amqp_json::printing::decimals::float_text":
	pushq	%rbp
	pushq	%r15
	pushq	%r14
	pushq	%r13
	pushq	%r12
	pushq	%rbx
	subq	$952, %rsp
	movzbl	(%rsi), %ebx
	movl	4(%rsi), %r12d
	movl	%r12d, %ecx
	andl	$2147483647, %ecx
	shlq	$29, %rcx
	movabsq	$4035225266123964416, %rax
	addq	%rcx, %rax
	testl	%ebx, %ebx
	movq	8(%rsi), %r13
	cmovneq	%r13, %rax
	movabsq	$9218868437227405312, %r11
	movq	%rax, %rcx
	andq	%r11, %rcx
	movabsq	$4503599627370495, %r14
	leaq	1(%r14), %r8
	testq	%rcx, %rcx
	cmovneq	%r8, %rcx
	movq	%rax, %r10
	andq	%r14, %r10
	orq	%rcx, %r10
	shrq	$52, %rax
	andl	$2047, %eax
	xorl	%esi, %esi
	movq	%rax, %rcx
	subq	$1075, %rcx
	cmovbq	%rsi, %rcx
	cmpq	$11, %rcx
	movl	$11, %r9d
	cmovaeq	%r9, %rcx
	movq	%r10, %r15
	shlq	%cl, %r15
	movq	%r15, 224(%rsp)
	notb	%cl
	shrq	%r10
	shrq	%cl, %r10
	movq	%r10, 232(%rsp)
	movl	$1075, %ecx
	subq	%rax, %rcx
	cmovbq	%rsi, %rcx
	cmpq	$126, %rcx
	movl	$126, %r10d
	cmovaeq	%r10, %rcx
	movl	$1, %r15d
	xorl	%eax, %eax
	shldq	%cl, %r15, %rax
	movl	$1, %ebp
	shlq	%cl, %rbp
	movq	%rcx, 216(%rsp)
	testb	$64, %cl
	cmovneq	%rbp, %rax
	cmovneq	%rsi, %rbp
	shrdq	$1, %rax, %rbp
	movq	%rbp, 200(%rsp)
	shrq	%rax
	movq	%rax, 208(%rsp)
	movq	%r13, %rcx
	shrq	$52, %rcx
	andl	$2047, %ecx
	movl	$1075, %eax
	subq	%rcx, %rax
	cmovbq	%rsi, %rax
	cmpq	$126, %rax
	cmovaeq	%r10, %rax
	movq	%r13, %r10
	andq	%r11, %r10
	cmovneq	%r8, %r10
	andq	%r13, %r14
	orq	%r10, %r14
	subq	$1075, %rcx
	cmovbq	%rsi, %rcx
	cmpq	$11, %rcx
	cmovaeq	%r9, %rcx
	movq	%r14, %r8
	shlq	%cl, %r8
	movq	%r8, 176(%rsp)
	notb	%cl
	shrq	%r14
	shrq	%cl, %r14
	movq	%r14, 192(%rsp)
	xorl	%r8d, %r8d
	movl	%eax, %ecx
	shldq	%cl, %r15, %r8
	movq	%rdx, 144(%rsp)
	movq	%rdi, 152(%rsp)
	shlq	%cl, %r15
	testb	$64, %al
	cmovneq	%r15, %r8
	cmovneq	%rsi, %r15
	xorps	%xmm0, %xmm0
	movaps	%xmm0, 128(%rsp)
	xorps	%xmm0, %xmm0
	movsd	%xmm0, 160(%rsp)
	xorps	%xmm0, %xmm0
	movd	%xmm0, 84(%rsp)
	movq	%r8, %rax
	shldq	$63, %r15, %rax
	movq	%rax, 96(%rsp)
	movq	%r8, %rax
	shrq	%rax
	movq	%rax, 88(%rsp)
	addq	$-1, %r15
	movq	%r15, 184(%rsp)
	adcq	$-1, %r8
	movq	%r8, 168(%rsp)
	movl	$1, %ebp
	movl	%ebx, 20(%rsp)
	movq	%r12, 72(%rsp)
	movq	%r13, 8(%rsp)
	jmp	.LBB29_3
.LBB29_145:
	movd	%xmm0, %eax
	subss	%xmm0, %xmm0
	ucomiss	84(%rsp), %xmm0
	setnp	%cl
	sete	%dl
	andb	%cl, %dl
	cmpl	%eax, %r12d
	sete	%al
	testb	%al, %dl
	jne	.LBB29_225
	.p2align	4
.LBB29_2:
	incl	%ebp
	cmpl	$19, %ebp
	je	.LBB29_221
.LBB29_3:
	movl	20(%rsp), %eax
	movl	%eax, 240(%rsp)
	movl	%r12d, 244(%rsp)
	movq	%r13, 248(%rsp)
	movl	$1, %r15d
	testl	%ebp, %ebp
	je	.LBB29_9
	cmpl	$1, %ebp
	jne	.LBB29_6
	movl	$10, %r15d
	jmp	.LBB29_9
	.p2align	4
.LBB29_6:
	movl	$10, %eax
	movl	$1, %ecx
	movl	%ebp, %esi
	movl	%ebp, %edx
	.p2align	4
.LBB29_7:
	testb	$1, %sil
	movq	%rax, %rdi
	cmoveq	%rcx, %rdi
	imulq	%rdi, %r15
	imulq	%rax, %rax
	shrl	%edx
	cmpl	$3, %esi
	movl	%edx, %esi
	ja	.LBB29_7
	imulq	%rax, %r15
	testq	%r15, %r15
	je	.LBB29_226
.LBB29_9:
	movq	224(%rsp), %rax
	mulq	%r15
	movq	232(%rsp), %rsi
	imulq	%r15, %rsi
	addq	%rdx, %rsi
	addq	200(%rsp), %rax
	adcq	208(%rsp), %rsi
	movq	216(%rsp), %rcx
	shrdq	%cl, %rsi, %rax
	shrq	%cl, %rsi
	xorl	%edx, %edx
	testb	$64, %cl
	cmovneq	%rsi, %rax
	cmovneq	%rdx, %rsi
	movq	%rax, %rdi
	movq	%r15, %rdx
	xorl	%ecx, %ecx
	callq	__udivti3@PLT
	testq	%rdx, %rdx
	jne	.LBB29_2
	cmpl	$1, 20(%rsp)
	jne	.LBB29_13
	movq	176(%rsp), %rax
	mulq	%r15
	movq	192(%rsp), %rsi
	imulq	%r15, %rsi
	addq	%rdx, %rsi
	movq	96(%rsp), %rdx
	addq	%rdx, %rax
	movq	88(%rsp), %rdi
	adcq	%rdi, %rsi
	andq	168(%rsp), %rsi
	andq	184(%rsp), %rax
	addq	%r15, %rdx
	adcq	$0, %rdi
	addq	%rax, %r15
	movq	%rsi, %rcx
	adcq	$0, %rcx
	cmpq	%rax, %rdx
	sbbq	%rsi, %rdi
	jb	.LBB29_2
	cmpq	96(%rsp), %r15
	sbbq	88(%rsp), %rcx
	jb	.LBB29_2
.LBB29_13:
	pxor	%xmm0, %xmm0
	movdqa	%xmm0, 336(%rsp)
	movdqa	%xmm0, 320(%rsp)
	movdqa	%xmm0, 304(%rsp)
	movdqa	%xmm0, 288(%rsp)
	movdqa	%xmm0, 272(%rsp)
	movdqa	%xmm0, 256(%rsp)
	leaq	240(%rsp), %rdi
	leaq	256(%rsp), %rdx
	movl	%ebp, %esi
	callq	"amqp_json::printing::decimals::text_with"
	cmpl	$0, 20(%rsp)
	movq	%rdx, 24(%rsp)
	je	.LBB29_16
	testq	%rdx, %rdx
	movabsq	$-9187201950435737472, %r11
	movabsq	$9187201950435737470, %r13
	movabsq	$8536140394893047414, %r12
	je	.LBB29_18
	movzbl	(%rax), %ecx
	jmp	.LBB29_19
.LBB29_16:
	testq	%rdx, %rdx
	movabsq	$-9187201950435737472, %r11
	movabsq	$9187201950435737470, %r13
	movabsq	$8536140394893047414, %r12
	je	.LBB29_35
	movzbl	(%rax), %ecx
	jmp	.LBB29_36
.LBB29_18:
	xorl	%ecx, %ecx
.LBB29_19:
	movq	%rcx, 40(%rsp)
	addl	$-43, %ecx
	xorl	%r14d, %r14d
	testb	$-3, %cl
	sete	%r14b
	leaq	(%rax,%r14), %rsi
	subq	%r14, %rdx
	cmpq	$8, %rdx
	jb	.LBB29_24
	xorl	%r10d, %r10d
	movq	%rdx, %rcx
	xorl	%r15d, %r15d
	.p2align	4
.LBB29_21:
	movq	(%rsi,%r10), %r8
	movq	%r8, %rdi
	movabsq	$3472328296227680304, %r9
	xorq	%r9, %rdi
	movq	%rdi, %r9
	andq	%r13, %r9
	addq	%r12, %r9
	orq	%r8, %r9
	testq	%r11, %r9
	jne	.LBB29_23
	leaq	(%rdi,%rdi,4), %r8
	shrq	$8, %rdi
	leaq	(%rdi,%r8,2), %rdi
	movq	%rdi, %r8
	movabsq	$1095216660735, %rbx
	andq	%rbx, %r8
	movabsq	$4294967296000100, %r9
	imulq	%r9, %r8
	shrq	$16, %rdi
	andq	%rbx, %rdi
	movabsq	$42949672960001, %r9
	imulq	%r9, %rdi
	addq	%r8, %rdi
	shrq	$32, %rdi
	imulq	$100000000, %r15, %r15
	addq	%rdi, %r15
	addq	$8, %r10
	addq	$-8, %rcx
	cmpq	$7, %rcx
	ja	.LBB29_21
.LBB29_23:
	leaq	.Lstatic.23(%rip), %r8
	cmpq	%rdx, %r10
	jb	.LBB29_25
	jmp	.LBB29_57
.LBB29_24:
	xorl	%r15d, %r15d
	xorl	%r10d, %r10d
	leaq	.Lstatic.23(%rip), %r8
	cmpq	%rdx, %r10
	jae	.LBB29_57
.LBB29_25:
	addq	%r14, %rax
	incq	%rax
	.p2align	4
.LBB29_26:
	movzbl	-1(%rax,%r10), %ecx
	leal	-48(%rcx), %edi
	cmpb	$9, %dil
	ja	.LBB29_30
	leaq	(%r15,%r15,4), %rcx
	movzbl	%dil, %edi
	leaq	(%rdi,%rcx,2), %r15
	incq	%r10
	cmpq	%rdx, %r10
	jb	.LBB29_26
	xorl	%ecx, %ecx
	movq	%rdx, %r10
.LBB29_29:
	xorl	%edi, %edi
	movq	%rdx, %r12
	jmp	.LBB29_59
.LBB29_30:
	cmpl	$46, %ecx
	je	.LBB29_85
	cmpl	$69, %ecx
	je	.LBB29_33
	cmpl	$101, %ecx
	jne	.LBB29_57
.LBB29_33:
	leaq	1(%r10), %r9
	cmpq	%rdx, %r9
	jae	.LBB29_52
	movzbl	1(%r10,%rsi), %eax
	jmp	.LBB29_53
.LBB29_35:
	xorl	%ecx, %ecx
.LBB29_36:
	movq	%rcx, 40(%rsp)
	addl	$-43, %ecx
	xorl	%ebx, %ebx
	testb	$-3, %cl
	sete	%bl
	leaq	(%rax,%rbx), %rsi
	subq	%rbx, %rdx
	cmpq	$8, %rdx
	jb	.LBB29_41
	xorl	%r10d, %r10d
	movq	%rdx, %rcx
	xorl	%r15d, %r15d
	.p2align	4
.LBB29_38:
	movq	(%rsi,%r10), %r8
	movq	%r8, %rdi
	movabsq	$3472328296227680304, %r9
	xorq	%r9, %rdi
	movq	%rdi, %r9
	andq	%r13, %r9
	addq	%r12, %r9
	orq	%r8, %r9
	testq	%r11, %r9
	jne	.LBB29_40
	leaq	(%rdi,%rdi,4), %r8
	shrq	$8, %rdi
	leaq	(%rdi,%r8,2), %rdi
	movq	%rdi, %r8
	movabsq	$1095216660735, %r14
	andq	%r14, %r8
	movabsq	$4294967296000100, %r9
	imulq	%r9, %r8
	shrq	$16, %rdi
	andq	%r14, %rdi
	movabsq	$42949672960001, %r9
	imulq	%r9, %rdi
	addq	%r8, %rdi
	shrq	$32, %rdi
	imulq	$100000000, %r15, %r15
	addq	%rdi, %r15
	addq	$8, %r10
	addq	$-8, %rcx
	cmpq	$7, %rcx
	ja	.LBB29_38
.LBB29_40:
	leaq	.Lstatic.23(%rip), %r8
	cmpq	%rdx, %r10
	jb	.LBB29_42
	jmp	.LBB29_104
.LBB29_41:
	xorl	%r15d, %r15d
	xorl	%r10d, %r10d
	leaq	.Lstatic.23(%rip), %r8
	cmpq	%rdx, %r10
	jae	.LBB29_104
.LBB29_42:
	addq	%rbx, %rax
	incq	%rax
	.p2align	4
.LBB29_43:
	movzbl	-1(%rax,%r10), %ecx
	leal	-48(%rcx), %edi
	cmpb	$9, %dil
	ja	.LBB29_47
	leaq	(%r15,%r15,4), %rcx
	movzbl	%dil, %edi
	leaq	(%rdi,%rcx,2), %r15
	incq	%r10
	cmpq	%rdx, %r10
	jb	.LBB29_43
	xorl	%ecx, %ecx
	movq	%rdx, %r10
.LBB29_46:
	xorl	%edi, %edi
	movq	%rdx, %r12
	jmp	.LBB29_106
.LBB29_47:
	cmpl	$46, %ecx
	je	.LBB29_132
	cmpl	$69, %ecx
	je	.LBB29_50
	cmpl	$101, %ecx
	jne	.LBB29_104
.LBB29_50:
	leaq	1(%r10), %r9
	cmpq	%rdx, %r9
	jae	.LBB29_99
	movzbl	1(%r10,%rsi), %eax
	jmp	.LBB29_100
.LBB29_52:
	xorl	%eax, %eax
.LBB29_53:
	leaq	2(%r10), %r12
	addb	$-43, %al
	testb	$-3, %al
	cmovneq	%r9, %r12
	cmpq	%rdx, %r12
	jae	.LBB29_57
	xorl	%ecx, %ecx
	movl	$0, %edi
	testq	%r12, %r12
	je	.LBB29_58
	movzbl	(%rsi,%r12), %eax
	addb	$-58, %al
	cmpb	$-10, %al
	jb	.LBB29_58
	movabsq	$1844674407370955162, %rcx
	xorl	%eax, %eax
	jmp	.LBB29_69
.LBB29_57:
	xorl	%ecx, %ecx
	xorl	%edi, %edi
.LBB29_58:
	movq	%r10, %r12
.LBB29_59:
	xorl	%eax, %eax
.LBB29_60:
	movq	%r10, %r11
	addq	%rcx, %r11
	je	.LBB29_91
	xorl	%r9d, %r9d
	testb	%dil, %dil
	movq	%rax, %r13
	cmovneq	%r9, %r13
	cmovneq	%rax, %r9
	cmpq	$19, %r11
	ja	.LBB29_93
	shrq	$32, %rax
	jne	.LBB29_93
	pxor	%xmm0, %xmm0
	testq	%r15, %r15
	je	.LBB29_94
	addq	%rcx, %r9
	movq	%r9, %rbx
	movabsq	$9007199254740992, %rax
	subq	%r13, %rbx
	jbe	.LBB29_72
	cmpq	%rax, %r15
	movq	8(%rsp), %r13
	ja	.LBB29_75
	cmpq	$22, %rbx
	ja	.LBB29_75
	xorps	%xmm0, %xmm0
	cvtsi2sd	%r15, %xmm0
	leaq	.Lstatic.30(%rip), %rax
	divsd	(%rax,%rbx,8), %xmm0
	jmp	.LBB29_95
	.p2align	4
.LBB29_68:
	incq	%r12
	movq	%rdi, %rax
	cmpq	%rdx, %r12
	jae	.LBB29_158
.LBB29_69:
	movzbl	(%rsi,%r12), %r11d
	addb	$-48, %r11b
	cmpb	$9, %r11b
	ja	.LBB29_159
	movq	$-1, %rdi
	cmpq	%rcx, %rax
	jae	.LBB29_68
	addq	%rax, %rax
	leaq	(%rax,%rax,4), %rax
	movzbl	%r11b, %r11d
	addq	%rax, %r11
	cmovaeq	%r11, %rdi
	jmp	.LBB29_68
.LBB29_72:
	subq	%r9, %r13
	cmpq	%rax, %r15
	ja	.LBB29_80
	cmpq	$22, %r13
	ja	.LBB29_80
	xorps	%xmm0, %xmm0
	cvtsi2sd	%r15, %xmm0
	leaq	.Lstatic.30(%rip), %rax
	mulsd	(%rax,%r13,8), %xmm0
	jmp	.LBB29_94
.LBB29_75:
	cmpq	$342, %rbx
	ja	.LBB29_95
	movl	$342, %r8d
	subq	%rbx, %r8
	bsrq	%r15, %rsi
	xorq	$63, %rsi
	movq	%r15, %rax
	movl	%esi, %ecx
	shlq	%cl, %rax
	imull	$217706, %r8d, %edi
	movl	%r8d, %ecx
	shll	$4, %ecx
	leaq	.Lstatic.25(%rip), %rdx
	mulq	8(%rcx,%rdx)
	movq	%rdx, %rcx
	shrq	$63, %rcx
	addl	$58980, %edi
	shrl	$16, %edi
	leaq	(%rdi,%rcx), %r13
	addq	$1139, %r13
	addq	$1191, %rsi
	cmpq	%rsi, %r13
	jb	.LBB29_170
	movl	$-1024, %r9d
	shll	%cl, %r9d
	notl	%r9d
	movl	%edx, %eax
	movl	$512, %edi
	shlq	%cl, %rdi
	andl	%r9d, %eax
	movq	%rdi, %r9
	subq	%rax, %r9
	cmpq	$2, %r9
	jb	.LBB29_170
	orb	$10, %cl
	shrq	%cl, %rdx
	subl	%esi, %r13d
	shlq	$52, %r13
	cmpl	%eax, %edi
	adcq	%rdx, %r13
.LBB29_79:
	movq	%r13, %xmm0
	jmp	.LBB29_94
.LBB29_80:
	cmpq	$308, %r13
	jbe	.LBB29_82
	movq	.LCPI29_0(%rip), %xmm0
	jmp	.LBB29_94
.LBB29_82:
	bsrq	%r15, %rsi
	xorq	$63, %rsi
	movq	%r15, %rax
	movl	%esi, %ecx
	shlq	%cl, %rax
	leaq	342(%r13), %r8
	movq	%r8, %rcx
	shlq	$4, %rcx
	leaq	.Lstatic.25(%rip), %rdx
	mulq	8(%rcx,%rdx)
	movq	%rdx, %rax
	shrq	$63, %rax
	movl	$-1024, %r10d
	movl	%eax, %ecx
	shll	%cl, %r10d
	notl	%r10d
	movl	%edx, %edi
	movl	$512, %r9d
	shlq	%cl, %r9
	andl	%r10d, %edi
	movq	%r9, %rcx
	subq	%rdi, %rcx
	cmpq	$1, %rcx
	jbe	.LBB29_190
	leal	10(%rax), %ecx
	shrq	%cl, %rdx
	imull	$217706, %r8d, %ecx
	addl	$58980, %ecx
	shrl	$16, %ecx
	subl	%esi, %ecx
	leal	(%rcx,%rax), %ebx
	addl	$-52, %ebx
	shlq	$52, %rbx
	cmpl	%edi, %r9d
	adcq	%rdx, %rbx
	movabsq	$9218868437227405312, %rax
	cmpq	%rax, %rbx
	cmovaeq	%rax, %rbx
.LBB29_84:
	movq	8(%rsp), %r13
	movq	%rbx, %xmm0
	jmp	.LBB29_95
.LBB29_85:
	leaq	1(%r10), %r12
	jmp	.LBB29_88
	.p2align	4
.LBB29_86:
	rep		bsfq	%rax, %rcx
	movl	%ecx, %eax
	shrl	$3, %eax
	notb	%cl
	andb	$56, %cl
	shlq	%cl, %rdi
	imulq	$2561, %rdi, %rcx
	movq	%rcx, %rdi
	movabsq	$1095216660735, %r9
	andq	%r9, %rdi
	movabsq	$4294967296000100, %r8
	imulq	%r8, %rdi
	shrq	$16, %rcx
	andq	%r9, %rcx
	movabsq	$42949672960001, %r8
	imulq	%r8, %rcx
	addq	%rdi, %rcx
.LBB29_87:
	leaq	.Lstatic.24(%rip), %rdi
	imulq	(%rdi,%rax,8), %r15
	shrq	$32, %rcx
	addq	%rcx, %r15
	addq	%rax, %r12
	cmpq	$8, %rax
	jb	.LBB29_174
.LBB29_88:
	movq	%rdx, %rax
	subq	%r12, %rax
	cmpq	$8, %rax
	jb	.LBB29_146
	movq	(%rsi,%r12), %rcx
	movq	%rcx, %rdi
	movabsq	$3472328296227680304, %rax
	xorq	%rax, %rdi
	movq	%rdi, %rax
	andq	%r13, %rax
	movabsq	$8536140394893047414, %r8
	addq	%r8, %rax
	orq	%rcx, %rax
	andq	%r11, %rax
	jne	.LBB29_86
	leaq	(%rdi,%rdi,4), %rax
	shrq	$8, %rdi
	leaq	(%rdi,%rax,2), %rcx
	movq	%rcx, %rax
	movabsq	$1095216660735, %r8
	andq	%r8, %rax
	movabsq	$4294967296000100, %rdi
	imulq	%rdi, %rax
	shrq	$16, %rcx
	andq	%r8, %rcx
	movabsq	$42949672960001, %rdi
	imulq	%rdi, %rcx
	addq	%rax, %rcx
	movl	$8, %eax
	jmp	.LBB29_87
.LBB29_91:
	xorl	%ecx, %ecx
	cmpb	$45, 40(%rsp)
	sete	%cl
	leaq	104(%rsp), %rdi
	callq	"core::dec2flt::words::read_word::<#1d521972340cebc2>"
	cmpb	$1, 104(%rsp)
	movq	72(%rsp), %r12
	movq	8(%rsp), %r13
	jne	.LBB29_2
	movsd	112(%rsp), %xmm0
	movq	120(%rsp), %r12
	jmp	.LBB29_97
.LBB29_93:
	movq	%rsi, %rdi
	movq	%r10, %rsi
	movq	%r8, %rdx
	movq	%r13, %r8
	callq	"core::dec2flt::long::from_long::<#1d521972340cebc2>"
	movq	%rax, %xmm0
.LBB29_94:
	movq	8(%rsp), %r13
.LBB29_95:
	cmpb	$45, 40(%rsp)
	jne	.LBB29_97
	xorpd	.LCPI29_1(%rip), %xmm0
.LBB29_97:
	movq	24(%rsp), %rax
	addq	%r14, %r12
	cmpq	%rax, %r12
	movq	72(%rsp), %r12
	jne	.LBB29_2
	movq	%xmm0, %rax
	subsd	%xmm0, %xmm0
	ucomisd	160(%rsp), %xmm0
	setnp	%cl
	sete	%dl
	andb	%cl, %dl
	cmpq	%rax, %r13
	sete	%al
	testb	%al, %dl
	je	.LBB29_2
	jmp	.LBB29_225
.LBB29_99:
	xorl	%eax, %eax
.LBB29_100:
	leaq	2(%r10), %r12
	addb	$-43, %al
	testb	$-3, %al
	cmovneq	%r9, %r12
	cmpq	%rdx, %r12
	jae	.LBB29_104
	xorl	%ecx, %ecx
	movl	$0, %edi
	testq	%r12, %r12
	je	.LBB29_105
	movzbl	(%rsi,%r12), %eax
	addb	$-58, %al
	cmpb	$-10, %al
	jb	.LBB29_105
	movabsq	$1844674407370955162, %rcx
	xorl	%eax, %eax
	jmp	.LBB29_116
.LBB29_104:
	xorl	%ecx, %ecx
	xorl	%edi, %edi
.LBB29_105:
	movq	%r10, %r12
.LBB29_106:
	xorl	%eax, %eax
.LBB29_107:
	movq	%r10, %r11
	addq	%rcx, %r11
	je	.LBB29_138
	xorl	%r9d, %r9d
	testb	%dil, %dil
	movq	%rax, %r13
	cmovneq	%r9, %r13
	cmovneq	%rax, %r9
	cmpq	$19, %r11
	ja	.LBB29_140
	shrq	$32, %rax
	jne	.LBB29_140
	movq	%rbx, %r14
	pxor	%xmm0, %xmm0
	testq	%r15, %r15
	je	.LBB29_141
	addq	%rcx, %r9
	movq	%r9, %rbx
	subq	%r13, %rbx
	jbe	.LBB29_119
	cmpq	$16777216, %r15
	movq	8(%rsp), %r13
	ja	.LBB29_122
	cmpq	$10, %rbx
	ja	.LBB29_122
	xorps	%xmm0, %xmm0
	cvtsi2ss	%r15, %xmm0
	leaq	.Lstatic.26(%rip), %rax
	divss	(%rax,%rbx,4), %xmm0
	jmp	.LBB29_142
	.p2align	4
.LBB29_115:
	incq	%r12
	movq	%rdi, %rax
	cmpq	%rdx, %r12
	jae	.LBB29_166
.LBB29_116:
	movzbl	(%rsi,%r12), %r11d
	addb	$-48, %r11b
	cmpb	$9, %r11b
	ja	.LBB29_167
	movq	$-1, %rdi
	cmpq	%rcx, %rax
	jae	.LBB29_115
	addq	%rax, %rax
	leaq	(%rax,%rax,4), %rax
	movzbl	%r11b, %r11d
	addq	%rax, %r11
	cmovaeq	%r11, %rdi
	jmp	.LBB29_115
.LBB29_119:
	subq	%r9, %r13
	cmpq	$16777216, %r15
	ja	.LBB29_127
	cmpq	$10, %r13
	ja	.LBB29_127
	xorps	%xmm0, %xmm0
	cvtsi2ss	%r15, %xmm0
	leaq	.Lstatic.26(%rip), %rax
	mulss	(%rax,%r13,4), %xmm0
	jmp	.LBB29_141
.LBB29_122:
	cmpq	$342, %rbx
	ja	.LBB29_142
	movl	$342, %r8d
	subq	%rbx, %r8
	bsrq	%r15, %rsi
	xorq	$63, %rsi
	movq	%r15, %rax
	movl	%esi, %ecx
	shlq	%cl, %rax
	imull	$217706, %r8d, %edi
	movl	%r8d, %ecx
	shll	$4, %ecx
	leaq	.Lstatic.25(%rip), %rdx
	mulq	8(%rcx,%rdx)
	movq	%rdx, %rcx
	shrq	$63, %rcx
	addl	$58980, %edi
	shrl	$16, %edi
	leaq	(%rdi,%rcx), %r13
	addq	$214, %r13
	addq	$1162, %rsi
	subq	%rsi, %r13
	jb	.LBB29_188
	movabsq	$-549755813888, %rax
	shlq	%cl, %rax
	notq	%rax
	movabsq	$274877906944, %rsi
	shlq	%cl, %rsi
	andq	%rdx, %rax
	movq	%rsi, %rdi
	subq	%rax, %rdi
	cmpq	$2, %rdi
	jb	.LBB29_188
	addb	$39, %cl
	shrq	%cl, %rdx
	shlq	$23, %r13
	cmpq	%rax, %rsi
	adcq	%rdx, %r13
.LBB29_126:
	movd	%r13d, %xmm0
	jmp	.LBB29_141
.LBB29_127:
	cmpq	$308, %r13
	jbe	.LBB29_129
	movd	.LCPI29_2(%rip), %xmm0
	jmp	.LBB29_141
.LBB29_129:
	bsrq	%r15, %rsi
	xorq	$63, %rsi
	movq	%r15, %rax
	movl	%esi, %ecx
	shlq	%cl, %rax
	leaq	342(%r13), %r8
	movq	%r8, %rcx
	shlq	$4, %rcx
	leaq	.Lstatic.25(%rip), %rdx
	mulq	8(%rcx,%rdx)
	movq	%rdx, %rax
	shrq	$63, %rax
	movabsq	$-549755813888, %rdi
	movl	%eax, %ecx
	shlq	%cl, %rdi
	notq	%rdi
	movabsq	$274877906944, %r9
	shlq	%cl, %r9
	andq	%rdx, %rdi
	movq	%r9, %rcx
	subq	%rdi, %rcx
	cmpq	$1, %rcx
	jbe	.LBB29_209
	leal	39(%rax), %ecx
	shrq	%cl, %rdx
	imulq	$217706, %r8, %rcx
	addq	$58980, %rcx
	shrq	$16, %rcx
	subq	%rsi, %rcx
	addq	%rax, %rcx
	shlq	$23, %rcx
	cmpq	%rdi, %r9
	adcq	%rdx, %rcx
	movabsq	$-7952400384, %rax
	addq	%rcx, %rax
	cmpq	$2139095040, %rax
	movl	$2139095040, %ebx
	cmovbq	%rax, %rbx
.LBB29_131:
	movq	8(%rsp), %r13
	movd	%ebx, %xmm0
	jmp	.LBB29_142
.LBB29_132:
	leaq	1(%r10), %r12
	jmp	.LBB29_135
	.p2align	4
.LBB29_133:
	rep		bsfq	%rax, %rcx
	movl	%ecx, %eax
	shrl	$3, %eax
	notb	%cl
	andb	$56, %cl
	shlq	%cl, %rdi
	imulq	$2561, %rdi, %rcx
	movq	%rcx, %rdi
	movabsq	$1095216660735, %r9
	andq	%r9, %rdi
	movabsq	$4294967296000100, %r8
	imulq	%r8, %rdi
	shrq	$16, %rcx
	andq	%r9, %rcx
	movabsq	$42949672960001, %r8
	imulq	%r8, %rcx
	addq	%rdi, %rcx
.LBB29_134:
	leaq	.Lstatic.24(%rip), %rdi
	imulq	(%rdi,%rax,8), %r15
	shrq	$32, %rcx
	addq	%rcx, %r15
	addq	%rax, %r12
	cmpq	$8, %rax
	jb	.LBB29_194
.LBB29_135:
	movq	%rdx, %rax
	subq	%r12, %rax
	cmpq	$8, %rax
	jb	.LBB29_150
	movq	(%rsi,%r12), %rcx
	movq	%rcx, %rdi
	movabsq	$3472328296227680304, %rax
	xorq	%rax, %rdi
	movq	%rdi, %rax
	andq	%r13, %rax
	movabsq	$8536140394893047414, %r8
	addq	%r8, %rax
	orq	%rcx, %rax
	andq	%r11, %rax
	jne	.LBB29_133
	leaq	(%rdi,%rdi,4), %rax
	shrq	$8, %rdi
	leaq	(%rdi,%rax,2), %rcx
	movq	%rcx, %rax
	movabsq	$1095216660735, %r8
	andq	%r8, %rax
	movabsq	$4294967296000100, %rdi
	imulq	%rdi, %rax
	shrq	$16, %rcx
	andq	%r8, %rcx
	movabsq	$42949672960001, %rdi
	imulq	%rdi, %rcx
	addq	%rax, %rcx
	movl	$8, %eax
	jmp	.LBB29_134
.LBB29_138:
	xorl	%ecx, %ecx
	cmpb	$45, 40(%rsp)
	sete	%cl
	leaq	104(%rsp), %rdi
	callq	"core::dec2flt::words::read_word::<#11bd57d74d267e9b>"
	cmpb	$1, 104(%rsp)
	movq	72(%rsp), %r12
	movq	8(%rsp), %r13
	jne	.LBB29_2
	movss	112(%rsp), %xmm0
	movq	120(%rsp), %r12
	movq	24(%rsp), %rax
	addq	%rbx, %r12
	cmpq	%rax, %r12
	movq	72(%rsp), %r12
	jne	.LBB29_2
	jmp	.LBB29_145
.LBB29_140:
	movq	%rbx, %r14
	movq	%rsi, %rdi
	movq	%r10, %rsi
	movq	%r8, %rdx
	movq	%r13, %r8
	callq	"core::dec2flt::long::from_long::<#11bd57d74d267e9b>"
	movd	%eax, %xmm0
.LBB29_141:
	movq	8(%rsp), %r13
.LBB29_142:
	cmpb	$45, 40(%rsp)
	jne	.LBB29_144
	xorps	.LCPI29_3(%rip), %xmm0
.LBB29_144:
	movq	24(%rsp), %rax
	movq	%r14, %rbx
	addq	%rbx, %r12
	cmpq	%rax, %r12
	movq	72(%rsp), %r12
	jne	.LBB29_2
	jmp	.LBB29_145
.LBB29_146:
	cmpq	$12, %rdx
	jb	.LBB29_154
	cmpq	%r12, %rdx
	jbe	.LBB29_154
	leaq	-8(%rdx), %rax
	movq	-8(%rsi,%rdx), %rdi
	movl	%r12d, %ecx
	subl	%eax, %ecx
	shll	$3, %ecx
	shrq	%cl, %rdi
	movq	%rdi, %rax
	movabsq	$3472328296227680304, %rcx
	xorq	%rcx, %rax
	movq	%rax, %rcx
	andq	%r13, %rcx
	movabsq	$8536140394893047414, %r8
	addq	%r8, %rcx
	orq	%rdi, %rcx
	andq	%r11, %rcx
	je	.LBB29_172
	rep		bsfq	%rcx, %rcx
	movl	%ecx, %edi
	shrl	$3, %edi
	notb	%cl
	andb	$56, %cl
	shlq	%cl, %rax
	imulq	$2561, %rax, %rax
	movq	%rax, %rcx
	movabsq	$1095216660735, %r9
	andq	%r9, %rcx
	movabsq	$4294967296000100, %r8
	imulq	%r8, %rcx
	shrq	$16, %rax
	andq	%r9, %rax
	movabsq	$42949672960001, %r8
	imulq	%r8, %rax
	addq	%rcx, %rax
	jmp	.LBB29_173
.LBB29_150:
	cmpq	$12, %rdx
	jb	.LBB29_162
	cmpq	%r12, %rdx
	jbe	.LBB29_162
	leaq	-8(%rdx), %rax
	movq	-8(%rsi,%rdx), %rdi
	movl	%r12d, %ecx
	subl	%eax, %ecx
	shll	$3, %ecx
	shrq	%cl, %rdi
	movq	%rdi, %rax
	movabsq	$3472328296227680304, %rcx
	xorq	%rcx, %rax
	movq	%rax, %rcx
	andq	%r13, %rcx
	movabsq	$8536140394893047414, %r8
	addq	%r8, %rcx
	orq	%rdi, %rcx
	andq	%r11, %rcx
	je	.LBB29_192
	rep		bsfq	%rcx, %rcx
	movl	%ecx, %edi
	shrl	$3, %edi
	notb	%cl
	andb	$56, %cl
	shlq	%cl, %rax
	imulq	$2561, %rax, %rax
	movq	%rax, %rcx
	movabsq	$1095216660735, %r9
	andq	%r9, %rcx
	movabsq	$4294967296000100, %r8
	imulq	%r8, %rcx
	shrq	$16, %rax
	andq	%r9, %rax
	movabsq	$42949672960001, %r8
	imulq	%r8, %rax
	addq	%rcx, %rax
	jmp	.LBB29_193
.LBB29_154:
	cmpq	%r12, %rdx
	jbe	.LBB29_174
	.p2align	4
.LBB29_155:
	movzbl	(%rsi,%r12), %eax
	addb	$-48, %al
	cmpb	$9, %al
	ja	.LBB29_174
	leaq	(%r15,%r15,4), %rcx
	movzbl	%al, %eax
	leaq	(%rax,%rcx,2), %r15
	incq	%r12
	cmpq	%rdx, %r12
	jb	.LBB29_155
	leaq	(%r10,%rsi), %r8
	incq	%r8
	movq	%r14, %rcx
	notq	%rcx
	addq	24(%rsp), %rcx
	subq	%r10, %rcx
	jmp	.LBB29_29
.LBB29_158:
	movq	%rdi, %rax
	movq	%rdx, %r12
.LBB29_159:
	cmpq	%rdx, %r9
	jae	.LBB29_161
	cmpb	$45, 1(%r10,%rsi)
	sete	%dil
	xorl	%ecx, %ecx
	jmp	.LBB29_60
.LBB29_161:
	xorl	%ecx, %ecx
	xorl	%edi, %edi
	jmp	.LBB29_60
.LBB29_162:
	cmpq	%r12, %rdx
	jbe	.LBB29_194
	.p2align	4
.LBB29_163:
	movzbl	(%rsi,%r12), %eax
	addb	$-48, %al
	cmpb	$9, %al
	ja	.LBB29_194
	leaq	(%r15,%r15,4), %rcx
	movzbl	%al, %eax
	leaq	(%rax,%rcx,2), %r15
	incq	%r12
	cmpq	%rdx, %r12
	jb	.LBB29_163
	leaq	(%r10,%rsi), %r8
	incq	%r8
	movq	%rbx, %rcx
	notq	%rcx
	addq	24(%rsp), %rcx
	subq	%r10, %rcx
	jmp	.LBB29_46
.LBB29_166:
	movq	%rdi, %rax
	movq	%rdx, %r12
.LBB29_167:
	cmpq	%rdx, %r9
	jae	.LBB29_169
	cmpb	$45, 1(%r10,%rsi)
	sete	%dil
	xorl	%ecx, %ecx
	jmp	.LBB29_107
.LBB29_169:
	xorl	%ecx, %ecx
	xorl	%edi, %edi
	jmp	.LBB29_107
.LBB29_170:
	leaq	48(%rsp), %rdi
	movq	%r15, %rsi
	xorl	%edx, %edx
	movq	%r8, %rcx
	callq	"core::dec2flt::lemire::eisel_lemire_wide::<#1d521972340cebc2>"
	movq	56(%rsp), %r13
	cmpb	$0, 48(%rsp)
	je	.LBB29_79
	movq	64(%rsp), %rax
	movq	%rax, 32(%rsp)
	movq	%r15, 352(%rsp)
	movl	$584, %edx
	leaq	360(%rsp), %rdi
	xorl	%esi, %esi
	callq	memset@PLT
	movq	$1, 944(%rsp)
	leaq	352(%rsp), %rdi
	xorl	%esi, %esi
	xorl	%edx, %edx
	movq	%rbx, %rcx
	movq	%r13, %r8
	movq	32(%rsp), %r9
	callq	"core::dec2flt::decimal::break_tie::<#1d521972340cebc2>"
	movq	%rax, %r13
	jmp	.LBB29_79
.LBB29_172:
	leaq	(%rax,%rax,4), %rcx
	shrq	$8, %rax
	leaq	(%rax,%rcx,2), %rax
	movq	%rax, %rcx
	movabsq	$1095216660735, %r8
	andq	%r8, %rcx
	movabsq	$4294967296000100, %rdi
	imulq	%rdi, %rcx
	shrq	$16, %rax
	andq	%r8, %rax
	movabsq	$42949672960001, %rdi
	imulq	%rdi, %rax
	addq	%rcx, %rax
	movl	$8, %edi
.LBB29_173:
	shrq	$32, %rax
	addq	%rdi, %r12
	leaq	.Lstatic.24(%rip), %rcx
	imulq	(%rcx,%rdi,8), %r15
	addq	%rax, %r15
.LBB29_174:
	leaq	(%r10,%rsi), %r8
	incq	%r8
	movq	%r10, %rcx
	notq	%rcx
	addq	%r12, %rcx
	cmpq	%rdx, %r12
	jae	.LBB29_187
	movzbl	(%rsi,%r12), %eax
	orl	$32, %eax
	cmpl	$101, %eax
	jne	.LBB29_187
	leaq	1(%r12), %r9
	cmpq	%rdx, %r9
	jae	.LBB29_178
	movzbl	(%rsi,%r9), %eax
	jmp	.LBB29_179
.LBB29_178:
	xorl	%eax, %eax
.LBB29_179:
	leaq	2(%r12), %r11
	addb	$-43, %al
	testb	$-3, %al
	cmovneq	%r9, %r11
	cmpq	%rdx, %r11
	jae	.LBB29_187
	xorl	%eax, %eax
	movl	$0, %edi
	testq	%r11, %r11
	je	.LBB29_60
	movzbl	(%rsi,%r11), %ebx
	addb	$-58, %bl
	cmpb	$-10, %bl
	jb	.LBB29_60
	movabsq	$1844674407370955162, %rdi
	xorl	%eax, %eax
	jmp	.LBB29_184
	.p2align	4
.LBB29_183:
	incq	%r11
	movq	%rbx, %rax
	cmpq	%rdx, %r11
	jae	.LBB29_211
.LBB29_184:
	movzbl	(%rsi,%r11), %r12d
	addb	$-48, %r12b
	cmpb	$9, %r12b
	ja	.LBB29_208
	movq	$-1, %rbx
	cmpq	%rdi, %rax
	jae	.LBB29_183
	addq	%rax, %rax
	leaq	(%rax,%rax,4), %rax
	movzbl	%r12b, %r12d
	addq	%rax, %r12
	cmovaeq	%r12, %rbx
	jmp	.LBB29_183
.LBB29_187:
	xorl	%edi, %edi
	jmp	.LBB29_59
.LBB29_188:
	leaq	48(%rsp), %rdi
	movq	%r15, %rsi
	xorl	%edx, %edx
	movq	%r8, %rcx
	callq	"core::dec2flt::lemire::eisel_lemire_wide::<#11bd57d74d267e9b>"
	movq	56(%rsp), %r13
	cmpb	$0, 48(%rsp)
	je	.LBB29_126
	movq	64(%rsp), %rax
	movq	%rax, 32(%rsp)
	movq	%r15, 352(%rsp)
	movl	$584, %edx
	leaq	360(%rsp), %rdi
	xorl	%esi, %esi
	callq	memset@PLT
	movq	$1, 944(%rsp)
	leaq	352(%rsp), %rdi
	xorl	%esi, %esi
	xorl	%edx, %edx
	movq	%rbx, %rcx
	movq	%r13, %r8
	movq	32(%rsp), %r9
	callq	"core::dec2flt::decimal::break_tie::<#11bd57d74d267e9b>"
	movq	%rax, %r13
	jmp	.LBB29_126
.LBB29_190:
	leaq	48(%rsp), %rdi
	movq	%r15, %rsi
	xorl	%edx, %edx
	movq	%r8, %rcx
	callq	"core::dec2flt::lemire::eisel_lemire_wide::<#1d521972340cebc2>"
	movq	56(%rsp), %rbx
	cmpb	$0, 48(%rsp)
	je	.LBB29_84
	movq	64(%rsp), %rax
	movq	%rax, 32(%rsp)
	movq	%r15, 352(%rsp)
	movl	$584, %edx
	leaq	360(%rsp), %rdi
	xorl	%esi, %esi
	callq	memset@PLT
	movq	$1, 944(%rsp)
	leaq	352(%rsp), %rdi
	xorl	%esi, %esi
	movq	%r13, %rdx
	xorl	%ecx, %ecx
	movq	%rbx, %r8
	movq	32(%rsp), %r9
	callq	"core::dec2flt::decimal::break_tie::<#1d521972340cebc2>"
	movq	%rax, %rbx
	jmp	.LBB29_84
.LBB29_192:
	leaq	(%rax,%rax,4), %rcx
	shrq	$8, %rax
	leaq	(%rax,%rcx,2), %rax
	movq	%rax, %rcx
	movabsq	$1095216660735, %r8
	andq	%r8, %rcx
	movabsq	$4294967296000100, %rdi
	imulq	%rdi, %rcx
	shrq	$16, %rax
	andq	%r8, %rax
	movabsq	$42949672960001, %rdi
	imulq	%rdi, %rax
	addq	%rcx, %rax
	movl	$8, %edi
.LBB29_193:
	shrq	$32, %rax
	addq	%rdi, %r12
	leaq	.Lstatic.24(%rip), %rcx
	imulq	(%rcx,%rdi,8), %r15
	addq	%rax, %r15
.LBB29_194:
	leaq	(%r10,%rsi), %r8
	incq	%r8
	movq	%r10, %rcx
	notq	%rcx
	addq	%r12, %rcx
	cmpq	%rdx, %r12
	jae	.LBB29_207
	movzbl	(%rsi,%r12), %eax
	orl	$32, %eax
	cmpl	$101, %eax
	jne	.LBB29_207
	leaq	1(%r12), %r9
	cmpq	%rdx, %r9
	jae	.LBB29_198
	movzbl	(%rsi,%r9), %eax
	jmp	.LBB29_199
.LBB29_198:
	xorl	%eax, %eax
.LBB29_199:
	leaq	2(%r12), %r11
	addb	$-43, %al
	testb	$-3, %al
	cmovneq	%r9, %r11
	cmpq	%rdx, %r11
	jae	.LBB29_207
	xorl	%eax, %eax
	movl	$0, %edi
	testq	%r11, %r11
	je	.LBB29_107
	movq	%rbx, %r14
	movzbl	(%rsi,%r11), %ebx
	addb	$-58, %bl
	cmpb	$-10, %bl
	jb	.LBB29_216
	movabsq	$1844674407370955162, %rdi
	xorl	%eax, %eax
	jmp	.LBB29_204
	.p2align	4
.LBB29_203:
	incq	%r11
	movq	%rbx, %rax
	cmpq	%rdx, %r11
	jae	.LBB29_217
.LBB29_204:
	movzbl	(%rsi,%r11), %r12d
	addb	$-48, %r12b
	cmpb	$9, %r12b
	ja	.LBB29_215
	movq	$-1, %rbx
	cmpq	%rdi, %rax
	jae	.LBB29_203
	addq	%rax, %rax
	leaq	(%rax,%rax,4), %rax
	movzbl	%r12b, %r12d
	addq	%rax, %r12
	cmovaeq	%r12, %rbx
	jmp	.LBB29_203
.LBB29_207:
	xorl	%edi, %edi
	jmp	.LBB29_106
.LBB29_208:
	movq	%r11, %r12
	jmp	.LBB29_212
.LBB29_209:
	leaq	48(%rsp), %rdi
	movq	%r15, %rsi
	xorl	%edx, %edx
	movq	%r8, %rcx
	callq	"core::dec2flt::lemire::eisel_lemire_wide::<#11bd57d74d267e9b>"
	movq	56(%rsp), %rbx
	cmpb	$0, 48(%rsp)
	je	.LBB29_131
	movq	64(%rsp), %rax
	movq	%rax, 32(%rsp)
	movq	%r15, 352(%rsp)
	movl	$584, %edx
	leaq	360(%rsp), %rdi
	xorl	%esi, %esi
	callq	memset@PLT
	movq	$1, 944(%rsp)
	leaq	352(%rsp), %rdi
	xorl	%esi, %esi
	movq	%r13, %rdx
	xorl	%ecx, %ecx
	movq	%rbx, %r8
	movq	32(%rsp), %r9
	callq	"core::dec2flt::decimal::break_tie::<#11bd57d74d267e9b>"
	movq	%rax, %rbx
	jmp	.LBB29_131
.LBB29_211:
	movq	%rbx, %rax
	movq	%rdx, %r12
.LBB29_212:
	cmpq	%rdx, %r9
	jae	.LBB29_214
	cmpb	$45, (%rsi,%r9)
	sete	%dil
	jmp	.LBB29_60
.LBB29_214:
	xorl	%edi, %edi
	jmp	.LBB29_60
.LBB29_215:
	movq	%r11, %r12
	jmp	.LBB29_218
.LBB29_216:
	movq	%r14, %rbx
	jmp	.LBB29_107
.LBB29_217:
	movq	%rbx, %rax
	movq	%rdx, %r12
.LBB29_218:
	movq	%r14, %rbx
	cmpq	%rdx, %r9
	jae	.LBB29_220
	cmpb	$45, (%rsi,%r9)
	sete	%dil
	jmp	.LBB29_107
.LBB29_220:
	xorl	%edi, %edi
	jmp	.LBB29_107
.LBB29_221:
	xorl	%ecx, %ecx
	xorl	%ebp, %ebp
.LBB29_222:
	xorl	%esi, %esi
	movl	$0, %eax
	movl	$0, %edx
	cmpb	$1, %cl
	jne	.LBB29_224
	movl	20(%rsp), %eax
	movl	%eax, 128(%rsp)
	movl	%r12d, 132(%rsp)
	movq	%r13, 136(%rsp)
	leaq	128(%rsp), %rdi
	movl	%ebp, %esi
	movq	144(%rsp), %rdx
	callq	"amqp_json::printing::decimals::text_with"
	movl	$1, %esi
.LBB29_224:
	movq	152(%rsp), %rcx
	movq	%rsi, (%rcx)
	movq	%rax, 8(%rcx)
	movq	%rdx, 16(%rcx)
	addq	$952, %rsp
	popq	%rbx
	popq	%r12
	popq	%r13
	popq	%r14
	popq	%r15
	popq	%rbp
	retq
.LBB29_225:
	movb	$1, %cl
	jmp	.LBB29_222
.LBB29_226:
	ud2
.Lfunc_end29:
	.size	"amqp_json::printing::decimals::float_text", .Lfunc_end29-"amqp_json::printing::decimals::float_text"

	.section	".text.unlikely.core::dec2flt::long::from_long::<#11bd57d74d267e9b>","ax",@progbits
	.p2align	4
	.type	"core::dec2flt::long::from_long::<#11bd57d74d267e9b>",@function
"core::dec2flt::long::from_long::<#11bd57d74d267e9b>":
	pushq	%rbp
	pushq	%r15
	pushq	%r14
	pushq	%r13
	pushq	%r12
	pushq	%rbx
	subq	$1288, %rsp
	movq	%rcx, %r12
	addq	%rsi, %r12
	je	.LBB30_1
	movq	%rdx, %rax
	subq	%rsi, %rax
	xorl	%ebx, %ebx
	.p2align	4
.LBB30_8:
	cmpq	%rsi, %rbx
	movq	%rax, %r10
	cmovbq	%rdi, %r10
	cmpb	$48, (%r10,%rbx)
	jne	.LBB30_2
	incq	%rbx
	cmpq	%rbx, %r12
	jne	.LBB30_8
	jmp	.LBB30_10
.LBB30_1:
	xorl	%ebx, %ebx
.LBB30_2:
	movq	%r12, %rbp
	subq	%rbx, %rbp
	je	.LBB30_10
	xorl	%r13d, %r13d
	addq	%rcx, %r9
	setb	%r13b
	cmpq	$19, %rbp
	movl	$19, %r14d
	cmovbq	%rbp, %r14
	movq	%rbp, %r10
	subq	%r14, %r10
	xorl	%r11d, %r11d
	addq	%r8, %r10
	setb	%r11b
	addq	$342, %r10
	adcq	$0, %r11
	cmpq	%r9, %r10
	movq	%r11, %rax
	sbbq	%r13, %rax
	jae	.LBB30_4
.LBB30_10:
	xorl	%eax, %eax
.LBB30_11:
	addq	$1288, %rsp
	popq	%rbx
	popq	%r12
	popq	%r13
	popq	%r14
	popq	%r15
	popq	%rbp
	retq
.LBB30_4:
	movq	%r14, (%rsp)
	subq	%r9, %r10
	sbbq	%r13, %r11
	movl	$2139095040, %eax
	xorl	%r14d, %r14d
	movl	$650, %r15d
	cmpq	%r10, %r15
	sbbq	%r11, %r14
	jb	.LBB30_11
	movq	%r8, 16(%rsp)
	movq	%r9, 24(%rsp)
	movq	%r13, 8(%rsp)
	cmpq	$1, %rbp
	jne	.LBB30_12
	movq	%rcx, %r14
	xorl	%eax, %eax
	xorl	%r11d, %r11d
	movq	%rdx, %r15
	jmp	.LBB30_15
.LBB30_12:
	movq	(%rsp), %r14
	andl	$30, %r14d
	movq	%rbx, %r13
	subq	%rsi, %r13
	addq	%rdx, %r13
	leaq	(%rdi,%rbx), %r15
	xorl	%eax, %eax
	xorl	%r11d, %r11d
	.p2align	4
.LBB30_13:
	leaq	(%r11,%r11,4), %r11
	leaq	(%rbx,%rax), %r8
	cmpq	%rsi, %r8
	movq	%r13, %r8
	cmovbq	%r15, %r8
	movzbl	(%r8,%rax), %r8d
	addb	$-48, %r8b
	movzbl	%r8b, %r8d
	leaq	(%r8,%r11,2), %r8
	leaq	(%r8,%r8,4), %r8
	leaq	(%rbx,%rax), %r11
	incq	%r11
	cmpq	%rsi, %r11
	movq	%r13, %r11
	cmovbq	%r15, %r11
	movzbl	1(%r11,%rax), %r11d
	addb	$-48, %r11b
	movzbl	%r11b, %r11d
	leaq	(%r11,%r8,2), %r11
	addq	$2, %rax
	cmpq	%rax, %r14
	jne	.LBB30_13
	movq	%rcx, %r14
	testb	$1, (%rsp)
	movq	%rdx, %r15
	je	.LBB30_16
.LBB30_15:
	leaq	(%r11,%r11,4), %rcx
	addq	%rbx, %rax
	leaq	(%rdi,%rax), %r8
	subq	%rsi, %rax
	leaq	(%r15,%rax), %rax
	cmovbq	%r8, %rax
	movzbl	(%rax), %eax
	addb	$-48, %al
	movzbl	%al, %eax
	leaq	(%rax,%rcx,2), %r11
.LBB30_16:
	xorl	%ebx, %ebx
	cmpq	$20, %rbp
	setae	%bl
	movl	$127, %ecx
	bsrq	%r11, %rcx
	xorq	$63, %rcx
	movq	%r11, %rax
	shlq	%cl, %rax
	movq	%r10, %rdx
	shlq	$4, %rdx
	leaq	.Lstatic.25(%rip), %r8
	mulq	8(%rdx,%r8)
	movq	%rdx, %rax
	shrq	$63, %rax
	imulq	$217706, %r10, %r8
	addq	$58980, %r8
	shrq	$16, %r8
	leaq	(%r8,%rax), %rbp
	addq	$214, %rbp
	leaq	1162(%rcx), %r8
	subq	%r8, %rbp
	jb	.LBB30_19
	movq	%rbx, %r9
	shlq	%cl, %r9
	movabsq	$-549755813888, %r8
	movl	%eax, %ecx
	shlq	%cl, %r8
	addq	$2, %r9
	notq	%r8
	movabsq	$274877906944, %r13
	shlq	%cl, %r13
	andq	%rdx, %r8
	movq	%r13, %rcx
	subq	%r8, %rcx
	cmpq	%r9, %rcx
	jb	.LBB30_19
	addb	$39, %al
	movl	%eax, %ecx
	shrq	%cl, %rdx
	shlq	$23, %rbp
	cmpq	%r8, %r13
	adcq	%rdx, %rbp
	cmpq	$2139095040, %rbp
	movl	$2139095040, %eax
	cmovbq	%rbp, %rax
	jmp	.LBB30_11
.LBB30_19:
	movq	24(%rsp), %rbp
	movq	%rdi, 40(%rsp)
	movq	%rsi, 32(%rsp)
	leaq	64(%rsp), %rdi
	movq	%r11, %rsi
	movq	%rbx, %rdx
	movq	%r10, %rcx
	callq	"core::dec2flt::lemire::eisel_lemire_wide::<#11bd57d74d267e9b>"
	movq	72(%rsp), %rax
	cmpb	$0, 64(%rsp)
	je	.LBB30_11
	movq	80(%rsp), %r8
	xorl	%r10d, %r10d
	movl	$150, %ecx
	subq	%r8, %rcx
	cmovaeq	%rcx, %r10
	xorl	%edx, %edx
	movq	%r10, %rsi
	addq	16(%rsp), %rsi
	setb	%dl
	cmpq	%rbp, %rsi
	movq	%rdx, %rdi
	movq	8(%rsp), %r9
	sbbq	%r9, %rdi
	movq	%rax, (%rsp)
	movq	%r8, 48(%rsp)
	jae	.LBB30_21
	movq	%rbp, %rcx
	movq	%r10, 16(%rsp)
	subq	%rsi, %rcx
	sbbq	%rdx, %r9
	xorl	%edx, %edx
	movq	%r12, %rbx
	subq	%rcx, %rbx
	movl	$0, %eax
	sbbq	%r9, %rax
	cmovbq	%rdx, %rbx
	cmpq	%rbx, %r12
	movq	%r9, %r8
	jbe	.LBB30_46
	cmpq	%r12, %rcx
	movq	%r8, %rax
	sbbq	$0, %rax
	movq	%r12, %rax
	cmovbq	%rcx, %rax
	subq	%rax, %r14
	addq	%r15, %r14
	movq	%rbx, %rax
	movq	32(%rsp), %rdx
	movq	40(%rsp), %rsi
.LBB30_42:
	leaq	(%rsi,%rax), %rdi
	cmpq	%rdx, %rax
	cmovaeq	%r14, %rdi
	cmpb	$48, (%rdi)
	jne	.LBB30_45
	incq	%rax
	incq	%r14
	cmpq	%r12, %rax
	jb	.LBB30_42
	movq	%r12, %rax
.LBB30_45:
	cmpq	%r12, %rax
	setb	%dl
.LBB30_46:
	movq	%rdx, 8(%rsp)
	leaq	688(%rsp), %rdi
	movl	$600, %edx
	xorl	%esi, %esi
	movq	%rcx, %r14
	movq	%r8, %r13
	callq	memset@PLT
	cmpq	%r12, %r14
	sbbq	$0, %r13
	movq	32(%rsp), %r9
	movq	40(%rsp), %r10
	movq	(%rsp), %r8
	jae	.LBB30_64
	movq	%r15, %rsi
	movq	%r15, %rax
	subq	%r9, %rax
	movq	%rax, 24(%rsp)
	xorl	%r12d, %r12d
	jmp	.LBB30_48
.LBB30_63:
	addq	%r13, %r12
	cmpq	%rbx, %r12
	jae	.LBB30_64
.LBB30_48:
	movq	%rbx, %rax
	subq	%r12, %rax
	cmpq	$19, %rax
	movl	$19, %r13d
	cmovbq	%rax, %r13
	cmpq	$1, %rax
	jne	.LBB30_50
	xorl	%eax, %eax
	xorl	%r14d, %r14d
	jmp	.LBB30_53
.LBB30_50:
	movl	%r13d, %ecx
	andl	$30, %ecx
	movq	24(%rsp), %rax
	leaq	(%rax,%r12), %rdx
	leaq	(%r10,%r12), %rdi
	xorl	%eax, %eax
	xorl	%r14d, %r14d
	.p2align	4
.LBB30_51:
	leaq	(%r14,%r14,4), %r11
	leaq	(%r12,%rax), %r14
	cmpq	%r9, %r14
	movq	%rdx, %r14
	cmovbq	%rdi, %r14
	movzbl	(%r14,%rax), %ebp
	addb	$-48, %bpl
	movzbl	%bpl, %r14d
	leaq	(%r14,%r11,2), %r11
	leaq	(%r11,%r11,4), %r11
	leaq	(%r12,%rax), %r14
	incq	%r14
	cmpq	%r9, %r14
	movq	%rdx, %r14
	cmovbq	%rdi, %r14
	movzbl	1(%r14,%rax), %ebp
	addb	$-48, %bpl
	movzbl	%bpl, %r14d
	leaq	(%r14,%r11,2), %r14
	addq	$2, %rax
	cmpq	%rax, %rcx
	jne	.LBB30_51
	testb	$1, %r13b
	je	.LBB30_54
.LBB30_53:
	leaq	(%r14,%r14,4), %rcx
	addq	%r12, %rax
	leaq	(%r10,%rax), %rdx
	subq	%r9, %rax
	leaq	(%rsi,%rax), %rax
	cmovbq	%rdx, %rax
	movzbl	(%rax), %eax
	addb	$-48, %al
	movzbl	%al, %eax
	leaq	(%rax,%rcx,2), %r14
.LBB30_54:
	movq	1280(%rsp), %r11
	testq	%r11, %r11
	je	.LBB30_61
	movl	%r13d, %eax
	leaq	.Lstatic.24(%rip), %rcx
	movq	(%rcx,%rax,8), %rcx
	cmpq	$1, %r11
	jne	.LBB30_57
	xorl	%ebp, %ebp
	jmp	.LBB30_60
.LBB30_57:
	movq	%r11, %r8
	andq	$-2, %r8
	xorl	%ebp, %ebp
	.p2align	4
.LBB30_58:
	movq	%rcx, %rax
	mulq	688(%rsp,%rbp,8)
	movq	%rdx, %rsi
	movq	%rax, %rdi
	movq	%rcx, %rax
	mulq	696(%rsp,%rbp,8)
	addq	%r14, %rdi
	adcq	%rsi, %rax
	movq	%rdx, %r14
	adcq	$0, %r14
	movq	%rdi, 688(%rsp,%rbp,8)
	movq	%rax, 696(%rsp,%rbp,8)
	addq	$2, %rbp
	cmpq	%rbp, %r8
	jne	.LBB30_58
	testb	$1, %r11b
	movq	%r15, %rsi
	movq	(%rsp), %r8
	je	.LBB30_61
.LBB30_60:
	movq	%rcx, %rax
	mulq	688(%rsp,%rbp,8)
	movq	(%rsp), %r8
	addq	%r14, %rax
	movq	%r15, %rsi
	adcq	$0, %rdx
	movq	%rax, 688(%rsp,%rbp,8)
	movq	%rdx, %r14
.LBB30_61:
	testq	%r14, %r14
	je	.LBB30_63
	movq	%r14, 688(%rsp,%r11,8)
	incq	%r11
	movq	%r11, 1280(%rsp)
	jmp	.LBB30_63
.LBB30_21:
	leaq	88(%rsp), %rdi
	movl	$600, %edx
	xorl	%esi, %esi
	callq	memset@PLT
	movq	(%rsp), %r8
	testq	%r12, %r12
	movq	32(%rsp), %r10
	movq	40(%rsp), %r11
	jne	.LBB30_22
.LBB30_39:
	xorl	%eax, %eax
	movq	16(%rsp), %r9
	movq	%r9, %rdx
	movq	24(%rsp), %rcx
	subq	%rcx, %rdx
	movl	$0, %edi
	movq	8(%rsp), %rsi
	sbbq	%rsi, %rdi
	cmovbq	%rax, %rdx
	subq	%r9, %rcx
	sbbq	$0, %rsi
	cmovbq	%rax, %rcx
	leaq	88(%rsp), %rdi
	xorl	%esi, %esi
	jmp	.LBB30_65
.LBB30_64:
	movzbl	8(%rsp), %esi
	leaq	688(%rsp), %rdi
	xorl	%edx, %edx
	movq	16(%rsp), %rcx
.LBB30_65:
	movq	48(%rsp), %r9
	callq	"core::dec2flt::decimal::break_tie::<#11bd57d74d267e9b>"
	jmp	.LBB30_11
.LBB30_22:
	movq	%r15, %rdi
	movq	%r15, %rax
	subq	%r10, %rax
	movq	%rax, 56(%rsp)
	xorl	%r14d, %r14d
	jmp	.LBB30_23
.LBB30_38:
	addq	%r9, %r14
	cmpq	%r12, %r14
	jae	.LBB30_39
.LBB30_23:
	movq	%r12, %rax
	subq	%r14, %rax
	cmpq	$19, %rax
	movl	$19, %r9d
	cmovbq	%rax, %r9
	cmpq	$1, %rax
	jne	.LBB30_25
	xorl	%eax, %eax
	xorl	%ebx, %ebx
	jmp	.LBB30_28
.LBB30_25:
	movl	%r9d, %ecx
	andl	$30, %ecx
	movq	56(%rsp), %rax
	leaq	(%rax,%r14), %rdx
	leaq	(%r11,%r14), %rsi
	xorl	%eax, %eax
	xorl	%ebx, %ebx
	.p2align	4
.LBB30_26:
	leaq	(%rbx,%rbx,4), %rbx
	leaq	(%r14,%rax), %r13
	cmpq	%r10, %r13
	movq	%rdx, %r13
	cmovbq	%rsi, %r13
	movzbl	(%r13,%rax), %ebp
	addb	$-48, %bpl
	movzbl	%bpl, %r13d
	leaq	(,%rbx,2), %rbx
	addq	%r13, %rbx
	leaq	(%rbx,%rbx,4), %rbx
	leaq	(%r14,%rax), %r13
	incq	%r13
	cmpq	%r10, %r13
	movq	%rdx, %r13
	cmovbq	%rsi, %r13
	movzbl	1(%r13,%rax), %ebp
	addb	$-48, %bpl
	movzbl	%bpl, %r13d
	leaq	(,%rbx,2), %rbx
	addq	%r13, %rbx
	addq	$2, %rax
	cmpq	%rax, %rcx
	jne	.LBB30_26
	testb	$1, %r9b
	je	.LBB30_29
.LBB30_28:
	leaq	(%rbx,%rbx,4), %rcx
	addq	%r14, %rax
	leaq	(%r11,%rax), %rdx
	subq	%r10, %rax
	leaq	(%rdi,%rax), %rax
	cmovbq	%rdx, %rax
	movzbl	(%rax), %eax
	addb	$-48, %al
	movzbl	%al, %eax
	leaq	(%rax,%rcx,2), %rbx
.LBB30_29:
	movq	680(%rsp), %rcx
	testq	%rcx, %rcx
	je	.LBB30_36
	movl	%r9d, %eax
	leaq	.Lstatic.24(%rip), %rdx
	movq	(%rdx,%rax,8), %rsi
	cmpq	$1, %rcx
	jne	.LBB30_32
	xorl	%ebp, %ebp
	jmp	.LBB30_35
.LBB30_32:
	movq	%rcx, %r13
	andq	$-2, %r13
	xorl	%ebp, %ebp
	.p2align	4
.LBB30_33:
	movq	%rsi, %rax
	mulq	88(%rsp,%rbp,8)
	movq	%rdx, %rdi
	movq	%rax, %r8
	movq	%rsi, %rax
	mulq	96(%rsp,%rbp,8)
	addq	%rbx, %r8
	adcq	%rdi, %rax
	movq	%rdx, %rbx
	adcq	$0, %rbx
	movq	%r8, 88(%rsp,%rbp,8)
	movq	%rax, 96(%rsp,%rbp,8)
	addq	$2, %rbp
	cmpq	%rbp, %r13
	jne	.LBB30_33
	testb	$1, %cl
	movq	%r15, %rdi
	movq	(%rsp), %r8
	je	.LBB30_36
.LBB30_35:
	movq	%rsi, %rax
	mulq	88(%rsp,%rbp,8)
	movq	(%rsp), %r8
	addq	%rbx, %rax
	movq	%rdx, %rbx
	movq	%r15, %rdi
	adcq	$0, %rbx
	movq	%rax, 88(%rsp,%rbp,8)
.LBB30_36:
	testq	%rbx, %rbx
	je	.LBB30_38
	movq	%rbx, 88(%rsp,%rcx,8)
	incq	%rcx
	movq	%rcx, 680(%rsp)
	jmp	.LBB30_38
.Lfunc_end30:
	.size	"core::dec2flt::long::from_long::<#11bd57d74d267e9b>", .Lfunc_end30-"core::dec2flt::long::from_long::<#11bd57d74d267e9b>"

	.section	".text.unlikely.core::dec2flt::lemire::eisel_lemire_wide::<#11bd57d74d267e9b>","ax",@progbits
	.p2align	4
	.type	"core::dec2flt::lemire::eisel_lemire_wide::<#11bd57d74d267e9b>",@function
"core::dec2flt::lemire::eisel_lemire_wide::<#11bd57d74d267e9b>":
	pushq	%r14
	pushq	%rbx
	movq	%rcx, %r9
	movq	%rsi, %r10
	movl	$127, %ecx
	bsrq	%rsi, %rcx
	xorq	$63, %rcx
	shlq	%cl, %r10
	movq	%rdx, %rsi
	movq	%r9, %rbx
	shlq	$4, %rbx
	leaq	.Lstatic.25(%rip), %r14
	movq	%r10, %rax
	mulq	8(%rbx,%r14)
	movq	%rdx, %r8
	movq	%rax, %r11
	movq	%r10, %rax
	mulq	(%rbx,%r14)
	addq	%r11, %rdx
	adcq	$0, %r8
	movq	%r8, %r11
	shrq	$63, %r11
	imulq	$217706, %r9, %rax
	addq	$58980, %rax
	shrq	$16, %rax
	addq	%r11, %rax
	addq	$214, %rax
	movq	%rcx, %r9
	addq	$1162, %r9
	shlq	%cl, %rsi
	xorl	%r10d, %r10d
	movq	%r9, %rcx
	subq	%rax, %rcx
	cmovbq	%r10, %rcx
	subq	%r9, %rax
	cmovbq	%r10, %rax
	addq	%r11, %rcx
	addq	$101, %rcx
	movl	$0, %r9d
	movl	$0, %r11d
	cmpq	$127, %rcx
	ja	.LBB31_7
	shrdq	$2, %r8, %rdx
	shrq	$2, %r8
	movq	%rdx, %r10
	shrdq	%cl, %r8, %r10
	movq	%r8, %r9
	shrq	%cl, %r9
	movq	$-1, %r11
	shlq	%cl, %r11
	xorl	%r14d, %r14d
	testb	$64, %cl
	cmoveq	%r10, %r9
	movq	$-1, %r10
	movq	%r11, %rbx
	cmovneq	%r14, %rbx
	cmoveq	%r10, %r11
	notq	%rbx
	andq	%rdx, %rbx
	decb	%cl
	movl	$1, %r10d
	xorl	%edx, %edx
	shldq	%cl, %r10, %rdx
	notq	%r11
	andq	%r8, %r11
	movl	$1, %r8d
	shlq	%cl, %r8
	testb	$64, %cl
	cmovneq	%r8, %rdx
	cmovneq	%r14, %r8
	cmpq	%rbx, %r8
	movq	%rdx, %rcx
	sbbq	%r11, %rcx
	jae	.LBB31_3
	shlq	$23, %rax
	addq	%r9, %rax
	incq	%rax
	jmp	.LBB31_6
.LBB31_3:
	movq	%rsi, %rcx
	shrq	$2, %rcx
	shlq	$62, %rsi
	orq	$2, %rsi
	subq	%rbx, %r8
	sbbq	%r11, %rdx
	cmpq	%rsi, %r8
	sbbq	%rcx, %rdx
	jae	.LBB31_5
	movq	%rax, %r11
	jmp	.LBB31_7
.LBB31_5:
	shlq	$23, %rax
	addq	%r9, %rax
.LBB31_6:
	cmpq	$2139095040, %rax
	movl	$2139095040, %r9d
	cmovbq	%rax, %r9
	xorl	%r10d, %r10d
	xorl	%r11d, %r11d
.LBB31_7:
	movq	%r10, (%rdi)
	movq	%r9, 8(%rdi)
	movq	%r11, 16(%rdi)
	popq	%rbx
	popq	%r14
	retq
.Lfunc_end31:
	.size	"core::dec2flt::lemire::eisel_lemire_wide::<#11bd57d74d267e9b>", .Lfunc_end31-"core::dec2flt::lemire::eisel_lemire_wide::<#11bd57d74d267e9b>"

	.section	".text.unlikely.core::dec2flt::decimal::break_tie::<#11bd57d74d267e9b>","ax",@progbits
	.p2align	4
	.type	"core::dec2flt::decimal::break_tie::<#11bd57d74d267e9b>",@function
"core::dec2flt::decimal::break_tie::<#11bd57d74d267e9b>":
	pushq	%rbp
	pushq	%r15
	pushq	%r14
	pushq	%r13
	pushq	%r12
	pushq	%rbx
	subq	$1208, %rsp
	movq	%r9, %rbx
	movq	%r8, %r14
	movq	%rcx, %r15
	movq	%rdx, %r12
	movl	%esi, %ebp
	movq	%rdi, %rsi
	leaq	608(%rsp), %rdi
	movl	$600, %edx
	callq	memcpy@PLT
	cmpq	$20, %r12
	jb	.LBB32_14
	movq	1200(%rsp), %r8
	testq	%r8, %r8
	jne	.LBB32_4
	addq	$-20, %r12
	movabsq	$-2912643801112034465, %rcx
	movq	%r12, %rax
	mulq	%rcx
	shrq	$4, %rdx
	leaq	(%rdx,%rdx,8), %rax
	leaq	(%rdx,%rax,2), %rax
	subq	%rax, %r12
	incq	%r12
	jmp	.LBB32_14
	.p2align	4
.LBB32_3:
	movq	1200(%rsp), %r8
.LBB32_4:
	testq	%r8, %r8
	je	.LBB32_13
	cmpq	$1, %r8
	jne	.LBB32_7
	xorl	%r9d, %r9d
	xorl	%r10d, %r10d
	jmp	.LBB32_10
	.p2align	4
.LBB32_7:
	movq	%r8, %r11
	andq	$-2, %r11
	xorl	%r9d, %r9d
	xorl	%r10d, %r10d
	.p2align	4
.LBB32_8:
	movabsq	$-8446744073709551616, %rcx
	movq	%rcx, %rax
	mulq	608(%rsp,%r10,8)
	movq	%rdx, %rsi
	movq	%rax, %rdi
	movq	%rcx, %rax
	mulq	616(%rsp,%r10,8)
	addq	%r9, %rdi
	adcq	%rsi, %rax
	movq	%rdx, %r9
	adcq	$0, %r9
	movq	%rdi, 608(%rsp,%r10,8)
	movq	%rax, 616(%rsp,%r10,8)
	addq	$2, %r10
	cmpq	%r10, %r11
	jne	.LBB32_8
	testb	$1, %r8b
	je	.LBB32_11
.LBB32_10:
	movabsq	$-8446744073709551616, %rax
	mulq	608(%rsp,%r10,8)
	addq	%r9, %rax
	adcq	$0, %rdx
	movq	%rax, 608(%rsp,%r10,8)
	movq	%rdx, %r9
.LBB32_11:
	testq	%r9, %r9
	je	.LBB32_13
	movq	%r9, 608(%rsp,%r8,8)
	incq	%r8
	movq	%r8, 1200(%rsp)
.LBB32_13:
	addq	$-19, %r12
	cmpq	$19, %r12
	ja	.LBB32_3
.LBB32_14:
	movq	1200(%rsp), %r8
	testq	%r8, %r8
	je	.LBB32_45
	leaq	.Lstatic.24(%rip), %rax
	movq	(%rax,%r12,8), %rcx
	cmpq	$1, %r8
	jne	.LBB32_17
	xorl	%r9d, %r9d
	xorl	%r10d, %r10d
	jmp	.LBB32_20
.LBB32_17:
	movq	%r8, %r11
	andq	$-2, %r11
	xorl	%r9d, %r9d
	xorl	%r10d, %r10d
	.p2align	4
.LBB32_18:
	movq	%rcx, %rax
	mulq	608(%rsp,%r10,8)
	movq	%rdx, %rsi
	movq	%rax, %rdi
	movq	%rcx, %rax
	mulq	616(%rsp,%r10,8)
	addq	%r9, %rdi
	adcq	%rsi, %rax
	movq	%rdx, %r9
	adcq	$0, %r9
	movq	%rdi, 608(%rsp,%r10,8)
	movq	%rax, 616(%rsp,%r10,8)
	addq	$2, %r10
	cmpq	%r10, %r11
	jne	.LBB32_18
	testb	$1, %r8b
	je	.LBB32_21
.LBB32_20:
	movq	%rcx, %rax
	mulq	608(%rsp,%r10,8)
	addq	%r9, %rax
	adcq	$0, %rdx
	movq	%rax, 608(%rsp,%r10,8)
	movq	%rdx, %r9
.LBB32_21:
	testq	%r9, %r9
	je	.LBB32_23
	movq	%r9, 608(%rsp,%r8,8)
	incq	%r8
	movq	%r8, 1200(%rsp)
	jmp	.LBB32_24
.LBB32_23:
	movq	1200(%rsp), %r8
.LBB32_24:
	xorl	%ecx, %ecx
	movl	$150, %eax
	subq	%rbx, %rax
	cmovaeq	%rax, %rcx
	cmpq	$64, %rcx
	jb	.LBB32_36
	testq	%r8, %r8
	jne	.LBB32_27
	jmp	.LBB32_45
	.p2align	4
.LBB32_26:
	addq	$-63, %rcx
	movq	1200(%rsp), %r8
	cmpq	$63, %rcx
	jbe	.LBB32_36
.LBB32_27:
	testq	%r8, %r8
	je	.LBB32_26
	cmpq	$1, %r8
	jne	.LBB32_30
	xorl	%eax, %eax
	xorl	%edx, %edx
	jmp	.LBB32_33
	.p2align	4
.LBB32_30:
	movq	%r8, %rsi
	andq	$-2, %rsi
	xorl	%eax, %eax
	xorl	%edx, %edx
	.p2align	4
.LBB32_31:
	movq	608(%rsp,%rdx,8), %rdi
	movq	%rdi, %r9
	shlq	$63, %r9
	orq	%rax, %r9
	movq	616(%rsp,%rdx,8), %rax
	movq	%r9, 608(%rsp,%rdx,8)
	shrdq	$1, %rax, %rdi
	movq	%rdi, 616(%rsp,%rdx,8)
	shrq	%rax
	addq	$2, %rdx
	cmpq	%rdx, %rsi
	jne	.LBB32_31
	testb	$1, %r8b
	je	.LBB32_34
.LBB32_33:
	movq	608(%rsp,%rdx,8), %rsi
	movq	%rsi, %rdi
	shlq	$63, %rdi
	orq	%rax, %rdi
	movq	%rdi, 608(%rsp,%rdx,8)
	shrq	%rsi
	movq	%rsi, %rax
.LBB32_34:
	testq	%rax, %rax
	je	.LBB32_26
	movq	%rax, 608(%rsp,%r8,8)
	incq	%r8
	movq	%r8, 1200(%rsp)
	jmp	.LBB32_26
.LBB32_36:
	testq	%r8, %r8
	je	.LBB32_45
	cmpq	$1, %r8
	jne	.LBB32_39
	xorl	%eax, %eax
	xorl	%edx, %edx
	jmp	.LBB32_42
.LBB32_39:
	movq	%r8, %rsi
	andq	$-2, %rsi
	xorl	%eax, %eax
	xorl	%edx, %edx
	.p2align	4
.LBB32_40:
	movq	616(%rsp,%rdx,8), %r9
	movq	%r9, %r10
	shlq	%cl, %r10
	xorl	%edi, %edi
	testb	$64, %cl
	movq	%r10, %r11
	cmovneq	%rdi, %r11
	xorl	%r12d, %r12d
	shldq	%cl, %r9, %r12
	movq	608(%rsp,%rdx,8), %r9
	testb	$64, %cl
	cmovneq	%r10, %r12
	movq	%r9, %r10
	shlq	%cl, %r10
	testb	$64, %cl
	movq	%r10, %r13
	cmovneq	%rdi, %r13
	shldq	%cl, %r9, %rdi
	testb	$64, %cl
	cmovneq	%r10, %rdi
	addq	%rax, %r13
	adcq	$0, %rdi
	addq	%r11, %rdi
	movq	%r12, %rax
	adcq	$0, %rax
	movq	%r13, 608(%rsp,%rdx,8)
	movq	%rdi, 616(%rsp,%rdx,8)
	addq	$2, %rdx
	cmpq	%rdx, %rsi
	jne	.LBB32_40
	testb	$1, %r8b
	je	.LBB32_43
.LBB32_42:
	movq	608(%rsp,%rdx,8), %rsi
	xorl	%edi, %edi
	shldq	%cl, %rsi, %rdi
	shlq	%cl, %rsi
	xorl	%r9d, %r9d
	testb	$64, %cl
	cmovneq	%rsi, %rdi
	cmovneq	%r9, %rsi
	addq	%rax, %rsi
	adcq	$0, %rdi
	movq	%rsi, 608(%rsp,%rdx,8)
	movq	%rdi, %rax
.LBB32_43:
	testq	%rax, %rax
	je	.LBB32_45
	movq	%rax, 608(%rsp,%r8,8)
	incq	%r8
	movq	%r8, 1200(%rsp)
.LBB32_45:
	leaq	1(,%r14,2), %rax
	movq	%rax, 8(%rsp)
	leaq	16(%rsp), %rdi
	movl	$584, %edx
	xorl	%esi, %esi
	callq	memset@PLT
	movq	$1, 600(%rsp)
	movl	$1, %r8d
	cmpq	$20, %r15
	jae	.LBB32_47
	jmp	.LBB32_57
	.p2align	4
.LBB32_46:
	addq	$-19, %r15
	movq	600(%rsp), %r8
	cmpq	$19, %r15
	jbe	.LBB32_56
.LBB32_47:
	testq	%r8, %r8
	je	.LBB32_46
	cmpq	$1, %r8
	jne	.LBB32_50
	xorl	%r9d, %r9d
	xorl	%r10d, %r10d
	jmp	.LBB32_53
	.p2align	4
.LBB32_50:
	movq	%r8, %r11
	andq	$-2, %r11
	xorl	%r9d, %r9d
	xorl	%r10d, %r10d
	.p2align	4
.LBB32_51:
	movabsq	$-8446744073709551616, %rcx
	movq	%rcx, %rax
	mulq	8(%rsp,%r10,8)
	movq	%rdx, %rsi
	movq	%rax, %rdi
	movq	%rcx, %rax
	mulq	16(%rsp,%r10,8)
	addq	%r9, %rdi
	adcq	%rsi, %rax
	movq	%rdx, %r9
	adcq	$0, %r9
	movq	%rdi, 8(%rsp,%r10,8)
	movq	%rax, 16(%rsp,%r10,8)
	addq	$2, %r10
	cmpq	%r10, %r11
	jne	.LBB32_51
	testb	$1, %r8b
	je	.LBB32_54
.LBB32_53:
	movabsq	$-8446744073709551616, %rax
	mulq	8(%rsp,%r10,8)
	addq	%r9, %rax
	adcq	$0, %rdx
	movq	%rax, 8(%rsp,%r10,8)
	movq	%rdx, %r9
.LBB32_54:
	testq	%r9, %r9
	je	.LBB32_46
	movq	%r9, 8(%rsp,%r8,8)
	incq	%r8
	movq	%r8, 600(%rsp)
	jmp	.LBB32_46
.LBB32_56:
	testq	%r8, %r8
	je	.LBB32_89
.LBB32_57:
	leaq	.Lstatic.24(%rip), %rax
	movq	(%rax,%r15,8), %rcx
	cmpq	$1, %r8
	jne	.LBB32_59
	xorl	%r9d, %r9d
	xorl	%r10d, %r10d
	jmp	.LBB32_62
.LBB32_59:
	movq	%r8, %r11
	andq	$-2, %r11
	xorl	%r9d, %r9d
	xorl	%r10d, %r10d
	.p2align	4
.LBB32_60:
	movq	%rcx, %rax
	mulq	8(%rsp,%r10,8)
	movq	%rdx, %rsi
	movq	%rax, %rdi
	movq	%rcx, %rax
	mulq	16(%rsp,%r10,8)
	addq	%r9, %rdi
	adcq	%rsi, %rax
	movq	%rdx, %r9
	adcq	$0, %r9
	movq	%rdi, 8(%rsp,%r10,8)
	movq	%rax, 16(%rsp,%r10,8)
	addq	$2, %r10
	cmpq	%r10, %r11
	jne	.LBB32_60
	testb	$1, %r8b
	je	.LBB32_63
.LBB32_62:
	movq	%rcx, %rax
	mulq	8(%rsp,%r10,8)
	addq	%r9, %rax
	adcq	$0, %rdx
	movq	%rax, 8(%rsp,%r10,8)
	movq	%rdx, %r9
.LBB32_63:
	testq	%r9, %r9
	je	.LBB32_65
	movq	%r9, 8(%rsp,%r8,8)
	incq	%r8
	movq	%r8, 600(%rsp)
	jmp	.LBB32_66
.LBB32_65:
	movq	600(%rsp), %r8
.LBB32_66:
	xorl	%ecx, %ecx
	movq	%rbx, %rax
	subq	$150, %rax
	cmovaeq	%rax, %rcx
	cmpq	$64, %rcx
	jb	.LBB32_79
	testq	%r8, %r8
	jne	.LBB32_70
	jmp	.LBB32_89
	.p2align	4
.LBB32_69:
	addq	$-63, %rcx
	movq	600(%rsp), %r8
	cmpq	$63, %rcx
	jbe	.LBB32_79
.LBB32_70:
	testq	%r8, %r8
	je	.LBB32_69
	cmpq	$1, %r8
	jne	.LBB32_73
	xorl	%eax, %eax
	xorl	%edx, %edx
	jmp	.LBB32_76
	.p2align	4
.LBB32_73:
	movq	%r8, %rsi
	andq	$-2, %rsi
	xorl	%eax, %eax
	xorl	%edx, %edx
	.p2align	4
.LBB32_74:
	movq	8(%rsp,%rdx,8), %rdi
	movq	%rdi, %r9
	shlq	$63, %r9
	orq	%rax, %r9
	movq	16(%rsp,%rdx,8), %rax
	movq	%r9, 8(%rsp,%rdx,8)
	shrdq	$1, %rax, %rdi
	movq	%rdi, 16(%rsp,%rdx,8)
	shrq	%rax
	addq	$2, %rdx
	cmpq	%rdx, %rsi
	jne	.LBB32_74
	testb	$1, %r8b
	je	.LBB32_77
.LBB32_76:
	movq	8(%rsp,%rdx,8), %rsi
	movq	%rsi, %rdi
	shlq	$63, %rdi
	orq	%rax, %rdi
	movq	%rdi, 8(%rsp,%rdx,8)
	shrq	%rsi
	movq	%rsi, %rax
.LBB32_77:
	testq	%rax, %rax
	je	.LBB32_69
	movq	%rax, 8(%rsp,%r8,8)
	incq	%r8
	movq	%r8, 600(%rsp)
	jmp	.LBB32_69
.LBB32_79:
	testq	%r8, %r8
	je	.LBB32_89
	cmpq	$1, %r8
	jne	.LBB32_83
	xorl	%eax, %eax
	xorl	%edx, %edx
	jmp	.LBB32_86
.LBB32_89:
	xorl	%r8d, %r8d
	jmp	.LBB32_91
.LBB32_83:
	movq	%r8, %rsi
	andq	$-2, %rsi
	xorl	%eax, %eax
	xorl	%edx, %edx
	.p2align	4
.LBB32_84:
	movq	16(%rsp,%rdx,8), %r9
	movq	%r9, %r10
	shlq	%cl, %r10
	xorl	%edi, %edi
	testb	$64, %cl
	movq	%r10, %r11
	cmovneq	%rdi, %r11
	xorl	%r15d, %r15d
	shldq	%cl, %r9, %r15
	movq	8(%rsp,%rdx,8), %r9
	testb	$64, %cl
	cmovneq	%r10, %r15
	movq	%r9, %r10
	shlq	%cl, %r10
	testb	$64, %cl
	movq	%r10, %r12
	cmovneq	%rdi, %r12
	shldq	%cl, %r9, %rdi
	testb	$64, %cl
	cmovneq	%r10, %rdi
	addq	%rax, %r12
	adcq	$0, %rdi
	addq	%r11, %rdi
	movq	%r15, %rax
	adcq	$0, %rax
	movq	%r12, 8(%rsp,%rdx,8)
	movq	%rdi, 16(%rsp,%rdx,8)
	addq	$2, %rdx
	cmpq	%rdx, %rsi
	jne	.LBB32_84
	testb	$1, %r8b
	je	.LBB32_87
.LBB32_86:
	movq	8(%rsp,%rdx,8), %rsi
	xorl	%edi, %edi
	shldq	%cl, %rsi, %rdi
	shlq	%cl, %rsi
	xorl	%r9d, %r9d
	testb	$64, %cl
	cmovneq	%rsi, %rdi
	cmovneq	%r9, %rsi
	addq	%rax, %rsi
	adcq	$0, %rdi
	movq	%rsi, 8(%rsp,%rdx,8)
	movq	%rdi, %rax
.LBB32_87:
	testq	%rax, %rax
	je	.LBB32_90
	movq	%rax, 8(%rsp,%r8,8)
	incq	%r8
	movq	%r8, 600(%rsp)
	jmp	.LBB32_91
.LBB32_90:
	movq	600(%rsp), %r8
.LBB32_91:
	movq	1200(%rsp), %rax
	cmpq	%rax, %r8
	cmovaq	%r8, %rax
	.p2align	4
.LBB32_92:
	subq	$1, %rax
	jb	.LBB32_95
	movq	608(%rsp,%rax,8), %rcx
	movq	8(%rsp,%rax,8), %rdx
	cmpq	%rdx, %rcx
	jb	.LBB32_97
	jbe	.LBB32_92
	jmp	.LBB32_96
.LBB32_95:
	testb	%bpl, %bpl
	je	.LBB32_98
.LBB32_96:
	shlq	$23, %rbx
	leaq	(%r14,%rbx), %rcx
	incq	%rcx
	cmpq	$2139095040, %rcx
	movl	$2139095040, %eax
	cmovbq	%rcx, %rax
	jmp	.LBB32_100
.LBB32_97:
	shlq	$23, %rbx
	addq	%r14, %rbx
	jmp	.LBB32_99
.LBB32_98:
	movl	%r14d, %eax
	andl	$1, %eax
	addq	%r14, %rax
	shlq	$23, %rbx
	addq	%rax, %rbx
.LBB32_99:
	cmpq	$2139095040, %rbx
	movl	$2139095040, %eax
	cmovbq	%rbx, %rax
.LBB32_100:
	addq	$1208, %rsp
	popq	%rbx
	popq	%r12
	popq	%r13
	popq	%r14
	popq	%r15
	popq	%rbp
	retq
.Lfunc_end32:
	.size	"core::dec2flt::decimal::break_tie::<#11bd57d74d267e9b>", .Lfunc_end32-"core::dec2flt::decimal::break_tie::<#11bd57d74d267e9b>"

	.section	.rodata.cst4,"aM",@progbits,4
	.p2align	2, 0x0
.LCPI33_0:
	.long	0xff800000
.LCPI33_1:
	.long	0x7f800000
.LCPI33_2:
	.long	0xffc00000
.LCPI33_3:
	.long	0x7fc00000
	.section	".text.unlikely.core::dec2flt::words::read_word::<#11bd57d74d267e9b>","ax",@progbits
	.p2align	4
	.type	"core::dec2flt::words::read_word::<#11bd57d74d267e9b>",@function
"core::dec2flt::words::read_word::<#11bd57d74d267e9b>":
	testl	%ecx, %ecx
	jne	.LBB33_1
	movss	.LCPI33_1(%rip), %xmm0
	cmpq	$8, %rdx
	jb	.LBB33_13
.LBB33_4:
	movzbl	(%rsi), %eax
	leal	-65(%rax), %edx
	leal	32(%rax), %r8d
	cmpb	$26, %dl
	movzbl	%r8b, %edx
	cmovael	%eax, %edx
	cmpb	$105, %dl
	jne	.LBB33_15
	movzbl	1(%rsi), %eax
	leal	-65(%rax), %edx
	leal	32(%rax), %r8d
	cmpb	$26, %dl
	movzbl	%r8b, %edx
	cmovael	%eax, %edx
	cmpb	$110, %dl
	jne	.LBB33_15
	movzbl	2(%rsi), %eax
	leal	-65(%rax), %edx
	leal	32(%rax), %r8d
	cmpb	$26, %dl
	movzbl	%r8b, %edx
	cmovael	%eax, %edx
	cmpb	$102, %dl
	jne	.LBB33_15
	movzbl	3(%rsi), %eax
	leal	-65(%rax), %edx
	leal	32(%rax), %r8d
	cmpb	$26, %dl
	movzbl	%r8b, %edx
	cmovael	%eax, %edx
	cmpb	$105, %dl
	jne	.LBB33_15
	movzbl	4(%rsi), %eax
	leal	-65(%rax), %edx
	leal	32(%rax), %r8d
	cmpb	$26, %dl
	movzbl	%r8b, %edx
	cmovael	%eax, %edx
	cmpb	$110, %dl
	jne	.LBB33_15
	movzbl	5(%rsi), %eax
	leal	-65(%rax), %edx
	leal	32(%rax), %r8d
	cmpb	$26, %dl
	movzbl	%r8b, %edx
	cmovael	%eax, %edx
	cmpb	$105, %dl
	jne	.LBB33_15
	movzbl	6(%rsi), %eax
	leal	-65(%rax), %edx
	leal	32(%rax), %r8d
	cmpb	$26, %dl
	movzbl	%r8b, %edx
	cmovael	%eax, %edx
	cmpb	$116, %dl
	jne	.LBB33_15
	movzbl	7(%rsi), %eax
	leal	-65(%rax), %edx
	leal	32(%rax), %r8d
	cmpb	$26, %dl
	movzbl	%r8b, %edx
	cmovael	%eax, %edx
	cmpb	$121, %dl
	jne	.LBB33_15
	movl	$1, %ecx
	movl	$8, %eax
	movaps	%xmm0, %xmm1
	jmp	.LBB33_27
.LBB33_1:
	movss	.LCPI33_0(%rip), %xmm0
	cmpq	$8, %rdx
	jae	.LBB33_4
.LBB33_13:
	cmpq	$3, %rdx
	jae	.LBB33_15
	xorps	%xmm1, %xmm1
	jmp	.LBB33_17
.LBB33_15:
	movzbl	(%rsi), %edx
	leal	-65(%rdx), %eax
	leal	32(%rdx), %r8d
	cmpb	$26, %al
	movzbl	%r8b, %eax
	cmovael	%edx, %eax
	xorps	%xmm1, %xmm1
	cmpb	$110, %al
	je	.LBB33_21
	movzbl	%al, %eax
	cmpl	$105, %eax
	jne	.LBB33_17
	movzbl	1(%rsi), %eax
	leal	-65(%rax), %ecx
	leal	32(%rax), %edx
	cmpb	$26, %cl
	movzbl	%dl, %ecx
	cmovael	%eax, %ecx
	cmpb	$110, %cl
	jne	.LBB33_17
	movzbl	2(%rsi), %eax
	leal	-65(%rax), %ecx
	leal	32(%rax), %edx
	cmpb	$26, %cl
	movzbl	%dl, %ecx
	cmovael	%eax, %ecx
	cmpb	$102, %cl
	jne	.LBB33_17
	movl	$1, %ecx
	movl	$3, %eax
	movaps	%xmm0, %xmm1
	jmp	.LBB33_27
.LBB33_21:
	movzbl	1(%rsi), %eax
	leal	-65(%rax), %edx
	leal	32(%rax), %r8d
	cmpb	$26, %dl
	movzbl	%r8b, %edx
	cmovael	%eax, %edx
	cmpb	$97, %dl
	jne	.LBB33_17
	movzbl	2(%rsi), %eax
	leal	-65(%rax), %edx
	leal	32(%rax), %esi
	cmpb	$26, %dl
	movzbl	%sil, %edx
	cmovael	%eax, %edx
	cmpb	$110, %dl
	jne	.LBB33_17
	testb	%cl, %cl
	jne	.LBB33_24
	movss	.LCPI33_3(%rip), %xmm1
	jmp	.LBB33_26
.LBB33_17:
	xorl	%eax, %eax
	xorl	%ecx, %ecx
.LBB33_27:
	movq	%rcx, (%rdi)
	movss	%xmm1, 8(%rdi)
	movl	$0, 12(%rdi)
	movq	%rax, 16(%rdi)
	retq
.LBB33_24:
	movss	.LCPI33_2(%rip), %xmm1
.LBB33_26:
	movl	$1, %ecx
	movl	$3, %eax
	jmp	.LBB33_27
.Lfunc_end33:
	.size	"core::dec2flt::words::read_word::<#11bd57d74d267e9b>", .Lfunc_end33-"core::dec2flt::words::read_word::<#11bd57d74d267e9b>"

	.section	".text.unlikely.core::dec2flt::long::from_long::<#1d521972340cebc2>","ax",@progbits
	.p2align	4
	.type	"core::dec2flt::long::from_long::<#1d521972340cebc2>",@function
"core::dec2flt::long::from_long::<#1d521972340cebc2>":
	pushq	%rbp
	pushq	%r15
	pushq	%r14
	pushq	%r13
	pushq	%r12
	pushq	%rbx
	subq	$1304, %rsp
	movq	%rcx, %r12
	addq	%rsi, %r12
	je	.LBB34_1
	movq	%rdx, %r11
	subq	%rsi, %r11
	xorl	%eax, %eax
	.p2align	4
.LBB34_7:
	cmpq	%rsi, %rax
	movq	%r11, %r10
	cmovbq	%rdi, %r10
	cmpb	$48, (%r10,%rax)
	jne	.LBB34_2
	incq	%rax
	cmpq	%rax, %r12
	jne	.LBB34_7
	jmp	.LBB34_9
.LBB34_1:
	xorl	%eax, %eax
.LBB34_2:
	movq	%r12, %r14
	subq	%rax, %r14
	je	.LBB34_9
	xorl	%r13d, %r13d
	addq	%rcx, %r9
	setb	%r13b
	cmpq	$19, %r14
	movl	$19, %ebp
	cmovbq	%r14, %rbp
	movq	%r14, %r10
	subq	%rbp, %r10
	xorl	%r11d, %r11d
	addq	%r8, %r10
	setb	%r11b
	addq	$342, %r10
	adcq	$0, %r11
	cmpq	%r9, %r10
	movq	%r11, %rbx
	sbbq	%r13, %rbx
	jae	.LBB34_4
.LBB34_9:
	xorl	%eax, %eax
.LBB34_10:
	addq	$1304, %rsp
	popq	%rbx
	popq	%r12
	popq	%r13
	popq	%r14
	popq	%r15
	popq	%rbp
	retq
.LBB34_4:
	subq	%r9, %r10
	sbbq	%r13, %r11
	xorl	%ebx, %ebx
	movl	$650, %r15d
	cmpq	%r10, %r15
	sbbq	%r11, %rbx
	jae	.LBB34_11
	movabsq	$9218868437227405312, %rax
	jmp	.LBB34_10
.LBB34_11:
	movq	%r8, 24(%rsp)
	movq	%r9, 32(%rsp)
	movq	%r13, 64(%rsp)
	cmpq	$1, %r14
	movq	%rcx, 72(%rsp)
	jne	.LBB34_13
	xorl	%r15d, %r15d
	xorl	%r11d, %r11d
	jmp	.LBB34_16
.LBB34_13:
	movq	%rbp, %r9
	andl	$30, %ebp
	movq	%rax, %r13
	subq	%rsi, %r13
	addq	%rdx, %r13
	leaq	(%rdi,%rax), %rbx
	xorl	%r15d, %r15d
	xorl	%r11d, %r11d
	.p2align	4
.LBB34_14:
	leaq	(%r11,%r11,4), %r11
	leaq	(%rax,%r15), %r8
	cmpq	%rsi, %r8
	movq	%r13, %r8
	cmovbq	%rbx, %r8
	movzbl	(%r8,%r15), %r8d
	addb	$-48, %r8b
	movzbl	%r8b, %r8d
	leaq	(%r8,%r11,2), %r8
	leaq	(%r8,%r8,4), %r8
	leaq	(%rax,%r15), %r11
	incq	%r11
	cmpq	%rsi, %r11
	movq	%r13, %r11
	cmovbq	%rbx, %r11
	movzbl	1(%r11,%r15), %r11d
	addb	$-48, %r11b
	movzbl	%r11b, %r11d
	leaq	(%r11,%r8,2), %r11
	addq	$2, %r15
	cmpq	%r15, %rbp
	jne	.LBB34_14
	testb	$1, %r9b
	je	.LBB34_17
.LBB34_16:
	leaq	(%r11,%r11,4), %rcx
	addq	%rax, %r15
	leaq	(%rdi,%r15), %rax
	subq	%rsi, %r15
	leaq	(%rdx,%r15), %r8
	cmovbq	%rax, %r8
	movzbl	(%r8), %eax
	addb	$-48, %al
	movzbl	%al, %eax
	leaq	(%rax,%rcx,2), %r11
.LBB34_17:
	movq	%rdx, 8(%rsp)
	xorl	%ebx, %ebx
	cmpq	$20, %r14
	setae	%bl
	movl	$127, %ecx
	bsrq	%r11, %rcx
	xorq	$63, %rcx
	movq	%r11, %rax
	shlq	%cl, %rax
	movq	%r10, %rdx
	shlq	$4, %rdx
	leaq	.Lstatic.25(%rip), %r8
	mulq	8(%rdx,%r8)
	movq	%rdx, %r14
	shrq	$63, %r14
	imulq	$217706, %r10, %rax
	addq	$58980, %rax
	shrq	$16, %rax
	addq	%r14, %rax
	addq	$1139, %rax
	leaq	1191(%rcx), %r15
	cmpq	%r15, %rax
	jb	.LBB34_20
	movq	%rbx, %r9
	shlq	%cl, %r9
	movl	$-1024, %ebp
	movl	%r14d, %ecx
	shll	%cl, %ebp
	addq	$2, %r9
	notl	%ebp
	movl	%edx, %r8d
	movl	$512, %r13d
	shlq	%cl, %r13
	andl	%ebp, %r8d
	movq	%r13, %rcx
	subq	%r8, %rcx
	cmpq	%r9, %rcx
	jb	.LBB34_20
	orb	$10, %r14b
	movl	%r14d, %ecx
	shrq	%cl, %rdx
	subl	%r15d, %eax
	shlq	$52, %rax
	cmpl	%r8d, %r13d
	adcq	%rdx, %rax
	movabsq	$9218868437227405312, %rcx
	cmpq	%rcx, %rax
	cmovaeq	%rcx, %rax
	jmp	.LBB34_10
.LBB34_20:
	movq	24(%rsp), %r15
	movq	32(%rsp), %r14
	movq	%rdi, 48(%rsp)
	movq	%rsi, 40(%rsp)
	leaq	80(%rsp), %rdi
	movq	%r11, %rsi
	movq	%rbx, %rdx
	movq	%r10, %rcx
	callq	"core::dec2flt::lemire::eisel_lemire_wide::<#1d521972340cebc2>"
	movq	88(%rsp), %rax
	cmpb	$0, 80(%rsp)
	je	.LBB34_10
	movq	96(%rsp), %r9
	xorl	%r8d, %r8d
	movl	$1075, %ecx
	subq	%r9, %rcx
	cmovaeq	%rcx, %r8
	xorl	%edx, %edx
	movq	%r8, %rsi
	addq	%r15, %rsi
	setb	%dl
	cmpq	%r14, %rsi
	movq	%rdx, %rdi
	movq	64(%rsp), %rbp
	sbbq	%rbp, %rdi
	movq	%rax, 16(%rsp)
	movq	%r9, 56(%rsp)
	jae	.LBB34_22
	movq	%r14, %rcx
	movq	%r8, 24(%rsp)
	subq	%rsi, %rcx
	sbbq	%rdx, %rbp
	xorl	%edx, %edx
	movq	%r12, %rbx
	subq	%rcx, %rbx
	movl	$0, %eax
	sbbq	%rbp, %rax
	cmovbq	%rdx, %rbx
	cmpq	%rbx, %r12
	jbe	.LBB34_47
	cmpq	%r12, %rcx
	movq	%rbp, %r8
	movq	%rbp, %rax
	sbbq	$0, %rax
	movq	%r12, %rax
	cmovbq	%rcx, %rax
	movq	72(%rsp), %rbp
	subq	%rax, %rbp
	addq	8(%rsp), %rbp
	movq	%rbx, %rax
	movq	40(%rsp), %rdx
	movq	48(%rsp), %rsi
.LBB34_43:
	leaq	(%rsi,%rax), %rdi
	cmpq	%rdx, %rax
	cmovaeq	%rbp, %rdi
	cmpb	$48, (%rdi)
	jne	.LBB34_46
	incq	%rax
	incq	%rbp
	cmpq	%r12, %rax
	jb	.LBB34_43
	movq	%r12, %rax
.LBB34_46:
	cmpq	%r12, %rax
	setb	%dl
	movq	%r8, %rbp
.LBB34_47:
	movq	%rdx, 32(%rsp)
	leaq	704(%rsp), %rdi
	movl	$600, %edx
	xorl	%esi, %esi
	movq	%rcx, %r14
	callq	memset@PLT
	cmpq	%r12, %r14
	sbbq	$0, %rbp
	movq	8(%rsp), %rsi
	movq	40(%rsp), %r9
	movq	48(%rsp), %r10
	movq	16(%rsp), %r8
	jae	.LBB34_65
	movq	%rsi, %r15
	subq	%r9, %r15
	xorl	%r12d, %r12d
	jmp	.LBB34_49
.LBB34_64:
	addq	%r13, %r12
	cmpq	%rbx, %r12
	jae	.LBB34_65
.LBB34_49:
	movq	%rbx, %rax
	subq	%r12, %rax
	cmpq	$19, %rax
	movl	$19, %r13d
	cmovbq	%rax, %r13
	cmpq	$1, %rax
	jne	.LBB34_51
	xorl	%eax, %eax
	xorl	%r14d, %r14d
	jmp	.LBB34_54
.LBB34_51:
	movl	%r13d, %ecx
	andl	$30, %ecx
	leaq	(%r15,%r12), %rdx
	leaq	(%r10,%r12), %rdi
	xorl	%eax, %eax
	xorl	%r14d, %r14d
	.p2align	4
.LBB34_52:
	leaq	(%r14,%r14,4), %r11
	leaq	(%r12,%rax), %r14
	cmpq	%r9, %r14
	movq	%rdx, %r14
	cmovbq	%rdi, %r14
	movzbl	(%r14,%rax), %ebp
	addb	$-48, %bpl
	movzbl	%bpl, %r14d
	leaq	(%r14,%r11,2), %r11
	leaq	(%r11,%r11,4), %r11
	leaq	(%r12,%rax), %r14
	incq	%r14
	cmpq	%r9, %r14
	movq	%rdx, %r14
	cmovbq	%rdi, %r14
	movzbl	1(%r14,%rax), %ebp
	addb	$-48, %bpl
	movzbl	%bpl, %r14d
	leaq	(%r14,%r11,2), %r14
	addq	$2, %rax
	cmpq	%rax, %rcx
	jne	.LBB34_52
	testb	$1, %r13b
	je	.LBB34_55
.LBB34_54:
	leaq	(%r14,%r14,4), %rcx
	addq	%r12, %rax
	leaq	(%r10,%rax), %rdx
	subq	%r9, %rax
	leaq	(%rsi,%rax), %rax
	cmovbq	%rdx, %rax
	movzbl	(%rax), %eax
	addb	$-48, %al
	movzbl	%al, %eax
	leaq	(%rax,%rcx,2), %r14
.LBB34_55:
	movq	1296(%rsp), %rbp
	testq	%rbp, %rbp
	je	.LBB34_62
	movl	%r13d, %eax
	leaq	.Lstatic.24(%rip), %rcx
	movq	(%rcx,%rax,8), %rcx
	cmpq	$1, %rbp
	jne	.LBB34_58
	xorl	%r11d, %r11d
	jmp	.LBB34_61
.LBB34_58:
	movq	%rbp, %r8
	andq	$-2, %r8
	xorl	%r11d, %r11d
	.p2align	4
.LBB34_59:
	movq	%rcx, %rax
	mulq	704(%rsp,%r11,8)
	movq	%rdx, %rsi
	movq	%rax, %rdi
	movq	%rcx, %rax
	mulq	712(%rsp,%r11,8)
	addq	%r14, %rdi
	adcq	%rsi, %rax
	movq	%rdx, %r14
	adcq	$0, %r14
	movq	%rdi, 704(%rsp,%r11,8)
	movq	%rax, 712(%rsp,%r11,8)
	addq	$2, %r11
	cmpq	%r11, %r8
	jne	.LBB34_59
	testb	$1, %bpl
	movq	8(%rsp), %rsi
	movq	16(%rsp), %r8
	je	.LBB34_62
.LBB34_61:
	movq	%rcx, %rax
	mulq	704(%rsp,%r11,8)
	movq	16(%rsp), %r8
	addq	%r14, %rax
	movq	8(%rsp), %rsi
	adcq	$0, %rdx
	movq	%rax, 704(%rsp,%r11,8)
	movq	%rdx, %r14
.LBB34_62:
	testq	%r14, %r14
	je	.LBB34_64
	movq	%r14, 704(%rsp,%rbp,8)
	incq	%rbp
	movq	%rbp, 1296(%rsp)
	jmp	.LBB34_64
.LBB34_22:
	leaq	104(%rsp), %rdi
	movl	$600, %edx
	xorl	%esi, %esi
	callq	memset@PLT
	movq	16(%rsp), %r8
	testq	%r12, %r12
	movq	8(%rsp), %rdi
	movq	40(%rsp), %r10
	movq	48(%rsp), %r11
	jne	.LBB34_23
.LBB34_40:
	xorl	%eax, %eax
	movq	24(%rsp), %r9
	movq	%r9, %rdx
	movq	32(%rsp), %rcx
	subq	%rcx, %rdx
	movl	$0, %edi
	movq	64(%rsp), %rsi
	sbbq	%rsi, %rdi
	cmovbq	%rax, %rdx
	subq	%r9, %rcx
	sbbq	$0, %rsi
	cmovbq	%rax, %rcx
	leaq	104(%rsp), %rdi
	xorl	%esi, %esi
	jmp	.LBB34_66
.LBB34_65:
	movzbl	32(%rsp), %esi
	leaq	704(%rsp), %rdi
	xorl	%edx, %edx
	movq	24(%rsp), %rcx
.LBB34_66:
	movq	56(%rsp), %r9
	callq	"core::dec2flt::decimal::break_tie::<#1d521972340cebc2>"
	jmp	.LBB34_10
.LBB34_23:
	movq	%rdi, %r13
	subq	%r10, %r13
	xorl	%r14d, %r14d
	jmp	.LBB34_24
.LBB34_39:
	addq	%r9, %r14
	cmpq	%r12, %r14
	jae	.LBB34_40
.LBB34_24:
	movq	%r12, %rax
	subq	%r14, %rax
	cmpq	$19, %rax
	movl	$19, %r9d
	cmovbq	%rax, %r9
	cmpq	$1, %rax
	jne	.LBB34_26
	xorl	%eax, %eax
	xorl	%ebp, %ebp
	jmp	.LBB34_29
.LBB34_26:
	movl	%r9d, %ecx
	andl	$30, %ecx
	leaq	(%r14,%r13), %rdx
	leaq	(%r11,%r14), %rsi
	xorl	%eax, %eax
	xorl	%ebp, %ebp
	.p2align	4
.LBB34_27:
	leaq	(,%rbp,4), %rbx
	addq	%rbp, %rbx
	leaq	(%r14,%rax), %r15
	cmpq	%r10, %r15
	movq	%rdx, %r15
	cmovbq	%rsi, %r15
	movzbl	(%r15,%rax), %ebp
	addb	$-48, %bpl
	movzbl	%bpl, %r15d
	leaq	(%r15,%rbx,2), %rbx
	leaq	(%rbx,%rbx,4), %rbx
	leaq	(%r14,%rax), %r15
	incq	%r15
	cmpq	%r10, %r15
	movq	%rdx, %r15
	cmovbq	%rsi, %r15
	movzbl	1(%r15,%rax), %ebp
	addb	$-48, %bpl
	movzbl	%bpl, %r15d
	leaq	(%r15,%rbx,2), %rbp
	addq	$2, %rax
	cmpq	%rax, %rcx
	jne	.LBB34_27
	testb	$1, %r9b
	je	.LBB34_30
.LBB34_29:
	leaq	(,%rbp,4), %rcx
	addq	%rbp, %rcx
	addq	%r14, %rax
	leaq	(%r11,%rax), %rdx
	subq	%r10, %rax
	leaq	(%rdi,%rax), %rax
	cmovbq	%rdx, %rax
	movzbl	(%rax), %eax
	addb	$-48, %al
	movzbl	%al, %eax
	leaq	(%rax,%rcx,2), %rbp
.LBB34_30:
	movq	696(%rsp), %rbx
	testq	%rbx, %rbx
	je	.LBB34_37
	movl	%r9d, %eax
	leaq	.Lstatic.24(%rip), %rcx
	movq	(%rcx,%rax,8), %rsi
	cmpq	$1, %rbx
	jne	.LBB34_33
	xorl	%ecx, %ecx
	jmp	.LBB34_36
.LBB34_33:
	movq	%rbx, %r15
	andq	$-2, %r15
	xorl	%ecx, %ecx
	.p2align	4
.LBB34_34:
	movq	%rsi, %rax
	mulq	104(%rsp,%rcx,8)
	movq	%rdx, %rdi
	movq	%rax, %r8
	movq	%rsi, %rax
	mulq	112(%rsp,%rcx,8)
	addq	%rbp, %r8
	adcq	%rdi, %rax
	movq	%rdx, %rbp
	adcq	$0, %rbp
	movq	%r8, 104(%rsp,%rcx,8)
	movq	%rax, 112(%rsp,%rcx,8)
	addq	$2, %rcx
	cmpq	%rcx, %r15
	jne	.LBB34_34
	testb	$1, %bl
	movq	8(%rsp), %rdi
	movq	16(%rsp), %r8
	je	.LBB34_37
.LBB34_36:
	movq	%rsi, %rax
	mulq	104(%rsp,%rcx,8)
	movq	16(%rsp), %r8
	addq	%rbp, %rax
	movq	8(%rsp), %rdi
	adcq	$0, %rdx
	movq	%rax, 104(%rsp,%rcx,8)
	movq	%rdx, %rbp
.LBB34_37:
	testq	%rbp, %rbp
	je	.LBB34_39
	movq	%rbp, 104(%rsp,%rbx,8)
	incq	%rbx
	movq	%rbx, 696(%rsp)
	jmp	.LBB34_39
.Lfunc_end34:
	.size	"core::dec2flt::long::from_long::<#1d521972340cebc2>", .Lfunc_end34-"core::dec2flt::long::from_long::<#1d521972340cebc2>"

	.section	".text.unlikely.core::dec2flt::lemire::eisel_lemire_wide::<#1d521972340cebc2>","ax",@progbits
	.p2align	4
	.type	"core::dec2flt::lemire::eisel_lemire_wide::<#1d521972340cebc2>",@function
"core::dec2flt::lemire::eisel_lemire_wide::<#1d521972340cebc2>":
	pushq	%r14
	pushq	%rbx
	movq	%rcx, %r9
	movq	%rsi, %r10
	movl	$127, %ecx
	bsrq	%rsi, %rcx
	xorq	$63, %rcx
	shlq	%cl, %r10
	movq	%rdx, %rsi
	movq	%r9, %rbx
	shlq	$4, %rbx
	leaq	.Lstatic.25(%rip), %r14
	movq	%r10, %rax
	mulq	8(%rbx,%r14)
	movq	%rdx, %r8
	movq	%rax, %r11
	movq	%r10, %rax
	mulq	(%rbx,%r14)
	addq	%r11, %rdx
	adcq	$0, %r8
	movq	%r8, %r11
	shrq	$63, %r11
	imulq	$217706, %r9, %rax
	addq	$58980, %rax
	shrq	$16, %rax
	addq	%r11, %rax
	addq	$1139, %rax
	movq	%rcx, %r9
	addq	$1191, %r9
	shlq	%cl, %rsi
	xorl	%r10d, %r10d
	movq	%r9, %rcx
	subq	%rax, %rcx
	cmovbq	%r10, %rcx
	subq	%r9, %rax
	cmovbq	%r10, %rax
	addq	%r11, %rcx
	addq	$72, %rcx
	movl	$0, %r9d
	movl	$0, %r11d
	cmpq	$127, %rcx
	ja	.LBB35_7
	shrdq	$2, %r8, %rdx
	shrq	$2, %r8
	movq	%rdx, %r10
	shrdq	%cl, %r8, %r10
	movq	%r8, %r9
	shrq	%cl, %r9
	movq	$-1, %r11
	shlq	%cl, %r11
	xorl	%r14d, %r14d
	testb	$64, %cl
	cmoveq	%r10, %r9
	movq	$-1, %r10
	movq	%r11, %rbx
	cmovneq	%r14, %rbx
	cmoveq	%r10, %r11
	notq	%rbx
	andq	%rdx, %rbx
	decb	%cl
	movl	$1, %r10d
	xorl	%edx, %edx
	shldq	%cl, %r10, %rdx
	notq	%r11
	andq	%r8, %r11
	movl	$1, %r8d
	shlq	%cl, %r8
	testb	$64, %cl
	cmovneq	%r8, %rdx
	cmovneq	%r14, %r8
	cmpq	%rbx, %r8
	movq	%rdx, %rcx
	sbbq	%r11, %rcx
	jae	.LBB35_3
	shlq	$52, %rax
	addq	%r9, %rax
	incq	%rax
	movabsq	$9218868437227405312, %r9
	cmpq	%r9, %rax
	cmovbq	%rax, %r9
	xorl	%r10d, %r10d
	jmp	.LBB35_6
.LBB35_3:
	movq	%rsi, %rcx
	shrq	$2, %rcx
	shlq	$62, %rsi
	orq	$2, %rsi
	subq	%rbx, %r8
	sbbq	%r11, %rdx
	cmpq	%rsi, %r8
	sbbq	%rcx, %rdx
	jae	.LBB35_5
	movq	%rax, %r11
	jmp	.LBB35_7
.LBB35_5:
	shlq	$52, %rax
	addq	%r9, %rax
	movabsq	$9218868437227405312, %rcx
	cmpq	%rcx, %rax
	cmovaeq	%rcx, %rax
	xorl	%r10d, %r10d
	movq	%rax, %r9
.LBB35_6:
	xorl	%r11d, %r11d
.LBB35_7:
	movq	%r10, (%rdi)
	movq	%r9, 8(%rdi)
	movq	%r11, 16(%rdi)
	popq	%rbx
	popq	%r14
	retq
.Lfunc_end35:
	.size	"core::dec2flt::lemire::eisel_lemire_wide::<#1d521972340cebc2>", .Lfunc_end35-"core::dec2flt::lemire::eisel_lemire_wide::<#1d521972340cebc2>"

	.section	".text.unlikely.core::dec2flt::decimal::break_tie::<#1d521972340cebc2>","ax",@progbits
	.p2align	4
	.type	"core::dec2flt::decimal::break_tie::<#1d521972340cebc2>",@function
"core::dec2flt::decimal::break_tie::<#1d521972340cebc2>":
	pushq	%rbp
	pushq	%r15
	pushq	%r14
	pushq	%r13
	pushq	%r12
	pushq	%rbx
	subq	$1208, %rsp
	movq	%r9, %rbx
	movq	%r8, %r14
	movq	%rcx, %r15
	movq	%rdx, %r12
	movl	%esi, %ebp
	movq	%rdi, %rsi
	leaq	608(%rsp), %rdi
	movl	$600, %edx
	callq	memcpy@PLT
	cmpq	$20, %r12
	jb	.LBB36_14
	movq	1200(%rsp), %r8
	testq	%r8, %r8
	jne	.LBB36_4
	addq	$-20, %r12
	movabsq	$-2912643801112034465, %rcx
	movq	%r12, %rax
	mulq	%rcx
	shrq	$4, %rdx
	leaq	(%rdx,%rdx,8), %rax
	leaq	(%rdx,%rax,2), %rax
	subq	%rax, %r12
	incq	%r12
	jmp	.LBB36_14
	.p2align	4
.LBB36_3:
	movq	1200(%rsp), %r8
.LBB36_4:
	testq	%r8, %r8
	je	.LBB36_13
	cmpq	$1, %r8
	jne	.LBB36_7
	xorl	%r9d, %r9d
	xorl	%r10d, %r10d
	jmp	.LBB36_10
	.p2align	4
.LBB36_7:
	movq	%r8, %r11
	andq	$-2, %r11
	xorl	%r9d, %r9d
	xorl	%r10d, %r10d
	.p2align	4
.LBB36_8:
	movabsq	$-8446744073709551616, %rcx
	movq	%rcx, %rax
	mulq	608(%rsp,%r10,8)
	movq	%rdx, %rsi
	movq	%rax, %rdi
	movq	%rcx, %rax
	mulq	616(%rsp,%r10,8)
	addq	%r9, %rdi
	adcq	%rsi, %rax
	movq	%rdx, %r9
	adcq	$0, %r9
	movq	%rdi, 608(%rsp,%r10,8)
	movq	%rax, 616(%rsp,%r10,8)
	addq	$2, %r10
	cmpq	%r10, %r11
	jne	.LBB36_8
	testb	$1, %r8b
	je	.LBB36_11
.LBB36_10:
	movabsq	$-8446744073709551616, %rax
	mulq	608(%rsp,%r10,8)
	addq	%r9, %rax
	adcq	$0, %rdx
	movq	%rax, 608(%rsp,%r10,8)
	movq	%rdx, %r9
.LBB36_11:
	testq	%r9, %r9
	je	.LBB36_13
	movq	%r9, 608(%rsp,%r8,8)
	incq	%r8
	movq	%r8, 1200(%rsp)
.LBB36_13:
	addq	$-19, %r12
	cmpq	$19, %r12
	ja	.LBB36_3
.LBB36_14:
	movq	1200(%rsp), %r8
	testq	%r8, %r8
	je	.LBB36_45
	leaq	.Lstatic.24(%rip), %rax
	movq	(%rax,%r12,8), %rcx
	cmpq	$1, %r8
	jne	.LBB36_17
	xorl	%r9d, %r9d
	xorl	%r10d, %r10d
	jmp	.LBB36_20
.LBB36_17:
	movq	%r8, %r11
	andq	$-2, %r11
	xorl	%r9d, %r9d
	xorl	%r10d, %r10d
	.p2align	4
.LBB36_18:
	movq	%rcx, %rax
	mulq	608(%rsp,%r10,8)
	movq	%rdx, %rsi
	movq	%rax, %rdi
	movq	%rcx, %rax
	mulq	616(%rsp,%r10,8)
	addq	%r9, %rdi
	adcq	%rsi, %rax
	movq	%rdx, %r9
	adcq	$0, %r9
	movq	%rdi, 608(%rsp,%r10,8)
	movq	%rax, 616(%rsp,%r10,8)
	addq	$2, %r10
	cmpq	%r10, %r11
	jne	.LBB36_18
	testb	$1, %r8b
	je	.LBB36_21
.LBB36_20:
	movq	%rcx, %rax
	mulq	608(%rsp,%r10,8)
	addq	%r9, %rax
	adcq	$0, %rdx
	movq	%rax, 608(%rsp,%r10,8)
	movq	%rdx, %r9
.LBB36_21:
	testq	%r9, %r9
	je	.LBB36_23
	movq	%r9, 608(%rsp,%r8,8)
	incq	%r8
	movq	%r8, 1200(%rsp)
	jmp	.LBB36_24
.LBB36_23:
	movq	1200(%rsp), %r8
.LBB36_24:
	xorl	%ecx, %ecx
	movl	$1075, %eax
	subq	%rbx, %rax
	cmovaeq	%rax, %rcx
	cmpq	$64, %rcx
	jb	.LBB36_36
	testq	%r8, %r8
	jne	.LBB36_27
	jmp	.LBB36_45
	.p2align	4
.LBB36_26:
	addq	$-63, %rcx
	movq	1200(%rsp), %r8
	cmpq	$63, %rcx
	jbe	.LBB36_36
.LBB36_27:
	testq	%r8, %r8
	je	.LBB36_26
	cmpq	$1, %r8
	jne	.LBB36_30
	xorl	%eax, %eax
	xorl	%edx, %edx
	jmp	.LBB36_33
	.p2align	4
.LBB36_30:
	movq	%r8, %rsi
	andq	$-2, %rsi
	xorl	%eax, %eax
	xorl	%edx, %edx
	.p2align	4
.LBB36_31:
	movq	608(%rsp,%rdx,8), %rdi
	movq	%rdi, %r9
	shlq	$63, %r9
	orq	%rax, %r9
	movq	616(%rsp,%rdx,8), %rax
	movq	%r9, 608(%rsp,%rdx,8)
	shrdq	$1, %rax, %rdi
	movq	%rdi, 616(%rsp,%rdx,8)
	shrq	%rax
	addq	$2, %rdx
	cmpq	%rdx, %rsi
	jne	.LBB36_31
	testb	$1, %r8b
	je	.LBB36_34
.LBB36_33:
	movq	608(%rsp,%rdx,8), %rsi
	movq	%rsi, %rdi
	shlq	$63, %rdi
	orq	%rax, %rdi
	movq	%rdi, 608(%rsp,%rdx,8)
	shrq	%rsi
	movq	%rsi, %rax
.LBB36_34:
	testq	%rax, %rax
	je	.LBB36_26
	movq	%rax, 608(%rsp,%r8,8)
	incq	%r8
	movq	%r8, 1200(%rsp)
	jmp	.LBB36_26
.LBB36_36:
	testq	%r8, %r8
	je	.LBB36_45
	cmpq	$1, %r8
	jne	.LBB36_39
	xorl	%eax, %eax
	xorl	%edx, %edx
	jmp	.LBB36_42
.LBB36_39:
	movq	%r8, %rsi
	andq	$-2, %rsi
	xorl	%eax, %eax
	xorl	%edx, %edx
	.p2align	4
.LBB36_40:
	movq	616(%rsp,%rdx,8), %r9
	movq	%r9, %r10
	shlq	%cl, %r10
	xorl	%edi, %edi
	testb	$64, %cl
	movq	%r10, %r11
	cmovneq	%rdi, %r11
	xorl	%r12d, %r12d
	shldq	%cl, %r9, %r12
	movq	608(%rsp,%rdx,8), %r9
	testb	$64, %cl
	cmovneq	%r10, %r12
	movq	%r9, %r10
	shlq	%cl, %r10
	testb	$64, %cl
	movq	%r10, %r13
	cmovneq	%rdi, %r13
	shldq	%cl, %r9, %rdi
	testb	$64, %cl
	cmovneq	%r10, %rdi
	addq	%rax, %r13
	adcq	$0, %rdi
	addq	%r11, %rdi
	movq	%r12, %rax
	adcq	$0, %rax
	movq	%r13, 608(%rsp,%rdx,8)
	movq	%rdi, 616(%rsp,%rdx,8)
	addq	$2, %rdx
	cmpq	%rdx, %rsi
	jne	.LBB36_40
	testb	$1, %r8b
	je	.LBB36_43
.LBB36_42:
	movq	608(%rsp,%rdx,8), %rsi
	xorl	%edi, %edi
	shldq	%cl, %rsi, %rdi
	shlq	%cl, %rsi
	xorl	%r9d, %r9d
	testb	$64, %cl
	cmovneq	%rsi, %rdi
	cmovneq	%r9, %rsi
	addq	%rax, %rsi
	adcq	$0, %rdi
	movq	%rsi, 608(%rsp,%rdx,8)
	movq	%rdi, %rax
.LBB36_43:
	testq	%rax, %rax
	je	.LBB36_45
	movq	%rax, 608(%rsp,%r8,8)
	incq	%r8
	movq	%r8, 1200(%rsp)
.LBB36_45:
	leaq	1(,%r14,2), %rax
	movq	%rax, 8(%rsp)
	leaq	16(%rsp), %rdi
	movl	$584, %edx
	xorl	%esi, %esi
	callq	memset@PLT
	movq	$1, 600(%rsp)
	movl	$1, %r8d
	cmpq	$20, %r15
	jae	.LBB36_47
	jmp	.LBB36_57
	.p2align	4
.LBB36_46:
	addq	$-19, %r15
	movq	600(%rsp), %r8
	cmpq	$19, %r15
	jbe	.LBB36_56
.LBB36_47:
	testq	%r8, %r8
	je	.LBB36_46
	cmpq	$1, %r8
	jne	.LBB36_50
	xorl	%r9d, %r9d
	xorl	%r10d, %r10d
	jmp	.LBB36_53
	.p2align	4
.LBB36_50:
	movq	%r8, %r11
	andq	$-2, %r11
	xorl	%r9d, %r9d
	xorl	%r10d, %r10d
	.p2align	4
.LBB36_51:
	movabsq	$-8446744073709551616, %rcx
	movq	%rcx, %rax
	mulq	8(%rsp,%r10,8)
	movq	%rdx, %rsi
	movq	%rax, %rdi
	movq	%rcx, %rax
	mulq	16(%rsp,%r10,8)
	addq	%r9, %rdi
	adcq	%rsi, %rax
	movq	%rdx, %r9
	adcq	$0, %r9
	movq	%rdi, 8(%rsp,%r10,8)
	movq	%rax, 16(%rsp,%r10,8)
	addq	$2, %r10
	cmpq	%r10, %r11
	jne	.LBB36_51
	testb	$1, %r8b
	je	.LBB36_54
.LBB36_53:
	movabsq	$-8446744073709551616, %rax
	mulq	8(%rsp,%r10,8)
	addq	%r9, %rax
	adcq	$0, %rdx
	movq	%rax, 8(%rsp,%r10,8)
	movq	%rdx, %r9
.LBB36_54:
	testq	%r9, %r9
	je	.LBB36_46
	movq	%r9, 8(%rsp,%r8,8)
	incq	%r8
	movq	%r8, 600(%rsp)
	jmp	.LBB36_46
.LBB36_56:
	testq	%r8, %r8
	je	.LBB36_89
.LBB36_57:
	leaq	.Lstatic.24(%rip), %rax
	movq	(%rax,%r15,8), %rcx
	cmpq	$1, %r8
	jne	.LBB36_59
	xorl	%r9d, %r9d
	xorl	%r10d, %r10d
	jmp	.LBB36_62
.LBB36_59:
	movq	%r8, %r11
	andq	$-2, %r11
	xorl	%r9d, %r9d
	xorl	%r10d, %r10d
	.p2align	4
.LBB36_60:
	movq	%rcx, %rax
	mulq	8(%rsp,%r10,8)
	movq	%rdx, %rsi
	movq	%rax, %rdi
	movq	%rcx, %rax
	mulq	16(%rsp,%r10,8)
	addq	%r9, %rdi
	adcq	%rsi, %rax
	movq	%rdx, %r9
	adcq	$0, %r9
	movq	%rdi, 8(%rsp,%r10,8)
	movq	%rax, 16(%rsp,%r10,8)
	addq	$2, %r10
	cmpq	%r10, %r11
	jne	.LBB36_60
	testb	$1, %r8b
	je	.LBB36_63
.LBB36_62:
	movq	%rcx, %rax
	mulq	8(%rsp,%r10,8)
	addq	%r9, %rax
	adcq	$0, %rdx
	movq	%rax, 8(%rsp,%r10,8)
	movq	%rdx, %r9
.LBB36_63:
	testq	%r9, %r9
	je	.LBB36_65
	movq	%r9, 8(%rsp,%r8,8)
	incq	%r8
	movq	%r8, 600(%rsp)
	jmp	.LBB36_66
.LBB36_65:
	movq	600(%rsp), %r8
.LBB36_66:
	xorl	%ecx, %ecx
	movq	%rbx, %rax
	subq	$1075, %rax
	cmovaeq	%rax, %rcx
	cmpq	$64, %rcx
	jb	.LBB36_79
	testq	%r8, %r8
	jne	.LBB36_70
	jmp	.LBB36_89
	.p2align	4
.LBB36_69:
	addq	$-63, %rcx
	movq	600(%rsp), %r8
	cmpq	$63, %rcx
	jbe	.LBB36_79
.LBB36_70:
	testq	%r8, %r8
	je	.LBB36_69
	cmpq	$1, %r8
	jne	.LBB36_73
	xorl	%eax, %eax
	xorl	%edx, %edx
	jmp	.LBB36_76
	.p2align	4
.LBB36_73:
	movq	%r8, %rsi
	andq	$-2, %rsi
	xorl	%eax, %eax
	xorl	%edx, %edx
	.p2align	4
.LBB36_74:
	movq	8(%rsp,%rdx,8), %rdi
	movq	%rdi, %r9
	shlq	$63, %r9
	orq	%rax, %r9
	movq	16(%rsp,%rdx,8), %rax
	movq	%r9, 8(%rsp,%rdx,8)
	shrdq	$1, %rax, %rdi
	movq	%rdi, 16(%rsp,%rdx,8)
	shrq	%rax
	addq	$2, %rdx
	cmpq	%rdx, %rsi
	jne	.LBB36_74
	testb	$1, %r8b
	je	.LBB36_77
.LBB36_76:
	movq	8(%rsp,%rdx,8), %rsi
	movq	%rsi, %rdi
	shlq	$63, %rdi
	orq	%rax, %rdi
	movq	%rdi, 8(%rsp,%rdx,8)
	shrq	%rsi
	movq	%rsi, %rax
.LBB36_77:
	testq	%rax, %rax
	je	.LBB36_69
	movq	%rax, 8(%rsp,%r8,8)
	incq	%r8
	movq	%r8, 600(%rsp)
	jmp	.LBB36_69
.LBB36_79:
	testq	%r8, %r8
	je	.LBB36_89
	cmpq	$1, %r8
	jne	.LBB36_83
	xorl	%eax, %eax
	xorl	%edx, %edx
	jmp	.LBB36_86
.LBB36_89:
	xorl	%r8d, %r8d
	jmp	.LBB36_91
.LBB36_83:
	movq	%r8, %rsi
	andq	$-2, %rsi
	xorl	%eax, %eax
	xorl	%edx, %edx
	.p2align	4
.LBB36_84:
	movq	16(%rsp,%rdx,8), %r9
	movq	%r9, %r10
	shlq	%cl, %r10
	xorl	%edi, %edi
	testb	$64, %cl
	movq	%r10, %r11
	cmovneq	%rdi, %r11
	xorl	%r15d, %r15d
	shldq	%cl, %r9, %r15
	movq	8(%rsp,%rdx,8), %r9
	testb	$64, %cl
	cmovneq	%r10, %r15
	movq	%r9, %r10
	shlq	%cl, %r10
	testb	$64, %cl
	movq	%r10, %r12
	cmovneq	%rdi, %r12
	shldq	%cl, %r9, %rdi
	testb	$64, %cl
	cmovneq	%r10, %rdi
	addq	%rax, %r12
	adcq	$0, %rdi
	addq	%r11, %rdi
	movq	%r15, %rax
	adcq	$0, %rax
	movq	%r12, 8(%rsp,%rdx,8)
	movq	%rdi, 16(%rsp,%rdx,8)
	addq	$2, %rdx
	cmpq	%rdx, %rsi
	jne	.LBB36_84
	testb	$1, %r8b
	je	.LBB36_87
.LBB36_86:
	movq	8(%rsp,%rdx,8), %rsi
	xorl	%edi, %edi
	shldq	%cl, %rsi, %rdi
	shlq	%cl, %rsi
	xorl	%r9d, %r9d
	testb	$64, %cl
	cmovneq	%rsi, %rdi
	cmovneq	%r9, %rsi
	addq	%rax, %rsi
	adcq	$0, %rdi
	movq	%rsi, 8(%rsp,%rdx,8)
	movq	%rdi, %rax
.LBB36_87:
	testq	%rax, %rax
	je	.LBB36_90
	movq	%rax, 8(%rsp,%r8,8)
	incq	%r8
	movq	%r8, 600(%rsp)
	jmp	.LBB36_91
.LBB36_90:
	movq	600(%rsp), %r8
.LBB36_91:
	movq	1200(%rsp), %rax
	cmpq	%rax, %r8
	cmovaq	%r8, %rax
	.p2align	4
.LBB36_92:
	subq	$1, %rax
	jb	.LBB36_95
	movq	608(%rsp,%rax,8), %rcx
	movq	8(%rsp,%rax,8), %rdx
	cmpq	%rdx, %rcx
	jb	.LBB36_97
	jbe	.LBB36_92
	jmp	.LBB36_96
.LBB36_95:
	testb	%bpl, %bpl
	je	.LBB36_98
.LBB36_96:
	shlq	$52, %rbx
	leaq	(%r14,%rbx), %rcx
	incq	%rcx
	movabsq	$9218868437227405312, %rax
	cmpq	%rax, %rcx
	cmovbq	%rcx, %rax
	jmp	.LBB36_100
.LBB36_97:
	shlq	$52, %rbx
	addq	%r14, %rbx
	jmp	.LBB36_99
.LBB36_98:
	movl	%r14d, %eax
	andl	$1, %eax
	addq	%r14, %rax
	shlq	$52, %rbx
	addq	%rax, %rbx
.LBB36_99:
	movabsq	$9218868437227405312, %rax
	cmpq	%rax, %rbx
	cmovaeq	%rax, %rbx
	movq	%rbx, %rax
.LBB36_100:
	addq	$1208, %rsp
	popq	%rbx
	popq	%r12
	popq	%r13
	popq	%r14
	popq	%r15
	popq	%rbp
	retq
.Lfunc_end36:
	.size	"core::dec2flt::decimal::break_tie::<#1d521972340cebc2>", .Lfunc_end36-"core::dec2flt::decimal::break_tie::<#1d521972340cebc2>"

	.section	.rodata.cst8,"aM",@progbits,8
	.p2align	3, 0x0
.LCPI37_0:
	.quad	0xfff0000000000000
.LCPI37_1:
	.quad	0x7ff0000000000000
.LCPI37_2:
	.quad	0xfff8000000000000
.LCPI37_3:
	.quad	0x7ff8000000000000
	.section	".text.unlikely.core::dec2flt::words::read_word::<#1d521972340cebc2>","ax",@progbits
	.p2align	4
	.type	"core::dec2flt::words::read_word::<#1d521972340cebc2>",@function
"core::dec2flt::words::read_word::<#1d521972340cebc2>":
	testl	%ecx, %ecx
	jne	.LBB37_1
	movsd	.LCPI37_1(%rip), %xmm0
	cmpq	$8, %rdx
	jb	.LBB37_14
.LBB37_4:
	movzbl	(%rsi), %eax
	leal	-65(%rax), %edx
	leal	32(%rax), %r8d
	cmpb	$26, %dl
	movzbl	%r8b, %edx
	cmovael	%eax, %edx
	cmpb	$105, %dl
	jne	.LBB37_16
	movzbl	1(%rsi), %eax
	leal	-65(%rax), %edx
	leal	32(%rax), %r8d
	cmpb	$26, %dl
	movzbl	%r8b, %edx
	cmovael	%eax, %edx
	cmpb	$110, %dl
	jne	.LBB37_16
	movzbl	2(%rsi), %eax
	leal	-65(%rax), %edx
	leal	32(%rax), %r8d
	cmpb	$26, %dl
	movzbl	%r8b, %edx
	cmovael	%eax, %edx
	cmpb	$102, %dl
	jne	.LBB37_16
	movzbl	3(%rsi), %eax
	leal	-65(%rax), %edx
	leal	32(%rax), %r8d
	cmpb	$26, %dl
	movzbl	%r8b, %edx
	cmovael	%eax, %edx
	cmpb	$105, %dl
	jne	.LBB37_16
	movzbl	4(%rsi), %eax
	leal	-65(%rax), %edx
	leal	32(%rax), %r8d
	cmpb	$26, %dl
	movzbl	%r8b, %edx
	cmovael	%eax, %edx
	cmpb	$110, %dl
	jne	.LBB37_16
	movzbl	5(%rsi), %eax
	leal	-65(%rax), %edx
	leal	32(%rax), %r8d
	cmpb	$26, %dl
	movzbl	%r8b, %edx
	cmovael	%eax, %edx
	cmpb	$105, %dl
	jne	.LBB37_16
	movzbl	6(%rsi), %eax
	leal	-65(%rax), %edx
	leal	32(%rax), %r8d
	cmpb	$26, %dl
	movzbl	%r8b, %edx
	cmovael	%eax, %edx
	cmpb	$116, %dl
	jne	.LBB37_16
	movzbl	7(%rsi), %eax
	leal	-65(%rax), %edx
	leal	32(%rax), %r8d
	cmpb	$26, %dl
	movzbl	%r8b, %edx
	cmovael	%eax, %edx
	cmpb	$121, %dl
	jne	.LBB37_16
	movl	$8, %ecx
	jmp	.LBB37_13
.LBB37_1:
	movsd	.LCPI37_0(%rip), %xmm0
	cmpq	$8, %rdx
	jae	.LBB37_4
.LBB37_14:
	cmpq	$3, %rdx
	jae	.LBB37_16
	xorps	%xmm1, %xmm1
	jmp	.LBB37_18
.LBB37_16:
	movzbl	(%rsi), %edx
	leal	-65(%rdx), %eax
	leal	32(%rdx), %r8d
	cmpb	$26, %al
	movzbl	%r8b, %eax
	cmovael	%edx, %eax
	xorps	%xmm1, %xmm1
	cmpb	$110, %al
	je	.LBB37_22
	movzbl	%al, %eax
	cmpl	$105, %eax
	jne	.LBB37_18
	movzbl	1(%rsi), %eax
	leal	-65(%rax), %ecx
	leal	32(%rax), %edx
	cmpb	$26, %cl
	movzbl	%dl, %ecx
	cmovael	%eax, %ecx
	cmpb	$110, %cl
	jne	.LBB37_18
	movzbl	2(%rsi), %eax
	leal	-65(%rax), %ecx
	leal	32(%rax), %edx
	cmpb	$26, %cl
	movzbl	%dl, %ecx
	cmovael	%eax, %ecx
	cmpb	$102, %cl
	jne	.LBB37_18
	movl	$3, %ecx
.LBB37_13:
	movl	$1, %eax
	movaps	%xmm0, %xmm1
	movq	%rax, (%rdi)
	movsd	%xmm1, 8(%rdi)
	movq	%rcx, 16(%rdi)
	retq
.LBB37_22:
	movzbl	1(%rsi), %eax
	leal	-65(%rax), %edx
	leal	32(%rax), %r8d
	cmpb	$26, %dl
	movzbl	%r8b, %edx
	cmovael	%eax, %edx
	cmpb	$97, %dl
	jne	.LBB37_18
	movzbl	2(%rsi), %eax
	leal	-65(%rax), %edx
	leal	32(%rax), %esi
	cmpb	$26, %dl
	movzbl	%sil, %edx
	cmovael	%eax, %edx
	cmpb	$110, %dl
	jne	.LBB37_18
	testb	%cl, %cl
	jne	.LBB37_25
	movsd	.LCPI37_3(%rip), %xmm1
	jmp	.LBB37_27
.LBB37_18:
	xorl	%eax, %eax
	xorl	%ecx, %ecx
	movq	%rax, (%rdi)
	movsd	%xmm1, 8(%rdi)
	movq	%rcx, 16(%rdi)
	retq
.LBB37_25:
	movsd	.LCPI37_2(%rip), %xmm1
.LBB37_27:
	movl	$3, %ecx
	movl	$1, %eax
	movq	%rax, (%rdi)
	movsd	%xmm1, 8(%rdi)
	movq	%rcx, 16(%rdi)
	retq
.Lfunc_end37:
	.size	"core::dec2flt::words::read_word::<#1d521972340cebc2>", .Lfunc_end37-"core::dec2flt::words::read_word::<#1d521972340cebc2>"

	.section	".text.amqp_json::printing::decimals::text_with","ax",@progbits
	.p2align	4
	.type	"amqp_json::printing::decimals::text_with",@function
"amqp_json::printing::decimals::text_with":
	pushq	%rbp
	pushq	%r15
	pushq	%r14
	pushq	%r13
	pushq	%r12
	pushq	%rbx
	subq	$104, %rsp
	movq	%rdx, %rbx
	cmpb	$0, (%rdi)
	je	.LBB38_2
	movq	8(%rdi), %rdi
	testl	%esi, %esi
	je	.LBB38_4
.LBB38_5:
	cmpl	$1, %esi
	jne	.LBB38_6
	movl	$10, %r14d
	testq	%rdi, %rdi
	jns	.LBB38_10
	jmp	.LBB38_11
.LBB38_2:
	movl	4(%rdi), %eax
	movl	%eax, %ecx
	andl	$-2147483648, %ecx
	shlq	$32, %rcx
	andl	$2147483647, %eax
	shlq	$29, %rax
	orq	%rcx, %rax
	movabsq	$4035225266123964416, %rdi
	addq	%rax, %rdi
	testl	%esi, %esi
	jne	.LBB38_5
.LBB38_4:
	movl	$1, %r14d
	testq	%rdi, %rdi
	js	.LBB38_11
.LBB38_10:
	xorl	%r12d, %r12d
	jmp	.LBB38_12
.LBB38_6:
	movl	$10, %eax
	movl	$1, %ecx
	movl	$1, %r14d
	movl	%esi, %edx
	.p2align	4
.LBB38_7:
	testb	$1, %sil
	movq	%rax, %r8
	cmoveq	%rcx, %r8
	imulq	%r8, %r14
	imulq	%rax, %rax
	shrl	%edx
	cmpl	$3, %esi
	movl	%edx, %esi
	ja	.LBB38_7
	imulq	%rax, %r14
	testq	%rdi, %rdi
	jns	.LBB38_10
.LBB38_11:
	movb	$45, (%rbx)
	movl	$1, %r12d
.LBB38_12:
	movabsq	$9218868437227405312, %rcx
	andq	%rdi, %rcx
	movabsq	$4503599627370495, %rax
	leaq	1(%rax), %rdx
	testq	%rcx, %rcx
	cmoveq	%rcx, %rdx
	andq	%rdi, %rax
	orq	%rdx, %rax
	shrq	$52, %rdi
	andl	$2047, %edi
	xorl	%esi, %esi
	movq	%rdi, %rcx
	subq	$1075, %rcx
	cmovbq	%rsi, %rcx
	cmpq	$11, %rcx
	movl	$11, %edx
	cmovbq	%rcx, %rdx
	movl	%edx, %ecx
	notb	%cl
	movq	%rax, %r8
	shrq	%r8
	shrq	%cl, %r8
	movl	%edx, %ecx
	shlq	%cl, %rax
	mulq	%r14
	imulq	%r14, %r8
	addq	%rdx, %r8
	movl	$1075, %edx
	subq	%rdi, %rdx
	cmovbq	%rsi, %rdx
	cmpq	$126, %rdx
	movl	$126, %ecx
	cmovbq	%rdx, %rcx
	movl	$1, %r15d
	xorl	%edx, %edx
	shldq	%cl, %r15, %rdx
	shlq	%cl, %r15
	testb	$64, %cl
	cmovneq	%r15, %rdx
	cmovneq	%rsi, %r15
	shrdq	$1, %rdx, %r15
	shrq	%rdx
	addq	%rax, %r15
	adcq	%r8, %rdx
	movq	%rdx, %rax
	shrq	%cl, %rax
	testb	$64, %cl
	cmoveq	%rax, %rsi
	shrdq	%cl, %rdx, %r15
	testb	$64, %cl
	cmovneq	%rax, %r15
	xorps	%xmm0, %xmm0
	movaps	%xmm0, 32(%rsp)
	movaps	%xmm0, 16(%rsp)
	movq	$0, 48(%rsp)
	testq	%r14, %r14
	je	.LBB38_46
	movq	%r15, %rdi
	movq	%r14, %rdx
	xorl	%ecx, %ecx
	callq	__udivti3@PLT
	movq	%rax, %r9
	testq	%rdx, %rdx
	je	.LBB38_14
	movq	%rdx, %rsi
	movl	$40, %r8d
	movq	%r9, %r13
	movq	%r9, %r10
	movq	%rdx, %r9
	.p2align	4
.LBB38_16:
	movq	%rsi, %rdi
	shldq	$63, %r10, %rdi
	shrq	%r9
	movq	%rdi, %rcx
	addq	%r9, %rcx
	adcq	$0, %rcx
	movabsq	$-3689348814741910323, %r11
	movq	%rcx, %rax
	mulq	%r11
	shrq	$2, %rdx
	leaq	(%rdx,%rdx,4), %rax
	subq	%rax, %rcx
	subq	%rcx, %rdi
	sbbq	$0, %r9
	movq	%rdi, %rax
	mulq	%r11
	movq	%rax, %rcx
	addq	%rax, %rax
	leaq	(%rax,%rax,4), %rax
	subl	%eax, %r10d
	orb	$48, %r10b
	movb	%r10b, 15(%rsp,%r8)
	decq	%r8
	movabsq	$-3689348814741910324, %rax
	imulq	%rdi, %rax
	addq	%rax, %rdx
	imulq	%r11, %r9
	addq	%rdx, %r9
	movq	%rcx, %r10
	cmpq	$9, %rsi
	movq	%r9, %rsi
	ja	.LBB38_16
	movq	%r13, %r9
	movabsq	$3777893186295716171, %rbp
	cmpq	$10000, %rcx
	jae	.LBB38_20
	jmp	.LBB38_19
.LBB38_14:
	movl	$40, %r8d
	movq	%r9, %rcx
	movabsq	$3777893186295716171, %rbp
	cmpq	$10000, %rcx
	jb	.LBB38_19
	.p2align	4
.LBB38_20:
	movq	%rcx, %rax
	mulq	%rbp
	shrq	$11, %rdx
	imull	$10000, %edx, %eax
	movl	%ecx, %esi
	subl	%eax, %esi
	imull	$5243, %esi, %eax
	shrl	$19, %eax
	imull	$100, %eax, %edi
	subl	%edi, %esi
	movzwl	%si, %esi
	leaq	.Lstatic.20(%rip), %rdi
	movzwl	(%rdi,%rsi,2), %esi
	movw	%si, 14(%rsp,%r8)
	movzwl	(%rdi,%rax,2), %eax
	movw	%ax, 12(%rsp,%r8)
	addq	$-4, %r8
	cmpq	$99999999, %rcx
	movq	%rdx, %rcx
	ja	.LBB38_20
	cmpq	$99, %rdx
	movq	%rbx, 8(%rsp)
	ja	.LBB38_25
.LBB38_22:
	cmpq	$9, %rdx
	ja	.LBB38_24
	orb	$48, %dl
	movb	%dl, 15(%rsp,%r8)
	decq	%r8
	jmp	.LBB38_28
.LBB38_19:
	movq	%rcx, %rdx
	cmpq	$99, %rdx
	movq	%rbx, 8(%rsp)
	jbe	.LBB38_22
.LBB38_25:
	movl	%edx, %eax
	shrl	$2, %eax
	movzwl	%ax, %eax
	imull	$5243, %eax, %eax
	shrl	$17, %eax
	imull	$100, %eax, %ecx
	movl	%edx, %esi
	subl	%ecx, %esi
	movzwl	%si, %esi
	leaq	.Lstatic.20(%rip), %rcx
	movzwl	(%rcx,%rsi,2), %esi
	movw	%si, 14(%rsp,%r8)
	cmpq	$999, %rdx
	ja	.LBB38_27
	orb	$48, %al
	movb	%al, 13(%rsp,%r8)
	addq	$-3, %r8
	jmp	.LBB38_28
.LBB38_24:
	leaq	.Lstatic.20(%rip), %rax
	movzwl	(%rax,%rdx,2), %eax
	movw	%ax, 14(%rsp,%r8)
	addq	$-2, %r8
	jmp	.LBB38_28
.LBB38_27:
	movzwl	%ax, %eax
	movzwl	(%rcx,%rax,2), %eax
	movw	%ax, 12(%rsp,%r8)
	addq	$-4, %r8
.LBB38_28:
	movl	$40, %edx
	subq	%r8, %rdx
	movq	%rdx, %rbx
	addq	%r12, %rbx
	movq	%r12, %rdi
	movq	$-1, %r12
	cmovbq	%r12, %rbx
	cmpq	$96, %rbx
	ja	.LBB38_30
	leaq	(%rsp,%r8), %rsi
	addq	$16, %rsi
	addq	8(%rsp), %rdi
	movq	%r9, %r13
	callq	memcpy@PLT
	movq	%r13, %r9
.LBB38_30:
	movq	%rbx, %rdi
	incq	%rdi
	cmoveq	%r12, %rdi
	cmpq	$96, %rdi
	movq	8(%rsp), %r12
	ja	.LBB38_32
	movb	$46, (%r12,%rbx)
.LBB38_32:
	imulq	%r14, %r9
	subq	%r9, %r15
	addq	%r14, %r15
	xorps	%xmm0, %xmm0
	movaps	%xmm0, 80(%rsp)
	movaps	%xmm0, 64(%rsp)
	movq	$0, 96(%rsp)
	movl	$40, %ecx
	cmpq	$10000, %r15
	jb	.LBB38_33
	.p2align	4
.LBB38_34:
	movq	%r15, %rax
	mulq	%rbp
	shrq	$11, %rdx
	imull	$10000, %edx, %eax
	movl	%r15d, %esi
	subl	%eax, %esi
	imull	$5243, %esi, %eax
	shrl	$19, %eax
	imull	$100, %eax, %r8d
	subl	%r8d, %esi
	movzwl	%si, %esi
	leaq	.Lstatic.20(%rip), %r8
	movzwl	(%r8,%rsi,2), %esi
	movw	%si, 62(%rsp,%rcx)
	movzwl	(%r8,%rax,2), %eax
	movw	%ax, 60(%rsp,%rcx)
	addq	$-4, %rcx
	cmpq	$99999999, %r15
	movq	%rdx, %r15
	ja	.LBB38_34
	cmpq	$99, %rdx
	ja	.LBB38_39
.LBB38_36:
	cmpq	$9, %rdx
	ja	.LBB38_38
	orb	$48, %dl
	movb	%dl, 63(%rsp,%rcx)
	decq	%rcx
	jmp	.LBB38_42
.LBB38_33:
	movq	%r15, %rdx
	cmpq	$99, %rdx
	jbe	.LBB38_36
.LBB38_39:
	movl	%edx, %eax
	shrl	$2, %eax
	movzwl	%ax, %eax
	imull	$5243, %eax, %eax
	shrl	$17, %eax
	imull	$100, %eax, %esi
	movl	%edx, %r8d
	subl	%esi, %r8d
	movzwl	%r8w, %r8d
	leaq	.Lstatic.20(%rip), %rsi
	movzwl	(%rsi,%r8,2), %r8d
	movw	%r8w, 62(%rsp,%rcx)
	cmpq	$999, %rdx
	ja	.LBB38_41
	orb	$48, %al
	movb	%al, 61(%rsp,%rcx)
	addq	$-3, %rcx
	jmp	.LBB38_42
.LBB38_38:
	leaq	.Lstatic.20(%rip), %rax
	movzwl	(%rax,%rdx,2), %eax
	movw	%ax, 62(%rsp,%rcx)
	addq	$-2, %rcx
	jmp	.LBB38_42
.LBB38_41:
	movzwl	%ax, %eax
	movzwl	(%rsi,%rax,2), %eax
	movw	%ax, 60(%rsp,%rcx)
	addq	$-4, %rcx
.LBB38_42:
	movl	$39, %edx
	subq	%rcx, %rdx
	movq	%rdx, %rax
	addq	%rdi, %rax
	movq	$-1, %r14
	cmovaeq	%rax, %r14
	cmpq	$96, %r14
	ja	.LBB38_44
	leaq	(%rsp,%rcx), %rsi
	addq	$65, %rsi
	addq	%r12, %rdi
	callq	memcpy@PLT
.LBB38_44:
	movq	%r12, %rax
	movq	%r14, %rdx
	addq	$104, %rsp
	popq	%rbx
	popq	%r12
	popq	%r13
	popq	%r14
	popq	%r15
	popq	%rbp
	retq
.LBB38_46:
	ud2
.Lfunc_end38:
	.size	"amqp_json::printing::decimals::text_with", .Lfunc_end38-"amqp_json::printing::decimals::text_with"

	.section	".text.amqp_json::printing::leaves::double","ax",@progbits
	.p2align	4
	.type	"amqp_json::printing::leaves::double",@function
"amqp_json::printing::leaves::double":
	pushq	%rbp
	pushq	%r15
	pushq	%r14
	pushq	%r12
	pushq	%rbx
	subq	$160, %rsp
	movq	%r8, %r12
	movl	%ecx, %ebp
	movq	%rdx, %r15
	movq	%rsi, %r14
	movq	%rdi, %rbx
	xorps	%xmm0, %xmm0
	movaps	%xmm0, 16(%rsp)
	movq	$0, 32(%rsp)
	movq	$0, 48(%rsp)
	movl	$1, 48(%rsp)
	movq	%r8, 56(%rsp)
	movaps	%xmm0, 64(%rsp)
	movaps	%xmm0, 80(%rsp)
	movaps	%xmm0, 96(%rsp)
	movaps	%xmm0, 112(%rsp)
	movaps	%xmm0, 128(%rsp)
	movaps	%xmm0, 144(%rsp)
	leaq	16(%rsp), %rdi
	leaq	48(%rsp), %rsi
	leaq	64(%rsp), %rdx
	callq	"amqp_json::printing::decimals::float_text"
	cmpb	$1, 16(%rsp)
	jne	.LBB39_4
	movq	32(%rsp), %rdx
	cmpb	$1, %bpl
	jne	.LBB39_5
	movq	%r15, %rax
	incq	%rax
	movq	$-1, %rcx
	cmovneq	%rax, %rcx
	cmpq	%r14, %rcx
	ja	.LBB39_6
	movb	$44, (%rbx,%r15)
	jmp	.LBB39_6
.LBB39_4:
	bswapq	%r12
	movq	%r12, 40(%rsp)
	leaq	40(%rsp), %rax
	movq	%rax, (%rsp)
	movq	$8, 8(%rsp)
	movzbl	%bpl, %ecx
	leaq	.Lstatic.33(%rip), %r8
	movl	$7, %r9d
	movq	%rbx, %rdi
	movq	%r14, %rsi
	movq	%r15, %rdx
	callq	"amqp_json::printing::leaves::digits"
	jmp	.LBB39_13
.LBB39_5:
	movq	%r15, %rcx
.LBB39_6:
	movq	%rdx, %rsi
	addq	%rcx, %rsi
	movq	$-1, %rax
	cmovaeq	%rsi, %rax
	cmpq	%r14, %rax
	ja	.LBB39_12
	movq	24(%rsp), %rsi
	leaq	(%rbx,%rcx), %rdi
	movq	%rdi, %r8
	subq	%rsi, %r8
	cmpq	%rdx, %r8
	jae	.LBB39_11
	cmpq	$4, %rdx
	jb	.LBB39_10
	cmpq	$32, %r8
	jae	.LBB39_16
.LBB39_10:
	xorl	%r8d, %r8d
.LBB39_25:
	movq	%rdx, %r10
	movq	%r8, %r9
	andq	$3, %r10
	je	.LBB39_28
	movq	%r8, %r9
	.p2align	4
.LBB39_27:
	movzbl	(%rsi,%r9), %r11d
	movb	%r11b, (%rdi,%r9)
	incq	%r9
	decq	%r10
	jne	.LBB39_27
.LBB39_28:
	subq	%rdx, %r8
	cmpq	$-4, %r8
	ja	.LBB39_12
	addq	%rbx, %rcx
	addq	$3, %rcx
	.p2align	4
.LBB39_30:
	movzbl	(%rsi,%r9), %edi
	movb	%dil, -3(%rcx,%r9)
	movzbl	1(%rsi,%r9), %edi
	movb	%dil, -2(%rcx,%r9)
	movzbl	2(%rsi,%r9), %edi
	movb	%dil, -1(%rcx,%r9)
	movzbl	3(%rsi,%r9), %edi
	movb	%dil, (%rcx,%r9)
	addq	$4, %r9
	cmpq	%r9, %rdx
	jne	.LBB39_30
	jmp	.LBB39_12
.LBB39_11:
	movq	%rax, %rbx
	callq	memmove@PLT
	movq	%rbx, %rax
.LBB39_12:
	movb	$1, %dl
.LBB39_13:
	addq	$160, %rsp
	popq	%rbx
	popq	%r12
	popq	%r14
	popq	%r15
	popq	%rbp
	retq
.LBB39_16:
	cmpq	$32, %rdx
	jae	.LBB39_18
	xorl	%r8d, %r8d
	jmp	.LBB39_22
.LBB39_18:
	movq	%rdx, %r8
	andq	$-32, %r8
	leaq	(%rcx,%rbx), %r9
	addq	$16, %r9
	xorl	%r10d, %r10d
	.p2align	4
.LBB39_19:
	movups	(%rsi,%r10), %xmm0
	movups	16(%rsi,%r10), %xmm1
	movups	%xmm0, -16(%r9,%r10)
	movups	%xmm1, (%r9,%r10)
	addq	$32, %r10
	cmpq	%r10, %r8
	jne	.LBB39_19
	cmpq	%r8, %rdx
	je	.LBB39_12
	testb	$28, %dl
	je	.LBB39_25
.LBB39_22:
	movq	%r8, %r9
	movq	%rdx, %r8
	andq	$-4, %r8
	.p2align	4
.LBB39_23:
	movl	(%rsi,%r9), %r10d
	movl	%r10d, (%rdi,%r9)
	addq	$4, %r9
	cmpq	%r9, %r8
	jne	.LBB39_23
	cmpq	%r8, %rdx
	je	.LBB39_12
	jmp	.LBB39_25
.Lfunc_end39:
	.size	"amqp_json::printing::leaves::double", .Lfunc_end39-"amqp_json::printing::leaves::double"

	.section	".text.amqp_json::printing::leaves::decimal","ax",@progbits
	.p2align	4
	.type	"amqp_json::printing::leaves::decimal",@function
"amqp_json::printing::leaves::decimal":
	pushq	%rbp
	pushq	%r15
	pushq	%r14
	pushq	%rbx
	pushq	%rax
	movl	%r8d, %ebp
	movq	%rsi, %r14
	movq	%rdi, %rbx
	testb	$1, %cl
	je	.LBB40_3
	movq	%rdx, %rax
	movq	%rdx, %rcx
	incq	%rcx
	movq	$-1, %rdx
	cmovneq	%rcx, %rdx
	cmpq	%r14, %rdx
	ja	.LBB40_3
	movb	$44, (%rbx,%rax)
.LBB40_3:
	movq	%rdx, %rcx
	addq	$2, %rcx
	movq	$-1, %rsi
	cmovbq	%rsi, %rcx
	cmpq	%r14, %rcx
	ja	.LBB40_5
	leaq	(%rbx,%rdx), %rax
	leaq	.Lstatic.21(%rip), %rdi
	movq	%rax, %r8
	subq	%rdi, %r8
	cmpq	$1, %r8
	movw	$8827, (%rax)
.LBB40_5:
	movq	%rdx, %rax
	addq	$15, %rax
	cmovbq	%rsi, %rax
	cmpq	%r14, %rax
	ja	.LBB40_9
	addq	%rbx, %rcx
	leaq	.Lstatic.34(%rip), %rsi
	movq	%rcx, %rdi
	subq	%rsi, %rdi
	cmpq	$12, %rdi
	ja	.LBB40_8
	movabsq	$7809643528243725348, %rsi
	movq	%rsi, (%rcx)
	movl	$1970037078, 8(%rcx)
	movb	$101, 12(%rcx)
	jmp	.LBB40_9
.LBB40_8:
	movabsq	$7310868735423439213, %rsi
	movq	%rsi, 5(%rcx)
	movabsq	$7809643528243725348, %rsi
	movq	%rsi, (%rcx)
.LBB40_9:
	movq	%rdx, %rcx
	addq	$17, %rcx
	movq	$-1, %rsi
	cmovbq	%rsi, %rcx
	cmpq	%r14, %rcx
	ja	.LBB40_11
	addq	%rbx, %rax
	leaq	.Lstatic.6(%rip), %rdi
	movq	%rax, %r8
	subq	%rdi, %r8
	cmpq	$1, %r8
	movw	$14882, (%rax)
.LBB40_11:
	addq	$18, %rdx
	cmovbq	%rsi, %rdx
	cmpq	%r14, %rdx
	ja	.LBB40_13
	movb	$34, (%rbx,%rcx)
.LBB40_13:
	movq	%rbx, %rdi
	movq	%r14, %rsi
	movl	%r9d, %ecx
	callq	"amqp_json::printing::tokens::put_natural"
	movq	%rax, %rdx
	addq	$2, %rdx
	movq	$-1, %r15
	cmovbq	%r15, %rdx
	cmpq	%r14, %rdx
	ja	.LBB40_15
	addq	%rbx, %rax
	leaq	.Lstatic.35(%rip), %rcx
	movq	%rax, %rsi
	subq	%rcx, %rsi
	cmpq	$1, %rsi
	movw	$11621, (%rax)
.LBB40_15:
	movzbl	%bpl, %ecx
	movq	%rbx, %rdi
	movq	%r14, %rsi
	callq	"amqp_json::printing::tokens::put_natural"
	movq	%rax, %rdx
	incq	%rdx
	cmoveq	%r15, %rdx
	cmpq	%r14, %rdx
	ja	.LBB40_17
	movb	$34, (%rbx,%rax)
.LBB40_17:
	addq	$2, %rax
	movq	$-1, %rcx
	cmovaeq	%rax, %rcx
	cmpq	%r14, %rcx
	ja	.LBB40_19
	movb	$125, (%rbx,%rdx)
.LBB40_19:
	movq	%rcx, %rax
	movb	$1, %dl
	addq	$8, %rsp
	popq	%rbx
	popq	%r14
	popq	%r15
	popq	%rbp
	retq
.Lfunc_end40:
	.size	"amqp_json::printing::leaves::decimal", .Lfunc_end40-"amqp_json::printing::leaves::decimal"

	.section	".text.amqp_json::printing::tokens::put_natural","ax",@progbits
	.p2align	4
	.type	"amqp_json::printing::tokens::put_natural",@function
"amqp_json::printing::tokens::put_natural":
	pushq	%rbx
	subq	$48, %rsp
	xorps	%xmm0, %xmm0
	movaps	%xmm0, 16(%rsp)
	movaps	%xmm0, (%rsp)
	movq	$0, 32(%rsp)
	movl	%ecx, %r9d
	movl	$40, %r8d
	cmpl	$10000, %ecx
	jb	.LBB41_1
	.p2align	4
.LBB41_2:
	movl	%r9d, %ecx
	movl	$3518437209, %eax
	imulq	%rcx, %rax
	shrq	$45, %rax
	imull	$10000, %eax, %ecx
	movl	%r9d, %r10d
	subl	%ecx, %r10d
	imull	$5243, %r10d, %ecx
	shrl	$19, %ecx
	imull	$100, %ecx, %r11d
	subl	%r11d, %r10d
	movzwl	%r10w, %r10d
	leaq	.Lstatic.20(%rip), %r11
	movzwl	(%r11,%r10,2), %r10d
	movw	%r10w, -2(%rsp,%r8)
	movzwl	(%r11,%rcx,2), %ecx
	movw	%cx, -4(%rsp,%r8)
	addq	$-4, %r8
	cmpq	$99999999, %r9
	movq	%rax, %r9
	ja	.LBB41_2
	cmpl	$99, %eax
	ja	.LBB41_7
.LBB41_4:
	cmpl	$9, %eax
	ja	.LBB41_6
	orb	$48, %al
	movb	%al, -1(%rsp,%r8)
	decq	%r8
	jmp	.LBB41_10
.LBB41_1:
	movq	%r9, %rax
	cmpl	$99, %eax
	jbe	.LBB41_4
.LBB41_7:
	movl	%eax, %ecx
	shrl	$2, %ecx
	movzwl	%cx, %ecx
	imull	$5243, %ecx, %ecx
	shrl	$17, %ecx
	imull	$100, %ecx, %r9d
	movl	%eax, %r10d
	subl	%r9d, %r10d
	movzwl	%r10w, %r10d
	leaq	.Lstatic.20(%rip), %r9
	movzwl	(%r9,%r10,2), %r10d
	movw	%r10w, -2(%rsp,%r8)
	cmpq	$999, %rax
	ja	.LBB41_9
	orb	$48, %cl
	movb	%cl, -3(%rsp,%r8)
	addq	$-3, %r8
	jmp	.LBB41_10
.LBB41_6:
	leaq	.Lstatic.20(%rip), %rcx
	movzwl	(%rcx,%rax,2), %eax
	movw	%ax, -2(%rsp,%r8)
	addq	$-2, %r8
	jmp	.LBB41_10
.LBB41_9:
	movzwl	%cx, %eax
	movzwl	(%r9,%rax,2), %eax
	movw	%ax, -4(%rsp,%r8)
	addq	$-4, %r8
.LBB41_10:
	movl	$40, %eax
	subq	%r8, %rax
	movq	%rax, %rcx
	addq	%rdx, %rcx
	movq	$-1, %rbx
	cmovaeq	%rcx, %rbx
	cmpq	%rsi, %rbx
	ja	.LBB41_12
	leaq	(%rsp,%r8), %rsi
	addq	%rdx, %rdi
	movq	%rax, %rdx
	callq	memcpy@PLT
.LBB41_12:
	movq	%rbx, %rax
	addq	$48, %rsp
	popq	%rbx
	retq
.Lfunc_end41:
	.size	"amqp_json::printing::tokens::put_natural", .Lfunc_end41-"amqp_json::printing::tokens::put_natural"

	.section	".text.amqp_json::printing::leaves::long_string","ax",@progbits
	.p2align	4
	.type	"amqp_json::printing::leaves::long_string",@function
"amqp_json::printing::leaves::long_string":
	pushq	%rbp
	pushq	%r15
	pushq	%r14
	pushq	%r13
	pushq	%r12
	pushq	%rbx
	subq	$40, %rsp
	movq	%r9, %r13
	movq	%r8, %r12
	movl	%ecx, %ebp
	movq	%rdx, %r15
	movq	%rsi, %r14
	movq	%rdi, %rbx
	xorps	%xmm0, %xmm0
	movaps	%xmm0, 16(%rsp)
	movq	$0, 32(%rsp)
	leaq	16(%rsp), %rdi
	movq	%r8, %rsi
	movq	%r9, %rdx
	callq	"core::str::utf8::from_utf8"
	cmpb	$0, 16(%rsp)
	je	.LBB42_1
	movq	%r13, 8(%rsp)
	movq	%r12, (%rsp)
	movzbl	%bpl, %ecx
	leaq	.Lstatic.36(%rip), %r8
	movl	$11, %r9d
	movq	%rbx, %rdi
	movq	%r14, %rsi
	movq	%r15, %rdx
	callq	"amqp_json::printing::leaves::digits"
	jmp	.LBB42_10
.LBB42_1:
	cmpb	$1, %bpl
	jne	.LBB42_2
	movq	%r15, %rcx
	incq	%rcx
	movq	$-1, %rax
	cmovneq	%rcx, %rax
	cmpq	%r14, %rax
	ja	.LBB42_5
	movb	$44, (%rbx,%r15)
	jmp	.LBB42_5
.LBB42_2:
	movq	%r15, %rax
.LBB42_5:
	movq	24(%rsp), %rcx
	movq	32(%rsp), %r8
	movq	%rax, %rdx
	incq	%rdx
	movq	$-1, %r15
	cmoveq	%r15, %rdx
	cmpq	%r14, %rdx
	ja	.LBB42_7
	movb	$34, (%rbx,%rax)
.LBB42_7:
	movq	%rbx, %rdi
	movq	%r14, %rsi
	callq	"amqp_json::printing::put::put_escaped"
	movq	%rax, %rcx
	incq	%rax
	cmoveq	%r15, %rax
	cmpq	%r14, %rax
	ja	.LBB42_9
	movb	$34, (%rbx,%rcx)
.LBB42_9:
	movb	$1, %dl
.LBB42_10:
	addq	$40, %rsp
	popq	%rbx
	popq	%r12
	popq	%r13
	popq	%r14
	popq	%r15
	popq	%rbp
	retq
.Lfunc_end42:
	.size	"amqp_json::printing::leaves::long_string", .Lfunc_end42-"amqp_json::printing::leaves::long_string"

	.section	".text.core::str::utf8::from_utf8","ax",@progbits
	.p2align	4
	.type	"core::str::utf8::from_utf8",@function
"core::str::utf8::from_utf8":
	pushq	%r15
	pushq	%r14
	pushq	%rbx
	subq	$16, %rsp
	movq	%rdx, %r15
	movq	%rsi, %r14
	movq	%rdi, %rbx
	testq	%rdx, %rdx
	je	.LBB43_29
	xorl	%esi, %esi
	jmp	.LBB43_5
.LBB43_12:
	movl	$1, %eax
.LBB43_3:
	addq	%rsi, %rax
	movq	%rax, %rsi
	cmpq	%r15, %rax
	jb	.LBB43_5
	jmp	.LBB43_29
	.p2align	4
.LBB43_2:
	movl	$1, %eax
	testb	%dil, %dil
	jns	.LBB43_3
	movl	$257, %ecx
	cmpb	$-62, %dil
	jb	.LBB43_38
	cmpb	$-33, %dil
	ja	.LBB43_13
	cmpq	$2, %rdx
	jb	.LBB43_30
	movzbl	1(%r14,%rsi), %r8d
	movl	$2, %eax
	cmpb	$-65, %r8b
	jle	.LBB43_3
	jmp	.LBB43_32
.LBB43_13:
	cmpb	$-17, %dil
	ja	.LBB43_20
	cmpq	$3, %rdx
	jb	.LBB43_27
	movzbl	1(%r14,%rsi), %r8d
	cmpb	$-65, %r8b
	jg	.LBB43_32
	cmpb	$-65, 2(%r14,%rsi)
	jg	.LBB43_32
	movzbl	%r8b, %eax
	movl	%edi, %r9d
	shll	$6, %r9d
	addl	%eax, %r9d
	addl	$-14464, %r9d
	cmpl	$32, %r9d
	jb	.LBB43_32
	xorl	%r8d, %r8d
	cmpl	$896, %r9d
	setae	%r10b
	movl	$3, %eax
	cmpl	$864, %r9d
	jb	.LBB43_3
	movb	%r10b, %r8b
	leaq	(%r8,%r8,2), %rax
	testq	%rax, %rax
	jne	.LBB43_3
	jmp	.LBB43_26
.LBB43_20:
	cmpq	$4, %rdx
	jb	.LBB43_26
	movzbl	1(%r14,%rsi), %eax
	cmpb	$-65, %al
	jg	.LBB43_26
	cmpb	$-65, 2(%r14,%rsi)
	jg	.LBB43_26
	cmpb	$-65, 3(%r14,%rsi)
	jg	.LBB43_26
	movl	%edi, %r8d
	shll	$6, %r8d
	leal	(%r8,%rax), %r9d
	addl	$-15488, %r9d
	xorl	%eax, %eax
	cmpl	$272, %r9d
	setb	%r8b
	cmpl	$16, %r9d
	jb	.LBB43_26
	movb	%r8b, %al
	shll	$2, %eax
	testq	%rax, %rax
	jne	.LBB43_3
	jmp	.LBB43_26
	.p2align	4
.LBB43_5:
	movzbl	(%r14,%rsi), %edi
	testb	%dil, %dil
	sets	%al
	movq	%r15, %rdx
	subq	%rsi, %rdx
	cmpq	$2, %rdx
	setb	%cl
	orb	%al, %cl
	jne	.LBB43_2
	cmpb	$0, 1(%r14,%rsi)
	js	.LBB43_12
	movq	%r14, (%rsp)
	movq	%r15, 8(%rsp)
	movq	%rsp, %rdi
	movq	%r15, %rdx
	callq	"core::slice::words::first::<#52f9edcae2f82f51>"
	movq	%rax, %rsi
	cmpq	%r15, %rax
	jb	.LBB43_5
.LBB43_29:
	movq	$0, (%rbx)
	movq	%r14, 8(%rbx)
	movq	%r15, 16(%rbx)
	jmp	.LBB43_39
.LBB43_26:
	cmpb	$-12, %dil
	ja	.LBB43_38
.LBB43_27:
	cmpq	$2, %rdx
	jb	.LBB43_30
	movzbl	1(%r14,%rsi), %r8d
.LBB43_32:
	cmpl	$240, %edi
	sete	%al
	shlb	$4, %al
	orb	$-128, %al
	cmpl	$224, %edi
	movzbl	%al, %eax
	movl	$160, %r9d
	cmovnel	%eax, %r9d
	cmpl	$244, %edi
	movl	$143, %eax
	movl	$191, %r10d
	cmovel	%eax, %r10d
	cmpl	$237, %edi
	movl	$159, %eax
	cmovnel	%r10d, %eax
	cmpb	%r8b, %r9b
	ja	.LBB43_38
	cmpb	%al, %r8b
	ja	.LBB43_38
	cmpq	$2, %rdx
	jne	.LBB43_36
.LBB43_30:
	xorl	%ecx, %ecx
.LBB43_38:
	movq	$1, (%rbx)
	movq	%rsi, 8(%rbx)
	movq	%rcx, 16(%rbx)
.LBB43_39:
	addq	$16, %rsp
	popq	%rbx
	popq	%r14
	popq	%r15
	retq
.LBB43_36:
	movl	$513, %ecx
	cmpb	$-65, 2(%r14,%rsi)
	jg	.LBB43_38
	xorl	%eax, %eax
	cmpq	$4, %rdx
	movl	$769, %ecx
	cmovbq	%rax, %rcx
	jmp	.LBB43_38
.Lfunc_end43:
	.size	"core::str::utf8::from_utf8", .Lfunc_end43-"core::str::utf8::from_utf8"

	.section	".text.amqp_json::printing::leaves::natural","ax",@progbits
	.p2align	4
	.type	"amqp_json::printing::leaves::natural",@function
"amqp_json::printing::leaves::natural":
	pushq	%r15
	pushq	%r14
	pushq	%r13
	pushq	%r12
	pushq	%rbx
	subq	$48, %rsp
	movq	%rdx, %r10
	movq	%rsi, %r14
	movq	%rdi, %rbx
	movq	96(%rsp), %rsi
	xorps	%xmm0, %xmm0
	movaps	%xmm0, 16(%rsp)
	movaps	%xmm0, (%rsp)
	movq	$0, 32(%rsp)
	movl	$40, %r12d
	cmpq	$10000, %rsi
	jb	.LBB44_1
	.p2align	4
.LBB44_2:
	movabsq	$3777893186295716171, %rdx
	movq	%rsi, %rax
	mulq	%rdx
	shrq	$11, %rdx
	imull	$10000, %edx, %eax
	movl	%esi, %edi
	subl	%eax, %edi
	imull	$5243, %edi, %eax
	shrl	$19, %eax
	imull	$100, %eax, %r11d
	subl	%r11d, %edi
	movzwl	%di, %edi
	leaq	.Lstatic.20(%rip), %r11
	movzwl	(%r11,%rdi,2), %edi
	movw	%di, -2(%rsp,%r12)
	movzwl	(%r11,%rax,2), %eax
	movw	%ax, -4(%rsp,%r12)
	addq	$-4, %r12
	cmpq	$99999999, %rsi
	movq	%rdx, %rsi
	ja	.LBB44_2
	cmpq	$99, %rdx
	ja	.LBB44_7
.LBB44_4:
	cmpq	$9, %rdx
	ja	.LBB44_6
	orb	$48, %dl
	movb	%dl, -1(%rsp,%r12)
	decq	%r12
	cmpb	$1, %cl
	jne	.LBB44_11
	jmp	.LBB44_12
.LBB44_1:
	movq	%rsi, %rdx
	cmpq	$99, %rdx
	jbe	.LBB44_4
.LBB44_7:
	movl	%edx, %eax
	shrl	$2, %eax
	movzwl	%ax, %eax
	imull	$5243, %eax, %eax
	shrl	$17, %eax
	imull	$100, %eax, %esi
	movl	%edx, %edi
	subl	%esi, %edi
	movzwl	%di, %edi
	leaq	.Lstatic.20(%rip), %rsi
	movzwl	(%rsi,%rdi,2), %edi
	movw	%di, -2(%rsp,%r12)
	cmpq	$999, %rdx
	ja	.LBB44_9
	orb	$48, %al
	movb	%al, -3(%rsp,%r12)
	addq	$-3, %r12
	cmpb	$1, %cl
	jne	.LBB44_11
	jmp	.LBB44_12
.LBB44_6:
	leaq	.Lstatic.20(%rip), %rax
	movzwl	(%rax,%rdx,2), %eax
	movw	%ax, -2(%rsp,%r12)
	addq	$-2, %r12
	cmpb	$1, %cl
	je	.LBB44_12
.LBB44_11:
	movq	%r10, %rax
	jmp	.LBB44_14
.LBB44_9:
	movzwl	%ax, %eax
	movzwl	(%rsi,%rax,2), %eax
	movw	%ax, -4(%rsp,%r12)
	addq	$-4, %r12
	cmpb	$1, %cl
	jne	.LBB44_11
.LBB44_12:
	movq	%r10, %rcx
	incq	%rcx
	movq	$-1, %rax
	cmovneq	%rcx, %rax
	cmpq	%r14, %rax
	ja	.LBB44_14
	movb	$44, (%rbx,%r10)
.LBB44_14:
	movq	%rax, %rdi
	addq	$2, %rdi
	movq	$-1, %rcx
	cmovbq	%rcx, %rdi
	cmpq	%r14, %rdi
	ja	.LBB44_16
	leaq	(%rbx,%rax), %rdx
	leaq	.Lstatic.21(%rip), %rsi
	movq	%rdx, %r10
	subq	%rsi, %r10
	cmpq	$1, %r10
	movw	$8827, (%rdx)
.LBB44_16:
	movl	$40, %r15d
	movq	%r9, %r13
	addq	%rdi, %r13
	cmovbq	%rcx, %r13
	cmpq	%r14, %r13
	ja	.LBB44_22
	addq	%rbx, %rdi
	movq	%rdi, %rcx
	subq	%r8, %rcx
	cmpq	%r9, %rcx
	jae	.LBB44_29
	movl	%r9d, %ecx
	andl	$3, %ecx
	andl	$12, %r9d
	cmpq	$-3, %rax
	movq	$-3, %rdx
	cmovbq	%rax, %rdx
	addq	%rbx, %rdx
	addq	$5, %rdx
	xorl	%eax, %eax
	.p2align	4
.LBB44_19:
	movzbl	(%r8,%rax), %esi
	movb	%sil, -3(%rdx,%rax)
	movzbl	1(%r8,%rax), %esi
	movb	%sil, -2(%rdx,%rax)
	movzbl	2(%r8,%rax), %esi
	movb	%sil, -1(%rdx,%rax)
	movzbl	3(%r8,%rax), %esi
	movb	%sil, (%rdx,%rax)
	addq	$4, %rax
	cmpq	%rax, %r9
	jne	.LBB44_19
	testq	%rcx, %rcx
	je	.LBB44_22
	.p2align	4
.LBB44_21:
	movzbl	(%r8,%rax), %edx
	movb	%dl, (%rdi,%rax)
	incq	%rax
	decq	%rcx
	jne	.LBB44_21
	jmp	.LBB44_22
.LBB44_29:
	movq	%r8, %rsi
	movq	%r9, %rdx
	callq	memmove@PLT
.LBB44_22:
	subq	%r12, %r15
	movq	%r13, %rdi
	addq	$2, %rdi
	movq	$-1, %rax
	cmovbq	%rax, %rdi
	cmpq	%r14, %rdi
	ja	.LBB44_24
	addq	%rbx, %r13
	leaq	.Lstatic.6(%rip), %rcx
	movq	%r13, %rdx
	subq	%rcx, %rdx
	cmpq	$1, %rdx
	movw	$14882, (%r13)
.LBB44_24:
	movq	%r15, %r13
	addq	%rdi, %r13
	cmovbq	%rax, %r13
	cmpq	%r14, %r13
	ja	.LBB44_26
	leaq	(%rsp,%r12), %rsi
	addq	%rbx, %rdi
	movq	%r15, %rdx
	callq	memcpy@PLT
.LBB44_26:
	movq	%r13, %rcx
	incq	%rcx
	movq	$-1, %rax
	cmovneq	%rcx, %rax
	cmpq	%r14, %rax
	ja	.LBB44_28
	movb	$125, (%rbx,%r13)
.LBB44_28:
	movb	$1, %dl
	addq	$48, %rsp
	popq	%rbx
	popq	%r12
	popq	%r13
	popq	%r14
	popq	%r15
	retq
.Lfunc_end44:
	.size	"amqp_json::printing::leaves::natural", .Lfunc_end44-"amqp_json::printing::leaves::natural"

	.section	".text.amqp_json::printing::leaves::digits","ax",@progbits
	.p2align	4
	.type	"amqp_json::printing::leaves::digits",@function
"amqp_json::printing::leaves::digits":
	pushq	%rbp
	pushq	%r15
	pushq	%r14
	pushq	%r12
	pushq	%rbx
	testb	$1, %cl
	je	.LBB45_1
	movq	%rdx, %rax
	incq	%rax
	movq	$-1, %rcx
	cmovneq	%rax, %rcx
	cmpq	%rsi, %rcx
	ja	.LBB45_4
	movb	$44, (%rdi,%rdx)
	jmp	.LBB45_4
.LBB45_1:
	movq	%rdx, %rcx
.LBB45_4:
	movq	%rcx, %rax
	addq	$2, %rax
	movq	$-1, %rdx
	cmovbq	%rdx, %rax
	cmpq	%rsi, %rax
	ja	.LBB45_6
	leaq	(%rdi,%rcx), %r10
	leaq	.Lstatic.21(%rip), %r11
	movq	%r10, %rbx
	subq	%r11, %rbx
	cmpq	$1, %rbx
	movw	$8827, (%r10)
.LBB45_6:
	movq	%r9, %rbx
	addq	%rax, %rbx
	cmovbq	%rdx, %rbx
	cmpq	%rsi, %rbx
	ja	.LBB45_12
	addq	%rdi, %rax
	movq	%rax, %rdx
	subq	%r8, %rdx
	cmpq	%r9, %rdx
	jae	.LBB45_31
	movl	%r9d, %edx
	andl	$3, %edx
	andl	$12, %r9d
	cmpq	$-3, %rcx
	movq	$-3, %r10
	cmovbq	%rcx, %r10
	addq	%rdi, %r10
	addq	$5, %r10
	xorl	%ecx, %ecx
	.p2align	4
.LBB45_9:
	movzbl	(%r8,%rcx), %r11d
	movb	%r11b, -3(%r10,%rcx)
	movzbl	1(%r8,%rcx), %r11d
	movb	%r11b, -2(%r10,%rcx)
	movzbl	2(%r8,%rcx), %r11d
	movb	%r11b, -1(%r10,%rcx)
	movzbl	3(%r8,%rcx), %r11d
	movb	%r11b, (%r10,%rcx)
	addq	$4, %rcx
	cmpq	%rcx, %r9
	jne	.LBB45_9
	testq	%rdx, %rdx
	je	.LBB45_12
	.p2align	4
.LBB45_11:
	movzbl	(%r8,%rcx), %r9d
	movb	%r9b, (%rax,%rcx)
	incq	%rcx
	decq	%rdx
	jne	.LBB45_11
	jmp	.LBB45_12
.LBB45_31:
	movq	%rdi, %r14
	movq	%rax, %rdi
	movq	%rsi, %r15
	movq	%r8, %rsi
	movq	%r9, %rdx
	callq	memmove@PLT
	movq	%r15, %rsi
	movq	%r14, %rdi
.LBB45_12:
	movq	%rbx, %rcx
	addq	$2, %rcx
	movq	$-1, %rdx
	cmovbq	%rdx, %rcx
	cmpq	%rsi, %rcx
	ja	.LBB45_14
	leaq	(%rdi,%rbx), %rax
	leaq	.Lstatic.6(%rip), %r8
	movq	%rax, %r9
	subq	%r8, %r9
	cmpq	$1, %r9
	movw	$14882, (%rax)
.LBB45_14:
	movq	56(%rsp), %r8
	movq	%rbx, %rax
	addq	$3, %rax
	cmovbq	%rdx, %rax
	cmpq	%rsi, %rax
	ja	.LBB45_16
	movb	$34, (%rdi,%rcx)
.LBB45_16:
	leaq	(%r8,%r8), %rcx
	addq	%rax, %rcx
	cmovbq	%rdx, %rcx
	cmpq	%rcx, %rsi
	jb	.LBB45_26
	movq	%rcx, %r9
	subq	%rax, %r9
	testb	$1, %r9b
	jne	.LBB45_32
	shrq	%r9
	cmpq	%r8, %r9
	jne	.LBB45_32
	testq	%r8, %r8
	je	.LBB45_26
	movq	48(%rsp), %r9
	cmpq	$1, %r8
	jne	.LBB45_22
	xorl	%r10d, %r10d
	jmp	.LBB45_25
.LBB45_22:
	movq	%r8, %r11
	andq	$-2, %r11
	cmpq	$-4, %rbx
	movq	$-4, %r10
	cmovbq	%rbx, %r10
	leaq	(%r10,%rdi), %rbx
	addq	$6, %rbx
	xorl	%r10d, %r10d
	.p2align	4
.LBB45_23:
	movzbl	(%r9,%r10), %r14d
	movl	%r14d, %r15d
	shrl	$4, %r15d
	leaq	.Lstatic.37(%rip), %r12
	movzbl	(%r15,%r12), %ebp
	movb	%bpl, -3(%rbx,%r10,2)
	andl	$15, %r14d
	movzbl	(%r14,%r12), %ebp
	movb	%bpl, -2(%rbx,%r10,2)
	movzbl	1(%r9,%r10), %r14d
	movl	%r14d, %r15d
	shrl	$4, %r15d
	movzbl	(%r15,%r12), %ebp
	movb	%bpl, -1(%rbx,%r10,2)
	andl	$15, %r14d
	movzbl	(%r14,%r12), %ebp
	movb	%bpl, (%rbx,%r10,2)
	addq	$2, %r10
	cmpq	%r10, %r11
	jne	.LBB45_23
	testb	$1, %r8b
	je	.LBB45_26
.LBB45_25:
	addq	%rdi, %rax
	movzbl	(%r9,%r10), %r8d
	movl	%r8d, %r9d
	shrl	$4, %r9d
	leaq	.Lstatic.37(%rip), %r11
	movzbl	(%r9,%r11), %r9d
	movb	%r9b, (%rax,%r10,2)
	andl	$15, %r8d
	movzbl	(%r8,%r11), %r8d
	movb	%r8b, 1(%rax,%r10,2)
.LBB45_26:
	movq	%rcx, %r8
	incq	%r8
	cmoveq	%rdx, %r8
	cmpq	%rsi, %r8
	ja	.LBB45_28
	movb	$34, (%rdi,%rcx)
.LBB45_28:
	addq	$2, %rcx
	movq	$-1, %rax
	cmovaeq	%rcx, %rax
	cmpq	%rsi, %rax
	ja	.LBB45_30
	movb	$125, (%rdi,%r8)
.LBB45_30:
	movb	$1, %dl
	popq	%rbx
	popq	%r12
	popq	%r14
	popq	%r15
	popq	%rbp
	retq
.LBB45_32:
	ud2
.Lfunc_end45:
	.size	"amqp_json::printing::leaves::digits", .Lfunc_end45-"amqp_json::printing::leaves::digits"

	.section	".text.unlikely.amqp_c::key::is_other_key","ax",@progbits
	.p2align	4
	.type	"amqp_c::key::is_other_key",@function
"amqp_c::key::is_other_key":
	subq	$24, %rsp
	movq	%rsi, %rcx
	xorps	%xmm0, %xmm0
	movaps	%xmm0, (%rsp)
	movq	$0, 16(%rsp)
	cmpq	$255, %rsi
	ja	.LBB46_1
	movb	$1, %al
	testb	%dl, %dl
	je	.LBB46_3
	addq	$24, %rsp
	retq
.LBB46_1:
	xorl	%eax, %eax
	addq	$24, %rsp
	retq
.LBB46_3:
	movq	%rdi, %rsi
	movq	%rsp, %rdi
	movq	%rcx, %rdx
	callq	"core::str::utf8::from_utf8"
	cmpb	$0, (%rsp)
	sete	%al
	addq	$24, %rsp
	retq
.Lfunc_end46:
	.size	"amqp_c::key::is_other_key", .Lfunc_end46-"amqp_c::key::is_other_key"

	.section	".text.amqp_c::buffer::write_long","ax",@progbits
	.p2align	4
	.type	"amqp_c::buffer::write_long",@function
"amqp_c::buffer::write_long":
	leaq	(%rdi,%rsi), %rax
	movq	%rax, %r8
	subq	%rdx, %r8
	cmpq	%rcx, %r8
	jae	.LBB47_18
	cmpq	$32, %r8
	jae	.LBB47_3
	xorl	%r8d, %r8d
.LBB47_11:
	movq	%rcx, %r10
	movq	%r8, %r9
	andq	$3, %r10
	je	.LBB47_14
	movq	%r8, %r9
	.p2align	4
.LBB47_13:
	movzbl	(%rdx,%r9), %r11d
	movb	%r11b, (%rax,%r9)
	incq	%r9
	decq	%r10
	jne	.LBB47_13
.LBB47_14:
	subq	%rcx, %r8
	cmpq	$-4, %r8
	ja	.LBB47_17
	leaq	(%rsi,%rdi), %rax
	addq	$3, %rax
	.p2align	4
.LBB47_16:
	movzbl	(%rdx,%r9), %esi
	movb	%sil, -3(%rax,%r9)
	movzbl	1(%rdx,%r9), %esi
	movb	%sil, -2(%rax,%r9)
	movzbl	2(%rdx,%r9), %esi
	movb	%sil, -1(%rax,%r9)
	movzbl	3(%rdx,%r9), %esi
	movb	%sil, (%rax,%r9)
	addq	$4, %r9
	cmpq	%r9, %rcx
	jne	.LBB47_16
	jmp	.LBB47_17
.LBB47_18:
	movq	%rax, %rdi
	movq	%rdx, %rsi
	movq	%rcx, %rdx
	jmp	memmove@PLT
.LBB47_3:
	movq	%rcx, %r9
	andq	$-32, %r9
	leaq	(%rsi,%rdi), %r8
	addq	$16, %r8
	xorl	%r10d, %r10d
	.p2align	4
.LBB47_4:
	movups	(%rdx,%r10), %xmm0
	movups	16(%rdx,%r10), %xmm1
	movups	%xmm0, -16(%r8,%r10)
	movups	%xmm1, (%r8,%r10)
	addq	$32, %r10
	cmpq	%r10, %r9
	jne	.LBB47_4
	cmpq	%r9, %rcx
	je	.LBB47_17
	testb	$28, %cl
	je	.LBB47_7
	movq	%rcx, %r8
	andq	$-4, %r8
	.p2align	4
.LBB47_9:
	movl	(%rdx,%r9), %r10d
	movl	%r10d, (%rax,%r9)
	addq	$4, %r9
	cmpq	%r9, %r8
	jne	.LBB47_9
	cmpq	%r8, %rcx
	jne	.LBB47_11
.LBB47_17:
	retq
.LBB47_7:
	movq	%r9, %r8
	jmp	.LBB47_11
.Lfunc_end47:
	.size	"amqp_c::buffer::write_long", .Lfunc_end47-"amqp_c::buffer::write_long"

	.section	".text.unlikely.amqp_c::number::is_scalar_tag","ax",@progbits
	.p2align	4
	.type	"amqp_c::number::is_scalar_tag",@function
"amqp_c::number::is_scalar_tag":
	movzbl	%dil, %ecx
	xorl	%eax, %eax
	addl	$-66, %ecx
	cmpl	$51, %ecx
	ja	.LBB48_7
	movabsq	$3378339671965829, %rdx
	btq	%rcx, %rdx
	movl	%edi, %edx
	jae	.LBB48_2
.LBB48_6:
	cmpb	%dl, %dil
	sete	%al
.LBB48_7:
	retq
.LBB48_2:
	movabsq	$4398046512128, %rdx
	btq	%rcx, %rdx
	jb	.LBB48_5
	movabsq	$562949953945600, %rdx
	btq	%rcx, %rdx
	jae	.LBB48_7
	movb	$115, %dl
	jmp	.LBB48_6
.LBB48_5:
	movb	$108, %dl
	jmp	.LBB48_6
.Lfunc_end48:
	.size	"amqp_c::number::is_scalar_tag", .Lfunc_end48-"amqp_c::number::is_scalar_tag"

	.section	.text.amqpv_version,"ax",@progbits
	.globl	amqpv_version
	.p2align	4
	.type	amqpv_version,@function
amqpv_version:
	movl	$100, %eax
	retq
.Lfunc_end49:
	.size	amqpv_version, .Lfunc_end49-amqpv_version

	.section	.text.amqpv_as_int,"ax",@progbits
	.globl	amqpv_as_int
	.p2align	4
	.type	amqpv_as_int,@function
amqpv_as_int:
	movzbl	56(%rdi), %ecx
	movl	$-15, %eax
	addl	$-66, %ecx
	cmpl	$51, %ecx
	ja	.LBB50_7
	movabsq	$567352294899840, %rdx
	btq	%rcx, %rdx
	jae	.LBB50_2
	movq	48(%rdi), %rax
	jmp	.LBB50_6
.LBB50_2:
	movabsq	$2252349569499137, %rdx
	btq	%rcx, %rdx
	jae	.LBB50_7
	movq	48(%rdi), %rax
	testq	%rax, %rax
	js	.LBB50_4
.LBB50_6:
	movq	%rax, (%rsi)
	xorl	%eax, %eax
.LBB50_7:
	retq
.LBB50_4:
	movl	$-16, %eax
	retq
.Lfunc_end50:
	.size	amqpv_as_int, .Lfunc_end50-amqpv_as_int

	.section	.text.amqpv_as_uint,"ax",@progbits
	.globl	amqpv_as_uint
	.p2align	4
	.type	amqpv_as_uint,@function
amqpv_as_uint:
	movzbl	56(%rdi), %ecx
	movl	$-15, %eax
	addl	$-66, %ecx
	cmpl	$51, %ecx
	ja	.LBB51_7
	movabsq	$567352294899840, %rdx
	btq	%rcx, %rdx
	jae	.LBB51_2
	movq	48(%rdi), %rax
	testq	%rax, %rax
	js	.LBB51_6
	movq	%rax, (%rsi)
	xorl	%eax, %eax
	retq
.LBB51_2:
	movabsq	$2252349569499137, %rdx
	btq	%rcx, %rdx
	jae	.LBB51_7
	movq	48(%rdi), %rax
	movq	%rax, (%rsi)
	xorl	%eax, %eax
	retq
.LBB51_6:
	movl	$-16, %eax
.LBB51_7:
	retq
.Lfunc_end51:
	.size	amqpv_as_uint, .Lfunc_end51-amqpv_as_uint

	.section	.text.amqpv_next,"ax",@progbits
	.globl	amqpv_next
	.p2align	4
	.type	amqpv_next,@function
amqpv_next:
	pushq	%r15
	pushq	%r14
	pushq	%r13
	pushq	%r12
	pushq	%rbx
	movq	(%rdi), %r15
	movq	(%rsi), %r9
	movq	8(%rsi), %rcx
	movzbl	16(%rsi), %r8d
	movl	$-13, %eax
	cmpl	$70, %r8d
	je	.LBB52_2
	cmpl	$65, %r8d
	jne	.LBB52_47
.LBB52_2:
	movq	8(%rdi), %rdi
	subq	%r9, %rdi
	setae	%r10b
	cmpq	%rcx, %rdi
	setae	%dil
	andb	%r10b, %dil
	cmpb	$1, %dil
	jne	.LBB52_47
	testq	%rcx, %rcx
	je	.LBB52_12
	cmpb	$70, %r8b
	jne	.LBB52_13
	movzbl	(%r15,%r9), %r11d
	leaq	-1(%rcx), %rdi
	movl	$-3, %eax
	cmpq	%r11, %rdi
	jb	.LBB52_47
	leaq	(%r9,%r11), %rbx
	incq	%rbx
	addq	%r9, %rcx
	movq	%rcx, %r10
	subq	%rbx, %r10
	je	.LBB52_47
	movzbl	(%r15,%rbx), %edi
	leal	-65(%rdi), %r14d
	cmpl	$55, %r14d
	ja	.LBB52_47
	incq	%r9
	leaq	-1(%r10), %r12
	leaq	.LJTI52_1(%rip), %r13
	movslq	(%r13,%r14,4), %r14
	addq	%r13, %r14
	jmpq	*%r14
.LBB52_9:
	cmpq	$5, %r10
	jb	.LBB52_47
	movl	1(%r15,%rbx), %r15d
	bswapl	%r15d
	addq	$-5, %r10
	cmpq	%r15, %r10
	jb	.LBB52_47
	leaq	5(%r15), %r10
	xorl	%eax, %eax
	leaq	5(%rbx), %r12
	xorl	%r14d, %r14d
	movq	%r9, %r13
	jmp	.LBB52_46
.LBB52_12:
	movl	$1, %eax
	jmp	.LBB52_47
.LBB52_13:
	movzbl	(%r15,%r9), %edi
	movl	$-3, %eax
	leal	-65(%rdi), %r10d
	cmpl	$55, %r10d
	ja	.LBB52_47
	leaq	-1(%rcx), %r11
	leaq	.LJTI52_0(%rip), %rbx
	movslq	(%rbx,%r10,4), %r10
	addq	%rbx, %r10
	jmpq	*%r10
.LBB52_15:
	cmpq	$5, %rcx
	jb	.LBB52_47
	movl	1(%r15,%r9), %r15d
	bswapl	%r15d
	leaq	-5(%rcx), %r10
	cmpq	%r15, %r10
	jb	.LBB52_47
	leaq	5(%r15), %r10
	movl	$5, %r12d
	xorl	%eax, %eax
	xorl	%r14d, %r14d
	jmp	.LBB52_45
.LBB52_18:
	cmpq	$8, %r11
	jb	.LBB52_47
	movq	1(%r15,%r9), %rax
	bswapq	%rax
	leaq	-9(%rcx), %r11
	movb	$108, %dil
	jmp	.LBB52_43
.LBB52_20:
	cmpq	$2, %r11
	jb	.LBB52_47
	movzwl	1(%r15,%r9), %eax
	rolw	$8, %ax
	leaq	-3(%rcx), %r11
	movswq	%ax, %rax
	movb	$115, %dil
	jmp	.LBB52_43
.LBB52_22:
	cmpq	$8, %r11
	jb	.LBB52_47
	movq	1(%r15,%r9), %rax
	bswapq	%rax
	leaq	-9(%rcx), %r11
	movb	$100, %dil
	jmp	.LBB52_43
.LBB52_24:
	cmpq	$4, %r11
	jb	.LBB52_47
	movl	1(%r15,%r9), %eax
	bswapl	%eax
	leaq	-5(%rcx), %r11
	movb	$102, %dil
	jmp	.LBB52_43
.LBB52_26:
	testq	%r11, %r11
	je	.LBB52_47
	xorl	%eax, %eax
	cmpb	$0, 1(%r15,%r9)
	leaq	-2(%rcx), %r11
	setne	%al
	movb	$116, %dil
	jmp	.LBB52_43
.LBB52_28:
	cmpq	$4, %r11
	jb	.LBB52_47
	movl	1(%r15,%r9), %eax
	bswapl	%eax
	leaq	-5(%rcx), %r11
	movb	$105, %dil
	jmp	.LBB52_43
.LBB52_30:
	testq	%r11, %r11
	je	.LBB52_47
	leaq	-2(%rcx), %r11
	movsbq	1(%r15,%r9), %rax
	movb	$98, %dil
	jmp	.LBB52_43
.LBB52_32:
	cmpq	$4, %r11
	jb	.LBB52_47
	movl	1(%r15,%r9), %eax
	bswapl	%eax
	leaq	-5(%rcx), %r11
	cltq
	movb	$73, %dil
	jmp	.LBB52_43
.LBB52_34:
	xorl	%eax, %eax
	jmp	.LBB52_43
.LBB52_35:
	testq	%r11, %r11
	je	.LBB52_47
	leaq	-2(%rcx), %r11
	movzbl	1(%r15,%r9), %eax
	movb	$66, %dil
	jmp	.LBB52_43
.LBB52_37:
	cmpq	$6, %rcx
	jb	.LBB52_47
	movzbl	1(%r15,%r9), %r14d
	movl	2(%r15,%r9), %eax
	bswapl	%eax
	leaq	-6(%rcx), %r11
	movb	$68, %dil
	jmp	.LBB52_44
.LBB52_39:
	cmpq	$2, %r11
	jb	.LBB52_47
	movzwl	1(%r15,%r9), %eax
	rolw	$8, %ax
	leaq	-3(%rcx), %r11
	movzwl	%ax, %eax
	movb	$117, %dil
	jmp	.LBB52_43
.LBB52_41:
	cmpq	$8, %r11
	jb	.LBB52_47
	movq	1(%r15,%r9), %rax
	bswapq	%rax
	leaq	-9(%rcx), %r11
	movb	$84, %dil
.LBB52_43:
	xorl	%r14d, %r14d
.LBB52_44:
	movq	%rcx, %r10
	subq	%r11, %r10
	xorl	%r12d, %r12d
	xorl	%r15d, %r15d
.LBB52_45:
	addq	%r9, %r12
	addq	%r9, %rcx
	xorl	%r13d, %r13d
	xorl	%r11d, %r11d
	movq	%r9, %rbx
.LBB52_46:
	leaq	(%r10,%rbx), %r9
	subq	%r9, %rcx
	movq	%r13, (%rdx)
	movq	%r11, 8(%rdx)
	movq	%rbx, 16(%rdx)
	movq	%r10, 24(%rdx)
	movq	%r12, 32(%rdx)
	movq	%r15, 40(%rdx)
	movq	%rax, 48(%rdx)
	movb	%dil, 56(%rdx)
	movb	%r14b, 57(%rdx)
	movq	%r9, (%rsi)
	movq	%rcx, 8(%rsi)
	movb	%r8b, 16(%rsi)
	xorl	%eax, %eax
.LBB52_47:
	popq	%rbx
	popq	%r12
	popq	%r13
	popq	%r14
	popq	%r15
	retq
.LBB52_48:
	cmpq	$8, %r12
	jb	.LBB52_47
	movq	1(%r15,%rbx), %rax
	bswapq	%rax
	leaq	-9(%r10), %r12
	movb	$108, %dil
	jmp	.LBB52_73
.LBB52_50:
	cmpq	$2, %r12
	jb	.LBB52_47
	movzwl	1(%r15,%rbx), %eax
	rolw	$8, %ax
	leaq	-3(%r10), %r12
	movswq	%ax, %rax
	movb	$115, %dil
	jmp	.LBB52_73
.LBB52_52:
	cmpq	$8, %r12
	jb	.LBB52_47
	movq	1(%r15,%rbx), %rax
	bswapq	%rax
	leaq	-9(%r10), %r12
	movb	$100, %dil
	jmp	.LBB52_73
.LBB52_54:
	cmpq	$4, %r12
	jb	.LBB52_47
	movl	1(%r15,%rbx), %eax
	bswapl	%eax
	leaq	-5(%r10), %r12
	movb	$102, %dil
	jmp	.LBB52_73
.LBB52_56:
	testq	%r12, %r12
	je	.LBB52_47
	xorl	%eax, %eax
	cmpb	$0, 1(%r15,%rbx)
	leaq	-2(%r10), %r12
	setne	%al
	movb	$116, %dil
	jmp	.LBB52_73
.LBB52_58:
	cmpq	$4, %r12
	jb	.LBB52_47
	movl	1(%r15,%rbx), %eax
	bswapl	%eax
	leaq	-5(%r10), %r12
	movb	$105, %dil
	jmp	.LBB52_73
.LBB52_60:
	testq	%r12, %r12
	je	.LBB52_47
	leaq	-2(%r10), %r12
	movsbq	1(%r15,%rbx), %rax
	movb	$98, %dil
	jmp	.LBB52_73
.LBB52_62:
	cmpq	$4, %r12
	jb	.LBB52_47
	movl	1(%r15,%rbx), %eax
	bswapl	%eax
	leaq	-5(%r10), %r12
	cltq
	movb	$73, %dil
	jmp	.LBB52_73
.LBB52_64:
	xorl	%eax, %eax
	jmp	.LBB52_73
.LBB52_65:
	testq	%r12, %r12
	je	.LBB52_47
	leaq	-2(%r10), %r12
	movzbl	1(%r15,%rbx), %eax
	movb	$66, %dil
	jmp	.LBB52_73
.LBB52_67:
	cmpq	$6, %r10
	jb	.LBB52_47
	movzbl	1(%r15,%rbx), %r14d
	movl	2(%r15,%rbx), %eax
	bswapl	%eax
	leaq	-6(%r10), %r12
	movb	$68, %dil
	jmp	.LBB52_74
.LBB52_69:
	cmpq	$2, %r12
	jb	.LBB52_47
	movzwl	1(%r15,%rbx), %eax
	rolw	$8, %ax
	leaq	-3(%r10), %r12
	movzwl	%ax, %eax
	movb	$117, %dil
	jmp	.LBB52_73
.LBB52_71:
	cmpq	$8, %r12
	jb	.LBB52_47
	movq	1(%r15,%rbx), %rax
	bswapq	%rax
	leaq	-9(%r10), %r12
	movb	$84, %dil
.LBB52_73:
	xorl	%r14d, %r14d
.LBB52_74:
	subq	%r12, %r10
	xorl	%r15d, %r15d
	movq	%rbx, %r12
	movq	%r9, %r13
	jmp	.LBB52_46
.Lfunc_end52:
	.size	amqpv_next, .Lfunc_end52-amqpv_next
	.section	.rodata.amqpv_next,"a",@progbits
	.p2align	2, 0x0
.LJTI52_0:
	.long	.LBB52_15-.LJTI52_0
	.long	.LBB52_35-.LJTI52_0
	.long	.LBB52_47-.LJTI52_0
	.long	.LBB52_37-.LJTI52_0
	.long	.LBB52_47-.LJTI52_0
	.long	.LBB52_15-.LJTI52_0
	.long	.LBB52_47-.LJTI52_0
	.long	.LBB52_47-.LJTI52_0
	.long	.LBB52_32-.LJTI52_0
	.long	.LBB52_47-.LJTI52_0
	.long	.LBB52_47-.LJTI52_0
	.long	.LBB52_18-.LJTI52_0
	.long	.LBB52_47-.LJTI52_0
	.long	.LBB52_47-.LJTI52_0
	.long	.LBB52_47-.LJTI52_0
	.long	.LBB52_47-.LJTI52_0
	.long	.LBB52_47-.LJTI52_0
	.long	.LBB52_47-.LJTI52_0
	.long	.LBB52_15-.LJTI52_0
	.long	.LBB52_41-.LJTI52_0
	.long	.LBB52_20-.LJTI52_0
	.long	.LBB52_34-.LJTI52_0
	.long	.LBB52_47-.LJTI52_0
	.long	.LBB52_47-.LJTI52_0
	.long	.LBB52_47-.LJTI52_0
	.long	.LBB52_47-.LJTI52_0
	.long	.LBB52_47-.LJTI52_0
	.long	.LBB52_47-.LJTI52_0
	.long	.LBB52_47-.LJTI52_0
	.long	.LBB52_47-.LJTI52_0
	.long	.LBB52_47-.LJTI52_0
	.long	.LBB52_47-.LJTI52_0
	.long	.LBB52_47-.LJTI52_0
	.long	.LBB52_30-.LJTI52_0
	.long	.LBB52_47-.LJTI52_0
	.long	.LBB52_22-.LJTI52_0
	.long	.LBB52_47-.LJTI52_0
	.long	.LBB52_24-.LJTI52_0
	.long	.LBB52_47-.LJTI52_0
	.long	.LBB52_47-.LJTI52_0
	.long	.LBB52_28-.LJTI52_0
	.long	.LBB52_47-.LJTI52_0
	.long	.LBB52_47-.LJTI52_0
	.long	.LBB52_18-.LJTI52_0
	.long	.LBB52_47-.LJTI52_0
	.long	.LBB52_47-.LJTI52_0
	.long	.LBB52_47-.LJTI52_0
	.long	.LBB52_47-.LJTI52_0
	.long	.LBB52_47-.LJTI52_0
	.long	.LBB52_47-.LJTI52_0
	.long	.LBB52_20-.LJTI52_0
	.long	.LBB52_26-.LJTI52_0
	.long	.LBB52_39-.LJTI52_0
	.long	.LBB52_47-.LJTI52_0
	.long	.LBB52_47-.LJTI52_0
	.long	.LBB52_15-.LJTI52_0
.LJTI52_1:
	.long	.LBB52_9-.LJTI52_1
	.long	.LBB52_65-.LJTI52_1
	.long	.LBB52_47-.LJTI52_1
	.long	.LBB52_67-.LJTI52_1
	.long	.LBB52_47-.LJTI52_1
	.long	.LBB52_9-.LJTI52_1
	.long	.LBB52_47-.LJTI52_1
	.long	.LBB52_47-.LJTI52_1
	.long	.LBB52_62-.LJTI52_1
	.long	.LBB52_47-.LJTI52_1
	.long	.LBB52_47-.LJTI52_1
	.long	.LBB52_48-.LJTI52_1
	.long	.LBB52_47-.LJTI52_1
	.long	.LBB52_47-.LJTI52_1
	.long	.LBB52_47-.LJTI52_1
	.long	.LBB52_47-.LJTI52_1
	.long	.LBB52_47-.LJTI52_1
	.long	.LBB52_47-.LJTI52_1
	.long	.LBB52_9-.LJTI52_1
	.long	.LBB52_71-.LJTI52_1
	.long	.LBB52_50-.LJTI52_1
	.long	.LBB52_64-.LJTI52_1
	.long	.LBB52_47-.LJTI52_1
	.long	.LBB52_47-.LJTI52_1
	.long	.LBB52_47-.LJTI52_1
	.long	.LBB52_47-.LJTI52_1
	.long	.LBB52_47-.LJTI52_1
	.long	.LBB52_47-.LJTI52_1
	.long	.LBB52_47-.LJTI52_1
	.long	.LBB52_47-.LJTI52_1
	.long	.LBB52_47-.LJTI52_1
	.long	.LBB52_47-.LJTI52_1
	.long	.LBB52_47-.LJTI52_1
	.long	.LBB52_60-.LJTI52_1
	.long	.LBB52_47-.LJTI52_1
	.long	.LBB52_52-.LJTI52_1
	.long	.LBB52_47-.LJTI52_1
	.long	.LBB52_54-.LJTI52_1
	.long	.LBB52_47-.LJTI52_1
	.long	.LBB52_47-.LJTI52_1
	.long	.LBB52_58-.LJTI52_1
	.long	.LBB52_47-.LJTI52_1
	.long	.LBB52_47-.LJTI52_1
	.long	.LBB52_48-.LJTI52_1
	.long	.LBB52_47-.LJTI52_1
	.long	.LBB52_47-.LJTI52_1
	.long	.LBB52_47-.LJTI52_1
	.long	.LBB52_47-.LJTI52_1
	.long	.LBB52_47-.LJTI52_1
	.long	.LBB52_47-.LJTI52_1
	.long	.LBB52_50-.LJTI52_1
	.long	.LBB52_56-.LJTI52_1
	.long	.LBB52_69-.LJTI52_1
	.long	.LBB52_47-.LJTI52_1
	.long	.LBB52_47-.LJTI52_1
	.long	.LBB52_9-.LJTI52_1

	.section	.text.amqpv_peek,"ax",@progbits
	.globl	amqpv_peek
	.p2align	4
	.type	amqpv_peek,@function
amqpv_peek:
	movl	24(%rdi), %edx
	movl	$-13, %eax
	cmpl	$31, %edx
	ja	.LBB53_11
	movq	8(%rdi), %rcx
	testb	$1, %dl
	jne	.LBB53_8
	testq	%rcx, %rcx
	je	.LBB53_10
	movq	(%rdi), %r9
	movzbl	(%r9), %edx
	movl	$-2, %eax
	leal	-65(%rdx), %r8d
	cmpl	$55, %r8d
	ja	.LBB53_11
	leaq	-1(%rcx), %rdi
	leaq	.LJTI53_0(%rip), %r10
	movslq	(%r10,%r8,4), %r8
	addq	%r10, %r8
	jmpq	*%r8
.LBB53_5:
	cmpq	$5, %rcx
	jb	.LBB53_10
	movl	1(%r9), %edi
	bswapl	%edi
	addq	$-5, %rcx
	movl	$-1, %eax
	cmpq	%rdi, %rcx
	jb	.LBB53_11
	leaq	5(%rdi), %rcx
	movw	$0, -4(%rsp)
	movl	$0, -8(%rsp)
	movl	$5, %r9d
	xorl	%r8d, %r8d
	xorl	%eax, %eax
	jmp	.LBB53_40
.LBB53_8:
	cmpq	$4, %rcx
	jb	.LBB53_10
	movq	(%rdi), %rax
	movl	(%rax), %edi
	bswapl	%edi
	addq	$-4, %rcx
	cmpq	%rdi, %rcx
	jae	.LBB53_12
.LBB53_10:
	movl	$-1, %eax
.LBB53_11:
	retq
.LBB53_12:
	leaq	4(%rdi), %rcx
	movw	$0, -12(%rsp)
	movl	$0, -16(%rsp)
	movl	$4, %r9d
	movb	$70, %dl
	xorl	%eax, %eax
	xorl	%r8d, %r8d
	jmp	.LBB53_41
.LBB53_13:
	movl	$-1, %eax
	cmpq	$8, %rdi
	jb	.LBB53_11
	movq	1(%r9), %rax
	bswapq	%rax
	leaq	-9(%rcx), %rdi
	movb	$108, %dl
	jmp	.LBB53_38
.LBB53_15:
	movl	$-1, %eax
	cmpq	$2, %rdi
	jb	.LBB53_11
	movzwl	1(%r9), %eax
	rolw	$8, %ax
	leaq	-3(%rcx), %rdi
	movswq	%ax, %rax
	movb	$115, %dl
	jmp	.LBB53_38
.LBB53_17:
	movl	$-1, %eax
	cmpq	$8, %rdi
	jb	.LBB53_11
	movq	1(%r9), %rax
	bswapq	%rax
	leaq	-9(%rcx), %rdi
	movb	$100, %dl
	jmp	.LBB53_38
.LBB53_19:
	movl	$-1, %eax
	cmpq	$4, %rdi
	jb	.LBB53_11
	movl	1(%r9), %eax
	bswapl	%eax
	leaq	-5(%rcx), %rdi
	movb	$102, %dl
	jmp	.LBB53_38
.LBB53_21:
	movl	$-1, %eax
	testq	%rdi, %rdi
	je	.LBB53_11
	xorl	%eax, %eax
	cmpb	$0, 1(%r9)
	leaq	-2(%rcx), %rdi
	setne	%al
	movb	$116, %dl
	jmp	.LBB53_38
.LBB53_23:
	movl	$-1, %eax
	cmpq	$4, %rdi
	jb	.LBB53_11
	movl	1(%r9), %eax
	bswapl	%eax
	leaq	-5(%rcx), %rdi
	movb	$105, %dl
	jmp	.LBB53_38
.LBB53_25:
	movl	$-1, %eax
	testq	%rdi, %rdi
	je	.LBB53_11
	leaq	-2(%rcx), %rdi
	movsbq	1(%r9), %rax
	movb	$98, %dl
	jmp	.LBB53_38
.LBB53_27:
	movl	$-1, %eax
	cmpq	$4, %rdi
	jb	.LBB53_11
	movl	1(%r9), %eax
	bswapl	%eax
	leaq	-5(%rcx), %rdi
	cltq
	movb	$73, %dl
	jmp	.LBB53_38
.LBB53_29:
	xorl	%eax, %eax
	jmp	.LBB53_38
.LBB53_30:
	movl	$-1, %eax
	testq	%rdi, %rdi
	je	.LBB53_11
	leaq	-2(%rcx), %rdi
	movzbl	1(%r9), %eax
	movb	$66, %dl
	jmp	.LBB53_38
.LBB53_32:
	movl	$-1, %eax
	cmpq	$6, %rcx
	jb	.LBB53_11
	movzbl	1(%r9), %r8d
	movl	2(%r9), %eax
	bswapl	%eax
	leaq	-6(%rcx), %rdi
	movb	$68, %dl
	jmp	.LBB53_39
.LBB53_34:
	movl	$-1, %eax
	cmpq	$2, %rdi
	jb	.LBB53_11
	movzwl	1(%r9), %eax
	rolw	$8, %ax
	leaq	-3(%rcx), %rdi
	movzwl	%ax, %eax
	movb	$117, %dl
	jmp	.LBB53_38
.LBB53_36:
	movl	$-1, %eax
	cmpq	$8, %rdi
	jb	.LBB53_11
	movq	1(%r9), %rax
	bswapq	%rax
	leaq	-9(%rcx), %rdi
	movb	$84, %dl
.LBB53_38:
	xorl	%r8d, %r8d
.LBB53_39:
	subq	%rdi, %rcx
	movw	$0, -4(%rsp)
	movl	$0, -8(%rsp)
	xorl	%r9d, %r9d
	xorl	%edi, %edi
.LBB53_40:
	movzwl	-4(%rsp), %r10d
	movw	%r10w, -12(%rsp)
	movl	-8(%rsp), %r10d
	movl	%r10d, -16(%rsp)
.LBB53_41:
	xorps	%xmm0, %xmm0
	movups	%xmm0, (%rsi)
	movq	$0, 16(%rsi)
	movq	%rcx, 24(%rsi)
	movq	%r9, 32(%rsi)
	movq	%rdi, 40(%rsi)
	movq	%rax, 48(%rsi)
	movb	%dl, 56(%rsi)
	movb	%r8b, 57(%rsi)
	movl	-16(%rsp), %eax
	movl	%eax, 58(%rsi)
	movzwl	-12(%rsp), %eax
	movw	%ax, 62(%rsi)
	xorl	%eax, %eax
	retq
.Lfunc_end53:
	.size	amqpv_peek, .Lfunc_end53-amqpv_peek
	.section	.rodata.amqpv_peek,"a",@progbits
	.p2align	2, 0x0
.LJTI53_0:
	.long	.LBB53_5-.LJTI53_0
	.long	.LBB53_30-.LJTI53_0
	.long	.LBB53_11-.LJTI53_0
	.long	.LBB53_32-.LJTI53_0
	.long	.LBB53_11-.LJTI53_0
	.long	.LBB53_5-.LJTI53_0
	.long	.LBB53_11-.LJTI53_0
	.long	.LBB53_11-.LJTI53_0
	.long	.LBB53_27-.LJTI53_0
	.long	.LBB53_11-.LJTI53_0
	.long	.LBB53_11-.LJTI53_0
	.long	.LBB53_13-.LJTI53_0
	.long	.LBB53_11-.LJTI53_0
	.long	.LBB53_11-.LJTI53_0
	.long	.LBB53_11-.LJTI53_0
	.long	.LBB53_11-.LJTI53_0
	.long	.LBB53_11-.LJTI53_0
	.long	.LBB53_11-.LJTI53_0
	.long	.LBB53_5-.LJTI53_0
	.long	.LBB53_36-.LJTI53_0
	.long	.LBB53_15-.LJTI53_0
	.long	.LBB53_29-.LJTI53_0
	.long	.LBB53_11-.LJTI53_0
	.long	.LBB53_11-.LJTI53_0
	.long	.LBB53_11-.LJTI53_0
	.long	.LBB53_11-.LJTI53_0
	.long	.LBB53_11-.LJTI53_0
	.long	.LBB53_11-.LJTI53_0
	.long	.LBB53_11-.LJTI53_0
	.long	.LBB53_11-.LJTI53_0
	.long	.LBB53_11-.LJTI53_0
	.long	.LBB53_11-.LJTI53_0
	.long	.LBB53_11-.LJTI53_0
	.long	.LBB53_25-.LJTI53_0
	.long	.LBB53_11-.LJTI53_0
	.long	.LBB53_17-.LJTI53_0
	.long	.LBB53_11-.LJTI53_0
	.long	.LBB53_19-.LJTI53_0
	.long	.LBB53_11-.LJTI53_0
	.long	.LBB53_11-.LJTI53_0
	.long	.LBB53_23-.LJTI53_0
	.long	.LBB53_11-.LJTI53_0
	.long	.LBB53_11-.LJTI53_0
	.long	.LBB53_13-.LJTI53_0
	.long	.LBB53_11-.LJTI53_0
	.long	.LBB53_11-.LJTI53_0
	.long	.LBB53_11-.LJTI53_0
	.long	.LBB53_11-.LJTI53_0
	.long	.LBB53_11-.LJTI53_0
	.long	.LBB53_11-.LJTI53_0
	.long	.LBB53_15-.LJTI53_0
	.long	.LBB53_21-.LJTI53_0
	.long	.LBB53_34-.LJTI53_0
	.long	.LBB53_11-.LJTI53_0
	.long	.LBB53_11-.LJTI53_0
	.long	.LBB53_5-.LJTI53_0

	.section	.text.amqpv_proved_find,"ax",@progbits
	.p2align	4
	.type	amqpv_proved_find,@function
amqpv_proved_find:
	pushq	%rbp
	pushq	%r15
	pushq	%r14
	pushq	%r13
	pushq	%r12
	pushq	%rbx
	subq	$104, %rsp
	movq	%r8, 96(%rsp)
	movq	%rcx, 80(%rsp)
	xorl	%r15d, %r15d
	movq	%rdx, 48(%rsp)
	testq	%rdx, %rdx
	sete	%bpl
	movl	24(%rdi), %edx
	movl	$-13, %eax
	cmpl	$31, %edx
	ja	.LBB54_218
	movq	8(%rdi), %r12
	movq	(%rsi), %r14
	movq	8(%rsi), %rcx
	movq	%r12, %rax
	subq	%r14, %rax
	setae	%r9b
	cmpq	%rcx, %rax
	setae	%r10b
	andb	%r9b, %r10b
	movl	$-13, %eax
	cmpb	$1, %r10b
	jne	.LBB54_218
	movq	16(%rsi), %r9
	movq	24(%rsi), %r10
	movq	%r12, %rbx
	movq	%r9, %r8
	subq	%r9, %rbx
	movq	%r12, %r9
	setae	%r12b
	cmpq	%r10, %rbx
	setae	%bl
	andb	%r12b, %bl
	cmpb	$1, %bl
	jne	.LBB54_218
	movq	%r10, %r13
	movq	32(%rsi), %r12
	movq	40(%rsi), %r10
	movq	%r9, 72(%rsp)
	movq	%r9, %rbx
	movq	%r12, %r11
	subq	%r12, %rbx
	setae	%r12b
	cmpq	%r10, %rbx
	setae	%bl
	andb	%r12b, %bl
	cmpb	$1, %bl
	jne	.LBB54_218
	movq	%r10, %r9
	movq	(%rdi), %rax
	movq	%rax, (%rsp)
	movq	48(%rsi), %rbx
	movzbl	56(%rsi), %edi
	movzbl	57(%rsi), %eax
	movzwl	62(%rsi), %r12d
	movw	%r12w, 44(%rsp)
	movl	58(%rsi), %esi
	movl	%esi, 40(%rsp)
	cmpq	$0, 80(%rsp)
	je	.LBB54_214
	movb	%bpl, %r15b
	shll	$12, %r15d
	addq	%r15, 48(%rsp)
	xorl	%r15d, %r15d
	movq	%r9, %rbp
	movq	%r11, %r10
	movl	%edx, 28(%rsp)
	.p2align	4
.LBB54_6:
	movq	%r15, %rax
	shlq	$5, %rax
	movq	48(%rsp), %rcx
	cmpb	24(%rcx,%rax), %dil
	jne	.LBB54_216
	cmpb	$70, %dil
	je	.LBB54_27
	movzbl	%dil, %esi
	cmpl	$65, %esi
	jne	.LBB54_216
	movq	72(%rsp), %rsi
	subq	%r10, %rsi
	jb	.LBB54_55
	cmpq	%rbp, %rsi
	jb	.LBB54_55
	movq	%r10, %rbx
	testq	%rbp, %rbp
	sete	%r9b
	je	.LBB54_75
	movq	48(%rsp), %rcx
	movq	16(%rcx,%rax), %rax
	movq	%rbp, %r11
	testq	%rax, %rax
	je	.LBB54_76
	movq	(%rsp), %rsi
	addq	%rbx, %rsi
	decq	%rax
	movq	%rbp, %r11
	.p2align	4
.LBB54_14:
	movzbl	(%rsi), %edi
	addl	$-65, %edi
	cmpl	$55, %edi
	ja	.LBB54_74
	leaq	.LJTI54_6(%rip), %r9
	movslq	(%r9,%rdi,4), %rdi
	addq	%r9, %rdi
	jmpq	*%rdi
.LBB54_16:
	movl	$5, %edi
	cmpq	$5, %r11
	jb	.LBB54_24
	movl	1(%rsi), %edi
	bswapl	%edi
	addq	$5, %rdi
	jmp	.LBB54_24
.LBB54_18:
	movl	$9, %edi
	jmp	.LBB54_24
.LBB54_19:
	movl	$5, %edi
	jmp	.LBB54_24
.LBB54_20:
	movl	$2, %edi
	jmp	.LBB54_24
.LBB54_21:
	movl	$3, %edi
	jmp	.LBB54_24
.LBB54_22:
	movl	$1, %edi
	jmp	.LBB54_24
.LBB54_23:
	movl	$6, %edi
	.p2align	4
.LBB54_24:
	cmpq	%rdi, %r11
	jb	.LBB54_74
	subq	$1, %rax
	setb	%r10b
	subq	%rdi, %r11
	sete	%r9b
	je	.LBB54_76
	addq	%rdi, %rsi
	testb	%r10b, %r10b
	je	.LBB54_14
	jmp	.LBB54_76
.LBB54_27:
	movq	72(%rsp), %rsi
	subq	%r10, %rsi
	jb	.LBB54_54
	cmpq	%rbp, %rsi
	jb	.LBB54_54
	movq	%r15, 16(%rsp)
	testq	%rbp, %rbp
	je	.LBB54_144
	movq	48(%rsp), %rcx
	movq	(%rcx,%rax), %rdi
	movq	8(%rcx,%rax), %rbx
	movq	(%rsp), %rax
	leaq	(%rax,%r10), %r14
	cmpq	$3, %rbx
	ja	.LBB54_56
	testq	%rbx, %rbx
	je	.LBB54_106
	xorl	%edx, %edx
	movq	%rbp, %r15
	xorl	%r8d, %r8d
.LBB54_33:
	decq	%r15
	movzbl	(%r14), %eax
	subq	%rax, %r15
	jbe	.LBB54_145
	cmpq	%rax, %rbx
	jne	.LBB54_42
	leaq	1(%r14), %rcx
	movzbl	(%rdi), %r9d
	xorl	%esi, %esi
	cmpb	(%rcx), %r9b
	cmoveq	%rbx, %rsi
	movl	28(%rsp), %r9d
	jne	.LBB54_40
	cmpq	$1, %rbx
	je	.LBB54_40
	movzbl	1(%rdi), %esi
	cmpb	2(%r14), %sil
	movl	$1, %esi
	cmoveq	%rbx, %rsi
	jne	.LBB54_40
	cmpq	$2, %rbx
	je	.LBB54_40
	movzbl	2(%rdi), %esi
	cmpb	3(%r14), %sil
	movl	$2, %esi
	cmoveq	%rbx, %rsi
.LBB54_40:
	cmpq	%rbx, %rsi
	movzbl	%r8b, %ecx
	movl	$1, %r8d
	cmovbl	%ecx, %r8d
	cmovaeq	%r15, %rdx
	testb	$8, %r9b
	je	.LBB54_42
	cmpq	%rbx, %rsi
	jae	.LBB54_137
.LBB54_42:
	addq	%rax, %r14
	incq	%r14
	movzbl	(%r14), %eax
	addl	$-65, %eax
	cmpl	$55, %eax
	ja	.LBB54_145
	leaq	.LJTI54_2(%rip), %rsi
	movslq	(%rsi,%rax,4), %rax
	addq	%rsi, %rax
	jmpq	*%rax
.LBB54_44:
	cmpq	$5, %r15
	jb	.LBB54_145
	movl	1(%r14), %eax
	bswapl	%eax
	addq	$5, %rax
	jmp	.LBB54_52
.LBB54_46:
	movl	$9, %eax
	jmp	.LBB54_52
.LBB54_47:
	movl	$5, %eax
	jmp	.LBB54_52
.LBB54_48:
	movl	$2, %eax
	jmp	.LBB54_52
.LBB54_49:
	movl	$3, %eax
	jmp	.LBB54_52
.LBB54_50:
	movl	$1, %eax
	jmp	.LBB54_52
.LBB54_51:
	movl	$6, %eax
.LBB54_52:
	cmpq	%rax, %r15
	jb	.LBB54_145
	addq	%rax, %r14
	subq	%rax, %r15
	jne	.LBB54_33
	jmp	.LBB54_136
.LBB54_54:
	movw	$0, 12(%rsp)
	movl	$0, 8(%rsp)
	movb	$1, %r11b
	movb	$12, %sil
	xorl	%r14d, %r14d
	xorl	%r8d, %r8d
	xorl	%r9d, %r9d
	xorl	%r13d, %r13d
	xorl	%r10d, %r10d
	xorl	%r12d, %r12d
	xorl	%ebx, %ebx
	xorl	%edi, %edi
	xorl	%eax, %eax
	jmp	.LBB54_147
.LBB54_55:
	movw	$0, 12(%rsp)
	movl	$0, 8(%rsp)
	movb	$1, %r12b
	movb	$12, %sil
	jmp	.LBB54_78
.LBB54_56:
	testb	$8, 28(%rsp)
	movq	%rbp, 64(%rsp)
	movq	%rdi, 56(%rsp)
	je	.LBB54_84
	movq	%rbp, %r15
.LBB54_58:
	decq	%r15
	movzbl	(%r14), %r12d
	subq	%r12, %r15
	jbe	.LBB54_145
	cmpq	%r12, %rbx
	jne	.LBB54_62
	leaq	1(%r14), %rax
	movl	(%rdi), %esi
	cmpl	(%rax), %esi
	jne	.LBB54_62
	movq	%rbx, %rsi
	movq	%rax, %rdx
	movq	%r10, %r13
	callq	"core::cmp::slices::groups_equal::<i8,31'core::cmp::numbers::U8PartialEq{}>"
	movq	56(%rsp), %rdi
	movq	%r13, %r10
	movq	64(%rsp), %rbp
	testb	%al, %al
	jne	.LBB54_137
.LBB54_62:
	addq	%r12, %r14
	incq	%r14
	movzbl	(%r14), %eax
	addl	$-65, %eax
	cmpl	$55, %eax
	ja	.LBB54_145
	leaq	.LJTI54_1(%rip), %rsi
	movslq	(%rsi,%rax,4), %rax
	addq	%rsi, %rax
	jmpq	*%rax
.LBB54_64:
	cmpq	$5, %r15
	jb	.LBB54_145
	movl	1(%r14), %eax
	bswapl	%eax
	addq	$5, %rax
	jmp	.LBB54_72
.LBB54_66:
	movl	$9, %eax
	jmp	.LBB54_72
.LBB54_67:
	movl	$5, %eax
	jmp	.LBB54_72
.LBB54_68:
	movl	$2, %eax
	jmp	.LBB54_72
.LBB54_69:
	movl	$3, %eax
	jmp	.LBB54_72
.LBB54_70:
	movl	$1, %eax
	jmp	.LBB54_72
.LBB54_71:
	movl	$6, %eax
.LBB54_72:
	cmpq	%rax, %r15
	jb	.LBB54_145
	addq	%rax, %r14
	subq	%rax, %r15
	jne	.LBB54_58
	jmp	.LBB54_144
.LBB54_74:
	movw	$0, 12(%rsp)
	movl	$0, 8(%rsp)
	movb	$1, %r12b
	movb	$2, %sil
	jmp	.LBB54_78
.LBB54_75:
	movq	%rbp, %r11
.LBB54_76:
	testb	%r9b, %r9b
	je	.LBB54_80
	movw	$0, 12(%rsp)
	movl	$0, 8(%rsp)
	xorl	%esi, %esi
	xorl	%r12d, %r12d
.LBB54_78:
	xorl	%r9d, %r9d
	xorl	%r13d, %r13d
	xorl	%r10d, %r10d
	xorl	%ebp, %ebp
	xorl	%ebx, %ebx
	xorl	%edi, %edi
	xorl	%eax, %eax
.LBB54_79:
	movzwl	12(%rsp), %r11d
	movw	%r11w, 36(%rsp)
	movl	8(%rsp), %r11d
	movl	%r11d, 32(%rsp)
	xorl	%r14d, %r14d
	xorl	%r8d, %r8d
	jmp	.LBB54_148
.LBB54_80:
	movb	$2, %sil
	movb	$1, %r12b
	testq	%r11, %r11
	jne	.LBB54_101
.LBB54_81:
	xorl	%r9d, %r9d
	xorl	%r13d, %r13d
	xorl	%r10d, %r10d
	xorl	%ebp, %ebp
	xorl	%ebx, %ebx
	xorl	%edi, %edi
.LBB54_82:
	xorl	%eax, %eax
.LBB54_83:
	movw	$0, 12(%rsp)
	movl	$0, 8(%rsp)
	jmp	.LBB54_79
.LBB54_84:
	xorl	%edx, %edx
	movq	%rbp, %r15
	xorl	%r8d, %r8d
	movq	%rbx, 88(%rsp)
.LBB54_85:
	decq	%r15
	movzbl	(%r14), %r13d
	subq	%r13, %r15
	jbe	.LBB54_145
	cmpq	%r13, %rbx
	jne	.LBB54_89
	leaq	1(%r14), %rax
	movl	(%rdi), %esi
	cmpl	(%rax), %esi
	jne	.LBB54_89
	movq	%rbx, %rsi
	movq	%rdx, %rbp
	movq	%rax, %rdx
	movq	%r10, %r12
	movl	%r8d, %ebx
	callq	"core::cmp::slices::groups_equal::<i8,31'core::cmp::numbers::U8PartialEq{}>"
	movq	%rbp, %rdx
	movq	56(%rsp), %rdi
	movq	%r12, %r10
	movq	64(%rsp), %rbp
	movzbl	%bl, %esi
	movq	88(%rsp), %rbx
	testb	%al, %al
	movl	$1, %r8d
	cmovel	%esi, %r8d
	cmovneq	%r15, %rdx
.LBB54_89:
	addq	%r13, %r14
	incq	%r14
	movzbl	(%r14), %eax
	addl	$-65, %eax
	cmpl	$55, %eax
	ja	.LBB54_145
	leaq	.LJTI54_0(%rip), %rsi
	movslq	(%rsi,%rax,4), %rax
	addq	%rsi, %rax
	jmpq	*%rax
.LBB54_91:
	cmpq	$5, %r15
	jb	.LBB54_145
	movl	1(%r14), %eax
	bswapl	%eax
	addq	$5, %rax
	jmp	.LBB54_99
.LBB54_93:
	movl	$9, %eax
	jmp	.LBB54_99
.LBB54_94:
	movl	$5, %eax
	jmp	.LBB54_99
.LBB54_95:
	movl	$2, %eax
	jmp	.LBB54_99
.LBB54_96:
	movl	$3, %eax
	jmp	.LBB54_99
.LBB54_97:
	movl	$1, %eax
	jmp	.LBB54_99
.LBB54_98:
	movl	$6, %eax
.LBB54_99:
	cmpq	%rax, %r15
	jb	.LBB54_145
	addq	%rax, %r14
	subq	%rax, %r15
	jne	.LBB54_85
	jmp	.LBB54_136
.LBB54_101:
	addq	%rbp, %rbx
	movq	%rbx, %r9
	subq	%r11, %r9
	movq	(%rsp), %rax
	movzbl	(%rax,%r9), %r14d
	xorl	%r13d, %r13d
	xorl	%edi, %edi
	leal	-65(%r14), %ebx
	cmpl	$55, %ebx
	ja	.LBB54_184
	movq	%r9, %r10
	movq	%r15, %r9
	leaq	-1(%r11), %rax
	leaq	.LJTI54_7(%rip), %r15
	movslq	(%r15,%rbx,4), %rbx
	addq	%r15, %rbx
	jmpq	*%rbx
.LBB54_103:
	cmpq	$5, %r11
	movq	%r9, %r15
	jb	.LBB54_81
	movq	(%rsp), %rax
	movl	1(%rax,%r10), %ebp
	bswapl	%ebp
	addq	$-5, %r11
	cmpq	%rbp, %r11
	jb	.LBB54_81
	movq	%r10, %r9
	leaq	5(%rbp), %r11
	movl	$5, %r10d
	xorl	%r13d, %r13d
	xorl	%edi, %edi
	jmp	.LBB54_183
.LBB54_106:
	testb	$8, 28(%rsp)
	je	.LBB54_122
	movq	%rbp, %r15
.LBB54_108:
	decq	%r15
	movzbl	(%r14), %eax
	subq	%rax, %r15
	jbe	.LBB54_145
	testq	%rax, %rax
	je	.LBB54_137
	addq	%rax, %r14
	incq	%r14
	movzbl	(%r14), %eax
	addl	$-65, %eax
	cmpl	$55, %eax
	ja	.LBB54_145
	leaq	.LJTI54_4(%rip), %rsi
	movslq	(%rsi,%rax,4), %rax
	addq	%rsi, %rax
	jmpq	*%rax
.LBB54_112:
	cmpq	$5, %r15
	jb	.LBB54_145
	movl	1(%r14), %eax
	bswapl	%eax
	addq	$5, %rax
	jmp	.LBB54_120
.LBB54_114:
	movl	$9, %eax
	jmp	.LBB54_120
.LBB54_115:
	movl	$5, %eax
	jmp	.LBB54_120
.LBB54_116:
	movl	$2, %eax
	jmp	.LBB54_120
.LBB54_117:
	movl	$3, %eax
	jmp	.LBB54_120
.LBB54_118:
	movl	$1, %eax
	jmp	.LBB54_120
.LBB54_119:
	movl	$6, %eax
.LBB54_120:
	cmpq	%rax, %r15
	jb	.LBB54_145
	addq	%rax, %r14
	subq	%rax, %r15
	jne	.LBB54_108
	jmp	.LBB54_144
.LBB54_122:
	xorl	%edx, %edx
	movq	%rbp, %rsi
	xorl	%r8d, %r8d
.LBB54_123:
	decq	%rsi
	movzbl	(%r14), %edi
	movq	%rsi, %rax
	subq	%rdi, %rax
	jbe	.LBB54_145
	testq	%rdi, %rdi
	cmoveq	%rsi, %rdx
	movzbl	%r8b, %esi
	movl	$1, %r8d
	cmovnel	%esi, %r8d
	movzbl	1(%r14,%rdi), %esi
	addl	$-65, %esi
	cmpl	$55, %esi
	ja	.LBB54_145
	addq	%rdi, %r14
	incq	%r14
	leaq	.LJTI54_3(%rip), %rdi
	movslq	(%rdi,%rsi,4), %rsi
	addq	%rdi, %rsi
	jmpq	*%rsi
.LBB54_126:
	cmpq	$5, %rax
	jb	.LBB54_145
	movl	1(%r14), %esi
	bswapl	%esi
	addq	$5, %rsi
	jmp	.LBB54_134
.LBB54_128:
	movl	$9, %esi
	jmp	.LBB54_134
.LBB54_129:
	movl	$5, %esi
	jmp	.LBB54_134
.LBB54_130:
	movl	$2, %esi
	jmp	.LBB54_134
.LBB54_131:
	movl	$3, %esi
	jmp	.LBB54_134
.LBB54_132:
	movl	$1, %esi
	jmp	.LBB54_134
.LBB54_133:
	movl	$6, %esi
.LBB54_134:
	cmpq	%rsi, %rax
	jb	.LBB54_145
	addq	%rsi, %r14
	subq	%rsi, %rax
	movq	%rax, %rsi
	jne	.LBB54_123
.LBB54_136:
	movq	%rdx, %r15
	cmpb	$1, %r8b
	jne	.LBB54_144
.LBB54_137:
	leaq	(%rbx,%r15), %rax
	incq	%rax
	movb	$2, %sil
	testq	%rax, %rax
	je	.LBB54_140
	addq	%rbp, %r10
	movq	%r10, %r14
	subq	%rax, %r14
	movq	(%rsp), %rax
	movzbl	(%rax,%r14), %r8d
	addq	%rbx, %r15
	cmpq	%r8, %r15
	jb	.LBB54_140
	leaq	(%r14,%r8), %r9
	incq	%r9
	subq	%r9, %r10
	jne	.LBB54_151
.LBB54_140:
	movb	$1, %r11b
.LBB54_141:
	xorl	%r8d, %r8d
	xorl	%r9d, %r9d
	xorl	%r13d, %r13d
	xorl	%r10d, %r10d
	xorl	%ebp, %ebp
	xorl	%ebx, %ebx
	xorl	%edi, %edi
.LBB54_142:
	xorl	%eax, %eax
	xorl	%r14d, %r14d
.LBB54_143:
	movq	16(%rsp), %r15
	movq	%rbp, %r12
	movw	$0, 12(%rsp)
	movl	$0, 8(%rsp)
	jmp	.LBB54_147
.LBB54_144:
	movw	$0, 12(%rsp)
	movl	$0, 8(%rsp)
	xorl	%esi, %esi
	xorl	%r11d, %r11d
	jmp	.LBB54_146
.LBB54_145:
	movw	$0, 12(%rsp)
	movl	$0, 8(%rsp)
	movb	$1, %r11b
	movb	$2, %sil
.LBB54_146:
	xorl	%r14d, %r14d
	xorl	%r8d, %r8d
	xorl	%r9d, %r9d
	xorl	%r13d, %r13d
	xorl	%r10d, %r10d
	xorl	%r12d, %r12d
	xorl	%ebx, %ebx
	xorl	%edi, %edi
	xorl	%eax, %eax
	movq	16(%rsp), %r15
.LBB54_147:
	movzwl	12(%rsp), %ebp
	movw	%bp, 36(%rsp)
	movl	8(%rsp), %ebp
	movl	%ebp, 32(%rsp)
	movq	%r12, %rbp
	movq	%r11, %r12
.LBB54_148:
	testb	%r12b, %r12b
	jne	.LBB54_217
	cmpb	$1, %sil
	jne	.LBB54_216
	movzwl	36(%rsp), %esi
	movw	%si, 44(%rsp)
	movl	32(%rsp), %esi
	movl	%esi, 40(%rsp)
	incq	%r15
	cmpq	80(%rsp), %r15
	jne	.LBB54_6
	jmp	.LBB54_215
.LBB54_151:
	movb	$1, %r11b
	movq	(%rsp), %rax
	movzbl	(%rax,%r9), %r15d
	xorl	%r13d, %r13d
	xorl	%edi, %edi
	leal	-65(%r15), %ebx
	cmpl	$55, %ebx
	ja	.LBB54_200
	leaq	-1(%r10), %rax
	leaq	.LJTI54_5(%rip), %r12
	movslq	(%r12,%rbx,4), %rbx
	addq	%r12, %rbx
	jmpq	*%rbx
.LBB54_153:
	cmpq	$5, %r10
	jb	.LBB54_141
	movq	(%rsp), %rax
	movl	1(%rax,%r9), %ebp
	bswapl	%ebp
	addq	$-5, %r10
	cmpq	%rbp, %r10
	jb	.LBB54_141
	leaq	5(%rbp), %r10
	movl	$5, %r12d
	xorl	%r13d, %r13d
	xorl	%edi, %edi
	jmp	.LBB54_213
.LBB54_156:
	cmpq	$8, %rax
	movq	%r9, %r15
	jb	.LBB54_81
	movq	(%rsp), %rax
	movq	%r10, %r9
	movq	1(%rax,%r10), %r13
	bswapq	%r13
	leaq	-9(%r11), %rax
	movb	$108, %r14b
	jmp	.LBB54_181
.LBB54_158:
	cmpq	$2, %rax
	movq	%r9, %r15
	jb	.LBB54_81
	movq	(%rsp), %rax
	movq	%r10, %r9
	movzwl	1(%rax,%r10), %esi
	rolw	$8, %si
	leaq	-3(%r11), %rax
	movswq	%si, %r13
	movb	$115, %r14b
	jmp	.LBB54_181
.LBB54_160:
	cmpq	$8, %rax
	movq	%r9, %r15
	jb	.LBB54_81
	movq	(%rsp), %rax
	movq	%r10, %r9
	movq	1(%rax,%r10), %r13
	bswapq	%r13
	leaq	-9(%r11), %rax
	movb	$100, %r14b
	jmp	.LBB54_181
.LBB54_162:
	cmpq	$4, %rax
	movq	%r9, %r15
	jb	.LBB54_81
	movq	(%rsp), %rax
	movq	%r10, %r9
	movl	1(%rax,%r10), %r13d
	bswapl	%r13d
	leaq	-5(%r11), %rax
	movb	$102, %r14b
	jmp	.LBB54_181
.LBB54_164:
	testq	%rax, %rax
	movq	%r9, %r15
	je	.LBB54_81
	xorl	%r13d, %r13d
	movq	(%rsp), %rax
	movq	%r10, %r9
	cmpb	$0, 1(%rax,%r10)
	leaq	-2(%r11), %rax
	setne	%r13b
	movb	$116, %r14b
	jmp	.LBB54_181
.LBB54_166:
	cmpq	$4, %rax
	movq	%r9, %r15
	jb	.LBB54_81
	movq	(%rsp), %rax
	movq	%r10, %r9
	movl	1(%rax,%r10), %r13d
	bswapl	%r13d
	leaq	-5(%r11), %rax
	movb	$105, %r14b
	jmp	.LBB54_181
.LBB54_168:
	testq	%rax, %rax
	movq	%r9, %r15
	je	.LBB54_81
	leaq	-2(%r11), %rax
	movq	(%rsp), %rsi
	movq	%r10, %r9
	movsbq	1(%rsi,%r10), %r13
	movb	$98, %r14b
	jmp	.LBB54_181
.LBB54_170:
	cmpq	$4, %rax
	movq	%r9, %r15
	jb	.LBB54_81
	movq	(%rsp), %rax
	movq	%r10, %r9
	movl	1(%rax,%r10), %esi
	bswapl	%esi
	leaq	-5(%r11), %rax
	movslq	%esi, %r13
	movb	$73, %r14b
	jmp	.LBB54_181
.LBB54_172:
	testq	%rax, %rax
	movq	%r9, %r15
	je	.LBB54_81
	leaq	-2(%r11), %rax
	movq	(%rsp), %rsi
	movq	%r10, %r9
	movzbl	1(%rsi,%r10), %r13d
	movb	$66, %r14b
	jmp	.LBB54_181
.LBB54_174:
	movq	%r9, %r15
	movq	%r10, %r9
	jmp	.LBB54_182
.LBB54_175:
	cmpq	$6, %r11
	movq	%r9, %r15
	jb	.LBB54_81
	movq	(%rsp), %rax
	movq	%r10, %r9
	movzbl	1(%rax,%r10), %edi
	movl	2(%rax,%r10), %r13d
	bswapl	%r13d
	leaq	-6(%r11), %rax
	movb	$68, %r14b
	jmp	.LBB54_182
.LBB54_177:
	cmpq	$2, %rax
	movq	%r9, %r15
	jb	.LBB54_81
	movq	(%rsp), %rax
	movq	%r10, %r9
	movzwl	1(%rax,%r10), %esi
	rolw	$8, %si
	leaq	-3(%r11), %rax
	movzwl	%si, %r13d
	movb	$117, %r14b
	jmp	.LBB54_181
.LBB54_179:
	cmpq	$8, %rax
	movq	%r9, %r15
	jb	.LBB54_81
	movq	(%rsp), %rax
	movq	%r10, %r9
	movq	1(%rax,%r10), %r13
	bswapq	%r13
	leaq	-9(%r11), %rax
	movb	$84, %r14b
.LBB54_181:
	xorl	%edi, %edi
.LBB54_182:
	subq	%rax, %r11
	xorl	%r10d, %r10d
	xorl	%ebp, %ebp
.LBB54_183:
	movl	%edi, %eax
	movq	%r13, %rbx
	addq	%r9, %r10
	movb	$1, %sil
	xorl	%r12d, %r12d
	movq	%r11, %r13
	movl	%r14d, %edi
	jmp	.LBB54_83
.LBB54_184:
	xorl	%r9d, %r9d
	xorl	%r10d, %r10d
	xorl	%ebp, %ebp
	xorl	%ebx, %ebx
	jmp	.LBB54_82
.LBB54_185:
	xorl	%ebp, %ebp
	xorl	%ebx, %ebx
	xorl	%eax, %eax
	movq	%r9, %r15
	xorl	%r9d, %r9d
	xorl	%r10d, %r10d
	jmp	.LBB54_83
.LBB54_186:
	cmpq	$2, %rax
	jb	.LBB54_141
	movq	(%rsp), %rax
	movzwl	1(%rax,%r9), %esi
	rolw	$8, %si
	leaq	-3(%r10), %rax
	movswq	%si, %r13
	movb	$115, %r15b
	jmp	.LBB54_211
.LBB54_188:
	cmpq	$8, %rax
	jb	.LBB54_141
	movq	(%rsp), %rax
	movq	1(%rax,%r9), %r13
	bswapq	%r13
	leaq	-9(%r10), %rax
	movb	$108, %r15b
	jmp	.LBB54_211
.LBB54_190:
	cmpq	$8, %rax
	jb	.LBB54_141
	movq	%r9, %rdi
	movq	(%rsp), %rax
	movq	1(%rax,%rdi), %r13
	bswapq	%r13
	movq	%rdi, %r9
	leaq	-9(%r10), %rax
	movb	$100, %r15b
	jmp	.LBB54_211
.LBB54_192:
	cmpq	$4, %rax
	jb	.LBB54_141
	movq	%r9, %rdi
	movq	(%rsp), %rax
	movl	1(%rax,%rdi), %r13d
	bswapl	%r13d
	movq	%rdi, %r9
	leaq	-5(%r10), %rax
	movb	$102, %r15b
	jmp	.LBB54_211
.LBB54_194:
	testq	%rax, %rax
	je	.LBB54_141
	movq	%r9, %rdi
	xorl	%r13d, %r13d
	movq	(%rsp), %rax
	cmpb	$0, 1(%rax,%rdi)
	movq	%rdi, %r9
	leaq	-2(%r10), %rax
	setne	%r13b
	movb	$116, %r15b
	jmp	.LBB54_211
.LBB54_196:
	cmpq	$4, %rax
	jb	.LBB54_141
	movq	%r9, %rdi
	movq	(%rsp), %rax
	movl	1(%rax,%rdi), %r13d
	bswapl	%r13d
	movq	%rdi, %r9
	leaq	-5(%r10), %rax
	movb	$105, %r15b
	jmp	.LBB54_211
.LBB54_198:
	cmpq	$8, %rax
	jb	.LBB54_141
	movq	%r9, %rdi
	movq	(%rsp), %rax
	movq	1(%rax,%rdi), %r13
	bswapq	%r13
	movq	%rdi, %r9
	leaq	-9(%r10), %rax
	movb	$84, %r15b
	jmp	.LBB54_211
.LBB54_200:
	xorl	%r8d, %r8d
	xorl	%r9d, %r9d
	xorl	%r10d, %r10d
	xorl	%ebp, %ebp
	xorl	%ebx, %ebx
	jmp	.LBB54_142
.LBB54_201:
	testq	%rax, %rax
	je	.LBB54_141
	movq	%r9, %rdi
	movq	%r10, %r9
	leaq	-2(%r9), %rax
	movq	(%rsp), %rsi
	movq	%rdi, %r9
	movsbq	1(%rsi,%rdi), %r13
	movb	$98, %r15b
	jmp	.LBB54_211
.LBB54_203:
	cmpq	$6, %r10
	jb	.LBB54_141
	movq	%r10, %rbx
	movq	(%rsp), %rax
	movzbl	1(%rax,%r9), %edi
	movl	2(%rax,%r9), %r13d
	bswapl	%r13d
	leaq	-6(%rbx), %rax
	movb	$68, %r15b
	jmp	.LBB54_212
.LBB54_205:
	testq	%rax, %rax
	je	.LBB54_141
	movq	%r9, %rdi
	movq	%r10, %r9
	leaq	-2(%r9), %rax
	movq	(%rsp), %rsi
	movq	%rdi, %r9
	movzbl	1(%rsi,%rdi), %r13d
	movb	$66, %r15b
	jmp	.LBB54_211
.LBB54_207:
	cmpq	$4, %rax
	jb	.LBB54_141
	movq	%r9, %rdi
	movq	(%rsp), %rax
	movl	1(%rax,%rdi), %esi
	bswapl	%esi
	movq	%rdi, %r9
	leaq	-5(%r10), %rax
	movslq	%esi, %r13
	movb	$73, %r15b
	jmp	.LBB54_211
.LBB54_209:
	cmpq	$2, %rax
	jb	.LBB54_141
	movq	%r9, %rdi
	movq	(%rsp), %rax
	movzwl	1(%rax,%rdi), %esi
	rolw	$8, %si
	movq	%rdi, %r9
	leaq	-3(%r10), %rax
	movzwl	%si, %r13d
	movb	$117, %r15b
.LBB54_211:
	xorl	%edi, %edi
.LBB54_212:
	subq	%rax, %r10
	xorl	%r12d, %r12d
	xorl	%ebp, %ebp
.LBB54_213:
	movl	%edi, %eax
	movq	%r13, %rbx
	incq	%r14
	addq	%r9, %r12
	movb	$1, %sil
	xorl	%r11d, %r11d
	movq	%r10, %r13
	movq	%r12, %r10
	movl	%r15d, %edi
	jmp	.LBB54_143
.LBB54_214:
	movq	%r9, %rbp
	movq	%r11, %r10
	movq	%r8, %r9
	movq	%rcx, %r8
.LBB54_215:
	movzwl	44(%rsp), %ecx
	movw	%cx, 12(%rsp)
	movl	40(%rsp), %ecx
	movl	%ecx, 8(%rsp)
	movq	96(%rsp), %rcx
	movq	%r14, (%rcx)
	movq	%r8, 8(%rcx)
	movq	%r9, 16(%rcx)
	movq	%r13, 24(%rcx)
	movq	%r10, 32(%rcx)
	movq	%rbp, 40(%rcx)
	movq	%rbx, 48(%rcx)
	movb	%dil, 56(%rcx)
	movb	%al, 57(%rcx)
	movl	8(%rsp), %eax
	movl	%eax, 58(%rcx)
	movzwl	12(%rsp), %eax
	movw	%ax, 62(%rcx)
	xorl	%eax, %eax
	jmp	.LBB54_218
.LBB54_216:
	movl	$1, %eax
	jmp	.LBB54_218
.LBB54_217:
	notb	%sil
	movsbl	%sil, %eax
.LBB54_218:
	addq	$104, %rsp
	popq	%rbx
	popq	%r12
	popq	%r13
	popq	%r14
	popq	%r15
	popq	%rbp
	retq
.Lfunc_end54:
	.size	amqpv_proved_find, .Lfunc_end54-amqpv_proved_find
	.section	.rodata.amqpv_proved_find,"a",@progbits
	.p2align	2, 0x0
.LJTI54_0:
	.long	.LBB54_91-.LJTI54_0
	.long	.LBB54_95-.LJTI54_0
	.long	.LBB54_145-.LJTI54_0
	.long	.LBB54_98-.LJTI54_0
	.long	.LBB54_145-.LJTI54_0
	.long	.LBB54_91-.LJTI54_0
	.long	.LBB54_145-.LJTI54_0
	.long	.LBB54_145-.LJTI54_0
	.long	.LBB54_94-.LJTI54_0
	.long	.LBB54_145-.LJTI54_0
	.long	.LBB54_145-.LJTI54_0
	.long	.LBB54_93-.LJTI54_0
	.long	.LBB54_145-.LJTI54_0
	.long	.LBB54_145-.LJTI54_0
	.long	.LBB54_145-.LJTI54_0
	.long	.LBB54_145-.LJTI54_0
	.long	.LBB54_145-.LJTI54_0
	.long	.LBB54_145-.LJTI54_0
	.long	.LBB54_91-.LJTI54_0
	.long	.LBB54_93-.LJTI54_0
	.long	.LBB54_96-.LJTI54_0
	.long	.LBB54_97-.LJTI54_0
	.long	.LBB54_145-.LJTI54_0
	.long	.LBB54_145-.LJTI54_0
	.long	.LBB54_145-.LJTI54_0
	.long	.LBB54_145-.LJTI54_0
	.long	.LBB54_145-.LJTI54_0
	.long	.LBB54_145-.LJTI54_0
	.long	.LBB54_145-.LJTI54_0
	.long	.LBB54_145-.LJTI54_0
	.long	.LBB54_145-.LJTI54_0
	.long	.LBB54_145-.LJTI54_0
	.long	.LBB54_145-.LJTI54_0
	.long	.LBB54_95-.LJTI54_0
	.long	.LBB54_145-.LJTI54_0
	.long	.LBB54_93-.LJTI54_0
	.long	.LBB54_145-.LJTI54_0
	.long	.LBB54_94-.LJTI54_0
	.long	.LBB54_145-.LJTI54_0
	.long	.LBB54_145-.LJTI54_0
	.long	.LBB54_94-.LJTI54_0
	.long	.LBB54_145-.LJTI54_0
	.long	.LBB54_145-.LJTI54_0
	.long	.LBB54_93-.LJTI54_0
	.long	.LBB54_145-.LJTI54_0
	.long	.LBB54_145-.LJTI54_0
	.long	.LBB54_145-.LJTI54_0
	.long	.LBB54_145-.LJTI54_0
	.long	.LBB54_145-.LJTI54_0
	.long	.LBB54_145-.LJTI54_0
	.long	.LBB54_96-.LJTI54_0
	.long	.LBB54_95-.LJTI54_0
	.long	.LBB54_96-.LJTI54_0
	.long	.LBB54_145-.LJTI54_0
	.long	.LBB54_145-.LJTI54_0
	.long	.LBB54_91-.LJTI54_0
.LJTI54_1:
	.long	.LBB54_64-.LJTI54_1
	.long	.LBB54_68-.LJTI54_1
	.long	.LBB54_145-.LJTI54_1
	.long	.LBB54_71-.LJTI54_1
	.long	.LBB54_145-.LJTI54_1
	.long	.LBB54_64-.LJTI54_1
	.long	.LBB54_145-.LJTI54_1
	.long	.LBB54_145-.LJTI54_1
	.long	.LBB54_67-.LJTI54_1
	.long	.LBB54_145-.LJTI54_1
	.long	.LBB54_145-.LJTI54_1
	.long	.LBB54_66-.LJTI54_1
	.long	.LBB54_145-.LJTI54_1
	.long	.LBB54_145-.LJTI54_1
	.long	.LBB54_145-.LJTI54_1
	.long	.LBB54_145-.LJTI54_1
	.long	.LBB54_145-.LJTI54_1
	.long	.LBB54_145-.LJTI54_1
	.long	.LBB54_64-.LJTI54_1
	.long	.LBB54_66-.LJTI54_1
	.long	.LBB54_69-.LJTI54_1
	.long	.LBB54_70-.LJTI54_1
	.long	.LBB54_145-.LJTI54_1
	.long	.LBB54_145-.LJTI54_1
	.long	.LBB54_145-.LJTI54_1
	.long	.LBB54_145-.LJTI54_1
	.long	.LBB54_145-.LJTI54_1
	.long	.LBB54_145-.LJTI54_1
	.long	.LBB54_145-.LJTI54_1
	.long	.LBB54_145-.LJTI54_1
	.long	.LBB54_145-.LJTI54_1
	.long	.LBB54_145-.LJTI54_1
	.long	.LBB54_145-.LJTI54_1
	.long	.LBB54_68-.LJTI54_1
	.long	.LBB54_145-.LJTI54_1
	.long	.LBB54_66-.LJTI54_1
	.long	.LBB54_145-.LJTI54_1
	.long	.LBB54_67-.LJTI54_1
	.long	.LBB54_145-.LJTI54_1
	.long	.LBB54_145-.LJTI54_1
	.long	.LBB54_67-.LJTI54_1
	.long	.LBB54_145-.LJTI54_1
	.long	.LBB54_145-.LJTI54_1
	.long	.LBB54_66-.LJTI54_1
	.long	.LBB54_145-.LJTI54_1
	.long	.LBB54_145-.LJTI54_1
	.long	.LBB54_145-.LJTI54_1
	.long	.LBB54_145-.LJTI54_1
	.long	.LBB54_145-.LJTI54_1
	.long	.LBB54_145-.LJTI54_1
	.long	.LBB54_69-.LJTI54_1
	.long	.LBB54_68-.LJTI54_1
	.long	.LBB54_69-.LJTI54_1
	.long	.LBB54_145-.LJTI54_1
	.long	.LBB54_145-.LJTI54_1
	.long	.LBB54_64-.LJTI54_1
.LJTI54_2:
	.long	.LBB54_44-.LJTI54_2
	.long	.LBB54_48-.LJTI54_2
	.long	.LBB54_145-.LJTI54_2
	.long	.LBB54_51-.LJTI54_2
	.long	.LBB54_145-.LJTI54_2
	.long	.LBB54_44-.LJTI54_2
	.long	.LBB54_145-.LJTI54_2
	.long	.LBB54_145-.LJTI54_2
	.long	.LBB54_47-.LJTI54_2
	.long	.LBB54_145-.LJTI54_2
	.long	.LBB54_145-.LJTI54_2
	.long	.LBB54_46-.LJTI54_2
	.long	.LBB54_145-.LJTI54_2
	.long	.LBB54_145-.LJTI54_2
	.long	.LBB54_145-.LJTI54_2
	.long	.LBB54_145-.LJTI54_2
	.long	.LBB54_145-.LJTI54_2
	.long	.LBB54_145-.LJTI54_2
	.long	.LBB54_44-.LJTI54_2
	.long	.LBB54_46-.LJTI54_2
	.long	.LBB54_49-.LJTI54_2
	.long	.LBB54_50-.LJTI54_2
	.long	.LBB54_145-.LJTI54_2
	.long	.LBB54_145-.LJTI54_2
	.long	.LBB54_145-.LJTI54_2
	.long	.LBB54_145-.LJTI54_2
	.long	.LBB54_145-.LJTI54_2
	.long	.LBB54_145-.LJTI54_2
	.long	.LBB54_145-.LJTI54_2
	.long	.LBB54_145-.LJTI54_2
	.long	.LBB54_145-.LJTI54_2
	.long	.LBB54_145-.LJTI54_2
	.long	.LBB54_145-.LJTI54_2
	.long	.LBB54_48-.LJTI54_2
	.long	.LBB54_145-.LJTI54_2
	.long	.LBB54_46-.LJTI54_2
	.long	.LBB54_145-.LJTI54_2
	.long	.LBB54_47-.LJTI54_2
	.long	.LBB54_145-.LJTI54_2
	.long	.LBB54_145-.LJTI54_2
	.long	.LBB54_47-.LJTI54_2
	.long	.LBB54_145-.LJTI54_2
	.long	.LBB54_145-.LJTI54_2
	.long	.LBB54_46-.LJTI54_2
	.long	.LBB54_145-.LJTI54_2
	.long	.LBB54_145-.LJTI54_2
	.long	.LBB54_145-.LJTI54_2
	.long	.LBB54_145-.LJTI54_2
	.long	.LBB54_145-.LJTI54_2
	.long	.LBB54_145-.LJTI54_2
	.long	.LBB54_49-.LJTI54_2
	.long	.LBB54_48-.LJTI54_2
	.long	.LBB54_49-.LJTI54_2
	.long	.LBB54_145-.LJTI54_2
	.long	.LBB54_145-.LJTI54_2
	.long	.LBB54_44-.LJTI54_2
.LJTI54_3:
	.long	.LBB54_126-.LJTI54_3
	.long	.LBB54_130-.LJTI54_3
	.long	.LBB54_145-.LJTI54_3
	.long	.LBB54_133-.LJTI54_3
	.long	.LBB54_145-.LJTI54_3
	.long	.LBB54_126-.LJTI54_3
	.long	.LBB54_145-.LJTI54_3
	.long	.LBB54_145-.LJTI54_3
	.long	.LBB54_129-.LJTI54_3
	.long	.LBB54_145-.LJTI54_3
	.long	.LBB54_145-.LJTI54_3
	.long	.LBB54_128-.LJTI54_3
	.long	.LBB54_145-.LJTI54_3
	.long	.LBB54_145-.LJTI54_3
	.long	.LBB54_145-.LJTI54_3
	.long	.LBB54_145-.LJTI54_3
	.long	.LBB54_145-.LJTI54_3
	.long	.LBB54_145-.LJTI54_3
	.long	.LBB54_126-.LJTI54_3
	.long	.LBB54_128-.LJTI54_3
	.long	.LBB54_131-.LJTI54_3
	.long	.LBB54_132-.LJTI54_3
	.long	.LBB54_145-.LJTI54_3
	.long	.LBB54_145-.LJTI54_3
	.long	.LBB54_145-.LJTI54_3
	.long	.LBB54_145-.LJTI54_3
	.long	.LBB54_145-.LJTI54_3
	.long	.LBB54_145-.LJTI54_3
	.long	.LBB54_145-.LJTI54_3
	.long	.LBB54_145-.LJTI54_3
	.long	.LBB54_145-.LJTI54_3
	.long	.LBB54_145-.LJTI54_3
	.long	.LBB54_145-.LJTI54_3
	.long	.LBB54_130-.LJTI54_3
	.long	.LBB54_145-.LJTI54_3
	.long	.LBB54_128-.LJTI54_3
	.long	.LBB54_145-.LJTI54_3
	.long	.LBB54_129-.LJTI54_3
	.long	.LBB54_145-.LJTI54_3
	.long	.LBB54_145-.LJTI54_3
	.long	.LBB54_129-.LJTI54_3
	.long	.LBB54_145-.LJTI54_3
	.long	.LBB54_145-.LJTI54_3
	.long	.LBB54_128-.LJTI54_3
	.long	.LBB54_145-.LJTI54_3
	.long	.LBB54_145-.LJTI54_3
	.long	.LBB54_145-.LJTI54_3
	.long	.LBB54_145-.LJTI54_3
	.long	.LBB54_145-.LJTI54_3
	.long	.LBB54_145-.LJTI54_3
	.long	.LBB54_131-.LJTI54_3
	.long	.LBB54_130-.LJTI54_3
	.long	.LBB54_131-.LJTI54_3
	.long	.LBB54_145-.LJTI54_3
	.long	.LBB54_145-.LJTI54_3
	.long	.LBB54_126-.LJTI54_3
.LJTI54_4:
	.long	.LBB54_112-.LJTI54_4
	.long	.LBB54_116-.LJTI54_4
	.long	.LBB54_145-.LJTI54_4
	.long	.LBB54_119-.LJTI54_4
	.long	.LBB54_145-.LJTI54_4
	.long	.LBB54_112-.LJTI54_4
	.long	.LBB54_145-.LJTI54_4
	.long	.LBB54_145-.LJTI54_4
	.long	.LBB54_115-.LJTI54_4
	.long	.LBB54_145-.LJTI54_4
	.long	.LBB54_145-.LJTI54_4
	.long	.LBB54_114-.LJTI54_4
	.long	.LBB54_145-.LJTI54_4
	.long	.LBB54_145-.LJTI54_4
	.long	.LBB54_145-.LJTI54_4
	.long	.LBB54_145-.LJTI54_4
	.long	.LBB54_145-.LJTI54_4
	.long	.LBB54_145-.LJTI54_4
	.long	.LBB54_112-.LJTI54_4
	.long	.LBB54_114-.LJTI54_4
	.long	.LBB54_117-.LJTI54_4
	.long	.LBB54_118-.LJTI54_4
	.long	.LBB54_145-.LJTI54_4
	.long	.LBB54_145-.LJTI54_4
	.long	.LBB54_145-.LJTI54_4
	.long	.LBB54_145-.LJTI54_4
	.long	.LBB54_145-.LJTI54_4
	.long	.LBB54_145-.LJTI54_4
	.long	.LBB54_145-.LJTI54_4
	.long	.LBB54_145-.LJTI54_4
	.long	.LBB54_145-.LJTI54_4
	.long	.LBB54_145-.LJTI54_4
	.long	.LBB54_145-.LJTI54_4
	.long	.LBB54_116-.LJTI54_4
	.long	.LBB54_145-.LJTI54_4
	.long	.LBB54_114-.LJTI54_4
	.long	.LBB54_145-.LJTI54_4
	.long	.LBB54_115-.LJTI54_4
	.long	.LBB54_145-.LJTI54_4
	.long	.LBB54_145-.LJTI54_4
	.long	.LBB54_115-.LJTI54_4
	.long	.LBB54_145-.LJTI54_4
	.long	.LBB54_145-.LJTI54_4
	.long	.LBB54_114-.LJTI54_4
	.long	.LBB54_145-.LJTI54_4
	.long	.LBB54_145-.LJTI54_4
	.long	.LBB54_145-.LJTI54_4
	.long	.LBB54_145-.LJTI54_4
	.long	.LBB54_145-.LJTI54_4
	.long	.LBB54_145-.LJTI54_4
	.long	.LBB54_117-.LJTI54_4
	.long	.LBB54_116-.LJTI54_4
	.long	.LBB54_117-.LJTI54_4
	.long	.LBB54_145-.LJTI54_4
	.long	.LBB54_145-.LJTI54_4
	.long	.LBB54_112-.LJTI54_4
.LJTI54_5:
	.long	.LBB54_153-.LJTI54_5
	.long	.LBB54_205-.LJTI54_5
	.long	.LBB54_200-.LJTI54_5
	.long	.LBB54_203-.LJTI54_5
	.long	.LBB54_200-.LJTI54_5
	.long	.LBB54_153-.LJTI54_5
	.long	.LBB54_200-.LJTI54_5
	.long	.LBB54_200-.LJTI54_5
	.long	.LBB54_207-.LJTI54_5
	.long	.LBB54_200-.LJTI54_5
	.long	.LBB54_200-.LJTI54_5
	.long	.LBB54_188-.LJTI54_5
	.long	.LBB54_200-.LJTI54_5
	.long	.LBB54_200-.LJTI54_5
	.long	.LBB54_200-.LJTI54_5
	.long	.LBB54_200-.LJTI54_5
	.long	.LBB54_200-.LJTI54_5
	.long	.LBB54_200-.LJTI54_5
	.long	.LBB54_153-.LJTI54_5
	.long	.LBB54_198-.LJTI54_5
	.long	.LBB54_186-.LJTI54_5
	.long	.LBB54_212-.LJTI54_5
	.long	.LBB54_200-.LJTI54_5
	.long	.LBB54_200-.LJTI54_5
	.long	.LBB54_200-.LJTI54_5
	.long	.LBB54_200-.LJTI54_5
	.long	.LBB54_200-.LJTI54_5
	.long	.LBB54_200-.LJTI54_5
	.long	.LBB54_200-.LJTI54_5
	.long	.LBB54_200-.LJTI54_5
	.long	.LBB54_200-.LJTI54_5
	.long	.LBB54_200-.LJTI54_5
	.long	.LBB54_200-.LJTI54_5
	.long	.LBB54_201-.LJTI54_5
	.long	.LBB54_200-.LJTI54_5
	.long	.LBB54_190-.LJTI54_5
	.long	.LBB54_200-.LJTI54_5
	.long	.LBB54_192-.LJTI54_5
	.long	.LBB54_200-.LJTI54_5
	.long	.LBB54_200-.LJTI54_5
	.long	.LBB54_196-.LJTI54_5
	.long	.LBB54_200-.LJTI54_5
	.long	.LBB54_200-.LJTI54_5
	.long	.LBB54_188-.LJTI54_5
	.long	.LBB54_200-.LJTI54_5
	.long	.LBB54_200-.LJTI54_5
	.long	.LBB54_200-.LJTI54_5
	.long	.LBB54_200-.LJTI54_5
	.long	.LBB54_200-.LJTI54_5
	.long	.LBB54_200-.LJTI54_5
	.long	.LBB54_186-.LJTI54_5
	.long	.LBB54_194-.LJTI54_5
	.long	.LBB54_209-.LJTI54_5
	.long	.LBB54_200-.LJTI54_5
	.long	.LBB54_200-.LJTI54_5
	.long	.LBB54_153-.LJTI54_5
.LJTI54_6:
	.long	.LBB54_16-.LJTI54_6
	.long	.LBB54_20-.LJTI54_6
	.long	.LBB54_74-.LJTI54_6
	.long	.LBB54_23-.LJTI54_6
	.long	.LBB54_74-.LJTI54_6
	.long	.LBB54_16-.LJTI54_6
	.long	.LBB54_74-.LJTI54_6
	.long	.LBB54_74-.LJTI54_6
	.long	.LBB54_19-.LJTI54_6
	.long	.LBB54_74-.LJTI54_6
	.long	.LBB54_74-.LJTI54_6
	.long	.LBB54_18-.LJTI54_6
	.long	.LBB54_74-.LJTI54_6
	.long	.LBB54_74-.LJTI54_6
	.long	.LBB54_74-.LJTI54_6
	.long	.LBB54_74-.LJTI54_6
	.long	.LBB54_74-.LJTI54_6
	.long	.LBB54_74-.LJTI54_6
	.long	.LBB54_16-.LJTI54_6
	.long	.LBB54_18-.LJTI54_6
	.long	.LBB54_21-.LJTI54_6
	.long	.LBB54_22-.LJTI54_6
	.long	.LBB54_74-.LJTI54_6
	.long	.LBB54_74-.LJTI54_6
	.long	.LBB54_74-.LJTI54_6
	.long	.LBB54_74-.LJTI54_6
	.long	.LBB54_74-.LJTI54_6
	.long	.LBB54_74-.LJTI54_6
	.long	.LBB54_74-.LJTI54_6
	.long	.LBB54_74-.LJTI54_6
	.long	.LBB54_74-.LJTI54_6
	.long	.LBB54_74-.LJTI54_6
	.long	.LBB54_74-.LJTI54_6
	.long	.LBB54_20-.LJTI54_6
	.long	.LBB54_74-.LJTI54_6
	.long	.LBB54_18-.LJTI54_6
	.long	.LBB54_74-.LJTI54_6
	.long	.LBB54_19-.LJTI54_6
	.long	.LBB54_74-.LJTI54_6
	.long	.LBB54_74-.LJTI54_6
	.long	.LBB54_19-.LJTI54_6
	.long	.LBB54_74-.LJTI54_6
	.long	.LBB54_74-.LJTI54_6
	.long	.LBB54_18-.LJTI54_6
	.long	.LBB54_74-.LJTI54_6
	.long	.LBB54_74-.LJTI54_6
	.long	.LBB54_74-.LJTI54_6
	.long	.LBB54_74-.LJTI54_6
	.long	.LBB54_74-.LJTI54_6
	.long	.LBB54_74-.LJTI54_6
	.long	.LBB54_21-.LJTI54_6
	.long	.LBB54_20-.LJTI54_6
	.long	.LBB54_21-.LJTI54_6
	.long	.LBB54_74-.LJTI54_6
	.long	.LBB54_74-.LJTI54_6
	.long	.LBB54_16-.LJTI54_6
.LJTI54_7:
	.long	.LBB54_103-.LJTI54_7
	.long	.LBB54_172-.LJTI54_7
	.long	.LBB54_185-.LJTI54_7
	.long	.LBB54_175-.LJTI54_7
	.long	.LBB54_185-.LJTI54_7
	.long	.LBB54_103-.LJTI54_7
	.long	.LBB54_185-.LJTI54_7
	.long	.LBB54_185-.LJTI54_7
	.long	.LBB54_170-.LJTI54_7
	.long	.LBB54_185-.LJTI54_7
	.long	.LBB54_185-.LJTI54_7
	.long	.LBB54_156-.LJTI54_7
	.long	.LBB54_185-.LJTI54_7
	.long	.LBB54_185-.LJTI54_7
	.long	.LBB54_185-.LJTI54_7
	.long	.LBB54_185-.LJTI54_7
	.long	.LBB54_185-.LJTI54_7
	.long	.LBB54_185-.LJTI54_7
	.long	.LBB54_103-.LJTI54_7
	.long	.LBB54_179-.LJTI54_7
	.long	.LBB54_158-.LJTI54_7
	.long	.LBB54_174-.LJTI54_7
	.long	.LBB54_185-.LJTI54_7
	.long	.LBB54_185-.LJTI54_7
	.long	.LBB54_185-.LJTI54_7
	.long	.LBB54_185-.LJTI54_7
	.long	.LBB54_185-.LJTI54_7
	.long	.LBB54_185-.LJTI54_7
	.long	.LBB54_185-.LJTI54_7
	.long	.LBB54_185-.LJTI54_7
	.long	.LBB54_185-.LJTI54_7
	.long	.LBB54_185-.LJTI54_7
	.long	.LBB54_185-.LJTI54_7
	.long	.LBB54_168-.LJTI54_7
	.long	.LBB54_185-.LJTI54_7
	.long	.LBB54_160-.LJTI54_7
	.long	.LBB54_185-.LJTI54_7
	.long	.LBB54_162-.LJTI54_7
	.long	.LBB54_185-.LJTI54_7
	.long	.LBB54_185-.LJTI54_7
	.long	.LBB54_166-.LJTI54_7
	.long	.LBB54_185-.LJTI54_7
	.long	.LBB54_185-.LJTI54_7
	.long	.LBB54_156-.LJTI54_7
	.long	.LBB54_185-.LJTI54_7
	.long	.LBB54_185-.LJTI54_7
	.long	.LBB54_185-.LJTI54_7
	.long	.LBB54_185-.LJTI54_7
	.long	.LBB54_185-.LJTI54_7
	.long	.LBB54_185-.LJTI54_7
	.long	.LBB54_158-.LJTI54_7
	.long	.LBB54_164-.LJTI54_7
	.long	.LBB54_177-.LJTI54_7
	.long	.LBB54_185-.LJTI54_7
	.long	.LBB54_185-.LJTI54_7
	.long	.LBB54_103-.LJTI54_7

	.section	.text.amqpv_is_canonical,"ax",@progbits
	.globl	amqpv_is_canonical
	.p2align	4
	.type	amqpv_is_canonical,@function
amqpv_is_canonical:
	pushq	%rbp
	pushq	%rbx
	subq	$56, %rsp
	movl	24(%rdi), %ecx
	movl	$-13, %ebp
	cmpl	$31, %ecx
	ja	.LBB55_50
	movq	%rdi, %rbx
	xorps	%xmm0, %xmm0
	movaps	%xmm0, 32(%rsp)
	movaps	%xmm0, 16(%rsp)
	movaps	%xmm0, (%rsp)
	movq	(%rdi), %rdi
	movq	8(%rbx), %rax
	testb	$1, %cl
	jne	.LBB55_2
	testq	%rax, %rax
	je	.LBB55_47
	movzbl	(%rdi), %esi
	leal	-65(%rsi), %ecx
	cmpl	$55, %ecx
	ja	.LBB55_47
	movl	16(%rbx), %r8d
	movl	20(%rbx), %edx
	leaq	.LJTI55_0(%rip), %r9
	movslq	(%r9,%rcx,4), %r10
	addq	%r9, %r10
	jmpq	*%r10
.LBB55_17:
	cmpq	$5, %rax
	jb	.LBB55_47
	movl	1(%rdi), %r10d
	bswapl	%r10d
	addq	$4, %r10
	movl	$4, %r11d
	jmp	.LBB55_19
.LBB55_2:
	cmpq	$4, %rax
	jb	.LBB55_47
	movl	16(%rbx), %ecx
	movl	(%rdi), %esi
	bswapl	%esi
	leaq	5(%rsi), %rdx
	cmpq	%rcx, %rdx
	ja	.LBB55_47
	movl	20(%rbx), %edx
	addq	$-4, %rax
	cmpq	%rsi, %rax
	setb	%al
	testq	%rdx, %rdx
	sete	%cl
	orb	%al, %cl
	jne	.LBB55_47
	addq	$4, %rdi
.LBB55_6:
	decq	%rdx
	callq	"amqp_in_place::canonical::are_canonical_pairs"
	testb	%al, %al
	jne	.LBB55_27
	jmp	.LBB55_47
.LBB55_15:
	movl	$8, %r11d
	movl	$8, %r10d
	jmp	.LBB55_19
.LBB55_13:
	movl	$2, %r11d
	movl	$2, %r10d
	jmp	.LBB55_19
.LBB55_14:
	movl	$4, %r11d
	movl	$4, %r10d
	jmp	.LBB55_19
.LBB55_12:
	movl	$1, %r11d
	movl	$1, %r10d
	jmp	.LBB55_19
.LBB55_16:
	movl	$5, %r10d
	movl	$1, %r11d
	jmp	.LBB55_19
.LBB55_11:
	xorl	%r11d, %r11d
	xorl	%r10d, %r10d
.LBB55_19:
	leaq	-1(%rax), %r9
	cmpq	%r10, %r9
	jb	.LBB55_47
	cmpq	%r11, %r9
	jb	.LBB55_47
	cmpq	%r8, %r10
	jae	.LBB55_47
	cmpq	$1, %rax
	jne	.LBB55_23
	cmpl	$76, %esi
	je	.LBB55_47
	cmpl	$85, %esi
	je	.LBB55_47
	jmp	.LBB55_30
.LBB55_23:
	cmpl	$76, %esi
	je	.LBB55_47
	cmpl	$85, %esi
	je	.LBB55_47
	cmpl	$116, %esi
	jne	.LBB55_30
	cmpb	$2, 1(%rdi)
	jb	.LBB55_27
	jmp	.LBB55_47
.LBB55_30:
	cmpl	$55, %ecx
	ja	.LBB55_47
	leaq	.LJTI55_1(%rip), %rsi
	movslq	(%rsi,%rcx,4), %rcx
	addq	%rsi, %rcx
	jmpq	*%rcx
.LBB55_45:
	cmpq	$7, %r9
	ja	.LBB55_27
	jmp	.LBB55_47
.LBB55_32:
	cmpq	$1, %r9
	ja	.LBB55_27
	jmp	.LBB55_47
.LBB55_46:
	testq	%r9, %r9
	jne	.LBB55_27
	jmp	.LBB55_47
.LBB55_33:
	cmpq	$3, %r9
	ja	.LBB55_27
	jmp	.LBB55_47
.LBB55_43:
	cmpq	$5, %rax
	jb	.LBB55_47
	movl	1(%rdi), %ecx
	bswapl	%ecx
	addq	$-5, %rax
	cmpq	%rcx, %rax
	jae	.LBB55_27
	jmp	.LBB55_47
.LBB55_34:
	cmpq	$6, %rax
	jb	.LBB55_47
.LBB55_27:
	xorl	%ebp, %ebp
	jmp	.LBB55_50
.LBB55_35:
	cmpq	$5, %rax
	jb	.LBB55_47
	testq	%rdx, %rdx
	je	.LBB55_47
	movl	1(%rdi), %esi
	bswapl	%esi
	addq	$-5, %rax
	cmpq	%rsi, %rax
	jb	.LBB55_47
	addq	$5, %rdi
	decq	%rdx
	callq	"amqp_in_place::canonical::are_canonical_values"
	testb	%al, %al
	jne	.LBB55_27
	jmp	.LBB55_47
.LBB55_39:
	cmpq	$5, %rax
	jae	.LBB55_40
.LBB55_47:
	movq	%rsp, %rdi
	xorl	%ebp, %ebp
	movq	%rbx, %rsi
	xorl	%edx, %edx
	callq	"amqp_c::input::Input::read_error"
	movzbl	(%rsp), %eax
	testb	%al, %al
	je	.LBB55_48
	cmpb	$1, %al
	movzbl	8(%rsp), %eax
	cmovel	%eax, %ebp
	notl	%ebp
	orl	$-256, %ebp
	jmp	.LBB55_50
.LBB55_48:
	movl	$1, %ebp
.LBB55_50:
	movl	%ebp, %eax
	addq	$56, %rsp
	popq	%rbx
	popq	%rbp
	retq
.LBB55_40:
	testq	%rdx, %rdx
	je	.LBB55_47
	movl	1(%rdi), %esi
	bswapl	%esi
	addq	$-5, %rax
	cmpq	%rsi, %rax
	jb	.LBB55_47
	addq	$5, %rdi
	jmp	.LBB55_6
.Lfunc_end55:
	.size	amqpv_is_canonical, .Lfunc_end55-amqpv_is_canonical
	.section	.rodata.amqpv_is_canonical,"a",@progbits
	.p2align	2, 0x0
.LJTI55_0:
	.long	.LBB55_17-.LJTI55_0
	.long	.LBB55_12-.LJTI55_0
	.long	.LBB55_47-.LJTI55_0
	.long	.LBB55_16-.LJTI55_0
	.long	.LBB55_47-.LJTI55_0
	.long	.LBB55_17-.LJTI55_0
	.long	.LBB55_47-.LJTI55_0
	.long	.LBB55_47-.LJTI55_0
	.long	.LBB55_14-.LJTI55_0
	.long	.LBB55_47-.LJTI55_0
	.long	.LBB55_47-.LJTI55_0
	.long	.LBB55_15-.LJTI55_0
	.long	.LBB55_47-.LJTI55_0
	.long	.LBB55_47-.LJTI55_0
	.long	.LBB55_47-.LJTI55_0
	.long	.LBB55_47-.LJTI55_0
	.long	.LBB55_47-.LJTI55_0
	.long	.LBB55_47-.LJTI55_0
	.long	.LBB55_17-.LJTI55_0
	.long	.LBB55_15-.LJTI55_0
	.long	.LBB55_13-.LJTI55_0
	.long	.LBB55_11-.LJTI55_0
	.long	.LBB55_47-.LJTI55_0
	.long	.LBB55_47-.LJTI55_0
	.long	.LBB55_47-.LJTI55_0
	.long	.LBB55_47-.LJTI55_0
	.long	.LBB55_47-.LJTI55_0
	.long	.LBB55_47-.LJTI55_0
	.long	.LBB55_47-.LJTI55_0
	.long	.LBB55_47-.LJTI55_0
	.long	.LBB55_47-.LJTI55_0
	.long	.LBB55_47-.LJTI55_0
	.long	.LBB55_47-.LJTI55_0
	.long	.LBB55_12-.LJTI55_0
	.long	.LBB55_47-.LJTI55_0
	.long	.LBB55_15-.LJTI55_0
	.long	.LBB55_47-.LJTI55_0
	.long	.LBB55_14-.LJTI55_0
	.long	.LBB55_47-.LJTI55_0
	.long	.LBB55_47-.LJTI55_0
	.long	.LBB55_14-.LJTI55_0
	.long	.LBB55_47-.LJTI55_0
	.long	.LBB55_47-.LJTI55_0
	.long	.LBB55_15-.LJTI55_0
	.long	.LBB55_47-.LJTI55_0
	.long	.LBB55_47-.LJTI55_0
	.long	.LBB55_47-.LJTI55_0
	.long	.LBB55_47-.LJTI55_0
	.long	.LBB55_47-.LJTI55_0
	.long	.LBB55_47-.LJTI55_0
	.long	.LBB55_13-.LJTI55_0
	.long	.LBB55_12-.LJTI55_0
	.long	.LBB55_13-.LJTI55_0
	.long	.LBB55_47-.LJTI55_0
	.long	.LBB55_47-.LJTI55_0
	.long	.LBB55_17-.LJTI55_0
.LJTI55_1:
	.long	.LBB55_35-.LJTI55_1
	.long	.LBB55_46-.LJTI55_1
	.long	.LBB55_47-.LJTI55_1
	.long	.LBB55_34-.LJTI55_1
	.long	.LBB55_47-.LJTI55_1
	.long	.LBB55_39-.LJTI55_1
	.long	.LBB55_47-.LJTI55_1
	.long	.LBB55_47-.LJTI55_1
	.long	.LBB55_33-.LJTI55_1
	.long	.LBB55_47-.LJTI55_1
	.long	.LBB55_47-.LJTI55_1
	.long	.LBB55_45-.LJTI55_1
	.long	.LBB55_47-.LJTI55_1
	.long	.LBB55_47-.LJTI55_1
	.long	.LBB55_47-.LJTI55_1
	.long	.LBB55_47-.LJTI55_1
	.long	.LBB55_47-.LJTI55_1
	.long	.LBB55_47-.LJTI55_1
	.long	.LBB55_43-.LJTI55_1
	.long	.LBB55_45-.LJTI55_1
	.long	.LBB55_32-.LJTI55_1
	.long	.LBB55_27-.LJTI55_1
	.long	.LBB55_47-.LJTI55_1
	.long	.LBB55_47-.LJTI55_1
	.long	.LBB55_47-.LJTI55_1
	.long	.LBB55_47-.LJTI55_1
	.long	.LBB55_47-.LJTI55_1
	.long	.LBB55_47-.LJTI55_1
	.long	.LBB55_47-.LJTI55_1
	.long	.LBB55_47-.LJTI55_1
	.long	.LBB55_47-.LJTI55_1
	.long	.LBB55_47-.LJTI55_1
	.long	.LBB55_47-.LJTI55_1
	.long	.LBB55_46-.LJTI55_1
	.long	.LBB55_47-.LJTI55_1
	.long	.LBB55_45-.LJTI55_1
	.long	.LBB55_47-.LJTI55_1
	.long	.LBB55_33-.LJTI55_1
	.long	.LBB55_47-.LJTI55_1
	.long	.LBB55_47-.LJTI55_1
	.long	.LBB55_33-.LJTI55_1
	.long	.LBB55_47-.LJTI55_1
	.long	.LBB55_47-.LJTI55_1
	.long	.LBB55_45-.LJTI55_1
	.long	.LBB55_47-.LJTI55_1
	.long	.LBB55_47-.LJTI55_1
	.long	.LBB55_47-.LJTI55_1
	.long	.LBB55_47-.LJTI55_1
	.long	.LBB55_47-.LJTI55_1
	.long	.LBB55_47-.LJTI55_1
	.long	.LBB55_32-.LJTI55_1
	.long	.LBB55_46-.LJTI55_1
	.long	.LBB55_32-.LJTI55_1
	.long	.LBB55_47-.LJTI55_1
	.long	.LBB55_47-.LJTI55_1
	.long	.LBB55_43-.LJTI55_1

	.section	.text.amqpv_proved_measure,"ax",@progbits
	.p2align	4
	.type	amqpv_proved_measure,@function
amqpv_proved_measure:
	pushq	%r15
	pushq	%r14
	pushq	%r13
	pushq	%r12
	pushq	%rbx
	subq	$96, %rsp
	movl	24(%rdi), %ecx
	movl	$-13, %eax
	cmpl	$31, %ecx
	ja	.LBB56_19
	movq	%rdx, %r14
	movq	%rdi, %r15
	xorps	%xmm0, %xmm0
	movaps	%xmm0, 32(%rsp)
	movaps	%xmm0, 16(%rsp)
	movaps	%xmm0, (%rsp)
	movq	(%rdi), %rax
	movq	8(%rdi), %rbx
	testb	$1, %cl
	jne	.LBB56_5
	movq	%rsi, %r12
	movl	16(%r15), %ecx
	movl	20(%r15), %r8d
	leaq	48(%rsp), %rdi
	movq	%rax, %rsi
	movq	%rbx, %rdx
	callq	"amqp_in_place::read::read_in_place"
	cmpb	$0, 48(%rsp)
	jne	.LBB56_6
	subq	88(%rsp), %rbx
	movzbl	56(%rsp), %ecx
	xorl	%edx, %edx
	movl	$1, %eax
	cmpl	$12, %ecx
	jae	.LBB56_13
	movq	%r12, %rcx
	jmp	.LBB56_18
.LBB56_5:
	cmpq	$4, %rbx
	jae	.LBB56_8
.LBB56_6:
	movq	%rsp, %rdi
	movq	%r15, %rsi
	xorl	%edx, %edx
	callq	"amqp_c::input::Input::read_error"
	cmpb	$1, (%rsp)
	jne	.LBB56_20
	movzbl	8(%rsp), %eax
	movq	24(%rsp), %rcx
	movaps	32(%rsp), %xmm0
	movaps	%xmm0, 48(%rsp)
	movq	%rcx, (%r14)
	movaps	48(%rsp), %xmm0
	movups	%xmm0, 8(%r14)
	notl	%eax
	jmp	.LBB56_19
.LBB56_8:
	movl	(%rax), %r12d
	bswapl	%r12d
	addq	$-4, %rbx
	cmpq	%r12, %rbx
	jb	.LBB56_6
	movl	16(%r15), %ecx
	leaq	5(%r12), %rdx
	cmpq	%rcx, %rdx
	ja	.LBB56_6
	movl	20(%r15), %edx
	testq	%rdx, %rdx
	je	.LBB56_6
	addq	$4, %rax
	decq	%rdx
	movq	%rax, %rdi
	movq	%rsi, %r13
	movq	%rax, %rbx
	movq	%r12, %rsi
	callq	"amqp_in_place::read::are_pairs"
	testb	%al, %al
	je	.LBB56_6
	movq	%rbx, %rdi
	leaq	4(%r12), %rbx
	movq	%r12, %rsi
	callq	"amqp_in_place::measure::counts_of_pairs"
	movq	%r13, %rcx
	jmp	.LBB56_17
.LBB56_13:
	movq	72(%rsp), %rsi
	movq	64(%rsp), %rdi
	addl	$-12, %ecx
	leaq	.LJTI56_0(%rip), %r8
	movslq	(%r8,%rcx,4), %r9
	addq	%r8, %r9
	movq	%r12, %rcx
	jmpq	*%r9
.LBB56_14:
	callq	"amqp_in_place::measure::counts_of_values"
	jmp	.LBB56_16
.LBB56_15:
	callq	"amqp_in_place::measure::counts_of_pairs"
.LBB56_16:
	movq	%r12, %rcx
.LBB56_17:
	incq	%rax
	incq	%rdx
.LBB56_18:
	movq	%rbx, (%rcx)
	movq	%rax, 8(%rcx)
	movq	%rdx, 16(%rcx)
	xorl	%eax, %eax
.LBB56_19:
	addq	$96, %rsp
	popq	%rbx
	popq	%r12
	popq	%r13
	popq	%r14
	popq	%r15
	retq
.LBB56_20:
	ud2
.Lfunc_end56:
	.size	amqpv_proved_measure, .Lfunc_end56-amqpv_proved_measure
	.section	.rodata.amqpv_proved_measure,"a",@progbits
	.p2align	2, 0x0
.LJTI56_0:
	.long	.LBB56_14-.LJTI56_0
	.long	.LBB56_18-.LJTI56_0
	.long	.LBB56_15-.LJTI56_0
	.long	.LBB56_18-.LJTI56_0
	.long	.LBB56_18-.LJTI56_0

	.section	.text.amqpv_proved_read,"ax",@progbits
	.p2align	4
	.type	amqpv_proved_read,@function
amqpv_proved_read:
	pushq	%rbp
	pushq	%r15
	pushq	%r14
	pushq	%r13
	pushq	%r12
	pushq	%rbx
	subq	$136, %rsp
	movups	(%rdi), %xmm0
	movups	16(%rdi), %xmm1
	movaps	%xmm1, 64(%rsp)
	movaps	%xmm0, 48(%rsp)
	movl	72(%rsp), %ecx
	movl	$-13, %eax
	cmpl	$31, %ecx
	ja	.LBB57_19
	movl	%ecx, %eax
	shrb	%al
	andb	$1, %al
	testb	$4, %cl
	movzbl	%al, %edi
	movl	$2, %eax
	cmovel	%edi, %eax
	xorps	%xmm0, %xmm0
	movaps	%xmm0, 112(%rsp)
	movaps	%xmm0, 96(%rsp)
	movaps	%xmm0, 80(%rsp)
	movq	56(%rsp), %rbx
	testb	$1, %cl
	movq	%rdx, 40(%rsp)
	movq	%rsi, 32(%rsp)
	jne	.LBB57_7
	testq	%rbx, %rbx
	je	.LBB57_12
	movq	48(%rsp), %rdi
	movzbl	(%rdi), %r10d
	movb	$1, %r15b
	xorl	%r14d, %r14d
	leal	-65(%r10), %r8d
	cmpl	$55, %r8d
	ja	.LBB57_13
	leaq	-1(%rbx), %rcx
	leaq	.LJTI57_0(%rip), %r9
	movslq	(%r9,%r8,4), %r8
	addq	%r9, %r8
	jmpq	*%r8
.LBB57_5:
	cmpq	$5, %rbx
	jae	.LBB57_26
.LBB57_6:
	movl	$5, %r14d
	jmp	.LBB57_9
.LBB57_7:
	cmpq	$4, %rbx
	jae	.LBB57_10
	movl	$4, %r14d
.LBB57_9:
	subq	%rbx, %r14
	jmp	.LBB57_11
.LBB57_10:
	movq	48(%rsp), %rcx
	movl	(%rcx), %r12d
	bswapl	%r12d
	addq	$-4, %rbx
	movq	%r12, %r14
	subq	%rbx, %r14
	jbe	.LBB57_20
.LBB57_11:
	movw	$0, 4(%rsp)
	movl	$0, (%rsp)
	movq	$0, 8(%rsp)
	xorl	%r13d, %r13d
	xorl	%r15d, %r15d
	jmp	.LBB57_14
.LBB57_12:
	movl	$1, %r14d
	xorl	%r15d, %r15d
.LBB57_13:
	movw	$0, 4(%rsp)
	movl	$0, (%rsp)
	movq	$0, 8(%rsp)
	xorl	%r13d, %r13d
.LBB57_14:
	xorl	%ebx, %ebx
	xorl	%ebp, %ebp
	xorl	%r12d, %r12d
	movq	$0, 24(%rsp)
	movq	$0, 16(%rsp)
.LBB57_15:
	movzbl	%al, %edx
	leaq	80(%rsp), %rdi
	leaq	48(%rsp), %rsi
	callq	"amqp_c::input::Input::read_error"
	cmpb	$1, 80(%rsp)
	jne	.LBB57_17
	movzbl	88(%rsp), %eax
	movq	120(%rsp), %rcx
	movups	104(%rsp), %xmm0
	movq	40(%rsp), %rdx
	movups	%xmm0, (%rdx)
	movq	%rcx, 16(%rdx)
	notl	%eax
	jmp	.LBB57_19
.LBB57_17:
	testb	%r13b, %r13b
	je	.LBB57_60
	movq	32(%rsp), %rax
	movb	%r15b, (%rax)
	movb	$0, 7(%rax)
	movw	$0, 5(%rax)
	movl	$0, 1(%rax)
	movq	%r14, 8(%rax)
	movq	$0, 16(%rax)
	movq	%rbx, 24(%rax)
	movq	%rbp, 32(%rax)
	movq	%r12, 40(%rax)
	movq	24(%rsp), %rcx
	movq	%rcx, 48(%rax)
	movq	16(%rsp), %rcx
	movb	%cl, 56(%rax)
	movq	8(%rsp), %rcx
	movb	%cl, 57(%rax)
	movl	(%rsp), %ecx
	movl	%ecx, 58(%rax)
	movzwl	4(%rsp), %ecx
	movw	%cx, 62(%rax)
	xorl	%eax, %eax
.LBB57_19:
	addq	$136, %rsp
	popq	%rbx
	popq	%r12
	popq	%r13
	popq	%r14
	popq	%r15
	popq	%rbp
	retq
.LBB57_20:
	leaq	4(%r12), %rbx
	movw	$0, 4(%rsp)
	movl	$0, (%rsp)
	movb	$70, %cl
	movq	%rcx, 16(%rsp)
	movl	$4, %ebp
.LBB57_21:
	movb	$1, %r13b
	movq	$0, 8(%rsp)
	xorl	%r15d, %r15d
	xorl	%r14d, %r14d
	movq	$0, 24(%rsp)
	jmp	.LBB57_15
.LBB57_22:
	cmpq	$8, %rcx
	jb	.LBB57_54
	movq	1(%rdi), %rcx
	bswapq	%rcx
	movq	%rcx, 24(%rsp)
	leaq	-9(%rbx), %rcx
	movb	$108, %dl
	jmp	.LBB57_51
.LBB57_24:
	cmpq	$1, %rcx
	jbe	.LBB57_48
	movzwl	1(%rdi), %edx
	rolw	$8, %dx
	leaq	-3(%rbx), %rcx
	movswq	%dx, %rdx
	movq	%rdx, 24(%rsp)
	movb	$115, %dl
	jmp	.LBB57_51
.LBB57_26:
	movl	1(%rdi), %r12d
	bswapl	%r12d
	addq	$-5, %rbx
	movq	%r12, %r14
	subq	%rbx, %r14
	ja	.LBB57_11
	movq	%r10, 16(%rsp)
	leaq	5(%r12), %rbx
	movw	$0, 4(%rsp)
	movl	$0, (%rsp)
	movl	$5, %ebp
	jmp	.LBB57_21
.LBB57_28:
	cmpq	$8, %rcx
	jb	.LBB57_54
	movq	1(%rdi), %rcx
	bswapq	%rcx
	movq	%rcx, 24(%rsp)
	leaq	-9(%rbx), %rcx
	movb	$100, %dl
	jmp	.LBB57_51
.LBB57_30:
	cmpq	$4, %rcx
	jb	.LBB57_6
	movl	1(%rdi), %ecx
	bswapl	%ecx
	movq	%rcx, 24(%rsp)
	leaq	-5(%rbx), %rcx
	movb	$102, %dl
	jmp	.LBB57_51
.LBB57_32:
	testq	%rcx, %rcx
	je	.LBB57_55
	xorl	%edx, %edx
	cmpb	$0, 1(%rdi)
	leaq	-2(%rbx), %rcx
	setne	%dl
	movq	%rdx, 24(%rsp)
	movb	$116, %dl
	jmp	.LBB57_51
.LBB57_34:
	cmpq	$4, %rcx
	jb	.LBB57_6
	movl	1(%rdi), %ecx
	bswapl	%ecx
	movq	%rcx, 24(%rsp)
	leaq	-5(%rbx), %rcx
	movb	$105, %dl
	jmp	.LBB57_51
.LBB57_36:
	testq	%rcx, %rcx
	je	.LBB57_55
	leaq	-2(%rbx), %rcx
	movsbq	1(%rdi), %rdx
	movq	%rdx, 24(%rsp)
	movb	$98, %dl
	jmp	.LBB57_51
.LBB57_38:
	cmpq	$3, %rcx
	jbe	.LBB57_6
	movl	1(%rdi), %edx
	bswapl	%edx
	leaq	-5(%rbx), %rcx
	movslq	%edx, %rdx
	movq	%rdx, 24(%rsp)
	movb	$73, %dl
	jmp	.LBB57_51
.LBB57_40:
	movq	%r10, 16(%rsp)
	movq	$0, 24(%rsp)
	jmp	.LBB57_52
.LBB57_41:
	testq	%rcx, %rcx
	je	.LBB57_55
	leaq	-2(%rbx), %rcx
	movzbl	1(%rdi), %edx
	movq	%rdx, 24(%rsp)
	movb	$66, %dl
	jmp	.LBB57_51
.LBB57_43:
	testq	%rcx, %rcx
	je	.LBB57_55
	leaq	-2(%rbx), %rcx
	cmpq	$3, %rcx
	ja	.LBB57_59
	movl	$6, %r14d
	jmp	.LBB57_9
.LBB57_55:
	movl	$1, %r14d
	jmp	.LBB57_11
.LBB57_46:
	cmpq	$2, %rcx
	jb	.LBB57_48
	movzwl	1(%rdi), %edx
	rolw	$8, %dx
	leaq	-3(%rbx), %rcx
	movzwl	%dx, %edx
	movq	%rdx, 24(%rsp)
	movb	$117, %dl
	jmp	.LBB57_51
.LBB57_48:
	movl	$3, %r14d
	jmp	.LBB57_9
.LBB57_49:
	cmpq	$8, %rcx
	jb	.LBB57_54
	movq	1(%rdi), %rcx
	bswapq	%rcx
	movq	%rcx, 24(%rsp)
	leaq	-9(%rbx), %rcx
	movb	$84, %dl
.LBB57_51:
	movq	%rdx, 16(%rsp)
.LBB57_52:
	movq	$0, 8(%rsp)
.LBB57_53:
	subq	%rcx, %rbx
	movw	$0, 4(%rsp)
	movl	$0, (%rsp)
	movb	$1, %r13b
	xorl	%r15d, %r15d
	xorl	%r14d, %r14d
	xorl	%ebp, %ebp
	xorl	%r12d, %r12d
	jmp	.LBB57_15
.LBB57_54:
	movl	$9, %r14d
	jmp	.LBB57_9
.LBB57_59:
	movzbl	1(%rdi), %ecx
	movq	%rcx, 8(%rsp)
	movl	2(%rdi), %ecx
	bswapl	%ecx
	movq	%rcx, 24(%rsp)
	leaq	-6(%rbx), %rcx
	movb	$68, %dl
	movq	%rdx, 16(%rsp)
	jmp	.LBB57_53
.LBB57_60:
	ud2
.Lfunc_end57:
	.size	amqpv_proved_read, .Lfunc_end57-amqpv_proved_read
	.section	.rodata.amqpv_proved_read,"a",@progbits
	.p2align	2, 0x0
.LJTI57_0:
	.long	.LBB57_5-.LJTI57_0
	.long	.LBB57_41-.LJTI57_0
	.long	.LBB57_13-.LJTI57_0
	.long	.LBB57_43-.LJTI57_0
	.long	.LBB57_13-.LJTI57_0
	.long	.LBB57_5-.LJTI57_0
	.long	.LBB57_13-.LJTI57_0
	.long	.LBB57_13-.LJTI57_0
	.long	.LBB57_38-.LJTI57_0
	.long	.LBB57_13-.LJTI57_0
	.long	.LBB57_13-.LJTI57_0
	.long	.LBB57_22-.LJTI57_0
	.long	.LBB57_13-.LJTI57_0
	.long	.LBB57_13-.LJTI57_0
	.long	.LBB57_13-.LJTI57_0
	.long	.LBB57_13-.LJTI57_0
	.long	.LBB57_13-.LJTI57_0
	.long	.LBB57_13-.LJTI57_0
	.long	.LBB57_5-.LJTI57_0
	.long	.LBB57_49-.LJTI57_0
	.long	.LBB57_24-.LJTI57_0
	.long	.LBB57_40-.LJTI57_0
	.long	.LBB57_13-.LJTI57_0
	.long	.LBB57_13-.LJTI57_0
	.long	.LBB57_13-.LJTI57_0
	.long	.LBB57_13-.LJTI57_0
	.long	.LBB57_13-.LJTI57_0
	.long	.LBB57_13-.LJTI57_0
	.long	.LBB57_13-.LJTI57_0
	.long	.LBB57_13-.LJTI57_0
	.long	.LBB57_13-.LJTI57_0
	.long	.LBB57_13-.LJTI57_0
	.long	.LBB57_13-.LJTI57_0
	.long	.LBB57_36-.LJTI57_0
	.long	.LBB57_13-.LJTI57_0
	.long	.LBB57_28-.LJTI57_0
	.long	.LBB57_13-.LJTI57_0
	.long	.LBB57_30-.LJTI57_0
	.long	.LBB57_13-.LJTI57_0
	.long	.LBB57_13-.LJTI57_0
	.long	.LBB57_34-.LJTI57_0
	.long	.LBB57_13-.LJTI57_0
	.long	.LBB57_13-.LJTI57_0
	.long	.LBB57_22-.LJTI57_0
	.long	.LBB57_13-.LJTI57_0
	.long	.LBB57_13-.LJTI57_0
	.long	.LBB57_13-.LJTI57_0
	.long	.LBB57_13-.LJTI57_0
	.long	.LBB57_13-.LJTI57_0
	.long	.LBB57_13-.LJTI57_0
	.long	.LBB57_24-.LJTI57_0
	.long	.LBB57_32-.LJTI57_0
	.long	.LBB57_46-.LJTI57_0
	.long	.LBB57_13-.LJTI57_0
	.long	.LBB57_13-.LJTI57_0
	.long	.LBB57_5-.LJTI57_0

	.section	.text.amqpv_proved_to_json,"ax",@progbits
	.p2align	4
	.type	amqpv_proved_to_json,@function
amqpv_proved_to_json:
	pushq	%rbp
	pushq	%r15
	pushq	%r14
	pushq	%r13
	pushq	%r12
	pushq	%rbx
	subq	$104, %rsp
	movq	%rcx, %rbx
	movq	%rdi, %r15
	xorl	%eax, %eax
	testq	%rsi, %rsi
	sete	%dil
	xorps	%xmm0, %xmm0
	movaps	%xmm0, 80(%rsp)
	movaps	%xmm0, 64(%rsp)
	movaps	%xmm0, 48(%rsp)
	movl	24(%r15), %ecx
	cmpl	$32, %ecx
	jae	.LBB58_1
	movb	%dil, %al
	shll	$12, %eax
	addq	%rax, %rsi
	movq	(%r15), %r14
	movq	8(%r15), %r9
	testb	$1, %cl
	jne	.LBB58_3
	movq	%rsi, %rbp
	movq	%rdx, %r12
	movl	16(%r15), %ecx
	movl	20(%r15), %r8d
	movq	%rsp, %rdi
	movq	%r14, %rsi
	movq	%r9, %rdx
	callq	"amqp_in_place::read::read_in_place"
	cmpb	$0, (%rsp)
	jne	.LBB58_10
	movq	8(%rsp), %rax
	movq	16(%rsp), %r14
	movq	24(%rsp), %r13
	cmpb	$12, %al
	jae	.LBB58_13
.LBB58_17:
	movq	%rax, (%rsp)
	movq	%r14, 8(%rsp)
	movq	%r13, 16(%rsp)
	movq	%rsp, %r8
	movq	%rbp, %rdi
	movq	%r12, %rsi
	xorl	%edx, %edx
	xorl	%ecx, %ecx
	callq	"amqp_json::printing::leaves::put_leaf"
	jmp	.LBB58_18
.LBB58_1:
	movl	$-13, %ecx
	xorl	%eax, %eax
	jmp	.LBB58_23
.LBB58_3:
	cmpq	$4, %r9
	jae	.LBB58_4
.LBB58_10:
	leaq	48(%rsp), %rdi
	movq	%r15, %rsi
	xorl	%edx, %edx
	callq	"amqp_c::input::Input::read_error"
	cmpb	$1, 48(%rsp)
	jne	.LBB58_11
	movzbl	56(%rsp), %ecx
	cmpb	$16, %cl
	jne	.LBB58_20
	movq	64(%rsp), %rax
	jmp	.LBB58_22
.LBB58_20:
	xorl	%eax, %eax
.LBB58_22:
	movzbl	%cl, %ecx
	notl	%ecx
	jmp	.LBB58_23
.LBB58_4:
	movl	20(%r15), %eax
	testq	%rax, %rax
	je	.LBB58_10
	movl	(%r14), %r13d
	bswapl	%r13d
	addq	$-4, %r9
	cmpq	%r13, %r9
	jb	.LBB58_10
	movl	16(%r15), %ecx
	leaq	5(%r13), %rdi
	cmpq	%rcx, %rdi
	ja	.LBB58_10
	addq	$4, %r14
	decq	%rax
	movq	%r14, %rdi
	movq	%rsi, %r12
	movq	%r13, %rsi
	movq	%rdx, %rbp
	movq	%rax, %rdx
	callq	"amqp_in_place::read::are_pairs"
	testb	%al, %al
	je	.LBB58_10
	movq	%r12, %rdi
	movq	%rbp, %rsi
.LBB58_16:
	movq	%rsi, %r12
	xorl	%edx, %edx
	xorl	%ecx, %ecx
	movq	%r14, %r8
	movq	%r13, %r9
	callq	"amqp_json::printing::walk::put_table"
.LBB58_18:
	xorl	%edx, %edx
	cmpq	%rax, %r12
	movl	$-17, %ecx
	cmovael	%edx, %ecx
.LBB58_23:
	movq	%rax, (%rbx)
	movl	%ecx, %eax
	addq	$104, %rsp
	popq	%rbx
	popq	%r12
	popq	%r13
	popq	%r14
	popq	%r15
	popq	%rbp
	retq
.LBB58_13:
	movzbl	%al, %ecx
	addl	$-12, %ecx
	leaq	.LJTI58_0(%rip), %rdx
	movslq	(%rdx,%rcx,4), %rcx
	addq	%rdx, %rcx
	jmpq	*%rcx
.LBB58_14:
	movq	%rbp, %rdi
	movq	%r12, %rsi
	xorl	%edx, %edx
	xorl	%ecx, %ecx
	movq	%r14, %r8
	movq	%r13, %r9
	callq	"amqp_json::printing::walk::put_array"
	jmp	.LBB58_18
.LBB58_15:
	movq	%r12, %rsi
	movq	%rbp, %rdi
	jmp	.LBB58_16
.LBB58_11:
	ud2
.Lfunc_end58:
	.size	amqpv_proved_to_json, .Lfunc_end58-amqpv_proved_to_json
	.section	.rodata.amqpv_proved_to_json,"a",@progbits
	.p2align	2, 0x0
.LJTI58_0:
	.long	.LBB58_14-.LJTI58_0
	.long	.LBB58_17-.LJTI58_0
	.long	.LBB58_15-.LJTI58_0
	.long	.LBB58_17-.LJTI58_0
	.long	.LBB58_17-.LJTI58_0

	.section	.text.amqpv_close,"ax",@progbits
	.globl	amqpv_close
	.p2align	4
	.type	amqpv_close,@function
amqpv_close:
	pushq	%rbp
	pushq	%r15
	pushq	%r14
	pushq	%r13
	pushq	%r12
	pushq	%rbx
	subq	$24, %rsp
	xorl	%r8d, %r8d
	testq	%rdi, %rdi
	sete	%r9b
	movq	(%rcx), %r15
	subq	%r15, %rsi
	setb	%r10b
	movl	$-13, %eax
	cmpq	$4, %r15
	jb	.LBB59_28
	testb	%r10b, %r10b
	jne	.LBB59_28
	movq	8(%rcx), %r12
	cmpq	%r12, %rsi
	jb	.LBB59_28
	movq	(%rdx), %r13
	movq	8(%rdx), %r10
	leaq	-4(%r15), %rsi
	movq	%rsi, %r11
	subq	%r13, %r11
	setae	%bl
	cmpq	%r10, %r11
	setae	%r11b
	andb	%bl, %r11b
	cmpb	$1, %r11b
	jne	.LBB59_28
	cmpb	$1, 17(%rdx)
	jne	.LBB59_28
	cmpb	$0, 17(%rcx)
	jne	.LBB59_28
	addq	%r13, %r10
	cmpq	%r10, %rsi
	je	.LBB59_28
	movb	%r9b, %r8b
	shll	$12, %r8d
	addq	%r8, %rdi
	movzbl	16(%rcx), %r8d
	leaq	(%rdi,%r10), %rcx
	notq	%r10
	addq	%r10, %rsi
	cmpb	%r8b, (%rcx,%rsi)
	jne	.LBB59_28
	movzbl	16(%rdx), %r9d
	movzbl	18(%rdx), %ebp
	cmpl	$70, %r8d
	je	.LBB59_10
	cmpl	$65, %r8d
	jne	.LBB59_28
.LBB59_10:
	cmpl	$65, %r9d
	je	.LBB59_25
	cmpl	$70, %r9d
	jne	.LBB59_28
	testq	%rsi, %rsi
	je	.LBB59_28
	leaq	-1(%rsi), %rbx
	movzbl	(%rcx), %r8d
	cmpq	%r8, %rbx
	jne	.LBB59_28
	leaq	1(%rcx), %r14
	cmpq	$8, %rsi
	ja	.LBB59_20
	testq	%rbx, %rbx
	je	.LBB59_26
	xorl	%eax, %eax
.LBB59_17:
	cmpb	$0, (%r14,%rax)
	js	.LBB59_19
	incq	%rax
	cmpq	%rax, %rbx
	jne	.LBB59_17
	jmp	.LBB59_26
.LBB59_25:
	testq	%rsi, %rsi
	jne	.LBB59_28
.LBB59_26:
	movq	%r12, %rax
	shrq	$32, %rax
	movl	$-8, %eax
	jne	.LBB59_28
	movq	%r12, %rax
	shrq	$24, %rax
	movl	%r12d, %ecx
	andl	$16777215, %ecx
	bswapl	%ecx
	orl	%eax, %ecx
	movl	%ecx, -4(%rdi,%r15)
	subq	%r13, %r15
	addq	%r12, %r15
	movq	%r13, (%rdx)
	movq	%r15, 8(%rdx)
	movb	$0, 17(%rdx)
	xorl	%eax, %eax
.LBB59_28:
	addq	$24, %rsp
	popq	%rbx
	popq	%r12
	popq	%r13
	popq	%r14
	popq	%r15
	popq	%rbp
	retq
.LBB59_20:
	cmpq	$17, %rsi
	ja	.LBB59_23
	movabsq	$-9187201950435737472, %rax
	testq	%rax, (%r14)
	jne	.LBB59_24
	testq	%rax, -8(%rcx,%rsi)
	je	.LBB59_26
	jmp	.LBB59_24
.LBB59_23:
	movq	%rdi, 16(%rsp)
	movq	%r14, %rdi
	movq	%rbx, %rsi
	movq	%rdx, 8(%rsp)
	callq	"core::str::ascii::slice+u8::is_ascii"
	movq	16(%rsp), %rdi
	movq	8(%rsp), %rdx
	testb	%al, %al
	jne	.LBB59_26
	jmp	.LBB59_24
.LBB59_19:
	cmpq	%rbx, %rax
	jae	.LBB59_26
.LBB59_24:
	movzbl	%bpl, %eax
	movq	%rdi, %rbp
	movq	%r14, %rdi
	movq	%rbx, %rsi
	movq	%rdx, %rbx
	movl	%eax, %edx
	callq	"amqp_c::key::is_other_key"
	movq	%rbp, %rdi
	movq	%rbx, %rdx
	movl	%eax, %ecx
	movl	$-13, %eax
	testb	%cl, %cl
	jne	.LBB59_26
	jmp	.LBB59_28
.Lfunc_end59:
	.size	amqpv_close, .Lfunc_end59-amqpv_close

	.section	.text.amqpv_open,"ax",@progbits
	.globl	amqpv_open
	.p2align	4
	.type	amqpv_open,@function
amqpv_open:
	pushq	%rbp
	pushq	%r15
	pushq	%r14
	pushq	%r13
	pushq	%r12
	pushq	%rbx
	subq	$72, %rsp
	xorl	%ebx, %ebx
	testq	%rdi, %rdi
	sete	%r15b
	xorl	%r10d, %r10d
	testq	%rcx, %rcx
	sete	%r11b
	movq	(%rdx), %r13
	movq	%rsi, %r12
	movl	$-13, %eax
	subq	%r13, %r12
	jb	.LBB60_72
	movq	8(%rdx), %r14
	cmpq	%r14, %r12
	jb	.LBB60_72
	cmpb	$0, 17(%rdx)
	jne	.LBB60_72
	movb	%r11b, %r10b
	shll	$12, %r10d
	addq	%r10, %rcx
	movzbl	16(%rdx), %r12d
	movzbl	18(%rdx), %r11d
	cmpl	$65, %r12d
	je	.LBB60_39
	cmpl	$70, %r12d
	jne	.LBB60_72
	cmpq	$7, %r8
	ja	.LBB60_28
	testq	%r8, %r8
	je	.LBB60_40
	cmpb	$0, (%rcx)
	js	.LBB60_8
	cmpq	$1, %r8
	je	.LBB60_40
	cmpb	$0, 1(%rcx)
	js	.LBB60_11
	cmpq	$2, %r8
	je	.LBB60_40
	cmpb	$0, 2(%rcx)
	js	.LBB60_14
	cmpq	$3, %r8
	je	.LBB60_40
	cmpb	$0, 3(%rcx)
	js	.LBB60_17
	cmpq	$4, %r8
	je	.LBB60_40
	cmpb	$0, 4(%rcx)
	js	.LBB60_20
	cmpq	$5, %r8
	je	.LBB60_40
	cmpb	$0, 5(%rcx)
	js	.LBB60_23
	cmpq	$6, %r8
	je	.LBB60_40
	cmpb	$0, 6(%rcx)
	jns	.LBB60_40
	movl	$6, %eax
	jmp	.LBB60_27
.LBB60_39:
	movl	$-14, %eax
	testq	%r8, %r8
	jne	.LBB60_72
	jmp	.LBB60_40
.LBB60_28:
	cmpq	$16, %r8
	ja	.LBB60_31
	movabsq	$-9187201950435737472, %rax
	testq	%rax, (%rcx)
	jne	.LBB60_38
	testq	%rax, -8(%rcx,%r8)
	je	.LBB60_40
	jmp	.LBB60_38
.LBB60_31:
	cmpq	$255, %r8
	ja	.LBB60_38
	movq	%rcx, 48(%rsp)
	movq	%r8, 56(%rsp)
	cmpq	$64, %r8
	ja	.LBB60_37
	cmpq	$32, %r8
	jb	.LBB60_35
	movdqu	(%rcx), %xmm0
	movdqu	16(%rcx), %xmm1
	movdqu	-32(%rcx,%r8), %xmm2
	por	%xmm0, %xmm2
	movdqu	-16(%rcx,%r8), %xmm0
	por	%xmm1, %xmm0
	por	%xmm2, %xmm0
	pshufd	$238, %xmm0, %xmm1
	por	%xmm0, %xmm1
	movq	%xmm1, %rax
	jmp	.LBB60_36
.LBB60_8:
	xorl	%eax, %eax
	jmp	.LBB60_27
.LBB60_35:
	leaq	-8(%r8), %r10
	movq	8(%rcx), %rax
	orq	(%rcx), %rax
	cmpq	$16, %r10
	movl	%r11d, %ebp
	movl	$16, %r11d
	cmovbq	%r10, %r11
	orq	(%rcx,%r11), %rax
	movl	%ebp, %r11d
	orq	-8(%rcx,%r8), %rax
.LBB60_36:
	movabsq	$-9187201950435737472, %r10
	testq	%r10, %rax
	je	.LBB60_40
.LBB60_37:
	movb	%r11b, 7(%rsp)
	leaq	48(%rsp), %rax
	movq	%rdi, 32(%rsp)
	movq	%rax, %rdi
	movq	%rsi, 24(%rsp)
	movq	%r8, %rsi
	movq	%rdx, 8(%rsp)
	movl	%r9d, %ebp
	movq	%rcx, 64(%rsp)
	movq	%r8, 16(%rsp)
	callq	"core::slice::words::any_by_first::<#52f9edcae2f82f51>"
	movzbl	7(%rsp), %r11d
	movq	24(%rsp), %rsi
	movq	16(%rsp), %r8
	movq	64(%rsp), %rcx
	movq	32(%rsp), %rdi
	movl	%ebp, %r9d
	movq	8(%rsp), %rdx
	testb	%al, %al
	je	.LBB60_40
	jmp	.LBB60_38
.LBB60_11:
	movl	$1, %eax
	jmp	.LBB60_27
.LBB60_14:
	movl	$2, %eax
	jmp	.LBB60_27
.LBB60_17:
	movl	$3, %eax
	jmp	.LBB60_27
.LBB60_20:
	movl	$4, %eax
	jmp	.LBB60_27
.LBB60_23:
	movl	$5, %eax
.LBB60_27:
	cmpq	%r8, %rax
	jb	.LBB60_38
.LBB60_40:
	cmpb	$70, %r9b
	je	.LBB60_42
	movzbl	%r9b, %r10d
	movl	$-15, %eax
	cmpl	$65, %r10d
	jne	.LBB60_72
.LBB60_42:
	addq	%r13, %r14
	leaq	1(%r8), %rax
	xorl	%ebp, %ebp
	cmpl	$70, %r12d
	cmoveq	%rax, %rbp
	leaq	5(%rbp), %r13
	subq	%r14, %rsi
	cmpq	%r13, %rsi
	jae	.LBB60_43
	addq	%r14, %r13
	movq	%r13, 24(%rdx)
	movl	$-17, %eax
	jmp	.LBB60_72
.LBB60_43:
	movq	128(%rsp), %r10
	movb	%r15b, %bl
	shll	$12, %ebx
	addq	%rbx, %rdi
	cmpl	$70, %r12d
	jne	.LBB60_70
	movb	%r8b, (%rdi,%r14)
	leaq	1(%r14), %rsi
	cmpq	$7, %r8
	ja	.LBB60_65
	leaq	.LJTI60_0(%rip), %rax
	movslq	(%rax,%r8,4), %r8
	addq	%rax, %r8
	jmpq	*%r8
.LBB60_46:
	movzbl	(%rcx), %eax
	movb	%al, (%rdi,%rsi)
	jmp	.LBB60_70
.LBB60_38:
	movb	%r11b, 7(%rsp)
	movl	%r9d, 44(%rsp)
	movq	%r8, 16(%rsp)
	movq	%rdx, 8(%rsp)
	movq	%rsi, 24(%rsp)
	movq	%rdi, 32(%rsp)
	movzbl	%r11b, %edx
	movq	%rcx, %rdi
	movq	%r8, %rsi
	movq	%rcx, %rbp
	callq	"amqp_c::key::is_other_key"
	movzbl	7(%rsp), %r11d
	movq	24(%rsp), %rsi
	movq	16(%rsp), %r8
	movq	%rbp, %rcx
	movq	32(%rsp), %rdi
	movl	44(%rsp), %r9d
	movq	8(%rsp), %rdx
	movl	%eax, %r10d
	movl	$-14, %eax
	testb	%r10b, %r10b
	jne	.LBB60_40
	jmp	.LBB60_72
.LBB60_53:
	addq	%rdi, %rsi
	movq	%rsi, %rax
	subq	%rcx, %rax
	cmpq	$3, %rax
	ja	.LBB60_55
	movzbl	(%rcx), %eax
	movb	%al, (%rsi)
	movzbl	1(%rcx), %eax
	movb	%al, 1(%rsi)
	movzbl	2(%rcx), %eax
	movb	%al, 2(%rsi)
	movzbl	3(%rcx), %eax
	movb	%al, 3(%rsi)
	jmp	.LBB60_70
.LBB60_47:
	addq	%rdi, %rsi
	movq	%rsi, %rax
	subq	%rcx, %rax
	cmpq	$1, %rax
	ja	.LBB60_49
	movzbl	(%rcx), %eax
	movb	%al, (%rsi)
	movzbl	1(%rcx), %eax
	movb	%al, 1(%rsi)
	jmp	.LBB60_70
.LBB60_50:
	addq	%rdi, %rsi
	movq	%rsi, %rax
	subq	%rcx, %rax
	cmpq	$2, %rax
	ja	.LBB60_52
	movzbl	(%rcx), %eax
	movb	%al, (%rsi)
	movzbl	1(%rcx), %eax
	movb	%al, 1(%rsi)
	movzbl	2(%rcx), %eax
	movb	%al, 2(%rsi)
	jmp	.LBB60_70
.LBB60_62:
	addq	%rdi, %rsi
	movq	%rsi, %rax
	subq	%rcx, %rax
	cmpq	$6, %rax
	ja	.LBB60_64
	movzbl	(%rcx), %eax
	movb	%al, (%rsi)
	movzbl	1(%rcx), %eax
	movb	%al, 1(%rsi)
	movzbl	2(%rcx), %eax
	movb	%al, 2(%rsi)
	movzbl	3(%rcx), %eax
	movb	%al, 3(%rsi)
	movzbl	4(%rcx), %eax
	movb	%al, 4(%rsi)
	movzbl	5(%rcx), %eax
	movb	%al, 5(%rsi)
	movzbl	6(%rcx), %eax
	movb	%al, 6(%rsi)
	jmp	.LBB60_70
.LBB60_56:
	addq	%rdi, %rsi
	movq	%rsi, %rax
	subq	%rcx, %rax
	cmpq	$4, %rax
	ja	.LBB60_58
	movzbl	(%rcx), %eax
	movb	%al, (%rsi)
	movzbl	1(%rcx), %eax
	movb	%al, 1(%rsi)
	movzbl	2(%rcx), %eax
	movb	%al, 2(%rsi)
	movzbl	3(%rcx), %eax
	movb	%al, 3(%rsi)
	movzbl	4(%rcx), %eax
	movb	%al, 4(%rsi)
	jmp	.LBB60_70
.LBB60_59:
	addq	%rdi, %rsi
	movq	%rsi, %rax
	subq	%rcx, %rax
	cmpq	$5, %rax
	ja	.LBB60_61
	movzbl	(%rcx), %eax
	movb	%al, (%rsi)
	movzbl	1(%rcx), %eax
	movb	%al, 1(%rsi)
	movzbl	2(%rcx), %eax
	movb	%al, 2(%rsi)
	movzbl	3(%rcx), %eax
	movb	%al, 3(%rsi)
	movzbl	4(%rcx), %eax
	movb	%al, 4(%rsi)
	movzbl	5(%rcx), %eax
	movb	%al, 5(%rsi)
	jmp	.LBB60_70
.LBB60_65:
	cmpq	$16, %r8
	ja	.LBB60_67
	movq	(%rcx), %rax
	movq	-8(%rcx,%r8), %rcx
	movq	%r10, %rbx
	leaq	(%rdi,%rsi), %r10
	movq	%rax, (%rdi,%rsi)
	movq	%rcx, -8(%r8,%r10)
	movq	%rbx, %r10
	jmp	.LBB60_70
.LBB60_55:
	movl	(%rcx), %eax
	movl	%eax, (%rsi)
	jmp	.LBB60_70
.LBB60_49:
	movzwl	(%rcx), %eax
	movw	%ax, (%rsi)
	jmp	.LBB60_70
.LBB60_52:
	movzwl	(%rcx), %eax
	movzbl	2(%rcx), %ecx
	movb	%cl, 2(%rsi)
	movw	%ax, (%rsi)
	jmp	.LBB60_70
.LBB60_64:
	movl	(%rcx), %eax
	movzwl	4(%rcx), %r8d
	movzbl	6(%rcx), %ecx
	movb	%cl, 6(%rsi)
	movw	%r8w, 4(%rsi)
	movl	%eax, (%rsi)
	jmp	.LBB60_70
.LBB60_58:
	movl	(%rcx), %eax
	movzbl	4(%rcx), %ecx
	movb	%cl, 4(%rsi)
	movl	%eax, (%rsi)
	jmp	.LBB60_70
.LBB60_61:
	movl	(%rcx), %eax
	movzwl	4(%rcx), %ecx
	movw	%cx, 4(%rsi)
	movl	%eax, (%rsi)
	jmp	.LBB60_70
.LBB60_67:
	cmpq	$32, %r8
	ja	.LBB60_69
	movups	-16(%rcx,%r8), %xmm0
	movaps	%xmm0, 48(%rsp)
	leaq	(%rdi,%rsi), %rax
	movups	(%rcx), %xmm0
	movups	%xmm0, (%rdi,%rsi)
	movdqa	48(%rsp), %xmm0
	movdqu	%xmm0, -16(%r8,%rax)
	jmp	.LBB60_70
.LBB60_69:
	movq	%rdi, %rbx
	movq	%rdx, 8(%rsp)
	movq	%rcx, %rdx
	movq	%r8, %rcx
	movl	%r9d, %r12d
	movl	%r11d, %r15d
	callq	"amqp_c::buffer::write_long"
	movq	128(%rsp), %r10
	movl	%r15d, %r11d
	movq	%rbx, %rdi
	movl	%r12d, %r9d
	movq	8(%rsp), %rdx
.LBB60_70:
	addq	%r14, %rdi
	movb	%r9b, (%rbp,%rdi)
	movl	$0, 1(%rbp,%rdi)
	addq	%r14, %r13
	movq	%r13, (%r10)
	movq	$0, 8(%r10)
	movb	%r9b, 16(%r10)
	movb	$0, 17(%r10)
	movb	%r11b, 18(%r10)
	movq	$0, 19(%r10)
	movq	$0, 24(%r10)
	movb	$1, 17(%rdx)
	xorl	%eax, %eax
.LBB60_72:
	addq	$72, %rsp
	popq	%rbx
	popq	%r12
	popq	%r13
	popq	%r14
	popq	%r15
	popq	%rbp
	retq
.Lfunc_end60:
	.size	amqpv_open, .Lfunc_end60-amqpv_open
	.section	.rodata.amqpv_open,"a",@progbits
	.p2align	2, 0x0
.LJTI60_0:
	.long	.LBB60_70-.LJTI60_0
	.long	.LBB60_46-.LJTI60_0
	.long	.LBB60_47-.LJTI60_0
	.long	.LBB60_50-.LJTI60_0
	.long	.LBB60_53-.LJTI60_0
	.long	.LBB60_56-.LJTI60_0
	.long	.LBB60_59-.LJTI60_0
	.long	.LBB60_62-.LJTI60_0

	.section	.text.amqpv_put_bytes,"ax",@progbits
	.globl	amqpv_put_bytes
	.p2align	4
	.type	amqpv_put_bytes,@function
amqpv_put_bytes:
	pushq	%rbp
	pushq	%r15
	pushq	%r14
	pushq	%r13
	pushq	%r12
	pushq	%rbx
	subq	$88, %rsp
	xorl	%r15d, %r15d
	testq	%rdi, %rdi
	sete	%bpl
	xorl	%r10d, %r10d
	testq	%rcx, %rcx
	sete	%r11b
	cmpq	$0, 144(%rsp)
	sete	%r14b
	movq	(%rdx), %rbx
	movq	%rsi, %r13
	movl	$-13, %eax
	movq	%rbx, 80(%rsp)
	subq	%rbx, %r13
	jb	.LBB61_98
	movq	8(%rdx), %r12
	movq	%r12, 72(%rsp)
	cmpq	%r12, %r13
	jb	.LBB61_98
	cmpb	$0, 17(%rdx)
	jne	.LBB61_98
	movb	%r11b, %r10b
	shll	$12, %r10d
	addq	%r10, %rcx
	movzbl	16(%rdx), %r13d
	cmpl	$65, %r13d
	je	.LBB61_21
	cmpl	$70, %r13d
	jne	.LBB61_98
	movzbl	18(%rdx), %ebx
	cmpq	$7, %r8
	ja	.LBB61_22
	testq	%r8, %r8
	je	.LBB61_39
	cmpb	$0, (%rcx)
	js	.LBB61_29
	cmpq	$1, %r8
	je	.LBB61_39
	cmpb	$0, 1(%rcx)
	js	.LBB61_33
	cmpq	$2, %r8
	je	.LBB61_39
	cmpb	$0, 2(%rcx)
	js	.LBB61_34
	cmpq	$3, %r8
	je	.LBB61_39
	cmpb	$0, 3(%rcx)
	js	.LBB61_35
	cmpq	$4, %r8
	je	.LBB61_39
	cmpb	$0, 4(%rcx)
	js	.LBB61_36
	cmpq	$5, %r8
	je	.LBB61_39
	cmpb	$0, 5(%rcx)
	js	.LBB61_37
	cmpq	$6, %r8
	je	.LBB61_39
	cmpb	$0, 6(%rcx)
	jns	.LBB61_39
	movl	$6, %eax
	jmp	.LBB61_38
.LBB61_21:
	movl	$-14, %eax
	testq	%r8, %r8
	jne	.LBB61_98
	jmp	.LBB61_39
.LBB61_22:
	cmpq	$16, %r8
	ja	.LBB61_25
	movabsq	$-9187201950435737472, %rax
	testq	%rax, (%rcx)
	jne	.LBB61_48
	testq	%rax, -8(%rcx,%r8)
	je	.LBB61_39
	jmp	.LBB61_48
.LBB61_25:
	cmpq	$255, %r8
	ja	.LBB61_48
	movq	%rcx, 48(%rsp)
	movq	%r8, 56(%rsp)
	cmpq	$64, %r8
	ja	.LBB61_32
	cmpq	$32, %r8
	jb	.LBB61_30
	movdqu	(%rcx), %xmm0
	movdqu	16(%rcx), %xmm1
	movdqu	-32(%rcx,%r8), %xmm2
	por	%xmm0, %xmm2
	movdqu	-16(%rcx,%r8), %xmm0
	por	%xmm1, %xmm0
	por	%xmm2, %xmm0
	pshufd	$238, %xmm0, %xmm1
	por	%xmm0, %xmm1
	movq	%xmm1, %rax
	jmp	.LBB61_31
.LBB61_29:
	xorl	%eax, %eax
	jmp	.LBB61_38
.LBB61_30:
	leaq	-8(%r8), %r10
	movq	8(%rcx), %rax
	orq	(%rcx), %rax
	cmpq	$16, %r10
	movl	$16, %r11d
	cmovbq	%r10, %r11
	orq	(%rcx,%r11), %rax
	orq	-8(%rcx,%r8), %rax
.LBB61_31:
	movabsq	$-9187201950435737472, %r10
	testq	%r10, %rax
	je	.LBB61_39
.LBB61_32:
	leaq	48(%rsp), %rax
	movq	%rdi, 8(%rsp)
	movq	%rax, %rdi
	movq	%rsi, 16(%rsp)
	movq	%r8, %rsi
	movq	%rdx, 40(%rsp)
	movl	%r9d, 4(%rsp)
	movq	%rcx, 32(%rsp)
	movq	%r8, 24(%rsp)
	callq	"core::slice::words::any_by_first::<#52f9edcae2f82f51>"
	movq	16(%rsp), %rsi
	movq	24(%rsp), %r8
	movq	32(%rsp), %rcx
	movl	4(%rsp), %r9d
	movq	8(%rsp), %rdi
	movq	40(%rsp), %rdx
	testb	%al, %al
	je	.LBB61_39
	jmp	.LBB61_48
.LBB61_33:
	movl	$1, %eax
	jmp	.LBB61_38
.LBB61_34:
	movl	$2, %eax
	jmp	.LBB61_38
.LBB61_35:
	movl	$3, %eax
	jmp	.LBB61_38
.LBB61_36:
	movl	$4, %eax
	jmp	.LBB61_38
.LBB61_37:
	movl	$5, %eax
.LBB61_38:
	cmpq	%r8, %rax
	jb	.LBB61_48
.LBB61_39:
	cmpb	$120, %r9b
	je	.LBB61_41
	movzbl	%r9b, %r10d
	movl	$-15, %eax
	cmpl	$83, %r10d
	jne	.LBB61_98
.LBB61_41:
	movq	152(%rsp), %rbx
	movq	%rbx, %rax
	shrq	$32, %rax
	movl	$-8, %eax
	jne	.LBB61_98
	leaq	1(%r8), %rax
	xorl	%r11d, %r11d
	cmpl	$70, %r13d
	cmoveq	%rax, %r11
	movq	72(%rsp), %rax
	movq	80(%rsp), %r10
	addq	%rax, %r10
	leaq	(%rbx,%r11), %r12
	addq	$5, %r12
	subq	%r10, %rsi
	cmpq	%r12, %rsi
	jae	.LBB61_44
	addq	%r10, %r12
	movq	%r12, 24(%rdx)
	movl	$-17, %eax
	jmp	.LBB61_98
.LBB61_44:
	movq	%r11, 16(%rsp)
	movb	%bpl, %r15b
	shll	$12, %r15d
	addq	%r15, %rdi
	xorl	%r11d, %r11d
	movb	%r14b, %r11b
	shll	$12, %r11d
	movq	%rbx, %rax
	shrq	$24, %rax
	movl	%ebx, %ebp
	andl	$16777215, %ebp
	bswapl	%ebp
	orl	%eax, %ebp
	cmpl	$70, %r13d
	jne	.LBB61_72
	movb	%r8b, (%rdi,%r10)
	leaq	1(%r10), %rsi
	cmpq	$7, %r8
	ja	.LBB61_61
	leaq	.LJTI61_0(%rip), %rax
	movslq	(%rax,%r8,4), %r8
	addq	%rax, %r8
	jmpq	*%r8
.LBB61_47:
	movzbl	(%rcx), %eax
	movb	%al, (%rdi,%rsi)
	jmp	.LBB61_72
.LBB61_48:
	movq	%rcx, 32(%rsp)
	movq	%r8, 24(%rsp)
	movl	%r9d, 4(%rsp)
	movq	%rdx, 40(%rsp)
	movq	%rsi, 16(%rsp)
	movq	%rdi, 8(%rsp)
	movzbl	%bl, %edx
	movq	%rcx, %rdi
	movq	%r8, %rsi
	callq	"amqp_c::key::is_other_key"
	movq	16(%rsp), %rsi
	movq	24(%rsp), %r8
	movq	32(%rsp), %rcx
	movl	4(%rsp), %r9d
	movq	8(%rsp), %rdi
	movq	40(%rsp), %rdx
	movl	%eax, %r10d
	movl	$-14, %eax
	testb	%r10b, %r10b
	jne	.LBB61_39
	jmp	.LBB61_98
.LBB61_49:
	addq	%rdi, %rsi
	movq	%rsi, %rax
	subq	%rcx, %rax
	cmpq	$3, %rax
	ja	.LBB61_63
	movzbl	(%rcx), %eax
	movb	%al, (%rsi)
	movzbl	1(%rcx), %eax
	movb	%al, 1(%rsi)
	movzbl	2(%rcx), %eax
	movb	%al, 2(%rsi)
	movzbl	3(%rcx), %eax
	movb	%al, 3(%rsi)
	jmp	.LBB61_72
.LBB61_51:
	addq	%rdi, %rsi
	movq	%rsi, %rax
	subq	%rcx, %rax
	cmpq	$1, %rax
	ja	.LBB61_64
	movzbl	(%rcx), %eax
	movb	%al, (%rsi)
	movzbl	1(%rcx), %eax
	movb	%al, 1(%rsi)
	jmp	.LBB61_72
.LBB61_53:
	addq	%rdi, %rsi
	movq	%rsi, %rax
	subq	%rcx, %rax
	cmpq	$2, %rax
	ja	.LBB61_65
	movzbl	(%rcx), %eax
	movb	%al, (%rsi)
	movzbl	1(%rcx), %eax
	movb	%al, 1(%rsi)
	movzbl	2(%rcx), %eax
	movb	%al, 2(%rsi)
	jmp	.LBB61_72
.LBB61_55:
	addq	%rdi, %rsi
	movq	%rsi, %rax
	subq	%rcx, %rax
	cmpq	$6, %rax
	ja	.LBB61_66
	movzbl	(%rcx), %eax
	movb	%al, (%rsi)
	movzbl	1(%rcx), %eax
	movb	%al, 1(%rsi)
	movzbl	2(%rcx), %eax
	movb	%al, 2(%rsi)
	movzbl	3(%rcx), %eax
	movb	%al, 3(%rsi)
	movzbl	4(%rcx), %eax
	movb	%al, 4(%rsi)
	movzbl	5(%rcx), %eax
	movb	%al, 5(%rsi)
	movzbl	6(%rcx), %eax
	movb	%al, 6(%rsi)
	jmp	.LBB61_72
.LBB61_57:
	addq	%rdi, %rsi
	movq	%rsi, %rax
	subq	%rcx, %rax
	cmpq	$4, %rax
	ja	.LBB61_67
	movzbl	(%rcx), %eax
	movb	%al, (%rsi)
	movzbl	1(%rcx), %eax
	movb	%al, 1(%rsi)
	movzbl	2(%rcx), %eax
	movb	%al, 2(%rsi)
	movzbl	3(%rcx), %eax
	movb	%al, 3(%rsi)
	movzbl	4(%rcx), %eax
	movb	%al, 4(%rsi)
	jmp	.LBB61_72
.LBB61_59:
	addq	%rdi, %rsi
	movq	%rsi, %rax
	subq	%rcx, %rax
	cmpq	$5, %rax
	ja	.LBB61_68
	movzbl	(%rcx), %eax
	movb	%al, (%rsi)
	movzbl	1(%rcx), %eax
	movb	%al, 1(%rsi)
	movzbl	2(%rcx), %eax
	movb	%al, 2(%rsi)
	movzbl	3(%rcx), %eax
	movb	%al, 3(%rsi)
	movzbl	4(%rcx), %eax
	movb	%al, 4(%rsi)
	movzbl	5(%rcx), %eax
	movb	%al, 5(%rsi)
	jmp	.LBB61_72
.LBB61_61:
	cmpq	$16, %r8
	ja	.LBB61_69
	movq	(%rcx), %rax
	movq	-8(%rcx,%r8), %rcx
	movq	%r10, %r14
	leaq	(%rdi,%rsi), %r10
	movq	%rax, (%rdi,%rsi)
	movq	%rcx, -8(%r8,%r10)
	movq	%r14, %r10
	jmp	.LBB61_72
.LBB61_63:
	movl	(%rcx), %eax
	movl	%eax, (%rsi)
	jmp	.LBB61_72
.LBB61_64:
	movzwl	(%rcx), %eax
	movw	%ax, (%rsi)
	jmp	.LBB61_72
.LBB61_65:
	movzwl	(%rcx), %eax
	movzbl	2(%rcx), %ecx
	movb	%cl, 2(%rsi)
	movw	%ax, (%rsi)
	jmp	.LBB61_72
.LBB61_66:
	movl	(%rcx), %eax
	movzwl	4(%rcx), %r8d
	movzbl	6(%rcx), %ecx
	movb	%cl, 6(%rsi)
	movw	%r8w, 4(%rsi)
	movl	%eax, (%rsi)
	jmp	.LBB61_72
.LBB61_67:
	movl	(%rcx), %eax
	movzbl	4(%rcx), %ecx
	movb	%cl, 4(%rsi)
	movl	%eax, (%rsi)
	jmp	.LBB61_72
.LBB61_68:
	movl	(%rcx), %eax
	movzwl	4(%rcx), %ecx
	movw	%cx, 4(%rsi)
	movl	%eax, (%rsi)
	jmp	.LBB61_72
.LBB61_69:
	cmpq	$32, %r8
	ja	.LBB61_71
	movups	-16(%rcx,%r8), %xmm0
	movaps	%xmm0, 48(%rsp)
	leaq	(%rdi,%rsi), %rax
	movups	(%rcx), %xmm0
	movups	%xmm0, (%rdi,%rsi)
	movdqa	48(%rsp), %xmm0
	movdqu	%xmm0, -16(%r8,%rax)
	jmp	.LBB61_72
.LBB61_71:
	movq	%rdi, 8(%rsp)
	movq	8(%rsp), %rdi
	movq	%r11, %rbx
	movq	%rdx, %r14
	movq	%rcx, %rdx
	movq	%r8, %rcx
	movl	%r9d, %r15d
	movq	%r10, %r13
	callq	"amqp_c::buffer::write_long"
	movq	%r13, %r10
	movl	%r15d, %r9d
	movq	8(%rsp), %rdi
	movq	%r14, %rdx
	movq	%rbx, %r11
	movq	152(%rsp), %rbx
.LBB61_72:
	movq	144(%rsp), %r8
	addq	%r11, %r8
	movq	16(%rsp), %rcx
	leaq	(%rcx,%r10), %rax
	movb	%r9b, (%rdi,%rax)
	movl	%ebp, 1(%rdi,%rax)
	leaq	(%rcx,%r10), %rsi
	addq	$5, %rsi
	cmpl	$7, %ebx
	ja	.LBB61_87
	movl	%ebx, %eax
	leaq	.LJTI61_1(%rip), %rcx
	movslq	(%rcx,%rax,4), %rax
	addq	%rcx, %rax
	jmpq	*%rax
.LBB61_74:
	movzbl	(%r8), %eax
	movb	%al, (%rdi,%rsi)
	jmp	.LBB61_97
.LBB61_75:
	addq	%rsi, %rdi
	movq	%rdi, %rax
	subq	%r8, %rax
	cmpq	$3, %rax
	ja	.LBB61_89
	movzbl	(%r8), %eax
	movb	%al, (%rdi)
	movzbl	1(%r8), %eax
	movb	%al, 1(%rdi)
	movzbl	2(%r8), %eax
	movb	%al, 2(%rdi)
	movzbl	3(%r8), %eax
	movb	%al, 3(%rdi)
	jmp	.LBB61_97
.LBB61_77:
	addq	%rsi, %rdi
	movq	%rdi, %rax
	subq	%r8, %rax
	cmpq	$1, %rax
	ja	.LBB61_90
	movzbl	(%r8), %eax
	movb	%al, (%rdi)
	movzbl	1(%r8), %eax
	movb	%al, 1(%rdi)
	jmp	.LBB61_97
.LBB61_79:
	addq	%rsi, %rdi
	movq	%rdi, %rax
	subq	%r8, %rax
	cmpq	$2, %rax
	ja	.LBB61_91
	movzbl	(%r8), %eax
	movb	%al, (%rdi)
	movzbl	1(%r8), %eax
	movb	%al, 1(%rdi)
	movzbl	2(%r8), %eax
	movb	%al, 2(%rdi)
	jmp	.LBB61_97
.LBB61_81:
	addq	%rsi, %rdi
	movq	%rdi, %rax
	subq	%r8, %rax
	cmpq	$6, %rax
	ja	.LBB61_92
	movzbl	(%r8), %eax
	movb	%al, (%rdi)
	movzbl	1(%r8), %eax
	movb	%al, 1(%rdi)
	movzbl	2(%r8), %eax
	movb	%al, 2(%rdi)
	movzbl	3(%r8), %eax
	movb	%al, 3(%rdi)
	movzbl	4(%r8), %eax
	movb	%al, 4(%rdi)
	movzbl	5(%r8), %eax
	movb	%al, 5(%rdi)
	movzbl	6(%r8), %eax
	movb	%al, 6(%rdi)
	jmp	.LBB61_97
.LBB61_83:
	addq	%rsi, %rdi
	movq	%rdi, %rax
	subq	%r8, %rax
	cmpq	$4, %rax
	ja	.LBB61_93
	movzbl	(%r8), %eax
	movb	%al, (%rdi)
	movzbl	1(%r8), %eax
	movb	%al, 1(%rdi)
	movzbl	2(%r8), %eax
	movb	%al, 2(%rdi)
	movzbl	3(%r8), %eax
	movb	%al, 3(%rdi)
	movzbl	4(%r8), %eax
	movb	%al, 4(%rdi)
	jmp	.LBB61_97
.LBB61_85:
	addq	%rsi, %rdi
	movq	%rdi, %rax
	subq	%r8, %rax
	cmpq	$5, %rax
	ja	.LBB61_94
	movzbl	(%r8), %eax
	movb	%al, (%rdi)
	movzbl	1(%r8), %eax
	movb	%al, 1(%rdi)
	movzbl	2(%r8), %eax
	movb	%al, 2(%rdi)
	movzbl	3(%r8), %eax
	movb	%al, 3(%rdi)
	movzbl	4(%r8), %eax
	movb	%al, 4(%rdi)
	movzbl	5(%r8), %eax
	movb	%al, 5(%rdi)
	jmp	.LBB61_97
.LBB61_87:
	cmpq	$16, %rbx
	ja	.LBB61_99
	movq	(%r8), %rax
	movq	-8(%r8,%rbx), %rcx
	leaq	(%rdi,%rsi), %r8
	movq	%rax, (%rdi,%rsi)
	movq	%rcx, -8(%rbx,%r8)
	jmp	.LBB61_97
.LBB61_89:
	movl	(%r8), %eax
	jmp	.LBB61_96
.LBB61_90:
	movzwl	(%r8), %eax
	movw	%ax, (%rdi)
	jmp	.LBB61_97
.LBB61_91:
	movzwl	(%r8), %eax
	movzbl	2(%r8), %ecx
	movb	%cl, 2(%rdi)
	movw	%ax, (%rdi)
	jmp	.LBB61_97
.LBB61_92:
	movl	(%r8), %eax
	movzwl	4(%r8), %ecx
	movzbl	6(%r8), %esi
	movb	%sil, 6(%rdi)
	jmp	.LBB61_95
.LBB61_93:
	movl	(%r8), %eax
	movzbl	4(%r8), %ecx
	movb	%cl, 4(%rdi)
	jmp	.LBB61_96
.LBB61_94:
	movl	(%r8), %eax
	movzwl	4(%r8), %ecx
.LBB61_95:
	movw	%cx, 4(%rdi)
.LBB61_96:
	movl	%eax, (%rdi)
.LBB61_97:
	addq	72(%rsp), %r12
	movq	80(%rsp), %rax
	movq	%rax, (%rdx)
	movq	%r12, 8(%rdx)
	xorl	%eax, %eax
.LBB61_98:
	addq	$88, %rsp
	popq	%rbx
	popq	%r12
	popq	%r13
	popq	%r14
	popq	%r15
	popq	%rbp
	retq
.LBB61_99:
	cmpq	$32, %rbx
	ja	.LBB61_101
	movups	-16(%r8,%rbx), %xmm0
	movaps	%xmm0, 48(%rsp)
	leaq	(%rdi,%rsi), %rax
	movups	(%r8), %xmm0
	movups	%xmm0, (%rdi,%rsi)
	movdqa	48(%rsp), %xmm0
	movdqu	%xmm0, -16(%rbx,%rax)
	jmp	.LBB61_97
.LBB61_101:
	movq	%rdx, %r14
	movq	%r8, %rdx
	movq	%rbx, %rcx
	callq	"amqp_c::buffer::write_long"
	movq	%r14, %rdx
	jmp	.LBB61_97
.Lfunc_end61:
	.size	amqpv_put_bytes, .Lfunc_end61-amqpv_put_bytes
	.section	.rodata.amqpv_put_bytes,"a",@progbits
	.p2align	2, 0x0
.LJTI61_0:
	.long	.LBB61_72-.LJTI61_0
	.long	.LBB61_47-.LJTI61_0
	.long	.LBB61_51-.LJTI61_0
	.long	.LBB61_53-.LJTI61_0
	.long	.LBB61_49-.LJTI61_0
	.long	.LBB61_57-.LJTI61_0
	.long	.LBB61_59-.LJTI61_0
	.long	.LBB61_55-.LJTI61_0
.LJTI61_1:
	.long	.LBB61_97-.LJTI61_1
	.long	.LBB61_74-.LJTI61_1
	.long	.LBB61_77-.LJTI61_1
	.long	.LBB61_79-.LJTI61_1
	.long	.LBB61_75-.LJTI61_1
	.long	.LBB61_83-.LJTI61_1
	.long	.LBB61_85-.LJTI61_1
	.long	.LBB61_81-.LJTI61_1

	.section	.text.amqpv_put,"ax",@progbits
	.globl	amqpv_put
	.p2align	4
	.type	amqpv_put,@function
amqpv_put:
	pushq	%rbp
	pushq	%r15
	pushq	%r14
	pushq	%r13
	pushq	%r12
	pushq	%rbx
	subq	$72, %rsp
	testq	%rdi, %rdi
	sete	%r15b
	xorl	%r10d, %r10d
	testq	%rcx, %rcx
	sete	%r11b
	movq	(%rdx), %r14
	movq	%rsi, %rbx
	movl	$-13, %eax
	subq	%r14, %rbx
	jb	.LBB62_113
	movq	8(%rdx), %rbp
	cmpq	%rbp, %rbx
	jb	.LBB62_113
	cmpb	$0, 17(%rdx)
	jne	.LBB62_113
	movb	%r11b, %r10b
	shll	$12, %r10d
	addq	%r10, %rcx
	movzbl	16(%rdx), %r13d
	cmpl	$65, %r13d
	je	.LBB62_39
	cmpl	$70, %r13d
	jne	.LBB62_113
	movzbl	18(%rdx), %ebx
	cmpq	$7, %r8
	ja	.LBB62_28
	testq	%r8, %r8
	je	.LBB62_40
	cmpb	$0, (%rcx)
	js	.LBB62_8
	cmpq	$1, %r8
	je	.LBB62_40
	cmpb	$0, 1(%rcx)
	js	.LBB62_11
	cmpq	$2, %r8
	je	.LBB62_40
	cmpb	$0, 2(%rcx)
	js	.LBB62_14
	cmpq	$3, %r8
	je	.LBB62_40
	cmpb	$0, 3(%rcx)
	js	.LBB62_17
	cmpq	$4, %r8
	je	.LBB62_40
	cmpb	$0, 4(%rcx)
	js	.LBB62_20
	cmpq	$5, %r8
	je	.LBB62_40
	cmpb	$0, 5(%rcx)
	js	.LBB62_23
	cmpq	$6, %r8
	je	.LBB62_40
	cmpb	$0, 6(%rcx)
	jns	.LBB62_40
	movl	$6, %eax
	jmp	.LBB62_27
.LBB62_39:
	movl	$-14, %eax
	testq	%r8, %r8
	jne	.LBB62_113
	jmp	.LBB62_40
.LBB62_28:
	cmpq	$16, %r8
	ja	.LBB62_31
	movabsq	$-9187201950435737472, %rax
	testq	%rax, (%rcx)
	jne	.LBB62_38
	testq	%rax, -8(%rcx,%r8)
	je	.LBB62_40
	jmp	.LBB62_38
.LBB62_31:
	cmpq	$255, %r8
	ja	.LBB62_38
	movq	%rcx, 48(%rsp)
	movq	%r8, 56(%rsp)
	cmpq	$64, %r8
	ja	.LBB62_37
	cmpq	$32, %r8
	jb	.LBB62_35
	movdqu	(%rcx), %xmm0
	movdqu	16(%rcx), %xmm1
	movdqu	-32(%rcx,%r8), %xmm2
	por	%xmm0, %xmm2
	movdqu	-16(%rcx,%r8), %xmm0
	por	%xmm1, %xmm0
	por	%xmm2, %xmm0
	pshufd	$238, %xmm0, %xmm1
	por	%xmm0, %xmm1
	movq	%xmm1, %rax
	jmp	.LBB62_36
.LBB62_8:
	xorl	%eax, %eax
	jmp	.LBB62_27
.LBB62_35:
	leaq	-8(%r8), %r10
	movq	8(%rcx), %rax
	orq	(%rcx), %rax
	cmpq	$16, %r10
	movl	$16, %r11d
	cmovbq	%r10, %r11
	orq	(%rcx,%r11), %rax
	orq	-8(%rcx,%r8), %rax
.LBB62_36:
	movabsq	$-9187201950435737472, %r10
	testq	%r10, %rax
	je	.LBB62_40
.LBB62_37:
	leaq	48(%rsp), %rax
	movq	%rdi, 32(%rsp)
	movq	%rax, %rdi
	movq	%rsi, 24(%rsp)
	movq	%r8, %rsi
	movq	%rbp, 40(%rsp)
	movq	%rdx, %rbp
	movb	%r15b, 16(%rsp)
	movq	%rcx, %r15
	movb	%bl, 8(%rsp)
	movq	%r8, %rbx
	movl	%r9d, %r12d
	callq	"core::slice::words::any_by_first::<#52f9edcae2f82f51>"
	movl	%r12d, %r9d
	movq	24(%rsp), %rsi
	movq	%rbx, %r8
	movzbl	8(%rsp), %ebx
	movq	%r15, %rcx
	movzbl	16(%rsp), %r15d
	movq	32(%rsp), %rdi
	movq	%rbp, %rdx
	movq	40(%rsp), %rbp
	testb	%al, %al
	je	.LBB62_40
	jmp	.LBB62_38
.LBB62_11:
	movl	$1, %eax
	jmp	.LBB62_27
.LBB62_14:
	movl	$2, %eax
	jmp	.LBB62_27
.LBB62_17:
	movl	$3, %eax
	jmp	.LBB62_27
.LBB62_20:
	movl	$4, %eax
	jmp	.LBB62_27
.LBB62_23:
	movl	$5, %eax
.LBB62_27:
	cmpq	%r8, %rax
	jb	.LBB62_38
.LBB62_40:
	movb	%r15b, 16(%rsp)
	movzbl	136(%rsp), %eax
	movq	128(%rsp), %r12
	leaq	5(%rsp), %r10
	movq	%r10, 8(%rsp)
	testb	%al, %al
	je	.LBB62_44
	cmpb	$68, %r9b
	jne	.LBB62_109
	movq	%r12, %r10
	shrq	$32, %r10
	jne	.LBB62_109
	movzbl	%r12b, %r9d
	shlq	$32, %r9
	movl	%r12d, %r10d
	shll	$16, %r10d
	andl	$-16777216, %r10d
	movl	%r12d, %r11d
	andl	$16711680, %r11d
	orq	%r10, %r11
	orq	%r9, %r11
	shrl	$16, %r12d
	andl	$65280, %r12d
	orq	%r11, %r12
	movzbl	%al, %eax
	orq	%rax, %r12
.LBB62_54:
	movl	$5, %r9d
	movb	$68, %r10b
.LBB62_70:
	movq	%rbp, 40(%rsp)
	leaq	(%r14,%rbp), %r15
	leaq	1(%r8), %rax
	xorl	%ebx, %ebx
	cmpl	$70, %r13d
	cmoveq	%rax, %rbx
	movq	%r12, (%rsp)
	leaq	(%rbx,%r9), %rbp
	incq	%rbp
	subq	%r15, %rsi
	cmpq	%rbp, %rsi
	jae	.LBB62_71
	addq	%r15, %rbp
	movq	%rbp, 24(%rdx)
	movl	$-17, %eax
	jmp	.LBB62_113
.LBB62_71:
	xorl	%eax, %eax
	movzbl	16(%rsp), %esi
	movb	%sil, %al
	shll	$12, %eax
	addq	%rax, %rdi
	cmpl	$70, %r13d
	jne	.LBB62_98
	movb	%r8b, (%rdi,%r15)
	leaq	1(%r15), %rsi
	cmpq	$7, %r8
	ja	.LBB62_93
	leaq	.LJTI62_1(%rip), %rax
	movslq	(%rax,%r8,4), %r8
	addq	%rax, %r8
	jmpq	*%r8
.LBB62_74:
	movzbl	(%rcx), %eax
	movb	%al, (%rdi,%rsi)
	jmp	.LBB62_98
.LBB62_44:
	movzbl	%r9b, %r15d
	addl	$-66, %r15d
	cmpl	$51, %r15d
	ja	.LBB62_109
	leaq	1(%rsp), %r11
	leaq	2(%rsp), %r10
	leaq	8(%rsp), %rbx
	leaq	.LJTI62_0(%rip), %rax
	movslq	(%rax,%r15,4), %r15
	addq	%rax, %r15
	jmpq	*%r15
.LBB62_48:
	cmpq	$256, %r12
	jae	.LBB62_109
	movl	$1, %r9d
	movb	$66, %r10b
	movq	%r11, 8(%rsp)
	jmp	.LBB62_70
.LBB62_38:
	movb	%r15b, 16(%rsp)
	movq	%rbp, 40(%rsp)
	movq	%rsi, 24(%rsp)
	movq	%rdi, 32(%rsp)
	movzbl	%bl, %eax
	movq	%rcx, %rdi
	movq	%r8, %rsi
	movq	%rdx, %r12
	movl	%eax, %edx
	movq	%rcx, %rbp
	movq	%r8, %r15
	movl	%r9d, %ebx
	callq	"amqp_c::key::is_other_key"
	movl	%ebx, %r9d
	movq	24(%rsp), %rsi
	movq	%r15, %r8
	movzbl	16(%rsp), %r15d
	movq	%rbp, %rcx
	movq	40(%rsp), %rbp
	movq	32(%rsp), %rdi
	movq	%r12, %rdx
	movl	%eax, %r10d
	movl	$-14, %eax
	testb	%r10b, %r10b
	jne	.LBB62_40
	jmp	.LBB62_113
.LBB62_56:
	movswq	%r12w, %rax
	cmpq	%r12, %rax
	jne	.LBB62_109
	rolw	$8, %r12w
	movzwl	%r12w, %r12d
	movl	$2, %r9d
	movq	%r10, 8(%rsp)
	movb	$115, %r10b
	jmp	.LBB62_70
.LBB62_60:
	movslq	%r12d, %r10
	cmpq	%r12, %r10
	jne	.LBB62_109
	bswapl	%r12d
	movl	$4, %r9d
	movb	$73, %r10b
	jmp	.LBB62_62
.LBB62_52:
	movq	%r12, %rax
	shrq	$32, %rax
	jne	.LBB62_109
	movzbl	%r12b, %eax
	shlq	$32, %rax
	movl	%r12d, %r9d
	shll	$16, %r9d
	andl	$-16777216, %r9d
	movl	%r12d, %r10d
	andl	$16711680, %r10d
	orq	%r9, %r10
	orq	%rax, %r10
	shrl	$16, %r12d
	andl	$65280, %r12d
	orq	%r10, %r12
	jmp	.LBB62_54
.LBB62_58:
	cmpq	$65536, %r12
	jae	.LBB62_109
	movq	%r12, %rax
	shrq	$8, %rax
	shll	$8, %r12d
	movzwl	%r12w, %r12d
	orq	%rax, %r12
	movl	$2, %r9d
	movq	%r10, 8(%rsp)
	movb	$117, %r10b
	jmp	.LBB62_70
.LBB62_68:
	testq	%r12, %r12
	jne	.LBB62_109
	movq	%rsp, %rax
	movq	%rax, 8(%rsp)
	movb	$86, %r10b
	xorl	%r12d, %r12d
	xorl	%r9d, %r9d
	jmp	.LBB62_70
.LBB62_65:
	movq	%r12, %r10
	shrq	$32, %r10
	jne	.LBB62_109
	movq	%r12, %r9
	shrq	$24, %r9
	andl	$16777215, %r12d
	bswapl	%r12d
	orl	%r9d, %r12d
	movl	$4, %r9d
	movb	$102, %r10b
	jmp	.LBB62_62
.LBB62_51:
	bswapq	%r12
	movl	$8, %r9d
	movb	$84, %r10b
	movq	%rbx, 8(%rsp)
	jmp	.LBB62_70
.LBB62_46:
	cmpq	$2, %r12
	jae	.LBB62_109
	movl	$1, %r9d
	movb	$116, %r10b
	movq	%r11, 8(%rsp)
	jmp	.LBB62_70
.LBB62_50:
	bswapq	%r12
	movl	$8, %r9d
	movb	$100, %r10b
	movq	%rbx, 8(%rsp)
	jmp	.LBB62_70
.LBB62_108:
	movsbq	%r12b, %rax
	cmpq	%r12, %rax
	jne	.LBB62_109
	movzbl	%r12b, %r12d
	movl	$1, %r9d
	movb	$98, %r10b
	movq	%r11, 8(%rsp)
	jmp	.LBB62_70
.LBB62_63:
	movq	%r12, %r10
	shrq	$32, %r10
	jne	.LBB62_109
	movq	%r12, %r9
	shrq	$24, %r9
	andl	$16777215, %r12d
	bswapl	%r12d
	orl	%r9d, %r12d
	movl	$4, %r9d
	movb	$105, %r10b
.LBB62_62:
	leaq	4(%rsp), %rax
	movq	%rax, 8(%rsp)
	jmp	.LBB62_70
.LBB62_109:
	movzbl	%r9b, %edi
	callq	"amqp_c::number::is_scalar_tag"
	movzbl	%al, %eax
	xorl	$-15, %eax
	jmp	.LBB62_113
.LBB62_67:
	bswapq	%r12
	movl	$8, %r9d
	movb	$108, %r10b
	movq	%rbx, 8(%rsp)
	jmp	.LBB62_70
.LBB62_81:
	addq	%rdi, %rsi
	movq	%rsi, %rax
	subq	%rcx, %rax
	cmpq	$3, %rax
	ja	.LBB62_83
	movzbl	(%rcx), %eax
	movb	%al, (%rsi)
	movzbl	1(%rcx), %eax
	movb	%al, 1(%rsi)
	movzbl	2(%rcx), %eax
	movb	%al, 2(%rsi)
	movzbl	3(%rcx), %eax
	movb	%al, 3(%rsi)
	jmp	.LBB62_98
.LBB62_75:
	addq	%rdi, %rsi
	movq	%rsi, %rax
	subq	%rcx, %rax
	cmpq	$1, %rax
	ja	.LBB62_77
	movzbl	(%rcx), %eax
	movb	%al, (%rsi)
	movzbl	1(%rcx), %eax
	movb	%al, 1(%rsi)
	jmp	.LBB62_98
.LBB62_78:
	addq	%rdi, %rsi
	movq	%rsi, %rax
	subq	%rcx, %rax
	cmpq	$2, %rax
	ja	.LBB62_80
	movzbl	(%rcx), %eax
	movb	%al, (%rsi)
	movzbl	1(%rcx), %eax
	movb	%al, 1(%rsi)
	movzbl	2(%rcx), %eax
	movb	%al, 2(%rsi)
	jmp	.LBB62_98
.LBB62_90:
	addq	%rdi, %rsi
	movq	%rsi, %rax
	subq	%rcx, %rax
	cmpq	$6, %rax
	ja	.LBB62_92
	movzbl	(%rcx), %eax
	movb	%al, (%rsi)
	movzbl	1(%rcx), %eax
	movb	%al, 1(%rsi)
	movzbl	2(%rcx), %eax
	movb	%al, 2(%rsi)
	movzbl	3(%rcx), %eax
	movb	%al, 3(%rsi)
	movzbl	4(%rcx), %eax
	movb	%al, 4(%rsi)
	movzbl	5(%rcx), %eax
	movb	%al, 5(%rsi)
	movzbl	6(%rcx), %eax
	movb	%al, 6(%rsi)
	jmp	.LBB62_98
.LBB62_84:
	addq	%rdi, %rsi
	movq	%rsi, %rax
	subq	%rcx, %rax
	cmpq	$4, %rax
	ja	.LBB62_86
	movzbl	(%rcx), %eax
	movb	%al, (%rsi)
	movzbl	1(%rcx), %eax
	movb	%al, 1(%rsi)
	movzbl	2(%rcx), %eax
	movb	%al, 2(%rsi)
	movzbl	3(%rcx), %eax
	movb	%al, 3(%rsi)
	movzbl	4(%rcx), %eax
	movb	%al, 4(%rsi)
	jmp	.LBB62_98
.LBB62_87:
	addq	%rdi, %rsi
	movq	%rsi, %rax
	subq	%rcx, %rax
	cmpq	$5, %rax
	ja	.LBB62_89
	movzbl	(%rcx), %eax
	movb	%al, (%rsi)
	movzbl	1(%rcx), %eax
	movb	%al, 1(%rsi)
	movzbl	2(%rcx), %eax
	movb	%al, 2(%rsi)
	movzbl	3(%rcx), %eax
	movb	%al, 3(%rsi)
	movzbl	4(%rcx), %eax
	movb	%al, 4(%rsi)
	movzbl	5(%rcx), %eax
	movb	%al, 5(%rsi)
	jmp	.LBB62_98
.LBB62_93:
	cmpq	$16, %r8
	ja	.LBB62_95
	movq	(%rcx), %rax
	movq	-8(%rcx,%r8), %rcx
	movl	%r10d, %r11d
	movq	%r9, %r10
	leaq	(%rdi,%rsi), %r9
	movq	%rax, (%rdi,%rsi)
	movq	%rcx, -8(%r8,%r9)
	movq	%r10, %r9
	movl	%r11d, %r10d
	jmp	.LBB62_98
.LBB62_83:
	movl	(%rcx), %eax
	movl	%eax, (%rsi)
	jmp	.LBB62_98
.LBB62_77:
	movzwl	(%rcx), %eax
	movw	%ax, (%rsi)
	jmp	.LBB62_98
.LBB62_80:
	movzwl	(%rcx), %eax
	movzbl	2(%rcx), %ecx
	movb	%cl, 2(%rsi)
	movw	%ax, (%rsi)
	jmp	.LBB62_98
.LBB62_92:
	movl	(%rcx), %eax
	movzwl	4(%rcx), %r8d
	movzbl	6(%rcx), %ecx
	movb	%cl, 6(%rsi)
	movw	%r8w, 4(%rsi)
	movl	%eax, (%rsi)
	jmp	.LBB62_98
.LBB62_86:
	movl	(%rcx), %eax
	movzbl	4(%rcx), %ecx
	movb	%cl, 4(%rsi)
	movl	%eax, (%rsi)
	jmp	.LBB62_98
.LBB62_89:
	movl	(%rcx), %eax
	movzwl	4(%rcx), %ecx
	movw	%cx, 4(%rsi)
	movl	%eax, (%rsi)
	jmp	.LBB62_98
.LBB62_95:
	cmpq	$32, %r8
	ja	.LBB62_97
	movups	-16(%rcx,%r8), %xmm0
	movaps	%xmm0, 48(%rsp)
	leaq	(%rdi,%rsi), %rax
	movups	(%rcx), %xmm0
	movups	%xmm0, (%rdi,%rsi)
	movdqa	48(%rsp), %xmm0
	movdqu	%xmm0, -16(%r8,%rax)
	jmp	.LBB62_98
.LBB62_97:
	movq	%rdi, %r13
	movq	%rdx, 16(%rsp)
	movq	%rcx, %rdx
	movq	%r8, %rcx
	movq	%r9, 32(%rsp)
	movb	%r10b, 24(%rsp)
	callq	"amqp_c::buffer::write_long"
	movzbl	24(%rsp), %r10d
	movq	32(%rsp), %r9
	movq	%r13, %rdi
	movq	16(%rsp), %rdx
.LBB62_98:
	leaq	(%rbx,%r15), %rax
	movb	%r10b, (%rdi,%rax)
	leaq	(%rbx,%r15), %rax
	incq	%rax
	cmpq	$7, %r9
	ja	.LBB62_107
	leaq	.LJTI62_2(%rip), %rcx
	movslq	(%rcx,%r9,4), %rsi
	addq	%rcx, %rsi
	jmpq	*%rsi
.LBB62_110:
	movb	%r12b, (%rdi,%rax)
	jmp	.LBB62_111
.LBB62_102:
	movl	%r12d, (%rdi,%rax)
	jmp	.LBB62_111
.LBB62_100:
	movw	%r12w, (%rdi,%rax)
	jmp	.LBB62_111
.LBB62_101:
	movzbl	2(%rsp), %ecx
	movb	%cl, 2(%rdi,%rax)
	movzwl	(%rsp), %ecx
	movw	%cx, (%rdi,%rax)
	jmp	.LBB62_111
.LBB62_106:
	movl	(%rsp), %ecx
	movl	3(%rsp), %esi
	movl	%esi, 3(%rdi,%rax)
	movl	%ecx, (%rdi,%rax)
	jmp	.LBB62_111
.LBB62_103:
	movzbl	4(%rsp), %ecx
	movb	%cl, 4(%rdi,%rax)
	jmp	.LBB62_104
.LBB62_105:
	movzwl	4(%rsp), %ecx
	movw	%cx, 4(%rdi,%rax)
.LBB62_104:
	movl	(%rsp), %ecx
	movl	%ecx, (%rdi,%rax)
	jmp	.LBB62_111
.LBB62_107:
	movq	8(%rsp), %rcx
	movq	-8(%rcx), %rcx
	leaq	(%rdi,%rax), %rsi
	movq	%r12, (%rdi,%rax)
	movq	%rcx, -8(%r9,%rsi)
.LBB62_111:
	addq	40(%rsp), %rbp
	movq	%r14, (%rdx)
	movq	%rbp, 8(%rdx)
	xorl	%eax, %eax
.LBB62_113:
	addq	$72, %rsp
	popq	%rbx
	popq	%r12
	popq	%r13
	popq	%r14
	popq	%r15
	popq	%rbp
	retq
.Lfunc_end62:
	.size	amqpv_put, .Lfunc_end62-amqpv_put
	.section	.rodata.amqpv_put,"a",@progbits
	.p2align	2, 0x0
.LJTI62_0:
	.long	.LBB62_48-.LJTI62_0
	.long	.LBB62_109-.LJTI62_0
	.long	.LBB62_52-.LJTI62_0
	.long	.LBB62_109-.LJTI62_0
	.long	.LBB62_109-.LJTI62_0
	.long	.LBB62_109-.LJTI62_0
	.long	.LBB62_109-.LJTI62_0
	.long	.LBB62_60-.LJTI62_0
	.long	.LBB62_109-.LJTI62_0
	.long	.LBB62_109-.LJTI62_0
	.long	.LBB62_109-.LJTI62_0
	.long	.LBB62_109-.LJTI62_0
	.long	.LBB62_109-.LJTI62_0
	.long	.LBB62_109-.LJTI62_0
	.long	.LBB62_109-.LJTI62_0
	.long	.LBB62_109-.LJTI62_0
	.long	.LBB62_109-.LJTI62_0
	.long	.LBB62_109-.LJTI62_0
	.long	.LBB62_51-.LJTI62_0
	.long	.LBB62_109-.LJTI62_0
	.long	.LBB62_68-.LJTI62_0
	.long	.LBB62_109-.LJTI62_0
	.long	.LBB62_109-.LJTI62_0
	.long	.LBB62_109-.LJTI62_0
	.long	.LBB62_109-.LJTI62_0
	.long	.LBB62_109-.LJTI62_0
	.long	.LBB62_109-.LJTI62_0
	.long	.LBB62_109-.LJTI62_0
	.long	.LBB62_109-.LJTI62_0
	.long	.LBB62_109-.LJTI62_0
	.long	.LBB62_109-.LJTI62_0
	.long	.LBB62_109-.LJTI62_0
	.long	.LBB62_108-.LJTI62_0
	.long	.LBB62_109-.LJTI62_0
	.long	.LBB62_50-.LJTI62_0
	.long	.LBB62_109-.LJTI62_0
	.long	.LBB62_65-.LJTI62_0
	.long	.LBB62_109-.LJTI62_0
	.long	.LBB62_109-.LJTI62_0
	.long	.LBB62_63-.LJTI62_0
	.long	.LBB62_109-.LJTI62_0
	.long	.LBB62_109-.LJTI62_0
	.long	.LBB62_67-.LJTI62_0
	.long	.LBB62_109-.LJTI62_0
	.long	.LBB62_109-.LJTI62_0
	.long	.LBB62_109-.LJTI62_0
	.long	.LBB62_109-.LJTI62_0
	.long	.LBB62_109-.LJTI62_0
	.long	.LBB62_109-.LJTI62_0
	.long	.LBB62_56-.LJTI62_0
	.long	.LBB62_46-.LJTI62_0
	.long	.LBB62_58-.LJTI62_0
.LJTI62_1:
	.long	.LBB62_98-.LJTI62_1
	.long	.LBB62_74-.LJTI62_1
	.long	.LBB62_75-.LJTI62_1
	.long	.LBB62_78-.LJTI62_1
	.long	.LBB62_81-.LJTI62_1
	.long	.LBB62_84-.LJTI62_1
	.long	.LBB62_87-.LJTI62_1
	.long	.LBB62_90-.LJTI62_1
.LJTI62_2:
	.long	.LBB62_111-.LJTI62_2
	.long	.LBB62_110-.LJTI62_2
	.long	.LBB62_100-.LJTI62_2
	.long	.LBB62_101-.LJTI62_2
	.long	.LBB62_102-.LJTI62_2
	.long	.LBB62_103-.LJTI62_2
	.long	.LBB62_105-.LJTI62_2
	.long	.LBB62_106-.LJTI62_2

	.section	.text.amqpv_put_value,"ax",@progbits
	.globl	amqpv_put_value
	.p2align	4
	.type	amqpv_put_value,@function
amqpv_put_value:
	pushq	%rbp
	pushq	%r15
	pushq	%r14
	pushq	%r13
	pushq	%r12
	pushq	%rbx
	subq	$136, %rsp
	testq	%rdi, %rdi
	sete	%bl
	xorl	%r11d, %r11d
	testq	%rcx, %rcx
	sete	%bpl
	movl	24(%r9), %r10d
	movl	$-13, %eax
	cmpl	$31, %r10d
	ja	.LBB63_61
	movb	%bl, 48(%rsp)
	movl	%r10d, %eax
	shrb	%al
	andb	$1, %al
	testb	$4, %r10b
	movzbl	%al, %eax
	movl	$2, %r12d
	cmovel	%eax, %r12d
	movq	(%rdx), %r15
	movq	8(%rdx), %rbx
	movzbl	16(%rdx), %eax
	movl	%eax, 24(%rsp)
	movzbl	17(%rdx), %eax
	movzbl	18(%rdx), %r10d
	movb	%r10b, 7(%rsp)
	xorps	%xmm0, %xmm0
	movaps	%xmm0, 112(%rsp)
	movaps	%xmm0, 96(%rsp)
	movaps	%xmm0, 80(%rsp)
	movq	%rsi, %r14
	movb	$12, %r10b
	movq	%r15, 56(%rsp)
	subq	%r15, %r14
	jb	.LBB63_60
	cmpq	%rbx, %r14
	jb	.LBB63_60
	testb	%al, %al
	jne	.LBB63_60
	movq	%rbx, %r15
	movb	%bpl, %r11b
	shll	$12, %r11d
	addq	%r11, %rcx
	movl	24(%rsp), %eax
	cmpl	$65, %eax
	je	.LBB63_22
	cmpl	$70, %eax
	jne	.LBB63_60
	cmpq	$7, %r8
	ja	.LBB63_23
	testq	%r8, %r8
	je	.LBB63_35
	cmpb	$0, (%rcx)
	js	.LBB63_28
	cmpq	$1, %r8
	je	.LBB63_35
	cmpb	$0, 1(%rcx)
	js	.LBB63_29
	cmpq	$2, %r8
	je	.LBB63_35
	cmpb	$0, 2(%rcx)
	js	.LBB63_30
	cmpq	$3, %r8
	je	.LBB63_35
	cmpb	$0, 3(%rcx)
	js	.LBB63_31
	cmpq	$4, %r8
	je	.LBB63_35
	cmpb	$0, 4(%rcx)
	js	.LBB63_32
	cmpq	$5, %r8
	je	.LBB63_35
	cmpb	$0, 5(%rcx)
	js	.LBB63_33
	cmpq	$6, %r8
	je	.LBB63_35
	cmpb	$0, 6(%rcx)
	jns	.LBB63_35
	movl	$6, %eax
	jmp	.LBB63_34
.LBB63_22:
	movb	$13, %r10b
	testq	%r8, %r8
	jne	.LBB63_60
	jmp	.LBB63_35
.LBB63_23:
	cmpq	$16, %r8
	ja	.LBB63_26
	movabsq	$-9187201950435737472, %rax
	testq	%rax, (%rcx)
	jne	.LBB63_50
	testq	%rax, -8(%rcx,%r8)
	je	.LBB63_35
	jmp	.LBB63_50
.LBB63_26:
	cmpq	$255, %r8
	ja	.LBB63_50
	movq	%rdi, 16(%rsp)
	movq	%rcx, %rdi
	movq	%rsi, 32(%rsp)
	movq	%r8, %rsi
	movq	%rdx, 8(%rsp)
	movq	%rcx, %r14
	movq	%r8, 40(%rsp)
	movq	%r9, %rbp
	callq	"core::str::ascii::slice+u8::is_ascii"
	movq	%rbp, %r9
	movq	32(%rsp), %rsi
	movq	40(%rsp), %r8
	movq	%r14, %rcx
	movq	16(%rsp), %rdi
	movq	8(%rsp), %rdx
	testb	%al, %al
	jne	.LBB63_35
	jmp	.LBB63_50
.LBB63_28:
	xorl	%eax, %eax
	jmp	.LBB63_34
.LBB63_29:
	movl	$1, %eax
	jmp	.LBB63_34
.LBB63_30:
	movl	$2, %eax
	jmp	.LBB63_34
.LBB63_31:
	movl	$3, %eax
	jmp	.LBB63_34
.LBB63_32:
	movl	$4, %eax
	jmp	.LBB63_34
.LBB63_33:
	movl	$5, %eax
.LBB63_34:
	cmpq	%r8, %rax
	jb	.LBB63_50
.LBB63_35:
	movq	%r8, 40(%rsp)
	movq	%rsi, 32(%rsp)
	movq	%rdx, 8(%rsp)
	movq	%rcx, %r13
	movq	%rdi, %rbp
	movzbl	%r12b, %edx
	leaq	80(%rsp), %rdi
	movq	%r9, %r12
	movq	%r9, %rsi
	callq	"amqp_c::input::Input::read_error"
	cmpb	$1, 80(%rsp)
	jne	.LBB63_38
	movzbl	88(%rsp), %r10d
	cmpb	$16, %r10b
	movq	8(%rsp), %r8
	jne	.LBB63_60
	movq	96(%rsp), %r13
	jmp	.LBB63_59
.LBB63_38:
	movq	56(%rsp), %rax
	leaq	(%r15,%rax), %r10
	movl	24(%r12), %r11d
	movq	(%r12), %r14
	movq	8(%r12), %rax
	andq	$1, %r11
	leaq	.Lstatic.23(%rip), %rcx
	leaq	.Lstatic.0(%rip), %rsi
	cmoveq	%rcx, %rsi
	movq	8(%rsp), %r8
	je	.LBB63_43
	cmpq	$-1, %rax
	movq	%rbp, %rdi
	movq	%r13, %rdx
	movq	40(%rsp), %rcx
	je	.LBB63_49
	movl	$5, %ebx
	cmpq	$4, %rax
	jb	.LBB63_57
	movl	(%r14), %ebx
.LBB63_42:
	bswapl	%ebx
	addq	$5, %rbx
	jmp	.LBB63_57
.LBB63_43:
	testq	%rax, %rax
	movq	%rbp, %rdi
	movq	%r13, %rdx
	movq	40(%rsp), %rcx
	je	.LBB63_49
	movzbl	(%r14), %r9d
	xorl	%ebx, %ebx
	addl	$-65, %r9d
	cmpl	$55, %r9d
	ja	.LBB63_57
	movq	%r10, %r12
	leaq	.LJTI63_0(%rip), %r10
	movslq	(%r10,%r9,4), %r9
	addq	%r10, %r9
	movq	%r12, %r10
	jmpq	*%r9
.LBB63_46:
	movl	$5, %ebx
	cmpq	$5, %rax
	jb	.LBB63_57
	movl	1(%r14), %ebx
	jmp	.LBB63_42
.LBB63_49:
	xorl	%ebx, %ebx
.LBB63_57:
	leaq	1(%rcx), %rax
	xorl	%r12d, %r12d
	movl	24(%rsp), %ebp
	cmpl	$70, %ebp
	cmoveq	%rax, %r12
	leaq	(%rbx,%r12), %r13
	movq	32(%rsp), %rax
	subq	%r10, %rax
	cmpq	%r13, %rax
	jae	.LBB63_62
	addq	%r10, %r13
.LBB63_59:
	movq	%r13, 24(%r8)
	movb	$16, %r10b
.LBB63_60:
	movzbl	%r10b, %eax
	notl	%eax
.LBB63_61:
	addq	$136, %rsp
	popq	%rbx
	popq	%r12
	popq	%r13
	popq	%r14
	popq	%r15
	popq	%rbp
	retq
.LBB63_62:
	xorl	%eax, %eax
	movzbl	48(%rsp), %r9d
	movb	%r9b, %al
	shll	$12, %eax
	addq	%rax, %rdi
	cmpl	$70, %ebp
	jne	.LBB63_89
	movb	%cl, (%rdi,%r10)
	leaq	1(%r10), %rax
	cmpq	$7, %rcx
	ja	.LBB63_78
	leaq	.LJTI63_1(%rip), %r9
	movslq	(%r9,%rcx,4), %rcx
	addq	%r9, %rcx
	jmpq	*%rcx
.LBB63_65:
	movzbl	(%rdx), %ecx
	movb	%cl, (%rdi,%rax)
	jmp	.LBB63_89
.LBB63_50:
	movq	%rdx, 8(%rsp)
	movq	%rsi, 32(%rsp)
	movq	%rdi, 16(%rsp)
	movzbl	7(%rsp), %edx
	movq	%rcx, %rdi
	movq	%r8, %rsi
	movq	%rcx, %r14
	movq	%r8, %rbp
	movq	%r9, %r13
	callq	"amqp_c::key::is_other_key"
	movq	%r13, %r9
	movq	32(%rsp), %rsi
	movq	%rbp, %r8
	movq	%r14, %rcx
	movq	16(%rsp), %rdi
	movq	8(%rsp), %rdx
	movb	$13, %r10b
	testb	%al, %al
	jne	.LBB63_35
	jmp	.LBB63_60
.LBB63_51:
	movl	$9, %ebx
	jmp	.LBB63_57
.LBB63_52:
	movl	$3, %ebx
	jmp	.LBB63_57
.LBB63_53:
	movl	$5, %ebx
	jmp	.LBB63_57
.LBB63_54:
	movl	$2, %ebx
	jmp	.LBB63_57
.LBB63_66:
	addq	%rdi, %rax
	movq	%rax, %rcx
	subq	%rdx, %rcx
	cmpq	$3, %rcx
	ja	.LBB63_80
	movzbl	(%rdx), %ecx
	movb	%cl, (%rax)
	movzbl	1(%rdx), %ecx
	movb	%cl, 1(%rax)
	movzbl	2(%rdx), %ecx
	movb	%cl, 2(%rax)
	movzbl	3(%rdx), %ecx
	movb	%cl, 3(%rax)
	jmp	.LBB63_89
.LBB63_68:
	addq	%rdi, %rax
	movq	%rax, %rcx
	subq	%rdx, %rcx
	cmpq	$1, %rcx
	ja	.LBB63_81
	movzbl	(%rdx), %ecx
	movb	%cl, (%rax)
	movzbl	1(%rdx), %ecx
	movb	%cl, 1(%rax)
	jmp	.LBB63_89
.LBB63_70:
	addq	%rdi, %rax
	movq	%rax, %rcx
	subq	%rdx, %rcx
	cmpq	$2, %rcx
	ja	.LBB63_82
	movzbl	(%rdx), %ecx
	movb	%cl, (%rax)
	movzbl	1(%rdx), %ecx
	movb	%cl, 1(%rax)
	movzbl	2(%rdx), %ecx
	movb	%cl, 2(%rax)
	jmp	.LBB63_89
.LBB63_72:
	addq	%rdi, %rax
	movq	%rax, %rcx
	subq	%rdx, %rcx
	cmpq	$6, %rcx
	ja	.LBB63_83
	movzbl	(%rdx), %ecx
	movb	%cl, (%rax)
	movzbl	1(%rdx), %ecx
	movb	%cl, 1(%rax)
	movzbl	2(%rdx), %ecx
	movb	%cl, 2(%rax)
	movzbl	3(%rdx), %ecx
	movb	%cl, 3(%rax)
	movzbl	4(%rdx), %ecx
	movb	%cl, 4(%rax)
	movzbl	5(%rdx), %ecx
	movb	%cl, 5(%rax)
	movzbl	6(%rdx), %ecx
	movb	%cl, 6(%rax)
	jmp	.LBB63_89
.LBB63_74:
	addq	%rdi, %rax
	movq	%rax, %rcx
	subq	%rdx, %rcx
	cmpq	$4, %rcx
	ja	.LBB63_84
	movzbl	(%rdx), %ecx
	movb	%cl, (%rax)
	movzbl	1(%rdx), %ecx
	movb	%cl, 1(%rax)
	movzbl	2(%rdx), %ecx
	movb	%cl, 2(%rax)
	movzbl	3(%rdx), %ecx
	movb	%cl, 3(%rax)
	movzbl	4(%rdx), %ecx
	movb	%cl, 4(%rax)
	jmp	.LBB63_89
.LBB63_76:
	addq	%rdi, %rax
	movq	%rax, %rcx
	subq	%rdx, %rcx
	cmpq	$5, %rcx
	ja	.LBB63_85
	movzbl	(%rdx), %ecx
	movb	%cl, (%rax)
	movzbl	1(%rdx), %ecx
	movb	%cl, 1(%rax)
	movzbl	2(%rdx), %ecx
	movb	%cl, 2(%rax)
	movzbl	3(%rdx), %ecx
	movb	%cl, 3(%rax)
	movzbl	4(%rdx), %ecx
	movb	%cl, 4(%rax)
	movzbl	5(%rdx), %ecx
	movb	%cl, 5(%rax)
	jmp	.LBB63_89
.LBB63_78:
	cmpq	$16, %rcx
	ja	.LBB63_86
	movq	(%rdx), %r9
	movq	-8(%rdx,%rcx), %rdx
	movq	%r10, %rbp
	leaq	(%rdi,%rax), %r10
	movq	%r9, (%rdi,%rax)
	movq	%rdx, -8(%rcx,%r10)
	movq	%rbp, %r10
	jmp	.LBB63_89
.LBB63_80:
	movl	(%rdx), %ecx
	movl	%ecx, (%rax)
	jmp	.LBB63_89
.LBB63_81:
	movzwl	(%rdx), %ecx
	movw	%cx, (%rax)
	jmp	.LBB63_89
.LBB63_82:
	movzwl	(%rdx), %ecx
	movzbl	2(%rdx), %edx
	movb	%dl, 2(%rax)
	movw	%cx, (%rax)
	jmp	.LBB63_89
.LBB63_83:
	movl	(%rdx), %ecx
	movzwl	4(%rdx), %r9d
	movzbl	6(%rdx), %edx
	movb	%dl, 6(%rax)
	movw	%r9w, 4(%rax)
	movl	%ecx, (%rax)
	jmp	.LBB63_89
.LBB63_84:
	movl	(%rdx), %ecx
	movzbl	4(%rdx), %edx
	movb	%dl, 4(%rax)
	movl	%ecx, (%rax)
	jmp	.LBB63_89
.LBB63_85:
	movl	(%rdx), %ecx
	movzwl	4(%rdx), %edx
	movw	%dx, 4(%rax)
	movl	%ecx, (%rax)
	jmp	.LBB63_89
.LBB63_86:
	cmpq	$32, %rcx
	ja	.LBB63_88
	movups	-16(%rdx,%rcx), %xmm0
	movaps	%xmm0, 64(%rsp)
	leaq	(%rdi,%rax), %r9
	movups	(%rdx), %xmm0
	movups	%xmm0, (%rdi,%rax)
	movaps	64(%rsp), %xmm0
	movups	%xmm0, -16(%rcx,%r9)
	jmp	.LBB63_89
.LBB63_55:
	movl	$6, %ebx
	jmp	.LBB63_57
.LBB63_56:
	movl	$1, %ebx
	jmp	.LBB63_57
.LBB63_88:
	movq	%rdi, 16(%rsp)
	movq	16(%rsp), %rdi
	movq	%r14, 24(%rsp)
	movq	%rbx, 48(%rsp)
	movq	%rsi, %rbx
	movq	%rax, %rsi
	movq	%r11, %rbp
	movq	%r10, %r14
	callq	"amqp_c::buffer::write_long"
	movq	%r14, %r10
	movq	%rbp, %r11
	movq	%rbx, %rsi
	movq	48(%rsp), %rbx
	movq	24(%rsp), %r14
	movq	16(%rsp), %rdi
	movq	8(%rsp), %r8
.LBB63_89:
	subq	%r11, %rbx
	addq	%r10, %r12
	leaq	(%rdi,%r12), %rax
	movq	%rax, %rcx
	subq	%rsi, %rcx
	cmpq	%r11, %rcx
	jae	.LBB63_91
	movzbl	(%rsi), %ecx
	movb	%cl, (%rax)
	jmp	.LBB63_92
.LBB63_91:
	movq	%r15, 24(%rsp)
	movq	%r13, %r15
	movq	%r14, %r13
	movq	%rbx, %r14
	movq	%rdi, %rbx
	movq	%rax, %rdi
	movq	%r11, %rdx
	movq	%r11, %rbp
	callq	memcpy@PLT
	movq	%rbp, %r11
	movq	%rbx, %rdi
	movq	%r14, %rbx
	movq	%r13, %r14
	movq	%r15, %r13
	movq	24(%rsp), %r15
	movq	8(%rsp), %r8
.LBB63_92:
	addq	%r11, %r12
	cmpq	$7, %rbx
	ja	.LBB63_107
	leaq	.LJTI63_2(%rip), %rax
	movslq	(%rax,%rbx,4), %rcx
	addq	%rax, %rcx
	jmpq	*%rcx
.LBB63_94:
	movzbl	(%r14), %eax
	movb	%al, (%rdi,%r12)
	jmp	.LBB63_118
.LBB63_95:
	addq	%r12, %rdi
	movq	%rdi, %rax
	subq	%r14, %rax
	cmpq	$3, %rax
	ja	.LBB63_110
	movzbl	(%r14), %eax
	movb	%al, (%rdi)
	movzbl	1(%r14), %eax
	movb	%al, 1(%rdi)
	movzbl	2(%r14), %eax
	movb	%al, 2(%rdi)
	movzbl	3(%r14), %eax
	movb	%al, 3(%rdi)
	jmp	.LBB63_118
.LBB63_97:
	addq	%r12, %rdi
	movq	%rdi, %rax
	subq	%r14, %rax
	cmpq	$1, %rax
	ja	.LBB63_111
	movzbl	(%r14), %eax
	movb	%al, (%rdi)
	movzbl	1(%r14), %eax
	movb	%al, 1(%rdi)
	jmp	.LBB63_118
.LBB63_99:
	addq	%r12, %rdi
	movq	%rdi, %rax
	subq	%r14, %rax
	cmpq	$2, %rax
	ja	.LBB63_112
	movzbl	(%r14), %eax
	movb	%al, (%rdi)
	movzbl	1(%r14), %eax
	movb	%al, 1(%rdi)
	movzbl	2(%r14), %eax
	movb	%al, 2(%rdi)
	jmp	.LBB63_118
.LBB63_101:
	addq	%r12, %rdi
	movq	%rdi, %rax
	subq	%r14, %rax
	cmpq	$6, %rax
	ja	.LBB63_113
	movzbl	(%r14), %eax
	movb	%al, (%rdi)
	movzbl	1(%r14), %eax
	movb	%al, 1(%rdi)
	movzbl	2(%r14), %eax
	movb	%al, 2(%rdi)
	movzbl	3(%r14), %eax
	movb	%al, 3(%rdi)
	movzbl	4(%r14), %eax
	movb	%al, 4(%rdi)
	movzbl	5(%r14), %eax
	movb	%al, 5(%rdi)
	movzbl	6(%r14), %eax
	movb	%al, 6(%rdi)
	jmp	.LBB63_118
.LBB63_103:
	addq	%r12, %rdi
	movq	%rdi, %rax
	subq	%r14, %rax
	cmpq	$4, %rax
	ja	.LBB63_114
	movzbl	(%r14), %eax
	movb	%al, (%rdi)
	movzbl	1(%r14), %eax
	movb	%al, 1(%rdi)
	movzbl	2(%r14), %eax
	movb	%al, 2(%rdi)
	movzbl	3(%r14), %eax
	movb	%al, 3(%rdi)
	movzbl	4(%r14), %eax
	movb	%al, 4(%rdi)
	jmp	.LBB63_118
.LBB63_105:
	addq	%r12, %rdi
	movq	%rdi, %rax
	subq	%r14, %rax
	cmpq	$5, %rax
	ja	.LBB63_115
	movzbl	(%r14), %eax
	movb	%al, (%rdi)
	movzbl	1(%r14), %eax
	movb	%al, 1(%rdi)
	movzbl	2(%r14), %eax
	movb	%al, 2(%rdi)
	movzbl	3(%r14), %eax
	movb	%al, 3(%rdi)
	movzbl	4(%r14), %eax
	movb	%al, 4(%rdi)
	movzbl	5(%r14), %eax
	movb	%al, 5(%rdi)
	jmp	.LBB63_118
.LBB63_107:
	cmpq	$16, %rbx
	ja	.LBB63_119
	cmpq	$7, %rbx
	jbe	.LBB63_122
	movq	(%r14), %rax
	movq	-8(%r14,%rbx), %rcx
	leaq	(%rdi,%r12), %rdx
	movq	%rax, (%rdi,%r12)
	movq	%rcx, -8(%rbx,%rdx)
	jmp	.LBB63_118
.LBB63_110:
	movl	(%r14), %eax
	jmp	.LBB63_117
.LBB63_111:
	movzwl	(%r14), %eax
	movw	%ax, (%rdi)
	jmp	.LBB63_118
.LBB63_112:
	movzwl	(%r14), %eax
	movzbl	2(%r14), %ecx
	movb	%cl, 2(%rdi)
	movw	%ax, (%rdi)
	jmp	.LBB63_118
.LBB63_113:
	movl	(%r14), %eax
	movzwl	4(%r14), %ecx
	movzbl	6(%r14), %edx
	movb	%dl, 6(%rdi)
	jmp	.LBB63_116
.LBB63_114:
	movl	(%r14), %eax
	movzbl	4(%r14), %ecx
	movb	%cl, 4(%rdi)
	jmp	.LBB63_117
.LBB63_115:
	movl	(%r14), %eax
	movzwl	4(%r14), %ecx
.LBB63_116:
	movw	%cx, 4(%rdi)
.LBB63_117:
	movl	%eax, (%rdi)
.LBB63_118:
	addq	%r15, %r13
	movq	56(%rsp), %rax
	movq	%rax, (%r8)
	movq	%r13, 8(%r8)
	xorl	%eax, %eax
	jmp	.LBB63_61
.LBB63_119:
	cmpq	$32, %rbx
	ja	.LBB63_121
	movups	-16(%r14,%rbx), %xmm0
	movaps	%xmm0, 64(%rsp)
	leaq	(%rdi,%r12), %rax
	movups	(%r14), %xmm0
	movups	%xmm0, (%rdi,%r12)
	movaps	64(%rsp), %xmm0
	movups	%xmm0, -16(%rbx,%rax)
	jmp	.LBB63_118
.LBB63_121:
	movq	%r12, %rsi
	movq	%r14, %rdx
	movq	%rbx, %rcx
	callq	"amqp_c::buffer::write_long"
	movq	8(%rsp), %r8
	jmp	.LBB63_118
.LBB63_122:
	ud2
.Lfunc_end63:
	.size	amqpv_put_value, .Lfunc_end63-amqpv_put_value
	.section	.rodata.amqpv_put_value,"a",@progbits
	.p2align	2, 0x0
.LJTI63_0:
	.long	.LBB63_46-.LJTI63_0
	.long	.LBB63_54-.LJTI63_0
	.long	.LBB63_57-.LJTI63_0
	.long	.LBB63_55-.LJTI63_0
	.long	.LBB63_57-.LJTI63_0
	.long	.LBB63_46-.LJTI63_0
	.long	.LBB63_57-.LJTI63_0
	.long	.LBB63_57-.LJTI63_0
	.long	.LBB63_53-.LJTI63_0
	.long	.LBB63_57-.LJTI63_0
	.long	.LBB63_57-.LJTI63_0
	.long	.LBB63_51-.LJTI63_0
	.long	.LBB63_57-.LJTI63_0
	.long	.LBB63_57-.LJTI63_0
	.long	.LBB63_57-.LJTI63_0
	.long	.LBB63_57-.LJTI63_0
	.long	.LBB63_57-.LJTI63_0
	.long	.LBB63_57-.LJTI63_0
	.long	.LBB63_46-.LJTI63_0
	.long	.LBB63_51-.LJTI63_0
	.long	.LBB63_52-.LJTI63_0
	.long	.LBB63_56-.LJTI63_0
	.long	.LBB63_57-.LJTI63_0
	.long	.LBB63_57-.LJTI63_0
	.long	.LBB63_57-.LJTI63_0
	.long	.LBB63_57-.LJTI63_0
	.long	.LBB63_57-.LJTI63_0
	.long	.LBB63_57-.LJTI63_0
	.long	.LBB63_57-.LJTI63_0
	.long	.LBB63_57-.LJTI63_0
	.long	.LBB63_57-.LJTI63_0
	.long	.LBB63_57-.LJTI63_0
	.long	.LBB63_57-.LJTI63_0
	.long	.LBB63_54-.LJTI63_0
	.long	.LBB63_57-.LJTI63_0
	.long	.LBB63_51-.LJTI63_0
	.long	.LBB63_57-.LJTI63_0
	.long	.LBB63_53-.LJTI63_0
	.long	.LBB63_57-.LJTI63_0
	.long	.LBB63_57-.LJTI63_0
	.long	.LBB63_53-.LJTI63_0
	.long	.LBB63_57-.LJTI63_0
	.long	.LBB63_57-.LJTI63_0
	.long	.LBB63_51-.LJTI63_0
	.long	.LBB63_57-.LJTI63_0
	.long	.LBB63_57-.LJTI63_0
	.long	.LBB63_57-.LJTI63_0
	.long	.LBB63_57-.LJTI63_0
	.long	.LBB63_57-.LJTI63_0
	.long	.LBB63_57-.LJTI63_0
	.long	.LBB63_52-.LJTI63_0
	.long	.LBB63_54-.LJTI63_0
	.long	.LBB63_52-.LJTI63_0
	.long	.LBB63_57-.LJTI63_0
	.long	.LBB63_57-.LJTI63_0
	.long	.LBB63_46-.LJTI63_0
.LJTI63_1:
	.long	.LBB63_89-.LJTI63_1
	.long	.LBB63_65-.LJTI63_1
	.long	.LBB63_68-.LJTI63_1
	.long	.LBB63_70-.LJTI63_1
	.long	.LBB63_66-.LJTI63_1
	.long	.LBB63_74-.LJTI63_1
	.long	.LBB63_76-.LJTI63_1
	.long	.LBB63_72-.LJTI63_1
.LJTI63_2:
	.long	.LBB63_118-.LJTI63_2
	.long	.LBB63_94-.LJTI63_2
	.long	.LBB63_97-.LJTI63_2
	.long	.LBB63_99-.LJTI63_2
	.long	.LBB63_95-.LJTI63_2
	.long	.LBB63_103-.LJTI63_2
	.long	.LBB63_105-.LJTI63_2
	.long	.LBB63_101-.LJTI63_2

	.section	.text.amqpv_read,"ax",@progbits
	.globl	amqpv_read
	.p2align	4
	.type	amqpv_read,@function
amqpv_read:
	.cfi_startproc
	subq	$24, %rsp
	.cfi_def_cfa_offset 32
	testq	%rdx, %rdx
	movq	%rsp, %rax
	cmoveq	%rax, %rdx
	callq	amqpv_proved_read@PLT
	addq	$24, %rsp
	.cfi_def_cfa_offset 8
	retq
.Lfunc_end64:
	.size	amqpv_read, .Lfunc_end64-amqpv_read
	.cfi_endproc

	.section	.text.amqpv_measure,"ax",@progbits
	.globl	amqpv_measure
	.p2align	4
	.type	amqpv_measure,@function
amqpv_measure:
	.cfi_startproc
	subq	$24, %rsp
	.cfi_def_cfa_offset 32
	testq	%rdx, %rdx
	movq	%rsp, %rax
	cmoveq	%rax, %rdx
	callq	amqpv_proved_measure@PLT
	addq	$24, %rsp
	.cfi_def_cfa_offset 8
	retq
.Lfunc_end65:
	.size	amqpv_measure, .Lfunc_end65-amqpv_measure
	.cfi_endproc

	.section	.text.amqpv_find,"ax",@progbits
	.globl	amqpv_find
	.p2align	4
	.type	amqpv_find,@function
amqpv_find:
	.cfi_startproc
	subq	$72, %rsp
	.cfi_def_cfa_offset 80
	testq	%rcx, %rcx
	je	.LBB66_5
	leaq	24(%rdx), %rax
	movq	%rcx, %r9
	jmp	.LBB66_2
	.p2align	4
.LBB66_4:
	addq	$32, %rax
	decq	%r9
	je	.LBB66_5
.LBB66_2:
	movzbl	(%rax), %r10d
	cmpl	$70, %r10d
	je	.LBB66_4
	cmpl	$65, %r10d
	je	.LBB66_4
	movl	$-13, %eax
	addq	$72, %rsp
	.cfi_def_cfa_offset 8
	retq
.LBB66_5:
	.cfi_def_cfa_offset 80
	cmpq	%r8, %rsi
	je	.LBB66_6
	callq	amqpv_proved_find@PLT
	addq	$72, %rsp
	.cfi_def_cfa_offset 8
	retq
.LBB66_6:
	.cfi_def_cfa_offset 80
	movups	(%rsi), %xmm0
	movups	16(%rsi), %xmm1
	movups	32(%rsi), %xmm2
	movups	48(%rsi), %xmm3
	movaps	%xmm3, 48(%rsp)
	movaps	%xmm2, 32(%rsp)
	movaps	%xmm1, 16(%rsp)
	movaps	%xmm0, (%rsp)
	movq	%rsp, %rsi
	callq	amqpv_proved_find@PLT
	addq	$72, %rsp
	.cfi_def_cfa_offset 8
	retq
.Lfunc_end66:
	.size	amqpv_find, .Lfunc_end66-amqpv_find
	.cfi_endproc

	.section	.text.amqpv_to_json,"ax",@progbits
	.globl	amqpv_to_json
	.p2align	4
	.type	amqpv_to_json,@function
amqpv_to_json:
	.cfi_startproc
	pushq	%r14
	.cfi_def_cfa_offset 16
	pushq	%rbx
	.cfi_def_cfa_offset 24
	pushq	%rax
	.cfi_def_cfa_offset 32
	.cfi_offset %rbx, -24
	.cfi_offset %r14, -16
	movq	%rcx, %rbx
	movq	%rsi, %r14
	cmpq	$1, %rdx
	adcq	$-1, %rdx
	callq	amqpv_proved_to_json@PLT
	cmpl	$-17, %eax
	je	.LBB67_3
	testl	%eax, %eax
	jne	.LBB67_5
	movq	(%rbx), %rcx
	movb	$0, (%r14,%rcx)
.LBB67_5:
	addq	$8, %rsp
	.cfi_def_cfa_offset 24
	popq	%rbx
	.cfi_def_cfa_offset 16
	popq	%r14
	.cfi_def_cfa_offset 8
	retq
.LBB67_3:
	.cfi_def_cfa_offset 32
	movq	(%rbx), %rcx
	cmpq	$-1, %rcx
	je	.LBB67_5
	incq	%rcx
	movq	%rcx, (%rbx)
	addq	$8, %rsp
	.cfi_def_cfa_offset 24
	popq	%rbx
	.cfi_def_cfa_offset 16
	popq	%r14
	.cfi_def_cfa_offset 8
	retq
.Lfunc_end67:
	.size	amqpv_to_json, .Lfunc_end67-amqpv_to_json
	.cfi_endproc

	.type	.Lstatic.0,@object
	.section	.rodata..Lstatic.0,"a",@progbits
.Lstatic.0:
	.byte	70
	.size	.Lstatic.0, 1

	.type	.Lstatic.6,@object
	.section	.rodata..Lstatic.6,"a",@progbits
.Lstatic.6:
	.ascii	"\":"
	.size	.Lstatic.6, 2

	.type	.Lstatic.8,@object
	.section	.rodata.cst4,"aM",@progbits,4
.Lstatic.8:
	.ascii	"true"
	.size	.Lstatic.8, 4

	.type	.Lstatic.9,@object
	.section	.rodata..Lstatic.9,"a",@progbits
.Lstatic.9:
	.ascii	"false"
	.size	.Lstatic.9, 5

	.type	.Lstatic.10,@object
	.section	.rodata.cst4,"aM",@progbits,4
.Lstatic.10:
	.ascii	"null"
	.size	.Lstatic.10, 4

	.type	.Lstatic.11,@object
	.section	.rodata..Lstatic.11,"a",@progbits
.Lstatic.11:
	.ascii	"\"$"
	.size	.Lstatic.11, 2

	.type	.Lstatic.12,@object
	.section	.rodata..Lstatic.12,"a",@progbits
.Lstatic.12:
	.ascii	"$ShortShortInt"
	.size	.Lstatic.12, 14

	.type	.Lstatic.13,@object
	.section	.rodata..Lstatic.13,"a",@progbits
.Lstatic.13:
	.ascii	"$ShortShortUInt"
	.size	.Lstatic.13, 15

	.type	.Lstatic.14,@object
	.section	.rodata..Lstatic.14,"a",@progbits
.Lstatic.14:
	.ascii	"$ShortInt"
	.size	.Lstatic.14, 9

	.type	.Lstatic.15,@object
	.section	.rodata..Lstatic.15,"a",@progbits
.Lstatic.15:
	.ascii	"$ShortUInt"
	.size	.Lstatic.15, 10

	.type	.Lstatic.16,@object
	.section	.rodata.cst8,"aM",@progbits,8
.Lstatic.16:
	.ascii	"$LongInt"
	.size	.Lstatic.16, 8

	.type	.Lstatic.17,@object
	.section	.rodata..Lstatic.17,"a",@progbits
.Lstatic.17:
	.ascii	"$LongUInt"
	.size	.Lstatic.17, 9

	.type	.Lstatic.18,@object
	.section	.rodata..Lstatic.18,"a",@progbits
.Lstatic.18:
	.ascii	"$Timestamp"
	.size	.Lstatic.18, 10

	.type	.Lstatic.19,@object
	.section	.rodata..Lstatic.19,"a",@progbits
.Lstatic.19:
	.ascii	"$ByteArray"
	.size	.Lstatic.19, 10

	.type	.Lstatic.20,@object
	.section	.rodata..Lstatic.20,"a",@progbits
.Lstatic.20:
	.ascii	"00010203040506070809101112131415161718192021222324252627282930313233343536373839404142434445464748495051525354555657585960616263646566676869707172737475767778798081828384858687888990919293949596979899"
	.size	.Lstatic.20, 200

	.type	.Lstatic.21,@object
	.section	.rodata..Lstatic.21,"a",@progbits
.Lstatic.21:
	.ascii	"{\""
	.size	.Lstatic.21, 2

	.type	.Lstatic.22,@object
	.section	.rodata..Lstatic.22,"a",@progbits
.Lstatic.22:
	.ascii	"$Float"
	.size	.Lstatic.22, 6

	.type	.Lstatic.23,@object
	.section	.rodata..Lstatic.23,"a",@progbits
.Lstatic.23:
	.size	.Lstatic.23, 0

	.type	.Lstatic.24,@object
	.section	.rodata..Lstatic.24,"a",@progbits
	.p2align	3, 0x0
.Lstatic.24:
	.ascii	"\001\000\000\000\000\000\000\000\n\000\000\000\000\000\000\000d\000\000\000\000\000\000\000\350\003\000\000\000\000\000\000\020'\000\000\000\000\000\000\240\206\001\000\000\000\000\000@B\017\000\000\000\000\000\200\226\230\000\000\000\000\000\000\341\365\005\000\000\000\000\000\312\232;\000\000\000\000\000\344\013T\002\000\000\000\000\350vH\027\000\000\000\000\020\245\324\350\000\000\000\000\240rN\030\t\000\000\000@z\020\363Z\000\000\000\200\306\244~\215\003\000\000\000\301o\362\206#\000\000\000\212]xEc\001\000\000d\247\263\266\340\r\000\000\350\211\004#\307\212"
	.size	.Lstatic.24, 160

	.type	.Lstatic.25,@object
	.section	.rodata..Lstatic.25,"a",@progbits
	.p2align	4, 0x0
.Lstatic.25:
	.ascii	"?;\241\006)\252?\021Z\326;\222\326S\364\356\007\305$\244Y\312\307J\370ee\033f\264X\225I\366-\r\360\274y]v\277>\242\177\341\256\272\334sy\020,,\330\364So\316\212\337\231Z\351i\350K\212\233\033\007y\224\005\301\266+\240\330\221\204\342\336l\202\342H\227\371Fq\2446\310N\266%\233\026\b#\033\033\375\267\230\215MDz\342\343\367 \016\345\365\3600\376r\177x\260j\214m\2165\251Q^3-\275\275O\237\226\\\205\357\b\262\202\023\3465\200x,\255#G\274\263f+\213\3361\314\257!P\313;Lv\254U0 \373\026\213=\277\033*$\276J\337\223\027k<\350\271\334\255\r\257\2424\255m\035\327x\335\205Kb\350S\331h\255\345@\214dr\206k\2523o=q\324\207\302\030\037Q\257\375\016h\006\225\000\313\214\215\311\251\362\336f%\033\275\022\002H\272\300\375\357\360;\324WK`\3670\266K\001mt\230\376\225v\245\204-^85\275\243\236A\210\221>~;\324\316\245\271u\206\202\254L\006R\3525\316]J\211B\317\223\t\224\321\353\357Cs\262\341\240z\316\225\211\201\370\013\371\305\346\353\024\020\037\032I\031B\373\353\241\366Nww\340&\032\324\246`\233\237\022\372f\312\264\"U\225\230\260 \211\3208\202G\227\270\000\375\2605U]_n\264U\202c\261\214^s \236\035\203\2524\367\211!\353b\274\335/6\220\250\305\344#\325\001u\354\351\245{+\325\273C\264\022\367n6%!\3113\262G-;eU\252\260k\232\n\204ni\273\300\236\231\370\211\276\352\324\234\006\301\r%\312C\352p\006\300v,n%\nDH\361(W^j\222\006\0048\312\333dW\206*\315\226\362\354\365\0047\b\005\306\274\022>\355'u\200\274.h3\306DJ\206\367k\227\215\350q\222\240\353\035!\340\373j\356\263z\243~X1\207[D\223d)\330\272\005\352`YL\236\256\375hr\025\270\2753\216)\207$\271o\337E\032=\003\317\032\346V\340\370y\324\266\323\245\253k0\006b\301\320\217l\030w\230\211\244H\217\226\206\274\207\272\361\304\263\207\336\224\376\253\315\0323<\250\253)).\266\340\024\013\035\177\213\300\360\237%I\013\272\331\334q\214\331M\344^\256\360\354\007o\033\216(\020T\216\257Pa\235\366\331,\350\311J\242\2612\024\351q\333\322\\\":\b\0341\276n\005\257\237\2541'\211\006\364\252H\nc\275m\312\306\232\307\027\376p\253\b\261\325\332\314\273,\t}x\201\271\235=M\326\245\216\305\b`\365\273%N\353\360\223\202F\360\205N\362\366\n\270\362*\257!&\3558#Xl\247\341\256\264\rf\257\365\032\252o(\007,nG\321M\355\220\310\237\215\331P\312Ey\204\333\244\314\202\240(\265\272\007\361\017\345<\227\227e\022\316\177\243\310rb\251I\355S\036\f}\375\376\226\301_\314z\017\273\023\234\350\350%O\334\274\276\374\261w\377\254\351T\214a\221\261w\261\t6\367=\317\252\237\027$j\357\271\365\235\325\035\214\003u\r\203\225\307\035\255Dk(s\005K%oD\322\320\343z\3712\354\nC\371g\343Nw\305j\203b\316\354\233?\247\315\223\367A\234\"\325vE$\373\001\350\302\017\021\301xuRCk\212\324V\355y\002\242\363\251\252xk\211\023\n\203\326DV4\214AE\230S\325V\306k\230\314#\f\326kA\357\221V\276\250\212\354\267\206\276\277,\217\313\306\021k6\354\355\251\326\3632\024\327\367{9?\034\353\002\242\263\224S\314\260?\331\314\365\332\007O\343\245\203\212\340\271h\377\234\217\017@\263\321\311\"\\\217$\255X\350\241\037\302\271\t\b\020#\276\225\231\3316l7\221\212\2472(\f\n\324\253-\373\377\217DG\205\265lQ?2\217\f\311\026\371\371\377\263\025\231\346\342\343\222g\177\331\247=\256;\374\177\220\255\037\320\215\234wA\337\317\021\315\231J\373\237\364\230'D\261\203\325\021\327CV@@\035\372\3071\1771\225\335r%kf\3525(HR\374\034\177\357>}\212\317\356\005\000eC2\332f;\344^\253\216\034\255\202j\007@>\324\276\220@J\2356V\262c\330\221\242\004\350\246DwZhN\"\342uO>\2076\313\005\242\320\025\025q\002\342\252ZS\343\r\251\003>\207\312D[Z\r\203\232U1(\\Q\323\302\206\224\376\nyX\350\221\200\325\036\231\331\022\204r\2509\276M\227nb\266\340\212f\377\217\027\245\217\022\310-!=\n\373\343\230-@\377s]\316\231\013\235\2744f\346|\216\177\034\210\177h\372\200\200N\304\353\301\377\037\034r\237#j\237\0029\241 b\265f\262\377'\243N\207\254DGC\207\311\250\272b\000\237\377\361K\"\251\327\025\031\024\351\373\251\264=`\303?wo\265\311\246\255\217\254q\235\323!M8\264\017U\313\"|\020\231\263\027\316\304Hj`F\241S*~+\233T\177\240\235\001\366mB\374\313Dt\332.\373\340\224O\204\002\301\231\bS\373\376U\021\221\3729\031zc%C1\300\312'\272~\253U5y\210\237X\274\356\223=\360\336X4/\213U\301K\265c\2675u|&\226\026o\001\373\355\252\261\236\242<%\203\222\033\260\273\334\312\301y\251\025^F\313\213\356#w\"\234\352\311\036\031\354\211\315\372\013_\027uv\212\225\241\222{f\037g\354\200\371\3166]\022\024\355\372I\267\032@\347\200'\341\267\202\204\364\026Y\250y\034\345\020\210\220\260\270\354\262\321\322X\2567\t\3141\217\025\252\264\334\346\247\037\206\007\357\231\205\013?\376\262\232\324\341\223\340\221\247g\311j\000g\316\316\275\337\340$m\\,\273\310\340\275B`\000A\241\326\213\030n\210s\367\351\372XmSx@\221I\314\256\236\211jPu\2449\257Hh\226\220\365[\177\332\003\226BR\311\006\204m-\001^zy\231\217\210\203;\323\246{\b\345\310x\201\365\330\327\177\263\252d\n\210\220\232J\036\373\326\3412\317\315_`\325\177\006U\232\240\356\362\\&\315\177\241\340;\\\205\036H\352\300H\252/\364o\300\337\311\330J\263\246&\332$\361\332\224;\361\213\260W\374\216\035`\320X\b\267\326\b=\305vW\316\266]y\022<\202n\312d\fK\214vT\355\201$\265\027\027\313\242\t\375}\317]/\224\251h\242m\242\335\334}\313L|]C5;\371\323\002\013\t\013\025T]\376\257m\032J\001\305{\304\341\246\345&\215T\372\236\033\t\241\234A\266\2325\232\020\237p\260\351\270\306bK\311\003\322c\001\303\300\324\306\214\034$g\370\035\317]Bc\336\340y\370D\374\327\221v@\233\344B\365\022\374\025Y\2306V\373M6\224\020\302\235\223\262\027{[o>\304+z\341C\271\224\362B\234\317\356,\231\005\247Z[\354l\312\363\234\227S\203\203*x\377\306P1r'\b\2750\204\275(d$5V\277\370\244\275N1J\354<\345\354\231\2766\341\225w\033\2076\321^\256\023F\017\224?n\204Y{U\342(\204\205\366\231\230\027\023\271\317\211\345/\332\352\0323\345&t\300~\335W\347!v\357]\310\322\360?O\230H8o\352\226\220\251Skuz\007\355\017c\276Z\006\013\245\274\264\224(\306\022YI\350\323\373m\361\307M\316\353\341\\\331\273\253\327-qd\275\344\366\234\360`3\215\263\317\252\226My\215\275\354\2354\304,9\200\260\240\203U\374\240\327\360\354g\305A\365wG\240\334Dr\265\235\304\206\026\364`\033I\371\252,\344\211\325\316\"\305u(\03419b\233\267\3257]\254\213\202k6\2232c}\307:\202%\313\205t\327\2271\003\002\234\377]\256\274dq\367\236\323\250\206\374\375\203\002\203\177\365\331\353\275M\265\206\bS\250{\375$\303c\337r\320f-\241b\250\312g\322m\036\367Y\236\313GB`\274\244=\251\336\200\203\b\346t\360\205\276\331Rx\353\r\215S\026a\244\213\037\222l'.\220gVfQp\350[y\315\266S\333\243\330\034\272\000\366\3372Fq\331k\200\244(\322\314\016\244\350\200\363\227\277\227\315\317\206\240\315\262\006\200\022\315\"a\360}\257\375\300\203\250\310\201_\b W\200kyl]\033=\261\244\322\372\260;\005t60\343\313c\0321\306\356\246\303\234\234\212\006\021D\374\333\276\374`\275w\252\220\364\303D-H\025U\373\222\356;\271\254\025\325\264\361\364J\034M-\025\335\033u\305\363\213-\005\021\027\231]c\240xZ\324b\322\266\360\356xF\325\\\2774|\310\026q\211\373\206\344\254*\027\230\n4\357\240M=\256\3465]\324\016\254z\016\237\206\200\225\t\241\314Y`\203t\211\022W\031\322F\250\340\272K\311?p8\244\321+\327\254\237\206X\322\230\351\317\335'F\243\006c{\006\314#Tw\203\377\221B\325\261\027L\310;\032\b\277,)Ud\177\266\223J\236\035_\272\312 \312\356wsj=\037\344\234\356\202r{\264~T>\365*\210b\206\223\216C\252#O\232a\236\351\215\2625*\373g8\262\324\224\354\342\000\372\005d1\037\303\364\371\201\306\336\004\335\323\215@\274\203\336~\363\3718<\021<\213E\324H\261P\253$\226^p8G\213\025\013\256W\t\233\335$\326\255;v\214\006\031\356\332\215\331\326\345\200\n\327\245L\345\311\027\244\317\324\250\370\207L\037!\315L\317\237^\274\035\215\003\n\323\366\251\037gi\000 \303Gv+ep\204\314\207t\324s\340A\000\364\331\354);?\306\322\337\324\310\204\220XR\000q\020h\364\t\317w\307\027\n\373\245\264\356f@\215\024\202q\314\302U\271\235\314y\3170U@H\330L\361\306\277\231\325\223\342\037\254\201|jPZ\016\240\255\270/\000\3138\333'\027\242\034\205\344\360\021\b\331\246;\300\375\006\322\361\234\312c\246\035m\026J\217\220J0\275\210F.D\375\376\2072\004N\216Y\232.>v\025\354\234J\236\375)?\205\341\361\357@\272\315\323\032'D\335\305|\364\216\346Y\356+\321(\301\210\3410\225T\367\316X\0310\370t\273\202\271x\365\214>\335\224\232\001\257\037<6Rj\343\347\32620\216\024:\301\301\232'\313\303\346D\334\241\214?\274\261\231\210\361\271\300\370^:\020\253)\345\267\247\025\017`\365\226\347\360\266\366H\324\025t\336\245\021\333\022\270\262\274!\255d4[I\033\021V\017\326\221\027f\337\3534\354\276\000\331\r\261\312\225\311%\273\316\237k\223B\247\356@OQ]=\373;\357i\302\207F\270\022Q*\021\243\245\264\f\372\nk\004\263)X\346\253r\272\352\205\347\360G\334\346\302\342\017\032\367\217V\017ieg!\355Y\223\240s\333\223\340\364\263,S\303>\301ih0\270\210P\322\270\030\362\340\373\023:\307\030BA\036sUr\203sO\227\214\372\230\b\371\236\222\321\345\317\352NdP#\275\2579\277J\267F\367E\337\203\245b}$l\254\333\203\267\2162\214\272\213kr\247]\316\226\303K\211de2?/\251n\006O\021\365\201|\264\236\253\275\376\376\016{S\n\310\242Ur\242\233a\206\3266__\351,t\006\275\205u\207E\001\375\023\206\0047\267#8\021H,\347R\351\226A\374\230\247\305\004\245,\206\025Z\367\240\247\243\374Q;\177\321\373\"\347\333sM\230\232\304H\346=\023\205\357\202\272\353\340\322\320`>\301\365\332_\rXf\253\243\250&\231\007\005\371\2151\263\321\267\020\356?\226\314Rp\177IFw\361\375\037\306\345\224\351\317\273\3773\246\357\355\213\352\266\376\323\233\017\375\361a\325\237\300\217k\351.\245d\376\310\202S|n\272\312\307\260s\306\243z\316\375={ch\033\ni\275\371N\b\\\246\f\241\276\006->!Q\246a\026\234b\n\363\317OInH\270\215i\345\017\372\033\303\372\314\357\303\243\333\211Z&\361\303\336\223\370\342\363\034\340uZF)\226\370\267v:k\\\333m\230#X\023\361\227\263\273\366e\024\t\2063R\211\276,.X\355}\240jt\177Y\213g\300\246+\356\334\034W\264N\244\302\250\357\027\267@8H\333\224\023\344labM\363\222\353\335\344PF\032\022\272\027\035\310\371\272 \260wf\025\036\345\327\240\226\350.\022\035\334t\024\316\n`\3152\357\206$^\221\272V$\023\222\231\201\r\270\200\377\252\250\255\265\265il\355\227\366\377\341\020\346`\277\325\022\031#\343\301c\364\036\372?\215\312\217\234\227\305\253\357\365\215\262|\261\246\370\2170\275\263\203\375\266\226ks\261\336\333]\320\366\263|\254\240\344\274d|F\320\335k\251:Bz\360\315k\344\016\366\276\r,\242\212\306S\311\322\230l\301\206\235\222\263.\021\267J\255\267\250{\007\277\307q\350Dw`z\325d\235\330rI\255d\327\034G\021\213J|l\005_b\207\317\233\330=\r\344\230\325-]\233\307\306\366:\251\303\302N\215\020\035\377Jy4\202yx\264\211\323\2729QX*r\337\316\313`\361K\313\0206\204(\210e\356\264N\227\302\376\270\355\036\376\224C\2452\352\376)b\"=s>'\251\246=z\224\316_R?Z}5\006\b\207\270)\210f\314\034\201\367&\317\260\334\302\007\312\250&4*\200\377c\241\265\360\002\335\223\263\211\374R0\3014`\377\274\311\342\254C\324x \254\273g|\361A8?,\374\rL\252\204K\224K\325\300\3556)\203\247\233\235\021\337\324e^y\236\n1\251\204\363c\221\002\305\325\026J\377\265\027FM}\323e\360\2745C\366EN\216\277\321\316KP.\244?\026\226\001\352\231\326\341q/\206\302^\3449\215\317\233\373\201d\300LZN\273'sv]\210p\303\202z\242}\360o\370\020\325\370\007j:U&\272\221\214\205N\226\2136U\n\367\211\004\211\352\257(\266\357&\342\273.\204\352\314t\254E+\345\333\262\243\253\260\332\352\235\222\022\000\311\213\013;o\311OFk\256\310\222D7\027@\273n\316\t\313\273\343\027\006\332z\267\025\005\035\020j\nB\314\275\252\334\235\207\220Y\345-#\022J\202F\251\237\266\352\251\302T\372W\217\371\253\226\334\"\230\223GdeT\363\351\370-\263\367V\274\223+~xY\275~)p$w\371\337Z\266U<\333N\353W6\357\031\306v\352\373\213\361#k\013\222\"\346\355\003k\240w\024\345\372\256\355\354E\2166\253_\351\304\205\210\225Y\236\271\332\024\264\353\030\002\313\333\021\233Su\375\367\002\264\210\031\241&\237\302\275R\326\201\250\322\374\265\003\341\252_I\360F3m\347K\242R\007|\243D\231\325\333-V\f@\244po\245\223\204-\346\312\177\205R\271k\017P\315L\313\216\270\345\270\237\275\337\246\247\247F\023\244\000 ~\262&\037\247\007\255\227\320\310(\f\214f\000\324\216/xs\310$\314^\202\3722\017/\200\000\211r;V\220\372-\177\366\242\271\377\322:\240@+O\312k4y\371\036\264\313\250\277\207I\310\020\366\342\274\206\201\327\267&\241\376\311\327\364-}\312\331\r6\364\260\3462\270$\237\273\rry\034=P\221C1]\240?\346\355\306*\221\316\227cL\244u\224}t\210\317_\251\370\272\032\341>\276\257\206\311|\316H\265\341\333i\233ha\231\316\255[\350\373\033\002\233\"\332RD\302\303\271?B\231r\342\372\242\302A\253\220g\325\362\032\324g\311\237\207\315\334\245\031\tk\272`\305\227 \311\301\273\207\351\000T\017`\313\005\351\270\266\275h;\262\252\351#\001)\0238>G#g$\355!e\257\nr\266\240\371\013\343\206\fv\3006\224i>[\215\016\344\b\370\316\233\250\217\223pD\271\004\016\2620\022\035\013\266\302\302\222s\270\214\225\347\302Ho^+\362\306\261\271\271;H\363w\275\220\363\032\0136\266\2568\036(\250J\032\360\325\354\264\260\341\215\303c\332\306%2R\335 l\013(\342\016\2558Z~H\234W_S\212\224#\007Y\215Q\330\306\360\235Z\203-7\350\254y\354H\257\260e\216\370lE1\344\370D\"\030\230'\033\333\334\377X\033d\313\236\216\033k\025\017\277\370\360\b\212?/\"=~Fr\342\305\332\322\3566-\213\254\017\273j\314\035\330\016[w\221\207\252\204\370\255\327\351\264\302\237\022G\351\230\352\272\224\352R\273\314\206$b\263G\327\230#?\245\3519\245'\352\177\250\255:\240\031\r\177\354\216\016d\210\216\261\344\237\322\254$\0040h\317S\031\211>\025\371\356\356\243\203\327-\005<B\303\250_+\216Z\267\252\352\214\244My\006\313\022\364\2227\26611eU%\260\315\320\013\344\276\213\330\273\342\021\277>_U\027\216\200\304\016\235\256\256\316j[\326n\016\267*\235\261\240uRDZZ\202E\362\213\n\322du\004\336\310\022g\325\360\360\342\326\356.\215\006\276\222\205\025\373k`\205\226\326MFU=\030\304\266{s\355\234\206\270&<L\341\227\252L\036u\244Z\320(\304\250f0K\237\331=\325\337e\222Mq\0043\365)@\376\216\003\250F\345\253\177{\320\306\342?\2313\320\275r\004R\230\336\226_\232\204x\333\217\277@Dm\217\205f>\226|\367\300\245V\322s\357\250J\244y\023\000\347\335\255\232\230'vc\250\225R]\rX\030\300`UY\301~\261S|\022\273\246\264\020n\036\360\270\252\257q\336\235h\033\327\351\350p\312\004\023\226\263\312\r\007\253b!q&\222\"\r\375\305\227{`=\321\310U\273i\r\260\266jP|\267}\232\270\214\005;+*\304\020\\\344B\262\255\222\216`\363w\343\004[\232z\212\271\216\323\036Y7\2628\360U\034\306\361@\031\355g\262\210f/\305\336Flk\2437.\221_\350\001\337\025\240=;K\254##\306\342\274\272;1a\213\032\b\r\n^\227\354\253w\033l\251\212}9\256!J\220\2145\275\347\226U\"\307S\355\334\307\331T.\332wA\326P~uu\\T\024\352\034\210\351\271\320\325\321\013\345\335\322\222si\231$$\252d\350DK\306N^\225\207w\320\303\277-\255\324>\021\013\357;\361Z\275\264Jb\332\227<\354\204\216\325\315\352\212\255\261\354a\335\372\320\275K'\246\362J\201\245\355\030\336g\272\2249E\255\036\261\317\327\316p\207\224\317\352\200\364\374CK,\263\316\201\215\002M\251y\203%\2411\374\024^\367_B\2420C\240\023X\344n\t>;\2325\365\367\322\312\374S\210\030n\235\312\213\r\312\000\203\362\265\207\375}4U\317d\242^wH~\340\221\267\321t\236\235\201*\003\376J6\225\332\235Xv%\006\022\306\004\"\365\203\275\335\203:Q\305\356\323\256\207\226\367B5yr\226j\222\304R;uD\315\024\276\232\223\202\027\017<\005\267u'\212\222\225\000\232m\3018c\335\022\213\306$S\261,\367\272\200\000\311\361\003^\312\353\026\374\366\323\356{\332tP\240\035\227\204\365\274\246\034\273\364\210\352\032\021\222d\b\345\274\3452l\320\343\3511+\245a\225\266}J\036\354\317\237Cb.2\377:\007]\035\222\216\356\222\223\302\207\324\372\271\376\276\tI\264\24462\252w\270\263\251\211yh\276.L[\341M\304\276\224\225\346\020\n\366K\0017\235\017\331\254\260:\367|\035\220\224\214\363\236\301\204\204S\017\330\\\t5\334$\264\271o\260\006\362\245e(\023\016\264KB\023.\341\323E.D\267\207?\371\313\210Po\t\314\274\214H\3279\025\245i\217\367\376\252$\313\013\377\353\257\033M\210Z\016Ds\265\276\325\355\275\316\376\346\33300\225\370\210\nh1\227\245\2646A_p\211=|\2726+\r\302\375\374\316a\204\021w\314\253L\033i\004v\2202=\274Bz\345\325\224\277\326\017\261\301\302I\232?\246\265il\257\005\2757\206S\035r3\334\200\317\017#\204G\033G\254\305\247\250\244N@\023a\303\323+e\031\342X\027\267\321\351&1\b\254\034Zd;\337O\215\227n\022\203\243p=\n\327\243p=\n\327\243p=\n\327\243\314\314\314\314\314\314\314\314\314\314\314\314\314\314\314\314\000\000\000\000\000\000\000\000\000\000\000\000\000\000\000\200\000\000\000\000\000\000\000\000\000\000\000\000\000\000\000\240\000\000\000\000\000\000\000\000\000\000\000\000\000\000\000\310\000\000\000\000\000\000\000\000\000\000\000\000\000\000\000\372\000\000\000\000\000\000\000\000\000\000\000\000\000\000@\234\000\000\000\000\000\000\000\000\000\000\000\000\000\000P\303\000\000\000\000\000\000\000\000\000\000\000\000\000\000$\364\000\000\000\000\000\000\000\000\000\000\000\000\000\200\226\230\000\000\000\000\000\000\000\000\000\000\000\000\000 \274\276\000\000\000\000\000\000\000\000\000\000\000\000\000(k\356\000\000\000\000\000\000\000\000\000\000\000\000\000\371\002\225\000\000\000\000\000\000\000\000\000\000\000\000@\267C\272\000\000\000\000\000\000\000\000\000\000\000\000\020\245\324\350\000\000\000\000\000\000\000\000\000\000\000\000*\347\204\221\000\000\000\000\000\000\000\000\000\000\000\200\364 \346\265\000\000\000\000\000\000\000\000\000\000\000\2401\251_\343\000\000\000\000\000\000\000\000\000\000\000\004\277\311\033\216\000\000\000\000\000\000\000\000\000\000\000\305.\274\242\261\000\000\000\000\000\000\000\000\000\000@v:k\013\336\000\000\000\000\000\000\000\000\000\000\350\211\004#\307\212\000\000\000\000\000\000\000\000\000\000b\254\305\353x\255\000\000\000\000\000\000\000\000\000\200z\027\267&\327\330\000\000\000\000\000\000\000\000\000\220\254n2x\206\207\000\000\000\000\000\000\000\000\000\264W\n?\026h\251\000\000\000\000\000\000\000\000\000\241\355\314\316\033\302\323\000\000\000\000\000\000\000\000\240\204\024@aQY\204\000\000\000\000\000\000\000\000\310\245\031\220\271\245o\245\000\000\000\000\000\000\000\000:\017 \364'\217\313\316\000\000\000\000\000\000\000@\204\t\224\370x9?\201\000\000\000\000\000\000\000P\345\013\2716\327\007\217\241\000\000\000\000\000\000\000\244\336Ng\004\315\311\362\311\000\000\000\000\000\000\000M\226\"\201E@|o\374\000\000\000\000\000\000 \360\235\265p+\250\255\305\235\000\000\000\000\000\000(l\005\343L6\022\0317\305\000\000\000\000\000\0002\307\306\033\340\303V\337\204\366\000\000\000\000\000@\177<\\\021l:\226\013\023\232\000\000\000\000\000\020\237K\263\025\007\311{\316\227\300\000\000\000\000\000\324\206\036 \333H\273\032\302\275\360\000\000\000\000\200D\024\023\364\210\r\265P\231v\226\000\000\000\000\240U\331\0271\353P\342\244?\024\274\000\000\000\000\b\253\317]\375%\345\032\216O\031\353\000\000\000\000\345\312\241Z\2767\317\320\270\321\357\222\000\000\000@\236=J\361\255\005\003\005'\306\253\267\000\000\000\320\005\315\234m\031\307C\306\260\267\226\345\000\000\000\242#\000\202\344o\\\352{\3162~\217\000\000\200\212,\200\242\335\213\363\344\032\202\277]\263\000\000 \2557 \013\325n0\236\241b/5\340\000\0004\314\"\364&EE\336\002\245\235=!\214\000\000A\177+\261p\226\326\225C\016\005\215)\257\000@\021_v\335\f<L{\324QF\360\363\332\000\310j\373i\n\210\245\017\315$\363+v\330\210\000zEz\004\r\352\216S\000\356\357\266\223\016\253\200\330\326\230E\220\244rh\200\351\253\2448\322\325PG\206\177+\332\246GA\360q\353fc\243\205$\331g_\266\220\220\231QlN\246@<\f\247m\317A\367\343\264\364\377e\007\342\317PK\317\320\244!\211z\016\361\370\277\237D\355\201\022\217\201\202\rj+\031R-\367\257\307\225h\"\327\362!\243\220Dv\237\246\370\364\2339\273\002\353\214o\352\313\264\325SG\3206\362\002\bj\303%p\013\345\376\220e\224,Bb\327\001E\"\232\027&'O\237\365~\271\267\322:MB\326\252\200\235\357\360\"\307\262\336\247e\207\211\340\322\213\325\340\204+\255\353\370/\353\210\237\364U\314cw\205\f3;L\223\233\373%k\307qk\277<\325\246\317\377I\037x\302z\357E9NF\357\213\212\220\303\177\034'\026\363\254\265\313\343\360\213u\227V:\332\317q\330\355\227\027\243\276\034\355\356R=\354\310\320C\216N\351\275\335K\356c\250\252\247L'\373\304\3241\242c\355j\357t>\251\312\350\217\370\034\373$_E^\224D+\022\216S\375\342\2636\3449\356\266\326u\271\026\266\226q\250\274\333`D]\310\251dL\323\347\3151\376F\351U\211\274J:\035\352\276\017\344\220A\276\275\230c\253\253k\335\210\244\244\256\023\035\265\321-\355~<\226\226\306\024\253\315M\232Xd\342\242<T\317\345\035\036\374\354\212\240p`\267~\215\313K)C_\245%;\250\255\310\2148e\336\260\276\236\363\023\267\016\357I\022\331\372\257\206\376\025\3357Cxl2i5n\253\307\374-\024\277-\212\004T\226\007\177\303\302I\226\371{9\331.\271\254\006\351{\311^t3\334\373\367\332\207\217z\347\327\243q\355=\273(\240i\375\332\350\264\231\254\360\206\f\316h\r\3522\b\304\274\021#\"\300\327\254\250\220\001\303\220\244?\n\365+\326\253*\260\r\330\322\372\340y\332\306g&y\333e\253\032\216\b\307\2038Y\030\221\270\001pWR?V\241\261\312\270\244\206o^\265&\002L\355&\317\253\t^\375\346\315\264\005[1X\201OTxa\013\306Z^\260\200!\307\261=\256aci\3269\216w\361u\334\240\3518\036\315\031:\274\003L\310q\325m\223\023\311#\307e@\240H\253\004_:\316JIxX\373v\234?(d\r\353b{\344\300\316-K\027\235\224\203O2\275\320\245;\232\035qB\371\035]\304yd\343~\354D\217\312\000e\r\223wet\365\313\036N\317\023\213\231~ _\350\273j\277h\231~\246!\303\330\355?\236\350v\342jE\357\302\277\036\020\352\363N\351\317\305\242\024\233\305\026\253\263\357\022JrX\321\361\241\273\345\354\200;\356J\320\225\227\334\216\256En\212*\037(a\312\251]D\273\275\2232\032\327\t-\365&r\371<\024u\025\352V\234_p&&<YX\347\033\246,iM\222l\203w\f\260/\213o.\341\242\317w\303\340\266Gd\225\017\234\373m\013z\231\213\303U\364\230\344\254^\275\211A\275$G\354?7\232\265\230\337\216W\266,\354\221\354\355X\347\017\305\000\343~\227\262\355\3437g\266g)/\341S\366\300\233^=\337t\356\202\000\322\340y\275l\364\231X![\206\213\021\252\243\200\006Y\330\354\207q\300\256\351\361g\256\225\224\314 Ho\016\350\351\215p\032d\356\001\332\335\334\177\024\215\005\t1\262X\206\220\3764A\210\025\324\237Y\360FK\275\336\356\2474>\202Q\252\032\311\007p\254\030\236l\226\352\321\301\315\342\345\324\260\335\004\306k\317\342\003\2362#\231\300\255\017\205\034\025\206\267F\203\333\204E\377k\2770\231S\246c\232ge\030d\022\346\026\377F\357|\177\350\317~\300`?\217~\313On_\214\025\256O\361\201\235\3608\0173^\276\343Iw\357\232\231\243m\242\305,\007\323\277\365\255\\\034U\253\001\200\f\t\313\366\367\310\307/s\331sc*\026\002\240O\313\375\372\232\335\334\375\347g(~\332M\001\304\021\237\236\270\001\025T\375\341\201\262\035Q\241\0015\326F\306&B\032\251|Z\"\037e\245\tB\302\213\330\367Xi\260\351\215xu3_\007FiYW\347\232\256\203\034d\261\326R\0007\211\227\303/-\241\301\232\244#\275]\214g\300\204k}\264{x\t\362\340F6\226\272\267@\3702c\316PM\353E\227\230\330\303;\251\345P\266\377\373\001\245 f\027\275\276\316\264\212\023\037\345\243\377zB\316\250?]\3547\001\2616l3o\306\337\214\351\200\311G\272\223\204A]DG\000\013\270\027\360#\341\273\331\250\270\345\221t\025Y\300\r\246\035\354l\331*\020\323\346/\333h\2557\230\310\207\222\023\344\307\032\352C\220\373\021\303\230E\276\272)w\030\335y\241\344T\264z\326\363\376\326m)\364\224^T\330\311\035j\341\ffX_\246\344\231\030\035\2734'\236R\342\214\217\177.\367\317]\300^\344\351\001\261E\347\032\260s\037\372\364Cupv]dB\035\027\241!\334\250S\034yJI\006j\272~Ir\256\004\225\211\222hc\027\235\333\207\004i\336\333\016\332E\372\253\266B<]\204\322\251E\003\326\222\222P\327\370\326\262\251E\272\222#\212\013\302\305\233[\222\206[\206\036\024\327hw\254l\2162\267\202\3626h\362\247&\331\fC\225\327\0072\377d#\257D\002\357\321\270\007\350I\275\346D\177\037\037v\355ja5\203\246\tb\234l \026_\347\246\323\250\305\271\002\244\017\214z\303\207\250\3336\241\220\b\0237h\003\315\211\227,\332TII\302dZ\345k\"!\"\200l\275\267\020\252\233\333\362\375\260\336\006k\251*\240\307\254\345\224\224\202\222o=]\226\310\305S5\310\371\027\037\2729#w\313\214\364\273:\267\250B\372\373nS\024\004v*\377\327x\265\204r\251i\234\272Jh\031\205\023\365\376\r\327\342%\317\023\204\303i]\302_fX\262~\321\214[\357\302\030e\364az\331\373?w/\357\0028\231\325y/\277\230\372\330\317\372\017U\373\252\003\206\377JX\373\356\2768\317\203\371S*\272\225\204g\277].\272\252\356\203a\362{tZ\224\335\262\240\227\372\\\264*\225\344\371\356\232\021q\371\224\337\210=9tau\272]\270\252\001V\3157z\027\353\214G\321\271\022\351:\263\n\301U\340b\254\356\022\270\314\"\264\253\221\t`M1k\230{W\252\027\346\177+\241\026\266\013\270\240\375\205~Z\355\224\235\337_vI\234\343\007s\204\276\023\217X\024}\302\353\373\351\255A\216\310\217%\256\330\262nY\034\263\346zd\031\322\261\273\363\256\331\216_\312o\343_\240\231\275\237F\336TX\rH\271{\336%\356;\004\200\326#\354\212j\256\020\232\247\032V\257\351J\005 \314,\247\255\004\332\224\200Q\241+\033\244\235\006(\377\367\020\331B\b]\360\322D\373\220\206\"\004y\377\232\252\207SJt\254\007\026:5(+EW\277A\225\251\350\\\221\227\211\233\210B\362u\026-/\222\372\323\021\332\272\3765a\225i\267\t.|]\233|\204\225\220i~\203\271\372C%\2149\3334\302\233\245\273\364\003^\344g\371\224.\357\007\022\302\262\002\317\365x\302\272\356\340\033\035}\365DK\271\257a\2012\027si*\331bd\3342\026\236\247\033\272\241\376\334\317\003u\217{}\223\277\233\205\221\242(\312>\324\303DRs\332\\x\257\002\3475\313\262\374\247d\372j\023\210\b:\253\255a\260\001\277\357\235\320\375\270E\030\252\212\b\026\031z\034\302\256k\305E='W\236T\255\212[\237\230\243r\232\306\366K\206x\366\342T\2546\231c?\246\207 <\232\335\247\026\264\033jW\204\177<\317\217\251(\313\300\325Q\034\241\242Dme\237\013\303\363\323\362\375\360%\263\261\244\345Jd\237C\347Yx\304\267\236\226\356\037\336\r\237]=\207\024ap\226\265eF\274\352\247U\321\006\265\f\251Yy\f\374\"\377W\353\362\210\325B$\361\247\t\330\313\207\335u\377\026\223/\353\212Sm\355\021\f\316\276\351TS\277\334\267\372\245m\250\310h\026\217\201.$*(\357\323\345\274\207Di}\001n\371\020\235V\032yu\244\217\254\251\225\303\334\201\3117UD\354`\327\222\215\263\027\024{\364S\342\273\205jU'9\215\367p\340\216\354\314xtm\225\223b\225\270C\270\232F\214\262'\000\227\321\310z8\273\272\246TfAX\257\2361\300\374\005{\231\006ji\320\351\277Q.\333\003\037\370\275\343\354\037D\342A\"\362\027\363\374\210\303&v\255\034\350'\325Z\322\252\356\335/<\253t\260\323\330#\342q\212\361\206Uj\325;\013\326IN\204gV-\207\366Vtube\005\307\205\333ae\001\254\370(\264l\321\022\273\276\3068\247R\272\276\001\32763\341\307\205\327in\370\006\321s4\027aF\002\300\354\234\263&\002E[\244\202\220\001]\371\327\002\360'\204`\260B\026rM\243\364A\264\367\215\003\3541\245x\\\323\233\316 \314qR\241uq\004g~\316\2263\310B\002)\377\206\323\204\351\306b\000\017A> \275i\241y\237h\b\346\243x{\300R\321Mh,\304\tX\307\202\212\337\314V\232p\247Ea\20275\f.\371\221\266\013@v`\246\210\313|\261B\241\307\274\2335\244\016\320\223\370\317j\376\333]\223\211\371\253\302CM\022\304\270\366\203\005\376R5\370\353\367V\363Jp\213z3zr\303\336S!{\363Z\026\230\\L.Y\300\030Ot\326\250\351Y\260\361\033\276s\337yo\360\336b\021\f\023dp\034\356\242\355\250+\254EV\313\335\212\347\213>\306\321\324\205\224\2226\027\327+>\225m\341.\3167\006J\247\2717\004\335\314\266\215\372\310\231\272\301\305\207\034\021\350\242\"\n@\222\230\234\035\240\024\231\333\324\261\n\221K\253\f\320\266\276\003%\310Y\177\022J^M\265\035\326\017\204d\256D.:0\037\227\334\265\240\342\322\345\211\322\376\354\352\\$~s\336\251q\244\215G_,\207>\250%t\255]\020V\024\216\r\261\031w\367(N\022/\321\030u\224k\231\361P\335o\252\232\331pk\275\202/\311<\343\377\226R\212\013U\001\020M\306lc{\373\013\334\277<\347\254N\252\001T\340\367G<Z\372\016\323\357\013!\330q\n\2014\354\372\254ex\\\351\343u\247\024\207\rM\241A\2479\030\177\226\263\343\\S\321\331\250P\240\t\022\021H\336\036|\240\0344\250E\020\3232\004F\253\n\355J\223M\344\221 \211+\352\203?\205\027VM\250\035\370`]\266hk\266\344\244\216f\235\253`\022%6\271\364\343B\006\344\035\316\031`Bk|+\327\301\363x\316\351\203\256\322\200\037\370\022\206[\366L\2620\027B\344$Z\007\241'\266\227g\3623\340\336\374\234R\035\2560I\311\261\243}\001\357@\230\026<D\247\244\331|\233\373N\206\356`\225(\037\216\245\212\350\006\b.A\235\342'*\271\272\362\246\361N\255\242\b\212y\221\304\333\261tgi\257\020\256\242X\313\212\354\327\265\365)\357\250\340\241m\312\254e\027\277\326\363\246\221\231\363*\323X\n\t\375\027?\335n\314\260\020\366\277\260\365\007\357LK\374\335\216\224\212\377\334\224\363\357\216\371d\025\020\257\275J\331\234\266\037\n=\370\225\3617\276\032\324\032m\235\017D\244\247LLv\273\355\305m!\211a\310\204\023U\215\321_\337S\352\264\233\344\264\365<\3752,U\370\342\233kt\222\241\302\035\"3\214\274?wj\266\333\202\206\021\267J3\245\352?\257\253\017\025\005\244\222#\350\325\344\016@\247\362\207M\313)-\203\246;\026\261\005\217\022\020Q\357\351 >t\370#\220\312[\035\307\262\026T%k$\251M\221\366,4\275\262\344x\337\216T\367\302\266\211\320\032\032\234@\266\357\216\253\213\261)\265s$\254\204\241 \303\320\243\253r\226\256\036t\242\220-\327\345\311\350\363\304\214V\017<\332\222\210ez|\246/~q\030\373\027\226\211e\210\267\352\376\230\033\220\273\335\215\336\371\235\373\353~\252e\245>\177\"t*U1Vx\205\372\246\036\325_'\207\217\225\210:\325\3365k\223\\(3\2057\361h\363\272*\211\212V\003F\270s\362\177\246\205-C\260iu+-,\204W\246\020\357\037\320s\374)\016b);\234\233\262\366gj\365\023\202\217{\264\221\272\363I\203B_\364\001\305\362\230\242s\232!6\251p\034$\023wqBv/?\313\020\001\252\203\323\214#\355\327\324\r\323S\373\016\376\252@J2\00486\364\006\245\350c\024]\311\236\325\320\334>\005\306C\261H\316\342|Y\264{\306\n\005\224\216\206\267\224\335\332\201\033\334o\241\032\370&\203\034\031\264\362|\312(1\221\351\345\244\020\233\360\243c\037a/\034\375r}\365c\037\316\324\301\354\214<g9;c\274\317\334\362<\247\001J\362\023\330\205\340\003\005\276\325\001\312\027\206\bAn\227\030N\247\330D\206-K\202\274\235\247J\321I\275\236!\321\016\326\347\370\335\242+\205Q\235E\234\354\003\265B\311\345\220\273\312E;\363R\202\253\341\223Cb\223;\037uj=\027\n\260\347b\026\332\270\324:x\ng\022\305\f\235\f\234\241\373\233\020\347\305$\213f\200+\373'\342\207\001E}aj\220\366\355-\200`\366\371\261\332\351A\226\334\371\204\264si9\240\370sx^Qd\322\273S8\246\341\350\341#d{H\013\333\262~cU4\343\007\215b\332,=\232\032\316\221_^\274j\001\334I\260\373\020x\314@\241Av\367uk\305\001S\\\334\235\n\313\177\310\004\351\251\272)c\033\341\263\271\211D\315\275\237\372EcT)\364;b\331 (\254\225@\255Gy\027|\2513\361\312\272\017)2\327]H\314\314\253\216\355I\300\326\276\324\251Y\177\206tZ\377\277V\362h\\p\214\356I\0240\037\250\0211\377o\354.\203s\214/j\\\031\374&\322\253~\377\305S\3751\310\267]\302\331\217]X\203U^\177\267\250|>\272%\3652\320\363t.\244\3535_\345\322\033\316(o\262?\3040\022:\315\263\201[\317c\321\200y\205\317\247z^KD\200\037b2\303\274\005\341\327f\303Q\0316^U\240\247\372\376\363+G\331\215@4\246\237\303\265j\310Q\271\376\360\366\230O\261P\301\217\2074c\205\372\3233\237V\232\277\321n\322\330\271\324\000^\223\234\310\000G\354\200/\206\n\007O\350\t\2015\270\303\372\300X'a\273'\315\310bbL\341B\246\364\234x\227\270\034\3258\200\275}\275\317\314\351\347\230\303V\275\346c\nG\340,\335\254\003@\344!\277t\254l\340\374\314X\030x\024\230\004P]\352\356\310\353C\f\036\2007\017\313\f\337\002RzR\225\272\346T\217%`\005\323\375\317\226\203\346\030\247\272i *\363.\270\306G\375\203|$ \337P\351AT\372W\0353\334L~\322\315\026t\213\322\221R\351\370\255\344?\023\340\035G\201\034Q.G\266\246#w\331\335\017\030X\345\230\241c\345\371\330\343Hv\352\247\352\t\017W\217\377D^/\234g\216\332\023\345Qe\314\322,s?\3265;\203\001\262\321X^\246~\177\007\370O\317K\003\n\344\201\336\202\367\372'\257\257\004\373\221a\017B\206.\021\213c\265\371\361\232\333\305y\3669\223\322'z\325\255\274\"x\256\201R7\030t\b8\307\261\330J\331\265\025\013\r\221\223\"\217H\005\203\034o\307\316\207\"\333MPu8\353\262\232\306\243\343Jy\302\251\353Qa\244\222\006\246_A\270\214\234\235\0273\3243\323\274\246\033\304\307\333(\363\327\201\302\356\237\204\000\bl\220\"\265\271\022\363\357M\"s\352\307\245\000\n\2074k\"h\327\357k\341\352\017\3459\317@f\324\000\203\025\241\346u\343\314\362)/\204\201\320\177\t\301\343ZI`S\034\200o\364:\345\241\304\337K\261\234\261[8h#`\213\261\211^\312\265\327\236\335\003\236rFB,8\356\035,\366\374\321F\203j\302\242\007l\251\033\343\264\222\333\031\236\205\030$\005s\213\t\307\223\342\033bwR\240\305"
	.size	.Lstatic.25, 10688

	.type	.Lstatic.26,@object
	.section	.rodata..Lstatic.26,"a",@progbits
	.p2align	2, 0x0
.Lstatic.26:
	.ascii	"\000\000\200?\000\000 A\000\000\310B\000\000zD\000@\034F\000P\303G\000$tI\200\226\030K \274\276L(knN\371\002\025P"
	.size	.Lstatic.26, 44

	.type	.Lstatic.30,@object
	.section	.rodata..Lstatic.30,"a",@progbits
	.p2align	3, 0x0
.Lstatic.30:
	.ascii	"\000\000\000\000\000\000\360?\000\000\000\000\000\000$@\000\000\000\000\000\000Y@\000\000\000\000\000@\217@\000\000\000\000\000\210\303@\000\000\000\000\000j\370@\000\000\000\000\200\204.A\000\000\000\000\320\022cA\000\000\000\000\204\327\227A\000\000\000\000e\315\315A\000\000\000 _\240\002B\000\000\000\350vH7B\000\000\000\242\224\032mB\000\000@\345\2340\242B\000\000\220\036\304\274\326B\000\0004&\365k\fC\000\200\3407y\303AC\000\240\330\205W4vC\000\310Ngm\301\253C\000=\221`\344X\341C@\214\265x\035\257\025DP\357\342\326\344\032KD\222\325M\006\317\360\200D"
	.size	.Lstatic.30, 184

	.type	.Lstatic.33,@object
	.section	.rodata..Lstatic.33,"a",@progbits
.Lstatic.33:
	.ascii	"$Double"
	.size	.Lstatic.33, 7

	.type	.Lstatic.34,@object
	.section	.rodata..Lstatic.34,"a",@progbits
.Lstatic.34:
	.ascii	"$DecimalValue"
	.size	.Lstatic.34, 13

	.type	.Lstatic.35,@object
	.section	.rodata..Lstatic.35,"a",@progbits
.Lstatic.35:
	.ascii	"e-"
	.size	.Lstatic.35, 2

	.type	.Lstatic.36,@object
	.section	.rodata..Lstatic.36,"a",@progbits
.Lstatic.36:
	.ascii	"$LongString"
	.size	.Lstatic.36, 11

	.type	.Lstatic.37,@object
	.section	.rodata.cst16,"aM",@progbits,16
.Lstatic.37:
	.ascii	"0123456789abcdef"
	.size	.Lstatic.37, 16

	.type	".Lswitch.table.amqp_c::input::Input::read_error",@object
	.section	".rodata..Lswitch.table.amqp_c::input::Input::read_error","a",@progbits
	.p2align	3, 0x0
".Lswitch.table.amqp_c::input::Input::read_error":
	.quad	1
	.quad	5
	.quad	2
	.quad	3
	.quad	4
	.quad	6
	.quad	7
	.size	".Lswitch.table.amqp_c::input::Input::read_error", 56

	.ident	"rattle logic=dac8208d650f15bf3e2dc313a14fa4c783a3acf887bdfab66e1714b038d9e11b"
	.ident	"clang version 22.1.8"
	.section	".note.GNU-stack","",@progbits
