	.file	"rattle"
	.section	.rodata.cst16,"aM",@progbits,16
	.p2align	4, 0x0
.LCPI0_0:
	.byte	1
	.byte	2
	.byte	4
	.byte	8
	.byte	16
	.byte	32
	.byte	64
	.byte	128
	.byte	1
	.byte	2
	.byte	4
	.byte	8
	.byte	16
	.byte	32
	.byte	64
	.byte	128
	.section	".text.core::cmp::slices::groups_equal::<i8,31'core::cmp::numbers::U8PartialEq{}>","ax",@progbits
	.p2align	2
	.type	"core::cmp::slices::groups_equal::<i8,31'core::cmp::numbers::U8PartialEq{}>",@function
"core::cmp::slices::groups_equal::<i8,31'core::cmp::numbers::U8PartialEq{}>":
	subs	x9, x1, #8
	b.hi	.LBB0_2
	sub	x8, x1, #4
	ldr	s0, [x0]
	ldr	s1, [x2]
	add	x9, x0, x8
	add	x8, x2, x8
	ld1	{ v0.s }[1], [x9]
	ld1	{ v1.s }[1], [x8]
	fmov	x8, d0
	fmov	x9, d1
	cmp	x8, x9
	cset	w8, ne
	eor	w0, w8, #0x1
	ret
.LBB0_2:
	subs	x8, x1, #32
	b.hi	.LBB0_4
	cmp	x9, #8
	mov	w8, #8
	mov	w10, #16
	csel	x8, x9, x8, lo
	cmp	x9, #16
	ldr	d0, [x0]
	ldr	d1, [x2]
	ldr	d2, [x0, x8]
	ldr	d3, [x2, x8]
	csel	x8, x9, x10, lo
	ldr	d5, [x2, x9]
	ldr	d4, [x0, x8]
	mov	v0.d[1], v2.d[0]
	mov	v1.d[1], v3.d[0]
	ldr	d2, [x2, x8]
	ldr	d3, [x0, x9]
	mov	v4.d[1], v3.d[0]
	mov	v2.d[1], v5.d[0]
	cmeq	v0.16b, v0.16b, v1.16b
	cmeq	v1.16b, v4.16b, v2.16b
	b	.LBB0_17
.LBB0_4:
	cmp	x1, #65
	b.hs	.LBB0_6
	ldp	q1, q0, [x0]
	add	x9, x2, x8
	ldp	q3, q2, [x2]
	add	x8, x0, x8
	ldp	q4, q5, [x9]
	cmeq	v1.16b, v1.16b, v3.16b
	cmeq	v0.16b, v0.16b, v2.16b
	ldp	q2, q3, [x8]
	mvn	v1.16b, v1.16b
	mvn	v0.16b, v0.16b
	cmeq	v2.16b, v2.16b, v4.16b
	cmeq	v3.16b, v3.16b, v5.16b
	orn	v0.16b, v0.16b, v3.16b
	orn	v1.16b, v1.16b, v2.16b
	orr	v0.16b, v1.16b, v0.16b
	umaxv	b0, v0.16b
	fmov	w8, s0
	and	w8, w8, #0x1
	eor	w0, w8, #0x1
	ret
.LBB0_6:
	and	x9, x1, #0xffffffffffffffc0
	add	x10, x0, #32
	add	x12, x2, #32
	mov	w11, #32
	mov	x13, x1
.LBB0_7:
	ldp	q0, q3, [x12, #-32]
	ldp	q1, q2, [x10, #-32]
	ldp	q4, q5, [x12], #64
	cmeq	v0.16b, v1.16b, v0.16b
	cmeq	v1.16b, v2.16b, v3.16b
	ldp	q2, q3, [x10], #64
	mvn	v0.16b, v0.16b
	mvn	v1.16b, v1.16b
	cmeq	v2.16b, v2.16b, v4.16b
	cmeq	v3.16b, v3.16b, v5.16b
	orn	v0.16b, v0.16b, v2.16b
	orn	v1.16b, v1.16b, v3.16b
	orr	v0.16b, v1.16b, v0.16b
	umaxv	b0, v0.16b
	fmov	w14, s0
	tbnz	w14, #0, .LBB0_10
	sub	x13, x13, #64
	add	x11, x11, #64
	cmp	x13, #64
	b.hs	.LBB0_7
	sub	x10, x1, x9
	cmp	x10, #32
	b.hs	.LBB0_11
	b	.LBB0_16
.LBB0_10:
	sub	x9, x11, #32
	sub	x10, x1, x9
	cmp	x10, #32
	b.lo	.LBB0_16
.LBB0_11:
	add	x11, x0, x9
	add	x9, x2, x9
.LBB0_12:
	ldp	q0, q1, [x11], #32
	ldp	q2, q3, [x9], #32
	adrp	x12, .LCPI0_0
	cmeq	v1.16b, v1.16b, v3.16b
	cmeq	v0.16b, v0.16b, v2.16b
	ldr	q2, [x12, :lo12:.LCPI0_0]
	bic	v1.16b, v2.16b, v1.16b
	bic	v0.16b, v2.16b, v0.16b
	ext	v2.16b, v1.16b, v1.16b, #8
	ext	v3.16b, v0.16b, v0.16b, #8
	zip1	v1.16b, v1.16b, v2.16b
	zip1	v0.16b, v0.16b, v3.16b
	addv	h1, v1.8h
	addv	h0, v0.8h
	fmov	w12, s1
	fmov	w13, s0
	orr	w12, w13, w12
	tst	w12, #0xffff
	b.ne	.LBB0_14
	sub	x10, x10, #32
	cmp	x10, #32
	b.hs	.LBB0_12
	b	.LBB0_16
.LBB0_14:
	cmp	x10, #31
	b.ls	.LBB0_16
	mov	w8, #1
	eor	w0, w8, #0x1
	ret
.LBB0_16:
	add	x9, x0, x8
	add	x8, x2, x8
	ldp	q0, q3, [x8]
	ldp	q1, q2, [x9]
	cmeq	v0.16b, v1.16b, v0.16b
	cmeq	v1.16b, v2.16b, v3.16b
.LBB0_17:
	mvn	v0.16b, v0.16b
	orn	v0.16b, v0.16b, v1.16b
	umaxv	b0, v0.16b
	fmov	w8, s0
	and	w8, w8, #0x1
	eor	w0, w8, #0x1
	ret
.Lfunc_end0:
	.size	"core::cmp::slices::groups_equal::<i8,31'core::cmp::numbers::U8PartialEq{}>", .Lfunc_end0-"core::cmp::slices::groups_equal::<i8,31'core::cmp::numbers::U8PartialEq{}>"

	.section	".text.amqp_in_place::canonical::are_canonical_values","ax",@progbits
	.p2align	2
	.type	"amqp_in_place::canonical::are_canonical_values",@function
"amqp_in_place::canonical::are_canonical_values":
	stp	x29, x30, [sp, #-48]!
	stp	x22, x21, [sp, #16]
	mov	x29, sp
	stp	x20, x19, [sp, #32]
	cbz	x1, .LBB1_32
	mov	x19, x2
	b	.LBB1_5
.LBB1_2:
	ldrb	w8, [x0, #1]
	cmp	w8, #2
	b.hs	.LBB1_34
.LBB1_3:
	add	x9, x0, #2
	sub	x22, x1, #2
.LBB1_4:
	mov	x1, x22
	mov	x0, x9
	cbz	x22, .LBB1_32
.LBB1_5:
	ldrb	w9, [x0]
	subs	x22, x1, #1
	b.eq	.LBB1_7
	cmp	w9, #116
	b.eq	.LBB1_2
.LBB1_7:
	cmp	w9, #76
	mov	w8, wzr
	b.eq	.LBB1_33
	cmp	w9, #85
	b.eq	.LBB1_33
	sub	w9, w9, #65
	mov	w8, wzr
	cmp	w9, #55
	b.hi	.LBB1_33
	adrp	x10, .LJTI1_0
	add	x10, x10, :lo12:.LJTI1_0
	adr	x11, .LBB1_4
	ldrb	w12, [x10, x9]
	add	x11, x11, x12, lsl #2
	add	x9, x0, #1
	br	x11
.LBB1_11:
	cmp	x22, #8
	b.lo	.LBB1_34
	add	x9, x0, #9
	sub	x22, x1, #9
	b	.LBB1_4
.LBB1_13:
	cmp	x22, #4
	b.lo	.LBB1_34
	add	x9, x0, #5
	sub	x22, x1, #5
	b	.LBB1_4
.LBB1_15:
	cbnz	x22, .LBB1_3
	b	.LBB1_34
.LBB1_16:
	cmp	x22, #2
	b.lo	.LBB1_34
	add	x9, x0, #3
	sub	x22, x1, #3
	b	.LBB1_4
.LBB1_18:
	subs	x8, x1, #5
	b.lo	.LBB1_34
	ldr	w9, [x9]
	rev	w9, w9
	subs	x22, x8, x9
	b.lo	.LBB1_34
	add	x8, x0, x9
	add	x9, x8, #5
	b	.LBB1_4
.LBB1_21:
	subs	x22, x1, #6
	b.lo	.LBB1_34
	add	x9, x0, #6
	b	.LBB1_4
.LBB1_23:
	subs	x8, x1, #5
	b.lo	.LBB1_34
	ldr	w9, [x9]
	rev	w20, w9
	subs	x22, x8, x20
	mov	w8, wzr
	b.lo	.LBB1_33
	cbz	x19, .LBB1_33
	add	x21, x0, #5
	sub	x2, x19, #1
	mov	x1, x20
	mov	x0, x21
	bl	"amqp_in_place::canonical::are_canonical_values"
	cbnz	w0, .LBB1_31
	b	.LBB1_34
.LBB1_27:
	subs	x8, x1, #5
	b.lo	.LBB1_34
	ldr	w9, [x9]
	rev	w20, w9
	subs	x22, x8, x20
	mov	w8, wzr
	b.lo	.LBB1_33
	cbz	x19, .LBB1_33
	add	x21, x0, #5
	sub	x2, x19, #1
	mov	x1, x20
	mov	x0, x21
	bl	"amqp_in_place::canonical::are_canonical_pairs"
	tbz	w0, #0, .LBB1_34
.LBB1_31:
	add	x9, x21, x20
	b	.LBB1_4
.LBB1_32:
	mov	w8, #1
.LBB1_33:
	ldp	x20, x19, [sp, #32]
	mov	w0, w8
	ldp	x22, x21, [sp, #16]
	ldp	x29, x30, [sp], #48
	ret
.LBB1_34:
	mov	w8, wzr
	ldp	x20, x19, [sp, #32]
	mov	w0, w8
	ldp	x22, x21, [sp, #16]
	ldp	x29, x30, [sp], #48
	ret
.Lfunc_end1:
	.size	"amqp_in_place::canonical::are_canonical_values", .Lfunc_end1-"amqp_in_place::canonical::are_canonical_values"
	.section	".rodata.amqp_in_place::canonical::are_canonical_values","a",@progbits
.LJTI1_0:
	.byte	(.LBB1_23-.LBB1_4)>>2
	.byte	(.LBB1_15-.LBB1_4)>>2
	.byte	(.LBB1_33-.LBB1_4)>>2
	.byte	(.LBB1_21-.LBB1_4)>>2
	.byte	(.LBB1_33-.LBB1_4)>>2
	.byte	(.LBB1_27-.LBB1_4)>>2
	.byte	(.LBB1_33-.LBB1_4)>>2
	.byte	(.LBB1_33-.LBB1_4)>>2
	.byte	(.LBB1_13-.LBB1_4)>>2
	.byte	(.LBB1_33-.LBB1_4)>>2
	.byte	(.LBB1_33-.LBB1_4)>>2
	.byte	(.LBB1_11-.LBB1_4)>>2
	.byte	(.LBB1_33-.LBB1_4)>>2
	.byte	(.LBB1_33-.LBB1_4)>>2
	.byte	(.LBB1_33-.LBB1_4)>>2
	.byte	(.LBB1_33-.LBB1_4)>>2
	.byte	(.LBB1_33-.LBB1_4)>>2
	.byte	(.LBB1_33-.LBB1_4)>>2
	.byte	(.LBB1_18-.LBB1_4)>>2
	.byte	(.LBB1_11-.LBB1_4)>>2
	.byte	(.LBB1_16-.LBB1_4)>>2
	.byte	(.LBB1_4-.LBB1_4)>>2
	.byte	(.LBB1_33-.LBB1_4)>>2
	.byte	(.LBB1_33-.LBB1_4)>>2
	.byte	(.LBB1_33-.LBB1_4)>>2
	.byte	(.LBB1_33-.LBB1_4)>>2
	.byte	(.LBB1_33-.LBB1_4)>>2
	.byte	(.LBB1_33-.LBB1_4)>>2
	.byte	(.LBB1_33-.LBB1_4)>>2
	.byte	(.LBB1_33-.LBB1_4)>>2
	.byte	(.LBB1_33-.LBB1_4)>>2
	.byte	(.LBB1_33-.LBB1_4)>>2
	.byte	(.LBB1_33-.LBB1_4)>>2
	.byte	(.LBB1_15-.LBB1_4)>>2
	.byte	(.LBB1_33-.LBB1_4)>>2
	.byte	(.LBB1_11-.LBB1_4)>>2
	.byte	(.LBB1_33-.LBB1_4)>>2
	.byte	(.LBB1_13-.LBB1_4)>>2
	.byte	(.LBB1_33-.LBB1_4)>>2
	.byte	(.LBB1_33-.LBB1_4)>>2
	.byte	(.LBB1_13-.LBB1_4)>>2
	.byte	(.LBB1_33-.LBB1_4)>>2
	.byte	(.LBB1_33-.LBB1_4)>>2
	.byte	(.LBB1_11-.LBB1_4)>>2
	.byte	(.LBB1_33-.LBB1_4)>>2
	.byte	(.LBB1_33-.LBB1_4)>>2
	.byte	(.LBB1_33-.LBB1_4)>>2
	.byte	(.LBB1_33-.LBB1_4)>>2
	.byte	(.LBB1_33-.LBB1_4)>>2
	.byte	(.LBB1_33-.LBB1_4)>>2
	.byte	(.LBB1_16-.LBB1_4)>>2
	.byte	(.LBB1_15-.LBB1_4)>>2
	.byte	(.LBB1_16-.LBB1_4)>>2
	.byte	(.LBB1_33-.LBB1_4)>>2
	.byte	(.LBB1_33-.LBB1_4)>>2
	.byte	(.LBB1_18-.LBB1_4)>>2

	.section	".text.amqp_in_place::canonical::are_canonical_pairs","ax",@progbits
	.p2align	2
	.type	"amqp_in_place::canonical::are_canonical_pairs",@function
"amqp_in_place::canonical::are_canonical_pairs":
	stp	x29, x30, [sp, #-64]!
	stp	x24, x23, [sp, #16]
	mov	x29, sp
	stp	x22, x21, [sp, #32]
	stp	x20, x19, [sp, #48]
	cbz	x1, .LBB2_2
	mov	x19, x2
	mov	x20, xzr
	mov	x21, xzr
	mov	w8, wzr
	b	.LBB2_6
.LBB2_2:
	mov	w8, #1
.LBB2_3:
	ldp	x20, x19, [sp, #48]
	mov	w0, w8
	ldp	x22, x21, [sp, #32]
	ldp	x24, x23, [sp, #16]
	ldp	x29, x30, [sp], #64
	ret
.LBB2_4:
	add	x0, x23, x22
	mov	x1, x24
.LBB2_5:
	mov	w8, #1
	cbz	x1, .LBB2_3
.LBB2_6:
	mov	x10, x21
	mov	x21, x0
	mov	x9, x20
	ldrb	w20, [x21], #1
	sub	x22, x1, #1
	subs	x23, x22, x20
	b.lo	.LBB2_73
	tbz	w8, #0, .LBB2_23
	cmp	x20, x9
	csel	x8, x20, x9, lo
	cmp	x8, #64
	b.hs	.LBB2_10
	mov	x11, xzr
	b	.LBB2_14
.LBB2_10:
	mov	x11, xzr
	add	x12, x0, #33
	mov	x13, x8
.LBB2_11:
	add	x14, x10, x11
	add	x15, x12, x11
	ldp	q0, q3, [x15, #-32]
	ldp	q1, q2, [x14]
	ldp	q4, q5, [x15]
	cmeq	v0.16b, v1.16b, v0.16b
	cmeq	v1.16b, v2.16b, v3.16b
	ldp	q2, q3, [x14, #32]
	mvn	v0.16b, v0.16b
	mvn	v1.16b, v1.16b
	cmeq	v2.16b, v2.16b, v4.16b
	cmeq	v3.16b, v3.16b, v5.16b
	orn	v0.16b, v0.16b, v2.16b
	orn	v1.16b, v1.16b, v3.16b
	orr	v0.16b, v1.16b, v0.16b
	umaxv	b0, v0.16b
	fmov	w14, s0
	tbnz	w14, #0, .LBB2_14
	sub	x13, x13, #64
	add	x11, x11, #64
	cmp	x13, #63
	b.hi	.LBB2_11
	and	x11, x8, #0xc0
.LBB2_14:
	sub	x12, x8, x11
	cmp	x12, #8
	b.lo	.LBB2_17
.LBB2_15:
	ldr	x13, [x10, x11]
	ldr	x14, [x21, x11]
	cmp	x13, x14
	b.ne	.LBB2_17
	sub	x12, x12, #8
	add	x11, x11, #8
	cmp	x12, #7
	b.hi	.LBB2_15
.LBB2_17:
	subs	x8, x8, x11
	b.ls	.LBB2_21
	add	x12, x0, x11
	add	x10, x10, x11
	add	x12, x12, #1
.LBB2_19:
	ldrb	w11, [x10], #1
	ldrb	w13, [x12], #1
	cmp	w11, w13
	b.ne	.LBB2_22
	subs	x8, x8, #1
	b.ne	.LBB2_19
.LBB2_21:
	cmp	x9, x20
.LBB2_22:
	b.hs	.LBB2_73
.LBB2_23:
	cmp	w20, #7
	b.hi	.LBB2_39
	cbz	w20, .LBB2_40
	ldrsb	w8, [x0, #1]
	tbnz	w8, #31, .LBB2_62
	cmp	w20, #1
	b.eq	.LBB2_40
	ldrsb	w8, [x0, #2]
	tbnz	w8, #31, .LBB2_62
	cmp	w20, #2
	b.eq	.LBB2_40
	ldrsb	w8, [x0, #3]
	tbnz	w8, #31, .LBB2_62
	cmp	w20, #3
	b.eq	.LBB2_40
	ldrsb	w8, [x0, #4]
	tbnz	w8, #31, .LBB2_62
	cmp	w20, #4
	b.eq	.LBB2_40
	ldrsb	w8, [x0, #5]
	tbnz	w8, #31, .LBB2_62
	cmp	w20, #5
	b.eq	.LBB2_40
	ldrsb	w8, [x0, #6]
	tbnz	w8, #31, .LBB2_62
	cmp	w20, #6
	b.eq	.LBB2_40
	ldrsb	w8, [x0, #7]
	tbnz	w8, #31, .LBB2_62
	cmp	w20, #7
	b.eq	.LBB2_40
	b	.LBB2_62
.LBB2_39:
	mov	x0, x21
	mov	x1, x20
	bl	"amqp_in_place::read::is_ascii_by_words"
	tbz	w0, #0, .LBB2_62
.LBB2_40:
	add	x9, x21, x20
	cbz	x23, .LBB2_46
	cmp	x23, #1
	b.ne	.LBB2_43
	ldrb	w10, [x9]
	b	.LBB2_44
.LBB2_43:
	ldrb	w10, [x9]
	cmp	w10, #116
	b.eq	.LBB2_51
.LBB2_44:
	cmp	w10, #76
	mov	w8, wzr
	b.eq	.LBB2_3
	cmp	w10, #85
	b.eq	.LBB2_3
.LBB2_46:
	cmp	x22, x20
	b.eq	.LBB2_73
.LBB2_47:
	add	x0, x21, x20
	ldrb	w8, [x0], #1
	sub	w10, w8, #65
	mov	w8, wzr
	cmp	w10, #55
	b.hi	.LBB2_3
	adrp	x11, .LJTI2_0
	add	x11, x11, :lo12:.LJTI2_0
	sub	x1, x23, #1
	adr	x12, .LBB2_3
	ldrb	w13, [x11, x10]
	add	x12, x12, x13, lsl #2
	br	x12
.LBB2_49:
	cmp	x1, #8
	b.lo	.LBB2_73
	add	x0, x9, #9
	sub	x1, x23, #9
	b	.LBB2_5
.LBB2_51:
	ldrb	w8, [x9, #1]
	cmp	w8, #1
	mov	w8, wzr
	b.hi	.LBB2_3
	cmp	x22, x20
	b.ne	.LBB2_47
	b	.LBB2_3
.LBB2_53:
	cbz	x1, .LBB2_73
	add	x0, x9, #2
	sub	x1, x23, #2
	b	.LBB2_5
.LBB2_55:
	cmp	x1, #4
	b.lo	.LBB2_73
	add	x0, x9, #5
	sub	x1, x23, #5
	b	.LBB2_5
.LBB2_57:
	cmp	x1, #2
	b.lo	.LBB2_73
	add	x0, x9, #3
	sub	x1, x23, #3
	b	.LBB2_5
.LBB2_59:
	cmp	x1, #4
	b.lo	.LBB2_73
	ldr	w8, [x0]
	sub	x10, x23, #5
	rev	w8, w8
	subs	x1, x10, x8
	b.lo	.LBB2_73
	add	x8, x9, x8
	add	x0, x8, #5
	b	.LBB2_5
.LBB2_62:
	mov	x0, x21
	mov	x1, x20
	bl	"amqp_in_place::read::is_utf8"
	cbnz	w0, .LBB2_40
	b	.LBB2_73
.LBB2_63:
	cmp	x1, #4
	b.lo	.LBB2_73
	ldr	w8, [x0]
	rev	w22, w8
	sub	x8, x23, #5
	subs	x24, x8, x22
	mov	w8, wzr
	b.lo	.LBB2_3
	cbz	x19, .LBB2_3
	add	x23, x9, #5
	sub	x2, x19, #1
	mov	x1, x22
	mov	x0, x23
	bl	"amqp_in_place::canonical::are_canonical_pairs"
	tbnz	w0, #0, .LBB2_4
	b	.LBB2_73
.LBB2_67:
	cmp	x1, #5
	b.lo	.LBB2_73
	add	x0, x9, #6
	sub	x1, x23, #6
	b	.LBB2_5
.LBB2_69:
	cmp	x1, #4
	b.lo	.LBB2_73
	ldr	w8, [x0]
	rev	w22, w8
	sub	x8, x23, #5
	subs	x24, x8, x22
	mov	w8, wzr
	b.lo	.LBB2_3
	cbz	x19, .LBB2_3
	add	x23, x9, #5
	sub	x2, x19, #1
	mov	x1, x22
	mov	x0, x23
	bl	"amqp_in_place::canonical::are_canonical_values"
	cbnz	w0, .LBB2_4
.LBB2_73:
	mov	w8, wzr
	ldp	x20, x19, [sp, #48]
	mov	w0, w8
	ldp	x22, x21, [sp, #32]
	ldp	x24, x23, [sp, #16]
	ldp	x29, x30, [sp], #64
	ret
.Lfunc_end2:
	.size	"amqp_in_place::canonical::are_canonical_pairs", .Lfunc_end2-"amqp_in_place::canonical::are_canonical_pairs"
	.section	".rodata.amqp_in_place::canonical::are_canonical_pairs","a",@progbits
.LJTI2_0:
	.byte	(.LBB2_69-.LBB2_3)>>2
	.byte	(.LBB2_53-.LBB2_3)>>2
	.byte	(.LBB2_3-.LBB2_3)>>2
	.byte	(.LBB2_67-.LBB2_3)>>2
	.byte	(.LBB2_3-.LBB2_3)>>2
	.byte	(.LBB2_63-.LBB2_3)>>2
	.byte	(.LBB2_3-.LBB2_3)>>2
	.byte	(.LBB2_3-.LBB2_3)>>2
	.byte	(.LBB2_55-.LBB2_3)>>2
	.byte	(.LBB2_3-.LBB2_3)>>2
	.byte	(.LBB2_3-.LBB2_3)>>2
	.byte	(.LBB2_49-.LBB2_3)>>2
	.byte	(.LBB2_3-.LBB2_3)>>2
	.byte	(.LBB2_3-.LBB2_3)>>2
	.byte	(.LBB2_3-.LBB2_3)>>2
	.byte	(.LBB2_3-.LBB2_3)>>2
	.byte	(.LBB2_3-.LBB2_3)>>2
	.byte	(.LBB2_3-.LBB2_3)>>2
	.byte	(.LBB2_59-.LBB2_3)>>2
	.byte	(.LBB2_49-.LBB2_3)>>2
	.byte	(.LBB2_57-.LBB2_3)>>2
	.byte	(.LBB2_5-.LBB2_3)>>2
	.byte	(.LBB2_3-.LBB2_3)>>2
	.byte	(.LBB2_3-.LBB2_3)>>2
	.byte	(.LBB2_3-.LBB2_3)>>2
	.byte	(.LBB2_3-.LBB2_3)>>2
	.byte	(.LBB2_3-.LBB2_3)>>2
	.byte	(.LBB2_3-.LBB2_3)>>2
	.byte	(.LBB2_3-.LBB2_3)>>2
	.byte	(.LBB2_3-.LBB2_3)>>2
	.byte	(.LBB2_3-.LBB2_3)>>2
	.byte	(.LBB2_3-.LBB2_3)>>2
	.byte	(.LBB2_3-.LBB2_3)>>2
	.byte	(.LBB2_53-.LBB2_3)>>2
	.byte	(.LBB2_3-.LBB2_3)>>2
	.byte	(.LBB2_49-.LBB2_3)>>2
	.byte	(.LBB2_3-.LBB2_3)>>2
	.byte	(.LBB2_55-.LBB2_3)>>2
	.byte	(.LBB2_3-.LBB2_3)>>2
	.byte	(.LBB2_3-.LBB2_3)>>2
	.byte	(.LBB2_55-.LBB2_3)>>2
	.byte	(.LBB2_3-.LBB2_3)>>2
	.byte	(.LBB2_3-.LBB2_3)>>2
	.byte	(.LBB2_49-.LBB2_3)>>2
	.byte	(.LBB2_3-.LBB2_3)>>2
	.byte	(.LBB2_3-.LBB2_3)>>2
	.byte	(.LBB2_3-.LBB2_3)>>2
	.byte	(.LBB2_3-.LBB2_3)>>2
	.byte	(.LBB2_3-.LBB2_3)>>2
	.byte	(.LBB2_3-.LBB2_3)>>2
	.byte	(.LBB2_57-.LBB2_3)>>2
	.byte	(.LBB2_53-.LBB2_3)>>2
	.byte	(.LBB2_57-.LBB2_3)>>2
	.byte	(.LBB2_3-.LBB2_3)>>2
	.byte	(.LBB2_3-.LBB2_3)>>2
	.byte	(.LBB2_59-.LBB2_3)>>2

	.section	".text.amqp_in_place::read::is_ascii_by_words","ax",@progbits
	.p2align	2
	.type	"amqp_in_place::read::is_ascii_by_words",@function
"amqp_in_place::read::is_ascii_by_words":
	sub	sp, sp, #32
	cmp	x1, #64
	stp	x29, x30, [sp, #16]
	add	x29, sp, #16
	stp	x0, x1, [sp]
	b.hi	.LBB3_3
	cmp	x1, #32
	b.lo	.LBB3_4
	add	x8, x0, x1
	ldp	q0, q1, [x0]
	ldp	q2, q3, [x8, #-32]
	orr	v1.16b, v1.16b, v3.16b
	orr	v0.16b, v0.16b, v2.16b
	orr	v0.16b, v0.16b, v1.16b
	ext	v1.16b, v0.16b, v0.16b, #8
	orr	v0.8b, v0.8b, v1.8b
	fmov	x8, d0
	tst	x8, #0x8080808080808080
	b.eq	.LBB3_5
.LBB3_3:
	mov	x0, sp
	bl	"core::slice::words::any_by_first::<#52f9edcae2f82f51>"
	eor	w0, w0, #0x1
	ldp	x29, x30, [sp, #16]
	add	sp, sp, #32
	ret
.LBB3_4:
	sub	x8, x1, #8
	mov	w9, #8
	mov	w10, #16
	cmp	x8, #8
	ldr	x11, [x0]
	csel	x9, x8, x9, lo
	cmp	x8, #16
	csel	x10, x8, x10, lo
	ldr	x9, [x0, x9]
	ldr	x8, [x0, x8]
	ldr	x10, [x0, x10]
	orr	x9, x9, x11
	orr	x8, x10, x8
	orr	x8, x9, x8
	tst	x8, #0x8080808080808080
	b.ne	.LBB3_3
.LBB3_5:
	mov	w0, #1
	ldp	x29, x30, [sp, #16]
	add	sp, sp, #32
	ret
.Lfunc_end3:
	.size	"amqp_in_place::read::is_ascii_by_words", .Lfunc_end3-"amqp_in_place::read::is_ascii_by_words"

	.section	".text.core::str::ascii::slice+u8::is_ascii","ax",@progbits
	.p2align	2
	.type	"core::str::ascii::slice+u8::is_ascii",@function
"core::str::ascii::slice+u8::is_ascii":
	sub	sp, sp, #32
	cmp	x1, #7
	stp	x29, x30, [sp, #16]
	add	x29, sp, #16
	stp	x0, x1, [sp]
	b.hi	.LBB4_15
	cbz	x1, .LBB4_18
	ldrsb	w8, [x0]
	tbnz	w8, #31, .LBB4_21
	cmp	x1, #1
	mov	x8, x1
	b.eq	.LBB4_22
	ldrsb	w8, [x0, #1]
	tbnz	w8, #31, .LBB4_23
	cmp	x1, #2
	mov	x8, x1
	b.eq	.LBB4_22
	ldrsb	w8, [x0, #2]
	tbnz	w8, #31, .LBB4_24
	cmp	x1, #3
	mov	x8, x1
	b.eq	.LBB4_22
	ldrsb	w8, [x0, #3]
	tbnz	w8, #31, .LBB4_25
	cmp	x1, #4
	mov	x8, x1
	b.eq	.LBB4_22
	ldrsb	w8, [x0, #4]
	tbnz	w8, #31, .LBB4_26
	cmp	x1, #5
	mov	x8, x1
	b.eq	.LBB4_22
	ldrsb	w8, [x0, #5]
	tbnz	w8, #31, .LBB4_27
	cmp	x1, #6
	mov	x8, x1
	b.eq	.LBB4_22
	ldrsb	w8, [x0, #6]
	cmp	w8, #0
	mov	w8, #6
	csel	x8, x8, x1, mi
	cmp	x8, x1
	cset	w0, lo
	ldp	x29, x30, [sp, #16]
	eor	w0, w0, #0x1
	add	sp, sp, #32
	ret
.LBB4_15:
	cmp	x1, #64
	b.hi	.LBB4_20
	cmp	x1, #32
	b.lo	.LBB4_19
	add	x8, x0, x1
	ldp	q0, q1, [x0]
	ldp	q2, q3, [x8, #-32]
	orr	v1.16b, v1.16b, v3.16b
	orr	v0.16b, v0.16b, v2.16b
	orr	v0.16b, v0.16b, v1.16b
	ext	v1.16b, v0.16b, v0.16b, #8
	orr	v0.8b, v0.8b, v1.8b
	fmov	x8, d0
	tst	x8, #0x8080808080808080
	b.ne	.LBB4_20
.LBB4_18:
	ldp	x29, x30, [sp, #16]
	eor	w0, wzr, #0x1
	add	sp, sp, #32
	ret
.LBB4_19:
	sub	x8, x1, #8
	mov	w9, #8
	mov	w10, #16
	cmp	x8, #8
	ldr	x11, [x0]
	csel	x9, x8, x9, lo
	cmp	x8, #16
	csel	x10, x8, x10, lo
	ldr	x9, [x0, x9]
	ldr	x8, [x0, x8]
	ldr	x10, [x0, x10]
	orr	x9, x9, x11
	orr	x8, x10, x8
	orr	x8, x9, x8
	tst	x8, #0x8080808080808080
	b.eq	.LBB4_18
.LBB4_20:
	mov	x0, sp
	bl	"core::slice::words::any_by_first::<#52f9edcae2f82f51>"
	ldp	x29, x30, [sp, #16]
	eor	w0, w0, #0x1
	add	sp, sp, #32
	ret
.LBB4_21:
	mov	x8, xzr
.LBB4_22:
	cmp	x8, x1
	cset	w0, lo
	ldp	x29, x30, [sp, #16]
	eor	w0, w0, #0x1
	add	sp, sp, #32
	ret
.LBB4_23:
	mov	w8, #1
	cmp	x8, x1
	cset	w0, lo
	ldp	x29, x30, [sp, #16]
	eor	w0, w0, #0x1
	add	sp, sp, #32
	ret
.LBB4_24:
	mov	w8, #2
	cmp	x8, x1
	cset	w0, lo
	ldp	x29, x30, [sp, #16]
	eor	w0, w0, #0x1
	add	sp, sp, #32
	ret
.LBB4_25:
	mov	w8, #3
	cmp	x8, x1
	cset	w0, lo
	ldp	x29, x30, [sp, #16]
	eor	w0, w0, #0x1
	add	sp, sp, #32
	ret
.LBB4_26:
	mov	w8, #4
	cmp	x8, x1
	cset	w0, lo
	ldp	x29, x30, [sp, #16]
	eor	w0, w0, #0x1
	add	sp, sp, #32
	ret
.LBB4_27:
	mov	w8, #5
	cmp	x8, x1
	cset	w0, lo
	ldp	x29, x30, [sp, #16]
	eor	w0, w0, #0x1
	add	sp, sp, #32
	ret
.Lfunc_end4:
	.size	"core::str::ascii::slice+u8::is_ascii", .Lfunc_end4-"core::str::ascii::slice+u8::is_ascii"

	.section	".text.core::slice::words::any_by_first::<#52f9edcae2f82f51>","ax",@progbits
	.p2align	2
	.type	"core::slice::words::any_by_first::<#52f9edcae2f82f51>",@function
"core::slice::words::any_by_first::<#52f9edcae2f82f51>":
	stp	x29, x30, [sp, #-32]!
	str	x19, [sp, #16]
	mov	x19, x1
	mov	x1, xzr
	mov	x2, x19
	mov	x29, sp
	bl	"core::slice::words::first::<#52f9edcae2f82f51>"
	cmp	x0, x19
	ldr	x19, [sp, #16]
	cset	w0, lo
	ldp	x29, x30, [sp], #32
	ret
.Lfunc_end5:
	.size	"core::slice::words::any_by_first::<#52f9edcae2f82f51>", .Lfunc_end5-"core::slice::words::any_by_first::<#52f9edcae2f82f51>"

	.section	".text.core::slice::words::first::<#52f9edcae2f82f51>","ax",@progbits
	.p2align	2
	.type	"core::slice::words::first::<#52f9edcae2f82f51>",@function
"core::slice::words::first::<#52f9edcae2f82f51>":
	stp	x29, x30, [sp, #-48]!
	sub	x8, x2, x1
	stp	x20, x19, [sp, #32]
	mov	x19, x2
	cmp	x8, #8
	mov	x20, x0
	str	x21, [sp, #16]
	mov	x29, sp
	b.hs	.LBB6_7
	cmp	x19, x1
	b.ls	.LBB6_15
	ldr	x8, [x20]
.LBB6_3:
	ldrsb	w9, [x8, x1]
	tbnz	w9, #31, .LBB6_16
	add	x1, x1, #1
	cmp	x19, x1
	b.ne	.LBB6_3
	mov	x0, x19
.LBB6_6:
	ldp	x20, x19, [sp, #32]
	ldr	x21, [sp, #16]
	ldp	x29, x30, [sp], #48
	ret
.LBB6_7:
	ldr	x21, [x20]
	mov	w9, #8
	ldr	x8, [x21, x1]
	ands	x8, x8, #0x8080808080808080
	rbit	x8, x8
	clz	x8, x8
	lsr	x8, x8, #3
	csel	x8, x9, x8, eq
	add	x0, x8, x1
	add	x8, x1, #8
	cmp	x0, x8
	b.lo	.LBB6_6
	sub	x8, x19, x0
	cmp	x8, #32
	b.lo	.LBB6_11
.LBB6_9:
	add	x8, x21, x0
	ldp	q1, q0, [x8]
	orr	v0.16b, v1.16b, v0.16b
	ext	v1.16b, v0.16b, v0.16b, #8
	orr	v0.8b, v0.8b, v1.8b
	fmov	x8, d0
	tst	x8, #0x8080808080808080
	b.ne	.LBB6_11
	add	x1, x0, #32
	mov	x0, x20
	mov	x2, x19
	bl	"core::slice::words::skip_far::<#52f9edcae2f82f51>"
	sub	x8, x19, x0
	cmp	x8, #31
	b.hi	.LBB6_9
.LBB6_11:
	sub	x8, x19, x0
.LBB6_12:
	cmp	x8, #9
	b.lo	.LBB6_17
	ldr	x9, [x21, x0]
	mov	w10, #8
	add	x0, x0, #8
	sub	x8, x8, #8
	ands	x9, x9, #0x8080808080808080
	rbit	x9, x9
	clz	x9, x9
	lsr	x9, x9, #3
	csel	x9, x10, x9, eq
	add	x9, x9, x0
	sub	x9, x9, #8
	cmp	x9, x0
	b.hs	.LBB6_12
	mov	x0, x9
	ldp	x20, x19, [sp, #32]
	ldr	x21, [sp, #16]
	ldp	x29, x30, [sp], #48
	ret
.LBB6_15:
	mov	x0, x19
	ldp	x20, x19, [sp, #32]
	ldr	x21, [sp, #16]
	ldp	x29, x30, [sp], #48
	ret
.LBB6_16:
	mov	x0, x1
	ldp	x20, x19, [sp, #32]
	ldr	x21, [sp, #16]
	ldp	x29, x30, [sp], #48
	ret
.LBB6_17:
	sub	x8, x19, #8
	mov	w10, #8
	ldr	x9, [x21, x8]
	ands	x9, x9, #0x8080808080808080
	rbit	x9, x9
	clz	x9, x9
	lsr	x9, x9, #3
	csel	x9, x10, x9, eq
	add	x0, x9, x8
	ldp	x20, x19, [sp, #32]
	ldr	x21, [sp, #16]
	ldp	x29, x30, [sp], #48
	ret
.Lfunc_end6:
	.size	"core::slice::words::first::<#52f9edcae2f82f51>", .Lfunc_end6-"core::slice::words::first::<#52f9edcae2f82f51>"

	.section	".text.core::slice::words::skip_far::<#52f9edcae2f82f51>","ax",@progbits
	.p2align	2
	.type	"core::slice::words::skip_far::<#52f9edcae2f82f51>",@function
"core::slice::words::skip_far::<#52f9edcae2f82f51>":
	sub	x8, x2, x1
	cmp	x8, #64
	b.lo	.LBB7_4
	ldr	x9, [x0]
.LBB7_2:
	add	x10, x9, x1
	ldp	q0, q1, [x10, #32]
	ldp	q2, q3, [x10]
	orr	v1.16b, v3.16b, v1.16b
	orr	v0.16b, v2.16b, v0.16b
	orr	v0.16b, v0.16b, v1.16b
	ext	v1.16b, v0.16b, v0.16b, #8
	orr	v0.8b, v0.8b, v1.8b
	fmov	x10, d0
	tst	x10, #0x8080808080808080
	b.ne	.LBB7_4
	sub	x8, x8, #64
	add	x1, x1, #64
	cmp	x8, #63
	b.hi	.LBB7_2
.LBB7_4:
	mov	x0, x1
	ret
.Lfunc_end7:
	.size	"core::slice::words::skip_far::<#52f9edcae2f82f51>", .Lfunc_end7-"core::slice::words::skip_far::<#52f9edcae2f82f51>"

	.section	.rodata.cst16,"aM",@progbits,16
	.p2align	4, 0x0
.LCPI8_0:
	.byte	1
	.byte	2
	.byte	4
	.byte	8
	.byte	16
	.byte	32
	.byte	64
	.byte	128
	.byte	1
	.byte	2
	.byte	4
	.byte	8
	.byte	16
	.byte	32
	.byte	64
	.byte	128
.LCPI8_1:
	.byte	255
	.byte	255
	.byte	255
	.byte	255
	.byte	255
	.byte	255
	.byte	255
	.byte	255
	.byte	255
	.byte	255
	.byte	255
	.byte	255
	.byte	255
	.byte	239
	.byte	223
	.byte	191
	.section	".text.unlikely.amqp_in_place::read::is_utf8","ax",@progbits
	.p2align	2
	.type	"amqp_in_place::read::is_utf8",@function
"amqp_in_place::read::is_utf8":
	stp	d15, d14, [sp, #-112]!
	sub	x9, sp, #272
	stp	d13, d12, [sp, #16]
	stp	d11, d10, [sp, #32]
	stp	d9, d8, [sp, #48]
	stp	x29, x30, [sp, #64]
	add	x29, sp, #64
	stp	x28, x21, [sp, #80]
	stp	x20, x19, [sp, #96]
	and	sp, x9, #0xffffffffffffffc0
	movi	v6.2d, #0000000000000000
	mov	x2, x1
	cmp	x1, #64
	adrp	x20, .LCPI8_0
	adrp	x19, .LCPI8_1
	b.lo	.LBB8_4
	mov	x8, xzr
	and	x11, x2, #0xffffffffffffffc0
	mov	x9, x0
.LBB8_2:
	ldp	q2, q3, [x9]
	ldr	q1, [x20, :lo12:.LCPI8_0]
	ldp	q4, q5, [x9, #32]
	cmlt	v2.16b, v2.16b, #0
	cmlt	v3.16b, v3.16b, #0
	cmlt	v5.16b, v5.16b, #0
	cmlt	v4.16b, v4.16b, #0
	and	v2.16b, v2.16b, v1.16b
	and	v3.16b, v3.16b, v1.16b
	and	v4.16b, v4.16b, v1.16b
	and	v5.16b, v5.16b, v1.16b
	addp	v2.16b, v2.16b, v3.16b
	addp	v3.16b, v4.16b, v5.16b
	addp	v2.16b, v2.16b, v3.16b
	addp	v2.16b, v2.16b, v2.16b
	fmov	x10, d2
	cbnz	x10, .LBB8_6
	sub	x2, x2, #64
	add	x8, x8, #64
	add	x9, x9, #64
	cmp	x2, #63
	b.hi	.LBB8_2
	b	.LBB8_5
.LBB8_4:
	mov	x11, xzr
.LBB8_5:
	movi	v0.2d, #0000000000000000
	mov	x9, xzr
	stp	q0, q0, [sp, #48]
	stp	q0, q0, [sp, #80]
	stp	q0, q0, [sp, #112]
	stp	q0, q0, [sp, #144]
	str	q0, [sp, #176]
	b	.LBB8_12
.LBB8_6:
	movi	v2.2d, #0000000000000000
	movi	v24.2d, #0000000000000000
	mov	x10, x2
	movi	v25.2d, #0000000000000000
	movi	v22.2d, #0000000000000000
	movi	v26.2d, #0000000000000000
	movi	v0.2d, #0000000000000000
	movi	v18.2d, #0000000000000000
	movi	v19.2d, #0000000000000000
	movi	v20.2d, #0000000000000000
	b	.LBB8_9
.LBB8_7:
	movi	v7.16b, #192
	stp	q20, q19, [sp, #112]
	ext	v20.16b, v27.16b, v4.16b, #15
	ext	v17.16b, v4.16b, v23.16b, #15
	ext	v21.16b, v28.16b, v27.16b, #15
	stp	q18, q0, [sp, #144]
	movi	v3.16b, #128
	movi	v16.16b, #191
	str	q23, [sp, #176]
	ext	v22.16b, v2.16b, v28.16b, #15
	movi	v6.16b, #240
	cmgt	v19.16b, v7.16b, v23.16b
	cmgt	v31.16b, v7.16b, v27.16b
	str	q2, [sp, #96]
	cmgt	v18.16b, v7.16b, v28.16b
	cmgt	v26.16b, v7.16b, v4.16b
	cmgt	v29.16b, v7.16b, v17.16b
	cmhi	v9.16b, v21.16b, v16.16b
	cmhi	v10.16b, v20.16b, v16.16b
	cmhi	v12.16b, v17.16b, v16.16b
	and	v24.16b, v19.16b, v3.16b
	cmgt	v8.16b, v7.16b, v21.16b
	and	v13.16b, v31.16b, v3.16b
	movi	v14.16b, #224
	cmgt	v30.16b, v7.16b, v20.16b
	and	v23.16b, v18.16b, v3.16b
	and	v11.16b, v26.16b, v3.16b
	cmhi	v16.16b, v22.16b, v16.16b
	eor	v10.16b, v26.16b, v10.16b
	and	v3.16b, v24.16b, v29.16b
	eor	v31.16b, v31.16b, v9.16b
	eor	v19.16b, v19.16b, v12.16b
	and	v26.16b, v13.16b, v8.16b
	movi	v9.16b, #160
	movi	v13.16b, #144
	and	v24.16b, v11.16b, v30.16b
	eor	v11.16b, v18.16b, v16.16b
	cmeq	v12.16b, v22.16b, v14.16b
	str	q3, [sp, #64]
	uqsub	v3.16b, v31.16b, v8.16b
	uqsub	v18.16b, v10.16b, v30.16b
	cmeq	v30.16b, v22.16b, v6.16b
	uqsub	v19.16b, v19.16b, v29.16b
	cmeq	v29.16b, v17.16b, v14.16b
	cmeq	v31.16b, v17.16b, v6.16b
	movi	v0.16b, #237
	cmgt	v2.16b, v7.16b, v22.16b
	cmeq	v10.16b, v20.16b, v14.16b
	cmeq	v14.16b, v21.16b, v14.16b
	and	v12.16b, v12.16b, v9.16b
	str	q3, [sp, #80]
	cmeq	v15.16b, v21.16b, v6.16b
	and	v30.16b, v30.16b, v13.16b
	and	v29.16b, v29.16b, v9.16b
	and	v31.16b, v31.16b, v13.16b
	movi	v8.16b, #244
	uqsub	v16.16b, v11.16b, v2.16b
	and	v11.16b, v14.16b, v9.16b
	and	v9.16b, v10.16b, v9.16b
	cmeq	v10.16b, v20.16b, v6.16b
	and	v14.16b, v15.16b, v13.16b
	orr	v30.16b, v12.16b, v30.16b
	orr	v29.16b, v29.16b, v31.16b
	cmeq	v31.16b, v22.16b, v0.16b
	cmeq	v12.16b, v17.16b, v0.16b
	cmeq	v15.16b, v20.16b, v0.16b
	cmeq	v0.16b, v21.16b, v0.16b
	cmeq	v5.16b, v22.16b, v8.16b
	and	v10.16b, v10.16b, v13.16b
	cmeq	v25.16b, v17.16b, v8.16b
	and	v23.16b, v23.16b, v2.16b
	orn	v31.16b, v13.16b, v31.16b
	orn	v12.16b, v13.16b, v12.16b
	cmeq	v2.16b, v20.16b, v8.16b
	orn	v15.16b, v13.16b, v15.16b
	orn	v0.16b, v13.16b, v0.16b
	movi	v13.16b, #128
	cmeq	v3.16b, v21.16b, v8.16b
	orr	v9.16b, v9.16b, v10.16b
	ldr	q10, [sp, #176]
	orr	v11.16b, v11.16b, v14.16b
	movi	v14.16b, #1
	and	v10.16b, v10.16b, v6.16b
	orn	v5.16b, v13.16b, v5.16b
	orn	v25.16b, v13.16b, v25.16b
	orn	v2.16b, v13.16b, v2.16b
	orn	v3.16b, v13.16b, v3.16b
	movi	v13.16b, #254
	and	v5.16b, v31.16b, v5.16b
	and	v31.16b, v28.16b, v6.16b
	and	v25.16b, v12.16b, v25.16b
	and	v3.16b, v0.16b, v3.16b
	uqsub	v0.16b, v29.16b, v10.16b
	and	v2.16b, v15.16b, v2.16b
	uqsub	v15.16b, v20.16b, v8.16b
	and	v12.16b, v4.16b, v6.16b
	and	v6.16b, v27.16b, v6.16b
	uqsub	v29.16b, v30.16b, v31.16b
	uqsub	v31.16b, v31.16b, v5.16b
	and	v5.16b, v22.16b, v13.16b
	uqsub	v30.16b, v10.16b, v25.16b
	and	v25.16b, v20.16b, v13.16b
	and	v10.16b, v21.16b, v13.16b
	uqsub	v22.16b, v22.16b, v8.16b
	and	v13.16b, v17.16b, v13.16b
	uqsub	v21.16b, v21.16b, v8.16b
	cmeq	v5.16b, v5.16b, v7.16b
	uqsub	v8.16b, v17.16b, v8.16b
	uqsub	v20.16b, v11.16b, v6.16b
	cmeq	v10.16b, v10.16b, v7.16b
	cmeq	v25.16b, v25.16b, v7.16b
	uqsub	v17.16b, v12.16b, v2.16b
	cmeq	v13.16b, v13.16b, v7.16b
	uqsub	v3.16b, v6.16b, v3.16b
	orr	v24.16b, v15.16b, v24.16b
	ldr	q15, [sp, #176]
	and	v2.16b, v5.16b, v14.16b
	orr	v5.16b, v22.16b, v23.16b
	and	v6.16b, v10.16b, v14.16b
	ldr	q10, [sp, #176]
	and	v22.16b, v25.16b, v14.16b
	ldr	q25, [sp, #64]
	uqsub	v7.16b, v9.16b, v12.16b
	ldr	q12, [sp, #96]
	orr	v21.16b, v21.16b, v26.16b
	movi	v26.16b, #96
	movi	v9.16b, #112
	orr	v25.16b, v8.16b, v25.16b
	ext	v8.16b, v28.16b, v27.16b, #13
	ext	v10.16b, v4.16b, v10.16b, #14
	ext	v15.16b, v4.16b, v15.16b, #13
	and	v23.16b, v13.16b, v14.16b
	orr	v2.16b, v5.16b, v2.16b
	ext	v5.16b, v28.16b, v27.16b, #14
	ext	v11.16b, v12.16b, v28.16b, #14
	ext	v12.16b, v12.16b, v28.16b, #13
	ext	v13.16b, v27.16b, v4.16b, #14
	ext	v14.16b, v27.16b, v4.16b, #13
	orr	v6.16b, v21.16b, v6.16b
	orr	v21.16b, v24.16b, v22.16b
	orr	v2.16b, v2.16b, v16.16b
	uqsub	v16.16b, v8.16b, v9.16b
	uqsub	v24.16b, v10.16b, v26.16b
	uqsub	v8.16b, v15.16b, v9.16b
	orr	v22.16b, v25.16b, v23.16b
	uqsub	v5.16b, v5.16b, v26.16b
	uqsub	v23.16b, v11.16b, v26.16b
	uqsub	v25.16b, v12.16b, v9.16b
	uqsub	v26.16b, v13.16b, v26.16b
	uqsub	v9.16b, v14.16b, v9.16b
	orr	v18.16b, v21.16b, v18.16b
	ldr	q21, [sp, #80]
	orr	v3.16b, v3.16b, v20.16b
	orr	v19.16b, v22.16b, v19.16b
	orr	v20.16b, v24.16b, v8.16b
	movi	v24.16b, #128
	orr	v0.16b, v30.16b, v0.16b
	orr	v6.16b, v6.16b, v21.16b
	orr	v21.16b, v31.16b, v29.16b
	orr	v5.16b, v5.16b, v16.16b
	orr	v7.16b, v17.16b, v7.16b
	orr	v16.16b, v23.16b, v25.16b
	ldr	q23, [sp, #176]
	orr	v17.16b, v26.16b, v9.16b
	movi	v22.2d, #0xffffffffffffffff
	orr	v0.16b, v19.16b, v0.16b
	orr	v21.16b, v2.16b, v21.16b
	orr	v2.16b, v6.16b, v3.16b
	and	v3.16b, v5.16b, v24.16b
	orr	v6.16b, v18.16b, v7.16b
	ldr	q18, [x19, :lo12:.LCPI8_1]
	and	v7.16b, v16.16b, v24.16b
	and	v16.16b, v20.16b, v24.16b
	ldp	q20, q19, [sp, #112]
	and	v17.16b, v17.16b, v24.16b
	uqsub	v24.16b, v28.16b, v22.16b
	uqsub	v25.16b, v27.16b, v22.16b
	uqsub	v22.16b, v4.16b, v22.16b
	uqsub	v26.16b, v23.16b, v18.16b
	eor	v5.16b, v2.16b, v3.16b
	eor	v3.16b, v0.16b, v16.16b
	ldp	q18, q0, [sp, #144]
	eor	v2.16b, v6.16b, v17.16b
	eor	v4.16b, v21.16b, v7.16b
.LBB8_8:
	orr	v0.16b, v4.16b, v0.16b
	orr	v18.16b, v5.16b, v18.16b
	sub	x10, x10, #64
	orr	v19.16b, v2.16b, v19.16b
	orr	v20.16b, v3.16b, v20.16b
	cmp	x10, #63
	mov	v2.16b, v23.16b
	add	x9, x9, #64
	b.ls	.LBB8_11
.LBB8_9:
	ldp	q28, q27, [x9]
	ldp	q4, q23, [x9, #32]
	cmlt	v6.16b, v28.16b, #0
	cmlt	v17.16b, v27.16b, #0
	cmlt	v7.16b, v23.16b, #0
	cmlt	v16.16b, v4.16b, #0
	and	v6.16b, v6.16b, v1.16b
	and	v17.16b, v17.16b, v1.16b
	and	v16.16b, v16.16b, v1.16b
	and	v7.16b, v7.16b, v1.16b
	addp	v6.16b, v6.16b, v17.16b
	addp	v7.16b, v16.16b, v7.16b
	addp	v6.16b, v6.16b, v7.16b
	addp	v6.16b, v6.16b, v6.16b
	fmov	x11, d6
	cbnz	x11, .LBB8_7
	mov	v4.16b, v24.16b
	mov	v5.16b, v25.16b
	mov	v2.16b, v22.16b
	mov	v3.16b, v26.16b
	movi	v24.2d, #0000000000000000
	movi	v25.2d, #0000000000000000
	movi	v22.2d, #0000000000000000
	movi	v26.2d, #0000000000000000
	b	.LBB8_8
.LBB8_11:
	movi	v6.2d, #0000000000000000
	and	x9, x2, #0xffffffffffffffc0
	mov	x11, x8
	mov	x2, x10
	stp	q26, q22, [sp, #48]
	stp	q25, q24, [sp, #80]
	stp	q20, q19, [sp, #112]
	stp	q0, q23, [sp, #160]
	str	q18, [sp, #144]
.LBB8_12:
	add	x8, x0, x11
	add	x0, sp, #192
	stp	q6, q6, [sp, #192]
	add	x1, x8, x9
	stp	q6, q6, [sp, #224]
	add	x21, sp, #192
	bl	memcpy
	ldr	d2, [sp, #240]
	orr	x8, x21, #0x38
	ldr	q5, [sp, #224]
	ldp	q3, q4, [sp, #192]
	ldr	q0, [x20, :lo12:.LCPI8_0]
	ld1	{ v2.b }[8], [x8]
	mov	w8, #57
	cmlt	v18.16b, v5.16b, #0
	orr	x8, x21, x8
	cmlt	v16.16b, v3.16b, #0
	cmlt	v19.16b, v4.16b, #0
	ld1	{ v2.b }[9], [x8]
	mov	w8, #58
	and	v18.16b, v18.16b, v0.16b
	orr	x8, x21, x8
	and	v16.16b, v16.16b, v0.16b
	and	v19.16b, v19.16b, v0.16b
	ld1	{ v2.b }[10], [x8]
	mov	w8, #59
	orr	x8, x21, x8
	addp	v16.16b, v16.16b, v19.16b
	ld1	{ v2.b }[11], [x8]
	orr	x8, x21, #0x3c
	ld1	{ v2.b }[12], [x8]
	mov	w8, #61
	orr	x8, x21, x8
	mov	v6.16b, v2.16b
	ld1	{ v6.b }[13], [x8]
	orr	x8, x21, #0x3e
	mov	v7.16b, v6.16b
	ld1	{ v7.b }[14], [x8]
	orr	x8, x21, #0x3f
	mov	v1.16b, v7.16b
	ld1	{ v1.b }[15], [x8]
	cmlt	v17.16b, v1.16b, #0
	and	v17.16b, v17.16b, v0.16b
	addp	v17.16b, v18.16b, v17.16b
	addp	v16.16b, v16.16b, v17.16b
	ldp	q19, q17, [sp, #48]
	addp	v16.16b, v16.16b, v16.16b
	fmov	x8, d16
	ldp	q18, q16, [sp, #80]
	cbz	x8, .LBB8_14
	ext	v24.16b, v5.16b, v7.16b, #15
	movi	v7.16b, #192
	ldr	q16, [sp, #176]
	ext	v26.16b, v3.16b, v4.16b, #15
	movi	v17.16b, #191
	str	q6, [sp, #96]
	ext	v21.16b, v16.16b, v3.16b, #15
	movi	v16.16b, #128
	stp	q1, q0, [sp]
	ext	v20.16b, v4.16b, v5.16b, #15
	movi	v15.16b, #224
	mov	v0.16b, v5.16b
	cmgt	v23.16b, v7.16b, v1.16b
	cmgt	v6.16b, v7.16b, v24.16b
	cmgt	v27.16b, v7.16b, v3.16b
	cmgt	v28.16b, v7.16b, v5.16b
	cmhi	v29.16b, v26.16b, v17.16b
	cmgt	v31.16b, v7.16b, v4.16b
	cmgt	v8.16b, v7.16b, v26.16b
	cmhi	v9.16b, v21.16b, v17.16b
	cmgt	v19.16b, v7.16b, v21.16b
	and	v10.16b, v23.16b, v16.16b
	and	v11.16b, v27.16b, v16.16b
	cmhi	v30.16b, v20.16b, v17.16b
	and	v12.16b, v28.16b, v16.16b
	and	v13.16b, v31.16b, v16.16b
	eor	v31.16b, v31.16b, v29.16b
	cmhi	v17.16b, v24.16b, v17.16b
	cmgt	v18.16b, v7.16b, v20.16b
	eor	v9.16b, v27.16b, v9.16b
	and	v16.16b, v6.16b, v10.16b
	eor	v30.16b, v28.16b, v30.16b
	and	v27.16b, v19.16b, v11.16b
	and	v29.16b, v8.16b, v13.16b
	cmeq	v10.16b, v24.16b, v15.16b
	cmeq	v11.16b, v21.16b, v15.16b
	eor	v14.16b, v23.16b, v17.16b
	and	v28.16b, v18.16b, v12.16b
	mov	v7.16b, v1.16b
	str	q16, [sp, #32]
	uqsub	v16.16b, v31.16b, v8.16b
	movi	v31.16b, #160
	cmeq	v8.16b, v26.16b, v15.16b
	mov	v17.16b, v3.16b
	ext	v2.16b, v0.16b, v2.16b, #13
	uqsub	v23.16b, v14.16b, v6.16b
	movi	v6.16b, #240
	str	q16, [sp, #80]
	uqsub	v16.16b, v30.16b, v18.16b
	cmeq	v30.16b, v20.16b, v15.16b
	movi	v15.16b, #237
	and	v8.16b, v8.16b, v31.16b
	and	v11.16b, v11.16b, v31.16b
	cmeq	v12.16b, v26.16b, v6.16b
	cmeq	v14.16b, v20.16b, v6.16b
	cmeq	v13.16b, v21.16b, v6.16b
	and	v18.16b, v30.16b, v31.16b
	movi	v30.16b, #244
	and	v31.16b, v10.16b, v31.16b
	str	q16, [sp, #64]
	uqsub	v16.16b, v9.16b, v19.16b
	movi	v9.16b, #144
	movi	v19.16b, #240
	cmeq	v6.16b, v24.16b, v15.16b
	cmeq	v25.16b, v21.16b, v15.16b
	cmeq	v1.16b, v20.16b, v15.16b
	cmeq	v15.16b, v26.16b, v15.16b
	cmeq	v3.16b, v24.16b, v30.16b
	cmeq	v22.16b, v21.16b, v30.16b
	cmeq	v5.16b, v26.16b, v30.16b
	str	q16, [sp, #48]
	and	v10.16b, v12.16b, v9.16b
	and	v12.16b, v14.16b, v9.16b
	cmeq	v14.16b, v24.16b, v19.16b
	and	v13.16b, v13.16b, v9.16b
	orn	v6.16b, v9.16b, v6.16b
	orn	v25.16b, v9.16b, v25.16b
	orn	v1.16b, v9.16b, v1.16b
	mov	v16.16b, v4.16b
	cmeq	v4.16b, v20.16b, v30.16b
	orr	v18.16b, v18.16b, v12.16b
	orr	v10.16b, v8.16b, v10.16b
	and	v14.16b, v14.16b, v9.16b
	orn	v9.16b, v9.16b, v15.16b
	movi	v15.16b, #128
	orr	v11.16b, v11.16b, v13.16b
	and	v13.16b, v7.16b, v19.16b
	movi	v7.16b, #192
	orr	v31.16b, v31.16b, v14.16b
	movi	v14.16b, #1
	orn	v3.16b, v15.16b, v3.16b
	orn	v22.16b, v15.16b, v22.16b
	orn	v4.16b, v15.16b, v4.16b
	orn	v5.16b, v15.16b, v5.16b
	movi	v15.16b, #254
	uqsub	v8.16b, v31.16b, v13.16b
	and	v3.16b, v6.16b, v3.16b
	and	v1.16b, v1.16b, v4.16b
	and	v4.16b, v25.16b, v22.16b
	and	v6.16b, v17.16b, v19.16b
	and	v5.16b, v9.16b, v5.16b
	and	v22.16b, v26.16b, v15.16b
	and	v25.16b, v20.16b, v15.16b
	and	v12.16b, v24.16b, v15.16b
	uqsub	v9.16b, v13.16b, v3.16b
	uqsub	v3.16b, v26.16b, v30.16b
	and	v13.16b, v21.16b, v15.16b
	uqsub	v31.16b, v6.16b, v4.16b
	uqsub	v26.16b, v11.16b, v6.16b
	and	v6.16b, v0.16b, v19.16b
	cmeq	v4.16b, v22.16b, v7.16b
	and	v22.16b, v16.16b, v19.16b
	cmeq	v25.16b, v25.16b, v7.16b
	cmeq	v11.16b, v13.16b, v7.16b
	cmeq	v7.16b, v12.16b, v7.16b
	uqsub	v12.16b, v21.16b, v30.16b
	orr	v3.16b, v3.16b, v29.16b
	uqsub	v29.16b, v20.16b, v30.16b
	uqsub	v20.16b, v18.16b, v6.16b
	and	v4.16b, v4.16b, v14.16b
	uqsub	v1.16b, v6.16b, v1.16b
	uqsub	v6.16b, v22.16b, v5.16b
	uqsub	v5.16b, v24.16b, v30.16b
	ldr	q24, [sp, #96]
	and	v7.16b, v7.16b, v14.16b
	uqsub	v21.16b, v10.16b, v22.16b
	and	v10.16b, v25.16b, v14.16b
	and	v18.16b, v11.16b, v14.16b
	orr	v3.16b, v3.16b, v4.16b
	orr	v4.16b, v29.16b, v28.16b
	orr	v22.16b, v12.16b, v27.16b
	ext	v25.16b, v0.16b, v24.16b, #14
	ldr	q24, [sp, #32]
	movi	v27.16b, #96
	movi	v28.16b, #112
	orr	v7.16b, v7.16b, v23.16b
	ext	v23.16b, v16.16b, v0.16b, #14
	ext	v29.16b, v16.16b, v0.16b, #13
	ldr	q0, [sp, #176]
	orr	v5.16b, v5.16b, v24.16b
	ext	v24.16b, v17.16b, v16.16b, #14
	ext	v30.16b, v17.16b, v16.16b, #13
	orr	v4.16b, v4.16b, v10.16b
	ext	v16.16b, v0.16b, v17.16b, #14
	ext	v10.16b, v0.16b, v17.16b, #13
	ldr	q0, [sp, #16]
	orr	v17.16b, v22.16b, v18.16b
	ldr	q18, [sp, #48]
	uqsub	v22.16b, v25.16b, v27.16b
	uqsub	v2.16b, v2.16b, v28.16b
	uqsub	v23.16b, v23.16b, v27.16b
	uqsub	v25.16b, v29.16b, v28.16b
	uqsub	v24.16b, v24.16b, v27.16b
	uqsub	v29.16b, v30.16b, v28.16b
	orr	v6.16b, v6.16b, v21.16b
	orr	v17.16b, v17.16b, v18.16b
	ldr	q18, [sp, #64]
	uqsub	v16.16b, v16.16b, v27.16b
	uqsub	v19.16b, v10.16b, v28.16b
	movi	v21.16b, #128
	orr	v5.16b, v5.16b, v7.16b
	orr	v7.16b, v9.16b, v8.16b
	orr	v4.16b, v4.16b, v18.16b
	ldr	q18, [sp, #80]
	orr	v2.16b, v22.16b, v2.16b
	orr	v1.16b, v1.16b, v20.16b
	orr	v20.16b, v23.16b, v25.16b
	orr	v3.16b, v3.16b, v18.16b
	orr	v18.16b, v24.16b, v29.16b
	orr	v5.16b, v5.16b, v7.16b
	orr	v7.16b, v31.16b, v26.16b
	orr	v16.16b, v16.16b, v19.16b
	ldr	q19, [x19, :lo12:.LCPI8_1]
	and	v2.16b, v2.16b, v21.16b
	orr	v1.16b, v4.16b, v1.16b
	ldr	q4, [sp]
	orr	v3.16b, v3.16b, v6.16b
	and	v6.16b, v18.16b, v21.16b
	orr	v7.16b, v17.16b, v7.16b
	and	v16.16b, v16.16b, v21.16b
	and	v17.16b, v20.16b, v21.16b
	uqsub	v4.16b, v4.16b, v19.16b
	eor	v2.16b, v5.16b, v2.16b
	eor	v18.16b, v3.16b, v6.16b
	eor	v17.16b, v1.16b, v17.16b
	eor	v16.16b, v7.16b, v16.16b
	orr	v19.16b, v2.16b, v4.16b
.LBB8_14:
	ldp	q2, q1, [sp, #144]
	ldp	q4, q3, [sp, #112]
	orr	v1.16b, v16.16b, v1.16b
	orr	v2.16b, v18.16b, v2.16b
	orr	v3.16b, v17.16b, v3.16b
	orr	v4.16b, v19.16b, v4.16b
	cmeq	v1.16b, v1.16b, #0
	cmeq	v2.16b, v2.16b, #0
	cmeq	v4.16b, v4.16b, #0
	cmeq	v3.16b, v3.16b, #0
	bic	v1.16b, v0.16b, v1.16b
	bic	v2.16b, v0.16b, v2.16b
	bic	v3.16b, v0.16b, v3.16b
	bic	v0.16b, v0.16b, v4.16b
	addp	v1.16b, v1.16b, v2.16b
	addp	v0.16b, v3.16b, v0.16b
	addp	v0.16b, v1.16b, v0.16b
	addp	v0.16b, v0.16b, v0.16b
	fmov	x8, d0
	cmp	x8, #0
	cset	w0, eq
	sub	sp, x29, #64
	ldp	x20, x19, [sp, #96]
	ldp	x28, x21, [sp, #80]
	ldp	x29, x30, [sp, #64]
	ldp	d9, d8, [sp, #48]
	ldp	d11, d10, [sp, #32]
	ldp	d13, d12, [sp, #16]
	ldp	d15, d14, [sp], #112
	ret
.Lfunc_end8:
	.size	"amqp_in_place::read::is_utf8", .Lfunc_end8-"amqp_in_place::read::is_utf8"

	.section	".text.amqp_c::input::Input::read_error","ax",@progbits
	.p2align	2
	.type	"amqp_c::input::Input::read_error",@function
"amqp_c::input::Input::read_error":
	sub	sp, sp, #192
	str	x25, [sp, #128]
	ldrb	w8, [x1, #24]
	stp	x24, x23, [sp, #144]
	ldp	x25, x24, [x1]
	stp	x22, x21, [sp, #160]
	mov	w21, w2
	ldp	w23, w22, [x1, #16]
	stp	x20, x19, [sp, #176]
	mov	x20, x1
	mov	x19, x0
	stp	x29, x30, [sp, #112]
	add	x29, sp, #112
	tbnz	w8, #0, .LBB9_4
	and	w8, w21, #0xff
	str	xzr, [sp, #56]
	cmp	w8, #2
	b.eq	.LBB9_3
	sub	x0, x29, #48
	mov	x1, x25
	mov	x2, x24
	mov	w3, w23
	mov	w4, w22
	bl	"amqp_in_place::read::read_in_place"
	ldurb	w8, [x29, #-48]
	cbz	w8, .LBB9_11
.LBB9_3:
	add	x0, sp, #40
	mov	x1, x25
	mov	x2, x24
	mov	w3, w21
	mov	w4, w23
	mov	w5, w22
	bl	"amqp_in_place::problems::search"
	ldrb	w8, [sp, #40]
	ldr	x21, [sp, #48]
	ldrb	w22, [sp, #56]
	ldrb	w23, [sp, #57]
	b	.LBB9_13
.LBB9_4:
	and	w8, w21, #0xff
	stur	xzr, [x29, #-32]
	cmp	w8, #2
	b.eq	.LBB9_12
	subs	x8, x24, #4
	b.lo	.LBB9_12
	cbz	w22, .LBB9_12
	ldr	w9, [x25]
	rev	w1, w9
	add	x9, x1, #5
	cmp	x9, x23
	b.hi	.LBB9_12
	cmp	x8, x1
	b.lo	.LBB9_12
	add	x0, x25, #4
	sub	x2, x22, #1
	bl	"amqp_in_place::read::are_pairs"
	tbz	w0, #0, .LBB9_12
	mov	w8, wzr
.LBB9_11:
	mov	x21, xzr
	mov	w22, wzr
	mov	w23, wzr
	b	.LBB9_13
.LBB9_12:
	sub	x0, x29, #48
	mov	x1, x25
	mov	x2, x24
	mov	w3, w21
	mov	w4, w23
	mov	w5, w22
	bl	"amqp_in_place::problems::search_table"
	ldurb	w8, [x29, #-48]
	ldur	x21, [x29, #-40]
	ldurb	w22, [x29, #-32]
	ldurb	w23, [x29, #-31]
.LBB9_13:
	cmp	w8, #1
	b.eq	.LBB9_16
	movi	v0.2d, #0000000000000000
	stp	q0, q0, [x19, #16]
	str	q0, [x19]
.LBB9_15:
	ldp	x20, x19, [sp, #176]
	ldr	x25, [sp, #128]
	ldp	x22, x21, [sp, #160]
	ldp	x24, x23, [sp, #144]
	ldp	x29, x30, [sp, #112]
	add	sp, sp, #192
	ret
.LBB9_16:
	ldp	q0, q1, [x20]
	mov	x0, sp
	stp	q0, q1, [sp]
	bl	"amqp_c::input::Input::header"
	cbz	x21, .LBB9_19
	adrp	x8, ".Lswitch.table.amqp_c::input::Input::read_error"
	add	x8, x8, :lo12:".Lswitch.table.amqp_c::input::Input::read_error"
	mov	x9, xzr
	ldr	x8, [x8, w22, uxtw #3]
.LBB9_18:
	and	w10, w0, #0xff
	stp	x9, x21, [x19, #16]
	mov	w9, #1
	cmp	w10, #2
	stp	x9, x8, [x19]
	ccmp	w22, #2, #0, eq
	stur	wzr, [x19, #41]
	ccmp	x21, #0, #0, eq
	str	wzr, [x19, #44]
	csel	x8, x1, xzr, eq
	cmp	w22, #0
	csel	w9, w23, wzr, eq
	str	x8, [x19, #32]
	strb	w9, [x19, #40]
	b	.LBB9_15
.LBB9_19:
	cmp	w22, #2
	b.le	.LBB9_23
	cmp	w22, #4
	b.gt	.LBB9_26
	cmp	w22, #3
	b.ne	.LBB9_30
	mov	x9, xzr
	mov	w8, #3
	b	.LBB9_18
.LBB9_23:
	cbz	w22, .LBB9_28
	cmp	w22, #1
	b.ne	.LBB9_29
	mov	x9, xzr
	mov	w8, #5
	b	.LBB9_18
.LBB9_26:
	cmp	w22, #5
	b.ne	.LBB9_31
	mov	x9, xzr
	mov	w8, #6
	b	.LBB9_18
.LBB9_28:
	mov	x9, xzr
	mov	w8, #1
	b	.LBB9_18
.LBB9_29:
	and	w9, w0, #0xff
	mov	x8, xzr
	cmp	w9, #2
	csel	x9, x1, xzr, eq
	b	.LBB9_18
.LBB9_30:
	mov	x9, xzr
	mov	w8, #4
	b	.LBB9_18
.LBB9_31:
	mov	x9, xzr
	mov	w8, #7
	b	.LBB9_18
.Lfunc_end9:
	.size	"amqp_c::input::Input::read_error", .Lfunc_end9-"amqp_c::input::Input::read_error"

	.section	".text.amqp_in_place::read::are_values","ax",@progbits
	.p2align	2
	.type	"amqp_in_place::read::are_values",@function
"amqp_in_place::read::are_values":
	stp	x29, x30, [sp, #-48]!
	stp	x22, x21, [sp, #16]
	mov	x29, sp
	stp	x20, x19, [sp, #32]
	cbz	x1, .LBB10_28
	mov	x19, x2
	mov	x9, x0
	b	.LBB10_4
.LBB10_2:
	add	x9, x21, x20
.LBB10_3:
	mov	x1, x22
	mov	x0, x9
	cbz	x22, .LBB10_28
.LBB10_4:
	ldrb	w8, [x9], #1
	sub	w10, w8, #65
	mov	w8, wzr
	cmp	w10, #55
	b.hi	.LBB10_29
	adrp	x11, .LJTI10_0
	add	x11, x11, :lo12:.LJTI10_0
	sub	x22, x1, #1
	adr	x12, .LBB10_3
	ldrb	w13, [x11, x10]
	add	x12, x12, x13, lsl #2
	br	x12
.LBB10_6:
	cmp	x22, #8
	b.lo	.LBB10_27
	add	x9, x0, #9
	sub	x22, x1, #9
	b	.LBB10_3
.LBB10_8:
	cmp	x22, #4
	b.lo	.LBB10_27
	add	x9, x0, #5
	sub	x22, x1, #5
	b	.LBB10_3
.LBB10_10:
	cbz	x22, .LBB10_27
	add	x9, x0, #2
	sub	x22, x1, #2
	b	.LBB10_3
.LBB10_12:
	cmp	x22, #2
	b.lo	.LBB10_27
	add	x9, x0, #3
	sub	x22, x1, #3
	b	.LBB10_3
.LBB10_14:
	subs	x8, x1, #5
	b.lo	.LBB10_27
	ldr	w9, [x9]
	rev	w9, w9
	subs	x22, x8, x9
	b.lo	.LBB10_27
	add	x8, x0, x9
	add	x9, x8, #5
	b	.LBB10_3
.LBB10_17:
	subs	x22, x1, #6
	b.lo	.LBB10_27
	add	x9, x0, #6
	b	.LBB10_3
.LBB10_19:
	subs	x8, x1, #5
	b.lo	.LBB10_27
	ldr	w9, [x9]
	rev	w20, w9
	subs	x22, x8, x20
	mov	w8, wzr
	b.lo	.LBB10_29
	cbz	x19, .LBB10_29
	add	x21, x0, #5
	sub	x2, x19, #1
	mov	x1, x20
	mov	x0, x21
	bl	"amqp_in_place::read::are_values"
	cbnz	w0, .LBB10_2
	b	.LBB10_27
.LBB10_23:
	subs	x8, x1, #5
	b.lo	.LBB10_27
	ldr	w9, [x9]
	rev	w20, w9
	subs	x22, x8, x20
	mov	w8, wzr
	b.lo	.LBB10_29
	cbz	x19, .LBB10_29
	add	x21, x0, #5
	sub	x2, x19, #1
	mov	x1, x20
	mov	x0, x21
	bl	"amqp_in_place::read::are_pairs"
	tbnz	w0, #0, .LBB10_2
.LBB10_27:
	mov	w8, wzr
	ldp	x20, x19, [sp, #32]
	mov	w0, w8
	ldp	x22, x21, [sp, #16]
	ldp	x29, x30, [sp], #48
	ret
.LBB10_28:
	mov	w8, #1
.LBB10_29:
	ldp	x20, x19, [sp, #32]
	mov	w0, w8
	ldp	x22, x21, [sp, #16]
	ldp	x29, x30, [sp], #48
	ret
.Lfunc_end10:
	.size	"amqp_in_place::read::are_values", .Lfunc_end10-"amqp_in_place::read::are_values"
	.section	".rodata.amqp_in_place::read::are_values","a",@progbits
.LJTI10_0:
	.byte	(.LBB10_19-.LBB10_3)>>2
	.byte	(.LBB10_10-.LBB10_3)>>2
	.byte	(.LBB10_29-.LBB10_3)>>2
	.byte	(.LBB10_17-.LBB10_3)>>2
	.byte	(.LBB10_29-.LBB10_3)>>2
	.byte	(.LBB10_23-.LBB10_3)>>2
	.byte	(.LBB10_29-.LBB10_3)>>2
	.byte	(.LBB10_29-.LBB10_3)>>2
	.byte	(.LBB10_8-.LBB10_3)>>2
	.byte	(.LBB10_29-.LBB10_3)>>2
	.byte	(.LBB10_29-.LBB10_3)>>2
	.byte	(.LBB10_6-.LBB10_3)>>2
	.byte	(.LBB10_29-.LBB10_3)>>2
	.byte	(.LBB10_29-.LBB10_3)>>2
	.byte	(.LBB10_29-.LBB10_3)>>2
	.byte	(.LBB10_29-.LBB10_3)>>2
	.byte	(.LBB10_29-.LBB10_3)>>2
	.byte	(.LBB10_29-.LBB10_3)>>2
	.byte	(.LBB10_14-.LBB10_3)>>2
	.byte	(.LBB10_6-.LBB10_3)>>2
	.byte	(.LBB10_12-.LBB10_3)>>2
	.byte	(.LBB10_3-.LBB10_3)>>2
	.byte	(.LBB10_29-.LBB10_3)>>2
	.byte	(.LBB10_29-.LBB10_3)>>2
	.byte	(.LBB10_29-.LBB10_3)>>2
	.byte	(.LBB10_29-.LBB10_3)>>2
	.byte	(.LBB10_29-.LBB10_3)>>2
	.byte	(.LBB10_29-.LBB10_3)>>2
	.byte	(.LBB10_29-.LBB10_3)>>2
	.byte	(.LBB10_29-.LBB10_3)>>2
	.byte	(.LBB10_29-.LBB10_3)>>2
	.byte	(.LBB10_29-.LBB10_3)>>2
	.byte	(.LBB10_29-.LBB10_3)>>2
	.byte	(.LBB10_10-.LBB10_3)>>2
	.byte	(.LBB10_29-.LBB10_3)>>2
	.byte	(.LBB10_6-.LBB10_3)>>2
	.byte	(.LBB10_29-.LBB10_3)>>2
	.byte	(.LBB10_8-.LBB10_3)>>2
	.byte	(.LBB10_29-.LBB10_3)>>2
	.byte	(.LBB10_29-.LBB10_3)>>2
	.byte	(.LBB10_8-.LBB10_3)>>2
	.byte	(.LBB10_29-.LBB10_3)>>2
	.byte	(.LBB10_29-.LBB10_3)>>2
	.byte	(.LBB10_6-.LBB10_3)>>2
	.byte	(.LBB10_29-.LBB10_3)>>2
	.byte	(.LBB10_29-.LBB10_3)>>2
	.byte	(.LBB10_29-.LBB10_3)>>2
	.byte	(.LBB10_29-.LBB10_3)>>2
	.byte	(.LBB10_29-.LBB10_3)>>2
	.byte	(.LBB10_29-.LBB10_3)>>2
	.byte	(.LBB10_12-.LBB10_3)>>2
	.byte	(.LBB10_10-.LBB10_3)>>2
	.byte	(.LBB10_12-.LBB10_3)>>2
	.byte	(.LBB10_29-.LBB10_3)>>2
	.byte	(.LBB10_29-.LBB10_3)>>2
	.byte	(.LBB10_14-.LBB10_3)>>2

	.section	".text.amqp_in_place::read::are_pairs","ax",@progbits
	.p2align	2
	.type	"amqp_in_place::read::are_pairs",@function
"amqp_in_place::read::are_pairs":
	stp	x29, x30, [sp, #-48]!
	stp	x22, x21, [sp, #16]
	mov	x29, sp
	stp	x20, x19, [sp, #32]
	cbz	x1, .LBB11_49
	mov	x19, x2
	mov	x20, x1
	b	.LBB11_4
.LBB11_2:
	add	x0, x22, x21
.LBB11_3:
	cbz	x20, .LBB11_49
.LBB11_4:
	mov	x22, x0
	sub	x20, x20, #1
	ldrb	w21, [x22], #1
	cmp	x20, x21
	b.lo	.LBB11_48
	cmp	w21, #7
	b.hi	.LBB11_23
	cbz	w21, .LBB11_24
	ldrsb	w8, [x0, #1]
	tbnz	w8, #31, .LBB11_21
	cmp	w21, #1
	b.eq	.LBB11_24
	ldrsb	w8, [x0, #2]
	tbnz	w8, #31, .LBB11_21
	cmp	w21, #2
	b.eq	.LBB11_24
	ldrsb	w8, [x0, #3]
	tbnz	w8, #31, .LBB11_21
	cmp	w21, #3
	b.eq	.LBB11_24
	ldrsb	w8, [x0, #4]
	tbnz	w8, #31, .LBB11_21
	cmp	w21, #4
	b.eq	.LBB11_24
	ldrsb	w8, [x0, #5]
	tbnz	w8, #31, .LBB11_21
	cmp	w21, #5
	b.eq	.LBB11_24
	ldrsb	w8, [x0, #6]
	tbnz	w8, #31, .LBB11_21
	cmp	w21, #6
	b.eq	.LBB11_24
	ldrsb	w8, [x0, #7]
	tbnz	w8, #31, .LBB11_21
	cmp	w21, #7
	b.eq	.LBB11_24
.LBB11_21:
	mov	x0, x22
	mov	x1, x21
	bl	"amqp_in_place::read::is_utf8"
	cmp	x20, x21
	mov	w8, wzr
	b.eq	.LBB11_50
	tbnz	w0, #0, .LBB11_25
	b	.LBB11_50
.LBB11_23:
	mov	x0, x22
	mov	x1, x21
	bl	"amqp_in_place::read::is_ascii_by_words"
	tbz	w0, #0, .LBB11_21
.LBB11_24:
	cmp	x20, x21
	b.eq	.LBB11_48
.LBB11_25:
	add	x9, x22, x21
	mov	x0, x9
	ldrb	w8, [x0], #1
	sub	w10, w8, #65
	mov	w8, wzr
	cmp	w10, #55
	b.hi	.LBB11_50
	adrp	x12, .LJTI11_0
	add	x12, x12, :lo12:.LJTI11_0
	mvn	x11, x21
	adr	x13, .LBB11_3
	ldrb	w14, [x12, x10]
	add	x13, x13, x14, lsl #2
	add	x20, x20, x11
	br	x13
.LBB11_27:
	subs	x20, x20, #8
	b.lo	.LBB11_48
	add	x0, x9, #9
	b	.LBB11_3
.LBB11_29:
	subs	x20, x20, #4
	b.lo	.LBB11_48
	add	x0, x9, #5
	b	.LBB11_3
.LBB11_31:
	cbz	x20, .LBB11_48
	add	x0, x9, #2
	sub	x20, x20, #1
	b	.LBB11_3
.LBB11_33:
	subs	x20, x20, #2
	b.lo	.LBB11_48
	add	x0, x9, #3
	b	.LBB11_3
.LBB11_35:
	subs	x8, x20, #4
	b.lo	.LBB11_48
	ldr	w10, [x0]
	rev	w10, w10
	subs	x20, x8, x10
	b.lo	.LBB11_48
	add	x8, x9, x10
	add	x0, x8, #5
	b	.LBB11_3
.LBB11_38:
	subs	x20, x20, #5
	b.lo	.LBB11_48
	add	x0, x9, #6
	b	.LBB11_3
.LBB11_40:
	subs	x8, x20, #4
	b.lo	.LBB11_48
	ldr	w10, [x0]
	rev	w21, w10
	subs	x20, x8, x21
	mov	w8, wzr
	b.lo	.LBB11_50
	cbz	x19, .LBB11_50
	add	x22, x9, #5
	sub	x2, x19, #1
	mov	x1, x21
	mov	x0, x22
	bl	"amqp_in_place::read::are_values"
	cbnz	w0, .LBB11_2
	b	.LBB11_48
.LBB11_44:
	subs	x8, x20, #4
	b.lo	.LBB11_48
	ldr	w10, [x0]
	rev	w21, w10
	subs	x20, x8, x21
	mov	w8, wzr
	b.lo	.LBB11_50
	cbz	x19, .LBB11_50
	add	x22, x9, #5
	sub	x2, x19, #1
	mov	x1, x21
	mov	x0, x22
	bl	"amqp_in_place::read::are_pairs"
	tbnz	w0, #0, .LBB11_2
.LBB11_48:
	mov	w8, wzr
	ldp	x20, x19, [sp, #32]
	mov	w0, w8
	ldp	x22, x21, [sp, #16]
	ldp	x29, x30, [sp], #48
	ret
.LBB11_49:
	mov	w8, #1
.LBB11_50:
	ldp	x20, x19, [sp, #32]
	mov	w0, w8
	ldp	x22, x21, [sp, #16]
	ldp	x29, x30, [sp], #48
	ret
.Lfunc_end11:
	.size	"amqp_in_place::read::are_pairs", .Lfunc_end11-"amqp_in_place::read::are_pairs"
	.section	".rodata.amqp_in_place::read::are_pairs","a",@progbits
.LJTI11_0:
	.byte	(.LBB11_40-.LBB11_3)>>2
	.byte	(.LBB11_31-.LBB11_3)>>2
	.byte	(.LBB11_50-.LBB11_3)>>2
	.byte	(.LBB11_38-.LBB11_3)>>2
	.byte	(.LBB11_50-.LBB11_3)>>2
	.byte	(.LBB11_44-.LBB11_3)>>2
	.byte	(.LBB11_50-.LBB11_3)>>2
	.byte	(.LBB11_50-.LBB11_3)>>2
	.byte	(.LBB11_29-.LBB11_3)>>2
	.byte	(.LBB11_50-.LBB11_3)>>2
	.byte	(.LBB11_50-.LBB11_3)>>2
	.byte	(.LBB11_27-.LBB11_3)>>2
	.byte	(.LBB11_50-.LBB11_3)>>2
	.byte	(.LBB11_50-.LBB11_3)>>2
	.byte	(.LBB11_50-.LBB11_3)>>2
	.byte	(.LBB11_50-.LBB11_3)>>2
	.byte	(.LBB11_50-.LBB11_3)>>2
	.byte	(.LBB11_50-.LBB11_3)>>2
	.byte	(.LBB11_35-.LBB11_3)>>2
	.byte	(.LBB11_27-.LBB11_3)>>2
	.byte	(.LBB11_33-.LBB11_3)>>2
	.byte	(.LBB11_3-.LBB11_3)>>2
	.byte	(.LBB11_50-.LBB11_3)>>2
	.byte	(.LBB11_50-.LBB11_3)>>2
	.byte	(.LBB11_50-.LBB11_3)>>2
	.byte	(.LBB11_50-.LBB11_3)>>2
	.byte	(.LBB11_50-.LBB11_3)>>2
	.byte	(.LBB11_50-.LBB11_3)>>2
	.byte	(.LBB11_50-.LBB11_3)>>2
	.byte	(.LBB11_50-.LBB11_3)>>2
	.byte	(.LBB11_50-.LBB11_3)>>2
	.byte	(.LBB11_50-.LBB11_3)>>2
	.byte	(.LBB11_50-.LBB11_3)>>2
	.byte	(.LBB11_31-.LBB11_3)>>2
	.byte	(.LBB11_50-.LBB11_3)>>2
	.byte	(.LBB11_27-.LBB11_3)>>2
	.byte	(.LBB11_50-.LBB11_3)>>2
	.byte	(.LBB11_29-.LBB11_3)>>2
	.byte	(.LBB11_50-.LBB11_3)>>2
	.byte	(.LBB11_50-.LBB11_3)>>2
	.byte	(.LBB11_29-.LBB11_3)>>2
	.byte	(.LBB11_50-.LBB11_3)>>2
	.byte	(.LBB11_50-.LBB11_3)>>2
	.byte	(.LBB11_27-.LBB11_3)>>2
	.byte	(.LBB11_50-.LBB11_3)>>2
	.byte	(.LBB11_50-.LBB11_3)>>2
	.byte	(.LBB11_50-.LBB11_3)>>2
	.byte	(.LBB11_50-.LBB11_3)>>2
	.byte	(.LBB11_50-.LBB11_3)>>2
	.byte	(.LBB11_50-.LBB11_3)>>2
	.byte	(.LBB11_33-.LBB11_3)>>2
	.byte	(.LBB11_31-.LBB11_3)>>2
	.byte	(.LBB11_33-.LBB11_3)>>2
	.byte	(.LBB11_50-.LBB11_3)>>2
	.byte	(.LBB11_50-.LBB11_3)>>2
	.byte	(.LBB11_35-.LBB11_3)>>2

	.section	.rodata.cst16,"aM",@progbits,16
	.p2align	4, 0x0
.LCPI12_0:
	.xword	1
	.xword	0
	.section	".text.amqp_in_place::problems::search_table","ax",@progbits
	.p2align	2
	.type	"amqp_in_place::problems::search_table",@function
"amqp_in_place::problems::search_table":
	cmn	x2, #1
	b.eq	.LBB12_5
	cmp	x2, #4
	b.hs	.LBB12_9
	mov	w8, #5
	cmp	x8, w4, uxtw
	b.hi	.LBB12_10
.LBB12_3:
	sub	x9, x8, #1
	cmp	x2, x9
	b.hs	.LBB12_6
.LBB12_4:
	mov	w10, #2
	mov	w11, #1
	stp	x11, xzr, [x0]
	strb	w10, [x0, #16]
	strb	wzr, [x0, #17]
	ret
.LBB12_5:
	mov	x8, xzr
	sub	x9, x8, #1
	cmp	x2, x9
	b.lo	.LBB12_4
.LBB12_6:
	sub	sp, sp, #64
	stp	x29, x30, [sp, #32]
	add	x29, sp, #32
	str	x19, [sp, #48]
	stp	xzr, xzr, [sp, #8]
	str	xzr, [sp, #24]
	cbz	w5, .LBB12_11
	mov	x19, x0
	sub	x2, x8, #5
	sub	w4, w5, #1
	add	x0, sp, #8
	add	x1, x1, #4
	bl	"amqp_in_place::problems::pairs"
	ldrb	w8, [sp, #8]
	cmp	w8, #1
	b.ne	.LBB12_12
	ldr	x8, [sp, #16]
	ldrb	w10, [sp, #24]
	mov	x0, x19
	adds	x9, x8, #5
	ldrb	w8, [sp, #25]
	cset	w11, ne
	sub	x9, x9, x11
	mov	w11, #1
	b	.LBB12_13
.LBB12_9:
	ldr	w8, [x1]
	rev	w8, w8
	add	x8, x8, #5
	cmp	x8, w4, uxtw
	b.ls	.LBB12_3
.LBB12_10:
	adrp	x8, .LCPI12_0
	ldr	q0, [x8, :lo12:.LCPI12_0]
	mov	w8, #6
	strh	w8, [x0, #16]
	str	q0, [x0]
	ret
.LBB12_11:
	mov	x9, xzr
	mov	w8, wzr
	mov	w10, #5
	mov	w11, #1
	b	.LBB12_13
.LBB12_12:
	mov	x11, xzr
	mov	x9, xzr
	mov	w10, wzr
	mov	w8, wzr
	mov	x0, x19
.LBB12_13:
	ldp	x29, x30, [sp, #32]
	ldr	x19, [sp, #48]
	add	sp, sp, #64
	stp	x11, x9, [x0]
	strb	w10, [x0, #16]
	strb	w8, [x0, #17]
	ret
.Lfunc_end12:
	.size	"amqp_in_place::problems::search_table", .Lfunc_end12-"amqp_in_place::problems::search_table"

	.section	.rodata.cst16,"aM",@progbits,16
	.p2align	4, 0x0
.LCPI13_0:
	.xword	1
	.xword	0
	.section	".text.amqp_in_place::problems::payload","ax",@progbits
	.p2align	2
	.type	"amqp_in_place::problems::payload",@function
"amqp_in_place::problems::payload":
	sub	x8, x4, #1
	cmp	x3, x8
	b.hs	.LBB13_2
	adrp	x8, .LCPI13_0
	ldr	q0, [x8, :lo12:.LCPI13_0]
	mov	w8, #2
	strh	w8, [x0, #16]
	str	q0, [x0]
	ret
.LBB13_2:
	sub	sp, sp, #80
	and	w12, w1, #0xff
	mov	w8, wzr
	mov	x9, xzr
	cmp	w12, #9
	stp	x29, x30, [sp, #48]
	add	x29, sp, #48
	stp	x20, x19, [sp, #64]
	stp	xzr, xzr, [sp, #32]
	stp	xzr, xzr, [sp, #16]
	stp	xzr, xzr, [sp]
	b.gt	.LBB13_6
	mov	w10, w8
	mov	w11, w8
	b.lo	.LBB13_8
	and	w8, w5, #0xff
	cmp	w8, #2
	b.ne	.LBB13_21
	ldrb	w10, [x2]
	ldrb	w11, [x2, #1]
	mov	w8, wzr
	mov	x9, xzr
	orr	w10, w10, w11, lsl #8
	mov	w11, #32895
	bics	wzr, w11, w10
	b	.LBB13_20
.LBB13_6:
	cmp	w12, #18
	b.hi	.LBB13_18
	mov	w10, #1
	mov	w11, #47104
	lsl	w10, w10, w12
	movk	w11, #6, lsl #16
	tst	w10, w11
	mov	w10, w8
	mov	w11, w8
	b.eq	.LBB13_9
.LBB13_8:
	cmp	w11, #0
	ldp	x20, x19, [sp, #64]
	ldp	x29, x30, [sp, #48]
	mov	w11, w11
	csel	x9, x4, x9, eq
	csel	w10, wzr, w10, eq
	csel	w8, wzr, w8, eq
	stp	x11, x9, [x0]
	strb	w10, [x0, #16]
	strb	w8, [x0, #17]
	add	sp, sp, #80
	ret
.LBB13_9:
	cmp	w12, #14
	b.ne	.LBB13_13
	cbz	w6, .LBB13_22
	sub	w8, w6, #1
	mov	x19, x0
	add	x0, sp, #24
	add	x1, x2, #4
	mov	x20, x4
	sub	x2, x4, #5
	mov	w3, w5
	mov	w4, w8
	bl	"amqp_in_place::problems::values"
	ldrb	w8, [sp, #24]
	cmp	w8, #1
	b.ne	.LBB13_23
	ldr	x9, [sp, #32]
	ldrb	w8, [sp, #41]
	ldrb	w10, [sp, #40]
	b	.LBB13_17
.LBB13_13:
	cmp	w12, #16
	b.ne	.LBB13_18
	cbz	w6, .LBB13_22
	sub	w8, w6, #1
	mov	x19, x0
	mov	x0, sp
	add	x1, x2, #4
	mov	x20, x4
	sub	x2, x4, #5
	mov	w3, w5
	mov	w4, w8
	bl	"amqp_in_place::problems::pairs"
	ldrb	w8, [sp]
	cmp	w8, #1
	b.ne	.LBB13_23
	ldr	x9, [sp, #8]
	ldrb	w8, [sp, #17]
	ldrb	w10, [sp, #16]
.LBB13_17:
	add	x9, x9, #5
	mov	w11, #1
	b	.LBB13_24
.LBB13_18:
	and	w8, w5, #0xff
	cmp	w8, #2
	b.ne	.LBB13_21
	ldrb	w10, [x2]
	ldrb	w11, [x2, #1]
	mov	w8, wzr
	mov	x9, xzr
	orr	w10, w10, w11, lsl #8
	mov	w11, #61567
	mvn	w10, w10
	tst	x10, x11
.LBB13_20:
	cset	w10, eq
	mov	w11, w10
	b	.LBB13_8
.LBB13_21:
	mov	w8, wzr
	mov	w10, wzr
	mov	x9, xzr
	mov	w11, wzr
	b	.LBB13_8
.LBB13_22:
	mov	x9, xzr
	mov	w8, wzr
	mov	w10, #5
	mov	w11, #1
	b	.LBB13_8
.LBB13_23:
	mov	w11, wzr
	mov	x9, xzr
	mov	w10, wzr
	mov	w8, wzr
.LBB13_24:
	mov	x0, x19
	mov	x4, x20
	b	.LBB13_8
.Lfunc_end13:
	.size	"amqp_in_place::problems::payload", .Lfunc_end13-"amqp_in_place::problems::payload"

	.section	".text.amqp_in_place::problems::values","ax",@progbits
	.p2align	2
	.type	"amqp_in_place::problems::values",@function
"amqp_in_place::problems::values":
	sub	sp, sp, #96
	stp	x20, x19, [sp, #80]
	mov	x19, x0
	stp	x29, x30, [sp, #32]
	add	x29, sp, #32
	stp	x24, x23, [sp, #48]
	stp	x22, x21, [sp, #64]
	stp	xzr, xzr, [sp, #8]
	str	xzr, [sp, #24]
	cbz	x2, .LBB14_4
	mov	w20, w4
	mov	w21, w3
	mov	x22, x2
	mov	x23, x1
	mov	x24, xzr
.LBB14_2:
	add	x0, sp, #8
	add	x1, x23, x24
	sub	x2, x22, x24
	mov	w3, w21
	mov	w4, w20
	bl	"amqp_in_place::problems::value"
	ldrb	w9, [sp, #8]
	ldr	x8, [sp, #16]
	cbnz	w9, .LBB14_5
	add	x24, x8, x24
	cmp	x24, x22
	b.lo	.LBB14_2
.LBB14_4:
	stp	xzr, xzr, [x19]
	strh	wzr, [x19, #16]
	ldp	x20, x19, [sp, #80]
	ldp	x22, x21, [sp, #64]
	ldp	x24, x23, [sp, #48]
	ldp	x29, x30, [sp, #32]
	add	sp, sp, #96
	ret
.LBB14_5:
	ldrh	w10, [sp, #24]
	mov	w9, #1
	add	x8, x8, x24
	stp	x9, x8, [x19]
	strh	w10, [x19, #16]
	ldp	x20, x19, [sp, #80]
	ldp	x22, x21, [sp, #64]
	ldp	x24, x23, [sp, #48]
	ldp	x29, x30, [sp, #32]
	add	sp, sp, #96
	ret
.Lfunc_end14:
	.size	"amqp_in_place::problems::values", .Lfunc_end14-"amqp_in_place::problems::values"

	.section	.rodata.cst16,"aM",@progbits,16
	.p2align	4, 0x0
.LCPI15_0:
	.xword	1
	.xword	0
	.section	".text.amqp_in_place::problems::value","ax",@progbits
	.p2align	2
	.type	"amqp_in_place::problems::value",@function
"amqp_in_place::problems::value":
	sub	sp, sp, #64
	str	x19, [sp, #48]
	mov	x19, x0
	stp	x29, x30, [sp, #32]
	add	x29, sp, #32
	stp	xzr, xzr, [sp, #8]
	str	xzr, [sp, #24]
	cbz	x2, .LBB15_5
	mov	x8, x1
	and	w9, w3, #0xff
	mov	w6, w4
	ldrb	w10, [x8], #1
	mov	w5, w3
	cmp	w9, #2
	sub	w13, w10, #65
	b.ne	.LBB15_6
	cmp	w13, #55
	b.hi	.LBB15_24
	adrp	x14, .LJTI15_1
	add	x14, x14, :lo12:.LJTI15_1
	mov	w11, wzr
	adr	x15, .LBB15_4
	ldrb	w16, [x14, x13]
	add	x15, x15, x16, lsl #2
	mov	w9, #13
	mov	w12, #10
	mov	w13, #5
	mov	w1, #4
	mov	w4, #3
	br	x15
.LBB15_4:
	mov	w1, #3
	mov	w4, #3
	b	.LBB15_30
.LBB15_5:
	adrp	x8, .LCPI15_0
	ldr	q0, [x8, :lo12:.LCPI15_0]
	mov	w8, #2
	strh	w8, [x19, #16]
	str	q0, [x19]
	ldp	x29, x30, [sp, #32]
	ldr	x19, [sp, #48]
	add	sp, sp, #64
	ret
.LBB15_6:
	cmp	w13, #55
	b.hi	.LBB15_24
	adrp	x14, .LJTI15_0
	add	x14, x14, :lo12:.LJTI15_0
	mov	w11, wzr
	adr	x15, .LBB15_8
	ldrb	w16, [x14, x13]
	add	x15, x15, x16, lsl #2
	mov	w9, #13
	mov	w12, #10
	mov	w13, #5
	mov	w1, #4
	mov	w4, #3
	br	x15
.LBB15_8:
	mov	w4, #7
.LBB15_9:
	sub	w10, w10, #76
	mov	w9, w4
	mov	x4, xzr
	cmp	w10, #39
	b.hi	.LBB15_29
	adrp	x11, .LJTI15_2
	add	x11, x11, :lo12:.LJTI15_2
	mov	w1, w9
	adr	x12, .LBB15_11
	ldrb	w13, [x11, x10]
	add	x12, x12, x13, lsl #2
	br	x12
.LBB15_11:
	mov	w4, #9
	b	.LBB15_29
.LBB15_12:
	mov	w11, #1
	b	.LBB15_17
.LBB15_13:
	mov	w1, #18
	mov	w4, #1
	b	.LBB15_30
.LBB15_14:
	mov	w1, #11
	mov	w4, #6
	b	.LBB15_30
.LBB15_15:
	mov	w9, #14
	cmp	x2, #5
	b.lo	.LBB15_23
	b	.LBB15_28
.LBB15_16:
	mov	w11, #2
.LBB15_17:
	mov	w4, #2
	mov	w1, w11
	b	.LBB15_30
.LBB15_18:
	mov	w12, #15
.LBB15_19:
	mov	w4, #9
	mov	w1, w12
	b	.LBB15_30
.LBB15_20:
	mov	w13, #6
	b	.LBB15_26
.LBB15_21:
	mov	w9, #16
.LBB15_22:
	cmp	x2, #5
	b.hs	.LBB15_28
.LBB15_23:
	mov	w4, #5
	b	.LBB15_29
.LBB15_24:
	adrp	x8, .LCPI15_0
	strb	wzr, [x19, #16]
	ldr	q0, [x8, :lo12:.LCPI15_0]
	strb	w10, [x19, #17]
	str	q0, [x19]
	ldp	x29, x30, [sp, #32]
	ldr	x19, [sp, #48]
	add	sp, sp, #64
	ret
.LBB15_25:
	mov	w13, #9
.LBB15_26:
	mov	w4, #5
	mov	w1, w13
	b	.LBB15_30
.LBB15_27:
	mov	w9, #17
	cmp	x2, #5
	b.lo	.LBB15_23
.LBB15_28:
	ldr	w10, [x8]
	rev	w10, w10
	add	x4, x10, #5
.LBB15_29:
	mov	w1, w9
.LBB15_30:
	sub	x3, x2, #1
	add	x0, sp, #8
	mov	x2, x8
	bl	"amqp_in_place::problems::payload"
	ldrb	w8, [sp, #8]
	ldr	x9, [sp, #16]
	ldrh	w10, [sp, #24]
	stp	x8, x9, [x19]
	strh	w10, [x19, #16]
	ldp	x29, x30, [sp, #32]
	ldr	x19, [sp, #48]
	add	sp, sp, #64
	ret
.LBB15_31:
	mov	w4, #3
	b	.LBB15_29
.LBB15_32:
	mov	w4, #1
	b	.LBB15_29
.LBB15_33:
	mov	w4, #2
	b	.LBB15_29
.Lfunc_end15:
	.size	"amqp_in_place::problems::value", .Lfunc_end15-"amqp_in_place::problems::value"
	.section	".rodata.amqp_in_place::problems::value","a",@progbits
.LJTI15_0:
	.byte	(.LBB15_15-.LBB15_8)>>2
	.byte	(.LBB15_16-.LBB15_8)>>2
	.byte	(.LBB15_24-.LBB15_8)>>2
	.byte	(.LBB15_14-.LBB15_8)>>2
	.byte	(.LBB15_24-.LBB15_8)>>2
	.byte	(.LBB15_21-.LBB15_8)>>2
	.byte	(.LBB15_24-.LBB15_8)>>2
	.byte	(.LBB15_24-.LBB15_8)>>2
	.byte	(.LBB15_26-.LBB15_8)>>2
	.byte	(.LBB15_24-.LBB15_8)>>2
	.byte	(.LBB15_24-.LBB15_8)>>2
	.byte	(.LBB15_8-.LBB15_8)>>2
	.byte	(.LBB15_24-.LBB15_8)>>2
	.byte	(.LBB15_24-.LBB15_8)>>2
	.byte	(.LBB15_24-.LBB15_8)>>2
	.byte	(.LBB15_24-.LBB15_8)>>2
	.byte	(.LBB15_24-.LBB15_8)>>2
	.byte	(.LBB15_24-.LBB15_8)>>2
	.byte	(.LBB15_22-.LBB15_8)>>2
	.byte	(.LBB15_18-.LBB15_8)>>2
	.byte	(.LBB15_9-.LBB15_8)>>2
	.byte	(.LBB15_13-.LBB15_8)>>2
	.byte	(.LBB15_24-.LBB15_8)>>2
	.byte	(.LBB15_24-.LBB15_8)>>2
	.byte	(.LBB15_24-.LBB15_8)>>2
	.byte	(.LBB15_24-.LBB15_8)>>2
	.byte	(.LBB15_24-.LBB15_8)>>2
	.byte	(.LBB15_24-.LBB15_8)>>2
	.byte	(.LBB15_24-.LBB15_8)>>2
	.byte	(.LBB15_24-.LBB15_8)>>2
	.byte	(.LBB15_24-.LBB15_8)>>2
	.byte	(.LBB15_24-.LBB15_8)>>2
	.byte	(.LBB15_24-.LBB15_8)>>2
	.byte	(.LBB15_12-.LBB15_8)>>2
	.byte	(.LBB15_24-.LBB15_8)>>2
	.byte	(.LBB15_19-.LBB15_8)>>2
	.byte	(.LBB15_24-.LBB15_8)>>2
	.byte	(.LBB15_25-.LBB15_8)>>2
	.byte	(.LBB15_24-.LBB15_8)>>2
	.byte	(.LBB15_24-.LBB15_8)>>2
	.byte	(.LBB15_20-.LBB15_8)>>2
	.byte	(.LBB15_24-.LBB15_8)>>2
	.byte	(.LBB15_24-.LBB15_8)>>2
	.byte	(.LBB15_8-.LBB15_8)>>2
	.byte	(.LBB15_24-.LBB15_8)>>2
	.byte	(.LBB15_24-.LBB15_8)>>2
	.byte	(.LBB15_24-.LBB15_8)>>2
	.byte	(.LBB15_24-.LBB15_8)>>2
	.byte	(.LBB15_24-.LBB15_8)>>2
	.byte	(.LBB15_24-.LBB15_8)>>2
	.byte	(.LBB15_9-.LBB15_8)>>2
	.byte	(.LBB15_17-.LBB15_8)>>2
	.byte	(.LBB15_30-.LBB15_8)>>2
	.byte	(.LBB15_24-.LBB15_8)>>2
	.byte	(.LBB15_24-.LBB15_8)>>2
	.byte	(.LBB15_27-.LBB15_8)>>2
.LJTI15_1:
	.byte	(.LBB15_15-.LBB15_4)>>2
	.byte	(.LBB15_16-.LBB15_4)>>2
	.byte	(.LBB15_24-.LBB15_4)>>2
	.byte	(.LBB15_14-.LBB15_4)>>2
	.byte	(.LBB15_24-.LBB15_4)>>2
	.byte	(.LBB15_21-.LBB15_4)>>2
	.byte	(.LBB15_24-.LBB15_4)>>2
	.byte	(.LBB15_24-.LBB15_4)>>2
	.byte	(.LBB15_26-.LBB15_4)>>2
	.byte	(.LBB15_24-.LBB15_4)>>2
	.byte	(.LBB15_24-.LBB15_4)>>2
	.byte	(.LBB15_8-.LBB15_4)>>2
	.byte	(.LBB15_24-.LBB15_4)>>2
	.byte	(.LBB15_24-.LBB15_4)>>2
	.byte	(.LBB15_24-.LBB15_4)>>2
	.byte	(.LBB15_24-.LBB15_4)>>2
	.byte	(.LBB15_24-.LBB15_4)>>2
	.byte	(.LBB15_24-.LBB15_4)>>2
	.byte	(.LBB15_22-.LBB15_4)>>2
	.byte	(.LBB15_18-.LBB15_4)>>2
	.byte	(.LBB15_24-.LBB15_4)>>2
	.byte	(.LBB15_13-.LBB15_4)>>2
	.byte	(.LBB15_24-.LBB15_4)>>2
	.byte	(.LBB15_24-.LBB15_4)>>2
	.byte	(.LBB15_24-.LBB15_4)>>2
	.byte	(.LBB15_24-.LBB15_4)>>2
	.byte	(.LBB15_24-.LBB15_4)>>2
	.byte	(.LBB15_24-.LBB15_4)>>2
	.byte	(.LBB15_24-.LBB15_4)>>2
	.byte	(.LBB15_24-.LBB15_4)>>2
	.byte	(.LBB15_24-.LBB15_4)>>2
	.byte	(.LBB15_24-.LBB15_4)>>2
	.byte	(.LBB15_24-.LBB15_4)>>2
	.byte	(.LBB15_12-.LBB15_4)>>2
	.byte	(.LBB15_24-.LBB15_4)>>2
	.byte	(.LBB15_19-.LBB15_4)>>2
	.byte	(.LBB15_24-.LBB15_4)>>2
	.byte	(.LBB15_25-.LBB15_4)>>2
	.byte	(.LBB15_24-.LBB15_4)>>2
	.byte	(.LBB15_24-.LBB15_4)>>2
	.byte	(.LBB15_20-.LBB15_4)>>2
	.byte	(.LBB15_24-.LBB15_4)>>2
	.byte	(.LBB15_24-.LBB15_4)>>2
	.byte	(.LBB15_8-.LBB15_4)>>2
	.byte	(.LBB15_24-.LBB15_4)>>2
	.byte	(.LBB15_24-.LBB15_4)>>2
	.byte	(.LBB15_24-.LBB15_4)>>2
	.byte	(.LBB15_24-.LBB15_4)>>2
	.byte	(.LBB15_24-.LBB15_4)>>2
	.byte	(.LBB15_24-.LBB15_4)>>2
	.byte	(.LBB15_4-.LBB15_4)>>2
	.byte	(.LBB15_17-.LBB15_4)>>2
	.byte	(.LBB15_30-.LBB15_4)>>2
	.byte	(.LBB15_24-.LBB15_4)>>2
	.byte	(.LBB15_24-.LBB15_4)>>2
	.byte	(.LBB15_27-.LBB15_4)>>2
.LJTI15_2:
	.byte	(.LBB15_11-.LBB15_11)>>2
	.byte	(.LBB15_30-.LBB15_11)>>2
	.byte	(.LBB15_30-.LBB15_11)>>2
	.byte	(.LBB15_30-.LBB15_11)>>2
	.byte	(.LBB15_30-.LBB15_11)>>2
	.byte	(.LBB15_30-.LBB15_11)>>2
	.byte	(.LBB15_30-.LBB15_11)>>2
	.byte	(.LBB15_22-.LBB15_11)>>2
	.byte	(.LBB15_11-.LBB15_11)>>2
	.byte	(.LBB15_31-.LBB15_11)>>2
	.byte	(.LBB15_32-.LBB15_11)>>2
	.byte	(.LBB15_30-.LBB15_11)>>2
	.byte	(.LBB15_30-.LBB15_11)>>2
	.byte	(.LBB15_30-.LBB15_11)>>2
	.byte	(.LBB15_30-.LBB15_11)>>2
	.byte	(.LBB15_30-.LBB15_11)>>2
	.byte	(.LBB15_30-.LBB15_11)>>2
	.byte	(.LBB15_30-.LBB15_11)>>2
	.byte	(.LBB15_30-.LBB15_11)>>2
	.byte	(.LBB15_30-.LBB15_11)>>2
	.byte	(.LBB15_30-.LBB15_11)>>2
	.byte	(.LBB15_30-.LBB15_11)>>2
	.byte	(.LBB15_33-.LBB15_11)>>2
	.byte	(.LBB15_30-.LBB15_11)>>2
	.byte	(.LBB15_11-.LBB15_11)>>2
	.byte	(.LBB15_30-.LBB15_11)>>2
	.byte	(.LBB15_23-.LBB15_11)>>2
	.byte	(.LBB15_30-.LBB15_11)>>2
	.byte	(.LBB15_30-.LBB15_11)>>2
	.byte	(.LBB15_23-.LBB15_11)>>2
	.byte	(.LBB15_30-.LBB15_11)>>2
	.byte	(.LBB15_30-.LBB15_11)>>2
	.byte	(.LBB15_11-.LBB15_11)>>2
	.byte	(.LBB15_30-.LBB15_11)>>2
	.byte	(.LBB15_30-.LBB15_11)>>2
	.byte	(.LBB15_30-.LBB15_11)>>2
	.byte	(.LBB15_30-.LBB15_11)>>2
	.byte	(.LBB15_30-.LBB15_11)>>2
	.byte	(.LBB15_30-.LBB15_11)>>2
	.byte	(.LBB15_31-.LBB15_11)>>2

	.section	".text.amqp_in_place::problems::pairs","ax",@progbits
	.p2align	2
	.type	"amqp_in_place::problems::pairs",@function
"amqp_in_place::problems::pairs":
	sub	sp, sp, #112
	stp	x20, x19, [sp, #96]
	mov	x19, x0
	stp	x29, x30, [sp, #32]
	add	x29, sp, #32
	stp	x26, x25, [sp, #48]
	stp	x24, x23, [sp, #64]
	stp	x22, x21, [sp, #80]
	cbz	x2, .LBB16_6
	mov	w20, w4
	mov	w24, w3
	mov	x21, x2
	mov	x22, x1
	tst	w3, #0xff
	b.eq	.LBB16_7
	mov	x26, xzr
.LBB16_3:
	add	x8, x22, x26
	mvn	x9, x26
	stp	xzr, xzr, [sp, #8]
	ldrb	w23, [x8]
	add	x9, x21, x9
	str	xzr, [sp, #24]
	subs	x2, x9, x23
	b.lo	.LBB16_30
	add	x8, x8, x23
	add	x0, sp, #8
	mov	w3, w24
	add	x1, x8, #1
	mov	w4, w20
	bl	"amqp_in_place::problems::value"
	ldrb	w8, [sp, #8]
	cbnz	w8, .LBB16_32
	ldr	x8, [sp, #16]
	add	x9, x26, x23
	add	x8, x9, x8
	add	x26, x8, #1
	cmp	x26, x21
	b.lo	.LBB16_3
.LBB16_6:
	stp	xzr, xzr, [x19]
	strh	wzr, [x19, #16]
	b	.LBB16_34
.LBB16_7:
	mov	x26, xzr
.LBB16_8:
	add	x24, x22, x26
	mvn	x8, x26
	stp	xzr, xzr, [sp, #8]
	ldrb	w23, [x24], #1
	add	x8, x21, x8
	str	xzr, [sp, #24]
	subs	x25, x8, x23
	add	x8, x22, x26
	b.lo	.LBB16_30
	cmp	w23, #8
	b.hs	.LBB16_25
	cbz	w23, .LBB16_26
	ldrsb	w9, [x8, #1]
	tbnz	w9, #31, .LBB16_28
	cmp	w23, #1
	b.eq	.LBB16_26
	ldrsb	w9, [x8, #2]
	tbnz	w9, #31, .LBB16_28
	cmp	w23, #2
	b.eq	.LBB16_26
	ldrsb	w9, [x8, #3]
	tbnz	w9, #31, .LBB16_28
	cmp	w23, #3
	b.eq	.LBB16_26
	ldrsb	w9, [x8, #4]
	tbnz	w9, #31, .LBB16_28
	cmp	w23, #4
	b.eq	.LBB16_26
	ldrsb	w9, [x8, #5]
	tbnz	w9, #31, .LBB16_28
	cmp	w23, #5
	b.eq	.LBB16_26
	ldrsb	w9, [x8, #6]
	tbnz	w9, #31, .LBB16_28
	cmp	w23, #6
	b.eq	.LBB16_26
	ldrsb	w8, [x8, #7]
	tbnz	w8, #31, .LBB16_28
	cmp	w23, #7
	b.eq	.LBB16_26
	b	.LBB16_28
.LBB16_25:
	mov	x0, x24
	mov	x1, x23
	bl	"amqp_in_place::read::is_ascii_by_words"
	tbz	w0, #0, .LBB16_28
.LBB16_26:
	add	x0, sp, #8
	add	x1, x24, x23
	mov	x2, x25
	mov	w3, wzr
	mov	w4, w20
	bl	"amqp_in_place::problems::value"
	ldrb	w8, [sp, #8]
	cbnz	w8, .LBB16_32
	ldr	x8, [sp, #16]
	add	x9, x26, x23
	add	x8, x9, x8
	add	x26, x8, #1
	cmp	x26, x21
	b.lo	.LBB16_8
	b	.LBB16_6
.LBB16_28:
	mov	x0, x24
	mov	x1, x23
	bl	"amqp_in_place::read::is_utf8"
	cbnz	w0, .LBB16_26
	mov	w8, #4
	b	.LBB16_31
.LBB16_30:
	mov	w8, #3
.LBB16_31:
	mov	w9, wzr
	mov	x10, xzr
	b	.LBB16_33
.LBB16_32:
	ldr	x10, [sp, #16]
	ldrb	w8, [sp, #24]
	ldrb	w9, [sp, #25]
	add	x10, x23, x10
	add	x10, x10, #1
.LBB16_33:
	mov	w11, #1
	add	x10, x10, x26
	strb	w8, [x19, #16]
	stp	x11, x10, [x19]
	strb	w9, [x19, #17]
.LBB16_34:
	ldp	x20, x19, [sp, #96]
	ldp	x22, x21, [sp, #80]
	ldp	x24, x23, [sp, #64]
	ldp	x26, x25, [sp, #48]
	ldp	x29, x30, [sp, #32]
	add	sp, sp, #112
	ret
.Lfunc_end16:
	.size	"amqp_in_place::problems::pairs", .Lfunc_end16-"amqp_in_place::problems::pairs"

	.section	.rodata.cst16,"aM",@progbits,16
	.p2align	4, 0x0
.LCPI17_0:
	.xword	1
	.xword	0
.LCPI17_1:
	.xword	0
	.xword	1
.LCPI17_2:
	.xword	513
	.xword	0
	.section	".text.amqp_in_place::read::read_in_place","ax",@progbits
	.p2align	2
	.type	"amqp_in_place::read::read_in_place",@function
"amqp_in_place::read::read_in_place":
	sub	sp, sp, #64
	mov	x9, xzr
	stp	x29, x30, [sp, #16]
	add	x29, sp, #16
	stp	x22, x21, [sp, #32]
	stp	x20, x19, [sp, #48]
	cbz	x2, .LBB17_6
	ldrb	w8, [x1]
	sub	w10, w8, #65
	mov	w8, #1
	cmp	w10, #55
	b.hi	.LBB17_21
	adrp	x11, .LJTI17_0
	add	x11, x11, :lo12:.LJTI17_0
	mov	x21, x9
	adr	x13, .LBB17_3
	ldrb	w12, [x11, x10]
	add	x13, x13, x12, lsl #2
	mov	w11, #1
	mov	x20, x9
	mov	x12, x9
	mov	x19, x9
	br	x13
.LBB17_3:
	cmp	x2, #5
	b.hs	.LBB17_10
.LBB17_4:
	mov	w9, #4
	mov	w12, #4
	cmp	x12, w3, uxtw
	b.lo	.LBB17_12
.LBB17_5:
	mov	x9, xzr
	mov	x21, xzr
	mov	x20, xzr
	mov	x19, xzr
	mov	w11, #1025
	mov	w8, #1
	b	.LBB17_15
.LBB17_6:
	mov	x21, xzr
	mov	x11, xzr
	mov	w8, #1
	mov	w20, #1
	mov	w19, #1
	b	.LBB17_15
.LBB17_7:
	mov	w9, #8
	mov	w12, #8
	cmp	x12, w3, uxtw
	b.lo	.LBB17_12
	b	.LBB17_5
.LBB17_8:
	mov	w9, #2
	mov	w12, #2
	cmp	x12, w3, uxtw
	b.lo	.LBB17_12
	b	.LBB17_5
.LBB17_9:
	mov	w9, #1
	mov	w12, #1
	cmp	x12, w3, uxtw
	b.lo	.LBB17_12
	b	.LBB17_5
.LBB17_10:
	ldur	w8, [x1, #1]
	mov	w9, #4
	rev	w8, w8
	add	x12, x8, #4
.LBB17_11:
	cmp	x12, w3, uxtw
	b.hs	.LBB17_5
.LBB17_12:
	sub	x21, x2, #1
	subs	x19, x9, x21
	b.hi	.LBB17_14
	subs	x19, x12, x21
	b.ls	.LBB17_16
.LBB17_14:
	mov	x9, xzr
	mov	x21, xzr
	mov	x11, xzr
	mov	w8, #1
	mov	w20, #1
.LBB17_15:
	stp	x8, x11, [x0]
	stp	x20, x19, [x0, #16]
	stp	x9, x21, [x0, #32]
	ldp	x20, x19, [sp, #48]
	ldp	x22, x21, [sp, #32]
	ldp	x29, x30, [sp, #16]
	add	sp, sp, #64
	ret
.LBB17_16:
	adrp	x8, .LCPI17_0
	cmp	w10, #55
	ldr	q0, [x8, :lo12:.LCPI17_0]
	mov	x8, xzr
	b.hi	.LBB17_65
	adrp	x11, .LJTI17_1
	add	x11, x11, :lo12:.LJTI17_1
	mov	w13, w4
	adr	x14, .LBB17_18
	ldrh	w15, [x11, x10, lsl #1]
	add	x14, x14, x15, lsl #2
	add	x9, x1, #1
	mov	w12, #16
	mov	x10, x8
	mov	x11, x8
	mov	x20, x8
	mov	x19, x8
	br	x14
.LBB17_18:
	cmp	x21, #8
	b.lo	.LBB17_52
	ldur	x9, [x1, #1]
	mov	x8, xzr
	mov	x10, xzr
	mov	x11, xzr
	mov	x19, xzr
	sub	x21, x2, #9
	rev	x20, x9
	add	x9, x1, #9
	mov	w12, #7
	b	.LBB17_71
.LBB17_20:
	mov	w12, #5
	mov	w9, #1
	cmp	x12, w3, uxtw
	b.lo	.LBB17_12
	b	.LBB17_5
.LBB17_21:
	mov	x21, x9
	mov	w11, #1
	mov	x20, x9
	mov	x19, x9
	b	.LBB17_15
.LBB17_22:
	cmp	x21, #2
	b.lo	.LBB17_39
	ldurh	w9, [x1, #1]
	mov	x8, xzr
	mov	x11, xzr
	mov	x20, xzr
	mov	x19, xzr
	sub	x21, x2, #3
	rev16	w10, w9
	add	x9, x1, #3
	mov	w12, #3
	b	.LBB17_71
.LBB17_24:
	cmp	x21, #4
	b.lo	.LBB17_63
	ldur	w9, [x1, #1]
	mov	x8, xzr
	mov	x10, xzr
	mov	x20, xzr
	mov	x19, xzr
	sub	x21, x2, #5
	rev	w11, w9
	add	x9, x1, #5
	mov	w12, #8
	b	.LBB17_71
.LBB17_26:
	cmp	x21, #4
	b.lo	.LBB17_63
	ldur	w9, [x1, #1]
	mov	x8, xzr
	mov	x10, xzr
	mov	x20, xzr
	mov	x19, xzr
	sub	x21, x2, #5
	rev	w11, w9
	add	x9, x1, #5
	mov	w12, #6
	b	.LBB17_71
.LBB17_28:
	cmp	x21, #8
	b.lo	.LBB17_52
	ldur	x9, [x1, #1]
	mov	x8, xzr
	mov	x10, xzr
	mov	x11, xzr
	mov	x19, xzr
	sub	x21, x2, #9
	rev	x20, x9
	add	x9, x1, #9
	mov	w12, #13
	b	.LBB17_71
.LBB17_30:
	cbz	x21, .LBB17_61
	ldrb	w8, [x1, #1]
	mov	x10, xzr
	mov	x11, xzr
	mov	x20, xzr
	mov	x19, xzr
	add	x9, x1, #2
	sub	x21, x2, #2
	mov	w12, #2
	b	.LBB17_71
.LBB17_32:
	cmp	x21, #4
	b.lo	.LBB17_63
	ldur	w9, [x1, #1]
	mov	x8, xzr
	mov	x10, xzr
	mov	x20, xzr
	mov	x19, xzr
	sub	x21, x2, #5
	rev	w11, w9
	add	x9, x1, #5
	mov	w12, #5
	b	.LBB17_71
.LBB17_34:
	subs	x8, x2, #5
	b.lo	.LBB17_63
	ldr	w9, [x9]
	rev	w19, w9
	subs	x21, x8, x19
	b.lo	.LBB17_67
	add	x20, x1, #5
	mov	x8, xzr
	mov	x10, xzr
	mov	x11, xzr
	add	x9, x20, x19
	mov	w12, #11
	b	.LBB17_71
.LBB17_37:
	cmp	x21, #2
	b.lo	.LBB17_39
	ldurh	w9, [x1, #1]
	mov	x8, xzr
	mov	x11, xzr
	mov	x20, xzr
	mov	x19, xzr
	sub	x21, x2, #3
	rev16	w10, w9
	add	x9, x1, #3
	mov	w12, #4
	b	.LBB17_71
.LBB17_39:
	adrp	x8, .LCPI17_1
	mov	w9, #3
	b	.LBB17_64
.LBB17_40:
	subs	x8, x2, #5
	b.lo	.LBB17_63
	ldr	w9, [x9]
	rev	w19, w9
	subs	x21, x8, x19
	b.lo	.LBB17_67
	adrp	x8, .LCPI17_2
	ldr	q0, [x8, :lo12:.LCPI17_2]
	cbz	w4, .LBB17_72
	add	x20, x1, #5
	mov	x22, x0
	sub	x2, x13, #1
	mov	x0, x20
	mov	x1, x19
	str	q0, [sp]
	bl	"amqp_in_place::read::are_values"
	mov	x8, xzr
	tbz	w0, #0, .LBB17_73
	add	x9, x20, x19
	mov	w11, #12
	b	.LBB17_58
.LBB17_45:
	cbz	x21, .LBB17_61
	ldrb	w8, [x1, #1]
	mov	x12, xzr
	mov	x10, xzr
	mov	x11, xzr
	mov	x20, xzr
	mov	x19, xzr
	cmp	w8, #0
	add	x9, x1, #2
	sub	x21, x2, #2
	cset	w8, ne
	b	.LBB17_71
.LBB17_47:
	adrp	x8, .LCPI17_1
	ldr	q0, [x8, :lo12:.LCPI17_1]
	cbz	x21, .LBB17_68
	sub	x8, x2, #2
	cmp	x8, #3
	b.hi	.LBB17_69
	mov	w8, #6
	sub	x8, x8, x2
	b	.LBB17_65
.LBB17_50:
	cmp	x21, #8
	b.lo	.LBB17_52
	ldur	x9, [x1, #1]
	mov	x8, xzr
	mov	x10, xzr
	mov	x11, xzr
	mov	x19, xzr
	sub	x21, x2, #9
	rev	x20, x9
	add	x9, x1, #9
	mov	w12, #9
	b	.LBB17_71
.LBB17_52:
	adrp	x8, .LCPI17_1
	mov	w9, #9
	b	.LBB17_64
.LBB17_53:
	subs	x8, x2, #5
	b.lo	.LBB17_63
	ldr	w9, [x9]
	rev	w19, w9
	subs	x21, x8, x19
	b.lo	.LBB17_67
	adrp	x8, .LCPI17_2
	ldr	q0, [x8, :lo12:.LCPI17_2]
	cbz	w4, .LBB17_72
	add	x20, x1, #5
	mov	x22, x0
	sub	x2, x13, #1
	mov	x0, x20
	mov	x1, x19
	str	q0, [sp]
	bl	"amqp_in_place::read::are_pairs"
	mov	x8, xzr
	tbz	w0, #0, .LBB17_73
	add	x9, x20, x19
	mov	w11, #14
.LBB17_58:
	mov	x0, x22
	b	.LBB17_15
.LBB17_59:
	cbz	x21, .LBB17_61
	ldrb	w8, [x1, #1]
	mov	x10, xzr
	mov	x11, xzr
	mov	x20, xzr
	mov	x19, xzr
	add	x9, x1, #2
	sub	x21, x2, #2
	mov	w12, #1
	b	.LBB17_71
.LBB17_61:
	adrp	x8, .LCPI17_1
	ldr	q0, [x8, :lo12:.LCPI17_1]
	mov	w8, #1
	b	.LBB17_65
.LBB17_62:
	subs	x8, x2, #5
	b.hs	.LBB17_66
.LBB17_63:
	adrp	x8, .LCPI17_1
	mov	w9, #5
.LBB17_64:
	ldr	q0, [x8, :lo12:.LCPI17_1]
	sub	x8, x9, x2
.LBB17_65:
	mov	w9, #1
	stur	q0, [x0, #8]
	str	x9, [x0]
	stp	xzr, xzr, [x0, #32]
	str	x8, [x0, #24]
	ldp	x20, x19, [sp, #48]
	ldp	x22, x21, [sp, #32]
	ldp	x29, x30, [sp, #16]
	add	sp, sp, #64
	ret
.LBB17_66:
	ldr	w9, [x9]
	rev	w19, w9
	subs	x21, x8, x19
	b.hs	.LBB17_70
.LBB17_67:
	adrp	x9, .LCPI17_1
	sub	x8, x19, x8
	ldr	q0, [x9, :lo12:.LCPI17_1]
	b	.LBB17_65
.LBB17_68:
	mov	w8, #1
	b	.LBB17_65
.LBB17_69:
	ldur	w9, [x1, #2]
	ldrb	w11, [x1, #1]
	mov	x8, xzr
	mov	x10, xzr
	mov	x19, xzr
	sub	x21, x2, #6
	rev	w20, w9
	add	x9, x1, #6
	mov	w12, #10
	orr	x11, x11, x20, lsl #32
	b	.LBB17_71
.LBB17_70:
	add	x20, x1, #5
	mov	x8, xzr
	mov	x10, xzr
	mov	x11, xzr
	add	x9, x20, x19
	mov	w12, #15
.LBB17_71:
	lsl	x10, x10, #16
	orr	x10, x10, x11, lsl #32
	orr	x10, x10, x8, lsl #8
	mov	x8, xzr
	orr	x11, x10, x12
	b	.LBB17_15
.LBB17_72:
	mov	x8, xzr
	b	.LBB17_65
.LBB17_73:
	ldr	q0, [sp]
	mov	x0, x22
	b	.LBB17_65
.Lfunc_end17:
	.size	"amqp_in_place::read::read_in_place", .Lfunc_end17-"amqp_in_place::read::read_in_place"
	.section	".rodata.amqp_in_place::read::read_in_place","a",@progbits
.LJTI17_0:
	.byte	(.LBB17_3-.LBB17_3)>>2
	.byte	(.LBB17_9-.LBB17_3)>>2
	.byte	(.LBB17_15-.LBB17_3)>>2
	.byte	(.LBB17_20-.LBB17_3)>>2
	.byte	(.LBB17_15-.LBB17_3)>>2
	.byte	(.LBB17_3-.LBB17_3)>>2
	.byte	(.LBB17_15-.LBB17_3)>>2
	.byte	(.LBB17_15-.LBB17_3)>>2
	.byte	(.LBB17_4-.LBB17_3)>>2
	.byte	(.LBB17_15-.LBB17_3)>>2
	.byte	(.LBB17_15-.LBB17_3)>>2
	.byte	(.LBB17_7-.LBB17_3)>>2
	.byte	(.LBB17_15-.LBB17_3)>>2
	.byte	(.LBB17_15-.LBB17_3)>>2
	.byte	(.LBB17_15-.LBB17_3)>>2
	.byte	(.LBB17_15-.LBB17_3)>>2
	.byte	(.LBB17_15-.LBB17_3)>>2
	.byte	(.LBB17_15-.LBB17_3)>>2
	.byte	(.LBB17_3-.LBB17_3)>>2
	.byte	(.LBB17_7-.LBB17_3)>>2
	.byte	(.LBB17_8-.LBB17_3)>>2
	.byte	(.LBB17_11-.LBB17_3)>>2
	.byte	(.LBB17_15-.LBB17_3)>>2
	.byte	(.LBB17_15-.LBB17_3)>>2
	.byte	(.LBB17_15-.LBB17_3)>>2
	.byte	(.LBB17_15-.LBB17_3)>>2
	.byte	(.LBB17_15-.LBB17_3)>>2
	.byte	(.LBB17_15-.LBB17_3)>>2
	.byte	(.LBB17_15-.LBB17_3)>>2
	.byte	(.LBB17_15-.LBB17_3)>>2
	.byte	(.LBB17_15-.LBB17_3)>>2
	.byte	(.LBB17_15-.LBB17_3)>>2
	.byte	(.LBB17_15-.LBB17_3)>>2
	.byte	(.LBB17_9-.LBB17_3)>>2
	.byte	(.LBB17_15-.LBB17_3)>>2
	.byte	(.LBB17_7-.LBB17_3)>>2
	.byte	(.LBB17_15-.LBB17_3)>>2
	.byte	(.LBB17_4-.LBB17_3)>>2
	.byte	(.LBB17_15-.LBB17_3)>>2
	.byte	(.LBB17_15-.LBB17_3)>>2
	.byte	(.LBB17_4-.LBB17_3)>>2
	.byte	(.LBB17_15-.LBB17_3)>>2
	.byte	(.LBB17_15-.LBB17_3)>>2
	.byte	(.LBB17_7-.LBB17_3)>>2
	.byte	(.LBB17_15-.LBB17_3)>>2
	.byte	(.LBB17_15-.LBB17_3)>>2
	.byte	(.LBB17_15-.LBB17_3)>>2
	.byte	(.LBB17_15-.LBB17_3)>>2
	.byte	(.LBB17_15-.LBB17_3)>>2
	.byte	(.LBB17_15-.LBB17_3)>>2
	.byte	(.LBB17_8-.LBB17_3)>>2
	.byte	(.LBB17_9-.LBB17_3)>>2
	.byte	(.LBB17_8-.LBB17_3)>>2
	.byte	(.LBB17_15-.LBB17_3)>>2
	.byte	(.LBB17_15-.LBB17_3)>>2
	.byte	(.LBB17_3-.LBB17_3)>>2
	.p2align	1, 0x0
.LJTI17_1:
	.hword	(.LBB17_40-.LBB17_18)>>2
	.hword	(.LBB17_30-.LBB17_18)>>2
	.hword	(.LBB17_65-.LBB17_18)>>2
	.hword	(.LBB17_47-.LBB17_18)>>2
	.hword	(.LBB17_65-.LBB17_18)>>2
	.hword	(.LBB17_53-.LBB17_18)>>2
	.hword	(.LBB17_65-.LBB17_18)>>2
	.hword	(.LBB17_65-.LBB17_18)>>2
	.hword	(.LBB17_32-.LBB17_18)>>2
	.hword	(.LBB17_65-.LBB17_18)>>2
	.hword	(.LBB17_65-.LBB17_18)>>2
	.hword	(.LBB17_18-.LBB17_18)>>2
	.hword	(.LBB17_65-.LBB17_18)>>2
	.hword	(.LBB17_65-.LBB17_18)>>2
	.hword	(.LBB17_65-.LBB17_18)>>2
	.hword	(.LBB17_65-.LBB17_18)>>2
	.hword	(.LBB17_65-.LBB17_18)>>2
	.hword	(.LBB17_65-.LBB17_18)>>2
	.hword	(.LBB17_34-.LBB17_18)>>2
	.hword	(.LBB17_28-.LBB17_18)>>2
	.hword	(.LBB17_22-.LBB17_18)>>2
	.hword	(.LBB17_71-.LBB17_18)>>2
	.hword	(.LBB17_65-.LBB17_18)>>2
	.hword	(.LBB17_65-.LBB17_18)>>2
	.hword	(.LBB17_65-.LBB17_18)>>2
	.hword	(.LBB17_65-.LBB17_18)>>2
	.hword	(.LBB17_65-.LBB17_18)>>2
	.hword	(.LBB17_65-.LBB17_18)>>2
	.hword	(.LBB17_65-.LBB17_18)>>2
	.hword	(.LBB17_65-.LBB17_18)>>2
	.hword	(.LBB17_65-.LBB17_18)>>2
	.hword	(.LBB17_65-.LBB17_18)>>2
	.hword	(.LBB17_65-.LBB17_18)>>2
	.hword	(.LBB17_59-.LBB17_18)>>2
	.hword	(.LBB17_65-.LBB17_18)>>2
	.hword	(.LBB17_50-.LBB17_18)>>2
	.hword	(.LBB17_65-.LBB17_18)>>2
	.hword	(.LBB17_24-.LBB17_18)>>2
	.hword	(.LBB17_65-.LBB17_18)>>2
	.hword	(.LBB17_65-.LBB17_18)>>2
	.hword	(.LBB17_26-.LBB17_18)>>2
	.hword	(.LBB17_65-.LBB17_18)>>2
	.hword	(.LBB17_65-.LBB17_18)>>2
	.hword	(.LBB17_18-.LBB17_18)>>2
	.hword	(.LBB17_65-.LBB17_18)>>2
	.hword	(.LBB17_65-.LBB17_18)>>2
	.hword	(.LBB17_65-.LBB17_18)>>2
	.hword	(.LBB17_65-.LBB17_18)>>2
	.hword	(.LBB17_65-.LBB17_18)>>2
	.hword	(.LBB17_65-.LBB17_18)>>2
	.hword	(.LBB17_22-.LBB17_18)>>2
	.hword	(.LBB17_45-.LBB17_18)>>2
	.hword	(.LBB17_37-.LBB17_18)>>2
	.hword	(.LBB17_65-.LBB17_18)>>2
	.hword	(.LBB17_65-.LBB17_18)>>2
	.hword	(.LBB17_62-.LBB17_18)>>2

	.section	.rodata.cst16,"aM",@progbits,16
	.p2align	4, 0x0
.LCPI18_0:
	.xword	1
	.xword	0
	.section	".text.amqp_in_place::problems::search","ax",@progbits
	.p2align	2
	.type	"amqp_in_place::problems::search",@function
"amqp_in_place::problems::search":
	sub	sp, sp, #64
	str	x19, [sp, #48]
	mov	x19, x0
	stp	x29, x30, [sp, #32]
	add	x29, sp, #32
	str	xzr, [sp, #24]
	cbz	x2, .LBB18_5
	ldrb	w8, [x1]
	sub	w8, w8, #65
	cmp	w8, #55
	b.hi	.LBB18_5
	adrp	x9, .LJTI18_0
	add	x9, x9, :lo12:.LJTI18_0
	adr	x10, .LBB18_3
	ldrb	w11, [x9, x8]
	add	x10, x10, x11, lsl #2
	mov	w8, #1
	br	x10
.LBB18_3:
	cmp	x2, #5
	b.hs	.LBB18_12
.LBB18_4:
	mov	w8, #5
	cmp	x8, w4, uxtw
	b.hi	.LBB18_14
.LBB18_5:
	add	x0, sp, #8
	mov	w4, w5
	bl	"amqp_in_place::problems::value"
	ldrb	w8, [sp, #8]
	cbz	w8, .LBB18_7
	ldrb	w8, [sp, #25]
	ldrb	w9, [sp, #24]
	mov	w11, #1
	ldr	x10, [sp, #16]
	b	.LBB18_8
.LBB18_7:
	mov	x11, xzr
	mov	x10, xzr
	mov	w9, wzr
.LBB18_8:
	stp	x11, x10, [x19]
	strb	w9, [x19, #16]
	strb	w8, [x19, #17]
	ldp	x29, x30, [sp, #32]
	ldr	x19, [sp, #48]
	add	sp, sp, #64
	ret
.LBB18_9:
	mov	w8, #9
	cmp	x8, w4, uxtw
	b.hi	.LBB18_14
	b	.LBB18_5
.LBB18_10:
	mov	w8, #2
	cmp	x8, w4, uxtw
	b.hi	.LBB18_14
	b	.LBB18_5
.LBB18_11:
	mov	w8, #3
	cmp	x8, w4, uxtw
	b.hi	.LBB18_14
	b	.LBB18_5
.LBB18_12:
	ldur	w8, [x1, #1]
	rev	w8, w8
	add	x8, x8, #5
.LBB18_13:
	cmp	x8, w4, uxtw
	b.ls	.LBB18_5
.LBB18_14:
	adrp	x8, .LCPI18_0
	ldr	q0, [x8, :lo12:.LCPI18_0]
	mov	w8, #6
	strh	w8, [x19, #16]
	str	q0, [x19]
	ldp	x29, x30, [sp, #32]
	ldr	x19, [sp, #48]
	add	sp, sp, #64
	ret
.LBB18_15:
	mov	w8, #6
	cmp	x8, w4, uxtw
	b.hi	.LBB18_14
	b	.LBB18_5
.Lfunc_end18:
	.size	"amqp_in_place::problems::search", .Lfunc_end18-"amqp_in_place::problems::search"
	.section	".rodata.amqp_in_place::problems::search","a",@progbits
.LJTI18_0:
	.byte	(.LBB18_3-.LBB18_3)>>2
	.byte	(.LBB18_10-.LBB18_3)>>2
	.byte	(.LBB18_5-.LBB18_3)>>2
	.byte	(.LBB18_15-.LBB18_3)>>2
	.byte	(.LBB18_5-.LBB18_3)>>2
	.byte	(.LBB18_3-.LBB18_3)>>2
	.byte	(.LBB18_5-.LBB18_3)>>2
	.byte	(.LBB18_5-.LBB18_3)>>2
	.byte	(.LBB18_4-.LBB18_3)>>2
	.byte	(.LBB18_5-.LBB18_3)>>2
	.byte	(.LBB18_5-.LBB18_3)>>2
	.byte	(.LBB18_9-.LBB18_3)>>2
	.byte	(.LBB18_5-.LBB18_3)>>2
	.byte	(.LBB18_5-.LBB18_3)>>2
	.byte	(.LBB18_5-.LBB18_3)>>2
	.byte	(.LBB18_5-.LBB18_3)>>2
	.byte	(.LBB18_5-.LBB18_3)>>2
	.byte	(.LBB18_5-.LBB18_3)>>2
	.byte	(.LBB18_3-.LBB18_3)>>2
	.byte	(.LBB18_9-.LBB18_3)>>2
	.byte	(.LBB18_11-.LBB18_3)>>2
	.byte	(.LBB18_13-.LBB18_3)>>2
	.byte	(.LBB18_5-.LBB18_3)>>2
	.byte	(.LBB18_5-.LBB18_3)>>2
	.byte	(.LBB18_5-.LBB18_3)>>2
	.byte	(.LBB18_5-.LBB18_3)>>2
	.byte	(.LBB18_5-.LBB18_3)>>2
	.byte	(.LBB18_5-.LBB18_3)>>2
	.byte	(.LBB18_5-.LBB18_3)>>2
	.byte	(.LBB18_5-.LBB18_3)>>2
	.byte	(.LBB18_5-.LBB18_3)>>2
	.byte	(.LBB18_5-.LBB18_3)>>2
	.byte	(.LBB18_5-.LBB18_3)>>2
	.byte	(.LBB18_10-.LBB18_3)>>2
	.byte	(.LBB18_5-.LBB18_3)>>2
	.byte	(.LBB18_9-.LBB18_3)>>2
	.byte	(.LBB18_5-.LBB18_3)>>2
	.byte	(.LBB18_4-.LBB18_3)>>2
	.byte	(.LBB18_5-.LBB18_3)>>2
	.byte	(.LBB18_5-.LBB18_3)>>2
	.byte	(.LBB18_4-.LBB18_3)>>2
	.byte	(.LBB18_5-.LBB18_3)>>2
	.byte	(.LBB18_5-.LBB18_3)>>2
	.byte	(.LBB18_9-.LBB18_3)>>2
	.byte	(.LBB18_5-.LBB18_3)>>2
	.byte	(.LBB18_5-.LBB18_3)>>2
	.byte	(.LBB18_5-.LBB18_3)>>2
	.byte	(.LBB18_5-.LBB18_3)>>2
	.byte	(.LBB18_5-.LBB18_3)>>2
	.byte	(.LBB18_5-.LBB18_3)>>2
	.byte	(.LBB18_11-.LBB18_3)>>2
	.byte	(.LBB18_10-.LBB18_3)>>2
	.byte	(.LBB18_11-.LBB18_3)>>2
	.byte	(.LBB18_5-.LBB18_3)>>2
	.byte	(.LBB18_5-.LBB18_3)>>2
	.byte	(.LBB18_3-.LBB18_3)>>2

	.section	".text.unlikely.amqp_c::input::Input::header","ax",@progbits
	.p2align	2
	.type	"amqp_c::input::Input::header",@function
"amqp_c::input::Input::header":
	ldp	x10, x8, [x0]
	ldrb	w11, [x0, #24]
	ldr	w9, [x0, #16]
	tbnz	w11, #0, .LBB19_6
	cbz	x8, .LBB19_9
	ldrb	w11, [x10]
	mov	x1, xzr
	mov	w0, wzr
	sub	w11, w11, #65
	cmp	w11, #55
	b.hi	.LBB19_21
	adrp	x12, .LJTI19_0
	add	x12, x12, :lo12:.LJTI19_0
	adr	x13, .LBB19_4
	ldrb	w14, [x12, x11]
	add	x13, x13, x14, lsl #2
	mov	x11, x1
	br	x13
.LBB19_4:
	cmp	x8, #5
	b.hs	.LBB19_15
.LBB19_5:
	mov	w1, #4
	mov	w11, #4
	cmp	x11, x9
	b.lo	.LBB19_17
	b	.LBB19_23
.LBB19_6:
	cmn	x8, #1
	b.eq	.LBB19_9
	cmp	x8, #3
	b.hi	.LBB19_10
	mov	w10, #4
	cmp	w9, #4
	mov	w9, #1
	sub	x8, x10, x8
	cinc	w0, w9, hi
	csel	x1, x8, xzr, hi
	ret
.LBB19_9:
	mov	w0, #2
	mov	w1, #1
	ret
.LBB19_10:
	ldr	w10, [x10]
	rev	w10, w10
	add	x10, x10, #4
	cmp	x10, x9
	b.hs	.LBB19_23
	cmp	x8, x10
	mov	w9, #2
	cinc	w0, w9, hs
	subs	x8, x10, x8
	b	.LBB19_20
.LBB19_12:
	mov	w1, #8
	mov	w11, #8
	cmp	x11, x9
	b.lo	.LBB19_17
	b	.LBB19_23
.LBB19_13:
	mov	w1, #2
	mov	w11, #2
	cmp	x11, x9
	b.lo	.LBB19_17
	b	.LBB19_23
.LBB19_14:
	mov	w1, #1
	mov	w11, #1
	cmp	x11, x9
	b.lo	.LBB19_17
	b	.LBB19_23
.LBB19_15:
	ldur	w10, [x10, #1]
	mov	w1, #4
	rev	w10, w10
	add	x11, x10, #4
.LBB19_16:
	cmp	x11, x9
	b.hs	.LBB19_23
.LBB19_17:
	sub	x8, x8, #1
	subs	x1, x1, x8
	b.ls	.LBB19_19
	mov	w0, #2
	ret
.LBB19_19:
	cmp	x8, x11
	mov	w9, #2
	cinc	w0, w9, hs
	subs	x8, x11, x8
.LBB19_20:
	csel	x1, xzr, x8, lo
.LBB19_21:
	ret
.LBB19_22:
	mov	w11, #5
	mov	w1, #1
	cmp	x11, x9
	b.lo	.LBB19_17
.LBB19_23:
	mov	x1, xzr
	mov	w0, #1
	ret
.Lfunc_end19:
	.size	"amqp_c::input::Input::header", .Lfunc_end19-"amqp_c::input::Input::header"
	.section	".rodata.unlikely.amqp_c::input::Input::header","a",@progbits
.LJTI19_0:
	.byte	(.LBB19_4-.LBB19_4)>>2
	.byte	(.LBB19_14-.LBB19_4)>>2
	.byte	(.LBB19_21-.LBB19_4)>>2
	.byte	(.LBB19_22-.LBB19_4)>>2
	.byte	(.LBB19_21-.LBB19_4)>>2
	.byte	(.LBB19_4-.LBB19_4)>>2
	.byte	(.LBB19_21-.LBB19_4)>>2
	.byte	(.LBB19_21-.LBB19_4)>>2
	.byte	(.LBB19_5-.LBB19_4)>>2
	.byte	(.LBB19_21-.LBB19_4)>>2
	.byte	(.LBB19_21-.LBB19_4)>>2
	.byte	(.LBB19_12-.LBB19_4)>>2
	.byte	(.LBB19_21-.LBB19_4)>>2
	.byte	(.LBB19_21-.LBB19_4)>>2
	.byte	(.LBB19_21-.LBB19_4)>>2
	.byte	(.LBB19_21-.LBB19_4)>>2
	.byte	(.LBB19_21-.LBB19_4)>>2
	.byte	(.LBB19_21-.LBB19_4)>>2
	.byte	(.LBB19_4-.LBB19_4)>>2
	.byte	(.LBB19_12-.LBB19_4)>>2
	.byte	(.LBB19_13-.LBB19_4)>>2
	.byte	(.LBB19_16-.LBB19_4)>>2
	.byte	(.LBB19_21-.LBB19_4)>>2
	.byte	(.LBB19_21-.LBB19_4)>>2
	.byte	(.LBB19_21-.LBB19_4)>>2
	.byte	(.LBB19_21-.LBB19_4)>>2
	.byte	(.LBB19_21-.LBB19_4)>>2
	.byte	(.LBB19_21-.LBB19_4)>>2
	.byte	(.LBB19_21-.LBB19_4)>>2
	.byte	(.LBB19_21-.LBB19_4)>>2
	.byte	(.LBB19_21-.LBB19_4)>>2
	.byte	(.LBB19_21-.LBB19_4)>>2
	.byte	(.LBB19_21-.LBB19_4)>>2
	.byte	(.LBB19_14-.LBB19_4)>>2
	.byte	(.LBB19_21-.LBB19_4)>>2
	.byte	(.LBB19_12-.LBB19_4)>>2
	.byte	(.LBB19_21-.LBB19_4)>>2
	.byte	(.LBB19_5-.LBB19_4)>>2
	.byte	(.LBB19_21-.LBB19_4)>>2
	.byte	(.LBB19_21-.LBB19_4)>>2
	.byte	(.LBB19_5-.LBB19_4)>>2
	.byte	(.LBB19_21-.LBB19_4)>>2
	.byte	(.LBB19_21-.LBB19_4)>>2
	.byte	(.LBB19_12-.LBB19_4)>>2
	.byte	(.LBB19_21-.LBB19_4)>>2
	.byte	(.LBB19_21-.LBB19_4)>>2
	.byte	(.LBB19_21-.LBB19_4)>>2
	.byte	(.LBB19_21-.LBB19_4)>>2
	.byte	(.LBB19_21-.LBB19_4)>>2
	.byte	(.LBB19_21-.LBB19_4)>>2
	.byte	(.LBB19_13-.LBB19_4)>>2
	.byte	(.LBB19_14-.LBB19_4)>>2
	.byte	(.LBB19_13-.LBB19_4)>>2
	.byte	(.LBB19_21-.LBB19_4)>>2
	.byte	(.LBB19_21-.LBB19_4)>>2
	.byte	(.LBB19_4-.LBB19_4)>>2

	.section	".text.amqp_in_place::measure::counts_of_values","ax",@progbits
	.p2align	2
	.type	"amqp_in_place::measure::counts_of_values",@function
"amqp_in_place::measure::counts_of_values":
	stp	x29, x30, [sp, #-48]!
	stp	x22, x21, [sp, #16]
	mov	x29, sp
	stp	x20, x19, [sp, #32]
	cbz	x1, .LBB20_26
	mov	x19, xzr
	mov	x20, xzr
	mov	x21, x0
	b	.LBB20_6
.LBB20_2:
	cmp	x22, #4
	b.lo	.LBB20_28
	mov	x8, xzr
	add	x21, x0, #5
	sub	x22, x1, #5
.LBB20_4:
	mov	w9, #1
.LBB20_5:
	cmp	x8, x19
	add	x20, x9, x20
	mov	x1, x22
	csel	x19, x8, x19, hi
	mov	x0, x21
	cbz	x22, .LBB20_27
.LBB20_6:
	ldrb	w8, [x21], #1
	sub	w9, w8, #65
	cmp	w9, #55
	b.hi	.LBB20_28
	adrp	x10, .LJTI20_0
	add	x10, x10, :lo12:.LJTI20_0
	mov	x8, xzr
	adr	x11, .LBB20_2
	ldrb	w12, [x10, x9]
	add	x11, x11, x12, lsl #2
	sub	x22, x1, #1
	mov	w9, #1
	br	x11
.LBB20_8:
	cmp	x22, #8
	b.lo	.LBB20_28
	mov	x8, xzr
	add	x21, x0, #9
	sub	x22, x1, #9
	b	.LBB20_4
.LBB20_10:
	cmp	x22, #2
	b.lo	.LBB20_28
	mov	x8, xzr
	add	x21, x0, #3
	sub	x22, x1, #3
	b	.LBB20_4
.LBB20_12:
	cbz	x22, .LBB20_28
	mov	x8, xzr
	add	x21, x0, #2
	sub	x22, x1, #2
	b	.LBB20_4
.LBB20_14:
	subs	x8, x1, #5
	b.lo	.LBB20_28
	ldr	w9, [x21]
	rev	w9, w9
	subs	x22, x8, x9
	b.lo	.LBB20_28
	add	x9, x0, x9
	mov	x8, xzr
	add	x21, x9, #5
	b	.LBB20_4
.LBB20_17:
	subs	x22, x1, #6
	b.lo	.LBB20_28
	mov	x8, xzr
	add	x21, x0, #6
	b	.LBB20_4
.LBB20_19:
	subs	x8, x1, #5
	b.lo	.LBB20_28
	ldr	w9, [x21]
	rev	w1, w9
	subs	x22, x8, x1
	b.lo	.LBB20_28
	add	x0, x0, #5
	add	x21, x0, x1
	bl	"amqp_in_place::measure::counts_of_pairs"
	b	.LBB20_25
.LBB20_22:
	subs	x8, x1, #5
	b.lo	.LBB20_28
	ldr	w9, [x21]
	rev	w1, w9
	subs	x22, x8, x1
	b.lo	.LBB20_28
	add	x0, x0, #5
	add	x21, x0, x1
	bl	"amqp_in_place::measure::counts_of_values"
.LBB20_25:
	add	x9, x0, #1
	add	x8, x1, #1
	b	.LBB20_5
.LBB20_26:
	mov	x20, xzr
	mov	x19, xzr
.LBB20_27:
	mov	x0, x20
	mov	x1, x19
	ldp	x20, x19, [sp, #32]
	ldp	x22, x21, [sp, #16]
	ldp	x29, x30, [sp], #48
	ret
.LBB20_28:
	brk	#0x1
.Lfunc_end20:
	.size	"amqp_in_place::measure::counts_of_values", .Lfunc_end20-"amqp_in_place::measure::counts_of_values"
	.section	".rodata.amqp_in_place::measure::counts_of_values","a",@progbits
.LJTI20_0:
	.byte	(.LBB20_22-.LBB20_2)>>2
	.byte	(.LBB20_12-.LBB20_2)>>2
	.byte	(.LBB20_28-.LBB20_2)>>2
	.byte	(.LBB20_17-.LBB20_2)>>2
	.byte	(.LBB20_28-.LBB20_2)>>2
	.byte	(.LBB20_19-.LBB20_2)>>2
	.byte	(.LBB20_28-.LBB20_2)>>2
	.byte	(.LBB20_28-.LBB20_2)>>2
	.byte	(.LBB20_2-.LBB20_2)>>2
	.byte	(.LBB20_28-.LBB20_2)>>2
	.byte	(.LBB20_28-.LBB20_2)>>2
	.byte	(.LBB20_8-.LBB20_2)>>2
	.byte	(.LBB20_28-.LBB20_2)>>2
	.byte	(.LBB20_28-.LBB20_2)>>2
	.byte	(.LBB20_28-.LBB20_2)>>2
	.byte	(.LBB20_28-.LBB20_2)>>2
	.byte	(.LBB20_28-.LBB20_2)>>2
	.byte	(.LBB20_28-.LBB20_2)>>2
	.byte	(.LBB20_14-.LBB20_2)>>2
	.byte	(.LBB20_8-.LBB20_2)>>2
	.byte	(.LBB20_10-.LBB20_2)>>2
	.byte	(.LBB20_5-.LBB20_2)>>2
	.byte	(.LBB20_28-.LBB20_2)>>2
	.byte	(.LBB20_28-.LBB20_2)>>2
	.byte	(.LBB20_28-.LBB20_2)>>2
	.byte	(.LBB20_28-.LBB20_2)>>2
	.byte	(.LBB20_28-.LBB20_2)>>2
	.byte	(.LBB20_28-.LBB20_2)>>2
	.byte	(.LBB20_28-.LBB20_2)>>2
	.byte	(.LBB20_28-.LBB20_2)>>2
	.byte	(.LBB20_28-.LBB20_2)>>2
	.byte	(.LBB20_28-.LBB20_2)>>2
	.byte	(.LBB20_28-.LBB20_2)>>2
	.byte	(.LBB20_12-.LBB20_2)>>2
	.byte	(.LBB20_28-.LBB20_2)>>2
	.byte	(.LBB20_8-.LBB20_2)>>2
	.byte	(.LBB20_28-.LBB20_2)>>2
	.byte	(.LBB20_2-.LBB20_2)>>2
	.byte	(.LBB20_28-.LBB20_2)>>2
	.byte	(.LBB20_28-.LBB20_2)>>2
	.byte	(.LBB20_2-.LBB20_2)>>2
	.byte	(.LBB20_28-.LBB20_2)>>2
	.byte	(.LBB20_28-.LBB20_2)>>2
	.byte	(.LBB20_8-.LBB20_2)>>2
	.byte	(.LBB20_28-.LBB20_2)>>2
	.byte	(.LBB20_28-.LBB20_2)>>2
	.byte	(.LBB20_28-.LBB20_2)>>2
	.byte	(.LBB20_28-.LBB20_2)>>2
	.byte	(.LBB20_28-.LBB20_2)>>2
	.byte	(.LBB20_28-.LBB20_2)>>2
	.byte	(.LBB20_10-.LBB20_2)>>2
	.byte	(.LBB20_12-.LBB20_2)>>2
	.byte	(.LBB20_10-.LBB20_2)>>2
	.byte	(.LBB20_28-.LBB20_2)>>2
	.byte	(.LBB20_28-.LBB20_2)>>2
	.byte	(.LBB20_14-.LBB20_2)>>2

	.section	".text.amqp_in_place::measure::counts_of_pairs","ax",@progbits
	.p2align	2
	.type	"amqp_in_place::measure::counts_of_pairs",@function
"amqp_in_place::measure::counts_of_pairs":
	stp	x29, x30, [sp, #-48]!
	stp	x22, x21, [sp, #16]
	mov	x29, sp
	stp	x20, x19, [sp, #32]
	cbz	x1, .LBB21_28
	mov	x21, x1
	mov	x22, x0
	mov	x19, xzr
	mov	x20, xzr
	b	.LBB21_6
.LBB21_2:
	subs	x21, x21, #2
	b.lo	.LBB21_30
	mov	x8, xzr
	add	x22, x9, #3
.LBB21_4:
	mov	w10, #1
.LBB21_5:
	cmp	x8, x19
	add	x20, x10, x20
	csel	x19, x8, x19, hi
	cbz	x21, .LBB21_29
.LBB21_6:
	ldrb	w11, [x22]
	sub	x10, x21, #1
	cmp	x10, x11
	b.lo	.LBB21_30
	b.eq	.LBB21_30
	add	x9, x22, x11
	ldrb	w8, [x9, #1]!
	sub	w12, w8, #65
	cmp	w12, #55
	b.hi	.LBB21_30
	adrp	x13, .LJTI21_0
	add	x13, x13, :lo12:.LJTI21_0
	mvn	x11, x11
	adr	x14, .LBB21_2
	ldrb	w15, [x13, x12]
	add	x14, x14, x15, lsl #2
	mov	x8, xzr
	add	x22, x9, #1
	add	x21, x10, x11
	mov	w10, #1
	br	x14
.LBB21_10:
	subs	x21, x21, #8
	b.lo	.LBB21_30
	mov	x8, xzr
	add	x22, x9, #9
	b	.LBB21_4
.LBB21_12:
	subs	x21, x21, #4
	b.lo	.LBB21_30
	mov	x8, xzr
	add	x22, x9, #5
	b	.LBB21_4
.LBB21_14:
	cbz	x21, .LBB21_30
	mov	x8, xzr
	add	x22, x9, #2
	sub	x21, x21, #1
	b	.LBB21_4
.LBB21_16:
	subs	x8, x21, #4
	b.lo	.LBB21_30
	ldr	w10, [x22]
	rev	w10, w10
	subs	x21, x8, x10
	b.lo	.LBB21_30
	add	x9, x9, x10
	mov	x8, xzr
	add	x22, x9, #5
	b	.LBB21_4
.LBB21_19:
	subs	x21, x21, #5
	b.lo	.LBB21_30
	mov	x8, xzr
	add	x22, x9, #6
	b	.LBB21_4
.LBB21_21:
	subs	x8, x21, #4
	b.lo	.LBB21_30
	ldr	w10, [x22]
	rev	w1, w10
	subs	x21, x8, x1
	b.lo	.LBB21_30
	add	x0, x9, #5
	add	x22, x0, x1
	bl	"amqp_in_place::measure::counts_of_pairs"
	b	.LBB21_27
.LBB21_24:
	subs	x8, x21, #4
	b.lo	.LBB21_30
	ldr	w10, [x22]
	rev	w1, w10
	subs	x21, x8, x1
	b.lo	.LBB21_30
	add	x0, x9, #5
	add	x22, x0, x1
	bl	"amqp_in_place::measure::counts_of_values"
.LBB21_27:
	add	x10, x0, #1
	add	x8, x1, #1
	b	.LBB21_5
.LBB21_28:
	mov	x20, xzr
	mov	x19, xzr
.LBB21_29:
	mov	x0, x20
	mov	x1, x19
	ldp	x20, x19, [sp, #32]
	ldp	x22, x21, [sp, #16]
	ldp	x29, x30, [sp], #48
	ret
.LBB21_30:
	brk	#0x1
.Lfunc_end21:
	.size	"amqp_in_place::measure::counts_of_pairs", .Lfunc_end21-"amqp_in_place::measure::counts_of_pairs"
	.section	".rodata.amqp_in_place::measure::counts_of_pairs","a",@progbits
.LJTI21_0:
	.byte	(.LBB21_24-.LBB21_2)>>2
	.byte	(.LBB21_14-.LBB21_2)>>2
	.byte	(.LBB21_30-.LBB21_2)>>2
	.byte	(.LBB21_19-.LBB21_2)>>2
	.byte	(.LBB21_30-.LBB21_2)>>2
	.byte	(.LBB21_21-.LBB21_2)>>2
	.byte	(.LBB21_30-.LBB21_2)>>2
	.byte	(.LBB21_30-.LBB21_2)>>2
	.byte	(.LBB21_12-.LBB21_2)>>2
	.byte	(.LBB21_30-.LBB21_2)>>2
	.byte	(.LBB21_30-.LBB21_2)>>2
	.byte	(.LBB21_10-.LBB21_2)>>2
	.byte	(.LBB21_30-.LBB21_2)>>2
	.byte	(.LBB21_30-.LBB21_2)>>2
	.byte	(.LBB21_30-.LBB21_2)>>2
	.byte	(.LBB21_30-.LBB21_2)>>2
	.byte	(.LBB21_30-.LBB21_2)>>2
	.byte	(.LBB21_30-.LBB21_2)>>2
	.byte	(.LBB21_16-.LBB21_2)>>2
	.byte	(.LBB21_10-.LBB21_2)>>2
	.byte	(.LBB21_2-.LBB21_2)>>2
	.byte	(.LBB21_5-.LBB21_2)>>2
	.byte	(.LBB21_30-.LBB21_2)>>2
	.byte	(.LBB21_30-.LBB21_2)>>2
	.byte	(.LBB21_30-.LBB21_2)>>2
	.byte	(.LBB21_30-.LBB21_2)>>2
	.byte	(.LBB21_30-.LBB21_2)>>2
	.byte	(.LBB21_30-.LBB21_2)>>2
	.byte	(.LBB21_30-.LBB21_2)>>2
	.byte	(.LBB21_30-.LBB21_2)>>2
	.byte	(.LBB21_30-.LBB21_2)>>2
	.byte	(.LBB21_30-.LBB21_2)>>2
	.byte	(.LBB21_30-.LBB21_2)>>2
	.byte	(.LBB21_14-.LBB21_2)>>2
	.byte	(.LBB21_30-.LBB21_2)>>2
	.byte	(.LBB21_10-.LBB21_2)>>2
	.byte	(.LBB21_30-.LBB21_2)>>2
	.byte	(.LBB21_12-.LBB21_2)>>2
	.byte	(.LBB21_30-.LBB21_2)>>2
	.byte	(.LBB21_30-.LBB21_2)>>2
	.byte	(.LBB21_12-.LBB21_2)>>2
	.byte	(.LBB21_30-.LBB21_2)>>2
	.byte	(.LBB21_30-.LBB21_2)>>2
	.byte	(.LBB21_10-.LBB21_2)>>2
	.byte	(.LBB21_30-.LBB21_2)>>2
	.byte	(.LBB21_30-.LBB21_2)>>2
	.byte	(.LBB21_30-.LBB21_2)>>2
	.byte	(.LBB21_30-.LBB21_2)>>2
	.byte	(.LBB21_30-.LBB21_2)>>2
	.byte	(.LBB21_30-.LBB21_2)>>2
	.byte	(.LBB21_2-.LBB21_2)>>2
	.byte	(.LBB21_14-.LBB21_2)>>2
	.byte	(.LBB21_2-.LBB21_2)>>2
	.byte	(.LBB21_30-.LBB21_2)>>2
	.byte	(.LBB21_30-.LBB21_2)>>2
	.byte	(.LBB21_16-.LBB21_2)>>2

	.section	".text.amqp_json::printing::walk::put_array","ax",@progbits
	.p2align	2
	.type	"amqp_json::printing::walk::put_array",@function
"amqp_json::printing::walk::put_array":
	sub	sp, sp, #80
	stp	x20, x19, [sp, #64]
	mov	x20, x1
	mov	x19, x0
	stp	x29, x30, [sp, #32]
	add	x29, sp, #32
	stp	x22, x21, [sp, #48]
	tbz	w3, #0, .LBB22_4
	adds	x8, x2, #1
	csinv	x8, x8, xzr, lo
	cmp	x8, x20
	b.ls	.LBB22_5
	adds	x9, x8, #1
	csinv	x2, x9, xzr, lo
	cmp	x2, x20
	b.ls	.LBB22_6
.LBB22_3:
	cbnz	x5, .LBB22_7
	b	.LBB22_48
.LBB22_4:
	mov	x8, x2
	adds	x9, x2, #1
	csinv	x2, x9, xzr, lo
	cmp	x2, x20
	b.hi	.LBB22_3
	b	.LBB22_6
.LBB22_5:
	mov	w9, #44
	strb	w9, [x19, x2]
	adds	x9, x8, #1
	csinv	x2, x9, xzr, lo
	cmp	x2, x20
	b.hi	.LBB22_3
.LBB22_6:
	mov	w9, #91
	strb	w9, [x19, x8]
	cbz	x5, .LBB22_48
.LBB22_7:
	mov	w3, wzr
	mov	x21, x4
	b	.LBB22_11
.LBB22_8:
	add	x12, x4, #5
	mov	w10, wzr
	mov	w8, wzr
	mov	w11, wzr
	add	x21, x12, x9
	mov	w13, #11
.LBB22_9:
	add	x4, sp, #8
	mov	x0, x19
	mov	x1, x20
	strb	w13, [sp, #8]
	strb	w10, [sp, #9]
	strh	w8, [sp, #10]
	str	w11, [sp, #12]
	stp	x12, x9, [sp, #16]
	bl	"amqp_json::printing::leaves::put_leaf"
.LBB22_10:
	mov	x2, x0
	mov	w3, w1
	mov	x5, x22
	mov	x4, x21
	cbz	x22, .LBB22_48
.LBB22_11:
	ldrb	w8, [x21], #1
	sub	w13, w8, #65
	cmp	w13, #55
	b.hi	.LBB22_51
	adrp	x14, .LJTI22_0
	add	x14, x14, :lo12:.LJTI22_0
	mov	w10, wzr
	adr	x15, .LBB22_9
	ldrb	w16, [x14, x13]
	add	x15, x15, x16, lsl #2
	mov	w8, wzr
	mov	w11, wzr
	mov	x12, xzr
	mov	x9, xzr
	sub	x22, x5, #1
	mov	w13, #16
	br	x15
.LBB22_13:
	cmp	x22, #8
	b.lo	.LBB22_51
	ldur	x12, [x4, #1]
	mov	w10, wzr
	mov	w8, wzr
	mov	w11, wzr
	mov	x9, xzr
	add	x21, x4, #9
	rev	x12, x12
	sub	x22, x5, #9
	mov	w13, #7
	b	.LBB22_9
.LBB22_15:
	cmp	x22, #2
	b.lo	.LBB22_51
	ldurh	w8, [x4, #1]
	mov	w10, wzr
	mov	w11, wzr
	mov	x12, xzr
	mov	x9, xzr
	add	x21, x4, #3
	rev16	w8, w8
	sub	x22, x5, #3
	mov	w13, #3
	b	.LBB22_9
.LBB22_17:
	cbz	x22, .LBB22_51
	ldrb	w10, [x4, #1]
	mov	w8, wzr
	mov	w11, wzr
	mov	x12, xzr
	mov	x9, xzr
	add	x21, x4, #2
	sub	x22, x5, #2
	mov	w13, #1
	b	.LBB22_9
.LBB22_19:
	cmp	x22, #8
	b.lo	.LBB22_51
	ldur	x12, [x4, #1]
	mov	w10, wzr
	mov	w8, wzr
	mov	w11, wzr
	mov	x9, xzr
	add	x21, x4, #9
	rev	x12, x12
	sub	x22, x5, #9
	mov	w13, #9
	b	.LBB22_9
.LBB22_21:
	cmp	x22, #2
	b.lo	.LBB22_51
	ldurh	w8, [x4, #1]
	mov	w10, wzr
	mov	w11, wzr
	mov	x12, xzr
	mov	x9, xzr
	add	x21, x4, #3
	rev16	w8, w8
	sub	x22, x5, #3
	mov	w13, #4
	b	.LBB22_9
.LBB22_23:
	cmp	x22, #4
	b.lo	.LBB22_51
	ldur	w11, [x4, #1]
	mov	w10, wzr
	mov	w8, wzr
	mov	x12, xzr
	mov	x9, xzr
	add	x21, x4, #5
	rev	w11, w11
	sub	x22, x5, #5
	mov	w13, #8
	b	.LBB22_9
.LBB22_25:
	cbz	x22, .LBB22_51
	ldrb	w10, [x4, #1]
	mov	w13, wzr
	mov	w8, wzr
	mov	w11, wzr
	mov	x12, xzr
	mov	x9, xzr
	cmp	w10, #0
	add	x21, x4, #2
	sub	x22, x5, #2
	cset	w10, ne
	b	.LBB22_9
.LBB22_27:
	cmp	x22, #4
	b.lo	.LBB22_51
	ldur	w11, [x4, #1]
	mov	w10, wzr
	mov	w8, wzr
	mov	x12, xzr
	mov	x9, xzr
	add	x21, x4, #5
	rev	w11, w11
	sub	x22, x5, #5
	mov	w13, #6
	b	.LBB22_9
.LBB22_29:
	subs	x8, x5, #5
	b.lo	.LBB22_51
	ldr	w9, [x21]
	rev	w5, w9
	subs	x22, x8, x5
	b.lo	.LBB22_51
	add	x4, x4, #5
	mov	x0, x19
	mov	x1, x20
	add	x21, x4, x5
	bl	"amqp_json::printing::walk::put_table"
	b	.LBB22_10
.LBB22_32:
	cmp	x22, #4
	b.lo	.LBB22_51
	ldur	w11, [x4, #1]
	mov	w10, wzr
	mov	w8, wzr
	mov	x12, xzr
	mov	x9, xzr
	add	x21, x4, #5
	rev	w11, w11
	sub	x22, x5, #5
	mov	w13, #5
	b	.LBB22_9
.LBB22_34:
	cbz	x22, .LBB22_51
	ldrb	w10, [x4, #1]
	mov	w8, wzr
	mov	w11, wzr
	mov	x12, xzr
	mov	x9, xzr
	add	x21, x4, #2
	sub	x22, x5, #2
	mov	w13, #2
	b	.LBB22_9
.LBB22_36:
	subs	x22, x5, #6
	b.lo	.LBB22_51
	ldur	w12, [x4, #2]
	ldrb	w11, [x4, #1]
	mov	w10, wzr
	mov	w8, wzr
	mov	x9, xzr
	add	x21, x4, #6
	rev	w12, w12
	mov	w13, #10
	b	.LBB22_9
.LBB22_38:
	subs	x8, x5, #5
	b.lo	.LBB22_51
	ldr	w9, [x21]
	rev	w5, w9
	subs	x22, x8, x5
	b.lo	.LBB22_51
	add	x4, x4, #5
	mov	x0, x19
	mov	x1, x20
	add	x21, x4, x5
	bl	"amqp_json::printing::walk::put_array"
	b	.LBB22_10
.LBB22_41:
	subs	x8, x5, #5
	b.lo	.LBB22_51
	ldr	w9, [x21]
	rev	w9, w9
	subs	x22, x8, x9
	b.hs	.LBB22_8
	b	.LBB22_51
.LBB22_43:
	subs	x8, x5, #5
	b.lo	.LBB22_51
	ldr	w9, [x21]
	rev	w9, w9
	subs	x22, x8, x9
	b.lo	.LBB22_51
	add	x12, x4, #5
	mov	w10, wzr
	mov	w8, wzr
	mov	w11, wzr
	add	x21, x12, x9
	mov	w13, #15
	b	.LBB22_9
.LBB22_46:
	cmp	x22, #8
	b.lo	.LBB22_51
	ldur	x12, [x4, #1]
	mov	w10, wzr
	mov	w8, wzr
	mov	w11, wzr
	mov	x9, xzr
	add	x21, x4, #9
	rev	x12, x12
	sub	x22, x5, #9
	mov	w13, #13
	b	.LBB22_9
.LBB22_48:
	adds	x8, x2, #1
	csinv	x0, x8, xzr, lo
	cmp	x0, x20
	b.hi	.LBB22_50
	mov	w8, #93
	strb	w8, [x19, x2]
.LBB22_50:
	ldp	x20, x19, [sp, #64]
	mov	w1, #1
	ldp	x22, x21, [sp, #48]
	ldp	x29, x30, [sp, #32]
	add	sp, sp, #80
	ret
.LBB22_51:
	brk	#0x1
.Lfunc_end22:
	.size	"amqp_json::printing::walk::put_array", .Lfunc_end22-"amqp_json::printing::walk::put_array"
	.section	".rodata.amqp_json::printing::walk::put_array","a",@progbits
.LJTI22_0:
	.byte	(.LBB22_38-.LBB22_9)>>2
	.byte	(.LBB22_34-.LBB22_9)>>2
	.byte	(.LBB22_51-.LBB22_9)>>2
	.byte	(.LBB22_36-.LBB22_9)>>2
	.byte	(.LBB22_51-.LBB22_9)>>2
	.byte	(.LBB22_29-.LBB22_9)>>2
	.byte	(.LBB22_51-.LBB22_9)>>2
	.byte	(.LBB22_51-.LBB22_9)>>2
	.byte	(.LBB22_32-.LBB22_9)>>2
	.byte	(.LBB22_51-.LBB22_9)>>2
	.byte	(.LBB22_51-.LBB22_9)>>2
	.byte	(.LBB22_13-.LBB22_9)>>2
	.byte	(.LBB22_51-.LBB22_9)>>2
	.byte	(.LBB22_51-.LBB22_9)>>2
	.byte	(.LBB22_51-.LBB22_9)>>2
	.byte	(.LBB22_51-.LBB22_9)>>2
	.byte	(.LBB22_51-.LBB22_9)>>2
	.byte	(.LBB22_51-.LBB22_9)>>2
	.byte	(.LBB22_41-.LBB22_9)>>2
	.byte	(.LBB22_46-.LBB22_9)>>2
	.byte	(.LBB22_15-.LBB22_9)>>2
	.byte	(.LBB22_9-.LBB22_9)>>2
	.byte	(.LBB22_51-.LBB22_9)>>2
	.byte	(.LBB22_51-.LBB22_9)>>2
	.byte	(.LBB22_51-.LBB22_9)>>2
	.byte	(.LBB22_51-.LBB22_9)>>2
	.byte	(.LBB22_51-.LBB22_9)>>2
	.byte	(.LBB22_51-.LBB22_9)>>2
	.byte	(.LBB22_51-.LBB22_9)>>2
	.byte	(.LBB22_51-.LBB22_9)>>2
	.byte	(.LBB22_51-.LBB22_9)>>2
	.byte	(.LBB22_51-.LBB22_9)>>2
	.byte	(.LBB22_51-.LBB22_9)>>2
	.byte	(.LBB22_17-.LBB22_9)>>2
	.byte	(.LBB22_51-.LBB22_9)>>2
	.byte	(.LBB22_19-.LBB22_9)>>2
	.byte	(.LBB22_51-.LBB22_9)>>2
	.byte	(.LBB22_23-.LBB22_9)>>2
	.byte	(.LBB22_51-.LBB22_9)>>2
	.byte	(.LBB22_51-.LBB22_9)>>2
	.byte	(.LBB22_27-.LBB22_9)>>2
	.byte	(.LBB22_51-.LBB22_9)>>2
	.byte	(.LBB22_51-.LBB22_9)>>2
	.byte	(.LBB22_13-.LBB22_9)>>2
	.byte	(.LBB22_51-.LBB22_9)>>2
	.byte	(.LBB22_51-.LBB22_9)>>2
	.byte	(.LBB22_51-.LBB22_9)>>2
	.byte	(.LBB22_51-.LBB22_9)>>2
	.byte	(.LBB22_51-.LBB22_9)>>2
	.byte	(.LBB22_51-.LBB22_9)>>2
	.byte	(.LBB22_15-.LBB22_9)>>2
	.byte	(.LBB22_25-.LBB22_9)>>2
	.byte	(.LBB22_21-.LBB22_9)>>2
	.byte	(.LBB22_51-.LBB22_9)>>2
	.byte	(.LBB22_51-.LBB22_9)>>2
	.byte	(.LBB22_43-.LBB22_9)>>2

	.section	.rodata.cst8,"aM",@progbits,8
	.p2align	3, 0x0
.LCPI23_0:
	.byte	92
	.byte	117
	.byte	48
	.byte	48
	.zero	1
	.zero	1
	.zero	1
	.zero	1
	.section	".text.amqp_json::printing::put::put_escaped","ax",@progbits
	.p2align	2
	.type	"amqp_json::printing::put::put_escaped",@function
"amqp_json::printing::put::put_escaped":
	stp	x29, x30, [sp, #-80]!
	stp	x26, x25, [sp, #16]
	mov	x29, sp
	stp	x24, x23, [sp, #32]
	stp	x22, x21, [sp, #48]
	stp	x20, x19, [sp, #64]
	cbz	x4, .LBB23_55
	mov	x19, x4
	mov	x20, x3
	mov	x21, x1
	mov	x22, x0
	mov	x9, xzr
	add	x24, x3, #16
	add	x25, x0, #16
	b	.LBB23_4
.LBB23_2:
	add	x26, x9, #1
.LBB23_3:
	cmp	x26, x19
	mov	x2, x23
	mov	x9, x26
	b.hs	.LBB23_56
.LBB23_4:
	add	x1, x20, x9
	ldrb	w8, [x1]
	cmp	w8, #32
	b.lo	.LBB23_24
	cmp	w8, #34
	b.eq	.LBB23_35
	cmp	w8, #92
	b.eq	.LBB23_35
	sub	x8, x19, x9
	mov	x26, x9
	cmp	x8, #8
	b.lo	.LBB23_11
	mov	x26, x9
.LBB23_9:
	movi	v0.8b, #34
	movi	v1.8b, #92
	ldr	d2, [x20, x26]
	movi	v3.8b, #32
	cmeq	v0.8b, v2.8b, v0.8b
	cmeq	v1.8b, v2.8b, v1.8b
	orr	v0.8b, v0.8b, v1.8b
	cmhi	v1.8b, v3.8b, v2.8b
	orr	v0.8b, v1.8b, v0.8b
	umaxv	b0, v0.8b
	fmov	w10, s0
	tbnz	w10, #0, .LBB23_11
	sub	x8, x8, #8
	add	x26, x26, #8
	cmp	x8, #7
	b.hi	.LBB23_9
.LBB23_11:
	cmp	x26, x19
	b.hs	.LBB23_17
.LBB23_12:
	ldrb	w8, [x20, x26]
	cmp	w8, #32
	b.lo	.LBB23_17
	cmp	w8, #34
	b.eq	.LBB23_17
	cmp	w8, #92
	b.eq	.LBB23_17
	add	x26, x26, #1
	cmp	x19, x26
	b.ne	.LBB23_12
	mov	x26, x19
.LBB23_17:
	sub	x8, x26, x9
	adds	x10, x8, x2
	csinv	x23, x10, xzr, lo
	cmp	x23, x21
	b.hi	.LBB23_3
	add	x0, x22, x2
	sub	x10, x0, x1
	cmp	x10, x8
	b.hs	.LBB23_43
	cmp	x8, #8
	b.lo	.LBB23_21
	add	x10, x2, x22
	add	x11, x9, x20
	sub	x10, x10, x11
	cmp	x10, #32
	b.hs	.LBB23_46
.LBB23_21:
	mov	x10, xzr
.LBB23_22:
	add	x11, x10, x2
	add	x8, x10, x9
	add	x9, x22, x11
.LBB23_23:
	ldrb	w10, [x20, x8]
	add	x8, x8, #1
	cmp	x26, x8
	strb	w10, [x9], #1
	b.ne	.LBB23_23
	b	.LBB23_3
.LBB23_24:
	cmp	w8, #11
	b.le	.LBB23_29
	cmp	w8, #33
	b.gt	.LBB23_33
	cmp	w8, #12
	b.eq	.LBB23_41
	cmp	w8, #13
	b.ne	.LBB23_38
	mov	w8, #114
	adds	x10, x2, #2
	csinv	x23, x10, xzr, lo
	cmp	x23, x21
	b.hi	.LBB23_2
	b	.LBB23_36
.LBB23_29:
	cmp	w8, #8
	b.eq	.LBB23_37
	cmp	w8, #9
	b.eq	.LBB23_42
	cmp	w8, #10
	b.ne	.LBB23_38
	mov	w8, #110
	adds	x10, x2, #2
	csinv	x23, x10, xzr, lo
	cmp	x23, x21
	b.hi	.LBB23_2
	b	.LBB23_36
.LBB23_33:
	cmp	w8, #34
	b.eq	.LBB23_35
	cmp	w8, #92
	b.ne	.LBB23_38
.LBB23_35:
	adds	x10, x2, #2
	csinv	x23, x10, xzr, lo
	cmp	x23, x21
	b.hi	.LBB23_2
.LBB23_36:
	mov	w10, #92
	orr	w8, w10, w8, lsl #8
	strh	w8, [x22, x2]
	b	.LBB23_2
.LBB23_37:
	mov	w8, #98
	adds	x10, x2, #2
	csinv	x23, x10, xzr, lo
	cmp	x23, x21
	b.ls	.LBB23_36
	b	.LBB23_2
.LBB23_38:
	cmp	w8, #31
	b.hi	.LBB23_44
	adds	x10, x2, #6
	csinv	x23, x10, xzr, lo
	cmp	x23, x21
	b.hi	.LBB23_2
	adrp	x10, .LCPI23_0
	and	w11, w8, #0xf
	lsr	w12, w8, #4
	ldr	d0, [x10, :lo12:.LCPI23_0]
	orr	w8, w8, #0x30
	add	w13, w11, #87
	cmp	w11, #10
	add	x10, x22, x2
	orr	w11, w12, #0x30
	csel	w8, w8, w13, lo
	str	s0, [x10]
	strb	w11, [x10, #4]
	strb	w8, [x10, #5]
	b	.LBB23_2
.LBB23_41:
	mov	w8, #102
	adds	x10, x2, #2
	csinv	x23, x10, xzr, lo
	cmp	x23, x21
	b.hi	.LBB23_2
	b	.LBB23_36
.LBB23_42:
	mov	w8, #116
	adds	x10, x2, #2
	csinv	x23, x10, xzr, lo
	cmp	x23, x21
	b.hi	.LBB23_2
	b	.LBB23_36
.LBB23_43:
	mov	x2, x8
	bl	memmove
	b	.LBB23_3
.LBB23_44:
	adds	x10, x2, #1
	csinv	x23, x10, xzr, lo
	cmp	x23, x21
	b.hi	.LBB23_2
	strb	w8, [x22, x2]
	b	.LBB23_2
.LBB23_46:
	cmp	x8, #32
	b.hs	.LBB23_48
	mov	x10, xzr
	b	.LBB23_52
.LBB23_48:
	and	x11, x8, #0x18
	and	x10, x8, #0xffffffffffffffe0
	add	x12, x24, x9
	add	x13, x25, x2
	and	x14, x8, #0xffffffffffffffe0
.LBB23_49:
	ldp	q0, q1, [x12, #-16]
	subs	x14, x14, #32
	add	x12, x12, #32
	stp	q0, q1, [x13, #-16]
	add	x13, x13, #32
	b.ne	.LBB23_49
	cmp	x8, x10
	b.eq	.LBB23_3
	cbz	x11, .LBB23_22
.LBB23_52:
	mov	x11, x10
	and	x10, x8, #0xfffffffffffffff8
	add	x12, x9, x11
	add	x13, x2, x11
	sub	x11, x11, x10
	add	x12, x20, x12
	add	x13, x22, x13
.LBB23_53:
	ldr	d0, [x12], #8
	adds	x11, x11, #8
	str	d0, [x13], #8
	b.ne	.LBB23_53
	cmp	x8, x10
	b.eq	.LBB23_3
	b	.LBB23_22
.LBB23_55:
	mov	x23, x2
.LBB23_56:
	mov	x0, x23
	ldp	x20, x19, [sp, #64]
	ldp	x22, x21, [sp, #48]
	ldp	x24, x23, [sp, #32]
	ldp	x26, x25, [sp, #16]
	ldp	x29, x30, [sp], #80
	ret
.Lfunc_end23:
	.size	"amqp_json::printing::put::put_escaped", .Lfunc_end23-"amqp_json::printing::put::put_escaped"

	.section	".text.amqp_json::printing::walk::put_table","ax",@progbits
	.p2align	2
	.type	"amqp_json::printing::walk::put_table",@function
"amqp_json::printing::walk::put_table":
	sub	sp, sp, #128
	stp	x22, x21, [sp, #96]
	mov	x21, x5
	mov	x22, x4
	stp	x20, x19, [sp, #112]
	mov	x20, x1
	mov	x19, x0
	stp	x29, x30, [sp, #32]
	add	x29, sp, #32
	stp	x28, x27, [sp, #48]
	stp	x26, x25, [sp, #64]
	stp	x24, x23, [sp, #80]
	tbz	w3, #0, .LBB24_4
	adds	x8, x2, #1
	csinv	x8, x8, xzr, lo
	cmp	x8, x20
	b.ls	.LBB24_5
	adds	x9, x8, #1
	csinv	x0, x9, xzr, lo
	cmp	x0, x20
	b.ls	.LBB24_6
.LBB24_3:
	cbnz	x21, .LBB24_7
	b	.LBB24_74
.LBB24_4:
	mov	x8, x2
	adds	x9, x2, #1
	csinv	x0, x9, xzr, lo
	cmp	x0, x20
	b.hi	.LBB24_3
	b	.LBB24_6
.LBB24_5:
	mov	w9, #44
	strb	w9, [x19, x2]
	adds	x9, x8, #1
	csinv	x0, x9, xzr, lo
	cmp	x0, x20
	b.hi	.LBB24_3
.LBB24_6:
	mov	w9, #123
	strb	w9, [x19, x8]
	cbz	x21, .LBB24_74
.LBB24_7:
	mov	w1, wzr
	b	.LBB24_11
.LBB24_8:
	cmp	w28, #12
	b.hs	.LBB24_17
.LBB24_9:
	add	x4, sp, #8
	mov	x0, x19
	mov	x1, x20
	mov	w3, wzr
	strb	w28, [sp, #8]
	strb	w26, [sp, #9]
	strh	w25, [sp, #10]
	str	w27, [sp, #12]
	stp	x24, x23, [sp, #16]
	bl	"amqp_json::printing::leaves::put_leaf"
.LBB24_10:
	cbz	x21, .LBB24_74
.LBB24_11:
	mov	x3, x22
	sub	x10, x21, #1
	ldrb	w4, [x3], #1
	cmp	x10, x4
	b.lo	.LBB24_77
	b.eq	.LBB24_77
	mov	x8, x22
	add	x22, x3, x4
	ldrb	w9, [x22], #1
	sub	w11, w9, #65
	add	x9, x3, x4
	cmp	w11, #55
	b.hi	.LBB24_77
	adrp	x13, .LJTI24_0
	add	x13, x13, :lo12:.LJTI24_0
	mvn	x12, x4
	adr	x14, .LBB24_15
	ldrh	w15, [x13, x11, lsl #1]
	add	x14, x14, x15, lsl #2
	mov	w26, wzr
	mov	w25, wzr
	mov	w27, wzr
	mov	x24, xzr
	mov	x23, xzr
	add	x21, x10, x12
	mov	w28, #16
	br	x14
.LBB24_15:
	subs	x21, x21, #8
	b.lo	.LBB24_77
	ldur	x10, [x9, #1]
	mov	w26, wzr
	mov	w25, wzr
	mov	w27, wzr
	mov	x23, xzr
	add	x22, x9, #9
	rev	x24, x10
	mov	w28, #7
	tbnz	w1, #0, .LBB24_55
	b	.LBB24_60
.LBB24_17:
	cmp	w28, #14
	b.gt	.LBB24_9
	cmp	w28, #12
	b.eq	.LBB24_23
	cmp	w28, #13
	b.eq	.LBB24_9
	mov	x0, x19
	mov	x1, x20
	mov	w3, wzr
	mov	x4, x24
	mov	x5, x23
	bl	"amqp_json::printing::walk::put_table"
	b	.LBB24_10
.LBB24_21:
	subs	x21, x21, #2
	b.lo	.LBB24_77
	ldurh	w10, [x9, #1]
	mov	w26, wzr
	mov	w27, wzr
	mov	x24, xzr
	mov	x23, xzr
	add	x22, x9, #3
	rev16	w25, w10
	mov	w28, #3
	tbnz	w1, #0, .LBB24_55
	b	.LBB24_60
.LBB24_23:
	mov	x0, x19
	mov	x1, x20
	mov	w3, wzr
	mov	x4, x24
	mov	x5, x23
	bl	"amqp_json::printing::walk::put_array"
	b	.LBB24_10
.LBB24_24:
	cbz	x21, .LBB24_77
	ldrb	w26, [x9, #1]
	mov	w25, wzr
	mov	w27, wzr
	mov	x24, xzr
	mov	x23, xzr
	add	x22, x9, #2
	sub	x21, x21, #1
	mov	w28, #1
	tbnz	w1, #0, .LBB24_55
	b	.LBB24_60
.LBB24_26:
	subs	x21, x21, #8
	b.lo	.LBB24_77
	ldur	x10, [x9, #1]
	mov	w26, wzr
	mov	w25, wzr
	mov	w27, wzr
	mov	x23, xzr
	add	x22, x9, #9
	rev	x24, x10
	mov	w28, #9
	tbnz	w1, #0, .LBB24_55
	b	.LBB24_60
.LBB24_28:
	subs	x21, x21, #2
	b.lo	.LBB24_77
	ldurh	w10, [x9, #1]
	mov	w26, wzr
	mov	w27, wzr
	mov	x24, xzr
	mov	x23, xzr
	add	x22, x9, #3
	rev16	w25, w10
	mov	w28, #4
	tbnz	w1, #0, .LBB24_55
	b	.LBB24_60
.LBB24_30:
	subs	x21, x21, #4
	b.lo	.LBB24_77
	ldur	w10, [x9, #1]
	mov	w26, wzr
	mov	w25, wzr
	mov	x24, xzr
	mov	x23, xzr
	add	x22, x9, #5
	rev	w27, w10
	mov	w28, #8
	tbnz	w1, #0, .LBB24_55
	b	.LBB24_60
.LBB24_32:
	cbz	x21, .LBB24_77
	ldrb	w10, [x9, #1]
	mov	w28, wzr
	mov	w25, wzr
	mov	w27, wzr
	mov	x24, xzr
	mov	x23, xzr
	cmp	w10, #0
	add	x22, x9, #2
	sub	x21, x21, #1
	cset	w26, ne
	tbnz	w1, #0, .LBB24_55
	b	.LBB24_60
.LBB24_34:
	subs	x21, x21, #4
	b.lo	.LBB24_77
	ldur	w10, [x9, #1]
	mov	w26, wzr
	mov	w25, wzr
	mov	x24, xzr
	mov	x23, xzr
	add	x22, x9, #5
	rev	w27, w10
	mov	w28, #6
	tbnz	w1, #0, .LBB24_55
	b	.LBB24_60
.LBB24_36:
	subs	x10, x21, #4
	b.lo	.LBB24_77
	ldr	w11, [x22]
	rev	w23, w11
	subs	x21, x10, x23
	b.lo	.LBB24_77
	add	x24, x9, #5
	mov	w27, wzr
	mov	w26, wzr
	mov	w25, wzr
	add	x22, x24, x23
	mov	w28, #14
	tbnz	w1, #0, .LBB24_55
	b	.LBB24_60
.LBB24_39:
	subs	x21, x21, #4
	b.lo	.LBB24_77
	ldur	w10, [x9, #1]
	mov	w26, wzr
	mov	w25, wzr
	mov	x24, xzr
	mov	x23, xzr
	add	x22, x9, #5
	rev	w27, w10
	mov	w28, #5
	tbnz	w1, #0, .LBB24_55
	b	.LBB24_60
.LBB24_41:
	cbz	x21, .LBB24_77
	ldrb	w26, [x9, #1]
	mov	w25, wzr
	mov	w27, wzr
	mov	x24, xzr
	mov	x23, xzr
	add	x22, x9, #2
	sub	x21, x21, #1
	mov	w28, #2
	tbnz	w1, #0, .LBB24_55
	b	.LBB24_60
.LBB24_43:
	subs	x21, x21, #5
	b.lo	.LBB24_77
	ldur	w10, [x9, #2]
	ldrb	w27, [x9, #1]
	mov	w26, wzr
	mov	w25, wzr
	mov	x23, xzr
	add	x22, x9, #6
	rev	w24, w10
	mov	w28, #10
	tbnz	w1, #0, .LBB24_55
	b	.LBB24_60
.LBB24_45:
	subs	x10, x21, #4
	b.lo	.LBB24_77
	ldr	w11, [x22]
	rev	w23, w11
	subs	x21, x10, x23
	b.lo	.LBB24_77
	add	x24, x9, #5
	mov	w27, wzr
	mov	w26, wzr
	mov	w25, wzr
	add	x22, x24, x23
	mov	w28, #12
	tbnz	w1, #0, .LBB24_55
	b	.LBB24_60
.LBB24_48:
	subs	x10, x21, #4
	b.lo	.LBB24_77
	ldr	w11, [x22]
	rev	w23, w11
	subs	x21, x10, x23
	b.lo	.LBB24_77
	add	x24, x9, #5
	mov	w26, wzr
	mov	w25, wzr
	mov	w27, wzr
	add	x22, x24, x23
	mov	w28, #11
	tbnz	w1, #0, .LBB24_55
	b	.LBB24_60
.LBB24_51:
	subs	x10, x21, #4
	b.lo	.LBB24_77
	ldr	w11, [x22]
	rev	w23, w11
	subs	x21, x10, x23
	b.lo	.LBB24_77
	add	x24, x9, #5
	mov	w26, wzr
	mov	w25, wzr
	mov	w27, wzr
	add	x22, x24, x23
	mov	w28, #15
.LBB24_54:
	tbz	w1, #0, .LBB24_60
.LBB24_55:
	adds	x9, x0, #1
	csinv	x9, x9, xzr, lo
	cmp	x9, x20
	b.hi	.LBB24_57
	mov	w10, #44
	strb	w10, [x19, x0]
.LBB24_57:
	cbnz	w4, .LBB24_61
	b	.LBB24_70
.LBB24_58:
	subs	x21, x21, #8
	b.lo	.LBB24_77
	ldur	x10, [x9, #1]
	mov	w26, wzr
	mov	w25, wzr
	mov	w27, wzr
	mov	x23, xzr
	add	x22, x9, #9
	rev	x24, x10
	mov	w28, #13
	tbnz	w1, #0, .LBB24_55
.LBB24_60:
	mov	x9, x0
	cbz	w4, .LBB24_70
.LBB24_61:
	ldrsb	w11, [x3]
	and	w10, w11, #0xff
	tbz	w11, #31, .LBB24_66
	ldrb	w11, [x8, #2]
	cmp	w10, #223
	and	w11, w11, #0x3f
	b.hi	.LBB24_64
	bfi	w11, w10, #6, #5
	cmp	w11, #36
	b.eq	.LBB24_67
	b	.LBB24_70
.LBB24_64:
	ldrb	w12, [x8, #3]
	cmp	w10, #239
	and	w12, w12, #0x3f
	b.hi	.LBB24_69
	ubfiz	w8, w10, #12, #4
	orr	w8, w8, w11, lsl #6
	orr	w10, w8, w12
.LBB24_66:
	cmp	w10, #36
	b.ne	.LBB24_70
.LBB24_67:
	adds	x8, x9, #2
	csinv	x2, x8, xzr, lo
	cmp	x2, x20
	b.hi	.LBB24_72
	add	x8, x19, x9
	adrp	x9, .Lstatic.11
	add	x9, x9, :lo12:.Lstatic.11
	sub	x9, x8, x9
	cmp	x9, #1
	mov	w9, #9250
	strh	w9, [x8]
	b	.LBB24_72
.LBB24_69:
	ubfiz	w10, w10, #18, #3
	ldrb	w8, [x8, #4]
	orr	w10, w10, w11, lsl #12
	orr	w10, w10, w12, lsl #6
	bfxil	w10, w8, #0, #6
	cmp	w10, #36
	b.eq	.LBB24_67
.LBB24_70:
	adds	x8, x9, #1
	csinv	x2, x8, xzr, lo
	cmp	x2, x20
	b.hi	.LBB24_72
	mov	w8, #34
	strb	w8, [x19, x9]
.LBB24_72:
	mov	x0, x19
	mov	x1, x20
	bl	"amqp_json::printing::put::put_escaped"
	adds	x8, x0, #2
	csinv	x2, x8, xzr, lo
	cmp	x2, x20
	b.hi	.LBB24_8
	add	x8, x19, x0
	adrp	x9, .Lstatic.6
	add	x9, x9, :lo12:.Lstatic.6
	sub	x9, x8, x9
	cmp	x9, #1
	mov	w9, #14882
	strh	w9, [x8]
	b	.LBB24_8
.LBB24_74:
	adds	x8, x0, #1
	csinv	x8, x8, xzr, lo
	cmp	x8, x20
	b.hi	.LBB24_76
	mov	w9, #125
	strb	w9, [x19, x0]
.LBB24_76:
	ldp	x20, x19, [sp, #112]
	mov	x0, x8
	ldp	x22, x21, [sp, #96]
	mov	w1, #1
	ldp	x24, x23, [sp, #80]
	ldp	x26, x25, [sp, #64]
	ldp	x28, x27, [sp, #48]
	ldp	x29, x30, [sp, #32]
	add	sp, sp, #128
	ret
.LBB24_77:
	brk	#0x1
.Lfunc_end24:
	.size	"amqp_json::printing::walk::put_table", .Lfunc_end24-"amqp_json::printing::walk::put_table"
	.section	".rodata.amqp_json::printing::walk::put_table","a",@progbits
	.p2align	1, 0x0
.LJTI24_0:
	.hword	(.LBB24_45-.LBB24_15)>>2
	.hword	(.LBB24_41-.LBB24_15)>>2
	.hword	(.LBB24_77-.LBB24_15)>>2
	.hword	(.LBB24_43-.LBB24_15)>>2
	.hword	(.LBB24_77-.LBB24_15)>>2
	.hword	(.LBB24_36-.LBB24_15)>>2
	.hword	(.LBB24_77-.LBB24_15)>>2
	.hword	(.LBB24_77-.LBB24_15)>>2
	.hword	(.LBB24_39-.LBB24_15)>>2
	.hword	(.LBB24_77-.LBB24_15)>>2
	.hword	(.LBB24_77-.LBB24_15)>>2
	.hword	(.LBB24_15-.LBB24_15)>>2
	.hword	(.LBB24_77-.LBB24_15)>>2
	.hword	(.LBB24_77-.LBB24_15)>>2
	.hword	(.LBB24_77-.LBB24_15)>>2
	.hword	(.LBB24_77-.LBB24_15)>>2
	.hword	(.LBB24_77-.LBB24_15)>>2
	.hword	(.LBB24_77-.LBB24_15)>>2
	.hword	(.LBB24_48-.LBB24_15)>>2
	.hword	(.LBB24_58-.LBB24_15)>>2
	.hword	(.LBB24_21-.LBB24_15)>>2
	.hword	(.LBB24_54-.LBB24_15)>>2
	.hword	(.LBB24_77-.LBB24_15)>>2
	.hword	(.LBB24_77-.LBB24_15)>>2
	.hword	(.LBB24_77-.LBB24_15)>>2
	.hword	(.LBB24_77-.LBB24_15)>>2
	.hword	(.LBB24_77-.LBB24_15)>>2
	.hword	(.LBB24_77-.LBB24_15)>>2
	.hword	(.LBB24_77-.LBB24_15)>>2
	.hword	(.LBB24_77-.LBB24_15)>>2
	.hword	(.LBB24_77-.LBB24_15)>>2
	.hword	(.LBB24_77-.LBB24_15)>>2
	.hword	(.LBB24_77-.LBB24_15)>>2
	.hword	(.LBB24_24-.LBB24_15)>>2
	.hword	(.LBB24_77-.LBB24_15)>>2
	.hword	(.LBB24_26-.LBB24_15)>>2
	.hword	(.LBB24_77-.LBB24_15)>>2
	.hword	(.LBB24_30-.LBB24_15)>>2
	.hword	(.LBB24_77-.LBB24_15)>>2
	.hword	(.LBB24_77-.LBB24_15)>>2
	.hword	(.LBB24_34-.LBB24_15)>>2
	.hword	(.LBB24_77-.LBB24_15)>>2
	.hword	(.LBB24_77-.LBB24_15)>>2
	.hword	(.LBB24_15-.LBB24_15)>>2
	.hword	(.LBB24_77-.LBB24_15)>>2
	.hword	(.LBB24_77-.LBB24_15)>>2
	.hword	(.LBB24_77-.LBB24_15)>>2
	.hword	(.LBB24_77-.LBB24_15)>>2
	.hword	(.LBB24_77-.LBB24_15)>>2
	.hword	(.LBB24_77-.LBB24_15)>>2
	.hword	(.LBB24_21-.LBB24_15)>>2
	.hword	(.LBB24_32-.LBB24_15)>>2
	.hword	(.LBB24_28-.LBB24_15)>>2
	.hword	(.LBB24_77-.LBB24_15)>>2
	.hword	(.LBB24_77-.LBB24_15)>>2
	.hword	(.LBB24_51-.LBB24_15)>>2

	.section	.rodata.cst8,"aM",@progbits,8
	.p2align	3, 0x0
.LCPI25_0:
	.byte	110
	.byte	117
	.byte	108
	.byte	108
	.zero	1
	.zero	1
	.zero	1
	.zero	1
.LCPI25_1:
	.byte	102
	.byte	97
	.byte	108
	.byte	115
	.zero	1
	.zero	1
	.zero	1
	.zero	1
.LCPI25_2:
	.byte	116
	.byte	114
	.byte	117
	.byte	101
	.zero	1
	.zero	1
	.zero	1
	.zero	1
	.section	".text.amqp_json::printing::leaves::put_leaf","ax",@progbits
	.p2align	2
	.type	"amqp_json::printing::leaves::put_leaf",@function
"amqp_json::printing::leaves::put_leaf":
	ldrb	w12, [x4]
	ldrsw	x10, [x4, #4]
	adrp	x13, .LJTI25_0
	add	x13, x13, :lo12:.LJTI25_0
	ldp	x8, x7, [x4, #8]
	ldrsb	x6, [x4, #1]
	ldrsh	x9, [x4, #2]
	adr	x14, .LBB25_1
	ldrb	w15, [x13, x12]
	add	x14, x14, x15, lsl #2
	mov	w11, w10
	br	x14
.LBB25_1:
	tbz	w3, #0, .LBB25_20
	adds	x8, x2, #1
	csinv	x9, x8, xzr, lo
	cmp	x9, x1
	b.hi	.LBB25_21
	mov	w8, #44
	strb	w8, [x0, x2]
	b	.LBB25_21
.LBB25_4:
	adrp	x4, .Lstatic.18
	add	x4, x4, :lo12:.Lstatic.18
	mov	w5, #10
	mov	x6, x8
	b	"amqp_json::printing::leaves::natural"
.LBB25_5:
	mov	x4, x8
	mov	x5, x7
	b	"amqp_json::printing::leaves::long_string"
.LBB25_6:
	adrp	x4, .Lstatic.15
	add	x4, x4, :lo12:.Lstatic.15
	and	x6, x9, #0xffff
	mov	w5, #10
	b	"amqp_json::printing::leaves::natural"
.LBB25_7:
	mov	x4, x8
	b	"amqp_json::printing::leaves::double"
.LBB25_8:
	adrp	x4, .Lstatic.13
	add	x4, x4, :lo12:.Lstatic.13
	and	x6, x6, #0xff
	mov	w5, #15
	b	"amqp_json::printing::leaves::natural"
.LBB25_9:
	adrp	x4, .Lstatic.14
	add	x4, x4, :lo12:.Lstatic.14
	mov	w5, #9
	mov	x6, x9
	b	"amqp_json::printing::leaves::integer"
.LBB25_10:
	mov	x4, x8
	b	"amqp_json::printing::leaves::plain_integer"
.LBB25_11:
	adrp	x4, .Lstatic.12
	add	x4, x4, :lo12:.Lstatic.12
	mov	w5, #14
	b	"amqp_json::printing::leaves::integer"
.LBB25_12:
	adrp	x4, .Lstatic.16
	add	x4, x4, :lo12:.Lstatic.16
	mov	w5, #8
	mov	x6, x10
	b	"amqp_json::printing::leaves::integer"
.LBB25_13:
	adrp	x4, .Lstatic.17
	add	x4, x4, :lo12:.Lstatic.17
	mov	w5, #9
	mov	x6, x11
	b	"amqp_json::printing::leaves::natural"
.LBB25_14:
	mov	w4, w11
	mov	w5, w8
	b	"amqp_json::printing::leaves::decimal"
.LBB25_15:
	mov	w4, w10
	b	"amqp_json::printing::leaves::float"
.LBB25_16:
	adrp	x4, .Lstatic.19
	add	x4, x4, :lo12:.Lstatic.19
	mov	w5, #10
	mov	x6, x8
	b	"amqp_json::printing::leaves::digits"
.LBB25_17:
	tbz	w3, #0, .LBB25_28
	adds	x8, x2, #1
	csinv	x9, x8, xzr, lo
	cmp	x9, x1
	b.hi	.LBB25_29
	mov	w8, #44
	strb	w8, [x0, x2]
	b	.LBB25_29
.LBB25_20:
	mov	x9, x2
.LBB25_21:
	tbz	w6, #0, .LBB25_25
	adds	x8, x9, #4
	csinv	x8, x8, xzr, lo
	cmp	x8, x1
	b.hi	.LBB25_35
	add	x9, x0, x9
	adrp	x10, .Lstatic.8
	add	x10, x10, :lo12:.Lstatic.8
	sub	x10, x9, x10
	cmp	x10, #3
	b.hi	.LBB25_33
	adrp	x10, .LCPI25_2
	ldr	d0, [x10, :lo12:.LCPI25_2]
	str	s0, [x9]
	mov	w1, #1
	mov	x0, x8
	ret
.LBB25_25:
	adds	x8, x9, #5
	csinv	x8, x8, xzr, lo
	cmp	x8, x1
	b.hi	.LBB25_35
	add	x9, x0, x9
	adrp	x10, .Lstatic.9
	add	x10, x10, :lo12:.Lstatic.9
	sub	x10, x9, x10
	cmp	x10, #4
	b.hi	.LBB25_36
	adrp	x10, .LCPI25_1
	ldr	d0, [x10, :lo12:.LCPI25_1]
	mov	w10, #101
	strb	w10, [x9, #4]
	str	s0, [x9]
	mov	w1, #1
	mov	x0, x8
	ret
.LBB25_28:
	mov	x9, x2
.LBB25_29:
	adds	x8, x9, #4
	csinv	x8, x8, xzr, lo
	cmp	x8, x1
	b.hi	.LBB25_35
	add	x9, x0, x9
	adrp	x10, .Lstatic.10
	add	x10, x10, :lo12:.Lstatic.10
	sub	x10, x9, x10
	cmp	x10, #3
	b.hi	.LBB25_32
	adrp	x10, .LCPI25_0
	ldr	d0, [x10, :lo12:.LCPI25_0]
	str	s0, [x9]
	mov	w1, #1
	mov	x0, x8
	ret
.LBB25_32:
	mov	w10, #30062
	movk	w10, #27756, lsl #16
	b	.LBB25_34
.LBB25_33:
	mov	w10, #29300
	movk	w10, #25973, lsl #16
.LBB25_34:
	str	w10, [x9]
.LBB25_35:
	mov	w1, #1
	mov	x0, x8
	ret
.LBB25_36:
	mov	w11, #24934
	mov	w10, #101
	movk	w11, #29548, lsl #16
	strb	w10, [x9, #4]
	str	w11, [x9]
	mov	w1, #1
	mov	x0, x8
	ret
.LBB25_37:
	brk	#0x1
.Lfunc_end25:
	.size	"amqp_json::printing::leaves::put_leaf", .Lfunc_end25-"amqp_json::printing::leaves::put_leaf"
	.section	".rodata.amqp_json::printing::leaves::put_leaf","a",@progbits
.LJTI25_0:
	.byte	(.LBB25_1-.LBB25_1)>>2
	.byte	(.LBB25_11-.LBB25_1)>>2
	.byte	(.LBB25_8-.LBB25_1)>>2
	.byte	(.LBB25_9-.LBB25_1)>>2
	.byte	(.LBB25_6-.LBB25_1)>>2
	.byte	(.LBB25_12-.LBB25_1)>>2
	.byte	(.LBB25_13-.LBB25_1)>>2
	.byte	(.LBB25_10-.LBB25_1)>>2
	.byte	(.LBB25_15-.LBB25_1)>>2
	.byte	(.LBB25_7-.LBB25_1)>>2
	.byte	(.LBB25_14-.LBB25_1)>>2
	.byte	(.LBB25_5-.LBB25_1)>>2
	.byte	(.LBB25_37-.LBB25_1)>>2
	.byte	(.LBB25_4-.LBB25_1)>>2
	.byte	(.LBB25_37-.LBB25_1)>>2
	.byte	(.LBB25_16-.LBB25_1)>>2
	.byte	(.LBB25_17-.LBB25_1)>>2

	.section	".text.amqp_json::printing::leaves::integer","ax",@progbits
	.p2align	2
	.type	"amqp_json::printing::leaves::integer",@function
"amqp_json::printing::leaves::integer":
	sub	sp, sp, #112
	cmp	x6, #0
	movi	v0.2d, #0000000000000000
	stp	x20, x19, [sp, #96]
	cneg	x8, x6, mi
	mov	x20, x1
	mov	x19, x0
	lsr	x9, x8, #4
	stp	x29, x30, [sp, #48]
	add	x29, sp, #48
	str	x23, [sp, #64]
	cmp	x9, #625
	adrp	x9, .Lstatic.20
	add	x9, x9, :lo12:.Lstatic.20
	stp	x22, x21, [sp, #80]
	str	xzr, [sp, #32]
	stp	q0, q0, [sp]
	b.lo	.LBB26_6
	mov	x10, xzr
.LBB26_2:
	mov	x11, x8
	mov	x8, #22859
	mov	w12, #10000
	movk	x8, #14470, lsl #16
	mov	w14, #5243
	mov	w15, #57599
	movk	x8, #50646, lsl #32
	movk	w15, #1525, lsl #16
	movk	x8, #13421, lsl #48
	cmp	x11, x15
	umulh	x8, x11, x8
	lsr	x8, x8, #11
	msub	w12, w8, w12, w11
	ubfx	w13, w12, #2, #14
	mul	w13, w13, w14
	mov	w14, #100
	lsr	w13, w13, #17
	msub	w12, w13, w14, w12
	mov	x14, sp
	ldrh	w13, [x9, w13, uxtw #1]
	add	x14, x14, x10
	sub	x10, x10, #4
	strh	w13, [x14, #36]
	and	x12, x12, #0xffff
	ldrh	w12, [x9, x12, lsl #1]
	strh	w12, [x14, #38]
	b.hi	.LBB26_2
	add	x10, x10, #40
	cmp	x8, #99
	b.ls	.LBB26_7
.LBB26_4:
	ubfx	w11, w8, #2, #14
	mov	w12, #5243
	cmp	x8, #999
	mul	w11, w11, w12
	mov	w12, #100
	lsr	w11, w11, #17
	msub	w12, w11, w12, w8
	and	x12, x12, #0xffff
	ldrh	w13, [x9, x12, lsl #1]
	mov	x12, sp
	add	x14, x12, x10
	sturh	w13, [x14, #-2]
	b.hi	.LBB26_9
	sub	x21, x10, #3
	orr	w8, w11, #0x30
	strb	w8, [x12, x21]
	tbz	x6, #63, .LBB26_11
	b	.LBB26_15
.LBB26_6:
	mov	w10, #40
	cmp	x8, #99
	b.hi	.LBB26_4
.LBB26_7:
	cmp	x8, #9
	b.hi	.LBB26_10
	sub	x21, x10, #1
	mov	x9, sp
	orr	w8, w8, #0x30
	strb	w8, [x9, x21]
	tbz	x6, #63, .LBB26_11
	b	.LBB26_15
.LBB26_9:
	sub	x21, x10, #4
	ldrh	w8, [x9, w11, uxtw #1]
	strh	w8, [x12, x21]
	tbz	x6, #63, .LBB26_11
	b	.LBB26_15
.LBB26_10:
	sub	x21, x10, #2
	ldrh	w8, [x9, x8, lsl #1]
	mov	x9, sp
	strh	w8, [x9, x21]
	tbnz	x6, #63, .LBB26_15
.LBB26_11:
	tbz	w3, #0, .LBB26_16
.LBB26_12:
	adds	x8, x2, #1
	csinv	x9, x8, xzr, lo
	cmp	x9, x20
	b.ls	.LBB26_17
	adds	x8, x9, #2
	mov	w22, #40
	csinv	x8, x8, xzr, lo
	cmp	x8, x20
	b.ls	.LBB26_18
.LBB26_14:
	adds	x9, x5, x8
	csinv	x23, x9, xzr, lo
	cmp	x23, x20
	b.ls	.LBB26_19
	b	.LBB26_21
.LBB26_15:
	sub	x21, x21, #1
	mov	x8, sp
	mov	w9, #45
	strb	w9, [x8, x21]
	tbnz	w3, #0, .LBB26_12
.LBB26_16:
	mov	x9, x2
	adds	x8, x2, #2
	mov	w22, #40
	csinv	x8, x8, xzr, lo
	cmp	x8, x20
	b.hi	.LBB26_14
	b	.LBB26_18
.LBB26_17:
	mov	w8, #44
	strb	w8, [x19, x2]
	adds	x8, x9, #2
	mov	w22, #40
	csinv	x8, x8, xzr, lo
	cmp	x8, x20
	b.hi	.LBB26_14
.LBB26_18:
	add	x9, x19, x9
	adrp	x10, .Lstatic.21
	add	x10, x10, :lo12:.Lstatic.21
	sub	x10, x9, x10
	cmp	x10, #1
	mov	w10, #8827
	strh	w10, [x9]
	adds	x9, x5, x8
	csinv	x23, x9, xzr, lo
	cmp	x23, x20
	b.hi	.LBB26_21
.LBB26_19:
	add	x0, x19, x8
	sub	x8, x0, x4
	cmp	x8, x5
	b.hs	.LBB26_26
.LBB26_20:
	ldrb	w8, [x4], #1
	subs	x5, x5, #1
	strb	w8, [x0], #1
	b.ne	.LBB26_20
.LBB26_21:
	adds	x8, x23, #2
	sub	x2, x22, x21
	csinv	x8, x8, xzr, lo
	cmp	x8, x20
	b.ls	.LBB26_27
.LBB26_22:
	adds	x9, x2, x8
	csinv	x22, x9, xzr, lo
	cmp	x22, x20
	b.ls	.LBB26_28
.LBB26_23:
	adds	x8, x22, #1
	csinv	x0, x8, xzr, lo
	cmp	x0, x20
	b.hi	.LBB26_25
.LBB26_24:
	mov	w8, #125
	strb	w8, [x19, x22]
.LBB26_25:
	ldp	x20, x19, [sp, #96]
	mov	w1, #1
	ldp	x22, x21, [sp, #80]
	ldr	x23, [sp, #64]
	ldp	x29, x30, [sp, #48]
	add	sp, sp, #112
	ret
.LBB26_26:
	mov	x1, x4
	mov	x2, x5
	bl	memmove
	adds	x8, x23, #2
	sub	x2, x22, x21
	csinv	x8, x8, xzr, lo
	cmp	x8, x20
	b.hi	.LBB26_22
.LBB26_27:
	add	x9, x19, x23
	adrp	x10, .Lstatic.6
	add	x10, x10, :lo12:.Lstatic.6
	sub	x10, x9, x10
	cmp	x10, #1
	mov	w10, #14882
	strh	w10, [x9]
	adds	x9, x2, x8
	csinv	x22, x9, xzr, lo
	cmp	x22, x20
	b.hi	.LBB26_23
.LBB26_28:
	mov	x9, sp
	add	x0, x19, x8
	add	x1, x9, x21
	bl	memcpy
	adds	x8, x22, #1
	csinv	x0, x8, xzr, lo
	cmp	x0, x20
	b.ls	.LBB26_24
	b	.LBB26_25
.Lfunc_end26:
	.size	"amqp_json::printing::leaves::integer", .Lfunc_end26-"amqp_json::printing::leaves::integer"

	.section	".text.amqp_json::printing::leaves::plain_integer","ax",@progbits
	.p2align	2
	.type	"amqp_json::printing::leaves::plain_integer",@function
"amqp_json::printing::leaves::plain_integer":
	sub	sp, sp, #80
	cmp	x4, #0
	movi	v0.2d, #0000000000000000
	stp	x29, x30, [sp, #48]
	cneg	x8, x4, mi
	str	x19, [sp, #64]
	add	x29, sp, #48
	lsr	x9, x8, #4
	str	xzr, [sp, #32]
	cmp	x9, #625
	adrp	x9, .Lstatic.20
	add	x9, x9, :lo12:.Lstatic.20
	stp	q0, q0, [sp]
	b.lo	.LBB27_6
	mov	x10, xzr
.LBB27_2:
	mov	x11, x8
	mov	x8, #22859
	mov	w12, #10000
	movk	x8, #14470, lsl #16
	mov	w14, #5243
	mov	w15, #57599
	movk	x8, #50646, lsl #32
	movk	w15, #1525, lsl #16
	movk	x8, #13421, lsl #48
	cmp	x11, x15
	umulh	x8, x11, x8
	lsr	x8, x8, #11
	msub	w12, w8, w12, w11
	ubfx	w13, w12, #2, #14
	mul	w13, w13, w14
	mov	w14, #100
	lsr	w13, w13, #17
	msub	w12, w13, w14, w12
	mov	x14, sp
	ldrh	w13, [x9, w13, uxtw #1]
	add	x14, x14, x10
	sub	x10, x10, #4
	strh	w13, [x14, #36]
	and	x12, x12, #0xffff
	ldrh	w12, [x9, x12, lsl #1]
	strh	w12, [x14, #38]
	b.hi	.LBB27_2
	add	x10, x10, #40
	cmp	x8, #99
	b.ls	.LBB27_7
.LBB27_4:
	ubfx	w11, w8, #2, #14
	mov	w12, #5243
	cmp	x8, #999
	mul	w11, w11, w12
	mov	w12, #100
	lsr	w11, w11, #17
	msub	w12, w11, w12, w8
	and	x12, x12, #0xffff
	ldrh	w13, [x9, x12, lsl #1]
	mov	x12, sp
	add	x14, x12, x10
	sturh	w13, [x14, #-2]
	b.hi	.LBB27_9
	sub	x10, x10, #3
	orr	w8, w11, #0x30
	strb	w8, [x12, x10]
	tbz	x4, #63, .LBB27_11
	b	.LBB27_15
.LBB27_6:
	mov	w10, #40
	cmp	x8, #99
	b.hi	.LBB27_4
.LBB27_7:
	cmp	x8, #9
	b.hi	.LBB27_10
	sub	x10, x10, #1
	mov	x9, sp
	orr	w8, w8, #0x30
	strb	w8, [x9, x10]
	tbz	x4, #63, .LBB27_11
	b	.LBB27_15
.LBB27_9:
	sub	x10, x10, #4
	ldrh	w8, [x9, w11, uxtw #1]
	strh	w8, [x12, x10]
	tbz	x4, #63, .LBB27_11
	b	.LBB27_15
.LBB27_10:
	sub	x10, x10, #2
	ldrh	w8, [x9, x8, lsl #1]
	mov	x9, sp
	strh	w8, [x9, x10]
	tbnz	x4, #63, .LBB27_15
.LBB27_11:
	mov	w8, #40
	sub	x8, x8, x10
	tbz	w3, #0, .LBB27_16
.LBB27_12:
	adds	x9, x2, #1
	csinv	x9, x9, xzr, lo
	cmp	x9, x1
	b.ls	.LBB27_17
	adds	x11, x8, x9
	csinv	x19, x11, xzr, lo
	cmp	x19, x1
	b.ls	.LBB27_18
.LBB27_14:
	ldp	x29, x30, [sp, #48]
	mov	x0, x19
	ldr	x19, [sp, #64]
	mov	w1, #1
	add	sp, sp, #80
	ret
.LBB27_15:
	sub	x10, x10, #1
	mov	x8, sp
	mov	w9, #45
	strb	w9, [x8, x10]
	mov	w8, #40
	sub	x8, x8, x10
	tbnz	w3, #0, .LBB27_12
.LBB27_16:
	mov	x9, x2
	adds	x11, x8, x2
	csinv	x19, x11, xzr, lo
	cmp	x19, x1
	b.hi	.LBB27_14
	b	.LBB27_18
.LBB27_17:
	mov	w11, #44
	strb	w11, [x0, x2]
	adds	x11, x8, x9
	csinv	x19, x11, xzr, lo
	cmp	x19, x1
	b.hi	.LBB27_14
.LBB27_18:
	mov	x11, sp
	add	x0, x0, x9
	mov	x2, x8
	add	x1, x11, x10
	bl	memcpy
	ldp	x29, x30, [sp, #48]
	mov	x0, x19
	ldr	x19, [sp, #64]
	mov	w1, #1
	add	sp, sp, #80
	ret
.Lfunc_end27:
	.size	"amqp_json::printing::leaves::plain_integer", .Lfunc_end27-"amqp_json::printing::leaves::plain_integer"

	.section	.rodata.cst8,"aM",@progbits,8
	.p2align	3, 0x0
.LCPI28_0:
	.byte	36
	.byte	70
	.byte	108
	.byte	111
	.zero	1
	.zero	1
	.zero	1
	.zero	1
	.section	".text.amqp_json::printing::leaves::float","ax",@progbits
	.p2align	2
	.type	"amqp_json::printing::leaves::float",@function
"amqp_json::printing::leaves::float":
	sub	sp, sp, #224
	movi	v0.2d, #0000000000000000
	stp	x29, x30, [sp, #160]
	add	x29, sp, #160
	stp	x24, x23, [sp, #176]
	sub	x24, x29, #24
	mov	w23, w4
	stp	x22, x21, [sp, #192]
	mov	x21, x2
	add	x2, sp, #16
	stp	x20, x19, [sp, #208]
	mov	x20, x1
	mov	x19, x0
	sub	x0, x29, #24
	sub	x1, x29, #40
	mov	w22, w3
	stp	xzr, xzr, [x29, #-32]
	stp	xzr, xzr, [x24, #8]
	stp	wzr, w4, [x29, #-40]
	stp	q0, q0, [sp, #16]
	stp	q0, q0, [sp, #48]
	stp	q0, q0, [sp, #80]
	bl	"amqp_json::printing::decimals::float_text"
	ldurb	w8, [x29, #-24]
	cmp	w8, #1
	b.ne	.LBB28_7
	tbz	w22, #0, .LBB28_8
	adds	x8, x21, #1
	csinv	x8, x8, xzr, lo
	cmp	x8, x20
	b.ls	.LBB28_12
	adds	x9, x8, #2
	csinv	x10, x9, xzr, lo
	cmp	x10, x20
	b.ls	.LBB28_9
.LBB28_4:
	adds	x9, x8, #8
	csinv	x9, x9, xzr, lo
	cmp	x9, x20
	b.ls	.LBB28_10
.LBB28_5:
	adds	x10, x8, #10
	ldr	x2, [x24, #16]
	csinv	x10, x10, xzr, lo
	cmp	x10, x20
	b.ls	.LBB28_14
.LBB28_6:
	adds	x9, x2, x10
	csinv	x21, x9, xzr, lo
	cmp	x21, x20
	b.ls	.LBB28_15
	b	.LBB28_22
.LBB28_7:
	rev	w8, w23
	adrp	x4, .Lstatic.22
	add	x4, x4, :lo12:.Lstatic.22
	add	x6, sp, #12
	mov	x0, x19
	mov	x1, x20
	mov	x2, x21
	mov	w3, w22
	mov	w5, #6
	mov	w7, #4
	str	w8, [sp, #12]
	bl	"amqp_json::printing::leaves::digits"
	ldp	x20, x19, [sp, #208]
	ldp	x22, x21, [sp, #192]
	ldp	x24, x23, [sp, #176]
	ldp	x29, x30, [sp, #160]
	add	sp, sp, #224
	ret
.LBB28_8:
	mov	x8, x21
	adds	x9, x21, #2
	csinv	x10, x9, xzr, lo
	cmp	x10, x20
	b.hi	.LBB28_4
.LBB28_9:
	add	x9, x19, x8
	adrp	x11, .Lstatic.21
	add	x11, x11, :lo12:.Lstatic.21
	sub	x11, x9, x11
	cmp	x11, #1
	mov	w11, #8827
	strh	w11, [x9]
	adds	x9, x8, #8
	csinv	x9, x9, xzr, lo
	cmp	x9, x20
	b.hi	.LBB28_5
.LBB28_10:
	add	x10, x19, x10
	adrp	x11, .Lstatic.22
	add	x11, x11, :lo12:.Lstatic.22
	sub	x11, x10, x11
	cmp	x11, #5
	b.hi	.LBB28_13
	adrp	x11, .LCPI28_0
	ldr	d0, [x11, :lo12:.LCPI28_0]
	mov	w11, #29793
	strh	w11, [x10, #4]
	str	s0, [x10]
	adds	x10, x8, #10
	ldr	x2, [x24, #16]
	csinv	x10, x10, xzr, lo
	cmp	x10, x20
	b.hi	.LBB28_6
	b	.LBB28_14
.LBB28_12:
	mov	w9, #44
	strb	w9, [x19, x21]
	adds	x9, x8, #2
	csinv	x10, x9, xzr, lo
	cmp	x10, x20
	b.hi	.LBB28_4
	b	.LBB28_9
.LBB28_13:
	mov	w12, #17956
	mov	w11, #29793
	movk	w12, #28524, lsl #16
	strh	w11, [x10, #4]
	str	w12, [x10]
	adds	x10, x8, #10
	ldr	x2, [x24, #16]
	csinv	x10, x10, xzr, lo
	cmp	x10, x20
	b.hi	.LBB28_6
.LBB28_14:
	add	x9, x19, x9
	adrp	x11, .Lstatic.6
	add	x11, x11, :lo12:.Lstatic.6
	sub	x11, x9, x11
	cmp	x11, #1
	mov	w11, #14882
	strh	w11, [x9]
	adds	x9, x2, x10
	csinv	x21, x9, xzr, lo
	cmp	x21, x20
	b.hi	.LBB28_22
.LBB28_15:
	ldr	x1, [x24, #8]
	add	x0, x19, x10
	sub	x9, x0, x1
	cmp	x9, x2
	b.hs	.LBB28_21
	cmp	x2, #8
	b.lo	.LBB28_18
	cmn	x8, #11
	mov	x9, #-11
	csel	x11, x8, x9, lo
	add	x9, x11, x19
	sub	x9, x9, x1
	add	x9, x9, #10
	cmp	x9, #32
	b.hs	.LBB28_25
.LBB28_18:
	mov	x9, xzr
.LBB28_19:
	cmn	x8, #11
	mov	x10, #-11
	csel	x8, x8, x10, lo
	add	x10, x9, x19
	add	x10, x10, x8
	sub	x8, x2, x9
	add	x9, x1, x9
	add	x10, x10, #10
.LBB28_20:
	ldrb	w11, [x9], #1
	subs	x8, x8, #1
	strb	w11, [x10], #1
	b.ne	.LBB28_20
	b	.LBB28_22
.LBB28_21:
	bl	memmove
.LBB28_22:
	adds	x8, x21, #1
	csinv	x0, x8, xzr, lo
	cmp	x0, x20
	b.hi	.LBB28_24
	mov	w8, #125
	strb	w8, [x19, x21]
.LBB28_24:
	mov	w1, #1
	ldp	x20, x19, [sp, #208]
	ldp	x22, x21, [sp, #192]
	ldp	x24, x23, [sp, #176]
	ldp	x29, x30, [sp, #160]
	add	sp, sp, #224
	ret
.LBB28_25:
	cmp	x2, #32
	b.hs	.LBB28_27
	mov	x9, xzr
	b	.LBB28_31
.LBB28_27:
	add	x12, x11, x19
	and	x10, x2, #0x18
	and	x9, x2, #0xffffffffffffffe0
	add	x11, x1, #16
	add	x12, x12, #26
	and	x13, x2, #0xffffffffffffffe0
.LBB28_28:
	ldp	q0, q1, [x11, #-16]
	subs	x13, x13, #32
	add	x11, x11, #32
	stp	q0, q1, [x12, #-16]
	add	x12, x12, #32
	b.ne	.LBB28_28
	cmp	x2, x9
	b.eq	.LBB28_22
	cbz	x10, .LBB28_19
.LBB28_31:
	mov	x11, x9
	cmn	x8, #11
	mov	x9, #-11
	csel	x10, x8, x9, lo
	add	x12, x11, x19
	and	x9, x2, #0xfffffffffffffff8
	add	x12, x12, x10
	sub	x10, x11, x9
	add	x11, x1, x11
	add	x12, x12, #10
.LBB28_32:
	ldr	d0, [x11], #8
	adds	x10, x10, #8
	str	d0, [x12], #8
	b.ne	.LBB28_32
	cmp	x2, x9
	b.eq	.LBB28_22
	b	.LBB28_19
.Lfunc_end28:
	.size	"amqp_json::printing::leaves::float", .Lfunc_end28-"amqp_json::printing::leaves::float"

	.section	".text.amqp_json::printing::decimals::float_text","ax",@progbits
	.p2align	2
	.type	"amqp_json::printing::decimals::float_text",@function
"amqp_json::printing::decimals::float_text":
	stp	d9, d8, [sp, #-112]!
	stp	x29, x30, [sp, #16]
	add	x29, sp, #16
	stp	x28, x27, [sp, #32]
	stp	x26, x25, [sp, #48]
	stp	x24, x23, [sp, #64]
	stp	x22, x21, [sp, #80]
	stp	x20, x19, [sp, #96]
	sub	sp, sp, #912
	ldr	w23, [x1, #4]
	mov	x8, #4035225266123964416
	ldrb	w27, [x1]
	ldr	x26, [x1, #8]
	mov	x11, #4503599627370496
	mov	w14, #1075
	and	x9, x23, #0x7fffffff
	cmp	w27, #0
	mov	w15, #126
	add	x8, x8, x9, lsl #29
	mov	w21, #1
	movi	d8, #0000000000000000
	movi	d9, #0000000000000000
	mov	x28, #1
	stp	x2, x0, [sp, #24]
	csel	x9, x8, x26, eq
	movk	x28, #10000, lsl #32
	stp	xzr, xzr, [sp, #128]
	ubfx	x10, x9, #52, #11
	tst	x9, #0x7ff0000000000000
	csel	x12, xzr, x11, eq
	subs	x8, x10, #1075
	bfxil	x12, x9, #0, #52
	csel	x13, xzr, x8, lo
	mov	w8, #11
	cmp	x13, #11
	csel	x13, x13, x8, lo
	subs	x10, x14, x10
	csel	x10, xzr, x10, lo
	lsl	x24, x12, x13
	cmp	x10, #126
	csel	x19, x10, x15, lo
	ubfx	x10, x26, #52, #11
	lsl	x16, x21, x19
	tst	x19, #0x40
	csel	x17, xzr, x16, ne
	csel	x16, x16, xzr, ne
	subs	x14, x14, x10
	csel	x9, xzr, x14, lo
	lsr	x14, x12, #1
	cmp	x9, #126
	csel	x9, x9, x15, lo
	eor	x15, x13, #0x3f
	tst	x26, #0x7ff0000000000000
	lsr	x12, x14, x15
	csel	x11, xzr, x11, eq
	subs	x10, x10, #1075
	csel	x10, xzr, x10, lo
	bfxil	x11, x26, #0, #52
	str	x12, [sp, #120]
	extr	x12, x16, x17, #1
	cmp	x10, #11
	csel	x8, x10, x8, lo
	lsr	x10, x11, #1
	tst	x9, #0x40
	str	x12, [sp, #112]
	lsr	x12, x16, #1
	str	x12, [sp, #104]
	lsl	x12, x21, x9
	lsl	x9, x11, x8
	eor	x8, x8, #0x3f
	lsr	x8, x10, x8
	stp	x9, x23, [sp, #64]
	csel	x9, xzr, x12, ne
	csel	x11, x12, xzr, ne
	str	x8, [sp, #56]
	extr	x8, x11, x9, #1
	str	x8, [sp, #96]
	lsr	x8, x11, #1
	stp	x26, x8, [sp, #80]
	subs	x8, x9, #1
	str	x8, [sp, #48]
	mov	x8, #-1
	adc	x8, x11, x8
	str	x8, [sp, #40]
	b	.LBB29_2
.LBB29_1:
	add	w21, w21, #1
	cmp	w21, #19
	b.eq	.LBB29_194
.LBB29_2:
	stp	w27, w23, [sp, #240]
	str	x26, [sp, #248]
	cbz	w21, .LBB29_5
	cmp	w21, #1
	b.ne	.LBB29_6
	mov	w22, #10
	b	.LBB29_9
.LBB29_5:
	mov	w22, #1
	b	.LBB29_9
.LBB29_6:
	mov	w8, #10
	mov	w9, #1
	mov	w10, w21
.LBB29_7:
	tst	w10, #0x1
	csinc	x11, x8, xzr, ne
	mul	x8, x8, x8
	cmp	w10, #3
	lsr	w10, w10, #1
	mul	x9, x11, x9
	b.hi	.LBB29_7
	mul	x22, x9, x8
	cbz	x22, .LBB29_199
.LBB29_9:
	umulh	x8, x24, x22
	ldr	x10, [sp, #120]
	mvn	w11, w19
	mov	x2, x22
	mov	x3, xzr
	mul	x9, x24, x22
	madd	x8, x10, x22, x8
	ldr	x10, [sp, #112]
	adds	x9, x9, x10
	ldr	x10, [sp, #104]
	lsr	x9, x9, x19
	adc	x8, x8, x10
	tst	x19, #0x40
	lsl	x10, x8, #1
	lsr	x8, x8, x19
	lsl	x10, x10, x11
	csel	x1, xzr, x8, ne
	orr	x9, x10, x9
	csel	x0, x8, x9, ne
	bl	__udivti3
	cbnz	x1, .LBB29_1
	cmp	w27, #1
	b.ne	.LBB29_13
	ldp	x10, x9, [sp, #56]
	ldr	x11, [sp, #48]
	umulh	x8, x9, x22
	mul	x9, x9, x22
	madd	x8, x10, x22, x8
	ldp	x12, x10, [sp, #88]
	adds	x9, x9, x10
	and	x9, x9, x11
	ldr	x11, [sp, #40]
	adc	x8, x8, x12
	adds	x10, x10, x22
	and	x11, x8, x11
	cinc	x8, x12, hs
	cmp	x10, x9
	sbcs	xzr, x8, x11
	cset	w10, lo
	adds	x8, x9, x22
	cinc	x9, x11, hs
	tbnz	w10, #0, .LBB29_1
	ldr	x10, [sp, #96]
	cmp	x8, x10
	ldr	x8, [sp, #88]
	sbcs	xzr, x9, x8
	b.lo	.LBB29_1
.LBB29_13:
	movi	v0.2d, #0000000000000000
	add	x0, sp, #240
	add	x2, sp, #144
	mov	w1, w21
	stp	q0, q0, [sp, #144]
	stp	q0, q0, [sp, #176]
	stp	q0, q0, [sp, #208]
	bl	"amqp_json::printing::decimals::text_with"
	mov	x15, #100
	mov	x17, #9187201950435737471
	mov	x16, #7378697629483820646
	movk	x15, #16960, lsl #32
	movk	x17, #32638
	orr	x16, x16, #0x7070707070707070
	movk	x15, #15, lsl #48
	cbz	w27, .LBB29_16
	cbz	x1, .LBB29_18
	ldrb	w20, [x0]
	b	.LBB29_19
.LBB29_16:
	cbz	x1, .LBB29_33
	ldrb	w20, [x0]
	b	.LBB29_34
.LBB29_18:
	mov	w20, wzr
.LBB29_19:
	cmp	w20, #45
	mov	w8, #43
	ccmp	w20, w8, #4, ne
	cset	w25, eq
	cinc	x8, x0, eq
	sub	x26, x1, x25
	subs	x10, x26, #8
	b.lo	.LBB29_24
	mov	w18, #57600
	mov	x9, xzr
	mov	x22, xzr
	sub	x11, x1, x25
	movk	w18, #1525, lsl #16
.LBB29_21:
	ldr	x13, [x8, x9]
	eor	x12, x13, #0x3030303030303030
	and	x14, x12, x17
	add	x14, x14, x16
	orr	x13, x14, x13
	tst	x13, #0x8080808080808080
	b.ne	.LBB29_23
	mov	w13, #10
	sub	x11, x11, #8
	add	x9, x9, #8
	mul	x13, x12, x13
	cmp	x11, #7
	add	x12, x13, x12, lsr #8
	and	x13, x12, #0xff000000ff
	lsr	x12, x12, #16
	mul	x13, x13, x15
	and	x12, x12, #0xff000000ff
	madd	x12, x12, x28, x13
	mul	x13, x22, x18
	add	x22, x13, x12, lsr #32
	b.hi	.LBB29_21
.LBB29_23:
	cmp	x9, x26
	b.lo	.LBB29_25
	b	.LBB29_58
.LBB29_24:
	mov	x22, xzr
	mov	x9, xzr
	cmp	xzr, x26
	b.hs	.LBB29_58
.LBB29_25:
	ldrb	w11, [x8, x9]
	sub	w12, w11, #48
	cmp	w12, #9
	b.hi	.LBB29_28
	mov	w11, #10
	add	x9, x9, #1
	mul	x11, x22, x11
	cmp	x9, x26
	add	x22, x11, w12, uxtb
	b.lo	.LBB29_25
	mov	x3, xzr
	mov	w12, wzr
	mov	x10, xzr
	adrp	x2, .Lstatic.23
	add	x2, x2, :lo12:.Lstatic.23
	sub	x9, x1, x25
	b	.LBB29_59
.LBB29_28:
	cmp	w11, #46
	b.eq	.LBB29_78
	cmp	w11, #69
	b.eq	.LBB29_31
	cmp	w11, #101
	b.ne	.LBB29_58
.LBB29_31:
	add	x11, x9, #1
	cmp	x11, x26
	b.hs	.LBB29_48
	add	x10, x8, x9
	ldrb	w10, [x10, #1]
	b	.LBB29_49
.LBB29_33:
	mov	w20, wzr
.LBB29_34:
	cmp	w20, #45
	mov	w8, #43
	ccmp	w20, w8, #4, ne
	cset	w25, eq
	cinc	x8, x0, eq
	sub	x26, x1, x25
	subs	x10, x26, #8
	b.lo	.LBB29_39
	mov	w18, #57600
	mov	x9, xzr
	mov	x22, xzr
	sub	x11, x1, x25
	movk	w18, #1525, lsl #16
.LBB29_36:
	ldr	x13, [x8, x9]
	eor	x12, x13, #0x3030303030303030
	and	x14, x12, x17
	add	x14, x14, x16
	orr	x13, x14, x13
	tst	x13, #0x8080808080808080
	b.ne	.LBB29_38
	mov	w13, #10
	sub	x11, x11, #8
	add	x9, x9, #8
	mul	x13, x12, x13
	cmp	x11, #7
	add	x12, x13, x12, lsr #8
	and	x13, x12, #0xff000000ff
	lsr	x12, x12, #16
	mul	x13, x13, x15
	and	x12, x12, #0xff000000ff
	madd	x12, x12, x28, x13
	mul	x13, x22, x18
	add	x22, x13, x12, lsr #32
	b.hi	.LBB29_36
.LBB29_38:
	cmp	x9, x26
	b.lo	.LBB29_40
	b	.LBB29_98
.LBB29_39:
	mov	x22, xzr
	mov	x9, xzr
	cmp	xzr, x26
	b.hs	.LBB29_98
.LBB29_40:
	ldrb	w11, [x8, x9]
	sub	w12, w11, #48
	cmp	w12, #9
	b.hi	.LBB29_43
	mov	w11, #10
	add	x9, x9, #1
	mul	x11, x22, x11
	cmp	x9, x26
	add	x22, x11, w12, uxtb
	b.lo	.LBB29_40
	mov	x3, xzr
	mov	w12, wzr
	mov	x10, xzr
	adrp	x2, .Lstatic.23
	add	x2, x2, :lo12:.Lstatic.23
	sub	x9, x1, x25
	b	.LBB29_99
.LBB29_43:
	cmp	w11, #46
	b.eq	.LBB29_118
	cmp	w11, #69
	b.eq	.LBB29_46
	cmp	w11, #101
	b.ne	.LBB29_98
.LBB29_46:
	add	x11, x9, #1
	cmp	x11, x26
	b.hs	.LBB29_88
	add	x10, x8, x9
	ldrb	w10, [x10, #1]
	b	.LBB29_89
.LBB29_48:
	mov	w10, wzr
.LBB29_49:
	cmp	w10, #43
	mov	w12, #45
	ccmp	w10, w12, #4, ne
	add	x10, x9, #2
	csel	x13, x10, x11, eq
	cmp	x13, x26
	b.hs	.LBB29_58
	mov	w12, wzr
	mov	x3, xzr
	adrp	x2, .Lstatic.23
	add	x2, x2, :lo12:.Lstatic.23
	cbz	x13, .LBB29_131
	ldrb	w10, [x8, x13]
	sub	w10, w10, #58
	cmn	w10, #10
	b.lo	.LBB29_131
	mov	x12, #-7378697629483820647
	mov	x10, xzr
	eor	x12, x12, #0x8000000000000003
.LBB29_53:
	ldrb	w14, [x8, x13]
	sub	w14, w14, #48
	cmp	w14, #9
	b.hi	.LBB29_56
	add	x15, x10, x10, lsl #2
	add	x13, x13, #1
	lsl	x15, x15, #1
	adds	x14, x15, w14, uxtb
	csinv	x14, x14, xzr, lo
	cmp	x10, x12
	csinv	x10, x14, xzr, lo
	cmp	x13, x26
	b.lo	.LBB29_53
	sub	x13, x1, x25
.LBB29_56:
	cmp	x11, x26
	b.hs	.LBB29_144
	add	x11, x8, x9
	mov	x3, xzr
	adrp	x2, .Lstatic.23
	add	x2, x2, :lo12:.Lstatic.23
	ldrb	w11, [x11, #1]
	mov	x26, x13
	cmp	w11, #45
	cset	w12, eq
	b	.LBB29_59
.LBB29_58:
	mov	x3, xzr
	mov	w12, wzr
	mov	x10, xzr
	adrp	x2, .Lstatic.23
	add	x2, x2, :lo12:.Lstatic.23
	mov	x26, x9
.LBB29_59:
	cmn	x9, x3
	b.eq	.LBB29_81
	cmp	w12, #0
	add	x11, x3, x9
	csel	x4, xzr, x10, ne
	csel	x5, x10, xzr, ne
	cmp	x11, #19
	b.hi	.LBB29_83
	lsr	x10, x10, #32
	cbnz	x10, .LBB29_83
	movi	d0, #0000000000000000
	cbz	x22, .LBB29_85
	add	x8, x5, x3
	subs	x23, x8, x4
	b.ls	.LBB29_67
	mov	x8, #9007199254740992
	cmp	x22, x8
	b.hi	.LBB29_70
	cmp	x23, #22
	b.hi	.LBB29_70
	ucvtf	d0, x22
	adrp	x8, .Lstatic.30
	add	x8, x8, :lo12:.Lstatic.30
	ldr	d1, [x8, x23, lsl #3]
	fdiv	d0, d0, d1
	b	.LBB29_85
.LBB29_67:
	mov	x9, #9007199254740992
	sub	x23, x4, x8
	cmp	x22, x9
	b.hi	.LBB29_74
	cmp	x23, #22
	b.hi	.LBB29_74
	ucvtf	d0, x22
	adrp	x8, .Lstatic.30
	add	x8, x8, :lo12:.Lstatic.30
	ldr	d1, [x8, x23, lsl #3]
	fmul	d0, d0, d1
	b	.LBB29_85
.LBB29_70:
	cmp	x23, #342
	b.hi	.LBB29_85
	mov	w8, #342
	clz	x10, x22
	mov	w11, #21098
	sub	x3, x8, x23
	adrp	x8, .Lstatic.25
	add	x8, x8, :lo12:.Lstatic.25
	add	x8, x8, x3, lsl #4
	lsl	x9, x22, x10
	movk	w11, #3, lsl #16
	add	x10, x10, #1191
	ldr	x8, [x8, #8]
	umulh	x8, x8, x9
	mov	w9, #58980
	umaddl	x9, w3, w11, x9
	lsr	x11, x8, #63
	add	x9, x11, x9, lsr #16
	add	x9, x9, #1139
	cmp	x9, x10
	b.lo	.LBB29_165
	mov	x12, #-1024
	lsl	x13, x12, x11
	mov	w12, #512
	lsl	x12, x12, x11
	bic	x13, x8, x13
	sub	x14, x12, x13
	cmp	x14, #2
	b.lo	.LBB29_165
	mov	w14, #10
	sub	w9, w9, w10
	cmp	x12, x13
	orr	x11, x11, x14
	lsr	x8, x8, x11
	add	x8, x8, x9, lsl #52
	cinc	x0, x8, lo
	b	.LBB29_84
.LBB29_74:
	cmp	x23, #308
	b.ls	.LBB29_76
	mov	x8, #9218868437227405312
	fmov	d0, x8
	b	.LBB29_85
.LBB29_76:
	add	x8, x23, #342
	adrp	x9, .Lstatic.25
	add	x9, x9, :lo12:.Lstatic.25
	add	x10, x9, x8, lsl #4
	clz	x9, x22
	lsl	x11, x22, x9
	ldr	x10, [x10, #8]
	umulh	x10, x10, x11
	mov	x11, #-1024
	lsr	x12, x10, #63
	lsl	x13, x11, x12
	mov	w11, #512
	lsl	x11, x11, x12
	bic	x13, x10, x13
	sub	x14, x11, x13
	cmp	x14, #1
	b.ls	.LBB29_181
	mov	w15, #21098
	mov	w14, #58980
	sub	w9, w12, w9
	movk	w15, #3, lsl #16
	cmp	x11, x13
	madd	w8, w8, w15, w14
	mov	w14, #10
	orr	x12, x12, x14
	add	w8, w9, w8, lsr #16
	lsr	x9, x10, x12
	sub	w8, w8, #52
	add	x8, x9, x8, lsl #52
	mov	x9, #9218868437227405312
	cinc	x8, x8, lo
	cmp	x8, x9
	csel	x0, x8, x9, lo
	b	.LBB29_84
.LBB29_78:
	add	x11, x9, #1
.LBB29_79:
	sub	x12, x26, x11
	cmp	x12, #8
	b.lo	.LBB29_128
	ldr	x12, [x8, x11]
	mov	x18, #100
	movk	x18, #16960, lsl #32
	eor	x13, x12, #0x3030303030303030
	movk	x18, #15, lsl #48
	and	x14, x13, x17
	add	x14, x14, x16
	mov	w16, #2561
	orr	x12, x14, x12
	mov	w14, #10
	ands	x12, x12, #0x8080808080808080
	mul	x14, x13, x14
	rbit	x12, x12
	clz	x12, x12
	mvn	w15, w12
	lsr	x12, x12, #3
	and	x15, x15, #0x38
	lsl	x15, x13, x15
	add	x13, x14, x13, lsr #8
	mul	x15, x15, x16
	and	x14, x13, #0xff000000ff
	lsr	x13, x13, #16
	mul	x14, x14, x18
	and	x13, x13, #0xff000000ff
	and	x16, x15, #0xff000000ff
	lsr	x15, x15, #16
	madd	x13, x13, x28, x14
	mov	w14, #8
	mul	x16, x16, x18
	and	x15, x15, #0xff000000ff
	csel	x12, x12, x14, ne
	add	x11, x12, x11
	madd	x14, x15, x28, x16
	adrp	x15, .Lstatic.24
	add	x15, x15, :lo12:.Lstatic.24
	ldr	x15, [x15, x12, lsl #3]
	mov	x16, #7378697629483820646
	orr	x16, x16, #0x7070707070707070
	mul	x15, x15, x22
	csel	x13, x14, x13, ne
	cmp	x12, #8
	add	x22, x15, x13, lsr #32
	b.hs	.LBB29_79
	b	.LBB29_140
.LBB29_81:
	cmp	w20, #45
	add	x0, sp, #256
	mov	x20, x1
	cset	w3, eq
	sub	x2, x1, x25
	mov	x1, x8
	bl	"core::dec2flt::words::read_word::<#1d521972340cebc2>"
	ldrb	w8, [sp, #256]
	ldr	x26, [sp, #80]
	cmp	w8, #1
	b.ne	.LBB29_1
	ldr	d0, [sp, #264]
	ldr	x26, [sp, #272]
	add	x8, x26, x25
	ldr	x26, [sp, #80]
	cmp	x8, x20
	b.ne	.LBB29_1
	b	.LBB29_86
.LBB29_83:
	mov	x0, x8
	mov	x22, x1
	mov	x1, x9
	bl	"core::dec2flt::long::from_long::<#1d521972340cebc2>"
	mov	x1, x22
.LBB29_84:
	fmov	d0, x0
.LBB29_85:
	fneg	d1, d0
	cmp	w20, #45
	fcsel	d0, d1, d0, eq
	add	x8, x26, x25
	ldp	x23, x26, [sp, #72]
	cmp	x8, x1
	b.ne	.LBB29_1
.LBB29_86:
	fsub	d1, d0, d0
	fcmp	d1, d8
	b.ne	.LBB29_1
	fmov	x8, d0
	cmp	x26, x8
	b.ne	.LBB29_1
	b	.LBB29_196
.LBB29_88:
	mov	w10, wzr
.LBB29_89:
	cmp	w10, #43
	mov	w12, #45
	ccmp	w10, w12, #4, ne
	add	x10, x9, #2
	csel	x13, x10, x11, eq
	cmp	x13, x26
	b.hs	.LBB29_98
	mov	w12, wzr
	mov	x3, xzr
	adrp	x2, .Lstatic.23
	add	x2, x2, :lo12:.Lstatic.23
	cbz	x13, .LBB29_135
	ldrb	w10, [x8, x13]
	sub	w10, w10, #58
	cmn	w10, #10
	b.lo	.LBB29_135
	mov	x12, #-7378697629483820647
	mov	x10, xzr
	eor	x12, x12, #0x8000000000000003
.LBB29_93:
	ldrb	w14, [x8, x13]
	sub	w14, w14, #48
	cmp	w14, #9
	b.hi	.LBB29_96
	add	x15, x10, x10, lsl #2
	add	x13, x13, #1
	lsl	x15, x15, #1
	adds	x14, x15, w14, uxtb
	csinv	x14, x14, xzr, lo
	cmp	x10, x12
	csinv	x10, x14, xzr, lo
	cmp	x13, x26
	b.lo	.LBB29_93
	sub	x13, x1, x25
.LBB29_96:
	cmp	x11, x26
	b.hs	.LBB29_164
	add	x11, x8, x9
	mov	x3, xzr
	adrp	x2, .Lstatic.23
	add	x2, x2, :lo12:.Lstatic.23
	ldrb	w11, [x11, #1]
	mov	x26, x13
	cmp	w11, #45
	cset	w12, eq
	b	.LBB29_99
.LBB29_98:
	mov	x3, xzr
	mov	w12, wzr
	mov	x10, xzr
	adrp	x2, .Lstatic.23
	add	x2, x2, :lo12:.Lstatic.23
	mov	x26, x9
.LBB29_99:
	cmn	x9, x3
	b.eq	.LBB29_121
	cmp	w12, #0
	add	x11, x3, x9
	csel	x4, xzr, x10, ne
	csel	x5, x10, xzr, ne
	cmp	x11, #19
	b.hi	.LBB29_123
	lsr	x10, x10, #32
	cbnz	x10, .LBB29_123
	movi	d0, #0000000000000000
	cbz	x22, .LBB29_125
	add	x8, x5, x3
	subs	x23, x8, x4
	b.ls	.LBB29_107
	mov	w8, #16777216
	cmp	x22, x8
	b.hi	.LBB29_110
	cmp	x23, #10
	b.hi	.LBB29_110
	ucvtf	s0, x22
	adrp	x8, .Lstatic.26
	add	x8, x8, :lo12:.Lstatic.26
	ldr	s1, [x8, x23, lsl #2]
	fdiv	s0, s0, s1
	b	.LBB29_125
.LBB29_107:
	mov	w9, #16777216
	sub	x23, x4, x8
	cmp	x22, x9
	b.hi	.LBB29_114
	cmp	x23, #10
	b.hi	.LBB29_114
	ucvtf	s0, x22
	adrp	x8, .Lstatic.26
	add	x8, x8, :lo12:.Lstatic.26
	ldr	s1, [x8, x23, lsl #2]
	fmul	s0, s0, s1
	b	.LBB29_125
.LBB29_110:
	cmp	x23, #342
	b.hi	.LBB29_125
	mov	w8, #342
	clz	x10, x22
	mov	w11, #21098
	sub	x3, x8, x23
	adrp	x8, .Lstatic.25
	add	x8, x8, :lo12:.Lstatic.25
	add	x8, x8, x3, lsl #4
	lsl	x9, x22, x10
	movk	w11, #3, lsl #16
	add	x10, x10, #1162
	ldr	x8, [x8, #8]
	umulh	x8, x8, x9
	mov	w9, #58980
	umaddl	x11, w3, w11, x9
	lsr	x9, x8, #63
	add	x11, x9, x11, lsr #16
	add	x11, x11, #214
	subs	x10, x11, x10
	b.lo	.LBB29_179
	mov	x11, #-549755813888
	lsl	x12, x11, x9
	mov	x11, #274877906944
	lsl	x11, x11, x9
	bic	x12, x8, x12
	sub	x13, x11, x12
	cmp	x13, #2
	b.lo	.LBB29_179
	add	x9, x9, #39
	cmp	x11, x12
	lsr	x8, x8, x9
	add	x8, x8, x10, lsl #23
	cinc	x0, x8, lo
	b	.LBB29_124
.LBB29_114:
	cmp	x23, #308
	b.ls	.LBB29_116
	mov	w8, #2139095040
	fmov	s0, w8
	b	.LBB29_125
.LBB29_116:
	add	x8, x23, #342
	adrp	x9, .Lstatic.25
	add	x9, x9, :lo12:.Lstatic.25
	add	x10, x9, x8, lsl #4
	clz	x9, x22
	mov	x12, #-549755813888
	lsl	x11, x22, x9
	ldr	x10, [x10, #8]
	umulh	x10, x10, x11
	lsr	x11, x10, #63
	lsl	x13, x12, x11
	mov	x12, #274877906944
	lsl	x12, x12, x11
	bic	x13, x10, x13
	sub	x14, x12, x13
	cmp	x14, #1
	b.ls	.LBB29_186
	mov	w15, #21098
	mov	w14, #58980
	sub	x9, x11, x9
	movk	w15, #3, lsl #16
	cmp	x12, x13
	madd	x8, x8, x15, x14
	add	x14, x11, #39
	lsr	x10, x10, x14
	add	x8, x9, x8, lsr #16
	mov	x9, #-8589934592
	movk	x9, #9728, lsl #16
	add	x8, x10, x8, lsl #23
	cinc	x8, x8, lo
	add	x8, x8, x9
	mov	w9, #2139095040
	cmp	x8, x9
	csel	x0, x8, x9, lo
	b	.LBB29_124
.LBB29_118:
	add	x11, x9, #1
.LBB29_119:
	sub	x12, x26, x11
	cmp	x12, #8
	b.lo	.LBB29_132
	ldr	x12, [x8, x11]
	mov	x18, #100
	movk	x18, #16960, lsl #32
	eor	x13, x12, #0x3030303030303030
	movk	x18, #15, lsl #48
	and	x14, x13, x17
	add	x14, x14, x16
	mov	w16, #2561
	orr	x12, x14, x12
	mov	w14, #10
	ands	x12, x12, #0x8080808080808080
	mul	x14, x13, x14
	rbit	x12, x12
	clz	x12, x12
	mvn	w15, w12
	lsr	x12, x12, #3
	and	x15, x15, #0x38
	lsl	x15, x13, x15
	add	x13, x14, x13, lsr #8
	mul	x15, x15, x16
	and	x14, x13, #0xff000000ff
	lsr	x13, x13, #16
	mul	x14, x14, x18
	and	x13, x13, #0xff000000ff
	and	x16, x15, #0xff000000ff
	lsr	x15, x15, #16
	madd	x13, x13, x28, x14
	mov	w14, #8
	mul	x16, x16, x18
	and	x15, x15, #0xff000000ff
	csel	x12, x12, x14, ne
	add	x11, x12, x11
	madd	x14, x15, x28, x16
	adrp	x15, .Lstatic.24
	add	x15, x15, :lo12:.Lstatic.24
	ldr	x15, [x15, x12, lsl #3]
	mov	x16, #7378697629483820646
	orr	x16, x16, #0x7070707070707070
	mul	x15, x15, x22
	csel	x13, x14, x13, ne
	cmp	x12, #8
	add	x22, x15, x13, lsr #32
	b.hs	.LBB29_119
	b	.LBB29_160
.LBB29_121:
	cmp	w20, #45
	add	x0, sp, #256
	mov	x20, x1
	cset	w3, eq
	sub	x2, x1, x25
	mov	x1, x8
	bl	"core::dec2flt::words::read_word::<#11bd57d74d267e9b>"
	ldrb	w8, [sp, #256]
	ldr	x26, [sp, #80]
	cmp	w8, #1
	b.ne	.LBB29_1
	ldr	s0, [sp, #264]
	ldr	x26, [sp, #272]
	add	x8, x26, x25
	ldr	x26, [sp, #80]
	cmp	x8, x20
	b.ne	.LBB29_1
	b	.LBB29_126
.LBB29_123:
	mov	x0, x8
	mov	x22, x1
	mov	x1, x9
	bl	"core::dec2flt::long::from_long::<#11bd57d74d267e9b>"
	mov	x1, x22
.LBB29_124:
	fmov	s0, w0
.LBB29_125:
	fneg	s1, s0
	cmp	w20, #45
	fcsel	s0, s1, s0, eq
	add	x8, x26, x25
	ldp	x23, x26, [sp, #72]
	cmp	x8, x1
	b.ne	.LBB29_1
.LBB29_126:
	fsub	s1, s0, s0
	fcmp	s1, s9
	b.ne	.LBB29_1
	fmov	w8, s0
	cmp	w23, w8
	b.ne	.LBB29_1
	b	.LBB29_196
.LBB29_128:
	cmp	x26, #12
	b.lo	.LBB29_136
	cmp	x26, x11
	b.ls	.LBB29_136
	sub	x12, x11, x10
	ldr	x10, [x8, x10]
	mov	w15, #2561
	lsl	x12, x12, #3
	lsr	x10, x10, x12
	eor	x12, x10, #0x3030303030303030
	and	x13, x12, x17
	add	x13, x13, x16
	mov	x16, #100
	orr	x10, x13, x10
	mov	w13, #10
	movk	x16, #16960, lsl #32
	ands	x10, x10, #0x8080808080808080
	mul	x13, x12, x13
	movk	x16, #15, lsl #48
	rbit	x10, x10
	clz	x10, x10
	mvn	w14, w10
	lsr	x10, x10, #3
	and	x14, x14, #0x38
	lsl	x14, x12, x14
	add	x12, x13, x12, lsr #8
	mul	x14, x14, x15
	and	x13, x12, #0xff000000ff
	lsr	x12, x12, #16
	mul	x13, x13, x16
	and	x12, x12, #0xff000000ff
	and	x15, x14, #0xff000000ff
	lsr	x14, x14, #16
	madd	x12, x12, x28, x13
	mov	w13, #8
	mul	x15, x15, x16
	and	x14, x14, #0xff000000ff
	csel	x10, x10, x13, ne
	add	x11, x10, x11
	madd	x13, x14, x28, x15
	adrp	x14, .Lstatic.24
	add	x14, x14, :lo12:.Lstatic.24
	ldr	x14, [x14, x10, lsl #3]
	mul	x14, x14, x22
	csel	x12, x13, x12, ne
	add	x22, x14, x12, lsr #32
	b	.LBB29_140
.LBB29_131:
	mov	x26, x9
	mov	x10, x3
	b	.LBB29_59
.LBB29_132:
	cmp	x26, #12
	b.lo	.LBB29_156
	cmp	x26, x11
	b.ls	.LBB29_156
	sub	x12, x11, x10
	ldr	x10, [x8, x10]
	mov	w15, #2561
	lsl	x12, x12, #3
	lsr	x10, x10, x12
	eor	x12, x10, #0x3030303030303030
	and	x13, x12, x17
	add	x13, x13, x16
	mov	x16, #100
	orr	x10, x13, x10
	mov	w13, #10
	movk	x16, #16960, lsl #32
	ands	x10, x10, #0x8080808080808080
	mul	x13, x12, x13
	movk	x16, #15, lsl #48
	rbit	x10, x10
	clz	x10, x10
	mvn	w14, w10
	lsr	x10, x10, #3
	and	x14, x14, #0x38
	lsl	x14, x12, x14
	add	x12, x13, x12, lsr #8
	mul	x14, x14, x15
	and	x13, x12, #0xff000000ff
	lsr	x12, x12, #16
	mul	x13, x13, x16
	and	x12, x12, #0xff000000ff
	and	x15, x14, #0xff000000ff
	lsr	x14, x14, #16
	madd	x12, x12, x28, x13
	mov	w13, #8
	mul	x15, x15, x16
	and	x14, x14, #0xff000000ff
	csel	x10, x10, x13, ne
	add	x11, x10, x11
	madd	x13, x14, x28, x15
	adrp	x14, .Lstatic.24
	add	x14, x14, :lo12:.Lstatic.24
	ldr	x14, [x14, x10, lsl #3]
	mul	x14, x14, x22
	csel	x12, x13, x12, ne
	add	x22, x14, x12, lsr #32
	b	.LBB29_160
.LBB29_135:
	mov	x26, x9
	mov	x10, x3
	b	.LBB29_99
.LBB29_136:
	cmp	x26, x11
	b.ls	.LBB29_140
.LBB29_137:
	ldrb	w10, [x8, x11]
	sub	w10, w10, #48
	cmp	w10, #9
	b.hi	.LBB29_140
	mov	w12, #10
	add	x11, x11, #1
	mul	x12, x22, x12
	cmp	x11, x26
	add	x22, x12, w10, uxtb
	b.lo	.LBB29_137
	mvn	x11, x25
	add	x13, x8, x9
	mov	w12, wzr
	add	x11, x11, x1
	mov	x10, xzr
	add	x2, x13, #1
	sub	x3, x11, x9
	b	.LBB29_59
.LBB29_140:
	add	x10, x8, x9
	mvn	x12, x9
	cmp	x11, x26
	add	x2, x10, #1
	add	x3, x12, x11
	b.hs	.LBB29_155
	ldrb	w10, [x8, x11]
	orr	w10, w10, #0x20
	cmp	w10, #101
	b.ne	.LBB29_155
	add	x13, x11, #1
	cmp	x13, x26
	b.hs	.LBB29_145
	ldrb	w10, [x8, x13]
	b	.LBB29_146
.LBB29_144:
	mov	x3, xzr
	mov	w12, wzr
	mov	x26, x13
	adrp	x2, .Lstatic.23
	add	x2, x2, :lo12:.Lstatic.23
	b	.LBB29_59
.LBB29_145:
	mov	w10, wzr
.LBB29_146:
	cmp	w10, #43
	mov	w12, #45
	ccmp	w10, w12, #4, ne
	add	x10, x11, #2
	csel	x14, x10, x13, eq
	cmp	x14, x26
	b.hs	.LBB29_155
	mov	x10, xzr
	mov	w12, wzr
	cbz	x14, .LBB29_178
	ldrb	w15, [x8, x14]
	sub	w15, w15, #58
	cmn	w15, #10
	b.lo	.LBB29_178
	mov	x11, #-7378697629483820647
	mov	x10, xzr
	eor	x11, x11, #0x8000000000000003
.LBB29_150:
	ldrb	w12, [x8, x14]
	sub	w12, w12, #48
	cmp	w12, #9
	b.hi	.LBB29_153
	add	x15, x10, x10, lsl #2
	add	x14, x14, #1
	lsl	x15, x15, #1
	adds	x12, x15, w12, uxtb
	csinv	x12, x12, xzr, lo
	cmp	x10, x11
	csinv	x10, x12, xzr, lo
	cmp	x14, x26
	b.lo	.LBB29_150
	sub	x14, x1, x25
.LBB29_153:
	cmp	x13, x26
	b.hs	.LBB29_184
	ldrb	w11, [x8, x13]
	cmp	w11, #45
	cset	w12, eq
	b	.LBB29_185
.LBB29_155:
	mov	w12, wzr
	mov	x10, xzr
	mov	x26, x11
	b	.LBB29_59
.LBB29_156:
	cmp	x26, x11
	b.ls	.LBB29_160
.LBB29_157:
	ldrb	w10, [x8, x11]
	sub	w10, w10, #48
	cmp	w10, #9
	b.hi	.LBB29_160
	mov	w12, #10
	add	x11, x11, #1
	mul	x12, x22, x12
	cmp	x11, x26
	add	x22, x12, w10, uxtb
	b.lo	.LBB29_157
	mvn	x11, x25
	add	x13, x8, x9
	mov	w12, wzr
	add	x11, x11, x1
	mov	x10, xzr
	add	x2, x13, #1
	sub	x3, x11, x9
	b	.LBB29_99
.LBB29_160:
	add	x10, x8, x9
	mvn	x12, x9
	cmp	x11, x26
	add	x2, x10, #1
	add	x3, x12, x11
	b.hs	.LBB29_177
	ldrb	w10, [x8, x11]
	orr	w10, w10, #0x20
	cmp	w10, #101
	b.ne	.LBB29_177
	add	x13, x11, #1
	cmp	x13, x26
	b.hs	.LBB29_167
	ldrb	w10, [x8, x13]
	b	.LBB29_168
.LBB29_164:
	mov	x3, xzr
	mov	w12, wzr
	mov	x26, x13
	adrp	x2, .Lstatic.23
	add	x2, x2, :lo12:.Lstatic.23
	b	.LBB29_99
.LBB29_165:
	str	x1, [sp, #16]
	sub	x0, x29, #48
	mov	x1, x22
	mov	x2, xzr
	bl	"core::dec2flt::lemire::eisel_lemire_wide::<#1d521972340cebc2>"
	ldurb	w8, [x29, #-48]
	ldur	x0, [x29, #-40]
	cbz	w8, .LBB29_182
	ldur	x8, [x29, #-32]
	str	x22, [sp, #280]
	mov	x22, x0
	mov	w1, wzr
	mov	w2, #584
	str	x8, [sp, #8]
	add	x8, sp, #280
	add	x0, x8, #8
	bl	memset
	mov	w8, #1
	add	x0, sp, #280
	mov	w1, wzr
	mov	x2, xzr
	mov	x3, x23
	str	x8, [sp, #872]
	b	.LBB29_191
.LBB29_167:
	mov	w10, wzr
.LBB29_168:
	cmp	w10, #43
	mov	w12, #45
	ccmp	w10, w12, #4, ne
	add	x10, x11, #2
	csel	x14, x10, x13, eq
	cmp	x14, x26
	b.hs	.LBB29_177
	mov	x10, xzr
	mov	w12, wzr
	cbz	x14, .LBB29_183
	ldrb	w15, [x8, x14]
	sub	w15, w15, #58
	cmn	w15, #10
	b.lo	.LBB29_183
	mov	x11, #-7378697629483820647
	mov	x10, xzr
	eor	x11, x11, #0x8000000000000003
.LBB29_172:
	ldrb	w12, [x8, x14]
	sub	w12, w12, #48
	cmp	w12, #9
	b.hi	.LBB29_175
	add	x15, x10, x10, lsl #2
	add	x14, x14, #1
	lsl	x15, x15, #1
	adds	x12, x15, w12, uxtb
	csinv	x12, x12, xzr, lo
	cmp	x10, x11
	csinv	x10, x12, xzr, lo
	cmp	x14, x26
	b.lo	.LBB29_172
	sub	x14, x1, x25
.LBB29_175:
	cmp	x13, x26
	b.hs	.LBB29_188
	ldrb	w11, [x8, x13]
	cmp	w11, #45
	cset	w12, eq
	b	.LBB29_189
.LBB29_177:
	mov	w12, wzr
	mov	x10, xzr
	mov	x26, x11
	b	.LBB29_99
.LBB29_178:
	mov	x26, x11
	b	.LBB29_59
.LBB29_179:
	str	x1, [sp, #16]
	sub	x0, x29, #48
	mov	x1, x22
	mov	x2, xzr
	bl	"core::dec2flt::lemire::eisel_lemire_wide::<#11bd57d74d267e9b>"
	ldurb	w8, [x29, #-48]
	ldur	x0, [x29, #-40]
	cbz	w8, .LBB29_187
	ldur	x8, [x29, #-32]
	str	x22, [sp, #280]
	mov	x22, x0
	mov	w1, wzr
	mov	w2, #584
	str	x8, [sp, #8]
	add	x8, sp, #280
	add	x0, x8, #8
	bl	memset
	mov	w8, #1
	add	x0, sp, #280
	mov	w1, wzr
	mov	x2, xzr
	mov	x3, x23
	str	x8, [sp, #872]
	b	.LBB29_193
.LBB29_181:
	str	x1, [sp, #16]
	sub	x0, x29, #48
	add	x3, x23, #342
	mov	x1, x22
	mov	x2, xzr
	bl	"core::dec2flt::lemire::eisel_lemire_wide::<#1d521972340cebc2>"
	ldurb	w8, [x29, #-48]
	ldur	x0, [x29, #-40]
	cbnz	w8, .LBB29_190
.LBB29_182:
	ldr	x1, [sp, #16]
	b	.LBB29_84
.LBB29_183:
	mov	x26, x11
	b	.LBB29_99
.LBB29_184:
	mov	w12, wzr
.LBB29_185:
	mov	x26, x14
	b	.LBB29_59
.LBB29_186:
	str	x1, [sp, #16]
	sub	x0, x29, #48
	add	x3, x23, #342
	mov	x1, x22
	mov	x2, xzr
	bl	"core::dec2flt::lemire::eisel_lemire_wide::<#11bd57d74d267e9b>"
	ldurb	w8, [x29, #-48]
	ldur	x0, [x29, #-40]
	cbnz	w8, .LBB29_192
.LBB29_187:
	ldr	x1, [sp, #16]
	b	.LBB29_124
.LBB29_188:
	mov	w12, wzr
.LBB29_189:
	mov	x26, x14
	b	.LBB29_99
.LBB29_190:
	ldur	x8, [x29, #-32]
	str	x22, [sp, #280]
	mov	x22, x0
	mov	w1, wzr
	mov	w2, #584
	str	x8, [sp, #8]
	add	x8, sp, #280
	add	x0, x8, #8
	bl	memset
	mov	w8, #1
	add	x0, sp, #280
	mov	w1, wzr
	str	x8, [sp, #872]
	mov	x2, x23
	mov	x3, xzr
.LBB29_191:
	ldr	x5, [sp, #8]
	mov	x4, x22
	bl	"core::dec2flt::decimal::break_tie::<#1d521972340cebc2>"
	b	.LBB29_182
.LBB29_192:
	ldur	x8, [x29, #-32]
	str	x22, [sp, #280]
	mov	x22, x0
	mov	w1, wzr
	mov	w2, #584
	str	x8, [sp, #8]
	add	x8, sp, #280
	add	x0, x8, #8
	bl	memset
	mov	w8, #1
	add	x0, sp, #280
	mov	w1, wzr
	str	x8, [sp, #872]
	mov	x2, x23
	mov	x3, xzr
.LBB29_193:
	ldr	x5, [sp, #8]
	mov	x4, x22
	bl	"core::dec2flt::decimal::break_tie::<#11bd57d74d267e9b>"
	b	.LBB29_187
.LBB29_194:
	mov	w21, wzr
	b	.LBB29_197
.LBB29_195:
	ldr	x2, [sp, #24]
	add	x0, sp, #128
	mov	w1, w21
	stp	w27, w23, [sp, #128]
	str	x26, [sp, #136]
	bl	"amqp_json::printing::decimals::text_with"
	mov	w8, #1
	b	.LBB29_198
.LBB29_196:
	mov	w8, #1
	tbnz	w8, #0, .LBB29_195
.LBB29_197:
	mov	x8, xzr
	mov	x0, xzr
	mov	x1, xzr
.LBB29_198:
	ldr	x9, [sp, #32]
	stp	x8, x0, [x9]
	str	x1, [x9, #16]
	add	sp, sp, #912
	ldp	x20, x19, [sp, #96]
	ldp	x22, x21, [sp, #80]
	ldp	x24, x23, [sp, #64]
	ldp	x26, x25, [sp, #48]
	ldp	x28, x27, [sp, #32]
	ldp	x29, x30, [sp, #16]
	ldp	d9, d8, [sp], #112
	ret
.LBB29_199:
	brk	#0x1
.Lfunc_end29:
	.size	"amqp_json::printing::decimals::float_text", .Lfunc_end29-"amqp_json::printing::decimals::float_text"

	.section	".text.unlikely.core::dec2flt::long::from_long::<#11bd57d74d267e9b>","ax",@progbits
	.p2align	2
	.type	"core::dec2flt::long::from_long::<#11bd57d74d267e9b>",@function
"core::dec2flt::long::from_long::<#11bd57d74d267e9b>":
	stp	x29, x30, [sp, #-96]!
	stp	x28, x27, [sp, #16]
	mov	x29, sp
	stp	x26, x25, [sp, #32]
	stp	x24, x23, [sp, #48]
	stp	x22, x21, [sp, #64]
	stp	x20, x19, [sp, #80]
	sub	sp, sp, #1232
	mov	x10, xzr
	adds	x23, x3, x1
	str	xzr, [sp]
	b.eq	.LBB30_4
	sub	x8, x2, x1
.LBB30_2:
	add	x9, x0, x10
	add	x11, x8, x10
	cmp	x10, x1
	csel	x9, x9, x11, lo
	ldrb	w9, [x9]
	cmp	w9, #48
	b.ne	.LBB30_4
	add	x10, x10, #1
	cmp	x23, x10
	b.ne	.LBB30_2
	b	.LBB30_6
.LBB30_4:
	subs	x11, x23, x10
	b.eq	.LBB30_6
	adds	x22, x5, x3
	mov	w8, #19
	cset	w21, hs
	cmp	x11, #19
	csel	x12, x11, x8, lo
	sub	x8, x11, x12
	adds	x8, x4, x8
	cset	w9, hs
	adds	x8, x8, #342
	cinc	x9, x9, hs
	cmp	x8, x22
	sbcs	xzr, x9, x21
	b.hs	.LBB30_8
.LBB30_6:
	mov	x0, xzr
.LBB30_7:
	add	sp, sp, #1232
	ldp	x20, x19, [sp, #80]
	ldp	x22, x21, [sp, #64]
	ldp	x24, x23, [sp, #48]
	ldp	x26, x25, [sp, #32]
	ldp	x28, x27, [sp, #16]
	ldp	x29, x30, [sp], #96
	ret
.LBB30_8:
	subs	x8, x8, x22
	mov	w13, #650
	sbc	x9, x9, x21
	cmp	x13, x8
	ngcs	xzr, x9
	b.hs	.LBB30_10
	mov	w0, #2139095040
	b	.LBB30_7
.LBB30_10:
	sub	x13, x10, x1
	mov	x9, xzr
	add	x14, x0, x10
	add	x13, x2, x13
.LBB30_11:
	mov	w15, #10
	cmp	x10, x1
	add	x10, x10, #1
	mul	x9, x9, x15
	csel	x15, x14, x13, lo
	subs	x12, x12, #1
	ldrb	w15, [x15]
	add	x13, x13, #1
	add	x14, x14, #1
	sub	w15, w15, #48
	add	x9, x9, w15, uxtb
	b.ne	.LBB30_11
	adrp	x10, .Lstatic.25
	add	x10, x10, :lo12:.Lstatic.25
	clz	x13, x9
	add	x10, x10, x8, lsl #4
	lsl	x12, x9, x13
	mov	w14, #58980
	cmp	x11, #19
	add	x15, x13, #1162
	ldr	x10, [x10, #8]
	umulh	x12, x10, x12
	mov	w10, #21098
	movk	w10, #3, lsl #16
	madd	x10, x8, x10, x14
	lsr	x14, x12, #63
	add	x10, x14, x10, lsr #16
	add	x11, x10, #214
	cset	w10, hi
	subs	x11, x11, x15
	b.lo	.LBB30_15
	mov	x15, #-549755813888
	mov	x16, #274877906944
	lsl	x17, x10, x13
	lsl	x15, x15, x14
	lsl	x13, x16, x14
	add	x16, x17, #2
	bic	x15, x12, x15
	sub	x17, x13, x15
	cmp	x17, x16
	b.lo	.LBB30_15
	add	x8, x14, #39
	cmp	x13, x15
	mov	w9, #2139095040
	lsr	x8, x12, x8
	add	x8, x8, x11, lsl #23
	cinc	x8, x8, lo
	cmp	x8, x9
	csel	x0, x8, x9, lo
	b	.LBB30_7
.LBB30_15:
	mov	x28, x3
	mov	x25, x2
	mov	x26, x0
	mov	x27, x1
	mov	x0, sp
	mov	x1, x9
	mov	x2, x10
	mov	x3, x8
	mov	x24, x4
	bl	"core::dec2flt::lemire::eisel_lemire_wide::<#11bd57d74d267e9b>"
	ldrb	w8, [sp]
	ldr	x0, [sp, #8]
	cbz	w8, .LBB30_7
	ldr	x19, [sp, #16]
	mov	w8, #150
	subs	x8, x8, x19
	csel	x20, xzr, x8, lo
	adds	x9, x20, x24
	cset	w8, hs
	cmp	x9, x22
	sbcs	xzr, x8, x21
	b.hs	.LBB30_23
	subs	x9, x22, x9
	sbc	x8, x21, x8
	subs	x10, x23, x9
	ngcs	xzr, x8
	csel	x24, xzr, x10, lo
	cmp	x23, x24
	b.ls	.LBB30_25
	cmp	x9, x23
	mov	x13, x27
	mov	x14, x26
	sbcs	xzr, x8, xzr
	csel	x10, x9, x23, lo
	sub	x11, x28, x10
	add	x12, x25, x11
	mov	x11, x24
.LBB30_19:
	add	x15, x14, x11
	cmp	x11, x13
	csel	x15, x15, x12, lo
	ldrb	w15, [x15]
	cmp	w15, #48
	b.ne	.LBB30_22
	subs	x10, x10, #1
	add	x11, x11, #1
	add	x12, x12, #1
	b.ne	.LBB30_19
	mov	x11, x23
.LBB30_22:
	cmp	x11, x23
	mov	x21, x0
	cset	w22, lo
	b	.LBB30_26
.LBB30_23:
	mov	x20, x0
	add	x0, sp, #24
	mov	w1, wzr
	mov	w2, #600
	bl	memset
	mov	x8, x24
	cbnz	x23, .LBB30_38
.LBB30_24:
	subs	x9, x8, x22
	add	x0, sp, #24
	mov	w1, wzr
	ngcs	xzr, x21
	mov	x4, x20
	csel	x2, xzr, x9, lo
	subs	x8, x22, x8
	sbcs	xzr, x21, xzr
	csel	x3, xzr, x8, lo
	b	.LBB30_37
.LBB30_25:
	mov	x21, x0
	mov	w22, wzr
.LBB30_26:
	cmp	x9, x23
	add	x0, sp, #624
	mov	w1, wzr
	sbcs	xzr, x8, xzr
	mov	w2, #600
	cset	w23, hs
	bl	memset
	tbnz	w23, #0, .LBB30_36
	mov	x8, xzr
	sub	x9, x25, x27
	b	.LBB30_29
.LBB30_28:
	add	x8, x10, x8
	cmp	x8, x24
	b.hs	.LBB30_36
.LBB30_29:
	sub	x10, x24, x8
	mov	w12, #19
	mov	x11, xzr
	cmp	x10, #19
	add	x13, x9, x8
	add	x14, x26, x8
	csel	x10, x10, x12, lo
	adrp	x12, .Lstatic.24
	add	x12, x12, :lo12:.Lstatic.24
	ldr	x12, [x12, x10, lsl #3]
	mov	x15, x8
	mov	x16, x10
.LBB30_30:
	mov	w17, #10
	cmp	x15, x27
	add	x15, x15, #1
	mul	x11, x11, x17
	csel	x17, x14, x13, lo
	subs	x16, x16, #1
	ldrb	w17, [x17]
	add	x13, x13, #1
	add	x14, x14, #1
	sub	w17, w17, #48
	add	x11, x11, w17, uxtb
	b.ne	.LBB30_30
	ldr	x13, [sp, #1216]
	cbz	x13, .LBB30_34
	add	x14, sp, #624
	mov	x15, x13
.LBB30_33:
	ldr	x16, [x14]
	mul	x17, x16, x12
	umulh	x16, x16, x12
	adds	x17, x17, x11
	str	x17, [x14], #8
	cinc	x11, x16, hs
	subs	x15, x15, #1
	b.ne	.LBB30_33
.LBB30_34:
	cbz	x11, .LBB30_28
	add	x12, sp, #624
	add	x14, x13, #1
	str	x11, [x12, x13, lsl #3]
	str	x14, [sp, #1216]
	b	.LBB30_28
.LBB30_36:
	add	x0, sp, #624
	mov	w1, w22
	mov	x2, xzr
	mov	x3, x20
	mov	x4, x21
.LBB30_37:
	mov	x5, x19
	bl	"core::dec2flt::decimal::break_tie::<#11bd57d74d267e9b>"
	b	.LBB30_7
.LBB30_38:
	mov	x9, xzr
	sub	x10, x25, x27
	b	.LBB30_40
.LBB30_39:
	add	x9, x11, x9
	cmp	x9, x23
	b.hs	.LBB30_24
.LBB30_40:
	sub	x11, x23, x9
	mov	w13, #19
	mov	x12, xzr
	cmp	x11, #19
	add	x14, x10, x9
	add	x15, x26, x9
	csel	x11, x11, x13, lo
	adrp	x13, .Lstatic.24
	add	x13, x13, :lo12:.Lstatic.24
	ldr	x13, [x13, x11, lsl #3]
	mov	x16, x9
	mov	x17, x11
.LBB30_41:
	mov	w18, #10
	cmp	x16, x27
	add	x16, x16, #1
	mul	x12, x12, x18
	csel	x18, x15, x14, lo
	subs	x17, x17, #1
	ldrb	w18, [x18]
	add	x14, x14, #1
	add	x15, x15, #1
	sub	w18, w18, #48
	add	x12, x12, w18, uxtb
	b.ne	.LBB30_41
	ldr	x14, [sp, #616]
	cbz	x14, .LBB30_45
	add	x15, sp, #24
	mov	x16, x14
.LBB30_44:
	ldr	x17, [x15]
	mul	x18, x17, x13
	umulh	x17, x17, x13
	adds	x18, x18, x12
	str	x18, [x15], #8
	cinc	x12, x17, hs
	subs	x16, x16, #1
	b.ne	.LBB30_44
.LBB30_45:
	cbz	x12, .LBB30_39
	add	x13, sp, #24
	add	x15, x14, #1
	str	x12, [x13, x14, lsl #3]
	str	x15, [sp, #616]
	b	.LBB30_39
.Lfunc_end30:
	.size	"core::dec2flt::long::from_long::<#11bd57d74d267e9b>", .Lfunc_end30-"core::dec2flt::long::from_long::<#11bd57d74d267e9b>"

	.section	".text.unlikely.core::dec2flt::lemire::eisel_lemire_wide::<#11bd57d74d267e9b>","ax",@progbits
	.p2align	2
	.type	"core::dec2flt::lemire::eisel_lemire_wide::<#11bd57d74d267e9b>",@function
"core::dec2flt::lemire::eisel_lemire_wide::<#11bd57d74d267e9b>":
	adrp	x9, .Lstatic.25
	add	x9, x9, :lo12:.Lstatic.25
	mov	w15, #58980
	add	x11, x9, x3, lsl #4
	clz	x9, x1
	mov	x10, xzr
	lsl	x12, x1, x9
	add	x16, x9, #1162
	mov	x8, xzr
	ldp	x11, x13, [x11]
	mul	x14, x13, x12
	umulh	x11, x11, x12
	umulh	x12, x13, x12
	mov	w13, #21098
	movk	w13, #3, lsl #16
	madd	x13, x3, x13, x15
	adds	x14, x11, x14
	cinc	x15, x12, hs
	lsr	x11, x15, #63
	add	x12, x11, x13, lsr #16
	add	x13, x12, #214
	subs	x12, x16, x13
	csel	x12, xzr, x12, lo
	add	x11, x11, x12
	add	x12, x11, #101
	subs	x11, x13, x16
	mov	x13, xzr
	csel	x11, xzr, x11, lo
	cmp	x12, #127
	b.hi	.LBB31_3
	lsr	x16, x15, #2
	extr	x10, x15, x14, #2
	mvn	w13, w12
	mov	x14, #-1
	mov	x15, #9223372036854775807
	tst	x12, #0x40
	lsl	x8, x16, #1
	lsr	x17, x10, x12
	lsl	x14, x14, x12
	lsl	x8, x8, x13
	lsr	x13, x15, x13
	lsr	x15, x16, x12
	sub	x12, x12, #1
	orr	x8, x8, x17
	mov	w17, #1
	orr	x13, x14, x13
	csel	x8, x15, x8, ne
	lsl	x15, x17, x12
	csel	x17, x14, x13, ne
	csel	x13, xzr, x14, ne
	tst	x12, #0x40
	bic	x12, x16, x17
	bic	x10, x10, x13
	csel	x13, xzr, x15, ne
	csel	x14, x15, xzr, ne
	cmp	x13, x10
	sbcs	xzr, x14, x12
	b.hs	.LBB31_4
	add	x8, x8, x11, lsl #23
	mov	w11, #2139095040
	mov	x10, xzr
	mov	x13, xzr
	add	x9, x8, #1
	cmp	x9, x11
	csinc	x8, x11, x8, hs
.LBB31_3:
	stp	x10, x8, [x0]
	str	x13, [x0, #16]
	ret
.LBB31_4:
	lsl	x9, x2, x9
	mov	w15, #2
	subs	x10, x13, x10
	sbc	x12, x14, x12
	orr	x15, x15, x9, lsl #62
	lsr	x9, x9, #2
	cmp	x10, x15
	sbcs	xzr, x12, x9
	b.hs	.LBB31_6
	mov	w10, #1
	stp	x10, x8, [x0]
	str	x11, [x0, #16]
	ret
.LBB31_6:
	add	x8, x8, x11, lsl #23
	mov	w9, #2139095040
	cmp	x8, x9
	csel	x8, x8, x9, lo
	stp	xzr, x8, [x0]
	str	xzr, [x0, #16]
	ret
.Lfunc_end31:
	.size	"core::dec2flt::lemire::eisel_lemire_wide::<#11bd57d74d267e9b>", .Lfunc_end31-"core::dec2flt::lemire::eisel_lemire_wide::<#11bd57d74d267e9b>"

	.section	".text.unlikely.core::dec2flt::decimal::break_tie::<#11bd57d74d267e9b>","ax",@progbits
	.p2align	2
	.type	"core::dec2flt::decimal::break_tie::<#11bd57d74d267e9b>",@function
"core::dec2flt::decimal::break_tie::<#11bd57d74d267e9b>":
	stp	x29, x30, [sp, #-80]!
	str	x28, [sp, #16]
	mov	x29, sp
	stp	x24, x23, [sp, #32]
	stp	x22, x21, [sp, #48]
	stp	x20, x19, [sp, #64]
	sub	sp, sp, #1200
	mov	x23, x2
	mov	w21, w1
	mov	x1, x0
	add	x0, sp, #600
	mov	w2, #600
	str	xzr, [sp]
	mov	x19, x5
	mov	x20, x4
	mov	x22, x3
	bl	memcpy
	subs	x8, x23, #20
	b.lo	.LBB32_9
	ldr	x9, [sp, #1192]
	cbz	x9, .LBB32_27
	mov	x8, #2313682944
	movk	x8, #8964, lsl #32
	movk	x8, #35527, lsl #48
	cbnz	x9, .LBB32_4
	b	.LBB32_8
.LBB32_3:
	ldr	x9, [sp, #1192]
	cbz	x9, .LBB32_8
.LBB32_4:
	mov	x10, xzr
	add	x11, sp, #600
	mov	x12, x9
.LBB32_5:
	ldr	x13, [x11]
	mul	x14, x13, x8
	umulh	x13, x13, x8
	adds	x14, x14, x10
	str	x14, [x11], #8
	cinc	x10, x13, hs
	subs	x12, x12, #1
	b.ne	.LBB32_5
	cbz	x10, .LBB32_8
	add	x11, sp, #600
	add	x12, x9, #1
	str	x10, [x11, x9, lsl #3]
	str	x12, [sp, #1192]
.LBB32_8:
	sub	x23, x23, #19
	cmp	x23, #19
	b.hi	.LBB32_3
.LBB32_9:
	ldr	x9, [sp, #1192]
	adrp	x24, .Lstatic.24
	add	x24, x24, :lo12:.Lstatic.24
	cbz	x9, .LBB32_28
.LBB32_10:
	ldr	x8, [x24, x23, lsl #3]
	mov	x10, xzr
	add	x11, sp, #600
	mov	x12, x9
.LBB32_11:
	ldr	x13, [x11]
	mul	x14, x13, x8
	umulh	x13, x13, x8
	adds	x14, x14, x10
	str	x14, [x11], #8
	cinc	x10, x13, hs
	subs	x12, x12, #1
	b.ne	.LBB32_11
	cbz	x10, .LBB32_14
	add	x11, sp, #600
	add	x8, x9, #1
	str	x10, [x11, x9, lsl #3]
	str	x8, [sp, #1192]
	mov	w9, #150
	subs	x9, x9, x19
	csel	x9, xzr, x9, lo
	cmp	x9, #64
	b.hs	.LBB32_15
	b	.LBB32_22
.LBB32_14:
	ldr	x8, [sp, #1192]
	mov	w9, #150
	subs	x9, x9, x19
	csel	x9, xzr, x9, lo
	cmp	x9, #64
	b.lo	.LBB32_22
.LBB32_15:
	cbnz	x8, .LBB32_17
	b	.LBB32_28
.LBB32_16:
	sub	x9, x9, #63
	ldr	x8, [sp, #1192]
	cmp	x9, #63
	b.ls	.LBB32_22
.LBB32_17:
	cbz	x8, .LBB32_16
	mov	x10, xzr
	add	x11, sp, #600
	mov	x12, x8
.LBB32_19:
	ldr	x13, [x11]
	subs	x12, x12, #1
	orr	x14, x10, x13, lsl #63
	lsr	x10, x13, #1
	str	x14, [x11], #8
	b.ne	.LBB32_19
	cbz	x10, .LBB32_16
	add	x11, sp, #600
	add	x12, x8, #1
	str	x10, [x11, x8, lsl #3]
	str	x12, [sp, #1192]
	b	.LBB32_16
.LBB32_22:
	cbz	x8, .LBB32_28
	mov	x10, xzr
	add	x11, sp, #600
	mov	x12, x8
.LBB32_24:
	ldr	x13, [x11]
	mvn	w15, w9
	tst	x9, #0x40
	lsr	x14, x13, #1
	lsl	x13, x13, x9
	lsr	x14, x14, x15
	csel	x15, xzr, x13, ne
	csel	x13, x13, x14, ne
	adds	x14, x15, x10
	cinc	x10, x13, hs
	subs	x12, x12, #1
	str	x14, [x11], #8
	b.ne	.LBB32_24
	cbz	x10, .LBB32_28
	add	x9, sp, #600
	add	x11, x8, #1
	str	x10, [x9, x8, lsl #3]
	str	x11, [sp, #1192]
	b	.LBB32_28
.LBB32_27:
	mov	x9, #17247
	mov	w10, #19
	movk	x9, #3449, lsl #16
	movk	x9, #13797, lsl #32
	movk	x9, #55188, lsl #48
	umulh	x9, x8, x9
	lsr	x9, x9, #4
	msub	x8, x9, x10, x8
	add	x23, x8, #1
	ldr	x9, [sp, #1192]
	adrp	x24, .Lstatic.24
	add	x24, x24, :lo12:.Lstatic.24
	cbnz	x9, .LBB32_10
.LBB32_28:
	mov	w23, #1
	mov	w1, wzr
	mov	w2, #584
	orr	x8, x23, x20, lsl #1
	str	x8, [sp]
	mov	x8, sp
	add	x0, x8, #8
	bl	memset
	cmp	x22, #20
	str	x23, [sp, #592]
	b.lo	.LBB32_37
	mov	x8, #2313682944
	mov	w23, #1
	movk	x8, #8964, lsl #32
	movk	x8, #35527, lsl #48
	b	.LBB32_31
.LBB32_30:
	sub	x22, x22, #19
	ldr	x23, [sp, #592]
	cmp	x22, #19
	b.ls	.LBB32_36
.LBB32_31:
	cbz	x23, .LBB32_30
	mov	x9, xzr
	mov	x10, sp
	mov	x11, x23
.LBB32_33:
	ldr	x12, [x10]
	mul	x13, x12, x8
	umulh	x12, x12, x8
	adds	x13, x13, x9
	str	x13, [x10], #8
	cinc	x9, x12, hs
	subs	x11, x11, #1
	b.ne	.LBB32_33
	cbz	x9, .LBB32_30
	mov	x10, sp
	add	x11, x23, #1
	str	x9, [x10, x23, lsl #3]
	str	x11, [sp, #592]
	b	.LBB32_30
.LBB32_36:
	cbz	x23, .LBB32_54
.LBB32_37:
	ldr	x8, [x24, x22, lsl #3]
	mov	x9, xzr
	mov	x10, sp
	mov	x11, x23
.LBB32_38:
	ldr	x12, [x10]
	mul	x13, x12, x8
	umulh	x12, x12, x8
	adds	x13, x13, x9
	str	x13, [x10], #8
	cinc	x9, x12, hs
	subs	x11, x11, #1
	b.ne	.LBB32_38
	cbz	x9, .LBB32_41
	mov	x10, sp
	add	x8, x23, #1
	str	x9, [x10, x23, lsl #3]
	str	x8, [sp, #592]
	subs	x9, x19, #150
	csel	x9, xzr, x9, lo
	cmp	x9, #64
	b.hs	.LBB32_42
	b	.LBB32_49
.LBB32_41:
	ldr	x8, [sp, #592]
	subs	x9, x19, #150
	csel	x9, xzr, x9, lo
	cmp	x9, #64
	b.lo	.LBB32_49
.LBB32_42:
	cbnz	x8, .LBB32_44
	b	.LBB32_54
.LBB32_43:
	sub	x9, x9, #63
	ldr	x8, [sp, #592]
	cmp	x9, #63
	b.ls	.LBB32_49
.LBB32_44:
	cbz	x8, .LBB32_43
	mov	x10, xzr
	mov	x11, sp
	mov	x12, x8
.LBB32_46:
	ldr	x13, [x11]
	subs	x12, x12, #1
	orr	x14, x10, x13, lsl #63
	lsr	x10, x13, #1
	str	x14, [x11], #8
	b.ne	.LBB32_46
	cbz	x10, .LBB32_43
	mov	x11, sp
	add	x12, x8, #1
	str	x10, [x11, x8, lsl #3]
	str	x12, [sp, #592]
	b	.LBB32_43
.LBB32_49:
	cbz	x8, .LBB32_54
	mov	x10, xzr
	mov	x11, sp
	mov	x12, x8
.LBB32_51:
	ldr	x13, [x11]
	mvn	w15, w9
	tst	x9, #0x40
	lsr	x14, x13, #1
	lsl	x13, x13, x9
	lsr	x14, x14, x15
	csel	x15, xzr, x13, ne
	csel	x13, x13, x14, ne
	adds	x14, x15, x10
	cinc	x10, x13, hs
	subs	x12, x12, #1
	str	x14, [x11], #8
	b.ne	.LBB32_51
	cbz	x10, .LBB32_55
	mov	x11, sp
	add	x9, x8, #1
	str	x10, [x11, x8, lsl #3]
	str	x9, [sp, #592]
	b	.LBB32_56
.LBB32_54:
	mov	x9, xzr
	b	.LBB32_56
.LBB32_55:
	ldr	x9, [sp, #592]
.LBB32_56:
	ldr	x8, [sp, #1192]
	mov	x10, sp
	add	x11, sp, #600
	cmp	x9, x8
	csel	x8, x9, x8, hi
	sub	x9, x10, #8
	sub	x10, x11, #8
.LBB32_57:
	cbz	x8, .LBB32_60
	ldr	x11, [x10, x8, lsl #3]
	ldr	x12, [x9, x8, lsl #3]
	cmp	x11, x12
	b.lo	.LBB32_62
	cmp	x12, x11
	sub	x8, x8, #1
	b.hs	.LBB32_57
	b	.LBB32_61
.LBB32_60:
	cbz	w21, .LBB32_63
.LBB32_61:
	add	x8, x20, x19, lsl #23
	mov	w10, #2139095040
	add	x9, x8, #1
	cmp	x9, x10
	csinc	x0, x10, x8, hs
	b	.LBB32_65
.LBB32_62:
	add	x8, x20, x19, lsl #23
	b	.LBB32_64
.LBB32_63:
	and	x8, x20, #0x1
	add	x8, x8, x20
	add	x8, x8, x19, lsl #23
.LBB32_64:
	mov	w9, #2139095040
	cmp	x8, x9
	csel	x0, x8, x9, lo
.LBB32_65:
	add	sp, sp, #1200
	ldp	x20, x19, [sp, #64]
	ldr	x28, [sp, #16]
	ldp	x22, x21, [sp, #48]
	ldp	x24, x23, [sp, #32]
	ldp	x29, x30, [sp], #80
	ret
.Lfunc_end32:
	.size	"core::dec2flt::decimal::break_tie::<#11bd57d74d267e9b>", .Lfunc_end32-"core::dec2flt::decimal::break_tie::<#11bd57d74d267e9b>"

	.section	".text.unlikely.core::dec2flt::words::read_word::<#11bd57d74d267e9b>","ax",@progbits
	.p2align	2
	.type	"core::dec2flt::words::read_word::<#11bd57d74d267e9b>",@function
"core::dec2flt::words::read_word::<#11bd57d74d267e9b>":
	mov	w8, #2139095040
	mov	w9, #-8388608
	cmp	w3, #0
	fmov	s0, w8
	fmov	s1, w9
	fcsel	s0, s1, s0, ne
	cmp	x2, #8
	b.hs	.LBB33_3
	cmp	x2, #3
	b.hs	.LBB33_12
	movi	d1, #0000000000000000
	str	xzr, [x0]
	str	s1, [x0, #8]
	str	wzr, [x0, #12]
	str	xzr, [x0, #16]
	ret
.LBB33_3:
	ldrb	w8, [x1]
	sub	w9, w8, #65
	add	w10, w8, #32
	cmp	w9, #26
	csel	w8, w10, w8, lo
	cmp	w8, #105
	b.ne	.LBB33_12
	ldrb	w8, [x1, #1]
	sub	w9, w8, #65
	add	w10, w8, #32
	cmp	w9, #26
	csel	w8, w10, w8, lo
	cmp	w8, #110
	b.ne	.LBB33_12
	ldrb	w8, [x1, #2]
	sub	w9, w8, #65
	add	w10, w8, #32
	cmp	w9, #26
	csel	w8, w10, w8, lo
	cmp	w8, #102
	b.ne	.LBB33_12
	ldrb	w8, [x1, #3]
	sub	w9, w8, #65
	add	w10, w8, #32
	cmp	w9, #26
	csel	w8, w10, w8, lo
	cmp	w8, #105
	b.ne	.LBB33_12
	ldrb	w8, [x1, #4]
	sub	w9, w8, #65
	add	w10, w8, #32
	cmp	w9, #26
	csel	w8, w10, w8, lo
	cmp	w8, #110
	b.ne	.LBB33_12
	ldrb	w8, [x1, #5]
	sub	w9, w8, #65
	add	w10, w8, #32
	cmp	w9, #26
	csel	w8, w10, w8, lo
	cmp	w8, #105
	b.ne	.LBB33_12
	ldrb	w8, [x1, #6]
	sub	w9, w8, #65
	add	w10, w8, #32
	cmp	w9, #26
	csel	w8, w10, w8, lo
	cmp	w8, #116
	b.ne	.LBB33_12
	ldrb	w8, [x1, #7]
	sub	w9, w8, #65
	add	w10, w8, #32
	cmp	w9, #26
	csel	w8, w10, w8, lo
	cmp	w8, #121
	b.ne	.LBB33_12
	mov	w9, #1
	mov	w8, #8
	fmov	s1, s0
	str	x9, [x0]
	str	s1, [x0, #8]
	str	wzr, [x0, #12]
	str	x8, [x0, #16]
	ret
.LBB33_12:
	ldrb	w8, [x1]
	movi	d1, #0000000000000000
	sub	w9, w8, #65
	add	w10, w8, #32
	cmp	w9, #26
	csel	w8, w10, w8, lo
	cmp	w8, #110
	b.eq	.LBB33_17
	cmp	w8, #105
	b.ne	.LBB33_20
	ldrb	w8, [x1, #1]
	sub	w9, w8, #65
	add	w10, w8, #32
	cmp	w9, #26
	csel	w8, w10, w8, lo
	cmp	w8, #110
	b.ne	.LBB33_20
	ldrb	w8, [x1, #2]
	sub	w9, w8, #65
	add	w10, w8, #32
	cmp	w9, #26
	csel	w8, w10, w8, lo
	cmp	w8, #102
	b.ne	.LBB33_20
	mov	w9, #1
	mov	w8, #3
	fmov	s1, s0
	str	x9, [x0]
	str	s1, [x0, #8]
	str	wzr, [x0, #12]
	str	x8, [x0, #16]
	ret
.LBB33_17:
	ldrb	w8, [x1, #1]
	sub	w9, w8, #65
	add	w10, w8, #32
	cmp	w9, #26
	csel	w8, w10, w8, lo
	cmp	w8, #97
	b.ne	.LBB33_20
	ldrb	w8, [x1, #2]
	sub	w9, w8, #65
	add	w10, w8, #32
	cmp	w9, #26
	csel	w8, w10, w8, lo
	cmp	w8, #110
	b.ne	.LBB33_20
	mov	w8, #2143289344
	mov	w9, #-4194304
	cmp	w3, #0
	fmov	s0, w8
	fmov	s1, w9
	mov	w9, #1
	mov	w8, #3
	fcsel	s1, s1, s0, ne
	str	x9, [x0]
	str	s1, [x0, #8]
	str	wzr, [x0, #12]
	str	x8, [x0, #16]
	ret
.LBB33_20:
	str	xzr, [x0]
	str	s1, [x0, #8]
	str	wzr, [x0, #12]
	str	xzr, [x0, #16]
	ret
.Lfunc_end33:
	.size	"core::dec2flt::words::read_word::<#11bd57d74d267e9b>", .Lfunc_end33-"core::dec2flt::words::read_word::<#11bd57d74d267e9b>"

	.section	".text.unlikely.core::dec2flt::long::from_long::<#1d521972340cebc2>","ax",@progbits
	.p2align	2
	.type	"core::dec2flt::long::from_long::<#1d521972340cebc2>",@function
"core::dec2flt::long::from_long::<#1d521972340cebc2>":
	stp	x29, x30, [sp, #-96]!
	stp	x28, x27, [sp, #16]
	mov	x29, sp
	stp	x26, x25, [sp, #32]
	stp	x24, x23, [sp, #48]
	stp	x22, x21, [sp, #64]
	stp	x20, x19, [sp, #80]
	sub	sp, sp, #1232
	mov	x10, xzr
	adds	x23, x3, x1
	str	xzr, [sp]
	b.eq	.LBB34_4
	sub	x8, x2, x1
.LBB34_2:
	add	x9, x0, x10
	add	x11, x8, x10
	cmp	x10, x1
	csel	x9, x9, x11, lo
	ldrb	w9, [x9]
	cmp	w9, #48
	b.ne	.LBB34_4
	add	x10, x10, #1
	cmp	x23, x10
	b.ne	.LBB34_2
	b	.LBB34_6
.LBB34_4:
	subs	x11, x23, x10
	b.eq	.LBB34_6
	adds	x22, x5, x3
	mov	w8, #19
	cset	w21, hs
	cmp	x11, #19
	csel	x12, x11, x8, lo
	sub	x8, x11, x12
	adds	x8, x4, x8
	cset	w9, hs
	adds	x8, x8, #342
	cinc	x9, x9, hs
	cmp	x8, x22
	sbcs	xzr, x9, x21
	b.hs	.LBB34_8
.LBB34_6:
	mov	x0, xzr
.LBB34_7:
	add	sp, sp, #1232
	ldp	x20, x19, [sp, #80]
	ldp	x22, x21, [sp, #64]
	ldp	x24, x23, [sp, #48]
	ldp	x26, x25, [sp, #32]
	ldp	x28, x27, [sp, #16]
	ldp	x29, x30, [sp], #96
	ret
.LBB34_8:
	subs	x8, x8, x22
	mov	w13, #650
	sbc	x9, x9, x21
	cmp	x13, x8
	ngcs	xzr, x9
	b.hs	.LBB34_10
	mov	x0, #9218868437227405312
	b	.LBB34_7
.LBB34_10:
	sub	x13, x10, x1
	mov	x9, xzr
	add	x14, x0, x10
	add	x13, x2, x13
.LBB34_11:
	mov	w15, #10
	cmp	x10, x1
	add	x10, x10, #1
	mul	x9, x9, x15
	csel	x15, x14, x13, lo
	subs	x12, x12, #1
	ldrb	w15, [x15]
	add	x13, x13, #1
	add	x14, x14, #1
	sub	w15, w15, #48
	add	x9, x9, w15, uxtb
	b.ne	.LBB34_11
	adrp	x10, .Lstatic.25
	add	x10, x10, :lo12:.Lstatic.25
	clz	x15, x9
	add	x10, x10, x8, lsl #4
	lsl	x12, x9, x15
	mov	w13, #58980
	cmp	x11, #19
	add	x14, x15, #1191
	ldr	x10, [x10, #8]
	umulh	x12, x10, x12
	mov	w10, #21098
	movk	w10, #3, lsl #16
	madd	x10, x8, x10, x13
	lsr	x13, x12, #63
	add	x10, x13, x10, lsr #16
	add	x11, x10, #1139
	cset	w10, hi
	cmp	x11, x14
	b.lo	.LBB34_15
	mov	x16, #-1024
	mov	w17, #512
	lsl	x18, x10, x15
	lsl	x16, x16, x13
	lsl	x15, x17, x13
	add	x17, x18, #2
	bic	x16, x12, x16
	sub	x18, x15, x16
	cmp	x18, x17
	b.lo	.LBB34_15
	mov	w8, #10
	sub	w9, w11, w14
	cmp	x15, x16
	orr	x8, x13, x8
	lsr	x8, x12, x8
	add	x8, x8, x9, lsl #52
	mov	x9, #9218868437227405312
	cinc	x8, x8, lo
	cmp	x8, x9
	csel	x0, x8, x9, lo
	b	.LBB34_7
.LBB34_15:
	mov	x28, x3
	mov	x25, x2
	mov	x26, x0
	mov	x27, x1
	mov	x0, sp
	mov	x1, x9
	mov	x2, x10
	mov	x3, x8
	mov	x24, x4
	bl	"core::dec2flt::lemire::eisel_lemire_wide::<#1d521972340cebc2>"
	ldrb	w8, [sp]
	ldr	x0, [sp, #8]
	cbz	w8, .LBB34_7
	ldr	x19, [sp, #16]
	mov	w8, #1075
	subs	x8, x8, x19
	csel	x20, xzr, x8, lo
	adds	x9, x20, x24
	cset	w8, hs
	cmp	x9, x22
	sbcs	xzr, x8, x21
	b.hs	.LBB34_23
	subs	x9, x22, x9
	sbc	x8, x21, x8
	subs	x10, x23, x9
	ngcs	xzr, x8
	csel	x24, xzr, x10, lo
	cmp	x23, x24
	b.ls	.LBB34_25
	cmp	x9, x23
	mov	x13, x27
	mov	x14, x26
	sbcs	xzr, x8, xzr
	csel	x10, x9, x23, lo
	sub	x11, x28, x10
	add	x12, x25, x11
	mov	x11, x24
.LBB34_19:
	add	x15, x14, x11
	cmp	x11, x13
	csel	x15, x15, x12, lo
	ldrb	w15, [x15]
	cmp	w15, #48
	b.ne	.LBB34_22
	subs	x10, x10, #1
	add	x11, x11, #1
	add	x12, x12, #1
	b.ne	.LBB34_19
	mov	x11, x23
.LBB34_22:
	cmp	x11, x23
	mov	x21, x0
	cset	w22, lo
	b	.LBB34_26
.LBB34_23:
	mov	x20, x0
	add	x0, sp, #24
	mov	w1, wzr
	mov	w2, #600
	bl	memset
	mov	x8, x24
	cbnz	x23, .LBB34_38
.LBB34_24:
	subs	x9, x8, x22
	add	x0, sp, #24
	mov	w1, wzr
	ngcs	xzr, x21
	mov	x4, x20
	csel	x2, xzr, x9, lo
	subs	x8, x22, x8
	sbcs	xzr, x21, xzr
	csel	x3, xzr, x8, lo
	b	.LBB34_37
.LBB34_25:
	mov	x21, x0
	mov	w22, wzr
.LBB34_26:
	cmp	x9, x23
	add	x0, sp, #624
	mov	w1, wzr
	sbcs	xzr, x8, xzr
	mov	w2, #600
	cset	w23, hs
	bl	memset
	tbnz	w23, #0, .LBB34_36
	mov	x8, xzr
	sub	x9, x25, x27
	b	.LBB34_29
.LBB34_28:
	add	x8, x10, x8
	cmp	x8, x24
	b.hs	.LBB34_36
.LBB34_29:
	sub	x10, x24, x8
	mov	w12, #19
	mov	x11, xzr
	cmp	x10, #19
	add	x13, x9, x8
	add	x14, x26, x8
	csel	x10, x10, x12, lo
	adrp	x12, .Lstatic.24
	add	x12, x12, :lo12:.Lstatic.24
	ldr	x12, [x12, x10, lsl #3]
	mov	x15, x8
	mov	x16, x10
.LBB34_30:
	mov	w17, #10
	cmp	x15, x27
	add	x15, x15, #1
	mul	x11, x11, x17
	csel	x17, x14, x13, lo
	subs	x16, x16, #1
	ldrb	w17, [x17]
	add	x13, x13, #1
	add	x14, x14, #1
	sub	w17, w17, #48
	add	x11, x11, w17, uxtb
	b.ne	.LBB34_30
	ldr	x13, [sp, #1216]
	cbz	x13, .LBB34_34
	add	x14, sp, #624
	mov	x15, x13
.LBB34_33:
	ldr	x16, [x14]
	mul	x17, x16, x12
	umulh	x16, x16, x12
	adds	x17, x17, x11
	str	x17, [x14], #8
	cinc	x11, x16, hs
	subs	x15, x15, #1
	b.ne	.LBB34_33
.LBB34_34:
	cbz	x11, .LBB34_28
	add	x12, sp, #624
	add	x14, x13, #1
	str	x11, [x12, x13, lsl #3]
	str	x14, [sp, #1216]
	b	.LBB34_28
.LBB34_36:
	add	x0, sp, #624
	mov	w1, w22
	mov	x2, xzr
	mov	x3, x20
	mov	x4, x21
.LBB34_37:
	mov	x5, x19
	bl	"core::dec2flt::decimal::break_tie::<#1d521972340cebc2>"
	b	.LBB34_7
.LBB34_38:
	mov	x9, xzr
	sub	x10, x25, x27
	b	.LBB34_40
.LBB34_39:
	add	x9, x11, x9
	cmp	x9, x23
	b.hs	.LBB34_24
.LBB34_40:
	sub	x11, x23, x9
	mov	w13, #19
	mov	x12, xzr
	cmp	x11, #19
	add	x14, x10, x9
	add	x15, x26, x9
	csel	x11, x11, x13, lo
	adrp	x13, .Lstatic.24
	add	x13, x13, :lo12:.Lstatic.24
	ldr	x13, [x13, x11, lsl #3]
	mov	x16, x9
	mov	x17, x11
.LBB34_41:
	mov	w18, #10
	cmp	x16, x27
	add	x16, x16, #1
	mul	x12, x12, x18
	csel	x18, x15, x14, lo
	subs	x17, x17, #1
	ldrb	w18, [x18]
	add	x14, x14, #1
	add	x15, x15, #1
	sub	w18, w18, #48
	add	x12, x12, w18, uxtb
	b.ne	.LBB34_41
	ldr	x14, [sp, #616]
	cbz	x14, .LBB34_45
	add	x15, sp, #24
	mov	x16, x14
.LBB34_44:
	ldr	x17, [x15]
	mul	x18, x17, x13
	umulh	x17, x17, x13
	adds	x18, x18, x12
	str	x18, [x15], #8
	cinc	x12, x17, hs
	subs	x16, x16, #1
	b.ne	.LBB34_44
.LBB34_45:
	cbz	x12, .LBB34_39
	add	x13, sp, #24
	add	x15, x14, #1
	str	x12, [x13, x14, lsl #3]
	str	x15, [sp, #616]
	b	.LBB34_39
.Lfunc_end34:
	.size	"core::dec2flt::long::from_long::<#1d521972340cebc2>", .Lfunc_end34-"core::dec2flt::long::from_long::<#1d521972340cebc2>"

	.section	".text.unlikely.core::dec2flt::lemire::eisel_lemire_wide::<#1d521972340cebc2>","ax",@progbits
	.p2align	2
	.type	"core::dec2flt::lemire::eisel_lemire_wide::<#1d521972340cebc2>",@function
"core::dec2flt::lemire::eisel_lemire_wide::<#1d521972340cebc2>":
	adrp	x9, .Lstatic.25
	add	x9, x9, :lo12:.Lstatic.25
	mov	w15, #58980
	add	x10, x9, x3, lsl #4
	clz	x9, x1
	mov	x11, xzr
	lsl	x12, x1, x9
	add	x16, x9, #1191
	mov	x8, xzr
	ldp	x10, x13, [x10]
	mul	x14, x13, x12
	umulh	x10, x10, x12
	umulh	x12, x13, x12
	mov	w13, #21098
	movk	w13, #3, lsl #16
	madd	x13, x3, x13, x15
	adds	x14, x10, x14
	cinc	x15, x12, hs
	lsr	x10, x15, #63
	add	x12, x10, x13, lsr #16
	add	x13, x12, #1139
	subs	x12, x16, x13
	csel	x12, xzr, x12, lo
	add	x10, x12, x10
	add	x12, x10, #72
	subs	x10, x13, x16
	mov	x13, xzr
	csel	x10, xzr, x10, lo
	cmp	x12, #127
	b.hi	.LBB35_3
	lsr	x16, x15, #2
	extr	x11, x15, x14, #2
	mvn	w13, w12
	mov	x14, #-1
	mov	x15, #9223372036854775807
	tst	x12, #0x40
	lsl	x8, x16, #1
	lsr	x17, x11, x12
	lsl	x14, x14, x12
	lsl	x8, x8, x13
	lsr	x13, x15, x13
	lsr	x15, x16, x12
	sub	x12, x12, #1
	orr	x8, x8, x17
	mov	w17, #1
	orr	x13, x14, x13
	csel	x8, x15, x8, ne
	lsl	x15, x17, x12
	csel	x17, x14, x13, ne
	csel	x13, xzr, x14, ne
	tst	x12, #0x40
	bic	x12, x16, x17
	bic	x11, x11, x13
	csel	x13, xzr, x15, ne
	csel	x14, x15, xzr, ne
	cmp	x13, x11
	sbcs	xzr, x14, x12
	b.hs	.LBB35_4
	add	x8, x8, x10, lsl #52
	mov	x10, #9218868437227405312
	mov	x11, xzr
	mov	x13, xzr
	add	x9, x8, #1
	cmp	x9, x10
	csinc	x8, x10, x8, hs
.LBB35_3:
	stp	x11, x8, [x0]
	str	x13, [x0, #16]
	ret
.LBB35_4:
	lsl	x9, x2, x9
	mov	w15, #2
	subs	x11, x13, x11
	sbc	x12, x14, x12
	orr	x15, x15, x9, lsl #62
	lsr	x9, x9, #2
	cmp	x11, x15
	sbcs	xzr, x12, x9
	b.hs	.LBB35_6
	mov	w11, #1
	stp	x11, x8, [x0]
	str	x10, [x0, #16]
	ret
.LBB35_6:
	add	x8, x8, x10, lsl #52
	mov	x9, #9218868437227405312
	cmp	x8, x9
	csel	x8, x8, x9, lo
	stp	xzr, x8, [x0]
	str	xzr, [x0, #16]
	ret
.Lfunc_end35:
	.size	"core::dec2flt::lemire::eisel_lemire_wide::<#1d521972340cebc2>", .Lfunc_end35-"core::dec2flt::lemire::eisel_lemire_wide::<#1d521972340cebc2>"

	.section	".text.unlikely.core::dec2flt::decimal::break_tie::<#1d521972340cebc2>","ax",@progbits
	.p2align	2
	.type	"core::dec2flt::decimal::break_tie::<#1d521972340cebc2>",@function
"core::dec2flt::decimal::break_tie::<#1d521972340cebc2>":
	stp	x29, x30, [sp, #-80]!
	str	x28, [sp, #16]
	mov	x29, sp
	stp	x24, x23, [sp, #32]
	stp	x22, x21, [sp, #48]
	stp	x20, x19, [sp, #64]
	sub	sp, sp, #1200
	mov	x23, x2
	mov	w21, w1
	mov	x1, x0
	add	x0, sp, #600
	mov	w2, #600
	str	xzr, [sp]
	mov	x19, x5
	mov	x20, x4
	mov	x22, x3
	bl	memcpy
	subs	x8, x23, #20
	b.lo	.LBB36_9
	ldr	x9, [sp, #1192]
	cbz	x9, .LBB36_27
	mov	x8, #2313682944
	movk	x8, #8964, lsl #32
	movk	x8, #35527, lsl #48
	cbnz	x9, .LBB36_4
	b	.LBB36_8
.LBB36_3:
	ldr	x9, [sp, #1192]
	cbz	x9, .LBB36_8
.LBB36_4:
	mov	x10, xzr
	add	x11, sp, #600
	mov	x12, x9
.LBB36_5:
	ldr	x13, [x11]
	mul	x14, x13, x8
	umulh	x13, x13, x8
	adds	x14, x14, x10
	str	x14, [x11], #8
	cinc	x10, x13, hs
	subs	x12, x12, #1
	b.ne	.LBB36_5
	cbz	x10, .LBB36_8
	add	x11, sp, #600
	add	x12, x9, #1
	str	x10, [x11, x9, lsl #3]
	str	x12, [sp, #1192]
.LBB36_8:
	sub	x23, x23, #19
	cmp	x23, #19
	b.hi	.LBB36_3
.LBB36_9:
	ldr	x9, [sp, #1192]
	adrp	x24, .Lstatic.24
	add	x24, x24, :lo12:.Lstatic.24
	cbz	x9, .LBB36_28
.LBB36_10:
	ldr	x8, [x24, x23, lsl #3]
	mov	x10, xzr
	add	x11, sp, #600
	mov	x12, x9
.LBB36_11:
	ldr	x13, [x11]
	mul	x14, x13, x8
	umulh	x13, x13, x8
	adds	x14, x14, x10
	str	x14, [x11], #8
	cinc	x10, x13, hs
	subs	x12, x12, #1
	b.ne	.LBB36_11
	cbz	x10, .LBB36_14
	add	x11, sp, #600
	add	x8, x9, #1
	str	x10, [x11, x9, lsl #3]
	str	x8, [sp, #1192]
	mov	w9, #1075
	subs	x9, x9, x19
	csel	x9, xzr, x9, lo
	cmp	x9, #64
	b.hs	.LBB36_15
	b	.LBB36_22
.LBB36_14:
	ldr	x8, [sp, #1192]
	mov	w9, #1075
	subs	x9, x9, x19
	csel	x9, xzr, x9, lo
	cmp	x9, #64
	b.lo	.LBB36_22
.LBB36_15:
	cbnz	x8, .LBB36_17
	b	.LBB36_28
.LBB36_16:
	sub	x9, x9, #63
	ldr	x8, [sp, #1192]
	cmp	x9, #63
	b.ls	.LBB36_22
.LBB36_17:
	cbz	x8, .LBB36_16
	mov	x10, xzr
	add	x11, sp, #600
	mov	x12, x8
.LBB36_19:
	ldr	x13, [x11]
	subs	x12, x12, #1
	orr	x14, x10, x13, lsl #63
	lsr	x10, x13, #1
	str	x14, [x11], #8
	b.ne	.LBB36_19
	cbz	x10, .LBB36_16
	add	x11, sp, #600
	add	x12, x8, #1
	str	x10, [x11, x8, lsl #3]
	str	x12, [sp, #1192]
	b	.LBB36_16
.LBB36_22:
	cbz	x8, .LBB36_28
	mov	x10, xzr
	add	x11, sp, #600
	mov	x12, x8
.LBB36_24:
	ldr	x13, [x11]
	mvn	w15, w9
	tst	x9, #0x40
	lsr	x14, x13, #1
	lsl	x13, x13, x9
	lsr	x14, x14, x15
	csel	x15, xzr, x13, ne
	csel	x13, x13, x14, ne
	adds	x14, x15, x10
	cinc	x10, x13, hs
	subs	x12, x12, #1
	str	x14, [x11], #8
	b.ne	.LBB36_24
	cbz	x10, .LBB36_28
	add	x9, sp, #600
	add	x11, x8, #1
	str	x10, [x9, x8, lsl #3]
	str	x11, [sp, #1192]
	b	.LBB36_28
.LBB36_27:
	mov	x9, #17247
	mov	w10, #19
	movk	x9, #3449, lsl #16
	movk	x9, #13797, lsl #32
	movk	x9, #55188, lsl #48
	umulh	x9, x8, x9
	lsr	x9, x9, #4
	msub	x8, x9, x10, x8
	add	x23, x8, #1
	ldr	x9, [sp, #1192]
	adrp	x24, .Lstatic.24
	add	x24, x24, :lo12:.Lstatic.24
	cbnz	x9, .LBB36_10
.LBB36_28:
	mov	w23, #1
	mov	w1, wzr
	mov	w2, #584
	orr	x8, x23, x20, lsl #1
	str	x8, [sp]
	mov	x8, sp
	add	x0, x8, #8
	bl	memset
	cmp	x22, #20
	str	x23, [sp, #592]
	b.lo	.LBB36_37
	mov	x8, #2313682944
	mov	w23, #1
	movk	x8, #8964, lsl #32
	movk	x8, #35527, lsl #48
	b	.LBB36_31
.LBB36_30:
	sub	x22, x22, #19
	ldr	x23, [sp, #592]
	cmp	x22, #19
	b.ls	.LBB36_36
.LBB36_31:
	cbz	x23, .LBB36_30
	mov	x9, xzr
	mov	x10, sp
	mov	x11, x23
.LBB36_33:
	ldr	x12, [x10]
	mul	x13, x12, x8
	umulh	x12, x12, x8
	adds	x13, x13, x9
	str	x13, [x10], #8
	cinc	x9, x12, hs
	subs	x11, x11, #1
	b.ne	.LBB36_33
	cbz	x9, .LBB36_30
	mov	x10, sp
	add	x11, x23, #1
	str	x9, [x10, x23, lsl #3]
	str	x11, [sp, #592]
	b	.LBB36_30
.LBB36_36:
	cbz	x23, .LBB36_54
.LBB36_37:
	ldr	x8, [x24, x22, lsl #3]
	mov	x9, xzr
	mov	x10, sp
	mov	x11, x23
.LBB36_38:
	ldr	x12, [x10]
	mul	x13, x12, x8
	umulh	x12, x12, x8
	adds	x13, x13, x9
	str	x13, [x10], #8
	cinc	x9, x12, hs
	subs	x11, x11, #1
	b.ne	.LBB36_38
	cbz	x9, .LBB36_41
	mov	x10, sp
	add	x8, x23, #1
	str	x9, [x10, x23, lsl #3]
	str	x8, [sp, #592]
	subs	x9, x19, #1075
	csel	x9, xzr, x9, lo
	cmp	x9, #64
	b.hs	.LBB36_42
	b	.LBB36_49
.LBB36_41:
	ldr	x8, [sp, #592]
	subs	x9, x19, #1075
	csel	x9, xzr, x9, lo
	cmp	x9, #64
	b.lo	.LBB36_49
.LBB36_42:
	cbnz	x8, .LBB36_44
	b	.LBB36_54
.LBB36_43:
	sub	x9, x9, #63
	ldr	x8, [sp, #592]
	cmp	x9, #63
	b.ls	.LBB36_49
.LBB36_44:
	cbz	x8, .LBB36_43
	mov	x10, xzr
	mov	x11, sp
	mov	x12, x8
.LBB36_46:
	ldr	x13, [x11]
	subs	x12, x12, #1
	orr	x14, x10, x13, lsl #63
	lsr	x10, x13, #1
	str	x14, [x11], #8
	b.ne	.LBB36_46
	cbz	x10, .LBB36_43
	mov	x11, sp
	add	x12, x8, #1
	str	x10, [x11, x8, lsl #3]
	str	x12, [sp, #592]
	b	.LBB36_43
.LBB36_49:
	cbz	x8, .LBB36_54
	mov	x10, xzr
	mov	x11, sp
	mov	x12, x8
.LBB36_51:
	ldr	x13, [x11]
	mvn	w15, w9
	tst	x9, #0x40
	lsr	x14, x13, #1
	lsl	x13, x13, x9
	lsr	x14, x14, x15
	csel	x15, xzr, x13, ne
	csel	x13, x13, x14, ne
	adds	x14, x15, x10
	cinc	x10, x13, hs
	subs	x12, x12, #1
	str	x14, [x11], #8
	b.ne	.LBB36_51
	cbz	x10, .LBB36_55
	mov	x11, sp
	add	x9, x8, #1
	str	x10, [x11, x8, lsl #3]
	str	x9, [sp, #592]
	b	.LBB36_56
.LBB36_54:
	mov	x9, xzr
	b	.LBB36_56
.LBB36_55:
	ldr	x9, [sp, #592]
.LBB36_56:
	ldr	x8, [sp, #1192]
	mov	x10, sp
	add	x11, sp, #600
	cmp	x9, x8
	csel	x8, x9, x8, hi
	sub	x9, x10, #8
	sub	x10, x11, #8
.LBB36_57:
	cbz	x8, .LBB36_60
	ldr	x11, [x10, x8, lsl #3]
	ldr	x12, [x9, x8, lsl #3]
	cmp	x11, x12
	b.lo	.LBB36_62
	cmp	x12, x11
	sub	x8, x8, #1
	b.hs	.LBB36_57
	b	.LBB36_61
.LBB36_60:
	cbz	w21, .LBB36_63
.LBB36_61:
	add	x8, x20, x19, lsl #52
	mov	x10, #9218868437227405312
	add	x9, x8, #1
	cmp	x9, x10
	csinc	x0, x10, x8, hs
	b	.LBB36_65
.LBB36_62:
	add	x8, x20, x19, lsl #52
	b	.LBB36_64
.LBB36_63:
	and	x8, x20, #0x1
	add	x8, x8, x20
	add	x8, x8, x19, lsl #52
.LBB36_64:
	mov	x9, #9218868437227405312
	cmp	x8, x9
	csel	x0, x8, x9, lo
.LBB36_65:
	add	sp, sp, #1200
	ldp	x20, x19, [sp, #64]
	ldr	x28, [sp, #16]
	ldp	x22, x21, [sp, #48]
	ldp	x24, x23, [sp, #32]
	ldp	x29, x30, [sp], #80
	ret
.Lfunc_end36:
	.size	"core::dec2flt::decimal::break_tie::<#1d521972340cebc2>", .Lfunc_end36-"core::dec2flt::decimal::break_tie::<#1d521972340cebc2>"

	.section	".text.unlikely.core::dec2flt::words::read_word::<#1d521972340cebc2>","ax",@progbits
	.p2align	2
	.type	"core::dec2flt::words::read_word::<#1d521972340cebc2>",@function
"core::dec2flt::words::read_word::<#1d521972340cebc2>":
	mov	x8, #9218868437227405312
	mov	x9, #-4503599627370496
	cmp	w3, #0
	fmov	d0, x8
	fmov	d1, x9
	fcsel	d0, d1, d0, ne
	cmp	x2, #8
	b.hs	.LBB37_3
	cmp	x2, #3
	b.hs	.LBB37_12
	movi	d1, #0000000000000000
	str	xzr, [x0]
	str	d1, [x0, #8]
	str	xzr, [x0, #16]
	ret
.LBB37_3:
	ldrb	w8, [x1]
	sub	w9, w8, #65
	add	w10, w8, #32
	cmp	w9, #26
	csel	w8, w10, w8, lo
	cmp	w8, #105
	b.ne	.LBB37_12
	ldrb	w8, [x1, #1]
	sub	w9, w8, #65
	add	w10, w8, #32
	cmp	w9, #26
	csel	w8, w10, w8, lo
	cmp	w8, #110
	b.ne	.LBB37_12
	ldrb	w8, [x1, #2]
	sub	w9, w8, #65
	add	w10, w8, #32
	cmp	w9, #26
	csel	w8, w10, w8, lo
	cmp	w8, #102
	b.ne	.LBB37_12
	ldrb	w8, [x1, #3]
	sub	w9, w8, #65
	add	w10, w8, #32
	cmp	w9, #26
	csel	w8, w10, w8, lo
	cmp	w8, #105
	b.ne	.LBB37_12
	ldrb	w8, [x1, #4]
	sub	w9, w8, #65
	add	w10, w8, #32
	cmp	w9, #26
	csel	w8, w10, w8, lo
	cmp	w8, #110
	b.ne	.LBB37_12
	ldrb	w8, [x1, #5]
	sub	w9, w8, #65
	add	w10, w8, #32
	cmp	w9, #26
	csel	w8, w10, w8, lo
	cmp	w8, #105
	b.ne	.LBB37_12
	ldrb	w8, [x1, #6]
	sub	w9, w8, #65
	add	w10, w8, #32
	cmp	w9, #26
	csel	w8, w10, w8, lo
	cmp	w8, #116
	b.ne	.LBB37_12
	ldrb	w8, [x1, #7]
	sub	w9, w8, #65
	add	w10, w8, #32
	cmp	w9, #26
	csel	w8, w10, w8, lo
	cmp	w8, #121
	b.ne	.LBB37_12
	mov	w9, #8
	mov	w8, #1
	fmov	d1, d0
	str	x8, [x0]
	str	d1, [x0, #8]
	str	x9, [x0, #16]
	ret
.LBB37_12:
	ldrb	w8, [x1]
	movi	d1, #0000000000000000
	sub	w9, w8, #65
	add	w10, w8, #32
	cmp	w9, #26
	csel	w8, w10, w8, lo
	cmp	w8, #110
	b.eq	.LBB37_17
	cmp	w8, #105
	b.ne	.LBB37_20
	ldrb	w8, [x1, #1]
	sub	w9, w8, #65
	add	w10, w8, #32
	cmp	w9, #26
	csel	w8, w10, w8, lo
	cmp	w8, #110
	b.ne	.LBB37_20
	ldrb	w8, [x1, #2]
	sub	w9, w8, #65
	add	w10, w8, #32
	cmp	w9, #26
	csel	w8, w10, w8, lo
	cmp	w8, #102
	b.ne	.LBB37_20
	mov	w9, #3
	mov	w8, #1
	fmov	d1, d0
	str	x8, [x0]
	str	d1, [x0, #8]
	str	x9, [x0, #16]
	ret
.LBB37_17:
	ldrb	w8, [x1, #1]
	sub	w9, w8, #65
	add	w10, w8, #32
	cmp	w9, #26
	csel	w8, w10, w8, lo
	cmp	w8, #97
	b.ne	.LBB37_20
	ldrb	w8, [x1, #2]
	sub	w9, w8, #65
	add	w10, w8, #32
	cmp	w9, #26
	csel	w8, w10, w8, lo
	cmp	w8, #110
	b.ne	.LBB37_20
	mov	x8, #9221120237041090560
	mov	x9, #-2251799813685248
	cmp	w3, #0
	fmov	d0, x8
	fmov	d1, x9
	mov	w9, #3
	mov	w8, #1
	fcsel	d1, d1, d0, ne
	str	x8, [x0]
	str	d1, [x0, #8]
	str	x9, [x0, #16]
	ret
.LBB37_20:
	str	xzr, [x0]
	str	d1, [x0, #8]
	str	xzr, [x0, #16]
	ret
.Lfunc_end37:
	.size	"core::dec2flt::words::read_word::<#1d521972340cebc2>", .Lfunc_end37-"core::dec2flt::words::read_word::<#1d521972340cebc2>"

	.section	".text.amqp_json::printing::decimals::text_with","ax",@progbits
	.p2align	2
	.type	"amqp_json::printing::decimals::text_with",@function
"amqp_json::printing::decimals::text_with":
	sub	sp, sp, #192
	ldrb	w8, [x0]
	stp	x20, x19, [sp, #176]
	mov	x19, x2
	stp	x29, x30, [sp, #96]
	add	x29, sp, #96
	str	x27, [sp, #112]
	stp	x26, x25, [sp, #128]
	stp	x24, x23, [sp, #144]
	stp	x22, x21, [sp, #160]
	cbz	w8, .LBB38_4
	ldr	x8, [x0, #8]
	cbz	w1, .LBB38_5
.LBB38_2:
	cmp	w1, #1
	b.ne	.LBB38_7
	mov	w20, #10
	tbz	x8, #63, .LBB38_6
	b	.LBB38_10
.LBB38_4:
	ldr	w8, [x0, #4]
	lsl	x9, x8, #32
	and	x9, x9, #0x8000000000000000
	bfi	x9, x8, #29, #31
	mov	x8, #4035225266123964416
	add	x8, x9, x8
	cbnz	w1, .LBB38_2
.LBB38_5:
	mov	w20, #1
	tbnz	x8, #63, .LBB38_10
.LBB38_6:
	mov	x23, xzr
	b	.LBB38_11
.LBB38_7:
	mov	w9, #10
	mov	w10, #1
.LBB38_8:
	tst	w1, #0x1
	csinc	x11, x9, xzr, ne
	mul	x9, x9, x9
	cmp	w1, #3
	lsr	w1, w1, #1
	mul	x10, x11, x10
	b.hi	.LBB38_8
	mul	x20, x10, x9
	tbz	x8, #63, .LBB38_6
.LBB38_10:
	mov	w9, #45
	mov	w23, #1
	strb	w9, [x19]
.LBB38_11:
	ubfx	x9, x8, #52, #11
	tst	x8, #0x7ff0000000000000
	mov	x10, #4503599627370496
	csel	x10, xzr, x10, eq
	mov	w12, #11
	movi	v0.2d, #0000000000000000
	subs	x11, x9, #1075
	bfxil	x10, x8, #0, #52
	str	xzr, [sp, #32]
	csel	x11, xzr, x11, lo
	cmp	x11, #11
	csel	x8, x11, x12, lo
	mov	w11, #1075
	stp	q0, q0, [sp]
	lsl	x12, x10, x8
	lsr	x10, x10, #1
	subs	x9, x11, x9
	eor	x8, x8, #0x3f
	csel	x9, xzr, x9, lo
	umulh	x11, x12, x20
	lsr	x8, x10, x8
	cmp	x9, #126
	mov	w10, #126
	csel	x9, x9, x10, lo
	mov	w10, #1
	mul	x12, x12, x20
	lsl	x10, x10, x9
	tst	x9, #0x40
	madd	x8, x8, x20, x11
	csel	x11, xzr, x10, ne
	csel	x10, x10, xzr, ne
	extr	x11, x10, x11, #1
	lsr	x10, x10, #1
	adds	x11, x12, x11
	mvn	w12, w9
	adc	x8, x8, x10
	lsr	x11, x11, x9
	tst	x9, #0x40
	lsl	x10, x8, #1
	lsr	x8, x8, x9
	lsl	x10, x10, x12
	csel	x1, xzr, x8, ne
	orr	x9, x10, x11
	csel	x21, x8, x9, ne
	cbz	x20, .LBB38_44
	mov	x0, x21
	mov	x2, x20
	mov	x3, xzr
	bl	__udivti3
	mov	x22, x0
	cbz	x1, .LBB38_16
	mov	w8, #39
	mov	x10, x22
.LBB38_14:
	extr	x9, x1, x10, #1
	lsr	x12, x1, #1
	mov	x14, #-3689348814741910324
	movk	x14, #52429
	adds	x13, x9, x12
	cinc	x13, x13, hs
	umulh	x15, x13, x14
	lsr	x15, x15, #2
	add	x15, x15, x15, lsl #2
	sub	x13, x13, x15
	mov	x15, #-3689348814741910324
	subs	x9, x9, x13
	umulh	x13, x9, x14
	sbc	x12, x12, xzr
	cmp	x1, #9
	mov	x11, sp
	madd	x13, x9, x15, x13
	mul	x9, x9, x14
	madd	x1, x12, x14, x13
	mov	w12, #10
	msub	w10, w9, w12, w10
	orr	w10, w10, #0x30
	strb	w10, [x11, x8]
	sub	x8, x8, #1
	mov	x10, x9
	b.hi	.LBB38_14
	add	x8, x8, #1
	b	.LBB38_17
.LBB38_16:
	mov	w8, #40
	mov	x9, x22
.LBB38_17:
	mov	x26, #22859
	lsr	x10, x9, #4
	mov	w25, #57599
	movk	x26, #14470, lsl #16
	movk	w25, #1525, lsl #16
	adrp	x24, .Lstatic.20
	add	x24, x24, :lo12:.Lstatic.20
	movk	x26, #50646, lsl #32
	cmp	x10, #625
	movk	x26, #13421, lsl #48
	b.lo	.LBB38_23
	mov	x10, sp
	sub	x11, x10, #4
.LBB38_19:
	umulh	x10, x9, x26
	mov	w12, #10000
	mov	w14, #5243
	cmp	x9, x25
	lsr	x10, x10, #11
	msub	w12, w10, w12, w9
	mov	x9, x10
	ubfx	w13, w12, #2, #14
	mul	w13, w13, w14
	mov	w14, #100
	lsr	w13, w13, #17
	msub	w12, w13, w14, w12
	ldrh	w13, [x24, w13, uxtw #1]
	add	x14, x11, x8
	sub	x8, x8, #4
	strh	w13, [x14]
	and	x12, x12, #0xffff
	ldrh	w12, [x24, x12, lsl #1]
	strh	w12, [x14, #2]
	b.hi	.LBB38_19
	cmp	x10, #99
	b.hi	.LBB38_24
.LBB38_21:
	cmp	x10, #9
	b.hi	.LBB38_26
	sub	x8, x8, #1
	mov	x9, sp
	orr	w10, w10, #0x30
	strb	w10, [x9, x8]
	mov	w9, #40
	sub	x2, x9, x8
	adds	x9, x2, x23
	csinv	x27, x9, xzr, lo
	cmp	x27, #96
	b.ls	.LBB38_28
	b	.LBB38_29
.LBB38_23:
	mov	x10, x9
	cmp	x9, #99
	b.ls	.LBB38_21
.LBB38_24:
	ubfx	w9, w10, #2, #14
	mov	w11, #5243
	cmp	x10, #999
	mul	w9, w9, w11
	mov	w11, #100
	lsr	w9, w9, #17
	msub	w11, w9, w11, w10
	and	x11, x11, #0xffff
	ldrh	w12, [x24, x11, lsl #1]
	mov	x11, sp
	add	x13, x11, x8
	sturh	w12, [x13, #-2]
	b.hi	.LBB38_27
	sub	x8, x8, #3
	orr	w9, w9, #0x30
	strb	w9, [x11, x8]
	mov	w9, #40
	sub	x2, x9, x8
	adds	x9, x2, x23
	csinv	x27, x9, xzr, lo
	cmp	x27, #96
	b.ls	.LBB38_28
	b	.LBB38_29
.LBB38_26:
	sub	x8, x8, #2
	ldrh	w9, [x24, x10, lsl #1]
	mov	x10, sp
	strh	w9, [x10, x8]
	mov	w9, #40
	sub	x2, x9, x8
	adds	x9, x2, x23
	csinv	x27, x9, xzr, lo
	cmp	x27, #96
	b.ls	.LBB38_28
	b	.LBB38_29
.LBB38_27:
	sub	x8, x8, #4
	ldrh	w9, [x24, w9, uxtw #1]
	strh	w9, [x11, x8]
	mov	w9, #40
	sub	x2, x9, x8
	adds	x9, x2, x23
	csinv	x27, x9, xzr, lo
	cmp	x27, #96
	b.hi	.LBB38_29
.LBB38_28:
	mov	x9, sp
	add	x0, x19, x23
	add	x1, x9, x8
	bl	memcpy
.LBB38_29:
	adds	x8, x27, #1
	csinv	x8, x8, xzr, lo
	cmp	x8, #96
	b.hi	.LBB38_31
	mov	w9, #46
	strb	w9, [x19, x27]
.LBB38_31:
	msub	x9, x22, x20, x21
	movi	v0.2d, #0000000000000000
	str	xzr, [sp, #80]
	stp	q0, q0, [sp, #48]
	add	x9, x20, x9
	lsr	x10, x9, #4
	cmp	x10, #625
	b.lo	.LBB38_37
	mov	x10, xzr
.LBB38_33:
	mov	x11, x9
	umulh	x9, x9, x26
	mov	w12, #10000
	mov	w14, #5243
	cmp	x11, x25
	lsr	x9, x9, #11
	msub	w12, w9, w12, w11
	ubfx	w13, w12, #2, #14
	mul	w13, w13, w14
	mov	w14, #100
	lsr	w13, w13, #17
	msub	w12, w13, w14, w12
	add	x14, sp, #48
	ldrh	w13, [x24, w13, uxtw #1]
	add	x14, x14, x10
	sub	x10, x10, #4
	strh	w13, [x14, #36]
	and	x12, x12, #0xffff
	ldrh	w12, [x24, x12, lsl #1]
	strh	w12, [x14, #38]
	b.hi	.LBB38_33
	add	x10, x10, #40
	cmp	x9, #99
	b.ls	.LBB38_38
.LBB38_35:
	ubfx	w11, w9, #2, #14
	mov	w12, #5243
	cmp	x9, #999
	mul	w11, w11, w12
	mov	w12, #100
	lsr	w11, w11, #17
	msub	w12, w11, w12, w9
	and	x12, x12, #0xffff
	ldrh	w13, [x24, x12, lsl #1]
	add	x12, sp, #48
	add	x14, x12, x10
	sturh	w13, [x14, #-2]
	b.hi	.LBB38_40
	sub	x10, x10, #3
	orr	w9, w11, #0x30
	strb	w9, [x12, x10]
	mov	w9, #39
	sub	x2, x9, x10
	adds	x9, x2, x8
	csinv	x20, x9, xzr, lo
	cmp	x20, #96
	b.ls	.LBB38_42
	b	.LBB38_43
.LBB38_37:
	mov	w10, #40
	cmp	x9, #99
	b.hi	.LBB38_35
.LBB38_38:
	cmp	x9, #9
	b.hi	.LBB38_41
	sub	x10, x10, #1
	add	x11, sp, #48
	orr	w9, w9, #0x30
	strb	w9, [x11, x10]
	mov	w9, #39
	sub	x2, x9, x10
	adds	x9, x2, x8
	csinv	x20, x9, xzr, lo
	cmp	x20, #96
	b.ls	.LBB38_42
	b	.LBB38_43
.LBB38_40:
	sub	x10, x10, #4
	ldrh	w9, [x24, w11, uxtw #1]
	strh	w9, [x12, x10]
	mov	w9, #39
	sub	x2, x9, x10
	adds	x9, x2, x8
	csinv	x20, x9, xzr, lo
	cmp	x20, #96
	b.ls	.LBB38_42
	b	.LBB38_43
.LBB38_41:
	sub	x10, x10, #2
	ldrh	w9, [x24, x9, lsl #1]
	add	x11, sp, #48
	strh	w9, [x11, x10]
	mov	w9, #39
	sub	x2, x9, x10
	adds	x9, x2, x8
	csinv	x20, x9, xzr, lo
	cmp	x20, #96
	b.hi	.LBB38_43
.LBB38_42:
	add	x9, sp, #48
	add	x0, x19, x8
	add	x9, x9, x10
	add	x1, x9, #1
	bl	memcpy
.LBB38_43:
	mov	x0, x19
	mov	x1, x20
	ldr	x27, [sp, #112]
	ldp	x20, x19, [sp, #176]
	ldp	x22, x21, [sp, #160]
	ldp	x24, x23, [sp, #144]
	ldp	x26, x25, [sp, #128]
	ldp	x29, x30, [sp, #96]
	add	sp, sp, #192
	ret
.LBB38_44:
	brk	#0x1
.Lfunc_end38:
	.size	"amqp_json::printing::decimals::text_with", .Lfunc_end38-"amqp_json::printing::decimals::text_with"

	.section	".text.amqp_json::printing::leaves::double","ax",@progbits
	.p2align	2
	.type	"amqp_json::printing::leaves::double",@function
"amqp_json::printing::leaves::double":
	sub	sp, sp, #208
	movi	v0.2d, #0000000000000000
	stp	x29, x30, [sp, #144]
	add	x29, sp, #144
	stp	x22, x21, [sp, #176]
	mov	x21, x2
	mov	w8, #1
	stp	x20, x19, [sp, #192]
	mov	x20, x1
	mov	x19, x0
	sub	x0, x29, #24
	sub	x1, x29, #40
	mov	x2, sp
	str	x23, [sp, #160]
	mov	x23, x4
	mov	w22, w3
	stp	xzr, xzr, [x29, #-24]
	stur	xzr, [x29, #-8]
	stp	xzr, x4, [x29, #-40]
	stur	w8, [x29, #-40]
	stp	q0, q0, [sp]
	stp	q0, q0, [sp, #32]
	stp	q0, q0, [sp, #64]
	bl	"amqp_json::printing::decimals::float_text"
	ldurb	w8, [x29, #-24]
	cmp	w8, #1
	b.ne	.LBB39_5
	ldur	x2, [x29, #-8]
	tbz	w22, #0, .LBB39_6
	adds	x8, x21, #1
	csinv	x9, x8, xzr, lo
	cmp	x9, x20
	b.hi	.LBB39_4
	mov	w8, #44
	strb	w8, [x19, x21]
.LBB39_4:
	adds	x8, x2, x9
	csinv	x0, x8, xzr, lo
	cmp	x0, x20
	b.ls	.LBB39_7
	b	.LBB39_14
.LBB39_5:
	rev	x8, x23
	adrp	x4, .Lstatic.33
	add	x4, x4, :lo12:.Lstatic.33
	add	x6, x29, #24
	mov	x0, x19
	mov	x1, x20
	mov	x2, x21
	mov	w3, w22
	mov	w5, #7
	mov	w7, #8
	str	x8, [x29, #24]
	bl	"amqp_json::printing::leaves::digits"
	ldp	x20, x19, [sp, #192]
	ldr	x23, [sp, #160]
	ldp	x22, x21, [sp, #176]
	ldp	x29, x30, [sp, #144]
	add	sp, sp, #208
	ret
.LBB39_6:
	mov	x9, x21
	adds	x8, x2, x21
	csinv	x0, x8, xzr, lo
	cmp	x0, x20
	b.hi	.LBB39_14
.LBB39_7:
	ldur	x1, [x29, #-16]
	add	x8, x19, x9
	sub	x10, x8, x1
	cmp	x10, x2
	b.hs	.LBB39_13
	cmp	x2, #8
	b.lo	.LBB39_10
	add	x8, x9, x19
	sub	x8, x8, x1
	cmp	x8, #32
	b.hs	.LBB39_15
.LBB39_10:
	mov	x8, xzr
.LBB39_11:
	add	x10, x8, x9
	sub	x9, x2, x8
	add	x8, x1, x8
	add	x10, x19, x10
.LBB39_12:
	ldrb	w11, [x8], #1
	subs	x9, x9, #1
	strb	w11, [x10], #1
	b.ne	.LBB39_12
	b	.LBB39_14
.LBB39_13:
	mov	x19, x0
	mov	x0, x8
	bl	memmove
	mov	x0, x19
.LBB39_14:
	mov	w1, #1
	ldp	x20, x19, [sp, #192]
	ldr	x23, [sp, #160]
	ldp	x22, x21, [sp, #176]
	ldp	x29, x30, [sp, #144]
	add	sp, sp, #208
	ret
.LBB39_15:
	cmp	x2, #32
	b.hs	.LBB39_17
	mov	x8, xzr
	b	.LBB39_21
.LBB39_17:
	add	x12, x9, x19
	and	x10, x2, #0x18
	and	x8, x2, #0xffffffffffffffe0
	add	x11, x1, #16
	add	x12, x12, #16
	and	x13, x2, #0xffffffffffffffe0
.LBB39_18:
	ldp	q0, q1, [x11, #-16]
	subs	x13, x13, #32
	add	x11, x11, #32
	stp	q0, q1, [x12, #-16]
	add	x12, x12, #32
	b.ne	.LBB39_18
	cmp	x2, x8
	b.eq	.LBB39_14
	cbz	x10, .LBB39_11
.LBB39_21:
	mov	x11, x8
	and	x8, x2, #0xfffffffffffffff8
	add	x12, x9, x11
	sub	x10, x11, x8
	add	x11, x1, x11
	add	x12, x19, x12
.LBB39_22:
	ldr	d0, [x11], #8
	adds	x10, x10, #8
	str	d0, [x12], #8
	b.ne	.LBB39_22
	cmp	x2, x8
	b.eq	.LBB39_14
	b	.LBB39_11
.Lfunc_end39:
	.size	"amqp_json::printing::leaves::double", .Lfunc_end39-"amqp_json::printing::leaves::double"

	.section	.rodata.cst8,"aM",@progbits,8
	.p2align	3, 0x0
.LCPI40_0:
	.byte	36
	.byte	68
	.byte	101
	.byte	99
	.byte	105
	.byte	109
	.byte	97
	.byte	108
.LCPI40_1:
	.byte	86
	.byte	97
	.byte	108
	.byte	117
	.zero	1
	.zero	1
	.zero	1
	.zero	1
	.section	".text.amqp_json::printing::leaves::decimal","ax",@progbits
	.p2align	2
	.type	"amqp_json::printing::leaves::decimal",@function
"amqp_json::printing::leaves::decimal":
	stp	x29, x30, [sp, #-48]!
	str	x21, [sp, #16]
	mov	w21, w4
	mov	x29, sp
	stp	x20, x19, [sp, #32]
	mov	x20, x1
	mov	x19, x0
	tbz	w3, #0, .LBB40_12
	adds	x8, x2, #1
	csinv	x8, x8, xzr, lo
	cmp	x8, x20
	b.ls	.LBB40_15
	adds	x9, x8, #2
	csinv	x10, x9, xzr, lo
	cmp	x10, x20
	b.ls	.LBB40_16
.LBB40_3:
	adds	x9, x8, #15
	csinv	x9, x9, xzr, lo
	cmp	x9, x20
	b.ls	.LBB40_17
.LBB40_4:
	adds	x10, x8, #17
	csinv	x10, x10, xzr, lo
	cmp	x10, x20
	b.ls	.LBB40_20
.LBB40_5:
	adds	x8, x8, #18
	csinv	x2, x8, xzr, lo
	cmp	x2, x20
	b.hi	.LBB40_7
.LBB40_6:
	mov	w8, #34
	strb	w8, [x19, x10]
.LBB40_7:
	mov	x0, x19
	mov	x1, x20
	mov	w3, w5
	bl	"amqp_json::printing::tokens::put_natural"
	adds	x8, x0, #2
	csinv	x2, x8, xzr, lo
	cmp	x2, x20
	b.hi	.LBB40_9
	add	x8, x19, x0
	adrp	x9, .Lstatic.35
	add	x9, x9, :lo12:.Lstatic.35
	sub	x9, x8, x9
	cmp	x9, #1
	mov	w9, #11621
	strh	w9, [x8]
.LBB40_9:
	and	w3, w21, #0xff
	mov	x0, x19
	mov	x1, x20
	bl	"amqp_json::printing::tokens::put_natural"
	adds	x8, x0, #1
	csinv	x8, x8, xzr, lo
	cmp	x8, x20
	b.ls	.LBB40_13
	adds	x9, x0, #2
	csinv	x0, x9, xzr, lo
	cmp	x0, x20
	b.ls	.LBB40_14
.LBB40_11:
	ldp	x20, x19, [sp, #32]
	mov	w1, #1
	ldr	x21, [sp, #16]
	ldp	x29, x30, [sp], #48
	ret
.LBB40_12:
	mov	x8, x2
	adds	x9, x2, #2
	csinv	x10, x9, xzr, lo
	cmp	x10, x20
	b.hi	.LBB40_3
	b	.LBB40_16
.LBB40_13:
	mov	w9, #34
	strb	w9, [x19, x0]
	adds	x9, x0, #2
	csinv	x0, x9, xzr, lo
	cmp	x0, x20
	b.hi	.LBB40_11
.LBB40_14:
	mov	w9, #125
	strb	w9, [x19, x8]
	ldp	x20, x19, [sp, #32]
	mov	w1, #1
	ldr	x21, [sp, #16]
	ldp	x29, x30, [sp], #48
	ret
.LBB40_15:
	mov	w9, #44
	strb	w9, [x19, x2]
	adds	x9, x8, #2
	csinv	x10, x9, xzr, lo
	cmp	x10, x20
	b.hi	.LBB40_3
.LBB40_16:
	add	x9, x19, x8
	adrp	x11, .Lstatic.21
	add	x11, x11, :lo12:.Lstatic.21
	sub	x11, x9, x11
	cmp	x11, #1
	mov	w11, #8827
	strh	w11, [x9]
	adds	x9, x8, #15
	csinv	x9, x9, xzr, lo
	cmp	x9, x20
	b.hi	.LBB40_4
.LBB40_17:
	add	x10, x19, x10
	adrp	x11, .Lstatic.34
	add	x11, x11, :lo12:.Lstatic.34
	sub	x12, x10, x11
	cmp	x12, #12
	b.hi	.LBB40_19
	adrp	x11, .LCPI40_0
	adrp	x12, .LCPI40_1
	ldr	d0, [x11, :lo12:.LCPI40_0]
	ldr	d1, [x12, :lo12:.LCPI40_1]
	mov	w11, #101
	strb	w11, [x10, #12]
	str	d0, [x10]
	str	s1, [x10, #8]
	adds	x10, x8, #17
	csinv	x10, x10, xzr, lo
	cmp	x10, x20
	b.hi	.LBB40_5
	b	.LBB40_20
.LBB40_19:
	ldr	x12, [x11]
	ldur	x11, [x11, #5]
	str	x12, [x10]
	stur	x11, [x10, #5]
	adds	x10, x8, #17
	csinv	x10, x10, xzr, lo
	cmp	x10, x20
	b.hi	.LBB40_5
.LBB40_20:
	add	x9, x19, x9
	adrp	x11, .Lstatic.6
	add	x11, x11, :lo12:.Lstatic.6
	sub	x11, x9, x11
	cmp	x11, #1
	mov	w11, #14882
	strh	w11, [x9]
	adds	x8, x8, #18
	csinv	x2, x8, xzr, lo
	cmp	x2, x20
	b.ls	.LBB40_6
	b	.LBB40_7
.Lfunc_end40:
	.size	"amqp_json::printing::leaves::decimal", .Lfunc_end40-"amqp_json::printing::leaves::decimal"

	.section	".text.amqp_json::printing::tokens::put_natural","ax",@progbits
	.p2align	2
	.type	"amqp_json::printing::tokens::put_natural",@function
"amqp_json::printing::tokens::put_natural":
	sub	sp, sp, #80
	movi	v0.2d, #0000000000000000
	lsr	w8, w3, #4
	mov	w9, w3
	stp	x29, x30, [sp, #48]
	add	x29, sp, #48
	cmp	w8, #625
	adrp	x8, .Lstatic.20
	add	x8, x8, :lo12:.Lstatic.20
	str	x19, [sp, #64]
	str	xzr, [sp, #32]
	stp	q0, q0, [sp]
	b.lo	.LBB41_6
	mov	x10, xzr
.LBB41_2:
	mov	x11, x9
	mov	x9, #22859
	mov	w12, #10000
	movk	x9, #14470, lsl #16
	mov	w14, #5243
	mov	w15, #57599
	movk	x9, #50646, lsl #32
	movk	w15, #1525, lsl #16
	movk	x9, #13421, lsl #48
	cmp	x11, x15
	umulh	x9, x11, x9
	lsr	x9, x9, #11
	msub	w12, w9, w12, w11
	ubfx	w13, w12, #2, #14
	mul	w13, w13, w14
	mov	w14, #100
	lsr	w13, w13, #17
	msub	w12, w13, w14, w12
	mov	x14, sp
	ldrh	w13, [x8, w13, uxtw #1]
	add	x14, x14, x10
	sub	x10, x10, #4
	strh	w13, [x14, #36]
	and	x12, x12, #0xffff
	ldrh	w12, [x8, x12, lsl #1]
	strh	w12, [x14, #38]
	b.hi	.LBB41_2
	add	x10, x10, #40
	cmp	x9, #99
	b.ls	.LBB41_7
.LBB41_4:
	ubfx	w11, w9, #2, #14
	mov	w12, #5243
	cmp	x9, #999
	mul	w11, w11, w12
	mov	w12, #100
	lsr	w11, w11, #17
	msub	w12, w11, w12, w9
	and	x12, x12, #0xffff
	ldrh	w13, [x8, x12, lsl #1]
	mov	x12, sp
	add	x14, x12, x10
	sturh	w13, [x14, #-2]
	b.hi	.LBB41_9
	sub	x10, x10, #3
	orr	w8, w11, #0x30
	strb	w8, [x12, x10]
	mov	w8, #40
	sub	x8, x8, x10
	adds	x9, x8, x2
	csinv	x19, x9, xzr, lo
	cmp	x19, x1
	b.ls	.LBB41_11
	b	.LBB41_12
.LBB41_6:
	mov	w10, #40
	cmp	x9, #99
	b.hi	.LBB41_4
.LBB41_7:
	cmp	x9, #9
	b.hi	.LBB41_10
	sub	x10, x10, #1
	mov	x8, sp
	orr	w9, w9, #0x30
	strb	w9, [x8, x10]
	mov	w8, #40
	sub	x8, x8, x10
	adds	x9, x8, x2
	csinv	x19, x9, xzr, lo
	cmp	x19, x1
	b.ls	.LBB41_11
	b	.LBB41_12
.LBB41_9:
	sub	x10, x10, #4
	ldrh	w8, [x8, w11, uxtw #1]
	strh	w8, [x12, x10]
	mov	w8, #40
	sub	x8, x8, x10
	adds	x9, x8, x2
	csinv	x19, x9, xzr, lo
	cmp	x19, x1
	b.ls	.LBB41_11
	b	.LBB41_12
.LBB41_10:
	sub	x10, x10, #2
	ldrh	w8, [x8, x9, lsl #1]
	mov	x9, sp
	strh	w8, [x9, x10]
	mov	w8, #40
	sub	x8, x8, x10
	adds	x9, x8, x2
	csinv	x19, x9, xzr, lo
	cmp	x19, x1
	b.hi	.LBB41_12
.LBB41_11:
	mov	x9, sp
	add	x0, x0, x2
	mov	x2, x8
	add	x1, x9, x10
	bl	memcpy
.LBB41_12:
	ldp	x29, x30, [sp, #48]
	mov	x0, x19
	ldr	x19, [sp, #64]
	add	sp, sp, #80
	ret
.Lfunc_end41:
	.size	"amqp_json::printing::tokens::put_natural", .Lfunc_end41-"amqp_json::printing::tokens::put_natural"

	.section	".text.amqp_json::printing::leaves::long_string","ax",@progbits
	.p2align	2
	.type	"amqp_json::printing::leaves::long_string",@function
"amqp_json::printing::leaves::long_string":
	sub	sp, sp, #96
	stp	x22, x21, [sp, #64]
	mov	x21, x2
	mov	x2, x5
	stp	x20, x19, [sp, #80]
	mov	x20, x1
	mov	x19, x0
	add	x0, sp, #8
	mov	x1, x4
	stp	x29, x30, [sp, #32]
	stp	x24, x23, [sp, #48]
	add	x29, sp, #32
	mov	x22, x5
	mov	x23, x4
	mov	w24, w3
	stp	xzr, xzr, [sp, #8]
	str	xzr, [sp, #24]
	bl	"core::str::utf8::from_utf8"
	ldrb	w8, [sp, #8]
	cbz	w8, .LBB42_2
	mov	x0, x19
	mov	x1, x20
	mov	x2, x21
	mov	w3, w24
	mov	x6, x23
	mov	x7, x22
	ldp	x20, x19, [sp, #80]
	adrp	x4, .Lstatic.36
	add	x4, x4, :lo12:.Lstatic.36
	ldp	x22, x21, [sp, #64]
	ldp	x24, x23, [sp, #48]
	mov	w5, #11
	ldp	x29, x30, [sp, #32]
	add	sp, sp, #96
	b	"amqp_json::printing::leaves::digits"
.LBB42_2:
	ldp	x3, x4, [sp, #16]
	tbz	w24, #0, .LBB42_5
	adds	x8, x21, #1
	csinv	x8, x8, xzr, lo
	cmp	x8, x20
	b.hi	.LBB42_6
	mov	w9, #44
	strb	w9, [x19, x21]
	b	.LBB42_6
.LBB42_5:
	mov	x8, x21
.LBB42_6:
	adds	x9, x8, #1
	csinv	x2, x9, xzr, lo
	cmp	x2, x20
	b.hi	.LBB42_8
	mov	w9, #34
	strb	w9, [x19, x8]
.LBB42_8:
	mov	x0, x19
	mov	x1, x20
	bl	"amqp_json::printing::put::put_escaped"
	adds	x8, x0, #1
	csinv	x8, x8, xzr, lo
	cmp	x8, x20
	b.hi	.LBB42_10
	mov	w9, #34
	strb	w9, [x19, x0]
.LBB42_10:
	ldp	x20, x19, [sp, #80]
	mov	x0, x8
	ldp	x22, x21, [sp, #64]
	mov	w1, #1
	ldp	x24, x23, [sp, #48]
	ldp	x29, x30, [sp, #32]
	add	sp, sp, #96
	ret
.Lfunc_end42:
	.size	"amqp_json::printing::leaves::long_string", .Lfunc_end42-"amqp_json::printing::leaves::long_string"

	.section	".text.core::str::utf8::from_utf8","ax",@progbits
	.p2align	2
	.type	"core::str::utf8::from_utf8",@function
"core::str::utf8::from_utf8":
	sub	sp, sp, #64
	str	x21, [sp, #32]
	mov	x21, x1
	stp	x20, x19, [sp, #48]
	mov	x20, x2
	mov	x19, x0
	stp	x29, x30, [sp, #16]
	add	x29, sp, #16
	cbz	x2, .LBB43_35
	mov	x1, xzr
	b	.LBB43_4
.LBB43_2:
	mov	x0, sp
	mov	x2, x20
	stp	x21, x20, [sp]
	bl	"core::slice::words::first::<#52f9edcae2f82f51>"
	mov	x1, x0
.LBB43_3:
	cmp	x1, x20
	b.hs	.LBB43_35
.LBB43_4:
	add	x8, x21, x1
	sub	x9, x20, x1
	ldrsb	w10, [x8]
	cmp	x9, #2
	b.lo	.LBB43_7
	tbnz	w10, #31, .LBB43_7
	ldrsb	w8, [x8, #1]
	tbz	w8, #31, .LBB43_2
	b	.LBB43_8
.LBB43_7:
	and	w10, w10, #0xff
	tbnz	w10, #7, .LBB43_10
.LBB43_8:
	mov	w11, #1
.LBB43_9:
	add	x1, x11, x1
	b	.LBB43_3
.LBB43_10:
	cmp	w10, #194
	b.lo	.LBB43_36
	cmp	w10, #223
	b.hi	.LBB43_15
	cmp	x9, #2
	b.lo	.LBB43_34
	ldrsb	w11, [x8, #1]
	cmn	w11, #65
	b.gt	.LBB43_31
	mov	w11, #2
	add	x1, x11, x1
	b	.LBB43_3
.LBB43_15:
	cmp	w10, #239
	b.hi	.LBB43_22
	cmp	x9, #3
	b.lo	.LBB43_29
	ldrsb	w11, [x8, #1]
	cmn	w11, #65
	b.gt	.LBB43_31
	ldrsb	w12, [x8, #2]
	cmn	w12, #65
	b.gt	.LBB43_31
	and	w12, w11, #0xff
	mov	w13, #-14464
	add	w12, w12, w10, lsl #6
	add	w12, w12, w13
	cmp	w12, #32
	b.lo	.LBB43_31
	cmp	w12, #896
	mov	w11, #3
	csel	x13, xzr, x11, lo
	cmp	w12, #864
	b.lo	.LBB43_9
	mov	x11, x13
	b	.LBB43_27
.LBB43_22:
	cmp	x9, #4
	b.lo	.LBB43_28
	ldrsb	w11, [x8, #1]
	cmn	w11, #65
	b.gt	.LBB43_28
	ldrsb	w12, [x8, #2]
	cmn	w12, #65
	b.gt	.LBB43_28
	ldrsb	w12, [x8, #3]
	cmn	w12, #65
	b.gt	.LBB43_28
	and	w11, w11, #0xff
	mov	w12, #-15488
	add	w11, w11, w10, lsl #6
	add	w12, w11, w12
	mov	w11, #4
	cmp	w12, #272
	csel	x11, x11, xzr, lo
	cmp	w12, #16
	b.lo	.LBB43_28
.LBB43_27:
	cbnz	x11, .LBB43_9
.LBB43_28:
	cmp	w10, #244
	b.hi	.LBB43_36
.LBB43_29:
	cmp	x9, #2
	b.lo	.LBB43_34
	ldrb	w11, [x8, #1]
.LBB43_31:
	cmp	w10, #240
	mov	w12, #-128
	mov	w13, #-112
	mov	w14, #-96
	csel	w12, w13, w12, eq
	cmp	w10, #224
	mov	w13, #-65
	csel	w12, w14, w12, eq
	mov	w14, #-113
	cmp	w10, #244
	and	w15, w12, #0xf0
	csel	w12, w14, w13, eq
	cmp	w10, #237
	mov	w10, #-97
	csel	w12, w10, w12, eq
	cmp	w15, w11, uxtb
	mov	w10, #257
	b.hi	.LBB43_37
	and	w11, w11, #0xff
	cmp	w11, w12, uxtb
	b.hi	.LBB43_37
	cmp	x9, #2
	b.ne	.LBB43_38
.LBB43_34:
	mov	x10, xzr
	b	.LBB43_37
.LBB43_35:
	stp	xzr, x21, [x19]
	str	x20, [x19, #16]
	ldp	x20, x19, [sp, #48]
	ldr	x21, [sp, #32]
	ldp	x29, x30, [sp, #16]
	add	sp, sp, #64
	ret
.LBB43_36:
	mov	w10, #257
.LBB43_37:
	mov	w8, #1
	str	x10, [x19, #16]
	stp	x8, x1, [x19]
	ldp	x20, x19, [sp, #48]
	ldr	x21, [sp, #32]
	ldp	x29, x30, [sp, #16]
	add	sp, sp, #64
	ret
.LBB43_38:
	ldrsb	w8, [x8, #2]
	cmn	w8, #65
	b.gt	.LBB43_40
	cmp	x9, #3
	mov	w8, #769
	csel	x10, x8, xzr, hi
	b	.LBB43_37
.LBB43_40:
	mov	w10, #513
	b	.LBB43_37
.Lfunc_end43:
	.size	"core::str::utf8::from_utf8", .Lfunc_end43-"core::str::utf8::from_utf8"

	.section	".text.amqp_json::printing::leaves::natural","ax",@progbits
	.p2align	2
	.type	"amqp_json::printing::leaves::natural",@function
"amqp_json::printing::leaves::natural":
	sub	sp, sp, #112
	movi	v0.2d, #0000000000000000
	lsr	x8, x6, #4
	stp	x20, x19, [sp, #96]
	mov	x20, x1
	mov	x19, x0
	stp	x29, x30, [sp, #48]
	cmp	x8, #625
	adrp	x8, .Lstatic.20
	add	x8, x8, :lo12:.Lstatic.20
	str	x23, [sp, #64]
	add	x29, sp, #48
	stp	x22, x21, [sp, #80]
	str	xzr, [sp, #32]
	stp	q0, q0, [sp]
	b.lo	.LBB44_6
	mov	x9, xzr
.LBB44_2:
	mov	x11, #22859
	mov	x10, x6
	mov	w13, #5243
	movk	x11, #14470, lsl #16
	mov	w14, #57599
	movk	x11, #50646, lsl #32
	movk	w14, #1525, lsl #16
	movk	x11, #13421, lsl #48
	cmp	x6, x14
	umulh	x11, x6, x11
	lsr	x6, x11, #11
	mov	w11, #10000
	msub	w11, w6, w11, w10
	ubfx	w12, w11, #2, #14
	mul	w12, w12, w13
	mov	w13, #100
	lsr	w12, w12, #17
	msub	w11, w12, w13, w11
	mov	x13, sp
	ldrh	w12, [x8, w12, uxtw #1]
	add	x13, x13, x9
	sub	x9, x9, #4
	strh	w12, [x13, #36]
	and	x11, x11, #0xffff
	ldrh	w11, [x8, x11, lsl #1]
	strh	w11, [x13, #38]
	b.hi	.LBB44_2
	add	x9, x9, #40
	cmp	x6, #99
	b.ls	.LBB44_7
.LBB44_4:
	ubfx	w10, w6, #2, #14
	mov	w11, #5243
	cmp	x6, #999
	mul	w10, w10, w11
	mov	w11, #100
	lsr	w10, w10, #17
	msub	w11, w10, w11, w6
	and	x11, x11, #0xffff
	ldrh	w12, [x8, x11, lsl #1]
	mov	x11, sp
	add	x13, x11, x9
	sturh	w12, [x13, #-2]
	b.hi	.LBB44_9
	sub	x21, x9, #3
	orr	w8, w10, #0x30
	strb	w8, [x11, x21]
	tbz	w3, #0, .LBB44_10
	b	.LBB44_12
.LBB44_6:
	mov	w9, #40
	cmp	x6, #99
	b.hi	.LBB44_4
.LBB44_7:
	cmp	x6, #9
	b.hi	.LBB44_11
	sub	x21, x9, #1
	mov	x8, sp
	orr	w9, w6, #0x30
	strb	w9, [x8, x21]
	tbz	w3, #0, .LBB44_10
	b	.LBB44_12
.LBB44_9:
	sub	x21, x9, #4
	ldrh	w8, [x8, w10, uxtw #1]
	strh	w8, [x11, x21]
	tbnz	w3, #0, .LBB44_12
.LBB44_10:
	mov	x9, x2
	adds	x8, x2, #2
	mov	w22, #40
	csinv	x8, x8, xzr, lo
	cmp	x8, x20
	b.hi	.LBB44_14
	b	.LBB44_16
.LBB44_11:
	sub	x21, x9, #2
	ldrh	w8, [x8, x6, lsl #1]
	mov	x9, sp
	strh	w8, [x9, x21]
	tbz	w3, #0, .LBB44_10
.LBB44_12:
	adds	x8, x2, #1
	csinv	x9, x8, xzr, lo
	cmp	x9, x20
	b.ls	.LBB44_15
	adds	x8, x9, #2
	mov	w22, #40
	csinv	x8, x8, xzr, lo
	cmp	x8, x20
	b.ls	.LBB44_16
.LBB44_14:
	adds	x9, x5, x8
	csinv	x23, x9, xzr, lo
	cmp	x23, x20
	b.ls	.LBB44_17
	b	.LBB44_19
.LBB44_15:
	mov	w8, #44
	strb	w8, [x19, x2]
	adds	x8, x9, #2
	mov	w22, #40
	csinv	x8, x8, xzr, lo
	cmp	x8, x20
	b.hi	.LBB44_14
.LBB44_16:
	add	x9, x19, x9
	adrp	x10, .Lstatic.21
	add	x10, x10, :lo12:.Lstatic.21
	sub	x10, x9, x10
	cmp	x10, #1
	mov	w10, #8827
	strh	w10, [x9]
	adds	x9, x5, x8
	csinv	x23, x9, xzr, lo
	cmp	x23, x20
	b.hi	.LBB44_19
.LBB44_17:
	add	x0, x19, x8
	sub	x8, x0, x4
	cmp	x8, x5
	b.hs	.LBB44_24
.LBB44_18:
	ldrb	w8, [x4], #1
	subs	x5, x5, #1
	strb	w8, [x0], #1
	b.ne	.LBB44_18
.LBB44_19:
	adds	x8, x23, #2
	sub	x2, x22, x21
	csinv	x8, x8, xzr, lo
	cmp	x8, x20
	b.ls	.LBB44_25
.LBB44_20:
	adds	x9, x2, x8
	csinv	x22, x9, xzr, lo
	cmp	x22, x20
	b.ls	.LBB44_26
.LBB44_21:
	adds	x8, x22, #1
	csinv	x0, x8, xzr, lo
	cmp	x0, x20
	b.hi	.LBB44_23
.LBB44_22:
	mov	w8, #125
	strb	w8, [x19, x22]
.LBB44_23:
	ldp	x20, x19, [sp, #96]
	mov	w1, #1
	ldp	x22, x21, [sp, #80]
	ldr	x23, [sp, #64]
	ldp	x29, x30, [sp, #48]
	add	sp, sp, #112
	ret
.LBB44_24:
	mov	x1, x4
	mov	x2, x5
	bl	memmove
	adds	x8, x23, #2
	sub	x2, x22, x21
	csinv	x8, x8, xzr, lo
	cmp	x8, x20
	b.hi	.LBB44_20
.LBB44_25:
	add	x9, x19, x23
	adrp	x10, .Lstatic.6
	add	x10, x10, :lo12:.Lstatic.6
	sub	x10, x9, x10
	cmp	x10, #1
	mov	w10, #14882
	strh	w10, [x9]
	adds	x9, x2, x8
	csinv	x22, x9, xzr, lo
	cmp	x22, x20
	b.hi	.LBB44_21
.LBB44_26:
	mov	x9, sp
	add	x0, x19, x8
	add	x1, x9, x21
	bl	memcpy
	adds	x8, x22, #1
	csinv	x0, x8, xzr, lo
	cmp	x0, x20
	b.ls	.LBB44_22
	b	.LBB44_23
.Lfunc_end44:
	.size	"amqp_json::printing::leaves::natural", .Lfunc_end44-"amqp_json::printing::leaves::natural"

	.section	".text.amqp_json::printing::leaves::digits","ax",@progbits
	.p2align	2
	.type	"amqp_json::printing::leaves::digits",@function
"amqp_json::printing::leaves::digits":
	stp	x29, x30, [sp, #-64]!
	str	x23, [sp, #16]
	mov	x29, sp
	stp	x22, x21, [sp, #32]
	stp	x20, x19, [sp, #48]
	tbz	w3, #0, .LBB45_4
	adds	x8, x2, #1
	csinv	x9, x8, xzr, lo
	cmp	x9, x1
	b.ls	.LBB45_5
	adds	x8, x9, #2
	csinv	x8, x8, xzr, lo
	cmp	x8, x1
	b.ls	.LBB45_6
.LBB45_3:
	adds	x9, x5, x8
	csinv	x19, x9, xzr, lo
	cmp	x19, x1
	b.ls	.LBB45_7
	b	.LBB45_9
.LBB45_4:
	mov	x9, x2
	adds	x8, x2, #2
	csinv	x8, x8, xzr, lo
	cmp	x8, x1
	b.hi	.LBB45_3
	b	.LBB45_6
.LBB45_5:
	mov	w8, #44
	strb	w8, [x0, x2]
	adds	x8, x9, #2
	csinv	x8, x8, xzr, lo
	cmp	x8, x1
	b.hi	.LBB45_3
.LBB45_6:
	add	x9, x0, x9
	adrp	x10, .Lstatic.21
	add	x10, x10, :lo12:.Lstatic.21
	sub	x10, x9, x10
	cmp	x10, #1
	mov	w10, #8827
	strh	w10, [x9]
	adds	x9, x5, x8
	csinv	x19, x9, xzr, lo
	cmp	x19, x1
	b.hi	.LBB45_9
.LBB45_7:
	add	x8, x0, x8
	sub	x9, x8, x4
	cmp	x9, x5
	b.hs	.LBB45_12
.LBB45_8:
	ldrb	w9, [x4], #1
	subs	x5, x5, #1
	strb	w9, [x8], #1
	b.ne	.LBB45_8
.LBB45_9:
	adds	x8, x19, #2
	csinv	x8, x8, xzr, lo
	cmp	x8, x1
	b.ls	.LBB45_13
.LBB45_10:
	adds	x9, x19, #3
	csinv	x9, x9, xzr, lo
	cmp	x9, x1
	b.ls	.LBB45_14
.LBB45_11:
	adds	x8, x9, x7, lsl #1
	csinv	x8, x8, xzr, lo
	cmp	x1, x8
	b.hs	.LBB45_15
	b	.LBB45_20
.LBB45_12:
	mov	x20, x0
	mov	x0, x8
	mov	x21, x1
	mov	x1, x4
	mov	x2, x5
	mov	x22, x7
	mov	x23, x6
	bl	memmove
	mov	x6, x23
	mov	x7, x22
	mov	x1, x21
	mov	x0, x20
	adds	x8, x19, #2
	csinv	x8, x8, xzr, lo
	cmp	x8, x21
	b.hi	.LBB45_10
.LBB45_13:
	add	x9, x0, x19
	adrp	x10, .Lstatic.6
	add	x10, x10, :lo12:.Lstatic.6
	sub	x10, x9, x10
	cmp	x10, #1
	mov	w10, #14882
	strh	w10, [x9]
	adds	x9, x19, #3
	csinv	x9, x9, xzr, lo
	cmp	x9, x1
	b.hi	.LBB45_11
.LBB45_14:
	mov	w10, #34
	strb	w10, [x0, x8]
	adds	x8, x9, x7, lsl #1
	csinv	x8, x8, xzr, lo
	cmp	x1, x8
	b.lo	.LBB45_20
.LBB45_15:
	sub	x9, x8, x9
	tbnz	w9, #0, .LBB45_25
	lsr	x9, x9, #1
	cmp	x9, x7
	b.ne	.LBB45_25
	cbz	x7, .LBB45_20
	cmn	x19, #4
	mov	x9, #-4
	csel	x9, x19, x9, lo
	add	x9, x9, x0
	add	x9, x9, #4
.LBB45_19:
	ldrb	w10, [x6], #1
	adrp	x12, .Lstatic.37
	add	x12, x12, :lo12:.Lstatic.37
	subs	x7, x7, #1
	lsr	x11, x10, #4
	and	x10, x10, #0xf
	ldrb	w11, [x12, x11]
	sturb	w11, [x9, #-1]
	ldrb	w10, [x12, x10]
	strb	w10, [x9], #2
	b.ne	.LBB45_19
.LBB45_20:
	adds	x9, x8, #1
	csinv	x9, x9, xzr, lo
	cmp	x9, x1
	b.hi	.LBB45_22
	mov	w10, #34
	strb	w10, [x0, x8]
.LBB45_22:
	adds	x8, x8, #2
	csinv	x8, x8, xzr, lo
	cmp	x8, x1
	b.hi	.LBB45_24
	mov	w10, #125
	strb	w10, [x0, x9]
.LBB45_24:
	ldp	x20, x19, [sp, #48]
	mov	x0, x8
	ldp	x22, x21, [sp, #32]
	mov	w1, #1
	ldr	x23, [sp, #16]
	ldp	x29, x30, [sp], #64
	ret
.LBB45_25:
	brk	#0x1
.Lfunc_end45:
	.size	"amqp_json::printing::leaves::digits", .Lfunc_end45-"amqp_json::printing::leaves::digits"

	.section	".text.unlikely.amqp_c::key::is_other_key","ax",@progbits
	.p2align	2
	.type	"amqp_c::key::is_other_key",@function
"amqp_c::key::is_other_key":
	sub	sp, sp, #48
	mov	x8, x1
	cmp	x1, #255
	stp	x29, x30, [sp, #32]
	add	x29, sp, #32
	stp	xzr, xzr, [sp, #8]
	str	xzr, [sp, #24]
	b.hi	.LBB46_3
	tst	w2, #0xff
	b.eq	.LBB46_4
	mov	w0, #1
	ldp	x29, x30, [sp, #32]
	add	sp, sp, #48
	ret
.LBB46_3:
	mov	w0, wzr
	ldp	x29, x30, [sp, #32]
	add	sp, sp, #48
	ret
.LBB46_4:
	mov	x1, x0
	add	x0, sp, #8
	mov	x2, x8
	bl	"core::str::utf8::from_utf8"
	ldrb	w8, [sp, #8]
	cmp	w8, #0
	cset	w0, eq
	ldp	x29, x30, [sp, #32]
	add	sp, sp, #48
	ret
.Lfunc_end46:
	.size	"amqp_c::key::is_other_key", .Lfunc_end46-"amqp_c::key::is_other_key"

	.section	".text.amqp_c::buffer::write_long","ax",@progbits
	.p2align	2
	.type	"amqp_c::buffer::write_long",@function
"amqp_c::buffer::write_long":
	add	x8, x0, x1
	sub	x9, x8, x2
	cmp	x9, x3
	b.hs	.LBB47_5
	add	x12, x1, x0
	sub	x8, x12, x2
	cmp	x8, #32
	b.hs	.LBB47_6
	mov	x8, xzr
.LBB47_3:
	add	x10, x8, x1
	sub	x9, x3, x8
	add	x8, x2, x8
	add	x10, x0, x10
.LBB47_4:
	ldrb	w11, [x8], #1
	subs	x9, x9, #1
	strb	w11, [x10], #1
	b.ne	.LBB47_4
	b	.LBB47_13
.LBB47_5:
	mov	x0, x8
	mov	x1, x2
	mov	x2, x3
	b	memmove
.LBB47_6:
	and	x10, x3, #0x18
	and	x9, x3, #0xffffffffffffffe0
	and	x8, x3, #0xffffffffffffffe0
	add	x11, x2, #16
	add	x12, x12, #16
	and	x13, x3, #0xffffffffffffffe0
.LBB47_7:
	ldp	q0, q1, [x11, #-16]
	subs	x13, x13, #32
	add	x11, x11, #32
	stp	q0, q1, [x12, #-16]
	add	x12, x12, #32
	b.ne	.LBB47_7
	cmp	x3, x9
	b.eq	.LBB47_13
	cbz	x10, .LBB47_3
	and	x8, x3, #0xfffffffffffffff8
	add	x11, x1, x9
	sub	x10, x8, x9
	add	x9, x2, x9
	add	x11, x0, x11
.LBB47_11:
	ldr	d0, [x9], #8
	subs	x10, x10, #8
	str	d0, [x11], #8
	b.ne	.LBB47_11
	cmp	x3, x8
	b.ne	.LBB47_3
.LBB47_13:
	ret
.Lfunc_end47:
	.size	"amqp_c::buffer::write_long", .Lfunc_end47-"amqp_c::buffer::write_long"

	.section	".text.unlikely.amqp_c::number::is_scalar_tag","ax",@progbits
	.p2align	2
	.type	"amqp_c::number::is_scalar_tag",@function
"amqp_c::number::is_scalar_tag":
	and	w8, w0, #0xff
	mov	w0, wzr
	sub	w9, w8, #66
	cmp	w9, #51
	b.hi	.LBB48_3
	mov	x11, #133
	mov	w10, #1
	movk	x11, #20, lsl #16
	lsl	x10, x10, x9
	movk	x11, #149, lsl #32
	movk	x11, #12, lsl #48
	tst	x10, x11
	mov	w10, w8
	b.eq	.LBB48_4
.LBB48_2:
	cmp	w8, w10
	cset	w0, eq
.LBB48_3:
	ret
.LBB48_4:
	mov	w10, #1
	lsl	x10, x10, x9
	tst	x10, #0x40000000400
	b.ne	.LBB48_7
	mov	w10, #1
	lsl	x9, x10, x9
	and	x9, x9, #0x3fffffff80000
	tst	x9, #0xfffe0000000fffff
	b.eq	.LBB48_3
	mov	w10, #115
	b	.LBB48_2
.LBB48_7:
	mov	w10, #108
	b	.LBB48_2
.Lfunc_end48:
	.size	"amqp_c::number::is_scalar_tag", .Lfunc_end48-"amqp_c::number::is_scalar_tag"

	.section	.text.amqpv_version,"ax",@progbits
	.globl	amqpv_version
	.p2align	2
	.type	amqpv_version,@function
amqpv_version:
	mov	w0, #100
	ret
.Lfunc_end49:
	.size	amqpv_version, .Lfunc_end49-amqpv_version

	.section	.text.amqpv_as_int,"ax",@progbits
	.globl	amqpv_as_int
	.p2align	2
	.type	amqpv_as_int,@function
amqpv_as_int:
	ldrb	w9, [x0, #56]
	mov	x8, x0
	mov	w0, #-15
	sub	w9, w9, #66
	cmp	w9, #51
	b.hi	.LBB50_6
	mov	w10, #1
	mov	x11, #128
	lsl	x10, x10, x9
	movk	x11, #1025, lsl #32
	movk	x11, #2, lsl #48
	tst	x10, x11
	b.eq	.LBB50_3
	ldr	x8, [x8, #48]
	b	.LBB50_5
.LBB50_3:
	mov	w10, #1
	lsl	x9, x10, x9
	mov	x10, #1
	movk	x10, #128, lsl #32
	movk	x10, #8, lsl #48
	tst	x9, x10
	b.eq	.LBB50_6
	ldr	x8, [x8, #48]
	tbnz	x8, #63, .LBB50_7
.LBB50_5:
	mov	w0, wzr
	str	x8, [x1]
.LBB50_6:
	ret
.LBB50_7:
	mov	w0, #-16
	ret
.Lfunc_end50:
	.size	amqpv_as_int, .Lfunc_end50-amqpv_as_int

	.section	.text.amqpv_as_uint,"ax",@progbits
	.globl	amqpv_as_uint
	.p2align	2
	.type	amqpv_as_uint,@function
amqpv_as_uint:
	ldrb	w9, [x0, #56]
	mov	x8, x0
	mov	w0, #-15
	sub	w9, w9, #66
	cmp	w9, #51
	b.hi	.LBB51_7
	mov	w10, #1
	mov	x11, #128
	lsl	x10, x10, x9
	movk	x11, #1025, lsl #32
	movk	x11, #2, lsl #48
	tst	x10, x11
	b.eq	.LBB51_4
	ldr	x8, [x8, #48]
	tbnz	x8, #63, .LBB51_6
	mov	w0, wzr
	str	x8, [x1]
	ret
.LBB51_4:
	mov	w10, #1
	lsl	x9, x10, x9
	mov	x10, #1
	movk	x10, #128, lsl #32
	movk	x10, #8, lsl #48
	tst	x9, x10
	b.eq	.LBB51_7
	ldr	x8, [x8, #48]
	mov	w0, wzr
	str	x8, [x1]
	ret
.LBB51_6:
	mov	w0, #-16
.LBB51_7:
	ret
.Lfunc_end51:
	.size	amqpv_as_uint, .Lfunc_end51-amqpv_as_uint

	.section	.text.amqpv_next,"ax",@progbits
	.globl	amqpv_next
	.p2align	2
	.type	amqpv_next,@function
amqpv_next:
	ldrb	w8, [x1, #16]
	ldp	x15, x14, [x1]
	ldr	x9, [x0]
	cmp	w8, #70
	b.eq	.LBB52_2
	cmp	w8, #65
	b.ne	.LBB52_8
.LBB52_2:
	ldr	x10, [x0, #8]
	mov	w0, #-13
	subs	x10, x10, x15
	b.lo	.LBB52_49
	cmp	x10, x14
	b.lo	.LBB52_49
	cbz	x14, .LBB52_9
	cmp	w8, #70
	add	x13, x9, x15
	b.ne	.LBB52_10
	ldrb	w12, [x13]
	sub	x10, x14, #1
	cmp	x10, x12
	b.hs	.LBB52_15
	mov	w0, #-3
	ret
.LBB52_8:
	mov	w0, #-13
	ret
.LBB52_9:
	mov	w0, #1
	ret
.LBB52_10:
	ldrb	w11, [x13]
	mov	w0, #-3
	sub	w12, w11, #65
	cmp	w12, #55
	b.hi	.LBB52_49
	adrp	x16, .LJTI52_0
	add	x16, x16, :lo12:.LJTI52_0
	mov	x10, xzr
	adr	x17, .LBB52_12
	ldrb	w18, [x16, x12]
	add	x17, x17, x18, lsl #2
	mov	w9, wzr
	sub	x12, x14, #1
	br	x17
.LBB52_12:
	subs	x9, x14, #5
	b.lo	.LBB52_49
	ldur	w10, [x13, #1]
	rev	w18, w10
	cmp	x9, x18
	b.lo	.LBB52_49
	mov	x10, xzr
	mov	w9, wzr
	add	x17, x18, #5
	mov	w16, #5
	b	.LBB52_47
.LBB52_15:
	add	x13, x15, #1
	add	x14, x14, x15
	add	x16, x13, x12
	subs	x15, x14, x16
	b.ne	.LBB52_17
	mov	w0, #-3
	ret
.LBB52_17:
	add	x18, x9, x16
	mov	w0, #-3
	ldrb	w11, [x18]
	sub	w17, w11, #65
	cmp	w17, #55
	b.hi	.LBB52_49
	adrp	x3, .LJTI52_1
	add	x3, x3, :lo12:.LJTI52_1
	mov	x10, xzr
	adr	x4, .LBB52_19
	ldrb	w5, [x3, x17]
	add	x4, x4, x5, lsl #2
	mov	w9, wzr
	sub	x17, x15, #1
	br	x4
.LBB52_19:
	subs	x9, x15, #5
	b.lo	.LBB52_49
	ldur	w10, [x18, #1]
	rev	w18, w10
	cmp	x9, x18
	b.lo	.LBB52_49
	mov	w0, #5
	mov	x10, xzr
	mov	w9, wzr
	add	x17, x18, #5
	add	x3, x0, x16
	b	.LBB52_48
.LBB52_22:
	cmp	x12, #2
	b.lo	.LBB52_49
	ldrb	w10, [x13, #1]
	ldrb	w11, [x13, #2]
	mov	w9, wzr
	sub	x12, x14, #3
	lsl	x10, x10, #56
	orr	x10, x10, x11, lsl #48
	mov	w11, #115
	asr	x10, x10, #48
	b	.LBB52_46
.LBB52_24:
	cmp	x12, #8
	b.lo	.LBB52_49
	ldur	x10, [x13, #1]
	mov	w9, wzr
	sub	x12, x14, #9
	mov	w11, #108
	rev	x10, x10
	b	.LBB52_46
.LBB52_26:
	cmp	x12, #8
	b.lo	.LBB52_49
	ldur	x10, [x13, #1]
	mov	w9, wzr
	sub	x12, x14, #9
	mov	w11, #100
	rev	x10, x10
	b	.LBB52_46
.LBB52_28:
	cmp	x12, #4
	b.lo	.LBB52_49
	ldur	w10, [x13, #1]
	mov	w9, wzr
	sub	x12, x14, #5
	mov	w11, #102
	rev	w10, w10
	b	.LBB52_46
.LBB52_30:
	cbz	x12, .LBB52_49
	ldrb	w10, [x13, #1]
	mov	w9, wzr
	sub	x12, x14, #2
	mov	w11, #116
	cmp	w10, #0
	cset	w10, ne
	b	.LBB52_46
.LBB52_32:
	cmp	x12, #4
	b.lo	.LBB52_49
	ldur	w10, [x13, #1]
	mov	w9, wzr
	sub	x12, x14, #5
	mov	w11, #105
	rev	w10, w10
	b	.LBB52_46
.LBB52_34:
	cmp	x12, #8
	b.lo	.LBB52_49
	ldur	x10, [x13, #1]
	mov	w9, wzr
	sub	x12, x14, #9
	mov	w11, #84
	rev	x10, x10
	b	.LBB52_46
.LBB52_36:
	cbz	x12, .LBB52_49
	ldrsb	x10, [x13, #1]
	mov	w9, wzr
	sub	x12, x14, #2
	mov	w11, #98
	b	.LBB52_46
.LBB52_38:
	subs	x12, x14, #6
	b.lo	.LBB52_49
	ldur	w10, [x13, #2]
	ldrb	w9, [x13, #1]
	mov	w11, #68
	rev	w10, w10
	b	.LBB52_46
.LBB52_40:
	cbz	x12, .LBB52_49
	ldrb	w10, [x13, #1]
	mov	w9, wzr
	sub	x12, x14, #2
	mov	w11, #66
	b	.LBB52_46
.LBB52_42:
	cmp	x12, #4
	b.lo	.LBB52_49
	ldur	w10, [x13, #1]
	mov	w9, wzr
	sub	x12, x14, #5
	mov	w11, #73
	rev	w10, w10
	sxtw	x10, w10
	b	.LBB52_46
.LBB52_44:
	cmp	x12, #2
	b.lo	.LBB52_49
	ldurh	w10, [x13, #1]
	mov	w9, wzr
	sub	x12, x14, #3
	mov	w11, #117
	rev16	w10, w10
.LBB52_46:
	mov	x16, xzr
	mov	x18, xzr
	sub	x17, x14, x12
.LBB52_47:
	mov	x13, xzr
	mov	x12, xzr
	add	x3, x16, x15
	add	x14, x14, x15
	mov	x16, x15
.LBB52_48:
	str	x10, [x2, #48]
	add	x10, x17, x16
	mov	w0, wzr
	strb	w9, [x2, #57]
	sub	x9, x14, x10
	stp	x13, x12, [x2]
	stp	x16, x17, [x2, #16]
	stp	x3, x18, [x2, #32]
	strb	w11, [x2, #56]
	stp	x10, x9, [x1]
	strb	w8, [x1, #16]
.LBB52_49:
	ret
.LBB52_50:
	cmp	x17, #2
	b.lo	.LBB52_49
	ldrb	w10, [x18, #1]
	ldrb	w11, [x18, #2]
	mov	w9, wzr
	sub	x17, x15, #3
	lsl	x10, x10, #56
	orr	x10, x10, x11, lsl #48
	mov	w11, #115
	asr	x10, x10, #48
	b	.LBB52_74
.LBB52_52:
	cmp	x17, #8
	b.lo	.LBB52_49
	ldur	x10, [x18, #1]
	mov	w9, wzr
	sub	x17, x15, #9
	mov	w11, #108
	rev	x10, x10
	b	.LBB52_74
.LBB52_54:
	cmp	x17, #8
	b.lo	.LBB52_49
	ldur	x10, [x18, #1]
	mov	w9, wzr
	sub	x17, x15, #9
	mov	w11, #100
	rev	x10, x10
	b	.LBB52_74
.LBB52_56:
	cmp	x17, #4
	b.lo	.LBB52_49
	ldur	w10, [x18, #1]
	mov	w9, wzr
	sub	x17, x15, #5
	mov	w11, #102
	rev	w10, w10
	b	.LBB52_74
.LBB52_58:
	cbz	x17, .LBB52_49
	ldrb	w10, [x18, #1]
	mov	w9, wzr
	sub	x17, x15, #2
	mov	w11, #116
	cmp	w10, #0
	cset	w10, ne
	b	.LBB52_74
.LBB52_60:
	cmp	x17, #4
	b.lo	.LBB52_49
	ldur	w10, [x18, #1]
	mov	w9, wzr
	sub	x17, x15, #5
	mov	w11, #105
	rev	w10, w10
	b	.LBB52_74
.LBB52_62:
	cmp	x17, #8
	b.lo	.LBB52_49
	ldur	x10, [x18, #1]
	mov	w9, wzr
	sub	x17, x15, #9
	mov	w11, #84
	rev	x10, x10
	b	.LBB52_74
.LBB52_64:
	cbz	x17, .LBB52_49
	ldrsb	x10, [x18, #1]
	mov	w9, wzr
	sub	x17, x15, #2
	mov	w11, #98
	b	.LBB52_74
.LBB52_66:
	subs	x17, x15, #6
	b.lo	.LBB52_49
	ldur	w10, [x18, #2]
	ldrb	w9, [x18, #1]
	mov	w11, #68
	rev	w10, w10
	b	.LBB52_74
.LBB52_68:
	cbz	x17, .LBB52_49
	ldrb	w10, [x18, #1]
	mov	w9, wzr
	sub	x17, x15, #2
	mov	w11, #66
	b	.LBB52_74
.LBB52_70:
	cmp	x17, #4
	b.lo	.LBB52_49
	ldur	w10, [x18, #1]
	mov	w9, wzr
	sub	x17, x15, #5
	mov	w11, #73
	rev	w10, w10
	sxtw	x10, w10
	b	.LBB52_74
.LBB52_72:
	cmp	x17, #2
	b.lo	.LBB52_49
	ldurh	w10, [x18, #1]
	mov	w9, wzr
	sub	x17, x15, #3
	mov	w11, #117
	rev16	w10, w10
.LBB52_74:
	mov	x18, xzr
	sub	x17, x15, x17
	add	x3, xzr, x16
	b	.LBB52_48
.Lfunc_end52:
	.size	amqpv_next, .Lfunc_end52-amqpv_next
	.section	.rodata.amqpv_next,"a",@progbits
.LJTI52_0:
	.byte	(.LBB52_12-.LBB52_12)>>2
	.byte	(.LBB52_40-.LBB52_12)>>2
	.byte	(.LBB52_49-.LBB52_12)>>2
	.byte	(.LBB52_38-.LBB52_12)>>2
	.byte	(.LBB52_49-.LBB52_12)>>2
	.byte	(.LBB52_12-.LBB52_12)>>2
	.byte	(.LBB52_49-.LBB52_12)>>2
	.byte	(.LBB52_49-.LBB52_12)>>2
	.byte	(.LBB52_42-.LBB52_12)>>2
	.byte	(.LBB52_49-.LBB52_12)>>2
	.byte	(.LBB52_49-.LBB52_12)>>2
	.byte	(.LBB52_24-.LBB52_12)>>2
	.byte	(.LBB52_49-.LBB52_12)>>2
	.byte	(.LBB52_49-.LBB52_12)>>2
	.byte	(.LBB52_49-.LBB52_12)>>2
	.byte	(.LBB52_49-.LBB52_12)>>2
	.byte	(.LBB52_49-.LBB52_12)>>2
	.byte	(.LBB52_49-.LBB52_12)>>2
	.byte	(.LBB52_12-.LBB52_12)>>2
	.byte	(.LBB52_34-.LBB52_12)>>2
	.byte	(.LBB52_22-.LBB52_12)>>2
	.byte	(.LBB52_46-.LBB52_12)>>2
	.byte	(.LBB52_49-.LBB52_12)>>2
	.byte	(.LBB52_49-.LBB52_12)>>2
	.byte	(.LBB52_49-.LBB52_12)>>2
	.byte	(.LBB52_49-.LBB52_12)>>2
	.byte	(.LBB52_49-.LBB52_12)>>2
	.byte	(.LBB52_49-.LBB52_12)>>2
	.byte	(.LBB52_49-.LBB52_12)>>2
	.byte	(.LBB52_49-.LBB52_12)>>2
	.byte	(.LBB52_49-.LBB52_12)>>2
	.byte	(.LBB52_49-.LBB52_12)>>2
	.byte	(.LBB52_49-.LBB52_12)>>2
	.byte	(.LBB52_36-.LBB52_12)>>2
	.byte	(.LBB52_49-.LBB52_12)>>2
	.byte	(.LBB52_26-.LBB52_12)>>2
	.byte	(.LBB52_49-.LBB52_12)>>2
	.byte	(.LBB52_28-.LBB52_12)>>2
	.byte	(.LBB52_49-.LBB52_12)>>2
	.byte	(.LBB52_49-.LBB52_12)>>2
	.byte	(.LBB52_32-.LBB52_12)>>2
	.byte	(.LBB52_49-.LBB52_12)>>2
	.byte	(.LBB52_49-.LBB52_12)>>2
	.byte	(.LBB52_24-.LBB52_12)>>2
	.byte	(.LBB52_49-.LBB52_12)>>2
	.byte	(.LBB52_49-.LBB52_12)>>2
	.byte	(.LBB52_49-.LBB52_12)>>2
	.byte	(.LBB52_49-.LBB52_12)>>2
	.byte	(.LBB52_49-.LBB52_12)>>2
	.byte	(.LBB52_49-.LBB52_12)>>2
	.byte	(.LBB52_22-.LBB52_12)>>2
	.byte	(.LBB52_30-.LBB52_12)>>2
	.byte	(.LBB52_44-.LBB52_12)>>2
	.byte	(.LBB52_49-.LBB52_12)>>2
	.byte	(.LBB52_49-.LBB52_12)>>2
	.byte	(.LBB52_12-.LBB52_12)>>2
.LJTI52_1:
	.byte	(.LBB52_19-.LBB52_19)>>2
	.byte	(.LBB52_68-.LBB52_19)>>2
	.byte	(.LBB52_49-.LBB52_19)>>2
	.byte	(.LBB52_66-.LBB52_19)>>2
	.byte	(.LBB52_49-.LBB52_19)>>2
	.byte	(.LBB52_19-.LBB52_19)>>2
	.byte	(.LBB52_49-.LBB52_19)>>2
	.byte	(.LBB52_49-.LBB52_19)>>2
	.byte	(.LBB52_70-.LBB52_19)>>2
	.byte	(.LBB52_49-.LBB52_19)>>2
	.byte	(.LBB52_49-.LBB52_19)>>2
	.byte	(.LBB52_52-.LBB52_19)>>2
	.byte	(.LBB52_49-.LBB52_19)>>2
	.byte	(.LBB52_49-.LBB52_19)>>2
	.byte	(.LBB52_49-.LBB52_19)>>2
	.byte	(.LBB52_49-.LBB52_19)>>2
	.byte	(.LBB52_49-.LBB52_19)>>2
	.byte	(.LBB52_49-.LBB52_19)>>2
	.byte	(.LBB52_19-.LBB52_19)>>2
	.byte	(.LBB52_62-.LBB52_19)>>2
	.byte	(.LBB52_50-.LBB52_19)>>2
	.byte	(.LBB52_74-.LBB52_19)>>2
	.byte	(.LBB52_49-.LBB52_19)>>2
	.byte	(.LBB52_49-.LBB52_19)>>2
	.byte	(.LBB52_49-.LBB52_19)>>2
	.byte	(.LBB52_49-.LBB52_19)>>2
	.byte	(.LBB52_49-.LBB52_19)>>2
	.byte	(.LBB52_49-.LBB52_19)>>2
	.byte	(.LBB52_49-.LBB52_19)>>2
	.byte	(.LBB52_49-.LBB52_19)>>2
	.byte	(.LBB52_49-.LBB52_19)>>2
	.byte	(.LBB52_49-.LBB52_19)>>2
	.byte	(.LBB52_49-.LBB52_19)>>2
	.byte	(.LBB52_64-.LBB52_19)>>2
	.byte	(.LBB52_49-.LBB52_19)>>2
	.byte	(.LBB52_54-.LBB52_19)>>2
	.byte	(.LBB52_49-.LBB52_19)>>2
	.byte	(.LBB52_56-.LBB52_19)>>2
	.byte	(.LBB52_49-.LBB52_19)>>2
	.byte	(.LBB52_49-.LBB52_19)>>2
	.byte	(.LBB52_60-.LBB52_19)>>2
	.byte	(.LBB52_49-.LBB52_19)>>2
	.byte	(.LBB52_49-.LBB52_19)>>2
	.byte	(.LBB52_52-.LBB52_19)>>2
	.byte	(.LBB52_49-.LBB52_19)>>2
	.byte	(.LBB52_49-.LBB52_19)>>2
	.byte	(.LBB52_49-.LBB52_19)>>2
	.byte	(.LBB52_49-.LBB52_19)>>2
	.byte	(.LBB52_49-.LBB52_19)>>2
	.byte	(.LBB52_49-.LBB52_19)>>2
	.byte	(.LBB52_50-.LBB52_19)>>2
	.byte	(.LBB52_58-.LBB52_19)>>2
	.byte	(.LBB52_72-.LBB52_19)>>2
	.byte	(.LBB52_49-.LBB52_19)>>2
	.byte	(.LBB52_49-.LBB52_19)>>2
	.byte	(.LBB52_19-.LBB52_19)>>2

	.section	.text.amqpv_peek,"ax",@progbits
	.globl	amqpv_peek
	.p2align	2
	.type	amqpv_peek,@function
amqpv_peek:
	ldr	w8, [x0, #24]
	cmp	w8, #31
	b.ls	.LBB53_2
	mov	w0, #-13
	ret
.LBB53_2:
	sub	sp, sp, #16
	ldr	x9, [x0, #8]
	tbnz	w8, #0, .LBB53_9
	cbz	x9, .LBB53_11
	ldr	x13, [x0]
	mov	w0, #-2
	ldrb	w11, [x13]
	sub	w12, w11, #65
	cmp	w12, #55
	b.hi	.LBB53_12
	adrp	x14, .LJTI53_0
	add	x14, x14, :lo12:.LJTI53_0
	mov	x10, xzr
	adr	x15, .LBB53_6
	ldrb	w16, [x14, x12]
	add	x15, x15, x16, lsl #2
	mov	w8, wzr
	sub	x12, x9, #1
	br	x15
.LBB53_6:
	subs	x8, x9, #5
	b.lo	.LBB53_11
	ldur	w9, [x13, #1]
	rev	w13, w9
	cmp	x8, x13
	b.lo	.LBB53_11
	mov	w8, wzr
	mov	x10, xzr
	strh	wzr, [sp, #12]
	add	x9, x13, #5
	str	wzr, [sp, #8]
	mov	w14, #5
	b	.LBB53_39
.LBB53_9:
	subs	x8, x9, #4
	b.lo	.LBB53_11
	ldr	x9, [x0]
	ldr	w9, [x9]
	rev	w13, w9
	cmp	x8, x13
	b.hs	.LBB53_13
.LBB53_11:
	mov	w0, #-1
.LBB53_12:
	add	sp, sp, #16
	ret
.LBB53_13:
	mov	x10, xzr
	mov	w8, wzr
	add	x9, x13, #4
	strh	wzr, [sp, #4]
	mov	w11, #70
	mov	w14, #4
	str	wzr, [sp]
	b	.LBB53_40
.LBB53_14:
	cmp	x12, #2
	b.lo	.LBB53_11
	ldrb	w10, [x13, #1]
	ldrb	w11, [x13, #2]
	mov	w8, wzr
	sub	x12, x9, #3
	lsl	x10, x10, #56
	orr	x10, x10, x11, lsl #48
	mov	w11, #115
	asr	x10, x10, #48
	b	.LBB53_38
.LBB53_16:
	cmp	x12, #8
	b.lo	.LBB53_11
	ldur	x10, [x13, #1]
	mov	w8, wzr
	sub	x12, x9, #9
	mov	w11, #108
	rev	x10, x10
	b	.LBB53_38
.LBB53_18:
	cmp	x12, #8
	b.lo	.LBB53_11
	ldur	x10, [x13, #1]
	mov	w8, wzr
	sub	x12, x9, #9
	mov	w11, #100
	rev	x10, x10
	b	.LBB53_38
.LBB53_20:
	cmp	x12, #4
	b.lo	.LBB53_11
	ldur	w10, [x13, #1]
	mov	w8, wzr
	sub	x12, x9, #5
	mov	w11, #102
	rev	w10, w10
	b	.LBB53_38
.LBB53_22:
	cbz	x12, .LBB53_11
	ldrb	w10, [x13, #1]
	mov	w8, wzr
	sub	x12, x9, #2
	mov	w11, #116
	cmp	w10, #0
	cset	w10, ne
	b	.LBB53_38
.LBB53_24:
	cmp	x12, #4
	b.lo	.LBB53_11
	ldur	w10, [x13, #1]
	mov	w8, wzr
	sub	x12, x9, #5
	mov	w11, #105
	rev	w10, w10
	b	.LBB53_38
.LBB53_26:
	cmp	x12, #8
	b.lo	.LBB53_11
	ldur	x10, [x13, #1]
	mov	w8, wzr
	sub	x12, x9, #9
	mov	w11, #84
	rev	x10, x10
	b	.LBB53_38
.LBB53_28:
	cbz	x12, .LBB53_11
	ldrsb	x10, [x13, #1]
	mov	w8, wzr
	sub	x12, x9, #2
	mov	w11, #98
	b	.LBB53_38
.LBB53_30:
	subs	x12, x9, #6
	b.lo	.LBB53_11
	ldur	w10, [x13, #2]
	ldrb	w8, [x13, #1]
	mov	w11, #68
	rev	w10, w10
	b	.LBB53_38
.LBB53_32:
	cbz	x12, .LBB53_11
	ldrb	w10, [x13, #1]
	mov	w8, wzr
	sub	x12, x9, #2
	mov	w11, #66
	b	.LBB53_38
.LBB53_34:
	cmp	x12, #4
	b.lo	.LBB53_11
	ldur	w10, [x13, #1]
	mov	w8, wzr
	sub	x12, x9, #5
	mov	w11, #73
	rev	w10, w10
	sxtw	x10, w10
	b	.LBB53_38
.LBB53_36:
	cmp	x12, #2
	b.lo	.LBB53_11
	ldurh	w10, [x13, #1]
	mov	w8, wzr
	sub	x12, x9, #3
	mov	w11, #117
	rev16	w10, w10
.LBB53_38:
	mov	x14, xzr
	mov	x13, xzr
	sub	x9, x9, x12
	strh	wzr, [sp, #12]
	str	wzr, [sp, #8]
.LBB53_39:
	ldr	w12, [sp, #8]
	ldrh	w15, [sp, #12]
	str	w12, [sp]
	strh	w15, [sp, #4]
.LBB53_40:
	stp	xzr, x9, [x1, #16]
	ldr	w9, [sp]
	mov	w0, wzr
	strb	w8, [x1, #57]
	ldrh	w8, [sp, #4]
	stp	xzr, xzr, [x1]
	stp	x14, x13, [x1, #32]
	str	x10, [x1, #48]
	strb	w11, [x1, #56]
	stur	w9, [x1, #58]
	strh	w8, [x1, #62]
	add	sp, sp, #16
	ret
.Lfunc_end53:
	.size	amqpv_peek, .Lfunc_end53-amqpv_peek
	.section	.rodata.amqpv_peek,"a",@progbits
.LJTI53_0:
	.byte	(.LBB53_6-.LBB53_6)>>2
	.byte	(.LBB53_32-.LBB53_6)>>2
	.byte	(.LBB53_12-.LBB53_6)>>2
	.byte	(.LBB53_30-.LBB53_6)>>2
	.byte	(.LBB53_12-.LBB53_6)>>2
	.byte	(.LBB53_6-.LBB53_6)>>2
	.byte	(.LBB53_12-.LBB53_6)>>2
	.byte	(.LBB53_12-.LBB53_6)>>2
	.byte	(.LBB53_34-.LBB53_6)>>2
	.byte	(.LBB53_12-.LBB53_6)>>2
	.byte	(.LBB53_12-.LBB53_6)>>2
	.byte	(.LBB53_16-.LBB53_6)>>2
	.byte	(.LBB53_12-.LBB53_6)>>2
	.byte	(.LBB53_12-.LBB53_6)>>2
	.byte	(.LBB53_12-.LBB53_6)>>2
	.byte	(.LBB53_12-.LBB53_6)>>2
	.byte	(.LBB53_12-.LBB53_6)>>2
	.byte	(.LBB53_12-.LBB53_6)>>2
	.byte	(.LBB53_6-.LBB53_6)>>2
	.byte	(.LBB53_26-.LBB53_6)>>2
	.byte	(.LBB53_14-.LBB53_6)>>2
	.byte	(.LBB53_38-.LBB53_6)>>2
	.byte	(.LBB53_12-.LBB53_6)>>2
	.byte	(.LBB53_12-.LBB53_6)>>2
	.byte	(.LBB53_12-.LBB53_6)>>2
	.byte	(.LBB53_12-.LBB53_6)>>2
	.byte	(.LBB53_12-.LBB53_6)>>2
	.byte	(.LBB53_12-.LBB53_6)>>2
	.byte	(.LBB53_12-.LBB53_6)>>2
	.byte	(.LBB53_12-.LBB53_6)>>2
	.byte	(.LBB53_12-.LBB53_6)>>2
	.byte	(.LBB53_12-.LBB53_6)>>2
	.byte	(.LBB53_12-.LBB53_6)>>2
	.byte	(.LBB53_28-.LBB53_6)>>2
	.byte	(.LBB53_12-.LBB53_6)>>2
	.byte	(.LBB53_18-.LBB53_6)>>2
	.byte	(.LBB53_12-.LBB53_6)>>2
	.byte	(.LBB53_20-.LBB53_6)>>2
	.byte	(.LBB53_12-.LBB53_6)>>2
	.byte	(.LBB53_12-.LBB53_6)>>2
	.byte	(.LBB53_24-.LBB53_6)>>2
	.byte	(.LBB53_12-.LBB53_6)>>2
	.byte	(.LBB53_12-.LBB53_6)>>2
	.byte	(.LBB53_16-.LBB53_6)>>2
	.byte	(.LBB53_12-.LBB53_6)>>2
	.byte	(.LBB53_12-.LBB53_6)>>2
	.byte	(.LBB53_12-.LBB53_6)>>2
	.byte	(.LBB53_12-.LBB53_6)>>2
	.byte	(.LBB53_12-.LBB53_6)>>2
	.byte	(.LBB53_12-.LBB53_6)>>2
	.byte	(.LBB53_14-.LBB53_6)>>2
	.byte	(.LBB53_22-.LBB53_6)>>2
	.byte	(.LBB53_36-.LBB53_6)>>2
	.byte	(.LBB53_12-.LBB53_6)>>2
	.byte	(.LBB53_12-.LBB53_6)>>2
	.byte	(.LBB53_6-.LBB53_6)>>2

	.section	.text.amqpv_proved_find,"ax",@progbits
	.p2align	2
	.type	amqpv_proved_find,@function
amqpv_proved_find:
	sub	sp, sp, #176
	stp	x22, x21, [sp, #144]
	ldr	w22, [x0, #24]
	cmp	x2, #0
	mov	w8, #4096
	stp	x29, x30, [sp, #80]
	add	x29, sp, #80
	csel	x14, x8, xzr, eq
	cmp	w22, #31
	stp	x28, x27, [sp, #96]
	stp	x26, x25, [sp, #112]
	stp	x24, x23, [sp, #128]
	stp	x20, x19, [sp, #160]
	b.ls	.LBB54_3
	mov	w0, #-13
.LBB54_2:
	ldp	x20, x19, [sp, #160]
	ldp	x22, x21, [sp, #144]
	ldp	x24, x23, [sp, #128]
	ldp	x26, x25, [sp, #112]
	ldp	x28, x27, [sp, #96]
	ldp	x29, x30, [sp, #80]
	add	sp, sp, #176
	ret
.LBB54_3:
	ldr	x23, [x0, #8]
	ldr	x16, [x1]
	mov	x8, x0
	mov	w0, #-13
	subs	x9, x23, x16
	b.lo	.LBB54_2
	ldr	x13, [x1, #8]
	cmp	x9, x13
	b.lo	.LBB54_2
	ldr	x9, [x1, #16]
	subs	x11, x23, x9
	b.lo	.LBB54_2
	ldr	x10, [x1, #24]
	cmp	x11, x10
	b.lo	.LBB54_2
	ldr	x6, [x1, #32]
	subs	x11, x23, x6
	b.lo	.LBB54_2
	ldr	x5, [x1, #40]
	cmp	x11, x5
	b.lo	.LBB54_2
	ldur	w15, [x1, #58]
	ldr	x30, [x8]
	ldr	x11, [x1, #48]
	ldrh	w17, [x1, #62]
	ldrb	w8, [x1, #56]
	ldrb	w12, [x1, #57]
	stur	w15, [x29, #-16]
	sturh	w17, [x29, #-12]
	cbz	x3, .LBB54_211
	mov	x25, xzr
	add	x2, x2, x14
	stp	x3, x4, [sp, #32]
	str	x30, [sp, #24]
	stur	x2, [x29, #-32]
.LBB54_11:
	add	x9, x2, x25, lsl #5
	ldrb	w10, [x9, #24]
	cmp	w8, w10
	b.ne	.LBB54_212
	cmp	w8, #70
	b.eq	.LBB54_32
	cmp	w8, #65
	b.ne	.LBB54_212
	subs	x8, x23, x6
	b.lo	.LBB54_59
	cmp	x8, x5
	b.lo	.LBB54_59
	cmp	x5, #0
	cset	w11, eq
	cbz	x5, .LBB54_77
	ldr	x9, [x9, #16]
	mov	x13, x5
	cbz	x9, .LBB54_78
	add	x8, x30, x6
	sub	x10, x9, #1
	mov	x13, x5
.LBB54_19:
	ldrb	w9, [x8]
	sub	w11, w9, #65
	cmp	w11, #55
	b.hi	.LBB54_31
	mov	x9, x10
	adrp	x10, .LJTI54_6
	add	x10, x10, :lo12:.LJTI54_6
	adr	x12, .LBB54_21
	ldrb	w14, [x10, x11]
	add	x12, x12, x14, lsl #2
	mov	w10, #1
	br	x12
.LBB54_21:
	cmp	x13, #5
	b.hs	.LBB54_26
.LBB54_22:
	mov	w10, #5
	subs	x13, x13, x10
	b.hs	.LBB54_28
	b	.LBB54_31
.LBB54_23:
	mov	w10, #9
	subs	x13, x13, x10
	b.hs	.LBB54_28
	b	.LBB54_31
.LBB54_24:
	mov	w10, #2
	subs	x13, x13, x10
	b.hs	.LBB54_28
	b	.LBB54_31
.LBB54_25:
	mov	w10, #3
	subs	x13, x13, x10
	b.hs	.LBB54_28
	b	.LBB54_31
.LBB54_26:
	ldur	w10, [x8, #1]
	rev	w10, w10
	add	x10, x10, #5
.LBB54_27:
	subs	x13, x13, x10
	b.lo	.LBB54_31
.LBB54_28:
	cmp	x13, #0
	cset	w11, eq
	cbz	x13, .LBB54_78
	add	x8, x8, x10
	sub	x10, x9, #1
	cbnz	x9, .LBB54_19
	b	.LBB54_78
.LBB54_30:
	mov	w10, #6
	subs	x13, x13, x10
	b.hs	.LBB54_28
.LBB54_31:
	mov	x9, xzr
	mov	x10, xzr
	mov	x6, xzr
	mov	x5, xzr
	mov	x11, xzr
	mov	w8, wzr
	mov	w12, wzr
	sturh	wzr, [x29, #-4]
	mov	w15, #1
	stur	wzr, [x29, #-8]
	mov	w14, #2
	b	.LBB54_84
.LBB54_32:
	subs	x8, x23, x6
	b.lo	.LBB54_58
	cmp	x8, x5
	b.lo	.LBB54_58
	cbz	x5, .LBB54_138
	ldp	x20, x19, [x9]
	add	x8, x30, x6
	cmp	x19, #3
	b.hi	.LBB54_60
	cbz	x19, .LBB54_109
	mov	x24, xzr
	mov	w26, wzr
	mov	x9, x5
.LBB54_38:
	ldrb	w10, [x8]
	sub	x9, x9, #1
	subs	x9, x9, x10
	b.ls	.LBB54_139
	cmp	x19, x10
	add	x11, x8, #1
	b.ne	.LBB54_47
	ldrb	w12, [x20]
	ldrb	w13, [x11]
	cmp	w12, w13
	csel	x12, x19, xzr, eq
	b.ne	.LBB54_45
	cmp	x19, #1
	b.eq	.LBB54_45
	ldrb	w12, [x20, #1]
	ldrb	w13, [x8, #2]
	cmp	w12, w13
	csinc	x12, x19, xzr, eq
	b.ne	.LBB54_45
	cmp	x19, #2
	b.eq	.LBB54_45
	ldrb	w12, [x20, #2]
	ldrb	w8, [x8, #3]
	cmp	w12, w8
	mov	w8, #2
	csel	x12, x19, x8, eq
.LBB54_45:
	cmp	x12, x19
	csinc	w26, w26, wzr, lo
	csel	x24, x9, x24, hs
	tbz	w22, #3, .LBB54_47
	cmp	x12, x19
	b.hs	.LBB54_140
.LBB54_47:
	add	x8, x11, x10
	ldrb	w10, [x8]
	sub	w10, w10, #65
	cmp	w10, #55
	b.hi	.LBB54_139
	adrp	x11, .LJTI54_2
	add	x11, x11, :lo12:.LJTI54_2
	adr	x12, .LBB54_49
	ldrh	w13, [x11, x10, lsl #1]
	add	x12, x12, x13, lsl #2
	mov	w10, #1
	br	x12
.LBB54_49:
	cmp	x9, #5
	b.lo	.LBB54_139
	ldur	w10, [x8, #1]
	rev	w10, w10
	add	x10, x10, #5
	b	.LBB54_56
.LBB54_51:
	mov	w10, #9
	b	.LBB54_56
.LBB54_52:
	mov	w10, #2
	b	.LBB54_56
.LBB54_53:
	mov	w10, #5
	b	.LBB54_56
.LBB54_54:
	mov	w10, #3
	b	.LBB54_56
.LBB54_55:
	mov	w10, #6
.LBB54_56:
	subs	x9, x9, x10
	b.lo	.LBB54_139
	add	x8, x8, x10
	b.ne	.LBB54_38
	b	.LBB54_137
.LBB54_58:
	mov	x16, xzr
	mov	x13, xzr
	mov	x9, xzr
	mov	x10, xzr
	mov	x6, xzr
	mov	x5, xzr
	mov	x11, xzr
	mov	w8, wzr
	mov	w12, wzr
	sturh	wzr, [x29, #-4]
	mov	w15, #1
	mov	w14, #12
	stur	wzr, [x29, #-8]
	b	.LBB54_85
.LBB54_59:
	mov	x9, xzr
	mov	x10, xzr
	mov	x6, xzr
	mov	x5, xzr
	mov	x11, xzr
	mov	w8, wzr
	mov	w12, wzr
	sturh	wzr, [x29, #-4]
	mov	w15, #1
	stur	wzr, [x29, #-8]
	mov	w14, #12
	b	.LBB54_84
.LBB54_60:
	stp	x6, x5, [sp, #8]
	tbz	w22, #3, .LBB54_88
	mov	x10, x5
.LBB54_62:
	ldrb	w26, [x8]
	sub	x9, x10, #1
	subs	x24, x9, x26
	b.ls	.LBB54_139
	cmp	x19, x26
	add	x21, x8, #1
	b.ne	.LBB54_66
	ldr	w8, [x20]
	ldr	w9, [x21]
	cmp	w8, w9
	b.ne	.LBB54_66
	mov	x0, x20
	mov	x1, x19
	mov	x2, x21
	bl	"core::cmp::slices::groups_equal::<i8,31'core::cmp::numbers::U8PartialEq{}>"
	ldp	x6, x5, [sp, #8]
	ldur	x2, [x29, #-32]
	ldp	x30, x3, [sp, #24]
	ldr	x4, [sp, #40]
	tbnz	w0, #0, .LBB54_141
.LBB54_66:
	add	x8, x21, x26
	ldrb	w9, [x8]
	sub	w9, w9, #65
	cmp	w9, #55
	b.hi	.LBB54_139
	adrp	x10, .LJTI54_1
	add	x10, x10, :lo12:.LJTI54_1
	adr	x11, .LBB54_68
	ldrb	w12, [x10, x9]
	add	x11, x11, x12, lsl #2
	mov	w9, #1
	br	x11
.LBB54_68:
	cmp	x24, #5
	b.lo	.LBB54_139
	ldur	w9, [x8, #1]
	rev	w9, w9
	add	x9, x9, #5
	b	.LBB54_75
.LBB54_70:
	mov	w9, #9
	b	.LBB54_75
.LBB54_71:
	mov	w9, #2
	b	.LBB54_75
.LBB54_72:
	mov	w9, #5
	b	.LBB54_75
.LBB54_73:
	mov	w9, #3
	b	.LBB54_75
.LBB54_74:
	mov	w9, #6
.LBB54_75:
	subs	x10, x24, x9
	b.lo	.LBB54_139
	add	x8, x8, x9
	b.ne	.LBB54_62
	b	.LBB54_138
.LBB54_77:
	mov	x13, x5
.LBB54_78:
	tbz	w11, #0, .LBB54_81
	mov	w14, wzr
	mov	w15, wzr
.LBB54_80:
	mov	x9, xzr
	mov	x10, xzr
	mov	x6, xzr
	mov	x5, xzr
	mov	x11, xzr
	mov	w8, wzr
	mov	w12, wzr
	b	.LBB54_83
.LBB54_81:
	cbnz	x13, .LBB54_104
	mov	x9, xzr
	mov	x10, xzr
	mov	x6, xzr
	mov	x5, xzr
	mov	x11, xzr
	mov	w8, wzr
	mov	w12, wzr
	mov	w14, #2
	mov	w15, #1
.LBB54_83:
	sturh	wzr, [x29, #-4]
	stur	wzr, [x29, #-8]
.LBB54_84:
	mov	x16, xzr
	mov	x13, xzr
.LBB54_85:
	ldur	w17, [x29, #-8]
	ldurh	w18, [x29, #-4]
	stur	w17, [x29, #-24]
	sturh	w18, [x29, #-20]
	cbnz	w15, .LBB54_213
	cmp	w14, #1
	b.ne	.LBB54_212
	ldur	w14, [x29, #-24]
	ldurh	w15, [x29, #-20]
	add	x25, x25, #1
	cmp	x25, x3
	stur	w14, [x29, #-16]
	sturh	w15, [x29, #-12]
	b.ne	.LBB54_11
	b	.LBB54_211
.LBB54_88:
	mov	x24, xzr
	mov	w26, wzr
	mov	x10, x5
.LBB54_89:
	ldrb	w27, [x8]
	sub	x9, x10, #1
	subs	x28, x9, x27
	b.ls	.LBB54_139
	cmp	x19, x27
	add	x21, x8, #1
	b.ne	.LBB54_93
	ldr	w8, [x20]
	ldr	w9, [x21]
	cmp	w8, w9
	b.ne	.LBB54_93
	mov	x0, x20
	mov	x1, x19
	mov	x2, x21
	bl	"core::cmp::slices::groups_equal::<i8,31'core::cmp::numbers::U8PartialEq{}>"
	ldp	x6, x5, [sp, #8]
	cmp	w0, #0
	ldp	x30, x3, [sp, #24]
	csinc	w26, w26, wzr, eq
	ldur	x2, [x29, #-32]
	ldr	x4, [sp, #40]
	csel	x24, x28, x24, ne
.LBB54_93:
	add	x8, x21, x27
	ldrb	w9, [x8]
	sub	w9, w9, #65
	cmp	w9, #55
	b.hi	.LBB54_139
	adrp	x10, .LJTI54_0
	add	x10, x10, :lo12:.LJTI54_0
	adr	x11, .LBB54_95
	ldrb	w12, [x10, x9]
	add	x11, x11, x12, lsl #2
	mov	w9, #1
	br	x11
.LBB54_95:
	cmp	x28, #5
	b.lo	.LBB54_139
	ldur	w9, [x8, #1]
	rev	w9, w9
	add	x9, x9, #5
	b	.LBB54_102
.LBB54_97:
	mov	w9, #9
	b	.LBB54_102
.LBB54_98:
	mov	w9, #2
	b	.LBB54_102
.LBB54_99:
	mov	w9, #5
	b	.LBB54_102
.LBB54_100:
	mov	w9, #3
	b	.LBB54_102
.LBB54_101:
	mov	w9, #6
.LBB54_102:
	subs	x10, x28, x9
	b.lo	.LBB54_139
	add	x8, x8, x9
	b.ne	.LBB54_89
	b	.LBB54_137
.LBB54_104:
	add	x10, x6, x5
	mov	w8, wzr
	mov	x9, xzr
	sub	x16, x10, x13
	mov	w14, #2
	mov	w15, #1
	add	x0, x30, x16
	ldrb	w17, [x0]
	sub	w10, w17, #65
	cmp	w10, #55
	b.hi	.LBB54_179
	adrp	x11, .LJTI54_7
	add	x11, x11, :lo12:.LJTI54_7
	sub	x18, x13, #1
	adr	x1, .LBB54_83
	ldrh	w12, [x11, x10, lsl #1]
	add	x1, x1, x12, lsl #2
	mov	x10, x9
	mov	x6, x9
	mov	x5, x9
	mov	x11, x9
	mov	w12, w8
	br	x1
.LBB54_106:
	subs	x8, x13, #5
	b.lo	.LBB54_80
	ldur	w9, [x0, #1]
	rev	w5, w9
	cmp	x8, x5
	b.lo	.LBB54_80
	mov	x9, xzr
	mov	w8, wzr
	add	x10, x5, #5
	mov	w14, #5
	b	.LBB54_178
.LBB54_109:
	tbz	w22, #3, .LBB54_124
	mov	x10, x5
.LBB54_111:
	ldrb	w9, [x8]
	sub	x10, x10, #1
	subs	x24, x10, x9
	b.ls	.LBB54_139
	cbz	w9, .LBB54_141
	add	x8, x8, x9
	ldrb	w9, [x8, #1]!
	sub	w9, w9, #65
	cmp	w9, #55
	b.hi	.LBB54_139
	adrp	x10, .LJTI54_4
	add	x10, x10, :lo12:.LJTI54_4
	adr	x11, .LBB54_115
	ldrb	w12, [x10, x9]
	add	x11, x11, x12, lsl #2
	mov	w9, #1
	br	x11
.LBB54_115:
	cmp	x24, #5
	b.lo	.LBB54_139
	ldur	w9, [x8, #1]
	rev	w9, w9
	add	x9, x9, #5
	b	.LBB54_122
.LBB54_117:
	mov	w9, #9
	b	.LBB54_122
.LBB54_118:
	mov	w9, #2
	b	.LBB54_122
.LBB54_119:
	mov	w9, #5
	b	.LBB54_122
.LBB54_120:
	mov	w9, #3
	b	.LBB54_122
.LBB54_121:
	mov	w9, #6
.LBB54_122:
	subs	x10, x24, x9
	b.lo	.LBB54_139
	add	x8, x8, x9
	b.ne	.LBB54_111
	b	.LBB54_138
.LBB54_124:
	mov	x24, xzr
	mov	w26, wzr
	mov	x9, x5
.LBB54_125:
	ldrb	w11, [x8]
	sub	x10, x9, #1
	subs	x9, x10, x11
	b.ls	.LBB54_139
	add	x8, x8, x11
	cmp	w11, #0
	ldrb	w12, [x8, #1]!
	csel	x24, x10, x24, eq
	csinc	w26, w26, wzr, ne
	sub	w11, w12, #65
	cmp	w11, #55
	b.hi	.LBB54_139
	adrp	x10, .LJTI54_3
	add	x10, x10, :lo12:.LJTI54_3
	adr	x12, .LBB54_128
	ldrb	w13, [x10, x11]
	add	x12, x12, x13, lsl #2
	mov	w10, #1
	br	x12
.LBB54_128:
	cmp	x9, #5
	b.lo	.LBB54_139
	ldur	w10, [x8, #1]
	rev	w10, w10
	add	x10, x10, #5
	b	.LBB54_135
.LBB54_130:
	mov	w10, #9
	b	.LBB54_135
.LBB54_131:
	mov	w10, #2
	b	.LBB54_135
.LBB54_132:
	mov	w10, #5
	b	.LBB54_135
.LBB54_133:
	mov	w10, #3
	b	.LBB54_135
.LBB54_134:
	mov	w10, #6
.LBB54_135:
	subs	x9, x9, x10
	b.lo	.LBB54_139
	add	x8, x8, x10
	b.ne	.LBB54_125
.LBB54_137:
	and	w8, w26, #0xff
	cmp	w8, #1
	b.eq	.LBB54_141
.LBB54_138:
	mov	w14, wzr
	mov	w15, wzr
	mov	x16, xzr
	mov	x13, xzr
	mov	x9, xzr
	mov	x10, xzr
	mov	x6, xzr
	mov	x5, xzr
	mov	x11, xzr
	mov	w8, wzr
	mov	w12, wzr
	sturh	wzr, [x29, #-4]
	stur	wzr, [x29, #-8]
	b	.LBB54_85
.LBB54_139:
	mov	x16, xzr
	mov	x13, xzr
	mov	x9, xzr
	mov	x10, xzr
	mov	x6, xzr
	mov	x5, xzr
	mov	x11, xzr
	mov	w8, wzr
	mov	w12, wzr
	sturh	wzr, [x29, #-4]
	mov	w15, #1
	mov	w14, #2
	stur	wzr, [x29, #-8]
	b	.LBB54_85
.LBB54_140:
	mov	x24, x9
.LBB54_141:
	add	x8, x19, x24
	add	x9, x8, #1
	cbz	x9, .LBB54_145
	add	x8, x6, x5
	add	x10, x24, x19
	sub	x9, x8, x9
	ldrb	w18, [x30, x9]
	cmp	x10, x18
	b.lo	.LBB54_144
	add	x17, x9, #1
	add	x0, x17, x18
	subs	x1, x8, x0
	b.ne	.LBB54_148
.LBB54_144:
	mov	x13, xzr
	mov	x9, xzr
	b	.LBB54_146
.LBB54_145:
	mov	x13, xzr
.LBB54_146:
	mov	x10, xzr
	mov	x20, xzr
	mov	x19, xzr
	mov	x11, xzr
	mov	w8, wzr
	mov	w12, wzr
	mov	x16, xzr
	mov	w14, #2
	mov	w15, #1
.LBB54_147:
	ldur	x2, [x29, #-32]
	mov	x5, x19
	mov	x6, x20
	sturh	wzr, [x29, #-4]
	stur	wzr, [x29, #-8]
	b	.LBB54_85
.LBB54_148:
	add	x6, x30, x0
	mov	w8, wzr
	mov	x13, xzr
	ldrb	w2, [x6]
	mov	w14, #2
	mov	w15, #1
	sub	w9, w2, #65
	cmp	w9, #55
	b.hi	.LBB54_210
	adrp	x10, .LJTI54_5
	add	x10, x10, :lo12:.LJTI54_5
	sub	x5, x1, #1
	adr	x7, .LBB54_147
	ldrb	w11, [x10, x9]
	add	x7, x7, x11, lsl #2
	mov	x9, x13
	mov	x10, x13
	mov	x20, x13
	mov	x19, x13
	mov	x11, x13
	mov	w12, w8
	mov	x16, x13
	br	x7
.LBB54_150:
	subs	x8, x1, #5
	b.lo	.LBB54_184
	ldur	w9, [x6, #1]
	rev	w9, w9
	cmp	x8, x9
	b.lo	.LBB54_184
	mov	x13, xzr
	mov	w8, wzr
	mov	x19, x9
	add	x10, x9, #5
	mov	w9, #5
	b	.LBB54_207
.LBB54_153:
	cmp	x18, #2
	b.lo	.LBB54_80
	ldrb	w9, [x0, #1]
	ldrb	w10, [x0, #2]
	mov	w8, wzr
	sub	x18, x13, #3
	mov	w17, #115
	lsl	x9, x9, #56
	orr	x9, x9, x10, lsl #48
	asr	x9, x9, #48
	b	.LBB54_177
.LBB54_155:
	cmp	x18, #8
	b.lo	.LBB54_80
	ldur	x9, [x0, #1]
	mov	w8, wzr
	sub	x18, x13, #9
	mov	w17, #108
	rev	x9, x9
	b	.LBB54_177
.LBB54_157:
	cmp	x18, #8
	b.lo	.LBB54_80
	ldur	x9, [x0, #1]
	mov	w8, wzr
	sub	x18, x13, #9
	mov	w17, #100
	rev	x9, x9
	b	.LBB54_177
.LBB54_159:
	cmp	x18, #4
	b.lo	.LBB54_80
	ldur	w9, [x0, #1]
	mov	w8, wzr
	sub	x18, x13, #5
	mov	w17, #102
	rev	w9, w9
	b	.LBB54_177
.LBB54_161:
	cbz	x18, .LBB54_80
	ldrb	w9, [x0, #1]
	mov	w8, wzr
	sub	x18, x13, #2
	mov	w17, #116
	cmp	w9, #0
	cset	w9, ne
	b	.LBB54_177
.LBB54_163:
	cmp	x18, #4
	b.lo	.LBB54_80
	ldur	w9, [x0, #1]
	mov	w8, wzr
	sub	x18, x13, #5
	mov	w17, #105
	rev	w9, w9
	b	.LBB54_177
.LBB54_165:
	cmp	x18, #8
	b.lo	.LBB54_80
	ldur	x9, [x0, #1]
	mov	w8, wzr
	sub	x18, x13, #9
	mov	w17, #84
	rev	x9, x9
	b	.LBB54_177
.LBB54_167:
	cbz	x18, .LBB54_80
	ldrsb	x9, [x0, #1]
	mov	w8, wzr
	sub	x18, x13, #2
	mov	w17, #98
	b	.LBB54_177
.LBB54_169:
	subs	x18, x13, #6
	b.lo	.LBB54_80
	ldur	w9, [x0, #2]
	ldrb	w8, [x0, #1]
	mov	w17, #68
	rev	w9, w9
	b	.LBB54_177
.LBB54_171:
	cbz	x18, .LBB54_80
	ldrb	w9, [x0, #1]
	mov	w8, wzr
	sub	x18, x13, #2
	mov	w17, #66
	b	.LBB54_177
.LBB54_173:
	cmp	x18, #4
	b.lo	.LBB54_80
	ldur	w9, [x0, #1]
	mov	w8, wzr
	sub	x18, x13, #5
	mov	w17, #73
	rev	w9, w9
	sxtw	x9, w9
	b	.LBB54_177
.LBB54_175:
	cmp	x18, #2
	b.lo	.LBB54_80
	ldurh	w9, [x0, #1]
	mov	w8, wzr
	sub	x18, x13, #3
	mov	w17, #117
	rev16	w9, w9
.LBB54_177:
	mov	x14, xzr
	mov	x5, xzr
	sub	x10, x13, x18
.LBB54_178:
	mov	w15, wzr
	mov	w12, w8
	mov	x11, x9
	add	x6, x14, x16
	mov	w14, #1
	mov	x9, x16
	mov	w8, w17
	b	.LBB54_83
.LBB54_179:
	mov	x10, x9
	mov	x6, x9
	mov	x5, x9
	mov	x11, x9
	mov	w12, w8
	b	.LBB54_83
.LBB54_180:
	cmp	x5, #2
	b.lo	.LBB54_184
	ldrb	w9, [x6, #1]
	ldrb	w10, [x6, #2]
	mov	w8, wzr
	sub	x5, x1, #3
	mov	w2, #115
	lsl	x9, x9, #56
	orr	x9, x9, x10, lsl #48
	asr	x13, x9, #48
	b	.LBB54_206
.LBB54_182:
	cmp	x5, #8
	b.lo	.LBB54_184
	ldur	x9, [x6, #1]
	mov	w8, wzr
	sub	x5, x1, #9
	mov	w2, #108
	rev	x13, x9
	b	.LBB54_206
.LBB54_184:
	mov	x13, xzr
	b	.LBB54_209
.LBB54_185:
	cmp	x5, #8
	b.lo	.LBB54_208
	ldur	x9, [x6, #1]
	mov	w8, wzr
	sub	x5, x1, #9
	mov	w2, #100
	rev	x13, x9
	b	.LBB54_205
.LBB54_187:
	cmp	x5, #4
	b.lo	.LBB54_208
	ldur	w9, [x6, #1]
	mov	w8, wzr
	sub	x5, x1, #5
	mov	w2, #102
	rev	w13, w9
	b	.LBB54_205
.LBB54_189:
	cbz	x5, .LBB54_208
	ldrb	w9, [x6, #1]
	mov	w8, wzr
	sub	x5, x1, #2
	mov	w2, #116
	cmp	w9, #0
	cset	w13, ne
	b	.LBB54_205
.LBB54_191:
	cmp	x5, #4
	b.lo	.LBB54_208
	ldur	w9, [x6, #1]
	mov	w8, wzr
	sub	x5, x1, #5
	mov	w2, #105
	rev	w13, w9
	b	.LBB54_205
.LBB54_193:
	cmp	x5, #8
	b.lo	.LBB54_208
	ldur	x9, [x6, #1]
	mov	w8, wzr
	sub	x5, x1, #9
	mov	w2, #84
	rev	x13, x9
	b	.LBB54_205
.LBB54_195:
	cbz	x5, .LBB54_208
	ldrsb	x13, [x6, #1]
	mov	w8, wzr
	sub	x5, x1, #2
	mov	w2, #98
	b	.LBB54_205
.LBB54_197:
	subs	x5, x1, #6
	b.lo	.LBB54_208
	ldur	w9, [x6, #2]
	ldrb	w8, [x6, #1]
	mov	w2, #68
	rev	w13, w9
	b	.LBB54_205
.LBB54_199:
	cbz	x5, .LBB54_208
	ldrb	w13, [x6, #1]
	mov	w8, wzr
	sub	x5, x1, #2
	mov	w2, #66
	b	.LBB54_205
.LBB54_201:
	cmp	x5, #4
	b.lo	.LBB54_208
	ldur	w9, [x6, #1]
	mov	w8, wzr
	sub	x5, x1, #5
	mov	w2, #73
	rev	w9, w9
	sxtw	x13, w9
	b	.LBB54_205
.LBB54_203:
	cmp	x5, #2
	b.lo	.LBB54_208
	ldurh	w9, [x6, #1]
	mov	w8, wzr
	sub	x5, x1, #3
	mov	w2, #117
	rev16	w13, w9
.LBB54_205:
	ldp	x3, x4, [sp, #32]
	ldr	x30, [sp, #24]
.LBB54_206:
	mov	x9, xzr
	mov	x19, xzr
	sub	x10, x1, x5
.LBB54_207:
	mov	w15, wzr
	mov	w12, w8
	mov	x11, x13
	add	x20, x9, x0
	mov	w14, #1
	mov	x13, x18
	mov	x9, x0
	mov	w8, w2
	mov	x16, x17
	b	.LBB54_147
.LBB54_208:
	ldp	x3, x4, [sp, #32]
	mov	x13, xzr
	ldr	x30, [sp, #24]
.LBB54_209:
	mov	x9, xzr
	mov	x10, xzr
	mov	x20, xzr
	mov	x19, xzr
	mov	x11, xzr
	mov	w8, wzr
	mov	w12, wzr
	mov	x16, xzr
	b	.LBB54_147
.LBB54_210:
	mov	x9, x13
	mov	x10, x13
	mov	x20, x13
	mov	x19, x13
	mov	x11, x13
	mov	w12, w8
	mov	x16, x13
	b	.LBB54_147
.LBB54_211:
	ldur	w14, [x29, #-16]
	ldurh	w15, [x29, #-12]
	mov	w0, wzr
	stp	x16, x13, [x4]
	stur	w14, [x29, #-8]
	sturh	w15, [x29, #-4]
	stp	x9, x10, [x4, #16]
	stp	x6, x5, [x4, #32]
	str	x11, [x4, #48]
	strb	w8, [x4, #56]
	strb	w12, [x4, #57]
	stur	w14, [x4, #58]
	strh	w15, [x4, #62]
	b	.LBB54_2
.LBB54_212:
	mov	w0, #1
	b	.LBB54_2
.LBB54_213:
	mvn	w0, w14
	b	.LBB54_2
.Lfunc_end54:
	.size	amqpv_proved_find, .Lfunc_end54-amqpv_proved_find
	.section	.rodata.amqpv_proved_find,"a",@progbits
.LJTI54_0:
	.byte	(.LBB54_95-.LBB54_95)>>2
	.byte	(.LBB54_98-.LBB54_95)>>2
	.byte	(.LBB54_139-.LBB54_95)>>2
	.byte	(.LBB54_101-.LBB54_95)>>2
	.byte	(.LBB54_139-.LBB54_95)>>2
	.byte	(.LBB54_95-.LBB54_95)>>2
	.byte	(.LBB54_139-.LBB54_95)>>2
	.byte	(.LBB54_139-.LBB54_95)>>2
	.byte	(.LBB54_99-.LBB54_95)>>2
	.byte	(.LBB54_139-.LBB54_95)>>2
	.byte	(.LBB54_139-.LBB54_95)>>2
	.byte	(.LBB54_97-.LBB54_95)>>2
	.byte	(.LBB54_139-.LBB54_95)>>2
	.byte	(.LBB54_139-.LBB54_95)>>2
	.byte	(.LBB54_139-.LBB54_95)>>2
	.byte	(.LBB54_139-.LBB54_95)>>2
	.byte	(.LBB54_139-.LBB54_95)>>2
	.byte	(.LBB54_139-.LBB54_95)>>2
	.byte	(.LBB54_95-.LBB54_95)>>2
	.byte	(.LBB54_97-.LBB54_95)>>2
	.byte	(.LBB54_100-.LBB54_95)>>2
	.byte	(.LBB54_102-.LBB54_95)>>2
	.byte	(.LBB54_139-.LBB54_95)>>2
	.byte	(.LBB54_139-.LBB54_95)>>2
	.byte	(.LBB54_139-.LBB54_95)>>2
	.byte	(.LBB54_139-.LBB54_95)>>2
	.byte	(.LBB54_139-.LBB54_95)>>2
	.byte	(.LBB54_139-.LBB54_95)>>2
	.byte	(.LBB54_139-.LBB54_95)>>2
	.byte	(.LBB54_139-.LBB54_95)>>2
	.byte	(.LBB54_139-.LBB54_95)>>2
	.byte	(.LBB54_139-.LBB54_95)>>2
	.byte	(.LBB54_139-.LBB54_95)>>2
	.byte	(.LBB54_98-.LBB54_95)>>2
	.byte	(.LBB54_139-.LBB54_95)>>2
	.byte	(.LBB54_97-.LBB54_95)>>2
	.byte	(.LBB54_139-.LBB54_95)>>2
	.byte	(.LBB54_99-.LBB54_95)>>2
	.byte	(.LBB54_139-.LBB54_95)>>2
	.byte	(.LBB54_139-.LBB54_95)>>2
	.byte	(.LBB54_99-.LBB54_95)>>2
	.byte	(.LBB54_139-.LBB54_95)>>2
	.byte	(.LBB54_139-.LBB54_95)>>2
	.byte	(.LBB54_97-.LBB54_95)>>2
	.byte	(.LBB54_139-.LBB54_95)>>2
	.byte	(.LBB54_139-.LBB54_95)>>2
	.byte	(.LBB54_139-.LBB54_95)>>2
	.byte	(.LBB54_139-.LBB54_95)>>2
	.byte	(.LBB54_139-.LBB54_95)>>2
	.byte	(.LBB54_139-.LBB54_95)>>2
	.byte	(.LBB54_100-.LBB54_95)>>2
	.byte	(.LBB54_98-.LBB54_95)>>2
	.byte	(.LBB54_100-.LBB54_95)>>2
	.byte	(.LBB54_139-.LBB54_95)>>2
	.byte	(.LBB54_139-.LBB54_95)>>2
	.byte	(.LBB54_95-.LBB54_95)>>2
.LJTI54_1:
	.byte	(.LBB54_68-.LBB54_68)>>2
	.byte	(.LBB54_71-.LBB54_68)>>2
	.byte	(.LBB54_139-.LBB54_68)>>2
	.byte	(.LBB54_74-.LBB54_68)>>2
	.byte	(.LBB54_139-.LBB54_68)>>2
	.byte	(.LBB54_68-.LBB54_68)>>2
	.byte	(.LBB54_139-.LBB54_68)>>2
	.byte	(.LBB54_139-.LBB54_68)>>2
	.byte	(.LBB54_72-.LBB54_68)>>2
	.byte	(.LBB54_139-.LBB54_68)>>2
	.byte	(.LBB54_139-.LBB54_68)>>2
	.byte	(.LBB54_70-.LBB54_68)>>2
	.byte	(.LBB54_139-.LBB54_68)>>2
	.byte	(.LBB54_139-.LBB54_68)>>2
	.byte	(.LBB54_139-.LBB54_68)>>2
	.byte	(.LBB54_139-.LBB54_68)>>2
	.byte	(.LBB54_139-.LBB54_68)>>2
	.byte	(.LBB54_139-.LBB54_68)>>2
	.byte	(.LBB54_68-.LBB54_68)>>2
	.byte	(.LBB54_70-.LBB54_68)>>2
	.byte	(.LBB54_73-.LBB54_68)>>2
	.byte	(.LBB54_75-.LBB54_68)>>2
	.byte	(.LBB54_139-.LBB54_68)>>2
	.byte	(.LBB54_139-.LBB54_68)>>2
	.byte	(.LBB54_139-.LBB54_68)>>2
	.byte	(.LBB54_139-.LBB54_68)>>2
	.byte	(.LBB54_139-.LBB54_68)>>2
	.byte	(.LBB54_139-.LBB54_68)>>2
	.byte	(.LBB54_139-.LBB54_68)>>2
	.byte	(.LBB54_139-.LBB54_68)>>2
	.byte	(.LBB54_139-.LBB54_68)>>2
	.byte	(.LBB54_139-.LBB54_68)>>2
	.byte	(.LBB54_139-.LBB54_68)>>2
	.byte	(.LBB54_71-.LBB54_68)>>2
	.byte	(.LBB54_139-.LBB54_68)>>2
	.byte	(.LBB54_70-.LBB54_68)>>2
	.byte	(.LBB54_139-.LBB54_68)>>2
	.byte	(.LBB54_72-.LBB54_68)>>2
	.byte	(.LBB54_139-.LBB54_68)>>2
	.byte	(.LBB54_139-.LBB54_68)>>2
	.byte	(.LBB54_72-.LBB54_68)>>2
	.byte	(.LBB54_139-.LBB54_68)>>2
	.byte	(.LBB54_139-.LBB54_68)>>2
	.byte	(.LBB54_70-.LBB54_68)>>2
	.byte	(.LBB54_139-.LBB54_68)>>2
	.byte	(.LBB54_139-.LBB54_68)>>2
	.byte	(.LBB54_139-.LBB54_68)>>2
	.byte	(.LBB54_139-.LBB54_68)>>2
	.byte	(.LBB54_139-.LBB54_68)>>2
	.byte	(.LBB54_139-.LBB54_68)>>2
	.byte	(.LBB54_73-.LBB54_68)>>2
	.byte	(.LBB54_71-.LBB54_68)>>2
	.byte	(.LBB54_73-.LBB54_68)>>2
	.byte	(.LBB54_139-.LBB54_68)>>2
	.byte	(.LBB54_139-.LBB54_68)>>2
	.byte	(.LBB54_68-.LBB54_68)>>2
	.p2align	1, 0x0
.LJTI54_2:
	.hword	(.LBB54_49-.LBB54_49)>>2
	.hword	(.LBB54_52-.LBB54_49)>>2
	.hword	(.LBB54_139-.LBB54_49)>>2
	.hword	(.LBB54_55-.LBB54_49)>>2
	.hword	(.LBB54_139-.LBB54_49)>>2
	.hword	(.LBB54_49-.LBB54_49)>>2
	.hword	(.LBB54_139-.LBB54_49)>>2
	.hword	(.LBB54_139-.LBB54_49)>>2
	.hword	(.LBB54_53-.LBB54_49)>>2
	.hword	(.LBB54_139-.LBB54_49)>>2
	.hword	(.LBB54_139-.LBB54_49)>>2
	.hword	(.LBB54_51-.LBB54_49)>>2
	.hword	(.LBB54_139-.LBB54_49)>>2
	.hword	(.LBB54_139-.LBB54_49)>>2
	.hword	(.LBB54_139-.LBB54_49)>>2
	.hword	(.LBB54_139-.LBB54_49)>>2
	.hword	(.LBB54_139-.LBB54_49)>>2
	.hword	(.LBB54_139-.LBB54_49)>>2
	.hword	(.LBB54_49-.LBB54_49)>>2
	.hword	(.LBB54_51-.LBB54_49)>>2
	.hword	(.LBB54_54-.LBB54_49)>>2
	.hword	(.LBB54_56-.LBB54_49)>>2
	.hword	(.LBB54_139-.LBB54_49)>>2
	.hword	(.LBB54_139-.LBB54_49)>>2
	.hword	(.LBB54_139-.LBB54_49)>>2
	.hword	(.LBB54_139-.LBB54_49)>>2
	.hword	(.LBB54_139-.LBB54_49)>>2
	.hword	(.LBB54_139-.LBB54_49)>>2
	.hword	(.LBB54_139-.LBB54_49)>>2
	.hword	(.LBB54_139-.LBB54_49)>>2
	.hword	(.LBB54_139-.LBB54_49)>>2
	.hword	(.LBB54_139-.LBB54_49)>>2
	.hword	(.LBB54_139-.LBB54_49)>>2
	.hword	(.LBB54_52-.LBB54_49)>>2
	.hword	(.LBB54_139-.LBB54_49)>>2
	.hword	(.LBB54_51-.LBB54_49)>>2
	.hword	(.LBB54_139-.LBB54_49)>>2
	.hword	(.LBB54_53-.LBB54_49)>>2
	.hword	(.LBB54_139-.LBB54_49)>>2
	.hword	(.LBB54_139-.LBB54_49)>>2
	.hword	(.LBB54_53-.LBB54_49)>>2
	.hword	(.LBB54_139-.LBB54_49)>>2
	.hword	(.LBB54_139-.LBB54_49)>>2
	.hword	(.LBB54_51-.LBB54_49)>>2
	.hword	(.LBB54_139-.LBB54_49)>>2
	.hword	(.LBB54_139-.LBB54_49)>>2
	.hword	(.LBB54_139-.LBB54_49)>>2
	.hword	(.LBB54_139-.LBB54_49)>>2
	.hword	(.LBB54_139-.LBB54_49)>>2
	.hword	(.LBB54_139-.LBB54_49)>>2
	.hword	(.LBB54_54-.LBB54_49)>>2
	.hword	(.LBB54_52-.LBB54_49)>>2
	.hword	(.LBB54_54-.LBB54_49)>>2
	.hword	(.LBB54_139-.LBB54_49)>>2
	.hword	(.LBB54_139-.LBB54_49)>>2
	.hword	(.LBB54_49-.LBB54_49)>>2
.LJTI54_3:
	.byte	(.LBB54_128-.LBB54_128)>>2
	.byte	(.LBB54_131-.LBB54_128)>>2
	.byte	(.LBB54_139-.LBB54_128)>>2
	.byte	(.LBB54_134-.LBB54_128)>>2
	.byte	(.LBB54_139-.LBB54_128)>>2
	.byte	(.LBB54_128-.LBB54_128)>>2
	.byte	(.LBB54_139-.LBB54_128)>>2
	.byte	(.LBB54_139-.LBB54_128)>>2
	.byte	(.LBB54_132-.LBB54_128)>>2
	.byte	(.LBB54_139-.LBB54_128)>>2
	.byte	(.LBB54_139-.LBB54_128)>>2
	.byte	(.LBB54_130-.LBB54_128)>>2
	.byte	(.LBB54_139-.LBB54_128)>>2
	.byte	(.LBB54_139-.LBB54_128)>>2
	.byte	(.LBB54_139-.LBB54_128)>>2
	.byte	(.LBB54_139-.LBB54_128)>>2
	.byte	(.LBB54_139-.LBB54_128)>>2
	.byte	(.LBB54_139-.LBB54_128)>>2
	.byte	(.LBB54_128-.LBB54_128)>>2
	.byte	(.LBB54_130-.LBB54_128)>>2
	.byte	(.LBB54_133-.LBB54_128)>>2
	.byte	(.LBB54_135-.LBB54_128)>>2
	.byte	(.LBB54_139-.LBB54_128)>>2
	.byte	(.LBB54_139-.LBB54_128)>>2
	.byte	(.LBB54_139-.LBB54_128)>>2
	.byte	(.LBB54_139-.LBB54_128)>>2
	.byte	(.LBB54_139-.LBB54_128)>>2
	.byte	(.LBB54_139-.LBB54_128)>>2
	.byte	(.LBB54_139-.LBB54_128)>>2
	.byte	(.LBB54_139-.LBB54_128)>>2
	.byte	(.LBB54_139-.LBB54_128)>>2
	.byte	(.LBB54_139-.LBB54_128)>>2
	.byte	(.LBB54_139-.LBB54_128)>>2
	.byte	(.LBB54_131-.LBB54_128)>>2
	.byte	(.LBB54_139-.LBB54_128)>>2
	.byte	(.LBB54_130-.LBB54_128)>>2
	.byte	(.LBB54_139-.LBB54_128)>>2
	.byte	(.LBB54_132-.LBB54_128)>>2
	.byte	(.LBB54_139-.LBB54_128)>>2
	.byte	(.LBB54_139-.LBB54_128)>>2
	.byte	(.LBB54_132-.LBB54_128)>>2
	.byte	(.LBB54_139-.LBB54_128)>>2
	.byte	(.LBB54_139-.LBB54_128)>>2
	.byte	(.LBB54_130-.LBB54_128)>>2
	.byte	(.LBB54_139-.LBB54_128)>>2
	.byte	(.LBB54_139-.LBB54_128)>>2
	.byte	(.LBB54_139-.LBB54_128)>>2
	.byte	(.LBB54_139-.LBB54_128)>>2
	.byte	(.LBB54_139-.LBB54_128)>>2
	.byte	(.LBB54_139-.LBB54_128)>>2
	.byte	(.LBB54_133-.LBB54_128)>>2
	.byte	(.LBB54_131-.LBB54_128)>>2
	.byte	(.LBB54_133-.LBB54_128)>>2
	.byte	(.LBB54_139-.LBB54_128)>>2
	.byte	(.LBB54_139-.LBB54_128)>>2
	.byte	(.LBB54_128-.LBB54_128)>>2
.LJTI54_4:
	.byte	(.LBB54_115-.LBB54_115)>>2
	.byte	(.LBB54_118-.LBB54_115)>>2
	.byte	(.LBB54_139-.LBB54_115)>>2
	.byte	(.LBB54_121-.LBB54_115)>>2
	.byte	(.LBB54_139-.LBB54_115)>>2
	.byte	(.LBB54_115-.LBB54_115)>>2
	.byte	(.LBB54_139-.LBB54_115)>>2
	.byte	(.LBB54_139-.LBB54_115)>>2
	.byte	(.LBB54_119-.LBB54_115)>>2
	.byte	(.LBB54_139-.LBB54_115)>>2
	.byte	(.LBB54_139-.LBB54_115)>>2
	.byte	(.LBB54_117-.LBB54_115)>>2
	.byte	(.LBB54_139-.LBB54_115)>>2
	.byte	(.LBB54_139-.LBB54_115)>>2
	.byte	(.LBB54_139-.LBB54_115)>>2
	.byte	(.LBB54_139-.LBB54_115)>>2
	.byte	(.LBB54_139-.LBB54_115)>>2
	.byte	(.LBB54_139-.LBB54_115)>>2
	.byte	(.LBB54_115-.LBB54_115)>>2
	.byte	(.LBB54_117-.LBB54_115)>>2
	.byte	(.LBB54_120-.LBB54_115)>>2
	.byte	(.LBB54_122-.LBB54_115)>>2
	.byte	(.LBB54_139-.LBB54_115)>>2
	.byte	(.LBB54_139-.LBB54_115)>>2
	.byte	(.LBB54_139-.LBB54_115)>>2
	.byte	(.LBB54_139-.LBB54_115)>>2
	.byte	(.LBB54_139-.LBB54_115)>>2
	.byte	(.LBB54_139-.LBB54_115)>>2
	.byte	(.LBB54_139-.LBB54_115)>>2
	.byte	(.LBB54_139-.LBB54_115)>>2
	.byte	(.LBB54_139-.LBB54_115)>>2
	.byte	(.LBB54_139-.LBB54_115)>>2
	.byte	(.LBB54_139-.LBB54_115)>>2
	.byte	(.LBB54_118-.LBB54_115)>>2
	.byte	(.LBB54_139-.LBB54_115)>>2
	.byte	(.LBB54_117-.LBB54_115)>>2
	.byte	(.LBB54_139-.LBB54_115)>>2
	.byte	(.LBB54_119-.LBB54_115)>>2
	.byte	(.LBB54_139-.LBB54_115)>>2
	.byte	(.LBB54_139-.LBB54_115)>>2
	.byte	(.LBB54_119-.LBB54_115)>>2
	.byte	(.LBB54_139-.LBB54_115)>>2
	.byte	(.LBB54_139-.LBB54_115)>>2
	.byte	(.LBB54_117-.LBB54_115)>>2
	.byte	(.LBB54_139-.LBB54_115)>>2
	.byte	(.LBB54_139-.LBB54_115)>>2
	.byte	(.LBB54_139-.LBB54_115)>>2
	.byte	(.LBB54_139-.LBB54_115)>>2
	.byte	(.LBB54_139-.LBB54_115)>>2
	.byte	(.LBB54_139-.LBB54_115)>>2
	.byte	(.LBB54_120-.LBB54_115)>>2
	.byte	(.LBB54_118-.LBB54_115)>>2
	.byte	(.LBB54_120-.LBB54_115)>>2
	.byte	(.LBB54_139-.LBB54_115)>>2
	.byte	(.LBB54_139-.LBB54_115)>>2
	.byte	(.LBB54_115-.LBB54_115)>>2
.LJTI54_5:
	.byte	(.LBB54_150-.LBB54_147)>>2
	.byte	(.LBB54_199-.LBB54_147)>>2
	.byte	(.LBB54_147-.LBB54_147)>>2
	.byte	(.LBB54_197-.LBB54_147)>>2
	.byte	(.LBB54_147-.LBB54_147)>>2
	.byte	(.LBB54_150-.LBB54_147)>>2
	.byte	(.LBB54_147-.LBB54_147)>>2
	.byte	(.LBB54_147-.LBB54_147)>>2
	.byte	(.LBB54_201-.LBB54_147)>>2
	.byte	(.LBB54_147-.LBB54_147)>>2
	.byte	(.LBB54_147-.LBB54_147)>>2
	.byte	(.LBB54_182-.LBB54_147)>>2
	.byte	(.LBB54_147-.LBB54_147)>>2
	.byte	(.LBB54_147-.LBB54_147)>>2
	.byte	(.LBB54_147-.LBB54_147)>>2
	.byte	(.LBB54_147-.LBB54_147)>>2
	.byte	(.LBB54_147-.LBB54_147)>>2
	.byte	(.LBB54_147-.LBB54_147)>>2
	.byte	(.LBB54_150-.LBB54_147)>>2
	.byte	(.LBB54_193-.LBB54_147)>>2
	.byte	(.LBB54_180-.LBB54_147)>>2
	.byte	(.LBB54_206-.LBB54_147)>>2
	.byte	(.LBB54_147-.LBB54_147)>>2
	.byte	(.LBB54_147-.LBB54_147)>>2
	.byte	(.LBB54_147-.LBB54_147)>>2
	.byte	(.LBB54_147-.LBB54_147)>>2
	.byte	(.LBB54_147-.LBB54_147)>>2
	.byte	(.LBB54_147-.LBB54_147)>>2
	.byte	(.LBB54_147-.LBB54_147)>>2
	.byte	(.LBB54_147-.LBB54_147)>>2
	.byte	(.LBB54_147-.LBB54_147)>>2
	.byte	(.LBB54_147-.LBB54_147)>>2
	.byte	(.LBB54_147-.LBB54_147)>>2
	.byte	(.LBB54_195-.LBB54_147)>>2
	.byte	(.LBB54_147-.LBB54_147)>>2
	.byte	(.LBB54_185-.LBB54_147)>>2
	.byte	(.LBB54_147-.LBB54_147)>>2
	.byte	(.LBB54_187-.LBB54_147)>>2
	.byte	(.LBB54_147-.LBB54_147)>>2
	.byte	(.LBB54_147-.LBB54_147)>>2
	.byte	(.LBB54_191-.LBB54_147)>>2
	.byte	(.LBB54_147-.LBB54_147)>>2
	.byte	(.LBB54_147-.LBB54_147)>>2
	.byte	(.LBB54_182-.LBB54_147)>>2
	.byte	(.LBB54_147-.LBB54_147)>>2
	.byte	(.LBB54_147-.LBB54_147)>>2
	.byte	(.LBB54_147-.LBB54_147)>>2
	.byte	(.LBB54_147-.LBB54_147)>>2
	.byte	(.LBB54_147-.LBB54_147)>>2
	.byte	(.LBB54_147-.LBB54_147)>>2
	.byte	(.LBB54_180-.LBB54_147)>>2
	.byte	(.LBB54_189-.LBB54_147)>>2
	.byte	(.LBB54_203-.LBB54_147)>>2
	.byte	(.LBB54_147-.LBB54_147)>>2
	.byte	(.LBB54_147-.LBB54_147)>>2
	.byte	(.LBB54_150-.LBB54_147)>>2
.LJTI54_6:
	.byte	(.LBB54_21-.LBB54_21)>>2
	.byte	(.LBB54_24-.LBB54_21)>>2
	.byte	(.LBB54_31-.LBB54_21)>>2
	.byte	(.LBB54_30-.LBB54_21)>>2
	.byte	(.LBB54_31-.LBB54_21)>>2
	.byte	(.LBB54_21-.LBB54_21)>>2
	.byte	(.LBB54_31-.LBB54_21)>>2
	.byte	(.LBB54_31-.LBB54_21)>>2
	.byte	(.LBB54_22-.LBB54_21)>>2
	.byte	(.LBB54_31-.LBB54_21)>>2
	.byte	(.LBB54_31-.LBB54_21)>>2
	.byte	(.LBB54_23-.LBB54_21)>>2
	.byte	(.LBB54_31-.LBB54_21)>>2
	.byte	(.LBB54_31-.LBB54_21)>>2
	.byte	(.LBB54_31-.LBB54_21)>>2
	.byte	(.LBB54_31-.LBB54_21)>>2
	.byte	(.LBB54_31-.LBB54_21)>>2
	.byte	(.LBB54_31-.LBB54_21)>>2
	.byte	(.LBB54_21-.LBB54_21)>>2
	.byte	(.LBB54_23-.LBB54_21)>>2
	.byte	(.LBB54_25-.LBB54_21)>>2
	.byte	(.LBB54_27-.LBB54_21)>>2
	.byte	(.LBB54_31-.LBB54_21)>>2
	.byte	(.LBB54_31-.LBB54_21)>>2
	.byte	(.LBB54_31-.LBB54_21)>>2
	.byte	(.LBB54_31-.LBB54_21)>>2
	.byte	(.LBB54_31-.LBB54_21)>>2
	.byte	(.LBB54_31-.LBB54_21)>>2
	.byte	(.LBB54_31-.LBB54_21)>>2
	.byte	(.LBB54_31-.LBB54_21)>>2
	.byte	(.LBB54_31-.LBB54_21)>>2
	.byte	(.LBB54_31-.LBB54_21)>>2
	.byte	(.LBB54_31-.LBB54_21)>>2
	.byte	(.LBB54_24-.LBB54_21)>>2
	.byte	(.LBB54_31-.LBB54_21)>>2
	.byte	(.LBB54_23-.LBB54_21)>>2
	.byte	(.LBB54_31-.LBB54_21)>>2
	.byte	(.LBB54_22-.LBB54_21)>>2
	.byte	(.LBB54_31-.LBB54_21)>>2
	.byte	(.LBB54_31-.LBB54_21)>>2
	.byte	(.LBB54_22-.LBB54_21)>>2
	.byte	(.LBB54_31-.LBB54_21)>>2
	.byte	(.LBB54_31-.LBB54_21)>>2
	.byte	(.LBB54_23-.LBB54_21)>>2
	.byte	(.LBB54_31-.LBB54_21)>>2
	.byte	(.LBB54_31-.LBB54_21)>>2
	.byte	(.LBB54_31-.LBB54_21)>>2
	.byte	(.LBB54_31-.LBB54_21)>>2
	.byte	(.LBB54_31-.LBB54_21)>>2
	.byte	(.LBB54_31-.LBB54_21)>>2
	.byte	(.LBB54_25-.LBB54_21)>>2
	.byte	(.LBB54_24-.LBB54_21)>>2
	.byte	(.LBB54_25-.LBB54_21)>>2
	.byte	(.LBB54_31-.LBB54_21)>>2
	.byte	(.LBB54_31-.LBB54_21)>>2
	.byte	(.LBB54_21-.LBB54_21)>>2
	.p2align	1, 0x0
.LJTI54_7:
	.hword	(.LBB54_106-.LBB54_83)>>2
	.hword	(.LBB54_171-.LBB54_83)>>2
	.hword	(.LBB54_83-.LBB54_83)>>2
	.hword	(.LBB54_169-.LBB54_83)>>2
	.hword	(.LBB54_83-.LBB54_83)>>2
	.hword	(.LBB54_106-.LBB54_83)>>2
	.hword	(.LBB54_83-.LBB54_83)>>2
	.hword	(.LBB54_83-.LBB54_83)>>2
	.hword	(.LBB54_173-.LBB54_83)>>2
	.hword	(.LBB54_83-.LBB54_83)>>2
	.hword	(.LBB54_83-.LBB54_83)>>2
	.hword	(.LBB54_155-.LBB54_83)>>2
	.hword	(.LBB54_83-.LBB54_83)>>2
	.hword	(.LBB54_83-.LBB54_83)>>2
	.hword	(.LBB54_83-.LBB54_83)>>2
	.hword	(.LBB54_83-.LBB54_83)>>2
	.hword	(.LBB54_83-.LBB54_83)>>2
	.hword	(.LBB54_83-.LBB54_83)>>2
	.hword	(.LBB54_106-.LBB54_83)>>2
	.hword	(.LBB54_165-.LBB54_83)>>2
	.hword	(.LBB54_153-.LBB54_83)>>2
	.hword	(.LBB54_177-.LBB54_83)>>2
	.hword	(.LBB54_83-.LBB54_83)>>2
	.hword	(.LBB54_83-.LBB54_83)>>2
	.hword	(.LBB54_83-.LBB54_83)>>2
	.hword	(.LBB54_83-.LBB54_83)>>2
	.hword	(.LBB54_83-.LBB54_83)>>2
	.hword	(.LBB54_83-.LBB54_83)>>2
	.hword	(.LBB54_83-.LBB54_83)>>2
	.hword	(.LBB54_83-.LBB54_83)>>2
	.hword	(.LBB54_83-.LBB54_83)>>2
	.hword	(.LBB54_83-.LBB54_83)>>2
	.hword	(.LBB54_83-.LBB54_83)>>2
	.hword	(.LBB54_167-.LBB54_83)>>2
	.hword	(.LBB54_83-.LBB54_83)>>2
	.hword	(.LBB54_157-.LBB54_83)>>2
	.hword	(.LBB54_83-.LBB54_83)>>2
	.hword	(.LBB54_159-.LBB54_83)>>2
	.hword	(.LBB54_83-.LBB54_83)>>2
	.hword	(.LBB54_83-.LBB54_83)>>2
	.hword	(.LBB54_163-.LBB54_83)>>2
	.hword	(.LBB54_83-.LBB54_83)>>2
	.hword	(.LBB54_83-.LBB54_83)>>2
	.hword	(.LBB54_155-.LBB54_83)>>2
	.hword	(.LBB54_83-.LBB54_83)>>2
	.hword	(.LBB54_83-.LBB54_83)>>2
	.hword	(.LBB54_83-.LBB54_83)>>2
	.hword	(.LBB54_83-.LBB54_83)>>2
	.hword	(.LBB54_83-.LBB54_83)>>2
	.hword	(.LBB54_83-.LBB54_83)>>2
	.hword	(.LBB54_153-.LBB54_83)>>2
	.hword	(.LBB54_161-.LBB54_83)>>2
	.hword	(.LBB54_175-.LBB54_83)>>2
	.hword	(.LBB54_83-.LBB54_83)>>2
	.hword	(.LBB54_83-.LBB54_83)>>2
	.hword	(.LBB54_106-.LBB54_83)>>2

	.section	.text.amqpv_is_canonical,"ax",@progbits
	.globl	amqpv_is_canonical
	.p2align	2
	.type	amqpv_is_canonical,@function
amqpv_is_canonical:
	ldr	w9, [x0, #24]
	cmp	w9, #31
	b.hi	.LBB55_7
	sub	sp, sp, #80
	movi	v0.2d, #0000000000000000
	ldp	x8, x10, [x0]
	str	x19, [sp, #64]
	mov	x19, x0
	stp	x29, x30, [sp, #48]
	add	x29, sp, #48
	stp	q0, q0, [sp, #16]
	str	q0, [sp]
	tbnz	w9, #0, .LBB55_8
	cbz	x10, .LBB55_44
	ldrb	w12, [x8]
	sub	w11, w12, #65
	cmp	w11, #55
	b.hi	.LBB55_44
	ldp	w13, w9, [x19, #16]
	adrp	x14, .LJTI55_0
	add	x14, x14, :lo12:.LJTI55_0
	mov	x15, xzr
	adr	x17, .LBB55_5
	ldrb	w18, [x14, x11]
	add	x17, x17, x18, lsl #2
	mov	x16, xzr
	br	x17
.LBB55_5:
	cmp	x10, #5
	b.lo	.LBB55_44
	ldur	w14, [x8, #1]
	mov	w15, #4
	rev	w14, w14
	add	x16, x14, #4
	b	.LBB55_18
.LBB55_7:
	mov	w0, #-13
	ret
.LBB55_8:
	subs	x9, x10, #4
	b.lo	.LBB55_44
	ldr	w10, [x8]
	ldr	w11, [x19, #16]
	rev	w1, w10
	add	x10, x1, #5
	cmp	x10, x11
	b.hi	.LBB55_44
	ldr	w10, [x19, #20]
	cbz	w10, .LBB55_44
	cmp	x9, x1
	b.lo	.LBB55_44
	sub	x2, x10, #1
	add	x0, x8, #4
	bl	"amqp_in_place::canonical::are_canonical_pairs"
	cbz	w0, .LBB55_44
	b	.LBB55_48
.LBB55_13:
	mov	w15, #8
	mov	w16, #8
	b	.LBB55_18
.LBB55_14:
	mov	w15, #1
	mov	w16, #1
	b	.LBB55_18
.LBB55_15:
	mov	w15, #2
	mov	w16, #2
	b	.LBB55_18
.LBB55_16:
	mov	w15, #4
	mov	w16, #4
	b	.LBB55_18
.LBB55_17:
	mov	w16, #5
	mov	w15, #1
.LBB55_18:
	sub	x14, x10, #1
	cmp	x14, x16
	b.lo	.LBB55_44
	cmp	x14, x15
	b.lo	.LBB55_44
	cmp	x16, x13
	b.hs	.LBB55_44
	cmp	x10, #1
	b.ne	.LBB55_24
	cmp	w12, #76
	b.eq	.LBB55_44
	cmp	w12, #85
	b.eq	.LBB55_44
	b	.LBB55_28
.LBB55_24:
	cmp	w12, #76
	b.eq	.LBB55_44
	cmp	w12, #85
	b.eq	.LBB55_44
	cmp	w12, #116
	b.ne	.LBB55_28
	ldrb	w8, [x8, #1]
	cmp	w8, #2
	b.hs	.LBB55_44
	b	.LBB55_48
.LBB55_28:
	cmp	w11, #55
	b.hi	.LBB55_44
	adrp	x12, .LJTI55_1
	add	x12, x12, :lo12:.LJTI55_1
	adr	x13, .LBB55_30
	ldrb	w15, [x12, x11]
	add	x13, x13, x15, lsl #2
	br	x13
.LBB55_30:
	cmp	x14, #7
	b.ls	.LBB55_44
	b	.LBB55_48
.LBB55_31:
	cmp	x14, #1
	b.ls	.LBB55_44
	b	.LBB55_48
.LBB55_32:
	cbnz	x14, .LBB55_48
	b	.LBB55_44
.LBB55_33:
	cmp	x14, #3
	b.ls	.LBB55_44
	b	.LBB55_48
.LBB55_34:
	subs	x9, x10, #5
	b.lo	.LBB55_44
	ldur	w8, [x8, #1]
	rev	w8, w8
	cmp	x9, x8
	b.lo	.LBB55_44
	b	.LBB55_48
.LBB55_36:
	subs	x10, x10, #5
	b.lo	.LBB55_44
	cbz	w9, .LBB55_44
	ldur	w11, [x8, #1]
	rev	w1, w11
	cmp	x10, x1
	b.lo	.LBB55_44
	sub	x2, x9, #1
	add	x0, x8, #5
	bl	"amqp_in_place::canonical::are_canonical_pairs"
	tbz	w0, #0, .LBB55_44
	b	.LBB55_48
.LBB55_40:
	subs	x10, x10, #5
	b.lo	.LBB55_44
	cbz	w9, .LBB55_44
	ldur	w11, [x8, #1]
	rev	w1, w11
	cmp	x10, x1
	b.lo	.LBB55_44
	sub	x2, x9, #1
	add	x0, x8, #5
	bl	"amqp_in_place::canonical::are_canonical_values"
	tbnz	w0, #0, .LBB55_48
.LBB55_44:
	mov	x0, sp
	mov	x1, x19
	mov	w2, wzr
	bl	"amqp_c::input::Input::read_error"
	ldrb	w8, [sp]
	cbz	w8, .LBB55_46
	ldrb	w9, [sp, #8]
	cmp	w8, #1
	csel	w8, w9, wzr, eq
	mvn	w0, w8
	ldp	x29, x30, [sp, #48]
	ldr	x19, [sp, #64]
	add	sp, sp, #80
	ret
.LBB55_46:
	mov	w0, #1
	ldp	x29, x30, [sp, #48]
	ldr	x19, [sp, #64]
	add	sp, sp, #80
	ret
.LBB55_47:
	cmp	x10, #6
	b.lo	.LBB55_44
.LBB55_48:
	mov	w0, wzr
	ldp	x29, x30, [sp, #48]
	ldr	x19, [sp, #64]
	add	sp, sp, #80
	ret
.Lfunc_end55:
	.size	amqpv_is_canonical, .Lfunc_end55-amqpv_is_canonical
	.section	.rodata.amqpv_is_canonical,"a",@progbits
.LJTI55_0:
	.byte	(.LBB55_5-.LBB55_5)>>2
	.byte	(.LBB55_14-.LBB55_5)>>2
	.byte	(.LBB55_44-.LBB55_5)>>2
	.byte	(.LBB55_17-.LBB55_5)>>2
	.byte	(.LBB55_44-.LBB55_5)>>2
	.byte	(.LBB55_5-.LBB55_5)>>2
	.byte	(.LBB55_44-.LBB55_5)>>2
	.byte	(.LBB55_44-.LBB55_5)>>2
	.byte	(.LBB55_16-.LBB55_5)>>2
	.byte	(.LBB55_44-.LBB55_5)>>2
	.byte	(.LBB55_44-.LBB55_5)>>2
	.byte	(.LBB55_13-.LBB55_5)>>2
	.byte	(.LBB55_44-.LBB55_5)>>2
	.byte	(.LBB55_44-.LBB55_5)>>2
	.byte	(.LBB55_44-.LBB55_5)>>2
	.byte	(.LBB55_44-.LBB55_5)>>2
	.byte	(.LBB55_44-.LBB55_5)>>2
	.byte	(.LBB55_44-.LBB55_5)>>2
	.byte	(.LBB55_5-.LBB55_5)>>2
	.byte	(.LBB55_13-.LBB55_5)>>2
	.byte	(.LBB55_15-.LBB55_5)>>2
	.byte	(.LBB55_18-.LBB55_5)>>2
	.byte	(.LBB55_44-.LBB55_5)>>2
	.byte	(.LBB55_44-.LBB55_5)>>2
	.byte	(.LBB55_44-.LBB55_5)>>2
	.byte	(.LBB55_44-.LBB55_5)>>2
	.byte	(.LBB55_44-.LBB55_5)>>2
	.byte	(.LBB55_44-.LBB55_5)>>2
	.byte	(.LBB55_44-.LBB55_5)>>2
	.byte	(.LBB55_44-.LBB55_5)>>2
	.byte	(.LBB55_44-.LBB55_5)>>2
	.byte	(.LBB55_44-.LBB55_5)>>2
	.byte	(.LBB55_44-.LBB55_5)>>2
	.byte	(.LBB55_14-.LBB55_5)>>2
	.byte	(.LBB55_44-.LBB55_5)>>2
	.byte	(.LBB55_13-.LBB55_5)>>2
	.byte	(.LBB55_44-.LBB55_5)>>2
	.byte	(.LBB55_16-.LBB55_5)>>2
	.byte	(.LBB55_44-.LBB55_5)>>2
	.byte	(.LBB55_44-.LBB55_5)>>2
	.byte	(.LBB55_16-.LBB55_5)>>2
	.byte	(.LBB55_44-.LBB55_5)>>2
	.byte	(.LBB55_44-.LBB55_5)>>2
	.byte	(.LBB55_13-.LBB55_5)>>2
	.byte	(.LBB55_44-.LBB55_5)>>2
	.byte	(.LBB55_44-.LBB55_5)>>2
	.byte	(.LBB55_44-.LBB55_5)>>2
	.byte	(.LBB55_44-.LBB55_5)>>2
	.byte	(.LBB55_44-.LBB55_5)>>2
	.byte	(.LBB55_44-.LBB55_5)>>2
	.byte	(.LBB55_15-.LBB55_5)>>2
	.byte	(.LBB55_14-.LBB55_5)>>2
	.byte	(.LBB55_15-.LBB55_5)>>2
	.byte	(.LBB55_44-.LBB55_5)>>2
	.byte	(.LBB55_44-.LBB55_5)>>2
	.byte	(.LBB55_5-.LBB55_5)>>2
.LJTI55_1:
	.byte	(.LBB55_40-.LBB55_30)>>2
	.byte	(.LBB55_32-.LBB55_30)>>2
	.byte	(.LBB55_44-.LBB55_30)>>2
	.byte	(.LBB55_47-.LBB55_30)>>2
	.byte	(.LBB55_44-.LBB55_30)>>2
	.byte	(.LBB55_36-.LBB55_30)>>2
	.byte	(.LBB55_44-.LBB55_30)>>2
	.byte	(.LBB55_44-.LBB55_30)>>2
	.byte	(.LBB55_33-.LBB55_30)>>2
	.byte	(.LBB55_44-.LBB55_30)>>2
	.byte	(.LBB55_44-.LBB55_30)>>2
	.byte	(.LBB55_30-.LBB55_30)>>2
	.byte	(.LBB55_44-.LBB55_30)>>2
	.byte	(.LBB55_44-.LBB55_30)>>2
	.byte	(.LBB55_44-.LBB55_30)>>2
	.byte	(.LBB55_44-.LBB55_30)>>2
	.byte	(.LBB55_44-.LBB55_30)>>2
	.byte	(.LBB55_44-.LBB55_30)>>2
	.byte	(.LBB55_34-.LBB55_30)>>2
	.byte	(.LBB55_30-.LBB55_30)>>2
	.byte	(.LBB55_31-.LBB55_30)>>2
	.byte	(.LBB55_48-.LBB55_30)>>2
	.byte	(.LBB55_44-.LBB55_30)>>2
	.byte	(.LBB55_44-.LBB55_30)>>2
	.byte	(.LBB55_44-.LBB55_30)>>2
	.byte	(.LBB55_44-.LBB55_30)>>2
	.byte	(.LBB55_44-.LBB55_30)>>2
	.byte	(.LBB55_44-.LBB55_30)>>2
	.byte	(.LBB55_44-.LBB55_30)>>2
	.byte	(.LBB55_44-.LBB55_30)>>2
	.byte	(.LBB55_44-.LBB55_30)>>2
	.byte	(.LBB55_44-.LBB55_30)>>2
	.byte	(.LBB55_44-.LBB55_30)>>2
	.byte	(.LBB55_32-.LBB55_30)>>2
	.byte	(.LBB55_44-.LBB55_30)>>2
	.byte	(.LBB55_30-.LBB55_30)>>2
	.byte	(.LBB55_44-.LBB55_30)>>2
	.byte	(.LBB55_33-.LBB55_30)>>2
	.byte	(.LBB55_44-.LBB55_30)>>2
	.byte	(.LBB55_44-.LBB55_30)>>2
	.byte	(.LBB55_33-.LBB55_30)>>2
	.byte	(.LBB55_44-.LBB55_30)>>2
	.byte	(.LBB55_44-.LBB55_30)>>2
	.byte	(.LBB55_30-.LBB55_30)>>2
	.byte	(.LBB55_44-.LBB55_30)>>2
	.byte	(.LBB55_44-.LBB55_30)>>2
	.byte	(.LBB55_44-.LBB55_30)>>2
	.byte	(.LBB55_44-.LBB55_30)>>2
	.byte	(.LBB55_44-.LBB55_30)>>2
	.byte	(.LBB55_44-.LBB55_30)>>2
	.byte	(.LBB55_31-.LBB55_30)>>2
	.byte	(.LBB55_32-.LBB55_30)>>2
	.byte	(.LBB55_31-.LBB55_30)>>2
	.byte	(.LBB55_44-.LBB55_30)>>2
	.byte	(.LBB55_44-.LBB55_30)>>2
	.byte	(.LBB55_34-.LBB55_30)>>2

	.section	.text.amqpv_proved_measure,"ax",@progbits
	.p2align	2
	.type	amqpv_proved_measure,@function
amqpv_proved_measure:
	sub	sp, sp, #160
	ldr	w9, [x0, #24]
	stp	x29, x30, [sp, #96]
	add	x29, sp, #96
	str	x23, [sp, #112]
	cmp	w9, #31
	stp	x22, x21, [sp, #128]
	stp	x20, x19, [sp, #144]
	b.hi	.LBB56_5
	movi	v0.2d, #0000000000000000
	ldp	x8, x21, [x0]
	mov	x19, x2
	mov	x20, x0
	stp	q0, q0, [sp, #16]
	str	q0, [sp]
	tbnz	w9, #0, .LBB56_6
	ldp	w3, w4, [x20, #16]
	mov	x22, x1
	add	x0, sp, #48
	mov	x1, x8
	mov	x2, x21
	bl	"amqp_in_place::read::read_in_place"
	ldrb	w8, [sp, #48]
	cbnz	w8, .LBB56_7
	ldrb	w11, [sp, #56]
	ldr	x9, [sp, #88]
	mov	x8, xzr
	cmp	w11, #12
	sub	x19, x21, x9
	mov	w9, #1
	b.hs	.LBB56_14
	mov	x10, x22
	b	.LBB56_19
.LBB56_5:
	mov	w0, #-13
	ldp	x20, x19, [sp, #144]
	ldr	x23, [sp, #112]
	ldp	x22, x21, [sp, #128]
	ldp	x29, x30, [sp, #96]
	add	sp, sp, #160
	ret
.LBB56_6:
	subs	x9, x21, #4
	b.hs	.LBB56_9
.LBB56_7:
	mov	x0, sp
	mov	x1, x20
	mov	w2, wzr
	bl	"amqp_c::input::Input::read_error"
	ldrb	w8, [sp]
	cmp	w8, #1
	b.ne	.LBB56_21
	ldrb	w9, [sp, #8]
	ldr	q0, [sp, #32]
	ldr	x8, [sp, #24]
	mvn	w0, w9
	str	q0, [sp, #48]
	str	x8, [x19]
	stur	q0, [x19, #8]
	ldp	x20, x19, [sp, #144]
	ldr	x23, [sp, #112]
	ldp	x22, x21, [sp, #128]
	ldp	x29, x30, [sp, #96]
	add	sp, sp, #160
	ret
.LBB56_9:
	ldr	w10, [x8]
	rev	w21, w10
	cmp	x9, x21
	b.lo	.LBB56_7
	ldr	w9, [x20, #16]
	add	x10, x21, #5
	cmp	x10, x9
	b.hi	.LBB56_7
	ldr	w9, [x20, #20]
	cbz	w9, .LBB56_7
	sub	x2, x9, #1
	add	x0, x8, #4
	mov	x22, x1
	mov	x1, x21
	mov	x23, x8
	bl	"amqp_in_place::read::are_pairs"
	cbz	w0, .LBB56_7
	add	x19, x21, #4
	add	x0, x23, #4
	mov	x1, x21
	b	.LBB56_17
.LBB56_14:
	cmp	w11, #14
	mov	x10, x22
	b.gt	.LBB56_19
	ldp	x0, x1, [sp, #64]
	cmp	w11, #12
	b.eq	.LBB56_20
	cmp	w11, #13
	b.eq	.LBB56_19
.LBB56_17:
	bl	"amqp_in_place::measure::counts_of_pairs"
.LBB56_18:
	mov	x10, x22
	add	x9, x0, #1
	add	x8, x1, #1
.LBB56_19:
	mov	w0, wzr
	stp	x19, x9, [x10]
	str	x8, [x10, #16]
	ldp	x20, x19, [sp, #144]
	ldr	x23, [sp, #112]
	ldp	x22, x21, [sp, #128]
	ldp	x29, x30, [sp, #96]
	add	sp, sp, #160
	ret
.LBB56_20:
	bl	"amqp_in_place::measure::counts_of_values"
	b	.LBB56_18
.LBB56_21:
	brk	#0x1
.Lfunc_end56:
	.size	amqpv_proved_measure, .Lfunc_end56-amqpv_proved_measure

	.section	.text.amqpv_proved_read,"ax",@progbits
	.p2align	2
	.type	amqpv_proved_read,@function
amqpv_proved_read:
	sub	sp, sp, #208
	ldp	q1, q0, [x0]
	stp	x29, x30, [sp, #112]
	stp	x28, x27, [sp, #128]
	add	x29, sp, #112
	stp	x26, x25, [sp, #144]
	stp	q1, q0, [sp, #16]
	ldr	w10, [sp, #40]
	stp	x24, x23, [sp, #160]
	stp	x22, x21, [sp, #176]
	cmp	w10, #31
	stp	x20, x19, [sp, #192]
	b.ls	.LBB57_2
	mov	w0, #-13
	b	.LBB57_52
.LBB57_2:
	movi	v0.2d, #0000000000000000
	ubfx	w11, w10, #1, #1
	tst	w10, #0x4
	mov	w12, #2
	ldr	x9, [sp, #24]
	mov	x8, x2
	csel	w2, w11, w12, eq
	str	x8, [sp, #8]
	stp	q0, q0, [sp, #64]
	str	q0, [sp, #48]
	tbnz	w10, #0, .LBB57_8
	cbz	x9, .LBB57_13
	ldr	x11, [sp, #16]
	mov	x20, xzr
	mov	w25, #1
	ldrb	w21, [x11]
	sub	w10, w21, #65
	cmp	w10, #55
	b.hi	.LBB57_14
	adrp	x12, .LJTI57_0
	add	x12, x12, :lo12:.LJTI57_0
	mov	w22, wzr
	adr	x13, .LBB57_6
	ldrb	w14, [x12, x10]
	add	x13, x13, x14, lsl #2
	sub	x10, x9, #1
	br	x13
.LBB57_6:
	subs	x10, x9, #5
	b.hs	.LBB57_20
.LBB57_7:
	mov	x23, x1
	mov	w8, #5
	b	.LBB57_10
.LBB57_8:
	subs	x10, x9, #4
	b.hs	.LBB57_11
	mov	x23, x1
	mov	w8, #4
.LBB57_10:
	sub	x24, x8, x9
	b	.LBB57_12
.LBB57_11:
	ldr	x9, [sp, #16]
	mov	x23, x1
	ldr	w9, [x9]
	rev	w26, w9
	subs	x24, x26, x10
	b.ls	.LBB57_15
.LBB57_12:
	mov	w22, wzr
	mov	w19, wzr
	mov	w25, wzr
	mov	x27, xzr
	mov	x28, xzr
	mov	x26, xzr
	mov	x20, xzr
	mov	w21, wzr
	sturh	wzr, [x29, #-4]
	stur	wzr, [x29, #-8]
	b	.LBB57_48
.LBB57_13:
	mov	w25, wzr
	mov	w20, #1
.LBB57_14:
	mov	x23, x1
	mov	w22, wzr
	mov	w19, wzr
	mov	x27, xzr
	mov	x28, xzr
	mov	x26, xzr
	mov	w21, wzr
	sturh	wzr, [x29, #-4]
	mov	x24, x20
	stur	wzr, [x29, #-8]
	mov	x20, xzr
	b	.LBB57_48
.LBB57_15:
	mov	w22, wzr
	mov	w25, wzr
	mov	x24, xzr
	mov	x20, xzr
	sturh	wzr, [x29, #-4]
	add	x27, x26, #4
	stur	wzr, [x29, #-8]
	mov	w21, #70
	mov	w19, #1
	mov	w28, #4
	b	.LBB57_48
.LBB57_16:
	cmp	x10, #1
	b.ls	.LBB57_45
	ldrb	w10, [x11, #1]
	ldrb	w11, [x11, #2]
	mov	w22, wzr
	mov	w21, #115
	lsl	x10, x10, #56
	orr	x10, x10, x11, lsl #48
	asr	x20, x10, #48
	sub	x10, x9, #3
	b	.LBB57_47
.LBB57_18:
	cmp	x10, #8
	b.lo	.LBB57_32
	ldur	x10, [x11, #1]
	mov	w22, wzr
	mov	w21, #108
	rev	x20, x10
	sub	x10, x9, #9
	b	.LBB57_47
.LBB57_20:
	ldur	w9, [x11, #1]
	mov	x23, x1
	rev	w26, w9
	subs	x24, x26, x10
	b.hi	.LBB57_12
	mov	w22, wzr
	mov	w25, wzr
	mov	x24, xzr
	mov	x20, xzr
	add	x27, x26, #5
	sturh	wzr, [x29, #-4]
	stur	wzr, [x29, #-8]
	mov	w19, #1
	mov	w28, #5
	b	.LBB57_48
.LBB57_22:
	cmp	x10, #8
	b.lo	.LBB57_32
	ldur	x10, [x11, #1]
	mov	w22, wzr
	mov	w21, #100
	rev	x20, x10
	sub	x10, x9, #9
	b	.LBB57_47
.LBB57_24:
	cmp	x10, #4
	b.lo	.LBB57_7
	ldur	w10, [x11, #1]
	mov	w22, wzr
	mov	w21, #102
	rev	w20, w10
	sub	x10, x9, #5
	b	.LBB57_47
.LBB57_26:
	cbz	x10, .LBB57_40
	ldrb	w10, [x11, #1]
	mov	w22, wzr
	mov	w21, #116
	cmp	w10, #0
	sub	x10, x9, #2
	cset	w20, ne
	b	.LBB57_47
.LBB57_28:
	cmp	x10, #4
	b.lo	.LBB57_7
	ldur	w10, [x11, #1]
	mov	w22, wzr
	mov	w21, #105
	rev	w20, w10
	sub	x10, x9, #5
	b	.LBB57_47
.LBB57_30:
	cmp	x10, #8
	b.lo	.LBB57_32
	ldur	x10, [x11, #1]
	mov	w22, wzr
	mov	w21, #84
	rev	x20, x10
	sub	x10, x9, #9
	b	.LBB57_47
.LBB57_32:
	mov	x23, x1
	mov	w8, #9
	b	.LBB57_10
.LBB57_33:
	cbz	x10, .LBB57_40
	ldrsb	x20, [x11, #1]
	mov	w22, wzr
	sub	x10, x9, #2
	mov	w21, #98
	b	.LBB57_47
.LBB57_35:
	cbz	x10, .LBB57_40
	sub	x10, x9, #2
	cmp	x10, #3
	b.hi	.LBB57_46
	mov	x23, x1
	mov	w8, #6
	b	.LBB57_10
.LBB57_38:
	cbz	x10, .LBB57_40
	ldrb	w20, [x11, #1]
	mov	w22, wzr
	sub	x10, x9, #2
	mov	w21, #66
	b	.LBB57_47
.LBB57_40:
	mov	x23, x1
	mov	w24, #1
	b	.LBB57_12
.LBB57_41:
	cmp	x10, #3
	b.ls	.LBB57_7
	ldur	w10, [x11, #1]
	mov	w22, wzr
	mov	w21, #73
	rev	w10, w10
	sxtw	x20, w10
	sub	x10, x9, #5
	b	.LBB57_47
.LBB57_43:
	cmp	x10, #1
	b.ls	.LBB57_45
	ldurh	w10, [x11, #1]
	mov	w22, wzr
	mov	w21, #117
	rev16	w20, w10
	sub	x10, x9, #3
	b	.LBB57_47
.LBB57_45:
	mov	x23, x1
	mov	w8, #3
	b	.LBB57_10
.LBB57_46:
	ldur	w10, [x11, #2]
	ldrb	w22, [x11, #1]
	mov	w21, #68
	rev	w20, w10
	sub	x10, x9, #6
.LBB57_47:
	mov	x23, x1
	mov	w25, wzr
	mov	x24, xzr
	mov	x28, xzr
	mov	x26, xzr
	sturh	wzr, [x29, #-4]
	sub	x27, x9, x10
	stur	wzr, [x29, #-8]
	mov	w19, #1
.LBB57_48:
	add	x0, sp, #48
	add	x1, sp, #16
	bl	"amqp_c::input::Input::read_error"
	ldrb	w8, [sp, #48]
	cmp	w8, #1
	b.ne	.LBB57_50
	ldrb	w8, [sp, #56]
	ldur	q0, [sp, #72]
	ldr	x9, [sp, #88]
	ldr	x22, [sp, #8]
	mvn	w0, w8
	str	q0, [x22]
	str	x9, [x22, #16]
	b	.LBB57_52
.LBB57_50:
	tbz	w19, #0, .LBB57_53
	ldur	w8, [x29, #-8]
	ldurh	w9, [x29, #-4]
	mov	w0, wzr
	strb	w25, [x23]
	strb	wzr, [x23, #7]
	sturh	wzr, [x23, #5]
	stur	wzr, [x23, #1]
	stp	x24, xzr, [x23, #8]
	stp	x27, x28, [x23, #24]
	stp	x26, x20, [x23, #40]
	strb	w21, [x23, #56]
	strb	w22, [x23, #57]
	stur	w8, [x23, #58]
	strh	w9, [x23, #62]
.LBB57_52:
	ldp	x20, x19, [sp, #192]
	ldp	x22, x21, [sp, #176]
	ldp	x24, x23, [sp, #160]
	ldp	x26, x25, [sp, #144]
	ldp	x28, x27, [sp, #128]
	ldp	x29, x30, [sp, #112]
	add	sp, sp, #208
	ret
.LBB57_53:
	brk	#0x1
.Lfunc_end57:
	.size	amqpv_proved_read, .Lfunc_end57-amqpv_proved_read
	.section	.rodata.amqpv_proved_read,"a",@progbits
.LJTI57_0:
	.byte	(.LBB57_6-.LBB57_6)>>2
	.byte	(.LBB57_38-.LBB57_6)>>2
	.byte	(.LBB57_14-.LBB57_6)>>2
	.byte	(.LBB57_35-.LBB57_6)>>2
	.byte	(.LBB57_14-.LBB57_6)>>2
	.byte	(.LBB57_6-.LBB57_6)>>2
	.byte	(.LBB57_14-.LBB57_6)>>2
	.byte	(.LBB57_14-.LBB57_6)>>2
	.byte	(.LBB57_41-.LBB57_6)>>2
	.byte	(.LBB57_14-.LBB57_6)>>2
	.byte	(.LBB57_14-.LBB57_6)>>2
	.byte	(.LBB57_18-.LBB57_6)>>2
	.byte	(.LBB57_14-.LBB57_6)>>2
	.byte	(.LBB57_14-.LBB57_6)>>2
	.byte	(.LBB57_14-.LBB57_6)>>2
	.byte	(.LBB57_14-.LBB57_6)>>2
	.byte	(.LBB57_14-.LBB57_6)>>2
	.byte	(.LBB57_14-.LBB57_6)>>2
	.byte	(.LBB57_6-.LBB57_6)>>2
	.byte	(.LBB57_30-.LBB57_6)>>2
	.byte	(.LBB57_16-.LBB57_6)>>2
	.byte	(.LBB57_47-.LBB57_6)>>2
	.byte	(.LBB57_14-.LBB57_6)>>2
	.byte	(.LBB57_14-.LBB57_6)>>2
	.byte	(.LBB57_14-.LBB57_6)>>2
	.byte	(.LBB57_14-.LBB57_6)>>2
	.byte	(.LBB57_14-.LBB57_6)>>2
	.byte	(.LBB57_14-.LBB57_6)>>2
	.byte	(.LBB57_14-.LBB57_6)>>2
	.byte	(.LBB57_14-.LBB57_6)>>2
	.byte	(.LBB57_14-.LBB57_6)>>2
	.byte	(.LBB57_14-.LBB57_6)>>2
	.byte	(.LBB57_14-.LBB57_6)>>2
	.byte	(.LBB57_33-.LBB57_6)>>2
	.byte	(.LBB57_14-.LBB57_6)>>2
	.byte	(.LBB57_22-.LBB57_6)>>2
	.byte	(.LBB57_14-.LBB57_6)>>2
	.byte	(.LBB57_24-.LBB57_6)>>2
	.byte	(.LBB57_14-.LBB57_6)>>2
	.byte	(.LBB57_14-.LBB57_6)>>2
	.byte	(.LBB57_28-.LBB57_6)>>2
	.byte	(.LBB57_14-.LBB57_6)>>2
	.byte	(.LBB57_14-.LBB57_6)>>2
	.byte	(.LBB57_18-.LBB57_6)>>2
	.byte	(.LBB57_14-.LBB57_6)>>2
	.byte	(.LBB57_14-.LBB57_6)>>2
	.byte	(.LBB57_14-.LBB57_6)>>2
	.byte	(.LBB57_14-.LBB57_6)>>2
	.byte	(.LBB57_14-.LBB57_6)>>2
	.byte	(.LBB57_14-.LBB57_6)>>2
	.byte	(.LBB57_16-.LBB57_6)>>2
	.byte	(.LBB57_26-.LBB57_6)>>2
	.byte	(.LBB57_43-.LBB57_6)>>2
	.byte	(.LBB57_14-.LBB57_6)>>2
	.byte	(.LBB57_14-.LBB57_6)>>2
	.byte	(.LBB57_6-.LBB57_6)>>2

	.section	.text.amqpv_proved_to_json,"ax",@progbits
	.p2align	2
	.type	amqpv_proved_to_json,@function
amqpv_proved_to_json:
	sub	sp, sp, #176
	movi	v0.2d, #0000000000000000
	ldr	w10, [x0, #24]
	mov	w8, #4096
	cmp	x1, #0
	stp	x24, x23, [sp, #128]
	stp	x20, x19, [sp, #160]
	mov	x19, x3
	csel	x23, x8, xzr, eq
	cmp	w10, #32
	stp	x29, x30, [sp, #96]
	add	x29, sp, #96
	str	x25, [sp, #112]
	stp	x22, x21, [sp, #144]
	stp	q0, q0, [sp, #16]
	str	q0, [sp]
	b.hs	.LBB58_5
	ldp	x8, x9, [x0]
	mov	x20, x0
	tbnz	w10, #0, .LBB58_6
	ldp	w3, w4, [x20, #16]
	mov	x25, x1
	mov	x24, x2
	add	x0, sp, #48
	mov	x1, x8
	mov	x2, x9
	bl	"amqp_in_place::read::read_in_place"
	ldrb	w8, [sp, #48]
	cbnz	w8, .LBB58_7
	ldp	x9, x22, [sp, #56]
	mov	x1, x24
	ldr	x21, [sp, #72]
	mov	x8, x25
	and	w10, w9, #0xff
	cmp	w10, #12
	b.hs	.LBB58_17
.LBB58_4:
	add	x0, x8, x23
	add	x4, sp, #48
	mov	x2, xzr
	mov	w3, wzr
	stp	x9, x22, [sp, #48]
	str	x21, [sp, #64]
	bl	"amqp_json::printing::leaves::put_leaf"
	b	.LBB58_15
.LBB58_5:
	mov	x8, xzr
	mov	w0, #-13
	b	.LBB58_16
.LBB58_6:
	subs	x10, x9, #4
	b.hs	.LBB58_9
.LBB58_7:
	mov	x0, sp
	mov	x1, x20
	mov	w2, wzr
	bl	"amqp_c::input::Input::read_error"
	ldrb	w8, [sp]
	cmp	w8, #1
	b.ne	.LBB58_21
	ldrb	w8, [sp, #8]
	ldr	x9, [sp, #16]
	and	w10, w8, #0xff
	cmp	w10, #16
	mvn	w0, w10
	csel	x8, x9, xzr, eq
	b	.LBB58_16
.LBB58_9:
	ldr	w9, [x20, #20]
	cbz	w9, .LBB58_7
	ldr	w11, [x8]
	rev	w21, w11
	cmp	x10, x21
	b.lo	.LBB58_7
	ldr	w10, [x20, #16]
	add	x11, x21, #5
	cmp	x11, x10
	b.hi	.LBB58_7
	add	x22, x8, #4
	sub	x8, x9, #1
	mov	x24, x1
	mov	x0, x22
	mov	x1, x21
	mov	x25, x2
	mov	x2, x8
	bl	"amqp_in_place::read::are_pairs"
	cbz	w0, .LBB58_7
	mov	x8, x24
	mov	x1, x25
.LBB58_14:
	add	x0, x8, x23
	mov	x2, xzr
	mov	w3, wzr
	mov	x4, x22
	mov	x5, x21
	mov	x24, x1
	bl	"amqp_json::printing::walk::put_table"
.LBB58_15:
	cmp	x24, x0
	mov	w9, #-17
	mov	x8, x0
	csel	w0, w9, wzr, lo
.LBB58_16:
	str	x8, [x19]
	ldp	x20, x19, [sp, #160]
	ldp	x22, x21, [sp, #144]
	ldr	x25, [sp, #112]
	ldp	x24, x23, [sp, #128]
	ldp	x29, x30, [sp, #96]
	add	sp, sp, #176
	ret
.LBB58_17:
	cmp	w10, #14
	b.gt	.LBB58_4
	cmp	w10, #12
	b.eq	.LBB58_20
	cmp	w10, #13
	b.eq	.LBB58_4
	b	.LBB58_14
.LBB58_20:
	add	x0, x8, x23
	mov	x2, xzr
	mov	w3, wzr
	mov	x4, x22
	mov	x5, x21
	bl	"amqp_json::printing::walk::put_array"
	b	.LBB58_15
.LBB58_21:
	brk	#0x1
.Lfunc_end58:
	.size	amqpv_proved_to_json, .Lfunc_end58-amqpv_proved_to_json

	.section	.text.amqpv_close,"ax",@progbits
	.globl	amqpv_close
	.p2align	2
	.type	amqpv_close,@function
amqpv_close:
	stp	x29, x30, [sp, #-80]!
	stp	x22, x21, [sp, #48]
	ldr	x22, [x3]
	cmp	x0, #0
	mov	w9, #4096
	mov	x8, x0
	mov	w0, #-13
	csel	x10, x9, xzr, eq
	subs	x9, x22, #4
	stp	x26, x25, [sp, #16]
	stp	x24, x23, [sp, #32]
	mov	x29, sp
	stp	x20, x19, [sp, #64]
	b.lo	.LBB59_24
	cmp	x1, x22
	b.lo	.LBB59_24
	ldr	x23, [x3, #8]
	sub	x11, x1, x22
	cmp	x11, x23
	b.lo	.LBB59_24
	ldr	x24, [x2]
	subs	x12, x9, x24
	b.lo	.LBB59_24
	ldr	x11, [x2, #8]
	cmp	x12, x11
	b.lo	.LBB59_24
	ldrb	w12, [x2, #17]
	cmp	w12, #1
	b.ne	.LBB59_24
	ldrb	w12, [x3, #17]
	cbnz	w12, .LBB59_24
	add	x11, x11, x24
	cmp	x9, x11
	b.eq	.LBB59_24
	add	x25, x8, x10
	mvn	x8, x11
	add	x19, x25, x11
	add	x9, x9, x8
	ldrb	w11, [x3, #16]
	add	x8, x19, x9
	ldrb	w10, [x8]
	cmp	w10, w11
	b.ne	.LBB59_24
	ldrb	w10, [x2, #16]
	ldrb	w20, [x2, #18]
	cmp	w11, #70
	b.eq	.LBB59_11
	cmp	w11, #65
	b.ne	.LBB59_24
.LBB59_11:
	cmp	w10, #65
	b.eq	.LBB59_20
	cmp	w10, #70
	b.ne	.LBB59_24
	cbz	x9, .LBB59_24
	ldrb	w10, [x19], #1
	sub	x21, x9, #1
	cmp	x21, x10
	b.ne	.LBB59_24
	cmp	x9, #8
	b.hi	.LBB59_25
	cbz	x21, .LBB59_21
	mov	x8, xzr
.LBB59_18:
	ldrsb	w9, [x19, x8]
	tbnz	w9, #31, .LBB59_29
	add	x8, x8, #1
	cmp	x21, x8
	b.ne	.LBB59_18
	b	.LBB59_21
.LBB59_20:
	cbnz	x9, .LBB59_24
.LBB59_21:
	lsr	x8, x23, #32
	cbnz	x8, .LBB59_23
	lsr	x8, x23, #24
	and	w9, w23, #0xffffff
	add	x10, x25, x22
	rev	w9, w9
	mov	w0, wzr
	orr	w8, w9, w8
	sub	x9, x22, x24
	stur	w8, [x10, #-4]
	add	x8, x9, x23
	stp	x24, x8, [x2]
	strb	wzr, [x2, #17]
	ldp	x20, x19, [sp, #64]
	ldp	x22, x21, [sp, #48]
	ldp	x24, x23, [sp, #32]
	ldp	x26, x25, [sp, #16]
	ldp	x29, x30, [sp], #80
	ret
.LBB59_23:
	mov	w0, #-8
.LBB59_24:
	ldp	x20, x19, [sp, #64]
	ldp	x22, x21, [sp, #48]
	ldp	x24, x23, [sp, #32]
	ldp	x26, x25, [sp, #16]
	ldp	x29, x30, [sp], #80
	ret
.LBB59_25:
	cmp	x9, #17
	b.hi	.LBB59_28
	ldr	x9, [x19]
	tst	x9, #0x8080808080808080
	b.ne	.LBB59_30
	ldur	x8, [x8, #-8]
	tst	x8, #0x8080808080808080
	b.eq	.LBB59_21
	b	.LBB59_30
.LBB59_28:
	mov	x0, x19
	mov	x1, x21
	mov	x26, x2
	bl	"core::str::ascii::slice+u8::is_ascii"
	mov	x2, x26
	tbnz	w0, #0, .LBB59_21
	b	.LBB59_30
.LBB59_29:
	cmp	x8, x21
	b.hs	.LBB59_21
.LBB59_30:
	mov	x0, x19
	mov	x1, x21
	mov	x19, x2
	mov	w2, w20
	bl	"amqp_c::key::is_other_key"
	mov	x2, x19
	tbnz	w0, #0, .LBB59_21
	mov	w0, #-13
	ldp	x20, x19, [sp, #64]
	ldp	x22, x21, [sp, #48]
	ldp	x24, x23, [sp, #32]
	ldp	x26, x25, [sp, #16]
	ldp	x29, x30, [sp], #80
	ret
.Lfunc_end59:
	.size	amqpv_close, .Lfunc_end59-amqpv_close

	.section	.text.amqpv_open,"ax",@progbits
	.globl	amqpv_open
	.p2align	2
	.type	amqpv_open,@function
amqpv_open:
	sub	sp, sp, #160
	stp	x22, x21, [sp, #128]
	cmp	x0, #0
	mov	w8, #4096
	ldr	x22, [x2]
	csel	x21, x8, xzr, eq
	cmp	x3, #0
	csel	x9, x8, xzr, eq
	mov	w8, #-13
	stp	x29, x30, [sp, #64]
	subs	x10, x1, x22
	stp	x28, x27, [sp, #80]
	add	x29, sp, #64
	stp	x26, x25, [sp, #96]
	stp	x24, x23, [sp, #112]
	stp	x20, x19, [sp, #144]
	b.lo	.LBB60_83
	ldr	x23, [x2, #8]
	cmp	x10, x23
	b.lo	.LBB60_83
	ldrb	w10, [x2, #17]
	cbnz	w10, .LBB60_83
	ldrb	w25, [x2, #16]
	ldrb	w19, [x2, #18]
	add	x20, x3, x9
	cmp	w25, #65
	b.eq	.LBB60_21
	cmp	w25, #70
	b.ne	.LBB60_83
	cmp	x4, #7
	b.hi	.LBB60_23
	cbz	x4, .LBB60_40
	ldrsb	w8, [x20]
	tbnz	w8, #31, .LBB60_30
	cmp	x4, #1
	b.eq	.LBB60_40
	ldrsb	w8, [x20, #1]
	tbnz	w8, #31, .LBB60_34
	cmp	x4, #2
	b.eq	.LBB60_40
	ldrsb	w8, [x20, #2]
	tbnz	w8, #31, .LBB60_35
	cmp	x4, #3
	b.eq	.LBB60_40
	ldrsb	w8, [x20, #3]
	tbnz	w8, #31, .LBB60_36
	cmp	x4, #4
	b.eq	.LBB60_40
	ldrsb	w8, [x20, #4]
	tbnz	w8, #31, .LBB60_37
	cmp	x4, #5
	b.eq	.LBB60_40
	ldrsb	w8, [x20, #5]
	tbnz	w8, #31, .LBB60_38
	cmp	x4, #6
	b.eq	.LBB60_40
	ldrsb	w8, [x20, #6]
	tbz	w8, #31, .LBB60_40
	mov	w8, #6
	b	.LBB60_39
.LBB60_21:
	cbz	x4, .LBB60_40
.LBB60_22:
	mov	w8, #-14
	b	.LBB60_83
.LBB60_23:
	cmp	x4, #16
	add	x8, x20, x4
	b.hi	.LBB60_26
	ldr	x9, [x20]
	tst	x9, #0x8080808080808080
	b.ne	.LBB60_56
	ldur	x8, [x8, #-8]
	tst	x8, #0x8080808080808080
	b.eq	.LBB60_40
	b	.LBB60_56
.LBB60_26:
	cmp	x4, #255
	b.hi	.LBB60_56
	cmp	x4, #64
	stp	x20, x4, [x29, #-16]
	b.hi	.LBB60_33
	cmp	x4, #32
	b.lo	.LBB60_31
	ldp	q0, q1, [x20]
	ldp	q2, q3, [x8, #-32]
	orr	v1.16b, v1.16b, v3.16b
	orr	v0.16b, v0.16b, v2.16b
	orr	v0.16b, v0.16b, v1.16b
	ext	v1.16b, v0.16b, v0.16b, #8
	orr	v0.8b, v0.8b, v1.8b
	fmov	x8, d0
	b	.LBB60_32
.LBB60_30:
	mov	x8, xzr
	b	.LBB60_39
.LBB60_31:
	sub	x8, x4, #8
	mov	w9, #16
	cmp	x8, #16
	ldp	x10, x11, [x20]
	csel	x9, x8, x9, lo
	ldr	x8, [x20, x8]
	ldr	x9, [x20, x9]
	orr	x10, x11, x10
	orr	x8, x9, x8
	orr	x8, x10, x8
.LBB60_32:
	tst	x8, #0x8080808080808080
	b.eq	.LBB60_40
.LBB60_33:
	str	x0, [sp, #24]
	sub	x0, x29, #16
	mov	x26, x1
	mov	x1, x4
	mov	x27, x2
	str	w19, [sp, #20]
	mov	x19, x6
	mov	w28, w5
	mov	x24, x4
	bl	"core::slice::words::any_by_first::<#52f9edcae2f82f51>"
	mov	x6, x19
	ldr	w19, [sp, #20]
	mov	w8, w0
	ldr	x0, [sp, #24]
	mov	x1, x26
	mov	x4, x24
	mov	w5, w28
	mov	x2, x27
	cbz	w8, .LBB60_40
	b	.LBB60_56
.LBB60_34:
	mov	w8, #1
	b	.LBB60_39
.LBB60_35:
	mov	w8, #2
	b	.LBB60_39
.LBB60_36:
	mov	w8, #3
	b	.LBB60_39
.LBB60_37:
	mov	w8, #4
	b	.LBB60_39
.LBB60_38:
	mov	w8, #5
.LBB60_39:
	cmp	x8, x4
	b.lo	.LBB60_56
.LBB60_40:
	and	w8, w5, #0xff
	cmp	w8, #70
	b.eq	.LBB60_42
	cmp	w8, #65
	b.ne	.LBB60_50
.LBB60_42:
	cmp	w25, #70
	add	x22, x23, x22
	csinc	x24, xzr, x4, ne
	sub	x8, x1, x22
	add	x23, x24, #5
	cmp	x8, x23
	b.hs	.LBB60_44
	add	x8, x23, x22
	str	x8, [x2, #24]
	mov	w8, #-17
	b	.LBB60_83
.LBB60_44:
	cmp	w25, #70
	add	x21, x0, x21
	b.ne	.LBB60_82
	cmp	x4, #3
	add	x8, x22, #1
	strb	w4, [x21, x22]
	b.gt	.LBB60_51
	cmp	x4, #1
	b.gt	.LBB60_57
	cbz	x4, .LBB60_82
	cmp	x4, #1
	b.ne	.LBB60_71
	ldrb	w9, [x20]
	strb	w9, [x21, x8]
	b	.LBB60_82
.LBB60_50:
	mov	w8, #-15
	b	.LBB60_83
.LBB60_51:
	cmp	x4, #5
	b.gt	.LBB60_61
	cmp	x4, #4
	b.eq	.LBB60_65
	cmp	x4, #5
	b.ne	.LBB60_71
	add	x8, x21, x8
	sub	x9, x8, x20
	cmp	x9, #4
	b.hi	.LBB60_76
	ldrb	w9, [x20]
	strb	w9, [x8]
	ldrb	w9, [x20, #1]
	strb	w9, [x8, #1]
	ldrb	w9, [x20, #2]
	strb	w9, [x8, #2]
	ldrb	w9, [x20, #3]
	strb	w9, [x8, #3]
	ldrb	w9, [x20, #4]
	strb	w9, [x8, #4]
	b	.LBB60_82
.LBB60_56:
	str	x1, [sp, #8]
	mov	x1, x4
	mov	x27, x2
	str	x0, [sp, #24]
	mov	x0, x20
	mov	w2, w19
	mov	x24, x6
	mov	w26, w5
	mov	x28, x4
	bl	"amqp_c::key::is_other_key"
	ldr	x1, [sp, #8]
	mov	w8, w0
	ldr	x0, [sp, #24]
	mov	x4, x28
	mov	w5, w26
	mov	x6, x24
	mov	x2, x27
	tbnz	w8, #0, .LBB60_40
	b	.LBB60_22
.LBB60_57:
	cmp	x4, #2
	b.eq	.LBB60_67
	cmp	x4, #3
	b.ne	.LBB60_71
	add	x8, x21, x8
	sub	x9, x8, x20
	cmp	x9, #2
	b.hi	.LBB60_77
	ldrb	w9, [x20]
	strb	w9, [x8]
	ldrb	w9, [x20, #1]
	strb	w9, [x8, #1]
	ldrb	w9, [x20, #2]
	strb	w9, [x8, #2]
	b	.LBB60_82
.LBB60_61:
	cmp	x4, #6
	b.eq	.LBB60_69
	cmp	x4, #7
	b.ne	.LBB60_71
	add	x8, x21, x8
	sub	x9, x8, x20
	cmp	x9, #6
	b.hi	.LBB60_78
	ldrb	w9, [x20]
	strb	w9, [x8]
	ldrb	w9, [x20, #1]
	strb	w9, [x8, #1]
	ldrb	w9, [x20, #2]
	strb	w9, [x8, #2]
	ldrb	w9, [x20, #3]
	strb	w9, [x8, #3]
	ldrb	w9, [x20, #4]
	strb	w9, [x8, #4]
	ldrb	w9, [x20, #5]
	strb	w9, [x8, #5]
	ldrb	w9, [x20, #6]
	strb	w9, [x8, #6]
	b	.LBB60_82
.LBB60_65:
	add	x8, x21, x8
	sub	x9, x8, x20
	cmp	x9, #3
	b.hi	.LBB60_73
	ldrb	w9, [x20]
	strb	w9, [x8]
	ldrb	w9, [x20, #1]
	strb	w9, [x8, #1]
	ldrb	w9, [x20, #2]
	strb	w9, [x8, #2]
	ldrb	w9, [x20, #3]
	strb	w9, [x8, #3]
	b	.LBB60_82
.LBB60_67:
	add	x8, x21, x8
	sub	x9, x8, x20
	cmp	x9, #1
	b.hi	.LBB60_74
	ldrb	w9, [x20]
	strb	w9, [x8]
	ldrb	w9, [x20, #1]
	strb	w9, [x8, #1]
	b	.LBB60_82
.LBB60_69:
	add	x8, x21, x8
	sub	x9, x8, x20
	cmp	x9, #5
	b.hi	.LBB60_75
	ldrb	w9, [x20]
	strb	w9, [x8]
	ldrb	w9, [x20, #1]
	strb	w9, [x8, #1]
	ldrb	w9, [x20, #2]
	strb	w9, [x8, #2]
	ldrb	w9, [x20, #3]
	strb	w9, [x8, #3]
	ldrb	w9, [x20, #4]
	strb	w9, [x8, #4]
	ldrb	w9, [x20, #5]
	strb	w9, [x8, #5]
	b	.LBB60_82
.LBB60_71:
	cmp	x4, #16
	b.hi	.LBB60_79
	add	x9, x20, x4
	ldr	x10, [x20]
	add	x8, x21, x8
	ldur	x9, [x9, #-8]
	str	x10, [x8]
	add	x8, x8, x4
	stur	x9, [x8, #-8]
	b	.LBB60_82
.LBB60_73:
	ldr	w9, [x20]
	str	w9, [x8]
	b	.LBB60_82
.LBB60_74:
	ldrh	w9, [x20]
	strh	w9, [x8]
	b	.LBB60_82
.LBB60_75:
	ldrh	w9, [x20, #4]
	ldr	w10, [x20]
	strh	w9, [x8, #4]
	str	w10, [x8]
	b	.LBB60_82
.LBB60_76:
	ldrb	w9, [x20, #4]
	ldr	w10, [x20]
	strb	w9, [x8, #4]
	str	w10, [x8]
	b	.LBB60_82
.LBB60_77:
	ldrb	w9, [x20, #2]
	ldrh	w10, [x20]
	strb	w9, [x8, #2]
	strh	w10, [x8]
	b	.LBB60_82
.LBB60_78:
	ldrb	w9, [x20, #6]
	ldrh	w10, [x20, #4]
	ldr	w11, [x20]
	strb	w9, [x8, #6]
	strh	w10, [x8, #4]
	str	w11, [x8]
	b	.LBB60_82
.LBB60_79:
	cmp	x4, #32
	b.hi	.LBB60_81
	add	x9, x20, x4
	ldr	q0, [x20]
	add	x8, x21, x8
	ldur	q1, [x9, #-16]
	str	q0, [x8]
	add	x8, x8, x4
	stur	q1, [x8, #-16]
	b	.LBB60_82
.LBB60_81:
	add	x1, x22, #1
	mov	x0, x21
	mov	x25, x2
	mov	x2, x20
	mov	x3, x4
	mov	x20, x6
	mov	w26, w5
	bl	"amqp_c::buffer::write_long"
	mov	w5, w26
	mov	x6, x20
	mov	x2, x25
.LBB60_82:
	add	x9, x21, x22
	add	x10, x23, x22
	mov	w8, wzr
	add	x9, x9, x24
	strb	w5, [x9]
	stur	wzr, [x9, #1]
	mov	w9, #1
	stp	x10, xzr, [x6]
	strb	w5, [x6, #16]
	strb	wzr, [x6, #17]
	strb	w19, [x6, #18]
	stur	xzr, [x6, #19]
	str	xzr, [x6, #24]
	strb	w9, [x2, #17]
.LBB60_83:
	ldp	x20, x19, [sp, #144]
	mov	w0, w8
	ldp	x22, x21, [sp, #128]
	ldp	x24, x23, [sp, #112]
	ldp	x26, x25, [sp, #96]
	ldp	x28, x27, [sp, #80]
	ldp	x29, x30, [sp, #64]
	add	sp, sp, #160
	ret
.Lfunc_end60:
	.size	amqpv_open, .Lfunc_end60-amqpv_open

	.section	.text.amqpv_put_bytes,"ax",@progbits
	.globl	amqpv_put_bytes
	.p2align	2
	.type	amqpv_put_bytes,@function
amqpv_put_bytes:
	sub	sp, sp, #192
	cmp	x0, #0
	mov	w8, #4096
	stp	x22, x21, [sp, #160]
	csel	x21, x8, xzr, eq
	cmp	x3, #0
	ldr	x22, [x2]
	csel	x9, x8, xzr, eq
	cmp	x6, #0
	stp	x28, x27, [sp, #112]
	csel	x27, x8, xzr, eq
	subs	x10, x1, x22
	mov	w8, #-13
	stp	x29, x30, [sp, #96]
	add	x29, sp, #96
	stp	x26, x25, [sp, #128]
	stp	x24, x23, [sp, #144]
	stp	x20, x19, [sp, #176]
	b.lo	.LBB61_120
	ldr	x23, [x2, #8]
	cmp	x10, x23
	b.lo	.LBB61_120
	ldrb	w10, [x2, #17]
	cbnz	w10, .LBB61_120
	ldrb	w28, [x2, #16]
	add	x12, x3, x9
	cmp	w28, #65
	b.eq	.LBB61_21
	cmp	w28, #70
	b.ne	.LBB61_120
	ldrb	w19, [x2, #18]
	cmp	x4, #7
	b.hi	.LBB61_23
	cbz	x4, .LBB61_40
	ldrsb	w8, [x12]
	tbnz	w8, #31, .LBB61_30
	cmp	x4, #1
	b.eq	.LBB61_40
	ldrsb	w8, [x12, #1]
	tbnz	w8, #31, .LBB61_34
	cmp	x4, #2
	b.eq	.LBB61_40
	ldrsb	w8, [x12, #2]
	tbnz	w8, #31, .LBB61_35
	cmp	x4, #3
	b.eq	.LBB61_40
	ldrsb	w8, [x12, #3]
	tbnz	w8, #31, .LBB61_36
	cmp	x4, #4
	b.eq	.LBB61_40
	ldrsb	w8, [x12, #4]
	tbnz	w8, #31, .LBB61_37
	cmp	x4, #5
	b.eq	.LBB61_40
	ldrsb	w8, [x12, #5]
	tbnz	w8, #31, .LBB61_38
	cmp	x4, #6
	b.eq	.LBB61_40
	ldrsb	w8, [x12, #6]
	tbz	w8, #31, .LBB61_40
	mov	w8, #6
	b	.LBB61_39
.LBB61_21:
	cbz	x4, .LBB61_40
.LBB61_22:
	mov	w8, #-14
	b	.LBB61_120
.LBB61_23:
	cmp	x4, #16
	add	x8, x12, x4
	b.hi	.LBB61_26
	ldr	x9, [x12]
	tst	x9, #0x8080808080808080
	b.ne	.LBB61_53
	ldur	x8, [x8, #-8]
	tst	x8, #0x8080808080808080
	b.eq	.LBB61_40
	b	.LBB61_53
.LBB61_26:
	cmp	x4, #255
	b.hi	.LBB61_53
	cmp	x4, #64
	stp	x12, x4, [x29, #-16]
	b.hi	.LBB61_33
	cmp	x4, #32
	b.lo	.LBB61_31
	ldp	q0, q1, [x12]
	ldp	q2, q3, [x8, #-32]
	orr	v1.16b, v1.16b, v3.16b
	orr	v0.16b, v0.16b, v2.16b
	orr	v0.16b, v0.16b, v1.16b
	ext	v1.16b, v0.16b, v0.16b, #8
	orr	v0.8b, v0.8b, v1.8b
	fmov	x8, d0
	b	.LBB61_32
.LBB61_30:
	mov	x8, xzr
	b	.LBB61_39
.LBB61_31:
	sub	x8, x4, #8
	mov	w9, #16
	cmp	x8, #16
	ldp	x10, x11, [x12]
	csel	x9, x8, x9, lo
	ldr	x8, [x12, x8]
	ldr	x9, [x12, x9]
	orr	x10, x11, x10
	orr	x8, x9, x8
	orr	x8, x10, x8
.LBB61_32:
	tst	x8, #0x8080808080808080
	b.eq	.LBB61_40
.LBB61_33:
	stp	x1, x0, [sp, #32]
	sub	x0, x29, #16
	mov	x1, x4
	mov	x26, x2
	mov	x20, x7
	str	w5, [sp, #20]
	mov	x25, x4
	mov	x24, x6
	str	x23, [sp, #24]
	mov	x23, x12
	bl	"core::slice::words::any_by_first::<#52f9edcae2f82f51>"
	mov	x12, x23
	ldp	x23, x1, [sp, #24]
	ldr	w5, [sp, #20]
	mov	w8, w0
	ldr	x0, [sp, #40]
	mov	x6, x24
	mov	x4, x25
	mov	x7, x20
	mov	x2, x26
	cbz	w8, .LBB61_40
	b	.LBB61_53
.LBB61_34:
	mov	w8, #1
	b	.LBB61_39
.LBB61_35:
	mov	w8, #2
	b	.LBB61_39
.LBB61_36:
	mov	w8, #3
	b	.LBB61_39
.LBB61_37:
	mov	w8, #4
	b	.LBB61_39
.LBB61_38:
	mov	w8, #5
.LBB61_39:
	cmp	x8, x4
	b.lo	.LBB61_53
.LBB61_40:
	and	w8, w5, #0xff
	cmp	w8, #120
	b.eq	.LBB61_42
	cmp	w8, #83
	b.ne	.LBB61_46
.LBB61_42:
	lsr	x8, x7, #32
	cbnz	x8, .LBB61_45
	cmp	w28, #70
	add	x25, x23, x22
	csinc	x26, xzr, x4, ne
	add	x8, x7, x26
	add	x24, x8, #5
	sub	x8, x1, x25
	cmp	x8, x24
	b.hs	.LBB61_47
	add	x8, x24, x25
	str	x8, [x2, #24]
	mov	w8, #-17
	b	.LBB61_120
.LBB61_45:
	mov	w8, #-8
	b	.LBB61_120
.LBB61_46:
	mov	w8, #-15
	b	.LBB61_120
.LBB61_47:
	lsr	x8, x7, #24
	and	w9, w7, #0xffffff
	cmp	w28, #70
	rev	w9, w9
	add	x21, x0, x21
	add	x19, x6, x27
	orr	w27, w9, w8
	b.ne	.LBB61_84
	cmp	x4, #3
	add	x8, x25, #1
	strb	w4, [x21, x25]
	b.gt	.LBB61_54
	cmp	x4, #1
	b.gt	.LBB61_59
	cbz	x4, .LBB61_84
	cmp	x4, #1
	b.ne	.LBB61_73
	ldrb	w9, [x12]
	strb	w9, [x21, x8]
	b	.LBB61_84
.LBB61_53:
	str	x2, [sp, #8]
	mov	w2, w19
	mov	x24, x7
	stp	x1, x0, [sp, #32]
	mov	x0, x12
	mov	x1, x4
	mov	w25, w5
	mov	x19, x4
	mov	x20, x6
	mov	x26, x12
	bl	"amqp_c::key::is_other_key"
	mov	w8, w0
	ldp	x1, x0, [sp, #32]
	ldr	x2, [sp, #8]
	mov	x12, x26
	mov	x6, x20
	mov	x4, x19
	mov	w5, w25
	mov	x7, x24
	tbnz	w8, #0, .LBB61_40
	b	.LBB61_22
.LBB61_54:
	cmp	x4, #5
	b.gt	.LBB61_63
	cmp	x4, #4
	b.eq	.LBB61_67
	cmp	x4, #5
	b.ne	.LBB61_73
	add	x8, x21, x8
	sub	x9, x8, x12
	cmp	x9, #4
	b.hi	.LBB61_78
	ldrb	w9, [x12]
	strb	w9, [x8]
	ldrb	w9, [x12, #1]
	strb	w9, [x8, #1]
	ldrb	w9, [x12, #2]
	strb	w9, [x8, #2]
	ldrb	w9, [x12, #3]
	strb	w9, [x8, #3]
	ldrb	w9, [x12, #4]
	strb	w9, [x8, #4]
	b	.LBB61_84
.LBB61_59:
	cmp	x4, #2
	b.eq	.LBB61_69
	cmp	x4, #3
	b.ne	.LBB61_73
	add	x8, x21, x8
	sub	x9, x8, x12
	cmp	x9, #2
	b.hi	.LBB61_79
	ldrb	w9, [x12]
	strb	w9, [x8]
	ldrb	w9, [x12, #1]
	strb	w9, [x8, #1]
	ldrb	w9, [x12, #2]
	strb	w9, [x8, #2]
	b	.LBB61_84
.LBB61_63:
	cmp	x4, #6
	b.eq	.LBB61_71
	cmp	x4, #7
	b.ne	.LBB61_73
	add	x8, x21, x8
	sub	x9, x8, x12
	cmp	x9, #6
	b.hi	.LBB61_80
	ldrb	w9, [x12]
	strb	w9, [x8]
	ldrb	w9, [x12, #1]
	strb	w9, [x8, #1]
	ldrb	w9, [x12, #2]
	strb	w9, [x8, #2]
	ldrb	w9, [x12, #3]
	strb	w9, [x8, #3]
	ldrb	w9, [x12, #4]
	strb	w9, [x8, #4]
	ldrb	w9, [x12, #5]
	strb	w9, [x8, #5]
	ldrb	w9, [x12, #6]
	strb	w9, [x8, #6]
	b	.LBB61_84
.LBB61_67:
	add	x8, x21, x8
	sub	x9, x8, x12
	cmp	x9, #3
	b.hi	.LBB61_75
	ldrb	w9, [x12]
	strb	w9, [x8]
	ldrb	w9, [x12, #1]
	strb	w9, [x8, #1]
	ldrb	w9, [x12, #2]
	strb	w9, [x8, #2]
	ldrb	w9, [x12, #3]
	strb	w9, [x8, #3]
	b	.LBB61_84
.LBB61_69:
	add	x8, x21, x8
	sub	x9, x8, x12
	cmp	x9, #1
	b.hi	.LBB61_76
	ldrb	w9, [x12]
	strb	w9, [x8]
	ldrb	w9, [x12, #1]
	strb	w9, [x8, #1]
	b	.LBB61_84
.LBB61_71:
	add	x8, x21, x8
	sub	x9, x8, x12
	cmp	x9, #5
	b.hi	.LBB61_77
	ldrb	w9, [x12]
	strb	w9, [x8]
	ldrb	w9, [x12, #1]
	strb	w9, [x8, #1]
	ldrb	w9, [x12, #2]
	strb	w9, [x8, #2]
	ldrb	w9, [x12, #3]
	strb	w9, [x8, #3]
	ldrb	w9, [x12, #4]
	strb	w9, [x8, #4]
	ldrb	w9, [x12, #5]
	strb	w9, [x8, #5]
	b	.LBB61_84
.LBB61_73:
	cmp	x4, #16
	b.hi	.LBB61_81
	add	x9, x12, x4
	ldr	x10, [x12]
	add	x8, x21, x8
	ldur	x9, [x9, #-8]
	str	x10, [x8]
	add	x8, x8, x4
	stur	x9, [x8, #-8]
	b	.LBB61_84
.LBB61_75:
	ldr	w9, [x12]
	str	w9, [x8]
	b	.LBB61_84
.LBB61_76:
	ldrh	w9, [x12]
	strh	w9, [x8]
	b	.LBB61_84
.LBB61_77:
	ldrh	w9, [x12, #4]
	ldr	w10, [x12]
	strh	w9, [x8, #4]
	str	w10, [x8]
	b	.LBB61_84
.LBB61_78:
	ldrb	w9, [x12, #4]
	ldr	w10, [x12]
	strb	w9, [x8, #4]
	str	w10, [x8]
	b	.LBB61_84
.LBB61_79:
	ldrb	w9, [x12, #2]
	ldrh	w10, [x12]
	strb	w9, [x8, #2]
	strh	w10, [x8]
	b	.LBB61_84
.LBB61_80:
	ldrb	w9, [x12, #6]
	ldrh	w10, [x12, #4]
	ldr	w11, [x12]
	strb	w9, [x8, #6]
	strh	w10, [x8, #4]
	str	w11, [x8]
	b	.LBB61_84
.LBB61_81:
	cmp	x4, #32
	b.hi	.LBB61_83
	add	x9, x12, x4
	ldr	q0, [x12]
	add	x8, x21, x8
	ldur	q1, [x9, #-16]
	str	q0, [x8]
	add	x8, x8, x4
	stur	q1, [x8, #-16]
	b	.LBB61_84
.LBB61_83:
	add	x1, x25, #1
	mov	x0, x21
	str	x2, [sp, #8]
	mov	x2, x12
	mov	x3, x4
	mov	x20, x7
	mov	w28, w5
	bl	"amqp_c::buffer::write_long"
	ldr	x2, [sp, #8]
	mov	w5, w28
	mov	x7, x20
.LBB61_84:
	add	x8, x26, x25
	cmp	w7, #3
	add	x9, x21, x8
	add	x1, x8, #5
	strb	w5, [x9]
	stur	w27, [x9, #1]
	b.gt	.LBB61_89
	cmp	w7, #1
	b.gt	.LBB61_94
	cbz	w7, .LBB61_119
	cmp	w7, #1
	b.ne	.LBB61_108
	ldrb	w8, [x19]
	strb	w8, [x21, x1]
	b	.LBB61_119
.LBB61_89:
	cmp	w7, #5
	b.gt	.LBB61_98
	cmp	w7, #4
	b.eq	.LBB61_102
	cmp	w7, #5
	b.ne	.LBB61_108
	add	x8, x21, x1
	sub	x9, x8, x19
	cmp	x9, #4
	b.hi	.LBB61_113
	ldrb	w9, [x19]
	strb	w9, [x8]
	ldrb	w9, [x19, #1]
	strb	w9, [x8, #1]
	ldrb	w9, [x19, #2]
	strb	w9, [x8, #2]
	ldrb	w9, [x19, #3]
	strb	w9, [x8, #3]
	ldrb	w9, [x19, #4]
	strb	w9, [x8, #4]
	b	.LBB61_119
.LBB61_94:
	cmp	w7, #2
	b.eq	.LBB61_104
	cmp	w7, #3
	b.ne	.LBB61_108
	add	x8, x21, x1
	sub	x9, x8, x19
	cmp	x9, #2
	b.hi	.LBB61_114
	ldrb	w9, [x19]
	strb	w9, [x8]
	ldrb	w9, [x19, #1]
	strb	w9, [x8, #1]
	ldrb	w9, [x19, #2]
	strb	w9, [x8, #2]
	b	.LBB61_119
.LBB61_98:
	cmp	w7, #6
	b.eq	.LBB61_106
	cmp	w7, #7
	b.ne	.LBB61_108
	add	x8, x21, x1
	sub	x9, x8, x19
	cmp	x9, #6
	b.hi	.LBB61_115
	ldrb	w9, [x19]
	strb	w9, [x8]
	ldrb	w9, [x19, #1]
	strb	w9, [x8, #1]
	ldrb	w9, [x19, #2]
	strb	w9, [x8, #2]
	ldrb	w9, [x19, #3]
	strb	w9, [x8, #3]
	ldrb	w9, [x19, #4]
	strb	w9, [x8, #4]
	ldrb	w9, [x19, #5]
	strb	w9, [x8, #5]
	ldrb	w9, [x19, #6]
	strb	w9, [x8, #6]
	b	.LBB61_119
.LBB61_102:
	add	x8, x21, x1
	sub	x9, x8, x19
	cmp	x9, #3
	b.hi	.LBB61_110
	ldrb	w9, [x19]
	strb	w9, [x8]
	ldrb	w9, [x19, #1]
	strb	w9, [x8, #1]
	ldrb	w9, [x19, #2]
	strb	w9, [x8, #2]
	ldrb	w9, [x19, #3]
	strb	w9, [x8, #3]
	b	.LBB61_119
.LBB61_104:
	add	x8, x21, x1
	sub	x9, x8, x19
	cmp	x9, #1
	b.hi	.LBB61_111
	ldrb	w9, [x19]
	strb	w9, [x8]
	ldrb	w9, [x19, #1]
	strb	w9, [x8, #1]
	b	.LBB61_119
.LBB61_106:
	add	x8, x21, x1
	sub	x9, x8, x19
	cmp	x9, #5
	b.hi	.LBB61_112
	ldrb	w9, [x19]
	strb	w9, [x8]
	ldrb	w9, [x19, #1]
	strb	w9, [x8, #1]
	ldrb	w9, [x19, #2]
	strb	w9, [x8, #2]
	ldrb	w9, [x19, #3]
	strb	w9, [x8, #3]
	ldrb	w9, [x19, #4]
	strb	w9, [x8, #4]
	ldrb	w9, [x19, #5]
	strb	w9, [x8, #5]
	b	.LBB61_119
.LBB61_108:
	cmp	x7, #16
	b.hi	.LBB61_116
	add	x8, x19, x7
	ldr	x9, [x19]
	add	x10, x21, x1
	ldur	x8, [x8, #-8]
	str	x9, [x10]
	add	x9, x10, x7
	stur	x8, [x9, #-8]
	b	.LBB61_119
.LBB61_110:
	ldr	w9, [x19]
	str	w9, [x8]
	b	.LBB61_119
.LBB61_111:
	ldrh	w9, [x19]
	strh	w9, [x8]
	b	.LBB61_119
.LBB61_112:
	ldrh	w9, [x19, #4]
	ldr	w10, [x19]
	strh	w9, [x8, #4]
	str	w10, [x8]
	b	.LBB61_119
.LBB61_113:
	ldrb	w9, [x19, #4]
	ldr	w10, [x19]
	strb	w9, [x8, #4]
	str	w10, [x8]
	b	.LBB61_119
.LBB61_114:
	ldrb	w9, [x19, #2]
	ldrh	w10, [x19]
	strb	w9, [x8, #2]
	strh	w10, [x8]
	b	.LBB61_119
.LBB61_115:
	ldrb	w9, [x19, #6]
	ldrh	w10, [x19, #4]
	ldr	w11, [x19]
	strb	w9, [x8, #6]
	strh	w10, [x8, #4]
	str	w11, [x8]
	b	.LBB61_119
.LBB61_116:
	cmp	x7, #32
	b.hi	.LBB61_118
	add	x8, x19, x7
	ldr	q0, [x19]
	ldur	q1, [x8, #-16]
	add	x8, x21, x1
	str	q0, [x8]
	add	x8, x8, x7
	stur	q1, [x8, #-16]
	b	.LBB61_119
.LBB61_118:
	mov	x0, x21
	mov	x20, x2
	mov	x2, x19
	mov	x3, x7
	bl	"amqp_c::buffer::write_long"
	mov	x2, x20
.LBB61_119:
	add	x9, x24, x23
	mov	w8, wzr
	stp	x22, x9, [x2]
.LBB61_120:
	ldp	x20, x19, [sp, #176]
	mov	w0, w8
	ldp	x22, x21, [sp, #160]
	ldp	x24, x23, [sp, #144]
	ldp	x26, x25, [sp, #128]
	ldp	x28, x27, [sp, #112]
	ldp	x29, x30, [sp, #96]
	add	sp, sp, #192
	ret
.Lfunc_end61:
	.size	amqpv_put_bytes, .Lfunc_end61-amqpv_put_bytes

	.section	.text.amqpv_put,"ax",@progbits
	.globl	amqpv_put
	.p2align	2
	.type	amqpv_put,@function
amqpv_put:
	sub	sp, sp, #160
	stp	x22, x21, [sp, #128]
	cmp	x0, #0
	mov	w8, #4096
	ldr	x21, [x2]
	stp	x24, x23, [sp, #112]
	csel	x23, x8, xzr, eq
	cmp	x3, #0
	stp	x29, x30, [sp, #64]
	add	x29, sp, #64
	csel	x9, x8, xzr, eq
	subs	x10, x1, x21
	mov	w8, #-13
	stp	x28, x27, [sp, #80]
	stp	x26, x25, [sp, #96]
	stp	x20, x19, [sp, #144]
	b.lo	.LBB62_134
	ldr	x22, [x2, #8]
	cmp	x10, x22
	b.lo	.LBB62_134
	ldrb	w10, [x2, #17]
	cbnz	w10, .LBB62_134
	ldrb	w24, [x2, #16]
	add	x14, x3, x9
	cmp	w24, #65
	b.eq	.LBB62_21
	cmp	w24, #70
	b.ne	.LBB62_134
	ldrb	w12, [x2, #18]
	cmp	x4, #7
	b.hi	.LBB62_23
	cbz	x4, .LBB62_40
	ldrsb	w8, [x14]
	tbnz	w8, #31, .LBB62_30
	cmp	x4, #1
	b.eq	.LBB62_40
	ldrsb	w8, [x14, #1]
	tbnz	w8, #31, .LBB62_34
	cmp	x4, #2
	b.eq	.LBB62_40
	ldrsb	w8, [x14, #2]
	tbnz	w8, #31, .LBB62_35
	cmp	x4, #3
	b.eq	.LBB62_40
	ldrsb	w8, [x14, #3]
	tbnz	w8, #31, .LBB62_36
	cmp	x4, #4
	b.eq	.LBB62_40
	ldrsb	w8, [x14, #4]
	tbnz	w8, #31, .LBB62_37
	cmp	x4, #5
	b.eq	.LBB62_40
	ldrsb	w8, [x14, #5]
	tbnz	w8, #31, .LBB62_38
	cmp	x4, #6
	b.eq	.LBB62_40
	ldrsb	w8, [x14, #6]
	tbz	w8, #31, .LBB62_40
	mov	w8, #6
	b	.LBB62_39
.LBB62_21:
	cbz	x4, .LBB62_40
.LBB62_22:
	mov	w8, #-14
	b	.LBB62_134
.LBB62_23:
	cmp	x4, #16
	add	x8, x14, x4
	b.hi	.LBB62_26
	ldr	x9, [x14]
	tst	x9, #0x8080808080808080
	b.ne	.LBB62_69
	ldur	x8, [x8, #-8]
	tst	x8, #0x8080808080808080
	b.eq	.LBB62_40
	b	.LBB62_69
.LBB62_26:
	cmp	x4, #255
	b.hi	.LBB62_69
	cmp	x4, #64
	stp	x14, x4, [x29, #-16]
	b.hi	.LBB62_33
	cmp	x4, #32
	b.lo	.LBB62_31
	ldp	q0, q1, [x14]
	ldp	q2, q3, [x8, #-32]
	orr	v1.16b, v1.16b, v3.16b
	orr	v0.16b, v0.16b, v2.16b
	orr	v0.16b, v0.16b, v1.16b
	ext	v1.16b, v0.16b, v0.16b, #8
	orr	v0.8b, v0.8b, v1.8b
	fmov	x8, d0
	b	.LBB62_32
.LBB62_30:
	mov	x8, xzr
	b	.LBB62_39
.LBB62_31:
	sub	x8, x4, #8
	mov	w9, #16
	cmp	x8, #16
	ldp	x10, x11, [x14]
	csel	x9, x8, x9, lo
	ldr	x8, [x14, x8]
	ldr	x9, [x14, x9]
	orr	x10, x11, x10
	orr	x8, x9, x8
	orr	x8, x10, x8
.LBB62_32:
	tst	x8, #0x8080808080808080
	b.eq	.LBB62_40
.LBB62_33:
	stp	x1, x0, [sp, #8]
	sub	x0, x29, #16
	mov	x1, x4
	mov	x27, x2
	mov	x25, x6
	mov	x28, x4
	mov	w19, w5
	mov	x20, x7
	mov	x26, x23
	mov	x23, x14
	str	x22, [sp]
	mov	w22, w12
	bl	"core::slice::words::any_by_first::<#52f9edcae2f82f51>"
	mov	w12, w22
	ldp	x22, x1, [sp]
	mov	w8, w0
	ldr	x0, [sp, #16]
	mov	x14, x23
	mov	x23, x26
	mov	x7, x20
	mov	w5, w19
	mov	x4, x28
	mov	x6, x25
	mov	x2, x27
	cbz	w8, .LBB62_40
	b	.LBB62_69
.LBB62_34:
	mov	w8, #1
	b	.LBB62_39
.LBB62_35:
	mov	w8, #2
	b	.LBB62_39
.LBB62_36:
	mov	w8, #3
	b	.LBB62_39
.LBB62_37:
	mov	w8, #4
	b	.LBB62_39
.LBB62_38:
	mov	w8, #5
.LBB62_39:
	cmp	x8, x4
	b.lo	.LBB62_69
.LBB62_40:
	mov	w8, #5
	add	x11, sp, #24
	tst	w7, #0xff
	orr	x15, x11, x8
	and	w8, w5, #0xff
	b.eq	.LBB62_52
	cmp	w8, #68
	b.ne	.LBB62_94
	lsr	x8, x6, #32
	cbnz	x8, .LBB62_94
	lsr	x8, x6, #8
	and	x9, x6, #0xff0000
	mov	w12, #68
	mov	w26, #5
	bfi	x9, x8, #24, #8
	bfi	x9, x6, #32, #8
	bfxil	x9, x6, #16, #16
	bfxil	x9, x7, #0, #8
	mov	x6, x9
.LBB62_44:
	cmp	w24, #70
	add	x25, x22, x21
	str	x6, [sp, #24]
	csinc	x27, xzr, x4, ne
	add	x8, x27, x26
	add	x28, x8, #1
	sub	x8, x1, x25
	cmp	x8, x28
	b.hs	.LBB62_46
	add	x8, x28, x25
	str	x8, [x2, #24]
	mov	w8, #-17
	b	.LBB62_134
.LBB62_46:
	cmp	w24, #70
	add	x20, x0, x23
	b.ne	.LBB62_114
	cmp	x4, #3
	add	x8, x25, #1
	strb	w4, [x20, x25]
	b.gt	.LBB62_56
	cmp	x4, #1
	b.gt	.LBB62_61
	cbz	x4, .LBB62_114
	cmp	x4, #1
	b.ne	.LBB62_103
	ldrb	w9, [x14]
	strb	w9, [x20, x8]
	b	.LBB62_114
.LBB62_52:
	sub	w8, w8, #66
	cmp	w8, #51
	b.hi	.LBB62_94
	adrp	x10, .LJTI62_0
	add	x10, x10, :lo12:.LJTI62_0
	orr	x9, x11, #0x1
	adr	x12, .LBB62_54
	ldrb	w13, [x10, x8]
	add	x12, x12, x13, lsl #2
	orr	x10, x11, #0x2
	orr	x8, x11, #0x4
	add	x11, x11, #8
	br	x12
.LBB62_54:
	cmp	x6, #256
	b.hs	.LBB62_94
	mov	w12, #66
	b	.LBB62_89
.LBB62_56:
	cmp	x4, #5
	b.gt	.LBB62_65
	cmp	x4, #4
	b.eq	.LBB62_97
	cmp	x4, #5
	b.ne	.LBB62_103
	add	x8, x20, x8
	sub	x9, x8, x14
	cmp	x9, #4
	b.hi	.LBB62_108
	ldrb	w9, [x14]
	strb	w9, [x8]
	ldrb	w9, [x14, #1]
	strb	w9, [x8, #1]
	ldrb	w9, [x14, #2]
	strb	w9, [x8, #2]
	ldrb	w9, [x14, #3]
	strb	w9, [x8, #3]
	ldrb	w9, [x14, #4]
	strb	w9, [x8, #4]
	b	.LBB62_114
.LBB62_61:
	cmp	x4, #2
	b.eq	.LBB62_99
	cmp	x4, #3
	b.ne	.LBB62_103
	add	x8, x20, x8
	sub	x9, x8, x14
	cmp	x9, #2
	b.hi	.LBB62_109
	ldrb	w9, [x14]
	strb	w9, [x8]
	ldrb	w9, [x14, #1]
	strb	w9, [x8, #1]
	ldrb	w9, [x14, #2]
	strb	w9, [x8, #2]
	b	.LBB62_114
.LBB62_65:
	cmp	x4, #6
	b.eq	.LBB62_101
	cmp	x4, #7
	b.ne	.LBB62_103
	add	x8, x20, x8
	sub	x9, x8, x14
	cmp	x9, #6
	b.hi	.LBB62_110
	ldrb	w9, [x14]
	strb	w9, [x8]
	ldrb	w9, [x14, #1]
	strb	w9, [x8, #1]
	ldrb	w9, [x14, #2]
	strb	w9, [x8, #2]
	ldrb	w9, [x14, #3]
	strb	w9, [x8, #3]
	ldrb	w9, [x14, #4]
	strb	w9, [x8, #4]
	ldrb	w9, [x14, #5]
	strb	w9, [x8, #5]
	ldrb	w9, [x14, #6]
	strb	w9, [x8, #6]
	b	.LBB62_114
.LBB62_69:
	stp	x1, x0, [sp, #8]
	mov	x0, x14
	mov	x1, x4
	mov	x27, x2
	mov	w2, w12
	mov	x28, x6
	mov	x25, x4
	mov	w20, w5
	mov	x19, x7
	mov	x26, x14
	bl	"amqp_c::key::is_other_key"
	mov	w8, w0
	ldp	x1, x0, [sp, #8]
	mov	x14, x26
	mov	x7, x19
	mov	w5, w20
	mov	x4, x25
	mov	x6, x28
	mov	x2, x27
	tbnz	w8, #0, .LBB62_40
	b	.LBB62_22
.LBB62_70:
	cmp	x6, w6, sxth
	b.ne	.LBB62_94
	rev	w8, w6
	mov	w12, #115
	b	.LBB62_78
.LBB62_72:
	cmp	x6, w6, sxtw
	b.ne	.LBB62_94
	rev	w6, w6
	mov	w12, #73
	b	.LBB62_93
.LBB62_74:
	lsr	x8, x6, #32
	cbnz	x8, .LBB62_94
	lsr	x8, x6, #8
	and	x9, x6, #0xff0000
	mov	w12, #68
	mov	w26, #5
	bfi	x9, x8, #24, #8
	lsr	x8, x6, #16
	bfi	x9, x6, #32, #8
	and	x8, x8, #0xff00
	orr	x6, x9, x8
	b	.LBB62_44
.LBB62_76:
	cmp	x6, #16, lsl #12
	b.hs	.LBB62_94
	rev	w8, w6
	mov	w12, #117
.LBB62_78:
	lsr	w6, w8, #16
	mov	w26, #2
	mov	x15, x10
	b	.LBB62_44
.LBB62_79:
	cbnz	x6, .LBB62_94
	mov	x26, xzr
	add	x15, sp, #24
	mov	w12, #86
	b	.LBB62_44
.LBB62_81:
	lsr	x9, x6, #32
	cbnz	x9, .LBB62_94
	lsr	x9, x6, #24
	and	w10, w6, #0xffffff
	mov	w12, #102
	b	.LBB62_92
.LBB62_83:
	rev	x6, x6
	mov	w12, #84
	b	.LBB62_96
.LBB62_84:
	cmp	x6, #2
	b.hs	.LBB62_94
	mov	w12, #116
	b	.LBB62_89
.LBB62_86:
	rev	x6, x6
	mov	w12, #100
	b	.LBB62_96
.LBB62_87:
	cmp	x6, w6, sxtb
	b.ne	.LBB62_94
	and	x6, x6, #0xff
	mov	w12, #98
.LBB62_89:
	mov	w26, #1
	mov	x15, x9
	b	.LBB62_44
.LBB62_90:
	lsr	x9, x6, #32
	cbnz	x9, .LBB62_94
	lsr	x9, x6, #24
	and	w10, w6, #0xffffff
	mov	w12, #105
.LBB62_92:
	rev	w10, w10
	orr	w6, w10, w9
.LBB62_93:
	mov	w26, #4
	mov	x15, x8
	b	.LBB62_44
.LBB62_94:
	mov	w0, w5
	bl	"amqp_c::number::is_scalar_tag"
	mov	w8, #-16
	cmp	w0, #0
	cinc	w8, w8, eq
	b	.LBB62_134
.LBB62_95:
	rev	x6, x6
	mov	w12, #108
.LBB62_96:
	mov	w26, #8
	mov	x15, x11
	b	.LBB62_44
.LBB62_97:
	add	x8, x20, x8
	sub	x9, x8, x14
	cmp	x9, #3
	b.hi	.LBB62_105
	ldrb	w9, [x14]
	strb	w9, [x8]
	ldrb	w9, [x14, #1]
	strb	w9, [x8, #1]
	ldrb	w9, [x14, #2]
	strb	w9, [x8, #2]
	ldrb	w9, [x14, #3]
	strb	w9, [x8, #3]
	b	.LBB62_114
.LBB62_99:
	add	x8, x20, x8
	sub	x9, x8, x14
	cmp	x9, #1
	b.hi	.LBB62_106
	ldrb	w9, [x14]
	strb	w9, [x8]
	ldrb	w9, [x14, #1]
	strb	w9, [x8, #1]
	b	.LBB62_114
.LBB62_101:
	add	x8, x20, x8
	sub	x9, x8, x14
	cmp	x9, #5
	b.hi	.LBB62_107
	ldrb	w9, [x14]
	strb	w9, [x8]
	ldrb	w9, [x14, #1]
	strb	w9, [x8, #1]
	ldrb	w9, [x14, #2]
	strb	w9, [x8, #2]
	ldrb	w9, [x14, #3]
	strb	w9, [x8, #3]
	ldrb	w9, [x14, #4]
	strb	w9, [x8, #4]
	ldrb	w9, [x14, #5]
	strb	w9, [x8, #5]
	b	.LBB62_114
.LBB62_103:
	cmp	x4, #16
	b.hi	.LBB62_111
	add	x9, x14, x4
	ldr	x10, [x14]
	add	x8, x20, x8
	ldur	x9, [x9, #-8]
	str	x10, [x8]
	add	x8, x8, x4
	stur	x9, [x8, #-8]
	b	.LBB62_114
.LBB62_105:
	ldr	w9, [x14]
	str	w9, [x8]
	b	.LBB62_114
.LBB62_106:
	ldrh	w9, [x14]
	strh	w9, [x8]
	b	.LBB62_114
.LBB62_107:
	ldrh	w9, [x14, #4]
	ldr	w10, [x14]
	strh	w9, [x8, #4]
	str	w10, [x8]
	b	.LBB62_114
.LBB62_108:
	ldrb	w9, [x14, #4]
	ldr	w10, [x14]
	strb	w9, [x8, #4]
	str	w10, [x8]
	b	.LBB62_114
.LBB62_109:
	ldrb	w9, [x14, #2]
	ldrh	w10, [x14]
	strb	w9, [x8, #2]
	strh	w10, [x8]
	b	.LBB62_114
.LBB62_110:
	ldrb	w9, [x14, #6]
	ldrh	w10, [x14, #4]
	ldr	w11, [x14]
	strb	w9, [x8, #6]
	strh	w10, [x8, #4]
	str	w11, [x8]
	b	.LBB62_114
.LBB62_111:
	cmp	x4, #32
	b.hi	.LBB62_113
	add	x9, x14, x4
	ldr	q0, [x14]
	add	x8, x20, x8
	ldur	q1, [x9, #-16]
	str	q0, [x8]
	add	x8, x8, x4
	stur	q1, [x8, #-16]
	b	.LBB62_114
.LBB62_113:
	add	x1, x25, #1
	mov	x0, x20
	str	x2, [sp, #16]
	mov	x2, x14
	mov	x3, x4
	mov	x19, x6
	mov	x24, x15
	mov	w23, w12
	bl	"amqp_c::buffer::write_long"
	ldr	x2, [sp, #16]
	mov	w12, w23
	mov	x15, x24
	mov	x6, x19
.LBB62_114:
	add	x8, x27, x25
	cmp	x26, #3
	strb	w12, [x20, x8]
	add	x8, x8, #1
	b.gt	.LBB62_119
	cmp	x26, #1
	b.gt	.LBB62_123
	cbz	x26, .LBB62_133
	cmp	x26, #1
	b.ne	.LBB62_132
	strb	w6, [x20, x8]
	b	.LBB62_133
.LBB62_119:
	cmp	x26, #5
	b.gt	.LBB62_126
	cmp	x26, #4
	b.eq	.LBB62_129
	cmp	x26, #5
	b.ne	.LBB62_132
	ldr	w9, [sp, #24]
	ldrb	w10, [sp, #28]
	add	x8, x20, x8
	str	w9, [x8]
	strb	w10, [x8, #4]
	b	.LBB62_133
.LBB62_123:
	cmp	x26, #2
	b.eq	.LBB62_130
	cmp	x26, #3
	b.ne	.LBB62_132
	ldrh	w9, [sp, #24]
	ldrb	w10, [sp, #26]
	add	x8, x20, x8
	strh	w9, [x8]
	strb	w10, [x8, #2]
	b	.LBB62_133
.LBB62_126:
	cmp	x26, #6
	b.eq	.LBB62_131
	cmp	x26, #7
	b.ne	.LBB62_132
	ldr	w9, [sp, #24]
	ldur	w10, [sp, #27]
	add	x8, x20, x8
	str	w9, [x8]
	stur	w10, [x8, #3]
	b	.LBB62_133
.LBB62_129:
	str	w6, [x20, x8]
	b	.LBB62_133
.LBB62_130:
	strh	w6, [x20, x8]
	b	.LBB62_133
.LBB62_131:
	ldr	w9, [sp, #24]
	ldrh	w10, [sp, #28]
	add	x8, x20, x8
	str	w9, [x8]
	strh	w10, [x8, #4]
	b	.LBB62_133
.LBB62_132:
	ldur	x9, [x15, #-8]
	add	x8, x20, x8
	str	x6, [x8]
	add	x8, x8, x26
	stur	x9, [x8, #-8]
.LBB62_133:
	add	x9, x28, x22
	mov	w8, wzr
	stp	x21, x9, [x2]
.LBB62_134:
	ldp	x20, x19, [sp, #144]
	mov	w0, w8
	ldp	x22, x21, [sp, #128]
	ldp	x24, x23, [sp, #112]
	ldp	x26, x25, [sp, #96]
	ldp	x28, x27, [sp, #80]
	ldp	x29, x30, [sp, #64]
	add	sp, sp, #160
	ret
.Lfunc_end62:
	.size	amqpv_put, .Lfunc_end62-amqpv_put
	.section	.rodata.amqpv_put,"a",@progbits
.LJTI62_0:
	.byte	(.LBB62_54-.LBB62_54)>>2
	.byte	(.LBB62_94-.LBB62_54)>>2
	.byte	(.LBB62_74-.LBB62_54)>>2
	.byte	(.LBB62_94-.LBB62_54)>>2
	.byte	(.LBB62_94-.LBB62_54)>>2
	.byte	(.LBB62_94-.LBB62_54)>>2
	.byte	(.LBB62_94-.LBB62_54)>>2
	.byte	(.LBB62_72-.LBB62_54)>>2
	.byte	(.LBB62_94-.LBB62_54)>>2
	.byte	(.LBB62_94-.LBB62_54)>>2
	.byte	(.LBB62_94-.LBB62_54)>>2
	.byte	(.LBB62_94-.LBB62_54)>>2
	.byte	(.LBB62_94-.LBB62_54)>>2
	.byte	(.LBB62_94-.LBB62_54)>>2
	.byte	(.LBB62_94-.LBB62_54)>>2
	.byte	(.LBB62_94-.LBB62_54)>>2
	.byte	(.LBB62_94-.LBB62_54)>>2
	.byte	(.LBB62_94-.LBB62_54)>>2
	.byte	(.LBB62_83-.LBB62_54)>>2
	.byte	(.LBB62_94-.LBB62_54)>>2
	.byte	(.LBB62_79-.LBB62_54)>>2
	.byte	(.LBB62_94-.LBB62_54)>>2
	.byte	(.LBB62_94-.LBB62_54)>>2
	.byte	(.LBB62_94-.LBB62_54)>>2
	.byte	(.LBB62_94-.LBB62_54)>>2
	.byte	(.LBB62_94-.LBB62_54)>>2
	.byte	(.LBB62_94-.LBB62_54)>>2
	.byte	(.LBB62_94-.LBB62_54)>>2
	.byte	(.LBB62_94-.LBB62_54)>>2
	.byte	(.LBB62_94-.LBB62_54)>>2
	.byte	(.LBB62_94-.LBB62_54)>>2
	.byte	(.LBB62_94-.LBB62_54)>>2
	.byte	(.LBB62_87-.LBB62_54)>>2
	.byte	(.LBB62_94-.LBB62_54)>>2
	.byte	(.LBB62_86-.LBB62_54)>>2
	.byte	(.LBB62_94-.LBB62_54)>>2
	.byte	(.LBB62_81-.LBB62_54)>>2
	.byte	(.LBB62_94-.LBB62_54)>>2
	.byte	(.LBB62_94-.LBB62_54)>>2
	.byte	(.LBB62_90-.LBB62_54)>>2
	.byte	(.LBB62_94-.LBB62_54)>>2
	.byte	(.LBB62_94-.LBB62_54)>>2
	.byte	(.LBB62_95-.LBB62_54)>>2
	.byte	(.LBB62_94-.LBB62_54)>>2
	.byte	(.LBB62_94-.LBB62_54)>>2
	.byte	(.LBB62_94-.LBB62_54)>>2
	.byte	(.LBB62_94-.LBB62_54)>>2
	.byte	(.LBB62_94-.LBB62_54)>>2
	.byte	(.LBB62_94-.LBB62_54)>>2
	.byte	(.LBB62_70-.LBB62_54)>>2
	.byte	(.LBB62_84-.LBB62_54)>>2
	.byte	(.LBB62_76-.LBB62_54)>>2

	.section	.text.amqpv_put_value,"ax",@progbits
	.globl	amqpv_put_value
	.p2align	2
	.type	amqpv_put_value,@function
amqpv_put_value:
	sub	sp, sp, #208
	mov	w8, #4096
	cmp	x0, #0
	ldr	w9, [x5, #24]
	stp	x22, x21, [sp, #176]
	csel	x22, x8, xzr, eq
	cmp	x3, #0
	csel	x8, x8, xzr, eq
	cmp	w9, #31
	stp	x29, x30, [sp, #112]
	stp	x28, x27, [sp, #128]
	add	x29, sp, #112
	stp	x26, x25, [sp, #144]
	stp	x24, x23, [sp, #160]
	stp	x20, x19, [sp, #192]
	b.ls	.LBB63_2
	mov	w0, #-13
	b	.LBB63_56
.LBB63_2:
	movi	v0.2d, #0000000000000000
	ldp	x23, x24, [x2]
	ubfx	w11, w9, #1, #1
	tst	w9, #0x4
	mov	w9, #2
	ldrb	w25, [x2, #16]
	ldrb	w10, [x2, #17]
	ldrb	w21, [x2, #18]
	csel	w19, w11, w9, eq
	subs	x11, x1, x23
	mov	w9, #12
	stp	q0, q0, [sp, #48]
	str	q0, [sp, #32]
	b.lo	.LBB63_55
	cmp	x11, x24
	b.lo	.LBB63_55
	cbnz	w10, .LBB63_55
	cmp	w25, #65
	add	x20, x3, x8
	b.eq	.LBB63_23
	cmp	w25, #70
	b.ne	.LBB63_55
	cmp	x4, #7
	b.hi	.LBB63_25
	cbz	x4, .LBB63_37
	ldrsb	w8, [x20]
	tbnz	w8, #31, .LBB63_30
	cmp	x4, #1
	b.eq	.LBB63_37
	ldrsb	w8, [x20, #1]
	tbnz	w8, #31, .LBB63_31
	cmp	x4, #2
	b.eq	.LBB63_37
	ldrsb	w8, [x20, #2]
	tbnz	w8, #31, .LBB63_32
	cmp	x4, #3
	b.eq	.LBB63_37
	ldrsb	w8, [x20, #3]
	tbnz	w8, #31, .LBB63_33
	cmp	x4, #4
	b.eq	.LBB63_37
	ldrsb	w8, [x20, #4]
	tbnz	w8, #31, .LBB63_34
	cmp	x4, #5
	b.eq	.LBB63_37
	ldrsb	w8, [x20, #5]
	tbnz	w8, #31, .LBB63_35
	cmp	x4, #6
	b.eq	.LBB63_37
	ldrsb	w8, [x20, #6]
	tbz	w8, #31, .LBB63_37
	mov	w8, #6
	b	.LBB63_36
.LBB63_23:
	cbz	x4, .LBB63_37
.LBB63_24:
	mov	w9, #13
	b	.LBB63_55
.LBB63_25:
	cmp	x4, #16
	b.hi	.LBB63_28
	ldr	x8, [x20]
	tst	x8, #0x8080808080808080
	b.ne	.LBB63_68
	add	x8, x20, x4
	ldur	x8, [x8, #-8]
	tst	x8, #0x8080808080808080
	b.eq	.LBB63_37
	b	.LBB63_68
.LBB63_28:
	cmp	x4, #255
	b.hi	.LBB63_68
	stp	x23, x0, [sp, #8]
	mov	x0, x20
	mov	x27, x1
	mov	x1, x4
	mov	x28, x2
	mov	x23, x24
	mov	x24, x4
	mov	x26, x20
	mov	x20, x5
	bl	"core::str::ascii::slice+u8::is_ascii"
	mov	x4, x24
	mov	x24, x23
	mov	w8, w0
	ldp	x23, x0, [sp, #8]
	mov	x5, x20
	mov	x20, x26
	mov	x1, x27
	mov	x2, x28
	tbnz	w8, #0, .LBB63_37
	b	.LBB63_68
.LBB63_30:
	mov	x8, xzr
	b	.LBB63_36
.LBB63_31:
	mov	w8, #1
	b	.LBB63_36
.LBB63_32:
	mov	w8, #2
	b	.LBB63_36
.LBB63_33:
	mov	w8, #3
	b	.LBB63_36
.LBB63_34:
	mov	w8, #4
	b	.LBB63_36
.LBB63_35:
	mov	w8, #5
.LBB63_36:
	cmp	x8, x4
	b.lo	.LBB63_68
.LBB63_37:
	str	x2, [sp, #24]
	mov	x28, x1
	mov	x26, x0
	add	x0, sp, #32
	mov	x1, x5
	mov	w2, w19
	mov	x27, x4
	mov	x21, x5
	bl	"amqp_c::input::Input::read_error"
	ldrb	w8, [sp, #32]
	cmp	w8, #1
	b.ne	.LBB63_40
	ldrb	w9, [sp, #40]
	ldr	x8, [sp, #24]
	cmp	w9, #16
	b.ne	.LBB63_55
	ldr	x9, [sp, #48]
	b	.LBB63_54
.LBB63_40:
	ldr	w9, [x21, #24]
	add	x15, x24, x23
	ldp	x2, x10, [x21]
	adrp	x8, .Lstatic.23
	add	x8, x8, :lo12:.Lstatic.23
	and	x21, x9, #0x1
	adrp	x9, .Lstatic.0
	add	x9, x9, :lo12:.Lstatic.0
	cmp	w21, #0
	csel	x1, x8, x9, eq
	ldr	x8, [sp, #24]
	cbz	w21, .LBB63_44
	cmn	x10, #1
	mov	x3, x27
	mov	x9, x26
	b.eq	.LBB63_49
	cmp	x10, #4
	b.hs	.LBB63_50
.LBB63_43:
	mov	w27, #5
	b	.LBB63_52
.LBB63_44:
	mov	x3, x27
	mov	x9, x26
	cbz	x10, .LBB63_49
	ldrb	w11, [x2]
	mov	x27, xzr
	sub	w11, w11, #65
	cmp	w11, #55
	b.hi	.LBB63_52
	adrp	x12, .LJTI63_0
	add	x12, x12, :lo12:.LJTI63_0
	adr	x13, .LBB63_43
	ldrb	w14, [x12, x11]
	add	x13, x13, x14, lsl #2
	br	x13
.LBB63_47:
	cmp	x10, #5
	b.lo	.LBB63_43
	ldur	w10, [x2, #1]
	b	.LBB63_51
.LBB63_49:
	mov	x27, xzr
	b	.LBB63_52
.LBB63_50:
	ldr	w10, [x2]
.LBB63_51:
	rev	w10, w10
	add	x27, x10, #5
.LBB63_52:
	cmp	w25, #70
	sub	x10, x28, x15
	csinc	x19, xzr, x3, ne
	add	x26, x27, x19
	cmp	x10, x26
	b.hs	.LBB63_57
	add	x9, x26, x15
.LBB63_54:
	str	x9, [x8, #24]
	mov	w9, #16
.LBB63_55:
	mvn	w0, w9
.LBB63_56:
	ldp	x20, x19, [sp, #192]
	ldp	x22, x21, [sp, #176]
	ldp	x24, x23, [sp, #160]
	ldp	x26, x25, [sp, #144]
	ldp	x28, x27, [sp, #128]
	ldp	x29, x30, [sp, #112]
	add	sp, sp, #208
	ret
.LBB63_57:
	cmp	w25, #70
	add	x22, x9, x22
	b.ne	.LBB63_99
	cmp	x3, #3
	add	x9, x15, #1
	strb	w3, [x22, x15]
	b.gt	.LBB63_63
	cmp	x3, #1
	b.gt	.LBB63_69
	cbz	x3, .LBB63_99
	cmp	x3, #1
	b.ne	.LBB63_86
	ldrb	w10, [x20]
	strb	w10, [x22, x9]
	b	.LBB63_99
.LBB63_63:
	cmp	x3, #5
	b.gt	.LBB63_73
	cmp	x3, #4
	b.eq	.LBB63_80
	cmp	x3, #5
	b.ne	.LBB63_86
	add	x9, x22, x9
	sub	x10, x9, x20
	cmp	x10, #4
	b.hi	.LBB63_91
	ldrb	w10, [x20]
	strb	w10, [x9]
	ldrb	w10, [x20, #1]
	strb	w10, [x9, #1]
	ldrb	w10, [x20, #2]
	strb	w10, [x9, #2]
	ldrb	w10, [x20, #3]
	strb	w10, [x9, #3]
	ldrb	w10, [x20, #4]
	strb	w10, [x9, #4]
	b	.LBB63_99
.LBB63_68:
	str	x0, [sp, #16]
	mov	x0, x20
	mov	x27, x1
	mov	x1, x4
	mov	x28, x2
	mov	w2, w21
	mov	x26, x20
	mov	x20, x4
	mov	x21, x5
	bl	"amqp_c::key::is_other_key"
	mov	w8, w0
	ldr	x0, [sp, #16]
	mov	x5, x21
	mov	x1, x27
	mov	x4, x20
	mov	x20, x26
	mov	x2, x28
	tbnz	w8, #0, .LBB63_37
	b	.LBB63_24
.LBB63_69:
	cmp	x3, #2
	b.eq	.LBB63_82
	cmp	x3, #3
	b.ne	.LBB63_86
	add	x9, x22, x9
	sub	x10, x9, x20
	cmp	x10, #2
	b.hi	.LBB63_92
	ldrb	w10, [x20]
	strb	w10, [x9]
	ldrb	w10, [x20, #1]
	strb	w10, [x9, #1]
	ldrb	w10, [x20, #2]
	strb	w10, [x9, #2]
	b	.LBB63_99
.LBB63_73:
	cmp	x3, #6
	b.eq	.LBB63_84
	cmp	x3, #7
	b.ne	.LBB63_86
	add	x9, x22, x9
	sub	x10, x9, x20
	cmp	x10, #6
	b.hi	.LBB63_93
	ldrb	w10, [x20]
	strb	w10, [x9]
	ldrb	w10, [x20, #1]
	strb	w10, [x9, #1]
	ldrb	w10, [x20, #2]
	strb	w10, [x9, #2]
	ldrb	w10, [x20, #3]
	strb	w10, [x9, #3]
	ldrb	w10, [x20, #4]
	strb	w10, [x9, #4]
	ldrb	w10, [x20, #5]
	strb	w10, [x9, #5]
	ldrb	w10, [x20, #6]
	strb	w10, [x9, #6]
	b	.LBB63_99
.LBB63_77:
	mov	w27, #9
	b	.LBB63_52
.LBB63_78:
	mov	w27, #3
	b	.LBB63_52
.LBB63_79:
	mov	w27, #2
	b	.LBB63_52
.LBB63_80:
	add	x9, x22, x9
	sub	x10, x9, x20
	cmp	x10, #3
	b.hi	.LBB63_88
	ldrb	w10, [x20]
	strb	w10, [x9]
	ldrb	w10, [x20, #1]
	strb	w10, [x9, #1]
	ldrb	w10, [x20, #2]
	strb	w10, [x9, #2]
	ldrb	w10, [x20, #3]
	strb	w10, [x9, #3]
	b	.LBB63_99
.LBB63_82:
	add	x9, x22, x9
	sub	x10, x9, x20
	cmp	x10, #1
	b.hi	.LBB63_89
	ldrb	w10, [x20]
	strb	w10, [x9]
	ldrb	w10, [x20, #1]
	strb	w10, [x9, #1]
	b	.LBB63_99
.LBB63_84:
	add	x9, x22, x9
	sub	x10, x9, x20
	cmp	x10, #5
	b.hi	.LBB63_90
	ldrb	w10, [x20]
	strb	w10, [x9]
	ldrb	w10, [x20, #1]
	strb	w10, [x9, #1]
	ldrb	w10, [x20, #2]
	strb	w10, [x9, #2]
	ldrb	w10, [x20, #3]
	strb	w10, [x9, #3]
	ldrb	w10, [x20, #4]
	strb	w10, [x9, #4]
	ldrb	w10, [x20, #5]
	strb	w10, [x9, #5]
	b	.LBB63_99
.LBB63_86:
	cmp	x3, #16
	b.hi	.LBB63_94
	add	x10, x20, x3
	ldr	x11, [x20]
	add	x9, x22, x9
	ldur	x10, [x10, #-8]
	str	x11, [x9]
	add	x9, x9, x3
	stur	x10, [x9, #-8]
	b	.LBB63_99
.LBB63_88:
	ldr	w10, [x20]
	str	w10, [x9]
	b	.LBB63_99
.LBB63_89:
	ldrh	w10, [x20]
	strh	w10, [x9]
	b	.LBB63_99
.LBB63_90:
	ldrh	w10, [x20, #4]
	ldr	w11, [x20]
	strh	w10, [x9, #4]
	str	w11, [x9]
	b	.LBB63_99
.LBB63_91:
	ldrb	w10, [x20, #4]
	ldr	w11, [x20]
	strb	w10, [x9, #4]
	str	w11, [x9]
	b	.LBB63_99
.LBB63_92:
	ldrb	w10, [x20, #2]
	ldrh	w11, [x20]
	strb	w10, [x9, #2]
	strh	w11, [x9]
	b	.LBB63_99
.LBB63_93:
	ldrb	w10, [x20, #6]
	ldrh	w11, [x20, #4]
	ldr	w12, [x20]
	strb	w10, [x9, #6]
	strh	w11, [x9, #4]
	str	w12, [x9]
	b	.LBB63_99
.LBB63_94:
	cmp	x3, #32
	b.hi	.LBB63_98
	add	x10, x20, x3
	ldr	q0, [x20]
	add	x9, x22, x9
	ldur	q1, [x10, #-16]
	str	q0, [x9]
	add	x9, x9, x3
	stur	q1, [x9, #-16]
	b	.LBB63_99
.LBB63_96:
	mov	w27, #6
	b	.LBB63_52
.LBB63_97:
	mov	w27, #1
	b	.LBB63_52
.LBB63_98:
	mov	x8, x20
	mov	x25, x1
	add	x1, x15, #1
	mov	x0, x22
	mov	x20, x2
	mov	x2, x8
	bl	"amqp_c::buffer::write_long"
	ldr	x8, [sp, #24]
	add	x15, x24, x23
	mov	x2, x20
	mov	x1, x25
.LBB63_99:
	add	x19, x19, x15
	sub	x20, x27, x21
	add	x9, x22, x19
	sub	x10, x9, x1
	cmp	x10, x21
	b.hs	.LBB63_101
	ldrb	w10, [x1]
	strb	w10, [x9]
	b	.LBB63_102
.LBB63_101:
	add	x0, x22, x19
	mov	x25, x2
	mov	x2, x21
	bl	memcpy
	ldr	x8, [sp, #24]
	mov	x2, x25
.LBB63_102:
	cmp	x20, #3
	add	x1, x19, x21
	b.gt	.LBB63_107
	cmp	x20, #1
	b.gt	.LBB63_112
	cbz	x20, .LBB63_138
	cmp	x20, #1
	b.ne	.LBB63_126
	ldrb	w9, [x2]
	strb	w9, [x22, x1]
	b	.LBB63_138
.LBB63_107:
	cmp	x20, #5
	b.gt	.LBB63_116
	cmp	x20, #4
	b.eq	.LBB63_120
	cmp	x20, #5
	b.ne	.LBB63_126
	add	x9, x22, x1
	sub	x10, x9, x2
	cmp	x10, #4
	b.hi	.LBB63_132
	ldrb	w10, [x2]
	strb	w10, [x9]
	ldrb	w10, [x2, #1]
	strb	w10, [x9, #1]
	ldrb	w10, [x2, #2]
	strb	w10, [x9, #2]
	ldrb	w10, [x2, #3]
	strb	w10, [x9, #3]
	ldrb	w10, [x2, #4]
	strb	w10, [x9, #4]
	b	.LBB63_138
.LBB63_112:
	cmp	x20, #2
	b.eq	.LBB63_122
	cmp	x20, #3
	b.ne	.LBB63_126
	add	x9, x22, x1
	sub	x10, x9, x2
	cmp	x10, #2
	b.hi	.LBB63_133
	ldrb	w10, [x2]
	strb	w10, [x9]
	ldrb	w10, [x2, #1]
	strb	w10, [x9, #1]
	ldrb	w10, [x2, #2]
	strb	w10, [x9, #2]
	b	.LBB63_138
.LBB63_116:
	cmp	x20, #6
	b.eq	.LBB63_124
	cmp	x20, #7
	b.ne	.LBB63_126
	add	x9, x22, x1
	sub	x10, x9, x2
	cmp	x10, #6
	b.hi	.LBB63_134
	ldrb	w10, [x2]
	strb	w10, [x9]
	ldrb	w10, [x2, #1]
	strb	w10, [x9, #1]
	ldrb	w10, [x2, #2]
	strb	w10, [x9, #2]
	ldrb	w10, [x2, #3]
	strb	w10, [x9, #3]
	ldrb	w10, [x2, #4]
	strb	w10, [x9, #4]
	ldrb	w10, [x2, #5]
	strb	w10, [x9, #5]
	ldrb	w10, [x2, #6]
	strb	w10, [x9, #6]
	b	.LBB63_138
.LBB63_120:
	add	x9, x22, x1
	sub	x10, x9, x2
	cmp	x10, #3
	b.hi	.LBB63_129
	ldrb	w10, [x2]
	strb	w10, [x9]
	ldrb	w10, [x2, #1]
	strb	w10, [x9, #1]
	ldrb	w10, [x2, #2]
	strb	w10, [x9, #2]
	ldrb	w10, [x2, #3]
	strb	w10, [x9, #3]
	b	.LBB63_138
.LBB63_122:
	add	x9, x22, x1
	sub	x10, x9, x2
	cmp	x10, #1
	b.hi	.LBB63_130
	ldrb	w10, [x2]
	strb	w10, [x9]
	ldrb	w10, [x2, #1]
	strb	w10, [x9, #1]
	b	.LBB63_138
.LBB63_124:
	add	x9, x22, x1
	sub	x10, x9, x2
	cmp	x10, #5
	b.hi	.LBB63_131
	ldrb	w10, [x2]
	strb	w10, [x9]
	ldrb	w10, [x2, #1]
	strb	w10, [x9, #1]
	ldrb	w10, [x2, #2]
	strb	w10, [x9, #2]
	ldrb	w10, [x2, #3]
	strb	w10, [x9, #3]
	ldrb	w10, [x2, #4]
	strb	w10, [x9, #4]
	ldrb	w10, [x2, #5]
	strb	w10, [x9, #5]
	b	.LBB63_138
.LBB63_126:
	cmp	x20, #16
	b.hi	.LBB63_135
	cmp	x20, #7
	b.ls	.LBB63_139
	add	x9, x2, x20
	ldr	x10, [x2]
	add	x11, x22, x1
	ldur	x9, [x9, #-8]
	str	x10, [x11]
	add	x10, x11, x20
	stur	x9, [x10, #-8]
	b	.LBB63_138
.LBB63_129:
	ldr	w10, [x2]
	str	w10, [x9]
	b	.LBB63_138
.LBB63_130:
	ldrh	w10, [x2]
	strh	w10, [x9]
	b	.LBB63_138
.LBB63_131:
	ldrh	w10, [x2, #4]
	ldr	w11, [x2]
	strh	w10, [x9, #4]
	str	w11, [x9]
	b	.LBB63_138
.LBB63_132:
	ldrb	w10, [x2, #4]
	ldr	w11, [x2]
	strb	w10, [x9, #4]
	str	w11, [x9]
	b	.LBB63_138
.LBB63_133:
	ldrb	w10, [x2, #2]
	ldrh	w11, [x2]
	strb	w10, [x9, #2]
	strh	w11, [x9]
	b	.LBB63_138
.LBB63_134:
	ldrb	w10, [x2, #6]
	ldrh	w11, [x2, #4]
	ldr	w12, [x2]
	strb	w10, [x9, #6]
	strh	w11, [x9, #4]
	str	w12, [x9]
	b	.LBB63_138
.LBB63_135:
	cmp	x20, #32
	b.hi	.LBB63_137
	add	x9, x2, x20
	ldr	q0, [x2]
	ldur	q1, [x9, #-16]
	add	x9, x22, x1
	str	q0, [x9]
	add	x9, x9, x20
	stur	q1, [x9, #-16]
	b	.LBB63_138
.LBB63_137:
	mov	x0, x22
	mov	x3, x20
	bl	"amqp_c::buffer::write_long"
	ldr	x8, [sp, #24]
.LBB63_138:
	add	x9, x26, x24
	mov	w0, wzr
	stp	x23, x9, [x8]
	b	.LBB63_56
.LBB63_139:
	brk	#0x1
.Lfunc_end63:
	.size	amqpv_put_value, .Lfunc_end63-amqpv_put_value
	.section	.rodata.amqpv_put_value,"a",@progbits
.LJTI63_0:
	.byte	(.LBB63_47-.LBB63_43)>>2
	.byte	(.LBB63_79-.LBB63_43)>>2
	.byte	(.LBB63_52-.LBB63_43)>>2
	.byte	(.LBB63_96-.LBB63_43)>>2
	.byte	(.LBB63_52-.LBB63_43)>>2
	.byte	(.LBB63_47-.LBB63_43)>>2
	.byte	(.LBB63_52-.LBB63_43)>>2
	.byte	(.LBB63_52-.LBB63_43)>>2
	.byte	(.LBB63_43-.LBB63_43)>>2
	.byte	(.LBB63_52-.LBB63_43)>>2
	.byte	(.LBB63_52-.LBB63_43)>>2
	.byte	(.LBB63_77-.LBB63_43)>>2
	.byte	(.LBB63_52-.LBB63_43)>>2
	.byte	(.LBB63_52-.LBB63_43)>>2
	.byte	(.LBB63_52-.LBB63_43)>>2
	.byte	(.LBB63_52-.LBB63_43)>>2
	.byte	(.LBB63_52-.LBB63_43)>>2
	.byte	(.LBB63_52-.LBB63_43)>>2
	.byte	(.LBB63_47-.LBB63_43)>>2
	.byte	(.LBB63_77-.LBB63_43)>>2
	.byte	(.LBB63_78-.LBB63_43)>>2
	.byte	(.LBB63_97-.LBB63_43)>>2
	.byte	(.LBB63_52-.LBB63_43)>>2
	.byte	(.LBB63_52-.LBB63_43)>>2
	.byte	(.LBB63_52-.LBB63_43)>>2
	.byte	(.LBB63_52-.LBB63_43)>>2
	.byte	(.LBB63_52-.LBB63_43)>>2
	.byte	(.LBB63_52-.LBB63_43)>>2
	.byte	(.LBB63_52-.LBB63_43)>>2
	.byte	(.LBB63_52-.LBB63_43)>>2
	.byte	(.LBB63_52-.LBB63_43)>>2
	.byte	(.LBB63_52-.LBB63_43)>>2
	.byte	(.LBB63_52-.LBB63_43)>>2
	.byte	(.LBB63_79-.LBB63_43)>>2
	.byte	(.LBB63_52-.LBB63_43)>>2
	.byte	(.LBB63_77-.LBB63_43)>>2
	.byte	(.LBB63_52-.LBB63_43)>>2
	.byte	(.LBB63_43-.LBB63_43)>>2
	.byte	(.LBB63_52-.LBB63_43)>>2
	.byte	(.LBB63_52-.LBB63_43)>>2
	.byte	(.LBB63_43-.LBB63_43)>>2
	.byte	(.LBB63_52-.LBB63_43)>>2
	.byte	(.LBB63_52-.LBB63_43)>>2
	.byte	(.LBB63_77-.LBB63_43)>>2
	.byte	(.LBB63_52-.LBB63_43)>>2
	.byte	(.LBB63_52-.LBB63_43)>>2
	.byte	(.LBB63_52-.LBB63_43)>>2
	.byte	(.LBB63_52-.LBB63_43)>>2
	.byte	(.LBB63_52-.LBB63_43)>>2
	.byte	(.LBB63_52-.LBB63_43)>>2
	.byte	(.LBB63_78-.LBB63_43)>>2
	.byte	(.LBB63_79-.LBB63_43)>>2
	.byte	(.LBB63_78-.LBB63_43)>>2
	.byte	(.LBB63_52-.LBB63_43)>>2
	.byte	(.LBB63_52-.LBB63_43)>>2
	.byte	(.LBB63_47-.LBB63_43)>>2

	.section	.text.amqpv_read,"ax",@progbits
	.globl	amqpv_read
	.p2align	2
	.type	amqpv_read,@function
amqpv_read:
	.cfi_startproc
	sub	sp, sp, #48
	.cfi_def_cfa_offset 48
	stp	x29, x30, [sp, #32]
	add	x29, sp, #32
	.cfi_def_cfa w29, 16
	.cfi_offset w30, -8
	.cfi_offset w29, -16
	cmp	x2, #0
	add	x8, sp, #8
	csel	x2, x8, x2, eq
	bl	amqpv_proved_read
	.cfi_def_cfa wsp, 48
	ldp	x29, x30, [sp, #32]
	add	sp, sp, #48
	.cfi_def_cfa_offset 0
	.cfi_restore w30
	.cfi_restore w29
	ret
.Lfunc_end64:
	.size	amqpv_read, .Lfunc_end64-amqpv_read
	.cfi_endproc

	.section	.text.amqpv_measure,"ax",@progbits
	.globl	amqpv_measure
	.p2align	2
	.type	amqpv_measure,@function
amqpv_measure:
	.cfi_startproc
	sub	sp, sp, #48
	.cfi_def_cfa_offset 48
	stp	x29, x30, [sp, #32]
	add	x29, sp, #32
	.cfi_def_cfa w29, 16
	.cfi_offset w30, -8
	.cfi_offset w29, -16
	cmp	x2, #0
	add	x8, sp, #8
	csel	x2, x8, x2, eq
	bl	amqpv_proved_measure
	.cfi_def_cfa wsp, 48
	ldp	x29, x30, [sp, #32]
	add	sp, sp, #48
	.cfi_def_cfa_offset 0
	.cfi_restore w30
	.cfi_restore w29
	ret
.Lfunc_end65:
	.size	amqpv_measure, .Lfunc_end65-amqpv_measure
	.cfi_endproc

	.section	.text.amqpv_find,"ax",@progbits
	.globl	amqpv_find
	.p2align	2
	.type	amqpv_find,@function
amqpv_find:
	.cfi_startproc
	sub	sp, sp, #80
	.cfi_def_cfa_offset 80
	stp	x29, x30, [sp, #64]
	add	x29, sp, #64
	.cfi_def_cfa w29, 16
	.cfi_offset w30, -8
	.cfi_offset w29, -16
	.cfi_remember_state
	cbz	x3, .LBB66_6
	add	x8, x2, #24
	mov	x9, x3
	b	.LBB66_3
.LBB66_2:
	subs	x9, x9, #1
	b.eq	.LBB66_6
.LBB66_3:
	ldrb	w10, [x8], #32
	cmp	w10, #70
	b.eq	.LBB66_2
	cmp	w10, #65
	b.eq	.LBB66_2
	mov	w0, #-13
	.cfi_def_cfa wsp, 80
	ldp	x29, x30, [sp, #64]
	add	sp, sp, #80
	.cfi_def_cfa_offset 0
	.cfi_restore w30
	.cfi_restore w29
	ret
.LBB66_6:
	.cfi_restore_state
	.cfi_remember_state
	cmp	x1, x4
	b.eq	.LBB66_8
	bl	amqpv_proved_find
	.cfi_def_cfa wsp, 80
	ldp	x29, x30, [sp, #64]
	add	sp, sp, #80
	.cfi_def_cfa_offset 0
	.cfi_restore w30
	.cfi_restore w29
	ret
.LBB66_8:
	.cfi_restore_state
	ldp	q0, q1, [x1]
	stp	q0, q1, [sp]
	ldp	q0, q2, [x1, #32]
	mov	x1, sp
	stp	q0, q2, [sp, #32]
	bl	amqpv_proved_find
	.cfi_def_cfa wsp, 80
	ldp	x29, x30, [sp, #64]
	add	sp, sp, #80
	.cfi_def_cfa_offset 0
	.cfi_restore w30
	.cfi_restore w29
	ret
.Lfunc_end66:
	.size	amqpv_find, .Lfunc_end66-amqpv_find
	.cfi_endproc

	.section	.text.amqpv_to_json,"ax",@progbits
	.globl	amqpv_to_json
	.p2align	2
	.type	amqpv_to_json,@function
amqpv_to_json:
	.cfi_startproc
	stp	x29, x30, [sp, #-32]!
	.cfi_def_cfa_offset 32
	stp	x20, x19, [sp, #16]
	mov	x29, sp
	.cfi_def_cfa w29, 32
	.cfi_offset w19, -8
	.cfi_offset w20, -16
	.cfi_offset w30, -24
	.cfi_offset w29, -32
	.cfi_remember_state
	cmp	x2, #0
	mov	x19, x3
	mov	x20, x1
	cset	w8, ne
	sub	x2, x2, x8
	bl	amqpv_proved_to_json
	cmn	w0, #17
	b.eq	.LBB67_4
	cbnz	w0, .LBB67_3
	ldr	x8, [x19]
	strb	wzr, [x20, x8]
.LBB67_3:
	.cfi_def_cfa wsp, 32
	ldp	x20, x19, [sp, #16]
	ldp	x29, x30, [sp], #32
	.cfi_def_cfa_offset 0
	.cfi_restore w19
	.cfi_restore w20
	.cfi_restore w30
	.cfi_restore w29
	ret
.LBB67_4:
	.cfi_restore_state
	ldr	x8, [x19]
	cmn	x8, #1
	b.eq	.LBB67_3
	add	x8, x8, #1
	str	x8, [x19]
	.cfi_def_cfa wsp, 32
	ldp	x20, x19, [sp, #16]
	ldp	x29, x30, [sp], #32
	.cfi_def_cfa_offset 0
	.cfi_restore w19
	.cfi_restore w20
	.cfi_restore w30
	.cfi_restore w29
	ret
.Lfunc_end67:
	.size	amqpv_to_json, .Lfunc_end67-amqpv_to_json
	.cfi_endproc

	.type	.Lstatic.0,@object
	.section	.rodata..Lstatic.0,"a",@progbits
.Lstatic.0:
	.byte	70
	.size	.Lstatic.0, 1

	.type	.Lstatic.6,@object
	.section	.rodata..Lstatic.6,"a",@progbits
.Lstatic.6:
	.ascii	"\":"
	.size	.Lstatic.6, 2

	.type	.Lstatic.8,@object
	.section	.rodata.cst4,"aM",@progbits,4
.Lstatic.8:
	.ascii	"true"
	.size	.Lstatic.8, 4

	.type	.Lstatic.9,@object
	.section	.rodata..Lstatic.9,"a",@progbits
.Lstatic.9:
	.ascii	"false"
	.size	.Lstatic.9, 5

	.type	.Lstatic.10,@object
	.section	.rodata.cst4,"aM",@progbits,4
.Lstatic.10:
	.ascii	"null"
	.size	.Lstatic.10, 4

	.type	.Lstatic.11,@object
	.section	.rodata..Lstatic.11,"a",@progbits
.Lstatic.11:
	.ascii	"\"$"
	.size	.Lstatic.11, 2

	.type	.Lstatic.12,@object
	.section	.rodata..Lstatic.12,"a",@progbits
.Lstatic.12:
	.ascii	"$ShortShortInt"
	.size	.Lstatic.12, 14

	.type	.Lstatic.13,@object
	.section	.rodata..Lstatic.13,"a",@progbits
.Lstatic.13:
	.ascii	"$ShortShortUInt"
	.size	.Lstatic.13, 15

	.type	.Lstatic.14,@object
	.section	.rodata..Lstatic.14,"a",@progbits
.Lstatic.14:
	.ascii	"$ShortInt"
	.size	.Lstatic.14, 9

	.type	.Lstatic.15,@object
	.section	.rodata..Lstatic.15,"a",@progbits
.Lstatic.15:
	.ascii	"$ShortUInt"
	.size	.Lstatic.15, 10

	.type	.Lstatic.16,@object
	.section	.rodata.cst8,"aM",@progbits,8
.Lstatic.16:
	.ascii	"$LongInt"
	.size	.Lstatic.16, 8

	.type	.Lstatic.17,@object
	.section	.rodata..Lstatic.17,"a",@progbits
.Lstatic.17:
	.ascii	"$LongUInt"
	.size	.Lstatic.17, 9

	.type	.Lstatic.18,@object
	.section	.rodata..Lstatic.18,"a",@progbits
.Lstatic.18:
	.ascii	"$Timestamp"
	.size	.Lstatic.18, 10

	.type	.Lstatic.19,@object
	.section	.rodata..Lstatic.19,"a",@progbits
.Lstatic.19:
	.ascii	"$ByteArray"
	.size	.Lstatic.19, 10

	.type	.Lstatic.20,@object
	.section	.rodata..Lstatic.20,"a",@progbits
.Lstatic.20:
	.ascii	"00010203040506070809101112131415161718192021222324252627282930313233343536373839404142434445464748495051525354555657585960616263646566676869707172737475767778798081828384858687888990919293949596979899"
	.size	.Lstatic.20, 200

	.type	.Lstatic.21,@object
	.section	.rodata..Lstatic.21,"a",@progbits
.Lstatic.21:
	.ascii	"{\""
	.size	.Lstatic.21, 2

	.type	.Lstatic.22,@object
	.section	.rodata..Lstatic.22,"a",@progbits
.Lstatic.22:
	.ascii	"$Float"
	.size	.Lstatic.22, 6

	.type	.Lstatic.23,@object
	.section	.rodata..Lstatic.23,"a",@progbits
.Lstatic.23:
	.size	.Lstatic.23, 0

	.type	.Lstatic.24,@object
	.section	.rodata..Lstatic.24,"a",@progbits
	.p2align	3, 0x0
.Lstatic.24:
	.ascii	"\001\000\000\000\000\000\000\000\n\000\000\000\000\000\000\000d\000\000\000\000\000\000\000\350\003\000\000\000\000\000\000\020'\000\000\000\000\000\000\240\206\001\000\000\000\000\000@B\017\000\000\000\000\000\200\226\230\000\000\000\000\000\000\341\365\005\000\000\000\000\000\312\232;\000\000\000\000\000\344\013T\002\000\000\000\000\350vH\027\000\000\000\000\020\245\324\350\000\000\000\000\240rN\030\t\000\000\000@z\020\363Z\000\000\000\200\306\244~\215\003\000\000\000\301o\362\206#\000\000\000\212]xEc\001\000\000d\247\263\266\340\r\000\000\350\211\004#\307\212"
	.size	.Lstatic.24, 160

	.type	.Lstatic.25,@object
	.section	.rodata..Lstatic.25,"a",@progbits
	.p2align	4, 0x0
.Lstatic.25:
	.ascii	"?;\241\006)\252?\021Z\326;\222\326S\364\356\007\305$\244Y\312\307J\370ee\033f\264X\225I\366-\r\360\274y]v\277>\242\177\341\256\272\334sy\020,,\330\364So\316\212\337\231Z\351i\350K\212\233\033\007y\224\005\301\266+\240\330\221\204\342\336l\202\342H\227\371Fq\2446\310N\266%\233\026\b#\033\033\375\267\230\215MDz\342\343\367 \016\345\365\3600\376r\177x\260j\214m\2165\251Q^3-\275\275O\237\226\\\205\357\b\262\202\023\3465\200x,\255#G\274\263f+\213\3361\314\257!P\313;Lv\254U0 \373\026\213=\277\033*$\276J\337\223\027k<\350\271\334\255\r\257\2424\255m\035\327x\335\205Kb\350S\331h\255\345@\214dr\206k\2523o=q\324\207\302\030\037Q\257\375\016h\006\225\000\313\214\215\311\251\362\336f%\033\275\022\002H\272\300\375\357\360;\324WK`\3670\266K\001mt\230\376\225v\245\204-^85\275\243\236A\210\221>~;\324\316\245\271u\206\202\254L\006R\3525\316]J\211B\317\223\t\224\321\353\357Cs\262\341\240z\316\225\211\201\370\013\371\305\346\353\024\020\037\032I\031B\373\353\241\366Nww\340&\032\324\246`\233\237\022\372f\312\264\"U\225\230\260 \211\3208\202G\227\270\000\375\2605U]_n\264U\202c\261\214^s \236\035\203\2524\367\211!\353b\274\335/6\220\250\305\344#\325\001u\354\351\245{+\325\273C\264\022\367n6%!\3113\262G-;eU\252\260k\232\n\204ni\273\300\236\231\370\211\276\352\324\234\006\301\r%\312C\352p\006\300v,n%\nDH\361(W^j\222\006\0048\312\333dW\206*\315\226\362\354\365\0047\b\005\306\274\022>\355'u\200\274.h3\306DJ\206\367k\227\215\350q\222\240\353\035!\340\373j\356\263z\243~X1\207[D\223d)\330\272\005\352`YL\236\256\375hr\025\270\2753\216)\207$\271o\337E\032=\003\317\032\346V\340\370y\324\266\323\245\253k0\006b\301\320\217l\030w\230\211\244H\217\226\206\274\207\272\361\304\263\207\336\224\376\253\315\0323<\250\253)).\266\340\024\013\035\177\213\300\360\237%I\013\272\331\334q\214\331M\344^\256\360\354\007o\033\216(\020T\216\257Pa\235\366\331,\350\311J\242\2612\024\351q\333\322\\\":\b\0341\276n\005\257\237\2541'\211\006\364\252H\nc\275m\312\306\232\307\027\376p\253\b\261\325\332\314\273,\t}x\201\271\235=M\326\245\216\305\b`\365\273%N\353\360\223\202F\360\205N\362\366\n\270\362*\257!&\3558#Xl\247\341\256\264\rf\257\365\032\252o(\007,nG\321M\355\220\310\237\215\331P\312Ey\204\333\244\314\202\240(\265\272\007\361\017\345<\227\227e\022\316\177\243\310rb\251I\355S\036\f}\375\376\226\301_\314z\017\273\023\234\350\350%O\334\274\276\374\261w\377\254\351T\214a\221\261w\261\t6\367=\317\252\237\027$j\357\271\365\235\325\035\214\003u\r\203\225\307\035\255Dk(s\005K%oD\322\320\343z\3712\354\nC\371g\343Nw\305j\203b\316\354\233?\247\315\223\367A\234\"\325vE$\373\001\350\302\017\021\301xuRCk\212\324V\355y\002\242\363\251\252xk\211\023\n\203\326DV4\214AE\230S\325V\306k\230\314#\f\326kA\357\221V\276\250\212\354\267\206\276\277,\217\313\306\021k6\354\355\251\326\3632\024\327\367{9?\034\353\002\242\263\224S\314\260?\331\314\365\332\007O\343\245\203\212\340\271h\377\234\217\017@\263\321\311\"\\\217$\255X\350\241\037\302\271\t\b\020#\276\225\231\3316l7\221\212\2472(\f\n\324\253-\373\377\217DG\205\265lQ?2\217\f\311\026\371\371\377\263\025\231\346\342\343\222g\177\331\247=\256;\374\177\220\255\037\320\215\234wA\337\317\021\315\231J\373\237\364\230'D\261\203\325\021\327CV@@\035\372\3071\1771\225\335r%kf\3525(HR\374\034\177\357>}\212\317\356\005\000eC2\332f;\344^\253\216\034\255\202j\007@>\324\276\220@J\2356V\262c\330\221\242\004\350\246DwZhN\"\342uO>\2076\313\005\242\320\025\025q\002\342\252ZS\343\r\251\003>\207\312D[Z\r\203\232U1(\\Q\323\302\206\224\376\nyX\350\221\200\325\036\231\331\022\204r\2509\276M\227nb\266\340\212f\377\217\027\245\217\022\310-!=\n\373\343\230-@\377s]\316\231\013\235\2744f\346|\216\177\034\210\177h\372\200\200N\304\353\301\377\037\034r\237#j\237\0029\241 b\265f\262\377'\243N\207\254DGC\207\311\250\272b\000\237\377\361K\"\251\327\025\031\024\351\373\251\264=`\303?wo\265\311\246\255\217\254q\235\323!M8\264\017U\313\"|\020\231\263\027\316\304Hj`F\241S*~+\233T\177\240\235\001\366mB\374\313Dt\332.\373\340\224O\204\002\301\231\bS\373\376U\021\221\3729\031zc%C1\300\312'\272~\253U5y\210\237X\274\356\223=\360\336X4/\213U\301K\265c\2675u|&\226\026o\001\373\355\252\261\236\242<%\203\222\033\260\273\334\312\301y\251\025^F\313\213\356#w\"\234\352\311\036\031\354\211\315\372\013_\027uv\212\225\241\222{f\037g\354\200\371\3166]\022\024\355\372I\267\032@\347\200'\341\267\202\204\364\026Y\250y\034\345\020\210\220\260\270\354\262\321\322X\2567\t\3141\217\025\252\264\334\346\247\037\206\007\357\231\205\013?\376\262\232\324\341\223\340\221\247g\311j\000g\316\316\275\337\340$m\\,\273\310\340\275B`\000A\241\326\213\030n\210s\367\351\372XmSx@\221I\314\256\236\211jPu\2449\257Hh\226\220\365[\177\332\003\226BR\311\006\204m-\001^zy\231\217\210\203;\323\246{\b\345\310x\201\365\330\327\177\263\252d\n\210\220\232J\036\373\326\3412\317\315_`\325\177\006U\232\240\356\362\\&\315\177\241\340;\\\205\036H\352\300H\252/\364o\300\337\311\330J\263\246&\332$\361\332\224;\361\213\260W\374\216\035`\320X\b\267\326\b=\305vW\316\266]y\022<\202n\312d\fK\214vT\355\201$\265\027\027\313\242\t\375}\317]/\224\251h\242m\242\335\334}\313L|]C5;\371\323\002\013\t\013\025T]\376\257m\032J\001\305{\304\341\246\345&\215T\372\236\033\t\241\234A\266\2325\232\020\237p\260\351\270\306bK\311\003\322c\001\303\300\324\306\214\034$g\370\035\317]Bc\336\340y\370D\374\327\221v@\233\344B\365\022\374\025Y\2306V\373M6\224\020\302\235\223\262\027{[o>\304+z\341C\271\224\362B\234\317\356,\231\005\247Z[\354l\312\363\234\227S\203\203*x\377\306P1r'\b\2750\204\275(d$5V\277\370\244\275N1J\354<\345\354\231\2766\341\225w\033\2076\321^\256\023F\017\224?n\204Y{U\342(\204\205\366\231\230\027\023\271\317\211\345/\332\352\0323\345&t\300~\335W\347!v\357]\310\322\360?O\230H8o\352\226\220\251Skuz\007\355\017c\276Z\006\013\245\274\264\224(\306\022YI\350\323\373m\361\307M\316\353\341\\\331\273\253\327-qd\275\344\366\234\360`3\215\263\317\252\226My\215\275\354\2354\304,9\200\260\240\203U\374\240\327\360\354g\305A\365wG\240\334Dr\265\235\304\206\026\364`\033I\371\252,\344\211\325\316\"\305u(\03419b\233\267\3257]\254\213\202k6\2232c}\307:\202%\313\205t\327\2271\003\002\234\377]\256\274dq\367\236\323\250\206\374\375\203\002\203\177\365\331\353\275M\265\206\bS\250{\375$\303c\337r\320f-\241b\250\312g\322m\036\367Y\236\313GB`\274\244=\251\336\200\203\b\346t\360\205\276\331Rx\353\r\215S\026a\244\213\037\222l'.\220gVfQp\350[y\315\266S\333\243\330\034\272\000\366\3372Fq\331k\200\244(\322\314\016\244\350\200\363\227\277\227\315\317\206\240\315\262\006\200\022\315\"a\360}\257\375\300\203\250\310\201_\b W\200kyl]\033=\261\244\322\372\260;\005t60\343\313c\0321\306\356\246\303\234\234\212\006\021D\374\333\276\374`\275w\252\220\364\303D-H\025U\373\222\356;\271\254\025\325\264\361\364J\034M-\025\335\033u\305\363\213-\005\021\027\231]c\240xZ\324b\322\266\360\356xF\325\\\2774|\310\026q\211\373\206\344\254*\027\230\n4\357\240M=\256\3465]\324\016\254z\016\237\206\200\225\t\241\314Y`\203t\211\022W\031\322F\250\340\272K\311?p8\244\321+\327\254\237\206X\322\230\351\317\335'F\243\006c{\006\314#Tw\203\377\221B\325\261\027L\310;\032\b\277,)Ud\177\266\223J\236\035_\272\312 \312\356wsj=\037\344\234\356\202r{\264~T>\365*\210b\206\223\216C\252#O\232a\236\351\215\2625*\373g8\262\324\224\354\342\000\372\005d1\037\303\364\371\201\306\336\004\335\323\215@\274\203\336~\363\3718<\021<\213E\324H\261P\253$\226^p8G\213\025\013\256W\t\233\335$\326\255;v\214\006\031\356\332\215\331\326\345\200\n\327\245L\345\311\027\244\317\324\250\370\207L\037!\315L\317\237^\274\035\215\003\n\323\366\251\037gi\000 \303Gv+ep\204\314\207t\324s\340A\000\364\331\354);?\306\322\337\324\310\204\220XR\000q\020h\364\t\317w\307\027\n\373\245\264\356f@\215\024\202q\314\302U\271\235\314y\3170U@H\330L\361\306\277\231\325\223\342\037\254\201|jPZ\016\240\255\270/\000\3138\333'\027\242\034\205\344\360\021\b\331\246;\300\375\006\322\361\234\312c\246\035m\026J\217\220J0\275\210F.D\375\376\2072\004N\216Y\232.>v\025\354\234J\236\375)?\205\341\361\357@\272\315\323\032'D\335\305|\364\216\346Y\356+\321(\301\210\3410\225T\367\316X\0310\370t\273\202\271x\365\214>\335\224\232\001\257\037<6Rj\343\347\32620\216\024:\301\301\232'\313\303\346D\334\241\214?\274\261\231\210\361\271\300\370^:\020\253)\345\267\247\025\017`\365\226\347\360\266\366H\324\025t\336\245\021\333\022\270\262\274!\255d4[I\033\021V\017\326\221\027f\337\3534\354\276\000\331\r\261\312\225\311%\273\316\237k\223B\247\356@OQ]=\373;\357i\302\207F\270\022Q*\021\243\245\264\f\372\nk\004\263)X\346\253r\272\352\205\347\360G\334\346\302\342\017\032\367\217V\017ieg!\355Y\223\240s\333\223\340\364\263,S\303>\301ih0\270\210P\322\270\030\362\340\373\023:\307\030BA\036sUr\203sO\227\214\372\230\b\371\236\222\321\345\317\352NdP#\275\2579\277J\267F\367E\337\203\245b}$l\254\333\203\267\2162\214\272\213kr\247]\316\226\303K\211de2?/\251n\006O\021\365\201|\264\236\253\275\376\376\016{S\n\310\242Ur\242\233a\206\3266__\351,t\006\275\205u\207E\001\375\023\206\0047\267#8\021H,\347R\351\226A\374\230\247\305\004\245,\206\025Z\367\240\247\243\374Q;\177\321\373\"\347\333sM\230\232\304H\346=\023\205\357\202\272\353\340\322\320`>\301\365\332_\rXf\253\243\250&\231\007\005\371\2151\263\321\267\020\356?\226\314Rp\177IFw\361\375\037\306\345\224\351\317\273\3773\246\357\355\213\352\266\376\323\233\017\375\361a\325\237\300\217k\351.\245d\376\310\202S|n\272\312\307\260s\306\243z\316\375={ch\033\ni\275\371N\b\\\246\f\241\276\006->!Q\246a\026\234b\n\363\317OInH\270\215i\345\017\372\033\303\372\314\357\303\243\333\211Z&\361\303\336\223\370\342\363\034\340uZF)\226\370\267v:k\\\333m\230#X\023\361\227\263\273\366e\024\t\2063R\211\276,.X\355}\240jt\177Y\213g\300\246+\356\334\034W\264N\244\302\250\357\027\267@8H\333\224\023\344labM\363\222\353\335\344PF\032\022\272\027\035\310\371\272 \260wf\025\036\345\327\240\226\350.\022\035\334t\024\316\n`\3152\357\206$^\221\272V$\023\222\231\201\r\270\200\377\252\250\255\265\265il\355\227\366\377\341\020\346`\277\325\022\031#\343\301c\364\036\372?\215\312\217\234\227\305\253\357\365\215\262|\261\246\370\2170\275\263\203\375\266\226ks\261\336\333]\320\366\263|\254\240\344\274d|F\320\335k\251:Bz\360\315k\344\016\366\276\r,\242\212\306S\311\322\230l\301\206\235\222\263.\021\267J\255\267\250{\007\277\307q\350Dw`z\325d\235\330rI\255d\327\034G\021\213J|l\005_b\207\317\233\330=\r\344\230\325-]\233\307\306\366:\251\303\302N\215\020\035\377Jy4\202yx\264\211\323\2729QX*r\337\316\313`\361K\313\0206\204(\210e\356\264N\227\302\376\270\355\036\376\224C\2452\352\376)b\"=s>'\251\246=z\224\316_R?Z}5\006\b\207\270)\210f\314\034\201\367&\317\260\334\302\007\312\250&4*\200\377c\241\265\360\002\335\223\263\211\374R0\3014`\377\274\311\342\254C\324x \254\273g|\361A8?,\374\rL\252\204K\224K\325\300\3556)\203\247\233\235\021\337\324e^y\236\n1\251\204\363c\221\002\305\325\026J\377\265\027FM}\323e\360\2745C\366EN\216\277\321\316KP.\244?\026\226\001\352\231\326\341q/\206\302^\3449\215\317\233\373\201d\300LZN\273'sv]\210p\303\202z\242}\360o\370\020\325\370\007j:U&\272\221\214\205N\226\2136U\n\367\211\004\211\352\257(\266\357&\342\273.\204\352\314t\254E+\345\333\262\243\253\260\332\352\235\222\022\000\311\213\013;o\311OFk\256\310\222D7\027@\273n\316\t\313\273\343\027\006\332z\267\025\005\035\020j\nB\314\275\252\334\235\207\220Y\345-#\022J\202F\251\237\266\352\251\302T\372W\217\371\253\226\334\"\230\223GdeT\363\351\370-\263\367V\274\223+~xY\275~)p$w\371\337Z\266U<\333N\353W6\357\031\306v\352\373\213\361#k\013\222\"\346\355\003k\240w\024\345\372\256\355\354E\2166\253_\351\304\205\210\225Y\236\271\332\024\264\353\030\002\313\333\021\233Su\375\367\002\264\210\031\241&\237\302\275R\326\201\250\322\374\265\003\341\252_I\360F3m\347K\242R\007|\243D\231\325\333-V\f@\244po\245\223\204-\346\312\177\205R\271k\017P\315L\313\216\270\345\270\237\275\337\246\247\247F\023\244\000 ~\262&\037\247\007\255\227\320\310(\f\214f\000\324\216/xs\310$\314^\202\3722\017/\200\000\211r;V\220\372-\177\366\242\271\377\322:\240@+O\312k4y\371\036\264\313\250\277\207I\310\020\366\342\274\206\201\327\267&\241\376\311\327\364-}\312\331\r6\364\260\3462\270$\237\273\rry\034=P\221C1]\240?\346\355\306*\221\316\227cL\244u\224}t\210\317_\251\370\272\032\341>\276\257\206\311|\316H\265\341\333i\233ha\231\316\255[\350\373\033\002\233\"\332RD\302\303\271?B\231r\342\372\242\302A\253\220g\325\362\032\324g\311\237\207\315\334\245\031\tk\272`\305\227 \311\301\273\207\351\000T\017`\313\005\351\270\266\275h;\262\252\351#\001)\0238>G#g$\355!e\257\nr\266\240\371\013\343\206\fv\3006\224i>[\215\016\344\b\370\316\233\250\217\223pD\271\004\016\2620\022\035\013\266\302\302\222s\270\214\225\347\302Ho^+\362\306\261\271\271;H\363w\275\220\363\032\0136\266\2568\036(\250J\032\360\325\354\264\260\341\215\303c\332\306%2R\335 l\013(\342\016\2558Z~H\234W_S\212\224#\007Y\215Q\330\306\360\235Z\203-7\350\254y\354H\257\260e\216\370lE1\344\370D\"\030\230'\033\333\334\377X\033d\313\236\216\033k\025\017\277\370\360\b\212?/\"=~Fr\342\305\332\322\3566-\213\254\017\273j\314\035\330\016[w\221\207\252\204\370\255\327\351\264\302\237\022G\351\230\352\272\224\352R\273\314\206$b\263G\327\230#?\245\3519\245'\352\177\250\255:\240\031\r\177\354\216\016d\210\216\261\344\237\322\254$\0040h\317S\031\211>\025\371\356\356\243\203\327-\005<B\303\250_+\216Z\267\252\352\214\244My\006\313\022\364\2227\26611eU%\260\315\320\013\344\276\213\330\273\342\021\277>_U\027\216\200\304\016\235\256\256\316j[\326n\016\267*\235\261\240uRDZZ\202E\362\213\n\322du\004\336\310\022g\325\360\360\342\326\356.\215\006\276\222\205\025\373k`\205\226\326MFU=\030\304\266{s\355\234\206\270&<L\341\227\252L\036u\244Z\320(\304\250f0K\237\331=\325\337e\222Mq\0043\365)@\376\216\003\250F\345\253\177{\320\306\342?\2313\320\275r\004R\230\336\226_\232\204x\333\217\277@Dm\217\205f>\226|\367\300\245V\322s\357\250J\244y\023\000\347\335\255\232\230'vc\250\225R]\rX\030\300`UY\301~\261S|\022\273\246\264\020n\036\360\270\252\257q\336\235h\033\327\351\350p\312\004\023\226\263\312\r\007\253b!q&\222\"\r\375\305\227{`=\321\310U\273i\r\260\266jP|\267}\232\270\214\005;+*\304\020\\\344B\262\255\222\216`\363w\343\004[\232z\212\271\216\323\036Y7\2628\360U\034\306\361@\031\355g\262\210f/\305\336Flk\2437.\221_\350\001\337\025\240=;K\254##\306\342\274\272;1a\213\032\b\r\n^\227\354\253w\033l\251\212}9\256!J\220\2145\275\347\226U\"\307S\355\334\307\331T.\332wA\326P~uu\\T\024\352\034\210\351\271\320\325\321\013\345\335\322\222si\231$$\252d\350DK\306N^\225\207w\320\303\277-\255\324>\021\013\357;\361Z\275\264Jb\332\227<\354\204\216\325\315\352\212\255\261\354a\335\372\320\275K'\246\362J\201\245\355\030\336g\272\2249E\255\036\261\317\327\316p\207\224\317\352\200\364\374CK,\263\316\201\215\002M\251y\203%\2411\374\024^\367_B\2420C\240\023X\344n\t>;\2325\365\367\322\312\374S\210\030n\235\312\213\r\312\000\203\362\265\207\375}4U\317d\242^wH~\340\221\267\321t\236\235\201*\003\376J6\225\332\235Xv%\006\022\306\004\"\365\203\275\335\203:Q\305\356\323\256\207\226\367B5yr\226j\222\304R;uD\315\024\276\232\223\202\027\017<\005\267u'\212\222\225\000\232m\3018c\335\022\213\306$S\261,\367\272\200\000\311\361\003^\312\353\026\374\366\323\356{\332tP\240\035\227\204\365\274\246\034\273\364\210\352\032\021\222d\b\345\274\3452l\320\343\3511+\245a\225\266}J\036\354\317\237Cb.2\377:\007]\035\222\216\356\222\223\302\207\324\372\271\376\276\tI\264\24462\252w\270\263\251\211yh\276.L[\341M\304\276\224\225\346\020\n\366K\0017\235\017\331\254\260:\367|\035\220\224\214\363\236\301\204\204S\017\330\\\t5\334$\264\271o\260\006\362\245e(\023\016\264KB\023.\341\323E.D\267\207?\371\313\210Po\t\314\274\214H\3279\025\245i\217\367\376\252$\313\013\377\353\257\033M\210Z\016Ds\265\276\325\355\275\316\376\346\33300\225\370\210\nh1\227\245\2646A_p\211=|\2726+\r\302\375\374\316a\204\021w\314\253L\033i\004v\2202=\274Bz\345\325\224\277\326\017\261\301\302I\232?\246\265il\257\005\2757\206S\035r3\334\200\317\017#\204G\033G\254\305\247\250\244N@\023a\303\323+e\031\342X\027\267\321\351&1\b\254\034Zd;\337O\215\227n\022\203\243p=\n\327\243p=\n\327\243p=\n\327\243\314\314\314\314\314\314\314\314\314\314\314\314\314\314\314\314\000\000\000\000\000\000\000\000\000\000\000\000\000\000\000\200\000\000\000\000\000\000\000\000\000\000\000\000\000\000\000\240\000\000\000\000\000\000\000\000\000\000\000\000\000\000\000\310\000\000\000\000\000\000\000\000\000\000\000\000\000\000\000\372\000\000\000\000\000\000\000\000\000\000\000\000\000\000@\234\000\000\000\000\000\000\000\000\000\000\000\000\000\000P\303\000\000\000\000\000\000\000\000\000\000\000\000\000\000$\364\000\000\000\000\000\000\000\000\000\000\000\000\000\200\226\230\000\000\000\000\000\000\000\000\000\000\000\000\000 \274\276\000\000\000\000\000\000\000\000\000\000\000\000\000(k\356\000\000\000\000\000\000\000\000\000\000\000\000\000\371\002\225\000\000\000\000\000\000\000\000\000\000\000\000@\267C\272\000\000\000\000\000\000\000\000\000\000\000\000\020\245\324\350\000\000\000\000\000\000\000\000\000\000\000\000*\347\204\221\000\000\000\000\000\000\000\000\000\000\000\200\364 \346\265\000\000\000\000\000\000\000\000\000\000\000\2401\251_\343\000\000\000\000\000\000\000\000\000\000\000\004\277\311\033\216\000\000\000\000\000\000\000\000\000\000\000\305.\274\242\261\000\000\000\000\000\000\000\000\000\000@v:k\013\336\000\000\000\000\000\000\000\000\000\000\350\211\004#\307\212\000\000\000\000\000\000\000\000\000\000b\254\305\353x\255\000\000\000\000\000\000\000\000\000\200z\027\267&\327\330\000\000\000\000\000\000\000\000\000\220\254n2x\206\207\000\000\000\000\000\000\000\000\000\264W\n?\026h\251\000\000\000\000\000\000\000\000\000\241\355\314\316\033\302\323\000\000\000\000\000\000\000\000\240\204\024@aQY\204\000\000\000\000\000\000\000\000\310\245\031\220\271\245o\245\000\000\000\000\000\000\000\000:\017 \364'\217\313\316\000\000\000\000\000\000\000@\204\t\224\370x9?\201\000\000\000\000\000\000\000P\345\013\2716\327\007\217\241\000\000\000\000\000\000\000\244\336Ng\004\315\311\362\311\000\000\000\000\000\000\000M\226\"\201E@|o\374\000\000\000\000\000\000 \360\235\265p+\250\255\305\235\000\000\000\000\000\000(l\005\343L6\022\0317\305\000\000\000\000\000\0002\307\306\033\340\303V\337\204\366\000\000\000\000\000@\177<\\\021l:\226\013\023\232\000\000\000\000\000\020\237K\263\025\007\311{\316\227\300\000\000\000\000\000\324\206\036 \333H\273\032\302\275\360\000\000\000\000\200D\024\023\364\210\r\265P\231v\226\000\000\000\000\240U\331\0271\353P\342\244?\024\274\000\000\000\000\b\253\317]\375%\345\032\216O\031\353\000\000\000\000\345\312\241Z\2767\317\320\270\321\357\222\000\000\000@\236=J\361\255\005\003\005'\306\253\267\000\000\000\320\005\315\234m\031\307C\306\260\267\226\345\000\000\000\242#\000\202\344o\\\352{\3162~\217\000\000\200\212,\200\242\335\213\363\344\032\202\277]\263\000\000 \2557 \013\325n0\236\241b/5\340\000\0004\314\"\364&EE\336\002\245\235=!\214\000\000A\177+\261p\226\326\225C\016\005\215)\257\000@\021_v\335\f<L{\324QF\360\363\332\000\310j\373i\n\210\245\017\315$\363+v\330\210\000zEz\004\r\352\216S\000\356\357\266\223\016\253\200\330\326\230E\220\244rh\200\351\253\2448\322\325PG\206\177+\332\246GA\360q\353fc\243\205$\331g_\266\220\220\231QlN\246@<\f\247m\317A\367\343\264\364\377e\007\342\317PK\317\320\244!\211z\016\361\370\277\237D\355\201\022\217\201\202\rj+\031R-\367\257\307\225h\"\327\362!\243\220Dv\237\246\370\364\2339\273\002\353\214o\352\313\264\325SG\3206\362\002\bj\303%p\013\345\376\220e\224,Bb\327\001E\"\232\027&'O\237\365~\271\267\322:MB\326\252\200\235\357\360\"\307\262\336\247e\207\211\340\322\213\325\340\204+\255\353\370/\353\210\237\364U\314cw\205\f3;L\223\233\373%k\307qk\277<\325\246\317\377I\037x\302z\357E9NF\357\213\212\220\303\177\034'\026\363\254\265\313\343\360\213u\227V:\332\317q\330\355\227\027\243\276\034\355\356R=\354\310\320C\216N\351\275\335K\356c\250\252\247L'\373\304\3241\242c\355j\357t>\251\312\350\217\370\034\373$_E^\224D+\022\216S\375\342\2636\3449\356\266\326u\271\026\266\226q\250\274\333`D]\310\251dL\323\347\3151\376F\351U\211\274J:\035\352\276\017\344\220A\276\275\230c\253\253k\335\210\244\244\256\023\035\265\321-\355~<\226\226\306\024\253\315M\232Xd\342\242<T\317\345\035\036\374\354\212\240p`\267~\215\313K)C_\245%;\250\255\310\2148e\336\260\276\236\363\023\267\016\357I\022\331\372\257\206\376\025\3357Cxl2i5n\253\307\374-\024\277-\212\004T\226\007\177\303\302I\226\371{9\331.\271\254\006\351{\311^t3\334\373\367\332\207\217z\347\327\243q\355=\273(\240i\375\332\350\264\231\254\360\206\f\316h\r\3522\b\304\274\021#\"\300\327\254\250\220\001\303\220\244?\n\365+\326\253*\260\r\330\322\372\340y\332\306g&y\333e\253\032\216\b\307\2038Y\030\221\270\001pWR?V\241\261\312\270\244\206o^\265&\002L\355&\317\253\t^\375\346\315\264\005[1X\201OTxa\013\306Z^\260\200!\307\261=\256aci\3269\216w\361u\334\240\3518\036\315\031:\274\003L\310q\325m\223\023\311#\307e@\240H\253\004_:\316JIxX\373v\234?(d\r\353b{\344\300\316-K\027\235\224\203O2\275\320\245;\232\035qB\371\035]\304yd\343~\354D\217\312\000e\r\223wet\365\313\036N\317\023\213\231~ _\350\273j\277h\231~\246!\303\330\355?\236\350v\342jE\357\302\277\036\020\352\363N\351\317\305\242\024\233\305\026\253\263\357\022JrX\321\361\241\273\345\354\200;\356J\320\225\227\334\216\256En\212*\037(a\312\251]D\273\275\2232\032\327\t-\365&r\371<\024u\025\352V\234_p&&<YX\347\033\246,iM\222l\203w\f\260/\213o.\341\242\317w\303\340\266Gd\225\017\234\373m\013z\231\213\303U\364\230\344\254^\275\211A\275$G\354?7\232\265\230\337\216W\266,\354\221\354\355X\347\017\305\000\343~\227\262\355\3437g\266g)/\341S\366\300\233^=\337t\356\202\000\322\340y\275l\364\231X![\206\213\021\252\243\200\006Y\330\354\207q\300\256\351\361g\256\225\224\314 Ho\016\350\351\215p\032d\356\001\332\335\334\177\024\215\005\t1\262X\206\220\3764A\210\025\324\237Y\360FK\275\336\356\2474>\202Q\252\032\311\007p\254\030\236l\226\352\321\301\315\342\345\324\260\335\004\306k\317\342\003\2362#\231\300\255\017\205\034\025\206\267F\203\333\204E\377k\2770\231S\246c\232ge\030d\022\346\026\377F\357|\177\350\317~\300`?\217~\313On_\214\025\256O\361\201\235\3608\0173^\276\343Iw\357\232\231\243m\242\305,\007\323\277\365\255\\\034U\253\001\200\f\t\313\366\367\310\307/s\331sc*\026\002\240O\313\375\372\232\335\334\375\347g(~\332M\001\304\021\237\236\270\001\025T\375\341\201\262\035Q\241\0015\326F\306&B\032\251|Z\"\037e\245\tB\302\213\330\367Xi\260\351\215xu3_\007FiYW\347\232\256\203\034d\261\326R\0007\211\227\303/-\241\301\232\244#\275]\214g\300\204k}\264{x\t\362\340F6\226\272\267@\3702c\316PM\353E\227\230\330\303;\251\345P\266\377\373\001\245 f\027\275\276\316\264\212\023\037\345\243\377zB\316\250?]\3547\001\2616l3o\306\337\214\351\200\311G\272\223\204A]DG\000\013\270\027\360#\341\273\331\250\270\345\221t\025Y\300\r\246\035\354l\331*\020\323\346/\333h\2557\230\310\207\222\023\344\307\032\352C\220\373\021\303\230E\276\272)w\030\335y\241\344T\264z\326\363\376\326m)\364\224^T\330\311\035j\341\ffX_\246\344\231\030\035\2734'\236R\342\214\217\177.\367\317]\300^\344\351\001\261E\347\032\260s\037\372\364Cupv]dB\035\027\241!\334\250S\034yJI\006j\272~Ir\256\004\225\211\222hc\027\235\333\207\004i\336\333\016\332E\372\253\266B<]\204\322\251E\003\326\222\222P\327\370\326\262\251E\272\222#\212\013\302\305\233[\222\206[\206\036\024\327hw\254l\2162\267\202\3626h\362\247&\331\fC\225\327\0072\377d#\257D\002\357\321\270\007\350I\275\346D\177\037\037v\355ja5\203\246\tb\234l \026_\347\246\323\250\305\271\002\244\017\214z\303\207\250\3336\241\220\b\0237h\003\315\211\227,\332TII\302dZ\345k\"!\"\200l\275\267\020\252\233\333\362\375\260\336\006k\251*\240\307\254\345\224\224\202\222o=]\226\310\305S5\310\371\027\037\2729#w\313\214\364\273:\267\250B\372\373nS\024\004v*\377\327x\265\204r\251i\234\272Jh\031\205\023\365\376\r\327\342%\317\023\204\303i]\302_fX\262~\321\214[\357\302\030e\364az\331\373?w/\357\0028\231\325y/\277\230\372\330\317\372\017U\373\252\003\206\377JX\373\356\2768\317\203\371S*\272\225\204g\277].\272\252\356\203a\362{tZ\224\335\262\240\227\372\\\264*\225\344\371\356\232\021q\371\224\337\210=9tau\272]\270\252\001V\3157z\027\353\214G\321\271\022\351:\263\n\301U\340b\254\356\022\270\314\"\264\253\221\t`M1k\230{W\252\027\346\177+\241\026\266\013\270\240\375\205~Z\355\224\235\337_vI\234\343\007s\204\276\023\217X\024}\302\353\373\351\255A\216\310\217%\256\330\262nY\034\263\346zd\031\322\261\273\363\256\331\216_\312o\343_\240\231\275\237F\336TX\rH\271{\336%\356;\004\200\326#\354\212j\256\020\232\247\032V\257\351J\005 \314,\247\255\004\332\224\200Q\241+\033\244\235\006(\377\367\020\331B\b]\360\322D\373\220\206\"\004y\377\232\252\207SJt\254\007\026:5(+EW\277A\225\251\350\\\221\227\211\233\210B\362u\026-/\222\372\323\021\332\272\3765a\225i\267\t.|]\233|\204\225\220i~\203\271\372C%\2149\3334\302\233\245\273\364\003^\344g\371\224.\357\007\022\302\262\002\317\365x\302\272\356\340\033\035}\365DK\271\257a\2012\027si*\331bd\3342\026\236\247\033\272\241\376\334\317\003u\217{}\223\277\233\205\221\242(\312>\324\303DRs\332\\x\257\002\3475\313\262\374\247d\372j\023\210\b:\253\255a\260\001\277\357\235\320\375\270E\030\252\212\b\026\031z\034\302\256k\305E='W\236T\255\212[\237\230\243r\232\306\366K\206x\366\342T\2546\231c?\246\207 <\232\335\247\026\264\033jW\204\177<\317\217\251(\313\300\325Q\034\241\242Dme\237\013\303\363\323\362\375\360%\263\261\244\345Jd\237C\347Yx\304\267\236\226\356\037\336\r\237]=\207\024ap\226\265eF\274\352\247U\321\006\265\f\251Yy\f\374\"\377W\353\362\210\325B$\361\247\t\330\313\207\335u\377\026\223/\353\212Sm\355\021\f\316\276\351TS\277\334\267\372\245m\250\310h\026\217\201.$*(\357\323\345\274\207Di}\001n\371\020\235V\032yu\244\217\254\251\225\303\334\201\3117UD\354`\327\222\215\263\027\024{\364S\342\273\205jU'9\215\367p\340\216\354\314xtm\225\223b\225\270C\270\232F\214\262'\000\227\321\310z8\273\272\246TfAX\257\2361\300\374\005{\231\006ji\320\351\277Q.\333\003\037\370\275\343\354\037D\342A\"\362\027\363\374\210\303&v\255\034\350'\325Z\322\252\356\335/<\253t\260\323\330#\342q\212\361\206Uj\325;\013\326IN\204gV-\207\366Vtube\005\307\205\333ae\001\254\370(\264l\321\022\273\276\3068\247R\272\276\001\32763\341\307\205\327in\370\006\321s4\027aF\002\300\354\234\263&\002E[\244\202\220\001]\371\327\002\360'\204`\260B\026rM\243\364A\264\367\215\003\3541\245x\\\323\233\316 \314qR\241uq\004g~\316\2263\310B\002)\377\206\323\204\351\306b\000\017A> \275i\241y\237h\b\346\243x{\300R\321Mh,\304\tX\307\202\212\337\314V\232p\247Ea\20275\f.\371\221\266\013@v`\246\210\313|\261B\241\307\274\2335\244\016\320\223\370\317j\376\333]\223\211\371\253\302CM\022\304\270\366\203\005\376R5\370\353\367V\363Jp\213z3zr\303\336S!{\363Z\026\230\\L.Y\300\030Ot\326\250\351Y\260\361\033\276s\337yo\360\336b\021\f\023dp\034\356\242\355\250+\254EV\313\335\212\347\213>\306\321\324\205\224\2226\027\327+>\225m\341.\3167\006J\247\2717\004\335\314\266\215\372\310\231\272\301\305\207\034\021\350\242\"\n@\222\230\234\035\240\024\231\333\324\261\n\221K\253\f\320\266\276\003%\310Y\177\022J^M\265\035\326\017\204d\256D.:0\037\227\334\265\240\342\322\345\211\322\376\354\352\\$~s\336\251q\244\215G_,\207>\250%t\255]\020V\024\216\r\261\031w\367(N\022/\321\030u\224k\231\361P\335o\252\232\331pk\275\202/\311<\343\377\226R\212\013U\001\020M\306lc{\373\013\334\277<\347\254N\252\001T\340\367G<Z\372\016\323\357\013!\330q\n\2014\354\372\254ex\\\351\343u\247\024\207\rM\241A\2479\030\177\226\263\343\\S\321\331\250P\240\t\022\021H\336\036|\240\0344\250E\020\3232\004F\253\n\355J\223M\344\221 \211+\352\203?\205\027VM\250\035\370`]\266hk\266\344\244\216f\235\253`\022%6\271\364\343B\006\344\035\316\031`Bk|+\327\301\363x\316\351\203\256\322\200\037\370\022\206[\366L\2620\027B\344$Z\007\241'\266\227g\3623\340\336\374\234R\035\2560I\311\261\243}\001\357@\230\026<D\247\244\331|\233\373N\206\356`\225(\037\216\245\212\350\006\b.A\235\342'*\271\272\362\246\361N\255\242\b\212y\221\304\333\261tgi\257\020\256\242X\313\212\354\327\265\365)\357\250\340\241m\312\254e\027\277\326\363\246\221\231\363*\323X\n\t\375\027?\335n\314\260\020\366\277\260\365\007\357LK\374\335\216\224\212\377\334\224\363\357\216\371d\025\020\257\275J\331\234\266\037\n=\370\225\3617\276\032\324\032m\235\017D\244\247LLv\273\355\305m!\211a\310\204\023U\215\321_\337S\352\264\233\344\264\365<\3752,U\370\342\233kt\222\241\302\035\"3\214\274?wj\266\333\202\206\021\267J3\245\352?\257\253\017\025\005\244\222#\350\325\344\016@\247\362\207M\313)-\203\246;\026\261\005\217\022\020Q\357\351 >t\370#\220\312[\035\307\262\026T%k$\251M\221\366,4\275\262\344x\337\216T\367\302\266\211\320\032\032\234@\266\357\216\253\213\261)\265s$\254\204\241 \303\320\243\253r\226\256\036t\242\220-\327\345\311\350\363\304\214V\017<\332\222\210ez|\246/~q\030\373\027\226\211e\210\267\352\376\230\033\220\273\335\215\336\371\235\373\353~\252e\245>\177\"t*U1Vx\205\372\246\036\325_'\207\217\225\210:\325\3365k\223\\(3\2057\361h\363\272*\211\212V\003F\270s\362\177\246\205-C\260iu+-,\204W\246\020\357\037\320s\374)\016b);\234\233\262\366gj\365\023\202\217{\264\221\272\363I\203B_\364\001\305\362\230\242s\232!6\251p\034$\023wqBv/?\313\020\001\252\203\323\214#\355\327\324\r\323S\373\016\376\252@J2\00486\364\006\245\350c\024]\311\236\325\320\334>\005\306C\261H\316\342|Y\264{\306\n\005\224\216\206\267\224\335\332\201\033\334o\241\032\370&\203\034\031\264\362|\312(1\221\351\345\244\020\233\360\243c\037a/\034\375r}\365c\037\316\324\301\354\214<g9;c\274\317\334\362<\247\001J\362\023\330\205\340\003\005\276\325\001\312\027\206\bAn\227\030N\247\330D\206-K\202\274\235\247J\321I\275\236!\321\016\326\347\370\335\242+\205Q\235E\234\354\003\265B\311\345\220\273\312E;\363R\202\253\341\223Cb\223;\037uj=\027\n\260\347b\026\332\270\324:x\ng\022\305\f\235\f\234\241\373\233\020\347\305$\213f\200+\373'\342\207\001E}aj\220\366\355-\200`\366\371\261\332\351A\226\334\371\204\264si9\240\370sx^Qd\322\273S8\246\341\350\341#d{H\013\333\262~cU4\343\007\215b\332,=\232\032\316\221_^\274j\001\334I\260\373\020x\314@\241Av\367uk\305\001S\\\334\235\n\313\177\310\004\351\251\272)c\033\341\263\271\211D\315\275\237\372EcT)\364;b\331 (\254\225@\255Gy\027|\2513\361\312\272\017)2\327]H\314\314\253\216\355I\300\326\276\324\251Y\177\206tZ\377\277V\362h\\p\214\356I\0240\037\250\0211\377o\354.\203s\214/j\\\031\374&\322\253~\377\305S\3751\310\267]\302\331\217]X\203U^\177\267\250|>\272%\3652\320\363t.\244\3535_\345\322\033\316(o\262?\3040\022:\315\263\201[\317c\321\200y\205\317\247z^KD\200\037b2\303\274\005\341\327f\303Q\0316^U\240\247\372\376\363+G\331\215@4\246\237\303\265j\310Q\271\376\360\366\230O\261P\301\217\2074c\205\372\3233\237V\232\277\321n\322\330\271\324\000^\223\234\310\000G\354\200/\206\n\007O\350\t\2015\270\303\372\300X'a\273'\315\310bbL\341B\246\364\234x\227\270\034\3258\200\275}\275\317\314\351\347\230\303V\275\346c\nG\340,\335\254\003@\344!\277t\254l\340\374\314X\030x\024\230\004P]\352\356\310\353C\f\036\2007\017\313\f\337\002RzR\225\272\346T\217%`\005\323\375\317\226\203\346\030\247\272i *\363.\270\306G\375\203|$ \337P\351AT\372W\0353\334L~\322\315\026t\213\322\221R\351\370\255\344?\023\340\035G\201\034Q.G\266\246#w\331\335\017\030X\345\230\241c\345\371\330\343Hv\352\247\352\t\017W\217\377D^/\234g\216\332\023\345Qe\314\322,s?\3265;\203\001\262\321X^\246~\177\007\370O\317K\003\n\344\201\336\202\367\372'\257\257\004\373\221a\017B\206.\021\213c\265\371\361\232\333\305y\3669\223\322'z\325\255\274\"x\256\201R7\030t\b8\307\261\330J\331\265\025\013\r\221\223\"\217H\005\203\034o\307\316\207\"\333MPu8\353\262\232\306\243\343Jy\302\251\353Qa\244\222\006\246_A\270\214\234\235\0273\3243\323\274\246\033\304\307\333(\363\327\201\302\356\237\204\000\bl\220\"\265\271\022\363\357M\"s\352\307\245\000\n\2074k\"h\327\357k\341\352\017\3459\317@f\324\000\203\025\241\346u\343\314\362)/\204\201\320\177\t\301\343ZI`S\034\200o\364:\345\241\304\337K\261\234\261[8h#`\213\261\211^\312\265\327\236\335\003\236rFB,8\356\035,\366\374\321F\203j\302\242\007l\251\033\343\264\222\333\031\236\205\030$\005s\213\t\307\223\342\033bwR\240\305"
	.size	.Lstatic.25, 10688

	.type	.Lstatic.26,@object
	.section	.rodata..Lstatic.26,"a",@progbits
	.p2align	2, 0x0
.Lstatic.26:
	.ascii	"\000\000\200?\000\000 A\000\000\310B\000\000zD\000@\034F\000P\303G\000$tI\200\226\030K \274\276L(knN\371\002\025P"
	.size	.Lstatic.26, 44

	.type	.Lstatic.30,@object
	.section	.rodata..Lstatic.30,"a",@progbits
	.p2align	3, 0x0
.Lstatic.30:
	.ascii	"\000\000\000\000\000\000\360?\000\000\000\000\000\000$@\000\000\000\000\000\000Y@\000\000\000\000\000@\217@\000\000\000\000\000\210\303@\000\000\000\000\000j\370@\000\000\000\000\200\204.A\000\000\000\000\320\022cA\000\000\000\000\204\327\227A\000\000\000\000e\315\315A\000\000\000 _\240\002B\000\000\000\350vH7B\000\000\000\242\224\032mB\000\000@\345\2340\242B\000\000\220\036\304\274\326B\000\0004&\365k\fC\000\200\3407y\303AC\000\240\330\205W4vC\000\310Ngm\301\253C\000=\221`\344X\341C@\214\265x\035\257\025DP\357\342\326\344\032KD\222\325M\006\317\360\200D"
	.size	.Lstatic.30, 184

	.type	.Lstatic.33,@object
	.section	.rodata..Lstatic.33,"a",@progbits
.Lstatic.33:
	.ascii	"$Double"
	.size	.Lstatic.33, 7

	.type	.Lstatic.34,@object
	.section	.rodata..Lstatic.34,"a",@progbits
.Lstatic.34:
	.ascii	"$DecimalValue"
	.size	.Lstatic.34, 13

	.type	.Lstatic.35,@object
	.section	.rodata..Lstatic.35,"a",@progbits
.Lstatic.35:
	.ascii	"e-"
	.size	.Lstatic.35, 2

	.type	.Lstatic.36,@object
	.section	.rodata..Lstatic.36,"a",@progbits
.Lstatic.36:
	.ascii	"$LongString"
	.size	.Lstatic.36, 11

	.type	.Lstatic.37,@object
	.section	.rodata.cst16,"aM",@progbits,16
.Lstatic.37:
	.ascii	"0123456789abcdef"
	.size	.Lstatic.37, 16

	.type	".Lswitch.table.amqp_c::input::Input::read_error",@object
	.section	".rodata..Lswitch.table.amqp_c::input::Input::read_error","a",@progbits
	.p2align	3, 0x0
".Lswitch.table.amqp_c::input::Input::read_error":
	.xword	1
	.xword	5
	.xword	2
	.xword	3
	.xword	4
	.xword	6
	.xword	7
	.size	".Lswitch.table.amqp_c::input::Input::read_error", 56

	.ident	"rattle logic=dac8208d650f15bf3e2dc313a14fa4c783a3acf887bdfab66e1714b038d9e11b"
	.ident	"clang version 22.1.8"
	.section	".note.GNU-stack","",@progbits
