	.file	"rattle"
	.section	".text.amqp_in_place::canonical::are_canonical_values","ax",@progbits
	.p2align	2
	.type	"amqp_in_place::canonical::are_canonical_values",@function
"amqp_in_place::canonical::are_canonical_values":
	stp	x29, x30, [sp, #-48]!
	stp	x22, x21, [sp, #16]
	mov	x29, sp
	stp	x20, x19, [sp, #32]
	cbz	x1, .LBB0_32
	mov	x19, x2
	b	.LBB0_5
.LBB0_2:
	ldrb	w8, [x0, #1]
	cmp	w8, #2
	b.hs	.LBB0_34
.LBB0_3:
	add	x9, x0, #2
	sub	x22, x1, #2
.LBB0_4:
	mov	x1, x22
	mov	x0, x9
	cbz	x22, .LBB0_32
.LBB0_5:
	ldrb	w9, [x0]
	subs	x22, x1, #1
	b.eq	.LBB0_7
	cmp	w9, #116
	b.eq	.LBB0_2
.LBB0_7:
	cmp	w9, #76
	mov	w8, wzr
	b.eq	.LBB0_33
	cmp	w9, #85
	b.eq	.LBB0_33
	sub	w9, w9, #65
	mov	w8, wzr
	cmp	w9, #55
	b.hi	.LBB0_33
	adrp	x10, .LJTI0_0
	add	x10, x10, :lo12:.LJTI0_0
	adr	x11, .LBB0_4
	ldrb	w12, [x10, x9]
	add	x11, x11, x12, lsl #2
	add	x9, x0, #1
	br	x11
.LBB0_11:
	cmp	x22, #8
	b.lo	.LBB0_34
	add	x9, x0, #9
	sub	x22, x1, #9
	b	.LBB0_4
.LBB0_13:
	cmp	x22, #4
	b.lo	.LBB0_34
	add	x9, x0, #5
	sub	x22, x1, #5
	b	.LBB0_4
.LBB0_15:
	cbnz	x22, .LBB0_3
	b	.LBB0_34
.LBB0_16:
	cmp	x22, #2
	b.lo	.LBB0_34
	add	x9, x0, #3
	sub	x22, x1, #3
	b	.LBB0_4
.LBB0_18:
	subs	x8, x1, #5
	b.lo	.LBB0_34
	ldr	w9, [x9]
	rev	w9, w9
	subs	x22, x8, x9
	b.lo	.LBB0_34
	add	x8, x0, x9
	add	x9, x8, #5
	b	.LBB0_4
.LBB0_21:
	subs	x22, x1, #6
	b.lo	.LBB0_34
	add	x9, x0, #6
	b	.LBB0_4
.LBB0_23:
	subs	x8, x1, #5
	b.lo	.LBB0_34
	ldr	w9, [x9]
	rev	w20, w9
	subs	x22, x8, x20
	mov	w8, wzr
	b.lo	.LBB0_33
	cbz	x19, .LBB0_33
	add	x21, x0, #5
	sub	x2, x19, #1
	mov	x1, x20
	mov	x0, x21
	bl	"amqp_in_place::canonical::are_canonical_values"
	cbnz	w0, .LBB0_31
	b	.LBB0_34
.LBB0_27:
	subs	x8, x1, #5
	b.lo	.LBB0_34
	ldr	w9, [x9]
	rev	w20, w9
	subs	x22, x8, x20
	mov	w8, wzr
	b.lo	.LBB0_33
	cbz	x19, .LBB0_33
	add	x21, x0, #5
	sub	x2, x19, #1
	mov	x1, x20
	mov	x0, x21
	bl	"amqp_in_place::canonical::are_canonical_pairs"
	tbz	w0, #0, .LBB0_34
.LBB0_31:
	add	x9, x21, x20
	b	.LBB0_4
.LBB0_32:
	mov	w8, #1
.LBB0_33:
	ldp	x20, x19, [sp, #32]
	mov	w0, w8
	ldp	x22, x21, [sp, #16]
	ldp	x29, x30, [sp], #48
	ret
.LBB0_34:
	mov	w8, wzr
	ldp	x20, x19, [sp, #32]
	mov	w0, w8
	ldp	x22, x21, [sp, #16]
	ldp	x29, x30, [sp], #48
	ret
.Lfunc_end0:
	.size	"amqp_in_place::canonical::are_canonical_values", .Lfunc_end0-"amqp_in_place::canonical::are_canonical_values"
	.section	".rodata.amqp_in_place::canonical::are_canonical_values","a",@progbits
.LJTI0_0:
	.byte	(.LBB0_23-.LBB0_4)>>2
	.byte	(.LBB0_15-.LBB0_4)>>2
	.byte	(.LBB0_33-.LBB0_4)>>2
	.byte	(.LBB0_21-.LBB0_4)>>2
	.byte	(.LBB0_33-.LBB0_4)>>2
	.byte	(.LBB0_27-.LBB0_4)>>2
	.byte	(.LBB0_33-.LBB0_4)>>2
	.byte	(.LBB0_33-.LBB0_4)>>2
	.byte	(.LBB0_13-.LBB0_4)>>2
	.byte	(.LBB0_33-.LBB0_4)>>2
	.byte	(.LBB0_33-.LBB0_4)>>2
	.byte	(.LBB0_11-.LBB0_4)>>2
	.byte	(.LBB0_33-.LBB0_4)>>2
	.byte	(.LBB0_33-.LBB0_4)>>2
	.byte	(.LBB0_33-.LBB0_4)>>2
	.byte	(.LBB0_33-.LBB0_4)>>2
	.byte	(.LBB0_33-.LBB0_4)>>2
	.byte	(.LBB0_33-.LBB0_4)>>2
	.byte	(.LBB0_18-.LBB0_4)>>2
	.byte	(.LBB0_11-.LBB0_4)>>2
	.byte	(.LBB0_16-.LBB0_4)>>2
	.byte	(.LBB0_4-.LBB0_4)>>2
	.byte	(.LBB0_33-.LBB0_4)>>2
	.byte	(.LBB0_33-.LBB0_4)>>2
	.byte	(.LBB0_33-.LBB0_4)>>2
	.byte	(.LBB0_33-.LBB0_4)>>2
	.byte	(.LBB0_33-.LBB0_4)>>2
	.byte	(.LBB0_33-.LBB0_4)>>2
	.byte	(.LBB0_33-.LBB0_4)>>2
	.byte	(.LBB0_33-.LBB0_4)>>2
	.byte	(.LBB0_33-.LBB0_4)>>2
	.byte	(.LBB0_33-.LBB0_4)>>2
	.byte	(.LBB0_33-.LBB0_4)>>2
	.byte	(.LBB0_15-.LBB0_4)>>2
	.byte	(.LBB0_33-.LBB0_4)>>2
	.byte	(.LBB0_11-.LBB0_4)>>2
	.byte	(.LBB0_33-.LBB0_4)>>2
	.byte	(.LBB0_13-.LBB0_4)>>2
	.byte	(.LBB0_33-.LBB0_4)>>2
	.byte	(.LBB0_33-.LBB0_4)>>2
	.byte	(.LBB0_13-.LBB0_4)>>2
	.byte	(.LBB0_33-.LBB0_4)>>2
	.byte	(.LBB0_33-.LBB0_4)>>2
	.byte	(.LBB0_11-.LBB0_4)>>2
	.byte	(.LBB0_33-.LBB0_4)>>2
	.byte	(.LBB0_33-.LBB0_4)>>2
	.byte	(.LBB0_33-.LBB0_4)>>2
	.byte	(.LBB0_33-.LBB0_4)>>2
	.byte	(.LBB0_33-.LBB0_4)>>2
	.byte	(.LBB0_33-.LBB0_4)>>2
	.byte	(.LBB0_16-.LBB0_4)>>2
	.byte	(.LBB0_15-.LBB0_4)>>2
	.byte	(.LBB0_16-.LBB0_4)>>2
	.byte	(.LBB0_33-.LBB0_4)>>2
	.byte	(.LBB0_33-.LBB0_4)>>2
	.byte	(.LBB0_18-.LBB0_4)>>2

	.section	".text.amqp_in_place::canonical::are_canonical_pairs","ax",@progbits
	.p2align	2
	.type	"amqp_in_place::canonical::are_canonical_pairs",@function
"amqp_in_place::canonical::are_canonical_pairs":
	stp	x29, x30, [sp, #-64]!
	stp	x24, x23, [sp, #16]
	mov	x29, sp
	stp	x22, x21, [sp, #32]
	stp	x20, x19, [sp, #48]
	cbz	x1, .LBB1_2
	mov	x19, x2
	mov	x22, x0
	mov	x20, xzr
	mov	x21, xzr
	mov	w0, wzr
	b	.LBB1_6
.LBB1_2:
	mov	w0, #1
.LBB1_3:
	ldp	x20, x19, [sp, #48]
	ldp	x22, x21, [sp, #32]
	ldp	x24, x23, [sp, #16]
	ldp	x29, x30, [sp], #64
	ret
.LBB1_4:
	add	x22, x23, x22
	mov	x1, x24
.LBB1_5:
	mov	w0, #1
	cbz	x1, .LBB1_3
.LBB1_6:
	mov	x2, x21
	mov	x21, x22
	mov	x3, x20
	ldrb	w20, [x21], #1
	sub	x24, x1, #1
	subs	x23, x24, x20
	b.lo	.LBB1_59
	tbz	w0, #0, .LBB1_9
	mov	x0, x2
	mov	x1, x3
	mov	x2, x21
	mov	x3, x20
	bl	"core::cmp::slices::RefSliceOrd::cmp::<#914af4d8504a0b72>"
	tst	w0, #0xff
	b.ne	.LBB1_59
.LBB1_9:
	cmp	w20, #7
	b.hi	.LBB1_25
	cbz	w20, .LBB1_26
	ldrsb	w8, [x22, #1]
	tbnz	w8, #31, .LBB1_48
	cmp	w20, #1
	b.eq	.LBB1_26
	ldrsb	w8, [x22, #2]
	tbnz	w8, #31, .LBB1_48
	cmp	w20, #2
	b.eq	.LBB1_26
	ldrsb	w8, [x22, #3]
	tbnz	w8, #31, .LBB1_48
	cmp	w20, #3
	b.eq	.LBB1_26
	ldrsb	w8, [x22, #4]
	tbnz	w8, #31, .LBB1_48
	cmp	w20, #4
	b.eq	.LBB1_26
	ldrsb	w8, [x22, #5]
	tbnz	w8, #31, .LBB1_48
	cmp	w20, #5
	b.eq	.LBB1_26
	ldrsb	w8, [x22, #6]
	tbnz	w8, #31, .LBB1_48
	cmp	w20, #6
	b.eq	.LBB1_26
	ldrsb	w8, [x22, #7]
	tbnz	w8, #31, .LBB1_48
	cmp	w20, #7
	b.eq	.LBB1_26
	b	.LBB1_48
.LBB1_25:
	mov	x0, x21
	mov	x1, x20
	bl	"amqp_in_place::read::is_ascii_by_words"
	tbz	w0, #0, .LBB1_48
.LBB1_26:
	add	x8, x21, x20
	cbz	x23, .LBB1_32
	cmp	x23, #1
	b.ne	.LBB1_29
	ldrb	w9, [x8]
	b	.LBB1_30
.LBB1_29:
	ldrb	w9, [x8]
	cmp	w9, #116
	b.eq	.LBB1_37
.LBB1_30:
	cmp	w9, #76
	mov	w0, wzr
	b.eq	.LBB1_3
	cmp	w9, #85
	b.eq	.LBB1_3
.LBB1_32:
	cmp	x24, x20
	b.eq	.LBB1_59
.LBB1_33:
	add	x22, x21, x20
	mov	w0, wzr
	ldrb	w9, [x22], #1
	sub	w9, w9, #65
	cmp	w9, #55
	b.hi	.LBB1_3
	adrp	x10, .LJTI1_0
	add	x10, x10, :lo12:.LJTI1_0
	sub	x1, x23, #1
	adr	x11, .LBB1_3
	ldrb	w12, [x10, x9]
	add	x11, x11, x12, lsl #2
	br	x11
.LBB1_35:
	cmp	x1, #8
	b.lo	.LBB1_59
	add	x22, x8, #9
	sub	x1, x23, #9
	b	.LBB1_5
.LBB1_37:
	ldrb	w9, [x8, #1]
	mov	w0, wzr
	cmp	w9, #1
	b.hi	.LBB1_3
	cmp	x24, x20
	b.ne	.LBB1_33
	b	.LBB1_3
.LBB1_39:
	cbz	x1, .LBB1_59
	add	x22, x8, #2
	sub	x1, x23, #2
	b	.LBB1_5
.LBB1_41:
	cmp	x1, #4
	b.lo	.LBB1_59
	add	x22, x8, #5
	sub	x1, x23, #5
	b	.LBB1_5
.LBB1_43:
	cmp	x1, #2
	b.lo	.LBB1_59
	add	x22, x8, #3
	sub	x1, x23, #3
	b	.LBB1_5
.LBB1_45:
	cmp	x1, #4
	b.lo	.LBB1_59
	ldr	w9, [x22]
	sub	x10, x23, #5
	rev	w9, w9
	subs	x1, x10, x9
	b.lo	.LBB1_59
	add	x8, x8, x9
	add	x22, x8, #5
	b	.LBB1_5
.LBB1_48:
	mov	x0, x21
	mov	x1, x20
	bl	"amqp_in_place::read::is_utf8"
	cbnz	w0, .LBB1_26
	b	.LBB1_3
.LBB1_49:
	cmp	x1, #4
	b.lo	.LBB1_59
	ldr	w9, [x22]
	mov	w0, wzr
	rev	w22, w9
	sub	x9, x23, #5
	subs	x24, x9, x22
	b.lo	.LBB1_3
	cbz	x19, .LBB1_3
	add	x23, x8, #5
	sub	x2, x19, #1
	mov	x1, x22
	mov	x0, x23
	bl	"amqp_in_place::canonical::are_canonical_pairs"
	tbnz	w0, #0, .LBB1_4
	b	.LBB1_59
.LBB1_53:
	cmp	x1, #5
	b.lo	.LBB1_59
	add	x22, x8, #6
	sub	x1, x23, #6
	b	.LBB1_5
.LBB1_55:
	cmp	x1, #4
	b.lo	.LBB1_59
	ldr	w9, [x22]
	mov	w0, wzr
	rev	w22, w9
	sub	x9, x23, #5
	subs	x24, x9, x22
	b.lo	.LBB1_3
	cbz	x19, .LBB1_3
	add	x23, x8, #5
	sub	x2, x19, #1
	mov	x1, x22
	mov	x0, x23
	bl	"amqp_in_place::canonical::are_canonical_values"
	cbnz	w0, .LBB1_4
	b	.LBB1_3
.LBB1_59:
	mov	w0, wzr
	ldp	x20, x19, [sp, #48]
	ldp	x22, x21, [sp, #32]
	ldp	x24, x23, [sp, #16]
	ldp	x29, x30, [sp], #64
	ret
.Lfunc_end1:
	.size	"amqp_in_place::canonical::are_canonical_pairs", .Lfunc_end1-"amqp_in_place::canonical::are_canonical_pairs"
	.section	".rodata.amqp_in_place::canonical::are_canonical_pairs","a",@progbits
.LJTI1_0:
	.byte	(.LBB1_55-.LBB1_3)>>2
	.byte	(.LBB1_39-.LBB1_3)>>2
	.byte	(.LBB1_3-.LBB1_3)>>2
	.byte	(.LBB1_53-.LBB1_3)>>2
	.byte	(.LBB1_3-.LBB1_3)>>2
	.byte	(.LBB1_49-.LBB1_3)>>2
	.byte	(.LBB1_3-.LBB1_3)>>2
	.byte	(.LBB1_3-.LBB1_3)>>2
	.byte	(.LBB1_41-.LBB1_3)>>2
	.byte	(.LBB1_3-.LBB1_3)>>2
	.byte	(.LBB1_3-.LBB1_3)>>2
	.byte	(.LBB1_35-.LBB1_3)>>2
	.byte	(.LBB1_3-.LBB1_3)>>2
	.byte	(.LBB1_3-.LBB1_3)>>2
	.byte	(.LBB1_3-.LBB1_3)>>2
	.byte	(.LBB1_3-.LBB1_3)>>2
	.byte	(.LBB1_3-.LBB1_3)>>2
	.byte	(.LBB1_3-.LBB1_3)>>2
	.byte	(.LBB1_45-.LBB1_3)>>2
	.byte	(.LBB1_35-.LBB1_3)>>2
	.byte	(.LBB1_43-.LBB1_3)>>2
	.byte	(.LBB1_5-.LBB1_3)>>2
	.byte	(.LBB1_3-.LBB1_3)>>2
	.byte	(.LBB1_3-.LBB1_3)>>2
	.byte	(.LBB1_3-.LBB1_3)>>2
	.byte	(.LBB1_3-.LBB1_3)>>2
	.byte	(.LBB1_3-.LBB1_3)>>2
	.byte	(.LBB1_3-.LBB1_3)>>2
	.byte	(.LBB1_3-.LBB1_3)>>2
	.byte	(.LBB1_3-.LBB1_3)>>2
	.byte	(.LBB1_3-.LBB1_3)>>2
	.byte	(.LBB1_3-.LBB1_3)>>2
	.byte	(.LBB1_3-.LBB1_3)>>2
	.byte	(.LBB1_39-.LBB1_3)>>2
	.byte	(.LBB1_3-.LBB1_3)>>2
	.byte	(.LBB1_35-.LBB1_3)>>2
	.byte	(.LBB1_3-.LBB1_3)>>2
	.byte	(.LBB1_41-.LBB1_3)>>2
	.byte	(.LBB1_3-.LBB1_3)>>2
	.byte	(.LBB1_3-.LBB1_3)>>2
	.byte	(.LBB1_41-.LBB1_3)>>2
	.byte	(.LBB1_3-.LBB1_3)>>2
	.byte	(.LBB1_3-.LBB1_3)>>2
	.byte	(.LBB1_35-.LBB1_3)>>2
	.byte	(.LBB1_3-.LBB1_3)>>2
	.byte	(.LBB1_3-.LBB1_3)>>2
	.byte	(.LBB1_3-.LBB1_3)>>2
	.byte	(.LBB1_3-.LBB1_3)>>2
	.byte	(.LBB1_3-.LBB1_3)>>2
	.byte	(.LBB1_3-.LBB1_3)>>2
	.byte	(.LBB1_43-.LBB1_3)>>2
	.byte	(.LBB1_39-.LBB1_3)>>2
	.byte	(.LBB1_43-.LBB1_3)>>2
	.byte	(.LBB1_3-.LBB1_3)>>2
	.byte	(.LBB1_3-.LBB1_3)>>2
	.byte	(.LBB1_45-.LBB1_3)>>2

	.section	".text.core::cmp::slices::RefSliceOrd::cmp::<#914af4d8504a0b72>","ax",@progbits
	.p2align	2
	.type	"core::cmp::slices::RefSliceOrd::cmp::<#914af4d8504a0b72>",@function
"core::cmp::slices::RefSliceOrd::cmp::<#914af4d8504a0b72>":
	cmp	x3, x1
	csel	x8, x3, x1, lo
	cmp	x8, #64
	b.hs	.LBB2_2
	mov	x9, xzr
	b	.LBB2_6
.LBB2_2:
	mov	x9, xzr
	mov	x10, x8
.LBB2_3:
	add	x11, x0, x9
	add	x12, x2, x9
	ldp	q0, q3, [x12]
	ldp	q1, q2, [x11]
	ldp	q4, q5, [x12, #32]
	cmeq	v0.16b, v1.16b, v0.16b
	cmeq	v1.16b, v2.16b, v3.16b
	ldp	q2, q3, [x11, #32]
	mvn	v0.16b, v0.16b
	mvn	v1.16b, v1.16b
	cmeq	v2.16b, v2.16b, v4.16b
	cmeq	v3.16b, v3.16b, v5.16b
	orn	v0.16b, v0.16b, v2.16b
	orn	v1.16b, v1.16b, v3.16b
	orr	v0.16b, v1.16b, v0.16b
	umaxv	b0, v0.16b
	fmov	w11, s0
	tbnz	w11, #0, .LBB2_6
	sub	x10, x10, #64
	add	x9, x9, #64
	cmp	x10, #63
	b.hi	.LBB2_3
	and	x9, x8, #0xffffffffffffffc0
.LBB2_6:
	sub	x10, x8, x9
	cmp	x10, #8
	b.lo	.LBB2_9
.LBB2_7:
	ldr	x11, [x0, x9]
	ldr	x12, [x2, x9]
	cmp	x11, x12
	b.ne	.LBB2_9
	sub	x10, x10, #8
	add	x9, x9, #8
	cmp	x10, #7
	b.hi	.LBB2_7
.LBB2_9:
	subs	x8, x8, x9
	b.ls	.LBB2_13
	add	x10, x2, x9
	add	x9, x0, x9
.LBB2_11:
	ldrb	w11, [x9], #1
	ldrb	w12, [x10], #1
	cmp	w11, w12
	b.ne	.LBB2_14
	subs	x8, x8, #1
	b.ne	.LBB2_11
.LBB2_13:
	cmp	x1, x3
	mov	w8, #2
	csel	w8, wzr, w8, lo
	csinc	w0, w8, wzr, ne
	ret
.LBB2_14:
	mov	w8, #2
	csel	w0, wzr, w8, lo
	ret
.Lfunc_end2:
	.size	"core::cmp::slices::RefSliceOrd::cmp::<#914af4d8504a0b72>", .Lfunc_end2-"core::cmp::slices::RefSliceOrd::cmp::<#914af4d8504a0b72>"

	.section	".text.amqp_in_place::read::is_ascii_by_words","ax",@progbits
	.p2align	2
	.type	"amqp_in_place::read::is_ascii_by_words",@function
"amqp_in_place::read::is_ascii_by_words":
	sub	sp, sp, #32
	cmp	x1, #64
	stp	x29, x30, [sp, #16]
	add	x29, sp, #16
	stp	x0, x1, [sp]
	b.hi	.LBB3_3
	cmp	x1, #32
	b.lo	.LBB3_4
	add	x8, x0, x1
	ldp	q0, q1, [x0]
	ldp	q2, q3, [x8, #-32]
	orr	v1.16b, v1.16b, v3.16b
	orr	v0.16b, v0.16b, v2.16b
	orr	v0.16b, v0.16b, v1.16b
	ext	v1.16b, v0.16b, v0.16b, #8
	orr	v0.8b, v0.8b, v1.8b
	fmov	x8, d0
	tst	x8, #0x8080808080808080
	b.eq	.LBB3_5
.LBB3_3:
	mov	x0, sp
	bl	"core::slice::words::any_by_first::<#52f9edcae2f82f51>"
	eor	w0, w0, #0x1
	ldp	x29, x30, [sp, #16]
	add	sp, sp, #32
	ret
.LBB3_4:
	sub	x8, x1, #8
	mov	w9, #8
	mov	w10, #16
	cmp	x8, #8
	ldr	x11, [x0]
	csel	x9, x8, x9, lo
	cmp	x8, #16
	csel	x10, x8, x10, lo
	ldr	x9, [x0, x9]
	ldr	x8, [x0, x8]
	ldr	x10, [x0, x10]
	orr	x9, x9, x11
	orr	x8, x10, x8
	orr	x8, x9, x8
	tst	x8, #0x8080808080808080
	b.ne	.LBB3_3
.LBB3_5:
	mov	w0, #1
	ldp	x29, x30, [sp, #16]
	add	sp, sp, #32
	ret
.Lfunc_end3:
	.size	"amqp_in_place::read::is_ascii_by_words", .Lfunc_end3-"amqp_in_place::read::is_ascii_by_words"

	.section	".text.core::slice::words::any_by_first::<#52f9edcae2f82f51>","ax",@progbits
	.p2align	2
	.type	"core::slice::words::any_by_first::<#52f9edcae2f82f51>",@function
"core::slice::words::any_by_first::<#52f9edcae2f82f51>":
	stp	x29, x30, [sp, #-32]!
	str	x19, [sp, #16]
	mov	x19, x1
	mov	x1, xzr
	mov	x2, x19
	mov	x29, sp
	bl	"core::slice::words::first::<#52f9edcae2f82f51>"
	cmp	x0, x19
	ldr	x19, [sp, #16]
	cset	w0, lo
	ldp	x29, x30, [sp], #32
	ret
.Lfunc_end4:
	.size	"core::slice::words::any_by_first::<#52f9edcae2f82f51>", .Lfunc_end4-"core::slice::words::any_by_first::<#52f9edcae2f82f51>"

	.section	".text.core::slice::words::first::<#52f9edcae2f82f51>","ax",@progbits
	.p2align	2
	.type	"core::slice::words::first::<#52f9edcae2f82f51>",@function
"core::slice::words::first::<#52f9edcae2f82f51>":
	stp	x29, x30, [sp, #-48]!
	sub	x8, x2, x1
	stp	x20, x19, [sp, #32]
	mov	x19, x2
	cmp	x8, #8
	mov	x20, x0
	str	x21, [sp, #16]
	mov	x29, sp
	b.hs	.LBB5_7
	cmp	x19, x1
	b.ls	.LBB5_15
	ldr	x8, [x20]
.LBB5_3:
	ldrsb	w9, [x8, x1]
	tbnz	w9, #31, .LBB5_16
	add	x1, x1, #1
	cmp	x19, x1
	b.ne	.LBB5_3
	mov	x0, x19
.LBB5_6:
	ldp	x20, x19, [sp, #32]
	ldr	x21, [sp, #16]
	ldp	x29, x30, [sp], #48
	ret
.LBB5_7:
	ldr	x21, [x20]
	mov	w9, #8
	ldr	x8, [x21, x1]
	ands	x8, x8, #0x8080808080808080
	rbit	x8, x8
	clz	x8, x8
	lsr	x8, x8, #3
	csel	x8, x9, x8, eq
	add	x0, x8, x1
	add	x8, x1, #8
	cmp	x0, x8
	b.lo	.LBB5_6
	sub	x8, x19, x0
	cmp	x8, #32
	b.lo	.LBB5_11
.LBB5_9:
	add	x8, x21, x0
	ldp	q1, q0, [x8]
	orr	v0.16b, v1.16b, v0.16b
	ext	v1.16b, v0.16b, v0.16b, #8
	orr	v0.8b, v0.8b, v1.8b
	fmov	x8, d0
	tst	x8, #0x8080808080808080
	b.ne	.LBB5_11
	add	x1, x0, #32
	mov	x0, x20
	mov	x2, x19
	bl	"core::slice::words::skip_far::<#52f9edcae2f82f51>"
	sub	x8, x19, x0
	cmp	x8, #31
	b.hi	.LBB5_9
.LBB5_11:
	sub	x8, x19, x0
.LBB5_12:
	cmp	x8, #9
	b.lo	.LBB5_17
	ldr	x9, [x21, x0]
	mov	w10, #8
	add	x0, x0, #8
	sub	x8, x8, #8
	ands	x9, x9, #0x8080808080808080
	rbit	x9, x9
	clz	x9, x9
	lsr	x9, x9, #3
	csel	x9, x10, x9, eq
	add	x9, x9, x0
	sub	x9, x9, #8
	cmp	x9, x0
	b.hs	.LBB5_12
	mov	x0, x9
	ldp	x20, x19, [sp, #32]
	ldr	x21, [sp, #16]
	ldp	x29, x30, [sp], #48
	ret
.LBB5_15:
	mov	x0, x19
	ldp	x20, x19, [sp, #32]
	ldr	x21, [sp, #16]
	ldp	x29, x30, [sp], #48
	ret
.LBB5_16:
	mov	x0, x1
	ldp	x20, x19, [sp, #32]
	ldr	x21, [sp, #16]
	ldp	x29, x30, [sp], #48
	ret
.LBB5_17:
	sub	x8, x19, #8
	mov	w10, #8
	ldr	x9, [x21, x8]
	ands	x9, x9, #0x8080808080808080
	rbit	x9, x9
	clz	x9, x9
	lsr	x9, x9, #3
	csel	x9, x10, x9, eq
	add	x0, x9, x8
	ldp	x20, x19, [sp, #32]
	ldr	x21, [sp, #16]
	ldp	x29, x30, [sp], #48
	ret
.Lfunc_end5:
	.size	"core::slice::words::first::<#52f9edcae2f82f51>", .Lfunc_end5-"core::slice::words::first::<#52f9edcae2f82f51>"

	.section	".text.core::slice::words::skip_far::<#52f9edcae2f82f51>","ax",@progbits
	.p2align	2
	.type	"core::slice::words::skip_far::<#52f9edcae2f82f51>",@function
"core::slice::words::skip_far::<#52f9edcae2f82f51>":
	sub	x8, x2, x1
	cmp	x8, #64
	b.lo	.LBB6_4
	ldr	x9, [x0]
.LBB6_2:
	add	x10, x9, x1
	ldp	q0, q1, [x10, #32]
	ldp	q2, q3, [x10]
	orr	v1.16b, v3.16b, v1.16b
	orr	v0.16b, v2.16b, v0.16b
	orr	v0.16b, v0.16b, v1.16b
	ext	v1.16b, v0.16b, v0.16b, #8
	orr	v0.8b, v0.8b, v1.8b
	fmov	x10, d0
	tst	x10, #0x8080808080808080
	b.ne	.LBB6_4
	sub	x8, x8, #64
	add	x1, x1, #64
	cmp	x8, #63
	b.hi	.LBB6_2
.LBB6_4:
	mov	x0, x1
	ret
.Lfunc_end6:
	.size	"core::slice::words::skip_far::<#52f9edcae2f82f51>", .Lfunc_end6-"core::slice::words::skip_far::<#52f9edcae2f82f51>"

	.section	.rodata.cst16,"aM",@progbits,16
	.p2align	4, 0x0
.LCPI7_0:
	.byte	1
	.byte	2
	.byte	4
	.byte	8
	.byte	16
	.byte	32
	.byte	64
	.byte	128
	.byte	1
	.byte	2
	.byte	4
	.byte	8
	.byte	16
	.byte	32
	.byte	64
	.byte	128
.LCPI7_1:
	.byte	255
	.byte	255
	.byte	255
	.byte	255
	.byte	255
	.byte	255
	.byte	255
	.byte	255
	.byte	255
	.byte	255
	.byte	255
	.byte	255
	.byte	255
	.byte	239
	.byte	223
	.byte	191
	.section	".text.unlikely.amqp_in_place::read::is_utf8","ax",@progbits
	.p2align	2
	.type	"amqp_in_place::read::is_utf8",@function
"amqp_in_place::read::is_utf8":
	stp	d15, d14, [sp, #-112]!
	sub	x9, sp, #272
	stp	d13, d12, [sp, #16]
	stp	d11, d10, [sp, #32]
	stp	d9, d8, [sp, #48]
	stp	x29, x30, [sp, #64]
	add	x29, sp, #64
	stp	x28, x21, [sp, #80]
	stp	x20, x19, [sp, #96]
	and	sp, x9, #0xffffffffffffffc0
	movi	v6.2d, #0000000000000000
	mov	x2, x1
	cmp	x1, #64
	adrp	x20, .LCPI7_0
	adrp	x19, .LCPI7_1
	b.lo	.LBB7_4
	mov	x8, xzr
	and	x11, x2, #0xffffffffffffffc0
	mov	x9, x0
.LBB7_2:
	ldp	q2, q3, [x9]
	ldr	q1, [x20, :lo12:.LCPI7_0]
	ldp	q4, q5, [x9, #32]
	cmlt	v2.16b, v2.16b, #0
	cmlt	v3.16b, v3.16b, #0
	cmlt	v5.16b, v5.16b, #0
	cmlt	v4.16b, v4.16b, #0
	and	v2.16b, v2.16b, v1.16b
	and	v3.16b, v3.16b, v1.16b
	and	v4.16b, v4.16b, v1.16b
	and	v5.16b, v5.16b, v1.16b
	addp	v2.16b, v2.16b, v3.16b
	addp	v3.16b, v4.16b, v5.16b
	addp	v2.16b, v2.16b, v3.16b
	addp	v2.16b, v2.16b, v2.16b
	fmov	x10, d2
	cbnz	x10, .LBB7_6
	sub	x2, x2, #64
	add	x8, x8, #64
	add	x9, x9, #64
	cmp	x2, #63
	b.hi	.LBB7_2
	b	.LBB7_5
.LBB7_4:
	mov	x11, xzr
.LBB7_5:
	movi	v0.2d, #0000000000000000
	mov	x9, xzr
	stp	q0, q0, [sp, #48]
	stp	q0, q0, [sp, #80]
	stp	q0, q0, [sp, #112]
	stp	q0, q0, [sp, #144]
	str	q0, [sp, #176]
	b	.LBB7_12
.LBB7_6:
	movi	v2.2d, #0000000000000000
	movi	v24.2d, #0000000000000000
	mov	x10, x2
	movi	v25.2d, #0000000000000000
	movi	v22.2d, #0000000000000000
	movi	v26.2d, #0000000000000000
	movi	v0.2d, #0000000000000000
	movi	v18.2d, #0000000000000000
	movi	v19.2d, #0000000000000000
	movi	v20.2d, #0000000000000000
	b	.LBB7_9
.LBB7_7:
	movi	v7.16b, #192
	stp	q20, q19, [sp, #112]
	ext	v20.16b, v27.16b, v4.16b, #15
	ext	v17.16b, v4.16b, v23.16b, #15
	ext	v21.16b, v28.16b, v27.16b, #15
	stp	q18, q0, [sp, #144]
	movi	v3.16b, #128
	movi	v16.16b, #191
	str	q23, [sp, #176]
	ext	v22.16b, v2.16b, v28.16b, #15
	movi	v6.16b, #240
	cmgt	v19.16b, v7.16b, v23.16b
	cmgt	v31.16b, v7.16b, v27.16b
	str	q2, [sp, #96]
	cmgt	v18.16b, v7.16b, v28.16b
	cmgt	v26.16b, v7.16b, v4.16b
	cmgt	v29.16b, v7.16b, v17.16b
	cmhi	v9.16b, v21.16b, v16.16b
	cmhi	v10.16b, v20.16b, v16.16b
	cmhi	v12.16b, v17.16b, v16.16b
	and	v24.16b, v19.16b, v3.16b
	cmgt	v8.16b, v7.16b, v21.16b
	and	v13.16b, v31.16b, v3.16b
	movi	v14.16b, #224
	cmgt	v30.16b, v7.16b, v20.16b
	and	v23.16b, v18.16b, v3.16b
	and	v11.16b, v26.16b, v3.16b
	cmhi	v16.16b, v22.16b, v16.16b
	eor	v10.16b, v26.16b, v10.16b
	and	v3.16b, v24.16b, v29.16b
	eor	v31.16b, v31.16b, v9.16b
	eor	v19.16b, v19.16b, v12.16b
	and	v26.16b, v13.16b, v8.16b
	movi	v9.16b, #160
	movi	v13.16b, #144
	and	v24.16b, v11.16b, v30.16b
	eor	v11.16b, v18.16b, v16.16b
	cmeq	v12.16b, v22.16b, v14.16b
	str	q3, [sp, #64]
	uqsub	v3.16b, v31.16b, v8.16b
	uqsub	v18.16b, v10.16b, v30.16b
	cmeq	v30.16b, v22.16b, v6.16b
	uqsub	v19.16b, v19.16b, v29.16b
	cmeq	v29.16b, v17.16b, v14.16b
	cmeq	v31.16b, v17.16b, v6.16b
	movi	v0.16b, #237
	cmgt	v2.16b, v7.16b, v22.16b
	cmeq	v10.16b, v20.16b, v14.16b
	cmeq	v14.16b, v21.16b, v14.16b
	and	v12.16b, v12.16b, v9.16b
	str	q3, [sp, #80]
	cmeq	v15.16b, v21.16b, v6.16b
	and	v30.16b, v30.16b, v13.16b
	and	v29.16b, v29.16b, v9.16b
	and	v31.16b, v31.16b, v13.16b
	movi	v8.16b, #244
	uqsub	v16.16b, v11.16b, v2.16b
	and	v11.16b, v14.16b, v9.16b
	and	v9.16b, v10.16b, v9.16b
	cmeq	v10.16b, v20.16b, v6.16b
	and	v14.16b, v15.16b, v13.16b
	orr	v30.16b, v12.16b, v30.16b
	orr	v29.16b, v29.16b, v31.16b
	cmeq	v31.16b, v22.16b, v0.16b
	cmeq	v12.16b, v17.16b, v0.16b
	cmeq	v15.16b, v20.16b, v0.16b
	cmeq	v0.16b, v21.16b, v0.16b
	cmeq	v5.16b, v22.16b, v8.16b
	and	v10.16b, v10.16b, v13.16b
	cmeq	v25.16b, v17.16b, v8.16b
	and	v23.16b, v23.16b, v2.16b
	orn	v31.16b, v13.16b, v31.16b
	orn	v12.16b, v13.16b, v12.16b
	cmeq	v2.16b, v20.16b, v8.16b
	orn	v15.16b, v13.16b, v15.16b
	orn	v0.16b, v13.16b, v0.16b
	movi	v13.16b, #128
	cmeq	v3.16b, v21.16b, v8.16b
	orr	v9.16b, v9.16b, v10.16b
	ldr	q10, [sp, #176]
	orr	v11.16b, v11.16b, v14.16b
	movi	v14.16b, #1
	and	v10.16b, v10.16b, v6.16b
	orn	v5.16b, v13.16b, v5.16b
	orn	v25.16b, v13.16b, v25.16b
	orn	v2.16b, v13.16b, v2.16b
	orn	v3.16b, v13.16b, v3.16b
	movi	v13.16b, #254
	and	v5.16b, v31.16b, v5.16b
	and	v31.16b, v28.16b, v6.16b
	and	v25.16b, v12.16b, v25.16b
	and	v3.16b, v0.16b, v3.16b
	uqsub	v0.16b, v29.16b, v10.16b
	and	v2.16b, v15.16b, v2.16b
	uqsub	v15.16b, v20.16b, v8.16b
	and	v12.16b, v4.16b, v6.16b
	and	v6.16b, v27.16b, v6.16b
	uqsub	v29.16b, v30.16b, v31.16b
	uqsub	v31.16b, v31.16b, v5.16b
	and	v5.16b, v22.16b, v13.16b
	uqsub	v30.16b, v10.16b, v25.16b
	and	v25.16b, v20.16b, v13.16b
	and	v10.16b, v21.16b, v13.16b
	uqsub	v22.16b, v22.16b, v8.16b
	and	v13.16b, v17.16b, v13.16b
	uqsub	v21.16b, v21.16b, v8.16b
	cmeq	v5.16b, v5.16b, v7.16b
	uqsub	v8.16b, v17.16b, v8.16b
	uqsub	v20.16b, v11.16b, v6.16b
	cmeq	v10.16b, v10.16b, v7.16b
	cmeq	v25.16b, v25.16b, v7.16b
	uqsub	v17.16b, v12.16b, v2.16b
	cmeq	v13.16b, v13.16b, v7.16b
	uqsub	v3.16b, v6.16b, v3.16b
	orr	v24.16b, v15.16b, v24.16b
	ldr	q15, [sp, #176]
	and	v2.16b, v5.16b, v14.16b
	orr	v5.16b, v22.16b, v23.16b
	and	v6.16b, v10.16b, v14.16b
	ldr	q10, [sp, #176]
	and	v22.16b, v25.16b, v14.16b
	ldr	q25, [sp, #64]
	uqsub	v7.16b, v9.16b, v12.16b
	ldr	q12, [sp, #96]
	orr	v21.16b, v21.16b, v26.16b
	movi	v26.16b, #96
	movi	v9.16b, #112
	orr	v25.16b, v8.16b, v25.16b
	ext	v8.16b, v28.16b, v27.16b, #13
	ext	v10.16b, v4.16b, v10.16b, #14
	ext	v15.16b, v4.16b, v15.16b, #13
	and	v23.16b, v13.16b, v14.16b
	orr	v2.16b, v5.16b, v2.16b
	ext	v5.16b, v28.16b, v27.16b, #14
	ext	v11.16b, v12.16b, v28.16b, #14
	ext	v12.16b, v12.16b, v28.16b, #13
	ext	v13.16b, v27.16b, v4.16b, #14
	ext	v14.16b, v27.16b, v4.16b, #13
	orr	v6.16b, v21.16b, v6.16b
	orr	v21.16b, v24.16b, v22.16b
	orr	v2.16b, v2.16b, v16.16b
	uqsub	v16.16b, v8.16b, v9.16b
	uqsub	v24.16b, v10.16b, v26.16b
	uqsub	v8.16b, v15.16b, v9.16b
	orr	v22.16b, v25.16b, v23.16b
	uqsub	v5.16b, v5.16b, v26.16b
	uqsub	v23.16b, v11.16b, v26.16b
	uqsub	v25.16b, v12.16b, v9.16b
	uqsub	v26.16b, v13.16b, v26.16b
	uqsub	v9.16b, v14.16b, v9.16b
	orr	v18.16b, v21.16b, v18.16b
	ldr	q21, [sp, #80]
	orr	v3.16b, v3.16b, v20.16b
	orr	v19.16b, v22.16b, v19.16b
	orr	v20.16b, v24.16b, v8.16b
	movi	v24.16b, #128
	orr	v0.16b, v30.16b, v0.16b
	orr	v6.16b, v6.16b, v21.16b
	orr	v21.16b, v31.16b, v29.16b
	orr	v5.16b, v5.16b, v16.16b
	orr	v7.16b, v17.16b, v7.16b
	orr	v16.16b, v23.16b, v25.16b
	ldr	q23, [sp, #176]
	orr	v17.16b, v26.16b, v9.16b
	movi	v22.2d, #0xffffffffffffffff
	orr	v0.16b, v19.16b, v0.16b
	orr	v21.16b, v2.16b, v21.16b
	orr	v2.16b, v6.16b, v3.16b
	and	v3.16b, v5.16b, v24.16b
	orr	v6.16b, v18.16b, v7.16b
	ldr	q18, [x19, :lo12:.LCPI7_1]
	and	v7.16b, v16.16b, v24.16b
	and	v16.16b, v20.16b, v24.16b
	ldp	q20, q19, [sp, #112]
	and	v17.16b, v17.16b, v24.16b
	uqsub	v24.16b, v28.16b, v22.16b
	uqsub	v25.16b, v27.16b, v22.16b
	uqsub	v22.16b, v4.16b, v22.16b
	uqsub	v26.16b, v23.16b, v18.16b
	eor	v5.16b, v2.16b, v3.16b
	eor	v3.16b, v0.16b, v16.16b
	ldp	q18, q0, [sp, #144]
	eor	v2.16b, v6.16b, v17.16b
	eor	v4.16b, v21.16b, v7.16b
.LBB7_8:
	orr	v0.16b, v4.16b, v0.16b
	orr	v18.16b, v5.16b, v18.16b
	sub	x10, x10, #64
	orr	v19.16b, v2.16b, v19.16b
	orr	v20.16b, v3.16b, v20.16b
	cmp	x10, #63
	mov	v2.16b, v23.16b
	add	x9, x9, #64
	b.ls	.LBB7_11
.LBB7_9:
	ldp	q28, q27, [x9]
	ldp	q4, q23, [x9, #32]
	cmlt	v6.16b, v28.16b, #0
	cmlt	v17.16b, v27.16b, #0
	cmlt	v7.16b, v23.16b, #0
	cmlt	v16.16b, v4.16b, #0
	and	v6.16b, v6.16b, v1.16b
	and	v17.16b, v17.16b, v1.16b
	and	v16.16b, v16.16b, v1.16b
	and	v7.16b, v7.16b, v1.16b
	addp	v6.16b, v6.16b, v17.16b
	addp	v7.16b, v16.16b, v7.16b
	addp	v6.16b, v6.16b, v7.16b
	addp	v6.16b, v6.16b, v6.16b
	fmov	x11, d6
	cbnz	x11, .LBB7_7
	mov	v4.16b, v24.16b
	mov	v5.16b, v25.16b
	mov	v2.16b, v22.16b
	mov	v3.16b, v26.16b
	movi	v24.2d, #0000000000000000
	movi	v25.2d, #0000000000000000
	movi	v22.2d, #0000000000000000
	movi	v26.2d, #0000000000000000
	b	.LBB7_8
.LBB7_11:
	movi	v6.2d, #0000000000000000
	and	x9, x2, #0xffffffffffffffc0
	mov	x11, x8
	mov	x2, x10
	stp	q26, q22, [sp, #48]
	stp	q25, q24, [sp, #80]
	stp	q20, q19, [sp, #112]
	stp	q0, q23, [sp, #160]
	str	q18, [sp, #144]
.LBB7_12:
	add	x8, x0, x11
	add	x0, sp, #192
	stp	q6, q6, [sp, #192]
	add	x1, x8, x9
	stp	q6, q6, [sp, #224]
	add	x21, sp, #192
	bl	memcpy
	ldr	d2, [sp, #240]
	orr	x8, x21, #0x38
	ldr	q5, [sp, #224]
	ldp	q3, q4, [sp, #192]
	ldr	q0, [x20, :lo12:.LCPI7_0]
	ld1	{ v2.b }[8], [x8]
	mov	w8, #57
	cmlt	v18.16b, v5.16b, #0
	orr	x8, x21, x8
	cmlt	v16.16b, v3.16b, #0
	cmlt	v19.16b, v4.16b, #0
	ld1	{ v2.b }[9], [x8]
	mov	w8, #58
	and	v18.16b, v18.16b, v0.16b
	orr	x8, x21, x8
	and	v16.16b, v16.16b, v0.16b
	and	v19.16b, v19.16b, v0.16b
	ld1	{ v2.b }[10], [x8]
	mov	w8, #59
	orr	x8, x21, x8
	addp	v16.16b, v16.16b, v19.16b
	ld1	{ v2.b }[11], [x8]
	orr	x8, x21, #0x3c
	ld1	{ v2.b }[12], [x8]
	mov	w8, #61
	orr	x8, x21, x8
	mov	v6.16b, v2.16b
	ld1	{ v6.b }[13], [x8]
	orr	x8, x21, #0x3e
	mov	v7.16b, v6.16b
	ld1	{ v7.b }[14], [x8]
	orr	x8, x21, #0x3f
	mov	v1.16b, v7.16b
	ld1	{ v1.b }[15], [x8]
	cmlt	v17.16b, v1.16b, #0
	and	v17.16b, v17.16b, v0.16b
	addp	v17.16b, v18.16b, v17.16b
	addp	v16.16b, v16.16b, v17.16b
	ldp	q19, q17, [sp, #48]
	addp	v16.16b, v16.16b, v16.16b
	fmov	x8, d16
	ldp	q18, q16, [sp, #80]
	cbz	x8, .LBB7_14
	ext	v24.16b, v5.16b, v7.16b, #15
	movi	v7.16b, #192
	ldr	q16, [sp, #176]
	ext	v26.16b, v3.16b, v4.16b, #15
	movi	v17.16b, #191
	str	q6, [sp, #96]
	ext	v21.16b, v16.16b, v3.16b, #15
	movi	v16.16b, #128
	stp	q1, q0, [sp]
	ext	v20.16b, v4.16b, v5.16b, #15
	movi	v15.16b, #224
	mov	v0.16b, v5.16b
	cmgt	v23.16b, v7.16b, v1.16b
	cmgt	v6.16b, v7.16b, v24.16b
	cmgt	v27.16b, v7.16b, v3.16b
	cmgt	v28.16b, v7.16b, v5.16b
	cmhi	v29.16b, v26.16b, v17.16b
	cmgt	v31.16b, v7.16b, v4.16b
	cmgt	v8.16b, v7.16b, v26.16b
	cmhi	v9.16b, v21.16b, v17.16b
	cmgt	v19.16b, v7.16b, v21.16b
	and	v10.16b, v23.16b, v16.16b
	and	v11.16b, v27.16b, v16.16b
	cmhi	v30.16b, v20.16b, v17.16b
	and	v12.16b, v28.16b, v16.16b
	and	v13.16b, v31.16b, v16.16b
	eor	v31.16b, v31.16b, v29.16b
	cmhi	v17.16b, v24.16b, v17.16b
	cmgt	v18.16b, v7.16b, v20.16b
	eor	v9.16b, v27.16b, v9.16b
	and	v16.16b, v6.16b, v10.16b
	eor	v30.16b, v28.16b, v30.16b
	and	v27.16b, v19.16b, v11.16b
	and	v29.16b, v8.16b, v13.16b
	cmeq	v10.16b, v24.16b, v15.16b
	cmeq	v11.16b, v21.16b, v15.16b
	eor	v14.16b, v23.16b, v17.16b
	and	v28.16b, v18.16b, v12.16b
	mov	v7.16b, v1.16b
	str	q16, [sp, #32]
	uqsub	v16.16b, v31.16b, v8.16b
	movi	v31.16b, #160
	cmeq	v8.16b, v26.16b, v15.16b
	mov	v17.16b, v3.16b
	ext	v2.16b, v0.16b, v2.16b, #13
	uqsub	v23.16b, v14.16b, v6.16b
	movi	v6.16b, #240
	str	q16, [sp, #80]
	uqsub	v16.16b, v30.16b, v18.16b
	cmeq	v30.16b, v20.16b, v15.16b
	movi	v15.16b, #237
	and	v8.16b, v8.16b, v31.16b
	and	v11.16b, v11.16b, v31.16b
	cmeq	v12.16b, v26.16b, v6.16b
	cmeq	v14.16b, v20.16b, v6.16b
	cmeq	v13.16b, v21.16b, v6.16b
	and	v18.16b, v30.16b, v31.16b
	movi	v30.16b, #244
	and	v31.16b, v10.16b, v31.16b
	str	q16, [sp, #64]
	uqsub	v16.16b, v9.16b, v19.16b
	movi	v9.16b, #144
	movi	v19.16b, #240
	cmeq	v6.16b, v24.16b, v15.16b
	cmeq	v25.16b, v21.16b, v15.16b
	cmeq	v1.16b, v20.16b, v15.16b
	cmeq	v15.16b, v26.16b, v15.16b
	cmeq	v3.16b, v24.16b, v30.16b
	cmeq	v22.16b, v21.16b, v30.16b
	cmeq	v5.16b, v26.16b, v30.16b
	str	q16, [sp, #48]
	and	v10.16b, v12.16b, v9.16b
	and	v12.16b, v14.16b, v9.16b
	cmeq	v14.16b, v24.16b, v19.16b
	and	v13.16b, v13.16b, v9.16b
	orn	v6.16b, v9.16b, v6.16b
	orn	v25.16b, v9.16b, v25.16b
	orn	v1.16b, v9.16b, v1.16b
	mov	v16.16b, v4.16b
	cmeq	v4.16b, v20.16b, v30.16b
	orr	v18.16b, v18.16b, v12.16b
	orr	v10.16b, v8.16b, v10.16b
	and	v14.16b, v14.16b, v9.16b
	orn	v9.16b, v9.16b, v15.16b
	movi	v15.16b, #128
	orr	v11.16b, v11.16b, v13.16b
	and	v13.16b, v7.16b, v19.16b
	movi	v7.16b, #192
	orr	v31.16b, v31.16b, v14.16b
	movi	v14.16b, #1
	orn	v3.16b, v15.16b, v3.16b
	orn	v22.16b, v15.16b, v22.16b
	orn	v4.16b, v15.16b, v4.16b
	orn	v5.16b, v15.16b, v5.16b
	movi	v15.16b, #254
	uqsub	v8.16b, v31.16b, v13.16b
	and	v3.16b, v6.16b, v3.16b
	and	v1.16b, v1.16b, v4.16b
	and	v4.16b, v25.16b, v22.16b
	and	v6.16b, v17.16b, v19.16b
	and	v5.16b, v9.16b, v5.16b
	and	v22.16b, v26.16b, v15.16b
	and	v25.16b, v20.16b, v15.16b
	and	v12.16b, v24.16b, v15.16b
	uqsub	v9.16b, v13.16b, v3.16b
	uqsub	v3.16b, v26.16b, v30.16b
	and	v13.16b, v21.16b, v15.16b
	uqsub	v31.16b, v6.16b, v4.16b
	uqsub	v26.16b, v11.16b, v6.16b
	and	v6.16b, v0.16b, v19.16b
	cmeq	v4.16b, v22.16b, v7.16b
	and	v22.16b, v16.16b, v19.16b
	cmeq	v25.16b, v25.16b, v7.16b
	cmeq	v11.16b, v13.16b, v7.16b
	cmeq	v7.16b, v12.16b, v7.16b
	uqsub	v12.16b, v21.16b, v30.16b
	orr	v3.16b, v3.16b, v29.16b
	uqsub	v29.16b, v20.16b, v30.16b
	uqsub	v20.16b, v18.16b, v6.16b
	and	v4.16b, v4.16b, v14.16b
	uqsub	v1.16b, v6.16b, v1.16b
	uqsub	v6.16b, v22.16b, v5.16b
	uqsub	v5.16b, v24.16b, v30.16b
	ldr	q24, [sp, #96]
	and	v7.16b, v7.16b, v14.16b
	uqsub	v21.16b, v10.16b, v22.16b
	and	v10.16b, v25.16b, v14.16b
	and	v18.16b, v11.16b, v14.16b
	orr	v3.16b, v3.16b, v4.16b
	orr	v4.16b, v29.16b, v28.16b
	orr	v22.16b, v12.16b, v27.16b
	ext	v25.16b, v0.16b, v24.16b, #14
	ldr	q24, [sp, #32]
	movi	v27.16b, #96
	movi	v28.16b, #112
	orr	v7.16b, v7.16b, v23.16b
	ext	v23.16b, v16.16b, v0.16b, #14
	ext	v29.16b, v16.16b, v0.16b, #13
	ldr	q0, [sp, #176]
	orr	v5.16b, v5.16b, v24.16b
	ext	v24.16b, v17.16b, v16.16b, #14
	ext	v30.16b, v17.16b, v16.16b, #13
	orr	v4.16b, v4.16b, v10.16b
	ext	v16.16b, v0.16b, v17.16b, #14
	ext	v10.16b, v0.16b, v17.16b, #13
	ldr	q0, [sp, #16]
	orr	v17.16b, v22.16b, v18.16b
	ldr	q18, [sp, #48]
	uqsub	v22.16b, v25.16b, v27.16b
	uqsub	v2.16b, v2.16b, v28.16b
	uqsub	v23.16b, v23.16b, v27.16b
	uqsub	v25.16b, v29.16b, v28.16b
	uqsub	v24.16b, v24.16b, v27.16b
	uqsub	v29.16b, v30.16b, v28.16b
	orr	v6.16b, v6.16b, v21.16b
	orr	v17.16b, v17.16b, v18.16b
	ldr	q18, [sp, #64]
	uqsub	v16.16b, v16.16b, v27.16b
	uqsub	v19.16b, v10.16b, v28.16b
	movi	v21.16b, #128
	orr	v5.16b, v5.16b, v7.16b
	orr	v7.16b, v9.16b, v8.16b
	orr	v4.16b, v4.16b, v18.16b
	ldr	q18, [sp, #80]
	orr	v2.16b, v22.16b, v2.16b
	orr	v1.16b, v1.16b, v20.16b
	orr	v20.16b, v23.16b, v25.16b
	orr	v3.16b, v3.16b, v18.16b
	orr	v18.16b, v24.16b, v29.16b
	orr	v5.16b, v5.16b, v7.16b
	orr	v7.16b, v31.16b, v26.16b
	orr	v16.16b, v16.16b, v19.16b
	ldr	q19, [x19, :lo12:.LCPI7_1]
	and	v2.16b, v2.16b, v21.16b
	orr	v1.16b, v4.16b, v1.16b
	ldr	q4, [sp]
	orr	v3.16b, v3.16b, v6.16b
	and	v6.16b, v18.16b, v21.16b
	orr	v7.16b, v17.16b, v7.16b
	and	v16.16b, v16.16b, v21.16b
	and	v17.16b, v20.16b, v21.16b
	uqsub	v4.16b, v4.16b, v19.16b
	eor	v2.16b, v5.16b, v2.16b
	eor	v18.16b, v3.16b, v6.16b
	eor	v17.16b, v1.16b, v17.16b
	eor	v16.16b, v7.16b, v16.16b
	orr	v19.16b, v2.16b, v4.16b
.LBB7_14:
	ldp	q2, q1, [sp, #144]
	ldp	q4, q3, [sp, #112]
	orr	v1.16b, v16.16b, v1.16b
	orr	v2.16b, v18.16b, v2.16b
	orr	v3.16b, v17.16b, v3.16b
	orr	v4.16b, v19.16b, v4.16b
	cmeq	v1.16b, v1.16b, #0
	cmeq	v2.16b, v2.16b, #0
	cmeq	v4.16b, v4.16b, #0
	cmeq	v3.16b, v3.16b, #0
	bic	v1.16b, v0.16b, v1.16b
	bic	v2.16b, v0.16b, v2.16b
	bic	v3.16b, v0.16b, v3.16b
	bic	v0.16b, v0.16b, v4.16b
	addp	v1.16b, v1.16b, v2.16b
	addp	v0.16b, v3.16b, v0.16b
	addp	v0.16b, v1.16b, v0.16b
	addp	v0.16b, v0.16b, v0.16b
	fmov	x8, d0
	cmp	x8, #0
	cset	w0, eq
	sub	sp, x29, #64
	ldp	x20, x19, [sp, #96]
	ldp	x28, x21, [sp, #80]
	ldp	x29, x30, [sp, #64]
	ldp	d9, d8, [sp, #48]
	ldp	d11, d10, [sp, #32]
	ldp	d13, d12, [sp, #16]
	ldp	d15, d14, [sp], #112
	ret
.Lfunc_end7:
	.size	"amqp_in_place::read::is_utf8", .Lfunc_end7-"amqp_in_place::read::is_utf8"

	.section	".text.amqp_in_place::canonical::canonical_len","ax",@progbits
	.p2align	2
	.type	"amqp_in_place::canonical::canonical_len",@function
"amqp_in_place::canonical::canonical_len":
	stp	x29, x30, [sp, #-32]!
	stp	x20, x19, [sp, #16]
	mov	x29, sp
	cbz	x1, .LBB8_40
	ldrb	w11, [x0]
	mov	w9, wzr
	mov	x8, xzr
	sub	w10, w11, #65
	cmp	w10, #55
	b.hi	.LBB8_44
	adrp	x12, .LJTI8_0
	add	x12, x12, :lo12:.LJTI8_0
	adr	x13, .LBB8_3
	ldrb	w14, [x12, x10]
	add	x13, x13, x14, lsl #2
	mov	x12, x8
	br	x13
.LBB8_3:
	cmp	x1, #5
	b.lo	.LBB8_40
	ldur	w8, [x0, #1]
	rev	w8, w8
	add	x12, x8, #4
	mov	w8, #4
	sub	x19, x1, #1
	mov	w9, wzr
	cmp	x19, x12
	b.hs	.LBB8_10
	b	.LBB8_24
.LBB8_5:
	mov	w8, #8
	mov	w12, #8
	sub	x19, x1, #1
	mov	w9, wzr
	cmp	x19, x12
	b.hs	.LBB8_10
	b	.LBB8_24
.LBB8_6:
	mov	w8, #1
	mov	w12, #1
	sub	x19, x1, #1
	mov	w9, wzr
	cmp	x19, x12
	b.hs	.LBB8_10
	b	.LBB8_24
.LBB8_7:
	mov	w8, #2
	mov	w12, #2
	sub	x19, x1, #1
	mov	w9, wzr
	cmp	x19, x12
	b.hs	.LBB8_10
	b	.LBB8_24
.LBB8_8:
	mov	w8, #4
	mov	w12, #4
.LBB8_9:
	sub	x19, x1, #1
	mov	w9, wzr
	cmp	x19, x12
	b.lo	.LBB8_24
.LBB8_10:
	cmp	x19, x8
	b.lo	.LBB8_24
	mov	w8, w2
	cmp	x12, x8
	mov	x8, xzr
	b.hs	.LBB8_44
	cmp	x1, #1
	b.ne	.LBB8_15
	mov	w9, wzr
	cmp	w11, #76
	mov	x8, xzr
	b.eq	.LBB8_44
	cmp	w11, #85
	b.eq	.LBB8_44
	b	.LBB8_19
.LBB8_15:
	mov	w9, wzr
	cmp	w11, #76
	mov	x8, xzr
	b.eq	.LBB8_44
	cmp	w11, #85
	b.eq	.LBB8_44
	cmp	w11, #116
	b.ne	.LBB8_19
	ldrb	w8, [x0, #1]
	cmp	w8, #1
	b.hi	.LBB8_40
	b	.LBB8_30
.LBB8_19:
	mov	w9, wzr
	cmp	w10, #55
	mov	x8, xzr
	b.hi	.LBB8_44
	adrp	x11, .LJTI8_1
	add	x11, x11, :lo12:.LJTI8_1
	adr	x12, .LBB8_21
	ldrb	w13, [x11, x10]
	add	x12, x12, x13, lsl #2
	mov	w11, w3
	br	x12
.LBB8_21:
	cmp	x19, #7
	b.ls	.LBB8_40
	sub	x19, x1, #9
	b	.LBB8_31
.LBB8_23:
	mov	w12, #5
	mov	w8, #1
	sub	x19, x1, #1
	mov	w9, wzr
	cmp	x19, x12
	b.hs	.LBB8_10
.LBB8_24:
	mov	x8, xzr
	ldp	x20, x19, [sp, #16]
	mov	w0, w9
	mov	x1, x8
	ldp	x29, x30, [sp], #32
	ret
.LBB8_25:
	cmp	x19, #1
	b.ls	.LBB8_40
	sub	x19, x1, #3
	b	.LBB8_31
.LBB8_27:
	cmp	x19, #3
	b.ls	.LBB8_40
	sub	x19, x1, #5
	b	.LBB8_31
.LBB8_29:
	cbz	x19, .LBB8_40
.LBB8_30:
	sub	x19, x1, #2
.LBB8_31:
	sub	x8, x1, x19
	mov	w9, #1
	ldp	x20, x19, [sp, #16]
	mov	w0, w9
	mov	x1, x8
	ldp	x29, x30, [sp], #32
	ret
.LBB8_32:
	subs	x8, x1, #5
	b.lo	.LBB8_40
	ldur	w9, [x0, #1]
	rev	w9, w9
	subs	x19, x8, x9
	b.hs	.LBB8_31
	b	.LBB8_40
.LBB8_34:
	subs	x8, x1, #5
	b.lo	.LBB8_40
	ldur	w10, [x0, #1]
	mov	w9, wzr
	rev	w10, w10
	subs	x19, x8, x10
	mov	x8, xzr
	b.lo	.LBB8_44
	cbz	w3, .LBB8_44
	sub	x2, x11, #1
	add	x0, x0, #5
	mov	x20, x1
	mov	x1, x10
	bl	"amqp_in_place::canonical::are_canonical_values"
	mov	x1, x20
	cbnz	w0, .LBB8_31
	b	.LBB8_40
.LBB8_38:
	subs	x19, x1, #6
	b.hs	.LBB8_31
	b	.LBB8_40
.LBB8_39:
	subs	x8, x1, #5
	b.hs	.LBB8_41
.LBB8_40:
	mov	x8, xzr
	mov	w9, wzr
	ldp	x20, x19, [sp, #16]
	mov	w0, w9
	mov	x1, x8
	ldp	x29, x30, [sp], #32
	ret
.LBB8_41:
	ldur	w10, [x0, #1]
	mov	w9, wzr
	rev	w10, w10
	subs	x19, x8, x10
	mov	x8, xzr
	b.lo	.LBB8_44
	cbz	w3, .LBB8_44
	sub	x2, x11, #1
	add	x0, x0, #5
	mov	x20, x1
	mov	x1, x10
	bl	"amqp_in_place::canonical::are_canonical_pairs"
	mov	x1, x20
	tbnz	w0, #0, .LBB8_31
	b	.LBB8_40
.LBB8_44:
	ldp	x20, x19, [sp, #16]
	mov	w0, w9
	mov	x1, x8
	ldp	x29, x30, [sp], #32
	ret
.Lfunc_end8:
	.size	"amqp_in_place::canonical::canonical_len", .Lfunc_end8-"amqp_in_place::canonical::canonical_len"
	.section	".rodata.amqp_in_place::canonical::canonical_len","a",@progbits
.LJTI8_0:
	.byte	(.LBB8_3-.LBB8_3)>>2
	.byte	(.LBB8_6-.LBB8_3)>>2
	.byte	(.LBB8_44-.LBB8_3)>>2
	.byte	(.LBB8_23-.LBB8_3)>>2
	.byte	(.LBB8_44-.LBB8_3)>>2
	.byte	(.LBB8_3-.LBB8_3)>>2
	.byte	(.LBB8_44-.LBB8_3)>>2
	.byte	(.LBB8_44-.LBB8_3)>>2
	.byte	(.LBB8_8-.LBB8_3)>>2
	.byte	(.LBB8_44-.LBB8_3)>>2
	.byte	(.LBB8_44-.LBB8_3)>>2
	.byte	(.LBB8_5-.LBB8_3)>>2
	.byte	(.LBB8_44-.LBB8_3)>>2
	.byte	(.LBB8_44-.LBB8_3)>>2
	.byte	(.LBB8_44-.LBB8_3)>>2
	.byte	(.LBB8_44-.LBB8_3)>>2
	.byte	(.LBB8_44-.LBB8_3)>>2
	.byte	(.LBB8_44-.LBB8_3)>>2
	.byte	(.LBB8_3-.LBB8_3)>>2
	.byte	(.LBB8_5-.LBB8_3)>>2
	.byte	(.LBB8_7-.LBB8_3)>>2
	.byte	(.LBB8_9-.LBB8_3)>>2
	.byte	(.LBB8_44-.LBB8_3)>>2
	.byte	(.LBB8_44-.LBB8_3)>>2
	.byte	(.LBB8_44-.LBB8_3)>>2
	.byte	(.LBB8_44-.LBB8_3)>>2
	.byte	(.LBB8_44-.LBB8_3)>>2
	.byte	(.LBB8_44-.LBB8_3)>>2
	.byte	(.LBB8_44-.LBB8_3)>>2
	.byte	(.LBB8_44-.LBB8_3)>>2
	.byte	(.LBB8_44-.LBB8_3)>>2
	.byte	(.LBB8_44-.LBB8_3)>>2
	.byte	(.LBB8_44-.LBB8_3)>>2
	.byte	(.LBB8_6-.LBB8_3)>>2
	.byte	(.LBB8_44-.LBB8_3)>>2
	.byte	(.LBB8_5-.LBB8_3)>>2
	.byte	(.LBB8_44-.LBB8_3)>>2
	.byte	(.LBB8_8-.LBB8_3)>>2
	.byte	(.LBB8_44-.LBB8_3)>>2
	.byte	(.LBB8_44-.LBB8_3)>>2
	.byte	(.LBB8_8-.LBB8_3)>>2
	.byte	(.LBB8_44-.LBB8_3)>>2
	.byte	(.LBB8_44-.LBB8_3)>>2
	.byte	(.LBB8_5-.LBB8_3)>>2
	.byte	(.LBB8_44-.LBB8_3)>>2
	.byte	(.LBB8_44-.LBB8_3)>>2
	.byte	(.LBB8_44-.LBB8_3)>>2
	.byte	(.LBB8_44-.LBB8_3)>>2
	.byte	(.LBB8_44-.LBB8_3)>>2
	.byte	(.LBB8_44-.LBB8_3)>>2
	.byte	(.LBB8_7-.LBB8_3)>>2
	.byte	(.LBB8_6-.LBB8_3)>>2
	.byte	(.LBB8_7-.LBB8_3)>>2
	.byte	(.LBB8_44-.LBB8_3)>>2
	.byte	(.LBB8_44-.LBB8_3)>>2
	.byte	(.LBB8_3-.LBB8_3)>>2
.LJTI8_1:
	.byte	(.LBB8_34-.LBB8_21)>>2
	.byte	(.LBB8_29-.LBB8_21)>>2
	.byte	(.LBB8_44-.LBB8_21)>>2
	.byte	(.LBB8_38-.LBB8_21)>>2
	.byte	(.LBB8_44-.LBB8_21)>>2
	.byte	(.LBB8_39-.LBB8_21)>>2
	.byte	(.LBB8_44-.LBB8_21)>>2
	.byte	(.LBB8_44-.LBB8_21)>>2
	.byte	(.LBB8_27-.LBB8_21)>>2
	.byte	(.LBB8_44-.LBB8_21)>>2
	.byte	(.LBB8_44-.LBB8_21)>>2
	.byte	(.LBB8_21-.LBB8_21)>>2
	.byte	(.LBB8_44-.LBB8_21)>>2
	.byte	(.LBB8_44-.LBB8_21)>>2
	.byte	(.LBB8_44-.LBB8_21)>>2
	.byte	(.LBB8_44-.LBB8_21)>>2
	.byte	(.LBB8_44-.LBB8_21)>>2
	.byte	(.LBB8_44-.LBB8_21)>>2
	.byte	(.LBB8_32-.LBB8_21)>>2
	.byte	(.LBB8_21-.LBB8_21)>>2
	.byte	(.LBB8_25-.LBB8_21)>>2
	.byte	(.LBB8_31-.LBB8_21)>>2
	.byte	(.LBB8_44-.LBB8_21)>>2
	.byte	(.LBB8_44-.LBB8_21)>>2
	.byte	(.LBB8_44-.LBB8_21)>>2
	.byte	(.LBB8_44-.LBB8_21)>>2
	.byte	(.LBB8_44-.LBB8_21)>>2
	.byte	(.LBB8_44-.LBB8_21)>>2
	.byte	(.LBB8_44-.LBB8_21)>>2
	.byte	(.LBB8_44-.LBB8_21)>>2
	.byte	(.LBB8_44-.LBB8_21)>>2
	.byte	(.LBB8_44-.LBB8_21)>>2
	.byte	(.LBB8_44-.LBB8_21)>>2
	.byte	(.LBB8_29-.LBB8_21)>>2
	.byte	(.LBB8_44-.LBB8_21)>>2
	.byte	(.LBB8_21-.LBB8_21)>>2
	.byte	(.LBB8_44-.LBB8_21)>>2
	.byte	(.LBB8_27-.LBB8_21)>>2
	.byte	(.LBB8_44-.LBB8_21)>>2
	.byte	(.LBB8_44-.LBB8_21)>>2
	.byte	(.LBB8_27-.LBB8_21)>>2
	.byte	(.LBB8_44-.LBB8_21)>>2
	.byte	(.LBB8_44-.LBB8_21)>>2
	.byte	(.LBB8_21-.LBB8_21)>>2
	.byte	(.LBB8_44-.LBB8_21)>>2
	.byte	(.LBB8_44-.LBB8_21)>>2
	.byte	(.LBB8_44-.LBB8_21)>>2
	.byte	(.LBB8_44-.LBB8_21)>>2
	.byte	(.LBB8_44-.LBB8_21)>>2
	.byte	(.LBB8_44-.LBB8_21)>>2
	.byte	(.LBB8_25-.LBB8_21)>>2
	.byte	(.LBB8_29-.LBB8_21)>>2
	.byte	(.LBB8_25-.LBB8_21)>>2
	.byte	(.LBB8_44-.LBB8_21)>>2
	.byte	(.LBB8_44-.LBB8_21)>>2
	.byte	(.LBB8_32-.LBB8_21)>>2

	.section	".text.amqp_in_place::read::are_values","ax",@progbits
	.p2align	2
	.type	"amqp_in_place::read::are_values",@function
"amqp_in_place::read::are_values":
	stp	x29, x30, [sp, #-48]!
	stp	x22, x21, [sp, #16]
	mov	x29, sp
	stp	x20, x19, [sp, #32]
	cbz	x1, .LBB9_28
	mov	x19, x2
	mov	x9, x0
	b	.LBB9_4
.LBB9_2:
	add	x9, x21, x20
.LBB9_3:
	mov	x1, x22
	mov	x0, x9
	cbz	x22, .LBB9_28
.LBB9_4:
	ldrb	w8, [x9], #1
	sub	w10, w8, #65
	mov	w8, wzr
	cmp	w10, #55
	b.hi	.LBB9_29
	adrp	x11, .LJTI9_0
	add	x11, x11, :lo12:.LJTI9_0
	sub	x22, x1, #1
	adr	x12, .LBB9_3
	ldrb	w13, [x11, x10]
	add	x12, x12, x13, lsl #2
	br	x12
.LBB9_6:
	cmp	x22, #8
	b.lo	.LBB9_27
	add	x9, x0, #9
	sub	x22, x1, #9
	b	.LBB9_3
.LBB9_8:
	cmp	x22, #4
	b.lo	.LBB9_27
	add	x9, x0, #5
	sub	x22, x1, #5
	b	.LBB9_3
.LBB9_10:
	cbz	x22, .LBB9_27
	add	x9, x0, #2
	sub	x22, x1, #2
	b	.LBB9_3
.LBB9_12:
	cmp	x22, #2
	b.lo	.LBB9_27
	add	x9, x0, #3
	sub	x22, x1, #3
	b	.LBB9_3
.LBB9_14:
	subs	x8, x1, #5
	b.lo	.LBB9_27
	ldr	w9, [x9]
	rev	w9, w9
	subs	x22, x8, x9
	b.lo	.LBB9_27
	add	x8, x0, x9
	add	x9, x8, #5
	b	.LBB9_3
.LBB9_17:
	subs	x22, x1, #6
	b.lo	.LBB9_27
	add	x9, x0, #6
	b	.LBB9_3
.LBB9_19:
	subs	x8, x1, #5
	b.lo	.LBB9_27
	ldr	w9, [x9]
	rev	w20, w9
	subs	x22, x8, x20
	mov	w8, wzr
	b.lo	.LBB9_29
	cbz	x19, .LBB9_29
	add	x21, x0, #5
	sub	x2, x19, #1
	mov	x1, x20
	mov	x0, x21
	bl	"amqp_in_place::read::are_values"
	cbnz	w0, .LBB9_2
	b	.LBB9_27
.LBB9_23:
	subs	x8, x1, #5
	b.lo	.LBB9_27
	ldr	w9, [x9]
	rev	w20, w9
	subs	x22, x8, x20
	mov	w8, wzr
	b.lo	.LBB9_29
	cbz	x19, .LBB9_29
	add	x21, x0, #5
	sub	x2, x19, #1
	mov	x1, x20
	mov	x0, x21
	bl	"amqp_in_place::read::are_pairs"
	tbnz	w0, #0, .LBB9_2
.LBB9_27:
	mov	w8, wzr
	ldp	x20, x19, [sp, #32]
	mov	w0, w8
	ldp	x22, x21, [sp, #16]
	ldp	x29, x30, [sp], #48
	ret
.LBB9_28:
	mov	w8, #1
.LBB9_29:
	ldp	x20, x19, [sp, #32]
	mov	w0, w8
	ldp	x22, x21, [sp, #16]
	ldp	x29, x30, [sp], #48
	ret
.Lfunc_end9:
	.size	"amqp_in_place::read::are_values", .Lfunc_end9-"amqp_in_place::read::are_values"
	.section	".rodata.amqp_in_place::read::are_values","a",@progbits
.LJTI9_0:
	.byte	(.LBB9_19-.LBB9_3)>>2
	.byte	(.LBB9_10-.LBB9_3)>>2
	.byte	(.LBB9_29-.LBB9_3)>>2
	.byte	(.LBB9_17-.LBB9_3)>>2
	.byte	(.LBB9_29-.LBB9_3)>>2
	.byte	(.LBB9_23-.LBB9_3)>>2
	.byte	(.LBB9_29-.LBB9_3)>>2
	.byte	(.LBB9_29-.LBB9_3)>>2
	.byte	(.LBB9_8-.LBB9_3)>>2
	.byte	(.LBB9_29-.LBB9_3)>>2
	.byte	(.LBB9_29-.LBB9_3)>>2
	.byte	(.LBB9_6-.LBB9_3)>>2
	.byte	(.LBB9_29-.LBB9_3)>>2
	.byte	(.LBB9_29-.LBB9_3)>>2
	.byte	(.LBB9_29-.LBB9_3)>>2
	.byte	(.LBB9_29-.LBB9_3)>>2
	.byte	(.LBB9_29-.LBB9_3)>>2
	.byte	(.LBB9_29-.LBB9_3)>>2
	.byte	(.LBB9_14-.LBB9_3)>>2
	.byte	(.LBB9_6-.LBB9_3)>>2
	.byte	(.LBB9_12-.LBB9_3)>>2
	.byte	(.LBB9_3-.LBB9_3)>>2
	.byte	(.LBB9_29-.LBB9_3)>>2
	.byte	(.LBB9_29-.LBB9_3)>>2
	.byte	(.LBB9_29-.LBB9_3)>>2
	.byte	(.LBB9_29-.LBB9_3)>>2
	.byte	(.LBB9_29-.LBB9_3)>>2
	.byte	(.LBB9_29-.LBB9_3)>>2
	.byte	(.LBB9_29-.LBB9_3)>>2
	.byte	(.LBB9_29-.LBB9_3)>>2
	.byte	(.LBB9_29-.LBB9_3)>>2
	.byte	(.LBB9_29-.LBB9_3)>>2
	.byte	(.LBB9_29-.LBB9_3)>>2
	.byte	(.LBB9_10-.LBB9_3)>>2
	.byte	(.LBB9_29-.LBB9_3)>>2
	.byte	(.LBB9_6-.LBB9_3)>>2
	.byte	(.LBB9_29-.LBB9_3)>>2
	.byte	(.LBB9_8-.LBB9_3)>>2
	.byte	(.LBB9_29-.LBB9_3)>>2
	.byte	(.LBB9_29-.LBB9_3)>>2
	.byte	(.LBB9_8-.LBB9_3)>>2
	.byte	(.LBB9_29-.LBB9_3)>>2
	.byte	(.LBB9_29-.LBB9_3)>>2
	.byte	(.LBB9_6-.LBB9_3)>>2
	.byte	(.LBB9_29-.LBB9_3)>>2
	.byte	(.LBB9_29-.LBB9_3)>>2
	.byte	(.LBB9_29-.LBB9_3)>>2
	.byte	(.LBB9_29-.LBB9_3)>>2
	.byte	(.LBB9_29-.LBB9_3)>>2
	.byte	(.LBB9_29-.LBB9_3)>>2
	.byte	(.LBB9_12-.LBB9_3)>>2
	.byte	(.LBB9_10-.LBB9_3)>>2
	.byte	(.LBB9_12-.LBB9_3)>>2
	.byte	(.LBB9_29-.LBB9_3)>>2
	.byte	(.LBB9_29-.LBB9_3)>>2
	.byte	(.LBB9_14-.LBB9_3)>>2

	.section	".text.amqp_in_place::read::are_pairs","ax",@progbits
	.p2align	2
	.type	"amqp_in_place::read::are_pairs",@function
"amqp_in_place::read::are_pairs":
	stp	x29, x30, [sp, #-48]!
	stp	x22, x21, [sp, #16]
	mov	x29, sp
	stp	x20, x19, [sp, #32]
	cbz	x1, .LBB10_49
	mov	x19, x2
	mov	x20, x1
	b	.LBB10_4
.LBB10_2:
	add	x0, x22, x21
.LBB10_3:
	cbz	x20, .LBB10_49
.LBB10_4:
	mov	x22, x0
	sub	x20, x20, #1
	ldrb	w21, [x22], #1
	cmp	x20, x21
	b.lo	.LBB10_48
	cmp	w21, #7
	b.hi	.LBB10_23
	cbz	w21, .LBB10_24
	ldrsb	w8, [x0, #1]
	tbnz	w8, #31, .LBB10_21
	cmp	w21, #1
	b.eq	.LBB10_24
	ldrsb	w8, [x0, #2]
	tbnz	w8, #31, .LBB10_21
	cmp	w21, #2
	b.eq	.LBB10_24
	ldrsb	w8, [x0, #3]
	tbnz	w8, #31, .LBB10_21
	cmp	w21, #3
	b.eq	.LBB10_24
	ldrsb	w8, [x0, #4]
	tbnz	w8, #31, .LBB10_21
	cmp	w21, #4
	b.eq	.LBB10_24
	ldrsb	w8, [x0, #5]
	tbnz	w8, #31, .LBB10_21
	cmp	w21, #5
	b.eq	.LBB10_24
	ldrsb	w8, [x0, #6]
	tbnz	w8, #31, .LBB10_21
	cmp	w21, #6
	b.eq	.LBB10_24
	ldrsb	w8, [x0, #7]
	tbnz	w8, #31, .LBB10_21
	cmp	w21, #7
	b.eq	.LBB10_24
.LBB10_21:
	mov	x0, x22
	mov	x1, x21
	bl	"amqp_in_place::read::is_utf8"
	cmp	x20, x21
	mov	w8, wzr
	b.eq	.LBB10_50
	tbnz	w0, #0, .LBB10_25
	b	.LBB10_50
.LBB10_23:
	mov	x0, x22
	mov	x1, x21
	bl	"amqp_in_place::read::is_ascii_by_words"
	tbz	w0, #0, .LBB10_21
.LBB10_24:
	cmp	x20, x21
	b.eq	.LBB10_48
.LBB10_25:
	add	x9, x22, x21
	mov	x0, x9
	ldrb	w8, [x0], #1
	sub	w10, w8, #65
	mov	w8, wzr
	cmp	w10, #55
	b.hi	.LBB10_50
	adrp	x12, .LJTI10_0
	add	x12, x12, :lo12:.LJTI10_0
	mvn	x11, x21
	adr	x13, .LBB10_3
	ldrb	w14, [x12, x10]
	add	x13, x13, x14, lsl #2
	add	x20, x20, x11
	br	x13
.LBB10_27:
	subs	x20, x20, #8
	b.lo	.LBB10_48
	add	x0, x9, #9
	b	.LBB10_3
.LBB10_29:
	subs	x20, x20, #4
	b.lo	.LBB10_48
	add	x0, x9, #5
	b	.LBB10_3
.LBB10_31:
	cbz	x20, .LBB10_48
	add	x0, x9, #2
	sub	x20, x20, #1
	b	.LBB10_3
.LBB10_33:
	subs	x20, x20, #2
	b.lo	.LBB10_48
	add	x0, x9, #3
	b	.LBB10_3
.LBB10_35:
	subs	x8, x20, #4
	b.lo	.LBB10_48
	ldr	w10, [x0]
	rev	w10, w10
	subs	x20, x8, x10
	b.lo	.LBB10_48
	add	x8, x9, x10
	add	x0, x8, #5
	b	.LBB10_3
.LBB10_38:
	subs	x20, x20, #5
	b.lo	.LBB10_48
	add	x0, x9, #6
	b	.LBB10_3
.LBB10_40:
	subs	x8, x20, #4
	b.lo	.LBB10_48
	ldr	w10, [x0]
	rev	w21, w10
	subs	x20, x8, x21
	mov	w8, wzr
	b.lo	.LBB10_50
	cbz	x19, .LBB10_50
	add	x22, x9, #5
	sub	x2, x19, #1
	mov	x1, x21
	mov	x0, x22
	bl	"amqp_in_place::read::are_values"
	cbnz	w0, .LBB10_2
	b	.LBB10_48
.LBB10_44:
	subs	x8, x20, #4
	b.lo	.LBB10_48
	ldr	w10, [x0]
	rev	w21, w10
	subs	x20, x8, x21
	mov	w8, wzr
	b.lo	.LBB10_50
	cbz	x19, .LBB10_50
	add	x22, x9, #5
	sub	x2, x19, #1
	mov	x1, x21
	mov	x0, x22
	bl	"amqp_in_place::read::are_pairs"
	tbnz	w0, #0, .LBB10_2
.LBB10_48:
	mov	w8, wzr
	ldp	x20, x19, [sp, #32]
	mov	w0, w8
	ldp	x22, x21, [sp, #16]
	ldp	x29, x30, [sp], #48
	ret
.LBB10_49:
	mov	w8, #1
.LBB10_50:
	ldp	x20, x19, [sp, #32]
	mov	w0, w8
	ldp	x22, x21, [sp, #16]
	ldp	x29, x30, [sp], #48
	ret
.Lfunc_end10:
	.size	"amqp_in_place::read::are_pairs", .Lfunc_end10-"amqp_in_place::read::are_pairs"
	.section	".rodata.amqp_in_place::read::are_pairs","a",@progbits
.LJTI10_0:
	.byte	(.LBB10_40-.LBB10_3)>>2
	.byte	(.LBB10_31-.LBB10_3)>>2
	.byte	(.LBB10_50-.LBB10_3)>>2
	.byte	(.LBB10_38-.LBB10_3)>>2
	.byte	(.LBB10_50-.LBB10_3)>>2
	.byte	(.LBB10_44-.LBB10_3)>>2
	.byte	(.LBB10_50-.LBB10_3)>>2
	.byte	(.LBB10_50-.LBB10_3)>>2
	.byte	(.LBB10_29-.LBB10_3)>>2
	.byte	(.LBB10_50-.LBB10_3)>>2
	.byte	(.LBB10_50-.LBB10_3)>>2
	.byte	(.LBB10_27-.LBB10_3)>>2
	.byte	(.LBB10_50-.LBB10_3)>>2
	.byte	(.LBB10_50-.LBB10_3)>>2
	.byte	(.LBB10_50-.LBB10_3)>>2
	.byte	(.LBB10_50-.LBB10_3)>>2
	.byte	(.LBB10_50-.LBB10_3)>>2
	.byte	(.LBB10_50-.LBB10_3)>>2
	.byte	(.LBB10_35-.LBB10_3)>>2
	.byte	(.LBB10_27-.LBB10_3)>>2
	.byte	(.LBB10_33-.LBB10_3)>>2
	.byte	(.LBB10_3-.LBB10_3)>>2
	.byte	(.LBB10_50-.LBB10_3)>>2
	.byte	(.LBB10_50-.LBB10_3)>>2
	.byte	(.LBB10_50-.LBB10_3)>>2
	.byte	(.LBB10_50-.LBB10_3)>>2
	.byte	(.LBB10_50-.LBB10_3)>>2
	.byte	(.LBB10_50-.LBB10_3)>>2
	.byte	(.LBB10_50-.LBB10_3)>>2
	.byte	(.LBB10_50-.LBB10_3)>>2
	.byte	(.LBB10_50-.LBB10_3)>>2
	.byte	(.LBB10_50-.LBB10_3)>>2
	.byte	(.LBB10_50-.LBB10_3)>>2
	.byte	(.LBB10_31-.LBB10_3)>>2
	.byte	(.LBB10_50-.LBB10_3)>>2
	.byte	(.LBB10_27-.LBB10_3)>>2
	.byte	(.LBB10_50-.LBB10_3)>>2
	.byte	(.LBB10_29-.LBB10_3)>>2
	.byte	(.LBB10_50-.LBB10_3)>>2
	.byte	(.LBB10_50-.LBB10_3)>>2
	.byte	(.LBB10_29-.LBB10_3)>>2
	.byte	(.LBB10_50-.LBB10_3)>>2
	.byte	(.LBB10_50-.LBB10_3)>>2
	.byte	(.LBB10_27-.LBB10_3)>>2
	.byte	(.LBB10_50-.LBB10_3)>>2
	.byte	(.LBB10_50-.LBB10_3)>>2
	.byte	(.LBB10_50-.LBB10_3)>>2
	.byte	(.LBB10_50-.LBB10_3)>>2
	.byte	(.LBB10_50-.LBB10_3)>>2
	.byte	(.LBB10_50-.LBB10_3)>>2
	.byte	(.LBB10_33-.LBB10_3)>>2
	.byte	(.LBB10_31-.LBB10_3)>>2
	.byte	(.LBB10_33-.LBB10_3)>>2
	.byte	(.LBB10_50-.LBB10_3)>>2
	.byte	(.LBB10_50-.LBB10_3)>>2
	.byte	(.LBB10_35-.LBB10_3)>>2

	.section	.rodata.cst16,"aM",@progbits,16
	.p2align	4, 0x0
.LCPI11_0:
	.xword	1
	.xword	0
.LCPI11_1:
	.xword	0
	.xword	1
.LCPI11_2:
	.xword	513
	.xword	0
	.section	".text.amqp_in_place::read::read_in_place","ax",@progbits
	.p2align	2
	.type	"amqp_in_place::read::read_in_place",@function
"amqp_in_place::read::read_in_place":
	sub	sp, sp, #64
	mov	x9, xzr
	stp	x29, x30, [sp, #16]
	add	x29, sp, #16
	stp	x22, x21, [sp, #32]
	stp	x20, x19, [sp, #48]
	cbz	x2, .LBB11_6
	ldrb	w8, [x1]
	sub	w10, w8, #65
	mov	w8, #1
	cmp	w10, #55
	b.hi	.LBB11_21
	adrp	x11, .LJTI11_0
	add	x11, x11, :lo12:.LJTI11_0
	mov	x21, x9
	adr	x13, .LBB11_3
	ldrb	w12, [x11, x10]
	add	x13, x13, x12, lsl #2
	mov	w11, #1
	mov	x20, x9
	mov	x12, x9
	mov	x19, x9
	br	x13
.LBB11_3:
	cmp	x2, #5
	b.hs	.LBB11_10
.LBB11_4:
	mov	w9, #4
	mov	w12, #4
	cmp	x12, w3, uxtw
	b.lo	.LBB11_12
.LBB11_5:
	mov	x9, xzr
	mov	x21, xzr
	mov	x20, xzr
	mov	x19, xzr
	mov	w11, #1025
	mov	w8, #1
	b	.LBB11_15
.LBB11_6:
	mov	x21, xzr
	mov	x11, xzr
	mov	w8, #1
	mov	w20, #1
	mov	w19, #1
	b	.LBB11_15
.LBB11_7:
	mov	w9, #8
	mov	w12, #8
	cmp	x12, w3, uxtw
	b.lo	.LBB11_12
	b	.LBB11_5
.LBB11_8:
	mov	w9, #2
	mov	w12, #2
	cmp	x12, w3, uxtw
	b.lo	.LBB11_12
	b	.LBB11_5
.LBB11_9:
	mov	w9, #1
	mov	w12, #1
	cmp	x12, w3, uxtw
	b.lo	.LBB11_12
	b	.LBB11_5
.LBB11_10:
	ldur	w8, [x1, #1]
	mov	w9, #4
	rev	w8, w8
	add	x12, x8, #4
.LBB11_11:
	cmp	x12, w3, uxtw
	b.hs	.LBB11_5
.LBB11_12:
	sub	x21, x2, #1
	subs	x19, x9, x21
	b.hi	.LBB11_14
	subs	x19, x12, x21
	b.ls	.LBB11_16
.LBB11_14:
	mov	x9, xzr
	mov	x21, xzr
	mov	x11, xzr
	mov	w8, #1
	mov	w20, #1
.LBB11_15:
	stp	x8, x11, [x0]
	stp	x20, x19, [x0, #16]
	stp	x9, x21, [x0, #32]
	ldp	x20, x19, [sp, #48]
	ldp	x22, x21, [sp, #32]
	ldp	x29, x30, [sp, #16]
	add	sp, sp, #64
	ret
.LBB11_16:
	adrp	x8, .LCPI11_0
	cmp	w10, #55
	ldr	q0, [x8, :lo12:.LCPI11_0]
	mov	x8, xzr
	b.hi	.LBB11_65
	adrp	x11, .LJTI11_1
	add	x11, x11, :lo12:.LJTI11_1
	mov	w13, w4
	adr	x14, .LBB11_18
	ldrh	w15, [x11, x10, lsl #1]
	add	x14, x14, x15, lsl #2
	add	x9, x1, #1
	mov	w12, #16
	mov	x10, x8
	mov	x11, x8
	mov	x20, x8
	mov	x19, x8
	br	x14
.LBB11_18:
	cmp	x21, #8
	b.lo	.LBB11_52
	ldur	x9, [x1, #1]
	mov	x8, xzr
	mov	x10, xzr
	mov	x11, xzr
	mov	x19, xzr
	sub	x21, x2, #9
	rev	x20, x9
	add	x9, x1, #9
	mov	w12, #7
	b	.LBB11_71
.LBB11_20:
	mov	w12, #5
	mov	w9, #1
	cmp	x12, w3, uxtw
	b.lo	.LBB11_12
	b	.LBB11_5
.LBB11_21:
	mov	x21, x9
	mov	w11, #1
	mov	x20, x9
	mov	x19, x9
	b	.LBB11_15
.LBB11_22:
	cmp	x21, #2
	b.lo	.LBB11_39
	ldurh	w9, [x1, #1]
	mov	x8, xzr
	mov	x11, xzr
	mov	x20, xzr
	mov	x19, xzr
	sub	x21, x2, #3
	rev16	w10, w9
	add	x9, x1, #3
	mov	w12, #3
	b	.LBB11_71
.LBB11_24:
	cmp	x21, #4
	b.lo	.LBB11_63
	ldur	w9, [x1, #1]
	mov	x8, xzr
	mov	x10, xzr
	mov	x20, xzr
	mov	x19, xzr
	sub	x21, x2, #5
	rev	w11, w9
	add	x9, x1, #5
	mov	w12, #8
	b	.LBB11_71
.LBB11_26:
	cmp	x21, #4
	b.lo	.LBB11_63
	ldur	w9, [x1, #1]
	mov	x8, xzr
	mov	x10, xzr
	mov	x20, xzr
	mov	x19, xzr
	sub	x21, x2, #5
	rev	w11, w9
	add	x9, x1, #5
	mov	w12, #6
	b	.LBB11_71
.LBB11_28:
	cmp	x21, #8
	b.lo	.LBB11_52
	ldur	x9, [x1, #1]
	mov	x8, xzr
	mov	x10, xzr
	mov	x11, xzr
	mov	x19, xzr
	sub	x21, x2, #9
	rev	x20, x9
	add	x9, x1, #9
	mov	w12, #13
	b	.LBB11_71
.LBB11_30:
	cbz	x21, .LBB11_61
	ldrb	w8, [x1, #1]
	mov	x10, xzr
	mov	x11, xzr
	mov	x20, xzr
	mov	x19, xzr
	add	x9, x1, #2
	sub	x21, x2, #2
	mov	w12, #2
	b	.LBB11_71
.LBB11_32:
	cmp	x21, #4
	b.lo	.LBB11_63
	ldur	w9, [x1, #1]
	mov	x8, xzr
	mov	x10, xzr
	mov	x20, xzr
	mov	x19, xzr
	sub	x21, x2, #5
	rev	w11, w9
	add	x9, x1, #5
	mov	w12, #5
	b	.LBB11_71
.LBB11_34:
	subs	x8, x2, #5
	b.lo	.LBB11_63
	ldr	w9, [x9]
	rev	w19, w9
	subs	x21, x8, x19
	b.lo	.LBB11_67
	add	x20, x1, #5
	mov	x8, xzr
	mov	x10, xzr
	mov	x11, xzr
	add	x9, x20, x19
	mov	w12, #11
	b	.LBB11_71
.LBB11_37:
	cmp	x21, #2
	b.lo	.LBB11_39
	ldurh	w9, [x1, #1]
	mov	x8, xzr
	mov	x11, xzr
	mov	x20, xzr
	mov	x19, xzr
	sub	x21, x2, #3
	rev16	w10, w9
	add	x9, x1, #3
	mov	w12, #4
	b	.LBB11_71
.LBB11_39:
	adrp	x8, .LCPI11_1
	mov	w9, #3
	b	.LBB11_64
.LBB11_40:
	subs	x8, x2, #5
	b.lo	.LBB11_63
	ldr	w9, [x9]
	rev	w19, w9
	subs	x21, x8, x19
	b.lo	.LBB11_67
	adrp	x8, .LCPI11_2
	ldr	q0, [x8, :lo12:.LCPI11_2]
	cbz	w4, .LBB11_72
	add	x20, x1, #5
	mov	x22, x0
	sub	x2, x13, #1
	mov	x0, x20
	mov	x1, x19
	str	q0, [sp]
	bl	"amqp_in_place::read::are_values"
	mov	x8, xzr
	tbz	w0, #0, .LBB11_73
	add	x9, x20, x19
	mov	w11, #12
	b	.LBB11_58
.LBB11_45:
	cbz	x21, .LBB11_61
	ldrb	w8, [x1, #1]
	mov	x12, xzr
	mov	x10, xzr
	mov	x11, xzr
	mov	x20, xzr
	mov	x19, xzr
	cmp	w8, #0
	add	x9, x1, #2
	sub	x21, x2, #2
	cset	w8, ne
	b	.LBB11_71
.LBB11_47:
	adrp	x8, .LCPI11_1
	ldr	q0, [x8, :lo12:.LCPI11_1]
	cbz	x21, .LBB11_68
	sub	x8, x2, #2
	cmp	x8, #3
	b.hi	.LBB11_69
	mov	w8, #6
	sub	x8, x8, x2
	b	.LBB11_65
.LBB11_50:
	cmp	x21, #8
	b.lo	.LBB11_52
	ldur	x9, [x1, #1]
	mov	x8, xzr
	mov	x10, xzr
	mov	x11, xzr
	mov	x19, xzr
	sub	x21, x2, #9
	rev	x20, x9
	add	x9, x1, #9
	mov	w12, #9
	b	.LBB11_71
.LBB11_52:
	adrp	x8, .LCPI11_1
	mov	w9, #9
	b	.LBB11_64
.LBB11_53:
	subs	x8, x2, #5
	b.lo	.LBB11_63
	ldr	w9, [x9]
	rev	w19, w9
	subs	x21, x8, x19
	b.lo	.LBB11_67
	adrp	x8, .LCPI11_2
	ldr	q0, [x8, :lo12:.LCPI11_2]
	cbz	w4, .LBB11_72
	add	x20, x1, #5
	mov	x22, x0
	sub	x2, x13, #1
	mov	x0, x20
	mov	x1, x19
	str	q0, [sp]
	bl	"amqp_in_place::read::are_pairs"
	mov	x8, xzr
	tbz	w0, #0, .LBB11_73
	add	x9, x20, x19
	mov	w11, #14
.LBB11_58:
	mov	x0, x22
	b	.LBB11_15
.LBB11_59:
	cbz	x21, .LBB11_61
	ldrb	w8, [x1, #1]
	mov	x10, xzr
	mov	x11, xzr
	mov	x20, xzr
	mov	x19, xzr
	add	x9, x1, #2
	sub	x21, x2, #2
	mov	w12, #1
	b	.LBB11_71
.LBB11_61:
	adrp	x8, .LCPI11_1
	ldr	q0, [x8, :lo12:.LCPI11_1]
	mov	w8, #1
	b	.LBB11_65
.LBB11_62:
	subs	x8, x2, #5
	b.hs	.LBB11_66
.LBB11_63:
	adrp	x8, .LCPI11_1
	mov	w9, #5
.LBB11_64:
	ldr	q0, [x8, :lo12:.LCPI11_1]
	sub	x8, x9, x2
.LBB11_65:
	mov	w9, #1
	stur	q0, [x0, #8]
	str	x9, [x0]
	stp	xzr, xzr, [x0, #32]
	str	x8, [x0, #24]
	ldp	x20, x19, [sp, #48]
	ldp	x22, x21, [sp, #32]
	ldp	x29, x30, [sp, #16]
	add	sp, sp, #64
	ret
.LBB11_66:
	ldr	w9, [x9]
	rev	w19, w9
	subs	x21, x8, x19
	b.hs	.LBB11_70
.LBB11_67:
	adrp	x9, .LCPI11_1
	sub	x8, x19, x8
	ldr	q0, [x9, :lo12:.LCPI11_1]
	b	.LBB11_65
.LBB11_68:
	mov	w8, #1
	b	.LBB11_65
.LBB11_69:
	ldur	w9, [x1, #2]
	ldrb	w11, [x1, #1]
	mov	x8, xzr
	mov	x10, xzr
	mov	x19, xzr
	sub	x21, x2, #6
	rev	w20, w9
	add	x9, x1, #6
	mov	w12, #10
	orr	x11, x11, x20, lsl #32
	b	.LBB11_71
.LBB11_70:
	add	x20, x1, #5
	mov	x8, xzr
	mov	x10, xzr
	mov	x11, xzr
	add	x9, x20, x19
	mov	w12, #15
.LBB11_71:
	lsl	x10, x10, #16
	orr	x10, x10, x11, lsl #32
	orr	x10, x10, x8, lsl #8
	mov	x8, xzr
	orr	x11, x10, x12
	b	.LBB11_15
.LBB11_72:
	mov	x8, xzr
	b	.LBB11_65
.LBB11_73:
	ldr	q0, [sp]
	mov	x0, x22
	b	.LBB11_65
.Lfunc_end11:
	.size	"amqp_in_place::read::read_in_place", .Lfunc_end11-"amqp_in_place::read::read_in_place"
	.section	".rodata.amqp_in_place::read::read_in_place","a",@progbits
.LJTI11_0:
	.byte	(.LBB11_3-.LBB11_3)>>2
	.byte	(.LBB11_9-.LBB11_3)>>2
	.byte	(.LBB11_15-.LBB11_3)>>2
	.byte	(.LBB11_20-.LBB11_3)>>2
	.byte	(.LBB11_15-.LBB11_3)>>2
	.byte	(.LBB11_3-.LBB11_3)>>2
	.byte	(.LBB11_15-.LBB11_3)>>2
	.byte	(.LBB11_15-.LBB11_3)>>2
	.byte	(.LBB11_4-.LBB11_3)>>2
	.byte	(.LBB11_15-.LBB11_3)>>2
	.byte	(.LBB11_15-.LBB11_3)>>2
	.byte	(.LBB11_7-.LBB11_3)>>2
	.byte	(.LBB11_15-.LBB11_3)>>2
	.byte	(.LBB11_15-.LBB11_3)>>2
	.byte	(.LBB11_15-.LBB11_3)>>2
	.byte	(.LBB11_15-.LBB11_3)>>2
	.byte	(.LBB11_15-.LBB11_3)>>2
	.byte	(.LBB11_15-.LBB11_3)>>2
	.byte	(.LBB11_3-.LBB11_3)>>2
	.byte	(.LBB11_7-.LBB11_3)>>2
	.byte	(.LBB11_8-.LBB11_3)>>2
	.byte	(.LBB11_11-.LBB11_3)>>2
	.byte	(.LBB11_15-.LBB11_3)>>2
	.byte	(.LBB11_15-.LBB11_3)>>2
	.byte	(.LBB11_15-.LBB11_3)>>2
	.byte	(.LBB11_15-.LBB11_3)>>2
	.byte	(.LBB11_15-.LBB11_3)>>2
	.byte	(.LBB11_15-.LBB11_3)>>2
	.byte	(.LBB11_15-.LBB11_3)>>2
	.byte	(.LBB11_15-.LBB11_3)>>2
	.byte	(.LBB11_15-.LBB11_3)>>2
	.byte	(.LBB11_15-.LBB11_3)>>2
	.byte	(.LBB11_15-.LBB11_3)>>2
	.byte	(.LBB11_9-.LBB11_3)>>2
	.byte	(.LBB11_15-.LBB11_3)>>2
	.byte	(.LBB11_7-.LBB11_3)>>2
	.byte	(.LBB11_15-.LBB11_3)>>2
	.byte	(.LBB11_4-.LBB11_3)>>2
	.byte	(.LBB11_15-.LBB11_3)>>2
	.byte	(.LBB11_15-.LBB11_3)>>2
	.byte	(.LBB11_4-.LBB11_3)>>2
	.byte	(.LBB11_15-.LBB11_3)>>2
	.byte	(.LBB11_15-.LBB11_3)>>2
	.byte	(.LBB11_7-.LBB11_3)>>2
	.byte	(.LBB11_15-.LBB11_3)>>2
	.byte	(.LBB11_15-.LBB11_3)>>2
	.byte	(.LBB11_15-.LBB11_3)>>2
	.byte	(.LBB11_15-.LBB11_3)>>2
	.byte	(.LBB11_15-.LBB11_3)>>2
	.byte	(.LBB11_15-.LBB11_3)>>2
	.byte	(.LBB11_8-.LBB11_3)>>2
	.byte	(.LBB11_9-.LBB11_3)>>2
	.byte	(.LBB11_8-.LBB11_3)>>2
	.byte	(.LBB11_15-.LBB11_3)>>2
	.byte	(.LBB11_15-.LBB11_3)>>2
	.byte	(.LBB11_3-.LBB11_3)>>2
	.p2align	1, 0x0
.LJTI11_1:
	.hword	(.LBB11_40-.LBB11_18)>>2
	.hword	(.LBB11_30-.LBB11_18)>>2
	.hword	(.LBB11_65-.LBB11_18)>>2
	.hword	(.LBB11_47-.LBB11_18)>>2
	.hword	(.LBB11_65-.LBB11_18)>>2
	.hword	(.LBB11_53-.LBB11_18)>>2
	.hword	(.LBB11_65-.LBB11_18)>>2
	.hword	(.LBB11_65-.LBB11_18)>>2
	.hword	(.LBB11_32-.LBB11_18)>>2
	.hword	(.LBB11_65-.LBB11_18)>>2
	.hword	(.LBB11_65-.LBB11_18)>>2
	.hword	(.LBB11_18-.LBB11_18)>>2
	.hword	(.LBB11_65-.LBB11_18)>>2
	.hword	(.LBB11_65-.LBB11_18)>>2
	.hword	(.LBB11_65-.LBB11_18)>>2
	.hword	(.LBB11_65-.LBB11_18)>>2
	.hword	(.LBB11_65-.LBB11_18)>>2
	.hword	(.LBB11_65-.LBB11_18)>>2
	.hword	(.LBB11_34-.LBB11_18)>>2
	.hword	(.LBB11_28-.LBB11_18)>>2
	.hword	(.LBB11_22-.LBB11_18)>>2
	.hword	(.LBB11_71-.LBB11_18)>>2
	.hword	(.LBB11_65-.LBB11_18)>>2
	.hword	(.LBB11_65-.LBB11_18)>>2
	.hword	(.LBB11_65-.LBB11_18)>>2
	.hword	(.LBB11_65-.LBB11_18)>>2
	.hword	(.LBB11_65-.LBB11_18)>>2
	.hword	(.LBB11_65-.LBB11_18)>>2
	.hword	(.LBB11_65-.LBB11_18)>>2
	.hword	(.LBB11_65-.LBB11_18)>>2
	.hword	(.LBB11_65-.LBB11_18)>>2
	.hword	(.LBB11_65-.LBB11_18)>>2
	.hword	(.LBB11_65-.LBB11_18)>>2
	.hword	(.LBB11_59-.LBB11_18)>>2
	.hword	(.LBB11_65-.LBB11_18)>>2
	.hword	(.LBB11_50-.LBB11_18)>>2
	.hword	(.LBB11_65-.LBB11_18)>>2
	.hword	(.LBB11_24-.LBB11_18)>>2
	.hword	(.LBB11_65-.LBB11_18)>>2
	.hword	(.LBB11_65-.LBB11_18)>>2
	.hword	(.LBB11_26-.LBB11_18)>>2
	.hword	(.LBB11_65-.LBB11_18)>>2
	.hword	(.LBB11_65-.LBB11_18)>>2
	.hword	(.LBB11_18-.LBB11_18)>>2
	.hword	(.LBB11_65-.LBB11_18)>>2
	.hword	(.LBB11_65-.LBB11_18)>>2
	.hword	(.LBB11_65-.LBB11_18)>>2
	.hword	(.LBB11_65-.LBB11_18)>>2
	.hword	(.LBB11_65-.LBB11_18)>>2
	.hword	(.LBB11_65-.LBB11_18)>>2
	.hword	(.LBB11_22-.LBB11_18)>>2
	.hword	(.LBB11_45-.LBB11_18)>>2
	.hword	(.LBB11_37-.LBB11_18)>>2
	.hword	(.LBB11_65-.LBB11_18)>>2
	.hword	(.LBB11_65-.LBB11_18)>>2
	.hword	(.LBB11_62-.LBB11_18)>>2

	.section	.rodata.cst16,"aM",@progbits,16
	.p2align	4, 0x0
.LCPI12_0:
	.xword	1
	.xword	0
	.section	".text.amqp_in_place::problems::search_table","ax",@progbits
	.p2align	2
	.type	"amqp_in_place::problems::search_table",@function
"amqp_in_place::problems::search_table":
	cmn	x2, #1
	b.eq	.LBB12_5
	cmp	x2, #4
	b.hs	.LBB12_9
	mov	w8, #5
	cmp	x8, w3, uxtw
	b.hi	.LBB12_10
.LBB12_3:
	sub	x9, x8, #1
	cmp	x2, x9
	b.hs	.LBB12_6
.LBB12_4:
	mov	w10, #2
	mov	w11, #1
	stp	x11, xzr, [x0]
	strb	w10, [x0, #16]
	strb	wzr, [x0, #17]
	ret
.LBB12_5:
	mov	x8, xzr
	sub	x9, x8, #1
	cmp	x2, x9
	b.lo	.LBB12_4
.LBB12_6:
	sub	sp, sp, #64
	stp	x29, x30, [sp, #32]
	add	x29, sp, #32
	str	x19, [sp, #48]
	stp	xzr, xzr, [sp, #8]
	str	xzr, [sp, #24]
	cbz	w4, .LBB12_11
	mov	x19, x0
	sub	x2, x8, #5
	sub	w3, w4, #1
	add	x0, sp, #8
	add	x1, x1, #4
	bl	"amqp_in_place::problems::pairs"
	ldrb	w8, [sp, #8]
	cmp	w8, #1
	b.ne	.LBB12_12
	ldr	x8, [sp, #16]
	ldrb	w10, [sp, #24]
	mov	x0, x19
	adds	x9, x8, #5
	ldrb	w8, [sp, #25]
	cset	w11, ne
	sub	x9, x9, x11
	mov	w11, #1
	b	.LBB12_13
.LBB12_9:
	ldr	w8, [x1]
	rev	w8, w8
	add	x8, x8, #5
	cmp	x8, w3, uxtw
	b.ls	.LBB12_3
.LBB12_10:
	adrp	x8, .LCPI12_0
	ldr	q0, [x8, :lo12:.LCPI12_0]
	mov	w8, #6
	strh	w8, [x0, #16]
	str	q0, [x0]
	ret
.LBB12_11:
	mov	x9, xzr
	mov	w8, wzr
	mov	w10, #5
	mov	w11, #1
	b	.LBB12_13
.LBB12_12:
	mov	x11, xzr
	mov	x9, xzr
	mov	w10, wzr
	mov	w8, wzr
	mov	x0, x19
.LBB12_13:
	ldp	x29, x30, [sp, #32]
	ldr	x19, [sp, #48]
	add	sp, sp, #64
	stp	x11, x9, [x0]
	strb	w10, [x0, #16]
	strb	w8, [x0, #17]
	ret
.Lfunc_end12:
	.size	"amqp_in_place::problems::search_table", .Lfunc_end12-"amqp_in_place::problems::search_table"

	.section	".text.amqp_in_place::problems::values","ax",@progbits
	.p2align	2
	.type	"amqp_in_place::problems::values",@function
"amqp_in_place::problems::values":
	sub	sp, sp, #96
	stp	x20, x19, [sp, #80]
	mov	x19, x0
	stp	x29, x30, [sp, #32]
	add	x29, sp, #32
	str	x23, [sp, #48]
	stp	x22, x21, [sp, #64]
	stp	xzr, xzr, [sp, #8]
	str	xzr, [sp, #24]
	cbz	x2, .LBB13_4
	mov	w20, w3
	mov	x21, x2
	mov	x22, x1
	mov	x23, xzr
.LBB13_2:
	add	x0, sp, #8
	add	x1, x22, x23
	sub	x2, x21, x23
	mov	w3, w20
	bl	"amqp_in_place::problems::value"
	ldrb	w9, [sp, #8]
	ldr	x8, [sp, #16]
	cbnz	w9, .LBB13_5
	add	x23, x8, x23
	cmp	x23, x21
	b.lo	.LBB13_2
.LBB13_4:
	stp	xzr, xzr, [x19]
	strh	wzr, [x19, #16]
	ldp	x20, x19, [sp, #80]
	ldr	x23, [sp, #48]
	ldp	x22, x21, [sp, #64]
	ldp	x29, x30, [sp, #32]
	add	sp, sp, #96
	ret
.LBB13_5:
	ldrh	w10, [sp, #24]
	mov	w9, #1
	add	x8, x8, x23
	stp	x9, x8, [x19]
	strh	w10, [x19, #16]
	ldp	x20, x19, [sp, #80]
	ldr	x23, [sp, #48]
	ldp	x22, x21, [sp, #64]
	ldp	x29, x30, [sp, #32]
	add	sp, sp, #96
	ret
.Lfunc_end13:
	.size	"amqp_in_place::problems::values", .Lfunc_end13-"amqp_in_place::problems::values"

	.section	.rodata.cst16,"aM",@progbits,16
	.p2align	4, 0x0
.LCPI14_0:
	.xword	1
	.xword	0
	.section	".text.amqp_in_place::problems::value","ax",@progbits
	.p2align	2
	.type	"amqp_in_place::problems::value",@function
"amqp_in_place::problems::value":
	cbz	x2, .LBB14_7
	sub	sp, sp, #80
	ldrb	w10, [x1]
	stp	x29, x30, [sp, #48]
	add	x29, sp, #48
	stp	x20, x19, [sp, #64]
	sub	w8, w10, #65
	cmp	w8, #55
	b.hi	.LBB14_18
	adrp	x9, .LJTI14_0
	add	x9, x9, :lo12:.LJTI14_0
	mov	w19, #3
	adr	x11, .LBB14_3
	ldrb	w12, [x9, x8]
	add	x11, x11, x12, lsl #2
	mov	w9, #13
	mov	w8, #4
	br	x11
.LBB14_3:
	mov	w19, #7
.LBB14_4:
	sub	w8, w10, #76
	mov	w9, w19
	mov	x19, xzr
	cmp	w8, #39
	b.hi	.LBB14_30
	adrp	x10, .LJTI14_1
	add	x10, x10, :lo12:.LJTI14_1
	adr	x11, .LBB14_6
	ldrb	w12, [x10, x8]
	add	x11, x11, x12, lsl #2
	mov	w8, w9
	br	x11
.LBB14_6:
	mov	w19, #9
	b	.LBB14_30
.LBB14_7:
	adrp	x8, .LCPI14_0
	ldr	q0, [x8, :lo12:.LCPI14_0]
	mov	w8, #2
	strh	w8, [x0, #16]
	str	q0, [x0]
	ret
.LBB14_8:
	mov	w9, #14
	cmp	x2, #5
	b.lo	.LBB14_12
	b	.LBB14_26
.LBB14_9:
	mov	w8, #10
	mov	w19, #9
	sub	x9, x2, #1
	sub	x10, x19, #1
	cmp	x9, x10
	b.lo	.LBB14_24
	b	.LBB14_31
.LBB14_10:
	mov	w9, #16
.LBB14_11:
	cmp	x2, #5
	b.hs	.LBB14_26
.LBB14_12:
	mov	w19, #5
	b	.LBB14_30
.LBB14_13:
	mov	w8, #9
	mov	w19, #5
	sub	x9, x2, #1
	sub	x10, x19, #1
	cmp	x9, x10
	b.lo	.LBB14_24
	b	.LBB14_31
.LBB14_14:
	mov	w8, wzr
	mov	w19, #2
	sub	x9, x2, #1
	sub	x10, x19, #1
	cmp	x9, x10
	b.lo	.LBB14_24
	b	.LBB14_31
.LBB14_15:
	mov	w19, #5
	mov	w8, w19
	sub	x9, x2, #1
	sub	x10, x19, #1
	cmp	x9, x10
	b.lo	.LBB14_24
	b	.LBB14_31
.LBB14_16:
	mov	w8, #2
	mov	w19, #2
	sub	x9, x2, #1
	sub	x10, x19, #1
	cmp	x9, x10
	b.lo	.LBB14_24
	b	.LBB14_31
.LBB14_17:
	mov	w8, #6
	mov	w19, #5
	sub	x9, x2, #1
	sub	x10, x19, #1
	cmp	x9, x10
	b.lo	.LBB14_24
	b	.LBB14_31
.LBB14_18:
	adrp	x8, .LCPI14_0
	strb	wzr, [x0, #16]
	ldr	q0, [x8, :lo12:.LCPI14_0]
	strb	w10, [x0, #17]
	str	q0, [x0]
	ldp	x20, x19, [sp, #64]
	ldp	x29, x30, [sp, #48]
	add	sp, sp, #80
	ret
.LBB14_19:
	mov	w8, #11
	mov	w19, #6
	sub	x9, x2, #1
	sub	x10, x19, #1
	cmp	x9, x10
	b.lo	.LBB14_24
	b	.LBB14_31
.LBB14_20:
	mov	w8, #1
	mov	w19, #2
	sub	x9, x2, #1
	sub	x10, x19, #1
	cmp	x9, x10
	b.lo	.LBB14_24
	b	.LBB14_31
.LBB14_21:
	mov	w8, #15
	mov	w19, #9
	sub	x9, x2, #1
	sub	x10, x19, #1
	cmp	x9, x10
	b.lo	.LBB14_24
	b	.LBB14_31
.LBB14_22:
	mov	w8, #18
	mov	w19, #1
.LBB14_23:
	sub	x9, x2, #1
	sub	x10, x19, #1
	cmp	x9, x10
	b.hs	.LBB14_31
.LBB14_24:
	mov	x19, xzr
	mov	w8, wzr
	mov	w9, #2
	mov	w10, #1
	b	.LBB14_33
.LBB14_25:
	mov	w9, #17
	cmp	x2, #5
	b.lo	.LBB14_12
.LBB14_26:
	ldur	w8, [x1, #1]
	rev	w8, w8
	add	x19, x8, #5
	b	.LBB14_30
.LBB14_27:
	mov	w19, #3
	b	.LBB14_30
.LBB14_28:
	mov	w19, #1
	b	.LBB14_30
.LBB14_29:
	mov	w19, #2
.LBB14_30:
	mov	w8, w9
	sub	x9, x2, #1
	sub	x10, x19, #1
	cmp	x9, x10
	b.lo	.LBB14_24
.LBB14_31:
	cmp	w8, #14
	stp	xzr, xzr, [sp, #32]
	stp	xzr, xzr, [sp, #16]
	stp	xzr, xzr, [sp]
	b.hs	.LBB14_34
.LBB14_32:
	mov	x10, xzr
	mov	w9, wzr
	mov	w8, wzr
.LBB14_33:
	stp	x10, x19, [x0]
	strb	w9, [x0, #16]
	strb	w8, [x0, #17]
	ldp	x20, x19, [sp, #64]
	ldp	x29, x30, [sp, #48]
	add	sp, sp, #80
	ret
.LBB14_34:
	cmp	w8, #16
	b.gt	.LBB14_32
	cmp	w8, #14
	b.eq	.LBB14_40
	cmp	w8, #15
	b.eq	.LBB14_32
	cbz	w3, .LBB14_44
	sub	w3, w3, #1
	mov	x20, x0
	mov	x0, sp
	add	x1, x1, #5
	sub	x2, x19, #5
	bl	"amqp_in_place::problems::pairs"
	ldrb	w8, [sp]
	mov	x0, x20
	cmp	w8, #1
	b.ne	.LBB14_32
	ldr	x10, [sp, #8]
	ldrb	w8, [sp, #17]
	ldrb	w9, [sp, #16]
	b	.LBB14_43
.LBB14_40:
	cbz	w3, .LBB14_44
	sub	w3, w3, #1
	mov	x20, x0
	add	x0, sp, #24
	add	x1, x1, #5
	sub	x2, x19, #5
	bl	"amqp_in_place::problems::values"
	ldrb	w8, [sp, #24]
	mov	x0, x20
	cmp	w8, #1
	b.ne	.LBB14_32
	ldr	x10, [sp, #32]
	ldrb	w8, [sp, #41]
	ldrb	w9, [sp, #40]
.LBB14_43:
	add	x19, x10, #5
	mov	w10, #1
	b	.LBB14_33
.LBB14_44:
	mov	x19, xzr
	mov	w8, wzr
	mov	w9, #5
	mov	w10, #1
	b	.LBB14_33
.Lfunc_end14:
	.size	"amqp_in_place::problems::value", .Lfunc_end14-"amqp_in_place::problems::value"
	.section	".rodata.amqp_in_place::problems::value","a",@progbits
.LJTI14_0:
	.byte	(.LBB14_8-.LBB14_3)>>2
	.byte	(.LBB14_16-.LBB14_3)>>2
	.byte	(.LBB14_18-.LBB14_3)>>2
	.byte	(.LBB14_19-.LBB14_3)>>2
	.byte	(.LBB14_18-.LBB14_3)>>2
	.byte	(.LBB14_10-.LBB14_3)>>2
	.byte	(.LBB14_18-.LBB14_3)>>2
	.byte	(.LBB14_18-.LBB14_3)>>2
	.byte	(.LBB14_15-.LBB14_3)>>2
	.byte	(.LBB14_18-.LBB14_3)>>2
	.byte	(.LBB14_18-.LBB14_3)>>2
	.byte	(.LBB14_3-.LBB14_3)>>2
	.byte	(.LBB14_18-.LBB14_3)>>2
	.byte	(.LBB14_18-.LBB14_3)>>2
	.byte	(.LBB14_18-.LBB14_3)>>2
	.byte	(.LBB14_18-.LBB14_3)>>2
	.byte	(.LBB14_18-.LBB14_3)>>2
	.byte	(.LBB14_18-.LBB14_3)>>2
	.byte	(.LBB14_11-.LBB14_3)>>2
	.byte	(.LBB14_21-.LBB14_3)>>2
	.byte	(.LBB14_4-.LBB14_3)>>2
	.byte	(.LBB14_22-.LBB14_3)>>2
	.byte	(.LBB14_18-.LBB14_3)>>2
	.byte	(.LBB14_18-.LBB14_3)>>2
	.byte	(.LBB14_18-.LBB14_3)>>2
	.byte	(.LBB14_18-.LBB14_3)>>2
	.byte	(.LBB14_18-.LBB14_3)>>2
	.byte	(.LBB14_18-.LBB14_3)>>2
	.byte	(.LBB14_18-.LBB14_3)>>2
	.byte	(.LBB14_18-.LBB14_3)>>2
	.byte	(.LBB14_18-.LBB14_3)>>2
	.byte	(.LBB14_18-.LBB14_3)>>2
	.byte	(.LBB14_18-.LBB14_3)>>2
	.byte	(.LBB14_20-.LBB14_3)>>2
	.byte	(.LBB14_18-.LBB14_3)>>2
	.byte	(.LBB14_9-.LBB14_3)>>2
	.byte	(.LBB14_18-.LBB14_3)>>2
	.byte	(.LBB14_13-.LBB14_3)>>2
	.byte	(.LBB14_18-.LBB14_3)>>2
	.byte	(.LBB14_18-.LBB14_3)>>2
	.byte	(.LBB14_17-.LBB14_3)>>2
	.byte	(.LBB14_18-.LBB14_3)>>2
	.byte	(.LBB14_18-.LBB14_3)>>2
	.byte	(.LBB14_3-.LBB14_3)>>2
	.byte	(.LBB14_18-.LBB14_3)>>2
	.byte	(.LBB14_18-.LBB14_3)>>2
	.byte	(.LBB14_18-.LBB14_3)>>2
	.byte	(.LBB14_18-.LBB14_3)>>2
	.byte	(.LBB14_18-.LBB14_3)>>2
	.byte	(.LBB14_18-.LBB14_3)>>2
	.byte	(.LBB14_4-.LBB14_3)>>2
	.byte	(.LBB14_14-.LBB14_3)>>2
	.byte	(.LBB14_23-.LBB14_3)>>2
	.byte	(.LBB14_18-.LBB14_3)>>2
	.byte	(.LBB14_18-.LBB14_3)>>2
	.byte	(.LBB14_25-.LBB14_3)>>2
.LJTI14_1:
	.byte	(.LBB14_6-.LBB14_6)>>2
	.byte	(.LBB14_23-.LBB14_6)>>2
	.byte	(.LBB14_23-.LBB14_6)>>2
	.byte	(.LBB14_23-.LBB14_6)>>2
	.byte	(.LBB14_23-.LBB14_6)>>2
	.byte	(.LBB14_23-.LBB14_6)>>2
	.byte	(.LBB14_23-.LBB14_6)>>2
	.byte	(.LBB14_11-.LBB14_6)>>2
	.byte	(.LBB14_6-.LBB14_6)>>2
	.byte	(.LBB14_27-.LBB14_6)>>2
	.byte	(.LBB14_28-.LBB14_6)>>2
	.byte	(.LBB14_23-.LBB14_6)>>2
	.byte	(.LBB14_23-.LBB14_6)>>2
	.byte	(.LBB14_23-.LBB14_6)>>2
	.byte	(.LBB14_23-.LBB14_6)>>2
	.byte	(.LBB14_23-.LBB14_6)>>2
	.byte	(.LBB14_23-.LBB14_6)>>2
	.byte	(.LBB14_23-.LBB14_6)>>2
	.byte	(.LBB14_23-.LBB14_6)>>2
	.byte	(.LBB14_23-.LBB14_6)>>2
	.byte	(.LBB14_23-.LBB14_6)>>2
	.byte	(.LBB14_23-.LBB14_6)>>2
	.byte	(.LBB14_29-.LBB14_6)>>2
	.byte	(.LBB14_23-.LBB14_6)>>2
	.byte	(.LBB14_6-.LBB14_6)>>2
	.byte	(.LBB14_23-.LBB14_6)>>2
	.byte	(.LBB14_12-.LBB14_6)>>2
	.byte	(.LBB14_23-.LBB14_6)>>2
	.byte	(.LBB14_23-.LBB14_6)>>2
	.byte	(.LBB14_12-.LBB14_6)>>2
	.byte	(.LBB14_23-.LBB14_6)>>2
	.byte	(.LBB14_23-.LBB14_6)>>2
	.byte	(.LBB14_6-.LBB14_6)>>2
	.byte	(.LBB14_23-.LBB14_6)>>2
	.byte	(.LBB14_23-.LBB14_6)>>2
	.byte	(.LBB14_23-.LBB14_6)>>2
	.byte	(.LBB14_23-.LBB14_6)>>2
	.byte	(.LBB14_23-.LBB14_6)>>2
	.byte	(.LBB14_23-.LBB14_6)>>2
	.byte	(.LBB14_27-.LBB14_6)>>2

	.section	".text.amqp_in_place::problems::pairs","ax",@progbits
	.p2align	2
	.type	"amqp_in_place::problems::pairs",@function
"amqp_in_place::problems::pairs":
	sub	sp, sp, #112
	stp	x20, x19, [sp, #96]
	mov	x19, x0
	stp	x29, x30, [sp, #32]
	add	x29, sp, #32
	stp	x26, x25, [sp, #48]
	stp	x24, x23, [sp, #64]
	stp	x22, x21, [sp, #80]
	cbz	x2, .LBB15_24
	mov	w20, w3
	mov	x21, x2
	mov	x22, x1
	mov	x26, xzr
.LBB15_2:
	add	x24, x22, x26
	mvn	x8, x26
	stp	xzr, xzr, [sp, #8]
	ldrb	w23, [x24], #1
	add	x8, x21, x8
	str	xzr, [sp, #24]
	subs	x25, x8, x23
	add	x8, x22, x26
	b.lo	.LBB15_25
	cmp	w23, #7
	b.hi	.LBB15_19
	cbz	w23, .LBB15_20
	ldrsb	w9, [x8, #1]
	tbnz	w9, #31, .LBB15_22
	cmp	w23, #1
	b.eq	.LBB15_20
	ldrsb	w9, [x8, #2]
	tbnz	w9, #31, .LBB15_22
	cmp	w23, #2
	b.eq	.LBB15_20
	ldrsb	w9, [x8, #3]
	tbnz	w9, #31, .LBB15_22
	cmp	w23, #3
	b.eq	.LBB15_20
	ldrsb	w9, [x8, #4]
	tbnz	w9, #31, .LBB15_22
	cmp	w23, #4
	b.eq	.LBB15_20
	ldrsb	w9, [x8, #5]
	tbnz	w9, #31, .LBB15_22
	cmp	w23, #5
	b.eq	.LBB15_20
	ldrsb	w9, [x8, #6]
	tbnz	w9, #31, .LBB15_22
	cmp	w23, #6
	b.eq	.LBB15_20
	ldrsb	w8, [x8, #7]
	tbnz	w8, #31, .LBB15_22
	cmp	w23, #7
	b.eq	.LBB15_20
	b	.LBB15_22
.LBB15_19:
	mov	x0, x24
	mov	x1, x23
	bl	"amqp_in_place::read::is_ascii_by_words"
	tbz	w0, #0, .LBB15_22
.LBB15_20:
	add	x0, sp, #8
	add	x1, x24, x23
	mov	x2, x25
	mov	w3, w20
	bl	"amqp_in_place::problems::value"
	ldrb	w8, [sp, #8]
	ldr	x10, [sp, #16]
	cbnz	w8, .LBB15_27
	add	x8, x26, x23
	add	x8, x8, x10
	add	x26, x8, #1
	cmp	x26, x21
	b.lo	.LBB15_2
	b	.LBB15_24
.LBB15_22:
	mov	x0, x24
	mov	x1, x23
	bl	"amqp_in_place::read::is_utf8"
	cbnz	w0, .LBB15_20
	mov	w8, #4
	b	.LBB15_26
.LBB15_24:
	stp	xzr, xzr, [x19]
	strh	wzr, [x19, #16]
	b	.LBB15_29
.LBB15_25:
	mov	w8, #3
.LBB15_26:
	mov	w9, wzr
	mov	x10, xzr
	b	.LBB15_28
.LBB15_27:
	ldrb	w8, [sp, #24]
	ldrb	w9, [sp, #25]
	add	x10, x23, x10
	add	x10, x10, #1
.LBB15_28:
	mov	w11, #1
	add	x10, x10, x26
	strb	w8, [x19, #16]
	stp	x11, x10, [x19]
	strb	w9, [x19, #17]
.LBB15_29:
	ldp	x20, x19, [sp, #96]
	ldp	x22, x21, [sp, #80]
	ldp	x24, x23, [sp, #64]
	ldp	x26, x25, [sp, #48]
	ldp	x29, x30, [sp, #32]
	add	sp, sp, #112
	ret
.Lfunc_end15:
	.size	"amqp_in_place::problems::pairs", .Lfunc_end15-"amqp_in_place::problems::pairs"

	.section	.rodata.cst16,"aM",@progbits,16
	.p2align	4, 0x0
.LCPI16_0:
	.xword	1
	.xword	0
	.section	".text.amqp_in_place::problems::search","ax",@progbits
	.p2align	2
	.type	"amqp_in_place::problems::search",@function
"amqp_in_place::problems::search":
	sub	sp, sp, #64
	str	x19, [sp, #48]
	mov	x19, x0
	stp	x29, x30, [sp, #32]
	add	x29, sp, #32
	str	xzr, [sp, #24]
	cbz	x2, .LBB16_5
	ldrb	w8, [x1]
	sub	w8, w8, #65
	cmp	w8, #55
	b.hi	.LBB16_5
	adrp	x9, .LJTI16_0
	add	x9, x9, :lo12:.LJTI16_0
	adr	x10, .LBB16_3
	ldrb	w11, [x9, x8]
	add	x10, x10, x11, lsl #2
	mov	w8, #1
	br	x10
.LBB16_3:
	cmp	x2, #5
	b.hs	.LBB16_12
.LBB16_4:
	mov	w8, #5
	cmp	x8, w3, uxtw
	b.hi	.LBB16_14
.LBB16_5:
	add	x0, sp, #8
	mov	w3, w4
	bl	"amqp_in_place::problems::value"
	ldrb	w8, [sp, #8]
	cbz	w8, .LBB16_7
	ldrb	w8, [sp, #25]
	ldrb	w9, [sp, #24]
	mov	w11, #1
	ldr	x10, [sp, #16]
	b	.LBB16_8
.LBB16_7:
	mov	x11, xzr
	mov	x10, xzr
	mov	w9, wzr
.LBB16_8:
	stp	x11, x10, [x19]
	strb	w9, [x19, #16]
	strb	w8, [x19, #17]
	ldp	x29, x30, [sp, #32]
	ldr	x19, [sp, #48]
	add	sp, sp, #64
	ret
.LBB16_9:
	mov	w8, #9
	cmp	x8, w3, uxtw
	b.hi	.LBB16_14
	b	.LBB16_5
.LBB16_10:
	mov	w8, #2
	cmp	x8, w3, uxtw
	b.hi	.LBB16_14
	b	.LBB16_5
.LBB16_11:
	mov	w8, #3
	cmp	x8, w3, uxtw
	b.hi	.LBB16_14
	b	.LBB16_5
.LBB16_12:
	ldur	w8, [x1, #1]
	rev	w8, w8
	add	x8, x8, #5
.LBB16_13:
	cmp	x8, w3, uxtw
	b.ls	.LBB16_5
.LBB16_14:
	adrp	x8, .LCPI16_0
	ldr	q0, [x8, :lo12:.LCPI16_0]
	mov	w8, #6
	strh	w8, [x19, #16]
	str	q0, [x19]
	ldp	x29, x30, [sp, #32]
	ldr	x19, [sp, #48]
	add	sp, sp, #64
	ret
.LBB16_15:
	mov	w8, #6
	cmp	x8, w3, uxtw
	b.hi	.LBB16_14
	b	.LBB16_5
.Lfunc_end16:
	.size	"amqp_in_place::problems::search", .Lfunc_end16-"amqp_in_place::problems::search"
	.section	".rodata.amqp_in_place::problems::search","a",@progbits
.LJTI16_0:
	.byte	(.LBB16_3-.LBB16_3)>>2
	.byte	(.LBB16_10-.LBB16_3)>>2
	.byte	(.LBB16_5-.LBB16_3)>>2
	.byte	(.LBB16_15-.LBB16_3)>>2
	.byte	(.LBB16_5-.LBB16_3)>>2
	.byte	(.LBB16_3-.LBB16_3)>>2
	.byte	(.LBB16_5-.LBB16_3)>>2
	.byte	(.LBB16_5-.LBB16_3)>>2
	.byte	(.LBB16_4-.LBB16_3)>>2
	.byte	(.LBB16_5-.LBB16_3)>>2
	.byte	(.LBB16_5-.LBB16_3)>>2
	.byte	(.LBB16_9-.LBB16_3)>>2
	.byte	(.LBB16_5-.LBB16_3)>>2
	.byte	(.LBB16_5-.LBB16_3)>>2
	.byte	(.LBB16_5-.LBB16_3)>>2
	.byte	(.LBB16_5-.LBB16_3)>>2
	.byte	(.LBB16_5-.LBB16_3)>>2
	.byte	(.LBB16_5-.LBB16_3)>>2
	.byte	(.LBB16_3-.LBB16_3)>>2
	.byte	(.LBB16_9-.LBB16_3)>>2
	.byte	(.LBB16_11-.LBB16_3)>>2
	.byte	(.LBB16_13-.LBB16_3)>>2
	.byte	(.LBB16_5-.LBB16_3)>>2
	.byte	(.LBB16_5-.LBB16_3)>>2
	.byte	(.LBB16_5-.LBB16_3)>>2
	.byte	(.LBB16_5-.LBB16_3)>>2
	.byte	(.LBB16_5-.LBB16_3)>>2
	.byte	(.LBB16_5-.LBB16_3)>>2
	.byte	(.LBB16_5-.LBB16_3)>>2
	.byte	(.LBB16_5-.LBB16_3)>>2
	.byte	(.LBB16_5-.LBB16_3)>>2
	.byte	(.LBB16_5-.LBB16_3)>>2
	.byte	(.LBB16_5-.LBB16_3)>>2
	.byte	(.LBB16_10-.LBB16_3)>>2
	.byte	(.LBB16_5-.LBB16_3)>>2
	.byte	(.LBB16_9-.LBB16_3)>>2
	.byte	(.LBB16_5-.LBB16_3)>>2
	.byte	(.LBB16_4-.LBB16_3)>>2
	.byte	(.LBB16_5-.LBB16_3)>>2
	.byte	(.LBB16_5-.LBB16_3)>>2
	.byte	(.LBB16_4-.LBB16_3)>>2
	.byte	(.LBB16_5-.LBB16_3)>>2
	.byte	(.LBB16_5-.LBB16_3)>>2
	.byte	(.LBB16_9-.LBB16_3)>>2
	.byte	(.LBB16_5-.LBB16_3)>>2
	.byte	(.LBB16_5-.LBB16_3)>>2
	.byte	(.LBB16_5-.LBB16_3)>>2
	.byte	(.LBB16_5-.LBB16_3)>>2
	.byte	(.LBB16_5-.LBB16_3)>>2
	.byte	(.LBB16_5-.LBB16_3)>>2
	.byte	(.LBB16_11-.LBB16_3)>>2
	.byte	(.LBB16_10-.LBB16_3)>>2
	.byte	(.LBB16_11-.LBB16_3)>>2
	.byte	(.LBB16_5-.LBB16_3)>>2
	.byte	(.LBB16_5-.LBB16_3)>>2
	.byte	(.LBB16_3-.LBB16_3)>>2

	.section	".text.unlikely.amqp_c::input::Input::header","ax",@progbits
	.p2align	2
	.type	"amqp_c::input::Input::header",@function
"amqp_c::input::Input::header":
	ldp	x10, x8, [x0]
	ldrb	w11, [x0, #24]
	ldr	w9, [x0, #16]
	tbnz	w11, #0, .LBB17_6
	cbz	x8, .LBB17_9
	ldrb	w11, [x10]
	mov	x1, xzr
	mov	w0, wzr
	sub	w11, w11, #65
	cmp	w11, #55
	b.hi	.LBB17_21
	adrp	x12, .LJTI17_0
	add	x12, x12, :lo12:.LJTI17_0
	adr	x13, .LBB17_4
	ldrb	w14, [x12, x11]
	add	x13, x13, x14, lsl #2
	mov	x11, x1
	br	x13
.LBB17_4:
	cmp	x8, #5
	b.hs	.LBB17_15
.LBB17_5:
	mov	w1, #4
	mov	w11, #4
	cmp	x11, x9
	b.lo	.LBB17_17
	b	.LBB17_23
.LBB17_6:
	cmn	x8, #1
	b.eq	.LBB17_9
	cmp	x8, #3
	b.hi	.LBB17_10
	mov	w10, #4
	cmp	w9, #4
	mov	w9, #1
	sub	x8, x10, x8
	cinc	w0, w9, hi
	csel	x1, x8, xzr, hi
	ret
.LBB17_9:
	mov	w0, #2
	mov	w1, #1
	ret
.LBB17_10:
	ldr	w10, [x10]
	rev	w10, w10
	add	x10, x10, #4
	cmp	x10, x9
	b.hs	.LBB17_23
	cmp	x8, x10
	mov	w9, #2
	cinc	w0, w9, hs
	subs	x8, x10, x8
	b	.LBB17_20
.LBB17_12:
	mov	w1, #8
	mov	w11, #8
	cmp	x11, x9
	b.lo	.LBB17_17
	b	.LBB17_23
.LBB17_13:
	mov	w1, #2
	mov	w11, #2
	cmp	x11, x9
	b.lo	.LBB17_17
	b	.LBB17_23
.LBB17_14:
	mov	w1, #1
	mov	w11, #1
	cmp	x11, x9
	b.lo	.LBB17_17
	b	.LBB17_23
.LBB17_15:
	ldur	w10, [x10, #1]
	mov	w1, #4
	rev	w10, w10
	add	x11, x10, #4
.LBB17_16:
	cmp	x11, x9
	b.hs	.LBB17_23
.LBB17_17:
	sub	x8, x8, #1
	subs	x1, x1, x8
	b.ls	.LBB17_19
	mov	w0, #2
	ret
.LBB17_19:
	cmp	x8, x11
	mov	w9, #2
	cinc	w0, w9, hs
	subs	x8, x11, x8
.LBB17_20:
	csel	x1, xzr, x8, lo
.LBB17_21:
	ret
.LBB17_22:
	mov	w11, #5
	mov	w1, #1
	cmp	x11, x9
	b.lo	.LBB17_17
.LBB17_23:
	mov	x1, xzr
	mov	w0, #1
	ret
.Lfunc_end17:
	.size	"amqp_c::input::Input::header", .Lfunc_end17-"amqp_c::input::Input::header"
	.section	".rodata.unlikely.amqp_c::input::Input::header","a",@progbits
.LJTI17_0:
	.byte	(.LBB17_4-.LBB17_4)>>2
	.byte	(.LBB17_14-.LBB17_4)>>2
	.byte	(.LBB17_21-.LBB17_4)>>2
	.byte	(.LBB17_22-.LBB17_4)>>2
	.byte	(.LBB17_21-.LBB17_4)>>2
	.byte	(.LBB17_4-.LBB17_4)>>2
	.byte	(.LBB17_21-.LBB17_4)>>2
	.byte	(.LBB17_21-.LBB17_4)>>2
	.byte	(.LBB17_5-.LBB17_4)>>2
	.byte	(.LBB17_21-.LBB17_4)>>2
	.byte	(.LBB17_21-.LBB17_4)>>2
	.byte	(.LBB17_12-.LBB17_4)>>2
	.byte	(.LBB17_21-.LBB17_4)>>2
	.byte	(.LBB17_21-.LBB17_4)>>2
	.byte	(.LBB17_21-.LBB17_4)>>2
	.byte	(.LBB17_21-.LBB17_4)>>2
	.byte	(.LBB17_21-.LBB17_4)>>2
	.byte	(.LBB17_21-.LBB17_4)>>2
	.byte	(.LBB17_4-.LBB17_4)>>2
	.byte	(.LBB17_12-.LBB17_4)>>2
	.byte	(.LBB17_13-.LBB17_4)>>2
	.byte	(.LBB17_16-.LBB17_4)>>2
	.byte	(.LBB17_21-.LBB17_4)>>2
	.byte	(.LBB17_21-.LBB17_4)>>2
	.byte	(.LBB17_21-.LBB17_4)>>2
	.byte	(.LBB17_21-.LBB17_4)>>2
	.byte	(.LBB17_21-.LBB17_4)>>2
	.byte	(.LBB17_21-.LBB17_4)>>2
	.byte	(.LBB17_21-.LBB17_4)>>2
	.byte	(.LBB17_21-.LBB17_4)>>2
	.byte	(.LBB17_21-.LBB17_4)>>2
	.byte	(.LBB17_21-.LBB17_4)>>2
	.byte	(.LBB17_21-.LBB17_4)>>2
	.byte	(.LBB17_14-.LBB17_4)>>2
	.byte	(.LBB17_21-.LBB17_4)>>2
	.byte	(.LBB17_12-.LBB17_4)>>2
	.byte	(.LBB17_21-.LBB17_4)>>2
	.byte	(.LBB17_5-.LBB17_4)>>2
	.byte	(.LBB17_21-.LBB17_4)>>2
	.byte	(.LBB17_21-.LBB17_4)>>2
	.byte	(.LBB17_5-.LBB17_4)>>2
	.byte	(.LBB17_21-.LBB17_4)>>2
	.byte	(.LBB17_21-.LBB17_4)>>2
	.byte	(.LBB17_12-.LBB17_4)>>2
	.byte	(.LBB17_21-.LBB17_4)>>2
	.byte	(.LBB17_21-.LBB17_4)>>2
	.byte	(.LBB17_21-.LBB17_4)>>2
	.byte	(.LBB17_21-.LBB17_4)>>2
	.byte	(.LBB17_21-.LBB17_4)>>2
	.byte	(.LBB17_21-.LBB17_4)>>2
	.byte	(.LBB17_13-.LBB17_4)>>2
	.byte	(.LBB17_14-.LBB17_4)>>2
	.byte	(.LBB17_13-.LBB17_4)>>2
	.byte	(.LBB17_21-.LBB17_4)>>2
	.byte	(.LBB17_21-.LBB17_4)>>2
	.byte	(.LBB17_4-.LBB17_4)>>2

	.section	.rodata.cst16,"aM",@progbits,16
	.p2align	4, 0x0
.LCPI18_0:
	.xword	1
	.xword	770
	.section	".text.amq_protocol_types::parsing::values::parse_array_body::<#021be0914fa2e150>","ax",@progbits
	.p2align	2
	.type	"amq_protocol_types::parsing::values::parse_array_body::<#021be0914fa2e150>",@function
"amq_protocol_types::parsing::values::parse_array_body::<#021be0914fa2e150>":
	sub	sp, sp, #176
	stp	x29, x30, [sp, #80]
	add	x29, sp, #80
	stp	x20, x19, [sp, #160]
	mov	x19, x0
	sub	x8, x29, #8
	stp	x28, x27, [sp, #96]
	stp	x26, x25, [sp, #112]
	stp	x24, x23, [sp, #128]
	stp	x22, x21, [sp, #144]
	stp	xzr, xzr, [sp, #16]
	str	x8, [sp, #8]
	cbz	x2, .LBB18_75
	mov	x21, x3
	sub	x20, x29, #8
	mov	x25, x1
.LBB18_2:
	ldrb	w8, [x25], #1
	mov	w12, wzr
	mov	w11, #1
	sub	w10, w8, #65
	cmp	w10, #55
	b.hi	.LBB18_79
	adrp	x13, .LJTI18_0
	add	x13, x13, :lo12:.LJTI18_0
	mov	x8, xzr
	adr	x14, .LBB18_4
	ldrh	w15, [x13, x10, lsl #1]
	add	x14, x14, x15, lsl #2
	mov	x22, xzr
	mov	x27, xzr
	mov	x28, xzr
	mov	x23, xzr
	mov	x9, xzr
	sub	x26, x2, #1
	mov	w10, #17
	br	x14
.LBB18_4:
	cmp	x26, #8
	b.lo	.LBB18_78
	ldur	x10, [x1, #1]
	mov	x8, xzr
	mov	x22, xzr
	mov	x27, xzr
	mov	x28, xzr
	mov	x9, xzr
	rev	x23, x10
	add	x25, x1, #9
	sub	x26, x2, #9
	mov	w10, #7
	b	.LBB18_71
.LBB18_6:
	cmp	x26, #2
	b.lo	.LBB18_78
	ldurh	w8, [x1, #1]
	mov	x22, xzr
	mov	x27, xzr
	mov	x28, xzr
	mov	x23, xzr
	mov	x9, xzr
	rev16	w8, w8
	add	x25, x1, #3
	sub	x26, x2, #3
	mov	w10, #3
	b	.LBB18_71
.LBB18_8:
	cmp	x26, #4
	b.lo	.LBB18_78
	ldur	w10, [x1, #1]
	mov	x8, xzr
	mov	x22, xzr
	mov	x27, xzr
	mov	x23, xzr
	mov	x9, xzr
	rev	w28, w10
	add	x25, x1, #5
	sub	x26, x2, #5
	mov	w10, #8
	b	.LBB18_71
.LBB18_10:
	cbz	x26, .LBB18_78
	ldrb	w9, [x1, #1]
	mov	x8, xzr
	mov	x22, xzr
	mov	x27, xzr
	mov	x28, xzr
	mov	x23, xzr
	cmp	w9, #0
	mov	x10, xzr
	add	x25, x1, #2
	sub	x26, x2, #2
	cset	w9, ne
	b	.LBB18_71
.LBB18_12:
	subs	x9, x2, #5
	b.lo	.LBB18_88
	ldur	w8, [x1, #1]
	rev	w22, w8
	subs	x26, x9, x22
	b.lo	.LBB18_88
	add	x24, x1, #5
	add	x25, x24, x22
	cbz	w8, .LBB18_51
	mov	x27, x1
	mov	x0, x22
	mov	w1, #1
	bl	rattle_alloc
	tbz	w0, #0, .LBB18_97
	sub	x8, x1, x24
	mov	x23, x1
	cmp	x8, x22
	b.hs	.LBB18_54
	cmp	w22, #8
	b.hs	.LBB18_56
	mov	x9, xzr
	mov	x8, x27
	b	.LBB18_67
.LBB18_19:
	cmp	x26, #4
	b.lo	.LBB18_78
	ldur	w10, [x1, #1]
	mov	x8, xzr
	mov	x22, xzr
	mov	x27, xzr
	mov	x23, xzr
	mov	x9, xzr
	rev	w28, w10
	add	x25, x1, #5
	sub	x26, x2, #5
	mov	w10, #5
	b	.LBB18_71
.LBB18_21:
	subs	x26, x2, #6
	b.lo	.LBB18_78
	ldur	w10, [x1, #2]
	ldrb	w11, [x1, #1]
	mov	x8, xzr
	mov	x22, xzr
	mov	x27, xzr
	mov	x9, xzr
	rev	w23, w10
	add	x25, x1, #6
	mov	w10, #10
	orr	x28, x11, x23, lsl #32
	b	.LBB18_71
.LBB18_23:
	cbz	x26, .LBB18_78
	ldrb	w9, [x1, #1]
	mov	x8, xzr
	mov	x22, xzr
	mov	x27, xzr
	mov	x28, xzr
	mov	x23, xzr
	add	x25, x1, #2
	sub	x26, x2, #2
	mov	w10, #2
	b	.LBB18_71
.LBB18_25:
	movi	v0.2d, #0000000000000000
	subs	x8, x2, #5
	stp	q0, q0, [sp, #32]
	b.lo	.LBB18_78
	ldr	w9, [x25]
	rev	w23, w9
	subs	x26, x8, x23
	b.lo	.LBB18_78
	cbz	x21, .LBB18_89
	add	x24, x1, #5
	add	x0, sp, #32
	sub	x3, x21, #1
	mov	x1, x24
	mov	x2, x23
	bl	"amq_protocol_types::parsing::values::parse_array_body::<#021be0914fa2e150>"
	ldrb	w8, [sp, #32]
	ldrb	w11, [sp, #40]
	ldrb	w12, [sp, #41]
	cbnz	w8, .LBB18_99
	ldur	w10, [sp, #42]
	ldrh	w13, [sp, #46]
	orr	x11, x11, x12, lsl #8
	ldp	x22, x27, [sp, #48]
	mov	x8, xzr
	lsl	x10, x10, #16
	mov	x28, xzr
	mov	x9, xzr
	add	x25, x24, x23
	orr	x10, x10, x13, lsl #48
	orr	x23, x11, x10
	mov	w10, #13
	b	.LBB18_71
.LBB18_30:
	movi	v0.2d, #0000000000000000
	subs	x8, x2, #5
	stp	q0, q0, [sp, #32]
	b.lo	.LBB18_78
	ldr	w9, [x25]
	rev	w24, w9
	subs	x26, x8, x24
	b.lo	.LBB18_78
	cbz	x21, .LBB18_89
	add	x25, x1, #5
	add	x0, sp, #32
	sub	x3, x21, #1
	mov	x1, x25
	mov	x2, x24
	bl	"amq_protocol_types::parsing::values::parse_table_body::<#021be0914fa2e150>"
	ldrb	w8, [sp, #32]
	ldrb	w23, [sp, #40]
	cbnz	w8, .LBB18_96
	ldp	x22, x27, [sp, #48]
	mov	x8, xzr
	mov	x28, xzr
	mov	x9, xzr
	add	x25, x25, x24
	mov	w10, #15
	b	.LBB18_71
.LBB18_35:
	subs	x9, x2, #5
	b.lo	.LBB18_87
	ldur	w8, [x1, #1]
	rev	w24, w8
	subs	x26, x9, x24
	b.lo	.LBB18_87
	add	x25, x1, #5
	cbz	w8, .LBB18_52
	mov	x0, x24
	mov	w1, #1
	bl	rattle_alloc
	tbz	w0, #0, .LBB18_102
	stp	x1, xzr, [sp, #32]
	add	x0, sp, #32
	mov	x1, x25
	mov	x2, x24
	str	x24, [sp, #48]
	bl	"std_alloc::vec::Vec::extend_from_slice::<#f0d03d630576da86>"
	and	w8, w0, #0xff
	tbnz	w8, #0, .LBB18_100
	ldp	x23, x22, [sp, #32]
	ldr	x27, [sp, #48]
	b	.LBB18_53
.LBB18_41:
	cmp	x26, #2
	b.lo	.LBB18_78
	ldurh	w8, [x1, #1]
	mov	x22, xzr
	mov	x27, xzr
	mov	x28, xzr
	mov	x23, xzr
	mov	x9, xzr
	rev16	w8, w8
	add	x25, x1, #3
	sub	x26, x2, #3
	mov	w10, #4
	b	.LBB18_71
.LBB18_43:
	cmp	x26, #8
	b.lo	.LBB18_78
	ldur	x10, [x1, #1]
	mov	x8, xzr
	mov	x22, xzr
	mov	x27, xzr
	mov	x28, xzr
	mov	x9, xzr
	rev	x23, x10
	add	x25, x1, #9
	sub	x26, x2, #9
	mov	w10, #9
	b	.LBB18_71
.LBB18_45:
	cmp	x26, #8
	b.lo	.LBB18_78
	ldur	x10, [x1, #1]
	mov	x8, xzr
	mov	x22, xzr
	mov	x27, xzr
	mov	x28, xzr
	mov	x9, xzr
	rev	x23, x10
	add	x25, x1, #9
	sub	x26, x2, #9
	mov	w10, #14
	b	.LBB18_71
.LBB18_47:
	cmp	x26, #4
	b.lo	.LBB18_78
	ldur	w10, [x1, #1]
	mov	x8, xzr
	mov	x22, xzr
	mov	x27, xzr
	mov	x23, xzr
	mov	x9, xzr
	rev	w28, w10
	add	x25, x1, #5
	sub	x26, x2, #5
	mov	w10, #6
	b	.LBB18_71
.LBB18_49:
	cbz	x26, .LBB18_78
	ldrb	w9, [x1, #1]
	mov	x8, xzr
	mov	x22, xzr
	mov	x27, xzr
	mov	x28, xzr
	mov	x23, xzr
	add	x25, x1, #2
	sub	x26, x2, #2
	mov	w10, #1
	b	.LBB18_71
.LBB18_51:
	mov	x8, xzr
	mov	x22, xzr
	mov	x27, xzr
	mov	x28, xzr
	mov	x9, xzr
	sub	x23, x29, #8
	mov	w10, #16
	b	.LBB18_71
.LBB18_52:
	mov	x27, xzr
	mov	x22, xzr
	sub	x23, x29, #8
.LBB18_53:
	mov	x8, xzr
	mov	x28, xzr
	mov	x9, xzr
	add	x25, x25, x24
	mov	w10, #12
	b	.LBB18_71
.LBB18_54:
	mov	x0, x23
	mov	x1, x24
	mov	x2, x22
	bl	memmove
.LBB18_55:
	mov	x8, xzr
	mov	x28, xzr
	mov	x9, xzr
	mov	w10, #16
	b	.LBB18_70
.LBB18_56:
	sub	x9, x23, x27
	mov	x8, x27
	sub	x9, x9, #5
	cmp	x9, #32
	b.hs	.LBB18_58
	mov	x9, xzr
	b	.LBB18_67
.LBB18_58:
	cmp	w22, #32
	b.hs	.LBB18_60
	mov	x9, xzr
	b	.LBB18_64
.LBB18_60:
	and	x10, x22, #0x18
	and	x9, x22, #0xffffffe0
	add	x11, x8, #21
	add	x12, x23, #16
	and	x13, x22, #0xffffffe0
.LBB18_61:
	ldp	q0, q1, [x11, #-16]
	subs	x13, x13, #32
	add	x11, x11, #32
	stp	q0, q1, [x12, #-16]
	add	x12, x12, #32
	b.ne	.LBB18_61
	cmp	x9, x22
	b.eq	.LBB18_55
	cbz	x10, .LBB18_67
.LBB18_64:
	mov	x12, x9
	and	x9, x22, #0xfffffff8
	add	x11, x8, x12
	sub	x10, x12, x9
	add	x12, x23, x12
	add	x11, x11, #5
.LBB18_65:
	ldr	d0, [x11], #8
	adds	x10, x10, #8
	str	d0, [x12], #8
	b.ne	.LBB18_65
	cmp	x9, x22
	b.eq	.LBB18_55
.LBB18_67:
	add	x10, x8, x9
	sub	x8, x22, x9
	add	x9, x23, x9
	add	x11, x10, #5
.LBB18_68:
	ldrb	w10, [x11], #1
	subs	x8, x8, #1
	strb	w10, [x9], #1
	mov	w10, #16
	b.ne	.LBB18_68
	mov	x28, xzr
	mov	x9, xzr
.LBB18_70:
	mov	x27, x22
.LBB18_71:
	lsl	x11, x8, #16
	ldp	x8, x12, [sp, #16]
	orr	x9, x10, x9, lsl #8
	orr	x11, x11, x28, lsl #32
	cmp	x12, x8
	orr	x24, x9, x11
	b.eq	.LBB18_73
.LBB18_72:
	add	x9, x20, x8, lsl #5
	add	x8, x8, #1
	mov	x2, x26
	mov	x1, x25
	stp	x24, x23, [x9]
	stp	x22, x27, [x9, #16]
	str	x8, [sp, #16]
	cbnz	x26, .LBB18_2
	b	.LBB18_76
.LBB18_73:
	add	x0, sp, #8
	bl	"std_alloc::vec::Vec::grow_amortized::<#63c3e2efe2c28453>"
	cbz	w0, .LBB18_90
	ldp	x20, x8, [sp, #8]
	b	.LBB18_72
.LBB18_75:
	ldr	x8, [sp, #16]
	sub	x9, x29, #8
	b	.LBB18_77
.LBB18_76:
	ldr	x9, [sp, #8]
.LBB18_77:
	ldr	x10, [sp, #24]
	stp	xzr, x9, [x19]
	stp	x8, x10, [x19, #16]
	b	.LBB18_86
.LBB18_78:
	mov	w11, wzr
	mov	w12, wzr
.LBB18_79:
	ldp	x23, x24, [sp, #16]
	cmp	w11, #2
	mov	w8, #1
	mov	w9, #2
	cinc	x21, x8, eq
	csel	w22, w12, w9, eq
	cbz	x23, .LBB18_82
	add	x8, sp, #32
	add	x26, x20, #2
	orr	x25, x8, #0x4
.LBB18_81:
	ldur	w8, [x26, #-2]
	add	x0, sp, #32
	str	w8, [sp, #32]
	ldur	q0, [x26, #14]
	ldur	q1, [x26, #2]
	stur	q0, [x25, #12]
	str	q1, [x25]
	bl	"amq_protocol_types::amqp_value_core++value++AMQPValue+Destruct::drop"
	subs	x23, x23, #1
	add	x26, x26, #32
	b.ne	.LBB18_81
.LBB18_82:
	cbz	x24, .LBB18_84
	mov	x0, x20
	bl	rattle_dealloc
.LBB18_84:
	orr	x9, x21, x22, lsl #8
	mov	w8, #1
	stp	x8, x9, [x19]
.LBB18_85:
	stp	xzr, xzr, [x19, #16]
.LBB18_86:
	ldp	x20, x19, [sp, #160]
	ldp	x22, x21, [sp, #144]
	ldp	x24, x23, [sp, #128]
	ldp	x26, x25, [sp, #112]
	ldp	x28, x27, [sp, #96]
	ldp	x29, x30, [sp, #80]
	add	sp, sp, #176
	ret
.LBB18_87:
	mov	x8, xzr
	b	.LBB18_103
.LBB18_88:
	mov	x8, xzr
	b	.LBB18_98
.LBB18_89:
	mov	w12, #2
	mov	w11, #1
	b	.LBB18_79
.LBB18_90:
	add	x0, sp, #32
	stp	x23, x22, [sp, #40]
	add	x23, sp, #32
	str	x27, [sp, #56]
	stp	w24, w28, [sp, #32]
	bl	"amqp_value_core::amqp_value_core++value++AMQPValue+Destruct::drop"
	ldp	x20, x21, [sp, #8]
	ldr	x22, [sp, #24]
	cbz	x21, .LBB18_93
	orr	x23, x23, #0x4
	add	x24, x20, #2
.LBB18_92:
	ldur	w8, [x24, #-2]
	ldur	q0, [x24, #2]
	add	x0, sp, #32
	ldur	q1, [x24, #14]
	str	w8, [sp, #32]
	str	q0, [x23]
	stur	q1, [x23, #12]
	bl	"amq_protocol_types::amqp_value_core++value++AMQPValue+Destruct::drop"
	subs	x21, x21, #1
	add	x24, x24, #32
	b.ne	.LBB18_92
.LBB18_93:
	cbz	x22, .LBB18_95
	mov	x0, x20
	bl	rattle_dealloc
.LBB18_95:
	adrp	x8, .LCPI18_0
	ldr	q0, [x8, :lo12:.LCPI18_0]
	str	q0, [x19]
	b	.LBB18_85
.LBB18_96:
	ldrb	w12, [sp, #41]
	mov	w11, w23
	b	.LBB18_79
.LBB18_97:
	mov	w8, #770
.LBB18_98:
	lsr	x12, x8, #8
	and	w11, w8, #0xff
.LBB18_99:
	b	.LBB18_79
.LBB18_100:
	ldr	x8, [sp, #48]
	cbz	x8, .LBB18_102
	ldr	x0, [sp, #32]
	bl	rattle_dealloc
.LBB18_102:
	mov	w8, #770
.LBB18_103:
	lsr	x12, x8, #8
	and	w11, w8, #0xff
	b	.LBB18_79
.Lfunc_end18:
	.size	"amq_protocol_types::parsing::values::parse_array_body::<#021be0914fa2e150>", .Lfunc_end18-"amq_protocol_types::parsing::values::parse_array_body::<#021be0914fa2e150>"
	.section	".rodata.amq_protocol_types::parsing::values::parse_array_body::<#021be0914fa2e150>","a",@progbits
	.p2align	1, 0x0
.LJTI18_0:
	.hword	(.LBB18_25-.LBB18_4)>>2
	.hword	(.LBB18_23-.LBB18_4)>>2
	.hword	(.LBB18_79-.LBB18_4)>>2
	.hword	(.LBB18_21-.LBB18_4)>>2
	.hword	(.LBB18_79-.LBB18_4)>>2
	.hword	(.LBB18_30-.LBB18_4)>>2
	.hword	(.LBB18_79-.LBB18_4)>>2
	.hword	(.LBB18_79-.LBB18_4)>>2
	.hword	(.LBB18_19-.LBB18_4)>>2
	.hword	(.LBB18_79-.LBB18_4)>>2
	.hword	(.LBB18_79-.LBB18_4)>>2
	.hword	(.LBB18_4-.LBB18_4)>>2
	.hword	(.LBB18_79-.LBB18_4)>>2
	.hword	(.LBB18_79-.LBB18_4)>>2
	.hword	(.LBB18_79-.LBB18_4)>>2
	.hword	(.LBB18_79-.LBB18_4)>>2
	.hword	(.LBB18_79-.LBB18_4)>>2
	.hword	(.LBB18_79-.LBB18_4)>>2
	.hword	(.LBB18_35-.LBB18_4)>>2
	.hword	(.LBB18_45-.LBB18_4)>>2
	.hword	(.LBB18_6-.LBB18_4)>>2
	.hword	(.LBB18_71-.LBB18_4)>>2
	.hword	(.LBB18_79-.LBB18_4)>>2
	.hword	(.LBB18_79-.LBB18_4)>>2
	.hword	(.LBB18_79-.LBB18_4)>>2
	.hword	(.LBB18_79-.LBB18_4)>>2
	.hword	(.LBB18_79-.LBB18_4)>>2
	.hword	(.LBB18_79-.LBB18_4)>>2
	.hword	(.LBB18_79-.LBB18_4)>>2
	.hword	(.LBB18_79-.LBB18_4)>>2
	.hword	(.LBB18_79-.LBB18_4)>>2
	.hword	(.LBB18_79-.LBB18_4)>>2
	.hword	(.LBB18_79-.LBB18_4)>>2
	.hword	(.LBB18_49-.LBB18_4)>>2
	.hword	(.LBB18_79-.LBB18_4)>>2
	.hword	(.LBB18_43-.LBB18_4)>>2
	.hword	(.LBB18_79-.LBB18_4)>>2
	.hword	(.LBB18_8-.LBB18_4)>>2
	.hword	(.LBB18_79-.LBB18_4)>>2
	.hword	(.LBB18_79-.LBB18_4)>>2
	.hword	(.LBB18_47-.LBB18_4)>>2
	.hword	(.LBB18_79-.LBB18_4)>>2
	.hword	(.LBB18_79-.LBB18_4)>>2
	.hword	(.LBB18_4-.LBB18_4)>>2
	.hword	(.LBB18_79-.LBB18_4)>>2
	.hword	(.LBB18_79-.LBB18_4)>>2
	.hword	(.LBB18_79-.LBB18_4)>>2
	.hword	(.LBB18_79-.LBB18_4)>>2
	.hword	(.LBB18_79-.LBB18_4)>>2
	.hword	(.LBB18_79-.LBB18_4)>>2
	.hword	(.LBB18_6-.LBB18_4)>>2
	.hword	(.LBB18_10-.LBB18_4)>>2
	.hword	(.LBB18_41-.LBB18_4)>>2
	.hword	(.LBB18_79-.LBB18_4)>>2
	.hword	(.LBB18_79-.LBB18_4)>>2
	.hword	(.LBB18_12-.LBB18_4)>>2

	.section	.rodata.cst16,"aM",@progbits,16
	.p2align	4, 0x0
.LCPI19_0:
	.byte	1
	.byte	2
	.byte	4
	.byte	8
	.byte	16
	.byte	32
	.byte	64
	.byte	128
	.byte	1
	.byte	2
	.byte	4
	.byte	8
	.byte	16
	.byte	32
	.byte	64
	.byte	128
	.section	".text.amq_protocol_types::parsing::values::parse_table_body::<#021be0914fa2e150>","ax",@progbits
	.p2align	2
	.type	"amq_protocol_types::parsing::values::parse_table_body::<#021be0914fa2e150>",@function
"amq_protocol_types::parsing::values::parse_table_body::<#021be0914fa2e150>":
	stp	x29, x30, [sp, #-96]!
	stp	x28, x27, [sp, #16]
	mov	x29, sp
	stp	x26, x25, [sp, #32]
	stp	x24, x23, [sp, #48]
	stp	x22, x21, [sp, #64]
	stp	x20, x19, [sp, #80]
	sub	sp, sp, #688
	cbz	x2, .LBB19_3
	lsr	x8, x2, #14
	mov	x24, x2
	mov	x26, x1
	str	x3, [sp, #40]
	str	x0, [sp, #96]
	cbz	x8, .LBB19_4
	mov	x0, x26
	mov	x1, x24
	bl	"amq_protocol_types::parsing::pairs::begins_small::<#021be0914fa2e150>"
	sub	x10, x29, #24
	cmp	w0, #0
	sub	x8, x29, #24
	mov	w9, w0
	str	x8, [sp, #104]
	csel	x8, x10, xzr, ne
	b	.LBB19_5
.LBB19_3:
	str	xzr, [x0]
	strh	wzr, [x0, #8]
	stp	xzr, xzr, [x0, #16]
	b	.LBB19_253
.LBB19_4:
	sub	x10, x29, #24
	mov	x9, xzr
	str	x10, [sp, #104]
.LBB19_5:
	stp	x9, x8, [sp, #160]
	add	x9, sp, #160
	add	x20, sp, #352
	add	x8, x9, #16
	sub	x9, x29, #112
	stp	xzr, xzr, [sp, #176]
	str	x8, [sp, #112]
	sub	x8, x29, #176
	orr	x8, x8, #0x4
	str	x8, [sp, #80]
	orr	x8, x9, #0x4
	str	x8, [sp, #72]
	add	x8, x9, #15
	str	x8, [sp, #32]
	b	.LBB19_7
.LBB19_6:
	sub	x0, x29, #112
	sturb	w10, [x29, #-112]
	sturb	w22, [x29, #-111]
	sturh	w24, [x29, #-110]
	stur	w25, [x29, #-108]
	stur	x26, [x29, #-104]
	sturb	w27, [x29, #-96]
	sturb	w28, [x29, #-95]
	sturh	w23, [x29, #-94]
	stur	w19, [x29, #-92]
	stur	x20, [x29, #-88]
	bl	"amqp_value_core::amqp_value_core++value++AMQPValue+Destruct::drop"
	ldp	x26, x24, [sp, #120]
	add	x20, sp, #352
	cbz	x24, .LBB19_235
.LBB19_7:
	mov	x19, x26
	sub	x24, x24, #1
	ldrb	w27, [x19], #1
	cmp	x24, x27
	b.lo	.LBB19_231
	mov	x23, x19
	cmp	w27, #7
	stp	x19, x27, [x29, #-112]
	b.hi	.LBB19_24
	cbz	w27, .LBB19_41
	ldrsb	w8, [x23]
	tbnz	w8, #31, .LBB19_30
	cmp	w27, #1
	b.eq	.LBB19_29
	ldrsb	w8, [x26, #2]
	tbnz	w8, #31, .LBB19_31
	cmp	w27, #2
	b.eq	.LBB19_29
	ldrsb	w8, [x26, #3]
	tbnz	w8, #31, .LBB19_32
	cmp	w27, #3
	b.eq	.LBB19_29
	ldrsb	w8, [x26, #4]
	tbnz	w8, #31, .LBB19_33
	cmp	w27, #4
	b.eq	.LBB19_29
	ldrsb	w8, [x26, #5]
	tbnz	w8, #31, .LBB19_34
	cmp	w27, #5
	b.eq	.LBB19_29
	ldrsb	w8, [x26, #6]
	tbnz	w8, #31, .LBB19_35
	cmp	w27, #6
	b.eq	.LBB19_29
	ldrsb	w8, [x26, #7]
	tbz	w8, #31, .LBB19_29
	mov	w8, #6
	b	.LBB19_36
.LBB19_24:
	cmp	w27, #64
	b.hi	.LBB19_28
	cmp	w27, #32
	b.lo	.LBB19_27
	add	x8, x19, x27
	ldp	q0, q1, [x23]
	ldp	q2, q3, [x8, #-32]
	orr	v1.16b, v1.16b, v3.16b
	orr	v0.16b, v0.16b, v2.16b
	orr	v0.16b, v0.16b, v1.16b
	ext	v1.16b, v0.16b, v0.16b, #8
	orr	v0.8b, v0.8b, v1.8b
	fmov	x8, d0
	tst	x8, #0x8080808080808080
	b.ne	.LBB19_28
	b	.LBB19_41
.LBB19_27:
	sub	x8, x27, #8
	mov	w9, #8
	mov	w10, #16
	cmp	x8, #8
	ldr	x11, [x23]
	csel	x9, x8, x9, lo
	cmp	x8, #16
	csel	x10, x8, x10, lo
	ldr	x9, [x23, x9]
	ldr	x8, [x23, x8]
	ldr	x10, [x23, x10]
	orr	x9, x9, x11
	orr	x8, x10, x8
	orr	x8, x9, x8
	tst	x8, #0x8080808080808080
	b.eq	.LBB19_41
.LBB19_28:
	sub	x0, x29, #112
	mov	x1, x27
	bl	"core::slice::words::any_by_first::<#52f9edcae2f82f51>"
	cbnz	w0, .LBB19_37
.LBB19_29:
	mov	x22, x27
	b	.LBB19_42
.LBB19_30:
	mov	x8, xzr
	b	.LBB19_36
.LBB19_31:
	mov	w8, #1
	b	.LBB19_36
.LBB19_32:
	mov	w8, #2
	b	.LBB19_36
.LBB19_33:
	mov	w8, #3
	b	.LBB19_36
.LBB19_34:
	mov	w8, #4
	b	.LBB19_36
.LBB19_35:
	mov	w8, #5
.LBB19_36:
	cmp	x8, x27
	b.hs	.LBB19_41
.LBB19_37:
	sub	x0, x29, #112
	mov	x1, x23
	mov	x2, x27
	stp	xzr, xzr, [x29, #-112]
	stur	xzr, [x29, #-96]
	bl	"core::str::utf8::from_utf8"
	ldurb	w8, [x29, #-112]
	cbnz	w8, .LBB19_240
	ldur	x22, [x29, #-96]
	cmp	x22, #255
	b.hi	.LBB19_285
	ldur	x23, [x29, #-104]
	cbnz	x22, .LBB19_42
.LBB19_40:
	ldr	x21, [sp, #104]
	mov	w23, #1
	cmp	x24, x27
	b.ne	.LBB19_58
	b	.LBB19_220
.LBB19_41:
	mov	x22, x27
	cbz	x27, .LBB19_40
.LBB19_42:
	mov	x0, x22
	mov	w1, #1
	bl	rattle_alloc
	tbz	w0, #0, .LBB19_239
	sub	x8, x1, x23
	mov	x21, x1
	cmp	x8, x22
	b.hs	.LBB19_48
	cmp	x22, #8
	mov	x8, xzr
	b.lo	.LBB19_56
	sub	x9, x21, x23
	cmp	x9, #32
	b.lo	.LBB19_56
	cmp	x22, #32
	b.hs	.LBB19_49
	mov	x8, xzr
	b	.LBB19_53
.LBB19_48:
	mov	x0, x21
	mov	x1, x23
	mov	x2, x22
	bl	memmove
	b	.LBB19_57
.LBB19_49:
	and	x9, x22, #0x18
	and	x8, x22, #0xffffffffffffffe0
	add	x10, x23, #16
	add	x11, x21, #16
	and	x12, x22, #0xffffffffffffffe0
.LBB19_50:
	ldp	q0, q1, [x10, #-16]
	subs	x12, x12, #32
	add	x10, x10, #32
	stp	q0, q1, [x11, #-16]
	add	x11, x11, #32
	b.ne	.LBB19_50
	cmp	x22, x8
	b.eq	.LBB19_57
	cbz	x9, .LBB19_56
.LBB19_53:
	mov	x11, x8
	and	x8, x22, #0xfffffffffffffff8
	sub	x9, x11, x8
	add	x10, x23, x11
	add	x11, x21, x11
.LBB19_54:
	ldr	d0, [x10], #8
	adds	x9, x9, #8
	str	d0, [x11], #8
	b.ne	.LBB19_54
.LBB19_55:
	cmp	x22, x8
	b.eq	.LBB19_57
.LBB19_56:
	ldrb	w9, [x23, x8]
	strb	w9, [x21, x8]
	add	x8, x8, #1
	b	.LBB19_55
.LBB19_57:
	mov	w23, wzr
	cmp	x24, x27
	b.eq	.LBB19_220
.LBB19_58:
	add	x11, x19, x27
	mov	w13, wzr
	mov	w12, #1
	mov	x25, x11
	ldrb	w8, [x25], #1
	sub	w10, w8, #65
	cmp	w10, #55
	b.hi	.LBB19_221
	adrp	x15, .LJTI19_0
	add	x15, x15, :lo12:.LJTI19_0
	mvn	x14, x27
	adr	x16, .LBB19_60
	ldrh	w17, [x15, x10, lsl #1]
	add	x16, x16, x17, lsl #2
	mov	x8, xzr
	mov	x19, xzr
	mov	x28, xzr
	mov	x5, xzr
	mov	x1, xzr
	mov	x9, xzr
	add	x24, x24, x14
	mov	w10, #17
	br	x16
.LBB19_60:
	subs	x24, x24, #8
	b.lo	.LBB19_220
	ldur	x10, [x11, #1]
	mov	x19, xzr
	mov	x28, xzr
	mov	x5, xzr
	rev	x1, x10
	add	x25, x11, #9
	mov	w10, #7
	lsl	x8, xzr, #16
	orr	x9, x10, xzr, lsl #8
	ldrb	w10, [sp, #160]
	orr	x8, x8, xzr, lsl #32
	orr	x6, x9, x8
	cbnz	w10, .LBB19_203
	b	.LBB19_64
.LBB19_62:
	subs	x24, x24, #2
	b.lo	.LBB19_220
	ldurh	w8, [x11, #1]
	mov	x19, xzr
	mov	x28, xzr
	mov	x5, xzr
	mov	x1, xzr
	rev16	w8, w8
	add	x25, x11, #3
	mov	w10, #3
	lsl	x8, x8, #16
	orr	x9, x10, xzr, lsl #8
	ldrb	w10, [sp, #160]
	orr	x8, x8, xzr, lsl #32
	orr	x6, x9, x8
	cbnz	w10, .LBB19_203
.LBB19_64:
	ldrb	w8, [sp, #168]
	stp	x28, x1, [sp, #136]
	stp	x25, x24, [sp, #120]
	cmp	w8, #1
	str	x19, [sp, #152]
	b.ne	.LBB19_66
	ldr	x1, [sp, #176]
	ldrh	w7, [x1, #2]
	b	.LBB19_68
.LBB19_66:
	mov	w0, #848
	mov	w1, #8
	mov	x19, x5
	mov	x24, x6
	bl	rattle_alloc
	mov	x6, x24
	tbz	w0, #0, .LBB19_254
	mov	x5, x19
	mov	x7, xzr
	mov	w8, #1
	str	wzr, [x1]
	stp	x8, x1, [sp, #168]
.LBB19_68:
	mov	w8, #15
	mov	x26, xzr
	mov	x24, xzr
	sub	x9, x8, x7
	neg	x28, x7
	mov	x11, x1
	mov	x25, x1
	mov	x27, x9
	mov	x12, x11
	mov	x8, x11
	ldrh	w11, [x12], #8
	cbz	x11, .LBB19_101
.LBB19_69:
	mov	x10, xzr
	b	.LBB19_72
.LBB19_70:
	b.lo	.LBB19_102
.LBB19_71:
	add	x10, x10, #1
	cmp	x10, x11
	b.eq	.LBB19_100
.LBB19_72:
	mov	w13, #24
	madd	x14, x10, x13, x12
	ldp	x14, x13, [x14]
	cmp	x13, x22
	csel	x15, x13, x22, lo
	cmp	x15, #7
	b.hi	.LBB19_75
	subs	x16, x15, #4
	b.lo	.LBB19_76
	ldr	w17, [x21]
	ldr	w18, [x21, x16]
	ldr	w0, [x14]
	ldr	w16, [x14, x16]
	orr	x17, x17, x18, lsl #32
	orr	x18, x0, x16, lsl #32
	rev	x16, x17
	rev	x17, x18
	cmp	x16, x17
	b.ne	.LBB19_70
	b	.LBB19_78
.LBB19_75:
	sub	x16, x15, #8
	mov	w17, #8
	ldr	x18, [x21]
	cmp	x16, #8
	ldr	x0, [x14]
	csel	x16, x16, x17, lo
	rev	x2, x18
	ldr	x17, [x21, x16]
	ldr	x16, [x14, x16]
	rev	x3, x0
	cmp	x18, x0
	rev	x17, x17
	rev	x4, x16
	csel	x16, x17, x2, eq
	csel	x17, x4, x3, eq
	cmp	x16, x17
	b.eq	.LBB19_78
	b	.LBB19_70
.LBB19_76:
	cbz	x15, .LBB19_79
	ldrb	w16, [x21]
	lsr	x17, x15, #1
	ldrb	w18, [x14]
	sub	x2, x15, #1
	ldrb	w0, [x21, x17]
	lsl	x16, x16, #16
	ldrb	w17, [x14, x17]
	lsl	x18, x18, #16
	orr	x16, x16, x0, lsl #8
	ldrb	w0, [x21, x2]
	orr	x17, x18, x17, lsl #8
	ldrb	w18, [x14, x2]
	orr	x16, x16, x0
	orr	x17, x17, x18
	cmp	x16, x17
	b.ne	.LBB19_70
.LBB19_78:
	subs	x16, x15, #16
	b.hi	.LBB19_81
.LBB19_79:
	cmp	x22, x13
	b.eq	.LBB19_104
	cmp	x22, x13
	b.hs	.LBB19_71
	b	.LBB19_102
.LBB19_81:
	cmp	x16, #79
	adrp	x17, .LCPI19_0
	b.hi	.LBB19_86
	mov	w18, #16
	mov	x0, x16
.LBB19_83:
	cmp	x0, #17
	b.lo	.LBB19_88
	ldr	q0, [x21, x18]
	ldr	q1, [x14, x18]
	sub	x0, x0, #16
	cmeq	v0.16b, v0.16b, v1.16b
	ldr	q1, [x17, :lo12:.LCPI19_0]
	bic	v0.16b, v1.16b, v0.16b
	addp	v0.16b, v0.16b, v0.16b
	addp	v0.16b, v0.16b, v0.16b
	addp	v0.16b, v0.16b, v0.16b
	umov	w2, v0.h[0]
	orr	w2, w2, #0x10000
	rbit	w2, w2
	clz	w2, w2
	add	x3, x18, x2
	add	x18, x18, #16
	cmp	x3, x18
	b.hs	.LBB19_83
	add	x16, x18, w2, uxtw
	sub	x16, x16, #16
	cmp	x16, x15
	b.hs	.LBB19_79
	b	.LBB19_99
.LBB19_86:
	ldr	q0, [x21, #16]
	ldr	q1, [x14, #16]
	cmeq	v1.16b, v0.16b, v1.16b
	ldr	q0, [x17, :lo12:.LCPI19_0]
	bic	v1.16b, v0.16b, v1.16b
	addp	v1.16b, v1.16b, v1.16b
	addp	v1.16b, v1.16b, v1.16b
	addp	v1.16b, v1.16b, v1.16b
	umov	w17, v1.h[0]
	orr	w17, w17, #0x10000
	rbit	w17, w17
	clz	w17, w17
	cmp	w17, #16
	b.hs	.LBB19_89
	add	w16, w17, #16
	cmp	x16, x15
	b.hs	.LBB19_79
	b	.LBB19_99
.LBB19_88:
	ldr	q0, [x21, x16]
	ldr	q1, [x14, x16]
	cmeq	v0.16b, v0.16b, v1.16b
	ldr	q1, [x17, :lo12:.LCPI19_0]
	bic	v0.16b, v1.16b, v0.16b
	b	.LBB19_98
.LBB19_89:
	sub	x17, x15, #96
	sub	x0, x15, #32
	and	x17, x17, #0xffffffffffffffc0
	add	x18, x17, #96
	mov	w17, #32
.LBB19_90:
	add	x2, x21, x17
	add	x3, x14, x17
	ldp	q1, q2, [x2]
	ldp	q3, q4, [x2, #32]
	ldp	q5, q6, [x3]
	ldp	q7, q16, [x3, #32]
	cmeq	v1.16b, v1.16b, v5.16b
	cmeq	v2.16b, v2.16b, v6.16b
	cmeq	v4.16b, v4.16b, v16.16b
	cmeq	v3.16b, v3.16b, v7.16b
	bic	v1.16b, v0.16b, v1.16b
	bic	v2.16b, v0.16b, v2.16b
	bic	v3.16b, v0.16b, v3.16b
	bic	v4.16b, v0.16b, v4.16b
	addp	v1.16b, v1.16b, v2.16b
	addp	v2.16b, v3.16b, v4.16b
	addp	v1.16b, v1.16b, v2.16b
	addp	v1.16b, v1.16b, v1.16b
	fmov	x2, d1
	cbnz	x2, .LBB19_93
	sub	x0, x0, #64
	add	x17, x17, #64
	cmp	x0, #63
	b.hi	.LBB19_90
	mov	x17, x18
.LBB19_93:
	sub	x18, x15, x17
.LBB19_94:
	cmp	x18, #17
	b.lo	.LBB19_97
	ldr	q1, [x21, x17]
	ldr	q2, [x14, x17]
	sub	x18, x18, #16
	cmeq	v1.16b, v1.16b, v2.16b
	bic	v1.16b, v0.16b, v1.16b
	addp	v1.16b, v1.16b, v1.16b
	addp	v1.16b, v1.16b, v1.16b
	addp	v1.16b, v1.16b, v1.16b
	umov	w0, v1.h[0]
	orr	w0, w0, #0x10000
	rbit	w0, w0
	clz	w0, w0
	add	x2, x17, x0
	add	x17, x17, #16
	cmp	x2, x17
	b.hs	.LBB19_94
	add	x16, x17, w0, uxtw
	sub	x16, x16, #16
	cmp	x16, x15
	b.lo	.LBB19_99
	b	.LBB19_79
.LBB19_97:
	ldr	q1, [x21, x16]
	ldr	q2, [x14, x16]
	cmeq	v1.16b, v1.16b, v2.16b
	bic	v0.16b, v0.16b, v1.16b
.LBB19_98:
	addp	v0.16b, v0.16b, v0.16b
	addp	v0.16b, v0.16b, v0.16b
	addp	v0.16b, v0.16b, v0.16b
	umov	w17, v0.h[0]
	orr	w17, w17, #0x10000
	rbit	w17, w17
	clz	w17, w17
	add	x16, x16, x17
	cmp	x16, x15
	b.hs	.LBB19_79
.LBB19_99:
	ldrb	w13, [x21, x16]
	ldrb	w14, [x14, x16]
	cmp	w13, w14
	b.hs	.LBB19_71
	b	.LBB19_102
.LBB19_100:
	mov	x10, x11
	ldrh	w11, [x8, #2]
	add	x24, x10, x24, lsl #4
	add	x27, x27, #1
	cbnz	w11, .LBB19_103
	b	.LBB19_107
.LBB19_101:
	mov	x10, xzr
.LBB19_102:
	ldrh	w11, [x8, #2]
	add	x24, x10, x24, lsl #4
	add	x27, x27, #1
	cbz	w11, .LBB19_107
.LBB19_103:
	add	x11, x8, x10, lsl #3
	add	x28, x28, #1
	mov	x26, x10
	mov	x25, x8
	ldr	x11, [x11, #848]
	mov	x12, x11
	mov	x8, x11
	ldrh	w11, [x12], #8
	cbnz	x11, .LBB19_69
	b	.LBB19_101
.LBB19_104:
	add	x8, x25, x26, lsl #3
	add	x9, x7, x27
	cmp	x9, #15
	ldr	x9, [sp, #112]
	add	x8, x8, #848
	csel	x8, x9, x8, eq
	and	x9, x10, #0xf
	ldr	x8, [x8]
	ldrh	w11, [x8]
	cmp	x9, x11
	b.hs	.LBB19_285
	add	x8, x8, x9, lsl #5
	ldr	x9, [sp, #144]
	mov	w12, w23
	ldrb	w10, [x8, #368]
	ldrb	w22, [x8, #369]
	ldrh	w24, [x8, #370]
	ldr	w25, [x8, #372]
	ldr	x26, [x8, #376]
	stp	x6, x9, [x8, #368]
	ldr	x9, [sp, #152]
	ldrb	w27, [x8, #384]
	ldrb	w28, [x8, #385]
	ldrh	w23, [x8, #386]
	ldr	w19, [x8, #388]
	ldr	x20, [x8, #392]
	str	x9, [x8, #384]
	ldr	x9, [sp, #136]
	str	x9, [x8, #392]
	tbnz	w12, #0, .LBB19_6
	mov	x0, x21
	mov	w21, w10
	bl	rattle_dealloc
	mov	w10, w21
	b	.LBB19_6
.LBB19_107:
	ldr	x8, [sp, #184]
	mov	x10, #9223372036854775806
	cmp	x8, x10
	b.hi	.LBB19_254
	lsl	x8, x26, #3
	sub	x11, x27, x9
	sub	x12, x27, x9
	stp	x6, x11, [sp, #8]
	ldr	x11, [sp, #112]
	cmp	x12, #1
	add	x10, x25, x8
	add	x10, x10, #848
	csel	x10, x11, x10, eq
	ldr	x10, [x10]
	ldrh	w10, [x10]
	cmp	w10, #15
	b.lo	.LBB19_210
	ldrh	w8, [x1]
	str	w23, [sp, #4]
	cmp	w8, #15
	b.lo	.LBB19_113
	cmp	x7, #10
	b.hi	.LBB19_267
	mov	w0, #976
	str	x1, [sp, #88]
	mov	w1, #8
	mov	x20, x5
	mov	x19, x7
	bl	rattle_alloc
	ldr	x9, [sp, #88]
	tbz	w0, #0, .LBB19_267
	str	x9, [x1, #848]
	mov	w9, #14
	add	w10, w19, #1
	sub	x9, x9, x19
	mov	x5, x20
	add	x20, sp, #352
	strh	w10, [x1, #2]
	strh	wzr, [x1]
	str	x1, [sp, #176]
.LBB19_113:
	ldr	x11, [sp, #32]
	subs	x8, x27, x9
	stp	xzr, xzr, [x29, #-112]
	str	x8, [sp, #16]
	b.ls	.LBB19_115
.LBB19_114:
	add	x8, x28, #15
	and	w10, w24, #0xf
	lsr	x24, x24, #4
	cmp	x9, x8
	strb	w10, [x11, x28]
	sub	x28, x28, #1
	b.lo	.LBB19_114
.LBB19_115:
	mov	w8, #16
	ldur	q0, [x29, #-112]
	sub	x24, x8, x9
	cmp	x24, #2
	str	q0, [sp, #192]
	b.lo	.LBB19_208
	add	x8, sp, #192
	ldr	x19, [sp, #112]
	str	x5, [sp, #24]
	add	x28, x8, x9
	b	.LBB19_120
.LBB19_117:
	add	w26, w26, #1
	sub	w8, w8, #8
	strb	w26, [x28]
	strb	w8, [x28, #1]
.LBB19_118:
	ldr	x5, [sp, #24]
	add	x20, sp, #352
	mov	x24, x23
.LBB19_119:
	add	x8, x25, w26, uxtb #3
	cmp	x24, #2
	sub	x24, x24, #1
	add	x28, x28, #1
	add	x19, x8, #848
	b.ls	.LBB19_207
.LBB19_120:
	ldrb	w26, [x28]
	ldr	x25, [x19]
	add	x8, x25, x26, lsl #3
	ldr	x8, [x8, #848]
	ldrh	w8, [x8]
	cmp	w8, #15
	b.lo	.LBB19_119
	ldrh	w8, [x25, #2]
	subs	x20, x8, #1
	b.eq	.LBB19_123
	mov	w0, #976
	mov	w1, #8
	bl	rattle_alloc
	tbnz	w0, #0, .LBB19_124
	b	.LBB19_264
.LBB19_123:
	mov	w0, #848
	mov	w1, #8
	bl	rattle_alloc
	tbz	w0, #0, .LBB19_264
.LBB19_124:
	strh	w20, [x1, #2]
	movi	v0.2d, #0000000000000000
	mov	x27, x1
	ldr	x10, [x19]
	stp	xzr, xzr, [sp, #248]
	str	xzr, [sp, #240]
	ldrh	w9, [x10]
	ldrh	w12, [x10, #2]
	add	x8, x10, #8
	add	x11, x10, #368
	add	x14, x10, #848
	stp	xzr, xzr, [sp, #216]
	stp	x8, x9, [sp, #272]
	mov	w8, #15
	cmp	w12, #0
	stp	x8, x11, [sp, #288]
	csinc	x11, xzr, x9, eq
	ldr	x25, [x14, x26, lsl #3]
	stp	x9, x8, [sp, #304]
	mov	w9, #16
	csel	x12, xzr, x9, eq
	stp	x14, x11, [sp, #320]
	add	x11, x25, #8
	stp	x12, x10, [sp, #336]
	sub	x10, x29, #112
	add	x13, x25, #848
	stur	q0, [x10, #24]
	stur	q0, [x10, #8]
	add	x10, x1, #8
	ldrh	w20, [x25]
	ldrh	w23, [x25, #2]
	stur	x11, [x29, #-112]
	add	x11, x25, #368
	stp	x8, x13, [x29, #-72]
	stp	x8, x11, [x29, #-96]
	sub	x12, x20, #8
	sub	x11, x20, #8
	str	x11, [sp, #88]
	add	x11, x12, x12, lsl #1
	cmp	w23, #0
	add	x8, x25, #200
	csinc	x12, xzr, x20, eq
	csel	x9, xzr, x9, eq
	lsl	x2, x11, #3
	sub	x11, x10, x8
	stp	x12, x9, [x29, #-56]
	add	x12, x1, #368
	str	xzr, [sp, #208]
	cmp	x11, x2
	str	wzr, [sp, #232]
	stp	xzr, xzr, [sp, #392]
	str	xzr, [sp, #384]
	stp	xzr, xzr, [sp, #360]
	str	xzr, [sp, #352]
	str	wzr, [sp, #376]
	stp	xzr, xzr, [x29, #-232]
	stur	xzr, [x29, #-240]
	stp	xzr, xzr, [sp, #424]
	str	xzr, [sp, #416]
	str	wzr, [sp, #440]
	stp	xzr, xzr, [x29, #-200]
	stur	xzr, [x29, #-208]
	stur	wzr, [x29, #-184]
	stur	x25, [x29, #-40]
	stp	x14, x19, [sp, #56]
	b.hs	.LBB19_128
	cmp	w20, #8
	sub	x9, x20, #8
	b.ne	.LBB19_127
	mov	x2, xzr
	mov	w8, #8
	add	x1, x25, #624
	stur	x8, [x29, #-104]
	b	.LBB19_133
.LBB19_127:
	ldr	x11, [x8, #16]
	ldr	q0, [x8], #24
	subs	x9, x9, #1
	str	x11, [x10, #16]
	str	q0, [x10], #24
	b.ne	.LBB19_127
	b	.LBB19_129
.LBB19_128:
	add	x0, x27, #8
	add	x1, x25, #200
	bl	memmove
	add	x12, x27, #368
.LBB19_129:
	sub	x8, x20, #8
	add	x1, x25, #624
	mov	w9, #8
	lsl	x2, x8, #5
	sub	x8, x12, x1
	stur	x9, [x29, #-104]
	cmp	x8, x2
	b.hs	.LBB19_133
	cmp	w20, #8
	add	x19, sp, #352
	b.eq	.LBB19_134
	ldr	x10, [sp, #88]
	add	x8, x25, #628
	add	x9, x27, #372
.LBB19_132:
	ldr	q0, [x8]
	ldur	q1, [x8, #12]
	subs	x10, x10, #1
	ldur	w11, [x8, #-4]
	add	x8, x8, #32
	stur	q0, [x29, #-176]
	stur	q1, [x19, #172]
	ldur	q0, [x29, #-176]
	ldur	q1, [x19, #172]
	stur	w11, [x9, #-4]
	str	q0, [x9]
	stur	q1, [x9, #12]
	add	x9, x9, #32
	b.ne	.LBB19_132
	b	.LBB19_134
.LBB19_133:
	add	x0, x27, #368
	bl	memmove
	add	x19, sp, #352
.LBB19_134:
	movi	v0.2d, #0000000000000000
	mov	w8, #8
	sub	x0, x29, #136
	sub	x1, x29, #112
	mov	w2, #7
	stp	xzr, xzr, [x29, #-136]
	stur	xzr, [x29, #-120]
	stur	x8, [x29, #-80]
	stp	q0, q0, [x29, #-176]
	bl	"std_alloc::vec::Vec::remove::<#5ea93b9ddeb8aab1>"
	sub	x8, x29, #112
	sub	x0, x29, #176
	mov	w2, #7
	add	x1, x8, #24
	bl	"std_alloc::vec::Vec::remove::<#cd5e489e5ed3d409>"
	ldr	x8, [sp, #80]
	ldurb	w20, [x29, #-176]
	ldurh	w25, [x29, #-174]
	ldr	q0, [x8]
	ldur	q1, [x8, #12]
	ldurb	w8, [x29, #-175]
	str	w8, [sp, #52]
	stur	q0, [x29, #-208]
	stur	q1, [x19, #140]
	cbz	w23, .LBB19_143
	ldp	x9, x8, [x29, #-64]
	add	x11, x27, #848
	sub	x10, x8, #8
	add	x1, x9, #64
	lsl	x2, x10, #3
	sub	x11, x11, x1
	cmp	x11, x2
	b.hs	.LBB19_142
	cmp	x8, #8
	b.eq	.LBB19_143
	cmp	x10, #4
	b.lo	.LBB19_139
	sub	x11, x27, x9
	add	x11, x11, #784
	cmp	x11, #32
	b.hs	.LBB19_147
.LBB19_139:
	mov	x11, xzr
.LBB19_140:
	lsl	x10, x11, #3
	sub	x8, x8, x11
	sub	x8, x8, #8
	add	x9, x9, x10
	add	x10, x27, x10
	add	x9, x9, #64
	add	x10, x10, #848
.LBB19_141:
	ldr	x11, [x9], #8
	subs	x8, x8, #1
	str	x11, [x10], #8
	b.ne	.LBB19_141
	b	.LBB19_143
.LBB19_142:
	add	x0, x27, #848
	bl	memmove
.LBB19_143:
	ldur	q1, [x29, #-208]
	ldur	q0, [x19, #200]
	add	x0, sp, #272
	ldur	x8, [x29, #-104]
	ldur	x9, [x29, #-40]
	add	x2, sp, #240
	str	q1, [sp, #416]
	ldur	q1, [x19, #140]
	mov	x1, x26
	stur	q0, [x29, #-240]
	ldr	x10, [sp, #56]
	mov	x23, x24
	stur	q1, [x19, #76]
	str	q0, [sp, #384]
	ldur	q0, [x19, #76]
	ldr	q1, [sp, #416]
	strh	w8, [x9]
	ldr	x8, [sp, #88]
	stur	q0, [x19, #12]
	ldr	q0, [sp, #384]
	str	q1, [sp, #352]
	strh	w8, [x27]
	ldur	x8, [x29, #-120]
	ldur	q1, [x19, #12]
	str	q0, [sp, #240]
	ldr	q0, [sp, #352]
	stur	x8, [x29, #-224]
	str	x8, [sp, #400]
	str	x9, [x10, x26, lsl #3]
	str	x8, [sp, #256]
	stur	q1, [sp, #220]
	str	q0, [sp, #208]
	bl	"std_alloc::vec::lodged::Vec+T+Lodged::insert_reserved::<#0107ca75ede54906>"
	ldr	w8, [sp, #52]
	ldr	q0, [sp, #208]
	sub	x2, x29, #112
	ldur	q1, [sp, #220]
	mov	x1, x26
	sturb	w20, [x29, #-112]
	sturb	w8, [x29, #-111]
	ldr	x8, [sp, #72]
	sturh	w25, [x29, #-110]
	str	q0, [x8]
	stur	q1, [x8, #12]
	add	x8, sp, #272
	add	x0, x8, #24
	bl	"std_alloc::vec::lodged::Vec+T+Lodged::insert_reserved::<33'amqp_value_core::value::AMQPValue>"
	ldp	x20, x8, [sp, #320]
	add	x9, x26, #1
	lsl	x24, x9, #3
	subs	x8, x8, x9
	b.eq	.LBB19_145
	lsl	x2, x8, #3
	add	x8, x20, x24
	add	x1, x20, x24
	add	x0, x8, #8
	bl	memmove
.LBB19_145:
	ldr	x9, [sp, #280]
	ldr	x25, [sp, #344]
	ldrb	w8, [x28, #1]
	str	x27, [x20, x24]
	strh	w9, [x25]
	ldr	x9, [sp, #64]
	cmp	w8, #7
	str	x25, [x9]
	b.hi	.LBB19_117
	ldrb	w26, [x28]
	b	.LBB19_118
.LBB19_147:
	and	x11, x10, #0xfffffffffffffffc
	add	x12, x9, #80
	add	x13, x27, #864
	and	x14, x10, #0xfffffffffffffffc
.LBB19_148:
	ldp	q0, q1, [x12, #-16]
	subs	x14, x14, #4
	add	x12, x12, #32
	stp	q0, q1, [x13, #-16]
	add	x13, x13, #32
	b.ne	.LBB19_148
	cmp	x10, x11
	b.eq	.LBB19_143
	b	.LBB19_140
.LBB19_150:
	subs	x24, x24, #4
	b.lo	.LBB19_220
	ldur	w10, [x11, #1]
	mov	x19, xzr
	mov	x28, xzr
	mov	x1, xzr
	rev	w5, w10
	add	x25, x11, #5
	mov	w10, #8
	lsl	x8, xzr, #16
	orr	x9, x10, xzr, lsl #8
	ldrb	w10, [sp, #160]
	orr	x8, x8, x5, lsl #32
	orr	x6, x9, x8
	cbnz	w10, .LBB19_203
	b	.LBB19_64
.LBB19_152:
	cbz	x24, .LBB19_220
	ldrb	w9, [x11, #1]
	mov	x19, xzr
	mov	x28, xzr
	mov	x5, xzr
	mov	x1, xzr
	cmp	w9, #0
	add	x25, x11, #2
	sub	x24, x24, #1
	cset	w9, ne
	lsl	x8, xzr, #16
	orr	x9, xzr, x9, lsl #8
	ldrb	w10, [sp, #160]
	orr	x8, x8, xzr, lsl #32
	orr	x6, x9, x8
	cbnz	w10, .LBB19_203
	b	.LBB19_64
.LBB19_154:
	subs	x9, x24, #4
	b.lo	.LBB19_268
	ldur	w8, [x11, #1]
	rev	w19, w8
	subs	x24, x9, x19
	b.lo	.LBB19_268
	add	x28, x11, #5
	add	x25, x28, x19
	cbz	w8, .LBB19_197
	mov	x0, x19
	mov	w1, #1
	bl	rattle_alloc
	tbz	w0, #0, .LBB19_278
	sub	x8, x1, x28
	cmp	x8, x19
	b.hs	.LBB19_200
	cmp	w19, #8
	b.lo	.LBB19_161
	add	x8, x26, x27
	sub	x8, x1, x8
	sub	x8, x8, #6
	cmp	x8, #32
	b.hs	.LBB19_211
.LBB19_161:
	mov	x8, xzr
.LBB19_162:
	add	x9, x8, x27
	add	x10, x26, x9
	sub	x9, x19, x8
	add	x8, x1, x8
	add	x11, x10, #6
.LBB19_163:
	ldrb	w10, [x11], #1
	subs	x9, x9, #1
	strb	w10, [x8], #1
	mov	w10, #16
	b.ne	.LBB19_163
	mov	x5, xzr
	mov	x28, x19
	lsl	x8, xzr, #16
	orr	x9, x10, x9, lsl #8
	ldrb	w10, [sp, #160]
	orr	x8, x8, xzr, lsl #32
	orr	x6, x9, x8
	cbnz	w10, .LBB19_203
	b	.LBB19_64
.LBB19_165:
	subs	x24, x24, #4
	b.lo	.LBB19_220
	ldur	w10, [x11, #1]
	mov	x19, xzr
	mov	x28, xzr
	mov	x1, xzr
	rev	w5, w10
	add	x25, x11, #5
	mov	w10, #5
	lsl	x8, xzr, #16
	orr	x9, x10, xzr, lsl #8
	ldrb	w10, [sp, #160]
	orr	x8, x8, x5, lsl #32
	orr	x6, x9, x8
	cbnz	w10, .LBB19_203
	b	.LBB19_64
.LBB19_167:
	subs	x24, x24, #5
	b.lo	.LBB19_220
	ldur	w10, [x11, #2]
	ldrb	w12, [x11, #1]
	mov	x19, xzr
	mov	x28, xzr
	rev	w1, w10
	add	x25, x11, #6
	mov	w10, #10
	orr	x5, x12, x1, lsl #32
	lsl	x8, xzr, #16
	orr	x9, x10, xzr, lsl #8
	ldrb	w10, [sp, #160]
	orr	x8, x8, x5, lsl #32
	orr	x6, x9, x8
	cbnz	w10, .LBB19_203
	b	.LBB19_64
.LBB19_169:
	cbz	x24, .LBB19_220
	ldrb	w9, [x11, #1]
	mov	x19, xzr
	mov	x28, xzr
	mov	x5, xzr
	mov	x1, xzr
	add	x25, x11, #2
	sub	x24, x24, #1
	mov	w10, #2
	lsl	x8, xzr, #16
	orr	x9, x10, x9, lsl #8
	ldrb	w10, [sp, #160]
	orr	x8, x8, xzr, lsl #32
	orr	x6, x9, x8
	cbnz	w10, .LBB19_203
	b	.LBB19_64
.LBB19_171:
	movi	v0.2d, #0000000000000000
	subs	x8, x24, #4
	stp	q0, q0, [x29, #-112]
	b.lo	.LBB19_220
	ldr	w9, [x25]
	rev	w25, w9
	subs	x24, x8, x25
	b.lo	.LBB19_220
	ldr	x8, [sp, #40]
	cbz	x8, .LBB19_270
	add	x26, x11, #5
	sub	x0, x29, #112
	sub	x3, x8, #1
	mov	x1, x26
	mov	x2, x25
	bl	"amq_protocol_types::parsing::values::parse_array_body::<#021be0914fa2e150>"
	ldurb	w8, [x29, #-112]
	ldurb	w12, [x29, #-104]
	ldurb	w13, [x29, #-103]
	cbnz	w8, .LBB19_280
	ldur	w10, [x20, #234]
	ldurh	w11, [x29, #-98]
	ldp	x19, x28, [x29, #-96]
	mov	x5, xzr
	lsl	x10, x10, #16
	add	x25, x26, x25
	orr	x10, x10, x11, lsl #48
	orr	x11, x12, x13, lsl #8
	orr	x1, x11, x10
	mov	w10, #13
	lsl	x8, xzr, #16
	orr	x9, x10, xzr, lsl #8
	ldrb	w10, [sp, #160]
	orr	x8, x8, xzr, lsl #32
	orr	x6, x9, x8
	cbnz	w10, .LBB19_203
	b	.LBB19_64
.LBB19_176:
	movi	v0.2d, #0000000000000000
	subs	x8, x24, #4
	stp	q0, q0, [x29, #-112]
	b.lo	.LBB19_220
	ldr	w9, [x25]
	rev	w26, w9
	subs	x24, x8, x26
	b.lo	.LBB19_220
	ldr	x8, [sp, #40]
	cbz	x8, .LBB19_270
	add	x27, x11, #5
	sub	x0, x29, #112
	sub	x3, x8, #1
	mov	x1, x27
	mov	x2, x26
	bl	"amq_protocol_types::parsing::values::parse_table_body::<#021be0914fa2e150>"
	ldurb	w8, [x29, #-112]
	ldurb	w1, [x29, #-104]
	cbnz	w8, .LBB19_271
	ldp	x19, x28, [x29, #-96]
	mov	x5, xzr
	add	x25, x27, x26
	mov	w10, #15
	lsl	x8, xzr, #16
	orr	x9, x10, xzr, lsl #8
	ldrb	w10, [sp, #160]
	orr	x8, x8, xzr, lsl #32
	orr	x6, x9, x8
	cbnz	w10, .LBB19_203
	b	.LBB19_64
.LBB19_181:
	subs	x9, x24, #4
	b.lo	.LBB19_269
	ldur	w8, [x11, #1]
	rev	w26, w8
	subs	x24, x9, x26
	b.lo	.LBB19_269
	add	x27, x11, #5
	cbz	w8, .LBB19_198
	mov	x0, x26
	mov	w1, #1
	bl	rattle_alloc
	tbz	w0, #0, .LBB19_283
	stp	x1, xzr, [x29, #-112]
	sub	x0, x29, #112
	mov	x1, x27
	mov	x2, x26
	stur	x26, [x29, #-96]
	bl	"std_alloc::vec::Vec::extend_from_slice::<#f0d03d630576da86>"
	and	w8, w0, #0xff
	tbnz	w8, #0, .LBB19_281
	ldp	x1, x19, [x29, #-112]
	ldur	x28, [x29, #-96]
	b	.LBB19_199
.LBB19_187:
	subs	x24, x24, #2
	b.lo	.LBB19_220
	ldurh	w8, [x11, #1]
	mov	x19, xzr
	mov	x28, xzr
	mov	x5, xzr
	mov	x1, xzr
	rev16	w8, w8
	add	x25, x11, #3
	mov	w10, #4
	lsl	x8, x8, #16
	orr	x9, x10, xzr, lsl #8
	ldrb	w10, [sp, #160]
	orr	x8, x8, xzr, lsl #32
	orr	x6, x9, x8
	cbnz	w10, .LBB19_203
	b	.LBB19_64
.LBB19_189:
	subs	x24, x24, #8
	b.lo	.LBB19_220
	ldur	x10, [x11, #1]
	mov	x19, xzr
	mov	x28, xzr
	mov	x5, xzr
	rev	x1, x10
	add	x25, x11, #9
	mov	w10, #9
	lsl	x8, xzr, #16
	orr	x9, x10, xzr, lsl #8
	ldrb	w10, [sp, #160]
	orr	x8, x8, xzr, lsl #32
	orr	x6, x9, x8
	cbnz	w10, .LBB19_203
	b	.LBB19_64
.LBB19_191:
	subs	x24, x24, #8
	b.lo	.LBB19_220
	ldur	x10, [x11, #1]
	mov	x19, xzr
	mov	x28, xzr
	mov	x5, xzr
	rev	x1, x10
	add	x25, x11, #9
	mov	w10, #14
	lsl	x8, xzr, #16
	orr	x9, x10, xzr, lsl #8
	ldrb	w10, [sp, #160]
	orr	x8, x8, xzr, lsl #32
	orr	x6, x9, x8
	cbnz	w10, .LBB19_203
	b	.LBB19_64
.LBB19_193:
	subs	x24, x24, #4
	b.lo	.LBB19_220
	ldur	w10, [x11, #1]
	mov	x19, xzr
	mov	x28, xzr
	mov	x1, xzr
	rev	w5, w10
	add	x25, x11, #5
	mov	w10, #6
	lsl	x8, xzr, #16
	orr	x9, x10, xzr, lsl #8
	ldrb	w10, [sp, #160]
	orr	x8, x8, x5, lsl #32
	orr	x6, x9, x8
	cbnz	w10, .LBB19_203
	b	.LBB19_64
.LBB19_195:
	cbz	x24, .LBB19_220
	ldrb	w9, [x11, #1]
	mov	x19, xzr
	mov	x28, xzr
	mov	x5, xzr
	mov	x1, xzr
	add	x25, x11, #2
	sub	x24, x24, #1
	mov	w10, #1
	lsl	x8, xzr, #16
	orr	x9, x10, x9, lsl #8
	ldrb	w10, [sp, #160]
	orr	x8, x8, xzr, lsl #32
	orr	x6, x9, x8
	cbnz	w10, .LBB19_203
	b	.LBB19_64
.LBB19_197:
	ldr	x1, [sp, #104]
	mov	x19, xzr
	mov	x28, xzr
	mov	x5, xzr
	mov	w10, #16
	lsl	x8, xzr, #16
	orr	x9, x10, xzr, lsl #8
	ldrb	w10, [sp, #160]
	orr	x8, x8, xzr, lsl #32
	orr	x6, x9, x8
	cbnz	w10, .LBB19_203
	b	.LBB19_64
.LBB19_198:
	ldr	x1, [sp, #104]
	mov	x19, xzr
	mov	x28, xzr
.LBB19_199:
	mov	x5, xzr
	add	x25, x27, x26
	mov	w10, #12
	lsl	x8, xzr, #16
	orr	x9, x10, xzr, lsl #8
	ldrb	w10, [sp, #160]
	orr	x8, x8, xzr, lsl #32
	orr	x6, x9, x8
	cbnz	w10, .LBB19_203
	b	.LBB19_64
.LBB19_200:
	mov	x0, x1
	mov	x26, x1
	mov	x1, x28
	mov	x2, x19
	bl	memmove
	mov	x1, x26
.LBB19_201:
	mov	x8, xzr
	mov	x5, xzr
	mov	x9, xzr
	mov	w10, #16
	mov	x28, x19
.LBB19_202:
	lsl	x8, x8, #16
	orr	x9, x10, x9, lsl #8
	ldrb	w10, [sp, #160]
	orr	x8, x8, x5, lsl #32
	orr	x6, x9, x8
	cbz	w10, .LBB19_64
.LBB19_203:
	ldp	x8, x9, [sp, #176]
	cmp	x9, x8
	b.eq	.LBB19_205
.LBB19_204:
	mov	w9, #56
	ldr	x10, [sp, #168]
	mov	x26, x25
	madd	x9, x8, x9, x10
	add	x8, x8, #1
	str	x8, [sp, #176]
	stp	x21, x22, [x9]
	stp	x22, x6, [x9, #16]
	stp	x1, x19, [x9, #32]
	str	x28, [x9, #48]
	cbnz	x24, .LBB19_7
	b	.LBB19_235
.LBB19_205:
	add	x8, sp, #160
	mov	x27, x6
	mov	x26, x1
	add	x0, x8, #8
	bl	"std_alloc::vec::Vec::grow_amortized::<#b98889d35b5d373b>"
	cbz	w0, .LBB19_272
	ldr	x8, [sp, #176]
	mov	x1, x26
	mov	x6, x27
	b	.LBB19_204
.LBB19_207:
	ldr	x1, [sp, #176]
	and	x26, x26, #0xff
.LBB19_208:
	ldrh	w8, [x1]
	cbz	w8, .LBB19_265
	ldrb	w24, [sp, #207]
	lsl	x8, x26, #3
.LBB19_210:
	ldr	x9, [sp, #144]
	add	x8, x25, x8
	stp	x21, x22, [x29, #-176]
	add	x8, x8, #848
	stur	x22, [x29, #-160]
	sub	x0, x29, #112
	str	x9, [sp, #280]
	ldr	x9, [sp, #16]
	and	x1, x24, #0xf
	str	w5, [sp, #276]
	sub	x2, x29, #176
	cmp	x9, #1
	ldr	x9, [sp, #152]
	str	x9, [sp, #288]
	ldr	x9, [sp, #112]
	csel	x19, x9, x8, eq
	ldr	x8, [sp, #136]
	str	x8, [sp, #296]
	ldr	x8, [x19]
	ldrh	w9, [x8]
	add	x10, x8, #8
	ldrh	w11, [x8, #2]
	add	x12, x8, #368
	stp	x10, x9, [x29, #-112]
	mov	w10, #15
	cmp	w11, #0
	stp	x10, x12, [x29, #-96]
	add	x11, x8, #848
	stp	x9, x10, [x29, #-80]
	mov	w10, #16
	csinc	x9, xzr, x9, eq
	csel	x10, xzr, x10, eq
	stp	x11, x9, [x29, #-64]
	stp	x10, x8, [x29, #-48]
	bl	"std_alloc::vec::lodged::Vec+T+Lodged::insert_reserved::<#0107ca75ede54906>"
	ldr	x8, [sp, #8]
	and	x1, x24, #0xf
	add	x2, sp, #272
	str	w8, [sp, #272]
	sub	x8, x29, #112
	add	x0, x8, #24
	bl	"std_alloc::vec::lodged::Vec+T+Lodged::insert_reserved::<33'amqp_value_core::value::AMQPValue>"
	ldur	x8, [x29, #-104]
	ldur	x9, [x29, #-40]
	ldp	x26, x24, [sp, #120]
	strh	w8, [x9]
	str	x9, [x19]
	ldr	x8, [sp, #184]
	add	x8, x8, #1
	str	x8, [sp, #184]
	cbnz	x24, .LBB19_7
	b	.LBB19_235
.LBB19_211:
	cmp	w19, #32
	b.hs	.LBB19_213
	mov	x8, xzr
	b	.LBB19_217
.LBB19_213:
	add	x10, x26, x27
	and	x9, x19, #0x18
	and	x8, x19, #0xffffffe0
	add	x10, x10, #22
	add	x11, x1, #16
	and	x12, x19, #0xffffffe0
.LBB19_214:
	ldp	q0, q1, [x10, #-16]
	subs	x12, x12, #32
	add	x10, x10, #32
	stp	q0, q1, [x11, #-16]
	add	x11, x11, #32
	b.ne	.LBB19_214
	cmp	x8, x19
	b.eq	.LBB19_201
	cbz	x9, .LBB19_162
.LBB19_217:
	mov	x11, x8
	and	x8, x19, #0xfffffff8
	add	x9, x11, x27
	add	x10, x26, x9
	sub	x9, x11, x8
	add	x11, x1, x11
	add	x10, x10, #6
.LBB19_218:
	ldr	d0, [x10], #8
	adds	x9, x9, #8
	str	d0, [x11], #8
	b.ne	.LBB19_218
	cmp	x8, x19
	b.eq	.LBB19_201
	b	.LBB19_162
.LBB19_220:
	mov	w12, wzr
	mov	w13, wzr
.LBB19_221:
	cmp	w12, #2
	mov	w8, #1
	mov	w9, #2
	cinc	w22, w8, eq
	csel	w19, w13, w9, eq
	tbnz	w23, #0, .LBB19_223
	mov	x0, x21
	bl	rattle_dealloc
.LBB19_223:
	ldrb	w8, [sp, #160]
	cbz	w8, .LBB19_232
	ldp	x20, x21, [sp, #168]
	ldr	x23, [sp, #184]
	cbz	x21, .LBB19_229
	sub	x8, x29, #112
	add	x25, x20, #28
	orr	x24, x8, #0x4
	b	.LBB19_227
.LBB19_226:
	add	x8, sp, #29
	ldr	q0, [sp, #272]
	sub	x0, x29, #112
	ldur	q1, [x8, #255]
	sturb	w26, [x29, #-112]
	sturb	w28, [x29, #-111]
	sturh	w27, [x29, #-110]
	str	q0, [x24]
	stur	q1, [x24, #12]
	bl	"amq_protocol_types::amqp_value_core++value++AMQPValue+Destruct::drop"
	subs	x21, x21, #1
	add	x25, x25, #56
	b.eq	.LBB19_229
.LBB19_227:
	ldur	x0, [x25, #-28]
	ldr	q0, [x25]
	add	x9, sp, #29
	ldur	x8, [x25, #-12]
	ldurb	w26, [x25, #-4]
	ldur	q1, [x25, #12]
	ldurb	w28, [x25, #-3]
	ldurh	w27, [x25, #-2]
	str	q0, [sp, #272]
	stur	q1, [x9, #255]
	cbz	x8, .LBB19_226
	bl	rattle_dealloc
	b	.LBB19_226
.LBB19_229:
	cbz	x23, .LBB19_234
	mov	x0, x20
	bl	rattle_dealloc
	b	.LBB19_234
.LBB19_231:
	mov	x8, xzr
	b	.LBB19_241
.LBB19_232:
	ldrb	w8, [sp, #168]
	cmp	w8, #1
	b.ne	.LBB19_234
	ldr	x0, [sp, #176]
	bl	"std_collections::btree::node::Node::destroy::<#c8513c7b35bfb086>"
.LBB19_234:
	ldr	x9, [sp, #96]
	mov	w8, #1
	strb	w22, [x9, #8]
	b	.LBB19_252
.LBB19_235:
	movi	v0.2d, #0000000000000000
	ldp	x8, x9, [sp, #176]
	ldrb	w11, [sp, #160]
	ldrb	w10, [sp, #168]
	stp	q0, q0, [x29, #-112]
	cbz	w11, .LBB19_238
	ldur	w11, [sp, #169]
	strb	w10, [sp, #272]
	add	x12, sp, #18
	ldr	w10, [sp, #172]
	sub	x0, x29, #112
	add	x1, sp, #272
	stur	w11, [x12, #255]
	str	w10, [sp, #276]
	stp	x8, x9, [sp, #280]
	bl	"amqp_value_core::types::field_table::FieldTable::from_pairs"
	ldurb	w8, [x29, #-112]
	cbnz	w8, .LBB19_277
	ldp	x8, x9, [x29, #-96]
	ldurb	w10, [x29, #-104]
.LBB19_238:
	ldr	x11, [sp, #96]
	str	xzr, [x11]
	strb	w10, [x11, #8]
	strb	wzr, [x11, #9]
	stp	x8, x9, [x11, #16]
	b	.LBB19_253
.LBB19_239:
	mov	w8, #770
	b	.LBB19_241
.LBB19_240:
	mov	w8, #257
.LBB19_241:
	lsr	x9, x8, #8
	and	x8, x8, #0x3
	ldrb	w10, [sp, #160]
	cmp	x8, #2
	mov	w8, #1
	mov	w11, #2
	cinc	w21, w8, eq
	csel	w19, w9, w11, eq
	cbz	w10, .LBB19_249
	ldp	x20, x22, [sp, #168]
	ldr	x23, [sp, #184]
	cbz	x22, .LBB19_247
	sub	x8, x29, #112
	add	x25, x20, #28
	orr	x24, x8, #0x4
	b	.LBB19_245
.LBB19_244:
	add	x8, sp, #29
	ldr	q0, [sp, #272]
	sub	x0, x29, #112
	ldur	q1, [x8, #255]
	sturb	w26, [x29, #-112]
	sturb	w28, [x29, #-111]
	sturh	w27, [x29, #-110]
	str	q0, [x24]
	stur	q1, [x24, #12]
	bl	"amq_protocol_types::amqp_value_core++value++AMQPValue+Destruct::drop"
	subs	x22, x22, #1
	add	x25, x25, #56
	b.eq	.LBB19_247
.LBB19_245:
	ldur	x0, [x25, #-28]
	ldr	q0, [x25]
	add	x9, sp, #29
	ldur	x8, [x25, #-12]
	ldurb	w26, [x25, #-4]
	ldur	q1, [x25, #12]
	ldurb	w28, [x25, #-3]
	ldurh	w27, [x25, #-2]
	str	q0, [sp, #272]
	stur	q1, [x9, #255]
	cbz	x8, .LBB19_244
	bl	rattle_dealloc
	b	.LBB19_244
.LBB19_247:
	cbz	x23, .LBB19_251
	mov	x0, x20
	bl	rattle_dealloc
	b	.LBB19_251
.LBB19_249:
	ldrb	w8, [sp, #168]
	cmp	w8, #1
	b.ne	.LBB19_251
	ldr	x0, [sp, #176]
	bl	"std_collections::btree::node::Node::destroy::<#c8513c7b35bfb086>"
.LBB19_251:
	ldr	x9, [sp, #96]
	mov	w8, #1
	strb	w21, [x9, #8]
.LBB19_252:
	str	x8, [x9]
	strb	w19, [x9, #9]
	stp	xzr, xzr, [x9, #16]
.LBB19_253:
	add	sp, sp, #688
	ldp	x20, x19, [sp, #80]
	ldp	x22, x21, [sp, #64]
	ldp	x24, x23, [sp, #48]
	ldp	x26, x25, [sp, #32]
	ldp	x28, x27, [sp, #16]
	ldp	x29, x30, [sp], #96
	ret
.LBB19_254:
	tbnz	w23, #0, .LBB19_256
.LBB19_255:
	mov	x0, x21
	mov	x19, x6
	bl	rattle_dealloc
	mov	x6, x19
.LBB19_256:
	ldr	x8, [sp, #144]
	sub	x0, x29, #112
	stp	x6, x8, [x29, #-112]
	ldr	x8, [sp, #152]
	stur	x8, [x29, #-96]
	ldr	x8, [sp, #136]
	stur	x8, [x29, #-88]
	bl	"amqp_value_core::amqp_value_core++value++AMQPValue+Destruct::drop"
	ldrb	w8, [sp, #160]
	cbz	w8, .LBB19_275
.LBB19_257:
	ldp	x20, x19, [sp, #168]
	ldr	x21, [sp, #184]
	cbz	x19, .LBB19_262
	sub	x8, x29, #112
	add	x23, x20, #28
	orr	x22, x8, #0x4
	b	.LBB19_260
.LBB19_259:
	add	x8, sp, #29
	ldr	q0, [sp, #272]
	sub	x0, x29, #112
	ldur	q1, [x8, #255]
	sturb	w24, [x29, #-112]
	sturb	w26, [x29, #-111]
	sturh	w25, [x29, #-110]
	str	q0, [x22]
	stur	q1, [x22, #12]
	bl	"amq_protocol_types::amqp_value_core++value++AMQPValue+Destruct::drop"
	subs	x19, x19, #1
	add	x23, x23, #56
	b.eq	.LBB19_262
.LBB19_260:
	ldur	x0, [x23, #-28]
	ldr	q0, [x23]
	add	x9, sp, #29
	ldur	x8, [x23, #-12]
	ldurb	w24, [x23, #-4]
	ldur	q1, [x23, #12]
	ldurb	w26, [x23, #-3]
	ldurh	w25, [x23, #-2]
	str	q0, [sp, #272]
	stur	q1, [x9, #255]
	cbz	x8, .LBB19_259
	bl	rattle_dealloc
	b	.LBB19_259
.LBB19_262:
	cbz	x21, .LBB19_277
	mov	x0, x20
	bl	rattle_dealloc
	b	.LBB19_277
.LBB19_264:
	ldr	x1, [sp, #176]
	ldrh	w8, [x1]
	cbnz	w8, .LBB19_267
.LBB19_265:
	ldrh	w8, [x1, #2]
	cbz	w8, .LBB19_267
	ldr	x19, [x1, #848]
	mov	x0, x1
	bl	rattle_dealloc
	str	x19, [sp, #176]
.LBB19_267:
	ldr	x6, [sp, #8]
	ldr	w8, [sp, #4]
	tbz	w8, #0, .LBB19_255
	b	.LBB19_256
.LBB19_268:
	mov	x8, xzr
	b	.LBB19_279
.LBB19_269:
	mov	x8, xzr
	b	.LBB19_284
.LBB19_270:
	mov	w13, #2
	mov	w12, #1
	b	.LBB19_221
.LBB19_271:
	ldurb	w13, [x29, #-103]
	mov	w12, w1
	b	.LBB19_221
.LBB19_272:
	tbnz	w23, #0, .LBB19_274
	mov	x0, x21
	bl	rattle_dealloc
.LBB19_274:
	sub	x0, x29, #112
	stp	x27, x26, [x29, #-112]
	stp	x19, x28, [x29, #-96]
	bl	"amq_protocol_types::amqp_value_core++value++AMQPValue+Destruct::drop"
	ldrb	w8, [sp, #160]
	cbnz	w8, .LBB19_257
.LBB19_275:
	ldrb	w8, [sp, #168]
	cmp	w8, #1
	b.ne	.LBB19_277
	ldr	x0, [sp, #176]
	bl	"std_collections::btree::node::Node::destroy::<#c8513c7b35bfb086>"
.LBB19_277:
	ldr	x10, [sp, #96]
	mov	w8, #1
	mov	w9, #770
	str	x8, [x10]
	strh	w9, [x10, #8]
	stp	xzr, xzr, [x10, #16]
	b	.LBB19_253
.LBB19_278:
	mov	w8, #770
.LBB19_279:
	lsr	x13, x8, #8
	and	w12, w8, #0xff
.LBB19_280:
	b	.LBB19_221
.LBB19_281:
	ldur	x8, [x29, #-96]
	cbz	x8, .LBB19_283
	ldur	x0, [x29, #-112]
	bl	rattle_dealloc
.LBB19_283:
	mov	w8, #770
.LBB19_284:
	lsr	x13, x8, #8
	and	w12, w8, #0xff
	b	.LBB19_221
.LBB19_285:
	brk	#0x1
.Lfunc_end19:
	.size	"amq_protocol_types::parsing::values::parse_table_body::<#021be0914fa2e150>", .Lfunc_end19-"amq_protocol_types::parsing::values::parse_table_body::<#021be0914fa2e150>"
	.section	".rodata.amq_protocol_types::parsing::values::parse_table_body::<#021be0914fa2e150>","a",@progbits
	.p2align	1, 0x0
.LJTI19_0:
	.hword	(.LBB19_171-.LBB19_60)>>2
	.hword	(.LBB19_169-.LBB19_60)>>2
	.hword	(.LBB19_221-.LBB19_60)>>2
	.hword	(.LBB19_167-.LBB19_60)>>2
	.hword	(.LBB19_221-.LBB19_60)>>2
	.hword	(.LBB19_176-.LBB19_60)>>2
	.hword	(.LBB19_221-.LBB19_60)>>2
	.hword	(.LBB19_221-.LBB19_60)>>2
	.hword	(.LBB19_165-.LBB19_60)>>2
	.hword	(.LBB19_221-.LBB19_60)>>2
	.hword	(.LBB19_221-.LBB19_60)>>2
	.hword	(.LBB19_60-.LBB19_60)>>2
	.hword	(.LBB19_221-.LBB19_60)>>2
	.hword	(.LBB19_221-.LBB19_60)>>2
	.hword	(.LBB19_221-.LBB19_60)>>2
	.hword	(.LBB19_221-.LBB19_60)>>2
	.hword	(.LBB19_221-.LBB19_60)>>2
	.hword	(.LBB19_221-.LBB19_60)>>2
	.hword	(.LBB19_181-.LBB19_60)>>2
	.hword	(.LBB19_191-.LBB19_60)>>2
	.hword	(.LBB19_62-.LBB19_60)>>2
	.hword	(.LBB19_202-.LBB19_60)>>2
	.hword	(.LBB19_221-.LBB19_60)>>2
	.hword	(.LBB19_221-.LBB19_60)>>2
	.hword	(.LBB19_221-.LBB19_60)>>2
	.hword	(.LBB19_221-.LBB19_60)>>2
	.hword	(.LBB19_221-.LBB19_60)>>2
	.hword	(.LBB19_221-.LBB19_60)>>2
	.hword	(.LBB19_221-.LBB19_60)>>2
	.hword	(.LBB19_221-.LBB19_60)>>2
	.hword	(.LBB19_221-.LBB19_60)>>2
	.hword	(.LBB19_221-.LBB19_60)>>2
	.hword	(.LBB19_221-.LBB19_60)>>2
	.hword	(.LBB19_195-.LBB19_60)>>2
	.hword	(.LBB19_221-.LBB19_60)>>2
	.hword	(.LBB19_189-.LBB19_60)>>2
	.hword	(.LBB19_221-.LBB19_60)>>2
	.hword	(.LBB19_150-.LBB19_60)>>2
	.hword	(.LBB19_221-.LBB19_60)>>2
	.hword	(.LBB19_221-.LBB19_60)>>2
	.hword	(.LBB19_193-.LBB19_60)>>2
	.hword	(.LBB19_221-.LBB19_60)>>2
	.hword	(.LBB19_221-.LBB19_60)>>2
	.hword	(.LBB19_60-.LBB19_60)>>2
	.hword	(.LBB19_221-.LBB19_60)>>2
	.hword	(.LBB19_221-.LBB19_60)>>2
	.hword	(.LBB19_221-.LBB19_60)>>2
	.hword	(.LBB19_221-.LBB19_60)>>2
	.hword	(.LBB19_221-.LBB19_60)>>2
	.hword	(.LBB19_221-.LBB19_60)>>2
	.hword	(.LBB19_62-.LBB19_60)>>2
	.hword	(.LBB19_152-.LBB19_60)>>2
	.hword	(.LBB19_187-.LBB19_60)>>2
	.hword	(.LBB19_221-.LBB19_60)>>2
	.hword	(.LBB19_221-.LBB19_60)>>2
	.hword	(.LBB19_154-.LBB19_60)>>2

	.section	".text.amq_protocol_types::parsing::pairs::begins_small::<#021be0914fa2e150>","ax",@progbits
	.p2align	2
	.type	"amq_protocol_types::parsing::pairs::begins_small::<#021be0914fa2e150>",@function
"amq_protocol_types::parsing::pairs::begins_small::<#021be0914fa2e150>":
	ldrb	w8, [x0]
	mov	w9, #1
	mov	x11, #33
	movk	x11, #4, lsl #16
	add	x10, x0, x8
	movk	x11, #128, lsl #48
	ldrb	w10, [x10, #1]
	sub	w10, w10, #65
	lsl	x9, x9, x10
	cmp	w10, #55
	and	x9, x9, x11
	ccmp	x9, #0, #4, ls
	b.eq	.LBB20_4
	add	x8, x8, #2
	sub	x9, x1, x8
	cmp	x9, #4
	b.hs	.LBB20_3
	mov	w0, wzr
	ret
.LBB20_3:
	ldr	w8, [x0, x8]
	rev	w8, w8
	cmp	x8, x1, lsr #9
	cset	w0, ls
	ret
.LBB20_4:
	mov	w0, #1
	ret
.Lfunc_end20:
	.size	"amq_protocol_types::parsing::pairs::begins_small::<#021be0914fa2e150>", .Lfunc_end20-"amq_protocol_types::parsing::pairs::begins_small::<#021be0914fa2e150>"

	.section	".text.unlikely.std_alloc::vec::Vec::grow_amortized::<#a8e0b0c0cbc96d99>","ax",@progbits
	.p2align	2
	.type	"std_alloc::vec::Vec::grow_amortized::<#a8e0b0c0cbc96d99>",@function
"std_alloc::vec::Vec::grow_amortized::<#a8e0b0c0cbc96d99>":
	ldr	x8, [x0, #8]
	cmn	x8, x1
	b.lo	.LBB21_2
	mov	w0, wzr
	ret
.LBB21_2:
	stp	x29, x30, [sp, #-32]!
	ldr	x10, [x0, #16]
	add	x9, x8, x1
	mov	w11, #8
	cmp	x9, #8
	stp	x20, x19, [sp, #16]
	mov	x29, sp
	lsl	x12, x10, #1
	csel	x11, x9, x11, hi
	lsr	x13, x10, #62
	cmp	x11, x12
	csel	x9, x11, x12, hi
	cmp	x13, #0
	csel	x19, x9, x11, eq
	tbnz	x19, #63, .LBB21_7
	cbz	x10, .LBB21_6
	mov	x20, x0
	ldr	x0, [x0]
	mov	x1, x8
	mov	x2, x19
	mov	w3, #1
	bl	rattle_realloc
	tbz	w0, #0, .LBB21_7
.LBB21_5:
	mov	w0, #1
	str	x1, [x20]
	str	x19, [x20, #16]
	ldp	x20, x19, [sp, #16]
	ldp	x29, x30, [sp], #32
	ret
.LBB21_6:
	mov	x20, x0
	mov	x0, x9
	mov	w1, #1
	bl	rattle_alloc
	tbnz	w0, #0, .LBB21_5
.LBB21_7:
	mov	w0, wzr
	ldp	x20, x19, [sp, #16]
	ldp	x29, x30, [sp], #32
	ret
.Lfunc_end21:
	.size	"std_alloc::vec::Vec::grow_amortized::<#a8e0b0c0cbc96d99>", .Lfunc_end21-"std_alloc::vec::Vec::grow_amortized::<#a8e0b0c0cbc96d99>"

	.section	".text.std_alloc::vec::Vec::extend_from_slice::<#f0d03d630576da86>","ax",@progbits
	.p2align	2
	.type	"std_alloc::vec::Vec::extend_from_slice::<#f0d03d630576da86>",@function
"std_alloc::vec::Vec::extend_from_slice::<#f0d03d630576da86>":
	stp	x29, x30, [sp, #-64]!
	str	x23, [sp, #16]
	mov	x23, x0
	mov	x29, sp
	stp	x20, x19, [sp, #48]
	mov	x19, x0
	ldp	x8, x20, [x23, #8]!
	stp	x22, x21, [sp, #32]
	sub	x9, x20, x8
	cmp	x2, x9
	b.hi	.LBB22_18
.LBB22_1:
	ldr	x21, [x19]
	add	x22, x8, x2
	stp	xzr, xzr, [x23]
	add	x0, x21, x8
	sub	x9, x0, x1
	cmp	x9, x2
	b.hs	.LBB22_7
	cmp	x2, #8
	b.lo	.LBB22_4
	add	x9, x8, x21
	sub	x9, x9, x1
	cmp	x9, #32
	b.hs	.LBB22_9
.LBB22_4:
	mov	x9, xzr
.LBB22_5:
	add	x10, x9, x8
	sub	x8, x2, x9
	add	x9, x1, x9
	add	x10, x21, x10
.LBB22_6:
	ldrb	w11, [x9], #1
	subs	x8, x8, #1
	strb	w11, [x10], #1
	b.ne	.LBB22_6
	b	.LBB22_8
.LBB22_7:
	bl	memmove
.LBB22_8:
	mov	w0, wzr
	stp	x21, x22, [x19]
	str	x20, [x19, #16]
	ldp	x20, x19, [sp, #48]
	ldr	x23, [sp, #16]
	ldp	x22, x21, [sp, #32]
	ldp	x29, x30, [sp], #64
	ret
.LBB22_9:
	cmp	x2, #32
	b.hs	.LBB22_11
	mov	x9, xzr
	b	.LBB22_15
.LBB22_11:
	add	x12, x8, x21
	and	x10, x2, #0x18
	and	x9, x2, #0xffffffffffffffe0
	add	x11, x1, #16
	add	x12, x12, #16
	and	x13, x2, #0xffffffffffffffe0
.LBB22_12:
	ldp	q0, q1, [x11, #-16]
	subs	x13, x13, #32
	add	x11, x11, #32
	stp	q0, q1, [x12, #-16]
	add	x12, x12, #32
	b.ne	.LBB22_12
	cmp	x2, x9
	b.eq	.LBB22_8
	cbz	x10, .LBB22_5
.LBB22_15:
	mov	x11, x9
	and	x9, x2, #0xfffffffffffffff8
	add	x12, x8, x11
	sub	x10, x11, x9
	add	x11, x1, x11
	add	x12, x21, x12
.LBB22_16:
	ldr	d0, [x11], #8
	adds	x10, x10, #8
	str	d0, [x12], #8
	b.ne	.LBB22_16
	cmp	x2, x9
	b.eq	.LBB22_8
	b	.LBB22_5
.LBB22_18:
	mov	x21, x1
	mov	x0, x19
	mov	x1, x2
	mov	x22, x2
	bl	"std_alloc::vec::Vec::grow_amortized::<#a8e0b0c0cbc96d99>"
	cbz	w0, .LBB22_20
	ldp	x8, x20, [x19, #8]
	mov	x2, x22
	mov	x1, x21
	b	.LBB22_1
.LBB22_20:
	mov	w0, #1
	ldp	x20, x19, [sp, #48]
	ldr	x23, [sp, #16]
	ldp	x22, x21, [sp, #32]
	ldp	x29, x30, [sp], #64
	ret
.Lfunc_end22:
	.size	"std_alloc::vec::Vec::extend_from_slice::<#f0d03d630576da86>", .Lfunc_end22-"std_alloc::vec::Vec::extend_from_slice::<#f0d03d630576da86>"

	.section	".text.core::str::utf8::from_utf8","ax",@progbits
	.p2align	2
	.type	"core::str::utf8::from_utf8",@function
"core::str::utf8::from_utf8":
	sub	sp, sp, #64
	str	x21, [sp, #32]
	mov	x21, x1
	stp	x20, x19, [sp, #48]
	mov	x20, x2
	mov	x19, x0
	stp	x29, x30, [sp, #16]
	add	x29, sp, #16
	cbz	x2, .LBB23_35
	mov	x1, xzr
	b	.LBB23_4
.LBB23_2:
	mov	x0, sp
	mov	x2, x20
	stp	x21, x20, [sp]
	bl	"core::slice::words::first::<#52f9edcae2f82f51>"
	mov	x1, x0
.LBB23_3:
	cmp	x1, x20
	b.hs	.LBB23_35
.LBB23_4:
	add	x8, x21, x1
	sub	x9, x20, x1
	ldrsb	w10, [x8]
	cmp	x9, #2
	b.lo	.LBB23_7
	tbnz	w10, #31, .LBB23_7
	ldrsb	w8, [x8, #1]
	tbz	w8, #31, .LBB23_2
	b	.LBB23_8
.LBB23_7:
	and	w10, w10, #0xff
	tbnz	w10, #7, .LBB23_10
.LBB23_8:
	mov	w11, #1
.LBB23_9:
	add	x1, x11, x1
	b	.LBB23_3
.LBB23_10:
	cmp	w10, #194
	b.lo	.LBB23_36
	cmp	w10, #223
	b.hi	.LBB23_15
	cmp	x9, #2
	b.lo	.LBB23_34
	ldrsb	w11, [x8, #1]
	cmn	w11, #65
	b.gt	.LBB23_31
	mov	w11, #2
	add	x1, x11, x1
	b	.LBB23_3
.LBB23_15:
	cmp	w10, #239
	b.hi	.LBB23_22
	cmp	x9, #3
	b.lo	.LBB23_29
	ldrsb	w11, [x8, #1]
	cmn	w11, #65
	b.gt	.LBB23_31
	ldrsb	w12, [x8, #2]
	cmn	w12, #65
	b.gt	.LBB23_31
	and	w12, w11, #0xff
	mov	w13, #-14464
	add	w12, w12, w10, lsl #6
	add	w12, w12, w13
	cmp	w12, #32
	b.lo	.LBB23_31
	cmp	w12, #896
	mov	w11, #3
	csel	x13, xzr, x11, lo
	cmp	w12, #864
	b.lo	.LBB23_9
	mov	x11, x13
	b	.LBB23_27
.LBB23_22:
	cmp	x9, #4
	b.lo	.LBB23_28
	ldrsb	w11, [x8, #1]
	cmn	w11, #65
	b.gt	.LBB23_28
	ldrsb	w12, [x8, #2]
	cmn	w12, #65
	b.gt	.LBB23_28
	ldrsb	w12, [x8, #3]
	cmn	w12, #65
	b.gt	.LBB23_28
	and	w11, w11, #0xff
	mov	w12, #-15488
	add	w11, w11, w10, lsl #6
	add	w12, w11, w12
	mov	w11, #4
	cmp	w12, #272
	csel	x11, x11, xzr, lo
	cmp	w12, #16
	b.lo	.LBB23_28
.LBB23_27:
	cbnz	x11, .LBB23_9
.LBB23_28:
	cmp	w10, #244
	b.hi	.LBB23_36
.LBB23_29:
	cmp	x9, #2
	b.lo	.LBB23_34
	ldrb	w11, [x8, #1]
.LBB23_31:
	cmp	w10, #240
	mov	w12, #-128
	mov	w13, #-112
	mov	w14, #-96
	csel	w12, w13, w12, eq
	cmp	w10, #224
	mov	w13, #-65
	csel	w12, w14, w12, eq
	mov	w14, #-113
	cmp	w10, #244
	and	w15, w12, #0xf0
	csel	w12, w14, w13, eq
	cmp	w10, #237
	mov	w10, #-97
	csel	w12, w10, w12, eq
	cmp	w15, w11, uxtb
	mov	w10, #257
	b.hi	.LBB23_37
	and	w11, w11, #0xff
	cmp	w11, w12, uxtb
	b.hi	.LBB23_37
	cmp	x9, #2
	b.ne	.LBB23_38
.LBB23_34:
	mov	x10, xzr
	b	.LBB23_37
.LBB23_35:
	stp	xzr, x21, [x19]
	str	x20, [x19, #16]
	ldp	x20, x19, [sp, #48]
	ldr	x21, [sp, #32]
	ldp	x29, x30, [sp, #16]
	add	sp, sp, #64
	ret
.LBB23_36:
	mov	w10, #257
.LBB23_37:
	mov	w8, #1
	str	x10, [x19, #16]
	stp	x8, x1, [x19]
	ldp	x20, x19, [sp, #48]
	ldr	x21, [sp, #32]
	ldp	x29, x30, [sp, #16]
	add	sp, sp, #64
	ret
.LBB23_38:
	ldrsb	w8, [x8, #2]
	cmn	w8, #65
	b.gt	.LBB23_40
	cmp	x9, #3
	mov	w8, #769
	csel	x10, x8, xzr, hi
	b	.LBB23_37
.LBB23_40:
	mov	w10, #513
	b	.LBB23_37
.Lfunc_end23:
	.size	"core::str::utf8::from_utf8", .Lfunc_end23-"core::str::utf8::from_utf8"

	.section	.rodata.cst16,"aM",@progbits,16
	.p2align	4, 0x0
.LCPI24_0:
	.byte	1
	.byte	2
	.byte	4
	.byte	8
	.byte	16
	.byte	32
	.byte	64
	.byte	128
	.byte	1
	.byte	2
	.byte	4
	.byte	8
	.byte	16
	.byte	32
	.byte	64
	.byte	128
	.section	".text.amqp_value_core::types::short_string::ShortStringOrd::cmp","ax",@progbits
	.p2align	2
	.type	"amqp_value_core::types::short_string::ShortStringOrd::cmp",@function
"amqp_value_core::types::short_string::ShortStringOrd::cmp":
	cmp	x3, x1
	csel	x8, x3, x1, lo
	cmp	x8, #7
	b.hi	.LBB24_3
	subs	x9, x8, #4
	b.lo	.LBB24_5
	ldr	w10, [x0]
	ldr	w11, [x0, x9]
	ldr	w12, [x2]
	ldr	w9, [x2, x9]
	orr	x10, x10, x11, lsl #32
	orr	x11, x12, x9, lsl #32
	rev	x9, x10
	rev	x10, x11
	cmp	x9, x10
	b.ne	.LBB24_4
	b	.LBB24_7
.LBB24_3:
	sub	x9, x8, #8
	mov	w10, #8
	ldr	x11, [x0]
	cmp	x9, #8
	ldr	x12, [x2]
	csel	x9, x9, x10, lo
	rev	x13, x11
	ldr	x10, [x0, x9]
	ldr	x9, [x2, x9]
	rev	x14, x12
	cmp	x11, x12
	rev	x10, x10
	rev	x15, x9
	csel	x9, x10, x13, eq
	csel	x10, x15, x14, eq
	cmp	x9, x10
	b.eq	.LBB24_7
.LBB24_4:
	mov	w8, #2
	csel	w0, wzr, w8, lo
	ret
.LBB24_5:
	cbz	x8, .LBB24_23
	ldrb	w9, [x0]
	lsr	x10, x8, #1
	ldrb	w11, [x2]
	sub	x13, x8, #1
	ldrb	w12, [x0, x10]
	lsl	x9, x9, #16
	ldrb	w10, [x2, x10]
	lsl	x11, x11, #16
	orr	x9, x9, x12, lsl #8
	ldrb	w12, [x0, x13]
	orr	x10, x11, x10, lsl #8
	ldrb	w11, [x2, x13]
	orr	x9, x9, x12
	orr	x10, x10, x11
	cmp	x9, x10
	b.ne	.LBB24_4
.LBB24_7:
	subs	x9, x8, #16
	b.ls	.LBB24_23
	cmp	x9, #79
	b.hi	.LBB24_12
	mov	w10, #16
	mov	x11, x9
.LBB24_10:
	cmp	x11, #17
	b.lo	.LBB24_14
	ldr	q0, [x0, x10]
	ldr	q1, [x2, x10]
	adrp	x12, .LCPI24_0
	sub	x11, x11, #16
	cmeq	v0.16b, v0.16b, v1.16b
	ldr	q1, [x12, :lo12:.LCPI24_0]
	bic	v0.16b, v1.16b, v0.16b
	addp	v0.16b, v0.16b, v0.16b
	addp	v0.16b, v0.16b, v0.16b
	addp	v0.16b, v0.16b, v0.16b
	umov	w12, v0.h[0]
	orr	w12, w12, #0x10000
	rbit	w12, w12
	clz	w12, w12
	add	x13, x10, x12
	add	x10, x10, #16
	cmp	x13, x10
	b.hs	.LBB24_10
	b	.LBB24_22
.LBB24_12:
	ldr	q0, [x0, #16]
	ldr	q1, [x2, #16]
	adrp	x10, .LCPI24_0
	cmeq	v1.16b, v0.16b, v1.16b
	ldr	q0, [x10, :lo12:.LCPI24_0]
	bic	v1.16b, v0.16b, v1.16b
	addp	v1.16b, v1.16b, v1.16b
	addp	v1.16b, v1.16b, v1.16b
	addp	v1.16b, v1.16b, v1.16b
	umov	w10, v1.h[0]
	orr	w10, w10, #0x10000
	rbit	w10, w10
	clz	w10, w10
	cmp	w10, #16
	b.hs	.LBB24_15
	add	w9, w10, #16
	cmp	x9, x8
	b.hs	.LBB24_23
	b	.LBB24_26
.LBB24_14:
	ldr	q0, [x0, x9]
	ldr	q1, [x2, x9]
	adrp	x10, .LCPI24_0
	cmeq	v0.16b, v0.16b, v1.16b
	ldr	q1, [x10, :lo12:.LCPI24_0]
	bic	v0.16b, v1.16b, v0.16b
	b	.LBB24_25
.LBB24_15:
	sub	x10, x8, #96
	sub	x12, x8, #32
	and	x10, x10, #0xffffffffffffffc0
	add	x11, x10, #96
	mov	w10, #32
.LBB24_16:
	add	x13, x0, x10
	add	x14, x2, x10
	ldp	q1, q2, [x13]
	ldp	q3, q4, [x13, #32]
	ldp	q5, q6, [x14]
	ldp	q7, q16, [x14, #32]
	cmeq	v1.16b, v1.16b, v5.16b
	cmeq	v2.16b, v2.16b, v6.16b
	cmeq	v4.16b, v4.16b, v16.16b
	cmeq	v3.16b, v3.16b, v7.16b
	bic	v1.16b, v0.16b, v1.16b
	bic	v2.16b, v0.16b, v2.16b
	bic	v3.16b, v0.16b, v3.16b
	bic	v4.16b, v0.16b, v4.16b
	addp	v1.16b, v1.16b, v2.16b
	addp	v2.16b, v3.16b, v4.16b
	addp	v1.16b, v1.16b, v2.16b
	addp	v1.16b, v1.16b, v1.16b
	fmov	x13, d1
	cbnz	x13, .LBB24_19
	sub	x12, x12, #64
	add	x10, x10, #64
	cmp	x12, #63
	b.hi	.LBB24_16
	mov	x10, x11
.LBB24_19:
	sub	x11, x8, x10
.LBB24_20:
	cmp	x11, #17
	b.lo	.LBB24_24
	ldr	q1, [x0, x10]
	ldr	q2, [x2, x10]
	sub	x11, x11, #16
	cmeq	v1.16b, v1.16b, v2.16b
	bic	v1.16b, v0.16b, v1.16b
	addp	v1.16b, v1.16b, v1.16b
	addp	v1.16b, v1.16b, v1.16b
	addp	v1.16b, v1.16b, v1.16b
	umov	w12, v1.h[0]
	orr	w12, w12, #0x10000
	rbit	w12, w12
	clz	w12, w12
	add	x13, x10, x12
	add	x10, x10, #16
	cmp	x13, x10
	b.hs	.LBB24_20
.LBB24_22:
	add	x9, x10, w12, uxtw
	sub	x9, x9, #16
	cmp	x9, x8
	b.lo	.LBB24_26
.LBB24_23:
	cmp	x1, x3
	mov	w8, #2
	csel	w8, wzr, w8, lo
	csinc	w0, w8, wzr, ne
	ret
.LBB24_24:
	ldr	q1, [x0, x9]
	ldr	q2, [x2, x9]
	cmeq	v1.16b, v1.16b, v2.16b
	bic	v0.16b, v0.16b, v1.16b
.LBB24_25:
	addp	v0.16b, v0.16b, v0.16b
	addp	v0.16b, v0.16b, v0.16b
	addp	v0.16b, v0.16b, v0.16b
	umov	w10, v0.h[0]
	orr	w10, w10, #0x10000
	rbit	w10, w10
	clz	w10, w10
	add	x9, x9, x10
	cmp	x9, x8
	b.hs	.LBB24_23
.LBB24_26:
	ldrb	w8, [x0, x9]
	ldrb	w9, [x2, x9]
	cmp	w8, w9
	mov	w8, #2
	csel	w0, wzr, w8, lo
	ret
.Lfunc_end24:
	.size	"amqp_value_core::types::short_string::ShortStringOrd::cmp", .Lfunc_end24-"amqp_value_core::types::short_string::ShortStringOrd::cmp"

	.section	".text.std_alloc::vec::Vec::remove::<#5ea93b9ddeb8aab1>","ax",@progbits
	.p2align	2
	.type	"std_alloc::vec::Vec::remove::<#5ea93b9ddeb8aab1>",@function
"std_alloc::vec::Vec::remove::<#5ea93b9ddeb8aab1>":
	sub	sp, sp, #384
	add	x8, x2, x2, lsl #1
	ldr	x13, [x1, #16]
	cmn	x2, #1
	stp	d15, d14, [sp, #224]
	lsl	x9, x8, #3
	ldp	x8, x12, [x1]
	stp	xzr, xzr, [x1, #8]
	stp	d13, d12, [sp, #240]
	str	x8, [sp, #48]
	add	x8, x8, x9
	sub	x14, x12, #1
	ldr	q0, [x8]
	ldr	x8, [x8, #16]
	stp	d11, d10, [sp, #256]
	stp	d9, d8, [sp, #272]
	str	x8, [sp, #208]
	sub	x8, x14, x2
	str	x30, [sp, #288]
	stp	x28, x27, [sp, #304]
	stp	x26, x25, [sp, #320]
	stp	x24, x23, [sp, #336]
	stp	x22, x21, [sp, #352]
	stp	x20, x19, [sp, #368]
	str	q0, [sp, #192]
	b.eq	.LBB25_8
	cmp	x8, #86
	b.lo	.LBB25_13
	ldr	x10, [sp, #48]
	sub	x8, x12, x2
	stp	x13, x1, [sp, #16]
	stp	x0, x12, [sp, #32]
	add	x10, x9, x10
	sub	x9, x8, #86
	add	x13, x10, #2040
	b	.LBB25_5
.LBB25_3:
	mov	w8, #24
	ldr	x9, [sp, #48]
	str	x15, [sp, #296]
	madd	x14, x2, x8, x9
	ldr	q2, [x14, #48]
	ldur	q0, [x14, #24]
	ldur	q3, [x14, #72]
	ldr	q4, [x14, #96]
	ldur	q1, [x14, #168]
	add	x10, x14, #264
	stur	q2, [x14, #24]
	ldr	q2, [x14, #192]
	add	x8, x14, #312
	str	q3, [x14, #48]
	ldr	q3, [x14, #288]
	ldr	q6, [x14, #144]
	stur	q2, [x14, #168]
	ldr	q2, [x14, #336]
	ldr	x11, [x14, #280]
	stur	q4, [x14, #72]
	ldr	q4, [x8]
	add	x9, x14, #360
	str	q1, [x14, #144]
	ldr	q1, [x10]
	add	x12, x14, #408
	str	q3, [x10]
	ldr	x10, [x14, #328]
	ldr	q3, [x9]
	str	q2, [x8]
	ldr	x8, [x14, #376]
	ldr	q2, [x14, #384]
	ldr	q7, [x12]
	ldur	q5, [x14, #120]
	add	x18, x14, #456
	str	x8, [sp, #168]
	ldr	x8, [x14, #424]
	add	x3, x14, #504
	str	q2, [x9]
	ldr	q2, [x14, #432]
	ldr	q16, [x14, #576]
	str	x8, [sp, #160]
	ldr	x8, [x14, #472]
	ldr	q17, [x14, #624]
	str	q2, [x12]
	ldr	q2, [x14, #480]
	ldr	q18, [x14, #672]
	str	x8, [sp, #152]
	ldr	x8, [x14, #520]
	ldr	q19, [x14, #720]
	stur	q6, [x14, #120]
	ldr	q6, [x18]
	ldr	q20, [x14, #768]
	str	x8, [sp, #120]
	ldr	x8, [x14, #568]
	add	x4, x14, #552
	str	q2, [x18]
	ldr	q2, [x3]
	add	x1, x14, #600
	str	x8, [sp, #144]
	ldr	x8, [x14, #616]
	add	x17, x14, #648
	str	q5, [x14, #96]
	add	x15, x14, #696
	ldr	q5, [x14, #528]
	str	x8, [sp, #112]
	ldr	x8, [x14, #664]
	add	x22, x14, #792
	stp	x10, x11, [sp, #176]
	add	x10, x14, #744
	ldr	q21, [x14, #816]
	str	x8, [sp, #88]
	ldr	x8, [x14, #712]
	add	x9, x14, #840
	str	q2, [sp, #128]
	ldr	q2, [x4]
	add	x11, x14, #888
	str	x8, [sp, #80]
	ldr	x8, [x14, #760]
	add	x12, x14, #936
	str	q16, [x4]
	ldr	q16, [x1]
	add	x16, x14, #984
	str	x8, [sp, #72]
	ldr	x8, [x14, #808]
	add	x18, x14, #1032
	str	q17, [x1]
	ldr	q17, [x17]
	add	x0, x14, #1080
	str	q18, [x17]
	ldr	q18, [x15]
	add	x5, x14, #1176
	str	q19, [x15]
	ldr	q19, [x10]
	add	x4, x14, #1224
	str	q20, [x10]
	ldr	q22, [x14, #864]
	add	x6, x14, #1272
	ldr	x10, [x14, #856]
	ldr	q23, [x14, #912]
	add	x1, x14, #1320
	ldr	q24, [x14, #960]
	ldr	q25, [x14, #1008]
	add	x7, x14, #1368
	ldr	q26, [x14, #1056]
	ldr	q27, [x14, #1104]
	add	x17, x14, #1416
	ldr	q28, [x14, #1152]
	ldr	q29, [x14, #1200]
	add	x19, x14, #1464
	ldr	q30, [x14, #1248]
	ldr	q31, [x14, #1296]
	add	x15, x14, #1512
	ldr	q8, [x14, #1344]
	ldr	q9, [x14, #1392]
	add	x20, x14, #1560
	ldr	q10, [x14, #1440]
	ldr	q11, [x14, #1488]
	add	x21, x14, #1608
	ldr	q12, [x14, #1536]
	ldr	q13, [x14, #1584]
	ldr	q14, [x14, #1632]
	ldr	q15, [x14, #1680]
	str	q0, [x14]
	ldur	q0, [x14, #216]
	str	q5, [x3]
	add	x3, x14, #1128
	ldr	q20, [x22]
	stp	x10, x8, [sp, #56]
	add	x8, x14, #1656
	ldr	x23, [x14, #904]
	str	q2, [sp, #96]
	ldr	x24, [x14, #952]
	ldr	x25, [x14, #1000]
	str	q21, [x22]
	ldr	q21, [x9]
	ldr	x26, [x14, #1048]
	ldr	x27, [x14, #1096]
	ldr	x28, [x14, #1144]
	str	q22, [x9]
	ldr	q22, [x11]
	ldr	x30, [x14, #1192]
	str	q23, [x11]
	ldr	q23, [x12]
	ldr	x22, [x14, #1240]
	str	q24, [x12]
	ldr	q24, [x16]
	ldr	x11, [x14, #1288]
	str	q25, [x16]
	ldr	q25, [x18]
	ldr	x9, [x14, #1384]
	str	q26, [x18]
	ldr	q26, [x0]
	ldr	x10, [x14, #1480]
	str	q27, [x0]
	ldr	q27, [x3]
	ldr	x0, [x14, #1336]
	str	q28, [x3]
	ldr	q28, [x5]
	ldr	x12, [x14, #1528]
	str	q29, [x5]
	ldr	q29, [x4]
	ldr	x16, [x14, #1624]
	str	q30, [x4]
	ldr	q30, [x6]
	ldr	q2, [x14, #1728]
	str	q31, [x6]
	ldr	q31, [x1]
	ldr	x18, [x14, #1720]
	str	q8, [x1]
	ldr	q8, [x7]
	ldr	x1, [x14, #1432]
	str	q9, [x7]
	ldr	q9, [x17]
	ldr	x3, [x14, #1768]
	str	q10, [x17]
	ldr	q10, [x19]
	ldr	x17, [x14, #1672]
	str	q11, [x19]
	ldr	q11, [x15]
	ldr	x4, [x14, #1816]
	str	q12, [x15]
	ldr	q12, [x20]
	ldr	x15, [x14, #1576]
	str	q13, [x20]
	ldr	q13, [x21]
	ldr	x5, [x14, #1864]
	str	q14, [x21]
	ldr	q14, [x8]
	ldr	x6, [x14, #1912]
	str	q15, [x8]
	add	x8, x14, #1704
	ldr	q15, [x14, #240]
	str	q0, [x14, #192]
	ldr	q0, [x14, #1776]
	ldr	x7, [x14, #1960]
	stur	q15, [x14, #216]
	ldr	q15, [x8]
	ldr	x19, [x14, #2008]
	str	q2, [x8]
	add	x8, x14, #1752
	ldur	x20, [x14, #40]
	ldr	q5, [x8]
	str	q0, [x8]
	add	x8, x14, #1800
	ldr	q0, [x14, #1824]
	str	q1, [x14, #240]
	ldr	q1, [x14, #1872]
	str	q4, [x14, #288]
	ldr	q4, [x8]
	str	q0, [x8]
	add	x8, x14, #1848
	ldr	q0, [x14, #1968]
	ldr	q2, [x8]
	str	q1, [x8]
	add	x8, x14, #1896
	ldr	q1, [x14, #1920]
	str	q7, [x14, #384]
	ldr	q7, [x8]
	str	q3, [x14, #336]
	str	q1, [x8]
	add	x8, x14, #1944
	ldr	q3, [x8]
	str	q0, [x8]
	add	x8, x14, #1992
	ldr	q0, [x14, #2016]
	str	q6, [x14, #432]
	ldr	q6, [x8]
	str	x20, [x14, #16]
	ldr	x20, [x14, #88]
	str	q0, [x8]
	ldr	x8, [x14, #64]
	ldr	q0, [sp, #128]
	str	x20, [x14, #64]
	ldr	x20, [x14, #136]
	stur	x8, [x14, #40]
	ldr	x8, [x14, #112]
	str	x20, [x14, #112]
	ldr	x20, [x14, #184]
	str	x8, [x14, #88]
	ldr	x8, [x14, #160]
	str	x20, [x14, #160]
	ldr	x20, [x14, #232]
	str	x8, [x14, #136]
	ldr	x8, [x14, #208]
	str	x20, [x14, #208]
	ldr	x20, [sp, #184]
	str	x8, [x14, #184]
	ldr	x8, [x14, #256]
	str	x20, [x14, #256]
	ldr	x20, [sp, #176]
	str	x8, [x14, #232]
	ldr	x8, [x14, #304]
	str	x20, [x14, #304]
	ldr	x20, [sp, #168]
	str	x8, [x14, #280]
	ldr	x8, [x14, #352]
	str	x20, [x14, #352]
	ldr	x20, [sp, #160]
	str	x8, [x14, #328]
	ldr	x8, [x14, #400]
	str	x20, [x14, #400]
	ldr	x20, [sp, #152]
	str	x8, [x14, #376]
	ldr	x8, [x14, #448]
	str	x20, [x14, #448]
	ldr	x20, [sp, #120]
	str	x8, [x14, #424]
	ldr	x8, [x14, #496]
	str	x20, [x14, #496]
	ldr	x20, [sp, #112]
	str	x8, [x14, #472]
	ldr	x8, [x14, #544]
	str	q0, [x14, #480]
	ldr	q0, [sp, #96]
	str	x8, [x14, #520]
	ldr	x8, [sp, #144]
	str	q0, [x14, #528]
	str	x8, [x14, #544]
	ldr	x8, [x14, #592]
	str	x20, [x14, #592]
	ldr	x20, [sp, #88]
	str	x8, [x14, #568]
	ldr	x8, [x14, #640]
	str	x20, [x14, #640]
	ldr	x20, [sp, #80]
	str	x8, [x14, #616]
	ldr	x8, [x14, #688]
	str	x20, [x14, #688]
	ldr	x20, [sp, #72]
	str	x8, [x14, #664]
	ldr	x8, [x14, #736]
	str	x20, [x14, #736]
	ldr	x20, [sp, #64]
	str	x8, [x14, #712]
	ldr	x8, [x14, #784]
	str	x20, [x14, #784]
	ldr	x20, [sp, #56]
	str	x8, [x14, #760]
	ldr	x8, [x14, #832]
	str	q16, [x14, #576]
	str	x8, [x14, #808]
	ldr	x8, [x14, #880]
	str	q17, [x14, #624]
	str	x8, [x14, #856]
	ldr	x8, [x14, #928]
	str	q18, [x14, #672]
	str	x8, [x14, #904]
	ldr	x8, [x14, #976]
	str	q19, [x14, #720]
	str	x8, [x14, #952]
	ldr	x8, [x14, #1024]
	str	q20, [x14, #768]
	str	x8, [x14, #1000]
	ldr	x8, [x14, #1072]
	str	q21, [x14, #816]
	str	x8, [x14, #1048]
	ldr	x8, [x14, #1120]
	str	q22, [x14, #864]
	str	x8, [x14, #1096]
	ldr	x8, [x14, #1168]
	str	q23, [x14, #912]
	str	x8, [x14, #1144]
	ldr	x8, [x14, #1216]
	str	q24, [x14, #960]
	str	x8, [x14, #1192]
	ldr	x8, [x14, #1264]
	str	q25, [x14, #1008]
	str	x8, [x14, #1240]
	ldr	x8, [x14, #1312]
	str	q26, [x14, #1056]
	str	x8, [x14, #1288]
	ldr	x8, [x14, #1360]
	str	x9, [x14, #1360]
	add	x9, x14, #2040
	str	x8, [x14, #1336]
	ldr	x8, [x14, #1408]
	ldr	q0, [x9]
	str	q27, [x14, #1104]
	str	x8, [x14, #1384]
	ldr	x8, [x14, #1456]
	str	q28, [x14, #1152]
	str	x8, [x14, #1432]
	ldr	x8, [x14, #1504]
	str	x12, [x14, #1504]
	ldr	x12, [sp, #40]
	str	x8, [x14, #1480]
	ldr	x8, [x14, #1552]
	str	x15, [x14, #1552]
	ldr	x15, [sp, #296]
	str	x8, [x14, #1528]
	ldr	x8, [x14, #1600]
	str	q29, [x14, #1200]
	str	x8, [x14, #1576]
	ldr	x8, [x14, #1648]
	str	q30, [x14, #1248]
	str	x8, [x14, #1624]
	ldr	x8, [x14, #1696]
	str	q31, [x14, #1296]
	str	x8, [x14, #1672]
	ldr	x8, [x14, #1744]
	str	q8, [x14, #1344]
	str	x8, [x14, #1720]
	ldr	x8, [x14, #1792]
	str	q9, [x14, #1392]
	str	x8, [x14, #1768]
	ldr	x8, [x14, #1840]
	str	q10, [x14, #1440]
	str	x8, [x14, #1816]
	ldr	x8, [x14, #1888]
	str	q11, [x14, #1488]
	str	x8, [x14, #1864]
	ldr	x8, [x14, #1936]
	str	q12, [x14, #1536]
	str	x8, [x14, #1912]
	ldr	x8, [x14, #1984]
	str	q13, [x14, #1584]
	str	x8, [x14, #1960]
	ldr	x8, [x14, #2032]
	str	q14, [x14, #1632]
	str	x8, [x14, #2008]
	ldr	x8, [x14, #2056]
	str	q15, [x14, #1680]
	str	q5, [x14, #1728]
	str	q4, [x14, #1776]
	str	q2, [x14, #1824]
	str	q7, [x14, #1872]
	str	q3, [x14, #1920]
	str	x20, [x14, #832]
	str	x23, [x14, #880]
	str	x24, [x14, #928]
	str	x25, [x14, #976]
	str	x26, [x14, #1024]
	str	x27, [x14, #1072]
	str	x28, [x14, #1120]
	str	x30, [x14, #1168]
	str	x22, [x14, #1216]
	str	x11, [x14, #1264]
	str	x0, [x14, #1312]
	str	x1, [x14, #1408]
	str	x10, [x14, #1456]
	str	x16, [x14, #1600]
	str	x17, [x14, #1648]
	str	x18, [x14, #1696]
	str	x3, [x14, #1744]
	str	x4, [x14, #1792]
	str	x5, [x14, #1840]
	str	x6, [x14, #1888]
	str	x7, [x14, #1936]
	str	x19, [x14, #1984]
	str	q6, [x14, #1968]
	str	x8, [x14, #2032]
	str	q0, [x14, #2016]
	sub	x14, x12, #1
.LBB25_4:
	add	x2, x2, #85
	sub	x9, x15, #85
	add	x13, x13, #2040
	sub	x8, x14, x2
	cmp	x8, #85
	b.ls	.LBB25_11
.LBB25_5:
	cmn	x2, #1
	mov	x15, x9
	b.ne	.LBB25_3
	mov	w8, #85
	mov	x9, x13
.LBB25_7:
	ldr	q0, [x9]
	ldr	x10, [x9, #16]
	sub	x11, x9, #24
	subs	x8, x8, #1
	stur	q0, [x9, #-24]
	stur	x10, [x9, #-8]
	mov	x9, x11
	b.ne	.LBB25_7
	b	.LBB25_4
.LBB25_8:
	cbz	x12, .LBB25_19
	mov	w9, #24
	ldr	x10, [sp, #48]
	madd	x10, x12, x9, x10
	lsl	x9, x2, #3
	sub	x9, x9, x2, lsl #5
	sub	x10, x10, #48
.LBB25_10:
	add	x11, x10, x9
	sub	x8, x8, #1
	ldr	x12, [x11, #16]
	ldr	q0, [x11]
	str	x12, [x10, #16]
	str	q0, [x10], #-24
	cbnz	x8, .LBB25_10
	b	.LBB25_19
.LBB25_11:
	ldp	x1, x0, [sp, #24]
	cmn	x2, #1
	ldr	x13, [sp, #16]
	b.eq	.LBB25_16
	add	x9, x2, x2, lsl #1
	lsl	x9, x9, #3
.LBB25_13:
	cmp	x14, x2
	b.eq	.LBB25_19
	ldr	x10, [sp, #48]
	add	x9, x10, x9
.LBB25_15:
	ldur	q0, [x9, #24]
	ldr	x10, [x9, #40]
	add	x11, x9, #24
	subs	x8, x8, #1
	str	q0, [x9]
	str	x10, [x9, #16]
	mov	x9, x11
	b.ne	.LBB25_15
	b	.LBB25_19
.LBB25_16:
	cbz	x12, .LBB25_19
	mov	w8, #24
	ldr	x9, [sp, #48]
	madd	x8, x12, x8, x9
	sub	x8, x8, #24
.LBB25_18:
	ldr	q0, [x8]
	ldr	x9, [x8, #16]
	sub	x10, x8, #24
	subs	x15, x15, #1
	stur	q0, [x8, #-24]
	stur	x9, [x8, #-8]
	mov	x8, x10
	b.ne	.LBB25_18
.LBB25_19:
	ldr	x8, [sp, #48]
	ldr	q0, [sp, #192]
	ldr	x30, [sp, #288]
	ldp	x20, x19, [sp, #368]
	str	x13, [x1, #16]
	stp	x8, x14, [x1]
	ldr	x8, [sp, #208]
	str	q0, [x0]
	ldp	x22, x21, [sp, #352]
	str	x8, [x0, #16]
	ldp	x24, x23, [sp, #336]
	ldp	x26, x25, [sp, #320]
	ldp	x28, x27, [sp, #304]
	ldp	d9, d8, [sp, #272]
	ldp	d11, d10, [sp, #256]
	ldp	d13, d12, [sp, #240]
	ldp	d15, d14, [sp, #224]
	add	sp, sp, #384
	ret
.Lfunc_end25:
	.size	"std_alloc::vec::Vec::remove::<#5ea93b9ddeb8aab1>", .Lfunc_end25-"std_alloc::vec::Vec::remove::<#5ea93b9ddeb8aab1>"

	.section	".text.std_alloc::vec::Vec::remove::<#cd5e489e5ed3d409>","ax",@progbits
	.p2align	2
	.type	"std_alloc::vec::Vec::remove::<#cd5e489e5ed3d409>",@function
"std_alloc::vec::Vec::remove::<#cd5e489e5ed3d409>":
	ldp	x8, x14, [x1]
	lsl	x17, x2, #5
	ldr	x9, [x1, #16]
	stp	xzr, xzr, [x1, #8]
	cmn	x2, #1
	add	x16, x8, x17
	sub	x11, x14, #1
	ldur	q0, [x16, #4]
	str	q0, [sp, #-64]!
	ldr	q0, [x16, #16]
	ldrb	w12, [x16]
	sub	x15, x11, x2
	ldrb	w13, [x16, #1]
	ldrh	w10, [x16, #2]
	stur	q0, [sp, #12]
	b.eq	.LBB26_7
	cmp	x15, #65
	b.lo	.LBB26_12
	sub	x15, x14, x2
	sub	x18, x15, #65
	b	.LBB26_4
.LBB26_3:
	add	x2, x2, #64
	sub	x18, x17, #64
	add	x16, x16, #2048
	sub	x15, x11, x2
	cmp	x15, #64
	b.ls	.LBB26_10
.LBB26_4:
	cmn	x2, #1
	mov	x17, x18
	mov	x15, xzr
	b.eq	.LBB26_6
.LBB26_5:
	add	x18, x16, x15
	add	x15, x15, #32
	ldr	w3, [x18, #32]
	ldur	q0, [x18, #36]
	ldr	q1, [x18, #48]
	cmp	x15, #2048
	str	w3, [x18]
	stur	q0, [x18, #4]
	str	q1, [x18, #16]
	b.ne	.LBB26_5
	b	.LBB26_3
.LBB26_6:
	add	x18, x16, x15
	sub	x15, x15, #32
	ldr	w3, [x18, #2048]
	add	x4, x18, #2052
	ldr	q0, [x18, #2064]
	ldr	q1, [x4]
	cmn	x15, #2048
	str	w3, [x18, #2016]
	add	x3, x18, #2020
	str	q0, [x18, #2032]
	str	q1, [x3]
	b.ne	.LBB26_6
	b	.LBB26_3
.LBB26_7:
	cbz	x14, .LBB26_18
	lsl	x14, x14, #5
	sub	x16, x8, x2, lsl #5
	mov	x17, x8
.LBB26_9:
	add	x18, x16, x14
	add	x3, x17, x14
	sub	x15, x15, #1
	ldur	w2, [x18, #-64]
	sub	x16, x16, #32
	sub	x17, x17, #32
	stur	w2, [x3, #-64]
	ldur	w2, [x18, #-36]
	ldur	x4, [x18, #-44]
	ldur	q0, [x18, #-60]
	stur	w2, [x3, #-36]
	stur	x4, [x3, #-44]
	stur	q0, [x3, #-60]
	cbnz	x15, .LBB26_9
	b	.LBB26_18
.LBB26_10:
	cmn	x2, #1
	b.eq	.LBB26_15
	lsl	x17, x2, #5
.LBB26_12:
	cmp	x11, x2
	b.eq	.LBB26_18
	add	x14, x8, x17
	add	x14, x14, #32
.LBB26_14:
	ldur	q0, [x14, #4]
	ldr	q1, [x14, #16]
	subs	x15, x15, #1
	ldr	w16, [x14]
	str	q0, [sp, #32]
	stur	q1, [sp, #44]
	ldr	q0, [sp, #32]
	ldur	q1, [sp, #44]
	stur	w16, [x14, #-32]
	stur	q0, [x14, #-28]
	stur	q1, [x14, #-16]
	add	x14, x14, #32
	b.ne	.LBB26_14
	b	.LBB26_18
.LBB26_15:
	cbz	x14, .LBB26_18
	add	x14, x8, x14, lsl #5
	sub	x14, x14, #32
.LBB26_17:
	ldr	w15, [x14]
	subs	x17, x17, #1
	str	w15, [x14, #-32]!
	ldur	q0, [x14, #36]
	ldr	q1, [x14, #48]
	stur	q0, [x14, #4]
	str	q1, [x14, #16]
	b.ne	.LBB26_17
.LBB26_18:
	ldr	q0, [sp]
	ldur	q1, [sp, #12]
	stp	x8, x11, [x1]
	str	x9, [x1, #16]
	strb	w12, [x0]
	strb	w13, [x0, #1]
	strh	w10, [x0, #2]
	stur	q0, [x0, #4]
	str	q1, [x0, #16]
	add	sp, sp, #64
	ret
.Lfunc_end26:
	.size	"std_alloc::vec::Vec::remove::<#cd5e489e5ed3d409>", .Lfunc_end26-"std_alloc::vec::Vec::remove::<#cd5e489e5ed3d409>"

	.section	.rodata.cst16,"aM",@progbits,16
	.p2align	4, 0x0
.LCPI27_0:
	.xword	1
	.xword	0
	.section	".text.std_alloc::vec::lodged::Vec+T+Lodged::insert_reserved::<#0107ca75ede54906>","ax",@progbits
	.p2align	2
	.type	"std_alloc::vec::lodged::Vec+T+Lodged::insert_reserved::<#0107ca75ede54906>",@function
"std_alloc::vec::lodged::Vec+T+Lodged::insert_reserved::<#0107ca75ede54906>":
	ldr	q0, [x2]
	ldr	x9, [x2, #16]
	str	q0, [sp, #-32]!
	str	x9, [sp, #16]
	ldp	x8, x9, [x0]
	ldur	q0, [x0, #8]
	cmn	x1, #1
	stp	xzr, xzr, [x0, #8]
	b.eq	.LBB27_4
	cmp	x9, x1
	b.eq	.LBB27_17
	mov	w10, #24
	madd	x10, x9, x10, x8
	sub	x9, x9, x1
.LBB27_3:
	ldur	q1, [x10, #-24]
	ldur	x11, [x10, #-8]
	sub	x12, x10, #24
	subs	x9, x9, #1
	str	q1, [x10]
	str	x11, [x10, #16]
	mov	x10, x12
	b.ne	.LBB27_3
	b	.LBB27_17
.LBB27_4:
	add	x10, x9, #1
	cmp	x10, #86
	b.lo	.LBB27_11
	mov	x13, xzr
	add	x12, x8, #1992
	b	.LBB27_8
.LBB27_6:
	mov	w13, #24
	madd	x13, x11, x13, x8
	sub	x14, x13, #24
	add	x16, x13, #264
	ldr	q1, [x14]
	ldr	x15, [x14, #16]
	str	q1, [x13]
	stur	q1, [x13, #24]
	str	q1, [x13, #48]
	stur	q1, [x13, #72]
	str	q1, [x13, #96]
	stur	q1, [x13, #120]
	str	q1, [x13, #144]
	stur	q1, [x13, #168]
	ldr	q1, [x14]
	str	x15, [x13, #16]
	str	x15, [x13, #40]
	str	x15, [x13, #64]
	str	x15, [x13, #88]
	str	x15, [x13, #112]
	str	x15, [x13, #136]
	str	x15, [x13, #160]
	str	x15, [x13, #184]
	ldr	x15, [x14, #16]
	str	q1, [x16]
	add	x16, x13, #312
	str	q1, [x16]
	add	x16, x13, #360
	str	x15, [x13, #208]
	str	q1, [x13, #192]
	str	x15, [x13, #232]
	stur	q1, [x13, #216]
	str	x15, [x13, #256]
	str	q1, [x13, #240]
	str	x15, [x13, #280]
	str	x15, [x13, #304]
	str	q1, [x13, #288]
	str	x15, [x13, #328]
	str	x15, [x13, #352]
	str	q1, [x13, #336]
	str	x15, [x13, #376]
	ldr	x15, [x14, #16]
	str	q1, [x16]
	ldr	q1, [x14]
	add	x16, x13, #408
	str	x15, [x13, #400]
	ldr	x15, [x14, #16]
	str	q1, [x13, #384]
	ldr	q1, [x14]
	str	x15, [x13, #424]
	ldr	x15, [x14, #16]
	str	q1, [x16]
	ldr	q1, [x14]
	add	x16, x13, #456
	str	x15, [x13, #448]
	ldr	x15, [x14, #16]
	str	q1, [x13, #432]
	ldr	q1, [x14]
	str	x15, [x13, #472]
	ldr	x15, [x14, #16]
	str	q1, [x16]
	ldr	q1, [x14]
	add	x16, x13, #504
	str	x15, [x13, #496]
	ldr	x15, [x14, #16]
	str	q1, [x13, #480]
	ldr	q1, [x14]
	str	x15, [x13, #520]
	ldr	x15, [x14, #16]
	str	q1, [x16]
	ldr	q1, [x14]
	add	x16, x13, #552
	str	x15, [x13, #544]
	ldr	x15, [x14, #16]
	str	q1, [x13, #528]
	ldr	q1, [x14]
	str	x15, [x13, #568]
	ldr	x15, [x14, #16]
	str	q1, [x16]
	ldr	q1, [x14]
	add	x16, x13, #600
	str	x15, [x13, #592]
	ldr	x15, [x14, #16]
	str	q1, [x13, #576]
	ldr	q1, [x14]
	str	x15, [x13, #616]
	ldr	x15, [x14, #16]
	str	q1, [x16]
	ldr	q1, [x14]
	add	x16, x13, #648
	str	x15, [x13, #640]
	ldr	x15, [x14, #16]
	str	q1, [x13, #624]
	ldr	q1, [x14]
	str	x15, [x13, #664]
	ldr	x15, [x14, #16]
	str	q1, [x16]
	ldr	q1, [x14]
	add	x16, x13, #696
	str	x15, [x13, #688]
	ldr	x15, [x14, #16]
	str	q1, [x13, #672]
	ldr	q1, [x14]
	str	x15, [x13, #712]
	ldr	x15, [x14, #16]
	str	q1, [x16]
	ldr	q1, [x14]
	add	x16, x13, #744
	str	x15, [x13, #736]
	ldr	x15, [x14, #16]
	str	q1, [x13, #720]
	ldr	q1, [x14]
	str	x15, [x13, #760]
	ldr	x15, [x14, #16]
	str	q1, [x16]
	ldr	q1, [x14]
	add	x16, x13, #792
	str	x15, [x13, #784]
	ldr	x15, [x14, #16]
	str	q1, [x13, #768]
	ldr	q1, [x14]
	str	x15, [x13, #808]
	ldr	x15, [x14, #16]
	str	q1, [x16]
	ldr	q1, [x14]
	add	x16, x13, #840
	str	x15, [x13, #832]
	ldr	x15, [x14, #16]
	str	q1, [x13, #816]
	ldr	q1, [x14]
	str	x15, [x13, #856]
	ldr	x15, [x14, #16]
	str	q1, [x16]
	ldr	q1, [x14]
	add	x16, x13, #888
	str	x15, [x13, #880]
	ldr	x15, [x14, #16]
	str	q1, [x13, #864]
	ldr	q1, [x14]
	str	x15, [x13, #904]
	ldr	x15, [x14, #16]
	str	q1, [x16]
	ldr	q1, [x14]
	add	x16, x13, #936
	str	x15, [x13, #928]
	ldr	x15, [x14, #16]
	str	q1, [x13, #912]
	ldr	q1, [x14]
	str	x15, [x13, #952]
	ldr	x15, [x14, #16]
	str	q1, [x16]
	ldr	q1, [x14]
	add	x16, x13, #984
	str	x15, [x13, #976]
	ldr	x15, [x14, #16]
	str	q1, [x13, #960]
	ldr	q1, [x14]
	str	x15, [x13, #1000]
	ldr	x15, [x14, #16]
	str	q1, [x16]
	ldr	q1, [x14]
	add	x16, x13, #1032
	str	x15, [x13, #1024]
	ldr	x15, [x14, #16]
	str	q1, [x13, #1008]
	ldr	q1, [x14]
	str	x15, [x13, #1048]
	ldr	x15, [x14, #16]
	str	q1, [x16]
	ldr	q1, [x14]
	add	x16, x13, #1080
	str	x15, [x13, #1072]
	ldr	x15, [x14, #16]
	str	q1, [x13, #1056]
	ldr	q1, [x14]
	str	x15, [x13, #1096]
	ldr	x15, [x14, #16]
	str	q1, [x16]
	ldr	q1, [x14]
	add	x16, x13, #1128
	str	x15, [x13, #1120]
	ldr	x15, [x14, #16]
	str	q1, [x13, #1104]
	ldr	q1, [x14]
	str	x15, [x13, #1144]
	ldr	x15, [x14, #16]
	str	q1, [x16]
	ldr	q1, [x14]
	add	x16, x13, #1176
	str	x15, [x13, #1168]
	ldr	x15, [x14, #16]
	str	q1, [x13, #1152]
	ldr	q1, [x14]
	str	x15, [x13, #1192]
	ldr	x15, [x14, #16]
	str	q1, [x16]
	ldr	q1, [x14]
	add	x16, x13, #1224
	str	x15, [x13, #1216]
	ldr	x15, [x14, #16]
	str	q1, [x13, #1200]
	ldr	q1, [x14]
	str	x15, [x13, #1240]
	ldr	x15, [x14, #16]
	str	q1, [x16]
	ldr	q1, [x14]
	add	x16, x13, #1272
	str	x15, [x13, #1264]
	ldr	x15, [x14, #16]
	str	q1, [x13, #1248]
	ldr	q1, [x14]
	str	x15, [x13, #1288]
	ldr	x15, [x14, #16]
	str	q1, [x16]
	ldr	q1, [x14]
	add	x16, x13, #1320
	str	x15, [x13, #1312]
	ldr	x15, [x14, #16]
	str	q1, [x13, #1296]
	ldr	q1, [x14]
	str	x15, [x13, #1336]
	ldr	x15, [x14, #16]
	str	q1, [x16]
	ldr	q1, [x14]
	add	x16, x13, #1368
	str	x15, [x13, #1360]
	ldr	x15, [x14, #16]
	str	q1, [x13, #1344]
	ldr	q1, [x14]
	str	x15, [x13, #1384]
	ldr	x15, [x14, #16]
	str	q1, [x16]
	ldr	q1, [x14]
	add	x16, x13, #1416
	str	x15, [x13, #1408]
	ldr	x15, [x14, #16]
	str	q1, [x13, #1392]
	ldr	q1, [x14]
	str	x15, [x13, #1432]
	ldr	x15, [x14, #16]
	str	q1, [x16]
	ldr	q1, [x14]
	add	x16, x13, #1464
	str	x15, [x13, #1456]
	ldr	x15, [x14, #16]
	str	q1, [x13, #1440]
	ldr	q1, [x14]
	str	x15, [x13, #1480]
	ldr	x15, [x14, #16]
	str	q1, [x16]
	ldr	q1, [x14]
	add	x16, x13, #1512
	str	x15, [x13, #1504]
	ldr	x15, [x14, #16]
	str	q1, [x13, #1488]
	ldr	q1, [x14]
	str	x15, [x13, #1528]
	ldr	x15, [x14, #16]
	str	q1, [x16]
	ldr	q1, [x14]
	add	x16, x13, #1560
	str	x15, [x13, #1552]
	ldr	x15, [x14, #16]
	str	q1, [x13, #1536]
	ldr	q1, [x14]
	str	x15, [x13, #1576]
	ldr	x15, [x14, #16]
	str	q1, [x16]
	ldr	q1, [x14]
	add	x16, x13, #1608
	str	x15, [x13, #1600]
	ldr	x15, [x14, #16]
	str	q1, [x13, #1584]
	ldr	q1, [x14]
	str	x15, [x13, #1624]
	ldr	x15, [x14, #16]
	str	q1, [x16]
	ldr	q1, [x14]
	add	x16, x13, #1656
	str	x15, [x13, #1648]
	ldr	x15, [x14, #16]
	str	q1, [x13, #1632]
	ldr	q1, [x14]
	str	x15, [x13, #1672]
	ldr	x15, [x14, #16]
	str	q1, [x16]
	ldr	q1, [x14]
	add	x16, x13, #1704
	str	x15, [x13, #1696]
	ldr	x15, [x14, #16]
	str	q1, [x13, #1680]
	ldr	q1, [x14]
	str	x15, [x13, #1720]
	ldr	x15, [x14, #16]
	str	q1, [x16]
	ldr	q1, [x14]
	add	x16, x13, #1752
	str	x15, [x13, #1744]
	ldr	x15, [x14, #16]
	str	q1, [x13, #1728]
	ldr	q1, [x14]
	str	x15, [x13, #1768]
	ldr	x15, [x14, #16]
	str	q1, [x16]
	ldr	q1, [x14]
	add	x16, x13, #1800
	str	x15, [x13, #1792]
	ldr	x15, [x14, #16]
	str	q1, [x13, #1776]
	ldr	q1, [x14]
	str	x15, [x13, #1816]
	ldr	x15, [x14, #16]
	str	q1, [x16]
	ldr	q1, [x14]
	add	x16, x13, #1848
	str	x15, [x13, #1840]
	ldr	x15, [x14, #16]
	str	q1, [x13, #1824]
	ldr	q1, [x14]
	str	x15, [x13, #1864]
	ldr	x15, [x14, #16]
	str	q1, [x16]
	ldr	q1, [x14]
	add	x16, x13, #1896
	str	x15, [x13, #1888]
	ldr	x15, [x14, #16]
	str	q1, [x13, #1872]
	ldr	q1, [x14]
	str	x15, [x13, #1912]
	ldr	x15, [x14, #16]
	str	q1, [x16]
	ldr	q1, [x14]
	add	x16, x13, #1944
	str	x15, [x13, #1936]
	ldr	x15, [x14, #16]
	str	q1, [x13, #1920]
	ldr	q1, [x14]
	str	x15, [x13, #1960]
	ldr	x15, [x14, #16]
	str	q1, [x16]
	ldr	q1, [x14]
	add	x16, x13, #1992
	str	x15, [x13, #1984]
	ldr	x15, [x14, #16]
	str	q1, [x13, #1968]
	ldr	q1, [x14]
	str	x15, [x13, #2008]
	ldr	x15, [x14, #16]
	str	q1, [x16]
	ldr	q1, [x14]
	str	x15, [x13, #2032]
	str	q1, [x13, #2016]
.LBB27_7:
	add	x13, x11, #85
	add	x12, x12, #2040
	sub	x14, x10, x13
	cmp	x14, #85
	b.ls	.LBB27_14
.LBB27_8:
	mov	x11, x13
	cbz	x13, .LBB27_6
	mov	w13, #85
	mov	x14, x12
.LBB27_10:
	ldr	q1, [x14]
	ldr	x15, [x14, #16]
	sub	x13, x13, #1
	stur	q1, [x14, #24]
	str	x15, [x14, #40]
	sub	x14, x14, #24
	cbnz	x13, .LBB27_10
	b	.LBB27_7
.LBB27_11:
	cbz	x10, .LBB27_17
	add	x9, x1, x1, lsl #1
	mov	x11, x8
	lsl	x9, x9, #3
.LBB27_13:
	add	x12, x11, x9
	subs	x10, x10, #1
	ldr	x13, [x12, #16]
	ldr	q1, [x12]
	str	x13, [x11, #16]
	str	q1, [x11], #24
	b.ne	.LBB27_13
	b	.LBB27_17
.LBB27_14:
	cmp	x10, x13
	b.eq	.LBB27_17
	mov	w10, #24
	madd	x10, x9, x10, x8
	sub	x9, x9, x11
	sub	x9, x9, #84
.LBB27_16:
	ldur	q1, [x10, #-24]
	ldur	x11, [x10, #-8]
	sub	x12, x10, #24
	subs	x9, x9, #1
	str	q1, [x10]
	str	x11, [x10, #16]
	mov	x10, x12
	b.ne	.LBB27_16
.LBB27_17:
	mov	w9, #24
	adrp	x10, .LCPI27_0
	ldr	q1, [sp]
	madd	x9, x1, x9, x8
	ldr	q2, [x10, :lo12:.LCPI27_0]
	ldr	x10, [sp, #16]
	add	v0.2d, v0.2d, v2.2d
	str	q1, [x9]
	str	x10, [x9, #16]
	str	x8, [x0]
	stur	q0, [x0, #8]
	add	sp, sp, #32
	ret
.Lfunc_end27:
	.size	"std_alloc::vec::lodged::Vec+T+Lodged::insert_reserved::<#0107ca75ede54906>", .Lfunc_end27-"std_alloc::vec::lodged::Vec+T+Lodged::insert_reserved::<#0107ca75ede54906>"

	.section	".text.std_alloc::vec::lodged::Vec+T+Lodged::insert_reserved::<33'amqp_value_core::value::AMQPValue>","ax",@progbits
	.p2align	2
	.type	"std_alloc::vec::lodged::Vec+T+Lodged::insert_reserved::<33'amqp_value_core::value::AMQPValue>",@function
"std_alloc::vec::lodged::Vec+T+Lodged::insert_reserved::<33'amqp_value_core::value::AMQPValue>":
	ldur	q0, [x2, #4]
	str	q0, [sp, #-32]!
	ldp	x12, x14, [x0]
	cmn	x1, #1
	ldr	q0, [x2, #16]
	ldrb	w10, [x2]
	ldrb	w9, [x2, #1]
	ldrh	w8, [x2, #2]
	ldr	x11, [x0, #16]
	stp	xzr, xzr, [x0, #8]
	stur	q0, [sp, #12]
	b.eq	.LBB28_5
	cmp	x14, x1
	b.eq	.LBB28_4
	add	x16, x12, x14, lsl #5
	sub	x13, x14, x1
	mov	x15, x16
.LBB28_3:
	ldr	w17, [x15, #-32]!
	ldur	q0, [x16, #-28]
	ldur	q1, [x16, #-16]
	subs	x13, x13, #1
	str	w17, [x16]
	stur	q0, [x16, #4]
	str	q1, [x16, #16]
	mov	x16, x15
	b.ne	.LBB28_3
.LBB28_4:
	add	x13, x14, #1
	b	.LBB28_18
.LBB28_5:
	add	x13, x14, #1
	mov	x15, x12
	add	x17, x14, #1
	cmp	x13, #65
	b.lo	.LBB28_16
	mov	x18, xzr
	mov	x16, x12
	b	.LBB28_8
.LBB28_7:
	add	x18, x15, #64
	add	x16, x16, #2048
	sub	x17, x13, x18
	cmp	x17, #64
	b.ls	.LBB28_11
.LBB28_8:
	mov	x15, x18
	mov	x17, xzr
	cbz	x18, .LBB28_10
.LBB28_9:
	add	x18, x16, x17
	sub	x17, x17, #32
	ldr	w2, [x18, #1984]
	add	x3, x18, #1988
	ldr	q0, [x18, #2000]
	ldr	q1, [x3]
	cmn	x17, #2048
	str	w2, [x18, #2016]
	add	x2, x18, #2020
	str	q0, [x18, #2032]
	str	q1, [x2]
	b.ne	.LBB28_9
	b	.LBB28_7
.LBB28_10:
	add	x18, x16, x17
	add	x17, x17, #32
	ldur	w2, [x18, #-32]
	ldur	q0, [x18, #-28]
	ldur	q1, [x18, #-16]
	cmp	x17, #2048
	str	w2, [x18]
	stur	q0, [x18, #4]
	str	q1, [x18, #16]
	b.ne	.LBB28_10
	b	.LBB28_7
.LBB28_11:
	cbz	x18, .LBB28_15
	cmp	x13, x18
	b.eq	.LBB28_18
	add	x16, x12, x14, lsl #5
	sub	x14, x14, x15
	sub	x14, x14, #63
	mov	x15, x16
.LBB28_14:
	ldr	w17, [x15, #-32]!
	ldur	q0, [x16, #-28]
	ldur	q1, [x16, #-16]
	subs	x14, x14, #1
	str	w17, [x16]
	stur	q0, [x16, #4]
	str	q1, [x16, #16]
	mov	x16, x15
	b.ne	.LBB28_14
	b	.LBB28_18
.LBB28_15:
	add	x15, x12, x18, lsl #5
.LBB28_16:
	cbz	x13, .LBB28_18
.LBB28_17:
	ldur	w14, [x15, #-32]
	ldur	q0, [x15, #-28]
	subs	x17, x17, #1
	ldur	q1, [x15, #-16]
	str	w14, [x15]
	stur	q0, [x15, #4]
	str	q1, [x15, #16]
	add	x15, x15, #32
	b.ne	.LBB28_17
.LBB28_18:
	add	x14, x12, x1, lsl #5
	ldr	q0, [sp]
	ldur	q1, [sp, #12]
	strb	w10, [x14]
	strb	w9, [x14, #1]
	strh	w8, [x14, #2]
	stur	q0, [x14, #4]
	str	q1, [x14, #16]
	stp	x12, x13, [x0]
	str	x11, [x0, #16]
	add	sp, sp, #32
	ret
.Lfunc_end28:
	.size	"std_alloc::vec::lodged::Vec+T+Lodged::insert_reserved::<33'amqp_value_core::value::AMQPValue>", .Lfunc_end28-"std_alloc::vec::lodged::Vec+T+Lodged::insert_reserved::<33'amqp_value_core::value::AMQPValue>"

	.section	".text.amqp_value_core::amqp_value_core++value++AMQPValue+Destruct::drop","ax",@progbits
	.p2align	2
	.type	"amqp_value_core::amqp_value_core++value++AMQPValue+Destruct::drop",@function
"amqp_value_core::amqp_value_core++value++AMQPValue+Destruct::drop":
	sub	sp, sp, #96
	ldrb	w8, [x0]
	stp	x29, x30, [sp, #32]
	add	x29, sp, #32
	str	x23, [sp, #48]
	cmp	w8, #10
	stp	x22, x21, [sp, #64]
	stp	x20, x19, [sp, #80]
	b.gt	.LBB29_2
.LBB29_1:
	ldp	x20, x19, [sp, #80]
	ldr	x23, [sp, #48]
	ldp	x22, x21, [sp, #64]
	ldp	x29, x30, [sp, #32]
	add	sp, sp, #96
	ret
.LBB29_2:
	ldp	x19, x20, [x0, #8]
	cmp	w8, #13
	ldr	x21, [x0, #24]
	b.le	.LBB29_7
	cmp	w8, #15
	b.gt	.LBB29_12
	cmp	w8, #14
	b.eq	.LBB29_1
	and	x8, x19, #0xff
	cmp	x8, #1
	b.ne	.LBB29_1
	mov	x0, x20
	ldp	x20, x19, [sp, #80]
	ldp	x22, x21, [sp, #64]
	ldr	x23, [sp, #48]
	ldp	x29, x30, [sp, #32]
	add	sp, sp, #96
	b	"std_collections::btree::node::Node::destroy::<#17177a6839d38039>"
.LBB29_7:
	cmp	w8, #11
	b.eq	.LBB29_13
	cmp	w8, #12
	b.eq	.LBB29_13
	cbz	x20, .LBB29_13
	mov	x8, sp
	add	x23, x19, #2
	orr	x22, x8, #0x4
.LBB29_11:
	ldur	w8, [x23, #-2]
	ldur	q0, [x23, #2]
	mov	x0, sp
	ldur	q1, [x23, #14]
	str	w8, [sp]
	str	q0, [x22]
	stur	q1, [x22, #12]
	bl	"amqp_value_core::amqp_value_core++value++AMQPValue+Destruct::drop"
	subs	x20, x20, #1
	add	x23, x23, #32
	b.ne	.LBB29_11
	b	.LBB29_13
.LBB29_12:
	cmp	w8, #16
	b.ne	.LBB29_1
.LBB29_13:
	cbz	x21, .LBB29_1
	mov	x0, x19
	ldp	x20, x19, [sp, #80]
	ldp	x22, x21, [sp, #64]
	ldr	x23, [sp, #48]
	ldp	x29, x30, [sp, #32]
	add	sp, sp, #96
	b	rattle_dealloc
.Lfunc_end29:
	.size	"amqp_value_core::amqp_value_core++value++AMQPValue+Destruct::drop", .Lfunc_end29-"amqp_value_core::amqp_value_core++value++AMQPValue+Destruct::drop"

	.section	".text.std_collections::btree::node::Node::destroy::<#17177a6839d38039>","ax",@progbits
	.p2align	2
	.type	"std_collections::btree::node::Node::destroy::<#17177a6839d38039>",@function
"std_collections::btree::node::Node::destroy::<#17177a6839d38039>":
	sub	sp, sp, #256
	stp	x20, x19, [sp, #240]
	ldrh	w20, [x0]
	ldrh	w10, [x0, #2]
	add	x8, x0, #8
	mov	w9, #15
	mov	w11, #16
	stp	x8, x20, [sp, #32]
	add	x8, x0, #368
	cmp	w10, #0
	stp	x9, x8, [sp, #48]
	add	x8, x0, #848
	csel	x11, xzr, x11, eq
	stp	x20, x9, [sp, #64]
	csinc	x9, xzr, x20, eq
	stp	x29, x30, [sp, #176]
	add	x29, sp, #176
	str	x25, [sp, #192]
	stp	x24, x23, [sp, #208]
	stp	x22, x21, [sp, #224]
	stp	xzr, xzr, [sp]
	str	wzr, [sp, #24]
	str	xzr, [sp, #16]
	stp	x8, x9, [sp, #80]
	stp	x11, x0, [sp, #96]
	cbz	w10, .LBB30_35
	add	x19, sp, #32
	cbz	w20, .LBB30_22
	sub	x8, x29, #32
	orr	x20, x8, #0x4
	b	.LBB30_4
.LBB30_3:
	ldr	q0, [sp]
	ldur	q1, [sp, #12]
	sub	x0, x29, #32
	sturb	w21, [x29, #-32]
	sturb	w23, [x29, #-31]
	sturh	w22, [x29, #-30]
	str	q0, [x20]
	stur	q1, [x20, #12]
	bl	"amqp_value_core::amqp_value_core++value++AMQPValue+Destruct::drop"
	ldr	x8, [sp, #40]
	cbz	x8, .LBB30_21
.LBB30_4:
	ldp	x9, x8, [sp, #80]
	sub	x8, x8, #1
	ldr	x0, [x9]
	cmp	x8, #257
	b.lo	.LBB30_10
	mov	x13, xzr
	add	x11, x9, #16
.LBB30_6:
	mov	w10, #256
	mov	x12, x11
.LBB30_7:
	ldur	q0, [x12, #-8]
	ldur	q1, [x12, #8]
	subs	x10, x10, #4
	stp	q0, q1, [x12, #-16]
	add	x12, x12, #32
	b.ne	.LBB30_7
	add	x13, x13, #256
	add	x11, x11, #2048
	sub	x10, x8, x13
	cmp	x10, #256
	b.hi	.LBB30_6
	lsl	x11, x13, #3
	add	x12, x9, x11
	cmp	x8, x13
	b.ne	.LBB30_11
	b	.LBB30_16
.LBB30_10:
	mov	x11, xzr
	mov	x12, x9
	mov	x10, x8
	cmp	x8, xzr
	b.eq	.LBB30_16
.LBB30_11:
	cmp	x10, #4
	b.lo	.LBB30_13
	add	x13, x11, x9
	sub	x13, x13, x12
	sub	x13, x13, #8
	cmp	x13, #32
	b.hs	.LBB30_18
.LBB30_13:
	mov	x13, xzr
.LBB30_14:
	lsl	x14, x13, #3
	add	x11, x9, x11
	sub	x9, x10, x13
	add	x12, x12, x14
	add	x11, x11, x14
	add	x10, x12, #8
.LBB30_15:
	ldr	x12, [x10], #8
	subs	x9, x9, #1
	str	x12, [x11], #8
	b.ne	.LBB30_15
.LBB30_16:
	ldr	x9, [sp, #96]
	stp	x8, x9, [sp, #88]
	bl	"std_collections::btree::node::Node::destroy::<#17177a6839d38039>"
	movi	v0.2d, #0000000000000000
	sub	x0, x29, #64
	add	x1, sp, #32
	mov	x2, xzr
	stp	xzr, xzr, [x29, #-56]
	stur	xzr, [x29, #-64]
	stp	q0, q0, [x29, #-32]
	bl	"std_alloc::vec::Vec::remove::<#5ea93b9ddeb8aab1>"
	sub	x0, x29, #32
	add	x1, x19, #24
	mov	x2, xzr
	bl	"std_alloc::vec::Vec::remove::<#cd5e489e5ed3d409>"
	ldr	q0, [x20]
	ldur	x0, [x29, #-64]
	ldur	x8, [x29, #-48]
	ldurb	w21, [x29, #-32]
	ldur	q1, [x20, #12]
	ldurb	w23, [x29, #-31]
	ldurh	w22, [x29, #-30]
	str	q0, [sp]
	stur	q1, [sp, #12]
	cbz	x8, .LBB30_3
	bl	rattle_dealloc
	b	.LBB30_3
.LBB30_18:
	add	x15, x9, x11
	and	x13, x10, #0x1fc
	add	x14, x12, #24
	add	x15, x15, #16
	and	x16, x10, #0x1fc
.LBB30_19:
	ldp	q0, q1, [x14, #-16]
	subs	x16, x16, #4
	add	x14, x14, #32
	stp	q0, q1, [x15, #-16]
	add	x15, x15, #32
	b.ne	.LBB30_19
	cmp	x10, x13
	b.eq	.LBB30_16
	b	.LBB30_14
.LBB30_21:
	ldp	x8, x9, [sp, #80]
	sub	x20, x9, #1
.LBB30_22:
	ldr	x0, [x8]
	mov	x9, xzr
	mov	x12, xzr
	cmp	x20, #257
	mov	x11, x8
	mov	x10, x20
	stp	xzr, xzr, [x19, #56]
	b.lo	.LBB30_28
	mov	x12, xzr
	add	x9, x8, #16
.LBB30_24:
	mov	w10, #256
	mov	x11, x9
.LBB30_25:
	ldur	q0, [x11, #-8]
	ldur	q1, [x11, #8]
	subs	x10, x10, #4
	stp	q0, q1, [x11, #-16]
	add	x11, x11, #32
	b.ne	.LBB30_25
	add	x12, x12, #256
	add	x9, x9, #2048
	sub	x10, x20, x12
	cmp	x10, #256
	b.hi	.LBB30_24
	lsl	x9, x12, #3
	add	x11, x8, x9
.LBB30_28:
	cmp	x20, x12
	b.eq	.LBB30_34
	cmp	x10, #6
	b.lo	.LBB30_31
	add	x14, x9, x8
	sub	x12, x14, x11
	sub	x12, x12, #8
	cmp	x12, #32
	b.hs	.LBB30_42
.LBB30_31:
	mov	x12, xzr
.LBB30_32:
	lsl	x13, x12, #3
	add	x14, x8, x9
	sub	x8, x10, x12
	add	x11, x13, x11
	add	x10, x14, x13
	add	x9, x11, #8
.LBB30_33:
	ldr	x11, [x9], #8
	subs	x8, x8, #1
	str	x11, [x10], #8
	b.ne	.LBB30_33
.LBB30_34:
	bl	"std_collections::btree::node::Node::destroy::<#17177a6839d38039>"
	ldr	x0, [sp, #104]
	b	.LBB30_41
.LBB30_35:
	mov	x19, x0
	add	x0, sp, #32
	bl	"std_collections::btree::row::Row::reverse::<#8af3e1b4e9e21b57>"
	cbz	w20, .LBB30_40
	add	x8, x20, x20, lsl #1
	sub	x9, x29, #32
	lsl	x20, x20, #5
	orr	x22, x9, #0x4
	lsl	x21, x8, #3
	b	.LBB30_38
.LBB30_37:
	ldur	q0, [x29, #-64]
	ldur	q1, [x29, #-52]
	sub	x0, x29, #32
	sturb	w23, [x29, #-32]
	sub	x21, x21, #24
	sturb	w25, [x29, #-31]
	sturh	w24, [x29, #-30]
	str	q0, [x22]
	stur	q1, [x22, #12]
	bl	"amqp_value_core::amqp_value_core++value++AMQPValue+Destruct::drop"
	sub	x20, x20, #32
	cbz	x21, .LBB30_40
.LBB30_38:
	add	x8, x19, x20
	add	x9, x19, x21
	add	x10, x8, #340
	ldur	x0, [x9, #-16]
	ldr	x9, [x9]
	ldr	q0, [x10]
	ldrb	w23, [x8, #336]
	ldr	q1, [x8, #352]
	ldrb	w25, [x8, #337]
	ldrh	w24, [x8, #338]
	stur	q0, [x29, #-64]
	stur	q1, [x29, #-52]
	cbz	x9, .LBB30_37
	bl	rattle_dealloc
	b	.LBB30_37
.LBB30_40:
	mov	x0, x19
.LBB30_41:
	ldp	x20, x19, [sp, #240]
	ldr	x25, [sp, #192]
	ldp	x22, x21, [sp, #224]
	ldp	x24, x23, [sp, #208]
	ldp	x29, x30, [sp, #176]
	add	sp, sp, #256
	b	rattle_dealloc
.LBB30_42:
	and	x12, x10, #0x1fc
	add	x13, x11, #24
	add	x14, x14, #16
	and	x15, x10, #0x1fc
.LBB30_43:
	ldp	q0, q1, [x13, #-16]
	subs	x15, x15, #4
	add	x13, x13, #32
	stp	q0, q1, [x14, #-16]
	add	x14, x14, #32
	b.ne	.LBB30_43
	cmp	x10, x12
	b.eq	.LBB30_34
	b	.LBB30_32
.Lfunc_end30:
	.size	"std_collections::btree::node::Node::destroy::<#17177a6839d38039>", .Lfunc_end30-"std_collections::btree::node::Node::destroy::<#17177a6839d38039>"

	.section	".text.std_collections::btree::row::Row::reverse::<#8af3e1b4e9e21b57>","ax",@progbits
	.p2align	2
	.type	"std_collections::btree::row::Row::reverse::<#8af3e1b4e9e21b57>",@function
"std_collections::btree::row::Row::reverse::<#8af3e1b4e9e21b57>":
	sub	sp, sp, #64
	str	x19, [sp, #48]
	mov	x19, x0
	ldp	x0, x8, [x0]
	stp	x29, x30, [sp, #32]
	add	x29, sp, #32
	cmp	x8, #15
	b.ls	.LBB31_2
	lsr	x2, x8, #1
	mov	w9, #24
	sub	x8, x8, x2
	madd	x1, x8, x9, x0
	bl	"core::slice::edits::mirror::<#0107ca75ede54906>"
	b	.LBB31_35
.LBB31_2:
	subs	x10, x8, #2
	b.lo	.LBB31_35
	lsr	x9, x10, #1
	subs	x11, x8, #1
	b.eq	.LBB31_5
	mov	w12, #24
	ldr	q1, [x0]
	ldr	x13, [x0, #16]
	madd	x11, x11, x12, x0
	ldr	q0, [x11]
	ldr	x12, [x11, #16]
	str	q0, [x0]
	str	x12, [x0, #16]
	str	q1, [x11]
	str	x13, [x11, #16]
.LBB31_5:
	cbz	x9, .LBB31_35
	cmp	x10, #1
	b.ls	.LBB31_8
	mov	w11, #24
	ldur	q1, [x0, #24]
	ldr	x12, [x0, #40]
	madd	x10, x10, x11, x0
	ldr	q0, [x10]
	ldr	x11, [x10, #16]
	stur	q0, [x0, #24]
	str	x11, [x0, #40]
	str	q1, [x10]
	str	x12, [x10, #16]
	b	.LBB31_10
.LBB31_8:
	cbnz	x10, .LBB31_10
	mov	w11, #24
	ldur	q0, [x0, #24]
	madd	x10, x10, x11, x0
	ldr	x11, [x0, #40]
	ldr	q1, [x10]
	ldr	x12, [x10, #16]
	str	q0, [x10]
	str	x11, [x10, #16]
	stur	q1, [x0, #24]
	str	x12, [x0, #40]
.LBB31_10:
	cmp	x9, #1
	b.eq	.LBB31_35
	sub	x10, x8, #3
	cmp	x10, #2
	b.ls	.LBB31_13
	mov	w11, #24
	ldr	q1, [x0, #48]
	ldr	x12, [x0, #64]
	madd	x10, x10, x11, x0
	ldr	q0, [x10]
	ldr	x11, [x10, #16]
	str	q0, [x0, #48]
	str	x11, [x0, #64]
	str	q1, [x10]
	str	x12, [x10, #16]
	b	.LBB31_15
.LBB31_13:
	b.eq	.LBB31_15
	mov	w11, #24
	ldr	q0, [x0, #48]
	madd	x10, x10, x11, x0
	ldr	x11, [x0, #64]
	ldr	q1, [x10]
	ldr	x12, [x10, #16]
	str	q0, [x10]
	str	x11, [x10, #16]
	str	q1, [x0, #48]
	str	x12, [x0, #64]
.LBB31_15:
	cmp	x9, #2
	b.eq	.LBB31_35
	sub	x10, x8, #4
	cmp	x10, #3
	b.ls	.LBB31_18
	mov	w11, #24
	ldur	q1, [x0, #72]
	ldr	x12, [x0, #88]
	madd	x10, x10, x11, x0
	ldr	q0, [x10]
	ldr	x11, [x10, #16]
	stur	q0, [x0, #72]
	str	x11, [x0, #88]
	str	q1, [x10]
	str	x12, [x10, #16]
	b	.LBB31_20
.LBB31_18:
	b.eq	.LBB31_20
	mov	w11, #24
	ldur	q0, [x0, #72]
	madd	x10, x10, x11, x0
	ldr	x11, [x0, #88]
	ldr	q1, [x10]
	ldr	x12, [x10, #16]
	str	q0, [x10]
	str	x11, [x10, #16]
	stur	q1, [x0, #72]
	str	x12, [x0, #88]
.LBB31_20:
	cmp	x9, #3
	b.eq	.LBB31_35
	sub	x10, x8, #5
	cmp	x10, #4
	b.ls	.LBB31_23
	mov	w11, #24
	ldr	q1, [x0, #96]
	ldr	x12, [x0, #112]
	madd	x10, x10, x11, x0
	ldr	q0, [x10]
	ldr	x11, [x10, #16]
	str	q0, [x0, #96]
	str	x11, [x0, #112]
	str	q1, [x10]
	str	x12, [x10, #16]
	b	.LBB31_25
.LBB31_23:
	b.eq	.LBB31_25
	mov	w11, #24
	ldr	q0, [x0, #96]
	madd	x10, x10, x11, x0
	ldr	x11, [x0, #112]
	ldr	q1, [x10]
	ldr	x12, [x10, #16]
	str	q0, [x10]
	str	x11, [x10, #16]
	str	q1, [x0, #96]
	str	x12, [x0, #112]
.LBB31_25:
	cmp	x9, #4
	b.eq	.LBB31_35
	sub	x10, x8, #6
	cmp	x10, #5
	b.ls	.LBB31_28
	mov	w11, #24
	ldur	q1, [x0, #120]
	ldr	x12, [x0, #136]
	madd	x10, x10, x11, x0
	ldr	q0, [x10]
	ldr	x11, [x10, #16]
	stur	q0, [x0, #120]
	str	x11, [x0, #136]
	str	q1, [x10]
	str	x12, [x10, #16]
	b	.LBB31_30
.LBB31_28:
	b.eq	.LBB31_30
	mov	w11, #24
	ldur	q0, [x0, #120]
	madd	x10, x10, x11, x0
	ldr	x11, [x0, #136]
	ldr	q1, [x10]
	ldr	x12, [x10, #16]
	str	q0, [x10]
	str	x11, [x10, #16]
	stur	q1, [x0, #120]
	str	x12, [x0, #136]
.LBB31_30:
	cmp	x9, #5
	b.eq	.LBB31_35
	sub	x8, x8, #7
	cmp	x8, #6
	b.ls	.LBB31_33
	mov	w9, #24
	ldr	q1, [x0, #144]
	ldr	x10, [x0, #160]
	madd	x8, x8, x9, x0
	ldr	q0, [x8]
	ldr	x9, [x8, #16]
	str	q0, [x0, #144]
	str	x9, [x0, #160]
	str	q1, [x8]
	str	x10, [x8, #16]
	b	.LBB31_35
.LBB31_33:
	b.eq	.LBB31_35
	mov	w9, #24
	ldr	q0, [x0, #144]
	madd	x8, x8, x9, x0
	ldr	x9, [x0, #160]
	ldr	q1, [x8]
	ldr	x10, [x8, #16]
	str	q0, [x8]
	str	x9, [x8, #16]
	str	q1, [x0, #144]
	str	x10, [x0, #160]
.LBB31_35:
	ldp	x0, x11, [x19, #24]
	cmp	x11, #15
	b.ls	.LBB31_37
	lsr	x2, x11, #1
	ldp	x29, x30, [sp, #32]
	ldr	x19, [sp, #48]
	sub	x8, x11, x2
	add	x1, x0, x8, lsl #5
	add	sp, sp, #64
	b	"core::slice::edits::mirror::<33'amqp_value_core::value::AMQPValue>"
.LBB31_37:
	subs	x10, x11, #2
	b.lo	.LBB31_44
	lsr	x12, x10, #1
	lsl	x10, x11, #5
	mov	x8, xzr
	mov	x9, xzr
	sub	x11, x11, #1
	add	x12, x12, #1
	b	.LBB31_41
.LBB31_39:
	add	x13, x0, x10
	add	x14, x0, x8
	ldur	w15, [x13, #-32]
	ldur	q0, [x14, #4]
	ldr	w16, [x14]
	ldr	q1, [x14, #16]
	str	w15, [x14]
	str	q0, [sp]
	ldur	q0, [x13, #-28]
	ldur	x15, [x13, #-12]
	stur	q1, [sp, #12]
	ldur	w17, [x13, #-4]
	stur	q0, [x14, #4]
	ldur	q0, [sp, #12]
	stur	x15, [x14, #20]
	str	w17, [x14, #28]
	stur	q0, [x13, #-16]
	ldr	q0, [sp]
	stur	w16, [x13, #-32]
	stur	q0, [x13, #-28]
.LBB31_40:
	add	x9, x9, #1
	add	x8, x8, #32
	sub	x11, x11, #1
	cmp	x12, x9
	sub	x10, x10, #32
	b.eq	.LBB31_44
.LBB31_41:
	cmp	x9, x11
	b.lo	.LBB31_39
	cmp	x11, x9
	b.hs	.LBB31_40
	add	x13, x0, x8
	add	x14, x0, x10
	ldr	w15, [x13]
	ldur	q0, [x14, #-28]
	ldur	w16, [x14, #-32]
	ldur	q1, [x14, #-16]
	stur	w15, [x14, #-32]
	str	q0, [sp]
	ldur	q0, [x13, #4]
	ldur	x15, [x13, #20]
	stur	q1, [sp, #12]
	ldr	w17, [x13, #28]
	stur	q0, [x14, #-28]
	ldur	q0, [sp, #12]
	stur	x15, [x14, #-12]
	stur	w17, [x14, #-4]
	str	q0, [x13, #16]
	ldr	q0, [sp]
	str	w16, [x13]
	stur	q0, [x13, #4]
	b	.LBB31_40
.LBB31_44:
	ldp	x29, x30, [sp, #32]
	ldr	x19, [sp, #48]
	add	sp, sp, #64
	ret
.Lfunc_end31:
	.size	"std_collections::btree::row::Row::reverse::<#8af3e1b4e9e21b57>", .Lfunc_end31-"std_collections::btree::row::Row::reverse::<#8af3e1b4e9e21b57>"

	.section	".text.core::slice::edits::mirror::<#0107ca75ede54906>","ax",@progbits
	.p2align	2
	.type	"core::slice::edits::mirror::<#0107ca75ede54906>",@function
"core::slice::edits::mirror::<#0107ca75ede54906>":
	sub	sp, sp, #32
	mov	w8, #24
	madd	x8, x2, x8, x1
	sub	x8, x8, #24
.LBB32_1:
	ldr	q0, [x8]
	ldr	x9, [x8, #16]
	sub	x2, x2, #1
	ldr	q1, [x0]
	ldr	x10, [x0, #16]
	str	q0, [x0]
	str	x9, [x0, #16]
	add	x0, x0, #24
	str	q1, [x8]
	str	x10, [x8, #16]
	sub	x8, x8, #24
	cbnz	x2, .LBB32_1
	add	sp, sp, #32
	ret
.Lfunc_end32:
	.size	"core::slice::edits::mirror::<#0107ca75ede54906>", .Lfunc_end32-"core::slice::edits::mirror::<#0107ca75ede54906>"

	.section	".text.core::slice::edits::mirror::<33'amqp_value_core::value::AMQPValue>","ax",@progbits
	.p2align	2
	.type	"core::slice::edits::mirror::<33'amqp_value_core::value::AMQPValue>",@function
"core::slice::edits::mirror::<33'amqp_value_core::value::AMQPValue>":
	sub	sp, sp, #64
	add	x9, x1, x2, lsl #5
	add	x8, x0, #2
	sub	x9, x9, #32
.LBB33_1:
	ldur	q0, [x9, #4]
	ldr	q1, [x9, #16]
	sub	x2, x2, #1
	ldr	w10, [x9]
	ldur	w11, [x8, #-2]
	str	q0, [sp, #32]
	ldur	q0, [x8, #2]
	stur	q1, [sp, #44]
	ldur	q1, [x8, #14]
	str	q0, [sp]
	ldr	q0, [sp, #32]
	stur	q1, [sp, #12]
	ldur	q1, [sp, #44]
	stur	q0, [x8, #2]
	ldr	q0, [sp]
	stur	q1, [x8, #14]
	stur	w10, [x8, #-2]
	add	x8, x8, #32
	stur	q0, [x9, #4]
	ldur	q0, [sp, #12]
	str	w11, [x9]
	str	q0, [x9, #16]
	sub	x9, x9, #32
	cbnz	x2, .LBB33_1
	add	sp, sp, #64
	ret
.Lfunc_end33:
	.size	"core::slice::edits::mirror::<33'amqp_value_core::value::AMQPValue>", .Lfunc_end33-"core::slice::edits::mirror::<33'amqp_value_core::value::AMQPValue>"

	.section	".text.unlikely.std_alloc::vec::Vec::grow_amortized::<#b98889d35b5d373b>","ax",@progbits
	.p2align	2
	.type	"std_alloc::vec::Vec::grow_amortized::<#b98889d35b5d373b>",@function
"std_alloc::vec::Vec::grow_amortized::<#b98889d35b5d373b>":
	ldr	x8, [x0, #8]
	cmn	x8, #1
	b.eq	.LBB34_5
	stp	x29, x30, [sp, #-32]!
	ldr	x9, [x0, #16]
	cmp	x8, #3
	mov	w10, #3
	csel	x11, x8, x10, hi
	stp	x20, x19, [sp, #16]
	mov	x29, sp
	lsl	x10, x9, #1
	add	x12, x11, #1
	lsr	x13, x9, #62
	cmp	x12, x10
	csinc	x10, x10, x11, ls
	cmp	x13, #0
	csinc	x19, x10, x11, eq
	mov	x11, #37449
	movk	x11, #18724, lsl #16
	movk	x11, #9362, lsl #32
	movk	x11, #585, lsl #48
	cmp	x19, x11
	b.hi	.LBB34_7
	cbz	x9, .LBB34_6
	lsl	x9, x8, #6
	lsl	x10, x19, #6
	mov	x20, x0
	ldr	x0, [x0]
	mov	w3, #8
	sub	x1, x9, x8, lsl #3
	sub	x2, x10, x19, lsl #3
	bl	rattle_realloc
	tbz	w0, #0, .LBB34_7
.LBB34_4:
	mov	w0, #1
	str	x1, [x20]
	str	x19, [x20, #16]
	ldp	x20, x19, [sp, #16]
	ldp	x29, x30, [sp], #32
	ret
.LBB34_5:
	mov	w0, wzr
	ret
.LBB34_6:
	lsl	x8, x10, #6
	mov	x20, x0
	mov	w1, #8
	sub	x0, x8, x10, lsl #3
	bl	rattle_alloc
	tbnz	w0, #0, .LBB34_4
.LBB34_7:
	mov	w0, wzr
	ldp	x20, x19, [sp, #16]
	ldp	x29, x30, [sp], #32
	ret
.Lfunc_end34:
	.size	"std_alloc::vec::Vec::grow_amortized::<#b98889d35b5d373b>", .Lfunc_end34-"std_alloc::vec::Vec::grow_amortized::<#b98889d35b5d373b>"

	.section	".text.amq_protocol_types::amqp_value_core++value++AMQPValue+Destruct::drop","ax",@progbits
	.p2align	2
	.type	"amq_protocol_types::amqp_value_core++value++AMQPValue+Destruct::drop",@function
"amq_protocol_types::amqp_value_core++value++AMQPValue+Destruct::drop":
	sub	sp, sp, #96
	ldrb	w8, [x0]
	stp	x29, x30, [sp, #32]
	add	x29, sp, #32
	str	x23, [sp, #48]
	cmp	w8, #10
	stp	x22, x21, [sp, #64]
	stp	x20, x19, [sp, #80]
	b.gt	.LBB35_2
.LBB35_1:
	ldp	x20, x19, [sp, #80]
	ldr	x23, [sp, #48]
	ldp	x22, x21, [sp, #64]
	ldp	x29, x30, [sp, #32]
	add	sp, sp, #96
	ret
.LBB35_2:
	ldp	x19, x20, [x0, #8]
	cmp	w8, #13
	ldr	x21, [x0, #24]
	b.le	.LBB35_7
	cmp	w8, #15
	b.gt	.LBB35_12
	cmp	w8, #14
	b.eq	.LBB35_1
	and	x8, x19, #0xff
	cmp	x8, #1
	b.ne	.LBB35_1
	mov	x0, x20
	ldp	x20, x19, [sp, #80]
	ldp	x22, x21, [sp, #64]
	ldr	x23, [sp, #48]
	ldp	x29, x30, [sp, #32]
	add	sp, sp, #96
	b	"std_collections::btree::node::Node::destroy::<#c8513c7b35bfb086>"
.LBB35_7:
	cmp	w8, #11
	b.eq	.LBB35_13
	cmp	w8, #12
	b.eq	.LBB35_13
	cbz	x20, .LBB35_13
	mov	x8, sp
	add	x23, x19, #2
	orr	x22, x8, #0x4
.LBB35_11:
	ldur	w8, [x23, #-2]
	ldur	q0, [x23, #2]
	mov	x0, sp
	ldur	q1, [x23, #14]
	str	w8, [sp]
	str	q0, [x22]
	stur	q1, [x22, #12]
	bl	"amq_protocol_types::amqp_value_core++value++AMQPValue+Destruct::drop"
	subs	x20, x20, #1
	add	x23, x23, #32
	b.ne	.LBB35_11
	b	.LBB35_13
.LBB35_12:
	cmp	w8, #16
	b.ne	.LBB35_1
.LBB35_13:
	cbz	x21, .LBB35_1
	mov	x0, x19
	ldp	x20, x19, [sp, #80]
	ldp	x22, x21, [sp, #64]
	ldr	x23, [sp, #48]
	ldp	x29, x30, [sp, #32]
	add	sp, sp, #96
	b	rattle_dealloc
.Lfunc_end35:
	.size	"amq_protocol_types::amqp_value_core++value++AMQPValue+Destruct::drop", .Lfunc_end35-"amq_protocol_types::amqp_value_core++value++AMQPValue+Destruct::drop"

	.section	".text.std_collections::btree::node::Node::destroy::<#c8513c7b35bfb086>","ax",@progbits
	.p2align	2
	.type	"std_collections::btree::node::Node::destroy::<#c8513c7b35bfb086>",@function
"std_collections::btree::node::Node::destroy::<#c8513c7b35bfb086>":
	sub	sp, sp, #256
	stp	x20, x19, [sp, #240]
	ldrh	w20, [x0]
	ldrh	w10, [x0, #2]
	add	x8, x0, #8
	mov	w9, #15
	mov	w11, #16
	stp	x8, x20, [sp, #32]
	add	x8, x0, #368
	cmp	w10, #0
	stp	x9, x8, [sp, #48]
	add	x8, x0, #848
	csel	x11, xzr, x11, eq
	stp	x20, x9, [sp, #64]
	csinc	x9, xzr, x20, eq
	stp	x29, x30, [sp, #176]
	add	x29, sp, #176
	str	x25, [sp, #192]
	stp	x24, x23, [sp, #208]
	stp	x22, x21, [sp, #224]
	stp	xzr, xzr, [sp]
	str	wzr, [sp, #24]
	str	xzr, [sp, #16]
	stp	x8, x9, [sp, #80]
	stp	x11, x0, [sp, #96]
	cbz	w10, .LBB36_35
	add	x19, sp, #32
	cbz	w20, .LBB36_22
	sub	x8, x29, #32
	orr	x20, x8, #0x4
	b	.LBB36_4
.LBB36_3:
	ldr	q0, [sp]
	ldur	q1, [sp, #12]
	sub	x0, x29, #32
	sturb	w21, [x29, #-32]
	sturb	w23, [x29, #-31]
	sturh	w22, [x29, #-30]
	str	q0, [x20]
	stur	q1, [x20, #12]
	bl	"amq_protocol_types::amqp_value_core++value++AMQPValue+Destruct::drop"
	ldr	x8, [sp, #40]
	cbz	x8, .LBB36_21
.LBB36_4:
	ldp	x9, x8, [sp, #80]
	sub	x8, x8, #1
	ldr	x0, [x9]
	cmp	x8, #257
	b.lo	.LBB36_10
	mov	x13, xzr
	add	x11, x9, #16
.LBB36_6:
	mov	w10, #256
	mov	x12, x11
.LBB36_7:
	ldur	q0, [x12, #-8]
	ldur	q1, [x12, #8]
	subs	x10, x10, #4
	stp	q0, q1, [x12, #-16]
	add	x12, x12, #32
	b.ne	.LBB36_7
	add	x13, x13, #256
	add	x11, x11, #2048
	sub	x10, x8, x13
	cmp	x10, #256
	b.hi	.LBB36_6
	lsl	x11, x13, #3
	add	x12, x9, x11
	cmp	x8, x13
	b.ne	.LBB36_11
	b	.LBB36_16
.LBB36_10:
	mov	x11, xzr
	mov	x12, x9
	mov	x10, x8
	cmp	x8, xzr
	b.eq	.LBB36_16
.LBB36_11:
	cmp	x10, #4
	b.lo	.LBB36_13
	add	x13, x11, x9
	sub	x13, x13, x12
	sub	x13, x13, #8
	cmp	x13, #32
	b.hs	.LBB36_18
.LBB36_13:
	mov	x13, xzr
.LBB36_14:
	lsl	x14, x13, #3
	add	x11, x9, x11
	sub	x9, x10, x13
	add	x12, x12, x14
	add	x11, x11, x14
	add	x10, x12, #8
.LBB36_15:
	ldr	x12, [x10], #8
	subs	x9, x9, #1
	str	x12, [x11], #8
	b.ne	.LBB36_15
.LBB36_16:
	ldr	x9, [sp, #96]
	stp	x8, x9, [sp, #88]
	bl	"std_collections::btree::node::Node::destroy::<#c8513c7b35bfb086>"
	movi	v0.2d, #0000000000000000
	sub	x0, x29, #64
	add	x1, sp, #32
	mov	x2, xzr
	stp	xzr, xzr, [x29, #-56]
	stur	xzr, [x29, #-64]
	stp	q0, q0, [x29, #-32]
	bl	"std_alloc::vec::Vec::remove::<#5ea93b9ddeb8aab1>"
	sub	x0, x29, #32
	add	x1, x19, #24
	mov	x2, xzr
	bl	"std_alloc::vec::Vec::remove::<#cd5e489e5ed3d409>"
	ldr	q0, [x20]
	ldur	x0, [x29, #-64]
	ldur	x8, [x29, #-48]
	ldurb	w21, [x29, #-32]
	ldur	q1, [x20, #12]
	ldurb	w23, [x29, #-31]
	ldurh	w22, [x29, #-30]
	str	q0, [sp]
	stur	q1, [sp, #12]
	cbz	x8, .LBB36_3
	bl	rattle_dealloc
	b	.LBB36_3
.LBB36_18:
	add	x15, x9, x11
	and	x13, x10, #0x1fc
	add	x14, x12, #24
	add	x15, x15, #16
	and	x16, x10, #0x1fc
.LBB36_19:
	ldp	q0, q1, [x14, #-16]
	subs	x16, x16, #4
	add	x14, x14, #32
	stp	q0, q1, [x15, #-16]
	add	x15, x15, #32
	b.ne	.LBB36_19
	cmp	x10, x13
	b.eq	.LBB36_16
	b	.LBB36_14
.LBB36_21:
	ldp	x8, x9, [sp, #80]
	sub	x20, x9, #1
.LBB36_22:
	ldr	x0, [x8]
	mov	x9, xzr
	mov	x12, xzr
	cmp	x20, #257
	mov	x11, x8
	mov	x10, x20
	stp	xzr, xzr, [x19, #56]
	b.lo	.LBB36_28
	mov	x12, xzr
	add	x9, x8, #16
.LBB36_24:
	mov	w10, #256
	mov	x11, x9
.LBB36_25:
	ldur	q0, [x11, #-8]
	ldur	q1, [x11, #8]
	subs	x10, x10, #4
	stp	q0, q1, [x11, #-16]
	add	x11, x11, #32
	b.ne	.LBB36_25
	add	x12, x12, #256
	add	x9, x9, #2048
	sub	x10, x20, x12
	cmp	x10, #256
	b.hi	.LBB36_24
	lsl	x9, x12, #3
	add	x11, x8, x9
.LBB36_28:
	cmp	x20, x12
	b.eq	.LBB36_34
	cmp	x10, #6
	b.lo	.LBB36_31
	add	x14, x9, x8
	sub	x12, x14, x11
	sub	x12, x12, #8
	cmp	x12, #32
	b.hs	.LBB36_42
.LBB36_31:
	mov	x12, xzr
.LBB36_32:
	lsl	x13, x12, #3
	add	x14, x8, x9
	sub	x8, x10, x12
	add	x11, x13, x11
	add	x10, x14, x13
	add	x9, x11, #8
.LBB36_33:
	ldr	x11, [x9], #8
	subs	x8, x8, #1
	str	x11, [x10], #8
	b.ne	.LBB36_33
.LBB36_34:
	bl	"std_collections::btree::node::Node::destroy::<#c8513c7b35bfb086>"
	ldr	x0, [sp, #104]
	b	.LBB36_41
.LBB36_35:
	mov	x19, x0
	add	x0, sp, #32
	bl	"std_collections::btree::row::Row::reverse::<#8af3e1b4e9e21b57>"
	cbz	w20, .LBB36_40
	add	x8, x20, x20, lsl #1
	sub	x9, x29, #32
	lsl	x20, x20, #5
	orr	x22, x9, #0x4
	lsl	x21, x8, #3
	b	.LBB36_38
.LBB36_37:
	ldur	q0, [x29, #-64]
	ldur	q1, [x29, #-52]
	sub	x0, x29, #32
	sturb	w23, [x29, #-32]
	sub	x21, x21, #24
	sturb	w25, [x29, #-31]
	sturh	w24, [x29, #-30]
	str	q0, [x22]
	stur	q1, [x22, #12]
	bl	"amq_protocol_types::amqp_value_core++value++AMQPValue+Destruct::drop"
	sub	x20, x20, #32
	cbz	x21, .LBB36_40
.LBB36_38:
	add	x8, x19, x20
	add	x9, x19, x21
	add	x10, x8, #340
	ldur	x0, [x9, #-16]
	ldr	x9, [x9]
	ldr	q0, [x10]
	ldrb	w23, [x8, #336]
	ldr	q1, [x8, #352]
	ldrb	w25, [x8, #337]
	ldrh	w24, [x8, #338]
	stur	q0, [x29, #-64]
	stur	q1, [x29, #-52]
	cbz	x9, .LBB36_37
	bl	rattle_dealloc
	b	.LBB36_37
.LBB36_40:
	mov	x0, x19
.LBB36_41:
	ldp	x20, x19, [sp, #240]
	ldr	x25, [sp, #192]
	ldp	x22, x21, [sp, #224]
	ldp	x24, x23, [sp, #208]
	ldp	x29, x30, [sp, #176]
	add	sp, sp, #256
	b	rattle_dealloc
.LBB36_42:
	and	x12, x10, #0x1fc
	add	x13, x11, #24
	add	x14, x14, #16
	and	x15, x10, #0x1fc
.LBB36_43:
	ldp	q0, q1, [x13, #-16]
	subs	x15, x15, #4
	add	x13, x13, #32
	stp	q0, q1, [x14, #-16]
	add	x14, x14, #32
	b.ne	.LBB36_43
	cmp	x10, x12
	b.eq	.LBB36_34
	b	.LBB36_32
.Lfunc_end36:
	.size	"std_collections::btree::node::Node::destroy::<#c8513c7b35bfb086>", .Lfunc_end36-"std_collections::btree::node::Node::destroy::<#c8513c7b35bfb086>"

	.section	.rodata.cst16,"aM",@progbits,16
	.p2align	4, 0x0
.LCPI37_0:
	.xword	0
	.xword	15
.LCPI37_1:
	.xword	0
	.xword	16
	.section	".text.amqp_value_core::types::field_table::FieldTable::from_pairs","ax",@progbits
	.p2align	2
	.type	"amqp_value_core::types::field_table::FieldTable::from_pairs",@function
"amqp_value_core::types::field_table::FieldTable::from_pairs":
	stp	x29, x30, [sp, #-96]!
	stp	x28, x27, [sp, #16]
	mov	x29, sp
	stp	x26, x25, [sp, #32]
	stp	x24, x23, [sp, #48]
	stp	x22, x21, [sp, #64]
	stp	x20, x19, [sp, #80]
	sub	sp, sp, #496
	ldp	x22, x19, [x1]
	ldr	x16, [x1, #16]
	cbz	x19, .LBB37_21
	movi	v0.2d, #0000000000000000
	mov	x8, xzr
	mov	x15, xzr
	mov	x9, xzr
	mov	x21, xzr
	add	x23, sp, #224
	sub	x17, x29, #208
	sub	x20, x29, #24
	str	x0, [sp, #24]
	str	xzr, [sp, #160]
	stp	q0, q0, [sp, #128]
.LBB37_2:
	mov	x26, x9
	lsl	x9, x21, #6
	mov	x12, xzr
	lsl	x10, x26, #6
	sub	x11, x21, x8
	sub	x9, x9, x21, lsl #3
	sub	x10, x10, x26, lsl #3
.LBB37_3:
	mov	x28, x12
	cmn	x11, x12
	add	x12, x22, x10
	b.eq	.LBB37_5
	ldp	q2, q0, [x12, #16]
	add	x14, x20, x9
	ldr	x13, [x12, #48]
	ldr	q1, [x12]
	add	x12, x28, #1
	cmp	x19, x12
	add	x9, x9, #56
	add	x10, x10, #56
	str	x13, [x14, #48]
	stp	q2, q0, [x14, #16]
	str	q1, [x14]
	b.ne	.LBB37_3
	b	.LBB37_12
.LBB37_5:
	ldur	q0, [x12, #28]
	sub	x9, x19, x28
	sub	x10, x15, x8
	sub	x24, x9, #1
	ldr	x27, [x12, #16]
	ldrb	w25, [x12, #24]
	str	q0, [x23, #208]
	ldp	x21, x23, [x12]
	ldur	q0, [x12, #40]
	cmp	x24, x10
	ldrb	w10, [x12, #25]
	ldrh	w12, [x12, #26]
	add	x11, sp, #224
	stp	x20, x8, [x29, #-208]
	stur	q0, [x11, #220]
	stur	x15, [x29, #-192]
	b.hs	.LBB37_7
.LBB37_6:
	mov	w9, #56
	ldur	x20, [x29, #-208]
	ldr	q0, [x11, #208]
	madd	x9, x8, x9, x20
	stp	xzr, xzr, [x17, #8]
	stur	q0, [x9, #28]
	ldur	q0, [x11, #220]
	sub	x11, x19, #1
	stp	x21, x23, [x9]
	adds	x21, x8, #1
	mov	x19, x24
	strb	w10, [x9, #25]
	add	x10, x26, x28
	csel	x8, xzr, x15, hs
	str	x27, [x9, #16]
	cmp	x11, x28
	add	x23, sp, #224
	strb	w25, [x9, #24]
	strh	w12, [x9, #26]
	stur	q0, [x9, #40]
	add	x9, x10, #1
	b.ne	.LBB37_2
	b	.LBB37_13
.LBB37_7:
	sub	x0, x29, #208
	sub	x1, x19, x28
	mov	w20, w10
	str	w12, [sp, #40]
	str	x16, [sp, #48]
	bl	"std_alloc::vec::Vec::grow_amortized::<#47f171320500d5e7>"
	ldp	x8, x15, [x29, #-200]
	tbnz	w0, #0, .LBB37_11
	ldr	x16, [sp, #48]
	ldr	w12, [sp, #40]
	cmp	x15, x8
	add	x11, sp, #224
	sub	x17, x29, #208
	mov	w10, w20
	b.ne	.LBB37_6
	sub	x0, x29, #208
	mov	w1, #1
	bl	"std_alloc::vec::Vec::grow_amortized::<#47f171320500d5e7>"
	cbz	w0, .LBB37_260
	ldp	x8, x15, [x29, #-200]
.LBB37_11:
	ldr	x16, [sp, #48]
	ldr	w12, [sp, #40]
	add	x11, sp, #224
	sub	x17, x29, #208
	mov	w10, w20
	b	.LBB37_6
.LBB37_12:
	add	x21, x21, x12
.LBB37_13:
	add	x8, x26, x28
	sub	x0, x29, #176
	str	x15, [sp, #48]
	add	x8, x8, #1
	stp	x22, xzr, [x29, #-176]
	stp	x16, x8, [x29, #-160]
	stur	xzr, [x29, #-144]
	bl	"amqp_value_core::std_alloc++vec++into_iter++IntoIter+Destruct::drop::<#c1ae60f0dd767e0f>"
	mov	x0, x20
	mov	x1, x21
	cmp	x21, #20
	b.hi	.LBB37_24
	mov	w2, #1
	bl	"core::slice::sort::small::insert_from::<#9d6850f96084634e>"
	cmp	x21, #15
	b.hi	.LBB37_73
.LBB37_15:
	ldr	x13, [sp, #48]
	subs	x9, x21, #2
	b.lo	.LBB37_86
	lsr	x8, x9, #1
	subs	x10, x21, #1
	b.eq	.LBB37_18
	mov	w11, #56
	ldp	q2, q0, [x20, #16]
	madd	x10, x10, x11, x20
	ldr	x12, [x20, #48]
	ldr	q1, [x20]
	stur	x12, [x29, #-128]
	stp	q2, q0, [x23, #112]
	str	q1, [x23, #96]
	ldp	q2, q0, [x10, #16]
	ldr	x11, [x10, #48]
	ldr	q1, [x10]
	str	x11, [x20, #48]
	stp	q2, q0, [x20, #16]
	str	q1, [x20]
	ldp	q2, q0, [x23, #112]
	ldur	x11, [x29, #-128]
	ldr	q1, [x23, #96]
	str	x11, [x10, #48]
	stp	q2, q0, [x10, #16]
	str	q1, [x10]
.LBB37_18:
	cbz	x8, .LBB37_86
	cmp	x9, #1
	b.ls	.LBB37_38
	mov	w10, #56
	ldur	q0, [x20, #56]
	ldur	q1, [x20, #72]
	madd	x9, x9, x10, x20
	ldur	q2, [x20, #88]
	ldr	x10, [x20, #104]
	stp	q0, q1, [x23, #96]
	str	q2, [x23, #128]
	stur	x10, [x29, #-128]
	ldp	q3, q4, [x9]
	ldr	x11, [x9, #48]
	ldr	q5, [x9, #32]
	str	x11, [x20, #104]
	stur	q3, [x20, #56]
	stur	q4, [x20, #72]
	stur	q5, [x20, #88]
	stp	q1, q2, [x9, #16]
	str	x10, [x9, #48]
	str	q0, [x9]
	b	.LBB37_40
.LBB37_21:
	cbz	x16, .LBB37_23
	mov	x19, x0
	mov	x0, x22
	bl	rattle_dealloc
	mov	x0, x19
.LBB37_23:
	strb	wzr, [x0]
	stp	xzr, xzr, [x0, #16]
	str	xzr, [x0, #8]
	b	.LBB37_257
.LBB37_24:
	mov	x2, xzr
	bl	"core::slice::sort::pivot::run_from::<#9d6850f96084634e>"
	cmp	x0, x21
	b.ne	.LBB37_27
	tbz	w1, #0, .LBB37_73
	lsr	x2, x21, #1
	mov	w9, #56
	mov	x0, x20
	sub	x8, x21, x2
	madd	x1, x8, x9, x20
	bl	"core::slice::edits::mirror::<24'(,)::<#8af3e1b4e9e21b57>>"
	b	.LBB37_73
.LBB37_27:
	lsl	x8, x21, #6
	subs	x8, x8, x21, lsl #3
	b.mi	.LBB37_32
	mov	x19, x0
	mov	x0, x8
	mov	w22, w1
	mov	w1, #8
	bl	rattle_alloc
	tst	w0, #0x1
	mov	w9, w22
	csel	x22, x1, xzr, ne
	tbz	w0, #0, .LBB37_32
	lsr	x10, x21, #1
	mov	x8, x19
	cmp	x21, #64
	stp	x1, x21, [sp, #56]
	b.hi	.LBB37_43
	cmp	x8, x10
	b.hs	.LBB37_43
	clz	x8, x21
	mov	w9, #126
	add	x4, sp, #56
	sub	w3, w9, w8, lsl #1
	mov	x0, x20
	mov	x1, x21
	mov	x2, x21
	b	.LBB37_71
.LBB37_32:
	sub	x8, x29, #176
	add	x22, x20, #28
	orr	x19, x8, #0x4
	b	.LBB37_34
.LBB37_33:
	ldr	q0, [sp, #128]
	ldur	q1, [sp, #140]
	sub	x0, x29, #176
	sturb	w24, [x29, #-176]
	add	x22, x22, #56
	sturb	w25, [x29, #-175]
	sturh	w23, [x29, #-174]
	str	q0, [x19]
	stur	q1, [x19, #12]
	bl	"amqp_value_core::amqp_value_core++value++AMQPValue+Destruct::drop"
	subs	x21, x21, #1
	b.eq	.LBB37_36
.LBB37_34:
	ldur	x0, [x22, #-28]
	ldur	q0, [x22, #12]
	ldur	x8, [x22, #-12]
	ldurb	w24, [x22, #-4]
	ldr	q1, [x22]
	ldurb	w25, [x22, #-3]
	ldurh	w23, [x22, #-2]
	stur	q0, [sp, #140]
	str	q1, [sp, #128]
	cbz	x8, .LBB37_33
	bl	rattle_dealloc
	b	.LBB37_33
.LBB37_36:
	ldr	x19, [sp, #24]
	ldr	x8, [sp, #48]
	cbz	x8, .LBB37_256
	mov	x0, x20
	bl	rattle_dealloc
	b	.LBB37_256
.LBB37_38:
	cbnz	x9, .LBB37_40
	mov	w10, #56
	madd	x9, x9, x10, x20
	ldp	q2, q0, [x9, #16]
	ldr	x10, [x9, #48]
	ldr	q1, [x9]
	stur	x10, [x29, #-128]
	ldr	x10, [x20, #104]
	stp	q2, q0, [x23, #112]
	ldur	q0, [x20, #88]
	ldur	q2, [x20, #72]
	str	q1, [x23, #96]
	ldur	q1, [x20, #56]
	str	x10, [x9, #48]
	stp	q2, q0, [x9, #16]
	str	q1, [x9]
	ldp	q0, q1, [x23, #96]
	ldr	q2, [x23, #128]
	ldur	x9, [x29, #-128]
	stur	q2, [x20, #88]
	stur	q0, [x20, #56]
	stur	q1, [x20, #72]
	str	x9, [x20, #104]
.LBB37_40:
	cmp	x8, #1
	b.eq	.LBB37_86
	sub	x9, x21, #3
	cmp	x9, #2
	b.ls	.LBB37_45
	mov	w10, #56
	ldp	q0, q1, [x20, #112]
	madd	x9, x9, x10, x20
	ldr	q2, [x20, #144]
	ldr	x10, [x20, #160]
	stp	q0, q1, [x23, #96]
	str	q2, [x23, #128]
	stur	x10, [x29, #-128]
	ldp	q3, q4, [x9]
	ldr	x11, [x9, #48]
	ldr	q5, [x9, #32]
	str	x11, [x20, #160]
	stp	q3, q4, [x20, #112]
	str	q5, [x20, #144]
	stp	q1, q2, [x9, #16]
	str	x10, [x9, #48]
	str	q0, [x9]
	b	.LBB37_47
.LBB37_43:
	movi	v0.2d, #0000000000000000
	cmp	x21, #1, lsl #12
	str	xzr, [sp, #160]
	stp	q0, q0, [sp, #128]
	b.hi	.LBB37_50
	mov	w11, #64
	b	.LBB37_53
.LBB37_45:
	b.eq	.LBB37_47
	mov	w10, #56
	madd	x9, x9, x10, x20
	ldp	q2, q0, [x9, #16]
	ldr	x10, [x9, #48]
	ldr	q1, [x9]
	stur	x10, [x29, #-128]
	ldr	x10, [x20, #160]
	stp	q2, q0, [x23, #112]
	ldp	q2, q0, [x20, #128]
	str	q1, [x23, #96]
	ldr	q1, [x20, #112]
	str	x10, [x9, #48]
	stp	q2, q0, [x9, #16]
	str	q1, [x9]
	ldp	q0, q1, [x23, #96]
	ldr	q2, [x23, #128]
	ldur	x9, [x29, #-128]
	str	q2, [x20, #144]
	stp	q0, q1, [x20, #112]
	str	x9, [x20, #160]
.LBB37_47:
	cmp	x8, #2
	b.eq	.LBB37_86
	sub	x9, x21, #4
	cmp	x9, #3
	b.ls	.LBB37_57
	mov	w10, #56
	ldur	q0, [x20, #168]
	ldur	q1, [x20, #184]
	madd	x9, x9, x10, x20
	ldur	q2, [x20, #200]
	ldr	x10, [x20, #216]
	stp	q0, q1, [x23, #96]
	str	q2, [x23, #128]
	stur	x10, [x29, #-128]
	ldp	q3, q4, [x9]
	ldr	x11, [x9, #48]
	ldr	q5, [x9, #32]
	str	x11, [x20, #216]
	stur	q3, [x20, #168]
	stur	q4, [x20, #184]
	stur	q5, [x20, #200]
	stp	q1, q2, [x9, #16]
	str	x10, [x9, #48]
	str	q0, [x9]
	b	.LBB37_59
.LBB37_50:
	mov	x11, xzr
	mov	x12, #4294967296
.LBB37_51:
	add	x13, x12, x11
	lsr	x13, x13, #1
	mul	x14, x13, x13
	cmp	x14, x21
	csel	x11, x11, x13, hi
	csel	x12, x13, x12, hi
	add	x13, x11, #1
	cmp	x13, x12
	b.lo	.LBB37_51
	cmp	x11, #64
	mov	w12, #64
	csel	x11, x11, x12, hi
.LBB37_53:
	mov	x12, #4611686018427387904
	cmp	x10, x11
	udiv	x12, x12, x21
	csel	x7, x10, x11, lo
	cmp	x8, x7
	cset	w5, hs
	csel	x4, x8, x7, hi
	add	x19, x12, #1
	b.lo	.LBB37_69
	tbz	w9, #0, .LBB37_69
	cmp	x8, #15
	b.ls	.LBB37_62
	lsr	x2, x8, #1
	mov	w10, #56
	mov	x0, x20
	mov	x24, x8
	mov	x23, x7
	sub	x9, x8, x2
	madd	x1, x9, x10, x20
	bl	"core::slice::edits::mirror::<24'(,)::<#8af3e1b4e9e21b57>>"
	mov	x7, x23
	add	x23, sp, #224
	mov	w5, #1
	mov	x4, x24
	b	.LBB37_69
.LBB37_57:
	b.eq	.LBB37_59
	mov	w10, #56
	madd	x9, x9, x10, x20
	ldp	q2, q0, [x9, #16]
	ldr	x10, [x9, #48]
	ldr	q1, [x9]
	stur	x10, [x29, #-128]
	ldr	x10, [x20, #216]
	stp	q2, q0, [x23, #112]
	ldur	q0, [x20, #200]
	ldur	q2, [x20, #184]
	str	q1, [x23, #96]
	ldur	q1, [x20, #168]
	str	x10, [x9, #48]
	stp	q2, q0, [x9, #16]
	str	q1, [x9]
	ldp	q0, q1, [x23, #96]
	ldr	q2, [x23, #128]
	ldur	x9, [x29, #-128]
	stur	q2, [x20, #200]
	stur	q0, [x20, #168]
	stur	q1, [x20, #184]
	str	x9, [x20, #216]
.LBB37_59:
	cmp	x8, #3
	b.eq	.LBB37_86
	sub	x9, x21, #5
	cmp	x9, #4
	b.ls	.LBB37_74
	mov	w10, #56
	ldp	q0, q1, [x20, #224]
	madd	x9, x9, x10, x20
	ldr	q2, [x20, #256]
	ldr	x10, [x20, #272]
	stp	q0, q1, [x23, #96]
	str	q2, [x23, #128]
	stur	x10, [x29, #-128]
	ldp	q3, q4, [x9]
	ldr	x11, [x9, #48]
	ldr	q5, [x9, #32]
	str	x11, [x20, #272]
	stp	q3, q4, [x20, #224]
	str	q5, [x20, #256]
	stp	q1, q2, [x9, #16]
	str	x10, [x9, #48]
	str	q0, [x9]
	b	.LBB37_76
.LBB37_62:
	mov	w10, #56
	mov	x9, xzr
	sub	x12, x8, #1
	madd	x11, x8, x10, x20
	sub	x10, x8, #2
	mov	x13, x20
	lsr	x10, x10, #1
	add	x10, x10, #1
	sub	x11, x11, #56
	b	.LBB37_65
.LBB37_63:
	ldp	q2, q0, [x13, #16]
	ldr	x14, [x13, #48]
	ldr	q1, [x13]
	stur	x14, [x29, #-128]
	stp	q2, q0, [x23, #112]
	str	q1, [x23, #96]
	ldp	q2, q0, [x11, #16]
	ldr	x14, [x11, #48]
	ldr	q1, [x11]
	str	x14, [x13, #48]
	stp	q2, q0, [x13, #16]
	str	q1, [x13]
	ldp	q2, q0, [x23, #112]
	ldur	x14, [x29, #-128]
	ldr	q1, [x23, #96]
	str	x14, [x11, #48]
	stp	q2, q0, [x11, #16]
	str	q1, [x11]
.LBB37_64:
	add	x9, x9, #1
	add	x13, x13, #56
	sub	x11, x11, #56
	cmp	x10, x9
	sub	x12, x12, #1
	b.eq	.LBB37_68
.LBB37_65:
	cmp	x9, x12
	b.lo	.LBB37_63
	cmp	x12, x9
	b.hs	.LBB37_64
	ldp	q2, q0, [x11, #16]
	ldr	x14, [x11, #48]
	ldr	q1, [x11]
	stur	x14, [x29, #-128]
	stp	q2, q0, [x23, #112]
	str	q1, [x23, #96]
	ldp	q2, q0, [x13, #16]
	ldr	x14, [x13, #48]
	ldr	q1, [x13]
	str	x14, [x11, #48]
	stp	q2, q0, [x11, #16]
	str	q1, [x11]
	ldp	q2, q0, [x23, #112]
	ldur	x14, [x29, #-128]
	ldr	q1, [x23, #96]
	str	x14, [x13, #48]
	stp	q2, q0, [x13, #16]
	str	q1, [x13]
	b	.LBB37_64
.LBB37_68:
	mov	w5, #1
	mov	x4, x8
.LBB37_69:
	mov	x3, xzr
	mov	w6, wzr
	add	x8, sp, #56
	add	x0, sp, #128
	mov	x1, x20
	mov	x2, x21
	stp	x19, x8, [sp]
	bl	"core::slice::sort::runs::climb::<#9d6850f96084634e>"
	ldrb	w8, [sp, #136]
	tbnz	w8, #0, .LBB37_72
	ldr	x1, [sp, #128]
	mov	w9, #126
	add	x4, sp, #56
	mov	x0, x20
	clz	x8, x1
	mov	x2, x1
	sub	w3, w9, w8, lsl #1
.LBB37_71:
	bl	"core::slice::sort::stable::quicksort::<#9d6850f96084634e>"
.LBB37_72:
	mov	x0, x22
	bl	rattle_dealloc
	cmp	x21, #15
	b.ls	.LBB37_15
.LBB37_73:
	lsr	x2, x21, #1
	mov	w9, #56
	mov	x0, x20
	sub	x8, x21, x2
	madd	x1, x8, x9, x20
	bl	"core::slice::edits::mirror::<24'(,)::<#8af3e1b4e9e21b57>>"
	b	.LBB37_87
.LBB37_74:
	b.eq	.LBB37_76
	mov	w10, #56
	madd	x9, x9, x10, x20
	ldp	q2, q0, [x9, #16]
	ldr	x10, [x9, #48]
	ldr	q1, [x9]
	stur	x10, [x29, #-128]
	ldr	x10, [x20, #272]
	stp	q2, q0, [x23, #112]
	ldp	q2, q0, [x20, #240]
	str	q1, [x23, #96]
	ldr	q1, [x20, #224]
	str	x10, [x9, #48]
	stp	q2, q0, [x9, #16]
	str	q1, [x9]
	ldp	q0, q1, [x23, #96]
	ldr	q2, [x23, #128]
	ldur	x9, [x29, #-128]
	str	q2, [x20, #256]
	stp	q0, q1, [x20, #224]
	str	x9, [x20, #272]
.LBB37_76:
	cmp	x8, #4
	b.eq	.LBB37_86
	sub	x9, x21, #6
	cmp	x9, #5
	b.ls	.LBB37_79
	mov	w11, #56
	add	x10, x20, #280
	ldr	x12, [x20, #328]
	madd	x9, x9, x11, x20
	ldp	q0, q1, [x10]
	ldr	q2, [x10, #32]
	stur	x12, [x29, #-128]
	stp	q0, q1, [x23, #96]
	str	q2, [x23, #128]
	ldp	q3, q4, [x9]
	ldr	x11, [x9, #48]
	ldr	q5, [x9, #32]
	str	x11, [x20, #328]
	stp	q3, q4, [x10]
	str	q5, [x10, #32]
	stp	q1, q2, [x9, #16]
	str	x12, [x9, #48]
	str	q0, [x9]
	b	.LBB37_81
.LBB37_79:
	b.eq	.LBB37_81
	mov	w10, #56
	ldr	x11, [x20, #328]
	madd	x9, x9, x10, x20
	ldr	x10, [x9, #48]
	ldp	q2, q0, [x9, #16]
	ldr	q1, [x9]
	stur	x10, [x29, #-128]
	add	x10, x20, #280
	stp	q2, q0, [x23, #112]
	ldp	q2, q0, [x10, #16]
	str	q1, [x23, #96]
	ldr	q1, [x10]
	str	x11, [x9, #48]
	stp	q2, q0, [x9, #16]
	str	q1, [x9]
	ldp	q0, q1, [x23, #96]
	ldr	q2, [x23, #128]
	ldur	x9, [x29, #-128]
	str	q2, [x10, #32]
	stp	q0, q1, [x10]
	str	x9, [x20, #328]
.LBB37_81:
	cmp	x8, #5
	b.eq	.LBB37_86
	sub	x8, x21, #7
	cmp	x8, #6
	b.ls	.LBB37_84
	mov	w9, #56
	ldp	q0, q1, [x20, #336]
	madd	x8, x8, x9, x20
	ldr	q2, [x20, #368]
	ldr	x9, [x20, #384]
	stp	q0, q1, [x23, #96]
	str	q2, [x23, #128]
	stur	x9, [x29, #-128]
	ldp	q3, q4, [x8]
	ldr	x10, [x8, #48]
	ldr	q5, [x8, #32]
	str	x10, [x20, #384]
	stp	q3, q4, [x20, #336]
	str	q5, [x20, #368]
	stp	q1, q2, [x8, #16]
	str	x9, [x8, #48]
	str	q0, [x8]
	b	.LBB37_86
.LBB37_84:
	b.eq	.LBB37_86
	mov	w9, #56
	madd	x8, x8, x9, x20
	ldp	q2, q0, [x8, #16]
	ldr	x9, [x8, #48]
	ldr	q1, [x8]
	stur	x9, [x29, #-128]
	ldr	x9, [x20, #384]
	stp	q2, q0, [x23, #112]
	ldp	q2, q0, [x20, #352]
	str	q1, [x23, #96]
	ldr	q1, [x20, #336]
	str	x9, [x8, #48]
	stp	q2, q0, [x8, #16]
	str	q1, [x8]
	ldp	q0, q1, [x23, #96]
	ldr	q2, [x23, #128]
	ldur	x8, [x29, #-128]
	str	q2, [x20, #368]
	stp	q0, q1, [x20, #336]
	str	x8, [x20, #384]
.LBB37_86:
	cbz	x21, .LBB37_100
.LBB37_87:
	sub	x8, x29, #24
	cmp	x21, #16
	stp	x8, xzr, [sp, #56]
	stp	xzr, x8, [sp, #72]
	stp	x8, xzr, [sp, #88]
	stp	xzr, x8, [sp, #104]
	b.lo	.LBB37_103
	cmp	x21, #256
	b.lo	.LBB37_104
	cmp	x21, #1, lsl #12
	b.lo	.LBB37_105
	cmp	x21, #16, lsl #12
	b.lo	.LBB37_106
	cmp	x21, #256, lsl #12
	b.lo	.LBB37_107
	lsr	x8, x21, #24
	cbz	x8, .LBB37_108
	lsr	x8, x21, #28
	cbz	x8, .LBB37_109
	lsr	x8, x21, #32
	cbz	x8, .LBB37_110
	lsr	x8, x21, #36
	cbz	x8, .LBB37_111
	lsr	x8, x21, #40
	cbz	x8, .LBB37_112
	lsr	x8, x21, #44
	cbz	x8, .LBB37_113
	lsr	x8, x21, #48
	cbnz	x8, .LBB37_238
	mov	w19, #11
	b	.LBB37_114
.LBB37_100:
	cbz	x13, .LBB37_102
	mov	x0, x20
	bl	rattle_dealloc
.LBB37_102:
	mov	x8, xzr
	mov	x20, xzr
	mov	x21, xzr
	b	.LBB37_236
.LBB37_103:
	mov	x19, xzr
	b	.LBB37_114
.LBB37_104:
	mov	w19, #1
	b	.LBB37_114
.LBB37_105:
	mov	w19, #2
	b	.LBB37_114
.LBB37_106:
	mov	w19, #3
	b	.LBB37_114
.LBB37_107:
	mov	w19, #4
	b	.LBB37_114
.LBB37_108:
	mov	w19, #5
	b	.LBB37_114
.LBB37_109:
	mov	w19, #6
	b	.LBB37_114
.LBB37_110:
	mov	w19, #7
	b	.LBB37_114
.LBB37_111:
	mov	w19, #8
	b	.LBB37_114
.LBB37_112:
	mov	w19, #9
	b	.LBB37_114
.LBB37_113:
	mov	w19, #10
.LBB37_114:
	lsr	x27, x21, #4
	add	x0, sp, #56
	add	x1, x27, #1
	add	x23, x27, #1
	bl	"std_alloc::vec::Vec::grow_amortized::<#6fdb356ad8f82b1c>"
	cbz	w0, .LBB37_238
	ldr	x26, [sp, #64]
	adrp	x25, .LCPI37_0
	cmp	x26, x27
	b.hi	.LBB37_120
	add	x8, x26, x26, lsl #2
	ldr	x22, [sp, #56]
	add	x27, x27, #1
	lsl	x24, x8, #4
.LBB37_117:
	mov	w0, #848
	mov	w1, #8
	bl	rattle_alloc
	tbz	w0, #0, .LBB37_239
	add	x8, x1, #8
	add	x9, x22, x24
	strh	wzr, [x1, #2]
	ldr	q0, [x25, :lo12:.LCPI37_0]
	str	x8, [x9]
	add	x8, x1, #368
	add	x26, x26, #1
	str	x8, [x9, #24]
	add	x8, x1, #848
	cmp	x27, x26
	add	x24, x24, #80
	stur	q0, [x9, #8]
	str	q0, [x9, #32]
	stp	xzr, xzr, [x9, #56]
	str	x8, [x9, #48]
	str	x1, [x9, #72]
	b.ne	.LBB37_117
	str	x23, [sp, #64]
.LBB37_120:
	ldr	x9, [sp, #48]
	cmp	x21, #16
	b.lo	.LBB37_127
	mov	x8, #-8608480567731124088
	movk	x8, #34953
	umulh	x8, x21, x8
	lsr	x23, x8, #7
	ldp	x22, x8, [sp, #96]
	add	x24, x19, x23
	sub	x8, x8, x22
	cmp	x24, x8
	b.hs	.LBB37_258
	cmp	x22, x24
	b.hi	.LBB37_127
.LBB37_123:
	mov	w8, #80
	ldr	x9, [sp, #88]
	madd	x8, x22, x8, x9
	add	x9, x19, x23
	add	x19, x24, #1
	add	x23, x9, #1
	add	x24, x8, #72
.LBB37_124:
	mov	w0, #976
	mov	w1, #8
	bl	rattle_alloc
	tbz	w0, #0, .LBB37_237
	mov	w8, #1
	ldr	q0, [x25, :lo12:.LCPI37_0]
	add	x9, x1, #8
	strh	w8, [x1, #2]
	add	x8, x1, #368
	add	x22, x22, #1
	stur	x8, [x24, #-48]
	adrp	x8, .LCPI37_1
	cmp	x23, x22
	stur	q0, [x24, #-64]
	stur	q0, [x24, #-40]
	ldr	q0, [x8, :lo12:.LCPI37_1]
	stur	x9, [x24, #-72]
	add	x9, x1, #848
	stur	x9, [x24, #-24]
	stur	q0, [x24, #-16]
	str	x1, [x24], #80
	b.ne	.LBB37_124
	ldr	x9, [sp, #48]
	str	x19, [sp, #96]
.LBB37_127:
	ldur	q0, [sp, #56]
	ldur	q1, [sp, #72]
	stp	x20, x21, [sp, #200]
	str	x9, [sp, #216]
	add	x9, sp, #224
	stp	q0, q1, [sp, #128]
	movi	v0.2d, #0000000000000000
	ldur	q1, [sp, #104]
	ldp	x21, x8, [sp, #128]
	stur	xzr, [x29, #-128]
	sub	x19, x8, #1
	mov	w8, #80
	stp	q0, q0, [x9, #112]
	madd	x8, x19, x8, x21
	str	q0, [x9, #96]
	ldur	q0, [sp, #88]
	str	x19, [sp, #136]
	stp	q0, q1, [sp, #160]
	ldr	x22, [x8, #8]
	ldr	x20, [x8, #72]
	cmp	x22, #15
	b.hs	.LBB37_132
	mov	w9, #24
	ldp	x10, x11, [x8, #24]
	ldr	x8, [x8]
	madd	x23, x22, x9, x8
	add	x26, sp, #224
	sub	x24, x29, #176
	add	x8, x10, x11, lsl #5
	add	x25, x8, #2
.LBB37_129:
	ldr	x8, [sp, #208]
	cbz	x8, .LBB37_136
	sub	x0, x29, #176
	add	x1, sp, #200
	bl	"std_collections::btree::build::pop_distinct::<#920bafd588459e79>"
	ldr	q0, [x26, #96]
	ldur	w8, [x29, #-152]
	add	x22, x22, #1
	cmp	x22, #15
	str	q0, [x23]
	ldur	x9, [x29, #-160]
	str	x9, [x23, #16]
	add	x23, x23, #24
	stur	w8, [x25, #-2]
	ldur	q0, [x24, #28]
	stur	q0, [x25, #2]
	ldur	q0, [x24, #40]
	stur	q0, [x25, #14]
	add	x25, x25, #32
	b.ne	.LBB37_129
	ldr	x8, [sp, #208]
	mov	w9, #15
	strh	w9, [x20]
	cbnz	x8, .LBB37_133
	b	.LBB37_135
.LBB37_132:
	strh	w22, [x20]
.LBB37_133:
	add	x1, sp, #200
	add	x2, sp, #128
	mov	x0, x20
	bl	"std_collections::btree::node::Node::fill_above::<#7c362c450315e67d>"
	ldr	x8, [sp, #208]
	mov	x20, x0
	cbnz	x8, .LBB37_133
	ldp	x21, x19, [sp, #128]
.LBB37_135:
	ldp	x22, x24, [sp, #160]
	ldr	x25, [sp, #144]
	ldr	x23, [sp, #176]
	str	x20, [sp, #120]
	cbnz	x19, .LBB37_137
	b	.LBB37_139
.LBB37_136:
	strh	w22, [x20]
	ldp	x22, x24, [sp, #160]
	ldr	x25, [sp, #144]
	ldr	x23, [sp, #176]
	str	x20, [sp, #120]
	cbz	x19, .LBB37_139
.LBB37_137:
	mov	w8, #80
	madd	x8, x19, x8, x21
	sub	x26, x8, #8
.LBB37_138:
	ldr	x0, [x26], #-80
	sub	x19, x19, #1
	bl	rattle_dealloc
	cbnz	x19, .LBB37_138
.LBB37_139:
	cbz	x25, .LBB37_141
	mov	x0, x21
	bl	rattle_dealloc
.LBB37_141:
	cbz	x24, .LBB37_144
	mov	w8, #80
	madd	x8, x24, x8, x22
	sub	x19, x8, #8
.LBB37_143:
	ldr	x0, [x19], #-80
	sub	x24, x24, #1
	bl	rattle_dealloc
	cbnz	x24, .LBB37_143
.LBB37_144:
	cbz	x23, .LBB37_146
	mov	x0, x22
	bl	rattle_dealloc
.LBB37_146:
	ldrh	w8, [x20, #2]
	cbz	w8, .LBB37_225
	add	x23, sp, #224
.LBB37_148:
	ldrh	w26, [x20]
	cbnz	w26, .LBB37_151
	ldr	x19, [x20, #848]
	mov	x0, x20
	bl	rattle_dealloc
	ldrh	w8, [x19, #2]
	mov	x20, x19
	str	x19, [sp, #120]
	cbnz	w8, .LBB37_148
	mov	x20, x19
	b	.LBB37_225
.LBB37_151:
	add	x8, sp, #120
	str	x8, [sp, #48]
	b	.LBB37_153
.LBB37_152:
	ldrh	w8, [x9, #2]
	mov	w26, w10
	mov	x20, x9
	str	x24, [sp, #48]
	cbz	w8, .LBB37_224
.LBB37_153:
	add	x8, x20, #848
	add	x24, x8, w26, uxtw #3
	ldr	x9, [x24]
	ldrh	w10, [x9]
	cmp	w10, #7
	b.hi	.LBB37_152
	mov	w25, w26
	b	.LBB37_158
.LBB37_155:
	add	x1, x20, #848
	bl	memmove
.LBB37_156:
	mov	x0, x20
	bl	rattle_dealloc
	ldr	x8, [sp, #40]
	strh	w26, [x25]
	str	x25, [x8, x22, lsl #3]
	ldur	x8, [x29, #-168]
	ldur	x20, [x29, #-104]
	strh	w8, [x20]
.LBB37_157:
	ldr	x8, [sp, #48]
	str	x20, [x8]
	add	x8, x20, #848
	ldrh	w25, [x20]
	add	x24, x8, w25, uxtw #3
	mov	w26, w25
	ldr	x9, [x24]
	ldrh	w10, [x9]
	cmp	w10, #8
	b.hs	.LBB37_152
.LBB37_158:
	ldrh	w12, [x20, #2]
	mov	w13, #15
	add	x9, x20, #368
	stp	x13, x9, [x29, #-160]
	add	x11, x20, #8
	sub	x22, x25, #1
	stp	x25, x13, [x29, #-144]
	cmp	w12, #0
	mov	w13, #16
	csinc	x12, xzr, x25, eq
	csel	x13, xzr, x13, eq
	stp	x11, x25, [x29, #-176]
	stp	x8, x12, [x29, #-128]
	stp	x13, x20, [x29, #-112]
	ldr	x12, [x8, x22, lsl #3]
	ldrh	w13, [x12]
	add	x10, x13, w10, uxtw
	cmp	x10, #14
	b.hi	.LBB37_166
	add	x0, sp, #224
	sub	x1, x29, #176
	sub	x2, x25, #1
	stp	xzr, xzr, [sp, #224]
	str	xzr, [sp, #240]
	bl	"std_alloc::vec::Vec::remove::<#5ea93b9ddeb8aab1>"
	ldp	x9, x10, [x29, #-152]
	lsl	x12, x22, #5
	add	x8, x9, x12
	sub	x11, x10, x25
	ldur	q0, [x8, #4]
	ldrb	w26, [x8]
	ldr	q1, [x8, #16]
	ldrb	w28, [x8, #1]
	ldrh	w18, [x8, #2]
	sub	x8, x10, #1
	str	q0, [x23, #208]
	stur	q1, [x23, #220]
	cbz	x25, .LBB37_168
	cmp	x11, #65
	sub	x13, x25, #1
	b.lo	.LBB37_183
	add	x14, x9, x25, lsl #5
	sub	x15, x11, #64
	sub	x13, x25, #1
	b	.LBB37_163
.LBB37_162:
	add	x13, x13, #64
	add	x14, x14, #2048
	sub	x15, x12, #64
	sub	x11, x8, x13
	cmp	x11, #64
	b.ls	.LBB37_181
.LBB37_163:
	cmn	x13, #1
	mov	x12, x15
	mov	x11, xzr
	b.eq	.LBB37_165
.LBB37_164:
	add	x15, x14, x11
	add	x11, x11, #32
	ldr	w16, [x15]
	ldur	q0, [x15, #4]
	ldr	q1, [x15, #16]
	cmp	x11, #2048
	stur	w16, [x15, #-32]
	stur	q0, [x15, #-28]
	stur	q1, [x15, #-16]
	b.ne	.LBB37_164
	b	.LBB37_162
.LBB37_165:
	add	x15, x14, x11
	sub	x11, x11, #32
	ldr	w16, [x15, #2016]
	add	x17, x15, #2020
	ldr	q0, [x15, #2032]
	ldr	q1, [x17]
	cmn	x11, #2048
	str	w16, [x15, #1984]
	add	x16, x15, #1988
	str	q0, [x15, #2000]
	str	q1, [x16]
	b.ne	.LBB37_165
	b	.LBB37_162
.LBB37_166:
	mov	w10, #24
	ldrh	w16, [x12, #2]
	umaddl	x10, w13, w10, x12
	ldur	q0, [x10, #-16]
	ldr	x10, [x10]
	str	q0, [x23, #176]
	stur	x10, [x29, #-80]
	cbz	w16, .LBB37_171
	add	x10, x12, x13, lsl #3
	ldr	x10, [x10, #848]
	str	x10, [sp, #40]
	b	.LBB37_172
.LBB37_168:
	cbz	x10, .LBB37_189
	add	x10, x9, x10, lsl #5
	lsl	x9, x25, #5
	sub	x10, x10, #32
.LBB37_170:
	ldr	w12, [x10]
	add	x13, x10, x9
	ldur	q0, [x10, #4]
	ldur	x14, [x10, #20]
	sub	x11, x11, #1
	stur	w12, [x13, #-32]
	ldr	w12, [x10, #28]
	sub	x10, x10, #32
	stur	q0, [x13, #-28]
	stur	x14, [x13, #-12]
	stur	w12, [x13, #-4]
	cbnz	x11, .LBB37_170
	b	.LBB37_189
.LBB37_171:
	str	xzr, [sp, #40]
.LBB37_172:
	sub	x10, x13, #1
	mov	w14, #24
	add	x9, x9, x22, lsl #5
	add	x13, x12, x10, lsl #5
	madd	x11, x22, x14, x11
	strh	w10, [x12]
	add	x19, sp, #224
	add	x15, x13, #368
	ldrb	w10, [x13, #368]
	ldrb	w14, [x13, #369]
	ldur	q0, [x15, #4]
	ldr	q1, [x15, #16]
	ldrh	w13, [x13, #370]
	str	q0, [x23, #64]
	stur	q1, [x23, #76]
	str	x12, [x8, x22, lsl #3]
	ldr	x8, [x11, #16]
	ldr	q0, [x11]
	ldr	q1, [x23, #176]
	ldur	x12, [x29, #-80]
	stur	x8, [x29, #-224]
	str	q0, [x23, #32]
	ldr	q0, [x9, #16]
	str	q1, [x11]
	ldur	q1, [x9, #4]
	ldrb	w28, [x9]
	str	x12, [x11, #16]
	ldrb	w18, [x9, #1]
	ldrh	w27, [x9, #2]
	stur	q0, [x23, #12]
	str	q1, [x23]
	strb	w10, [x9]
	strb	w14, [x9, #1]
	strh	w13, [x9, #2]
	ldur	q0, [x23, #76]
	ldr	q1, [x23, #64]
	str	q0, [x9, #16]
	stur	q1, [x9, #4]
	ldr	x21, [x24]
	ldrh	w0, [x21]
	ldrh	w25, [x21, #2]
	cbz	x0, .LBB37_175
	add	x8, x0, x0, lsl #1
	str	x0, [sp, #32]
	add	x0, x21, #32
	add	x1, x21, #8
	mov	w22, w16
	mov	x23, x20
	lsl	x2, x8, #3
	mov	x20, x24
	mov	w24, w26
	mov	w26, w18
	bl	memmove
	ldr	x0, [sp, #32]
	ldr	q0, [x19, #32]
	mov	w18, w26
	ldur	x9, [x29, #-224]
	ldr	q1, [x19]
	mov	w26, w24
	stur	q0, [x21, #8]
	ldur	q0, [x19, #12]
	mov	x24, x20
	stur	x9, [x21, #24]
	lsl	x9, x0, #5
	mov	x20, x23
	mov	w16, w22
	mov	x8, xzr
	mov	x10, x21
	str	q1, [x19, #208]
	stur	q0, [x19, #220]
.LBB37_174:
	add	x11, x10, x9
	add	x8, x8, #32
	sub	x10, x10, #32
	ldr	w12, [x11, #336]
	add	x13, x11, #340
	ldr	q0, [x11, #352]
	ldr	q1, [x13]
	cmp	x9, x8
	str	w12, [x11, #368]
	add	x12, x11, #372
	str	q0, [x11, #384]
	str	q1, [x12]
	b.ne	.LBB37_174
	b	.LBB37_176
.LBB37_175:
	ldr	q0, [x19, #32]
	ldur	x8, [x29, #-224]
	ldr	q1, [x19]
	stur	q0, [x21, #8]
	ldur	q0, [x19, #12]
	stur	x8, [x21, #24]
	str	q1, [x19, #208]
	stur	q0, [x19, #220]
.LBB37_176:
	add	x8, sp, #224
	add	x22, x0, #1
	strb	w28, [x21, #368]
	ldur	q0, [x8, #220]
	ldr	q1, [x8, #208]
	add	x8, x21, #372
	strb	w18, [x21, #369]
	strh	w27, [x21, #370]
	str	q0, [x21, #384]
	str	q1, [x8]
	cbz	w16, .LBB37_180
	add	x23, x21, #848
	cbz	w25, .LBB37_179
	lsl	x2, x22, #3
	add	x0, x21, #856
	add	x1, x21, #848
	bl	memmove
.LBB37_179:
	ldr	x8, [sp, #40]
	str	x8, [x23]
.LBB37_180:
	add	x23, sp, #224
	strh	w22, [x21]
	str	x21, [x24]
	strh	w26, [x20]
	b	.LBB37_157
.LBB37_181:
	cmn	x13, #1
	b.eq	.LBB37_186
	lsl	x12, x13, #5
.LBB37_183:
	cmp	x8, x13
	b.eq	.LBB37_189
	add	x9, x9, x12
	add	x9, x9, #32
.LBB37_185:
	ldr	w10, [x9]
	ldur	q0, [x9, #4]
	subs	x11, x11, #1
	ldr	q1, [x9, #16]
	stur	w10, [x9, #-32]
	stur	q0, [x9, #-28]
	stur	q1, [x9, #-16]
	add	x9, x9, #32
	b.ne	.LBB37_185
	b	.LBB37_189
.LBB37_186:
	cbz	x10, .LBB37_189
	add	x9, x9, x10, lsl #5
	sub	x9, x9, #32
.LBB37_188:
	ldr	w10, [x9]
	subs	x12, x12, #1
	str	w10, [x9, #-32]!
	ldur	q0, [x9, #36]
	ldr	q1, [x9, #48]
	stur	q0, [x9, #4]
	str	q1, [x9, #16]
	b.ne	.LBB37_188
.LBB37_189:
	ldp	x21, x9, [x29, #-128]
	lsl	x10, x25, #3
	stur	x8, [x29, #-144]
	ldr	q0, [x23, #208]
	ldur	q1, [x23, #220]
	sub	x19, x9, #1
	ldr	x20, [x21, x10]
	str	q0, [x23, #64]
	sub	x14, x19, x25
	stur	q1, [x23, #76]
	cmp	x14, #257
	b.lo	.LBB37_199
	add	x11, x21, x25, lsl #3
	sub	x10, x9, x25
	mov	x8, xzr
	sub	x15, x10, #257
	add	x12, x11, #2048
	add	x13, x11, #16
	b	.LBB37_192
.LBB37_191:
	add	x25, x25, #256
	add	x8, x8, #1
	add	x13, x13, #2048
	sub	x14, x19, x25
	add	x11, x11, #2048
	sub	x15, x10, #256
	cmp	x14, #256
	b.ls	.LBB37_197
.LBB37_192:
	cmn	x25, #1
	mov	x10, x15
	b.eq	.LBB37_195
	mov	w14, #256
	mov	x15, x13
.LBB37_194:
	ldur	q0, [x15, #-8]
	ldur	q1, [x15, #8]
	subs	x14, x14, #4
	stp	q0, q1, [x15, #-16]
	add	x15, x15, #32
	b.ne	.LBB37_194
	b	.LBB37_191
.LBB37_195:
	lsl	x14, x8, #11
	mov	w15, #2040
	ldr	x14, [x12, x14]
.LBB37_196:
	str	x14, [x11, x15]
	sub	x15, x15, #8
	cmn	x15, #8
	b.ne	.LBB37_196
	b	.LBB37_191
.LBB37_197:
	cmn	x25, #1
	b.eq	.LBB37_201
	lsl	x10, x25, #3
.LBB37_199:
	cmp	x19, x25
	b.eq	.LBB37_204
	lsl	x2, x14, #3
	add	x0, x21, x10
	mov	w24, w18
	add	x1, x0, #8
	bl	memmove
	mov	w18, w24
	b	.LBB37_204
.LBB37_201:
	cbz	x9, .LBB37_204
	add	x9, x21, x9, lsl #3
	ldur	x8, [x9, #-8]
	sub	x9, x9, #16
.LBB37_203:
	subs	x10, x10, #1
	str	x8, [x9], #-8
	b.ne	.LBB37_203
.LBB37_204:
	stur	x19, [x29, #-120]
	ldur	q0, [x23, #76]
	mov	w10, #24
	ldr	x25, [x21, x22, lsl #3]
	str	x21, [sp, #40]
	ldrh	w19, [x20]
	ldrh	w21, [x20, #2]
	ldr	x11, [sp, #240]
	ldrh	w24, [x25]
	add	x27, x25, #368
	add	x8, x25, #8
	ldrh	w12, [x25, #2]
	add	x9, x27, x24, lsl #5
	umaddl	x10, w24, w10, x8
	str	q0, [x9, #16]
	ldr	q0, [x23]
	strb	w26, [x9]
	add	x26, x24, #1
	str	q0, [x10]
	ldr	q0, [x23, #64]
	strb	w28, [x9, #1]
	add	x28, x24, #1
	strh	w18, [x9, #2]
	str	x11, [x10, #16]
	stur	q0, [x9, #4]
	cbz	w19, .LBB37_214
	mov	w9, #24
	str	w12, [sp, #32]
	umaddl	x0, w28, w9, x8
	add	x9, x19, x19, lsl #1
	add	x8, x20, #8
	lsl	x2, x9, #3
	sub	x9, x0, x8
	cmp	x9, x2
	b.hs	.LBB37_211
	mov	x9, x19
.LBB37_207:
	ldr	x10, [x8, #16]
	ldr	q0, [x8], #24
	subs	x9, x9, #1
	str	x10, [x0, #16]
	str	q0, [x0], #24
	b.ne	.LBB37_207
	add	x0, x27, x28, lsl #5
	add	x8, x20, #368
	lsl	x2, x19, #5
	sub	x8, x0, x8
	cmp	x8, x2
	b.hs	.LBB37_212
.LBB37_209:
	add	x9, x25, x24, lsl #5
	mov	x8, xzr
	mov	x10, x19
.LBB37_210:
	add	x11, x20, x8
	subs	x10, x10, #1
	add	x12, x11, #372
	ldr	q0, [x11, #384]
	ldr	w11, [x11, #368]
	ldr	q1, [x12]
	add	x12, x9, x8
	add	x8, x8, #32
	stur	q0, [x23, #220]
	add	x13, x12, #404
	str	q1, [x23, #208]
	ldr	q0, [x23, #208]
	str	w11, [x12, #400]
	str	q0, [x13]
	ldur	q0, [x23, #220]
	str	q0, [x12, #416]
	b.ne	.LBB37_210
	b	.LBB37_213
.LBB37_211:
	add	x1, x20, #8
	bl	memmove
	add	x0, x27, x28, lsl #5
	add	x8, x20, #368
	lsl	x2, x19, #5
	sub	x8, x0, x8
	cmp	x8, x2
	b.lo	.LBB37_209
.LBB37_212:
	add	x1, x20, #368
	bl	memmove
.LBB37_213:
	ldr	w12, [sp, #32]
	add	x26, x28, x19
.LBB37_214:
	cbz	w21, .LBB37_156
	lsl	x8, x28, #3
	cmp	w12, #0
	add	x9, x25, #848
	lsl	x10, x19, #3
	add	x11, x20, #848
	csel	x8, xzr, x8, eq
	add	x0, x9, x8
	add	x2, x10, #8
	sub	x9, x0, x11
	cmp	x9, x2
	b.hs	.LBB37_155
	cmp	w19, #3
	b.lo	.LBB37_218
	add	x9, x8, x25
	sub	x9, x9, x20
	cmp	x9, #32
	b.hs	.LBB37_221
.LBB37_218:
	mov	x9, xzr
.LBB37_219:
	lsl	x10, x9, #3
	add	x8, x25, x8
	sub	x9, x19, x9
	add	x11, x20, x10
	add	x10, x8, x10
	add	x8, x9, #1
	add	x9, x11, #848
	add	x10, x10, #848
.LBB37_220:
	ldr	x11, [x9], #8
	subs	x8, x8, #1
	str	x11, [x10], #8
	b.ne	.LBB37_220
	b	.LBB37_156
.LBB37_221:
	add	x10, x19, #1
	add	x12, x25, x8
	add	x11, x20, #864
	and	x9, x10, #0x1fffc
	add	x12, x12, #864
	and	x13, x10, #0x1fffc
.LBB37_222:
	ldp	q0, q1, [x11, #-16]
	subs	x13, x13, #4
	add	x11, x11, #32
	stp	q0, q1, [x12, #-16]
	add	x12, x12, #32
	b.ne	.LBB37_222
	cmp	x10, x9
	b.eq	.LBB37_156
	b	.LBB37_219
.LBB37_224:
	ldr	x20, [sp, #120]
.LBB37_225:
	ldrh	w8, [x20]
	cbnz	w8, .LBB37_228
	ldrh	w8, [x20, #2]
	cbz	w8, .LBB37_228
	ldr	x19, [x20, #848]
	mov	x0, x20
	bl	rattle_dealloc
	mov	x20, x19
	str	x19, [sp, #120]
.LBB37_228:
	add	x0, sp, #120
	bl	"std_collections::btree::node::Node::count::<#d78cde125532770c>"
	ldp	x22, x19, [sp, #200]
	mov	x21, x0
	ldr	x8, [sp, #216]
	add	x23, sp, #224
	str	x8, [sp, #48]
	cbz	x19, .LBB37_233
	sub	x8, x29, #176
	add	x25, x22, #28
	orr	x24, x8, #0x4
	b	.LBB37_231
.LBB37_230:
	add	x23, sp, #224
	sub	x0, x29, #176
	sturb	w26, [x29, #-176]
	ldr	q0, [x23, #208]
	ldur	q1, [x23, #220]
	sturb	w28, [x29, #-175]
	sturh	w27, [x29, #-174]
	str	q0, [x24]
	stur	q1, [x24, #12]
	bl	"amqp_value_core::amqp_value_core++value++AMQPValue+Destruct::drop"
	subs	x19, x19, #1
	add	x25, x25, #56
	b.eq	.LBB37_233
.LBB37_231:
	ldur	x0, [x25, #-28]
	ldr	q0, [x25]
	ldur	x8, [x25, #-12]
	ldurb	w26, [x25, #-4]
	ldur	q1, [x25, #12]
	ldurb	w28, [x25, #-3]
	ldurh	w27, [x25, #-2]
	str	q0, [x23, #208]
	stur	q1, [x23, #220]
	cbz	x8, .LBB37_230
	bl	rattle_dealloc
	b	.LBB37_230
.LBB37_233:
	ldr	x8, [sp, #48]
	cbz	x8, .LBB37_235
	mov	x0, x22
	bl	rattle_dealloc
.LBB37_235:
	mov	w8, #1
.LBB37_236:
	ldr	x9, [sp, #24]
	strb	wzr, [x9]
	stp	x8, x20, [x9, #8]
	str	x21, [x9, #24]
	b	.LBB37_257
.LBB37_237:
	str	x22, [sp, #96]
.LBB37_238:
	ldp	x22, x26, [sp, #56]
.LBB37_239:
	ldp	x23, x24, [sp, #88]
	ldr	x25, [sp, #72]
	ldr	x19, [sp, #104]
	cbz	x26, .LBB37_242
	mov	w8, #80
	madd	x8, x26, x8, x22
	sub	x27, x8, #8
.LBB37_241:
	ldr	x0, [x27], #-80
	sub	x26, x26, #1
	bl	rattle_dealloc
	cbnz	x26, .LBB37_241
.LBB37_242:
	cbz	x25, .LBB37_244
	mov	x0, x22
	bl	rattle_dealloc
.LBB37_244:
	cbz	x24, .LBB37_247
	mov	w8, #80
	madd	x8, x24, x8, x23
	sub	x22, x8, #8
.LBB37_246:
	ldr	x0, [x22], #-80
	sub	x24, x24, #1
	bl	rattle_dealloc
	cbnz	x24, .LBB37_246
.LBB37_247:
	cbz	x19, .LBB37_249
	mov	x0, x23
	bl	rattle_dealloc
.LBB37_249:
	sub	x8, x29, #176
	add	x22, x20, #28
	orr	x19, x8, #0x4
	b	.LBB37_251
.LBB37_250:
	ldr	q0, [sp, #128]
	ldur	q1, [sp, #140]
	sub	x0, x29, #176
	sturb	w24, [x29, #-176]
	add	x22, x22, #56
	sturb	w25, [x29, #-175]
	sturh	w23, [x29, #-174]
	str	q0, [x19]
	stur	q1, [x19, #12]
	bl	"amqp_value_core::amqp_value_core++value++AMQPValue+Destruct::drop"
	subs	x21, x21, #1
	b.eq	.LBB37_253
.LBB37_251:
	ldur	x0, [x22, #-28]
	ldur	q0, [x22, #12]
	ldur	x8, [x22, #-12]
	ldurb	w24, [x22, #-4]
	ldr	q1, [x22]
	ldurb	w25, [x22, #-3]
	ldurh	w23, [x22, #-2]
	stur	q0, [sp, #140]
	str	q1, [sp, #128]
	cbz	x8, .LBB37_250
	bl	rattle_dealloc
	b	.LBB37_250
.LBB37_253:
	ldr	x8, [sp, #48]
	cbz	x8, .LBB37_255
.LBB37_254:
	mov	x0, x20
	bl	rattle_dealloc
.LBB37_255:
	ldr	x19, [sp, #24]
.LBB37_256:
	mov	w8, #1
	stp	xzr, xzr, [x19, #16]
	strb	w8, [x19]
	str	xzr, [x19, #8]
.LBB37_257:
	add	sp, sp, #496
	ldp	x20, x19, [sp, #80]
	ldp	x22, x21, [sp, #64]
	ldp	x24, x23, [sp, #48]
	ldp	x26, x25, [sp, #32]
	ldp	x28, x27, [sp, #16]
	ldp	x29, x30, [sp], #96
	ret
.LBB37_258:
	add	x8, sp, #56
	add	x1, x24, #1
	add	x0, x8, #32
	bl	"std_alloc::vec::Vec::grow_amortized::<#6fdb356ad8f82b1c>"
	cbz	w0, .LBB37_238
	ldr	x22, [sp, #96]
	ldr	x9, [sp, #48]
	cmp	x22, x24
	b.ls	.LBB37_123
	b	.LBB37_127
.LBB37_260:
	add	x8, x26, x28
	mvn	x9, x28
	add	x23, x8, #1
	add	x19, x9, x19
	cbz	x27, .LBB37_262
	mov	x0, x21
	bl	rattle_dealloc
.LBB37_262:
	add	x8, sp, #224
	ldr	w9, [sp, #40]
	add	x0, sp, #56
	ldr	q0, [x8, #208]
	ldur	q1, [x8, #220]
	strb	w25, [sp, #56]
	strb	w20, [sp, #57]
	strh	w9, [sp, #58]
	stur	q0, [sp, #60]
	stur	q1, [sp, #72]
	bl	"amqp_value_core::amqp_value_core++value++AMQPValue+Destruct::drop"
	ldr	x8, [sp, #48]
	add	x0, sp, #128
	stp	x22, x19, [sp, #128]
	str	xzr, [sp, #160]
	stp	x8, x23, [sp, #144]
	bl	"amqp_value_core::std_alloc++vec++into_iter++IntoIter+Destruct::drop::<#c1ae60f0dd767e0f>"
	ldp	x20, x19, [x29, #-208]
	ldur	x21, [x29, #-192]
	cbz	x19, .LBB37_267
	sub	x8, x29, #176
	add	x23, x20, #28
	orr	x22, x8, #0x4
	b	.LBB37_265
.LBB37_264:
	ldr	q0, [sp, #128]
	ldur	q1, [sp, #140]
	sub	x0, x29, #176
	sturb	w24, [x29, #-176]
	sturb	w26, [x29, #-175]
	sturh	w25, [x29, #-174]
	str	q0, [x22]
	stur	q1, [x22, #12]
	bl	"amqp_value_core::amqp_value_core++value++AMQPValue+Destruct::drop"
	subs	x19, x19, #1
	add	x23, x23, #56
	b.eq	.LBB37_267
.LBB37_265:
	ldur	x0, [x23, #-28]
	ldr	q0, [x23]
	ldur	x8, [x23, #-12]
	ldurb	w24, [x23, #-4]
	ldur	q1, [x23, #12]
	ldurb	w26, [x23, #-3]
	ldurh	w25, [x23, #-2]
	str	q0, [sp, #128]
	stur	q1, [sp, #140]
	cbz	x8, .LBB37_264
	bl	rattle_dealloc
	b	.LBB37_264
.LBB37_267:
	cbnz	x21, .LBB37_254
	b	.LBB37_255
.Lfunc_end37:
	.size	"amqp_value_core::types::field_table::FieldTable::from_pairs", .Lfunc_end37-"amqp_value_core::types::field_table::FieldTable::from_pairs"

	.section	".text.amqp_value_core::std_alloc++vec++into_iter++IntoIter+Destruct::drop::<#c1ae60f0dd767e0f>","ax",@progbits
	.p2align	2
	.type	"amqp_value_core::std_alloc++vec++into_iter++IntoIter+Destruct::drop::<#c1ae60f0dd767e0f>",@function
"amqp_value_core::std_alloc++vec++into_iter++IntoIter+Destruct::drop::<#c1ae60f0dd767e0f>":
	sub	sp, sp, #160
	stp	x20, x19, [sp, #144]
	ldp	x19, x9, [x0]
	ldr	x20, [x0, #16]
	stp	x29, x30, [sp, #64]
	add	x29, sp, #64
	str	x27, [sp, #80]
	stp	x26, x25, [sp, #96]
	stp	x24, x23, [sp, #112]
	stp	x22, x21, [sp, #128]
	cbz	x9, .LBB38_11
	ldp	x8, x21, [x0, #24]
	sub	x22, x9, x21
	add	x9, x22, x8
	cmp	x8, x9
	b.hs	.LBB38_6
	mov	w9, #56
	madd	x8, x8, x9, x19
	mov	x9, sp
	orr	x23, x9, #0x4
	add	x24, x8, #28
	b	.LBB38_4
.LBB38_3:
	ldr	q0, [sp, #32]
	ldur	q1, [sp, #44]
	mov	x0, sp
	strb	w25, [sp]
	add	x24, x24, #56
	strb	w27, [sp, #1]
	strh	w26, [sp, #2]
	str	q0, [x23]
	stur	q1, [x23, #12]
	bl	"amqp_value_core::amqp_value_core++value++AMQPValue+Destruct::drop"
	subs	x22, x22, #1
	b.eq	.LBB38_6
.LBB38_4:
	ldur	x0, [x24, #-28]
	ldr	q0, [x24]
	ldur	x8, [x24, #-12]
	ldurb	w25, [x24, #-4]
	ldur	q1, [x24, #12]
	ldurb	w27, [x24, #-3]
	ldurh	w26, [x24, #-2]
	str	q0, [sp, #32]
	stur	q1, [sp, #44]
	cbz	x8, .LBB38_3
	bl	rattle_dealloc
	b	.LBB38_3
.LBB38_6:
	cbz	x21, .LBB38_11
	mov	x8, sp
	add	x23, x19, #28
	orr	x22, x8, #0x4
	b	.LBB38_9
.LBB38_8:
	ldr	q0, [sp, #32]
	ldur	q1, [sp, #44]
	mov	x0, sp
	strb	w24, [sp]
	strb	w26, [sp, #1]
	strh	w25, [sp, #2]
	str	q0, [x22]
	stur	q1, [x22, #12]
	bl	"amqp_value_core::amqp_value_core++value++AMQPValue+Destruct::drop"
	subs	x21, x21, #1
	add	x23, x23, #56
	b.eq	.LBB38_11
.LBB38_9:
	ldur	x0, [x23, #-28]
	ldr	q0, [x23]
	ldur	x8, [x23, #-12]
	ldurb	w24, [x23, #-4]
	ldur	q1, [x23, #12]
	ldurb	w26, [x23, #-3]
	ldurh	w25, [x23, #-2]
	str	q0, [sp, #32]
	stur	q1, [sp, #44]
	cbz	x8, .LBB38_8
	bl	rattle_dealloc
	b	.LBB38_8
.LBB38_11:
	cbz	x20, .LBB38_13
	mov	x0, x19
	ldp	x20, x19, [sp, #144]
	ldp	x22, x21, [sp, #128]
	ldr	x27, [sp, #80]
	ldp	x24, x23, [sp, #112]
	ldp	x26, x25, [sp, #96]
	ldp	x29, x30, [sp, #64]
	add	sp, sp, #160
	b	rattle_dealloc
.LBB38_13:
	ldp	x20, x19, [sp, #144]
	ldr	x27, [sp, #80]
	ldp	x22, x21, [sp, #128]
	ldp	x24, x23, [sp, #112]
	ldp	x26, x25, [sp, #96]
	ldp	x29, x30, [sp, #64]
	add	sp, sp, #160
	ret
.Lfunc_end38:
	.size	"amqp_value_core::std_alloc++vec++into_iter++IntoIter+Destruct::drop::<#c1ae60f0dd767e0f>", .Lfunc_end38-"amqp_value_core::std_alloc++vec++into_iter++IntoIter+Destruct::drop::<#c1ae60f0dd767e0f>"

	.section	".text.unlikely.std_alloc::vec::Vec::grow_amortized::<#47f171320500d5e7>","ax",@progbits
	.p2align	2
	.type	"std_alloc::vec::Vec::grow_amortized::<#47f171320500d5e7>",@function
"std_alloc::vec::Vec::grow_amortized::<#47f171320500d5e7>":
	ldr	x8, [x0, #8]
	cmn	x8, x1
	b.lo	.LBB39_2
	mov	w0, wzr
	ret
.LBB39_2:
	stp	x29, x30, [sp, #-32]!
	ldr	x9, [x0, #16]
	add	x10, x8, x1
	mov	w11, #4
	cmp	x10, #4
	stp	x20, x19, [sp, #16]
	mov	x29, sp
	lsl	x12, x9, #1
	csel	x11, x10, x11, hi
	lsr	x13, x9, #62
	cmp	x11, x12
	csel	x10, x11, x12, hi
	cmp	x13, #0
	csel	x19, x10, x11, eq
	mov	x11, #37449
	movk	x11, #18724, lsl #16
	movk	x11, #9362, lsl #32
	movk	x11, #585, lsl #48
	cmp	x19, x11
	b.hi	.LBB39_7
	cbz	x9, .LBB39_6
	lsl	x9, x8, #6
	lsl	x10, x19, #6
	mov	x20, x0
	ldr	x0, [x0]
	mov	w3, #8
	sub	x1, x9, x8, lsl #3
	sub	x2, x10, x19, lsl #3
	bl	rattle_realloc
	tbz	w0, #0, .LBB39_7
.LBB39_5:
	mov	w0, #1
	str	x1, [x20]
	str	x19, [x20, #16]
	ldp	x20, x19, [sp, #16]
	ldp	x29, x30, [sp], #32
	ret
.LBB39_6:
	lsl	x8, x10, #6
	mov	x20, x0
	mov	w1, #8
	sub	x0, x8, x10, lsl #3
	bl	rattle_alloc
	tbnz	w0, #0, .LBB39_5
.LBB39_7:
	mov	w0, wzr
	ldp	x20, x19, [sp, #16]
	ldp	x29, x30, [sp], #32
	ret
.Lfunc_end39:
	.size	"std_alloc::vec::Vec::grow_amortized::<#47f171320500d5e7>", .Lfunc_end39-"std_alloc::vec::Vec::grow_amortized::<#47f171320500d5e7>"

	.section	.rodata.cst16,"aM",@progbits,16
	.p2align	4, 0x0
.LCPI40_0:
	.byte	1
	.byte	2
	.byte	4
	.byte	8
	.byte	16
	.byte	32
	.byte	64
	.byte	128
	.byte	1
	.byte	2
	.byte	4
	.byte	8
	.byte	16
	.byte	32
	.byte	64
	.byte	128
	.section	".text.core::slice::sort::small::insert_from::<#9d6850f96084634e>","ax",@progbits
	.p2align	2
	.type	"core::slice::sort::small::insert_from::<#9d6850f96084634e>",@function
"core::slice::sort::small::insert_from::<#9d6850f96084634e>":
	cmp	x2, x1
	b.hs	.LBB40_37
	sub	sp, sp, #128
	stp	x22, x21, [sp, #96]
	mov	x21, x0
	stp	x20, x19, [sp, #112]
	mov	x19, x2
	mov	x20, x1
	stp	x29, x30, [sp, #48]
	add	x29, sp, #48
	str	x25, [sp, #64]
	stp	x24, x23, [sp, #80]
	b	.LBB40_5
.LBB40_2:
	lsl	x9, x8, #6
	sub	x8, x9, x8, lsl #3
.LBB40_3:
	ldp	q0, q1, [sp]
	add	x8, x21, x8
	ldr	x9, [sp, #32]
	stp	x23, x22, [x8]
	stp	q0, q1, [x8, #16]
	str	x9, [x8, #48]
.LBB40_4:
	add	x19, x19, #1
	cmp	x19, x20
	b.eq	.LBB40_36
.LBB40_5:
	mov	w8, #56
	madd	x24, x19, x8, x21
	ldp	x23, x22, [x24]
	mov	x25, x24
	ldr	x2, [x25, #-56]!
	ldur	x3, [x24, #-48]
	mov	x0, x23
	mov	x1, x22
	bl	"amqp_value_core::types::short_string::ShortStringOrd::cmp"
	tst	w0, #0xff
	b.ne	.LBB40_4
	ldp	q0, q1, [x24, #16]
	ldr	x8, [x24, #48]
	ldr	q2, [x25, #32]
	ldr	x9, [x25, #48]
	str	x8, [sp, #32]
	sub	x8, x19, #1
	stp	q0, q1, [sp]
	ldp	q0, q1, [x25]
	str	q2, [x24, #32]
	str	x9, [x24, #48]
	stp	q0, q1, [x24]
	cbnz	x8, .LBB40_9
	b	.LBB40_3
.LBB40_7:
	b.hs	.LBB40_2
.LBB40_8:
	mov	w11, #56
	ldp	q0, q1, [x10]
	madd	x8, x8, x11, x21
	ldr	q2, [x10, #32]
	ldr	x10, [x10, #48]
	stp	q0, q1, [x8]
	str	q2, [x8, #32]
	str	x10, [x8, #48]
	mov	x8, x9
	cbz	x9, .LBB40_2
.LBB40_9:
	sub	x9, x8, #1
	mov	w10, #56
	madd	x10, x9, x10, x21
	ldp	x12, x11, [x10]
	cmp	x11, x22
	csel	x13, x11, x22, lo
	cmp	x13, #7
	b.hi	.LBB40_12
	subs	x14, x13, #4
	b.lo	.LBB40_13
	ldr	w15, [x23]
	ldr	w16, [x23, x14]
	ldr	w17, [x12]
	ldr	w14, [x12, x14]
	orr	x15, x15, x16, lsl #32
	orr	x16, x17, x14, lsl #32
	rev	x14, x15
	rev	x15, x16
	cmp	x14, x15
	b.ne	.LBB40_7
	b	.LBB40_15
.LBB40_12:
	sub	x14, x13, #8
	mov	w15, #8
	ldr	x16, [x23]
	cmp	x14, #8
	ldr	x17, [x12]
	csel	x14, x14, x15, lo
	rev	x18, x16
	ldr	x15, [x23, x14]
	ldr	x14, [x12, x14]
	rev	x0, x17
	cmp	x16, x17
	rev	x15, x15
	rev	x1, x14
	csel	x14, x15, x18, eq
	csel	x15, x1, x0, eq
	cmp	x14, x15
	b.ne	.LBB40_7
	b	.LBB40_15
.LBB40_13:
	cbz	x13, .LBB40_32
	ldrb	w14, [x23]
	lsr	x15, x13, #1
	ldrb	w16, [x12]
	sub	x18, x13, #1
	ldrb	w17, [x23, x15]
	lsl	x14, x14, #16
	ldrb	w15, [x12, x15]
	lsl	x16, x16, #16
	orr	x14, x14, x17, lsl #8
	ldrb	w17, [x23, x18]
	orr	x15, x16, x15, lsl #8
	ldrb	w16, [x12, x18]
	orr	x14, x14, x17
	orr	x15, x15, x16
	cmp	x14, x15
	b.ne	.LBB40_7
.LBB40_15:
	subs	x14, x13, #16
	b.ls	.LBB40_32
	cmp	x14, #79
	adrp	x15, .LCPI40_0
	b.hi	.LBB40_21
	mov	w16, #16
	mov	x17, x14
.LBB40_18:
	cmp	x17, #17
	b.lo	.LBB40_23
	ldr	q0, [x23, x16]
	ldr	q1, [x12, x16]
	sub	x17, x17, #16
	cmeq	v0.16b, v0.16b, v1.16b
	ldr	q1, [x15, :lo12:.LCPI40_0]
	bic	v0.16b, v1.16b, v0.16b
	addp	v0.16b, v0.16b, v0.16b
	addp	v0.16b, v0.16b, v0.16b
	addp	v0.16b, v0.16b, v0.16b
	umov	w18, v0.h[0]
	orr	w18, w18, #0x10000
	rbit	w18, w18
	clz	w18, w18
	add	x0, x16, x18
	add	x16, x16, #16
	cmp	x0, x16
	b.hs	.LBB40_18
	add	x14, x16, w18, uxtw
	sub	x14, x14, #16
	cmp	x14, x13
	b.hs	.LBB40_32
	b	.LBB40_35
.LBB40_21:
	ldr	q0, [x23, #16]
	ldr	q1, [x12, #16]
	cmeq	v1.16b, v0.16b, v1.16b
	ldr	q0, [x15, :lo12:.LCPI40_0]
	bic	v1.16b, v0.16b, v1.16b
	addp	v1.16b, v1.16b, v1.16b
	addp	v1.16b, v1.16b, v1.16b
	addp	v1.16b, v1.16b, v1.16b
	umov	w15, v1.h[0]
	orr	w15, w15, #0x10000
	rbit	w15, w15
	clz	w15, w15
	cmp	w15, #16
	b.hs	.LBB40_24
	add	w14, w15, #16
	cmp	x14, x13
	b.hs	.LBB40_32
	b	.LBB40_35
.LBB40_23:
	ldr	q0, [x23, x14]
	ldr	q1, [x12, x14]
	cmeq	v0.16b, v0.16b, v1.16b
	ldr	q1, [x15, :lo12:.LCPI40_0]
	bic	v0.16b, v1.16b, v0.16b
	b	.LBB40_34
.LBB40_24:
	sub	x15, x13, #96
	sub	x17, x13, #32
	and	x15, x15, #0xffffffffffffffc0
	add	x16, x15, #96
	mov	w15, #32
.LBB40_25:
	add	x18, x23, x15
	add	x0, x12, x15
	ldp	q1, q2, [x18]
	ldp	q3, q4, [x18, #32]
	ldp	q5, q6, [x0]
	ldp	q7, q16, [x0, #32]
	cmeq	v1.16b, v1.16b, v5.16b
	cmeq	v2.16b, v2.16b, v6.16b
	cmeq	v4.16b, v4.16b, v16.16b
	cmeq	v3.16b, v3.16b, v7.16b
	bic	v1.16b, v0.16b, v1.16b
	bic	v2.16b, v0.16b, v2.16b
	bic	v3.16b, v0.16b, v3.16b
	bic	v4.16b, v0.16b, v4.16b
	addp	v1.16b, v1.16b, v2.16b
	addp	v2.16b, v3.16b, v4.16b
	addp	v1.16b, v1.16b, v2.16b
	addp	v1.16b, v1.16b, v1.16b
	fmov	x18, d1
	cbnz	x18, .LBB40_28
	sub	x17, x17, #64
	add	x15, x15, #64
	cmp	x17, #63
	b.hi	.LBB40_25
	mov	x15, x16
.LBB40_28:
	sub	x16, x13, x15
.LBB40_29:
	cmp	x16, #17
	b.lo	.LBB40_33
	ldr	q1, [x23, x15]
	ldr	q2, [x12, x15]
	sub	x16, x16, #16
	cmeq	v1.16b, v1.16b, v2.16b
	bic	v1.16b, v0.16b, v1.16b
	addp	v1.16b, v1.16b, v1.16b
	addp	v1.16b, v1.16b, v1.16b
	addp	v1.16b, v1.16b, v1.16b
	umov	w17, v1.h[0]
	orr	w17, w17, #0x10000
	rbit	w17, w17
	clz	w17, w17
	add	x18, x15, x17
	add	x15, x15, #16
	cmp	x18, x15
	b.hs	.LBB40_29
	add	x14, x15, w17, uxtw
	sub	x14, x14, #16
	cmp	x14, x13
	b.lo	.LBB40_35
.LBB40_32:
	cmp	x22, x11
	b.lo	.LBB40_8
	b	.LBB40_2
.LBB40_33:
	ldr	q1, [x23, x14]
	ldr	q2, [x12, x14]
	cmeq	v1.16b, v1.16b, v2.16b
	bic	v0.16b, v0.16b, v1.16b
.LBB40_34:
	addp	v0.16b, v0.16b, v0.16b
	addp	v0.16b, v0.16b, v0.16b
	addp	v0.16b, v0.16b, v0.16b
	umov	w15, v0.h[0]
	orr	w15, w15, #0x10000
	rbit	w15, w15
	clz	w15, w15
	add	x14, x14, x15
	cmp	x14, x13
	b.hs	.LBB40_32
.LBB40_35:
	ldrb	w11, [x23, x14]
	ldrb	w12, [x12, x14]
	cmp	w11, w12
	b.lo	.LBB40_8
	b	.LBB40_2
.LBB40_36:
	ldp	x20, x19, [sp, #112]
	ldr	x25, [sp, #64]
	ldp	x22, x21, [sp, #96]
	ldp	x24, x23, [sp, #80]
	ldp	x29, x30, [sp, #48]
	add	sp, sp, #128
.LBB40_37:
	ret
.Lfunc_end40:
	.size	"core::slice::sort::small::insert_from::<#9d6850f96084634e>", .Lfunc_end40-"core::slice::sort::small::insert_from::<#9d6850f96084634e>"

	.section	".text.core::slice::sort::pivot::run_from::<#9d6850f96084634e>","ax",@progbits
	.p2align	2
	.type	"core::slice::sort::pivot::run_from::<#9d6850f96084634e>",@function
"core::slice::sort::pivot::run_from::<#9d6850f96084634e>":
	stp	x29, x30, [sp, #-48]!
	mov	w8, #56
	stp	x22, x21, [sp, #16]
	mov	x21, x2
	madd	x8, x2, x8, x0
	stp	x20, x19, [sp, #32]
	mov	x20, x1
	mov	x22, x0
	mov	x29, sp
	add	x19, x2, #2
	ldp	x0, x1, [x8, #56]
	ldp	x2, x3, [x8]
	bl	"amqp_value_core::types::short_string::ShortStringOrd::cmp"
	tst	w0, #0xff
	b.eq	.LBB41_7
	cmp	x19, x20
	b.hs	.LBB41_6
	mov	w8, #56
	madd	x8, x21, x8, x22
	add	x8, x8, #64
	mov	x21, x8
.LBB41_3:
	ldp	x2, x3, [x8, #-8]
	ldr	x0, [x8, #48]
	ldr	x1, [x21, #56]!
	bl	"amqp_value_core::types::short_string::ShortStringOrd::cmp"
	tst	w0, #0xff
	b.eq	.LBB41_6
	add	x19, x19, #1
	mov	x8, x21
	cmp	x20, x19
	b.ne	.LBB41_3
	mov	w1, wzr
	mov	x19, x20
	mov	x0, x19
	ldp	x20, x19, [sp, #32]
	ldp	x22, x21, [sp, #16]
	ldp	x29, x30, [sp], #48
	ret
.LBB41_6:
	mov	w1, wzr
	mov	x0, x19
	ldp	x20, x19, [sp, #32]
	ldp	x22, x21, [sp, #16]
	ldp	x29, x30, [sp], #48
	ret
.LBB41_7:
	cmp	x19, x20
	b.hs	.LBB41_12
	mov	w8, #56
	madd	x8, x21, x8, x22
	add	x8, x8, #64
	mov	x21, x8
.LBB41_9:
	ldp	x2, x3, [x8, #-8]
	ldr	x0, [x8, #48]
	ldr	x1, [x21, #56]!
	bl	"amqp_value_core::types::short_string::ShortStringOrd::cmp"
	tst	w0, #0xff
	b.ne	.LBB41_12
	add	x19, x19, #1
	mov	x8, x21
	cmp	x20, x19
	b.ne	.LBB41_9
	mov	w1, #1
	mov	x19, x20
	mov	x0, x19
	ldp	x20, x19, [sp, #32]
	ldp	x22, x21, [sp, #16]
	ldp	x29, x30, [sp], #48
	ret
.LBB41_12:
	mov	w1, #1
	mov	x0, x19
	ldp	x20, x19, [sp, #32]
	ldp	x22, x21, [sp, #16]
	ldp	x29, x30, [sp], #48
	ret
.Lfunc_end41:
	.size	"core::slice::sort::pivot::run_from::<#9d6850f96084634e>", .Lfunc_end41-"core::slice::sort::pivot::run_from::<#9d6850f96084634e>"

	.section	".text.core::slice::edits::mirror::<24'(,)::<#8af3e1b4e9e21b57>>","ax",@progbits
	.p2align	2
	.type	"core::slice::edits::mirror::<24'(,)::<#8af3e1b4e9e21b57>>",@function
"core::slice::edits::mirror::<24'(,)::<#8af3e1b4e9e21b57>>":
	sub	sp, sp, #64
	mov	w8, #56
	madd	x8, x2, x8, x1
	sub	x8, x8, #56
.LBB42_1:
	ldp	q1, q0, [x8, #16]
	sub	x2, x2, #1
	ldr	x9, [x8, #48]
	ldr	q2, [x8]
	ldr	q3, [x0, #32]
	ldr	x10, [x0, #48]
	str	q0, [x0, #32]
	ldp	q4, q0, [x0]
	str	x9, [x0, #48]
	stp	q2, q1, [x0]
	add	x0, x0, #56
	stp	q4, q0, [x8]
	str	q3, [x8, #32]
	str	x10, [x8, #48]
	sub	x8, x8, #56
	cbnz	x2, .LBB42_1
	add	sp, sp, #64
	ret
.Lfunc_end42:
	.size	"core::slice::edits::mirror::<24'(,)::<#8af3e1b4e9e21b57>>", .Lfunc_end42-"core::slice::edits::mirror::<24'(,)::<#8af3e1b4e9e21b57>>"

	.section	".text.core::slice::sort::stable::quicksort::<#9d6850f96084634e>","ax",@progbits
	.p2align	2
	.type	"core::slice::sort::stable::quicksort::<#9d6850f96084634e>",@function
"core::slice::sort::stable::quicksort::<#9d6850f96084634e>":
	sub	sp, sp, #176
	stp	x24, x23, [sp, #128]
	mov	x23, x2
	cmp	x1, #33
	stp	x22, x21, [sp, #144]
	mov	x21, x1
	mov	x22, x0
	stp	x20, x19, [sp, #160]
	mov	w19, w3
	stp	x29, x30, [sp, #80]
	add	x29, sp, #80
	stp	x28, x27, [sp, #96]
	stp	x26, x25, [sp, #112]
	str	x4, [sp, #24]
	b.hs	.LBB43_4
.LBB43_1:
	mov	x0, x22
	mov	x1, x21
	ldr	x2, [sp, #24]
	ldp	x20, x19, [sp, #160]
	ldp	x22, x21, [sp, #144]
	ldp	x24, x23, [sp, #128]
	ldp	x26, x25, [sp, #112]
	ldp	x28, x27, [sp, #96]
	ldp	x29, x30, [sp, #80]
	add	sp, sp, #176
	b	"core::slice::sort::short::sort::<#9d6850f96084634e>"
.LBB43_2:
	mov	x0, x26
	mov	x1, x23
	bl	memmove
	ldr	w19, [sp, #20]
	ldr	x12, [sp, #8]
.LBB43_3:
	ldr	x4, [sp, #24]
	sub	w19, w19, #1
	mov	x0, x22
	mov	x1, x27
	mov	x2, x21
	mov	w3, w19
	stp	x23, x12, [x4]
	bl	"core::slice::sort::stable::quicksort::<#9d6850f96084634e>"
	mov	x21, x28
	cmp	x20, #33
	mov	x23, x21
	mov	x22, x26
	mov	x21, x20
	b.lo	.LBB43_1
.LBB43_4:
	cbz	w19, .LBB43_41
	lsr	x24, x21, #3
	cmp	x21, #63
	str	w19, [sp, #20]
	b.hi	.LBB43_8
	mov	w8, #224
	ldp	x20, x19, [x22]
	madd	x8, x24, x8, x22
	mov	x0, x20
	mov	x1, x19
	ldp	x2, x26, [x8]
	mov	x3, x26
	str	x2, [sp, #8]
	bl	"amqp_value_core::types::short_string::ShortStringOrd::cmp"
	mov	w8, #392
	ands	w9, w0, #0xff
	mov	x0, x20
	madd	x8, x24, x8, x22
	mov	x1, x19
	str	w9, [sp, #4]
	cset	w25, eq
	ldp	x27, x28, [x8]
	mov	x2, x27
	mov	x3, x28
	bl	"amqp_value_core::types::short_string::ShortStringOrd::cmp"
	tst	w0, #0xff
	cset	w8, eq
	eor	w8, w25, w8
	tbz	w8, #0, .LBB43_20
	mov	x26, xzr
	lsl	x8, xzr, #6
	cmp	x23, x21
	sub	x19, x8, xzr, lsl #3
	add	x20, x22, x19
	b.lo	.LBB43_9
	b	.LBB43_21
.LBB43_8:
	lsl	x8, x24, #3
	lsl	x2, x24, #2
	mov	x0, x22
	mov	x1, xzr
	mov	x4, x24
	sub	x3, x8, x24
	bl	"core::slice::sort::pivot::median_of_medians::<#9d6850f96084634e>"
	mov	x26, x0
	lsl	x8, x0, #6
	cmp	x23, x21
	sub	x19, x8, x0, lsl #3
	add	x20, x22, x19
	b.hs	.LBB43_21
.LBB43_9:
	mov	w8, #56
	ldp	x25, x24, [x20]
	madd	x8, x23, x8, x22
	mov	x2, x25
	mov	x3, x24
	ldp	x0, x1, [x8]
	bl	"amqp_value_core::types::short_string::ShortStringOrd::cmp"
	ldr	x8, [sp, #24]
	tst	w0, #0xff
	ldp	x23, x8, [x8]
	str	x8, [sp, #8]
	b.eq	.LBB43_22
	ldp	q1, q0, [x20, #16]
	ldr	x8, [x20, #48]
	mov	x20, xzr
	str	x8, [sp, #64]
	stp	q1, q0, [sp, #32]
	cbz	x26, .LBB43_15
	mov	x27, xzr
	mov	x19, x22
	b	.LBB43_13
.LBB43_12:
	add	x27, x27, #1
	add	x19, x19, #56
	cmp	x26, x27
	b.eq	.LBB43_15
.LBB43_13:
	ldp	x2, x3, [x19]
	mov	x0, x25
	mov	x1, x24
	bl	"amqp_value_core::types::short_string::ShortStringOrd::cmp"
	sub	x8, x27, x20
	ands	w9, w0, #0xff
	mov	w10, #56
	csel	x8, x20, x8, ne
	csel	x11, x22, x23, ne
	ldr	q1, [x19]
	madd	x8, x8, x10, x11
	ldp	q2, q0, [x19, #16]
	ldr	x10, [x19, #48]
	str	x10, [x8, #48]
	stp	q2, q0, [x8, #16]
	str	q1, [x8]
	cbz	w9, .LBB43_12
	add	x20, x20, #1
	b	.LBB43_12
.LBB43_15:
	add	x28, x26, #1
	add	x27, x20, #1
	cmp	x28, x21
	b.hs	.LBB43_35
	mov	w8, #56
	ldr	w19, [sp, #20]
	madd	x8, x26, x8, x22
	add	x26, x8, #56
	b	.LBB43_18
.LBB43_17:
	add	x28, x28, #1
	add	x26, x26, #56
	cmp	x21, x28
	b.eq	.LBB43_36
.LBB43_18:
	ldp	x2, x3, [x26]
	mov	x0, x25
	mov	x1, x24
	bl	"amqp_value_core::types::short_string::ShortStringOrd::cmp"
	sub	x8, x28, x27
	ands	w9, w0, #0xff
	mov	w10, #56
	csel	x8, x27, x8, ne
	csel	x11, x22, x23, ne
	ldr	q1, [x26]
	madd	x8, x8, x10, x11
	ldp	q2, q0, [x26, #16]
	ldr	x10, [x26, #48]
	str	x10, [x8, #48]
	stp	q2, q0, [x8, #16]
	str	q1, [x8]
	cbz	w9, .LBB43_17
	add	x27, x27, #1
	b	.LBB43_17
.LBB43_20:
	ldr	w9, [sp, #4]
	lsl	x8, x24, #3
	ldr	x0, [sp, #8]
	mov	x1, x26
	mov	x2, x27
	mov	x3, x28
	cmp	w9, #0
	lsl	x19, x24, #2
	sub	x24, x8, x24
	cset	w20, eq
	bl	"amqp_value_core::types::short_string::ShortStringOrd::cmp"
	tst	w0, #0xff
	cset	w8, eq
	eor	w8, w20, w8
	cmp	w8, #0
	csel	x26, x24, x19, ne
	lsl	x8, x26, #6
	cmp	x23, x21
	sub	x19, x8, x26, lsl #3
	add	x20, x22, x19
	b.lo	.LBB43_9
.LBB43_21:
	ldr	x8, [sp, #24]
	ldp	x25, x24, [x20]
	ldp	x23, x8, [x8]
	str	x8, [sp, #8]
.LBB43_22:
	add	x8, x22, x19
	mov	x20, xzr
	ldp	q1, q0, [x8, #16]
	ldr	x9, [x8, #48]
	str	x9, [sp, #64]
	stp	q1, q0, [sp, #32]
	cbz	x26, .LBB43_27
	mov	x27, xzr
	mov	x19, x22
	b	.LBB43_25
.LBB43_24:
	add	x27, x27, #1
	add	x19, x19, #56
	cmp	x26, x27
	b.eq	.LBB43_27
.LBB43_25:
	ldp	x0, x1, [x19]
	mov	x2, x25
	mov	x3, x24
	bl	"amqp_value_core::types::short_string::ShortStringOrd::cmp"
	sub	x8, x27, x20
	ands	w9, w0, #0xff
	mov	w10, #56
	csel	x8, x20, x8, eq
	csel	x11, x22, x23, eq
	ldr	q1, [x19]
	madd	x8, x8, x10, x11
	ldp	q2, q0, [x19, #16]
	ldr	x10, [x19, #48]
	str	x10, [x8, #48]
	stp	q2, q0, [x8, #16]
	str	q1, [x8]
	cbnz	w9, .LBB43_24
	add	x20, x20, #1
	b	.LBB43_24
.LBB43_27:
	add	x28, x26, #1
	mov	x27, x20
	cmp	x28, x21
	b.hs	.LBB43_32
	mov	w8, #56
	mov	x27, x20
	madd	x8, x26, x8, x22
	add	x19, x8, #56
	b	.LBB43_30
.LBB43_29:
	add	x28, x28, #1
	add	x19, x19, #56
	cmp	x21, x28
	b.eq	.LBB43_32
.LBB43_30:
	ldp	x0, x1, [x19]
	mov	x2, x25
	mov	x3, x24
	bl	"amqp_value_core::types::short_string::ShortStringOrd::cmp"
	sub	x8, x28, x27
	ands	w9, w0, #0xff
	mov	w10, #56
	csel	x8, x27, x8, eq
	csel	x11, x22, x23, eq
	ldr	q1, [x19]
	madd	x8, x8, x10, x11
	ldp	q2, q0, [x19, #16]
	ldr	x10, [x19, #48]
	str	x10, [x8, #48]
	stp	q2, q0, [x8, #16]
	str	q1, [x8]
	cbnz	w9, .LBB43_29
	add	x27, x27, #1
	b	.LBB43_29
.LBB43_32:
	mov	w8, #56
	sub	x28, x26, x20
	sub	x20, x21, x27
	madd	x26, x27, x8, x22
	ldp	q0, q1, [sp, #32]
	ldr	x10, [sp, #64]
	madd	x9, x28, x8, x23
	lsl	x8, x20, #6
	sub	x2, x8, x20, lsl #3
	sub	x8, x26, x23
	cmp	x8, x2
	stp	x25, x24, [x9]
	str	x10, [x9, #48]
	stp	q0, q1, [x9, #16]
	b.hs	.LBB43_2
	ldr	w19, [sp, #20]
	ldr	x12, [sp, #8]
	cmp	x21, x27
	mov	x8, x26
	mov	x9, x23
	sub	x10, x21, x27
	b.eq	.LBB43_3
.LBB43_34:
	ldp	q2, q0, [x9, #16]
	subs	x10, x10, #1
	ldr	x11, [x9, #48]
	ldr	q1, [x9], #56
	str	x11, [x8, #48]
	stp	q2, q0, [x8, #16]
	str	q1, [x8], #56
	b.ne	.LBB43_34
	b	.LBB43_3
.LBB43_35:
	ldr	w19, [sp, #20]
.LBB43_36:
	mov	w8, #56
	madd	x9, x20, x8, x22
	sub	x20, x21, x27
	madd	x26, x27, x8, x22
	lsl	x8, x20, #6
	sub	x2, x8, x20, lsl #3
	stp	x25, x24, [x9]
	ldp	q1, q0, [sp, #32]
	ldr	x10, [sp, #64]
	sub	x8, x26, x23
	cmp	x8, x2
	str	x10, [x9, #48]
	stp	q1, q0, [x9, #16]
	b.hs	.LBB43_39
	ldr	x12, [sp, #8]
	cmp	x21, x27
	mov	x8, x26
	mov	x9, x23
	mov	x10, x20
	b.eq	.LBB43_40
.LBB43_38:
	ldp	q2, q0, [x9, #16]
	subs	x10, x10, #1
	ldr	x11, [x9, #48]
	ldr	q1, [x9], #56
	str	x11, [x8, #48]
	stp	q2, q0, [x8, #16]
	str	q1, [x8], #56
	b.ne	.LBB43_38
	b	.LBB43_40
.LBB43_39:
	mov	x0, x26
	mov	x1, x23
	bl	memmove
	ldr	x12, [sp, #8]
.LBB43_40:
	ldr	x8, [sp, #24]
	sub	w19, w19, #1
	stp	x23, x12, [x8]
	cmp	x20, #33
	mov	x23, x21
	mov	x22, x26
	mov	x21, x20
	b.hs	.LBB43_4
	b	.LBB43_1
.LBB43_41:
	mov	x0, x22
	mov	x1, x21
	ldr	x2, [sp, #24]
	ldp	x20, x19, [sp, #160]
	ldp	x22, x21, [sp, #144]
	ldp	x24, x23, [sp, #128]
	ldp	x26, x25, [sp, #112]
	ldp	x28, x27, [sp, #96]
	ldp	x29, x30, [sp, #80]
	add	sp, sp, #176
	b	"core::slice::sort::stable::merge_sort::<#9d6850f96084634e>"
.Lfunc_end43:
	.size	"core::slice::sort::stable::quicksort::<#9d6850f96084634e>", .Lfunc_end43-"core::slice::sort::stable::quicksort::<#9d6850f96084634e>"

	.section	".text.core::slice::sort::short::sort::<#9d6850f96084634e>","ax",@progbits
	.p2align	2
	.type	"core::slice::sort::short::sort::<#9d6850f96084634e>",@function
"core::slice::sort::short::sort::<#9d6850f96084634e>":
	sub	sp, sp, #160
	stp	x22, x21, [sp, #128]
	cmp	x1, #15
	mov	x21, x0
	stp	x20, x19, [sp, #144]
	mov	x19, x1
	stp	x29, x30, [sp, #64]
	add	x29, sp, #64
	stp	x28, x27, [sp, #80]
	stp	x26, x25, [sp, #96]
	stp	x24, x23, [sp, #112]
	b.hi	.LBB44_2
	mov	x0, x21
	mov	x1, x19
	ldp	x20, x19, [sp, #144]
	ldp	x22, x21, [sp, #128]
	ldp	x24, x23, [sp, #112]
	ldp	x26, x25, [sp, #96]
	ldp	x28, x27, [sp, #80]
	ldp	x29, x30, [sp, #64]
	add	sp, sp, #160
	b	"core::slice::sort::short::sort_half::<#9d6850f96084634e>"
.LBB44_2:
	lsr	x24, x19, #1
	mov	w8, #56
	mov	x0, x21
	mov	x23, x2
	mov	x1, x24
	madd	x22, x24, x8, x21
	sub	x20, x19, x24
	bl	"core::slice::sort::short::sort_half::<#9d6850f96084634e>"
	mov	x0, x22
	mov	x1, x20
	mov	x2, x23
	bl	"core::slice::sort::short::sort_half::<#9d6850f96084634e>"
	movi	v0.2d, #0000000000000000
	ldr	x8, [x23]
	add	x27, sp, #32
	mov	x25, xzr
	sub	x22, x27, #1
	mov	x26, x24
	stp	x8, x23, [sp, #16]
	ldr	x8, [x23, #8]
	mov	x23, x24
	mov	x28, x24
	mov	x20, x19
	str	x8, [sp, #8]
	stp	q0, q0, [sp, #32]
	b	.LBB44_4
.LBB44_3:
	sub	x20, x20, #1
	sub	x23, x23, #1
	sub	x22, x22, #1
	add	x27, x27, #1
	cbz	x23, .LBB44_13
.LBB44_4:
	mov	w8, #56
	madd	x9, x28, x8, x21
	madd	x8, x25, x8, x21
	ldp	x0, x1, [x9]
	ldp	x2, x3, [x8]
	bl	"amqp_value_core::types::short_string::ShortStringOrd::cmp"
	ands	w8, w0, #0xff
	mov	x9, x28
	b.eq	.LBB44_6
	mov	x9, x25
.LBB44_6:
	strb	w9, [x27]
	cbnz	w8, .LBB44_8
	add	x28, x28, #1
	b	.LBB44_9
.LBB44_8:
	add	x25, x25, #1
.LBB44_9:
	mov	w8, #56
	madd	x9, x20, x8, x21
	madd	x8, x26, x8, x21
	ldp	x0, x1, [x9, #-56]
	ldp	x2, x3, [x8, #-56]
	bl	"amqp_value_core::types::short_string::ShortStringOrd::cmp"
	ands	w8, w0, #0xff
	mov	x9, x26
	b.eq	.LBB44_11
	mov	x9, x20
.LBB44_11:
	sub	w9, w9, #1
	strb	w9, [x22, x19]
	cbnz	w8, .LBB44_3
	sub	x26, x26, #1
	sub	x23, x23, #1
	sub	x22, x22, #1
	add	x27, x27, #1
	cbnz	x23, .LBB44_4
.LBB44_13:
	tbz	w19, #0, .LBB44_15
	cmp	x25, x26
	add	x8, sp, #32
	csel	x9, x25, x28, lo
	strb	w9, [x8, x24]
.LBB44_15:
	cmp	x28, x20
	b.hi	.LBB44_22
	cmp	x25, x26
	b.hi	.LBB44_22
	ldr	x22, [sp, #16]
	add	x8, sp, #32
	mov	x10, x19
	mov	x9, x22
.LBB44_18:
	ldrb	w11, [x8], #1
	mov	w12, #56
	subs	x10, x10, #1
	umaddl	x11, w11, w12, x21
	ldp	q1, q0, [x11, #16]
	ldr	x12, [x11, #48]
	ldr	q2, [x11]
	str	x12, [x9, #48]
	stp	q1, q0, [x9, #16]
	str	q2, [x9], #56
	b.ne	.LBB44_18
	lsl	x8, x19, #6
	ldr	x20, [sp, #24]
	sub	x2, x8, x19, lsl #3
	sub	x8, x21, x22
	cmp	x8, x2
	b.hs	.LBB44_23
	mov	x8, x22
.LBB44_21:
	ldp	q2, q0, [x8, #16]
	subs	x19, x19, #1
	ldr	x9, [x8, #48]
	ldr	q1, [x8], #56
	str	x9, [x21, #48]
	stp	q2, q0, [x21, #16]
	str	q1, [x21], #56
	b.ne	.LBB44_21
	b	.LBB44_24
.LBB44_22:
	mov	x0, x21
	mov	x1, x19
	mov	w2, #1
	ldp	x20, x19, [sp, #144]
	ldp	x22, x21, [sp, #128]
	ldp	x24, x23, [sp, #112]
	ldp	x26, x25, [sp, #96]
	ldp	x28, x27, [sp, #80]
	ldp	x29, x30, [sp, #64]
	add	sp, sp, #160
	b	"core::slice::sort::small::insert_from::<#9d6850f96084634e>"
.LBB44_23:
	mov	x0, x21
	mov	x1, x22
	bl	memmove
.LBB44_24:
	ldr	x8, [sp, #8]
	ldp	x24, x23, [sp, #112]
	ldp	x26, x25, [sp, #96]
	stp	x22, x8, [x20]
	ldp	x20, x19, [sp, #144]
	ldp	x22, x21, [sp, #128]
	ldp	x28, x27, [sp, #80]
	ldp	x29, x30, [sp, #64]
	add	sp, sp, #160
	ret
.Lfunc_end44:
	.size	"core::slice::sort::short::sort::<#9d6850f96084634e>", .Lfunc_end44-"core::slice::sort::short::sort::<#9d6850f96084634e>"

	.section	".text.core::slice::sort::short::sort_half::<#9d6850f96084634e>","ax",@progbits
	.p2align	2
	.type	"core::slice::sort::short::sort_half::<#9d6850f96084634e>",@function
"core::slice::sort::short::sort_half::<#9d6850f96084634e>":
	sub	sp, sp, #240
	stp	x20, x19, [sp, #224]
	cmp	x1, #8
	mov	x20, x0
	stp	x29, x30, [sp, #144]
	add	x29, sp, #144
	stp	x28, x27, [sp, #160]
	stp	x26, x25, [sp, #176]
	stp	x24, x23, [sp, #192]
	stp	x22, x21, [sp, #208]
	b.lo	.LBB45_4
	stp	x2, x1, [x29, #-16]
	mov	x9, x20
	ldr	x1, [x20, #64]
	ldp	x22, x8, [x2]
	ldp	x2, x3, [x20]
	ldr	x0, [x9, #56]!
	stur	x9, [x29, #-48]
	stur	x8, [x29, #-24]
	bl	"amqp_value_core::types::short_string::ShortStringOrd::cmp"
	mov	x9, x20
	mov	x10, x20
	ldr	x1, [x20, #176]
	ldr	x8, [x9, #168]!
	ldr	x3, [x20, #120]
	ldr	x2, [x10, #112]!
	and	w19, w0, #0xff
	mov	x0, x8
	stp	x10, x9, [x29, #-40]
	bl	"amqp_value_core::types::short_string::ShortStringOrd::cmp"
	mov	w8, #2
	tst	w0, #0xff
	mov	w24, #56
	cinc	x21, x8, eq
	cinc	x23, x8, ne
	cmp	w19, #0
	umaddl	x9, w21, w24, x20
	csel	x8, x24, xzr, eq
	cset	w19, ne
	add	x8, x20, x8
	cset	w25, eq
	csel	x26, xzr, x24, eq
	ldp	x2, x3, [x8]
	ldp	x0, x1, [x9]
	bl	"amqp_value_core::types::short_string::ShortStringOrd::cmp"
	umaddl	x9, w23, w24, x20
	add	x10, x20, x26
	and	w26, w0, #0xff
	ldp	x2, x3, [x10]
	ldp	x8, x1, [x9]
	mov	x0, x8
	bl	"amqp_value_core::types::short_string::ShortStringOrd::cmp"
	ands	w8, w0, #0xff
	csel	x9, x21, x19, eq
	cmp	w26, #0
	csel	x26, x21, x25, eq
	csel	x25, x25, x9, eq
	csel	x9, x19, x21, eq
	cmp	w8, #0
	csel	x21, x23, x9, eq
	umaddl	x9, w25, w24, x20
	csel	x19, x19, x23, eq
	umaddl	x8, w21, w24, x20
	ldp	x2, x3, [x9]
	ldp	x0, x1, [x8]
	bl	"amqp_value_core::types::short_string::ShortStringOrd::cmp"
	umaddl	x8, w26, w24, x20
	tst	w0, #0xff
	csel	x9, x21, x25, eq
	ldp	q1, q0, [x8, #16]
	ldr	x10, [x8, #48]
	ldr	q2, [x8]
	umaddl	x8, w9, w24, x20
	str	x10, [x22, #48]
	csel	x10, x25, x21, eq
	stp	q1, q0, [x22, #16]
	str	q2, [x22]
	ldp	q2, q0, [x8, #16]
	ldr	x9, [x8, #48]
	ldr	q1, [x8]
	umaddl	x8, w10, w24, x20
	str	x9, [x22, #104]
	stur	q0, [x22, #88]
	stur	q2, [x22, #72]
	stur	q1, [x22, #56]
	ldp	q2, q0, [x8, #16]
	ldr	x9, [x8, #48]
	ldr	q1, [x8]
	umaddl	x8, w19, w24, x20
	str	x9, [x22, #160]
	stp	q2, q0, [x22, #128]
	str	q1, [x22, #112]
	ldp	q2, q0, [x8, #16]
	ldr	x9, [x8, #48]
	ldr	q1, [x8]
	mov	x8, x20
	str	x9, [x22, #216]
	stur	q0, [x22, #200]
	stur	q2, [x22, #184]
	stur	q1, [x22, #168]
	ldp	x0, x1, [x20, #280]
	ldr	x3, [x20, #232]
	ldr	x2, [x8, #224]!
	stur	x8, [x29, #-56]
	bl	"amqp_value_core::types::short_string::ShortStringOrd::cmp"
	ldp	x8, x1, [x20, #392]
	and	w19, w0, #0xff
	ldp	x2, x3, [x20, #336]
	mov	x0, x8
	bl	"amqp_value_core::types::short_string::ShortStringOrd::cmp"
	cmp	w19, #0
	mov	w21, #4
	and	w9, w0, #0xff
	mov	w8, #6
	cinc	x19, x21, eq
	cinc	x23, x21, ne
	cmp	w9, #0
	umaddl	x10, w19, w24, x20
	cinc	x25, x8, eq
	cinc	x26, x8, ne
	umaddl	x9, w25, w24, x20
	ldp	x2, x3, [x10]
	ldp	x0, x1, [x9]
	bl	"amqp_value_core::types::short_string::ShortStringOrd::cmp"
	umaddl	x9, w26, w24, x20
	and	w27, w0, #0xff
	umaddl	x10, w23, w24, x20
	ldp	x8, x1, [x9]
	ldp	x2, x3, [x10]
	mov	x0, x8
	bl	"amqp_value_core::types::short_string::ShortStringOrd::cmp"
	ands	w8, w0, #0xff
	csel	x9, x25, x23, eq
	cmp	w27, #0
	csel	x27, x25, x19, eq
	csel	x28, x19, x9, eq
	csel	x9, x23, x25, eq
	cmp	w8, #0
	csel	x25, x26, x9, eq
	umaddl	x9, w28, w24, x20
	csel	x19, x23, x26, eq
	umaddl	x8, w25, w24, x20
	ldp	x2, x3, [x9]
	ldp	x0, x1, [x8]
	bl	"amqp_value_core::types::short_string::ShortStringOrd::cmp"
	umaddl	x8, w27, w24, x20
	tst	w0, #0xff
	add	x11, x22, #280
	csel	x9, x25, x28, eq
	ldp	x2, x3, [x22]
	ldp	q1, q0, [x8, #16]
	ldr	x10, [x8, #48]
	ldr	q2, [x8]
	umaddl	x8, w9, w24, x20
	str	x10, [x22, #272]
	csel	x10, x28, x25, eq
	stp	q1, q0, [x22, #240]
	str	q2, [x22, #224]
	ldp	q2, q0, [x8, #16]
	ldr	x9, [x8, #48]
	ldr	q1, [x8]
	umaddl	x8, w10, w24, x20
	add	x10, x22, #392
	str	x9, [x22, #328]
	ldp	x0, x1, [x22, #224]
	stp	q2, q0, [x11, #16]
	str	q1, [x11]
	ldp	q2, q0, [x8, #16]
	ldr	x9, [x8, #48]
	ldr	q1, [x8]
	umaddl	x8, w19, w24, x20
	str	x9, [x22, #384]
	stp	q2, q0, [x22, #352]
	str	q1, [x22, #336]
	ldp	q2, q0, [x8, #16]
	ldr	x9, [x8, #48]
	ldr	q1, [x8]
	str	x9, [x22, #440]
	stp	q2, q0, [x10, #16]
	str	q1, [x10]
	bl	"amqp_value_core::types::short_string::ShortStringOrd::cmp"
	ldp	x8, x1, [x22, #392]
	and	w19, w0, #0xff
	ldp	x2, x3, [x22, #168]
	mov	x0, x8
	bl	"amqp_value_core::types::short_string::ShortStringOrd::cmp"
	cmp	w19, #0
	mov	w23, w0
	cinc	x21, x21, eq
	csel	x8, x24, xzr, ne
	umaddl	x9, w21, w24, x22
	add	x10, x22, x8
	ldp	x2, x3, [x10]
	ldp	x8, x1, [x9]
	mov	x0, x8
	bl	"amqp_value_core::types::short_string::ShortStringOrd::cmp"
	ands	w9, w0, #0xff
	and	w10, w23, #0xff
	str	x21, [sp, #72]
	str	w9, [sp, #60]
	cset	w9, ne
	cinc	x21, x21, eq
	cmp	w19, #0
	mov	w8, #7
	stur	w19, [x29, #-64]
	cset	w11, ne
	cinc	x23, x9, ne
	cmp	w10, #0
	mov	w9, #3
	cinc	x19, x8, eq
	str	x11, [sp, #64]
	cinc	x25, x9, ne
	umaddl	x8, w19, w24, x22
	stur	w10, [x29, #-60]
	umaddl	x9, w25, w24, x22
	ldp	x0, x1, [x8, #-56]
	ldp	x2, x3, [x9, #-56]
	bl	"amqp_value_core::types::short_string::ShortStringOrd::cmp"
	umaddl	x8, w21, w24, x22
	ands	w10, w0, #0xff
	stp	x25, x19, [sp, #24]
	umaddl	x9, w23, w24, x22
	str	w10, [sp, #20]
	cset	w10, ne
	cset	w11, eq
	sub	x19, x19, x10
	ldp	x0, x1, [x8]
	sub	x28, x25, x11
	ldp	x2, x3, [x9]
	bl	"amqp_value_core::types::short_string::ShortStringOrd::cmp"
	smaddl	x8, w19, w24, x22
	ands	w10, w0, #0xff
	stp	x23, x21, [sp, #40]
	smaddl	x9, w28, w24, x22
	str	w10, [sp, #16]
	cinc	x21, x21, eq
	cinc	x23, x23, ne
	ldp	x0, x1, [x8, #-56]
	ldp	x2, x3, [x9, #-56]
	bl	"amqp_value_core::types::short_string::ShortStringOrd::cmp"
	umaddl	x8, w21, w24, x22
	ands	w10, w0, #0xff
	umaddl	x9, w23, w24, x22
	str	w10, [sp, #12]
	cset	w10, ne
	cset	w11, eq
	sub	x26, x19, x10
	ldp	x0, x1, [x8]
	sub	x25, x28, x11
	ldp	x2, x3, [x9]
	bl	"amqp_value_core::types::short_string::ShortStringOrd::cmp"
	smaddl	x8, w26, w24, x22
	ands	w10, w0, #0xff
	smaddl	x9, w25, w24, x22
	str	w10, [sp, #8]
	cinc	x24, x21, eq
	cinc	x27, x23, ne
	ldp	x0, x1, [x8, #-56]
	ldp	x2, x3, [x9, #-56]
	bl	"amqp_value_core::types::short_string::ShortStringOrd::cmp"
	ands	w8, w0, #0xff
	cset	w9, ne
	sub	x10, x26, x9
	cset	w9, eq
	cmp	x24, x10
	b.hi	.LBB45_7
	sub	x9, x25, x9
	cmp	x27, x9
	b.hi	.LBB45_7
	cmp	w8, #0
	ldr	w8, [sp, #8]
	mov	w2, #8
	csel	w11, w25, w26, eq
	ldp	x15, x14, [sp, #64]
	cmp	w8, #0
	ldr	w8, [sp, #12]
	sub	w11, w11, #1
	csel	x12, x21, x23, eq
	and	x11, x11, #0xff
	cmp	w8, #0
	ldr	w8, [sp, #16]
	csel	w10, w28, w19, eq
	cmp	w8, #0
	ldp	x9, x8, [sp, #40]
	sub	w10, w10, #1
	and	x10, x10, #0xff
	csel	x13, x8, x9, eq
	ldr	w8, [sp, #20]
	cmp	w8, #0
	ldp	x9, x8, [sp, #24]
	csel	w8, w9, w8, eq
	ldr	w9, [sp, #60]
	sub	w8, w8, #1
	cmp	w9, #0
	mov	w9, #224
	and	x8, x8, #0xff
	csel	x14, x14, x15, eq
	ldur	w15, [x29, #-64]
	cmp	w15, #0
	csel	x9, xzr, x9, ne
	add	x15, x22, x9
	mov	w9, #56
	ldp	q2, q0, [x15, #16]
	ldr	x16, [x15, #48]
	ldr	q1, [x15]
	umaddl	x14, w14, w9, x22
	str	x16, [x20, #48]
	umaddl	x13, w13, w9, x22
	stp	q2, q0, [x20, #16]
	umaddl	x12, w12, w9, x22
	str	q1, [x20]
	umaddl	x11, w11, w9, x22
	ldp	q2, q0, [x14, #16]
	ldr	x15, [x14, #48]
	ldr	q1, [x14]
	ldur	x14, [x29, #-48]
	umaddl	x10, w10, w9, x22
	umaddl	x8, w8, w9, x22
	str	x15, [x14, #48]
	stp	q2, q0, [x14, #16]
	str	q1, [x14]
	ldp	q2, q0, [x13, #16]
	ldr	x14, [x13, #48]
	ldr	q1, [x13]
	ldur	x13, [x29, #-40]
	str	x14, [x13, #48]
	stp	q2, q0, [x13, #16]
	str	q1, [x13]
	ldp	q2, q0, [x12, #16]
	ldr	x13, [x12, #48]
	ldr	q1, [x12]
	ldur	x12, [x29, #-32]
	str	x13, [x12, #48]
	stp	q2, q0, [x12, #16]
	str	q1, [x12]
	ldp	q2, q0, [x11, #16]
	ldr	x12, [x11, #48]
	ldr	q1, [x11]
	ldur	x11, [x29, #-56]
	str	x12, [x11, #48]
	stp	q2, q0, [x11, #16]
	str	q1, [x11]
	ldp	q2, q0, [x10, #16]
	ldr	x11, [x10, #48]
	ldr	q1, [x10]
	add	x10, x20, #280
	str	x11, [x10, #48]
	stp	q2, q0, [x10, #16]
	str	q1, [x10]
	mov	w10, #392
	ldr	x9, [x8, #48]
	ldp	q2, q0, [x8, #16]
	ldr	q1, [x8]
	mov	w8, #168
	str	x9, [x20, #384]
	ldur	w9, [x29, #-60]
	stp	q2, q0, [x20, #352]
	cmp	w9, #0
	str	q1, [x20, #336]
	csel	x8, x8, x10, eq
	add	x8, x22, x8
	ldp	q2, q0, [x8, #16]
	ldr	x9, [x8, #48]
	ldr	q1, [x8]
	add	x8, x20, #392
	str	x9, [x8, #48]
	stp	q2, q0, [x8, #16]
	str	q1, [x8]
	b	.LBB45_11
.LBB45_4:
	cmp	x1, #4
	b.lo	.LBB45_9
	stp	x2, x1, [x29, #-16]
	mov	x23, x20
	ldr	x1, [x20, #64]
	ldp	x21, x8, [x2]
	ldp	x2, x3, [x20]
	ldr	x0, [x23, #56]!
	stur	x8, [x29, #-24]
	bl	"amqp_value_core::types::short_string::ShortStringOrd::cmp"
	mov	x9, x20
	mov	x24, x20
	ldr	x1, [x20, #176]
	ldr	x8, [x9, #168]!
	ldr	x3, [x20, #120]
	ldr	x2, [x24, #112]!
	and	w26, w0, #0xff
	mov	x0, x8
	stur	x9, [x29, #-32]
	bl	"amqp_value_core::types::short_string::ShortStringOrd::cmp"
	mov	w8, #2
	tst	w0, #0xff
	mov	w25, #56
	cinc	x27, x8, eq
	cinc	x28, x8, ne
	cmp	w26, #0
	umaddl	x9, w27, w25, x20
	csel	x8, x25, xzr, eq
	cset	w26, ne
	add	x8, x20, x8
	cset	w19, eq
	csel	x22, xzr, x25, eq
	ldp	x2, x3, [x8]
	ldp	x0, x1, [x9]
	bl	"amqp_value_core::types::short_string::ShortStringOrd::cmp"
	umaddl	x9, w28, w25, x20
	add	x10, x20, x22
	and	w22, w0, #0xff
	ldp	x2, x3, [x10]
	ldp	x8, x1, [x9]
	mov	x0, x8
	bl	"amqp_value_core::types::short_string::ShortStringOrd::cmp"
	ands	w8, w0, #0xff
	csel	x9, x27, x26, eq
	cmp	w22, #0
	csel	x22, x27, x19, eq
	csel	x19, x19, x9, eq
	csel	x9, x26, x27, eq
	cmp	w8, #0
	csel	x27, x28, x9, eq
	umaddl	x9, w19, w25, x20
	csel	x26, x26, x28, eq
	umaddl	x8, w27, w25, x20
	ldp	x2, x3, [x9]
	ldp	x0, x1, [x8]
	bl	"amqp_value_core::types::short_string::ShortStringOrd::cmp"
	umaddl	x8, w22, w25, x20
	tst	w0, #0xff
	csel	x9, x27, x19, eq
	ldp	q1, q0, [x8, #16]
	ldr	x10, [x8, #48]
	ldr	q2, [x8]
	umaddl	x8, w9, w25, x20
	str	x10, [x21, #48]
	csel	x10, x19, x27, eq
	stp	q1, q0, [x21, #16]
	str	q2, [x21]
	ldp	q2, q0, [x8, #16]
	ldr	x9, [x8, #48]
	ldr	q1, [x8]
	umaddl	x8, w10, w25, x20
	str	x9, [x21, #104]
	stur	q0, [x21, #88]
	stur	q2, [x21, #72]
	stur	q1, [x21, #56]
	ldp	q2, q0, [x8, #16]
	ldr	x9, [x8, #48]
	ldr	q1, [x8]
	umaddl	x8, w26, w25, x20
	str	x9, [x21, #160]
	stp	q2, q0, [x21, #128]
	str	q1, [x21, #112]
	ldp	q2, q0, [x8, #16]
	ldr	x9, [x8, #48]
	ldr	q1, [x8]
	sub	x8, x20, x21
	cmp	x8, #223
	str	x9, [x21, #216]
	stur	q0, [x21, #200]
	stur	q2, [x21, #184]
	stur	q1, [x21, #168]
	b.hi	.LBB45_12
	ldp	q2, q0, [x21, #16]
	ldr	x8, [x21, #48]
	ldr	q1, [x21]
	ldur	x9, [x29, #-32]
	str	x8, [x20, #48]
	stp	q2, q0, [x20, #16]
	str	q1, [x20]
	ldur	x8, [x21, #104]
	ldur	q0, [x21, #88]
	ldur	q1, [x21, #56]
	ldur	q2, [x21, #72]
	str	x8, [x23, #48]
	stp	q2, q0, [x23, #16]
	str	q1, [x23]
	ldp	q2, q0, [x21, #128]
	ldur	x8, [x21, #160]
	ldur	q1, [x21, #112]
	str	x8, [x24, #48]
	stp	q2, q0, [x24, #16]
	str	q1, [x24]
	ldur	x8, [x21, #216]
	ldur	q0, [x21, #200]
	ldur	q1, [x21, #168]
	ldur	q2, [x21, #184]
	str	x8, [x9, #48]
	stp	q2, q0, [x9, #16]
	str	q1, [x9]
	b	.LBB45_13
.LBB45_7:
	sub	x8, x20, x22
	cmp	x8, #447
	b.hi	.LBB45_10
	ldp	q2, q0, [x22, #16]
	mov	w2, #4
	ldr	x8, [x22, #48]
	ldr	q1, [x22]
	ldur	x9, [x29, #-48]
	str	x8, [x20, #48]
	stp	q2, q0, [x20, #16]
	str	q1, [x20]
	ldur	x8, [x22, #104]
	ldur	q0, [x22, #88]
	ldur	q1, [x22, #56]
	ldur	q2, [x22, #72]
	str	x8, [x9, #48]
	stp	q2, q0, [x9, #16]
	str	q1, [x9]
	ldur	x9, [x29, #-40]
	ldp	q2, q0, [x22, #128]
	ldur	x8, [x22, #160]
	ldur	q1, [x22, #112]
	str	x8, [x9, #48]
	stp	q2, q0, [x9, #16]
	str	q1, [x9]
	ldur	x9, [x29, #-32]
	ldur	x8, [x22, #216]
	ldur	q0, [x22, #200]
	ldur	q1, [x22, #168]
	ldur	q2, [x22, #184]
	str	x8, [x9, #48]
	stp	q2, q0, [x9, #16]
	str	q1, [x9]
	ldur	x9, [x29, #-56]
	ldp	q2, q0, [x22, #240]
	ldr	x8, [x22, #272]
	ldur	q1, [x22, #224]
	str	x8, [x9, #48]
	stp	q2, q0, [x9, #16]
	str	q1, [x9]
	add	x9, x22, #280
	ldp	q2, q0, [x9, #16]
	ldr	x8, [x9, #48]
	ldr	q1, [x9]
	add	x9, x20, #280
	str	x8, [x9, #48]
	stp	q2, q0, [x9, #16]
	str	q1, [x9]
	add	x9, x22, #392
	ldp	q2, q0, [x22, #352]
	ldr	x8, [x22, #384]
	ldr	q1, [x22, #336]
	str	x8, [x20, #384]
	stp	q2, q0, [x20, #352]
	str	q1, [x20, #336]
	ldp	q2, q0, [x9, #16]
	ldr	x8, [x9, #48]
	ldr	q1, [x9]
	add	x9, x20, #392
	str	x8, [x9, #48]
	stp	q2, q0, [x9, #16]
	str	q1, [x9]
	b	.LBB45_11
.LBB45_9:
	mov	w2, #1
	b	.LBB45_14
.LBB45_10:
	mov	x0, x20
	mov	x1, x22
	mov	w2, #448
	bl	memmove
	mov	w2, #4
.LBB45_11:
	ldp	x8, x1, [x29, #-16]
	ldur	x9, [x29, #-24]
	stp	x22, x9, [x8]
	b	.LBB45_14
.LBB45_12:
	ldp	q0, q1, [x21]
	ldp	q2, q3, [x21, #32]
	ldp	q4, q5, [x21, #64]
	ldp	q6, q7, [x21, #192]
	ldp	q16, q17, [x21, #96]
	ldp	q18, q19, [x21, #128]
	ldp	q20, q21, [x21, #160]
	stp	q0, q1, [x20]
	stp	q2, q3, [x20, #32]
	stp	q4, q5, [x20, #64]
	stp	q16, q17, [x20, #96]
	stp	q18, q19, [x20, #128]
	stp	q20, q21, [x20, #160]
	stp	q6, q7, [x20, #192]
.LBB45_13:
	ldp	x9, x8, [x29, #-24]
	mov	w2, #4
	ldur	x1, [x29, #-8]
	stp	x21, x9, [x8]
.LBB45_14:
	mov	x0, x20
	ldp	x20, x19, [sp, #224]
	ldp	x22, x21, [sp, #208]
	ldp	x24, x23, [sp, #192]
	ldp	x26, x25, [sp, #176]
	ldp	x28, x27, [sp, #160]
	ldp	x29, x30, [sp, #144]
	add	sp, sp, #240
	b	"core::slice::sort::small::insert_from::<#9d6850f96084634e>"
.Lfunc_end45:
	.size	"core::slice::sort::short::sort_half::<#9d6850f96084634e>", .Lfunc_end45-"core::slice::sort::short::sort_half::<#9d6850f96084634e>"

	.section	".text.core::slice::sort::stable::merge_sort::<#9d6850f96084634e>","ax",@progbits
	.p2align	2
	.type	"core::slice::sort::stable::merge_sort::<#9d6850f96084634e>",@function
"core::slice::sort::stable::merge_sort::<#9d6850f96084634e>":
	cmp	x1, #32
	b.hi	.LBB46_2
	b	"core::slice::sort::short::sort::<#9d6850f96084634e>"
.LBB46_2:
	stp	x29, x30, [sp, #-64]!
	stp	x20, x19, [sp, #48]
	lsr	x19, x1, #1
	mov	w8, #56
	stp	x22, x21, [sp, #32]
	mov	x22, x1
	mov	x29, sp
	mov	x1, x19
	str	x23, [sp, #16]
	madd	x20, x19, x8, x0
	mov	x21, x0
	mov	x23, x2
	bl	"core::slice::sort::stable::merge_sort::<#9d6850f96084634e>"
	sub	x1, x22, x19
	mov	x0, x20
	mov	x2, x23
	bl	"core::slice::sort::stable::merge_sort::<#9d6850f96084634e>"
	mov	x0, x21
	mov	x1, x22
	mov	x2, x19
	ldp	x20, x19, [sp, #48]
	mov	x3, x23
	ldp	x22, x21, [sp, #32]
	ldr	x23, [sp, #16]
	ldp	x29, x30, [sp], #64
	b	"core::slice::sort::merge::merge::<#9d6850f96084634e>"
.Lfunc_end46:
	.size	"core::slice::sort::stable::merge_sort::<#9d6850f96084634e>", .Lfunc_end46-"core::slice::sort::stable::merge_sort::<#9d6850f96084634e>"

	.section	".text.core::slice::sort::merge::merge::<#9d6850f96084634e>","ax",@progbits
	.p2align	2
	.type	"core::slice::sort::merge::merge::<#9d6850f96084634e>",@function
"core::slice::sort::merge::merge::<#9d6850f96084634e>":
	sub	sp, sp, #112
	lsr	x8, x1, #2
	stp	x22, x21, [sp, #80]
	sub	x21, x1, x2
	stp	x28, x27, [sp, #32]
	mov	x27, x3
	mov	x22, x1
	cmp	x8, x2
	stp	x20, x19, [sp, #96]
	mov	x19, x2
	ccmp	x8, x21, #2, ls
	mov	x20, x0
	stp	x29, x30, [sp, #16]
	cset	w8, ls
	cmp	x1, #1, lsl #12
	stp	x26, x25, [sp, #48]
	stp	x24, x23, [sp, #64]
	add	x29, sp, #16
	b.ls	.LBB47_7
	cbz	w8, .LBB47_7
	cmp	x22, #16, lsl #12
	b.ls	.LBB47_8
.LBB47_3:
	lsl	x8, x19, #6
	str	x27, [sp, #8]
	cmp	x19, x21
	ldp	x23, x27, [x27]
	sub	x25, x8, x19, lsl #3
	b.ls	.LBB47_12
	lsl	x9, x21, #6
	add	x8, x20, x25
	add	x24, x23, x25
	sub	x26, x9, x21, lsl #3
	sub	x9, x24, x8
	cmp	x9, x26
	b.hs	.LBB47_47
	cmp	x22, x19
	add	x9, x23, x25
	sub	x10, x22, x19
	b.eq	.LBB47_48
.LBB47_6:
	ldp	q2, q0, [x8, #16]
	subs	x10, x10, #1
	ldr	x11, [x8, #48]
	ldr	q1, [x8], #56
	str	x11, [x9, #48]
	stp	q2, q0, [x9, #16]
	str	q1, [x9], #56
	b.ne	.LBB47_6
	b	.LBB47_48
.LBB47_7:
	cmp	x22, #1, lsl #12
	eor	w8, w8, #0x1
	csel	w8, wzr, w8, ls
	tbnz	w8, #0, .LBB47_3
.LBB47_8:
	lsl	x8, x22, #6
	ldp	x23, x24, [x27]
	sub	x2, x8, x22, lsl #3
	sub	x8, x23, x20
	cmp	x8, x2
	b.hs	.LBB47_24
	mov	x8, x23
	mov	x9, x20
	mov	x10, x22
	cbz	x22, .LBB47_11
.LBB47_10:
	ldp	q2, q0, [x9, #16]
	subs	x10, x10, #1
	ldr	x11, [x9, #48]
	ldr	q1, [x9], #56
	str	x11, [x8, #48]
	stp	q2, q0, [x8, #16]
	str	q1, [x8], #56
	b.ne	.LBB47_10
.LBB47_11:
	mov	x25, xzr
	cbnz	x19, .LBB47_25
	b	.LBB47_41
.LBB47_12:
	sub	x8, x23, x20
	cmp	x8, x25
	b.hs	.LBB47_61
	mov	x8, x23
	mov	x9, x20
	mov	x10, x19
	cbz	x19, .LBB47_67
.LBB47_14:
	ldp	q2, q0, [x9, #16]
	subs	x10, x10, #1
	ldr	x11, [x9, #48]
	ldr	q1, [x9], #56
	str	x11, [x8, #48]
	stp	q2, q0, [x8, #16]
	str	q1, [x8], #56
	b.ne	.LBB47_14
	mov	x21, xzr
	cbz	x19, .LBB47_62
.LBB47_16:
	cmp	x22, x19
	mov	x24, x21
	b.ls	.LBB47_63
	mov	x21, xzr
	mov	x24, xzr
	mov	x25, x19
	b	.LBB47_20
.LBB47_18:
	add	x24, x24, #1
	cmp	x24, x19
	add	x21, x21, #56
	b.hs	.LBB47_63
.LBB47_19:
	cmp	x25, x22
	b.hs	.LBB47_63
.LBB47_20:
	mov	w8, #56
	madd	x9, x25, x8, x20
	madd	x8, x24, x8, x23
	ldp	x0, x1, [x9]
	ldp	x2, x3, [x8]
	bl	"amqp_value_core::types::short_string::ShortStringOrd::cmp"
	ands	w8, w0, #0xff
	mov	x9, x20
	mov	x10, x25
	b.eq	.LBB47_22
	mov	x9, x23
	mov	x10, x24
.LBB47_22:
	mov	w11, #56
	madd	x9, x10, x11, x9
	add	x11, x20, x21
	ldp	q2, q0, [x9, #16]
	ldr	x10, [x9, #48]
	ldr	q1, [x9]
	str	x10, [x11, #48]
	stp	q2, q0, [x11, #16]
	str	q1, [x11]
	cbnz	w8, .LBB47_18
	add	x25, x25, #1
	cmp	x24, x19
	add	x21, x21, #56
	b.lo	.LBB47_19
	b	.LBB47_63
.LBB47_24:
	mov	x0, x23
	mov	x1, x20
	bl	memmove
	mov	x25, xzr
	cbz	x19, .LBB47_41
.LBB47_25:
	cmp	x22, x19
	b.ls	.LBB47_41
	str	x27, [sp, #8]
	mov	x27, xzr
	mov	x25, xzr
	mov	x28, x20
	mov	x21, x19
	mov	x26, x22
.LBB47_27:
	mov	w8, #56
	madd	x9, x21, x8, x23
	madd	x8, x27, x8, x23
	ldp	x0, x1, [x9]
	ldp	x2, x3, [x8]
	bl	"amqp_value_core::types::short_string::ShortStringOrd::cmp"
	ands	w8, w0, #0xff
	mov	x9, x21
	b.eq	.LBB47_29
	mov	x9, x27
.LBB47_29:
	mov	w10, #56
	madd	x9, x9, x10, x23
	ldp	q2, q0, [x9, #16]
	ldr	x10, [x9, #48]
	ldr	q1, [x9]
	str	x10, [x28, #48]
	stp	q2, q0, [x28, #16]
	str	q1, [x28]
	cbnz	w8, .LBB47_31
	add	x21, x21, #1
	cmp	x27, x19
	b.lo	.LBB47_32
	b	.LBB47_37
.LBB47_31:
	add	x27, x27, #1
	cmp	x27, x19
	b.hs	.LBB47_37
.LBB47_32:
	cmp	x21, x22
	b.hs	.LBB47_37
	mov	w8, #56
	madd	x9, x22, x8, x23
	madd	x8, x19, x8, x23
	ldp	x0, x1, [x9, #-56]
	ldp	x2, x3, [x8, #-56]
	bl	"amqp_value_core::types::short_string::ShortStringOrd::cmp"
	and	w8, w0, #0xff
	mov	x9, x19
	cbz	w8, .LBB47_35
	mov	x9, x22
.LBB47_35:
	mov	w10, #56
	sub	x26, x26, #1
	madd	x9, x9, x10, x23
	madd	x10, x26, x10, x20
	ldur	x11, [x9, #-8]
	ldur	q0, [x9, #-24]
	ldur	q1, [x9, #-56]
	ldur	q2, [x9, #-40]
	str	x11, [x10, #48]
	stp	q2, q0, [x10, #16]
	str	q1, [x10]
	cbnz	w8, .LBB47_39
	sub	x19, x19, #1
.LBB47_37:
	cmp	x27, x19
	add	x25, x25, #1
	b.hs	.LBB47_40
.LBB47_38:
	cmp	x21, x22
	add	x28, x28, #56
	b.lo	.LBB47_27
	b	.LBB47_40
.LBB47_39:
	sub	x22, x22, #1
	cmp	x27, x19
	add	x25, x25, #1
	b.lo	.LBB47_38
.LBB47_40:
	cmp	x27, x19
	csel	x8, x27, x21, lo
	ldr	x27, [sp, #8]
	lsl	x9, x8, #6
	sub	x9, x9, x8, lsl #3
	b	.LBB47_42
.LBB47_41:
	mov	x26, x22
	mov	x9, x25
.LBB47_42:
	mov	w8, #56
	add	x1, x23, x9
	madd	x0, x25, x8, x20
	sub	x8, x26, x25
	lsl	x10, x8, #6
	sub	x2, x10, x8, lsl #3
	sub	x9, x0, x1
	cmp	x9, x2
	b.hs	.LBB47_45
	cmp	x26, x25
	b.eq	.LBB47_46
.LBB47_44:
	ldp	q2, q0, [x1, #16]
	subs	x8, x8, #1
	ldr	x9, [x1, #48]
	ldr	q1, [x1], #56
	str	x9, [x0, #48]
	stp	q2, q0, [x0, #16]
	str	q1, [x0], #56
	b.ne	.LBB47_44
	b	.LBB47_46
.LBB47_45:
	bl	memmove
.LBB47_46:
	stp	x23, x24, [x27]
	b	.LBB47_72
.LBB47_47:
	add	x0, x23, x25
	add	x1, x20, x25
	mov	x2, x26
	bl	memmove
.LBB47_48:
	cmp	x22, x19
	b.ls	.LBB47_58
	mov	w8, #56
	mov	x9, #-56
	mov	x25, x19
	madd	x21, x22, x8, x9
	b	.LBB47_52
.LBB47_50:
	mov	x22, x26
	cbz	x25, .LBB47_57
.LBB47_51:
	cmp	x22, x19
	sub	x21, x21, #56
	b.ls	.LBB47_57
.LBB47_52:
	sub	x26, x22, #1
	mov	w8, #56
	sub	x28, x25, #1
	madd	x9, x26, x8, x23
	madd	x8, x28, x8, x20
	ldp	x0, x1, [x9]
	ldp	x2, x3, [x8]
	bl	"amqp_value_core::types::short_string::ShortStringOrd::cmp"
	ands	w8, w0, #0xff
	b.eq	.LBB47_54
	mov	x9, x23
	sub	x10, x22, #1
	b	.LBB47_55
.LBB47_54:
	mov	x9, x20
	sub	x10, x25, #1
.LBB47_55:
	mov	w11, #56
	madd	x9, x10, x11, x9
	add	x11, x20, x21
	ldp	q2, q0, [x9, #16]
	ldr	x10, [x9, #48]
	ldr	q1, [x9]
	str	x10, [x11, #48]
	stp	q2, q0, [x11, #16]
	str	q1, [x11]
	cbnz	w8, .LBB47_50
	mov	x25, x28
	cbnz	x28, .LBB47_51
.LBB47_57:
	sub	x21, x22, x19
	lsl	x8, x25, #6
	lsl	x9, x21, #6
	sub	x25, x8, x25, lsl #3
	sub	x26, x9, x21, lsl #3
.LBB47_58:
	add	x0, x20, x25
	sub	x8, x0, x24
	cmp	x8, x26
	b.hs	.LBB47_66
	cmp	x22, x19
	b.eq	.LBB47_71
.LBB47_60:
	ldp	q2, q0, [x24, #16]
	subs	x21, x21, #1
	ldr	x8, [x24, #48]
	ldr	q1, [x24], #56
	str	x8, [x0, #48]
	stp	q2, q0, [x0, #16]
	str	q1, [x0], #56
	b.ne	.LBB47_60
	b	.LBB47_71
.LBB47_61:
	mov	x0, x23
	mov	x1, x20
	mov	x2, x25
	bl	memmove
	mov	x21, xzr
	cbnz	x19, .LBB47_16
.LBB47_62:
	mov	x24, x21
.LBB47_63:
	mov	w8, #56
	add	x20, x20, x21
	madd	x1, x24, x8, x23
	sub	x8, x19, x24
	lsl	x9, x8, #6
	sub	x2, x9, x8, lsl #3
	sub	x9, x20, x1
	cmp	x9, x2
	b.hs	.LBB47_69
	cmp	x19, x24
	b.eq	.LBB47_71
.LBB47_65:
	ldp	q2, q0, [x1, #16]
	subs	x8, x8, #1
	ldr	x9, [x1, #48]
	ldr	q1, [x1], #56
	str	x9, [x20, #48]
	stp	q2, q0, [x20, #16]
	str	q1, [x20], #56
	b.ne	.LBB47_65
	b	.LBB47_71
.LBB47_66:
	mov	x1, x24
	mov	x2, x26
	b	.LBB47_70
.LBB47_67:
	sub	x8, x20, x23
	cmp	x8, x25
	b.lo	.LBB47_71
	mov	x2, xzr
	mov	x1, x23
.LBB47_69:
	mov	x0, x20
.LBB47_70:
	bl	memmove
.LBB47_71:
	ldr	x8, [sp, #8]
	stp	x23, x27, [x8]
.LBB47_72:
	ldp	x20, x19, [sp, #96]
	ldp	x22, x21, [sp, #80]
	ldp	x24, x23, [sp, #64]
	ldp	x26, x25, [sp, #48]
	ldp	x28, x27, [sp, #32]
	ldp	x29, x30, [sp, #16]
	add	sp, sp, #112
	ret
.Lfunc_end47:
	.size	"core::slice::sort::merge::merge::<#9d6850f96084634e>", .Lfunc_end47-"core::slice::sort::merge::merge::<#9d6850f96084634e>"

	.section	".text.core::slice::sort::pivot::median_of_medians::<#9d6850f96084634e>","ax",@progbits
	.p2align	2
	.type	"core::slice::sort::pivot::median_of_medians::<#9d6850f96084634e>",@function
"core::slice::sort::pivot::median_of_medians::<#9d6850f96084634e>":
	sub	sp, sp, #112
	stp	x22, x21, [sp, #80]
	mov	x21, x2
	cmp	x4, #8
	stp	x20, x19, [sp, #96]
	mov	x20, x3
	mov	x19, x1
	mov	x22, x0
	stp	x29, x30, [sp, #16]
	add	x29, sp, #16
	stp	x28, x27, [sp, #32]
	stp	x26, x25, [sp, #48]
	stp	x24, x23, [sp, #64]
	b.hs	.LBB48_3
	mov	w25, #56
	madd	x8, x19, x25, x22
	madd	x9, x21, x25, x22
	ldp	x26, x27, [x8]
	ldp	x23, x24, [x9]
	mov	x0, x26
	mov	x1, x27
	mov	x2, x23
	mov	x3, x24
	bl	"amqp_value_core::types::short_string::ShortStringOrd::cmp"
	madd	x8, x20, x25, x22
	ands	w9, w0, #0xff
	mov	x0, x26
	mov	x1, x27
	str	w9, [sp, #8]
	cset	w28, eq
	ldp	x22, x25, [x8]
	mov	x2, x22
	mov	x3, x25
	bl	"amqp_value_core::types::short_string::ShortStringOrd::cmp"
	tst	w0, #0xff
	cset	w8, eq
	eor	w8, w28, w8
	tbnz	w8, #0, .LBB48_5
	ldr	w8, [sp, #8]
	mov	x0, x23
	mov	x1, x24
	mov	x2, x22
	mov	x3, x25
	cmp	w8, #0
	cset	w19, eq
	bl	"amqp_value_core::types::short_string::ShortStringOrd::cmp"
	tst	w0, #0xff
	cset	w8, eq
	eor	w8, w19, w8
	cmp	w8, #0
	csel	x19, x20, x21, ne
	b	.LBB48_5
.LBB48_3:
	lsr	x23, x4, #3
	mov	x0, x22
	mov	x1, x19
	lsl	x8, x23, #3
	lsl	x24, x23, #2
	mov	x4, x23
	sub	x25, x8, x23
	add	x2, x24, x19
	add	x3, x25, x19
	bl	"core::slice::sort::pivot::median_of_medians::<#9d6850f96084634e>"
	mov	x19, x0
	add	x2, x24, x21
	add	x3, x25, x21
	mov	x0, x22
	mov	x1, x21
	mov	x4, x23
	bl	"core::slice::sort::pivot::median_of_medians::<#9d6850f96084634e>"
	mov	x21, x0
	add	x2, x24, x20
	add	x3, x25, x20
	mov	x0, x22
	mov	x1, x20
	mov	x4, x23
	bl	"core::slice::sort::pivot::median_of_medians::<#9d6850f96084634e>"
	mov	w25, #56
	mov	x20, x0
	str	x21, [sp, #8]
	madd	x8, x19, x25, x22
	madd	x9, x21, x25, x22
	ldp	x26, x27, [x8]
	ldp	x23, x24, [x9]
	mov	x0, x26
	mov	x1, x27
	mov	x2, x23
	mov	x3, x24
	bl	"amqp_value_core::types::short_string::ShortStringOrd::cmp"
	madd	x8, x20, x25, x22
	ands	w28, w0, #0xff
	mov	x0, x26
	mov	x1, x27
	cset	w21, eq
	ldp	x22, x25, [x8]
	mov	x2, x22
	mov	x3, x25
	bl	"amqp_value_core::types::short_string::ShortStringOrd::cmp"
	tst	w0, #0xff
	cset	w8, eq
	eor	w8, w21, w8
	tbnz	w8, #0, .LBB48_5
	cmp	w28, #0
	mov	x0, x23
	mov	x1, x24
	mov	x2, x22
	mov	x3, x25
	cset	w19, eq
	bl	"amqp_value_core::types::short_string::ShortStringOrd::cmp"
	tst	w0, #0xff
	cset	w8, eq
	eor	w8, w19, w8
	cmp	w8, #0
	ldr	x8, [sp, #8]
	csel	x19, x20, x8, ne
.LBB48_5:
	mov	x0, x19
	ldp	x20, x19, [sp, #96]
	ldp	x22, x21, [sp, #80]
	ldp	x24, x23, [sp, #64]
	ldp	x26, x25, [sp, #48]
	ldp	x28, x27, [sp, #32]
	ldp	x29, x30, [sp, #16]
	add	sp, sp, #112
	ret
.Lfunc_end48:
	.size	"core::slice::sort::pivot::median_of_medians::<#9d6850f96084634e>", .Lfunc_end48-"core::slice::sort::pivot::median_of_medians::<#9d6850f96084634e>"

	.section	".text.core::slice::sort::runs::climb::<#9d6850f96084634e>","ax",@progbits
	.p2align	2
	.type	"core::slice::sort::runs::climb::<#9d6850f96084634e>",@function
"core::slice::sort::runs::climb::<#9d6850f96084634e>":
	sub	sp, sp, #256
	stp	x26, x25, [sp, #192]
	mov	x26, x0
	subs	x8, x2, x4
	stp	x22, x21, [sp, #224]
	mov	w21, w5
	stp	x20, x19, [sp, #240]
	mov	x19, x4
	stp	x29, x30, [sp, #160]
	add	x29, sp, #160
	stp	x28, x27, [sp, #176]
	stp	x24, x23, [sp, #208]
	str	w6, [sp, #52]
	str	x2, [sp, #40]
	str	xzr, [sp, #88]
	b.ne	.LBB49_2
	str	x19, [x26]
	strb	w21, [x26, #8]
	stur	wzr, [x26, #9]
	str	wzr, [x26, #12]
	str	x19, [x26, #16]
	strb	w21, [x26, #24]
	stur	xzr, [x26, #25]
	str	xzr, [x26, #32]
	b	.LBB49_59
.LBB49_2:
	ldr	x9, [x29, #96]
	mov	x24, x3
	mov	x25, x1
	cmp	x8, x7
	str	x9, [sp, #32]
	b.hs	.LBB49_4
	ldr	x0, [sp, #40]
	mov	w8, wzr
	b	.LBB49_44
.LBB49_4:
	ldr	x1, [sp, #40]
	mov	x0, x25
	mov	x2, x19
	mov	x22, x7
	bl	"core::slice::sort::pivot::run_from::<#9d6850f96084634e>"
	sub	x9, x0, x19
	mov	x7, x22
	cmp	x9, x22
	b.hs	.LBB49_6
	mov	w8, wzr
	add	x0, x7, x19
	b	.LBB49_44
.LBB49_6:
	tbz	w1, #0, .LBB49_43
	mov	w8, #56
	mov	x20, x0
	cmp	x9, #15
	madd	x8, x19, x8, x25
	b.ls	.LBB49_9
	lsr	x2, x9, #1
	mov	w10, #56
	mov	x0, x8
	sub	x9, x9, x2
	madd	x1, x9, x10, x8
	bl	"core::slice::edits::mirror::<24'(,)::<#8af3e1b4e9e21b57>>"
	b	.LBB49_15
.LBB49_9:
	subs	x11, x9, #2
	b.lo	.LBB49_15
	lsr	x10, x11, #1
	subs	x12, x9, #1
	b.eq	.LBB49_12
	mov	w13, #56
	ldr	q3, [x8, #32]
	ldr	x14, [x8, #48]
	madd	x12, x12, x13, x8
	ldp	q1, q0, [x12, #16]
	ldr	x13, [x12, #48]
	ldr	q2, [x12]
	str	x13, [x8, #48]
	str	q0, [x8, #32]
	ldp	q4, q0, [x8]
	stp	q2, q1, [x8]
	str	q3, [x12, #32]
	stp	q4, q0, [x12]
	str	x14, [x12, #48]
.LBB49_12:
	mov	x0, x20
	mov	x7, x22
	cbz	x10, .LBB49_43
	cmp	x11, #1
	b.ls	.LBB49_16
	mov	w12, #56
	ldur	q2, [x8, #56]
	ldr	x13, [x8, #104]
	madd	x11, x11, x12, x8
	ldp	q0, q1, [x11]
	ldr	q3, [x11, #32]
	ldr	x12, [x11, #48]
	stur	q0, [x8, #56]
	ldur	q0, [x8, #88]
	stur	q3, [x8, #88]
	ldur	q3, [x8, #72]
	str	x12, [x8, #104]
	stur	q1, [x8, #72]
	stp	q2, q3, [x11]
	str	q0, [x11, #32]
	str	x13, [x11, #48]
	b	.LBB49_18
.LBB49_15:
	mov	w8, #1
	mov	x0, x20
	mov	x7, x22
	b	.LBB49_44
.LBB49_16:
	cbnz	x11, .LBB49_18
	mov	w12, #56
	ldur	q1, [x8, #88]
	ldur	q0, [x8, #72]
	madd	x11, x11, x12, x8
	ldr	x12, [x8, #104]
	ldur	q2, [x8, #56]
	ldr	q3, [x11, #32]
	str	q1, [x11, #32]
	ldr	x13, [x11, #48]
	ldp	q4, q1, [x11]
	str	x12, [x11, #48]
	stp	q2, q0, [x11]
	stur	q3, [x8, #88]
	stur	q4, [x8, #56]
	stur	q1, [x8, #72]
	str	x13, [x8, #104]
.LBB49_18:
	cmp	x10, #1
	b.eq	.LBB49_43
	sub	x11, x9, #3
	cmp	x11, #2
	b.ls	.LBB49_21
	mov	w12, #56
	ldr	q3, [x8, #144]
	ldr	x13, [x8, #160]
	madd	x11, x11, x12, x8
	ldp	q1, q0, [x11, #16]
	ldr	x12, [x11, #48]
	ldr	q2, [x11]
	str	x12, [x8, #160]
	str	q0, [x8, #144]
	ldp	q4, q0, [x8, #112]
	stp	q2, q1, [x8, #112]
	str	q3, [x11, #32]
	stp	q4, q0, [x11]
	str	x13, [x11, #48]
	b	.LBB49_23
.LBB49_21:
	b.eq	.LBB49_23
	mov	w12, #56
	ldp	q1, q0, [x8, #128]
	madd	x11, x11, x12, x8
	ldr	x12, [x8, #160]
	ldr	q2, [x8, #112]
	ldr	q3, [x11, #32]
	str	q0, [x11, #32]
	ldr	x13, [x11, #48]
	ldp	q4, q0, [x11]
	str	x12, [x11, #48]
	stp	q2, q1, [x11]
	str	q3, [x8, #144]
	stp	q4, q0, [x8, #112]
	str	x13, [x8, #160]
.LBB49_23:
	cmp	x10, #2
	b.eq	.LBB49_43
	sub	x11, x9, #4
	cmp	x11, #3
	b.ls	.LBB49_26
	mov	w12, #56
	ldur	q2, [x8, #168]
	ldr	x13, [x8, #216]
	madd	x11, x11, x12, x8
	ldp	q0, q1, [x11]
	ldr	q3, [x11, #32]
	ldr	x12, [x11, #48]
	stur	q0, [x8, #168]
	ldur	q0, [x8, #200]
	stur	q3, [x8, #200]
	ldur	q3, [x8, #184]
	str	x12, [x8, #216]
	stur	q1, [x8, #184]
	stp	q2, q3, [x11]
	str	q0, [x11, #32]
	str	x13, [x11, #48]
	b	.LBB49_28
.LBB49_26:
	b.eq	.LBB49_28
	mov	w12, #56
	ldur	q1, [x8, #200]
	ldur	q0, [x8, #184]
	madd	x11, x11, x12, x8
	ldr	x12, [x8, #216]
	ldur	q2, [x8, #168]
	ldr	q3, [x11, #32]
	str	q1, [x11, #32]
	ldr	x13, [x11, #48]
	ldp	q4, q1, [x11]
	str	x12, [x11, #48]
	stp	q2, q0, [x11]
	stur	q3, [x8, #200]
	stur	q4, [x8, #168]
	stur	q1, [x8, #184]
	str	x13, [x8, #216]
.LBB49_28:
	cmp	x10, #3
	b.eq	.LBB49_43
	sub	x11, x9, #5
	cmp	x11, #4
	b.ls	.LBB49_31
	mov	w12, #56
	ldr	q3, [x8, #256]
	ldr	x13, [x8, #272]
	madd	x11, x11, x12, x8
	ldp	q1, q0, [x11, #16]
	ldr	x12, [x11, #48]
	ldr	q2, [x11]
	str	x12, [x8, #272]
	str	q0, [x8, #256]
	ldp	q4, q0, [x8, #224]
	stp	q2, q1, [x8, #224]
	str	q3, [x11, #32]
	stp	q4, q0, [x11]
	str	x13, [x11, #48]
	b	.LBB49_33
.LBB49_31:
	b.eq	.LBB49_33
	mov	w12, #56
	ldp	q1, q0, [x8, #240]
	madd	x11, x11, x12, x8
	ldr	x12, [x8, #272]
	ldr	q2, [x8, #224]
	ldr	q3, [x11, #32]
	str	q0, [x11, #32]
	ldr	x13, [x11, #48]
	ldp	q4, q0, [x11]
	str	x12, [x11, #48]
	stp	q2, q1, [x11]
	str	q3, [x8, #256]
	stp	q4, q0, [x8, #224]
	str	x13, [x8, #272]
.LBB49_33:
	cmp	x10, #4
	b.eq	.LBB49_43
	sub	x11, x9, #6
	cmp	x11, #5
	b.ls	.LBB49_36
	mov	w12, #56
	add	x13, x8, #280
	ldr	x14, [x8, #328]
	madd	x11, x11, x12, x8
	ldr	q3, [x13, #32]
	ldp	q1, q0, [x11, #16]
	ldr	x12, [x11, #48]
	ldr	q2, [x11]
	str	x12, [x8, #328]
	str	q0, [x13, #32]
	ldp	q4, q0, [x13]
	stp	q2, q1, [x13]
	str	q3, [x11, #32]
	stp	q4, q0, [x11]
	str	x14, [x11, #48]
	b	.LBB49_38
.LBB49_36:
	b.eq	.LBB49_38
	mov	w12, #56
	ldr	x13, [x8, #328]
	madd	x11, x11, x12, x8
	add	x12, x8, #280
	ldp	q1, q0, [x12, #16]
	ldr	q2, [x12]
	ldr	q3, [x11, #32]
	str	q0, [x11, #32]
	ldr	x14, [x11, #48]
	ldp	q4, q0, [x11]
	str	x13, [x11, #48]
	stp	q2, q1, [x11]
	str	q3, [x12, #32]
	stp	q4, q0, [x12]
	str	x14, [x8, #328]
.LBB49_38:
	cmp	x10, #5
	b.eq	.LBB49_43
	sub	x9, x9, #7
	cmp	x9, #6
	b.ls	.LBB49_41
	mov	w10, #56
	ldr	q3, [x8, #368]
	ldr	x11, [x8, #384]
	madd	x9, x9, x10, x8
	ldp	q1, q0, [x9, #16]
	ldr	x10, [x9, #48]
	ldr	q2, [x9]
	str	x10, [x8, #384]
	str	q0, [x8, #368]
	ldp	q4, q0, [x8, #336]
	stp	q2, q1, [x8, #336]
	str	q3, [x9, #32]
	stp	q4, q0, [x9]
	str	x11, [x9, #48]
	b	.LBB49_43
.LBB49_41:
	b.eq	.LBB49_43
	mov	w10, #56
	ldp	q1, q0, [x8, #352]
	madd	x9, x9, x10, x8
	ldr	x10, [x8, #384]
	ldr	q2, [x8, #336]
	ldr	q3, [x9, #32]
	str	q0, [x9, #32]
	ldr	x11, [x9, #48]
	ldp	q4, q0, [x9]
	str	x10, [x9, #48]
	stp	q2, q1, [x9]
	str	q3, [x8, #368]
	stp	q4, q0, [x8, #336]
	str	x11, [x8, #384]
.LBB49_43:
	mov	w8, #1
.LBB49_44:
	ldr	x12, [sp, #32]
	add	x10, x19, x24
	add	x11, x0, x19
	add	x22, sp, #56
	str	x19, [sp, #56]
	mul	x10, x12, x10
	strb	w21, [sp, #64]
	stur	wzr, [sp, #65]
	mul	x11, x11, x12
	str	wzr, [sp, #68]
	str	x0, [sp, #72]
	strb	w8, [sp, #80]
	stur	wzr, [sp, #81]
	eor	x10, x11, x10
	ldr	w11, [sp, #52]
	clz	x10, x10
	add	w6, w10, #1
	cmp	w11, w10
	stp	wzr, w6, [sp, #84]
	b.ls	.LBB49_46
	mov	w9, wzr
	b	.LBB49_58
.LBB49_46:
	mov	w8, #56
	ldr	x28, [x29, #104]
	mov	x23, x7
	madd	x27, x24, x8, x25
	str	x26, [sp, #24]
	b	.LBB49_50
.LBB49_47:
	add	x8, x25, x21
	ldp	x0, x1, [x8]
	ldp	x2, x3, [x8, #-56]
	bl	"amqp_value_core::types::short_string::ShortStringOrd::cmp"
	tst	w0, #0xff
	b.eq	.LBB49_56
.LBB49_48:
	mov	w21, #1
.LBB49_49:
	ldr	w6, [sp, #88]
	ldr	w8, [sp, #52]
	strb	w21, [sp, #64]
	stur	wzr, [x22, #9]
	cmp	w8, w6
	stur	wzr, [x22, #12]
	b.hs	.LBB49_57
.LBB49_50:
	ldp	x8, x2, [sp, #32]
	add	x0, sp, #56
	ldr	x4, [sp, #72]
	ldrb	w5, [sp, #80]
	mov	x1, x25
	mov	x3, x19
	mov	x7, x23
	mov	x20, x19
	stp	x8, x28, [sp]
	bl	"core::slice::sort::runs::climb::<#9d6850f96084634e>"
	ldrb	w26, [sp, #64]
	ldr	x19, [sp, #56]
	orr	w8, w26, w21
	tbnz	w8, #0, .LBB49_52
	mov	w21, w26
	b	.LBB49_49
.LBB49_52:
	tbz	w21, #0, .LBB49_54
	lsl	x8, x20, #6
	sub	x21, x8, x20, lsl #3
	tbnz	w26, #0, .LBB49_47
	b	.LBB49_55
.LBB49_54:
	sub	x8, x20, x24
	mov	w9, #126
	sub	x1, x20, x24
	clz	x8, x8
	sub	x2, x20, x24
	mov	x0, x27
	sub	w3, w9, w8, lsl #1
	mov	x4, x28
	bl	"core::slice::sort::stable::quicksort::<#9d6850f96084634e>"
	lsl	x8, x20, #6
	sub	x21, x8, x20, lsl #3
	tbnz	w26, #0, .LBB49_47
.LBB49_55:
	sub	x8, x19, x20
	mov	w9, #126
	add	x0, x25, x21
	clz	x8, x8
	sub	x1, x19, x20
	sub	x2, x19, x20
	sub	w3, w9, w8, lsl #1
	mov	x4, x28
	bl	"core::slice::sort::stable::quicksort::<#9d6850f96084634e>"
	b	.LBB49_47
.LBB49_56:
	sub	x2, x20, x24
	sub	x1, x19, x24
	mov	x0, x27
	mov	x3, x28
	bl	"core::slice::sort::merge::merge::<#9d6850f96084634e>"
	b	.LBB49_48
.LBB49_57:
	ldr	x0, [sp, #72]
	ldrb	w8, [sp, #80]
	ldr	w9, [sp, #92]
	ldr	x26, [sp, #24]
.LBB49_58:
	ldur	w10, [x22, #9]
	ldur	w11, [x22, #12]
	strb	w8, [x26, #24]
	ldur	w8, [x22, #28]
	str	x19, [x26]
	stur	w10, [x26, #9]
	ldur	w10, [x22, #25]
	strb	w21, [x26, #8]
	str	w11, [x26, #12]
	str	x0, [x26, #16]
	stur	w10, [x26, #25]
	stp	w8, w6, [x26, #28]
	str	w9, [x26, #36]
.LBB49_59:
	ldp	x20, x19, [sp, #240]
	ldp	x22, x21, [sp, #224]
	ldp	x24, x23, [sp, #208]
	ldp	x26, x25, [sp, #192]
	ldp	x28, x27, [sp, #176]
	ldp	x29, x30, [sp, #160]
	add	sp, sp, #256
	ret
.Lfunc_end49:
	.size	"core::slice::sort::runs::climb::<#9d6850f96084634e>", .Lfunc_end49-"core::slice::sort::runs::climb::<#9d6850f96084634e>"

	.section	".text.unlikely.std_alloc::vec::Vec::grow_amortized::<#6fdb356ad8f82b1c>","ax",@progbits
	.p2align	2
	.type	"std_alloc::vec::Vec::grow_amortized::<#6fdb356ad8f82b1c>",@function
"std_alloc::vec::Vec::grow_amortized::<#6fdb356ad8f82b1c>":
	ldr	x8, [x0, #8]
	cmn	x8, x1
	b.lo	.LBB50_2
	mov	w0, wzr
	ret
.LBB50_2:
	stp	x29, x30, [sp, #-32]!
	ldr	x9, [x0, #16]
	add	x10, x8, x1
	mov	w11, #4
	cmp	x10, #4
	stp	x20, x19, [sp, #16]
	mov	x29, sp
	lsl	x12, x9, #1
	csel	x11, x10, x11, hi
	lsr	x13, x9, #62
	cmp	x11, x12
	csel	x10, x11, x12, hi
	cmp	x13, #0
	csel	x19, x10, x11, eq
	mov	x11, #-7378697629483820647
	movk	x11, #409, lsl #48
	cmp	x19, x11
	b.hi	.LBB50_7
	cbz	x9, .LBB50_6
	add	x8, x8, x8, lsl #2
	add	x9, x19, x19, lsl #2
	mov	x20, x0
	ldr	x0, [x0]
	mov	w3, #8
	lsl	x1, x8, #4
	lsl	x2, x9, #4
	bl	rattle_realloc
	tbz	w0, #0, .LBB50_7
.LBB50_5:
	mov	w0, #1
	str	x1, [x20]
	str	x19, [x20, #16]
	ldp	x20, x19, [sp, #16]
	ldp	x29, x30, [sp], #32
	ret
.LBB50_6:
	add	x8, x10, x10, lsl #2
	mov	x20, x0
	mov	w1, #8
	lsl	x0, x8, #4
	bl	rattle_alloc
	tbnz	w0, #0, .LBB50_5
.LBB50_7:
	mov	w0, wzr
	ldp	x20, x19, [sp, #16]
	ldp	x29, x30, [sp], #32
	ret
.Lfunc_end50:
	.size	"std_alloc::vec::Vec::grow_amortized::<#6fdb356ad8f82b1c>", .Lfunc_end50-"std_alloc::vec::Vec::grow_amortized::<#6fdb356ad8f82b1c>"

	.section	".text.std_collections::btree::build::pop_distinct::<#920bafd588459e79>","ax",@progbits
	.p2align	2
	.type	"std_collections::btree::build::pop_distinct::<#920bafd588459e79>",@function
"std_collections::btree::build::pop_distinct::<#920bafd588459e79>":
	sub	sp, sp, #224
	ldp	x10, x8, [x1]
	mov	w9, #56
	stp	x28, x27, [sp, #144]
	stp	x22, x21, [sp, #192]
	subs	x8, x8, #1
	stp	x26, x25, [sp, #160]
	madd	x9, x8, x9, x10
	str	x8, [x1, #8]
	stp	x24, x23, [sp, #176]
	stp	x29, x30, [sp, #128]
	add	x29, sp, #128
	stp	x20, x19, [sp, #208]
	str	x0, [sp]
	ldur	q0, [x9, #28]
	ldp	x22, x28, [x9]
	ldr	x27, [x9, #16]
	ldrb	w26, [x9, #24]
	ldrb	w25, [x9, #25]
	str	q0, [sp, #64]
	ldur	q0, [x9, #40]
	ldrh	w24, [x9, #26]
	stur	q0, [sp, #76]
	b.eq	.LBB51_6
	sub	x9, x29, #32
	orr	x9, x9, #0x4
	stp	x1, x9, [sp, #8]
	b	.LBB51_3
.LBB51_2:
	ldr	q0, [sp, #32]
	ldur	q1, [sp, #44]
	sub	x0, x29, #32
	ldr	x8, [sp, #16]
	sturb	w26, [x29, #-32]
	sturb	w25, [x29, #-31]
	sturh	w24, [x29, #-30]
	str	q0, [x8]
	stur	q1, [x8, #12]
	bl	"amqp_value_core::amqp_value_core++value++AMQPValue+Destruct::drop"
	ldr	x1, [sp, #8]
	mov	w9, w28
	mov	w25, w28
	ldr	x28, [sp, #24]
	mov	x22, x20
	mov	w24, w23
	ldr	x8, [x1, #8]
	mov	w26, w19
	mov	x27, x21
	cbz	x8, .LBB51_7
.LBB51_3:
	sub	x19, x8, #1
	mov	w8, #56
	ldr	x9, [x1]
	madd	x23, x19, x8, x9
	mov	x0, x22
	mov	x20, x1
	mov	x1, x28
	ldp	x2, x3, [x23]
	bl	"amqp_value_core::types::short_string::ShortStringOrd::cmp"
	tst	w0, #0xff
	b.eq	.LBB51_8
	str	x19, [x20, #8]
	ldr	q0, [sp, #64]
	ldur	q1, [sp, #76]
	ldp	x20, x8, [x23]
	ldr	x21, [x23, #16]
	str	q0, [sp, #32]
	ldur	q0, [x23, #28]
	ldrb	w19, [x23, #24]
	stur	q1, [sp, #44]
	ldur	q1, [x23, #40]
	ldrb	w28, [x23, #25]
	ldrh	w23, [x23, #26]
	str	x8, [sp, #24]
	str	q0, [sp, #64]
	stur	q1, [sp, #76]
	cbz	x27, .LBB51_2
	mov	x0, x22
	bl	rattle_dealloc
	b	.LBB51_2
.LBB51_6:
	mov	x21, x27
	mov	w19, w26
	mov	w9, w25
	mov	w23, w24
	mov	x20, x22
.LBB51_7:
	ldr	x8, [sp]
	ldr	q0, [sp, #64]
	stp	x20, x28, [x8]
	str	x21, [x8, #16]
	strb	w19, [x8, #24]
	strb	w9, [x8, #25]
	strh	w23, [x8, #26]
	b	.LBB51_9
.LBB51_8:
	ldr	x8, [sp]
	ldr	q0, [sp, #64]
	stp	x22, x28, [x8]
	str	x27, [x8, #16]
	strb	w26, [x8, #24]
	strb	w25, [x8, #25]
	strh	w24, [x8, #26]
.LBB51_9:
	ldur	q1, [sp, #76]
	ldp	x20, x19, [sp, #208]
	ldp	x22, x21, [sp, #192]
	stur	q0, [x8, #28]
	stur	q1, [x8, #40]
	ldp	x24, x23, [sp, #176]
	ldp	x26, x25, [sp, #160]
	ldp	x28, x27, [sp, #144]
	ldp	x29, x30, [sp, #128]
	add	sp, sp, #224
	ret
.Lfunc_end51:
	.size	"std_collections::btree::build::pop_distinct::<#920bafd588459e79>", .Lfunc_end51-"std_collections::btree::build::pop_distinct::<#920bafd588459e79>"

	.section	.rodata.cst16,"aM",@progbits,16
	.p2align	4, 0x0
.LCPI52_0:
	.byte	1
	.byte	2
	.byte	4
	.byte	8
	.byte	16
	.byte	32
	.byte	64
	.byte	128
	.byte	1
	.byte	2
	.byte	4
	.byte	8
	.byte	16
	.byte	32
	.byte	64
	.byte	128
	.section	".text.std_collections::btree::node::Node::fill_above::<#7c362c450315e67d>","ax",@progbits
	.p2align	2
	.type	"std_collections::btree::node::Node::fill_above::<#7c362c450315e67d>",@function
"std_collections::btree::node::Node::fill_above::<#7c362c450315e67d>":
	sub	sp, sp, #432
	ldp	x10, x8, [x2, #32]
	mov	w9, #80
	stp	x22, x21, [sp, #400]
	ldrh	w21, [x0, #2]
	movi	v0.2d, #0000000000000000
	stp	x29, x30, [sp, #336]
	add	x29, sp, #336
	sub	x8, x8, #1
	stp	x28, x27, [sp, #352]
	madd	x9, x8, x9, x10
	str	x8, [x2, #40]
	stp	x26, x25, [sp, #368]
	stp	x24, x23, [sp, #384]
	stp	x20, x19, [sp, #416]
	str	xzr, [sp, #176]
	ldp	x8, x10, [x9]
	ldr	x11, [x9, #72]
	ldp	x12, x13, [x9, #48]
	stp	q0, q0, [sp, #144]
	ldp	x14, x9, [x9, #24]
	str	q0, [sp, #128]
	stp	x12, x8, [sp, #24]
	add	w8, w21, #1
	cmp	x10, #14
	strh	w8, [x11, #2]
	stp	x11, x14, [sp, #8]
	stp	x9, x10, [sp, #48]
	str	x0, [x12, x13, lsl #3]
	b.hi	.LBB52_43
	sub	x8, x29, #48
	mov	x19, x2
	mov	x20, x1
	orr	x8, x8, #0x4
	str	x2, [sp, #72]
	str	x8, [sp, #120]
	str	w21, [sp, #68]
	b	.LBB52_3
.LBB52_2:
	ldr	x8, [sp, #56]
	ldr	x13, [sp, #40]
	add	x8, x8, #1
	add	x13, x13, #1
	str	x8, [sp, #56]
	cmp	x8, #15
	ldr	x8, [sp, #48]
	add	x8, x8, #1
	str	x8, [sp, #48]
	ldr	x8, [sp, #24]
	str	x0, [x8, x13, lsl #3]
	b.eq	.LBB52_42
.LBB52_3:
	ldr	x8, [x20, #8]
	cbz	x8, .LBB52_43
	add	x0, sp, #128
	mov	x1, x20
	str	x13, [sp, #40]
	bl	"std_collections::btree::build::pop_distinct::<#920bafd588459e79>"
	ldp	x11, x9, [sp, #48]
	mov	w8, #24
	ldr	x10, [sp, #32]
	ldr	q0, [sp, #128]
	madd	x8, x9, x8, x10
	ldr	x10, [sp, #16]
	ldr	x9, [sp, #144]
	add	x10, x10, x11, lsl #5
	add	x11, sp, #128
	str	q0, [x8]
	ldur	q0, [x11, #28]
	str	x9, [x8, #16]
	ldr	w8, [sp, #152]
	stur	q0, [x10, #4]
	ldur	q0, [x11, #40]
	str	w8, [x10]
	str	q0, [x10, #16]
	ldp	x9, x8, [x19]
	sub	x10, x8, #1
	mov	w8, #80
	madd	x8, x10, x8, x9
	str	x10, [x19, #8]
	ldr	x11, [x8, #8]
	ldr	x0, [x8, #72]
	cmp	x11, #14
	b.hi	.LBB52_40
	ldp	x9, x12, [x8, #24]
	ldr	x8, [x8]
	str	x0, [sp, #96]
	stp	x8, x9, [sp, #80]
	b	.LBB52_7
.LBB52_6:
	ldp	x12, x11, [sp, #104]
	sub	x9, x29, #80
	ldur	q1, [x9, #12]
	mov	w9, #24
	ldur	q0, [x29, #-80]
	ldp	x19, x10, [sp, #72]
	madd	x9, x11, x9, x10
	stur	q0, [x29, #-144]
	add	x11, x11, #1
	stur	q1, [x29, #-132]
	cmp	x11, #15
	ldur	q0, [x29, #-144]
	stp	x0, x21, [x9]
	ldp	x10, x0, [sp, #88]
	str	x8, [x9, #16]
	ldr	w21, [sp, #68]
	add	x10, x10, x12, lsl #5
	add	x12, x12, #1
	stur	q0, [x10, #4]
	ldur	q0, [x29, #-132]
	strb	w25, [x10]
	strb	w22, [x10, #1]
	strh	w28, [x10, #2]
	str	q0, [x10, #16]
	b.eq	.LBB52_40
.LBB52_7:
	ldr	x8, [x20, #8]
	cbz	x8, .LBB52_40
	subs	x9, x8, #1
	mov	w8, #56
	ldr	x10, [x20]
	madd	x10, x9, x8, x10
	str	x9, [x20, #8]
	stp	x12, x11, [sp, #104]
	ldp	x0, x21, [x10]
	ldur	q0, [x10, #28]
	ldr	x8, [x10, #16]
	ldrb	w25, [x10, #24]
	ldur	q1, [x10, #40]
	ldrb	w22, [x10, #25]
	ldrh	w28, [x10, #26]
	sub	x10, x29, #80
	stur	q0, [x29, #-80]
	stur	q1, [x10, #12]
	b.ne	.LBB52_10
	b	.LBB52_6
.LBB52_9:
	ldur	q0, [x29, #-112]
	ldur	q1, [x29, #-100]
	sub	x0, x29, #48
	ldr	x8, [sp, #120]
	sturb	w25, [x29, #-48]
	sturb	w22, [x29, #-47]
	sturh	w28, [x29, #-46]
	str	q0, [x8]
	stur	q1, [x8, #12]
	bl	"amqp_value_core::amqp_value_core++value++AMQPValue+Destruct::drop"
	ldr	x9, [x20, #8]
	mov	x8, x26
	mov	w25, w19
	mov	w22, w24
	mov	w28, w23
	mov	x0, x27
	cbz	x9, .LBB52_6
.LBB52_10:
	sub	x10, x9, #1
	mov	w9, #56
	ldr	x11, [x20]
	madd	x9, x10, x9, x11
	ldp	x12, x11, [x9]
	cmp	x11, x21
	csel	x13, x11, x21, lo
	cmp	x13, #7
	b.hi	.LBB52_13
	subs	x14, x13, #4
	b.lo	.LBB52_20
	ldr	w15, [x0]
	ldr	w16, [x0, x14]
	ldr	w17, [x12]
	ldr	w14, [x12, x14]
	orr	x15, x15, x16, lsl #32
	orr	x16, x17, x14, lsl #32
	rev	x14, x15
	rev	x15, x16
	cmp	x14, x15
	b.eq	.LBB52_14
	b	.LBB52_22
.LBB52_13:
	sub	x14, x13, #8
	mov	w15, #8
	ldr	x16, [x0]
	cmp	x14, #8
	ldr	x17, [x12]
	csel	x14, x14, x15, lo
	rev	x18, x16
	ldr	x15, [x0, x14]
	ldr	x14, [x12, x14]
	rev	x1, x17
	cmp	x16, x17
	rev	x15, x15
	rev	x2, x14
	csel	x14, x15, x18, eq
	csel	x15, x2, x1, eq
	cmp	x14, x15
	b.ne	.LBB52_22
.LBB52_14:
	subs	x14, x13, #16
	b.ls	.LBB52_34
	cmp	x14, #79
	adrp	x15, .LCPI52_0
	b.hi	.LBB52_23
	mov	w16, #16
	mov	x17, x14
.LBB52_17:
	cmp	x17, #17
	b.lo	.LBB52_25
	ldr	q0, [x0, x16]
	ldr	q1, [x12, x16]
	sub	x17, x17, #16
	cmeq	v0.16b, v0.16b, v1.16b
	ldr	q1, [x15, :lo12:.LCPI52_0]
	bic	v0.16b, v1.16b, v0.16b
	addp	v0.16b, v0.16b, v0.16b
	addp	v0.16b, v0.16b, v0.16b
	addp	v0.16b, v0.16b, v0.16b
	umov	w18, v0.h[0]
	orr	w18, w18, #0x10000
	rbit	w18, w18
	clz	w18, w18
	add	x1, x16, x18
	add	x16, x16, #16
	cmp	x1, x16
	b.hs	.LBB52_17
	add	x14, x16, w18, uxtw
	sub	x14, x14, #16
	cmp	x14, x13
	b.hs	.LBB52_34
	b	.LBB52_37
.LBB52_20:
	cbz	x13, .LBB52_34
	ldrb	w14, [x0]
	lsr	x15, x13, #1
	ldrb	w16, [x12]
	sub	x18, x13, #1
	ldrb	w17, [x0, x15]
	lsl	x14, x14, #16
	ldrb	w15, [x12, x15]
	lsl	x16, x16, #16
	orr	x14, x14, x17, lsl #8
	ldrb	w17, [x0, x18]
	orr	x15, x16, x15, lsl #8
	ldrb	w16, [x12, x18]
	orr	x14, x14, x17
	orr	x15, x15, x16
	cmp	x14, x15
	b.eq	.LBB52_14
.LBB52_22:
	b.hs	.LBB52_38
	b	.LBB52_6
.LBB52_23:
	ldr	q0, [x0, #16]
	ldr	q1, [x12, #16]
	cmeq	v1.16b, v0.16b, v1.16b
	ldr	q0, [x15, :lo12:.LCPI52_0]
	bic	v1.16b, v0.16b, v1.16b
	addp	v1.16b, v1.16b, v1.16b
	addp	v1.16b, v1.16b, v1.16b
	addp	v1.16b, v1.16b, v1.16b
	umov	w15, v1.h[0]
	orr	w15, w15, #0x10000
	rbit	w15, w15
	clz	w15, w15
	cmp	w15, #16
	b.hs	.LBB52_26
	add	w14, w15, #16
	cmp	x14, x13
	b.hs	.LBB52_34
	b	.LBB52_37
.LBB52_25:
	ldr	q0, [x0, x14]
	ldr	q1, [x12, x14]
	cmeq	v0.16b, v0.16b, v1.16b
	ldr	q1, [x15, :lo12:.LCPI52_0]
	bic	v0.16b, v1.16b, v0.16b
	b	.LBB52_36
.LBB52_26:
	sub	x15, x13, #96
	sub	x17, x13, #32
	and	x15, x15, #0xffffffffffffffc0
	add	x16, x15, #96
	mov	w15, #32
.LBB52_27:
	add	x18, x0, x15
	add	x1, x12, x15
	ldp	q1, q2, [x18]
	ldp	q3, q4, [x18, #32]
	ldp	q5, q6, [x1]
	ldp	q7, q16, [x1, #32]
	cmeq	v1.16b, v1.16b, v5.16b
	cmeq	v2.16b, v2.16b, v6.16b
	cmeq	v4.16b, v4.16b, v16.16b
	cmeq	v3.16b, v3.16b, v7.16b
	bic	v1.16b, v0.16b, v1.16b
	bic	v2.16b, v0.16b, v2.16b
	bic	v3.16b, v0.16b, v3.16b
	bic	v4.16b, v0.16b, v4.16b
	addp	v1.16b, v1.16b, v2.16b
	addp	v2.16b, v3.16b, v4.16b
	addp	v1.16b, v1.16b, v2.16b
	addp	v1.16b, v1.16b, v1.16b
	fmov	x18, d1
	cbnz	x18, .LBB52_30
	sub	x17, x17, #64
	add	x15, x15, #64
	cmp	x17, #63
	b.hi	.LBB52_27
	mov	x15, x16
.LBB52_30:
	sub	x16, x13, x15
.LBB52_31:
	cmp	x16, #17
	b.lo	.LBB52_35
	ldr	q1, [x0, x15]
	ldr	q2, [x12, x15]
	sub	x16, x16, #16
	cmeq	v1.16b, v1.16b, v2.16b
	bic	v1.16b, v0.16b, v1.16b
	addp	v1.16b, v1.16b, v1.16b
	addp	v1.16b, v1.16b, v1.16b
	addp	v1.16b, v1.16b, v1.16b
	umov	w17, v1.h[0]
	orr	w17, w17, #0x10000
	rbit	w17, w17
	clz	w17, w17
	add	x18, x15, x17
	add	x15, x15, #16
	cmp	x18, x15
	b.hs	.LBB52_31
	add	x14, x15, w17, uxtw
	sub	x14, x14, #16
	cmp	x14, x13
	b.lo	.LBB52_37
.LBB52_34:
	cmp	x21, x11
	b.hs	.LBB52_38
	b	.LBB52_6
.LBB52_35:
	ldr	q1, [x0, x14]
	ldr	q2, [x12, x14]
	cmeq	v1.16b, v1.16b, v2.16b
	bic	v0.16b, v0.16b, v1.16b
.LBB52_36:
	addp	v0.16b, v0.16b, v0.16b
	addp	v0.16b, v0.16b, v0.16b
	addp	v0.16b, v0.16b, v0.16b
	umov	w15, v0.h[0]
	orr	w15, w15, #0x10000
	rbit	w15, w15
	clz	w15, w15
	add	x14, x14, x15
	cmp	x14, x13
	b.hs	.LBB52_34
.LBB52_37:
	ldrb	w11, [x0, x14]
	ldrb	w12, [x12, x14]
	cmp	w11, w12
	b.lo	.LBB52_6
.LBB52_38:
	str	x10, [x20, #8]
	sub	x10, x29, #80
	ldur	q0, [x29, #-80]
	ldur	q1, [x10, #12]
	ldp	x27, x21, [x9]
	ldr	x26, [x9, #16]
	stur	q0, [x29, #-112]
	ldur	q0, [x9, #28]
	ldrb	w19, [x9, #24]
	stur	q1, [x29, #-100]
	ldur	q1, [x9, #40]
	ldrb	w24, [x9, #25]
	ldrh	w23, [x9, #26]
	stur	q0, [x29, #-80]
	stur	q1, [x10, #12]
	cbz	x8, .LBB52_9
	bl	rattle_dealloc
	b	.LBB52_9
.LBB52_40:
	ldrh	w8, [x0, #2]
	strh	w11, [x0]
	cmp	w8, w21
	b.hs	.LBB52_2
.LBB52_41:
	mov	x1, x20
	mov	x2, x19
	bl	"std_collections::btree::node::Node::fill_above::<#7c362c450315e67d>"
	ldrh	w8, [x0, #2]
	cmp	w8, w21
	b.lo	.LBB52_41
	b	.LBB52_2
.LBB52_42:
	mov	w8, #15
	str	x8, [sp, #56]
.LBB52_43:
	ldr	x0, [sp, #8]
	ldr	x8, [sp, #56]
	ldp	x20, x19, [sp, #416]
	ldp	x22, x21, [sp, #400]
	strh	w8, [x0]
	ldp	x24, x23, [sp, #384]
	ldp	x26, x25, [sp, #368]
	ldp	x28, x27, [sp, #352]
	ldp	x29, x30, [sp, #336]
	add	sp, sp, #432
	ret
.Lfunc_end52:
	.size	"std_collections::btree::node::Node::fill_above::<#7c362c450315e67d>", .Lfunc_end52-"std_collections::btree::node::Node::fill_above::<#7c362c450315e67d>"

	.section	".text.std_collections::btree::node::Node::count::<#d78cde125532770c>","ax",@progbits
	.p2align	2
	.type	"std_collections::btree::node::Node::count::<#d78cde125532770c>",@function
"std_collections::btree::node::Node::count::<#d78cde125532770c>":
	stp	x29, x30, [sp, #-64]!
	ldr	x8, [x0]
	stp	x20, x19, [sp, #48]
	mov	x29, sp
	stp	x22, x21, [sp, #32]
	mov	x21, xzr
	ldrh	w9, [x8, #2]
	ldrh	w20, [x8]
	stp	x24, x23, [sp, #16]
	cbnz	w9, .LBB53_3
.LBB53_1:
	add	x0, x20, x21
	ldp	x20, x19, [sp, #48]
	ldp	x22, x21, [sp, #32]
	ldp	x24, x23, [sp, #16]
	ldp	x29, x30, [sp], #64
	ret
.LBB53_2:
	ldr	x8, [x22, x20, lsl #3]
	add	x21, x23, x21
	ldrh	w9, [x8, #2]
	ldrh	w20, [x8]
	cbz	w9, .LBB53_1
.LBB53_3:
	add	x22, x8, #848
	mov	x23, xzr
	cbz	x20, .LBB53_2
	mov	x19, x22
	mov	x24, x20
.LBB53_5:
	mov	x0, x19
	bl	"std_collections::btree::node::Node::count::<#d78cde125532770c>"
	add	x8, x23, x0
	subs	x24, x24, #1
	add	x19, x19, #8
	add	x23, x8, #1
	b.ne	.LBB53_5
	b	.LBB53_2
.Lfunc_end53:
	.size	"std_collections::btree::node::Node::count::<#d78cde125532770c>", .Lfunc_end53-"std_collections::btree::node::Node::count::<#d78cde125532770c>"

	.section	".text.unlikely.std_alloc::vec::Vec::grow_amortized::<#63c3e2efe2c28453>","ax",@progbits
	.p2align	2
	.type	"std_alloc::vec::Vec::grow_amortized::<#63c3e2efe2c28453>",@function
"std_alloc::vec::Vec::grow_amortized::<#63c3e2efe2c28453>":
	ldr	x8, [x0, #8]
	cmn	x8, #1
	b.eq	.LBB54_5
	stp	x29, x30, [sp, #-32]!
	ldr	x9, [x0, #16]
	cmp	x8, #3
	mov	w10, #3
	csel	x11, x8, x10, hi
	stp	x20, x19, [sp, #16]
	mov	x29, sp
	lsl	x10, x9, #1
	add	x12, x11, #1
	lsr	x13, x9, #62
	cmp	x12, x10
	csinc	x10, x10, x11, ls
	cmp	x13, #0
	csinc	x19, x10, x11, eq
	lsr	x11, x19, #58
	cbnz	x11, .LBB54_7
	cbz	x9, .LBB54_6
	mov	x20, x0
	ldr	x0, [x0]
	lsl	x1, x8, #5
	lsl	x2, x19, #5
	mov	w3, #8
	bl	rattle_realloc
	tbz	w0, #0, .LBB54_7
.LBB54_4:
	mov	w0, #1
	str	x1, [x20]
	str	x19, [x20, #16]
	ldp	x20, x19, [sp, #16]
	ldp	x29, x30, [sp], #32
	ret
.LBB54_5:
	mov	w0, wzr
	ret
.LBB54_6:
	mov	x20, x0
	lsl	x0, x10, #5
	mov	w1, #8
	bl	rattle_alloc
	tbnz	w0, #0, .LBB54_4
.LBB54_7:
	mov	w0, wzr
	ldp	x20, x19, [sp, #16]
	ldp	x29, x30, [sp], #32
	ret
.Lfunc_end54:
	.size	"std_alloc::vec::Vec::grow_amortized::<#63c3e2efe2c28453>", .Lfunc_end54-"std_alloc::vec::Vec::grow_amortized::<#63c3e2efe2c28453>"

	.section	.rodata.cst16,"aM",@progbits,16
	.p2align	4, 0x0
.LCPI55_0:
	.word	4294967272
	.word	4294967280
	.word	4294967288
	.word	0
	.section	".text.amq_protocol_types::generation::values::gen_value::<#4ea8deeae94023ba>","ax",@progbits
	.p2align	2
	.type	"amq_protocol_types::generation::values::gen_value::<#4ea8deeae94023ba>",@function
"amq_protocol_types::generation::values::gen_value::<#4ea8deeae94023ba>":
	sub	sp, sp, #96
	stp	x20, x19, [sp, #80]
	ldrb	w9, [x1]
	adrp	x10, ".Lswitch.table.amq_protocol_types::generation::values::gen_field_table::<#4ea8deeae94023ba>"
	add	x10, x10, :lo12:".Lswitch.table.amq_protocol_types::generation::values::gen_field_table::<#4ea8deeae94023ba>"
	ldp	x20, x8, [x2, #8]
	stp	x22, x21, [sp, #64]
	ldrb	w21, [x10, x9]
	stp	x29, x30, [sp, #32]
	add	x29, sp, #32
	cmp	x8, x20
	mov	x9, x20
	stp	x24, x23, [sp, #48]
	b.eq	.LBB55_12
.LBB55_1:
	ldr	x10, [x2]
	adrp	x12, .LJTI55_0
	add	x12, x12, :lo12:.LJTI55_0
	sturh	wzr, [x29, #-12]
	strb	w21, [x10, x9]
	add	x9, x9, #1
	stp	x10, x9, [x2]
	str	x8, [x2, #16]
	ldrb	w11, [x1]
	sturb	wzr, [x29, #-10]
	strh	wzr, [sp, #16]
	strb	wzr, [sp, #18]
	adr	x13, .LBB55_2
	ldrb	w14, [x12, x11]
	add	x13, x13, x14, lsl #2
	br	x13
.LBB55_2:
	ldrb	w19, [x1, #1]
	cmp	x8, x9
	b.eq	.LBB55_32
.LBB55_3:
	strb	w19, [x10, x9]
	add	x9, x9, #1
	b	.LBB55_19
.LBB55_4:
	sub	x11, x8, x9
	ldr	w22, [x1, #4]
	cmp	x11, #3
	b.ls	.LBB55_30
.LBB55_5:
	rev	w11, w22
	str	w11, [x10, x9]
	add	x9, x9, #4
	b	.LBB55_19
.LBB55_6:
	sub	x11, x8, x9
	ldrh	w22, [x1, #2]
	cmp	x11, #1
	b.ls	.LBB55_34
.LBB55_7:
	rev16	w11, w22
	strh	w11, [x10, x9]
	add	x9, x9, #2
	b	.LBB55_19
.LBB55_8:
	ldr	x5, [x1, #16]
	lsr	x8, x5, #32
	cbnz	x8, .LBB55_23
	lsr	x8, x5, #24
	and	w9, w5, #0xffffff
	ldr	x4, [x1, #8]
	rev	w9, w9
	mov	x19, x2
	mov	x21, x0
	orr	w8, w9, w8
	sub	x0, x29, #4
	sub	x2, x29, #8
	mov	x1, x19
	mov	w3, #4
	sturb	wzr, [x29, #-2]
	stur	w8, [x29, #-8]
	sturh	wzr, [x29, #-4]
	bl	"amq_protocol_types::generation::vector::VecU8Output::put_both"
	ldurb	w10, [x29, #-4]
	ldurb	w9, [x29, #-3]
	mov	x2, x19
	ldurb	w8, [x29, #-2]
	mov	x0, x21
	cmp	w10, #1
	b.ne	.LBB55_20
	b	.LBB55_44
.LBB55_10:
	sub	x11, x8, x9
	ldr	x22, [x1, #8]
	cmp	x11, #7
	b.ls	.LBB55_36
.LBB55_11:
	rev	x11, x22
	b	.LBB55_16
.LBB55_12:
	mov	x23, x1
	mov	x22, x0
	mov	x0, x2
	mov	w1, #1
	mov	x24, x2
	mov	w19, #1
	bl	"std_alloc::vec::Vec::grow_amortized::<#a8e0b0c0cbc96d99>"
	cbz	w0, .LBB55_28
	ldp	x9, x8, [x24, #8]
	mov	x2, x24
	mov	x0, x22
	mov	x1, x23
	b	.LBB55_1
.LBB55_14:
	sub	x11, x8, x9
	ldr	x19, [x1, #8]
	cmp	x11, #7
	b.ls	.LBB55_39
.LBB55_15:
	rev	x11, x19
.LBB55_16:
	str	x11, [x10, x9]
	add	x9, x9, #8
	b	.LBB55_19
.LBB55_17:
	add	x11, x1, #8
	ldrb	w19, [x1, #4]
	ld1r	{ v1.4s }, [x11]
	sub	x11, x8, x9
	cmp	x11, #4
	b.ls	.LBB55_41
.LBB55_18:
	adrp	x11, .LCPI55_0
	ldr	q0, [x11, :lo12:.LCPI55_0]
	add	x11, x10, x9
	add	x9, x9, #5
	strb	w19, [x11]
	ushl	v0.4s, v1.4s, v0.4s
	xtn	v0.4h, v0.4s
	uzp1	v0.8b, v0.8b, v0.8b
	stur	s0, [x11, #1]
.LBB55_19:
	stp	x10, x9, [x2]
	str	x8, [x2, #16]
.LBB55_20:
	mov	w19, wzr
	mov	w9, wzr
	mov	w8, wzr
.LBB55_21:
	strb	w19, [x0]
	ldp	x20, x19, [sp, #80]
	ldp	x22, x21, [sp, #64]
	strb	w9, [x0, #1]
	strb	w8, [x0, #2]
	ldp	x24, x23, [sp, #48]
	ldp	x29, x30, [sp, #32]
	add	sp, sp, #96
	ret
.LBB55_22:
	ldr	x5, [x1, #16]
	cmp	x5, #255
	b.ls	.LBB55_29
.LBB55_23:
	mov	w8, wzr
	mov	w10, #1
	mov	w9, #1
	cmp	w10, #1
	b.ne	.LBB55_20
	b	.LBB55_44
.LBB55_24:
	mov	x21, x0
	sub	x0, x29, #12
	add	x1, x1, #8
	mov	x19, x2
	bl	"amq_protocol_types::generation::values::gen_field_array::<#4ea8deeae94023ba>"
	ldurb	w8, [x29, #-12]
	mov	x0, x21
	cbz	w8, .LBB55_20
	ldurb	w8, [x29, #-10]
	ldurb	w9, [x29, #-11]
	mov	x2, x19
	b	.LBB55_44
.LBB55_26:
	mov	x21, x0
	add	x0, sp, #16
	add	x1, x1, #8
	mov	x19, x2
	bl	"amq_protocol_types::generation::values::gen_field_table::<#4ea8deeae94023ba>"
	ldrb	w8, [sp, #16]
	mov	x0, x21
	cbz	w8, .LBB55_20
	ldrb	w8, [sp, #18]
	ldrb	w9, [sp, #17]
	mov	x2, x19
	b	.LBB55_44
.LBB55_28:
	mov	w8, wzr
	mov	w9, #2
	mov	x0, x22
	b	.LBB55_21
.LBB55_29:
	ldr	x4, [x1, #8]
	mov	x19, x2
	mov	x21, x0
	sub	x0, x29, #8
	sub	x2, x29, #4
	mov	x1, x19
	mov	w3, #1
	sturb	w5, [x29, #-4]
	sturb	wzr, [x29, #-6]
	sturh	wzr, [x29, #-8]
	bl	"amq_protocol_types::generation::vector::VecU8Output::put_both"
	ldurb	w10, [x29, #-8]
	ldurb	w9, [x29, #-7]
	mov	x2, x19
	ldurb	w8, [x29, #-6]
	mov	x0, x21
	cmp	w10, #1
	b.ne	.LBB55_20
	b	.LBB55_44
.LBB55_30:
	mov	x19, x0
	mov	x0, x2
	mov	w1, #4
	mov	x21, x2
	bl	"std_alloc::vec::Vec::grow_amortized::<#a8e0b0c0cbc96d99>"
	cbz	w0, .LBB55_38
	ldp	x9, x8, [x21, #8]
	mov	x2, x21
	ldr	x10, [x21]
	mov	x0, x19
	b	.LBB55_5
.LBB55_32:
	mov	x21, x0
	mov	x0, x2
	mov	w1, #1
	mov	x22, x2
	bl	"std_alloc::vec::Vec::grow_amortized::<#a8e0b0c0cbc96d99>"
	cbz	w0, .LBB55_43
	ldp	x9, x8, [x22, #8]
	mov	x2, x22
	ldr	x10, [x22]
	mov	x0, x21
	b	.LBB55_3
.LBB55_34:
	mov	x19, x0
	mov	x0, x2
	mov	w1, #2
	mov	x21, x2
	bl	"std_alloc::vec::Vec::grow_amortized::<#a8e0b0c0cbc96d99>"
	cbz	w0, .LBB55_38
	ldp	x9, x8, [x21, #8]
	mov	x2, x21
	ldr	x10, [x21]
	mov	x0, x19
	b	.LBB55_7
.LBB55_36:
	mov	x19, x0
	mov	x0, x2
	mov	w1, #8
	mov	x21, x2
	bl	"std_alloc::vec::Vec::grow_amortized::<#a8e0b0c0cbc96d99>"
	cbz	w0, .LBB55_38
	ldp	x9, x8, [x21, #8]
	mov	x2, x21
	ldr	x10, [x21]
	mov	x0, x19
	b	.LBB55_11
.LBB55_38:
	mov	w8, wzr
	mov	w9, #2
	mov	x0, x19
	mov	x2, x21
	b	.LBB55_44
.LBB55_39:
	mov	x21, x0
	mov	x0, x2
	mov	w1, #8
	mov	x22, x2
	bl	"std_alloc::vec::Vec::grow_amortized::<#a8e0b0c0cbc96d99>"
	cbz	w0, .LBB55_43
	ldp	x9, x8, [x22, #8]
	mov	x2, x22
	ldr	x10, [x22]
	mov	x0, x21
	b	.LBB55_15
.LBB55_41:
	mov	x21, x0
	mov	x0, x2
	mov	w1, #5
	str	q1, [sp]
	mov	x22, x2
	bl	"std_alloc::vec::Vec::grow_amortized::<#a8e0b0c0cbc96d99>"
	cbz	w0, .LBB55_43
	ldp	x9, x8, [x22, #8]
	mov	x2, x22
	ldr	x10, [x22]
	ldr	q1, [sp]
	mov	x0, x21
	b	.LBB55_18
.LBB55_43:
	mov	w8, wzr
	mov	w9, #2
	mov	x0, x21
	mov	x2, x22
.LBB55_44:
	ldr	x10, [x2, #8]
	cmp	x10, x20
	b.ls	.LBB55_46
	str	x20, [x2, #8]
.LBB55_46:
	mov	w19, #1
	b	.LBB55_21
.Lfunc_end55:
	.size	"amq_protocol_types::generation::values::gen_value::<#4ea8deeae94023ba>", .Lfunc_end55-"amq_protocol_types::generation::values::gen_value::<#4ea8deeae94023ba>"
	.section	".rodata.amq_protocol_types::generation::values::gen_value::<#4ea8deeae94023ba>","a",@progbits
.LJTI55_0:
	.byte	(.LBB55_2-.LBB55_2)>>2
	.byte	(.LBB55_2-.LBB55_2)>>2
	.byte	(.LBB55_2-.LBB55_2)>>2
	.byte	(.LBB55_6-.LBB55_2)>>2
	.byte	(.LBB55_6-.LBB55_2)>>2
	.byte	(.LBB55_4-.LBB55_2)>>2
	.byte	(.LBB55_4-.LBB55_2)>>2
	.byte	(.LBB55_10-.LBB55_2)>>2
	.byte	(.LBB55_4-.LBB55_2)>>2
	.byte	(.LBB55_10-.LBB55_2)>>2
	.byte	(.LBB55_17-.LBB55_2)>>2
	.byte	(.LBB55_22-.LBB55_2)>>2
	.byte	(.LBB55_8-.LBB55_2)>>2
	.byte	(.LBB55_24-.LBB55_2)>>2
	.byte	(.LBB55_14-.LBB55_2)>>2
	.byte	(.LBB55_26-.LBB55_2)>>2
	.byte	(.LBB55_8-.LBB55_2)>>2
	.byte	(.LBB55_20-.LBB55_2)>>2

	.section	".text.amq_protocol_types::generation::vector::VecU8Output::put_both","ax",@progbits
	.p2align	2
	.type	"amq_protocol_types::generation::vector::VecU8Output::put_both",@function
"amq_protocol_types::generation::vector::VecU8Output::put_both":
	stp	x29, x30, [sp, #-96]!
	str	x27, [sp, #16]
	mov	x27, x1
	add	x10, x5, x3
	stp	x24, x23, [sp, #48]
	mov	x29, sp
	ldp	x8, x23, [x27, #8]!
	stp	x22, x21, [sp, #64]
	mov	x21, x5
	mov	x22, x4
	stp	x20, x19, [sp, #80]
	mov	x20, x1
	mov	x19, x0
	sub	x9, x23, x8
	stp	x26, x25, [sp, #32]
	cmp	x10, x9
	b.hi	.LBB56_17
	cmp	x3, x9
	b.hi	.LBB56_19
.LBB56_2:
	ldr	x24, [x20]
	add	x25, x8, x3
	stp	xzr, xzr, [x27]
	add	x0, x24, x8
	sub	x9, x0, x2
	cmp	x9, x3
	b.hs	.LBB56_7
	ldrb	w8, [x2]
	cmp	x3, #1
	strb	w8, [x0]
	b.eq	.LBB56_8
	ldrb	w8, [x2, #1]
	cmp	x3, #2
	strb	w8, [x0, #1]
	b.eq	.LBB56_8
	ldrb	w8, [x2, #2]
	cmp	x3, #3
	strb	w8, [x0, #2]
	b.eq	.LBB56_8
	ldrb	w8, [x2, #3]
	strb	w8, [x0, #3]
	b	.LBB56_8
.LBB56_7:
	mov	x1, x2
	mov	x2, x3
	bl	memmove
.LBB56_8:
	sub	x8, x23, x25
	stp	x24, x25, [x20]
	cmp	x21, x8
	str	x23, [x20, #16]
	b.hi	.LBB56_28
	add	x0, x24, x25
	add	x26, x25, x21
	stp	xzr, xzr, [x27]
	sub	x8, x0, x22
	cmp	x8, x21
	b.hs	.LBB56_30
.LBB56_10:
	cmp	x21, #8
	b.lo	.LBB56_12
	add	x8, x25, x24
	sub	x8, x8, x22
	cmp	x8, #32
	b.hs	.LBB56_15
.LBB56_12:
	mov	x8, xzr
.LBB56_13:
	add	x10, x8, x25
	sub	x9, x21, x8
	add	x8, x22, x8
	add	x10, x24, x10
.LBB56_14:
	ldrb	w11, [x8], #1
	subs	x9, x9, #1
	strb	w11, [x10], #1
	b.ne	.LBB56_14
	b	.LBB56_31
.LBB56_15:
	cmp	x21, #32
	b.hs	.LBB56_21
	mov	x8, xzr
	b	.LBB56_25
.LBB56_17:
	add	x1, x21, x3
	mov	x0, x20
	mov	x24, x2
	mov	x25, x3
	bl	"std_alloc::vec::Vec::grow_amortized::<#a8e0b0c0cbc96d99>"
	cbz	w0, .LBB56_33
	ldp	x8, x23, [x20, #8]
	mov	x2, x24
	mov	x3, x25
	sub	x9, x23, x8
	cmp	x25, x9
	b.ls	.LBB56_2
.LBB56_19:
	mov	x0, x20
	mov	x1, x3
	mov	x24, x2
	mov	x25, x3
	bl	"std_alloc::vec::Vec::grow_amortized::<#a8e0b0c0cbc96d99>"
	cbz	w0, .LBB56_33
	ldp	x8, x23, [x20, #8]
	mov	x2, x24
	mov	x3, x25
	b	.LBB56_2
.LBB56_21:
	add	x11, x25, x24
	and	x9, x21, #0x18
	and	x8, x21, #0xffffffffffffffe0
	add	x10, x22, #16
	add	x11, x11, #16
	and	x12, x21, #0xffffffffffffffe0
.LBB56_22:
	ldp	q0, q1, [x10, #-16]
	subs	x12, x12, #32
	add	x10, x10, #32
	stp	q0, q1, [x11, #-16]
	add	x11, x11, #32
	b.ne	.LBB56_22
	cmp	x21, x8
	b.eq	.LBB56_31
	cbz	x9, .LBB56_13
.LBB56_25:
	mov	x10, x8
	and	x8, x21, #0xfffffffffffffff8
	add	x11, x25, x10
	sub	x9, x10, x8
	add	x10, x22, x10
	add	x11, x24, x11
.LBB56_26:
	ldr	d0, [x10], #8
	adds	x9, x9, #8
	str	d0, [x11], #8
	b.ne	.LBB56_26
	cmp	x21, x8
	b.eq	.LBB56_31
	b	.LBB56_13
.LBB56_28:
	mov	x0, x20
	mov	x1, x21
	bl	"std_alloc::vec::Vec::grow_amortized::<#a8e0b0c0cbc96d99>"
	cbz	w0, .LBB56_33
	ldp	x25, x23, [x20, #8]
	ldr	x24, [x20]
	add	x0, x24, x25
	add	x26, x25, x21
	stp	xzr, xzr, [x27]
	sub	x8, x0, x22
	cmp	x8, x21
	b.lo	.LBB56_10
.LBB56_30:
	mov	x1, x22
	mov	x2, x21
	bl	memmove
.LBB56_31:
	mov	w9, wzr
	mov	w8, wzr
	stp	x24, x26, [x20]
	str	x23, [x20, #16]
.LBB56_32:
	strb	w9, [x19]
	ldp	x22, x21, [sp, #64]
	strb	w8, [x19, #1]
	ldr	x27, [sp, #16]
	strb	wzr, [x19, #2]
	ldp	x20, x19, [sp, #80]
	ldp	x24, x23, [sp, #48]
	ldp	x26, x25, [sp, #32]
	ldp	x29, x30, [sp], #96
	ret
.LBB56_33:
	mov	w8, #2
	mov	w9, #1
	b	.LBB56_32
.Lfunc_end56:
	.size	"amq_protocol_types::generation::vector::VecU8Output::put_both", .Lfunc_end56-"amq_protocol_types::generation::vector::VecU8Output::put_both"

	.section	.rodata.cst16,"aM",@progbits,16
	.p2align	4, 0x0
.LCPI57_0:
	.word	4294967272
	.word	4294967280
	.word	4294967288
	.word	0
	.section	".text.amq_protocol_types::generation::values::gen_field_array::<#4ea8deeae94023ba>","ax",@progbits
	.p2align	2
	.type	"amq_protocol_types::generation::values::gen_field_array::<#4ea8deeae94023ba>",@function
"amq_protocol_types::generation::values::gen_field_array::<#4ea8deeae94023ba>":
	sub	sp, sp, #112
	stp	x22, x21, [sp, #80]
	ldp	x22, x8, [x2, #8]
	stp	x20, x19, [sp, #96]
	mov	x20, x2
	mov	x19, x0
	stp	x29, x30, [sp, #32]
	add	x29, sp, #32
	sub	x8, x8, x22
	str	x25, [sp, #48]
	cmp	x8, #3
	mov	x8, x22
	stp	x24, x23, [sp, #64]
	b.ls	.LBB57_6
	add	x9, x22, #4
	subs	x2, x9, x8
	b.ls	.LBB57_8
.LBB57_2:
	ldr	x21, [x20, #16]
	sub	x9, x21, x8
	cmp	x2, x9
	b.hi	.LBB57_56
	add	x23, x8, x2
	ldr	x24, [x20]
	cmp	x8, x23
	b.hs	.LBB57_5
.LBB57_4:
	add	x0, x24, x8
	mov	x25, x1
	mov	w1, wzr
	bl	memset
	mov	x1, x25
.LBB57_5:
	mov	x8, x23
	stp	x24, x23, [x20]
	str	x21, [x20, #16]
	b	.LBB57_10
.LBB57_6:
	mov	x21, x1
	mov	x0, x20
	mov	w1, #4
	bl	"std_alloc::vec::Vec::grow_amortized::<#a8e0b0c0cbc96d99>"
	cbz	w0, .LBB57_58
	ldr	x8, [x20, #8]
	mov	x1, x21
	add	x9, x22, #4
	subs	x2, x9, x8
	b.hi	.LBB57_2
.LBB57_8:
	b.hs	.LBB57_10
	str	x9, [x20, #8]
	add	x8, x22, #4
.LBB57_10:
	ldr	x23, [x1, #8]
	cbz	x23, .LBB57_46
	ldr	x8, [x1]
	add	x21, x8, #8
	b	.LBB57_16
.LBB57_12:
	sub	x11, x8, x9
	ldr	x25, [x21]
	cmp	x11, #7
	b.ls	.LBB57_37
.LBB57_13:
	rev	x11, x25
	str	x11, [x10, x9]
	add	x9, x9, #8
.LBB57_14:
	stp	x10, x9, [x20]
	str	x8, [x20, #16]
.LBB57_15:
	subs	x23, x23, #1
	add	x21, x21, #32
	b.eq	.LBB57_45
.LBB57_16:
	ldurb	w9, [x21, #-8]
	ldp	x24, x8, [x20, #8]
	adrp	x10, ".Lswitch.table.amq_protocol_types::generation::values::gen_field_table::<#4ea8deeae94023ba>"
	add	x10, x10, :lo12:".Lswitch.table.amq_protocol_types::generation::values::gen_field_table::<#4ea8deeae94023ba>"
	ldrb	w25, [x10, x9]
	cmp	x8, x24
	mov	x11, x24
	b.eq	.LBB57_26
.LBB57_17:
	ldr	x10, [x20]
	add	x9, x11, #1
	adrp	x12, .LJTI57_0
	add	x12, x12, :lo12:.LJTI57_0
	sturh	wzr, [x29, #-4]
	strb	w25, [x10, x11]
	stp	x10, x9, [x20]
	str	x8, [x20, #16]
	ldurb	w11, [x21, #-8]
	sturb	wzr, [x29, #-2]
	sturh	wzr, [x29, #-8]
	sturb	wzr, [x29, #-6]
	adr	x13, .LBB57_12
	ldrb	w14, [x12, x11]
	add	x13, x13, x14, lsl #2
	br	x13
.LBB57_18:
	ldurb	w25, [x21, #-7]
	cmp	x8, x9
	b.eq	.LBB57_39
.LBB57_19:
	strb	w25, [x10, x9]
	add	x9, x9, #1
	b	.LBB57_14
.LBB57_20:
	sub	x11, x8, x9
	ldur	w25, [x21, #-4]
	cmp	x11, #3
	b.ls	.LBB57_35
.LBB57_21:
	rev	w11, w25
	str	w11, [x10, x9]
	add	x9, x9, #4
	b	.LBB57_14
.LBB57_22:
	sub	x11, x8, x9
	ldurh	w25, [x21, #-6]
	cmp	x11, #1
	b.ls	.LBB57_41
.LBB57_23:
	rev16	w11, w25
	strh	w11, [x10, x9]
	add	x9, x9, #2
	b	.LBB57_14
.LBB57_24:
	ldr	x5, [x21, #8]
	lsr	x8, x5, #32
	cbnz	x8, .LBB57_33
	lsr	x8, x5, #24
	and	w9, w5, #0xffffff
	ldr	x4, [x21]
	rev	w9, w9
	add	x0, x29, #24
	add	x2, x29, #28
	orr	w8, w9, w8
	mov	x1, x20
	mov	w3, #4
	strb	wzr, [x29, #26]
	str	w8, [x29, #28]
	strh	wzr, [x29, #24]
	bl	"amq_protocol_types::generation::vector::VecU8Output::put_both"
	ldrb	w10, [x29, #24]
	ldrb	w9, [x29, #25]
	ldrb	w8, [x29, #26]
	cmp	w10, #1
	b.ne	.LBB57_15
	b	.LBB57_63
.LBB57_26:
	mov	x0, x20
	mov	w1, #1
	bl	"std_alloc::vec::Vec::grow_amortized::<#a8e0b0c0cbc96d99>"
	ldr	x11, [x20, #8]
	cbz	w0, .LBB57_59
	ldr	x8, [x20, #16]
	b	.LBB57_17
.LBB57_28:
	sub	x0, x29, #4
	mov	x1, x21
	mov	x2, x20
	bl	"amq_protocol_types::generation::values::gen_field_array::<#4ea8deeae94023ba>"
	ldurb	w8, [x29, #-4]
	cbz	w8, .LBB57_15
	b	.LBB57_61
.LBB57_29:
	ld1r	{ v1.4s }, [x21]
	sub	x11, x8, x9
	ldurb	w25, [x21, #-4]
	cmp	x11, #4
	b.ls	.LBB57_43
.LBB57_30:
	adrp	x11, .LCPI57_0
	ldr	q0, [x11, :lo12:.LCPI57_0]
	add	x11, x10, x9
	add	x9, x9, #5
	strb	w25, [x11]
	ushl	v0.4s, v1.4s, v0.4s
	xtn	v0.4h, v0.4s
	uzp1	v0.8b, v0.8b, v0.8b
	stur	s0, [x11, #1]
	b	.LBB57_14
.LBB57_31:
	sub	x0, x29, #8
	mov	x1, x21
	mov	x2, x20
	bl	"amq_protocol_types::generation::values::gen_field_table::<#4ea8deeae94023ba>"
	ldurb	w8, [x29, #-8]
	cbz	w8, .LBB57_15
	b	.LBB57_60
.LBB57_32:
	ldr	x5, [x21, #8]
	cmp	x5, #255
	b.ls	.LBB57_34
.LBB57_33:
	mov	w8, wzr
	mov	w10, #1
	mov	w9, #1
	cmp	w10, #1
	b.ne	.LBB57_15
	b	.LBB57_63
.LBB57_34:
	ldr	x4, [x21]
	add	x0, x29, #28
	add	x2, x29, #24
	mov	x1, x20
	mov	w3, #1
	strb	w5, [x29, #24]
	strb	wzr, [x29, #30]
	strh	wzr, [x29, #28]
	bl	"amq_protocol_types::generation::vector::VecU8Output::put_both"
	ldrb	w10, [x29, #28]
	ldrb	w9, [x29, #29]
	ldrb	w8, [x29, #30]
	cmp	w10, #1
	b.ne	.LBB57_15
	b	.LBB57_63
.LBB57_35:
	mov	x0, x20
	mov	w1, #4
	bl	"std_alloc::vec::Vec::grow_amortized::<#a8e0b0c0cbc96d99>"
	cbz	w0, .LBB57_62
	ldp	x9, x8, [x20, #8]
	ldr	x10, [x20]
	b	.LBB57_21
.LBB57_37:
	mov	x0, x20
	mov	w1, #8
	bl	"std_alloc::vec::Vec::grow_amortized::<#a8e0b0c0cbc96d99>"
	cbz	w0, .LBB57_62
	ldp	x9, x8, [x20, #8]
	ldr	x10, [x20]
	b	.LBB57_13
.LBB57_39:
	mov	x0, x20
	mov	w1, #1
	bl	"std_alloc::vec::Vec::grow_amortized::<#a8e0b0c0cbc96d99>"
	cbz	w0, .LBB57_62
	ldp	x9, x8, [x20, #8]
	ldr	x10, [x20]
	b	.LBB57_19
.LBB57_41:
	mov	x0, x20
	mov	w1, #2
	bl	"std_alloc::vec::Vec::grow_amortized::<#a8e0b0c0cbc96d99>"
	cbz	w0, .LBB57_62
	ldp	x9, x8, [x20, #8]
	ldr	x10, [x20]
	b	.LBB57_23
.LBB57_43:
	mov	x0, x20
	mov	w1, #5
	str	q1, [sp]
	bl	"std_alloc::vec::Vec::grow_amortized::<#a8e0b0c0cbc96d99>"
	cbz	w0, .LBB57_62
	ldp	x9, x8, [x20, #8]
	ldr	x10, [x20]
	ldr	q1, [sp]
	b	.LBB57_30
.LBB57_45:
	ldr	x8, [x20, #8]
.LBB57_46:
	sub	x9, x8, x22
	sub	x10, x9, #4
	lsr	x9, x10, #32
	cbz	x9, .LBB57_49
	cmp	x8, x22
	b.ls	.LBB57_51
	str	x22, [x20, #8]
	mov	w8, #1
	b	.LBB57_53
.LBB57_49:
	ldr	x8, [x20]
	and	w11, w10, #0xffffff
	lsr	x10, x10, #24
	rev	w11, w11
	add	x9, x8, x22
	add	x8, x29, #28
	sub	x8, x9, x8
	cmp	x8, #3
	mov	w8, wzr
	b.hi	.LBB57_52
	lsr	w12, w11, #8
	lsr	w13, w11, #16
	strb	w10, [x9]
	lsr	w10, w11, #24
	strb	w12, [x9, #1]
	strb	w13, [x9, #2]
	strb	w10, [x9, #3]
	b	.LBB57_53
.LBB57_51:
	mov	w8, #1
	b	.LBB57_53
.LBB57_52:
	orr	w10, w11, w10
	str	w10, [x9]
.LBB57_53:
	strb	w8, [x19]
	strb	w8, [x19, #1]
.LBB57_54:
	strb	wzr, [x19, #2]
.LBB57_55:
	ldp	x20, x19, [sp, #96]
	ldr	x25, [sp, #48]
	ldp	x22, x21, [sp, #80]
	ldp	x24, x23, [sp, #64]
	ldp	x29, x30, [sp, #32]
	add	sp, sp, #112
	ret
.LBB57_56:
	mov	x23, x1
	mov	x0, x20
	mov	x1, x2
	mov	x24, x2
	bl	"std_alloc::vec::Vec::grow_amortized::<#a8e0b0c0cbc96d99>"
	cbz	w0, .LBB57_58
	ldp	x8, x21, [x20, #8]
	mov	x1, x23
	mov	x2, x24
	add	x23, x8, x24
	ldr	x24, [x20]
	cmp	x8, x23
	b.lo	.LBB57_4
	b	.LBB57_5
.LBB57_58:
	mov	w8, #513
	strh	w8, [x19]
	b	.LBB57_54
.LBB57_59:
	mov	w8, wzr
	mov	w9, #2
	b	.LBB57_65
.LBB57_60:
	ldurb	w8, [x29, #-6]
	ldurb	w9, [x29, #-7]
	b	.LBB57_63
.LBB57_61:
	ldurb	w8, [x29, #-2]
	ldurb	w9, [x29, #-3]
	b	.LBB57_63
.LBB57_62:
	mov	w8, wzr
	mov	w9, #2
.LBB57_63:
	ldr	x11, [x20, #8]
	cmp	x11, x24
	b.ls	.LBB57_65
	mov	x11, x24
	str	x24, [x20, #8]
.LBB57_65:
	cmp	x11, x22
	b.ls	.LBB57_67
	str	x22, [x20, #8]
.LBB57_67:
	mov	w10, #1
	strb	w9, [x19, #1]
	strb	w10, [x19]
	strb	w8, [x19, #2]
	b	.LBB57_55
.Lfunc_end57:
	.size	"amq_protocol_types::generation::values::gen_field_array::<#4ea8deeae94023ba>", .Lfunc_end57-"amq_protocol_types::generation::values::gen_field_array::<#4ea8deeae94023ba>"
	.section	".rodata.amq_protocol_types::generation::values::gen_field_array::<#4ea8deeae94023ba>","a",@progbits
.LJTI57_0:
	.byte	(.LBB57_18-.LBB57_12)>>2
	.byte	(.LBB57_18-.LBB57_12)>>2
	.byte	(.LBB57_18-.LBB57_12)>>2
	.byte	(.LBB57_22-.LBB57_12)>>2
	.byte	(.LBB57_22-.LBB57_12)>>2
	.byte	(.LBB57_20-.LBB57_12)>>2
	.byte	(.LBB57_20-.LBB57_12)>>2
	.byte	(.LBB57_12-.LBB57_12)>>2
	.byte	(.LBB57_20-.LBB57_12)>>2
	.byte	(.LBB57_12-.LBB57_12)>>2
	.byte	(.LBB57_29-.LBB57_12)>>2
	.byte	(.LBB57_32-.LBB57_12)>>2
	.byte	(.LBB57_24-.LBB57_12)>>2
	.byte	(.LBB57_28-.LBB57_12)>>2
	.byte	(.LBB57_12-.LBB57_12)>>2
	.byte	(.LBB57_31-.LBB57_12)>>2
	.byte	(.LBB57_24-.LBB57_12)>>2
	.byte	(.LBB57_15-.LBB57_12)>>2

	.section	.rodata.cst16,"aM",@progbits,16
	.p2align	4, 0x0
.LCPI58_0:
	.word	4294967272
	.word	4294967280
	.word	4294967288
	.word	0
	.section	".text.amq_protocol_types::generation::values::gen_field_table::<#4ea8deeae94023ba>","ax",@progbits
	.p2align	2
	.type	"amq_protocol_types::generation::values::gen_field_table::<#4ea8deeae94023ba>",@function
"amq_protocol_types::generation::values::gen_field_table::<#4ea8deeae94023ba>":
	sub	sp, sp, #224
	stp	x26, x25, [sp, #160]
	ldp	x25, x8, [x2, #8]
	stp	x22, x21, [sp, #192]
	mov	x21, x1
	stp	x20, x19, [sp, #208]
	mov	x20, x2
	sub	x8, x8, x25
	stp	x29, x30, [sp, #128]
	add	x29, sp, #128
	cmp	x8, #3
	mov	x8, x25
	stp	x28, x27, [sp, #144]
	stp	x24, x23, [sp, #176]
	b.ls	.LBB58_6
	add	x9, x25, #4
	subs	x2, x9, x8
	b.ls	.LBB58_8
.LBB58_2:
	ldr	x19, [x20, #16]
	sub	x9, x19, x8
	cmp	x2, x9
	b.hi	.LBB58_73
	add	x22, x8, x2
	ldr	x23, [x20]
	cmp	x8, x22
	b.hs	.LBB58_5
.LBB58_4:
	mov	x24, x0
	add	x0, x23, x8
	mov	w1, wzr
	bl	memset
	mov	x0, x24
.LBB58_5:
	stp	x23, x22, [x20]
	str	x19, [x20, #16]
	b	.LBB58_10
.LBB58_6:
	mov	x23, x0
	mov	x0, x20
	mov	w1, #4
	bl	"std_alloc::vec::Vec::grow_amortized::<#a8e0b0c0cbc96d99>"
	cbz	w0, .LBB58_75
	ldr	x8, [x20, #8]
	mov	x0, x23
	add	x9, x25, #4
	subs	x2, x9, x8
	b.hi	.LBB58_2
.LBB58_8:
	b.hs	.LBB58_10
	str	x9, [x20, #8]
.LBB58_10:
	ldrb	w8, [x21]
	stp	x0, x25, [sp, #16]
	cmp	w8, #1
	b.ne	.LBB58_13
	ldr	x8, [x21, #8]!
	ldrh	w9, [x8, #2]
	cbz	w9, .LBB58_64
	mov	x26, xzr
	mov	x9, #-1
	mov	w19, #1
	b	.LBB58_14
.LBB58_13:
	mov	x26, xzr
	mov	w19, wzr
	mov	x21, xzr
	mov	x9, xzr
.LBB58_14:
	sub	x27, x29, #8
	sub	x28, x29, #8
.LBB58_15:
	mov	x23, xzr
	stp	x21, x9, [sp, #40]
	str	x9, [sp, #32]
	b	.LBB58_19
.LBB58_16:
	ldrb	w22, [x24, #1]
	cmp	x8, x9
	b.eq	.LBB58_50
.LBB58_17:
	strb	w22, [x10, x9]
	add	x9, x9, #1
.LBB58_18:
	stp	x10, x9, [x20]
	str	x8, [x20, #16]
.LBB58_19:
	cmp	x23, x26
	b.lo	.LBB58_23
	movi	v0.2d, #0000000000000000
	cmp	w19, #1
	stp	q0, q0, [sp, #80]
	str	q0, [sp, #64]
	b.eq	.LBB58_29
	mov	w19, wzr
.LBB58_22:
	cmp	x23, x26
	b.hs	.LBB58_65
.LBB58_23:
	mov	w8, #24
	add	x24, x28, x23, lsl #5
	madd	x8, x23, x8, x27
	add	x23, x23, #1
	ldp	x4, x5, [x8]
	ldr	x25, [x20, #8]
	sturb	wzr, [x29, #-12]
	cmp	x5, #256
	b.hs	.LBB58_58
.LBB58_24:
	ldrb	w8, [x24]
	adrp	x9, ".Lswitch.table.amq_protocol_types::generation::values::gen_field_table::<#4ea8deeae94023ba>"
	add	x9, x9, :lo12:".Lswitch.table.amq_protocol_types::generation::values::gen_field_table::<#4ea8deeae94023ba>"
	add	x0, sp, #64
	sub	x2, x29, #12
	mov	x1, x20
	ldrb	w22, [x9, x8]
	mov	w3, #1
	sturb	w5, [x29, #-12]
	strb	wzr, [sp, #66]
	strh	wzr, [sp, #64]
	bl	"amq_protocol_types::generation::vector::VecU8Output::put_both"
	ldrb	w8, [sp, #64]
	cbnz	w8, .LBB58_59
	ldp	x11, x8, [x20, #8]
	cmp	x8, x11
	b.eq	.LBB58_39
.LBB58_26:
	ldr	x10, [x20]
	add	x9, x11, #1
	strh	wzr, [sp, #60]
	strb	wzr, [sp, #62]
	adrp	x12, .LJTI58_0
	add	x12, x12, :lo12:.LJTI58_0
	strb	w22, [x10, x11]
	stp	x10, x9, [x20]
	str	x8, [x20, #16]
	strh	wzr, [sp, #56]
	strb	wzr, [sp, #58]
	ldrb	w11, [x24]
	adr	x13, .LBB58_16
	ldrb	w14, [x12, x11]
	add	x13, x13, x14, lsl #2
	br	x13
.LBB58_27:
	sub	x11, x8, x9
	ldr	w22, [x24, #4]
	cmp	x11, #3
	b.ls	.LBB58_52
.LBB58_28:
	rev	w11, w22
	str	w11, [x10, x9]
	add	x9, x9, #4
	b	.LBB58_18
.LBB58_29:
	ldp	x2, x1, [sp, #40]
	add	x0, sp, #64
	ldr	x4, [sp, #32]
	mov	x3, x21
	bl	"std_collections::btree::iter::Cursor::advance::<#8af3e1b4e9e21b57>"
	ldrb	w8, [sp, #88]
	cmp	w8, #1
	b.ne	.LBB58_37
	ldp	x9, x8, [sp, #96]
	mov	x23, xzr
	mov	w19, #1
	stp	x8, x9, [sp, #40]
	ldr	x8, [x8]
	ubfiz	x9, x9, #3, #4
	add	x8, x8, x9
	ldr	x8, [x8, #848]
	mov	x27, x8
	add	x28, x8, #368
	ldrh	w26, [x27], #8
	ldrb	w8, [sp, #64]
	cmp	w8, #1
	b.ne	.LBB58_22
	b	.LBB58_38
.LBB58_31:
	sub	x11, x8, x9
	ldr	x22, [x24, #8]
	cmp	x11, #7
	b.ls	.LBB58_48
.LBB58_32:
	rev	x11, x22
	str	x11, [x10, x9]
	add	x9, x9, #8
	b	.LBB58_18
.LBB58_33:
	ldr	x5, [x24, #16]
	lsr	x8, x5, #32
	cbnz	x8, .LBB58_45
	lsr	x8, x5, #24
	and	w9, w5, #0xffffff
	ldr	x4, [x24, #8]
	rev	w9, w9
	sub	x0, x29, #12
	add	x2, sp, #64
	orr	w8, w9, w8
	mov	x1, x20
	mov	w3, #4
	sturb	wzr, [x29, #-10]
	str	w8, [sp, #64]
	sturh	wzr, [x29, #-12]
	bl	"amq_protocol_types::generation::vector::VecU8Output::put_both"
	ldurb	w10, [x29, #-12]
	ldurb	w9, [x29, #-11]
	ldurb	w8, [x29, #-10]
	cmp	w10, #1
	b.ne	.LBB58_19
	b	.LBB58_81
.LBB58_35:
	sub	x11, x8, x9
	ldrh	w22, [x24, #2]
	cmp	x11, #1
	b.ls	.LBB58_54
.LBB58_36:
	rev16	w11, w22
	strh	w11, [x10, x9]
	add	x9, x9, #2
	b	.LBB58_18
.LBB58_37:
	mov	w19, wzr
	mov	x21, xzr
	stp	xzr, xzr, [sp, #40]
	str	xzr, [sp, #32]
	ldrb	w8, [sp, #64]
	cmp	w8, #1
	b.ne	.LBB58_22
.LBB58_38:
	ldp	x8, x24, [sp, #72]
	ldp	x4, x5, [x8]
	ldr	x25, [x20, #8]
	sturb	wzr, [x29, #-12]
	cmp	x5, #256
	b.lo	.LBB58_24
	b	.LBB58_58
.LBB58_39:
	mov	x0, x20
	mov	w1, #1
	bl	"std_alloc::vec::Vec::grow_amortized::<#a8e0b0c0cbc96d99>"
	ldr	x11, [x20, #8]
	cbz	w0, .LBB58_76
	ldr	x8, [x20, #16]
	b	.LBB58_26
.LBB58_41:
	add	x0, sp, #56
	add	x1, x24, #8
	mov	x2, x20
	bl	"amq_protocol_types::generation::values::gen_field_table::<#4ea8deeae94023ba>"
	ldrb	w8, [sp, #56]
	cbz	w8, .LBB58_19
	b	.LBB58_79
.LBB58_42:
	add	x11, x24, #8
	ldrb	w22, [x24, #4]
	ld1r	{ v1.4s }, [x11]
	sub	x11, x8, x9
	cmp	x11, #4
	b.ls	.LBB58_56
.LBB58_43:
	adrp	x11, .LCPI58_0
	ldr	q0, [x11, :lo12:.LCPI58_0]
	add	x11, x10, x9
	add	x9, x9, #5
	strb	w22, [x11]
	ushl	v0.4s, v1.4s, v0.4s
	xtn	v0.4h, v0.4s
	uzp1	v0.8b, v0.8b, v0.8b
	stur	s0, [x11, #1]
	b	.LBB58_18
.LBB58_44:
	ldr	x5, [x24, #16]
	cmp	x5, #255
	b.ls	.LBB58_47
.LBB58_45:
	mov	w8, wzr
	mov	w10, #1
	mov	w9, #1
	cmp	w10, #1
	b.ne	.LBB58_19
	b	.LBB58_81
.LBB58_46:
	add	x0, sp, #60
	add	x1, x24, #8
	mov	x2, x20
	bl	"amq_protocol_types::generation::values::gen_field_array::<#4ea8deeae94023ba>"
	ldrb	w8, [sp, #60]
	cbz	w8, .LBB58_19
	b	.LBB58_78
.LBB58_47:
	ldr	x4, [x24, #8]
	add	x0, sp, #64
	sub	x2, x29, #12
	mov	x1, x20
	mov	w3, #1
	sturb	w5, [x29, #-12]
	strb	wzr, [sp, #66]
	strh	wzr, [sp, #64]
	bl	"amq_protocol_types::generation::vector::VecU8Output::put_both"
	ldrb	w10, [sp, #64]
	ldrb	w9, [sp, #65]
	ldrb	w8, [sp, #66]
	cmp	w10, #1
	b.ne	.LBB58_19
	b	.LBB58_81
.LBB58_48:
	mov	x0, x20
	mov	w1, #8
	bl	"std_alloc::vec::Vec::grow_amortized::<#a8e0b0c0cbc96d99>"
	cbz	w0, .LBB58_80
	ldp	x9, x8, [x20, #8]
	ldr	x10, [x20]
	b	.LBB58_32
.LBB58_50:
	mov	x0, x20
	mov	w1, #1
	bl	"std_alloc::vec::Vec::grow_amortized::<#a8e0b0c0cbc96d99>"
	cbz	w0, .LBB58_80
	ldp	x9, x8, [x20, #8]
	ldr	x10, [x20]
	b	.LBB58_17
.LBB58_52:
	mov	x0, x20
	mov	w1, #4
	bl	"std_alloc::vec::Vec::grow_amortized::<#a8e0b0c0cbc96d99>"
	cbz	w0, .LBB58_80
	ldp	x9, x8, [x20, #8]
	ldr	x10, [x20]
	b	.LBB58_28
.LBB58_54:
	mov	x0, x20
	mov	w1, #2
	bl	"std_alloc::vec::Vec::grow_amortized::<#a8e0b0c0cbc96d99>"
	cbz	w0, .LBB58_80
	ldp	x9, x8, [x20, #8]
	ldr	x10, [x20]
	b	.LBB58_36
.LBB58_56:
	mov	x0, x20
	mov	w1, #5
	str	q1, [sp]
	bl	"std_alloc::vec::Vec::grow_amortized::<#a8e0b0c0cbc96d99>"
	cbz	w0, .LBB58_80
	ldp	x9, x8, [x20, #8]
	ldr	x10, [x20]
	ldr	q1, [sp]
	b	.LBB58_43
.LBB58_58:
	mov	w8, wzr
	mov	w9, #1
	ldp	x12, x10, [sp, #16]
	cmp	x25, x10
	b.hi	.LBB58_61
	b	.LBB58_62
.LBB58_59:
	ldrb	w8, [sp, #66]
	ldrb	w9, [sp, #65]
	ldr	x11, [x20, #8]
.LBB58_60:
	ldp	x12, x10, [sp, #16]
	cmp	x11, x10
	b.ls	.LBB58_62
.LBB58_61:
	str	x10, [x20, #8]
.LBB58_62:
	mov	w10, #1
	strb	w9, [x12, #1]
	strb	w10, [x12]
	strb	w8, [x12, #2]
.LBB58_63:
	ldp	x20, x19, [sp, #208]
	ldp	x22, x21, [sp, #192]
	ldp	x24, x23, [sp, #176]
	ldp	x26, x25, [sp, #160]
	ldp	x28, x27, [sp, #144]
	ldp	x29, x30, [sp, #128]
	add	sp, sp, #224
	ret
.LBB58_64:
	mov	x27, x8
	mov	w19, wzr
	mov	x21, xzr
	ldrh	w26, [x27], #8
	mov	x9, xzr
	add	x28, x8, #368
	b	.LBB58_15
.LBB58_65:
	ldr	x8, [x20, #8]
	ldr	x11, [sp, #24]
	sub	x9, x8, x11
	sub	x10, x9, #4
	lsr	x9, x10, #32
	cbz	x9, .LBB58_68
	ldr	x14, [sp, #16]
	cmp	x8, x11
	b.ls	.LBB58_70
	str	x11, [x20, #8]
	mov	w8, #1
	b	.LBB58_72
.LBB58_68:
	ldr	x8, [x20]
	ldr	x14, [sp, #16]
	add	x9, x8, x11
	add	x8, sp, #64
	and	w11, w10, #0xffffff
	sub	x8, x9, x8
	lsr	x10, x10, #24
	rev	w11, w11
	cmp	x8, #3
	mov	w8, wzr
	b.hi	.LBB58_71
	lsr	w12, w11, #8
	lsr	w13, w11, #16
	strb	w10, [x9]
	lsr	w10, w11, #24
	strb	w12, [x9, #1]
	strb	w13, [x9, #2]
	strb	w10, [x9, #3]
	b	.LBB58_72
.LBB58_70:
	mov	w8, #1
	b	.LBB58_72
.LBB58_71:
	orr	w10, w11, w10
	str	w10, [x9]
.LBB58_72:
	strb	w8, [x14]
	strb	w8, [x14, #1]
	strb	wzr, [x14, #2]
	b	.LBB58_63
.LBB58_73:
	mov	x23, x0
	mov	x0, x20
	mov	x1, x2
	mov	x22, x2
	bl	"std_alloc::vec::Vec::grow_amortized::<#a8e0b0c0cbc96d99>"
	cbz	w0, .LBB58_75
	ldp	x8, x19, [x20, #8]
	mov	x2, x22
	mov	x0, x23
	add	x22, x8, x22
	ldr	x23, [x20]
	cmp	x8, x22
	b.lo	.LBB58_4
	b	.LBB58_5
.LBB58_75:
	mov	w8, #513
	strb	wzr, [x23, #2]
	strh	w8, [x23]
	b	.LBB58_63
.LBB58_76:
	cmp	x11, x25
	b.ls	.LBB58_84
	mov	w8, wzr
	mov	w9, #2
	mov	x11, x25
	str	x25, [x20, #8]
	b	.LBB58_60
.LBB58_78:
	ldrb	w8, [sp, #62]
	ldrb	w9, [sp, #61]
	b	.LBB58_81
.LBB58_79:
	ldrb	w8, [sp, #58]
	ldrb	w9, [sp, #57]
	b	.LBB58_81
.LBB58_80:
	mov	w8, wzr
	mov	w9, #2
.LBB58_81:
	ldr	x10, [x20, #8]
	cmp	x10, x25
	b.ls	.LBB58_83
	str	x25, [x20, #8]
	ldp	x12, x10, [sp, #16]
	cmp	x25, x10
	b.hi	.LBB58_61
	b	.LBB58_62
.LBB58_83:
	mov	x25, x10
	ldp	x12, x10, [sp, #16]
	cmp	x25, x10
	b.hi	.LBB58_61
	b	.LBB58_62
.LBB58_84:
	mov	w8, wzr
	mov	w9, #2
	b	.LBB58_60
.Lfunc_end58:
	.size	"amq_protocol_types::generation::values::gen_field_table::<#4ea8deeae94023ba>", .Lfunc_end58-"amq_protocol_types::generation::values::gen_field_table::<#4ea8deeae94023ba>"
	.section	".rodata.amq_protocol_types::generation::values::gen_field_table::<#4ea8deeae94023ba>","a",@progbits
.LJTI58_0:
	.byte	(.LBB58_16-.LBB58_16)>>2
	.byte	(.LBB58_16-.LBB58_16)>>2
	.byte	(.LBB58_16-.LBB58_16)>>2
	.byte	(.LBB58_35-.LBB58_16)>>2
	.byte	(.LBB58_35-.LBB58_16)>>2
	.byte	(.LBB58_27-.LBB58_16)>>2
	.byte	(.LBB58_27-.LBB58_16)>>2
	.byte	(.LBB58_31-.LBB58_16)>>2
	.byte	(.LBB58_27-.LBB58_16)>>2
	.byte	(.LBB58_31-.LBB58_16)>>2
	.byte	(.LBB58_42-.LBB58_16)>>2
	.byte	(.LBB58_44-.LBB58_16)>>2
	.byte	(.LBB58_33-.LBB58_16)>>2
	.byte	(.LBB58_46-.LBB58_16)>>2
	.byte	(.LBB58_31-.LBB58_16)>>2
	.byte	(.LBB58_41-.LBB58_16)>>2
	.byte	(.LBB58_33-.LBB58_16)>>2
	.byte	(.LBB58_19-.LBB58_16)>>2

	.section	".text.std_collections::btree::iter::Cursor::advance::<#8af3e1b4e9e21b57>","ax",@progbits
	.p2align	2
	.type	"std_collections::btree::iter::Cursor::advance::<#8af3e1b4e9e21b57>",@function
"std_collections::btree::iter::Cursor::advance::<#8af3e1b4e9e21b57>":
	cmn	x1, #1
	b.eq	.LBB59_3
	ldr	x8, [x2]
	and	x9, x1, #0xf
	ldrh	w10, [x8]
	cmp	x9, x10
	b.hs	.LBB59_5
	mov	w10, #24
	mov	w12, #1
	mov	x3, x2
	umaddl	x10, w9, w10, x8
	add	x8, x8, x9, lsl #5
	add	x9, x8, #368
	add	x8, x1, #1
	add	x10, x10, #8
	cmp	x8, x4
	b.ne	.LBB59_15
	b	.LBB59_20
.LBB59_3:
	ldr	x11, [x3]
	ldrh	w8, [x11, #2]
	cmp	w8, #1
	b.ne	.LBB59_17
	mov	x12, xzr
	mov	x10, xzr
	mov	x9, xzr
	mov	x8, xzr
	cmp	xzr, x4
	b.ne	.LBB59_15
	b	.LBB59_20
.LBB59_5:
	ldr	x9, [x3]
	ldrh	w14, [x9, #2]
	cmp	w14, #1
	b.eq	.LBB59_16
	mov	x12, xzr
	mov	x8, xzr
	mov	x11, xzr
	mov	w10, wzr
	mov	x13, xzr
.LBB59_7:
	ubfiz	x14, x14, #2, #32
	sub	x14, x14, #4
	lsr	x14, x1, x14
	and	x15, x14, #0xf
	ldrh	w14, [x9]
	add	x16, x9, x15, lsl #3
	cmp	x15, x14
	ldr	x9, [x16, #848]
	csel	x8, x8, x13, hs
	orr	x13, x15, x13, lsl #4
	csel	x11, x11, x3, hs
	csinc	w10, w10, wzr, hs
	csel	x12, x12, x15, hs
	ldrh	w14, [x9, #2]
	add	x3, x16, #848
	cmp	w14, #1
	b.ne	.LBB59_7
	cbz	w10, .LBB59_16
	mov	w9, #24
	ldr	x13, [x11]
	madd	x9, x12, x9, x13
	ldrh	w10, [x13, #2]
	add	x14, x13, x12, lsl #5
	add	x12, x12, #1
	cmp	w10, #1
	add	x10, x9, #8
	add	x9, x14, #368
	b.eq	.LBB59_14
	lsl	x11, x12, #3
	add	x8, x12, x8, lsl #4
	add	x14, x13, x11
	ldr	x14, [x14, #848]
	ldrh	w15, [x14, #2]
	cmp	w15, #1
	b.eq	.LBB59_13
.LBB59_11:
	mov	x13, x14
	ldr	x14, [x14, #848]
	lsl	x8, x8, #4
	ldrh	w11, [x14, #2]
	cmp	w11, #1
	b.ne	.LBB59_11
	mov	x11, xzr
.LBB59_13:
	add	x11, x13, x11
	mov	x12, xzr
	add	x11, x11, #848
.LBB59_14:
	add	x8, x12, x8, lsl #4
	mov	w12, #1
	mov	x3, x11
	cmp	x8, x4
	b.eq	.LBB59_20
.LBB59_15:
	stp	x12, x10, [x0]
	mov	w10, #1
	stp	x9, x10, [x0, #16]
	stp	x8, x3, [x0, #32]
	ret
.LBB59_16:
	movi	v0.2d, #0000000000000000
	stp	q0, q0, [x0, #16]
	str	q0, [x0]
	ret
.LBB59_17:
	ldr	x8, [x11, #848]
	ldrh	w9, [x8, #2]
	cmp	w9, #1
	b.eq	.LBB59_19
.LBB59_18:
	mov	x11, x8
	ldr	x8, [x8, #848]
	ldrh	w9, [x8, #2]
	cmp	w9, #1
	b.ne	.LBB59_18
.LBB59_19:
	mov	x12, xzr
	mov	x10, xzr
	mov	x9, xzr
	mov	x8, xzr
	add	x3, x11, #848
	cmp	xzr, x4
	b.ne	.LBB59_15
.LBB59_20:
	stp	x12, x10, [x0]
	stp	x9, xzr, [x0, #16]
	stp	xzr, xzr, [x0, #32]
	ret
.Lfunc_end59:
	.size	"std_collections::btree::iter::Cursor::advance::<#8af3e1b4e9e21b57>", .Lfunc_end59-"std_collections::btree::iter::Cursor::advance::<#8af3e1b4e9e21b57>"

	.section	".text.std_alloc::vec::Vec::drop::<#075e21c32a54ff68>","ax",@progbits
	.p2align	2
	.type	"std_alloc::vec::Vec::drop::<#075e21c32a54ff68>",@function
"std_alloc::vec::Vec::drop::<#075e21c32a54ff68>":
	sub	sp, sp, #96
	stp	x20, x19, [sp, #80]
	ldp	x19, x20, [x0]
	stp	x22, x21, [sp, #64]
	ldr	x21, [x0, #16]
	stp	x29, x30, [sp, #32]
	add	x29, sp, #32
	str	x23, [sp, #48]
	cbz	x20, .LBB60_3
	mov	x8, sp
	add	x23, x19, #2
	orr	x22, x8, #0x4
.LBB60_2:
	ldur	w8, [x23, #-2]
	ldur	q0, [x23, #2]
	mov	x0, sp
	ldur	q1, [x23, #14]
	str	w8, [sp]
	str	q0, [x22]
	stur	q1, [x22, #12]
	bl	"amqp_c_alloc::amqp_value_core++value++AMQPValue+Destruct::drop"
	subs	x20, x20, #1
	add	x23, x23, #32
	b.ne	.LBB60_2
.LBB60_3:
	cbz	x21, .LBB60_5
	mov	x0, x19
	ldp	x20, x19, [sp, #80]
	ldp	x22, x21, [sp, #64]
	ldr	x23, [sp, #48]
	ldp	x29, x30, [sp, #32]
	add	sp, sp, #96
	b	rattle_dealloc
.LBB60_5:
	ldp	x20, x19, [sp, #80]
	ldr	x23, [sp, #48]
	ldp	x22, x21, [sp, #64]
	ldp	x29, x30, [sp, #32]
	add	sp, sp, #96
	ret
.Lfunc_end60:
	.size	"std_alloc::vec::Vec::drop::<#075e21c32a54ff68>", .Lfunc_end60-"std_alloc::vec::Vec::drop::<#075e21c32a54ff68>"

	.section	".text.amqp_c_alloc::amqp_value_core++value++AMQPValue+Destruct::drop","ax",@progbits
	.p2align	2
	.type	"amqp_c_alloc::amqp_value_core++value++AMQPValue+Destruct::drop",@function
"amqp_c_alloc::amqp_value_core++value++AMQPValue+Destruct::drop":
	sub	sp, sp, #96
	ldrb	w8, [x0]
	stp	x29, x30, [sp, #32]
	add	x29, sp, #32
	str	x23, [sp, #48]
	cmp	w8, #10
	stp	x22, x21, [sp, #64]
	stp	x20, x19, [sp, #80]
	b.gt	.LBB61_2
.LBB61_1:
	ldp	x20, x19, [sp, #80]
	ldr	x23, [sp, #48]
	ldp	x22, x21, [sp, #64]
	ldp	x29, x30, [sp, #32]
	add	sp, sp, #96
	ret
.LBB61_2:
	ldp	x19, x20, [x0, #8]
	cmp	w8, #13
	ldr	x21, [x0, #24]
	b.le	.LBB61_7
	cmp	w8, #15
	b.gt	.LBB61_12
	cmp	w8, #14
	b.eq	.LBB61_1
	and	x8, x19, #0xff
	cmp	x8, #1
	b.ne	.LBB61_1
	mov	x0, x20
	ldp	x20, x19, [sp, #80]
	ldp	x22, x21, [sp, #64]
	ldr	x23, [sp, #48]
	ldp	x29, x30, [sp, #32]
	add	sp, sp, #96
	b	"std_collections::btree::node::Node::destroy::<#906c1b7c2fff9a74>"
.LBB61_7:
	cmp	w8, #11
	b.eq	.LBB61_13
	cmp	w8, #12
	b.eq	.LBB61_13
	cbz	x20, .LBB61_13
	mov	x8, sp
	add	x23, x19, #2
	orr	x22, x8, #0x4
.LBB61_11:
	ldur	w8, [x23, #-2]
	ldur	q0, [x23, #2]
	mov	x0, sp
	ldur	q1, [x23, #14]
	str	w8, [sp]
	str	q0, [x22]
	stur	q1, [x22, #12]
	bl	"amqp_c_alloc::amqp_value_core++value++AMQPValue+Destruct::drop"
	subs	x20, x20, #1
	add	x23, x23, #32
	b.ne	.LBB61_11
	b	.LBB61_13
.LBB61_12:
	cmp	w8, #16
	b.ne	.LBB61_1
.LBB61_13:
	cbz	x21, .LBB61_1
	mov	x0, x19
	ldp	x20, x19, [sp, #80]
	ldp	x22, x21, [sp, #64]
	ldr	x23, [sp, #48]
	ldp	x29, x30, [sp, #32]
	add	sp, sp, #96
	b	rattle_dealloc
.Lfunc_end61:
	.size	"amqp_c_alloc::amqp_value_core++value++AMQPValue+Destruct::drop", .Lfunc_end61-"amqp_c_alloc::amqp_value_core++value++AMQPValue+Destruct::drop"

	.section	".text.std_collections::btree::node::Node::destroy::<#906c1b7c2fff9a74>","ax",@progbits
	.p2align	2
	.type	"std_collections::btree::node::Node::destroy::<#906c1b7c2fff9a74>",@function
"std_collections::btree::node::Node::destroy::<#906c1b7c2fff9a74>":
	sub	sp, sp, #256
	stp	x20, x19, [sp, #240]
	ldrh	w20, [x0]
	ldrh	w10, [x0, #2]
	add	x8, x0, #8
	mov	w9, #15
	mov	w11, #16
	stp	x8, x20, [sp, #32]
	add	x8, x0, #368
	cmp	w10, #0
	stp	x9, x8, [sp, #48]
	add	x8, x0, #848
	csel	x11, xzr, x11, eq
	stp	x20, x9, [sp, #64]
	csinc	x9, xzr, x20, eq
	stp	x29, x30, [sp, #176]
	add	x29, sp, #176
	str	x25, [sp, #192]
	stp	x24, x23, [sp, #208]
	stp	x22, x21, [sp, #224]
	stp	xzr, xzr, [sp]
	str	wzr, [sp, #24]
	str	xzr, [sp, #16]
	stp	x8, x9, [sp, #80]
	stp	x11, x0, [sp, #96]
	cbz	w10, .LBB62_35
	add	x19, sp, #32
	cbz	w20, .LBB62_22
	sub	x8, x29, #32
	orr	x20, x8, #0x4
	b	.LBB62_4
.LBB62_3:
	ldr	q0, [sp]
	ldur	q1, [sp, #12]
	sub	x0, x29, #32
	sturb	w21, [x29, #-32]
	sturb	w23, [x29, #-31]
	sturh	w22, [x29, #-30]
	str	q0, [x20]
	stur	q1, [x20, #12]
	bl	"amqp_c_alloc::amqp_value_core++value++AMQPValue+Destruct::drop"
	ldr	x8, [sp, #40]
	cbz	x8, .LBB62_21
.LBB62_4:
	ldp	x9, x8, [sp, #80]
	sub	x8, x8, #1
	ldr	x0, [x9]
	cmp	x8, #257
	b.lo	.LBB62_10
	mov	x13, xzr
	add	x11, x9, #16
.LBB62_6:
	mov	w10, #256
	mov	x12, x11
.LBB62_7:
	ldur	q0, [x12, #-8]
	ldur	q1, [x12, #8]
	subs	x10, x10, #4
	stp	q0, q1, [x12, #-16]
	add	x12, x12, #32
	b.ne	.LBB62_7
	add	x13, x13, #256
	add	x11, x11, #2048
	sub	x10, x8, x13
	cmp	x10, #256
	b.hi	.LBB62_6
	lsl	x11, x13, #3
	add	x12, x9, x11
	cmp	x8, x13
	b.ne	.LBB62_11
	b	.LBB62_16
.LBB62_10:
	mov	x11, xzr
	mov	x12, x9
	mov	x10, x8
	cmp	x8, xzr
	b.eq	.LBB62_16
.LBB62_11:
	cmp	x10, #4
	b.lo	.LBB62_13
	add	x13, x11, x9
	sub	x13, x13, x12
	sub	x13, x13, #8
	cmp	x13, #32
	b.hs	.LBB62_18
.LBB62_13:
	mov	x13, xzr
.LBB62_14:
	lsl	x14, x13, #3
	add	x11, x9, x11
	sub	x9, x10, x13
	add	x12, x12, x14
	add	x11, x11, x14
	add	x10, x12, #8
.LBB62_15:
	ldr	x12, [x10], #8
	subs	x9, x9, #1
	str	x12, [x11], #8
	b.ne	.LBB62_15
.LBB62_16:
	ldr	x9, [sp, #96]
	stp	x8, x9, [sp, #88]
	bl	"std_collections::btree::node::Node::destroy::<#906c1b7c2fff9a74>"
	movi	v0.2d, #0000000000000000
	sub	x0, x29, #64
	add	x1, sp, #32
	mov	x2, xzr
	stp	xzr, xzr, [x29, #-56]
	stur	xzr, [x29, #-64]
	stp	q0, q0, [x29, #-32]
	bl	"std_alloc::vec::Vec::remove::<#5ea93b9ddeb8aab1>"
	sub	x0, x29, #32
	add	x1, x19, #24
	mov	x2, xzr
	bl	"std_alloc::vec::Vec::remove::<#cd5e489e5ed3d409>"
	ldr	q0, [x20]
	ldur	x0, [x29, #-64]
	ldur	x8, [x29, #-48]
	ldurb	w21, [x29, #-32]
	ldur	q1, [x20, #12]
	ldurb	w23, [x29, #-31]
	ldurh	w22, [x29, #-30]
	str	q0, [sp]
	stur	q1, [sp, #12]
	cbz	x8, .LBB62_3
	bl	rattle_dealloc
	b	.LBB62_3
.LBB62_18:
	add	x15, x9, x11
	and	x13, x10, #0x1fc
	add	x14, x12, #24
	add	x15, x15, #16
	and	x16, x10, #0x1fc
.LBB62_19:
	ldp	q0, q1, [x14, #-16]
	subs	x16, x16, #4
	add	x14, x14, #32
	stp	q0, q1, [x15, #-16]
	add	x15, x15, #32
	b.ne	.LBB62_19
	cmp	x10, x13
	b.eq	.LBB62_16
	b	.LBB62_14
.LBB62_21:
	ldp	x8, x9, [sp, #80]
	sub	x20, x9, #1
.LBB62_22:
	ldr	x0, [x8]
	mov	x9, xzr
	mov	x12, xzr
	cmp	x20, #257
	mov	x11, x8
	mov	x10, x20
	stp	xzr, xzr, [x19, #56]
	b.lo	.LBB62_28
	mov	x12, xzr
	add	x9, x8, #16
.LBB62_24:
	mov	w10, #256
	mov	x11, x9
.LBB62_25:
	ldur	q0, [x11, #-8]
	ldur	q1, [x11, #8]
	subs	x10, x10, #4
	stp	q0, q1, [x11, #-16]
	add	x11, x11, #32
	b.ne	.LBB62_25
	add	x12, x12, #256
	add	x9, x9, #2048
	sub	x10, x20, x12
	cmp	x10, #256
	b.hi	.LBB62_24
	lsl	x9, x12, #3
	add	x11, x8, x9
.LBB62_28:
	cmp	x20, x12
	b.eq	.LBB62_34
	cmp	x10, #6
	b.lo	.LBB62_31
	add	x14, x9, x8
	sub	x12, x14, x11
	sub	x12, x12, #8
	cmp	x12, #32
	b.hs	.LBB62_42
.LBB62_31:
	mov	x12, xzr
.LBB62_32:
	lsl	x13, x12, #3
	add	x14, x8, x9
	sub	x8, x10, x12
	add	x11, x13, x11
	add	x10, x14, x13
	add	x9, x11, #8
.LBB62_33:
	ldr	x11, [x9], #8
	subs	x8, x8, #1
	str	x11, [x10], #8
	b.ne	.LBB62_33
.LBB62_34:
	bl	"std_collections::btree::node::Node::destroy::<#906c1b7c2fff9a74>"
	ldr	x0, [sp, #104]
	b	.LBB62_41
.LBB62_35:
	mov	x19, x0
	add	x0, sp, #32
	bl	"std_collections::btree::row::Row::reverse::<#8af3e1b4e9e21b57>"
	cbz	w20, .LBB62_40
	add	x8, x20, x20, lsl #1
	sub	x9, x29, #32
	lsl	x20, x20, #5
	orr	x22, x9, #0x4
	lsl	x21, x8, #3
	b	.LBB62_38
.LBB62_37:
	ldur	q0, [x29, #-64]
	ldur	q1, [x29, #-52]
	sub	x0, x29, #32
	sturb	w23, [x29, #-32]
	sub	x21, x21, #24
	sturb	w25, [x29, #-31]
	sturh	w24, [x29, #-30]
	str	q0, [x22]
	stur	q1, [x22, #12]
	bl	"amqp_c_alloc::amqp_value_core++value++AMQPValue+Destruct::drop"
	sub	x20, x20, #32
	cbz	x21, .LBB62_40
.LBB62_38:
	add	x8, x19, x20
	add	x9, x19, x21
	add	x10, x8, #340
	ldur	x0, [x9, #-16]
	ldr	x9, [x9]
	ldr	q0, [x10]
	ldrb	w23, [x8, #336]
	ldr	q1, [x8, #352]
	ldrb	w25, [x8, #337]
	ldrh	w24, [x8, #338]
	stur	q0, [x29, #-64]
	stur	q1, [x29, #-52]
	cbz	x9, .LBB62_37
	bl	rattle_dealloc
	b	.LBB62_37
.LBB62_40:
	mov	x0, x19
.LBB62_41:
	ldp	x20, x19, [sp, #240]
	ldr	x25, [sp, #192]
	ldp	x22, x21, [sp, #224]
	ldp	x24, x23, [sp, #208]
	ldp	x29, x30, [sp, #176]
	add	sp, sp, #256
	b	rattle_dealloc
.LBB62_42:
	and	x12, x10, #0x1fc
	add	x13, x11, #24
	add	x14, x14, #16
	and	x15, x10, #0x1fc
.LBB62_43:
	ldp	q0, q1, [x13, #-16]
	subs	x15, x15, #4
	add	x13, x13, #32
	stp	q0, q1, [x14, #-16]
	add	x14, x14, #32
	b.ne	.LBB62_43
	cmp	x10, x12
	b.eq	.LBB62_34
	b	.LBB62_32
.Lfunc_end62:
	.size	"std_collections::btree::node::Node::destroy::<#906c1b7c2fff9a74>", .Lfunc_end62-"std_collections::btree::node::Node::destroy::<#906c1b7c2fff9a74>"

	.section	".text.unlikely.std_alloc::vec::Vec::grow_amortized::<#1283936d4ef01d73>","ax",@progbits
	.p2align	2
	.type	"std_alloc::vec::Vec::grow_amortized::<#1283936d4ef01d73>",@function
"std_alloc::vec::Vec::grow_amortized::<#1283936d4ef01d73>":
	ldr	x8, [x0, #8]
	cmn	x8, x1
	b.lo	.LBB63_2
	mov	w0, wzr
	ret
.LBB63_2:
	stp	x29, x30, [sp, #-32]!
	ldr	x10, [x0, #16]
	add	x9, x8, x1
	mov	w11, #8
	cmp	x9, #8
	stp	x20, x19, [sp, #16]
	mov	x29, sp
	lsl	x12, x10, #1
	csel	x11, x9, x11, hi
	lsr	x13, x10, #62
	cmp	x11, x12
	csel	x9, x11, x12, hi
	cmp	x13, #0
	csel	x19, x9, x11, eq
	tbnz	x19, #63, .LBB63_7
	cbz	x10, .LBB63_6
	mov	x20, x0
	ldr	x0, [x0]
	mov	x1, x8
	mov	x2, x19
	mov	w3, #1
	bl	rattle_realloc
	tbz	w0, #0, .LBB63_7
.LBB63_5:
	mov	w0, #1
	str	x1, [x20]
	str	x19, [x20, #16]
	ldp	x20, x19, [sp, #16]
	ldp	x29, x30, [sp], #32
	ret
.LBB63_6:
	mov	x20, x0
	mov	x0, x9
	mov	w1, #1
	bl	rattle_alloc
	tbnz	w0, #0, .LBB63_5
.LBB63_7:
	mov	w0, wzr
	ldp	x20, x19, [sp, #16]
	ldp	x29, x30, [sp], #32
	ret
.Lfunc_end63:
	.size	"std_alloc::vec::Vec::grow_amortized::<#1283936d4ef01d73>", .Lfunc_end63-"std_alloc::vec::Vec::grow_amortized::<#1283936d4ef01d73>"

	.section	.rodata.cst16,"aM",@progbits,16
	.p2align	4, 0x0
.LCPI64_0:
	.byte	1
	.byte	2
	.byte	4
	.byte	8
	.byte	16
	.byte	32
	.byte	64
	.byte	128
	.byte	1
	.byte	2
	.byte	4
	.byte	8
	.byte	16
	.byte	32
	.byte	64
	.byte	128
	.section	".text.json::index::refill","ax",@progbits
	.p2align	2
	.type	"json::index::refill",@function
"json::index::refill":
	stp	x29, x30, [sp, #-96]!
	sub	x9, sp, #160
	stp	x28, x27, [sp, #16]
	mov	x29, sp
	stp	x26, x25, [sp, #32]
	stp	x24, x23, [sp, #48]
	stp	x22, x21, [sp, #64]
	stp	x20, x19, [sp, #80]
	and	sp, x9, #0xffffffffffffffc0
	ldrb	w25, [x5]
	ldrb	w19, [x5, #1]
	mov	x22, x4
	ldrb	w28, [x5, #2]
	cmp	x4, x2
	str	x0, [sp, #32]
	str	wzr, [sp, #56]
	strb	wzr, [sp, #60]
	b.hs	.LBB64_25
	mov	x20, x3
	mov	x18, x2
	mov	x21, x1
	add	x0, x3, #28
	mov	x8, x22
	stp	x0, x2, [sp, #40]
.LBB64_2:
	mov	x27, xzr
	mov	x24, xzr
	mov	x22, x8
	b	.LBB64_4
.LBB64_3:
	lsr	x28, x8, #63
	add	x8, x27, #64
	lsr	x19, x9, #63
	cmp	x27, #4032
	add	x24, x10, x24
	mov	x27, x8
	b.hs	.LBB64_11
.LBB64_4:
	add	x23, x27, x22
	adrp	x26, .LCPI64_0
	sub	x8, x18, x23
	cmp	x8, #64
	b.lo	.LBB64_14
	movi	v5.16b, #92
	add	x8, x21, x23
	ldr	q0, [x26, :lo12:.LCPI64_0]
	ldp	q2, q1, [x8]
	ldp	q3, q4, [x8, #32]
	and	x8, x25, #0x1
	cmeq	v6.16b, v2.16b, v5.16b
	cmeq	v7.16b, v4.16b, v5.16b
	cmeq	v16.16b, v3.16b, v5.16b
	cmeq	v5.16b, v1.16b, v5.16b
	and	v6.16b, v6.16b, v0.16b
	and	v5.16b, v5.16b, v0.16b
	and	v16.16b, v16.16b, v0.16b
	and	v7.16b, v7.16b, v0.16b
	addp	v5.16b, v6.16b, v5.16b
	addp	v6.16b, v16.16b, v7.16b
	addp	v5.16b, v5.16b, v6.16b
	addp	v5.16b, v5.16b, v5.16b
	fmov	x9, d5
	cbz	x9, .LBB64_7
	bic	x10, x9, x8
	lsl	x11, x10, #1
	bfi	x8, x10, #1, #63
	bic	x9, x9, x11
	and	x9, x9, #0xaaaaaaaaaaaaaaaa
	adds	x9, x10, x9
	lsl	x9, x9, #1
	cset	w25, hs
	eor	x9, x9, #0x5555555555555555
	and	x8, x9, x8
	b	.LBB64_8
.LBB64_7:
	mov	w25, wzr
.LBB64_8:
	movi	v5.16b, #32
	movi	v6.16b, #123
	sbfx	x12, x19, #0, #1
	movi	v7.16b, #125
	movi	v18.16b, #58
	movi	v19.16b, #44
	movi	v29.16b, #10
	movi	v30.16b, #34
	orr	v16.16b, v4.16b, v5.16b
	orr	v17.16b, v3.16b, v5.16b
	orr	v20.16b, v1.16b, v5.16b
	orr	v21.16b, v2.16b, v5.16b
	cmeq	v22.16b, v4.16b, v18.16b
	cmeq	v24.16b, v4.16b, v19.16b
	cmeq	v26.16b, v3.16b, v18.16b
	cmeq	v23.16b, v16.16b, v6.16b
	cmeq	v16.16b, v16.16b, v7.16b
	cmeq	v25.16b, v17.16b, v6.16b
	cmeq	v17.16b, v17.16b, v7.16b
	cmeq	v27.16b, v21.16b, v6.16b
	cmeq	v28.16b, v20.16b, v6.16b
	cmeq	v21.16b, v21.16b, v7.16b
	cmeq	v7.16b, v20.16b, v7.16b
	orr	v22.16b, v24.16b, v22.16b
	orr	v20.16b, v23.16b, v16.16b
	cmeq	v23.16b, v3.16b, v19.16b
	cmeq	v24.16b, v1.16b, v18.16b
	orr	v6.16b, v25.16b, v17.16b
	cmeq	v25.16b, v1.16b, v19.16b
	orr	v16.16b, v28.16b, v7.16b
	orr	v17.16b, v27.16b, v21.16b
	cmeq	v21.16b, v2.16b, v18.16b
	cmeq	v27.16b, v2.16b, v19.16b
	orr	v7.16b, v22.16b, v20.16b
	orr	v18.16b, v23.16b, v26.16b
	orr	v19.16b, v25.16b, v24.16b
	cmeq	v20.16b, v1.16b, v5.16b
	cmeq	v23.16b, v1.16b, v29.16b
	movi	v25.16b, #251
	cmeq	v22.16b, v2.16b, v5.16b
	cmeq	v24.16b, v2.16b, v29.16b
	cmeq	v26.16b, v3.16b, v5.16b
	cmeq	v28.16b, v3.16b, v29.16b
	orr	v21.16b, v27.16b, v21.16b
	orr	v20.16b, v20.16b, v23.16b
	movi	v23.16b, #9
	cmeq	v5.16b, v4.16b, v5.16b
	cmeq	v27.16b, v4.16b, v29.16b
	orr	v22.16b, v22.16b, v24.16b
	orr	v6.16b, v18.16b, v6.16b
	orr	v24.16b, v26.16b, v28.16b
	and	v26.16b, v1.16b, v25.16b
	and	v28.16b, v2.16b, v25.16b
	and	v29.16b, v4.16b, v25.16b
	and	v25.16b, v3.16b, v25.16b
	cmeq	v2.16b, v2.16b, v30.16b
	cmeq	v4.16b, v4.16b, v30.16b
	cmeq	v3.16b, v3.16b, v30.16b
	cmeq	v1.16b, v1.16b, v30.16b
	orr	v5.16b, v5.16b, v27.16b
	cmeq	v27.16b, v28.16b, v23.16b
	cmeq	v26.16b, v26.16b, v23.16b
	cmeq	v25.16b, v25.16b, v23.16b
	cmeq	v23.16b, v29.16b, v23.16b
	and	v2.16b, v2.16b, v0.16b
	and	v1.16b, v1.16b, v0.16b
	and	v3.16b, v3.16b, v0.16b
	and	v4.16b, v4.16b, v0.16b
	orr	v16.16b, v19.16b, v16.16b
	orr	v17.16b, v21.16b, v17.16b
	orr	v18.16b, v20.16b, v26.16b
	orr	v5.16b, v5.16b, v23.16b
	orr	v19.16b, v22.16b, v27.16b
	orr	v20.16b, v24.16b, v25.16b
	addp	v1.16b, v2.16b, v1.16b
	addp	v2.16b, v3.16b, v4.16b
	and	v6.16b, v6.16b, v0.16b
	and	v3.16b, v17.16b, v0.16b
	and	v4.16b, v16.16b, v0.16b
	and	v7.16b, v7.16b, v0.16b
	and	v16.16b, v19.16b, v0.16b
	and	v17.16b, v18.16b, v0.16b
	and	v18.16b, v20.16b, v0.16b
	and	v0.16b, v5.16b, v0.16b
	addp	v1.16b, v1.16b, v2.16b
	addp	v2.16b, v3.16b, v4.16b
	addp	v3.16b, v6.16b, v7.16b
	addp	v4.16b, v16.16b, v17.16b
	addp	v0.16b, v18.16b, v0.16b
	addp	v1.16b, v1.16b, v1.16b
	fmov	x9, d1
	addp	v1.16b, v2.16b, v3.16b
	addp	v0.16b, v4.16b, v0.16b
	bic	x10, x9, x8
	addp	v1.16b, v1.16b, v1.16b
	addp	v0.16b, v0.16b, v0.16b
	eor	x8, x10, x10, lsl #1
	eor	x8, x8, x8, lsl #2
	orr	v0.16b, v0.16b, v1.16b
	fmov	x13, d1
	eor	x8, x8, x8, lsl #4
	fmov	x9, d0
	eor	x8, x8, x8, lsl #8
	mvn	x11, x9
	eor	x9, x8, x8, lsl #16
	bic	x8, x11, x10
	eor	x12, x12, x9, lsl #32
	bfi	x28, x8, #1, #63
	eor	x9, x12, x9
	bic	x11, x11, x28
	orr	x11, x11, x13
	eon	x10, x10, x9
	and	x10, x11, x10
	fmov	d0, x10
	sub	x12, x10, #1
	rbit	x11, x10
	and	x10, x12, x10
	rbit	x12, x10
	sub	x13, x10, #1
	clz	x11, x11
	cnt	v0.8b, v0.8b
	and	x10, x13, x10
	add	x13, x20, x24, lsl #2
	clz	x14, x12
	sub	x12, x10, #1
	add	w11, w11, w27
	rbit	x15, x10
	and	x12, x12, x10
	add	w10, w14, w27
	rbit	x14, x12
	stp	w11, w10, [x13]
	addv	b0, v0.8b
	clz	x11, x15
	clz	x14, x14
	add	w11, w11, w27
	add	w14, w14, w27
	fmov	x10, d0
	stp	w11, w14, [x13, #8]
	cmp	x10, #5
	b.lo	.LBB64_3
	sub	x13, x12, #1
	add	x11, x0, x24, lsl #2
	and	x13, x13, x12
	mov	w12, #4
.LBB64_10:
	sub	x14, x13, #1
	add	x12, x12, #4
	and	x14, x14, x13
	rbit	x13, x13
	cmp	x12, x10
	sub	x15, x14, #1
	and	x15, x15, x14
	rbit	x14, x14
	clz	x13, x13
	sub	x16, x15, #1
	add	w13, w13, w27
	and	x16, x16, x15
	rbit	x15, x15
	clz	x14, x14
	rbit	x17, x16
	add	w14, w14, w27
	clz	x15, x15
	stp	w13, w14, [x11, #-12]
	clz	x17, x17
	add	w13, w15, w27
	sub	x15, x16, #1
	add	w14, w17, w27
	stp	w13, w14, [x11, #-4]
	and	x13, x15, x16
	add	x11, x11, #16
	b.lo	.LBB64_10
	b	.LBB64_3
.LBB64_11:
	cmp	x8, #1, lsl #12
	b.ne	.LBB64_13
	strb	wzr, [sp, #60]
	add	x8, x22, #1, lsl #12
	str	wzr, [sp, #56]
	cbz	x24, .LBB64_24
	b	.LBB64_26
.LBB64_13:
	add	x23, x8, x22
	mov	x27, x8
.LBB64_14:
	movi	v30.16b, #32
	subs	x2, x18, x23
	stp	q30, q30, [sp, #64]
	stp	q30, q30, [sp, #96]
	b.ne	.LBB64_16
	movi	v4.16b, #32
	movi	v1.16b, #32
	movi	v2.16b, #32
	movi	v3.16b, #32
	b	.LBB64_17
.LBB64_16:
	add	x0, sp, #64
	add	x1, x21, x23
	bl	memcpy
	movi	v30.16b, #32
	ldp	x0, x18, [sp, #40]
	ldp	q2, q3, [sp, #96]
	ldp	q4, q1, [sp, #64]
.LBB64_17:
	movi	v5.16b, #92
	ldr	q0, [x26, :lo12:.LCPI64_0]
	and	x8, x25, #0x1
	cmeq	v6.16b, v4.16b, v5.16b
	cmeq	v7.16b, v3.16b, v5.16b
	cmeq	v16.16b, v2.16b, v5.16b
	cmeq	v5.16b, v1.16b, v5.16b
	and	v6.16b, v6.16b, v0.16b
	and	v16.16b, v16.16b, v0.16b
	and	v7.16b, v7.16b, v0.16b
	and	v5.16b, v5.16b, v0.16b
	addp	v5.16b, v6.16b, v5.16b
	addp	v6.16b, v16.16b, v7.16b
	addp	v5.16b, v5.16b, v6.16b
	addp	v5.16b, v5.16b, v5.16b
	fmov	x9, d5
	cbz	x9, .LBB64_19
	bic	x10, x9, x8
	lsl	x11, x10, #1
	bfi	x8, x10, #1, #63
	bic	x9, x9, x11
	and	x9, x9, #0xaaaaaaaaaaaaaaaa
	adds	x9, x10, x9
	lsl	x9, x9, #1
	cset	w25, hs
	eor	x9, x9, #0x5555555555555555
	and	x8, x9, x8
	b	.LBB64_20
.LBB64_19:
	mov	w25, wzr
.LBB64_20:
	movi	v5.16b, #123
	movi	v7.16b, #125
	sbfx	x12, x19, #0, #1
	movi	v17.16b, #58
	movi	v18.16b, #44
	orr	v6.16b, v2.16b, v30.16b
	orr	v16.16b, v3.16b, v30.16b
	orr	v19.16b, v1.16b, v30.16b
	orr	v20.16b, v4.16b, v30.16b
	movi	v27.16b, #10
	movi	v29.16b, #34
	cmeq	v21.16b, v6.16b, v5.16b
	cmeq	v6.16b, v6.16b, v7.16b
	cmeq	v22.16b, v16.16b, v5.16b
	cmeq	v16.16b, v16.16b, v7.16b
	cmeq	v23.16b, v3.16b, v17.16b
	cmeq	v24.16b, v3.16b, v18.16b
	cmeq	v25.16b, v20.16b, v5.16b
	cmeq	v26.16b, v19.16b, v5.16b
	cmeq	v20.16b, v20.16b, v7.16b
	cmeq	v7.16b, v19.16b, v7.16b
	orr	v5.16b, v21.16b, v6.16b
	orr	v19.16b, v22.16b, v16.16b
	cmeq	v21.16b, v2.16b, v17.16b
	cmeq	v22.16b, v2.16b, v18.16b
	orr	v6.16b, v24.16b, v23.16b
	cmeq	v23.16b, v1.16b, v17.16b
	cmeq	v24.16b, v1.16b, v18.16b
	orr	v16.16b, v25.16b, v20.16b
	cmeq	v20.16b, v4.16b, v17.16b
	cmeq	v25.16b, v4.16b, v18.16b
	orr	v17.16b, v22.16b, v21.16b
	cmeq	v22.16b, v1.16b, v27.16b
	orr	v7.16b, v26.16b, v7.16b
	orr	v6.16b, v6.16b, v19.16b
	orr	v18.16b, v24.16b, v23.16b
	cmeq	v19.16b, v1.16b, v30.16b
	movi	v24.16b, #251
	cmeq	v21.16b, v4.16b, v30.16b
	cmeq	v23.16b, v4.16b, v27.16b
	cmeq	v26.16b, v2.16b, v30.16b
	cmeq	v28.16b, v2.16b, v27.16b
	orr	v20.16b, v25.16b, v20.16b
	orr	v19.16b, v19.16b, v22.16b
	movi	v22.16b, #9
	cmeq	v25.16b, v3.16b, v30.16b
	cmeq	v27.16b, v3.16b, v27.16b
	orr	v21.16b, v21.16b, v23.16b
	orr	v5.16b, v17.16b, v5.16b
	orr	v23.16b, v26.16b, v28.16b
	and	v26.16b, v1.16b, v24.16b
	and	v28.16b, v4.16b, v24.16b
	and	v30.16b, v3.16b, v24.16b
	and	v24.16b, v2.16b, v24.16b
	cmeq	v4.16b, v4.16b, v29.16b
	cmeq	v3.16b, v3.16b, v29.16b
	cmeq	v2.16b, v2.16b, v29.16b
	cmeq	v1.16b, v1.16b, v29.16b
	orr	v25.16b, v25.16b, v27.16b
	cmeq	v27.16b, v28.16b, v22.16b
	cmeq	v26.16b, v26.16b, v22.16b
	cmeq	v24.16b, v24.16b, v22.16b
	cmeq	v22.16b, v30.16b, v22.16b
	and	v4.16b, v4.16b, v0.16b
	and	v1.16b, v1.16b, v0.16b
	and	v2.16b, v2.16b, v0.16b
	and	v3.16b, v3.16b, v0.16b
	orr	v7.16b, v18.16b, v7.16b
	orr	v16.16b, v20.16b, v16.16b
	orr	v18.16b, v19.16b, v26.16b
	orr	v17.16b, v25.16b, v22.16b
	orr	v19.16b, v21.16b, v27.16b
	orr	v20.16b, v23.16b, v24.16b
	addp	v1.16b, v4.16b, v1.16b
	addp	v2.16b, v2.16b, v3.16b
	and	v5.16b, v5.16b, v0.16b
	and	v3.16b, v16.16b, v0.16b
	and	v4.16b, v7.16b, v0.16b
	and	v6.16b, v6.16b, v0.16b
	and	v7.16b, v19.16b, v0.16b
	and	v16.16b, v18.16b, v0.16b
	and	v18.16b, v20.16b, v0.16b
	and	v0.16b, v17.16b, v0.16b
	addp	v1.16b, v1.16b, v2.16b
	addp	v2.16b, v3.16b, v4.16b
	addp	v3.16b, v5.16b, v6.16b
	addp	v4.16b, v7.16b, v16.16b
	addp	v0.16b, v18.16b, v0.16b
	addp	v1.16b, v1.16b, v1.16b
	fmov	x9, d1
	addp	v1.16b, v2.16b, v3.16b
	addp	v0.16b, v4.16b, v0.16b
	bic	x10, x9, x8
	addp	v1.16b, v1.16b, v1.16b
	addp	v0.16b, v0.16b, v0.16b
	eor	x8, x10, x10, lsl #1
	eor	x8, x8, x8, lsl #2
	orr	v0.16b, v0.16b, v1.16b
	fmov	x13, d1
	eor	x8, x8, x8, lsl #4
	fmov	x9, d0
	eor	x8, x8, x8, lsl #8
	mvn	x11, x9
	eor	x9, x8, x8, lsl #16
	bic	x8, x11, x10
	eor	x12, x12, x9, lsl #32
	bfi	x28, x8, #1, #63
	eor	x9, x12, x9
	bic	x11, x11, x28
	orr	x11, x11, x13
	eon	x10, x10, x9
	and	x10, x11, x10
	fmov	d0, x10
	sub	x12, x10, #1
	rbit	x11, x10
	and	x10, x12, x10
	rbit	x12, x10
	sub	x13, x10, #1
	clz	x11, x11
	cnt	v0.8b, v0.8b
	and	x10, x13, x10
	add	x13, x20, x24, lsl #2
	clz	x14, x12
	sub	x12, x10, #1
	add	w11, w11, w27
	rbit	x15, x10
	and	x12, x12, x10
	add	w10, w14, w27
	rbit	x14, x12
	stp	w11, w10, [x13]
	addv	b0, v0.8b
	clz	x11, x15
	clz	x14, x14
	add	w11, w11, w27
	add	w14, w14, w27
	fmov	x10, d0
	stp	w11, w14, [x13, #8]
	cmp	x10, #5
	b.lo	.LBB64_23
	sub	x13, x12, #1
	add	x11, x0, x24, lsl #2
	and	x13, x13, x12
	mov	w12, #4
.LBB64_22:
	sub	x14, x13, #1
	add	x12, x12, #4
	and	x14, x14, x13
	rbit	x13, x13
	cmp	x12, x10
	sub	x15, x14, #1
	and	x15, x15, x14
	rbit	x14, x14
	clz	x13, x13
	sub	x16, x15, #1
	add	w13, w13, w27
	and	x16, x16, x15
	rbit	x15, x15
	clz	x14, x14
	rbit	x17, x16
	add	w14, w14, w27
	clz	x15, x15
	stp	w13, w14, [x11, #-12]
	clz	x17, x17
	add	w13, w15, w27
	sub	x15, x16, #1
	add	w14, w17, w27
	stp	w13, w14, [x11, #-4]
	and	x13, x15, x16
	add	x11, x11, #16
	b.lo	.LBB64_22
.LBB64_23:
	lsr	x19, x9, #63
	lsr	x28, x8, #63
	add	x24, x10, x24
	add	x8, x23, #64
	strb	wzr, [sp, #60]
	str	wzr, [sp, #56]
	cbnz	x24, .LBB64_26
.LBB64_24:
	cmp	x8, x18
	b.lo	.LBB64_2
	b	.LBB64_26
.LBB64_25:
	mov	x24, xzr
	mov	x8, x22
.LBB64_26:
	ldr	x10, [sp, #32]
	ldrb	w9, [sp, #60]
	str	x8, [x10, #16]
	ldr	w8, [sp, #56]
	stp	x22, x24, [x10]
	strb	w25, [x10, #24]
	strb	w19, [x10, #25]
	strb	w28, [x10, #26]
	stur	w8, [x10, #27]
	strb	w9, [x10, #31]
	mov	sp, x29
	ldp	x20, x19, [sp, #80]
	ldp	x22, x21, [sp, #64]
	ldp	x24, x23, [sp, #48]
	ldp	x26, x25, [sp, #32]
	ldp	x28, x27, [sp, #16]
	ldp	x29, x30, [sp], #96
	ret
.Lfunc_end64:
	.size	"json::index::refill", .Lfunc_end64-"json::index::refill"

	.section	.rodata.cst16,"aM",@progbits,16
	.p2align	4, 0x0
.LCPI65_0:
	.byte	1
	.byte	2
	.byte	4
	.byte	8
	.byte	16
	.byte	32
	.byte	64
	.byte	128
	.byte	1
	.byte	2
	.byte	4
	.byte	8
	.byte	16
	.byte	32
	.byte	64
	.byte	128
.LCPI65_1:
	.xword	2
	.xword	0
	.section	".text.amqp_json::reading::walk::put_value","ax",@progbits
	.p2align	2
	.type	"amqp_json::reading::walk::put_value",@function
"amqp_json::reading::walk::put_value":
	sub	sp, sp, #272
	movi	v0.2d, #0000000000000000
	stp	x26, x25, [sp, #208]
	ldr	x25, [x1, #8]
	stp	x22, x21, [sp, #240]
	ldr	x22, [x1, #80]
	ldrb	w8, [x1, #104]
	stp	x20, x19, [sp, #256]
	mov	x20, x2
	mov	x21, x1
	mov	x19, x0
	subs	x9, x25, x22
	stp	x29, x30, [sp, #176]
	stp	x28, x27, [sp, #192]
	add	x29, sp, #176
	stp	x24, x23, [sp, #224]
	stp	q0, q0, [sp]
	b.ls	.LBB65_8
	ldr	x24, [x21]
	add	x26, x24, x22
	ldrb	w27, [x26]
	and	w10, w27, #0xffffffdf
	cmp	w10, #93
	b.ne	.LBB65_6
	sub	w9, w8, #1
	cmp	w9, #1
	b.hi	.LBB65_37
	ldr	x9, [x21, #40]
	ldr	x8, [x21, #56]
	stp	q0, q0, [x29, #-48]
	add	x10, x9, #1
	cmp	x10, x8
	str	x10, [x21, #40]
	b.ne	.LBB65_24
	ldp	x1, x2, [x21, #16]
	mov	x23, x3
	ldrh	w8, [x21, #72]
	ldrb	w9, [x21, #74]
	sub	x0, x29, #48
	ldr	x3, [x21, #32]
	ldr	x4, [x21, #64]
	sub	x5, x29, #80
	sturh	w8, [x29, #-80]
	sturb	w9, [x29, #-78]
	bl	"json::index::refill"
	ldp	q0, q1, [x29, #-48]
	ldur	x9, [x29, #-40]
	ldr	x8, [x21, #32]
	str	xzr, [x21, #40]
	stp	q0, q1, [x21, #48]
	cbz	x9, .LBB65_41
	ldur	x9, [x29, #-48]
	ldr	w10, [x8]
	add	x10, x9, x10
	mov	w9, #1
	mov	x3, x23
	ldr	x11, [x21, #8]
	str	x10, [x21, #80]
	cmp	x10, x11
	b.hs	.LBB65_46
	b	.LBB65_42
.LBB65_6:
	cmp	w27, #32
	b.hi	.LBB65_28
	mov	w10, #1
	mov	x11, #9728
	lsl	x10, x10, x27
	movk	x11, #1, lsl #32
	tst	x10, x11
	b.eq	.LBB65_28
.LBB65_8:
	subs	w9, w8, #3
	mov	w10, #9
	sub	w11, w8, #4
	csel	w10, wzr, w10, eq
	cmn	w9, #2
	mov	w9, #3
	csel	w28, w10, wzr, lo
	csel	w8, w9, w8, lo
	cmn	w11, #3
	strb	w8, [x21, #104]
	b.hs	.LBB65_38
	mov	w13, wzr
	mov	x4, xzr
	mov	x23, xzr
	cmp	w28, #4
	b.gt	.LBB65_65
.LBB65_10:
	cmp	w28, #2
	b.gt	.LBB65_70
	cbz	w28, .LBB65_25
	cmp	w28, #1
	b.eq	.LBB65_70
	cbz	x3, .LBB65_40
	ldp	x11, x8, [x20, #8]
	cmp	x8, x11
	add	x23, x11, #1
	b.eq	.LBB65_131
.LBB65_15:
	add	x9, x11, #1
	ldr	x10, [x20]
	mov	w12, #65
	strb	w12, [x10, x11]
	sub	x11, x8, x9
	cmp	x11, #3
	stp	x10, x9, [x20]
	str	x8, [x20, #16]
	b.ls	.LBB65_133
.LBB65_16:
	movi	v0.2d, #0000000000000000
	str	wzr, [x10, x9]
	sub	x22, x3, #1
	str	x8, [x20, #16]
	add	x8, x9, #4
	stp	x10, x8, [x20]
	stp	q0, q0, [x29, #-80]
	b	.LBB65_18
.LBB65_17:
	sub	x0, x29, #80
	mov	x1, x21
	mov	x2, x20
	mov	x3, x22
	bl	"amqp_json::reading::walk::put_value"
	ldurb	w8, [x29, #-80]
	cbnz	w8, .LBB65_47
.LBB65_18:
	ldr	x9, [x21, #8]
	ldr	x8, [x21, #80]
	cmp	x8, x9
	b.hs	.LBB65_17
	ldr	x9, [x21]
	ldrb	w8, [x9, x8]
	cmp	w8, #93
	b.ne	.LBB65_17
	ldrb	w8, [x21, #104]
	sub	w8, w8, #1
	cmp	w8, #1
	b.hi	.LBB65_17
	movi	v0.2d, #0000000000000000
	ldr	x8, [x21, #40]
	ldr	x10, [x21, #56]
	add	x9, x8, #1
	cmp	x9, x10
	str	x9, [x21, #40]
	stp	q0, q0, [x29, #-48]
	b.ne	.LBB65_97
	ldp	x1, x2, [x21, #16]
	sub	x0, x29, #48
	ldrh	w8, [x21, #72]
	ldrb	w9, [x21, #74]
	add	x5, sp, #64
	ldr	x3, [x21, #32]
	ldr	x4, [x21, #64]
	strh	w8, [sp, #64]
	strb	w9, [sp, #66]
	bl	"json::index::refill"
	ldp	q0, q1, [x29, #-48]
	ldur	x8, [x29, #-40]
	ldr	x3, [x21, #32]
	str	xzr, [x21, #40]
	stp	q0, q1, [x21, #48]
	cbz	x8, .LBB65_123
	ldur	x8, [x29, #-48]
	ldr	w9, [x3]
	add	x9, x8, x9
	b	.LBB65_124
.LBB65_24:
	ldr	x8, [x21, #32]
	ldr	x11, [x21, #48]
	add	x9, x9, #2
	ldr	w10, [x8, x10, lsl #2]
	add	x10, x11, x10
	ldr	x11, [x21, #8]
	str	x10, [x21, #80]
	cmp	x10, x11
	b.lo	.LBB65_42
	b	.LBB65_46
.LBB65_25:
	cbz	x3, .LBB65_40
	movi	v0.2d, #0000000000000000
	ldr	x22, [x21, #80]
	sub	x0, x29, #80
	mov	x1, x21
	mov	x23, x3
	stp	q0, q0, [x29, #-80]
	stp	q0, q0, [x29, #-48]
	stp	q0, q0, [sp, #64]
	bl	"amqp_json::reading::walk::next_key"
	ldurb	w8, [x29, #-80]
	ldurb	w25, [x29, #-72]
	ldur	x24, [x29, #-64]
	ldurb	w26, [x29, #-56]
	cbz	w8, .LBB65_49
	mov	w8, #1
	stp	x25, x24, [sp, #8]
	strb	w8, [sp]
	strb	w26, [sp, #24]
	b	.LBB65_79
.LBB65_28:
	cmp	w8, #2
	b.hs	.LBB65_37
	mov	w13, wzr
	mov	x23, xzr
	cmp	w27, #91
	mov	w8, #3
	mov	w28, #9
	b.le	.LBB65_58
	cmp	w27, #109
	b.le	.LBB65_93
	cmp	w27, #110
	b.eq	.LBB65_110
	cmp	w27, #116
	b.eq	.LBB65_112
	cmp	w27, #123
	b.ne	.LBB65_114
	ldr	x8, [x21, #40]
	ldr	x9, [x21, #56]
	stp	q0, q0, [x29, #-48]
	add	x8, x8, #1
	cmp	x8, x9
	str	x8, [x21, #40]
	b.ne	.LBB65_146
	ldp	x1, x2, [x21, #16]
	mov	x23, x3
	ldrh	w8, [x21, #72]
	ldrb	w9, [x21, #74]
	sub	x0, x29, #48
	ldr	x3, [x21, #32]
	ldr	x4, [x21, #64]
	sub	x5, x29, #80
	sturh	w8, [x29, #-80]
	sturb	w9, [x29, #-78]
	bl	"json::index::refill"
	ldp	q0, q1, [x29, #-48]
	ldur	x8, [x29, #-40]
	str	xzr, [x21, #40]
	stp	q0, q1, [x21, #48]
	cbz	x8, .LBB65_194
	ldr	x8, [x21, #32]
	ldur	x9, [x29, #-48]
	mov	x3, x23
	ldr	w8, [x8]
	add	x8, x9, x8
	b	.LBB65_195
.LBB65_37:
	mov	w9, #3
	cmp	w8, #3
	strb	w9, [x21, #104]
	b.ne	.LBB65_70
.LBB65_38:
	adrp	x8, .LCPI65_1
	mov	w9, #1
	ldr	q0, [x8, :lo12:.LCPI65_1]
	strb	w9, [x19]
	stur	q0, [x19, #8]
.LBB65_39:
	strb	wzr, [x19, #24]
	b	.LBB65_80
.LBB65_40:
	mov	w8, #1
	mov	w9, #3
	strb	w8, [x19]
	stp	x9, x22, [x19, #8]
	b	.LBB65_39
.LBB65_41:
	ldr	x10, [x21, #24]
	mov	w9, #1
	mov	x3, x23
	ldr	x11, [x21, #8]
	str	x10, [x21, #80]
	cmp	x10, x11
	b.hs	.LBB65_46
.LBB65_42:
	ldr	x11, [x21]
	ldrb	w10, [x11, x10]
	cmp	w10, #44
	b.ne	.LBB65_46
	movi	v0.2d, #0000000000000000
	ldr	x10, [x21, #56]
	str	x9, [x21, #40]
	cmp	x9, x10
	stp	q0, q0, [x29, #-48]
	b.ne	.LBB65_48
	ldp	x1, x2, [x21, #16]
	mov	x23, x3
	ldrh	w9, [x21, #72]
	ldrb	w10, [x21, #74]
	sub	x0, x29, #48
	ldr	x4, [x21, #64]
	sub	x5, x29, #80
	mov	x3, x8
	sturh	w9, [x29, #-80]
	sturb	w10, [x29, #-78]
	bl	"json::index::refill"
	ldp	q0, q1, [x29, #-48]
	ldur	x8, [x29, #-40]
	str	xzr, [x21, #40]
	stp	q0, q1, [x21, #48]
	cbz	x8, .LBB65_61
	ldr	x8, [x21, #32]
	ldur	x9, [x29, #-48]
	mov	x3, x23
	ldr	w8, [x8]
	add	x9, x9, x8
	b	.LBB65_62
.LBB65_46:
	mov	w8, #2
	b	.LBB65_63
.LBB65_47:
	mov	w9, #1
	ldurb	w8, [x29, #-72]
	ldur	x10, [x29, #-64]
	strb	w9, [sp]
	ldurb	w9, [x29, #-56]
	b	.LBB65_57
.LBB65_48:
	ldur	x10, [x21, #48]
	ldr	w8, [x8, x9, lsl #2]
	add	x9, x10, x8
	b	.LBB65_62
.LBB65_49:
	ldurb	w8, [x29, #-49]
	ldurh	w9, [x29, #-51]
	cmp	w25, #1
	orr	w8, w9, w8, lsl #16
	ldur	w9, [x29, #-55]
	orr	x28, x9, x8, lsl #32
	b.ne	.LBB65_54
	orr	x8, x26, x28, lsl #8
	cbz	x8, .LBB65_54
	ldrb	w9, [x24]
	cmp	w9, #36
	b.ne	.LBB65_54
	subs	x4, x8, #1
	b.eq	.LBB65_140
	ldurb	w8, [x24, #1]
	cmp	w8, #36
	b.ne	.LBB65_140
.LBB65_54:
	ldr	x27, [x20, #8]
	add	x0, sp, #64
	mov	x1, x20
	mov	w2, #70
	bl	"amqp_json::reading::put::put_head"
	ldrb	w8, [sp, #64]
	cbnz	w8, .LBB65_56
	lsr	x8, x28, #48
	lsr	x9, x28, #32
	sub	x5, x23, #1
	add	x0, sp, #64
	add	x3, sp, #40
	mov	x1, x21
	mov	x2, x20
	mov	x4, x22
	stp	x25, x24, [sp, #40]
	strb	w26, [sp, #56]
	stur	w28, [sp, #57]
	strb	w8, [sp, #63]
	sturh	w9, [sp, #61]
	bl	"amqp_json::reading::walk::put_pairs"
	ldrb	w8, [sp, #64]
	cbz	w8, .LBB65_136
.LBB65_56:
	mov	w9, #1
	ldrb	w8, [sp, #72]
	ldr	x10, [sp, #80]
	strb	w9, [sp]
	ldrb	w9, [sp, #88]
.LBB65_57:
	stp	x8, x10, [sp, #8]
	strb	w9, [sp, #24]
	b	.LBB65_79
.LBB65_58:
	cmp	w27, #57
	b.gt	.LBB65_88
	cmp	w27, #34
	b.eq	.LBB65_105
	cmp	w27, #44
	mov	x4, x23
	b.eq	.LBB65_64
	b	.LBB65_114
.LBB65_61:
	ldr	x9, [x21, #24]
	mov	x3, x23
.LBB65_62:
	mov	w8, wzr
	str	x9, [x21, #80]
.LBB65_63:
	cmp	w27, #125
	mov	w9, #3
	mov	x23, xzr
	mov	x4, xzr
	mov	w13, wzr
	csinc	w28, w9, wzr, ne
.LBB65_64:
	strb	w8, [x21, #104]
	cmp	w28, #4
	b.le	.LBB65_10
.LBB65_65:
	cmp	w28, #6
	b.le	.LBB65_71
	cmp	w28, #7
	b.eq	.LBB65_73
	cmp	w28, #8
	b.ne	.LBB65_70
	ldp	x9, x8, [x20, #8]
	cmp	x8, x9
	b.eq	.LBB65_100
.LBB65_69:
	ldr	x10, [x20]
	mov	w11, #86
	strb	w11, [x10, x9]
	add	x9, x9, #1
	stp	x10, x9, [x20]
	b	.LBB65_76
.LBB65_70:
	adrp	x8, .LCPI65_1
	mov	w9, #1
	ldr	q0, [x8, :lo12:.LCPI65_1]
	strb	w9, [sp]
	stur	q0, [sp, #8]
	b	.LBB65_78
.LBB65_71:
	cmp	w28, #5
	b.ne	.LBB65_81
	mov	x0, sp
	mov	x1, x20
	mov	w2, #83
	mov	x3, x23
	bl	"amqp_json::reading::put::put_counted"
	b	.LBB65_79
.LBB65_73:
	ldp	x10, x8, [x20, #8]
	cmp	x8, x10
	b.eq	.LBB65_98
.LBB65_74:
	ldr	x9, [x20]
	mov	w11, #116
	strb	w11, [x9, x10]
	add	x10, x10, #1
	cmp	x8, x10
	stp	x9, x10, [x20]
	str	x8, [x20, #16]
	b.eq	.LBB65_102
.LBB65_75:
	strb	w13, [x9, x10]
	add	x10, x10, #1
	stp	x9, x10, [x20]
.LBB65_76:
	str	x8, [x20, #16]
	strb	wzr, [sp]
.LBB65_77:
	stp	xzr, xzr, [sp, #8]
.LBB65_78:
	strb	wzr, [sp, #24]
.LBB65_79:
	ldrb	w8, [sp]
	ldrb	w9, [sp, #8]
	ldr	x10, [sp, #16]
	strb	w8, [x19]
	ldrb	w8, [sp, #24]
	stp	x9, x10, [x19, #8]
	strb	w8, [x19, #24]
.LBB65_80:
	ldp	x20, x19, [sp, #256]
	ldp	x22, x21, [sp, #240]
	ldp	x24, x23, [sp, #224]
	ldp	x26, x25, [sp, #208]
	ldp	x28, x27, [sp, #192]
	ldp	x29, x30, [sp, #176]
	add	sp, sp, #272
	ret
.LBB65_81:
	mov	x8, xzr
.LBB65_82:
	cmp	x4, x8
	b.eq	.LBB65_86
	ldrb	w9, [x23, x8]
	add	x8, x8, #1
	sub	w9, w9, #46
	cmp	w9, #55
	b.hi	.LBB65_82
	mov	w10, #1
	lsl	x9, x10, x9
	mov	x10, #36028797027352576
	movk	x10, #1
	tst	x9, x10
	b.eq	.LBB65_82
	mov	w2, #10
	b	.LBB65_87
.LBB65_86:
	mov	w2, #7
.LBB65_87:
	mov	x0, sp
	mov	x1, x20
	mov	x3, x23
	mov	x5, x22
	bl	"amqp_json::reading::named::put_number"
	b	.LBB65_79
.LBB65_88:
	cmp	w27, #58
	mov	x4, x23
	b.eq	.LBB65_64
	cmp	w27, #91
	b.ne	.LBB65_114
	ldr	x8, [x21, #40]
	ldr	x9, [x21, #56]
	stp	q0, q0, [x29, #-48]
	add	x8, x8, #1
	cmp	x8, x9
	str	x8, [x21, #40]
	b.ne	.LBB65_141
	ldp	x1, x2, [x21, #16]
	mov	x23, x3
	ldrh	w8, [x21, #72]
	ldrb	w9, [x21, #74]
	sub	x0, x29, #48
	ldr	x3, [x21, #32]
	ldr	x4, [x21, #64]
	sub	x5, x29, #80
	sturh	w8, [x29, #-80]
	sturb	w9, [x29, #-78]
	bl	"json::index::refill"
	ldp	q0, q1, [x29, #-48]
	ldur	x8, [x29, #-40]
	str	xzr, [x21, #40]
	stp	q0, q1, [x21, #48]
	cbz	x8, .LBB65_191
	ldr	x8, [x21, #32]
	ldur	x9, [x29, #-48]
	mov	x3, x23
	ldr	w8, [x8]
	add	x8, x9, x8
	b	.LBB65_192
.LBB65_93:
	cmp	w27, #92
	mov	x4, x23
	b.eq	.LBB65_64
	cmp	w27, #102
	b.ne	.LBB65_114
	cmp	x9, #5
	b.hs	.LBB65_142
	mov	w10, wzr
	mov	w8, #32
	b	.LBB65_170
.LBB65_97:
	ldr	x3, [x21, #32]
	ldr	x10, [x21, #48]
	add	x8, x8, #2
	ldr	w9, [x3, x9, lsl #2]
	add	x9, x10, x9
	b	.LBB65_125
.LBB65_98:
	mov	x0, x20
	mov	w1, #1
	mov	w22, w13
	mov	w21, #1
	bl	"std_alloc::vec::Vec::grow_amortized::<#1283936d4ef01d73>"
	cbz	w0, .LBB65_104
	ldp	x10, x8, [x20, #8]
	mov	w13, w22
	b	.LBB65_74
.LBB65_100:
	mov	x0, x20
	mov	w1, #1
	mov	w21, #1
	bl	"std_alloc::vec::Vec::grow_amortized::<#1283936d4ef01d73>"
	cbz	w0, .LBB65_104
	ldp	x9, x8, [x20, #8]
	b	.LBB65_69
.LBB65_102:
	mov	x0, x20
	mov	w1, #1
	mov	w22, w13
	mov	w21, #1
	bl	"std_alloc::vec::Vec::grow_amortized::<#1283936d4ef01d73>"
	cbz	w0, .LBB65_104
	ldp	x10, x8, [x20, #8]
	mov	w13, w22
	ldr	x9, [x20]
	b	.LBB65_75
.LBB65_104:
	strb	w21, [sp]
	b	.LBB65_77
.LBB65_105:
	add	x26, x22, #1
	add	x2, x22, #1
	sub	x8, x25, x26
	cmp	x8, #32
	b.lo	.LBB65_109
	add	x2, x22, #1
.LBB65_107:
	movi	v0.16b, #34
	movi	v1.16b, #92
	add	x9, x24, x2
	ldp	q2, q3, [x9]
	movi	v4.16b, #32
	adrp	x9, .LCPI65_0
	cmeq	v5.16b, v2.16b, v0.16b
	cmeq	v6.16b, v2.16b, v1.16b
	cmeq	v0.16b, v3.16b, v0.16b
	cmeq	v1.16b, v3.16b, v1.16b
	orr	v5.16b, v5.16b, v6.16b
	orr	v0.16b, v0.16b, v1.16b
	cmhi	v1.16b, v4.16b, v2.16b
	cmhi	v2.16b, v4.16b, v3.16b
	orr	v0.16b, v2.16b, v0.16b
	orr	v1.16b, v1.16b, v5.16b
	ldr	q2, [x9, :lo12:.LCPI65_0]
	and	v1.16b, v1.16b, v2.16b
	and	v0.16b, v0.16b, v2.16b
	addp	v0.16b, v1.16b, v0.16b
	addp	v0.16b, v0.16b, v0.16b
	addp	v0.16b, v0.16b, v0.16b
	fmov	w9, s0
	cbnz	w9, .LBB65_158
	sub	x8, x8, #32
	add	x2, x2, #32
	cmp	x8, #31
	b.hi	.LBB65_107
.LBB65_109:
	mov	x0, x24
	mov	x1, x25
	mov	x27, x3
	bl	"json::run::plain_end_16"
	b	.LBB65_159
.LBB65_110:
	cmp	x9, #4
	b.hs	.LBB65_144
	mov	w10, wzr
	mov	w8, #32
	b	.LBB65_174
.LBB65_112:
	cmp	x9, #4
	b.hs	.LBB65_147
	mov	w10, wzr
	mov	w8, #32
	b	.LBB65_178
.LBB65_114:
	cmp	w27, #45
	adrp	x23, .LCPI65_0
	cinc	x27, x22, eq
	cset	w11, eq
	subs	x8, x25, x27
	b.ls	.LBB65_117
	ldrb	w10, [x24, x27]
	cmp	w10, #48
	b.ne	.LBB65_117
	add	x0, x27, #1
	b	.LBB65_185
.LBB65_117:
	cmp	x8, #16
	mov	x2, x27
	b.lo	.LBB65_122
	neg	x8, x27
	add	x10, x24, x27
	sub	x9, x9, x11
.LBB65_119:
	movi	v0.16b, #198
	ldr	q1, [x10], #16
	movi	v2.16b, #246
	add	v0.16b, v1.16b, v0.16b
	ldr	q1, [x23, :lo12:.LCPI65_0]
	cmhi	v0.16b, v2.16b, v0.16b
	and	v0.16b, v0.16b, v1.16b
	addp	v0.16b, v0.16b, v0.16b
	addp	v0.16b, v0.16b, v0.16b
	addp	v0.16b, v0.16b, v0.16b
	umov	w11, v0.h[0]
	cbnz	w11, .LBB65_182
	sub	x9, x9, #16
	sub	x8, x8, #16
	cmp	x9, #15
	b.hi	.LBB65_119
	neg	x2, x8
.LBB65_122:
	mov	x0, x24
	mov	x1, x25
	mov	x28, x3
	bl	"json::run::digits_end_slowly"
	mov	x3, x28
	b	.LBB65_183
.LBB65_123:
	ldr	x9, [x21, #24]
.LBB65_124:
	mov	w8, #1
.LBB65_125:
	ldr	x10, [x21, #8]
	str	x9, [x21, #80]
	cmp	x9, x10
	b.hs	.LBB65_130
	ldr	x10, [x21]
	ldrb	w9, [x10, x9]
	cmp	w9, #44
	b.ne	.LBB65_130
	movi	v0.2d, #0000000000000000
	ldr	x9, [x21, #56]
	str	x8, [x21, #40]
	cmp	x8, x9
	stp	q0, q0, [x29, #-48]
	b.ne	.LBB65_149
	ldp	x1, x2, [x21, #16]
	sub	x0, x29, #48
	ldrh	w8, [x21, #72]
	ldrb	w9, [x21, #74]
	add	x5, sp, #64
	ldr	x4, [x21, #64]
	strh	w8, [sp, #64]
	strb	w9, [sp, #66]
	bl	"json::index::refill"
	ldp	q0, q1, [x29, #-48]
	ldur	x8, [x29, #-40]
	str	xzr, [x21, #40]
	stp	q0, q1, [x21, #48]
	cbz	x8, .LBB65_196
	ldr	x8, [x21, #32]
	ldur	x9, [x29, #-48]
	ldr	w8, [x8]
	b	.LBB65_150
.LBB65_130:
	mov	w8, #2
	b	.LBB65_152
.LBB65_131:
	mov	x0, x20
	mov	w1, #1
	mov	x22, x3
	bl	"std_alloc::vec::Vec::grow_amortized::<#1283936d4ef01d73>"
	cbz	w0, .LBB65_135
	ldp	x11, x8, [x20, #8]
	mov	x3, x22
	b	.LBB65_15
.LBB65_133:
	mov	x0, x20
	mov	w1, #4
	mov	x22, x3
	bl	"std_alloc::vec::Vec::grow_amortized::<#1283936d4ef01d73>"
	cbz	w0, .LBB65_135
	ldp	x9, x8, [x20, #8]
	mov	x3, x22
	ldr	x10, [x20]
	b	.LBB65_16
.LBB65_135:
	mov	w8, #1
	strb	w8, [sp]
	b	.LBB65_77
.LBB65_136:
	ldr	x10, [x20, #8]
	mov	w8, #1
	subs	x11, x10, #4
	b.lo	.LBB65_157
	add	x9, x27, #1
	cmp	x11, x9
	b.lo	.LBB65_157
	sub	x8, x10, x9
	sub	x10, x8, #4
	lsr	x8, x10, #32
	cbnz	x8, .LBB65_156
	ldr	x11, [x20]
	lsr	x12, x10, #24
	and	w10, w10, #0xffffff
	rev	w10, w10
	orr	w10, w10, w12
	str	w10, [x11, x9]
	b	.LBB65_157
.LBB65_140:
	sub	x0, x29, #48
	add	x3, x24, #1
	mov	x1, x21
	mov	x2, x20
	mov	x5, x22
	bl	"amqp_json::reading::walk::put_named"
	ldurb	w8, [x29, #-48]
	ldurb	w9, [x29, #-40]
	ldur	x10, [x29, #-32]
	strb	w8, [sp]
	ldurb	w8, [x29, #-24]
	stp	x9, x10, [sp, #8]
	strb	w8, [sp, #24]
	b	.LBB65_79
.LBB65_141:
	ldr	x9, [x21, #32]
	ldr	x10, [x21, #48]
	ldr	w8, [x9, x8, lsl #2]
	add	x8, x10, x8
	b	.LBB65_192
.LBB65_142:
	ldur	w8, [x26, #1]
	mov	w10, #27745
	movk	w10, #25971, lsl #16
	cmp	w8, w10
	cset	w10, eq
	cmp	x9, #5
	b.ne	.LBB65_169
	mov	w8, #32
	b	.LBB65_170
.LBB65_144:
	ldrb	w8, [x26, #3]
	ldrb	w10, [x26, #2]
	ldrb	w11, [x26, #1]
	cmp	w8, #108
	mov	w8, #108
	ccmp	w10, w8, #0, eq
	mov	w8, #117
	ccmp	w11, w8, #0, eq
	cset	w10, eq
	cmp	x9, #4
	b.ne	.LBB65_173
	mov	w8, #32
	b	.LBB65_174
.LBB65_146:
	ldr	x9, [x21, #32]
	ldr	x10, [x21, #48]
	ldr	w8, [x9, x8, lsl #2]
	add	x8, x10, x8
	b	.LBB65_195
.LBB65_147:
	ldrb	w8, [x26, #3]
	ldrb	w10, [x26, #2]
	ldrb	w11, [x26, #1]
	cmp	w8, #101
	mov	w8, #117
	ccmp	w10, w8, #0, eq
	mov	w8, #114
	ccmp	w11, w8, #0, eq
	cset	w10, eq
	cmp	x9, #4
	b.ne	.LBB65_177
	mov	w8, #32
	b	.LBB65_178
.LBB65_149:
	ldur	x9, [x21, #48]
	ldr	w8, [x3, x8, lsl #2]
.LBB65_150:
	add	x9, x9, x8
.LBB65_151:
	mov	w8, wzr
	str	x9, [x21, #80]
.LBB65_152:
	strb	w8, [x21, #104]
	mov	w8, #1
	ldr	x9, [x20, #8]
	subs	x10, x9, #4
	b.lo	.LBB65_157
	cmp	x10, x23
	b.lo	.LBB65_157
	sub	x8, x9, x23
	sub	x9, x8, #4
	lsr	x8, x9, #32
	cbnz	x8, .LBB65_156
	ldr	x10, [x20]
	lsr	x11, x9, #24
	and	w9, w9, #0xffffff
	rev	w9, w9
	orr	w9, w9, w11
	str	w9, [x10, x23]
	b	.LBB65_157
.LBB65_156:
	mov	w8, #1
.LBB65_157:
	strb	w8, [sp]
	mov	w8, w8
	stp	x8, xzr, [sp, #8]
	b	.LBB65_78
.LBB65_158:
	rbit	w8, w9
	mov	x27, x3
	clz	w8, w8
	add	x0, x8, x2
.LBB65_159:
	cmp	x0, x25
	b.hs	.LBB65_164
	ldrb	w8, [x24, x0]
	cmp	w8, #34
	b.ne	.LBB65_164
	movi	v0.2d, #0000000000000000
	ldr	x8, [x21, #40]
	ldr	x10, [x21, #56]
	add	x9, x8, #1
	cmp	x9, x10
	str	x9, [x21, #40]
	stp	q0, q0, [x29, #-48]
	b.ne	.LBB65_197
	ldp	x1, x2, [x21, #16]
	mov	x23, x0
	ldrh	w8, [x21, #72]
	ldrb	w9, [x21, #74]
	sub	x0, x29, #48
	ldr	x3, [x21, #32]
	ldr	x4, [x21, #64]
	sub	x5, x29, #80
	sturh	w8, [x29, #-80]
	sturb	w9, [x29, #-78]
	bl	"json::index::refill"
	ldp	q0, q1, [x29, #-48]
	ldur	x9, [x29, #-40]
	ldr	x8, [x21, #32]
	str	xzr, [x21, #40]
	stp	q0, q1, [x21, #48]
	cbz	x9, .LBB65_200
	ldur	x10, [x29, #-48]
	ldr	w11, [x8]
	mov	x9, xzr
	add	x10, x10, x11
	b	.LBB65_201
.LBB65_164:
	ldp	x23, x26, [x21, #88]
	sub	x8, x29, #9
	add	x2, x22, #1
	mov	x0, x24
	mov	x1, x25
	stp	x8, xzr, [x21, #88]
	mov	x3, x23
	mov	x4, x26
	bl	"json::unescape::unescape"
	and	w8, w0, #0xff
	cmp	w8, #1
	b.ne	.LBB65_168
	movi	v0.2d, #0000000000000000
	add	x8, x23, x1
	sub	x9, x26, x1
	ldr	x10, [x21, #40]
	stp	x8, x9, [x21, #88]
	ldr	x8, [x21, #56]
	mov	x4, x1
	add	x9, x10, #1
	cmp	x9, x8
	stp	q0, q0, [x29, #-48]
	str	x9, [x21, #40]
	b.ne	.LBB65_193
	ldp	x1, x2, [x21, #16]
	mov	x24, x4
	ldrh	w8, [x21, #72]
	ldrb	w9, [x21, #74]
	sub	x0, x29, #48
	ldr	x3, [x21, #32]
	ldr	x4, [x21, #64]
	sub	x5, x29, #80
	sturh	w8, [x29, #-80]
	sturb	w9, [x29, #-78]
	bl	"json::index::refill"
	ldp	q0, q1, [x29, #-48]
	ldur	x9, [x29, #-40]
	ldr	x8, [x21, #32]
	str	xzr, [x21, #40]
	stp	q0, q1, [x21, #48]
	cbz	x9, .LBB65_198
	ldur	x10, [x29, #-48]
	ldr	w11, [x8]
	mov	x9, xzr
	add	x10, x10, x11
	b	.LBB65_199
.LBB65_168:
	mov	x4, xzr
	mov	w13, wzr
	mov	w8, #3
	stp	x23, x26, [x21, #88]
	mov	w28, #9
	mov	x23, xzr
	mov	x3, x27
	b	.LBB65_64
.LBB65_169:
	ldrb	w8, [x26, #5]
.LBB65_170:
	cmp	w8, #32
	sub	w9, w8, #9
	and	w11, w8, #0xffffffdf
	ccmp	w8, #13, #4, ne
	mov	w12, #93
	mov	w13, wzr
	ccmp	w9, #2, #0, ne
	mov	x4, xzr
	cset	w9, lo
	cmp	w11, #91
	ccmp	w11, w12, #4, ne
	mov	w11, #58
	ccmp	w8, w11, #4, ne
	mov	w11, #44
	ccmp	w8, w11, #4, ne
	mov	w8, #3
	csinc	w9, w9, wzr, ne
	cbz	w10, .LBB65_181
	tbz	w9, #0, .LBB65_181
	mov	w28, #7
	mov	x26, x4
	b	.LBB65_234
.LBB65_173:
	ldrb	w8, [x26, #4]
.LBB65_174:
	cmp	w8, #32
	sub	w9, w8, #9
	and	w11, w8, #0xffffffdf
	ccmp	w8, #13, #4, ne
	mov	w12, #93
	mov	w13, wzr
	ccmp	w9, #2, #0, ne
	mov	x4, xzr
	cset	w9, lo
	cmp	w11, #91
	ccmp	w11, w12, #4, ne
	mov	w11, #58
	ccmp	w8, w11, #4, ne
	mov	w11, #44
	ccmp	w8, w11, #4, ne
	mov	w8, #3
	csinc	w9, w9, wzr, ne
	cbz	w10, .LBB65_181
	tbz	w9, #0, .LBB65_181
	mov	w28, #8
	mov	x26, x4
	b	.LBB65_234
.LBB65_177:
	ldrb	w8, [x26, #4]
.LBB65_178:
	cmp	w8, #32
	sub	w9, w8, #9
	and	w11, w8, #0xffffffdf
	ccmp	w8, #13, #4, ne
	mov	w12, #93
	mov	w13, wzr
	ccmp	w9, #2, #0, ne
	mov	x4, xzr
	cset	w9, lo
	cmp	w11, #91
	ccmp	w11, w12, #4, ne
	mov	w11, #58
	ccmp	w8, w11, #4, ne
	mov	w11, #44
	ccmp	w8, w11, #4, ne
	mov	w8, #3
	csinc	w9, w9, wzr, ne
	cbz	w10, .LBB65_181
	tbz	w9, #0, .LBB65_181
	mov	w28, #7
	mov	w13, #1
	mov	x26, x4
	b	.LBB65_234
.LBB65_181:
	mov	x23, x4
	b	.LBB65_64
.LBB65_182:
	umov	w9, v0.h[0]
	rbit	w9, w9
	clz	w9, w9
	sub	x0, x9, x8
.LBB65_183:
	cmp	x0, x27
	b.ne	.LBB65_185
.LBB65_184:
	mov	x23, xzr
	mov	x4, xzr
	mov	w13, wzr
	mov	w8, #3
	mov	w28, #9
	b	.LBB65_64
.LBB65_185:
	cmp	x0, x25
	b.hs	.LBB65_217
	ldrb	w8, [x24, x0]
	cmp	w8, #46
	b.ne	.LBB65_217
	add	x27, x0, #1
	mov	x28, x3
	sub	x8, x25, x27
	mov	x2, x27
	cmp	x8, #16
	b.lo	.LBB65_190
.LBB65_188:
	movi	v0.16b, #198
	ldr	q1, [x24, x2]
	movi	v2.16b, #246
	add	v0.16b, v1.16b, v0.16b
	ldr	q1, [x23, :lo12:.LCPI65_0]
	cmhi	v0.16b, v2.16b, v0.16b
	and	v0.16b, v0.16b, v1.16b
	addp	v0.16b, v0.16b, v0.16b
	addp	v0.16b, v0.16b, v0.16b
	addp	v0.16b, v0.16b, v0.16b
	umov	w9, v0.h[0]
	cbnz	w9, .LBB65_215
	sub	x8, x8, #16
	add	x2, x2, #16
	cmp	x8, #15
	b.hi	.LBB65_188
.LBB65_190:
	mov	x0, x24
	mov	x1, x25
	bl	"json::run::digits_end_slowly"
	b	.LBB65_216
.LBB65_191:
	ldr	x8, [x21, #24]
	mov	x3, x23
.LBB65_192:
	mov	x23, xzr
	mov	x4, xzr
	mov	w13, wzr
	str	x8, [x21, #80]
	mov	w8, #1
	mov	w28, #2
	b	.LBB65_64
.LBB65_193:
	ldr	x8, [x21, #32]
	ldr	x10, [x21, #48]
	mov	x3, x27
	ldr	w11, [x8, x9, lsl #2]
	add	x10, x10, x11
	b	.LBB65_203
.LBB65_194:
	ldr	x8, [x21, #24]
	mov	x3, x23
.LBB65_195:
	mov	x23, xzr
	mov	x4, xzr
	mov	w28, wzr
	mov	w13, wzr
	str	x8, [x21, #80]
	mov	w8, #1
	b	.LBB65_64
.LBB65_196:
	ldr	x9, [x21, #24]
	b	.LBB65_151
.LBB65_197:
	ldr	x8, [x21, #32]
	ldr	x10, [x21, #48]
	mov	x3, x27
	ldr	w11, [x8, x9, lsl #2]
	add	x10, x10, x11
	b	.LBB65_202
.LBB65_198:
	ldr	x10, [x21, #24]
.LBB65_199:
	mov	x3, x27
	mov	x4, x24
	b	.LBB65_203
.LBB65_200:
	ldr	x10, [x21, #24]
.LBB65_201:
	mov	x3, x27
	mov	x0, x23
.LBB65_202:
	add	x23, x24, x26
	sub	x4, x0, x26
.LBB65_203:
	str	x10, [x21, #80]
	ldr	x11, [x21, #8]
	cmp	x10, x11
	b.hs	.LBB65_209
	ldr	x11, [x21]
	ldrb	w10, [x11, x10]
	cmp	w10, #44
	b.eq	.LBB65_210
	cmp	w10, #58
	b.ne	.LBB65_209
	movi	v0.2d, #0000000000000000
	ldr	x10, [x21, #56]
	add	x9, x9, #1
	str	x9, [x21, #40]
	cmp	x9, x10
	stp	q0, q0, [x29, #-48]
	b.ne	.LBB65_213
	ldp	x1, x2, [x21, #16]
	mov	x24, x4
	ldrh	w9, [x21, #72]
	ldrb	w10, [x21, #74]
	mov	x25, x3
	ldr	x4, [x21, #64]
	sub	x0, x29, #48
	sub	x5, x29, #80
	mov	x3, x8
	sturh	w9, [x29, #-80]
	sturb	w10, [x29, #-78]
	bl	"json::index::refill"
	ldp	q0, q1, [x29, #-48]
	ldur	x8, [x29, #-40]
	str	xzr, [x21, #40]
	stp	q0, q1, [x21, #48]
	cbz	x8, .LBB65_251
	ldr	x8, [x21, #32]
	ldur	x9, [x29, #-48]
	ldr	w8, [x8]
	add	x8, x9, x8
	b	.LBB65_252
.LBB65_209:
	mov	w13, wzr
	mov	w8, #2
	mov	w28, #5
	b	.LBB65_64
.LBB65_210:
	movi	v0.2d, #0000000000000000
	ldr	x10, [x21, #56]
	add	x9, x9, #1
	str	x9, [x21, #40]
	cmp	x9, x10
	stp	q0, q0, [x29, #-48]
	b.ne	.LBB65_214
	ldp	x1, x2, [x21, #16]
	mov	x24, x4
	ldrh	w9, [x21, #72]
	ldrb	w10, [x21, #74]
	mov	x25, x3
	ldr	x4, [x21, #64]
	sub	x0, x29, #48
	sub	x5, x29, #80
	mov	x3, x8
	sturh	w9, [x29, #-80]
	sturb	w10, [x29, #-78]
	bl	"json::index::refill"
	ldp	q0, q1, [x29, #-48]
	ldur	x8, [x29, #-40]
	str	xzr, [x21, #40]
	stp	q0, q1, [x21, #48]
	cbz	x8, .LBB65_254
	ldr	x8, [x21, #32]
	ldur	x9, [x29, #-48]
	ldr	w8, [x8]
	add	x9, x9, x8
	b	.LBB65_255
.LBB65_213:
	ldur	x10, [x21, #48]
	ldr	w8, [x8, x9, lsl #2]
	add	x8, x10, x8
	b	.LBB65_253
.LBB65_214:
	ldur	x10, [x21, #48]
	ldr	w8, [x8, x9, lsl #2]
	add	x9, x10, x8
	b	.LBB65_256
.LBB65_215:
	umov	w8, v0.h[0]
	rbit	w8, w8
	clz	w8, w8
	add	x0, x8, x2
.LBB65_216:
	cmp	x0, x27
	mov	x3, x28
	b.eq	.LBB65_184
.LBB65_217:
	cmp	x0, x25
	b.hs	.LBB65_230
	ldrb	w8, [x24, x0]
	and	w8, w8, #0xffffffdf
	cmp	w8, #69
	b.ne	.LBB65_230
	add	x27, x0, #1
	cmp	x27, x25
	b.hs	.LBB65_223
	ldrb	w8, [x24, x27]
	cmp	w8, #45
	b.eq	.LBB65_222
	cmp	w8, #43
	b.ne	.LBB65_223
.LBB65_222:
	add	x27, x0, #2
.LBB65_223:
	sub	x8, x25, x27
	mov	x28, x3
	mov	x2, x27
	cmp	x8, #16
	b.lo	.LBB65_227
	mov	x2, x27
.LBB65_225:
	movi	v0.16b, #198
	ldr	q1, [x24, x2]
	movi	v2.16b, #246
	add	v0.16b, v1.16b, v0.16b
	ldr	q1, [x23, :lo12:.LCPI65_0]
	cmhi	v0.16b, v2.16b, v0.16b
	and	v0.16b, v0.16b, v1.16b
	addp	v0.16b, v0.16b, v0.16b
	addp	v0.16b, v0.16b, v0.16b
	addp	v0.16b, v0.16b, v0.16b
	umov	w9, v0.h[0]
	cbnz	w9, .LBB65_228
	sub	x8, x8, #16
	add	x2, x2, #16
	cmp	x8, #15
	b.hi	.LBB65_225
.LBB65_227:
	mov	x0, x24
	mov	x1, x25
	bl	"json::run::digits_end_slowly"
	b	.LBB65_229
.LBB65_228:
	umov	w8, v0.h[0]
	rbit	w8, w8
	clz	w8, w8
	add	x0, x8, x2
.LBB65_229:
	cmp	x0, x27
	mov	x3, x28
	b.eq	.LBB65_184
.LBB65_230:
	cmp	x0, x25
	b.hs	.LBB65_233
	ldrb	w8, [x24, x0]
	mov	w9, #1
	mov	x10, #9728
	movk	x10, #4097, lsl #32
	lsl	x9, x9, x8
	movk	x10, #1024, lsl #48
	cmp	w8, #58
	and	x9, x9, x10
	ccmp	x9, #0, #4, ls
	b.ne	.LBB65_233
	sub	w8, w8, #91
	mov	w9, #1
	mov	x10, #5
	lsl	x9, x9, x8
	movk	x10, #5, lsl #32
	cmp	w8, #34
	and	x8, x9, x10
	ccmp	x8, #0, #4, ls
	b.eq	.LBB65_184
.LBB65_233:
	mov	w13, wzr
	sub	x4, x0, x22
	mov	w28, #6
.LBB65_234:
	movi	v0.2d, #0000000000000000
	ldr	x9, [x21, #40]
	ldr	x8, [x21, #56]
	add	x10, x9, #1
	cmp	x10, x8
	str	x10, [x21, #40]
	stp	q0, q0, [x29, #-48]
	b.ne	.LBB65_237
	ldp	x1, x2, [x21, #16]
	mov	x23, x4
	mov	x24, x3
	ldrh	w8, [x21, #72]
	ldrb	w9, [x21, #74]
	ldr	x3, [x21, #32]
	ldr	x4, [x21, #64]
	sub	x0, x29, #48
	sub	x5, x29, #80
	mov	w25, w13
	sturh	w8, [x29, #-80]
	sturb	w9, [x29, #-78]
	bl	"json::index::refill"
	ldp	q0, q1, [x29, #-48]
	ldur	x9, [x29, #-40]
	ldr	x8, [x21, #32]
	str	xzr, [x21, #40]
	stp	q0, q1, [x21, #48]
	cbz	x9, .LBB65_238
	ldur	x9, [x29, #-48]
	ldr	w10, [x8]
	add	x10, x9, x10
	b	.LBB65_239
.LBB65_237:
	ldr	x8, [x21, #32]
	ldr	x11, [x21, #48]
	add	x9, x9, #2
	ldr	w10, [x8, x10, lsl #2]
	add	x10, x11, x10
	b	.LBB65_240
.LBB65_238:
	ldr	x10, [x21, #24]
.LBB65_239:
	mov	w9, #1
	mov	x3, x24
	mov	x4, x23
	mov	w13, w25
.LBB65_240:
	ldr	x11, [x21, #8]
	str	x10, [x21, #80]
	cmp	x10, x11
	b.hs	.LBB65_245
	ldr	x11, [x21]
	ldrb	w10, [x11, x10]
	cmp	w10, #44
	b.ne	.LBB65_245
	movi	v0.2d, #0000000000000000
	ldr	x10, [x21, #56]
	str	x9, [x21, #40]
	cmp	x9, x10
	stp	q0, q0, [x29, #-48]
	b.ne	.LBB65_246
	ldp	x1, x2, [x21, #16]
	mov	x23, x4
	ldrh	w9, [x21, #72]
	ldrb	w10, [x21, #74]
	mov	x24, x3
	ldr	x4, [x21, #64]
	sub	x0, x29, #48
	sub	x5, x29, #80
	mov	x3, x8
	mov	w25, w13
	sturh	w9, [x29, #-80]
	sturb	w10, [x29, #-78]
	bl	"json::index::refill"
	ldp	q0, q1, [x29, #-48]
	ldur	x8, [x29, #-40]
	str	xzr, [x21, #40]
	stp	q0, q1, [x21, #48]
	cbz	x8, .LBB65_247
	ldr	x8, [x21, #32]
	ldur	x9, [x29, #-48]
	ldr	w8, [x8]
	add	x9, x9, x8
	b	.LBB65_248
.LBB65_245:
	mov	w8, #2
	b	.LBB65_250
.LBB65_246:
	ldur	x10, [x21, #48]
	ldr	w8, [x8, x9, lsl #2]
	add	x9, x10, x8
	b	.LBB65_249
.LBB65_247:
	ldr	x9, [x21, #24]
.LBB65_248:
	mov	x3, x24
	mov	x4, x23
	mov	w13, w25
.LBB65_249:
	mov	w8, wzr
	str	x9, [x21, #80]
.LBB65_250:
	mov	x23, x26
	b	.LBB65_64
.LBB65_251:
	ldr	x8, [x21, #24]
.LBB65_252:
	mov	x3, x25
	mov	x4, x24
.LBB65_253:
	mov	w13, wzr
	str	x8, [x21, #80]
	mov	w8, #1
	mov	w28, #4
	b	.LBB65_64
.LBB65_254:
	ldr	x9, [x21, #24]
.LBB65_255:
	mov	x3, x25
	mov	x4, x24
.LBB65_256:
	mov	w13, wzr
	mov	w8, wzr
	str	x9, [x21, #80]
	mov	w28, #5
	b	.LBB65_64
.Lfunc_end65:
	.size	"amqp_json::reading::walk::put_value", .Lfunc_end65-"amqp_json::reading::walk::put_value"

	.section	".text.amqp_json::reading::put::put","ax",@progbits
	.p2align	2
	.type	"amqp_json::reading::put::put",@function
"amqp_json::reading::put::put":
	stp	x29, x30, [sp, #-80]!
	stp	x24, x23, [sp, #32]
	mov	x24, x1
	mov	x29, sp
	stp	x22, x21, [sp, #48]
	ldp	x9, x21, [x24, #8]!
	stp	x20, x19, [sp, #64]
	mov	x20, x1
	mov	x19, x0
	str	x25, [sp, #16]
	cmp	x21, x9
	b.eq	.LBB66_17
.LBB66_1:
	ldr	x22, [x20]
	add	x8, x9, #1
	strb	w2, [x22, x9]
	sub	x9, x21, x8
	cmp	x4, x9
	stp	x22, x8, [x20]
	str	x21, [x20, #16]
	b.hi	.LBB66_19
	add	x0, x22, x8
	add	x23, x8, x4
	stp	xzr, xzr, [x24]
	sub	x9, x0, x3
	cmp	x9, x4
	b.hs	.LBB66_21
.LBB66_3:
	cmp	x4, #8
	b.lo	.LBB66_5
	add	x9, x8, x22
	sub	x9, x9, x3
	cmp	x9, #32
	b.hs	.LBB66_8
.LBB66_5:
	mov	x9, xzr
.LBB66_6:
	add	x10, x9, x8
	sub	x8, x4, x9
	add	x9, x3, x9
	add	x10, x22, x10
.LBB66_7:
	ldrb	w11, [x9], #1
	subs	x8, x8, #1
	strb	w11, [x10], #1
	b.ne	.LBB66_7
	b	.LBB66_22
.LBB66_8:
	cmp	x4, #32
	b.hs	.LBB66_10
	mov	x9, xzr
	b	.LBB66_14
.LBB66_10:
	add	x12, x8, x22
	and	x10, x4, #0x18
	and	x9, x4, #0xffffffffffffffe0
	add	x11, x3, #16
	add	x12, x12, #16
	and	x13, x4, #0xffffffffffffffe0
.LBB66_11:
	ldp	q0, q1, [x11, #-16]
	subs	x13, x13, #32
	add	x11, x11, #32
	stp	q0, q1, [x12, #-16]
	add	x12, x12, #32
	b.ne	.LBB66_11
	cmp	x4, x9
	b.eq	.LBB66_22
	cbz	x10, .LBB66_6
.LBB66_14:
	mov	x11, x9
	and	x9, x4, #0xfffffffffffffff8
	add	x12, x8, x11
	sub	x10, x11, x9
	add	x11, x3, x11
	add	x12, x22, x12
.LBB66_15:
	ldr	d0, [x11], #8
	adds	x10, x10, #8
	str	d0, [x12], #8
	b.ne	.LBB66_15
	cmp	x4, x9
	b.eq	.LBB66_22
	b	.LBB66_6
.LBB66_17:
	mov	x0, x20
	mov	w1, #1
	mov	w22, w2
	mov	x23, x3
	mov	x25, x4
	mov	w21, #1
	bl	"std_alloc::vec::Vec::grow_amortized::<#1283936d4ef01d73>"
	cbz	w0, .LBB66_24
	ldp	x9, x21, [x20, #8]
	mov	x4, x25
	mov	x3, x23
	mov	w2, w22
	b	.LBB66_1
.LBB66_19:
	mov	x0, x20
	mov	x1, x4
	mov	x23, x3
	mov	x25, x4
	bl	"std_alloc::vec::Vec::grow_amortized::<#1283936d4ef01d73>"
	cbz	w0, .LBB66_25
	ldp	x8, x21, [x20, #8]
	mov	x4, x25
	ldr	x22, [x20]
	mov	x3, x23
	add	x0, x22, x8
	add	x23, x8, x25
	stp	xzr, xzr, [x24]
	sub	x9, x0, x3
	cmp	x9, x25
	b.lo	.LBB66_3
.LBB66_21:
	mov	x1, x3
	mov	x2, x4
	bl	memmove
.LBB66_22:
	stp	x22, x23, [x20]
	str	x21, [x20, #16]
	strb	wzr, [x19]
.LBB66_23:
	stp	xzr, xzr, [x19, #8]
	ldp	x22, x21, [sp, #48]
	strb	wzr, [x19, #24]
	ldr	x25, [sp, #16]
	ldp	x20, x19, [sp, #64]
	ldp	x24, x23, [sp, #32]
	ldp	x29, x30, [sp], #80
	ret
.LBB66_24:
	strb	w21, [x19]
	b	.LBB66_23
.LBB66_25:
	mov	w8, #1
	strb	w8, [x19]
	b	.LBB66_23
.Lfunc_end66:
	.size	"amqp_json::reading::put::put", .Lfunc_end66-"amqp_json::reading::put::put"

	.section	".text.amqp_json::reading::named::put_number","ax",@progbits
	.p2align	2
	.type	"amqp_json::reading::named::put_number",@function
"amqp_json::reading::named::put_number":
	stp	x29, x30, [sp, #-96]!
	stp	x28, x27, [sp, #16]
	mov	x29, sp
	stp	x26, x25, [sp, #32]
	stp	x24, x23, [sp, #48]
	stp	x22, x21, [sp, #64]
	stp	x20, x19, [sp, #80]
	sub	sp, sp, #736
	movi	v0.2d, #0000000000000000
	and	x8, x2, #0xff
	adrp	x9, .LJTI67_0
	add	x9, x9, :lo12:.LJTI67_0
	strb	wzr, [sp, #60]
	strb	wzr, [sp, #56]
	strh	wzr, [sp, #52]
	stp	q0, q0, [sp, #64]
	strh	wzr, [sp, #48]
	stp	xzr, xzr, [sp, #32]
	str	xzr, [sp, #24]
	str	wzr, [sp, #20]
	str	xzr, [sp, #8]
	adr	x10, .LBB67_1
	ldrb	w11, [x9, x8]
	add	x10, x10, x11, lsl #2
	br	x10
.LBB67_1:
	and	w11, w2, #0xff
	mov	w8, #1
	mov	w12, #55295
	lsl	w11, w8, w11
	movk	w12, #1, lsl #16
	mov	w10, #4
	mov	w9, #4
	tst	w11, w12
	b.eq	.LBB67_3
.LBB67_2:
	mov	w9, #5
	mov	w8, #1
	mov	w10, #4
.LBB67_3:
	strb	w8, [x0]
	stp	x10, x5, [x0, #8]
	strb	w9, [x0, #24]
	add	sp, sp, #736
	ldp	x20, x19, [sp, #80]
	ldp	x22, x21, [sp, #64]
	ldp	x24, x23, [sp, #48]
	ldp	x26, x25, [sp, #32]
	ldp	x28, x27, [sp, #16]
	ldp	x29, x30, [sp], #96
	ret
.LBB67_4:
	cbz	x4, .LBB67_2
	cmp	x4, #1
	b.ne	.LBB67_52
	ldrb	w8, [x3]
	sub	w8, w8, #48
	cmp	w8, #10
	b.hs	.LBB67_2
	b	.LBB67_107
.LBB67_7:
	cbz	x4, .LBB67_2
	subs	x8, x4, #1
	b.ne	.LBB67_54
	ldrb	w8, [x3]
	sub	w8, w8, #48
	cmp	w8, #9
	b.hi	.LBB67_2
	b	.LBB67_115
.LBB67_10:
	cbz	x4, .LBB67_2
	cmp	x4, #1
	b.ne	.LBB67_63
	ldrb	w8, [x3]
	sub	w8, w8, #48
	cmp	w8, #10
	b.hs	.LBB67_2
	b	.LBB67_124
.LBB67_13:
	cbz	x4, .LBB67_32
	ldrb	w22, [x3]
	b	.LBB67_33
.LBB67_15:
	cbz	x4, .LBB67_2
	cmp	x4, #1
	b.ne	.LBB67_65
	ldrb	w8, [x3]
	sub	w8, w8, #48
	cmp	w8, #10
	b.hs	.LBB67_2
	b	.LBB67_132
.LBB67_18:
	cbz	x4, .LBB67_2
	subs	x8, x4, #1
	b.ne	.LBB67_67
	ldrb	w8, [x3]
	sub	w8, w8, #48
	cmp	w8, #9
	b.hi	.LBB67_2
	b	.LBB67_140
.LBB67_21:
	cbz	x4, .LBB67_2
	subs	x8, x4, #1
	b.ne	.LBB67_76
	ldrb	w8, [x3]
	sub	w8, w8, #48
	cmp	w8, #9
	b.hi	.LBB67_2
	b	.LBB67_149
.LBB67_24:
	cbz	x4, .LBB67_2
	cmp	x4, #1
	b.ne	.LBB67_85
	ldrb	w8, [x3]
	sub	w8, w8, #48
	cmp	w8, #10
	b.hs	.LBB67_2
	b	.LBB67_159
.LBB67_27:
	cbz	x4, .LBB67_2
	subs	x8, x4, #1
	b.ne	.LBB67_87
	ldrb	w8, [x3]
	sub	w8, w8, #48
	cmp	w8, #9
	b.hi	.LBB67_2
	b	.LBB67_166
.LBB67_30:
	cbz	x4, .LBB67_42
	ldrb	w22, [x3]
	b	.LBB67_43
.LBB67_32:
	mov	w22, wzr
.LBB67_33:
	cmp	w22, #45
	mov	w8, #43
	ccmp	w22, w8, #4, ne
	cset	w21, eq
	cinc	x8, x3, eq
	sub	x23, x4, x21
	subs	x10, x23, #8
	b.lo	.LBB67_37
	mov	x13, #100
	mov	x11, #9187201950435737471
	mov	x12, #7378697629483820646
	movk	x13, #16960, lsl #32
	mov	x14, #1
	mov	w15, #57600
	mov	x9, xzr
	mov	x19, xzr
	movk	x11, #32638
	orr	x12, x12, #0x7070707070707070
	movk	x13, #15, lsl #48
	movk	x14, #10000, lsl #32
	movk	w15, #1525, lsl #16
	sub	x16, x4, x21
.LBB67_35:
	ldr	x18, [x8, x9]
	eor	x17, x18, #0x3030303030303030
	and	x3, x17, x11
	add	x3, x3, x12
	orr	x18, x3, x18
	tst	x18, #0x8080808080808080
	b.ne	.LBB67_38
	mov	w18, #10
	sub	x16, x16, #8
	add	x9, x9, #8
	mul	x18, x17, x18
	cmp	x16, #7
	add	x17, x18, x17, lsr #8
	and	x18, x17, #0xff000000ff
	lsr	x17, x17, #16
	mul	x18, x18, x13
	and	x17, x17, #0xff000000ff
	madd	x17, x17, x14, x18
	mul	x18, x19, x15
	add	x19, x18, x17, lsr #32
	b.hi	.LBB67_35
	b	.LBB67_38
.LBB67_37:
	mov	x19, xzr
	mov	x9, xzr
.LBB67_38:
	cmp	x9, x23
	b.hs	.LBB67_185
.LBB67_39:
	ldrb	w11, [x8, x9]
	sub	w12, w11, #48
	cmp	w12, #9
	b.hi	.LBB67_96
	mov	w11, #10
	add	x9, x9, #1
	mul	x11, x19, x11
	cmp	x9, x23
	add	x19, x11, w12, uxtb
	b.lo	.LBB67_39
	mov	x3, xzr
	mov	w12, wzr
	mov	x13, xzr
	adrp	x10, .Lstatic.1
	add	x10, x10, :lo12:.Lstatic.1
	sub	x9, x4, x21
	b	.LBB67_186
.LBB67_42:
	mov	w22, wzr
.LBB67_43:
	cmp	w22, #45
	mov	w8, #43
	ccmp	w22, w8, #4, ne
	cset	w21, eq
	cinc	x8, x3, eq
	sub	x23, x4, x21
	subs	x10, x23, #8
	b.lo	.LBB67_47
	mov	x13, #100
	mov	x11, #9187201950435737471
	mov	x12, #7378697629483820646
	movk	x13, #16960, lsl #32
	mov	x14, #1
	mov	w15, #57600
	mov	x9, xzr
	mov	x19, xzr
	movk	x11, #32638
	orr	x12, x12, #0x7070707070707070
	movk	x13, #15, lsl #48
	movk	x14, #10000, lsl #32
	movk	w15, #1525, lsl #16
	sub	x16, x4, x21
.LBB67_45:
	ldr	x18, [x8, x9]
	eor	x17, x18, #0x3030303030303030
	and	x3, x17, x11
	add	x3, x3, x12
	orr	x18, x3, x18
	tst	x18, #0x8080808080808080
	b.ne	.LBB67_48
	mov	w18, #10
	sub	x16, x16, #8
	add	x9, x9, #8
	mul	x18, x17, x18
	cmp	x16, #7
	add	x17, x18, x17, lsr #8
	and	x18, x17, #0xff000000ff
	lsr	x17, x17, #16
	mul	x18, x18, x13
	and	x17, x17, #0xff000000ff
	madd	x17, x17, x14, x18
	mul	x18, x19, x15
	add	x19, x18, x17, lsr #32
	b.hi	.LBB67_45
	b	.LBB67_48
.LBB67_47:
	mov	x19, xzr
	mov	x9, xzr
.LBB67_48:
	cmp	x9, x23
	b.hs	.LBB67_219
.LBB67_49:
	ldrb	w11, [x8, x9]
	sub	w12, w11, #48
	cmp	w12, #9
	b.hi	.LBB67_101
	mov	w11, #10
	add	x9, x9, #1
	mul	x11, x19, x11
	cmp	x9, x23
	add	x19, x11, w12, uxtb
	b.lo	.LBB67_49
	mov	x3, xzr
	mov	w12, wzr
	mov	x13, xzr
	adrp	x10, .Lstatic.1
	add	x10, x10, :lo12:.Lstatic.1
	sub	x9, x4, x21
	b	.LBB67_220
.LBB67_52:
	ldrb	w8, [x3]
	cmp	w8, #45
	b.ne	.LBB67_106
	ldrb	w8, [x3, #1]
	sub	w8, w8, #49
	cmp	w8, #9
	b.hs	.LBB67_2
	b	.LBB67_107
.LBB67_54:
	ldrb	w9, [x3]
	cmp	w9, #45
	b.ne	.LBB67_114
	ldrb	w9, [x3, #1]
	sub	w9, w9, #49
	cmp	w9, #8
	b.hi	.LBB67_2
	mov	x9, #-7378697629483820647
	mov	x11, xzr
	add	x10, x3, #1
	eor	x9, x9, #0x8000000000000003
.LBB67_57:
	cmp	x11, x9
	b.hs	.LBB67_1
	ldrb	w12, [x10], #1
	sub	w13, w12, #48
	cmp	w13, #9
	b.hi	.LBB67_1
	add	x11, x11, x11, lsl #2
	and	x12, x12, #0xf
	lsl	x11, x11, #1
	cmn	x12, x11
	b.hs	.LBB67_1
	add	x11, x11, x12
	mov	x12, #-9223372036854775808
	cmp	x11, x12
	b.hi	.LBB67_1
	subs	x8, x8, #1
	b.ne	.LBB67_57
	neg	x8, x11
	b	.LBB67_121
.LBB67_63:
	ldrb	w8, [x3]
	cmp	w8, #45
	b.ne	.LBB67_123
	ldrb	w8, [x3, #1]
	sub	w8, w8, #49
	cmp	w8, #9
	b.hs	.LBB67_2
	b	.LBB67_124
.LBB67_65:
	ldrb	w8, [x3]
	cmp	w8, #45
	b.ne	.LBB67_131
	ldrb	w8, [x3, #1]
	sub	w8, w8, #49
	cmp	w8, #9
	b.hs	.LBB67_2
	b	.LBB67_132
.LBB67_67:
	ldrb	w9, [x3]
	cmp	w9, #45
	b.ne	.LBB67_139
	ldrb	w9, [x3, #1]
	sub	w9, w9, #49
	cmp	w9, #8
	b.hi	.LBB67_2
	mov	x9, #-7378697629483820647
	mov	x11, xzr
	add	x10, x3, #1
	eor	x9, x9, #0x8000000000000003
.LBB67_70:
	cmp	x11, x9
	b.hs	.LBB67_1
	ldrb	w12, [x10], #1
	sub	w13, w12, #48
	cmp	w13, #9
	b.hi	.LBB67_1
	add	x11, x11, x11, lsl #2
	and	x12, x12, #0xf
	lsl	x11, x11, #1
	cmn	x12, x11
	b.hs	.LBB67_1
	add	x11, x11, x12
	mov	x12, #-9223372036854775808
	cmp	x11, x12
	b.hi	.LBB67_1
	subs	x8, x8, #1
	b.ne	.LBB67_70
	neg	x8, x11
	b	.LBB67_146
.LBB67_76:
	ldrb	w9, [x3]
	cmp	w9, #45
	b.ne	.LBB67_148
	ldrb	w9, [x3, #1]
	sub	w9, w9, #49
	cmp	w9, #8
	b.hi	.LBB67_2
	mov	x9, #-7378697629483820647
	mov	x11, xzr
	add	x10, x3, #1
	eor	x9, x9, #0x8000000000000003
.LBB67_79:
	cmp	x11, x9
	b.hs	.LBB67_1
	ldrb	w12, [x10], #1
	sub	w13, w12, #48
	cmp	w13, #9
	b.hi	.LBB67_1
	add	x11, x11, x11, lsl #2
	and	x12, x12, #0xf
	lsl	x11, x11, #1
	cmn	x12, x11
	b.hs	.LBB67_1
	add	x11, x11, x12
	mov	x12, #-9223372036854775808
	cmp	x11, x12
	b.hi	.LBB67_1
	subs	x8, x8, #1
	b.ne	.LBB67_79
	neg	x8, x11
	b	.LBB67_155
.LBB67_85:
	ldrb	w8, [x3]
	cmp	w8, #45
	b.ne	.LBB67_158
	ldrb	w8, [x3, #1]
	sub	w8, w8, #49
	cmp	w8, #9
	b.hs	.LBB67_2
	b	.LBB67_159
.LBB67_87:
	ldrb	w9, [x3]
	cmp	w9, #45
	b.ne	.LBB67_165
	ldrb	w9, [x3, #1]
	sub	w9, w9, #49
	cmp	w9, #8
	b.hi	.LBB67_2
	mov	x9, #-7378697629483820647
	mov	x11, xzr
	add	x10, x3, #1
	eor	x9, x9, #0x8000000000000003
.LBB67_90:
	cmp	x11, x9
	b.hs	.LBB67_1
	ldrb	w12, [x10], #1
	sub	w13, w12, #48
	cmp	w13, #9
	b.hi	.LBB67_1
	add	x11, x11, x11, lsl #2
	and	x12, x12, #0xf
	lsl	x11, x11, #1
	cmn	x12, x11
	b.hs	.LBB67_1
	add	x11, x11, x12
	mov	x12, #-9223372036854775808
	cmp	x11, x12
	b.hi	.LBB67_1
	subs	x8, x8, #1
	b.ne	.LBB67_90
	neg	x8, x11
	b	.LBB67_172
.LBB67_96:
	cmp	w11, #46
	b.eq	.LBB67_206
	cmp	w11, #69
	b.eq	.LBB67_99
	cmp	w11, #101
	b.ne	.LBB67_185
.LBB67_99:
	add	x11, x9, #1
	cmp	x11, x23
	b.hs	.LBB67_175
	add	x10, x8, x9
	ldrb	w10, [x10, #1]
	b	.LBB67_176
.LBB67_101:
	cmp	w11, #46
	b.eq	.LBB67_240
	cmp	w11, #69
	b.eq	.LBB67_104
	cmp	w11, #101
	b.ne	.LBB67_219
.LBB67_104:
	add	x11, x9, #1
	cmp	x11, x23
	b.hs	.LBB67_209
	add	x10, x8, x9
	ldrb	w10, [x10, #1]
	b	.LBB67_210
.LBB67_106:
	sub	w8, w8, #49
	cmp	w8, #8
	b.hi	.LBB67_2
.LBB67_107:
	mov	x8, #-7378697629483820647
	mov	x9, xzr
	eor	x8, x8, #0x8000000000000003
.LBB67_108:
	cmp	x9, x8
	b.hs	.LBB67_1
	ldrb	w10, [x3], #1
	sub	w11, w10, #48
	cmp	w11, #9
	b.hi	.LBB67_1
	add	x9, x9, x9, lsl #2
	and	x10, x10, #0xf
	lsl	x9, x9, #1
	cmn	x10, x9
	b.hs	.LBB67_1
	subs	x4, x4, #1
	add	x9, x9, x10
	b.ne	.LBB67_108
	lsr	x8, x9, #16
	cbnz	x8, .LBB67_1
	rev	w8, w9
	mov	x19, x0
	add	x0, sp, #64
	lsr	w8, w8, #16
	add	x3, sp, #48
	mov	w2, #117
	mov	w4, #2
	strh	w8, [sp, #48]
	b	.LBB67_174
.LBB67_114:
	sub	w8, w9, #49
	cmp	w8, #9
	b.hs	.LBB67_2
.LBB67_115:
	mov	x9, #-7378697629483820647
	mov	x8, xzr
	eor	x9, x9, #0x8000000000000003
.LBB67_116:
	cmp	x8, x9
	b.hs	.LBB67_1
	ldrb	w10, [x3], #1
	sub	w11, w10, #48
	cmp	w11, #9
	b.hi	.LBB67_1
	add	x8, x8, x8, lsl #2
	and	x10, x10, #0xf
	lsl	x8, x8, #1
	cmn	x10, x8
	b.hs	.LBB67_1
	adds	x8, x8, x10
	b.mi	.LBB67_1
	subs	x4, x4, #1
	b.ne	.LBB67_116
.LBB67_121:
	cmp	x8, w8, sxtw
	b.ne	.LBB67_1
	rev	w8, w8
	mov	x19, x0
	add	x0, sp, #64
	str	w8, [sp, #44]
	add	x3, sp, #44
	mov	w2, #73
	mov	w4, #4
	b	.LBB67_174
.LBB67_123:
	sub	w8, w8, #49
	cmp	w8, #8
	b.hi	.LBB67_2
.LBB67_124:
	mov	x8, #-7378697629483820647
	mov	x9, xzr
	eor	x8, x8, #0x8000000000000003
.LBB67_125:
	cmp	x9, x8
	b.hs	.LBB67_1
	ldrb	w10, [x3], #1
	sub	w11, w10, #48
	cmp	w11, #9
	b.hi	.LBB67_1
	add	x9, x9, x9, lsl #2
	and	x10, x10, #0xf
	lsl	x9, x9, #1
	cmn	x10, x9
	b.hs	.LBB67_1
	subs	x4, x4, #1
	add	x9, x9, x10
	b.ne	.LBB67_125
	cmp	x9, #255
	b.hi	.LBB67_1
	strb	w9, [sp, #56]
	mov	x19, x0
	add	x0, sp, #64
	add	x3, sp, #56
	mov	w2, #66
	b	.LBB67_157
.LBB67_131:
	sub	w8, w8, #49
	cmp	w8, #8
	b.hi	.LBB67_2
.LBB67_132:
	mov	x9, #-7378697629483820647
	mov	x8, xzr
	eor	x9, x9, #0x8000000000000003
.LBB67_133:
	cmp	x8, x9
	b.hs	.LBB67_1
	ldrb	w10, [x3], #1
	sub	w11, w10, #48
	cmp	w11, #9
	b.hi	.LBB67_1
	add	x8, x8, x8, lsl #2
	and	x10, x10, #0xf
	lsl	x8, x8, #1
	cmn	x10, x8
	b.hs	.LBB67_1
	subs	x4, x4, #1
	add	x8, x8, x10
	b.ne	.LBB67_133
	lsr	x9, x8, #32
	cbnz	x9, .LBB67_1
	lsr	x9, x8, #24
	and	w8, w8, #0xffffff
	mov	x19, x0
	rev	w8, w8
	add	x0, sp, #64
	add	x3, sp, #40
	orr	w8, w8, w9
	mov	w2, #105
	mov	w4, #4
	str	w8, [sp, #40]
	b	.LBB67_174
.LBB67_139:
	sub	w8, w9, #49
	cmp	w8, #9
	b.hs	.LBB67_2
.LBB67_140:
	mov	x9, #-7378697629483820647
	mov	x8, xzr
	eor	x9, x9, #0x8000000000000003
.LBB67_141:
	cmp	x8, x9
	b.hs	.LBB67_1
	ldrb	w10, [x3], #1
	sub	w11, w10, #48
	cmp	w11, #9
	b.hi	.LBB67_1
	add	x8, x8, x8, lsl #2
	and	x10, x10, #0xf
	lsl	x8, x8, #1
	cmn	x10, x8
	b.hs	.LBB67_1
	adds	x8, x8, x10
	b.mi	.LBB67_1
	subs	x4, x4, #1
	b.ne	.LBB67_141
.LBB67_146:
	cmp	x8, w8, sxth
	b.ne	.LBB67_1
	rev	w8, w8
	mov	x19, x0
	add	x0, sp, #64
	lsr	w8, w8, #16
	add	x3, sp, #52
	mov	w2, #115
	mov	w4, #2
	strh	w8, [sp, #52]
	b	.LBB67_174
.LBB67_148:
	sub	w8, w9, #49
	cmp	w8, #9
	b.hs	.LBB67_2
.LBB67_149:
	mov	x9, #-7378697629483820647
	mov	x8, xzr
	eor	x9, x9, #0x8000000000000003
.LBB67_150:
	cmp	x8, x9
	b.hs	.LBB67_1
	ldrb	w10, [x3], #1
	sub	w11, w10, #48
	cmp	w11, #9
	b.hi	.LBB67_1
	add	x8, x8, x8, lsl #2
	and	x10, x10, #0xf
	lsl	x8, x8, #1
	cmn	x10, x8
	b.hs	.LBB67_1
	adds	x8, x8, x10
	b.mi	.LBB67_1
	subs	x4, x4, #1
	b.ne	.LBB67_150
.LBB67_155:
	cmp	x8, w8, sxtb
	b.ne	.LBB67_1
	mov	x19, x0
	add	x0, sp, #64
	add	x3, sp, #60
	mov	w2, #98
	strb	w8, [sp, #60]
.LBB67_157:
	mov	w4, #1
	b	.LBB67_174
.LBB67_158:
	sub	w8, w8, #49
	cmp	w8, #8
	b.hi	.LBB67_2
.LBB67_159:
	mov	x8, #-7378697629483820647
	mov	x9, xzr
	eor	x8, x8, #0x8000000000000003
.LBB67_160:
	cmp	x9, x8
	b.hs	.LBB67_1
	ldrb	w10, [x3], #1
	sub	w11, w10, #48
	cmp	w11, #9
	b.hi	.LBB67_1
	add	x9, x9, x9, lsl #2
	and	x10, x10, #0xf
	lsl	x9, x9, #1
	cmn	x10, x9
	b.hs	.LBB67_1
	subs	x4, x4, #1
	add	x9, x9, x10
	b.ne	.LBB67_160
	rev	x8, x9
	mov	x19, x0
	add	x0, sp, #64
	str	x8, [sp, #24]
	add	x3, sp, #24
	mov	w2, #84
	b	.LBB67_173
.LBB67_165:
	sub	w8, w9, #49
	cmp	w8, #9
	b.hs	.LBB67_2
.LBB67_166:
	mov	x9, #-7378697629483820647
	mov	x8, xzr
	eor	x9, x9, #0x8000000000000003
.LBB67_167:
	cmp	x8, x9
	b.hs	.LBB67_1
	ldrb	w10, [x3], #1
	sub	w11, w10, #48
	cmp	w11, #9
	b.hi	.LBB67_1
	add	x8, x8, x8, lsl #2
	and	x10, x10, #0xf
	lsl	x8, x8, #1
	cmn	x10, x8
	b.hs	.LBB67_1
	adds	x8, x8, x10
	b.mi	.LBB67_1
	subs	x4, x4, #1
	b.ne	.LBB67_167
.LBB67_172:
	rev	x8, x8
	mov	x19, x0
	add	x0, sp, #64
	str	x8, [sp, #32]
	add	x3, sp, #32
	mov	w2, #108
.LBB67_173:
	mov	w4, #8
.LBB67_174:
	bl	"amqp_json::reading::put::put"
	mov	x0, x19
	b	.LBB67_263
.LBB67_175:
	mov	w10, wzr
.LBB67_176:
	cmp	w10, #43
	mov	w12, #45
	ccmp	w10, w12, #4, ne
	add	x10, x9, #2
	csel	x14, x10, x11, eq
	cmp	x14, x23
	b.hs	.LBB67_185
	mov	w12, wzr
	mov	x3, xzr
	adrp	x10, .Lstatic.1
	add	x10, x10, :lo12:.Lstatic.1
	cbz	x14, .LBB67_270
	ldrb	w13, [x8, x14]
	sub	w13, w13, #58
	cmn	w13, #10
	b.lo	.LBB67_270
	mov	x10, #-7378697629483820647
	mov	x13, xzr
	eor	x10, x10, #0x8000000000000003
.LBB67_180:
	ldrb	w12, [x8, x14]
	sub	w12, w12, #48
	cmp	w12, #9
	b.hi	.LBB67_183
	add	x15, x13, x13, lsl #2
	add	x14, x14, #1
	lsl	x15, x15, #1
	adds	x12, x15, w12, uxtb
	csinv	x12, x12, xzr, lo
	cmp	x13, x10
	csinv	x13, x12, xzr, lo
	cmp	x14, x23
	b.lo	.LBB67_180
	sub	x14, x4, x21
.LBB67_183:
	cmp	x11, x23
	b.hs	.LBB67_299
	add	x10, x8, x9
	mov	x3, xzr
	mov	x23, x14
	ldrb	w10, [x10, #1]
	cmp	w10, #45
	adrp	x10, .Lstatic.1
	add	x10, x10, :lo12:.Lstatic.1
	cset	w12, eq
	b	.LBB67_186
.LBB67_185:
	mov	x3, xzr
	mov	w12, wzr
	mov	x13, xzr
	adrp	x10, .Lstatic.1
	add	x10, x10, :lo12:.Lstatic.1
	mov	x23, x9
.LBB67_186:
	cmn	x9, x3
	b.eq	.LBB67_243
	cmp	w12, #0
	add	x14, x3, x9
	csel	x11, xzr, x13, ne
	csel	x12, x13, xzr, ne
	cmp	x14, #19
	b.hi	.LBB67_247
	lsr	x13, x13, #32
	cbnz	x13, .LBB67_247
	movi	d0, #0000000000000000
	cbz	x19, .LBB67_248
	add	x8, x12, x3
	subs	x20, x8, x11
	b.ls	.LBB67_194
	mov	w8, #16777216
	cmp	x19, x8
	b.hi	.LBB67_197
	cmp	x20, #10
	b.hi	.LBB67_197
	ucvtf	s0, x19
	adrp	x8, .Lstatic.4
	add	x8, x8, :lo12:.Lstatic.4
	ldr	s1, [x8, x20, lsl #2]
	fdiv	s0, s0, s1
	b	.LBB67_248
.LBB67_194:
	mov	w9, #16777216
	sub	x20, x11, x8
	cmp	x19, x9
	b.hi	.LBB67_201
	cmp	x20, #10
	b.hi	.LBB67_201
	ucvtf	s0, x19
	adrp	x8, .Lstatic.4
	add	x8, x8, :lo12:.Lstatic.4
	ldr	s1, [x8, x20, lsl #2]
	fmul	s0, s0, s1
	b	.LBB67_248
.LBB67_197:
	cmp	x20, #342
	b.hi	.LBB67_248
	mov	w8, #342
	clz	x10, x19
	mov	w11, #58980
	sub	x3, x8, x20
	adrp	x8, .Lstatic.3
	add	x8, x8, :lo12:.Lstatic.3
	add	x8, x8, x3, lsl #4
	lsl	x9, x19, x10
	add	x10, x10, #1162
	ldr	x8, [x8, #8]
	umulh	x8, x8, x9
	mov	w9, #21098
	movk	w9, #3, lsl #16
	umaddl	x11, w3, w9, x11
	lsr	x9, x8, #63
	add	x11, x9, x11, lsr #16
	add	x11, x11, #214
	subs	x10, x11, x10
	b.lo	.LBB67_323
	mov	x11, #-549755813888
	lsl	x12, x11, x9
	mov	x11, #274877906944
	lsl	x11, x11, x9
	bic	x12, x8, x12
	sub	x13, x11, x12
	cmp	x13, #2
	b.lo	.LBB67_323
	add	x9, x9, #39
	cmp	x11, x12
	lsr	x8, x8, x9
	add	x8, x8, x10, lsl #23
	cinc	x8, x8, lo
	b	.LBB67_205
.LBB67_201:
	cmp	x20, #308
	b.ls	.LBB67_203
	mov	w8, #2139095040
	fmov	s0, w8
	b	.LBB67_248
.LBB67_203:
	add	x8, x20, #342
	adrp	x9, .Lstatic.3
	add	x9, x9, :lo12:.Lstatic.3
	add	x10, x9, x8, lsl #4
	clz	x9, x19
	mov	x12, #-549755813888
	lsl	x11, x19, x9
	ldr	x10, [x10, #8]
	umulh	x10, x10, x11
	lsr	x11, x10, #63
	lsl	x13, x12, x11
	mov	x12, #274877906944
	lsl	x12, x12, x11
	bic	x13, x10, x13
	sub	x14, x12, x13
	cmp	x14, #1
	b.ls	.LBB67_329
	mov	w14, #21098
	mov	w15, #58980
	sub	x9, x11, x9
	movk	w14, #3, lsl #16
	cmp	x12, x13
	madd	x8, x8, x14, x15
	add	x14, x11, #39
	lsr	x10, x10, x14
	add	x8, x9, x8, lsr #16
	mov	x9, #-8589934592
	movk	x9, #9728, lsl #16
	add	x8, x10, x8, lsl #23
	cinc	x8, x8, lo
	add	x8, x8, x9
	mov	w9, #2139095040
	cmp	x8, x9
	csel	x8, x8, x9, lo
.LBB67_205:
	fmov	s0, w8
	b	.LBB67_248
.LBB67_206:
	mov	x13, #100
	mov	x14, #9187201950435737471
	mov	x15, #7378697629483820646
	movk	x13, #16960, lsl #32
	mov	x12, #1
	movk	x14, #32638
	orr	x15, x15, #0x7070707070707070
	movk	x13, #15, lsl #48
	movk	x12, #10000, lsl #32
	add	x11, x9, #1
.LBB67_207:
	sub	x16, x23, x11
	cmp	x16, #8
	b.lo	.LBB67_264
	ldr	x16, [x8, x11]
	mov	w6, #2561
	eor	x17, x16, #0x3030303030303030
	and	x18, x17, x14
	add	x18, x18, x15
	orr	x16, x18, x16
	mov	w18, #10
	ands	x16, x16, #0x8080808080808080
	mul	x18, x17, x18
	rbit	x16, x16
	clz	x16, x16
	mvn	w3, w16
	lsr	x16, x16, #3
	and	x3, x3, #0x38
	lsl	x3, x17, x3
	add	x17, x18, x17, lsr #8
	mul	x3, x3, x6
	and	x18, x17, #0xff000000ff
	lsr	x17, x17, #16
	mul	x18, x18, x13
	and	x17, x17, #0xff000000ff
	and	x6, x3, #0xff000000ff
	lsr	x3, x3, #16
	madd	x17, x17, x12, x18
	mov	w18, #8
	mul	x6, x6, x13
	and	x3, x3, #0xff000000ff
	csel	x16, x16, x18, ne
	add	x11, x16, x11
	madd	x18, x3, x12, x6
	adrp	x3, .Lstatic.2
	add	x3, x3, :lo12:.Lstatic.2
	ldr	x3, [x3, x16, lsl #3]
	mul	x3, x3, x19
	csel	x17, x18, x17, ne
	cmp	x16, #8
	add	x19, x3, x17, lsr #32
	b.hs	.LBB67_207
	b	.LBB67_287
.LBB67_209:
	mov	w10, wzr
.LBB67_210:
	cmp	w10, #43
	mov	w12, #45
	ccmp	w10, w12, #4, ne
	add	x10, x9, #2
	csel	x14, x10, x11, eq
	cmp	x14, x23
	b.hs	.LBB67_219
	mov	w12, wzr
	mov	x3, xzr
	adrp	x10, .Lstatic.1
	add	x10, x10, :lo12:.Lstatic.1
	cbz	x14, .LBB67_271
	ldrb	w13, [x8, x14]
	sub	w13, w13, #58
	cmn	w13, #10
	b.lo	.LBB67_271
	mov	x10, #-7378697629483820647
	mov	x13, xzr
	eor	x10, x10, #0x8000000000000003
.LBB67_214:
	ldrb	w12, [x8, x14]
	sub	w12, w12, #48
	cmp	w12, #9
	b.hi	.LBB67_217
	add	x15, x13, x13, lsl #2
	add	x14, x14, #1
	lsl	x15, x15, #1
	adds	x12, x15, w12, uxtb
	csinv	x12, x12, xzr, lo
	cmp	x13, x10
	csinv	x13, x12, xzr, lo
	cmp	x14, x23
	b.lo	.LBB67_214
	sub	x14, x4, x21
.LBB67_217:
	cmp	x11, x23
	b.hs	.LBB67_300
	add	x10, x8, x9
	mov	x3, xzr
	mov	x23, x14
	ldrb	w10, [x10, #1]
	cmp	w10, #45
	adrp	x10, .Lstatic.1
	add	x10, x10, :lo12:.Lstatic.1
	cset	w12, eq
	b	.LBB67_220
.LBB67_219:
	mov	x3, xzr
	mov	w12, wzr
	mov	x13, xzr
	adrp	x10, .Lstatic.1
	add	x10, x10, :lo12:.Lstatic.1
	mov	x23, x9
.LBB67_220:
	cmn	x9, x3
	b.eq	.LBB67_245
	cmp	w12, #0
	add	x14, x3, x9
	csel	x11, xzr, x13, ne
	csel	x12, x13, xzr, ne
	cmp	x14, #19
	b.hi	.LBB67_254
	lsr	x13, x13, #32
	cbnz	x13, .LBB67_254
	movi	d0, #0000000000000000
	cbz	x19, .LBB67_255
	add	x8, x12, x3
	subs	x20, x8, x11
	b.ls	.LBB67_228
	mov	x8, #9007199254740992
	cmp	x19, x8
	b.hi	.LBB67_231
	cmp	x20, #22
	b.hi	.LBB67_231
	ucvtf	d0, x19
	adrp	x8, .Lstatic.8
	add	x8, x8, :lo12:.Lstatic.8
	ldr	d1, [x8, x20, lsl #3]
	fdiv	d0, d0, d1
	b	.LBB67_255
.LBB67_228:
	mov	x9, #9007199254740992
	sub	x20, x11, x8
	cmp	x19, x9
	b.hi	.LBB67_235
	cmp	x20, #22
	b.hi	.LBB67_235
	ucvtf	d0, x19
	adrp	x8, .Lstatic.8
	add	x8, x8, :lo12:.Lstatic.8
	ldr	d1, [x8, x20, lsl #3]
	fmul	d0, d0, d1
	b	.LBB67_255
.LBB67_231:
	cmp	x20, #342
	b.hi	.LBB67_255
	mov	w8, #342
	clz	x10, x19
	mov	w11, #58980
	sub	x3, x8, x20
	adrp	x8, .Lstatic.3
	add	x8, x8, :lo12:.Lstatic.3
	add	x8, x8, x3, lsl #4
	lsl	x9, x19, x10
	add	x10, x10, #1191
	ldr	x8, [x8, #8]
	umulh	x8, x8, x9
	mov	w9, #21098
	movk	w9, #3, lsl #16
	umaddl	x9, w3, w9, x11
	lsr	x11, x8, #63
	add	x9, x11, x9, lsr #16
	add	x9, x9, #1139
	cmp	x9, x10
	b.lo	.LBB67_325
	mov	x12, #-1024
	lsl	x13, x12, x11
	mov	w12, #512
	lsl	x12, x12, x11
	bic	x13, x8, x13
	sub	x14, x12, x13
	cmp	x14, #2
	b.lo	.LBB67_325
	mov	w14, #10
	sub	w9, w9, w10
	cmp	x12, x13
	orr	x11, x11, x14
	lsr	x8, x8, x11
	add	x8, x8, x9, lsl #52
	cinc	x8, x8, lo
	b	.LBB67_239
.LBB67_235:
	cmp	x20, #308
	b.ls	.LBB67_237
	mov	x8, #9218868437227405312
	b	.LBB67_239
.LBB67_237:
	add	x8, x20, #342
	adrp	x9, .Lstatic.3
	add	x9, x9, :lo12:.Lstatic.3
	add	x10, x9, x8, lsl #4
	clz	x9, x19
	lsl	x11, x19, x9
	ldr	x10, [x10, #8]
	umulh	x10, x10, x11
	mov	x11, #-1024
	lsr	x12, x10, #63
	lsl	x13, x11, x12
	mov	w11, #512
	lsl	x11, x11, x12
	bic	x13, x10, x13
	sub	x14, x11, x13
	cmp	x14, #1
	b.ls	.LBB67_331
	mov	w14, #21098
	mov	w15, #58980
	sub	w9, w12, w9
	movk	w14, #3, lsl #16
	cmp	x11, x13
	madd	w8, w8, w14, w15
	mov	w14, #10
	orr	x12, x12, x14
	add	w8, w9, w8, lsr #16
	lsr	x9, x10, x12
	sub	w8, w8, #52
	add	x8, x9, x8, lsl #52
	mov	x9, #9218868437227405312
	cinc	x8, x8, lo
	cmp	x8, x9
	csel	x8, x8, x9, lo
.LBB67_239:
	fmov	d0, x8
	b	.LBB67_255
.LBB67_240:
	mov	x13, #100
	mov	x14, #9187201950435737471
	mov	x15, #7378697629483820646
	movk	x13, #16960, lsl #32
	mov	x12, #1
	movk	x14, #32638
	orr	x15, x15, #0x7070707070707070
	movk	x13, #15, lsl #48
	movk	x12, #10000, lsl #32
	add	x11, x9, #1
.LBB67_241:
	sub	x16, x23, x11
	cmp	x16, #8
	b.lo	.LBB67_267
	ldr	x16, [x8, x11]
	mov	w6, #2561
	eor	x17, x16, #0x3030303030303030
	and	x18, x17, x14
	add	x18, x18, x15
	orr	x16, x18, x16
	mov	w18, #10
	ands	x16, x16, #0x8080808080808080
	mul	x18, x17, x18
	rbit	x16, x16
	clz	x16, x16
	mvn	w3, w16
	lsr	x16, x16, #3
	and	x3, x3, #0x38
	lsl	x3, x17, x3
	add	x17, x18, x17, lsr #8
	mul	x3, x3, x6
	and	x18, x17, #0xff000000ff
	lsr	x17, x17, #16
	mul	x18, x18, x13
	and	x17, x17, #0xff000000ff
	and	x6, x3, #0xff000000ff
	lsr	x3, x3, #16
	madd	x17, x17, x12, x18
	mov	w18, #8
	mul	x6, x6, x13
	and	x3, x3, #0xff000000ff
	csel	x16, x16, x18, ne
	add	x11, x16, x11
	madd	x18, x3, x12, x6
	adrp	x3, .Lstatic.2
	add	x3, x3, :lo12:.Lstatic.2
	ldr	x3, [x3, x16, lsl #3]
	mul	x3, x3, x19
	csel	x17, x18, x17, ne
	cmp	x16, #8
	add	x19, x3, x17, lsr #32
	b.hs	.LBB67_241
	b	.LBB67_295
.LBB67_243:
	cmp	w22, #45
	mov	x19, x0
	add	x0, sp, #104
	cset	w3, eq
	mov	x20, x2
	sub	x2, x4, x21
	mov	x22, x1
	mov	x1, x8
	mov	x23, x5
	mov	x24, x4
	bl	"core::dec2flt::words::read_word::<#11bd57d74d267e9b>"
	ldrb	w8, [sp, #104]
	mov	x2, x20
	mov	x5, x23
	mov	x0, x19
	cmp	w8, #1
	b.ne	.LBB67_1
	ldr	s0, [sp, #112]
	ldr	x23, [sp, #120]
	mov	x4, x24
	mov	x1, x22
	b	.LBB67_249
.LBB67_245:
	cmp	w22, #45
	mov	x19, x0
	add	x0, sp, #104
	cset	w3, eq
	mov	x20, x2
	sub	x2, x4, x21
	mov	x22, x1
	mov	x1, x8
	mov	x23, x5
	mov	x24, x4
	bl	"core::dec2flt::words::read_word::<#1d521972340cebc2>"
	ldrb	w8, [sp, #104]
	mov	x2, x20
	mov	x5, x23
	mov	x0, x19
	cmp	w8, #1
	b.ne	.LBB67_1
	ldr	d0, [sp, #112]
	ldr	x23, [sp, #120]
	mov	x4, x24
	mov	x1, x22
	b	.LBB67_256
.LBB67_247:
	mov	x19, x0
	mov	x0, x8
	mov	x20, x1
	mov	x1, x9
	mov	x24, x2
	mov	x2, x10
	mov	x25, x4
	mov	x4, x11
	mov	x26, x5
	mov	x5, x12
	bl	"core::dec2flt::long::from_long::<#11bd57d74d267e9b>"
	mov	x3, x0
	mov	x4, x25
	mov	x2, x24
	mov	x5, x26
	mov	x1, x20
	mov	x0, x19
	fmov	s0, w3
.LBB67_248:
	fneg	s1, s0
	cmp	w22, #45
	fcsel	s0, s1, s0, eq
.LBB67_249:
	add	x8, x23, x21
	cmp	x8, x4
	b.ne	.LBB67_1
	fsub	s1, s0, s0
	movi	d2, #0000000000000000
	fcmp	s1, s2
	b.ne	.LBB67_1
	ldp	x11, x8, [x1, #8]
	fmov	w9, s0
	rev	w19, w9
	cmp	x8, x11
	str	w19, [sp, #20]
	b.eq	.LBB67_272
.LBB67_252:
	ldr	x9, [x1]
	add	x10, x11, #1
	mov	w12, #102
	strb	w12, [x9, x11]
	sub	x11, x8, x10
	cmp	x11, #3
	stp	x9, x10, [x1]
	str	x8, [x1, #16]
	b.ls	.LBB67_277
.LBB67_253:
	add	x11, x9, x10
	add	x12, sp, #20
	ldr	w13, [sp, #20]
	sub	x12, x11, x12
	add	x10, x10, #4
	strb	wzr, [sp, #64]
	cmp	x12, #4
	csel	w12, w13, w19, lo
	str	w12, [x11]
	b	.LBB67_261
.LBB67_254:
	mov	x19, x0
	mov	x0, x8
	mov	x20, x1
	mov	x1, x9
	mov	x24, x2
	mov	x2, x10
	mov	x25, x4
	mov	x4, x11
	mov	x26, x5
	mov	x5, x12
	bl	"core::dec2flt::long::from_long::<#1d521972340cebc2>"
	mov	x3, x0
	mov	x4, x25
	mov	x2, x24
	mov	x5, x26
	mov	x1, x20
	mov	x0, x19
	fmov	d0, x3
.LBB67_255:
	fneg	d1, d0
	cmp	w22, #45
	fcsel	d0, d1, d0, eq
.LBB67_256:
	add	x8, x23, x21
	cmp	x8, x4
	b.ne	.LBB67_1
	fsub	d1, d0, d0
	movi	d2, #0000000000000000
	fcmp	d1, d2
	b.ne	.LBB67_1
	ldp	x11, x8, [x1, #8]
	fmov	x9, d0
	rev	x19, x9
	cmp	x8, x11
	str	x19, [sp, #8]
	b.eq	.LBB67_274
.LBB67_259:
	ldr	x9, [x1]
	add	x10, x11, #1
	mov	w12, #100
	strb	w12, [x9, x11]
	sub	x11, x8, x10
	cmp	x11, #7
	stp	x9, x10, [x1]
	str	x8, [x1, #16]
	b.ls	.LBB67_279
.LBB67_260:
	add	x11, x9, x10
	add	x12, sp, #8
	ldr	x13, [sp, #8]
	sub	x12, x11, x12
	strb	wzr, [sp, #64]
	add	x10, x10, #8
	cmp	x12, #8
	csel	x12, x13, x19, lo
	str	x12, [x11]
.LBB67_261:
	stp	x9, x10, [x1]
	str	x8, [x1, #16]
.LBB67_262:
	stp	xzr, xzr, [sp, #72]
	strb	wzr, [sp, #88]
.LBB67_263:
	ldrb	w8, [sp, #64]
	ldrb	w10, [sp, #72]
	ldr	x5, [sp, #80]
	ldrb	w9, [sp, #88]
	b	.LBB67_3
.LBB67_264:
	cmp	x23, #12
	b.lo	.LBB67_283
	cmp	x23, x11
	b.ls	.LBB67_283
	sub	x16, x11, x10
	ldr	x10, [x8, x10]
	mov	w17, #2561
	lsl	x16, x16, #3
	lsr	x10, x10, x16
	eor	x16, x10, #0x3030303030303030
	and	x14, x16, x14
	add	x14, x14, x15
	orr	x10, x14, x10
	mov	w14, #10
	ands	x10, x10, #0x8080808080808080
	mul	x14, x16, x14
	rbit	x10, x10
	clz	x10, x10
	mvn	w15, w10
	lsr	x10, x10, #3
	and	x15, x15, #0x38
	add	x14, x14, x16, lsr #8
	lsl	x15, x16, x15
	and	x16, x14, #0xff000000ff
	lsr	x14, x14, #16
	mul	x15, x15, x17
	and	x14, x14, #0xff000000ff
	mul	x16, x16, x13
	and	x17, x15, #0xff000000ff
	lsr	x15, x15, #16
	madd	x14, x14, x12, x16
	adrp	x16, .Lstatic.2
	add	x16, x16, :lo12:.Lstatic.2
	mul	x13, x17, x13
	mov	w17, #8
	and	x15, x15, #0xff000000ff
	csel	x10, x10, x17, ne
	ldr	x16, [x16, x10, lsl #3]
	add	x11, x10, x11
	madd	x12, x15, x12, x13
	mul	x13, x16, x19
	csel	x12, x12, x14, ne
	add	x19, x13, x12, lsr #32
	b	.LBB67_287
.LBB67_267:
	cmp	x23, #12
	b.lo	.LBB67_291
	cmp	x23, x11
	b.ls	.LBB67_291
	sub	x16, x11, x10
	ldr	x10, [x8, x10]
	mov	w17, #2561
	lsl	x16, x16, #3
	lsr	x10, x10, x16
	eor	x16, x10, #0x3030303030303030
	and	x14, x16, x14
	add	x14, x14, x15
	orr	x10, x14, x10
	mov	w14, #10
	ands	x10, x10, #0x8080808080808080
	mul	x14, x16, x14
	rbit	x10, x10
	clz	x10, x10
	mvn	w15, w10
	lsr	x10, x10, #3
	and	x15, x15, #0x38
	add	x14, x14, x16, lsr #8
	lsl	x15, x16, x15
	and	x16, x14, #0xff000000ff
	lsr	x14, x14, #16
	mul	x15, x15, x17
	and	x14, x14, #0xff000000ff
	mul	x16, x16, x13
	and	x17, x15, #0xff000000ff
	lsr	x15, x15, #16
	madd	x14, x14, x12, x16
	adrp	x16, .Lstatic.2
	add	x16, x16, :lo12:.Lstatic.2
	mul	x13, x17, x13
	mov	w17, #8
	and	x15, x15, #0xff000000ff
	csel	x10, x10, x17, ne
	ldr	x16, [x16, x10, lsl #3]
	add	x11, x10, x11
	madd	x12, x15, x12, x13
	mul	x13, x16, x19
	csel	x12, x12, x14, ne
	add	x19, x13, x12, lsr #32
	b	.LBB67_295
.LBB67_270:
	mov	x23, x9
	mov	x13, x3
	b	.LBB67_186
.LBB67_271:
	mov	x23, x9
	mov	x13, x3
	b	.LBB67_220
.LBB67_272:
	mov	x20, x0
	mov	x21, x1
	mov	x0, x1
	mov	w1, #1
	mov	w22, #1
	bl	"std_alloc::vec::Vec::grow_amortized::<#1283936d4ef01d73>"
	cbz	w0, .LBB67_276
	ldp	x11, x8, [x21, #8]
	mov	x1, x21
	mov	x0, x20
	b	.LBB67_252
.LBB67_274:
	mov	x20, x0
	mov	x21, x1
	mov	x0, x1
	mov	w1, #1
	mov	w22, #1
	bl	"std_alloc::vec::Vec::grow_amortized::<#1283936d4ef01d73>"
	cbz	w0, .LBB67_276
	ldp	x11, x8, [x21, #8]
	mov	x1, x21
	mov	x0, x20
	b	.LBB67_259
.LBB67_276:
	strb	w22, [sp, #64]
	b	.LBB67_282
.LBB67_277:
	mov	x20, x0
	mov	x21, x1
	mov	x0, x1
	mov	w1, #4
	bl	"std_alloc::vec::Vec::grow_amortized::<#1283936d4ef01d73>"
	cbz	w0, .LBB67_281
	ldp	x10, x8, [x21, #8]
	mov	x1, x21
	ldr	x9, [x21]
	mov	x0, x20
	b	.LBB67_253
.LBB67_279:
	mov	x20, x0
	mov	x21, x1
	mov	x0, x1
	mov	w1, #8
	bl	"std_alloc::vec::Vec::grow_amortized::<#1283936d4ef01d73>"
	cbz	w0, .LBB67_281
	ldp	x10, x8, [x21, #8]
	mov	x1, x21
	ldr	x9, [x21]
	mov	x0, x20
	b	.LBB67_260
.LBB67_281:
	mov	w8, #1
	strb	w8, [sp, #64]
.LBB67_282:
	mov	x0, x20
	b	.LBB67_262
.LBB67_283:
	cmp	x23, x11
	b.ls	.LBB67_287
.LBB67_284:
	ldrb	w10, [x8, x11]
	sub	w10, w10, #48
	cmp	w10, #9
	b.hi	.LBB67_287
	mov	w12, #10
	add	x11, x11, #1
	mul	x12, x19, x12
	cmp	x11, x23
	add	x19, x12, w10, uxtb
	b.lo	.LBB67_284
	mvn	x10, x21
	add	x11, x8, x9
	mov	w12, wzr
	add	x14, x10, x4
	mov	x13, xzr
	add	x10, x11, #1
	sub	x3, x14, x9
	b	.LBB67_186
.LBB67_287:
	add	x10, x8, x9
	mvn	x12, x9
	cmp	x11, x23
	add	x10, x10, #1
	add	x3, x12, x11
	b.hs	.LBB67_311
	ldrb	w12, [x8, x11]
	orr	w12, w12, #0x20
	cmp	w12, #101
	b.ne	.LBB67_311
	add	x14, x11, #1
	cmp	x14, x23
	b.hs	.LBB67_301
	ldrb	w12, [x8, x14]
	b	.LBB67_302
.LBB67_291:
	cmp	x23, x11
	b.ls	.LBB67_295
.LBB67_292:
	ldrb	w10, [x8, x11]
	sub	w10, w10, #48
	cmp	w10, #9
	b.hi	.LBB67_295
	mov	w12, #10
	add	x11, x11, #1
	mul	x12, x19, x12
	cmp	x11, x23
	add	x19, x12, w10, uxtb
	b.lo	.LBB67_292
	mvn	x10, x21
	add	x11, x8, x9
	mov	w12, wzr
	add	x14, x10, x4
	mov	x13, xzr
	add	x10, x11, #1
	sub	x3, x14, x9
	b	.LBB67_220
.LBB67_295:
	add	x10, x8, x9
	mvn	x12, x9
	cmp	x11, x23
	add	x10, x10, #1
	add	x3, x12, x11
	b.hs	.LBB67_322
	ldrb	w12, [x8, x11]
	orr	w12, w12, #0x20
	cmp	w12, #101
	b.ne	.LBB67_322
	add	x14, x11, #1
	cmp	x14, x23
	b.hs	.LBB67_312
	ldrb	w12, [x8, x14]
	b	.LBB67_313
.LBB67_299:
	mov	x3, xzr
	mov	w12, wzr
	mov	x23, x14
	adrp	x10, .Lstatic.1
	add	x10, x10, :lo12:.Lstatic.1
	b	.LBB67_186
.LBB67_300:
	mov	x3, xzr
	mov	w12, wzr
	mov	x23, x14
	adrp	x10, .Lstatic.1
	add	x10, x10, :lo12:.Lstatic.1
	b	.LBB67_220
.LBB67_301:
	mov	w12, wzr
.LBB67_302:
	cmp	w12, #43
	mov	w13, #45
	ccmp	w12, w13, #4, ne
	add	x12, x11, #2
	csel	x15, x12, x14, eq
	cmp	x15, x23
	b.hs	.LBB67_311
	mov	x13, xzr
	mov	w12, wzr
	cbz	x15, .LBB67_327
	ldrb	w16, [x8, x15]
	sub	w16, w16, #58
	cmn	w16, #10
	b.lo	.LBB67_327
	mov	x11, #-7378697629483820647
	mov	x13, xzr
	eor	x11, x11, #0x8000000000000003
.LBB67_306:
	ldrb	w12, [x8, x15]
	sub	w12, w12, #48
	cmp	w12, #9
	b.hi	.LBB67_309
	add	x16, x13, x13, lsl #2
	add	x15, x15, #1
	lsl	x16, x16, #1
	adds	x12, x16, w12, uxtb
	csinv	x12, x12, xzr, lo
	cmp	x13, x11
	csinv	x13, x12, xzr, lo
	cmp	x15, x23
	b.lo	.LBB67_306
	sub	x15, x4, x21
.LBB67_309:
	cmp	x14, x23
	b.hs	.LBB67_333
	ldrb	w11, [x8, x14]
	cmp	w11, #45
	cset	w12, eq
	b	.LBB67_334
.LBB67_311:
	mov	w12, wzr
	mov	x13, xzr
	mov	x23, x11
	b	.LBB67_186
.LBB67_312:
	mov	w12, wzr
.LBB67_313:
	cmp	w12, #43
	mov	w13, #45
	ccmp	w12, w13, #4, ne
	add	x12, x11, #2
	csel	x15, x12, x14, eq
	cmp	x15, x23
	b.hs	.LBB67_322
	mov	x13, xzr
	mov	w12, wzr
	cbz	x15, .LBB67_328
	ldrb	w16, [x8, x15]
	sub	w16, w16, #58
	cmn	w16, #10
	b.lo	.LBB67_328
	mov	x11, #-7378697629483820647
	mov	x13, xzr
	eor	x11, x11, #0x8000000000000003
.LBB67_317:
	ldrb	w12, [x8, x15]
	sub	w12, w12, #48
	cmp	w12, #9
	b.hi	.LBB67_320
	add	x16, x13, x13, lsl #2
	add	x15, x15, #1
	lsl	x16, x16, #1
	adds	x12, x16, w12, uxtb
	csinv	x12, x12, xzr, lo
	cmp	x13, x11
	csinv	x13, x12, xzr, lo
	cmp	x15, x23
	b.lo	.LBB67_317
	sub	x15, x4, x21
.LBB67_320:
	cmp	x14, x23
	b.hs	.LBB67_335
	ldrb	w11, [x8, x14]
	cmp	w11, #45
	cset	w12, eq
	b	.LBB67_336
.LBB67_322:
	mov	w12, wzr
	mov	x13, xzr
	mov	x23, x11
	b	.LBB67_220
.LBB67_323:
	mov	x24, x2
	mov	x27, x1
	mov	x28, x0
	add	x0, sp, #128
	mov	x1, x19
	mov	x2, xzr
	mov	x25, x4
	mov	x26, x5
	bl	"core::dec2flt::lemire::eisel_lemire_wide::<#11bd57d74d267e9b>"
	ldrb	w9, [sp, #128]
	ldr	x8, [sp, #136]
	cbnz	w9, .LBB67_337
.LBB67_324:
	mov	x0, x28
	mov	x1, x27
	mov	x5, x26
	mov	x2, x24
	mov	x4, x25
	b	.LBB67_205
.LBB67_325:
	mov	x24, x2
	mov	x27, x1
	mov	x28, x0
	add	x0, sp, #128
	mov	x1, x19
	mov	x2, xzr
	mov	x25, x4
	mov	x26, x5
	bl	"core::dec2flt::lemire::eisel_lemire_wide::<#1d521972340cebc2>"
	ldrb	w9, [sp, #128]
	ldr	x8, [sp, #136]
	cbnz	w9, .LBB67_338
.LBB67_326:
	mov	x0, x28
	mov	x1, x27
	mov	x5, x26
	mov	x2, x24
	mov	x4, x25
	b	.LBB67_239
.LBB67_327:
	mov	x23, x11
	b	.LBB67_186
.LBB67_328:
	mov	x23, x11
	b	.LBB67_220
.LBB67_329:
	mov	x25, x2
	mov	x27, x1
	mov	x28, x0
	add	x0, sp, #128
	add	x3, x20, #342
	mov	x1, x19
	mov	x2, xzr
	mov	x24, x4
	mov	x26, x5
	bl	"core::dec2flt::lemire::eisel_lemire_wide::<#11bd57d74d267e9b>"
	ldrb	w9, [sp, #128]
	ldr	x8, [sp, #136]
	cbnz	w9, .LBB67_339
.LBB67_330:
	mov	x0, x28
	mov	x1, x27
	mov	x5, x26
	mov	x2, x25
	mov	x4, x24
	b	.LBB67_205
.LBB67_331:
	mov	x25, x2
	mov	x27, x1
	mov	x28, x0
	add	x0, sp, #128
	add	x3, x20, #342
	mov	x1, x19
	mov	x2, xzr
	mov	x24, x4
	mov	x26, x5
	bl	"core::dec2flt::lemire::eisel_lemire_wide::<#1d521972340cebc2>"
	ldrb	w9, [sp, #128]
	ldr	x8, [sp, #136]
	cbnz	w9, .LBB67_340
.LBB67_332:
	mov	x0, x28
	mov	x1, x27
	mov	x5, x26
	mov	x2, x25
	mov	x4, x24
	b	.LBB67_239
.LBB67_333:
	mov	w12, wzr
.LBB67_334:
	mov	x23, x15
	b	.LBB67_186
.LBB67_335:
	mov	w12, wzr
.LBB67_336:
	mov	x23, x15
	b	.LBB67_220
.LBB67_337:
	add	x9, sp, #128
	str	x21, [sp]
	ldr	x21, [sp, #144]
	add	x0, x9, #8
	mov	w1, wzr
	mov	w2, #584
	str	x19, [sp, #128]
	mov	x19, x8
	bl	memset
	mov	w8, #1
	add	x0, sp, #128
	mov	w1, wzr
	mov	x2, xzr
	mov	x3, x20
	mov	x4, x19
	mov	x5, x21
	ldr	x21, [sp]
	str	x8, [sp, #720]
	bl	"core::dec2flt::decimal::break_tie::<#11bd57d74d267e9b>"
	mov	x8, x0
	b	.LBB67_324
.LBB67_338:
	add	x9, sp, #128
	str	x21, [sp]
	ldr	x21, [sp, #144]
	add	x0, x9, #8
	mov	w1, wzr
	mov	w2, #584
	str	x19, [sp, #128]
	mov	x19, x8
	bl	memset
	mov	w8, #1
	add	x0, sp, #128
	mov	w1, wzr
	mov	x2, xzr
	mov	x3, x20
	mov	x4, x19
	mov	x5, x21
	ldr	x21, [sp]
	str	x8, [sp, #720]
	bl	"core::dec2flt::decimal::break_tie::<#1d521972340cebc2>"
	mov	x8, x0
	b	.LBB67_326
.LBB67_339:
	add	x9, sp, #128
	str	x21, [sp]
	ldr	x21, [sp, #144]
	add	x0, x9, #8
	mov	w1, wzr
	mov	w2, #584
	str	x19, [sp, #128]
	mov	x19, x8
	bl	memset
	mov	w8, #1
	add	x0, sp, #128
	mov	w1, wzr
	mov	x2, x20
	mov	x3, xzr
	mov	x4, x19
	mov	x5, x21
	ldr	x21, [sp]
	str	x8, [sp, #720]
	bl	"core::dec2flt::decimal::break_tie::<#11bd57d74d267e9b>"
	mov	x8, x0
	b	.LBB67_330
.LBB67_340:
	add	x9, sp, #128
	str	x21, [sp]
	ldr	x21, [sp, #144]
	add	x0, x9, #8
	mov	w1, wzr
	mov	w2, #584
	str	x19, [sp, #128]
	mov	x19, x8
	bl	memset
	mov	w8, #1
	add	x0, sp, #128
	mov	w1, wzr
	mov	x2, x20
	mov	x3, xzr
	mov	x4, x19
	mov	x5, x21
	ldr	x21, [sp]
	str	x8, [sp, #720]
	bl	"core::dec2flt::decimal::break_tie::<#1d521972340cebc2>"
	mov	x8, x0
	b	.LBB67_332
.Lfunc_end67:
	.size	"amqp_json::reading::named::put_number", .Lfunc_end67-"amqp_json::reading::named::put_number"
	.section	".rodata.amqp_json::reading::named::put_number","a",@progbits
.LJTI67_0:
	.byte	(.LBB67_1-.LBB67_1)>>2
	.byte	(.LBB67_21-.LBB67_1)>>2
	.byte	(.LBB67_10-.LBB67_1)>>2
	.byte	(.LBB67_18-.LBB67_1)>>2
	.byte	(.LBB67_4-.LBB67_1)>>2
	.byte	(.LBB67_7-.LBB67_1)>>2
	.byte	(.LBB67_15-.LBB67_1)>>2
	.byte	(.LBB67_27-.LBB67_1)>>2
	.byte	(.LBB67_1-.LBB67_1)>>2
	.byte	(.LBB67_13-.LBB67_1)>>2
	.byte	(.LBB67_30-.LBB67_1)>>2
	.byte	(.LBB67_1-.LBB67_1)>>2
	.byte	(.LBB67_1-.LBB67_1)>>2
	.byte	(.LBB67_1-.LBB67_1)>>2
	.byte	(.LBB67_1-.LBB67_1)>>2
	.byte	(.LBB67_24-.LBB67_1)>>2
	.byte	(.LBB67_1-.LBB67_1)>>2
	.byte	(.LBB67_1-.LBB67_1)>>2

	.section	".text.amqp_json::reading::named::unsigned","ax",@progbits
	.p2align	2
	.type	"amqp_json::reading::named::unsigned",@function
"amqp_json::reading::named::unsigned":
	cbz	x1, .LBB68_3
	cmp	x1, #1
	b.ne	.LBB68_5
	ldrb	w8, [x0]
	sub	w8, w8, #48
	cmp	w8, #10
	b.lo	.LBB68_8
	b	.LBB68_14
.LBB68_3:
	mov	w8, wzr
	mov	x2, x1
.LBB68_4:
	mov	w0, w8
	mov	x1, x2
	ret
.LBB68_5:
	ldrb	w8, [x0]
	cmp	w8, #45
	b.ne	.LBB68_7
	ldrb	w8, [x0, #1]
	sub	w8, w8, #49
	cmp	w8, #9
	b.lo	.LBB68_8
	b	.LBB68_14
.LBB68_7:
	sub	w8, w8, #49
	cmp	w8, #8
	b.hi	.LBB68_14
.LBB68_8:
	mov	x9, xzr
.LBB68_9:
	mov	x8, #-7378697629483820647
	mov	x2, xzr
	movk	x8, #6553, lsl #48
	cmp	x9, x8
	mov	w8, wzr
	b.hi	.LBB68_4
	ldrb	w10, [x0], #1
	sub	w11, w10, #48
	cmp	w11, #9
	b.hi	.LBB68_4
	add	x8, x9, x9, lsl #2
	and	x9, x10, #0xf
	lsl	x8, x8, #1
	cmn	x9, x8
	b.hs	.LBB68_14
	subs	x1, x1, #1
	add	x9, x8, x9
	b.ne	.LBB68_9
	mov	w8, #1
	mov	x2, x9
	mov	w0, w8
	mov	x1, x2
	ret
.LBB68_14:
	mov	w8, wzr
	mov	x2, xzr
	mov	w0, w8
	mov	x1, x2
	ret
.Lfunc_end68:
	.size	"amqp_json::reading::named::unsigned", .Lfunc_end68-"amqp_json::reading::named::unsigned"

	.section	".text.unlikely.core::dec2flt::long::from_long::<#11bd57d74d267e9b>","ax",@progbits
	.p2align	2
	.type	"core::dec2flt::long::from_long::<#11bd57d74d267e9b>",@function
"core::dec2flt::long::from_long::<#11bd57d74d267e9b>":
	stp	x29, x30, [sp, #-96]!
	stp	x28, x27, [sp, #16]
	mov	x29, sp
	stp	x26, x25, [sp, #32]
	stp	x24, x23, [sp, #48]
	stp	x22, x21, [sp, #64]
	stp	x20, x19, [sp, #80]
	sub	sp, sp, #1232
	mov	x10, xzr
	adds	x23, x3, x1
	str	xzr, [sp]
	b.eq	.LBB69_4
	sub	x8, x2, x1
.LBB69_2:
	add	x9, x0, x10
	add	x11, x8, x10
	cmp	x10, x1
	csel	x9, x9, x11, lo
	ldrb	w9, [x9]
	cmp	w9, #48
	b.ne	.LBB69_4
	add	x10, x10, #1
	cmp	x23, x10
	b.ne	.LBB69_2
	b	.LBB69_6
.LBB69_4:
	subs	x11, x23, x10
	b.eq	.LBB69_6
	adds	x22, x5, x3
	mov	w8, #19
	cset	w21, hs
	cmp	x11, #19
	csel	x12, x11, x8, lo
	sub	x8, x11, x12
	adds	x8, x4, x8
	cset	w9, hs
	adds	x8, x8, #342
	cinc	x9, x9, hs
	cmp	x8, x22
	sbcs	xzr, x9, x21
	b.hs	.LBB69_8
.LBB69_6:
	mov	x0, xzr
.LBB69_7:
	add	sp, sp, #1232
	ldp	x20, x19, [sp, #80]
	ldp	x22, x21, [sp, #64]
	ldp	x24, x23, [sp, #48]
	ldp	x26, x25, [sp, #32]
	ldp	x28, x27, [sp, #16]
	ldp	x29, x30, [sp], #96
	ret
.LBB69_8:
	subs	x8, x8, x22
	mov	w13, #650
	sbc	x9, x9, x21
	cmp	x13, x8
	ngcs	xzr, x9
	b.hs	.LBB69_10
	mov	w0, #2139095040
	b	.LBB69_7
.LBB69_10:
	sub	x13, x10, x1
	mov	x9, xzr
	add	x14, x0, x10
	add	x13, x2, x13
.LBB69_11:
	mov	w15, #10
	cmp	x10, x1
	add	x10, x10, #1
	mul	x9, x9, x15
	csel	x15, x14, x13, lo
	subs	x12, x12, #1
	ldrb	w15, [x15]
	add	x13, x13, #1
	add	x14, x14, #1
	sub	w15, w15, #48
	add	x9, x9, w15, uxtb
	b.ne	.LBB69_11
	adrp	x10, .Lstatic.3
	add	x10, x10, :lo12:.Lstatic.3
	clz	x13, x9
	add	x10, x10, x8, lsl #4
	lsl	x12, x9, x13
	mov	w14, #58980
	cmp	x11, #19
	add	x15, x13, #1162
	ldr	x10, [x10, #8]
	umulh	x12, x10, x12
	mov	w10, #21098
	movk	w10, #3, lsl #16
	madd	x10, x8, x10, x14
	lsr	x14, x12, #63
	add	x10, x14, x10, lsr #16
	add	x11, x10, #214
	cset	w10, hi
	subs	x11, x11, x15
	b.lo	.LBB69_15
	mov	x15, #-549755813888
	mov	x16, #274877906944
	lsl	x17, x10, x13
	lsl	x15, x15, x14
	lsl	x13, x16, x14
	add	x16, x17, #2
	bic	x15, x12, x15
	sub	x17, x13, x15
	cmp	x17, x16
	b.lo	.LBB69_15
	add	x8, x14, #39
	cmp	x13, x15
	mov	w9, #2139095040
	lsr	x8, x12, x8
	add	x8, x8, x11, lsl #23
	cinc	x8, x8, lo
	cmp	x8, x9
	csel	x0, x8, x9, lo
	b	.LBB69_7
.LBB69_15:
	mov	x28, x3
	mov	x25, x2
	mov	x26, x0
	mov	x27, x1
	mov	x0, sp
	mov	x1, x9
	mov	x2, x10
	mov	x3, x8
	mov	x24, x4
	bl	"core::dec2flt::lemire::eisel_lemire_wide::<#11bd57d74d267e9b>"
	ldrb	w8, [sp]
	ldr	x0, [sp, #8]
	cbz	w8, .LBB69_7
	ldr	x19, [sp, #16]
	mov	w8, #150
	subs	x8, x8, x19
	csel	x20, xzr, x8, lo
	adds	x9, x20, x24
	cset	w8, hs
	cmp	x9, x22
	sbcs	xzr, x8, x21
	b.hs	.LBB69_23
	subs	x9, x22, x9
	sbc	x8, x21, x8
	subs	x10, x23, x9
	ngcs	xzr, x8
	csel	x24, xzr, x10, lo
	cmp	x23, x24
	b.ls	.LBB69_25
	cmp	x9, x23
	mov	x13, x27
	mov	x14, x26
	sbcs	xzr, x8, xzr
	csel	x10, x9, x23, lo
	sub	x11, x28, x10
	add	x12, x25, x11
	mov	x11, x24
.LBB69_19:
	add	x15, x14, x11
	cmp	x11, x13
	csel	x15, x15, x12, lo
	ldrb	w15, [x15]
	cmp	w15, #48
	b.ne	.LBB69_22
	subs	x10, x10, #1
	add	x11, x11, #1
	add	x12, x12, #1
	b.ne	.LBB69_19
	mov	x11, x23
.LBB69_22:
	cmp	x11, x23
	mov	x21, x0
	cset	w22, lo
	b	.LBB69_26
.LBB69_23:
	mov	x20, x0
	add	x0, sp, #24
	mov	w1, wzr
	mov	w2, #600
	bl	memset
	mov	x8, x24
	cbnz	x23, .LBB69_38
.LBB69_24:
	subs	x9, x8, x22
	add	x0, sp, #24
	mov	w1, wzr
	ngcs	xzr, x21
	mov	x4, x20
	csel	x2, xzr, x9, lo
	subs	x8, x22, x8
	sbcs	xzr, x21, xzr
	csel	x3, xzr, x8, lo
	b	.LBB69_37
.LBB69_25:
	mov	x21, x0
	mov	w22, wzr
.LBB69_26:
	cmp	x9, x23
	add	x0, sp, #624
	mov	w1, wzr
	sbcs	xzr, x8, xzr
	mov	w2, #600
	cset	w23, hs
	bl	memset
	tbnz	w23, #0, .LBB69_36
	mov	x8, xzr
	sub	x9, x25, x27
	b	.LBB69_29
.LBB69_28:
	add	x8, x10, x8
	cmp	x8, x24
	b.hs	.LBB69_36
.LBB69_29:
	sub	x10, x24, x8
	mov	w12, #19
	mov	x11, xzr
	cmp	x10, #19
	add	x13, x9, x8
	add	x14, x26, x8
	csel	x10, x10, x12, lo
	adrp	x12, .Lstatic.2
	add	x12, x12, :lo12:.Lstatic.2
	ldr	x12, [x12, x10, lsl #3]
	mov	x15, x8
	mov	x16, x10
.LBB69_30:
	mov	w17, #10
	cmp	x15, x27
	add	x15, x15, #1
	mul	x11, x11, x17
	csel	x17, x14, x13, lo
	subs	x16, x16, #1
	ldrb	w17, [x17]
	add	x13, x13, #1
	add	x14, x14, #1
	sub	w17, w17, #48
	add	x11, x11, w17, uxtb
	b.ne	.LBB69_30
	ldr	x13, [sp, #1216]
	cbz	x13, .LBB69_34
	add	x14, sp, #624
	mov	x15, x13
.LBB69_33:
	ldr	x16, [x14]
	mul	x17, x16, x12
	umulh	x16, x16, x12
	adds	x17, x17, x11
	str	x17, [x14], #8
	cinc	x11, x16, hs
	subs	x15, x15, #1
	b.ne	.LBB69_33
.LBB69_34:
	cbz	x11, .LBB69_28
	add	x12, sp, #624
	add	x14, x13, #1
	str	x11, [x12, x13, lsl #3]
	str	x14, [sp, #1216]
	b	.LBB69_28
.LBB69_36:
	add	x0, sp, #624
	mov	w1, w22
	mov	x2, xzr
	mov	x3, x20
	mov	x4, x21
.LBB69_37:
	mov	x5, x19
	bl	"core::dec2flt::decimal::break_tie::<#11bd57d74d267e9b>"
	b	.LBB69_7
.LBB69_38:
	mov	x9, xzr
	sub	x10, x25, x27
	b	.LBB69_40
.LBB69_39:
	add	x9, x11, x9
	cmp	x9, x23
	b.hs	.LBB69_24
.LBB69_40:
	sub	x11, x23, x9
	mov	w13, #19
	mov	x12, xzr
	cmp	x11, #19
	add	x14, x10, x9
	add	x15, x26, x9
	csel	x11, x11, x13, lo
	adrp	x13, .Lstatic.2
	add	x13, x13, :lo12:.Lstatic.2
	ldr	x13, [x13, x11, lsl #3]
	mov	x16, x9
	mov	x17, x11
.LBB69_41:
	mov	w18, #10
	cmp	x16, x27
	add	x16, x16, #1
	mul	x12, x12, x18
	csel	x18, x15, x14, lo
	subs	x17, x17, #1
	ldrb	w18, [x18]
	add	x14, x14, #1
	add	x15, x15, #1
	sub	w18, w18, #48
	add	x12, x12, w18, uxtb
	b.ne	.LBB69_41
	ldr	x14, [sp, #616]
	cbz	x14, .LBB69_45
	add	x15, sp, #24
	mov	x16, x14
.LBB69_44:
	ldr	x17, [x15]
	mul	x18, x17, x13
	umulh	x17, x17, x13
	adds	x18, x18, x12
	str	x18, [x15], #8
	cinc	x12, x17, hs
	subs	x16, x16, #1
	b.ne	.LBB69_44
.LBB69_45:
	cbz	x12, .LBB69_39
	add	x13, sp, #24
	add	x15, x14, #1
	str	x12, [x13, x14, lsl #3]
	str	x15, [sp, #616]
	b	.LBB69_39
.Lfunc_end69:
	.size	"core::dec2flt::long::from_long::<#11bd57d74d267e9b>", .Lfunc_end69-"core::dec2flt::long::from_long::<#11bd57d74d267e9b>"

	.section	".text.unlikely.core::dec2flt::lemire::eisel_lemire_wide::<#11bd57d74d267e9b>","ax",@progbits
	.p2align	2
	.type	"core::dec2flt::lemire::eisel_lemire_wide::<#11bd57d74d267e9b>",@function
"core::dec2flt::lemire::eisel_lemire_wide::<#11bd57d74d267e9b>":
	adrp	x9, .Lstatic.3
	add	x9, x9, :lo12:.Lstatic.3
	mov	w15, #58980
	add	x11, x9, x3, lsl #4
	clz	x9, x1
	mov	x10, xzr
	lsl	x12, x1, x9
	add	x16, x9, #1162
	mov	x8, xzr
	ldp	x11, x13, [x11]
	mul	x14, x13, x12
	umulh	x11, x11, x12
	umulh	x12, x13, x12
	mov	w13, #21098
	movk	w13, #3, lsl #16
	madd	x13, x3, x13, x15
	adds	x14, x11, x14
	cinc	x15, x12, hs
	lsr	x11, x15, #63
	add	x12, x11, x13, lsr #16
	add	x13, x12, #214
	subs	x12, x16, x13
	csel	x12, xzr, x12, lo
	add	x11, x11, x12
	add	x12, x11, #101
	subs	x11, x13, x16
	mov	x13, xzr
	csel	x11, xzr, x11, lo
	cmp	x12, #127
	b.hi	.LBB70_3
	lsr	x16, x15, #2
	extr	x10, x15, x14, #2
	mvn	w13, w12
	mov	x14, #-1
	mov	x15, #9223372036854775807
	tst	x12, #0x40
	lsl	x8, x16, #1
	lsr	x17, x10, x12
	lsl	x14, x14, x12
	lsl	x8, x8, x13
	lsr	x13, x15, x13
	lsr	x15, x16, x12
	sub	x12, x12, #1
	orr	x8, x8, x17
	mov	w17, #1
	orr	x13, x14, x13
	csel	x8, x15, x8, ne
	lsl	x15, x17, x12
	csel	x17, x14, x13, ne
	csel	x13, xzr, x14, ne
	tst	x12, #0x40
	bic	x12, x16, x17
	bic	x10, x10, x13
	csel	x13, xzr, x15, ne
	csel	x14, x15, xzr, ne
	cmp	x13, x10
	sbcs	xzr, x14, x12
	b.hs	.LBB70_4
	add	x8, x8, x11, lsl #23
	mov	w11, #2139095040
	mov	x10, xzr
	mov	x13, xzr
	add	x9, x8, #1
	cmp	x9, x11
	csinc	x8, x11, x8, hs
.LBB70_3:
	stp	x10, x8, [x0]
	str	x13, [x0, #16]
	ret
.LBB70_4:
	lsl	x9, x2, x9
	mov	w15, #2
	subs	x10, x13, x10
	sbc	x12, x14, x12
	orr	x15, x15, x9, lsl #62
	lsr	x9, x9, #2
	cmp	x10, x15
	sbcs	xzr, x12, x9
	b.hs	.LBB70_6
	mov	w10, #1
	stp	x10, x8, [x0]
	str	x11, [x0, #16]
	ret
.LBB70_6:
	add	x8, x8, x11, lsl #23
	mov	w9, #2139095040
	cmp	x8, x9
	csel	x8, x8, x9, lo
	stp	xzr, x8, [x0]
	str	xzr, [x0, #16]
	ret
.Lfunc_end70:
	.size	"core::dec2flt::lemire::eisel_lemire_wide::<#11bd57d74d267e9b>", .Lfunc_end70-"core::dec2flt::lemire::eisel_lemire_wide::<#11bd57d74d267e9b>"

	.section	".text.unlikely.core::dec2flt::decimal::break_tie::<#11bd57d74d267e9b>","ax",@progbits
	.p2align	2
	.type	"core::dec2flt::decimal::break_tie::<#11bd57d74d267e9b>",@function
"core::dec2flt::decimal::break_tie::<#11bd57d74d267e9b>":
	stp	x29, x30, [sp, #-80]!
	str	x28, [sp, #16]
	mov	x29, sp
	stp	x24, x23, [sp, #32]
	stp	x22, x21, [sp, #48]
	stp	x20, x19, [sp, #64]
	sub	sp, sp, #1200
	mov	x23, x2
	mov	w21, w1
	mov	x1, x0
	add	x0, sp, #600
	mov	w2, #600
	str	xzr, [sp]
	mov	x19, x5
	mov	x20, x4
	mov	x22, x3
	bl	memcpy
	subs	x8, x23, #20
	b.lo	.LBB71_9
	ldr	x9, [sp, #1192]
	cbz	x9, .LBB71_27
	mov	x8, #2313682944
	movk	x8, #8964, lsl #32
	movk	x8, #35527, lsl #48
	cbnz	x9, .LBB71_4
	b	.LBB71_8
.LBB71_3:
	ldr	x9, [sp, #1192]
	cbz	x9, .LBB71_8
.LBB71_4:
	mov	x10, xzr
	add	x11, sp, #600
	mov	x12, x9
.LBB71_5:
	ldr	x13, [x11]
	mul	x14, x13, x8
	umulh	x13, x13, x8
	adds	x14, x14, x10
	str	x14, [x11], #8
	cinc	x10, x13, hs
	subs	x12, x12, #1
	b.ne	.LBB71_5
	cbz	x10, .LBB71_8
	add	x11, sp, #600
	add	x12, x9, #1
	str	x10, [x11, x9, lsl #3]
	str	x12, [sp, #1192]
.LBB71_8:
	sub	x23, x23, #19
	cmp	x23, #19
	b.hi	.LBB71_3
.LBB71_9:
	ldr	x9, [sp, #1192]
	adrp	x24, .Lstatic.2
	add	x24, x24, :lo12:.Lstatic.2
	cbz	x9, .LBB71_28
.LBB71_10:
	ldr	x8, [x24, x23, lsl #3]
	mov	x10, xzr
	add	x11, sp, #600
	mov	x12, x9
.LBB71_11:
	ldr	x13, [x11]
	mul	x14, x13, x8
	umulh	x13, x13, x8
	adds	x14, x14, x10
	str	x14, [x11], #8
	cinc	x10, x13, hs
	subs	x12, x12, #1
	b.ne	.LBB71_11
	cbz	x10, .LBB71_14
	add	x11, sp, #600
	add	x8, x9, #1
	str	x10, [x11, x9, lsl #3]
	str	x8, [sp, #1192]
	mov	w9, #150
	subs	x9, x9, x19
	csel	x9, xzr, x9, lo
	cmp	x9, #64
	b.hs	.LBB71_15
	b	.LBB71_22
.LBB71_14:
	ldr	x8, [sp, #1192]
	mov	w9, #150
	subs	x9, x9, x19
	csel	x9, xzr, x9, lo
	cmp	x9, #64
	b.lo	.LBB71_22
.LBB71_15:
	cbnz	x8, .LBB71_17
	b	.LBB71_28
.LBB71_16:
	sub	x9, x9, #63
	ldr	x8, [sp, #1192]
	cmp	x9, #63
	b.ls	.LBB71_22
.LBB71_17:
	cbz	x8, .LBB71_16
	mov	x10, xzr
	add	x11, sp, #600
	mov	x12, x8
.LBB71_19:
	ldr	x13, [x11]
	subs	x12, x12, #1
	orr	x14, x10, x13, lsl #63
	lsr	x10, x13, #1
	str	x14, [x11], #8
	b.ne	.LBB71_19
	cbz	x10, .LBB71_16
	add	x11, sp, #600
	add	x12, x8, #1
	str	x10, [x11, x8, lsl #3]
	str	x12, [sp, #1192]
	b	.LBB71_16
.LBB71_22:
	cbz	x8, .LBB71_28
	mov	x10, xzr
	add	x11, sp, #600
	mov	x12, x8
.LBB71_24:
	ldr	x13, [x11]
	mvn	w15, w9
	tst	x9, #0x40
	lsr	x14, x13, #1
	lsl	x13, x13, x9
	lsr	x14, x14, x15
	csel	x15, xzr, x13, ne
	csel	x13, x13, x14, ne
	adds	x14, x15, x10
	cinc	x10, x13, hs
	subs	x12, x12, #1
	str	x14, [x11], #8
	b.ne	.LBB71_24
	cbz	x10, .LBB71_28
	add	x9, sp, #600
	add	x11, x8, #1
	str	x10, [x9, x8, lsl #3]
	str	x11, [sp, #1192]
	b	.LBB71_28
.LBB71_27:
	mov	x9, #17247
	mov	w10, #19
	movk	x9, #3449, lsl #16
	movk	x9, #13797, lsl #32
	movk	x9, #55188, lsl #48
	umulh	x9, x8, x9
	lsr	x9, x9, #4
	msub	x8, x9, x10, x8
	add	x23, x8, #1
	ldr	x9, [sp, #1192]
	adrp	x24, .Lstatic.2
	add	x24, x24, :lo12:.Lstatic.2
	cbnz	x9, .LBB71_10
.LBB71_28:
	mov	w23, #1
	mov	w1, wzr
	mov	w2, #584
	orr	x8, x23, x20, lsl #1
	str	x8, [sp]
	mov	x8, sp
	add	x0, x8, #8
	bl	memset
	cmp	x22, #20
	str	x23, [sp, #592]
	b.lo	.LBB71_37
	mov	x8, #2313682944
	mov	w23, #1
	movk	x8, #8964, lsl #32
	movk	x8, #35527, lsl #48
	b	.LBB71_31
.LBB71_30:
	sub	x22, x22, #19
	ldr	x23, [sp, #592]
	cmp	x22, #19
	b.ls	.LBB71_36
.LBB71_31:
	cbz	x23, .LBB71_30
	mov	x9, xzr
	mov	x10, sp
	mov	x11, x23
.LBB71_33:
	ldr	x12, [x10]
	mul	x13, x12, x8
	umulh	x12, x12, x8
	adds	x13, x13, x9
	str	x13, [x10], #8
	cinc	x9, x12, hs
	subs	x11, x11, #1
	b.ne	.LBB71_33
	cbz	x9, .LBB71_30
	mov	x10, sp
	add	x11, x23, #1
	str	x9, [x10, x23, lsl #3]
	str	x11, [sp, #592]
	b	.LBB71_30
.LBB71_36:
	cbz	x23, .LBB71_54
.LBB71_37:
	ldr	x8, [x24, x22, lsl #3]
	mov	x9, xzr
	mov	x10, sp
	mov	x11, x23
.LBB71_38:
	ldr	x12, [x10]
	mul	x13, x12, x8
	umulh	x12, x12, x8
	adds	x13, x13, x9
	str	x13, [x10], #8
	cinc	x9, x12, hs
	subs	x11, x11, #1
	b.ne	.LBB71_38
	cbz	x9, .LBB71_41
	mov	x10, sp
	add	x8, x23, #1
	str	x9, [x10, x23, lsl #3]
	str	x8, [sp, #592]
	subs	x9, x19, #150
	csel	x9, xzr, x9, lo
	cmp	x9, #64
	b.hs	.LBB71_42
	b	.LBB71_49
.LBB71_41:
	ldr	x8, [sp, #592]
	subs	x9, x19, #150
	csel	x9, xzr, x9, lo
	cmp	x9, #64
	b.lo	.LBB71_49
.LBB71_42:
	cbnz	x8, .LBB71_44
	b	.LBB71_54
.LBB71_43:
	sub	x9, x9, #63
	ldr	x8, [sp, #592]
	cmp	x9, #63
	b.ls	.LBB71_49
.LBB71_44:
	cbz	x8, .LBB71_43
	mov	x10, xzr
	mov	x11, sp
	mov	x12, x8
.LBB71_46:
	ldr	x13, [x11]
	subs	x12, x12, #1
	orr	x14, x10, x13, lsl #63
	lsr	x10, x13, #1
	str	x14, [x11], #8
	b.ne	.LBB71_46
	cbz	x10, .LBB71_43
	mov	x11, sp
	add	x12, x8, #1
	str	x10, [x11, x8, lsl #3]
	str	x12, [sp, #592]
	b	.LBB71_43
.LBB71_49:
	cbz	x8, .LBB71_54
	mov	x10, xzr
	mov	x11, sp
	mov	x12, x8
.LBB71_51:
	ldr	x13, [x11]
	mvn	w15, w9
	tst	x9, #0x40
	lsr	x14, x13, #1
	lsl	x13, x13, x9
	lsr	x14, x14, x15
	csel	x15, xzr, x13, ne
	csel	x13, x13, x14, ne
	adds	x14, x15, x10
	cinc	x10, x13, hs
	subs	x12, x12, #1
	str	x14, [x11], #8
	b.ne	.LBB71_51
	cbz	x10, .LBB71_55
	mov	x11, sp
	add	x9, x8, #1
	str	x10, [x11, x8, lsl #3]
	str	x9, [sp, #592]
	b	.LBB71_56
.LBB71_54:
	mov	x9, xzr
	b	.LBB71_56
.LBB71_55:
	ldr	x9, [sp, #592]
.LBB71_56:
	ldr	x8, [sp, #1192]
	mov	x10, sp
	add	x11, sp, #600
	cmp	x9, x8
	csel	x8, x9, x8, hi
	sub	x9, x10, #8
	sub	x10, x11, #8
.LBB71_57:
	cbz	x8, .LBB71_60
	ldr	x11, [x10, x8, lsl #3]
	ldr	x12, [x9, x8, lsl #3]
	cmp	x11, x12
	b.lo	.LBB71_62
	cmp	x12, x11
	sub	x8, x8, #1
	b.hs	.LBB71_57
	b	.LBB71_61
.LBB71_60:
	cbz	w21, .LBB71_63
.LBB71_61:
	add	x8, x20, x19, lsl #23
	mov	w10, #2139095040
	add	x9, x8, #1
	cmp	x9, x10
	csinc	x0, x10, x8, hs
	b	.LBB71_65
.LBB71_62:
	add	x8, x20, x19, lsl #23
	b	.LBB71_64
.LBB71_63:
	and	x8, x20, #0x1
	add	x8, x8, x20
	add	x8, x8, x19, lsl #23
.LBB71_64:
	mov	w9, #2139095040
	cmp	x8, x9
	csel	x0, x8, x9, lo
.LBB71_65:
	add	sp, sp, #1200
	ldp	x20, x19, [sp, #64]
	ldr	x28, [sp, #16]
	ldp	x22, x21, [sp, #48]
	ldp	x24, x23, [sp, #32]
	ldp	x29, x30, [sp], #80
	ret
.Lfunc_end71:
	.size	"core::dec2flt::decimal::break_tie::<#11bd57d74d267e9b>", .Lfunc_end71-"core::dec2flt::decimal::break_tie::<#11bd57d74d267e9b>"

	.section	".text.unlikely.core::dec2flt::words::read_word::<#11bd57d74d267e9b>","ax",@progbits
	.p2align	2
	.type	"core::dec2flt::words::read_word::<#11bd57d74d267e9b>",@function
"core::dec2flt::words::read_word::<#11bd57d74d267e9b>":
	mov	w8, #2139095040
	mov	w9, #-8388608
	cmp	w3, #0
	fmov	s0, w8
	fmov	s1, w9
	fcsel	s0, s1, s0, ne
	cmp	x2, #8
	b.hs	.LBB72_3
	cmp	x2, #3
	b.hs	.LBB72_12
	movi	d1, #0000000000000000
	str	xzr, [x0]
	str	s1, [x0, #8]
	str	wzr, [x0, #12]
	str	xzr, [x0, #16]
	ret
.LBB72_3:
	ldrb	w8, [x1]
	sub	w9, w8, #65
	add	w10, w8, #32
	cmp	w9, #26
	csel	w8, w10, w8, lo
	cmp	w8, #105
	b.ne	.LBB72_12
	ldrb	w8, [x1, #1]
	sub	w9, w8, #65
	add	w10, w8, #32
	cmp	w9, #26
	csel	w8, w10, w8, lo
	cmp	w8, #110
	b.ne	.LBB72_12
	ldrb	w8, [x1, #2]
	sub	w9, w8, #65
	add	w10, w8, #32
	cmp	w9, #26
	csel	w8, w10, w8, lo
	cmp	w8, #102
	b.ne	.LBB72_12
	ldrb	w8, [x1, #3]
	sub	w9, w8, #65
	add	w10, w8, #32
	cmp	w9, #26
	csel	w8, w10, w8, lo
	cmp	w8, #105
	b.ne	.LBB72_12
	ldrb	w8, [x1, #4]
	sub	w9, w8, #65
	add	w10, w8, #32
	cmp	w9, #26
	csel	w8, w10, w8, lo
	cmp	w8, #110
	b.ne	.LBB72_12
	ldrb	w8, [x1, #5]
	sub	w9, w8, #65
	add	w10, w8, #32
	cmp	w9, #26
	csel	w8, w10, w8, lo
	cmp	w8, #105
	b.ne	.LBB72_12
	ldrb	w8, [x1, #6]
	sub	w9, w8, #65
	add	w10, w8, #32
	cmp	w9, #26
	csel	w8, w10, w8, lo
	cmp	w8, #116
	b.ne	.LBB72_12
	ldrb	w8, [x1, #7]
	sub	w9, w8, #65
	add	w10, w8, #32
	cmp	w9, #26
	csel	w8, w10, w8, lo
	cmp	w8, #121
	b.ne	.LBB72_12
	mov	w9, #1
	mov	w8, #8
	fmov	s1, s0
	str	x9, [x0]
	str	s1, [x0, #8]
	str	wzr, [x0, #12]
	str	x8, [x0, #16]
	ret
.LBB72_12:
	ldrb	w8, [x1]
	movi	d1, #0000000000000000
	sub	w9, w8, #65
	add	w10, w8, #32
	cmp	w9, #26
	csel	w8, w10, w8, lo
	cmp	w8, #110
	b.eq	.LBB72_17
	cmp	w8, #105
	b.ne	.LBB72_20
	ldrb	w8, [x1, #1]
	sub	w9, w8, #65
	add	w10, w8, #32
	cmp	w9, #26
	csel	w8, w10, w8, lo
	cmp	w8, #110
	b.ne	.LBB72_20
	ldrb	w8, [x1, #2]
	sub	w9, w8, #65
	add	w10, w8, #32
	cmp	w9, #26
	csel	w8, w10, w8, lo
	cmp	w8, #102
	b.ne	.LBB72_20
	mov	w9, #1
	mov	w8, #3
	fmov	s1, s0
	str	x9, [x0]
	str	s1, [x0, #8]
	str	wzr, [x0, #12]
	str	x8, [x0, #16]
	ret
.LBB72_17:
	ldrb	w8, [x1, #1]
	sub	w9, w8, #65
	add	w10, w8, #32
	cmp	w9, #26
	csel	w8, w10, w8, lo
	cmp	w8, #97
	b.ne	.LBB72_20
	ldrb	w8, [x1, #2]
	sub	w9, w8, #65
	add	w10, w8, #32
	cmp	w9, #26
	csel	w8, w10, w8, lo
	cmp	w8, #110
	b.ne	.LBB72_20
	mov	w8, #2143289344
	mov	w9, #-4194304
	cmp	w3, #0
	fmov	s0, w8
	fmov	s1, w9
	mov	w9, #1
	mov	w8, #3
	fcsel	s1, s1, s0, ne
	str	x9, [x0]
	str	s1, [x0, #8]
	str	wzr, [x0, #12]
	str	x8, [x0, #16]
	ret
.LBB72_20:
	str	xzr, [x0]
	str	s1, [x0, #8]
	str	wzr, [x0, #12]
	str	xzr, [x0, #16]
	ret
.Lfunc_end72:
	.size	"core::dec2flt::words::read_word::<#11bd57d74d267e9b>", .Lfunc_end72-"core::dec2flt::words::read_word::<#11bd57d74d267e9b>"

	.section	".text.unlikely.core::dec2flt::long::from_long::<#1d521972340cebc2>","ax",@progbits
	.p2align	2
	.type	"core::dec2flt::long::from_long::<#1d521972340cebc2>",@function
"core::dec2flt::long::from_long::<#1d521972340cebc2>":
	stp	x29, x30, [sp, #-96]!
	stp	x28, x27, [sp, #16]
	mov	x29, sp
	stp	x26, x25, [sp, #32]
	stp	x24, x23, [sp, #48]
	stp	x22, x21, [sp, #64]
	stp	x20, x19, [sp, #80]
	sub	sp, sp, #1232
	mov	x10, xzr
	adds	x23, x3, x1
	str	xzr, [sp]
	b.eq	.LBB73_4
	sub	x8, x2, x1
.LBB73_2:
	add	x9, x0, x10
	add	x11, x8, x10
	cmp	x10, x1
	csel	x9, x9, x11, lo
	ldrb	w9, [x9]
	cmp	w9, #48
	b.ne	.LBB73_4
	add	x10, x10, #1
	cmp	x23, x10
	b.ne	.LBB73_2
	b	.LBB73_6
.LBB73_4:
	subs	x11, x23, x10
	b.eq	.LBB73_6
	adds	x22, x5, x3
	mov	w8, #19
	cset	w21, hs
	cmp	x11, #19
	csel	x12, x11, x8, lo
	sub	x8, x11, x12
	adds	x8, x4, x8
	cset	w9, hs
	adds	x8, x8, #342
	cinc	x9, x9, hs
	cmp	x8, x22
	sbcs	xzr, x9, x21
	b.hs	.LBB73_8
.LBB73_6:
	mov	x0, xzr
.LBB73_7:
	add	sp, sp, #1232
	ldp	x20, x19, [sp, #80]
	ldp	x22, x21, [sp, #64]
	ldp	x24, x23, [sp, #48]
	ldp	x26, x25, [sp, #32]
	ldp	x28, x27, [sp, #16]
	ldp	x29, x30, [sp], #96
	ret
.LBB73_8:
	subs	x8, x8, x22
	mov	w13, #650
	sbc	x9, x9, x21
	cmp	x13, x8
	ngcs	xzr, x9
	b.hs	.LBB73_10
	mov	x0, #9218868437227405312
	b	.LBB73_7
.LBB73_10:
	sub	x13, x10, x1
	mov	x9, xzr
	add	x14, x0, x10
	add	x13, x2, x13
.LBB73_11:
	mov	w15, #10
	cmp	x10, x1
	add	x10, x10, #1
	mul	x9, x9, x15
	csel	x15, x14, x13, lo
	subs	x12, x12, #1
	ldrb	w15, [x15]
	add	x13, x13, #1
	add	x14, x14, #1
	sub	w15, w15, #48
	add	x9, x9, w15, uxtb
	b.ne	.LBB73_11
	adrp	x10, .Lstatic.3
	add	x10, x10, :lo12:.Lstatic.3
	clz	x15, x9
	add	x10, x10, x8, lsl #4
	lsl	x12, x9, x15
	mov	w13, #58980
	cmp	x11, #19
	add	x14, x15, #1191
	ldr	x10, [x10, #8]
	umulh	x12, x10, x12
	mov	w10, #21098
	movk	w10, #3, lsl #16
	madd	x10, x8, x10, x13
	lsr	x13, x12, #63
	add	x10, x13, x10, lsr #16
	add	x11, x10, #1139
	cset	w10, hi
	cmp	x11, x14
	b.lo	.LBB73_15
	mov	x16, #-1024
	mov	w17, #512
	lsl	x18, x10, x15
	lsl	x16, x16, x13
	lsl	x15, x17, x13
	add	x17, x18, #2
	bic	x16, x12, x16
	sub	x18, x15, x16
	cmp	x18, x17
	b.lo	.LBB73_15
	mov	w8, #10
	sub	w9, w11, w14
	cmp	x15, x16
	orr	x8, x13, x8
	lsr	x8, x12, x8
	add	x8, x8, x9, lsl #52
	mov	x9, #9218868437227405312
	cinc	x8, x8, lo
	cmp	x8, x9
	csel	x0, x8, x9, lo
	b	.LBB73_7
.LBB73_15:
	mov	x28, x3
	mov	x25, x2
	mov	x26, x0
	mov	x27, x1
	mov	x0, sp
	mov	x1, x9
	mov	x2, x10
	mov	x3, x8
	mov	x24, x4
	bl	"core::dec2flt::lemire::eisel_lemire_wide::<#1d521972340cebc2>"
	ldrb	w8, [sp]
	ldr	x0, [sp, #8]
	cbz	w8, .LBB73_7
	ldr	x19, [sp, #16]
	mov	w8, #1075
	subs	x8, x8, x19
	csel	x20, xzr, x8, lo
	adds	x9, x20, x24
	cset	w8, hs
	cmp	x9, x22
	sbcs	xzr, x8, x21
	b.hs	.LBB73_23
	subs	x9, x22, x9
	sbc	x8, x21, x8
	subs	x10, x23, x9
	ngcs	xzr, x8
	csel	x24, xzr, x10, lo
	cmp	x23, x24
	b.ls	.LBB73_25
	cmp	x9, x23
	mov	x13, x27
	mov	x14, x26
	sbcs	xzr, x8, xzr
	csel	x10, x9, x23, lo
	sub	x11, x28, x10
	add	x12, x25, x11
	mov	x11, x24
.LBB73_19:
	add	x15, x14, x11
	cmp	x11, x13
	csel	x15, x15, x12, lo
	ldrb	w15, [x15]
	cmp	w15, #48
	b.ne	.LBB73_22
	subs	x10, x10, #1
	add	x11, x11, #1
	add	x12, x12, #1
	b.ne	.LBB73_19
	mov	x11, x23
.LBB73_22:
	cmp	x11, x23
	mov	x21, x0
	cset	w22, lo
	b	.LBB73_26
.LBB73_23:
	mov	x20, x0
	add	x0, sp, #24
	mov	w1, wzr
	mov	w2, #600
	bl	memset
	mov	x8, x24
	cbnz	x23, .LBB73_38
.LBB73_24:
	subs	x9, x8, x22
	add	x0, sp, #24
	mov	w1, wzr
	ngcs	xzr, x21
	mov	x4, x20
	csel	x2, xzr, x9, lo
	subs	x8, x22, x8
	sbcs	xzr, x21, xzr
	csel	x3, xzr, x8, lo
	b	.LBB73_37
.LBB73_25:
	mov	x21, x0
	mov	w22, wzr
.LBB73_26:
	cmp	x9, x23
	add	x0, sp, #624
	mov	w1, wzr
	sbcs	xzr, x8, xzr
	mov	w2, #600
	cset	w23, hs
	bl	memset
	tbnz	w23, #0, .LBB73_36
	mov	x8, xzr
	sub	x9, x25, x27
	b	.LBB73_29
.LBB73_28:
	add	x8, x10, x8
	cmp	x8, x24
	b.hs	.LBB73_36
.LBB73_29:
	sub	x10, x24, x8
	mov	w12, #19
	mov	x11, xzr
	cmp	x10, #19
	add	x13, x9, x8
	add	x14, x26, x8
	csel	x10, x10, x12, lo
	adrp	x12, .Lstatic.2
	add	x12, x12, :lo12:.Lstatic.2
	ldr	x12, [x12, x10, lsl #3]
	mov	x15, x8
	mov	x16, x10
.LBB73_30:
	mov	w17, #10
	cmp	x15, x27
	add	x15, x15, #1
	mul	x11, x11, x17
	csel	x17, x14, x13, lo
	subs	x16, x16, #1
	ldrb	w17, [x17]
	add	x13, x13, #1
	add	x14, x14, #1
	sub	w17, w17, #48
	add	x11, x11, w17, uxtb
	b.ne	.LBB73_30
	ldr	x13, [sp, #1216]
	cbz	x13, .LBB73_34
	add	x14, sp, #624
	mov	x15, x13
.LBB73_33:
	ldr	x16, [x14]
	mul	x17, x16, x12
	umulh	x16, x16, x12
	adds	x17, x17, x11
	str	x17, [x14], #8
	cinc	x11, x16, hs
	subs	x15, x15, #1
	b.ne	.LBB73_33
.LBB73_34:
	cbz	x11, .LBB73_28
	add	x12, sp, #624
	add	x14, x13, #1
	str	x11, [x12, x13, lsl #3]
	str	x14, [sp, #1216]
	b	.LBB73_28
.LBB73_36:
	add	x0, sp, #624
	mov	w1, w22
	mov	x2, xzr
	mov	x3, x20
	mov	x4, x21
.LBB73_37:
	mov	x5, x19
	bl	"core::dec2flt::decimal::break_tie::<#1d521972340cebc2>"
	b	.LBB73_7
.LBB73_38:
	mov	x9, xzr
	sub	x10, x25, x27
	b	.LBB73_40
.LBB73_39:
	add	x9, x11, x9
	cmp	x9, x23
	b.hs	.LBB73_24
.LBB73_40:
	sub	x11, x23, x9
	mov	w13, #19
	mov	x12, xzr
	cmp	x11, #19
	add	x14, x10, x9
	add	x15, x26, x9
	csel	x11, x11, x13, lo
	adrp	x13, .Lstatic.2
	add	x13, x13, :lo12:.Lstatic.2
	ldr	x13, [x13, x11, lsl #3]
	mov	x16, x9
	mov	x17, x11
.LBB73_41:
	mov	w18, #10
	cmp	x16, x27
	add	x16, x16, #1
	mul	x12, x12, x18
	csel	x18, x15, x14, lo
	subs	x17, x17, #1
	ldrb	w18, [x18]
	add	x14, x14, #1
	add	x15, x15, #1
	sub	w18, w18, #48
	add	x12, x12, w18, uxtb
	b.ne	.LBB73_41
	ldr	x14, [sp, #616]
	cbz	x14, .LBB73_45
	add	x15, sp, #24
	mov	x16, x14
.LBB73_44:
	ldr	x17, [x15]
	mul	x18, x17, x13
	umulh	x17, x17, x13
	adds	x18, x18, x12
	str	x18, [x15], #8
	cinc	x12, x17, hs
	subs	x16, x16, #1
	b.ne	.LBB73_44
.LBB73_45:
	cbz	x12, .LBB73_39
	add	x13, sp, #24
	add	x15, x14, #1
	str	x12, [x13, x14, lsl #3]
	str	x15, [sp, #616]
	b	.LBB73_39
.Lfunc_end73:
	.size	"core::dec2flt::long::from_long::<#1d521972340cebc2>", .Lfunc_end73-"core::dec2flt::long::from_long::<#1d521972340cebc2>"

	.section	".text.unlikely.core::dec2flt::lemire::eisel_lemire_wide::<#1d521972340cebc2>","ax",@progbits
	.p2align	2
	.type	"core::dec2flt::lemire::eisel_lemire_wide::<#1d521972340cebc2>",@function
"core::dec2flt::lemire::eisel_lemire_wide::<#1d521972340cebc2>":
	adrp	x9, .Lstatic.3
	add	x9, x9, :lo12:.Lstatic.3
	mov	w15, #58980
	add	x10, x9, x3, lsl #4
	clz	x9, x1
	mov	x11, xzr
	lsl	x12, x1, x9
	add	x16, x9, #1191
	mov	x8, xzr
	ldp	x10, x13, [x10]
	mul	x14, x13, x12
	umulh	x10, x10, x12
	umulh	x12, x13, x12
	mov	w13, #21098
	movk	w13, #3, lsl #16
	madd	x13, x3, x13, x15
	adds	x14, x10, x14
	cinc	x15, x12, hs
	lsr	x10, x15, #63
	add	x12, x10, x13, lsr #16
	add	x13, x12, #1139
	subs	x12, x16, x13
	csel	x12, xzr, x12, lo
	add	x10, x12, x10
	add	x12, x10, #72
	subs	x10, x13, x16
	mov	x13, xzr
	csel	x10, xzr, x10, lo
	cmp	x12, #127
	b.hi	.LBB74_3
	lsr	x16, x15, #2
	extr	x11, x15, x14, #2
	mvn	w13, w12
	mov	x14, #-1
	mov	x15, #9223372036854775807
	tst	x12, #0x40
	lsl	x8, x16, #1
	lsr	x17, x11, x12
	lsl	x14, x14, x12
	lsl	x8, x8, x13
	lsr	x13, x15, x13
	lsr	x15, x16, x12
	sub	x12, x12, #1
	orr	x8, x8, x17
	mov	w17, #1
	orr	x13, x14, x13
	csel	x8, x15, x8, ne
	lsl	x15, x17, x12
	csel	x17, x14, x13, ne
	csel	x13, xzr, x14, ne
	tst	x12, #0x40
	bic	x12, x16, x17
	bic	x11, x11, x13
	csel	x13, xzr, x15, ne
	csel	x14, x15, xzr, ne
	cmp	x13, x11
	sbcs	xzr, x14, x12
	b.hs	.LBB74_4
	add	x8, x8, x10, lsl #52
	mov	x10, #9218868437227405312
	mov	x11, xzr
	mov	x13, xzr
	add	x9, x8, #1
	cmp	x9, x10
	csinc	x8, x10, x8, hs
.LBB74_3:
	stp	x11, x8, [x0]
	str	x13, [x0, #16]
	ret
.LBB74_4:
	lsl	x9, x2, x9
	mov	w15, #2
	subs	x11, x13, x11
	sbc	x12, x14, x12
	orr	x15, x15, x9, lsl #62
	lsr	x9, x9, #2
	cmp	x11, x15
	sbcs	xzr, x12, x9
	b.hs	.LBB74_6
	mov	w11, #1
	stp	x11, x8, [x0]
	str	x10, [x0, #16]
	ret
.LBB74_6:
	add	x8, x8, x10, lsl #52
	mov	x9, #9218868437227405312
	cmp	x8, x9
	csel	x8, x8, x9, lo
	stp	xzr, x8, [x0]
	str	xzr, [x0, #16]
	ret
.Lfunc_end74:
	.size	"core::dec2flt::lemire::eisel_lemire_wide::<#1d521972340cebc2>", .Lfunc_end74-"core::dec2flt::lemire::eisel_lemire_wide::<#1d521972340cebc2>"

	.section	".text.unlikely.core::dec2flt::decimal::break_tie::<#1d521972340cebc2>","ax",@progbits
	.p2align	2
	.type	"core::dec2flt::decimal::break_tie::<#1d521972340cebc2>",@function
"core::dec2flt::decimal::break_tie::<#1d521972340cebc2>":
	stp	x29, x30, [sp, #-80]!
	str	x28, [sp, #16]
	mov	x29, sp
	stp	x24, x23, [sp, #32]
	stp	x22, x21, [sp, #48]
	stp	x20, x19, [sp, #64]
	sub	sp, sp, #1200
	mov	x23, x2
	mov	w21, w1
	mov	x1, x0
	add	x0, sp, #600
	mov	w2, #600
	str	xzr, [sp]
	mov	x19, x5
	mov	x20, x4
	mov	x22, x3
	bl	memcpy
	subs	x8, x23, #20
	b.lo	.LBB75_9
	ldr	x9, [sp, #1192]
	cbz	x9, .LBB75_27
	mov	x8, #2313682944
	movk	x8, #8964, lsl #32
	movk	x8, #35527, lsl #48
	cbnz	x9, .LBB75_4
	b	.LBB75_8
.LBB75_3:
	ldr	x9, [sp, #1192]
	cbz	x9, .LBB75_8
.LBB75_4:
	mov	x10, xzr
	add	x11, sp, #600
	mov	x12, x9
.LBB75_5:
	ldr	x13, [x11]
	mul	x14, x13, x8
	umulh	x13, x13, x8
	adds	x14, x14, x10
	str	x14, [x11], #8
	cinc	x10, x13, hs
	subs	x12, x12, #1
	b.ne	.LBB75_5
	cbz	x10, .LBB75_8
	add	x11, sp, #600
	add	x12, x9, #1
	str	x10, [x11, x9, lsl #3]
	str	x12, [sp, #1192]
.LBB75_8:
	sub	x23, x23, #19
	cmp	x23, #19
	b.hi	.LBB75_3
.LBB75_9:
	ldr	x9, [sp, #1192]
	adrp	x24, .Lstatic.2
	add	x24, x24, :lo12:.Lstatic.2
	cbz	x9, .LBB75_28
.LBB75_10:
	ldr	x8, [x24, x23, lsl #3]
	mov	x10, xzr
	add	x11, sp, #600
	mov	x12, x9
.LBB75_11:
	ldr	x13, [x11]
	mul	x14, x13, x8
	umulh	x13, x13, x8
	adds	x14, x14, x10
	str	x14, [x11], #8
	cinc	x10, x13, hs
	subs	x12, x12, #1
	b.ne	.LBB75_11
	cbz	x10, .LBB75_14
	add	x11, sp, #600
	add	x8, x9, #1
	str	x10, [x11, x9, lsl #3]
	str	x8, [sp, #1192]
	mov	w9, #1075
	subs	x9, x9, x19
	csel	x9, xzr, x9, lo
	cmp	x9, #64
	b.hs	.LBB75_15
	b	.LBB75_22
.LBB75_14:
	ldr	x8, [sp, #1192]
	mov	w9, #1075
	subs	x9, x9, x19
	csel	x9, xzr, x9, lo
	cmp	x9, #64
	b.lo	.LBB75_22
.LBB75_15:
	cbnz	x8, .LBB75_17
	b	.LBB75_28
.LBB75_16:
	sub	x9, x9, #63
	ldr	x8, [sp, #1192]
	cmp	x9, #63
	b.ls	.LBB75_22
.LBB75_17:
	cbz	x8, .LBB75_16
	mov	x10, xzr
	add	x11, sp, #600
	mov	x12, x8
.LBB75_19:
	ldr	x13, [x11]
	subs	x12, x12, #1
	orr	x14, x10, x13, lsl #63
	lsr	x10, x13, #1
	str	x14, [x11], #8
	b.ne	.LBB75_19
	cbz	x10, .LBB75_16
	add	x11, sp, #600
	add	x12, x8, #1
	str	x10, [x11, x8, lsl #3]
	str	x12, [sp, #1192]
	b	.LBB75_16
.LBB75_22:
	cbz	x8, .LBB75_28
	mov	x10, xzr
	add	x11, sp, #600
	mov	x12, x8
.LBB75_24:
	ldr	x13, [x11]
	mvn	w15, w9
	tst	x9, #0x40
	lsr	x14, x13, #1
	lsl	x13, x13, x9
	lsr	x14, x14, x15
	csel	x15, xzr, x13, ne
	csel	x13, x13, x14, ne
	adds	x14, x15, x10
	cinc	x10, x13, hs
	subs	x12, x12, #1
	str	x14, [x11], #8
	b.ne	.LBB75_24
	cbz	x10, .LBB75_28
	add	x9, sp, #600
	add	x11, x8, #1
	str	x10, [x9, x8, lsl #3]
	str	x11, [sp, #1192]
	b	.LBB75_28
.LBB75_27:
	mov	x9, #17247
	mov	w10, #19
	movk	x9, #3449, lsl #16
	movk	x9, #13797, lsl #32
	movk	x9, #55188, lsl #48
	umulh	x9, x8, x9
	lsr	x9, x9, #4
	msub	x8, x9, x10, x8
	add	x23, x8, #1
	ldr	x9, [sp, #1192]
	adrp	x24, .Lstatic.2
	add	x24, x24, :lo12:.Lstatic.2
	cbnz	x9, .LBB75_10
.LBB75_28:
	mov	w23, #1
	mov	w1, wzr
	mov	w2, #584
	orr	x8, x23, x20, lsl #1
	str	x8, [sp]
	mov	x8, sp
	add	x0, x8, #8
	bl	memset
	cmp	x22, #20
	str	x23, [sp, #592]
	b.lo	.LBB75_37
	mov	x8, #2313682944
	mov	w23, #1
	movk	x8, #8964, lsl #32
	movk	x8, #35527, lsl #48
	b	.LBB75_31
.LBB75_30:
	sub	x22, x22, #19
	ldr	x23, [sp, #592]
	cmp	x22, #19
	b.ls	.LBB75_36
.LBB75_31:
	cbz	x23, .LBB75_30
	mov	x9, xzr
	mov	x10, sp
	mov	x11, x23
.LBB75_33:
	ldr	x12, [x10]
	mul	x13, x12, x8
	umulh	x12, x12, x8
	adds	x13, x13, x9
	str	x13, [x10], #8
	cinc	x9, x12, hs
	subs	x11, x11, #1
	b.ne	.LBB75_33
	cbz	x9, .LBB75_30
	mov	x10, sp
	add	x11, x23, #1
	str	x9, [x10, x23, lsl #3]
	str	x11, [sp, #592]
	b	.LBB75_30
.LBB75_36:
	cbz	x23, .LBB75_54
.LBB75_37:
	ldr	x8, [x24, x22, lsl #3]
	mov	x9, xzr
	mov	x10, sp
	mov	x11, x23
.LBB75_38:
	ldr	x12, [x10]
	mul	x13, x12, x8
	umulh	x12, x12, x8
	adds	x13, x13, x9
	str	x13, [x10], #8
	cinc	x9, x12, hs
	subs	x11, x11, #1
	b.ne	.LBB75_38
	cbz	x9, .LBB75_41
	mov	x10, sp
	add	x8, x23, #1
	str	x9, [x10, x23, lsl #3]
	str	x8, [sp, #592]
	subs	x9, x19, #1075
	csel	x9, xzr, x9, lo
	cmp	x9, #64
	b.hs	.LBB75_42
	b	.LBB75_49
.LBB75_41:
	ldr	x8, [sp, #592]
	subs	x9, x19, #1075
	csel	x9, xzr, x9, lo
	cmp	x9, #64
	b.lo	.LBB75_49
.LBB75_42:
	cbnz	x8, .LBB75_44
	b	.LBB75_54
.LBB75_43:
	sub	x9, x9, #63
	ldr	x8, [sp, #592]
	cmp	x9, #63
	b.ls	.LBB75_49
.LBB75_44:
	cbz	x8, .LBB75_43
	mov	x10, xzr
	mov	x11, sp
	mov	x12, x8
.LBB75_46:
	ldr	x13, [x11]
	subs	x12, x12, #1
	orr	x14, x10, x13, lsl #63
	lsr	x10, x13, #1
	str	x14, [x11], #8
	b.ne	.LBB75_46
	cbz	x10, .LBB75_43
	mov	x11, sp
	add	x12, x8, #1
	str	x10, [x11, x8, lsl #3]
	str	x12, [sp, #592]
	b	.LBB75_43
.LBB75_49:
	cbz	x8, .LBB75_54
	mov	x10, xzr
	mov	x11, sp
	mov	x12, x8
.LBB75_51:
	ldr	x13, [x11]
	mvn	w15, w9
	tst	x9, #0x40
	lsr	x14, x13, #1
	lsl	x13, x13, x9
	lsr	x14, x14, x15
	csel	x15, xzr, x13, ne
	csel	x13, x13, x14, ne
	adds	x14, x15, x10
	cinc	x10, x13, hs
	subs	x12, x12, #1
	str	x14, [x11], #8
	b.ne	.LBB75_51
	cbz	x10, .LBB75_55
	mov	x11, sp
	add	x9, x8, #1
	str	x10, [x11, x8, lsl #3]
	str	x9, [sp, #592]
	b	.LBB75_56
.LBB75_54:
	mov	x9, xzr
	b	.LBB75_56
.LBB75_55:
	ldr	x9, [sp, #592]
.LBB75_56:
	ldr	x8, [sp, #1192]
	mov	x10, sp
	add	x11, sp, #600
	cmp	x9, x8
	csel	x8, x9, x8, hi
	sub	x9, x10, #8
	sub	x10, x11, #8
.LBB75_57:
	cbz	x8, .LBB75_60
	ldr	x11, [x10, x8, lsl #3]
	ldr	x12, [x9, x8, lsl #3]
	cmp	x11, x12
	b.lo	.LBB75_62
	cmp	x12, x11
	sub	x8, x8, #1
	b.hs	.LBB75_57
	b	.LBB75_61
.LBB75_60:
	cbz	w21, .LBB75_63
.LBB75_61:
	add	x8, x20, x19, lsl #52
	mov	x10, #9218868437227405312
	add	x9, x8, #1
	cmp	x9, x10
	csinc	x0, x10, x8, hs
	b	.LBB75_65
.LBB75_62:
	add	x8, x20, x19, lsl #52
	b	.LBB75_64
.LBB75_63:
	and	x8, x20, #0x1
	add	x8, x8, x20
	add	x8, x8, x19, lsl #52
.LBB75_64:
	mov	x9, #9218868437227405312
	cmp	x8, x9
	csel	x0, x8, x9, lo
.LBB75_65:
	add	sp, sp, #1200
	ldp	x20, x19, [sp, #64]
	ldr	x28, [sp, #16]
	ldp	x22, x21, [sp, #48]
	ldp	x24, x23, [sp, #32]
	ldp	x29, x30, [sp], #80
	ret
.Lfunc_end75:
	.size	"core::dec2flt::decimal::break_tie::<#1d521972340cebc2>", .Lfunc_end75-"core::dec2flt::decimal::break_tie::<#1d521972340cebc2>"

	.section	".text.unlikely.core::dec2flt::words::read_word::<#1d521972340cebc2>","ax",@progbits
	.p2align	2
	.type	"core::dec2flt::words::read_word::<#1d521972340cebc2>",@function
"core::dec2flt::words::read_word::<#1d521972340cebc2>":
	mov	x8, #9218868437227405312
	mov	x9, #-4503599627370496
	cmp	w3, #0
	fmov	d0, x8
	fmov	d1, x9
	fcsel	d0, d1, d0, ne
	cmp	x2, #8
	b.hs	.LBB76_3
	cmp	x2, #3
	b.hs	.LBB76_12
	movi	d1, #0000000000000000
	str	xzr, [x0]
	str	d1, [x0, #8]
	str	xzr, [x0, #16]
	ret
.LBB76_3:
	ldrb	w8, [x1]
	sub	w9, w8, #65
	add	w10, w8, #32
	cmp	w9, #26
	csel	w8, w10, w8, lo
	cmp	w8, #105
	b.ne	.LBB76_12
	ldrb	w8, [x1, #1]
	sub	w9, w8, #65
	add	w10, w8, #32
	cmp	w9, #26
	csel	w8, w10, w8, lo
	cmp	w8, #110
	b.ne	.LBB76_12
	ldrb	w8, [x1, #2]
	sub	w9, w8, #65
	add	w10, w8, #32
	cmp	w9, #26
	csel	w8, w10, w8, lo
	cmp	w8, #102
	b.ne	.LBB76_12
	ldrb	w8, [x1, #3]
	sub	w9, w8, #65
	add	w10, w8, #32
	cmp	w9, #26
	csel	w8, w10, w8, lo
	cmp	w8, #105
	b.ne	.LBB76_12
	ldrb	w8, [x1, #4]
	sub	w9, w8, #65
	add	w10, w8, #32
	cmp	w9, #26
	csel	w8, w10, w8, lo
	cmp	w8, #110
	b.ne	.LBB76_12
	ldrb	w8, [x1, #5]
	sub	w9, w8, #65
	add	w10, w8, #32
	cmp	w9, #26
	csel	w8, w10, w8, lo
	cmp	w8, #105
	b.ne	.LBB76_12
	ldrb	w8, [x1, #6]
	sub	w9, w8, #65
	add	w10, w8, #32
	cmp	w9, #26
	csel	w8, w10, w8, lo
	cmp	w8, #116
	b.ne	.LBB76_12
	ldrb	w8, [x1, #7]
	sub	w9, w8, #65
	add	w10, w8, #32
	cmp	w9, #26
	csel	w8, w10, w8, lo
	cmp	w8, #121
	b.ne	.LBB76_12
	mov	w9, #8
	mov	w8, #1
	fmov	d1, d0
	str	x8, [x0]
	str	d1, [x0, #8]
	str	x9, [x0, #16]
	ret
.LBB76_12:
	ldrb	w8, [x1]
	movi	d1, #0000000000000000
	sub	w9, w8, #65
	add	w10, w8, #32
	cmp	w9, #26
	csel	w8, w10, w8, lo
	cmp	w8, #110
	b.eq	.LBB76_17
	cmp	w8, #105
	b.ne	.LBB76_20
	ldrb	w8, [x1, #1]
	sub	w9, w8, #65
	add	w10, w8, #32
	cmp	w9, #26
	csel	w8, w10, w8, lo
	cmp	w8, #110
	b.ne	.LBB76_20
	ldrb	w8, [x1, #2]
	sub	w9, w8, #65
	add	w10, w8, #32
	cmp	w9, #26
	csel	w8, w10, w8, lo
	cmp	w8, #102
	b.ne	.LBB76_20
	mov	w9, #3
	mov	w8, #1
	fmov	d1, d0
	str	x8, [x0]
	str	d1, [x0, #8]
	str	x9, [x0, #16]
	ret
.LBB76_17:
	ldrb	w8, [x1, #1]
	sub	w9, w8, #65
	add	w10, w8, #32
	cmp	w9, #26
	csel	w8, w10, w8, lo
	cmp	w8, #97
	b.ne	.LBB76_20
	ldrb	w8, [x1, #2]
	sub	w9, w8, #65
	add	w10, w8, #32
	cmp	w9, #26
	csel	w8, w10, w8, lo
	cmp	w8, #110
	b.ne	.LBB76_20
	mov	x8, #9221120237041090560
	mov	x9, #-2251799813685248
	cmp	w3, #0
	fmov	d0, x8
	fmov	d1, x9
	mov	w9, #3
	mov	w8, #1
	fcsel	d1, d1, d0, ne
	str	x8, [x0]
	str	d1, [x0, #8]
	str	x9, [x0, #16]
	ret
.LBB76_20:
	str	xzr, [x0]
	str	d1, [x0, #8]
	str	xzr, [x0, #16]
	ret
.Lfunc_end76:
	.size	"core::dec2flt::words::read_word::<#1d521972340cebc2>", .Lfunc_end76-"core::dec2flt::words::read_word::<#1d521972340cebc2>"

	.section	.rodata.cst16,"aM",@progbits,16
	.p2align	4, 0x0
.LCPI77_0:
	.xword	1
	.xword	0
	.section	".text.amqp_json::reading::put::put_counted","ax",@progbits
	.p2align	2
	.type	"amqp_json::reading::put::put_counted",@function
"amqp_json::reading::put::put_counted":
	stp	x29, x30, [sp, #-80]!
	lsr	x8, x4, #32
	stp	x20, x19, [sp, #64]
	mov	x19, x0
	str	x25, [sp, #16]
	mov	x29, sp
	stp	x24, x23, [sp, #32]
	stp	x22, x21, [sp, #48]
	cbnz	x8, .LBB77_10
	mov	x23, x1
	lsr	x8, x4, #24
	and	w10, w4, #0xffffff
	ldp	x9, x20, [x23, #8]!
	rev	w10, w10
	orr	w22, w10, w8
	cmp	x20, x9
	str	w22, [x29, #28]
	b.eq	.LBB77_13
.LBB77_2:
	ldr	x21, [x1]
	add	x8, x9, #1
	strb	w2, [x21, x9]
	sub	x9, x20, x8
	cmp	x9, #3
	stp	x21, x8, [x1]
	str	x20, [x1, #16]
	b.ls	.LBB77_22
.LBB77_3:
	add	x9, x21, x8
	add	x10, x29, #28
	ldr	w11, [x29, #28]
	sub	x10, x9, x10
	add	x8, x8, #4
	cmp	x10, #4
	csel	w10, w11, w22, lo
	str	w10, [x9]
	sub	x9, x20, x8
	cmp	x4, x9
	stp	x21, x8, [x1]
	str	x20, [x1, #16]
	b.hi	.LBB77_24
	add	x0, x21, x8
	add	x22, x8, x4
	stp	xzr, xzr, [x23]
	sub	x9, x0, x3
	cmp	x9, x4
	b.hs	.LBB77_26
.LBB77_5:
	cmp	x4, #8
	b.lo	.LBB77_7
	add	x9, x8, x21
	sub	x9, x9, x3
	cmp	x9, #32
	b.hs	.LBB77_11
.LBB77_7:
	mov	x9, xzr
.LBB77_8:
	add	x10, x9, x8
	sub	x8, x4, x9
	add	x9, x3, x9
	add	x10, x21, x10
.LBB77_9:
	ldrb	w11, [x9], #1
	subs	x8, x8, #1
	strb	w11, [x10], #1
	b.ne	.LBB77_9
	b	.LBB77_27
.LBB77_10:
	adrp	x8, .LCPI77_0
	mov	w9, #1
	ldr	q0, [x8, :lo12:.LCPI77_0]
	strb	w9, [x19]
	stur	q0, [x19, #8]
	b	.LBB77_29
.LBB77_11:
	cmp	x4, #32
	b.hs	.LBB77_15
	mov	x9, xzr
	b	.LBB77_19
.LBB77_13:
	mov	x20, x1
	mov	x0, x1
	mov	w1, #1
	mov	w21, w2
	mov	x24, x3
	mov	x25, x4
	bl	"std_alloc::vec::Vec::grow_amortized::<#1283936d4ef01d73>"
	cbz	w0, .LBB77_30
	mov	x1, x20
	ldp	x9, x20, [x20, #8]
	mov	x4, x25
	mov	x3, x24
	mov	w2, w21
	b	.LBB77_2
.LBB77_15:
	add	x12, x8, x21
	and	x10, x4, #0x18
	and	x9, x4, #0xffffffe0
	add	x11, x3, #16
	add	x12, x12, #16
	and	x13, x4, #0xffffffe0
.LBB77_16:
	ldp	q0, q1, [x11, #-16]
	subs	x13, x13, #32
	add	x11, x11, #32
	stp	q0, q1, [x12, #-16]
	add	x12, x12, #32
	b.ne	.LBB77_16
	cmp	x4, x9
	b.eq	.LBB77_27
	cbz	x10, .LBB77_8
.LBB77_19:
	mov	x11, x9
	and	x9, x4, #0xfffffff8
	add	x12, x8, x11
	sub	x10, x11, x9
	add	x11, x3, x11
	add	x12, x21, x12
.LBB77_20:
	ldr	d0, [x11], #8
	adds	x10, x10, #8
	str	d0, [x12], #8
	b.ne	.LBB77_20
	cmp	x4, x9
	b.eq	.LBB77_27
	b	.LBB77_8
.LBB77_22:
	mov	x20, x1
	mov	x0, x1
	mov	w1, #4
	mov	x24, x3
	mov	x25, x4
	bl	"std_alloc::vec::Vec::grow_amortized::<#1283936d4ef01d73>"
	cbz	w0, .LBB77_30
	mov	x1, x20
	ldr	x20, [x20, #16]
	mov	x4, x25
	ldp	x21, x8, [x1]
	mov	x3, x24
	b	.LBB77_3
.LBB77_24:
	mov	x20, x1
	mov	x0, x1
	mov	x1, x4
	mov	x22, x3
	mov	x24, x4
	bl	"std_alloc::vec::Vec::grow_amortized::<#1283936d4ef01d73>"
	cbz	w0, .LBB77_30
	mov	x1, x20
	ldr	x20, [x20, #16]
	mov	x4, x24
	ldp	x21, x8, [x1]
	mov	x3, x22
	add	x0, x21, x8
	add	x22, x8, x24
	stp	xzr, xzr, [x23]
	sub	x9, x0, x3
	cmp	x9, x24
	b.lo	.LBB77_5
.LBB77_26:
	mov	x23, x1
	mov	x1, x3
	mov	x2, x4
	bl	memmove
	mov	x1, x23
.LBB77_27:
	stp	x21, x22, [x1]
	str	x20, [x1, #16]
	strb	wzr, [x19]
.LBB77_28:
	stp	xzr, xzr, [x19, #8]
.LBB77_29:
	strb	wzr, [x19, #24]
	ldp	x20, x19, [sp, #64]
	ldp	x22, x21, [sp, #48]
	ldr	x25, [sp, #16]
	ldp	x24, x23, [sp, #32]
	ldp	x29, x30, [sp], #80
	ret
.LBB77_30:
	mov	w8, #1
	strb	w8, [x19]
	b	.LBB77_28
.Lfunc_end77:
	.size	"amqp_json::reading::put::put_counted", .Lfunc_end77-"amqp_json::reading::put::put_counted"

	.section	".text.amqp_json::reading::put::put_head","ax",@progbits
	.p2align	2
	.type	"amqp_json::reading::put::put_head",@function
"amqp_json::reading::put::put_head":
	stp	x29, x30, [sp, #-48]!
	ldp	x11, x8, [x1, #8]
	mov	x29, sp
	stp	x22, x21, [sp, #16]
	stp	x20, x19, [sp, #32]
	cmp	x8, x11
	b.eq	.LBB78_4
.LBB78_1:
	ldr	x9, [x1]
	add	x10, x11, #1
	strb	w2, [x9, x11]
	sub	x11, x8, x10
	cmp	x11, #3
	stp	x9, x10, [x1]
	str	x8, [x1, #16]
	b.ls	.LBB78_6
.LBB78_2:
	mov	w19, wzr
	str	wzr, [x9, x10]
	add	x10, x10, #4
	stp	x9, x10, [x1]
	str	x8, [x1, #16]
.LBB78_3:
	strb	w19, [x0]
	ldp	x20, x19, [sp, #32]
	ldp	x22, x21, [sp, #16]
	stp	xzr, xzr, [x0, #8]
	strb	wzr, [x0, #24]
	ldp	x29, x30, [sp], #48
	ret
.LBB78_4:
	mov	x22, x0
	mov	x21, x1
	mov	x0, x1
	mov	w1, #1
	mov	w20, w2
	mov	w19, #1
	bl	"std_alloc::vec::Vec::grow_amortized::<#1283936d4ef01d73>"
	mov	w8, w0
	mov	x0, x22
	cbz	w8, .LBB78_3
	ldp	x11, x8, [x21, #8]
	mov	x1, x21
	mov	w2, w20
	b	.LBB78_1
.LBB78_6:
	mov	x20, x0
	mov	x19, x1
	mov	x0, x1
	mov	w1, #4
	bl	"std_alloc::vec::Vec::grow_amortized::<#1283936d4ef01d73>"
	cbz	w0, .LBB78_8
	ldp	x10, x8, [x19, #8]
	mov	x1, x19
	ldr	x9, [x19]
	mov	x0, x20
	b	.LBB78_2
.LBB78_8:
	mov	w19, #1
	mov	x0, x20
	b	.LBB78_3
.Lfunc_end78:
	.size	"amqp_json::reading::put::put_head", .Lfunc_end78-"amqp_json::reading::put::put_head"

	.section	.rodata.cst16,"aM",@progbits,16
	.p2align	4, 0x0
.LCPI79_0:
	.xword	1
	.xword	2
.LCPI79_1:
	.byte	1
	.byte	2
	.byte	4
	.byte	8
	.byte	16
	.byte	32
	.byte	64
	.byte	128
	.byte	1
	.byte	2
	.byte	4
	.byte	8
	.byte	16
	.byte	32
	.byte	64
	.byte	128
.LCPI79_2:
	.xword	0
	.xword	1
	.section	".text.amqp_json::reading::walk::next_key","ax",@progbits
	.p2align	2
	.type	"amqp_json::reading::walk::next_key",@function
"amqp_json::reading::walk::next_key":
	sub	sp, sp, #128
	stp	x26, x25, [sp, #64]
	ldr	x26, [x1, #80]
	ldrb	w8, [x1, #104]
	stp	x22, x21, [sp, #96]
	ldr	x22, [x1, #8]
	stp	x24, x23, [sp, #80]
	adrp	x24, .LCPI79_0
	subs	x9, x22, x26
	stp	x29, x30, [sp, #32]
	add	x29, sp, #32
	str	x27, [sp, #48]
	stp	x20, x19, [sp, #112]
	b.ls	.LBB79_8
	ldr	x21, [x1]
	add	x23, x21, x26
	ldrb	w27, [x23]
	and	w10, w27, #0xffffffdf
	cmp	w10, #93
	b.ne	.LBB79_6
	sub	w9, w8, #1
	cmp	w9, #1
	b.hi	.LBB79_20
	movi	v0.2d, #0000000000000000
	ldr	x8, [x1, #40]
	ldr	x10, [x1, #56]
	add	x9, x8, #1
	cmp	x9, x10
	str	x9, [x1, #40]
	stp	q0, q0, [sp]
	b.ne	.LBB79_10
	ldp	x8, x2, [x1, #16]
	mov	x19, x0
	ldrh	w9, [x1, #72]
	ldrb	w10, [x1, #74]
	mov	x0, sp
	ldr	x3, [x1, #32]
	ldr	x4, [x1, #64]
	add	x5, x29, #28
	mov	x20, x1
	mov	x1, x8
	strh	w9, [x29, #28]
	strb	w10, [x29, #30]
	bl	"json::index::refill"
	ldp	q0, q1, [sp]
	mov	x1, x20
	ldr	x8, [sp, #8]
	ldr	x3, [x20, #32]
	str	xzr, [x20, #40]
	stp	q0, q1, [x20, #48]
	cbz	x8, .LBB79_23
	ldr	x8, [sp]
	ldr	w9, [x3]
	add	x9, x8, x9
	mov	w8, #1
	mov	x0, x19
	ldr	x10, [x1, #8]
	str	x9, [x1, #80]
	cmp	x9, x10
	b.hs	.LBB79_28
	b	.LBB79_24
.LBB79_6:
	cmp	w27, #32
	b.hi	.LBB79_11
	mov	w10, #1
	mov	x11, #9728
	lsl	x10, x10, x27
	movk	x11, #1, lsl #32
	tst	x10, x11
	b.eq	.LBB79_11
.LBB79_8:
	subs	w9, w8, #3
	mov	w10, #9
	sub	w11, w8, #4
	csel	w10, wzr, w10, eq
	cmn	w9, #2
	mov	w9, #3
	csel	w25, w10, wzr, lo
	csel	w8, w9, w8, lo
	cmn	w11, #3
	strb	w8, [x1, #104]
	b.hs	.LBB79_21
	mov	x19, xzr
	mov	x20, xzr
	b	.LBB79_37
.LBB79_10:
	ldr	x3, [x1, #32]
	ldr	x10, [x1, #48]
	add	x8, x8, #2
	ldr	w9, [x3, x9, lsl #2]
	add	x9, x10, x9
	ldr	x10, [x1, #8]
	str	x9, [x1, #80]
	cmp	x9, x10
	b.lo	.LBB79_24
	b	.LBB79_28
.LBB79_11:
	cmp	w8, #2
	b.hs	.LBB79_20
	mov	x20, xzr
	cmp	w27, #91
	mov	w8, #3
	mov	w25, #9
	b.le	.LBB79_30
	cmp	w27, #109
	b.le	.LBB79_47
	cmp	w27, #110
	b.eq	.LBB79_56
	cmp	w27, #116
	b.eq	.LBB79_58
	cmp	w27, #123
	b.ne	.LBB79_60
	movi	v0.2d, #0000000000000000
	ldr	x8, [x1, #40]
	ldr	x9, [x1, #56]
	add	x8, x8, #1
	cmp	x8, x9
	str	x8, [x1, #40]
	stp	q0, q0, [sp]
	b.ne	.LBB79_74
	ldp	x8, x2, [x1, #16]
	mov	x19, x0
	ldrh	w9, [x1, #72]
	ldrb	w10, [x1, #74]
	mov	x0, sp
	ldr	x3, [x1, #32]
	ldr	x4, [x1, #64]
	add	x5, x29, #28
	mov	x20, x1
	mov	x1, x8
	strh	w9, [x29, #28]
	strb	w10, [x29, #30]
	bl	"json::index::refill"
	ldp	q0, q1, [sp]
	mov	x1, x20
	ldr	x8, [sp, #8]
	str	xzr, [x20, #40]
	stp	q0, q1, [x20, #48]
	cbz	x8, .LBB79_114
	ldr	x8, [x1, #32]
	ldr	x9, [sp]
	mov	x0, x19
	ldr	w8, [x8]
	add	x8, x9, x8
	b	.LBB79_115
.LBB79_20:
	mov	w9, #3
	cmp	w8, #3
	strb	w9, [x1, #104]
	b.ne	.LBB79_22
.LBB79_21:
	ldr	q0, [x24, :lo12:.LCPI79_0]
	mov	x8, xzr
	mov	x20, xzr
	mov	w19, wzr
	b	.LBB79_39
.LBB79_22:
	mov	x19, xzr
	mov	x20, xzr
	mov	w25, #9
	b	.LBB79_37
.LBB79_23:
	ldr	x9, [x1, #24]
	mov	w8, #1
	mov	x0, x19
	ldr	x10, [x1, #8]
	str	x9, [x1, #80]
	cmp	x9, x10
	b.hs	.LBB79_28
.LBB79_24:
	ldr	x10, [x1]
	ldrb	w9, [x10, x9]
	cmp	w9, #44
	b.ne	.LBB79_28
	movi	v0.2d, #0000000000000000
	ldr	x9, [x1, #56]
	str	x8, [x1, #40]
	cmp	x8, x9
	stp	q0, q0, [sp]
	b.ne	.LBB79_29
	ldp	x8, x2, [x1, #16]
	mov	x19, x0
	ldrh	w9, [x1, #72]
	ldrb	w10, [x1, #74]
	mov	x0, sp
	ldr	x4, [x1, #64]
	add	x5, x29, #28
	mov	x20, x1
	mov	x1, x8
	strh	w9, [x29, #28]
	strb	w10, [x29, #30]
	bl	"json::index::refill"
	ldp	q0, q1, [sp]
	mov	x1, x20
	ldr	x8, [sp, #8]
	str	xzr, [x20, #40]
	stp	q0, q1, [x20, #48]
	cbz	x8, .LBB79_33
	ldr	x8, [x1, #32]
	ldr	x9, [sp]
	mov	x0, x19
	ldr	w8, [x8]
	add	x9, x9, x8
	b	.LBB79_34
.LBB79_28:
	mov	w8, #2
	b	.LBB79_35
.LBB79_29:
	ldur	x9, [x1, #48]
	ldr	w8, [x3, x8, lsl #2]
	add	x9, x9, x8
	b	.LBB79_34
.LBB79_30:
	cmp	w27, #57
	b.gt	.LBB79_42
	cmp	w27, #34
	b.eq	.LBB79_51
	cmp	w27, #44
	mov	x19, x20
	b.eq	.LBB79_36
	b	.LBB79_60
.LBB79_33:
	ldr	x9, [x1, #24]
	mov	x0, x19
.LBB79_34:
	mov	w8, wzr
	str	x9, [x1, #80]
.LBB79_35:
	cmp	w27, #125
	mov	w9, #3
	mov	x19, xzr
	mov	x20, xzr
	csinc	w25, w9, wzr, ne
.LBB79_36:
	strb	w8, [x1, #104]
.LBB79_37:
	adrp	x9, .LCPI79_2
	lsr	x8, x19, #8
	mov	w10, #1005
	ldr	q0, [x9, :lo12:.LCPI79_2]
	mov	w9, #1
	lsl	w9, w9, w25
	tst	w9, w10
	b.eq	.LBB79_40
	ldr	q0, [x24, :lo12:.LCPI79_0]
	mov	x8, xzr
	mov	x20, xzr
	mov	w19, wzr
	mov	w9, #3
	strb	w9, [x1, #104]
.LBB79_39:
	str	x20, [x0, #16]
	lsr	x9, x8, #48
	ldr	x27, [sp, #48]
	strb	w19, [x0, #24]
	ldp	x20, x19, [sp, #112]
	stur	w8, [x0, #25]
	lsr	x8, x8, #32
	ldp	x22, x21, [sp, #96]
	str	q0, [x0]
	ldp	x24, x23, [sp, #80]
	strb	w9, [x0, #31]
	sturh	w8, [x0, #29]
	ldp	x26, x25, [sp, #64]
	ldp	x29, x30, [sp, #32]
	add	sp, sp, #128
	ret
.LBB79_40:
	cmp	w25, #1
	b.ne	.LBB79_39
	mov	x8, xzr
	mov	x20, xzr
	movi	v0.2d, #0000000000000000
	mov	w19, wzr
	b	.LBB79_39
.LBB79_42:
	cmp	w27, #58
	mov	x19, x20
	b.eq	.LBB79_36
	cmp	w27, #91
	b.ne	.LBB79_60
	movi	v0.2d, #0000000000000000
	ldr	x8, [x1, #40]
	ldr	x9, [x1, #56]
	add	x8, x8, #1
	cmp	x8, x9
	str	x8, [x1, #40]
	stp	q0, q0, [sp]
	b.ne	.LBB79_69
	ldp	x8, x2, [x1, #16]
	mov	x19, x0
	ldrh	w9, [x1, #72]
	ldrb	w10, [x1, #74]
	mov	x0, sp
	ldr	x3, [x1, #32]
	ldr	x4, [x1, #64]
	add	x5, x29, #28
	mov	x20, x1
	mov	x1, x8
	strh	w9, [x29, #28]
	strb	w10, [x29, #30]
	bl	"json::index::refill"
	ldp	q0, q1, [sp]
	mov	x1, x20
	ldr	x8, [sp, #8]
	str	xzr, [x20, #40]
	stp	q0, q1, [x20, #48]
	cbz	x8, .LBB79_109
	ldr	x8, [x1, #32]
	ldr	x9, [sp]
	mov	x0, x19
	ldr	w8, [x8]
	add	x8, x9, x8
	b	.LBB79_110
.LBB79_47:
	cmp	w27, #92
	mov	x19, x20
	b.eq	.LBB79_36
	cmp	w27, #102
	b.ne	.LBB79_60
	cmp	x9, #5
	b.hs	.LBB79_70
	mov	w10, wzr
	mov	w8, #32
	b	.LBB79_89
.LBB79_51:
	add	x19, x26, #1
	sub	x8, x22, x19
	mov	x2, x19
	cmp	x8, #32
	b.lo	.LBB79_55
	mov	x2, x19
.LBB79_53:
	movi	v0.16b, #34
	movi	v1.16b, #92
	add	x9, x21, x2
	ldp	q2, q3, [x9]
	movi	v4.16b, #32
	adrp	x9, .LCPI79_1
	cmeq	v5.16b, v2.16b, v0.16b
	cmeq	v6.16b, v2.16b, v1.16b
	cmeq	v0.16b, v3.16b, v0.16b
	cmeq	v1.16b, v3.16b, v1.16b
	orr	v5.16b, v5.16b, v6.16b
	orr	v0.16b, v0.16b, v1.16b
	cmhi	v1.16b, v4.16b, v2.16b
	cmhi	v2.16b, v4.16b, v3.16b
	orr	v0.16b, v2.16b, v0.16b
	orr	v1.16b, v1.16b, v5.16b
	ldr	q2, [x9, :lo12:.LCPI79_1]
	and	v1.16b, v1.16b, v2.16b
	and	v0.16b, v0.16b, v2.16b
	addp	v0.16b, v1.16b, v0.16b
	addp	v0.16b, v0.16b, v0.16b
	addp	v0.16b, v0.16b, v0.16b
	fmov	w9, s0
	cbnz	w9, .LBB79_77
	sub	x8, x8, #32
	add	x2, x2, #32
	cmp	x8, #31
	b.hi	.LBB79_53
.LBB79_55:
	mov	x26, x0
	mov	x0, x21
	mov	x20, x1
	mov	x1, x22
	bl	"json::run::plain_end_16"
	mov	x1, x20
	b	.LBB79_78
.LBB79_56:
	cmp	x9, #4
	b.hs	.LBB79_72
	mov	w10, wzr
	mov	w8, #32
	b	.LBB79_92
.LBB79_58:
	cmp	x9, #4
	b.hs	.LBB79_75
	mov	w10, wzr
	mov	w8, #32
	b	.LBB79_96
.LBB79_60:
	cmp	w27, #45
	adrp	x19, .LCPI79_1
	cinc	x20, x26, eq
	cset	w11, eq
	subs	x8, x22, x20
	b.ls	.LBB79_63
	ldrb	w10, [x21, x20]
	cmp	w10, #48
	b.ne	.LBB79_63
	add	x8, x20, #1
	b	.LBB79_103
.LBB79_63:
	cmp	x8, #16
	mov	x2, x20
	b.lo	.LBB79_68
	neg	x8, x20
	add	x10, x21, x20
	sub	x9, x9, x11
.LBB79_65:
	movi	v0.16b, #198
	ldr	q1, [x10], #16
	movi	v2.16b, #246
	add	v0.16b, v1.16b, v0.16b
	ldr	q1, [x19, :lo12:.LCPI79_1]
	cmhi	v0.16b, v2.16b, v0.16b
	and	v0.16b, v0.16b, v1.16b
	addp	v0.16b, v0.16b, v0.16b
	addp	v0.16b, v0.16b, v0.16b
	addp	v0.16b, v0.16b, v0.16b
	umov	w11, v0.h[0]
	cbnz	w11, .LBB79_100
	sub	x9, x9, #16
	sub	x8, x8, #16
	cmp	x9, #15
	b.hi	.LBB79_65
	neg	x2, x8
.LBB79_68:
	mov	x25, x0
	mov	x0, x21
	mov	x27, x1
	mov	x1, x22
	bl	"json::run::digits_end_slowly"
	mov	x1, x27
	mov	x8, x0
	mov	x0, x25
	b	.LBB79_101
.LBB79_69:
	ldr	x9, [x1, #32]
	ldr	x10, [x1, #48]
	ldr	w8, [x9, x8, lsl #2]
	add	x8, x10, x8
	b	.LBB79_110
.LBB79_70:
	ldur	w8, [x23, #1]
	mov	w10, #27745
	movk	w10, #25971, lsl #16
	cmp	w8, w10
	cset	w10, eq
	cmp	x9, #5
	b.ne	.LBB79_88
	mov	w8, #32
	b	.LBB79_89
.LBB79_72:
	ldrb	w8, [x23, #3]
	ldrb	w10, [x23, #2]
	ldrb	w11, [x23, #1]
	cmp	w8, #108
	mov	w8, #108
	ccmp	w10, w8, #0, eq
	mov	w8, #117
	ccmp	w11, w8, #0, eq
	cset	w10, eq
	cmp	x9, #4
	b.ne	.LBB79_91
	mov	w8, #32
	b	.LBB79_92
.LBB79_74:
	ldr	x9, [x1, #32]
	ldr	x10, [x1, #48]
	ldr	w8, [x9, x8, lsl #2]
	add	x8, x10, x8
	b	.LBB79_115
.LBB79_75:
	ldrb	w8, [x23, #3]
	ldrb	w10, [x23, #2]
	ldrb	w11, [x23, #1]
	cmp	w8, #101
	mov	w8, #117
	ccmp	w10, w8, #0, eq
	mov	w8, #114
	ccmp	w11, w8, #0, eq
	cset	w10, eq
	cmp	x9, #4
	b.ne	.LBB79_95
	mov	w8, #32
	b	.LBB79_96
.LBB79_77:
	rbit	w8, w9
	mov	x26, x0
	clz	w8, w8
	add	x0, x8, x2
.LBB79_78:
	cmp	x0, x22
	b.hs	.LBB79_83
	ldrb	w8, [x21, x0]
	cmp	w8, #34
	b.ne	.LBB79_83
	movi	v0.2d, #0000000000000000
	ldr	x8, [x1, #40]
	ldr	x9, [x1, #56]
	mov	x22, x0
	add	x8, x8, #1
	cmp	x8, x9
	str	x8, [x1, #40]
	stp	q0, q0, [sp]
	b.ne	.LBB79_116
	ldp	x8, x2, [x1, #16]
	mov	x0, sp
	ldrh	w9, [x1, #72]
	ldrb	w10, [x1, #74]
	add	x5, x29, #28
	ldr	x3, [x1, #32]
	ldr	x4, [x1, #64]
	mov	x20, x1
	mov	x1, x8
	strh	w9, [x29, #28]
	strb	w10, [x29, #30]
	bl	"json::index::refill"
	ldp	q0, q1, [sp]
	mov	x1, x20
	ldr	x8, [sp, #8]
	ldr	x3, [x20, #32]
	str	xzr, [x20, #40]
	stp	q0, q1, [x20, #48]
	cbz	x8, .LBB79_132
	ldr	x9, [sp]
	ldr	w10, [x3]
	mov	x8, xzr
	b	.LBB79_117
.LBB79_83:
	ldp	x20, x23, [x1, #88]
	add	x8, x29, #31
	stp	x8, xzr, [x1, #88]
	mov	x25, x1
	mov	x0, x21
	mov	x1, x22
	mov	x2, x19
	mov	x3, x20
	mov	x4, x23
	bl	"json::unescape::unescape"
	and	w8, w0, #0xff
	cmp	w8, #1
	b.ne	.LBB79_87
	movi	v0.2d, #0000000000000000
	ldr	x10, [x25, #40]
	add	x8, x20, x1
	sub	x9, x23, x1
	ldr	x11, [x25, #56]
	mov	x19, x1
	stp	x8, x9, [x25, #88]
	add	x8, x10, #1
	mov	x1, x25
	cmp	x8, x11
	str	x8, [x25, #40]
	stp	q0, q0, [sp]
	b.ne	.LBB79_111
	ldp	x8, x2, [x1, #16]
	mov	x0, sp
	ldrh	w9, [x1, #72]
	ldrb	w10, [x1, #74]
	add	x5, x29, #28
	ldr	x3, [x1, #32]
	ldr	x4, [x1, #64]
	mov	x1, x8
	strh	w9, [x29, #28]
	strb	w10, [x29, #30]
	bl	"json::index::refill"
	ldp	q0, q1, [sp]
	mov	x1, x25
	ldr	x8, [sp, #8]
	ldr	x3, [x25, #32]
	str	xzr, [x25, #40]
	stp	q0, q1, [x25, #48]
	cbz	x8, .LBB79_129
	ldr	x9, [sp]
	ldr	w10, [x3]
	mov	x8, xzr
	b	.LBB79_112
.LBB79_87:
	mov	x1, x25
	mov	x19, xzr
	str	x20, [x25, #88]
	mov	w8, #3
	mov	w25, #9
	str	x23, [x1, #96]
	mov	x20, xzr
	mov	x0, x26
	b	.LBB79_36
.LBB79_88:
	ldrb	w8, [x23, #5]
.LBB79_89:
	cmp	w8, #32
	sub	w9, w8, #9
	and	w11, w8, #0xffffffdf
	ccmp	w8, #13, #4, ne
	mov	w12, #93
	mov	x19, xzr
	ccmp	w9, #2, #0, ne
	cset	w9, lo
	cmp	w11, #91
	ccmp	w11, w12, #4, ne
	mov	w11, #58
	ccmp	w8, w11, #4, ne
	mov	w11, #44
	ccmp	w8, w11, #4, ne
	mov	w8, #3
	csinc	w9, w9, wzr, ne
	cbz	w10, .LBB79_99
	tbnz	w9, #0, .LBB79_98
	b	.LBB79_99
.LBB79_91:
	ldrb	w8, [x23, #4]
.LBB79_92:
	cmp	w8, #32
	sub	w9, w8, #9
	and	w11, w8, #0xffffffdf
	ccmp	w8, #13, #4, ne
	mov	w12, #93
	mov	x19, xzr
	ccmp	w9, #2, #0, ne
	cset	w9, lo
	cmp	w11, #91
	ccmp	w11, w12, #4, ne
	mov	w11, #58
	ccmp	w8, w11, #4, ne
	mov	w11, #44
	ccmp	w8, w11, #4, ne
	mov	w8, #3
	csinc	w9, w9, wzr, ne
	cbz	w10, .LBB79_99
	tbz	w9, #0, .LBB79_99
	mov	w25, #8
	mov	x23, x19
	b	.LBB79_152
.LBB79_95:
	ldrb	w8, [x23, #4]
.LBB79_96:
	cmp	w8, #32
	sub	w9, w8, #9
	and	w11, w8, #0xffffffdf
	ccmp	w8, #13, #4, ne
	mov	w12, #93
	mov	x19, xzr
	ccmp	w9, #2, #0, ne
	cset	w9, lo
	cmp	w11, #91
	ccmp	w11, w12, #4, ne
	mov	w11, #58
	ccmp	w8, w11, #4, ne
	mov	w11, #44
	ccmp	w8, w11, #4, ne
	mov	w8, #3
	csinc	w9, w9, wzr, ne
	cbz	w10, .LBB79_99
	tbz	w9, #0, .LBB79_99
.LBB79_98:
	mov	w25, #7
	mov	x23, x19
	b	.LBB79_152
.LBB79_99:
	mov	x20, x19
	b	.LBB79_36
.LBB79_100:
	umov	w9, v0.h[0]
	rbit	w9, w9
	clz	w9, w9
	sub	x8, x9, x8
.LBB79_101:
	cmp	x8, x20
	b.ne	.LBB79_103
.LBB79_102:
	mov	x20, xzr
	mov	x19, xzr
	mov	w8, #3
	mov	w25, #9
	b	.LBB79_36
.LBB79_103:
	cmp	x8, x22
	b.hs	.LBB79_135
	ldrb	w9, [x21, x8]
	cmp	w9, #46
	b.ne	.LBB79_135
	add	x20, x8, #1
	mov	x25, x1
	mov	x27, x0
	sub	x8, x22, x20
	mov	x2, x20
	cmp	x8, #16
	b.lo	.LBB79_108
.LBB79_106:
	movi	v0.16b, #198
	ldr	q1, [x21, x2]
	movi	v2.16b, #246
	add	v0.16b, v1.16b, v0.16b
	ldr	q1, [x19, :lo12:.LCPI79_1]
	cmhi	v0.16b, v2.16b, v0.16b
	and	v0.16b, v0.16b, v1.16b
	addp	v0.16b, v0.16b, v0.16b
	addp	v0.16b, v0.16b, v0.16b
	addp	v0.16b, v0.16b, v0.16b
	umov	w9, v0.h[0]
	cbnz	w9, .LBB79_133
	sub	x8, x8, #16
	add	x2, x2, #16
	cmp	x8, #15
	b.hi	.LBB79_106
.LBB79_108:
	mov	x0, x21
	mov	x1, x22
	bl	"json::run::digits_end_slowly"
	mov	x8, x0
	b	.LBB79_134
.LBB79_109:
	ldr	x8, [x1, #24]
	mov	x0, x19
.LBB79_110:
	mov	x20, xzr
	mov	x19, xzr
	str	x8, [x1, #80]
	mov	w8, #1
	mov	w25, #2
	b	.LBB79_36
.LBB79_111:
	ldr	x3, [x1, #32]
	ldr	x9, [x1, #48]
	ldr	w10, [x3, x8, lsl #2]
.LBB79_112:
	add	x9, x9, x10
.LBB79_113:
	mov	x0, x26
	b	.LBB79_119
.LBB79_114:
	ldr	x8, [x1, #24]
	mov	x0, x19
.LBB79_115:
	mov	x20, xzr
	mov	x19, xzr
	mov	w25, wzr
	str	x8, [x1, #80]
	mov	w8, #1
	b	.LBB79_36
.LBB79_116:
	ldr	x3, [x1, #32]
	ldr	x9, [x1, #48]
	ldr	w10, [x3, x8, lsl #2]
.LBB79_117:
	add	x9, x9, x10
.LBB79_118:
	mov	x0, x26
	add	x20, x21, x19
	sub	x19, x22, x19
.LBB79_119:
	str	x9, [x1, #80]
	ldr	x10, [x1, #8]
	cmp	x9, x10
	b.hs	.LBB79_125
	ldr	x10, [x1]
	ldrb	w9, [x10, x9]
	cmp	w9, #44
	b.eq	.LBB79_126
	cmp	w9, #58
	b.ne	.LBB79_125
	movi	v0.2d, #0000000000000000
	ldr	x9, [x1, #56]
	add	x8, x8, #1
	str	x8, [x1, #40]
	cmp	x8, x9
	stp	q0, q0, [sp]
	b.ne	.LBB79_130
	ldp	x8, x2, [x1, #16]
	mov	x21, x0
	ldrh	w9, [x1, #72]
	ldrb	w10, [x1, #74]
	mov	x0, sp
	ldr	x4, [x1, #64]
	add	x5, x29, #28
	mov	x22, x1
	mov	x1, x8
	strh	w9, [x29, #28]
	strb	w10, [x29, #30]
	bl	"json::index::refill"
	ldp	q0, q1, [sp]
	mov	x1, x22
	ldr	x8, [sp, #8]
	str	xzr, [x22, #40]
	stp	q0, q1, [x22, #48]
	cbz	x8, .LBB79_167
	ldr	x8, [x1, #32]
	ldr	x9, [sp]
	mov	x0, x21
	ldr	w8, [x8]
	add	x8, x9, x8
	b	.LBB79_168
.LBB79_125:
	mov	w8, #2
	mov	w25, #5
	b	.LBB79_36
.LBB79_126:
	movi	v0.2d, #0000000000000000
	ldr	x9, [x1, #56]
	add	x8, x8, #1
	str	x8, [x1, #40]
	cmp	x8, x9
	stp	q0, q0, [sp]
	b.ne	.LBB79_131
	ldp	x8, x2, [x1, #16]
	mov	x21, x0
	ldrh	w9, [x1, #72]
	ldrb	w10, [x1, #74]
	mov	x0, sp
	ldr	x4, [x1, #64]
	add	x5, x29, #28
	mov	x22, x1
	mov	x1, x8
	strh	w9, [x29, #28]
	strb	w10, [x29, #30]
	bl	"json::index::refill"
	ldp	q0, q1, [sp]
	mov	x1, x22
	ldr	x8, [sp, #8]
	str	xzr, [x22, #40]
	stp	q0, q1, [x22, #48]
	cbz	x8, .LBB79_169
	ldr	x8, [x1, #32]
	ldr	x9, [sp]
	mov	x0, x21
	ldr	w8, [x8]
	add	x9, x9, x8
	b	.LBB79_170
.LBB79_129:
	ldr	x9, [x1, #24]
	b	.LBB79_113
.LBB79_130:
	ldur	x9, [x1, #48]
	ldr	w8, [x3, x8, lsl #2]
	add	x8, x9, x8
	b	.LBB79_168
.LBB79_131:
	ldur	x9, [x1, #48]
	ldr	w8, [x3, x8, lsl #2]
	add	x9, x9, x8
	b	.LBB79_170
.LBB79_132:
	ldr	x9, [x1, #24]
	b	.LBB79_118
.LBB79_133:
	umov	w8, v0.h[0]
	rbit	w8, w8
	clz	w8, w8
	add	x8, x8, x2
.LBB79_134:
	cmp	x8, x20
	mov	x0, x27
	mov	x1, x25
	b.eq	.LBB79_102
.LBB79_135:
	cmp	x8, x22
	b.hs	.LBB79_148
	ldrb	w9, [x21, x8]
	and	w9, w9, #0xffffffdf
	cmp	w9, #69
	b.ne	.LBB79_148
	add	x20, x8, #1
	cmp	x20, x22
	b.hs	.LBB79_141
	ldrb	w9, [x21, x20]
	cmp	w9, #45
	b.eq	.LBB79_140
	cmp	w9, #43
	b.ne	.LBB79_141
.LBB79_140:
	add	x20, x8, #2
.LBB79_141:
	sub	x8, x22, x20
	mov	x25, x1
	mov	x27, x0
	cmp	x8, #16
	mov	x2, x20
	b.lo	.LBB79_145
	mov	x2, x20
.LBB79_143:
	movi	v0.16b, #198
	ldr	q1, [x21, x2]
	movi	v2.16b, #246
	add	v0.16b, v1.16b, v0.16b
	ldr	q1, [x19, :lo12:.LCPI79_1]
	cmhi	v0.16b, v2.16b, v0.16b
	and	v0.16b, v0.16b, v1.16b
	addp	v0.16b, v0.16b, v0.16b
	addp	v0.16b, v0.16b, v0.16b
	addp	v0.16b, v0.16b, v0.16b
	umov	w9, v0.h[0]
	cbnz	w9, .LBB79_146
	sub	x8, x8, #16
	add	x2, x2, #16
	cmp	x8, #15
	b.hi	.LBB79_143
.LBB79_145:
	mov	x0, x21
	mov	x1, x22
	bl	"json::run::digits_end_slowly"
	mov	x8, x0
	b	.LBB79_147
.LBB79_146:
	umov	w8, v0.h[0]
	rbit	w8, w8
	clz	w8, w8
	add	x8, x8, x2
.LBB79_147:
	cmp	x8, x20
	mov	x0, x27
	mov	x1, x25
	b.eq	.LBB79_102
.LBB79_148:
	cmp	x8, x22
	b.hs	.LBB79_151
	ldrb	w9, [x21, x8]
	mov	w10, #1
	mov	x11, #9728
	movk	x11, #4097, lsl #32
	lsl	x10, x10, x9
	movk	x11, #1024, lsl #48
	cmp	w9, #58
	and	x10, x10, x11
	ccmp	x10, #0, #4, ls
	b.ne	.LBB79_151
	sub	w9, w9, #91
	mov	w10, #1
	mov	x11, #5
	lsl	x10, x10, x9
	movk	x11, #5, lsl #32
	cmp	w9, #34
	and	x9, x10, x11
	ccmp	x9, #0, #4, ls
	b.eq	.LBB79_102
.LBB79_151:
	sub	x19, x8, x26
	mov	w25, #6
.LBB79_152:
	movi	v0.2d, #0000000000000000
	ldr	x8, [x1, #40]
	ldr	x10, [x1, #56]
	add	x9, x8, #1
	cmp	x9, x10
	str	x9, [x1, #40]
	stp	q0, q0, [sp]
	b.ne	.LBB79_155
	ldp	x8, x2, [x1, #16]
	mov	x20, x0
	ldrh	w9, [x1, #72]
	ldrb	w10, [x1, #74]
	mov	x0, sp
	ldr	x3, [x1, #32]
	ldr	x4, [x1, #64]
	add	x5, x29, #28
	mov	x21, x1
	mov	x1, x8
	strh	w9, [x29, #28]
	strb	w10, [x29, #30]
	bl	"json::index::refill"
	ldp	q0, q1, [sp]
	mov	x1, x21
	ldr	x8, [sp, #8]
	ldr	x3, [x21, #32]
	str	xzr, [x21, #40]
	stp	q0, q1, [x21, #48]
	cbz	x8, .LBB79_156
	ldr	x8, [sp]
	ldr	w9, [x3]
	add	x9, x8, x9
	b	.LBB79_157
.LBB79_155:
	ldr	x3, [x1, #32]
	ldr	x10, [x1, #48]
	add	x8, x8, #2
	ldr	w9, [x3, x9, lsl #2]
	add	x9, x10, x9
	b	.LBB79_158
.LBB79_156:
	ldr	x9, [x1, #24]
.LBB79_157:
	mov	w8, #1
	mov	x0, x20
.LBB79_158:
	ldr	x10, [x1, #8]
	str	x9, [x1, #80]
	cmp	x9, x10
	b.hs	.LBB79_163
	ldr	x10, [x1]
	ldrb	w9, [x10, x9]
	cmp	w9, #44
	b.ne	.LBB79_163
	movi	v0.2d, #0000000000000000
	ldr	x9, [x1, #56]
	str	x8, [x1, #40]
	cmp	x8, x9
	stp	q0, q0, [sp]
	b.ne	.LBB79_164
	ldp	x8, x2, [x1, #16]
	mov	x20, x0
	ldrh	w9, [x1, #72]
	ldrb	w10, [x1, #74]
	mov	x0, sp
	ldr	x4, [x1, #64]
	add	x5, x29, #28
	mov	x21, x1
	mov	x1, x8
	strh	w9, [x29, #28]
	strb	w10, [x29, #30]
	bl	"json::index::refill"
	ldp	q0, q1, [sp]
	mov	x1, x21
	ldr	x8, [sp, #8]
	str	xzr, [x21, #40]
	stp	q0, q1, [x21, #48]
	cbz	x8, .LBB79_165
	ldr	x8, [x1, #32]
	ldr	x9, [sp]
	mov	x0, x20
	ldr	w8, [x8]
	add	x9, x9, x8
	b	.LBB79_166
.LBB79_163:
	mov	w8, #2
	mov	x20, x23
	b	.LBB79_36
.LBB79_164:
	ldur	x9, [x1, #48]
	ldr	w8, [x3, x8, lsl #2]
	add	x9, x9, x8
	b	.LBB79_166
.LBB79_165:
	ldr	x9, [x1, #24]
	mov	x0, x20
.LBB79_166:
	mov	w8, wzr
	str	x9, [x1, #80]
	mov	x20, x23
	b	.LBB79_36
.LBB79_167:
	ldr	x8, [x1, #24]
	mov	x0, x21
.LBB79_168:
	str	x8, [x1, #80]
	mov	w8, #1
	mov	w25, #4
	b	.LBB79_36
.LBB79_169:
	ldr	x9, [x1, #24]
	mov	x0, x21
.LBB79_170:
	mov	w8, wzr
	str	x9, [x1, #80]
	mov	w25, #5
	b	.LBB79_36
.Lfunc_end79:
	.size	"amqp_json::reading::walk::next_key", .Lfunc_end79-"amqp_json::reading::walk::next_key"

	.section	.rodata.cst16,"aM",@progbits,16
	.p2align	4, 0x0
.LCPI80_0:
	.byte	1
	.byte	2
	.byte	4
	.byte	8
	.byte	16
	.byte	32
	.byte	64
	.byte	128
	.byte	1
	.byte	2
	.byte	4
	.byte	8
	.byte	16
	.byte	32
	.byte	64
	.byte	128
.LCPI80_1:
	.xword	2
	.xword	0
.LCPI80_2:
	.xword	0
	.xword	7306357456645743973
	.section	".text.amqp_json::reading::walk::put_named","ax",@progbits
	.p2align	2
	.type	"amqp_json::reading::walk::put_named",@function
"amqp_json::reading::walk::put_named":
	sub	sp, sp, #352
	sub	x8, x4, #5
	stp	x29, x30, [sp, #256]
	add	x29, sp, #256
	cmp	x8, #9
	stp	x28, x27, [sp, #272]
	stp	x26, x25, [sp, #288]
	stp	x24, x23, [sp, #304]
	stp	x22, x21, [sp, #320]
	stp	x20, x19, [sp, #336]
	b.hi	.LBB80_41
	adrp	x9, .LJTI80_0
	add	x9, x9, :lo12:.LJTI80_0
	adr	x10, .LBB80_2
	ldrb	w11, [x9, x8]
	add	x10, x10, x11, lsl #2
	br	x10
.LBB80_2:
	ldr	w8, [x3]
	ldur	w9, [x3, #1]
	orr	x8, x8, x9, lsl #32
	mov	x9, #27718
	movk	x9, #24943, lsl #16
	movk	x9, #28524, lsl #32
	movk	x9, #29793, lsl #48
	cmp	x8, x9
	b.ne	.LBB80_41
	mov	w20, #9
	ldr	x19, [x1, #80]
	ldr	x22, [x1, #8]
	ldrb	w8, [x1, #104]
	subs	x9, x22, x19
	b.hi	.LBB80_36
	b	.LBB80_44
.LBB80_4:
	mov	x10, #26707
	ldr	x9, [x3]
	ldur	x8, [x3, #1]
	movk	x10, #29295, lsl #16
	movk	x10, #21876, lsl #32
	movk	x10, #28233, lsl #48
	cmp	x9, x10
	b.ne	.LBB80_29
	mov	x10, #28520
	movk	x10, #29810, lsl #16
	movk	x10, #18773, lsl #32
	movk	x10, #29806, lsl #48
	cmp	x8, x10
	b.ne	.LBB80_29
	mov	w20, #4
	ldr	x19, [x1, #80]
	ldr	x22, [x1, #8]
	ldrb	w8, [x1, #104]
	subs	x9, x22, x19
	b.hi	.LBB80_36
	b	.LBB80_44
.LBB80_7:
	mov	x9, #26707
	ldr	x8, [x3]
	movk	x9, #29295, lsl #16
	movk	x9, #21364, lsl #32
	movk	x9, #28520, lsl #48
	cmp	x8, x9
	b.ne	.LBB80_41
	mov	x9, #28520
	ldur	x8, [x3, #6]
	movk	x9, #29810, lsl #16
	movk	x9, #18773, lsl #32
	movk	x9, #29806, lsl #48
	cmp	x8, x9
	b.ne	.LBB80_41
	mov	w20, #2
	ldr	x19, [x1, #80]
	ldr	x22, [x1, #8]
	ldrb	w8, [x1, #104]
	subs	x9, x22, x19
	b.hi	.LBB80_36
	b	.LBB80_44
.LBB80_10:
	ldr	w8, [x3]
	ldur	w9, [x3, #3]
	orr	x8, x8, x9, lsl #32
	mov	x9, #28492
	movk	x9, #26478, lsl #16
	movk	x9, #18791, lsl #32
	movk	x9, #29806, lsl #48
	cmp	x8, x9
	b.ne	.LBB80_41
	mov	w20, #5
	ldr	x19, [x1, #80]
	ldr	x22, [x1, #8]
	ldrb	w8, [x1, #104]
	subs	x9, x22, x19
	b.hi	.LBB80_36
	b	.LBB80_44
.LBB80_12:
	mov	x9, #28492
	ldr	x8, [x3]
	movk	x9, #26478, lsl #16
	movk	x9, #18773, lsl #32
	movk	x9, #29806, lsl #48
	cmp	x8, x9
	b.eq	.LBB80_32
	mov	x9, #26707
	movk	x9, #29295, lsl #16
	movk	x9, #18804, lsl #32
	movk	x9, #29806, lsl #48
	cmp	x8, x9
	b.ne	.LBB80_41
	mov	w20, #3
	ldr	x19, [x1, #80]
	ldr	x22, [x1, #8]
	ldrb	w8, [x1, #104]
	subs	x9, x22, x19
	b.hi	.LBB80_36
	b	.LBB80_44
.LBB80_15:
	mov	x9, #25924
	ldr	x8, [x3]
	movk	x9, #26979, lsl #16
	movk	x9, #24941, lsl #32
	movk	x9, #22124, lsl #48
	cmp	x8, x9
	b.ne	.LBB80_41
	mov	x9, #24941
	ldur	x8, [x3, #4]
	movk	x9, #22124, lsl #16
	movk	x9, #27745, lsl #32
	movk	x9, #25973, lsl #48
	cmp	x8, x9
	b.ne	.LBB80_41
	mov	w20, #11
	ldr	x19, [x1, #80]
	ldr	x22, [x1, #8]
	ldrb	w8, [x1, #104]
	subs	x9, x22, x19
	b.hi	.LBB80_36
	b	.LBB80_44
.LBB80_18:
	ldr	w8, [x3]
	ldur	w9, [x3, #2]
	orr	x8, x8, x9, lsl #32
	mov	x9, #28484
	movk	x9, #25205, lsl #16
	movk	x9, #25205, lsl #32
	movk	x9, #25964, lsl #48
	cmp	x8, x9
	b.ne	.LBB80_41
	mov	w20, #10
	ldr	x19, [x1, #80]
	ldr	x22, [x1, #8]
	ldrb	w8, [x1, #104]
	subs	x9, x22, x19
	b.hi	.LBB80_36
	b	.LBB80_44
.LBB80_20:
	mov	x9, #28492
	ldr	x8, [x3]
	movk	x9, #26478, lsl #16
	movk	x9, #29779, lsl #32
	movk	x9, #26994, lsl #48
	cmp	x8, x9
	b.ne	.LBB80_41
	mov	x9, #26478
	ldur	x8, [x3, #2]
	movk	x9, #29779, lsl #16
	movk	x9, #26994, lsl #32
	movk	x9, #26478, lsl #48
	cmp	x8, x9
	b.ne	.LBB80_41
	mov	w20, #13
	ldr	x19, [x1, #80]
	ldr	x22, [x1, #8]
	ldrb	w8, [x1, #104]
	subs	x9, x22, x19
	b.hi	.LBB80_36
	b	.LBB80_44
.LBB80_23:
	mov	x9, #28492
	ldr	x8, [x3]
	movk	x9, #26478, lsl #16
	orr	x9, x9, x9, lsl #32
	cmp	x8, x9
	b.ne	.LBB80_41
	mov	x9, #19559
	ldur	x8, [x3, #3]
	movk	x9, #28271, lsl #16
	movk	x9, #18791, lsl #32
	movk	x9, #29806, lsl #48
	cmp	x8, x9
	b.ne	.LBB80_41
	mov	w20, #7
	ldr	x19, [x1, #80]
	ldr	x22, [x1, #8]
	ldrb	w8, [x1, #104]
	subs	x9, x22, x19
	b.hi	.LBB80_36
	b	.LBB80_44
.LBB80_26:
	mov	x9, #26707
	ldr	x8, [x3]
	movk	x9, #29295, lsl #16
	movk	x9, #21364, lsl #32
	movk	x9, #28520, lsl #48
	cmp	x8, x9
	b.ne	.LBB80_41
	mov	x9, #26707
	ldur	x8, [x3, #5]
	movk	x9, #29295, lsl #16
	movk	x9, #18804, lsl #32
	movk	x9, #29806, lsl #48
	cmp	x8, x9
	b.ne	.LBB80_41
	mov	w20, #1
	ldr	x19, [x1, #80]
	ldr	x22, [x1, #8]
	ldrb	w8, [x1, #104]
	subs	x9, x22, x19
	b.hi	.LBB80_36
	b	.LBB80_44
.LBB80_29:
	mov	x10, #26964
	movk	x10, #25965, lsl #16
	movk	x10, #29811, lsl #32
	movk	x10, #28001, lsl #48
	cmp	x9, x10
	b.ne	.LBB80_33
	mov	x10, #28009
	movk	x10, #29541, lsl #16
	movk	x10, #24948, lsl #32
	movk	x10, #28781, lsl #48
	cmp	x8, x10
	b.ne	.LBB80_33
	mov	w20, #15
	ldr	x19, [x1, #80]
	ldr	x22, [x1, #8]
	ldrb	w8, [x1, #104]
	subs	x9, x22, x19
	b.hi	.LBB80_36
	b	.LBB80_44
.LBB80_32:
	mov	w20, #6
	ldr	x19, [x1, #80]
	ldr	x22, [x1, #8]
	ldrb	w8, [x1, #104]
	subs	x9, x22, x19
	b.hi	.LBB80_36
	b	.LBB80_44
.LBB80_33:
	mov	x10, #31042
	movk	x10, #25972, lsl #16
	movk	x10, #29249, lsl #32
	movk	x10, #24946, lsl #48
	cmp	x9, x10
	b.ne	.LBB80_41
	mov	x9, #29817
	movk	x9, #16741, lsl #16
	movk	x9, #29298, lsl #32
	movk	x9, #31073, lsl #48
	cmp	x8, x9
	b.ne	.LBB80_41
	mov	w20, #17
	ldr	x19, [x1, #80]
	ldr	x22, [x1, #8]
	ldrb	w8, [x1, #104]
	subs	x9, x22, x19
	b.ls	.LBB80_44
.LBB80_36:
	ldr	x21, [x1]
	add	x23, x21, x19
	ldrb	w25, [x23]
	and	w10, w25, #0xffffffdf
	cmp	w10, #93
	b.ne	.LBB80_42
	sub	w9, w8, #1
	cmp	w9, #1
	b.hi	.LBB80_60
	movi	v0.2d, #0000000000000000
	ldr	x8, [x1, #40]
	ldr	x10, [x1, #56]
	add	x9, x8, #1
	cmp	x9, x10
	str	x9, [x1, #40]
	stp	q0, q0, [x29, #-80]
	b.ne	.LBB80_50
	mov	x21, x2
	ldp	x8, x2, [x1, #16]
	ldrh	w9, [x1, #72]
	ldrb	w10, [x1, #74]
	mov	x22, x0
	ldr	x3, [x1, #32]
	ldr	x4, [x1, #64]
	sub	x0, x29, #80
	sub	x5, x29, #112
	mov	x23, x1
	mov	x1, x8
	sturh	w9, [x29, #-112]
	sturb	w10, [x29, #-110]
	bl	"json::index::refill"
	ldp	q0, q1, [x29, #-80]
	mov	x1, x23
	ldur	x8, [x29, #-72]
	ldr	x3, [x23, #32]
	str	xzr, [x23, #40]
	stp	q0, q1, [x23, #48]
	cbz	x8, .LBB80_64
	ldur	x8, [x29, #-80]
	ldr	w9, [x3]
	add	x9, x8, x9
	b	.LBB80_65
.LBB80_41:
	mov	w8, #1
	mov	w9, #4
	strb	w8, [x0]
	stp	x9, x5, [x0, #8]
	b	.LBB80_62
.LBB80_42:
	cmp	w25, #32
	b.hi	.LBB80_51
	mov	w10, #1
	mov	x11, #9728
	lsl	x10, x10, x25
	movk	x11, #1, lsl #32
	tst	x10, x11
	b.eq	.LBB80_51
.LBB80_44:
	subs	w9, w8, #3
	mov	w10, #9
	sub	w11, w8, #4
	csel	w10, wzr, w10, eq
	cmn	w9, #2
	mov	w9, #3
	csel	w24, w10, wzr, lo
	csel	w8, w9, w8, lo
	cmn	w11, #3
	strb	w8, [x1, #104]
	b.hs	.LBB80_61
	mov	x4, xzr
	mov	x3, xzr
	movi	v0.2d, #0000000000000000
	mov	x22, xzr
	cmp	w24, #4
	mov	w8, #2
	stp	q0, q0, [sp, #16]
	b.gt	.LBB80_80
.LBB80_46:
	cmp	w24, #2
	b.gt	.LBB80_49
	cbz	w24, .LBB80_82
	cmp	w24, #1
	mov	x4, x22
	b.eq	.LBB80_84
	b	.LBB80_82
.LBB80_49:
	mov	x4, x22
	b	.LBB80_84
.LBB80_50:
	ldr	x3, [x1, #32]
	ldr	x10, [x1, #48]
	add	x8, x8, #2
	ldr	w9, [x3, x9, lsl #2]
	add	x9, x10, x9
	ldr	x10, [x1, #8]
	str	x9, [x1, #80]
	cmp	x9, x10
	b.lo	.LBB80_66
	b	.LBB80_70
.LBB80_51:
	cmp	w8, #2
	b.hs	.LBB80_60
	mov	x3, xzr
	cmp	w25, #91
	mov	w8, #3
	mov	w24, #9
	b.le	.LBB80_72
	cmp	w25, #109
	b.le	.LBB80_113
	cmp	w25, #110
	b.eq	.LBB80_148
	cmp	w25, #116
	b.eq	.LBB80_150
	cmp	w25, #123
	b.ne	.LBB80_152
	movi	v0.2d, #0000000000000000
	ldr	x8, [x1, #40]
	ldr	x9, [x1, #56]
	add	x8, x8, #1
	cmp	x8, x9
	str	x8, [x1, #40]
	stp	q0, q0, [x29, #-80]
	b.ne	.LBB80_176
	mov	x21, x2
	ldp	x8, x2, [x1, #16]
	ldrh	w9, [x1, #72]
	ldrb	w10, [x1, #74]
	mov	x22, x0
	ldr	x3, [x1, #32]
	ldr	x4, [x1, #64]
	sub	x0, x29, #80
	sub	x5, x29, #112
	mov	x23, x1
	mov	x1, x8
	sturh	w9, [x29, #-112]
	sturb	w10, [x29, #-110]
	bl	"json::index::refill"
	ldp	q0, q1, [x29, #-80]
	mov	x1, x23
	ldur	x8, [x29, #-72]
	str	xzr, [x23, #40]
	stp	q0, q1, [x23, #48]
	cbz	x8, .LBB80_238
	ldr	x8, [x1, #32]
	ldur	x9, [x29, #-80]
	ldr	w8, [x8]
	add	x8, x9, x8
	b	.LBB80_239
.LBB80_60:
	mov	w9, #3
	cmp	w8, #3
	strb	w9, [x1, #104]
	b.ne	.LBB80_63
.LBB80_61:
	adrp	x8, .LCPI80_1
	mov	w9, #1
	ldr	q0, [x8, :lo12:.LCPI80_1]
	strb	w9, [x0]
	stur	q0, [x0, #8]
.LBB80_62:
	strb	wzr, [x0, #24]
	b	.LBB80_85
.LBB80_63:
	mov	x4, xzr
	mov	x3, xzr
	mov	w24, #9
	movi	v0.2d, #0000000000000000
	mov	x22, xzr
	cmp	w24, #4
	mov	w8, #2
	stp	q0, q0, [sp, #16]
	b.le	.LBB80_46
	b	.LBB80_80
.LBB80_64:
	ldr	x9, [x1, #24]
.LBB80_65:
	mov	w8, #1
	mov	x0, x22
	mov	x2, x21
	ldr	x10, [x1, #8]
	str	x9, [x1, #80]
	cmp	x9, x10
	b.hs	.LBB80_70
.LBB80_66:
	ldr	x10, [x1]
	ldrb	w9, [x10, x9]
	cmp	w9, #44
	b.ne	.LBB80_70
	movi	v0.2d, #0000000000000000
	ldr	x9, [x1, #56]
	str	x8, [x1, #40]
	cmp	x8, x9
	stp	q0, q0, [x29, #-80]
	b.ne	.LBB80_71
	mov	x21, x2
	ldp	x8, x2, [x1, #16]
	ldrh	w9, [x1, #72]
	ldrb	w10, [x1, #74]
	mov	x22, x0
	ldr	x4, [x1, #64]
	sub	x0, x29, #80
	sub	x5, x29, #112
	mov	x23, x1
	mov	x1, x8
	sturh	w9, [x29, #-112]
	sturb	w10, [x29, #-110]
	bl	"json::index::refill"
	ldp	q0, q1, [x29, #-80]
	mov	x1, x23
	ldur	x8, [x29, #-72]
	str	xzr, [x23, #40]
	stp	q0, q1, [x23, #48]
	cbz	x8, .LBB80_75
	ldr	x8, [x1, #32]
	ldur	x9, [x29, #-80]
	ldr	w8, [x8]
	add	x9, x9, x8
	b	.LBB80_76
.LBB80_70:
	mov	w8, #2
	b	.LBB80_78
.LBB80_71:
	ldur	x9, [x1, #48]
	ldr	w8, [x3, x8, lsl #2]
	add	x9, x9, x8
	b	.LBB80_77
.LBB80_72:
	cmp	w25, #57
	b.gt	.LBB80_108
	cmp	w25, #34
	b.eq	.LBB80_143
	cmp	w25, #44
	mov	x4, x3
	b.eq	.LBB80_79
	b	.LBB80_152
.LBB80_75:
	ldr	x9, [x1, #24]
.LBB80_76:
	mov	x0, x22
	mov	x2, x21
.LBB80_77:
	mov	w8, wzr
	str	x9, [x1, #80]
.LBB80_78:
	cmp	w25, #125
	mov	w9, #3
	mov	x3, xzr
	mov	x4, xzr
	csinc	w24, w9, wzr, ne
.LBB80_79:
	strb	w8, [x1, #104]
	movi	v0.2d, #0000000000000000
	mov	x22, xzr
	cmp	w24, #4
	mov	w8, #2
	stp	q0, q0, [sp, #16]
	b.le	.LBB80_46
.LBB80_80:
	cmp	w24, #6
	b.le	.LBB80_86
	sub	w9, w24, #7
	mov	x4, x22
	cmp	w9, #2
	b.hs	.LBB80_84
.LBB80_82:
	mov	w9, #1
	mov	w10, #55295
	mov	w22, #4
	lsl	w9, w9, w20
	movk	w10, #1, lsl #16
	tst	w9, w10
	b.eq	.LBB80_95
	mov	w8, #4
	mov	w22, #3
	mov	x4, x19
.LBB80_84:
	mov	w9, #1
	and	x8, x8, #0xff
	strb	w22, [x0, #24]
	strb	w9, [x0]
	stp	x8, x4, [x0, #8]
.LBB80_85:
	ldp	x20, x19, [sp, #336]
	ldp	x22, x21, [sp, #320]
	ldp	x24, x23, [sp, #304]
	ldp	x26, x25, [sp, #288]
	ldp	x28, x27, [sp, #272]
	ldp	x29, x30, [sp, #256]
	add	sp, sp, #352
	ret
.LBB80_86:
	cmp	w24, #5
	b.ne	.LBB80_93
	cmp	w20, #9
	stur	wzr, [x29, #-36]
	stur	xzr, [x29, #-48]
	stp	q0, q0, [x29, #-112]
	stp	q0, q0, [x29, #-80]
	stp	q0, q0, [sp, #48]
	stp	q0, q0, [sp, #80]
	stp	q0, q0, [sp, #112]
	b.gt	.LBB80_96
	b.lo	.LBB80_104
	tbnz	w4, #0, .LBB80_170
	cmp	x4, #8
	b.ne	.LBB80_196
	ldrb	w9, [x3]
	subs	w8, w9, #48
	b.hs	.LBB80_243
.LBB80_92:
	mov	w8, #1
	mov	w9, #7
	mov	w10, #4
	sturb	w8, [x29, #-80]
	b	.LBB80_364
.LBB80_93:
	mov	x21, x0
	add	x0, sp, #16
	mov	x22, x1
	mov	x1, x2
	mov	w2, w20
	mov	x5, x19
	bl	"amqp_json::reading::named::put_number"
	ldrb	w8, [sp, #16]
	mov	x1, x22
	mov	x0, x21
	cbz	w8, .LBB80_367
	ldrb	w8, [sp, #24]
	ldr	x4, [sp, #32]
	ldrb	w22, [sp, #40]
	b	.LBB80_84
.LBB80_95:
	mov	w8, w22
	mov	x4, x19
	b	.LBB80_84
.LBB80_96:
	cmp	w20, #12
	b.gt	.LBB80_103
	cmp	w20, #10
	sub	x8, x29, #32
	b.eq	.LBB80_117
	cmp	w20, #11
	b.ne	.LBB80_104
	mov	w9, #101
	cmp	x4, #7
	stp	x3, x4, [x29, #-32]
	sturb	w9, [x29, #-16]
	stur	wzr, [x8, #17]
	stur	wzr, [x29, #-12]
	b.hi	.LBB80_156
	cbz	x4, .LBB80_102
	ldrb	w8, [x3]
	cmp	w8, #101
	b.ne	.LBB80_193
.LBB80_102:
	mov	x8, xzr
	b	.LBB80_221
.LBB80_103:
	sub	w8, w20, #14
	cmp	w8, #3
	b.hs	.LBB80_105
.LBB80_104:
	mov	w8, #1
	mov	w9, #4
	sturb	w8, [x29, #-80]
	mov	w8, #3
	stp	x9, x19, [x29, #-72]
	sturb	w8, [x29, #-56]
	b	.LBB80_365
.LBB80_105:
	mov	x21, x2
	mov	x23, x1
	mov	x24, x0
	cmp	w20, #13
	b.ne	.LBB80_140
	add	x0, sp, #80
	mov	x1, x3
	mov	x2, x4
	mov	x3, x19
	bl	"amqp_json::reading::named::bytes_of"
	ldp	x19, x4, [sp, #88]
	ldrb	w8, [sp, #80]
	ldrb	w22, [sp, #104]
	cbz	w8, .LBB80_186
	mov	w8, #1
	mov	x0, x24
	mov	x1, x23
	cbnz	w8, .LBB80_142
	b	.LBB80_367
.LBB80_108:
	cmp	w25, #58
	mov	x4, x3
	b.eq	.LBB80_79
	cmp	w25, #91
	b.ne	.LBB80_152
	movi	v0.2d, #0000000000000000
	ldr	x8, [x1, #40]
	ldr	x9, [x1, #56]
	add	x8, x8, #1
	cmp	x8, x9
	str	x8, [x1, #40]
	stp	q0, q0, [x29, #-80]
	b.ne	.LBB80_171
	mov	x21, x2
	ldp	x8, x2, [x1, #16]
	ldrh	w9, [x1, #72]
	ldrb	w10, [x1, #74]
	mov	x22, x0
	ldr	x3, [x1, #32]
	ldr	x4, [x1, #64]
	sub	x0, x29, #80
	sub	x5, x29, #112
	mov	x23, x1
	mov	x1, x8
	sturh	w9, [x29, #-112]
	sturb	w10, [x29, #-110]
	bl	"json::index::refill"
	ldp	q0, q1, [x29, #-80]
	mov	x1, x23
	ldur	x8, [x29, #-72]
	str	xzr, [x23, #40]
	stp	q0, q1, [x23, #48]
	cbz	x8, .LBB80_234
	ldr	x8, [x1, #32]
	ldur	x9, [x29, #-80]
	ldr	w8, [x8]
	add	x8, x9, x8
	b	.LBB80_235
.LBB80_113:
	cmp	w25, #92
	mov	x4, x3
	b.eq	.LBB80_79
	cmp	w25, #102
	b.ne	.LBB80_152
	cmp	x9, #5
	b.hs	.LBB80_172
	mov	w10, wzr
	mov	w8, #32
	b	.LBB80_209
.LBB80_117:
	stur	wzr, [x8, #7]
	stur	xzr, [x29, #-32]
	tbnz	w4, #0, .LBB80_155
	cmp	x4, #16
	b.ne	.LBB80_179
	ldrb	w9, [x3]
	subs	w8, w9, #48
	b.lo	.LBB80_182
	ldrb	w10, [x3, #1]
	cmp	w9, #57
	b.hi	.LBB80_263
.LBB80_121:
	subs	w9, w10, #48
	b.lo	.LBB80_182
	cmp	w10, #57
	b.hi	.LBB80_290
.LBB80_123:
	ldrb	w11, [x3, #2]
	subs	w10, w11, #48
	b.lo	.LBB80_182
	ldrb	w12, [x3, #3]
	mov	x20, x1
	mov	x21, x0
	mov	x13, x3
	cmp	w11, #58
	b.hs	.LBB80_454
.LBB80_125:
	subs	w11, w12, #48
	mov	x0, x21
	mov	x1, x20
	b.lo	.LBB80_182
	cmp	w12, #58
	b.hs	.LBB80_498
.LBB80_127:
	ldrb	w14, [x13, #4]
	mov	x0, x21
	mov	x1, x20
	subs	w12, w14, #48
	b.lo	.LBB80_182
	ldrb	w15, [x13, #5]
	cmp	w14, #58
	b.hs	.LBB80_533
.LBB80_129:
	subs	w14, w15, #48
	mov	x0, x21
	mov	x1, x20
	b.lo	.LBB80_182
	cmp	w15, #58
	b.hs	.LBB80_574
.LBB80_131:
	ldrb	w16, [x13, #6]
	mov	x0, x21
	mov	x1, x20
	subs	w15, w16, #48
	b.lo	.LBB80_182
	ldrb	w17, [x13, #7]
	cmp	w16, #58
	b.hs	.LBB80_587
.LBB80_133:
	subs	w16, w17, #48
	mov	x0, x21
	mov	x1, x20
	b.lo	.LBB80_182
	cmp	w17, #58
	b.hs	.LBB80_603
.LBB80_135:
	ldrb	w18, [x13, #8]
	mov	x0, x21
	mov	x1, x20
	subs	w17, w18, #48
	b.lo	.LBB80_182
	ldrb	w3, [x13, #9]
	cmp	w18, #58
	b.lo	.LBB80_621
	cmp	w18, #65
	mov	x0, x21
	mov	x1, x20
	b.lo	.LBB80_182
	cmp	w18, #71
	b.hs	.LBB80_619
	sub	w17, w18, #55
	b	.LBB80_621
.LBB80_140:
	add	x0, sp, #48
	mov	x1, x3
	mov	x2, x4
	mov	x3, x19
	bl	"amqp_json::reading::named::bytes_of"
	ldp	x19, x4, [sp, #56]
	ldrb	w8, [sp, #48]
	ldrb	w22, [sp, #72]
	cbz	w8, .LBB80_187
	mov	w8, #1
	mov	x0, x24
	mov	x1, x23
	cbz	w8, .LBB80_367
.LBB80_142:
	mov	w8, w19
	b	.LBB80_84
.LBB80_143:
	add	x23, x19, #1
	add	x8, x19, #1
	sub	x9, x22, x23
	cmp	x9, #32
	b.lo	.LBB80_147
	add	x8, x19, #1
.LBB80_145:
	movi	v0.16b, #34
	movi	v1.16b, #92
	add	x10, x21, x8
	ldp	q2, q3, [x10]
	movi	v4.16b, #32
	adrp	x10, .LCPI80_0
	cmeq	v5.16b, v2.16b, v0.16b
	cmeq	v6.16b, v2.16b, v1.16b
	cmeq	v0.16b, v3.16b, v0.16b
	cmeq	v1.16b, v3.16b, v1.16b
	orr	v5.16b, v5.16b, v6.16b
	orr	v0.16b, v0.16b, v1.16b
	cmhi	v1.16b, v4.16b, v2.16b
	cmhi	v2.16b, v4.16b, v3.16b
	orr	v0.16b, v2.16b, v0.16b
	orr	v1.16b, v1.16b, v5.16b
	ldr	q2, [x10, :lo12:.LCPI80_0]
	and	v1.16b, v1.16b, v2.16b
	and	v0.16b, v0.16b, v2.16b
	addp	v0.16b, v1.16b, v0.16b
	addp	v0.16b, v0.16b, v0.16b
	addp	v0.16b, v0.16b, v0.16b
	fmov	w10, s0
	cbnz	w10, .LBB80_197
	sub	x9, x9, #32
	add	x8, x8, #32
	cmp	x9, #31
	b.hi	.LBB80_145
.LBB80_147:
	mov	x25, x2
	mov	x26, x0
	mov	x0, x21
	mov	x24, x1
	mov	x1, x22
	mov	x2, x8
	bl	"json::run::plain_end_16"
	mov	x1, x24
	b	.LBB80_198
.LBB80_148:
	cmp	x9, #4
	b.hs	.LBB80_174
	mov	w10, wzr
	mov	w8, #32
	b	.LBB80_212
.LBB80_150:
	cmp	x9, #4
	b.hs	.LBB80_177
	mov	w10, wzr
	mov	w8, #32
	b	.LBB80_216
.LBB80_152:
	cmp	w25, #45
	cinc	x24, x19, eq
	cset	w11, eq
	subs	x8, x22, x24
	b.ls	.LBB80_164
	ldrb	w10, [x21, x24]
	cmp	w10, #48
	b.ne	.LBB80_164
	add	x8, x24, #1
	b	.LBB80_228
.LBB80_155:
	mov	w9, #1
	b	.LBB80_180
.LBB80_156:
	ldr	x8, [x3]
	mov	x20, #7378697629483820646
	mov	x10, #9187201950435737471
	eor	x20, x20, #0x303030303030303
	and	x9, x8, #0x7f7f7f7f7f7f7f7f
	eor	x9, x9, x20
	add	x9, x9, x10
	orr	x8, x9, x8
	mov	x9, #-9187201950435737472
	and	x8, x8, #0x8080808080808080
	cmp	x8, x9
	b.ne	.LBB80_185
	mov	x21, x1
	mov	w8, #8
	cmp	x4, #40
	b.lo	.LBB80_160
.LBB80_158:
	movi	v0.16b, #127
	movi	v1.16b, #101
	add	x9, x3, x8
	ldp	q2, q5, [x9]
	adrp	x9, .LCPI80_2
	mov	x10, #-9187201950435737472
	and	v3.16b, v2.16b, v0.16b
	eor	v4.16b, v2.16b, v1.16b
	eor	v3.16b, v3.16b, v1.16b
	and	v4.16b, v4.16b, v0.16b
	eor	v1.16b, v5.16b, v1.16b
	ldr	q5, [x9, :lo12:.LCPI80_2]
	mov	v3.d[1], v4.d[1]
	and	v4.16b, v1.16b, v0.16b
	eor	v2.16b, v2.16b, v5.16b
	add	v3.2d, v3.2d, v0.2d
	add	v0.2d, v4.2d, v0.2d
	orr	v0.16b, v0.16b, v1.16b
	orr	v1.16b, v3.16b, v2.16b
	and	v0.16b, v1.16b, v0.16b
	ext	v1.16b, v0.16b, v0.16b, #8
	and	v0.8b, v0.8b, v1.8b
	fmov	x9, d0
	bics	xzr, x10, x9
	b.ne	.LBB80_160
	mov	x22, x0
	sub	x0, x29, #32
	add	x1, x8, #32
	mov	x23, x2
	mov	x2, x4
	mov	x24, x3
	mov	x25, x4
	bl	"core::slice::words::skip_far::<#d9bf6fcacf29a880>"
	mov	x8, x0
	mov	x4, x25
	mov	x3, x24
	sub	x9, x25, x0
	mov	x2, x23
	mov	x0, x22
	cmp	x9, #31
	b.hi	.LBB80_158
.LBB80_160:
	sub	x9, x4, x8
	mov	x1, x21
.LBB80_161:
	cmp	x9, #9
	b.lo	.LBB80_220
	ldr	x10, [x3, x8]
	mov	x12, #9187201950435737471
	sub	x9, x9, #8
	and	x11, x10, #0x7f7f7f7f7f7f7f7f
	eor	x11, x11, x20
	add	x11, x11, x12
	mov	x12, #-9187201950435737472
	orr	x10, x11, x10
	and	x10, x10, #0x8080808080808080
	eor	x11, x10, #0x8080808080808080
	cmp	x10, x12
	mov	w10, #8
	rbit	x11, x11
	clz	x11, x11
	lsr	x11, x11, #3
	csel	x10, x10, x11, eq
	add	x11, x10, x8
	add	x8, x8, #8
	cmp	x11, x8
	b.hs	.LBB80_161
	add	x8, x10, x8
	sub	x8, x8, #8
	b	.LBB80_221
.LBB80_164:
	cmp	x8, #16
	mov	x8, x24
	b.lo	.LBB80_169
	neg	x8, x24
	add	x10, x21, x24
	sub	x9, x9, x11
.LBB80_166:
	movi	v0.16b, #198
	ldr	q1, [x10], #16
	movi	v2.16b, #246
	adrp	x11, .LCPI80_0
	add	v0.16b, v1.16b, v0.16b
	ldr	q1, [x11, :lo12:.LCPI80_0]
	cmhi	v0.16b, v2.16b, v0.16b
	and	v0.16b, v0.16b, v1.16b
	addp	v0.16b, v0.16b, v0.16b
	addp	v0.16b, v0.16b, v0.16b
	addp	v0.16b, v0.16b, v0.16b
	umov	w11, v0.h[0]
	cbnz	w11, .LBB80_225
	sub	x9, x9, #16
	sub	x8, x8, #16
	cmp	x9, #15
	b.hi	.LBB80_166
	neg	x8, x8
.LBB80_169:
	mov	x25, x0
	mov	x0, x21
	mov	x26, x1
	mov	x1, x22
	mov	x27, x2
	mov	x2, x8
	bl	"json::run::digits_end_slowly"
	mov	x2, x27
	mov	x1, x26
	mov	x8, x0
	mov	x0, x25
	b	.LBB80_226
.LBB80_170:
	mov	w8, #1
	mov	w9, #6
	mov	w10, #4
	sturb	w8, [x29, #-80]
	b	.LBB80_364
.LBB80_171:
	ldr	x9, [x1, #32]
	ldr	x10, [x1, #48]
	ldr	w8, [x9, x8, lsl #2]
	add	x8, x10, x8
	b	.LBB80_236
.LBB80_172:
	ldur	w8, [x23, #1]
	mov	w10, #27745
	movk	w10, #25971, lsl #16
	cmp	w8, w10
	cset	w10, eq
	cmp	x9, #5
	b.ne	.LBB80_208
	mov	w8, #32
	b	.LBB80_209
.LBB80_174:
	ldrb	w8, [x23, #3]
	ldrb	w10, [x23, #2]
	ldrb	w11, [x23, #1]
	cmp	w8, #108
	mov	w8, #108
	ccmp	w10, w8, #0, eq
	mov	w8, #117
	ccmp	w11, w8, #0, eq
	cset	w10, eq
	cmp	x9, #4
	b.ne	.LBB80_211
	mov	w8, #32
	b	.LBB80_212
.LBB80_176:
	ldr	x9, [x1, #32]
	ldr	x10, [x1, #48]
	ldr	w8, [x9, x8, lsl #2]
	add	x8, x10, x8
	b	.LBB80_240
.LBB80_177:
	ldrb	w8, [x23, #3]
	ldrb	w10, [x23, #2]
	ldrb	w11, [x23, #1]
	cmp	w8, #101
	mov	w8, #117
	ccmp	w10, w8, #0, eq
	mov	w8, #114
	ccmp	w11, w8, #0, eq
	cset	w10, eq
	cmp	x9, #4
	b.ne	.LBB80_215
	mov	w8, #32
	b	.LBB80_216
.LBB80_179:
	mov	w9, #2
.LBB80_180:
	stur	w9, [x8, #7]
	ldurb	w8, [x29, #-25]
	cmp	w8, #1
	b.gt	.LBB80_183
	cbnz	w8, .LBB80_190
.LBB80_182:
	mov	w8, #1
	mov	w9, #7
	b	.LBB80_191
.LBB80_183:
	cmp	w8, #2
	b.ne	.LBB80_192
	mov	w8, #1
	mov	w9, #8
	b	.LBB80_191
.LBB80_185:
	eor	x8, x8, #0x8080808080808080
	rbit	x8, x8
	clz	x8, x8
	lsr	x8, x8, #3
	b	.LBB80_221
.LBB80_186:
	ldrb	w8, [sp, #111]
	ldurh	w9, [sp, #109]
	sub	x0, x29, #80
	mov	x1, x21
	mov	w2, #83
	orr	w8, w9, w8, lsl #16
	ldur	w9, [sp, #105]
	b	.LBB80_188
.LBB80_187:
	ldrb	w8, [sp, #79]
	ldurh	w9, [sp, #77]
	sub	x0, x29, #80
	mov	x1, x21
	mov	w2, #120
	orr	w8, w9, w8, lsl #16
	ldur	w9, [sp, #73]
.LBB80_188:
	orr	x20, x9, x8, lsl #32
	mov	x3, x19
	bl	"amqp_json::reading::put::put_counted"
	orr	x8, x20, x22
	mov	x0, x24
	mov	x1, x23
	cbz	x8, .LBB80_365
	mov	x0, x19
	bl	rattle_dealloc
	mov	x1, x23
	mov	x0, x24
	b	.LBB80_365
.LBB80_190:
	mov	w8, #1
	mov	w9, #6
.LBB80_191:
	mov	w10, #4
	sturb	w8, [x29, #-80]
	b	.LBB80_364
.LBB80_192:
	mov	w8, #1
	mov	w9, wzr
	mov	x19, xzr
	mov	x10, xzr
	sturb	w8, [x29, #-80]
	b	.LBB80_364
.LBB80_193:
	cmp	x4, #1
	b.eq	.LBB80_362
	ldrb	w8, [x3, #1]
	cmp	w8, #101
	b.ne	.LBB80_268
	mov	w8, #1
	b	.LBB80_221
.LBB80_196:
	mov	w8, #1
	mov	w9, #8
	mov	w10, #4
	sturb	w8, [x29, #-80]
	b	.LBB80_364
.LBB80_197:
	rbit	w9, w10
	mov	x25, x2
	mov	x26, x0
	clz	w9, w9
	add	x0, x9, x8
.LBB80_198:
	cmp	x0, x22
	b.hs	.LBB80_203
	ldrb	w8, [x21, x0]
	cmp	w8, #34
	b.ne	.LBB80_203
	movi	v0.2d, #0000000000000000
	ldr	x8, [x1, #40]
	ldr	x10, [x1, #56]
	mov	x22, x0
	add	x9, x8, #1
	cmp	x9, x10
	str	x9, [x1, #40]
	stp	q0, q0, [x29, #-80]
	b.ne	.LBB80_260
	ldp	x8, x2, [x1, #16]
	sub	x0, x29, #80
	ldrh	w9, [x1, #72]
	ldrb	w10, [x1, #74]
	sub	x5, x29, #112
	ldr	x3, [x1, #32]
	ldr	x4, [x1, #64]
	mov	x24, x1
	mov	x1, x8
	sturh	w9, [x29, #-112]
	sturb	w10, [x29, #-110]
	bl	"json::index::refill"
	ldp	q0, q1, [x29, #-80]
	mov	x1, x24
	ldur	x9, [x29, #-72]
	ldr	x8, [x24, #32]
	str	xzr, [x24, #40]
	stp	q0, q1, [x24, #48]
	cbz	x9, .LBB80_289
	ldur	x10, [x29, #-80]
	ldr	w11, [x8]
	mov	x9, xzr
	b	.LBB80_261
.LBB80_203:
	ldp	x3, x23, [x1, #88]
	sub	x8, x29, #1
	stp	x8, xzr, [x1, #88]
	mov	x24, x1
	add	x2, x19, #1
	mov	x0, x21
	mov	x1, x22
	mov	x4, x23
	mov	x21, x3
	bl	"json::unescape::unescape"
	and	w8, w0, #0xff
	cmp	w8, #1
	b.ne	.LBB80_207
	movi	v0.2d, #0000000000000000
	add	x8, x21, x1
	sub	x9, x23, x1
	ldr	x10, [x24, #40]
	stp	x8, x9, [x24, #88]
	ldr	x8, [x24, #56]
	mov	x4, x1
	mov	x1, x24
	add	x9, x10, #1
	cmp	x9, x8
	stp	q0, q0, [x29, #-80]
	str	x9, [x24, #40]
	b.ne	.LBB80_237
	ldp	x8, x2, [x1, #16]
	mov	x22, x4
	ldrh	w9, [x1, #72]
	ldrb	w10, [x1, #74]
	sub	x0, x29, #80
	ldr	x3, [x1, #32]
	ldr	x4, [x1, #64]
	sub	x5, x29, #112
	mov	x1, x8
	sturh	w9, [x29, #-112]
	sturb	w10, [x29, #-110]
	bl	"json::index::refill"
	ldp	q0, q1, [x29, #-80]
	mov	x1, x24
	ldur	x9, [x29, #-72]
	ldr	x8, [x24, #32]
	str	xzr, [x24, #40]
	stp	q0, q1, [x24, #48]
	cbz	x9, .LBB80_275
	ldur	x10, [x29, #-80]
	ldr	w11, [x8]
	mov	x9, xzr
	add	x10, x10, x11
	b	.LBB80_276
.LBB80_207:
	mov	x1, x24
	mov	x4, xzr
	str	x21, [x24, #88]
	mov	w8, #3
	mov	w24, #9
	str	x23, [x1, #96]
	mov	x3, xzr
	mov	x0, x26
	mov	x2, x25
	b	.LBB80_79
.LBB80_208:
	ldrb	w8, [x23, #5]
.LBB80_209:
	cmp	w8, #32
	sub	w9, w8, #9
	and	w11, w8, #0xffffffdf
	ccmp	w8, #13, #4, ne
	mov	w12, #93
	mov	x4, xzr
	ccmp	w9, #2, #0, ne
	cset	w9, lo
	cmp	w11, #91
	ccmp	w11, w12, #4, ne
	mov	w11, #58
	ccmp	w8, w11, #4, ne
	mov	w11, #44
	ccmp	w8, w11, #4, ne
	mov	w8, #3
	csinc	w9, w9, wzr, ne
	cbz	w10, .LBB80_219
	tbnz	w9, #0, .LBB80_218
	b	.LBB80_219
.LBB80_211:
	ldrb	w8, [x23, #4]
.LBB80_212:
	cmp	w8, #32
	sub	w9, w8, #9
	and	w11, w8, #0xffffffdf
	ccmp	w8, #13, #4, ne
	mov	w12, #93
	mov	x4, xzr
	ccmp	w9, #2, #0, ne
	cset	w9, lo
	cmp	w11, #91
	ccmp	w11, w12, #4, ne
	mov	w11, #58
	ccmp	w8, w11, #4, ne
	mov	w11, #44
	ccmp	w8, w11, #4, ne
	mov	w8, #3
	csinc	w9, w9, wzr, ne
	cbz	w10, .LBB80_219
	tbz	w9, #0, .LBB80_219
	mov	w24, #8
	mov	x23, x4
	b	.LBB80_333
.LBB80_215:
	ldrb	w8, [x23, #4]
.LBB80_216:
	cmp	w8, #32
	sub	w9, w8, #9
	and	w11, w8, #0xffffffdf
	ccmp	w8, #13, #4, ne
	mov	w12, #93
	mov	x4, xzr
	ccmp	w9, #2, #0, ne
	cset	w9, lo
	cmp	w11, #91
	ccmp	w11, w12, #4, ne
	mov	w11, #58
	ccmp	w8, w11, #4, ne
	mov	w11, #44
	ccmp	w8, w11, #4, ne
	mov	w8, #3
	csinc	w9, w9, wzr, ne
	cbz	w10, .LBB80_219
	tbz	w9, #0, .LBB80_219
.LBB80_218:
	mov	w24, #7
	mov	x23, x4
	b	.LBB80_333
.LBB80_219:
	mov	x3, x4
	b	.LBB80_79
.LBB80_220:
	sub	x8, x4, #8
	mov	x11, #9187201950435737471
	ldr	x9, [x3, x8]
	and	x10, x9, #0x7f7f7f7f7f7f7f7f
	eor	x10, x10, x20
	add	x10, x10, x11
	mov	x11, #-9187201950435737472
	orr	x9, x10, x9
	and	x9, x9, #0x8080808080808080
	eor	x10, x9, #0x8080808080808080
	cmp	x9, x11
	mov	w9, #8
	rbit	x10, x10
	clz	x10, x10
	lsr	x10, x10, #3
	csel	x9, x9, x10, eq
	add	x8, x9, x8
.LBB80_221:
	cmp	x8, x4
	b.hs	.LBB80_362
	add	x9, x8, #1
	cmp	x4, x9
	b.eq	.LBB80_362
	add	x9, x3, x9
	ldrsb	w10, [x9]
	and	w11, w10, #0xff
	tbnz	w10, #31, .LBB80_241
	mov	w10, #1
	b	.LBB80_294
.LBB80_225:
	umov	w9, v0.h[0]
	rbit	w9, w9
	clz	w9, w9
	sub	x8, x9, x8
.LBB80_226:
	cmp	x8, x24
	b.ne	.LBB80_228
.LBB80_227:
	mov	x3, xzr
	mov	x4, xzr
	mov	w8, #3
	mov	w24, #9
	b	.LBB80_79
.LBB80_228:
	cmp	x8, x22
	b.hs	.LBB80_302
	ldrb	w9, [x21, x8]
	cmp	w9, #46
	b.ne	.LBB80_302
	add	x24, x8, #1
	mov	x26, x2
	mov	x25, x1
	sub	x8, x22, x24
	mov	x27, x0
	mov	x2, x24
	cmp	x8, #16
	b.lo	.LBB80_233
.LBB80_231:
	movi	v0.16b, #198
	ldr	q1, [x21, x2]
	movi	v2.16b, #246
	adrp	x9, .LCPI80_0
	add	v0.16b, v1.16b, v0.16b
	ldr	q1, [x9, :lo12:.LCPI80_0]
	cmhi	v0.16b, v2.16b, v0.16b
	and	v0.16b, v0.16b, v1.16b
	addp	v0.16b, v0.16b, v0.16b
	addp	v0.16b, v0.16b, v0.16b
	addp	v0.16b, v0.16b, v0.16b
	umov	w9, v0.h[0]
	cbnz	w9, .LBB80_300
	sub	x8, x8, #16
	add	x2, x2, #16
	cmp	x8, #15
	b.hi	.LBB80_231
.LBB80_233:
	mov	x0, x21
	mov	x1, x22
	bl	"json::run::digits_end_slowly"
	mov	x8, x0
	b	.LBB80_301
.LBB80_234:
	ldr	x8, [x1, #24]
.LBB80_235:
	mov	x0, x22
	mov	x2, x21
.LBB80_236:
	mov	x3, xzr
	mov	x4, xzr
	str	x8, [x1, #80]
	mov	w8, #1
	mov	w24, #2
	b	.LBB80_79
.LBB80_237:
	ldr	x8, [x1, #32]
	ldr	x10, [x1, #48]
	mov	x3, x21
	mov	x0, x26
	mov	x2, x25
	ldr	w11, [x8, x9, lsl #2]
	add	x10, x10, x11
	b	.LBB80_277
.LBB80_238:
	ldr	x8, [x1, #24]
.LBB80_239:
	mov	x0, x22
	mov	x2, x21
.LBB80_240:
	mov	x3, xzr
	mov	x4, xzr
	mov	w24, wzr
	str	x8, [x1, #80]
	mov	w8, #1
	b	.LBB80_79
.LBB80_241:
	ldrb	w10, [x9, #1]
	cmp	w11, #223
	and	w12, w10, #0x3f
	b.hi	.LBB80_266
	bfi	w12, w11, #6, #5
	mov	w10, #2
	mov	w11, w12
	b	.LBB80_294
.LBB80_243:
	ldrb	w10, [x3, #1]
	cmp	w9, #57
	b.hi	.LBB80_272
	mov	x20, x1
	mov	x21, x0
.LBB80_245:
	subs	w9, w10, #48
	b.lo	.LBB80_617
	cmp	w10, #57
	b.hi	.LBB80_352
.LBB80_247:
	ldrb	w11, [x3, #2]
	subs	w10, w11, #48
	b.lo	.LBB80_617
	ldrb	w12, [x3, #3]
	cmp	w11, #58
	b.hs	.LBB80_475
.LBB80_249:
	subs	w11, w12, #48
	b.lo	.LBB80_617
	cmp	w12, #58
	b.hs	.LBB80_509
.LBB80_251:
	ldrb	w13, [x3, #4]
	subs	w12, w13, #48
	b.lo	.LBB80_617
	ldrb	w14, [x3, #5]
	cmp	w13, #58
	b.hs	.LBB80_566
.LBB80_253:
	subs	w13, w14, #48
	b.lo	.LBB80_617
	cmp	w14, #58
	b.hs	.LBB80_579
.LBB80_255:
	ldrb	w16, [x3, #6]
	subs	w14, w16, #48
	b.lo	.LBB80_617
	ldrb	w15, [x3, #7]
	cmp	w16, #58
	b.hs	.LBB80_596
.LBB80_257:
	subs	w16, w15, #48
	b.lo	.LBB80_617
	cmp	w15, #58
	b.hs	.LBB80_608
.LBB80_259:
	add	w12, w13, w12, lsl #4
	add	w13, w16, w14, lsl #4
	add	w10, w11, w10, lsl #4
	add	w8, w9, w8, lsl #4
	sub	x0, x29, #112
	sub	x3, x29, #36
	ubfiz	w12, w12, #16, #8
	mov	x1, x2
	mov	w2, #102
	mov	w4, #4
	orr	w11, w12, w13, lsl #24
	bfi	w11, w10, #8, #8
	bfxil	w11, w8, #0, #8
	stur	w11, [x29, #-36]
	bl	"amqp_json::reading::put::put"
	ldurb	w8, [x29, #-112]
	ldurb	w10, [x29, #-104]
	ldur	x19, [x29, #-96]
	ldurb	w9, [x29, #-88]
	b	.LBB80_618
.LBB80_260:
	ldr	x8, [x1, #32]
	ldr	x10, [x1, #48]
	ldr	w11, [x8, x9, lsl #2]
.LBB80_261:
	add	x10, x10, x11
.LBB80_262:
	mov	x0, x26
	mov	x2, x25
	add	x3, x21, x23
	sub	x4, x22, x23
	b	.LBB80_277
.LBB80_263:
	cmp	w9, #65
	b.lo	.LBB80_182
	cmp	w9, #70
	b.hi	.LBB80_350
	sub	w8, w9, #55
	b	.LBB80_121
.LBB80_266:
	ldrb	w10, [x9, #2]
	cmp	w11, #239
	and	w10, w10, #0x3f
	b.hi	.LBB80_293
	ubfiz	w11, w11, #12, #4
	orr	w11, w11, w12, lsl #6
	orr	w11, w11, w10
	mov	w10, #3
	b	.LBB80_294
.LBB80_268:
	cmp	x4, #2
	b.eq	.LBB80_362
	ldrb	w8, [x3, #2]
	mov	x10, x1
	mov	x11, x0
	mov	x9, x3
	cmp	w8, #101
	b.ne	.LBB80_361
	mov	w8, #2
.LBB80_271:
	mov	x0, x11
	mov	x1, x10
	mov	x3, x9
	b	.LBB80_221
.LBB80_272:
	cmp	w9, #65
	b.lo	.LBB80_92
	mov	x20, x1
	mov	x21, x0
	cmp	w9, #70
	b.hi	.LBB80_452
	sub	w8, w9, #55
	b	.LBB80_245
.LBB80_275:
	ldr	x10, [x1, #24]
.LBB80_276:
	mov	x0, x26
	mov	x2, x25
	mov	x3, x21
	mov	x4, x22
.LBB80_277:
	str	x10, [x1, #80]
	ldr	x11, [x1, #8]
	cmp	x10, x11
	b.hs	.LBB80_283
	ldr	x11, [x1]
	ldrb	w10, [x11, x10]
	cmp	w10, #44
	b.eq	.LBB80_284
	cmp	w10, #58
	b.ne	.LBB80_283
	movi	v0.2d, #0000000000000000
	ldr	x10, [x1, #56]
	add	x9, x9, #1
	str	x9, [x1, #40]
	cmp	x9, x10
	stp	q0, q0, [x29, #-80]
	b.ne	.LBB80_287
	mov	x23, x2
	ldp	x9, x2, [x1, #16]
	mov	x21, x4
	ldrh	w10, [x1, #72]
	ldrb	w11, [x1, #74]
	ldr	x4, [x1, #64]
	mov	x22, x3
	mov	x24, x0
	sub	x0, x29, #80
	sub	x5, x29, #112
	mov	x25, x1
	mov	x1, x9
	mov	x3, x8
	sturh	w10, [x29, #-112]
	sturb	w11, [x29, #-110]
	bl	"json::index::refill"
	ldp	q0, q1, [x29, #-80]
	mov	x1, x25
	ldur	x8, [x29, #-72]
	str	xzr, [x25, #40]
	stp	q0, q1, [x25, #48]
	cbz	x8, .LBB80_355
	ldr	x8, [x1, #32]
	ldur	x9, [x29, #-80]
	ldr	w8, [x8]
	add	x8, x9, x8
	b	.LBB80_356
.LBB80_283:
	mov	w8, #2
	mov	w24, #5
	b	.LBB80_79
.LBB80_284:
	movi	v0.2d, #0000000000000000
	ldr	x10, [x1, #56]
	add	x9, x9, #1
	str	x9, [x1, #40]
	cmp	x9, x10
	stp	q0, q0, [x29, #-80]
	b.ne	.LBB80_288
	mov	x23, x2
	ldp	x9, x2, [x1, #16]
	mov	x21, x4
	ldrh	w10, [x1, #72]
	ldrb	w11, [x1, #74]
	ldr	x4, [x1, #64]
	mov	x22, x3
	mov	x24, x0
	sub	x0, x29, #80
	sub	x5, x29, #112
	mov	x25, x1
	mov	x1, x9
	mov	x3, x8
	sturh	w10, [x29, #-112]
	sturb	w11, [x29, #-110]
	bl	"json::index::refill"
	ldp	q0, q1, [x29, #-80]
	mov	x1, x25
	ldur	x8, [x29, #-72]
	str	xzr, [x25, #40]
	stp	q0, q1, [x25, #48]
	cbz	x8, .LBB80_358
	ldr	x8, [x1, #32]
	ldur	x9, [x29, #-80]
	ldr	w8, [x8]
	add	x9, x9, x8
	b	.LBB80_359
.LBB80_287:
	ldur	x10, [x1, #48]
	ldr	w8, [x8, x9, lsl #2]
	add	x8, x10, x8
	b	.LBB80_357
.LBB80_288:
	ldur	x10, [x1, #48]
	ldr	w8, [x8, x9, lsl #2]
	add	x9, x10, x8
	b	.LBB80_360
.LBB80_289:
	ldr	x10, [x1, #24]
	b	.LBB80_262
.LBB80_290:
	cmp	w10, #65
	b.lo	.LBB80_182
	cmp	w10, #70
	b.hi	.LBB80_471
	sub	w9, w10, #55
	b	.LBB80_123
.LBB80_293:
	ubfiz	w11, w11, #18, #3
	orr	w11, w11, w12, lsl #12
	ldrb	w12, [x9, #3]
	orr	w11, w11, w10, lsl #6
	mov	w10, #4
	bfxil	w11, w12, #0, #6
.LBB80_294:
	cmp	w11, #45
	b.ne	.LBB80_362
	mvn	x11, x8
	add	x11, x4, x11
	subs	x11, x11, x10
	b.eq	.LBB80_362
	cmp	x11, #1
	add	x9, x9, x10
	mov	x21, x2
	b.ne	.LBB80_298
	ldrb	w9, [x9]
	sub	w9, w9, #48
	cmp	w9, #10
	b.lo	.LBB80_314
	b	.LBB80_362
.LBB80_298:
	ldrb	w11, [x9]
	cmp	w11, #45
	b.ne	.LBB80_313
	ldrb	w9, [x9, #1]
	sub	w9, w9, #49
	cmp	w9, #9
	b.lo	.LBB80_314
	b	.LBB80_362
.LBB80_300:
	umov	w8, v0.h[0]
	rbit	w8, w8
	clz	w8, w8
	add	x8, x8, x2
.LBB80_301:
	cmp	x8, x24
	mov	x0, x27
	mov	x1, x25
	mov	x2, x26
	b.eq	.LBB80_227
.LBB80_302:
	cmp	x8, x22
	b.hs	.LBB80_329
	ldrb	w9, [x21, x8]
	and	w9, w9, #0xffffffdf
	cmp	w9, #69
	b.ne	.LBB80_329
	add	x24, x8, #1
	cmp	x24, x22
	b.hs	.LBB80_308
	ldrb	w9, [x21, x24]
	cmp	w9, #45
	b.eq	.LBB80_307
	cmp	w9, #43
	b.ne	.LBB80_308
.LBB80_307:
	add	x24, x8, #2
.LBB80_308:
	sub	x8, x22, x24
	mov	x25, x2
	mov	x26, x1
	mov	x27, x0
	cmp	x8, #16
	mov	x2, x24
	b.lo	.LBB80_312
	mov	x2, x24
.LBB80_310:
	movi	v0.16b, #198
	ldr	q1, [x21, x2]
	movi	v2.16b, #246
	adrp	x9, .LCPI80_0
	add	v0.16b, v1.16b, v0.16b
	ldr	q1, [x9, :lo12:.LCPI80_0]
	cmhi	v0.16b, v2.16b, v0.16b
	and	v0.16b, v0.16b, v1.16b
	addp	v0.16b, v0.16b, v0.16b
	addp	v0.16b, v0.16b, v0.16b
	addp	v0.16b, v0.16b, v0.16b
	umov	w9, v0.h[0]
	cbnz	w9, .LBB80_327
	sub	x8, x8, #16
	add	x2, x2, #16
	cmp	x8, #15
	b.hi	.LBB80_310
.LBB80_312:
	mov	x0, x21
	mov	x1, x22
	bl	"json::run::digits_end_slowly"
	mov	x8, x0
	b	.LBB80_328
.LBB80_313:
	sub	w9, w11, #49
	cmp	w9, #8
	b.hi	.LBB80_362
.LBB80_314:
	add	x9, x8, x10
	mov	x22, x1
	mov	x23, x0
	mov	x12, xzr
	add	x11, x9, #1
.LBB80_315:
	mov	x9, #-7378697629483820647
	mov	w24, #1
	mov	w10, #4
	movk	x9, #6553, lsl #48
	cmp	x12, x9
	mov	w9, #9
	b.hi	.LBB80_326
	ldrb	w13, [x3, x11]
	sub	w14, w13, #48
	cmp	w14, #9
	b.hi	.LBB80_326
	add	x9, x12, x12, lsl #2
	and	x10, x13, #0xf
	lsl	x9, x9, #1
	cmn	x10, x9
	b.hs	.LBB80_325
	add	x11, x11, #1
	add	x12, x9, x10
	cmp	x4, x11
	b.ne	.LBB80_315
	cmp	x12, #256
	mov	w9, #256
	csel	x25, x12, x9, lo
	cmp	x12, #255
	b.hi	.LBB80_325
	mov	x0, x3
	mov	x1, x8
	bl	"amqp_json::reading::named::unsigned"
	tbz	w0, #0, .LBB80_325
	lsr	x8, x1, #32
	mov	x20, x1
	cbnz	x8, .LBB80_325
	ldp	x9, x8, [x21, #8]
	cmp	x8, x9
	b.eq	.LBB80_590
.LBB80_323:
	ldr	x11, [x21]
	add	x12, x9, #1
	mov	w13, #68
	strb	w13, [x11, x9]
	sub	x9, x8, x12
	cmp	x9, #4
	stp	x11, x12, [x21]
	str	x8, [x21, #16]
	b.ls	.LBB80_592
.LBB80_324:
	lsr	x13, x20, #24
	add	x14, x11, x12
	lsr	x15, x20, #16
	mov	w24, wzr
	mov	x10, xzr
	mov	x19, xzr
	strb	w13, [x14, #1]
	lsr	x13, x20, #8
	mov	w9, wzr
	add	x12, x12, #5
	strb	w25, [x14]
	strb	w15, [x14, #2]
	strb	w13, [x14, #3]
	strb	w20, [x14, #4]
	stp	x11, x12, [x21]
	str	x8, [x21, #16]
	b	.LBB80_326
.LBB80_325:
	mov	w9, #9
	mov	w24, #1
	mov	w10, #4
.LBB80_326:
	mov	x0, x23
	mov	x1, x22
	b	.LBB80_363
.LBB80_327:
	umov	w8, v0.h[0]
	rbit	w8, w8
	clz	w8, w8
	add	x8, x8, x2
.LBB80_328:
	cmp	x8, x24
	mov	x0, x27
	mov	x1, x26
	mov	x2, x25
	b.eq	.LBB80_227
.LBB80_329:
	cmp	x8, x22
	b.hs	.LBB80_332
	ldrb	w9, [x21, x8]
	mov	w10, #1
	mov	x11, #9728
	movk	x11, #4097, lsl #32
	lsl	x10, x10, x9
	movk	x11, #1024, lsl #48
	cmp	w9, #58
	and	x10, x10, x11
	ccmp	x10, #0, #4, ls
	b.ne	.LBB80_332
	sub	w9, w9, #91
	mov	w10, #1
	mov	x11, #5
	lsl	x10, x10, x9
	movk	x11, #5, lsl #32
	cmp	w9, #34
	and	x9, x10, x11
	ccmp	x9, #0, #4, ls
	b.eq	.LBB80_227
.LBB80_332:
	sub	x4, x8, x19
	mov	w24, #6
.LBB80_333:
	movi	v0.2d, #0000000000000000
	ldr	x8, [x1, #40]
	ldr	x10, [x1, #56]
	add	x9, x8, #1
	cmp	x9, x10
	str	x9, [x1, #40]
	stp	q0, q0, [x29, #-80]
	b.ne	.LBB80_336
	mov	x22, x2
	ldp	x8, x2, [x1, #16]
	mov	x21, x4
	ldrh	w9, [x1, #72]
	ldrb	w10, [x1, #74]
	ldr	x3, [x1, #32]
	ldr	x4, [x1, #64]
	mov	x25, x0
	sub	x0, x29, #80
	sub	x5, x29, #112
	mov	x26, x1
	mov	x1, x8
	sturh	w9, [x29, #-112]
	sturb	w10, [x29, #-110]
	bl	"json::index::refill"
	ldp	q0, q1, [x29, #-80]
	mov	x1, x26
	ldur	x8, [x29, #-72]
	ldr	x3, [x26, #32]
	str	xzr, [x26, #40]
	stp	q0, q1, [x26, #48]
	cbz	x8, .LBB80_337
	ldur	x8, [x29, #-80]
	ldr	w9, [x3]
	add	x9, x8, x9
	b	.LBB80_338
.LBB80_336:
	ldr	x3, [x1, #32]
	ldr	x10, [x1, #48]
	add	x8, x8, #2
	ldr	w9, [x3, x9, lsl #2]
	add	x9, x10, x9
	b	.LBB80_339
.LBB80_337:
	ldr	x9, [x1, #24]
.LBB80_338:
	mov	w8, #1
	mov	x0, x25
	mov	x2, x22
	mov	x4, x21
.LBB80_339:
	ldr	x10, [x1, #8]
	str	x9, [x1, #80]
	cmp	x9, x10
	b.hs	.LBB80_344
	ldr	x10, [x1]
	ldrb	w9, [x10, x9]
	cmp	w9, #44
	b.ne	.LBB80_344
	movi	v0.2d, #0000000000000000
	ldr	x9, [x1, #56]
	str	x8, [x1, #40]
	cmp	x8, x9
	stp	q0, q0, [x29, #-80]
	b.ne	.LBB80_345
	mov	x22, x2
	ldp	x8, x2, [x1, #16]
	mov	x21, x4
	ldrh	w9, [x1, #72]
	ldrb	w10, [x1, #74]
	ldr	x4, [x1, #64]
	mov	x25, x0
	sub	x0, x29, #80
	sub	x5, x29, #112
	mov	x26, x1
	mov	x1, x8
	sturh	w9, [x29, #-112]
	sturb	w10, [x29, #-110]
	bl	"json::index::refill"
	ldp	q0, q1, [x29, #-80]
	mov	x1, x26
	ldur	x8, [x29, #-72]
	str	xzr, [x26, #40]
	stp	q0, q1, [x26, #48]
	cbz	x8, .LBB80_346
	ldr	x8, [x1, #32]
	ldur	x9, [x29, #-80]
	ldr	w8, [x8]
	add	x9, x9, x8
	b	.LBB80_347
.LBB80_344:
	mov	w8, #2
	b	.LBB80_349
.LBB80_345:
	ldur	x9, [x1, #48]
	ldr	w8, [x3, x8, lsl #2]
	add	x9, x9, x8
	b	.LBB80_348
.LBB80_346:
	ldr	x9, [x1, #24]
.LBB80_347:
	mov	x0, x25
	mov	x2, x22
	mov	x4, x21
.LBB80_348:
	mov	w8, wzr
	str	x9, [x1, #80]
.LBB80_349:
	mov	x3, x23
	b	.LBB80_79
.LBB80_350:
	sub	w8, w9, #97
	cmp	w8, #5
	b.hi	.LBB80_182
	sub	w8, w9, #87
	b	.LBB80_121
.LBB80_352:
	cmp	w10, #65
	b.lo	.LBB80_617
	cmp	w10, #70
	b.hi	.LBB80_489
	sub	w9, w10, #55
	b	.LBB80_247
.LBB80_355:
	ldr	x8, [x1, #24]
.LBB80_356:
	mov	x0, x24
	mov	x2, x23
	mov	x3, x22
	mov	x4, x21
.LBB80_357:
	str	x8, [x1, #80]
	mov	w8, #1
	mov	w24, #4
	b	.LBB80_79
.LBB80_358:
	ldr	x9, [x1, #24]
.LBB80_359:
	mov	x0, x24
	mov	x2, x23
	mov	x3, x22
	mov	x4, x21
.LBB80_360:
	mov	w8, wzr
	str	x9, [x1, #80]
	mov	w24, #5
	b	.LBB80_79
.LBB80_361:
	cmp	x4, #3
	mov	x0, x11
	mov	x1, x10
	b.ne	.LBB80_473
.LBB80_362:
	mov	w9, #9
	mov	w24, #1
	mov	w10, #4
.LBB80_363:
	sturb	w24, [x29, #-80]
.LBB80_364:
	stp	x10, x19, [x29, #-72]
	sturb	w9, [x29, #-56]
.LBB80_365:
	ldurb	w8, [x29, #-80]
	cbz	w8, .LBB80_367
	ldurb	w8, [x29, #-72]
	ldur	x4, [x29, #-64]
	ldurb	w22, [x29, #-56]
	b	.LBB80_84
.LBB80_367:
	ldr	x23, [x1, #80]
	ldr	x19, [x1, #8]
	ldrb	w8, [x1, #104]
	subs	x9, x19, x23
	b.ls	.LBB80_375
	ldr	x20, [x1]
	add	x10, x20, x23
	ldrb	w25, [x10]
	and	w11, w25, #0xffffffdf
	cmp	w11, #93
	b.ne	.LBB80_373
	sub	w9, w8, #1
	cmp	w9, #1
	b.hi	.LBB80_387
	movi	v0.2d, #0000000000000000
	ldr	x8, [x1, #40]
	ldr	x10, [x1, #56]
	add	x9, x8, #1
	cmp	x9, x10
	str	x9, [x1, #40]
	stp	q0, q0, [x29, #-80]
	b.ne	.LBB80_377
	ldp	x8, x2, [x1, #16]
	mov	x19, x0
	ldrh	w9, [x1, #72]
	ldrb	w10, [x1, #74]
	sub	x0, x29, #80
	ldr	x3, [x1, #32]
	ldr	x4, [x1, #64]
	sub	x5, x29, #112
	mov	x20, x1
	mov	x1, x8
	sturh	w9, [x29, #-112]
	sturb	w10, [x29, #-110]
	bl	"json::index::refill"
	ldp	q0, q1, [x29, #-80]
	mov	x1, x20
	ldur	x8, [x29, #-72]
	ldr	x3, [x20, #32]
	str	xzr, [x20, #40]
	stp	q0, q1, [x20, #48]
	cbz	x8, .LBB80_389
	ldur	x8, [x29, #-80]
	ldr	w9, [x3]
	add	x9, x8, x9
	b	.LBB80_390
.LBB80_373:
	cmp	w25, #32
	b.hi	.LBB80_378
	mov	w11, #1
	mov	x12, #9728
	lsl	x11, x11, x25
	movk	x12, #1, lsl #32
	tst	x11, x12
	b.eq	.LBB80_378
.LBB80_375:
	subs	w9, w8, #3
	mov	w10, #9
	sub	w11, w8, #4
	csel	w10, wzr, w10, eq
	cmn	w9, #2
	mov	w9, #3
	csel	w22, w10, wzr, lo
	csel	w8, w9, w8, lo
	cmn	w11, #3
	strb	w8, [x1, #104]
	b.lo	.LBB80_405
.LBB80_376:
	mov	x8, xzr
	mov	w9, wzr
	b	.LBB80_407
.LBB80_377:
	ldr	x3, [x1, #32]
	ldr	x10, [x1, #48]
	add	x8, x8, #2
	ldr	w9, [x3, x9, lsl #2]
	add	x9, x10, x9
	b	.LBB80_391
.LBB80_378:
	cmp	w8, #2
	b.hs	.LBB80_387
	cmp	w25, #91
	mov	w8, #3
	mov	w22, #9
	b.le	.LBB80_398
	cmp	w25, #109
	b.le	.LBB80_416
	cmp	w25, #110
	b.eq	.LBB80_425
	cmp	w25, #116
	b.eq	.LBB80_427
	cmp	w25, #123
	b.ne	.LBB80_433
	movi	v0.2d, #0000000000000000
	ldr	x8, [x1, #40]
	ldr	x9, [x1, #56]
	mov	x19, x0
	mov	x20, x1
	add	x8, x8, #1
	cmp	x8, x9
	str	x8, [x1, #40]
	stp	q0, q0, [x29, #-80]
	b.ne	.LBB80_447
	ldp	x1, x2, [x20, #16]
	sub	x0, x29, #80
	ldrh	w8, [x20, #72]
	ldrb	w9, [x20, #74]
	sub	x5, x29, #112
	ldr	x3, [x20, #32]
	ldr	x4, [x20, #64]
	sturh	w8, [x29, #-112]
	sturb	w9, [x29, #-110]
	bl	"json::index::refill"
	ldp	q0, q1, [x29, #-80]
	ldur	x8, [x29, #-72]
	str	xzr, [x20, #40]
	stp	q0, q1, [x20, #48]
	cbz	x8, .LBB80_488
	ldr	x8, [x20, #32]
	ldur	x9, [x29, #-80]
	ldr	w8, [x8]
	b	.LBB80_448
.LBB80_387:
	mov	w9, #3
	cmp	w8, #3
	strb	w9, [x1, #104]
	b.eq	.LBB80_376
	mov	w22, #9
	b	.LBB80_405
.LBB80_389:
	ldr	x9, [x1, #24]
.LBB80_390:
	mov	w8, #1
	mov	x0, x19
.LBB80_391:
	ldr	x10, [x1, #8]
	str	x9, [x1, #80]
	cmp	x9, x10
	b.hs	.LBB80_396
	ldr	x10, [x1]
	ldrb	w9, [x10, x9]
	cmp	w9, #44
	b.ne	.LBB80_396
	movi	v0.2d, #0000000000000000
	ldr	x9, [x1, #56]
	str	x8, [x1, #40]
	cmp	x8, x9
	stp	q0, q0, [x29, #-80]
	b.ne	.LBB80_397
	ldp	x8, x2, [x1, #16]
	mov	x19, x0
	ldrh	w9, [x1, #72]
	ldrb	w10, [x1, #74]
	sub	x0, x29, #80
	ldr	x4, [x1, #64]
	sub	x5, x29, #112
	mov	x20, x1
	mov	x1, x8
	sturh	w9, [x29, #-112]
	sturb	w10, [x29, #-110]
	bl	"json::index::refill"
	ldp	q0, q1, [x29, #-80]
	mov	x1, x20
	ldur	x8, [x29, #-72]
	str	xzr, [x20, #40]
	stp	q0, q1, [x20, #48]
	cbz	x8, .LBB80_401
	ldr	x8, [x1, #32]
	ldur	x9, [x29, #-80]
	mov	x0, x19
	ldr	w8, [x8]
	add	x9, x9, x8
	b	.LBB80_402
.LBB80_396:
	mov	w8, #2
	b	.LBB80_403
.LBB80_397:
	ldur	x9, [x1, #48]
	ldr	w8, [x3, x8, lsl #2]
	add	x9, x9, x8
	b	.LBB80_402
.LBB80_398:
	cmp	w25, #57
	b.gt	.LBB80_411
	cmp	w25, #34
	b.eq	.LBB80_421
	cmp	w25, #44
	b.eq	.LBB80_404
	b	.LBB80_433
.LBB80_401:
	ldr	x9, [x1, #24]
	mov	x0, x19
.LBB80_402:
	mov	w8, wzr
	str	x9, [x1, #80]
.LBB80_403:
	cmp	w25, #125
	mov	w9, #3
	csinc	w22, w9, wzr, ne
.LBB80_404:
	strb	w8, [x1, #104]
.LBB80_405:
	mov	w8, #1
	mov	w9, #1005
	lsl	w8, w8, w22
	tst	w8, w9
	b.eq	.LBB80_409
	mov	w10, #3
	mov	x8, xzr
	mov	w9, wzr
	strb	w10, [x1, #104]
.LBB80_407:
	mov	w10, #1
	mov	w11, #2
.LBB80_408:
	strb	w10, [x0]
	stp	x11, x8, [x0, #8]
	strb	w9, [x0, #24]
	b	.LBB80_85
.LBB80_409:
	mov	x11, xzr
	mov	w10, wzr
	cmp	w22, #1
	mov	x8, xzr
	mov	w9, wzr
	b.eq	.LBB80_408
	mov	w10, #1
	mov	w11, #4
	mov	x8, x23
	mov	w9, #1
	b	.LBB80_408
.LBB80_411:
	cmp	w25, #58
	b.eq	.LBB80_404
	cmp	w25, #91
	b.ne	.LBB80_433
	movi	v0.2d, #0000000000000000
	ldr	x8, [x1, #40]
	ldr	x9, [x1, #56]
	mov	x19, x0
	mov	x20, x1
	add	x8, x8, #1
	cmp	x8, x9
	str	x8, [x1, #40]
	stp	q0, q0, [x29, #-80]
	b.ne	.LBB80_442
	ldp	x1, x2, [x20, #16]
	sub	x0, x29, #80
	ldrh	w8, [x20, #72]
	ldrb	w9, [x20, #74]
	sub	x5, x29, #112
	ldr	x3, [x20, #32]
	ldr	x4, [x20, #64]
	sturh	w8, [x29, #-112]
	sturb	w9, [x29, #-110]
	bl	"json::index::refill"
	ldp	q0, q1, [x29, #-80]
	ldur	x8, [x29, #-72]
	str	xzr, [x20, #40]
	stp	q0, q1, [x20, #48]
	cbz	x8, .LBB80_487
	ldr	x8, [x20, #32]
	ldur	x9, [x29, #-80]
	ldr	w8, [x8]
	b	.LBB80_443
.LBB80_416:
	cmp	w25, #92
	b.eq	.LBB80_404
	cmp	w25, #102
	b.ne	.LBB80_433
	mov	x21, x0
	cmp	x9, #5
	b.lo	.LBB80_428
	ldur	w8, [x10, #1]
	mov	w11, #27745
	movk	w11, #25971, lsl #16
	cmp	w8, w11
	cset	w11, eq
	cmp	x9, #5
	b.eq	.LBB80_429
	ldrb	w8, [x10, #5]
	b	.LBB80_430
.LBB80_421:
	add	x2, x23, #1
	mov	x24, x1
	str	x0, [sp, #8]
	sub	x8, x19, x2
	cmp	x8, #32
	b.lo	.LBB80_424
.LBB80_422:
	movi	v0.16b, #34
	movi	v1.16b, #92
	add	x9, x20, x2
	ldp	q2, q3, [x9]
	movi	v4.16b, #32
	adrp	x9, .LCPI80_0
	cmeq	v5.16b, v2.16b, v0.16b
	cmeq	v6.16b, v2.16b, v1.16b
	cmeq	v0.16b, v3.16b, v0.16b
	cmeq	v1.16b, v3.16b, v1.16b
	orr	v5.16b, v5.16b, v6.16b
	orr	v0.16b, v0.16b, v1.16b
	cmhi	v1.16b, v4.16b, v2.16b
	cmhi	v2.16b, v4.16b, v3.16b
	orr	v0.16b, v2.16b, v0.16b
	orr	v1.16b, v1.16b, v5.16b
	ldr	q2, [x9, :lo12:.LCPI80_0]
	and	v1.16b, v1.16b, v2.16b
	and	v0.16b, v0.16b, v2.16b
	addp	v0.16b, v1.16b, v0.16b
	addp	v0.16b, v0.16b, v0.16b
	addp	v0.16b, v0.16b, v0.16b
	fmov	w9, s0
	cbnz	w9, .LBB80_457
	sub	x8, x8, #32
	add	x2, x2, #32
	cmp	x8, #31
	b.hi	.LBB80_422
.LBB80_424:
	mov	x0, x20
	mov	x1, x19
	bl	"json::run::plain_end_16"
	b	.LBB80_458
.LBB80_425:
	mov	x21, x0
	cmp	x9, #4
	b.hs	.LBB80_445
	mov	w11, wzr
	mov	w8, #32
	b	.LBB80_468
.LBB80_427:
	mov	x21, x0
	cmp	x9, #4
	b.hs	.LBB80_450
.LBB80_428:
	mov	w11, wzr
.LBB80_429:
	mov	w8, #32
.LBB80_430:
	cmp	w8, #32
	sub	w9, w8, #9
	and	w10, w8, #0xffffffdf
	ccmp	w8, #13, #4, ne
	mov	w12, #93
	ccmp	w9, #2, #0, ne
	cset	w9, lo
	cmp	w10, #91
	ccmp	w10, w12, #4, ne
	mov	w10, #58
	ccmp	w8, w10, #4, ne
	mov	w10, #44
	ccmp	w8, w10, #4, ne
	mov	w8, #3
	csinc	w9, w9, wzr, ne
	cbz	w11, .LBB80_559
	mov	x0, x21
	tbz	w9, #0, .LBB80_404
	mov	w22, #7
	b	.LBB80_543
.LBB80_433:
	cmp	w25, #45
	mov	x24, x1
	mov	x21, x0
	cinc	x25, x23, eq
	cset	w11, eq
	adrp	x22, .LCPI80_0
	subs	x8, x19, x25
	b.ls	.LBB80_436
	ldrb	w10, [x20, x25]
	cmp	w10, #48
	b.ne	.LBB80_436
	add	x0, x25, #1
	b	.LBB80_481
.LBB80_436:
	cmp	x8, #16
	mov	x2, x25
	b.lo	.LBB80_441
	neg	x8, x25
	add	x10, x20, x25
	sub	x9, x9, x11
.LBB80_438:
	movi	v0.16b, #198
	ldr	q1, [x10], #16
	movi	v2.16b, #246
	add	v0.16b, v1.16b, v0.16b
	ldr	q1, [x22, :lo12:.LCPI80_0]
	cmhi	v0.16b, v2.16b, v0.16b
	and	v0.16b, v0.16b, v1.16b
	addp	v0.16b, v0.16b, v0.16b
	addp	v0.16b, v0.16b, v0.16b
	addp	v0.16b, v0.16b, v0.16b
	umov	w11, v0.h[0]
	cbnz	w11, .LBB80_478
	sub	x9, x9, #16
	sub	x8, x8, #16
	cmp	x9, #15
	b.hi	.LBB80_438
	neg	x2, x8
.LBB80_441:
	mov	x0, x20
	mov	x1, x19
	bl	"json::run::digits_end_slowly"
	b	.LBB80_479
.LBB80_442:
	ldr	x10, [x20, #32]
	ldr	x9, [x20, #48]
	ldr	w8, [x10, x8, lsl #2]
.LBB80_443:
	add	x8, x9, x8
.LBB80_444:
	mov	x1, x20
	str	x8, [x20, #80]
	mov	w8, #1
	mov	w22, #2
	mov	x0, x19
	b	.LBB80_404
.LBB80_445:
	ldrb	w8, [x10, #3]
	ldrb	w11, [x10, #2]
	ldrb	w12, [x10, #1]
	cmp	w8, #108
	mov	w8, #108
	ccmp	w11, w8, #0, eq
	mov	w8, #117
	ccmp	w12, w8, #0, eq
	cset	w11, eq
	cmp	x9, #4
	b.ne	.LBB80_467
	mov	w8, #32
	b	.LBB80_468
.LBB80_447:
	ldr	x10, [x20, #32]
	ldr	x9, [x20, #48]
	ldr	w8, [x10, x8, lsl #2]
.LBB80_448:
	add	x8, x9, x8
.LBB80_449:
	mov	w22, wzr
	mov	x1, x20
	str	x8, [x20, #80]
	mov	w8, #1
	mov	x0, x19
	b	.LBB80_404
.LBB80_450:
	ldrb	w8, [x10, #3]
	ldrb	w11, [x10, #2]
	ldrb	w12, [x10, #1]
	cmp	w8, #101
	mov	w8, #117
	ccmp	w11, w8, #0, eq
	mov	w8, #114
	ccmp	w12, w8, #0, eq
	cset	w11, eq
	cmp	x9, #4
	b.eq	.LBB80_429
	ldrb	w8, [x10, #4]
	b	.LBB80_430
.LBB80_452:
	sub	w8, w9, #97
	cmp	w8, #5
	b.hi	.LBB80_617
	sub	w8, w9, #87
	b	.LBB80_245
.LBB80_454:
	cmp	w11, #65
	mov	x0, x21
	mov	x1, x20
	b.lo	.LBB80_182
	cmp	w11, #71
	b.hs	.LBB80_507
	sub	w10, w11, #55
	b	.LBB80_125
.LBB80_457:
	rbit	w8, w9
	clz	w8, w8
	add	x0, x8, x2
.LBB80_458:
	cmp	x0, x19
	b.hs	.LBB80_462
	ldrb	w8, [x20, x0]
	cmp	w8, #34
	b.ne	.LBB80_462
	movi	v0.2d, #0000000000000000
	ldr	x8, [x24, #40]
	ldr	x10, [x24, #56]
	add	x8, x8, #1
	cmp	x8, x10
	str	x8, [x24, #40]
	stp	q0, q0, [x29, #-80]
	b.eq	.LBB80_464
.LBB80_461:
	ldr	x3, [x24, #32]
	ldr	x9, [x24, #48]
	ldr	w10, [x3, x8, lsl #2]
	add	x9, x9, x10
	ldr	x10, [x24, #8]
	str	x9, [x24, #80]
	cmp	x9, x10
	b.hs	.LBB80_497
	b	.LBB80_492
.LBB80_462:
	ldp	x22, x21, [x24, #88]
	sub	x8, x29, #1
	add	x2, x23, #1
	mov	x0, x20
	mov	x1, x19
	stp	x8, xzr, [x24, #88]
	mov	x3, x22
	mov	x4, x21
	bl	"json::unescape::unescape"
	and	w8, w0, #0xff
	cmp	w8, #1
	b.ne	.LBB80_466
	movi	v0.2d, #0000000000000000
	ldr	x11, [x24, #40]
	add	x8, x22, x1
	sub	x9, x21, x1
	ldr	x12, [x24, #56]
	stp	x8, x9, [x24, #88]
	add	x8, x11, #1
	cmp	x8, x12
	str	x8, [x24, #40]
	stp	q0, q0, [x29, #-80]
	b.ne	.LBB80_461
.LBB80_464:
	ldp	x1, x2, [x24, #16]
	sub	x0, x29, #80
	ldrh	w8, [x24, #72]
	ldrb	w9, [x24, #74]
	sub	x5, x29, #112
	ldr	x3, [x24, #32]
	ldr	x4, [x24, #64]
	sturh	w8, [x29, #-112]
	sturb	w9, [x29, #-110]
	bl	"json::index::refill"
	ldp	q0, q1, [x29, #-80]
	ldur	x8, [x29, #-72]
	ldr	x3, [x24, #32]
	str	xzr, [x24, #40]
	stp	q0, q1, [x24, #48]
	cbz	x8, .LBB80_491
	ldur	x9, [x29, #-80]
	ldr	w10, [x3]
	mov	x8, xzr
	add	x9, x9, x10
	ldr	x10, [x24, #8]
	str	x9, [x24, #80]
	cmp	x9, x10
	b.hs	.LBB80_497
	b	.LBB80_492
.LBB80_466:
	ldr	x0, [sp, #8]
	mov	x1, x24
	stp	x22, x21, [x24, #88]
	mov	w8, #3
	mov	w22, #9
	b	.LBB80_404
.LBB80_467:
	ldrb	w8, [x10, #4]
.LBB80_468:
	cmp	w8, #32
	sub	w9, w8, #9
	and	w10, w8, #0xffffffdf
	ccmp	w8, #13, #4, ne
	mov	w12, #93
	ccmp	w9, #2, #0, ne
	cset	w9, lo
	cmp	w10, #91
	ccmp	w10, w12, #4, ne
	mov	w10, #58
	ccmp	w8, w10, #4, ne
	mov	w10, #44
	ccmp	w8, w10, #4, ne
	mov	w8, #3
	csinc	w9, w9, wzr, ne
	cbz	w11, .LBB80_559
	mov	x0, x21
	tbz	w9, #0, .LBB80_404
	mov	w22, #8
	b	.LBB80_543
.LBB80_471:
	sub	w9, w10, #97
	cmp	w9, #5
	b.hi	.LBB80_182
	sub	w9, w10, #87
	b	.LBB80_123
.LBB80_473:
	ldrb	w8, [x9, #3]
	cmp	w8, #101
	b.ne	.LBB80_501
	mov	w8, #3
	b	.LBB80_271
.LBB80_475:
	cmp	w11, #65
	b.lo	.LBB80_617
	cmp	w11, #71
	b.hs	.LBB80_518
	sub	w10, w11, #55
	b	.LBB80_249
.LBB80_478:
	umov	w9, v0.h[0]
	rbit	w9, w9
	clz	w9, w9
	sub	x0, x9, x8
.LBB80_479:
	cmp	x0, x25
	b.ne	.LBB80_481
.LBB80_480:
	mov	w8, #3
	mov	w22, #9
	mov	x0, x21
	mov	x1, x24
	b	.LBB80_404
.LBB80_481:
	cmp	x0, x19
	b.hs	.LBB80_522
	ldrb	w8, [x20, x0]
	cmp	w8, #46
	b.ne	.LBB80_522
	add	x25, x0, #1
	sub	x8, x19, x25
	mov	x2, x25
	cmp	x8, #16
	b.lo	.LBB80_486
.LBB80_484:
	movi	v0.16b, #198
	ldr	q1, [x20, x2]
	movi	v2.16b, #246
	add	v0.16b, v1.16b, v0.16b
	ldr	q1, [x22, :lo12:.LCPI80_0]
	cmhi	v0.16b, v2.16b, v0.16b
	and	v0.16b, v0.16b, v1.16b
	addp	v0.16b, v0.16b, v0.16b
	addp	v0.16b, v0.16b, v0.16b
	addp	v0.16b, v0.16b, v0.16b
	umov	w9, v0.h[0]
	cbnz	w9, .LBB80_520
	sub	x8, x8, #16
	add	x2, x2, #16
	cmp	x8, #15
	b.hi	.LBB80_484
.LBB80_486:
	mov	x0, x20
	mov	x1, x19
	bl	"json::run::digits_end_slowly"
	b	.LBB80_521
.LBB80_487:
	ldr	x8, [x20, #24]
	b	.LBB80_444
.LBB80_488:
	ldr	x8, [x20, #24]
	b	.LBB80_449
.LBB80_489:
	sub	w9, w10, #97
	cmp	w9, #5
	b.hi	.LBB80_617
	sub	w9, w10, #87
	b	.LBB80_247
.LBB80_491:
	ldr	x9, [x24, #24]
	ldr	x10, [x24, #8]
	str	x9, [x24, #80]
	cmp	x9, x10
	b.hs	.LBB80_497
.LBB80_492:
	ldr	x10, [x24]
	ldrb	w9, [x10, x9]
	cmp	w9, #44
	b.eq	.LBB80_504
	cmp	w9, #58
	b.ne	.LBB80_497
	movi	v0.2d, #0000000000000000
	ldr	x10, [x24, #56]
	add	x8, x8, #1
	str	x8, [x24, #40]
	cmp	x8, x10
	stp	q0, q0, [x29, #-80]
	b.ne	.LBB80_512
	ldp	x1, x2, [x24, #16]
	sub	x0, x29, #80
	ldrh	w8, [x24, #72]
	ldrb	w9, [x24, #74]
	sub	x5, x29, #112
	ldr	x4, [x24, #64]
	sturh	w8, [x29, #-112]
	sturb	w9, [x29, #-110]
	bl	"json::index::refill"
	ldp	q0, q1, [x29, #-80]
	ldur	x8, [x29, #-72]
	str	xzr, [x24, #40]
	stp	q0, q1, [x24, #48]
	cbz	x8, .LBB80_570
	ldr	x8, [x24, #32]
	ldur	x9, [x29, #-80]
	ldr	w8, [x8]
	b	.LBB80_513
.LBB80_497:
	ldr	x0, [sp, #8]
	mov	w8, #2
	mov	w22, #5
	mov	x1, x24
	b	.LBB80_404
.LBB80_498:
	cmp	w12, #65
	mov	x0, x21
	mov	x1, x20
	b.lo	.LBB80_182
	cmp	w12, #71
	b.hs	.LBB80_561
	sub	w11, w12, #55
	b	.LBB80_127
.LBB80_501:
	cmp	x4, #4
	mov	x0, x11
	mov	x1, x10
	b.eq	.LBB80_362
	ldrb	w8, [x9, #4]
	cmp	w8, #101
	b.ne	.LBB80_563
	mov	w8, #4
	b	.LBB80_271
.LBB80_504:
	movi	v0.2d, #0000000000000000
	ldr	x10, [x24, #56]
	add	x8, x8, #1
	str	x8, [x24, #40]
	cmp	x8, x10
	stp	q0, q0, [x29, #-80]
	b.ne	.LBB80_515
	ldp	x1, x2, [x24, #16]
	sub	x0, x29, #80
	ldrh	w8, [x24, #72]
	ldrb	w9, [x24, #74]
	sub	x5, x29, #112
	ldr	x4, [x24, #64]
	sturh	w8, [x29, #-112]
	sturb	w9, [x29, #-110]
	bl	"json::index::refill"
	ldp	q0, q1, [x29, #-80]
	ldur	x8, [x29, #-72]
	str	xzr, [x24, #40]
	stp	q0, q1, [x24, #48]
	cbz	x8, .LBB80_571
	ldr	x8, [x24, #32]
	ldur	x9, [x29, #-80]
	ldr	w8, [x8]
	b	.LBB80_516
.LBB80_507:
	sub	w10, w11, #97
	mov	x0, x21
	mov	x1, x20
	cmp	w10, #5
	b.hi	.LBB80_182
	sub	w10, w11, #87
	b	.LBB80_125
.LBB80_509:
	cmp	w12, #65
	b.lo	.LBB80_617
	cmp	w12, #71
	b.hs	.LBB80_572
	sub	w11, w12, #55
	b	.LBB80_251
.LBB80_512:
	ldur	x9, [x24, #48]
	ldr	w8, [x3, x8, lsl #2]
.LBB80_513:
	add	x8, x9, x8
.LBB80_514:
	ldr	x0, [sp, #8]
	mov	x1, x24
	str	x8, [x24, #80]
	mov	w8, #1
	mov	w22, #4
	b	.LBB80_404
.LBB80_515:
	ldur	x9, [x24, #48]
	ldr	w8, [x3, x8, lsl #2]
.LBB80_516:
	add	x9, x9, x8
.LBB80_517:
	ldr	x0, [sp, #8]
	mov	w8, wzr
	mov	x1, x24
	str	x9, [x24, #80]
	mov	w22, #5
	b	.LBB80_404
.LBB80_518:
	sub	w10, w11, #97
	cmp	w10, #5
	b.hi	.LBB80_617
	sub	w10, w11, #87
	b	.LBB80_249
.LBB80_520:
	umov	w8, v0.h[0]
	rbit	w8, w8
	clz	w8, w8
	add	x0, x8, x2
.LBB80_521:
	cmp	x0, x25
	b.eq	.LBB80_480
.LBB80_522:
	cmp	x0, x19
	b.hs	.LBB80_538
	ldrb	w8, [x20, x0]
	and	w8, w8, #0xffffffdf
	cmp	w8, #69
	b.ne	.LBB80_538
	add	x25, x0, #1
	cmp	x25, x19
	b.hs	.LBB80_528
	ldrb	w8, [x20, x25]
	cmp	w8, #45
	b.eq	.LBB80_527
	cmp	w8, #43
	b.ne	.LBB80_528
.LBB80_527:
	add	x25, x0, #2
.LBB80_528:
	sub	x8, x19, x25
	mov	x2, x25
	cmp	x8, #16
	b.lo	.LBB80_532
	mov	x2, x25
.LBB80_530:
	movi	v0.16b, #198
	ldr	q1, [x20, x2]
	movi	v2.16b, #246
	add	v0.16b, v1.16b, v0.16b
	ldr	q1, [x22, :lo12:.LCPI80_0]
	cmhi	v0.16b, v2.16b, v0.16b
	and	v0.16b, v0.16b, v1.16b
	addp	v0.16b, v0.16b, v0.16b
	addp	v0.16b, v0.16b, v0.16b
	addp	v0.16b, v0.16b, v0.16b
	umov	w9, v0.h[0]
	cbnz	w9, .LBB80_536
	sub	x8, x8, #16
	add	x2, x2, #16
	cmp	x8, #15
	b.hi	.LBB80_530
.LBB80_532:
	mov	x0, x20
	mov	x1, x19
	bl	"json::run::digits_end_slowly"
	b	.LBB80_537
.LBB80_533:
	cmp	w14, #65
	mov	x0, x21
	mov	x1, x20
	b.lo	.LBB80_182
	cmp	w14, #71
	b.hs	.LBB80_577
	sub	w12, w14, #55
	b	.LBB80_129
.LBB80_536:
	umov	w8, v0.h[0]
	rbit	w8, w8
	clz	w8, w8
	add	x0, x8, x2
.LBB80_537:
	cmp	x0, x25
	b.eq	.LBB80_480
.LBB80_538:
	cmp	x0, x19
	b.hs	.LBB80_541
	ldrb	w8, [x20, x0]
	mov	w9, #1
	mov	x10, #9728
	movk	x10, #4097, lsl #32
	mov	w22, #6
	lsl	x9, x9, x8
	movk	x10, #1024, lsl #48
	cmp	w8, #58
	and	x9, x9, x10
	ccmp	x9, #0, #4, ls
	b.eq	.LBB80_542
	mov	x1, x24
	b	.LBB80_543
.LBB80_541:
	mov	w22, #6
	mov	x1, x24
	b	.LBB80_543
.LBB80_542:
	sub	w8, w8, #91
	mov	w9, #1
	mov	x10, #5
	lsl	x9, x9, x8
	movk	x10, #5, lsl #32
	cmp	w8, #34
	mov	x1, x24
	and	x8, x9, x10
	ccmp	x8, #0, #4, ls
	b.eq	.LBB80_569
.LBB80_543:
	movi	v0.2d, #0000000000000000
	ldr	x8, [x1, #40]
	ldr	x10, [x1, #56]
	add	x9, x8, #1
	cmp	x9, x10
	str	x9, [x1, #40]
	stp	q0, q0, [x29, #-80]
	b.ne	.LBB80_546
	ldp	x8, x2, [x1, #16]
	sub	x0, x29, #80
	ldrh	w9, [x1, #72]
	ldrb	w10, [x1, #74]
	sub	x5, x29, #112
	ldr	x3, [x1, #32]
	ldr	x4, [x1, #64]
	mov	x19, x1
	mov	x1, x8
	sturh	w9, [x29, #-112]
	sturb	w10, [x29, #-110]
	bl	"json::index::refill"
	ldp	q0, q1, [x29, #-80]
	mov	x1, x19
	ldur	x8, [x29, #-72]
	ldr	x3, [x19, #32]
	str	xzr, [x19, #40]
	stp	q0, q1, [x19, #48]
	cbz	x8, .LBB80_547
	ldur	x8, [x29, #-80]
	ldr	w9, [x3]
	add	x9, x8, x9
	b	.LBB80_548
.LBB80_546:
	ldr	x3, [x1, #32]
	ldr	x10, [x1, #48]
	add	x8, x8, #2
	ldr	w9, [x3, x9, lsl #2]
	add	x9, x10, x9
	b	.LBB80_549
.LBB80_547:
	ldr	x9, [x1, #24]
.LBB80_548:
	mov	w8, #1
.LBB80_549:
	ldr	x10, [x1, #8]
	str	x9, [x1, #80]
	cmp	x9, x10
	b.hs	.LBB80_554
	ldr	x10, [x1]
	mov	x19, x1
	ldrb	w9, [x10, x9]
	cmp	w9, #44
	b.ne	.LBB80_555
	movi	v0.2d, #0000000000000000
	ldr	x10, [x19, #56]
	str	x8, [x19, #40]
	cmp	x8, x10
	stp	q0, q0, [x29, #-80]
	b.ne	.LBB80_556
	ldp	x1, x2, [x19, #16]
	sub	x0, x29, #80
	ldrh	w8, [x19, #72]
	ldrb	w9, [x19, #74]
	sub	x5, x29, #112
	ldr	x4, [x19, #64]
	sturh	w8, [x29, #-112]
	sturb	w9, [x29, #-110]
	bl	"json::index::refill"
	ldp	q0, q1, [x29, #-80]
	ldur	x8, [x29, #-72]
	str	xzr, [x19, #40]
	stp	q0, q1, [x19, #48]
	cbz	x8, .LBB80_560
	ldr	x8, [x19, #32]
	ldur	x9, [x29, #-80]
	ldr	w8, [x8]
	b	.LBB80_557
.LBB80_554:
	mov	w8, #2
	b	.LBB80_559
.LBB80_555:
	mov	w8, #2
	mov	x0, x21
	mov	x1, x19
	b	.LBB80_404
.LBB80_556:
	ldur	x9, [x19, #48]
	ldr	w8, [x3, x8, lsl #2]
.LBB80_557:
	add	x9, x9, x8
.LBB80_558:
	mov	w8, wzr
	mov	x1, x19
	str	x9, [x19, #80]
.LBB80_559:
	mov	x0, x21
	b	.LBB80_404
.LBB80_560:
	ldr	x9, [x19, #24]
	b	.LBB80_558
.LBB80_561:
	sub	w11, w12, #97
	mov	x0, x21
	mov	x1, x20
	cmp	w11, #5
	b.hi	.LBB80_182
	sub	w11, w12, #87
	b	.LBB80_127
.LBB80_563:
	cmp	x4, #5
	mov	x0, x11
	mov	x1, x10
	b.eq	.LBB80_362
	ldrb	w8, [x9, #5]
	cmp	w8, #101
	b.ne	.LBB80_582
	mov	w8, #5
	b	.LBB80_271
.LBB80_566:
	cmp	w13, #65
	b.lo	.LBB80_617
	cmp	w13, #71
	b.hs	.LBB80_585
	sub	w12, w13, #55
	b	.LBB80_253
.LBB80_569:
	mov	w8, #3
	mov	w22, #9
	b	.LBB80_559
.LBB80_570:
	ldr	x8, [x24, #24]
	b	.LBB80_514
.LBB80_571:
	ldr	x9, [x24, #24]
	b	.LBB80_517
.LBB80_572:
	sub	w11, w12, #97
	cmp	w11, #5
	b.hi	.LBB80_617
	sub	w11, w12, #87
	b	.LBB80_251
.LBB80_574:
	cmp	w15, #65
	mov	x0, x21
	mov	x1, x20
	b.lo	.LBB80_182
	cmp	w15, #71
	b.hs	.LBB80_594
	sub	w14, w15, #55
	b	.LBB80_131
.LBB80_577:
	sub	w12, w14, #97
	mov	x0, x21
	mov	x1, x20
	cmp	w12, #5
	b.hi	.LBB80_182
	sub	w12, w14, #87
	b	.LBB80_129
.LBB80_579:
	cmp	w14, #65
	b.lo	.LBB80_617
	cmp	w14, #71
	b.hs	.LBB80_599
	sub	w13, w14, #55
	b	.LBB80_255
.LBB80_582:
	cmp	x4, #6
	mov	x0, x11
	mov	x1, x10
	b.eq	.LBB80_362
	ldrb	w8, [x9, #6]
	mov	x3, x9
	cmp	w8, #101
	b.ne	.LBB80_362
	mov	w8, #6
	b	.LBB80_221
.LBB80_585:
	sub	w12, w13, #97
	cmp	w12, #5
	b.hi	.LBB80_617
	sub	w12, w13, #87
	b	.LBB80_253
.LBB80_587:
	cmp	w16, #65
	mov	x0, x21
	mov	x1, x20
	b.lo	.LBB80_182
	cmp	w16, #71
	b.hs	.LBB80_606
	sub	w15, w16, #55
	b	.LBB80_133
.LBB80_590:
	mov	x0, x21
	mov	w1, #1
	mov	w24, #1
	bl	"std_alloc::vec::Vec::grow_amortized::<#1283936d4ef01d73>"
	cbz	w0, .LBB80_601
	ldp	x9, x8, [x21, #8]
	b	.LBB80_323
.LBB80_592:
	mov	x0, x21
	mov	w1, #5
	bl	"std_alloc::vec::Vec::grow_amortized::<#1283936d4ef01d73>"
	cbz	w0, .LBB80_602
	ldp	x12, x8, [x21, #8]
	ldr	x11, [x21]
	b	.LBB80_324
.LBB80_594:
	sub	w14, w15, #97
	mov	x0, x21
	mov	x1, x20
	cmp	w14, #5
	b.hi	.LBB80_182
	sub	w14, w15, #87
	b	.LBB80_131
.LBB80_596:
	cmp	w16, #65
	b.lo	.LBB80_617
	cmp	w16, #71
	b.hs	.LBB80_611
	sub	w14, w16, #55
	b	.LBB80_257
.LBB80_599:
	sub	w13, w14, #97
	cmp	w13, #5
	b.hi	.LBB80_617
	sub	w13, w14, #87
	b	.LBB80_255
.LBB80_601:
	mov	x10, xzr
	mov	x19, xzr
	mov	w9, wzr
	b	.LBB80_326
.LBB80_602:
	mov	x10, xzr
	mov	x19, xzr
	mov	w9, wzr
	mov	w24, #1
	b	.LBB80_326
.LBB80_603:
	cmp	w17, #65
	mov	x0, x21
	mov	x1, x20
	b.lo	.LBB80_182
	cmp	w17, #71
	b.hs	.LBB80_613
	sub	w16, w17, #55
	b	.LBB80_135
.LBB80_606:
	sub	w15, w16, #97
	mov	x0, x21
	mov	x1, x20
	cmp	w15, #5
	b.hi	.LBB80_182
	sub	w15, w16, #87
	b	.LBB80_133
.LBB80_608:
	cmp	w15, #65
	b.lo	.LBB80_617
	cmp	w15, #71
	b.hs	.LBB80_615
	sub	w16, w15, #55
	b	.LBB80_259
.LBB80_611:
	sub	w14, w16, #97
	cmp	w14, #5
	b.hi	.LBB80_617
	sub	w14, w16, #87
	b	.LBB80_257
.LBB80_613:
	sub	w16, w17, #97
	mov	x0, x21
	mov	x1, x20
	cmp	w16, #5
	b.hi	.LBB80_182
	sub	w16, w17, #87
	b	.LBB80_135
.LBB80_615:
	sub	w16, w15, #97
	cmp	w16, #5
	b.hi	.LBB80_617
	sub	w16, w15, #87
	b	.LBB80_259
.LBB80_617:
	mov	w8, #1
	mov	w9, #7
	mov	w10, #4
.LBB80_618:
	mov	x0, x21
	mov	x1, x20
	sturb	w8, [x29, #-80]
	b	.LBB80_364
.LBB80_619:
	sub	w17, w18, #97
	mov	x0, x21
	mov	x1, x20
	cmp	w17, #5
	b.hi	.LBB80_182
	sub	w17, w18, #87
.LBB80_621:
	subs	w18, w3, #48
	mov	x0, x21
	mov	x1, x20
	b.lo	.LBB80_182
	cmp	w3, #58
	b.lo	.LBB80_628
	cmp	w3, #65
	mov	x0, x21
	mov	x1, x20
	b.lo	.LBB80_182
	cmp	w3, #71
	b.hs	.LBB80_626
	sub	w18, w3, #55
	b	.LBB80_628
.LBB80_626:
	sub	w18, w3, #97
	mov	x0, x21
	mov	x1, x20
	cmp	w18, #5
	b.hi	.LBB80_182
	sub	w18, w3, #87
.LBB80_628:
	ldrb	w4, [x13, #10]
	mov	x0, x21
	mov	x1, x20
	subs	w3, w4, #48
	b.lo	.LBB80_182
	ldrb	w5, [x13, #11]
	cmp	w4, #58
	b.lo	.LBB80_635
	cmp	w4, #65
	mov	x0, x21
	mov	x1, x20
	b.lo	.LBB80_182
	cmp	w4, #71
	b.hs	.LBB80_633
	sub	w3, w4, #55
	b	.LBB80_635
.LBB80_633:
	sub	w0, w4, #97
	mov	x1, x20
	cmp	w0, #5
	mov	x0, x21
	b.hi	.LBB80_182
	sub	w3, w4, #87
.LBB80_635:
	subs	w4, w5, #48
	mov	x0, x21
	mov	x1, x20
	b.lo	.LBB80_182
	cmp	w5, #58
	b.lo	.LBB80_642
	cmp	w5, #65
	mov	x0, x21
	mov	x1, x20
	b.lo	.LBB80_182
	cmp	w5, #71
	b.hs	.LBB80_640
	sub	w4, w5, #55
	b	.LBB80_642
.LBB80_640:
	sub	w0, w5, #97
	mov	x1, x20
	cmp	w0, #5
	mov	x0, x21
	b.hi	.LBB80_182
	sub	w4, w5, #87
.LBB80_642:
	ldrb	w6, [x13, #12]
	mov	x0, x21
	mov	x1, x20
	subs	w5, w6, #48
	b.lo	.LBB80_182
	ldrb	w7, [x13, #13]
	cmp	w6, #58
	b.lo	.LBB80_649
	cmp	w6, #65
	mov	x0, x21
	mov	x1, x20
	b.lo	.LBB80_182
	cmp	w6, #71
	b.hs	.LBB80_647
	sub	w5, w6, #55
	b	.LBB80_649
.LBB80_647:
	sub	w0, w6, #97
	mov	x1, x20
	cmp	w0, #5
	mov	x0, x21
	b.hi	.LBB80_182
	sub	w5, w6, #87
.LBB80_649:
	subs	w6, w7, #48
	mov	x0, x21
	mov	x1, x20
	b.lo	.LBB80_182
	cmp	w7, #58
	b.hs	.LBB80_656
.LBB80_651:
	ldrb	w7, [x13, #14]
	mov	x22, x13
	mov	x0, x21
	mov	x1, x20
	subs	w13, w7, #48
	b.lo	.LBB80_182
	ldrb	w22, [x22, #15]
	cmp	w7, #58
	b.hs	.LBB80_659
.LBB80_653:
	subs	w7, w22, #48
	mov	x0, x21
	mov	x1, x20
	b.lo	.LBB80_182
	cmp	w22, #58
	b.hs	.LBB80_664
.LBB80_655:
	add	w17, w18, w17, lsl #4
	add	w8, w9, w8, lsl #4
	add	w9, w16, w15, lsl #4
	add	w15, w4, w3, lsl #4
	add	w10, w11, w10, lsl #4
	add	w11, w14, w12, lsl #4
	and	w16, w17, #0xff
	add	w14, w6, w5, lsl #4
	lsl	w9, w9, #24
	lsl	x12, x16, #32
	and	w15, w15, #0xff
	and	x8, x8, #0xff
	and	w14, w14, #0xff
	bfi	x9, x11, #16, #8
	bfi	x8, x10, #8, #8
	orr	x12, x12, x15, lsl #40
	add	w11, w7, w13, lsl #4
	add	x0, sp, #112
	orr	x8, x9, x8
	sub	x3, x29, #48
	mov	x1, x2
	orr	x10, x12, x14, lsl #48
	mov	w2, #100
	mov	w4, #8
	orr	x8, x10, x8
	orr	x8, x8, x11, lsl #56
	stur	x8, [x29, #-48]
	bl	"amqp_json::reading::put::put"
	ldrb	w8, [sp, #112]
	ldrb	w10, [sp, #120]
	ldr	x19, [sp, #128]
	ldrb	w9, [sp, #136]
	b	.LBB80_618
.LBB80_656:
	cmp	w7, #65
	mov	x0, x21
	mov	x1, x20
	b.lo	.LBB80_182
	cmp	w7, #71
	b.hs	.LBB80_662
	sub	w6, w7, #55
	b	.LBB80_651
.LBB80_659:
	cmp	w7, #65
	mov	x0, x21
	mov	x1, x20
	b.lo	.LBB80_182
	cmp	w7, #71
	b.hs	.LBB80_667
	sub	w13, w7, #55
	b	.LBB80_653
.LBB80_662:
	sub	w0, w7, #97
	mov	x1, x20
	cmp	w0, #5
	mov	x0, x21
	b.hi	.LBB80_182
	sub	w6, w7, #87
	b	.LBB80_651
.LBB80_664:
	cmp	w22, #65
	mov	x0, x21
	mov	x1, x20
	b.lo	.LBB80_182
	cmp	w22, #71
	b.hs	.LBB80_669
	sub	w7, w22, #55
	b	.LBB80_655
.LBB80_667:
	sub	w13, w7, #97
	mov	x0, x21
	mov	x1, x20
	cmp	w13, #5
	b.hi	.LBB80_182
	sub	w13, w7, #87
	b	.LBB80_653
.LBB80_669:
	sub	w0, w22, #97
	mov	x1, x20
	cmp	w0, #5
	mov	x0, x21
	b.hi	.LBB80_182
	sub	w7, w22, #87
	b	.LBB80_655
.Lfunc_end80:
	.size	"amqp_json::reading::walk::put_named", .Lfunc_end80-"amqp_json::reading::walk::put_named"
	.section	".rodata.amqp_json::reading::walk::put_named","a",@progbits
.LJTI80_0:
	.byte	(.LBB80_2-.LBB80_2)>>2
	.byte	(.LBB80_18-.LBB80_2)>>2
	.byte	(.LBB80_10-.LBB80_2)>>2
	.byte	(.LBB80_12-.LBB80_2)>>2
	.byte	(.LBB80_4-.LBB80_2)>>2
	.byte	(.LBB80_20-.LBB80_2)>>2
	.byte	(.LBB80_23-.LBB80_2)>>2
	.byte	(.LBB80_15-.LBB80_2)>>2
	.byte	(.LBB80_26-.LBB80_2)>>2
	.byte	(.LBB80_7-.LBB80_2)>>2

	.section	".text.core::slice::words::skip_far::<#d9bf6fcacf29a880>","ax",@progbits
	.p2align	2
	.type	"core::slice::words::skip_far::<#d9bf6fcacf29a880>",@function
"core::slice::words::skip_far::<#d9bf6fcacf29a880>":
	sub	x8, x2, x1
	cmp	x8, #64
	b.lo	.LBB81_4
	ldrb	w9, [x0, #16]
	mov	x10, #72340172838076673
	mul	x9, x9, x10
	dup	v0.2d, x9
	ldr	x9, [x0]
.LBB81_2:
	add	x10, x9, x1
	movi	v1.16b, #127
	mov	x11, #-9187201950435737472
	ldp	q2, q4, [x10, #16]
	ldr	q3, [x10, #48]
	ldr	q5, [x10]
	eor	v3.16b, v0.16b, v3.16b
	eor	v2.16b, v0.16b, v2.16b
	eor	v5.16b, v0.16b, v5.16b
	eor	v4.16b, v0.16b, v4.16b
	and	v7.16b, v3.16b, v1.16b
	and	v6.16b, v2.16b, v1.16b
	and	v16.16b, v4.16b, v1.16b
	and	v17.16b, v5.16b, v1.16b
	add	v6.2d, v6.2d, v1.2d
	add	v17.2d, v17.2d, v1.2d
	add	v16.2d, v16.2d, v1.2d
	add	v1.2d, v7.2d, v1.2d
	orr	v2.16b, v6.16b, v2.16b
	orr	v1.16b, v1.16b, v3.16b
	orr	v3.16b, v16.16b, v4.16b
	orr	v4.16b, v17.16b, v5.16b
	and	v3.16b, v4.16b, v3.16b
	and	v1.16b, v2.16b, v1.16b
	and	v1.16b, v3.16b, v1.16b
	ext	v2.16b, v1.16b, v1.16b, #8
	and	v1.8b, v1.8b, v2.8b
	fmov	x10, d1
	bics	xzr, x11, x10
	b.ne	.LBB81_4
	sub	x8, x8, #64
	add	x1, x1, #64
	cmp	x8, #63
	b.hi	.LBB81_2
.LBB81_4:
	mov	x0, x1
	ret
.Lfunc_end81:
	.size	"core::slice::words::skip_far::<#d9bf6fcacf29a880>", .Lfunc_end81-"core::slice::words::skip_far::<#d9bf6fcacf29a880>"

	.section	".text.amqp_json::reading::named::bytes_of","ax",@progbits
	.p2align	2
	.type	"amqp_json::reading::named::bytes_of",@function
"amqp_json::reading::named::bytes_of":
	sub	sp, sp, #80
	stp	x29, x30, [sp, #16]
	add	x29, sp, #16
	stp	x24, x23, [sp, #32]
	stp	x22, x21, [sp, #48]
	stp	x20, x19, [sp, #64]
	tbnz	w2, #0, .LBB82_6
	cbz	x2, .LBB82_7
	lsr	x19, x2, #1
	mov	x23, x1
	mov	x21, x0
	mov	w1, #1
	mov	x20, x3
	mov	x24, x2
	mov	x0, x19
	mov	w22, #1
	bl	rattle_alloc
	tbz	w0, #0, .LBB82_9
	cmp	x24, #2
	b.ne	.LBB82_10
	mov	x22, xzr
	add	x8, x22, #1
	strb	wzr, [x1, xzr]
	cmp	x19, x8
	b.eq	.LBB82_11
.LBB82_5:
	mov	x0, x1
	bl	rattle_dealloc
	mov	x8, xzr
	mov	w19, #8
	mov	w1, #4
	mov	w22, #1
	mov	x0, x21
	b	.LBB82_28
.LBB82_6:
	mov	x8, xzr
	mov	w19, #6
	mov	w1, #4
	mov	w22, #1
	b	.LBB82_29
.LBB82_7:
	mov	x19, xzr
	sub	x1, x29, #1
.LBB82_8:
	mov	x22, xzr
	lsr	x8, x19, #8
	mov	x3, x19
	b	.LBB82_29
.LBB82_9:
	mov	x8, xzr
	mov	x1, xzr
	mov	x3, xzr
	mov	w19, wzr
	mov	x0, x21
	b	.LBB82_29
.LBB82_10:
	sub	x2, x19, #1
	mov	x0, x1
	mov	x24, x1
	mov	w1, wzr
	sub	x22, x19, #1
	bl	memset
	mov	x1, x24
	add	x8, x22, #1
	strb	wzr, [x24, x22]
	cmp	x19, x8
	b.ne	.LBB82_5
.LBB82_11:
	mov	x9, xzr
	add	x10, x23, #1
	mov	x0, x21
	b	.LBB82_14
.LBB82_12:
	sub	w13, w12, #55
.LBB82_13:
	add	w11, w13, w11, lsl #4
	add	x10, x10, #2
	strb	w11, [x1, x9]
	add	x9, x9, #1
	cmp	x8, x9
	b.eq	.LBB82_8
.LBB82_14:
	ldurb	w13, [x10, #-1]
	subs	w11, w13, #48
	b.lo	.LBB82_27
	ldrb	w12, [x10]
	cmp	w13, #57
	b.ls	.LBB82_21
	cmp	w13, #65
	b.lo	.LBB82_27
	cmp	w13, #70
	b.hi	.LBB82_19
	sub	w11, w13, #55
	b	.LBB82_21
.LBB82_19:
	sub	w11, w13, #97
	cmp	w11, #5
	b.hi	.LBB82_27
	sub	w11, w13, #87
.LBB82_21:
	subs	w13, w12, #48
	b.lo	.LBB82_27
	cmp	w12, #57
	b.ls	.LBB82_13
	cmp	w12, #65
	b.lo	.LBB82_27
	cmp	w12, #70
	b.ls	.LBB82_12
	sub	w13, w12, #97
	cmp	w13, #5
	b.hi	.LBB82_27
	sub	w13, w12, #87
	b	.LBB82_13
.LBB82_27:
	mov	x0, x1
	bl	rattle_dealloc
	mov	x0, x21
	mov	x8, xzr
	mov	w19, #7
	mov	w1, #4
	mov	w22, #1
.LBB82_28:
	mov	x3, x20
.LBB82_29:
	stp	x22, x1, [x0]
	lsr	x9, x8, #48
	strb	w19, [x0, #24]
	ldp	x20, x19, [sp, #64]
	stur	w8, [x0, #25]
	lsr	x8, x8, #32
	ldp	x22, x21, [sp, #48]
	str	x3, [x0, #16]
	ldp	x24, x23, [sp, #32]
	strb	w9, [x0, #31]
	ldp	x29, x30, [sp, #16]
	sturh	w8, [x0, #29]
	add	sp, sp, #80
	ret
.Lfunc_end82:
	.size	"amqp_json::reading::named::bytes_of", .Lfunc_end82-"amqp_json::reading::named::bytes_of"

	.section	".text.amqp_json::reading::walk::put_pairs","ax",@progbits
	.p2align	2
	.type	"amqp_json::reading::walk::put_pairs",@function
"amqp_json::reading::walk::put_pairs":
	sub	sp, sp, #160
	movi	v0.2d, #0000000000000000
	stp	x28, x27, [sp, #80]
	ldrb	w8, [x3]
	stp	x22, x21, [sp, #128]
	mov	x22, x1
	ldp	x1, x28, [x3, #8]
	stp	x20, x19, [sp, #144]
	mov	x19, x0
	cmp	w8, #1
	stp	x29, x30, [sp, #64]
	stp	x26, x25, [sp, #96]
	add	x29, sp, #64
	stp	x24, x23, [sp, #112]
	stp	q0, q0, [sp]
	stp	q0, q0, [sp, #32]
	b.ne	.LBB83_33
	add	x8, sp, #32
	mov	x20, x5
	mov	x24, x4
	mov	x21, x2
	orr	x25, x8, #0x8
.LBB83_2:
	cbz	x28, .LBB83_8
	ldrb	w8, [x1]
	cmp	w8, #36
	b.ne	.LBB83_6
	subs	x28, x28, #1
	b.eq	.LBB83_36
	ldrb	w8, [x1, #1]!
	cmp	w8, #36
	b.ne	.LBB83_36
.LBB83_6:
	cmp	x28, #255
	mov	x23, x28
	b.hi	.LBB83_37
	ldp	x8, x24, [x21, #8]
	cmp	x24, x8
	b.ne	.LBB83_9
	b	.LBB83_25
.LBB83_8:
	mov	x23, xzr
	ldp	x8, x24, [x21, #8]
	cmp	x24, x8
	b.eq	.LBB83_25
.LBB83_9:
	ldr	x26, [x21]
	add	x27, x8, #1
	strb	w28, [x26, x8]
	sub	x8, x24, x27
	cmp	x23, x8
	stp	x26, x27, [x21]
	str	x24, [x21, #16]
	b.hi	.LBB83_27
	add	x8, x26, x27
	stp	xzr, xzr, [x21, #8]
	sub	x8, x8, x1
	cmp	x8, x23
	b.hs	.LBB83_29
.LBB83_11:
	cmp	x23, #8
	b.lo	.LBB83_13
	add	x8, x27, x26
	sub	x8, x8, x1
	cmp	x8, #32
	b.hs	.LBB83_16
.LBB83_13:
	mov	x8, xzr
.LBB83_14:
	add	x10, x8, x27
	sub	x9, x23, x8
	add	x8, x1, x8
	add	x10, x26, x10
.LBB83_15:
	ldrb	w11, [x8], #1
	subs	x9, x9, #1
	strb	w11, [x10], #1
	b.ne	.LBB83_15
	b	.LBB83_30
.LBB83_16:
	cmp	x23, #32
	b.hs	.LBB83_18
	mov	x8, xzr
	b	.LBB83_22
.LBB83_18:
	add	x11, x26, x27
	and	x9, x23, #0x18
	and	x8, x23, #0xe0
	add	x10, x1, #16
	add	x11, x11, #16
	and	x12, x23, #0xe0
.LBB83_19:
	ldp	q0, q1, [x10, #-16]
	subs	x12, x12, #32
	add	x10, x10, #32
	stp	q0, q1, [x11, #-16]
	add	x11, x11, #32
	b.ne	.LBB83_19
	cmp	x23, x8
	b.eq	.LBB83_30
	cbz	x9, .LBB83_14
.LBB83_22:
	mov	x10, x8
	and	x8, x23, #0xf8
	add	x11, x27, x10
	sub	x9, x10, x8
	add	x10, x1, x10
	add	x11, x26, x11
.LBB83_23:
	ldr	d0, [x10], #8
	adds	x9, x9, #8
	str	d0, [x11], #8
	b.ne	.LBB83_23
	cmp	x23, x8
	b.eq	.LBB83_30
	b	.LBB83_14
.LBB83_25:
	mov	x26, x1
	mov	x0, x21
	mov	w1, #1
	bl	"std_alloc::vec::Vec::grow_amortized::<#1283936d4ef01d73>"
	cbz	w0, .LBB83_41
	ldp	x8, x24, [x21, #8]
	mov	x1, x26
	b	.LBB83_9
.LBB83_27:
	mov	x28, x1
	mov	x0, x21
	mov	x1, x23
	bl	"std_alloc::vec::Vec::grow_amortized::<#1283936d4ef01d73>"
	cbz	w0, .LBB83_41
	ldp	x27, x24, [x21, #8]
	mov	x1, x28
	ldr	x26, [x21]
	add	x8, x26, x27
	stp	xzr, xzr, [x21, #8]
	sub	x8, x8, x28
	cmp	x8, x23
	b.lo	.LBB83_11
.LBB83_29:
	add	x0, x26, x27
	mov	x2, x23
	bl	memmove
.LBB83_30:
	add	x8, x27, x23
	add	x0, sp, #32
	mov	x1, x22
	mov	x2, x21
	mov	x3, x20
	stp	x26, x8, [x21]
	str	x24, [x21, #16]
	strb	wzr, [sp, #32]
	stp	xzr, xzr, [x25]
	strb	wzr, [x25, #16]
	bl	"amqp_json::reading::walk::put_value"
	ldrb	w8, [sp, #32]
	cbnz	w8, .LBB83_34
	ldr	x24, [x22, #80]
	mov	x0, sp
	mov	x1, x22
	bl	"amqp_json::reading::walk::next_key"
	ldrb	w10, [sp]
	ldrb	w8, [sp, #8]
	ldr	x1, [sp, #16]
	ldrb	w9, [sp, #24]
	cbnz	w10, .LBB83_35
	ldrb	w10, [sp, #31]
	ldurh	w11, [sp, #29]
	cmp	w8, #1
	ldur	w12, [sp, #25]
	orr	w10, w11, w10, lsl #16
	lsl	x11, x12, #8
	orr	x10, x11, x10, lsl #40
	orr	x28, x10, x9
	b.eq	.LBB83_2
.LBB83_33:
	strb	wzr, [x19]
	stp	xzr, xzr, [x19, #8]
	strb	wzr, [x19, #24]
	b	.LBB83_40
.LBB83_34:
	mov	w9, #1
	ldrb	w8, [sp, #40]
	ldr	x10, [sp, #48]
	strb	w9, [x19]
	ldrb	w9, [sp, #56]
	stp	x8, x10, [x19, #8]
	strb	w9, [x19, #24]
	b	.LBB83_40
.LBB83_35:
	mov	w10, #1
	stp	x8, x1, [x19, #8]
	strb	w10, [x19]
	strb	w9, [x19, #24]
	b	.LBB83_40
.LBB83_36:
	mov	w8, #1
	b	.LBB83_38
.LBB83_37:
	mov	w8, #2
.LBB83_38:
	mov	w9, #4
.LBB83_39:
	mov	w10, #1
	stp	x9, x24, [x19, #8]
	strb	w10, [x19]
	strb	w8, [x19, #24]
.LBB83_40:
	ldp	x20, x19, [sp, #144]
	ldp	x22, x21, [sp, #128]
	ldp	x24, x23, [sp, #112]
	ldp	x26, x25, [sp, #96]
	ldp	x28, x27, [sp, #80]
	ldp	x29, x30, [sp, #64]
	add	sp, sp, #160
	ret
.LBB83_41:
	mov	w8, wzr
	mov	x24, xzr
	mov	x9, xzr
	b	.LBB83_39
.Lfunc_end83:
	.size	"amqp_json::reading::walk::put_pairs", .Lfunc_end83-"amqp_json::reading::walk::put_pairs"

	.section	.rodata.cst16,"aM",@progbits,16
	.p2align	4, 0x0
.LCPI84_0:
	.byte	1
	.byte	2
	.byte	4
	.byte	8
	.byte	16
	.byte	32
	.byte	64
	.byte	128
	.byte	1
	.byte	2
	.byte	4
	.byte	8
	.byte	16
	.byte	32
	.byte	64
	.byte	128
	.section	.rodata.cst8,"aM",@progbits,8
	.p2align	3, 0x0
.LCPI84_1:
	.byte	1
	.byte	2
	.byte	4
	.byte	8
	.byte	16
	.byte	32
	.byte	64
	.byte	128
	.section	".text.json::run::plain_end_16","ax",@progbits
	.p2align	2
	.type	"json::run::plain_end_16",@function
"json::run::plain_end_16":
	sub	x8, x1, x2
	cmp	x8, #16
	b.hs	.LBB84_8
	cmp	x8, #7
	b.hi	.LBB84_10
	cmp	x1, x2
	b.ls	.LBB84_12
.LBB84_3:
	ldrb	w8, [x0, x2]
	cmp	w8, #34
	b.eq	.LBB84_12
	cmp	w8, #92
	b.eq	.LBB84_12
	cmp	w8, #32
	b.lo	.LBB84_12
	add	x2, x2, #1
	cmp	x1, x2
	b.ne	.LBB84_3
	mov	x0, x1
	ret
.LBB84_8:
	movi	v0.16b, #34
	movi	v1.16b, #92
	ldr	q2, [x0, x2]
	movi	v3.16b, #32
	adrp	x8, .LCPI84_0
	cmeq	v0.16b, v2.16b, v0.16b
	cmeq	v1.16b, v2.16b, v1.16b
	orr	v0.16b, v0.16b, v1.16b
	cmhi	v1.16b, v3.16b, v2.16b
	orr	v0.16b, v1.16b, v0.16b
	ldr	q1, [x8, :lo12:.LCPI84_0]
	and	v0.16b, v0.16b, v1.16b
	addp	v0.16b, v0.16b, v0.16b
	addp	v0.16b, v0.16b, v0.16b
	addp	v0.16b, v0.16b, v0.16b
	umov	w8, v0.h[0]
	cbz	w8, .LBB84_13
	umov	w8, v0.h[0]
	rbit	w8, w8
	clz	w8, w8
	add	x0, x2, x8
	ret
.LBB84_10:
	movi	v0.8b, #34
	movi	v1.8b, #92
	ldr	d2, [x0, x2]
	movi	v3.8b, #32
	cmeq	v0.8b, v2.8b, v0.8b
	cmeq	v1.8b, v2.8b, v1.8b
	orr	v0.8b, v0.8b, v1.8b
	cmhi	v1.8b, v3.8b, v2.8b
	orr	v0.8b, v1.8b, v0.8b
	umaxv	b1, v0.8b
	fmov	w8, s1
	tbz	w8, #0, .LBB84_20
	adrp	x8, .LCPI84_1
	ldr	d1, [x8, :lo12:.LCPI84_1]
	and	v0.8b, v0.8b, v1.8b
	addv	b0, v0.8b
	fmov	w8, s0
	rbit	w8, w8
	clz	w8, w8
	add	x0, x2, x8
	ret
.LBB84_12:
	mov	x0, x2
	ret
.LBB84_13:
	add	x8, x2, #16
	sub	x9, x1, x8
	cmp	x9, #7
	b.hi	.LBB84_26
	cmp	x1, x8
	b.ls	.LBB84_34
.LBB84_15:
	ldrb	w9, [x0, x8]
	cmp	w9, #34
	b.eq	.LBB84_34
	cmp	w9, #92
	b.eq	.LBB84_34
	cmp	w9, #32
	b.lo	.LBB84_34
	add	x8, x8, #1
	cmp	x1, x8
	b.ne	.LBB84_15
	mov	x0, x1
	ret
.LBB84_20:
	add	x8, x2, #8
	cmp	x8, x1
	b.hs	.LBB84_34
.LBB84_21:
	ldrb	w9, [x0, x8]
	cmp	w9, #34
	b.eq	.LBB84_34
	cmp	w9, #92
	b.eq	.LBB84_34
	cmp	w9, #32
	b.lo	.LBB84_34
	add	x8, x8, #1
	cmp	x1, x8
	b.ne	.LBB84_21
	mov	x0, x1
	ret
.LBB84_26:
	movi	v0.8b, #34
	movi	v1.8b, #92
	ldr	d2, [x0, x8]
	movi	v3.8b, #32
	cmeq	v0.8b, v2.8b, v0.8b
	cmeq	v1.8b, v2.8b, v1.8b
	orr	v0.8b, v0.8b, v1.8b
	cmhi	v1.8b, v3.8b, v2.8b
	orr	v0.8b, v1.8b, v0.8b
	umaxv	b1, v0.8b
	fmov	w9, s1
	tbz	w9, #0, .LBB84_28
	adrp	x9, .LCPI84_1
	ldr	d1, [x9, :lo12:.LCPI84_1]
	and	v0.8b, v0.8b, v1.8b
	addv	b0, v0.8b
	fmov	w9, s0
	rbit	w9, w9
	clz	w9, w9
	add	x8, x8, x9
	b	.LBB84_34
.LBB84_28:
	add	x8, x2, #24
	cmp	x8, x1
	b.hs	.LBB84_34
.LBB84_29:
	ldrb	w9, [x0, x8]
	cmp	w9, #34
	b.eq	.LBB84_34
	cmp	w9, #92
	b.eq	.LBB84_34
	cmp	w9, #32
	b.lo	.LBB84_34
	add	x8, x8, #1
	cmp	x1, x8
	b.ne	.LBB84_29
	mov	x0, x1
	ret
.LBB84_34:
	mov	x0, x8
	ret
.Lfunc_end84:
	.size	"json::run::plain_end_16", .Lfunc_end84-"json::run::plain_end_16"

	.section	.rodata.cst16,"aM",@progbits,16
	.p2align	4, 0x0
.LCPI85_0:
	.byte	1
	.byte	2
	.byte	4
	.byte	8
	.byte	16
	.byte	32
	.byte	64
	.byte	128
	.byte	1
	.byte	2
	.byte	4
	.byte	8
	.byte	16
	.byte	32
	.byte	64
	.byte	128
.LCPI85_1:
	.word	4294967278
	.word	4294967284
	.word	4294967290
	.word	0
	.section	.rodata.cst8,"aM",@progbits,8
	.p2align	3, 0x0
.LCPI85_2:
	.hword	255
	.hword	63
	.hword	63
	.hword	63
.LCPI85_3:
	.hword	240
	.hword	128
	.hword	128
	.hword	128
	.section	".text.json::unescape::unescape","ax",@progbits
	.p2align	2
	.type	"json::unescape::unescape",@function
"json::unescape::unescape":
	sub	sp, sp, #112
	stp	x28, x27, [sp, #32]
	mov	x28, xzr
	add	x27, x3, #16
	stp	x26, x25, [sp, #48]
	add	x26, x0, #16
	stp	x24, x23, [sp, #64]
	mov	x24, x2
	stp	x22, x21, [sp, #80]
	mov	x21, x0
	mov	x22, x1
	stp	x20, x19, [sp, #96]
	mov	x19, x4
	mov	x20, x3
	stp	x29, x30, [sp, #16]
	add	x29, sp, #16
	sub	x8, x1, x2
	cmp	x8, #32
	b.lo	.LBB85_5
.LBB85_1:
	mov	x2, x24
.LBB85_2:
	movi	v0.16b, #34
	movi	v1.16b, #92
	add	x9, x21, x2
	ldp	q2, q3, [x9]
	movi	v4.16b, #32
	adrp	x9, .LCPI85_0
	cmeq	v5.16b, v2.16b, v0.16b
	cmeq	v6.16b, v2.16b, v1.16b
	cmeq	v0.16b, v3.16b, v0.16b
	cmeq	v1.16b, v3.16b, v1.16b
	orr	v5.16b, v5.16b, v6.16b
	orr	v0.16b, v0.16b, v1.16b
	cmhi	v1.16b, v4.16b, v2.16b
	cmhi	v2.16b, v4.16b, v3.16b
	orr	v0.16b, v2.16b, v0.16b
	orr	v1.16b, v1.16b, v5.16b
	ldr	q2, [x9, :lo12:.LCPI85_0]
	and	v1.16b, v1.16b, v2.16b
	and	v0.16b, v0.16b, v2.16b
	addp	v0.16b, v1.16b, v0.16b
	addp	v0.16b, v0.16b, v0.16b
	addp	v0.16b, v0.16b, v0.16b
	fmov	w9, s0
	cbnz	w9, .LBB85_4
	sub	x8, x8, #32
	add	x2, x2, #32
	cmp	x8, #31
	b.hi	.LBB85_2
	b	.LBB85_5
.LBB85_4:
	rbit	w8, w9
	clz	w8, w8
	add	x23, x8, x2
	subs	x8, x22, x23
	b.ne	.LBB85_6
	b	.LBB85_65
.LBB85_5:
	mov	x0, x21
	mov	x1, x22
	bl	"json::run::plain_end_16"
	mov	x23, x0
	subs	x8, x22, x0
	b.eq	.LBB85_65
.LBB85_6:
	ldrb	w9, [x21, x23]
	cmp	w9, #32
	b.lo	.LBB85_65
	cmp	x8, #32
	sub	x25, x23, x24
	b.lo	.LBB85_9
	sub	x8, x19, x28
	sub	x8, x8, x25
	cmp	x8, #32
	b.hs	.LBB85_16
.LBB85_9:
	add	x1, x21, x24
	add	x8, x20, x28
	sub	x8, x8, x1
	cmp	x8, x25
	b.hs	.LBB85_15
	cmp	x25, #8
	b.lo	.LBB85_12
	add	x8, x28, x20
	add	x9, x24, x21
	sub	x8, x8, x9
	cmp	x8, #32
	b.hs	.LBB85_19
.LBB85_12:
	mov	x8, xzr
.LBB85_13:
	add	x9, x8, x24
	add	x10, x8, x28
	sub	x8, x9, x23
	add	x9, x21, x9
	add	x10, x20, x10
.LBB85_14:
	ldrb	w11, [x9], #1
	adds	x8, x8, #1
	strb	w11, [x10], #1
	b.lo	.LBB85_14
	b	.LBB85_28
.LBB85_15:
	add	x0, x20, x28
	mov	x2, x25
	bl	memmove
	b	.LBB85_28
.LBB85_16:
	cmp	x23, x24
	b.eq	.LBB85_28
	mov	x8, xzr
	add	x9, x21, x24
	add	x10, x20, x28
.LBB85_18:
	add	x11, x9, x8
	ldp	q1, q0, [x11]
	add	x11, x10, x8
	add	x8, x8, #32
	cmp	x8, x25
	stp	q1, q0, [x11]
	b.lo	.LBB85_18
	b	.LBB85_28
.LBB85_19:
	cmp	x25, #32
	b.hs	.LBB85_21
	mov	x8, xzr
	b	.LBB85_25
.LBB85_21:
	and	x9, x25, #0x18
	and	x8, x25, #0xffffffffffffffe0
	add	x10, x26, x24
	add	x11, x27, x28
	and	x12, x25, #0xffffffffffffffe0
.LBB85_22:
	ldp	q0, q1, [x10, #-16]
	subs	x12, x12, #32
	add	x10, x10, #32
	stp	q0, q1, [x11, #-16]
	add	x11, x11, #32
	b.ne	.LBB85_22
	cmp	x25, x8
	b.eq	.LBB85_28
	cbz	x9, .LBB85_13
.LBB85_25:
	mov	x9, x8
	and	x8, x25, #0xfffffffffffffff8
	add	x10, x9, x24
	add	x11, x9, x28
	sub	x9, x9, x8
	add	x10, x21, x10
	add	x11, x20, x11
.LBB85_26:
	ldr	d0, [x10], #8
	adds	x9, x9, #8
	str	d0, [x11], #8
	b.ne	.LBB85_26
	cmp	x25, x8
	b.ne	.LBB85_13
.LBB85_28:
	ldrb	w8, [x21, x23]
	add	x28, x25, x28
	cmp	w8, #34
	b.eq	.LBB85_66
	add	x8, x23, #1
	cmp	x8, x22
	b.eq	.LBB85_65
	ldrb	w25, [x21, x8]
	mov	w0, wzr
	mov	x1, xzr
	cmp	w25, #101
	b.le	.LBB85_45
	cmp	w25, #113
	b.le	.LBB85_49
	cmp	w25, #114
	b.eq	.LBB85_53
	cmp	w25, #116
	b.eq	.LBB85_52
	cmp	w25, #117
	b.ne	.LBB85_67
	add	x8, x23, #2
	sub	x8, x22, x8
	cmp	x8, #4
	b.lo	.LBB85_65
	add	x1, x23, #2
	mov	x0, x21
	bl	"json::unescape::hex4"
	tbz	w0, #0, .LBB85_65
	lsr	w8, w1, #10
	mov	w25, w1
	cmp	w8, #54
	b.ne	.LBB85_58
	add	x8, x23, #6
	sub	x9, x22, x8
	cmp	x9, #6
	b.lo	.LBB85_65
	add	x8, x21, x8
	mov	w0, wzr
	mov	x1, xzr
	ldrb	w9, [x8]
	cmp	w9, #92
	b.ne	.LBB85_67
	ldrb	w8, [x8, #1]
	cmp	w8, #117
	b.ne	.LBB85_67
	add	x1, x23, #8
	mov	x0, x21
	bl	"json::unescape::hex4"
	mov	w9, w0
	mov	w8, w1
	mov	w0, wzr
	mov	x1, xzr
	tbz	w9, #0, .LBB85_67
	and	w9, w8, #0xfffffc00
	mov	w10, #56320
	cmp	w9, w10
	b.ne	.LBB85_67
	add	w8, w8, w25, lsl #10
	mov	w9, #9216
	add	x24, x23, #12
	movk	w9, #64672, lsl #16
	add	w25, w8, w9
.LBB85_44:
	dup	v0.4s, w25
	adrp	x8, .LCPI85_1
	mov	w23, #4
	ldr	q1, [x8, :lo12:.LCPI85_1]
	adrp	x8, .LCPI85_2
	ushl	v0.4s, v0.4s, v1.4s
	ldr	d1, [x8, :lo12:.LCPI85_2]
	adrp	x8, .LCPI85_3
	xtn	v0.4h, v0.4s
	and	v0.8b, v0.8b, v1.8b
	ldr	d1, [x8, :lo12:.LCPI85_3]
	add	v0.4h, v0.4h, v1.4h
	uzp1	v0.8b, v0.8b, v0.8b
	stur	s0, [x29, #-4]
	b	.LBB85_57
.LBB85_45:
	sub	w8, w25, #34
	cmp	w8, #58
	b.hi	.LBB85_47
	mov	w9, #1
	lsl	x8, x9, x8
	mov	x9, #8193
	movk	x9, #1024, lsl #48
	tst	x8, x9
	b.ne	.LBB85_55
.LBB85_47:
	cmp	w25, #98
	b.ne	.LBB85_67
	mov	w25, #8
	b	.LBB85_55
.LBB85_49:
	cmp	w25, #102
	b.eq	.LBB85_54
	cmp	w25, #110
	b.ne	.LBB85_67
	mov	w25, #10
	b	.LBB85_55
.LBB85_52:
	mov	w25, #9
	b	.LBB85_55
.LBB85_53:
	mov	w25, #13
	b	.LBB85_55
.LBB85_54:
	mov	w25, #12
.LBB85_55:
	add	x24, x23, #2
	stur	wzr, [x29, #-4]
.LBB85_56:
	sturb	w25, [x29, #-4]
	mov	w23, #1
.LBB85_57:
	add	x0, x20, x28
	sub	x1, x29, #4
	mov	x2, x23
	bl	memcpy
	add	x28, x23, x28
	sub	x8, x22, x24
	mov	x2, x24
	cmp	x8, #32
	b.hs	.LBB85_1
	b	.LBB85_5
.LBB85_58:
	lsr	w8, w25, #11
	cmp	w8, #27
	b.lo	.LBB85_60
	sub	w8, w25, #14, lsl #12
	cmp	w8, #258, lsl #12
	b.hs	.LBB85_65
.LBB85_60:
	cmp	w25, #127
	add	x24, x23, #6
	stur	wzr, [x29, #-4]
	b.ls	.LBB85_56
	cmp	w25, #2047
	b.hi	.LBB85_63
	lsr	w8, w25, #6
	mov	w9, #128
	mov	w23, #2
	bfxil	w9, w25, #0, #6
	orr	w8, w8, #0xc0
	sturb	w8, [x29, #-4]
	sturb	w9, [x29, #-3]
	b	.LBB85_57
.LBB85_63:
	lsr	w8, w25, #16
	cbnz	w8, .LBB85_44
	lsr	w8, w25, #12
	mov	w9, #128
	mov	w10, #128
	bfxil	w9, w25, #6, #6
	bfxil	w10, w25, #0, #6
	mov	w23, #3
	orr	w8, w8, #0xe0
	sturb	w8, [x29, #-4]
	sturb	w9, [x29, #-3]
	sturb	w10, [x29, #-2]
	b	.LBB85_57
.LBB85_65:
	mov	x1, xzr
	mov	w0, wzr
	b	.LBB85_67
.LBB85_66:
	mov	w0, #1
	mov	x1, x28
.LBB85_67:
	ldp	x20, x19, [sp, #96]
	ldp	x22, x21, [sp, #80]
	ldp	x24, x23, [sp, #64]
	ldp	x26, x25, [sp, #48]
	ldp	x28, x27, [sp, #32]
	ldp	x29, x30, [sp, #16]
	add	sp, sp, #112
	ret
.Lfunc_end85:
	.size	"json::unescape::unescape", .Lfunc_end85-"json::unescape::unescape"

	.section	".text.json::unescape::hex4","ax",@progbits
	.p2align	2
	.type	"json::unescape::hex4",@function
"json::unescape::hex4":
	add	x9, x0, x1
	ldrb	w8, [x9]
	subs	w10, w8, #48
	b.hs	.LBB86_2
.LBB86_1:
	mov	w8, #36
	ldrb	w10, [x9, #1]
	subs	w11, w10, #48
	b.lo	.LBB86_10
	b	.LBB86_4
.LBB86_2:
	cmp	w8, #57
	b.hi	.LBB86_6
	and	w8, w10, #0xff
	ldrb	w10, [x9, #1]
	subs	w11, w10, #48
	b.lo	.LBB86_10
.LBB86_4:
	cmp	w10, #57
	b.hi	.LBB86_9
	and	w10, w11, #0xff
	ldrb	w11, [x9, #2]
	subs	w12, w11, #48
	b.hs	.LBB86_11
	b	.LBB86_14
.LBB86_6:
	cmp	w8, #65
	b.lo	.LBB86_1
	cmp	w8, #90
	b.hi	.LBB86_27
	sub	w8, w8, #55
	ldrb	w10, [x9, #1]
	subs	w11, w10, #48
	b.hs	.LBB86_4
	b	.LBB86_10
.LBB86_9:
	cmp	w10, #65
	b.hs	.LBB86_21
.LBB86_10:
	mov	w10, #36
	ldrb	w11, [x9, #2]
	subs	w12, w11, #48
	b.lo	.LBB86_14
.LBB86_11:
	cmp	w11, #57
	b.hi	.LBB86_13
	and	w11, w12, #0xff
	ldrb	w9, [x9, #3]
	subs	w12, w9, #48
	b.lo	.LBB86_19
	b	.LBB86_15
.LBB86_13:
	cmp	w11, #65
	b.hs	.LBB86_23
.LBB86_14:
	mov	w11, #36
	ldrb	w9, [x9, #3]
	subs	w12, w9, #48
	b.lo	.LBB86_19
.LBB86_15:
	cmp	w9, #57
	b.hi	.LBB86_18
	and	w9, w12, #0xff
	orr	w12, w10, w8
	orr	w13, w11, w9
	orr	w12, w12, w13
	cmp	w12, #15
	b.ls	.LBB86_20
.LBB86_17:
	mov	w1, wzr
	mov	w0, wzr
	ret
.LBB86_18:
	cmp	w9, #65
	b.hs	.LBB86_25
.LBB86_19:
	mov	w9, #36
	orr	w12, w10, w8
	orr	w13, w11, w9
	orr	w12, w12, w13
	cmp	w12, #15
	b.hi	.LBB86_17
.LBB86_20:
	lsl	w10, w10, #8
	mov	w0, #1
	add	w8, w10, w8, lsl #12
	add	w8, w8, w11, lsl #4
	orr	w1, w8, w9
	ret
.LBB86_21:
	cmp	w10, #90
	b.hi	.LBB86_29
	sub	w10, w10, #55
	ldrb	w11, [x9, #2]
	subs	w12, w11, #48
	b.lo	.LBB86_14
	b	.LBB86_11
.LBB86_23:
	cmp	w11, #90
	b.hi	.LBB86_31
	sub	w11, w11, #55
	ldrb	w9, [x9, #3]
	subs	w12, w9, #48
	b.hs	.LBB86_15
	b	.LBB86_19
.LBB86_25:
	cmp	w9, #90
	b.hi	.LBB86_33
	sub	w9, w9, #55
	orr	w12, w10, w8
	orr	w13, w11, w9
	orr	w12, w12, w13
	cmp	w12, #15
	b.ls	.LBB86_20
	b	.LBB86_17
.LBB86_27:
	sub	w10, w8, #97
	cmp	w10, #25
	b.hi	.LBB86_1
	sub	w8, w8, #87
	ldrb	w10, [x9, #1]
	subs	w11, w10, #48
	b.lo	.LBB86_10
	b	.LBB86_4
.LBB86_29:
	sub	w11, w10, #97
	cmp	w11, #25
	b.hi	.LBB86_10
	sub	w10, w10, #87
	ldrb	w11, [x9, #2]
	subs	w12, w11, #48
	b.hs	.LBB86_11
	b	.LBB86_14
.LBB86_31:
	sub	w12, w11, #97
	cmp	w12, #25
	b.hi	.LBB86_14
	sub	w11, w11, #87
	ldrb	w9, [x9, #3]
	subs	w12, w9, #48
	b.lo	.LBB86_19
	b	.LBB86_15
.LBB86_33:
	sub	w12, w9, #97
	cmp	w12, #25
	b.hi	.LBB86_19
	sub	w9, w9, #87
	orr	w12, w10, w8
	orr	w13, w11, w9
	orr	w12, w12, w13
	cmp	w12, #15
	b.hi	.LBB86_17
	b	.LBB86_20
.Lfunc_end86:
	.size	"json::unescape::hex4", .Lfunc_end86-"json::unescape::hex4"

	.section	".text.json::run::digits_end_slowly","ax",@progbits
	.p2align	2
	.type	"json::run::digits_end_slowly",@function
"json::run::digits_end_slowly":
	cmp	x2, x1
	b.hs	.LBB87_4
.LBB87_1:
	ldrb	w8, [x0, x2]
	sub	w8, w8, #48
	cmp	w8, #9
	b.hi	.LBB87_4
	add	x2, x2, #1
	cmp	x1, x2
	b.ne	.LBB87_1
	mov	x2, x1
.LBB87_4:
	mov	x0, x2
	ret
.Lfunc_end87:
	.size	"json::run::digits_end_slowly", .Lfunc_end87-"json::run::digits_end_slowly"

	.section	".text.amqp_json::reading::syntax::Scan::after_value","ax",@progbits
	.p2align	2
	.type	"amqp_json::reading::syntax::Scan::after_value",@function
"amqp_json::reading::syntax::Scan::after_value":
	sub	sp, sp, #80
	ldr	x8, [x1, #152]
	stp	xzr, xzr, [sp, #56]
	stur	wzr, [sp, #71]
	sub	x12, x8, #1
	stp	xzr, xzr, [sp, #32]
	cmp	x12, #126
	stur	wzr, [sp, #47]
	stp	xzr, xzr, [sp, #8]
	stur	wzr, [sp, #23]
	b.hi	.LBB88_6
	add	x8, x1, x8
	ldrb	w9, [x8, #23]
	and	w8, w2, #0xff
	cmp	w8, #44
	cbz	w9, .LBB88_7
	b.gt	.LBB88_11
	cmp	w8, #34
	b.eq	.LBB88_22
	cmp	w8, #44
	b.ne	.LBB88_17
	mov	w11, wzr
	mov	w10, wzr
	stur	xzr, [sp, #19]
	mov	w8, #1
	stur	xzr, [sp, #11]
	mov	w9, #1
	b	.LBB88_24
.LBB88_6:
	mov	w8, #2305
	str	wzr, [x0, #8]
	strh	w8, [x0]
	strb	wzr, [x0, #12]
	stp	xzr, xzr, [x0, #16]
	add	sp, sp, #80
	ret
.LBB88_7:
	b.gt	.LBB88_14
	cmp	w8, #34
	b.eq	.LBB88_26
	cmp	w8, #44
	b.ne	.LBB88_19
	stur	xzr, [sp, #43]
	mov	w11, wzr
	mov	w10, wzr
	stur	xzr, [sp, #35]
	mov	w8, wzr
	mov	w9, #1
	ldur	q0, [sp, #35]
	b	.LBB88_28
.LBB88_11:
	cmp	w8, #45
	b.eq	.LBB88_22
	cmp	w8, #125
	b.ne	.LBB88_17
	mov	w11, wzr
	mov	w10, wzr
	mov	w9, wzr
	str	x12, [x1, #152]
	mov	w8, #3
	stur	xzr, [sp, #19]
	stur	xzr, [sp, #11]
	b	.LBB88_24
.LBB88_14:
	cmp	w8, #45
	b.eq	.LBB88_26
	cmp	w8, #93
	b.ne	.LBB88_19
	stur	xzr, [sp, #43]
	mov	w11, wzr
	mov	w10, wzr
	stur	xzr, [sp, #35]
	mov	w9, wzr
	mov	w8, #3
	ldur	q0, [sp, #35]
	str	x12, [x1, #152]
	b	.LBB88_28
.LBB88_17:
	cmp	w8, #48
	b.hs	.LBB88_21
.LBB88_18:
	mov	w8, wzr
	mov	w9, wzr
	mov	w10, #2
	b	.LBB88_23
.LBB88_19:
	cmp	w8, #48
	b.hs	.LBB88_25
.LBB88_20:
	mov	w8, wzr
	mov	w9, wzr
	mov	w10, #2
	b	.LBB88_27
.LBB88_21:
	cmp	w8, #58
	b.hs	.LBB88_29
.LBB88_22:
	mov	w8, wzr
	mov	w9, wzr
	mov	w10, #6
.LBB88_23:
	mov	w11, #1
.LBB88_24:
	ldur	q0, [sp, #11]
	b	.LBB88_28
.LBB88_25:
	cmp	w8, #58
	b.hs	.LBB88_32
.LBB88_26:
	mov	w8, wzr
	mov	w9, wzr
	mov	w10, #6
.LBB88_27:
	ldur	q0, [sp, #35]
	mov	w11, #1
.LBB88_28:
	stur	q0, [sp, #59]
	ldur	q0, [sp, #59]
	strb	w11, [x0]
	strb	w10, [x0, #1]
	strb	w8, [x0, #8]
	strb	w9, [x0, #9]
	strh	wzr, [x0, #10]
	strb	wzr, [x0, #12]
	str	q0, [x0, #16]
	add	sp, sp, #80
	ret
.LBB88_29:
	cmp	w8, #65
	b.lo	.LBB88_18
	cmp	w8, #92
	b.lo	.LBB88_22
	sub	w8, w8, #97
	cmp	w8, #26
	b.hi	.LBB88_18
	b	.LBB88_22
.LBB88_32:
	cmp	w8, #65
	b.lo	.LBB88_20
	cmp	w8, #92
	b.lo	.LBB88_26
	sub	w8, w8, #97
	cmp	w8, #26
	b.hi	.LBB88_20
	b	.LBB88_26
.Lfunc_end88:
	.size	"amqp_json::reading::syntax::Scan::after_value", .Lfunc_end88-"amqp_json::reading::syntax::Scan::after_value"

	.section	".text.std_alloc::vec::Vec::drop::<#a80c6f5142a8b983>","ax",@progbits
	.p2align	2
	.type	"std_alloc::vec::Vec::drop::<#a80c6f5142a8b983>",@function
"std_alloc::vec::Vec::drop::<#a80c6f5142a8b983>":
	sub	sp, sp, #96
	stp	x20, x19, [sp, #80]
	ldp	x19, x20, [x0]
	stp	x22, x21, [sp, #64]
	ldr	x21, [x0, #16]
	stp	x29, x30, [sp, #32]
	add	x29, sp, #32
	str	x23, [sp, #48]
	cbz	x20, .LBB89_3
	mov	x8, sp
	add	x23, x19, #2
	orr	x22, x8, #0x4
.LBB89_2:
	ldur	w8, [x23, #-2]
	ldur	q0, [x23, #2]
	mov	x0, sp
	ldur	q1, [x23, #14]
	str	w8, [sp]
	str	q0, [x22]
	stur	q1, [x22, #12]
	bl	"amqp_json::amqp_value_core++value++AMQPValue+Destruct::drop"
	subs	x20, x20, #1
	add	x23, x23, #32
	b.ne	.LBB89_2
.LBB89_3:
	cbz	x21, .LBB89_5
	mov	x0, x19
	ldp	x20, x19, [sp, #80]
	ldp	x22, x21, [sp, #64]
	ldr	x23, [sp, #48]
	ldp	x29, x30, [sp, #32]
	add	sp, sp, #96
	b	rattle_dealloc
.LBB89_5:
	ldp	x20, x19, [sp, #80]
	ldr	x23, [sp, #48]
	ldp	x22, x21, [sp, #64]
	ldp	x29, x30, [sp, #32]
	add	sp, sp, #96
	ret
.Lfunc_end89:
	.size	"std_alloc::vec::Vec::drop::<#a80c6f5142a8b983>", .Lfunc_end89-"std_alloc::vec::Vec::drop::<#a80c6f5142a8b983>"

	.section	".text.amqp_json::amqp_value_core++value++AMQPValue+Destruct::drop","ax",@progbits
	.p2align	2
	.type	"amqp_json::amqp_value_core++value++AMQPValue+Destruct::drop",@function
"amqp_json::amqp_value_core++value++AMQPValue+Destruct::drop":
	sub	sp, sp, #96
	ldrb	w8, [x0]
	stp	x29, x30, [sp, #32]
	add	x29, sp, #32
	str	x23, [sp, #48]
	cmp	w8, #10
	stp	x22, x21, [sp, #64]
	stp	x20, x19, [sp, #80]
	b.gt	.LBB90_2
.LBB90_1:
	ldp	x20, x19, [sp, #80]
	ldr	x23, [sp, #48]
	ldp	x22, x21, [sp, #64]
	ldp	x29, x30, [sp, #32]
	add	sp, sp, #96
	ret
.LBB90_2:
	ldp	x19, x20, [x0, #8]
	cmp	w8, #13
	ldr	x21, [x0, #24]
	b.le	.LBB90_7
	cmp	w8, #15
	b.gt	.LBB90_12
	cmp	w8, #14
	b.eq	.LBB90_1
	and	x8, x19, #0xff
	cmp	x8, #1
	b.ne	.LBB90_1
	mov	x0, x20
	ldp	x20, x19, [sp, #80]
	ldp	x22, x21, [sp, #64]
	ldr	x23, [sp, #48]
	ldp	x29, x30, [sp, #32]
	add	sp, sp, #96
	b	"std_collections::btree::node::Node::destroy::<#6f4b2ed543d1e00a>"
.LBB90_7:
	cmp	w8, #11
	b.eq	.LBB90_13
	cmp	w8, #12
	b.eq	.LBB90_13
	cbz	x20, .LBB90_13
	mov	x8, sp
	add	x23, x19, #2
	orr	x22, x8, #0x4
.LBB90_11:
	ldur	w8, [x23, #-2]
	ldur	q0, [x23, #2]
	mov	x0, sp
	ldur	q1, [x23, #14]
	str	w8, [sp]
	str	q0, [x22]
	stur	q1, [x22, #12]
	bl	"amqp_json::amqp_value_core++value++AMQPValue+Destruct::drop"
	subs	x20, x20, #1
	add	x23, x23, #32
	b.ne	.LBB90_11
	b	.LBB90_13
.LBB90_12:
	cmp	w8, #16
	b.ne	.LBB90_1
.LBB90_13:
	cbz	x21, .LBB90_1
	mov	x0, x19
	ldp	x20, x19, [sp, #80]
	ldp	x22, x21, [sp, #64]
	ldr	x23, [sp, #48]
	ldp	x29, x30, [sp, #32]
	add	sp, sp, #96
	b	rattle_dealloc
.Lfunc_end90:
	.size	"amqp_json::amqp_value_core++value++AMQPValue+Destruct::drop", .Lfunc_end90-"amqp_json::amqp_value_core++value++AMQPValue+Destruct::drop"

	.section	".text.std_collections::btree::node::Node::destroy::<#6f4b2ed543d1e00a>","ax",@progbits
	.p2align	2
	.type	"std_collections::btree::node::Node::destroy::<#6f4b2ed543d1e00a>",@function
"std_collections::btree::node::Node::destroy::<#6f4b2ed543d1e00a>":
	sub	sp, sp, #256
	stp	x20, x19, [sp, #240]
	ldrh	w20, [x0]
	ldrh	w10, [x0, #2]
	add	x8, x0, #8
	mov	w9, #15
	mov	w11, #16
	stp	x8, x20, [sp, #32]
	add	x8, x0, #368
	cmp	w10, #0
	stp	x9, x8, [sp, #48]
	add	x8, x0, #848
	csel	x11, xzr, x11, eq
	stp	x20, x9, [sp, #64]
	csinc	x9, xzr, x20, eq
	stp	x29, x30, [sp, #176]
	add	x29, sp, #176
	str	x25, [sp, #192]
	stp	x24, x23, [sp, #208]
	stp	x22, x21, [sp, #224]
	stp	xzr, xzr, [sp]
	str	wzr, [sp, #24]
	str	xzr, [sp, #16]
	stp	x8, x9, [sp, #80]
	stp	x11, x0, [sp, #96]
	cbz	w10, .LBB91_35
	add	x19, sp, #32
	cbz	w20, .LBB91_22
	sub	x8, x29, #32
	orr	x20, x8, #0x4
	b	.LBB91_4
.LBB91_3:
	ldr	q0, [sp]
	ldur	q1, [sp, #12]
	sub	x0, x29, #32
	sturb	w21, [x29, #-32]
	sturb	w23, [x29, #-31]
	sturh	w22, [x29, #-30]
	str	q0, [x20]
	stur	q1, [x20, #12]
	bl	"amqp_json::amqp_value_core++value++AMQPValue+Destruct::drop"
	ldr	x8, [sp, #40]
	cbz	x8, .LBB91_21
.LBB91_4:
	ldp	x9, x8, [sp, #80]
	sub	x8, x8, #1
	ldr	x0, [x9]
	cmp	x8, #257
	b.lo	.LBB91_10
	mov	x13, xzr
	add	x11, x9, #16
.LBB91_6:
	mov	w10, #256
	mov	x12, x11
.LBB91_7:
	ldur	q0, [x12, #-8]
	ldur	q1, [x12, #8]
	subs	x10, x10, #4
	stp	q0, q1, [x12, #-16]
	add	x12, x12, #32
	b.ne	.LBB91_7
	add	x13, x13, #256
	add	x11, x11, #2048
	sub	x10, x8, x13
	cmp	x10, #256
	b.hi	.LBB91_6
	lsl	x11, x13, #3
	add	x12, x9, x11
	cmp	x8, x13
	b.ne	.LBB91_11
	b	.LBB91_16
.LBB91_10:
	mov	x11, xzr
	mov	x12, x9
	mov	x10, x8
	cmp	x8, xzr
	b.eq	.LBB91_16
.LBB91_11:
	cmp	x10, #4
	b.lo	.LBB91_13
	add	x13, x11, x9
	sub	x13, x13, x12
	sub	x13, x13, #8
	cmp	x13, #32
	b.hs	.LBB91_18
.LBB91_13:
	mov	x13, xzr
.LBB91_14:
	lsl	x14, x13, #3
	add	x11, x9, x11
	sub	x9, x10, x13
	add	x12, x12, x14
	add	x11, x11, x14
	add	x10, x12, #8
.LBB91_15:
	ldr	x12, [x10], #8
	subs	x9, x9, #1
	str	x12, [x11], #8
	b.ne	.LBB91_15
.LBB91_16:
	ldr	x9, [sp, #96]
	stp	x8, x9, [sp, #88]
	bl	"std_collections::btree::node::Node::destroy::<#6f4b2ed543d1e00a>"
	movi	v0.2d, #0000000000000000
	sub	x0, x29, #64
	add	x1, sp, #32
	mov	x2, xzr
	stp	xzr, xzr, [x29, #-56]
	stur	xzr, [x29, #-64]
	stp	q0, q0, [x29, #-32]
	bl	"std_alloc::vec::Vec::remove::<#5ea93b9ddeb8aab1>"
	sub	x0, x29, #32
	add	x1, x19, #24
	mov	x2, xzr
	bl	"std_alloc::vec::Vec::remove::<#cd5e489e5ed3d409>"
	ldr	q0, [x20]
	ldur	x0, [x29, #-64]
	ldur	x8, [x29, #-48]
	ldurb	w21, [x29, #-32]
	ldur	q1, [x20, #12]
	ldurb	w23, [x29, #-31]
	ldurh	w22, [x29, #-30]
	str	q0, [sp]
	stur	q1, [sp, #12]
	cbz	x8, .LBB91_3
	bl	rattle_dealloc
	b	.LBB91_3
.LBB91_18:
	add	x15, x9, x11
	and	x13, x10, #0x1fc
	add	x14, x12, #24
	add	x15, x15, #16
	and	x16, x10, #0x1fc
.LBB91_19:
	ldp	q0, q1, [x14, #-16]
	subs	x16, x16, #4
	add	x14, x14, #32
	stp	q0, q1, [x15, #-16]
	add	x15, x15, #32
	b.ne	.LBB91_19
	cmp	x10, x13
	b.eq	.LBB91_16
	b	.LBB91_14
.LBB91_21:
	ldp	x8, x9, [sp, #80]
	sub	x20, x9, #1
.LBB91_22:
	ldr	x0, [x8]
	mov	x9, xzr
	mov	x12, xzr
	cmp	x20, #257
	mov	x11, x8
	mov	x10, x20
	stp	xzr, xzr, [x19, #56]
	b.lo	.LBB91_28
	mov	x12, xzr
	add	x9, x8, #16
.LBB91_24:
	mov	w10, #256
	mov	x11, x9
.LBB91_25:
	ldur	q0, [x11, #-8]
	ldur	q1, [x11, #8]
	subs	x10, x10, #4
	stp	q0, q1, [x11, #-16]
	add	x11, x11, #32
	b.ne	.LBB91_25
	add	x12, x12, #256
	add	x9, x9, #2048
	sub	x10, x20, x12
	cmp	x10, #256
	b.hi	.LBB91_24
	lsl	x9, x12, #3
	add	x11, x8, x9
.LBB91_28:
	cmp	x20, x12
	b.eq	.LBB91_34
	cmp	x10, #6
	b.lo	.LBB91_31
	add	x14, x9, x8
	sub	x12, x14, x11
	sub	x12, x12, #8
	cmp	x12, #32
	b.hs	.LBB91_42
.LBB91_31:
	mov	x12, xzr
.LBB91_32:
	lsl	x13, x12, #3
	add	x14, x8, x9
	sub	x8, x10, x12
	add	x11, x13, x11
	add	x10, x14, x13
	add	x9, x11, #8
.LBB91_33:
	ldr	x11, [x9], #8
	subs	x8, x8, #1
	str	x11, [x10], #8
	b.ne	.LBB91_33
.LBB91_34:
	bl	"std_collections::btree::node::Node::destroy::<#6f4b2ed543d1e00a>"
	ldr	x0, [sp, #104]
	b	.LBB91_41
.LBB91_35:
	mov	x19, x0
	add	x0, sp, #32
	bl	"std_collections::btree::row::Row::reverse::<#8af3e1b4e9e21b57>"
	cbz	w20, .LBB91_40
	add	x8, x20, x20, lsl #1
	sub	x9, x29, #32
	lsl	x20, x20, #5
	orr	x22, x9, #0x4
	lsl	x21, x8, #3
	b	.LBB91_38
.LBB91_37:
	ldur	q0, [x29, #-64]
	ldur	q1, [x29, #-52]
	sub	x0, x29, #32
	sturb	w23, [x29, #-32]
	sub	x21, x21, #24
	sturb	w25, [x29, #-31]
	sturh	w24, [x29, #-30]
	str	q0, [x22]
	stur	q1, [x22, #12]
	bl	"amqp_json::amqp_value_core++value++AMQPValue+Destruct::drop"
	sub	x20, x20, #32
	cbz	x21, .LBB91_40
.LBB91_38:
	add	x8, x19, x20
	add	x9, x19, x21
	add	x10, x8, #340
	ldur	x0, [x9, #-16]
	ldr	x9, [x9]
	ldr	q0, [x10]
	ldrb	w23, [x8, #336]
	ldr	q1, [x8, #352]
	ldrb	w25, [x8, #337]
	ldrh	w24, [x8, #338]
	stur	q0, [x29, #-64]
	stur	q1, [x29, #-52]
	cbz	x9, .LBB91_37
	bl	rattle_dealloc
	b	.LBB91_37
.LBB91_40:
	mov	x0, x19
.LBB91_41:
	ldp	x20, x19, [sp, #240]
	ldr	x25, [sp, #192]
	ldp	x22, x21, [sp, #224]
	ldp	x24, x23, [sp, #208]
	ldp	x29, x30, [sp, #176]
	add	sp, sp, #256
	b	rattle_dealloc
.LBB91_42:
	and	x12, x10, #0x1fc
	add	x13, x11, #24
	add	x14, x14, #16
	and	x15, x10, #0x1fc
.LBB91_43:
	ldp	q0, q1, [x13, #-16]
	subs	x15, x15, #4
	add	x13, x13, #32
	stp	q0, q1, [x14, #-16]
	add	x14, x14, #32
	b.ne	.LBB91_43
	cmp	x10, x12
	b.eq	.LBB91_34
	b	.LBB91_32
.Lfunc_end91:
	.size	"std_collections::btree::node::Node::destroy::<#6f4b2ed543d1e00a>", .Lfunc_end91-"std_collections::btree::node::Node::destroy::<#6f4b2ed543d1e00a>"

	.section	".text.amqp_in_place::rabbitmq::warning::inside","ax",@progbits
	.p2align	2
	.type	"amqp_in_place::rabbitmq::warning::inside",@function
"amqp_in_place::rabbitmq::warning::inside":
	sub	sp, sp, #80
	stp	x29, x30, [sp, #48]
	add	x29, sp, #48
	str	x19, [sp, #64]
	stp	xzr, xzr, [sp, #24]
	str	xzr, [sp, #40]
	stp	xzr, xzr, [sp, #8]
	str	xzr, [sp]
	cbz	w6, .LBB92_11
	cmp	x5, #4
	mov	w8, #4
	csel	x10, x5, x8, lo
	tbz	w2, #0, .LBB92_3
	and	w9, w3, #0xff
	cmp	w9, #14
	b.hs	.LBB92_17
.LBB92_3:
	and	w8, w1, #0xff
	cmp	w8, #3
	b.lo	.LBB92_8
	cmp	w8, #4
	b.ne	.LBB92_8
	tbz	w2, #0, .LBB92_8
	and	w8, w3, #0xff
	cmp	w8, #11
	b.ne	.LBB92_8
	mov	w8, #1
	b	.LBB92_9
.LBB92_8:
	mov	w8, wzr
.LBB92_9:
	mov	x9, xzr
.LBB92_10:
	mov	w8, w8
	strb	wzr, [x0]
	stp	x8, x9, [x0, #8]
	ldp	x29, x30, [sp, #48]
	ldr	x19, [sp, #64]
	add	sp, sp, #80
	ret
.LBB92_11:
	and	w8, w1, #0xff
	cmp	w8, #3
	b.hs	.LBB92_13
.LBB92_12:
	strb	wzr, [x0]
	stp	xzr, xzr, [x0, #8]
	ldp	x29, x30, [sp, #48]
	ldr	x19, [sp, #64]
	add	sp, sp, #80
	ret
.LBB92_13:
	cmp	w8, #4
	b.ne	.LBB92_22
	tbz	w2, #0, .LBB92_12
	and	w8, w3, #0xff
	cmp	w8, #11
	b.ne	.LBB92_12
	mov	w8, #1
	strb	wzr, [x0]
	stp	x8, xzr, [x0, #8]
	ldp	x29, x30, [sp, #48]
	ldr	x19, [sp, #64]
	add	sp, sp, #80
	ret
.LBB92_17:
	cmp	w9, #16
	b.gt	.LBB92_3
	cmp	w9, #14
	sub	x8, x5, x10
	b.eq	.LBB92_24
	cmp	w9, #15
	b.eq	.LBB92_3
	sub	w9, w6, #1
	mov	x19, x0
	mov	x0, sp
	add	x2, x4, x10
	mov	x3, x8
	mov	w4, w9
	bl	"amqp_in_place::rabbitmq::warning::in_pairs"
	ldrb	w8, [sp]
	cbnz	w8, .LBB92_25
	ldr	x9, [sp, #16]
	ldrb	w8, [sp, #8]
	b	.LBB92_27
.LBB92_22:
	tbz	w2, #0, .LBB92_12
	and	x8, x3, #0xff
	adrp	x9, ".Lswitch.table.amqp_in_place::rabbitmq::warning::inside"
	add	x9, x9, :lo12:".Lswitch.table.amqp_in_place::rabbitmq::warning::inside"
	ldr	x8, [x9, x8, lsl #3]
	strb	wzr, [x0]
	stp	x8, xzr, [x0, #8]
	ldp	x29, x30, [sp, #48]
	ldr	x19, [sp, #64]
	add	sp, sp, #80
	ret
.LBB92_24:
	sub	w9, w6, #1
	mov	x19, x0
	add	x0, sp, #24
	add	x2, x4, x10
	mov	x3, x8
	mov	w4, w9
	bl	"amqp_in_place::rabbitmq::warning::in_values"
	ldrb	w8, [sp, #24]
	cbz	w8, .LBB92_26
.LBB92_25:
	mov	w8, #1
	stp	xzr, xzr, [x19, #8]
	strb	w8, [x19]
	ldp	x29, x30, [sp, #48]
	ldr	x19, [sp, #64]
	add	sp, sp, #80
	ret
.LBB92_26:
	ldr	x9, [sp, #40]
	ldrb	w8, [sp, #32]
.LBB92_27:
	add	x9, x9, #5
	cmp	w8, #1
	mov	x0, x19
	csel	x9, x9, xzr, eq
	b	.LBB92_10
.Lfunc_end92:
	.size	"amqp_in_place::rabbitmq::warning::inside", .Lfunc_end92-"amqp_in_place::rabbitmq::warning::inside"

	.section	".text.amqp_in_place::rabbitmq::warning::in_values","ax",@progbits
	.p2align	2
	.type	"amqp_in_place::rabbitmq::warning::in_values",@function
"amqp_in_place::rabbitmq::warning::in_values":
	sub	sp, sp, #112
	stp	x20, x19, [sp, #96]
	mov	x19, x0
	stp	x29, x30, [sp, #32]
	add	x29, sp, #32
	stp	x26, x25, [sp, #48]
	stp	x24, x23, [sp, #64]
	stp	x22, x21, [sp, #80]
	stp	xzr, xzr, [sp, #8]
	str	xzr, [sp, #24]
	cbz	x3, .LBB93_14
	mov	w20, w4
	mov	x21, x3
	mov	x22, x2
	mov	w23, w1
	mov	x24, xzr
	b	.LBB93_4
.LBB93_2:
	mov	w8, #5
.LBB93_3:
	add	x24, x8, x24
	cmp	x24, x21
	b.hs	.LBB93_14
.LBB93_4:
	add	x0, sp, #8
	add	x2, x22, x24
	sub	x3, x21, x24
	mov	w1, w23
	mov	w4, w20
	add	x25, x22, x24
	sub	x26, x21, x24
	bl	"amqp_in_place::rabbitmq::warning::in_value"
	ldrb	w8, [sp, #8]
	cbnz	w8, .LBB93_15
	ldrb	w8, [sp, #16]
	cmp	w8, #1
	b.eq	.LBB93_17
	ldrb	w8, [x25]
	sub	w9, w8, #65
	mov	w8, #1
	cmp	w9, #55
	b.hi	.LBB93_3
	adrp	x10, .LJTI93_0
	add	x10, x10, :lo12:.LJTI93_0
	adr	x11, .LBB93_2
	ldrb	w12, [x10, x9]
	add	x11, x11, x12, lsl #2
	br	x11
.LBB93_8:
	cmp	x26, #5
	b.lo	.LBB93_2
	ldur	w8, [x25, #1]
	rev	w8, w8
	add	x8, x8, #5
	b	.LBB93_3
.LBB93_10:
	mov	w8, #9
	b	.LBB93_3
.LBB93_11:
	mov	w8, #2
	b	.LBB93_3
.LBB93_12:
	mov	w8, #3
	b	.LBB93_3
.LBB93_13:
	mov	w8, #6
	b	.LBB93_3
.LBB93_14:
	strb	wzr, [x19]
	b	.LBB93_16
.LBB93_15:
	mov	w8, #1
	strb	w8, [x19]
.LBB93_16:
	stp	xzr, xzr, [x19, #8]
	b	.LBB93_18
.LBB93_17:
	ldr	x8, [sp, #24]
	mov	w9, #1
	strb	wzr, [x19]
	add	x8, x8, x24
	stp	x9, x8, [x19, #8]
.LBB93_18:
	ldp	x20, x19, [sp, #96]
	ldp	x22, x21, [sp, #80]
	ldp	x24, x23, [sp, #64]
	ldp	x26, x25, [sp, #48]
	ldp	x29, x30, [sp, #32]
	add	sp, sp, #112
	ret
.Lfunc_end93:
	.size	"amqp_in_place::rabbitmq::warning::in_values", .Lfunc_end93-"amqp_in_place::rabbitmq::warning::in_values"
	.section	".rodata.amqp_in_place::rabbitmq::warning::in_values","a",@progbits
.LJTI93_0:
	.byte	(.LBB93_8-.LBB93_2)>>2
	.byte	(.LBB93_11-.LBB93_2)>>2
	.byte	(.LBB93_3-.LBB93_2)>>2
	.byte	(.LBB93_13-.LBB93_2)>>2
	.byte	(.LBB93_3-.LBB93_2)>>2
	.byte	(.LBB93_8-.LBB93_2)>>2
	.byte	(.LBB93_3-.LBB93_2)>>2
	.byte	(.LBB93_3-.LBB93_2)>>2
	.byte	(.LBB93_2-.LBB93_2)>>2
	.byte	(.LBB93_3-.LBB93_2)>>2
	.byte	(.LBB93_3-.LBB93_2)>>2
	.byte	(.LBB93_10-.LBB93_2)>>2
	.byte	(.LBB93_3-.LBB93_2)>>2
	.byte	(.LBB93_3-.LBB93_2)>>2
	.byte	(.LBB93_3-.LBB93_2)>>2
	.byte	(.LBB93_3-.LBB93_2)>>2
	.byte	(.LBB93_3-.LBB93_2)>>2
	.byte	(.LBB93_3-.LBB93_2)>>2
	.byte	(.LBB93_8-.LBB93_2)>>2
	.byte	(.LBB93_10-.LBB93_2)>>2
	.byte	(.LBB93_12-.LBB93_2)>>2
	.byte	(.LBB93_3-.LBB93_2)>>2
	.byte	(.LBB93_3-.LBB93_2)>>2
	.byte	(.LBB93_3-.LBB93_2)>>2
	.byte	(.LBB93_3-.LBB93_2)>>2
	.byte	(.LBB93_3-.LBB93_2)>>2
	.byte	(.LBB93_3-.LBB93_2)>>2
	.byte	(.LBB93_3-.LBB93_2)>>2
	.byte	(.LBB93_3-.LBB93_2)>>2
	.byte	(.LBB93_3-.LBB93_2)>>2
	.byte	(.LBB93_3-.LBB93_2)>>2
	.byte	(.LBB93_3-.LBB93_2)>>2
	.byte	(.LBB93_3-.LBB93_2)>>2
	.byte	(.LBB93_11-.LBB93_2)>>2
	.byte	(.LBB93_3-.LBB93_2)>>2
	.byte	(.LBB93_10-.LBB93_2)>>2
	.byte	(.LBB93_3-.LBB93_2)>>2
	.byte	(.LBB93_2-.LBB93_2)>>2
	.byte	(.LBB93_3-.LBB93_2)>>2
	.byte	(.LBB93_3-.LBB93_2)>>2
	.byte	(.LBB93_2-.LBB93_2)>>2
	.byte	(.LBB93_3-.LBB93_2)>>2
	.byte	(.LBB93_3-.LBB93_2)>>2
	.byte	(.LBB93_10-.LBB93_2)>>2
	.byte	(.LBB93_3-.LBB93_2)>>2
	.byte	(.LBB93_3-.LBB93_2)>>2
	.byte	(.LBB93_3-.LBB93_2)>>2
	.byte	(.LBB93_3-.LBB93_2)>>2
	.byte	(.LBB93_3-.LBB93_2)>>2
	.byte	(.LBB93_3-.LBB93_2)>>2
	.byte	(.LBB93_12-.LBB93_2)>>2
	.byte	(.LBB93_11-.LBB93_2)>>2
	.byte	(.LBB93_12-.LBB93_2)>>2
	.byte	(.LBB93_3-.LBB93_2)>>2
	.byte	(.LBB93_3-.LBB93_2)>>2
	.byte	(.LBB93_8-.LBB93_2)>>2

	.section	".text.amqp_in_place::rabbitmq::warning::in_value","ax",@progbits
	.p2align	2
	.type	"amqp_in_place::rabbitmq::warning::in_value",@function
"amqp_in_place::rabbitmq::warning::in_value":
	sub	sp, sp, #64
	str	x19, [sp, #48]
	mov	x19, x0
	stp	x29, x30, [sp, #32]
	add	x29, sp, #32
	stp	xzr, xzr, [sp, #8]
	str	xzr, [sp, #24]
	cbz	x3, .LBB94_5
	mov	w6, w4
	mov	x4, x2
	mov	x5, xzr
	ldrb	w8, [x4], #1
	sub	w8, w8, #65
	cmp	w8, #55
	b.hi	.LBB94_12
	adrp	x9, .LJTI94_0
	add	x9, x9, :lo12:.LJTI94_0
	adr	x10, .LBB94_3
	ldrb	w11, [x9, x8]
	add	x10, x10, x11, lsl #2
	br	x10
.LBB94_3:
	cmp	x3, #5
	b.hs	.LBB94_9
.LBB94_4:
	mov	w5, #4
	b	.LBB94_11
.LBB94_5:
	strb	wzr, [x19]
	stp	xzr, xzr, [x19, #8]
	ldp	x29, x30, [sp, #32]
	ldr	x19, [sp, #48]
	add	sp, sp, #64
	ret
.LBB94_6:
	mov	w5, #8
	b	.LBB94_11
.LBB94_7:
	mov	w5, #1
	b	.LBB94_11
.LBB94_8:
	mov	w5, #2
	b	.LBB94_11
.LBB94_9:
	ldr	w9, [x4]
	rev	w9, w9
	add	x5, x9, #4
	b	.LBB94_11
.LBB94_10:
	mov	w5, #5
.LBB94_11:
	sub	x9, x3, #1
	cmp	x5, x9
	csel	x5, x5, x9, lo
.LBB94_12:
	cmp	w8, #55
	b.hi	.LBB94_25
	adrp	x9, .LJTI94_1
	add	x9, x9, :lo12:.LJTI94_1
	mov	w3, wzr
	adr	x10, .LBB94_14
	ldrb	w11, [x9, x8]
	add	x10, x10, x11, lsl #2
	mov	w2, #1
	br	x10
.LBB94_14:
	mov	w3, #7
	b	.LBB94_31
.LBB94_15:
	mov	w3, #3
	b	.LBB94_31
.LBB94_16:
	mov	w3, #10
	b	.LBB94_31
.LBB94_17:
	mov	w3, #9
	b	.LBB94_31
.LBB94_18:
	mov	w3, #15
	b	.LBB94_31
.LBB94_19:
	mov	w3, #2
	b	.LBB94_31
.LBB94_20:
	mov	w3, #5
	b	.LBB94_31
.LBB94_21:
	mov	w3, #13
	b	.LBB94_31
.LBB94_22:
	mov	w3, #4
	b	.LBB94_31
.LBB94_23:
	mov	w3, #6
	b	.LBB94_31
.LBB94_24:
	mov	w3, #14
	b	.LBB94_31
.LBB94_25:
	mov	w2, wzr
	mov	w3, wzr
	b	.LBB94_31
.LBB94_26:
	mov	w3, #11
	b	.LBB94_31
.LBB94_27:
	mov	w3, #1
	b	.LBB94_31
.LBB94_28:
	mov	w3, #16
	b	.LBB94_31
.LBB94_29:
	mov	w3, #18
	b	.LBB94_31
.LBB94_30:
	mov	w3, #17
.LBB94_31:
	add	x0, sp, #8
	bl	"amqp_in_place::rabbitmq::warning::inside"
	ldrb	w8, [sp, #8]
	ldrb	w9, [sp, #16]
	ldr	x10, [sp, #24]
	strb	w8, [x19]
	stp	x9, x10, [x19, #8]
	ldp	x29, x30, [sp, #32]
	ldr	x19, [sp, #48]
	add	sp, sp, #64
	ret
.Lfunc_end94:
	.size	"amqp_in_place::rabbitmq::warning::in_value", .Lfunc_end94-"amqp_in_place::rabbitmq::warning::in_value"
	.section	".rodata.amqp_in_place::rabbitmq::warning::in_value","a",@progbits
.LJTI94_0:
	.byte	(.LBB94_3-.LBB94_3)>>2
	.byte	(.LBB94_7-.LBB94_3)>>2
	.byte	(.LBB94_12-.LBB94_3)>>2
	.byte	(.LBB94_10-.LBB94_3)>>2
	.byte	(.LBB94_12-.LBB94_3)>>2
	.byte	(.LBB94_3-.LBB94_3)>>2
	.byte	(.LBB94_12-.LBB94_3)>>2
	.byte	(.LBB94_12-.LBB94_3)>>2
	.byte	(.LBB94_4-.LBB94_3)>>2
	.byte	(.LBB94_12-.LBB94_3)>>2
	.byte	(.LBB94_12-.LBB94_3)>>2
	.byte	(.LBB94_6-.LBB94_3)>>2
	.byte	(.LBB94_12-.LBB94_3)>>2
	.byte	(.LBB94_12-.LBB94_3)>>2
	.byte	(.LBB94_12-.LBB94_3)>>2
	.byte	(.LBB94_12-.LBB94_3)>>2
	.byte	(.LBB94_12-.LBB94_3)>>2
	.byte	(.LBB94_12-.LBB94_3)>>2
	.byte	(.LBB94_3-.LBB94_3)>>2
	.byte	(.LBB94_6-.LBB94_3)>>2
	.byte	(.LBB94_8-.LBB94_3)>>2
	.byte	(.LBB94_11-.LBB94_3)>>2
	.byte	(.LBB94_12-.LBB94_3)>>2
	.byte	(.LBB94_12-.LBB94_3)>>2
	.byte	(.LBB94_12-.LBB94_3)>>2
	.byte	(.LBB94_12-.LBB94_3)>>2
	.byte	(.LBB94_12-.LBB94_3)>>2
	.byte	(.LBB94_12-.LBB94_3)>>2
	.byte	(.LBB94_12-.LBB94_3)>>2
	.byte	(.LBB94_12-.LBB94_3)>>2
	.byte	(.LBB94_12-.LBB94_3)>>2
	.byte	(.LBB94_12-.LBB94_3)>>2
	.byte	(.LBB94_12-.LBB94_3)>>2
	.byte	(.LBB94_7-.LBB94_3)>>2
	.byte	(.LBB94_12-.LBB94_3)>>2
	.byte	(.LBB94_6-.LBB94_3)>>2
	.byte	(.LBB94_12-.LBB94_3)>>2
	.byte	(.LBB94_4-.LBB94_3)>>2
	.byte	(.LBB94_12-.LBB94_3)>>2
	.byte	(.LBB94_12-.LBB94_3)>>2
	.byte	(.LBB94_4-.LBB94_3)>>2
	.byte	(.LBB94_12-.LBB94_3)>>2
	.byte	(.LBB94_12-.LBB94_3)>>2
	.byte	(.LBB94_6-.LBB94_3)>>2
	.byte	(.LBB94_12-.LBB94_3)>>2
	.byte	(.LBB94_12-.LBB94_3)>>2
	.byte	(.LBB94_12-.LBB94_3)>>2
	.byte	(.LBB94_12-.LBB94_3)>>2
	.byte	(.LBB94_12-.LBB94_3)>>2
	.byte	(.LBB94_12-.LBB94_3)>>2
	.byte	(.LBB94_8-.LBB94_3)>>2
	.byte	(.LBB94_7-.LBB94_3)>>2
	.byte	(.LBB94_8-.LBB94_3)>>2
	.byte	(.LBB94_12-.LBB94_3)>>2
	.byte	(.LBB94_12-.LBB94_3)>>2
	.byte	(.LBB94_3-.LBB94_3)>>2
.LJTI94_1:
	.byte	(.LBB94_24-.LBB94_14)>>2
	.byte	(.LBB94_19-.LBB94_14)>>2
	.byte	(.LBB94_25-.LBB94_14)>>2
	.byte	(.LBB94_26-.LBB94_14)>>2
	.byte	(.LBB94_25-.LBB94_14)>>2
	.byte	(.LBB94_28-.LBB94_14)>>2
	.byte	(.LBB94_25-.LBB94_14)>>2
	.byte	(.LBB94_25-.LBB94_14)>>2
	.byte	(.LBB94_20-.LBB94_14)>>2
	.byte	(.LBB94_25-.LBB94_14)>>2
	.byte	(.LBB94_25-.LBB94_14)>>2
	.byte	(.LBB94_14-.LBB94_14)>>2
	.byte	(.LBB94_25-.LBB94_14)>>2
	.byte	(.LBB94_25-.LBB94_14)>>2
	.byte	(.LBB94_25-.LBB94_14)>>2
	.byte	(.LBB94_25-.LBB94_14)>>2
	.byte	(.LBB94_25-.LBB94_14)>>2
	.byte	(.LBB94_25-.LBB94_14)>>2
	.byte	(.LBB94_21-.LBB94_14)>>2
	.byte	(.LBB94_18-.LBB94_14)>>2
	.byte	(.LBB94_15-.LBB94_14)>>2
	.byte	(.LBB94_29-.LBB94_14)>>2
	.byte	(.LBB94_25-.LBB94_14)>>2
	.byte	(.LBB94_25-.LBB94_14)>>2
	.byte	(.LBB94_25-.LBB94_14)>>2
	.byte	(.LBB94_25-.LBB94_14)>>2
	.byte	(.LBB94_25-.LBB94_14)>>2
	.byte	(.LBB94_25-.LBB94_14)>>2
	.byte	(.LBB94_25-.LBB94_14)>>2
	.byte	(.LBB94_25-.LBB94_14)>>2
	.byte	(.LBB94_25-.LBB94_14)>>2
	.byte	(.LBB94_25-.LBB94_14)>>2
	.byte	(.LBB94_25-.LBB94_14)>>2
	.byte	(.LBB94_27-.LBB94_14)>>2
	.byte	(.LBB94_25-.LBB94_14)>>2
	.byte	(.LBB94_16-.LBB94_14)>>2
	.byte	(.LBB94_25-.LBB94_14)>>2
	.byte	(.LBB94_17-.LBB94_14)>>2
	.byte	(.LBB94_25-.LBB94_14)>>2
	.byte	(.LBB94_25-.LBB94_14)>>2
	.byte	(.LBB94_23-.LBB94_14)>>2
	.byte	(.LBB94_25-.LBB94_14)>>2
	.byte	(.LBB94_25-.LBB94_14)>>2
	.byte	(.LBB94_14-.LBB94_14)>>2
	.byte	(.LBB94_25-.LBB94_14)>>2
	.byte	(.LBB94_25-.LBB94_14)>>2
	.byte	(.LBB94_25-.LBB94_14)>>2
	.byte	(.LBB94_25-.LBB94_14)>>2
	.byte	(.LBB94_25-.LBB94_14)>>2
	.byte	(.LBB94_25-.LBB94_14)>>2
	.byte	(.LBB94_15-.LBB94_14)>>2
	.byte	(.LBB94_31-.LBB94_14)>>2
	.byte	(.LBB94_22-.LBB94_14)>>2
	.byte	(.LBB94_25-.LBB94_14)>>2
	.byte	(.LBB94_25-.LBB94_14)>>2
	.byte	(.LBB94_30-.LBB94_14)>>2

	.section	".text.amqp_in_place::rabbitmq::warning::in_pairs","ax",@progbits
	.p2align	2
	.type	"amqp_in_place::rabbitmq::warning::in_pairs",@function
"amqp_in_place::rabbitmq::warning::in_pairs":
	sub	sp, sp, #320
	stp	x29, x30, [sp, #224]
	add	x29, sp, #224
	stp	x24, x23, [sp, #272]
	mov	x23, x0
	stp	x28, x27, [sp, #240]
	stp	x26, x25, [sp, #256]
	stp	x22, x21, [sp, #288]
	stp	x20, x19, [sp, #304]
	stp	xzr, xzr, [x29, #-80]
	stp	xzr, xzr, [x29, #-64]
	cbz	x3, .LBB95_122
	sub	x8, x29, #24
	add	x9, x2, #33
	mov	w26, w4
	mov	x27, x3
	mov	x28, xzr
	mov	w21, wzr
	stur	x9, [x29, #-104]
	add	x9, x2, #1
	add	x8, x8, #15
	stp	x8, xzr, [sp, #88]
	str	x9, [sp, #112]
	stur	x2, [x29, #-96]
	stur	w1, [x29, #-84]
	b	.LBB95_4
.LBB95_2:
	ldur	w1, [x29, #-84]
	mov	x9, xzr
.LBB95_3:
	add	x28, x9, x8
	ldur	x2, [x29, #-96]
	cmp	x28, x27
	b.hs	.LBB95_120
.LBB95_4:
	add	x25, x2, x28
	mvn	x8, x28
	and	w9, w1, #0xff
	ldrb	w20, [x25], #1
	add	x19, x27, x8
	add	x8, x2, x28
	cmp	x20, x19
	csel	x24, x20, x19, lo
	cmp	w9, #2
	b.gt	.LBB95_51
	cbz	w9, .LBB95_23
	cmp	w9, #1
	b.ne	.LBB95_25
	cmp	x24, #7
	b.hi	.LBB95_50
	cbz	x24, .LBB95_51
	ldrsb	w9, [x8, #1]
	tbnz	w9, #31, .LBB95_103
	cmp	x24, #1
	b.eq	.LBB95_51
	ldrsb	w9, [x8, #2]
	tbnz	w9, #31, .LBB95_103
	cmp	x24, #2
	b.eq	.LBB95_51
	ldrsb	w9, [x8, #3]
	tbnz	w9, #31, .LBB95_103
	cmp	x24, #3
	b.eq	.LBB95_51
	ldrsb	w9, [x8, #4]
	tbnz	w9, #31, .LBB95_103
	cmp	x24, #4
	b.eq	.LBB95_51
	ldrsb	w9, [x8, #5]
	tbnz	w9, #31, .LBB95_103
	cmp	x24, #5
	b.eq	.LBB95_51
	ldrsb	w9, [x8, #6]
	tbnz	w9, #31, .LBB95_103
	cmp	x24, #6
	b.eq	.LBB95_51
	ldrsb	w8, [x8, #7]
	tbnz	w8, #31, .LBB95_103
	cmp	x24, #7
	b.eq	.LBB95_51
	b	.LBB95_103
.LBB95_23:
	cmp	w21, #1
	str	x23, [sp, #104]
	str	w26, [sp, #84]
	str	x27, [sp, #72]
	b.ne	.LBB95_26
	ldur	x1, [x29, #-56]
	ldrh	w5, [x1, #2]
	b	.LBB95_28
.LBB95_25:
	cbnz	x24, .LBB95_51
	b	.LBB95_125
.LBB95_26:
	mov	w0, #248
	mov	w1, #8
	bl	rattle_alloc
	tbz	w0, #0, .LBB95_116
	mov	x5, xzr
	str	wzr, [x1]
	stur	x1, [x29, #-56]
.LBB95_28:
	mov	w8, #15
	ldr	x10, [sp, #112]
	mov	x27, xzr
	sub	x9, x8, x5
	ldur	x8, [x29, #-104]
	mov	x23, xzr
	add	x10, x10, x28
	neg	x21, x5
	mov	x13, x1
	add	x8, x8, x28
	mov	x26, x1
	mov	x22, x9
	mov	x14, x13
	mov	x11, x13
	ldrh	w13, [x14], #8
	cbz	x13, .LBB95_47
.LBB95_29:
	mov	x12, xzr
.LBB95_30:
	add	x16, x14, x12, lsl #4
	ldp	x16, x15, [x16]
	cmp	x15, x24
	csel	x17, x15, x24, lo
	cmp	x17, #64
	b.hs	.LBB95_32
	mov	x18, xzr
	b	.LBB95_36
.LBB95_32:
	mov	x18, xzr
	add	x0, x16, #48
	mov	x2, x17
.LBB95_33:
	add	x3, x8, x18
	add	x4, x0, x18
	ldp	q0, q3, [x4, #-48]
	ldp	q1, q2, [x3, #-32]
	ldp	q4, q5, [x4, #-16]
	cmeq	v0.16b, v1.16b, v0.16b
	cmeq	v1.16b, v2.16b, v3.16b
	ldp	q2, q3, [x3]
	mvn	v0.16b, v0.16b
	mvn	v1.16b, v1.16b
	cmeq	v2.16b, v2.16b, v4.16b
	cmeq	v3.16b, v3.16b, v5.16b
	orn	v0.16b, v0.16b, v2.16b
	orn	v1.16b, v1.16b, v3.16b
	orr	v0.16b, v1.16b, v0.16b
	umaxv	b0, v0.16b
	fmov	w3, s0
	tbnz	w3, #0, .LBB95_36
	sub	x2, x2, #64
	add	x18, x18, #64
	cmp	x2, #63
	b.hi	.LBB95_33
	and	x18, x17, #0xc0
.LBB95_36:
	sub	x0, x17, x18
	cmp	x0, #8
	b.lo	.LBB95_39
.LBB95_37:
	ldr	x2, [x25, x18]
	ldr	x3, [x16, x18]
	cmp	x2, x3
	b.ne	.LBB95_39
	sub	x0, x0, #8
	add	x18, x18, #8
	cmp	x0, #7
	b.hi	.LBB95_37
.LBB95_39:
	subs	x17, x17, x18
	b.ls	.LBB95_43
	add	x16, x16, x18
	add	x18, x10, x18
.LBB95_41:
	ldrb	w0, [x18], #1
	ldrb	w2, [x16], #1
	cmp	w0, w2
	b.ne	.LBB95_44
	subs	x17, x17, #1
	b.ne	.LBB95_41
.LBB95_43:
	cmp	x24, x15
	b.eq	.LBB95_110
.LBB95_44:
	b.lo	.LBB95_48
	add	x12, x12, #1
	cmp	x12, x13
	b.ne	.LBB95_30
	mov	x12, x13
	ldrh	w13, [x11, #2]
	add	x23, x12, x23, lsl #4
	add	x22, x22, #1
	cbnz	w13, .LBB95_49
	b	.LBB95_62
.LBB95_47:
	mov	x12, xzr
.LBB95_48:
	ldrh	w13, [x11, #2]
	add	x23, x12, x23, lsl #4
	add	x22, x22, #1
	cbz	w13, .LBB95_62
.LBB95_49:
	add	x13, x11, x12, lsl #3
	add	x21, x21, #1
	mov	x27, x12
	mov	x26, x11
	ldr	x13, [x13, #248]
	mov	x14, x13
	mov	x11, x13
	ldrh	w13, [x14], #8
	cbnz	x13, .LBB95_29
	b	.LBB95_47
.LBB95_50:
	mov	x0, x25
	mov	x1, x24
	bl	"amqp_in_place::read::is_ascii_by_words"
	ldur	w1, [x29, #-84]
	tbz	w0, #0, .LBB95_103
.LBB95_51:
	add	x25, x25, x24
	sub	x0, x29, #80
	sub	x3, x19, x24
	mov	x2, x25
	mov	w4, w26
	sub	x22, x19, x24
	bl	"amqp_in_place::rabbitmq::warning::in_value"
	ldurb	w8, [x29, #-80]
	cbnz	w8, .LBB95_113
	ldurb	w8, [x29, #-72]
	add	x9, x28, x24
	cmp	w8, #1
	add	x8, x9, #1
	b.eq	.LBB95_117
	cmp	x19, x20
	b.ls	.LBB95_2
	ldrb	w9, [x25]
	ldur	w1, [x29, #-84]
	sub	w10, w9, #65
	mov	x9, xzr
	cmp	w10, #55
	b.hi	.LBB95_3
	adrp	x11, .LJTI95_0
	add	x11, x11, :lo12:.LJTI95_0
	adr	x12, .LBB95_3
	ldrh	w13, [x11, x10, lsl #1]
	add	x12, x12, x13, lsl #2
	br	x12
.LBB95_56:
	cmp	x22, #5
	b.hs	.LBB95_61
.LBB95_57:
	mov	w9, #5
	b	.LBB95_3
.LBB95_58:
	mov	w9, #9
	b	.LBB95_3
.LBB95_59:
	mov	w9, #3
	b	.LBB95_3
.LBB95_60:
	mov	w9, #2
	b	.LBB95_3
.LBB95_61:
	ldur	w9, [x25, #1]
	rev	w9, w9
	add	x9, x9, #5
	b	.LBB95_3
.LBB95_62:
	ldr	x10, [sp, #96]
	mov	x8, #9223372036854775806
	cmp	x10, x8
	b.hi	.LBB95_130
	lsl	x8, x27, #3
	sub	x12, x22, x9
	sub	x11, x22, x9
	str	x11, [sp, #16]
	cmp	x12, #1
	sub	x11, x29, #56
	add	x10, x26, x8
	add	x10, x10, #248
	csel	x10, x11, x10, eq
	ldr	x10, [x10]
	ldrh	w10, [x10]
	cmp	w10, #15
	b.lo	.LBB95_107
	ldrh	w8, [x1]
	cmp	w8, #15
	b.lo	.LBB95_68
	cmp	x5, #10
	b.hi	.LBB95_130
	stp	x5, x1, [sp, #56]
	mov	w0, #376
	mov	w1, #8
	bl	rattle_alloc
	tbz	w0, #0, .LBB95_129
	ldp	x11, x9, [sp, #56]
	strh	wzr, [x1]
	stur	x1, [x29, #-56]
	str	x9, [x1, #248]
	mov	w9, #14
	add	w10, w11, #1
	sub	x9, x9, x11
	strh	w10, [x1, #2]
.LBB95_68:
	ldr	x11, [sp, #88]
	subs	x8, x22, x9
	stp	xzr, xzr, [x29, #-24]
	str	x8, [sp, #16]
	b.ls	.LBB95_70
.LBB95_69:
	add	x8, x21, #15
	and	w10, w23, #0xf
	lsr	x23, x23, #4
	cmp	x9, x8
	strb	w10, [x11, x21]
	sub	x21, x21, #1
	b.lo	.LBB95_69
.LBB95_70:
	mov	w8, #16
	ldur	q0, [x29, #-24]
	sub	x10, x8, x9
	cmp	x10, #2
	stur	q0, [x29, #-48]
	b.lo	.LBB95_105
	sub	x8, x29, #48
	sub	x27, x29, #56
	add	x23, x8, x9
	b	.LBB95_74
.LBB95_72:
	add	w21, w21, #1
	sub	w8, w8, #8
	strb	w21, [x23]
	strb	w8, [x23, #1]
.LBB95_73:
	add	x8, x26, w21, uxtb #3
	cmp	x10, #2
	sub	x10, x10, #1
	add	x23, x23, #1
	add	x27, x8, #248
	b.ls	.LBB95_104
.LBB95_74:
	ldrb	w21, [x23]
	ldr	x26, [x27]
	add	x8, x26, x21, lsl #3
	ldr	x8, [x8, #248]
	ldrh	w8, [x8]
	cmp	w8, #15
	b.lo	.LBB95_73
	ldrh	w8, [x26, #2]
	str	x10, [sp, #48]
	subs	x22, x8, #1
	b.eq	.LBB95_77
	mov	w0, #376
	mov	w1, #8
	bl	rattle_alloc
	tbnz	w0, #0, .LBB95_78
	b	.LBB95_126
.LBB95_77:
	mov	w0, #248
	mov	w1, #8
	bl	rattle_alloc
	tbz	w0, #0, .LBB95_126
.LBB95_78:
	strh	w22, [x1, #2]
	add	x8, x1, #8
	ldr	x26, [x27]
	add	x13, x26, #248
	ldrh	w10, [x26, #2]
	ldrh	w11, [x26]
	ldr	x22, [x13, x21, lsl #3]
	cmp	w10, #0
	stp	x1, x11, [sp, #56]
	ldrh	w17, [x22]
	add	x9, x22, #136
	csinc	x11, xzr, x11, eq
	sub	x10, x8, x9
	stp	x11, x27, [sp, #32]
	ldrh	w27, [x22, #2]
	sub	x14, x17, #8
	lsl	x2, x14, #4
	cmp	x10, x2
	b.hs	.LBB95_81
	sub	x10, x17, #8
	cbz	x14, .LBB95_82
.LBB95_80:
	ldr	q0, [x9], #16
	subs	x10, x10, #1
	str	q0, [x8], #16
	b.ne	.LBB95_80
	b	.LBB95_82
.LBB95_81:
	add	x0, x1, #8
	add	x1, x22, #136
	str	x17, [sp, #24]
	bl	memmove
	ldr	x17, [sp, #24]
	ldr	x1, [sp, #56]
	add	x13, x26, #248
	sub	x14, x17, #8
.LBB95_82:
	ldp	x15, x16, [x22, #120]
	cbz	w27, .LBB95_91
	sub	x8, x17, #7
	add	x9, x1, #248
	add	x10, x22, #312
	lsl	x2, x8, #3
	sub	x9, x9, x10
	cmp	x9, x2
	b.hs	.LBB95_90
	cbz	x8, .LBB95_91
	cmp	x8, #4
	b.lo	.LBB95_87
	sub	x9, x1, x22
	sub	x9, x9, #64
	cmp	x9, #32
	b.hs	.LBB95_98
.LBB95_87:
	mov	x9, xzr
.LBB95_88:
	lsl	x8, x9, #3
	sub	x9, x17, x9
	add	x10, x22, x8
	add	x11, x1, x8
	sub	x8, x9, #7
	add	x9, x10, #312
	add	x10, x11, #248
.LBB95_89:
	ldr	x11, [x9], #8
	subs	x8, x8, #1
	str	x11, [x10], #8
	b.ne	.LBB95_89
	b	.LBB95_91
.LBB95_90:
	add	x0, x1, #248
	add	x1, x22, #312
	str	x14, [sp, #8]
	str	x15, [sp, #24]
	mov	x27, x16
	bl	memmove
	ldr	x15, [sp, #24]
	ldr	x14, [sp, #8]
	mov	x16, x27
	ldr	x1, [sp, #56]
	add	x13, x26, #248
.LBB95_91:
	mov	w8, #7
	add	x9, x26, #8
	strh	w8, [x22]
	ldr	x8, [sp, #64]
	add	x27, x9, x21, lsl #4
	strh	w14, [x1]
	subs	x8, x8, x21
	str	x22, [x13, x21, lsl #3]
	b.eq	.LBB95_93
	lsl	x2, x8, #4
	add	x0, x27, #16
	mov	x1, x27
	mov	x22, x15
	str	x16, [sp, #24]
	bl	memmove
	ldr	x16, [sp, #24]
	ldr	x1, [sp, #56]
	mov	x15, x22
	add	x13, x26, #248
.LBB95_93:
	ldr	x10, [sp, #32]
	add	x9, x21, #1
	stp	x15, x16, [x27]
	subs	x8, x10, x9
	b.ne	.LBB95_95
	lsl	x22, x10, #3
	b	.LBB95_96
.LBB95_95:
	lsl	x22, x9, #3
	lsl	x2, x8, #3
	add	x1, x13, x22
	add	x0, x1, #8
	bl	memmove
	ldr	x1, [sp, #56]
	add	x13, x26, #248
.LBB95_96:
	ldp	x11, x10, [sp, #40]
	ldrb	w8, [x23, #1]
	ldr	x9, [sp, #64]
	str	x1, [x13, x22]
	cmp	w8, #7
	add	x9, x9, #1
	strh	w9, [x26]
	str	x26, [x11]
	b.hi	.LBB95_72
	ldrb	w21, [x23]
	b	.LBB95_73
.LBB95_98:
	and	x9, x8, #0xfffffffffffffffc
	add	x10, x22, #328
	add	x11, x1, #264
	and	x12, x8, #0xfffffffffffffffc
.LBB95_99:
	ldp	q0, q1, [x10, #-16]
	subs	x12, x12, #4
	add	x10, x10, #32
	stp	q0, q1, [x11, #-16]
	add	x11, x11, #32
	b.ne	.LBB95_99
	cmp	x8, x9
	b.eq	.LBB95_91
	b	.LBB95_88
.LBB95_101:
	mov	w9, #6
	b	.LBB95_3
.LBB95_102:
	mov	w9, #1
	b	.LBB95_3
.LBB95_103:
	mov	x0, x25
	mov	x1, x24
	bl	"amqp_in_place::read::is_utf8"
	ldur	w1, [x29, #-84]
	tbnz	w0, #0, .LBB95_51
	b	.LBB95_125
.LBB95_104:
	ldur	x1, [x29, #-56]
	and	x27, x21, #0xff
.LBB95_105:
	ldrh	w8, [x1]
	cbz	w8, .LBB95_127
	ldurb	w23, [x29, #-33]
	lsl	x8, x27, #3
.LBB95_107:
	ldr	x9, [sp, #16]
	add	x8, x26, x8
	add	x8, x8, #248
	cmp	x9, #1
	sub	x9, x29, #56
	csel	x22, x9, x8, eq
	and	x8, x23, #0xf
	ldr	x26, [x22]
	lsl	x23, x8, #4
	mov	x27, x26
	ldrh	w21, [x27], #8
	subs	x8, x21, x8
	b.eq	.LBB95_109
	lsl	x2, x8, #4
	add	x8, x27, x23
	add	x1, x27, x23
	add	x0, x8, #16
	bl	memmove
.LBB95_109:
	add	x8, x27, x23
	add	w9, w21, #1
	ldr	x27, [sp, #72]
	stp	x25, x24, [x8]
	ldp	x8, x23, [sp, #96]
	strh	w9, [x26]
	ldur	w1, [x29, #-84]
	mov	w21, #1
	str	x26, [x22]
	ldr	w26, [sp, #84]
	add	x8, x8, #1
	str	x8, [sp, #96]
	b	.LBB95_51
.LBB95_110:
	add	x8, x26, x27, lsl #3
	add	x9, x5, x22
	ldr	x23, [sp, #104]
	cmp	x9, #15
	sub	x9, x29, #56
	add	x8, x8, #248
	csel	x8, x9, x8, eq
	and	x9, x12, #0xf
	ldr	x8, [x8]
	ldrh	w8, [x8]
	cmp	x9, x8
	b.hs	.LBB95_131
.LBB95_111:
	ldur	x0, [x29, #-56]
	bl	"std_collections::btree::node::Node::destroy::<#a6f6331eefc34dfe>"
.LBB95_112:
	mov	w8, #1
	strb	wzr, [x23]
	stp	x8, x28, [x23, #8]
	b	.LBB95_124
.LBB95_113:
	cbz	w21, .LBB95_116
	ldur	x0, [x29, #-56]
.LBB95_115:
	bl	"std_collections::btree::node::Node::destroy::<#a6f6331eefc34dfe>"
.LBB95_116:
	mov	w8, #1
	strb	w8, [x23]
	b	.LBB95_123
.LBB95_117:
	ldur	x9, [x29, #-64]
	add	x19, x9, x8
	cbz	w21, .LBB95_119
	ldur	x0, [x29, #-56]
	bl	"std_collections::btree::node::Node::destroy::<#a6f6331eefc34dfe>"
.LBB95_119:
	mov	w8, #1
	strb	wzr, [x23]
	stp	x8, x19, [x23, #8]
	b	.LBB95_124
.LBB95_120:
	cbz	w21, .LBB95_122
	ldur	x0, [x29, #-56]
	bl	"std_collections::btree::node::Node::destroy::<#a6f6331eefc34dfe>"
.LBB95_122:
	strb	wzr, [x23]
.LBB95_123:
	stp	xzr, xzr, [x23, #8]
.LBB95_124:
	ldp	x20, x19, [sp, #304]
	ldp	x22, x21, [sp, #288]
	ldp	x24, x23, [sp, #272]
	ldp	x26, x25, [sp, #256]
	ldp	x28, x27, [sp, #240]
	ldp	x29, x30, [sp, #224]
	add	sp, sp, #320
	ret
.LBB95_125:
	cbnz	w21, .LBB95_111
	b	.LBB95_112
.LBB95_126:
	ldur	x1, [x29, #-56]
	ldrh	w8, [x1]
	cbnz	w8, .LBB95_130
.LBB95_127:
	ldrh	w8, [x1, #2]
	cbz	w8, .LBB95_130
	ldr	x19, [x1, #248]
	mov	x0, x1
	bl	rattle_dealloc
	mov	x1, x19
	b	.LBB95_130
.LBB95_129:
	ldr	x1, [sp, #64]
.LBB95_130:
	ldr	x23, [sp, #104]
	mov	x0, x1
	b	.LBB95_115
.LBB95_131:
	brk	#0x1
.Lfunc_end95:
	.size	"amqp_in_place::rabbitmq::warning::in_pairs", .Lfunc_end95-"amqp_in_place::rabbitmq::warning::in_pairs"
	.section	".rodata.amqp_in_place::rabbitmq::warning::in_pairs","a",@progbits
	.p2align	1, 0x0
.LJTI95_0:
	.hword	(.LBB95_56-.LBB95_3)>>2
	.hword	(.LBB95_60-.LBB95_3)>>2
	.hword	(.LBB95_3-.LBB95_3)>>2
	.hword	(.LBB95_101-.LBB95_3)>>2
	.hword	(.LBB95_3-.LBB95_3)>>2
	.hword	(.LBB95_56-.LBB95_3)>>2
	.hword	(.LBB95_3-.LBB95_3)>>2
	.hword	(.LBB95_3-.LBB95_3)>>2
	.hword	(.LBB95_57-.LBB95_3)>>2
	.hword	(.LBB95_3-.LBB95_3)>>2
	.hword	(.LBB95_3-.LBB95_3)>>2
	.hword	(.LBB95_58-.LBB95_3)>>2
	.hword	(.LBB95_3-.LBB95_3)>>2
	.hword	(.LBB95_3-.LBB95_3)>>2
	.hword	(.LBB95_3-.LBB95_3)>>2
	.hword	(.LBB95_3-.LBB95_3)>>2
	.hword	(.LBB95_3-.LBB95_3)>>2
	.hword	(.LBB95_3-.LBB95_3)>>2
	.hword	(.LBB95_56-.LBB95_3)>>2
	.hword	(.LBB95_58-.LBB95_3)>>2
	.hword	(.LBB95_59-.LBB95_3)>>2
	.hword	(.LBB95_102-.LBB95_3)>>2
	.hword	(.LBB95_3-.LBB95_3)>>2
	.hword	(.LBB95_3-.LBB95_3)>>2
	.hword	(.LBB95_3-.LBB95_3)>>2
	.hword	(.LBB95_3-.LBB95_3)>>2
	.hword	(.LBB95_3-.LBB95_3)>>2
	.hword	(.LBB95_3-.LBB95_3)>>2
	.hword	(.LBB95_3-.LBB95_3)>>2
	.hword	(.LBB95_3-.LBB95_3)>>2
	.hword	(.LBB95_3-.LBB95_3)>>2
	.hword	(.LBB95_3-.LBB95_3)>>2
	.hword	(.LBB95_3-.LBB95_3)>>2
	.hword	(.LBB95_60-.LBB95_3)>>2
	.hword	(.LBB95_3-.LBB95_3)>>2
	.hword	(.LBB95_58-.LBB95_3)>>2
	.hword	(.LBB95_3-.LBB95_3)>>2
	.hword	(.LBB95_57-.LBB95_3)>>2
	.hword	(.LBB95_3-.LBB95_3)>>2
	.hword	(.LBB95_3-.LBB95_3)>>2
	.hword	(.LBB95_57-.LBB95_3)>>2
	.hword	(.LBB95_3-.LBB95_3)>>2
	.hword	(.LBB95_3-.LBB95_3)>>2
	.hword	(.LBB95_58-.LBB95_3)>>2
	.hword	(.LBB95_3-.LBB95_3)>>2
	.hword	(.LBB95_3-.LBB95_3)>>2
	.hword	(.LBB95_3-.LBB95_3)>>2
	.hword	(.LBB95_3-.LBB95_3)>>2
	.hword	(.LBB95_3-.LBB95_3)>>2
	.hword	(.LBB95_3-.LBB95_3)>>2
	.hword	(.LBB95_59-.LBB95_3)>>2
	.hword	(.LBB95_60-.LBB95_3)>>2
	.hword	(.LBB95_59-.LBB95_3)>>2
	.hword	(.LBB95_3-.LBB95_3)>>2
	.hword	(.LBB95_3-.LBB95_3)>>2
	.hword	(.LBB95_56-.LBB95_3)>>2

	.section	".text.std_collections::btree::node::Node::destroy::<#a6f6331eefc34dfe>","ax",@progbits
	.p2align	2
	.type	"std_collections::btree::node::Node::destroy::<#a6f6331eefc34dfe>",@function
"std_collections::btree::node::Node::destroy::<#a6f6331eefc34dfe>":
	sub	sp, sp, #80
	stp	x22, x21, [sp, #48]
	ldrh	w8, [x0, #2]
	ldrh	w22, [x0]
	stp	x20, x19, [sp, #64]
	mov	x19, x0
	add	x21, x0, #8
	stp	x29, x30, [sp, #16]
	add	x29, sp, #16
	stp	x24, x23, [sp, #32]
	cbz	w8, .LBB96_22
	cbz	w22, .LBB96_21
	add	x23, x19, #248
	add	x24, x22, #1
	b	.LBB96_4
.LBB96_3:
	cbz	x22, .LBB96_21
.LBB96_4:
	sub	x24, x24, #1
	ldr	x20, [x23]
	cmp	x24, #257
	b.lo	.LBB96_17
	mov	x8, xzr
	add	x9, x19, #272
.LBB96_6:
	mov	w10, #256
	mov	x11, x9
.LBB96_7:
	ldp	q0, q1, [x11, #-16]
	subs	x10, x10, #4
	stur	q0, [x11, #-24]
	stur	q1, [x11, #-8]
	add	x11, x11, #32
	b.ne	.LBB96_7
	add	x8, x8, #256
	add	x9, x9, #2048
	sub	x10, x24, x8
	cmp	x10, #256
	b.hi	.LBB96_6
	cmp	x24, x8
	b.eq	.LBB96_11
.LBB96_10:
	add	x0, x23, x8, lsl #3
	lsl	x2, x10, #3
	add	x1, x0, #8
	bl	memmove
.LBB96_11:
	mov	x0, x20
	bl	"std_collections::btree::node::Node::destroy::<#a6f6331eefc34dfe>"
	sub	x22, x22, #1
	cmp	x22, #129
	b.lo	.LBB96_18
	mov	x8, xzr
	add	x10, x19, #24
.LBB96_13:
	mov	w9, #128
	mov	x11, x10
.LBB96_14:
	ldr	q0, [x11]
	subs	x9, x9, #1
	stur	q0, [x11, #-16]
	add	x11, x11, #16
	b.ne	.LBB96_14
	add	x8, x8, #128
	add	x10, x10, #2048
	sub	x9, x22, x8
	cmp	x9, #128
	b.hi	.LBB96_13
	lsl	x10, x8, #4
	add	x11, x21, x10
	cmp	x22, x8
	b.eq	.LBB96_3
	b	.LBB96_19
.LBB96_17:
	mov	x8, xzr
	mov	x10, x24
	cmp	x24, xzr
	b.ne	.LBB96_10
	b	.LBB96_11
.LBB96_18:
	mov	x10, xzr
	add	x11, x19, #8
	mov	x9, x22
	cmp	x22, xzr
	b.eq	.LBB96_3
.LBB96_19:
	add	x8, x11, #16
	add	x10, x21, x10
.LBB96_20:
	ldr	q0, [x8], #16
	subs	x9, x9, #1
	str	q0, [x10], #16
	b.ne	.LBB96_20
	b	.LBB96_3
.LBB96_21:
	ldr	x0, [x19, #248]
	bl	"std_collections::btree::node::Node::destroy::<#a6f6331eefc34dfe>"
	b	.LBB96_57
.LBB96_22:
	cmp	w22, #15
	b.ls	.LBB96_24
	lsr	x2, x22, #1
	add	x0, x19, #8
	sub	x8, x22, x2
	add	x1, x21, x8, lsl #4
	bl	"core::slice::edits::mirror::<3'&[](*,i64,)>"
	b	.LBB96_57
.LBB96_24:
	cmp	w22, #2
	b.lo	.LBB96_57
	sub	x9, x22, #2
	subs	x10, x22, #1
	lsr	x8, x9, #1
	b.eq	.LBB96_27
	lsl	x10, x10, #4
	ldr	q1, [x21]
	ldr	q0, [x21, x10]
	str	q0, [x21]
	str	q1, [x21, x10]
.LBB96_27:
	cbz	x8, .LBB96_57
	cmp	x9, #1
	b.ls	.LBB96_30
	lsl	x9, x9, #4
	ldur	q1, [x19, #24]
	ldr	q0, [x21, x9]
	stur	q0, [x19, #24]
	str	q1, [x21, x9]
	b	.LBB96_32
.LBB96_30:
	cbnz	x9, .LBB96_32
	ldur	q0, [x19, #24]
	ldr	q1, [x21]
	str	q0, [x21]
	stur	q1, [x19, #24]
.LBB96_32:
	cmp	x8, #1
	b.eq	.LBB96_57
	sub	x9, x22, #3
	cmp	x9, #2
	b.ls	.LBB96_35
	lsl	x9, x9, #4
	ldur	q1, [x19, #40]
	ldr	q0, [x21, x9]
	stur	q0, [x19, #40]
	str	q1, [x21, x9]
	b	.LBB96_37
.LBB96_35:
	b.eq	.LBB96_37
	lsl	x9, x9, #4
	ldur	q1, [x19, #40]
	ldr	q0, [x21, x9]
	str	q1, [x21, x9]
	stur	q0, [x19, #40]
.LBB96_37:
	cmp	x8, #2
	b.eq	.LBB96_57
	sub	x9, x22, #4
	cmp	x9, #3
	b.ls	.LBB96_40
	lsl	x9, x9, #4
	ldur	q1, [x19, #56]
	ldr	q0, [x21, x9]
	stur	q0, [x19, #56]
	str	q1, [x21, x9]
	b	.LBB96_42
.LBB96_40:
	b.eq	.LBB96_42
	lsl	x9, x9, #4
	ldur	q1, [x19, #56]
	ldr	q0, [x21, x9]
	str	q1, [x21, x9]
	stur	q0, [x19, #56]
.LBB96_42:
	cmp	x8, #3
	b.eq	.LBB96_57
	sub	x9, x22, #5
	cmp	x9, #4
	b.ls	.LBB96_45
	lsl	x9, x9, #4
	ldur	q1, [x19, #72]
	ldr	q0, [x21, x9]
	stur	q0, [x19, #72]
	str	q1, [x21, x9]
	b	.LBB96_47
.LBB96_45:
	b.eq	.LBB96_47
	lsl	x9, x9, #4
	ldur	q1, [x19, #72]
	ldr	q0, [x21, x9]
	str	q1, [x21, x9]
	stur	q0, [x19, #72]
.LBB96_47:
	cmp	x8, #4
	b.eq	.LBB96_57
	sub	x9, x22, #6
	cmp	x9, #5
	b.ls	.LBB96_50
	lsl	x9, x9, #4
	ldur	q1, [x19, #88]
	ldr	q0, [x21, x9]
	stur	q0, [x19, #88]
	str	q1, [x21, x9]
	b	.LBB96_52
.LBB96_50:
	b.eq	.LBB96_52
	lsl	x9, x9, #4
	ldur	q1, [x19, #88]
	ldr	q0, [x21, x9]
	str	q1, [x21, x9]
	stur	q0, [x19, #88]
.LBB96_52:
	cmp	x8, #5
	b.eq	.LBB96_57
	sub	x8, x22, #7
	cmp	x8, #6
	b.ls	.LBB96_55
	lsl	x8, x8, #4
	ldur	q1, [x19, #104]
	ldr	q0, [x21, x8]
	stur	q0, [x19, #104]
	str	q1, [x21, x8]
	b	.LBB96_57
.LBB96_55:
	b.eq	.LBB96_57
	lsl	x8, x8, #4
	ldur	q1, [x19, #104]
	ldr	q0, [x21, x8]
	str	q1, [x21, x8]
	stur	q0, [x19, #104]
.LBB96_57:
	mov	x0, x19
	ldp	x20, x19, [sp, #64]
	ldp	x22, x21, [sp, #48]
	ldp	x24, x23, [sp, #32]
	ldp	x29, x30, [sp, #16]
	add	sp, sp, #80
	b	rattle_dealloc
.Lfunc_end96:
	.size	"std_collections::btree::node::Node::destroy::<#a6f6331eefc34dfe>", .Lfunc_end96-"std_collections::btree::node::Node::destroy::<#a6f6331eefc34dfe>"

	.section	".text.core::slice::edits::mirror::<3'&[](*,i64,)>","ax",@progbits
	.p2align	2
	.type	"core::slice::edits::mirror::<3'&[](*,i64,)>",@function
"core::slice::edits::mirror::<3'&[](*,i64,)>":
	sub	sp, sp, #16
	add	x8, x1, x2, lsl #4
	sub	x8, x8, #16
.LBB97_1:
	ldr	q0, [x8]
	ldr	q1, [x0]
	sub	x2, x2, #1
	str	q0, [x0], #16
	str	q1, [x8], #-16
	cbnz	x2, .LBB97_1
	add	sp, sp, #16
	ret
.Lfunc_end97:
	.size	"core::slice::edits::mirror::<3'&[](*,i64,)>", .Lfunc_end97-"core::slice::edits::mirror::<3'&[](*,i64,)>"

	.section	.text.amqpv_canonical,"ax",@progbits
	.globl	amqpv_canonical
	.p2align	2
	.type	amqpv_canonical,@function
amqpv_canonical:
	sub	sp, sp, #336
	movi	v0.2d, #0000000000000000
	ldr	w9, [x0, #24]
	mov	w8, #4096
	cmp	x1, #0
	stp	x26, x25, [sp, #272]
	stp	x20, x19, [sp, #320]
	mov	x19, x3
	csel	x26, x8, xzr, eq
	cmp	w9, #31
	stp	x29, x30, [sp, #240]
	add	x29, sp, #240
	stp	x28, x27, [sp, #256]
	stp	x24, x23, [sp, #288]
	stp	x22, x21, [sp, #304]
	stp	xzr, xzr, [sp, #40]
	str	xzr, [sp, #32]
	stp	q0, q0, [sp, #64]
	stp	xzr, xzr, [sp, #8]
	str	xzr, [sp]
	b.hi	.LBB98_8
	ldp	x23, x8, [x0]
	mov	x20, x2
	mov	x21, x0
	add	x22, x1, x26
	tbnz	w9, #0, .LBB98_11
	ldp	w2, w3, [x21, #16]
	mov	x0, x23
	mov	x24, x1
	mov	x1, x8
	bl	"amqp_in_place::canonical::canonical_len"
	and	w8, w0, #0xff
	mov	x9, x1
	mov	x1, x24
	cmp	w8, #1
	csel	x8, x23, xzr, eq
	csel	x23, x9, xzr, eq
	and	w9, w0, #0xff
	cmp	w9, #1
	b.eq	.LBB98_15
.LBB98_3:
	ldr	w8, [x21, #24]
	cmp	w8, #31
	b.hi	.LBB98_8
	ldp	x23, x2, [x21]
	tbnz	w8, #0, .LBB98_23
	ldp	w3, w4, [x21, #16]
	mov	x27, x1
	sub	x0, x29, #80
	mov	x1, x23
	bl	"amqp_in_place::read::read_in_place"
	ldurb	w8, [x29, #-80]
	cbnz	w8, .LBB98_39
	ldurb	w11, [x29, #-72]
	ldp	x23, x24, [x29, #-64]
	adrp	x12, .LJTI98_0
	add	x12, x12, :lo12:.LJTI98_0
	ldurb	w10, [x29, #-71]
	ldurh	w14, [x29, #-70]
	ldur	w13, [x29, #-68]
	adr	x15, .LBB98_7
	ldrh	w16, [x12, x11, lsl #1]
	add	x15, x15, x16, lsl #2
	movi	v0.2d, #0000000000000000
	sub	x25, x29, #80
	mov	x8, xzr
	mov	w9, wzr
	mov	w12, wzr
	br	x15
.LBB98_7:
	mov	w10, wzr
	mov	w9, wzr
	mov	x8, xzr
	mov	w12, w13
	b	.LBB98_100
.LBB98_8:
	mov	x23, xzr
	mov	w22, #12
.LBB98_9:
	and	x8, x22, #0xff
	cmp	x8, #16
	mvn	w8, w22
	csel	x23, x23, xzr, eq
	orr	w0, w8, #0xffffff00
.LBB98_10:
	str	x23, [x19]
	ldp	x20, x19, [sp, #320]
	ldp	x22, x21, [sp, #304]
	ldp	x24, x23, [sp, #288]
	ldp	x26, x25, [sp, #272]
	ldp	x28, x27, [sp, #256]
	ldp	x29, x30, [sp, #240]
	add	sp, sp, #336
	ret
.LBB98_11:
	subs	x8, x8, #4
	b.lo	.LBB98_13
	ldr	w9, [x23]
	ldr	w10, [x21, #16]
	rev	w24, w9
	add	x9, x24, #5
	cmp	x9, x10
	b.ls	.LBB98_31
.LBB98_13:
	mov	x9, xzr
	mov	w0, wzr
.LBB98_14:
	cmp	w0, #0
	csel	x8, xzr, x23, eq
	csel	x23, xzr, x9, eq
	and	w9, w0, #0xff
	cmp	w9, #1
	b.ne	.LBB98_3
.LBB98_15:
	cmp	x20, x23
	b.hs	.LBB98_17
	mov	w22, #16
	b	.LBB98_9
.LBB98_17:
	sub	x9, x22, x8
	cmp	x9, x23
	b.hs	.LBB98_34
	cmp	x23, #8
	b.lo	.LBB98_20
	add	x9, x26, x1
	sub	x9, x9, x8
	cmp	x9, #32
	b.hs	.LBB98_37
.LBB98_20:
	mov	x9, xzr
.LBB98_21:
	add	x11, x26, x9
	sub	x10, x23, x9
	add	x8, x8, x9
	add	x9, x1, x11
.LBB98_22:
	ldrb	w11, [x8], #1
	subs	x10, x10, #1
	strb	w11, [x9], #1
	b.ne	.LBB98_22
	b	.LBB98_35
.LBB98_23:
	ldr	w25, [x21, #20]
	subs	x9, x2, #4
	b.lo	.LBB98_40
	cbz	w25, .LBB98_39
	ldr	w8, [x23], #4
	rev	w24, w8
	cmp	x9, x24
	b.lo	.LBB98_39
	ldr	w8, [x21, #16]
	add	x9, x24, #5
	cmp	x9, x8
	b.hi	.LBB98_39
	mov	x27, x1
	sub	x2, x25, #1
	mov	x0, x23
	mov	x1, x24
	bl	"amqp_in_place::read::are_pairs"
	tbz	w0, #0, .LBB98_39
.LBB98_28:
	movi	v0.2d, #0000000000000000
	sub	x0, x29, #80
	mov	x1, x23
	mov	x2, x24
	mov	x3, x24
	stp	q0, q0, [x29, #-80]
	bl	"amq_protocol_types::parsing::values::parse_table_body::<#021be0914fa2e150>"
	ldurb	w9, [x29, #-80]
	ldurb	w8, [x29, #-72]
	cbz	w9, .LBB98_36
	cmp	w8, #2
	b.ne	.LBB98_153
.LBB98_30:
	mov	x23, xzr
	mov	w22, #17
	b	.LBB98_9
.LBB98_31:
	ldr	w10, [x21, #20]
	mov	w0, wzr
	mov	x9, xzr
	cbz	w10, .LBB98_14
	cmp	x8, x24
	b.lo	.LBB98_14
	sub	x2, x10, #1
	add	x0, x23, #4
	mov	x25, x1
	mov	x1, x24
	bl	"amqp_in_place::canonical::are_canonical_pairs"
	add	x8, x24, #4
	cmp	w0, #0
	mov	x1, x25
	csel	x9, x8, xzr, ne
	b	.LBB98_14
.LBB98_34:
	mov	x0, x22
	mov	x1, x8
	mov	x2, x23
	bl	memmove
.LBB98_35:
	mov	w0, wzr
	b	.LBB98_10
.LBB98_36:
	ldur	q0, [x29, #-64]
	mov	w10, wzr
	mov	w12, wzr
	mov	w11, #15
	b	.LBB98_100
.LBB98_37:
	cmp	x23, #32
	b.hs	.LBB98_43
	mov	x9, xzr
	b	.LBB98_47
.LBB98_39:
	ldp	x23, x2, [x21]
	ldp	w25, w8, [x21, #20]
.LBB98_40:
	ldr	w20, [x21, #16]
	tbnz	w8, #0, .LBB98_50
	sub	x0, x29, #80
	mov	x1, x23
	mov	w3, w20
	mov	w4, w25
	stur	xzr, [x29, #-88]
	mov	x22, x2
	bl	"amqp_in_place::read::read_in_place"
	ldurb	w8, [x29, #-80]
	cbnz	w8, .LBB98_54
.LBB98_42:
	mov	x22, xzr
	mov	w20, wzr
	b	.LBB98_55
.LBB98_43:
	add	x12, x26, x1
	and	x10, x23, #0x18
	and	x9, x23, #0xffffffffffffffe0
	add	x11, x8, #16
	add	x12, x12, #16
	and	x13, x23, #0xffffffffffffffe0
.LBB98_44:
	ldp	q0, q1, [x11, #-16]
	subs	x13, x13, #32
	add	x11, x11, #32
	stp	q0, q1, [x12, #-16]
	add	x12, x12, #32
	b.ne	.LBB98_44
	cmp	x23, x9
	b.eq	.LBB98_35
	cbz	x10, .LBB98_21
.LBB98_47:
	mov	x11, x9
	and	x9, x23, #0xfffffffffffffff8
	add	x12, x26, x11
	sub	x10, x11, x9
	add	x11, x8, x11
	add	x12, x1, x12
.LBB98_48:
	ldr	d0, [x11], #8
	adds	x10, x10, #8
	str	d0, [x12], #8
	b.ne	.LBB98_48
	cmp	x23, x9
	b.eq	.LBB98_35
	b	.LBB98_21
.LBB98_50:
	subs	x8, x2, #4
	stur	xzr, [x29, #-64]
	b.hs	.LBB98_62
.LBB98_51:
	sub	x0, x29, #80
	mov	x1, x23
	mov	w3, w20
	mov	w4, w25
	bl	"amqp_in_place::problems::search_table"
	ldurb	w8, [x29, #-80]
	ldur	x22, [x29, #-72]
	ldurb	w20, [x29, #-64]
	b	.LBB98_55
.LBB98_52:
	mov	w10, wzr
	mov	w12, wzr
	mov	x8, xzr
	mov	w9, w14
	b	.LBB98_100
.LBB98_53:
	mov	w10, wzr
	mov	w9, wzr
	mov	w12, wzr
	mov	x8, x23
	b	.LBB98_100
.LBB98_54:
	sub	x0, x29, #104
	mov	x1, x23
	mov	x2, x22
	mov	w3, w20
	mov	w4, w25
	bl	"amqp_in_place::problems::search"
	ldurb	w8, [x29, #-104]
	ldur	x22, [x29, #-96]
	ldurb	w20, [x29, #-88]
.LBB98_55:
	cmp	w8, #1
	b.ne	.LBB98_152
	ldp	q0, q1, [x21]
	add	x0, sp, #96
	stp	q0, q1, [sp, #96]
	bl	"amqp_c::input::Input::header"
	cbz	x22, .LBB98_58
	adrp	x8, .Lswitch.table.amqpv_canonical
	add	x8, x8, :lo12:.Lswitch.table.amqpv_canonical
	mov	x23, xzr
	ldr	x22, [x8, w20, uxtw #3]
	b	.LBB98_9
.LBB98_58:
	cmp	w20, #2
	b.le	.LBB98_85
	cmp	w20, #4
	b.gt	.LBB98_88
	cmp	w20, #3
	b.ne	.LBB98_96
	mov	x23, xzr
	mov	w22, #3
	b	.LBB98_9
.LBB98_62:
	cbz	w25, .LBB98_51
	ldr	w9, [x23]
	rev	w1, w9
	cmp	x8, x1
	b.lo	.LBB98_51
	add	x8, x1, #5
	cmp	x8, x20
	b.hi	.LBB98_51
	mov	w8, w25
	add	x0, x23, #4
	mov	x22, x2
	sub	x8, x8, #1
	mov	x2, x8
	bl	"amqp_in_place::read::are_pairs"
	mov	x2, x22
	tbz	w0, #0, .LBB98_51
	mov	w8, wzr
	b	.LBB98_42
.LBB98_67:
	mov	w10, wzr
	mov	w9, wzr
	mov	w12, wzr
	mov	x8, xzr
	mov	w11, #17
	b	.LBB98_100
.LBB98_68:
	mov	w10, wzr
	mov	w9, wzr
	mov	w8, w23
	mov	w11, #10
	mov	w12, w13
	b	.LBB98_100
.LBB98_69:
	mov	w11, wzr
	mov	w9, wzr
	mov	w12, wzr
	mov	x8, xzr
	and	w10, w10, #0x1
	b	.LBB98_100
.LBB98_70:
	cbz	x24, .LBB98_90
	tbnz	x24, #63, .LBB98_30
	mov	x0, x24
	mov	w1, #1
	bl	rattle_alloc
	tbz	w0, #0, .LBB98_30
	stp	x1, xzr, [x29, #-80]
	sub	x0, x29, #80
	mov	x1, x23
	mov	x2, x24
	stur	x24, [x29, #-64]
	bl	"std_alloc::vec::Vec::extend_from_slice::<#f0d03d630576da86>"
	and	w8, w0, #0xff
	tbnz	w8, #0, .LBB98_82
	ldur	x8, [x29, #-80]
	ldur	q0, [x25, #8]
	b	.LBB98_91
.LBB98_75:
	sub	x0, x29, #80
	mov	x1, x23
	mov	x2, x24
	mov	x3, x24
	stp	q0, q0, [x29, #-80]
	bl	"amq_protocol_types::parsing::values::parse_array_body::<#021be0914fa2e150>"
	ldurb	w8, [x29, #-80]
	cbz	w8, .LBB98_92
	ldurb	w8, [x29, #-72]
	cmp	w8, #2
	b.eq	.LBB98_30
	cmp	w8, #1
	b	.LBB98_152
.LBB98_78:
	cbz	x24, .LBB98_93
	tbnz	x24, #63, .LBB98_30
	mov	x0, x24
	mov	w1, #1
	bl	rattle_alloc
	tbz	w0, #0, .LBB98_30
	stp	x1, xzr, [x29, #-80]
	sub	x0, x29, #80
	mov	x1, x23
	mov	x2, x24
	stur	x24, [x29, #-64]
	bl	"std_alloc::vec::Vec::extend_from_slice::<#f0d03d630576da86>"
	and	w8, w0, #0xff
	tbz	w8, #0, .LBB98_98
.LBB98_82:
	ldur	x8, [x29, #-64]
	cbz	x8, .LBB98_30
	ldur	x0, [x29, #-80]
	b	.LBB98_136
.LBB98_84:
	mov	w10, wzr
	mov	w9, wzr
	mov	w12, wzr
	mov	w11, #14
	mov	x8, x23
	b	.LBB98_100
.LBB98_85:
	cbz	w20, .LBB98_94
	cmp	w20, #1
	b.ne	.LBB98_95
	mov	x23, xzr
	mov	w22, #5
	b	.LBB98_9
.LBB98_88:
	cmp	w20, #5
	b.ne	.LBB98_97
	mov	x23, xzr
	mov	w22, #6
	b	.LBB98_9
.LBB98_90:
	sub	x8, x29, #17
.LBB98_91:
	mov	w10, wzr
	mov	w9, wzr
	mov	w12, wzr
	mov	w11, #12
	b	.LBB98_100
.LBB98_92:
	ldur	x8, [x29, #-72]
	ldur	q0, [x29, #-64]
	mov	w10, wzr
	mov	w9, wzr
	mov	w12, wzr
	mov	w11, #13
	b	.LBB98_100
.LBB98_93:
	sub	x8, x29, #17
	b	.LBB98_99
.LBB98_94:
	mov	x23, xzr
	mov	w22, #1
	b	.LBB98_9
.LBB98_95:
	and	w8, w0, #0xff
	mov	x22, xzr
	cmp	w8, #2
	csel	x23, x1, xzr, eq
	b	.LBB98_9
.LBB98_96:
	mov	x23, xzr
	mov	w22, #4
	b	.LBB98_9
.LBB98_97:
	mov	x23, xzr
	mov	w22, #7
	b	.LBB98_9
.LBB98_98:
	ldur	x8, [x29, #-80]
	ldur	q0, [x25, #8]
.LBB98_99:
	mov	w10, wzr
	mov	w9, wzr
	mov	w12, wzr
	mov	w11, #16
.LBB98_100:
	str	x8, [sp, #72]
	sub	x8, x29, #17
	add	x0, sp, #96
	stp	x8, xzr, [x29, #-80]
	add	x8, sp, #64
	add	x1, sp, #64
	sub	x2, x29, #80
	strb	w11, [sp, #64]
	orr	x25, x8, #0x8
	strb	w10, [sp, #65]
	strh	w9, [sp, #66]
	str	w12, [sp, #68]
	str	q0, [sp, #80]
	strb	wzr, [sp, #98]
	strh	wzr, [sp, #96]
	stp	xzr, xzr, [x29, #-64]
	bl	"amq_protocol_types::generation::values::gen_value::<#4ea8deeae94023ba>"
	ldrb	w8, [sp, #96]
	cbz	w8, .LBB98_110
	ldrb	w8, [sp, #97]
	cmp	w8, #2
	b.ne	.LBB98_152
	ldur	x8, [x29, #-64]
	cbz	x8, .LBB98_104
	ldur	x0, [x29, #-80]
	bl	rattle_dealloc
.LBB98_104:
	ldrb	w8, [sp, #64]
	mov	x23, xzr
	mov	w22, #17
	cmp	w8, #10
	b.le	.LBB98_9
	cmp	w8, #13
	b.le	.LBB98_118
	cmp	w8, #15
	b.gt	.LBB98_133
	cmp	w8, #14
	b.eq	.LBB98_9
	ldrb	w8, [sp, #72]
	cmp	w8, #1
	b.ne	.LBB98_30
	ldr	x0, [sp, #80]
	bl	"std_collections::btree::node::Node::destroy::<#906c1b7c2fff9a74>"
	b	.LBB98_30
.LBB98_110:
	ldr	w9, [x21, #24]
	ldp	x24, x8, [x29, #-80]
	ldur	x28, [x29, #-64]
	and	x9, x9, #0x1
	sub	x21, x8, x9
	cmp	x20, x21
	b.hs	.LBB98_112
	mov	w22, #16
	mov	x23, x21
	b	.LBB98_123
.LBB98_112:
	add	x1, x24, x9
	sub	x10, x22, x1
	cmp	x10, x21
	b.hs	.LBB98_121
	cmp	x21, #8
	b.lo	.LBB98_115
	add	x10, x26, x27
	add	x11, x24, x9
	sub	x10, x10, x11
	cmp	x10, #32
	b.hs	.LBB98_143
.LBB98_115:
	mov	x10, xzr
.LBB98_116:
	add	x9, x10, x9
	add	x10, x26, x10
	sub	x8, x9, x8
	add	x9, x24, x9
	add	x10, x27, x10
.LBB98_117:
	ldrb	w11, [x9], #1
	adds	x8, x8, #1
	strb	w11, [x10], #1
	b.lo	.LBB98_117
	b	.LBB98_122
.LBB98_118:
	cmp	w8, #11
	b.eq	.LBB98_134
	cmp	w8, #12
	b.eq	.LBB98_134
	ldr	q0, [x25]
	ldr	x8, [x25, #16]
	add	x0, sp, #32
	str	q0, [sp, #32]
	str	x8, [sp, #48]
	bl	"std_alloc::vec::Vec::drop::<#075e21c32a54ff68>"
	b	.LBB98_30
.LBB98_121:
	mov	x0, x22
	mov	x2, x21
	bl	memmove
.LBB98_122:
	mov	x23, xzr
	mov	x22, x21
.LBB98_123:
	cbz	x28, .LBB98_125
	mov	x0, x24
	bl	rattle_dealloc
.LBB98_125:
	ldrb	w8, [sp, #64]
	cmp	w8, #10
	b.gt	.LBB98_128
.LBB98_126:
	cmp	x20, x21
	b.lo	.LBB98_9
	mov	w0, wzr
	mov	x23, x22
	b	.LBB98_10
.LBB98_128:
	cmp	w8, #13
	b.le	.LBB98_137
	cmp	w8, #15
	b.gt	.LBB98_140
	cmp	w8, #14
	b.eq	.LBB98_126
	ldrb	w8, [sp, #72]
	cmp	w8, #1
	b.ne	.LBB98_126
	ldr	x0, [sp, #80]
	bl	"std_collections::btree::node::Node::destroy::<#906c1b7c2fff9a74>"
	b	.LBB98_126
.LBB98_133:
	cmp	w8, #16
	b.ne	.LBB98_9
.LBB98_134:
	ldr	x8, [sp, #88]
	cbz	x8, .LBB98_30
	ldr	x0, [sp, #72]
.LBB98_136:
	bl	rattle_dealloc
	b	.LBB98_30
.LBB98_137:
	cmp	w8, #11
	b.eq	.LBB98_141
	cmp	w8, #12
	b.eq	.LBB98_141
	ldr	q0, [x25]
	ldr	x8, [x25, #16]
	mov	x0, sp
	str	q0, [sp]
	str	x8, [sp, #16]
	bl	"std_alloc::vec::Vec::drop::<#075e21c32a54ff68>"
	b	.LBB98_126
.LBB98_140:
	cmp	w8, #16
	b.ne	.LBB98_126
.LBB98_141:
	ldr	x8, [sp, #88]
	cbz	x8, .LBB98_126
	ldr	x0, [sp, #72]
	bl	rattle_dealloc
	b	.LBB98_126
.LBB98_143:
	cmp	x21, #32
	b.hs	.LBB98_145
	mov	x10, xzr
	b	.LBB98_149
.LBB98_145:
	add	x12, x9, x24
	add	x13, x26, x27
	and	x11, x21, #0x18
	and	x10, x21, #0xffffffffffffffe0
	add	x12, x12, #16
	add	x13, x13, #16
	and	x14, x21, #0xffffffffffffffe0
.LBB98_146:
	ldp	q0, q1, [x12, #-16]
	subs	x14, x14, #32
	add	x12, x12, #32
	stp	q0, q1, [x13, #-16]
	add	x13, x13, #32
	b.ne	.LBB98_146
	cmp	x21, x10
	b.eq	.LBB98_122
	cbz	x11, .LBB98_116
.LBB98_149:
	mov	x11, x10
	and	x10, x21, #0xfffffffffffffff8
	add	x12, x11, x9
	add	x13, x26, x11
	sub	x11, x11, x10
	add	x12, x24, x12
	add	x13, x27, x13
.LBB98_150:
	ldr	d0, [x12], #8
	adds	x11, x11, #8
	str	d0, [x13], #8
	b.ne	.LBB98_150
	cmp	x21, x10
	b.eq	.LBB98_122
	b	.LBB98_116
.LBB98_152:
	brk	#0x1
.LBB98_153:
	cmp	w8, #1
	brk	#0x1
.Lfunc_end98:
	.size	amqpv_canonical, .Lfunc_end98-amqpv_canonical
	.section	.rodata.amqpv_canonical,"a",@progbits
	.p2align	1, 0x0
.LJTI98_0:
	.hword	(.LBB98_69-.LBB98_7)>>2
	.hword	(.LBB98_100-.LBB98_7)>>2
	.hword	(.LBB98_100-.LBB98_7)>>2
	.hword	(.LBB98_52-.LBB98_7)>>2
	.hword	(.LBB98_52-.LBB98_7)>>2
	.hword	(.LBB98_7-.LBB98_7)>>2
	.hword	(.LBB98_7-.LBB98_7)>>2
	.hword	(.LBB98_53-.LBB98_7)>>2
	.hword	(.LBB98_7-.LBB98_7)>>2
	.hword	(.LBB98_53-.LBB98_7)>>2
	.hword	(.LBB98_68-.LBB98_7)>>2
	.hword	(.LBB98_70-.LBB98_7)>>2
	.hword	(.LBB98_75-.LBB98_7)>>2
	.hword	(.LBB98_84-.LBB98_7)>>2
	.hword	(.LBB98_28-.LBB98_7)>>2
	.hword	(.LBB98_78-.LBB98_7)>>2
	.hword	(.LBB98_67-.LBB98_7)>>2

	.section	.rodata.cst8,"aM",@progbits,8
	.p2align	3, 0x0
.LCPI99_0:
	.hword	58
	.hword	44
	.hword	32
	.hword	13
	.section	.rodata.cst16,"aM",@progbits,16
	.p2align	4, 0x0
.LCPI99_1:
	.byte	1
	.byte	2
	.byte	4
	.byte	8
	.byte	16
	.byte	32
	.byte	64
	.byte	128
	.byte	1
	.byte	2
	.byte	4
	.byte	8
	.byte	16
	.byte	32
	.byte	64
	.byte	128
	.section	.text.amqpv_proved_from_json,"ax",@progbits
	.p2align	2
	.type	amqpv_proved_from_json,@function
amqpv_proved_from_json:
	stp	x29, x30, [sp, #-96]!
	sub	x9, sp, #3, lsl #12
	stp	x28, x27, [sp, #16]
	mov	x29, sp
	sub	x9, x9, #3072
	stp	x26, x25, [sp, #32]
	stp	x24, x23, [sp, #48]
	stp	x22, x21, [sp, #64]
	stp	x20, x19, [sp, #80]
.LBB99_1:
	sub	sp, sp, #3072
	cmp	sp, x9
	str	xzr, [sp]
	b.ne	.LBB99_1
	sub	sp, sp, #1648
	cmp	x0, #0
	mov	w9, #4096
	mov	x8, x0
	csel	x10, x9, xzr, eq
	mov	w25, w2
	mov	x2, x1
	cmp	x3, #0
	add	x0, sp, #56
	add	x1, x8, x10
	str	xzr, [sp]
	mov	x20, x6
	mov	x27, x5
	mov	x23, x4
	mov	x24, x3
	str	wzr, [sp, #40]
	strh	wzr, [sp, #44]
	csel	x28, x9, xzr, eq
	str	wzr, [sp, #32]
	strh	wzr, [sp, #36]
	stp	xzr, xzr, [sp, #56]
	str	xzr, [sp, #72]
	str	wzr, [sp, #48]
	strh	wzr, [sp, #52]
	bl	"core::str::utf8::from_utf8"
	ldrb	w8, [sp, #56]
	cbz	w8, .LBB99_4
	ldr	x23, [sp, #64]
	mov	w8, wzr
	mov	w24, #8
	str	wzr, [sp, #32]
	strh	wzr, [sp, #36]
	b	.LBB99_484
.LBB99_4:
	movi	v0.2d, #0000000000000000
	ldp	x22, x21, [sp, #64]
	add	x26, sp, #192
	sub	x9, x29, #112
	cmp	w25, #127
	mov	w8, #127
	sub	x19, x29, #20
	add	x0, x26, #8
	mov	w1, wzr
	mov	w2, #16400
	stur	xzr, [x29, #-48]
	stp	q0, q0, [sp, #80]
	csel	w25, w25, w8, lo
	stp	q0, q0, [sp, #112]
	stp	q0, q0, [sp, #144]
	str	q0, [sp, #176]
	stur	q0, [x9, #72]
	str	x19, [sp, #192]
	bl	memset
	movi	v0.2d, #0000000000000000
	str	x19, [sp, #16600]
	stp	x23, x27, [sp, #16]
	str	q0, [sp, #16608]
	cbnz	x21, .LBB99_44
	mov	x23, xzr
.LBB99_6:
	add	x27, sp, #4, lsl #12
	add	x26, x26, #24
	add	x0, sp, #4, lsl #12
	add	x27, x27, #248
	add	x0, x0, #272
	sub	x5, x29, #112
	mov	x1, x22
	mov	x2, x21
	mov	x3, x26
	mov	x4, xzr
	str	q0, [sp, #16656]
	str	q0, [sp, #16672]
	strh	wzr, [x27, #264]
	strb	wzr, [x27, #266]
	bl	"json::index::refill"
	ldr	x8, [sp, #16656]
	ldr	x9, [sp, #16664]
	ldr	w10, [sp, #216]
	ldr	q0, [sp, #16656]
	ldr	q1, [sp, #16672]
	stp	x22, x21, [sp, #80]
	add	x8, x8, x10
	cmp	x9, #0
	stp	x22, x21, [sp, #96]
	csel	x8, x21, x8, eq
	stp	q0, q1, [sp, #128]
	stp	x8, x19, [sp, #160]
	mov	w8, #1
	stp	x26, xzr, [sp, #112]
	str	x23, [sp, #176]
	strb	w8, [sp, #184]
	str	wzr, [sp, #188]
	stur	wzr, [sp, #185]
	cbz	x21, .LBB99_14
	tbnz	x21, #63, .LBB99_9
	mov	x0, x21
	mov	w1, #1
	bl	rattle_alloc
	tbnz	w0, #0, .LBB99_15
.LBB99_9:
	ldr	x8, [sp, #208]
	cbz	x8, .LBB99_11
	ldr	x0, [sp, #192]
	bl	rattle_dealloc
.LBB99_11:
	ldr	x8, [sp, #16616]
	ldr	x27, [sp, #24]
	cbz	x8, .LBB99_13
.LBB99_12:
	ldr	x0, [sp, #16600]
	bl	rattle_dealloc
.LBB99_13:
	mov	w24, wzr
	mov	x23, xzr
	mov	w28, wzr
	b	.LBB99_475
.LBB99_14:
	sub	x1, x29, #20
.LBB99_15:
	movi	v0.2d, #0000000000000000
	stp	x1, xzr, [x29, #-48]
	sub	x0, x29, #112
	add	x1, sp, #80
	sub	x2, x29, #48
	mov	x3, x25
	stur	x21, [x29, #-32]
	stp	q0, q0, [x29, #-112]
	bl	"amqp_json::reading::walk::put_value"
	ldrb	w8, [x27, #264]
	cbz	w8, .LBB99_19
	ldrb	w24, [x27, #272]
	cmp	w24, #2
	b.gt	.LBB99_25
	b.hs	.LBB99_269
	mov	x23, xzr
	mov	w28, wzr
	b	.LBB99_42
.LBB99_19:
	ldr	x25, [sp, #88]
	ldr	x11, [sp, #160]
	ldrb	w9, [sp, #184]
	subs	x8, x25, x11
	b.ls	.LBB99_50
	ldr	x26, [sp, #80]
	add	x19, sp, #80
	add	x10, x26, x11
	ldrb	w12, [x10]
	and	w13, w12, #0xffffffdf
	cmp	w13, #93
	b.ne	.LBB99_48
	sub	w8, w9, #1
	and	w8, w8, #0xff
	cmp	w8, #1
	b.hi	.LBB99_80
.LBB99_22:
	ldp	x3, x8, [sp, #112]
	movi	v0.2d, #0000000000000000
	ldr	x10, [sp, #136]
	add	x9, x8, #1
	cmp	x9, x10
	str	q0, [sp, #16656]
	str	q0, [sp, #16672]
	str	x9, [sp, #120]
	b.ne	.LBB99_72
	ldp	x1, x2, [sp, #96]
	add	x0, sp, #4, lsl #12
	ldrh	w8, [sp, #152]
	ldrb	w9, [sp, #154]
	add	x0, x0, #272
	ldr	x4, [sp, #144]
	sub	x5, x29, #144
	strh	w8, [x27, #232]
	strb	w9, [x27, #234]
	bl	"json::index::refill"
	ldr	q0, [sp, #16656]
	ldr	q1, [sp, #16672]
	ldr	x8, [sp, #16664]
	ldr	x3, [sp, #112]
	str	xzr, [sp, #120]
	stp	q0, q1, [x19, #48]
	cbz	x8, .LBB99_81
	ldr	x8, [sp, #16656]
	ldr	w9, [x3]
	add	x9, x8, x9
	b	.LBB99_82
.LBB99_25:
	cmp	w24, #3
	b.ne	.LBB99_41
	ldr	x27, [sp, #24]
	cbz	x21, .LBB99_517
	mov	x23, xzr
	mov	w8, wzr
	b	.LBB99_30
.LBB99_28:
	dup	v0.4h, w8
	adrp	x9, .LCPI99_0
	ldr	d1, [x9, :lo12:.LCPI99_0]
	and	w9, w8, #0xffffffdf
	sub	w8, w8, #9
	cmp	w9, #91
	cset	w10, eq
	tst	w8, #0xfe
	mov	w8, #93
	cmeq	v0.4h, v0.4h, v1.4h
	ccmp	w9, w8, #4, ne
	cset	w9, eq
	umaxv	h0, v0.4h
	fmov	w11, s0
	orr	w8, w11, w10
	orr	w8, w8, w9
	mov	w9, #1
	bic	w8, w9, w8
.LBB99_29:
	add	x23, x23, #1
	cmp	x21, x23
	b.eq	.LBB99_517
.LBB99_30:
	and	w9, w8, #0xff
	ldrb	w8, [x22, x23]
	cmp	w9, #1
	b.hi	.LBB99_34
	and	w10, w8, #0xffffffdf
	cmp	w10, #91
	b.ne	.LBB99_37
	cbz	x25, .LBB99_43
	sub	x25, x25, #1
.LBB99_34:
	cmp	w9, #1
	b.gt	.LBB99_38
.LBB99_35:
	cbnz	w9, .LBB99_28
	cmp	w8, #34
	b.ne	.LBB99_28
	b	.LBB99_40
.LBB99_37:
	and	w10, w10, #0xff
	cmp	w10, #93
	cinc	x25, x25, eq
	cmp	w9, #1
	b.le	.LBB99_35
.LBB99_38:
	cmp	w9, #2
	b.ne	.LBB99_40
	cmp	w8, #92
	cinc	w9, w9, eq
	cmp	w8, #34
	csel	w8, wzr, w9, eq
	b	.LBB99_29
.LBB99_40:
	mov	w8, #2
	b	.LBB99_29
.LBB99_41:
	ldur	x8, [x29, #-96]
	ldrb	w28, [x27, #288]
	mov	w24, #4
	cmp	x21, x8
	csel	x23, x21, x8, lo
.LBB99_42:
	ldr	x27, [sp, #24]
	b	.LBB99_469
.LBB99_43:
	mov	w28, wzr
	mov	w24, #3
	b	.LBB99_469
.LBB99_44:
	add	x0, sp, #192
	mov	x1, x21
	bl	"std_alloc::vec::Vec::grow_amortized::<#1283936d4ef01d73>"
	cbz	w0, .LBB99_65
	ldp	x19, x8, [sp, #192]
	ldr	x27, [sp, #208]
	add	x23, x8, x21
	cmp	x8, x23
	b.hs	.LBB99_47
	add	x0, x19, x8
	mov	w1, wzr
	mov	x2, x21
	bl	memset
.LBB99_47:
	movi	v0.2d, #0000000000000000
	stp	x19, x23, [sp, #192]
	str	x27, [sp, #208]
	b	.LBB99_6
.LBB99_48:
	cmp	w12, #32
	b.hi	.LBB99_74
	mov	w13, #1
	mov	x14, #9728
	lsl	x13, x13, x12
	movk	x14, #1, lsl #32
	tst	x13, x14
	b.eq	.LBB99_74
.LBB99_50:
	sub	w8, w9, #1
	mov	w10, #3
	tst	w8, #0xfe
	csel	w9, w9, w10, eq
	cmp	w8, #3
	strb	w9, [sp, #184]
	b.hs	.LBB99_269
.LBB99_51:
	ldp	x21, x26, [x29, #-48]
	sub	x23, x29, #112
	ldr	x8, [sp, #208]
	ldrb	w19, [x23, #80]
	cbz	x8, .LBB99_53
	ldr	x0, [sp, #192]
	bl	rattle_dealloc
.LBB99_53:
	ldr	x8, [sp, #16616]
	cbz	x8, .LBB99_55
	ldr	x0, [sp, #16600]
	bl	rattle_dealloc
.LBB99_55:
	ldrb	w8, [x23, #87]
	ldurh	w9, [x23, #85]
	mov	x0, x21
	ldur	w10, [x23, #81]
	mov	x1, x26
	mov	w2, #-1
	orr	w8, w9, w8, lsl #16
	mov	w3, #128
	lsl	x9, x10, #8
	orr	x8, x9, x8, lsl #40
	orr	x22, x8, x19
	bl	"amqp_in_place::canonical::canonical_len"
	and	w8, w0, #0xff
	cmp	w8, #1
	b.ne	.LBB99_60
	cmp	x1, x26
	b.ne	.LBB99_60
	ldr	x23, [sp, #16]
.LBB99_58:
	ldr	x27, [sp, #24]
	cmp	x23, x26
	b.hs	.LBB99_68
	mov	w24, #16
	mov	x19, x26
	b	.LBB99_526
.LBB99_60:
	movi	v0.2d, #0000000000000000
	strh	wzr, [x23, #40]
	strb	wzr, [x23, #42]
	stp	xzr, xzr, [x29, #-136]
	stur	xzr, [x29, #-144]
	str	q0, [sp, #16656]
	str	q0, [sp, #16672]
	stp	q0, q0, [sp, #80]
	stp	xzr, xzr, [x29, #-40]
	stur	xzr, [x29, #-48]
	cbz	x26, .LBB99_174
	ldrb	w8, [x21]
	sub	w8, w8, #65
	cmp	w8, #55
	b.hi	.LBB99_174
	adrp	x9, .LJTI99_0
	add	x9, x9, :lo12:.LJTI99_0
	mov	x12, xzr
	adr	x10, .LBB99_63
	ldrh	w11, [x9, x8, lsl #1]
	add	x10, x10, x11, lsl #2
	mov	x19, xzr
	mov	x13, xzr
	mov	w14, wzr
	mov	x23, xzr
	mov	w15, wzr
	sub	x8, x26, #1
	mov	w25, #17
	br	x10
.LBB99_63:
	cmp	x8, #8
	b.lo	.LBB99_174
	ldur	x8, [x21, #1]
	mov	x12, xzr
	mov	x19, xzr
	mov	x13, xzr
	mov	w14, wzr
	mov	w15, wzr
	rev	x23, x8
	mov	w25, #7
	b	.LBB99_136
.LBB99_65:
	ldr	x8, [sp, #208]
	cbz	x8, .LBB99_67
	ldr	x0, [sp, #192]
	bl	rattle_dealloc
.LBB99_67:
	ldr	x8, [sp, #16616]
	cbnz	x8, .LBB99_12
	b	.LBB99_13
.LBB99_68:
	add	x0, x24, x28
	sub	x8, x0, x21
	cmp	x8, x26
	b.hs	.LBB99_73
	cmp	x26, #8
	b.lo	.LBB99_71
	add	x8, x28, x24
	sub	x8, x8, x21
	cmp	x8, #32
	b.hs	.LBB99_88
.LBB99_71:
	mov	x8, xzr
	b	.LBB99_530
.LBB99_72:
	ldr	x10, [sp, #128]
	ldr	w9, [x3, x9, lsl #2]
	add	x8, x8, #2
	add	x9, x10, x9
	b	.LBB99_83
.LBB99_73:
	mov	x1, x21
	mov	x2, x26
	bl	memmove
	b	.LBB99_532
.LBB99_74:
	cmp	w9, #2
	b.hs	.LBB99_80
	cmp	w12, #91
	mov	w9, #3
	b.le	.LBB99_92
	cmp	w12, #109
	b.le	.LBB99_184
	cmp	w12, #110
	b.eq	.LBB99_203
	cmp	w12, #116
	b.eq	.LBB99_206
	cmp	w12, #123
	b.eq	.LBB99_181
	b	.LBB99_208
.LBB99_80:
	mov	w8, #3
	cmp	w9, #3
	strb	w8, [sp, #184]
	b.eq	.LBB99_51
	b	.LBB99_269
.LBB99_81:
	ldr	x9, [sp, #104]
.LBB99_82:
	mov	w8, #1
.LBB99_83:
	ldr	x10, [sp, #88]
	str	x9, [sp, #160]
	cmp	x9, x10
	b.hs	.LBB99_257
	ldr	x10, [sp, #80]
	ldrb	w9, [x10, x9]
	cmp	w9, #44
	b.ne	.LBB99_257
	movi	v0.2d, #0000000000000000
	ldr	x9, [sp, #136]
	str	x8, [sp, #120]
	cmp	x8, x9
	str	q0, [sp, #16656]
	str	q0, [sp, #16672]
	b.ne	.LBB99_264
	ldp	x1, x2, [sp, #96]
	add	x0, sp, #4, lsl #12
	ldrh	w8, [sp, #152]
	ldrb	w9, [sp, #154]
	add	x0, x0, #272
	ldr	x4, [sp, #144]
	sub	x5, x29, #144
	strh	w8, [x27, #232]
	strb	w9, [x27, #234]
	bl	"json::index::refill"
	ldr	q0, [sp, #16656]
	ldr	q1, [sp, #16672]
	ldr	x8, [sp, #16664]
	str	xzr, [sp, #120]
	stp	q0, q1, [x19, #48]
	cbz	x8, .LBB99_263
.LBB99_87:
	ldr	x8, [sp, #112]
	ldr	x9, [sp, #16656]
	ldr	w8, [x8]
	b	.LBB99_265
.LBB99_88:
	cmp	x26, #32
	b.hs	.LBB99_95
	mov	x8, xzr
	b	.LBB99_99
.LBB99_90:
	cmp	x8, #2
	b.lo	.LBB99_174
	ldurh	w8, [x21, #1]
	mov	x19, xzr
	mov	x13, xzr
	mov	w14, wzr
	mov	x23, xzr
	mov	w15, wzr
	rev16	w12, w8
	mov	w25, #3
	b	.LBB99_136
.LBB99_92:
	cmp	w12, #57
	b.gt	.LBB99_179
	cmp	w12, #34
	b.eq	.LBB99_198
	cmp	w12, #44
	b.eq	.LBB99_268
	b	.LBB99_208
.LBB99_95:
	add	x11, x28, x24
	and	x9, x26, #0x18
	and	x8, x26, #0xffffffffffffffe0
	add	x10, x21, #16
	add	x11, x11, #16
	and	x12, x26, #0xffffffffffffffe0
.LBB99_96:
	ldp	q0, q1, [x10, #-16]
	subs	x12, x12, #32
	add	x10, x10, #32
	stp	q0, q1, [x11, #-16]
	add	x11, x11, #32
	b.ne	.LBB99_96
	cmp	x26, x8
	b.eq	.LBB99_532
	cbz	x9, .LBB99_530
.LBB99_99:
	mov	x10, x8
	and	x8, x26, #0xfffffffffffffff8
	add	x11, x28, x10
	sub	x9, x10, x8
	add	x10, x21, x10
	add	x11, x24, x11
.LBB99_100:
	ldr	d0, [x10], #8
	adds	x9, x9, #8
	str	d0, [x11], #8
	b.ne	.LBB99_100
	b	.LBB99_531
.LBB99_101:
	cmp	x8, #4
	b.lo	.LBB99_174
	ldur	w8, [x21, #1]
	mov	x12, xzr
	mov	x19, xzr
	mov	x13, xzr
	mov	x23, xzr
	mov	w15, wzr
	rev	w14, w8
	mov	w25, #8
	b	.LBB99_136
.LBB99_103:
	cmp	x8, #4
	b.lo	.LBB99_174
	ldur	w8, [x21, #1]
	mov	x12, xzr
	mov	x19, xzr
	mov	x13, xzr
	mov	x23, xzr
	mov	w15, wzr
	rev	w14, w8
	mov	w25, #6
	b	.LBB99_136
.LBB99_105:
	cmp	x8, #8
	b.lo	.LBB99_174
	ldur	x8, [x21, #1]
	mov	x12, xzr
	mov	x19, xzr
	mov	x13, xzr
	mov	w14, wzr
	mov	w15, wzr
	rev	x23, x8
	mov	w25, #14
	b	.LBB99_136
.LBB99_107:
	cbz	x8, .LBB99_174
	ldrb	w15, [x21, #1]
	mov	x12, xzr
	mov	x19, xzr
	mov	x13, xzr
	mov	w14, wzr
	mov	x23, xzr
	mov	w25, #2
	b	.LBB99_136
.LBB99_109:
	cmp	x8, #4
	b.lo	.LBB99_174
	ldur	w8, [x21, #1]
	mov	x12, xzr
	mov	x19, xzr
	mov	x13, xzr
	mov	x23, xzr
	mov	w15, wzr
	rev	w14, w8
	mov	w25, #5
	b	.LBB99_136
.LBB99_111:
	subs	x9, x26, #5
	b.lo	.LBB99_174
	ldur	w8, [x21, #1]
	rev	w25, w8
	cmp	x9, x25
	b.lo	.LBB99_174
	cbz	w8, .LBB99_240
	mov	x0, x25
	mov	w1, #1
	bl	rattle_alloc
	tbz	w0, #0, .LBB99_174
	stp	x1, xzr, [sp, #192]
	add	x0, sp, #192
	add	x1, x21, #5
	mov	x2, x25
	str	x25, [sp, #208]
	bl	"std_alloc::vec::Vec::extend_from_slice::<#f0d03d630576da86>"
	and	w8, w0, #0xff
	tbz	w8, #0, .LBB99_494
	ldr	x8, [sp, #208]
	cbz	x8, .LBB99_174
	ldr	x0, [sp, #192]
	bl	rattle_dealloc
	b	.LBB99_174
.LBB99_118:
	cmp	x8, #2
	b.lo	.LBB99_174
	ldurh	w8, [x21, #1]
	mov	x19, xzr
	mov	x13, xzr
	mov	w14, wzr
	mov	x23, xzr
	mov	w15, wzr
	rev16	w12, w8
	mov	w25, #4
	b	.LBB99_136
.LBB99_120:
	cbz	x8, .LBB99_174
	ldrb	w8, [x21, #1]
	mov	x12, xzr
	mov	x19, xzr
	mov	x13, xzr
	mov	w14, wzr
	mov	x23, xzr
	cmp	w8, #0
	mov	x25, xzr
	cset	w15, ne
	b	.LBB99_136
.LBB99_122:
	subs	x8, x26, #5
	stp	q0, q0, [sp, #192]
	b.lo	.LBB99_174
	ldur	w9, [x21, #1]
	rev	w2, w9
	cmp	x8, x2
	b.lo	.LBB99_174
	sub	x3, x26, #2
	add	x0, sp, #192
	add	x1, x21, #5
	bl	"amq_protocol_types::parsing::values::parse_array_body::<#021be0914fa2e150>"
	ldrb	w8, [sp, #192]
	cbnz	w8, .LBB99_174
	ldp	x19, x13, [sp, #208]
	mov	x12, xzr
	ldr	x23, [sp, #200]
	mov	w14, wzr
	mov	w15, wzr
	mov	w25, #13
	b	.LBB99_136
.LBB99_126:
	cmp	x26, #6
	b.lo	.LBB99_174
	ldur	w8, [x21, #2]
	ldrb	w14, [x21, #1]
	mov	x12, xzr
	mov	x19, xzr
	mov	x13, xzr
	mov	w15, wzr
	rev	w23, w8
	mov	w25, #10
	b	.LBB99_136
.LBB99_128:
	cmp	x8, #8
	b.lo	.LBB99_174
	ldur	x8, [x21, #1]
	mov	x12, xzr
	mov	x19, xzr
	mov	x13, xzr
	mov	w14, wzr
	mov	w15, wzr
	rev	x23, x8
	mov	w25, #9
	b	.LBB99_136
.LBB99_130:
	subs	x8, x26, #5
	stp	q0, q0, [sp, #192]
	b.lo	.LBB99_174
	ldur	w9, [x21, #1]
	rev	w2, w9
	cmp	x8, x2
	b.lo	.LBB99_174
	sub	x3, x26, #2
	add	x0, sp, #192
	add	x1, x21, #5
	bl	"amq_protocol_types::parsing::values::parse_table_body::<#021be0914fa2e150>"
	ldrb	w8, [sp, #192]
	cbnz	w8, .LBB99_174
	ldp	x19, x13, [sp, #208]
	mov	x12, xzr
	ldrb	w23, [sp, #200]
	mov	w14, wzr
	mov	w15, wzr
	mov	w25, #15
	b	.LBB99_136
.LBB99_134:
	cbz	x8, .LBB99_174
	ldrb	w15, [x21, #1]
	mov	x12, xzr
	mov	x19, xzr
	mov	x13, xzr
	mov	w14, wzr
	mov	x23, xzr
	mov	w25, #1
.LBB99_136:
	cbz	x22, .LBB99_138
	mov	x0, x21
	mov	x21, x12
	mov	x22, x13
	mov	x26, x14
	str	x23, [sp, #8]
	mov	x23, x19
	mov	w19, w15
	bl	rattle_dealloc
	mov	w15, w19
	mov	x19, x23
	ldr	x23, [sp, #8]
	mov	x14, x26
	mov	x13, x22
	mov	x12, x21
.LBB99_138:
	lsl	x8, x12, #16
	mov	w9, w15
	add	x1, sp, #4, lsl #12
	sub	x10, x29, #20
	sub	x0, x29, #72
	add	x1, x1, #272
	orr	x8, x8, x14, lsl #32
	add	x2, sp, #80
	str	x19, [sp, #16672]
	str	x13, [sp, #16680]
	orr	x8, x8, x9, lsl #8
	stp	xzr, xzr, [sp, #96]
	stp	x10, xzr, [sp, #80]
	orr	x8, x8, x25
	str	x23, [sp, #16664]
	str	x8, [sp, #16656]
	add	x8, sp, #4, lsl #12
	add	x8, x8, #272
	orr	x25, x8, #0x8
	bl	"amq_protocol_types::generation::values::gen_value::<#4ea8deeae94023ba>"
	sub	x9, x29, #112
	ldr	x23, [sp, #16]
	ldrb	w8, [x9, #40]
	cbz	w8, .LBB99_148
	ldrb	w9, [x9, #41]
	ldr	x8, [sp, #96]
	cmp	w9, #2
	b.ne	.LBB99_154
	cbz	x8, .LBB99_142
	ldr	x0, [sp, #80]
	bl	rattle_dealloc
.LBB99_142:
	ldrb	w8, [x27, #24]
	mov	w24, wzr
	cmp	w8, #10
	b.le	.LBB99_178
	cmp	w8, #13
	b.le	.LBB99_192
	cmp	w8, #15
	b.gt	.LBB99_214
	cmp	w8, #14
	b.eq	.LBB99_178
	ldrb	w8, [x27, #32]
	cmp	w8, #1
	b.ne	.LBB99_177
	ldr	x0, [sp, #16672]
	bl	"std_collections::btree::node::Node::destroy::<#6f4b2ed543d1e00a>"
	b	.LBB99_177
.LBB99_148:
	ldrb	w8, [x27, #24]
	ldp	x21, x26, [sp, #80]
	ldr	x22, [sp, #96]
	cmp	w8, #10
	b.le	.LBB99_58
	cmp	w8, #13
	b.le	.LBB99_189
	cmp	w8, #15
	b.gt	.LBB99_211
	cmp	w8, #14
	b.eq	.LBB99_58
	ldrb	w8, [x27, #32]
	cmp	w8, #1
	b.ne	.LBB99_58
	ldr	x0, [sp, #16672]
	bl	"std_collections::btree::node::Node::destroy::<#6f4b2ed543d1e00a>"
	b	.LBB99_58
.LBB99_154:
	cbz	x8, .LBB99_156
	ldr	x0, [sp, #80]
	bl	rattle_dealloc
.LBB99_156:
	ldrb	w8, [x27, #24]
	mov	w24, #1
	cmp	w8, #10
	b.le	.LBB99_178
	cmp	w8, #13
	b.le	.LBB99_195
	cmp	w8, #15
	b.gt	.LBB99_217
	cmp	w8, #14
	b.eq	.LBB99_178
	ldrb	w8, [x27, #32]
	cmp	w8, #1
	b.ne	.LBB99_178
	ldr	x0, [sp, #16672]
	bl	"std_collections::btree::node::Node::destroy::<#6f4b2ed543d1e00a>"
	b	.LBB99_178
.LBB99_162:
	subs	x9, x26, #5
	b.lo	.LBB99_174
	ldur	w8, [x21, #1]
	rev	w19, w8
	cmp	x9, x19
	b.lo	.LBB99_174
	cbz	w8, .LBB99_241
	mov	x0, x19
	mov	w1, #1
	bl	rattle_alloc
	tbz	w0, #0, .LBB99_174
	add	x8, x21, #5
	mov	x23, x1
	mov	x13, x19
	sub	x8, x1, x8
	cmp	x8, x19
	b.hs	.LBB99_496
	cmp	w13, #8
	b.lo	.LBB99_169
	sub	x8, x23, x21
	sub	x8, x8, #5
	cmp	x8, #32
	b.hs	.LBB99_515
.LBB99_169:
	mov	x8, xzr
.LBB99_170:
	add	x10, x8, x21
	sub	x9, x13, x8
	add	x8, x23, x8
	add	x10, x10, #5
.LBB99_171:
	ldrb	w11, [x10], #1
	subs	x9, x9, #1
	mov	w25, #16
	strb	w11, [x8], #1
	b.ne	.LBB99_171
	mov	x12, xzr
	mov	w14, wzr
	mov	w15, wzr
.LBB99_173:
	mov	x19, x13
	b	.LBB99_136
.LBB99_174:
	cbz	x22, .LBB99_177
	mov	x0, x21
.LBB99_176:
	bl	rattle_dealloc
.LBB99_177:
	mov	w24, wzr
.LBB99_178:
	ldr	x27, [sp, #24]
	mov	w28, wzr
	mov	x23, xzr
	b	.LBB99_475
.LBB99_179:
	cmp	w12, #58
	b.eq	.LBB99_268
	cmp	w12, #91
	b.ne	.LBB99_208
.LBB99_181:
	ldp	x3, x8, [sp, #112]
	movi	v0.2d, #0000000000000000
	ldr	x9, [sp, #136]
	add	x8, x8, #1
	cmp	x8, x9
	str	q0, [sp, #16656]
	str	q0, [sp, #16672]
	str	x8, [sp, #120]
	b.ne	.LBB99_258
	ldp	x1, x2, [sp, #96]
	add	x0, sp, #4, lsl #12
	ldrh	w8, [sp, #152]
	ldrb	w9, [sp, #154]
	add	x0, x0, #272
	ldr	x4, [sp, #144]
	sub	x5, x29, #144
	strh	w8, [x27, #232]
	strb	w9, [x27, #234]
	bl	"json::index::refill"
	ldr	q0, [sp, #16656]
	ldr	q1, [sp, #16672]
	ldr	x8, [sp, #16664]
	str	xzr, [sp, #120]
	stp	q0, q1, [x19, #48]
	cbz	x8, .LBB99_256
.LBB99_183:
	ldr	x8, [sp, #112]
	ldr	x9, [sp, #16656]
	ldr	w8, [x8]
	b	.LBB99_259
.LBB99_184:
	cmp	w12, #92
	b.eq	.LBB99_268
	cmp	w12, #102
	b.ne	.LBB99_208
	cmp	x8, #5
	b.lo	.LBB99_207
	ldur	w9, [x10, #1]
	mov	w11, #27745
	movk	w11, #25971, lsl #16
	cmp	w9, w11
	cset	w11, eq
	cmp	x8, #5
	b.eq	.LBB99_205
	ldrb	w8, [x10, #5]
	b	.LBB99_228
.LBB99_189:
	cmp	w8, #11
	b.eq	.LBB99_212
	cmp	w8, #12
	b.eq	.LBB99_212
	ldr	q0, [x25]
	ldr	x8, [x25, #16]
	sub	x0, x29, #112
	stur	q0, [x29, #-112]
	stur	x8, [x29, #-96]
	bl	"std_alloc::vec::Vec::drop::<#a80c6f5142a8b983>"
	b	.LBB99_58
.LBB99_192:
	cmp	w8, #11
	b.eq	.LBB99_215
	cmp	w8, #12
	b.eq	.LBB99_215
	ldr	q0, [x25]
	ldr	x8, [x25, #16]
	sub	x0, x29, #144
	stur	q0, [x29, #-144]
	stur	x8, [x29, #-128]
	bl	"std_alloc::vec::Vec::drop::<#a80c6f5142a8b983>"
	b	.LBB99_177
.LBB99_195:
	cmp	w8, #11
	b.eq	.LBB99_218
	cmp	w8, #12
	b.eq	.LBB99_218
	ldr	q0, [x25]
	ldr	x8, [x25, #16]
	sub	x0, x29, #48
	stur	q0, [x29, #-48]
	stur	x8, [x29, #-32]
	bl	"std_alloc::vec::Vec::drop::<#a80c6f5142a8b983>"
	b	.LBB99_178
.LBB99_198:
	add	x23, x11, #1
	sub	x8, x25, x23
	mov	x2, x23
	cmp	x8, #32
	b.lo	.LBB99_202
	mov	x2, x23
.LBB99_200:
	movi	v0.16b, #34
	movi	v1.16b, #92
	add	x9, x26, x2
	ldp	q2, q3, [x9]
	movi	v4.16b, #32
	adrp	x9, .LCPI99_1
	cmeq	v5.16b, v2.16b, v0.16b
	cmeq	v6.16b, v2.16b, v1.16b
	cmeq	v0.16b, v3.16b, v0.16b
	cmeq	v1.16b, v3.16b, v1.16b
	orr	v5.16b, v5.16b, v6.16b
	orr	v0.16b, v0.16b, v1.16b
	cmhi	v1.16b, v4.16b, v2.16b
	cmhi	v2.16b, v4.16b, v3.16b
	orr	v0.16b, v2.16b, v0.16b
	orr	v1.16b, v1.16b, v5.16b
	ldr	q2, [x9, :lo12:.LCPI99_1]
	and	v1.16b, v1.16b, v2.16b
	and	v0.16b, v0.16b, v2.16b
	addp	v0.16b, v1.16b, v0.16b
	addp	v0.16b, v0.16b, v0.16b
	addp	v0.16b, v0.16b, v0.16b
	fmov	w9, s0
	cbnz	w9, .LBB99_230
	sub	x8, x8, #32
	add	x2, x2, #32
	cmp	x8, #31
	b.hi	.LBB99_200
.LBB99_202:
	mov	x0, x26
	mov	x1, x25
	bl	"json::run::plain_end_16"
	b	.LBB99_231
.LBB99_203:
	cmp	x8, #4
	b.lo	.LBB99_207
	ldrb	w9, [x10, #3]
	ldrb	w11, [x10, #2]
	ldrb	w12, [x10, #1]
	cmp	w9, #108
	mov	w9, #108
	ccmp	w11, w9, #0, eq
	mov	w9, #117
	ccmp	w12, w9, #0, eq
	cset	w11, eq
	cmp	x8, #4
	b.ne	.LBB99_227
.LBB99_205:
	mov	w8, #32
	b	.LBB99_228
.LBB99_206:
	cmp	x8, #4
	b.hs	.LBB99_226
.LBB99_207:
	mov	w11, wzr
	mov	w8, #32
	b	.LBB99_228
.LBB99_208:
	cmp	w12, #45
	adrp	x23, .LCPI99_1
	cinc	x19, x11, eq
	cset	w10, eq
	subs	x9, x25, x19
	b.ls	.LBB99_220
	ldrb	w11, [x26, x19]
	cmp	w11, #48
	b.ne	.LBB99_220
	add	x0, x19, #1
	b	.LBB99_245
.LBB99_211:
	cmp	w8, #16
	b.ne	.LBB99_58
.LBB99_212:
	ldr	x8, [sp, #16680]
	cbz	x8, .LBB99_58
	ldr	x0, [sp, #16664]
	bl	rattle_dealloc
	b	.LBB99_58
.LBB99_214:
	cmp	w8, #16
	b.ne	.LBB99_178
.LBB99_215:
	ldr	x8, [sp, #16680]
	cbz	x8, .LBB99_177
	ldr	x0, [sp, #16664]
	b	.LBB99_176
.LBB99_217:
	cmp	w8, #16
	b.ne	.LBB99_178
.LBB99_218:
	ldr	x8, [sp, #16680]
	cbz	x8, .LBB99_178
	ldr	x0, [sp, #16664]
	bl	rattle_dealloc
	b	.LBB99_178
.LBB99_220:
	cmp	x9, #16
	mov	x2, x19
	b.lo	.LBB99_225
	neg	x9, x19
	sub	x8, x8, x10
	add	x10, x26, x19
.LBB99_222:
	movi	v0.16b, #198
	ldr	q1, [x10], #16
	movi	v2.16b, #246
	add	v0.16b, v1.16b, v0.16b
	ldr	q1, [x23, :lo12:.LCPI99_1]
	cmhi	v0.16b, v2.16b, v0.16b
	and	v0.16b, v0.16b, v1.16b
	addp	v0.16b, v0.16b, v0.16b
	addp	v0.16b, v0.16b, v0.16b
	addp	v0.16b, v0.16b, v0.16b
	umov	w11, v0.h[0]
	cbnz	w11, .LBB99_242
	sub	x8, x8, #16
	sub	x9, x9, #16
	cmp	x8, #15
	b.hi	.LBB99_222
	neg	x2, x9
.LBB99_225:
	mov	x0, x26
	mov	x1, x25
	bl	"json::run::digits_end_slowly"
	b	.LBB99_243
.LBB99_226:
	ldrb	w9, [x10, #3]
	ldrb	w11, [x10, #2]
	ldrb	w12, [x10, #1]
	cmp	w9, #101
	mov	w9, #117
	ccmp	w11, w9, #0, eq
	mov	w9, #114
	ccmp	w12, w9, #0, eq
	cset	w11, eq
	cmp	x8, #4
	b.eq	.LBB99_205
.LBB99_227:
	ldrb	w8, [x10, #4]
.LBB99_228:
	cmp	w8, #32
	sub	w9, w8, #9
	and	w10, w8, #0xffffffdf
	ccmp	w8, #13, #4, ne
	mov	w12, #93
	ccmp	w9, #2, #0, ne
	cset	w9, lo
	cmp	w10, #91
	ccmp	w10, w12, #4, ne
	mov	w10, #58
	ccmp	w8, w10, #4, ne
	mov	w10, #44
	ccmp	w8, w10, #4, ne
	csinc	w8, w9, wzr, ne
	mov	w9, #3
	cbz	w11, .LBB99_268
	tbnz	w8, #0, .LBB99_22
	b	.LBB99_268
.LBB99_230:
	rbit	w8, w9
	clz	w8, w8
	add	x0, x8, x2
.LBB99_231:
	cmp	x0, x25
	b.hs	.LBB99_235
	ldrb	w8, [x26, x0]
	cmp	w8, #34
	b.ne	.LBB99_235
	ldp	x3, x8, [sp, #112]
	movi	v0.2d, #0000000000000000
	ldr	x9, [sp, #136]
	add	x8, x8, #1
	cmp	x8, x9
	str	q0, [sp, #16656]
	str	q0, [sp, #16672]
	str	x8, [sp, #120]
	b.eq	.LBB99_237
.LBB99_234:
	ldr	x9, [sp, #128]
	ldr	w10, [x3, x8, lsl #2]
	add	x9, x9, x10
	ldr	x10, [sp, #88]
	str	x9, [sp, #160]
	cmp	x9, x10
	b.hs	.LBB99_257
	b	.LBB99_252
.LBB99_235:
	ldp	x24, x9, [sp, #168]
	sub	x8, x29, #20
	mov	x0, x26
	mov	x1, x25
	mov	x2, x23
	stp	x8, xzr, [sp, #168]
	mov	x3, x24
	mov	x4, x9
	mov	x23, x9
	bl	"json::unescape::unescape"
	and	w8, w0, #0xff
	cmp	w8, #1
	b.ne	.LBB99_239
	ldp	x3, x9, [sp, #112]
	movi	v0.2d, #0000000000000000
	sub	x8, x23, x1
	ldr	x11, [sp, #136]
	add	x10, x24, x1
	stp	x10, x8, [sp, #168]
	add	x8, x9, #1
	cmp	x8, x11
	str	q0, [sp, #16656]
	str	q0, [sp, #16672]
	str	x8, [sp, #120]
	b.ne	.LBB99_234
.LBB99_237:
	ldp	x1, x2, [sp, #96]
	add	x0, sp, #4, lsl #12
	ldrh	w8, [sp, #152]
	ldrb	w9, [sp, #154]
	add	x0, x0, #272
	ldr	x4, [sp, #144]
	sub	x5, x29, #144
	strh	w8, [x27, #232]
	strb	w9, [x27, #234]
	bl	"json::index::refill"
	ldr	q0, [sp, #16656]
	ldr	q1, [sp, #16672]
	add	x9, sp, #80
	ldr	x8, [sp, #16664]
	ldr	x3, [sp, #112]
	str	xzr, [sp, #120]
	stp	q0, q1, [x9, #48]
	cbz	x8, .LBB99_251
	ldr	x9, [sp, #16656]
	ldr	w10, [x3]
	mov	x8, xzr
	add	x9, x9, x10
	ldr	x10, [sp, #88]
	str	x9, [sp, #160]
	cmp	x9, x10
	b.hs	.LBB99_257
	b	.LBB99_252
.LBB99_239:
	mov	w9, #3
	stp	x24, x23, [sp, #168]
	b	.LBB99_268
.LBB99_240:
	mov	x13, xzr
	mov	x19, xzr
	sub	x23, x29, #20
	b	.LBB99_495
.LBB99_241:
	mov	x12, xzr
	mov	x19, xzr
	mov	x13, xzr
	mov	w14, wzr
	mov	w15, wzr
	sub	x23, x29, #20
	mov	w25, #16
	b	.LBB99_136
.LBB99_242:
	umov	w8, v0.h[0]
	rbit	w8, w8
	clz	w8, w8
	sub	x0, x8, x9
.LBB99_243:
	cmp	x0, x19
	b.ne	.LBB99_245
.LBB99_244:
	mov	w9, #3
	b	.LBB99_268
.LBB99_245:
	cmp	x0, x25
	b.hs	.LBB99_499
	ldrb	w8, [x26, x0]
	cmp	w8, #46
	b.ne	.LBB99_499
	add	x19, x0, #1
	sub	x8, x25, x19
	mov	x2, x19
	cmp	x8, #16
	b.lo	.LBB99_250
.LBB99_248:
	movi	v0.16b, #198
	ldr	q1, [x26, x2]
	movi	v2.16b, #246
	add	v0.16b, v1.16b, v0.16b
	ldr	q1, [x23, :lo12:.LCPI99_1]
	cmhi	v0.16b, v2.16b, v0.16b
	and	v0.16b, v0.16b, v1.16b
	addp	v0.16b, v0.16b, v0.16b
	addp	v0.16b, v0.16b, v0.16b
	addp	v0.16b, v0.16b, v0.16b
	umov	w9, v0.h[0]
	cbnz	w9, .LBB99_497
	sub	x8, x8, #16
	add	x2, x2, #16
	cmp	x8, #15
	b.hi	.LBB99_248
.LBB99_250:
	mov	x0, x26
	mov	x1, x25
	bl	"json::run::digits_end_slowly"
	b	.LBB99_498
.LBB99_251:
	ldr	x9, [sp, #104]
	ldr	x10, [sp, #88]
	str	x9, [sp, #160]
	cmp	x9, x10
	b.hs	.LBB99_257
.LBB99_252:
	ldr	x10, [sp, #80]
	ldrb	w9, [x10, x9]
	cmp	w9, #44
	b.eq	.LBB99_261
	cmp	w9, #58
	b.ne	.LBB99_257
	movi	v0.2d, #0000000000000000
	ldr	x9, [sp, #136]
	add	x8, x8, #1
	str	x8, [sp, #120]
	cmp	x8, x9
	str	q0, [sp, #16656]
	str	q0, [sp, #16672]
	b.ne	.LBB99_258
	ldp	x1, x2, [sp, #96]
	add	x0, sp, #4, lsl #12
	ldrh	w8, [sp, #152]
	ldrb	w9, [sp, #154]
	add	x0, x0, #272
	ldr	x4, [sp, #144]
	sub	x5, x29, #144
	strh	w8, [x27, #232]
	strb	w9, [x27, #234]
	bl	"json::index::refill"
	ldr	q0, [sp, #16656]
	ldr	q1, [sp, #16672]
	add	x9, sp, #80
	ldr	x8, [sp, #16664]
	str	xzr, [sp, #120]
	stp	q0, q1, [x9, #48]
	cbnz	x8, .LBB99_183
.LBB99_256:
	ldr	x8, [sp, #104]
	b	.LBB99_260
.LBB99_257:
	mov	w9, #2
	b	.LBB99_268
.LBB99_258:
	ldr	x9, [sp, #128]
	ldr	w8, [x3, x8, lsl #2]
.LBB99_259:
	add	x8, x9, x8
.LBB99_260:
	mov	w9, #1
	b	.LBB99_267
.LBB99_261:
	movi	v0.2d, #0000000000000000
	ldr	x9, [sp, #136]
	add	x8, x8, #1
	str	x8, [sp, #120]
	cmp	x8, x9
	str	q0, [sp, #16656]
	str	q0, [sp, #16672]
	b.ne	.LBB99_264
	ldp	x1, x2, [sp, #96]
	add	x0, sp, #4, lsl #12
	ldrh	w8, [sp, #152]
	ldrb	w9, [sp, #154]
	add	x0, x0, #272
	ldr	x4, [sp, #144]
	sub	x5, x29, #144
	strh	w8, [x27, #232]
	strb	w9, [x27, #234]
	bl	"json::index::refill"
	ldr	q0, [sp, #16656]
	ldr	q1, [sp, #16672]
	add	x9, sp, #80
	ldr	x8, [sp, #16664]
	str	xzr, [sp, #120]
	stp	q0, q1, [x9, #48]
	cbnz	x8, .LBB99_87
.LBB99_263:
	ldr	x8, [sp, #104]
	b	.LBB99_266
.LBB99_264:
	ldr	x9, [sp, #128]
	ldr	w8, [x3, x8, lsl #2]
.LBB99_265:
	add	x8, x9, x8
.LBB99_266:
	mov	w9, wzr
.LBB99_267:
	str	x8, [sp, #160]
.LBB99_268:
	strb	w9, [sp, #184]
.LBB99_269:
	cmp	x21, #3
	str	xzr, [sp, #16656]
	str	xzr, [sp, #16640]
	str	xzr, [sp, #16632]
	stur	wzr, [x27, #15]
	b.hs	.LBB99_272
	movi	v0.2d, #0000000000000000
	mov	w8, #2
	strb	wzr, [x27, #27]
	strb	w8, [x27, #25]
	str	xzr, [sp, #16808]
	stp	q0, q0, [x27, #32]
	stp	q0, q0, [x27, #64]
	stp	q0, q0, [x27, #96]
	stp	q0, q0, [x27, #128]
	stur	q0, [x27, #160]
	cbz	x21, .LBB99_466
	add	x8, sp, #4, lsl #12
	add	x8, x8, #272
	add	x4, x8, #8
	b	.LBB99_277
.LBB99_272:
	ldrb	w8, [x22]
	cmp	w8, #239
	b.ne	.LBB99_276
	ldrb	w8, [x22, #1]
	cmp	w8, #187
	b.ne	.LBB99_276
	ldrb	w8, [x22, #2]
	cmp	w8, #191
	b.ne	.LBB99_276
	mov	x23, xzr
	mov	w28, #10
	b	.LBB99_468
.LBB99_276:
	movi	v0.2d, #0000000000000000
	mov	w8, #2
	strb	wzr, [x27, #27]
	strb	w8, [x27, #25]
	add	x8, sp, #4, lsl #12
	add	x8, x8, #272
	str	xzr, [sp, #16808]
	add	x4, x8, #8
	stp	q0, q0, [x27, #32]
	stp	q0, q0, [x27, #64]
	stp	q0, q0, [x27, #96]
	stp	q0, q0, [x27, #128]
	stur	q0, [x27, #160]
.LBB99_277:
	sub	x8, x29, #72
	add	x10, sp, #4, lsl #12
	sub	x16, x29, #112
	orr	x25, x8, #0x3
	sub	x8, x29, #168
	add	x10, x10, #272
	orr	x1, x8, #0x3
	add	x8, sp, #4, lsl #12
	mov	w11, wzr
	add	x8, x8, #248
	mov	w13, wzr
	mov	w12, wzr
	orr	x26, x8, #0x3
	sub	x8, x29, #192
	mov	w9, wzr
	orr	x24, x8, #0x3
	add	x8, x10, #24
	mov	x23, xzr
	sub	x0, x29, #144
	orr	x19, x16, #0x3
	str	x8, [sp, #8]
	mov	w8, #2
	b	.LBB99_283
.LBB99_278:
	mov	w9, wzr
	mov	w10, wzr
	mov	w12, wzr
	mov	w13, wzr
	mov	w11, wzr
	mov	w28, #2
	mov	w8, #1
.LBB99_279:
	ldr	q0, [x25]
.LBB99_280:
	stur	q0, [x0, #16]
.LBB99_281:
	ldur	q0, [x0, #16]
	tst	w8, #0xff
	str	q0, [x26]
	b.ne	.LBB99_468
.LBB99_282:
	ldr	q0, [x26]
	add	x23, x23, #1
	mov	w8, w10
	cmp	x21, x23
	strb	w9, [x27, #24]
	strb	w10, [x27, #25]
	strb	w12, [x27, #26]
	strb	w13, [x27, #27]
	strb	w11, [x27, #28]
	str	q0, [x4]
	b.eq	.LBB99_465
.LBB99_283:
	movi	v0.2d, #0000000000000000
	and	w10, w9, #0xff
	ldrb	w2, [x22, x23]
	cmp	w10, #4
	stp	xzr, xzr, [x29, #-168]
	stur	wzr, [x27, #223]
	stp	xzr, xzr, [x29, #-192]
	stp	q0, q0, [x29, #-144]
	stur	wzr, [x27, #199]
	b.gt	.LBB99_289
	b.hs	.LBB99_355
.LBB99_285:
	cmp	w2, #13
	b.eq	.LBB99_288
	cmp	w2, #32
	b.eq	.LBB99_288
	sub	w10, w2, #9
	and	w10, w10, #0xff
	cmp	w10, #1
	b.hi	.LBB99_304
.LBB99_288:
	ldr	q0, [x4]
	b	.LBB99_424
.LBB99_289:
	cmp	w10, #6
	b.gt	.LBB99_295
	cmp	w10, #5
	b.ne	.LBB99_309
.LBB99_291:
	ldr	x14, [sp, #16672]
	cbz	x14, .LBB99_327
	ldr	x9, [sp, #16664]
	subs	x14, x14, #1
	b.ne	.LBB99_328
	ldrb	w8, [x9]
	cmp	w8, w2
	b.ne	.LBB99_330
	mov	w8, wzr
	mov	w28, wzr
	mov	x14, xzr
	mov	x15, xzr
	mov	w9, #4
	b	.LBB99_332
.LBB99_295:
	cmp	w10, #8
	b.eq	.LBB99_285
.LBB99_296:
	and	w9, w12, #0xff
	cmp	w9, #1
	b.le	.LBB99_345
	sub	w10, w9, #2
	cmp	w10, #4
	b.hs	.LBB99_334
	sub	w9, w2, #48
	cmp	w9, #10
	b.lo	.LBB99_300
	and	w9, w2, #0xffffffdf
	sub	w9, w9, #65
	and	w9, w9, #0xff
	cmp	w9, #5
	b.hi	.LBB99_488
.LBB99_300:
	and	w9, w12, #0xff
	cmp	w9, #3
	b.gt	.LBB99_349
	cmp	w9, #2
	b.ne	.LBB99_380
	sub	w9, w2, #68
	mov	w10, #223
	mov	w12, #3
	ands	w9, w9, w10
	and	w10, w13, #0x1
	cset	w11, eq
	cbz	w9, .LBB99_422
	tbz	w13, #0, .LBB99_422
	b	.LBB99_489
.LBB99_304:
	and	w9, w9, #0xff
	cmp	w9, #3
	b.le	.LBB99_318
	cmp	w9, #5
	b.le	.LBB99_354
	cmp	w9, #6
	b.eq	.LBB99_309
	cmp	w9, #8
	b.ne	.LBB99_296
	mov	w11, wzr
	mov	w13, wzr
	mov	w12, wzr
	mov	w8, wzr
	stp	xzr, xzr, [x0, #16]
	b	.LBB99_425
.LBB99_309:
	and	w8, w8, #0xff
	cmp	w8, #3
	b.gt	.LBB99_314
	cmp	w8, #1
	b.gt	.LBB99_337
	cbnz	w8, .LBB99_367
	subs	w8, w2, #48
	b.ne	.LBB99_392
	mov	w10, #1
	b	.LBB99_394
.LBB99_314:
	cmp	w8, #5
	b.gt	.LBB99_343
	cmp	w8, #4
	b.ne	.LBB99_370
	orr	w8, w2, #0x20
	cmp	w8, #101
	b.ne	.LBB99_398
	mov	w10, #5
	b	.LBB99_394
.LBB99_318:
	cmp	w9, #1
	b.gt	.LBB99_351
	cbnz	w9, .LBB99_384
	cmp	w2, #92
	b.le	.LBB99_409
	cmp	w2, #109
	b.le	.LBB99_433
	cmp	w2, #110
	b.eq	.LBB99_443
	cmp	w2, #116
	b.eq	.LBB99_447
	cmp	w2, #123
	b.ne	.LBB99_448
	ldr	x11, [sp, #16808]
	cmp	x11, #127
	b.eq	.LBB99_432
	ldr	x12, [sp, #8]
	mov	x14, xzr
	mov	x15, xzr
	mov	w10, wzr
	mov	w28, wzr
	mov	w8, wzr
	mov	w9, #1
	strb	w9, [x12, x11]
	b	.LBB99_460
.LBB99_327:
	mov	w9, wzr
	b	.LBB99_331
.LBB99_328:
	ldrb	w8, [x9]
	cmp	w8, w2
	b.ne	.LBB99_330
	mov	w8, wzr
	mov	w28, wzr
	add	x15, x9, #1
	mov	w9, #5
	b	.LBB99_332
.LBB99_330:
	mov	w9, wzr
	mov	x14, xzr
.LBB99_331:
	mov	x15, xzr
	mov	w28, #2
	mov	w8, #1
.LBB99_332:
	mov	w11, wzr
	mov	w13, wzr
	mov	w12, wzr
	mov	w10, wzr
.LBB99_333:
	stp	x15, x14, [x29, #-128]
	b	.LBB99_281
.LBB99_334:
	cmp	w9, #7
	b.ne	.LBB99_365
	cmp	w2, #117
	b.ne	.LBB99_489
	mov	w11, wzr
	mov	w12, #2
	mov	w10, #1
	b	.LBB99_422
.LBB99_337:
	cmp	w8, #2
	b.ne	.LBB99_374
	cmp	w2, #46
	b.eq	.LBB99_393
	cmp	w2, #69
	mov	w10, #5
	b.eq	.LBB99_394
	cmp	w2, #101
	b.eq	.LBB99_394
	sub	w8, w2, #48
	cmp	w8, #10
	b.hs	.LBB99_399
	mov	w10, #2
	b	.LBB99_394
.LBB99_343:
	cmp	w8, #6
	b.eq	.LBB99_372
	sub	w8, w2, #48
	cmp	w8, #10
	b.lo	.LBB99_373
	b	.LBB99_399
.LBB99_345:
	cbnz	w9, .LBB99_376
	cmp	w2, #34
	b.eq	.LBB99_406
	cmp	w2, #92
	b.ne	.LBB99_407
	mov	w11, wzr
	mov	w10, wzr
	mov	w12, #1
	b	.LBB99_422
.LBB99_349:
	cmp	w9, #4
	b.ne	.LBB99_383
	mov	w11, wzr
	and	w10, w13, #0x1
	mov	w12, #5
	b	.LBB99_422
.LBB99_351:
	cmp	w9, #2
	str	x1, [sp, #16]
	b.ne	.LBB99_387
	cmp	w2, #58
	b.ne	.LBB99_491
	ldr	x1, [sp, #16]
	mov	w11, wzr
	mov	w13, wzr
	mov	w12, wzr
	mov	w9, wzr
	mov	w8, #2
	sub	x16, x29, #112
	stp	xzr, xzr, [x0, #16]
	b	.LBB99_425
.LBB99_354:
	cmp	w9, #4
	b.ne	.LBB99_291
.LBB99_355:
	sub	x8, x29, #112
	cmp	w2, #43
	stp	xzr, xzr, [x29, #-72]
	stur	wzr, [x8, #55]
	stp	q0, q0, [x29, #-112]
	b.eq	.LBB99_278
	cmp	w2, #45
	b.hs	.LBB99_361
.LBB99_357:
	cmp	w2, #13
	b.eq	.LBB99_360
	cmp	w2, #32
	b.eq	.LBB99_360
	sub	w8, w2, #9
	and	w8, w8, #0xff
	cmp	w8, #1
	b.hi	.LBB99_363
.LBB99_360:
	mov	w11, wzr
	mov	w13, wzr
	mov	w12, wzr
	mov	w10, wzr
	mov	w28, wzr
	mov	w8, wzr
	stp	xzr, xzr, [x16, #16]
	mov	w9, #3
	b	.LBB99_364
.LBB99_361:
	cmp	w2, #47
	b.lo	.LBB99_278
	b.ne	.LBB99_388
.LBB99_363:
	str	x1, [sp, #16]
	add	x1, sp, #4, lsl #12
	sub	x0, x29, #112
	add	x1, x1, #272
	mov	x28, x4
	bl	"amqp_json::reading::syntax::Scan::after_value"
	sub	x11, x29, #112
	mov	x4, x28
	ldr	x1, [sp, #16]
	ldrb	w8, [x11]
	ldrb	w28, [x11, #1]
	ldrb	w9, [x11, #8]
	ldrb	w10, [x11, #9]
	ldrb	w12, [x11, #10]
	sub	x0, x29, #144
	ldrb	w13, [x11, #11]
	ldrb	w11, [x11, #12]
	sub	x16, x29, #112
.LBB99_364:
	ldur	q0, [x16, #16]
	str	q0, [x25]
	b	.LBB99_279
.LBB99_365:
	cmp	w2, #92
	b.ne	.LBB99_489
	mov	w11, wzr
	mov	w10, wzr
	mov	w12, #7
	b	.LBB99_422
.LBB99_367:
	cmp	w2, #46
	b.eq	.LBB99_393
	cmp	w2, #69
	mov	w10, #5
	b.eq	.LBB99_394
	cmp	w2, #101
	b.ne	.LBB99_399
	b	.LBB99_394
.LBB99_370:
	cmp	w2, #43
	mov	w10, #6
	b.eq	.LBB99_394
	cmp	w2, #45
	b.eq	.LBB99_394
.LBB99_372:
	sub	w8, w2, #48
	cmp	w8, #10
	b.hs	.LBB99_490
.LBB99_373:
	mov	w10, #7
	b	.LBB99_394
.LBB99_374:
	sub	w8, w2, #48
	cmp	w8, #10
	b.hs	.LBB99_490
.LBB99_375:
	mov	w10, #4
	b	.LBB99_394
.LBB99_376:
	sub	w9, w2, #98
	cmp	w9, #19
	b.hi	.LBB99_396
	mov	w10, #1
	mov	w11, #4113
	lsl	w10, w10, w9
	movk	w11, #5, lsl #16
	tst	w10, w11
	b.ne	.LBB99_408
	cmp	w9, #19
	b.ne	.LBB99_396
	mov	w11, wzr
	mov	w10, wzr
	mov	w12, #2
	b	.LBB99_422
.LBB99_380:
	cmp	w2, #56
	cset	w9, lo
	orn	w9, w9, w11
	tbnz	w9, #0, .LBB99_419
	cmp	w2, #58
	b.hs	.LBB99_418
.LBB99_382:
	mov	w10, #1
	b	.LBB99_420
.LBB99_383:
	tst	w13, #0x1
	mov	w9, #6
	mov	w11, wzr
	mov	w10, wzr
	csel	w12, w9, wzr, ne
	b	.LBB99_422
.LBB99_384:
	sub	x9, x29, #112
	cmp	w2, #125
	stp	xzr, xzr, [x29, #-112]
	stur	wzr, [x9, #15]
	stp	xzr, xzr, [x29, #-72]
	stur	wzr, [x9, #55]
	b.eq	.LBB99_426
	cmp	w2, #34
	b.ne	.LBB99_428
	mov	w8, wzr
	mov	w28, wzr
	stp	xzr, xzr, [x19]
	mov	w10, #1
	mov	w9, #7
	b	.LBB99_440
.LBB99_387:
	add	x1, sp, #4, lsl #12
	sub	x0, x29, #144
	mov	x28, x4
	add	x1, x1, #272
	bl	"amqp_json::reading::syntax::Scan::after_value"
	mov	x4, x28
	ldrb	w8, [x27, #232]
	ldrb	w28, [x27, #233]
	ldrb	w9, [x27, #240]
	ldrb	w10, [x27, #241]
	sub	x0, x29, #144
	ldrb	w12, [x27, #242]
	ldrb	w13, [x27, #243]
	sub	x16, x29, #112
	ldrb	w11, [x27, #244]
	ldr	x1, [sp, #16]
	b	.LBB99_281
.LBB99_388:
	cmp	w2, #58
	b.lo	.LBB99_278
	cmp	w2, #65
	b.lo	.LBB99_357
	mov	w9, wzr
	cmp	w2, #91
	mov	w28, #2
	mov	w8, #1
	b.lo	.LBB99_461
	sub	w10, w2, #97
	mov	w12, w9
	mov	w13, w9
	and	w10, w10, #0xff
	mov	w11, w9
	cmp	w10, #26
	mov	w10, w9
	b.hs	.LBB99_357
	b	.LBB99_279
.LBB99_392:
	cmp	w8, #10
	mov	w10, #2
	b.lo	.LBB99_394
	b	.LBB99_492
.LBB99_393:
	mov	w10, #3
.LBB99_394:
	mov	w8, wzr
	mov	w28, wzr
	mov	w12, wzr
	mov	w13, wzr
	mov	w11, wzr
	stp	xzr, xzr, [x1]
	mov	w9, #6
.LBB99_395:
	ldr	q0, [x1]
	b	.LBB99_280
.LBB99_396:
	sub	w9, w2, #34
	mov	w10, #4
	cmp	w9, #58
	b.hi	.LBB99_492
	mov	w11, #1
	lsl	x9, x11, x9
	mov	x11, #8193
	movk	x11, #1024, lsl #48
	tst	x9, x11
	b.ne	.LBB99_408
	b	.LBB99_492
.LBB99_398:
	sub	w8, w2, #48
	cmp	w8, #10
	b.lo	.LBB99_375
.LBB99_399:
	sub	x8, x29, #112
	cmp	w2, #43
	stp	xzr, xzr, [x29, #-72]
	stur	wzr, [x8, #55]
	stp	q0, q0, [x29, #-112]
	b.ne	.LBB99_401
.LBB99_400:
	mov	w9, wzr
	mov	w10, wzr
	mov	w12, wzr
	mov	w13, wzr
	mov	w11, wzr
	mov	w28, #2
	mov	w8, #1
	b	.LBB99_417
.LBB99_401:
	cmp	w2, #45
	b.hs	.LBB99_413
.LBB99_402:
	cmp	w2, #13
	b.eq	.LBB99_405
	cmp	w2, #32
	b.eq	.LBB99_405
	sub	w8, w2, #9
	and	w8, w8, #0xff
	cmp	w8, #1
	b.hi	.LBB99_415
.LBB99_405:
	mov	w11, wzr
	mov	w13, wzr
	mov	w12, wzr
	mov	w10, wzr
	mov	w28, wzr
	mov	w8, wzr
	stp	xzr, xzr, [x16, #16]
	mov	w9, #3
	b	.LBB99_416
.LBB99_406:
	tst	w8, #0x1
	mov	w8, #2
	mov	w12, wzr
	mov	w10, wzr
	mov	w11, wzr
	cinc	w9, w8, eq
	mov	w8, wzr
	stp	xzr, xzr, [x24]
	b	.LBB99_423
.LBB99_407:
	cmp	w2, #32
	b.lo	.LBB99_493
.LBB99_408:
	mov	w11, wzr
	mov	w10, wzr
	mov	w12, wzr
	b	.LBB99_422
.LBB99_409:
	cmp	w2, #47
	b.gt	.LBB99_429
	cmp	w2, #34
	b.eq	.LBB99_441
	cmp	w2, #45
	b.ne	.LBB99_448
	mov	x14, xzr
	mov	x15, xzr
	mov	w10, wzr
	mov	w28, wzr
	mov	w8, wzr
	mov	w9, #6
	b	.LBB99_463
.LBB99_413:
	cmp	w2, #47
	b.lo	.LBB99_400
	b.ne	.LBB99_450
.LBB99_415:
	str	x1, [sp, #16]
	add	x1, sp, #4, lsl #12
	sub	x0, x29, #112
	add	x1, x1, #272
	mov	x28, x4
	bl	"amqp_json::reading::syntax::Scan::after_value"
	sub	x11, x29, #112
	mov	x4, x28
	ldr	x1, [sp, #16]
	ldrb	w8, [x11]
	ldrb	w28, [x11, #1]
	ldrb	w9, [x11, #8]
	ldrb	w10, [x11, #9]
	ldrb	w12, [x11, #10]
	sub	x0, x29, #144
	ldrb	w13, [x11, #11]
	ldrb	w11, [x11, #12]
	sub	x16, x29, #112
.LBB99_416:
	ldur	q0, [x16, #16]
	str	q0, [x25]
.LBB99_417:
	ldr	q0, [x25]
	str	q0, [x1]
	b	.LBB99_395
.LBB99_418:
	cmp	w2, #65
	b.hs	.LBB99_436
.LBB99_419:
	mov	w10, wzr
.LBB99_420:
	tbnz	w13, #0, .LBB99_489
.LBB99_421:
	mov	w11, wzr
	mov	w12, #4
.LBB99_422:
	stp	xzr, xzr, [x24]
	and	w8, w8, #0x1
	mov	w9, #7
.LBB99_423:
	ldr	q0, [x24]
	mov	w13, w10
.LBB99_424:
	stur	q0, [x0, #16]
.LBB99_425:
	ldur	q0, [x0, #16]
	mov	w10, w8
	str	q0, [x26]
	b	.LBB99_282
.LBB99_426:
	tst	w8, #0xff
	b.ne	.LBB99_438
	ldr	x9, [sp, #16808]
	mov	w8, wzr
	mov	w28, wzr
	stp	xzr, xzr, [x25]
	cmp	x9, #0
	cset	w10, ne
	sub	x9, x9, x10
	str	x9, [sp, #16808]
	mov	w9, #3
	b	.LBB99_439
.LBB99_428:
	mov	w9, wzr
	mov	w10, wzr
	mov	w28, #2
	mov	w8, #1
	b	.LBB99_440
.LBB99_429:
	cmp	w2, #48
	b.eq	.LBB99_442
	cmp	w2, #91
	b.ne	.LBB99_448
	ldr	x11, [sp, #16808]
	cmp	x11, #127
	b.ne	.LBB99_459
.LBB99_432:
	mov	x14, xzr
	mov	x15, xzr
	mov	w10, wzr
	mov	w28, wzr
	mov	w8, wzr
	mov	w9, #8
	b	.LBB99_463
.LBB99_433:
	cmp	w2, #93
	b.eq	.LBB99_444
	cmp	w2, #102
	b.ne	.LBB99_448
	mov	w10, wzr
	mov	w28, wzr
	mov	w8, wzr
	mov	w9, #5
	adrp	x15, .Lstatic.27
	add	x15, x15, :lo12:.Lstatic.27
	mov	w14, #4
	b	.LBB99_463
.LBB99_436:
	cmp	w2, #71
	b.hs	.LBB99_454
	cmp	w2, #67
	b.lo	.LBB99_382
	b	.LBB99_456
.LBB99_438:
	mov	w9, wzr
	mov	w28, #8
	mov	w8, #1
.LBB99_439:
	ldr	q0, [x25]
	mov	w10, wzr
	str	q0, [x19]
.LBB99_440:
	ldr	q0, [x19]
	mov	w11, wzr
	mov	w13, wzr
	mov	w12, wzr
	b	.LBB99_280
.LBB99_441:
	mov	x14, xzr
	mov	x15, xzr
	mov	w10, wzr
	mov	w28, wzr
	mov	w8, wzr
	mov	w9, #7
	b	.LBB99_463
.LBB99_442:
	mov	x14, xzr
	mov	x15, xzr
	mov	w28, wzr
	mov	w8, wzr
	mov	w9, #6
	mov	w10, #1
	b	.LBB99_463
.LBB99_443:
	mov	w10, wzr
	mov	w28, wzr
	mov	w8, wzr
	mov	w9, #5
	adrp	x15, .Lstatic.28
	add	x15, x15, :lo12:.Lstatic.28
	mov	w14, #3
	b	.LBB99_463
.LBB99_444:
	and	w9, w8, #0xff
	cmp	w9, #2
	b.eq	.LBB99_458
	cmp	w9, #1
	b.ne	.LBB99_462
	mov	x14, xzr
	mov	x15, xzr
	mov	w10, wzr
	mov	w9, wzr
	mov	w28, #8
	b	.LBB99_463
.LBB99_447:
	mov	w10, wzr
	mov	w28, wzr
	mov	w8, wzr
	mov	w9, #5
	adrp	x15, .Lstatic.26
	add	x15, x15, :lo12:.Lstatic.26
	mov	w14, #3
	b	.LBB99_463
.LBB99_448:
	sub	w8, w2, #48
	cmp	w8, #10
	b.hs	.LBB99_458
	mov	x14, xzr
	mov	x15, xzr
	mov	w28, wzr
	mov	w8, wzr
	mov	w9, #6
	mov	w10, #2
	b	.LBB99_463
.LBB99_450:
	cmp	w2, #58
	b.lo	.LBB99_400
	cmp	w2, #65
	b.lo	.LBB99_402
	mov	w9, wzr
	cmp	w2, #91
	mov	w28, #2
	mov	w8, #1
	b.lo	.LBB99_464
	sub	w10, w2, #97
	mov	w12, w9
	mov	w13, w9
	and	w10, w10, #0xff
	mov	w11, w9
	cmp	w10, #26
	mov	w10, w9
	b.hs	.LBB99_402
	b	.LBB99_417
.LBB99_454:
	sub	w9, w2, #97
	cmp	w9, #6
	b.hs	.LBB99_419
	cmp	w2, #98
	b.ls	.LBB99_382
.LBB99_456:
	tbz	w13, #0, .LBB99_489
	mov	w10, wzr
	b	.LBB99_421
.LBB99_458:
	mov	x14, xzr
	mov	x15, xzr
	mov	w10, wzr
	mov	w9, wzr
	mov	w8, #1
	mov	w28, #2
	b	.LBB99_463
.LBB99_459:
	ldr	x12, [sp, #8]
	mov	x14, xzr
	mov	x15, xzr
	mov	w10, wzr
	mov	w9, wzr
	mov	w28, wzr
	mov	w8, wzr
	strb	wzr, [x12, x11]
.LBB99_460:
	ldr	x11, [sp, #16808]
	add	x11, x11, #1
	str	x11, [sp, #16808]
	b	.LBB99_463
.LBB99_461:
	mov	w10, w9
	mov	w12, w9
	mov	w13, w9
	mov	w11, w9
	b	.LBB99_279
.LBB99_462:
	ldr	x9, [sp, #16808]
	mov	x14, xzr
	mov	x15, xzr
	mov	w10, wzr
	mov	w28, wzr
	mov	w8, wzr
	cmp	x9, #0
	cset	w11, ne
	sub	x9, x9, x11
	str	x9, [sp, #16808]
	mov	w9, #3
.LBB99_463:
	mov	w11, wzr
	mov	w13, wzr
	mov	w12, wzr
	b	.LBB99_333
.LBB99_464:
	mov	w10, w9
	mov	w12, w9
	mov	w13, w9
	mov	w11, w9
	b	.LBB99_417
.LBB99_465:
	and	w8, w9, #0xff
	cmp	w8, #7
	cset	w28, eq
	b	.LBB99_467
.LBB99_466:
	mov	w28, wzr
.LBB99_467:
	mov	x23, x21
.LBB99_468:
	ldr	x27, [sp, #24]
	mov	w24, #2
.LBB99_469:
	ldur	x8, [x29, #-32]
	cbz	x8, .LBB99_471
	ldur	x0, [x29, #-48]
	bl	rattle_dealloc
.LBB99_471:
	ldr	x8, [sp, #208]
	cbz	x8, .LBB99_473
	ldr	x0, [sp, #192]
	bl	rattle_dealloc
.LBB99_473:
	ldr	x8, [sp, #16616]
	cbz	x8, .LBB99_475
	ldr	x0, [sp, #16600]
	bl	rattle_dealloc
.LBB99_475:
	cmp	w24, #1
	b.le	.LBB99_479
	cmp	w24, #4
	b.eq	.LBB99_481
	cmp	w24, #3
	b.ne	.LBB99_482
	mov	w8, wzr
	mov	w24, #6
	strh	wzr, [sp, #196]
	b	.LBB99_483
.LBB99_479:
	cbnz	w24, .LBB99_487
	mov	w24, #17
	mov	x19, xzr
	b	.LBB99_485
.LBB99_481:
	strh	wzr, [sp, #196]
	add	w8, w28, #101
	mov	w24, #10
	b	.LBB99_483
.LBB99_482:
	strh	wzr, [sp, #196]
	add	w8, w28, #1
	mov	w24, #9
.LBB99_483:
	ldrh	w10, [sp, #196]
	str	wzr, [sp, #192]
	str	wzr, [sp, #48]
	str	wzr, [sp, #40]
	strh	w10, [sp, #44]
	str	wzr, [sp, #32]
	strh	w10, [sp, #36]
.LBB99_484:
	ldr	w9, [sp, #32]
	strb	w8, [x20, #17]
	mov	x19, xzr
	ldrh	w8, [sp, #36]
	stp	x23, xzr, [x20]
	strb	wzr, [x20, #16]
	stur	w9, [x20, #18]
	strh	w8, [x20, #22]
.LBB99_485:
	and	x8, x24, #0xff
	cmp	x8, #16
	mvn	w8, w24
	csel	x24, x19, xzr, eq
	orr	w0, w8, #0xffffff00
.LBB99_486:
	str	x24, [x27]
	add	sp, sp, #4, lsl #12
	add	sp, sp, #624
	ldp	x20, x19, [sp, #80]
	ldp	x22, x21, [sp, #64]
	ldp	x24, x23, [sp, #48]
	ldp	x26, x25, [sp, #32]
	ldp	x28, x27, [sp, #16]
	ldp	x29, x30, [sp], #96
	ret
.LBB99_487:
	mov	w24, #11
	mov	x19, xzr
	b	.LBB99_485
.LBB99_488:
	mov	w28, #4
	b	.LBB99_468
.LBB99_489:
	mov	w28, #5
	b	.LBB99_468
.LBB99_490:
	mov	w28, #2
	b	.LBB99_468
.LBB99_491:
	mov	w28, #7
	b	.LBB99_468
.LBB99_492:
	mov	w28, w10
	b	.LBB99_468
.LBB99_493:
	mov	w28, #3
	b	.LBB99_468
.LBB99_494:
	ldp	x23, x19, [sp, #192]
	ldr	x13, [sp, #208]
.LBB99_495:
	mov	x12, xzr
	mov	w14, wzr
	mov	w15, wzr
	mov	w25, #12
	b	.LBB99_136
.LBB99_496:
	add	x1, x21, #5
	mov	x0, x23
	mov	x2, x13
	mov	x19, x13
	bl	memmove
	mov	x12, xzr
	mov	w14, wzr
	mov	w15, wzr
	mov	w25, #16
	mov	x13, x19
	b	.LBB99_136
.LBB99_497:
	umov	w8, v0.h[0]
	rbit	w8, w8
	clz	w8, w8
	add	x0, x8, x2
.LBB99_498:
	cmp	x0, x19
	b.eq	.LBB99_244
.LBB99_499:
	cmp	x0, x25
	b.hs	.LBB99_512
	ldrb	w8, [x26, x0]
	and	w8, w8, #0xffffffdf
	cmp	w8, #69
	b.ne	.LBB99_512
	add	x19, x0, #1
	cmp	x19, x25
	b.hs	.LBB99_505
	ldrb	w8, [x26, x19]
	cmp	w8, #45
	b.eq	.LBB99_504
	cmp	w8, #43
	b.ne	.LBB99_505
.LBB99_504:
	add	x19, x0, #2
.LBB99_505:
	sub	x8, x25, x19
	mov	x2, x19
	cmp	x8, #16
	b.lo	.LBB99_509
	mov	x2, x19
.LBB99_507:
	movi	v0.16b, #198
	ldr	q1, [x26, x2]
	movi	v2.16b, #246
	add	v0.16b, v1.16b, v0.16b
	ldr	q1, [x23, :lo12:.LCPI99_1]
	cmhi	v0.16b, v2.16b, v0.16b
	and	v0.16b, v0.16b, v1.16b
	addp	v0.16b, v0.16b, v0.16b
	addp	v0.16b, v0.16b, v0.16b
	addp	v0.16b, v0.16b, v0.16b
	umov	w9, v0.h[0]
	cbnz	w9, .LBB99_510
	sub	x8, x8, #16
	add	x2, x2, #16
	cmp	x8, #15
	b.hi	.LBB99_507
.LBB99_509:
	mov	x0, x26
	mov	x1, x25
	bl	"json::run::digits_end_slowly"
	b	.LBB99_511
.LBB99_510:
	umov	w8, v0.h[0]
	rbit	w8, w8
	clz	w8, w8
	add	x0, x8, x2
.LBB99_511:
	cmp	x0, x19
	b.eq	.LBB99_244
.LBB99_512:
	cmp	x0, x25
	add	x19, sp, #80
	b.hs	.LBB99_22
	ldrb	w8, [x26, x0]
	mov	w9, #1
	mov	x10, #9728
	movk	x10, #4097, lsl #32
	lsl	x9, x9, x8
	movk	x10, #1024, lsl #48
	cmp	w8, #58
	and	x9, x9, x10
	ccmp	x9, #0, #4, ls
	b.ne	.LBB99_22
	sub	w8, w8, #91
	mov	w9, #1
	mov	x10, #5
	lsl	x9, x9, x8
	movk	x10, #5, lsl #32
	cmp	w8, #34
	and	x8, x9, x10
	ccmp	x8, #0, #4, ls
	b.ne	.LBB99_22
	b	.LBB99_244
.LBB99_515:
	cmp	w13, #32
	b.hs	.LBB99_518
	mov	x8, xzr
	b	.LBB99_522
.LBB99_517:
	brk	#0x1
.LBB99_518:
	and	x9, x13, #0x18
	and	x8, x13, #0xffffffe0
	add	x10, x21, #21
	add	x11, x23, #16
	and	x12, x13, #0xffffffe0
.LBB99_519:
	ldp	q0, q1, [x10, #-16]
	subs	x12, x12, #32
	add	x10, x10, #32
	stp	q0, q1, [x11, #-16]
	add	x11, x11, #32
	b.ne	.LBB99_519
	cmp	x8, x13
	b.eq	.LBB99_525
	cbz	x9, .LBB99_170
.LBB99_522:
	mov	x11, x8
	and	x8, x13, #0xfffffff8
	add	x10, x11, x21
	sub	x9, x11, x8
	add	x11, x23, x11
	add	x10, x10, #5
.LBB99_523:
	ldr	d0, [x10], #8
	adds	x9, x9, #8
	str	d0, [x11], #8
	b.ne	.LBB99_523
	cmp	x8, x13
	b.ne	.LBB99_170
.LBB99_525:
	mov	x12, xzr
	mov	w14, wzr
	mov	w15, wzr
	mov	w25, #16
	b	.LBB99_173
.LBB99_526:
	cbz	x22, .LBB99_528
	mov	x0, x21
	bl	rattle_dealloc
.LBB99_528:
	cmp	x23, x26
	b.lo	.LBB99_485
	mov	w0, wzr
	b	.LBB99_486
.LBB99_530:
	ldrb	w9, [x21, x8]
	strb	w9, [x0, x8]
	add	x8, x8, #1
.LBB99_531:
	cmp	x26, x8
	b.ne	.LBB99_530
.LBB99_532:
	mov	x19, xzr
	mov	x24, x26
	b	.LBB99_526
.Lfunc_end99:
	.size	amqpv_proved_from_json, .Lfunc_end99-amqpv_proved_from_json
	.section	.rodata.amqpv_proved_from_json,"a",@progbits
	.p2align	1, 0x0
.LJTI99_0:
	.hword	(.LBB99_122-.LBB99_63)>>2
	.hword	(.LBB99_107-.LBB99_63)>>2
	.hword	(.LBB99_174-.LBB99_63)>>2
	.hword	(.LBB99_126-.LBB99_63)>>2
	.hword	(.LBB99_174-.LBB99_63)>>2
	.hword	(.LBB99_130-.LBB99_63)>>2
	.hword	(.LBB99_174-.LBB99_63)>>2
	.hword	(.LBB99_174-.LBB99_63)>>2
	.hword	(.LBB99_109-.LBB99_63)>>2
	.hword	(.LBB99_174-.LBB99_63)>>2
	.hword	(.LBB99_174-.LBB99_63)>>2
	.hword	(.LBB99_63-.LBB99_63)>>2
	.hword	(.LBB99_174-.LBB99_63)>>2
	.hword	(.LBB99_174-.LBB99_63)>>2
	.hword	(.LBB99_174-.LBB99_63)>>2
	.hword	(.LBB99_174-.LBB99_63)>>2
	.hword	(.LBB99_174-.LBB99_63)>>2
	.hword	(.LBB99_174-.LBB99_63)>>2
	.hword	(.LBB99_111-.LBB99_63)>>2
	.hword	(.LBB99_105-.LBB99_63)>>2
	.hword	(.LBB99_90-.LBB99_63)>>2
	.hword	(.LBB99_136-.LBB99_63)>>2
	.hword	(.LBB99_174-.LBB99_63)>>2
	.hword	(.LBB99_174-.LBB99_63)>>2
	.hword	(.LBB99_174-.LBB99_63)>>2
	.hword	(.LBB99_174-.LBB99_63)>>2
	.hword	(.LBB99_174-.LBB99_63)>>2
	.hword	(.LBB99_174-.LBB99_63)>>2
	.hword	(.LBB99_174-.LBB99_63)>>2
	.hword	(.LBB99_174-.LBB99_63)>>2
	.hword	(.LBB99_174-.LBB99_63)>>2
	.hword	(.LBB99_174-.LBB99_63)>>2
	.hword	(.LBB99_174-.LBB99_63)>>2
	.hword	(.LBB99_134-.LBB99_63)>>2
	.hword	(.LBB99_174-.LBB99_63)>>2
	.hword	(.LBB99_128-.LBB99_63)>>2
	.hword	(.LBB99_174-.LBB99_63)>>2
	.hword	(.LBB99_101-.LBB99_63)>>2
	.hword	(.LBB99_174-.LBB99_63)>>2
	.hword	(.LBB99_174-.LBB99_63)>>2
	.hword	(.LBB99_103-.LBB99_63)>>2
	.hword	(.LBB99_174-.LBB99_63)>>2
	.hword	(.LBB99_174-.LBB99_63)>>2
	.hword	(.LBB99_63-.LBB99_63)>>2
	.hword	(.LBB99_174-.LBB99_63)>>2
	.hword	(.LBB99_174-.LBB99_63)>>2
	.hword	(.LBB99_174-.LBB99_63)>>2
	.hword	(.LBB99_174-.LBB99_63)>>2
	.hword	(.LBB99_174-.LBB99_63)>>2
	.hword	(.LBB99_174-.LBB99_63)>>2
	.hword	(.LBB99_90-.LBB99_63)>>2
	.hword	(.LBB99_120-.LBB99_63)>>2
	.hword	(.LBB99_118-.LBB99_63)>>2
	.hword	(.LBB99_174-.LBB99_63)>>2
	.hword	(.LBB99_174-.LBB99_63)>>2
	.hword	(.LBB99_162-.LBB99_63)>>2

	.section	.text.amqpv_warn,"ax",@progbits
	.globl	amqpv_warn
	.p2align	2
	.type	amqpv_warn,@function
amqpv_warn:
	ldr	w8, [x0, #24]
	cmp	w8, #31
	b.ls	.LBB100_2
	mov	w0, #-13
	ret
.LBB100_2:
	sub	sp, sp, #304
	stp	x20, x19, [sp, #288]
	ldp	x19, x20, [x0]
	stp	x22, x21, [sp, #272]
	ldr	w21, [x0, #20]
	stp	x29, x30, [sp, #208]
	add	x29, sp, #208
	stp	x28, x27, [sp, #224]
	stp	x26, x25, [sp, #240]
	stp	x24, x23, [sp, #256]
	tbnz	w8, #0, .LBB100_14
	mov	w25, w2
	mov	w23, w1
	mov	x28, x0
	mov	x26, x3
	sub	x0, x29, #32
	mov	w1, wzr
	mov	x2, x19
	mov	x3, x20
	mov	w4, w21
	stp	xzr, xzr, [x29, #-24]
	stp	xzr, xzr, [x29, #-40]
	stp	xzr, xzr, [x29, #-56]
	stp	xzr, xzr, [x29, #-72]
	stur	xzr, [x29, #-80]
	stp	xzr, xzr, [sp, #112]
	stp	xzr, xzr, [sp, #96]
	stp	xzr, xzr, [sp, #80]
	stp	xzr, xzr, [sp, #56]
	str	xzr, [sp, #72]
	bl	"amqp_in_place::rabbitmq::warning::in_value"
	ldurb	w8, [x29, #-32]
	cbnz	w8, .LBB100_31
	ldur	x27, [x29, #-16]
	ldurb	w22, [x29, #-24]
	sub	x0, x29, #56
	mov	w1, #1
	mov	x2, x19
	mov	x3, x20
	mov	w4, w21
	bl	"amqp_in_place::rabbitmq::warning::in_value"
	ldurb	w8, [x29, #-56]
	cbnz	w8, .LBB100_31
	ldurb	w8, [x29, #-48]
	ldur	x24, [x29, #-40]
	sub	x0, x29, #80
	mov	w1, #2
	mov	x2, x19
	mov	x3, x20
	mov	w4, w21
	str	x8, [sp, #48]
	bl	"amqp_in_place::rabbitmq::warning::in_value"
	ldurb	w8, [x29, #-80]
	cbnz	w8, .LBB100_31
	ldur	x8, [x29, #-64]
	cmp	w21, w25
	add	x0, sp, #104
	csel	w4, w21, w25, lo
	mov	w1, #3
	mov	x2, x19
	str	x8, [sp, #24]
	ldurb	w8, [x29, #-72]
	mov	x3, x20
	str	x8, [sp, #16]
	bl	"amqp_in_place::rabbitmq::warning::in_value"
	ldrb	w8, [sp, #104]
	cbnz	w8, .LBB100_31
	ldr	x8, [sp, #120]
	ldrb	w25, [sp, #112]
	add	x0, sp, #80
	mov	w1, #4
	mov	x2, x19
	mov	x3, x20
	mov	w4, w21
	str	x8, [sp, #40]
	bl	"amqp_in_place::rabbitmq::warning::in_value"
	ldrb	w8, [sp, #80]
	cbnz	w8, .LBB100_31
	ldr	x8, [sp, #96]
	cmp	w21, #0
	add	x0, sp, #56
	cset	w4, ne
	mov	w1, #3
	mov	x2, x19
	str	x8, [sp, #8]
	ldrb	w8, [sp, #88]
	mov	x3, x20
	str	x8, [sp, #32]
	bl	"amqp_in_place::rabbitmq::warning::in_value"
	ldrb	w8, [sp, #56]
	cbnz	w8, .LBB100_31
	ldr	x9, [sp, #32]
	ldr	x17, [sp, #8]
	ldr	x8, [sp, #72]
	ldrb	w10, [sp, #64]
	and	x9, x9, #0xff
	cbz	x20, .LBB100_37
	ldrb	w11, [x19]
	mov	x3, x26
	mov	x0, x28
	sub	w12, w11, #65
	mov	w11, #8
	cmp	w12, #55
	b.hi	.LBB100_38
	adrp	x13, .LJTI100_0
	add	x13, x13, :lo12:.LJTI100_0
	mov	x26, x24
	adr	x14, .LBB100_12
	ldrb	w15, [x13, x12]
	add	x14, x14, x15, lsl #2
	mov	x13, x25
	br	x14
.LBB100_12:
	cmp	x20, #5
	b.hs	.LBB100_42
.LBB100_13:
	mov	w11, #12
	b	.LBB100_44
.LBB100_14:
	cmn	x20, #1
	b.eq	.LBB100_17
	cmp	x20, #4
	b.hs	.LBB100_22
	mov	w28, #5
	stp	xzr, xzr, [x29, #-32]
	stur	xzr, [x29, #-16]
	cbnz	w21, .LBB100_18
	b	.LBB100_23
.LBB100_17:
	mov	x28, xzr
	stp	xzr, xzr, [x29, #-32]
	stur	xzr, [x29, #-16]
	cbz	w21, .LBB100_23
.LBB100_18:
	cmp	x28, #0
	mov	w9, #4
	str	w2, [sp, #40]
	cset	w8, ne
	str	w1, [sp, #32]
	mov	x25, x0
	sub	x8, x28, x8
	mov	x23, x3
	sub	x0, x29, #32
	cmp	x8, x20
	sub	w4, w21, #1
	mov	w1, wzr
	csel	x8, x8, x20, lo
	cmp	x8, #4
	csel	x24, x8, x9, lo
	sub	x22, x8, x24
	add	x2, x19, x24
	mov	x3, x22
	bl	"amqp_in_place::rabbitmq::warning::in_pairs"
	ldurb	w8, [x29, #-32]
	cbnz	w8, .LBB100_31
	ldur	x8, [x29, #-16]
	ldurb	w27, [x29, #-24]
	sub	x0, x29, #32
	add	x2, x19, x24
	sub	w4, w21, #1
	mov	w1, #1
	adds	x8, x8, #5
	and	w9, w27, #0xff
	mov	x3, x22
	cset	w10, ne
	cmp	w9, #1
	stp	xzr, xzr, [x29, #-32]
	sub	x8, x8, x10
	stur	xzr, [x29, #-16]
	csel	x26, x8, xzr, eq
	bl	"amqp_in_place::rabbitmq::warning::in_pairs"
	ldurb	w8, [x29, #-32]
	cbnz	w8, .LBB100_31
	str	w27, [sp, #8]
	ldurb	w27, [x29, #-24]
	sub	x0, x29, #32
	str	x26, [sp]
	ldur	x26, [x29, #-16]
	add	x2, x19, x24
	sub	w4, w21, #1
	mov	w1, #2
	mov	x3, x22
	stp	xzr, xzr, [x29, #-32]
	stur	xzr, [x29, #-16]
	bl	"amqp_in_place::rabbitmq::warning::in_pairs"
	ldurb	w8, [x29, #-32]
	cbnz	w8, .LBB100_31
	adds	x8, x26, #5
	and	w9, w27, #0xff
	ldur	x11, [x29, #-16]
	cset	w10, ne
	cmp	w9, #1
	ldurb	w9, [x29, #-24]
	sub	x8, x8, x10
	ldr	w1, [sp, #32]
	ldr	w2, [sp, #40]
	csel	x26, x8, xzr, eq
	adds	x8, x11, #5
	and	w10, w9, #0xff
	cset	w11, ne
	cmp	w10, #1
	and	x10, x27, #0xff
	sub	x8, x8, x11
	ldr	x27, [sp]
	ldr	w22, [sp, #8]
	csel	x8, x8, xzr, eq
	str	x10, [sp, #48]
	mov	x3, x23
	str	x8, [sp, #24]
	and	x8, x9, #0xff
	mov	x0, x25
	str	x8, [sp, #16]
	b	.LBB100_24
.LBB100_22:
	ldr	w8, [x19]
	rev	w8, w8
	add	x28, x8, #5
	stp	xzr, xzr, [x29, #-32]
	stur	xzr, [x29, #-16]
	cbnz	w21, .LBB100_18
.LBB100_23:
	mov	x27, xzr
	mov	w22, wzr
	mov	x26, xzr
	stp	xzr, xzr, [sp, #16]
	str	xzr, [sp, #48]
.LBB100_24:
	cmp	w21, w2
	stp	xzr, xzr, [x29, #-32]
	csel	w8, w21, w2, lo
	stur	xzr, [x29, #-16]
	cbz	w8, .LBB100_27
	cmp	x28, #0
	mov	w10, #4
	mov	w23, w1
	cset	w9, ne
	mov	x24, x0
	mov	x25, x3
	sub	x9, x28, x9
	sub	w4, w8, #1
	sub	x0, x29, #32
	cmp	x9, x20
	mov	w1, #3
	csel	x9, x9, x20, lo
	cmp	x9, #4
	csel	x10, x9, x10, lo
	sub	x3, x9, x10
	add	x2, x19, x10
	bl	"amqp_in_place::rabbitmq::warning::in_pairs"
	ldurb	w8, [x29, #-32]
	cbnz	w8, .LBB100_31
	ldur	x8, [x29, #-16]
	ldurb	w9, [x29, #-24]
	mov	x3, x25
	mov	x0, x24
	mov	w1, w23
	adds	x8, x8, #5
	and	w10, w9, #0xff
	and	x13, x9, #0xff
	cset	w11, ne
	cmp	w10, #1
	sub	x8, x8, x11
	csel	x14, x8, xzr, eq
	b	.LBB100_28
.LBB100_27:
	mov	x14, xzr
	mov	w13, #1
.LBB100_28:
	stp	xzr, xzr, [x29, #-32]
	stur	xzr, [x29, #-16]
	cbz	w21, .LBB100_33
	cmp	x28, #0
	mov	w9, #4
	stp	x26, x14, [sp, #32]
	cset	w8, ne
	str	w22, [sp, #8]
	mov	x22, x27
	sub	x23, x28, x8
	mov	w25, w1
	mov	x26, x0
	cmp	x23, x20
	mov	x27, x3
	sub	w4, w21, #1
	csel	x8, x23, x20, lo
	sub	x0, x29, #32
	mov	w1, #4
	cmp	x8, #4
	str	x13, [sp]
	csel	x24, x8, x9, lo
	sub	x20, x8, x24
	add	x2, x19, x24
	mov	x3, x20
	bl	"amqp_in_place::rabbitmq::warning::in_pairs"
	ldurb	w8, [x29, #-32]
	cbnz	w8, .LBB100_31
	ldurb	w21, [x29, #-24]
	ldur	x28, [x29, #-16]
	sub	x0, x29, #32
	add	x2, x19, x24
	mov	w1, #3
	mov	x3, x20
	mov	w4, wzr
	stp	xzr, xzr, [x29, #-32]
	stur	xzr, [x29, #-16]
	bl	"amqp_in_place::rabbitmq::warning::in_pairs"
	ldurb	w8, [x29, #-32]
	cbz	w8, .LBB100_36
.LBB100_31:
	mov	w0, #-18
.LBB100_32:
	ldp	x20, x19, [sp, #288]
	ldp	x22, x21, [sp, #272]
	ldp	x24, x23, [sp, #256]
	ldp	x26, x25, [sp, #240]
	ldp	x28, x27, [sp, #224]
	ldp	x29, x30, [sp, #208]
	add	sp, sp, #304
	ret
.LBB100_33:
	cmp	x28, #0
	mov	x9, xzr
	mov	x17, xzr
	cset	w10, ne
	mov	x8, xzr
	sub	x23, x28, x10
	mov	w10, #1
.LBB100_34:
	cmp	w1, #0
	mov	w11, w1
	add	x12, x23, #8
	ccmp	x12, x11, #0, ne
	cset	w11, hi
	ldrb	w12, [x0, #24]
	tbnz	w12, #4, .LBB100_45
.LBB100_35:
	mov	w12, wzr
	mov	x17, xzr
	mov	w9, wzr
	mov	x8, xzr
	b	.LBB100_46
.LBB100_36:
	adds	x8, x28, #5
	and	w9, w21, #0xff
	ldur	x11, [x29, #-16]
	cset	w10, ne
	cmp	w9, #1
	mov	x0, x26
	sub	x8, x8, x10
	ldurb	w10, [x29, #-24]
	mov	x3, x27
	csel	x17, x8, xzr, eq
	adds	x8, x11, #5
	mov	x27, x22
	and	w9, w10, #0xff
	cset	w11, ne
	ldr	w22, [sp, #8]
	ldp	x26, x14, [sp, #32]
	sub	x8, x8, x11
	cmp	w9, #1
	ldr	x13, [sp]
	and	x9, x21, #0xff
	csel	x8, x8, xzr, eq
	and	x10, x10, #0xff
	mov	w1, w25
	b	.LBB100_34
.LBB100_37:
	mov	w11, #8
	mov	x3, x26
	mov	x0, x28
.LBB100_38:
	mov	x26, x24
	mov	x13, x25
	b	.LBB100_44
.LBB100_39:
	mov	w11, #16
	b	.LBB100_44
.LBB100_40:
	mov	w11, #9
	b	.LBB100_44
.LBB100_41:
	mov	w11, #10
	b	.LBB100_44
.LBB100_42:
	ldur	w11, [x19, #1]
	rev	w11, w11
	add	x11, x11, #12
	b	.LBB100_44
.LBB100_43:
	mov	w11, #13
.LBB100_44:
	cmp	w23, #0
	mov	w12, w23
	ldr	x14, [sp, #40]
	ccmp	x11, x12, #0, ne
	cset	w11, hi
	ldrb	w12, [x0, #24]
	tbz	w12, #4, .LBB100_35
.LBB100_45:
	cmp	x9, #1
	cset	w12, eq
	cmp	x10, #1
	cset	w9, eq
.LBB100_46:
	ldr	x15, [sp, #16]
	cmp	x13, #1
	mov	w13, w11
	cinc	x13, x13, eq
	csinv	x14, x14, xzr, eq
	ldr	x16, [sp, #48]
	cmp	x15, #1
	ldr	x15, [sp, #24]
	and	w10, w22, #0xff
	cinc	x13, x13, eq
	movi	v0.2d, #0xffffffffffffffff
	mov	w0, wzr
	csinv	x15, x15, xzr, eq
	cmp	x16, #1
	strb	w11, [x3, #88]
	cinc	x13, x13, eq
	csinv	x16, x26, xzr, eq
	cmp	w10, #1
	cinc	x10, x13, eq
	csinv	x13, x27, xzr, eq
	cmp	w12, #0
	add	x10, x10, w12, uxtw
	csinv	x12, x17, xzr, ne
	cmp	w9, #0
	csinv	x8, x8, xzr, ne
	stp	x16, x15, [x3, #16]
	add	x9, x10, w9, uxtw
	stp	x14, x12, [x3, #32]
	str	x8, [x3, #48]
	stur	q0, [x3, #56]
	stp	x9, x13, [x3]
	stur	q0, [x3, #72]
	stur	wzr, [x3, #89]
	str	wzr, [x3, #92]
	b	.LBB100_32
.Lfunc_end100:
	.size	amqpv_warn, .Lfunc_end100-amqpv_warn
	.section	.rodata.amqpv_warn,"a",@progbits
.LJTI100_0:
	.byte	(.LBB100_12-.LBB100_12)>>2
	.byte	(.LBB100_40-.LBB100_12)>>2
	.byte	(.LBB100_44-.LBB100_12)>>2
	.byte	(.LBB100_43-.LBB100_12)>>2
	.byte	(.LBB100_44-.LBB100_12)>>2
	.byte	(.LBB100_12-.LBB100_12)>>2
	.byte	(.LBB100_44-.LBB100_12)>>2
	.byte	(.LBB100_44-.LBB100_12)>>2
	.byte	(.LBB100_13-.LBB100_12)>>2
	.byte	(.LBB100_44-.LBB100_12)>>2
	.byte	(.LBB100_44-.LBB100_12)>>2
	.byte	(.LBB100_39-.LBB100_12)>>2
	.byte	(.LBB100_44-.LBB100_12)>>2
	.byte	(.LBB100_44-.LBB100_12)>>2
	.byte	(.LBB100_44-.LBB100_12)>>2
	.byte	(.LBB100_44-.LBB100_12)>>2
	.byte	(.LBB100_44-.LBB100_12)>>2
	.byte	(.LBB100_44-.LBB100_12)>>2
	.byte	(.LBB100_12-.LBB100_12)>>2
	.byte	(.LBB100_39-.LBB100_12)>>2
	.byte	(.LBB100_41-.LBB100_12)>>2
	.byte	(.LBB100_44-.LBB100_12)>>2
	.byte	(.LBB100_44-.LBB100_12)>>2
	.byte	(.LBB100_44-.LBB100_12)>>2
	.byte	(.LBB100_44-.LBB100_12)>>2
	.byte	(.LBB100_44-.LBB100_12)>>2
	.byte	(.LBB100_44-.LBB100_12)>>2
	.byte	(.LBB100_44-.LBB100_12)>>2
	.byte	(.LBB100_44-.LBB100_12)>>2
	.byte	(.LBB100_44-.LBB100_12)>>2
	.byte	(.LBB100_44-.LBB100_12)>>2
	.byte	(.LBB100_44-.LBB100_12)>>2
	.byte	(.LBB100_44-.LBB100_12)>>2
	.byte	(.LBB100_40-.LBB100_12)>>2
	.byte	(.LBB100_44-.LBB100_12)>>2
	.byte	(.LBB100_39-.LBB100_12)>>2
	.byte	(.LBB100_44-.LBB100_12)>>2
	.byte	(.LBB100_13-.LBB100_12)>>2
	.byte	(.LBB100_44-.LBB100_12)>>2
	.byte	(.LBB100_44-.LBB100_12)>>2
	.byte	(.LBB100_13-.LBB100_12)>>2
	.byte	(.LBB100_44-.LBB100_12)>>2
	.byte	(.LBB100_44-.LBB100_12)>>2
	.byte	(.LBB100_39-.LBB100_12)>>2
	.byte	(.LBB100_44-.LBB100_12)>>2
	.byte	(.LBB100_44-.LBB100_12)>>2
	.byte	(.LBB100_44-.LBB100_12)>>2
	.byte	(.LBB100_44-.LBB100_12)>>2
	.byte	(.LBB100_44-.LBB100_12)>>2
	.byte	(.LBB100_44-.LBB100_12)>>2
	.byte	(.LBB100_41-.LBB100_12)>>2
	.byte	(.LBB100_40-.LBB100_12)>>2
	.byte	(.LBB100_41-.LBB100_12)>>2
	.byte	(.LBB100_44-.LBB100_12)>>2
	.byte	(.LBB100_44-.LBB100_12)>>2
	.byte	(.LBB100_12-.LBB100_12)>>2

	.section	.text.amqpv_from_json,"ax",@progbits
	.globl	amqpv_from_json
	.p2align	2
	.type	amqpv_from_json,@function
amqpv_from_json:
	.cfi_startproc
	sub	sp, sp, #48
	.cfi_def_cfa_offset 48
	stp	x29, x30, [sp, #32]
	add	x29, sp, #32
	.cfi_def_cfa w29, 16
	.cfi_offset w30, -8
	.cfi_offset w29, -16
	cmp	x6, #0
	add	x8, sp, #8
	csel	x6, x8, x6, eq
	bl	amqpv_proved_from_json
	.cfi_def_cfa wsp, 48
	ldp	x29, x30, [sp, #32]
	add	sp, sp, #48
	.cfi_def_cfa_offset 0
	.cfi_restore w30
	.cfi_restore w29
	ret
.Lfunc_end101:
	.size	amqpv_from_json, .Lfunc_end101-amqpv_from_json
	.cfi_endproc

	.section	.text.rattle_alloc,"ax",@progbits
	.p2align	2
	.type	rattle_alloc,@function
rattle_alloc:
	.cfi_startproc
	stp	x29, x30, [sp, #-16]!
	.cfi_def_cfa_offset 16
	mov	x29, sp
	.cfi_def_cfa w29, 16
	.cfi_offset w30, -8
	.cfi_offset w29, -16
	cmp	x0, #0
	csel	x0, x1, x0, eq
	bl	malloc
	cmp	x0, #0
	adrp	x9, nothing
	add	x9, x9, :lo12:nothing
	cset	w8, ne
	csel	x1, x0, x9, ne
	mov	x0, x8
	.cfi_def_cfa wsp, 16
	ldp	x29, x30, [sp], #16
	.cfi_def_cfa_offset 0
	.cfi_restore w30
	.cfi_restore w29
	ret
.Lfunc_end102:
	.size	rattle_alloc, .Lfunc_end102-rattle_alloc
	.cfi_endproc

	.section	.text.rattle_realloc,"ax",@progbits
	.p2align	2
	.type	rattle_realloc,@function
rattle_realloc:
	.cfi_startproc
	stp	x29, x30, [sp, #-16]!
	.cfi_def_cfa_offset 16
	mov	x29, sp
	.cfi_def_cfa w29, 16
	.cfi_offset w30, -8
	.cfi_offset w29, -16
	cmp	x2, #0
	csel	x1, x3, x2, eq
	bl	realloc
	cmp	x0, #0
	adrp	x9, nothing
	add	x9, x9, :lo12:nothing
	cset	w8, ne
	csel	x1, x0, x9, ne
	mov	x0, x8
	.cfi_def_cfa wsp, 16
	ldp	x29, x30, [sp], #16
	.cfi_def_cfa_offset 0
	.cfi_restore w30
	.cfi_restore w29
	ret
.Lfunc_end103:
	.size	rattle_realloc, .Lfunc_end103-rattle_realloc
	.cfi_endproc

	.section	.text.rattle_dealloc,"ax",@progbits
	.p2align	2
	.type	rattle_dealloc,@function
rattle_dealloc:
	.cfi_startproc
	b	free
.Lfunc_end104:
	.size	rattle_dealloc, .Lfunc_end104-rattle_dealloc
	.cfi_endproc

	.type	.Lstatic.1,@object
	.section	.rodata..Lstatic.1,"a",@progbits
.Lstatic.1:
	.size	.Lstatic.1, 0

	.type	.Lstatic.2,@object
	.section	.rodata..Lstatic.2,"a",@progbits
	.p2align	3, 0x0
.Lstatic.2:
	.ascii	"\001\000\000\000\000\000\000\000\n\000\000\000\000\000\000\000d\000\000\000\000\000\000\000\350\003\000\000\000\000\000\000\020'\000\000\000\000\000\000\240\206\001\000\000\000\000\000@B\017\000\000\000\000\000\200\226\230\000\000\000\000\000\000\341\365\005\000\000\000\000\000\312\232;\000\000\000\000\000\344\013T\002\000\000\000\000\350vH\027\000\000\000\000\020\245\324\350\000\000\000\000\240rN\030\t\000\000\000@z\020\363Z\000\000\000\200\306\244~\215\003\000\000\000\301o\362\206#\000\000\000\212]xEc\001\000\000d\247\263\266\340\r\000\000\350\211\004#\307\212"
	.size	.Lstatic.2, 160

	.type	.Lstatic.3,@object
	.section	.rodata..Lstatic.3,"a",@progbits
	.p2align	4, 0x0
.Lstatic.3:
	.ascii	"?;\241\006)\252?\021Z\326;\222\326S\364\356\007\305$\244Y\312\307J\370ee\033f\264X\225I\366-\r\360\274y]v\277>\242\177\341\256\272\334sy\020,,\330\364So\316\212\337\231Z\351i\350K\212\233\033\007y\224\005\301\266+\240\330\221\204\342\336l\202\342H\227\371Fq\2446\310N\266%\233\026\b#\033\033\375\267\230\215MDz\342\343\367 \016\345\365\3600\376r\177x\260j\214m\2165\251Q^3-\275\275O\237\226\\\205\357\b\262\202\023\3465\200x,\255#G\274\263f+\213\3361\314\257!P\313;Lv\254U0 \373\026\213=\277\033*$\276J\337\223\027k<\350\271\334\255\r\257\2424\255m\035\327x\335\205Kb\350S\331h\255\345@\214dr\206k\2523o=q\324\207\302\030\037Q\257\375\016h\006\225\000\313\214\215\311\251\362\336f%\033\275\022\002H\272\300\375\357\360;\324WK`\3670\266K\001mt\230\376\225v\245\204-^85\275\243\236A\210\221>~;\324\316\245\271u\206\202\254L\006R\3525\316]J\211B\317\223\t\224\321\353\357Cs\262\341\240z\316\225\211\201\370\013\371\305\346\353\024\020\037\032I\031B\373\353\241\366Nww\340&\032\324\246`\233\237\022\372f\312\264\"U\225\230\260 \211\3208\202G\227\270\000\375\2605U]_n\264U\202c\261\214^s \236\035\203\2524\367\211!\353b\274\335/6\220\250\305\344#\325\001u\354\351\245{+\325\273C\264\022\367n6%!\3113\262G-;eU\252\260k\232\n\204ni\273\300\236\231\370\211\276\352\324\234\006\301\r%\312C\352p\006\300v,n%\nDH\361(W^j\222\006\0048\312\333dW\206*\315\226\362\354\365\0047\b\005\306\274\022>\355'u\200\274.h3\306DJ\206\367k\227\215\350q\222\240\353\035!\340\373j\356\263z\243~X1\207[D\223d)\330\272\005\352`YL\236\256\375hr\025\270\2753\216)\207$\271o\337E\032=\003\317\032\346V\340\370y\324\266\323\245\253k0\006b\301\320\217l\030w\230\211\244H\217\226\206\274\207\272\361\304\263\207\336\224\376\253\315\0323<\250\253)).\266\340\024\013\035\177\213\300\360\237%I\013\272\331\334q\214\331M\344^\256\360\354\007o\033\216(\020T\216\257Pa\235\366\331,\350\311J\242\2612\024\351q\333\322\\\":\b\0341\276n\005\257\237\2541'\211\006\364\252H\nc\275m\312\306\232\307\027\376p\253\b\261\325\332\314\273,\t}x\201\271\235=M\326\245\216\305\b`\365\273%N\353\360\223\202F\360\205N\362\366\n\270\362*\257!&\3558#Xl\247\341\256\264\rf\257\365\032\252o(\007,nG\321M\355\220\310\237\215\331P\312Ey\204\333\244\314\202\240(\265\272\007\361\017\345<\227\227e\022\316\177\243\310rb\251I\355S\036\f}\375\376\226\301_\314z\017\273\023\234\350\350%O\334\274\276\374\261w\377\254\351T\214a\221\261w\261\t6\367=\317\252\237\027$j\357\271\365\235\325\035\214\003u\r\203\225\307\035\255Dk(s\005K%oD\322\320\343z\3712\354\nC\371g\343Nw\305j\203b\316\354\233?\247\315\223\367A\234\"\325vE$\373\001\350\302\017\021\301xuRCk\212\324V\355y\002\242\363\251\252xk\211\023\n\203\326DV4\214AE\230S\325V\306k\230\314#\f\326kA\357\221V\276\250\212\354\267\206\276\277,\217\313\306\021k6\354\355\251\326\3632\024\327\367{9?\034\353\002\242\263\224S\314\260?\331\314\365\332\007O\343\245\203\212\340\271h\377\234\217\017@\263\321\311\"\\\217$\255X\350\241\037\302\271\t\b\020#\276\225\231\3316l7\221\212\2472(\f\n\324\253-\373\377\217DG\205\265lQ?2\217\f\311\026\371\371\377\263\025\231\346\342\343\222g\177\331\247=\256;\374\177\220\255\037\320\215\234wA\337\317\021\315\231J\373\237\364\230'D\261\203\325\021\327CV@@\035\372\3071\1771\225\335r%kf\3525(HR\374\034\177\357>}\212\317\356\005\000eC2\332f;\344^\253\216\034\255\202j\007@>\324\276\220@J\2356V\262c\330\221\242\004\350\246DwZhN\"\342uO>\2076\313\005\242\320\025\025q\002\342\252ZS\343\r\251\003>\207\312D[Z\r\203\232U1(\\Q\323\302\206\224\376\nyX\350\221\200\325\036\231\331\022\204r\2509\276M\227nb\266\340\212f\377\217\027\245\217\022\310-!=\n\373\343\230-@\377s]\316\231\013\235\2744f\346|\216\177\034\210\177h\372\200\200N\304\353\301\377\037\034r\237#j\237\0029\241 b\265f\262\377'\243N\207\254DGC\207\311\250\272b\000\237\377\361K\"\251\327\025\031\024\351\373\251\264=`\303?wo\265\311\246\255\217\254q\235\323!M8\264\017U\313\"|\020\231\263\027\316\304Hj`F\241S*~+\233T\177\240\235\001\366mB\374\313Dt\332.\373\340\224O\204\002\301\231\bS\373\376U\021\221\3729\031zc%C1\300\312'\272~\253U5y\210\237X\274\356\223=\360\336X4/\213U\301K\265c\2675u|&\226\026o\001\373\355\252\261\236\242<%\203\222\033\260\273\334\312\301y\251\025^F\313\213\356#w\"\234\352\311\036\031\354\211\315\372\013_\027uv\212\225\241\222{f\037g\354\200\371\3166]\022\024\355\372I\267\032@\347\200'\341\267\202\204\364\026Y\250y\034\345\020\210\220\260\270\354\262\321\322X\2567\t\3141\217\025\252\264\334\346\247\037\206\007\357\231\205\013?\376\262\232\324\341\223\340\221\247g\311j\000g\316\316\275\337\340$m\\,\273\310\340\275B`\000A\241\326\213\030n\210s\367\351\372XmSx@\221I\314\256\236\211jPu\2449\257Hh\226\220\365[\177\332\003\226BR\311\006\204m-\001^zy\231\217\210\203;\323\246{\b\345\310x\201\365\330\327\177\263\252d\n\210\220\232J\036\373\326\3412\317\315_`\325\177\006U\232\240\356\362\\&\315\177\241\340;\\\205\036H\352\300H\252/\364o\300\337\311\330J\263\246&\332$\361\332\224;\361\213\260W\374\216\035`\320X\b\267\326\b=\305vW\316\266]y\022<\202n\312d\fK\214vT\355\201$\265\027\027\313\242\t\375}\317]/\224\251h\242m\242\335\334}\313L|]C5;\371\323\002\013\t\013\025T]\376\257m\032J\001\305{\304\341\246\345&\215T\372\236\033\t\241\234A\266\2325\232\020\237p\260\351\270\306bK\311\003\322c\001\303\300\324\306\214\034$g\370\035\317]Bc\336\340y\370D\374\327\221v@\233\344B\365\022\374\025Y\2306V\373M6\224\020\302\235\223\262\027{[o>\304+z\341C\271\224\362B\234\317\356,\231\005\247Z[\354l\312\363\234\227S\203\203*x\377\306P1r'\b\2750\204\275(d$5V\277\370\244\275N1J\354<\345\354\231\2766\341\225w\033\2076\321^\256\023F\017\224?n\204Y{U\342(\204\205\366\231\230\027\023\271\317\211\345/\332\352\0323\345&t\300~\335W\347!v\357]\310\322\360?O\230H8o\352\226\220\251Skuz\007\355\017c\276Z\006\013\245\274\264\224(\306\022YI\350\323\373m\361\307M\316\353\341\\\331\273\253\327-qd\275\344\366\234\360`3\215\263\317\252\226My\215\275\354\2354\304,9\200\260\240\203U\374\240\327\360\354g\305A\365wG\240\334Dr\265\235\304\206\026\364`\033I\371\252,\344\211\325\316\"\305u(\03419b\233\267\3257]\254\213\202k6\2232c}\307:\202%\313\205t\327\2271\003\002\234\377]\256\274dq\367\236\323\250\206\374\375\203\002\203\177\365\331\353\275M\265\206\bS\250{\375$\303c\337r\320f-\241b\250\312g\322m\036\367Y\236\313GB`\274\244=\251\336\200\203\b\346t\360\205\276\331Rx\353\r\215S\026a\244\213\037\222l'.\220gVfQp\350[y\315\266S\333\243\330\034\272\000\366\3372Fq\331k\200\244(\322\314\016\244\350\200\363\227\277\227\315\317\206\240\315\262\006\200\022\315\"a\360}\257\375\300\203\250\310\201_\b W\200kyl]\033=\261\244\322\372\260;\005t60\343\313c\0321\306\356\246\303\234\234\212\006\021D\374\333\276\374`\275w\252\220\364\303D-H\025U\373\222\356;\271\254\025\325\264\361\364J\034M-\025\335\033u\305\363\213-\005\021\027\231]c\240xZ\324b\322\266\360\356xF\325\\\2774|\310\026q\211\373\206\344\254*\027\230\n4\357\240M=\256\3465]\324\016\254z\016\237\206\200\225\t\241\314Y`\203t\211\022W\031\322F\250\340\272K\311?p8\244\321+\327\254\237\206X\322\230\351\317\335'F\243\006c{\006\314#Tw\203\377\221B\325\261\027L\310;\032\b\277,)Ud\177\266\223J\236\035_\272\312 \312\356wsj=\037\344\234\356\202r{\264~T>\365*\210b\206\223\216C\252#O\232a\236\351\215\2625*\373g8\262\324\224\354\342\000\372\005d1\037\303\364\371\201\306\336\004\335\323\215@\274\203\336~\363\3718<\021<\213E\324H\261P\253$\226^p8G\213\025\013\256W\t\233\335$\326\255;v\214\006\031\356\332\215\331\326\345\200\n\327\245L\345\311\027\244\317\324\250\370\207L\037!\315L\317\237^\274\035\215\003\n\323\366\251\037gi\000 \303Gv+ep\204\314\207t\324s\340A\000\364\331\354);?\306\322\337\324\310\204\220XR\000q\020h\364\t\317w\307\027\n\373\245\264\356f@\215\024\202q\314\302U\271\235\314y\3170U@H\330L\361\306\277\231\325\223\342\037\254\201|jPZ\016\240\255\270/\000\3138\333'\027\242\034\205\344\360\021\b\331\246;\300\375\006\322\361\234\312c\246\035m\026J\217\220J0\275\210F.D\375\376\2072\004N\216Y\232.>v\025\354\234J\236\375)?\205\341\361\357@\272\315\323\032'D\335\305|\364\216\346Y\356+\321(\301\210\3410\225T\367\316X\0310\370t\273\202\271x\365\214>\335\224\232\001\257\037<6Rj\343\347\32620\216\024:\301\301\232'\313\303\346D\334\241\214?\274\261\231\210\361\271\300\370^:\020\253)\345\267\247\025\017`\365\226\347\360\266\366H\324\025t\336\245\021\333\022\270\262\274!\255d4[I\033\021V\017\326\221\027f\337\3534\354\276\000\331\r\261\312\225\311%\273\316\237k\223B\247\356@OQ]=\373;\357i\302\207F\270\022Q*\021\243\245\264\f\372\nk\004\263)X\346\253r\272\352\205\347\360G\334\346\302\342\017\032\367\217V\017ieg!\355Y\223\240s\333\223\340\364\263,S\303>\301ih0\270\210P\322\270\030\362\340\373\023:\307\030BA\036sUr\203sO\227\214\372\230\b\371\236\222\321\345\317\352NdP#\275\2579\277J\267F\367E\337\203\245b}$l\254\333\203\267\2162\214\272\213kr\247]\316\226\303K\211de2?/\251n\006O\021\365\201|\264\236\253\275\376\376\016{S\n\310\242Ur\242\233a\206\3266__\351,t\006\275\205u\207E\001\375\023\206\0047\267#8\021H,\347R\351\226A\374\230\247\305\004\245,\206\025Z\367\240\247\243\374Q;\177\321\373\"\347\333sM\230\232\304H\346=\023\205\357\202\272\353\340\322\320`>\301\365\332_\rXf\253\243\250&\231\007\005\371\2151\263\321\267\020\356?\226\314Rp\177IFw\361\375\037\306\345\224\351\317\273\3773\246\357\355\213\352\266\376\323\233\017\375\361a\325\237\300\217k\351.\245d\376\310\202S|n\272\312\307\260s\306\243z\316\375={ch\033\ni\275\371N\b\\\246\f\241\276\006->!Q\246a\026\234b\n\363\317OInH\270\215i\345\017\372\033\303\372\314\357\303\243\333\211Z&\361\303\336\223\370\342\363\034\340uZF)\226\370\267v:k\\\333m\230#X\023\361\227\263\273\366e\024\t\2063R\211\276,.X\355}\240jt\177Y\213g\300\246+\356\334\034W\264N\244\302\250\357\027\267@8H\333\224\023\344labM\363\222\353\335\344PF\032\022\272\027\035\310\371\272 \260wf\025\036\345\327\240\226\350.\022\035\334t\024\316\n`\3152\357\206$^\221\272V$\023\222\231\201\r\270\200\377\252\250\255\265\265il\355\227\366\377\341\020\346`\277\325\022\031#\343\301c\364\036\372?\215\312\217\234\227\305\253\357\365\215\262|\261\246\370\2170\275\263\203\375\266\226ks\261\336\333]\320\366\263|\254\240\344\274d|F\320\335k\251:Bz\360\315k\344\016\366\276\r,\242\212\306S\311\322\230l\301\206\235\222\263.\021\267J\255\267\250{\007\277\307q\350Dw`z\325d\235\330rI\255d\327\034G\021\213J|l\005_b\207\317\233\330=\r\344\230\325-]\233\307\306\366:\251\303\302N\215\020\035\377Jy4\202yx\264\211\323\2729QX*r\337\316\313`\361K\313\0206\204(\210e\356\264N\227\302\376\270\355\036\376\224C\2452\352\376)b\"=s>'\251\246=z\224\316_R?Z}5\006\b\207\270)\210f\314\034\201\367&\317\260\334\302\007\312\250&4*\200\377c\241\265\360\002\335\223\263\211\374R0\3014`\377\274\311\342\254C\324x \254\273g|\361A8?,\374\rL\252\204K\224K\325\300\3556)\203\247\233\235\021\337\324e^y\236\n1\251\204\363c\221\002\305\325\026J\377\265\027FM}\323e\360\2745C\366EN\216\277\321\316KP.\244?\026\226\001\352\231\326\341q/\206\302^\3449\215\317\233\373\201d\300LZN\273'sv]\210p\303\202z\242}\360o\370\020\325\370\007j:U&\272\221\214\205N\226\2136U\n\367\211\004\211\352\257(\266\357&\342\273.\204\352\314t\254E+\345\333\262\243\253\260\332\352\235\222\022\000\311\213\013;o\311OFk\256\310\222D7\027@\273n\316\t\313\273\343\027\006\332z\267\025\005\035\020j\nB\314\275\252\334\235\207\220Y\345-#\022J\202F\251\237\266\352\251\302T\372W\217\371\253\226\334\"\230\223GdeT\363\351\370-\263\367V\274\223+~xY\275~)p$w\371\337Z\266U<\333N\353W6\357\031\306v\352\373\213\361#k\013\222\"\346\355\003k\240w\024\345\372\256\355\354E\2166\253_\351\304\205\210\225Y\236\271\332\024\264\353\030\002\313\333\021\233Su\375\367\002\264\210\031\241&\237\302\275R\326\201\250\322\374\265\003\341\252_I\360F3m\347K\242R\007|\243D\231\325\333-V\f@\244po\245\223\204-\346\312\177\205R\271k\017P\315L\313\216\270\345\270\237\275\337\246\247\247F\023\244\000 ~\262&\037\247\007\255\227\320\310(\f\214f\000\324\216/xs\310$\314^\202\3722\017/\200\000\211r;V\220\372-\177\366\242\271\377\322:\240@+O\312k4y\371\036\264\313\250\277\207I\310\020\366\342\274\206\201\327\267&\241\376\311\327\364-}\312\331\r6\364\260\3462\270$\237\273\rry\034=P\221C1]\240?\346\355\306*\221\316\227cL\244u\224}t\210\317_\251\370\272\032\341>\276\257\206\311|\316H\265\341\333i\233ha\231\316\255[\350\373\033\002\233\"\332RD\302\303\271?B\231r\342\372\242\302A\253\220g\325\362\032\324g\311\237\207\315\334\245\031\tk\272`\305\227 \311\301\273\207\351\000T\017`\313\005\351\270\266\275h;\262\252\351#\001)\0238>G#g$\355!e\257\nr\266\240\371\013\343\206\fv\3006\224i>[\215\016\344\b\370\316\233\250\217\223pD\271\004\016\2620\022\035\013\266\302\302\222s\270\214\225\347\302Ho^+\362\306\261\271\271;H\363w\275\220\363\032\0136\266\2568\036(\250J\032\360\325\354\264\260\341\215\303c\332\306%2R\335 l\013(\342\016\2558Z~H\234W_S\212\224#\007Y\215Q\330\306\360\235Z\203-7\350\254y\354H\257\260e\216\370lE1\344\370D\"\030\230'\033\333\334\377X\033d\313\236\216\033k\025\017\277\370\360\b\212?/\"=~Fr\342\305\332\322\3566-\213\254\017\273j\314\035\330\016[w\221\207\252\204\370\255\327\351\264\302\237\022G\351\230\352\272\224\352R\273\314\206$b\263G\327\230#?\245\3519\245'\352\177\250\255:\240\031\r\177\354\216\016d\210\216\261\344\237\322\254$\0040h\317S\031\211>\025\371\356\356\243\203\327-\005<B\303\250_+\216Z\267\252\352\214\244My\006\313\022\364\2227\26611eU%\260\315\320\013\344\276\213\330\273\342\021\277>_U\027\216\200\304\016\235\256\256\316j[\326n\016\267*\235\261\240uRDZZ\202E\362\213\n\322du\004\336\310\022g\325\360\360\342\326\356.\215\006\276\222\205\025\373k`\205\226\326MFU=\030\304\266{s\355\234\206\270&<L\341\227\252L\036u\244Z\320(\304\250f0K\237\331=\325\337e\222Mq\0043\365)@\376\216\003\250F\345\253\177{\320\306\342?\2313\320\275r\004R\230\336\226_\232\204x\333\217\277@Dm\217\205f>\226|\367\300\245V\322s\357\250J\244y\023\000\347\335\255\232\230'vc\250\225R]\rX\030\300`UY\301~\261S|\022\273\246\264\020n\036\360\270\252\257q\336\235h\033\327\351\350p\312\004\023\226\263\312\r\007\253b!q&\222\"\r\375\305\227{`=\321\310U\273i\r\260\266jP|\267}\232\270\214\005;+*\304\020\\\344B\262\255\222\216`\363w\343\004[\232z\212\271\216\323\036Y7\2628\360U\034\306\361@\031\355g\262\210f/\305\336Flk\2437.\221_\350\001\337\025\240=;K\254##\306\342\274\272;1a\213\032\b\r\n^\227\354\253w\033l\251\212}9\256!J\220\2145\275\347\226U\"\307S\355\334\307\331T.\332wA\326P~uu\\T\024\352\034\210\351\271\320\325\321\013\345\335\322\222si\231$$\252d\350DK\306N^\225\207w\320\303\277-\255\324>\021\013\357;\361Z\275\264Jb\332\227<\354\204\216\325\315\352\212\255\261\354a\335\372\320\275K'\246\362J\201\245\355\030\336g\272\2249E\255\036\261\317\327\316p\207\224\317\352\200\364\374CK,\263\316\201\215\002M\251y\203%\2411\374\024^\367_B\2420C\240\023X\344n\t>;\2325\365\367\322\312\374S\210\030n\235\312\213\r\312\000\203\362\265\207\375}4U\317d\242^wH~\340\221\267\321t\236\235\201*\003\376J6\225\332\235Xv%\006\022\306\004\"\365\203\275\335\203:Q\305\356\323\256\207\226\367B5yr\226j\222\304R;uD\315\024\276\232\223\202\027\017<\005\267u'\212\222\225\000\232m\3018c\335\022\213\306$S\261,\367\272\200\000\311\361\003^\312\353\026\374\366\323\356{\332tP\240\035\227\204\365\274\246\034\273\364\210\352\032\021\222d\b\345\274\3452l\320\343\3511+\245a\225\266}J\036\354\317\237Cb.2\377:\007]\035\222\216\356\222\223\302\207\324\372\271\376\276\tI\264\24462\252w\270\263\251\211yh\276.L[\341M\304\276\224\225\346\020\n\366K\0017\235\017\331\254\260:\367|\035\220\224\214\363\236\301\204\204S\017\330\\\t5\334$\264\271o\260\006\362\245e(\023\016\264KB\023.\341\323E.D\267\207?\371\313\210Po\t\314\274\214H\3279\025\245i\217\367\376\252$\313\013\377\353\257\033M\210Z\016Ds\265\276\325\355\275\316\376\346\33300\225\370\210\nh1\227\245\2646A_p\211=|\2726+\r\302\375\374\316a\204\021w\314\253L\033i\004v\2202=\274Bz\345\325\224\277\326\017\261\301\302I\232?\246\265il\257\005\2757\206S\035r3\334\200\317\017#\204G\033G\254\305\247\250\244N@\023a\303\323+e\031\342X\027\267\321\351&1\b\254\034Zd;\337O\215\227n\022\203\243p=\n\327\243p=\n\327\243p=\n\327\243\314\314\314\314\314\314\314\314\314\314\314\314\314\314\314\314\000\000\000\000\000\000\000\000\000\000\000\000\000\000\000\200\000\000\000\000\000\000\000\000\000\000\000\000\000\000\000\240\000\000\000\000\000\000\000\000\000\000\000\000\000\000\000\310\000\000\000\000\000\000\000\000\000\000\000\000\000\000\000\372\000\000\000\000\000\000\000\000\000\000\000\000\000\000@\234\000\000\000\000\000\000\000\000\000\000\000\000\000\000P\303\000\000\000\000\000\000\000\000\000\000\000\000\000\000$\364\000\000\000\000\000\000\000\000\000\000\000\000\000\200\226\230\000\000\000\000\000\000\000\000\000\000\000\000\000 \274\276\000\000\000\000\000\000\000\000\000\000\000\000\000(k\356\000\000\000\000\000\000\000\000\000\000\000\000\000\371\002\225\000\000\000\000\000\000\000\000\000\000\000\000@\267C\272\000\000\000\000\000\000\000\000\000\000\000\000\020\245\324\350\000\000\000\000\000\000\000\000\000\000\000\000*\347\204\221\000\000\000\000\000\000\000\000\000\000\000\200\364 \346\265\000\000\000\000\000\000\000\000\000\000\000\2401\251_\343\000\000\000\000\000\000\000\000\000\000\000\004\277\311\033\216\000\000\000\000\000\000\000\000\000\000\000\305.\274\242\261\000\000\000\000\000\000\000\000\000\000@v:k\013\336\000\000\000\000\000\000\000\000\000\000\350\211\004#\307\212\000\000\000\000\000\000\000\000\000\000b\254\305\353x\255\000\000\000\000\000\000\000\000\000\200z\027\267&\327\330\000\000\000\000\000\000\000\000\000\220\254n2x\206\207\000\000\000\000\000\000\000\000\000\264W\n?\026h\251\000\000\000\000\000\000\000\000\000\241\355\314\316\033\302\323\000\000\000\000\000\000\000\000\240\204\024@aQY\204\000\000\000\000\000\000\000\000\310\245\031\220\271\245o\245\000\000\000\000\000\000\000\000:\017 \364'\217\313\316\000\000\000\000\000\000\000@\204\t\224\370x9?\201\000\000\000\000\000\000\000P\345\013\2716\327\007\217\241\000\000\000\000\000\000\000\244\336Ng\004\315\311\362\311\000\000\000\000\000\000\000M\226\"\201E@|o\374\000\000\000\000\000\000 \360\235\265p+\250\255\305\235\000\000\000\000\000\000(l\005\343L6\022\0317\305\000\000\000\000\000\0002\307\306\033\340\303V\337\204\366\000\000\000\000\000@\177<\\\021l:\226\013\023\232\000\000\000\000\000\020\237K\263\025\007\311{\316\227\300\000\000\000\000\000\324\206\036 \333H\273\032\302\275\360\000\000\000\000\200D\024\023\364\210\r\265P\231v\226\000\000\000\000\240U\331\0271\353P\342\244?\024\274\000\000\000\000\b\253\317]\375%\345\032\216O\031\353\000\000\000\000\345\312\241Z\2767\317\320\270\321\357\222\000\000\000@\236=J\361\255\005\003\005'\306\253\267\000\000\000\320\005\315\234m\031\307C\306\260\267\226\345\000\000\000\242#\000\202\344o\\\352{\3162~\217\000\000\200\212,\200\242\335\213\363\344\032\202\277]\263\000\000 \2557 \013\325n0\236\241b/5\340\000\0004\314\"\364&EE\336\002\245\235=!\214\000\000A\177+\261p\226\326\225C\016\005\215)\257\000@\021_v\335\f<L{\324QF\360\363\332\000\310j\373i\n\210\245\017\315$\363+v\330\210\000zEz\004\r\352\216S\000\356\357\266\223\016\253\200\330\326\230E\220\244rh\200\351\253\2448\322\325PG\206\177+\332\246GA\360q\353fc\243\205$\331g_\266\220\220\231QlN\246@<\f\247m\317A\367\343\264\364\377e\007\342\317PK\317\320\244!\211z\016\361\370\277\237D\355\201\022\217\201\202\rj+\031R-\367\257\307\225h\"\327\362!\243\220Dv\237\246\370\364\2339\273\002\353\214o\352\313\264\325SG\3206\362\002\bj\303%p\013\345\376\220e\224,Bb\327\001E\"\232\027&'O\237\365~\271\267\322:MB\326\252\200\235\357\360\"\307\262\336\247e\207\211\340\322\213\325\340\204+\255\353\370/\353\210\237\364U\314cw\205\f3;L\223\233\373%k\307qk\277<\325\246\317\377I\037x\302z\357E9NF\357\213\212\220\303\177\034'\026\363\254\265\313\343\360\213u\227V:\332\317q\330\355\227\027\243\276\034\355\356R=\354\310\320C\216N\351\275\335K\356c\250\252\247L'\373\304\3241\242c\355j\357t>\251\312\350\217\370\034\373$_E^\224D+\022\216S\375\342\2636\3449\356\266\326u\271\026\266\226q\250\274\333`D]\310\251dL\323\347\3151\376F\351U\211\274J:\035\352\276\017\344\220A\276\275\230c\253\253k\335\210\244\244\256\023\035\265\321-\355~<\226\226\306\024\253\315M\232Xd\342\242<T\317\345\035\036\374\354\212\240p`\267~\215\313K)C_\245%;\250\255\310\2148e\336\260\276\236\363\023\267\016\357I\022\331\372\257\206\376\025\3357Cxl2i5n\253\307\374-\024\277-\212\004T\226\007\177\303\302I\226\371{9\331.\271\254\006\351{\311^t3\334\373\367\332\207\217z\347\327\243q\355=\273(\240i\375\332\350\264\231\254\360\206\f\316h\r\3522\b\304\274\021#\"\300\327\254\250\220\001\303\220\244?\n\365+\326\253*\260\r\330\322\372\340y\332\306g&y\333e\253\032\216\b\307\2038Y\030\221\270\001pWR?V\241\261\312\270\244\206o^\265&\002L\355&\317\253\t^\375\346\315\264\005[1X\201OTxa\013\306Z^\260\200!\307\261=\256aci\3269\216w\361u\334\240\3518\036\315\031:\274\003L\310q\325m\223\023\311#\307e@\240H\253\004_:\316JIxX\373v\234?(d\r\353b{\344\300\316-K\027\235\224\203O2\275\320\245;\232\035qB\371\035]\304yd\343~\354D\217\312\000e\r\223wet\365\313\036N\317\023\213\231~ _\350\273j\277h\231~\246!\303\330\355?\236\350v\342jE\357\302\277\036\020\352\363N\351\317\305\242\024\233\305\026\253\263\357\022JrX\321\361\241\273\345\354\200;\356J\320\225\227\334\216\256En\212*\037(a\312\251]D\273\275\2232\032\327\t-\365&r\371<\024u\025\352V\234_p&&<YX\347\033\246,iM\222l\203w\f\260/\213o.\341\242\317w\303\340\266Gd\225\017\234\373m\013z\231\213\303U\364\230\344\254^\275\211A\275$G\354?7\232\265\230\337\216W\266,\354\221\354\355X\347\017\305\000\343~\227\262\355\3437g\266g)/\341S\366\300\233^=\337t\356\202\000\322\340y\275l\364\231X![\206\213\021\252\243\200\006Y\330\354\207q\300\256\351\361g\256\225\224\314 Ho\016\350\351\215p\032d\356\001\332\335\334\177\024\215\005\t1\262X\206\220\3764A\210\025\324\237Y\360FK\275\336\356\2474>\202Q\252\032\311\007p\254\030\236l\226\352\321\301\315\342\345\324\260\335\004\306k\317\342\003\2362#\231\300\255\017\205\034\025\206\267F\203\333\204E\377k\2770\231S\246c\232ge\030d\022\346\026\377F\357|\177\350\317~\300`?\217~\313On_\214\025\256O\361\201\235\3608\0173^\276\343Iw\357\232\231\243m\242\305,\007\323\277\365\255\\\034U\253\001\200\f\t\313\366\367\310\307/s\331sc*\026\002\240O\313\375\372\232\335\334\375\347g(~\332M\001\304\021\237\236\270\001\025T\375\341\201\262\035Q\241\0015\326F\306&B\032\251|Z\"\037e\245\tB\302\213\330\367Xi\260\351\215xu3_\007FiYW\347\232\256\203\034d\261\326R\0007\211\227\303/-\241\301\232\244#\275]\214g\300\204k}\264{x\t\362\340F6\226\272\267@\3702c\316PM\353E\227\230\330\303;\251\345P\266\377\373\001\245 f\027\275\276\316\264\212\023\037\345\243\377zB\316\250?]\3547\001\2616l3o\306\337\214\351\200\311G\272\223\204A]DG\000\013\270\027\360#\341\273\331\250\270\345\221t\025Y\300\r\246\035\354l\331*\020\323\346/\333h\2557\230\310\207\222\023\344\307\032\352C\220\373\021\303\230E\276\272)w\030\335y\241\344T\264z\326\363\376\326m)\364\224^T\330\311\035j\341\ffX_\246\344\231\030\035\2734'\236R\342\214\217\177.\367\317]\300^\344\351\001\261E\347\032\260s\037\372\364Cupv]dB\035\027\241!\334\250S\034yJI\006j\272~Ir\256\004\225\211\222hc\027\235\333\207\004i\336\333\016\332E\372\253\266B<]\204\322\251E\003\326\222\222P\327\370\326\262\251E\272\222#\212\013\302\305\233[\222\206[\206\036\024\327hw\254l\2162\267\202\3626h\362\247&\331\fC\225\327\0072\377d#\257D\002\357\321\270\007\350I\275\346D\177\037\037v\355ja5\203\246\tb\234l \026_\347\246\323\250\305\271\002\244\017\214z\303\207\250\3336\241\220\b\0237h\003\315\211\227,\332TII\302dZ\345k\"!\"\200l\275\267\020\252\233\333\362\375\260\336\006k\251*\240\307\254\345\224\224\202\222o=]\226\310\305S5\310\371\027\037\2729#w\313\214\364\273:\267\250B\372\373nS\024\004v*\377\327x\265\204r\251i\234\272Jh\031\205\023\365\376\r\327\342%\317\023\204\303i]\302_fX\262~\321\214[\357\302\030e\364az\331\373?w/\357\0028\231\325y/\277\230\372\330\317\372\017U\373\252\003\206\377JX\373\356\2768\317\203\371S*\272\225\204g\277].\272\252\356\203a\362{tZ\224\335\262\240\227\372\\\264*\225\344\371\356\232\021q\371\224\337\210=9tau\272]\270\252\001V\3157z\027\353\214G\321\271\022\351:\263\n\301U\340b\254\356\022\270\314\"\264\253\221\t`M1k\230{W\252\027\346\177+\241\026\266\013\270\240\375\205~Z\355\224\235\337_vI\234\343\007s\204\276\023\217X\024}\302\353\373\351\255A\216\310\217%\256\330\262nY\034\263\346zd\031\322\261\273\363\256\331\216_\312o\343_\240\231\275\237F\336TX\rH\271{\336%\356;\004\200\326#\354\212j\256\020\232\247\032V\257\351J\005 \314,\247\255\004\332\224\200Q\241+\033\244\235\006(\377\367\020\331B\b]\360\322D\373\220\206\"\004y\377\232\252\207SJt\254\007\026:5(+EW\277A\225\251\350\\\221\227\211\233\210B\362u\026-/\222\372\323\021\332\272\3765a\225i\267\t.|]\233|\204\225\220i~\203\271\372C%\2149\3334\302\233\245\273\364\003^\344g\371\224.\357\007\022\302\262\002\317\365x\302\272\356\340\033\035}\365DK\271\257a\2012\027si*\331bd\3342\026\236\247\033\272\241\376\334\317\003u\217{}\223\277\233\205\221\242(\312>\324\303DRs\332\\x\257\002\3475\313\262\374\247d\372j\023\210\b:\253\255a\260\001\277\357\235\320\375\270E\030\252\212\b\026\031z\034\302\256k\305E='W\236T\255\212[\237\230\243r\232\306\366K\206x\366\342T\2546\231c?\246\207 <\232\335\247\026\264\033jW\204\177<\317\217\251(\313\300\325Q\034\241\242Dme\237\013\303\363\323\362\375\360%\263\261\244\345Jd\237C\347Yx\304\267\236\226\356\037\336\r\237]=\207\024ap\226\265eF\274\352\247U\321\006\265\f\251Yy\f\374\"\377W\353\362\210\325B$\361\247\t\330\313\207\335u\377\026\223/\353\212Sm\355\021\f\316\276\351TS\277\334\267\372\245m\250\310h\026\217\201.$*(\357\323\345\274\207Di}\001n\371\020\235V\032yu\244\217\254\251\225\303\334\201\3117UD\354`\327\222\215\263\027\024{\364S\342\273\205jU'9\215\367p\340\216\354\314xtm\225\223b\225\270C\270\232F\214\262'\000\227\321\310z8\273\272\246TfAX\257\2361\300\374\005{\231\006ji\320\351\277Q.\333\003\037\370\275\343\354\037D\342A\"\362\027\363\374\210\303&v\255\034\350'\325Z\322\252\356\335/<\253t\260\323\330#\342q\212\361\206Uj\325;\013\326IN\204gV-\207\366Vtube\005\307\205\333ae\001\254\370(\264l\321\022\273\276\3068\247R\272\276\001\32763\341\307\205\327in\370\006\321s4\027aF\002\300\354\234\263&\002E[\244\202\220\001]\371\327\002\360'\204`\260B\026rM\243\364A\264\367\215\003\3541\245x\\\323\233\316 \314qR\241uq\004g~\316\2263\310B\002)\377\206\323\204\351\306b\000\017A> \275i\241y\237h\b\346\243x{\300R\321Mh,\304\tX\307\202\212\337\314V\232p\247Ea\20275\f.\371\221\266\013@v`\246\210\313|\261B\241\307\274\2335\244\016\320\223\370\317j\376\333]\223\211\371\253\302CM\022\304\270\366\203\005\376R5\370\353\367V\363Jp\213z3zr\303\336S!{\363Z\026\230\\L.Y\300\030Ot\326\250\351Y\260\361\033\276s\337yo\360\336b\021\f\023dp\034\356\242\355\250+\254EV\313\335\212\347\213>\306\321\324\205\224\2226\027\327+>\225m\341.\3167\006J\247\2717\004\335\314\266\215\372\310\231\272\301\305\207\034\021\350\242\"\n@\222\230\234\035\240\024\231\333\324\261\n\221K\253\f\320\266\276\003%\310Y\177\022J^M\265\035\326\017\204d\256D.:0\037\227\334\265\240\342\322\345\211\322\376\354\352\\$~s\336\251q\244\215G_,\207>\250%t\255]\020V\024\216\r\261\031w\367(N\022/\321\030u\224k\231\361P\335o\252\232\331pk\275\202/\311<\343\377\226R\212\013U\001\020M\306lc{\373\013\334\277<\347\254N\252\001T\340\367G<Z\372\016\323\357\013!\330q\n\2014\354\372\254ex\\\351\343u\247\024\207\rM\241A\2479\030\177\226\263\343\\S\321\331\250P\240\t\022\021H\336\036|\240\0344\250E\020\3232\004F\253\n\355J\223M\344\221 \211+\352\203?\205\027VM\250\035\370`]\266hk\266\344\244\216f\235\253`\022%6\271\364\343B\006\344\035\316\031`Bk|+\327\301\363x\316\351\203\256\322\200\037\370\022\206[\366L\2620\027B\344$Z\007\241'\266\227g\3623\340\336\374\234R\035\2560I\311\261\243}\001\357@\230\026<D\247\244\331|\233\373N\206\356`\225(\037\216\245\212\350\006\b.A\235\342'*\271\272\362\246\361N\255\242\b\212y\221\304\333\261tgi\257\020\256\242X\313\212\354\327\265\365)\357\250\340\241m\312\254e\027\277\326\363\246\221\231\363*\323X\n\t\375\027?\335n\314\260\020\366\277\260\365\007\357LK\374\335\216\224\212\377\334\224\363\357\216\371d\025\020\257\275J\331\234\266\037\n=\370\225\3617\276\032\324\032m\235\017D\244\247LLv\273\355\305m!\211a\310\204\023U\215\321_\337S\352\264\233\344\264\365<\3752,U\370\342\233kt\222\241\302\035\"3\214\274?wj\266\333\202\206\021\267J3\245\352?\257\253\017\025\005\244\222#\350\325\344\016@\247\362\207M\313)-\203\246;\026\261\005\217\022\020Q\357\351 >t\370#\220\312[\035\307\262\026T%k$\251M\221\366,4\275\262\344x\337\216T\367\302\266\211\320\032\032\234@\266\357\216\253\213\261)\265s$\254\204\241 \303\320\243\253r\226\256\036t\242\220-\327\345\311\350\363\304\214V\017<\332\222\210ez|\246/~q\030\373\027\226\211e\210\267\352\376\230\033\220\273\335\215\336\371\235\373\353~\252e\245>\177\"t*U1Vx\205\372\246\036\325_'\207\217\225\210:\325\3365k\223\\(3\2057\361h\363\272*\211\212V\003F\270s\362\177\246\205-C\260iu+-,\204W\246\020\357\037\320s\374)\016b);\234\233\262\366gj\365\023\202\217{\264\221\272\363I\203B_\364\001\305\362\230\242s\232!6\251p\034$\023wqBv/?\313\020\001\252\203\323\214#\355\327\324\r\323S\373\016\376\252@J2\00486\364\006\245\350c\024]\311\236\325\320\334>\005\306C\261H\316\342|Y\264{\306\n\005\224\216\206\267\224\335\332\201\033\334o\241\032\370&\203\034\031\264\362|\312(1\221\351\345\244\020\233\360\243c\037a/\034\375r}\365c\037\316\324\301\354\214<g9;c\274\317\334\362<\247\001J\362\023\330\205\340\003\005\276\325\001\312\027\206\bAn\227\030N\247\330D\206-K\202\274\235\247J\321I\275\236!\321\016\326\347\370\335\242+\205Q\235E\234\354\003\265B\311\345\220\273\312E;\363R\202\253\341\223Cb\223;\037uj=\027\n\260\347b\026\332\270\324:x\ng\022\305\f\235\f\234\241\373\233\020\347\305$\213f\200+\373'\342\207\001E}aj\220\366\355-\200`\366\371\261\332\351A\226\334\371\204\264si9\240\370sx^Qd\322\273S8\246\341\350\341#d{H\013\333\262~cU4\343\007\215b\332,=\232\032\316\221_^\274j\001\334I\260\373\020x\314@\241Av\367uk\305\001S\\\334\235\n\313\177\310\004\351\251\272)c\033\341\263\271\211D\315\275\237\372EcT)\364;b\331 (\254\225@\255Gy\027|\2513\361\312\272\017)2\327]H\314\314\253\216\355I\300\326\276\324\251Y\177\206tZ\377\277V\362h\\p\214\356I\0240\037\250\0211\377o\354.\203s\214/j\\\031\374&\322\253~\377\305S\3751\310\267]\302\331\217]X\203U^\177\267\250|>\272%\3652\320\363t.\244\3535_\345\322\033\316(o\262?\3040\022:\315\263\201[\317c\321\200y\205\317\247z^KD\200\037b2\303\274\005\341\327f\303Q\0316^U\240\247\372\376\363+G\331\215@4\246\237\303\265j\310Q\271\376\360\366\230O\261P\301\217\2074c\205\372\3233\237V\232\277\321n\322\330\271\324\000^\223\234\310\000G\354\200/\206\n\007O\350\t\2015\270\303\372\300X'a\273'\315\310bbL\341B\246\364\234x\227\270\034\3258\200\275}\275\317\314\351\347\230\303V\275\346c\nG\340,\335\254\003@\344!\277t\254l\340\374\314X\030x\024\230\004P]\352\356\310\353C\f\036\2007\017\313\f\337\002RzR\225\272\346T\217%`\005\323\375\317\226\203\346\030\247\272i *\363.\270\306G\375\203|$ \337P\351AT\372W\0353\334L~\322\315\026t\213\322\221R\351\370\255\344?\023\340\035G\201\034Q.G\266\246#w\331\335\017\030X\345\230\241c\345\371\330\343Hv\352\247\352\t\017W\217\377D^/\234g\216\332\023\345Qe\314\322,s?\3265;\203\001\262\321X^\246~\177\007\370O\317K\003\n\344\201\336\202\367\372'\257\257\004\373\221a\017B\206.\021\213c\265\371\361\232\333\305y\3669\223\322'z\325\255\274\"x\256\201R7\030t\b8\307\261\330J\331\265\025\013\r\221\223\"\217H\005\203\034o\307\316\207\"\333MPu8\353\262\232\306\243\343Jy\302\251\353Qa\244\222\006\246_A\270\214\234\235\0273\3243\323\274\246\033\304\307\333(\363\327\201\302\356\237\204\000\bl\220\"\265\271\022\363\357M\"s\352\307\245\000\n\2074k\"h\327\357k\341\352\017\3459\317@f\324\000\203\025\241\346u\343\314\362)/\204\201\320\177\t\301\343ZI`S\034\200o\364:\345\241\304\337K\261\234\261[8h#`\213\261\211^\312\265\327\236\335\003\236rFB,8\356\035,\366\374\321F\203j\302\242\007l\251\033\343\264\222\333\031\236\205\030$\005s\213\t\307\223\342\033bwR\240\305"
	.size	.Lstatic.3, 10688

	.type	.Lstatic.4,@object
	.section	.rodata..Lstatic.4,"a",@progbits
	.p2align	2, 0x0
.Lstatic.4:
	.ascii	"\000\000\200?\000\000 A\000\000\310B\000\000zD\000@\034F\000P\303G\000$tI\200\226\030K \274\276L(knN\371\002\025P"
	.size	.Lstatic.4, 44

	.type	.Lstatic.8,@object
	.section	.rodata..Lstatic.8,"a",@progbits
	.p2align	3, 0x0
.Lstatic.8:
	.ascii	"\000\000\000\000\000\000\360?\000\000\000\000\000\000$@\000\000\000\000\000\000Y@\000\000\000\000\000@\217@\000\000\000\000\000\210\303@\000\000\000\000\000j\370@\000\000\000\000\200\204.A\000\000\000\000\320\022cA\000\000\000\000\204\327\227A\000\000\000\000e\315\315A\000\000\000 _\240\002B\000\000\000\350vH7B\000\000\000\242\224\032mB\000\000@\345\2340\242B\000\000\220\036\304\274\326B\000\0004&\365k\fC\000\200\3407y\303AC\000\240\330\205W4vC\000\310Ngm\301\253C\000=\221`\344X\341C@\214\265x\035\257\025DP\357\342\326\344\032KD\222\325M\006\317\360\200D"
	.size	.Lstatic.8, 184

	.type	.Lstatic.26,@object
	.section	.rodata..Lstatic.26,"a",@progbits
.Lstatic.26:
	.ascii	"rue"
	.size	.Lstatic.26, 3

	.type	.Lstatic.27,@object
	.section	.rodata.cst4,"aM",@progbits,4
.Lstatic.27:
	.ascii	"alse"
	.size	.Lstatic.27, 4

	.type	.Lstatic.28,@object
	.section	.rodata..Lstatic.28,"a",@progbits
.Lstatic.28:
	.ascii	"ull"
	.size	.Lstatic.28, 3

	.type	".Lswitch.table.amq_protocol_types::generation::values::gen_field_table::<#4ea8deeae94023ba>",@object
	.section	".rodata..Lswitch.table.amq_protocol_types::generation::values::gen_field_table::<#4ea8deeae94023ba>","a",@progbits
	.p2align	2, 0x0
".Lswitch.table.amq_protocol_types::generation::values::gen_field_table::<#4ea8deeae94023ba>":
	.ascii	"tbBsuIilfdD_SATFxV"
	.size	".Lswitch.table.amq_protocol_types::generation::values::gen_field_table::<#4ea8deeae94023ba>", 18

	.type	".Lswitch.table.amqp_in_place::rabbitmq::warning::inside",@object
	.section	".rodata..Lswitch.table.amqp_in_place::rabbitmq::warning::inside","a",@progbits
	.p2align	3, 0x0
".Lswitch.table.amqp_in_place::rabbitmq::warning::inside":
	.xword	0
	.xword	0
	.xword	0
	.xword	0
	.xword	0
	.xword	0
	.xword	0
	.xword	0
	.xword	0
	.xword	0
	.xword	0
	.xword	0
	.xword	0
	.xword	0
	.xword	1
	.xword	0
	.xword	1
	.xword	0
	.xword	0
	.size	".Lswitch.table.amqp_in_place::rabbitmq::warning::inside", 152

	.type	.Lswitch.table.amqpv_canonical,@object
	.section	.rodata..Lswitch.table.amqpv_canonical,"a",@progbits
	.p2align	3, 0x0
.Lswitch.table.amqpv_canonical:
	.xword	1
	.xword	5
	.xword	2
	.xword	3
	.xword	4
	.xword	6
	.xword	7
	.size	.Lswitch.table.amqpv_canonical, 56

	.type	nothing,@object
	.section	.rodata.nothing,"a",@progbits
nothing:
	.byte	0
	.size	nothing, 1

	.ident	"rattle logic=dac8208d650f15bf3e2dc313a14fa4c783a3acf887bdfab66e1714b038d9e11b"
	.ident	"clang version 22.1.8"
	.section	".note.GNU-stack","",@progbits
