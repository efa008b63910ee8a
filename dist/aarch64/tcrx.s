	.section	.text.tc_c_base.status.code,"ax",@progbits
	.p2align	2
tc_c_base.status.code:
	and	x8, x0, #0xff
	adrp	x9, .Lswitch.table.tc_c_base.status.code
	add	x9, x9, :lo12:.Lswitch.table.tc_c_base.status.code
	ldr	w0, [x9, x8, lsl #2]
	ret
	.section	.text.tc_c.channel.tcrx_channel_frame_at,"ax",@progbits
	.p2align	2
tc_c.channel.tcrx_channel_frame_at:
	sub	sp, sp, #112
	ldrb	w8, [x1]
	stp	x20, x19, [sp, #96]
	mov	x19, x0
	stp	x29, x30, [sp, #16]
	add	x29, sp, #16
	cmp	w8, #1
	stp	x28, x27, [sp, #32]
	stp	x26, x25, [sp, #48]
	stp	x24, x23, [sp, #64]
	stp	x22, x21, [sp, #80]
	b.ne	613f
	cmp	x3, #5
	b.hs	602f
	mov	w0, #1
	b	498f
613:
	mov	w24, wzr
	mov	w8, wzr
	mov	w10, wzr
	mov	w9, wzr
	mov	w11, wzr
	mov	w0, #70
	b	598f
602:
	ldrb	w8, [x2]
	cmp	w8, #63
	b.hi	613f
	tst	w8, #0xc
	b.eq	602f
	mov	w0, #3
	b	498f
613:
	mov	w0, #2
498:
	bl	tc_c_base.status.code
	mov	w24, wzr
	mov	w8, wzr
	mov	w10, wzr
	mov	w9, wzr
	mov	w11, wzr
598:
	stp	w0, w24, [x19]
	ldp	x22, x21, [sp, #80]
	str	w8, [x19, #8]
	ldp	x24, x23, [sp, #64]
	strb	w10, [x19, #12]
	ldp	x26, x25, [sp, #48]
	strb	w9, [x19, #13]
	ldp	x28, x27, [sp, #32]
	strb	w11, [x19, #14]
	ldp	x29, x30, [sp, #16]
	strb	wzr, [x19, #15]
	ldp	x20, x19, [sp, #96]
	add	sp, sp, #112
	ret
602:
	ldrb	w9, [x2, #2]
	ldrb	w10, [x2, #3]
	lsl	w9, w9, #8
	and	w9, w9, #0x300
	orr	w10, w9, w10
	cmp	w10, #5
	b.hs	62f
	mov	w0, #4
	b	498b
62:
	add	w9, w10, #1
	cmp	x3, x9
	b.hs	93f
	mov	w0, #5
	b	498b
93:
	ldr	x23, [x1, #8]
	cmp	w8, #32
	b.hs	62f
	tbnz	w8, #4, 983f
	ldrb	w8, [x2, #4]
	ldrb	w10, [x23, #90]
	subs	w10, w8, w10
	b.ne	602f
	ldr	x10, [x23, #128]
	ldr	x11, [x23, #112]
	cmp	x10, x11
	b.hs	148f
	ldrb	w11, [x23, #89]
	cbz	w11, 659f
	mov	w9, wzr
	mov	w24, wzr
	mov	x8, xzr
	mov	w10, #1
	ldr	x11, [x23, #288]
	cmn	x11, #1
	b.ne	316f
	b	405f
62:
	add	x20, x2, #5
	tbnz	w8, #4, 118f
	ldrb	w10, [x23, #152]
	ldrb	w8, [x20]
	sub	x22, x9, #5
	cmp	w10, #1
	and	x25, x8, #0x3f
	b.ne	93f
	lsr	w8, w8, #3
	mov	w10, #1
	ldr	x0, [x23, #168]
	movk	w10, #770, lsl #16
	sub	x4, x9, #6
	orr	x1, x25, #0x40
	and	w8, w8, #0x18
	add	x3, x2, #6
	orr	x21, x25, #0x40
	lsr	w8, w10, w8
	mov	w2, w8
	bl	tc_packet.runs.follow_at._0e1c90a670cc60a2
	ands	w8, w0, #0xff
	b.eq	613f
	cmp	w8, #1
	b.ne	943f
	and	x8, x0, #0xff
	b	32f
118:
	cmp	w10, #7
	b.eq	556f
	cmp	w10, #5
	b.ne	983f
	ldrb	w8, [x20]
	cbnz	w8, 983f
	add	x0, x23, #89
	bl	tc_link.farm.unlock
	mov	w9, wzr
	mov	w24, wzr
	mov	x8, xzr
	mov	w10, #7
	ldr	x11, [x23, #288]
	cmn	x11, #1
	b.ne	316f
	b	405f
602:
	ldrb	w8, [x23, #88]
	lsr	w8, w8, #1
	cmp	w8, w10, uxtb
	b.hi	946f
	neg	w9, w10
	cmp	w8, w9, uxtb
	b.lo	312f
	mov	w9, wzr
	mov	w24, wzr
	mov	x8, xzr
	mov	w10, #4
	ldr	x11, [x23, #288]
	cmn	x11, #1
	b.ne	316f
	b	405f
93:
	ldr	x8, [x23, #160]
	cmp	x22, x8
	b.ls	187f
613:
	mov	w24, wzr
	mov	x8, xzr
	b	87f
556:
	ldrb	w8, [x20]
	cmp	w8, #130
	b.ne	983f
	ldrb	w8, [x2, #6]
	cbz	w8, 401f
983:
	mov	w9, wzr
	mov	w24, wzr
	mov	x8, xzr
	mov	w10, #9
	ldr	x11, [x23, #288]
	cmn	x11, #1
	b.eq	405f
316:
	add	x11, x11, #1
	str	x11, [x23, #288]
405:
	lsr	x11, x8, #32
	mov	w0, wzr
	b	598b
187:
	mov	x8, xzr
32:
	mov	w16, wzr
	add	x21, x20, x8
	sub	x20, x22, x8
	b	93f
659:
	ldr	x11, [x23, #120]
	add	w8, w8, #1
	strb	w8, [x23, #90]
	add	x1, x2, #5
	sub	x8, x9, #5
	add	x10, x11, x10
	ldp	x11, x12, [x23, #96]
	strb	wzr, [x23, #93]
	cmp	x10, x12
	csel	x12, xzr, x12, lo
	sub	x10, x10, x12
	add	x10, x11, x10, lsl #5
	ldr	x0, [x10]
	str	x8, [x10, #24]
	sub	x11, x0, x1
	cmp	x11, x8
	b.hs	911f
	cmp	x8, #8
	b.lo	613f
	sub	x10, x0, x2
	sub	x10, x10, #5
	cmp	x10, #32
	b.hs	474f
613:
	mov	x10, xzr
62:
	add	x11, x10, #5
	add	x10, x0, x10
	sub	x8, x11, x9
	add	x9, x2, x11
602:
	ldrb	w11, [x9], #1
	adds	x8, x8, #1
	strb	w11, [x10], #1
	b.lo	602b
	b	885f
943:
	mov	w8, #40
	ldr	x9, [x23, #168]
	mov	w16, #1
	umaddl	x8, w21, w8, x9
	ldr	x21, [x8, #8]
	ldr	x20, [x8, #32]
93:
	ldr	x11, [x23, #272]
	ldp	x17, x28, [x23, #216]
	ldp	x8, x9, [x23, #240]
	mov	w10, w25
	cmp	x11, x10
	b.ls	613f
	ldr	x11, [x23, #264]
	ldrh	w10, [x11, x10, lsl #1]
	cmp	x9, x10
	b.ls	118f
	lsl	x10, x10, #6
481:
	add	x22, x8, x10
	ldr	x8, [x22, #40]
	ldr	x9, [x22, #24]
	cmp	x9, x8
	b.ls	32f
	ldr	x9, [x22, #32]
	add	x8, x9, x8
	ldp	x9, x10, [x22, #8]
	cmp	x8, x10
	csel	x10, xzr, x10, lo
	sub	x8, x8, x10
	add	x8, x9, x8, lsl #5
	ldr	x0, [x8]
	str	x20, [x8, #24]
	sub	x9, x0, x21
	cmp	x9, x20
	b.hs	239f
	cmp	x20, #8
	mov	x8, xzr
	b.lo	893f
	cmp	x9, #32
	b.lo	893f
	cmp	x20, #32
	b.hs	192f
	mov	x8, xzr
	b	599f
613:
	cbz	x9, 118f
	mov	x10, xzr
335:
	ldrh	w11, [x8, x10]
	cmp	w11, w25
	b.eq	481b
	subs	x9, x9, #1
	add	x10, x10, #64
	b.ne	335b
118:
	cmp	x20, #7
	b.hs	613f
	mov	x24, xzr
	mov	x26, xzr
118:
	cmp	x20, #0
	mov	x9, #4294967296
	sub	x8, x26, x24
	csel	x9, xzr, x9, eq
	b	943f
613:
	mov	x26, xzr
	mov	x24, xzr
602:
	ldrb	w10, [x21]
	cmp	w10, #31
	b.hi	625f
	ldrb	w8, [x21, #5]
	ldrb	w9, [x21, #4]
	mov	x11, x8
	bfi	x11, x9, #8, #8
	add	x22, x11, #7
	subs	x20, x20, x22
	b.lo	625f
	cmp	w10, #16
	b.lo	280f
	ldrb	w11, [x21, #1]
	bfi	x11, x10, #8, #3
	ldp	x10, x12, [x23, #192]
	cmp	x28, x11
	b.ls	613f
	ldrh	w11, [x17, x11, lsl #1]
	cmp	x12, x11
	b.ls	280f
	lsl	x13, x11, #6
481:
	add	x27, x10, x13
	ldr	x10, [x27, #40]
	ldr	x11, [x27, #24]
	cmp	x11, x10
	b.ls	280f
	ldr	x11, [x27, #32]
	add	x10, x11, x10
	ldp	x11, x12, [x27, #8]
	cmp	x10, x12
	csel	x12, xzr, x12, lo
	sub	x10, x10, x12
	add	x10, x11, x10, lsl #5
	ldr	x0, [x10]
	str	x22, [x10, #24]
	sub	x12, x0, x21
	cmp	x12, x22
	b.hs	983f
	lsl	x9, x9, #8
	add	x10, x8, x9
	add	x11, x10, #7
	mov	x10, xzr
	cmp	x11, #8
	b.lo	481f
	cmp	x12, #32
	b.lo	481f
	cmp	x11, #32
	b.hs	447f
	mov	x10, xzr
	b	187f
613:
	cbz	x12, 280f
	mov	x13, xzr
335:
	ldrh	w14, [x10, x13]
	cmp	w11, w14
	b.eq	481b
	subs	x12, x12, #1
	add	x13, x13, #64
	b.ne	335b
280:
	cmp	x20, #6
	add	x21, x21, x22
	add	x24, xzr, x24
	add	x26, x26, #1
	b.hi	602b
	b	118b
983:
	mov	x1, x21
	mov	x2, x22
	str	w16, [sp, #4]
	str	x25, [sp, #8]
	mov	x25, x17
	bl	memmove
	mov	x17, x25
	ldr	x25, [sp, #8]
	ldr	w16, [sp, #4]
	b	659f
447:
	and	x12, x11, #0x18
	and	x10, x11, #0x1ffe0
	add	x13, x21, #16
	add	x14, x0, #16
	and	x15, x11, #0x1ffe0
976:
	ldp	q0, q1, [x13, #-16]
	subs	x15, x15, #32
	add	x13, x13, #32
	stp	q0, q1, [x14, #-16]
	add	x14, x14, #32
	b.ne	976b
	cmp	x11, x10
	b.eq	659f
	cbz	x12, 481f
187:
	mov	x14, x10
	and	x10, x11, #0x1fff8
	sub	x12, x14, x10
	add	x13, x21, x14
	add	x14, x0, x14
93:
	ldr	d0, [x13], #8
	adds	x12, x12, #8
	str	d0, [x14], #8
	b.ne	93b
	cmp	x11, x10
	b.eq	659f
481:
	add	x8, x9, x8
	add	x9, x21, x10
	sub	x8, x8, x10
	add	x10, x0, x10
	add	x8, x8, #7
556:
	ldrb	w11, [x9], #1
	subs	x8, x8, #1
	strb	w11, [x10], #1
	b.ne	556b
659:
	ldr	x8, [x27, #40]
	add	x8, x8, #1
	str	x8, [x27, #40]
	mov	w8, #1
	cmp	x20, #6
	add	x21, x21, x22
	add	x24, x8, x24
	add	x26, x26, #1
	b.hi	602b
	b	118b
32:
	mov	w24, wzr
	mov	w8, #1
	b	263f
911:
	mov	x2, x8
	bl	memmove
885:
	ldr	x9, [x23, #128]
	mov	w24, wzr
	mov	x8, xzr
	mov	w10, #1
	add	x9, x9, #1
	str	x9, [x23, #128]
	mov	w9, #1
	ldr	x11, [x23, #288]
	cmn	x11, #1
	b.ne	316b
	b	405b
625:
	sub	x8, x26, x24
	mov	x9, #4294967296
943:
	mov	w8, w8
	orr	x8, x9, x8
	b	263f
401:
	ldrb	w9, [x23, #94]
	ldrb	w8, [x23, #89]
	ldrb	w10, [x2, #7]
	add	w9, w9, #1
	cmp	w8, #2
	and	w9, w9, #0x3
	strb	w9, [x23, #94]
	b.eq	613f
	cmp	w8, #1
	b.ne	983f
	mov	w9, wzr
	mov	w24, wzr
	mov	x8, xzr
	strb	wzr, [x23, #89]
	strb	w10, [x23, #90]
	mov	w10, #8
	strh	wzr, [x23, #92]
	ldr	x11, [x23, #288]
	cmn	x11, #1
	b.ne	316b
	b	405b
239:
	mov	x1, x21
	mov	x2, x20
	mov	w20, w16
	bl	memmove
	mov	w16, w20
	b	659f
148:
	add	x0, x23, #89
	bl	tc_link.farm.full
	mov	w9, wzr
	mov	w24, wzr
	mov	x8, xzr
	mov	w10, #2
	ldr	x11, [x23, #288]
	cmn	x11, #1
	b.ne	316b
	b	405b
946:
	add	x0, x23, #89
	bl	tc_link.farm.ahead
	mov	w9, wzr
	mov	w24, wzr
	mov	x8, xzr
	mov	w10, #3
	ldr	x11, [x23, #288]
	cmn	x11, #1
	b.ne	316b
	b	405b
312:
	add	x0, x23, #89
	bl	tc_link.farm.outside
	mov	w9, wzr
	mov	w24, wzr
	mov	x8, xzr
	mov	w10, #5
	ldr	x11, [x23, #288]
	cmn	x11, #1
	b.ne	316b
	b	405b
474:
	cmp	x8, #32
	b.hs	447f
	mov	x10, xzr
	b	187f
613:
	mov	w9, wzr
	mov	w24, wzr
	mov	x8, xzr
	mov	w10, #8
	ldr	x11, [x23, #288]
	cmn	x11, #1
	b.ne	316b
	b	405b
983:
	mov	w9, wzr
	mov	w24, wzr
	mov	x8, xzr
	strb	w10, [x23, #90]
	mov	w10, #8
	strb	wzr, [x23, #93]
	ldr	x11, [x23, #288]
	cmn	x11, #1
	b.ne	316b
	b	405b
192:
	and	x9, x20, #0x18
	and	x8, x20, #0xffffffffffffffe0
	add	x10, x21, #16
	add	x11, x0, #16
	and	x12, x20, #0xffffffffffffffe0
976:
	ldp	q0, q1, [x10, #-16]
	subs	x12, x12, #32
	add	x10, x10, #32
	stp	q0, q1, [x11, #-16]
	add	x11, x11, #32
	b.ne	976b
	cmp	x20, x8
	b.eq	659f
	cbz	x9, 893f
599:
	mov	x11, x8
	and	x8, x20, #0xfffffffffffffff8
	sub	x9, x11, x8
	add	x10, x21, x11
	add	x11, x0, x11
93:
	ldr	d0, [x10], #8
	adds	x9, x9, #8
	str	d0, [x11], #8
	b.ne	93b
	cmp	x20, x8
	b.eq	659f
893:
	sub	x9, x20, x8
	add	x10, x21, x8
	add	x8, x0, x8
602:
	ldrb	w11, [x10], #1
	subs	x9, x9, #1
	strb	w11, [x8], #1
	b.ne	602b
659:
	ldr	x9, [x22, #40]
	mov	x8, xzr
	mov	w24, #1
	add	x9, x9, #1
	str	x9, [x22, #40]
263:
	ldr	x10, [x23, #176]
	orr	w9, w25, #0x40
	cmp	x10, x9
	b.ls	87f
	mov	w10, #40
	umull	x9, w9, w10
	ldr	x10, [x23, #168]
	strb	wzr, [x10, x9]
87:
	ldrb	w9, [x23, #94]
	mov	w10, #6
	add	w9, w9, #1
	and	w9, w9, #0x3
	strb	w9, [x23, #94]
	mov	w9, #1
	ldr	x11, [x23, #288]
	cmn	x11, #1
	b.ne	316b
	b	405b
447:
	and	x11, x8, #0x18
	and	x10, x8, #0xffffffffffffffe0
	add	x12, x2, #21
	add	x13, x0, #16
	and	x14, x8, #0xffffffffffffffe0
976:
	ldp	q0, q1, [x12, #-16]
	subs	x14, x14, #32
	add	x12, x12, #32
	stp	q0, q1, [x13, #-16]
	add	x13, x13, #32
	b.ne	976b
	cmp	x8, x10
	b.eq	885b
	cbz	x11, 62b
187:
	mov	x13, x10
	and	x10, x8, #0xfffffffffffffff8
	add	x12, x13, x2
	sub	x11, x13, x10
	add	x13, x0, x13
	add	x12, x12, #5
93:
	ldr	d0, [x12], #8
	adds	x11, x11, #8
	str	d0, [x13], #8
	b.ne	93b
	cmp	x8, x10
	b.eq	885b
	b	62b
	.section	.text.tc_packet.runs.follow_at._0e1c90a670cc60a2,"ax",@progbits
	.p2align	2
tc_packet.runs.follow_at._0e1c90a670cc60a2:
	stp	x29, x30, [sp, #-32]!
	mov	w8, #40
	stp	x20, x19, [sp, #16]
	mov	x29, sp
	madd	x19, x1, x8, x0
	and	w8, w2, #0xff
	cmp	w8, #1
	b.gt	118f
	cbnz	w8, 556f
	ldr	x8, [x19, #16]
	cmp	x8, x4
	b.lo	983f
	ldr	x0, [x19, #8]
	str	x4, [x19, #32]
	sub	x9, x0, x3
	cmp	x9, x4
	b.hs	187f
	cmp	x4, #8
	mov	x8, xzr
	b.lo	625f
	cmp	x9, #32
	b.lo	625f
	cmp	x4, #32
	b.hs	447f
	mov	x8, xzr
	b	911f
118:
	cmp	w8, #2
	b.ne	659f
	ldrb	w8, [x19]
	cmp	w8, #1
	b.ne	983f
	ldr	x8, [x19, #16]
	ldr	w9, [x19, #4]
	sub	x8, x8, x9
	cmp	x8, x4
	b.lo	983f
	ldr	x8, [x19, #32]
	cmp	x8, x9
	b.ls	93f
	mov	x8, x9
	str	x9, [x19, #32]
93:
	ldr	x9, [x19, #8]
	add	x0, x9, x8
	sub	x10, x0, x3
	cmp	x10, x4
	b.hs	32f
	cmp	x4, #8
	b.lo	613f
	add	x10, x8, x9
	sub	x10, x10, x3
	cmp	x10, #32
	b.hs	118f
613:
	mov	x10, xzr
62:
	add	x11, x10, x8
	sub	x8, x4, x10
	add	x10, x3, x10
	add	x9, x9, x11
602:
	ldrb	w11, [x10], #1
	subs	x8, x8, #1
	strb	w11, [x9], #1
	b.ne	602b
	b	885f
556:
	ldrb	w8, [x19]
	cmp	w8, #1
	b.ne	983f
	ldr	x8, [x19, #16]
	ldr	w9, [x19, #4]
	sub	x8, x8, x9
	cmp	x8, x4
	b.lo	983f
	ldr	x8, [x19, #32]
	cmp	x8, x9
	b.ls	93f
	mov	x8, x9
	str	x9, [x19, #32]
93:
	ldr	x9, [x19, #8]
	add	x0, x9, x8
	sub	x10, x0, x3
	cmp	x10, x4
	b.hs	943f
	cmp	x4, #8
	b.lo	613f
	add	x10, x8, x9
	sub	x10, x10, x3
	cmp	x10, #32
	b.hs	280f
613:
	mov	x10, xzr
316:
	add	x11, x10, x8
	sub	x8, x4, x10
	add	x10, x3, x10
	add	x9, x9, x11
602:
	ldrb	w11, [x10], #1
	subs	x8, x8, #1
	strb	w11, [x9], #1
	b.ne	602b
	b	93f
659:
	ldr	x8, [x19, #16]
	cmp	x4, x8
	b.ls	613f
983:
	mov	w0, wzr
	strb	wzr, [x19]
	ldp	x20, x19, [sp, #16]
	ldp	x29, x30, [sp], #32
	ret
613:
	mov	w0, #1
	ldp	x20, x19, [sp, #16]
	ldp	x29, x30, [sp], #32
	ret
187:
	mov	x1, x3
	mov	x2, x4
	mov	x20, x4
	bl	memmove
	mov	x4, x20
	b	613f
32:
	mov	x1, x3
	mov	x2, x4
	mov	x20, x4
	bl	memmove
	mov	x4, x20
885:
	ldr	x8, [x19, #32]
	mov	w0, #2
	add	x8, x8, x4
	str	x8, [x19, #32]
	ldp	x20, x19, [sp, #16]
	ldp	x29, x30, [sp], #32
	ret
943:
	mov	x1, x3
	mov	x2, x4
	mov	x20, x4
	bl	memmove
	mov	x4, x20
93:
	ldr	x8, [x19, #32]
	mov	w0, wzr
	add	x8, x8, x4
	str	x8, [x19, #32]
	str	w8, [x19, #4]
	ldp	x20, x19, [sp, #16]
	ldp	x29, x30, [sp], #32
	ret
447:
	and	x9, x4, #0x18
	and	x8, x4, #0xffffffffffffffe0
	add	x10, x3, #16
	add	x11, x0, #16
	and	x12, x4, #0xffffffffffffffe0
976:
	ldp	q0, q1, [x10, #-16]
	subs	x12, x12, #32
	add	x10, x10, #32
	stp	q0, q1, [x11, #-16]
	add	x11, x11, #32
	b.ne	976b
	cmp	x4, x8
	b.eq	613f
	cbz	x9, 625f
911:
	mov	x11, x8
	and	x8, x4, #0xfffffffffffffff8
	sub	x9, x11, x8
	add	x10, x3, x11
	add	x11, x0, x11
659:
	ldr	d0, [x10], #8
	adds	x9, x9, #8
	str	d0, [x11], #8
	b.ne	659b
	cmp	x4, x8
	b.eq	613f
625:
	sub	x9, x4, x8
	add	x10, x3, x8
	add	x8, x0, x8
602:
	ldrb	w11, [x10], #1
	subs	x9, x9, #1
	strb	w11, [x8], #1
	b.ne	602b
613:
	mov	w8, #1
	mov	w0, wzr
	str	w4, [x19, #4]
	strb	w8, [x19]
	ldp	x20, x19, [sp, #16]
	ldp	x29, x30, [sp], #32
	ret
118:
	cmp	x4, #32
	b.hs	481f
	mov	x10, xzr
	b	613f
280:
	cmp	x4, #32
	b.hs	62f
	mov	x10, xzr
	b	983f
481:
	add	x13, x8, x9
	and	x11, x4, #0x18
	and	x10, x4, #0xffffffffffffffe0
	add	x12, x3, #16
	add	x13, x13, #16
	and	x14, x4, #0xffffffffffffffe0
976:
	ldp	q0, q1, [x12, #-16]
	subs	x14, x14, #32
	add	x12, x12, #32
	stp	q0, q1, [x13, #-16]
	add	x13, x13, #32
	b.ne	976b
	cmp	x4, x10
	b.eq	885b
	cbz	x11, 62b
613:
	mov	x12, x10
	and	x10, x4, #0xfffffffffffffff8
	add	x13, x12, x8
	sub	x11, x12, x10
	add	x12, x3, x12
	add	x13, x9, x13
659:
	ldr	d0, [x12], #8
	adds	x11, x11, #8
	str	d0, [x13], #8
	b.ne	659b
	cmp	x4, x10
	b.eq	885b
	b	62b
62:
	add	x13, x8, x9
	and	x11, x4, #0x18
	and	x10, x4, #0xffffffffffffffe0
	add	x12, x3, #16
	add	x13, x13, #16
	and	x14, x4, #0xffffffffffffffe0
976:
	ldp	q0, q1, [x12, #-16]
	subs	x14, x14, #32
	add	x12, x12, #32
	stp	q0, q1, [x13, #-16]
	add	x13, x13, #32
	b.ne	976b
	cmp	x4, x10
	b.eq	93b
	cbz	x11, 316b
983:
	mov	x12, x10
	and	x10, x4, #0xfffffffffffffff8
	add	x13, x12, x8
	sub	x11, x12, x10
	add	x12, x3, x12
	add	x13, x9, x13
659:
	ldr	d0, [x12], #8
	adds	x11, x11, #8
	str	d0, [x13], #8
	b.ne	659b
	cmp	x4, x10
	b.eq	93b
	b	316b
	.section	.text.unlikely.tc_link.farm.full,"ax",@progbits
	.p2align	2
tc_link.farm.full:
	ldrb	w8, [x0]
	cbz	w8, 613f
	ret
613:
	mov	w8, #1
	mov	w9, #257
	strb	w8, [x0]
	sturh	w9, [x0, #3]
	ret
	.section	.text.unlikely.tc_link.farm.ahead,"ax",@progbits
	.p2align	2
tc_link.farm.ahead:
	ldrb	w8, [x0]
	cbz	w8, 613f
	ret
613:
	mov	w8, #1
	strb	w8, [x0, #4]
	ret
	.section	.text.unlikely.tc_link.farm.outside,"ax",@progbits
	.p2align	2
tc_link.farm.outside:
	ldrb	w8, [x0]
	cmp	w8, #2
	b.eq	350f
	cmp	w8, #1
	mov	w8, #2
	mov	w9, #1
	strb	w8, [x0]
	strb	w9, [x0, #2]
350:
	ret
	.section	.text.tc_link.farm.unlock,"ax",@progbits
	.p2align	2
tc_link.farm.unlock:
	ldrb	w8, [x0, #5]
	strb	wzr, [x0, #4]
	add	w9, w8, #1
	ldrb	w8, [x0]
	and	w9, w9, #0x3
	strb	w9, [x0, #5]
	cbz	w8, 350f
	cmp	w8, #2
	b.ne	560f
	strb	wzr, [x0]
	strh	wzr, [x0, #2]
350:
	ret
560:
	strb	wzr, [x0]
	strb	wzr, [x0, #3]
	ret
	.section	.text.circular_buffer.heap.HeapCircularBuffer.drop._e2a004e41971e60f,"ax",@progbits
	.p2align	2
circular_buffer.heap.HeapCircularBuffer.drop._e2a004e41971e60f:
	stp	x29, x30, [sp, #-64]!
	stp	x20, x19, [sp, #48]
	ldr	x20, [x0, #16]
	ldr	x19, [x0]
	stp	x24, x23, [sp, #16]
	mov	x29, sp
	stp	x22, x21, [sp, #32]
	cbz	x20, 613f
	ldr	x8, [x0, #24]
	ldr	x10, [x0, #8]
	cmp	x8, x10
	csel	x9, xzr, x10, lo
	sub	x11, x8, x9
	subs	x12, x10, x11
	cmp	x12, x20
	csel	x21, x12, x20, lo
	subs	x22, x10, x11
	b.ne	625f
118:
	cmp	x20, x22
	b.ls	613f
	sub	x20, x20, x21
	add	x21, x19, #16
	b	93f
321:
	subs	x20, x20, #1
	add	x21, x21, #32
	b.eq	613f
93:
	ldr	x8, [x21]
	cbz	x8, 321b
	ldur	x0, [x21, #-16]
	bl	rattle_dealloc
	b	321b
613:
	mov	x0, x19
	ldp	x20, x19, [sp, #48]
	ldp	x22, x21, [sp, #32]
	ldp	x24, x23, [sp, #16]
	ldp	x29, x30, [sp], #64
	b	rattle_dealloc
625:
	sub	x9, x19, x9, lsl #5
	mov	x24, x21
	add	x8, x9, x8, lsl #5
	add	x23, x8, #16
	b	93f
321:
	subs	x24, x24, #1
	add	x23, x23, #32
	b.eq	118b
93:
	ldr	x8, [x23]
	cbz	x8, 321b
	ldur	x0, [x23, #-16]
	bl	rattle_dealloc
	b	321b
	.section	.text.std_alloc.vec.Vec.drop._f15ea28f165ebcb3,"ax",@progbits
	.p2align	2
std_alloc.vec.Vec.drop._f15ea28f165ebcb3:
	stp	x29, x30, [sp, #-48]!
	stp	x20, x19, [sp, #32]
	ldp	x19, x20, [x0]
	stp	x22, x21, [sp, #16]
	mov	x29, sp
	ldr	x21, [x0, #16]
	cbz	x20, 613f
	add	x22, x19, #24
	b	93f
321:
	subs	x20, x20, #1
	add	x22, x22, #40
	b.eq	613f
93:
	ldr	x8, [x22]
	cbz	x8, 321b
	ldur	x0, [x22, #-16]
	bl	rattle_dealloc
	b	321b
613:
	cbz	x21, 976f
	mov	x0, x19
	ldp	x20, x19, [sp, #32]
	ldp	x22, x21, [sp, #16]
	ldp	x29, x30, [sp], #48
	b	rattle_dealloc
976:
	ldp	x20, x19, [sp, #32]
	ldp	x22, x21, [sp, #16]
	ldp	x29, x30, [sp], #48
	ret
	.section	.text.std_alloc.vec.Vec.drop._d9a1838fed3faa39,"ax",@progbits
	.p2align	2
std_alloc.vec.Vec.drop._d9a1838fed3faa39:
	stp	x29, x30, [sp, #-96]!
	stp	x22, x21, [sp, #64]
	ldr	x22, [x0, #16]
	mov	x29, sp
	stp	x20, x19, [sp, #80]
	ldp	x19, x21, [x0]
	stp	x28, x27, [sp, #16]
	stp	x26, x25, [sp, #32]
	stp	x24, x23, [sp, #48]
	cbz	x21, 983f
	mov	x23, xzr
	b	62f
613:
	mov	x0, x20
	bl	rattle_dealloc
	add	x23, x23, #1
	cmp	x23, x21
	b.eq	983f
62:
	add	x9, x19, x23, lsl #6
	ldr	x24, [x9, #24]
	ldr	x20, [x9, #8]
	cbz	x24, 613b
	ldr	x8, [x9, #32]
	ldr	x10, [x9, #16]
	cmp	x8, x10
	csel	x9, xzr, x10, lo
	sub	x11, x8, x9
	subs	x12, x10, x11
	cmp	x12, x24
	csel	x25, x12, x24, lo
	subs	x26, x10, x11
	b.ne	625f
118:
	cmp	x24, x26
	b.ls	613b
	sub	x24, x24, x25
	add	x25, x20, #16
	b	93f
321:
	subs	x24, x24, #1
	add	x25, x25, #32
	b.eq	613b
93:
	ldr	x8, [x25]
	cbz	x8, 321b
	ldur	x0, [x25, #-16]
	bl	rattle_dealloc
	b	321b
625:
	sub	x9, x20, x9, lsl #5
	mov	x28, x25
	add	x8, x9, x8, lsl #5
	add	x27, x8, #16
	b	93f
321:
	subs	x28, x28, #1
	add	x27, x27, #32
	b.eq	118b
93:
	ldr	x8, [x27]
	cbz	x8, 321b
	ldur	x0, [x27, #-16]
	bl	rattle_dealloc
	b	321b
983:
	cbz	x22, 976f
	mov	x0, x19
	ldp	x20, x19, [sp, #80]
	ldp	x22, x21, [sp, #64]
	ldp	x24, x23, [sp, #48]
	ldp	x26, x25, [sp, #32]
	ldp	x28, x27, [sp, #16]
	ldp	x29, x30, [sp], #96
	b	rattle_dealloc
976:
	ldp	x20, x19, [sp, #80]
	ldp	x22, x21, [sp, #64]
	ldp	x24, x23, [sp, #48]
	ldp	x26, x25, [sp, #32]
	ldp	x28, x27, [sp, #16]
	ldp	x29, x30, [sp], #96
	ret
	.section	.text.tc_queues.settings.LentSettings.check,"ax",@progbits
	.p2align	2
tc_queues.settings.LentSettings.check:
	ldrb	w8, [x0]
	cmp	w8, #63
	b.hi	613f
	ldrb	w8, [x0, #1]
	mov	w1, #1
	sub	w9, w8, #2
	cmp	w9, #252
	b.hi	983f
	mov	x9, x0
	mov	w0, #1
	tbnz	w8, #0, 350f
	mov	x8, x9
	ldrb	w9, [x9, #2]
	sub	w9, w9, #65
	cmn	w9, #64
	b.hs	598f
	mov	w1, #2
	ret
613:
	mov	w1, wzr
983:
	mov	w0, #1
350:
	ret
598:
	stp	x29, x30, [sp, #-96]!
	str	x28, [sp, #16]
	mov	x29, sp
	stp	x26, x25, [sp, #32]
	stp	x24, x23, [sp, #48]
	stp	x22, x21, [sp, #64]
	stp	x20, x19, [sp, #80]
	sub	sp, sp, #2048
	str	xzr, [sp]
	ldp	x22, x23, [x8, #8]
	ldr	w19, [x8, #4]
	ldp	x21, x20, [x8, #24]
	mov	x24, x22
	mov	x25, x23
	add	x8, x23, #1
	mov	x9, x22
321:
	subs	x8, x8, #1
	b.eq	62f
	ldrh	w10, [x9], #4
	cmp	w10, #2047
	b.lo	321b
	mov	w0, #1
	mov	w1, #3
	b	316f
62:
	add	x0, sp, #1
	mov	w1, wzr
	mov	w2, #2047
	add	x26, sp, #1
	bl	memset
	cbz	x25, 62f
335:
	ldrh	w8, [x24], #4
	ldrb	w9, [x26, x8]
	tbnz	w9, #0, 613f
	add	x9, sp, #1
	subs	x25, x25, #1
	mov	w10, #1
	strb	w10, [x9, x8]
	b.ne	335b
62:
	add	x9, x22, #2
	add	x8, x23, #1
321:
	subs	x8, x8, #1
	b.eq	62f
	ldrh	w10, [x9], #4
	mov	w0, #1
	mov	w1, #5
	sub	w10, w10, #1
	cmp	w10, #256
	b.lo	321b
	b	316f
62:
	add	x8, x20, #1
	mov	x9, x21
321:
	subs	x8, x8, #1
	b.eq	983f
	ldrb	w10, [x9], #4
	mov	w0, #1
	mov	w1, #6
	cmp	w10, #64
	b.lo	321b
	b	316f
613:
	mov	w0, #1
	mov	w1, #4
316:
	add	sp, sp, #2048
	ldp	x20, x19, [sp, #80]
	ldr	x28, [sp, #16]
	ldp	x22, x21, [sp, #64]
	ldp	x24, x23, [sp, #48]
	ldp	x26, x25, [sp, #32]
	ldp	x29, x30, [sp], #96
	ret
983:
	cbz	x20, 481f
	mov	x8, xzr
	mov	x9, #-1
192:
	lsl	x10, x8, #2
	mov	x11, x9
	mov	x12, x21
	ldrb	w10, [x21, x10]
460:
	adds	x11, x11, #1
	b.hs	62f
	ldrb	w13, [x12], #4
	mov	w0, #1
	mov	w1, #7
	cmp	w13, w10
	b.ne	460b
	b	316b
62:
	add	x8, x8, #1
	sub	x9, x9, #1
	cmp	x8, x20
	b.ne	192b
481:
	add	x9, x21, #2
	add	x8, x20, #1
321:
	subs	x8, x8, #1
	b.eq	118f
	ldrh	w10, [x9], #4
	mov	w0, #1
	mov	w1, #8
	sub	w10, w10, #1
	cmp	w10, #256
	b.lo	321b
	b	316b
118:
	cmp	x20, #0
	mov	w9, #9
	mov	w10, #1
	cset	w8, eq
	orr	w8, w8, w19
	tst	w8, #0x1
	bic	w0, w10, w8
	csel	w1, wzr, w9, ne
	b	316b
	.section	.text.tc_queues.settings.LentSettings.copied,"ax",@progbits
	.p2align	2
tc_queues.settings.LentSettings.copied:
	sub	sp, sp, #112
	stp	x26, x25, [sp, #48]
	ldr	s0, [x1]
	ldrb	w26, [x1, #4]
	stp	x24, x23, [sp, #64]
	stp	x22, x21, [sp, #80]
	ldp	x22, x24, [x1, #8]
	ldp	x21, x25, [x1, #24]
	stp	x20, x19, [sp, #96]
	mov	x19, x0
	stp	x29, x30, [sp, #32]
	add	x29, sp, #32
	str	q0, [sp]
	cbz	x24, 613f
	lsr	x8, x24, #61
	cbnz	x8, 922f
	lsl	x23, x24, #2
	mov	w1, #2
	mov	x0, x23
	bl	rattle_alloc
	tbz	w0, #0, 922f
	sub	x8, x1, x22
	mov	x20, x1
	cmp	x8, x23
	b.hs	983f
	cmp	x24, #8
	mov	x8, xzr
	b.lo	659f
	sub	x9, x20, x22
	cmp	x9, #32
	b.lo	659f
	and	x8, x24, #0x1ffffffffffffff8
	add	x9, x22, #16
	add	x10, x20, #16
	and	x11, x24, #0x1ffffffffffffff8
976:
	ldp	q0, q1, [x9, #-16]
	subs	x11, x11, #8
	add	x9, x9, #32
	stp	q0, q1, [x10, #-16]
	add	x10, x10, #32
	b.ne	976b
	b	118f
922:
	movi	v0.2d, #0000000000000000
	mov	w8, #1
	str	xzr, [x19, #56]
	strb	w8, [x19]
	stur	q0, [x19, #8]
	stur	q0, [x19, #24]
	stur	q0, [x19, #40]
	b	681f
613:
	mov	x23, xzr
	sub	x20, x29, #2
983:
	mov	x0, x20
	mov	x1, x22
	mov	x2, x23
	bl	memmove
405:
	cbz	x25, 613f
	lsr	x8, x25, #61
	cbnz	x8, 59f
	lsl	x23, x25, #2
	mov	w1, #2
	mov	x0, x23
	bl	rattle_alloc
	tbz	w0, #0, 59f
	sub	x8, x1, x21
	mov	x22, x1
	cmp	x8, x23
	b.hs	983f
	cmp	x25, #8
	mov	x8, xzr
	b.lo	885f
	sub	x9, x22, x21
	cmp	x9, #32
	b.lo	885f
	and	x8, x25, #0x1ffffffffffffff8
	add	x9, x21, #16
	add	x10, x22, #16
	and	x11, x25, #0x1ffffffffffffff8
976:
	ldp	q0, q1, [x9, #-16]
	subs	x11, x11, #8
	add	x9, x9, #32
	stp	q0, q1, [x10, #-16]
	add	x10, x10, #32
	b.ne	976b
	b	280f
59:
	sturb	wzr, [x29, #-6]
	sturh	wzr, [x29, #-8]
	cbz	x24, 922f
	mov	x0, x20
	bl	rattle_dealloc
922:
	movi	v0.2d, #0000000000000000
	mov	w8, #1
	ldurh	w9, [x29, #-8]
	strb	w8, [x19]
	ldurb	w8, [x29, #-6]
	str	wzr, [x19, #8]
	strb	wzr, [x19, #12]
	sturh	w9, [x19, #13]
	strb	w8, [x19, #15]
	stp	q0, q0, [x19, #16]
	str	q0, [x19, #48]
	b	681f
613:
	mov	x23, xzr
	sub	x22, x29, #2
983:
	mov	x0, x22
	mov	x1, x21
	mov	x2, x23
	bl	memmove
93:
	ldr	q0, [sp]
	and	w8, w26, #0x1
	strb	wzr, [x19]
	sturh	wzr, [x19, #13]
	ushll	v0.8h, v0.8b, #0
	strb	wzr, [x19, #15]
	stp	x20, x24, [x19, #16]
	strb	w8, [x19, #12]
	uzp1	v0.8b, v0.8b, v0.8b
	stp	x24, x22, [x19, #32]
	stp	x25, x25, [x19, #48]
	str	s0, [x19, #8]
681:
	ldp	x20, x19, [sp, #96]
	ldp	x22, x21, [sp, #80]
	ldp	x24, x23, [sp, #64]
	ldp	x26, x25, [sp, #48]
	ldp	x29, x30, [sp, #32]
	add	sp, sp, #112
	ret
659:
	ldr	w9, [x22, x8, lsl #2]
	str	w9, [x20, x8, lsl #2]
	add	x8, x8, #1
118:
	cmp	x24, x8
	b.ne	659b
	b	405b
885:
	ldr	w9, [x21, x8, lsl #2]
	str	w9, [x22, x8, lsl #2]
	add	x8, x8, #1
280:
	cmp	x25, x8
	b.ne	885b
	b	93b
	.section	.text.tc_fixed.channel.start._2310a0e7207bbbe1,"ax",@progbits
	.p2align	2
tc_fixed.channel.start._2310a0e7207bbbe1:
	str	d8, [sp, #-112]!
	stp	x29, x30, [sp, #16]
	add	x29, sp, #16
	stp	x28, x27, [sp, #32]
	stp	x26, x25, [sp, #48]
	stp	x24, x23, [sp, #64]
	stp	x22, x21, [sp, #80]
	stp	x20, x19, [sp, #96]
	sub	sp, sp, #1760
	str	xzr, [sp]
	mov	x19, x0
	add	x23, sp, #704
	ldrb	w8, [x1]
	ldp	x28, x21, [x1, #24]
	ldp	x25, x13, [x2, #8]
	ldrb	w20, [x1, #2]
	str	w8, [sp, #80]
	ldrb	w8, [x1, #1]
	ldrb	w11, [x1, #4]
	ldr	d8, [x2]
	ldr	w27, [x2]
	ldurh	w9, [x1, #5]
	str	w8, [sp, #140]
	ldrb	w8, [x1, #3]
	ldr	x10, [x2, #24]
	strh	w9, [sp, #188]
	str	w8, [sp, #84]
	ldp	x22, x8, [x1, #8]
	str	x10, [sp, #160]
	str	w11, [sp, #172]
	str	x8, [sp, #176]
	ldp	x8, x24, [x1, #40]
	stur	x13, [x29, #-8]
	str	x8, [sp, #128]
	ldrb	w8, [x1, #7]
	strb	w8, [sp, #190]
	tbz	w11, #0, 613f
	movi	v0.2d, #0000000000000000
	stp	q0, q0, [x23, #512]
	stp	q0, q0, [x23, #544]
	stp	q0, q0, [x23, #576]
	stp	q0, q0, [x23, #608]
	stp	q0, q0, [x23, #640]
	stp	q0, q0, [x23, #672]
	stp	q0, q0, [x23, #704]
	stp	q0, q0, [x23, #736]
	stp	q0, q0, [x23, #768]
	stp	q0, q0, [x23, #800]
	stp	q0, q0, [x23, #832]
	stp	q0, q0, [x23, #864]
	stp	q0, q0, [x23, #896]
	stp	q0, q0, [x23, #928]
	stp	q0, q0, [x23, #960]
	stp	q0, q0, [x23, #992]
	cbz	x13, 693f
	mov	x8, xzr
	b	62f
93:
	ldr	w9, [x9]
	add	x10, sp, #1216
	mov	w9, w9
	str	x9, [x10, x8, lsl #3]
	add	x8, x8, #1
	cmp	x8, #64
	b.eq	316f
62:
	add	x9, x25, #4
	mov	x10, x13
257:
	ldurb	w11, [x9, #-4]
	cmp	w11, w8, uxtb
	b.eq	93b
	subs	x10, x10, #1
	add	x9, x9, #8
	b.ne	257b
	add	x10, sp, #1216
	mov	w9, w27
	str	x9, [x10, x8, lsl #3]
	add	x8, x8, #1
	cmp	x8, #64
	b.ne	62b
	b	316f
613:
	mov	x26, xzr
	sub	x8, x29, #40
	stp	x27, xzr, [sp, #56]
	str	x8, [sp, #152]
	cbz	x13, 659f
118:
	cmp	x13, #8
	b.hs	16f
	mov	x8, xzr
	b	62f
16:
	dup	v0.4s, w27
	and	x8, x13, #0xfffffffffffffff8
	add	x9, x25, #36
	and	x10, x13, #0xfffffffffffffff8
	mov	v1.16b, v0.16b
232:
	ldur	s2, [x9, #-32]
	ldr	s3, [x9]
	sub	x11, x9, #24
	add	x12, x9, #8
	subs	x10, x10, #8
	ld1	{ v2.s }[1], [x11]
	ld1	{ v3.s }[1], [x12]
	sub	x11, x9, #16
	add	x12, x9, #16
	ld1	{ v2.s }[2], [x11]
	ld1	{ v3.s }[2], [x12]
	sub	x11, x9, #8
	add	x12, x9, #24
	add	x9, x9, #64
	ld1	{ v2.s }[3], [x11]
	ld1	{ v3.s }[3], [x12]
	umax	v0.4s, v2.4s, v0.4s
	umax	v1.4s, v3.4s, v1.4s
	b.ne	232b
	umax	v0.4s, v0.4s, v1.4s
	cmp	x13, x8
	umaxv	s0, v0.4s
	fmov	w27, s0
	b.eq	659f
62:
	add	x9, x25, x8, lsl #3
	sub	x8, x13, x8
	add	x9, x9, #4
93:
	ldr	w10, [x9], #8
	cmp	w10, w27
	csel	w27, w10, w27, hi
	subs	x8, x8, #1
	b.ne	93b
659:
	ldr	w8, [sp, #172]
	mov	w9, #6
	ldr	w11, [sp, #140]
	movk	w9, #1, lsl #16
	tst	w8, #0x1
	mov	w8, #1019
	sub	w10, w11, #2
	csel	x8, x9, x8, ne
	mov	w9, w27
	and	w10, w10, #0xff
	cmp	x9, x8
	csel	x27, x9, x8, lo
	cmp	w10, #253
	cset	w8, lo
	tst	w11, #0x1
	cset	w9, eq
	ands	w8, w8, w9
	csel	w9, w11, wzr, ne
	str	w9, [sp, #52]
	tbz	w8, #0, 174f
	lsl	x0, x20, #5
	mov	w1, #8
	bl	rattle_alloc
	str	x1, [sp, #120]
	tbz	w0, #0, 375f
	str	x25, [sp, #144]
	str	x22, [sp, #112]
	stp	x24, x21, [sp, #88]
	cbz	w20, 922f
	ldr	x22, [sp, #120]
	mov	x21, xzr
613:
	mov	w0, #1019
	mov	w1, #1
	bl	rattle_alloc
	tbz	w0, #0, 659f
	mov	x25, x1
	mov	x0, x1
	mov	w1, wzr
	mov	w2, #1019
	mov	w24, #1019
	bl	memset
	dup	v0.2d, x24
	add	x21, x21, #1
	str	x25, [x22]
	cmp	x20, x21
	str	xzr, [x22, #24]
	stur	q0, [x22, #8]
	add	x22, x22, #32
	b.ne	613b
922:
	movi	v0.2d, #0000000000000000
	ldr	x13, [sp, #176]
	str	xzr, [x23, #576]
	stp	q0, q0, [x23, #512]
	stp	q0, q0, [x23, #544]
	cbz	x13, 983f
	lsr	x8, x13, #57
	ldr	x24, [sp, #88]
	ldr	x22, [sp, #112]
	ldr	x25, [sp, #144]
	cbnz	x8, 681f
	lsl	x0, x13, #6
	mov	w1, #8
	bl	rattle_alloc
	tbz	w0, #0, 681f
	add	x8, sp, #1216
	mov	x9, x22
	str	x28, [sp, #40]
	mov	x25, x1
	mov	x21, xzr
	orr	x22, x8, #0x8
	add	x28, x9, #2
	str	x1, [sp, #104]
335:
	ldrh	w2, [x28]
	ldurh	w1, [x28, #-2]
	add	x0, sp, #1216
	mov	x3, x27
	bl	tc_queues.queue.Queue.with_capacity._0e1c90a670cc60a2
	ldrb	w8, [sp, #1216]
	cbnz	w8, 552f
	ldp	q0, q1, [x22]
	add	x21, x21, #1
	ldr	x13, [sp, #176]
	add	x28, x28, #4
	stp	q0, q1, [x25]
	ldp	q0, q2, [x22, #32]
	cmp	x13, x21
	stp	q0, q2, [x25, #32]
	add	x25, x25, #64
	b.ne	335b
	sub	x8, x13, #16, lsl #12
	mov	x9, #-65528
	cmp	x8, x9
	b.hs	187f
	ldr	x21, [sp, #96]
	ldr	x22, [sp, #112]
	mov	x4, xzr
	ldr	x28, [sp, #40]
	mov	w8, #1
	sub	x3, x29, #40
	str	w8, [sp, #36]
	b	489f
693:
	dup	v0.2s, w27
	ushll	v0.2d, v0.2s, #0
	stp	q0, q0, [x23, #512]
	stp	q0, q0, [x23, #544]
	stp	q0, q0, [x23, #576]
	stp	q0, q0, [x23, #608]
	stp	q0, q0, [x23, #640]
	stp	q0, q0, [x23, #672]
	stp	q0, q0, [x23, #704]
	stp	q0, q0, [x23, #736]
	stp	q0, q0, [x23, #768]
	stp	q0, q0, [x23, #800]
	stp	q0, q0, [x23, #832]
	stp	q0, q0, [x23, #864]
	stp	q0, q0, [x23, #896]
	stp	q0, q0, [x23, #928]
	stp	q0, q0, [x23, #960]
	stp	q0, q0, [x23, #992]
316:
	add	x0, sp, #704
	add	x1, sp, #1216
	mov	w2, #512
	bl	memcpy
	add	x0, sp, #192
	add	x1, sp, #704
	mov	w2, #512
	bl	memcpy
	mov	w0, #5120
	mov	w1, #8
	bl	rattle_alloc
	tbz	w0, #0, 263f
	ldur	x13, [x29, #-8]
	str	x28, [sp, #40]
	add	x28, x1, #16
	str	x22, [sp, #112]
	mov	x22, xzr
	stp	x24, x21, [sp, #88]
	mov	x21, xzr
	stp	x25, x1, [sp, #144]
	b	447f
613:
	mov	x8, xzr
	sub	x25, x29, #40
62:
	add	x21, x21, #1
	stp	xzr, x25, [x28, #-16]
	add	x22, x22, #8
	stp	x8, x24, [x28]
	cmp	x21, #128
	str	xzr, [x28, #16]
	add	x28, x28, #40
	b.eq	613f
447:
	and	x8, x22, #0x1f8
	add	x9, sp, #192
	ldr	x24, [x9, x8]
	cbz	x24, 613b
	tbnz	x24, #63, 93f
	mov	x0, x24
	mov	w1, #1
	bl	rattle_alloc
	tbz	w0, #0, 93f
	mov	x25, x1
	subs	x26, x24, #1
	b.eq	232f
	mov	x0, x25
	mov	w1, wzr
	mov	x2, x26
	bl	memset
232:
	ldur	x13, [x29, #-8]
	add	x8, x26, #1
	strb	wzr, [x25, x26]
	b	62b
93:
	ldr	x24, [sp, #88]
	ldr	x22, [sp, #112]
	ldr	x28, [sp, #40]
	ldr	x25, [sp, #144]
	cbz	x21, 885f
	ldr	x8, [sp, #152]
	add	x20, x8, #24
	b	93f
321:
	subs	x21, x21, #1
	add	x20, x20, #40
	b.eq	885f
93:
	ldr	x8, [x20]
	cbz	x8, 321b
	ldur	x0, [x20, #-16]
	bl	rattle_dealloc
	b	321b
885:
	ldr	x0, [sp, #152]
	bl	rattle_dealloc
	ldr	x21, [sp, #96]
263:
	ldr	x8, [sp, #160]
	cbnz	x8, 32f
	b	943f
613:
	mov	w8, #1
	ldp	x24, x21, [sp, #88]
	stp	xzr, x8, [sp, #56]
	ldp	x25, x8, [sp, #144]
	ldr	x22, [sp, #112]
	mov	w26, #128
	ldr	x28, [sp, #40]
	str	x8, [sp, #152]
	cbnz	x13, 118b
	b	659b
659:
	ldr	x24, [sp, #88]
	ldr	x22, [sp, #112]
	ldr	x25, [sp, #144]
	cbz	x21, 885f
	ldr	x8, [sp, #120]
	cmp	x21, x20
	csel	x22, x21, x20, lo
	add	x23, x8, #16
	b	93f
321:
	subs	x22, x22, #1
	add	x23, x23, #32
	b.eq	659f
93:
	ldr	x8, [x23]
	cbz	x8, 321b
	ldur	x0, [x23, #-16]
	bl	rattle_dealloc
	b	321b
983:
	mov	w8, #1
	ldp	x24, x21, [sp, #88]
	str	w8, [sp, #36]
	sub	x8, x29, #40
	ldr	x22, [sp, #112]
	mov	x4, xzr
	str	x8, [sp, #104]
	sub	x3, x29, #40
489:
	ldr	x25, [sp, #144]
	ldr	x14, [sp, #128]
	ldur	x17, [x29, #-8]
	movi	v0.2d, #0000000000000000
	str	xzr, [x23, #576]
	stp	q0, q0, [x23, #512]
	stp	q0, q0, [x23, #544]
	cbz	x14, 976f
405:
	lsr	x8, x14, #57
	stp	x4, x3, [sp, #16]
	cbnz	x8, 613f
	lsl	x0, x14, #6
	mov	w1, #8
	bl	rattle_alloc
	ldr	x3, [sp, #24]
	ldr	x13, [sp, #176]
	tbz	w0, #0, 613f
	mov	x9, x21
	add	x8, sp, #1216
	str	x28, [sp, #40]
	mov	x21, xzr
	orr	x22, x8, #0x8
	add	x28, x9, #2
	mov	x25, x1
	str	x1, [sp, #8]
257:
	ldurb	w1, [x28, #-2]
	ldrh	w2, [x28], #4
	add	x0, sp, #1216
	mov	x3, x27
	bl	tc_queues.queue.Queue.with_capacity._0e1c90a670cc60a2
	ldrb	w8, [sp, #1216]
	cbnz	w8, 263f
	ldp	q0, q1, [x22]
	add	x21, x21, #1
	ldr	x14, [sp, #128]
	stp	q0, q1, [x25]
	ldp	q0, q2, [x22, #32]
	cmp	x14, x21
	stp	q0, q2, [x25, #32]
	add	x25, x25, #64
	b.ne	257b
	sub	x8, x14, #16, lsl #12
	mov	x9, #-65528
	cmp	x8, x9
	b.hs	911f
	ldp	w16, w15, [sp, #80]
	ldp	x0, x18, [sp, #56]
	mov	x8, xzr
	ldp	x4, x3, [sp, #16]
	sub	x1, x29, #40
	ldr	x21, [sp, #96]
	ldr	x22, [sp, #112]
	ldr	x28, [sp, #40]
	ldr	x25, [sp, #144]
	ldr	x12, [sp, #160]
	ldr	x13, [sp, #176]
	ldur	x17, [x29, #-8]
	ldr	w2, [sp, #52]
	ldr	x5, [sp, #8]
	b	354f
659:
	ldr	x22, [sp, #112]
	cmp	x21, x20
	b.ls	885f
	csel	x8, x21, x20, lo
	sub	x20, x8, x21
	ldr	x8, [sp, #120]
	add	x21, x8, #16
	b	93f
460:
	adds	x20, x20, #1
	add	x21, x21, #32
	b.hs	885f
93:
	ldr	x8, [x21]
	cbz	x8, 460b
	ldur	x0, [x21, #-16]
	bl	rattle_dealloc
	b	460b
885:
	ldr	x0, [sp, #120]
	bl	rattle_dealloc
	ldr	x21, [sp, #96]
375:
	ldr	x23, [sp, #160]
	ldr	w8, [sp, #172]
	tbz	w8, #0, 360f
	ldr	x8, [sp, #152]
	add	x20, x8, #24
	b	93f
321:
	subs	x26, x26, #1
	add	x20, x20, #40
	b.eq	951f
93:
	ldr	x8, [x20]
	cbz	x8, 321b
	ldur	x0, [x20, #-16]
	bl	rattle_dealloc
	b	321b
552:
	ldr	x8, [sp, #104]
	add	x0, sp, #704
	stp	x8, x21, [x23]
	ldr	x8, [sp, #176]
	str	x8, [x23, #16]
	bl	std_alloc.vec.Vec.drop._ac5925e1d03ce435
	ldr	x22, [sp, #112]
	ldr	x28, [sp, #40]
	ldr	x25, [sp, #144]
681:
	ldr	x23, [sp, #160]
	cbz	w20, 552f
93:
	ldr	x8, [sp, #120]
	add	x21, x8, #16
	b	659f
321:
	subs	x20, x20, #1
	add	x21, x21, #32
	b.eq	552f
659:
	ldr	x8, [x21]
	cbz	x8, 321b
	ldur	x0, [x21, #-16]
	bl	rattle_dealloc
	b	321b
187:
	mov	w0, #4096
	mov	w1, #2
	bl	rattle_alloc
	ldr	x21, [sp, #96]
	ldr	x22, [sp, #112]
	ldr	x28, [sp, #40]
	ldr	x25, [sp, #144]
	tbz	w0, #0, 375f
	ldr	x13, [sp, #176]
	mov	x3, x1
	mov	x8, xzr
	dup	v0.8h, w13
62:
	add	x9, x3, x8
	add	x8, x8, #32
	cmp	x8, #4064
	stp	q0, q0, [x9]
	b.ne	62b
	dup	v0.4h, w13
	ldr	x9, [sp, #104]
	ldr	x14, [sp, #128]
	ldur	x17, [x29, #-8]
	mov	x8, xzr
	strh	w13, [x3, #4088]
	strh	w13, [x3, #4090]
	strh	w13, [x3, #4092]
	str	d0, [x3, #4064]
	str	d0, [x3, #4072]
	str	d0, [x3, #4080]
	strh	w13, [x3, #4094]
	b	335f
62:
	add	x8, x8, #1
	cmp	x13, x8
	b.eq	983f
335:
	ldrh	w10, [x9], #64
	cmp	w10, #2047
	b.hi	62b
	ldrh	w11, [x3, x10, lsl #1]
	cmp	w11, w13, uxth
	b.ne	62b
	strh	w8, [x3, x10, lsl #1]
	b	62b
263:
	ldr	x8, [sp, #8]
	add	x0, sp, #704
	stp	x8, x21, [x23]
	ldr	x8, [sp, #128]
	str	x8, [x23, #16]
	bl	std_alloc.vec.Vec.drop._ac5925e1d03ce435
	ldr	x22, [sp, #112]
	ldr	x28, [sp, #40]
	ldr	x25, [sp, #144]
659:
	ldr	x13, [sp, #176]
	ldr	x3, [sp, #24]
613:
	cbz	x13, 489f
	mov	x21, xzr
	str	x19, [sp, #72]
	b	885f
613:
	mov	x0, x27
	bl	rattle_dealloc
	ldr	x8, [sp, #176]
	add	x21, x21, #1
	cmp	x21, x8
	b.eq	263f
885:
	ldr	x8, [sp, #104]
	add	x9, x8, x21, lsl #6
	ldr	x22, [x9, #24]
	ldr	x27, [x9, #8]
	cbz	x22, 613b
	ldr	x8, [x9, #32]
	ldr	x10, [x9, #16]
	mov	x19, x28
	cmp	x8, x10
	csel	x9, xzr, x10, lo
	sub	x11, x8, x9
	subs	x12, x10, x11
	cmp	x12, x22
	csel	x24, x12, x22, lo
	subs	x25, x10, x11
	b.ne	625f
118:
	cmp	x22, x25
	mov	x28, x19
	ldr	x19, [sp, #72]
	ldr	x25, [sp, #144]
	b.ls	613b
	sub	x22, x22, x24
	add	x23, x27, #16
	b	885f
321:
	subs	x22, x22, #1
	add	x23, x23, #32
	b.eq	613b
885:
	ldr	x8, [x23]
	cbz	x8, 321b
	ldur	x0, [x23, #-16]
	bl	rattle_dealloc
	b	321b
625:
	sub	x9, x27, x9, lsl #5
	mov	x23, x24
	add	x8, x9, x8, lsl #5
	add	x28, x8, #16
	b	885f
321:
	subs	x23, x23, #1
	add	x28, x28, #32
	b.eq	118b
885:
	ldr	x8, [x28]
	cbz	x8, 321b
	ldur	x0, [x28, #-16]
	bl	rattle_dealloc
	b	321b
263:
	ldr	x0, [sp, #104]
	bl	rattle_dealloc
	ldr	x24, [sp, #88]
	ldr	x22, [sp, #112]
	ldr	x3, [sp, #24]
489:
	ldr	w8, [sp, #36]
	tbnz	w8, #0, 885f
	mov	x0, x3
	bl	rattle_dealloc
885:
	ldr	x23, [sp, #160]
	cbz	w20, 263f
	ldr	x8, [sp, #120]
	add	x21, x8, #16
	b	885f
321:
	subs	x20, x20, #1
	add	x21, x21, #32
	b.eq	263f
885:
	ldr	x8, [x21]
	cbz	x8, 321b
	ldur	x0, [x21, #-16]
	bl	rattle_dealloc
	b	321b
263:
	ldr	x0, [sp, #120]
	bl	rattle_dealloc
	ldr	x21, [sp, #96]
	ldr	w8, [sp, #172]
	tbz	w8, #0, 360f
	ldr	x8, [sp, #152]
	add	x20, x8, #24
	b	885f
321:
	subs	x26, x26, #1
	add	x20, x20, #40
	b.eq	951f
885:
	ldr	x8, [x20]
	cbz	x8, 321b
	ldur	x0, [x20, #-16]
	bl	rattle_dealloc
	b	321b
375:
	ldr	x8, [sp, #104]
	add	x0, sp, #1216
	str	x8, [x23, #512]
	ldr	x8, [sp, #176]
	str	x8, [x23, #520]
	str	x8, [x23, #528]
	bl	std_alloc.vec.Vec.drop._ac5925e1d03ce435
	ldr	x23, [sp, #160]
	cbnz	w20, 93b
552:
	ldr	x0, [sp, #120]
	bl	rattle_dealloc
	ldr	x21, [sp, #96]
	ldr	w8, [sp, #172]
	tbz	w8, #0, 360f
	ldr	x8, [sp, #152]
	add	x20, x8, #24
	b	93f
321:
	subs	x26, x26, #1
	add	x20, x20, #40
	b.eq	951f
93:
	ldr	x8, [x20]
	cbz	x8, 321b
	ldur	x0, [x20, #-16]
	bl	rattle_dealloc
	b	321b
951:
	ldr	x0, [sp, #152]
	bl	rattle_dealloc
360:
	cbz	x23, 943f
32:
	mov	x0, x25
	bl	rattle_dealloc
943:
	cbz	x28, 613f
	mov	x0, x22
	bl	rattle_dealloc
613:
	cbz	x24, 922f
	mov	x0, x21
	bl	rattle_dealloc
922:
	movi	v0.2d, #0000000000000000
	mov	w8, #1
	str	xzr, [x19, #296]
	strb	w8, [x19]
	stur	q0, [x19, #24]
	stur	q0, [x19, #40]
	stur	q0, [x19, #56]
	stur	q0, [x19, #72]
	stur	q0, [x19, #88]
	stur	q0, [x19, #104]
	stur	q0, [x19, #120]
	stur	q0, [x19, #136]
	stur	q0, [x19, #152]
	stur	q0, [x19, #168]
	stur	q0, [x19, #184]
	stur	q0, [x19, #200]
	stur	q0, [x19, #216]
	stur	q0, [x19, #232]
	stur	q0, [x19, #248]
	str	q0, [x19, #8]!
	stp	q0, q0, [x19, #256]
62:
	add	sp, sp, #1760
	ldp	x20, x19, [sp, #96]
	ldp	x22, x21, [sp, #80]
	ldp	x24, x23, [sp, #64]
	ldp	x26, x25, [sp, #48]
	ldp	x28, x27, [sp, #32]
	ldp	x29, x30, [sp, #16]
	ldr	d8, [sp], #112
	ret
983:
	mov	w4, #2048
	str	wzr, [sp, #36]
	movi	v0.2d, #0000000000000000
	str	xzr, [x23, #576]
	stp	q0, q0, [x23, #512]
	stp	q0, q0, [x23, #544]
	cbnz	x14, 405b
976:
	ldp	w16, w15, [sp, #80]
	ldp	x0, x18, [sp, #56]
	mov	x8, xzr
	ldr	x12, [sp, #160]
	ldr	w2, [sp, #52]
	sub	x5, x29, #40
	sub	x1, x29, #40
354:
	ldr	w9, [sp, #140]
	ldr	w10, [sp, #172]
	strb	wzr, [x19]
	strb	w16, [x19, #8]
	strb	w9, [x19, #9]
	ldrh	w9, [sp, #188]
	strb	w10, [x19, #12]
	ldrb	w10, [sp, #190]
	sturh	w9, [x19, #13]
	ldr	x9, [sp, #120]
	strb	w20, [x19, #10]
	stp	x9, x20, [x19, #104]
	mov	w9, #1019
	stp	x9, x18, [x19, #152]
	ldr	x9, [sp, #152]
	strb	w15, [x19, #11]
	stp	x0, x9, [x19, #168]
	ldr	x9, [sp, #104]
	strb	w10, [x19, #15]
	stp	x22, x13, [x19, #16]
	stp	x28, x21, [x19, #32]
	stp	x14, x24, [x19, #48]
	str	d8, [x19, #64]
	stp	x25, x17, [x19, #72]
	str	x12, [x19, #88]
	strb	w2, [x19, #96]
	strb	wzr, [x19, #97]
	strb	w15, [x19, #98]
	stur	wzr, [x19, #99]
	strb	wzr, [x19, #103]
	stp	x20, xzr, [x19, #120]
	stp	xzr, xzr, [x19, #136]
	stp	x26, x26, [x19, #184]
	stp	x9, x13, [x19, #200]
	stp	x13, x3, [x19, #216]
	stp	x4, x4, [x19, #232]
	stp	x5, x14, [x19, #248]
	stp	x14, x1, [x19, #264]
	stp	x8, x8, [x19, #280]
	str	xzr, [x19, #296]
	b	62b
911:
	mov	w0, #4096
	mov	w1, #2
	bl	rattle_alloc
	ldr	x21, [sp, #96]
	ldr	x22, [sp, #112]
	ldr	x28, [sp, #40]
	ldr	x25, [sp, #144]
	tbz	w0, #0, 93f
	ldr	x14, [sp, #128]
	ldr	x5, [sp, #8]
	mov	x8, xzr
	dup	v0.8h, w14
62:
	add	x9, x1, x8
	add	x8, x8, #32
	cmp	x8, #4064
	stp	q0, q0, [x9]
	b.ne	62b
	dup	v0.4h, w14
	ldp	x0, x18, [sp, #56]
	ldp	w16, w15, [sp, #80]
	ldp	x4, x3, [sp, #16]
	mov	x8, xzr
	ldr	x12, [sp, #160]
	ldr	x13, [sp, #176]
	mov	x9, x5
	ldur	x17, [x29, #-8]
	ldr	w2, [sp, #52]
	strh	w14, [x1, #4088]
	strh	w14, [x1, #4090]
	str	d0, [x1, #4064]
	str	d0, [x1, #4072]
	str	d0, [x1, #4080]
	strh	w14, [x1, #4092]
	strh	w14, [x1, #4094]
	b	335f
62:
	add	x8, x8, #1
	cmp	x14, x8
	b.eq	613f
335:
	ldrh	w10, [x9], #64
	cmp	w10, #2047
	b.hi	62b
	ldrh	w11, [x1, x10, lsl #1]
	cmp	w11, w14, uxth
	b.ne	62b
	strh	w8, [x1, x10, lsl #1]
	b	62b
93:
	ldr	x8, [sp, #8]
	add	x0, sp, #1216
	str	x8, [x23, #512]
	ldr	x8, [sp, #128]
	str	x8, [x23, #520]
	str	x8, [x23, #528]
	bl	std_alloc.vec.Vec.drop._ac5925e1d03ce435
	b	659b
613:
	mov	w8, #2048
	b	354b
174:
	brk	#0x1
	.section	.text.tc_queues.queue.Queue.with_capacity._0e1c90a670cc60a2,"ax",@progbits
	.p2align	2
tc_queues.queue.Queue.with_capacity._0e1c90a670cc60a2:
	stp	x29, x30, [sp, #-96]!
	stp	x24, x23, [sp, #48]
	mov	w23, w2
	mov	x29, sp
	and	x24, x23, #0xffff
	stp	x22, x21, [sp, #64]
	mov	w22, w1
	lsl	x8, x24, #5
	stp	x20, x19, [sp, #80]
	mov	x19, x0
	mov	w1, #8
	str	x27, [sp, #16]
	mov	x21, x3
	mov	x0, x8
	stp	x26, x25, [sp, #32]
	bl	rattle_alloc
	tbz	w0, #0, 922f
	mov	x20, x1
	tst	w23, #0xffff
	b.eq	560f
	cbz	x21, 62f
	tbnz	x21, #63, 187f
	cmp	x21, #1
	b.ne	983f
	mov	x25, xzr
	mov	x23, x20
613:
	mov	w0, #1
	mov	w1, #1
	bl	rattle_alloc
	tbz	w0, #0, 118f
	mov	w8, #1
	add	x25, x25, #1
	strb	wzr, [x1]
	dup	v0.2d, x8
	str	x1, [x23]
	cmp	x24, x25
	str	xzr, [x23, #24]
	stur	q0, [x23, #8]
	add	x23, x23, #32
	b.ne	613b
	b	560f
62:
	add	x8, x20, #8
	mov	x9, x24
62:
	add	x10, x29, #31
	subs	x9, x9, #1
	stp	xzr, xzr, [x8, #8]
	stp	x10, xzr, [x8, #-8]
	add	x8, x8, #32
	b.ne	62b
	b	560f
983:
	mov	x25, xzr
	sub	x26, x21, #1
	add	x27, x20, #16
613:
	mov	x0, x21
	mov	w1, #1
	bl	rattle_alloc
	tbz	w0, #0, 118f
	mov	x23, x1
	sub	x2, x21, #1
	mov	x0, x1
	mov	w1, wzr
	bl	memset
	add	x25, x25, #1
	strb	wzr, [x23, x26]
	cmp	x24, x25
	stp	x23, x21, [x27, #-16]
	stp	x21, xzr, [x27], #32
	b.ne	613b
560:
	strb	wzr, [x19]
	strh	w22, [x19, #8]
	stur	wzr, [x19, #10]
	strh	wzr, [x19, #14]
	stp	x20, x24, [x19, #16]
	stp	x24, xzr, [x19, #32]
	stp	xzr, xzr, [x19, #48]
	str	x21, [x19, #64]
	b	976f
118:
	cbz	x25, 187f
	cmp	x24, x25
	add	x22, x20, #16
	csel	x21, x24, x25, lo
	mov	x23, x21
	b	93f
321:
	subs	x23, x23, #1
	add	x22, x22, #32
	b.eq	118f
93:
	ldr	x8, [x22]
	cbz	x8, 321b
	ldur	x0, [x22, #-16]
	bl	rattle_dealloc
	b	321b
118:
	cmp	x25, x24
	b.ls	187f
	sub	x21, x25, x21
	add	x22, x20, #16
	b	93f
321:
	subs	x21, x21, #1
	add	x22, x22, #32
	b.eq	187f
93:
	ldr	x8, [x22]
	cbz	x8, 321b
	ldur	x0, [x22, #-16]
	bl	rattle_dealloc
	b	321b
187:
	mov	x0, x20
	bl	rattle_dealloc
922:
	movi	v0.2d, #0000000000000000
	mov	w8, #1
	strb	w8, [x19]
	stur	q0, [x19, #8]
	stur	q0, [x19, #24]
	stur	q0, [x19, #40]
	stur	q0, [x19, #56]
976:
	ldp	x20, x19, [sp, #80]
	ldr	x27, [sp, #16]
	ldp	x22, x21, [sp, #64]
	ldp	x24, x23, [sp, #48]
	ldp	x26, x25, [sp, #32]
	ldp	x29, x30, [sp], #96
	ret
	.section	.text.std_alloc.vec.Vec.drop._ac5925e1d03ce435,"ax",@progbits
	.p2align	2
std_alloc.vec.Vec.drop._ac5925e1d03ce435:
	stp	x29, x30, [sp, #-96]!
	stp	x22, x21, [sp, #64]
	ldr	x22, [x0, #16]
	mov	x29, sp
	stp	x20, x19, [sp, #80]
	ldp	x19, x21, [x0]
	stp	x28, x27, [sp, #16]
	stp	x26, x25, [sp, #32]
	stp	x24, x23, [sp, #48]
	cbz	x21, 983f
	mov	x23, xzr
	b	62f
613:
	mov	x0, x20
	bl	rattle_dealloc
	add	x23, x23, #1
	cmp	x23, x21
	b.eq	983f
62:
	add	x9, x19, x23, lsl #6
	ldr	x24, [x9, #24]
	ldr	x20, [x9, #8]
	cbz	x24, 613b
	ldr	x8, [x9, #32]
	ldr	x10, [x9, #16]
	cmp	x8, x10
	csel	x9, xzr, x10, lo
	sub	x11, x8, x9
	subs	x12, x10, x11
	cmp	x12, x24
	csel	x25, x12, x24, lo
	subs	x26, x10, x11
	b.ne	625f
118:
	cmp	x24, x26
	b.ls	613b
	sub	x24, x24, x25
	add	x25, x20, #16
	b	93f
321:
	subs	x24, x24, #1
	add	x25, x25, #32
	b.eq	613b
93:
	ldr	x8, [x25]
	cbz	x8, 321b
	ldur	x0, [x25, #-16]
	bl	rattle_dealloc
	b	321b
625:
	sub	x9, x20, x9, lsl #5
	mov	x28, x25
	add	x8, x9, x8, lsl #5
	add	x27, x8, #16
	b	93f
321:
	subs	x28, x28, #1
	add	x27, x27, #32
	b.eq	118b
93:
	ldr	x8, [x27]
	cbz	x8, 321b
	ldur	x0, [x27, #-16]
	bl	rattle_dealloc
	b	321b
983:
	cbz	x22, 976f
	mov	x0, x19
	ldp	x20, x19, [sp, #80]
	ldp	x22, x21, [sp, #64]
	ldp	x24, x23, [sp, #48]
	ldp	x26, x25, [sp, #32]
	ldp	x28, x27, [sp, #16]
	ldp	x29, x30, [sp], #96
	b	rattle_dealloc
976:
	ldp	x20, x19, [sp, #80]
	ldp	x22, x21, [sp, #64]
	ldp	x24, x23, [sp, #48]
	ldp	x26, x25, [sp, #32]
	ldp	x28, x27, [sp, #16]
	ldp	x29, x30, [sp], #96
	ret
	.section	.text.tc_c.settings.checked_within,"ax",@progbits
	.p2align	2
tc_c.settings.checked_within:
	sub	sp, sp, #176
	stp	x24, x23, [sp, #128]
	ldrb	w23, [x1, #4]
	ldrb	w24, [x1, #3]
	stp	x22, x21, [sp, #144]
	ldrb	w21, [x1, #1]
	ldrb	w22, [x1, #2]
	cmp	w23, #1
	stp	x20, x19, [sp, #160]
	mov	x19, x0
	ldrb	w20, [x1]
	stp	x29, x30, [sp, #80]
	add	x29, sp, #80
	stp	x28, x27, [sp, #96]
	stp	x26, x25, [sp, #112]
	sturh	wzr, [x29, #-4]
	sturb	wzr, [x29, #-2]
	strh	wzr, [sp, #4]
	strb	wzr, [sp, #6]
	b.hi	922f
	ldr	q0, [x6]
	ldr	x8, [x6, #16]
	mov	x25, x2
	stp	x2, x3, [sp, #16]
	sub	x0, x29, #4
	sub	x1, x29, #32
	add	x2, sp, #8
	strb	w20, [sp, #8]
	mov	x26, x3
	stur	q0, [x29, #-32]
	mov	x27, x4
	mov	x28, x5
	stur	x8, [x29, #-16]
	strb	w21, [sp, #9]
	strb	w22, [sp, #10]
	strb	w24, [sp, #11]
	strb	w23, [sp, #12]
	sturh	wzr, [sp, #13]
	strb	wzr, [sp, #15]
	stp	x4, x5, [sp, #32]
	bl	tc_fixed.limits.LentLimits.check
	ldurb	w8, [x29, #-4]
	cbz	w8, 613f
	ldurb	w9, [x29, #-3]
	cmp	w9, #2
	b.le	118f
	cmp	w9, #4
	b.gt	280f
	cmp	w9, #3
	b.ne	983f
	mov	w20, wzr
	mov	w21, wzr
	mov	w22, wzr
	mov	w24, wzr
	mov	w23, wzr
	mov	x9, xzr
	mov	x10, xzr
	mov	x11, xzr
	mov	x13, xzr
	mov	w12, #49
	b	560f
922:
	movi	v0.2d, #0000000000000000
	mov	w8, #5633
	str	xzr, [x19, #40]
	strh	w8, [x19]
	stur	q0, [x19, #8]
	stur	q0, [x19, #24]
	b	976f
613:
	mov	w12, wzr
	strb	wzr, [sp, #6]
	mov	x9, x25
	strh	wzr, [sp, #4]
	mov	x10, x26
	mov	x11, x27
	mov	x13, x28
560:
	strb	w8, [x19]
	ldrh	w8, [sp, #4]
	strb	w12, [x19, #1]
	ldrb	w12, [sp, #6]
	strb	w20, [x19, #8]
	strb	w21, [x19, #9]
	strb	w22, [x19, #10]
	strb	w24, [x19, #11]
	strb	w23, [x19, #12]
	sturh	w8, [x19, #13]
	strb	w12, [x19, #15]
	stp	x9, x10, [x19, #16]
	stp	x11, x13, [x19, #32]
976:
	ldp	x20, x19, [sp, #160]
	ldp	x22, x21, [sp, #144]
	ldp	x24, x23, [sp, #128]
	ldp	x26, x25, [sp, #112]
	ldp	x28, x27, [sp, #96]
	ldp	x29, x30, [sp, #80]
	add	sp, sp, #176
	ret
118:
	cbz	w9, 257f
	cmp	w9, #1
	b.ne	613f
	mov	w20, wzr
	mov	w21, wzr
	mov	w22, wzr
	mov	w24, wzr
	mov	w23, wzr
	mov	x9, xzr
	mov	x10, xzr
	mov	x11, xzr
	mov	x13, xzr
	mov	w12, #47
	b	560b
280:
	cmp	w9, #5
	b.ne	187f
	mov	w20, wzr
	mov	w21, wzr
	mov	w22, wzr
	mov	w24, wzr
	mov	w23, wzr
	mov	x9, xzr
	mov	x10, xzr
	mov	x11, xzr
	mov	x13, xzr
	mov	w12, #51
	b	560b
257:
	ldurb	w12, [x29, #-2]
	adrp	x13, .Lswitch.table.tcrx_storage_at
	add	x13, x13, :lo12:.Lswitch.table.tcrx_storage_at
	mov	w20, wzr
	mov	w21, wzr
	mov	w22, wzr
	ldrb	w12, [x13, x12]
	mov	w24, wzr
	mov	w23, wzr
	mov	x9, xzr
	mov	x10, xzr
	mov	x11, xzr
	mov	x13, xzr
	b	560b
613:
	mov	w20, wzr
	mov	w21, wzr
	mov	w22, wzr
	mov	w24, wzr
	mov	w23, wzr
	mov	x9, xzr
	mov	x10, xzr
	mov	x11, xzr
	mov	x13, xzr
	mov	w12, #48
	b	560b
983:
	mov	w20, wzr
	mov	w21, wzr
	mov	w22, wzr
	mov	w24, wzr
	mov	w23, wzr
	mov	x9, xzr
	mov	x10, xzr
	mov	x11, xzr
	mov	x13, xzr
	mov	w12, #50
	b	560b
187:
	mov	w20, wzr
	mov	w21, wzr
	mov	w22, wzr
	mov	w24, wzr
	mov	w23, wzr
	mov	x9, xzr
	mov	x10, xzr
	mov	x11, xzr
	mov	x13, xzr
	mov	w12, #52
	b	560b
	.section	.text.tc_fixed.limits.LentLimits.check,"ax",@progbits
	.p2align	2
tc_fixed.limits.LentLimits.check:
	sub	sp, sp, #128
	ldr	w8, [x2]
	stp	x22, x21, [sp, #96]
	ldur	q0, [x2, #5]
	stp	x20, x19, [sp, #112]
	mov	x19, x0
	add	x0, sp, #8
	ldp	x20, x21, [x2, #24]
	stp	x24, x23, [sp, #80]
	ldrb	w23, [x2, #4]
	str	w8, [sp, #8]
	ldr	w8, [x2, #20]
	str	x25, [sp, #64]
	ldr	w25, [x1]
	stp	x29, x30, [sp, #48]
	add	x29, sp, #48
	ldp	x22, x24, [x1, #8]
	strb	w23, [sp, #12]
	stur	q0, [sp, #13]
	str	w8, [sp, #28]
	stp	x20, x21, [sp, #32]
	bl	tc_queues.settings.LentSettings.check
	tst	w0, #0xff
	b.eq	613f
	mov	w8, #1
	strb	w1, [x19, #2]
	strh	w8, [x19]
	b	976f
613:
	mov	w8, #6
	cmp	w25, #0
	movk	w8, #1, lsl #16
	cset	w10, ne
	orr	w9, w8, #0x1
	cmp	w25, w9
	mov	w9, #1
	b.hs	983f
	orr	w11, w10, w23
	mov	w10, #1
	tbz	w11, #0, 560f
	add	x9, x24, #1
	mov	x10, x22
321:
	subs	x9, x9, #1
	b.eq	613f
	ldrb	w11, [x10], #8
	cmp	w11, #64
	b.lo	321b
	mov	w10, #2
	b	187f
613:
	cbz	x24, 316f
	mov	x9, xzr
	mov	x10, #-1
192:
	lsl	x11, x9, #3
	mov	x12, x10
	mov	x13, x22
	ldrb	w11, [x22, x11]
460:
	adds	x12, x12, #1
	b.hs	62f
	ldrb	w14, [x13], #8
	cmp	w14, w11
	b.ne	460b
	b	613f
62:
	add	x9, x9, #1
	sub	x10, x10, #1
	cmp	x9, x24
	b.ne	192b
316:
	add	x10, x22, #4
	add	x9, x24, #1
321:
	subs	x9, x9, #1
	b.eq	32f
	ldr	w11, [x10], #8
	sub	w11, w11, #1
	cmp	w11, w8
	b.lo	321b
	mov	w10, #4
	b	187f
983:
	mov	w10, #1
	b	560f
613:
	mov	w10, #3
187:
	mov	w9, #1
560:
	strb	w9, [x19]
	strb	w10, [x19, #1]
	strb	wzr, [x19, #2]
976:
	ldp	x20, x19, [sp, #112]
	ldr	x25, [sp, #64]
	ldp	x22, x21, [sp, #96]
	ldp	x24, x23, [sp, #80]
	ldp	x29, x30, [sp, #48]
	add	sp, sp, #128
	ret
32:
	cbz	x24, 613f
	tbnz	w23, #0, 613f
	mov	w10, #5
	b	187b
613:
	mov	w9, wzr
	mov	w10, wzr
	cbnz	w25, 560b
	cbz	x21, 560b
	mov	x8, xzr
	add	x11, x24, #1
192:
	lsl	x9, x8, #2
	mov	x10, x11
	mov	x12, x22
	ldrb	w9, [x20, x9]
321:
	subs	x10, x10, #1
	b.eq	613f
	ldrb	w13, [x12], #8
	cmp	w13, w9
	b.ne	321b
	add	x8, x8, #1
	mov	w9, wzr
	mov	w10, wzr
	cmp	x8, x21
	b.ne	192b
	b	560b
613:
	mov	w10, #6
	b	187b
	.section	.text.tc_edges.write.fields.check_taking,"ax",@progbits
	.p2align	2
tc_edges.write.fields.check_taking:
	cmp	x2, #5
	b.hs	602f
	mov	w10, #1
	strb	wzr, [x0, #1]
	strb	w10, [x0]
	strb	wzr, [x0, #2]
	ret
602:
	ldrb	w8, [x1]
	cmp	w8, #63
	b.hi	613f
	tst	w8, #0xc
	b.eq	602f
	mov	w9, #2
	mov	w10, #1
	strb	wzr, [x0, #1]
	strb	w10, [x0]
	strb	w9, [x0, #2]
	ret
613:
	mov	w9, #1
	mov	w10, #1
	strb	wzr, [x0, #1]
	strb	w10, [x0]
	strb	w9, [x0, #2]
	ret
602:
	ldrb	w8, [x1, #2]
	ldrb	w9, [x1, #3]
	lsl	w8, w8, #8
	and	w8, w8, #0x300
	orr	w8, w8, w9
	cmp	w8, #5
	b.hs	62f
	mov	w9, #3
	mov	w10, #1
	strb	wzr, [x0, #1]
	strb	w10, [x0]
	strb	w9, [x0, #2]
	ret
62:
	add	w8, w8, #1
	cmp	x2, x8
	b.hs	118f
	mov	w9, #4
	mov	w10, #1
	strb	wzr, [x0, #1]
	strb	w10, [x0]
	strb	w9, [x0, #2]
	ret
118:
	cmp	x2, x8
	b.ls	118f
	mov	w8, #1
	mov	w10, #1
	strb	w8, [x0, #1]
	strb	w10, [x0]
	strb	wzr, [x0, #2]
	ret
118:
	cmp	x2, #8
	b.hs	613f
	mov	w8, #769
	strb	wzr, [x0, #2]
	strh	w8, [x0]
	ret
613:
	mov	w8, #255
	mov	w10, #255
602:
	ldrb	w9, [x1]
	ldrb	w11, [x1, #1]
	adrp	x12, .LT48aab116
	add	x12, x12, :lo12:.LT48aab116
	adrp	x13, .LT33c05f58
	add	x13, x13, :lo12:.LT33c05f58
	eor	w9, w9, w10
	ldrb	w10, [x1, #2]
	eor	w8, w11, w8
	and	x9, x9, #0xff
	ldrb	w11, [x1, #3]
	and	x8, x8, #0xff
	ldrh	w9, [x12, x9, lsl #1]
	adrp	x12, .LTbb337a2b
	add	x12, x12, :lo12:.LTbb337a2b
	ldrh	w10, [x12, x10, lsl #1]
	adrp	x12, .LT48c7e4e5
	add	x12, x12, :lo12:.LT48c7e4e5
	ldrh	w8, [x13, x8, lsl #1]
	ldrh	w11, [x12, x11, lsl #1]
	sub	x2, x2, #4
	cmp	x2, #3
	eor	w8, w8, w9
	eor	w9, w10, w11
	eor	w8, w8, w9
	add	x9, x1, #4
	ubfx	w10, w8, #8, #8
	mov	x1, x9
	b.hi	602b
	cbz	x2, 583f
	mov	x10, xzr
602:
	ldrb	w11, [x9, x10]
	and	w12, w8, #0xff00
	add	x10, x10, #1
	cmp	x2, x10
	eor	w11, w11, w12, lsr #8
	eor	w11, w11, w11, lsr #4
	orr	w8, w11, w8, lsl #8
	eor	w8, w8, w11, lsl #12
	eor	w8, w8, w11, lsl #5
	b.ne	602b
583:
	tst	w8, #0xffff
	b.eq	738f
	mov	w8, #1025
	strb	wzr, [x0, #2]
	strh	w8, [x0]
	ret
738:
	strh	wzr, [x0]
	strb	wzr, [x0, #2]
	ret
	.section	.rodata.cst16,"aM",@progbits,16
	.p2align	4
.LCb5d67b4a_0:
	.byte	1
	.byte	2
	.byte	4
	.byte	8
	.byte	16
	.byte	32
	.byte	64
	.byte	128
	.byte	1
	.byte	2
	.byte	4
	.byte	8
	.byte	16
	.byte	32
	.byte	64
	.byte	128
	.section	.text.core.cmp.slices.groups_equal._i8_31_core.cmp.numbers.U8PartialEq,"ax",@progbits
	.p2align	2
core.cmp.slices.groups_equal._i8_31_core.cmp.numbers.U8PartialEq:
	subs	x9, x1, #8
	b.hi	321f
	sub	x8, x1, #4
	ldr	s0, [x0]
	ldr	s1, [x2]
	add	x9, x0, x8
	add	x8, x2, x8
	ld1	{ v0.s }[1], [x9]
	ld1	{ v1.s }[1], [x8]
	fmov	x8, d0
	fmov	x9, d1
	cmp	x8, x9
	cset	w8, ne
	eor	w0, w8, #0x1
	ret
321:
	subs	x8, x1, #32
	b.hi	118f
	cmp	x9, #8
	mov	w8, #8
	mov	w10, #16
	csel	x8, x9, x8, lo
	cmp	x9, #16
	ldr	d0, [x0]
	ldr	d1, [x2]
	ldr	d2, [x0, x8]
	ldr	d3, [x2, x8]
	csel	x8, x9, x10, lo
	ldr	d5, [x2, x9]
	ldr	d4, [x0, x8]
	mov	v0.d[1], v2.d[0]
	mov	v1.d[1], v3.d[0]
	ldr	d2, [x2, x8]
	ldr	d3, [x0, x9]
	mov	v4.d[1], v3.d[0]
	mov	v2.d[1], v5.d[0]
	cmeq	v0.16b, v0.16b, v1.16b
	cmeq	v1.16b, v4.16b, v2.16b
	b	14f
118:
	cmp	x1, #65
	b.hs	447f
	ldp	q1, q0, [x0]
	add	x9, x2, x8
	ldp	q3, q2, [x2]
	add	x8, x0, x8
	ldp	q4, q5, [x9]
	cmeq	v1.16b, v1.16b, v3.16b
	cmeq	v0.16b, v0.16b, v2.16b
	ldp	q2, q3, [x8]
	mvn	v1.16b, v1.16b
	mvn	v0.16b, v0.16b
	cmeq	v2.16b, v2.16b, v4.16b
	cmeq	v3.16b, v3.16b, v5.16b
	orn	v0.16b, v0.16b, v3.16b
	orn	v1.16b, v1.16b, v2.16b
	orr	v0.16b, v1.16b, v0.16b
	umaxv	b0, v0.16b
	fmov	w8, s0
	and	w8, w8, #0x1
	eor	w0, w8, #0x1
	ret
447:
	and	x9, x1, #0xffffffffffffffc0
	add	x10, x0, #32
	add	x12, x2, #32
	mov	w11, #32
	mov	x13, x1
976:
	ldp	q0, q3, [x12, #-32]
	ldp	q1, q2, [x10, #-32]
	ldp	q4, q5, [x12], #64
	cmeq	v0.16b, v1.16b, v0.16b
	cmeq	v1.16b, v2.16b, v3.16b
	ldp	q2, q3, [x10], #64
	mvn	v0.16b, v0.16b
	mvn	v1.16b, v1.16b
	cmeq	v2.16b, v2.16b, v4.16b
	cmeq	v3.16b, v3.16b, v5.16b
	orn	v0.16b, v0.16b, v2.16b
	orn	v1.16b, v1.16b, v3.16b
	orr	v0.16b, v1.16b, v0.16b
	umaxv	b0, v0.16b
	fmov	w14, s0
	tbnz	w14, #0, 625f
	sub	x13, x13, #64
	add	x11, x11, #64
	cmp	x13, #64
	b.hs	976b
	sub	x10, x1, x9
	cmp	x10, #32
	b.hs	62f
	b	316f
625:
	sub	x9, x11, #32
	sub	x10, x1, x9
	cmp	x10, #32
	b.lo	316f
62:
	add	x11, x0, x9
	add	x9, x2, x9
976:
	ldp	q0, q1, [x11], #32
	ldp	q2, q3, [x9], #32
	adrp	x12, .LCb5d67b4a_0
	cmeq	v1.16b, v1.16b, v3.16b
	cmeq	v0.16b, v0.16b, v2.16b
	ldr	q2, [x12, :lo12:.LCb5d67b4a_0]
	bic	v1.16b, v2.16b, v1.16b
	bic	v0.16b, v2.16b, v0.16b
	ext	v2.16b, v1.16b, v1.16b, #8
	ext	v3.16b, v0.16b, v0.16b, #8
	zip1	v1.16b, v1.16b, v2.16b
	zip1	v0.16b, v0.16b, v3.16b
	addv	h1, v1.8h
	addv	h0, v0.8h
	fmov	w12, s1
	fmov	w13, s0
	orr	w12, w13, w12
	tst	w12, #0xffff
	b.ne	118f
	sub	x10, x10, #32
	cmp	x10, #32
	b.hs	976b
	b	316f
118:
	cmp	x10, #31
	b.ls	316f
	mov	w8, #1
	eor	w0, w8, #0x1
	ret
316:
	add	x9, x0, x8
	add	x8, x2, x8
	ldp	q0, q3, [x8]
	ldp	q1, q2, [x9]
	cmeq	v0.16b, v1.16b, v0.16b
	cmeq	v1.16b, v2.16b, v3.16b
14:
	mvn	v0.16b, v0.16b
	orn	v0.16b, v0.16b, v1.16b
	umaxv	b0, v0.16b
	fmov	w8, s0
	and	w8, w8, #0x1
	eor	w0, w8, #0x1
	ret
	.section	.text.tc_c.decoder.take_blocks,"ax",@progbits
	.p2align	2
tc_c.decoder.take_blocks:
	and	w9, w2, #0xffff
	mov	x8, xzr
	and	x10, x2, #0xffff
	cmp	w9, #1022
	b.hi	613f
	subs	x9, x4, #8
	b.lo	613f
	tst	w1, #0xff
	b.eq	983f
	mov	x11, xzr
	mov	x8, xzr
	sub	x12, x6, x10
62:
	add	x13, x3, x8
	adrp	x18, .LTb4175d02
	add	x18, x18, :lo12:.LTb4175d02
	ldrb	w14, [x13]
	ldrb	w15, [x13, #1]
	ldrb	w16, [x13, #2]
	ldrb	w17, [x13, #3]
	ldrb	w1, [x13, #4]
	ldrb	w2, [x13, #5]
	ldrb	w4, [x13, #6]
	add	x14, x18, x14
	add	x15, x18, x15
	add	x16, x18, x16
	add	x17, x18, x17
	add	x1, x18, x1
	add	x2, x18, x2
	ldrb	w14, [x14, #1536]
	ldrb	w15, [x15, #1280]
	ldrb	w16, [x16, #1024]
	ldrb	w17, [x17, #768]
	ldrb	w1, [x1, #512]
	ldrb	w2, [x2, #256]
	ldrb	w18, [x18, x4]
	ldrb	w6, [x13, #7]
	eor	w14, w14, w15
	eor	w15, w16, w17
	eor	w16, w1, w2
	eor	w14, w14, w15
	eor	w15, w16, w18
	eor	w15, w14, w15
	lsr	w14, w6, #1
	eor	w15, w15, #0x7f
	cmp	w15, w14
	b.ne	140f
	ldr	x13, [x13]
	mov	x14, xzr
	cmp	x12, #8
	b.lo	118f
893:
	str	x13, [x5, x10]
118:
	cmp	x10, #1015
	add	x13, x10, #7
	add	x8, x8, #8
	add	x11, x14, x11
	b.hi	738f
	cmp	x9, #7
	sub	x9, x9, #8
	sub	x12, x12, #7
	mov	x10, x13
	b.hi	62b
	b	738f
140:
	eor	w14, w15, w14
	adrp	x15, .LTddd25b9b
	add	x15, x15, :lo12:.LTddd25b9b
	ldr	x14, [x15, w14, uxtw #3]
	cbz	x14, 187f
	ldr	x13, [x13]
	eor	x13, x13, x14
	mov	w14, #1
	cmp	x12, #8
	b.hs	893b
	b	118b
613:
	mov	x13, x10
	mov	x11, x8
738:
	strh	w13, [x0]
	stur	wzr, [x0, #2]
	strh	wzr, [x0, #6]
	stp	x8, x11, [x0, #8]
	ret
983:
	mov	x8, xzr
	sub	x12, x6, x10
62:
	add	x11, x3, x8
	adrp	x17, .LTb4175d02
	add	x17, x17, :lo12:.LTb4175d02
	ldrb	w13, [x11]
	ldrb	w14, [x11, #1]
	ldrb	w15, [x11, #2]
	ldrb	w16, [x11, #3]
	ldrb	w18, [x11, #4]
	ldrb	w1, [x11, #5]
	ldrb	w2, [x11, #6]
	add	x13, x17, x13
	add	x14, x17, x14
	add	x15, x17, x15
	add	x16, x17, x16
	add	x18, x17, x18
	add	x1, x17, x1
	ldrb	w13, [x13, #1536]
	ldrb	w14, [x14, #1280]
	ldrb	w15, [x15, #1024]
	ldrb	w16, [x16, #768]
	ldrb	w18, [x18, #512]
	ldrb	w1, [x1, #256]
	ldrb	w17, [x17, x2]
	eor	w13, w13, w14
	eor	w14, w15, w16
	ldrb	w16, [x11, #7]
	eor	w15, w18, w1
	eor	w13, w13, w14
	eor	w14, w15, w17
	eor	w13, w13, w14
	eor	w13, w13, w16, lsr #1
	cmp	w13, #127
	b.ne	983f
	cmp	x12, #8
	b.lo	613f
	ldr	x11, [x11]
	str	x11, [x5, x10]
613:
	mov	x11, xzr
	cmp	x10, #1015
	add	x13, x10, #7
	add	x8, x8, #8
	b.hi	738b
	cmp	x9, #7
	sub	x9, x9, #8
	sub	x12, x12, #7
	mov	x10, x13
	b.hi	62b
	b	738b
187:
	mov	x13, x10
	strh	w13, [x0]
	stur	wzr, [x0, #2]
	strh	wzr, [x0, #6]
	stp	x8, x11, [x0, #8]
	ret
983:
	mov	x13, x10
	strh	w13, [x0]
	stur	wzr, [x0, #2]
	strh	wzr, [x0, #6]
	stp	x8, xzr, [x0, #8]
	ret
	.section	.text.tc_c.rack.bring_checked,"ax",@progbits
	.p2align	2
tc_c.rack.bring_checked:
	stp	x29, x30, [sp, #-96]!
	str	x28, [sp, #16]
	mov	x29, sp
	stp	x26, x25, [sp, #32]
	stp	x24, x23, [sp, #48]
	stp	x22, x21, [sp, #64]
	stp	x20, x19, [sp, #80]
	sub	sp, sp, #1056
	mov	x21, x2
	mov	x22, x1
	mov	x19, x0
	sub	x25, x29, #16
	add	x0, sp, #12
	mov	x1, x4
	mov	x2, x5
	str	xzr, [sp]
	mov	x24, x5
	mov	x23, x4
	mov	w20, w3
	stp	xzr, xzr, [x25]
	strh	wzr, [sp, #12]
	strb	wzr, [sp, #14]
	bl	tc_edges.write.fields.check_taking
	ldrb	w8, [sp, #12]
	cmp	w8, #1
	b.ne	62f
	ldrb	w8, [sp, #13]
	cmp	w8, #2
	b.gt	118f
	cbz	w8, 602f
	cmp	w8, #1
	b.ne	983f
	mov	w0, #6
	b	498f
62:
	add	x0, sp, #18
	mov	w1, wzr
	mov	w2, #1022
	bl	memset
	sub	x24, x24, #2
	ldrh	w26, [x23, #2]
	add	x0, sp, #18
	mov	x1, x23
	mov	x2, x24
	bl	memcpy
	rev	w8, w26
	sub	x0, x29, #16
	add	x4, sp, #18
	lsr	w8, w8, #16
	mov	x1, x22
	mov	x2, x21
	mov	w3, w20
	mov	x5, x24
	sub	w8, w8, #2
	rev	w8, w8
	lsr	w8, w8, #16
	strh	w8, [sp, #20]
	bl	tc_c.rack.bring
	b	93f
118:
	cmp	w8, #3
	b.eq	613f
	cmp	w8, #4
	b.ne	187f
	mov	w0, #8
	b	498f
602:
	ldrb	w8, [sp, #14]
	add	w0, w8, #1
	b	498f
613:
	mov	w0, #7
	b	498f
983:
	mov	w0, #15
	b	498f
187:
	mov	w0, #12
498:
	bl	tc_c_base.status.code
	stur	xzr, [x25, #4]
	stur	w0, [x29, #-16]
	stur	wzr, [x29, #-4]
93:
	ldr	q0, [x25]
	str	q0, [x19]
	add	sp, sp, #1056
	ldp	x20, x19, [sp, #80]
	ldr	x28, [sp, #16]
	ldp	x22, x21, [sp, #64]
	ldp	x24, x23, [sp, #48]
	ldp	x26, x25, [sp, #32]
	ldp	x29, x30, [sp], #96
	ret
	.section	.text.tc_c.rack.bring,"ax",@progbits
	.p2align	2
tc_c.rack.bring:
	sub	sp, sp, #48
	stp	x20, x19, [sp, #32]
	cmp	x5, #5
	mov	x19, x0
	stp	x29, x30, [sp, #16]
	add	x29, sp, #16
	b.hs	602f
	mov	w0, #1
	b	498f
602:
	ldrb	w8, [x4]
	cmp	w8, #63
	b.hi	613f
	tst	w8, #0xc
	b.eq	602f
	mov	w0, #3
	b	498f
613:
	mov	w0, #2
498:
	bl	tc_c_base.status.code
	movi	v0.2d, #0000000000000000
	mov	w8, wzr
	mov	w9, wzr
	mov	w10, wzr
	mov	w20, wzr
893:
	str	w0, [x19]
	ldp	x29, x30, [sp, #16]
	stur	d0, [x19, #4]
	strb	w8, [x19, #12]
	strb	w9, [x19, #13]
	strb	w10, [x19, #14]
	strb	w20, [x19, #15]
	ldp	x20, x19, [sp, #32]
	add	sp, sp, #48
	ret
602:
	ldrb	w9, [x4, #2]
	ldrb	w11, [x4, #3]
	lsl	x10, x9, #8
	and	x10, x10, #0x300
	orr	x10, x10, x11
	cmp	w10, #5
	b.hs	62f
	mov	w0, #4
	b	498b
62:
	add	x10, x10, #1
	cmp	x5, x10
	b.hs	602f
	mov	w0, #5
	b	498b
602:
	ldrb	w10, [x4, #1]
	bfi	w10, w8, #8, #2
	cmp	w10, w3, uxth
	b.ne	613f
	cbz	x2, 983f
	lsr	w20, w9, #2
	b	602f
321:
	subs	x2, x2, #1
	add	x1, x1, #16
	mov	w0, #46
	b.eq	498b
602:
	ldrb	w8, [x1]
	cmp	w8, #1
	b.ne	321b
	ldr	x8, [x1, #8]
	ldrb	w8, [x8]
	cmp	w8, w20
	b.ne	321b
	mov	x0, sp
	mov	x2, x4
	mov	x3, x5
	stp	xzr, xzr, [sp]
	bl	tc_c.channel.tcrx_channel_frame_at
	ldr	w0, [sp]
	ldur	d0, [sp, #4]
	ldrb	w8, [sp, #12]
	ldrb	w9, [sp, #13]
	ldrb	w10, [sp, #14]
	b	893b
613:
	mov	w0, #45
	b	498b
983:
	mov	w0, #46
	b	498b
	.section	.text.tcrx_add_fecf_at,"ax",@progbits
	.globl	tcrx_add_fecf_at
	.p2align	2
	.type	tcrx_add_fecf_at,@function
tcrx_add_fecf_at:
	stp	x29, x30, [sp, #-48]!
	cmp	x0, #0
	mov	w8, #4096
	stp	x22, x21, [sp, #16]
	csel	x10, x8, xzr, eq
	cmp	x2, #0
	stp	x20, x19, [sp, #32]
	csel	x9, x8, xzr, eq
	cmp	x1, #5
	mov	x29, sp
	b.hs	62f
	mov	w0, #1
	b	498f
62:
	add	x8, x0, x10
	ldrb	w11, [x8]
	cmp	w11, #63
	b.hi	613f
	tst	w11, #0xc
	b.eq	602f
	mov	w0, #3
	b	498f
613:
	mov	w0, #2
498:
	bl	tc_c_base.status.code
	mov	x1, xzr
	mov	w0, w0
	ldp	x20, x19, [sp, #32]
	ldp	x22, x21, [sp, #16]
	ldp	x29, x30, [sp], #48
	ret
602:
	ldrb	w11, [x8, #2]
	ldrb	w12, [x8, #3]
	lsl	x11, x11, #8
	and	x13, x11, #0x300
	orr	x13, x13, x12
	cmp	w13, #5
	b.hs	62f
	mov	w0, #4
	b	498b
62:
	add	x13, x13, #1
	cmp	x1, x13
	b.hs	613f
	mov	w0, #5
	b	498b
613:
	b.ls	118f
	mov	w0, #6
	b	498b
118:
	cmp	x1, #1023
	b.lo	62f
	mov	w0, #15
	b	498b
62:
	add	x13, x1, #2
	add	x21, x1, #2
	cmp	x3, x13
	b.hs	62f
	mov	w0, #50
	mov	x1, x21
	ldp	x20, x19, [sp, #32]
	ldp	x22, x21, [sp, #16]
	ldp	x29, x30, [sp], #48
	ret
62:
	add	x19, x2, x9
	orr	w11, w11, w12
	sub	x13, x19, x8
	add	w22, w11, #2
	cmp	x13, x1
	b.hs	983f
	cmp	x1, #8
	b.lo	613f
	add	x8, x9, x2
	add	x11, x10, x0
	sub	x8, x8, x11
	cmp	x8, #32
	b.hs	118f
613:
	mov	x8, xzr
62:
	add	x10, x10, x8
	add	x11, x9, x8
	sub	x8, x1, x8
	add	x9, x0, x10
	add	x10, x2, x11
602:
	ldrb	w11, [x9], #1
	subs	x8, x8, #1
	strb	w11, [x10], #1
	b.ne	602b
	b	676f
983:
	mov	x20, x1
	mov	x0, x19
	mov	x1, x8
	mov	x2, x20
	bl	memmove
	mov	x1, x20
676:
	rev	w8, w22
	mov	w10, #255
	mov	x11, x19
	lsr	w9, w8, #16
	mov	w8, #255
	strh	w9, [x19, #2]
	mov	x9, x1
602:
	ldrb	w12, [x11]
	ldrb	w13, [x11, #1]
	adrp	x14, .LT48aab116
	add	x14, x14, :lo12:.LT48aab116
	adrp	x15, .LT33c05f58
	add	x15, x15, :lo12:.LT33c05f58
	eor	w10, w12, w10
	ldrb	w12, [x11, #2]
	eor	w8, w13, w8
	and	x10, x10, #0xff
	ldrb	w13, [x11, #3]
	and	x8, x8, #0xff
	ldrh	w10, [x14, x10, lsl #1]
	adrp	x14, .LTbb337a2b
	add	x14, x14, :lo12:.LTbb337a2b
	ldrh	w12, [x14, x12, lsl #1]
	adrp	x14, .LT48c7e4e5
	add	x14, x14, :lo12:.LT48c7e4e5
	ldrh	w8, [x15, x8, lsl #1]
	ldrh	w13, [x14, x13, lsl #1]
	sub	x9, x9, #4
	cmp	x9, #3
	eor	w8, w8, w10
	eor	w10, w12, w13
	add	x12, x11, #4
	eor	w8, w8, w10
	mov	x11, x12
	ubfx	w10, w8, #8, #8
	b.hi	602b
	cbz	x9, 613f
	mov	x10, xzr
602:
	ldrb	w11, [x12, x10]
	and	w13, w8, #0xff00
	add	x10, x10, #1
	cmp	x9, x10
	eor	w11, w11, w13, lsr #8
	eor	w11, w11, w11, lsr #4
	orr	w8, w11, w8, lsl #8
	eor	w8, w8, w11, lsl #12
	eor	w8, w8, w11, lsl #5
	b.ne	602b
	ubfx	w10, w8, #8, #8
613:
	mov	x0, xzr
	orr	w8, w10, w8, lsl #8
	strh	w8, [x19, x1]
	mov	x1, x21
	ldp	x20, x19, [sp, #32]
	ldp	x22, x21, [sp, #16]
	ldp	x29, x30, [sp], #48
	ret
118:
	cmp	x1, #32
	b.hs	316f
	mov	x8, xzr
	b	613f
316:
	add	x12, x10, x0
	add	x13, x9, x2
	and	x11, x1, #0x18
	and	x8, x1, #0x3e0
	add	x12, x12, #16
	add	x13, x13, #16
	and	x14, x1, #0x3e0
976:
	ldp	q0, q1, [x12, #-16]
	subs	x14, x14, #32
	add	x12, x12, #32
	stp	q0, q1, [x13, #-16]
	add	x13, x13, #32
	b.ne	976b
	cmp	x1, x8
	b.eq	676b
	cbz	x11, 62b
613:
	mov	x11, x8
	and	x8, x1, #0x3f8
	add	x12, x10, x11
	add	x13, x9, x11
	sub	x11, x11, x8
	add	x12, x0, x12
	add	x13, x2, x13
93:
	ldr	d0, [x12], #8
	adds	x11, x11, #8
	str	d0, [x13], #8
	b.ne	93b
	cmp	x1, x8
	b.eq	676b
	b	62b
	.size	tcrx_add_fecf_at, .-tcrx_add_fecf_at
	.section	.text.tcrx_channel_buffered_at,"ax",@progbits
	.globl	tcrx_channel_buffered_at
	.p2align	2
	.type	tcrx_channel_buffered_at,@function
tcrx_channel_buffered_at:
	ldrb	w8, [x0]
	cmp	w8, #1
	b.ne	613f
	ldr	x8, [x0, #8]
	mov	x0, xzr
	ldr	x1, [x8, #128]
	ret
613:
	mov	x1, xzr
	mov	w0, #70
	ret
	.size	tcrx_channel_buffered_at, .-tcrx_channel_buffered_at
	.section	.rodata.cst16,"aM",@progbits,16
	.p2align	4
.LC6b36550b_0:
	.xword	43
	.xword	41
.LC6b36550b_1:
	.xword	45
	.xword	44
	.section	.text.tcrx_channel_clcw_at,"ax",@progbits
	.globl	tcrx_channel_clcw_at
	.p2align	2
	.type	tcrx_channel_clcw_at,@function
tcrx_channel_clcw_at:
	ldrb	w8, [x0]
	cmp	w8, #1
	b.ne	613f
	and	w9, w2, #0xff
	and	w8, w1, #0xff
	orr	w10, w9, w8
	cmp	w10, #1
	b.hi	983f
	ldr	x10, [x0, #8]
	movi	v1.2d, #0x000000000000ff
	adrp	x11, .LC6b36550b_0
	adrp	x12, .LC6b36550b_1
	lsl	w9, w9, #14
	ldur	s0, [x10, #91]
	ldr	q3, [x12, :lo12:.LC6b36550b_1]
	orr	w8, w9, w8, lsl #15
	ushll	v0.8h, v0.8b, #0
	ushll	v0.4s, v0.4h, #0
	ushll	v2.2d, v0.2s, #0
	ushll2	v0.2d, v0.4s, #0
	and	v2.16b, v2.16b, v1.16b
	and	v0.16b, v0.16b, v1.16b
	ldr	q1, [x11, :lo12:.LC6b36550b_0]
	ldrb	w11, [x10]
	ldrb	w10, [x10, #90]
	ushl	v0.2d, v0.2d, v1.2d
	ushl	v1.2d, v2.2d, v3.2d
	orr	w8, w8, w10
	add	v0.2d, v1.2d, v0.2d
	addp	d0, v0.2d
	fmov	x9, d0
	add	x9, x9, x11, lsl #50
	add	x8, x9, x8, lsl #32
	mov	x9, #72057594037927936
	add	x8, x8, x9
	and	x0, x8, #0x7fffffff00000000
	ret
613:
	mov	w0, #70
	ret
983:
	mov	w0, #23
	ret
	.size	tcrx_channel_clcw_at, .-tcrx_channel_clcw_at
	.section	.text.tcrx_channel_events_at,"ax",@progbits
	.globl	tcrx_channel_events_at
	.p2align	2
	.type	tcrx_channel_events_at,@function
tcrx_channel_events_at:
	ldrb	w8, [x0]
	cmp	w8, #1
	b.ne	613f
	ldr	x8, [x0, #8]
	mov	x0, xzr
	ldr	x1, [x8, #288]
	ret
613:
	mov	x1, xzr
	mov	w0, #70
	ret
	.size	tcrx_channel_events_at, .-tcrx_channel_events_at
	.section	.text.tcrx_channel_frame_at,"ax",@progbits
	.globl	tcrx_channel_frame_at
	.p2align	2
	.type	tcrx_channel_frame_at,@function
tcrx_channel_frame_at:
	sub	sp, sp, #32
	cmp	x1, #0
	mov	w9, #4096
	mov	x8, x0
	csel	x9, x9, xzr, eq
	mov	x3, x2
	mov	x0, sp
	add	x2, x1, x9
	mov	x1, x8
	stp	x29, x30, [sp, #16]
	add	x29, sp, #16
	bl	tc_c.channel.tcrx_channel_frame_at
	ldp	x0, x1, [sp]
	ldp	x29, x30, [sp, #16]
	add	sp, sp, #32
	ret
	.size	tcrx_channel_frame_at, .-tcrx_channel_frame_at
	.section	.text.tcrx_channel_free_at,"ax",@progbits
	.globl	tcrx_channel_free_at
	.p2align	2
	.type	tcrx_channel_free_at,@function
tcrx_channel_free_at:
	mov	x8, x0
	ldrb	w9, [x0]
	ldr	x0, [x0, #8]
	stp	xzr, xzr, [x8]
	tbnz	w9, #0, 625f
	mov	w0, #70
	ret
625:
	sub	sp, sp, #224
	ldr	x8, [x0, #64]
	stp	x20, x19, [sp, #208]
	ldr	q0, [x0, #192]
	stp	x29, x30, [sp, #128]
	add	x29, sp, #128
	str	x8, [sp, #8]
	ldp	x8, x19, [x0, #168]
	stp	x28, x27, [sp, #144]
	ldr	x28, [x0, #80]
	stp	x26, x25, [sp, #160]
	ldr	x25, [x0, #8]
	str	x8, [sp, #48]
	ldr	x8, [x0, #184]
	stp	x24, x23, [sp, #176]
	ldp	x23, x27, [x0, #96]
	str	x8, [sp, #32]
	ldp	x8, x9, [x0, #208]
	stp	x22, x21, [sp, #192]
	ldr	x21, [x0, #48]
	stur	q0, [x29, #-32]
	ldr	q0, [x0, #240]
	stur	x8, [x29, #-16]
	ldr	x8, [x0, #232]
	str	x9, [sp, #16]
	ldp	x22, x24, [x0, #24]
	str	x8, [sp, #40]
	ldp	x9, x8, [x0, #256]
	str	q0, [sp, #64]
	ldp	x20, x26, [x0, #112]
	str	x8, [sp, #24]
	ldr	x8, [x0, #280]
	str	x9, [sp, #80]
	str	x8, [sp, #56]
	bl	rattle_dealloc
	cbz	x22, 613f
	mov	x0, x25
	bl	rattle_dealloc
613:
	cbz	x21, 613f
	mov	x0, x24
	bl	rattle_dealloc
613:
	mov	x22, x23
	cbz	x28, 118f
	ldr	x0, [sp, #8]
	bl	rattle_dealloc
118:
	cbz	x20, 613f
	cmp	x26, x27
	csel	x8, xzr, x27, lo
	sub	x9, x26, x8
	subs	x10, x27, x9
	cmp	x10, x20
	csel	x21, x10, x20, lo
	subs	x23, x27, x9
	b.ne	893f
118:
	cmp	x20, x23
	b.ls	613f
	sub	x20, x20, x21
	add	x21, x22, #16
	b	93f
321:
	subs	x20, x20, #1
	add	x21, x21, #32
	b.eq	613f
93:
	ldr	x8, [x21]
	cbz	x8, 321b
	ldur	x0, [x21, #-16]
	bl	rattle_dealloc
	b	321b
613:
	mov	x0, x22
	bl	rattle_dealloc
	ldr	x21, [sp, #48]
	cbz	x19, 659f
	add	x20, x21, #24
	b	93f
321:
	subs	x19, x19, #1
	add	x20, x20, #40
	b.eq	659f
93:
	ldr	x8, [x20]
	cbz	x8, 321b
	ldur	x0, [x20, #-16]
	bl	rattle_dealloc
	b	321b
659:
	ldr	x8, [sp, #32]
	cbz	x8, 625f
	mov	x0, x21
	bl	rattle_dealloc
625:
	sub	x0, x29, #32
	bl	std_alloc.vec.Vec.drop._d9a1838fed3faa39
	ldr	x8, [sp, #40]
	cbz	x8, 62f
	ldr	x0, [sp, #16]
	bl	rattle_dealloc
62:
	add	x0, sp, #64
	bl	std_alloc.vec.Vec.drop._d9a1838fed3faa39
	ldr	x8, [sp, #56]
	cbz	x8, 976f
	ldr	x0, [sp, #24]
	bl	rattle_dealloc
976:
	ldp	x20, x19, [sp, #208]
	mov	w0, wzr
	ldp	x22, x21, [sp, #192]
	ldp	x24, x23, [sp, #176]
	ldp	x26, x25, [sp, #160]
	ldp	x28, x27, [sp, #144]
	ldp	x29, x30, [sp, #128]
	add	sp, sp, #224
	ret
893:
	sub	x8, x22, x8, lsl #5
	mov	x25, x21
	add	x8, x8, x26, lsl #5
	add	x24, x8, #16
	b	93f
321:
	subs	x25, x25, #1
	add	x24, x24, #32
	b.eq	118b
93:
	ldr	x8, [x24]
	cbz	x8, 321b
	ldur	x0, [x24, #-16]
	bl	rattle_dealloc
	b	321b
	.size	tcrx_channel_free_at, .-tcrx_channel_free_at
	.section	.rodata.cst8,"aM",@progbits,8
	.p2align	3
.LC3eeed7aa_0:
	.word	65542
	.word	0
	.section	.text.tcrx_channel_new_at,"ax",@progbits
	.globl	tcrx_channel_new_at
	.p2align	2
	.type	tcrx_channel_new_at,@function
tcrx_channel_new_at:
	cmp	x2, #0
	mov	w8, #4096
	ldrb	w10, [x0]
	csel	x9, x8, xzr, eq
	cmp	x4, #0
	csel	x8, x8, xzr, eq
	tbz	w10, #0, 598f
	mov	w0, #71
	ret
598:
	stp	x29, x30, [sp, #-96]!
	stp	x28, x27, [sp, #16]
	mov	x29, sp
	stp	x26, x25, [sp, #32]
	stp	x24, x23, [sp, #48]
	stp	x22, x21, [sp, #64]
	stp	x20, x19, [sp, #80]
	sub	sp, sp, #960
	movi	v0.2d, #0000000000000000
	ubfx	x10, x1, #32, #8
	stp	xzr, xzr, [sp, #232]
	str	xzr, [sp, #224]
	cmp	w10, #1
	stp	q0, q0, [sp, #96]
	stp	q0, q0, [sp, #128]
	stp	q0, q0, [sp, #160]
	stp	q0, q0, [sp, #192]
	stp	q0, q0, [sp, #256]
	stp	q0, q0, [sp, #288]
	stp	q0, q0, [sp, #320]
	stp	q0, q0, [sp, #352]
	stp	q0, q0, [sp, #432]
	stp	q0, q0, [sp, #464]
	b.hi	613f
	lsr	x23, x1, #8
	lsr	x20, x1, #16
	lsr	x19, x1, #24
	lsr	x22, x1, #32
	str	x0, [sp, #88]
	add	x21, sp, #392
	add	x24, x2, x9
	add	x25, x4, x8
	add	x0, sp, #592
	strb	w1, [sp, #592]
	mov	x26, x1
	mov	x28, x3
	strb	w23, [sp, #593]
	mov	x27, x5
	strb	w20, [sp, #594]
	strb	w19, [sp, #595]
	strb	w22, [sp, #596]
	sturh	wzr, [x21, #205]
	strb	wzr, [sp, #599]
	str	x24, [sp, #600]
	str	x3, [sp, #608]
	str	x25, [sp, #616]
	str	x5, [sp, #624]
	bl	tc_queues.settings.LentSettings.check
	tst	w0, #0xff
	b.eq	62f
	and	x8, x1, #0xff
	adrp	x9, .Lswitch.table.tcrx_storage_at
	add	x9, x9, :lo12:.Lswitch.table.tcrx_storage_at
	ldrb	w0, [x9, x8]
	b	498f
613:
	mov	w0, #22
	b	498f
62:
	add	x0, sp, #432
	add	x1, sp, #392
	strb	w26, [sp, #392]
	strb	w23, [sp, #393]
	strb	w20, [sp, #394]
	strb	w19, [sp, #395]
	strb	w22, [sp, #396]
	sturh	wzr, [x21, #5]
	strb	wzr, [sp, #399]
	stp	x24, x28, [sp, #400]
	stp	x25, x27, [sp, #416]
	bl	tc_queues.settings.LentSettings.copied
	ldrb	w8, [sp, #432]
	cbz	w8, 922f
613:
	mov	w0, #12
498:
	bl	tc_c_base.status.code
62:
	add	sp, sp, #960
	ldp	x20, x19, [sp, #80]
	ldp	x22, x21, [sp, #64]
	ldp	x24, x23, [sp, #48]
	ldp	x26, x25, [sp, #32]
	ldp	x28, x27, [sp, #16]
	ldp	x29, x30, [sp], #96
	ret
922:
	movi	v0.2d, #0000000000000000
	ldr	x8, [sp, #464]
	ldrb	w23, [sp, #440]
	ldp	x20, x22, [sp, #448]
	sub	x0, x29, #64
	ldp	x19, x25, [sp, #472]
	ldrb	w26, [sp, #441]
	ldrb	w27, [sp, #442]
	ldrb	w24, [sp, #443]
	ldrb	w28, [sp, #444]
	str	x8, [sp, #72]
	ldr	x8, [sp, #488]
	stp	q0, q0, [sp, #592]
	stp	q0, q0, [sp, #624]
	stp	q0, q0, [sp, #656]
	stp	q0, q0, [sp, #688]
	stp	q0, q0, [sp, #720]
	stp	q0, q0, [sp, #752]
	stp	q0, q0, [sp, #784]
	stp	q0, q0, [sp, #816]
	stp	q0, q0, [sp, #848]
	str	q0, [sp, #880]
	str	xzr, [sp, #584]
	str	xzr, [sp, #576]
	str	xzr, [sp, #528]
	str	xzr, [sp, #520]
	sturb	w23, [x29, #-64]
	sturb	w26, [x29, #-63]
	sturb	w27, [x29, #-62]
	sturb	w24, [x29, #-61]
	sturb	w28, [x29, #-60]
	sturh	wzr, [x29, #-59]
	sturb	wzr, [x29, #-57]
	stp	x20, x22, [x29, #-56]
	str	x8, [sp, #80]
	stp	x19, x25, [x29, #-40]
	bl	tc_queues.settings.LentSettings.check
	tst	w0, #0xff
	b.eq	848f
	ldp	x8, x21, [sp, #72]
	cbz	x8, 983f
	mov	x0, x20
	bl	rattle_dealloc
983:
	cbz	x21, 613b
	mov	x0, x19
	bl	rattle_dealloc
	b	613b
848:
	ldurh	w8, [x21, #53]
	ldrb	w9, [sp, #447]
	add	x0, sp, #592
	add	x1, sp, #536
	add	x2, sp, #504
	strb	w23, [sp, #536]
	sturh	w8, [x21, #149]
	ldr	x8, [sp, #72]
	strb	w9, [sp, #543]
	add	x9, sp, #504
	str	x8, [sp, #560]
	adrp	x8, .LC3eeed7aa_0
	ldr	d0, [x8, :lo12:.LC3eeed7aa_0]
	ldr	x8, [sp, #80]
	strb	w26, [sp, #537]
	strb	w27, [sp, #538]
	str	x8, [sp, #584]
	sub	x8, x29, #20
	strb	w24, [sp, #539]
	strb	w28, [sp, #540]
	str	x20, [sp, #544]
	str	x22, [sp, #552]
	str	x19, [sp, #568]
	str	x25, [sp, #576]
	str	d0, [sp, #504]
	str	x8, [sp, #512]
	stp	xzr, xzr, [x9, #16]
	bl	tc_fixed.channel.start._2310a0e7207bbbe1
	ldrb	w8, [sp, #592]
	cbnz	w8, 613b
	ldur	q0, [x21, #208]
	ldr	x8, [sp, #608]
	add	x9, sp, #585
	ldr	x21, [sp, #632]
	ldr	x23, [sp, #648]
	mov	w0, #296
	str	q0, [sp, #32]
	ldp	q0, q1, [sp, #752]
	str	x8, [sp, #8]
	mov	w1, #8
	ldr	x8, [sp, #616]
	ldr	x28, [sp, #664]
	ldr	x22, [sp, #680]
	ldr	x27, [sp, #816]
	str	x8, [sp, #72]
	ldr	x8, [sp, #624]
	ldr	x19, [sp, #832]
	stp	q0, q1, [sp, #320]
	ldr	x20, [sp, #864]
	ldr	x25, [sp, #872]
	str	x8, [sp, #80]
	ldr	x8, [sp, #640]
	ldr	x24, [sp, #880]
	ldr	x26, [sp, #888]
	ldp	q2, q0, [sp, #784]
	str	x8, [sp, #64]
	ldr	x8, [sp, #656]
	stp	q2, q0, [sp, #352]
	ldp	q1, q0, [sp, #688]
	str	x8, [sp, #56]
	ldr	x8, [sp, #672]
	stp	q1, q0, [sp, #256]
	ldp	q1, q0, [sp, #720]
	str	x8, [sp, #24]
	ldr	x8, [sp, #824]
	str	x8, [sp, #16]
	ldr	x8, [sp, #856]
	stp	q1, q0, [sp, #288]
	ldur	q0, [x9, #255]
	str	x8, [sp, #240]
	str	q0, [sp, #224]
	bl	rattle_alloc
	tbz	w0, #0, 976f
	ldr	q1, [sp, #32]
	ldr	x8, [sp, #72]
	mov	w0, wzr
	str	x19, [x1, #232]
	str	q1, [x1]
	ldp	q0, q1, [sp, #320]
	str	x8, [x1, #16]
	ldp	x8, x9, [sp, #80]
	stp	x25, x24, [x1, #272]
	stur	q0, [x1, #152]
	stur	q1, [x1, #168]
	ldp	q0, q1, [sp, #352]
	stp	x8, x21, [x1, #24]
	ldr	x8, [sp, #64]
	str	x26, [x1, #288]
	stp	x8, x23, [x1, #40]
	ldr	x8, [sp, #56]
	stur	q0, [x1, #184]
	stur	q1, [x1, #200]
	ldp	q0, q1, [sp, #256]
	stp	x8, x28, [x1, #56]
	ldr	x8, [sp, #24]
	stur	q0, [x1, #88]
	stur	q1, [x1, #104]
	ldp	q0, q1, [sp, #288]
	stp	x8, x22, [x1, #72]
	ldr	x8, [sp, #16]
	stp	x27, x8, [x1, #216]
	ldr	x8, [sp, #240]
	stur	q0, [x1, #120]
	ldr	q0, [sp, #224]
	stp	x8, x20, [x1, #256]
	mov	w8, #1
	stur	q1, [x1, #136]
	str	q0, [x1, #240]
	strb	w8, [x9]
	stur	wzr, [x9, #1]
	str	wzr, [x9, #4]
	str	x1, [x9, #8]
	b	62b
976:
	ldp	q0, q1, [sp, #320]
	mov	x25, x23
	ldr	x8, [sp, #80]
	mov	x23, x21
	mov	x21, x20
	stp	q0, q1, [sp, #160]
	ldp	q0, q2, [sp, #352]
	stp	q0, q2, [sp, #192]
	ldp	q1, q0, [sp, #256]
	stp	q1, q0, [sp, #96]
	ldp	q2, q0, [sp, #288]
	stp	q2, q0, [sp, #128]
	cbz	x8, 983f
	ldr	x0, [sp, #8]
	bl	rattle_dealloc
983:
	mov	x20, x24
	cbz	x25, 983f
	mov	x0, x23
	bl	rattle_dealloc
983:
	mov	x23, x19
	cbz	x22, 62f
	mov	x0, x28
	bl	rattle_dealloc
62:
	add	x19, sp, #96
	orr	x0, x19, #0x8
	bl	circular_buffer.heap.HeapCircularBuffer.drop._e2a004e41971e60f
	add	x0, x19, #80
	bl	std_alloc.vec.Vec.drop._f15ea28f165ebcb3
	add	x0, x19, #104
	bl	std_alloc.vec.Vec.drop._d9a1838fed3faa39
	cbz	x23, 62f
	mov	x0, x27
	bl	rattle_dealloc
62:
	add	x0, sp, #224
	bl	std_alloc.vec.Vec.drop._d9a1838fed3faa39
	cbz	x20, 613b
	mov	x0, x21
	bl	rattle_dealloc
	b	613b
	.size	tcrx_channel_new_at, .-tcrx_channel_new_at
	.section	.text.tcrx_channel_new_with_limits_at,"ax",@progbits
	.globl	tcrx_channel_new_with_limits_at
	.p2align	2
	.type	tcrx_channel_new_with_limits_at,@function
tcrx_channel_new_with_limits_at:
	stp	x29, x30, [sp, #-96]!
	stp	x28, x27, [sp, #16]
	mov	x29, sp
	stp	x26, x25, [sp, #32]
	stp	x24, x23, [sp, #48]
	stp	x22, x21, [sp, #64]
	stp	x20, x19, [sp, #80]
	sub	sp, sp, #912
	ldrb	w8, [x0]
	cmp	x7, #0
	mov	w9, #4096
	csel	x27, x9, xzr, eq
	tbz	w8, #0, 405f
	mov	w0, #71
	b	316f
405:
	lsr	x8, x1, #32
	movi	v0.2d, #0000000000000000
	cmp	x4, #0
	ldr	x25, [x29, #96]
	str	x0, [sp, #88]
	add	x22, x7, x27
	strb	w8, [sp, #412]
	mov	w8, #4096
	mov	w26, w6
	csel	x9, x8, xzr, eq
	cmp	x2, #0
	str	w1, [sp, #408]
	csel	x8, x8, xzr, eq
	str	w6, [sp, #328]
	add	x0, sp, #352
	add	x1, sp, #408
	add	x2, x2, x8
	add	x4, x4, x9
	add	x6, sp, #328
	str	q0, [sp, #384]
	mov	x28, x7
	stp	q0, q0, [sp, #128]
	add	x19, sp, #352
	stp	q0, q0, [sp, #160]
	stp	q0, q0, [sp, #192]
	stp	q0, q0, [sp, #224]
	stp	q0, q0, [sp, #256]
	stp	q0, q0, [sp, #288]
	stp	q0, q0, [sp, #352]
	stp	xzr, xzr, [sp, #104]
	str	xzr, [sp, #96]
	str	wzr, [sp, #332]
	stp	x22, x25, [sp, #336]
	bl	tc_c.settings.checked_within
	ldrb	w8, [sp, #352]
	cbz	w8, 62f
	ldrb	w0, [sp, #353]
	b	498f
62:
	add	x0, sp, #256
	orr	x1, x19, #0x8
	bl	tc_queues.settings.LentSettings.copied
	ldrb	w8, [sp, #256]
	cbz	w8, 602f
613:
	mov	w0, #12
498:
	bl	tc_c_base.status.code
316:
	add	sp, sp, #912
	ldp	x20, x19, [sp, #80]
	ldp	x22, x21, [sp, #64]
	ldp	x24, x23, [sp, #48]
	ldp	x26, x25, [sp, #32]
	ldp	x28, x27, [sp, #16]
	ldp	x29, x30, [sp], #96
	ret
602:
	ldrb	w8, [sp, #266]
	ldrb	w20, [sp, #264]
	ldrb	w24, [sp, #265]
	str	w8, [sp, #16]
	ldrb	w8, [sp, #267]
	str	w8, [sp, #8]
	ldrb	w8, [sp, #268]
	str	w8, [sp, #24]
	ldr	x8, [sp, #272]
	str	x8, [sp, #72]
	ldp	x8, x9, [sp, #280]
	str	x8, [sp, #56]
	ldp	x19, x8, [sp, #296]
	str	x8, [sp, #64]
	ldr	x8, [sp, #312]
	str	x8, [sp, #80]
	cbz	x25, 983f
	lsr	x8, x25, #60
	cbnz	x8, 93f
	lsl	x23, x25, #3
	mov	w1, #4
	str	x9, [sp, #32]
	mov	x0, x23
	bl	rattle_alloc
	ldr	x9, [sp, #32]
	tbz	w0, #0, 93f
	sub	x8, x1, x22
	mov	x21, x1
	cmp	x8, x23
	b.hs	187f
	mov	w14, w20
	mov	w13, w24
	cmp	x25, #6
	mov	w8, w26
	b.hs	62f
	ldr	x16, [sp, #56]
	b	32f
93:
	cbz	x9, 93f
	ldr	x0, [sp, #72]
	bl	rattle_dealloc
93:
	ldr	x8, [sp, #80]
	cbz	x8, 613b
	mov	x0, x19
498:
	bl	rattle_dealloc
	b	613b
983:
	mov	x23, xzr
	sub	x21, x29, #20
	str	x9, [sp, #32]
187:
	mov	x0, x21
	mov	x1, x22
	mov	x2, x23
	bl	memmove
	ldp	x16, x11, [sp, #56]
	mov	x27, x19
	ldr	x19, [sp, #72]
	ldr	w23, [sp, #24]
	mov	w8, w26
	ldr	w28, [sp, #8]
	mov	w13, w24
	mov	w14, w20
922:
	movi	v0.2d, #0000000000000000
	ldr	w22, [sp, #16]
	sub	x0, x29, #24
	sub	x1, x29, #48
	sub	x2, x29, #88
	str	xzr, [sp, #496]
	sturh	wzr, [x29, #-24]
	mov	w24, w13
	mov	w20, w14
	sturb	wzr, [x29, #-22]
	stp	q0, q0, [sp, #432]
	stp	q0, q0, [sp, #464]
	stp	q0, q0, [sp, #512]
	stp	q0, q0, [sp, #544]
	stp	q0, q0, [sp, #576]
	stp	q0, q0, [sp, #608]
	stp	q0, q0, [sp, #640]
	stp	q0, q0, [sp, #672]
	stp	q0, q0, [sp, #704]
	stp	q0, q0, [sp, #736]
	stp	q0, q0, [sp, #768]
	str	q0, [sp, #800]
	str	q0, [sp, #416]
	stp	w8, wzr, [x29, #-48]
	stp	x21, x25, [x29, #-40]
	sturb	w14, [x29, #-88]
	sturb	w13, [x29, #-87]
	sturb	w22, [x29, #-86]
	sturb	w28, [x29, #-85]
	sturb	w23, [x29, #-84]
	sturh	wzr, [x29, #-83]
	sturb	wzr, [x29, #-81]
	stp	x19, x16, [x29, #-80]
	stp	x27, x11, [x29, #-64]
	bl	tc_fixed.limits.LentLimits.check
	ldurb	w8, [x29, #-24]
	cbz	w8, 983f
	cbz	x25, 93f
	mov	x0, x21
	bl	rattle_dealloc
93:
	ldr	x8, [sp, #32]
	cbz	x8, 93f
	mov	x0, x19
	bl	rattle_dealloc
93:
	ldr	x8, [sp, #80]
	cbz	x8, 613b
	mov	x0, x27
	bl	rattle_dealloc
	b	613b
983:
	mov	w8, #13
	add	x9, sp, #256
	strb	w22, [sp, #450]
	orr	x8, x9, x8
	add	x22, sp, #448
	add	x0, sp, #512
	ldrh	w9, [x8]
	ldrb	w8, [x8, #2]
	add	x1, sp, #448
	add	x2, sp, #416
	strb	w20, [sp, #448]
	strb	w8, [sp, #455]
	ldr	x8, [sp, #56]
	strb	w24, [sp, #449]
	stp	x19, x8, [sp, #456]
	ldr	x8, [sp, #32]
	strb	w28, [sp, #451]
	stp	x8, x27, [sp, #472]
	ldr	x8, [sp, #64]
	strb	w23, [sp, #452]
	str	x8, [sp, #488]
	ldr	x8, [sp, #80]
	sturh	w9, [x22, #5]
	str	x8, [sp, #496]
	str	w26, [sp, #416]
	str	wzr, [sp, #420]
	stp	x21, x25, [sp, #424]
	str	x25, [sp, #440]
	bl	tc_fixed.channel.start._2310a0e7207bbbe1
	ldrb	w8, [sp, #512]
	cbnz	w8, 613b
	ldur	q0, [x22, #72]
	ldr	x8, [sp, #528]
	add	x9, sp, #505
	ldr	x26, [sp, #552]
	ldr	x28, [sp, #568]
	mov	w0, #296
	str	q0, [sp, #32]
	ldp	q0, q1, [sp, #672]
	str	x8, [sp, #8]
	mov	w1, #8
	ldr	x8, [sp, #536]
	ldr	x27, [sp, #584]
	ldr	x19, [sp, #600]
	ldr	x20, [sp, #736]
	str	x8, [sp, #72]
	ldr	x8, [sp, #544]
	ldr	x23, [sp, #752]
	stp	q0, q1, [sp, #192]
	ldr	x22, [sp, #784]
	ldr	x21, [sp, #792]
	str	x8, [sp, #80]
	ldr	x8, [sp, #560]
	ldr	x24, [sp, #800]
	ldr	x25, [sp, #808]
	ldp	q2, q0, [sp, #704]
	str	x8, [sp, #64]
	ldr	x8, [sp, #576]
	stp	q2, q0, [sp, #224]
	ldp	q1, q0, [sp, #608]
	str	x8, [sp, #56]
	ldr	x8, [sp, #592]
	stp	q1, q0, [sp, #128]
	ldp	q1, q0, [sp, #640]
	str	x8, [sp, #24]
	ldr	x8, [sp, #744]
	str	x8, [sp, #16]
	ldr	x8, [sp, #776]
	stp	q1, q0, [sp, #160]
	ldur	q0, [x9, #255]
	str	x8, [sp, #112]
	str	q0, [sp, #96]
	bl	rattle_alloc
	tbz	w0, #0, 659f
	ldr	q1, [sp, #32]
	ldr	x8, [sp, #72]
	mov	w0, wzr
	stp	x21, x24, [x1, #272]
	str	q1, [x1]
	ldp	q0, q1, [sp, #192]
	str	x8, [x1, #16]
	ldp	x8, x24, [sp, #80]
	str	x23, [x1, #232]
	stur	q0, [x1, #152]
	stur	q1, [x1, #168]
	ldp	q0, q1, [sp, #224]
	stp	x8, x26, [x1, #24]
	ldr	x8, [sp, #64]
	str	x25, [x1, #288]
	stp	x8, x28, [x1, #40]
	ldr	x8, [sp, #56]
	stur	q0, [x1, #184]
	stur	q1, [x1, #200]
	ldp	q0, q1, [sp, #128]
	stp	x8, x27, [x1, #56]
	ldr	x8, [sp, #24]
	stur	q0, [x1, #88]
	stur	q1, [x1, #104]
	ldp	q0, q1, [sp, #160]
	stp	x8, x19, [x1, #72]
	ldr	x8, [sp, #16]
	stp	x20, x8, [x1, #216]
	ldr	x8, [sp, #112]
	stur	q0, [x1, #120]
	ldr	q0, [sp, #96]
	stp	x8, x22, [x1, #256]
	mov	w8, #1
	stur	q1, [x1, #136]
	str	q0, [x1, #240]
	strb	w8, [x24]
	stur	wzr, [x24, #1]
	str	wzr, [x24, #4]
	str	x1, [x24, #8]
	b	316b
62:
	add	x10, x27, x28
	ldr	x16, [sp, #56]
	sub	x9, x21, x10
	cmp	x9, #32
	b.hs	613f
32:
	mov	x9, xzr
	mov	x27, x19
	ldp	x11, x19, [sp, #64]
	ldr	w23, [sp, #24]
	ldr	w28, [sp, #8]
93:
	ldr	x10, [x22, x9, lsl #3]
	str	x10, [x21, x9, lsl #3]
	add	x9, x9, #1
	cmp	x25, x9
	b.ne	93b
	b	922b
659:
	ldr	x8, [sp, #80]
	mov	x21, x20
	cbz	x8, 983f
	ldr	x0, [sp, #8]
	bl	rattle_dealloc
983:
	mov	x20, x24
	cbz	x28, 983f
	mov	x0, x26
	bl	rattle_dealloc
983:
	cbz	x19, 62f
	mov	x0, x27
	bl	rattle_dealloc
62:
	add	x19, sp, #128
	orr	x0, x19, #0x8
	bl	circular_buffer.heap.HeapCircularBuffer.drop._e2a004e41971e60f
	add	x0, x19, #80
	bl	std_alloc.vec.Vec.drop._f15ea28f165ebcb3
	add	x0, x19, #104
	bl	std_alloc.vec.Vec.drop._d9a1838fed3faa39
	cbz	x23, 62f
	mov	x0, x21
	bl	rattle_dealloc
62:
	add	x0, sp, #96
	bl	std_alloc.vec.Vec.drop._d9a1838fed3faa39
	cbz	x20, 613b
	mov	x0, x22
	b	498b
613:
	mov	x27, x19
	ldr	x19, [sp, #72]
	ldr	w23, [sp, #24]
	ldr	w28, [sp, #8]
	and	x9, x25, #0xffffffffffffffc
	add	x10, x10, #16
	add	x11, x21, #16
	and	x12, x25, #0xffffffffffffffc
976:
	ldp	q0, q1, [x10, #-16]
	subs	x12, x12, #4
	add	x10, x10, #32
	stp	q0, q1, [x11, #-16]
	add	x11, x11, #32
	b.ne	976b
	ldr	x11, [sp, #64]
	cmp	x25, x9
	b.ne	93b
	b	922b
	.size	tcrx_channel_new_with_limits_at, .-tcrx_channel_new_with_limits_at
	.section	.text.tcrx_channel_queued_at,"ax",@progbits
	.globl	tcrx_channel_queued_at
	.p2align	2
	.type	tcrx_channel_queued_at,@function
tcrx_channel_queued_at:
	ldrb	w8, [x0]
	cmp	w8, #1
	b.ne	613f
	ldr	x11, [x0, #8]
	and	w9, w1, #0xffff
	ldr	x12, [x11, #224]
	ldp	x8, x10, [x11, #192]
	cmp	x12, x9
	b.ls	983f
	ldr	x11, [x11, #216]
	ldrh	w9, [x11, x9, lsl #1]
	cmp	x10, x9
	b.ls	187f
	lsl	x11, x9, #6
62:
	add	x8, x8, x11
	mov	x0, xzr
	ldr	x1, [x8, #40]
	ret
613:
	mov	x1, xzr
	mov	w0, #70
	ret
983:
	cbz	x10, 187f
	mov	x11, xzr
335:
	ldrh	w12, [x8, x11]
	cmp	w9, w12
	b.eq	62b
	subs	x10, x10, #1
	add	x11, x11, #64
	b.ne	335b
187:
	mov	x1, xzr
	mov	w0, #72
	ret
	.size	tcrx_channel_queued_at, .-tcrx_channel_queued_at
	.section	.text.tcrx_channel_release_at,"ax",@progbits
	.globl	tcrx_channel_release_at
	.p2align	2
	.type	tcrx_channel_release_at,@function
tcrx_channel_release_at:
	sub	sp, sp, #112
	ldrb	w8, [x0]
	stp	x29, x30, [sp, #16]
	add	x29, sp, #16
	stp	x28, x27, [sp, #32]
	cmp	w8, #1
	stp	x26, x25, [sp, #48]
	stp	x24, x23, [sp, #64]
	stp	x22, x21, [sp, #80]
	stp	x20, x19, [sp, #96]
	b.ne	613f
	ldr	x22, [x0, #8]
	ldr	x8, [x22, #128]
	cbz	x8, 983f
	ldr	x8, [x22, #112]
	cbz	x8, 174f
	ldp	x10, x9, [x22, #96]
	ldr	x8, [x22, #120]
	cmp	x8, x9
	csel	x9, xzr, x9, lo
	sub	x8, x8, x9
	add	x9, x10, x8, lsl #5
	ldrb	w10, [x22, #152]
	ldr	x19, [x9]
	ldr	x24, [x9, #24]
	cmp	w10, #1
	ldrb	w8, [x19]
	and	x21, x8, #0x3f
	b.ne	93f
	lsr	w8, w8, #3
	mov	w9, #1
	ldr	x0, [x22, #168]
	movk	w9, #770, lsl #16
	add	x3, x19, #1
	sub	x4, x24, #1
	and	w8, w8, #0x18
	mov	x1, x21
	lsr	w2, w9, w8
	bl	tc_packet.runs.follow_at._0e1c90a670cc60a2
	ands	w25, w0, #0xff
	and	x1, x0, #0xff
	b.eq	659f
	cmp	w25, #1
	b.ne	32f
	mov	x23, x21
	b	187f
613:
	mov	x1, xzr
	mov	w0, #70
	b	976f
983:
	mov	x1, xzr
	mov	w0, #74
	b	976f
93:
	ldr	x8, [x22, #160]
	cmp	x24, x8
	b.ls	613f
	mov	w25, wzr
	mov	x1, xzr
	b	659f
613:
	mov	x1, xzr
	mov	w23, w21
187:
	mov	w26, wzr
	add	x20, x19, x1
	sub	x19, x24, x1
	ldr	x10, [x22, #272]
	ldp	x17, x27, [x22, #216]
	ldp	x8, x9, [x22, #240]
	cmp	x10, x23
	b.ls	613f
93:
	ldr	x10, [x22, #264]
	ldrh	w10, [x10, x23, lsl #1]
	cmp	x9, x10
	b.ls	118f
	lsl	x10, x10, #6
62:
	add	x21, x8, x10
	ldr	x8, [x21, #40]
	ldr	x9, [x21, #24]
	cmp	x9, x8
	b.ls	943f
	ldr	x9, [x21, #32]
	add	x8, x9, x8
	ldp	x9, x10, [x21, #8]
	cmp	x8, x10
	csel	x10, xzr, x10, lo
	sub	x8, x8, x10
	add	x8, x9, x8, lsl #5
	ldr	x0, [x8]
	str	x19, [x8, #24]
	sub	x9, x0, x20
	cmp	x9, x19
	b.hs	911f
	cmp	x19, #8
	mov	x8, xzr
	b.lo	893f
	cmp	x9, #32
	b.lo	893f
	cmp	x19, #32
	b.hs	124f
	mov	x8, xzr
	b	239f
32:
	mov	w8, #40
	ldr	x9, [x22, #168]
	mov	w26, #1
	umaddl	x8, w21, w8, x9
	mov	x23, x21
	ldr	x20, [x8, #8]
	ldr	x19, [x8, #32]
	ldr	x10, [x22, #272]
	ldp	x17, x27, [x22, #216]
	ldp	x8, x9, [x22, #240]
	cmp	x10, x21
	b.hi	93b
613:
	cbz	x9, 118f
	mov	x10, xzr
335:
	ldrh	w11, [x8, x10]
	cmp	w11, w21
	b.eq	62b
	subs	x9, x9, #1
	add	x10, x10, #64
	b.ne	335b
118:
	cmp	x19, #7
	b.hs	983f
	mov	x25, xzr
	mov	x28, xzr
118:
	cmp	x19, #0
	mov	x9, #4294967296
	sub	x8, x28, x25
	csel	x9, xzr, x9, eq
	mov	w8, w8
	orr	x1, x9, x8
	ldr	x8, [x22, #176]
	cmp	x8, x23
	b.ls	659f
613:
	mov	w8, #40
	ldr	x9, [x22, #168]
	umull	x8, w23, w8
	strb	wzr, [x9, x8]
659:
	ldr	x8, [x22, #128]
	cbz	x8, 602f
	ldr	x9, [x22, #136]
	sub	x8, x8, #1
	ldr	x10, [x22, #112]
	str	x8, [x22, #128]
	cmn	x8, x9
	b.ne	93f
	cbz	x10, 174f
	ldp	x10, x8, [x22, #96]
	ldr	x9, [x22, #120]
	cmp	x9, x8
	csel	x8, xzr, x8, lo
	sub	x8, x9, x8
	add	x8, x10, x8, lsl #5
	str	xzr, [x8, #24]
602:
	ldrb	w8, [x22, #89]
	cbz	w8, 885f
280:
	cmp	w8, #2
	b.eq	560f
	strb	wzr, [x22, #89]
560:
	strb	wzr, [x22, #92]
	ldr	x8, [x22, #288]
	cmn	x8, #1
	b.ne	62f
	b	192f
93:
	cbz	x10, 174f
	ldr	x9, [x22, #120]
	ldr	x8, [x22, #104]
	sub	x10, x10, #1
	add	x11, x9, #1
	cmp	x11, x8
	csel	x12, xzr, x8, lo
	cmp	x8, x10
	sub	x11, x11, x12
	stp	x10, x11, [x22, #112]
	b.ls	174f
	ldr	x12, [x22, #96]
	add	x10, x11, x10
	cmp	x10, x8
	add	x9, x12, x9, lsl #5
	csel	x8, xzr, x8, lo
	sub	x8, x10, x8
	add	x8, x12, x8, lsl #5
	ldr	q0, [x9]
	ldr	x9, [x9, #16]
	str	q0, [x8]
	stp	x9, xzr, [x8, #16]
	ldr	x8, [x22, #112]
	add	x8, x8, #1
	str	x8, [x22, #112]
	ldrb	w8, [x22, #89]
	cbnz	w8, 280b
885:
	ldr	x8, [x22, #288]
	cmn	x8, #1
	b.eq	192f
62:
	add	x8, x8, #1
	str	x8, [x22, #288]
192:
	lsl	x0, x25, #32
976:
	ldp	x20, x19, [sp, #96]
	ldp	x22, x21, [sp, #80]
	ldp	x24, x23, [sp, #64]
	ldp	x26, x25, [sp, #48]
	ldp	x28, x27, [sp, #32]
	ldp	x29, x30, [sp, #16]
	add	sp, sp, #112
	ret
983:
	mov	x28, xzr
	mov	x25, xzr
602:
	ldrb	w10, [x20]
	cmp	w10, #31
	b.hi	625f
	ldrb	w8, [x20, #5]
	ldrb	w9, [x20, #4]
	mov	x11, x8
	bfi	x11, x9, #8, #8
	add	x21, x11, #7
	subs	x19, x19, x21
	b.lo	625f
	cmp	w10, #16
	b.lo	280f
	ldrb	w11, [x20, #1]
	bfi	x11, x10, #8, #3
	ldp	x10, x12, [x22, #192]
	cmp	x27, x11
	b.ls	983f
	ldrh	w11, [x17, x11, lsl #1]
	cmp	x12, x11
	b.ls	280f
	lsl	x13, x11, #6
62:
	add	x24, x10, x13
	ldr	x10, [x24, #40]
	ldr	x11, [x24, #24]
	cmp	x11, x10
	b.ls	280f
	ldr	x11, [x24, #32]
	add	x10, x11, x10
	ldp	x11, x12, [x24, #8]
	cmp	x10, x12
	csel	x12, xzr, x12, lo
	sub	x10, x10, x12
	add	x10, x11, x10, lsl #5
	ldr	x0, [x10]
	str	x21, [x10, #24]
	sub	x12, x0, x20
	cmp	x12, x21
	b.hs	187f
	lsl	x9, x9, #8
	add	x10, x8, x9
	add	x11, x10, #7
	mov	x10, xzr
	cmp	x11, #8
	b.lo	62f
	cmp	x12, #32
	b.lo	62f
	cmp	x11, #32
	b.hs	447f
	mov	x10, xzr
	b	32f
983:
	cbz	x12, 280f
	mov	x13, xzr
335:
	ldrh	w14, [x10, x13]
	cmp	w11, w14
	b.eq	62b
	subs	x12, x12, #1
	add	x13, x13, #64
	b.ne	335b
280:
	cmp	x19, #6
	add	x20, x20, x21
	add	x25, xzr, x25
	add	x28, x28, #1
	b.hi	602b
	b	118b
187:
	mov	x1, x20
	mov	x2, x21
	str	x23, [sp, #8]
	mov	x23, x17
	bl	memmove
	mov	x17, x23
	ldr	x23, [sp, #8]
	b	885f
447:
	and	x12, x11, #0x18
	and	x10, x11, #0x1ffe0
	add	x13, x20, #16
	add	x14, x0, #16
	and	x15, x11, #0x1ffe0
976:
	ldp	q0, q1, [x13, #-16]
	subs	x15, x15, #32
	add	x13, x13, #32
	stp	q0, q1, [x14, #-16]
	add	x14, x14, #32
	b.ne	976b
	cmp	x11, x10
	b.eq	885f
	cbz	x12, 62f
32:
	mov	x14, x10
	and	x10, x11, #0x1fff8
	sub	x12, x14, x10
	add	x13, x20, x14
	add	x14, x0, x14
93:
	ldr	d0, [x13], #8
	adds	x12, x12, #8
	str	d0, [x14], #8
	b.ne	93b
	cmp	x11, x10
	b.eq	885f
62:
	add	x8, x9, x8
	add	x9, x20, x10
	sub	x8, x8, x10
	add	x10, x0, x10
	add	x8, x8, #7
556:
	ldrb	w11, [x9], #1
	subs	x8, x8, #1
	strb	w11, [x10], #1
	b.ne	556b
885:
	ldr	x8, [x24, #40]
	add	x8, x8, #1
	str	x8, [x24, #40]
	mov	w8, #1
	cmp	x19, #6
	add	x20, x20, x21
	add	x25, x8, x25
	add	x28, x28, #1
	b.hi	602b
	b	118b
943:
	mov	w25, wzr
	mov	w1, #1
	ldr	x8, [x22, #176]
	cmp	x8, x23
	b.hi	613b
	b	659b
625:
	sub	x8, x28, x25
	mov	x9, #4294967296
	mov	w8, w8
	orr	x1, x9, x8
	ldr	x8, [x22, #176]
	cmp	x8, x23
	b.hi	613b
	b	659b
911:
	mov	x1, x20
	mov	x2, x19
	bl	memmove
	b	885f
124:
	and	x9, x19, #0x18
	and	x8, x19, #0xffffffffffffffe0
	add	x10, x20, #16
	add	x11, x0, #16
	and	x12, x19, #0xffffffffffffffe0
976:
	ldp	q0, q1, [x10, #-16]
	subs	x12, x12, #32
	add	x10, x10, #32
	stp	q0, q1, [x11, #-16]
	add	x11, x11, #32
	b.ne	976b
	cmp	x19, x8
	b.eq	885f
	cbz	x9, 893f
239:
	mov	x11, x8
	and	x8, x19, #0xfffffffffffffff8
	sub	x9, x11, x8
	add	x10, x20, x11
	add	x11, x0, x11
93:
	ldr	d0, [x10], #8
	adds	x9, x9, #8
	str	d0, [x11], #8
	b.ne	93b
	cmp	x19, x8
	b.eq	885f
893:
	sub	x9, x19, x8
	add	x10, x20, x8
	add	x8, x0, x8
602:
	ldrb	w11, [x10], #1
	subs	x9, x9, #1
	strb	w11, [x8], #1
	b.ne	602b
885:
	ldr	x8, [x21, #40]
	mov	x1, xzr
	mov	w25, #1
	add	x8, x8, #1
	str	x8, [x21, #40]
	ldr	x8, [x22, #176]
	cmp	x8, x23
	b.ls	659b
	b	613b
174:
	brk	#0x1
	.size	tcrx_channel_release_at, .-tcrx_channel_release_at
	.section	.text.tcrx_channel_report_at,"ax",@progbits
	.globl	tcrx_channel_report_at
	.p2align	2
	.type	tcrx_channel_report_at,@function
tcrx_channel_report_at:
	ldrb	w8, [x0]
	cmp	w8, #1
	b.ne	613f
	ldr	x8, [x0, #8]
	ldrb	w9, [x8, #89]
	ldrb	w10, [x8, #1]
	ldrb	w11, [x8, #90]
	lsl	w9, w9, #8
	add	w9, w9, #256
	and	x9, x9, #0xff00
	orr	x9, x9, x10
	ldrb	w10, [x8, #94]
	orr	x9, x9, x11, lsl #16
	ldrb	w11, [x8, #91]
	orr	x9, x9, x10, lsl #24
	ldrb	w10, [x8, #92]
	and	w11, w11, #0x1
	ldrb	w8, [x8, #93]
	orr	x9, x9, x11, lsl #32
	and	w10, w10, #0x1
	and	w8, w8, #0x1
	orr	x9, x9, x10, lsl #40
	orr	x8, x9, x8, lsl #48
	str	wzr, [sp, #-16]!
	stur	x8, [sp, #4]
	ldp	x0, x1, [sp], #16
	ret
613:
	mov	w9, #70
	str	w9, [sp, #-16]!
	stur	xzr, [sp, #4]
	ldp	x0, x1, [sp], #16
	ret
	.size	tcrx_channel_report_at, .-tcrx_channel_report_at
	.section	.text.tcrx_channel_take_at,"ax",@progbits
	.globl	tcrx_channel_take_at
	.p2align	2
	.type	tcrx_channel_take_at,@function
tcrx_channel_take_at:
	stp	x29, x30, [sp, #-48]!
	ldrb	w8, [x0]
	cmp	x2, #0
	mov	w9, #4096
	csel	x9, x9, xzr, eq
	str	x21, [sp, #16]
	mov	x29, sp
	cmp	w8, #1
	stp	x20, x19, [sp, #32]
	b.ne	613f
	ldr	x20, [x0, #8]
	and	w10, w1, #0xffff
	ldr	x12, [x20, #224]
	ldp	x8, x11, [x20, #192]
	cmp	x12, x10
	b.ls	983f
	ldr	x12, [x20, #216]
	ldrh	w10, [x12, x10, lsl #1]
	cmp	x11, x10
	b.ls	187f
	lsl	x12, x10, #6
62:
	add	x21, x8, x12
	ldr	x8, [x21, #40]
	cbz	x8, 32f
	ldr	x8, [x21, #24]
	cbz	x8, 174f
	ldp	x11, x10, [x21, #8]
	ldr	x8, [x21, #32]
	cmp	x8, x10
	csel	x10, xzr, x10, lo
	sub	x8, x8, x10
	add	x8, x11, x8, lsl #5
	ldr	x1, [x8, #24]
	cmp	x3, x1
	b.hs	93f
	mov	w8, #50
	mov	w0, w8
	ldp	x20, x19, [sp, #32]
	ldr	x21, [sp, #16]
	ldp	x29, x30, [sp], #48
	ret
613:
	mov	x1, xzr
	mov	w0, #70
	ldp	x20, x19, [sp, #32]
	ldr	x21, [sp, #16]
	ldp	x29, x30, [sp], #48
	ret
983:
	cbz	x11, 187f
	mov	x12, xzr
335:
	ldrh	w13, [x8, x12]
	cmp	w10, w13
	b.eq	62b
	subs	x11, x11, #1
	add	x12, x12, #64
	b.ne	335b
187:
	mov	x1, xzr
	mov	w8, #72
	mov	w0, w8
	ldp	x20, x19, [sp, #32]
	ldr	x21, [sp, #16]
	ldp	x29, x30, [sp], #48
	ret
32:
	mov	x1, xzr
	mov	w8, #74
	mov	w0, w8
	ldp	x20, x19, [sp, #32]
	ldr	x21, [sp, #16]
	ldp	x29, x30, [sp], #48
	ret
93:
	ldr	x8, [x8]
	add	x0, x2, x9
	sub	x10, x0, x8
	cmp	x10, x1
	b.hs	983f
	cmp	x1, #8
	b.lo	613f
	add	x10, x9, x2
	sub	x10, x10, x8
	cmp	x10, #32
	b.hs	118f
613:
	mov	x10, xzr
62:
	add	x11, x9, x10
	sub	x9, x1, x10
	add	x8, x8, x10
	add	x10, x2, x11
602:
	ldrb	w11, [x8], #1
	subs	x9, x9, #1
	strb	w11, [x10], #1
	b.ne	602b
	b	93f
983:
	mov	x19, x1
	mov	x1, x8
	mov	x2, x19
	bl	memmove
	mov	x1, x19
93:
	ldr	x8, [x21, #40]
	cbz	x8, 885f
	ldr	x9, [x21, #48]
	sub	x8, x8, #1
	ldr	x10, [x21, #24]
	str	x8, [x21, #40]
	cmn	x8, x9
	b.ne	659f
	cbz	x10, 174f
	ldp	x10, x8, [x21, #8]
	ldr	x9, [x21, #32]
	cmp	x9, x8
	csel	x8, xzr, x8, lo
	sub	x8, x9, x8
	add	x8, x10, x8, lsl #5
	str	xzr, [x8, #24]
	b	885f
659:
	cbz	x10, 174f
	ldr	x9, [x21, #32]
	ldr	x8, [x21, #16]
	sub	x10, x10, #1
	add	x11, x9, #1
	cmp	x11, x8
	csel	x12, xzr, x8, lo
	cmp	x8, x10
	sub	x11, x11, x12
	stp	x10, x11, [x21, #24]
	b.ls	174f
	ldr	x12, [x21, #8]
	add	x10, x11, x10
	cmp	x10, x8
	add	x9, x12, x9, lsl #5
	csel	x8, xzr, x8, lo
	sub	x8, x10, x8
	add	x8, x12, x8, lsl #5
	ldr	q0, [x9]
	ldr	x9, [x9, #16]
	str	q0, [x8]
	stp	x9, xzr, [x8, #16]
	ldr	x8, [x21, #24]
	add	x8, x8, #1
	str	x8, [x21, #24]
885:
	ldr	x8, [x20, #288]
	cmn	x8, #1
	b.eq	613f
	add	x8, x8, #1
	str	x8, [x20, #288]
613:
	mov	w0, wzr
	ldp	x20, x19, [sp, #32]
	ldr	x21, [sp, #16]
	ldp	x29, x30, [sp], #48
	ret
118:
	cmp	x1, #32
	b.hs	316f
	mov	x10, xzr
	b	613f
316:
	add	x13, x9, x2
	and	x11, x1, #0x18
	and	x10, x1, #0xffffffffffffffe0
	add	x12, x8, #16
	add	x13, x13, #16
	and	x14, x1, #0xffffffffffffffe0
976:
	ldp	q0, q1, [x12, #-16]
	subs	x14, x14, #32
	add	x12, x12, #32
	stp	q0, q1, [x13, #-16]
	add	x13, x13, #32
	b.ne	976b
	cmp	x1, x10
	b.eq	93b
	cbz	x11, 62b
613:
	mov	x12, x10
	and	x10, x1, #0xfffffffffffffff8
	add	x13, x9, x12
	sub	x11, x12, x10
	add	x12, x8, x12
	add	x13, x2, x13
659:
	ldr	d0, [x12], #8
	adds	x11, x11, #8
	str	d0, [x13], #8
	b.ne	659b
	cmp	x1, x10
	b.eq	93b
	b	62b
174:
	brk	#0x1
	.size	tcrx_channel_take_at, .-tcrx_channel_take_at
	.section	.text.tcrx_channel_take_unit_at,"ax",@progbits
	.globl	tcrx_channel_take_unit_at
	.p2align	2
	.type	tcrx_channel_take_unit_at,@function
tcrx_channel_take_unit_at:
	stp	x29, x30, [sp, #-48]!
	ldrb	w8, [x0]
	cmp	x2, #0
	mov	w9, #4096
	csel	x9, x9, xzr, eq
	str	x21, [sp, #16]
	mov	x29, sp
	cmp	w8, #1
	stp	x20, x19, [sp, #32]
	b.ne	613f
	ldr	x20, [x0, #8]
	and	w10, w1, #0xff
	ldr	x12, [x20, #272]
	ldp	x8, x11, [x20, #240]
	cmp	x12, x10
	b.ls	983f
	ldr	x12, [x20, #264]
	ldrh	w10, [x12, x10, lsl #1]
	cmp	x11, x10
	b.ls	187f
	lsl	x12, x10, #6
62:
	add	x21, x8, x12
	ldr	x8, [x21, #40]
	cbz	x8, 32f
	ldr	x8, [x21, #24]
	cbz	x8, 174f
	ldp	x11, x10, [x21, #8]
	ldr	x8, [x21, #32]
	cmp	x8, x10
	csel	x10, xzr, x10, lo
	sub	x8, x8, x10
	add	x8, x11, x8, lsl #5
	ldr	x1, [x8, #24]
	cmp	x3, x1
	b.hs	93f
	mov	w8, #50
	mov	w0, w8
	ldp	x20, x19, [sp, #32]
	ldr	x21, [sp, #16]
	ldp	x29, x30, [sp], #48
	ret
613:
	mov	x1, xzr
	mov	w0, #70
	ldp	x20, x19, [sp, #32]
	ldr	x21, [sp, #16]
	ldp	x29, x30, [sp], #48
	ret
983:
	cbz	x11, 187f
	mov	x12, xzr
335:
	ldrh	w13, [x8, x12]
	cmp	w13, w10
	b.eq	62b
	subs	x11, x11, #1
	add	x12, x12, #64
	b.ne	335b
187:
	mov	x1, xzr
	mov	w8, #73
	mov	w0, w8
	ldp	x20, x19, [sp, #32]
	ldr	x21, [sp, #16]
	ldp	x29, x30, [sp], #48
	ret
32:
	mov	x1, xzr
	mov	w8, #74
	mov	w0, w8
	ldp	x20, x19, [sp, #32]
	ldr	x21, [sp, #16]
	ldp	x29, x30, [sp], #48
	ret
93:
	ldr	x8, [x8]
	add	x0, x2, x9
	sub	x10, x0, x8
	cmp	x10, x1
	b.hs	983f
	cmp	x1, #8
	b.lo	613f
	add	x10, x9, x2
	sub	x10, x10, x8
	cmp	x10, #32
	b.hs	118f
613:
	mov	x10, xzr
62:
	add	x11, x9, x10
	sub	x9, x1, x10
	add	x8, x8, x10
	add	x10, x2, x11
602:
	ldrb	w11, [x8], #1
	subs	x9, x9, #1
	strb	w11, [x10], #1
	b.ne	602b
	b	93f
983:
	mov	x19, x1
	mov	x1, x8
	mov	x2, x19
	bl	memmove
	mov	x1, x19
93:
	ldr	x8, [x21, #40]
	cbz	x8, 885f
	ldr	x9, [x21, #48]
	sub	x8, x8, #1
	ldr	x10, [x21, #24]
	str	x8, [x21, #40]
	cmn	x8, x9
	b.ne	659f
	cbz	x10, 174f
	ldp	x10, x8, [x21, #8]
	ldr	x9, [x21, #32]
	cmp	x9, x8
	csel	x8, xzr, x8, lo
	sub	x8, x9, x8
	add	x8, x10, x8, lsl #5
	str	xzr, [x8, #24]
	b	885f
659:
	cbz	x10, 174f
	ldr	x9, [x21, #32]
	ldr	x8, [x21, #16]
	sub	x10, x10, #1
	add	x11, x9, #1
	cmp	x11, x8
	csel	x12, xzr, x8, lo
	cmp	x8, x10
	sub	x11, x11, x12
	stp	x10, x11, [x21, #24]
	b.ls	174f
	ldr	x12, [x21, #8]
	add	x10, x11, x10
	cmp	x10, x8
	add	x9, x12, x9, lsl #5
	csel	x8, xzr, x8, lo
	sub	x8, x10, x8
	add	x8, x12, x8, lsl #5
	ldr	q0, [x9]
	ldr	x9, [x9, #16]
	str	q0, [x8]
	stp	x9, xzr, [x8, #16]
	ldr	x8, [x21, #24]
	add	x8, x8, #1
	str	x8, [x21, #24]
885:
	ldr	x8, [x20, #288]
	cmn	x8, #1
	b.eq	613f
	add	x8, x8, #1
	str	x8, [x20, #288]
613:
	mov	w0, wzr
	ldp	x20, x19, [sp, #32]
	ldr	x21, [sp, #16]
	ldp	x29, x30, [sp], #48
	ret
118:
	cmp	x1, #32
	b.hs	316f
	mov	x10, xzr
	b	613f
316:
	add	x13, x9, x2
	and	x11, x1, #0x18
	and	x10, x1, #0xffffffffffffffe0
	add	x12, x8, #16
	add	x13, x13, #16
	and	x14, x1, #0xffffffffffffffe0
976:
	ldp	q0, q1, [x12, #-16]
	subs	x14, x14, #32
	add	x12, x12, #32
	stp	q0, q1, [x13, #-16]
	add	x13, x13, #32
	b.ne	976b
	cmp	x1, x10
	b.eq	93b
	cbz	x11, 62b
613:
	mov	x12, x10
	and	x10, x1, #0xfffffffffffffff8
	add	x13, x9, x12
	sub	x11, x12, x10
	add	x12, x8, x12
	add	x13, x2, x13
659:
	ldr	d0, [x12], #8
	adds	x11, x11, #8
	str	d0, [x13], #8
	b.ne	659b
	cmp	x1, x10
	b.eq	93b
	b	62b
174:
	brk	#0x1
	.size	tcrx_channel_take_unit_at, .-tcrx_channel_take_unit_at
	.section	.text.tcrx_check_fecf_at,"ax",@progbits
	.globl	tcrx_check_fecf_at
	.p2align	2
	.type	tcrx_check_fecf_at,@function
tcrx_check_fecf_at:
	stp	x29, x30, [sp, #-96]!
	mov	w8, #4096
	cmp	x0, #0
	stp	x26, x25, [sp, #32]
	stp	x22, x21, [sp, #64]
	mov	x29, sp
	mov	x22, x1
	mov	x21, x0
	csel	x26, x8, xzr, eq
	stp	x24, x23, [sp, #48]
	stp	x20, x19, [sp, #80]
	mov	x20, x2
	cmp	x2, #0
	add	x23, x0, x26
	add	x0, x29, #28
	add	x1, x21, x26
	mov	x2, x22
	str	x27, [sp, #16]
	mov	x19, x3
	strb	wzr, [x29, #30]
	csel	x27, x8, xzr, eq
	strh	wzr, [x29, #28]
	bl	tc_edges.write.fields.check_taking
	ldrb	w8, [x29, #28]
	cmp	w8, #1
	b.ne	625f
	ldrb	w8, [x29, #29]
	cmp	w8, #2
	b.gt	118f
	cbz	w8, 556f
	cmp	w8, #1
	b.ne	32f
	mov	w0, #6
	b	498f
625:
	sub	x1, x22, #2
	cmp	x19, x1
	b.hs	62f
	mov	w0, #50
	b	976f
118:
	cmp	w8, #3
	b.eq	187f
	cmp	w8, #4
	b.ne	943f
	mov	w0, #8
	b	498f
62:
	add	x19, x20, x27
	ldrb	w24, [x23, #2]
	ldrb	w25, [x23, #3]
	sub	x8, x19, x23
	cmp	x8, x1
	b.hs	983f
	cmp	x1, #8
	b.lo	613f
	add	x8, x27, x20
	add	x9, x26, x21
	sub	x8, x8, x9
	cmp	x8, #32
	b.hs	118f
613:
	mov	x8, xzr
625:
	sub	x9, x22, x8
	add	x10, x26, x8
	add	x11, x27, x8
	sub	x8, x9, #2
	add	x9, x21, x10
	add	x10, x20, x11
602:
	ldrb	w11, [x9], #1
	subs	x8, x8, #1
	strb	w11, [x10], #1
	b.ne	602b
	b	690f
983:
	mov	x20, x1
	mov	x0, x19
	mov	x1, x23
	mov	x2, x20
	bl	memmove
	mov	x1, x20
690:
	orr	w8, w25, w24, lsl #8
	mov	x0, xzr
	sub	w8, w8, #2
	rev	w8, w8
	lsr	w8, w8, #16
	strh	w8, [x19, #2]
	b	976f
556:
	ldrb	w8, [x29, #30]
	add	w0, w8, #1
	b	498f
187:
	mov	w0, #7
	b	498f
32:
	mov	w0, #15
	b	498f
943:
	mov	w0, #12
498:
	bl	tc_c_base.status.code
	mov	x1, xzr
	mov	w0, w0
976:
	ldp	x20, x19, [sp, #80]
	ldr	x27, [sp, #16]
	ldp	x22, x21, [sp, #64]
	ldp	x24, x23, [sp, #48]
	ldp	x26, x25, [sp, #32]
	ldp	x29, x30, [sp], #96
	ret
118:
	cmp	x1, #32
	b.hs	62f
	mov	x8, xzr
	b	613f
62:
	add	x10, x26, x21
	add	x11, x27, x20
	and	x9, x1, #0x18
	and	x8, x1, #0xffffffffffffffe0
	add	x10, x10, #16
	add	x11, x11, #16
	and	x12, x1, #0xffffffffffffffe0
976:
	ldp	q0, q1, [x10, #-16]
	subs	x12, x12, #32
	add	x10, x10, #32
	stp	q0, q1, [x11, #-16]
	add	x11, x11, #32
	b.ne	976b
	cmp	x1, x8
	b.eq	690b
	cbz	x9, 625b
613:
	mov	x9, x8
	and	x8, x1, #0xfffffffffffffff8
	add	x10, x26, x9
	add	x11, x27, x9
	sub	x9, x9, x8
	add	x10, x21, x10
	add	x11, x20, x11
93:
	ldr	d0, [x10], #8
	adds	x9, x9, #8
	str	d0, [x11], #8
	b.ne	93b
	cmp	x1, x8
	b.eq	690b
	b	625b
	.size	tcrx_check_fecf_at, .-tcrx_check_fecf_at
	.section	.text.tcrx_cltu_octets_at,"ax",@progbits
	.globl	tcrx_cltu_octets_at
	.p2align	2
	.type	tcrx_cltu_octets_at,@function
tcrx_cltu_octets_at:
	sub	sp, sp, #176
	cmp	x1, #0
	mov	w9, #4096
	stp	x26, x25, [sp, #112]
	stp	x24, x23, [sp, #128]
	lsr	x25, x0, #8
	lsr	x23, x0, #16
	stp	x22, x21, [sp, #144]
	lsr	x21, x0, #32
	mov	x22, x2
	stp	x20, x19, [sp, #160]
	mov	x20, x0
	mov	x19, x8
	csel	x8, x9, xzr, eq
	cmp	x3, #0
	lsr	x26, x0, #24
	csel	x9, x9, xzr, eq
	ands	w10, w20, #0xff
	stp	x29, x30, [sp, #80]
	stp	x28, x27, [sp, #96]
	add	x29, sp, #80
	b.eq	943f
	cmp	w10, #1
	b.ne	911f
	mov	w11, #1
	ubfx	w10, w20, #8, #8
	cmp	w10, #1
	b.hi	911f
405:
	lsr	w10, w20, #24
	mov	w0, #56
	cmp	w10, #7
	b.hi	498f
	and	w10, w21, #0xffff
	cmp	w10, #1029
	b.hi	498f
	cmp	x4, #1037
	mov	w0, #29
	csel	w10, w0, w11, lo
	cmp	x4, #1036
	str	w10, [sp, #4]
	b.ls	498f
	stp	xzr, xzr, [x29, #-32]
	stur	xzr, [x29, #-16]
	cbz	x22, 239f
	mov	w2, w21
	ldr	w21, [sp, #4]
	mov	x28, xzr
	mov	x27, xzr
	add	x24, x1, x8
	add	x5, x3, x9
	str	w11, [sp, #28]
	stp	xzr, xzr, [sp, #8]
	stp	x5, x4, [sp, #32]
	b	447f
118:
	cmp	x28, x22
	b.hs	599f
447:
	and	w8, w25, #0xff
	cmp	w8, #1
	add	x8, x24, x28
	b.ne	602f
	tst	w26, #0xff
	b.ne	602f
	sub	x9, x22, x28
	cmp	x9, #7
	b.ls	983f
	ldrb	w12, [x8]
	ldrb	w11, [x8, #1]
	adrp	x15, .LTb4175d02
	add	x15, x15, :lo12:.LTb4175d02
	ldrb	w10, [x8, #2]
	ldrb	w9, [x8, #3]
	ldrb	w13, [x8, #4]
	ldrb	w14, [x8, #5]
	add	x16, x15, x12
	ldrb	w17, [x8, #6]
	add	x18, x15, x11
	add	x0, x15, x10
	add	x1, x15, x9
	add	x13, x15, x13
	add	x14, x15, x14
	ldrb	w16, [x16, #1536]
	ldrb	w18, [x18, #1280]
	ldrb	w0, [x0, #1024]
	ldrb	w1, [x1, #768]
	ldrb	w13, [x13, #512]
	ldrb	w14, [x14, #256]
	ldrb	w15, [x15, x17]
	ldrb	w3, [x8, #7]
	eor	w16, w16, w18
	eor	w17, w0, w1
	eor	w13, w13, w14
	eor	w14, w16, w17
	eor	w13, w13, w15
	eor	w14, w14, w13
	lsr	w13, w3, #1
	eor	w14, w14, #0x7f
	cmp	w14, w13
	b.ne	93f
	ldr	x9, [x8]
	mov	w8, wzr
	and	w10, w2, #0xffff
	cmp	w10, #1022
	b.ls	447f
613:
	mov	w25, wzr
	mov	w23, wzr
	mov	w9, wzr
	mov	w8, #4
	add	x28, x28, #8
	cmp	w8, #1
	b.gt	474f
62:
	cbz	w8, 32f
	add	x27, x27, #1
	b	32f
602:
	ldrb	w8, [x8]
	tst	w25, #0xff
	b.eq	187f
	mov	w9, w2
	and	w11, w26, #0xff
	and	x12, x26, #0xff
	and	x10, x9, #0xffff
	cmp	w11, #7
	add	x9, x5, x10
	strb	w8, [x9, x12]
	b.ne	316f
	ldr	x11, [x9]
	adrp	x8, .LTb4175d02
	add	x8, x8, :lo12:.LTb4175d02
	lsr	x12, x11, #8
	lsr	x13, x11, #16
	lsr	x14, x11, #24
	lsr	x15, x11, #32
	lsr	x16, x11, #40
	add	x17, x8, w11, uxtb
	add	x12, x8, w12, uxtb
	add	x13, x8, w13, uxtb
	add	x14, x8, w14, uxtb
	add	x15, x8, w15, uxtb
	add	x16, x8, w16, uxtb
	ubfx	x18, x11, #48, #8
	ldrb	w17, [x17, #1536]
	ldrb	w12, [x12, #1280]
	ldrb	w13, [x13, #1024]
	ldrb	w14, [x14, #768]
	ldrb	w15, [x15, #512]
	ldrb	w16, [x16, #256]
	ldrb	w8, [x8, x18]
	eor	w12, w17, w12
	stur	x11, [x29, #-8]
	eor	w13, w13, w14
	eor	w14, w15, w16
	eor	w12, w12, w13
	eor	w8, w14, w8
	eor	w12, w12, w8
	lsr	x8, x11, #57
	eor	w12, w12, #0x7f
	cmp	w12, w8
	b.ne	659f
	mov	x12, xzr
	b	118f
983:
	mov	w9, w2
	ldrb	w8, [x8]
	and	x9, x9, #0xffff
	strb	w8, [x5, x9]
316:
	add	w26, w26, #1
	add	x28, x28, #1
	b	192f
187:
	mov	w9, #235
	mov	w10, #144
	eor	w9, w23, w9
	eor	w10, w8, w10
	and	w9, w9, #0xff
	fmov	s1, w10
	fmov	s0, w9
	cnt	v1.8b, v1.8b
	cnt	v0.8b, v0.8b
	fmov	w10, s1
	fmov	w9, s0
	add	w9, w10, w9
	ldr	w10, [sp, #28]
	cbz	w10, 583f
	tst	w9, #0xfe
	cset	w25, eq
	tbnz	w25, #0, 187f
983:
	mov	w23, w8
	add	x28, x28, #1
	b	192f
93:
	ldr	w15, [sp, #28]
	cbz	w15, 280f
	eor	w13, w14, w13
	adrp	x14, .LTddd25b9b
	add	x14, x14, :lo12:.LTddd25b9b
	ldr	x13, [x14, w13, uxtw #3]
	cbz	x13, 280f
	ldr	x8, [x8]
	eor	x9, x8, x13
	mov	w8, #1
	and	w10, w2, #0xffff
	cmp	w10, #1022
	b.hi	613b
447:
	and	x10, x2, #0xffff
	sub	x11, x4, x10
	cmp	x11, #8
	b.lo	613f
	str	x9, [x5, x10]
613:
	mov	w9, wzr
	add	w2, w2, #7
	mov	w25, #1
	add	x28, x28, #8
	cmp	w8, #1
	b.gt	474f
	b	62b
583:
	tst	w9, #0xff
	cset	w25, eq
	tbz	w25, #0, 983b
187:
	mov	w26, wzr
	mov	w2, wzr
	add	x28, x28, #1
	b	192f
280:
	cmp	w12, #197
	mov	w8, #3
	b.ne	583f
	cmp	w11, #197
	b.ne	583f
	cmp	w10, #197
	b.ne	583f
	cmp	w9, #197
	b.ne	583f
	adrp	x8, .LT9296ae30
	add	x8, x8, :lo12:.LT9296ae30
	add	x0, x24, x28
	mov	w1, #8
	mov	x21, x2
	mov	x2, x8
	bl	core.cmp.slices.groups_equal._i8_31_core.cmp.numbers.U8PartialEq
	ldp	x5, x4, [sp, #32]
	mov	x2, x21
	ldr	w21, [sp, #4]
	mov	w8, #2
	cmp	w0, #0
	cinc	w8, w8, eq
583:
	tst	w2, #0xffff
	mov	w25, wzr
	mov	w23, wzr
	cset	w9, ne
	add	x28, x28, #8
	cmp	w8, #1
	b.le	62b
474:
	cmp	w8, #2
	b.eq	32f
	cmp	w8, #3
	b.ne	93f
	ldr	x8, [sp, #8]
	add	x8, x8, #1
	str	x8, [sp, #8]
	b	32f
93:
	ldr	x8, [sp, #16]
	add	x8, x8, #1
	str	x8, [sp, #16]
32:
	mov	w26, wzr
	cbnz	w9, 59f
192:
	and	w8, w25, #0xff
	cmp	w8, #1
	b.ne	118b
	tst	w26, #0xff
	b.ne	118b
	ldp	x5, x6, [sp, #32]
	sub	x0, x29, #32
	add	x3, x24, x28
	sub	x4, x22, x28
	mov	w1, w21
	bl	tc_c.decoder.take_blocks
	ldp	x8, x9, [x29, #-24]
	ldurh	w2, [x29, #-32]
	ldp	x5, x4, [sp, #32]
	add	x28, x8, x28
	add	x27, x9, x27
	b	118b
659:
	ldr	w13, [sp, #28]
	cbz	w13, 613f
	eor	w8, w12, w8
	adrp	x12, .LTddd25b9b
	add	x12, x12, :lo12:.LTddd25b9b
	ldr	x12, [x12, w8, uxtw #3]
	cbz	x12, 613f
118:
	cmp	x12, #0
	and	w13, w2, #0xffff
	cset	w8, ne
	cmp	w13, #1022
	b.ls	625f
	mov	w25, wzr
	mov	w23, wzr
	mov	w9, wzr
	mov	w8, #4
	add	x28, x28, #1
	cmp	w8, #1
	b.gt	474b
	b	62b
613:
	mov	w8, #50629
	movk	w8, #50629, lsl #16
	cmp	w11, w8
	b.ne	983f
	adrp	x8, .LT9296ae30
	add	x8, x8, :lo12:.LT9296ae30
	sub	x0, x29, #8
	mov	w1, #8
	mov	x21, x2
	mov	x2, x8
	bl	core.cmp.slices.groups_equal._i8_31_core.cmp.numbers.U8PartialEq
	ldp	x5, x4, [sp, #32]
	mov	x2, x21
	ldr	w21, [sp, #4]
	mov	w8, #2
	cmp	w0, #0
	cinc	w8, w8, eq
	b	583f
625:
	sub	x10, x4, x10
	cmp	x10, #8
	b.lo	613f
	eor	x10, x12, x11
	str	x10, [x9]
613:
	mov	w9, wzr
	add	w2, w2, #7
	mov	w25, #1
	add	x28, x28, #1
	cmp	w8, #1
	b.gt	474b
	b	62b
983:
	mov	w8, #3
583:
	tst	w2, #0xffff
	mov	w25, wzr
	mov	w23, wzr
	cset	w9, ne
	add	x28, x28, #1
	cmp	w8, #1
	b.gt	474b
	b	62b
943:
	mov	w11, wzr
	ubfx	w10, w20, #8, #8
	cmp	w10, #1
	b.ls	405b
911:
	mov	w0, #22
498:
	bl	tc_c_base.status.code
	mov	w8, wzr
	mov	x28, xzr
	mov	x27, xzr
	mov	x11, xzr
	mov	x10, xzr
	stur	wzr, [x29, #-8]
	sturb	wzr, [x29, #-4]
232:
	ldur	w9, [x29, #-8]
	strb	w8, [x19, #10]
	ldurb	w8, [x29, #-4]
	str	w0, [x19]
	ldp	x29, x30, [sp, #80]
	strb	w20, [x19, #4]
	strb	w25, [x19, #5]
	strb	w23, [x19, #6]
	ldp	x24, x23, [sp, #128]
	strb	w26, [x19, #7]
	ldp	x26, x25, [sp, #112]
	strh	w21, [x19, #8]
	ldp	x22, x21, [sp, #144]
	stur	w9, [x19, #11]
	strb	w8, [x19, #15]
	stp	x28, x27, [x19, #16]
	ldp	x28, x27, [sp, #96]
	stp	x11, x10, [x19, #32]
	ldp	x20, x19, [sp, #160]
	add	sp, sp, #176
	ret
239:
	mov	x27, xzr
	stp	xzr, xzr, [sp, #8]
	mov	x28, xzr
	mov	w2, w21
599:
	mov	w8, wzr
	sturb	wzr, [x29, #-4]
976:
	ldp	x11, x10, [sp, #8]
	mov	w0, wzr
	mov	w21, w2
	stur	wzr, [x29, #-8]
	b	232b
59:
	sturb	wzr, [x29, #-4]
	mov	w8, #1
	b	976b
	.size	tcrx_cltu_octets_at, .-tcrx_cltu_octets_at
	.section	.text.tcrx_cltu_search,"ax",@progbits
	.globl	tcrx_cltu_search
	.p2align	2
	.type	tcrx_cltu_search,@function
tcrx_cltu_search:
	sub	sp, sp, #112
	stp	x22, x21, [sp, #80]
	lsr	x21, x0, #8
	lsr	x22, x0, #32
	stp	x20, x19, [sp, #96]
	mov	x20, x0
	mov	x19, x8
	orr	w9, w21, w20
	stp	x29, x30, [sp, #48]
	add	x29, sp, #48
	tst	x9, #0xfe
	stp	x24, x23, [sp, #64]
	b.eq	863f
	mov	w0, #22
405:
	lsr	x23, x20, #16
	lsr	x24, x20, #24
	bl	tc_c_base.status.code
	movi	v0.2d, #0000000000000000
	stp	q0, q0, [sp]
	stur	xzr, [sp, #30]
976:
	ldp	q0, q1, [sp]
	ldur	x8, [sp, #30]
	str	w0, [x19]
	ldp	x29, x30, [sp, #48]
	strb	w20, [x19, #4]
	strb	w21, [x19, #5]
	strb	w23, [x19, #6]
	strb	w24, [x19, #7]
	ldp	x24, x23, [sp, #64]
	strh	w22, [x19, #8]
	ldp	x22, x21, [sp, #80]
	stur	q0, [x19, #10]
	stur	q1, [x19, #26]
	str	x8, [x19, #40]
	ldp	x20, x19, [sp, #96]
	add	sp, sp, #112
	ret
863:
	lsr	w8, w20, #24
	mov	w0, #56
	cmp	w8, #7
	b.hi	405b
	and	w8, w22, #0xffff
	cmp	w8, #1030
	b.hs	405b
	movi	v0.2d, #0000000000000000
	mov	w21, wzr
	mov	w23, wzr
	mov	w24, wzr
	mov	w22, wzr
	mov	w0, wzr
	stur	xzr, [sp, #30]
	stp	q0, q0, [sp]
	b	976b
	.size	tcrx_cltu_search, .-tcrx_cltu_search
	.section	.text.tcrx_farm_start,"ax",@progbits
	.globl	tcrx_farm_start
	.p2align	2
	.type	tcrx_farm_start,@function
tcrx_farm_start:
	and	w9, w0, #0xff
	and	x10, x0, #0xff
	mov	w8, #253
	tst	w0, #0x1
	bfi	x10, x1, #16, #8
	sub	w9, w9, #2
	ccmp	w9, w8, #2, eq
	mov	w8, #20
	orr	x9, x10, #0x100
	csel	w8, wzr, w8, lo
	csel	x9, x9, xzr, lo
	str	w8, [sp, #-16]!
	stur	x9, [sp, #4]
	ldp	x0, x1, [sp], #16
	ret
	.size	tcrx_farm_start, .-tcrx_farm_start
	.section	.text.tcrx_farm_step,"ax",@progbits
	.globl	tcrx_farm_step
	.p2align	2
	.type	tcrx_farm_step,@function
tcrx_farm_step:
	stp	x29, x30, [sp, #-80]!
	stp	x20, x19, [sp, #64]
	mov	x19, x0
	lsr	x20, x0, #8
	sub	w8, w19, #2
	str	x25, [sp, #16]
	ubfx	x25, x0, #40, #8
	stp	x24, x23, [sp, #32]
	ubfx	x23, x0, #32, #8
	and	w8, w8, #0xff
	stp	x22, x21, [sp, #48]
	lsr	x21, x0, #16
	lsr	w22, w19, #24
	ubfx	x24, x0, #48, #8
	cmp	w8, #252
	mov	w0, #19
	mov	x29, sp
	b.hi	498f
	and	w8, w19, #0x1
	tbnz	w8, #0, 498f
	mov	w8, #-1
	add	x8, x8, x19, lsr #8
	and	w9, w8, #0xff
	cmp	w9, #2
	b.hi	613f
	cmp	w22, #3
	b.ls	118f
	mov	w0, #21
	b	498f
613:
	mov	w0, #20
	b	498f
118:
	cmp	w23, #1
	b.hi	613f
	lsr	x9, x19, #40
	lsr	x10, x19, #48
	orr	w11, w9, w10
	tst	x11, #0xfe
	b.eq	192f
613:
	mov	w0, #22
498:
	bl	tc_c_base.status.code
	mov	x8, xzr
	mov	w9, w0
447:
	and	w10, w21, #0xff
	and	w11, w20, #0xff
	mov	w12, w25
	lsl	x10, x10, #48
	mov	w13, w23
	ldr	x25, [sp, #16]
	orr	x10, x10, x22, lsl #56
	ldp	x22, x21, [sp, #48]
	orr	x10, x10, x11, lsl #40
	orr	x11, x13, x12, lsl #8
	mov	w12, w24
	ldp	x24, x23, [sp, #32]
	bfi	x10, x19, #32, #8
	orr	x11, x11, x12, lsl #16
	ldp	x20, x19, [sp, #64]
	orr	x0, x10, x9
	orr	x1, x11, x8
	ldp	x29, x30, [sp], #80
	ret
192:
	and	w11, w20, #0xff
	cmp	w11, #3
	b.eq	887f
	cmp	w11, #2
	b.ne	690f
	tst	w24, w25
	mov	w0, #23
	b.eq	498b
	lsr	x11, x19, #32
	tbz	w11, #0, 192f
	b	498b
887:
	orn	w11, w10, w9
	mov	w0, #23
	tbz	w11, #0, 498b
	lsr	x11, x19, #32
	tbnz	w11, #0, 192f
	b	498b
690:
	orr	w11, w25, w23
	cbz	w11, 192f
	mov	w0, #23
	b	498b
192:
	and	w11, w3, #0xff
	cmp	w11, #1
	b.hi	613b
	and	w11, w1, #0xff
	mov	w0, #24
	cmp	w11, #3
	b.gt	118f
	cmp	w11, #1
	b.eq	613f
	cmp	w11, #2
	b.eq	983f
	cmp	w11, #3
	b.ne	498b
	mov	w2, wzr
	mov	w11, wzr
	mov	w12, #2
	b	455f
118:
	cmp	w11, #4
	b.eq	843f
	cmp	w11, #5
	b.eq	187f
	mov	w13, wzr
	cmp	w11, #6
	mov	w11, wzr
	b.eq	192f
	b	498b
613:
	mov	w12, wzr
	mov	w11, wzr
	b	455f
843:
	ubfiz	w11, w2, #16, #8
	mov	w2, #1
	mov	w12, #2
	b	455f
983:
	mov	w2, wzr
	mov	w11, wzr
	mov	w12, #1
	b	455f
187:
	mov	w2, wzr
	mov	w11, wzr
	mov	w12, #3
455:
	bfi	w12, w2, #8, #8
	mov	w13, #1
	orr	w11, w12, w11
	orr	w11, w11, w3, lsl #24
192:
	and	w14, w8, #0xff
	lsr	w12, w11, #8
	cmp	w14, #1
	b.ne	843f
	cbz	w13, 843f
	and	w14, w11, #0x1ffffff
	mov	w15, #16777216
	and	w14, w14, #0xff0000ff
	cmp	w14, w15
	b.ne	843f
	and	w14, w21, #0xff
	cmp	w14, w12, uxtb
	b.ne	843f
	mov	w0, #25
	b	498b
843:
	ubfiz	w10, w10, #16, #8
	ubfx	x14, x19, #32, #1
	and	w15, w19, #0xff000000
	strb	w19, [x29, #24]
	bfi	w10, w9, #8, #8
	orr	w9, w15, w14
	strb	w8, [x29, #25]
	strb	w21, [x29, #26]
	orr	w9, w10, w9
	stur	w9, [x29, #27]
	cbz	w13, 192f
	and	w9, w11, #0xff
	cmp	w9, #1
	b.gt	118f
	cbnz	w9, 62f
	ubfx	w9, w11, #8, #8
	cmp	w9, w21, uxtb
	b.ne	401f
	tbz	w11, #24, 316f
	tst	w8, #0xff
	b.eq	863f
	mov	w8, #16777216
	b	602f
192:
	and	w8, w20, #0xff
	cmp	w8, #1
	b.eq	613f
	cmp	w8, #3
	b.ne	560f
	strb	wzr, [x29, #28]
613:
	mov	w8, #167772160
	b	602f
118:
	cmp	w9, #2
	b.ne	613f
	ubfx	w8, w11, #8, #8
	add	w9, w22, #1
	cbz	w8, 192f
	and	w8, w20, #0xff
	and	w9, w9, #0x3
	cmp	w8, #3
	strb	w9, [x29, #30]
	b.eq	983f
	cmp	w8, #2
	b.ne	405f
	lsr	w8, w11, #16
	strb	wzr, [x29, #25]
	strh	wzr, [x29, #28]
	strb	w8, [x29, #26]
	mov	w8, #134217728
	b	602f
560:
	strb	wzr, [x29, #25]
	mov	w8, #167772160
560:
	strb	wzr, [x29, #28]
	b	602f
62:
	add	w8, w22, #1
	and	w8, w8, #0x3
	strb	w8, [x29, #30]
	mov	x8, #100663296
	movk	x8, #1, lsl #32
	b	602f
613:
	mov	w8, #150994944
	b	602f
401:
	ubfx	w8, w19, #1, #7
	sub	w9, w12, w21
	cmp	w8, w9, uxtb
	b.hi	62f
	neg	w9, w9
	cmp	w8, w9, uxtb
	b.lo	481f
	mov	w8, #67108864
	b	602f
192:
	and	w8, w20, #0xff
	and	w9, w9, #0x3
	strb	wzr, [x29, #29]
	cmp	w8, #1
	strb	w9, [x29, #30]
	b.eq	613f
	cmp	w8, #3
	b.ne	531f
	strb	wzr, [x29, #25]
	mov	w8, #117440512
	sturh	wzr, [x29, #27]
	b	602f
983:
	mov	w8, #134217728
	b	602f
405:
	lsr	w8, w11, #16
	strb	wzr, [x29, #29]
	strb	w8, [x29, #26]
	mov	w8, #134217728
	b	602f
863:
	lsr	w8, w19, #16
	strb	wzr, [x29, #29]
	add	w8, w8, #1
	strb	w8, [x29, #26]
	mov	x8, #16777216
	movk	x8, #1, lsl #32
	b	602f
613:
	mov	w8, #117440512
602:
	ldrb	w10, [x29, #25]
	ldrb	w11, [x29, #27]
	mov	x9, xzr
	ldrb	w12, [x29, #28]
	ldrb	w13, [x29, #29]
	ldrb	w21, [x29, #26]
	ldrb	w22, [x29, #30]
	add	w20, w10, #1
	and	w23, w11, #0x1
	and	w25, w12, #0x1
	and	w24, w13, #0x1
	b	447b
531:
	strb	wzr, [x29, #25]
	mov	w8, #117440512
	b	560b
316:
	add	x8, x29, #24
	orr	x0, x8, #0x1
	bl	tc_link.farm.full
	mov	w8, #33554432
	b	602b
62:
	add	x8, x29, #24
	orr	x0, x8, #0x1
	bl	tc_link.farm.ahead
	mov	w8, #50331648
	b	602b
481:
	add	x8, x29, #24
	orr	x0, x8, #0x1
	bl	tc_link.farm.outside
	mov	w8, #83886080
	b	602b
	.size	tcrx_farm_step, .-tcrx_farm_step
	.section	.text.tcrx_kind_at,"ax",@progbits
	.globl	tcrx_kind_at
	.p2align	2
	.type	tcrx_kind_at,@function
tcrx_kind_at:
	mov	w8, #4096
	cmp	x0, #0
	csel	x8, x8, xzr, eq
	cmp	x1, #5
	b.hs	62f
	mov	w0, #1
	b	598f
62:
	add	x10, x0, x8
	ldrb	w9, [x10]
	cmp	w9, #63
	b.hi	613f
	tst	w9, #0xc
	b.eq	602f
	mov	w0, #3
	b	598f
613:
	mov	w0, #2
598:
	stp	x29, x30, [sp, #-16]!
	mov	x29, sp
	bl	tc_c_base.status.code
	mov	w8, w0
	ldp	x29, x30, [sp], #16
	and	w9, wzr, #0xff
	orr	x9, xzr, x9, lsl #40
	orr	x0, x9, x8
	ret
602:
	ldrb	w8, [x10, #2]
	ldrb	w11, [x10, #3]
	lsl	w8, w8, #8
	and	w8, w8, #0x300
	orr	w8, w8, w11
	cmp	w8, #5
	b.hs	62f
	mov	w0, #4
	b	598b
62:
	add	w11, w8, #1
	cmp	x1, x11
	b.hs	118f
	mov	w0, #5
	b	598b
118:
	cmp	w9, #32
	b.hs	613f
	ldrb	w10, [x10, #4]
	tst	w9, #0x10
	mov	x11, #21474836480
	mov	x12, #4294967296
	csel	w9, w10, wzr, eq
	csel	x10, x12, x11, eq
	and	w9, w9, #0xff
	orr	x9, x10, x9, lsl #40
	orr	x0, x9, xzr
	ret
613:
	tbnz	w9, #4, 118f
	mov	x10, #8589934592
	and	w9, wzr, #0xff
	orr	x9, x10, x9, lsl #40
	orr	x0, x9, xzr
	ret
118:
	cmp	w8, #7
	b.eq	602f
	cmp	w8, #5
	b.ne	613f
	ldrb	w10, [x10, #5]
	mov	x11, #12884901888
	cmp	w10, #0
	mov	x10, #21474836480
	csel	x10, x11, x10, eq
	and	w9, wzr, #0xff
	orr	x9, x10, x9, lsl #40
	orr	x0, x9, xzr
	ret
602:
	ldrb	w8, [x10, #5]
	cmp	w8, #130
	b.ne	613f
	ldrb	w8, [x10, #6]
	cbz	w8, 602f
613:
	mov	x10, #21474836480
	and	w9, wzr, #0xff
	orr	x9, x10, x9, lsl #40
	orr	x0, x9, xzr
	ret
602:
	ldrb	w9, [x10, #7]
	mov	x10, #17179869184
	and	w9, w9, #0xff
	orr	x9, x10, x9, lsl #40
	orr	x0, x9, xzr
	ret
	.size	tcrx_kind_at, .-tcrx_kind_at
	.section	.text.tcrx_randomise_at,"ax",@progbits
	.globl	tcrx_randomise_at
	.p2align	2
	.type	tcrx_randomise_at,@function
tcrx_randomise_at:
	stp	x29, x30, [sp, #-32]!
	cmp	x0, #0
	mov	w8, #4096
	sub	x11, x1, #1030
	csel	x9, x8, xzr, eq
	cmp	x2, #0
	stp	x20, x19, [sp, #16]
	csel	x10, x8, xzr, eq
	cmn	x11, #1030
	mov	x29, sp
	b.hi	118f
	cmp	x1, #1029
	mov	w8, #53
	mov	w9, #10
	csel	w8, w8, wzr, hi
	cmp	x1, #0
	csel	w0, w9, w8, eq
	bl	tc_c_base.status.code
	mov	x1, xzr
	mov	w0, w0
	ldp	x20, x19, [sp, #16]
	ldp	x29, x30, [sp], #32
	ret
118:
	cmp	x3, x1
	b.hs	62f
	mov	w0, #50
	ldp	x20, x19, [sp, #16]
	ldp	x29, x30, [sp], #32
	ret
62:
	add	x8, x0, x9
	add	x19, x2, x10
	sub	x11, x19, x8
	cmp	x11, x1
	b.hs	983f
	cmp	x1, #8
	b.lo	613f
	add	x8, x10, x2
	add	x11, x9, x0
	sub	x8, x8, x11
	cmp	x8, #32
	b.hs	118f
613:
	mov	x8, xzr
62:
	add	x9, x9, x8
	add	x10, x10, x8
	sub	x8, x1, x8
	add	x9, x0, x9
	add	x10, x2, x10
602:
	ldrb	w11, [x9], #1
	subs	x8, x8, #1
	strb	w11, [x10], #1
	b.ne	602b
	b	613f
983:
	mov	x20, x1
	mov	x0, x19
	mov	x1, x8
	mov	x2, x20
	bl	memmove
	mov	x1, x20
613:
	mov	x8, xzr
	mov	w9, #255
602:
	ldrb	w10, [x19, x8]
	eor	w10, w10, w9
	strb	w10, [x19, x8]
	add	x8, x8, #1
	adrp	x10, .LT359fb368
	add	x10, x10, :lo12:.LT359fb368
	cmp	x1, x8
	ldrb	w9, [x10, x9]
	b.ne	602b
	mov	x0, xzr
	ldp	x20, x19, [sp, #16]
	ldp	x29, x30, [sp], #32
	ret
118:
	cmp	x1, #32
	b.hs	316f
	mov	x8, xzr
	b	983f
316:
	add	x12, x9, x0
	add	x13, x10, x2
	and	x11, x1, #0x18
	and	x8, x1, #0x7e0
	add	x12, x12, #16
	add	x13, x13, #16
	and	x14, x1, #0x7e0
976:
	ldp	q0, q1, [x12, #-16]
	subs	x14, x14, #32
	add	x12, x12, #32
	stp	q0, q1, [x13, #-16]
	add	x13, x13, #32
	b.ne	976b
	cmp	x1, x8
	b.eq	613b
	cbz	x11, 62b
983:
	mov	x11, x8
	and	x8, x1, #0x7f8
	add	x12, x9, x11
	add	x13, x10, x11
	sub	x11, x11, x8
	add	x12, x0, x12
	add	x13, x2, x13
93:
	ldr	d0, [x12], #8
	adds	x11, x11, #8
	str	d0, [x13], #8
	b.ne	93b
	cmp	x1, x8
	b.eq	613b
	b	62b
	.size	tcrx_randomise_at, .-tcrx_randomise_at
	.section	.rodata.cst16,"aM",@progbits,16
	.p2align	4
.LCc5b97e77_0:
	.word	4294967282
	.word	4294967281
	.word	4294967278
	.word	0
.LCc5b97e77_1:
	.word	1
	.word	1
	.word	63
	.zero	4
.LCc5b97e77_2:
	.xword	40
	.xword	32
.LCc5b97e77_3:
	.xword	56
	.xword	48
	.section	.text.tcrx_read_clcw,"ax",@progbits
	.globl	tcrx_read_clcw
	.p2align	2
	.type	tcrx_read_clcw,@function
tcrx_read_clcw:
	mov	w8, #256
	mov	w9, #16777216
	movk	w8, #58115, lsl #16
	and	w8, w0, w8
	cmp	w8, w9
	b.ne	613f
	dup	v0.4s, w0
	adrp	x8, .LCc5b97e77_0
	adrp	x9, .LCc5b97e77_3
	ldr	q1, [x8, :lo12:.LCc5b97e77_0]
	adrp	x8, .LCc5b97e77_1
	ldr	q3, [x9, :lo12:.LCc5b97e77_3]
	lsl	w9, w0, #5
	lsr	w10, w0, #4
	ubfx	w11, w0, #13, #1
	ushl	v0.4s, v0.4s, v1.4s
	ldr	q1, [x8, :lo12:.LCc5b97e77_1]
	adrp	x8, .LCc5b97e77_2
	ldr	q2, [x8, :lo12:.LCc5b97e77_2]
	lsl	w8, w0, #15
	and	w12, w0, #0xff
	and	w9, w9, #0x10000
	and	w10, w10, #0x100
	and	v1.16b, v0.16b, v1.16b
	ushr	v0.4s, v0.4s, #26
	and	w8, w8, #0x3000000
	orr	x8, x8, x12, lsl #32
	orr	x9, x9, x10
	orr	x9, x9, x11
	mov	v1.s[3], v0.s[3]
	orr	x1, x8, x9
	ushll	v0.2d, v1.2s, #0
	ushll2	v1.2d, v1.4s, #0
	ushl	v1.2d, v1.2d, v2.2d
	ushl	v0.2d, v0.2d, v3.2d
	orr	v0.16b, v0.16b, v1.16b
	ext	v1.16b, v0.16b, v0.16b, #8
	orr	v0.8b, v0.8b, v1.8b
	fmov	x0, d0
	ret
613:
	mov	x1, xzr
	mov	w0, #31
	ret
	.size	tcrx_read_clcw, .-tcrx_read_clcw
	.section	.text.tcrx_read_frame_at,"ax",@progbits
	.globl	tcrx_read_frame_at
	.p2align	2
	.type	tcrx_read_frame_at,@function
tcrx_read_frame_at:
	mov	w8, #4096
	cmp	x0, #0
	csel	x8, x8, xzr, eq
	cmp	x1, #5
	b.hs	62f
	mov	w0, #1
	b	598f
62:
	add	x9, x0, x8
	ldrb	w8, [x9]
	cmp	w8, #63
	b.hi	613f
	tst	w8, #0xc
	b.eq	602f
	mov	w0, #3
	b	598f
613:
	mov	w0, #2
598:
	stp	x29, x30, [sp, #-16]!
	mov	x29, sp
	bl	tc_c_base.status.code
	mov	x1, xzr
	mov	w0, w0
	ldp	x29, x30, [sp], #16
	ret
602:
	ldrb	w11, [x9, #2]
	ldrb	w12, [x9, #3]
	lsl	w10, w11, #8
	and	w10, w10, #0x300
	orr	w10, w10, w12
	cmp	w10, #5
	b.hs	62f
	mov	w0, #4
	b	598b
62:
	add	w10, w10, #1
	cmp	x1, x10
	b.hs	192f
	mov	w0, #5
	b	598b
192:
	lsl	x11, x11, #46
	lsl	x12, x8, #4
	ldrb	w13, [x9, #1]
	ldrb	w9, [x9, #4]
	and	x11, x11, #0x3f000000000000
	and	x12, x12, #0x100
	bfi	w13, w8, #8, #2
	orr	x9, x11, x9, lsl #56
	orr	x10, x12, x10, lsl #16
	orr	x0, x9, x13, lsl #32
	orr	x1, x10, x8, lsr #5
	ret
	.size	tcrx_read_frame_at, .-tcrx_read_frame_at
	.section	.text.tcrx_read_packet_at,"ax",@progbits
	.globl	tcrx_read_packet_at
	.p2align	2
	.type	tcrx_read_packet_at,@function
tcrx_read_packet_at:
	mov	w9, #4096
	cmp	x0, #0
	csel	x9, x9, xzr, eq
	cmp	x1, #7
	b.hs	62f
	mov	x1, xzr
	mov	w0, #40
	ret
62:
	add	x10, x0, x9
	mov	x8, x1
	mov	x1, xzr
	ldrb	w9, [x10]
	mov	w0, #40
	cmp	w9, #31
	b.hi	350f
	ldrh	w11, [x10, #4]
	rev16	w11, w11
	add	x11, x11, #7
	cmp	x8, x11
	b.lo	350f
	ldrb	w8, [x10, #2]
	ubfx	w13, w9, #3, #1
	ldrb	w14, [x10, #3]
	cmp	w9, #15
	lsl	x0, x11, #32
	lsl	x12, x8, #42
	bfi	x14, x8, #8, #6
	ldrb	w8, [x10, #1]
	and	x12, x12, #0x3000000000000
	bfi	x8, x9, #8, #3
	orr	x12, x12, x13, lsl #40
	mov	x13, #4294967296
	csel	x10, x13, xzr, hi
	orr	x10, x12, x10
	orr	x9, x10, x14, lsl #16
	orr	x1, x9, x8
350:
	ret
	.size	tcrx_read_packet_at, .-tcrx_read_packet_at
	.section	.text.tcrx_read_tm_at,"ax",@progbits
	.globl	tcrx_read_tm_at
	.p2align	2
	.type	tcrx_read_tm_at,@function
tcrx_read_tm_at:
	stp	x29, x30, [sp, #-16]!
	mov	w8, #4096
	and	w9, w0, #0xff
	cmp	x1, #0
	csel	x8, x8, xzr, eq
	cmp	w9, #1
	mov	x29, sp
	b.hi	613f
	cmp	x2, #2048
	b.ls	583f
	mov	w0, #54
	bl	tc_c_base.status.code
	mov	x1, xzr
	mov	w0, w0
	ldp	x29, x30, [sp], #16
	ret
613:
	mov	w0, #22
	bl	tc_c_base.status.code
	mov	x1, xzr
	mov	w0, w0
	ldp	x29, x30, [sp], #16
	ret
583:
	tst	w0, #0xff
	mov	w9, #13
	mov	w10, #11
	csel	x9, x10, x9, eq
	cmp	x2, x9
	b.hs	62f
	mov	w0, #54
	bl	tc_c_base.status.code
	mov	x1, xzr
	mov	w0, w0
	ldp	x29, x30, [sp], #16
	ret
62:
	add	x8, x1, x8
	ldrb	w9, [x8]
	cmp	w9, #63
	b.hi	613f
	ldrb	w10, [x8, #1]
	tbnz	w10, #0, 583f
	mov	w0, #55
	bl	tc_c_base.status.code
	mov	x1, xzr
	mov	w0, w0
	ldp	x29, x30, [sp], #16
	ret
613:
	mov	w0, #2
	bl	tc_c_base.status.code
	mov	x1, xzr
	mov	w0, w0
	ldp	x29, x30, [sp], #16
	ret
583:
	tst	w0, #0xff
	b.eq	556f
	mov	w12, #255
	mov	w15, #255
	mov	x13, x8
	mov	x11, x2
602:
	ldrb	w14, [x13]
	ldrb	w16, [x13, #1]
	adrp	x17, .LT48aab116
	add	x17, x17, :lo12:.LT48aab116
	adrp	x18, .LT33c05f58
	add	x18, x18, :lo12:.LT33c05f58
	eor	w14, w14, w15
	ldrb	w15, [x13, #2]
	eor	w12, w16, w12
	and	x14, x14, #0xff
	ldrb	w16, [x13, #3]
	and	x12, x12, #0xff
	ldrh	w14, [x17, x14, lsl #1]
	adrp	x17, .LTbb337a2b
	add	x17, x17, :lo12:.LTbb337a2b
	ldrh	w15, [x17, x15, lsl #1]
	adrp	x17, .LT48c7e4e5
	add	x17, x17, :lo12:.LT48c7e4e5
	ldrh	w12, [x18, x12, lsl #1]
	ldrh	w16, [x17, x16, lsl #1]
	sub	x11, x11, #4
	cmp	x11, #3
	eor	w12, w12, w14
	eor	w14, w15, w16
	eor	w12, w12, w14
	add	x14, x13, #4
	ubfx	w15, w12, #8, #8
	mov	x13, x14
	b.hi	602b
	cbz	x11, 583f
	mov	x13, xzr
602:
	ldrb	w15, [x14, x13]
	and	w16, w12, #0xff00
	add	x13, x13, #1
	cmp	x11, x13
	eor	w15, w15, w16, lsr #8
	eor	w15, w15, w15, lsr #4
	orr	w12, w15, w12, lsl #8
	eor	w12, w12, w15, lsl #12
	eor	w12, w12, w15, lsl #5
	b.ne	602b
583:
	tst	w12, #0xffff
	b.eq	602f
	mov	w0, #8
	bl	tc_c_base.status.code
	mov	x1, xzr
	mov	w0, w0
	ldp	x29, x30, [sp], #16
	ret
556:
	ldrb	w11, [x8, #5]
	ldrb	w12, [x8, #4]
	add	x13, x8, x2
	bfi	x11, x12, #8, #3
	sub	x12, x13, #4
	b	556f
602:
	ldrb	w11, [x8, #5]
	ldrb	w12, [x8, #4]
	add	x13, x8, x2
	bfi	x11, x12, #8, #3
	sub	x12, x13, #6
556:
	ldrb	w13, [x8, #3]
	lsl	x11, x11, #48
	ldrb	w8, [x8, #2]
	orr	w9, w10, w9, lsl #8
	ubfx	w10, w10, #1, #3
	ldr	w12, [x12]
	orr	x11, x11, x13, lsl #32
	lsr	w9, w9, #4
	orr	x8, x11, x8, lsl #24
	rev	w11, w12
	lsl	x0, x11, #32
	orr	x8, x8, x10, lsl #16
	orr	x1, x8, x9
	ldp	x29, x30, [sp], #16
	ret
	.size	tcrx_read_tm_at, .-tcrx_read_tm_at
	.section	.text.tcrx_storage_at,"ax",@progbits
	.globl	tcrx_storage_at
	.p2align	2
	.type	tcrx_storage_at,@function
tcrx_storage_at:
	sub	sp, sp, #128
	stp	x20, x19, [sp, #112]
	lsr	x19, x0, #8
	mov	w8, #4096
	cmp	x1, #0
	stp	x22, x21, [sp, #96]
	lsr	w9, w19, #25
	csel	x21, x8, xzr, eq
	cmp	x3, #0
	csel	x20, x8, xzr, eq
	stp	x29, x30, [sp, #48]
	add	x29, sp, #48
	str	x25, [sp, #64]
	stp	x24, x23, [sp, #80]
	cbnz	w9, 613f
	add	x8, x1, x21
	strb	w0, [sp, #8]
	add	x0, sp, #8
	stp	x8, x2, [sp, #16]
	add	x8, x3, x20
	mov	x22, x1
	stur	w19, [sp, #9]
	mov	x23, x3
	mov	x25, x2
	sturh	wzr, [sp, #13]
	mov	x24, x4
	strb	wzr, [sp, #15]
	stp	x8, x4, [sp, #32]
	bl	tc_queues.settings.LentSettings.check
	tst	w0, #0xff
	b.eq	983f
	and	x8, x1, #0xff
	adrp	x9, .Lswitch.table.tcrx_storage_at
	add	x9, x9, :lo12:.Lswitch.table.tcrx_storage_at
	ldrb	w0, [x9, x8]
	b	498f
613:
	mov	w0, #22
498:
	bl	tc_c_base.status.code
	mov	x1, xzr
	mov	w0, w0
976:
	ldp	x20, x19, [sp, #112]
	ldr	x25, [sp, #64]
	ldp	x22, x21, [sp, #96]
	ldp	x24, x23, [sp, #80]
	ldp	x29, x30, [sp, #48]
	add	sp, sp, #128
	ret
983:
	mov	x8, x25
	mov	x11, xzr
	mov	x10, xzr
	cbz	x25, 983f
	cmp	x8, #1
	mov	x14, xzr
	mov	x9, x24
	mov	x12, x23
	mov	x13, x22
	b.eq	62f
	add	x17, x21, x13
	mov	x10, xzr
	mov	x15, xzr
	mov	x11, xzr
	mov	x16, xzr
	and	x14, x8, #0xfffffffffffffffe
	add	x17, x17, #6
	and	x18, x8, #0xfffffffffffffffe
848:
	ldurh	w0, [x17, #-4]
	ldrh	w1, [x17], #8
	adds	x10, x10, x0
	cinc	x15, x15, hs
	adds	x11, x11, x1
	cinc	x16, x16, hs
	subs	x18, x18, #2
	b.ne	848b
	adds	x11, x11, x10
	adc	x10, x16, x15
	cmp	x8, x14
	b.eq	613f
62:
	add	x15, x21, x14, lsl #2
	add	x15, x15, x13
	sub	x13, x8, x14
	add	x14, x15, #2
335:
	ldrh	w15, [x14], #4
	adds	x11, x11, x15
	cinc	x10, x10, hs
	subs	x13, x13, #1
	b.ne	335b
613:
	mov	x14, xzr
	mov	x13, xzr
	cbnz	x9, 118f
	b	405f
983:
	mov	x9, x24
	mov	x12, x23
	mov	x14, xzr
	mov	x13, xzr
	cbz	x24, 405f
118:
	cmp	x9, #1
	mov	x15, xzr
	b.eq	62f
	add	x18, x20, x12
	mov	x13, xzr
	mov	x16, xzr
	mov	x14, xzr
	mov	x17, xzr
	and	x15, x9, #0xfffffffffffffffe
	add	x18, x18, #6
	and	x0, x9, #0xfffffffffffffffe
848:
	ldurh	w1, [x18, #-4]
	ldrh	w2, [x18], #8
	adds	x13, x13, x1
	cinc	x16, x16, hs
	adds	x14, x14, x2
	cinc	x17, x17, hs
	subs	x0, x0, #2
	b.ne	848b
	adds	x14, x14, x13
	adc	x13, x17, x16
	cmp	x9, x15
	b.eq	405f
62:
	add	x16, x20, x15, lsl #2
	add	x16, x16, x12
	sub	x12, x9, x15
	add	x15, x16, #2
335:
	ldrh	w16, [x15], #4
	adds	x14, x14, x16
	cinc	x13, x13, hs
	subs	x12, x12, #1
	b.ne	335b
405:
	lsr	w12, w19, #24
	adds	x15, x9, x8
	mov	w16, #1051
	cset	w17, hs
	adds	x11, x14, x11
	mov	w14, #38
	movk	w14, #1, lsl #16
	adc	x10, x13, x10
	cmp	w12, #0
	mov	w13, #5888
	csel	x12, x16, x14, eq
	ubfx	w14, w19, #8, #8
	movk	w13, #128, lsl #16
	umulh	x18, x11, x12
	mov	x0, xzr
	csel	x13, xzr, x13, eq
	cmp	x8, #8
	mov	w8, #4096
	mul	w14, w14, w16
	csel	x16, xzr, x8, lo
	cmp	x9, #8
	csel	x8, xzr, x8, lo
	mul	x9, x11, x12
	extr	x11, x17, x15, #58
	add	x8, x16, x8
	madd	x10, x10, x12, x18
	add	x8, x13, x8
	add	x8, x8, x14
	adds	x8, x8, x15, lsl #6
	cinc	x11, x11, hs
	adds	x8, x8, x9
	adcs	xzr, x11, x10
	csel	x8, x8, xzr, eq
	csinv	x1, x8, xzr, eq
	b	976b
	.size	tcrx_storage_at, .-tcrx_storage_at
	.section	.text.tcrx_storage_with_limits_at,"ax",@progbits
	.globl	tcrx_storage_with_limits_at
	.p2align	2
	.type	tcrx_storage_with_limits_at,@function
tcrx_storage_with_limits_at:
	sub	sp, sp, #128
	lsr	x10, x0, #32
	cmp	x1, #0
	movi	v0.2d, #0000000000000000
	stp	x22, x21, [sp, #96]
	mov	x8, x2
	mov	x9, x1
	strb	w10, [sp, #28]
	mov	w10, #4096
	mov	x21, x6
	csel	x11, x10, xzr, eq
	cmp	x3, #0
	stp	x20, x19, [sp, #112]
	csel	x12, x10, xzr, eq
	cmp	x6, #0
	mov	w19, w5
	csel	x22, x10, xzr, eq
	mov	x5, x4
	str	w0, [sp, #24]
	add	x10, x6, x22
	add	x0, sp, #32
	add	x1, sp, #24
	add	x2, x9, x11
	add	x4, x3, x12
	mov	x6, sp
	mov	x3, x8
	stp	x29, x30, [sp, #80]
	add	x29, sp, #80
	mov	x20, x7
	stp	q0, q0, [sp, #32]
	str	q0, [sp, #64]
	stp	w19, wzr, [sp]
	stp	x10, x7, [sp, #8]
	bl	tc_c.settings.checked_within
	ldrb	w8, [sp, #32]
	cbz	w8, 602f
	ldrb	w0, [sp, #33]
	bl	tc_c_base.status.code
	mov	x1, xzr
	mov	w0, w0
	ldp	x20, x19, [sp, #112]
	ldp	x22, x21, [sp, #96]
	ldp	x29, x30, [sp, #80]
	add	sp, sp, #128
	ret
602:
	ldrb	w9, [sp, #44]
	ldr	x8, [sp, #56]
	tbz	w9, #0, 983f
	cbz	x20, 843f
	add	x13, x22, x21
	mov	x10, xzr
	mov	x11, xzr
	mov	x12, xzr
	add	x13, x13, #4
	b	613f
93:
	ldr	w14, [x14]
	adds	x10, x10, w14, uxtw
	add	x12, x12, #1
	cinc	x11, x11, hs
	cmp	x12, #64
	b.eq	912f
613:
	mov	x14, x13
	mov	x15, x20
257:
	ldurb	w16, [x14, #-4]
	cmp	w16, w12, uxtb
	b.eq	93b
	subs	x15, x15, #1
	add	x14, x14, #8
	b.ne	257b
	adds	x10, x10, w19, uxtw
	add	x12, x12, #1
	cinc	x11, x11, hs
	cmp	x12, #64
	b.ne	613b
	b	912f
983:
	mov	x10, xzr
	mov	x11, xzr
	ldr	x12, [sp, #72]
	cbnz	x20, 118f
	b	613f
843:
	ubfiz	x10, x19, #6, #32
	mov	x11, xzr
912:
	extr	x11, x11, x10, #63
	mov	w12, #5120
	adds	x10, x12, x10, lsl #1
	cinc	x11, x11, hs
	ldr	x12, [sp, #72]
	cbz	x20, 613f
118:
	cmp	x20, #8
	b.hs	16f
	mov	x13, xzr
	b	62f
16:
	dup	v0.4s, w19
	add	x14, x22, x21
	and	x13, x20, #0xfffffffffffffff8
	add	x14, x14, #36
	and	x15, x20, #0xfffffffffffffff8
	mov	v1.16b, v0.16b
232:
	ldur	s2, [x14, #-32]
	ldr	s3, [x14]
	sub	x16, x14, #24
	add	x17, x14, #8
	subs	x15, x15, #8
	ld1	{ v2.s }[1], [x16]
	ld1	{ v3.s }[1], [x17]
	sub	x16, x14, #16
	add	x17, x14, #16
	ld1	{ v2.s }[2], [x16]
	ld1	{ v3.s }[2], [x17]
	sub	x16, x14, #8
	add	x17, x14, #24
	add	x14, x14, #64
	ld1	{ v2.s }[3], [x16]
	ld1	{ v3.s }[3], [x17]
	umax	v0.4s, v2.4s, v0.4s
	umax	v1.4s, v3.4s, v1.4s
	b.ne	232b
	umax	v0.4s, v0.4s, v1.4s
	cmp	x20, x13
	umaxv	s0, v0.4s
	fmov	w19, s0
	b.eq	613f
62:
	add	x14, x22, x13, lsl #3
	sub	x13, x20, x13
	add	x14, x14, x21
	add	x14, x14, #4
93:
	ldr	w15, [x14], #8
	cmp	w15, w19
	csel	w19, w15, w19, hi
	subs	x13, x13, #1
	b.ne	93b
613:
	mov	x14, xzr
	mov	x13, xzr
	cbz	x8, 93f
	ldr	x15, [sp, #48]
	cmp	x8, #1
	mov	x16, xzr
	b.eq	62f
	mov	x13, xzr
	mov	x17, xzr
	mov	x14, xzr
	mov	x18, xzr
	and	x16, x8, #0xfffffffffffffffe
	add	x0, x15, #6
	and	x1, x8, #0xfffffffffffffffe
848:
	ldurh	w2, [x0, #-4]
	ldrh	w3, [x0], #8
	adds	x13, x13, x2
	cinc	x17, x17, hs
	adds	x14, x14, x3
	cinc	x18, x18, hs
	subs	x1, x1, #2
	b.ne	848b
	adds	x14, x14, x13
	adc	x13, x18, x17
	cmp	x8, x16
	b.eq	93f
62:
	add	x17, x15, x16, lsl #2
	sub	x15, x8, x16
	add	x16, x17, #2
335:
	ldrh	w17, [x16], #4
	adds	x14, x14, x17
	cinc	x13, x13, hs
	subs	x15, x15, #1
	b.ne	335b
93:
	ldr	w15, [sp, #40]
	mov	x17, xzr
	mov	x16, xzr
	cbz	x12, 613f
	ldr	x18, [sp, #64]
	cmp	x12, #1
	mov	x0, xzr
	b.eq	62f
	mov	x16, xzr
	mov	x1, xzr
	mov	x17, xzr
	mov	x2, xzr
	and	x0, x12, #0xfffffffffffffffe
	add	x3, x18, #6
	and	x4, x12, #0xfffffffffffffffe
848:
	ldurh	w5, [x3, #-4]
	ldrh	w6, [x3], #8
	adds	x16, x16, x5
	cinc	x1, x1, hs
	adds	x17, x17, x6
	cinc	x2, x2, hs
	subs	x4, x4, #2
	b.ne	848b
	adds	x17, x17, x16
	adc	x16, x2, x1
	cmp	x12, x0
	b.eq	613f
62:
	add	x1, x18, x0, lsl #2
	sub	x18, x12, x0
	add	x0, x1, #2
335:
	ldrh	w1, [x0], #4
	adds	x17, x17, x1
	cinc	x16, x16, hs
	subs	x18, x18, #1
	b.ne	335b
613:
	mov	w18, #6
	tst	w9, #0x1
	mov	w9, #1019
	movk	w18, #1, lsl #16
	mov	w1, w19
	ubfx	w15, w15, #16, #8
	csel	x9, x18, x9, ne
	mov	x0, xzr
	cmp	x1, x9
	csel	x9, x1, x9, lo
	adds	x18, x12, x8
	cset	w1, hs
	adds	x14, x17, x14
	add	x9, x9, #32
	adc	x13, x16, x13
	mov	w17, #1051
	cmp	x8, #8
	mov	w8, #4096
	umulh	x16, x14, x9
	mul	w15, w15, w17
	csel	x17, xzr, x8, lo
	cmp	x12, #8
	csel	x8, xzr, x8, lo
	mul	x12, x14, x9
	add	x8, x17, x8
	madd	x9, x13, x9, x16
	add	x8, x8, x15
	extr	x13, x1, x18, #58
	adds	x8, x8, x18, lsl #6
	cinc	x13, x13, hs
	adds	x8, x8, x10
	adc	x10, x13, x11
	adds	x8, x8, x12
	adcs	xzr, x10, x9
	csel	x8, x8, xzr, eq
	csinv	x1, x8, xzr, eq
	ldp	x20, x19, [sp, #112]
	ldp	x22, x21, [sp, #96]
	ldp	x29, x30, [sp, #80]
	add	sp, sp, #128
	ret
	.size	tcrx_storage_with_limits_at, .-tcrx_storage_with_limits_at
	.section	.text.tcrx_text_at,"ax",@progbits
	.globl	tcrx_text_at
	.p2align	2
	.type	tcrx_text_at,@function
tcrx_text_at:
	stp	x29, x30, [sp, #-80]!
	cmp	x1, #0
	mov	w8, #4096
	stp	x24, x23, [sp, #32]
	csel	x24, x8, xzr, eq
	str	x25, [sp, #16]
	mov	x25, xzr
	stp	x22, x21, [sp, #48]
	mov	x21, x2
	mov	w22, w0
	stp	x20, x19, [sp, #64]
	mov	x20, x1
	add	x19, x1, x24
	mov	x29, sp
118:
	cmp	x25, #64
	b.eq	983f
	adrp	x8, .LTbb19773e
	add	x8, x8, :lo12:.LTbb19773e
	ldrb	w23, [x8, x25]
	mov	w0, w23
	bl	tc_c_base.status.code
	cmp	w0, w22
	add	x25, x25, #1
	b.ne	118b
	adrp	x9, .LJbcc88025_0
	add	x9, x9, :lo12:.LJbcc88025_0
	adrp	x1, .LTfab3cca2
	add	x1, x1, :lo12:.LTfab3cca2
	adr	x10, 613f
	ldrh	w11, [x9, x23, lsl #1]
	add	x10, x10, x11, lsl #2
	mov	w8, #1
	mov	w22, #4
	br	x10
613:
	mov	w8, wzr
	adrp	x1, .LT8f6839ec
	add	x1, x1, :lo12:.LT8f6839ec
	mov	w22, #19
	b	118f
983:
	mov	x21, xzr
	mov	w0, #52
	b	592f
983:
	mov	w8, wzr
	adrp	x1, .LT9ca90559
	add	x1, x1, :lo12:.LT9ca90559
	mov	w22, #43
	b	118f
187:
	mov	w8, wzr
	adrp	x1, .LT290ea87a
	add	x1, x1, :lo12:.LT290ea87a
	mov	w22, #21
	b	118f
32:
	mov	w8, wzr
	adrp	x1, .LTfbebc291
	add	x1, x1, :lo12:.LTfbebc291
	mov	w22, #21
	b	118f
943:
	mov	w8, wzr
	adrp	x1, .LTfe3338ef
	add	x1, x1, :lo12:.LTfe3338ef
	mov	w22, #35
	b	118f
911:
	mov	w8, wzr
	adrp	x1, .LTe06be31d
	add	x1, x1, :lo12:.LTe06be31d
	mov	w22, #47
	b	118f
239:
	mov	w8, wzr
	adrp	x1, .LT3658ec33
	add	x1, x1, :lo12:.LT3658ec33
	mov	w22, #35
	b	118f
599:
	mov	w8, wzr
	adrp	x1, .LT46e62e51
	add	x1, x1, :lo12:.LT46e62e51
	mov	w22, #34
	b	118f
307:
	mov	w8, wzr
	adrp	x1, .LTd55d72f1
	add	x1, x1, :lo12:.LTd55d72f1
	mov	w22, #16
	b	118f
349:
	mov	w8, wzr
	adrp	x1, .LTe199b508
	add	x1, x1, :lo12:.LTe199b508
	mov	w22, #28
	b	118f
868:
	mov	w8, wzr
	adrp	x1, .LT4ac7c18d
	add	x1, x1, :lo12:.LT4ac7c18d
	mov	w22, #24
	b	118f
462:
	mov	w8, wzr
	adrp	x1, .LT20d558df
	add	x1, x1, :lo12:.LT20d558df
	mov	w22, #37
	b	118f
583:
	mov	w8, wzr
	adrp	x1, .LT3db31328
	add	x1, x1, :lo12:.LT3db31328
	mov	w22, #19
	b	118f
710:
	mov	w8, wzr
	adrp	x1, .LT97a4dc65
	add	x1, x1, :lo12:.LT97a4dc65
	mov	w22, #36
	b	118f
523:
	mov	w8, wzr
	adrp	x1, .LT4c898d49
	add	x1, x1, :lo12:.LT4c898d49
	mov	w22, #33
	b	118f
190:
	mov	w8, wzr
	adrp	x1, .LTf5153f34
	add	x1, x1, :lo12:.LTf5153f34
	mov	w22, #29
	b	118f
443:
	mov	w8, wzr
	adrp	x1, .LTae2c6a3d
	add	x1, x1, :lo12:.LTae2c6a3d
	mov	w22, #25
	b	118f
14:
	mov	w8, wzr
	adrp	x1, .LTb30c4e51
	add	x1, x1, :lo12:.LTb30c4e51
	mov	w22, #41
	b	118f
595:
	mov	w8, wzr
	adrp	x1, .LT01cec7ba
	add	x1, x1, :lo12:.LT01cec7ba
	b	634f
875:
	mov	w8, wzr
	adrp	x1, .LTc3836849
	add	x1, x1, :lo12:.LTc3836849
	mov	w22, #42
	b	118f
499:
	mov	w8, wzr
	adrp	x1, .LT59e5f42b
	add	x1, x1, :lo12:.LT59e5f42b
	mov	w22, #18
	b	118f
291:
	mov	w8, wzr
	adrp	x1, .LT6b39cd25
	add	x1, x1, :lo12:.LT6b39cd25
	mov	w22, #41
	b	118f
939:
	adrp	x1, .LT11c32282
	add	x1, x1, :lo12:.LT11c32282
	mov	w22, #9
	b	118f
805:
	mov	w8, wzr
	adrp	x1, .LT580251c1
	add	x1, x1, :lo12:.LT580251c1
	mov	w22, #39
	b	118f
452:
	mov	w8, wzr
	adrp	x1, .LTea2f882f
	add	x1, x1, :lo12:.LTea2f882f
	mov	w22, #37
	b	118f
264:
	mov	w8, wzr
	adrp	x1, .LT4b4185f9
	add	x1, x1, :lo12:.LT4b4185f9
	mov	w22, #24
	b	118f
148:
	mov	w8, wzr
	adrp	x1, .LT71a5f666
	add	x1, x1, :lo12:.LT71a5f666
	mov	w22, #19
	b	118f
733:
	mov	w8, wzr
	adrp	x1, .LTa4fd88a6
	add	x1, x1, :lo12:.LTa4fd88a6
	mov	w22, #36
	b	118f
992:
	mov	w8, wzr
	adrp	x1, .LT17fb76fc
	add	x1, x1, :lo12:.LT17fb76fc
634:
	mov	w22, #20
	b	118f
634:
	mov	w8, wzr
	adrp	x1, .LT0052164e
	add	x1, x1, :lo12:.LT0052164e
	mov	w22, #23
	b	118f
610:
	mov	w8, wzr
	adrp	x1, .LTf25b4188
	add	x1, x1, :lo12:.LTf25b4188
	mov	w22, #33
	b	118f
168:
	adrp	x1, .LTe4bd5d69
	add	x1, x1, :lo12:.LTe4bd5d69
	mov	w22, #14
	b	118f
845:
	mov	w8, wzr
	adrp	x1, .LTef9ae52e
	add	x1, x1, :lo12:.LTef9ae52e
	mov	w22, #37
	b	118f
317:
	mov	w8, wzr
	adrp	x1, .LT6c19ea7f
	add	x1, x1, :lo12:.LT6c19ea7f
	mov	w22, #25
	b	118f
859:
	mov	w8, wzr
	adrp	x1, .LTc3e1dd7a
	add	x1, x1, :lo12:.LTc3e1dd7a
	mov	w22, #22
	b	118f
417:
	mov	w8, wzr
	adrp	x1, .LT7e1f4dbf
	add	x1, x1, :lo12:.LT7e1f4dbf
	mov	w22, #33
	b	118f
563:
	mov	w8, wzr
	adrp	x1, .LTd0a9ac08
	add	x1, x1, :lo12:.LTd0a9ac08
	mov	w22, #49
	b	118f
104:
	mov	w8, wzr
	adrp	x1, .LT0f2a07b8
	add	x1, x1, :lo12:.LT0f2a07b8
	mov	w22, #38
	b	118f
189:
	mov	w8, wzr
	adrp	x1, .LT3dc80ff8
	add	x1, x1, :lo12:.LT3dc80ff8
	mov	w22, #28
	b	118f
181:
	mov	w8, wzr
	adrp	x1, .LT1f9aeb32
	add	x1, x1, :lo12:.LT1f9aeb32
	mov	w22, #49
	b	118f
844:
	mov	w8, wzr
	adrp	x1, .LT138712ef
	add	x1, x1, :lo12:.LT138712ef
	mov	w22, #23
	b	118f
680:
	mov	w8, wzr
	adrp	x1, .LT91539c8c
	add	x1, x1, :lo12:.LT91539c8c
	mov	w22, #42
	b	118f
425:
	mov	w8, wzr
	adrp	x1, .LT94255f9a
	add	x1, x1, :lo12:.LT94255f9a
	mov	w22, #23
	b	118f
597:
	mov	w8, wzr
	adrp	x1, .LT3538cb2b
	add	x1, x1, :lo12:.LT3538cb2b
	mov	w22, #38
	b	118f
787:
	mov	w8, wzr
	adrp	x1, .LTdd8444d7
	add	x1, x1, :lo12:.LTdd8444d7
	mov	w22, #17
	b	118f
580:
	mov	w8, wzr
	adrp	x1, .LTacd56a44
	add	x1, x1, :lo12:.LTacd56a44
	mov	w22, #40
	b	118f
830:
	mov	w8, wzr
	adrp	x1, .LTab209b3c
	add	x1, x1, :lo12:.LTab209b3c
	mov	w22, #35
	b	118f
220:
	mov	w8, wzr
	adrp	x1, .LT1f398924
	add	x1, x1, :lo12:.LT1f398924
	mov	w22, #25
	b	118f
201:
	mov	w8, wzr
	adrp	x1, .LTc3e0b8ef
	add	x1, x1, :lo12:.LTc3e0b8ef
	mov	w22, #45
	b	118f
477:
	mov	w8, wzr
	adrp	x1, .LTeb6253d2
	add	x1, x1, :lo12:.LTeb6253d2
	mov	w22, #47
	b	118f
115:
	mov	w8, wzr
	adrp	x1, .LTa48e2876
	add	x1, x1, :lo12:.LTa48e2876
	mov	w22, #18
	b	118f
261:
	mov	w8, wzr
	adrp	x1, .LTcedf9ef2
	add	x1, x1, :lo12:.LTcedf9ef2
	mov	w22, #22
	b	118f
555:
	mov	w8, wzr
	adrp	x1, .LT99c6f716
	add	x1, x1, :lo12:.LT99c6f716
	mov	w22, #31
	b	118f
236:
	mov	w8, wzr
	adrp	x1, .LTe0aca583
	add	x1, x1, :lo12:.LTe0aca583
	mov	w22, #36
	b	118f
915:
	mov	w8, wzr
	adrp	x1, .LT5569709d
	add	x1, x1, :lo12:.LT5569709d
	mov	w22, #24
	b	118f
429:
	mov	w8, wzr
	adrp	x1, .LTbae1953e
	add	x1, x1, :lo12:.LTbae1953e
	mov	w22, #23
	b	118f
413:
	mov	w8, wzr
	adrp	x1, .LTf51ba29c
	add	x1, x1, :lo12:.LTf51ba29c
	mov	w22, #43
	b	118f
87:
	mov	w8, wzr
	adrp	x1, .LT366853d5
	add	x1, x1, :lo12:.LT366853d5
	mov	w22, #33
	b	118f
392:
	mov	w8, wzr
	adrp	x1, .LT90382c6f
	add	x1, x1, :lo12:.LT90382c6f
	mov	w22, #53
	b	118f
916:
	mov	w8, wzr
	adrp	x1, .LT918e64dc
	add	x1, x1, :lo12:.LT918e64dc
	mov	w22, #37
	b	118f
731:
	mov	w8, wzr
	adrp	x1, .LT13107e67
	add	x1, x1, :lo12:.LT13107e67
	mov	w22, #25
	b	118f
865:
	mov	w8, wzr
	adrp	x1, .LT33f7845b
	add	x1, x1, :lo12:.LT33f7845b
	mov	w22, #38
	b	118f
18:
	mov	w8, wzr
	adrp	x1, .LTb4cf770f
	add	x1, x1, :lo12:.LTb4cf770f
	mov	w22, #54
118:
	cmp	x21, x22
	add	x21, x22, #1
	b.ls	234f
	sub	x9, x19, x1
	cmp	x9, x22
	b.hs	808f
	add	x9, x24, x20
	sub	x9, x9, x1
	cmp	x9, #16
	b.hs	480f
	mov	x8, xzr
	b	62f
234:
	mov	w0, #50
	b	592f
808:
	mov	x0, x19
	mov	x2, x22
	bl	memmove
	b	808f
480:
	tbz	w8, #0, 447f
	mov	x8, xzr
	b	234f
447:
	and	x9, x22, #0xc
	and	x8, x22, #0x30
	add	x10, x20, x24
	mov	x11, x1
	and	x12, x22, #0x30
93:
	ldr	q0, [x11], #16
	subs	x12, x12, #16
	str	q0, [x10], #16
	b.ne	93b
	cmp	x22, x8
	b.eq	808f
	cbz	x9, 62f
234:
	mov	x10, x8
	and	x8, x22, #0x3c
	add	x11, x24, x10
	sub	x9, x10, x8
	add	x10, x1, x10
	add	x11, x20, x11
93:
	ldr	w12, [x10], #4
	adds	x9, x9, #4
	str	w12, [x11], #4
	b.ne	93b
	cmp	x22, x8
	b.eq	808f
62:
	add	x10, x24, x8
	sub	x9, x22, x8
	add	x8, x1, x8
	add	x10, x20, x10
602:
	ldrb	w11, [x8], #1
	subs	x9, x9, #1
	strb	w11, [x10], #1
	b.ne	602b
808:
	mov	x0, xzr
	strb	wzr, [x19, x22]
592:
	mov	x1, x21
	ldp	x20, x19, [sp, #64]
	ldp	x22, x21, [sp, #48]
	ldr	x25, [sp, #16]
	ldp	x24, x23, [sp, #32]
	ldp	x29, x30, [sp], #80
	ret
	.size	tcrx_text_at, .-tcrx_text_at
	.section	.rodata.tcrx_text_at,"a",@progbits
	.p2align	1
.LJbcc88025_0:
	.hword	(118b-613b)>>2
	.hword	(613b-613b)>>2
	.hword	(148b-613b)>>2
	.hword	(634b-613b)>>2
	.hword	(875b-613b)>>2
	.hword	(563b-613b)>>2
	.hword	(844b-613b)>>2
	.hword	(610b-613b)>>2
	.hword	(597b-613b)>>2
	.hword	(805b-613b)>>2
	.hword	(425b-613b)>>2
	.hword	(14b-613b)>>2
	.hword	(939b-613b)>>2
	.hword	(181b-613b)>>2
	.hword	(710b-613b)>>2
	.hword	(733b-613b)>>2
	.hword	(462b-613b)>>2
	.hword	(845b-613b)>>2
	.hword	(680b-613b)>>2
	.hword	(477b-613b)>>2
	.hword	(859b-613b)>>2
	.hword	(189b-613b)>>2
	.hword	(220b-613b)>>2
	.hword	(236b-613b)>>2
	.hword	(264b-613b)>>2
	.hword	(452b-613b)>>2
	.hword	(87b-613b)>>2
	.hword	(349b-613b)>>2
	.hword	(915b-613b)>>2
	.hword	(429b-613b)>>2
	.hword	(787b-613b)>>2
	.hword	(168b-613b)>>2
	.hword	(580b-613b)>>2
	.hword	(523b-613b)>>2
	.hword	(868b-613b)>>2
	.hword	(599b-613b)>>2
	.hword	(307b-613b)>>2
	.hword	(32b-613b)>>2
	.hword	(413b-613b)>>2
	.hword	(201b-613b)>>2
	.hword	(499b-613b)>>2
	.hword	(317b-613b)>>2
	.hword	(261b-613b)>>2
	.hword	(187b-613b)>>2
	.hword	(583b-613b)>>2
	.hword	(830b-613b)>>2
	.hword	(865b-613b)>>2
	.hword	(911b-613b)>>2
	.hword	(190b-613b)>>2
	.hword	(595b-613b)>>2
	.hword	(983b-613b)>>2
	.hword	(18b-613b)>>2
	.hword	(731b-613b)>>2
	.hword	(943b-613b)>>2
	.hword	(392b-613b)>>2
	.hword	(916b-613b)>>2
	.hword	(239b-613b)>>2
	.hword	(115b-613b)>>2
	.hword	(443b-613b)>>2
	.hword	(555b-613b)>>2
	.hword	(291b-613b)>>2
	.hword	(417b-613b)>>2
	.hword	(104b-613b)>>2
	.hword	(992b-613b)>>2
	.section	.text.tcrx_write_packet_at,"ax",@progbits
	.globl	tcrx_write_packet_at
	.p2align	2
	.type	tcrx_write_packet_at,@function
tcrx_write_packet_at:
	stp	x29, x30, [sp, #-32]!
	cmp	x1, #0
	mov	w8, #4096
	mov	x11, #280366875148288
	csel	x9, x8, xzr, eq
	cmp	x3, #0
	str	x19, [sp, #16]
	csel	x10, x8, xzr, eq
	tst	x0, x11
	mov	x29, sp
	b.eq	447f
	mov	w8, #22
613:
	mov	w0, w8
	bl	tc_c_base.status.code
	mov	x1, xzr
	mov	w0, w0
	ldr	x19, [sp, #16]
	ldp	x29, x30, [sp], #32
	ret
447:
	and	x8, x0, #0xfffffffffff800
	tst	x8, #0xfffc00000000ffff
	mov	w8, #9
	b.ne	613b
	lsr	w12, w0, #16
	lsr	w11, w12, #14
	cbnz	w11, 613b
	cbz	x2, 983f
	cmp	x2, #16, lsl #12
	b.ls	613f
	mov	w8, #13
	b	613b
983:
	mov	w8, #10
	b	613b
613:
	mov	x11, x1
	add	x1, x2, #6
	cmp	x4, x1
	b.hs	405f
	mov	w0, #50
	ldr	x19, [sp, #16]
	ldp	x29, x30, [sp], #32
	ret
405:
	lsr	x8, x0, #40
	lsr	x13, x0, #32
	lsr	x14, x0, #34
	add	x16, x3, x10
	lsr	x17, x0, #16
	sub	w18, w2, #1
	lsl	w15, w8, #11
	and	w14, w14, #0xc000
	add	x8, x11, x9
	strb	w0, [x16, #1]
	orr	w12, w14, w12
	add	w13, w15, w13, lsl #12
	lsr	w15, w18, #8
	lsr	w12, w12, #8
	strb	w17, [x16, #3]
	orr	w13, w13, w0
	add	x0, x16, #6
	strb	w15, [x16, #4]
	lsr	w13, w13, #8
	sub	x14, x0, x8
	strb	w12, [x16, #2]
	cmp	x14, x2
	strb	w18, [x16, #5]
	strb	w13, [x16]
	b.hs	983f
	cmp	x2, #8
	b.lo	613f
	add	x8, x10, x3
	add	x12, x9, x11
	sub	x8, x8, x12
	add	x8, x8, #6
	cmp	x8, #32
	b.hs	118f
613:
	mov	x8, xzr
62:
	add	x10, x10, x8
	add	x9, x9, x8
	sub	x8, x2, x8
	add	x10, x10, x3
	add	x9, x11, x9
	add	x10, x10, #6
602:
	ldrb	w11, [x9], #1
	subs	x8, x8, #1
	strb	w11, [x10], #1
	b.ne	602b
	b	613f
983:
	mov	x1, x8
	add	x19, x2, #6
	bl	memmove
	mov	x1, x19
613:
	mov	x0, xzr
	ldr	x19, [sp, #16]
	ldp	x29, x30, [sp], #32
	ret
118:
	cmp	x2, #32
	b.hs	316f
	mov	x8, xzr
	b	983f
316:
	add	x13, x9, x11
	add	x14, x10, x3
	and	x12, x2, #0x18
	and	x8, x2, #0x1ffe0
	add	x13, x13, #16
	add	x14, x14, #22
	and	x15, x2, #0x1ffe0
976:
	ldp	q0, q1, [x13, #-16]
	subs	x15, x15, #32
	add	x13, x13, #32
	stp	q0, q1, [x14, #-16]
	add	x14, x14, #32
	b.ne	976b
	cmp	x2, x8
	b.eq	613b
	cbz	x12, 62b
983:
	mov	x12, x8
	and	x8, x2, #0x1fff8
	add	x13, x10, x12
	add	x14, x9, x12
	sub	x12, x12, x8
	add	x15, x13, x3
	add	x13, x11, x14
	add	x14, x15, #6
93:
	ldr	d0, [x13], #8
	adds	x12, x12, #8
	str	d0, [x14], #8
	b.ne	93b
	cmp	x2, x8
	b.ne	62b
	b	613b
	.size	tcrx_write_packet_at, .-tcrx_write_packet_at
	.section	.text.tcrx_write_segment_at,"ax",@progbits
	.globl	tcrx_write_segment_at
	.p2align	2
	.type	tcrx_write_segment_at,@function
tcrx_write_segment_at:
	stp	x29, x30, [sp, #-64]!
	cmp	x4, #0
	mov	w8, #4096
	mov	x11, #280366875148288
	csel	x9, x8, xzr, eq
	cmp	x6, #0
	str	x23, [sp, #16]
	csel	x10, x8, xzr, eq
	tst	x0, x11
	stp	x22, x21, [sp, #32]
	stp	x20, x19, [sp, #48]
	mov	x29, sp
	b.eq	447f
	mov	w8, #22
613:
	mov	w0, w8
	bl	tc_c_base.status.code
	mov	x1, xzr
	mov	w0, w0
	ldp	x20, x19, [sp, #48]
	ldr	x23, [sp, #16]
	ldp	x22, x21, [sp, #32]
	ldp	x29, x30, [sp], #64
	ret
447:
	and	x8, x0, #0xfffc00
	tst	x8, #0xffffffffffc0ffff
	mov	w8, #9
	b.ne	613b
	lsr	x11, x0, #40
	tbnz	w11, #0, 613b
	and	w8, w1, #0xff
	cmp	w8, #63
	b.ls	447f
	mov	w8, #36
	b	613b
447:
	and	w11, w2, #0xffff
	sub	w8, w11, #1019
	cmn	w8, #1018
	b.hs	983f
	mov	w8, #16
	b	613b
983:
	cbz	x5, 983f
	mov	w8, #6
	movk	w8, #1, lsl #16
	cmp	x5, x8
	b.ls	62f
	mov	w8, #14
	b	613b
983:
	mov	w8, #10
	b	613b
62:
	add	w8, w11, w5
	sub	w8, w8, #1
	udiv	w8, w8, w11
	cmp	w8, w3
	b.ls	983f
	cmp	w8, #1
	mov	w12, w3
	mov	w13, w1
	b.ne	625f
	mov	w14, #24
	b	319f
983:
	mov	w8, #17
	b	613b
625:
	sub	x8, x8, #1
	mov	w14, #16
	cmp	x8, x12
	mov	w8, #8
	csel	w8, w14, w8, eq
	cmp	w3, #0
	csel	w14, wzr, w8, eq
319:
	umsubl	x8, w12, w11, x5
	cmp	x11, x8
	csel	x2, x11, x8, lo
	add	x1, x2, #6
	cmp	x7, x1
	b.hs	62f
	mov	w0, #50
	ldp	x20, x19, [sp, #48]
	ldr	x23, [sp, #16]
	ldp	x22, x21, [sp, #32]
	ldp	x29, x30, [sp], #64
	ret
62:
	add	x8, x4, x9
	mov	w15, #64
	add	x19, x6, x10
	umaddl	x8, w12, w11, x8
	movk	w15, #49280, lsl #16
	add	x16, x19, #6
	lsr	w14, w15, w14
	lsr	x20, x0, #32
	sub	x15, x16, x8
	orr	w13, w13, w14
	cmp	x15, x2
	strb	w13, [x19, #5]
	b.hs	983f
	umull	x8, w12, w11
	cmp	x2, #8
	b.lo	613f
	add	x11, x10, x6
	add	x12, x9, x4
	sub	x11, x11, x12
	sub	x11, x11, x8
	add	x11, x11, #6
	cmp	x11, #32
	b.hs	118f
613:
	mov	x11, xzr
62:
	add	x9, x9, x11
	add	x10, x10, x11
	add	x9, x9, x8
	add	x10, x10, x6
	sub	x8, x2, x11
	add	x9, x4, x9
	add	x10, x10, #6
602:
	ldrb	w11, [x9], #1
	subs	x8, x8, #1
	strb	w11, [x10], #1
	b.ne	602b
	b	405f
983:
	mov	x21, x0
	add	x0, x19, #6
	mov	x1, x8
	add	x22, x2, #6
	mov	w23, w3
	bl	memmove
	mov	x1, x22
	mov	w3, w23
	mov	x0, x21
405:
	lsr	w9, w0, #6
	sub	w10, w1, #1
	lsl	w11, w3, #24
	tst	w20, #0x1
	orr	w12, w0, w20, lsl #13
	and	w9, w9, #0xfc00
	csel	w11, wzr, w11, ne
	add	w9, w10, w9
	lsr	w12, w12, #8
	and	w9, w9, #0xff00
	bfxil	w9, w0, #0, #8
	strb	w12, [x19]
	bfi	w9, w10, #16, #8
	add	w10, w11, w0
	mov	x0, xzr
	and	w8, w10, #0xff000000
	orr	w8, w9, w8
	stur	w8, [x19, #1]
	ldp	x20, x19, [sp, #48]
	ldr	x23, [sp, #16]
	ldp	x22, x21, [sp, #32]
	ldp	x29, x30, [sp], #64
	ret
118:
	cmp	x2, #32
	b.hs	316f
	mov	x11, xzr
	b	613f
316:
	add	x13, x9, x8
	add	x14, x10, x6
	and	x12, x2, #0x18
	add	x15, x13, x4
	and	x11, x2, #0x3e0
	add	x13, x14, #22
	add	x14, x15, #16
	and	x15, x2, #0x3e0
976:
	ldp	q0, q1, [x14, #-16]
	subs	x15, x15, #32
	add	x14, x14, #32
	stp	q0, q1, [x13, #-16]
	add	x13, x13, #32
	b.ne	976b
	cmp	x2, x11
	b.eq	405b
	cbz	x12, 62b
613:
	mov	x12, x11
	and	x11, x2, #0x3f8
	add	x13, x9, x12
	add	x14, x10, x12
	sub	x12, x12, x11
	add	x13, x13, x8
	add	x14, x14, x6
	add	x13, x4, x13
	add	x14, x14, #6
93:
	ldr	d0, [x13], #8
	adds	x12, x12, #8
	str	d0, [x14], #8
	b.ne	93b
	cmp	x2, x11
	b.eq	405b
	b	62b
	.size	tcrx_write_segment_at, .-tcrx_write_segment_at
	.section	.text.tcrx_channel_units_at,"ax",@progbits
	.globl	tcrx_channel_units_at
	.p2align	2
	.type	tcrx_channel_units_at,@function
tcrx_channel_units_at:
	ldrb	w8, [x0]
	cmp	w8, #1
	b.ne	613f
	ldr	x11, [x0, #8]
	and	w9, w1, #0xff
	ldr	x12, [x11, #272]
	ldp	x8, x10, [x11, #240]
	cmp	x12, x9
	b.ls	983f
	ldr	x11, [x11, #264]
	ldrh	w9, [x11, x9, lsl #1]
	cmp	x10, x9
	b.ls	187f
	lsl	x11, x9, #6
62:
	add	x8, x8, x11
	mov	x0, xzr
	ldr	x1, [x8, #40]
	ret
613:
	mov	x1, xzr
	mov	w0, #70
	ret
983:
	cbz	x10, 187f
	mov	x11, xzr
335:
	ldrh	w12, [x8, x11]
	cmp	w12, w9
	b.eq	62b
	subs	x10, x10, #1
	add	x11, x11, #64
	b.ne	335b
187:
	mov	x1, xzr
	mov	w0, #73
	ret
	.size	tcrx_channel_units_at, .-tcrx_channel_units_at
	.section	.text.tcrx_rack_candidate_at,"ax",@progbits
	.globl	tcrx_rack_candidate_at
	.p2align	2
	.type	tcrx_rack_candidate_at,@function
tcrx_rack_candidate_at:
	sub	sp, sp, #64
	cmp	x0, #0
	mov	w11, #4096
	stp	x20, x19, [sp, #48]
	csel	x10, x11, xzr, eq
	cmp	x4, #0
	mov	w9, w2
	mov	x2, x1
	csel	x11, x11, xzr, eq
	ands	w12, w3, #0xff
	mov	x19, x8
	stp	x29, x30, [sp, #16]
	add	x29, sp, #16
	stp	x22, x21, [sp, #32]
	b.eq	983f
	cmp	w12, #1
	b.ne	187f
	mov	w8, #1
	cmp	x5, #5
	b.hs	62f
613:
	mov	w0, #1
	b	498f
983:
	mov	w8, wzr
	cmp	x5, #5
	b.lo	613b
62:
	add	x21, x4, x11
	ldrb	w11, [x21]
	cmp	w11, #63
	b.hi	613f
	tst	w11, #0xc
	b.eq	602f
	mov	w0, #3
	b	498f
187:
	mov	w8, wzr
	mov	w20, wzr
	movi	v1.2d, #0000000000000000
	movi	v0.2d, #0000000000000000
	mov	w0, #23
	b	39f
613:
	mov	w0, #2
498:
	bl	tc_c_base.status.code
	movi	v1.2d, #0000000000000000
	mov	w8, wzr
	movi	v0.2d, #0000000000000000
	mov	w20, wzr
39:
	uzp1	v1.8b, v1.8b, v0.8b
	str	w0, [x19]
	stur	d0, [x19, #4]
	ldp	x22, x21, [sp, #32]
	strb	w8, [x19, #16]
	ldp	x29, x30, [sp, #16]
	strb	wzr, [x19, #17]
	str	s1, [x19, #12]
	strh	w20, [x19, #18]
	ldp	x20, x19, [sp, #48]
	add	sp, sp, #64
	ret
602:
	ldrb	w11, [x21, #2]
	ldrb	w12, [x21, #3]
	lsl	w11, w11, #8
	and	w11, w11, #0x300
	orr	w11, w11, w12
	cmp	w11, #5
	b.hs	62f
	mov	w0, #4
	b	498b
62:
	add	w20, w11, #1
	subs	x22, x5, x20
	b.hs	613f
	mov	w0, #5
	b	498b
613:
	mov	x11, x0
	mov	x0, sp
	mov	w3, w9
	add	x1, x11, x10
	mov	x4, x21
	mov	x5, x20
	stp	xzr, xzr, [sp]
	cbz	w8, 498f
	bl	tc_c.rack.bring_checked
	b	93f
498:
	bl	tc_c.rack.bring
93:
	ldr	s0, [sp, #12]
	ldr	w0, [sp]
	cmp	x22, #6
	ushll	v1.8h, v0.8b, #0
	b.hi	983f
	cmp	x22, #5
	b.lo	613f
	add	x8, x21, x20
	ldrb	w9, [x8]
	tst	w9, #0xcccccccc
	b.eq	602f
613:
	mov	w8, wzr
	b	232f
983:
	mov	w8, #1
232:
	ldur	d0, [sp, #4]
	b	39b
602:
	ldrb	w9, [x8, #3]
	ldrb	w8, [x8, #2]
	bfi	w9, w8, #8, #2
	add	w8, w9, #1
	cmp	w9, #4
	ccmp	x22, x8, #0, hi
	cset	w8, hs
	b	232b
	.size	tcrx_rack_candidate_at, .-tcrx_rack_candidate_at
	.section	.text.tcrx_rack_find_at,"ax",@progbits
	.globl	tcrx_rack_find_at
	.p2align	2
	.type	tcrx_rack_find_at,@function
tcrx_rack_find_at:
	cmp	x0, #0
	mov	w9, #4096
	csel	x9, x9, xzr, eq
	cbz	x1, 983f
	add	x10, x9, x0
	mov	x8, x1
	mov	x1, xzr
	and	w9, w2, #0xff
	add	x10, x10, #8
	b	257f
62:
	add	x1, x1, #1
	add	x10, x10, #16
	cmp	x8, x1
	b.eq	613f
257:
	ldurb	w11, [x10, #-8]
	cmp	w11, #1
	b.ne	62b
	ldr	x11, [x10]
	ldrb	w11, [x11]
	cmp	w11, w9
	b.ne	62b
	mov	x0, xzr
	ret
613:
	mov	x1, xzr
983:
	mov	w0, #76
	ret
	.size	tcrx_rack_find_at, .-tcrx_rack_find_at
	.section	.text.tcrx_rack_frame_at,"ax",@progbits
	.globl	tcrx_rack_frame_at
	.p2align	2
	.type	tcrx_rack_frame_at,@function
tcrx_rack_frame_at:
	sub	sp, sp, #32
	cmp	x0, #0
	mov	w10, #4096
	mov	x8, x0
	csel	x11, x10, xzr, eq
	cmp	x4, #0
	mov	w9, w2
	mov	x2, x1
	csel	x10, x10, xzr, eq
	ands	w12, w3, #0xff
	stp	x29, x30, [sp, #16]
	add	x29, sp, #16
	stp	xzr, xzr, [sp]
	b.eq	613f
	cmp	w12, #1
	b.ne	983f
	mov	x0, sp
	add	x1, x8, x11
	add	x4, x4, x10
	mov	w3, w9
	bl	tc_c.rack.bring_checked
	ldp	x0, x1, [sp]
	ldp	x29, x30, [sp, #16]
	add	sp, sp, #32
	ret
613:
	mov	x0, sp
	add	x1, x8, x11
	add	x4, x4, x10
	mov	w3, w9
	bl	tc_c.rack.bring
	ldp	x0, x1, [sp]
	ldp	x29, x30, [sp, #16]
	add	sp, sp, #32
	ret
983:
	mov	w8, #23
	stur	xzr, [sp, #4]
	str	w8, [sp]
	str	wzr, [sp, #12]
	ldp	x0, x1, [sp]
	ldp	x29, x30, [sp, #16]
	add	sp, sp, #32
	ret
	.size	tcrx_rack_frame_at, .-tcrx_rack_frame_at
	.section	.text.tcrx_clcw,"ax",@progbits
	.globl	tcrx_clcw
	.p2align	2
	.type	tcrx_clcw,@function
tcrx_clcw:
	and	w8, w0, #0xff
	sub	w8, w8, #2
	cmp	w8, #252
	mov	w8, #19
	b.hi	598f
	tbnz	w0, #0, 598f
	ubfx	w8, w0, #8, #8
	sub	w9, w8, #1
	cmp	w9, #2
	b.hi	613f
	tst	x0, #0xfc000000
	b.eq	583f
	mov	w8, #21
	b	598f
613:
	mov	w8, #20
	b	598f
583:
	tst	x0, #0xfe00000000
	b.ne	613f
	lsr	x9, x0, #40
	lsr	x10, x0, #48
	orr	w11, w9, w10
	tst	x11, #0xfe
	b.eq	405f
613:
	mov	w8, #22
598:
	stp	x29, x30, [sp, #-16]!
	mov	w0, w8
	mov	x29, sp
	bl	tc_c_base.status.code
	mov	w0, w0
	ldp	x29, x30, [sp], #16
	ret
405:
	lsr	x11, x0, #32
	cmp	w8, #3
	b.eq	887f
	cmp	w8, #2
	b.ne	690f
	and	w8, w9, w10
	tst	x8, #0xff
	mov	w8, #23
	b.eq	598b
	tbz	w11, #0, 447f
	b	598b
887:
	orn	w12, w10, w9
	mov	w8, #23
	tbz	w12, #0, 598b
	tbnz	w11, #0, 447f
	b	598b
690:
	orr	w8, w9, w11
	tst	x8, #0xff
	b.eq	447f
	mov	w8, #23
	b	598b
447:
	and	w8, w1, #0xff
	cmp	w8, #63
	b.ls	447f
	mov	w8, #26
	b	598b
447:
	and	w8, w3, #0xff
	and	w12, w2, #0xff
	orr	w13, w8, w12
	cmp	w13, #1
	b.hi	613b
	ubfiz	w13, w1, #18, #8
	ubfiz	x10, x10, #11, #8
	ubfiz	x9, x9, #12, #8
	orr	w12, w13, w12, lsl #15
	add	w9, w10, w9
	orr	w8, w12, w8, lsl #14
	lsr	w12, w0, #15
	bfxil	w8, w0, #16, #8
	and	w12, w12, #0x600
	orr	w8, w8, w12
	bfi	w8, w11, #13, #1
	orr	w8, w8, #0x1000000
	add	w8, w9, w8
	lsl	x0, x8, #32
	ret
	.size	tcrx_clcw, .-tcrx_clcw
	.section	.text.tcrx_write_frame_at,"ax",@progbits
	.globl	tcrx_write_frame_at
	.p2align	2
	.type	tcrx_write_frame_at,@function
tcrx_write_frame_at:
	stp	x29, x30, [sp, #-32]!
	cmp	x1, #0
	mov	w8, #4096
	mov	x9, #280366875148288
	csel	x10, x8, xzr, eq
	cmp	x3, #0
	str	x19, [sp, #16]
	csel	x11, x8, xzr, eq
	tst	x0, x9
	mov	x29, sp
	b.eq	447f
	mov	w0, #22
	bl	tc_c_base.status.code
	mov	x1, xzr
	mov	w0, w0
	ldr	x19, [sp, #16]
	ldp	x29, x30, [sp], #32
	ret
447:
	and	x8, x0, #0xfffc00
	tst	x8, #0xffffffffffc0ffff
	b.eq	118f
	mov	w0, #9
	bl	tc_c_base.status.code
	mov	x1, xzr
	mov	w0, w0
	ldr	x19, [sp, #16]
	ldp	x29, x30, [sp], #32
	ret
118:
	cbz	x2, 613f
	cmp	x2, #1019
	b.ls	983f
	mov	w0, #11
	bl	tc_c_base.status.code
	mov	x1, xzr
	mov	w0, w0
	ldr	x19, [sp, #16]
	ldp	x29, x30, [sp], #32
	ret
613:
	mov	w0, #10
	bl	tc_c_base.status.code
	mov	x1, xzr
	mov	w0, w0
	ldr	x19, [sp, #16]
	ldp	x29, x30, [sp], #32
	ret
983:
	mov	x12, x1
	add	x1, x2, #5
	cmp	x4, x1
	b.hs	405f
	mov	w0, #50
	ldr	x19, [sp, #16]
	ldp	x29, x30, [sp], #32
	ret
405:
	lsr	x8, x0, #32
	lsr	w9, w0, #6
	lsr	x13, x0, #40
	add	w14, w2, #4
	and	w16, w0, #0xff000000
	and	w9, w9, #0xfc00
	lsl	w8, w8, #13
	add	w9, w14, w9
	and	w15, w9, #0xff00
	add	w9, w8, w13, lsl #12
	add	x13, x3, x11
	bfxil	w15, w0, #0, #8
	add	x8, x12, x10
	orr	w9, w9, w0
	bfi	w15, w14, #16, #8
	lsr	w14, w9, #8
	add	x9, x13, #5
	sub	x17, x9, x8
	orr	w15, w15, w16
	cmp	x17, x2
	strb	w14, [x13]
	stur	w15, [x13, #1]
	b.hs	983f
	cmp	x2, #8
	b.lo	613f
	add	x8, x11, x3
	add	x9, x10, x12
	sub	x8, x8, x9
	add	x8, x8, #5
	cmp	x8, #32
	b.hs	118f
613:
	mov	x8, xzr
62:
	add	x9, x11, x8
	add	x10, x10, x8
	sub	x8, x2, x8
	add	x11, x9, x3
	add	x9, x12, x10
	add	x10, x11, #5
602:
	ldrb	w11, [x9], #1
	subs	x8, x8, #1
	strb	w11, [x10], #1
	b.ne	602b
	b	613f
983:
	mov	x0, x9
	mov	x1, x8
	add	x19, x2, #5
	bl	memmove
	mov	x1, x19
613:
	mov	x0, xzr
	ldr	x19, [sp, #16]
	ldp	x29, x30, [sp], #32
	ret
118:
	cmp	x2, #32
	b.hs	316f
	mov	x8, xzr
	b	983f
316:
	add	x13, x10, x12
	add	x14, x11, x3
	and	x9, x2, #0x18
	and	x8, x2, #0x3e0
	add	x13, x13, #16
	add	x14, x14, #21
	and	x15, x2, #0x3e0
976:
	ldp	q0, q1, [x13, #-16]
	subs	x15, x15, #32
	add	x13, x13, #32
	stp	q0, q1, [x14, #-16]
	add	x14, x14, #32
	b.ne	976b
	cmp	x2, x8
	b.eq	613b
	cbz	x9, 62b
983:
	mov	x9, x8
	and	x8, x2, #0x3f8
	add	x13, x11, x9
	add	x14, x10, x9
	sub	x9, x9, x8
	add	x15, x13, x3
	add	x13, x12, x14
	add	x14, x15, #5
93:
	ldr	d0, [x13], #8
	adds	x9, x9, #8
	str	d0, [x14], #8
	b.ne	93b
	cmp	x2, x8
	b.ne	62b
	b	613b
	.size	tcrx_write_frame_at, .-tcrx_write_frame_at
	.section	.text.tcrx_write_command_at,"ax",@progbits
	.globl	tcrx_write_command_at
	.p2align	2
	.type	tcrx_write_command_at,@function
tcrx_write_command_at:
	and	w9, w0, #0xffff
	cmp	x4, #0
	mov	w10, #4096
	mov	x8, xzr
	csel	x10, x10, xzr, eq
	cmp	w9, #1023
	mov	w9, #10
	b.hi	613f
	and	w11, w1, #0xff
	cmp	w11, #63
	b.hi	613f
	and	w9, w2, #0xff
	add	x8, x4, x10
	cmp	w9, #4
	b.eq	118f
	cmp	w9, #3
	b.ne	983f
	cmp	x5, #6
	b.hs	447f
	mov	w9, #50
	mov	w8, #6
613:
	mov	w0, w9
	mov	x1, x8
	ret
118:
	cmp	x5, #8
	b.hs	192f
	mov	w9, #50
	mov	w8, #8
	mov	w0, w9
	mov	x1, x8
	ret
983:
	mov	x8, xzr
	mov	w9, #19
	mov	w0, w9
	mov	x1, x8
	ret
447:
	and	w10, w0, #0xff
	lsr	w11, w0, #8
	mov	w12, #327680
	orr	w10, w10, w1, lsl #10
	strb	wzr, [x8, #5]
	orr	w11, w11, #0x30
	and	w10, w10, #0x1ffff
	strb	w11, [x8]
	orr	w10, w10, w12
	stur	w10, [x8, #1]
	mov	w8, #6
	mov	w0, wzr
	mov	x1, x8
	ret
192:
	and	w10, w0, #0xff
	lsr	w11, w0, #8
	orr	w10, w10, w1, lsl #10
	mov	w12, #130
	strb	w3, [x8, #7]
	orr	w11, w11, #0x30
	sturh	w12, [x8, #5]
	and	w10, w10, #0x7ffff
	strb	w11, [x8]
	orr	w10, w10, #0x70000
	stur	w10, [x8, #1]
	mov	w8, #8
	mov	w0, wzr
	mov	x1, x8
	ret
	.size	tcrx_write_command_at, .-tcrx_write_command_at
	.section	.text.tcrx_write_tm_at,"ax",@progbits
	.globl	tcrx_write_tm_at
	.p2align	2
	.type	tcrx_write_tm_at,@function
tcrx_write_tm_at:
	stp	x29, x30, [sp, #-80]!
	cmp	x4, #0
	and	w9, w1, #0xff
	mov	w10, #4096
	csel	x10, x10, xzr, eq
	cmp	w9, #1
	str	x25, [sp, #16]
	stp	x24, x23, [sp, #32]
	mov	x29, sp
	stp	x22, x21, [sp, #48]
	stp	x20, x19, [sp, #64]
	b.hi	613f
	tst	x0, #0xfc00
	mov	w9, #9
	b.ne	983f
	lsr	x11, x0, #16
	and	w11, w11, #0xff
	cmp	w11, #7
	b.hi	983f
	tst	w1, #0xff
	mov	w9, #13
	mov	w11, #11
	and	w12, w3, #0xffff
	mov	w8, w1
	csel	x11, x11, x9, eq
	cmp	w12, #2048
	mov	w9, #54
	b.hi	983f
	and	x1, x3, #0xffff
	cmp	x11, x1
	b.hi	983f
	cmp	x5, x1
	b.hs	583f
	mov	w0, #50
	ldp	x20, x19, [sp, #64]
	ldr	x25, [sp, #16]
	ldp	x22, x21, [sp, #48]
	ldp	x24, x23, [sp, #32]
	ldp	x29, x30, [sp], #80
	ret
613:
	mov	w9, #22
983:
	mov	w0, w9
	bl	tc_c_base.status.code
	mov	x1, xzr
	mov	w0, w0
	ldp	x20, x19, [sp, #64]
	ldr	x25, [sp, #16]
	ldp	x22, x21, [sp, #48]
	ldp	x24, x23, [sp, #32]
	ldp	x29, x30, [sp], #80
	ret
583:
	tst	w8, #0xff
	lsr	w8, w0, #15
	add	x21, x4, x10
	lsr	x9, x0, #4
	lsr	x10, x0, #24
	lsr	x11, x0, #32
	orr	w8, w8, w0, lsl #4
	rev	w22, w2
	b.eq	560f
	strb	w9, [x21]
	orr	w8, w8, #0x1
	subs	x20, x1, #12
	mov	w9, #65055
	add	x23, x21, #6
	strb	w10, [x21, #2]
	strb	w11, [x21, #3]
	strb	w8, [x21, #1]
	strh	w9, [x21, #4]
	b.eq	893f
	subs	x19, x1, #13
	b.eq	983f
	add	x0, x21, #6
	mov	x24, x1
	mov	w1, #85
	mov	x2, x19
	mov	w25, #85
	bl	memset
	mov	x1, x24
	strb	w25, [x23, x19]
	b	387f
560:
	strb	w9, [x21]
	orr	w8, w8, #0x1
	mov	w9, #65055
	subs	x19, x1, #11
	add	x20, x21, #6
	strb	w10, [x21, #2]
	strb	w11, [x21, #3]
	strb	w8, [x21, #1]
	strh	w9, [x21, #4]
	b.eq	613f
	mov	x0, x20
	mov	x21, x1
	mov	w1, #85
	mov	x2, x19
	bl	memset
	mov	x1, x21
613:
	mov	w8, #85
	strb	w8, [x20, x19]
	mov	x0, xzr
	add	x8, x20, x1
	stur	w22, [x8, #-10]
	ldp	x20, x19, [sp, #64]
	ldr	x25, [sp, #16]
	ldp	x22, x21, [sp, #48]
	ldp	x24, x23, [sp, #32]
	ldp	x29, x30, [sp], #80
	ret
893:
	str	w22, [x23]
	b	625f
983:
	mov	w8, #85
	strb	w8, [x23]
387:
	str	w22, [x23, x20]
625:
	sub	x8, x1, #2
	mov	w9, #255
	mov	w11, #255
	mov	x12, x21
	sub	x10, x1, #2
602:
	ldrb	w13, [x12]
	ldrb	w14, [x12, #1]
	adrp	x15, .LT48aab116
	add	x15, x15, :lo12:.LT48aab116
	adrp	x16, .LT33c05f58
	add	x16, x16, :lo12:.LT33c05f58
	eor	w11, w13, w11
	ldrb	w13, [x12, #2]
	eor	w9, w14, w9
	and	x11, x11, #0xff
	ldrb	w14, [x12, #3]
	and	x9, x9, #0xff
	ldrh	w11, [x15, x11, lsl #1]
	adrp	x15, .LTbb337a2b
	add	x15, x15, :lo12:.LTbb337a2b
	ldrh	w13, [x15, x13, lsl #1]
	adrp	x15, .LT48c7e4e5
	add	x15, x15, :lo12:.LT48c7e4e5
	ldrh	w9, [x16, x9, lsl #1]
	ldrh	w14, [x15, x14, lsl #1]
	sub	x10, x10, #4
	cmp	x10, #3
	eor	w9, w9, w11
	eor	w11, w13, w14
	add	x13, x12, #4
	eor	w9, w9, w11
	mov	x12, x13
	ubfx	w11, w9, #8, #8
	b.hi	602b
	cbz	x10, 613f
	mov	x11, xzr
602:
	ldrb	w12, [x13, x11]
	and	w14, w9, #0xff00
	subs	x10, x10, #1
	add	x11, x11, #1
	eor	w12, w12, w14, lsr #8
	eor	w12, w12, w12, lsr #4
	orr	w9, w12, w9, lsl #8
	eor	w9, w9, w12, lsl #12
	eor	w9, w9, w12, lsl #5
	b.ne	602b
	ubfx	w11, w9, #8, #8
613:
	mov	x0, xzr
	orr	w9, w11, w9, lsl #8
	strh	w9, [x21, x8]
	ldp	x20, x19, [sp, #64]
	ldr	x25, [sp, #16]
	ldp	x22, x21, [sp, #48]
	ldp	x24, x23, [sp, #32]
	ldp	x29, x30, [sp], #80
	ret
	.size	tcrx_write_tm_at, .-tcrx_write_tm_at
	.section	.text.tcrx_write_cltu_at,"ax",@progbits
	.globl	tcrx_write_cltu_at
	.p2align	2
	.type	tcrx_write_cltu_at,@function
tcrx_write_cltu_at:
	sub	sp, sp, #80
	cmp	x0, #0
	mov	w9, #4096
	sub	x10, x1, #1030
	csel	x8, x9, xzr, eq
	cmp	x2, #0
	stp	x20, x19, [sp, #64]
	mov	x19, x1
	csel	x9, x9, xzr, eq
	cmn	x10, #1030
	stp	x29, x30, [sp, #16]
	add	x29, sp, #16
	stp	x24, x23, [sp, #32]
	stp	x22, x21, [sp, #48]
	b.hi	62f
	cmp	x19, #1029
	mov	w8, #53
	mov	w9, #10
	csel	w8, w8, wzr, hi
	cmp	x19, #0
	csel	w0, w9, w8, eq
	bl	tc_c_base.status.code
	mov	x1, xzr
	mov	w0, w0
	ldp	x20, x19, [sp, #64]
	ldp	x22, x21, [sp, #48]
	ldp	x24, x23, [sp, #32]
	ldp	x29, x30, [sp, #16]
	add	sp, sp, #80
	ret
62:
	add	w10, w19, #6
	mov	w12, #9363
	and	w11, w10, #0xffff
	mul	w11, w11, w12
	lsr	w11, w11, #16
	sub	w10, w10, w11
	add	w10, w11, w10, lsr #1
	lsl	w10, w10, #1
	and	w10, w10, #0xfff8
	add	w10, w10, #10
	and	x1, x10, #0xfffe
	cmp	x3, x1
	b.hs	62f
	mov	w0, #50
	ldp	x20, x19, [sp, #64]
	ldp	x22, x21, [sp, #48]
	ldp	x24, x23, [sp, #32]
	ldp	x29, x30, [sp, #16]
	add	sp, sp, #80
	ret
62:
	add	x21, x2, x9
	adrp	x9, .LT6035a829
	add	x9, x9, :lo12:.LT6035a829
	sub	x9, x21, x9
	add	x20, x0, x8
	mov	w8, #37099
	cmp	x9, #1
	adrp	x23, .LTb4175d02
	add	x23, x23, :lo12:.LTb4175d02
	cmp	x19, #7
	mov	w22, #2
	strh	w8, [x21]
	b.lo	62f
602:
	ldrb	w9, [x20]
	ldrb	w8, [x20, #1]
	sub	x19, x19, #7
	ldrb	w10, [x20, #2]
	ldrb	w11, [x20, #3]
	cmp	x19, #6
	ldrb	w12, [x20, #4]
	ldrb	w13, [x20, #5]
	add	x14, x23, x9
	add	x15, x23, x8
	add	x16, x23, x10
	add	x17, x23, x11
	ldrb	w14, [x14, #1536]
	ldrb	w15, [x15, #1280]
	ldrb	w16, [x16, #1024]
	ldrb	w17, [x17, #768]
	add	x18, x23, x12
	add	x0, x23, x13
	ldrb	w2, [x20, #6]
	ldrb	w18, [x18, #512]
	ldrb	w0, [x0, #256]
	eor	w14, w14, w15
	eor	w15, w16, w17
	ldrb	w16, [x23, x2]
	eor	w14, w14, w15
	eor	w15, w18, w0
	eor	w14, w14, w15
	lsl	x15, x2, #48
	eon	w14, w14, w16
	orr	x14, x15, x14, lsl #57
	orr	x13, x14, x13, lsl #40
	orr	x12, x13, x12, lsl #32
	orr	x11, x12, x11, lsl #24
	orr	x10, x11, x10, lsl #16
	orr	x10, x10, x8, lsl #8
	add	x8, x20, #7
	mov	x20, x8
	orr	x9, x10, x9
	str	x9, [x21, x22]
	add	x22, x22, #8
	b.hi	602b
	mov	x20, x8
	cbz	x19, 316f
62:
	add	x8, sp, #8
	eor	x2, x19, #0x7
	mov	x24, x1
	add	x0, x8, x19
	mov	w1, #85
	bl	memset
	add	x0, sp, #8
	mov	x1, x20
	mov	x2, x19
	bl	memcpy
	ldrb	w8, [sp, #8]
	ldrb	w9, [sp, #9]
	mov	x1, x24
	ldrb	w10, [sp, #10]
	ldrb	w11, [sp, #11]
	ldrb	w12, [sp, #12]
	ldrb	w13, [sp, #13]
	add	x14, x23, x8
	add	x15, x23, x9
	add	x16, x23, x10
	add	x17, x23, x11
	ldrb	w14, [x14, #1536]
	ldrb	w15, [x15, #1280]
	ldrb	w16, [x16, #1024]
	ldrb	w17, [x17, #768]
	add	x18, x23, x12
	add	x0, x23, x13
	ldrb	w2, [sp, #14]
	ldrb	w18, [x18, #512]
	ldrb	w0, [x0, #256]
	eor	w14, w14, w15
	eor	w15, w16, w17
	ldrb	w16, [x23, x2]
	eor	w14, w14, w15
	eor	w15, w18, w0
	eor	w14, w14, w15
	lsl	x15, x2, #48
	eon	w14, w14, w16
	orr	x14, x15, x14, lsl #57
	orr	x13, x14, x13, lsl #40
	orr	x12, x13, x12, lsl #32
	orr	x11, x12, x11, lsl #24
	orr	x10, x11, x10, lsl #16
	orr	x9, x10, x9, lsl #8
	orr	x8, x9, x8
	str	x8, [x21, x22]
	add	x22, x22, #8
316:
	add	x8, x21, x22
	adrp	x9, .LT9296ae30
	add	x9, x9, :lo12:.LT9296ae30
	sub	x9, x8, x9
	cmp	x9, #7
	b.hi	613f
	mov	w9, #50629
	mov	w10, #121
	mov	x0, xzr
	movk	w9, #50629, lsl #16
	strb	w10, [x8, #7]
	stur	w9, [x8, #3]
	str	w9, [x8]
	ldp	x20, x19, [sp, #64]
	ldp	x22, x21, [sp, #48]
	ldp	x24, x23, [sp, #32]
	ldp	x29, x30, [sp, #16]
	add	sp, sp, #80
	ret
613:
	mov	x9, #50629
	mov	x0, xzr
	movk	x9, #50629, lsl #16
	movk	x9, #50629, lsl #32
	movk	x9, #31173, lsl #48
	str	x9, [x8]
	ldp	x20, x19, [sp, #64]
	ldp	x22, x21, [sp, #48]
	ldp	x24, x23, [sp, #32]
	ldp	x29, x30, [sp, #16]
	add	sp, sp, #80
	ret
	.size	tcrx_write_cltu_at, .-tcrx_write_cltu_at
	.section	.rodata..LT48aab116,"a",@progbits
	.p2align	1
.LT48aab116:
	.ascii	"\000\000\264vh\355\334\233\361\312E\274\231'-Q\303\205w\363\253h\037\0362O\2069Z\242\356\324\247\033\023m\317\366{\200V\321\342\247><\212Jd\236\320\350\fs\270\005\225T!\"\375\271I\317N7\372A&\332\222\254\277\375\013\213\327\020cf\215\2629\304\345_Q)|x\310\016\024\225\240\343\351,]Z\201\3015\267\030\346\254\220p\013\304}*\251\236\337BD\3662\333co\025\263\216\007\370\234n(\030\364\203@\365m\244\331\322\005I\261?_\353\353\2357\006\203p\256!\032W\306\314r\272;u\217\003S\230\347\356\312\277~\311\242R\026$\370\360L\206\220\035$k\t:\275La\327\325\241\322Yf/\272\264\016\302#\223\227\345K~\377\b\021\334\245\252y1\315G\340\026T`\210\373<\215uB\3014\035\257\251\331\204\2100\376\354eX\023\266\307\002\261\336*j\\G\r\363{/\340\233\2268\335\214\253P0\344F\311\027}a\241\372\025\214\373XO.\223\265'\303\n\222\276\344b\177\326\t\237\306+\260\367+C]n\f\332z\006\341\262\227\\C\35054\256\200\330\255\211\031\377\305dq\022v\352\302\234\036\007\252q\207 3V\357\315[\273\265o\001\031\335\202i\364D\245\360\323,H\230>\321\361e\207\271\034\rj ;\224MH\326\374\240\022t\246\002z\231\316\357\343\276W\310\213S?%\244\263\020\305\314^x(Uy\341\017=\224\211\342g6\323@\017\333\273\255\226\374\"\212\376\021Jg\003\250\267\336kE\3373\362bF\024\232\217.\371\300-t[\250\300\034\2661\347\205\221Y\n\355|\352\204^\362\202i6\037\033N\2578s\243\307\325)\001\235wA\354\365\232\330\313l\275\260&\004PM\237\371\351%r\221\004\274U\b#\324\270`\316\216\032:l\346\367R\201\177\320\313\246\027=\243K"
	.section	.rodata..LT33c05f58,"a",@progbits
	.p2align	1
.LT33c05f58:
	.ascii	"\000\00007`nPY\300\334\360\353\240\262\220\205\241\251\221\236\301\307\361\360auQB\001\0331,cCSt\003-3\032\243\237\223\250\303\361\363\306\302\352\362\335\242\204\222\263\00262\001bXRo\306\206\366\261\246\350\226\337\006Z6mf4V\003g/W\030\007A7v\247\363\227\304\307\235\367\252\245\305\225\362\305\253\365\234e\031U.\005w5@\004l4[d\002T5\304\260\364\207\244\336\224\351\255\035\235*\315s\375Dm\301]\366\r\257=\230\f\264<\203l\332\\\355\314h\374_\254\006\2341\316^\376i\2560\236\007\016\202>\265n\354^\333o\367_\300\017\231?\256\257+\237\034\317E\377rk\233[\254\013\365;\302\253G\233p\313)\373\036\3122\372\005\252\\\232k\n\356:\331j\200Z\267\b\3308\357h\266X\201\310\004\3703\250j\230]\251q\231F\311\037\371(i\255Y\232\t\3039\364Z;j\f:U\nb\232\347\252\320\372\211\312\276\373\222\313\245\233\374\253\313;N\013y[ k\0279x\tOY\026i!\371\244\311\223\231\312\251\375\230\321\250\346\370\277\310\210X\rh:8c\bT\234\275\254\212\374\323\314\344\\alV<\017\f8=\024\r#]zmM\375\310\315\377\235\246\255\221\377\376\317\311\237\220\257\247?\"\017\025_Lo{^Wn`>9\016\016\236\213\256\274\376\345\316\322\367&\307\021\227H\247\1777\372\007\315W\224g\243V\217f\2706\341\006\326\226S\246d\366=\306\n\224e\244R\364\013\304<T\271d\2164\327\004\3405\314\005\373U\242e\225\365\020\305'\225~\245I1\240\001\227Q\316a\371\361|\301K\221\022\241%\220\t\240>\360g\300PP\325`\3420\273\000\214R\343b\3242\215\002\272\222?\242\b\362Q\302f\363J\303}\223$\243\0233\226\003\241S\370c\317"
	.section	.rodata..LTbb337a2b,"a",@progbits
	.p2align	1
.LTbb337a2b:
	.ascii	"\000\00013bfSU\304\314\365\377\246\252\227\231\251\211\230\272\313\357\372\334mE\\v\017#>\020s\003B0\021e V\267\317\206\374\325\251\344\232\332\212\353\271\270\354\211\337\036F/u| M\023\346\006\3275\204`\265S\"\312\023\371@\254q\237O\217~\274-\351\034\332\213C\272p\351%\330\026\225\005\2446\367c\306PQ\311`\3723\257\002\234<\214\r\277^\352o\331\370@\311s\232&\253\025\314\r\375>\256k\237X\b\3019\362j\247[\224e\204T\267\007\3426\321\241H\220{\303.\362\035\277\016\216=\335h\354[{\302J\361\031\244(\227\026\207'\264t\341E\322\322K\343x\260-\201\036*\013\0338Hmy^\356\307\337\364\214\241\275\222\203\202\262\261\341\344\320\327GNv}%(\024\033Y\bh;;n\n]\235\304\254\367\377\242\316\221\360\201\301\262\222\347\243\3244M\005~V+g\030\230\033\251(\372}\313N\\\327m\344>\261\017\2021\222\000\241S\364b\307\365^\304m\2278\246\013\353\030\332+\211~\270M/\324\036\347M\262|\201B\221s\242 \367\021\304\206]\267n\344;\325\b~\035O.\034{-H\272\321\213\342\330\267\351\204\327\224\346\247\265\362\204\301\023X\"kq>@\r\r\036<-ox^K\311\322\370\341\253\264\232\207\244\227\225\244\306\361\367\302`[Qh\002=3\016T\026e%6p\007C\220\332\241\351\362\274\303\217\375\237\314\254\237\371\256\3129S\b`[5j\006'\025\026&Est@\343\331\322\352\201\277\260\214\216\234\277\257\354\372\335\311JP{c(6\031\005\262\020\203#\320v\341Ev\334G\357\024\272%\211\033\231*\252y\377H\314\337U\356f\2753\214\000\301\023\360 \243u\222F\005\3374\354g\271V\212h\232Y\251\n\374;\317\254V\235e\3160\377\003"
	.section	.rodata..LT48c7e4e5,"a",@progbits
	.p2align	1
.LT48c7e4e5:
	.ascii	"\000\000!\020B c0\204@\245P\306`\347p\b\201)\221J\241k\261\214\301\255\321\316\341\357\3611\022\020\002s2R\"\265R\224B\367r\326b9\223\030\203{\263Z\243\275\323\234\303\377\363\336\343b$C4 \004\001\024\346d\307t\244D\205Tj\245K\265(\205\t\225\356\345\317\365\254\305\215\325S6r&\021\0260\006\327v\366f\225V\264F[\267z\247\031\2278\207\337\367\376\347\235\327\274\307\304H\345X\206h\247x@\ba\030\002(#8\314\311\355\331\216\351\257\371H\211i\231\n\251+\271\365Z\324J\267z\226jq\032P\n3:\022*\375\333\334\313\277\373\236\353y\233X\213;\273\032\253\246l\207|\344L\305\\\",\003<`\fA\034\256\355\217\375\354\315\315\335*\255\013\275h\215I\235\227~\266n\325^\364N\023>2.Q\036p\016\237\377\276\357\335\337\374\317\033\277:\257Y\237x\217\210\221\251\201\312\261\353\241\f\321-\301N\361o\341\200\020\241\000\3020\343 \004P%@Fpg`\271\203\230\223\373\243\332\263=\303\034\323\177\343^\363\261\002\220\022\363\"\32225B\024RwbVr\352\265\313\245\250\225\211\205n\365O\345,\325\r\305\3424\303$\240\024\201\004ftGd$T\005D\333\247\372\267\231\207\270\227_\347~\367\035\307<\327\323&\3626\221\006\260\026Wfvv\025F4VL\331m\311\016\371/\351\310\231\351\211\212\271\253\251DXeH\006x'h\300\030\341\b\2028\243(}\313\\\333?\353\036\373\371\213\330\233\273\253\232\273uJTZ7j\026z\361\n\320\032\263*\222:.\375\017\355l\335M\315\252\275\213\255\350\235\311\215&|\007ld\\EL\242<\203,\340\034\301\f\037\357>\377]\317|\337\233\257\272\277\331\217\370\237\027n6~UNt^\223.\262>\321\016\360\036"
	.section	.rodata..LTddd25b9b,"a",@progbits
	.p2align	3
.LTddd25b9b:
	.asciz	"\000\000\000\000\000\000\000\000\000\000\000\000\000\000\000\002\000\000\000\000\000\000\000\004\000\000\000\000\000\000\000\000\000\000\000\000\000\000\000\b\000\000\000\000\000\000\000\000\000\000\000\000\000\000\000\000\000\000\000\000\b\000\000\000\000\000\000\000\000\000\000\020\000\000\000\000\000\000\000\000\000\000\000\000\000\000\000\000\000\000\000\020\000\000\000\000\000\000\000\000\000\000\000\000\000\002\000\000\000\000\000\000\000\000\000\000\020\000\000\000\000\000\000\000\000\000\000\000\000\000\000\000\000\000\000 \000\000\000\000\000\000\000\000\000\000\000\000\000\000\000\000\000\000\000\000\000\002\000\000\000\000\000\000\000\000\000\000\000 \000\000\000\000\000\000\000\000\000 \000\000\000\000\000\000\000\000\000\000\000\000\000\000\000\000\000\000\000\000\000\000@\000\000\000\000\000\000\004\000\000\000\000\000\000\000\000\000\000\000\000\000\000\000\000\000\000 \000\000\000\000\000\000\000\000\000\000\000\000\000\000\000\000\000\000\000\002\000\000\000\000\000\000\000\000\000\000\000\000\000\000@\000\000\000\000\000\000\000\000\000\000\000\000\000\000\000\000\000\000\000\000\000\000\020\000\000\000\000\000\000\000\000\000\000\000\000\001\000\000\000\000\000\000\000\000\000\004\000\000\000\000\000\000\000\000\000\000\000\000\000\000\000\000\000\000\000\000\000\000\001\000\000\000\000@\000\000\000\000\000\000\000\000\000\000\000\000\000\000\000\000\000@\000\000\000\000\000\000\000\000\000\000\000\000\000\000\000\000\000\000\000\000\000\000\002\000\000\000\000\000\000\000\000\000\000\000\000\000@\000\000\000\000\000\000\000\000\000\200\000\000\000\000\000\000\000\000\000\000\000\000\000\000\b\000\000\000\000\000\000\000\000\000\000\000\000\000\000\000\000\000\000\000\000\000\000\000\000\020\000\000\000\000\000\000\000\000\000@\000\000\000\000\000\000\000\000\000\000\000\000\000\000\000\000\000\000\000\000\000\000\000\000@\000\000\000\000\000\000\000\000\000\000\020\000\000\000\000\000\000\000\004\000\000\000\000\000\000\000\000\000\000\000\000\000\000\000\000\000\000\000\000\000\000\200\000\000\000\000\000\000\000\000\000\000\000\000\000\000\000\000\000\000\000\000\000\000\000\000\000\000\000\000\000\000\000\000\000\000\000\000\000\000\001\000\000\000\000\000\000\000 \000\000\000\000\000\000\000\000\000\000\000\000\000\000\000\000\000\000\000\000\000\000\000@\000\000\000\000\002\000\000\000\000\000\000\000\000\000\000\000\000\000\000\000\000\000\b\000\000\000\000\000\000\000\000\000\000\000\000\000\000\000\000\000\000\000\000\000\000\000\000\002\000\000\000\000\000\000\000\000\000\000\000\000\004\000\000\000\000\000\000\000\000\002\000\000\000\000\000\000\000\000\000\000\000\000\200\000\000\000\000\000\000\000\000\000\000\000\000\000\000\000\000\000\000\000\000\000\000\000\000\000\000\000\000\200\000\000\000\000\200\000\000\000\000\000\000\000\000\000\000\000\000\000\000\000\000\000\000\000\000\000\000\000\000\000\000\004\000\000\000\000\000\000\000\000\000\000\000\000\000\000\020\000\000\000\000\004\000\000\000\000\000\000\000\000\000\000\000\000\000\000\000\000\000\000\000\000\000\000\000\000\000\004\000\000\000\200\000\000\000\000\000\000\000\000\000\000\000\000\000\000\000\000\001\000\000\000\000\000\000\000\000\000\000\000\000\000\000\000\000\000\000\000\000\000\000\000\000\000\b\000\000\000\000\000\020\000\000\000\000\000\000\000\000\000\000\000\000\000\000\000\000\000\000\000\000\000\000\000\000\000\000\000\001\000\000\000\000\000\000\000\000\000\000\001\000\000\000\000\000\000\000\000\000 \000\000\000\000\000\000\000\000\000\000\000\000\000\000\000\000\000\200\000\000\000\000\000\000\000\000\000\000\000\000\000\000\000\000\000\000\000\000\000\000\000\000\000\b\000\000\000\000\000\000\000\000\000\000\000\001\000\000\000\000\000\000\000\000\000\000\200\000\000\000\000\000\000\000\000\000\000\000\000\000\000\000\000\000\000\000\000\b\000\000\000\000\000 \000\000\000\000\000\000\000\000\000\000\000\000\000\000\000\b\000\000\000\000\000\000\000\000\000\000\000\000\000\000\000\000\000\000\000\000\000\000\000\000\000\000\000\000 \000"
	.section	.rodata..LTb4175d02,"a",@progbits
.LTb4175d02:
	.ascii	"\000EO\n[\036\024Qs6<y(mg\"#fl)x=7rP\025\037Z\013ND\001F\003\tL\035XR\0275pz?n+!de *o>{q4\026SY\034M\b\002GI\f\006C\022W]\030:\177u0a$.kj/%`1t~;\031\\V\023B\007\rH\017J@\005T\021\033^|93v'bh-,ic&w28}_\032\020U\004AK\016W\022\030]\fIC\006$ak.\177:0ut1;~/j`%\007BH\r\\\031\023V\021T^\033J\017\005@b'-h9|v32w}8i,&cA\004\016K\032_U\020\036[Q\024E\000\nOm(\"g6sy<=xr7f#)lN\013\001D\025PZ\037X\035\027R\003FL\t+nd!p5?z{>4q eo*\bMG\002S\026\034Y\000k\023x&M5^L'_4j\001y\022]6N%{\020h\003\021z\002i7\\$O\177\024l\007Y2J!3X K\025~\006m\"I1Z\004o\027|n\005}\026H#[0;P(C\035v\016ew\034d\017Q:B)f\ru\036@+S8*A9R\fg\037tD/W<b\tq\032\bc\033p.E=V\031r\na?T,GU>F-s\030`\013v\035e\016P;C(:Q)B\034w\017d+@8S\rf\036ug\ft\037A*R9\tb\032q/D<WE.V=c\bp\033T?G,r\031a\n\030s\013`>U-FM&^5k\000x\023\001j\022y'L4_\020{\003h6]%N\\7O$z\021i\0022Y!J\024\177\007l~\025m\006X3K o\004|\027I\"Z1#H0[\005n\026}\000)R{aH3\032\007.U|fO4\035\016'\\uoF=\024\t [rhA:\023\0345Ng}T/\006\0332I`zS(\001\022;@isZ!\b\025<Gnt]&\0178\021jCYp\013\"?\026mD^w\f%6\037dMW~\005,1\030cJPy\002+$\rv_El\027>#\nqXBk\0209*\003xQKb\0310-\004\177VLe\0367pY\"\013\0218Cjw^%\f\026?Dm~W,\005\0376MdyP+\002\0301JclE>\027\r$_vkB9\020\n#XqbK0\031\003*QxeL7\036\004-V\177Ha\0323)\000{ROf\0354.\007|UFo\024='\016u\\Ah\023: \tr[T}\006/5\034gNSz\001(2\033`IZs\b!;\022i@]t\017&<\025nG\000%JoQt\033>gB-\b6\023|Y\013.AdZ\177\0205lI&\003=\030wR\0263\\yGb\r(qT;\036 \005jO\0358WrLi\006#z_0\025+\016aD,\tfC}X7\022Kn\001$\032?Pu'\002mHvS<\031@e\n/\0214[~:\037pUkN!\004]x\0272\f)Fc1\024{^`E*\017Vs\0349\007\"MhX}\0227\t,Cf?\032uPnK$\001Sv\031<\002'Hm4\021~[e@/\nNk\004!\037:Up)\fcFx]2\027E`\017*\0241^{\"\007hMsV9\034tQ>\033%\000oJ\0236Y|Bg\b-\177Z5\020.\013dA\030=RwIl\003&bG(\r3\026y\\\005 OjTq\036;iL#\0068\035rW\016+Da_z\0250\000u/Z^+q\004y\fV#'R\b}7B\030mi\034F3N;a\024\020e?Jn\033A40E\037j\027b8MI<f\023Y,v\003\007r(] U\017z~\013Q$\031l6CG2h\035`\025O:>K\021d.[\001tp\005_*W\"x\r\t|&Sw\002X-)\\\006s\016{!TP%\177\n@5o\032\036k1D9L\026cg\022H=2G\035hl\031C6K>d\021\025`:O\005p*_[.t\001|\tS&\"W\rx\\)s\006\002w-X%P\n\177{\016T!k\036D15@\032o\022g=HL9c\026+^\004qu\000Z/R'}\b\fy#V\034i3FB7m\030e\020J?;N\024aE0j\037\033n4A<I\023fb\027M8r\007](,Y\003v\013~$QU z\017\000d\ri\032~\027s4P9].J#Gh\fe\001r\026\177\033\\8Q5F\"K/\025q\030|\017k\002f!E,H;_6R}\031p\024g\003j\016I-D S7^:*N'C0T=Y\036z\023w\004`\tmB&O+X<U1v\022{\037l\ba\005?[2V%A(L\013o\006b\021u\034xW3Z>M)@$c\007n\ny\035t\020T0Y=N*C'`\004m\tz\036w\023<X1U&B+O\bl\005a\022v\037{A%L([?V2u\021x\034o\013b\006)M$@3W>Z\035y\020t\007c\nn~\032s\027d\000i\rJ.G#P4]9\026r\033\177\fh\001e\"F/K8\\5Qk\017f\002q\025|\030_;R6E!H,\003g\016j\031}\024p7S:^-I D\000m\037r>S!L|\021c\016B/]0=P\"O\003n\034qA,^3\177\022`\rz\027e\bD)[6\006k\031t8U'JG*X5y\024f\013;V$I\005h\032w1\\.C\017b\020}M R?s\036l\001\fa\023~2_-@p\035o\002N#Q<K&T9u\030j\0077Z(E\td\026{v\033i\004H%W:\ng\025x4Y+Fb\017}\020\\1C.\036s\001l M?R_2@-a\f~\023#N<Q\035p\002o\030u\007j&K9Td\t{\026Z7E(%H:W\033v\004iY4F+g\nx\025S>L!m\000r\037/B0]\021|\016cn\003q\034P=O\"\022\177\r`,A3^)D6[\027z\beU8J'k\006t\031\024y\013f*G5Xh\005w\032V;I$"
	.section	.rodata.cst8,"aM",@progbits,8
.LT9296ae30:
	.ascii	"\305\305\305\305\305\305\305y"
	.section	.rodata..LT6035a829,"a",@progbits
.LT6035a829:
	.ascii	"\353\220"
	.section	.rodata..LT359fb368,"a",@progbits
.LT359fb368:
	.ascii	"\000J\225\337`*\365\277\300\212U\037\240\3525\177\312\200_\025\252\340?u\n@\237\325j \377\265\336\224K\001\276\364+a\036T\213\301~4\353\241\024^\201\313t>\341\253\324\236A\013\264\376!k\367\275b(\227\335\002H7}\242\350W\035\302\210=w\250\342]\027\310\202\375\267h\"\235\327\bB)c\274\366I\003\334\226\351\243|6\211\303\034V\343\251v<\203\311\026\\#i\266\374C\t\326\234\245\3570z\305\217P\032e/\360\272\005O\220\332o%\372\260\017E\232\320\257\345:p\317\205Z\020{1\356\244\033Q\216\304\273\361.d\333\221N\004\261\373$n\321\233D\016q;\344\256\021[\204\316R\030\307\2152x\247\355\222\330\007M\362\270g-\230\322\rG\370\262m'X\022\315\2078r\255\347\214\306\031S\354\246y3L\006\331\223,f\271\363F\f\323\231&l\263\371\206\314\023Y\346\254s9"
	.section	.rodata..LTbb19773e,"a",@progbits
.LTbb19773e:
	.ascii	"\000\001\002\003\004\005\006\007\b\t\n\013\f\r\016\017\020\021\022\023\024\025\026\027\030\031\032\033\034\035\036\037 !\"#$%&'()*+,-./0123456789:;<=>?"
	.section	.rodata.cst4,"aM",@progbits,4
.LTfab3cca2:
	.ascii	"done"
	.section	.rodata..LT8f6839ec,"a",@progbits
.LT8f6839ec:
	.ascii	"fewer than 5 octets"
	.section	.rodata..LT71a5f666,"a",@progbits
.LT71a5f666:
	.ascii	"the version isn't 0"
	.section	.rodata..LT0052164e,"a",@progbits
.LT0052164e:
	.ascii	"the spare bits aren't 0"
	.section	.rodata..LTc3836849,"a",@progbits
.LTc3836849:
	.ascii	"the frame length names fewer than 6 octets"
	.section	.rodata..LTd0a9ac08,"a",@progbits
.LTd0a9ac08:
	.ascii	"the frame length names more octets than there are"
	.section	.rodata..LT138712ef,"a",@progbits
.LT138712ef:
	.ascii	"octets follow the frame"
	.section	.rodata..LTf25b4188,"a",@progbits
.LTf25b4188:
	.ascii	"the frame has fewer than 8 octets"
	.section	.rodata..LT3538cb2b,"a",@progbits
.LT3538cb2b:
	.ascii	"the frame error control field is wrong"
	.section	.rodata..LT580251c1,"a",@progbits
.LT580251c1:
	.ascii	"a field of the header is over its bound"
	.section	.rodata..LT94255f9a,"a",@progbits
.LT94255f9a:
	.ascii	"the data field is empty"
	.section	.rodata..LTb30c4e51,"a",@progbits
.LTb30c4e51:
	.ascii	"the data field has more than 1,019 octets"
	.section	.rodata..LT11c32282,"a",@progbits
.LT11c32282:
	.ascii	"no memory"
	.section	.rodata..LT1f9aeb32,"a",@progbits
.LT1f9aeb32:
	.ascii	"the packet data field has more than 65,536 octets"
	.section	.rodata..LT97a4dc65,"a",@progbits
.LT97a4dc65:
	.ascii	"the unit has more than 65,542 octets"
	.section	.rodata..LTa4fd88a6,"a",@progbits
.LTa4fd88a6:
	.ascii	"the frame has more than 1,022 octets"
	.section	.rodata..LT20d558df,"a",@progbits
.LT20d558df:
	.ascii	"a segment isn't for 1 to 1,018 octets"
	.section	.rodata..LTef9ae52e,"a",@progbits
.LTef9ae52e:
	.ascii	"the unit has no segment at that place"
	.section	.rodata..LT91539c8c,"a",@progbits
.LT91539c8c:
	.ascii	"the command is neither Unlock nor Set V(R)"
	.section	.rodata..LTeb6253d2,"a",@progbits
.LTeb6253d2:
	.ascii	"the width of the window isn't even and 2 to 254"
	.section	.rodata..LTc3e1dd7a,"a",@progbits
.LTc3e1dd7a:
	.ascii	"the state isn't 1 to 3"
	.section	.rodata..LT3dc80ff8,"a",@progbits
.LT3dc80ff8:
	.ascii	"the FARM-B counter is over 3"
	.section	.rodata..LT1f398924,"a",@progbits
.LT1f398924:
	.ascii	"a flag is neither 0 nor 1"
	.section	.rodata..LTe0aca583,"a",@progbits
.LTe0aca583:
	.ascii	"the flags don't agree with the state"
	.section	.rodata..LT4b4185f9,"a",@progbits
.LT4b4185f9:
	.ascii	"the arrival isn't 1 to 6"
	.section	.rodata..LTea2f882f,"a",@progbits
.LTea2f882f:
	.ascii	"in S2 no expected AD frame finds room"
	.section	.rodata..LT366853d5,"a",@progbits
.LT366853d5:
	.ascii	"the virtual channel id is over 63"
	.section	.rodata..LTe199b508,"a",@progbits
.LTe199b508:
	.ascii	"the word is no CLCW of COP-1"
	.section	.rodata..LT5569709d,"a",@progbits
.LT5569709d:
	.ascii	"no whole packet is there"
	.section	.rodata..LTbae1953e,"a",@progbits
.LTbae1953e:
	.ascii	"the buffer is too short"
	.section	.rodata..LTdd8444d7,"a",@progbits
.LTdd8444d7:
	.ascii	"a pointer is null"
	.section	.rodata..LTe4bd5d69,"a",@progbits
.LTe4bd5d69:
	.ascii	"no such status"
	.section	.rodata..LTacd56a44,"a",@progbits
.LTacd56a44:
	.ascii	"the buffer isn't for 1 to 64 data fields"
	.section	.rodata..LT4c898d49,"a",@progbits
.LT4c898d49:
	.ascii	"the APID of a queue is over 2,046"
	.section	.rodata..LT4ac7c18d,"a",@progbits
.LT4ac7c18d:
	.ascii	"two queues have one APID"
	.section	.rodata..LT46e62e51,"a",@progbits
.LT46e62e51:
	.ascii	"a queue isn't for 1 to 256 packets"
	.section	.rodata.cst16,"aM",@progbits,16
.LTd55d72f1:
	.ascii	"a MAP is over 63"
	.section	.rodata..LTfbebc291,"a",@progbits
.LTfbebc291:
	.ascii	"a MAP is chosen twice"
	.section	.rodata..LTf51ba29c,"a",@progbits
.LTf51ba29c:
	.ascii	"the queue of a MAP isn't for 1 to 256 units"
	.section	.rodata..LTc3e0b8ef,"a",@progbits
.LTc3e0b8ef:
	.ascii	"a channel without segment headers has no MAPs"
	.section	.rodata..LT59e5f42b,"a",@progbits
.LT59e5f42b:
	.ascii	"no channel is held"
	.section	.rodata..LT6c19ea7f,"a",@progbits
.LT6c19ea7f:
	.ascii	"a channel is held already"
	.section	.rodata..LTcedf9ef2,"a",@progbits
.LTcedf9ef2:
	.ascii	"no queue has that APID"
	.section	.rodata..LT290ea87a,"a",@progbits
.LT290ea87a:
	.ascii	"that MAP isn't chosen"
	.section	.rodata..LT3db31328,"a",@progbits
.LT3db31328:
	.ascii	"nothing waits there"
	.section	.rodata..LTab209b3c,"a",@progbits
.LTab209b3c:
	.ascii	"the frame is for another spacecraft"
	.section	.rodata..LT33f7845b,"a",@progbits
.LT33f7845b:
	.ascii	"no channel has that virtual channel id"
	.section	.rodata..LTe06be31d,"a",@progbits
.LTe06be31d:
	.ascii	"the limit of the other MAPs is out of its range"
	.section	.rodata..LTf5153f34,"a",@progbits
.LTf5153f34:
	.ascii	"the MAP of a limit is over 63"
	.section	.rodata..LT01cec7ba,"a",@progbits
.LT01cec7ba:
	.ascii	"a MAP has two limits"
	.section	.rodata..LT9ca90559,"a",@progbits
.LT9ca90559:
	.ascii	"the limit of a MAP isn't 1 to 65,542 octets"
	.section	.rodata..LTb4cf770f,"a",@progbits
.LTb4cf770f:
	.ascii	"a channel without segment headers has no limits by MAP"
	.section	.rodata..LT13107e67,"a",@progbits
.LT13107e67:
	.ascii	"a chosen MAP has no limit"
	.section	.rodata..LTfe3338ef,"a",@progbits
.LTfe3338ef:
	.ascii	"a CLTU carries at most 1,029 octets"
	.section	.rodata..LT90382c6f,"a",@progbits
.LT90382c6f:
	.ascii	"the telemetry frame isn't of 11 or 13 to 2,048 octets"
	.section	.rodata..LT918e64dc,"a",@progbits
.LT918e64dc:
	.ascii	"there is no operational control field"
	.section	.rodata..LT3658ec33,"a",@progbits
.LT3658ec33:
	.ascii	"no decoder of CLTUs has that record"
	.section	.rodata..LTa48e2876,"a",@progbits
.LTa48e2876:
	.ascii	"no session is held"
	.section	.rodata..LTae2c6a3d,"a",@progbits
.LTae2c6a3d:
	.ascii	"a session is held already"
	.section	.rodata..LT99c6f716,"a",@progbits
.LT99c6f716:
	.ascii	"the spacecraft id is over 1,023"
	.section	.rodata..LT6b39cd25,"a",@progbits
.LT6b39cd25:
	.ascii	"the lines end here, and the text says why"
	.section	.rodata..LT7e1f4dbf,"a",@progbits
.LT7e1f4dbf:
	.ascii	"the text of an earlier call waits"
	.section	.rodata..LT0f2a07b8,"a",@progbits
.LT0f2a07b8:
	.ascii	"no memory for an answer, which is lost"
	.section	.rodata..LT17fb76fc,"a",@progbits
.LT17fb76fc:
	.ascii	"the lines have ended"
	.section	.rodata..Lswitch.table.tc_c_base.status.code,"a",@progbits
	.p2align	2
.Lswitch.table.tc_c_base.status.code:
	.word	0
	.word	1
	.word	2
	.word	3
	.word	4
	.word	5
	.word	6
	.word	7
	.word	8
	.word	10
	.word	11
	.word	12
	.word	13
	.word	14
	.word	15
	.word	16
	.word	17
	.word	18
	.word	19
	.word	20
	.word	21
	.word	22
	.word	23
	.word	24
	.word	25
	.word	26
	.word	30
	.word	31
	.word	40
	.word	50
	.word	51
	.word	52
	.word	60
	.word	61
	.word	62
	.word	63
	.word	64
	.word	65
	.word	66
	.word	67
	.word	70
	.word	71
	.word	72
	.word	73
	.word	74
	.word	75
	.word	76
	.word	80
	.word	81
	.word	82
	.word	83
	.word	84
	.word	85
	.word	90
	.word	91
	.word	92
	.word	93
	.word	100
	.word	101
	.word	102
	.word	103
	.word	104
	.word	105
	.word	106
	.section	.rodata..Lswitch.table.tcrx_storage_at,"a",@progbits
	.p2align	2
.Lswitch.table.tcrx_storage_at:
	.ascii	"\032\023 !\"#$%&'\f"
	.section	".note.GNU-stack","",@progbits
