	.section	.text.unlikely.std_alloc.vec.Vec.grow_amortized._e46d560dfcddf60e,"ax",@progbits
	.p2align	2
std_alloc.vec.Vec.grow_amortized._e46d560dfcddf60e:
	ldr	x8, [x0, #8]
	cmn	x8, x1
	b.lo	598f
	mov	w0, wzr
	ret
598:
	stp	x29, x30, [sp, #-32]!
	ldr	x10, [x0, #16]
	add	x9, x8, x1
	mov	w11, #8
	cmp	x9, #8
	stp	x20, x19, [sp, #16]
	mov	x29, sp
	lsl	x12, x10, #1
	csel	x11, x9, x11, hi
	lsr	x13, x10, #62
	cmp	x11, x12
	csel	x9, x11, x12, hi
	cmp	x13, #0
	csel	x19, x9, x11, eq
	tbnz	x19, #63, 187f
	cbz	x10, 983f
	mov	x20, x0
	ldr	x0, [x0]
	mov	x1, x8
	mov	x2, x19
	mov	w3, #1
	bl	rattle_realloc
	tbz	w0, #0, 187f
613:
	mov	w0, #1
	str	x1, [x20]
	str	x19, [x20, #16]
	ldp	x20, x19, [sp, #16]
	ldp	x29, x30, [sp], #32
	ret
983:
	mov	x20, x0
	mov	x0, x9
	mov	w1, #1
	bl	rattle_alloc
	tbnz	w0, #0, 613b
187:
	mov	w0, wzr
	ldp	x20, x19, [sp, #16]
	ldp	x29, x30, [sp], #32
	ret
	.section	.rodata.cst16,"aM",@progbits,16
	.p2align	4
.LCa9983fb3_0:
	.xword	7310596056926023526
	.xword	3346860010425884786
	.section	.rodata.cst8,"aM",@progbits,8
	.p2align	3
.LCa9983fb3_1:
	.hword	2
	.hword	41
	.hword	15
	.hword	0
	.section	.text.tc_session.engine.Engine.answer._5349ec06ad6c886c,"ax",@progbits
	.p2align	2
tc_session.engine.Engine.answer._5349ec06ad6c886c:
	stp	x29, x30, [sp, #-96]!
	stp	x28, x27, [sp, #16]
	mov	x29, sp
	stp	x26, x25, [sp, #32]
	stp	x24, x23, [sp, #48]
	stp	x22, x21, [sp, #64]
	stp	x20, x19, [sp, #80]
	sub	sp, sp, #1744
	str	xzr, [sp]
	movi	v0.2d, #0000000000000000
	mov	x20, x4
	ldrb	w8, [x1]
	mov	x19, x0
	add	x21, sp, #976
	add	x26, sp, #768
	add	x24, sp, #528
	add	x25, sp, #272
	cmp	w8, #1
	stp	q0, q0, [sp, #80]
	stp	q0, q0, [sp, #112]
	stp	q0, q0, [sp, #144]
	stp	q0, q0, [sp, #176]
	stp	q0, q0, [sp, #208]
	stp	q0, q0, [sp, #240]
	b.gt	118f
	cbnz	w8, 93f
	cmp	x3, #2, lsl #12
	stp	q0, q0, [sp, #272]
	stp	q0, q0, [sp, #304]
	b.ls	613f
	mov	w8, #32
	adrp	x1, .LT1c4c589c
	add	x1, x1, :lo12:.LT1c4c589c
	str	w8, [sp, #1080]
	mov	x8, #-1
	add	x0, sp, #976
	mov	w2, #13
	str	x20, [sp, #976]
	stur	q0, [x26, #216]
	stur	q0, [x26, #232]
	stur	q0, [x26, #248]
	stur	q0, [x21, #56]
	stur	q0, [x21, #72]
	stur	q0, [x21, #88]
	str	xzr, [sp, #1112]
	stur	xzr, [x21, #108]
	str	wzr, [sp, #1092]
	str	xzr, [sp, #1104]
	str	x8, [sp, #1096]
	bl	std.io.traits.AdapterWrite.write_str._5349ec06ad6c886c
	movi	v1.2d, #0000000000000000
	ldrb	w8, [sp, #984]
	ldr	s0, [sp, #992]
	ldr	w21, [sp, #996]
	ldr	x23, [sp, #1000]
	add	x9, sp, #976
	ldr	x22, [sp, #1008]
	cmp	x8, #1
	stp	q1, q1, [sp, #336]
	stp	q1, q1, [sp, #368]
	b.ne	187f
	ldur	q1, [x9, #40]
	ldur	q2, [x9, #56]
	ushll	v4.8h, v0.8b, #0
	ldur	q3, [x9, #72]
	ldur	q0, [x9, #88]
	mov	w24, #1
	stp	q1, q2, [sp, #336]
	stp	q3, q0, [sp, #368]
	ldp	q0, q1, [sp, #336]
	stp	q0, q1, [sp, #144]
	ldp	q0, q2, [sp, #368]
	stp	q0, q2, [sp, #176]
	mov	w8, #1
	cbnz	w24, 538f
	b	452f
118:
	cmp	w8, #2
	b.ne	174f
	cmp	x3, #64, lsl #12
	stp	q0, q0, [sp, #832]
	stp	q0, q0, [sp, #864]
	b.lo	983f
	mov	w8, #32
	adrp	x1, .LT1c4c589c
	add	x1, x1, :lo12:.LT1c4c589c
	str	w8, [sp, #1080]
	mov	x8, #-1
	add	x0, sp, #976
	mov	w2, #13
	str	x20, [sp, #976]
	stur	q0, [x21, #8]
	stur	q0, [x21, #24]
	stur	q0, [x21, #40]
	stur	q0, [x21, #56]
	stur	q0, [x21, #72]
	stur	q0, [x21, #88]
	str	xzr, [sp, #1112]
	stur	xzr, [x21, #108]
	str	wzr, [sp, #1092]
	str	xzr, [sp, #1104]
	str	x8, [sp, #1096]
	bl	std.io.traits.AdapterWrite.write_str._5349ec06ad6c886c
	movi	v2.2d, #0000000000000000
	ldrb	w8, [sp, #984]
	ldr	s1, [sp, #992]
	ldr	w9, [sp, #996]
	ldur	q0, [x21, #24]
	cmp	x8, #1
	str	q2, [sp, #1120]
	str	q2, [sp, #1136]
	str	q2, [sp, #1152]
	str	q2, [sp, #1168]
	b.ne	32f
	ldur	q2, [x21, #40]
	ldur	q3, [x21, #56]
	ushll	v1.8h, v1.8b, #0
	ldur	q4, [x21, #72]
	mov	w10, #1
	str	q2, [sp, #1120]
	ldur	q2, [x21, #88]
	str	q3, [sp, #1136]
	str	q4, [sp, #1152]
	str	q2, [sp, #1168]
	b	263f
93:
	ldr	w8, [x1, #72]
	mov	x22, x1
	add	x0, sp, #608
	stp	q0, q0, [sp, #608]
	adds	w8, w8, #1
	stp	q0, q0, [sp, #672]
	csinv	w23, w8, wzr, lo
	stp	q0, q0, [sp, #704]
	str	w23, [x1, #72]
	mov	x1, x2
	mov	x2, x3
	stp	q0, q0, [sp, #736]
	stp	q0, q0, [sp, #768]
	stp	q0, q0, [sp, #800]
	stp	q0, q0, [sp, #832]
	stp	q0, q0, [sp, #864]
	str	xzr, [sp, #896]
	str	xzr, [sp, #272]
	str	wzr, [sp, #280]
	stp	xzr, xzr, [sp, #400]
	str	xzr, [sp, #416]
	stp	q0, q0, [sp, #976]
	stp	q0, q0, [sp, #1008]
	str	q0, [sp, #1040]
	str	xzr, [sp, #640]
	str	xzr, [sp, #464]
	bl	tc_text.line.parse_line
	ldrb	w8, [sp, #608]
	cbz	w8, 335f
	ldrb	w8, [sp, #609]
	b	560f
613:
	mov	x28, xzr
	str	x1, [sp, #64]
	stp	q0, q0, [sp, #400]
	stp	q0, q0, [sp, #432]
	stp	q0, q0, [sp, #464]
	stp	q0, q0, [sp, #496]
	stp	q0, q0, [sp, #528]
	stp	q0, q0, [sp, #560]
	str	wzr, [sp, #592]
	stp	q0, q0, [sp, #672]
	stp	q0, q0, [sp, #704]
	stp	q0, q0, [sp, #832]
	stp	q0, q0, [sp, #864]
	str	xzr, [sp, #896]
	str	q0, [sp, #736]
	str	q0, [sp, #1344]
	str	q0, [sp, #1360]
	str	xzr, [sp, #800]
	stp	q0, q0, [sp, #768]
	cbz	x3, 321f
602:
	ldrb	w8, [x2, x28]
	mov	w9, #1
	mov	x10, #8704
	movk	x10, #1, lsl #32
	lsl	x9, x9, x8
	cmp	w8, #32
	and	x8, x9, x10
	ccmp	x8, #0, #4, ls
	b.eq	321f
	add	x28, x28, #1
	cmp	x3, x28
	b.ne	602b
	mov	x28, x3
321:
	subs	x22, x3, x28
	stp	x3, x2, [sp, #32]
	b.eq	885f
	cmp	x22, #63
	add	x26, x2, x28
	b.hi	316f
	mov	x23, xzr
602:
	ldrb	w8, [x26, x23]
	mov	w9, #1
	mov	x10, #8704
	movk	x10, #1, lsl #32
	lsl	x9, x9, x8
	cmp	w8, #32
	and	x8, x9, x10
	ccmp	x8, #0, #4, ls
	b.ne	937f
	add	x23, x23, #1
	cmp	x22, x23
	b.ne	602b
	mov	x23, x22
	b	937f
983:
	mov	x15, xzr
	mov	x8, xzr
	mov	w23, wzr
	add	x9, sp, #1248
	sub	x22, x29, #24
	sub	x18, x29, #96
	add	x24, sp, #528
	stp	q0, q0, [sp, #272]
	stp	q0, q0, [sp, #400]
	stp	q0, q0, [sp, #464]
	stp	q0, q0, [sp, #672]
	stp	q0, q0, [sp, #704]
	str	q0, [sp, #1200]
	str	q0, [sp, #1216]
	str	xzr, [sp, #1232]
	str	xzr, [sp, #1184]
	stur	xzr, [x21, #213]
	stp	q0, q0, [sp, #976]
	stp	q0, q0, [sp, #1008]
	str	q0, [sp, #1040]
	str	q0, [sp, #1056]
	str	xzr, [sp, #1408]
	stur	xzr, [x9, #165]
	str	xzr, [sp, #1392]
	stur	xzr, [x9, #149]
	str	q0, [sp, #496]
	str	q0, [sp, #432]
	str	q0, [sp, #304]
	str	q0, [sp, #1376]
	str	q0, [sp, #1360]
	str	q0, [sp, #1344]
	str	q0, [sp, #1328]
	str	q0, [sp, #1312]
	stur	wzr, [x9, #55]
	str	xzr, [sp, #1296]
	stur	xzr, [x9, #37]
	str	xzr, [sp, #1280]
	str	q0, [sp, #1264]
	str	q0, [sp, #1248]
	str	x22, [sp, #528]
	str	x20, [sp, #48]
118:
	cmp	x8, #0
	stp	xzr, xzr, [x24, #8]
	csel	x9, xzr, x15, eq
613:
	mov	w10, w23
	b	983f
62:
	add	x11, x26, x27
	mvn	x12, x27
	add	x2, x11, #1
	add	x3, x3, x12
	cbnz	x27, 474f
983:
	tbnz	w10, #0, 893f
	mov	x26, x2
	mov	x27, xzr
	cbz	x3, 280f
602:
	ldrb	w10, [x26, x27]
	mov	w11, #1
	mov	x12, #8704
	movk	x12, #1, lsl #32
	lsl	x11, x11, x10
	cmp	w10, #32
	and	x10, x11, x12
	ccmp	x10, #0, #4, ls
	b.ne	280f
	add	x27, x27, #1
	cmp	x3, x27
	b.ne	602b
	b	983f
280:
	cmp	x27, x3
	cset	w10, hs
	b.lo	62b
	mov	w23, #1
	mov	x2, x26
	mov	x27, x3
	cbz	x3, 983b
	b	474f
983:
	mov	w23, #1
	mov	x2, x26
	mov	x27, x3
474:
	cmp	x8, x9
	b.eq	280f
	add	x10, x22, x8, lsl #4
	add	x8, x8, #1
	stp	x26, x27, [x10]
	b	613b
280:
	cmp	x15, x9
	str	x9, [sp, #536]
	str	x15, [sp, #544]
	b.eq	613f
93:
	ldr	x22, [sp, #528]
	add	x8, x9, #1
	add	x10, x22, x9, lsl #4
	stp	x26, x27, [x10]
	str	x8, [sp, #536]
	b	118b
613:
	mov	x28, x1
	add	x0, sp, #528
	mov	w1, #1
	mov	x20, x2
	mov	x22, x3
	bl	std_alloc.vec.Vec.grow_amortized._923596be7a9ccb34
	ldr	x9, [sp, #536]
	ldr	x15, [sp, #544]
	tbnz	w0, #0, 613f
	cmp	x15, x9
	mov	x3, x22
	mov	x2, x20
	mov	x1, x28
	sub	x18, x29, #96
	b.ne	93b
	add	x0, sp, #528
	mov	w1, #1
	bl	std_alloc.vec.Vec.grow_amortized._923596be7a9ccb34
	cbz	w0, 978f
	ldr	x9, [sp, #536]
	ldr	x15, [sp, #544]
613:
	mov	x3, x22
	mov	x2, x20
	mov	x1, x28
	sub	x18, x29, #96
	b	93b
893:
	str	x1, [sp, #64]
	cbz	x8, 613f
	ldp	x24, x26, [x22]
	sub	x23, x8, #1
	cbz	x26, 719f
	ldrb	w20, [x24]
	cmp	w20, #35
	b.ne	280f
613:
	cbz	x15, 613f
	mov	x0, x22
	bl	rattle_dealloc
613:
	mov	w22, wzr
	mov	w28, wzr
	mov	w27, wzr
	mov	x20, xzr
	stur	xzr, [x21, #213]
	str	xzr, [sp, #1184]
613:
	mov	x23, xzr
	mov	w13, wzr
	mov	w12, wzr
	mov	w24, wzr
	mov	w26, wzr
	mov	w3, wzr
93:
	ldr	x8, [sp, #1184]
	strb	w3, [sp, #1201]
	add	x0, sp, #976
	ldur	x9, [x21, #213]
	ldr	x3, [sp, #48]
	add	x2, sp, #1200
	stur	x8, [x21, #243]
	ldr	x8, [sp, #64]
	strb	w22, [sp, #1200]
	add	x1, x8, #8
	strh	w26, [sp, #1202]
	strh	w24, [sp, #1204]
	strb	w12, [sp, #1206]
	strb	w13, [sp, #1207]
	strb	w28, [sp, #1208]
	sturh	w27, [x21, #233]
	stur	x20, [x21, #235]
	str	x9, [sp, #1224]
	str	x23, [sp, #1232]
	bl	tc_make.answer.answer._5349ec06ad6c886c
	mov	w8, w22
	adrp	x9, .LJa9983fb3_0
	add	x9, x9, :lo12:.LJa9983fb3_0
	adr	x10, 659f
	ldrh	w11, [x9, x8, lsl #1]
	add	x10, x10, x11, lsl #2
	br	x10
659:
	ldr	x8, [sp, #1224]
	cbz	x8, 840f
	ldr	x0, [sp, #1208]
498:
	bl	rattle_dealloc
	b	840f
335:
	ldrh	w8, [sp, #616]
	ldur	w9, [x24, #90]
	add	x0, sp, #976
	ldr	q0, [sp, #624]
	add	x1, x22, #8
	add	x2, sp, #464
	strh	w8, [sp, #464]
	ldr	x8, [sp, #640]
	stur	w9, [x25, #194]
	stur	q0, [x25, #200]
	str	x8, [sp, #488]
	bl	tc_live.receiver.Receiver.perform
	ldp	q0, q1, [sp, #992]
	ldrb	w11, [sp, #976]
	ldrb	w8, [sp, #977]
	ldr	q2, [sp, #1024]
	ldrb	w22, [sp, #984]
	ldrb	w9, [sp, #985]
	ldrh	w10, [sp, #986]
	stp	q0, q1, [sp, #528]
	ldr	q0, [sp, #1040]
	stp	q2, q0, [sp, #560]
	cbz	w11, 681f
560:
	strb	w8, [sp, #280]
	add	x8, sp, #272
	adrp	x9, .LT3235efc0
	add	x9, x9, :lo12:.LT3235efc0
	add	x0, sp, #672
	add	x2, sp, #400
	stp	x8, x9, [sp, #400]
	mov	w8, #1
	mov	x1, x20
	str	wzr, [sp, #272]
	str	w23, [sp, #276]
	str	x8, [sp, #416]
	bl	std.io.traits.Write.write_fmt._66d26946d4f3efb7
	ldrb	w8, [sp, #672]
	cbz	w8, 989f
	ldp	q0, q2, [sp, #704]
	mov	w8, wzr
	ldr	s1, [sp, #680]
	ldr	q5, [sp, #688]
	mov	w9, #1
	ldr	w21, [sp, #684]
	stp	q0, q2, [sp, #208]
	ushll	v4.8h, v1.8b, #0
	ldp	q3, q0, [sp, #736]
	str	q3, [sp, #240]
	b	893f
187:
	mov	w21, wzr
	and	w8, w0, #0xff
	cbz	w8, 187f
	movi	v0.16b, #46
	mov	x22, #8306
	mov	x23, #28518
	adrp	x8, .LCa9983fb3_1
	movk	x22, #29285, lsl #16
	movk	x23, #28018, lsl #16
	ldr	d4, [x8, :lo12:.LCa9983fb3_1]
	movk	x22, #28530, lsl #32
	movk	x23, #29793, lsl #32
	mov	w24, #1
	movk	x22, #11890, lsl #48
	movk	x23, #25972, lsl #48
	stp	q0, q0, [sp, #336]
	stp	q0, q0, [sp, #368]
	ldp	q0, q1, [sp, #336]
	stp	q0, q1, [sp, #144]
	ldp	q0, q2, [sp, #368]
	stp	q0, q2, [sp, #176]
	mov	w8, #1
	cbnz	w24, 538f
	b	452f
32:
	mov	w9, wzr
	and	w8, w0, #0xff
	cbz	w8, 922f
	movi	v2.16b, #46
	adrp	x8, .LCa9983fb3_0
	adrp	x10, .LCa9983fb3_1
	ldr	q0, [x8, :lo12:.LCa9983fb3_0]
	ldr	d1, [x10, :lo12:.LCa9983fb3_1]
	mov	w10, #1
	str	q2, [sp, #1168]
	str	q2, [sp, #1152]
	str	q2, [sp, #1136]
	str	q2, [sp, #1120]
	b	263f
885:
	ldr	x28, [sp, #64]
	mov	x24, xzr
	mov	x25, xzr
	mov	x9, xzr
	mov	w8, wzr
	mov	w23, wzr
	mov	w11, wzr
	mov	w10, wzr
	mov	w12, wzr
	mov	w13, wzr
	mov	w14, wzr
	mov	w26, wzr
	mov	w27, wzr
	cmp	w8, #2
	b.gt	320f
118:
	cbz	w8, 481f
	cmp	w8, #1
	b.ne	401f
	ldrb	w8, [x28, #16]
	ldrh	w9, [x28, #10]
	add	x24, sp, #528
	cmp	w8, #1
	strh	w9, [sp, #976]
	b.ne	946f
885:
	ldr	x9, [x28, #40]
	cbz	x9, 983f
	ldr	x8, [x28, #32]
602:
	ldrb	w10, [x8]
	cmp	w10, w23, uxtb
	b.eq	911f
	subs	x9, x9, #1
	add	x8, x8, #272
	b.ne	602b
983:
	mov	w26, wzr
	mov	w27, wzr
	mov	w23, wzr
	mov	w25, #8
	b	737f
316:
	add	x0, x2, x28
	mov	x1, x22
	bl	tc_lines.word.long_word_length
	mov	x23, x0
937:
	cmp	x23, #6
	add	x24, x26, x23
	sub	x25, x22, x23
	b.gt	976f
	ldp	x3, x2, [sp, #32]
	cmp	x23, #4
	b.eq	489f
	cmp	x23, #6
	b.ne	316f
	ldr	w8, [x26]
	mov	w9, #25970
	movk	w9, #28528, lsl #16
	cmp	w8, w9
	b.ne	316f
	adrp	x8, .LT9561cdf1
	add	x8, x8, :lo12:.LT9561cdf1
	add	x0, x2, x28
	mov	w1, #6
	mov	x2, x8
	bl	core.cmp.slices.groups_equal._i8_31_core.cmp.numbers.U8PartialEq
	ldp	x3, x2, [sp, #32]
	cbz	w0, 316f
	mov	x26, xzr
	cbz	x25, 321f
	sub	x8, x3, x23
	sub	x8, x8, x28
602:
	ldrb	w9, [x24, x26]
	mov	w10, #1
	mov	x11, #8704
	movk	x11, #1, lsl #32
	lsl	x10, x10, x9
	cmp	w9, #32
	and	x9, x10, x11
	ccmp	x9, #0, #4, ls
	b.eq	321f
	add	x26, x26, #1
	cmp	x8, x26
	b.ne	602b
	sub	x26, x22, x23
321:
	subs	x25, x25, x26
	b.eq	610f
	cmp	x25, #63
	add	x24, x24, x26
	b.hi	462f
	sub	x8, x3, x23
	mov	x0, xzr
	sub	x8, x8, x26
	sub	x8, x8, x28
602:
	ldrb	w9, [x24, x0]
	mov	w10, #1
	mov	x11, #8704
	movk	x11, #1, lsl #32
	lsl	x10, x10, x9
	cmp	w9, #32
	and	x9, x10, x11
	ccmp	x9, #0, #4, ls
	b.ne	944f
	add	x0, x0, #1
	cmp	x8, x0
	b.ne	602b
	mov	x0, x25
	b	944f
976:
	ldp	x3, x2, [sp, #32]
	cmp	x23, #7
	b.eq	556f
	cmp	x23, #9
	b.ne	316f
	ldr	w8, [x26]
	mov	w9, #24931
	movk	w9, #25710, lsl #16
	cmp	w8, w9
	b.ne	316f
	adrp	x8, .LT3fe1d88b
	add	x8, x8, :lo12:.LT3fe1d88b
	add	x0, x2, x28
	mov	w1, #9
	mov	x2, x8
	bl	core.cmp.slices.groups_equal._i8_31_core.cmp.numbers.U8PartialEq
	ldp	x3, x2, [sp, #32]
	cbz	w0, 316f
	movi	v0.2d, #0000000000000000
	mov	x26, xzr
	stp	q0, q0, [sp, #976]
	cbz	x25, 321f
	sub	x8, x3, x23
	sub	x8, x8, x28
602:
	ldrb	w9, [x24, x26]
	mov	w10, #1
	mov	x11, #8704
	movk	x11, #1, lsl #32
	lsl	x10, x10, x9
	cmp	w9, #32
	and	x9, x10, x11
	ccmp	x9, #0, #4, ls
	b.eq	321f
	add	x26, x26, #1
	cmp	x8, x26
	b.ne	602b
	sub	x26, x22, x23
321:
	subs	x25, x25, x26
	b.eq	307f
	cmp	x25, #63
	add	x24, x24, x26
	b.hi	583f
	sub	x9, x3, x23
	mov	x8, xzr
	sub	x9, x9, x26
	sub	x9, x9, x28
602:
	ldrb	w10, [x24, x8]
	mov	w11, #1
	mov	x12, #8704
	movk	x12, #1, lsl #32
	lsl	x11, x11, x10
	cmp	w10, #32
	and	x10, x11, x12
	ccmp	x10, #0, #4, ls
	b.ne	304f
	add	x8, x8, #1
	cmp	x9, x8
	b.ne	602b
	mov	x8, x25
	b	304f
681:
	ldp	q0, q1, [sp, #528]
	mov	w8, #32
	str	w8, [sp, #1080]
	mov	x8, #-1
	add	x0, sp, #976
	add	x1, sp, #832
	strb	w22, [sp, #832]
	stur	q0, [x26, #72]
	stur	q1, [x26, #88]
	ldp	q0, q1, [sp, #560]
	strb	w9, [sp, #833]
	strh	w10, [sp, #834]
	stur	q0, [x26, #104]
	movi	v0.2d, #0000000000000000
	stur	q1, [x26, #120]
	str	x20, [sp, #976]
	str	xzr, [sp, #1112]
	stur	q0, [x21, #8]
	stur	q0, [x21, #24]
	stur	q0, [x21, #40]
	stur	q0, [x21, #56]
	stur	q0, [x21, #72]
	stur	q0, [x21, #88]
	stur	xzr, [x21, #108]
	str	wzr, [sp, #1092]
	str	xzr, [sp, #1104]
	str	x8, [sp, #1096]
	bl	core.fmt.formatter.Formatter.write_piece._bca9c74da7838be5
	ldrb	w8, [sp, #984]
	cmp	x8, #1
	b.ne	447f
	ldur	q0, [x21, #40]
	ldur	q2, [x21, #56]
	ldr	s1, [sp, #992]
	ldur	q3, [x21, #72]
	ldur	q5, [x21, #24]
	stp	q0, q2, [sp, #912]
	ushll	v4.8h, v1.8b, #0
	ldur	q0, [x21, #88]
	ldr	w21, [sp, #996]
	stp	q3, q0, [sp, #944]
	b	474f
280:
	cmp	x26, #5
	b.gt	280f
	cmp	x26, #2
	b.eq	611f
	cmp	x26, #4
	b.eq	707f
	cmp	x26, #5
	b.ne	719f
	cmp	w20, #115
	b.ne	719f
	ldrb	w8, [x24, #1]
	cmp	w8, #101
	b.ne	719f
	ldrb	w8, [x24, #2]
	cmp	w8, #116
	b.ne	719f
	ldrb	w8, [x24, #3]
	cmp	w8, #118
	b.ne	719f
	adrp	x2, .LT060252ac
	add	x2, x2, :lo12:.LT060252ac
	mov	x0, x24
	mov	w1, #5
	mov	x20, x15
	bl	core.cmp.slices.groups_equal._i8_31_core.cmp.numbers.U8PartialEq
	sub	x18, x29, #96
	mov	x15, x20
	cbz	w0, 719f
	add	x0, sp, #272
	add	x1, x22, #16
	mov	x2, x23
	str	x15, [sp, #32]
	bl	tc_make.line.setvr
	ldrb	w8, [sp, #280]
	ldrb	w0, [sp, #272]
	ldrb	w1, [sp, #273]
	ldrb	w2, [sp, #274]
	ldrb	w3, [sp, #281]
	ldrh	w26, [sp, #282]
	str	w8, [sp, #40]
	ldrh	w24, [sp, #284]
	ldrb	w12, [sp, #286]
	ldrb	w13, [sp, #287]
	ldrb	w28, [sp, #288]
	ldurh	w27, [x25, #17]
	ldur	x20, [x25, #19]
	ldr	x23, [sp, #312]
	ldr	x8, [sp, #32]
	cbz	x8, 62f
	stp	w3, w0, [sp, #12]
	mov	x0, x22
	mov	w22, w2
	str	x23, [sp, #32]
	mov	w23, w1
	mov	w25, w12
	str	w13, [sp, #8]
	bl	rattle_dealloc
	ldp	w13, w3, [sp, #8]
	ldr	w0, [sp, #16]
	mov	w1, w23
	ldr	x23, [sp, #32]
	mov	w12, w25
	mov	w2, w22
62:
	add	x9, sp, #272
	b	337f
187:
	mov	x23, xzr
	mov	x22, xzr
	movi	v4.2d, #0000000000000000
	ldp	q0, q1, [sp, #336]
	stp	q0, q1, [sp, #144]
	ldp	q0, q2, [sp, #368]
	stp	q0, q2, [sp, #176]
	mov	w8, #1
	b	452f
922:
	movi	v1.2d, #0000000000000000
	movi	v0.2d, #0000000000000000
	mov	w10, wzr
263:
	ldr	q2, [sp, #1120]
	ldr	q3, [sp, #1136]
	ldr	q4, [sp, #1168]
	stp	q2, q3, [sp, #80]
	ldr	q2, [sp, #1152]
	stp	q2, q4, [sp, #112]
	mov	w8, #1
	cbnz	w10, 39f
	b	452f
447:
	and	w8, w0, #0xff
	cbz	w8, 67f
	movi	v0.16b, #46
	adrp	x8, .LCa9983fb3_0
	adrp	x9, .LCa9983fb3_1
	ldr	q5, [x8, :lo12:.LCa9983fb3_0]
	ldr	d4, [x9, :lo12:.LCa9983fb3_1]
	mov	w21, wzr
	stp	q0, q0, [sp, #912]
	stp	q0, q0, [sp, #944]
474:
	cmp	w22, #2
	b.le	474f
	sub	w8, w22, #3
	cmp	w8, #4
	b.lo	976f
	cmp	w22, #7
	b.ne	976f
	ldr	x8, [sp, #872]
	ldr	x20, [sp, #880]
	ldr	x22, [sp, #896]
	stp	q5, q4, [sp, #48]
	cbz	x8, 983f
	ldr	x0, [sp, #856]
	bl	rattle_dealloc
	ldp	q5, q4, [sp, #48]
983:
	cbz	x22, 976f
	mov	x0, x20
	b	498f
489:
	ldr	w8, [x26]
	mov	w9, #26988
	movk	w9, #27502, lsl #16
	cmp	w8, w9
	b.ne	316f
	adrp	x2, .LT3beabe2d
	add	x2, x2, :lo12:.LT3beabe2d
	mov	x0, x26
	mov	w1, #4
	bl	core.cmp.slices.groups_equal._i8_31_core.cmp.numbers.U8PartialEq
	ldp	x3, x2, [sp, #32]
	cbz	w0, 316f
	movi	v0.2d, #0000000000000000
	add	x0, sp, #976
	mov	x1, x24
	mov	x2, x25
	str	xzr, [sp, #1024]
	stp	q0, q0, [sp, #992]
	str	q0, [sp, #976]
	bl	tc_text.word.three_arguments
	ldrb	w8, [sp, #976]
	cbz	w8, 951f
	ldrb	w22, [sp, #977]
	mov	w8, wzr
	mov	w23, wzr
	mov	w26, wzr
	mov	w27, wzr
	b	530f
556:
	ldrb	w11, [x26, #2]
	ldrb	w10, [x26]
	ldrb	w9, [x26, #1]
	ldrb	w8, [x26, #3]
	cmp	w11, #108
	b.ne	937f
	cmp	w10, #100
	b.ne	937f
	cmp	w9, #101
	b.ne	937f
	cmp	w8, #105
	b.ne	937f
	adrp	x8, .LT9ce88526
	add	x8, x8, :lo12:.LT9ce88526
	add	x0, x2, x28
	mov	w1, #7
	mov	x2, x8
	bl	core.cmp.slices.groups_equal._i8_31_core.cmp.numbers.U8PartialEq
	ldp	x3, x2, [sp, #32]
	cbz	w0, 316f
	mov	x26, xzr
	cbz	x25, 321f
	sub	x8, x3, x23
	sub	x8, x8, x28
602:
	ldrb	w9, [x24, x26]
	mov	w10, #1
	mov	x11, #8704
	movk	x11, #1, lsl #32
	lsl	x10, x10, x9
	cmp	w9, #32
	and	x9, x10, x11
	ccmp	x9, #0, #4, ls
	b.eq	321f
	add	x26, x26, #1
	cmp	x8, x26
	b.ne	602b
	sub	x26, x22, x23
321:
	subs	x25, x25, x26
	b.eq	610f
	cmp	x25, #63
	add	x24, x24, x26
	b.hi	868f
	sub	x8, x3, x23
	mov	x0, xzr
	sub	x8, x8, x26
	sub	x8, x8, x28
602:
	ldrb	w9, [x24, x0]
	mov	w10, #1
	mov	x11, #8704
	movk	x11, #1, lsl #32
	lsl	x10, x10, x9
	cmp	w9, #32
	and	x9, x10, x11
	ccmp	x9, #0, #4, ls
	b.ne	334f
	add	x0, x0, #1
	cmp	x8, x0
	b.ne	602b
	mov	x0, x25
	b	334f
481:
	add	x0, sp, #672
	add	x1, x28, #8
	add	x2, sp, #1344
	strb	w11, [sp, #1344]
	strb	w10, [sp, #1345]
	strh	w12, [sp, #1346]
	strh	w13, [sp, #1348]
	str	x24, [sp, #1352]
	str	x25, [sp, #1360]
	str	x9, [sp, #1368]
	bl	tc_live.receiver.Receiver.perform
	ldp	x3, x2, [sp, #32]
	ldrb	w26, [sp, #672]
	ldrb	w22, [sp, #673]
	ldrb	w25, [sp, #680]
	ldrb	w23, [sp, #681]
	ldrh	w11, [sp, #682]
	b	148f
401:
	ldrb	w8, [x28, #16]
	ldrh	w9, [x28, #10]
	cmp	w8, #1
	strh	w9, [sp, #976]
	b.ne	312f
263:
	ldr	x8, [x28, #40]
	cbz	x8, 983f
	ldr	x9, [x28, #32]
	add	x25, x9, #160
257:
	ldurb	w9, [x25, #-160]
	cmp	w9, w23, uxtb
	b.eq	236f
	subs	x8, x8, #1
	add	x25, x25, #272
	b.ne	257b
983:
	mov	w26, wzr
	mov	x9, xzr
	mov	x10, xzr
	mov	x15, xzr
	mov	x28, xzr
	mov	x27, xzr
	mov	x1, xzr
	mov	x24, xzr
	mov	w22, wzr
	mov	w23, wzr
	mov	w25, #8
	b	387f
280:
	cmp	x26, #6
	b.eq	401f
	cmp	x26, #7
	b.eq	280f
	cmp	x26, #8
	b.ne	719f
	cmp	w20, #115
	b.ne	719f
	ldrb	w8, [x24, #1]
	cmp	w8, #101
	b.ne	719f
	ldrb	w8, [x24, #2]
	cmp	w8, #103
	b.ne	719f
	ldrb	w8, [x24, #3]
	cmp	w8, #109
	b.ne	719f
	adrp	x2, .LT809303c8
	add	x2, x2, :lo12:.LT809303c8
	mov	x0, x24
	mov	w1, #8
	mov	x20, x15
	bl	core.cmp.slices.groups_equal._i8_31_core.cmp.numbers.U8PartialEq
	sub	x18, x29, #96
	mov	x15, x20
	cbz	w0, 719f
	add	x0, sp, #1344
	add	x1, x22, #16
	mov	x2, x23
	add	x25, sp, #1344
	str	x15, [sp, #32]
	bl	tc_make.line.segments
	ldrb	w8, [sp, #1352]
	ldrb	w0, [sp, #1344]
	ldrb	w1, [sp, #1345]
	ldrb	w2, [sp, #1346]
	ldrb	w3, [sp, #1353]
	ldrh	w26, [sp, #1354]
	str	w8, [sp, #40]
	add	x8, sp, #1248
	ldrh	w24, [sp, #1356]
	ldrb	w12, [sp, #1358]
	ldrb	w13, [sp, #1359]
	ldrb	w28, [sp, #1360]
	ldurh	w27, [x8, #113]
	ldur	x20, [x8, #115]
	ldr	x23, [sp, #1384]
	ldr	x8, [sp, #32]
	cbz	x8, 232f
	stp	w3, w0, [sp, #12]
	mov	x0, x22
	mov	w22, w2
	str	x23, [sp, #32]
	mov	w23, w1
	mov	w25, w12
	str	w13, [sp, #8]
	bl	rattle_dealloc
	ldp	w13, w3, [sp, #8]
	ldr	w0, [sp, #16]
	mov	w1, w23
	ldr	x23, [sp, #32]
	mov	w12, w25
	add	x25, sp, #1344
	mov	w2, w22
232:
	ldur	x8, [x25, #27]
	ldur	x9, [x25, #32]
	b	779f
489:
	cbz	x23, 840f
	ldr	x0, [sp, #1216]
	b	498b
474:
	cbz	w22, 976f
	cmp	w22, #1
	ldrb	w9, [sp, #840]
	mov	w10, #1
	ldr	x0, [sp, #848]
	ldr	x8, [sp, #864]
	mov	w11, #51
	lsl	w10, w10, w9
	tst	w10, w11
	b.ne	976f
	cmp	w9, #2
	cbz	x8, 976f
	stp	q5, q4, [sp, #48]
498:
	bl	rattle_dealloc
	ldp	q5, q4, [sp, #48]
976:
	ldp	q0, q1, [sp, #912]
	mov	w8, wzr
	mov	w9, #1
	stp	q0, q1, [sp, #208]
	ldp	q0, q2, [sp, #944]
	stp	q0, q2, [sp, #240]
	b	290f
937:
	cmp	w11, #108
	b.ne	316f
	cmp	w10, #99
	b.ne	316f
	cmp	w9, #111
	b.ne	316f
	cmp	w8, #108
	b.ne	316f
	adrp	x8, .LT56694b3d
	add	x8, x8, :lo12:.LT56694b3d
	add	x0, x2, x28
	mov	w1, #7
	mov	x2, x8
	bl	core.cmp.slices.groups_equal._i8_31_core.cmp.numbers.U8PartialEq
	ldp	x3, x2, [sp, #32]
	cbz	w0, 316f
	mov	x26, xzr
	cbz	x25, 321f
	sub	x8, x3, x23
	sub	x8, x8, x28
602:
	ldrb	w9, [x24, x26]
	mov	w10, #1
	mov	x11, #8704
	movk	x11, #1, lsl #32
	lsl	x10, x10, x9
	cmp	w9, #32
	and	x9, x10, x11
	ccmp	x9, #0, #4, ls
	b.eq	321f
	add	x26, x26, #1
	cmp	x8, x26
	b.ne	602b
	sub	x26, x22, x23
321:
	subs	x25, x25, x26
	b.eq	610f
	cmp	x25, #63
	add	x24, x24, x26
	b.hi	733f
	sub	x8, x3, x23
	mov	x0, xzr
	sub	x8, x8, x26
	sub	x8, x8, x28
602:
	ldrb	w9, [x24, x0]
	mov	w10, #1
	mov	x11, #8704
	movk	x11, #1, lsl #32
	lsl	x10, x10, x9
	cmp	w9, #32
	and	x9, x10, x11
	ccmp	x9, #0, #4, ls
	b.ne	200f
	add	x0, x0, #1
	cmp	x8, x0
	b.ne	602b
	mov	x0, x25
	b	200f
316:
	add	x0, sp, #768
	mov	x1, x2
	mov	x2, x3
	bl	tc_text.line.parse_line
	ldrb	w8, [sp, #768]
	cbz	w8, 681f
	ldrb	w22, [sp, #769]
976:
	ldp	x3, x2, [sp, #32]
	b	641f
681:
	ldp	x3, x2, [sp, #32]
	mov	w23, wzr
	ldrh	w13, [sp, #780]
	ldrh	w12, [sp, #778]
	ldrb	w10, [sp, #777]
	ldrb	w11, [sp, #776]
	ldr	x24, [sp, #784]
	ldr	x25, [sp, #792]
	ldr	x9, [sp, #800]
	ldr	x28, [sp, #64]
	mov	w14, wzr
	mov	w26, wzr
	mov	w27, wzr
	cmp	w8, #2
	b.le	118b
320:
	movi	v0.2d, #0000000000000000
	cmp	w8, #3
	b.eq	602f
	cmp	w8, #4
	b.ne	32f
	ldrb	w8, [x28, #16]
	ldrh	w9, [x28, #10]
	str	xzr, [sp, #800]
	stp	q0, q0, [sp, #608]
	cmp	w8, #1
	stp	q0, q0, [sp, #768]
	stp	q0, q0, [sp, #976]
	stp	q0, q0, [sp, #1008]
	str	wzr, [sp, #1040]
	strh	w9, [sp, #1200]
	b.ne	231f
	add	x24, sp, #528
983:
	mov	w8, #4
	add	x0, sp, #768
	add	x1, x28, #24
	add	x2, sp, #608
	strb	w8, [sp, #608]
	strb	w23, [sp, #609]
	bl	tc_rack.rack.Rack.operate
	ldrb	w26, [sp, #768]
	cbz	w26, 556f
	ldp	x3, x2, [sp, #32]
	mov	w25, wzr
	mov	w23, wzr
	mov	w22, #14
	b	232f
602:
	ldrb	w8, [x28, #16]
	ldrh	w9, [x28, #10]
	str	xzr, [sp, #1008]
	str	xzr, [sp, #1216]
	cmp	w8, #1
	stp	q0, q0, [sp, #608]
	stp	q0, q0, [sp, #768]
	stp	q0, q0, [sp, #976]
	str	xzr, [sp, #1200]
	str	xzr, [sp, #1208]
	str	wzr, [sp, #1224]
	sturh	w9, [x29, #-64]
	b.ne	585f
	add	x24, sp, #528
187:
	mov	w8, #1
	add	x0, sp, #976
	add	x1, x28, #24
	add	x2, sp, #768
	strb	w8, [sp, #768]
	strb	w23, [sp, #769]
	bl	tc_rack.rack.Rack.operate
	ldrb	w26, [sp, #976]
	cbz	w26, 922f
	mov	w8, wzr
	mov	w10, wzr
	mov	w9, wzr
	mov	w25, wzr
	mov	w23, wzr
	mov	w22, #14
	b	552f
32:
	mov	w8, w11
	mov	w9, w10
	cmp	x24, #5
	orr	x8, x8, x9, lsl #8
	mov	w9, w12
	stp	q0, q0, [sp, #976]
	stp	q0, q0, [sp, #1008]
	orr	x8, x8, x9, lsl #16
	str	q0, [sp, #1040]
	str	xzr, [sp, #608]
	orr	x8, x8, x13, lsl #32
	orr	x0, x8, x14, lsl #48
	b.lo	257f
	ldrb	w8, [x0]
	tst	w8, #0xcccccccc
	b.eq	602f
257:
	ldurb	w8, [x28, #8]
	cbz	w8, 239f
	mov	x23, xzr
	mov	x24, xzr
	mov	x26, xzr
	mov	w22, wzr
	mov	w9, wzr
	mov	w27, wzr
	mov	w28, #1
	cbz	x25, 375f
32:
	mov	w25, w9
	bl	rattle_dealloc
	mov	w9, w25
375:
	cbz	w28, 410f
	ldr	x28, [sp, #64]
	tbnz	w9, #0, 481f
	movi	v0.2d, #0000000000000000
	mov	w11, wzr
	mov	w23, wzr
	mov	w22, wzr
	mov	w26, wzr
	mov	w25, #4
	str	q0, [sp, #1040]
	stp	q0, q0, [sp, #1008]
	str	q0, [sp, #992]
	b	681f
67:
	cmp	w22, #2
	mov	w8, #1
	b.le	937f
	sub	w9, w22, #3
	cmp	w9, #4
	b.lo	989f
	cmp	w22, #7
	b.ne	989f
	ldr	x8, [sp, #872]
	ldr	x20, [sp, #880]
	ldr	x21, [sp, #896]
	cbz	x8, 943f
	ldr	x0, [sp, #856]
	bl	rattle_dealloc
943:
	cbz	x21, 599f
	mov	x0, x20
	b	498f
922:
	movi	v1.2d, #0000000000000000
	ldur	q0, [x21, #12]
	ldur	q2, [x21, #24]
	ldrb	w8, [sp, #984]
	ldrb	w10, [sp, #985]
	mov	w22, wzr
	ldrh	w9, [sp, #986]
	mov	w25, #2
	str	q0, [sp, #1200]
	stur	q2, [x21, #236]
	stp	q1, q1, [sp, #608]
552:
	ldr	q0, [sp, #1200]
	ldur	q1, [x21, #236]
	ldr	x3, [sp, #32]
	strb	w8, [sp, #688]
	stur	q0, [x24, #164]
	ldp	q0, q2, [sp, #608]
	strb	w10, [sp, #689]
	strh	w9, [sp, #690]
	stp	q1, q0, [sp, #704]
	str	q2, [sp, #736]
552:
	ldr	x2, [sp, #40]
	mov	w11, wzr
	b	570f
556:
	ldrb	w9, [sp, #776]
	mov	w10, #3
	mov	w11, #8
	movi	v0.2d, #0000000000000000
	ldp	x3, x2, [sp, #32]
	cmp	w9, #5
	ldr	x0, [sp, #784]
	ldr	x8, [sp, #800]
	csel	w25, w11, w10, eq
	mov	w10, #1
	mov	w11, #51
	lsl	w10, w10, w9
	csel	w23, wzr, w23, eq
	stur	q0, [x21, #4]
	tst	w10, w11
	stur	q0, [x21, #20]
	stur	q0, [x21, #36]
	stur	q0, [x21, #52]
	b.ne	943f
	cmp	w9, #2
	cbz	x8, 943f
	bl	rattle_dealloc
	ldp	x3, x2, [sp, #32]
943:
	mov	w22, wzr
232:
	ldur	q0, [x21, #4]
	ldur	q1, [x21, #20]
	mov	w11, wzr
	ldur	q2, [x21, #36]
	stp	q0, q1, [sp, #688]
	ldur	q0, [x21, #52]
	stp	q2, q0, [sp, #720]
	b	570f
911:
	mov	w25, #6
	strb	w26, [x8, #264]
	strb	w27, [x8, #265]
737:
	movi	v0.2d, #0000000000000000
	and	w8, w26, #0xff
	orr	w11, w8, w27, lsl #8
	stur	q0, [x24, #52]
	stur	q0, [x24, #36]
	stur	q0, [x24, #20]
	stur	q0, [x24, #4]
	b	688f
236:
	ldur	x27, [x25, #-144]
	cbz	x27, 349f
	lsr	x8, x27, #59
	cbnz	x8, 499f
	lsl	x0, x27, #4
	ldur	x22, [x25, #-152]
	mov	w1, #8
	bl	rattle_alloc
	tbz	w0, #0, 87f
	ldp	x3, x2, [sp, #32]
	mov	x15, x1
	mov	x8, xzr
	mov	x28, xzr
	b	192f
62:
	add	x10, x10, x12
	add	x11, x15, x28, lsl #4
	add	x28, x28, #1
	ldr	x10, [x10, #40]
	strh	w9, [x11]
	stur	wzr, [x11, #2]
	strh	wzr, [x11, #6]
	str	x10, [x11, #8]
316:
	add	x8, x8, #1
	cmp	x8, x27
	b.eq	232f
192:
	lsl	x9, x8, #2
	ldr	x12, [x25, #32]
	ldp	x10, x11, [x25]
	ldrh	w9, [x22, x9]
	cmp	x12, x9
	b.ls	943f
	ldr	x12, [x25, #24]
	ldrh	w12, [x12, x9, lsl #1]
	cmp	x11, x12
	b.ls	316b
	lsl	x12, x12, #6
	b	62b
943:
	cbz	x11, 316b
	mov	x12, xzr
335:
	ldrh	w13, [x10, x12]
	cmp	w9, w13
	b.eq	62b
	subs	x11, x11, #1
	add	x12, x12, #64
	b.ne	335b
	b	316b
410:
	movi	v0.2d, #0000000000000000
	ldp	x3, x2, [sp, #32]
	ldr	x28, [sp, #64]
	mov	w11, wzr
	mov	w23, wzr
	mov	w25, wzr
	mov	w26, #1
	stp	q0, q0, [sp, #688]
	stp	q0, q0, [sp, #720]
	b	148f
611:
	cmp	w20, #97
	b.eq	556f
	cmp	w20, #98
	b.ne	719f
	ldrb	w8, [x24, #1]
	cmp	w8, #100
	b.ne	719f
	add	x0, sp, #464
	add	x1, x22, #16
	mov	x2, x23
	str	x15, [sp, #32]
	bl	tc_make.line.bd
	ldrb	w8, [sp, #472]
	ldrb	w0, [sp, #464]
	ldrb	w1, [sp, #465]
	ldrb	w2, [sp, #466]
	ldrb	w3, [sp, #473]
	ldrh	w26, [sp, #474]
	str	w8, [sp, #40]
	ldrh	w24, [sp, #476]
	ldrb	w12, [sp, #478]
	ldrb	w13, [sp, #479]
	ldrb	w28, [sp, #480]
	ldurh	w27, [x25, #209]
	ldur	x20, [x25, #211]
	ldr	x23, [sp, #504]
	ldr	x8, [sp, #32]
	cbz	x8, 62f
	stp	w3, w0, [sp, #12]
	mov	x0, x22
	mov	w22, w2
	str	x23, [sp, #32]
	mov	w23, w1
	mov	w25, w12
	str	w13, [sp, #8]
	bl	rattle_dealloc
	ldp	w13, w3, [sp, #8]
	ldr	w0, [sp, #16]
	mov	w1, w23
	ldr	x23, [sp, #32]
	mov	w12, w25
	mov	w2, w22
62:
	add	x9, sp, #464
	b	337f
401:
	ldrb	w27, [x24, #1]
	ldrb	w28, [x24, #2]
	cmp	w20, #112
	ldrb	w8, [x24, #3]
	b.ne	474f
	cmp	w27, #97
	b.ne	474f
	cmp	w28, #99
	b.ne	474f
	cmp	w8, #107
	b.ne	474f
	adrp	x2, .LT841bcafc
	add	x2, x2, :lo12:.LT841bcafc
	mov	x0, x24
	mov	w1, #6
	str	x15, [sp, #32]
	str	w8, [sp, #40]
	bl	core.cmp.slices.groups_equal._i8_31_core.cmp.numbers.U8PartialEq
	ldr	w8, [sp, #40]
	ldr	x15, [sp, #32]
	sub	x18, x29, #96
	cbz	w0, 474f
	movi	v0.2d, #0000000000000000
	cmp	x23, #3
	str	x19, [sp, #24]
	stp	q0, q0, [sp, #528]
	b.ne	287f
	ldr	x8, [x22, #24]
	add	x11, sp, #1248
	sub	x9, x8, #6
	cmn	x9, #5
	b.lo	104f
	cbz	x8, 417f
	ldr	x9, [x22, #16]
	ldrb	w10, [x9]
	sub	w10, w10, #48
	cmp	w10, #9
	b.hi	104f
	cmp	x8, #1
	b.ne	974f
943:
	mov	w10, wzr
911:
	mov	w11, #10
	subs	x8, x8, #1
	mul	w10, w10, w11
	ldrb	w11, [x9], #1
	sub	w11, w11, #48
	add	w10, w10, w11, uxtb
	b.ne	911b
	cmp	w10, #16, lsl #12
	mov	w8, #65536
	ldr	x15, [sp, #32]
	csel	w26, w10, w8, lo
	add	x21, sp, #976
	add	x11, sp, #1248
	b.hs	104f
	lsr	w23, w26, #8
	b	375f
707:
	cmp	w20, #99
	b.ne	719f
	ldrb	w8, [x24, #1]
	cmp	w8, #108
	b.ne	719f
	ldrb	w8, [x24, #2]
	cmp	w8, #99
	b.ne	719f
	ldrb	w8, [x24, #3]
	cmp	w8, #119
	b.ne	719f
	adrp	x2, .LTd51b947e
	add	x2, x2, :lo12:.LTd51b947e
	mov	x0, x24
	mov	w1, #4
	mov	x27, x15
	bl	core.cmp.slices.groups_equal._i8_31_core.cmp.numbers.U8PartialEq
	sub	x18, x29, #96
	mov	x15, x27
	cbz	w0, 719f
	add	x0, sp, #1248
	add	x2, x22, #16
	mov	w1, #7
	mov	x3, x23
	add	x20, sp, #1248
	bl	tc_make.line.alone
	ldrb	w8, [sp, #1248]
	cbz	w8, 740f
	ldrb	w1, [sp, #1249]
	ldrb	w2, [sp, #1250]
	cbnz	x27, 911f
	b	716f
280:
	cmp	w20, #101
	b.ne	719f
	ldrb	w8, [x24, #1]
	cmp	w8, #120
	b.ne	719f
	ldrb	w8, [x24, #2]
	cmp	w8, #112
	b.ne	719f
	ldrb	w8, [x24, #3]
	cmp	w8, #108
	b.ne	719f
	adrp	x2, .LT6bb1575f
	add	x2, x2, :lo12:.LT6bb1575f
	mov	x0, x24
	mov	w1, #7
	mov	x27, x15
	bl	core.cmp.slices.groups_equal._i8_31_core.cmp.numbers.U8PartialEq
	sub	x18, x29, #96
	mov	x15, x27
	cbz	w0, 719f
	add	x0, sp, #1312
	add	x2, x22, #16
	mov	w1, #6
	mov	x3, x23
	add	x20, sp, #1312
	bl	tc_make.line.alone
	ldrb	w8, [sp, #1312]
	cbz	w8, 536f
	ldrb	w1, [sp, #1313]
	ldrb	w2, [sp, #1314]
	cbz	x27, 716f
911:
	mov	x0, x22
	mov	w20, w2
	mov	w21, w1
	bl	rattle_dealloc
	mov	w1, w21
	mov	w2, w20
	b	716f
474:
	cmp	w20, #117
	b.ne	719f
	cmp	w27, #110
	b.ne	719f
	cmp	w28, #108
	b.ne	719f
	cmp	w8, #111
	b.ne	719f
	adrp	x2, .LT8805324e
	add	x2, x2, :lo12:.LT8805324e
	mov	x0, x24
	mov	w1, #6
	mov	x20, x15
	bl	core.cmp.slices.groups_equal._i8_31_core.cmp.numbers.U8PartialEq
	sub	x18, x29, #96
	mov	x15, x20
	cbz	w0, 719f
	add	x0, sp, #400
	add	x1, x22, #16
	mov	x2, x23
	str	x15, [sp, #32]
	bl	tc_make.line.unlock
	ldrb	w8, [sp, #408]
	ldrb	w0, [sp, #400]
	ldrb	w1, [sp, #401]
	ldrb	w2, [sp, #402]
	ldrb	w3, [sp, #409]
	ldrh	w26, [sp, #410]
	str	w8, [sp, #40]
	ldrh	w24, [sp, #412]
	ldrb	w12, [sp, #414]
	ldrb	w13, [sp, #415]
	ldrb	w28, [sp, #416]
	ldurh	w27, [x25, #145]
	ldur	x20, [x25, #147]
	ldr	x23, [sp, #440]
	ldr	x8, [sp, #32]
	cbz	x8, 62f
	stp	w3, w0, [sp, #12]
	mov	x0, x22
	mov	w22, w2
	str	x23, [sp, #32]
	mov	w23, w1
	mov	w25, w12
	str	w13, [sp, #8]
	bl	rattle_dealloc
	ldp	w13, w3, [sp, #8]
	ldr	w0, [sp, #16]
	mov	w1, w23
	ldr	x23, [sp, #32]
	mov	w12, w25
	mov	w2, w22
62:
	add	x9, sp, #400
337:
	ldur	x8, [x9, #27]
	ldur	x9, [x9, #32]
	b	779f
602:
	ldrb	w8, [x0, #3]
	ldrb	w9, [x0, #2]
	bfi	w8, w9, #8, #2
	cmp	w8, #5
	b.lo	257b
	add	w8, w8, #1
	subs	x9, x24, x8
	b.lo	257b
	cmp	x9, #6
	b.hi	873f
	cmp	x9, #5
	b.lo	257f
	add	x10, x0, x8
	ldrb	w11, [x10]
	tst	w11, #0xcccccccc
	b.eq	746f
257:
	ldurb	w9, [x28, #8]
	cbz	w9, 239f
	mov	x1, x0
	add	x0, sp, #768
	mov	x2, x8
	str	x20, [sp, #48]
	mov	x20, x1
	stp	q0, q0, [sp, #768]
	bl	tc_edges.fecf.frames.without_field
	ldrb	w8, [sp, #768]
	cmp	w8, #0
	cset	w9, eq
	cbz	w8, 458f
	ldrb	w8, [sp, #769]
	mov	x26, xzr
	mov	x24, xzr
	mov	x23, xzr
	mov	w27, wzr
	cmp	w8, #5
	mov	w8, #14
	cset	w28, ne
	csel	w22, wzr, w8, ne
	b	317f
239:
	mov	w27, #4
	mov	x26, x25
	mov	x23, x0
481:
	add	x0, sp, #976
	add	x1, x28, #8
	add	x2, sp, #608
	strb	w27, [sp, #608]
	str	x23, [sp, #616]
	str	x24, [sp, #624]
	str	x26, [sp, #632]
	bl	tc_live.receiver.Receiver.perform_passed
	ldrb	w26, [sp, #976]
	ldrb	w22, [sp, #977]
	ldrb	w25, [sp, #984]
	ldrb	w23, [sp, #985]
	ldrh	w11, [sp, #986]
681:
	ldp	q0, q1, [sp, #992]
	add	x24, sp, #528
	ldp	x3, x2, [sp, #32]
	ldr	q2, [sp, #1040]
	stp	q0, q1, [sp, #688]
	ldr	q0, [sp, #1024]
	stp	q0, q2, [sp, #720]
	b	570f
937:
	cbz	w22, 989f
	cmp	w22, #1
	ldrb	w10, [sp, #840]
	ldr	x0, [sp, #848]
	mov	w12, #51
	ldr	x9, [sp, #864]
	lsl	w11, w8, w10
	tst	w11, w12
	b.ne	989f
	cmp	w10, #2
	cbz	x9, 989f
498:
	bl	rattle_dealloc
599:
	mov	w8, #1
989:
	ldp	q0, q1, [sp, #768]
	mov	w9, wzr
	mov	w21, wzr
	movi	v4.2d, #0000000000000000
	movi	v5.2d, #0000000000000000
	stp	q0, q1, [sp, #208]
	ldp	q2, q0, [sp, #800]
	str	q2, [sp, #240]
893:
	str	q0, [sp, #256]
	b	290f
307:
	mov	x24, xzr
911:
	mov	w8, wzr
	mov	w11, wzr
	mov	w10, wzr
	mov	w12, wzr
	mov	w13, wzr
	mov	w14, wzr
	mov	w9, #1
	mov	w22, #1
	b	350f
951:
	ldr	x15, [sp, #992]
	sub	x8, x15, #6
	cmn	x8, #5
	b.hs	367f
	mov	w8, wzr
	mov	w23, wzr
	mov	w26, wzr
	mov	w27, wzr
	mov	w22, #2
530:
	ldp	x3, x2, [sp, #32]
	mov	w9, #1
681:
	ldr	x28, [sp, #64]
239:
	mov	x24, xzr
	mov	x25, xzr
	mov	w14, wzr
	mov	w11, wzr
	mov	w10, wzr
	mov	w12, wzr
	mov	w13, wzr
	b	291f
349:
	mov	x28, xzr
	sub	x15, x29, #24
232:
	ldur	x24, [x25, #-120]
	cbz	x24, 805f
	lsr	x8, x24, #59
	cbnz	x8, 875f
	lsl	x0, x24, #4
	ldur	x22, [x25, #-128]
	mov	w1, #8
	mov	x26, x15
	bl	rattle_alloc
	ldp	x3, x2, [sp, #32]
	mov	x15, x26
	tbz	w0, #0, 875f
	mov	x9, xzr
	mov	x8, xzr
	b	192f
62:
	add	x11, x11, x13
	add	x12, x1, x8, lsl #4
	add	x8, x8, #1
	ldr	x11, [x11, #40]
	strb	w10, [x12]
	stur	wzr, [x12, #1]
	str	wzr, [x12, #4]
	str	x11, [x12, #8]
316:
	add	x9, x9, #1
	cmp	x9, x24
	b.eq	848f
192:
	lsl	x10, x9, #2
	ldr	x13, [x25, #80]
	ldp	x11, x12, [x25, #48]
	ldrb	w10, [x22, x10]
	cmp	x13, x10
	b.ls	599f
	ldr	x13, [x25, #72]
	ldrh	w13, [x13, x10, lsl #1]
	cmp	x12, x13
	b.ls	316b
	lsl	x13, x13, #6
	b	62b
599:
	cbz	x12, 316b
	mov	x13, xzr
335:
	ldrh	w14, [x11, x13]
	cmp	w14, w10
	b.eq	62b
	subs	x12, x12, #1
	add	x13, x13, #64
	b.ne	335b
	b	316b
868:
	mov	x0, x24
	mov	x1, x25
	bl	tc_lines.word.long_word_length
	ldp	x3, x2, [sp, #32]
334:
	cmp	x25, x0
	b.eq	625f
	add	x10, x26, x28
	add	x8, x23, x0
	sub	x9, x22, x26
	add	x10, x2, x10
602:
	ldrb	w11, [x10, x8]
	mov	w12, #1
	mov	x13, #8704
	movk	x13, #1, lsl #32
	lsl	x12, x12, x11
	cmp	w11, #32
	and	x11, x12, x13
	ccmp	x11, #0, #4, ls
	b.eq	627f
	add	x8, x8, #1
	cmp	x9, x8
	b.ne	602b
625:
	sub	x8, x0, #6
	cmn	x8, #5
	b.lo	859f
	cbz	x0, 552f
	ldrb	w8, [x24]
	ldr	x28, [sp, #64]
	sub	w8, w8, #48
	cmp	w8, #9
	b.hi	859f
	cmp	x0, #1
	b.ne	320f
599:
	mov	w23, wzr
307:
	mov	w8, #10
	ldrb	w9, [x24], #1
	mul	w8, w23, w8
	subs	x0, x0, #1
	sub	w9, w9, #48
	add	w23, w8, w9, uxtb
	b.ne	307b
	cmp	w23, #255
	b.hi	859f
	b	992f
462:
	mov	x0, x24
	mov	x1, x25
	bl	tc_lines.word.long_word_length
	ldp	x3, x2, [sp, #32]
944:
	cmp	x25, x0
	b.eq	893f
	add	x10, x26, x28
	add	x8, x23, x0
	sub	x9, x22, x26
	add	x10, x2, x10
602:
	ldrb	w11, [x10, x8]
	mov	w12, #1
	mov	x13, #8704
	movk	x13, #1, lsl #32
	lsl	x12, x12, x11
	cmp	w11, #32
	and	x11, x12, x13
	ccmp	x11, #0, #4, ls
	b.eq	694f
	add	x8, x8, #1
	cmp	x9, x8
	b.ne	602b
893:
	sub	x8, x0, #6
	cmn	x8, #5
	b.lo	859f
	cbz	x0, 563f
	ldrb	w8, [x24]
	ldr	x28, [sp, #64]
	sub	w8, w8, #48
	cmp	w8, #9
	b.hi	859f
	cmp	x0, #1
	b.ne	604f
307:
	mov	w23, wzr
349:
	mov	w8, #10
	ldrb	w9, [x24], #1
	mul	w8, w23, w8
	subs	x0, x0, #1
	sub	w9, w9, #48
	add	w23, w8, w9, uxtb
	b.ne	349b
	cmp	w23, #255
	b.hi	859f
	b	634f
583:
	mov	x0, x24
	mov	x1, x25
	bl	tc_lines.word.long_word_length
	ldr	x2, [sp, #40]
	mov	x8, x0
304:
	cmp	x25, x8
	b.eq	62f
	add	x11, x26, x28
	add	x9, x23, x8
	sub	x10, x22, x26
	add	x11, x2, x11
602:
	ldrb	w12, [x11, x9]
	mov	w13, #1
	mov	x14, #8704
	movk	x14, #1, lsl #32
	lsl	x13, x13, x12
	cmp	w12, #32
	and	x12, x13, x14
	ccmp	x12, #0, #4, ls
	b.eq	506f
	add	x9, x9, #1
	cmp	x10, x9
	b.ne	602b
62:
	add	x0, sp, #976
	mov	x1, x24
	mov	x2, x8
	bl	hex.decode._2c03b3434bbe5675
	ldrb	w9, [sp, #976]
	ldrb	w11, [sp, #984]
	cbz	w9, 938f
	cmp	w11, #3
	mov	w11, #3
	mov	w15, #14
	mov	x24, xzr
	mov	x25, xzr
	mov	w8, wzr
	mov	w10, wzr
	mov	w12, wzr
	mov	w13, wzr
	mov	w14, wzr
	csel	w22, w15, w11, eq
	mov	w11, wzr
	b	989f
556:
	ldrb	w8, [x24, #1]
	cmp	w8, #100
	b.ne	719f
	cmp	x23, #5
	strh	wzr, [sp, #612]
	str	wzr, [sp, #608]
	b.ne	62f
	ldp	x1, x2, [x22, #16]
	add	x0, sp, #608
	ldp	x3, x4, [x22, #32]
	mov	x26, x15
	ldp	x5, x6, [x22, #48]
	bl	tc_make.line.read_stream
	add	x9, sp, #528
	ldrb	w8, [sp, #608]
	ldur	w2, [x9, #82]
	cbz	w8, 727f
	ldrb	w1, [sp, #609]
	add	x10, sp, #1248
	mov	x23, xzr
	str	wzr, [sp, #40]
	mov	w24, wzr
	mov	w12, wzr
	mov	w13, wzr
	mov	w28, wzr
	mov	w27, wzr
	mov	x20, xzr
	str	xzr, [sp, #1392]
	mov	w0, #1
	stur	xzr, [x10, #149]
	cbnz	x26, 33f
	b	639f
719:
	movi	v0.2d, #0000000000000000
	cmp	x26, #5
	stp	xzr, xzr, [x29, #-96]
	stur	wzr, [x29, #-80]
	stp	xzr, xzr, [x29, #-128]
	stur	wzr, [x29, #-112]
	stp	xzr, xzr, [x29, #-160]
	stur	wzr, [x29, #-144]
	stp	xzr, xzr, [x29, #-192]
	stur	wzr, [x29, #-176]
	stp	xzr, xzr, [x29, #-224]
	stur	wzr, [x29, #-208]
	stp	xzr, xzr, [x29, #-256]
	stur	wzr, [x29, #-240]
	str	xzr, [sp, #1464]
	str	xzr, [sp, #1456]
	str	wzr, [sp, #1472]
	str	xzr, [sp, #1432]
	str	xzr, [sp, #1424]
	str	wzr, [sp, #1440]
	stp	q0, q0, [sp, #544]
	str	q0, [sp, #528]
	stp	q0, q0, [sp, #624]
	stp	q0, q0, [sp, #784]
	str	q0, [sp, #768]
	str	q0, [sp, #608]
	str	x19, [sp, #24]
	b.le	280f
	cmp	x26, #6
	b.eq	602f
	cmp	x26, #7
	b.eq	951f
	cmp	x26, #9
	b.ne	474f
	ldr	w8, [x24]
	mov	w9, #25972
	movk	w9, #25964, lsl #16
	cmp	w8, w9
	b.ne	556f
	adrp	x2, .LTea4b73ba
	add	x2, x2, :lo12:.LTea4b73ba
	mov	x0, x24
	mov	w1, #9
	mov	x21, x15
	bl	core.cmp.slices.groups_equal._i8_31_core.cmp.numbers.U8PartialEq
	sub	x18, x29, #96
	mov	x15, x21
	cbz	w0, 710f
	movi	v0.2d, #0000000000000000
	cmp	x23, #1
	stp	q0, q0, [x29, #-64]
	b.ne	14f
	ldp	x1, x2, [x22, #16]
	sub	x0, x29, #64
	bl	tc_make.line.octets
	sub	x18, x29, #96
	ldurb	w8, [x29, #-64]
	ldur	w23, [x29, #-56]
	ldur	q0, [x18, #44]
	ldur	w9, [x29, #-36]
	ldurb	w1, [x29, #-63]
	ldurb	w2, [x29, #-62]
	str	q0, [sp, #1456]
	str	w9, [sp, #1472]
	cbnz	w8, 349f
	ldr	w13, [sp, #1472]
	ldr	q0, [sp, #1456]
	mov	x8, xzr
	mov	w12, wzr
	mov	w9, wzr
	mov	w11, wzr
	stur	w13, [x29, #-240]
	mov	w13, #10
	mov	w20, wzr
	mov	w28, wzr
	mov	w10, wzr
	mov	w0, wzr
	mov	w1, wzr
	mov	w2, wzr
	mov	w3, wzr
	stur	q0, [x29, #-256]
	mov	x15, x21
	add	x17, sp, #1248
	str	w13, [sp, #40]
	b	337f
280:
	cmp	x26, #2
	b.eq	401f
	cmp	x26, #4
	b.ne	474f
	ldr	w8, [x24]
	mov	w9, #27747
	movk	w9, #30068, lsl #16
	cmp	w8, w9
	b.ne	556f
	adrp	x2, .LT24883227
	add	x2, x2, :lo12:.LT24883227
	mov	x0, x24
	mov	w1, #4
	mov	x21, x15
	bl	core.cmp.slices.groups_equal._i8_31_core.cmp.numbers.U8PartialEq
	sub	x18, x29, #96
	mov	x15, x21
	cbz	w0, 710f
	movi	v0.2d, #0000000000000000
	cmp	x23, #1
	stp	q0, q0, [x29, #-64]
	b.ne	595f
	ldp	x1, x2, [x22, #16]
	sub	x0, x29, #64
	bl	tc_make.line.octets
	sub	x18, x29, #96
	ldurb	w8, [x29, #-64]
	ldur	w23, [x29, #-56]
	ldur	q0, [x18, #44]
	ldur	w9, [x29, #-36]
	ldurb	w1, [x29, #-63]
	ldurb	w2, [x29, #-62]
	stur	q0, [x29, #-128]
	stur	w9, [x29, #-112]
	cbnz	w8, 349f
	ldur	w12, [x29, #-112]
	ldur	q0, [x29, #-128]
	mov	x8, xzr
	mov	w10, wzr
	mov	w9, wzr
	mov	w11, wzr
	stur	w12, [x29, #-80]
	mov	w12, #7
	mov	w20, wzr
	mov	w28, wzr
	mov	w3, wzr
	mov	w2, wzr
	mov	w1, wzr
	mov	w0, wzr
	stur	q0, [x29, #-96]
	str	w12, [sp, #40]
	mov	x15, x21
	add	x17, sp, #1248
	b	216f
602:
	ldrb	w26, [x24]
	ldrb	w28, [x24, #1]
	ldrb	w20, [x24, #2]
	ldrb	w27, [x24, #3]
	cmp	w26, #114
	b.ne	67f
	cmp	w28, #97
	b.ne	67f
	cmp	w20, #110
	b.ne	67f
	cmp	w27, #100
	b.ne	67f
	adrp	x2, .LTd8c9c952
	add	x2, x2, :lo12:.LTd8c9c952
	mov	x0, x24
	mov	w1, #6
	mov	x21, x15
	bl	core.cmp.slices.groups_equal._i8_31_core.cmp.numbers.U8PartialEq
	sub	x18, x29, #96
	mov	x15, x21
	cbz	w0, 67f
	movi	v0.2d, #0000000000000000
	cmp	x23, #1
	stp	q0, q0, [x29, #-64]
	b.ne	190f
	ldp	x1, x2, [x22, #16]
	sub	x0, x29, #64
	bl	tc_make.line.octets
	sub	x18, x29, #96
	ldurb	w8, [x29, #-64]
	ldur	w23, [x29, #-56]
	ldur	q0, [x18, #44]
	ldur	w9, [x29, #-36]
	ldurb	w1, [x29, #-63]
	ldurb	w2, [x29, #-62]
	stur	q0, [x29, #-192]
	stur	w9, [x29, #-176]
	cbz	w8, 41f
349:
	mov	x15, x21
	b	316f
951:
	ldr	w8, [x24]
	mov	w9, #25956
	movk	w9, #28515, lsl #16
	cmp	w8, w9
	b.ne	556f
	adrp	x2, .LT92808575
	add	x2, x2, :lo12:.LT92808575
	mov	x0, x24
	mov	w1, #7
	mov	x21, x15
	bl	core.cmp.slices.groups_equal._i8_31_core.cmp.numbers.U8PartialEq
	sub	x18, x29, #96
	mov	x15, x21
	cbz	w0, 710f
	cmp	x23, #2
	b.ne	523f
	ldr	x13, [x22, #24]
	add	x17, sp, #1248
	sub	x8, x13, #6
	cmn	x8, #5
	b.lo	307f
	cbz	x13, 187f
	ldr	x14, [x22, #16]
	ldrb	w8, [x14]
	sub	w8, w8, #48
	cmp	w8, #9
	b.hi	307f
	cmp	x13, #1
	b.ne	896f
349:
	mov	w10, wzr
868:
	mov	w8, #10
	ldrb	w9, [x14], #1
	mul	w8, w10, w8
	subs	x13, x13, #1
	sub	w9, w9, #48
	add	w10, w8, w9, uxtb
	b.ne	868b
	cmp	w10, #255
	b.ls	137f
	b	307f
556:
	ldrb	w26, [x24]
280:
	cmp	w26, #255
	b.eq	602f
	cmp	w26, #254
	b.eq	556f
	cmp	w26, #239
	b.ne	710f
	ldrb	w8, [x24, #1]
	cmp	w8, #187
	b.ne	710f
	ldrb	w8, [x24, #2]
	cmp	w8, #191
	b.ne	710f
	b	583f
401:
	ldrb	w26, [x24]
	cmp	w26, #116
	b.ne	937f
	ldrb	w8, [x24, #1]
	cmp	w8, #109
	b.ne	710f
	cmp	x23, #4
	b.ne	443f
	ldr	x13, [x22, #24]
	add	x17, sp, #1248
	sub	x8, x13, #6
	cmn	x8, #5
	b.lo	349f
	cbz	x13, 845f
	ldr	x14, [x22, #16]
	ldrb	w8, [x14]
	sub	w8, w8, #48
	cmp	w8, #9
	b.hi	349f
	cmp	x13, #1
	b.ne	680f
868:
	mov	w8, wzr
462:
	mov	w9, #10
	subs	x13, x13, #1
	mul	w8, w8, w9
	ldrb	w9, [x14], #1
	sub	w9, w9, #48
	add	w8, w8, w9, uxtb
	b.ne	462b
	lsr	w9, w8, #16
	cmp	w8, #16, lsl #12
	mov	w10, #65536
	csel	w24, w8, w10, lo
	cbnz	w9, 349f
	lsr	w26, w24, #8
	b	63f
474:
	cmp	x26, #2
	b.lo	710f
	ldrb	w26, [x24]
	b.ne	280b
937:
	cmp	w26, #254
	b.eq	556f
	cmp	w26, #255
	b.ne	710f
602:
	ldrb	w8, [x24, #1]
	cmp	w8, #254
	b.eq	583f
	b	710f
67:
	cmp	w26, #111
	b.ne	474f
	cmp	w28, #99
	b.ne	474f
	cmp	w20, #116
	b.ne	474f
	cmp	w27, #101
	b.ne	474f
	adrp	x2, .LT8d98f918
	add	x2, x2, :lo12:.LT8d98f918
	mov	x0, x24
	mov	w1, #6
	mov	x21, x15
	bl	core.cmp.slices.groups_equal._i8_31_core.cmp.numbers.U8PartialEq
	sub	x18, x29, #96
	mov	x15, x21
	cbz	w0, 474f
	add	x0, sp, #528
	add	x1, x22, #16
	mov	x2, x23
	bl	tc_make.line.piece
	ldrb	w8, [sp, #536]
	ldrb	w0, [sp, #528]
	sub	x18, x29, #96
	ldrb	w1, [sp, #529]
	ldrb	w2, [sp, #530]
	mov	x15, x21
	ldrb	w3, [sp, #537]
	str	w8, [sp, #40]
	add	x11, sp, #528
	b	335f
556:
	ldrb	w8, [x24, #1]
	cmp	w8, #255
	b.ne	710f
583:
	mov	w1, #1
	b	922f
474:
	cmp	w20, #97
	b.ne	474f
	cmp	w26, #115
	b.ne	474f
	cmp	w28, #101
	b.ne	474f
	cmp	w27, #114
	b.ne	474f
	adrp	x2, .LT62caa537
	add	x2, x2, :lo12:.LT62caa537
	mov	x0, x24
	mov	w1, #6
	mov	x20, x15
	bl	core.cmp.slices.groups_equal._i8_31_core.cmp.numbers.U8PartialEq
	sub	x18, x29, #96
	mov	x15, x20
	cbz	w0, 710f
	add	x0, sp, #768
	add	x1, x22, #16
	mov	x2, x23
	bl	tc_make.line.search
	ldrb	w8, [sp, #776]
	ldrb	w0, [sp, #768]
	sub	x18, x29, #96
	ldrb	w1, [sp, #769]
	ldrb	w2, [sp, #770]
	mov	x15, x20
	ldrb	w3, [sp, #777]
	str	w8, [sp, #40]
	add	x11, sp, #528
	add	x9, sp, #768
	b	236f
474:
	cmp	w20, #97
	b.ne	280b
	cmp	w26, #102
	b.ne	280b
	cmp	w28, #114
	b.ne	280b
	cmp	w27, #109
	b.ne	280b
	adrp	x2, .LT8e0eaf5d
	add	x2, x2, :lo12:.LT8e0eaf5d
	mov	x0, x24
	mov	w1, #6
	mov	x20, x15
	bl	core.cmp.slices.groups_equal._i8_31_core.cmp.numbers.U8PartialEq
	sub	x18, x29, #96
	mov	x15, x20
	cbz	w0, 710f
	add	x0, sp, #608
	add	x1, x22, #16
	mov	x2, x23
	bl	tc_make.line.frames
	ldrb	w8, [sp, #616]
	ldrb	w0, [sp, #608]
	sub	x18, x29, #96
	ldrb	w1, [sp, #609]
	ldrb	w2, [sp, #610]
	mov	x15, x20
	ldrb	w3, [sp, #617]
	str	w8, [sp, #40]
	add	x11, sp, #528
	b	232f
710:
	mov	w1, wzr
922:
	movi	v0.2d, #0000000000000000
	mov	w3, wzr
	mov	w2, wzr
	add	x11, sp, #528
	mov	w0, #1
	str	wzr, [sp, #40]
	str	xzr, [sp, #648]
	stur	q0, [x11, #104]
	stur	q0, [x11, #88]
232:
	ldur	q0, [x11, #90]
	ldur	q1, [x11, #106]
	add	x9, sp, #768
	ldr	x8, [sp, #648]
	stur	q0, [x11, #250]
	stur	q1, [x9, #26]
	str	x8, [sp, #808]
236:
	ldur	q0, [x9, #10]
	ldur	q1, [x9, #26]
	ldr	x8, [sp, #808]
	stur	q0, [x11, #10]
	stur	q1, [x11, #26]
	str	x8, [sp, #568]
335:
	ldrh	w20, [sp, #542]
	ldrb	w10, [sp, #538]
	add	x17, sp, #1248
	ldrb	w12, [sp, #539]
	ldrb	w9, [sp, #540]
	ldur	q0, [x11, #20]
	lsr	w28, w20, #8
	ldr	w23, [sp, #544]
	ldr	w13, [sp, #564]
	ldrb	w11, [sp, #541]
	ldr	x8, [sp, #568]
	str	q0, [sp, #1424]
	str	w13, [sp, #1440]
951:
	ldr	q0, [sp, #1424]
	ldr	w13, [sp, #1440]
	stur	q0, [x29, #-256]
	stur	w13, [x29, #-240]
337:
	ldur	q0, [x29, #-256]
	ldur	w13, [x29, #-240]
	stur	q0, [x29, #-224]
	stur	w13, [x29, #-208]
232:
	ldur	q0, [x29, #-224]
	ldur	w13, [x29, #-208]
	bfi	w10, w12, #8, #24
	stur	q0, [x29, #-160]
	stur	w13, [x29, #-144]
236:
	ldur	q0, [x29, #-160]
	ldur	w12, [x29, #-144]
	stur	q0, [x29, #-96]
	stur	w12, [x29, #-80]
216:
	ldur	w12, [x18, #3]
	ldur	w13, [x29, #-96]
	str	w23, [sp, #1296]
	ldur	x14, [x18, #12]
	stur	w12, [x17, #55]
	ldur	x12, [x18, #7]
	str	w13, [sp, #1300]
	str	x12, [sp, #1280]
	lsr	w12, w23, #8
	ldur	x13, [x17, #51]
	stur	x14, [x17, #37]
455:
	bfi	w9, w11, #8, #8
	strh	w10, [sp, #1354]
	ldr	x10, [sp, #1280]
	strb	w20, [sp, #1358]
	strh	w9, [sp, #1356]
	ldur	x9, [x17, #37]
	strb	w28, [sp, #1359]
	strb	w23, [sp, #1360]
	stur	x13, [x17, #115]
	str	x9, [sp, #1376]
	stur	x10, [x17, #123]
	str	x8, [sp, #1384]
	sturh	w12, [x17, #113]
	ldur	q0, [x17, #122]
	ldur	q1, [x17, #106]
	str	x8, [sp, #504]
	stur	q0, [x25, #218]
	stur	q1, [x25, #202]
	ldr	x23, [sp, #504]
	ldrb	w10, [sp, #474]
	ldrb	w11, [sp, #475]
	ldrh	w24, [sp, #476]
	ldrb	w12, [sp, #478]
	ldrb	w13, [sp, #479]
	ldrb	w28, [sp, #480]
	ldurh	w27, [x25, #209]
	ldur	x20, [x25, #211]
	cbz	x15, 354f
	str	w27, [sp, #12]
	mov	w27, w28
	mov	w28, w0
	mov	x0, x22
	str	w24, [sp, #32]
	mov	w22, w2
	str	x20, [sp, #16]
	mov	x26, x23
	mov	w23, w1
	mov	w25, w3
	mov	w21, w12
	mov	w19, w13
	mov	w24, w10
	mov	w20, w11
	bl	rattle_dealloc
	mov	w11, w20
	mov	w10, w24
	mov	w0, w28
	mov	w28, w27
	ldr	w27, [sp, #12]
	ldr	x20, [sp, #16]
	ldr	w24, [sp, #32]
	mov	w13, w19
	mov	w12, w21
	mov	w3, w25
	mov	w1, w23
	mov	x23, x26
	mov	w2, w22
	add	x17, sp, #1248
354:
	ldr	x8, [sp, #1280]
	ldur	x9, [x17, #37]
	orr	w26, w10, w11, lsl #8
	add	x21, sp, #976
	str	x8, [sp, #1184]
	ldr	x19, [sp, #24]
	stur	x9, [x21, #213]
	ldr	w22, [sp, #40]
	cbz	w0, 93b
716:
	ldr	x3, [sp, #48]
	add	x0, sp, #976
	bl	tc_make.printed.write_bad._5349ec06ad6c886c
840:
	ldp	q0, q2, [sp, #1008]
	ldr	q1, [sp, #1056]
	ldr	q3, [sp, #1040]
	ldr	s4, [sp, #984]
	ldrb	w10, [sp, #976]
	ldr	w9, [sp, #988]
	stp	q3, q1, [sp, #112]
	stp	q0, q2, [sp, #832]
	ldr	q0, [sp, #992]
	stp	q3, q1, [sp, #864]
	ushll	v1.8h, v4.8b, #0
	ldr	q4, [sp, #832]
	stp	q4, q2, [sp, #80]
	mov	w8, #1
	cbz	w10, 452f
39:
	uzp1	v1.8b, v1.8b, v0.8b
	ldp	q2, q3, [sp, #80]
	strh	w8, [x19]
	str	w9, [x19, #12]
	stp	q0, q2, [x19, #16]
	str	s1, [x19, #8]
	ldp	q0, q1, [sp, #112]
	str	q3, [x19, #48]
	b	598f
523:
	mov	x8, xzr
	mov	w12, wzr
	mov	w9, wzr
	mov	w11, wzr
	mov	w20, wzr
	mov	w28, wzr
	mov	w23, wzr
	mov	w3, wzr
	mov	w10, wzr
	mov	w2, #12
	mov	w1, #2
	str	wzr, [sp, #40]
462:
	mov	w0, #1
	add	x17, sp, #1248
	b	951b
190:
	mov	w2, #9
	b	583f
443:
	mov	x8, xzr
	str	wzr, [sp, #40]
	mov	w3, wzr
	mov	w10, wzr
	mov	w12, wzr
	mov	w9, wzr
	mov	w11, wzr
	mov	w20, wzr
	mov	w28, wzr
	mov	w23, wzr
	mov	w2, #10
	mov	w1, #2
	mov	w0, #1
	add	x17, sp, #1248
	b	232b
14:
	mov	w2, #11
	b	583f
595:
	mov	w2, #8
583:
	mov	w1, #2
316:
	add	x17, sp, #1248
	mov	x13, xzr
	mov	w12, wzr
	mov	w23, wzr
	str	wzr, [sp, #40]
	mov	w3, wzr
	mov	w10, wzr
	mov	w9, wzr
	mov	w11, wzr
	mov	w20, wzr
	mov	w28, wzr
	mov	x8, xzr
	stur	xzr, [x17, #37]
	mov	w0, #1
	str	xzr, [sp, #1280]
	b	455b
875:
	cbz	x27, 911f
	mov	x0, x15
	bl	rattle_dealloc
87:
	ldp	x3, x2, [sp, #32]
499:
	mov	x9, xzr
	mov	x10, xzr
	mov	x15, xzr
	mov	x28, xzr
	mov	x27, xzr
583:
	mov	x1, xzr
	mov	x8, xzr
	mov	x24, xzr
	mov	w25, wzr
	mov	w23, wzr
	mov	w22, #14
	mov	w26, #1
	b	387f
938:
	ldrb	w10, [sp, #985]
	ldrh	w12, [sp, #986]
	mov	w22, wzr
	ldrh	w13, [sp, #988]
	ldrh	w14, [sp, #990]
	mov	w8, #5
	ldr	x24, [sp, #992]
	ldr	x25, [sp, #1000]
989:
	ldp	x3, x2, [sp, #32]
350:
	ldr	x28, [sp, #64]
	mov	w23, wzr
	mov	w26, wzr
	mov	w27, wzr
291:
	cbnz	w9, 641f
	mov	x9, xzr
	cmp	w8, #2
	b.le	118b
	b	320b
805:
	mov	x8, xzr
	sub	x1, x29, #24
848:
	ldurh	w9, [x25, #-99]
	ldur	w10, [x25, #-103]
	mov	w26, wzr
	mov	w22, wzr
	orr	x9, x10, x9, lsl #32
	ldur	x10, [x25, #-64]
	mov	w25, #7
387:
	str	x28, [sp, #712]
	ldr	x28, [sp, #64]
	mov	w11, wzr
	str	x9, [sp, #688]
	str	x10, [sp, #696]
	str	x15, [sp, #704]
	str	x27, [sp, #720]
	str	x1, [sp, #728]
	str	x8, [sp, #736]
	str	x24, [sp, #744]
148:
	add	x24, sp, #528
570:
	ldp	q0, q1, [sp, #688]
	stur	q0, [x24, #4]
	ldp	q0, q2, [sp, #720]
	stur	q1, [x24, #20]
	stur	q0, [x24, #36]
	stur	q2, [x24, #52]
	cbz	w26, 688f
641:
	movi	v0.2d, #0000000000000000
	and	x8, x22, #0xff
	adrp	x9, .Lswitch.table.tc_session.engine.Engine.answer._5349ec06ad6c886c_.630.rel
	add	x9, x9, :lo12:.Lswitch.table.tc_session.engine.Engine.answer._5349ec06ad6c886c_.630.rel
	adrp	x11, .Lswitch.table.tc_session.engine.Engine.answer._5349ec06ad6c886c
	add	x11, x11, :lo12:.Lswitch.table.tc_session.engine.Engine.answer._5349ec06ad6c886c
	ldrsw	x10, [x9, x8, lsl #2]
	str	x20, [sp, #48]
	ldr	x21, [x11, x8, lsl #3]
	adrp	x23, .LTb42bdd72
	add	x23, x23, :lo12:.LTb42bdd72
	mov	w24, #46
	add	x1, x9, x10
	adrp	x9, .LJa9983fb3_1
	add	x9, x9, :lo12:.LJa9983fb3_1
	stp	q0, q0, [sp, #608]
	stp	q0, q0, [sp, #640]
	adr	x10, 710f
	ldrh	w11, [x9, x8, lsl #1]
	add	x10, x10, x11, lsl #2
	br	x10
710:
	mov	x24, xzr
939:
	adrp	x23, .LTe3b0c442
	add	x23, x23, :lo12:.LTe3b0c442
922:
	movi	v0.2d, #0000000000000000
	ldr	x8, [sp, #48]
	mov	x25, #-1
	mov	w26, #32
	add	x0, sp, #976
	mov	x2, x21
	str	x8, [sp, #976]
	add	x8, sp, #976
	add	x20, sp, #976
	str	xzr, [sp, #1112]
	stp	q0, q0, [sp, #768]
	stp	q0, q0, [sp, #800]
	stur	q0, [x8, #8]
	stur	q0, [x8, #24]
	stur	q0, [x8, #40]
	stur	q0, [x8, #56]
	stur	q0, [x8, #72]
	stur	q0, [x8, #88]
	str	xzr, [sp, #1104]
	stur	xzr, [x8, #108]
	str	w26, [sp, #1080]
	str	wzr, [sp, #1092]
	str	x25, [sp, #1096]
	bl	std.io.traits.AdapterWrite.write_str._5349ec06ad6c886c
	and	w8, w0, #0xff
	tbnz	w8, #0, 190f
	ubfiz	x8, x22, #3, #8
	adrp	x9, .Lswitch.table.std.io.traits.Write.write_fmt._66d26946d4f3efb7
	add	x9, x9, :lo12:.Lswitch.table.std.io.traits.Write.write_fmt._66d26946d4f3efb7
	ldr	x10, [sp, #1104]
	add	x0, sp, #976
	str	w26, [sp, #1080]
	ldr	x2, [x9, x8]
	adrp	x9, .Lswitch.table.std.io.traits.Write.write_fmt._66d26946d4f3efb7_.638
	add	x9, x9, :lo12:.Lswitch.table.std.io.traits.Write.write_fmt._66d26946d4f3efb7_.638
	ldr	x1, [x9, x8]
	stur	xzr, [x20, #108]
	stur	wzr, [x20, #116]
	str	x25, [sp, #1096]
	cbnz	x10, 412f
	bl	std.io.traits.AdapterWrite.write_str._5349ec06ad6c886c
	and	w8, w0, #0xff
	tbnz	w8, #0, 190f
523:
	mov	w8, #32
	ldr	x9, [sp, #1104]
	add	x0, sp, #976
	str	w8, [sp, #1080]
	mov	x8, #-1
	mov	x1, x23
	mov	x2, x24
	stur	xzr, [x20, #108]
	stur	wzr, [x20, #116]
	str	x8, [sp, #1096]
	cbnz	x9, 970f
	bl	std.io.traits.AdapterWrite.write_str._5349ec06ad6c886c
	and	w8, w0, #0xff
	tbz	w8, #0, 264f
190:
	mov	w8, #1
737:
	movi	v1.2d, #0000000000000000
	ldrb	w9, [sp, #984]
	ldr	s0, [sp, #992]
	ldr	w21, [sp, #996]
	ldr	x23, [sp, #1000]
	ldr	x22, [sp, #1008]
	cmp	x9, #1
	stp	q1, q1, [sp, #672]
	stp	q1, q1, [sp, #704]
	b.ne	443f
	ldur	q1, [x20, #40]
	ldur	q2, [x20, #56]
	ushll	v4.8h, v0.8b, #0
	ldur	q3, [x20, #72]
	ldur	q0, [x20, #88]
	mov	w24, #1
	stp	q1, q2, [sp, #672]
	stp	q3, q0, [sp, #704]
	b	530f
443:
	mov	w21, wzr
	cbz	w8, 14f
	movi	v0.16b, #46
	mov	x22, #8306
	mov	x23, #28518
	adrp	x8, .LCa9983fb3_1
	movk	x22, #29285, lsl #16
	movk	x23, #28018, lsl #16
	ldr	d4, [x8, :lo12:.LCa9983fb3_1]
	movk	x22, #28530, lsl #32
	movk	x23, #29793, lsl #32
	mov	w24, #1
	movk	x22, #11890, lsl #48
	movk	x23, #25972, lsl #48
	stp	q0, q0, [sp, #672]
	stp	q0, q0, [sp, #704]
	b	530f
688:
	ldur	q0, [x24, #4]
	add	x8, sp, #768
	ldur	q1, [x24, #20]
	add	x0, sp, #976
	add	x1, sp, #832
	strb	w25, [sp, #832]
	stur	q0, [x8, #72]
	ldur	q0, [x24, #36]
	stur	q1, [x8, #88]
	stur	q0, [x8, #104]
	ldur	q0, [x24, #52]
	strb	w23, [sp, #833]
	stur	q0, [x8, #120]
	movi	v0.2d, #0000000000000000
	mov	w8, #32
	str	w8, [sp, #1080]
	mov	x8, #-1
	strh	w11, [sp, #834]
	str	x20, [sp, #976]
	stur	q0, [x21, #8]
	stur	q0, [x21, #24]
	stur	q0, [x21, #40]
	stur	q0, [x21, #56]
	stur	q0, [x21, #72]
	stur	q0, [x21, #88]
	str	xzr, [sp, #1112]
	stur	xzr, [x21, #108]
	str	wzr, [sp, #1092]
	str	xzr, [sp, #1104]
	str	x8, [sp, #1096]
	bl	core.fmt.formatter.Formatter.write_piece._bca9c74da7838be5
	ldrb	w8, [sp, #984]
	cmp	x8, #1
	b.ne	447f
	ldr	s0, [sp, #992]
	ldur	q1, [x21, #40]
	ldur	q2, [x21, #56]
	ldur	q3, [x21, #72]
	ldr	x22, [sp, #1008]
	ldr	x23, [sp, #1000]
	ushll	v4.8h, v0.8b, #0
	ldur	q0, [x21, #88]
	ldr	w21, [sp, #996]
	stp	q1, q2, [sp, #672]
	stp	q3, q0, [sp, #704]
	b	989f
447:
	and	w8, w0, #0xff
	cbz	w8, 410f
	movi	v0.16b, #46
	mov	x22, #8306
	mov	x23, #28518
	adrp	x8, .LCa9983fb3_1
	movk	x22, #29285, lsl #16
	movk	x23, #28018, lsl #16
	ldr	d4, [x8, :lo12:.LCa9983fb3_1]
	movk	x22, #28530, lsl #32
	movk	x23, #29793, lsl #32
	mov	w21, wzr
	movk	x22, #11890, lsl #48
	movk	x23, #25972, lsl #48
	stp	q0, q0, [sp, #672]
	stp	q0, q0, [sp, #704]
989:
	ldp	q0, q1, [sp, #672]
	mov	w24, #1
	stp	q0, q1, [sp, #464]
	ldp	q0, q2, [sp, #704]
	stp	q0, q2, [sp, #496]
	cmp	w25, #2
	b.le	280f
607:
	sub	w8, w25, #3
	cmp	w8, #4
	b.lo	989f
	cmp	w25, #7
	b.ne	989f
	ldr	x8, [sp, #872]
	ldr	x20, [sp, #880]
	ldr	x25, [sp, #896]
	str	q4, [sp, #64]
	cbz	x8, 443f
	ldr	x0, [sp, #856]
	bl	rattle_dealloc
	ldr	q4, [sp, #64]
443:
	cbz	x25, 989f
	mov	x0, x20
	b	498f
14:
	mov	x23, xzr
	mov	x22, xzr
	movi	v4.2d, #0000000000000000
	mov	w24, wzr
530:
	ldp	q0, q1, [sp, #672]
	ldp	q3, q2, [sp, #704]
	stp	q0, q1, [sp, #464]
	stp	q3, q2, [sp, #496]
	stp	q0, q1, [sp, #608]
989:
	ldp	q0, q1, [sp, #496]
	ldp	q3, q2, [sp, #464]
	str	q0, [sp, #432]
	stp	q3, q2, [sp, #144]
	stp	q0, q1, [sp, #176]
	stp	q3, q2, [sp, #272]
	stp	q0, q1, [sp, #304]
	mov	w8, #1
	cbz	w24, 452f
538:
	uzp1	v0.8b, v4.8b, v0.8b
	ldp	q1, q2, [sp, #144]
	strh	w8, [x19]
	str	w21, [x19, #12]
	stp	q1, q2, [x19, #32]
	str	s0, [x19, #8]
	ldp	q0, q1, [sp, #176]
	stp	x23, x22, [x19, #16]
598:
	stp	q0, q1, [x19, #64]
	b	316f
452:
	mov	w9, wzr
	movi	v4.2d, #0000000000000000
	movi	v5.2d, #0000000000000000
	mov	w21, wzr
290:
	uzp1	v0.8b, v4.8b, v0.8b
	strb	w9, [x19]
	strb	w8, [x19, #1]
	str	w21, [x19, #12]
	str	s0, [x19, #8]
	ldp	q0, q1, [sp, #208]
	stp	q5, q0, [x19, #16]
	ldp	q0, q2, [sp, #240]
	stp	q1, q0, [x19, #48]
	str	q2, [x19, #80]
316:
	add	sp, sp, #1744
	ldp	x20, x19, [sp, #80]
	ldp	x22, x21, [sp, #64]
	ldp	x24, x23, [sp, #48]
	ldp	x26, x25, [sp, #32]
	ldp	x28, x27, [sp, #16]
	ldp	x29, x30, [sp], #96
	ret
168:
	adrp	x23, .LT2b151fb5
	add	x23, x23, :lo12:.LT2b151fb5
	mov	w24, #22
	b	922b
410:
	movi	v0.2d, #0000000000000000
	mov	w8, #1
	mov	w9, #499
	lsl	w8, w8, w25
	tst	w8, w9
	str	q0, [sp, #1056]
	str	q0, [sp, #1040]
	stp	q0, q0, [sp, #976]
	stp	q0, q0, [sp, #1008]
	b.ne	354f
	add	x0, sp, #976
	add	x1, x28, #8
	mov	w2, w23
	mov	x3, x20
	cmp	w25, #2
	bl	tc_live.receiver.Receiver.hand_on._5349ec06ad6c886c
354:
	ldr	s0, [sp, #984]
	ldp	q1, q2, [sp, #1008]
	ldrb	w24, [sp, #976]
	ldr	q3, [sp, #1040]
	ldr	w21, [sp, #988]
	ushll	v4.8h, v0.8b, #0
	ldr	q0, [sp, #1056]
	ldr	x23, [sp, #992]
	ldr	x22, [sp, #1000]
	stp	q1, q2, [sp, #464]
	stp	q3, q0, [sp, #496]
	cmp	w25, #2
	b.gt	607b
280:
	cbz	w25, 989b
	cmp	w25, #1
	ldrb	w9, [sp, #840]
	mov	w10, #1
	ldr	x0, [sp, #848]
	ldr	x8, [sp, #864]
	mov	w11, #51
	lsl	w10, w10, w9
	tst	w10, w11
	b.ne	989b
	cmp	w9, #2
	cbz	x8, 989b
	str	q4, [sp, #64]
498:
	bl	rattle_dealloc
	ldr	q4, [sp, #64]
	b	989b
443:
	mov	x9, xzr
	cbz	x3, 321f
602:
	ldrb	w8, [x2, x9]
	mov	w10, #1
	mov	x11, #8704
	movk	x11, #1, lsl #32
	lsl	x10, x10, x8
	cmp	w8, #32
	and	x8, x10, x11
	ccmp	x8, #0, #4, ls
	b.eq	321f
	add	x9, x9, #1
	cmp	x3, x9
	b.ne	602b
	mov	x9, x3
321:
	subs	x8, x3, x9
	b.eq	710b
	cmp	x8, #63
	add	x23, x2, x9
	b.hi	523f
	mov	x0, xzr
602:
	ldrb	w9, [x23, x0]
	mov	w10, #1
	mov	x11, #8704
	movk	x11, #1, lsl #32
	lsl	x10, x10, x9
	cmp	w9, #32
	and	x9, x10, x11
	ccmp	x9, #0, #4, ls
	b.ne	291f
	add	x0, x0, #1
	cmp	x8, x0
	b.ne	602b
	mov	x20, x1
	mov	x0, x8
	b	474f
179:
	adrp	x23, .LTf01cae55
	add	x23, x23, :lo12:.LTf01cae55
	mov	w24, #19
	b	922b
110:
	adrp	x23, .LT5cde739f
	add	x23, x23, :lo12:.LT5cde739f
	mov	w24, #25
	b	922b
181:
	adrp	x23, .LTaa0e5251
	add	x23, x23, :lo12:.LTaa0e5251
	mov	w24, #33
	b	922b
14:
	mov	x9, xzr
	cbz	x3, 321f
602:
	ldrb	w8, [x2, x9]
	mov	w10, #1
	mov	x11, #8704
	movk	x11, #1, lsl #32
	lsl	x10, x10, x8
	cmp	w8, #32
	and	x8, x10, x11
	ccmp	x8, #0, #4, ls
	b.eq	321f
	add	x9, x9, #1
	cmp	x3, x9
	b.ne	602b
	mov	x9, x3
321:
	subs	x8, x3, x9
	b.eq	652f
	cmp	x8, #63
	add	x23, x2, x9
	b.hi	875f
	mov	x0, xzr
602:
	ldrb	w9, [x23, x0]
	mov	w10, #1
	mov	x11, #8704
	movk	x11, #1, lsl #32
	lsl	x10, x10, x9
	cmp	w9, #32
	and	x9, x10, x11
	ccmp	x9, #0, #4, ls
	b.ne	280f
	add	x0, x0, #1
	cmp	x8, x0
	b.ne	602b
	mov	x0, x8
	b	280f
595:
	mov	x8, xzr
	cbz	x3, 321f
602:
	ldrb	w9, [x2, x8]
	mov	w10, #1
	mov	x11, #8704
	movk	x11, #1, lsl #32
	lsl	x10, x10, x9
	cmp	w9, #32
	and	x9, x10, x11
	ccmp	x9, #0, #4, ls
	b.eq	321f
	add	x8, x8, #1
	cmp	x3, x8
	b.ne	602b
	mov	x8, x3
321:
	subs	x24, x3, x8
	b.eq	939b
	cmp	x24, #63
	add	x23, x2, x8
	b.hi	499f
	mov	x0, xzr
602:
	ldrb	w8, [x23, x0]
	mov	w9, #1
	mov	x10, #8704
	movk	x10, #1, lsl #32
	lsl	x9, x9, x8
	cmp	w8, #32
	and	x8, x9, x10
	ccmp	x8, #0, #4, ls
	b.ne	805f
	add	x0, x0, #1
	cmp	x24, x0
	b.ne	602b
	mov	x25, x1
	mov	x0, x24
	b	937f
939:
	adrp	x23, .LT867c18b7
	add	x23, x23, :lo12:.LT867c18b7
	mov	w24, #16
	b	922b
686:
	adrp	x23, .LT53c01e12
	add	x23, x23, :lo12:.LT53c01e12
	mov	w24, #19
	b	922b
501:
	adrp	x23, .LT9cd6e722
	add	x23, x23, :lo12:.LT9cd6e722
	mov	w24, #15
	b	922b
412:
	bl	core.fmt.formatter.Formatter.write_indented._1ac78889755d2eb3
	and	w8, w0, #0xff
	tbnz	w8, #0, 190b
	b	523b
523:
	mov	x20, x1
	mov	x0, x23
	mov	x1, x8
	bl	tc_lines.word.long_word_length
	b	474f
875:
	mov	x0, x23
	mov	x20, x1
	mov	x1, x8
	bl	tc_lines.word.long_word_length
	mov	x1, x20
280:
	cmp	x0, #2
	b.hs	602f
652:
	adrp	x23, .LTd9a806d0
	add	x23, x23, :lo12:.LTd9a806d0
	mov	w24, #104
	b	922b
602:
	ldrb	w8, [x23]
	b.ne	67f
	cmp	w8, #254
	b.eq	401f
	cmp	w8, #255
	b.eq	87f
	b	652b
499:
	mov	x25, x1
	mov	x0, x23
	mov	x1, x24
	bl	tc_lines.word.long_word_length
	b	937f
291:
	mov	x20, x1
474:
	cmp	x0, #5
	b.gt	280f
	cmp	x0, #3
	mov	x1, x20
	b.eq	938f
	cmp	x0, #4
	b.eq	559f
	cmp	x0, #5
	b.ne	710b
	ldrb	w26, [x23]
	ldrb	w25, [x23, #1]
	ldrb	w24, [x23, #2]
	ldrb	w20, [x23, #3]
	cmp	w26, #113
	b.ne	611f
	cmp	w25, #117
	b.ne	611f
	cmp	w24, #101
	b.ne	611f
	cmp	w20, #117
	b.ne	611f
	adrp	x2, .LTcbc8f03c
	add	x2, x2, :lo12:.LTcbc8f03c
	mov	x0, x23
	mov	x28, x1
	mov	w1, #5
	bl	core.cmp.slices.groups_equal._i8_31_core.cmp.numbers.U8PartialEq
	mov	x1, x28
	tbz	w0, #0, 611f
	adrp	x23, .LT7666c1d5
	add	x23, x23, :lo12:.LT7666c1d5
	mov	w24, #30
	b	922b
280:
	cmp	x0, #6
	mov	x1, x20
	b.eq	354f
	cmp	x0, #7
	b.eq	688f
	cmp	x0, #9
	b.ne	710b
	ldr	w8, [x23]
	mov	w9, #24931
	movk	w9, #25710, lsl #16
	cmp	w8, w9
	b.ne	710b
	adrp	x2, .LT3fe1d88b
	add	x2, x2, :lo12:.LT3fe1d88b
	mov	x0, x23
	mov	x20, x1
	mov	w1, #9
	bl	core.cmp.slices.groups_equal._i8_31_core.cmp.numbers.U8PartialEq
	mov	x1, x20
	tbz	w0, #0, 710b
	adrp	x23, .LTb4d0c9a1
	add	x23, x23, :lo12:.LTb4d0c9a1
	mov	w24, #44
	b	922b
805:
	mov	x25, x1
937:
	cmp	x0, #4
	add	x20, x23, x0
	sub	x26, x24, x0
	b.gt	280f
	cmp	x0, #3
	mov	x1, x25
	b.eq	556f
	cmp	x0, #4
	b.ne	638f
	ldrb	w28, [x23]
	ldrb	w24, [x23, #1]
	ldrb	w27, [x23, #2]
	ldrb	w25, [x23, #3]
	cmp	w28, #116
	b.ne	474f
	cmp	w24, #97
	b.ne	474f
	cmp	w27, #107
	b.ne	474f
	cmp	w25, #101
	b.ne	474f
	adrp	x2, .LTec03c545
	add	x2, x2, :lo12:.LTec03c545
	mov	x0, x23
	str	x1, [sp, #64]
	mov	w1, #4
	bl	core.cmp.slices.groups_equal._i8_31_core.cmp.numbers.U8PartialEq
	ldr	x1, [sp, #64]
	tbz	w0, #0, 474f
	adrp	x13, .LT97e35543
	add	x13, x13, :lo12:.LT97e35543
	mov	w25, #2
	mov	x28, xzr
	b	613f
280:
	cmp	x0, #5
	mov	x1, x25
	b.eq	885f
	cmp	x0, #7
	b.ne	638f
	ldr	w8, [x23]
	mov	w9, #26723
	movk	w9, #28257, lsl #16
	cmp	w8, w9
	b.ne	638f
	adrp	x2, .LT7259b668
	add	x2, x2, :lo12:.LT7259b668
	mov	x0, x23
	mov	x23, x1
	mov	w1, #7
	bl	core.cmp.slices.groups_equal._i8_31_core.cmp.numbers.U8PartialEq
	mov	x1, x23
	tbz	w0, #0, 638f
	adrp	x13, .LTa22647a1
	add	x13, x13, :lo12:.LTa22647a1
	mov	w25, #4
	mov	x28, xzr
	b	613f
970:
	bl	core.fmt.formatter.Formatter.write_indented._1ac78889755d2eb3
	and	w8, w0, #0xff
	tbnz	w8, #0, 190b
264:
	mov	w8, #32
	ldr	x9, [sp, #1104]
	adrp	x1, .LT3235efc0
	add	x1, x1, :lo12:.LT3235efc0
	str	w8, [sp, #1080]
	mov	x8, #-1
	add	x0, sp, #976
	mov	w2, #1
	stur	xzr, [x20, #108]
	stur	wzr, [x20, #116]
	str	x8, [sp, #1096]
	cbnz	x9, 498f
	bl	std.io.traits.AdapterWrite.write_str._5349ec06ad6c886c
447:
	and	w8, w0, #0xff
	b	737b
367:
	ldr	x13, [sp, #1000]
	ldr	x14, [sp, #1008]
	ldr	x10, [sp, #1016]
	ldr	x11, [sp, #1024]
	cbz	x15, 976f
	ldr	x16, [sp, #984]
	ldp	x3, x2, [sp, #32]
	ldr	x28, [sp, #64]
	ldrb	w8, [x16]
	sub	w8, w8, #48
	cmp	w8, #9
	b.hi	32f
	cmp	x15, #1
	b.ne	457f
523:
	mov	w12, wzr
190:
	mov	w8, #10
	ldrb	w9, [x16], #1
	mul	w8, w12, w8
	subs	x15, x15, #1
	sub	w9, w9, #48
	add	w12, w8, w9, uxtb
	b.ne	190b
	cmp	w12, #256
	b.lo	606f
	b	32f
585:
	sub	x0, x29, #64
	add	x1, x28, #16
	bl	tc_rack.performing.begin_anew._ecad586609b5e68f
	tst	w0, #0xff
	add	x24, sp, #528
	b.eq	699f
	movi	v0.2d, #0000000000000000
	ldr	x3, [sp, #32]
	mov	w22, w1
	mov	w23, wzr
	mov	w25, wzr
	mov	w26, #1
	stp	q0, q0, [sp, #688]
	stp	q0, q0, [sp, #720]
	b	552b
946:
	add	x0, sp, #976
	add	x1, x28, #16
	bl	tc_rack.performing.begin_anew._ecad586609b5e68f
	tst	w0, #0xff
	b.ne	190f
	ldrb	w8, [x28, #16]
	cmp	w8, #1
	b.eq	885b
	b	174f
312:
	add	x0, sp, #976
	add	x1, x28, #16
	bl	tc_rack.performing.begin_anew._ecad586609b5e68f
	tst	w0, #0xff
	b.eq	227f
190:
	mov	w22, w1
	b	976b
231:
	add	x0, sp, #1200
	add	x1, x28, #16
	bl	tc_rack.performing.begin_anew._ecad586609b5e68f
	tst	w0, #0xff
	add	x24, sp, #528
	b.eq	709f
	movi	v0.2d, #0000000000000000
	ldp	x3, x2, [sp, #32]
	mov	w22, w1
	mov	w23, wzr
	mov	w25, wzr
	mov	w26, #1
	mov	w11, wzr
	stp	q0, q0, [sp, #688]
	stp	q0, q0, [sp, #720]
	b	570b
67:
	cmp	w8, #255
	b.eq	87f
	cmp	w8, #254
	b.eq	401f
	cmp	w8, #239
	b.ne	652b
	ldrb	w8, [x23, #1]
	cmp	w8, #187
	b.ne	652b
	ldrb	w8, [x23, #2]
	cmp	w8, #191
	b.ne	652b
	b	652f
733:
	mov	x0, x24
	mov	x1, x25
	bl	tc_lines.word.long_word_length
	ldp	x3, x2, [sp, #32]
200:
	cmp	x25, x0
	b.eq	607f
	add	x10, x26, x28
	add	x8, x23, x0
	sub	x9, x22, x26
	add	x10, x2, x10
602:
	ldrb	w11, [x10, x8]
	mov	w12, #1
	mov	x13, #8704
	movk	x13, #1, lsl #32
	lsl	x12, x12, x11
	cmp	w11, #32
	and	x11, x12, x13
	ccmp	x11, #0, #4, ls
	b.eq	848f
	add	x8, x8, #1
	cmp	x9, x8
	b.ne	602b
607:
	sub	x8, x0, #6
	cmn	x8, #5
	b.lo	859f
	cbz	x0, 263f
	ldrb	w8, [x24]
	ldr	x28, [sp, #64]
	sub	w8, w8, #48
	cmp	w8, #9
	b.hi	859f
	cmp	x0, #1
	b.ne	352f
190:
	mov	w23, wzr
875:
	mov	w8, #10
	ldrb	w9, [x24], #1
	mul	w8, w23, w8
	subs	x0, x0, #1
	sub	w9, w9, #48
	add	w23, w8, w9, uxtb
	b.ne	875b
	cmp	w23, #255
	b.hi	859f
	b	983f
556:
	ldrb	w8, [x23]
	cmp	w8, #109
	b.ne	638f
	ldrb	w8, [x23, #1]
	cmp	w8, #97
	b.ne	638f
	ldrb	w8, [x23, #2]
	cmp	w8, #112
	b.ne	638f
	adrp	x13, .LTa781307c
	add	x13, x13, :lo12:.LTa781307c
	mov	w25, #3
	mov	x28, xzr
	b	613f
885:
	ldr	w8, [x23]
	mov	w9, #30065
	movk	w9, #30053, lsl #16
	cmp	w8, w9
	b.ne	638f
	adrp	x2, .LTcbc8f03c
	add	x2, x2, :lo12:.LTcbc8f03c
	mov	x0, x23
	mov	x23, x1
	mov	w1, #5
	bl	core.cmp.slices.groups_equal._i8_31_core.cmp.numbers.U8PartialEq
	mov	x1, x23
	tbz	w0, #0, 638f
	adrp	x13, .LTf506dd5d
	add	x13, x13, :lo12:.LTf506dd5d
	mov	w25, #3
	mov	x28, xzr
	b	613f
287:
	add	x11, sp, #1248
	mov	w2, wzr
	str	wzr, [sp, #40]
	mov	w26, wzr
	mov	w25, wzr
	mov	w24, wzr
	mov	w28, wzr
	mov	w27, wzr
	mov	x20, xzr
	stur	xzr, [x11, #165]
	mov	w1, #2
	mov	w0, #1
	str	xzr, [sp, #1408]
	b	943f
474:
	cmp	w28, #117
	b.ne	280f
	cmp	w24, #110
	b.ne	280f
	cmp	w27, #105
	b.ne	280f
	cmp	w25, #116
	b.ne	280f
	adrp	x2, .LTce6eba13
	add	x2, x2, :lo12:.LTce6eba13
	mov	x0, x23
	str	x1, [sp, #64]
	mov	w1, #4
	bl	core.cmp.slices.groups_equal._i8_31_core.cmp.numbers.U8PartialEq
	ldr	x1, [sp, #64]
	tbz	w0, #0, 280f
	adrp	x13, .LT122e95d1
	add	x13, x13, :lo12:.LT122e95d1
	mov	w25, #2
	mov	x28, xzr
	b	613f
552:
	ldr	x28, [sp, #64]
	mov	w23, wzr
992:
	mov	x24, xzr
	mov	x25, xzr
	mov	x9, xzr
	mov	w11, wzr
	mov	w10, wzr
	mov	w12, wzr
	mov	w13, wzr
	mov	w8, #3
	mov	w14, wzr
	mov	w26, wzr
	mov	w27, wzr
	cmp	w8, #2
	b.le	118b
	b	320b
563:
	ldr	x28, [sp, #64]
	mov	w23, wzr
634:
	mov	x24, xzr
	mov	x25, xzr
	mov	x9, xzr
	mov	w11, wzr
	mov	w10, wzr
	mov	w12, wzr
	mov	w13, wzr
	mov	w8, #2
	mov	w14, wzr
	mov	w26, wzr
	mov	w27, wzr
	cmp	w8, #2
	b.le	118b
	b	320b
401:
	ldrb	w8, [x23, #1]
	cmp	w8, #255
	b.ne	652b
	b	652f
87:
	ldrb	w8, [x23, #1]
	cmp	w8, #254
	b.ne	652b
652:
	adrp	x23, .LTe897ed64
	add	x23, x23, :lo12:.LTe897ed64
	mov	w24, #66
	b	922b
938:
	ldrb	w8, [x23]
	cmp	w8, #109
	b.ne	710b
	ldrb	w8, [x23, #1]
	cmp	w8, #97
	b.ne	710b
	ldrb	w8, [x23, #2]
	cmp	w8, #112
	b.ne	710b
	adrp	x23, .LTf8f41d37
	add	x23, x23, :lo12:.LTf8f41d37
	mov	w24, #27
	b	922b
354:
	ldr	w8, [x23]
	mov	w9, #25970
	movk	w9, #28528, lsl #16
	cmp	w8, w9
	b.ne	710b
	adrp	x2, .LT9561cdf1
	add	x2, x2, :lo12:.LT9561cdf1
	mov	x0, x23
	mov	x20, x1
	mov	w1, #6
	bl	core.cmp.slices.groups_equal._i8_31_core.cmp.numbers.U8PartialEq
	mov	x1, x20
	tbz	w0, #0, 710b
	adrp	x23, .LT20344b8d
	add	x23, x23, :lo12:.LT20344b8d
	mov	w24, #17
	b	922b
559:
	ldrb	w26, [x23]
	ldrb	w25, [x23, #1]
	ldrb	w24, [x23, #2]
	ldrb	w20, [x23, #3]
	cmp	w26, #116
	b.ne	474f
	cmp	w25, #97
	b.ne	474f
	cmp	w24, #107
	b.ne	474f
	cmp	w20, #101
	b.ne	474f
	adrp	x2, .LTec03c545
	add	x2, x2, :lo12:.LTec03c545
	mov	x0, x23
	mov	x28, x1
	mov	w1, #4
	bl	core.cmp.slices.groups_equal._i8_31_core.cmp.numbers.U8PartialEq
	mov	x1, x28
	tbz	w0, #0, 474f
	adrp	x23, .LTa7775bb0
	add	x23, x23, :lo12:.LTa7775bb0
	mov	w24, #20
	b	922b
688:
	ldrb	w26, [x23]
	ldrb	w25, [x23, #1]
	mov	x20, x1
	ldrb	w28, [x23, #2]
	ldrb	w24, [x23, #3]
	cmp	w26, #99
	b.ne	937f
	cmp	w25, #104
	b.ne	937f
	cmp	w28, #97
	b.ne	937f
	cmp	w24, #110
	b.ne	937f
	adrp	x2, .LT7259b668
	add	x2, x2, :lo12:.LT7259b668
	mov	x0, x23
	mov	w1, #7
	bl	core.cmp.slices.groups_equal._i8_31_core.cmp.numbers.U8PartialEq
	tbz	w0, #0, 937f
	adrp	x23, .LTfebbbac6
	add	x23, x23, :lo12:.LTfebbbac6
	mov	w24, #42
	mov	x1, x20
	b	922b
627:
	subs	x1, x9, x8
	b.eq	625b
	b	118f
694:
	subs	x1, x9, x8
	b.eq	893b
	b	118f
506:
	subs	x1, x10, x9
	b.eq	62b
	cmp	x1, #64
	b.lo	885f
	add	x8, x26, x28
	add	x9, x2, x9
	add	x0, x9, x8
	bl	tc_lines.word.long_word_length
	ldr	x2, [sp, #40]
885:
	ldr	x3, [sp, #32]
	mov	x24, xzr
	mov	x25, xzr
	b	911b
498:
	bl	core.fmt.formatter.Formatter.write_indented._1ac78889755d2eb3
	b	447b
41:
	ldur	w12, [x29, #-176]
	ldur	q0, [x29, #-192]
	mov	x8, xzr
	mov	w10, wzr
	mov	w9, wzr
	mov	w11, wzr
	stur	w12, [x29, #-144]
	mov	w12, #8
	mov	w20, wzr
	mov	w28, wzr
	mov	w3, wzr
	mov	w2, wzr
	mov	w1, wzr
	mov	w0, wzr
	stur	q0, [x29, #-160]
	str	w12, [sp, #40]
	mov	x15, x21
	add	x17, sp, #1248
	b	236b
911:
	mov	x9, xzr
	mov	x10, xzr
	mov	x15, xzr
	mov	x28, xzr
	b	583b
740:
	add	x10, sp, #1248
	ldr	x8, [sp, #1256]
	ldur	w9, [x10, #15]
	str	x8, [sp, #1296]
	and	w28, w8, #0xff
	stur	w9, [x10, #55]
	ldurh	w23, [x10, #49]
	ldur	x24, [x10, #51]
	cbz	x27, 236f
	mov	x0, x22
	bl	rattle_dealloc
236:
	ldur	x8, [x20, #19]
	ldur	x9, [x20, #24]
	mov	w22, #6
	b	893f
536:
	add	x8, sp, #1248
	ldrb	w28, [sp, #1320]
	ldurh	w23, [x8, #73]
	ldur	x24, [x8, #75]
	cbz	x27, 236f
	mov	x0, x22
	bl	rattle_dealloc
236:
	ldur	x8, [x20, #19]
	ldur	x9, [x20, #24]
	mov	w22, #5
893:
	str	x8, [sp, #1184]
	stur	x9, [x21, #213]
	mov	w27, w23
	mov	x20, x24
	b	613b
280:
	cmp	w28, #108
	b.ne	638f
	cmp	w24, #105
	b.ne	638f
	cmp	w27, #110
	b.ne	638f
	cmp	w25, #107
	b.ne	638f
	adrp	x2, .LT3beabe2d
	add	x2, x2, :lo12:.LT3beabe2d
	mov	x0, x23
	mov	x23, x1
	mov	w1, #4
	bl	core.cmp.slices.groups_equal._i8_31_core.cmp.numbers.U8PartialEq
	mov	x1, x23
	tbz	w0, #0, 638f
	adrp	x13, .LT01a22a66
	add	x13, x13, :lo12:.LT01a22a66
	mov	w25, #3
	mov	x28, xzr
	b	613f
638:
	adrp	x13, .LT84067936
	add	x13, x13, :lo12:.LT84067936
	mov	w25, #1
	mov	x28, xzr
613:
	mov	x8, xzr
	cbz	x26, 321f
602:
	ldrb	w9, [x20, x8]
	mov	w10, #1
	mov	x11, #8704
	movk	x11, #1, lsl #32
	lsl	x10, x10, x9
	cmp	w9, #32
	and	x9, x10, x11
	ccmp	x9, #0, #4, ls
	b.eq	321f
	add	x8, x8, #1
	cmp	x26, x8
	b.ne	602b
	mov	x8, x26
321:
	subs	x23, x26, x8
	b.eq	710b
	add	x20, x20, x8
	cmp	x23, #63
	mov	x24, x20
	b.hi	911f
	mov	x0, xzr
602:
	ldrb	w8, [x24, x0]
	mov	w9, #1
	mov	x10, #8704
	movk	x10, #1, lsl #32
	lsl	x9, x9, x8
	cmp	w8, #32
	and	x8, x9, x10
	ccmp	x8, #0, #4, ls
	b.ne	625f
	add	x0, x0, #1
	cmp	x23, x0
	b.ne	602b
	mov	x0, x23
	b	625f
911:
	mov	x0, x24
	mov	x26, x1
	mov	x1, x23
	mov	x27, x21
	mov	x21, x22
	mov	x22, x13
	bl	tc_lines.word.long_word_length
	mov	x13, x22
	mov	x22, x21
	mov	x21, x27
	mov	x1, x26
625:
	sub	x9, x0, #6
	ldrb	w8, [x13, x28]
	cmn	x9, #5
	b.lo	638f
	cbz	x0, 583f
	ldrb	w9, [x24]
	sub	w9, w9, #48
	cmp	w9, #9
	b.hi	638f
	cmp	x0, #1
	b.eq	911f
	ldrb	w9, [x24, #1]
	sub	w9, w9, #48
	cmp	w9, #9
	b.hi	638f
	cmp	x0, #2
	b.eq	911f
	ldrb	w9, [x24, #2]
	sub	w9, w9, #48
	cmp	w9, #9
	b.hi	638f
	cmp	x0, #3
	b.eq	911f
	ldrb	w9, [x24, #3]
	sub	w9, w9, #48
	cmp	w9, #9
	b.hi	638f
	cmp	x0, #4
	b.eq	911f
	ldrb	w9, [x24, #4]
	sub	w9, w9, #48
	cmp	w9, #9
	b.hi	638f
	cmp	x0, #5
	b.ne	638f
911:
	mov	w9, wzr
	mov	x10, x0
911:
	mov	w11, #10
	subs	x10, x10, #1
	mul	w9, w9, w11
	ldrb	w11, [x24], #1
	sub	w11, w11, #48
	add	w9, w9, w11, uxtb
	b.ne	911b
	lsr	w10, w9, #16
	cbz	w10, 652f
	b	638f
583:
	mov	w9, wzr
652:
	adrp	x10, .Lswitch.table.tc_session.engine.Engine.answer._5349ec06ad6c886c_.631
	add	x10, x10, :lo12:.Lswitch.table.tc_session.engine.Engine.answer._5349ec06ad6c886c_.631
	ldrh	w10, [x10, x8, lsl #1]
	cmp	w9, w10
	b.hi	638f
	add	x28, x28, #1
	mov	x24, xzr
	add	x20, x20, x0
	cmp	x28, x25
	sub	x26, x23, x0
	adrp	x23, .LTe3b0c442
	add	x23, x23, :lo12:.LTe3b0c442
	b.ne	613b
	b	922b
638:
	adrp	x9, .Lswitch.table.tc_session.engine.Engine.answer._5349ec06ad6c886c_.633.rel
	add	x9, x9, :lo12:.Lswitch.table.tc_session.engine.Engine.answer._5349ec06ad6c886c_.633.rel
	adrp	x11, .Lswitch.table.tc_session.engine.Engine.answer._5349ec06ad6c886c_.632
	add	x11, x11, :lo12:.Lswitch.table.tc_session.engine.Engine.answer._5349ec06ad6c886c_.632
	ldrsw	x10, [x9, x8, lsl #2]
	ldr	x24, [x11, x8, lsl #3]
	add	x23, x9, x10
	b	922b
611:
	cmp	w26, #102
	b.ne	710b
	cmp	w25, #114
	b.ne	710b
	cmp	w24, #97
	b.ne	710b
	cmp	w20, #109
	b.ne	710b
	adrp	x2, .LT4903b024
	add	x2, x2, :lo12:.LT4903b024
	mov	x0, x23
	mov	x20, x1
	mov	w1, #5
	bl	core.cmp.slices.groups_equal._i8_31_core.cmp.numbers.U8PartialEq
	mov	x1, x20
	tbz	w0, #0, 710b
	adrp	x23, .LT4519a8fe
	add	x23, x23, :lo12:.LT4519a8fe
	mov	w24, #40
	b	922b
474:
	cmp	w26, #117
	b.ne	280f
	cmp	w25, #110
	b.ne	280f
	cmp	w24, #105
	b.ne	280f
	cmp	w20, #116
	b.ne	280f
	adrp	x2, .LTce6eba13
	add	x2, x2, :lo12:.LTce6eba13
	mov	x0, x23
	mov	x28, x1
	mov	w1, #4
	bl	core.cmp.slices.groups_equal._i8_31_core.cmp.numbers.U8PartialEq
	mov	x1, x28
	tbz	w0, #0, 280f
	adrp	x23, .LTf6c2c042
	add	x23, x23, :lo12:.LTf6c2c042
	mov	w24, #19
	b	922b
937:
	cmp	w28, #108
	b.ne	474f
	cmp	w25, #101
	b.ne	474f
	cmp	w26, #114
	b.ne	474f
	cmp	w24, #101
	b.ne	474f
	adrp	x2, .LT4a7dd6d5
	add	x2, x2, :lo12:.LT4a7dd6d5
	mov	x0, x23
	mov	w1, #7
	bl	core.cmp.slices.groups_equal._i8_31_core.cmp.numbers.U8PartialEq
	mov	x1, x20
	tbz	w0, #0, 710b
	adrp	x23, .LT82b69449
	add	x23, x23, :lo12:.LT82b69449
	mov	w24, #18
	b	922b
62:
	add	x10, sp, #1248
	mov	x23, xzr
	str	wzr, [sp, #40]
	mov	w24, wzr
	mov	w12, wzr
	mov	w13, wzr
	mov	w28, wzr
	mov	w27, wzr
	mov	x20, xzr
	stur	xzr, [x10, #149]
	mov	w0, #1
	mov	w1, #2
	str	xzr, [sp, #1392]
	mov	w2, #1
	cbz	x15, 639f
33:
	str	w0, [sp, #16]
	mov	x0, x22
	mov	w22, w2
	str	x23, [sp, #32]
	mov	w26, w1
	mov	w25, w12
	mov	w23, w13
	bl	rattle_dealloc
	mov	w13, w23
	ldr	w0, [sp, #16]
	ldr	x23, [sp, #32]
	mov	w12, w25
	mov	w1, w26
	mov	w2, w22
	add	x10, sp, #1248
639:
	ldr	x8, [sp, #1392]
	ldur	x9, [x10, #149]
	mov	w3, wzr
	mov	w26, wzr
779:
	str	x8, [sp, #1184]
	stur	x9, [x21, #213]
	ldr	w22, [sp, #40]
	cbnz	w0, 716b
	b	93b
976:
	ldp	x3, x2, [sp, #32]
	mov	w12, wzr
	ldr	x28, [sp, #64]
606:
	sub	x8, x14, #6
	cmn	x8, #5
	b.lo	32f
	cbz	x14, 868f
	ldrb	w8, [x13]
	sub	w8, w8, #48
	cmp	w8, #9
	b.hi	32f
	cmp	x14, #1
	b.ne	602f
613:
	mov	w15, wzr
911:
	mov	w8, #10
	ldrb	w9, [x13], #1
	mul	w8, w15, w8
	subs	x14, x14, #1
	sub	w9, w9, #48
	add	w15, w8, w9, uxtb
	b.ne	911b
	cmp	w15, #1
	b.ls	893f
	b	462f
699:
	ldrb	w8, [x28, #16]
	cmp	w8, #1
	b.eq	187b
	b	174f
227:
	ldrb	w8, [x28, #16]
	ldp	x3, x2, [sp, #32]
	cmp	w8, #1
	b.eq	263b
	b	174f
709:
	ldrb	w8, [x28, #16]
	cmp	w8, #1
	b.eq	983b
174:
	brk	#0x1
280:
	cmp	w26, #99
	b.ne	280f
	cmp	w25, #108
	b.ne	280f
	cmp	w24, #99
	b.ne	280f
	cmp	w20, #119
	b.ne	280f
	adrp	x2, .LTd51b947e
	add	x2, x2, :lo12:.LTd51b947e
	mov	x0, x23
	mov	x28, x1
	mov	w1, #4
	bl	core.cmp.slices.groups_equal._i8_31_core.cmp.numbers.U8PartialEq
	mov	x1, x28
	tbz	w0, #0, 280f
	adrp	x23, .LT28500682
	add	x23, x23, :lo12:.LT28500682
	mov	w24, #15
	b	922b
263:
	ldr	x28, [sp, #64]
	mov	w23, wzr
983:
	mov	x24, xzr
	mov	x25, xzr
	mov	x9, xzr
	mov	w11, wzr
	mov	w10, wzr
	mov	w12, wzr
	mov	w13, wzr
	mov	w8, #4
	mov	w14, wzr
	mov	w26, wzr
	mov	w27, wzr
	cmp	w8, #2
	b.le	118b
	b	320b
848:
	subs	x1, x9, x8
	b.eq	607b
118:
	cmp	x1, #64
	b.lo	610f
	add	x9, x26, x28
	add	x8, x2, x8
	add	x0, x8, x9
	bl	tc_lines.word.long_word_length
	ldp	x3, x2, [sp, #32]
610:
	mov	w22, #1
	b	641b
187:
	mov	w10, wzr
137:
	ldp	x0, x8, [x22, #32]
	cmp	x8, #6
	b.eq	885f
	cmp	x8, #7
	b.ne	599f
	ldr	w8, [x0]
	mov	w9, #28515
	movk	w9, #29298, lsl #16
	cmp	w8, w9
	b.ne	599f
	adrp	x2, .LTdda79b15
	add	x2, x2, :lo12:.LTdda79b15
	mov	w1, #7
	mov	w20, w10
	bl	core.cmp.slices.groups_equal._i8_31_core.cmp.numbers.U8PartialEq
	sub	x18, x29, #96
	mov	x15, x21
	tbz	w0, #0, 599f
	mov	w3, w20
	mov	x8, xzr
	mov	w12, wzr
	mov	w9, wzr
	mov	w11, wzr
	mov	w20, wzr
	mov	w28, wzr
	mov	w23, wzr
	mov	w0, wzr
	mov	w1, wzr
	mov	w2, wzr
	mov	w10, #1
	b	911f
845:
	mov	w24, wzr
	mov	w26, wzr
63:
	ldr	x13, [x22, #40]
	sub	x8, x13, #6
	cmn	x8, #5
	b.lo	187f
	cbz	x13, 585f
	ldr	x14, [x22, #32]
	ldrb	w8, [x14]
	sub	w8, w8, #48
	cmp	w8, #9
	b.hi	187f
	cmp	x13, #1
	b.ne	556f
625:
	sub	x23, x29, #96
	mov	x21, x15
	mov	w27, wzr
983:
	mov	w8, #10
	ldrb	w9, [x14], #1
	mul	w8, w27, w8
	subs	x13, x13, #1
	sub	w9, w9, #48
	add	w27, w8, w9, uxtb
	b.ne	983b
	cmp	w27, #255
	b.ls	263f
	mov	x8, xzr
	str	wzr, [sp, #40]
	mov	w3, wzr
	mov	w10, wzr
	mov	w12, wzr
	mov	w9, wzr
	mov	w11, wzr
	mov	w20, wzr
	mov	w28, wzr
	mov	w23, wzr
	mov	w0, #1
	mov	w1, #3
	mov	w2, #1
	mov	x15, x21
	b	481f
320:
	ldrb	w8, [x24, #1]
	sub	w8, w8, #48
	cmp	w8, #9
	b.hi	859f
	cmp	x0, #2
	b.eq	599b
	ldrb	w8, [x24, #2]
	mov	x10, x19
	mov	x9, x20
	sub	w8, w8, #48
	cmp	w8, #9
	b.hi	976f
	ldp	x3, x2, [sp, #32]
	cmp	x0, #3
	ldr	x28, [sp, #64]
	add	x21, sp, #976
	mov	x20, x9
	mov	x19, x10
	b.eq	599b
	ldrb	w8, [x24, #3]
	sub	w8, w8, #48
	cmp	w8, #9
	b.hi	976f
	ldp	x3, x2, [sp, #32]
	cmp	x0, #4
	ldr	x28, [sp, #64]
	add	x21, sp, #976
	mov	x20, x9
	mov	x19, x10
	b.eq	599b
	ldrb	w8, [x24, #4]
	sub	w8, w8, #48
	cmp	w8, #9
	b.hi	570f
	ldp	x3, x2, [sp, #32]
	cmp	x0, #5
	ldr	x28, [sp, #64]
	add	x21, sp, #976
	mov	x20, x9
	mov	x19, x10
	mov	w22, #2
	b.eq	599b
	b	641b
604:
	ldrb	w8, [x24, #1]
	sub	w8, w8, #48
	cmp	w8, #9
	b.hi	859f
	cmp	x0, #2
	b.eq	307b
	ldrb	w8, [x24, #2]
	mov	x10, x19
	mov	x9, x20
	sub	w8, w8, #48
	cmp	w8, #9
	b.hi	976f
	ldp	x3, x2, [sp, #32]
	cmp	x0, #3
	ldr	x28, [sp, #64]
	add	x21, sp, #976
	mov	x20, x9
	mov	x19, x10
	b.eq	307b
	ldrb	w8, [x24, #3]
	sub	w8, w8, #48
	cmp	w8, #9
	b.hi	976f
	ldp	x3, x2, [sp, #32]
	cmp	x0, #4
	ldr	x28, [sp, #64]
	add	x21, sp, #976
	mov	x20, x9
	mov	x19, x10
	b.eq	307b
	ldrb	w8, [x24, #4]
	sub	w8, w8, #48
	cmp	w8, #9
	b.hi	570f
	ldp	x3, x2, [sp, #32]
	cmp	x0, #5
	ldr	x28, [sp, #64]
	add	x21, sp, #976
	mov	x20, x9
	mov	x19, x10
	mov	w22, #2
	b.eq	307b
	b	641b
280:
	cmp	w26, #108
	b.ne	710b
	cmp	w25, #105
	b.ne	710b
	cmp	w24, #110
	b.ne	710b
	cmp	w20, #107
	b.ne	710b
	adrp	x2, .LT3beabe2d
	add	x2, x2, :lo12:.LT3beabe2d
	mov	x0, x23
	mov	x20, x1
	mov	w1, #4
	bl	core.cmp.slices.groups_equal._i8_31_core.cmp.numbers.U8PartialEq
	mov	x1, x20
	tbz	w0, #0, 710b
	adrp	x23, .LT0a6e5077
	add	x23, x23, :lo12:.LT0a6e5077
	mov	w24, #21
	b	922b
187:
	mov	x8, xzr
	str	wzr, [sp, #40]
	mov	w3, wzr
	mov	w10, wzr
	mov	w12, wzr
	mov	w9, wzr
	mov	w11, wzr
	mov	w20, wzr
	mov	w28, wzr
	mov	w23, wzr
	mov	w0, #1
	mov	w1, #3
	mov	w2, #1
	b	232b
474:
	cmp	w28, #108
	b.ne	118f
	cmp	w25, #101
	b.ne	118f
	cmp	w26, #100
	b.ne	118f
	cmp	w24, #105
	b.ne	118f
	adrp	x2, .LT9ce88526
	add	x2, x2, :lo12:.LT9ce88526
	mov	x0, x23
	mov	w1, #7
	bl	core.cmp.slices.groups_equal._i8_31_core.cmp.numbers.U8PartialEq
	mov	x1, x20
	tbz	w0, #0, 710b
	adrp	x23, .LTa322abf3
	add	x23, x23, :lo12:.LTa322abf3
	mov	w24, #18
	b	922b
458:
	ldr	x23, [sp, #776]
	ldr	x24, [sp, #784]
	mov	w22, wzr
	ldr	x26, [sp, #792]
	mov	w27, #4
	mov	w28, #1
317:
	mov	x0, x20
	ldr	x20, [sp, #48]
	cbnz	x25, 32b
	b	375b
457:
	ldrb	w8, [x16, #1]
	sub	w8, w8, #48
	cmp	w8, #9
	b.hi	32f
	cmp	x15, #2
	b.eq	523b
	ldrb	w8, [x16, #2]
	mov	x17, x19
	mov	x12, x20
	sub	w8, w8, #48
	cmp	w8, #9
	b.hi	530f
	ldp	x3, x2, [sp, #32]
	cmp	x15, #3
	ldr	x28, [sp, #64]
	add	x21, sp, #976
	mov	x20, x12
	mov	x19, x17
	b.eq	523b
	ldrb	w8, [x16, #3]
	sub	w8, w8, #48
	cmp	w8, #9
	b.hi	530f
	ldp	x3, x2, [sp, #32]
	cmp	x15, #4
	ldr	x28, [sp, #64]
	add	x21, sp, #976
	mov	x20, x12
	mov	x19, x17
	b.eq	523b
	ldrb	w9, [x16, #4]
	mov	w8, wzr
	sub	w9, w9, #48
	cmp	w9, #9
	mov	w9, #1
	b.hi	137f
	ldp	x3, x2, [sp, #32]
	cmp	x15, #5
	ldr	x28, [sp, #64]
	mov	w23, w8
	mov	w26, w8
	mov	w27, w8
	add	x21, sp, #976
	mov	x20, x12
	mov	x19, x17
	mov	w22, #2
	b.eq	523b
	b	239b
32:
	mov	w8, wzr
	mov	w23, wzr
	mov	w26, wzr
	mov	w27, wzr
	mov	w22, #2
	mov	w9, #1
	b	239b
727:
	ldp	x24, x20, [x22, #64]
	cmp	x20, #5
	b.ne	607f
	ldr	w8, [x24]
	mov	w9, #27760
	movk	w9, #26977, lsl #16
	cmp	w8, w9
	b.ne	583f
	mov	w28, w2
	adrp	x2, .LTb1732992
	add	x2, x2, :lo12:.LTb1732992
	mov	x0, x24
	mov	w1, #5
	bl	core.cmp.slices.groups_equal._i8_31_core.cmp.numbers.U8PartialEq
	mov	w2, w28
	tbz	w0, #0, 583f
	str	x19, [sp, #24]
	mov	w25, wzr
	mov	w20, wzr
	mov	w23, wzr
	b	737f
746:
	ldrb	w11, [x10, #3]
	ldrb	w10, [x10, #2]
	bfi	w11, w10, #8, #2
	cmp	w11, #5
	b.lo	257b
	add	w10, w11, #1
	cmp	x9, x10
	b.lo	257b
873:
	cbz	x25, 320f
	bl	rattle_dealloc
	ldp	x3, x2, [sp, #32]
320:
	movi	v0.2d, #0000000000000000
	mov	w11, wzr
	mov	w23, wzr
	mov	w22, wzr
	mov	w26, wzr
	mov	w25, #5
	stp	q0, q0, [sp, #688]
	stp	q0, q0, [sp, #720]
	b	148b
352:
	ldrb	w8, [x24, #1]
	sub	w8, w8, #48
	cmp	w8, #9
	b.hi	859f
	cmp	x0, #2
	b.eq	190b
	ldrb	w8, [x24, #2]
	mov	x10, x19
	mov	x9, x20
	sub	w8, w8, #48
	cmp	w8, #9
	b.hi	976f
	ldp	x3, x2, [sp, #32]
	cmp	x0, #3
	ldr	x28, [sp, #64]
	add	x21, sp, #976
	mov	x20, x9
	mov	x19, x10
	b.eq	190b
	ldrb	w8, [x24, #3]
	sub	w8, w8, #48
	cmp	w8, #9
	b.hi	976f
	ldp	x3, x2, [sp, #32]
	cmp	x0, #4
	ldr	x28, [sp, #64]
	add	x21, sp, #976
	mov	x20, x9
	mov	x19, x10
	b.eq	190b
	ldrb	w8, [x24, #4]
	sub	w8, w8, #48
	cmp	w8, #9
	b.hi	570f
	ldp	x3, x2, [sp, #32]
	cmp	x0, #5
	ldr	x28, [sp, #64]
	add	x21, sp, #976
	mov	x20, x9
	mov	x19, x10
	mov	w22, #2
	b.eq	190b
	b	641b
859:
	mov	w22, #2
	b	641b
417:
	mov	w26, wzr
	mov	w23, wzr
375:
	ldr	x8, [x22, #40]
	sub	x9, x8, #6
	cmn	x9, #5
	b.lo	33f
	cbz	x8, 613f
	ldr	x9, [x22, #32]
	ldr	x15, [sp, #32]
	add	x21, sp, #976
	add	x11, sp, #1248
	ldrb	w10, [x9]
	sub	w10, w10, #48
	cmp	w10, #9
	b.hi	33f
	cmp	x8, #1
	b.ne	401f
983:
	mov	w10, wzr
187:
	mov	w11, #10
	subs	x8, x8, #1
	mul	w10, w10, w11
	ldrb	w11, [x9], #1
	sub	w11, w11, #48
	add	w10, w10, w11, uxtb
	b.ne	187b
	cmp	w10, #16, lsl #12
	mov	w8, #65536
	ldr	x15, [sp, #32]
	csel	w24, w10, w8, lo
	add	x21, sp, #976
	add	x11, sp, #1248
	b.hs	33f
	lsr	w20, w24, #8
	b	681f
885:
	ldr	w8, [x0]
	mov	w9, #25956
	movk	w9, #25972, lsl #16
	cmp	w8, w9
	b.ne	599f
	adrp	x2, .LT10360ae0
	add	x2, x2, :lo12:.LT10360ae0
	mov	w1, #6
	mov	w20, w10
	bl	core.cmp.slices.groups_equal._i8_31_core.cmp.numbers.U8PartialEq
	sub	x18, x29, #96
	mov	x15, x21
	tbz	w0, #0, 599f
	mov	w3, w20
	mov	x8, xzr
	mov	w12, wzr
	mov	w9, wzr
	mov	w11, wzr
	mov	w20, wzr
	mov	w28, wzr
	mov	w23, wzr
	mov	w0, wzr
	mov	w1, wzr
	mov	w2, wzr
	mov	w10, wzr
911:
	mov	w13, #11
	add	x17, sp, #1248
	str	w13, [sp, #40]
	b	951b
599:
	mov	x8, xzr
	mov	w12, wzr
	mov	w9, wzr
	mov	w11, wzr
	mov	w20, wzr
	mov	w28, wzr
	mov	w23, wzr
	mov	w2, wzr
	str	wzr, [sp, #40]
	mov	w3, wzr
	mov	w10, wzr
	mov	w1, #5
	b	462b
896:
	ldrb	w8, [x14, #1]
	sub	w8, w8, #48
	cmp	w8, #9
	b.hi	307f
	cmp	x13, #2
	b.eq	349b
	ldrb	w8, [x14, #2]
	sub	w8, w8, #48
	cmp	w8, #9
	b.hi	190f
	cmp	x13, #3
	mov	x15, x21
	add	x17, sp, #1248
	b.eq	349b
	ldrb	w8, [x14, #3]
	sub	w8, w8, #48
	cmp	w8, #9
	b.hi	190f
	cmp	x13, #4
	mov	x15, x21
	add	x17, sp, #1248
	b.eq	349b
	ldrb	w9, [x14, #4]
	mov	w12, wzr
	mov	x8, xzr
	sub	w9, w9, #48
	cmp	w9, #9
	b.hi	291f
	cmp	x13, #5
	mov	w9, w12
	mov	w11, w12
	mov	w20, w12
	mov	w28, w12
	mov	w23, w12
	mov	w3, w12
	mov	w10, w12
	mov	x15, x21
	add	x17, sp, #1248
	mov	w2, #8
	mov	w1, #3
	mov	w0, #1
	str	w12, [sp, #40]
	b.eq	349b
	b	951b
307:
	mov	x8, xzr
	mov	w12, wzr
	mov	w9, wzr
	mov	w11, wzr
	mov	w20, wzr
	mov	w28, wzr
	mov	w23, wzr
	mov	w3, wzr
	mov	w10, wzr
	str	wzr, [sp, #40]
187:
	mov	w2, #8
	mov	w1, #3
	mov	w0, #1
	b	951b
680:
	ldrb	w8, [x14, #1]
	sub	w8, w8, #48
	cmp	w8, #9
	b.hi	349f
	cmp	x13, #2
	b.eq	868b
	ldrb	w8, [x14, #2]
	mov	x16, x15
	sub	w8, w8, #48
	cmp	w8, #9
	b.hi	875f
	cmp	x13, #3
	mov	x15, x16
	add	x17, sp, #1248
	sub	x18, x29, #96
	b.eq	868b
	ldrb	w8, [x14, #3]
	sub	w8, w8, #48
	cmp	w8, #9
	b.hi	499f
	cmp	x13, #4
	mov	x15, x16
	add	x17, sp, #1248
	b.eq	868b
	ldrb	w9, [x14, #4]
	mov	w2, wzr
	mov	x8, xzr
	sub	w9, w9, #48
	cmp	w9, #9
	b.hi	779f
	cmp	x13, #5
	mov	w3, w2
	mov	w10, w2
	mov	w12, w2
	mov	w9, w2
	mov	w11, w2
	mov	w20, w2
	mov	w28, w2
	mov	w23, w2
	mov	x15, x16
	add	x17, sp, #1248
	mov	w1, #3
	mov	w0, #1
	str	w2, [sp, #40]
	b.eq	868b
	b	232b
349:
	mov	x8, xzr
	mov	w2, wzr
	mov	w3, wzr
	mov	w10, wzr
	mov	w12, wzr
	mov	w9, wzr
	mov	w11, wzr
	mov	w20, wzr
	mov	w28, wzr
	mov	w23, wzr
	str	wzr, [sp, #40]
32:
	mov	w1, #3
	mov	w0, #1
	b	232b
118:
	cmp	w28, #108
	mov	x1, x20
	b.ne	710b
	cmp	w26, #99
	b.ne	710b
	cmp	w25, #111
	b.ne	710b
	cmp	w24, #108
	b.ne	710b
	adrp	x2, .LT56694b3d
	add	x2, x2, :lo12:.LT56694b3d
	mov	x0, x23
	mov	w1, #7
	bl	core.cmp.slices.groups_equal._i8_31_core.cmp.numbers.U8PartialEq
	mov	x1, x20
	tbz	w0, #0, 710b
	adrp	x23, .LTb6aa9e24
	add	x23, x23, :lo12:.LTb6aa9e24
	mov	w24, #18
	b	922b
976:
	ldp	x3, x2, [sp, #32]
	mov	w22, #2
	mov	x20, x9
	mov	x19, x10
	b	641b
868:
	mov	w15, wzr
893:
	sub	x8, x11, #6
	cmn	x8, #5
	b.lo	462f
	cbz	x11, 523f
	ldrb	w8, [x10]
	sub	w8, w8, #48
	cmp	w8, #9
	b.hi	462f
	cmp	x11, #1
	b.ne	87f
911:
	mov	w8, wzr
599:
	mov	w9, #10
	subs	x11, x11, #1
	mul	w8, w8, w9
	ldrb	w9, [x10], #1
	sub	w9, w9, #48
	add	w8, w8, w9, uxtb
	b.ne	599b
	cmp	w8, #255
	b.hi	462f
	cbz	w8, 523f
	cmp	w8, #1
	b.ne	462f
	mov	w9, wzr
	mov	w22, wzr
	mov	w23, w12
	mov	w26, w15
	mov	w27, #1
	b	976f
462:
	mov	w8, wzr
	mov	w23, wzr
	mov	w26, wzr
	mov	w27, wzr
	mov	w22, #2
	mov	w9, #1
976:
	ldp	x3, x2, [sp, #32]
	add	x21, sp, #976
	b	681b
607:
	sub	x8, x20, #6
	cmn	x8, #5
	b.lo	868f
583:
	mov	x8, xzr
118:
	cmp	x20, x8
	b.eq	349f
	ldrb	w9, [x24, x8]
	add	x8, x8, #1
	sub	w9, w9, #48
	cmp	w9, #10
	b.lo	118b
	b	868f
585:
	sub	x23, x29, #96
	mov	x21, x15
	mov	w27, wzr
263:
	ldr	x13, [x22, #56]
	sub	x8, x13, #6
	cmn	x8, #5
	b.lo	307f
	cbz	x13, 462f
	ldr	x14, [x22, #48]
	ldrb	w8, [x14]
	sub	w8, w8, #48
	cmp	w8, #9
	b.hi	307f
	cmp	x13, #1
	mov	x15, x21
	b.eq	893f
	ldrb	w8, [x14, #1]
	mov	x16, x15
	sub	w8, w8, #48
	cmp	w8, #9
	b.hi	187f
	cmp	x13, #2
	mov	x15, x16
	b.eq	893f
	ldrb	w8, [x14, #2]
	sub	w8, w8, #48
	cmp	w8, #9
	b.hi	187f
	cmp	x13, #3
	mov	x15, x16
	b.ne	938f
893:
	sub	x23, x29, #96
	mov	x21, x15
	mov	w8, wzr
599:
	mov	w9, #10
	subs	x13, x13, #1
	mul	w8, w8, w9
	ldrb	w9, [x14], #1
	sub	w9, w9, #48
	add	w8, w8, w9, uxtb
	b.ne	599b
	lsr	w9, w8, #16
	cmp	w8, #16, lsl #12
	mov	w10, #65536
	csel	w20, w8, w10, lo
	cbnz	w9, 307f
	lsr	w28, w20, #8
	b	320f
307:
	mov	x8, xzr
	str	wzr, [sp, #40]
	mov	w3, wzr
	mov	w10, wzr
	mov	w12, wzr
	mov	w9, wzr
	mov	w11, wzr
	mov	w20, wzr
	mov	w28, wzr
	mov	w23, wzr
	mov	w2, #4
	mov	w1, #3
	mov	w0, #1
	mov	x15, x21
	b	481f
349:
	mov	w28, w2
	mov	w23, wzr
	str	x19, [sp, #24]
	cbz	x20, 307f
599:
	mov	w8, #10
	ldrb	w9, [x24], #1
	mul	w8, w23, w8
	subs	x20, x20, #1
	sub	w9, w9, #48
	add	w23, w8, w9, uxtb
	b.ne	599b
	ldr	x19, [sp, #24]
	cmp	w23, #256
	add	x21, sp, #976
	b.hs	868f
307:
	mov	w20, #3
	mov	w25, #1
737:
	movi	v0.2d, #0000000000000000
	ldp	x1, x2, [x22, #80]
	add	x0, sp, #528
	stp	q0, q0, [sp, #528]
	bl	tc_make.line.octets
	ldrb	w8, [sp, #528]
	cbz	w8, 335f
	ldrb	w2, [sp, #530]
	ldrb	w1, [sp, #529]
	mov	x23, xzr
	mov	w14, wzr
	mov	w13, wzr
	mov	w24, wzr
	mov	x20, xzr
	mov	w25, wzr
	mov	w27, wzr
	add	x8, sp, #528
	mov	w0, #1
	str	wzr, [sp, #40]
	str	xzr, [sp, #768]
	stur	xzr, [x8, #245]
	b	62f
868:
	mov	x23, xzr
	mov	w24, wzr
	mov	w12, wzr
	mov	w13, wzr
	mov	w28, wzr
	mov	w27, wzr
	mov	x20, xzr
	add	x10, sp, #1248
	mov	w1, #3
	mov	w0, #1
	mov	w2, #3
	str	wzr, [sp, #40]
	stur	xzr, [x10, #149]
	str	xzr, [sp, #1392]
	cbnz	x26, 33b
	b	639b
974:
	ldrb	w10, [x9, #1]
	sub	w10, w10, #48
	cmp	w10, #9
	b.hi	104f
	cmp	x8, #2
	b.eq	943b
	ldrb	w10, [x9, #2]
	sub	w10, w10, #48
	cmp	w10, #9
	b.hi	104f
	cmp	x8, #3
	b.eq	943b
	ldrb	w10, [x9, #3]
	sub	w10, w10, #48
	cmp	w10, #9
	b.hi	104f
	cmp	x8, #4
	b.eq	943b
	ldrb	w10, [x9, #4]
	sub	w10, w10, #48
	cmp	w10, #9
	b.hi	104f
	cmp	x8, #5
	b.eq	943b
104:
	mov	w26, wzr
	mov	w25, wzr
	mov	w24, wzr
	mov	w28, wzr
	mov	w27, wzr
	mov	x20, xzr
	mov	w2, #5
	str	wzr, [sp, #40]
	stur	xzr, [x11, #165]
387:
	str	xzr, [sp, #1408]
	mov	w1, #3
	mov	w0, #1
943:
	cbz	x15, 885f
	mov	w23, w0
	mov	x0, x22
	mov	w19, w24
	mov	x24, x20
	mov	w20, w2
	mov	w22, w1
	bl	rattle_dealloc
	mov	w0, w23
	mov	w1, w22
	mov	w2, w20
	mov	x20, x24
	mov	w24, w19
	add	x11, sp, #1248
885:
	ldr	x8, [sp, #1408]
	ldur	x9, [x11, #165]
	mov	w3, wzr
	mov	w12, wzr
	mov	w13, wzr
	mov	x23, xzr
	bfi	w26, w25, #8, #24
	str	x8, [sp, #1184]
	ldr	x19, [sp, #24]
	stur	x9, [x21, #213]
	ldr	w22, [sp, #40]
	cbnz	w0, 716b
	b	93b
602:
	ldrb	w8, [x13, #1]
	mov	x16, x19
	mov	x15, x20
	sub	w8, w8, #48
	cmp	w8, #9
	b.hi	989f
	cmp	x14, #2
	mov	x20, x15
	mov	x19, x16
	b.eq	613b
	ldrb	w8, [x13, #2]
	sub	w8, w8, #48
	cmp	w8, #9
	b.hi	989f
	cmp	x14, #3
	mov	x20, x15
	mov	x19, x16
	b.eq	613b
	ldrb	w8, [x13, #3]
	sub	w8, w8, #48
	cmp	w8, #9
	b.hi	989f
	cmp	x14, #4
	mov	x20, x15
	mov	x19, x16
	b.eq	613b
	ldrb	w9, [x13, #4]
	mov	w8, wzr
	sub	w9, w9, #48
	cmp	w9, #9
	mov	w9, #1
	b.hi	727f
	ldp	x3, x2, [sp, #32]
	cmp	x14, #5
	ldr	x28, [sp, #64]
	mov	w23, w8
	mov	w26, w8
	mov	w27, w8
	add	x21, sp, #976
	mov	x20, x15
	mov	x19, x16
	mov	w22, #2
	b.eq	613b
	b	239b
613:
	mov	w24, wzr
	mov	w20, wzr
681:
	ldp	x1, x2, [x22, #48]
	add	x0, sp, #528
	bl	tc_make.line.octets
	ldrb	w8, [sp, #528]
	cbz	w8, 316f
	ldrb	w2, [sp, #530]
	ldrb	w1, [sp, #529]
	mov	w26, wzr
	ldr	x15, [sp, #32]
	mov	w25, wzr
	mov	w24, wzr
	mov	w28, wzr
	mov	w27, wzr
	mov	x20, xzr
	add	x11, sp, #1248
	mov	w0, #1
	add	x21, sp, #976
	str	wzr, [sp, #40]
	str	xzr, [sp, #1408]
	stur	xzr, [x11, #165]
	b	943b
556:
	ldrb	w8, [x14, #1]
	mov	x16, x15
	sub	w8, w8, #48
	cmp	w8, #9
	b.hi	613f
	cmp	x13, #2
	mov	x15, x16
	b.eq	625b
	ldrb	w8, [x14, #2]
	sub	w8, w8, #48
	cmp	w8, #9
	b.hi	613f
	cmp	x13, #3
	mov	x15, x16
	b.eq	625b
	ldrb	w8, [x14, #3]
	sub	w8, w8, #48
	cmp	w8, #9
	b.hi	613f
	cmp	x13, #4
	mov	x15, x16
	b.eq	625b
	ldrb	w9, [x14, #4]
	mov	x8, xzr
	str	wzr, [sp, #40]
	sub	w9, w9, #48
	cmp	w9, #9
	b.hi	93f
	ldr	w23, [sp, #40]
	cmp	x13, #5
	mov	w2, #1
	mov	x15, x16
	add	x17, sp, #1248
	sub	x18, x29, #96
	mov	w3, w23
	mov	w10, w23
	mov	w12, w23
	mov	w9, w23
	mov	w11, w23
	mov	w20, w23
	mov	w28, w23
	mov	w1, #3
	mov	w0, #1
	b.eq	625b
	b	232b
989:
	ldp	x3, x2, [sp, #32]
	mov	w8, wzr
	ldr	x28, [sp, #64]
	mov	w23, wzr
	mov	w26, wzr
	mov	w27, wzr
	mov	w22, #2
	mov	w9, #1
	add	x21, sp, #976
	mov	x20, x15
	mov	x19, x16
	b	239b
530:
	ldp	x3, x2, [sp, #32]
	mov	w8, wzr
	ldr	x28, [sp, #64]
	mov	w23, wzr
	mov	w26, wzr
	mov	w27, wzr
	mov	w22, #2
	mov	w9, #1
	add	x21, sp, #976
	mov	x20, x12
	mov	x19, x17
	b	239b
523:
	mov	w9, wzr
	mov	w22, wzr
	mov	w27, wzr
	mov	w8, #1
	mov	w23, w12
	mov	w26, w15
	b	976b
335:
	ldrh	w8, [sp, #536]
	add	x12, sp, #528
	ldrb	w10, [sp, #538]
	ldur	x9, [x12, #11]
	ldr	x11, [sp, #544]
	orr	w27, w20, w23, lsl #8
	lsl	x8, x8, #40
	ldr	x23, [sp, #552]
	mov	w0, wzr
	mov	w1, wzr
	lsr	w13, w28, #16
	lsr	w14, w28, #24
	orr	x20, x8, x10, lsl #56
	mov	w8, #2
	str	x9, [sp, #768]
	stur	x11, [x12, #245]
	mov	w24, w28
	mov	w2, wzr
	str	w8, [sp, #40]
62:
	add	x9, sp, #528
	ldr	x8, [sp, #768]
	add	x10, sp, #1248
	ldur	x9, [x9, #245]
	ldr	x19, [sp, #24]
	add	x21, sp, #976
	str	x8, [sp, #1392]
	mov	w28, w25
	stur	x9, [x10, #149]
	mov	w12, w13
	mov	w13, w14
	cbnz	x26, 33b
	b	639b
613:
	mov	x8, xzr
	str	wzr, [sp, #40]
	mov	w3, wzr
	mov	w10, wzr
	mov	w12, wzr
	mov	w9, wzr
	mov	w11, wzr
	mov	w20, wzr
	mov	w28, wzr
	mov	w23, wzr
	mov	w0, #1
	mov	w1, #3
	mov	w2, #1
	b	911f
190:
	mov	x8, xzr
	mov	w12, wzr
	mov	w9, wzr
	mov	w11, wzr
	mov	w20, wzr
	mov	w28, wzr
	mov	w23, wzr
	str	wzr, [sp, #40]
	mov	w3, wzr
	mov	w10, wzr
	mov	w2, #8
	mov	w1, #3
	mov	w0, #1
	mov	x15, x21
	add	x17, sp, #1248
	b	951b
462:
	mov	w20, wzr
	mov	w28, wzr
320:
	movi	v0.2d, #0000000000000000
	ldp	x1, x2, [x22, #64]
	sub	x0, x29, #64
	stp	q0, q0, [x29, #-64]
	bl	tc_make.line.octets
	ldurb	w8, [x29, #-64]
	cbz	w8, 976f
	ldurh	w1, [x23, #33]
613:
	mov	x8, xzr
	str	wzr, [sp, #40]
	mov	w3, wzr
	mov	w10, wzr
	mov	w12, wzr
	mov	w9, wzr
	mov	w11, wzr
	mov	w20, wzr
	mov	w28, wzr
	mov	w23, wzr
	stp	xzr, xzr, [x29, #-224]
	lsr	w2, w1, #8
	stur	wzr, [x29, #-208]
	mov	w0, #1
	mov	x15, x21
	b	481f
875:
	mov	x8, xzr
	mov	w2, wzr
	mov	w3, wzr
	mov	w10, wzr
	mov	w12, wzr
	mov	w9, wzr
	mov	w11, wzr
	mov	w20, wzr
	mov	w28, wzr
	mov	w23, wzr
	str	wzr, [sp, #40]
	b	613f
316:
	add	x10, sp, #528
	ldr	x9, [sp, #552]
	bfi	w24, w20, #8, #24
	ldur	x8, [x10, #19]
	ldrb	w28, [sp, #536]
	ldurh	w27, [x10, #9]
	ldur	x20, [x10, #11]
	add	x11, sp, #1248
	ldr	x15, [sp, #32]
	str	x8, [sp, #1408]
	mov	w8, #1
	mov	w0, wzr
	mov	w1, wzr
	mov	w2, wzr
	stur	x9, [x11, #165]
	str	w8, [sp, #40]
	add	x21, sp, #976
	mov	w25, w23
	b	943b
401:
	ldrb	w10, [x9, #1]
	sub	w10, w10, #48
	cmp	w10, #9
	b.hi	33f
	cmp	x8, #2
	b.eq	983b
	ldrb	w10, [x9, #2]
	sub	w10, w10, #48
	cmp	w10, #9
	b.hi	33f
	cmp	x8, #3
	b.eq	983b
	ldrb	w10, [x9, #3]
	sub	w10, w10, #48
	cmp	w10, #9
	b.hi	33f
	cmp	x8, #4
	b.eq	983b
	ldrb	w10, [x9, #4]
	sub	w10, w10, #48
	cmp	w10, #9
	b.hi	33f
	cmp	x8, #5
	b.eq	983b
33:
	str	wzr, [sp, #40]
	mov	w26, wzr
	mov	w25, wzr
	mov	w24, wzr
	mov	w28, wzr
	mov	w27, wzr
	mov	x20, xzr
	stur	xzr, [x11, #165]
	mov	w2, #6
	b	387b
87:
	ldrb	w8, [x10, #1]
	mov	x14, x19
	mov	x13, x20
	sub	w8, w8, #48
	cmp	w8, #9
	b.hi	681f
	cmp	x11, #2
	mov	x20, x13
	mov	x19, x14
	b.eq	911b
	ldrb	w8, [x10, #2]
	sub	w8, w8, #48
	cmp	w8, #9
	b.hi	681f
	cmp	x11, #3
	mov	x20, x13
	mov	x19, x14
	b.eq	911b
	ldrb	w8, [x10, #3]
	sub	w8, w8, #48
	cmp	w8, #9
	b.hi	681f
	cmp	x11, #4
	mov	x20, x13
	mov	x19, x14
	b.eq	911b
	ldrb	w9, [x10, #4]
	mov	w8, wzr
	sub	w9, w9, #48
	cmp	w9, #9
	mov	w9, #1
	b.hi	989f
	ldp	x3, x2, [sp, #32]
	cmp	x11, #5
	ldr	x28, [sp, #64]
	mov	w23, w8
	mov	w26, w8
	mov	w27, w8
	add	x21, sp, #976
	mov	x20, x13
	mov	x19, x14
	mov	w22, #2
	b.eq	911b
	b	239b
976:
	ldp	x0, x9, [x29, #-56]
	ldur	x8, [x29, #-40]
	cmp	x9, #4
	b.ne	498f
	ldr	w23, [x0]
	cbz	x8, 983f
	bl	rattle_dealloc
983:
	mov	w9, #9
	mov	x8, xzr
	mov	w0, wzr
	mov	w1, wzr
	mov	w2, wzr
	mov	w3, wzr
	mov	w11, wzr
	stp	xzr, xzr, [x29, #-224]
	mov	w10, w24
	stur	wzr, [x29, #-208]
	mov	w12, w26
	mov	x15, x21
	str	w9, [sp, #40]
	mov	w9, w27
	b	481f
681:
	ldp	x3, x2, [sp, #32]
	mov	w8, wzr
	ldr	x28, [sp, #64]
	mov	w23, wzr
	mov	w26, wzr
	mov	w27, wzr
	mov	w22, #2
	mov	w9, #1
	add	x21, sp, #976
	mov	x20, x13
	mov	x19, x14
	b	239b
498:
	cbz	x8, 943f
	bl	rattle_dealloc
	mov	w1, #6
	b	613b
499:
	mov	x8, xzr
	mov	w2, wzr
	str	wzr, [sp, #40]
	mov	w3, wzr
	mov	w10, wzr
	mov	w12, wzr
	mov	w9, wzr
	mov	w11, wzr
	mov	w20, wzr
	mov	w28, wzr
	mov	w23, wzr
	mov	w1, #3
	mov	w0, #1
	mov	x15, x16
	add	x17, sp, #1248
	b	232b
978:
	ldr	x8, [sp, #544]
	cbz	x8, 983f
	ldr	x0, [sp, #528]
	bl	rattle_dealloc
983:
	mov	w2, wzr
	mov	w1, #16
	b	716b
570:
	ldp	x3, x2, [sp, #32]
	mov	x20, x9
	mov	x19, x10
	mov	w22, #2
	b	641b
943:
	mov	w1, #6
	b	613b
137:
	ldp	x3, x2, [sp, #32]
	mov	w23, w8
	ldr	x28, [sp, #64]
	mov	w26, w8
	mov	w27, w8
	add	x21, sp, #976
	mov	x20, x12
	mov	x19, x17
	mov	w22, #2
	b	239b
291:
	mov	w9, w12
	mov	w11, w12
	mov	w20, w12
	mov	w28, w12
	mov	w23, w12
	str	w12, [sp, #40]
	mov	w3, w12
	mov	w10, w12
	mov	x15, x21
	add	x17, sp, #1248
	b	187b
779:
	str	w2, [sp, #40]
	mov	w3, w2
	mov	w10, w2
	mov	w12, w2
	mov	w9, w2
	mov	w11, w2
	mov	w20, w2
	mov	w28, w2
	mov	w23, w2
	mov	x15, x16
	add	x17, sp, #1248
	b	32b
938:
	ldrb	w8, [x14, #3]
	sub	w8, w8, #48
	cmp	w8, #9
	b.hi	187f
	cmp	x13, #4
	mov	x15, x16
	b.eq	893b
	ldrb	w9, [x14, #4]
	mov	x8, xzr
	str	wzr, [sp, #40]
	sub	w9, w9, #48
	cmp	w9, #9
	b.hi	885f
	ldr	w23, [sp, #40]
	cmp	x13, #5
	mov	x15, x16
	add	x17, sp, #1248
	sub	x18, x29, #96
	mov	w2, #4
	mov	w3, w23
	mov	w10, w23
	mov	w12, w23
	mov	w9, w23
	mov	w11, w23
	mov	w20, w23
	mov	w28, w23
	mov	w1, #3
	mov	w0, #1
	b.eq	893b
	b	232b
187:
	mov	x8, xzr
	str	wzr, [sp, #40]
	mov	w3, wzr
	mov	w10, wzr
	mov	w12, wzr
	mov	w9, wzr
	mov	w11, wzr
	mov	w20, wzr
	mov	w28, wzr
	mov	w23, wzr
	mov	w2, #4
613:
	mov	w1, #3
	mov	w0, #1
911:
	mov	x15, x16
481:
	add	x17, sp, #1248
	sub	x18, x29, #96
	b	232b
727:
	ldp	x3, x2, [sp, #32]
	mov	w23, w8
	ldr	x28, [sp, #64]
	mov	w26, w8
	mov	w27, w8
	add	x21, sp, #976
	mov	x20, x15
	mov	x19, x16
	mov	w22, #2
	b	239b
93:
	ldr	w23, [sp, #40]
	mov	w2, #1
	mov	x15, x16
	add	x17, sp, #1248
	sub	x18, x29, #96
613:
	mov	w3, w23
	mov	w10, w23
	mov	w12, w23
	mov	w9, w23
	mov	w11, w23
	mov	w20, w23
	mov	w28, w23
	b	32b
989:
	ldp	x3, x2, [sp, #32]
	mov	w23, w8
	ldr	x28, [sp, #64]
	mov	w26, w8
	mov	w27, w8
	add	x21, sp, #976
	mov	x20, x13
	mov	x19, x14
	mov	w22, #2
	b	239b
885:
	ldr	w23, [sp, #40]
	mov	x15, x16
	add	x17, sp, #1248
	sub	x18, x29, #96
	mov	w2, #4
	b	613b
	.section	.rodata.tc_session.engine.Engine.answer._5349ec06ad6c886c,"a",@progbits
	.p2align	1
.LJa9983fb3_0:
	.hword	(840b-659b)>>2
	.hword	(659b-659b)>>2
	.hword	(489b-659b)>>2
	.hword	(840b-659b)>>2
	.hword	(489b-659b)>>2
	.hword	(659b-659b)>>2
	.hword	(659b-659b)>>2
	.hword	(659b-659b)>>2
	.hword	(659b-659b)>>2
	.hword	(840b-659b)>>2
	.hword	(659b-659b)>>2
	.hword	(840b-659b)>>2
	.hword	(659b-659b)>>2
	.hword	(840b-659b)>>2
	.hword	(659b-659b)>>2
	.p2align	1
.LJa9983fb3_1:
	.hword	(14b-710b)>>2
	.hword	(443b-710b)>>2
	.hword	(595b-710b)>>2
	.hword	(922b-710b)>>2
	.hword	(710b-710b)>>2
	.hword	(710b-710b)>>2
	.hword	(710b-710b)>>2
	.hword	(710b-710b)>>2
	.hword	(501b-710b)>>2
	.hword	(110b-710b)>>2
	.hword	(686b-710b)>>2
	.hword	(179b-710b)>>2
	.hword	(710b-710b)>>2
	.hword	(168b-710b)>>2
	.hword	(710b-710b)>>2
	.hword	(181b-710b)>>2
	.hword	(939b-710b)>>2
	.hword	(710b-710b)>>2
	.hword	(168b-710b)>>2
	.hword	(710b-710b)>>2
	.section	.rodata.cst16,"aM",@progbits,16
	.p2align	4
.LC4b8e3750_0:
	.xword	9729
	.xword	0
	.section	.text.std.io.traits.AdapterWrite.write_str._5349ec06ad6c886c,"ax",@progbits
	.p2align	2
std.io.traits.AdapterWrite.write_str._5349ec06ad6c886c:
	cbz	x2, 187f
	sub	sp, sp, #240
	stp	x22, x21, [sp, #208]
	ldr	x21, [x0]
	mov	x22, x2
	stp	x24, x23, [sp, #192]
	mov	x23, #-1
	stp	x20, x19, [sp, #224]
	mov	x20, x1
	mov	x19, x0
	stp	x29, x30, [sp, #160]
	add	x29, sp, #160
	stp	x26, x25, [sp, #176]
	b	976f
62:
	add	x0, x26, x25
	mov	x1, x20
	mov	x2, x22
	bl	memmove
316:
	add	x8, x25, x22
	sub	x23, x23, #1
	add	x20, x20, x22
	mov	x22, xzr
	stp	x26, x8, [x21]
	str	x24, [x21, #16]
	cbz	x23, 939f
976:
	cbz	x22, 32f
	ldp	x25, x24, [x21, #8]
	sub	x8, x24, x25
	cmp	x22, x8
	b.hi	983f
	ldr	x26, [x21]
	stp	xzr, xzr, [x21, #8]
	add	x8, x26, x25
	sub	x8, x8, x20
	cmp	x8, x22
	b.hs	62b
118:
	cmp	x22, #8
	b.lo	613f
	add	x8, x25, x26
	sub	x8, x8, x20
	cmp	x8, #32
	b.hs	280f
613:
	mov	x8, xzr
481:
	add	x10, x8, x25
	sub	x9, x22, x8
	add	x8, x20, x8
	add	x10, x26, x10
602:
	ldrb	w11, [x8], #1
	subs	x9, x9, #1
	strb	w11, [x10], #1
	b.ne	602b
	b	316b
280:
	cmp	x22, #32
	b.hs	148f
	mov	x8, xzr
	b	613f
148:
	add	x11, x26, x25
	and	x9, x22, #0x18
	and	x8, x22, #0xffffffffffffffe0
	add	x10, x20, #16
	add	x11, x11, #16
	and	x12, x22, #0xffffffffffffffe0
976:
	ldp	q0, q1, [x10, #-16]
	subs	x12, x12, #32
	add	x10, x10, #32
	stp	q0, q1, [x11, #-16]
	add	x11, x11, #32
	b.ne	976b
	cmp	x22, x8
	b.eq	316b
	cbz	x9, 481b
613:
	mov	x10, x8
	and	x8, x22, #0xfffffffffffffff8
	add	x11, x25, x10
	sub	x9, x10, x8
	add	x10, x20, x10
	add	x11, x26, x11
93:
	ldr	d0, [x10], #8
	adds	x9, x9, #8
	str	d0, [x11], #8
	b.ne	93b
	cmp	x22, x8
	b.eq	316b
	b	481b
983:
	mov	x0, x21
	mov	x1, x22
	bl	std_alloc.vec.Vec.grow_amortized._e46d560dfcddf60e
	cbz	w0, 922f
	ldp	x25, x24, [x21, #8]
	ldr	x26, [x21]
	stp	xzr, xzr, [x21, #8]
	add	x8, x26, x25
	sub	x8, x8, x20
	cmp	x8, x22
	b.hs	62b
	b	118b
187:
	mov	w0, wzr
	ret
32:
	mov	w0, wzr
	b	681f
939:
	adrp	x2, .LT23999181
	add	x2, x2, :lo12:.LT23999181
	add	x0, sp, #64
	mov	w1, #22
	mov	w3, #43
	bl	std_io.io.error.Error.from_static_message
	ldur	q3, [sp, #120]
	ldp	q1, q0, [sp, #64]
	ldur	q4, [sp, #136]
	ldr	q2, [sp, #96]
	ldr	x8, [sp, #112]
	stp	q3, q4, [sp, #32]
976:
	ldp	q3, q4, [sp, #32]
	mov	w0, #1
	str	x0, [x19, #8]
	stp	q1, q0, [x19, #16]
	stp	q3, q4, [sp]
	str	q2, [x19, #48]
	str	x8, [x19, #64]
	stur	q3, [x19, #72]
	stur	q4, [x19, #88]
681:
	ldp	x20, x19, [sp, #224]
	ldp	x22, x21, [sp, #208]
	ldp	x24, x23, [sp, #192]
	ldp	x26, x25, [sp, #176]
	ldp	x29, x30, [sp, #160]
	add	sp, sp, #240
	ret
922:
	movi	v0.2d, #0000000000000000
	movi	v2.2d, #0000000000000000
	adrp	x9, .LC4b8e3750_0
	ldr	q1, [x9, :lo12:.LC4b8e3750_0]
	mov	x8, xzr
	stp	q0, q0, [sp, #32]
	b	976b
	.section	.text.std_io.io.error.Error.from_static_message,"ax",@progbits
	.p2align	2
std_io.io.error.Error.from_static_message:
	sub	sp, sp, #192
	ldr	x8, [x2]
	cmp	x3, #15
	stp	x28, x27, [sp, #112]
	stp	x26, x25, [sp, #128]
	stp	x30, x8, [sp, #96]
	ldr	w8, [x2, #8]
	stp	x24, x23, [sp, #144]
	str	x8, [sp, #64]
	ldrb	w8, [x2, #12]
	stp	x22, x21, [sp, #160]
	str	x8, [sp, #56]
	ldrb	w8, [x2, #13]
	stp	x20, x19, [sp, #176]
	str	x8, [sp, #72]
	ldrb	w8, [x2, #14]
	str	w1, [sp, #92]
	str	x8, [sp, #80]
	b.ne	602f
	mov	x17, #12947848928690176
	mov	x14, #197568495616
	mov	w15, #46
	mov	x22, #50577534877696
	mov	x2, #3314649325744685056
	mov	w16, #3014656
	mov	w25, #771751936
	mov	w21, #11776
	mov	w8, #11776
	mov	x9, #3314649325744685056
	mov	x11, #50577534877696
	mov	w12, #771751936
	mov	w20, #11776
	mov	x7, #3314649325744685056
	mov	x6, #50577534877696
	mov	w4, #771751936
	mov	w18, #11776
	mov	x13, #3314649325744685056
	b	983f
602:
	ldrb	w8, [x2, #15]
	cmp	x3, #17
	lsl	x13, x8, #56
	b.lo	613f
	ldrb	w15, [x2, #16]
	cmp	x3, #17
	b.ne	602f
	mov	w5, #46
	mov	x17, #12947848928690176
	mov	x14, #197568495616
	mov	x22, #50577534877696
	mov	x2, #3314649325744685056
	mov	w16, #3014656
	mov	w25, #771751936
	mov	w21, #11776
	mov	w8, #11776
	mov	x9, #3314649325744685056
	mov	x11, #50577534877696
	mov	w12, #771751936
	mov	w20, #11776
	mov	x7, #3314649325744685056
	mov	x6, #50577534877696
	mov	w4, #771751936
	mov	w18, #11776
	b	187f
613:
	mov	x17, #12947848928690176
	mov	x14, #197568495616
	mov	w15, #46
	mov	x22, #50577534877696
	mov	x2, #3314649325744685056
	mov	w16, #3014656
	mov	w25, #771751936
	mov	w21, #11776
	mov	w8, #11776
	mov	x9, #3314649325744685056
	mov	x11, #50577534877696
	mov	w12, #771751936
	mov	w20, #11776
	mov	x7, #3314649325744685056
	mov	x6, #50577534877696
	mov	w4, #771751936
	mov	w18, #11776
983:
	mov	w5, #46
187:
	mov	w19, #3014656
613:
	mov	x30, #197568495616
983:
	mov	x28, #12947848928690176
32:
	mov	w10, #46
943:
	mov	w23, #3014656
911:
	mov	x24, #197568495616
239:
	mov	x26, #12947848928690176
599:
	mov	w27, #46
	mov	w1, #3014656
690:
	orr	x2, x22, x2
	orr	x8, x25, x8
	mov	w10, w10
	orr	x2, x2, x8
	orr	x10, x10, x23
	orr	x9, x11, x9
	orr	x10, x2, x10
	orr	x11, x12, x20
	mov	w15, w15
	ldp	x2, x12, [sp, #56]
	orr	x15, x15, x16
	mov	w5, w5
	orr	x9, x9, x11
	orr	x11, x6, x7
	orr	x18, x4, x18
	orr	x14, x14, x17
	orr	x12, x12, x2, lsl #32
	mov	w2, #2
	orr	x11, x11, x18
	strb	w2, [x0]
	ldp	x2, x16, [sp, #72]
	orr	x11, x11, x15
	orr	x11, x11, x14
	movi	v0.16b, #46
	orr	x1, x21, x1
	orr	x12, x12, x2, lsl #40
	ldr	w2, [sp, #92]
	mov	w8, w27
	orr	x8, x1, x8
	orr	x1, x24, x26
	strb	w3, [x0, #2]
	orr	x12, x12, x16, lsl #48
	strb	w2, [x0, #1]
	orr	x2, x5, x19
	orr	x9, x9, x2
	ldp	x20, x19, [sp, #176]
	orr	x12, x12, x13
	ldr	x13, [sp, #104]
	orr	x10, x10, x1
	ldp	x22, x21, [sp, #160]
	strb	wzr, [x0, #3]
	stp	x13, x12, [x0, #8]
	orr	x13, x30, x28
	ldr	x30, [sp, #96]
	orr	x9, x9, x13
	ldp	x24, x23, [sp, #144]
	stp	x11, x9, [x0, #24]
	mov	x11, #771751936
	movk	x11, #11822, lsl #32
	ldp	x26, x25, [sp, #128]
	movk	x11, #11822, lsl #48
	ldp	x28, x27, [sp, #112]
	orr	x8, x8, x11
	str	wzr, [x0, #4]
	stp	x10, x8, [x0, #40]
	stur	q0, [x0, #56]
	stur	q0, [x0, #72]
	add	sp, sp, #192
	ret
602:
	ldrb	w8, [x2, #17]
	cmp	x3, #19
	lsl	x18, x8, #8
	b.lo	307f
	ldrb	w8, [x2, #18]
	cmp	x3, #19
	lsl	x16, x8, #16
	b.ne	602f
	mov	w5, #46
	mov	x17, #12947848928690176
	mov	x14, #197568495616
	mov	x22, #50577534877696
	mov	x2, #3314649325744685056
	mov	w19, #3014656
	mov	w25, #771751936
	mov	w21, #11776
	mov	w8, #11776
	mov	x9, #3314649325744685056
	mov	x11, #50577534877696
	mov	w12, #771751936
	mov	w20, #11776
	mov	x7, #3314649325744685056
	mov	x6, #50577534877696
	mov	w4, #771751936
	b	613b
307:
	mov	w5, #46
	mov	x17, #12947848928690176
	mov	x14, #197568495616
	mov	x22, #50577534877696
	mov	x2, #3314649325744685056
	mov	w16, #3014656
	mov	w25, #771751936
	mov	w21, #11776
	mov	w8, #11776
	mov	x9, #3314649325744685056
	mov	x11, #50577534877696
	mov	w12, #771751936
	mov	w20, #11776
	mov	x7, #3314649325744685056
	mov	x6, #50577534877696
	mov	w4, #771751936
	b	187b
602:
	ldrb	w8, [x2, #19]
	cmp	x3, #21
	lsl	x4, x8, #24
	b.lo	187f
	ldrb	w8, [x2, #20]
	cmp	x3, #21
	lsl	x14, x8, #32
	b.ne	602f
	mov	x30, #197568495616
	mov	w5, #46
	mov	x17, #12947848928690176
	mov	x22, #50577534877696
	mov	x2, #3314649325744685056
	mov	w19, #3014656
	mov	w25, #771751936
	mov	w21, #11776
	mov	w8, #11776
	mov	x9, #3314649325744685056
	mov	x11, #50577534877696
	mov	w12, #771751936
	mov	w20, #11776
	mov	x7, #3314649325744685056
	mov	x6, #50577534877696
	b	983b
187:
	mov	w5, #46
	mov	x17, #12947848928690176
	mov	x14, #197568495616
	mov	x22, #50577534877696
	mov	x2, #3314649325744685056
	mov	w19, #3014656
	mov	w25, #771751936
	mov	w21, #11776
	mov	w8, #11776
	mov	x9, #3314649325744685056
	mov	x11, #50577534877696
	mov	w12, #771751936
	mov	w20, #11776
	mov	x7, #3314649325744685056
	mov	x6, #50577534877696
	b	613b
602:
	ldrb	w8, [x2, #21]
	cmp	x3, #23
	lsl	x6, x8, #40
	b.lo	613f
	ldrb	w8, [x2, #22]
	cmp	x3, #23
	lsl	x17, x8, #48
	b.ne	602f
	mov	x28, #12947848928690176
	mov	x30, #197568495616
	mov	w5, #46
	mov	x22, #50577534877696
	mov	x2, #3314649325744685056
	mov	w19, #3014656
	mov	w25, #771751936
	mov	w21, #11776
	mov	w8, #11776
	mov	x9, #3314649325744685056
	mov	x11, #50577534877696
	mov	w12, #771751936
	mov	w20, #11776
	mov	x7, #3314649325744685056
	b	32b
613:
	mov	x30, #197568495616
	mov	w5, #46
	mov	x17, #12947848928690176
	mov	x22, #50577534877696
	mov	x2, #3314649325744685056
	mov	w19, #3014656
	mov	w25, #771751936
	mov	w21, #11776
	mov	w8, #11776
	mov	x9, #3314649325744685056
	mov	x11, #50577534877696
	mov	w12, #771751936
	mov	w20, #11776
	mov	x7, #3314649325744685056
	b	983b
602:
	ldrb	w8, [x2, #23]
	cmp	x3, #25
	lsl	x7, x8, #56
	b.lo	613f
	ldrb	w5, [x2, #24]
	cmp	x3, #25
	b.ne	602f
	mov	w10, #46
	mov	x28, #12947848928690176
	mov	x30, #197568495616
	mov	x22, #50577534877696
	mov	x2, #3314649325744685056
	mov	w19, #3014656
	mov	w25, #771751936
	mov	w21, #11776
	mov	w8, #11776
	mov	x9, #3314649325744685056
	mov	x11, #50577534877696
	mov	w12, #771751936
	mov	w20, #11776
	b	943b
613:
	mov	x28, #12947848928690176
	mov	x30, #197568495616
	mov	w5, #46
	mov	x22, #50577534877696
	mov	x2, #3314649325744685056
	mov	w19, #3014656
	mov	w25, #771751936
	mov	w21, #11776
	mov	w8, #11776
	mov	x9, #3314649325744685056
	mov	x11, #50577534877696
	mov	w12, #771751936
	mov	w20, #11776
	b	32b
602:
	ldrb	w8, [x2, #25]
	cmp	x3, #27
	lsl	x20, x8, #8
	b.lo	613f
	ldrb	w8, [x2, #26]
	cmp	x3, #27
	lsl	x19, x8, #16
	b.ne	602f
	mov	w10, #46
	mov	x28, #12947848928690176
	mov	x30, #197568495616
	mov	x22, #50577534877696
	mov	x2, #3314649325744685056
	mov	w23, #3014656
	mov	w25, #771751936
	mov	w21, #11776
	mov	w8, #11776
	mov	x9, #3314649325744685056
	mov	x11, #50577534877696
	mov	w12, #771751936
	b	911b
613:
	mov	w10, #46
	mov	x28, #12947848928690176
	mov	x30, #197568495616
	mov	x22, #50577534877696
	mov	x2, #3314649325744685056
	mov	w19, #3014656
	mov	w25, #771751936
	mov	w21, #11776
	mov	w8, #11776
	mov	x9, #3314649325744685056
	mov	x11, #50577534877696
	mov	w12, #771751936
	b	943b
602:
	ldrb	w8, [x2, #27]
	cmp	x3, #29
	lsl	x8, x8, #24
	str	x8, [sp, #48]
	b.lo	93f
	ldrb	w8, [x2, #28]
	cmp	x3, #29
	lsl	x8, x8, #32
	str	x8, [sp, #40]
	b.ne	602f
	ldp	x30, x12, [sp, #40]
	mov	x24, #197568495616
	mov	w10, #46
	mov	x28, #12947848928690176
	mov	x22, #50577534877696
	mov	x2, #3314649325744685056
	mov	w23, #3014656
	mov	w25, #771751936
	mov	w21, #11776
	mov	w8, #11776
	mov	x9, #3314649325744685056
	mov	x11, #50577534877696
	b	239b
93:
	ldr	x12, [sp, #48]
	mov	w10, #46
	mov	x28, #12947848928690176
	mov	x30, #197568495616
	mov	x22, #50577534877696
	mov	x2, #3314649325744685056
	mov	w23, #3014656
	mov	w25, #771751936
	mov	w21, #11776
	mov	w8, #11776
	mov	x9, #3314649325744685056
	mov	x11, #50577534877696
	b	911b
602:
	ldrb	w8, [x2, #29]
	cmp	x3, #31
	lsl	x8, x8, #40
	str	x8, [sp, #32]
	b.lo	93f
	ldrb	w8, [x2, #30]
	cmp	x3, #31
	lsl	x8, x8, #48
	str	x8, [sp, #24]
	b.ne	602f
	ldr	x30, [sp, #40]
	ldr	x28, [sp, #24]
	mov	x26, #12947848928690176
	mov	x24, #197568495616
	mov	w10, #46
	mov	x22, #50577534877696
	mov	x2, #3314649325744685056
	mov	w23, #3014656
	mov	w25, #771751936
	mov	w21, #11776
	mov	w8, #11776
	mov	x9, #3314649325744685056
	b	613f
93:
	ldr	x30, [sp, #40]
	mov	x24, #197568495616
	mov	w10, #46
	mov	x28, #12947848928690176
	mov	x22, #50577534877696
	mov	x2, #3314649325744685056
	mov	w23, #3014656
	mov	w25, #771751936
	mov	w21, #11776
	mov	w8, #11776
	mov	x9, #3314649325744685056
	mov	x26, #12947848928690176
613:
	mov	w27, #46
	mov	w1, #3014656
	ldr	x12, [sp, #48]
	ldr	x11, [sp, #32]
	b	690b
602:
	ldrb	w8, [x2, #31]
	cmp	x3, #33
	lsl	x8, x8, #56
	str	x8, [sp, #16]
	b.lo	976f
	ldrb	w8, [x2, #32]
	cmp	x3, #33
	str	w8, [sp, #12]
	b.ne	602f
	mov	w27, #46
	mov	x26, #12947848928690176
	mov	x24, #197568495616
	mov	x22, #50577534877696
	mov	x2, #3314649325744685056
	mov	w23, #3014656
	mov	w25, #771751936
	mov	w21, #11776
	mov	w8, #11776
	b	983f
976:
	ldp	x30, x12, [sp, #40]
	mov	x26, #12947848928690176
	ldp	x28, x11, [sp, #24]
	mov	x24, #197568495616
	ldr	x9, [sp, #16]
	mov	w10, #46
	mov	x22, #50577534877696
	mov	x2, #3314649325744685056
	mov	w23, #3014656
	mov	w25, #771751936
	mov	w21, #11776
	mov	w8, #11776
	b	599b
602:
	ldrb	w8, [x2, #33]
	cmp	x3, #35
	lsl	x8, x8, #8
	b.lo	613f
	ldrb	w9, [x2, #34]
	cmp	x3, #35
	lsl	x23, x9, #16
	b.ne	602f
	mov	w27, #46
	mov	x26, #12947848928690176
	mov	x24, #197568495616
	mov	x22, #50577534877696
	mov	x2, #3314649325744685056
	mov	w1, #3014656
	mov	w25, #771751936
	mov	w21, #11776
	b	976f
613:
	mov	w27, #46
	mov	x26, #12947848928690176
	mov	x24, #197568495616
	mov	x22, #50577534877696
	mov	x2, #3314649325744685056
	mov	w23, #3014656
	mov	w25, #771751936
	mov	w21, #11776
983:
	mov	w1, #3014656
976:
	ldp	x30, x12, [sp, #40]
681:
	ldp	x28, x11, [sp, #24]
	ldr	x9, [sp, #16]
	ldr	w10, [sp, #12]
	b	690b
602:
	ldrb	w9, [x2, #35]
	cmp	x3, #37
	lsl	x25, x9, #24
	b.lo	613f
	ldrb	w9, [x2, #36]
	cmp	x3, #37
	lsl	x24, x9, #32
	b.ne	602f
	mov	w27, #46
	mov	x26, #12947848928690176
	b	983f
613:
	mov	w27, #46
	mov	x26, #12947848928690176
	mov	x24, #197568495616
983:
	mov	x22, #50577534877696
613:
	mov	x2, #3314649325744685056
	mov	w1, #3014656
	mov	w21, #11776
	b	976b
602:
	ldrb	w9, [x2, #37]
	cmp	x3, #39
	lsl	x22, x9, #40
	b.lo	983f
	ldrb	w9, [x2, #38]
	cmp	x3, #39
	lsl	x26, x9, #48
	b.ne	602f
	mov	w27, #46
	b	613b
983:
	mov	w27, #46
	mov	x26, #12947848928690176
	b	613b
602:
	ldrb	w9, [x2, #39]
	cmp	x3, #41
	lsl	x9, x9, #56
	b.lo	613f
	ldrb	w27, [x2, #40]
	cmp	x3, #41
	b.eq	983f
	ldrb	w10, [x2, #41]
	cmp	x3, #43
	lsl	x21, x10, #8
	b.lo	187f
	ldrb	w10, [x2, #42]
	lsl	x1, x10, #16
	b	976f
613:
	mov	w27, #46
983:
	mov	w1, #3014656
	mov	w21, #11776
976:
	ldp	x30, x12, [sp, #40]
	mov	x2, x9
	b	681b
187:
	mov	w1, #3014656
	b	976b
	.section	.text.unlikely.core.fmt.formatter.Formatter.write_indented._1ac78889755d2eb3,"ax",@progbits
	.p2align	2
core.fmt.formatter.Formatter.write_indented._1ac78889755d2eb3:
	stp	x29, x30, [sp, #-80]!
	str	x25, [sp, #16]
	mov	x29, sp
	stp	x24, x23, [sp, #32]
	stp	x22, x21, [sp, #48]
	stp	x20, x19, [sp, #64]
	cbz	x2, 983f
	mov	x21, x2
	mov	x20, x1
	mov	x19, x0
	mov	x8, xzr
	mov	x24, xzr
	b	602f
613:
	mov	w23, #1
	add	x1, x20, x25
	mov	x0, x19
	mov	x2, x22
	strb	w23, [x19, #136]
	bl	core.fmt.formatter.Formatter.write_raw._1ac78889755d2eb3
	and	w9, w0, #0xff
	mov	x8, x24
	tbnz	w9, #0, 187f
118:
	cmp	x24, x21
	b.eq	118f
602:
	ldrb	w10, [x20, x24]
	mov	x9, x24
	add	x24, x24, #1
	cmp	w10, #10
	b.ne	118b
	subs	x22, x24, x8
	csel	x25, xzr, x8, lo
	cmp	x8, x9
	mov	x8, x24
	b.hi	118b
	ldrb	w8, [x19, #136]
	cmp	w8, #1
	b.ne	613b
	ldr	x23, [x19, #128]
	cbz	x23, 613b
939:
	adrp	x1, .LT2e42b7fd
	add	x1, x1, :lo12:.LT2e42b7fd
	mov	x0, x19
	mov	w2, #4
	bl	core.fmt.formatter.Formatter.write_raw._1ac78889755d2eb3
	and	w8, w0, #0xff
	tbnz	w8, #0, 613f
	subs	x23, x23, #1
	b.ne	939b
	b	613b
118:
	cmp	x8, x21
	csel	x22, xzr, x8, hi
	subs	x8, x21, x8
	csel	x21, xzr, x8, lo
	b.ls	983f
	ldrb	w8, [x19, #136]
	cmp	w8, #1
	b.ne	62f
	ldr	x23, [x19, #128]
	cbz	x23, 62f
939:
	adrp	x1, .LT2e42b7fd
	add	x1, x1, :lo12:.LT2e42b7fd
	mov	x0, x19
	mov	w2, #4
	bl	core.fmt.formatter.Formatter.write_raw._1ac78889755d2eb3
	and	w8, w0, #0xff
	tbnz	w8, #0, 613f
	subs	x23, x23, #1
	b.ne	939b
62:
	add	x1, x20, x22
	mov	x0, x19
	mov	x2, x21
	strb	wzr, [x19, #136]
	ldp	x20, x19, [sp, #64]
	ldp	x22, x21, [sp, #48]
	ldr	x25, [sp, #16]
	ldp	x24, x23, [sp, #32]
	ldp	x29, x30, [sp], #80
	b	core.fmt.formatter.Formatter.write_raw._1ac78889755d2eb3
983:
	mov	w23, wzr
	b	187f
613:
	mov	w23, #1
187:
	mov	w0, w23
	ldp	x20, x19, [sp, #64]
	ldp	x22, x21, [sp, #48]
	ldr	x25, [sp, #16]
	ldp	x24, x23, [sp, #32]
	ldp	x29, x30, [sp], #80
	ret
	.section	.text.core.fmt.formatter.Formatter.write_raw._1ac78889755d2eb3,"ax",@progbits
	.p2align	2
core.fmt.formatter.Formatter.write_raw._1ac78889755d2eb3:
	cbz	x2, 360f
	mov	x8, xzr
	b	170f
613:
	mov	w10, #1
62:
	add	x8, x10, x8
	cmp	x8, x2
	b.hs	360f
170:
	ldrsb	w9, [x1, x8]
	tbz	w9, #31, 613b
	add	x10, x8, #1
	cmp	x2, x10
	b.ls	613f
	ldrsb	w10, [x1, x10]
	tbz	w10, #31, 613f
	and	w9, w9, #0xff
	cmn	w10, #64
	mov	w11, #-64
	csel	w10, w10, w11, lo
	cmp	w9, #194
	b.lo	613f
	and	w10, w10, #0x7f
	cmp	w10, #63
	b.hi	613f
	cmp	w9, #224
	b.hs	316f
	mov	w10, #2
	b	62b
316:
	add	x11, x8, #2
	cmp	x2, x11
	b.ls	613f
	ldrsb	w11, [x1, x11]
	cmn	w11, #65
	b.gt	613f
	cmp	w9, #239
	b.hi	316f
	lsl	w11, w9, #12
	add	w10, w11, w10, lsl #6
	sub	w10, w10, #224, lsl #12
	cmp	w10, #2048
	b.lo	613f
	lsr	w10, w10, #11
	cmp	w10, #27
	mov	w10, #3
	b.lo	62b
	cmp	w9, #238
	b.hs	62b
	b	613f
316:
	add	x11, x8, #3
	cmp	x2, x11
	b.ls	613f
	ldrsb	w11, [x1, x11]
	cmn	w11, #65
	b.gt	613f
	lsl	w9, w9, #18
	add	w9, w9, w10, lsl #12
	mov	w10, #-62980096
	add	w9, w9, w10
	lsr	w9, w9, #20
	cbnz	w9, 613f
	mov	w10, #4
	b	62b
360:
	b	std.io.traits.AdapterWrite.write_str._5349ec06ad6c886c
613:
	mov	w0, #1
	ret
	.section	.text.core.str.utf8.from_utf8,"ax",@progbits
	.p2align	2
core.str.utf8.from_utf8:
	sub	sp, sp, #64
	stp	x22, x21, [sp, #32]
	mov	x21, x1
	stp	x20, x19, [sp, #48]
	mov	x20, x2
	mov	x19, x0
	stp	x29, x30, [sp, #16]
	add	x29, sp, #16
	cbz	x2, 598f
	mov	x9, xzr
	sub	x22, x20, #8
	b	316f
447:
	and	w11, w11, #0xff
	tbnz	w11, #7, 280f
613:
	mov	w12, #1
62:
	add	x8, x12, x9
118:
	cmp	x8, x20
	mov	x9, x8
	b.hs	598f
316:
	add	x8, x21, x9
	sub	x10, x20, x9
	ldrsb	w11, [x8]
	cmp	x10, #2
	b.lo	447b
	tbnz	w11, #31, 447b
	ldrsb	w11, [x8, #1]
	tbnz	w11, #31, 613b
	cmp	x10, #7
	stp	x21, x20, [sp]
	b.hi	93f
	ldrsb	w8, [x21, x9]
	tbnz	w8, #31, 613f
	add	x8, x9, #1
	cmp	x8, x20
	b.eq	598f
	ldrsb	w10, [x21, x8]
	tbnz	w10, #31, 118b
	add	x8, x9, #2
	cmp	x8, x20
	b.eq	598f
	ldrsb	w10, [x21, x8]
	tbnz	w10, #31, 118b
	add	x8, x9, #3
	cmp	x8, x20
	b.eq	598f
	ldrsb	w10, [x21, x8]
	tbnz	w10, #31, 118b
	add	x8, x9, #4
	cmp	x8, x20
	b.eq	598f
	ldrsb	w10, [x21, x8]
	tbnz	w10, #31, 118b
	add	x8, x9, #5
	cmp	x8, x20
	b.eq	598f
	ldrsb	w10, [x21, x8]
	tbnz	w10, #31, 118b
	add	x8, x9, #6
	cmp	x8, x20
	b.eq	598f
	ldrsb	w9, [x21, x8]
	tbnz	w9, #31, 118b
	b	598f
280:
	cmp	w11, #194
	b.lo	187f
	cmp	w11, #223
	b.hi	474f
	cmp	x10, #2
	b.lo	983f
	ldrsb	w12, [x8, #1]
	cmn	w12, #65
	b.gt	937f
	mov	w12, #2
	b	62b
93:
	ldr	x8, [x8]
	mov	w10, #8
	ands	x8, x8, #0x8080808080808080
	rbit	x8, x8
	clz	x8, x8
	lsr	x8, x8, #3
	csel	x8, x10, x8, eq
	add	x8, x8, x9
	add	x9, x9, #8
	cmp	x8, x9
	b.lo	118b
	sub	x9, x20, x8
	cmp	x9, #32
	b.lo	625f
316:
	add	x9, x21, x8
	ldp	q1, q0, [x9]
	orr	v0.16b, v1.16b, v0.16b
	ext	v1.16b, v0.16b, v0.16b, #8
	orr	v0.8b, v0.8b, v1.8b
	fmov	x9, d0
	tst	x9, #0x8080808080808080
	b.ne	625f
	mov	x0, sp
	add	x1, x8, #32
	mov	x2, x20
	bl	core.slice.words.skip_far._52f9edcae2f82f51
	sub	x9, x20, x0
	mov	x8, x0
	cmp	x9, #31
	b.hi	316b
625:
	sub	x9, x20, x8
280:
	cmp	x9, #9
	b.lo	93f
	ldr	x10, [x21, x8]
	mov	w11, #8
	sub	x9, x9, #8
	ands	x10, x10, #0x8080808080808080
	rbit	x10, x10
	clz	x10, x10
	lsr	x10, x10, #3
	csel	x10, x11, x10, eq
	add	x11, x10, x8
	add	x8, x8, #8
	cmp	x11, x8
	b.hs	280b
	add	x8, x10, x8
	sub	x8, x8, #8
	b	118b
474:
	cmp	w11, #239
	b.hi	280f
	cmp	x10, #3
	b.lo	474f
	ldrsb	w12, [x8, #1]
	cmn	w12, #65
	b.gt	937f
	ldrsb	w13, [x8, #2]
	cmn	w13, #65
	b.gt	937f
	and	w13, w12, #0xff
	mov	w14, #-14464
	add	w13, w13, w11, lsl #6
	add	w13, w13, w14
	cmp	w13, #32
	b.lo	937f
	cmp	w13, #896
	mov	w12, #3
	csel	x14, xzr, x12, lo
	cmp	w13, #864
	b.lo	62b
	mov	x12, x14
	b	360f
613:
	mov	x8, x9
	b	118b
280:
	cmp	x10, #4
	b.lo	118f
	ldrsb	w12, [x8, #1]
	cmn	w12, #65
	b.gt	118f
	ldrsb	w13, [x8, #2]
	cmn	w13, #65
	b.gt	118f
	ldrsb	w13, [x8, #3]
	cmn	w13, #65
	b.gt	118f
	and	w12, w12, #0xff
	mov	w13, #-15488
	add	w12, w12, w11, lsl #6
	add	w13, w12, w13
	mov	w12, #4
	cmp	w13, #272
	csel	x12, x12, xzr, lo
	cmp	w13, #16
	b.lo	118f
360:
	cbnz	x12, 62b
	b	118f
93:
	ldr	x8, [x21, x22]
	mov	w9, #8
	ands	x8, x8, #0x8080808080808080
	rbit	x8, x8
	clz	x8, x8
	lsr	x8, x8, #3
	csel	x8, x9, x8, eq
	add	x8, x8, x22
	b	118b
598:
	stp	xzr, x21, [x19]
	str	x20, [x19, #16]
	ldp	x20, x19, [sp, #48]
	ldp	x22, x21, [sp, #32]
	ldp	x29, x30, [sp, #16]
	add	sp, sp, #64
	ret
118:
	cmp	w11, #244
	b.hi	187f
474:
	cmp	x10, #2
	b.lo	983f
	ldrb	w12, [x8, #1]
937:
	cmp	w11, #240
	mov	w13, #-128
	mov	w14, #-112
	mov	w15, #-96
	csel	w13, w14, w13, eq
	cmp	w11, #224
	mov	w14, #-65
	csel	w13, w15, w13, eq
	mov	w15, #-113
	cmp	w11, #244
	and	w16, w13, #0xf0
	csel	w13, w15, w14, eq
	cmp	w11, #237
	mov	w11, #-97
	csel	w13, w11, w13, eq
	cmp	w16, w12, uxtb
	mov	w11, #257
	b.hi	613f
	and	w12, w12, #0xff
	cmp	w12, w13, uxtb
	b.hi	613f
	cmp	x10, #2
	b.ne	170f
983:
	mov	x11, xzr
	b	613f
187:
	mov	w11, #257
613:
	mov	w8, #1
	str	x11, [x19, #16]
	stp	x8, x9, [x19]
	ldp	x20, x19, [sp, #48]
	ldp	x22, x21, [sp, #32]
	ldp	x29, x30, [sp, #16]
	add	sp, sp, #64
	ret
170:
	ldrsb	w8, [x8, #2]
	cmn	w8, #65
	b.gt	983f
	cmp	x10, #3
	mov	w8, #769
	csel	x11, x8, xzr, hi
	b	613b
983:
	mov	w11, #513
	b	613b
	.section	.text.core.slice.words.skip_far._52f9edcae2f82f51,"ax",@progbits
	.p2align	2
core.slice.words.skip_far._52f9edcae2f82f51:
	sub	x8, x2, x1
	cmp	x8, #64
	b.lo	613f
	ldr	x9, [x0]
62:
	add	x10, x9, x1
	ldp	q0, q1, [x10, #32]
	ldp	q2, q3, [x10]
	orr	v1.16b, v3.16b, v1.16b
	orr	v0.16b, v2.16b, v0.16b
	orr	v0.16b, v0.16b, v1.16b
	ext	v1.16b, v0.16b, v0.16b, #8
	orr	v0.8b, v0.8b, v1.8b
	fmov	x10, d0
	tst	x10, #0x8080808080808080
	b.ne	613f
	sub	x8, x8, #64
	add	x1, x1, #64
	cmp	x8, #63
	b.hi	62b
613:
	mov	x0, x1
	ret
	.section	.rodata.cst16,"aM",@progbits,16
	.p2align	4
.LCfe6faef5_0:
	.byte	1
	.byte	2
	.byte	4
	.byte	8
	.byte	16
	.byte	32
	.byte	64
	.byte	128
	.byte	1
	.byte	2
	.byte	4
	.byte	8
	.byte	16
	.byte	32
	.byte	64
	.byte	128
	.section	.text.tc_lines.word.long_word_length,"ax",@progbits
	.p2align	2
tc_lines.word.long_word_length:
	mov	x13, xzr
	add	x8, x0, x1
	sub	x9, x1, #64
	add	x10, x0, #96
	add	x11, x0, #160
625:
	sub	x14, x1, x13
	adrp	x12, .LCfe6faef5_0
	cmp	x14, #191
	b.ls	118f
	movi	v0.16b, #251
	add	x14, x0, x13
	movi	v1.16b, #32
	ldp	q3, q2, [x14]
	movi	v4.16b, #9
	ldp	q6, q5, [x14, #32]
	add	x14, x13, #64
	and	v7.16b, v3.16b, v0.16b
	and	v16.16b, v2.16b, v0.16b
	cmeq	v3.16b, v3.16b, v1.16b
	and	v17.16b, v5.16b, v0.16b
	and	v0.16b, v6.16b, v0.16b
	cmeq	v2.16b, v2.16b, v1.16b
	cmeq	v6.16b, v6.16b, v1.16b
	cmeq	v1.16b, v5.16b, v1.16b
	cmeq	v5.16b, v7.16b, v4.16b
	cmeq	v7.16b, v16.16b, v4.16b
	cmeq	v16.16b, v0.16b, v4.16b
	cmeq	v4.16b, v17.16b, v4.16b
	ldr	q0, [x12, :lo12:.LCfe6faef5_0]
	orr	v3.16b, v3.16b, v5.16b
	orr	v2.16b, v2.16b, v7.16b
	orr	v1.16b, v1.16b, v4.16b
	orr	v4.16b, v6.16b, v16.16b
	and	v3.16b, v3.16b, v0.16b
	and	v2.16b, v2.16b, v0.16b
	and	v4.16b, v4.16b, v0.16b
	and	v1.16b, v1.16b, v0.16b
	addp	v2.16b, v3.16b, v2.16b
	addp	v1.16b, v4.16b, v1.16b
	addp	v1.16b, v2.16b, v1.16b
	addp	v1.16b, v1.16b, v1.16b
	fmov	x15, d1
	cbnz	x15, 748f
	sub	x15, x1, x14
	cmp	x15, #128
	b.lo	613f
	add	x12, x13, #192
	add	x13, x11, x13
922:
	movi	v4.16b, #251
	ldp	q2, q1, [x13, #-32]
	ldp	q16, q7, [x13]
	movi	v5.16b, #32
	movi	v6.16b, #9
	ldp	q20, q19, [x13, #-64]
	ldp	q23, q22, [x13, #-96]
	and	v3.16b, v1.16b, v4.16b
	and	v17.16b, v2.16b, v4.16b
	and	v18.16b, v7.16b, v4.16b
	and	v21.16b, v16.16b, v4.16b
	cmeq	v1.16b, v1.16b, v5.16b
	cmeq	v2.16b, v2.16b, v5.16b
	cmeq	v7.16b, v7.16b, v5.16b
	and	v24.16b, v19.16b, v4.16b
	and	v25.16b, v20.16b, v4.16b
	cmeq	v3.16b, v3.16b, v6.16b
	cmeq	v17.16b, v17.16b, v6.16b
	cmeq	v18.16b, v18.16b, v6.16b
	cmeq	v16.16b, v16.16b, v5.16b
	cmeq	v21.16b, v21.16b, v6.16b
	orr	v1.16b, v1.16b, v3.16b
	orr	v3.16b, v2.16b, v17.16b
	orr	v2.16b, v7.16b, v18.16b
	and	v7.16b, v22.16b, v4.16b
	and	v17.16b, v23.16b, v4.16b
	cmeq	v18.16b, v19.16b, v5.16b
	cmeq	v19.16b, v24.16b, v6.16b
	orr	v4.16b, v16.16b, v21.16b
	cmeq	v16.16b, v20.16b, v5.16b
	cmeq	v20.16b, v25.16b, v6.16b
	cmeq	v21.16b, v23.16b, v5.16b
	cmeq	v22.16b, v22.16b, v5.16b
	cmeq	v17.16b, v17.16b, v6.16b
	cmeq	v7.16b, v7.16b, v6.16b
	orr	v6.16b, v18.16b, v19.16b
	orr	v18.16b, v1.16b, v2.16b
	orr	v19.16b, v3.16b, v4.16b
	orr	v5.16b, v16.16b, v20.16b
	orr	v16.16b, v22.16b, v7.16b
	orr	v7.16b, v21.16b, v17.16b
	orr	v18.16b, v6.16b, v18.16b
	orr	v17.16b, v5.16b, v19.16b
	orr	v18.16b, v16.16b, v18.16b
	orr	v17.16b, v7.16b, v17.16b
	and	v18.16b, v18.16b, v0.16b
	and	v17.16b, v17.16b, v0.16b
	addp	v17.16b, v17.16b, v18.16b
	addp	v17.16b, v17.16b, v17.16b
	addp	v17.16b, v17.16b, v17.16b
	fmov	w14, s17
	cbnz	w14, 575f
	sub	x15, x15, #128
	add	x12, x12, #128
	add	x13, x13, #128
	cmp	x15, #127
	b.hi	922b
	sub	x13, x12, #128
	cmp	x15, #32
	b.hs	893f
	b	320f
118:
	cmp	x14, #64
	b.lo	280f
922:
	movi	v0.16b, #251
	add	x15, x0, x13
	movi	v5.16b, #32
	ldp	q1, q2, [x15]
	movi	v6.16b, #9
	ldp	q4, q3, [x15, #32]
	and	v7.16b, v1.16b, v0.16b
	and	v16.16b, v2.16b, v0.16b
	cmeq	v18.16b, v2.16b, v5.16b
	and	v17.16b, v3.16b, v0.16b
	and	v0.16b, v4.16b, v0.16b
	cmeq	v19.16b, v1.16b, v5.16b
	cmeq	v16.16b, v16.16b, v6.16b
	cmeq	v7.16b, v7.16b, v6.16b
	cmeq	v17.16b, v17.16b, v6.16b
	cmeq	v0.16b, v0.16b, v6.16b
	cmeq	v6.16b, v3.16b, v5.16b
	cmeq	v5.16b, v4.16b, v5.16b
	orr	v7.16b, v19.16b, v7.16b
	orr	v16.16b, v18.16b, v16.16b
	orr	v0.16b, v5.16b, v0.16b
	orr	v5.16b, v6.16b, v17.16b
	orr	v5.16b, v16.16b, v5.16b
	orr	v6.16b, v7.16b, v0.16b
	ldr	q0, [x12, :lo12:.LCfe6faef5_0]
	and	v6.16b, v6.16b, v0.16b
	and	v5.16b, v5.16b, v0.16b
	addp	v5.16b, v6.16b, v5.16b
	addp	v5.16b, v5.16b, v5.16b
	addp	v5.16b, v5.16b, v5.16b
	fmov	w15, s5
	cbnz	w15, 118f
	sub	x14, x14, #64
	add	x13, x13, #64
	cmp	x14, #63
	b.hi	922b
	b	280f
118:
	cmp	x14, #64
	b.lo	280f
922:
	movi	v5.16b, #251
	movi	v6.16b, #32
	movi	v7.16b, #9
	and	v16.16b, v1.16b, v5.16b
	and	v17.16b, v2.16b, v5.16b
	and	v18.16b, v3.16b, v5.16b
	and	v5.16b, v4.16b, v5.16b
	cmeq	v1.16b, v1.16b, v6.16b
	cmeq	v2.16b, v2.16b, v6.16b
	cmeq	v4.16b, v4.16b, v6.16b
	cmeq	v3.16b, v3.16b, v6.16b
	cmeq	v6.16b, v16.16b, v7.16b
	cmeq	v16.16b, v17.16b, v7.16b
	cmeq	v5.16b, v5.16b, v7.16b
	cmeq	v7.16b, v18.16b, v7.16b
	orr	v1.16b, v1.16b, v6.16b
	orr	v2.16b, v2.16b, v16.16b
	orr	v3.16b, v3.16b, v7.16b
	orr	v4.16b, v4.16b, v5.16b
	and	v1.16b, v1.16b, v0.16b
	and	v2.16b, v2.16b, v0.16b
	and	v4.16b, v4.16b, v0.16b
	and	v3.16b, v3.16b, v0.16b
	addp	v1.16b, v1.16b, v2.16b
	addp	v2.16b, v4.16b, v3.16b
	addp	v1.16b, v1.16b, v2.16b
	addp	v1.16b, v1.16b, v1.16b
	fmov	x15, d1
	cbnz	x15, 316f
	sub	x14, x9, x13
	neg	x15, x13
	add	x13, x10, x13
321:
	subs	x16, x14, #64
	b.lo	983f
	movi	v5.16b, #251
	ldp	q1, q2, [x13, #-32]
	ldp	q4, q3, [x13], #64
	movi	v6.16b, #32
	movi	v7.16b, #9
	sub	x15, x15, #64
	mov	x14, x16
	and	v16.16b, v1.16b, v5.16b
	and	v17.16b, v2.16b, v5.16b
	and	v18.16b, v3.16b, v5.16b
	and	v5.16b, v4.16b, v5.16b
	cmeq	v19.16b, v2.16b, v6.16b
	cmeq	v20.16b, v1.16b, v6.16b
	cmeq	v17.16b, v17.16b, v7.16b
	cmeq	v16.16b, v16.16b, v7.16b
	cmeq	v18.16b, v18.16b, v7.16b
	cmeq	v5.16b, v5.16b, v7.16b
	cmeq	v7.16b, v3.16b, v6.16b
	cmeq	v6.16b, v4.16b, v6.16b
	orr	v16.16b, v20.16b, v16.16b
	orr	v17.16b, v19.16b, v17.16b
	orr	v5.16b, v6.16b, v5.16b
	orr	v6.16b, v7.16b, v18.16b
	orr	v6.16b, v17.16b, v6.16b
	orr	v5.16b, v16.16b, v5.16b
	and	v5.16b, v5.16b, v0.16b
	and	v6.16b, v6.16b, v0.16b
	addp	v5.16b, v5.16b, v6.16b
	addp	v5.16b, v5.16b, v5.16b
	addp	v5.16b, v5.16b, v5.16b
	fmov	w17, s5
	cbz	w17, 321b
	neg	x13, x15
	b	922b
613:
	mov	x13, x14
	cmp	x15, #32
	b.lo	320f
893:
	sub	x12, x1, x13
922:
	movi	v1.16b, #251
	add	x14, x0, x13
	movi	v4.16b, #32
	ldp	q3, q2, [x14]
	movi	v5.16b, #9
	and	v6.16b, v2.16b, v1.16b
	and	v1.16b, v3.16b, v1.16b
	cmeq	v3.16b, v3.16b, v4.16b
	cmeq	v2.16b, v2.16b, v4.16b
	cmeq	v1.16b, v1.16b, v5.16b
	cmeq	v4.16b, v6.16b, v5.16b
	orr	v2.16b, v2.16b, v4.16b
	orr	v1.16b, v3.16b, v1.16b
	and	v1.16b, v1.16b, v0.16b
	and	v2.16b, v2.16b, v0.16b
	addp	v1.16b, v1.16b, v2.16b
	addp	v1.16b, v1.16b, v1.16b
	addp	v1.16b, v1.16b, v1.16b
	fmov	w15, s1
	cbnz	w15, 62f
	sub	x12, x12, #32
	add	x13, x13, #32
	cmp	x12, #31
	b.hi	922b
320:
	movi	v1.16b, #251
	ldp	q3, q2, [x8, #-32]
	movi	v4.16b, #32
	movi	v5.16b, #9
	and	v6.16b, v2.16b, v1.16b
	and	v1.16b, v3.16b, v1.16b
	cmeq	v3.16b, v3.16b, v4.16b
	cmeq	v2.16b, v2.16b, v4.16b
	cmeq	v1.16b, v1.16b, v5.16b
	cmeq	v4.16b, v6.16b, v5.16b
	orr	v2.16b, v2.16b, v4.16b
	orr	v1.16b, v3.16b, v1.16b
	and	v1.16b, v1.16b, v0.16b
	and	v0.16b, v2.16b, v0.16b
	addp	v0.16b, v1.16b, v0.16b
	b	144f
983:
	mov	w13, #64
	sub	x13, x13, x15
280:
	cmp	x14, #32
	b.lo	320f
	sub	x14, x1, x13
922:
	movi	v0.16b, #251
	add	x15, x0, x13
	movi	v3.16b, #32
	ldp	q2, q1, [x15]
	movi	v4.16b, #9
	and	v5.16b, v1.16b, v0.16b
	and	v0.16b, v2.16b, v0.16b
	cmeq	v2.16b, v2.16b, v3.16b
	cmeq	v1.16b, v1.16b, v3.16b
	cmeq	v0.16b, v0.16b, v4.16b
	cmeq	v3.16b, v5.16b, v4.16b
	orr	v1.16b, v1.16b, v3.16b
	orr	v0.16b, v2.16b, v0.16b
	ldr	q2, [x12, :lo12:.LCfe6faef5_0]
	and	v0.16b, v0.16b, v2.16b
	and	v1.16b, v1.16b, v2.16b
	addp	v0.16b, v0.16b, v1.16b
	addp	v0.16b, v0.16b, v0.16b
	addp	v0.16b, v0.16b, v0.16b
	fmov	w15, s0
	cbnz	w15, 62f
	sub	x14, x14, #32
	add	x13, x13, #32
	cmp	x14, #31
	b.hi	922b
320:
	movi	v0.16b, #251
	ldp	q2, q1, [x8, #-32]
	movi	v3.16b, #32
	movi	v4.16b, #9
	and	v5.16b, v1.16b, v0.16b
	and	v0.16b, v2.16b, v0.16b
	cmeq	v2.16b, v2.16b, v3.16b
	cmeq	v1.16b, v1.16b, v3.16b
	cmeq	v0.16b, v0.16b, v4.16b
	cmeq	v3.16b, v5.16b, v4.16b
	orr	v1.16b, v1.16b, v3.16b
	orr	v0.16b, v2.16b, v0.16b
	ldr	q2, [x12, :lo12:.LCfe6faef5_0]
	and	v0.16b, v0.16b, v2.16b
	and	v1.16b, v1.16b, v2.16b
	addp	v0.16b, v0.16b, v1.16b
144:
	addp	v0.16b, v0.16b, v0.16b
	sub	x14, x13, x1
	add	x14, x14, #32
	addp	v0.16b, v0.16b, v0.16b
	fmov	w12, s0
	lsr	x15, x12, x14
	mov	x12, x1
	mov	x14, x12
	cbnz	x15, 748f
	b	118f
62:
	add	x14, x13, #32
748:
	rbit	x12, x15
	mov	w18, #1
	mov	x2, #8704
	movk	x2, #1, lsl #32
	clz	x12, x12
	add	x16, x12, x13
	ldrb	w17, [x0, x16]
	lsl	x18, x18, x17
	cmp	w17, #32
	and	x17, x18, x2
	ccmp	x17, #0, #4, ls
	b.ne	613f
	mov	w16, #1
	lsl	x12, x16, x12
	bics	x15, x15, x12
	b.ne	748b
118:
	cmp	x14, x1
	mov	x13, x14
	b.lo	625b
	b	983f
575:
	umov	w14, v16.b[0]
	umov	w2, v7.b[0]
	umov	w17, v6.b[0]
	umov	w15, v5.b[0]
	umov	w18, v16.b[1]
	umov	w16, v7.b[1]
	umov	w13, v6.b[1]
	fmov	s17, w14
	umov	w14, v5.b[1]
	fmov	s18, w2
	fmov	s19, w17
	fmov	s20, w15
	umov	w15, v16.b[3]
	mov	v17.b[1], w18
	umov	w18, v16.b[2]
	mov	v18.b[1], w16
	umov	w16, v7.b[2]
	mov	v19.b[1], w13
	umov	w13, v6.b[2]
	mov	v20.b[1], w14
	umov	w14, v5.b[2]
	mov	v17.b[2], w18
	mov	v18.b[2], w16
	umov	w16, v7.b[3]
	mov	v19.b[2], w13
	umov	w13, v6.b[3]
	mov	v20.b[2], w14
	umov	w14, v5.b[3]
	mov	v17.b[3], w15
	umov	w15, v16.b[4]
	mov	v18.b[3], w16
	umov	w16, v7.b[4]
	mov	v19.b[3], w13
	umov	w13, v6.b[4]
	mov	v20.b[3], w14
	umov	w14, v5.b[4]
	mov	v17.b[4], w15
	umov	w15, v16.b[5]
	mov	v18.b[4], w16
	umov	w16, v7.b[5]
	mov	v19.b[4], w13
	umov	w13, v6.b[5]
	mov	v20.b[4], w14
	umov	w14, v5.b[5]
	mov	v17.b[5], w15
	umov	w15, v16.b[6]
	mov	v18.b[5], w16
	umov	w16, v7.b[6]
	mov	v19.b[5], w13
	umov	w13, v6.b[6]
	mov	v20.b[5], w14
	umov	w14, v5.b[6]
	mov	v17.b[6], w15
	umov	w15, v16.b[7]
	mov	v18.b[6], w16
	umov	w16, v7.b[7]
	mov	v19.b[6], w13
	umov	w13, v6.b[7]
	mov	v20.b[6], w14
	umov	w14, v5.b[7]
	mov	v17.b[7], w15
	umov	w15, v16.b[8]
	mov	v18.b[7], w16
	umov	w16, v7.b[8]
	mov	v19.b[7], w13
	umov	w13, v6.b[8]
	mov	v20.b[7], w14
	umov	w14, v5.b[8]
	mov	v17.b[8], w15
	umov	w15, v16.b[9]
	mov	v18.b[8], w16
	umov	w16, v7.b[9]
	mov	v19.b[8], w13
	umov	w13, v6.b[9]
	mov	v20.b[8], w14
	umov	w14, v5.b[9]
	mov	v17.b[9], w15
	umov	w15, v16.b[10]
	mov	v18.b[9], w16
	umov	w16, v7.b[10]
	mov	v19.b[9], w13
	umov	w13, v6.b[10]
	mov	v20.b[9], w14
	umov	w14, v5.b[10]
	mov	v17.b[10], w15
	umov	w15, v16.b[11]
	mov	v18.b[10], w16
	umov	w16, v7.b[11]
	mov	v19.b[10], w13
	umov	w13, v6.b[11]
	mov	v20.b[10], w14
	umov	w14, v5.b[11]
	mov	v17.b[11], w15
	umov	w15, v16.b[12]
	mov	v18.b[11], w16
	umov	w16, v7.b[12]
	mov	v19.b[11], w13
	umov	w13, v6.b[12]
	mov	v20.b[11], w14
	umov	w14, v5.b[12]
	mov	v17.b[12], w15
	umov	w15, v16.b[13]
	mov	v18.b[12], w16
	umov	w16, v7.b[13]
	mov	v19.b[12], w13
	umov	w13, v6.b[13]
	mov	v20.b[12], w14
	umov	w14, v5.b[13]
	mov	v17.b[13], w15
	umov	w15, v16.b[14]
	mov	v18.b[13], w16
	umov	w16, v7.b[14]
	mov	v19.b[13], w13
	umov	w13, v6.b[14]
	mov	v20.b[13], w14
	umov	w14, v5.b[14]
	mov	v17.b[14], w15
	umov	w15, v16.b[15]
	mov	v18.b[14], w16
	umov	w16, v7.b[15]
	mov	v19.b[14], w13
	umov	w13, v6.b[15]
	mov	v20.b[14], w14
	umov	w14, v5.b[15]
	mov	v17.b[15], w15
	mov	v18.b[15], w16
	mov	v19.b[15], w13
	mov	v20.b[15], w14
	sub	x14, x12, #64
	shl	v6.16b, v17.16b, #7
	shl	v5.16b, v18.16b, #7
	shl	v7.16b, v19.16b, #7
	shl	v16.16b, v20.16b, #7
	cmlt	v6.16b, v6.16b, #0
	cmlt	v5.16b, v5.16b, #0
	cmlt	v7.16b, v7.16b, #0
	cmlt	v16.16b, v16.16b, #0
	and	v6.16b, v6.16b, v0.16b
	and	v5.16b, v5.16b, v0.16b
	and	v7.16b, v7.16b, v0.16b
	and	v16.16b, v16.16b, v0.16b
	addp	v5.16b, v5.16b, v6.16b
	addp	v6.16b, v16.16b, v7.16b
	addp	v5.16b, v5.16b, v6.16b
	addp	v5.16b, v5.16b, v5.16b
	fmov	x15, d5
	cbz	x15, 575f
	sub	x13, x12, #128
	b	748b
575:
	umov	w15, v1.b[0]
	umov	w3, v3.b[0]
	umov	w18, v2.b[0]
	umov	w16, v4.b[0]
	umov	w2, v1.b[1]
	umov	w17, v3.b[1]
	umov	w13, v2.b[1]
	fmov	s5, w15
	umov	w15, v4.b[1]
	fmov	s6, w3
	fmov	s7, w18
	fmov	s16, w16
	umov	w16, v1.b[3]
	mov	v5.b[1], w2
	umov	w2, v1.b[2]
	mov	v6.b[1], w17
	umov	w17, v3.b[2]
	mov	v7.b[1], w13
	umov	w13, v2.b[2]
	mov	v16.b[1], w15
	umov	w15, v4.b[2]
	mov	v5.b[2], w2
	mov	v6.b[2], w17
	umov	w17, v3.b[3]
	mov	v7.b[2], w13
	umov	w13, v2.b[3]
	mov	v16.b[2], w15
	umov	w15, v4.b[3]
	mov	v5.b[3], w16
	umov	w16, v1.b[4]
	mov	v6.b[3], w17
	umov	w17, v3.b[4]
	mov	v7.b[3], w13
	umov	w13, v2.b[4]
	mov	v16.b[3], w15
	umov	w15, v4.b[4]
	mov	v5.b[4], w16
	umov	w16, v1.b[5]
	mov	v6.b[4], w17
	umov	w17, v3.b[5]
	mov	v7.b[4], w13
	umov	w13, v2.b[5]
	mov	v16.b[4], w15
	umov	w15, v4.b[5]
	mov	v5.b[5], w16
	umov	w16, v1.b[6]
	mov	v6.b[5], w17
	umov	w17, v3.b[6]
	mov	v7.b[5], w13
	umov	w13, v2.b[6]
	mov	v16.b[5], w15
	umov	w15, v4.b[6]
	mov	v5.b[6], w16
	umov	w16, v1.b[7]
	mov	v6.b[6], w17
	umov	w17, v3.b[7]
	mov	v7.b[6], w13
	umov	w13, v2.b[7]
	mov	v16.b[6], w15
	umov	w15, v4.b[7]
	mov	v5.b[7], w16
	umov	w16, v1.b[8]
	mov	v6.b[7], w17
	umov	w17, v3.b[8]
	mov	v7.b[7], w13
	umov	w13, v2.b[8]
	mov	v16.b[7], w15
	umov	w15, v4.b[8]
	mov	v5.b[8], w16
	umov	w16, v1.b[9]
	mov	v6.b[8], w17
	umov	w17, v3.b[9]
	mov	v7.b[8], w13
	umov	w13, v2.b[9]
	mov	v16.b[8], w15
	umov	w15, v4.b[9]
	mov	v5.b[9], w16
	umov	w16, v1.b[10]
	mov	v6.b[9], w17
	umov	w17, v3.b[10]
	mov	v7.b[9], w13
	umov	w13, v2.b[10]
	mov	v16.b[9], w15
	umov	w15, v4.b[10]
	mov	v5.b[10], w16
	umov	w16, v1.b[11]
	mov	v6.b[10], w17
	umov	w17, v3.b[11]
	mov	v7.b[10], w13
	umov	w13, v2.b[11]
	mov	v16.b[10], w15
	umov	w15, v4.b[11]
	mov	v5.b[11], w16
	umov	w16, v1.b[12]
	mov	v6.b[11], w17
	umov	w17, v3.b[12]
	mov	v7.b[11], w13
	umov	w13, v2.b[12]
	mov	v16.b[11], w15
	umov	w15, v4.b[12]
	mov	v5.b[12], w16
	umov	w16, v1.b[13]
	mov	v6.b[12], w17
	umov	w17, v3.b[13]
	mov	v7.b[12], w13
	umov	w13, v2.b[13]
	mov	v16.b[12], w15
	umov	w15, v4.b[13]
	mov	v5.b[13], w16
	umov	w16, v1.b[14]
	mov	v6.b[13], w17
	umov	w17, v3.b[14]
	mov	v7.b[13], w13
	umov	w13, v2.b[14]
	mov	v16.b[13], w15
	umov	w15, v4.b[14]
	mov	v5.b[14], w16
	umov	w16, v1.b[15]
	mov	v6.b[14], w17
	umov	w17, v3.b[15]
	mov	v7.b[14], w13
	umov	w13, v2.b[15]
	mov	v16.b[14], w15
	umov	w15, v4.b[15]
	mov	v5.b[15], w16
	mov	v6.b[15], w17
	mov	v7.b[15], w13
	mov	v16.b[15], w15
	shl	v2.16b, v5.16b, #7
	shl	v1.16b, v6.16b, #7
	shl	v3.16b, v7.16b, #7
	shl	v4.16b, v16.16b, #7
	cmlt	v2.16b, v2.16b, #0
	cmlt	v1.16b, v1.16b, #0
	cmlt	v3.16b, v3.16b, #0
	cmlt	v4.16b, v4.16b, #0
	and	v2.16b, v2.16b, v0.16b
	and	v1.16b, v1.16b, v0.16b
	and	v4.16b, v4.16b, v0.16b
	and	v0.16b, v3.16b, v0.16b
	addp	v1.16b, v1.16b, v2.16b
	addp	v0.16b, v4.16b, v0.16b
	addp	v0.16b, v1.16b, v0.16b
	addp	v0.16b, v0.16b, v0.16b
	fmov	x15, d0
	mov	x13, x14
	mov	x14, x12
	cbnz	x15, 748b
	b	118b
316:
	add	x14, x13, #64
	b	748b
613:
	mov	x1, x16
983:
	mov	x0, x1
	ret
	.section	.text.tc_text.word.three_arguments,"ax",@progbits
	.p2align	2
tc_text.word.three_arguments:
	sub	sp, sp, #112
	stp	x28, x27, [sp, #32]
	mov	x28, xzr
	stp	x22, x21, [sp, #80]
	mov	x21, x2
	stp	x20, x19, [sp, #96]
	mov	x20, x1
	mov	x19, x0
	stp	x29, x30, [sp, #16]
	add	x29, sp, #16
	stp	x26, x25, [sp, #48]
	stp	x24, x23, [sp, #64]
	cbz	x2, 321f
602:
	ldrb	w8, [x20, x28]
	mov	w9, #1
	mov	x10, #8704
	movk	x10, #1, lsl #32
	lsl	x9, x9, x8
	cmp	w8, #32
	and	x8, x9, x10
	ccmp	x8, #0, #4, ls
	b.eq	321f
	add	x28, x28, #1
	cmp	x21, x28
	b.ne	602b
	mov	x28, x21
321:
	subs	x23, x21, x28
	b.eq	922f
	cmp	x23, #63
	add	x24, x20, x28
	b.hi	62f
	mov	x22, xzr
602:
	ldrb	w8, [x24, x22]
	mov	w9, #1
	mov	x10, #8704
	movk	x10, #1, lsl #32
	lsl	x9, x9, x8
	cmp	w8, #32
	and	x8, x9, x10
	ccmp	x8, #0, #4, ls
	b.ne	321f
	add	x22, x22, #1
	cmp	x23, x22
	b.ne	602b
	mov	x22, x23
	b	321f
62:
	add	x0, x20, x28
	mov	x1, x23
	bl	tc_lines.word.long_word_length
	mov	x22, x0
321:
	subs	x9, x23, x22
	add	x8, x24, x22
	mov	x26, xzr
	b.eq	321f
	sub	x10, x21, x22
	sub	x10, x10, x28
602:
	ldrb	w11, [x8, x26]
	mov	w12, #1
	mov	x13, #8704
	movk	x13, #1, lsl #32
	lsl	x12, x12, x11
	cmp	w11, #32
	and	x11, x12, x13
	ccmp	x11, #0, #4, ls
	b.eq	321f
	add	x26, x26, #1
	cmp	x10, x26
	b.ne	602b
	mov	x26, x9
321:
	subs	x25, x9, x26
	b.eq	922f
	add	x9, x20, x28
	cmp	x25, #63
	add	x23, x8, x26
	str	x9, [sp]
	b.hi	613f
	sub	x8, x21, x22
	mov	x24, xzr
	sub	x8, x8, x26
	sub	x8, x8, x28
602:
	ldrb	w9, [x23, x24]
	mov	w10, #1
	mov	x11, #8704
	movk	x11, #1, lsl #32
	lsl	x10, x10, x9
	cmp	w9, #32
	and	x9, x10, x11
	ccmp	x9, #0, #4, ls
	b.ne	321f
	add	x24, x24, #1
	cmp	x8, x24
	b.ne	602b
	mov	x24, x25
	b	321f
613:
	mov	x0, x23
	mov	x1, x25
	bl	tc_lines.word.long_word_length
	mov	x24, x0
321:
	subs	x9, x25, x24
	str	x23, [sp, #8]
	add	x8, x23, x24
	mov	x23, xzr
	b.eq	321f
	sub	x10, x21, x24
	sub	x10, x10, x22
	sub	x10, x10, x26
	sub	x10, x10, x28
602:
	ldrb	w11, [x8, x23]
	mov	w12, #1
	mov	x13, #8704
	movk	x13, #1, lsl #32
	lsl	x12, x12, x11
	cmp	w11, #32
	and	x11, x12, x13
	ccmp	x11, #0, #4, ls
	b.eq	321f
	add	x23, x23, #1
	cmp	x10, x23
	b.ne	602b
	mov	x23, x9
321:
	subs	x27, x9, x23
	b.eq	922f
	cmp	x27, #63
	add	x25, x8, x23
	b.hi	613f
	sub	x8, x21, x24
	mov	x0, xzr
	sub	x8, x8, x22
	sub	x8, x8, x26
	sub	x8, x8, x23
	sub	x8, x8, x28
602:
	ldrb	w9, [x25, x0]
	mov	w10, #1
	mov	x11, #8704
	movk	x11, #1, lsl #32
	lsl	x10, x10, x9
	cmp	w9, #32
	and	x9, x10, x11
	ccmp	x9, #0, #4, ls
	b.ne	118f
	add	x0, x0, #1
	cmp	x8, x0
	b.ne	602b
	mov	x0, x27
	b	118f
613:
	mov	x0, x25
	mov	x1, x27
	bl	tc_lines.word.long_word_length
118:
	cmp	x27, x0
	b.eq	93f
	add	x8, x22, x24
	add	x9, x0, x28
	sub	x10, x21, x26
	add	x11, x23, x26
	add	x8, x8, x9
	sub	x9, x10, x23
	add	x10, x20, x11
602:
	ldrb	w11, [x10, x8]
	mov	w12, #1
	mov	x13, #8704
	movk	x13, #1, lsl #32
	lsl	x12, x12, x11
	cmp	w11, #32
	and	x11, x12, x13
	ccmp	x11, #0, #4, ls
	b.eq	321f
	add	x8, x8, #1
	cmp	x9, x8
	b.ne	602b
93:
	ldr	x8, [sp]
	strh	wzr, [x19]
	stp	x25, x0, [x19, #40]
	stp	x8, x22, [x19, #8]
	ldr	x8, [sp, #8]
	stp	x8, x24, [x19, #24]
	b	976f
321:
	subs	x1, x9, x8
	b.eq	93b
	cmp	x1, #64
	b.lo	922f
	add	x9, x23, x26
	add	x8, x20, x8
	add	x0, x8, x9
	bl	tc_lines.word.long_word_length
922:
	movi	v0.2d, #0000000000000000
	mov	w8, #257
	strh	w8, [x19]
	stur	q0, [x19, #8]
	stur	q0, [x19, #24]
	stur	q0, [x19, #40]
976:
	ldp	x20, x19, [sp, #96]
	ldp	x22, x21, [sp, #80]
	ldp	x24, x23, [sp, #64]
	ldp	x26, x25, [sp, #48]
	ldp	x28, x27, [sp, #32]
	ldp	x29, x30, [sp, #16]
	add	sp, sp, #112
	ret
	.section	.text.tc_lines.number.small_number,"ax",@progbits
	.p2align	2
tc_lines.number.small_number:
	sub	x8, x1, #6
	cmn	x8, #5
	b.lo	32f
	cbz	x1, 187f
	ldrb	w8, [x0]
	sub	w8, w8, #48
	cmp	w8, #9
	b.hi	32f
	cmp	x1, #1
	b.ne	602f
613:
	mov	w8, wzr
983:
	mov	w9, #10
	subs	x1, x1, #1
	mul	w8, w8, w9
	ldrb	w9, [x0], #1
	sub	w9, w9, #48
	add	w8, w8, w9, uxtb
	b.ne	983b
	b	118f
187:
	mov	w8, wzr
118:
	cmp	w8, #255
	cset	w9, hi
	csel	w8, wzr, w8, hi
983:
	mov	w0, w9
	mov	w1, w8
	ret
602:
	ldrb	w8, [x0, #1]
	sub	w8, w8, #48
	cmp	w8, #9
	b.hi	32f
	cmp	x1, #2
	b.eq	613b
	ldrb	w8, [x0, #2]
	sub	w8, w8, #48
	cmp	w8, #9
	b.hi	32f
	cmp	x1, #3
	b.eq	613b
	ldrb	w8, [x0, #3]
	sub	w8, w8, #48
	cmp	w8, #9
	b.hi	32f
	cmp	x1, #4
	b.eq	613b
	ldrb	w9, [x0, #4]
	mov	w8, wzr
	sub	w9, w9, #48
	cmp	w9, #9
	mov	w9, #1
	b.hi	983b
	cmp	x1, #5
	b.eq	613b
	b	983b
32:
	mov	w8, wzr
	mov	w9, #1
	mov	w0, w9
	mov	w1, w8
	ret
	.section	.rodata.cst16,"aM",@progbits,16
	.p2align	4
.LCb5d67b4a_0:
	.byte	1
	.byte	2
	.byte	4
	.byte	8
	.byte	16
	.byte	32
	.byte	64
	.byte	128
	.byte	1
	.byte	2
	.byte	4
	.byte	8
	.byte	16
	.byte	32
	.byte	64
	.byte	128
	.section	.text.core.cmp.slices.groups_equal._i8_31_core.cmp.numbers.U8PartialEq,"ax",@progbits
	.p2align	2
core.cmp.slices.groups_equal._i8_31_core.cmp.numbers.U8PartialEq:
	subs	x9, x1, #8
	b.hi	321f
	sub	x8, x1, #4
	ldr	s0, [x0]
	ldr	s1, [x2]
	add	x9, x0, x8
	add	x8, x2, x8
	ld1	{ v0.s }[1], [x9]
	ld1	{ v1.s }[1], [x8]
	fmov	x8, d0
	fmov	x9, d1
	cmp	x8, x9
	cset	w8, ne
	eor	w0, w8, #0x1
	ret
321:
	subs	x8, x1, #32
	b.hi	118f
	cmp	x9, #8
	mov	w8, #8
	mov	w10, #16
	csel	x8, x9, x8, lo
	cmp	x9, #16
	ldr	d0, [x0]
	ldr	d1, [x2]
	ldr	d2, [x0, x8]
	ldr	d3, [x2, x8]
	csel	x8, x9, x10, lo
	ldr	d5, [x2, x9]
	ldr	d4, [x0, x8]
	mov	v0.d[1], v2.d[0]
	mov	v1.d[1], v3.d[0]
	ldr	d2, [x2, x8]
	ldr	d3, [x0, x9]
	mov	v4.d[1], v3.d[0]
	mov	v2.d[1], v5.d[0]
	cmeq	v0.16b, v0.16b, v1.16b
	cmeq	v1.16b, v4.16b, v2.16b
	b	14f
118:
	cmp	x1, #65
	b.hs	447f
	ldp	q1, q0, [x0]
	add	x9, x2, x8
	ldp	q3, q2, [x2]
	add	x8, x0, x8
	ldp	q4, q5, [x9]
	cmeq	v1.16b, v1.16b, v3.16b
	cmeq	v0.16b, v0.16b, v2.16b
	ldp	q2, q3, [x8]
	mvn	v1.16b, v1.16b
	mvn	v0.16b, v0.16b
	cmeq	v2.16b, v2.16b, v4.16b
	cmeq	v3.16b, v3.16b, v5.16b
	orn	v0.16b, v0.16b, v3.16b
	orn	v1.16b, v1.16b, v2.16b
	orr	v0.16b, v1.16b, v0.16b
	umaxv	b0, v0.16b
	fmov	w8, s0
	and	w8, w8, #0x1
	eor	w0, w8, #0x1
	ret
447:
	and	x9, x1, #0xffffffffffffffc0
	add	x10, x0, #32
	add	x12, x2, #32
	mov	w11, #32
	mov	x13, x1
976:
	ldp	q0, q3, [x12, #-32]
	ldp	q1, q2, [x10, #-32]
	ldp	q4, q5, [x12], #64
	cmeq	v0.16b, v1.16b, v0.16b
	cmeq	v1.16b, v2.16b, v3.16b
	ldp	q2, q3, [x10], #64
	mvn	v0.16b, v0.16b
	mvn	v1.16b, v1.16b
	cmeq	v2.16b, v2.16b, v4.16b
	cmeq	v3.16b, v3.16b, v5.16b
	orn	v0.16b, v0.16b, v2.16b
	orn	v1.16b, v1.16b, v3.16b
	orr	v0.16b, v1.16b, v0.16b
	umaxv	b0, v0.16b
	fmov	w14, s0
	tbnz	w14, #0, 625f
	sub	x13, x13, #64
	add	x11, x11, #64
	cmp	x13, #64
	b.hs	976b
	sub	x10, x1, x9
	cmp	x10, #32
	b.hs	62f
	b	316f
625:
	sub	x9, x11, #32
	sub	x10, x1, x9
	cmp	x10, #32
	b.lo	316f
62:
	add	x11, x0, x9
	add	x9, x2, x9
976:
	ldp	q0, q1, [x11], #32
	ldp	q2, q3, [x9], #32
	adrp	x12, .LCb5d67b4a_0
	cmeq	v1.16b, v1.16b, v3.16b
	cmeq	v0.16b, v0.16b, v2.16b
	ldr	q2, [x12, :lo12:.LCb5d67b4a_0]
	bic	v1.16b, v2.16b, v1.16b
	bic	v0.16b, v2.16b, v0.16b
	ext	v2.16b, v1.16b, v1.16b, #8
	ext	v3.16b, v0.16b, v0.16b, #8
	zip1	v1.16b, v1.16b, v2.16b
	zip1	v0.16b, v0.16b, v3.16b
	addv	h1, v1.8h
	addv	h0, v0.8h
	fmov	w12, s1
	fmov	w13, s0
	orr	w12, w13, w12
	tst	w12, #0xffff
	b.ne	118f
	sub	x10, x10, #32
	cmp	x10, #32
	b.hs	976b
	b	316f
118:
	cmp	x10, #31
	b.ls	316f
	mov	w8, #1
	eor	w0, w8, #0x1
	ret
316:
	add	x9, x0, x8
	add	x8, x2, x8
	ldp	q0, q3, [x8]
	ldp	q1, q2, [x9]
	cmeq	v0.16b, v1.16b, v0.16b
	cmeq	v1.16b, v2.16b, v3.16b
14:
	mvn	v0.16b, v0.16b
	orn	v0.16b, v0.16b, v1.16b
	umaxv	b0, v0.16b
	fmov	w8, s0
	and	w8, w8, #0x1
	eor	w0, w8, #0x1
	ret
	.section	.text.hex.decode._2c03b3434bbe5675,"ax",@progbits
	.p2align	2
hex.decode._2c03b3434bbe5675:
	stp	x29, x30, [sp, #-64]!
	str	x23, [sp, #16]
	mov	x29, sp
	stp	x22, x21, [sp, #32]
	stp	x20, x19, [sp, #48]
	tbnz	w2, #0, 983f
	cbz	x2, 187f
	lsr	x19, x2, #1
	mov	x20, x1
	mov	x21, x0
	mov	w1, #1
	mov	x22, x2
	mov	x0, x19
	bl	rattle_alloc
	tbz	w0, #0, 32f
	cmp	x22, #2
	b.ne	625f
	mov	x22, xzr
	add	x9, x22, #1
	strb	wzr, [x1, xzr]
	cmp	x19, x9
	b.eq	943f
613:
	mov	x19, xzr
	mov	w20, #2
	b	911f
983:
	mov	w8, #1
	stp	xzr, xzr, [x0, #16]
	stp	x8, x8, [x0]
	ldp	x20, x19, [sp, #48]
	ldr	x23, [sp, #16]
	ldp	x22, x21, [sp, #32]
	ldp	x29, x30, [sp], #64
	ret
187:
	mov	x19, xzr
	add	x1, x29, #31
598:
	stp	xzr, x1, [x0]
	stp	x19, x19, [x0, #16]
	ldp	x20, x19, [sp, #48]
	ldr	x23, [sp, #16]
	ldp	x22, x21, [sp, #32]
	ldp	x29, x30, [sp], #64
	ret
32:
	mov	w8, #1
	mov	w9, #3
	stp	xzr, xzr, [x21, #16]
	stp	x8, x9, [x21]
	ldp	x20, x19, [sp, #48]
	ldr	x23, [sp, #16]
	ldp	x22, x21, [sp, #32]
	ldp	x29, x30, [sp], #64
	ret
625:
	sub	x2, x19, #1
	mov	x0, x1
	mov	x23, x1
	mov	w1, wzr
	sub	x22, x19, #1
	bl	memset
	mov	x1, x23
	add	x9, x22, #1
	strb	wzr, [x23, x22]
	cmp	x19, x9
	b.ne	613b
943:
	mov	x8, xzr
	mov	x10, xzr
	mov	x0, x21
	b	602f
625:
	sub	w13, w11, #55
62:
	add	w11, w13, w12, lsl #4
	add	x20, x20, #2
	sub	x8, x8, #2
	strb	w11, [x1, x10]
	add	x10, x10, #1
	cmp	x9, x10
	b.eq	598b
602:
	ldrb	w13, [x20]
	subs	w12, w13, #48
	b.lo	992f
	ldrb	w11, [x20, #1]
	cmp	w13, #57
	b.ls	321f
	cmp	w13, #65
	b.lo	992f
	cmp	w13, #70
	b.hi	893f
	sub	w12, w13, #55
	b	321f
893:
	sub	w12, w13, #97
	cmp	w12, #5
	b.hi	992f
	sub	w12, w13, #87
321:
	subs	w13, w11, #48
	b.lo	613f
	cmp	w11, #57
	b.ls	62b
	cmp	w11, #65
	b.lo	613f
	cmp	w11, #70
	b.ls	625b
	sub	w13, w11, #97
	cmp	w13, #5
	b.hi	613f
	sub	w13, w11, #87
	b	62b
992:
	neg	x19, x8
	mov	w11, w13
	b	192f
613:
	mov	w9, #1
	sub	x19, x9, x8
192:
	lsl	x20, x11, #32
911:
	mov	x0, x1
	bl	rattle_dealloc
	mov	w8, #1
	stp	x19, xzr, [x21, #16]
	stp	x8, x20, [x21]
	ldp	x20, x19, [sp, #48]
	ldr	x23, [sp, #16]
	ldp	x22, x21, [sp, #32]
	ldp	x29, x30, [sp], #64
	ret
	.section	.text.tc_text.line.parse_line,"ax",@progbits
	.p2align	2
tc_text.line.parse_line:
	sub	sp, sp, #272
	movi	v0.2d, #0000000000000000
	stp	x24, x23, [sp, #224]
	mov	x23, xzr
	stp	x29, x30, [sp, #176]
	add	x29, sp, #176
	stp	x28, x27, [sp, #192]
	stp	x26, x25, [sp, #208]
	stp	x22, x21, [sp, #240]
	stp	x20, x19, [sp, #256]
	str	xzr, [sp, #80]
	stp	q0, q0, [sp, #48]
	cbz	x2, 321f
602:
	ldrb	w8, [x1, x23]
	mov	w9, #1
	mov	x10, #8704
	movk	x10, #1, lsl #32
	lsl	x9, x9, x8
	cmp	w8, #32
	and	x8, x9, x10
	ccmp	x8, #0, #4, ls
	b.eq	321f
	add	x23, x23, #1
	cmp	x2, x23
	b.ne	602b
	mov	x23, x2
321:
	subs	x19, x2, x23
	b.eq	738f
	cmp	x19, #63
	add	x20, x1, x23
	b.hi	613f
	mov	x9, xzr
602:
	ldrb	w8, [x20, x9]
	mov	w10, #1
	mov	x11, #8704
	movk	x11, #1, lsl #32
	lsl	x10, x10, x8
	cmp	w8, #32
	and	x8, x10, x11
	ccmp	x8, #0, #4, ls
	b.ne	983f
	add	x9, x9, #1
	cmp	x19, x9
	b.ne	602b
	mov	x26, x1
	mov	x9, x19
	ldrb	w10, [x20]
	cmp	w10, #35
	b.eq	738f
	b	118f
613:
	mov	x21, x0
	mov	x26, x1
	add	x0, x1, x23
	mov	x1, x19
	mov	x22, x2
	bl	tc_lines.word.long_word_length
	mov	x2, x22
	mov	x9, x0
	mov	x0, x21
	ldrb	w10, [x20]
	cmp	w10, #35
	b.ne	118f
738:
	strh	wzr, [x0]
	str	wzr, [x0, #8]
	b	738f
983:
	mov	x26, x1
	ldrb	w10, [x20]
	cmp	w10, #35
	b.eq	738b
118:
	cmp	x9, #4
	add	x1, x20, x9
	sub	x8, x19, x9
	b.gt	118f
	cmp	x9, #3
	b.eq	280f
	cmp	x9, #4
	b.ne	983f
	cmp	w10, #99
	b.eq	87f
	cmp	w10, #117
	b.eq	401f
	cmp	w10, #116
	b.ne	983f
	ldrb	w9, [x20, #1]
	cmp	w9, #97
	b.ne	983f
	ldrb	w9, [x20, #2]
	cmp	w9, #107
	b.ne	983f
	ldrb	w9, [x20, #3]
	cmp	w9, #101
	b.ne	983f
	mov	x19, x0
	add	x0, sp, #48
	mov	x2, x8
	bl	tc_text.line.take
	b	335f
118:
	cmp	x9, #5
	b.eq	118f
	cmp	x9, #7
	b.ne	983f
	cmp	w10, #114
	b.eq	556f
	cmp	w10, #99
	b.ne	983f
	ldrb	w10, [x20, #1]
	cmp	w10, #104
	b.ne	983f
	ldrb	w10, [x20, #2]
	cmp	w10, #97
	b.ne	983f
	ldrb	w10, [x20, #3]
	cmp	w10, #110
	b.ne	983f
	ldrb	w10, [x20, #4]
	cmp	w10, #110
	b.ne	983f
	ldrb	w10, [x20, #5]
	cmp	w10, #101
	b.ne	983f
	ldrb	w10, [x20, #6]
	cmp	w10, #108
	b.ne	983f
	movi	v0.2d, #0000000000000000
	mov	x27, xzr
	stp	q0, q0, [x29, #-64]
	cbz	x8, 321f
	sub	x10, x2, x9
	sub	x10, x10, x23
602:
	ldrb	w11, [x1, x27]
	mov	w12, #1
	mov	x13, #8704
	movk	x13, #1, lsl #32
	lsl	x12, x12, x11
	cmp	w11, #32
	and	x11, x12, x13
	ccmp	x11, #0, #4, ls
	b.eq	321f
	add	x27, x27, #1
	cmp	x10, x27
	b.ne	602b
	mov	x27, x8
321:
	subs	x21, x8, x27
	b.eq	911f
	cmp	x21, #63
	add	x19, x1, x27
	str	x0, [sp, #40]
	b.hi	239f
	sub	x8, x2, x9
	mov	x20, xzr
	sub	x8, x8, x27
	sub	x8, x8, x23
602:
	ldrb	w10, [x19, x20]
	mov	w11, #1
	mov	x12, #8704
	movk	x12, #1, lsl #32
	lsl	x11, x11, x10
	cmp	w10, #32
	and	x10, x11, x12
	ccmp	x10, #0, #4, ls
	b.ne	321f
	add	x20, x20, #1
	cmp	x8, x20
	b.ne	602b
	mov	x20, x21
	b	321f
280:
	cmp	w10, #109
	b.ne	983f
	ldrb	w9, [x20, #1]
	cmp	w9, #97
	b.ne	983f
	ldrb	w9, [x20, #2]
	cmp	w9, #112
	b.ne	983f
	movi	v0.2d, #0000000000000000
	mov	x19, x0
	sub	x0, x29, #64
	mov	x2, x8
	stur	xzr, [x29, #-16]
	stp	q0, q0, [x29, #-48]
	stur	q0, [x29, #-64]
	bl	tc_text.word.three_arguments
	ldurb	w8, [x29, #-64]
	cbz	w8, 232f
	ldurb	w14, [x29, #-63]
	mov	w13, wzr
	mov	w12, wzr
	mov	w9, wzr
	mov	w10, wzr
	stp	xzr, xzr, [sp, #72]
	str	xzr, [sp, #64]
	mov	w11, #1
	mov	x8, x19
	b	560f
118:
	cmp	w10, #102
	b.eq	602f
	cmp	w10, #113
	b.ne	983f
	ldrb	w9, [x20, #1]
	cmp	w9, #117
	b.ne	983f
	ldrb	w9, [x20, #2]
	cmp	w9, #101
	b.ne	983f
	ldrb	w9, [x20, #3]
	cmp	w9, #117
	b.ne	983f
	ldrb	w9, [x20, #4]
	cmp	w9, #101
	b.ne	983f
	movi	v0.2d, #0000000000000000
	mov	x19, x0
	sub	x0, x29, #64
	mov	x2, x8
	stur	xzr, [x29, #-16]
	stp	q0, q0, [x29, #-48]
	stur	q0, [x29, #-64]
	bl	tc_text.word.three_arguments
	ldurb	w8, [x29, #-64]
	cbz	w8, 236f
	ldurb	w14, [x29, #-63]
	mov	w13, wzr
	mov	w11, wzr
	mov	w8, wzr
	mov	w9, wzr
	stp	xzr, xzr, [sp, #72]
	str	xzr, [sp, #64]
	mov	w10, #1
613:
	mov	x12, x19
	b	531f
556:
	ldrb	w9, [x20, #1]
	cmp	w9, #101
	b.ne	983f
	ldrb	w9, [x20, #2]
	cmp	w9, #108
	b.ne	983f
	ldrb	w9, [x20, #3]
	cmp	w9, #101
	b.ne	983f
	ldrb	w9, [x20, #4]
	cmp	w9, #97
	b.ne	983f
	ldrb	w9, [x20, #5]
	cmp	w9, #115
	b.ne	983f
	ldrb	w9, [x20, #6]
	cmp	w9, #101
	b.ne	983f
	mov	x19, x0
	add	x0, sp, #48
	mov	x2, x8
	bl	tc_text.line.release
	b	335f
602:
	ldrb	w9, [x20, #1]
	cmp	w9, #114
	b.ne	983f
	ldrb	w9, [x20, #2]
	cmp	w9, #97
	b.ne	983f
	ldrb	w9, [x20, #3]
	cmp	w9, #109
	b.ne	983f
	ldrb	w9, [x20, #4]
	cmp	w9, #101
	b.ne	983f
	mov	x19, x0
	add	x0, sp, #48
	mov	x2, x8
	bl	tc_text.line.frame
	b	335f
401:
	ldrb	w9, [x20, #1]
	cmp	w9, #110
	b.ne	983f
	ldrb	w9, [x20, #2]
	cmp	w9, #105
	b.ne	983f
	ldrb	w9, [x20, #3]
	cmp	w9, #116
	b.ne	983f
	mov	x19, x0
	add	x0, sp, #48
	mov	x2, x8
	bl	tc_text.line.unit
	b	335f
87:
	ldrb	w9, [x20, #1]
	cmp	w9, #108
	b.ne	983f
	ldrb	w9, [x20, #2]
	cmp	w9, #99
	b.ne	983f
	ldrb	w9, [x20, #3]
	cmp	w9, #119
	b.ne	983f
	mov	x19, x0
	add	x0, sp, #48
	mov	x2, x8
	bl	tc_text.line.clcw
335:
	ldrh	w9, [sp, #56]
	ldur	w10, [sp, #58]
	ldrh	w8, [sp, #48]
	ldr	q0, [sp, #64]
	strh	w9, [x19, #8]
	stur	w10, [x19, #10]
	strh	w8, [x19]
	ldr	x8, [sp, #80]
	str	q0, [x19, #16]
	str	x8, [x19, #32]
	b	976f
983:
	mov	w8, #1
	str	wzr, [x0, #8]
	strh	w8, [x0]
738:
	strh	wzr, [x0, #12]
	stp	xzr, xzr, [x0, #24]
	str	xzr, [x0, #16]
976:
	ldp	x20, x19, [sp, #256]
	ldp	x22, x21, [sp, #240]
	ldp	x24, x23, [sp, #224]
	ldp	x26, x25, [sp, #208]
	ldp	x28, x27, [sp, #192]
	ldp	x29, x30, [sp, #176]
	add	sp, sp, #272
	ret
232:
	ldur	x12, [x29, #-48]
	sub	x8, x12, #6
	cmn	x8, #5
	mov	x8, x19
	b.lo	868f
	ldp	x13, x14, [x29, #-40]
	ldp	x10, x11, [x29, #-24]
	cbz	x12, 32f
	ldur	x15, [x29, #-56]
	ldrb	w9, [x15]
	sub	w9, w9, #48
	cmp	w9, #9
	b.hi	868f
	cmp	x12, #1
	b.ne	602f
983:
	mov	w9, wzr
187:
	mov	w16, #10
	subs	x12, x12, #1
	mul	w9, w9, w16
	ldrb	w16, [x15], #1
	sub	w16, w16, #48
	add	w9, w9, w16, uxtb
	b.ne	187b
	cmp	w9, #256
	b.lo	625f
	b	868f
32:
	mov	w9, wzr
625:
	sub	x12, x14, #6
	cmn	x12, #5
	b.lo	868f
	cbz	x14, 983f
	ldrb	w12, [x13]
	sub	w12, w12, #48
	cmp	w12, #9
	b.hi	868f
	cmp	x14, #1
	b.ne	556f
187:
	mov	w12, wzr
32:
	mov	w15, #10
	subs	x14, x14, #1
	mul	w12, w12, w15
	ldrb	w15, [x13], #1
	sub	w15, w15, #48
	add	w12, w12, w15, uxtb
	b.ne	32b
	cmp	w12, #256
	b.lo	625f
	b	868f
236:
	ldur	x11, [x29, #-48]
	mov	x12, x19
	sub	x8, x11, #6
	cmn	x8, #5
	b.lo	462f
	ldp	x13, x14, [x29, #-40]
	ldp	x9, x10, [x29, #-24]
	cbz	x11, 599f
	ldur	x15, [x29, #-56]
	ldrb	w8, [x15]
	sub	w8, w8, #48
	cmp	w8, #9
	b.hi	462f
	cmp	x11, #1
	b.ne	401f
32:
	mov	w8, wzr
943:
	mov	w12, #10
	subs	x11, x11, #1
	mul	w8, w8, w12
	ldrb	w12, [x15], #1
	sub	w12, w12, #48
	add	w8, w8, w12, uxtb
	b.ne	943b
	cmp	w8, #256
	mov	x12, x19
	b.lo	893f
	b	462f
602:
	ldrb	w9, [x15, #1]
	sub	w9, w9, #48
	cmp	w9, #9
	b.hi	868f
	cmp	x12, #2
	b.eq	983b
	ldrb	w9, [x15, #2]
	sub	w9, w9, #48
	cmp	w9, #9
	b.hi	868f
	cmp	x12, #3
	b.eq	983b
	ldrb	w9, [x15, #3]
	sub	w9, w9, #48
	cmp	w9, #9
	b.hi	868f
	cmp	x12, #4
	b.eq	983b
	ldrb	w9, [x15, #4]
	sub	w9, w9, #48
	cmp	w9, #9
	b.hi	868f
	cmp	x12, #5
	b.eq	983b
	b	868f
983:
	mov	w12, wzr
625:
	sub	x13, x11, #6
	cmn	x13, #5
	b.lo	868f
	cbz	x11, 32f
	ldrb	w13, [x10]
	sub	w13, w13, #48
	cmp	w13, #9
	b.hi	868f
	cmp	x11, #1
	b.ne	87f
983:
	mov	w13, wzr
943:
	mov	w8, #10
	subs	x11, x11, #1
	mul	w8, w13, w8
	ldrb	w13, [x10], #1
	sub	w13, w13, #48
	add	w13, w8, w13, uxtb
	b.ne	943b
	cmp	w13, #16, lsl #12
	mov	x8, x19
	b.lo	307f
	b	868f
911:
	mov	w8, wzr
	mov	w20, wzr
	mov	w19, wzr
	mov	w9, wzr
	stp	xzr, xzr, [sp, #64]
	mov	w1, #1
	str	xzr, [sp, #80]
	mov	w10, #1
	b	659f
239:
	mov	x0, x19
	mov	x1, x21
	mov	x22, x9
	mov	x20, x2
	bl	tc_lines.word.long_word_length
	mov	x2, x20
	mov	x20, x0
	mov	x9, x22
321:
	subs	x10, x21, x20
	add	x8, x19, x20
	mov	x28, xzr
	b.eq	321f
	sub	x11, x2, x20
	sub	x11, x11, x9
	sub	x11, x11, x27
	sub	x11, x11, x23
602:
	ldrb	w12, [x8, x28]
	mov	w13, #1
	mov	x14, #8704
	movk	x14, #1, lsl #32
	lsl	x13, x13, x12
	cmp	w12, #32
	and	x12, x13, x14
	ccmp	x12, #0, #4, ls
	b.eq	321f
	add	x28, x28, #1
	cmp	x11, x28
	b.ne	602b
	mov	x28, x10
321:
	subs	x22, x10, x28
	b.eq	239f
	cmp	x22, #63
	add	x8, x8, x28
	stp	x8, x9, [sp, #24]
	b.hi	93f
	sub	x10, x2, x20
	mov	x21, xzr
	mov	x24, x2
	sub	x9, x10, x9
	sub	x9, x9, x27
	sub	x9, x9, x28
	sub	x9, x9, x23
602:
	ldrb	w10, [x8, x21]
	mov	w11, #1
	mov	x12, #8704
	movk	x12, #1, lsl #32
	lsl	x11, x11, x10
	cmp	w10, #32
	and	x10, x11, x12
	ccmp	x10, #0, #4, ls
	b.ne	321f
	add	x21, x21, #1
	cmp	x9, x21
	b.ne	602b
	mov	x21, x22
	b	321f
599:
	mov	w8, wzr
893:
	sub	x11, x14, #6
	cmn	x11, #5
	b.lo	462f
	cbz	x14, 599f
	ldrb	w11, [x13]
	mov	x12, x19
	sub	w11, w11, #48
	cmp	w11, #9
	b.hi	462f
	cmp	x14, #1
	b.ne	938f
943:
	mov	w11, wzr
911:
	mov	w12, #10
	subs	x14, x14, #1
	mul	w11, w11, w12
	ldrb	w12, [x13], #1
	sub	w12, w12, #48
	add	w11, w11, w12, uxtb
	b.ne	911b
	cmp	w11, #16, lsl #12
	mov	x12, x19
	b.lo	625f
	b	462f
93:
	ldr	x0, [sp, #24]
	mov	x1, x22
	mov	x24, x2
	bl	tc_lines.word.long_word_length
	ldr	x8, [sp, #24]
	mov	x21, x0
321:
	subs	x9, x22, x21
	add	x8, x8, x21
	mov	x25, xzr
	b.eq	321f
	ldr	x10, [sp, #32]
	sub	x11, x24, x21
	sub	x10, x11, x10
	sub	x10, x10, x20
	sub	x10, x10, x23
	sub	x10, x10, x27
	sub	x10, x10, x28
602:
	ldrb	w11, [x8, x25]
	mov	w12, #1
	mov	x13, #8704
	movk	x13, #1, lsl #32
	lsl	x12, x12, x11
	cmp	w11, #32
	and	x11, x12, x13
	ccmp	x11, #0, #4, ls
	b.eq	321f
	add	x25, x25, #1
	cmp	x10, x25
	b.ne	602b
	mov	x25, x9
321:
	subs	x22, x9, x25
	b.eq	239f
	cmp	x22, #63
	add	x8, x8, x25
	str	x8, [sp, #16]
	b.hi	187f
	ldr	x9, [sp, #32]
	sub	x10, x24, x21
	mov	x0, xzr
	sub	x9, x10, x9
	sub	x9, x9, x20
	sub	x9, x9, x23
	sub	x9, x9, x27
	sub	x9, x9, x28
	sub	x9, x9, x25
602:
	ldrb	w10, [x8, x0]
	mov	w11, #1
	mov	x12, #8704
	movk	x12, #1, lsl #32
	lsl	x11, x11, x10
	cmp	w10, #32
	and	x10, x11, x12
	ccmp	x10, #0, #4, ls
	b.ne	93f
	add	x0, x0, #1
	cmp	x9, x0
	b.ne	602b
	mov	x0, x22
	b	93f
556:
	ldrb	w12, [x13, #1]
	sub	w12, w12, #48
	cmp	w12, #9
	b.hi	868f
	cmp	x14, #2
	b.eq	187b
	ldrb	w12, [x13, #2]
	sub	w12, w12, #48
	cmp	w12, #9
	b.hi	868f
	cmp	x14, #3
	b.eq	187b
	ldrb	w12, [x13, #3]
	sub	w12, w12, #48
	cmp	w12, #9
	b.hi	868f
	cmp	x14, #4
	b.eq	187b
	ldrb	w12, [x13, #4]
	sub	w12, w12, #48
	cmp	w12, #9
	b.hi	868f
	cmp	x14, #5
	b.eq	187b
	b	868f
187:
	mov	x0, x8
	mov	x1, x22
	bl	tc_lines.word.long_word_length
93:
	ldr	x8, [sp, #16]
	subs	x10, x22, x0
	str	x0, [sp]
	add	x9, x8, x0
	mov	x8, xzr
	b.eq	321f
	sub	x11, x24, x21
	sub	x12, x11, x0
	ldr	x11, [sp, #32]
	sub	x11, x12, x11
	sub	x11, x11, x20
	sub	x11, x11, x23
	sub	x11, x11, x27
	sub	x11, x11, x28
	sub	x11, x11, x25
602:
	ldrb	w12, [x9, x8]
	mov	w13, #1
	mov	x14, #8704
	movk	x14, #1, lsl #32
	lsl	x13, x13, x12
	cmp	w12, #32
	and	x12, x13, x14
	ccmp	x12, #0, #4, ls
	b.eq	321f
	add	x8, x8, #1
	cmp	x11, x8
	b.ne	602b
	mov	x8, x10
321:
	subs	x10, x10, x8
	b.eq	239f
	mov	x22, x10
	cmp	x10, #63
	add	x9, x9, x8
	str	x9, [sp, #8]
	b.hi	885f
	ldr	x11, [sp]
	sub	x10, x24, x21
	ldr	x12, [sp, #32]
	add	x13, x27, x23
	mov	x9, xzr
	sub	x10, x10, x11
	add	x11, x11, x21
	sub	x10, x10, x12
	add	x12, x20, x12
	sub	x10, x10, x20
	add	x11, x11, x12
	add	x12, x8, x25
	sub	x10, x10, x23
	add	x12, x12, x28
	sub	x10, x10, x27
	add	x11, x11, x12
	add	x12, x26, x13
	sub	x10, x10, x28
	sub	x10, x10, x25
	sub	x8, x10, x8
	add	x10, x12, x11
602:
	ldrb	w11, [x10, x9]
	mov	w12, #1
	mov	x13, #8704
	movk	x13, #1, lsl #32
	lsl	x12, x12, x11
	cmp	w11, #32
	and	x11, x12, x13
	ccmp	x11, #0, #4, ls
	b.ne	349f
	add	x9, x9, #1
	cmp	x8, x9
	b.ne	602b
	mov	x23, x22
	b	263f
239:
	mov	w8, wzr
	mov	w20, wzr
	mov	w19, wzr
	mov	w9, wzr
	stp	xzr, xzr, [sp, #64]
	mov	w1, #1
	str	xzr, [sp, #80]
187:
	mov	w10, #1
93:
	ldr	x0, [sp, #40]
659:
	ldr	q0, [sp, #64]
	strh	w8, [x0, #12]
	ldr	x8, [sp, #80]
	strb	w10, [x0]
	strb	w1, [x0, #1]
	strb	w9, [x0, #8]
	strb	w19, [x0, #9]
	strh	w20, [x0, #10]
	str	q0, [x0, #16]
	str	x8, [x0, #32]
	b	976b
401:
	ldrb	w8, [x15, #1]
	sub	w8, w8, #48
	cmp	w8, #9
	b.hi	462f
	cmp	x11, #2
	b.eq	32b
	ldrb	w8, [x15, #2]
	sub	w8, w8, #48
	cmp	w8, #9
	b.hi	462f
	cmp	x11, #3
	b.eq	32b
	ldrb	w8, [x15, #3]
	sub	w8, w8, #48
	cmp	w8, #9
	b.hi	462f
	cmp	x11, #4
	b.eq	32b
	ldrb	w8, [x15, #4]
	sub	w8, w8, #48
	cmp	w8, #9
	b.hi	462f
	cmp	x11, #5
	b.eq	32b
	b	462f
32:
	mov	w13, wzr
307:
	mov	w14, wzr
	mov	w11, wzr
	stp	xzr, xzr, [sp, #64]
	mov	w10, #3
	b	893f
885:
	ldr	x0, [sp, #8]
	mov	x1, x22
	bl	tc_lines.word.long_word_length
	mov	x23, x0
	b	263f
599:
	mov	w11, wzr
625:
	sub	x12, x10, #6
	cmn	x12, #5
	b.lo	911f
	cbz	x10, 983f
	ldrb	w12, [x9]
	sub	w12, w12, #48
	cmp	w12, #9
	b.hi	911f
	cmp	x10, #1
	b.eq	32f
	ldrb	w12, [x9, #1]
	sub	w12, w12, #48
	cmp	w12, #9
	b.hi	911f
	cmp	x10, #2
	b.eq	32f
	ldrb	w12, [x9, #2]
	sub	w12, w12, #48
	cmp	w12, #9
	b.hi	911f
	cmp	x10, #3
	b.eq	32f
	ldrb	w12, [x9, #3]
	sub	w12, w12, #48
	cmp	w12, #9
	b.hi	911f
	cmp	x10, #4
	b.eq	32f
	ldrb	w12, [x9, #4]
	sub	w12, w12, #48
	cmp	w12, #9
	b.hi	911f
	cmp	x10, #5
	b.ne	911f
32:
	mov	w13, wzr
32:
	mov	w12, #10
	subs	x10, x10, #1
	mul	w12, w13, w12
	ldrb	w13, [x9], #1
	sub	w13, w13, #48
	add	w13, w12, w13, uxtb
	b.ne	32b
	cmp	w13, #16, lsl #12
	b.lo	32f
911:
	mov	w13, wzr
	mov	w11, wzr
	mov	w8, wzr
	mov	w9, wzr
	mov	w10, #1
	mov	w14, #2
	stp	xzr, xzr, [sp, #64]
	str	xzr, [sp, #80]
	b	613b
349:
	mov	x23, x9
263:
	ldr	x9, [sp, #8]
	sub	x2, x22, x23
	sub	x0, x29, #64
	sub	x24, x29, #64
	add	x1, x9, x23
	bl	tc_text.word.last_argument
	ldurb	w8, [x29, #-64]
	cbz	w8, 257f
	ldurb	w1, [x29, #-63]
	mov	w8, wzr
	mov	w20, wzr
	mov	w19, wzr
	mov	w9, wzr
	stp	xzr, xzr, [sp, #72]
	str	xzr, [sp, #64]
	b	187b
257:
	ldurb	w25, [x29, #-56]
	mov	x0, x19
	mov	x1, x20
	bl	tc_lines.number.small_number
	tst	w0, #0xff
	b.ne	187f
	ldr	x0, [sp, #24]
	mov	w19, w1
	mov	x1, x21
	bl	tc_lines.number.small_number
	tst	w0, #0xff
	b.ne	187f
	mov	w20, w1
	ldr	x0, [sp, #16]
	ldr	x1, [sp]
	bl	tc_lines.number.small_number
	tst	w0, #0xff
	b.ne	187f
	ldr	x0, [sp, #8]
	mov	w21, w1
	mov	x1, x23
	bl	tc_lines.number.small_number
	tst	w0, #0xff
	b.eq	232f
187:
	mov	w8, wzr
	mov	w20, wzr
	mov	w19, wzr
	mov	w9, wzr
	stp	xzr, xzr, [sp, #64]
	mov	w10, #1
	str	xzr, [sp, #80]
	mov	w1, #2
	b	93b
87:
	ldrb	w13, [x10, #1]
	sub	w13, w13, #48
	cmp	w13, #9
	b.hi	868f
	cmp	x11, #2
	b.eq	983b
	ldrb	w13, [x10, #2]
	sub	w13, w13, #48
	cmp	w13, #9
	b.hi	868f
	cmp	x11, #3
	b.eq	983b
	ldrb	w13, [x10, #3]
	sub	w13, w13, #48
	cmp	w13, #9
	b.hi	868f
	cmp	x11, #4
	b.eq	983b
	ldrb	w13, [x10, #4]
	sub	w13, w13, #48
	cmp	w13, #9
	b.hi	868f
	cmp	x11, #5
	b.eq	983b
868:
	mov	w13, wzr
	mov	w12, wzr
	mov	w9, wzr
	mov	w10, wzr
	mov	w11, #1
	mov	w14, #2
	stp	xzr, xzr, [sp, #64]
893:
	str	xzr, [sp, #80]
560:
	strb	w9, [x8, #9]
	ldr	q0, [sp, #64]
	ldr	x9, [sp, #80]
	strb	w11, [x8]
	strb	w14, [x8, #1]
	strb	w10, [x8, #8]
	strh	w12, [x8, #10]
	strh	w13, [x8, #12]
	str	q0, [x8, #16]
	str	x9, [x8, #32]
	b	976b
938:
	ldrb	w11, [x13, #1]
	sub	w11, w11, #48
	cmp	w11, #9
	b.hi	462f
	cmp	x14, #2
	b.eq	943b
	ldrb	w11, [x13, #2]
	sub	w11, w11, #48
	cmp	w11, #9
	b.hi	462f
	cmp	x14, #3
	b.eq	943b
	ldrb	w11, [x13, #3]
	sub	w11, w11, #48
	cmp	w11, #9
	b.hi	462f
	cmp	x14, #4
	b.eq	943b
	ldrb	w11, [x13, #4]
	sub	w11, w11, #48
	cmp	w11, #9
	b.hi	462f
	cmp	x14, #5
	b.eq	943b
462:
	mov	w13, wzr
	mov	w11, wzr
	mov	w8, wzr
	mov	w9, wzr
	stp	xzr, xzr, [sp, #64]
	mov	w10, #1
	str	xzr, [sp, #80]
	mov	w14, #2
531:
	strb	w8, [x12, #9]
	ldr	q0, [sp, #64]
	ldr	x8, [sp, #80]
	strb	w10, [x12]
	strb	w14, [x12, #1]
	strb	w9, [x12, #8]
	strh	w11, [x12, #10]
	strh	w13, [x12, #12]
	str	q0, [x12, #16]
	str	x8, [x12, #32]
	b	976b
983:
	mov	w13, wzr
32:
	mov	w14, wzr
	mov	w10, wzr
	stp	xzr, xzr, [sp, #64]
	mov	w9, #2
	str	xzr, [sp, #80]
	b	613b
232:
	ldur	q0, [x24, #16]
	add	x0, sp, #88
	mov	w22, w1
	str	x25, [sp, #88]
	stur	q0, [sp, #96]
	bl	tc_text.line.is_segmented
	tst	w0, #0xff
	b.eq	447f
	mov	w8, wzr
	mov	w20, wzr
	mov	w19, wzr
	mov	w9, wzr
	mov	w10, #1
	stp	xzr, xzr, [sp, #64]
	str	xzr, [sp, #80]
	b	93b
447:
	and	w8, w22, #0xff
	mov	w10, wzr
	stp	xzr, xzr, [sp, #64]
	bfi	w20, w21, #8, #24
	bfi	w8, w1, #8, #1
	mov	w9, #1
	str	xzr, [sp, #80]
	mov	w1, wzr
	b	93b
	.section	.text.tc_text.word.last_argument,"ax",@progbits
	.p2align	2
tc_text.word.last_argument:
	stp	x29, x30, [sp, #-64]!
	stp	x22, x21, [sp, #32]
	mov	x21, xzr
	mov	x29, sp
	str	x23, [sp, #16]
	stp	x20, x19, [sp, #48]
	cbz	x2, 321f
602:
	ldrb	w8, [x1, x21]
	mov	w9, #1
	mov	x10, #8704
	movk	x10, #1, lsl #32
	lsl	x9, x9, x8
	cmp	w8, #32
	and	x8, x9, x10
	ccmp	x8, #0, #4, ls
	b.eq	321f
	add	x21, x21, #1
	cmp	x2, x21
	b.ne	602b
	mov	x21, x2
321:
	subs	x20, x2, x21
	b.eq	613f
	cmp	x20, #63
	add	x19, x1, x21
	b.hi	983f
	mov	x8, xzr
602:
	ldrb	w9, [x19, x8]
	mov	w10, #1
	mov	x11, #8704
	movk	x11, #1, lsl #32
	lsl	x10, x10, x9
	cmp	w9, #32
	and	x9, x10, x11
	ccmp	x9, #0, #4, ls
	b.ne	118f
	add	x8, x8, #1
	cmp	x20, x8
	b.ne	602b
	mov	x8, x20
	b	118f
613:
	mov	x9, xzr
	mov	x19, xzr
	mov	x8, xzr
	b	738f
983:
	mov	x22, x0
	mov	x0, x19
	mov	x1, x20
	mov	x23, x2
	bl	tc_lines.word.long_word_length
	mov	x2, x23
	mov	x8, x0
	mov	x0, x22
118:
	cmp	x20, x8
	b.eq	613f
	sub	x10, x21, x2
	mov	x9, x19
602:
	ldrb	w11, [x9, x8]
	mov	w12, #1
	mov	x13, #8704
	movk	x13, #1, lsl #32
	lsl	x12, x12, x11
	cmp	w11, #32
	and	x11, x12, x13
	ccmp	x11, #0, #4, ls
	b.eq	62f
	add	x10, x10, #1
	add	x9, x9, #1
	cmn	x8, x10
	b.ne	602b
613:
	mov	w9, #1
738:
	strh	wzr, [x0]
	stp	x9, x19, [x0, #8]
	str	x8, [x0, #24]
	ldp	x20, x19, [sp, #48]
	ldr	x23, [sp, #16]
	ldp	x22, x21, [sp, #32]
	ldp	x29, x30, [sp], #64
	ret
62:
	add	x10, x8, x10
	cbz	x10, 613b
	neg	x1, x10
	cmp	x1, #64
	b.lo	613f
	mov	x19, x0
	add	x0, x9, x8
	bl	tc_lines.word.long_word_length
	mov	x0, x19
613:
	mov	w8, #257
	stp	xzr, xzr, [x0, #16]
	strh	w8, [x0]
	str	xzr, [x0, #8]
	ldp	x20, x19, [sp, #48]
	ldr	x23, [sp, #16]
	ldp	x22, x21, [sp, #32]
	ldp	x29, x30, [sp], #64
	ret
	.section	.text.tc_text.line.is_segmented,"ax",@progbits
	.p2align	2
tc_text.line.is_segmented:
	ldrb	w8, [x0]
	cbz	w8, 983f
	ldr	x8, [x0, #16]
	cmp	x8, #5
	b.ne	613f
	ldr	x0, [x0, #8]
	mov	w9, #27760
	movk	w9, #26977, lsl #16
	ldr	w8, [x0]
	cmp	w8, w9
	b.ne	613f
	stp	x29, x30, [sp, #-16]!
	adrp	x2, .LTb1732992
	add	x2, x2, :lo12:.LTb1732992
	mov	w1, #5
	mov	x29, sp
	bl	core.cmp.slices.groups_equal._i8_31_core.cmp.numbers.U8PartialEq
	ldp	x29, x30, [sp], #16
	tbz	w0, #0, 613f
	mov	w0, wzr
	mov	w1, wzr
	ret
613:
	mov	w1, #15
	mov	w0, #1
	ret
983:
	mov	w0, wzr
	mov	w1, #1
	ret
	.section	.text.tc_text.line.frame,"ax",@progbits
	.p2align	2
tc_text.line.frame:
	sub	sp, sp, #128
	movi	v0.2d, #0000000000000000
	stp	x22, x21, [sp, #96]
	mov	x22, xzr
	stp	x20, x19, [sp, #112]
	mov	x19, x0
	stp	x29, x30, [sp, #64]
	add	x29, sp, #64
	str	x23, [sp, #80]
	stp	xzr, xzr, [sp, #8]
	str	xzr, [sp]
	stp	q0, q0, [sp, #32]
	strh	wzr, [sp, #24]
	cbz	x2, 321f
602:
	ldrb	w8, [x1, x22]
	mov	w9, #1
	mov	x10, #8704
	movk	x10, #1, lsl #32
	lsl	x9, x9, x8
	cmp	w8, #32
	and	x8, x9, x10
	ccmp	x8, #0, #4, ls
	b.eq	321f
	add	x22, x22, #1
	cmp	x2, x22
	b.ne	602b
	mov	x22, x2
321:
	subs	x21, x2, x22
	b.eq	983f
	cmp	x21, #63
	add	x20, x1, x22
	b.hi	613f
	mov	x8, xzr
602:
	ldrb	w9, [x20, x8]
	mov	w10, #1
	mov	x11, #8704
	movk	x11, #1, lsl #32
	lsl	x10, x10, x9
	cmp	w9, #32
	and	x9, x10, x11
	ccmp	x9, #0, #4, ls
	b.ne	118f
	add	x8, x8, #1
	cmp	x21, x8
	b.ne	602b
	mov	x8, x21
	b	118f
613:
	mov	x0, x20
	mov	x1, x21
	mov	x23, x2
	bl	tc_lines.word.long_word_length
	mov	x2, x23
	mov	x8, x0
118:
	cmp	x21, x8
	b.eq	62f
	sub	x11, x2, x8
	mov	x9, xzr
	add	x10, x20, x8
	sub	x11, x11, x22
602:
	ldrb	w12, [x10, x9]
	mov	w13, #1
	mov	x14, #8704
	movk	x14, #1, lsl #32
	lsl	x13, x13, x12
	cmp	w12, #32
	and	x12, x13, x14
	ccmp	x12, #0, #4, ls
	b.eq	321f
	add	x9, x9, #1
	cmp	x11, x9
	b.ne	602b
62:
	add	x0, sp, #32
	mov	x1, x20
	mov	x2, x8
	add	x20, sp, #32
	bl	hex.decode._2c03b3434bbe5675
	ldrb	w8, [sp, #32]
	cbz	w8, 690f
	ldrb	w9, [sp, #40]
	mov	w11, #14
	mov	w10, wzr
	cmp	w9, #3
	mov	w9, #3
	csel	w9, w11, w9, eq
	b	560f
690:
	orr	x10, x20, #0x8
	mov	w9, wzr
	ldr	q0, [x10]
	ldr	x10, [x10, #16]
	stur	q0, [sp, #2]
	stur	x10, [sp, #18]
	mov	w10, #4
560:
	strb	w8, [x19]
	ldur	q0, [sp, #2]
	ldur	x8, [sp, #18]
	strb	w9, [x19, #1]
	strb	w10, [x19, #8]
	strb	wzr, [x19, #9]
	stur	wzr, [x19, #10]
	str	q0, [x19, #16]
	str	x8, [x19, #32]
	ldp	x20, x19, [sp, #112]
	ldr	x23, [sp, #80]
	ldp	x22, x21, [sp, #96]
	ldp	x29, x30, [sp, #64]
	add	sp, sp, #128
	ret
321:
	subs	x1, x11, x9
	b.eq	62b
	cmp	x1, #64
	b.lo	983f
	add	x0, x10, x9
	bl	tc_lines.word.long_word_length
983:
	mov	w8, #257
	str	wzr, [x19, #8]
	strh	w8, [x19]
	strh	wzr, [x19, #12]
	stp	xzr, xzr, [x19, #24]
	str	xzr, [x19, #16]
	ldp	x20, x19, [sp, #112]
	ldr	x23, [sp, #80]
	ldp	x22, x21, [sp, #96]
	ldp	x29, x30, [sp, #64]
	add	sp, sp, #128
	ret
	.section	.text.tc_text.line.release,"ax",@progbits
	.p2align	2
tc_text.line.release:
	stp	x29, x30, [sp, #-64]!
	stp	x22, x21, [sp, #32]
	mov	x21, xzr
	mov	x29, sp
	str	x23, [sp, #16]
	stp	x20, x19, [sp, #48]
	cbz	x2, 321f
602:
	ldrb	w8, [x1, x21]
	mov	w9, #1
	mov	x10, #8704
	movk	x10, #1, lsl #32
	lsl	x9, x9, x8
	cmp	w8, #32
	and	x8, x9, x10
	ccmp	x8, #0, #4, ls
	b.eq	321f
	add	x21, x21, #1
	cmp	x2, x21
	b.ne	602b
	mov	x21, x2
321:
	subs	x20, x2, x21
	b.eq	32f
	cmp	x20, #63
	add	x19, x1, x21
	b.hi	613f
	mov	x8, xzr
602:
	ldrb	w9, [x19, x8]
	mov	w10, #1
	mov	x11, #8704
	movk	x11, #1, lsl #32
	lsl	x10, x10, x9
	cmp	w9, #32
	and	x9, x10, x11
	ccmp	x9, #0, #4, ls
	b.ne	118f
	add	x8, x8, #1
	cmp	x20, x8
	b.ne	602b
	mov	x8, x20
	b	118f
613:
	mov	x22, x0
	mov	x0, x19
	mov	x1, x20
	mov	x23, x2
	bl	tc_lines.word.long_word_length
	mov	x2, x23
	mov	x8, x0
	mov	x0, x22
118:
	cmp	x20, x8
	b.eq	625f
	sub	x11, x2, x8
	mov	x9, xzr
	add	x10, x19, x8
	sub	x11, x11, x21
602:
	ldrb	w12, [x10, x9]
	mov	w13, #1
	mov	x14, #8704
	movk	x14, #1, lsl #32
	lsl	x13, x13, x12
	cmp	w12, #32
	and	x12, x13, x14
	ccmp	x12, #0, #4, ls
	b.eq	321f
	add	x9, x9, #1
	cmp	x11, x9
	b.ne	602b
625:
	sub	x9, x8, #6
	cmn	x9, #5
	b.lo	943f
	cbz	x8, 187f
	ldrb	w9, [x19]
	sub	w9, w9, #48
	cmp	w9, #9
	b.hi	943f
	cmp	x8, #1
	b.ne	602f
613:
	mov	w9, wzr
983:
	mov	w10, #10
	subs	x8, x8, #1
	mul	w9, w9, w10
	ldrb	w10, [x19], #1
	sub	w10, w10, #48
	add	w9, w9, w10, uxtb
	b.ne	983b
	cmp	w9, #256
	b.lo	983f
	b	943f
187:
	mov	w9, wzr
983:
	mov	w8, #5
	strh	wzr, [x0]
	strb	w8, [x0, #8]
	strb	w9, [x0, #9]
	stur	wzr, [x0, #10]
	b	976f
321:
	subs	x1, x11, x9
	b.eq	625b
	cmp	x1, #64
	b.lo	32f
	mov	x19, x0
	add	x0, x10, x9
	bl	tc_lines.word.long_word_length
	mov	x0, x19
32:
	mov	w8, #257
	b	893f
602:
	ldrb	w9, [x19, #1]
	sub	w9, w9, #48
	cmp	w9, #9
	b.hi	943f
	cmp	x8, #2
	b.eq	613b
	ldrb	w9, [x19, #2]
	sub	w9, w9, #48
	cmp	w9, #9
	b.hi	943f
	cmp	x8, #3
	b.eq	613b
	ldrb	w9, [x19, #3]
	sub	w9, w9, #48
	cmp	w9, #9
	b.hi	943f
	cmp	x8, #4
	b.eq	613b
	ldrb	w9, [x19, #4]
	sub	w9, w9, #48
	cmp	w9, #9
	b.hi	943f
	cmp	x8, #5
	b.eq	613b
943:
	mov	w8, #513
893:
	str	wzr, [x0, #8]
	strh	w8, [x0]
	strh	wzr, [x0, #12]
976:
	ldp	x20, x19, [sp, #48]
	ldr	x23, [sp, #16]
	ldp	x22, x21, [sp, #32]
	stp	xzr, xzr, [x0, #24]
	str	xzr, [x0, #16]
	ldp	x29, x30, [sp], #64
	ret
	.section	.text.tc_text.line.take,"ax",@progbits
	.p2align	2
tc_text.line.take:
	sub	sp, sp, #80
	movi	v0.2d, #0000000000000000
	str	x19, [sp, #64]
	mov	x19, x0
	mov	x0, sp
	stp	x29, x30, [sp, #48]
	add	x29, sp, #48
	str	xzr, [sp, #32]
	stp	q0, q0, [sp]
	bl	tc_text.word.two_arguments
	ldrb	w8, [sp]
	cbz	w8, 93f
	ldrb	w8, [sp, #1]
	mov	w9, #1
	str	wzr, [x19, #8]
	strb	w9, [x19]
	strb	w8, [x19, #1]
	b	976f
93:
	ldr	x11, [sp, #16]
	sub	x8, x11, #6
	cmn	x8, #5
	b.lo	32f
	ldp	x8, x9, [sp, #24]
	cbz	x11, 187f
	ldr	x12, [sp, #8]
	ldrb	w10, [x12]
	sub	w10, w10, #48
	cmp	w10, #9
	b.hi	32f
	cmp	x11, #1
	b.ne	602f
613:
	mov	w10, wzr
983:
	mov	w13, #10
	subs	x11, x11, #1
	mul	w10, w10, w13
	ldrb	w13, [x12], #1
	sub	w13, w13, #48
	add	w10, w10, w13, uxtb
	b.ne	983b
	cmp	w10, #256
	b.lo	625f
	b	32f
187:
	mov	w10, wzr
625:
	sub	x11, x9, #6
	cmn	x11, #5
	b.lo	32f
	cbz	x9, 613f
	ldrb	w11, [x8]
	sub	w11, w11, #48
	cmp	w11, #9
	b.hi	32f
	cmp	x9, #1
	b.ne	556f
983:
	mov	w11, wzr
187:
	mov	w12, #10
	subs	x9, x9, #1
	mul	w11, w11, w12
	ldrb	w12, [x8], #1
	sub	w12, w12, #48
	add	w11, w11, w12, uxtb
	b.ne	187b
	cmp	w11, #16, lsl #12
	b.lo	187f
	b	32f
602:
	ldrb	w10, [x12, #1]
	sub	w10, w10, #48
	cmp	w10, #9
	b.hi	32f
	cmp	x11, #2
	b.eq	613b
	ldrb	w10, [x12, #2]
	sub	w10, w10, #48
	cmp	w10, #9
	b.hi	32f
	cmp	x11, #3
	b.eq	613b
	ldrb	w10, [x12, #3]
	sub	w10, w10, #48
	cmp	w10, #9
	b.hi	32f
	cmp	x11, #4
	b.eq	613b
	ldrb	w10, [x12, #4]
	sub	w10, w10, #48
	cmp	w10, #9
	b.hi	32f
	cmp	x11, #5
	b.eq	613b
	b	32f
613:
	mov	w11, wzr
187:
	mov	w8, #6
	strh	wzr, [x19]
	strb	w8, [x19, #8]
	strb	w10, [x19, #9]
	strh	w11, [x19, #10]
	b	976f
556:
	ldrb	w11, [x8, #1]
	sub	w11, w11, #48
	cmp	w11, #9
	b.hi	32f
	cmp	x9, #2
	b.eq	983b
	ldrb	w11, [x8, #2]
	sub	w11, w11, #48
	cmp	w11, #9
	b.hi	32f
	cmp	x9, #3
	b.eq	983b
	ldrb	w11, [x8, #3]
	sub	w11, w11, #48
	cmp	w11, #9
	b.hi	32f
	cmp	x9, #4
	b.eq	983b
	ldrb	w11, [x8, #4]
	sub	w11, w11, #48
	cmp	w11, #9
	b.hi	32f
	cmp	x9, #5
	b.eq	983b
32:
	mov	w8, #513
	str	wzr, [x19, #8]
	strh	w8, [x19]
976:
	ldp	x29, x30, [sp, #48]
	strh	wzr, [x19, #12]
	stp	xzr, xzr, [x19, #24]
	str	xzr, [x19, #16]
	ldr	x19, [sp, #64]
	add	sp, sp, #80
	ret
	.section	.text.tc_text.word.two_arguments,"ax",@progbits
	.p2align	2
tc_text.word.two_arguments:
	stp	x29, x30, [sp, #-96]!
	stp	x26, x25, [sp, #32]
	mov	x25, xzr
	mov	x29, sp
	stp	x20, x19, [sp, #80]
	mov	x20, x1
	mov	x19, x0
	str	x27, [sp, #16]
	stp	x24, x23, [sp, #48]
	stp	x22, x21, [sp, #64]
	cbz	x2, 321f
602:
	ldrb	w8, [x20, x25]
	mov	w9, #1
	mov	x10, #8704
	movk	x10, #1, lsl #32
	lsl	x9, x9, x8
	cmp	w8, #32
	and	x8, x9, x10
	ccmp	x8, #0, #4, ls
	b.eq	321f
	add	x25, x25, #1
	cmp	x2, x25
	b.ne	602b
	mov	x25, x2
321:
	subs	x22, x2, x25
	b.eq	922f
	cmp	x22, #63
	add	x26, x20, x25
	b.hi	62f
	mov	x21, xzr
602:
	ldrb	w8, [x26, x21]
	mov	w9, #1
	mov	x10, #8704
	movk	x10, #1, lsl #32
	lsl	x9, x9, x8
	cmp	w8, #32
	and	x8, x9, x10
	ccmp	x8, #0, #4, ls
	b.ne	321f
	add	x21, x21, #1
	cmp	x22, x21
	b.ne	602b
	mov	x21, x22
	b	321f
62:
	add	x0, x20, x25
	mov	x1, x22
	mov	x21, x2
	bl	tc_lines.word.long_word_length
	mov	x2, x21
	mov	x21, x0
321:
	subs	x9, x22, x21
	add	x8, x26, x21
	mov	x27, xzr
	b.eq	321f
	sub	x10, x2, x21
	sub	x10, x10, x25
602:
	ldrb	w11, [x8, x27]
	mov	w12, #1
	mov	x13, #8704
	movk	x13, #1, lsl #32
	lsl	x12, x12, x11
	cmp	w11, #32
	and	x11, x12, x13
	ccmp	x11, #0, #4, ls
	b.eq	321f
	add	x27, x27, #1
	cmp	x10, x27
	b.ne	602b
	mov	x27, x9
321:
	subs	x24, x9, x27
	b.eq	922f
	cmp	x24, #63
	add	x23, x8, x27
	b.hi	613f
	sub	x8, x2, x21
	mov	x0, xzr
	sub	x8, x8, x27
	sub	x8, x8, x25
602:
	ldrb	w9, [x23, x0]
	mov	w10, #1
	mov	x11, #8704
	movk	x11, #1, lsl #32
	lsl	x10, x10, x9
	cmp	w9, #32
	and	x9, x10, x11
	ccmp	x9, #0, #4, ls
	b.ne	118f
	add	x0, x0, #1
	cmp	x8, x0
	b.ne	602b
	mov	x0, x24
	b	118f
613:
	mov	x0, x23
	mov	x1, x24
	bl	tc_lines.word.long_word_length
118:
	cmp	x24, x0
	b.eq	738f
	add	x10, x27, x25
	add	x8, x21, x0
	sub	x9, x22, x27
	add	x10, x20, x10
602:
	ldrb	w11, [x10, x8]
	mov	w12, #1
	mov	x13, #8704
	movk	x13, #1, lsl #32
	lsl	x12, x12, x11
	cmp	w11, #32
	and	x11, x12, x13
	ccmp	x11, #0, #4, ls
	b.eq	321f
	add	x8, x8, #1
	cmp	x9, x8
	b.ne	602b
738:
	strh	wzr, [x19]
	stp	x26, x21, [x19, #8]
	stp	x23, x0, [x19, #24]
	b	976f
321:
	subs	x1, x9, x8
	b.eq	738b
	cmp	x1, #64
	b.lo	922f
	add	x9, x27, x25
	add	x8, x20, x8
	add	x0, x8, x9
	bl	tc_lines.word.long_word_length
922:
	movi	v0.2d, #0000000000000000
	mov	w8, #257
	strh	w8, [x19]
	stur	q0, [x19, #8]
	stur	q0, [x19, #24]
976:
	ldp	x20, x19, [sp, #80]
	ldr	x27, [sp, #16]
	ldp	x22, x21, [sp, #64]
	ldp	x24, x23, [sp, #48]
	ldp	x26, x25, [sp, #32]
	ldp	x29, x30, [sp], #96
	ret
	.section	.text.tc_text.line.unit,"ax",@progbits
	.p2align	2
tc_text.line.unit:
	sub	sp, sp, #80
	movi	v0.2d, #0000000000000000
	str	x19, [sp, #64]
	mov	x19, x0
	mov	x0, sp
	stp	x29, x30, [sp, #48]
	add	x29, sp, #48
	str	xzr, [sp, #32]
	stp	q0, q0, [sp]
	bl	tc_text.word.two_arguments
	ldrb	w8, [sp]
	cbz	w8, 93f
	ldrb	w8, [sp, #1]
	mov	w9, #1
	str	wzr, [x19, #8]
	strb	w9, [x19]
	strb	w8, [x19, #1]
	b	976f
93:
	ldr	x11, [sp, #16]
	sub	x8, x11, #6
	cmn	x8, #5
	b.lo	32f
	ldp	x8, x9, [sp, #24]
	cbz	x11, 187f
	ldr	x12, [sp, #8]
	ldrb	w10, [x12]
	sub	w10, w10, #48
	cmp	w10, #9
	b.hi	32f
	cmp	x11, #1
	b.ne	602f
613:
	mov	w10, wzr
983:
	mov	w13, #10
	subs	x11, x11, #1
	mul	w10, w10, w13
	ldrb	w13, [x12], #1
	sub	w13, w13, #48
	add	w10, w10, w13, uxtb
	b.ne	983b
	cmp	w10, #256
	b.lo	625f
	b	32f
187:
	mov	w10, wzr
625:
	sub	x11, x9, #6
	cmn	x11, #5
	b.lo	32f
	cbz	x9, 613f
	ldrb	w11, [x8]
	sub	w11, w11, #48
	cmp	w11, #9
	b.hi	32f
	cmp	x9, #1
	b.ne	556f
983:
	mov	w11, wzr
187:
	mov	w12, #10
	subs	x9, x9, #1
	mul	w11, w11, w12
	ldrb	w12, [x8], #1
	sub	w12, w12, #48
	add	w11, w11, w12, uxtb
	b.ne	187b
	cmp	w11, #256
	b.lo	187f
	b	32f
602:
	ldrb	w10, [x12, #1]
	sub	w10, w10, #48
	cmp	w10, #9
	b.hi	32f
	cmp	x11, #2
	b.eq	613b
	ldrb	w10, [x12, #2]
	sub	w10, w10, #48
	cmp	w10, #9
	b.hi	32f
	cmp	x11, #3
	b.eq	613b
	ldrb	w10, [x12, #3]
	sub	w10, w10, #48
	cmp	w10, #9
	b.hi	32f
	cmp	x11, #4
	b.eq	613b
	ldrb	w10, [x12, #4]
	sub	w10, w10, #48
	cmp	w10, #9
	b.hi	32f
	cmp	x11, #5
	b.eq	613b
	b	32f
613:
	mov	w11, wzr
187:
	mov	w8, #7
	strh	wzr, [x19]
	strb	w8, [x19, #8]
	strb	w10, [x19, #9]
	strh	w11, [x19, #10]
	b	976f
556:
	ldrb	w11, [x8, #1]
	sub	w11, w11, #48
	cmp	w11, #9
	b.hi	32f
	cmp	x9, #2
	b.eq	983b
	ldrb	w11, [x8, #2]
	sub	w11, w11, #48
	cmp	w11, #9
	b.hi	32f
	cmp	x9, #3
	b.eq	983b
	ldrb	w11, [x8, #3]
	sub	w11, w11, #48
	cmp	w11, #9
	b.hi	32f
	cmp	x9, #4
	b.eq	983b
	ldrb	w11, [x8, #4]
	sub	w11, w11, #48
	cmp	w11, #9
	b.hi	32f
	cmp	x9, #5
	b.eq	983b
32:
	mov	w8, #513
	str	wzr, [x19, #8]
	strh	w8, [x19]
976:
	ldp	x29, x30, [sp, #48]
	strh	wzr, [x19, #12]
	stp	xzr, xzr, [x19, #24]
	str	xzr, [x19, #16]
	ldr	x19, [sp, #64]
	add	sp, sp, #80
	ret
	.section	.text.tc_text.line.clcw,"ax",@progbits
	.p2align	2
tc_text.line.clcw:
	stp	x29, x30, [sp, #-64]!
	stp	x22, x21, [sp, #32]
	mov	x21, xzr
	mov	x29, sp
	str	x23, [sp, #16]
	stp	x20, x19, [sp, #48]
	cbz	x2, 321f
602:
	ldrb	w8, [x1, x21]
	mov	w9, #1
	mov	x10, #8704
	movk	x10, #1, lsl #32
	lsl	x9, x9, x8
	cmp	w8, #32
	and	x8, x9, x10
	ccmp	x8, #0, #4, ls
	b.eq	321f
	add	x21, x21, #1
	cmp	x2, x21
	b.ne	602b
	mov	x21, x2
321:
	subs	x20, x2, x21
	b.eq	32f
	cmp	x20, #63
	add	x19, x1, x21
	b.hi	613f
	mov	x8, xzr
602:
	ldrb	w9, [x19, x8]
	mov	w10, #1
	mov	x11, #8704
	movk	x11, #1, lsl #32
	lsl	x10, x10, x9
	cmp	w9, #32
	and	x9, x10, x11
	ccmp	x9, #0, #4, ls
	b.ne	118f
	add	x8, x8, #1
	cmp	x20, x8
	b.ne	602b
	mov	x8, x20
	b	118f
613:
	mov	x22, x0
	mov	x0, x19
	mov	x1, x20
	mov	x23, x2
	bl	tc_lines.word.long_word_length
	mov	x2, x23
	mov	x8, x0
	mov	x0, x22
118:
	cmp	x20, x8
	b.eq	625f
	sub	x11, x2, x8
	mov	x9, xzr
	add	x10, x19, x8
	sub	x11, x11, x21
602:
	ldrb	w12, [x10, x9]
	mov	w13, #1
	mov	x14, #8704
	movk	x14, #1, lsl #32
	lsl	x13, x13, x12
	cmp	w12, #32
	and	x12, x13, x14
	ccmp	x12, #0, #4, ls
	b.eq	321f
	add	x9, x9, #1
	cmp	x11, x9
	b.ne	602b
625:
	sub	x9, x8, #6
	cmn	x9, #5
	b.lo	943f
	cbz	x8, 187f
	ldrb	w9, [x19]
	sub	w9, w9, #48
	cmp	w9, #9
	b.hi	943f
	cmp	x8, #1
	b.ne	602f
613:
	mov	w9, wzr
983:
	mov	w10, #10
	subs	x8, x8, #1
	mul	w9, w9, w10
	ldrb	w10, [x19], #1
	sub	w10, w10, #48
	add	w9, w9, w10, uxtb
	b.ne	983b
	cmp	w9, #256
	b.lo	983f
	b	943f
187:
	mov	w9, wzr
983:
	mov	w8, #8
	strh	wzr, [x0]
	strb	w8, [x0, #8]
	strb	w9, [x0, #9]
	stur	wzr, [x0, #10]
	b	976f
321:
	subs	x1, x11, x9
	b.eq	625b
	cmp	x1, #64
	b.lo	32f
	mov	x19, x0
	add	x0, x10, x9
	bl	tc_lines.word.long_word_length
	mov	x0, x19
32:
	mov	w8, #257
	b	893f
602:
	ldrb	w9, [x19, #1]
	sub	w9, w9, #48
	cmp	w9, #9
	b.hi	943f
	cmp	x8, #2
	b.eq	613b
	ldrb	w9, [x19, #2]
	sub	w9, w9, #48
	cmp	w9, #9
	b.hi	943f
	cmp	x8, #3
	b.eq	613b
	ldrb	w9, [x19, #3]
	sub	w9, w9, #48
	cmp	w9, #9
	b.hi	943f
	cmp	x8, #4
	b.eq	613b
	ldrb	w9, [x19, #4]
	sub	w9, w9, #48
	cmp	w9, #9
	b.hi	943f
	cmp	x8, #5
	b.eq	613b
943:
	mov	w8, #513
893:
	str	wzr, [x0, #8]
	strh	w8, [x0]
	strh	wzr, [x0, #12]
976:
	ldp	x20, x19, [sp, #48]
	ldr	x23, [sp, #16]
	ldp	x22, x21, [sp, #32]
	stp	xzr, xzr, [x0, #24]
	str	xzr, [x0, #16]
	ldp	x29, x30, [sp], #64
	ret
	.section	.text.tc_live.receiver.Receiver.perform,"ax",@progbits
	.p2align	2
tc_live.receiver.Receiver.perform:
	sub	sp, sp, #352
	movi	v0.2d, #0000000000000000
	stp	x22, x21, [sp, #320]
	ldrb	w10, [x2, #1]
	ldp	x22, x21, [x2, #8]
	stp	x26, x25, [sp, #288]
	stp	x24, x23, [sp, #304]
	add	x23, sp, #128
	ldrb	w26, [x2]
	ldrh	w8, [x2, #2]
	ldrh	w9, [x2, #4]
	ldrb	w11, [x1]
	ldr	x24, [x2, #24]
	stp	x20, x19, [sp, #336]
	mov	x20, x1
	mov	x19, x0
	stp	x29, x30, [sp, #256]
	add	x29, sp, #256
	stp	x28, x27, [sp, #272]
	str	wzr, [sp, #192]
	stp	q0, q0, [sp, #48]
	stp	q0, q0, [sp, #80]
	stp	q0, q0, [sp, #128]
	stp	q0, q0, [sp, #160]
	str	q0, [sp, #112]
	str	xzr, [sp, #16]
	cbz	w11, 602f
	ldrb	w25, [x20, #1]
	cmp	w26, #4
	b.ne	62f
	sub	x0, x29, #48
	mov	x1, x22
	mov	x2, x21
	stp	q0, q0, [x29, #-48]
	bl	tc_edges.fecf.frames.without_field
	ldurb	w28, [x29, #-48]
	cbz	w28, 976f
	ldurb	w8, [x29, #-47]
	mov	x21, xzr
	mov	w26, wzr
	stp	xzr, xzr, [sp]
	cmp	w8, #5
	mov	w8, #14
	cset	w23, ne
	csel	w27, wzr, w8, ne
	cbz	x24, 983f
613:
	mov	x0, x22
	bl	rattle_dealloc
983:
	cbz	w23, 922f
	mov	w8, wzr
	mov	w9, wzr
	cbz	w28, 681f
	movi	v0.2d, #0000000000000000
	add	x23, sp, #128
	mov	w10, #4
	stur	q0, [x23, #52]
	stur	q0, [x23, #36]
	stur	q0, [x23, #20]
	stur	q0, [sp, #132]
	b	232f
602:
	ldrb	w11, [x20, #1]
	cmp	w26, #4
	b.ne	32f
	cmp	x21, #5
	mov	w25, #2
	b.lo	62f
	cmp	w11, #2
	b.eq	62f
	ldrb	w11, [x22]
	tst	w11, #0xcccccccc
	b.eq	602f
187:
	mov	w26, #4
	b	62f
32:
	mov	w25, w11
	b	62f
922:
	movi	v0.2d, #0000000000000000
	mov	w8, #1
	strb	w27, [x19, #1]
	str	wzr, [x19, #8]
	strb	w8, [x19]
	b	598f
976:
	ldp	x8, x21, [x29, #-40]
	mov	w27, wzr
	mov	w26, #4
	mov	w23, #1
	str	x8, [sp, #8]
	ldur	x8, [x29, #-24]
	str	x8, [sp]
	cbnz	x24, 613b
	b	983b
681:
	ldp	x24, x22, [sp]
	mov	w10, wzr
	add	x23, sp, #128
62:
	add	x0, sp, #48
	add	x2, sp, #16
	mov	x1, x20
	strb	w26, [sp, #16]
	strb	w10, [sp, #17]
	strh	w8, [sp, #18]
	strh	w9, [sp, #20]
	stp	x22, x21, [sp, #24]
	str	x24, [sp, #40]
	bl	tc_live.receiver.Receiver.perform_passed
	ldrb	w8, [sp, #48]
	cbz	w8, 976f
	ldrb	w8, [sp, #49]
	mov	w9, #1
	movi	v0.2d, #0000000000000000
	str	wzr, [x19, #8]
	strb	w9, [x19]
	strb	w8, [x19, #1]
598:
	stp	q0, q0, [x19, #16]
	str	q0, [x19, #48]
	b	893f
976:
	ldp	q0, q1, [sp, #64]
	ldrh	w8, [sp, #58]
	ldrb	w9, [sp, #57]
	ldrb	w10, [sp, #56]
	strb	w25, [x20, #1]
	stur	q0, [sp, #132]
	ldp	q2, q0, [sp, #96]
	stur	q1, [x23, #20]
	stur	q2, [x23, #36]
	stur	q0, [x23, #52]
232:
	ldur	q0, [sp, #132]
	ldur	q1, [x23, #20]
	ldur	q2, [x23, #36]
	strh	wzr, [x19]
	stp	q0, q1, [x19, #16]
	ldur	q0, [x23, #52]
	strb	w10, [x19, #8]
	strb	w9, [x19, #9]
	strh	w8, [x19, #10]
	str	q2, [x19, #48]
893:
	str	q0, [x19, #64]
	ldp	x20, x19, [sp, #336]
	ldp	x22, x21, [sp, #320]
	ldp	x24, x23, [sp, #304]
	ldp	x26, x25, [sp, #288]
	ldp	x28, x27, [sp, #272]
	ldp	x29, x30, [sp, #256]
	add	sp, sp, #352
	ret
602:
	ldrb	w11, [x22, #3]
	ldrb	w12, [x22, #2]
	mov	w26, #4
	bfi	w11, w12, #8, #2
	cmp	w11, #5
	b.lo	62b
	add	w11, w11, #1
	cmp	x21, x11
	b.lo	62b
	cmp	x21, #8
	b.lo	62b
	cmp	x21, x11
	b.ne	62b
	mov	w12, #255
	mov	w15, #255
	mov	x13, x22
	mov	x11, x21
602:
	ldrb	w14, [x13]
	ldrb	w16, [x13, #1]
	adrp	x17, .LT48aab116
	add	x17, x17, :lo12:.LT48aab116
	adrp	x18, .LT33c05f58
	add	x18, x18, :lo12:.LT33c05f58
	eor	w14, w14, w15
	ldrb	w15, [x13, #2]
	eor	w12, w16, w12
	and	x14, x14, #0xff
	ldrb	w16, [x13, #3]
	and	x12, x12, #0xff
	ldrh	w14, [x17, x14, lsl #1]
	adrp	x17, .LTbb337a2b
	add	x17, x17, :lo12:.LTbb337a2b
	ldrh	w15, [x17, x15, lsl #1]
	adrp	x17, .LT48c7e4e5
	add	x17, x17, :lo12:.LT48c7e4e5
	ldrh	w12, [x18, x12, lsl #1]
	ldrh	w16, [x17, x16, lsl #1]
	sub	x11, x11, #4
	cmp	x11, #3
	eor	w12, w12, w14
	eor	w14, w15, w16
	eor	w12, w12, w14
	add	x14, x13, #4
	ubfx	w15, w12, #8, #8
	mov	x13, x14
	b.hi	602b
	cbz	x11, 583f
	mov	x13, xzr
602:
	ldrb	w15, [x14, x13]
	and	w16, w12, #0xff00
	add	x13, x13, #1
	cmp	x11, x13
	eor	w15, w15, w16, lsr #8
	eor	w15, w15, w15, lsr #4
	orr	w12, w15, w12, lsl #8
	eor	w12, w12, w15, lsl #12
	eor	w12, w12, w15, lsl #5
	b.ne	602b
583:
	tst	w12, #0xffff
	mov	w11, #1
	cinc	w25, w11, ne
	b	187b
	.section	.text.tc_edges.fecf.frames.without_field,"ax",@progbits
	.p2align	2
tc_edges.fecf.frames.without_field:
	stp	x29, x30, [sp, #-48]!
	cmp	x2, #5
	stp	x22, x21, [sp, #16]
	mov	x29, sp
	stp	x20, x19, [sp, #32]
	b.hs	602f
	mov	w8, wzr
	mov	w9, wzr
	b	983f
602:
	ldrb	w8, [x1]
	cmp	w8, #63
	b.hi	613f
	tst	w8, #0xc
	b.eq	602f
	mov	w8, wzr
	mov	w9, #2
	b	983f
613:
	mov	w8, wzr
	mov	w9, #1
983:
	mov	w10, #1
	strb	w8, [x0, #1]
	strb	w10, [x0]
	strb	w9, [x0, #2]
	stp	xzr, xzr, [x0, #16]
	str	xzr, [x0, #8]
	ldp	x20, x19, [sp, #32]
	ldp	x22, x21, [sp, #16]
	ldp	x29, x30, [sp], #48
	ret
602:
	ldrb	w8, [x1, #2]
	ldrb	w9, [x1, #3]
	lsl	w8, w8, #8
	and	w8, w8, #0x300
	orr	w8, w8, w9
	cmp	w8, #5
	b.hs	62f
	mov	w8, wzr
	mov	w9, #3
	b	983b
62:
	add	w8, w8, #1
	cmp	x2, x8
	b.hs	118f
	mov	w8, wzr
	mov	w9, #4
	b	983b
118:
	cmp	x2, x8
	b.ls	118f
	mov	w9, wzr
	mov	w8, #1
	b	983b
118:
	cmp	x2, #8
	b.hs	613f
	mov	w8, #769
	b	560f
613:
	mov	w9, #255
	mov	w12, #255
	mov	x10, x1
	mov	x8, x2
602:
	ldrb	w11, [x10]
	ldrb	w13, [x10, #1]
	adrp	x14, .LT48aab116
	add	x14, x14, :lo12:.LT48aab116
	adrp	x15, .LT33c05f58
	add	x15, x15, :lo12:.LT33c05f58
	eor	w11, w11, w12
	ldrb	w12, [x10, #2]
	eor	w9, w13, w9
	and	x11, x11, #0xff
	ldrb	w13, [x10, #3]
	and	x9, x9, #0xff
	ldrh	w11, [x14, x11, lsl #1]
	adrp	x14, .LTbb337a2b
	add	x14, x14, :lo12:.LTbb337a2b
	ldrh	w12, [x14, x12, lsl #1]
	adrp	x14, .LT48c7e4e5
	add	x14, x14, :lo12:.LT48c7e4e5
	ldrh	w9, [x15, x9, lsl #1]
	ldrh	w13, [x14, x13, lsl #1]
	sub	x8, x8, #4
	cmp	x8, #3
	eor	w9, w9, w11
	eor	w11, w12, w13
	eor	w9, w9, w11
	add	x11, x10, #4
	ubfx	w12, w9, #8, #8
	mov	x10, x11
	b.hi	602b
	cbz	x8, 583f
	mov	x10, xzr
602:
	ldrb	w12, [x11, x10]
	and	w13, w9, #0xff00
	add	x10, x10, #1
	cmp	x8, x10
	eor	w12, w12, w13, lsr #8
	eor	w12, w12, w12, lsr #4
	orr	w9, w12, w9, lsl #8
	eor	w9, w9, w12, lsl #12
	eor	w9, w9, w12, lsl #5
	b.ne	602b
583:
	tst	w9, #0xffff
	b.eq	613f
	mov	w8, #1025
560:
	strb	wzr, [x0, #2]
	strh	w8, [x0]
	stp	xzr, xzr, [x0, #16]
	str	xzr, [x0, #8]
	ldp	x20, x19, [sp, #32]
	ldp	x22, x21, [sp, #16]
	ldp	x29, x30, [sp], #48
	ret
613:
	mov	x22, x1
	mov	x20, x0
	sub	x0, x2, #2
	mov	w1, #1
	sub	x19, x2, #2
	mov	x21, x2
	bl	rattle_alloc
	tbz	w0, #0, 613f
	ldrb	w8, [x22, #3]
	ldrb	w10, [x22, #2]
	mov	x0, x1
	ldrb	w11, [x22]
	sub	x2, x21, #6
	orr	w8, w8, w10, lsl #8
	mov	w10, #65534
	add	w8, w8, w10
	ldrb	w10, [x22, #1]
	and	w8, w8, #0xffff
	rev	w8, w8
	orr	w8, w8, w10, lsl #8
	orr	w10, w8, w11
	add	x8, x22, #4
	str	w10, [x0], #4
	sub	x11, x0, x8
	cmp	x11, x2
	b.hs	983f
	mov	x9, x22
	mov	x10, x21
	cmp	x2, #8
	mov	x11, xzr
	b.lo	187f
	sub	x8, x1, x9
	cmp	x8, #32
	mov	x8, x20
	b.lo	625f
	cmp	x2, #32
	b.hs	447f
	mov	x11, xzr
	b	32f
613:
	mov	w8, #1281
	strb	wzr, [x20, #2]
	strh	w8, [x20]
	stp	xzr, xzr, [x20, #16]
	str	xzr, [x20, #8]
	ldp	x20, x19, [sp, #32]
	ldp	x22, x21, [sp, #16]
	ldp	x29, x30, [sp], #48
	ret
983:
	mov	x21, x1
	mov	x1, x8
	bl	memmove
	mov	x1, x21
	mov	x8, x20
	b	738f
187:
	mov	x8, x20
	b	625f
447:
	and	x12, x2, #0x18
	and	x11, x2, #0xffffffffffffffe0
	add	x13, x9, #20
	add	x14, x1, #20
	and	x15, x2, #0xffffffffffffffe0
976:
	ldp	q0, q1, [x13, #-16]
	subs	x15, x15, #32
	add	x13, x13, #32
	stp	q0, q1, [x14, #-16]
	add	x14, x14, #32
	b.ne	976b
	cmp	x2, x11
	b.eq	738f
	cbz	x12, 625f
32:
	mov	x12, x11
	and	x11, x2, #0xfffffffffffffff8
	add	x14, x12, #4
	sub	x12, x12, x11
	add	x13, x9, x14
	add	x14, x1, x14
93:
	ldr	d0, [x13], #8
	adds	x12, x12, #8
	str	d0, [x14], #8
	b.ne	93b
	cmp	x2, x11
	b.eq	738f
625:
	sub	x10, x10, x11
	add	x11, x11, #4
	sub	x10, x10, #6
	add	x9, x9, x11
	add	x11, x1, x11
602:
	ldrb	w12, [x9], #1
	subs	x10, x10, #1
	strb	w12, [x11], #1
	b.ne	602b
738:
	strh	wzr, [x8]
	strb	wzr, [x8, #2]
	stp	x1, x19, [x8, #8]
	str	x19, [x8, #24]
	ldp	x20, x19, [sp, #32]
	ldp	x22, x21, [sp, #16]
	ldp	x29, x30, [sp], #48
	ret
	.section	.text.unlikely.std_alloc.vec.Vec.grow_amortized._5ce8f19f45e9f986,"ax",@progbits
	.p2align	2
std_alloc.vec.Vec.grow_amortized._5ce8f19f45e9f986:
	ldr	x8, [x0, #8]
	cmn	x8, x1
	b.lo	598f
	mov	w0, wzr
	ret
598:
	stp	x29, x30, [sp, #-32]!
	ldr	x10, [x0, #16]
	add	x9, x8, x1
	mov	w11, #8
	cmp	x9, #8
	stp	x20, x19, [sp, #16]
	mov	x29, sp
	lsl	x12, x10, #1
	csel	x11, x9, x11, hi
	lsr	x13, x10, #62
	cmp	x11, x12
	csel	x9, x11, x12, hi
	cmp	x13, #0
	csel	x19, x9, x11, eq
	tbnz	x19, #63, 187f
	cbz	x10, 983f
	mov	x20, x0
	ldr	x0, [x0]
	mov	x1, x8
	mov	x2, x19
	mov	w3, #1
	bl	rattle_realloc
	tbz	w0, #0, 187f
613:
	mov	w0, #1
	str	x1, [x20]
	str	x19, [x20, #16]
	ldp	x20, x19, [sp, #16]
	ldp	x29, x30, [sp], #32
	ret
983:
	mov	x20, x0
	mov	x0, x9
	mov	w1, #1
	bl	rattle_alloc
	tbnz	w0, #0, 613b
187:
	mov	w0, wzr
	ldp	x20, x19, [sp, #16]
	ldp	x29, x30, [sp], #32
	ret
	.section	.text.tc_live.receiver.Receiver.perform_passed,"ax",@progbits
	.p2align	2
tc_live.receiver.Receiver.perform_passed:
	stp	x29, x30, [sp, #-96]!
	str	x28, [sp, #16]
	mov	x29, sp
	stp	x26, x25, [sp, #32]
	stp	x24, x23, [sp, #48]
	stp	x22, x21, [sp, #64]
	stp	x20, x19, [sp, #80]
	sub	sp, sp, #2288
	str	xzr, [sp]
	movi	v0.2d, #0000000000000000
	mov	x19, x0
	ldrb	w9, [x2]
	ldrh	w18, [x2, #2]
	ldrb	w10, [x2, #1]
	ldp	x23, x22, [x2, #16]
	ldrh	w0, [x2, #4]
	ldrb	w16, [x2, #8]
	cmp	w9, #3
	and	w15, w18, #0xff
	ldrb	w17, [x2, #9]
	ldrb	w12, [x2, #10]
	ldrb	w13, [x2, #11]
	ldrb	w14, [x2, #12]
	ldrb	w11, [x2, #15]
	ldurh	w3, [x2, #13]
	stp	xzr, xzr, [sp, #32]
	str	xzr, [sp, #48]
	str	wzr, [sp, #56]
	stp	q0, q0, [sp]
	b.le	118f
	cmp	w9, #5
	b.le	280f
	cmp	w9, #6
	b.eq	405f
	cmp	w9, #7
	b.ne	32f
	mov	x11, xzr
	mov	x22, xzr
	mov	x23, xzr
	mov	x24, xzr
	mov	w20, wzr
	mov	w8, wzr
	mov	w12, wzr
	mov	w13, wzr
	mov	w14, wzr
	mov	w9, #6
	b	613f
118:
	cmp	w9, #1
	b.gt	690f
	cbnz	w9, 983f
	mov	x23, xzr
	mov	x24, xzr
	mov	x11, x9
	mov	x22, x9
	mov	w25, w9
	mov	w26, w9
	mov	w20, w9
	mov	w8, w9
	mov	w10, w9
	mov	w15, w9
	mov	w12, w9
	mov	w13, w9
	mov	w14, w9
	b	335f
690:
	orr	w8, w18, w0, lsl #16
	cmp	w9, #2
	b.ne	187f
	mov	x11, xzr
	mov	x22, xzr
	mov	x23, xzr
	mov	x24, xzr
	mov	w26, wzr
	mov	w20, wzr
	mov	w15, wzr
	mov	w12, wzr
	mov	w13, wzr
	mov	w14, wzr
	b	911f
280:
	cmp	w9, #4
	b.ne	943f
	orr	w9, w3, w11, lsl #16
	mov	x24, xzr
	mov	w25, wzr
	mov	w26, wzr
	mov	w20, wzr
	mov	w8, wzr
	lsl	x11, x9, #40
	mov	w9, #3
	mov	w10, w16
	mov	w15, w17
	b	335f
405:
	lsr	w20, w18, #8
	mov	x11, xzr
	mov	x22, xzr
	mov	x23, xzr
	mov	x24, xzr
	mov	w8, wzr
	mov	w12, wzr
	mov	w13, wzr
	mov	w14, wzr
	mov	w9, #5
613:
	mov	w25, w10
	mov	w26, w15
	mov	w10, wzr
	mov	w15, wzr
	b	335f
983:
	mov	x11, xzr
	mov	x22, xzr
	mov	w25, wzr
	mov	w26, wzr
	mov	w20, wzr
	mov	w8, wzr
	and	w13, w0, #0xff
	lsr	w12, w18, #8
	ubfx	w14, w0, #8, #1
	mov	w9, #1
	sub	x23, x29, #2
	sub	x24, x29, #2
	b	335f
187:
	mov	x11, xzr
	mov	x22, xzr
	mov	x23, xzr
	mov	x24, xzr
	mov	w20, wzr
	mov	w15, wzr
	mov	w12, wzr
	mov	w13, wzr
	mov	w14, wzr
	and	w8, w8, #0xffff00ff
	mov	w26, #1
	mov	w9, #2
	b	911f
32:
	mov	x11, xzr
	mov	x22, xzr
	mov	x23, xzr
	mov	x24, xzr
	mov	w26, wzr
	mov	w20, wzr
	mov	w8, wzr
	mov	w15, wzr
	mov	w12, wzr
	mov	w13, wzr
	mov	w14, wzr
	mov	w9, #7
	b	911f
943:
	mov	x11, xzr
	mov	x22, xzr
	mov	x23, xzr
	mov	x24, xzr
	mov	w26, wzr
	mov	w20, wzr
	mov	w8, wzr
	mov	w15, wzr
	mov	w12, wzr
	mov	w13, wzr
	mov	w14, wzr
	mov	w9, #4
911:
	mov	w25, w10
	mov	w10, wzr
335:
	ldrh	w16, [x1, #2]
	cmp	w9, #3
	add	x21, sp, #128
	stp	xzr, xzr, [sp, #104]
	str	xzr, [sp, #96]
	str	wzr, [sp, #120]
	stp	xzr, xzr, [sp, #72]
	str	xzr, [sp, #64]
	str	wzr, [sp, #88]
	strh	w16, [sp, #124]
	stp	xzr, xzr, [sp, #128]
	str	wzr, [sp, #152]
	str	xzr, [sp, #144]
	b.gt	118f
	orr	x11, x11, x14, lsl #32
	mov	w13, w13
	mov	w12, w12
	mov	w10, w10
	cmp	w9, #1
	orr	x11, x11, x13, lsl #24
	orr	x11, x11, x12, lsl #16
	mov	w12, w15
	orr	x11, x11, x12, lsl #8
	orr	x20, x11, x10
	b.gt	280f
	cbnz	w9, 602f
613:
	mov	w11, wzr
	mov	w10, wzr
	mov	w8, wzr
	mov	w9, wzr
	stp	xzr, xzr, [sp, #224]
	str	wzr, [sp, #248]
	str	xzr, [sp, #240]
	b	93f
118:
	cmp	w9, #5
	b.gt	118f
	cmp	w9, #4
	b.ne	556f
	ldrb	w8, [x1, #8]
	cmp	w8, #1
	b.ne	316f
922:
	movi	v0.2d, #0000000000000000
	mov	w8, #1
	str	xzr, [sp, #256]
	b	893f
280:
	cmp	w9, #2
	b.ne	401f
	ldrb	w9, [x1, #8]
	cbnz	w9, 187f
	ldr	x9, [x1, #24]
	cbz	x9, 983f
	ldr	x10, [x1, #16]
	and	x22, x8, #0x7ff
	add	x20, x10, #24
257:
	ldurb	w10, [x20, #-24]
	cmp	w10, w25
	b.eq	405f
	subs	x9, x9, #1
	add	x20, x20, #56
	add	x22, x22, #2047
	b.ne	257b
983:
	mov	w1, #7
	b	641f
118:
	cmp	w9, #6
	b.ne	87f
	ldrb	w8, [x1, #8]
	cmp	w8, #1
	b.ne	481f
320:
	movi	v0.2d, #0000000000000000
	mov	w8, #3
	str	xzr, [sp, #256]
	str	x8, [sp, #168]
	strb	w25, [sp, #169]
	strh	w26, [sp, #170]
	b	598f
602:
	ldrb	w8, [x1, #8]
	cbz	w8, 659f
187:
	mov	w1, #4
	b	641f
556:
	ldrb	w8, [x1, #8]
	cmp	w8, #1
	b.ne	148f
737:
	movi	v0.2d, #0000000000000000
	mov	w8, #2
	str	xzr, [sp, #256]
	str	x8, [sp, #168]
	orr	w8, w26, w20, lsl #8
	strb	w25, [sp, #169]
	strh	w8, [sp, #170]
	b	598f
401:
	ldrb	w8, [x1, #8]
	cmp	w8, #1
	b.ne	946f
410:
	movi	v0.2d, #0000000000000000
	str	xzr, [sp, #256]
	stp	xzr, x20, [sp, #168]
	stp	x23, x22, [sp, #184]
	stp	q0, q0, [sp, #224]
	add	x0, sp, #224
	add	x1, x1, #16
	add	x2, sp, #168
	bl	tc_rack.rack.Rack.operate
	ldrb	w8, [sp, #224]
	cbnz	w8, 983f
	b	232f
87:
	ldrb	w8, [x1, #8]
	cmp	w8, #1
	b.ne	312f
719:
	movi	v0.2d, #0000000000000000
	str	xzr, [sp, #256]
	mov	w8, #4
893:
	str	x8, [sp, #168]
	strb	w25, [sp, #169]
598:
	stp	q0, q0, [sp, #224]
	stp	xzr, xzr, [sp, #176]
	str	xzr, [sp, #192]
	add	x0, sp, #224
	add	x1, x1, #16
	add	x2, sp, #168
	bl	tc_rack.rack.Rack.operate
	ldrb	w8, [sp, #224]
	cbz	w8, 232f
983:
	mov	w1, #14
641:
	movi	v0.2d, #0000000000000000
	mov	w11, wzr
	mov	w8, wzr
	mov	w9, wzr
	mov	w10, wzr
	mov	w12, #1
	stp	xzr, xzr, [sp, #32]
	str	wzr, [sp, #56]
	str	xzr, [sp, #48]
	b	598f
232:
	ldur	q0, [x21, #108]
	ldur	q1, [x21, #120]
	mov	w11, #1
	ldrb	w8, [sp, #232]
	ldrb	w9, [sp, #233]
	ldrh	w10, [sp, #234]
	str	q0, [sp, #128]
	stur	q1, [x21, #12]
	ldr	q0, [sp, #128]
	ldur	q1, [x21, #12]
	str	q0, [sp, #96]
	stur	q1, [sp, #108]
	ldr	q0, [sp, #96]
	ldur	q1, [sp, #108]
	str	q0, [sp, #224]
	stur	q1, [x21, #108]
93:
	ldr	q0, [sp, #224]
	ldur	q1, [x21, #108]
	mov	w12, wzr
	mov	w1, wzr
	str	q0, [sp, #64]
	movi	v0.2d, #0000000000000000
	stur	q1, [sp, #76]
	ldr	q1, [sp, #64]
	ldur	q2, [sp, #76]
	str	q1, [sp, #32]
	stur	q2, [sp, #44]
598:
	stp	q0, q0, [sp]
	ldur	q1, [sp, #44]
	ldp	q2, q0, [sp, #16]
	strb	w12, [x19]
	strb	w1, [x19, #1]
	strb	w11, [x19, #8]
	stur	q0, [x19, #20]
	ldr	q0, [sp]
	strb	wzr, [x19, #9]
	stp	q1, q0, [x19, #32]
	strh	wzr, [x19, #10]
	strb	w8, [x19, #16]
	strb	w9, [x19, #17]
	strh	w10, [x19, #18]
	str	q2, [x19, #64]
	add	sp, sp, #2288
	ldp	x20, x19, [sp, #80]
	ldr	x28, [sp, #16]
	ldp	x22, x21, [sp, #64]
	ldp	x24, x23, [sp, #48]
	ldp	x26, x25, [sp, #32]
	ldp	x29, x30, [sp], #96
	ret
659:
	ldr	x25, [x1, #24]
	stp	x20, x23, [sp, #168]
	stp	x22, xzr, [sp, #184]
	stp	xzr, xzr, [sp, #208]
	str	x24, [sp, #200]
	cbz	x25, 62f
	ldr	x8, [x1, #16]
	and	w9, w20, #0xff
	mov	x10, x25
602:
	ldrb	w11, [x8], #56
	cmp	w11, w9
	b.eq	187f
	subs	x10, x10, #1
	b.ne	602b
62:
	add	x0, sp, #168
	mov	x26, x1
	bl	tc_queues.settings.Settings.check
	tst	w0, #0xff
	b.eq	62f
	and	x8, x1, #0xff
	adrp	x9, .Lswitch.table.tc_live.receiver.Receiver.perform_passed
	add	x9, x9, :lo12:.Lswitch.table.tc_live.receiver.Receiver.perform_passed
	ldrb	w1, [x9, x8]
	b	641b
405:
	lsr	w9, w8, #16
	cbz	w26, 447f
	and	w11, w8, #0xff
	cmp	w11, #63
	b.ls	32f
	mov	w1, #16
	b	641b
187:
	mov	w1, #6
	b	641b
62:
	add	x0, sp, #224
	mov	w1, wzr
	mov	w2, #2047
	bl	memset
	mov	x8, x26
	cbz	x22, 976f
	cmp	x22, #1
	b.ne	192f
	mov	x9, xzr
	b	62f
316:
	add	x0, sp, #124
	mov	x20, x1
	add	x1, x1, #8
	bl	tc_rack.performing.begin_anew._ecad586609b5e68f
	tst	w0, #0xff
	b.ne	641b
	ldrb	w8, [x20, #8]
	mov	x1, x20
	cmp	w8, #1
	b.eq	922b
	b	174f
481:
	add	x0, sp, #124
	mov	x20, x1
	add	x1, x1, #8
	bl	tc_rack.performing.begin_anew._ecad586609b5e68f
	tst	w0, #0xff
	b.ne	641b
	ldrb	w8, [x20, #8]
	mov	x1, x20
	cmp	w8, #1
	b.eq	320b
	b	174f
148:
	add	x0, sp, #124
	mov	x22, x1
	add	x1, x1, #8
	bl	tc_rack.performing.begin_anew._ecad586609b5e68f
	tst	w0, #0xff
	b.ne	641b
	ldrb	w8, [x22, #8]
	mov	x1, x22
	cmp	w8, #1
	b.eq	737b
	b	174f
946:
	add	x0, sp, #124
	mov	x24, x1
	add	x1, x1, #8
	bl	tc_rack.performing.begin_anew._ecad586609b5e68f
	tst	w0, #0xff
	b.eq	602f
	cbz	x22, 641b
	mov	x0, x20
	mov	w20, w1
	bl	rattle_dealloc
	mov	w1, w20
	b	641b
312:
	add	x0, sp, #124
	mov	x20, x1
	add	x1, x1, #8
	bl	tc_rack.performing.begin_anew._ecad586609b5e68f
	tst	w0, #0xff
	b.ne	641b
	ldrb	w8, [x20, #8]
	mov	x1, x20
	cmp	w8, #1
	b.eq	719b
	b	174f
447:
	and	w10, w8, #0xffff
	cmp	w10, #2046
	b.ls	93f
	mov	w1, #11
	b	641b
32:
	mov	x10, x20
	ldr	x12, [x10, #8]!
	mov	x22, x10
	ldr	x13, [x10, #8]!
	add	x13, x13, #1
321:
	subs	x13, x13, #1
	b.eq	625f
	ldrb	w14, [x12], #4
	mov	w1, #17
	cmp	w14, w11
	b.ne	321b
	b	641b
192:
	and	x9, x22, #0xfffffffffffffffe
	add	x10, x23, #4
	and	x11, x22, #0xfffffffffffffffe
848:
	ldurh	w12, [x10, #-4]
	ldrh	w13, [x10], #8
	add	x14, sp, #224
	subs	x11, x11, #2
	mov	w15, #1
	strb	w15, [x14, x12]
	strb	w15, [x14, x13]
	b.ne	848b
	cmp	x22, x9
	b.eq	976f
62:
	add	x10, x23, x9, lsl #2
	sub	x9, x22, x9
335:
	ldrh	w11, [x10], #4
	add	x12, sp, #224
	subs	x9, x9, #1
	mov	w13, #1
	strb	w13, [x12, x11]
	b.ne	335b
976:
	ldp	x10, x9, [x8, #48]
	cmp	x9, x10
	b.eq	62f
	ldr	x9, [x8, #32]
	cmp	x9, x25
	b.eq	316f
187:
	mov	w9, #56
	ldr	x10, [x8, #16]
	add	x1, sp, #224
	madd	x9, x25, x9, x10
	add	x10, x25, #1
	mov	w2, #2047
	stp	x20, x23, [x9]
	stp	x22, xzr, [x9, #16]
	mov	x22, x8
	stp	xzr, xzr, [x9, #40]
	str	x24, [x9, #32]
	ldp	x9, x20, [x8, #40]
	str	x10, [x8, #24]
	sub	x9, x9, x20
	add	x0, x9, x20, lsl #11
	bl	memcpy
	add	x8, x20, #1
	str	x8, [x22, #48]
	b	613b
93:
	ldr	x23, [x1, #40]
	ldrb	w10, [x23, x22]
	tbz	w10, #0, 893f
	mov	w1, #12
	b	641b
602:
	ldrb	w8, [x24, #8]
	mov	x1, x24
	cmp	w8, #1
	b.eq	410b
174:
	brk	#0x1
625:
	sub	w9, w9, #257
	cmn	w9, #256
	b.hs	257f
	mov	w1, #18
	b	641b
893:
	sub	w9, w9, #1
	cmp	w9, #255
	b.hi	613f
	ldur	q0, [x20, #-16]
	sub	x9, x29, #2
	sub	x24, x20, #16
	str	q0, [sp, #224]
	ldr	x10, [x20]
	str	x10, [sp, #240]
	stp	xzr, xzr, [x20, #-8]
	stur	x9, [x20, #-16]
	ldr	x9, [sp, #232]
	cmp	x10, x9
	b.eq	481f
93:
	ldr	x10, [sp, #224]
	mov	w1, wzr
	add	x11, x9, #1
	mov	w25, #1
	str	w8, [x10, x9, lsl #2]
	str	x11, [sp, #232]
659:
	ldr	q0, [sp, #224]
	ldur	x0, [x20, #-16]
	ldr	x8, [x20]
	str	q0, [x24]
	ldr	x9, [sp, #240]
	str	x9, [x24, #16]
	cbz	x8, 32f
	mov	w20, w1
	bl	rattle_dealloc
	mov	w1, w20
32:
	cbz	w25, 641b
	mov	w8, #1
	strb	w8, [x23, x22]
	b	613b
257:
	ldurb	w9, [x20, #-20]
	cmp	w9, #1
	b.ne	983f
	ldr	q0, [x22]
	sub	x9, x29, #2
	str	q0, [sp, #224]
	ldr	x11, [x22, #16]
	str	x11, [sp, #240]
	str	x9, [x22]
	stp	xzr, xzr, [x10]
	ldr	x9, [sp, #232]
	cmp	x11, x9
	b.eq	148f
885:
	ldr	x10, [sp, #224]
	mov	w1, wzr
	add	x11, x9, #1
	mov	w23, #1
	and	w8, w8, #0xffff003f
	str	w8, [x10, x9, lsl #2]
	str	x11, [sp, #232]
263:
	ldr	q0, [sp, #224]
	ldr	x0, [x20, #8]
	ldr	x8, [x20, #24]
	str	q0, [x22]
	ldr	x9, [sp, #240]
	str	x9, [x22, #16]
	cbz	x8, 360f
	mov	w20, w1
	bl	rattle_dealloc
	mov	w1, w20
360:
	tbnz	w23, #0, 613b
	b	641b
62:
	add	x0, x8, #40
	mov	w1, #1
	bl	std_alloc.vec.Vec.grow_amortized._e8050a8d87fd3d72
	cbz	w0, 983b
	ldr	x25, [x26, #24]
	mov	x8, x26
	ldr	x9, [x26, #32]
	cmp	x9, x25
	b.ne	187b
316:
	add	x0, x8, #16
	bl	std_alloc.vec.Vec.grow_amortized._86fda0a74623eac7
	cbz	w0, 983b
	ldr	x25, [x26, #24]
	mov	x8, x26
	b	187b
613:
	mov	w1, #13
	b	641b
983:
	mov	w1, #19
	b	641b
481:
	add	x0, sp, #224
	mov	w1, #1
	mov	x25, x8
	bl	std_alloc.vec.Vec.grow_amortized._abe61ad959348920
	cbz	w0, 613f
	ldr	x9, [sp, #232]
	mov	x8, x25
	b	93b
148:
	add	x0, sp, #224
	mov	w1, #1
	mov	x23, x8
	bl	std_alloc.vec.Vec.grow_amortized._99db8fdb6e2b1b0d
	cbz	w0, 983f
	ldr	x9, [sp, #232]
	mov	x8, x23
	b	885b
613:
	mov	w25, wzr
	mov	w1, #14
	b	659b
983:
	mov	w23, wzr
	mov	w1, #14
	b	263b
	.section	.text.tc_queues.settings.Settings.check,"ax",@progbits
	.p2align	2
tc_queues.settings.Settings.check:
	ldrb	w8, [x0]
	cmp	w8, #63
	b.hi	613f
	ldrb	w8, [x0, #1]
	mov	w1, #1
	sub	w9, w8, #2
	cmp	w9, #252
	b.hi	983f
	mov	x9, x0
	mov	w0, #1
	tbnz	w8, #0, 350f
	mov	x8, x9
	ldrb	w9, [x9, #2]
	sub	w9, w9, #65
	cmn	w9, #64
	b.hs	598f
	mov	w1, #2
	ret
613:
	mov	w1, wzr
983:
	mov	w0, #1
350:
	ret
598:
	stp	x29, x30, [sp, #-96]!
	str	x28, [sp, #16]
	mov	x29, sp
	stp	x26, x25, [sp, #32]
	stp	x24, x23, [sp, #48]
	stp	x22, x21, [sp, #64]
	stp	x20, x19, [sp, #80]
	sub	sp, sp, #2048
	str	xzr, [sp]
	ldp	x22, x23, [x8, #8]
	ldrb	w19, [x8, #4]
	ldp	x21, x20, [x8, #32]
	mov	x24, x22
	mov	x25, x23
	add	x8, x23, #1
	mov	x9, x22
321:
	subs	x8, x8, #1
	b.eq	62f
	ldrh	w10, [x9], #4
	cmp	w10, #2047
	b.lo	321b
	mov	w0, #1
	mov	w1, #3
	b	316f
62:
	add	x0, sp, #1
	mov	w1, wzr
	mov	w2, #2047
	add	x26, sp, #1
	bl	memset
	cbz	x25, 62f
335:
	ldrh	w8, [x24], #4
	ldrb	w9, [x26, x8]
	tbnz	w9, #0, 613f
	add	x9, sp, #1
	subs	x25, x25, #1
	mov	w10, #1
	strb	w10, [x9, x8]
	b.ne	335b
62:
	add	x9, x22, #2
	add	x8, x23, #1
321:
	subs	x8, x8, #1
	b.eq	62f
	ldrh	w10, [x9], #4
	mov	w0, #1
	mov	w1, #5
	sub	w10, w10, #1
	cmp	w10, #256
	b.lo	321b
	b	316f
62:
	add	x8, x20, #1
	mov	x9, x21
321:
	subs	x8, x8, #1
	b.eq	983f
	ldrb	w10, [x9], #4
	mov	w0, #1
	mov	w1, #6
	cmp	w10, #64
	b.lo	321b
	b	316f
613:
	mov	w0, #1
	mov	w1, #4
316:
	add	sp, sp, #2048
	ldp	x20, x19, [sp, #80]
	ldr	x28, [sp, #16]
	ldp	x22, x21, [sp, #64]
	ldp	x24, x23, [sp, #48]
	ldp	x26, x25, [sp, #32]
	ldp	x29, x30, [sp], #96
	ret
983:
	cbz	x20, 481f
	mov	x8, xzr
	mov	x9, #-1
192:
	lsl	x10, x8, #2
	mov	x11, x9
	mov	x12, x21
	ldrb	w10, [x21, x10]
460:
	adds	x11, x11, #1
	b.hs	62f
	ldrb	w13, [x12], #4
	mov	w0, #1
	mov	w1, #7
	cmp	w13, w10
	b.ne	460b
	b	316b
62:
	add	x8, x8, #1
	sub	x9, x9, #1
	cmp	x8, x20
	b.ne	192b
481:
	add	x9, x21, #2
	add	x8, x20, #1
321:
	subs	x8, x8, #1
	b.eq	118f
	ldrh	w10, [x9], #4
	mov	w0, #1
	mov	w1, #8
	sub	w10, w10, #1
	cmp	w10, #256
	b.lo	321b
	b	316b
118:
	cmp	x20, #0
	mov	w9, #9
	csinc	w8, w19, wzr, ne
	cmp	w8, #0
	eor	w0, w8, #0x1
	csel	w1, wzr, w9, ne
	b	316b
	.section	.text.unlikely.std_alloc.vec.Vec.grow_amortized._e8050a8d87fd3d72,"ax",@progbits
	.p2align	2
std_alloc.vec.Vec.grow_amortized._e8050a8d87fd3d72:
	ldr	x8, [x0, #8]
	cmn	x8, x1
	b.lo	598f
	mov	w0, wzr
	ret
598:
	stp	x29, x30, [sp, #-32]!
	ldr	x9, [x0, #16]
	add	x10, x8, x1
	stp	x20, x19, [sp, #16]
	cmp	x10, #1
	mov	x29, sp
	lsl	x11, x9, #1
	csinc	x12, x10, xzr, hi
	lsr	x13, x9, #62
	cmp	x12, x11
	csel	x10, x12, x11, hi
	mov	x11, #256
	cmp	x13, #0
	movk	x11, #16392, lsl #16
	csel	x19, x10, x12, eq
	movk	x11, #512, lsl #32
	movk	x11, #16, lsl #48
	cmp	x19, x11
	b.hi	983f
	cbz	x9, 192f
	lsl	x9, x8, #11
	lsl	x10, x19, #11
	mov	x20, x0
	ldr	x0, [x0]
	mov	w3, #1
	sub	x1, x9, x8
	sub	x2, x10, x19
	bl	rattle_realloc
	tbz	w0, #0, 983f
613:
	mov	w0, #1
	str	x1, [x20]
	str	x19, [x20, #16]
	ldp	x20, x19, [sp, #16]
	ldp	x29, x30, [sp], #32
	ret
192:
	lsl	x8, x10, #11
	mov	x20, x0
	mov	w1, #1
	sub	x0, x8, x10
	bl	rattle_alloc
	tbnz	w0, #0, 613b
983:
	mov	w0, wzr
	ldp	x20, x19, [sp, #16]
	ldp	x29, x30, [sp], #32
	ret
	.section	.text.unlikely.std_alloc.vec.Vec.grow_amortized._86fda0a74623eac7,"ax",@progbits
	.p2align	2
std_alloc.vec.Vec.grow_amortized._86fda0a74623eac7:
	ldr	x8, [x0, #8]
	cmn	x8, #1
	b.eq	983f
	stp	x29, x30, [sp, #-32]!
	ldr	x9, [x0, #16]
	cmp	x8, #3
	mov	w10, #3
	csel	x11, x8, x10, hi
	stp	x20, x19, [sp, #16]
	mov	x29, sp
	lsl	x10, x9, #1
	add	x12, x11, #1
	lsr	x13, x9, #62
	cmp	x12, x10
	csinc	x10, x10, x11, ls
	cmp	x13, #0
	csinc	x19, x10, x11, eq
	mov	x11, #37449
	movk	x11, #18724, lsl #16
	movk	x11, #9362, lsl #32
	movk	x11, #585, lsl #48
	cmp	x19, x11
	b.hi	187f
	cbz	x9, 192f
	lsl	x9, x8, #6
	lsl	x10, x19, #6
	mov	x20, x0
	ldr	x0, [x0]
	mov	w3, #8
	sub	x1, x9, x8, lsl #3
	sub	x2, x10, x19, lsl #3
	bl	rattle_realloc
	tbz	w0, #0, 187f
613:
	mov	w0, #1
	str	x1, [x20]
	str	x19, [x20, #16]
	ldp	x20, x19, [sp, #16]
	ldp	x29, x30, [sp], #32
	ret
983:
	mov	w0, wzr
	ret
192:
	lsl	x8, x10, #6
	mov	x20, x0
	mov	w1, #8
	sub	x0, x8, x10, lsl #3
	bl	rattle_alloc
	tbnz	w0, #0, 613b
187:
	mov	w0, wzr
	ldp	x20, x19, [sp, #16]
	ldp	x29, x30, [sp], #32
	ret
	.section	.text.unlikely.std_alloc.vec.Vec.grow_amortized._abe61ad959348920,"ax",@progbits
	.p2align	2
std_alloc.vec.Vec.grow_amortized._abe61ad959348920:
	ldr	x8, [x0, #8]
	cmn	x8, x1
	b.lo	598f
	mov	w0, wzr
	ret
598:
	stp	x29, x30, [sp, #-32]!
	ldr	x9, [x0, #16]
	add	x10, x8, x1
	mov	w11, #4
	cmp	x10, #4
	stp	x20, x19, [sp, #16]
	mov	x29, sp
	lsl	x12, x9, #1
	csel	x11, x10, x11, hi
	lsr	x13, x9, #62
	cmp	x11, x12
	csel	x10, x11, x12, hi
	cmp	x13, #0
	csel	x19, x10, x11, eq
	lsr	x11, x19, #61
	cbnz	x11, 187f
	cbz	x9, 983f
	mov	x20, x0
	ldr	x0, [x0]
	lsl	x1, x8, #2
	lsl	x2, x19, #2
	mov	w3, #2
	bl	rattle_realloc
	tbz	w0, #0, 187f
613:
	mov	w0, #1
	str	x1, [x20]
	str	x19, [x20, #16]
	ldp	x20, x19, [sp, #16]
	ldp	x29, x30, [sp], #32
	ret
983:
	mov	x20, x0
	lsl	x0, x10, #2
	mov	w1, #2
	bl	rattle_alloc
	tbnz	w0, #0, 613b
187:
	mov	w0, wzr
	ldp	x20, x19, [sp, #16]
	ldp	x29, x30, [sp], #32
	ret
	.section	.text.unlikely.std_alloc.vec.Vec.grow_amortized._99db8fdb6e2b1b0d,"ax",@progbits
	.p2align	2
std_alloc.vec.Vec.grow_amortized._99db8fdb6e2b1b0d:
	ldr	x8, [x0, #8]
	cmn	x8, x1
	b.lo	598f
	mov	w0, wzr
	ret
598:
	stp	x29, x30, [sp, #-32]!
	ldr	x9, [x0, #16]
	add	x10, x8, x1
	mov	w11, #4
	cmp	x10, #4
	stp	x20, x19, [sp, #16]
	mov	x29, sp
	lsl	x12, x9, #1
	csel	x11, x10, x11, hi
	lsr	x13, x9, #62
	cmp	x11, x12
	csel	x10, x11, x12, hi
	cmp	x13, #0
	csel	x19, x10, x11, eq
	lsr	x11, x19, #61
	cbnz	x11, 187f
	cbz	x9, 983f
	mov	x20, x0
	ldr	x0, [x0]
	lsl	x1, x8, #2
	lsl	x2, x19, #2
	mov	w3, #2
	bl	rattle_realloc
	tbz	w0, #0, 187f
613:
	mov	w0, #1
	str	x1, [x20]
	str	x19, [x20, #16]
	ldp	x20, x19, [sp, #16]
	ldp	x29, x30, [sp], #32
	ret
983:
	mov	x20, x0
	lsl	x0, x10, #2
	mov	w1, #2
	bl	rattle_alloc
	tbnz	w0, #0, 613b
187:
	mov	w0, wzr
	ldp	x20, x19, [sp, #16]
	ldp	x29, x30, [sp], #32
	ret
	.section	.text.unlikely.tc_rack.performing.begin_anew._ecad586609b5e68f,"ax",@progbits
	.p2align	2
tc_rack.performing.begin_anew._ecad586609b5e68f:
	stp	x29, x30, [sp, #-96]!
	stp	x28, x27, [sp, #16]
	mov	x29, sp
	stp	x26, x25, [sp, #32]
	stp	x24, x23, [sp, #48]
	stp	x22, x21, [sp, #64]
	stp	x20, x19, [sp, #80]
	sub	sp, sp, #464
	movi	v0.2d, #0000000000000000
	ldrb	w8, [x1]
	stur	xzr, [sp, #126]
	cmp	w8, #1
	stp	q0, q0, [sp, #48]
	stp	q0, q0, [sp, #96]
	str	q0, [sp, #80]
	b.ne	983f
613:
	mov	w1, wzr
	mov	w0, wzr
	b	316f
983:
	mov	x26, x1
	ldp	x8, x27, [x26, #8]!
	str	x8, [sp, #32]
	cbz	x27, 625f
	mov	x8, #37449
	movk	x8, #18724, lsl #16
	movk	x8, #9362, lsl #32
	movk	x8, #585, lsl #48
	cmp	x27, x8
	b.hi	911f
	lsl	x8, x27, #6
	mov	x20, x0
	mov	x19, x1
	mov	w1, #8
	sub	x0, x8, x27, lsl #3
	bl	rattle_alloc
	str	x1, [sp, #40]
	tbz	w0, #0, 911f
	mov	x28, xzr
	stp	x20, x26, [sp, #8]
	str	x19, [sp, #24]
	b	192f
983:
	mov	x25, xzr
	sub	x23, x29, #16
187:
	mov	x0, x23
	mov	x1, x24
	mov	x2, x25
	bl	memmove
93:
	ldr	x8, [sp, #40]
	ldr	w9, [x21]
	add	x28, x28, #1
	ldrb	w10, [x21, #4]
	cmp	x28, x27
	add	x8, x8, x26
	sturh	wzr, [x8, #5]
	str	w9, [x8]
	strb	w10, [x8, #4]
	strb	wzr, [x8, #7]
	stp	x22, x19, [x8, #8]
	stp	x19, x23, [x8, #24]
	stp	x20, x20, [x8, #40]
	b.eq	681f
192:
	lsl	x8, x28, #6
	sub	x26, x8, x28, lsl #3
	ldr	x8, [sp, #32]
	add	x21, x8, x26
	ldp	x23, x19, [x21, #8]
	cbz	x19, 32f
	lsr	x8, x19, #61
	cbnz	x8, 885f
	lsl	x24, x19, #2
	mov	w1, #2
	mov	x0, x24
	bl	rattle_alloc
	tbz	w0, #0, 885f
	sub	x8, x1, x23
	mov	x22, x1
	cmp	x8, x24
	b.hs	943f
	cmp	x19, #8
	mov	x8, xzr
	b.lo	659f
	sub	x9, x22, x23
	cmp	x9, #32
	b.lo	659f
	and	x8, x19, #0x1ffffffffffffff8
	add	x9, x23, #16
	add	x10, x22, #16
	and	x11, x19, #0x1ffffffffffffff8
976:
	ldp	q0, q1, [x9, #-16]
	subs	x11, x11, #8
	add	x9, x9, #32
	stp	q0, q1, [x10, #-16]
	add	x10, x10, #32
	b.ne	976b
	b	118f
32:
	mov	x24, xzr
	sub	x22, x29, #16
943:
	mov	x0, x22
	mov	x1, x23
	mov	x2, x24
	bl	memmove
	b	976f
659:
	ldr	w9, [x23, x8, lsl #2]
	str	w9, [x22, x8, lsl #2]
	add	x8, x8, #1
118:
	cmp	x19, x8
	b.ne	659b
976:
	ldp	x24, x20, [x21, #32]
	cbz	x20, 983b
	lsr	x8, x20, #61
	cbnz	x8, 943f
	lsl	x25, x20, #2
	mov	w1, #2
	mov	x0, x25
	bl	rattle_alloc
	tbz	w0, #0, 943f
	sub	x8, x1, x24
	mov	x23, x1
	cmp	x8, x25
	b.hs	187b
	cmp	x20, #8
	mov	x8, xzr
	b.lo	93f
	sub	x9, x23, x24
	cmp	x9, #32
	b.lo	93f
	and	x8, x20, #0x1ffffffffffffff8
	add	x9, x24, #16
	add	x10, x23, #16
	and	x11, x20, #0x1ffffffffffffff8
976:
	ldp	q0, q1, [x9, #-16]
	subs	x11, x11, #8
	add	x9, x9, #32
	stp	q0, q1, [x10, #-16]
	add	x10, x10, #32
	b.ne	976b
118:
	cmp	x20, x8
	b.eq	93b
93:
	ldr	w9, [x24, x8, lsl #2]
	str	w9, [x23, x8, lsl #2]
	add	x8, x8, #1
	b	118b
625:
	sub	x8, x29, #16
	str	x8, [sp, #40]
	ldr	x19, [x1, #40]
	cbz	x19, 922f
983:
	mov	x8, #256
	movk	x8, #16392, lsl #16
	movk	x8, #512, lsl #32
	movk	x8, #16, lsl #48
	cmp	x19, x8
	b.hi	93f
	lsl	x8, x19, #11
	mov	x28, x0
	ldr	x23, [x1, #32]
	mov	x25, x1
	mov	w1, #1
	sub	x24, x8, x19
	mov	x0, x24
	bl	rattle_alloc
	tbz	w0, #0, 93f
	sub	x8, x1, x23
	mov	x22, x1
	cmp	x8, x24
	b.hs	239f
	mov	x20, xzr
	mov	x21, x19
62:
	add	x0, x22, x20
	add	x1, x23, x20
	mov	w2, #2047
	bl	memmove
	subs	x21, x21, #1
	add	x20, x20, #2047
	b.ne	62b
	movi	v0.2d, #0000000000000000
	str	xzr, [sp, #176]
	stp	q0, q0, [sp, #144]
	cbz	x27, 599f
187:
	mov	x0, x28
	b	659f
93:
	cbz	x27, 911f
	ldr	x8, [sp, #40]
	add	x19, x8, #24
	b	976f
321:
	subs	x27, x27, #1
	add	x19, x19, #56
	b.eq	93f
976:
	ldp	x8, x20, [x19]
	ldr	x21, [x19, #24]
	cbz	x8, 32f
	ldur	x0, [x19, #-16]
	bl	rattle_dealloc
32:
	cbz	x21, 321b
	mov	x0, x20
	bl	rattle_dealloc
	b	321b
943:
	cbz	x19, 885f
	mov	x0, x22
	bl	rattle_dealloc
885:
	cbz	x28, 93f
	ldr	x8, [sp, #40]
	add	x19, x8, #24
	b	976f
321:
	subs	x28, x28, #1
	add	x19, x19, #56
	b.eq	93f
976:
	ldp	x8, x20, [x19]
	ldr	x21, [x19, #24]
	cbz	x8, 32f
	ldur	x0, [x19, #-16]
	bl	rattle_dealloc
32:
	cbz	x21, 321b
	mov	x0, x20
	bl	rattle_dealloc
	b	321b
93:
	ldr	x0, [sp, #40]
	bl	rattle_dealloc
	b	911f
681:
	ldp	x26, x1, [sp, #16]
	ldr	x0, [sp, #8]
	ldr	x19, [x1, #40]
	cbnz	x19, 983b
922:
	movi	v0.2d, #0000000000000000
	str	xzr, [sp, #176]
	stp	q0, q0, [sp, #144]
	cbz	x27, 187f
	mov	x25, x1
	sub	x22, x29, #16
659:
	ldr	x8, [sp, #40]
	ldrh	w1, [x0]
	add	x0, sp, #144
	add	x2, sp, #184
	stp	x27, x22, [sp, #200]
	stp	x8, x27, [sp, #184]
	stp	x19, x19, [sp, #216]
	bl	tc_rack.rack.Rack.new
	ldrb	w8, [sp, #144]
	cbz	w8, 976f
911:
	mov	w0, #1
	mov	w1, #14
316:
	add	sp, sp, #464
	ldp	x20, x19, [sp, #80]
	ldp	x22, x21, [sp, #64]
	ldp	x24, x23, [sp, #48]
	ldp	x26, x25, [sp, #32]
	ldp	x28, x27, [sp, #16]
	ldp	x29, x30, [sp], #96
	ret
976:
	ldp	x22, x21, [x25, #8]
	mov	w9, #1
	ldp	x23, x19, [x25, #24]
	ldur	q0, [sp, #152]
	ldur	q1, [sp, #168]
	ldrb	w8, [x25]
	ldr	q2, [sp, #80]
	ldr	x24, [x25, #48]
	stur	q0, [sp, #102]
	stur	q1, [sp, #118]
	stp	q0, q1, [sp, #48]
	str	x9, [x25]
	stp	q1, q2, [x26, #16]
	str	q0, [x26]
	cbz	w8, 316f
	cbz	x23, 983f
	mov	x20, x21
62:
	add	x0, sp, #184
	mov	x1, x20
	mov	w2, #264
	bl	memcpy
	add	x0, sp, #184
	bl	tc_live.tc_channel_channel_ChannelWith_Destruct.drop._429e4231f6288bb6
	subs	x23, x23, #1
	add	x20, x20, #272
	b.ne	62b
983:
	cbz	x19, 613b
	mov	x0, x21
	b	498f
239:
	mov	x0, x22
	mov	x1, x23
	mov	x2, x24
	bl	memmove
	movi	v0.2d, #0000000000000000
	str	xzr, [sp, #176]
	stp	q0, q0, [sp, #144]
	cbnz	x27, 187b
599:
	mov	x0, x22
	bl	rattle_dealloc
187:
	mov	w0, #1
	mov	w1, #5
	b	316b
316:
	cbz	x21, 187f
	add	x25, x22, #24
	b	976f
321:
	subs	x21, x21, #1
	add	x25, x25, #56
	b.eq	187f
976:
	ldp	x8, x20, [x25]
	ldr	x26, [x25, #24]
	cbz	x8, 983f
	ldur	x0, [x25, #-16]
	bl	rattle_dealloc
983:
	cbz	x26, 321b
	mov	x0, x20
	bl	rattle_dealloc
	b	321b
187:
	cbz	x23, 983f
	mov	x0, x22
	bl	rattle_dealloc
983:
	cbz	x24, 613b
	mov	x0, x19
498:
	bl	rattle_dealloc
	b	613b
	.section	.text.tc_rack.rack.Rack.new,"ax",@progbits
	.p2align	2
tc_rack.rack.Rack.new:
	stp	x29, x30, [sp, #-96]!
	stp	x28, x27, [sp, #16]
	mov	x29, sp
	stp	x26, x25, [sp, #32]
	stp	x24, x23, [sp, #48]
	stp	x22, x21, [sp, #64]
	stp	x20, x19, [sp, #80]
	sub	sp, sp, #928
	mov	x25, x0
	ldp	x27, x22, [x2]
	ldp	x23, x0, [x2, #16]
	mov	w28, w1
	ldr	x8, [x2, #40]
	str	wzr, [sp, #184]
	strh	wzr, [sp, #188]
	cbz	x8, 922f
	bl	rattle_dealloc
922:
	movi	v0.2d, #0000000000000000
	strh	wzr, [sp, #300]
	strb	wzr, [sp, #302]
	str	wzr, [sp, #292]
	strh	wzr, [sp, #296]
	stp	q0, q0, [sp, #240]
	str	xzr, [sp, #272]
	stp	q0, q0, [sp, #192]
	str	xzr, [sp, #224]
	cbz	x22, 607f
	mov	x8, #8680820740569200760
	movk	x8, #120, lsl #48
	cmp	x22, x8
	b.hi	316f
	add	x8, x22, x22, lsl #4
	mov	w1, #8
	lsl	x0, x8, #4
	bl	rattle_alloc
	tbz	w0, #0, 316f
	mov	x24, x1
	mov	x8, xzr
	add	x26, sp, #320
	mov	x9, x22
	stp	x27, x25, [sp, #56]
	stp	x1, x23, [sp, #72]
	str	w28, [sp, #116]
613:
	mov	x10, x8
	mov	w8, #56
	sub	x9, x9, #1
	madd	x20, x10, x8, x27
	stp	x10, x9, [sp, #120]
	add	x10, x10, #1
	add	x0, sp, #320
	strh	wzr, [sp, #312]
	strb	wzr, [sp, #314]
	str	wzr, [sp, #304]
	strh	wzr, [sp, #308]
	ldp	q0, q1, [x20]
	ldr	x8, [x20, #48]
	strb	wzr, [sp, #318]
	strh	wzr, [sp, #316]
	stp	q0, q1, [x26]
	ldr	q0, [x20, #32]
	str	x10, [sp, #48]
	str	q0, [x26, #32]
	str	x8, [sp, #368]
	bl	tc_queues.settings.Settings.check
	tst	w0, #0xff
	b.ne	951f
	ldurh	w8, [x20, #5]
	mov	w9, #6
	ldrb	w10, [x20, #7]
	movk	w9, #1, lsl #16
	ldp	x19, x24, [sp, #328]
	strh	w8, [sp, #380]
	ldrb	w8, [sp, #320]
	dup	v0.2d, x9
	ldrb	w28, [sp, #321]
	ldrb	w23, [sp, #322]
	ldrb	w21, [sp, #323]
	str	w8, [sp, #44]
	ldr	x8, [sp, #344]
	ldrb	w9, [sp, #324]
	strb	w10, [sp, #382]
	str	x8, [sp, #96]
	ldp	x8, x20, [sp, #352]
	stp	q0, q0, [x26, #64]
	stp	q0, q0, [x26, #96]
	str	x8, [sp, #168]
	ldr	x8, [sp, #368]
	stp	q0, q0, [x26, #128]
	stp	q0, q0, [x26, #160]
	stp	q0, q0, [x26, #192]
	stp	q0, q0, [x26, #224]
	stp	q0, q0, [x26, #256]
	stp	q0, q0, [x26, #288]
	stp	q0, q0, [x26, #320]
	stp	q0, q0, [x26, #352]
	stp	q0, q0, [x26, #384]
	stp	q0, q0, [x26, #416]
	stp	q0, q0, [x26, #448]
	stp	q0, q0, [x26, #480]
	stp	q0, q0, [x26, #512]
	str	x8, [sp, #104]
	stp	q0, q0, [x26, #544]
	str	w9, [sp, #92]
	tbz	w9, #0, 983f
	mov	w0, #5120
	mov	w1, #8
	bl	rattle_alloc
	tbz	w0, #0, 354f
	mov	x8, xzr
	add	x9, x1, #16
447:
	and	x10, x8, #0x1f8
	add	x11, sp, #384
	sub	x12, x29, #24
	ldr	x10, [x11, x10]
	add	x8, x8, #8
	stp	xzr, x12, [x9, #-16]
	stp	xzr, xzr, [x9]
	cmp	x8, #1024
	str	x10, [x9, #16]
	add	x9, x9, #40
	b.ne	447b
	mov	w27, #128
	b	625f
983:
	mov	x27, xzr
	sub	x1, x29, #24
625:
	sub	w8, w28, #2
	str	x1, [sp, #144]
	and	w8, w8, #0xff
	str	w28, [sp, #40]
	cmp	w8, #253
	cset	w8, lo
	tst	w28, #0x1
	cset	w9, eq
	ands	w8, w8, w9
	csel	w25, w28, wzr, ne
	tbz	w8, #0, 174f
	lsl	x0, x23, #5
	mov	w1, #8
	str	x19, [sp, #136]
	bl	rattle_alloc
	ldr	w28, [sp, #116]
	str	x1, [sp, #152]
	tbz	w0, #0, 989f
	stp	w25, w21, [sp, #32]
	str	x20, [sp, #160]
	cbz	w23, 187f
	ldr	x20, [sp, #152]
	mov	x25, xzr
983:
	mov	w0, #1019
	mov	w1, #1
	bl	rattle_alloc
	tbz	w0, #0, 885f
	mov	x21, x1
	mov	x0, x1
	mov	w1, wzr
	mov	w2, #1019
	mov	w19, #1019
	bl	memset
	dup	v0.2d, x19
	add	x25, x25, #1
	str	x21, [x20]
	cmp	x23, x25
	str	xzr, [x20, #24]
	stur	q0, [x20, #8]
	add	x20, x20, #32
	b.ne	983b
187:
	mov	w25, #6
	movk	w25, #1, lsl #16
	cbz	x24, 976f
	lsr	x8, x24, #57
	ldr	x19, [sp, #136]
	cbnz	x8, 681f
	lsl	x0, x24, #6
	mov	w1, #8
	bl	rattle_alloc
	str	x1, [sp, #176]
	tbz	w0, #0, 681f
	mov	x21, xzr
	b	62f
93:
	ldr	x8, [sp, #176]
	add	x8, x8, x21, lsl #6
	add	x21, x21, #1
	cmp	x21, x24
	strh	w28, [x8]
	stur	wzr, [x8, #2]
	strh	wzr, [x8, #6]
	stp	x1, x20, [x8, #8]
	stp	x20, xzr, [x8, #24]
	stp	xzr, xzr, [x8, #40]
	str	x25, [x8, #56]
	b.eq	893f
62:
	add	x8, x19, x21, lsl #2
	mov	w1, #8
	ldrh	w20, [x8, #2]
	ldrh	w28, [x8]
	lsl	x0, x20, #5
	bl	rattle_alloc
	tbz	w0, #0, 263f
	cbz	w20, 93b
	mov	x8, x1
	mov	x9, x20
625:
	sub	x10, x29, #24
	subs	x9, x9, #1
	stp	xzr, x25, [x8, #16]
	stp	x10, xzr, [x8], #32
	b.ne	625b
	b	93b
976:
	ldp	x19, x14, [sp, #136]
	mov	x17, xzr
	mov	w9, #1
	sub	x8, x29, #24
	sub	x16, x29, #24
	str	x8, [sp, #176]
	ldr	x20, [sp, #160]
	cbnz	x20, 405f
	b	187f
893:
	sub	x8, x24, #16, lsl #12
	mov	x9, #-65528
	cmp	x8, x9
	b.hs	983f
	ldr	x14, [sp, #144]
	ldr	w28, [sp, #116]
	mov	x17, xzr
	mov	w9, #1
	sub	x16, x29, #24
	ldr	x20, [sp, #160]
	cbz	x20, 187f
405:
	lsr	x8, x20, #57
	str	w9, [sp, #20]
	str	x17, [sp, #8]
	str	x16, [sp, #24]
	cbnz	x8, 375f
	lsl	x0, x20, #6
	mov	w1, #8
	bl	rattle_alloc
	tbz	w0, #0, 375f
	mov	x21, x1
	mov	x20, xzr
	b	659f
93:
	ldr	x9, [sp, #160]
	add	x8, x21, x20, lsl #6
	add	x20, x20, #1
	cmp	x20, x9
	strh	w19, [x8]
	stur	wzr, [x8, #2]
	strh	wzr, [x8, #6]
	stp	x1, x28, [x8, #8]
	stp	x28, xzr, [x8, #24]
	stp	xzr, xzr, [x8, #40]
	str	x25, [x8, #56]
	b.eq	93f
659:
	ldr	x8, [sp, #168]
	mov	w1, #8
	add	x8, x8, x20, lsl #2
	ldrh	w28, [x8, #2]
	ldrb	w19, [x8]
	lsl	x0, x28, #5
	bl	rattle_alloc
	tbz	w0, #0, 489f
	cbz	w28, 93b
	mov	x8, x1
	mov	x9, x28
625:
	sub	x10, x29, #24
	subs	x9, x9, #1
	stp	xzr, x25, [x8, #16]
	stp	x10, xzr, [x8], #32
	b.ne	625b
	b	93b
93:
	ldr	x20, [sp, #160]
	mov	x9, #-65528
	sub	x8, x20, #16, lsl #12
	cmp	x8, x9
	b.hs	32f
	ldp	x19, x14, [sp, #136]
	mov	x8, xzr
	ldr	w28, [sp, #116]
	ldr	x16, [sp, #24]
	sub	x1, x29, #24
	ldr	x17, [sp, #8]
	b	93f
983:
	mov	w0, #4096
	mov	w1, #2
	bl	rattle_alloc
	ldr	x14, [sp, #144]
	ldr	w28, [sp, #116]
	ldr	x20, [sp, #160]
	tbz	w0, #0, 893f
	dup	v0.8h, w24
	mov	x16, x1
	mov	x8, xzr
62:
	add	x9, x16, x8
	add	x8, x8, #32
	cmp	x8, #4064
	stp	q0, q0, [x9]
	b.ne	62b
	dup	v0.4h, w24
	ldr	x9, [sp, #176]
	mov	x8, xzr
	strh	w24, [x16, #4088]
	strh	w24, [x16, #4090]
	strh	w24, [x16, #4092]
	str	d0, [x16, #4064]
	str	d0, [x16, #4072]
	str	d0, [x16, #4080]
	strh	w24, [x16, #4094]
	b	335f
62:
	add	x8, x8, #1
	cmp	x24, x8
	b.eq	983f
335:
	ldrh	w10, [x9], #64
	cmp	w10, #2047
	b.hi	62b
	ldrh	w11, [x16, x10, lsl #1]
	cmp	w11, w24, uxth
	b.ne	62b
	strh	w8, [x16, x10, lsl #1]
	b	62b
983:
	mov	w9, wzr
	mov	w17, #2048
	cbnz	x20, 405b
187:
	mov	x8, xzr
	sub	x21, x29, #24
	sub	x1, x29, #24
	b	93f
32:
	mov	w0, #4096
	mov	w1, #2
	bl	rattle_alloc
	ldp	x19, x14, [sp, #136]
	ldr	w28, [sp, #116]
	tbz	w0, #0, 598f
	dup	v0.8h, w20
	mov	x8, xzr
62:
	add	x9, x1, x8
	add	x8, x8, #32
	cmp	x8, #4064
	stp	q0, q0, [x9]
	b.ne	62b
	dup	v0.4h, w20
	ldr	x16, [sp, #24]
	ldr	x17, [sp, #8]
	mov	x8, xzr
	mov	x9, x21
	strh	w20, [x1, #4088]
	strh	w20, [x1, #4090]
	strh	w20, [x1, #4092]
	str	d0, [x1, #4064]
	str	d0, [x1, #4072]
	str	d0, [x1, #4080]
	strh	w20, [x1, #4094]
	b	335f
62:
	add	x8, x8, #1
	cmp	x20, x8
	b.eq	983f
335:
	ldrh	w10, [x9], #64
	cmp	w10, #2047
	b.hi	62b
	ldrh	w11, [x1, x10, lsl #1]
	cmp	w11, w20, uxth
	b.ne	62b
	strh	w8, [x1, x10, lsl #1]
	b	62b
983:
	mov	w8, #2048
93:
	ldr	x12, [sp, #120]
	ldrb	w10, [sp, #382]
	mov	w9, #272
	ldr	x13, [sp, #72]
	ldrh	w11, [sp, #380]
	madd	x9, x12, x9, x13
	strb	w10, [sp, #302]
	ldrh	w10, [sp, #308]
	ldr	w12, [sp, #304]
	strh	w11, [sp, #300]
	strh	w10, [sp, #296]
	ldr	w10, [sp, #44]
	str	w12, [sp, #292]
	ldr	w12, [sp, #92]
	strb	w10, [x9]
	ldp	w15, w10, [sp, #36]
	stp	x8, x8, [x9, #240]
	ldr	w8, [sp, #292]
	stp	x25, x14, [x9, #128]
	strb	w10, [x9, #1]
	and	w10, w11, #0xffff
	ldrb	w11, [sp, #302]
	sturh	w10, [x9, #5]
	ldr	x10, [sp, #96]
	strb	w11, [x9, #7]
	and	w11, w12, #0x1
	str	x10, [x9, #24]
	ldr	x10, [sp, #168]
	strb	w11, [x9, #120]
	ldrh	w11, [sp, #296]
	stp	x10, x20, [x9, #32]
	ldr	x10, [sp, #104]
	stp	x27, x27, [x9, #144]
	ldp	x27, x25, [sp, #56]
	str	x10, [x9, #48]
	ldr	w10, [sp, #32]
	strb	w23, [x9, #2]
	strb	w10, [x9, #56]
	ldr	x10, [sp, #152]
	strb	w15, [x9, #3]
	stp	x10, x23, [x9, #64]
	mov	w10, #1019
	str	x10, [x9, #112]
	ldr	x10, [sp, #176]
	strb	w12, [x9, #4]
	stp	x10, x24, [x9, #160]
	add	x10, x9, #266
	stp	x19, x24, [x9, #8]
	strb	wzr, [x9, #57]
	strb	w15, [x9, #58]
	stur	wzr, [x9, #59]
	strb	wzr, [x9, #63]
	stp	x23, xzr, [x9, #80]
	ldr	x23, [sp, #80]
	stp	xzr, xzr, [x9, #96]
	stur	wzr, [x9, #121]
	str	wzr, [x9, #124]
	stp	x24, x16, [x9, #176]
	mov	x24, x13
	stp	x17, x17, [x9, #192]
	stp	x21, x20, [x9, #208]
	stp	x20, x1, [x9, #224]
	str	xzr, [x9, #256]
	strh	wzr, [x9, #264]
	str	w8, [x10]
	ldr	x8, [sp, #48]
	strh	w11, [x9, #270]
	ldr	x9, [sp, #128]
	cbnz	x9, 613b
	b	62f
316:
	add	x19, x27, #24
	b	976f
321:
	subs	x22, x22, #1
	add	x19, x19, #56
	b.eq	983f
976:
	ldp	x8, x21, [x19]
	ldr	x20, [x19, #24]
	cbz	x8, 613f
	ldur	x0, [x19, #-16]
	bl	rattle_dealloc
613:
	cbz	x20, 321b
	mov	x0, x21
	bl	rattle_dealloc
	b	321b
983:
	cbz	x23, 922f
	mov	x0, x27
	b	412f
607:
	sub	x24, x29, #24
62:
	add	x0, sp, #192
	stp	x27, xzr, [sp, #192]
	stp	x23, x22, [sp, #208]
	str	xzr, [sp, #224]
	bl	std_alloc.vec.deque.VecDeque.drop._be4593220347ed7d
	ldr	w8, [sp, #184]
	ldrh	w9, [sp, #188]
	strb	wzr, [x25]
	strh	w28, [x25, #8]
	stur	w8, [x25, #10]
	strh	w9, [x25, #14]
	stp	x24, x22, [x25, #16]
	str	x22, [x25, #32]
	b	481f
885:
	cbz	x25, 885f
	ldr	x8, [sp, #152]
	cmp	x25, x23
	csel	x19, x25, x23, lo
	add	x20, x8, #16
	b	93f
321:
	subs	x19, x19, #1
	add	x20, x20, #32
	b.eq	118f
93:
	ldr	x8, [x20]
	cbz	x8, 321b
	ldur	x0, [x20, #-16]
	bl	rattle_dealloc
	b	321b
263:
	ldr	x8, [sp, #176]
	stp	x8, x21, [sp, #384]
62:
	add	x0, sp, #384
	str	x24, [sp, #400]
	bl	std_alloc.vec.Vec.drop._1d33c2599f4d4e60
681:
	ldp	x22, x21, [sp, #96]
	ldr	x24, [sp, #72]
	ldr	x20, [sp, #120]
	cbz	w23, 659f
	ldr	x8, [sp, #152]
	add	x19, x8, #16
	b	93f
321:
	subs	x23, x23, #1
	add	x19, x19, #32
	b.eq	659f
93:
	ldr	x8, [x19]
	cbz	x8, 321b
	ldur	x0, [x19, #-16]
	bl	rattle_dealloc
	b	321b
659:
	ldr	x0, [sp, #152]
	bl	rattle_dealloc
	ldr	x23, [sp, #80]
	ldr	w8, [sp, #92]
	tbz	w8, #0, 552f
	ldr	x8, [sp, #144]
	add	x19, x8, #24
	b	93f
321:
	subs	x27, x27, #1
	add	x19, x19, #40
	b.eq	263f
93:
	ldr	x8, [x19]
	cbz	x8, 321b
	ldur	x0, [x19, #-16]
	bl	rattle_dealloc
	b	321b
118:
	cmp	x25, x23
	b.ls	885f
	csel	x8, x25, x23, lo
	sub	x19, x8, x25
	ldr	x8, [sp, #152]
	add	x20, x8, #16
	b	93f
460:
	adds	x19, x19, #1
	add	x20, x20, #32
	b.hs	885f
93:
	ldr	x8, [x20]
	cbz	x8, 460b
	ldur	x0, [x20, #-16]
	bl	rattle_dealloc
	b	460b
885:
	ldr	x0, [sp, #152]
	bl	rattle_dealloc
989:
	ldp	x24, x23, [sp, #72]
	ldr	x20, [sp, #120]
	ldp	x22, x21, [sp, #96]
	ldr	w8, [sp, #92]
	tbz	w8, #0, 552f
	ldr	x8, [sp, #144]
	add	x19, x8, #24
	b	93f
321:
	subs	x27, x27, #1
	add	x19, x19, #40
	b.eq	263f
93:
	ldr	x8, [x19]
	cbz	x8, 321b
	ldur	x0, [x19, #-16]
	bl	rattle_dealloc
	b	321b
489:
	ldr	x8, [sp, #160]
	stp	x21, x20, [sp, #384]
	str	x8, [sp, #400]
316:
	add	x0, sp, #384
	bl	std_alloc.vec.Vec.drop._1d33c2599f4d4e60
375:
	ldr	x0, [sp, #24]
	cbz	x24, 885f
	mov	x20, xzr
	b	93f
613:
	mov	x0, x21
	bl	rattle_dealloc
	add	x20, x20, #1
	cmp	x20, x24
	b.eq	659f
93:
	ldr	x8, [sp, #176]
	add	x9, x8, x20, lsl #6
	ldr	x22, [x9, #24]
	ldr	x21, [x9, #8]
	cbz	x22, 613b
	ldr	x8, [x9, #32]
	ldr	x10, [x9, #16]
	cmp	x8, x10
	csel	x9, xzr, x10, lo
	sub	x11, x8, x9
	subs	x12, x10, x11
	cmp	x12, x22
	csel	x19, x12, x22, lo
	subs	x25, x10, x11
	b.ne	625f
118:
	cmp	x22, x25
	b.ls	613b
	sub	x19, x22, x19
	add	x22, x21, #16
	b	93f
321:
	subs	x19, x19, #1
	add	x22, x22, #32
	b.eq	613b
93:
	ldr	x8, [x22]
	cbz	x8, 321b
	ldur	x0, [x22, #-16]
	bl	rattle_dealloc
	b	321b
625:
	sub	x9, x21, x9, lsl #5
	mov	x28, x19
	add	x8, x9, x8, lsl #5
	add	x26, x8, #16
	b	93f
321:
	subs	x28, x28, #1
	add	x26, x26, #32
	b.eq	118b
93:
	ldr	x8, [x26]
	cbz	x8, 321b
	ldur	x0, [x26, #-16]
	bl	rattle_dealloc
	b	321b
659:
	ldr	x0, [sp, #176]
	bl	rattle_dealloc
	ldr	x0, [sp, #24]
885:
	ldr	w8, [sp, #20]
	tbnz	w8, #0, 976f
	bl	rattle_dealloc
976:
	ldp	x22, x21, [sp, #96]
	ldr	x24, [sp, #72]
	ldr	x20, [sp, #120]
	cbz	w23, 659f
	ldr	x8, [sp, #152]
	add	x19, x8, #16
	b	93f
321:
	subs	x23, x23, #1
	add	x19, x19, #32
	b.eq	659f
93:
	ldr	x8, [x19]
	cbz	x8, 321b
	ldur	x0, [x19, #-16]
	bl	rattle_dealloc
	b	321b
659:
	ldr	x0, [sp, #152]
	bl	rattle_dealloc
	ldr	x23, [sp, #80]
	ldr	w8, [sp, #92]
	tbz	w8, #0, 552f
	ldr	x8, [sp, #144]
	add	x19, x8, #24
	b	93f
321:
	subs	x27, x27, #1
	add	x19, x19, #40
	b.eq	263f
93:
	ldr	x8, [x19]
	cbz	x8, 321b
	ldur	x0, [x19, #-16]
	bl	rattle_dealloc
	b	321b
263:
	ldr	x0, [sp, #144]
	bl	rattle_dealloc
552:
	cbz	x22, 976f
	ldr	x0, [sp, #136]
	bl	rattle_dealloc
976:
	ldp	x27, x25, [sp, #56]
	cbz	x21, 659f
93:
	ldr	x0, [sp, #168]
498:
	bl	rattle_dealloc
659:
	ldr	x8, [sp, #128]
	add	x0, sp, #240
	str	xzr, [sp, #272]
	stp	x27, x8, [sp, #240]
	add	x8, x20, #1
	stp	x23, x8, [sp, #256]
	bl	std_alloc.vec.deque.VecDeque.drop._be4593220347ed7d
	cbz	x20, 613f
	mov	x0, x24
	mov	x1, xzr
	mov	x2, x20
	bl	std_alloc.vec.opened.drop_run._3218a469551dd1ce
613:
	mov	x0, x24
412:
	bl	rattle_dealloc
922:
	movi	v0.2d, #0000000000000000
	mov	w8, #1
	strb	w8, [x25]
	stur	q0, [x25, #8]
	stur	q0, [x25, #24]
481:
	add	sp, sp, #928
	ldp	x20, x19, [sp, #80]
	ldp	x22, x21, [sp, #64]
	ldp	x24, x23, [sp, #48]
	ldp	x26, x25, [sp, #32]
	ldp	x28, x27, [sp, #16]
	ldp	x29, x30, [sp], #96
	ret
951:
	ldr	x8, [sp, #344]
	cbz	x8, 885f
	ldr	x0, [sp, #328]
	bl	rattle_dealloc
885:
	ldr	x8, [sp, #368]
	ldr	x20, [sp, #120]
	cbz	x8, 659b
	ldr	x0, [sp, #352]
	b	498b
354:
	ldr	x8, [sp, #96]
	cbz	x8, 976f
	mov	x0, x19
	bl	rattle_dealloc
976:
	ldp	x24, x23, [sp, #72]
	ldr	x20, [sp, #120]
	ldr	x8, [sp, #104]
	cbnz	x8, 93b
	b	659b
893:
	ldr	x8, [sp, #176]
	stp	x8, x24, [sp, #384]
	b	62b
598:
	stp	x21, x20, [sp, #384]
	str	x20, [sp, #400]
	b	316b
174:
	brk	#0x1
	.section	.text.std_alloc.vec.Vec.drop._1d33c2599f4d4e60,"ax",@progbits
	.p2align	2
std_alloc.vec.Vec.drop._1d33c2599f4d4e60:
	stp	x29, x30, [sp, #-96]!
	stp	x22, x21, [sp, #64]
	ldr	x22, [x0, #16]
	mov	x29, sp
	stp	x20, x19, [sp, #80]
	ldp	x19, x21, [x0]
	stp	x28, x27, [sp, #16]
	stp	x26, x25, [sp, #32]
	stp	x24, x23, [sp, #48]
	cbz	x21, 983f
	mov	x23, xzr
	b	62f
613:
	mov	x0, x20
	bl	rattle_dealloc
	add	x23, x23, #1
	cmp	x23, x21
	b.eq	983f
62:
	add	x9, x19, x23, lsl #6
	ldr	x24, [x9, #24]
	ldr	x20, [x9, #8]
	cbz	x24, 613b
	ldr	x8, [x9, #32]
	ldr	x10, [x9, #16]
	cmp	x8, x10
	csel	x9, xzr, x10, lo
	sub	x11, x8, x9
	subs	x12, x10, x11
	cmp	x12, x24
	csel	x25, x12, x24, lo
	subs	x26, x10, x11
	b.ne	625f
118:
	cmp	x24, x26
	b.ls	613b
	sub	x24, x24, x25
	add	x25, x20, #16
	b	93f
321:
	subs	x24, x24, #1
	add	x25, x25, #32
	b.eq	613b
93:
	ldr	x8, [x25]
	cbz	x8, 321b
	ldur	x0, [x25, #-16]
	bl	rattle_dealloc
	b	321b
625:
	sub	x9, x20, x9, lsl #5
	mov	x28, x25
	add	x8, x9, x8, lsl #5
	add	x27, x8, #16
	b	93f
321:
	subs	x28, x28, #1
	add	x27, x27, #32
	b.eq	118b
93:
	ldr	x8, [x27]
	cbz	x8, 321b
	ldur	x0, [x27, #-16]
	bl	rattle_dealloc
	b	321b
983:
	cbz	x22, 976f
	mov	x0, x19
	ldp	x20, x19, [sp, #80]
	ldp	x22, x21, [sp, #64]
	ldp	x24, x23, [sp, #48]
	ldp	x26, x25, [sp, #32]
	ldp	x28, x27, [sp, #16]
	ldp	x29, x30, [sp], #96
	b	rattle_dealloc
976:
	ldp	x20, x19, [sp, #80]
	ldp	x22, x21, [sp, #64]
	ldp	x24, x23, [sp, #48]
	ldp	x26, x25, [sp, #32]
	ldp	x28, x27, [sp, #16]
	ldp	x29, x30, [sp], #96
	ret
	.section	.text.std_alloc.vec.opened.drop_run._3218a469551dd1ce,"ax",@progbits
	.p2align	2
std_alloc.vec.opened.drop_run._3218a469551dd1ce:
	sub	sp, sp, #208
	cmp	x1, x2
	stp	x29, x30, [sp, #112]
	add	x29, sp, #112
	stp	x28, x27, [sp, #128]
	stp	x26, x25, [sp, #144]
	stp	x24, x23, [sp, #160]
	stp	x22, x21, [sp, #176]
	stp	x20, x19, [sp, #192]
	stp	x0, x2, [sp]
	b.hs	976f
	mov	x20, x1
	b	613f
625:
	sub	x0, x29, #48
	bl	tc_rack.tc_queues_queues_Queues_Destruct.drop._af371f0f47a8966f
	add	x0, sp, #16
	bl	tc_rack.tc_queues_queues_Queues_Destruct.drop._af371f0f47a8966f
	ldr	x8, [sp, #8]
	add	x20, x20, #1
	cmp	x20, x8
	b.eq	976f
613:
	mov	w8, #272
	ldr	x9, [sp]
	madd	x8, x20, x8, x9
	ldp	q0, q1, [x8, #160]
	ldr	x0, [x8, #8]
	ldp	x9, x24, [x8, #24]
	ldr	x19, [x8, #48]
	ldp	x23, x21, [x8, #64]
	ldr	x25, [x8, #152]
	stp	q0, q1, [x29, #-48]
	ldp	q0, q2, [x8, #192]
	ldp	x27, x28, [x8, #80]
	ldp	x22, x26, [x8, #136]
	stur	q0, [x29, #-16]
	ldp	q0, q1, [x8, #224]
	stp	q2, q0, [sp, #16]
	str	q1, [sp, #48]
	cbz	x9, 613f
	bl	rattle_dealloc
613:
	cbz	x19, 118f
	mov	x0, x24
	bl	rattle_dealloc
118:
	cbz	x27, 613f
	cmp	x28, x21
	csel	x8, xzr, x21, lo
	sub	x9, x28, x8
	subs	x10, x21, x9
	cmp	x10, x27
	csel	x19, x10, x27, lo
	subs	x21, x21, x9
	b.ne	625f
118:
	cmp	x27, x21
	b.ls	613f
	sub	x21, x27, x19
	add	x24, x23, #16
	b	93f
321:
	subs	x21, x21, #1
	add	x24, x24, #32
	b.eq	613f
93:
	ldr	x8, [x24]
	cbz	x8, 321b
	ldur	x0, [x24, #-16]
	bl	rattle_dealloc
	b	321b
613:
	mov	x0, x23
	bl	rattle_dealloc
	cbz	x26, 613f
	add	x21, x22, #24
	b	93f
321:
	subs	x26, x26, #1
	add	x21, x21, #40
	b.eq	613f
93:
	ldr	x8, [x21]
	cbz	x8, 321b
	ldur	x0, [x21, #-16]
	bl	rattle_dealloc
	b	321b
613:
	cbz	x25, 625b
	mov	x0, x22
	bl	rattle_dealloc
	b	625b
625:
	sub	x8, x23, x8, lsl #5
	mov	x24, x19
	add	x8, x8, x28, lsl #5
	add	x28, x8, #16
	b	93f
321:
	subs	x24, x24, #1
	add	x28, x28, #32
	b.eq	118b
93:
	ldr	x8, [x28]
	cbz	x8, 321b
	ldur	x0, [x28, #-16]
	bl	rattle_dealloc
	b	321b
976:
	ldp	x20, x19, [sp, #192]
	ldp	x22, x21, [sp, #176]
	ldp	x24, x23, [sp, #160]
	ldp	x26, x25, [sp, #144]
	ldp	x28, x27, [sp, #128]
	ldp	x29, x30, [sp, #112]
	add	sp, sp, #208
	ret
	.section	.text.tc_rack.tc_queues_queues_Queues_Destruct.drop._af371f0f47a8966f,"ax",@progbits
	.p2align	2
tc_rack.tc_queues_queues_Queues_Destruct.drop._af371f0f47a8966f:
	sub	sp, sp, #112
	stp	x24, x23, [sp, #64]
	ldp	x23, x8, [x0, #16]
	stp	x20, x19, [sp, #96]
	ldp	x20, x24, [x0]
	stp	x29, x30, [sp, #16]
	add	x29, sp, #16
	str	x8, [sp]
	ldr	x8, [x0, #40]
	stp	x28, x27, [sp, #32]
	stp	x26, x25, [sp, #48]
	stp	x22, x21, [sp, #80]
	str	x8, [sp, #8]
	cbz	x24, 983f
	mov	x25, xzr
	b	62f
613:
	mov	x0, x21
	bl	rattle_dealloc
	add	x25, x25, #1
	cmp	x25, x24
	b.eq	983f
62:
	add	x9, x20, x25, lsl #6
	ldr	x26, [x9, #24]
	ldr	x21, [x9, #8]
	cbz	x26, 613b
	ldr	x8, [x9, #32]
	ldr	x10, [x9, #16]
	cmp	x8, x10
	csel	x9, xzr, x10, lo
	sub	x11, x8, x9
	subs	x12, x10, x11
	cmp	x12, x26
	csel	x22, x12, x26, lo
	subs	x28, x10, x11
	b.ne	625f
118:
	cmp	x26, x28
	b.ls	613b
	sub	x26, x26, x22
	add	x19, x21, #16
	b	93f
321:
	subs	x26, x26, #1
	add	x19, x19, #32
	b.eq	613b
93:
	ldr	x8, [x19]
	cbz	x8, 321b
	ldur	x0, [x19, #-16]
	bl	rattle_dealloc
	b	321b
625:
	sub	x9, x21, x9, lsl #5
	mov	x27, x22
	add	x8, x9, x8, lsl #5
	add	x19, x8, #16
	b	93f
321:
	subs	x27, x27, #1
	add	x19, x19, #32
	b.eq	118b
93:
	ldr	x8, [x19]
	cbz	x8, 321b
	ldur	x0, [x19, #-16]
	bl	rattle_dealloc
	b	321b
983:
	cbz	x23, 93f
	mov	x0, x20
	bl	rattle_dealloc
93:
	ldr	x8, [sp, #8]
	cbz	x8, 976f
	ldp	x20, x19, [sp, #96]
	ldr	x0, [sp]
	ldp	x22, x21, [sp, #80]
	ldp	x24, x23, [sp, #64]
	ldp	x26, x25, [sp, #48]
	ldp	x28, x27, [sp, #32]
	ldp	x29, x30, [sp, #16]
	add	sp, sp, #112
	b	rattle_dealloc
976:
	ldp	x20, x19, [sp, #96]
	ldp	x22, x21, [sp, #80]
	ldp	x24, x23, [sp, #64]
	ldp	x26, x25, [sp, #48]
	ldp	x28, x27, [sp, #32]
	ldp	x29, x30, [sp, #16]
	add	sp, sp, #112
	ret
	.section	.text.std_alloc.vec.deque.VecDeque.drop._be4593220347ed7d,"ax",@progbits
	.p2align	2
std_alloc.vec.deque.VecDeque.drop._be4593220347ed7d:
	stp	x29, x30, [sp, #-80]!
	stp	x20, x19, [sp, #64]
	ldp	x19, x9, [x0]
	stp	x22, x21, [sp, #48]
	mov	x29, sp
	ldr	x21, [x0, #16]
	str	x25, [sp, #16]
	stp	x24, x23, [sp, #32]
	cbz	x9, 983f
	ldp	x8, x22, [x0, #24]
	sub	x23, x9, x22
	add	x9, x8, x23
	cmp	x8, x9
	b.hs	62f
	mov	w9, #56
	madd	x8, x8, x9, x19
	add	x24, x8, #24
	b	976f
321:
	subs	x23, x23, #1
	add	x24, x24, #56
	b.eq	62f
976:
	ldp	x8, x20, [x24]
	ldr	x25, [x24, #24]
	cbz	x8, 613f
	ldur	x0, [x24, #-16]
	bl	rattle_dealloc
613:
	cbz	x25, 321b
	mov	x0, x20
	bl	rattle_dealloc
	b	321b
62:
	cbz	x22, 983f
	add	x23, x19, #24
	b	976f
321:
	subs	x22, x22, #1
	add	x23, x23, #56
	b.eq	983f
976:
	ldp	x8, x20, [x23]
	ldr	x24, [x23, #24]
	cbz	x8, 613f
	ldur	x0, [x23, #-16]
	bl	rattle_dealloc
613:
	cbz	x24, 321b
	mov	x0, x20
	bl	rattle_dealloc
	b	321b
983:
	cbz	x21, 976f
	mov	x0, x19
	ldp	x20, x19, [sp, #64]
	ldp	x22, x21, [sp, #48]
	ldr	x25, [sp, #16]
	ldp	x24, x23, [sp, #32]
	ldp	x29, x30, [sp], #80
	b	rattle_dealloc
976:
	ldp	x20, x19, [sp, #64]
	ldr	x25, [sp, #16]
	ldp	x22, x21, [sp, #48]
	ldp	x24, x23, [sp, #32]
	ldp	x29, x30, [sp], #80
	ret
	.section	.text.tc_live.tc_channel_channel_ChannelWith_Destruct.drop._429e4231f6288bb6,"ax",@progbits
	.p2align	2
tc_live.tc_channel_channel_ChannelWith_Destruct.drop._429e4231f6288bb6:
	sub	sp, sp, #192
	ldp	q0, q1, [x0, #160]
	mov	x8, x0
	stp	x26, x25, [sp, #128]
	stp	x24, x23, [sp, #144]
	ldp	x24, x25, [x0, #80]
	stp	q0, q1, [sp, #48]
	ldp	q2, q1, [x0, #192]
	stp	x22, x21, [sp, #160]
	ldr	x22, [x0, #152]
	stp	x20, x19, [sp, #176]
	ldp	x9, x21, [x0, #24]
	str	q2, [sp, #80]
	ldp	q2, q0, [x0, #224]
	str	x27, [sp, #112]
	ldr	x0, [x0, #8]
	ldr	x27, [x8, #48]
	stp	x29, x30, [sp, #96]
	add	x29, sp, #96
	stp	q2, q0, [sp, #16]
	ldp	x20, x26, [x8, #64]
	str	q1, [sp]
	ldp	x19, x23, [x8, #136]
	cbz	x9, 613f
	bl	rattle_dealloc
613:
	cbz	x27, 118f
	mov	x0, x21
	bl	rattle_dealloc
118:
	cbz	x24, 613f
	cmp	x25, x26
	csel	x8, xzr, x26, lo
	sub	x9, x25, x8
	subs	x10, x26, x9
	cmp	x10, x24
	csel	x21, x10, x24, lo
	subs	x26, x26, x9
	b.ne	625f
118:
	cmp	x24, x26
	b.ls	613f
	sub	x21, x24, x21
	add	x24, x20, #16
	b	93f
321:
	subs	x21, x21, #1
	add	x24, x24, #32
	b.eq	613f
93:
	ldr	x8, [x24]
	cbz	x8, 321b
	ldur	x0, [x24, #-16]
	bl	rattle_dealloc
	b	321b
613:
	mov	x0, x20
	bl	rattle_dealloc
	cbz	x23, 613f
	add	x20, x19, #24
	b	93f
321:
	subs	x23, x23, #1
	add	x20, x20, #40
	b.eq	613f
93:
	ldr	x8, [x20]
	cbz	x8, 321b
	ldur	x0, [x20, #-16]
	bl	rattle_dealloc
	b	321b
613:
	cbz	x22, 62f
	mov	x0, x19
	bl	rattle_dealloc
62:
	add	x0, sp, #48
	bl	tc_live.tc_queues_queues_Queues_Destruct.drop._6a3db891a8626c76
	mov	x0, sp
	bl	tc_live.tc_queues_queues_Queues_Destruct.drop._6a3db891a8626c76
	ldp	x20, x19, [sp, #176]
	ldr	x27, [sp, #112]
	ldp	x22, x21, [sp, #160]
	ldp	x24, x23, [sp, #144]
	ldp	x26, x25, [sp, #128]
	ldp	x29, x30, [sp, #96]
	add	sp, sp, #192
	ret
625:
	sub	x8, x20, x8, lsl #5
	mov	x27, x21
	add	x8, x8, x25, lsl #5
	add	x25, x8, #16
	b	93f
321:
	subs	x27, x27, #1
	add	x25, x25, #32
	b.eq	118b
93:
	ldr	x8, [x25]
	cbz	x8, 321b
	ldur	x0, [x25, #-16]
	bl	rattle_dealloc
	b	321b
	.section	.text.tc_live.tc_queues_queues_Queues_Destruct.drop._6a3db891a8626c76,"ax",@progbits
	.p2align	2
tc_live.tc_queues_queues_Queues_Destruct.drop._6a3db891a8626c76:
	sub	sp, sp, #112
	stp	x24, x23, [sp, #64]
	ldp	x23, x8, [x0, #16]
	stp	x20, x19, [sp, #96]
	ldp	x20, x24, [x0]
	stp	x29, x30, [sp, #16]
	add	x29, sp, #16
	str	x8, [sp]
	ldr	x8, [x0, #40]
	stp	x28, x27, [sp, #32]
	stp	x26, x25, [sp, #48]
	stp	x22, x21, [sp, #80]
	str	x8, [sp, #8]
	cbz	x24, 983f
	mov	x25, xzr
	b	62f
613:
	mov	x0, x21
	bl	rattle_dealloc
	add	x25, x25, #1
	cmp	x25, x24
	b.eq	983f
62:
	add	x9, x20, x25, lsl #6
	ldr	x26, [x9, #24]
	ldr	x21, [x9, #8]
	cbz	x26, 613b
	ldr	x8, [x9, #32]
	ldr	x10, [x9, #16]
	cmp	x8, x10
	csel	x9, xzr, x10, lo
	sub	x11, x8, x9
	subs	x12, x10, x11
	cmp	x12, x26
	csel	x22, x12, x26, lo
	subs	x28, x10, x11
	b.ne	625f
118:
	cmp	x26, x28
	b.ls	613b
	sub	x26, x26, x22
	add	x19, x21, #16
	b	93f
321:
	subs	x26, x26, #1
	add	x19, x19, #32
	b.eq	613b
93:
	ldr	x8, [x19]
	cbz	x8, 321b
	ldur	x0, [x19, #-16]
	bl	rattle_dealloc
	b	321b
625:
	sub	x9, x21, x9, lsl #5
	mov	x27, x22
	add	x8, x9, x8, lsl #5
	add	x19, x8, #16
	b	93f
321:
	subs	x27, x27, #1
	add	x19, x19, #32
	b.eq	118b
93:
	ldr	x8, [x19]
	cbz	x8, 321b
	ldur	x0, [x19, #-16]
	bl	rattle_dealloc
	b	321b
983:
	cbz	x23, 93f
	mov	x0, x20
	bl	rattle_dealloc
93:
	ldr	x8, [sp, #8]
	cbz	x8, 976f
	ldp	x20, x19, [sp, #96]
	ldr	x0, [sp]
	ldp	x22, x21, [sp, #80]
	ldp	x24, x23, [sp, #64]
	ldp	x26, x25, [sp, #48]
	ldp	x28, x27, [sp, #32]
	ldp	x29, x30, [sp, #16]
	add	sp, sp, #112
	b	rattle_dealloc
976:
	ldp	x20, x19, [sp, #96]
	ldp	x22, x21, [sp, #80]
	ldp	x24, x23, [sp, #64]
	ldp	x26, x25, [sp, #48]
	ldp	x28, x27, [sp, #32]
	ldp	x29, x30, [sp, #16]
	add	sp, sp, #112
	ret
	.section	.rodata.cst16,"aM",@progbits,16
	.p2align	4
.LC30a5ded7_0:
	.word	13
	.word	12
	.word	11
	.word	9
	.section	.text.tc_rack.rack.Rack.operate,"ax",@progbits
	.p2align	2
tc_rack.rack.Rack.operate:
	sub	sp, sp, #352
	stp	x20, x19, [sp, #336]
	ldrb	w10, [x2]
	ldrb	w8, [x2, #1]
	ldp	x19, x9, [x2, #8]
	stp	x26, x25, [sp, #288]
	cmp	w10, #1
	stp	x22, x21, [sp, #320]
	ldrh	w22, [x2, #2]
	ldr	x26, [x2, #24]
	stp	x29, x30, [sp, #256]
	add	x29, sp, #256
	stp	x28, x27, [sp, #272]
	stp	x24, x23, [sp, #304]
	stur	xzr, [x29, #-112]
	stur	wzr, [x29, #-104]
	str	xzr, [sp, #128]
	str	wzr, [sp, #136]
	str	xzr, [sp, #112]
	str	wzr, [sp, #120]
	b.le	118f
	cmp	w10, #2
	b.eq	976f
	cmp	w10, #3
	b.ne	93f
	ldp	x10, x9, [x1, #8]
	stur	wzr, [x29, #-88]
	stur	xzr, [x29, #-96]
	cbz	x9, 613f
	add	x19, x10, #208
257:
	ldurb	w10, [x19, #-208]
	cmp	w10, w8
	b.eq	885f
	subs	x9, x9, #1
	add	x19, x19, #272
	b.ne	257b
613:
	mov	w23, wzr
	mov	x20, xzr
	mov	w22, wzr
	mov	w25, #1
	mov	w28, #5
	b	41f
118:
	cbnz	w10, 681f
	cmp	x9, #5
	stur	wzr, [x29, #-56]
	stur	xzr, [x29, #-64]
	b.hs	556f
	mov	x20, xzr
	mov	w23, wzr
	mov	w24, wzr
	mov	w21, wzr
	mov	w25, wzr
	mov	w10, wzr
	mov	w9, wzr
	b	32f
976:
	ldp	x10, x9, [x1, #8]
	stur	wzr, [x29, #-88]
	stur	xzr, [x29, #-96]
	cbz	x9, 613f
	add	x19, x10, #160
257:
	ldurb	w10, [x19, #-160]
	cmp	w10, w8
	b.eq	659f
	subs	x9, x9, #1
	add	x19, x19, #272
	b.ne	257b
613:
	mov	x20, xzr
	mov	w23, wzr
	mov	w22, wzr
	mov	w25, #1
	mov	w28, #5
	b	216f
93:
	ldr	x10, [x1, #16]
	cbz	x10, 613f
	ldr	x9, [x1, #8]
602:
	ldrb	w11, [x9]
	cmp	w11, w8
	b.eq	236f
	subs	x10, x10, #1
	add	x9, x9, #272
	b.ne	602b
613:
	mov	w24, wzr
	mov	w25, #1
	mov	w28, #5
	b	405f
681:
	ldp	x26, x9, [x1, #8]
	stur	wzr, [x29, #-72]
	stur	xzr, [x29, #-80]
	cbz	x9, 613f
602:
	ldrb	w10, [x26]
	cmp	w10, w8
	b.eq	93f
	subs	x9, x9, #1
	add	x26, x26, #272
	b.ne	602b
613:
	mov	x20, xzr
	mov	w27, wzr
	mov	w24, wzr
	mov	w21, wzr
	mov	w8, wzr
	stur	wzr, [x29, #-104]
	stur	xzr, [x29, #-112]
	mov	w25, #1
	mov	w28, #5
	b	710f
556:
	ldrb	w11, [x19]
	cmp	w11, #63
	b.hi	187f
	tst	w11, #0xc
	b.eq	602f
	mov	x20, xzr
	mov	w23, wzr
	mov	w24, wzr
	mov	w21, wzr
	mov	w25, wzr
	mov	w10, wzr
	mov	w9, #2
	b	32f
659:
	ldr	x10, [x19, #32]
	ldp	x8, x9, [x19]
	ldurb	w25, [x19, #-160]
	stur	wzr, [x29, #-72]
	cmp	x10, x22
	stur	xzr, [x29, #-80]
	b.ls	911f
	ldr	x10, [x19, #24]
	ldrh	w10, [x10, x22, lsl #1]
	cmp	x9, x10
	b.ls	239f
	lsl	x10, x10, #6
613:
	mov	x21, x0
	add	x8, x8, x10
	ldr	x8, [x8, #40]
	cbz	x8, 307f
	movi	v0.2d, #0000000000000000
	sub	x0, x29, #48
	mov	x1, x19
	mov	w2, w22
	stp	q0, q0, [x29, #-48]
	bl	tc_queues.queues.Queues_GrowingRoom.take._f9a2c2c7976df771
	ldurb	w8, [x29, #-48]
	ldur	x9, [x29, #-28]
	ldur	x20, [x29, #-40]
	ldur	w10, [x29, #-20]
	ldur	w23, [x29, #-32]
	cmp	w8, #1
	stur	x9, [x29, #-64]
	stur	w10, [x29, #-56]
	b.ne	174f
	ldr	x8, [x19, #96]
	mov	x0, x21
	cmn	x8, #1
	b.eq	232f
	add	x8, x8, #1
	str	x8, [x19, #96]
232:
	ldur	x8, [x29, #-64]
	ldur	w10, [x29, #-56]
	lsr	w9, w22, #8
	mov	w28, #2
	stur	x8, [x29, #-80]
	stur	w10, [x29, #-72]
	b	337f
885:
	ldr	x11, [x19, #32]
	ldp	x8, x10, [x19]
	ldurb	w25, [x19, #-208]
	and	x9, x22, #0xff
	stur	wzr, [x29, #-72]
	cmp	x11, x9
	stur	xzr, [x29, #-80]
	b.ls	613f
	ldr	x11, [x19, #24]
	ldrh	w9, [x11, x9, lsl #1]
	cmp	x10, x9
	b.ls	599f
	lsl	x11, x9, #6
983:
	mov	x21, x0
	add	x8, x8, x11
	ldr	x8, [x8, #40]
	cbz	x8, 349f
	movi	v0.2d, #0000000000000000
	sub	x0, x29, #48
	and	x2, x22, #0xff
	mov	x1, x19
	stp	q0, q0, [x29, #-48]
	bl	tc_queues.queues.Queues_GrowingRoom.take._f9a2c2c7976df771
	ldurb	w8, [x29, #-48]
	ldur	x9, [x29, #-28]
	ldur	x20, [x29, #-40]
	ldur	w10, [x29, #-20]
	ldur	w23, [x29, #-32]
	cmp	w8, #1
	stur	x9, [x29, #-64]
	stur	w10, [x29, #-56]
	b.ne	174f
	ldr	x8, [x19, #48]
	mov	x0, x21
	cmn	x8, #1
	b.eq	232f
	add	x8, x8, #1
	str	x8, [x19, #48]
232:
	ldur	x8, [x29, #-64]
	ldur	w9, [x29, #-56]
	mov	w28, #3
	stur	x8, [x29, #-80]
	stur	w9, [x29, #-72]
	b	688f
236:
	ldur	s0, [x9, #59]
	adrp	x8, .LC30a5ded7_0
	ldrb	w10, [x9, #264]
	ldr	q1, [x8, :lo12:.LC30a5ded7_0]
	ldrb	w25, [x9]
	mov	w28, #4
	ushll	v0.8h, v0.8b, #0
	ubfiz	w8, w10, #15, #1
	ldrb	w10, [x9, #58]
	ldrb	w9, [x9, #265]
	orr	w8, w8, w25, lsl #18
	ushll	v0.4s, v0.4h, #0
	orr	w8, w8, w10
	bfi	w8, w9, #14, #1
	ushl	v0.4s, v0.4s, v1.4s
	addv	s0, v0.4s
	fmov	w9, s0
	add	w8, w8, w9
	mov	w9, #16777216
	add	w24, w8, w9
405:
	lsr	w21, w24, #8
	lsr	w8, w24, #16
	mov	w23, wzr
	mov	x20, xzr
	mov	w27, wzr
	mov	w22, wzr
	stur	wzr, [x29, #-104]
	stur	xzr, [x29, #-112]
	b	843f
93:
	ldr	x8, [x26, #96]
	stur	wzr, [x29, #-56]
	stur	xzr, [x29, #-64]
	cbz	x8, 983f
	ldr	x8, [x26, #80]
	cbz	x8, 174f
	ldp	x10, x9, [x26, #64]
	ldr	x8, [x26, #88]
	ldrb	w25, [x26]
	cmp	x8, x9
	csel	x9, xzr, x9, lo
	sub	x8, x8, x9
	add	x9, x10, x8, lsl #5
	ldrb	w10, [x26, #120]
	ldr	x19, [x9]
	ldr	x23, [x9, #24]
	cmp	w10, #1
	ldrb	w8, [x19]
	and	x22, x8, #0x3f
	b.ne	93f
	lsr	w8, w8, #3
	mov	w9, #1
	add	x3, x19, #1
	movk	w9, #770, lsl #16
	sub	x4, x23, #1
	mov	x20, x0
	and	w8, w8, #0x18
	mov	x1, x22
	lsr	w2, w9, w8
	ldr	x8, [x26, #136]
	mov	x0, x8
	bl	tc_packet.runs.follow_at._a1898dc8b9c98594
	mov	w8, w0
	mov	x0, x20
	tst	w8, #0xff
	b.ne	583f
	mov	w21, w1
	ands	w8, w1, #0xff
	and	x20, x21, #0xff
	b.eq	868f
	cmp	w8, #1
	b.ne	462f
	mov	x28, x22
	b	62f
187:
	mov	x20, xzr
	mov	w23, wzr
	mov	w24, wzr
	mov	w21, wzr
	mov	w25, wzr
	mov	w10, wzr
	mov	w9, #1
32:
	mov	w28, #5
232:
	ldur	x8, [x29, #-64]
	ldur	w11, [x29, #-56]
	orr	w22, w10, w9, lsl #8
	mov	w27, wzr
	stur	x8, [x29, #-112]
	stur	w11, [x29, #-104]
	cbz	x26, 943f
187:
	mov	x26, x0
	mov	x0, x19
	bl	rattle_dealloc
	mov	x0, x26
943:
	mov	w8, wzr
	b	843f
911:
	cbz	x9, 239f
	mov	x10, xzr
335:
	ldrh	w11, [x8, x10]
	cmp	w22, w11
	b.eq	613b
	subs	x9, x9, #1
	add	x10, x10, #64
	b.ne	335b
239:
	mov	x20, xzr
	mov	w23, wzr
	mov	w22, wzr
	mov	w9, wzr
	mov	w28, #5
	mov	w25, #2
	b	337f
613:
	cbz	x10, 599f
	mov	x11, xzr
335:
	ldrh	w12, [x8, x11]
	cmp	w12, w9
	b.eq	983b
	subs	x10, x10, #1
	add	x11, x11, #64
	b.ne	335b
599:
	mov	w23, wzr
	mov	x20, xzr
	mov	w22, wzr
	mov	w25, #3
	mov	w28, #5
	b	688f
983:
	mov	w21, wzr
	mov	x20, xzr
	mov	w24, wzr
	mov	w25, #4
	mov	w28, #5
	b	395f
93:
	ldr	x8, [x26, #128]
	cmp	x23, x8
	b.ls	613f
	mov	w21, wzr
	mov	w8, wzr
	mov	x20, xzr
	mov	w24, wzr
	b	263f
602:
	ldrb	w10, [x19, #2]
	ldrb	w12, [x19, #3]
	lsl	x8, x10, #8
	and	x8, x8, #0x300
	orr	x12, x8, x12
	cmp	w12, #5
	b.hs	316f
	mov	x20, xzr
	mov	w23, wzr
	mov	w24, wzr
	mov	w21, wzr
	mov	w25, wzr
	mov	w10, wzr
	mov	w9, #3
	b	32b
613:
	mov	x20, xzr
	mov	w28, w22
62:
	add	x19, x19, x20
	sub	x27, x23, x20
	str	wzr, [sp, #104]
	ldp	x9, x10, [x26, #232]
	stp	xzr, xzr, [x29, #-48]
	ldp	x14, x15, [x26, #184]
	ldp	x1, x8, [x26, #208]
	cmp	x10, x28
	b.ls	983f
335:
	ldrh	w2, [x9, x28, lsl #1]
	cmp	x8, x2
	b.ls	118f
613:
	mov	x20, x0
	sub	x0, x29, #48
	mov	x3, x19
	mov	x4, x27
	bl	tc_queues.delivering.deliver_whole._a1898dc8b9c98594
	mov	x0, x20
	ldurb	w9, [x29, #-48]
	ldurb	w24, [x29, #-44]
	ldurb	w21, [x29, #-43]
	ldurh	w8, [x29, #-42]
	ldur	x20, [x29, #-40]
	b	360f
307:
	mov	x20, xzr
	mov	w23, wzr
	mov	w22, wzr
	mov	w9, wzr
	mov	w28, #5
	mov	w25, #4
	mov	x0, x21
337:
	ldur	x8, [x29, #-80]
	ldur	w10, [x29, #-72]
	stur	x8, [x29, #-96]
	stur	w10, [x29, #-88]
216:
	ldur	x10, [x29, #-96]
	ldur	w11, [x29, #-88]
	and	w12, w22, #0xff
	mov	w27, wzr
	mov	w24, wzr
	mov	w21, wzr
	mov	w8, wzr
	str	x10, [sp, #128]
	orr	w22, w12, w9, lsl #8
	str	w11, [sp, #136]
	stur	x10, [x29, #-112]
	stur	w11, [x29, #-104]
	b	843f
349:
	mov	w23, wzr
	mov	x20, xzr
	mov	w22, wzr
	mov	w25, #4
	mov	w28, #5
	mov	x0, x21
688:
	ldur	x8, [x29, #-80]
	ldur	w9, [x29, #-72]
	stur	x8, [x29, #-96]
	stur	w9, [x29, #-88]
41:
	ldur	x9, [x29, #-96]
	ldur	w10, [x29, #-88]
	mov	w27, wzr
	mov	w24, wzr
	mov	w21, wzr
	mov	w8, wzr
	str	x9, [sp, #112]
	and	w22, w22, #0xff
	str	w10, [sp, #120]
	stur	x9, [x29, #-112]
	stur	w10, [x29, #-104]
	b	843f
316:
	add	x8, x12, #1
	cmp	x9, x8
	b.hs	602f
	mov	x20, xzr
	mov	w23, wzr
	mov	w24, wzr
	mov	w21, wzr
	mov	w25, wzr
	mov	w10, wzr
	mov	w9, #4
	b	32b
602:
	ldrb	w9, [x19, #1]
	ldrh	w13, [x1]
	bfi	w9, w11, #8, #2
	cmp	w9, w13
	b.ne	599f
	ldr	x13, [x1, #16]
	cbz	x13, 349f
	lsr	w14, w10, #2
	ldr	x27, [x1, #8]
602:
	ldrb	w9, [x27]
	cmp	w9, w14
	b.eq	401f
	mov	x20, xzr
	mov	w23, wzr
	mov	w24, wzr
	mov	w21, wzr
	mov	w25, wzr
	mov	w9, wzr
	subs	x13, x13, #1
	add	x27, x27, #272
	mov	w10, #2
	mov	w28, #5
	b.ne	602b
	b	232b
868:
	mov	w24, w21
	b	263f
462:
	mov	w8, #40
	ldr	x9, [x26, #136]
	mov	x28, x22
	umaddl	x8, w22, w8, x9
	ldp	x19, x27, [x8, #8]
	mov	w8, #1
	str	w8, [sp, #104]
	ldp	x9, x10, [x26, #232]
	stp	xzr, xzr, [x29, #-48]
	ldp	x14, x15, [x26, #184]
	ldp	x1, x8, [x26, #208]
	cmp	x10, x22
	b.hi	335b
983:
	cbz	x8, 118f
	mov	x2, xzr
	mov	x9, x1
335:
	ldrh	w10, [x9], #64
	cmp	w10, w22
	b.eq	613b
	add	x2, x2, #1
	cmp	x8, x2
	b.ne	335b
118:
	cmp	x27, #7
	str	x28, [sp, #96]
	b.hs	613f
	mov	x24, xzr
	mov	x28, xzr
	mov	x21, x27
118:
	cmp	x21, #0
	mov	x9, #4294967296
	sub	x8, x28, x24
	csel	x9, xzr, x9, eq
	b	307f
613:
	mov	x28, xzr
	mov	x24, xzr
	mov	x20, x19
	mov	x21, x27
	stp	x15, x14, [sp, #56]
	str	x0, [sp, #72]
	b	602f
280:
	cmp	x21, #6
	add	x20, x20, x22
	add	x24, xzr, x24
	add	x28, x28, #1
	b.ls	118b
602:
	ldrb	w9, [x20]
	cmp	w9, #31
	b.hi	625f
	ldrb	w23, [x20, #5]
	ldrb	w8, [x20, #4]
	mov	x10, x23
	bfi	x10, x8, #8, #8
	add	x22, x10, #7
	subs	x21, x21, x22
	b.lo	625f
	cmp	w9, #16
	b.lo	280b
	ldrb	w10, [x20, #1]
	bfi	x10, x9, #8, #3
	ldp	x9, x11, [x26, #160]
	cmp	x15, x10
	b.ls	613f
	ldrh	w10, [x14, x10, lsl #1]
	cmp	x11, x10
	b.ls	280b
	lsl	x12, x10, #6
62:
	add	x11, x9, x12
	ldp	x9, x10, [x11, #40]
	ldr	x16, [x11, #24]
	add	x17, x10, x9
	cmp	x16, x17
	b.ls	280f
	ldr	x9, [x11, #32]
	lsl	x1, x8, #8
	str	x11, [sp, #88]
	ldp	x11, x10, [x11, #8]
	add	x9, x9, x17
	cmp	x9, x10
	csel	x10, xzr, x10, lo
	sub	x9, x9, x10
	add	x18, x11, x9, lsl #5
	ldr	x2, [x18, #16]
	cmp	x22, x2
	b.ls	93f
	stp	x1, x17, [sp, #32]
	mov	x0, x22
	mov	w1, #1
	str	x18, [sp, #48]
	str	x16, [sp, #80]
	bl	rattle_alloc
	tbz	w0, #0, 481f
	mov	x2, x1
	sub	x8, x1, x20
	ldr	x1, [sp, #32]
	cmp	x8, x22
	b.hs	983f
	add	x8, x23, x1
	add	x9, x8, #7
	mov	x8, xzr
	cmp	x9, #8
	b.lo	681f
	ldp	x14, x0, [sp, #64]
	sub	x10, x2, x20
	ldp	x18, x15, [sp, #48]
	cmp	x10, #32
	ldr	x16, [sp, #80]
	ldr	x17, [sp, #40]
	b.lo	316f
	cmp	x9, #32
	b.hs	192f
	mov	x8, xzr
	b	239f
613:
	cbz	x11, 280b
	mov	x12, xzr
335:
	ldrh	w13, [x9, x12]
	cmp	w10, w13
	b.eq	62b
	subs	x11, x11, #1
	add	x12, x12, #64
	b.ne	335b
	b	280b
93:
	ldr	x3, [x18]
	stp	xzr, xzr, [x18, #8]
	sub	x10, x3, x20
	cmp	x10, x22
	b.hs	613f
	add	x8, x23, x1
	add	x9, x8, #7
	mov	x8, xzr
	cmp	x9, #8
	b.lo	62f
	cmp	x10, #32
	b.lo	62f
	cmp	x9, #32
	b.hs	447f
	mov	x8, xzr
	b	911f
613:
	mov	x0, x3
	mov	x1, x20
	stp	x2, x18, [sp, #40]
	mov	x2, x22
	str	x16, [sp, #80]
	mov	x23, x17
	str	x3, [sp, #32]
	bl	memmove
	ldp	x3, x2, [sp, #32]
	mov	x17, x23
	ldp	x18, x15, [sp, #48]
	ldr	x14, [sp, #64]
	ldp	x0, x16, [sp, #72]
	b	598f
983:
	mov	x0, x2
	mov	x1, x20
	mov	x23, x2
	mov	x2, x22
	bl	memmove
	ldp	x14, x0, [sp, #64]
	mov	x2, x23
	ldp	x18, x15, [sp, #48]
	ldr	x16, [sp, #80]
	ldr	x17, [sp, #40]
	b	659f
447:
	and	x10, x9, #0x18
	and	x8, x9, #0x1ffe0
	add	x11, x20, #16
	add	x12, x3, #16
	and	x13, x9, #0x1ffe0
976:
	ldp	q0, q1, [x11, #-16]
	subs	x13, x13, #32
	add	x11, x11, #32
	stp	q0, q1, [x12, #-16]
	add	x12, x12, #32
	b.ne	976b
	cmp	x9, x8
	b.eq	598f
	cbz	x10, 62f
911:
	mov	x12, x8
	and	x8, x9, #0x1fff8
	sub	x10, x12, x8
	add	x11, x20, x12
	add	x12, x3, x12
93:
	ldr	d0, [x11], #8
	adds	x10, x10, #8
	str	d0, [x12], #8
	b.ne	93b
	cmp	x9, x8
	b.eq	598f
62:
	add	x9, x1, x23
	add	x10, x20, x8
	sub	x9, x9, x8
	add	x8, x3, x8
	add	x9, x9, #7
556:
	ldrb	w11, [x10], #1
	subs	x9, x9, #1
	strb	w11, [x8], #1
	b.ne	556b
598:
	stp	x3, x22, [x18]
	str	x2, [x18, #16]
	b	885f
681:
	ldp	x14, x0, [sp, #64]
	ldr	x16, [sp, #80]
	ldp	x18, x15, [sp, #48]
	ldr	x17, [sp, #40]
	b	316f
192:
	and	x10, x9, #0x18
	and	x8, x9, #0x1ffe0
	add	x11, x20, #16
	add	x12, x2, #16
	and	x13, x9, #0x1ffe0
976:
	ldp	q0, q1, [x11, #-16]
	subs	x13, x13, #32
	add	x11, x11, #32
	stp	q0, q1, [x12, #-16]
	add	x12, x12, #32
	b.ne	976b
	cmp	x9, x8
	b.eq	659f
	cbz	x10, 316f
239:
	mov	x12, x8
	and	x8, x9, #0x1fff8
	sub	x10, x12, x8
	add	x11, x20, x12
	add	x12, x2, x12
93:
	ldr	d0, [x11], #8
	adds	x10, x10, #8
	str	d0, [x12], #8
	b.ne	93b
	cmp	x9, x8
	b.eq	659f
316:
	add	x9, x1, x23
	add	x10, x20, x8
	sub	x9, x9, x8
	add	x8, x2, x8
	add	x9, x9, #7
556:
	ldrb	w11, [x10], #1
	subs	x9, x9, #1
	strb	w11, [x8], #1
	b.ne	556b
659:
	ldr	x8, [x18]
	ldr	x9, [x18, #16]
	stp	x2, x22, [x18]
	str	x22, [x18, #16]
	cbz	x9, 885f
	mov	x0, x8
	bl	rattle_dealloc
	ldp	x0, x16, [sp, #72]
	ldr	x17, [sp, #40]
	ldp	x15, x14, [sp, #56]
885:
	ldr	x9, [sp, #88]
	ldr	x8, [x9, #48]
	add	x8, x8, #1
	str	x8, [x9, #48]
280:
	cmp	x16, x17
	cset	w8, hi
	cmp	x21, #6
	add	x20, x20, x22
	add	x24, x8, x24
	add	x28, x28, #1
	b.hi	602b
	b	118b
599:
	mov	x20, xzr
	mov	w23, wzr
	mov	w24, wzr
	mov	w21, wzr
	mov	w25, wzr
	mov	w9, wzr
	mov	w10, #1
	b	32b
625:
	sub	x8, x28, x24
	mov	x9, #4294967296
307:
	mov	w10, w8
	ldr	x8, [x26, #168]
	ldr	x28, [sp, #96]
	orr	x20, x9, x10
	cbz	x15, 983f
	mov	w9, w24
	cmp	x8, x9
	b.lo	983f
	cmp	x27, #7
	b.hs	602f
	b	911f
62:
	add	x9, x9, x12
	ldp	x11, x10, [x9, #40]
	add	x10, x11, x10
	stp	x10, xzr, [x9, #40]
118:
	cmp	x27, #7
	add	x19, x19, x8
	b.lo	911f
602:
	ldrb	w9, [x19]
	cmp	w9, #31
	b.hi	911f
	ldrh	w8, [x19, #4]
	rev16	w8, w8
	add	x8, x8, #7
	subs	x27, x27, x8
	b.lo	911f
	cmp	w9, #16
	b.lo	118b
	ldrb	w10, [x19, #1]
	bfi	x10, x9, #8, #3
	ldp	x9, x11, [x26, #160]
	cmp	x15, x10
	b.ls	613f
	ldrh	w10, [x14, x10, lsl #1]
	cmp	x11, x10
	b.ls	118b
	lsl	x12, x10, #6
	b	62b
613:
	cbz	x11, 118b
	mov	x12, xzr
335:
	ldrh	w13, [x9, x12]
	cmp	w10, w13
	b.eq	62b
	subs	x11, x11, #1
	add	x12, x12, #64
	b.ne	335b
	b	118b
983:
	cbz	x8, 911f
	mov	x9, xzr
236:
	ldur	x10, [x26, #160]
	subs	x8, x8, #1
	add	x10, x10, x9
	add	x9, x9, #64
	ldp	x12, x11, [x10, #40]
	add	x11, x12, x11
	stp	x11, xzr, [x10, #40]
	b.ne	236b
911:
	mov	w9, wzr
405:
	lsr	w21, w24, #8
	lsr	w8, w24, #16
360:
	cbz	w9, 93f
583:
	mov	x20, xzr
	mov	w28, wzr
	mov	w25, wzr
	mov	w24, wzr
	mov	w21, wzr
	mov	w8, wzr
	mov	w27, #1
	stur	xzr, [x29, #-112]
	stur	wzr, [x29, #-104]
	b	710f
93:
	ldr	x9, [x26, #144]
	ldr	w10, [sp, #104]
	cmp	x9, x28
	b.ls	263f
	mov	w9, #40
	ldr	x10, [x26, #136]
	umull	x9, w28, w9
	strb	wzr, [x10, x9]
263:
	ldr	x9, [x26, #96]
	cbz	x9, 602f
	ldr	x10, [x26, #104]
	sub	x9, x9, #1
	ldr	x11, [x26, #80]
	str	x9, [x26, #96]
	cmn	x9, x10
	b.ne	93f
	cbz	x11, 174f
	ldp	x11, x9, [x26, #64]
	ldr	x10, [x26, #88]
	cmp	x10, x9
	csel	x9, xzr, x9, lo
	sub	x9, x10, x9
	add	x9, x11, x9, lsl #5
	str	xzr, [x9, #24]
	b	602f
93:
	cbz	x11, 174f
	ldr	x10, [x26, #88]
	ldr	x9, [x26, #72]
	sub	x11, x11, #1
	add	x12, x10, #1
	cmp	x12, x9
	csel	x13, xzr, x9, lo
	cmp	x9, x11
	sub	x12, x12, x13
	stp	x11, x12, [x26, #80]
	b.ls	174f
	ldr	x13, [x26, #64]
	add	x11, x12, x11
	cmp	x11, x9
	add	x10, x13, x10, lsl #5
	csel	x9, xzr, x9, lo
	sub	x9, x11, x9
	add	x9, x13, x9, lsl #5
	ldr	q0, [x10]
	ldr	x10, [x10, #16]
	str	q0, [x9]
	stp	x10, xzr, [x9, #16]
	ldr	x9, [x26, #80]
	add	x9, x9, #1
	str	x9, [x26, #80]
602:
	ldrb	w9, [x26, #57]
	cbz	w9, 93f
	cmp	w9, #2
	b.eq	560f
	strb	wzr, [x26, #57]
560:
	strb	wzr, [x26, #60]
93:
	ldr	x9, [x26, #256]
	cmn	x9, #1
	b.eq	613f
	add	x9, x9, #1
	str	x9, [x26, #256]
613:
	mov	w28, #1
	stur	wzr, [x29, #-56]
	stur	xzr, [x29, #-64]
395:
	ldur	x9, [x29, #-64]
	ldur	w10, [x29, #-56]
	mov	w27, wzr
	stur	x9, [x29, #-80]
	stur	w10, [x29, #-72]
	stur	x9, [x29, #-112]
	stur	w10, [x29, #-104]
710:
	mov	w23, wzr
	mov	w22, wzr
843:
	ubfiz	w9, w21, #8, #8
	strb	w27, [x0]
	ldur	w10, [x29, #-104]
	strb	w28, [x0, #8]
	ldp	x28, x27, [sp, #272]
	orr	w8, w9, w8, lsl #16
	strb	w25, [x0, #9]
	ldur	x9, [x29, #-112]
	strh	w22, [x0, #10]
	ldp	x22, x21, [sp, #320]
	bfxil	w8, w24, #0, #8
	str	x20, [x0, #16]
	str	w23, [x0, #24]
	ldp	x20, x19, [sp, #336]
	str	w8, [x0, #12]
	ldp	x24, x23, [sp, #304]
	stur	x9, [x0, #28]
	ldp	x26, x25, [sp, #288]
	str	w10, [x0, #36]
	ldp	x29, x30, [sp, #256]
	add	sp, sp, #352
	ret
349:
	mov	x20, xzr
	mov	w23, wzr
	mov	w24, wzr
	mov	w21, wzr
	mov	w25, wzr
	mov	w9, wzr
	mov	w10, #2
	b	32b
401:
	ldrb	w25, [x27]
	cmp	w11, #32
	b.hs	62f
	tbnz	w11, #4, 613f
	ldrb	w9, [x19, #4]
	ldrb	w10, [x27, #58]
	mov	x22, x0
	subs	w10, w9, w10
	b.ne	602f
	ldr	x10, [x27, #96]
	ldr	x11, [x27, #80]
	cmp	x10, x11
	b.hs	148f
	ldrb	w11, [x27, #57]
	cbz	w11, 263f
	mov	x20, xzr
	mov	w23, wzr
	mov	w21, wzr
	mov	w24, #1
	b	983f
62:
	add	x21, x19, #5
	tbnz	w11, #4, 118f
	ldrb	w10, [x27, #120]
	ldrb	w9, [x21]
	sub	x22, x8, #5
	str	x0, [sp, #72]
	cmp	w10, #1
	and	x11, x9, #0x3f
	b.ne	93f
	lsr	w9, w9, #3
	mov	w10, #1
	ldr	x0, [x27, #136]
	movk	w10, #770, lsl #16
	sub	x4, x8, #6
	orr	x1, x11, #0x40
	and	w9, w9, #0x18
	add	x3, x19, #6
	orr	x24, x11, #0x40
	lsr	w2, w10, w9
	mov	x28, x11
	bl	tc_packet.runs.follow_at._a1898dc8b9c98594
	tst	w0, #0xff
	b.ne	716f
	mov	w20, w1
	ands	w23, w1, #0xff
	b.eq	32f
	cmp	w23, #1
	b.ne	911f
	and	x8, x20, #0xff
	b	62f
118:
	cmp	w12, #7
	b.eq	556f
	cmp	w12, #5
	b.ne	613f
	ldrb	w8, [x21]
	cbnz	w8, 613f
	ldrb	w8, [x27, #62]
	ldrb	w20, [x27, #57]
	strb	wzr, [x27, #61]
	add	w8, w8, #1
	and	w8, w8, #0x3
	strb	w8, [x27, #62]
	cbz	w20, 187f
	cmp	w20, #2
	b.ne	943f
	mov	x20, xzr
	mov	w23, wzr
	mov	w21, wzr
	strb	wzr, [x27, #57]
	mov	w24, #7
	sturh	wzr, [x27, #59]
	b	350f
481:
	add	x0, x26, #160
	bl	tc_queues.committing.roll_back._811965396801c8f8
	ldr	x0, [sp, #72]
	ldr	x28, [sp, #96]
	mov	w24, wzr
	mov	x20, xzr
	mov	w9, #1
	b	405b
602:
	ldrb	w8, [x27, #56]
	lsr	w8, w8, #1
	cmp	w8, w10, uxtb
	b.hi	946f
	neg	w9, w10
	cmp	w8, w9, uxtb
	b.lo	312f
	mov	x20, xzr
	mov	w23, wzr
	mov	w21, wzr
	mov	w24, #4
	b	983f
93:
	ldr	x8, [x27, #128]
	mov	x28, x11
	cmp	x22, x8
	mov	x8, xzr
	b.ls	62f
	mov	x8, xzr
	mov	w23, wzr
	mov	w20, wzr
	b	87f
556:
	ldrb	w8, [x21]
	cmp	w8, #130
	b.ne	613f
	ldrb	w8, [x19, #6]
	cbz	w8, 401f
613:
	mov	x20, xzr
	mov	w23, wzr
	mov	w21, wzr
	mov	w24, #9
	b	350f
62:
	add	x9, x21, x8
	sub	x8, x22, x8
	str	wzr, [sp, #48]
	str	x9, [sp, #80]
	str	x8, [sp, #96]
93:
	ldr	x8, [x27, #184]
	ldp	x9, x11, [x27, #232]
	mov	w10, w28
	stp	xzr, xzr, [x29, #-48]
	str	x8, [sp, #88]
	ldr	x8, [x27, #192]
	cmp	x11, x10
	str	x28, [sp, #56]
	str	x8, [sp, #104]
	ldp	x1, x8, [x27, #208]
	b.ls	613f
	ldrh	w2, [x9, x10, lsl #1]
	cmp	x8, x2
	b.ls	885f
659:
	ldr	x3, [sp, #80]
	ldr	x4, [sp, #96]
	sub	x0, x29, #48
	bl	tc_queues.delivering.deliver_whole._a1898dc8b9c98594
	ldurb	w9, [x29, #-48]
	ldurb	w20, [x29, #-44]
	ldur	w23, [x29, #-36]
	b	360f
613:
	cbz	x8, 885f
	mov	x2, xzr
	mov	x9, x1
335:
	ldrh	w10, [x9], #64
	cmp	w10, w28
	b.eq	659b
	add	x2, x2, #1
	cmp	x8, x2
	b.ne	335b
885:
	ldr	x8, [sp, #96]
	cmp	x8, #7
	b.hs	659f
	ldr	x22, [sp, #96]
	mov	x24, xzr
	mov	x28, xzr
118:
	cmp	x22, #0
	mov	x8, #4294967296
	sub	x9, x28, x24
	csel	x8, xzr, x8, eq
	b	239f
263:
	ldr	x11, [x27, #88]
	add	w9, w9, #1
	strb	w9, [x27, #58]
	sub	x2, x8, #5
	add	x10, x11, x10
	ldp	x11, x12, [x27, #64]
	strb	wzr, [x27, #61]
	cmp	x10, x12
	csel	x12, xzr, x12, lo
	sub	x10, x10, x12
	add	x9, x11, x10, lsl #5
	add	x10, x19, #5
	ldr	x0, [x9]
	str	x2, [x9, #24]
	sub	x10, x0, x10
	cmp	x10, x2
	b.hs	481f
	cmp	x2, #8
	b.lo	613f
	sub	x9, x0, x19
	sub	x9, x9, #5
	cmp	x9, #32
	b.hs	474f
613:
	mov	x9, xzr
62:
	add	x10, x9, #5
	add	x9, x0, x9
	sub	x8, x10, x8
	add	x10, x19, x10
602:
	ldrb	w11, [x10], #1
	adds	x8, x8, #1
	strb	w11, [x9], #1
	b.lo	602b
	b	893f
659:
	ldr	x20, [sp, #80]
	ldr	x22, [sp, #96]
	mov	x28, xzr
	mov	x24, xzr
	b	602f
280:
	cmp	x22, #6
	add	x20, x20, x23
	add	x24, xzr, x24
	add	x28, x28, #1
	b.ls	118b
602:
	ldrb	w9, [x20]
	cmp	w9, #31
	b.hi	625f
	ldrb	w21, [x20, #5]
	ldrb	w8, [x20, #4]
	mov	x10, x21
	bfi	x10, x8, #8, #8
	add	x23, x10, #7
	subs	x22, x22, x23
	b.lo	625f
	cmp	w9, #16
	b.lo	280b
	ldrb	w10, [x20, #1]
	ldr	x12, [sp, #104]
	bfi	x10, x9, #8, #3
	ldp	x9, x11, [x27, #160]
	cmp	x12, x10
	b.ls	613f
	ldr	x12, [sp, #88]
	ldrh	w10, [x12, x10, lsl #1]
	cmp	x11, x10
	b.ls	280b
	lsl	x12, x10, #6
316:
	add	x11, x9, x12
	ldp	x9, x10, [x11, #40]
	str	x11, [sp, #64]
	ldr	x11, [x11, #24]
	add	x12, x10, x9
	cmp	x11, x12
	b.ls	280f
	stp	x12, x11, [sp, #16]
	ldr	x11, [sp, #64]
	lsl	x8, x8, #8
	ldr	x9, [x11, #32]
	ldp	x11, x10, [x11, #8]
	add	x9, x9, x12
	cmp	x9, x10
	csel	x10, xzr, x10, lo
	sub	x9, x9, x10
	add	x9, x11, x9, lsl #5
	str	x9, [sp, #40]
	ldr	x9, [x9, #16]
	cmp	x23, x9
	stp	x9, x8, [sp]
	b.ls	659f
	mov	x0, x23
	mov	w1, #1
	bl	rattle_alloc
	str	x1, [sp, #32]
	tbz	w0, #0, 62f
	ldr	x8, [sp, #32]
	sub	x8, x8, x20
	cmp	x8, x23
	b.hs	885f
	ldr	x8, [sp, #8]
	add	x8, x21, x8
	add	x9, x8, #7
	mov	x8, xzr
	cmp	x9, #8
	b.lo	354f
	ldr	x10, [sp, #32]
	sub	x10, x10, x20
	cmp	x10, #32
	b.lo	354f
	cmp	x9, #32
	b.hs	552f
	mov	x8, xzr
	b	951f
613:
	cbz	x11, 280b
	mov	x12, xzr
335:
	ldrh	w13, [x9, x12]
	cmp	w10, w13
	b.eq	316b
	subs	x11, x11, #1
	add	x12, x12, #64
	b.ne	335b
	b	280b
659:
	ldr	x8, [sp, #40]
	ldr	x9, [x8]
	stp	xzr, xzr, [x8, #8]
	sub	x10, x9, x20
	str	x9, [sp, #32]
	cmp	x10, x23
	b.hs	659f
	ldr	x8, [sp, #8]
	add	x8, x21, x8
	add	x9, x8, #7
	mov	x8, xzr
	cmp	x9, #8
	b.lo	375f
	cmp	x10, #32
	b.lo	375f
	cmp	x9, #32
	b.hs	263f
	mov	x8, xzr
	b	489f
659:
	ldr	x0, [sp, #32]
	mov	x1, x20
	mov	x2, x23
	bl	memmove
	b	681f
885:
	ldr	x0, [sp, #32]
	mov	x1, x20
	mov	x2, x23
	bl	memmove
	b	989f
263:
	ldr	x12, [sp, #32]
	and	x10, x9, #0x18
	and	x8, x9, #0x1ffe0
	add	x11, x20, #16
	and	x13, x9, #0x1ffe0
	add	x12, x12, #16
976:
	ldp	q0, q1, [x11, #-16]
	subs	x13, x13, #32
	add	x11, x11, #32
	stp	q0, q1, [x12, #-16]
	add	x12, x12, #32
	b.ne	976b
	cmp	x9, x8
	b.eq	681f
	cbz	x10, 375f
489:
	ldr	x13, [sp, #32]
	mov	x12, x8
	and	x8, x9, #0x1fff8
	sub	x10, x12, x8
	add	x11, x20, x12
	add	x12, x13, x12
659:
	ldr	d0, [x11], #8
	adds	x10, x10, #8
	str	d0, [x12], #8
	b.ne	659b
	cmp	x9, x8
	b.eq	681f
375:
	ldr	x9, [sp, #8]
	ldr	x11, [sp, #32]
	add	x10, x20, x8
	add	x9, x9, x21
	sub	x9, x9, x8
	add	x8, x11, x8
	add	x9, x9, #7
556:
	ldrb	w11, [x10], #1
	subs	x9, x9, #1
	strb	w11, [x8], #1
	b.ne	556b
681:
	ldp	x9, x8, [sp, #32]
	stp	x9, x23, [x8]
	ldr	x9, [sp]
	str	x9, [x8, #16]
	b	885f
552:
	ldr	x12, [sp, #32]
	and	x10, x9, #0x18
	and	x8, x9, #0x1ffe0
	add	x11, x20, #16
	and	x13, x9, #0x1ffe0
	add	x12, x12, #16
976:
	ldp	q0, q1, [x11, #-16]
	subs	x13, x13, #32
	add	x11, x11, #32
	stp	q0, q1, [x12, #-16]
	add	x12, x12, #32
	b.ne	976b
	cmp	x9, x8
	b.eq	989f
	cbz	x10, 354f
951:
	ldr	x13, [sp, #32]
	mov	x12, x8
	and	x8, x9, #0x1fff8
	sub	x10, x12, x8
	add	x11, x20, x12
	add	x12, x13, x12
659:
	ldr	d0, [x11], #8
	adds	x10, x10, #8
	str	d0, [x12], #8
	b.ne	659b
	cmp	x9, x8
	b.eq	989f
354:
	ldr	x9, [sp, #8]
	ldr	x11, [sp, #32]
	add	x10, x20, x8
	add	x9, x9, x21
	sub	x9, x9, x8
	add	x8, x11, x8
	add	x9, x9, #7
556:
	ldrb	w11, [x10], #1
	subs	x9, x9, #1
	strb	w11, [x8], #1
	b.ne	556b
989:
	ldp	x10, x9, [sp, #32]
	ldr	x0, [x9]
	ldr	x8, [x9, #16]
	stp	x10, x23, [x9]
	str	x23, [x9, #16]
	cbz	x8, 885f
	bl	rattle_dealloc
885:
	ldr	x9, [sp, #64]
	ldp	x12, x11, [sp, #16]
	ldr	x8, [x9, #48]
	add	x8, x8, #1
	str	x8, [x9, #48]
280:
	cmp	x11, x12
	cset	w8, hi
	cmp	x22, #6
	add	x20, x20, x23
	add	x24, x8, x24
	add	x28, x28, #1
	b.hi	602b
	b	118b
481:
	add	x1, x19, #5
	bl	memmove
893:
	ldr	x8, [x27, #96]
	mov	x20, xzr
	mov	w23, wzr
	mov	w24, #1
	mov	w21, #1
	add	x8, x8, #1
	str	x8, [x27, #96]
983:
	mov	x0, x22
	b	350f
32:
	mov	x8, xzr
	b	87f
401:
	ldrb	w8, [x27, #62]
	ldrb	w9, [x27, #57]
	add	w10, w8, #1
	ldrb	w8, [x19, #7]
	cmp	w9, #2
	and	w10, w10, #0x3
	strb	w10, [x27, #62]
	b.eq	983f
	cmp	w9, #1
	b.ne	599f
	mov	x20, xzr
	mov	w23, wzr
	mov	w21, wzr
	strb	wzr, [x27, #57]
	mov	w24, #8
	strb	w8, [x27, #58]
	strh	wzr, [x27, #60]
	b	350f
911:
	mov	w8, #40
	ldr	x9, [x27, #136]
	umaddl	x8, w24, w8, x9
	ldp	x9, x8, [x8, #8]
	str	x8, [sp, #96]
	mov	w8, #1
	str	x9, [sp, #80]
	str	w8, [sp, #48]
	b	93b
625:
	sub	x9, x28, x24
	mov	x8, #4294967296
239:
	mov	w10, w9
	ldr	x9, [x27, #168]
	mov	w20, w24
	orr	x8, x8, x10
	ldr	x10, [sp, #104]
	cbz	x10, 32f
	mov	w10, w20
	cmp	x9, x10
	b.lo	32f
	ldr	x16, [sp, #96]
	ldr	x15, [sp, #80]
	cmp	x16, #7
	b.hs	602f
613:
	mov	w9, wzr
	b	405f
316:
	add	x10, x10, x13
	ldp	x12, x11, [x10, #40]
	add	x11, x12, x11
	stp	x11, xzr, [x10, #40]
118:
	cmp	x16, #7
	add	x15, x15, x9
	b.lo	613b
602:
	ldrb	w10, [x15]
	cmp	w10, #31
	b.hi	613b
	ldrh	w9, [x15, #4]
	rev16	w9, w9
	add	x9, x9, #7
	subs	x16, x16, x9
	b.lo	613b
	cmp	w10, #16
	b.lo	118b
	ldrb	w11, [x15, #1]
	ldr	x13, [sp, #104]
	bfi	x11, x10, #8, #3
	ldp	x10, x12, [x27, #160]
	cmp	x13, x11
	b.ls	613f
	ldr	x13, [sp, #88]
	ldrh	w11, [x13, x11, lsl #1]
	cmp	x12, x11
	b.ls	118b
	lsl	x13, x11, #6
	b	316b
613:
	cbz	x12, 118b
	mov	x13, xzr
335:
	ldrh	w14, [x10, x13]
	cmp	w11, w14
	b.eq	316b
	subs	x12, x12, #1
	add	x13, x13, #64
	b.ne	335b
	b	118b
32:
	cbz	x9, 405f
	mov	x10, xzr
236:
	ldur	x11, [x27, #160]
	subs	x9, x9, #1
	add	x11, x11, x10
	add	x10, x10, #64
	ldp	x13, x12, [x11, #40]
	add	x12, x13, x12
	stp	x12, xzr, [x11, #40]
	b.ne	236b
405:
	lsr	x23, x8, #32
	stur	w20, [x29, #-44]
	stur	x8, [x29, #-40]
360:
	cbz	w9, 257f
716:
	ldr	x0, [sp, #72]
	mov	w23, wzr
	mov	x20, xzr
	mov	w28, wzr
	mov	w25, wzr
	mov	w22, wzr
	mov	w24, wzr
	mov	w21, wzr
	stur	wzr, [x29, #-104]
	stur	xzr, [x29, #-112]
	mov	w27, #1
	cbnz	x26, 187b
	b	943b
257:
	ldurb	w8, [x29, #-37]
	ldurh	w9, [x29, #-39]
	ldr	x10, [x27, #144]
	ldr	w11, [sp, #48]
	orr	w8, w9, w8, lsl #16
	ldur	w9, [x29, #-43]
	orr	x8, x9, x8, lsl #32
	ldr	x9, [sp, #56]
	orr	w9, w9, #0x40
	cmp	x10, x9
	b.ls	87f
	mov	w10, #40
	umull	x9, w9, w10
	ldr	x10, [x27, #136]
	strb	wzr, [x10, x9]
87:
	ldrb	w9, [x27, #62]
	ldr	x0, [sp, #72]
	bfi	x20, x8, #8, #56
	mov	w21, #1
	mov	w24, #6
	add	w9, w9, #1
	and	w9, w9, #0x3
	strb	w9, [x27, #62]
350:
	ldr	x8, [x27, #256]
	cmn	x8, #1
	b.eq	613f
	add	x8, x8, #1
	str	x8, [x27, #256]
613:
	mov	w28, wzr
	mov	w10, wzr
	mov	w9, wzr
	stur	wzr, [x29, #-56]
	stur	xzr, [x29, #-64]
	b	232b
187:
	mov	w24, #7
	mov	w23, w20
	mov	w21, w20
	b	350b
943:
	mov	x20, xzr
	mov	w23, wzr
	mov	w21, wzr
	strb	wzr, [x27, #57]
	mov	w24, #7
	strb	wzr, [x27, #60]
	b	350b
148:
	add	x0, x27, #57
	bl	tc_link.farm.full
	mov	x20, xzr
	mov	w23, wzr
	mov	w21, wzr
	mov	w24, #2
	b	983b
946:
	add	x0, x27, #57
	bl	tc_link.farm.ahead
	mov	x20, xzr
	mov	w23, wzr
	mov	w21, wzr
	mov	w24, #3
	b	983b
312:
	add	x0, x27, #57
	bl	tc_link.farm.outside
	mov	x20, xzr
	mov	w23, wzr
	mov	w21, wzr
	mov	w24, #5
	b	983b
474:
	cmp	x2, #32
	b.hs	447f
	mov	x9, xzr
	b	613f
983:
	mov	x20, xzr
	mov	w23, wzr
	mov	w21, wzr
	mov	w24, #8
	b	350b
599:
	mov	x20, xzr
	mov	w23, wzr
	mov	w21, wzr
	strb	w8, [x27, #58]
	mov	w24, #8
	strb	wzr, [x27, #61]
	b	350b
447:
	and	x10, x2, #0x18
	and	x9, x2, #0xffffffffffffffe0
	add	x11, x19, #21
	add	x12, x0, #16
	and	x13, x2, #0xffffffffffffffe0
976:
	ldp	q0, q1, [x11, #-16]
	subs	x13, x13, #32
	add	x11, x11, #32
	stp	q0, q1, [x12, #-16]
	add	x12, x12, #32
	b.ne	976b
	cmp	x2, x9
	b.eq	893b
	cbz	x10, 62b
613:
	mov	x12, x9
	and	x9, x2, #0xfffffffffffffff8
	add	x11, x12, x19
	sub	x10, x12, x9
	add	x12, x0, x12
	add	x11, x11, #5
93:
	ldr	d0, [x11], #8
	adds	x10, x10, #8
	str	d0, [x12], #8
	b.ne	93b
	cmp	x2, x9
	b.eq	893b
	b	62b
62:
	add	x0, x27, #160
	bl	tc_queues.committing.roll_back._811965396801c8f8
	mov	w20, wzr
	mov	x8, xzr
	mov	w9, #1
	b	405b
174:
	brk	#0x1
	.section	.text.tc_packet.runs.follow_at._a1898dc8b9c98594,"ax",@progbits
	.p2align	2
tc_packet.runs.follow_at._a1898dc8b9c98594:
	stp	x29, x30, [sp, #-64]!
	mov	w8, #40
	stp	x20, x19, [sp, #48]
	mov	x29, sp
	madd	x20, x1, x8, x0
	and	w8, w2, #0xff
	str	x23, [sp, #16]
	cmp	w8, #1
	stp	x22, x21, [sp, #32]
	b.gt	118f
	cbnz	w8, 556f
	ldr	x8, [x20, #32]
	cmp	x8, x4
	b.lo	983f
	ldr	x21, [x20, #24]
	cmp	x4, x21
	b.ls	263f
	tbnz	x4, #63, 599f
	mov	x0, x4
	mov	w1, #1
	mov	x21, x3
	mov	x19, x4
	bl	rattle_alloc
	tbz	w0, #0, 599f
	sub	x9, x1, x21
	mov	x8, x21
	mov	x4, x19
	cmp	x9, x19
	b.hs	239f
	cmp	x4, #8
	mov	x9, xzr
	b.lo	893f
	sub	x10, x1, x8
	cmp	x10, #32
	b.lo	893f
	cmp	x4, #32
	b.hs	192f
	mov	x9, xzr
	b	307f
118:
	cmp	w8, #2
	b.ne	885f
	ldrb	w8, [x20]
	cmp	w8, #1
	b.ne	983f
	ldr	x8, [x20, #32]
	ldr	w9, [x20, #4]
	sub	x8, x8, x9
	cmp	x8, x4
	b.lo	983f
	mov	x23, x20
	ldr	x8, [x23, #16]!
	cmp	x8, x9
	b.ls	93f
	mov	x8, x9
	str	x9, [x23]
93:
	ldr	x19, [x20, #24]
	sub	x9, x19, x8
	cmp	x4, x9
	b.hi	148f
93:
	ldr	x21, [x20, #8]
	add	x22, x8, x4
	stp	xzr, xzr, [x23]
	add	x0, x21, x8
	sub	x9, x0, x3
	cmp	x9, x4
	b.hs	187f
	cmp	x4, #8
	b.lo	613f
	add	x9, x8, x21
	sub	x9, x9, x3
	cmp	x9, #32
	b.hs	118f
613:
	mov	x9, xzr
62:
	add	x10, x9, x8
	sub	x8, x4, x9
	add	x9, x3, x9
	add	x10, x21, x10
602:
	ldrb	w11, [x9], #1
	subs	x8, x8, #1
	strb	w11, [x10], #1
	b.ne	602b
	b	32f
556:
	ldrb	w8, [x20]
	cmp	w8, #1
	b.ne	983f
	ldr	x8, [x20, #32]
	ldr	w9, [x20, #4]
	sub	x8, x8, x9
	cmp	x8, x4
	b.lo	983f
	mov	x23, x20
	ldr	x8, [x23, #16]!
	cmp	x8, x9
	b.ls	659f
	mov	x8, x9
	str	x9, [x23]
659:
	ldr	x19, [x20, #24]
	sub	x9, x19, x8
	cmp	x4, x9
	b.hi	946f
659:
	ldr	x21, [x20, #8]
	add	x22, x8, x4
	stp	xzr, xzr, [x23]
	add	x0, x21, x8
	sub	x9, x0, x3
	cmp	x9, x4
	b.hs	943f
	cmp	x4, #8
	b.lo	613f
	add	x9, x8, x21
	sub	x9, x9, x3
	cmp	x9, #32
	b.hs	280f
613:
	mov	x9, xzr
316:
	add	x10, x9, x8
	sub	x8, x4, x9
	add	x9, x3, x9
	add	x10, x21, x10
602:
	ldrb	w11, [x9], #1
	subs	x8, x8, #1
	strb	w11, [x10], #1
	b.ne	602b
	b	911f
885:
	ldr	x8, [x20, #32]
	cmp	x4, x8
	b.ls	613f
983:
	mov	w1, wzr
	mov	w0, wzr
	strb	wzr, [x20]
	ldp	x20, x19, [sp, #48]
	ldr	x23, [sp, #16]
	ldp	x22, x21, [sp, #32]
	ldp	x29, x30, [sp], #64
	ret
613:
	mov	w0, wzr
	mov	w1, #1
	ldp	x20, x19, [sp, #48]
	ldr	x23, [sp, #16]
	ldp	x22, x21, [sp, #32]
	ldp	x29, x30, [sp], #64
	ret
263:
	ldr	x19, [x20, #8]
	stp	xzr, xzr, [x20, #16]
	sub	x9, x19, x3
	cmp	x9, x4
	b.hs	613f
	cmp	x4, #8
	mov	x8, xzr
	b.lo	625f
	cmp	x9, #32
	b.lo	625f
	cmp	x4, #32
	b.hs	447f
	mov	x8, xzr
	b	983f
613:
	mov	x0, x19
	mov	x1, x3
	mov	x2, x4
	mov	x22, x4
	bl	memmove
	mov	x4, x22
	b	598f
187:
	mov	x1, x3
	mov	x2, x4
	bl	memmove
32:
	mov	w0, wzr
	stp	x21, x22, [x20, #8]
	mov	w1, #2
	str	x19, [x20, #24]
	ldp	x20, x19, [sp, #48]
	ldr	x23, [sp, #16]
	ldp	x22, x21, [sp, #32]
	ldp	x29, x30, [sp], #64
	ret
943:
	mov	x1, x3
	mov	x2, x4
	bl	memmove
911:
	mov	w1, wzr
	mov	w0, wzr
	stp	x21, x22, [x20, #8]
	str	x19, [x20, #24]
	str	w22, [x20, #4]
	ldp	x20, x19, [sp, #48]
	ldr	x23, [sp, #16]
	ldp	x22, x21, [sp, #32]
	ldp	x29, x30, [sp], #64
	ret
239:
	mov	x0, x1
	mov	x21, x1
	mov	x1, x8
	mov	x2, x4
	bl	memmove
	mov	x1, x21
	mov	x4, x19
	b	659f
447:
	and	x9, x4, #0x18
	and	x8, x4, #0xffffffffffffffe0
	add	x10, x3, #16
	add	x11, x19, #16
	and	x12, x4, #0xffffffffffffffe0
976:
	ldp	q0, q1, [x10, #-16]
	subs	x12, x12, #32
	add	x10, x10, #32
	stp	q0, q1, [x11, #-16]
	add	x11, x11, #32
	b.ne	976b
	cmp	x4, x8
	b.eq	598f
	cbz	x9, 625f
983:
	mov	x11, x8
	and	x8, x4, #0xfffffffffffffff8
	sub	x9, x11, x8
	add	x10, x3, x11
	add	x11, x19, x11
885:
	ldr	d0, [x10], #8
	adds	x9, x9, #8
	str	d0, [x11], #8
	b.ne	885b
	cmp	x4, x8
	b.eq	598f
625:
	sub	x9, x4, x8
	add	x10, x3, x8
	add	x8, x19, x8
602:
	ldrb	w11, [x10], #1
	subs	x9, x9, #1
	strb	w11, [x8], #1
	b.ne	602b
598:
	stp	x19, x4, [x20, #8]
	str	x21, [x20, #24]
613:
	mov	w8, #1
	mov	w1, wzr
	mov	w0, wzr
	strb	w8, [x20]
	str	w4, [x20, #4]
	ldp	x20, x19, [sp, #48]
	ldr	x23, [sp, #16]
	ldp	x22, x21, [sp, #32]
	ldp	x29, x30, [sp], #64
	ret
118:
	cmp	x4, #32
	b.hs	481f
	mov	x9, xzr
	b	983f
280:
	cmp	x4, #32
	b.hs	62f
	mov	x9, xzr
	b	187f
481:
	add	x12, x8, x21
	and	x10, x4, #0x18
	and	x9, x4, #0xffffffffffffffe0
	add	x11, x3, #16
	add	x12, x12, #16
	and	x13, x4, #0xffffffffffffffe0
976:
	ldp	q0, q1, [x11, #-16]
	subs	x13, x13, #32
	add	x11, x11, #32
	stp	q0, q1, [x12, #-16]
	add	x12, x12, #32
	b.ne	976b
	cmp	x4, x9
	b.eq	32b
	cbz	x10, 62b
983:
	mov	x11, x9
	and	x9, x4, #0xfffffffffffffff8
	add	x12, x8, x11
	sub	x10, x11, x9
	add	x11, x3, x11
	add	x12, x21, x12
885:
	ldr	d0, [x11], #8
	adds	x10, x10, #8
	str	d0, [x12], #8
	b.ne	885b
	cmp	x4, x9
	b.eq	32b
	b	62b
62:
	add	x12, x8, x21
	and	x10, x4, #0x18
	and	x9, x4, #0xffffffffffffffe0
	add	x11, x3, #16
	add	x12, x12, #16
	and	x13, x4, #0xffffffffffffffe0
976:
	ldp	q0, q1, [x11, #-16]
	subs	x13, x13, #32
	add	x11, x11, #32
	stp	q0, q1, [x12, #-16]
	add	x12, x12, #32
	b.ne	976b
	cmp	x4, x9
	b.eq	911b
	cbz	x10, 316b
187:
	mov	x11, x9
	and	x9, x4, #0xfffffffffffffff8
	add	x12, x8, x11
	sub	x10, x11, x9
	add	x11, x3, x11
	add	x12, x21, x12
885:
	ldr	d0, [x11], #8
	adds	x10, x10, #8
	str	d0, [x12], #8
	b.ne	885b
	cmp	x4, x9
	b.eq	911b
	b	316b
148:
	add	x0, x20, #8
	mov	x1, x4
	mov	x21, x3
	mov	x22, x4
	bl	std_alloc.vec.Vec.grow_amortized._737312a0b24cb88f
	cbz	w0, 599f
	ldp	x8, x19, [x20, #16]
	mov	x4, x22
	mov	x3, x21
	b	93b
946:
	add	x0, x20, #8
	mov	x1, x4
	mov	x21, x3
	mov	x22, x4
	bl	std_alloc.vec.Vec.grow_amortized._737312a0b24cb88f
	cbz	w0, 599f
	ldp	x8, x19, [x20, #16]
	mov	x4, x22
	mov	x3, x21
	b	659b
599:
	mov	w1, wzr
	mov	w0, #1
	ldp	x20, x19, [sp, #48]
	ldr	x23, [sp, #16]
	ldp	x22, x21, [sp, #32]
	ldp	x29, x30, [sp], #64
	ret
192:
	and	x10, x4, #0x18
	and	x9, x4, #0x7fffffffffffffe0
	add	x11, x8, #16
	add	x12, x1, #16
	and	x13, x4, #0x7fffffffffffffe0
976:
	ldp	q0, q1, [x11, #-16]
	subs	x13, x13, #32
	add	x11, x11, #32
	stp	q0, q1, [x12, #-16]
	add	x12, x12, #32
	b.ne	976b
	cmp	x4, x9
	b.eq	659f
	cbz	x10, 893f
307:
	mov	x12, x9
	and	x9, x4, #0x7ffffffffffffff8
	sub	x10, x12, x9
	add	x11, x8, x12
	add	x12, x1, x12
93:
	ldr	d0, [x11], #8
	adds	x10, x10, #8
	str	d0, [x12], #8
	b.ne	93b
	cmp	x4, x9
	b.eq	659f
893:
	sub	x10, x4, x9
	add	x8, x8, x9
	add	x9, x1, x9
602:
	ldrb	w11, [x8], #1
	subs	x10, x10, #1
	strb	w11, [x9], #1
	b.ne	602b
659:
	ldr	x0, [x20, #8]
	ldr	x8, [x20, #24]
	stp	x1, x4, [x20, #8]
	str	x4, [x20, #24]
	cbz	x8, 613b
	bl	rattle_dealloc
	mov	x4, x19
	b	613b
	.section	.text.unlikely.std_alloc.vec.Vec.grow_amortized._737312a0b24cb88f,"ax",@progbits
	.p2align	2
std_alloc.vec.Vec.grow_amortized._737312a0b24cb88f:
	ldr	x8, [x0, #8]
	cmn	x8, x1
	b.lo	598f
	mov	w0, wzr
	ret
598:
	stp	x29, x30, [sp, #-32]!
	ldr	x10, [x0, #16]
	add	x9, x8, x1
	mov	w11, #8
	cmp	x9, #8
	stp	x20, x19, [sp, #16]
	mov	x29, sp
	lsl	x12, x10, #1
	csel	x11, x9, x11, hi
	lsr	x13, x10, #62
	cmp	x11, x12
	csel	x9, x11, x12, hi
	cmp	x13, #0
	csel	x19, x9, x11, eq
	tbnz	x19, #63, 187f
	cbz	x10, 983f
	mov	x20, x0
	ldr	x0, [x0]
	mov	x1, x8
	mov	x2, x19
	mov	w3, #1
	bl	rattle_realloc
	tbz	w0, #0, 187f
613:
	mov	w0, #1
	str	x1, [x20]
	str	x19, [x20, #16]
	ldp	x20, x19, [sp, #16]
	ldp	x29, x30, [sp], #32
	ret
983:
	mov	x20, x0
	mov	x0, x9
	mov	w1, #1
	bl	rattle_alloc
	tbnz	w0, #0, 613b
187:
	mov	w0, wzr
	ldp	x20, x19, [sp, #16]
	ldp	x29, x30, [sp], #32
	ret
	.section	.rodata.cst8,"aM",@progbits,8
	.p2align	3
.LCebea39d0_0:
	.word	0
	.word	1
	.section	.text.tc_queues.delivering.deliver_whole._a1898dc8b9c98594,"ax",@progbits
	.p2align	2
tc_queues.delivering.deliver_whole._a1898dc8b9c98594:
	stp	x29, x30, [sp, #-64]!
	stp	x20, x19, [sp, #48]
	add	x20, x1, x2, lsl #6
	mov	x29, sp
	stp	x24, x23, [sp, #16]
	ldr	x8, [x20, #40]
	ldr	x9, [x20, #24]
	stp	x22, x21, [sp, #32]
	cmp	x9, x8
	b.ls	939f
	ldr	x9, [x20, #32]
	add	x8, x9, x8
	ldp	x9, x10, [x20, #8]
	cmp	x8, x10
	csel	x10, xzr, x10, lo
	sub	x8, x8, x10
	add	x21, x9, x8, lsl #5
	ldr	x22, [x21, #16]
	cmp	x4, x22
	b.ls	93f
	tbnz	x4, #63, 613f
	mov	x19, x0
	mov	x0, x4
	mov	w1, #1
	mov	x22, x4
	mov	x23, x3
	bl	rattle_alloc
	mov	x9, x0
	mov	x0, x19
	tbz	w9, #0, 613f
	sub	x9, x1, x23
	mov	x8, x23
	mov	x2, x22
	cmp	x9, x22
	b.hs	187f
	cmp	x2, #8
	mov	x9, xzr
	b.lo	893f
	sub	x10, x1, x8
	cmp	x10, #32
	b.lo	893f
	cmp	x2, #32
	b.hs	192f
	mov	x9, xzr
	b	943f
939:
	adrp	x8, .LCebea39d0_0
	strb	wzr, [x0]
	ldr	d0, [x8, :lo12:.LCebea39d0_0]
	stur	d0, [x0, #4]
	str	wzr, [x0, #12]
	ldp	x20, x19, [sp, #48]
	ldp	x22, x21, [sp, #32]
	ldp	x24, x23, [sp, #16]
	ldp	x29, x30, [sp], #64
	ret
93:
	ldr	x19, [x21]
	stp	xzr, xzr, [x21, #8]
	sub	x9, x19, x3
	cmp	x9, x4
	b.hs	983f
	cmp	x4, #8
	mov	x8, xzr
	b.lo	625f
	cmp	x9, #32
	b.lo	625f
	cmp	x4, #32
	b.hs	447f
	mov	x8, xzr
	b	32f
613:
	mov	w8, #1
	stur	xzr, [x0, #4]
	strb	w8, [x0]
	str	wzr, [x0, #12]
	ldp	x20, x19, [sp, #48]
	ldp	x22, x21, [sp, #32]
	ldp	x24, x23, [sp, #16]
	ldp	x29, x30, [sp], #64
	ret
983:
	mov	x23, x0
	mov	x0, x19
	mov	x1, x3
	mov	x2, x4
	mov	x24, x4
	bl	memmove
	mov	x4, x24
	mov	x0, x23
	b	598f
187:
	mov	x0, x1
	mov	x23, x1
	mov	x1, x8
	bl	memmove
	mov	x1, x23
	mov	x2, x22
	mov	x0, x19
	b	885f
447:
	and	x9, x4, #0x18
	and	x8, x4, #0xffffffffffffffe0
	add	x10, x3, #16
	add	x11, x19, #16
	and	x12, x4, #0xffffffffffffffe0
976:
	ldp	q0, q1, [x10, #-16]
	subs	x12, x12, #32
	add	x10, x10, #32
	stp	q0, q1, [x11, #-16]
	add	x11, x11, #32
	b.ne	976b
	cmp	x4, x8
	b.eq	598f
	cbz	x9, 625f
32:
	mov	x11, x8
	and	x8, x4, #0xfffffffffffffff8
	sub	x9, x11, x8
	add	x10, x3, x11
	add	x11, x19, x11
93:
	ldr	d0, [x10], #8
	adds	x9, x9, #8
	str	d0, [x11], #8
	b.ne	93b
	cmp	x4, x8
	b.eq	598f
625:
	sub	x9, x4, x8
	add	x10, x3, x8
	add	x8, x19, x8
602:
	ldrb	w11, [x10], #1
	subs	x9, x9, #1
	strb	w11, [x8], #1
	b.ne	602b
598:
	stp	x19, x4, [x21]
	str	x22, [x21, #16]
93:
	ldr	x8, [x20, #40]
	add	x8, x8, #1
	str	x8, [x20, #40]
	mov	w8, #1
	strb	wzr, [x0]
	str	w8, [x0, #4]
	str	xzr, [x0, #8]
	ldp	x20, x19, [sp, #48]
	ldp	x22, x21, [sp, #32]
	ldp	x24, x23, [sp, #16]
	ldp	x29, x30, [sp], #64
	ret
192:
	and	x10, x2, #0x18
	and	x9, x2, #0x7fffffffffffffe0
	add	x11, x8, #16
	add	x12, x1, #16
	and	x13, x2, #0x7fffffffffffffe0
976:
	ldp	q0, q1, [x11, #-16]
	subs	x13, x13, #32
	add	x11, x11, #32
	stp	q0, q1, [x12, #-16]
	add	x12, x12, #32
	b.ne	976b
	cmp	x2, x9
	b.eq	885f
	cbz	x10, 893f
943:
	mov	x12, x9
	and	x9, x2, #0x7ffffffffffffff8
	sub	x10, x12, x9
	add	x11, x8, x12
	add	x12, x1, x12
659:
	ldr	d0, [x11], #8
	adds	x10, x10, #8
	str	d0, [x12], #8
	b.ne	659b
	cmp	x2, x9
	b.eq	885f
893:
	sub	x10, x2, x9
	add	x8, x8, x9
	add	x9, x1, x9
602:
	ldrb	w11, [x8], #1
	subs	x10, x10, #1
	strb	w11, [x9], #1
	b.ne	602b
885:
	ldr	x8, [x21]
	ldr	x9, [x21, #16]
	stp	x1, x2, [x21]
	str	x2, [x21, #16]
	cbz	x9, 93b
	mov	x0, x8
	bl	rattle_dealloc
	mov	x0, x19
	b	93b
	.section	.text.tc_queues.committing.roll_back._811965396801c8f8,"ax",@progbits
	.p2align	2
tc_queues.committing.roll_back._811965396801c8f8:
	sub	sp, sp, #64
	stp	x20, x19, [sp, #48]
	ldr	x20, [x0, #8]
	stp	x29, x30, [sp, #16]
	add	x29, sp, #16
	stp	x22, x21, [sp, #32]
	cbz	x20, 976f
	mov	x19, x0
	mov	x21, xzr
	b	93f
62:
	add	x21, x21, #1
	cmp	x21, x20
	b.eq	976f
93:
	ldr	x8, [x19]
	add	x22, x8, x21, lsl #6
	ldr	x8, [x22, #48]
	cbnz	x8, 659f
	b	62b
93:
	ldr	x8, [x22, #48]
	subs	x8, x8, #1
	str	x8, [x22, #48]
	b.eq	62b
659:
	ldr	x9, [x22, #40]
	add	x8, x8, x9
	ldr	x9, [x22, #24]
	sub	x8, x8, #1
	cmp	x9, x8
	b.ls	174f
	ldr	x9, [x22, #32]
	add	x8, x9, x8
	ldp	x9, x10, [x22, #8]
	cmp	x8, x10
	csel	x10, xzr, x10, lo
	sub	x8, x8, x10
	add	x8, x9, x8, lsl #5
	sub	x9, x29, #1
	ldr	x0, [x8]
	ldr	x10, [x8, #16]
	stp	x9, xzr, [x8]
	str	xzr, [x8, #16]
	cbz	x10, 93b
	bl	rattle_dealloc
	b	93b
976:
	ldp	x20, x19, [sp, #48]
	ldp	x22, x21, [sp, #32]
	ldp	x29, x30, [sp, #16]
	add	sp, sp, #64
	ret
174:
	brk	#0x1
	.section	.text.unlikely.tc_link.farm.full,"ax",@progbits
	.p2align	2
tc_link.farm.full:
	ldrb	w8, [x0]
	cbz	w8, 613f
	ret
613:
	mov	w8, #1
	mov	w9, #257
	strb	w8, [x0]
	sturh	w9, [x0, #3]
	ret
	.section	.text.unlikely.tc_link.farm.ahead,"ax",@progbits
	.p2align	2
tc_link.farm.ahead:
	ldrb	w8, [x0]
	cbz	w8, 613f
	ret
613:
	mov	w8, #1
	strb	w8, [x0, #4]
	ret
	.section	.text.unlikely.tc_link.farm.outside,"ax",@progbits
	.p2align	2
tc_link.farm.outside:
	ldrb	w8, [x0]
	cmp	w8, #2
	b.eq	350f
	cmp	w8, #1
	mov	w8, #2
	mov	w9, #1
	strb	w8, [x0]
	strb	w9, [x0, #2]
350:
	ret
	.section	.text.tc_queues.queues.Queues_GrowingRoom.take._f9a2c2c7976df771,"ax",@progbits
	.p2align	2
tc_queues.queues.Queues_GrowingRoom.take._f9a2c2c7976df771:
	sub	sp, sp, #80
	ldp	x11, x12, [x1, #24]
	and	x9, x2, #0xffff
	ldp	x8, x10, [x1]
	stp	xzr, xzr, [sp, #16]
	cmp	x12, x9
	b.ls	613f
	ldrh	w9, [x11, x9, lsl #1]
	cmp	x10, x9
	b.ls	93f
	lsl	x11, x9, #6
62:
	add	x9, x8, x11
	ldr	x8, [x9, #40]
	cbz	x8, 983f
	ldr	x8, [x9, #24]
	cbz	x8, 174f
	ldr	x12, [x9, #32]
	ldp	x11, x10, [x9, #8]
	add	x13, x12, #1
	cmp	x13, x10
	add	x12, x11, x12, lsl #5
	csel	x14, xzr, x10, lo
	sub	x13, x13, x14
	sub	x14, x8, #1
	stp	x14, x13, [x9, #24]
	cmp	x10, x14
	ldur	q0, [x12, #8]
	ldr	x8, [x12]
	ldr	x12, [x12, #24]
	str	q0, [sp, #48]
	b.ls	174f
	add	x13, x13, x14
	ldr	q0, [sp, #48]
	cmp	x13, x10
	csel	x10, xzr, x10, lo
	str	q0, [sp, #32]
	sub	x10, x13, x10
	add	x10, x11, x10, lsl #5
	add	x11, sp, #79
	stp	x11, xzr, [x10]
	stp	xzr, x12, [x10, #16]
	ldr	x10, [x9, #24]
	ldr	x11, [x9, #40]
	add	x10, x10, #1
	sub	x11, x11, #1
	str	x10, [x9, #24]
	str	x11, [x9, #40]
	mov	w9, #1
	b	659f
613:
	cbz	x10, 93f
	mov	x11, xzr
335:
	ldrh	w12, [x8, x11]
	cmp	w9, w12
	b.eq	62b
	subs	x10, x10, #1
	add	x11, x11, #64
	b.ne	335b
93:
	ldr	q0, [sp, #16]
	stp	xzr, xzr, [x0]
	str	q0, [sp]
	str	q0, [x0, #16]
	add	sp, sp, #80
	ret
983:
	mov	x9, xzr
	stp	xzr, xzr, [sp, #32]
659:
	ldr	q0, [sp, #32]
	str	q0, [sp, #16]
	ldr	q0, [sp, #16]
	stp	x9, x8, [x0]
	str	q0, [sp]
	str	q0, [x0, #16]
	add	sp, sp, #80
	ret
174:
	brk	#0x1
	.section	.text.core.fmt.formatter.Formatter.write_piece._bca9c74da7838be5,"ax",@progbits
	.p2align	2
core.fmt.formatter.Formatter.write_piece._bca9c74da7838be5:
	sub	sp, sp, #176
	stp	x22, x21, [sp, #144]
	mov	w8, #32
	mov	x21, x0
	str	w8, [x21, #104]!
	mov	x22, x21
	mov	x8, #-1
	str	wzr, [x21, #12]
	str	xzr, [x22, #4]!
	str	x8, [x21, #16]
	ldrb	w8, [x1]
	stp	x29, x30, [sp, #80]
	add	x29, sp, #80
	stp	x28, x27, [sp, #96]
	cmp	w8, #3
	stp	x26, x25, [sp, #112]
	stp	x24, x23, [sp, #128]
	stp	x20, x19, [sp, #160]
	b.le	983f
	cmp	w8, #5
	b.le	280f
	cmp	w8, #6
	b.eq	659f
	cmp	w8, #7
	b.ne	885f
	ldrb	w8, [x1, #8]
	adrp	x9, .Lswitch.table.core.fmt.formatter.Formatter.write_piece._bca9c74da7838be5
	add	x9, x9, :lo12:.Lswitch.table.core.fmt.formatter.Formatter.write_piece._bca9c74da7838be5
	adrp	x10, .Lswitch.table.core.fmt.formatter.Formatter.write_piece._bca9c74da7838be5_.636
	add	x10, x10, :lo12:.Lswitch.table.core.fmt.formatter.Formatter.write_piece._bca9c74da7838be5_.636
	ldr	q0, [x21]
	ldr	x19, [x9, x8, lsl #3]
	ldr	x20, [x10, x8, lsl #3]
	mov	w8, #32
	ldrb	w27, [x1, #1]
	ldr	x11, [x21, #16]
	ldrb	w26, [x1, #9]
	ldrb	w25, [x1, #10]
	ldrb	w24, [x1, #11]
	str	w8, [x0, #104]
	mov	x8, #-1
	mov	x23, x1
	adrp	x1, .LT88d9ed27
	add	x1, x1, :lo12:.LT88d9ed27
	str	x8, [x0, #120]
	ldr	x8, [x0, #128]
	mov	x28, x0
	mov	w2, #7
	str	q0, [sp, #16]
	str	x11, [sp, #32]
	str	xzr, [x22]
	str	wzr, [x22, #8]
	cbnz	x8, 412f
	bl	std.io.traits.AdapterWrite.write_str._5349ec06ad6c886c
	and	w8, w0, #0xff
	tbnz	w8, #0, 375f
613:
	mov	w8, #32
	mov	x0, x28
	cmp	w27, #100
	str	w8, [x28, #104]
	mov	x8, #-1
	str	xzr, [x22]
	str	wzr, [x22, #8]
	str	x8, [x28, #120]
	stp	xzr, xzr, [x29, #-32]
	stur	xzr, [x29, #-16]
	b.lo	474f
	mov	w8, #41
	mov	w10, #205
	mul	w8, w27, w8
	lsr	w9, w8, #12
	mov	w8, #100
	msub	w8, w9, w8, w27
	and	w11, w8, #0xff
	mul	w10, w11, w10
	mov	w11, #10
	lsr	w10, w10, #11
	msub	w8, w10, w11, w8
	orr	w10, w10, #0x30
	sturb	w10, [x29, #-10]
	orr	w8, w8, #0x30
	sturb	w8, [x29, #-9]
	mov	w8, #21
	b	607f
983:
	mov	w19, wzr
	cmp	w8, #1
	b.gt	118f
	cbz	w8, 349f
	b	93f
118:
	cmp	w8, #2
	b.ne	349f
93:
	ldr	q0, [x21]
	ldr	x8, [x21, #16]
	mov	w19, #32
	mov	x20, #-1
	add	x1, x1, #8
	str	w19, [x0, #104]
	stur	q0, [x29, #-32]
	mov	x23, x0
	stur	x8, [x29, #-16]
	str	xzr, [x22]
	str	wzr, [x22, #8]
	str	x20, [x0, #120]
	bl	core.fmt.formatter.Formatter.write_piece._f520552a59309161
	and	w8, w0, #0xff
	tbz	w8, #0, 263f
	mov	w19, #1
	b	232f
280:
	cmp	w8, #4
	b.ne	93f
	ldr	x8, [x0, #128]
	cbnz	x8, 168f
	adrp	x1, .LT4c832dbb
	add	x1, x1, :lo12:.LT4c832dbb
	mov	w2, #14
	b	976f
659:
	ldr	x8, [x21, #16]
	ldr	q0, [x21]
	mov	w9, #32
	ldrb	w19, [x1, #1]
	ldrb	w23, [x1, #2]
	mov	x24, x0
	str	x8, [sp, #32]
	ldrb	w20, [x1, #3]
	adrp	x1, .LT58992c68
	add	x1, x1, :lo12:.LT58992c68
	ldr	x8, [x0, #128]
	str	w9, [x0, #104]
	mov	x9, #-1
	mov	w2, #5
	str	q0, [sp, #16]
	str	xzr, [x22]
	str	wzr, [x22, #8]
	str	x9, [x0, #120]
	cbnz	x8, 498f
	bl	std.io.traits.AdapterWrite.write_str._5349ec06ad6c886c
	and	w8, w0, #0xff
	tbnz	w8, #0, 32f
983:
	mov	w8, #32
	mov	x0, x24
	cmp	w19, #100
	str	w8, [x24, #104]
	mov	x8, #-1
	str	xzr, [x22]
	str	wzr, [x22, #8]
	str	x8, [x24, #120]
	stp	xzr, xzr, [x29, #-32]
	stur	xzr, [x29, #-16]
	b.lo	118f
	mov	w8, #41
	mov	w10, #205
	mul	w8, w19, w8
	lsr	w9, w8, #12
	mov	w8, #100
	msub	w8, w9, w8, w19
	and	w11, w8, #0xff
	mul	w10, w11, w10
	mov	w11, #10
	lsr	w10, w10, #11
	msub	w8, w10, w11, w8
	orr	w10, w10, #0x30
	sturb	w10, [x29, #-10]
	orr	w8, w8, #0x30
	sturb	w8, [x29, #-9]
	mov	w8, #21
	b	625f
885:
	ldr	x8, [x0, #128]
	cbnz	x8, 939f
	adrp	x1, .LTa336d741
	add	x1, x1, :lo12:.LTa336d741
	mov	w2, #16
	b	976f
93:
	ldr	x8, [x0, #128]
	cbnz	x8, 179f
	adrp	x1, .LT1bf80fd2
	add	x1, x1, :lo12:.LT1bf80fd2
	mov	w2, #13
976:
	ldp	x20, x19, [sp, #160]
	ldp	x22, x21, [sp, #144]
	ldp	x24, x23, [sp, #128]
	ldp	x26, x25, [sp, #112]
	ldp	x28, x27, [sp, #96]
	ldp	x29, x30, [sp, #80]
	add	sp, sp, #176
	b	std.io.traits.AdapterWrite.write_str._5349ec06ad6c886c
263:
	ldr	x8, [x23, #128]
	mov	x0, x23
	adrp	x1, .LT3235efc0
	add	x1, x1, :lo12:.LT3235efc0
	mov	w2, #1
	str	w19, [x23, #104]
	str	xzr, [x22]
	str	wzr, [x22, #8]
	str	x20, [x23, #120]
	cbnz	x8, 970f
	bl	std.io.traits.AdapterWrite.write_str._5349ec06ad6c886c
447:
	and	w19, w0, #0xff
232:
	ldur	q0, [x29, #-32]
	ldur	x8, [x29, #-16]
	b	387f
118:
	cmp	w19, #10
	b.lo	187f
	mov	w8, #205
	mov	w9, #10
	mul	w8, w19, w8
	lsr	w8, w8, #11
	msub	w9, w8, w9, w19
	orr	w8, w8, #0x30
	sturb	w8, [x29, #-10]
	mov	w8, #22
	orr	w9, w9, #0x30
	sturb	w9, [x29, #-9]
	b	893f
474:
	cmp	w27, #10
	b.lo	943f
	mov	w8, #205
	mov	w9, #10
	mul	w8, w27, w8
	lsr	w8, w8, #11
	msub	w9, w8, w9, w27
	orr	w8, w8, #0x30
	sturb	w8, [x29, #-10]
	mov	w8, #22
	orr	w9, w9, #0x30
	sturb	w9, [x29, #-9]
	b	585f
187:
	mov	w8, #23
	mov	w9, w19
625:
	sub	x10, x29, #32
	orr	w9, w9, #0x30
	strb	w9, [x10, x8]
893:
	sub	x9, x29, #32
	ldr	x10, [x0, #128]
	mov	w11, #24
	add	x1, x9, x8
	mov	w9, #45
	sub	x2, x11, x8
	mov	x19, x0
	sturb	w9, [x1, #-1]
	cbnz	x10, 110f
	bl	std.io.traits.AdapterWrite.write_str._5349ec06ad6c886c
	and	w8, w0, #0xff
	tbz	w8, #0, 613f
32:
	mov	w19, #1
93:
	ldr	q0, [sp, #16]
	ldr	x8, [sp, #32]
	b	387f
943:
	mov	w8, #23
	mov	w9, w27
607:
	sub	x10, x29, #32
	orr	w9, w9, #0x30
	strb	w9, [x10, x8]
585:
	sub	x9, x29, #32
	ldr	x10, [x0, #128]
	mov	w11, #24
	add	x1, x9, x8
	mov	w9, #45
	sub	x2, x11, x8
	mov	x27, x0
	sturb	w9, [x1, #-1]
	cbnz	x10, 873f
	bl	std.io.traits.AdapterWrite.write_str._5349ec06ad6c886c
	and	w8, w0, #0xff
	tbnz	w8, #0, 375f
187:
	mov	w8, #32
	ldr	x9, [x27, #128]
	mov	x0, x27
	str	w8, [x27, #104]
	mov	x8, #-1
	adrp	x1, .LT73ff4f13
	add	x1, x1, :lo12:.LT73ff4f13
	mov	w2, #7
	str	xzr, [x22]
	str	wzr, [x22, #8]
	str	x8, [x27, #120]
	cbnz	x9, 563f
	bl	std.io.traits.AdapterWrite.write_str._5349ec06ad6c886c
	and	w8, w0, #0xff
	tbnz	w8, #0, 375f
943:
	mov	w8, #32
	ldr	x9, [x27, #128]
	mov	x0, x27
	str	w8, [x27, #104]
	mov	x8, #-1
	mov	x1, x20
	mov	x2, x19
	str	xzr, [x22]
	str	wzr, [x22, #8]
	str	x8, [x27, #120]
	cbnz	x9, 672f
	bl	std.io.traits.AdapterWrite.write_str._5349ec06ad6c886c
	and	w8, w0, #0xff
	tbnz	w8, #0, 375f
911:
	mov	w8, #32
	ldr	x9, [x27, #128]
	adrp	x1, .LTd2821792
	add	x1, x1, :lo12:.LTd2821792
	str	w8, [x27, #104]
	mov	x8, #-1
	mov	x19, x27
	mov	x0, x27
	mov	w2, #4
	str	xzr, [x22]
	str	wzr, [x22, #8]
	str	x8, [x27, #120]
	cbnz	x9, 51f
	bl	std.io.traits.AdapterWrite.write_str._5349ec06ad6c886c
	and	w8, w0, #0xff
	tbnz	w8, #0, 375f
239:
	mov	w8, #32
	mov	x0, x19
	cmp	w26, #100
	str	w8, [x19, #104]
	mov	x8, #-1
	str	xzr, [x22]
	str	wzr, [x22, #8]
	str	x8, [x19, #120]
	stp	xzr, xzr, [x29, #-32]
	stur	xzr, [x29, #-16]
	b.lo	118f
	mov	w8, #41
	mov	w10, #205
	mul	w8, w26, w8
	lsr	w9, w8, #12
	mov	w8, #100
	msub	w8, w9, w8, w26
	and	w11, w8, #0xff
	mul	w10, w11, w10
	mov	w11, #10
	lsr	w10, w10, #11
	msub	w8, w10, w11, w8
	orr	w10, w10, #0x30
	sturb	w10, [x29, #-10]
	orr	w8, w8, #0x30
	sturb	w8, [x29, #-9]
	mov	w8, #21
	b	893f
498:
	bl	core.fmt.formatter.Formatter.write_indented._1ac78889755d2eb3
	and	w8, w0, #0xff
	tbz	w8, #0, 983b
	b	32b
412:
	bl	core.fmt.formatter.Formatter.write_indented._1ac78889755d2eb3
	and	w8, w0, #0xff
	tbz	w8, #0, 613b
	b	375f
939:
	adrp	x1, .LTa336d741
	add	x1, x1, :lo12:.LTa336d741
	mov	w2, #16
	b	976f
168:
	adrp	x1, .LT4c832dbb
	add	x1, x1, :lo12:.LT4c832dbb
	mov	w2, #14
	b	976f
179:
	adrp	x1, .LT1bf80fd2
	add	x1, x1, :lo12:.LT1bf80fd2
	mov	w2, #13
976:
	ldp	x20, x19, [sp, #160]
	ldp	x22, x21, [sp, #144]
	ldp	x24, x23, [sp, #128]
	ldp	x26, x25, [sp, #112]
	ldp	x28, x27, [sp, #96]
	ldp	x29, x30, [sp, #80]
	add	sp, sp, #176
	b	core.fmt.formatter.Formatter.write_indented._1ac78889755d2eb3
970:
	bl	core.fmt.formatter.Formatter.write_indented._1ac78889755d2eb3
	b	447b
110:
	bl	core.fmt.formatter.Formatter.write_indented._1ac78889755d2eb3
	and	w8, w0, #0xff
	tbnz	w8, #0, 32b
613:
	mov	w8, #32
	ldr	x9, [x19, #128]
	adrp	x1, .LT37337163
	add	x1, x1, :lo12:.LT37337163
	str	w8, [x19, #104]
	mov	x8, #-1
	str	x8, [x19, #120]
	mov	x24, x19
	mov	x0, x19
	mov	w2, #1
	mov	w19, #1
	str	xzr, [x22]
	str	wzr, [x22, #8]
	cbnz	x9, 498f
	bl	std.io.traits.AdapterWrite.write_str._5349ec06ad6c886c
	and	w8, w0, #0xff
	tbnz	w8, #0, 93b
613:
	mov	w8, #32
	ldr	x9, [x24, #128]
	str	xzr, [x22]
	str	w8, [x24, #104]
	mov	x8, #-1
	str	x8, [x24, #120]
	and	w8, w23, #0x1
	sub	x23, x29, #32
	orr	w8, w8, #0x30
	str	wzr, [x22, #8]
	sturb	w8, [x29, #-9]
	mov	w8, #45
	stp	xzr, xzr, [x29, #-32]
	stur	xzr, [x29, #-18]
	sturb	w8, [x29, #-10]
	cbnz	x9, 625f
	add	x1, x23, #23
	mov	x0, x24
	mov	w2, #1
	mov	x19, x24
	bl	std.io.traits.AdapterWrite.write_str._5349ec06ad6c886c
	and	w8, w0, #0xff
	tbnz	w8, #0, 32b
983:
	mov	w8, #32
	ldr	x9, [x19, #128]
	adrp	x1, .LT37337163
	add	x1, x1, :lo12:.LT37337163
	str	w8, [x19, #104]
	mov	x8, #-1
	str	x8, [x19, #120]
	mov	x24, x19
	mov	x0, x19
	mov	w2, #1
	mov	w19, #1
	str	xzr, [x22]
	str	wzr, [x22, #8]
	cbnz	x9, 412f
	bl	std.io.traits.AdapterWrite.write_str._5349ec06ad6c886c
	and	w8, w0, #0xff
	tbnz	w8, #0, 93b
599:
	mov	w8, #32
	ldr	x9, [x24, #128]
	str	xzr, [x22]
	str	w8, [x24, #104]
	mov	x8, #-1
	str	x8, [x24, #120]
	and	w8, w20, #0x1
	orr	w8, w8, #0x30
	str	wzr, [x22, #8]
	sturb	w8, [x29, #-9]
	mov	w8, #45
	stp	xzr, xzr, [x29, #-32]
	stur	xzr, [x29, #-18]
	sturb	w8, [x29, #-10]
	cbnz	x9, 585f
	add	x1, x23, #23
	mov	x0, x24
	mov	w2, #1
	mov	x19, x24
	bl	std.io.traits.AdapterWrite.write_str._5349ec06ad6c886c
	and	w8, w0, #0xff
	tbnz	w8, #0, 32b
307:
	mov	w8, #32
	ldr	x9, [x19, #128]
	mov	x0, x19
	str	w8, [x19, #104]
	mov	x8, #-1
	adrp	x1, .LT3235efc0
	add	x1, x1, :lo12:.LT3235efc0
	mov	w2, #1
	str	xzr, [x22]
	str	wzr, [x22, #8]
	str	x8, [x19, #120]
	cbnz	x9, 970f
	bl	std.io.traits.AdapterWrite.write_str._5349ec06ad6c886c
447:
	and	w19, w0, #0xff
	b	93b
873:
	bl	core.fmt.formatter.Formatter.write_indented._1ac78889755d2eb3
	and	w8, w0, #0xff
	tbnz	w8, #0, 375f
	b	187b
498:
	bl	core.fmt.formatter.Formatter.write_indented._1ac78889755d2eb3
	and	w8, w0, #0xff
	tbz	w8, #0, 613b
	b	93b
563:
	bl	core.fmt.formatter.Formatter.write_indented._1ac78889755d2eb3
	and	w8, w0, #0xff
	tbnz	w8, #0, 375f
	b	943b
118:
	cmp	w26, #10
	b.lo	613f
	mov	w8, #205
	mov	w9, #10
	mul	w8, w26, w8
	lsr	w8, w8, #11
	msub	w9, w8, w9, w26
	orr	w8, w8, #0x30
	sturb	w8, [x29, #-10]
	mov	w8, #22
	orr	w9, w9, #0x30
	sturb	w9, [x29, #-9]
	b	607f
625:
	sub	x8, x29, #32
	mov	x0, x24
	mov	w2, #1
	add	x1, x8, #23
	mov	x19, x24
	bl	core.fmt.formatter.Formatter.write_indented._1ac78889755d2eb3
	and	w8, w0, #0xff
	tbnz	w8, #0, 32b
	b	983b
672:
	bl	core.fmt.formatter.Formatter.write_indented._1ac78889755d2eb3
	and	w8, w0, #0xff
	tbnz	w8, #0, 375f
	b	911b
613:
	mov	w8, #23
	mov	w9, w26
893:
	sub	x10, x29, #32
	orr	w9, w9, #0x30
	strb	w9, [x10, x8]
607:
	sub	x9, x29, #32
	ldr	x10, [x0, #128]
	mov	w11, #24
	add	x1, x9, x8
	mov	w9, #45
	sub	x2, x11, x8
	mov	x19, x0
	sturb	w9, [x1, #-1]
	cbnz	x10, 498f
	bl	std.io.traits.AdapterWrite.write_str._5349ec06ad6c886c
	and	w8, w0, #0xff
	tbnz	w8, #0, 375f
613:
	mov	w8, #32
	ldr	x9, [x19, #128]
	mov	x0, x19
	str	w8, [x19, #104]
	mov	x8, #-1
	adrp	x1, .LT8d0368cc
	add	x1, x1, :lo12:.LT8d0368cc
	mov	w2, #9
	str	xzr, [x22]
	str	wzr, [x22, #8]
	str	x8, [x19, #120]
	cbnz	x9, 110f
	bl	std.io.traits.AdapterWrite.write_str._5349ec06ad6c886c
	and	w8, w0, #0xff
	tbnz	w8, #0, 375f
983:
	mov	w8, #32
	ldr	x9, [x19, #128]
	mov	x0, x19
	str	w8, [x19, #104]
	mov	x8, #-1
	str	x8, [x19, #120]
	orr	w8, w25, #0x30
	sub	x19, x29, #32
	sturb	w8, [x29, #-9]
	mov	w8, #45
	str	xzr, [x22]
	str	wzr, [x22, #8]
	stp	xzr, xzr, [x29, #-32]
	stur	xzr, [x29, #-18]
	sturb	w8, [x29, #-10]
	cbnz	x9, 625f
	add	x1, x19, #23
	mov	w2, #1
	mov	x20, x0
	bl	std.io.traits.AdapterWrite.write_str._5349ec06ad6c886c
	and	w8, w0, #0xff
	tbnz	w8, #0, 375f
187:
	mov	w8, #32
	ldr	x9, [x20, #128]
	mov	x0, x20
	str	w8, [x20, #104]
	mov	x8, #-1
	adrp	x1, .LTb6ef8972
	add	x1, x1, :lo12:.LTb6ef8972
	mov	w2, #6
	str	xzr, [x22]
	str	wzr, [x22, #8]
	str	x8, [x20, #120]
	cbnz	x9, 873f
	bl	std.io.traits.AdapterWrite.write_str._5349ec06ad6c886c
	and	w8, w0, #0xff
	tbnz	w8, #0, 375f
943:
	mov	w8, #32
	ldr	x9, [x20, #128]
	str	xzr, [x22]
	str	w8, [x20, #104]
	mov	x8, #-1
	str	x8, [x20, #120]
	orr	w8, w24, #0x30
	sturb	w8, [x29, #-9]
	mov	w8, #45
	str	wzr, [x22, #8]
	stp	xzr, xzr, [x29, #-32]
	stur	xzr, [x29, #-18]
	str	x20, [sp, #8]
	sturb	w8, [x29, #-10]
	cbnz	x9, 93f
	add	x1, x19, #23
	ldr	x19, [sp, #8]
	mov	w2, #1
	mov	w20, #1
	mov	x0, x19
	bl	std.io.traits.AdapterWrite.write_str._5349ec06ad6c886c
659:
	ldr	x9, [sp, #32]
	ldr	q0, [sp, #16]
	mov	x8, x19
	and	w10, w0, #0xff
	mov	w19, w20
	str	x9, [x21, #16]
	mov	x9, x23
	str	q0, [x21]
	tbnz	w10, #0, 349f
	ldr	x10, [x21, #16]
	ldr	q0, [x21]
	mov	w11, #32
	ldrb	w24, [x9, #12]
	ldrb	w19, [x9, #13]
	adrp	x1, .LT3ff918de
	add	x1, x1, :lo12:.LT3ff918de
	ldr	x20, [x9, #16]
	ldr	x9, [x8, #128]
	str	x10, [sp, #32]
	mov	x10, #-1
	str	q0, [sp, #16]
	str	w11, [x8, #104]
	str	xzr, [x22]
	str	wzr, [x22, #8]
	str	x10, [x8, #120]
	cbnz	x9, 659f
	ldr	x0, [sp, #8]
	mov	w2, #12
	bl	std.io.traits.AdapterWrite.write_str._5349ec06ad6c886c
	and	w8, w0, #0xff
	tbnz	w8, #0, 375f
885:
	ldr	x9, [sp, #8]
	mov	w8, #32
	str	xzr, [x22]
	str	wzr, [x22, #8]
	str	w8, [x9, #104]
	mov	x8, #-1
	str	x8, [x9, #120]
	orr	w8, w24, #0x30
	ldr	x9, [x9, #128]
	sturb	w8, [x29, #-9]
	mov	w8, #45
	sturb	w8, [x29, #-10]
	sub	x8, x29, #32
	add	x1, x8, #23
	stp	xzr, xzr, [x29, #-32]
	stur	xzr, [x29, #-18]
	cbnz	x9, 885f
	ldr	x0, [sp, #8]
	mov	w2, #1
	bl	std.io.traits.AdapterWrite.write_str._5349ec06ad6c886c
	and	w8, w0, #0xff
	tbnz	w8, #0, 375f
263:
	ldr	x9, [sp, #8]
	mov	w8, #32
	adrp	x1, .LTd511dccf
	add	x1, x1, :lo12:.LTd511dccf
	str	xzr, [x22]
	ldr	x10, [x9, #128]
	str	w8, [x9, #104]
	mov	x8, #-1
	str	wzr, [x22, #8]
	str	x8, [x9, #120]
	cbnz	x10, 263f
	ldr	x0, [sp, #8]
	mov	w2, #8
	bl	std.io.traits.AdapterWrite.write_str._5349ec06ad6c886c
	and	w8, w0, #0xff
	tbnz	w8, #0, 375f
489:
	ldr	x9, [sp, #8]
	mov	w8, #32
	cmp	w19, #100
	str	xzr, [x22]
	str	w8, [x9, #104]
	mov	x8, #-1
	str	wzr, [x22, #8]
	str	x8, [x9, #120]
	stp	xzr, xzr, [x29, #-32]
	stur	xzr, [x29, #-16]
	b.lo	118f
	mov	w8, #41
	mov	w10, #205
	mul	w8, w19, w8
	lsr	w9, w8, #12
	mov	w8, #100
	msub	w8, w9, w8, w19
	and	w11, w8, #0xff
	mul	w10, w11, w10
	mov	w11, #10
	lsr	w10, w10, #11
	msub	w8, w10, w11, w8
	orr	w10, w10, #0x30
	sturb	w10, [x29, #-10]
	orr	w8, w8, #0x30
	sturb	w8, [x29, #-9]
	mov	w8, #21
	b	893f
412:
	bl	core.fmt.formatter.Formatter.write_indented._1ac78889755d2eb3
	and	w8, w0, #0xff
	tbz	w8, #0, 599b
	b	93b
51:
	bl	core.fmt.formatter.Formatter.write_indented._1ac78889755d2eb3
	and	w8, w0, #0xff
	tbz	w8, #0, 239b
	b	375f
585:
	sub	x8, x29, #32
	mov	x0, x24
	mov	w2, #1
	add	x1, x8, #23
	mov	x19, x24
	bl	core.fmt.formatter.Formatter.write_indented._1ac78889755d2eb3
	and	w8, w0, #0xff
	tbnz	w8, #0, 32b
	b	307b
498:
	bl	core.fmt.formatter.Formatter.write_indented._1ac78889755d2eb3
	and	w8, w0, #0xff
	tbnz	w8, #0, 375f
	b	613b
970:
	bl	core.fmt.formatter.Formatter.write_indented._1ac78889755d2eb3
	b	447b
110:
	bl	core.fmt.formatter.Formatter.write_indented._1ac78889755d2eb3
	and	w8, w0, #0xff
	tbz	w8, #0, 983b
	b	375f
625:
	sub	x8, x29, #32
	mov	w2, #1
	mov	x20, x0
	add	x1, x8, #23
	bl	core.fmt.formatter.Formatter.write_indented._1ac78889755d2eb3
	and	w8, w0, #0xff
	tbnz	w8, #0, 375f
	b	187b
873:
	bl	core.fmt.formatter.Formatter.write_indented._1ac78889755d2eb3
	and	w8, w0, #0xff
	tbz	w8, #0, 943b
	b	375f
93:
	ldr	x19, [sp, #8]
	sub	x8, x29, #32
	mov	w2, #1
	add	x1, x8, #23
	mov	w20, #1
	mov	x0, x19
	bl	core.fmt.formatter.Formatter.write_indented._1ac78889755d2eb3
	b	659b
659:
	ldr	x0, [sp, #8]
	mov	w2, #12
	bl	core.fmt.formatter.Formatter.write_indented._1ac78889755d2eb3
	and	w8, w0, #0xff
	tbz	w8, #0, 885b
	b	375f
118:
	cmp	w19, #10
	b.lo	613f
	mov	w8, #205
	mov	w9, #10
	mul	w8, w19, w8
	lsr	w8, w8, #11
	msub	w9, w8, w9, w19
	orr	w8, w8, #0x30
	sturb	w8, [x29, #-10]
	mov	w8, #22
	orr	w9, w9, #0x30
	sturb	w9, [x29, #-9]
	b	93f
885:
	ldr	x0, [sp, #8]
	mov	w2, #1
	bl	core.fmt.formatter.Formatter.write_indented._1ac78889755d2eb3
	and	w8, w0, #0xff
	tbnz	w8, #0, 375f
	b	263b
613:
	mov	w8, #23
	mov	w9, w19
893:
	sub	x10, x29, #32
	orr	w9, w9, #0x30
	strb	w9, [x10, x8]
93:
	ldr	x9, [sp, #8]
	sub	x10, x29, #32
	mov	w11, #24
	add	x1, x10, x8
	mov	w10, #45
	sub	x2, x11, x8
	ldr	x9, [x9, #128]
	sturb	w10, [x1, #-1]
	cbnz	x9, 885f
	ldr	x0, [sp, #8]
	bl	std.io.traits.AdapterWrite.write_str._5349ec06ad6c886c
	and	w8, w0, #0xff
	tbnz	w8, #0, 375f
93:
	ldr	x9, [sp, #8]
	mov	w8, #32
	adrp	x1, .LTa04389c8
	add	x1, x1, :lo12:.LTa04389c8
	str	xzr, [x22]
	ldr	x10, [x9, #128]
	str	w8, [x9, #104]
	mov	x8, #-1
	str	wzr, [x22, #8]
	str	x8, [x9, #120]
	cbnz	x10, 93f
	ldr	x0, [sp, #8]
	mov	w2, #10
	bl	std.io.traits.AdapterWrite.write_str._5349ec06ad6c886c
	and	w8, w0, #0xff
	tbnz	w8, #0, 375f
613:
	mov	x19, #62915
	ldr	x9, [sp, #8]
	mov	w8, #32
	movk	x19, #23592, lsl #16
	cmp	x20, #100
	str	xzr, [x22]
	movk	x19, #49807, lsl #32
	str	w8, [x9, #104]
	mov	x8, #-1
	movk	x19, #10485, lsl #48
	str	wzr, [x22, #8]
	str	x8, [x9, #120]
	stp	xzr, xzr, [x29, #-32]
	stur	xzr, [x29, #-16]
	b.lo	983f
	mov	x8, xzr
405:
	lsr	x10, x20, #2
	mov	x9, x20
	mov	w11, #205
	umulh	x10, x10, x19
	lsr	x20, x10, #2
	mov	w10, #100
	msub	w10, w20, w10, w9
	lsr	x9, x9, #4
	cmp	x9, #624
	and	w12, w10, #0xff
	mul	w11, w12, w11
	mov	w12, #10
	lsr	w11, w11, #11
	msub	w10, w11, w12, w10
	sub	x12, x29, #32
	orr	w9, w11, #0x30
	add	x12, x12, x8
	sub	x8, x8, #2
	strb	w9, [x12, #22]
	orr	w10, w10, #0x30
	strb	w10, [x12, #23]
	b.hi	405b
	add	x8, x8, #24
	b	118f
263:
	ldr	x0, [sp, #8]
	mov	w2, #8
	bl	core.fmt.formatter.Formatter.write_indented._1ac78889755d2eb3
	and	w8, w0, #0xff
	tbz	w8, #0, 489b
	b	375f
983:
	mov	w8, #24
118:
	cmp	x20, #10
	b.lo	625f
	and	w9, w20, #0xff
	mov	w10, #205
	sub	x11, x29, #32
	mul	w9, w9, w10
	mov	w10, #10
	add	x11, x11, x8
	sub	x8, x8, #2
	lsr	w9, w9, #11
	msub	w10, w9, w10, w20
	orr	w9, w9, #0x30
	sturb	w9, [x11, #-2]
	orr	w10, w10, #0x30
	sturb	w10, [x11, #-1]
	b	659f
625:
	sub	x8, x8, #1
	sub	x9, x29, #32
	orr	w10, w20, #0x30
	strb	w10, [x9, x8]
659:
	ldr	x9, [sp, #8]
	sub	x10, x29, #32
	mov	w11, #24
	add	x1, x10, x8
	mov	w10, #45
	sub	x2, x11, x8
	ldr	x9, [x9, #128]
	sturb	w10, [x1, #-1]
	cbnz	x9, 659f
	ldr	x0, [sp, #8]
	bl	std.io.traits.AdapterWrite.write_str._5349ec06ad6c886c
	ldr	q0, [sp, #16]
	ldr	x8, [sp, #32]
	and	w9, w0, #0xff
	str	q0, [x21]
	str	x8, [x21, #16]
	tbz	w9, #0, 263f
983:
	mov	w19, #1
	b	349f
885:
	ldr	x0, [sp, #8]
	bl	core.fmt.formatter.Formatter.write_indented._1ac78889755d2eb3
	and	w8, w0, #0xff
	tbnz	w8, #0, 375f
	b	93b
93:
	ldr	x0, [sp, #8]
	mov	w2, #10
	bl	core.fmt.formatter.Formatter.write_indented._1ac78889755d2eb3
	and	w8, w0, #0xff
	tbz	w8, #0, 613b
375:
	ldr	q0, [sp, #16]
	ldr	x8, [sp, #32]
	mov	w19, #1
387:
	str	q0, [x21]
	str	x8, [x21, #16]
349:
	mov	w0, w19
	ldp	x20, x19, [sp, #160]
	ldp	x22, x21, [sp, #144]
	ldp	x24, x23, [sp, #128]
	ldp	x26, x25, [sp, #112]
	ldp	x28, x27, [sp, #96]
	ldp	x29, x30, [sp, #80]
	add	sp, sp, #176
	ret
659:
	ldr	x0, [sp, #8]
	bl	core.fmt.formatter.Formatter.write_indented._1ac78889755d2eb3
	ldr	q0, [sp, #16]
	ldr	x8, [sp, #32]
	and	w9, w0, #0xff
	str	q0, [x21]
	str	x8, [x21, #16]
	tbnz	w9, #0, 983b
263:
	ldr	x20, [x23, #32]
	cbz	x20, 552f
	ldr	x24, [x23, #24]
	mov	x25, xzr
93:
	ldr	x8, [x21, #16]
	add	x9, x24, x25, lsl #4
	ldr	q0, [x21]
	mov	w10, #32
	adrp	x1, .LT6778b9a6
	add	x1, x1, :lo12:.LT6778b9a6
	str	x8, [sp, #32]
	ldr	x8, [sp, #8]
	ldrh	w27, [x9]
	ldr	x26, [x9, #8]
	str	q0, [sp, #16]
	ldr	x9, [x8, #128]
	str	w10, [x8, #104]
	mov	x10, #-1
	str	xzr, [x22]
	str	wzr, [x22, #8]
	str	x10, [x8, #120]
	cbnz	x9, 93f
	ldr	x0, [sp, #8]
	mov	w2, #7
	bl	std.io.traits.AdapterWrite.write_str._5349ec06ad6c886c
	and	w8, w0, #0xff
	tbnz	w8, #0, 375b
659:
	ldr	x9, [sp, #8]
	mov	w8, #32
	cmp	w27, #100
	str	xzr, [x22]
	str	w8, [x9, #104]
	mov	x8, #-1
	str	wzr, [x22, #8]
	str	x8, [x9, #120]
	stp	xzr, xzr, [x29, #-32]
	stur	xzr, [x29, #-16]
	b.lo	613f
	mov	x8, xzr
405:
	lsr	x10, x27, #2
	mov	x9, x27
	mov	w11, #205
	umulh	x10, x10, x19
	lsr	x27, x10, #2
	mov	w10, #100
	msub	w10, w27, w10, w9
	lsr	x9, x9, #4
	cmp	x9, #624
	and	w12, w10, #0xff
	mul	w11, w12, w11
	mov	w12, #10
	lsr	w11, w11, #11
	msub	w10, w11, w12, w10
	sub	x12, x29, #32
	orr	w9, w11, #0x30
	add	x12, x12, x8
	sub	x8, x8, #2
	strb	w9, [x12, #22]
	orr	w10, w10, #0x30
	strb	w10, [x12, #23]
	b.hi	405b
	add	x8, x8, #24
	b	118f
613:
	mov	w8, #24
118:
	cmp	x27, #10
	b.lo	625f
	and	w9, w27, #0xff
	mov	w10, #205
	sub	x11, x29, #32
	mul	w9, w9, w10
	mov	w10, #10
	add	x11, x11, x8
	sub	x8, x8, #2
	lsr	w9, w9, #11
	msub	w10, w9, w10, w27
	orr	w9, w9, #0x30
	sturb	w9, [x11, #-2]
	orr	w10, w10, #0x30
	sturb	w10, [x11, #-1]
	b	885f
625:
	sub	x8, x8, #1
	sub	x9, x29, #32
	orr	w10, w27, #0x30
	strb	w10, [x9, x8]
885:
	ldr	x9, [sp, #8]
	sub	x10, x29, #32
	mov	w11, #24
	add	x1, x10, x8
	mov	w10, #45
	sub	x2, x11, x8
	ldr	x9, [x9, #128]
	sturb	w10, [x1, #-1]
	cbnz	x9, 659f
	ldr	x0, [sp, #8]
	bl	std.io.traits.AdapterWrite.write_str._5349ec06ad6c886c
	and	w8, w0, #0xff
	tbnz	w8, #0, 375b
885:
	ldr	x9, [sp, #8]
	mov	w8, #32
	adrp	x1, .LT37337163
	add	x1, x1, :lo12:.LT37337163
	str	xzr, [x22]
	ldr	x10, [x9, #128]
	str	w8, [x9, #104]
	mov	x8, #-1
	str	wzr, [x22, #8]
	str	x8, [x9, #120]
	cbnz	x10, 885f
	ldr	x0, [sp, #8]
	mov	w2, #1
	bl	std.io.traits.AdapterWrite.write_str._5349ec06ad6c886c
	and	w8, w0, #0xff
	tbnz	w8, #0, 375b
263:
	ldr	x9, [sp, #8]
	mov	w8, #32
	cmp	x26, #100
	str	xzr, [x22]
	str	w8, [x9, #104]
	mov	x8, #-1
	str	wzr, [x22, #8]
	str	x8, [x9, #120]
	stp	xzr, xzr, [x29, #-32]
	stur	xzr, [x29, #-16]
	b.lo	613f
	mov	x8, xzr
405:
	lsr	x10, x26, #2
	mov	x9, x26
	mov	w11, #205
	umulh	x10, x10, x19
	lsr	x26, x10, #2
	mov	w10, #100
	msub	w10, w26, w10, w9
	lsr	x9, x9, #4
	cmp	x9, #624
	and	w12, w10, #0xff
	mul	w11, w12, w11
	mov	w12, #10
	lsr	w11, w11, #11
	msub	w10, w11, w12, w10
	sub	x12, x29, #32
	orr	w9, w11, #0x30
	add	x12, x12, x8
	sub	x8, x8, #2
	strb	w9, [x12, #22]
	orr	w10, w10, #0x30
	strb	w10, [x12, #23]
	b.hi	405b
	add	x8, x8, #24
	b	118f
613:
	mov	w8, #24
118:
	cmp	x26, #10
	b.lo	625f
	and	w9, w26, #0xff
	mov	w10, #205
	sub	x11, x29, #32
	mul	w9, w9, w10
	mov	w10, #10
	add	x11, x11, x8
	sub	x8, x8, #2
	lsr	w9, w9, #11
	msub	w10, w9, w10, w26
	orr	w9, w9, #0x30
	sturb	w9, [x11, #-2]
	orr	w10, w10, #0x30
	sturb	w10, [x11, #-1]
	b	489f
625:
	sub	x8, x8, #1
	sub	x9, x29, #32
	orr	w10, w26, #0x30
	strb	w10, [x9, x8]
489:
	ldr	x9, [sp, #8]
	sub	x10, x29, #32
	mov	w11, #24
	add	x1, x10, x8
	mov	w10, #45
	sub	x2, x11, x8
	ldr	x9, [x9, #128]
	sturb	w10, [x1, #-1]
	cbnz	x9, 263f
	ldr	x0, [sp, #8]
	bl	std.io.traits.AdapterWrite.write_str._5349ec06ad6c886c
	ldr	q0, [sp, #16]
	ldr	x8, [sp, #32]
	and	w9, w0, #0xff
	str	q0, [x21]
	str	x8, [x21, #16]
	tbnz	w9, #0, 983b
62:
	add	x25, x25, #1
	cmp	x25, x20
	b.ne	93b
	b	552f
93:
	ldr	x0, [sp, #8]
	mov	w2, #7
	bl	core.fmt.formatter.Formatter.write_indented._1ac78889755d2eb3
	and	w8, w0, #0xff
	tbz	w8, #0, 659b
	b	375b
659:
	ldr	x0, [sp, #8]
	bl	core.fmt.formatter.Formatter.write_indented._1ac78889755d2eb3
	and	w8, w0, #0xff
	tbz	w8, #0, 885b
	b	375b
885:
	ldr	x0, [sp, #8]
	mov	w2, #1
	bl	core.fmt.formatter.Formatter.write_indented._1ac78889755d2eb3
	and	w8, w0, #0xff
	tbz	w8, #0, 263b
	b	375b
263:
	ldr	x0, [sp, #8]
	bl	core.fmt.formatter.Formatter.write_indented._1ac78889755d2eb3
	ldr	q0, [sp, #16]
	ldr	x8, [sp, #32]
	and	w9, w0, #0xff
	str	q0, [x21]
	str	x8, [x21, #16]
	tbz	w9, #0, 62b
	b	983b
552:
	ldr	x20, [x23, #56]
	cbz	x20, 375f
	ldr	x23, [x23, #48]
	mov	x24, xzr
93:
	ldr	x8, [x21, #16]
	add	x9, x23, x24, lsl #4
	ldr	q0, [x21]
	mov	w10, #32
	adrp	x1, .LTb35dea14
	add	x1, x1, :lo12:.LTb35dea14
	str	x8, [sp, #32]
	ldr	x8, [sp, #8]
	ldrb	w26, [x9]
	ldr	x25, [x9, #8]
	str	q0, [sp, #16]
	ldr	x9, [x8, #128]
	str	w10, [x8, #104]
	mov	x10, #-1
	str	xzr, [x22]
	str	wzr, [x22, #8]
	str	x10, [x8, #120]
	cbnz	x9, 93f
	ldr	x0, [sp, #8]
	mov	w2, #5
	bl	std.io.traits.AdapterWrite.write_str._5349ec06ad6c886c
	and	w8, w0, #0xff
	tbnz	w8, #0, 375b
659:
	ldr	x9, [sp, #8]
	mov	w8, #32
	cmp	w26, #100
	str	xzr, [x22]
	str	w8, [x9, #104]
	mov	x8, #-1
	str	wzr, [x22, #8]
	str	x8, [x9, #120]
	stp	xzr, xzr, [x29, #-32]
	stur	xzr, [x29, #-16]
	b.lo	118f
	mov	w8, #41
	mov	w10, #205
	mul	w8, w26, w8
	lsr	w9, w8, #12
	mov	w8, #100
	msub	w8, w9, w8, w26
	and	w11, w8, #0xff
	mul	w10, w11, w10
	mov	w11, #10
	lsr	w10, w10, #11
	msub	w8, w10, w11, w8
	orr	w10, w10, #0x30
	sturb	w10, [x29, #-10]
	orr	w8, w8, #0x30
	sturb	w8, [x29, #-9]
	mov	w8, #21
	b	625f
118:
	cmp	w26, #10
	b.lo	613f
	mov	w8, #205
	mov	w9, #10
	mul	w8, w26, w8
	lsr	w8, w8, #11
	msub	w9, w8, w9, w26
	orr	w8, w8, #0x30
	sturb	w8, [x29, #-10]
	mov	w8, #22
	orr	w9, w9, #0x30
	sturb	w9, [x29, #-9]
	b	885f
613:
	mov	w8, #23
	mov	w9, w26
625:
	sub	x10, x29, #32
	orr	w9, w9, #0x30
	strb	w9, [x10, x8]
885:
	ldr	x9, [sp, #8]
	sub	x10, x29, #32
	mov	w11, #24
	add	x1, x10, x8
	mov	w10, #45
	sub	x2, x11, x8
	ldr	x9, [x9, #128]
	sturb	w10, [x1, #-1]
	cbnz	x9, 659f
	ldr	x0, [sp, #8]
	bl	std.io.traits.AdapterWrite.write_str._5349ec06ad6c886c
	and	w8, w0, #0xff
	tbnz	w8, #0, 375b
885:
	ldr	x9, [sp, #8]
	mov	w8, #32
	adrp	x1, .LT37337163
	add	x1, x1, :lo12:.LT37337163
	str	xzr, [x22]
	ldr	x10, [x9, #128]
	str	w8, [x9, #104]
	mov	x8, #-1
	str	wzr, [x22, #8]
	str	x8, [x9, #120]
	cbnz	x10, 885f
	ldr	x0, [sp, #8]
	mov	w2, #1
	bl	std.io.traits.AdapterWrite.write_str._5349ec06ad6c886c
	and	w8, w0, #0xff
	tbnz	w8, #0, 375b
263:
	ldr	x9, [sp, #8]
	mov	w8, #32
	cmp	x25, #100
	str	xzr, [x22]
	str	w8, [x9, #104]
	mov	x8, #-1
	str	wzr, [x22, #8]
	str	x8, [x9, #120]
	stp	xzr, xzr, [x29, #-32]
	stur	xzr, [x29, #-16]
	b.lo	613f
	mov	x8, xzr
405:
	lsr	x10, x25, #2
	mov	x9, x25
	mov	w11, #205
	umulh	x10, x10, x19
	lsr	x25, x10, #2
	mov	w10, #100
	msub	w10, w25, w10, w9
	lsr	x9, x9, #4
	cmp	x9, #624
	and	w12, w10, #0xff
	mul	w11, w12, w11
	mov	w12, #10
	lsr	w11, w11, #11
	msub	w10, w11, w12, w10
	sub	x12, x29, #32
	orr	w9, w11, #0x30
	add	x12, x12, x8
	sub	x8, x8, #2
	strb	w9, [x12, #22]
	orr	w10, w10, #0x30
	strb	w10, [x12, #23]
	b.hi	405b
	add	x8, x8, #24
	b	118f
613:
	mov	w8, #24
118:
	cmp	x25, #10
	b.lo	625f
	and	w9, w25, #0xff
	mov	w10, #205
	sub	x11, x29, #32
	mul	w9, w9, w10
	mov	w10, #10
	add	x11, x11, x8
	sub	x8, x8, #2
	lsr	w9, w9, #11
	msub	w10, w9, w10, w25
	orr	w9, w9, #0x30
	sturb	w9, [x11, #-2]
	orr	w10, w10, #0x30
	sturb	w10, [x11, #-1]
	b	489f
625:
	sub	x8, x8, #1
	sub	x9, x29, #32
	orr	w10, w25, #0x30
	strb	w10, [x9, x8]
489:
	ldr	x9, [sp, #8]
	sub	x10, x29, #32
	mov	w11, #24
	add	x1, x10, x8
	mov	w10, #45
	sub	x2, x11, x8
	ldr	x9, [x9, #128]
	sturb	w10, [x1, #-1]
	cbnz	x9, 263f
	ldr	x0, [sp, #8]
	bl	std.io.traits.AdapterWrite.write_str._5349ec06ad6c886c
	ldr	q0, [sp, #16]
	ldr	x8, [sp, #32]
	and	w9, w0, #0xff
	str	q0, [x21]
	str	x8, [x21, #16]
	tbnz	w9, #0, 983b
62:
	add	x24, x24, #1
	cmp	x24, x20
	b.ne	93b
	b	375f
93:
	ldr	x0, [sp, #8]
	mov	w2, #5
	bl	core.fmt.formatter.Formatter.write_indented._1ac78889755d2eb3
	and	w8, w0, #0xff
	tbz	w8, #0, 659b
	b	375b
659:
	ldr	x0, [sp, #8]
	bl	core.fmt.formatter.Formatter.write_indented._1ac78889755d2eb3
	and	w8, w0, #0xff
	tbz	w8, #0, 885b
	b	375b
885:
	ldr	x0, [sp, #8]
	mov	w2, #1
	bl	core.fmt.formatter.Formatter.write_indented._1ac78889755d2eb3
	and	w8, w0, #0xff
	tbz	w8, #0, 263b
	b	375b
263:
	ldr	x0, [sp, #8]
	bl	core.fmt.formatter.Formatter.write_indented._1ac78889755d2eb3
	ldr	q0, [sp, #16]
	ldr	x8, [sp, #32]
	and	w9, w0, #0xff
	str	q0, [x21]
	str	x8, [x21, #16]
	tbz	w9, #0, 62b
	b	983b
375:
	ldr	x8, [sp, #8]
	ldr	x8, [x8, #128]
	cbnz	x8, 93f
	ldr	x0, [sp, #8]
	adrp	x1, .LT3235efc0
	add	x1, x1, :lo12:.LT3235efc0
	mov	w2, #1
	bl	std.io.traits.AdapterWrite.write_str._5349ec06ad6c886c
	and	w19, w0, #0xff
	b	349b
93:
	ldr	x0, [sp, #8]
	adrp	x1, .LT3235efc0
	add	x1, x1, :lo12:.LT3235efc0
	mov	w2, #1
	bl	core.fmt.formatter.Formatter.write_indented._1ac78889755d2eb3
	and	w19, w0, #0xff
	b	349b
	.section	.text.core.fmt.formatter.Formatter.write_piece._f520552a59309161,"ax",@progbits
	.p2align	2
core.fmt.formatter.Formatter.write_piece._f520552a59309161:
	sub	sp, sp, #192
	stp	x22, x21, [sp, #160]
	mov	w8, #32
	mov	x22, x0
	stp	x24, x23, [sp, #144]
	str	w8, [x22, #104]!
	mov	x23, x22
	mov	x8, #-1
	str	wzr, [x22, #12]
	str	xzr, [x23, #4]!
	str	x8, [x22, #16]
	ldrb	w8, [x1]
	stp	x20, x19, [sp, #176]
	mov	x19, x0
	stp	x29, x30, [sp, #112]
	add	x29, sp, #112
	cmp	w8, #2
	str	x25, [sp, #128]
	b.gt	118f
	cbz	w8, 93f
	cmp	w8, #1
	b.ne	885f
	ldur	x8, [x1, #4]
	ldr	w9, [x1, #12]
	mov	x0, x19
	ldr	q0, [x22]
	ldrb	w20, [x1, #1]
	adrp	x1, .LT8e6b4b41
	add	x1, x1, :lo12:.LT8e6b4b41
	str	x8, [sp, #48]
	ldr	x8, [x22, #16]
	str	w9, [sp, #56]
	mov	w9, #32
	mov	w2, #8
	stur	x8, [x29, #-16]
	ldr	x8, [x19, #128]
	str	w9, [x19, #104]
	mov	x9, #-1
	stur	q0, [x29, #-32]
	str	xzr, [x23]
	str	wzr, [x23, #8]
	str	x9, [x19, #120]
	cbnz	x8, 970f
	bl	std.io.traits.AdapterWrite.write_str._5349ec06ad6c886c
	and	w8, w0, #0xff
	tbnz	w8, #0, 875f
613:
	mov	w8, #32
	cmp	w20, #100
	str	xzr, [x23]
	str	w8, [x19, #104]
	mov	x8, #-1
	str	wzr, [x23, #8]
	str	x8, [x19, #120]
	stp	xzr, xzr, [sp]
	str	xzr, [sp, #16]
	b.lo	474f
	mov	w8, #41
	mov	w10, #205
	mul	w8, w20, w8
	lsr	w9, w8, #12
	mov	w8, #100
	msub	w8, w9, w8, w20
	and	w11, w8, #0xff
	mul	w10, w11, w10
	mov	w11, #10
	lsr	w10, w10, #11
	msub	w8, w10, w11, w8
	orr	w10, w10, #0x30
	strb	w10, [sp, #22]
	orr	w8, w8, #0x30
	strb	w8, [sp, #23]
	mov	w8, #21
	b	583f
118:
	cmp	w8, #3
	b.eq	659f
	cmp	w8, #4
	b.ne	943f
	ldrb	w8, [x1, #1]
	ldr	w9, [x1, #4]
	adrp	x1, .LTabc2e8bf
	add	x1, x1, :lo12:.LTabc2e8bf
	ldr	q0, [x22]
	mov	x0, x19
	strb	w8, [x29, #28]
	adrp	x8, .LTabc2e8bf
	add	x8, x8, :lo12:.LTabc2e8bf
	str	w9, [x29, #24]
	mov	w9, #5
	mov	w2, #5
	stp	x8, x9, [sp]
	add	x8, x29, #28
	adrp	x9, .LT37337163
	add	x9, x9, :lo12:.LT37337163
	str	q0, [sp, #48]
	stp	x8, x9, [sp, #16]
	mov	w8, #1
	add	x9, x29, #24
	stp	x8, x9, [sp, #32]
	ldr	x8, [x22, #16]
	mov	x9, #-1
	str	xzr, [x23]
	str	x8, [sp, #64]
	mov	w8, #32
	str	w8, [x19, #104]
	ldr	x8, [x19, #128]
	str	wzr, [x23, #8]
	str	x9, [x19, #120]
	cbnz	x8, 110f
	bl	std.io.traits.AdapterWrite.write_str._5349ec06ad6c886c
	and	w8, w0, #0xff
	tbnz	w8, #0, 190f
602:
	ldrb	w10, [x29, #28]
	mov	w8, #32
	str	xzr, [x23]
	str	w8, [x19, #104]
	mov	x8, #-1
	cmp	w10, #100
	str	wzr, [x23, #8]
	str	x8, [x19, #120]
	stp	xzr, xzr, [x29, #-32]
	stur	xzr, [x29, #-16]
	b.lo	937f
	mov	w8, #41
	mul	w8, w10, w8
	lsr	w9, w8, #12
	mov	w8, #100
	msub	w8, w9, w8, w10
	mov	w10, #205
	and	w11, w8, #0xff
	mul	w10, w11, w10
	mov	w11, #10
	lsr	w10, w10, #11
	msub	w8, w10, w11, w8
	orr	w10, w10, #0x30
	sturb	w10, [x29, #-10]
	orr	w8, w8, #0x30
	sturb	w8, [x29, #-9]
	mov	w8, #21
	b	625f
93:
	ldr	x8, [x1, #8]
	ldr	w9, [x1, #16]
	mov	x0, x19
	ldr	q0, [x22]
	ldrb	w24, [x1, #1]
	mov	w2, #6
	str	x8, [sp, #48]
	ldr	x8, [x22, #16]
	ldrb	w21, [x1, #4]
	str	w9, [sp, #56]
	mov	w9, #32
	ldrb	w20, [x1, #5]
	stur	x8, [x29, #-16]
	adrp	x1, .LTbd49f353
	add	x1, x1, :lo12:.LTbd49f353
	ldr	x8, [x19, #128]
	str	w9, [x19, #104]
	mov	x9, #-1
	stur	q0, [x29, #-32]
	str	xzr, [x23]
	str	wzr, [x23, #8]
	str	x9, [x19, #120]
	cbnz	x8, 498f
	bl	std.io.traits.AdapterWrite.write_str._5349ec06ad6c886c
	and	w8, w0, #0xff
	tbnz	w8, #0, 875f
983:
	mov	w8, #32
	cmp	w24, #100
	str	xzr, [x23]
	str	w8, [x19, #104]
	mov	x8, #-1
	str	wzr, [x23, #8]
	str	x8, [x19, #120]
	stp	xzr, xzr, [sp]
	str	xzr, [sp, #16]
	b.lo	118f
	mov	w8, #41
	mov	w10, #205
	mul	w8, w24, w8
	lsr	w9, w8, #12
	mov	w8, #100
	msub	w8, w9, w8, w24
	and	w11, w8, #0xff
	mul	w10, w11, w10
	mov	w11, #10
	lsr	w10, w10, #11
	msub	w8, w10, w11, w8
	orr	w10, w10, #0x30
	strb	w10, [sp, #22]
	orr	w8, w8, #0x30
	strb	w8, [sp, #23]
	mov	w8, #21
	b	239f
659:
	ldr	x8, [x22, #16]
	ldp	x20, x21, [x1, #8]
	ldr	q0, [x22]
	mov	w9, #32
	mov	x0, x19
	ldrb	w25, [x1, #1]
	ldrb	w24, [x1, #2]
	adrp	x1, .LTe93b56bc
	add	x1, x1, :lo12:.LTe93b56bc
	stur	x8, [x29, #-16]
	ldr	x8, [x19, #128]
	str	w9, [x19, #104]
	mov	x9, #-1
	mov	w2, #5
	stur	q0, [x29, #-32]
	str	xzr, [x23]
	str	wzr, [x23, #8]
	str	x9, [x19, #120]
	cbnz	x8, 412f
	bl	std.io.traits.AdapterWrite.write_str._5349ec06ad6c886c
	and	w8, w0, #0xff
	tbnz	w8, #0, 875f
187:
	mov	w8, #32
	cmp	w25, #100
	str	xzr, [x23]
	str	w8, [x19, #104]
	mov	x8, #-1
	str	wzr, [x23, #8]
	str	x8, [x19, #120]
	stp	xzr, xzr, [sp]
	str	xzr, [sp, #16]
	b.lo	280f
	mov	w8, #41
	mov	w10, #205
	mul	w8, w25, w8
	lsr	w9, w8, #12
	mov	w8, #100
	msub	w8, w9, w8, w25
	and	w11, w8, #0xff
	mul	w10, w11, w10
	mov	w11, #10
	lsr	w10, w10, #11
	msub	w8, w10, w11, w8
	orr	w10, w10, #0x30
	strb	w10, [sp, #22]
	orr	w8, w8, #0x30
	strb	w8, [sp, #23]
	mov	w8, #21
	b	349f
885:
	ldr	x8, [x22, #16]
	ldp	x20, x21, [x1, #8]
	ldr	q0, [x22]
	mov	w9, #32
	mov	x0, x19
	ldrb	w25, [x1, #1]
	ldrh	w24, [x1, #2]
	adrp	x1, .LT2c3e4e31
	add	x1, x1, :lo12:.LT2c3e4e31
	stur	x8, [x29, #-16]
	ldr	x8, [x19, #128]
	str	w9, [x19, #104]
	mov	x9, #-1
	mov	w2, #5
	stur	q0, [x29, #-32]
	str	xzr, [x23]
	str	wzr, [x23, #8]
	str	x9, [x19, #120]
	cbnz	x8, 873f
	bl	std.io.traits.AdapterWrite.write_str._5349ec06ad6c886c
	and	w8, w0, #0xff
	tbnz	w8, #0, 875f
32:
	mov	w8, #32
	cmp	w25, #100
	str	xzr, [x23]
	str	w8, [x19, #104]
	mov	x8, #-1
	str	wzr, [x23, #8]
	str	x8, [x19, #120]
	stp	xzr, xzr, [sp]
	str	xzr, [sp, #16]
	b.lo	67f
	mov	w8, #41
	mov	w10, #205
	mul	w8, w25, w8
	lsr	w9, w8, #12
	mov	w8, #100
	msub	w8, w9, w8, w25
	and	w11, w8, #0xff
	mul	w10, w11, w10
	mov	w11, #10
	lsr	w10, w10, #11
	msub	w8, w10, w11, w8
	orr	w10, w10, #0x30
	strb	w10, [sp, #22]
	orr	w8, w8, #0x30
	strb	w8, [sp, #23]
	mov	w8, #21
	b	14f
943:
	mov	w8, #32
	ldr	x9, [x22, #16]
	ldr	q0, [x22]
	str	w8, [x19, #104]
	ldr	x8, [x19, #128]
	mov	x20, x1
	str	x9, [sp, #16]
	mov	x9, #-1
	adrp	x1, .LTc48ebe31
	add	x1, x1, :lo12:.LTc48ebe31
	mov	x0, x19
	mov	w2, #8
	str	q0, [sp]
	str	xzr, [x23]
	str	wzr, [x23, #8]
	str	x9, [x19, #120]
	cbnz	x8, 563f
	bl	std.io.traits.AdapterWrite.write_str._5349ec06ad6c886c
	and	w8, w0, #0xff
	tbz	w8, #0, 613f
943:
	mov	w0, #1
	b	885f
118:
	cmp	w24, #10
	b.lo	911f
	mov	w8, #205
	mov	w9, #10
	mul	w8, w24, w8
	lsr	w8, w8, #11
	msub	w9, w8, w9, w24
	orr	w8, w8, #0x30
	strb	w8, [sp, #22]
	mov	w8, #22
	orr	w9, w9, #0x30
	strb	w9, [sp, #23]
	b	599f
280:
	cmp	w25, #10
	b.lo	307f
	mov	w8, #205
	mov	w9, #10
	mul	w8, w25, w8
	lsr	w8, w8, #11
	msub	w9, w8, w9, w25
	orr	w8, w8, #0x30
	strb	w8, [sp, #22]
	mov	w8, #22
	orr	w9, w9, #0x30
	strb	w9, [sp, #23]
	b	868f
474:
	cmp	w20, #10
	b.lo	462f
	mov	w8, #205
	mov	w9, #10
	mul	w8, w20, w8
	lsr	w8, w8, #11
	msub	w9, w8, w9, w20
	orr	w8, w8, #0x30
	strb	w8, [sp, #22]
	mov	w8, #22
	orr	w9, w9, #0x30
	strb	w9, [sp, #23]
	b	710f
937:
	cmp	w10, #10
	b.lo	523f
	mov	w8, #205
	mov	w9, #10
	mul	w8, w10, w8
	lsr	w8, w8, #11
	msub	w9, w8, w9, w10
	orr	w8, w8, #0x30
	sturb	w8, [x29, #-10]
	mov	w8, #22
	orr	w9, w9, #0x30
	sturb	w9, [x29, #-9]
	b	893f
67:
	cmp	w25, #10
	b.lo	443f
	mov	w8, #205
	mov	w9, #10
	mul	w8, w25, w8
	lsr	w8, w8, #11
	msub	w9, w8, w9, w25
	orr	w8, w8, #0x30
	strb	w8, [sp, #22]
	mov	w8, #22
	orr	w9, w9, #0x30
	strb	w9, [sp, #23]
	b	595f
911:
	mov	w8, #23
	mov	w9, w24
239:
	mov	x10, sp
	orr	w9, w9, #0x30
	strb	w9, [x10, x8]
599:
	mov	x9, sp
	ldr	x10, [x19, #128]
	mov	w11, #24
	add	x1, x9, x8
	mov	w9, #45
	sub	x2, x11, x8
	mov	x0, x19
	sturb	w9, [x1, #-1]
	cbnz	x10, 672f
	bl	std.io.traits.AdapterWrite.write_str._5349ec06ad6c886c
	and	w8, w0, #0xff
	tbnz	w8, #0, 875f
911:
	mov	w8, #32
	ldr	x9, [x19, #128]
	adrp	x1, .LT6033b867
	add	x1, x1, :lo12:.LT6033b867
	str	w8, [x19, #104]
	mov	x8, #-1
	mov	x0, x19
	mov	w2, #2
	str	xzr, [x23]
	str	wzr, [x23, #8]
	str	x8, [x19, #120]
	cbnz	x9, 81f
	bl	std.io.traits.AdapterWrite.write_str._5349ec06ad6c886c
	and	w8, w0, #0xff
	tbnz	w8, #0, 875f
239:
	mov	w8, #32
	cmp	w21, #100
	str	xzr, [x23]
	str	w8, [x19, #104]
	mov	x8, #-1
	str	wzr, [x23, #8]
	str	x8, [x19, #120]
	stp	xzr, xzr, [sp]
	str	xzr, [sp, #16]
	b.lo	118f
	mov	w8, #41
	mov	w10, #205
	mul	w8, w21, w8
	lsr	w9, w8, #12
	mov	w8, #100
	msub	w8, w9, w8, w21
	and	w11, w8, #0xff
	mul	w10, w11, w10
	mov	w11, #10
	lsr	w10, w10, #11
	msub	w8, w10, w11, w8
	orr	w10, w10, #0x30
	strb	w10, [sp, #22]
	orr	w8, w8, #0x30
	strb	w8, [sp, #23]
	mov	w8, #21
	b	499f
307:
	mov	w8, #23
	mov	w9, w25
349:
	mov	x10, sp
	orr	w9, w9, #0x30
	strb	w9, [x10, x8]
868:
	mov	x9, sp
	ldr	x10, [x19, #128]
	mov	w11, #24
	add	x1, x9, x8
	mov	w9, #45
	sub	x2, x11, x8
	mov	x0, x19
	sturb	w9, [x1, #-1]
	cbnz	x10, 51f
	bl	std.io.traits.AdapterWrite.write_str._5349ec06ad6c886c
	and	w8, w0, #0xff
	tbnz	w8, #0, 875f
599:
	mov	w8, #32
	ldr	x9, [x19, #128]
	adrp	x1, .LT37337163
	add	x1, x1, :lo12:.LT37337163
	str	w8, [x19, #104]
	mov	x8, #-1
	mov	x0, x19
	mov	w2, #1
	mov	w25, #1
	str	xzr, [x23]
	str	wzr, [x23, #8]
	str	x8, [x19, #120]
	cbnz	x9, 352f
	bl	std.io.traits.AdapterWrite.write_str._5349ec06ad6c886c
	and	w8, w0, #0xff
	mov	w0, w25
	tbnz	w8, #0, 232f
307:
	mov	w8, #32
	cmp	w24, #100
	str	xzr, [x23]
	str	w8, [x19, #104]
	mov	x8, #-1
	str	wzr, [x23, #8]
	str	x8, [x19, #120]
	stp	xzr, xzr, [sp]
	str	xzr, [sp, #16]
	b.lo	280f
	mov	w8, #41
	mov	w10, #205
	mul	w8, w24, w8
	lsr	w9, w8, #12
	mov	w8, #100
	msub	w8, w9, w8, w24
	and	w11, w8, #0xff
	mul	w10, w11, w10
	mov	w11, #10
	lsr	w10, w10, #11
	msub	w8, w10, w11, w8
	orr	w10, w10, #0x30
	strb	w10, [sp, #22]
	orr	w8, w8, #0x30
	strb	w8, [sp, #23]
	mov	w8, #21
	b	868f
462:
	mov	w8, #23
	mov	w9, w20
583:
	mov	x10, sp
	orr	w9, w9, #0x30
	strb	w9, [x10, x8]
710:
	mov	x9, sp
	ldr	x10, [x19, #128]
	mov	w11, #24
	add	x1, x9, x8
	mov	w9, #45
	sub	x2, x11, x8
	mov	x0, x19
	sturb	w9, [x1, #-1]
	cbnz	x10, 667f
	bl	std.io.traits.AdapterWrite.write_str._5349ec06ad6c886c
	and	w8, w0, #0xff
	tbnz	w8, #0, 875f
349:
	mov	w8, #32
	ldr	x9, [x19, #128]
	adrp	x1, .LT37337163
	add	x1, x1, :lo12:.LT37337163
	str	w8, [x19, #104]
	mov	x8, #-1
	mov	x0, x19
	mov	w2, #1
	mov	w20, #1
	str	xzr, [x23]
	str	wzr, [x23, #8]
	str	x8, [x19, #120]
	cbnz	x9, 445f
	bl	std.io.traits.AdapterWrite.write_str._5349ec06ad6c886c
	and	w8, w0, #0xff
	mov	w0, w20
	tbnz	w8, #0, 232f
62:
	add	x1, sp, #48
	mov	x0, x19
	bl	core.fmt.formatter.Formatter.write_piece._8a816486d480f50d
	b	192f
523:
	mov	w8, #23
	mov	w9, w10
625:
	sub	x10, x29, #32
	orr	w9, w9, #0x30
	strb	w9, [x10, x8]
893:
	sub	x9, x29, #32
	ldr	x10, [x19, #128]
	mov	w11, #24
	add	x1, x9, x8
	mov	w9, #45
	sub	x2, x11, x8
	mov	x0, x19
	sturb	w9, [x1, #-1]
	cbnz	x10, 671f
	bl	std.io.traits.AdapterWrite.write_str._5349ec06ad6c886c
	and	w8, w0, #0xff
	tbz	w8, #0, 983f
190:
	mov	w0, #1
93:
	ldr	q0, [sp, #48]
	ldr	x8, [sp, #64]
	b	893f
443:
	mov	w8, #23
	mov	w9, w25
14:
	mov	x10, sp
	orr	w9, w9, #0x30
	strb	w9, [x10, x8]
595:
	mov	x9, sp
	ldr	x10, [x19, #128]
	mov	w11, #24
	add	x1, x9, x8
	mov	w9, #45
	sub	x2, x11, x8
	mov	x0, x19
	sturb	w9, [x1, #-1]
	cbnz	x10, 460f
	bl	std.io.traits.AdapterWrite.write_str._5349ec06ad6c886c
	and	w8, w0, #0xff
	tbz	w8, #0, 187f
875:
	mov	w0, #1
232:
	ldur	q0, [x29, #-32]
	ldur	x8, [x29, #-16]
893:
	str	q0, [x22]
	ldp	x20, x19, [sp, #176]
	str	x8, [x22, #16]
	ldr	x25, [sp, #128]
	ldp	x22, x21, [sp, #160]
	ldp	x24, x23, [sp, #144]
	ldp	x29, x30, [sp, #112]
	add	sp, sp, #192
	ret
498:
	bl	core.fmt.formatter.Formatter.write_indented._1ac78889755d2eb3
	and	w8, w0, #0xff
	tbnz	w8, #0, 875b
	b	983b
412:
	bl	core.fmt.formatter.Formatter.write_indented._1ac78889755d2eb3
	and	w8, w0, #0xff
	tbnz	w8, #0, 875b
	b	187b
970:
	bl	core.fmt.formatter.Formatter.write_indented._1ac78889755d2eb3
	and	w8, w0, #0xff
	tbz	w8, #0, 613b
	b	875b
110:
	bl	core.fmt.formatter.Formatter.write_indented._1ac78889755d2eb3
	and	w8, w0, #0xff
	tbz	w8, #0, 602b
	b	190b
873:
	bl	core.fmt.formatter.Formatter.write_indented._1ac78889755d2eb3
	and	w8, w0, #0xff
	tbnz	w8, #0, 875b
	b	32b
563:
	bl	core.fmt.formatter.Formatter.write_indented._1ac78889755d2eb3
	and	w8, w0, #0xff
	tbnz	w8, #0, 943b
613:
	mov	w8, #32
	str	xzr, [x23]
	str	w8, [x19, #104]
	mov	x8, #-1
	str	wzr, [x23, #8]
	str	x8, [x19, #120]
	ldrb	w8, [x20, #1]
	cmp	w8, #1
	b.le	602f
	cmp	w8, #2
	b.eq	168f
	cmp	w8, #3
	b.ne	179f
	adrp	x1, .LTb7e5a2c0
	add	x1, x1, :lo12:.LTb7e5a2c0
	mov	w2, #6
	b	659f
602:
	cbnz	w8, 939f
	ldrb	w8, [x20, #2]
	cmp	w8, #2
	b.eq	939f
	cmp	w8, #1
	b.ne	602f
	adrp	x1, .LT45388282
	add	x1, x1, :lo12:.LT45388282
	mov	w2, #10
	b	659f
939:
	adrp	x1, .LT7259b668
	add	x1, x1, :lo12:.LT7259b668
	mov	w2, #7
	b	659f
168:
	adrp	x1, .LTd49feab6
	add	x1, x1, :lo12:.LTd49feab6
	mov	w2, #8
	b	659f
179:
	adrp	x1, .LTa1cb3204
	add	x1, x1, :lo12:.LTa1cb3204
	mov	w2, #5
	b	659f
118:
	cmp	w21, #10
	b.lo	911f
	mov	w8, #205
	mov	w9, #10
	mul	w8, w21, w8
	lsr	w8, w8, #11
	msub	w9, w8, w9, w21
	orr	w8, w8, #0x30
	strb	w8, [sp, #22]
	mov	w8, #22
	orr	w9, w9, #0x30
	strb	w9, [sp, #23]
	b	599f
280:
	cmp	w24, #10
	b.lo	349f
	mov	w8, #205
	mov	w9, #10
	mul	w8, w24, w8
	lsr	w8, w8, #11
	msub	w9, w8, w9, w24
	orr	w8, w8, #0x30
	strb	w8, [sp, #22]
	mov	w8, #22
	orr	w9, w9, #0x30
	strb	w9, [sp, #23]
	b	462f
602:
	ldrb	w8, [x20, #3]
	adrp	x9, .Lswitch.table.tc_make.answer.answer._5349ec06ad6c886c
	add	x9, x9, :lo12:.Lswitch.table.tc_make.answer.answer._5349ec06ad6c886c
	ldr	x2, [x9, x8, lsl #3]
	adrp	x9, .Lswitch.table.tc_make.answer.answer._5349ec06ad6c886c_.639
	add	x9, x9, :lo12:.Lswitch.table.tc_make.answer.answer._5349ec06ad6c886c_.639
	ldr	x1, [x9, x8, lsl #3]
659:
	ldr	x8, [x19, #128]
	cbnz	x8, 943f
	mov	x0, x19
	bl	std.io.traits.AdapterWrite.write_str._5349ec06ad6c886c
447:
	and	w0, w0, #0xff
885:
	ldr	q0, [sp]
	ldr	x8, [sp, #16]
	b	893b
672:
	bl	core.fmt.formatter.Formatter.write_indented._1ac78889755d2eb3
	and	w8, w0, #0xff
	tbnz	w8, #0, 875b
	b	911b
51:
	bl	core.fmt.formatter.Formatter.write_indented._1ac78889755d2eb3
	and	w8, w0, #0xff
	tbnz	w8, #0, 875b
	b	599b
667:
	bl	core.fmt.formatter.Formatter.write_indented._1ac78889755d2eb3
	and	w8, w0, #0xff
	tbnz	w8, #0, 875b
	b	349b
671:
	bl	core.fmt.formatter.Formatter.write_indented._1ac78889755d2eb3
	and	w8, w0, #0xff
	tbnz	w8, #0, 190b
983:
	mov	w8, #32
	ldr	x9, [x19, #128]
	adrp	x1, .LT37337163
	add	x1, x1, :lo12:.LT37337163
	str	w8, [x19, #104]
	mov	x8, #-1
	mov	x0, x19
	mov	w2, #1
	mov	w20, #1
	str	xzr, [x23]
	str	wzr, [x23, #8]
	str	x8, [x19, #120]
	cbnz	x9, 498f
	bl	std.io.traits.AdapterWrite.write_str._5349ec06ad6c886c
	and	w8, w0, #0xff
	mov	w0, w20
	tbnz	w8, #0, 93b
613:
	mov	x8, sp
	mov	x0, x19
	add	x1, x8, #40
	bl	core.fmt.formatter.Formatter.write_piece._372ad1e79d773fc5
	and	w0, w0, #0xff
	b	93b
460:
	bl	core.fmt.formatter.Formatter.write_indented._1ac78889755d2eb3
	and	w8, w0, #0xff
	tbnz	w8, #0, 875b
187:
	mov	w8, #32
	ldr	x9, [x19, #128]
	adrp	x1, .LT37337163
	add	x1, x1, :lo12:.LT37337163
	str	w8, [x19, #104]
	mov	x8, #-1
	mov	x0, x19
	mov	w2, #1
	mov	w25, #1
	str	xzr, [x23]
	str	wzr, [x23, #8]
	str	x8, [x19, #120]
	cbnz	x9, 412f
	bl	std.io.traits.AdapterWrite.write_str._5349ec06ad6c886c
	and	w8, w0, #0xff
	mov	w0, w25
	tbnz	w8, #0, 232b
983:
	mov	w8, #32
	cmp	w24, #100
	str	xzr, [x23]
	str	w8, [x19, #104]
	mov	x8, #-1
	str	wzr, [x23, #8]
	str	x8, [x19, #120]
	stp	xzr, xzr, [sp]
	str	xzr, [sp, #16]
	b.lo	32f
	mov	x8, xzr
187:
	mov	x11, #62915
	lsr	x10, x24, #2
	mov	x9, x24
	movk	x11, #23592, lsl #16
	movk	x11, #49807, lsl #32
	movk	x11, #10485, lsl #48
	umulh	x10, x10, x11
	mov	w11, #205
	lsr	x24, x10, #2
	mov	w10, #100
	msub	w10, w24, w10, w9
	lsr	x9, x9, #4
	cmp	x9, #624
	and	w12, w10, #0xff
	mul	w11, w12, w11
	mov	w12, #10
	lsr	w11, w11, #11
	msub	w10, w11, w12, w10
	mov	x12, sp
	orr	w9, w11, #0x30
	add	x12, x12, x8
	sub	x8, x8, #2
	strb	w9, [x12, #22]
	orr	w10, w10, #0x30
	strb	w10, [x12, #23]
	b.hi	187b
	add	x8, x8, #24
	b	118f
32:
	mov	w8, #24
118:
	cmp	x24, #10
	b.lo	625f
	and	w9, w24, #0xff
	mov	w10, #205
	mov	x11, sp
	mul	w9, w9, w10
	mov	w10, #10
	add	x11, x11, x8
	sub	x8, x8, #2
	lsr	w9, w9, #11
	msub	w10, w9, w10, w24
	orr	w9, w9, #0x30
	sturb	w9, [x11, #-2]
	orr	w10, w10, #0x30
	sturb	w10, [x11, #-1]
	b	187f
625:
	sub	x8, x8, #1
	mov	x9, sp
	orr	w10, w24, #0x30
	strb	w10, [x9, x8]
187:
	mov	x9, sp
	ldr	x10, [x19, #128]
	mov	w11, #24
	add	x1, x9, x8
	mov	w9, #45
	sub	x2, x11, x8
	mov	x0, x19
	sturb	w9, [x1, #-1]
	cbnz	x10, 873f
	bl	std.io.traits.AdapterWrite.write_str._5349ec06ad6c886c
	and	w8, w0, #0xff
	tbnz	w8, #0, 875b
187:
	mov	w8, #32
	ldr	x9, [x19, #128]
	adrp	x1, .LT37337163
	add	x1, x1, :lo12:.LT37337163
	str	w8, [x19, #104]
	mov	x8, #-1
	mov	x0, x19
	mov	w2, #1
	mov	w24, #1
	str	xzr, [x23]
	str	wzr, [x23, #8]
	str	x8, [x19, #120]
	cbnz	x9, 51f
	bl	std.io.traits.AdapterWrite.write_str._5349ec06ad6c886c
	and	w8, w0, #0xff
	mov	w0, w24
	tbnz	w8, #0, 232b
32:
	mov	w8, #32
	str	xzr, [x23]
	str	w8, [x19, #104]
	mov	x8, #-1
	str	wzr, [x23, #8]
	str	x8, [x19, #120]
	b	583f
943:
	mov	x0, x19
	bl	core.fmt.formatter.Formatter.write_indented._1ac78889755d2eb3
	b	447b
911:
	mov	w8, #23
	mov	w9, w21
499:
	mov	x10, sp
	orr	w9, w9, #0x30
	strb	w9, [x10, x8]
599:
	mov	x9, sp
	ldr	x10, [x19, #128]
	mov	w11, #24
	add	x1, x9, x8
	mov	w9, #45
	sub	x2, x11, x8
	mov	x0, x19
	sturb	w9, [x1, #-1]
	cbnz	x10, 970f
	bl	std.io.traits.AdapterWrite.write_str._5349ec06ad6c886c
	and	w8, w0, #0xff
	tbnz	w8, #0, 875b
943:
	mov	w8, #32
	ldr	x9, [x19, #128]
	adrp	x1, .LT6574afb3
	add	x1, x1, :lo12:.LT6574afb3
	str	w8, [x19, #104]
	mov	x8, #-1
	mov	x0, x19
	mov	w2, #10
	str	xzr, [x23]
	str	wzr, [x23, #8]
	str	x8, [x19, #120]
	cbnz	x9, 563f
	bl	std.io.traits.AdapterWrite.write_str._5349ec06ad6c886c
	and	w8, w0, #0xff
	tbnz	w8, #0, 875b
911:
	mov	w8, #32
	ldr	x9, [x19, #128]
	mov	x0, x19
	str	w8, [x19, #104]
	mov	x8, #-1
	mov	w2, #1
	str	x8, [x19, #120]
	orr	w8, w20, #0x30
	strb	w8, [sp, #23]
	mov	w8, #45
	strb	w8, [sp, #22]
	mov	x8, sp
	add	x1, x8, #23
	str	xzr, [x23]
	str	wzr, [x23, #8]
	stp	xzr, xzr, [sp]
	stur	xzr, [sp, #14]
	cbnz	x9, 667f
	bl	std.io.traits.AdapterWrite.write_str._5349ec06ad6c886c
	and	w8, w0, #0xff
	tbnz	w8, #0, 875b
599:
	mov	w8, #32
	ldr	x9, [x19, #128]
	adrp	x1, .LT37337163
	add	x1, x1, :lo12:.LT37337163
	str	w8, [x19, #104]
	mov	x8, #-1
	mov	x0, x19
	mov	w2, #1
	str	xzr, [x23]
	str	wzr, [x23, #8]
	str	x8, [x19, #120]
	cbnz	x9, 671f
	mov	w20, #1
	bl	std.io.traits.AdapterWrite.write_str._5349ec06ad6c886c
	and	w8, w0, #0xff
	mov	w0, w20
	tbz	w8, #0, 62b
	b	232b
349:
	mov	w8, #23
	mov	w9, w24
868:
	mov	x10, sp
	orr	w9, w9, #0x30
	strb	w9, [x10, x8]
462:
	mov	x9, sp
	ldr	x10, [x19, #128]
	mov	w11, #24
	add	x1, x9, x8
	mov	w9, #45
	sub	x2, x11, x8
	mov	x0, x19
	sturb	w9, [x1, #-1]
	cbnz	x10, 110f
	bl	std.io.traits.AdapterWrite.write_str._5349ec06ad6c886c
	and	w8, w0, #0xff
	tbnz	w8, #0, 875b
349:
	mov	w8, #32
	ldr	x9, [x19, #128]
	adrp	x1, .LT37337163
	add	x1, x1, :lo12:.LT37337163
	str	w8, [x19, #104]
	mov	x8, #-1
	mov	x0, x19
	mov	w2, #1
	mov	w24, #1
	str	xzr, [x23]
	str	wzr, [x23, #8]
	str	x8, [x19, #120]
	cbnz	x9, 672f
	bl	std.io.traits.AdapterWrite.write_str._5349ec06ad6c886c
	and	w8, w0, #0xff
	mov	w0, w24
	tbnz	w8, #0, 232b
868:
	mov	w8, #32
	str	xzr, [x23]
	str	w8, [x19, #104]
	mov	x8, #-1
	str	wzr, [x23, #8]
	str	x8, [x19, #120]
	cbz	x21, 93f
583:
	mov	x0, x20
	mov	x1, x21
	mov	x2, x19
	bl	tc_lines.digits.DigitsDisplay.fmt._1ac78889755d2eb3
192:
	and	w0, w0, #0xff
	b	232b
81:
	bl	core.fmt.formatter.Formatter.write_indented._1ac78889755d2eb3
	and	w8, w0, #0xff
	tbnz	w8, #0, 875b
	b	239b
352:
	bl	core.fmt.formatter.Formatter.write_indented._1ac78889755d2eb3
	and	w8, w0, #0xff
	mov	w0, w25
	tbz	w8, #0, 307b
	b	232b
445:
	bl	core.fmt.formatter.Formatter.write_indented._1ac78889755d2eb3
	and	w8, w0, #0xff
	mov	w0, w20
	tbz	w8, #0, 62b
	b	232b
498:
	bl	core.fmt.formatter.Formatter.write_indented._1ac78889755d2eb3
	and	w8, w0, #0xff
	mov	w0, w20
	tbz	w8, #0, 613b
	b	93b
412:
	bl	core.fmt.formatter.Formatter.write_indented._1ac78889755d2eb3
	and	w8, w0, #0xff
	mov	w0, w25
	tbz	w8, #0, 983b
	b	232b
93:
	ldr	x8, [x19, #128]
	cbnz	x8, 939f
	adrp	x1, .LT31704eaf
	add	x1, x1, :lo12:.LT31704eaf
	mov	x0, x19
	mov	w2, #1
	bl	std.io.traits.AdapterWrite.write_str._5349ec06ad6c886c
	b	192b
970:
	bl	core.fmt.formatter.Formatter.write_indented._1ac78889755d2eb3
	and	w8, w0, #0xff
	tbnz	w8, #0, 875b
	b	943b
110:
	bl	core.fmt.formatter.Formatter.write_indented._1ac78889755d2eb3
	and	w8, w0, #0xff
	tbnz	w8, #0, 875b
	b	349b
873:
	bl	core.fmt.formatter.Formatter.write_indented._1ac78889755d2eb3
	and	w8, w0, #0xff
	tbnz	w8, #0, 875b
	b	187b
563:
	bl	core.fmt.formatter.Formatter.write_indented._1ac78889755d2eb3
	and	w8, w0, #0xff
	tbnz	w8, #0, 875b
	b	911b
672:
	bl	core.fmt.formatter.Formatter.write_indented._1ac78889755d2eb3
	and	w8, w0, #0xff
	mov	w0, w24
	tbz	w8, #0, 868b
	b	232b
51:
	bl	core.fmt.formatter.Formatter.write_indented._1ac78889755d2eb3
	and	w8, w0, #0xff
	mov	w0, w24
	tbz	w8, #0, 32b
	b	232b
667:
	bl	core.fmt.formatter.Formatter.write_indented._1ac78889755d2eb3
	and	w8, w0, #0xff
	tbnz	w8, #0, 875b
	b	599b
671:
	bl	core.fmt.formatter.Formatter.write_indented._1ac78889755d2eb3
	mov	w8, w0
	mov	w0, #1
	and	w8, w8, #0xff
	tbz	w8, #0, 62b
	b	232b
939:
	adrp	x1, .LT31704eaf
	add	x1, x1, :lo12:.LT31704eaf
	mov	x0, x19
	mov	w2, #1
	bl	core.fmt.formatter.Formatter.write_indented._1ac78889755d2eb3
	b	192b
	.section	.text.core.fmt.formatter.Formatter.write_piece._8a816486d480f50d,"ax",@progbits
	.p2align	2
core.fmt.formatter.Formatter.write_piece._8a816486d480f50d:
	sub	sp, sp, #128
	stp	x20, x19, [sp, #112]
	mov	w8, #32
	mov	x20, x0
	stp	x22, x21, [sp, #96]
	mov	x9, #-1
	mov	x19, x0
	str	w8, [x20, #104]!
	mov	x21, x20
	str	wzr, [x20, #12]
	mov	w2, #7
	str	x9, [x20, #16]
	str	xzr, [x21, #4]!
	str	x25, [sp, #64]
	ldr	q0, [x20]
	ldrb	w22, [x1, #8]
	stp	x24, x23, [sp, #80]
	ldp	w25, w23, [x1]
	str	w8, [x20]
	ldp	x10, x8, [x20, #16]
	adrp	x1, .LTc8e4ece7
	add	x1, x1, :lo12:.LTc8e4ece7
	stp	x29, x30, [sp, #48]
	add	x29, sp, #48
	str	q0, [sp]
	str	x10, [sp, #16]
	str	xzr, [x21]
	str	wzr, [x20, #12]
	str	x9, [x20, #16]
	cbnz	x8, 498f
	bl	std.io.traits.AdapterWrite.write_str._5349ec06ad6c886c
	and	w8, w0, #0xff
	tbnz	w8, #0, 943f
613:
	mov	x24, #62915
	mov	w8, #32
	cmp	w25, #100
	movk	x24, #23592, lsl #16
	str	w8, [x19, #104]
	mov	x8, #-1
	movk	x24, #49807, lsl #32
	str	xzr, [x21]
	movk	x24, #10485, lsl #48
	str	wzr, [x21, #8]
	str	x8, [x19, #120]
	stp	xzr, xzr, [sp, #24]
	str	xzr, [sp, #40]
	b.lo	983f
	mov	x8, xzr
405:
	lsr	x10, x25, #2
	mov	x9, x25
	mov	w11, #205
	umulh	x10, x10, x24
	lsr	x25, x10, #2
	mov	w10, #100
	msub	w10, w25, w10, w9
	lsr	x9, x9, #4
	cmp	x9, #624
	and	w12, w10, #0xff
	mul	w11, w12, w11
	mov	w12, #10
	lsr	w11, w11, #11
	msub	w10, w11, w12, w10
	add	x12, sp, #24
	orr	w9, w11, #0x30
	add	x12, x12, x8
	sub	x8, x8, #2
	strb	w9, [x12, #22]
	orr	w10, w10, #0x30
	strb	w10, [x12, #23]
	b.hi	405b
	add	x8, x8, #24
	cmp	x25, #10
	b.hs	447f
625:
	sub	x8, x8, #1
	add	x9, sp, #24
	orr	w10, w25, #0x30
	strb	w10, [x9, x8]
	b	62f
983:
	mov	w8, #24
	cmp	x25, #10
	b.lo	625b
447:
	and	w9, w25, #0xff
	mov	w10, #205
	add	x11, sp, #24
	mul	w9, w9, w10
	mov	w10, #10
	add	x11, x11, x8
	sub	x8, x8, #2
	lsr	w9, w9, #11
	msub	w10, w9, w10, w25
	orr	w9, w9, #0x30
	sturb	w9, [x11, #-2]
	orr	w10, w10, #0x30
	sturb	w10, [x11, #-1]
62:
	add	x9, sp, #24
	ldr	x10, [x19, #128]
	mov	w11, #24
	add	x1, x9, x8
	mov	w9, #45
	sub	x2, x11, x8
	mov	x0, x19
	sturb	w9, [x1, #-1]
	cbnz	x10, 412f
	bl	std.io.traits.AdapterWrite.write_str._5349ec06ad6c886c
	and	w8, w0, #0xff
	tbnz	w8, #0, 943f
983:
	mov	w8, #32
	ldr	x9, [x19, #128]
	adrp	x1, .LT624d7ef1
	add	x1, x1, :lo12:.LT624d7ef1
	str	w8, [x19, #104]
	mov	x8, #-1
	mov	x0, x19
	mov	w2, #9
	str	xzr, [x21]
	str	wzr, [x21, #8]
	str	x8, [x19, #120]
	cbnz	x9, 970f
	bl	std.io.traits.AdapterWrite.write_str._5349ec06ad6c886c
	and	w8, w0, #0xff
	tbnz	w8, #0, 943f
187:
	mov	w8, #32
	cmp	w23, #100
	str	xzr, [x21]
	str	w8, [x19, #104]
	mov	x8, #-1
	str	wzr, [x21, #8]
	str	x8, [x19, #120]
	stp	xzr, xzr, [sp, #24]
	str	xzr, [sp, #40]
	b.lo	613f
	mov	x8, xzr
405:
	lsr	x10, x23, #2
	mov	x9, x23
	mov	w11, #205
	umulh	x10, x10, x24
	lsr	x23, x10, #2
	mov	w10, #100
	msub	w10, w23, w10, w9
	lsr	x9, x9, #4
	cmp	x9, #624
	and	w12, w10, #0xff
	mul	w11, w12, w11
	mov	w12, #10
	lsr	w11, w11, #11
	msub	w10, w11, w12, w10
	add	x12, sp, #24
	orr	w9, w11, #0x30
	add	x12, x12, x8
	sub	x8, x8, #2
	strb	w9, [x12, #22]
	orr	w10, w10, #0x30
	strb	w10, [x12, #23]
	b.hi	405b
	add	x8, x8, #24
	cmp	x23, #10
	b.hs	447f
625:
	sub	x8, x8, #1
	add	x9, sp, #24
	orr	w10, w23, #0x30
	strb	w10, [x9, x8]
	b	62f
498:
	bl	core.fmt.formatter.Formatter.write_indented._1ac78889755d2eb3
	and	w8, w0, #0xff
	tbz	w8, #0, 613b
	b	943f
613:
	mov	w8, #24
	cmp	x23, #10
	b.lo	625b
447:
	and	w9, w23, #0xff
	mov	w10, #205
	add	x11, sp, #24
	mul	w9, w9, w10
	mov	w10, #10
	add	x11, x11, x8
	sub	x8, x8, #2
	lsr	w9, w9, #11
	msub	w10, w9, w10, w23
	orr	w9, w9, #0x30
	sturb	w9, [x11, #-2]
	orr	w10, w10, #0x30
	sturb	w10, [x11, #-1]
62:
	add	x9, sp, #24
	ldr	x10, [x19, #128]
	mov	w11, #24
	add	x1, x9, x8
	mov	w9, #45
	sub	x2, x11, x8
	mov	x0, x19
	sturb	w9, [x1, #-1]
	cbnz	x10, 498f
	bl	std.io.traits.AdapterWrite.write_str._5349ec06ad6c886c
	and	w8, w0, #0xff
	tbnz	w8, #0, 943f
613:
	mov	w8, #32
	ldr	x9, [x19, #128]
	adrp	x1, .LT073a3b51
	add	x1, x1, :lo12:.LT073a3b51
	str	w8, [x19, #104]
	mov	x8, #-1
	mov	x0, x19
	mov	w2, #6
	str	xzr, [x21]
	str	wzr, [x21, #8]
	str	x8, [x19, #120]
	cbnz	x9, 110f
	bl	std.io.traits.AdapterWrite.write_str._5349ec06ad6c886c
	and	w8, w0, #0xff
	tbnz	w8, #0, 943f
32:
	mov	w8, #32
	ldr	x9, [x19, #128]
	mov	x0, x19
	str	w8, [x19, #104]
	mov	x8, #-1
	mov	w2, #1
	str	x8, [x19, #120]
	orr	w8, w22, #0x30
	strb	w8, [sp, #47]
	mov	w8, #45
	strb	w8, [sp, #46]
	add	x8, sp, #24
	add	x1, x8, #23
	str	xzr, [x21]
	str	wzr, [x21, #8]
	stp	xzr, xzr, [sp, #24]
	stur	xzr, [sp, #38]
	cbnz	x9, 873f
	bl	std.io.traits.AdapterWrite.write_str._5349ec06ad6c886c
447:
	and	w0, w0, #0xff
	b	93f
412:
	bl	core.fmt.formatter.Formatter.write_indented._1ac78889755d2eb3
	and	w8, w0, #0xff
	tbnz	w8, #0, 943f
	b	983b
970:
	bl	core.fmt.formatter.Formatter.write_indented._1ac78889755d2eb3
	and	w8, w0, #0xff
	tbnz	w8, #0, 943f
	b	187b
498:
	bl	core.fmt.formatter.Formatter.write_indented._1ac78889755d2eb3
	and	w8, w0, #0xff
	tbnz	w8, #0, 943f
	b	613b
110:
	bl	core.fmt.formatter.Formatter.write_indented._1ac78889755d2eb3
	and	w8, w0, #0xff
	tbz	w8, #0, 32b
943:
	mov	w0, #1
93:
	ldr	q0, [sp]
	ldr	x8, [sp, #16]
	ldr	x25, [sp, #64]
	ldp	x22, x21, [sp, #96]
	str	q0, [x20]
	ldp	x24, x23, [sp, #80]
	str	x8, [x20, #16]
	ldp	x20, x19, [sp, #112]
	ldp	x29, x30, [sp, #48]
	add	sp, sp, #128
	ret
873:
	bl	core.fmt.formatter.Formatter.write_indented._1ac78889755d2eb3
	b	447b
	.section	.text.tc_lines.digits.DigitsDisplay.fmt._1ac78889755d2eb3,"ax",@progbits
	.p2align	2
tc_lines.digits.DigitsDisplay.fmt._1ac78889755d2eb3:
	cbz	x1, 983f
	sub	sp, sp, #224
	mov	x8, sp
	stp	x22, x21, [sp, #192]
	mov	x21, x0
	stp	x20, x19, [sp, #208]
	mov	x19, x2
	mov	x20, x1
	add	x22, x8, #1
	stp	x29, x30, [sp, #160]
	add	x29, sp, #160
	str	x23, [sp, #176]
922:
	movi	v0.2d, #0000000000000000
	cmp	x20, #64
	mov	w8, #64
	csel	x23, x20, x8, lo
	mov	x8, x21
	mov	x9, x22
	mov	x10, x23
	stp	q0, q0, [sp]
	stp	q0, q0, [sp, #32]
	stp	q0, q0, [sp, #64]
	stp	q0, q0, [sp, #96]
602:
	ldrb	w11, [x8], #1
	adrp	x13, .LT2bb0e2c3
	add	x13, x13, :lo12:.LT2bb0e2c3
	subs	x10, x10, #1
	lsr	x12, x11, #4
	and	x11, x11, #0xf
	ldrb	w11, [x13, x11]
	ldrb	w12, [x13, x12]
	sturb	w12, [x9, #-1]
	strb	w11, [x9], #2
	b.ne	602b
	lsl	x2, x23, #1
	sub	x0, x29, #24
	mov	x1, sp
	stp	xzr, xzr, [x29, #-24]
	stur	xzr, [x29, #-8]
	bl	core.str.utf8.from_utf8
	ldurb	w8, [x29, #-24]
	cbnz	w8, 613f
	ldurb	w8, [x29, #-8]
	ldurb	w9, [x29, #-7]
	mov	x0, x19
	ldurh	w10, [x29, #-2]
	ldur	w11, [x29, #-6]
	ldur	x1, [x29, #-16]
	orr	x8, x8, x9, lsl #8
	ldr	x9, [x19, #128]
	orr	x10, x11, x10, lsl #32
	orr	x2, x8, x10, lsl #16
	cbnz	x9, 498f
	bl	std.io.traits.AdapterWrite.write_str._5349ec06ad6c886c
	and	w8, w0, #0xff
	tbnz	w8, #0, 613f
625:
	sub	x20, x20, x23
	add	x21, x21, x23
	cbnz	x20, 922b
	b	187f
498:
	bl	core.fmt.formatter.Formatter.write_indented._1ac78889755d2eb3
	and	w8, w0, #0xff
	tbz	w8, #0, 625b
613:
	mov	w0, #1
	ldp	x20, x19, [sp, #208]
	ldr	x23, [sp, #176]
	ldp	x22, x21, [sp, #192]
	ldp	x29, x30, [sp, #160]
	add	sp, sp, #224
	ret
983:
	mov	w0, wzr
	ret
187:
	mov	w0, wzr
	ldp	x20, x19, [sp, #208]
	ldr	x23, [sp, #176]
	ldp	x22, x21, [sp, #192]
	ldp	x29, x30, [sp, #160]
	add	sp, sp, #224
	ret
	.section	.text.core.fmt.formatter.Formatter.write_piece._372ad1e79d773fc5,"ax",@progbits
	.p2align	2
core.fmt.formatter.Formatter.write_piece._372ad1e79d773fc5:
	sub	sp, sp, #64
	mov	w8, #32
	stur	xzr, [x0, #108]
	adrp	x9, .LT2bb0e2c3
	add	x9, x9, :lo12:.LT2bb0e2c3
	str	w8, [x0, #104]
	mov	x8, #-1
	str	wzr, [x0, #116]
	mov	w2, #8
	str	x8, [x0, #120]
	ldr	x8, [x1]
	stp	x29, x30, [sp, #32]
	add	x29, sp, #32
	str	x19, [sp, #48]
	mov	x19, x0
	add	x0, sp, #8
	ldr	w8, [x8]
	add	x1, x29, #24
	stp	xzr, xzr, [sp, #8]
	str	xzr, [sp, #24]
	rev	w8, w8
	ubfx	x10, x8, #4, #4
	and	x11, x8, #0xf
	ubfx	x12, x8, #8, #4
	ldrb	w11, [x9, x11]
	lsr	w13, w8, #8
	ldrb	w10, [x9, x10]
	ldrb	w12, [x9, x12]
	strb	w11, [x29, #25]
	lsr	w11, w8, #24
	ubfx	x13, x13, #4, #4
	strb	w10, [x29, #24]
	ubfx	x10, x8, #16, #4
	lsr	w8, w8, #16
	strb	w12, [x29, #27]
	and	x12, x11, #0xf
	lsr	x11, x11, #4
	ubfx	x8, x8, #4, #4
	ldrb	w10, [x9, x10]
	ldrb	w12, [x9, x12]
	ldrb	w13, [x9, x13]
	ldrb	w8, [x9, x8]
	ldrb	w9, [x9, x11]
	strb	w10, [x29, #29]
	strb	w12, [x29, #31]
	strb	w13, [x29, #26]
	strb	w8, [x29, #28]
	strb	w9, [x29, #30]
	bl	core.str.utf8.from_utf8
	ldrb	w8, [sp, #8]
	cbz	w8, 602f
	mov	w0, #1
	ldp	x29, x30, [sp, #32]
	ldr	x19, [sp, #48]
	add	sp, sp, #64
	ret
602:
	ldrb	w8, [sp, #24]
	ldrb	w9, [sp, #25]
	mov	x0, x19
	ldrh	w10, [sp, #30]
	ldur	w11, [sp, #26]
	ldr	x1, [sp, #16]
	orr	x8, x8, x9, lsl #8
	ldr	x9, [x19, #128]
	orr	x10, x11, x10, lsl #32
	orr	x2, x8, x10, lsl #16
	cbnz	x9, 498f
	bl	std.io.traits.AdapterWrite.write_str._5349ec06ad6c886c
	and	w0, w0, #0xff
	ldp	x29, x30, [sp, #32]
	ldr	x19, [sp, #48]
	add	sp, sp, #64
	ret
498:
	bl	core.fmt.formatter.Formatter.write_indented._1ac78889755d2eb3
	and	w0, w0, #0xff
	ldp	x29, x30, [sp, #32]
	ldr	x19, [sp, #48]
	add	sp, sp, #64
	ret
	.section	.text.tc_live.receiver.Receiver.hand_on._5349ec06ad6c886c,"ax",@progbits
	.p2align	2
tc_live.receiver.Receiver.hand_on._5349ec06ad6c886c:
	ldrb	w8, [x1, #8]
	cmp	w8, #1
	b.ne	174f
	stp	x29, x30, [sp, #-80]!
	stp	x28, x25, [sp, #16]
	mov	x29, sp
	stp	x24, x23, [sp, #32]
	stp	x22, x21, [sp, #48]
	stp	x20, x19, [sp, #64]
	sub	sp, sp, #496
	movi	v0.2d, #0000000000000000
	ldp	x20, x8, [x1, #24]
	add	x21, sp, #96
	stur	xzr, [x21, #79]
	stp	q0, q0, [sp, #112]
	stp	q0, q0, [sp, #144]
	str	q0, [sp, #96]
	cbz	x8, 613f
	mov	x19, x3
	sub	x23, x29, #208
	and	w9, w2, #0xff
602:
	ldrb	w10, [x20]
	cmp	w10, w9
	b.eq	922f
	subs	x8, x8, #1
	add	x20, x20, #272
	b.ne	602b
613:
	mov	w9, wzr
	b	976f
922:
	movi	v0.2d, #0000000000000000
	ldr	x24, [x20, #16]
	mov	x22, x0
	stur	wzr, [x29, #-100]
	stp	q0, q0, [x29, #-208]
	stp	q0, q0, [x29, #-176]
	stp	q0, q0, [x29, #-144]
	stp	q0, q0, [x29, #-96]
	stp	q0, q0, [x29, #-64]
	stp	q0, q0, [x29, #-32]
	cbz	x24, 922f
	mov	x25, xzr
93:
	ldr	x8, [x20, #8]
	sub	x0, x29, #96
	sub	x2, x29, #100
	mov	x1, x20
	mov	x3, x19
	ldrh	w8, [x8, x25]
	sturh	w8, [x29, #-98]
	bl	tc_rack.delivery.empty_queue._5349ec06ad6c886c
	ldurb	w8, [x29, #-96]
	cbnz	w8, 232f
	subs	x24, x24, #1
	add	x25, x25, #4
	b.ne	93b
922:
	movi	v0.2d, #0000000000000000
	ldr	x24, [x20, #40]
	mov	w8, #1
	stur	w8, [x29, #-100]
	stp	q0, q0, [x29, #-96]
	stp	q0, q0, [x29, #-64]
	stp	q0, q0, [x29, #-32]
	cbz	x24, 602f
	mov	x25, xzr
93:
	ldr	x8, [x20, #32]
	sub	x0, x29, #96
	sub	x2, x29, #100
	mov	x1, x20
	mov	x3, x19
	ldrb	w8, [x8, x25]
	sturb	w8, [x29, #-99]
	bl	tc_rack.delivery.empty_queue._5349ec06ad6c886c
	ldurb	w8, [x29, #-96]
	cbnz	w8, 232f
	subs	x24, x24, #1
	add	x25, x25, #4
	b.ne	93b
602:
	ldrb	w8, [x20, #264]
	ldrb	w9, [x20]
	sub	x0, x29, #208
	ldrb	w10, [x20, #58]
	ldrb	w11, [x20, #265]
	sub	x1, x29, #96
	ubfiz	w8, w8, #15, #1
	mov	x2, x19
	sturh	wzr, [x29, #-94]
	stp	xzr, xzr, [x29, #-80]
	orr	w8, w8, w9, lsl #18
	sturb	w9, [x29, #-95]
	stur	xzr, [x29, #-88]
	orr	w8, w8, w10
	ldrb	w10, [x20, #59]
	bfi	w8, w11, #14, #1
	ldrb	w11, [x20, #60]
	add	w8, w8, w10, lsl #13
	ldrb	w10, [x20, #61]
	add	w8, w8, w11, lsl #12
	ldrb	w11, [x20, #62]
	add	w8, w8, w10, lsl #11
	mov	w10, #4
	sturb	w10, [x29, #-96]
	add	w8, w8, w11, lsl #9
	mov	w11, #16777216
	add	w8, w8, w11
	stur	w8, [x29, #-92]
	bl	tc_rack.delivery.write_answer._5349ec06ad6c886c
	ldur	q0, [x23, #41]
	ldur	q1, [x23, #57]
	ldur	q2, [x23, #73]
	ldur	x8, [x29, #-120]
	ldurb	w9, [x29, #-208]
	stp	q0, q1, [sp, #128]
	ldur	q0, [x23, #9]
	ldur	q1, [x23, #25]
	str	q2, [sp, #160]
	stur	x8, [x21, #79]
	ldurb	w8, [x29, #-200]
	stp	q0, q1, [sp, #96]
	b	613f
232:
	ldur	x8, [x29, #-8]
	ldur	q0, [x23, #185]
	ldur	q1, [x23, #121]
	ldur	q2, [x23, #137]
	stur	x8, [x21, #175]
	str	q0, [sp, #256]
	ldur	x8, [x21, #175]
	stp	q1, q2, [sp, #192]
	ldr	q0, [sp, #256]
	ldr	q3, [sp, #208]
	ldur	q2, [x23, #153]
	stur	x8, [x29, #-120]
	ldurb	w8, [x29, #-88]
	stur	q0, [x23, #73]
	ldur	q0, [x23, #169]
	stur	q3, [x23, #25]
	stur	q1, [x23, #9]
	stp	q2, q0, [sp, #224]
	ldur	q1, [x23, #9]
	stur	q0, [x23, #57]
	ldur	q0, [x23, #25]
	stur	q2, [x23, #41]
	ldur	x9, [x29, #-120]
	stp	q1, q0, [sp, #96]
	ldur	q0, [x23, #73]
	ldur	q1, [x23, #57]
	ldur	q2, [x23, #41]
	sturb	w8, [x29, #-200]
	stur	x9, [x21, #79]
	mov	w9, #1
	stp	q1, q0, [sp, #144]
	str	q2, [sp, #128]
613:
	mov	x0, x22
976:
	ldp	q2, q0, [sp, #144]
	ldur	x10, [x21, #79]
	ldp	q3, q1, [sp, #112]
	strb	w8, [x0, #8]
	stur	x10, [sp, #79]
	stp	q2, q0, [sp, #48]
	ldr	q0, [sp, #96]
	stp	q3, q1, [sp, #16]
	ldur	x8, [sp, #79]
	stur	q1, [x0, #41]
	ldr	q1, [sp, #64]
	str	q0, [sp]
	strb	w9, [x0]
	stur	q2, [x0, #57]
	stur	q1, [x0, #73]
	str	x8, [x0, #88]
	stur	q0, [x0, #9]
	stur	q3, [x0, #25]
	add	sp, sp, #496
	ldp	x20, x19, [sp, #64]
	ldp	x22, x21, [sp, #48]
	ldp	x24, x23, [sp, #32]
	ldp	x28, x25, [sp, #16]
	ldp	x29, x30, [sp], #80
	ret
174:
	brk	#0x1
	.section	.text.tc_rack.delivery.empty_queue._5349ec06ad6c886c,"ax",@progbits
	.p2align	2
tc_rack.delivery.empty_queue._5349ec06ad6c886c:
	stp	x29, x30, [sp, #-96]!
	stp	x28, x27, [sp, #16]
	mov	x29, sp
	stp	x26, x25, [sp, #32]
	stp	x24, x23, [sp, #48]
	stp	x22, x21, [sp, #64]
	stp	x20, x19, [sp, #80]
	sub	sp, sp, #480
	movi	v0.2d, #0000000000000000
	ldrb	w8, [x2]
	ldrb	w23, [x2, #1]
	ldrh	w22, [x2, #2]
	mov	x21, x1
	mov	x19, x0
	add	x24, sp, #176
	str	x3, [sp, #8]
	stp	xzr, xzr, [sp, #120]
	stp	q0, q0, [sp, #48]
	stp	q0, q0, [sp, #80]
	stp	q0, q0, [sp, #144]
	stp	q0, q0, [sp, #176]
	stp	q0, q0, [sp, #208]
	str	q0, [sp, #240]
	stur	xzr, [x24, #79]
	str	xzr, [sp, #112]
	str	wzr, [sp, #136]
	stp	q0, q0, [sp, #16]
	cbz	w8, 93f
	ldr	x11, [x21, #240]
	ldp	x9, x10, [x21, #208]
	cmp	x11, x23
	b.ls	32f
	ldr	x11, [x21, #232]
	ldrh	w11, [x11, x23, lsl #1]
	cmp	x10, x11
	b.hi	192f
	b	976f
93:
	ldr	x11, [x21, #192]
	ldp	x9, x10, [x21, #160]
	cmp	x11, x22
	b.ls	943f
	ldr	x11, [x21, #184]
	ldrh	w11, [x11, x22, lsl #1]
	cmp	x10, x11
	b.ls	976f
192:
	lsl	x11, x11, #6
62:
	add	x9, x9, x11
	ldr	x25, [x9, #40]
	cbz	x25, 976f
	add	x9, sp, #144
	orr	x26, x9, #0x4
	cbz	w8, 405f
	mov	x22, xzr
	b	93f
316:
	add	x22, x22, #1
	cmp	x22, x25
	b.eq	976f
93:
	ldr	x8, [x21, #240]
	ldrb	w28, [x21]
	stp	xzr, xzr, [x29, #-168]
	stur	wzr, [x29, #-144]
	cmp	x8, x23
	ldp	x8, x9, [x21, #208]
	stur	xzr, [x29, #-152]
	b.ls	613f
	ldr	x10, [x21, #232]
	ldrh	w10, [x10, x23, lsl #1]
	cmp	x9, x10
	b.ls	983f
	lsl	x10, x10, #6
481:
	add	x8, x8, x10
	ldr	x8, [x8, #40]
	cbz	x8, 187f
	movi	v0.2d, #0000000000000000
	sub	x0, x29, #48
	add	x1, x21, #208
	mov	w2, w23
	stp	q0, q0, [x29, #-48]
	bl	tc_queues.queues.Queues_GrowingRoom.take._f9a2c2c7976df771
	ldurb	w8, [x29, #-48]
	sub	x9, x29, #48
	ldur	q0, [x9, #8]
	ldur	x9, [x9, #24]
	cmp	w8, #1
	stur	q0, [x29, #-80]
	stur	x9, [x29, #-64]
	b.ne	174f
	ldr	x8, [x21, #256]
	cmn	x8, #1
	b.eq	232f
	add	x8, x8, #1
	str	x8, [x21, #256]
232:
	ldur	q0, [x29, #-80]
	sub	x9, x29, #110
	ldur	x8, [x29, #-64]
	mov	w20, wzr
	mov	w27, #3
	stur	q0, [x9, #6]
	ldur	q0, [x9, #6]
	stur	x8, [x9, #22]
	sub	x9, x29, #140
	stur	x8, [x9, #22]
	stur	q0, [x9, #6]
	ldur	q0, [x9, #6]
	sub	x9, x29, #168
	stur	x8, [x9, #20]
	mov	w8, w23
	stur	q0, [x9, #4]
	b	232f
613:
	cbz	x9, 983f
	mov	x10, xzr
335:
	ldrh	w11, [x8, x10]
	cmp	w11, w23
	b.eq	481b
	subs	x9, x9, #1
	add	x10, x10, #64
	b.ne	335b
983:
	mov	w8, wzr
	mov	w28, #3
	b	613f
187:
	mov	w28, #4
613:
	mov	w27, #5
	mov	w20, #1
232:
	ldur	q0, [x24, #136]
	ldur	q1, [x24, #148]
	add	x0, sp, #16
	ldr	x2, [sp, #8]
	add	x1, sp, #144
	strb	w27, [sp, #144]
	stur	q0, [x29, #-208]
	stur	q1, [x24, #108]
	ldur	q0, [x29, #-208]
	ldur	q1, [x24, #108]
	strb	w28, [sp, #145]
	strh	w8, [sp, #146]
	str	q0, [sp, #112]
	stur	q1, [sp, #124]
	ldr	q0, [sp, #112]
	ldur	q1, [sp, #124]
	str	q0, [x26]
	stur	q1, [x26, #12]
	bl	tc_rack.delivery.write_answer._5349ec06ad6c886c
	ldrb	w8, [sp, #16]
	cbnz	w8, 602f
	ldr	x8, [sp, #168]
	cmp	x8, #0
	csinc	w8, w20, wzr, ne
	tbnz	w8, #0, 316b
	ldr	x0, [sp, #152]
	bl	rattle_dealloc
	b	316b
32:
	cbz	x10, 976f
	mov	x11, xzr
335:
	ldrh	w12, [x9, x11]
	cmp	w12, w23
	b.eq	62b
	subs	x10, x10, #1
	add	x11, x11, #64
	b.ne	335b
	b	976f
943:
	cbz	x10, 976f
	mov	x11, xzr
335:
	ldrh	w12, [x9, x11]
	cmp	w22, w12
	b.eq	62b
	subs	x10, x10, #1
	add	x11, x11, #64
	b.ne	335b
976:
	ldp	q0, q1, [sp, #208]
	ldr	q2, [sp, #240]
	ldur	x8, [x24, #79]
	strb	wzr, [x19]
	strb	wzr, [x19, #8]
	stur	q0, [x19, #41]
	stur	q1, [x19, #57]
	ldp	q0, q1, [sp, #176]
448:
	stur	q2, [x19, #73]
	str	x8, [x19, #88]
	stur	q0, [x19, #9]
	stur	q1, [x19, #25]
	add	sp, sp, #480
	ldp	x20, x19, [sp, #80]
	ldp	x22, x21, [sp, #64]
	ldp	x24, x23, [sp, #48]
	ldp	x26, x25, [sp, #32]
	ldp	x28, x27, [sp, #16]
	ldp	x29, x30, [sp], #96
	ret
405:
	lsr	w8, w22, #8
	mov	x23, xzr
	str	x8, [sp]
	b	93f
62:
	add	x23, x23, #1
	cmp	x23, x25
	b.eq	976b
93:
	ldr	x8, [x21, #192]
	ldrb	w28, [x21]
	stp	xzr, xzr, [x29, #-168]
	stur	wzr, [x29, #-144]
	cmp	x8, x22
	ldp	x8, x9, [x21, #160]
	stur	xzr, [x29, #-152]
	b.ls	613f
	ldr	x10, [x21, #184]
	ldrh	w10, [x10, x22, lsl #1]
	cmp	x9, x10
	b.ls	983f
	lsl	x10, x10, #6
316:
	add	x8, x8, x10
	ldr	x8, [x8, #40]
	cbz	x8, 187f
	movi	v0.2d, #0000000000000000
	sub	x0, x29, #48
	add	x1, x21, #160
	mov	w2, w22
	stp	q0, q0, [x29, #-48]
	bl	tc_queues.queues.Queues_GrowingRoom.take._f9a2c2c7976df771
	ldurb	w8, [x29, #-48]
	sub	x9, x29, #48
	ldur	q0, [x9, #8]
	ldur	x9, [x9, #24]
	cmp	w8, #1
	stur	q0, [x29, #-80]
	stur	x9, [x29, #-64]
	b.ne	174f
	ldr	x8, [x21, #256]
	cmn	x8, #1
	b.eq	232f
	add	x8, x8, #1
	str	x8, [x21, #256]
232:
	ldur	q0, [x29, #-80]
	sub	x9, x29, #110
	ldur	x8, [x29, #-64]
	mov	w20, wzr
	mov	w27, #2
	stur	q0, [x9, #6]
	ldur	q0, [x9, #6]
	stur	x8, [x9, #22]
	sub	x9, x29, #140
	stur	x8, [x9, #22]
	stur	q0, [x9, #6]
	ldur	q0, [x9, #6]
	sub	x9, x29, #168
	stur	x8, [x9, #20]
	and	w8, w22, #0xff
	stur	q0, [x9, #4]
	ldr	x9, [sp]
	b	232f
613:
	cbz	x9, 983f
	mov	x10, xzr
335:
	ldrh	w11, [x8, x10]
	cmp	w22, w11
	b.eq	316b
	subs	x9, x9, #1
	add	x10, x10, #64
	b.ne	335b
983:
	mov	w8, wzr
	mov	w9, wzr
	mov	w27, #5
	mov	w20, #1
	mov	w28, #2
	b	232f
187:
	mov	w9, wzr
	mov	w27, #5
	mov	w20, #1
	mov	w28, #4
232:
	ldur	q0, [x24, #136]
	ldur	q1, [x24, #148]
	orr	w8, w8, w9, lsl #8
	ldr	x2, [sp, #8]
	add	x0, sp, #16
	add	x1, sp, #144
	stur	q0, [x29, #-208]
	stur	q1, [x24, #108]
	ldur	q0, [x29, #-208]
	ldur	q1, [x24, #108]
	strb	w27, [sp, #144]
	strb	w28, [sp, #145]
	str	q0, [sp, #112]
	stur	q1, [sp, #124]
	ldr	q0, [sp, #112]
	strh	w8, [sp, #146]
	str	q0, [x26]
	ldur	q0, [sp, #124]
	stur	q0, [x26, #12]
	bl	tc_rack.delivery.write_answer._5349ec06ad6c886c
	ldrb	w8, [sp, #16]
	cbnz	w8, 602f
	ldr	x8, [sp, #168]
	cmp	x8, #0
	csinc	w8, w20, wzr, ne
	tbnz	w8, #0, 62b
	ldr	x0, [sp, #152]
	bl	rattle_dealloc
	b	62b
602:
	ldrb	w21, [sp, #24]
	mov	w8, #9
	add	x9, sp, #16
	cmp	w27, #5
	orr	x20, x9, x8
	b.eq	976f
	ldr	x8, [sp, #168]
	cmp	w27, #3
	cbz	x8, 976f
	ldr	x0, [sp, #152]
	bl	rattle_dealloc
976:
	ldp	q0, q1, [x20, #32]
	mov	w8, #1
	strb	w8, [x19]
	ldr	q2, [x20, #64]
	ldur	x8, [x20, #79]
	strb	w21, [x19, #8]
	stur	q0, [x19, #41]
	stur	q1, [x19, #57]
	ldp	q0, q1, [x20]
	b	448b
174:
	brk	#0x1
	.section	.rodata.cst16,"aM",@progbits,16
	.p2align	4
.LCf81a4ee4_0:
	.xword	7310596056926023526
	.xword	3346860010425884786
	.section	.rodata.cst8,"aM",@progbits,8
	.p2align	3
.LCf81a4ee4_1:
	.hword	2
	.hword	41
	.hword	15
	.hword	0
	.section	.text.tc_rack.delivery.write_answer._5349ec06ad6c886c,"ax",@progbits
	.p2align	2
tc_rack.delivery.write_answer._5349ec06ad6c886c:
	sub	sp, sp, #400
	movi	v0.2d, #0000000000000000
	stp	x29, x30, [sp, #336]
	add	x29, sp, #336
	stp	x22, x21, [sp, #368]
	mov	w22, #32
	mov	x21, #-1
	stp	x20, x19, [sp, #384]
	mov	x19, x0
	add	x20, sp, #64
	add	x0, sp, #64
	str	x28, [sp, #352]
	stp	q0, q0, [sp]
	stp	q0, q0, [sp, #32]
	stp	q0, q0, [x29, #-128]
	stp	q0, q0, [x29, #-96]
	str	x2, [sp, #64]
	stur	q0, [sp, #72]
	stur	q0, [sp, #88]
	stur	q0, [sp, #104]
	stur	q0, [sp, #120]
	stur	q0, [x20, #72]
	stur	q0, [x20, #88]
	stp	xzr, xzr, [sp, #192]
	stur	xzr, [x20, #108]
	str	w22, [sp, #168]
	str	wzr, [sp, #180]
	str	x21, [sp, #184]
	bl	core.fmt.formatter.Formatter.write_piece._f520552a59309161
	and	w8, w0, #0xff
	tbz	w8, #0, 93f
	mov	w9, #1
	b	922f
93:
	ldr	x8, [sp, #192]
	adrp	x1, .LT3235efc0
	add	x1, x1, :lo12:.LT3235efc0
	add	x0, sp, #64
	mov	w2, #1
	str	w22, [sp, #168]
	stur	xzr, [x20, #108]
	stur	wzr, [x20, #116]
	str	x21, [sp, #184]
	cbnz	x8, 498f
	bl	std.io.traits.AdapterWrite.write_str._5349ec06ad6c886c
447:
	and	w9, w0, #0xff
922:
	movi	v2.2d, #0000000000000000
	ldrb	w10, [sp, #72]
	ldr	s1, [sp, #80]
	ldr	w8, [sp, #84]
	ldur	q0, [sp, #88]
	cmp	x10, #1
	stp	q2, q2, [x29, #-64]
	stp	q2, q2, [x29, #-32]
	b.ne	613f
	ldur	q2, [x20, #40]
	ldur	q3, [x20, #56]
	ushll	v1.8h, v1.8b, #0
	ldur	q4, [x20, #72]
	mov	w9, #1
	stp	q2, q3, [x29, #-64]
	ldur	q2, [x20, #88]
	stp	q4, q2, [x29, #-32]
	b	39f
613:
	mov	w8, wzr
	cbz	w9, 922f
	movi	v2.16b, #46
	adrp	x9, .LCf81a4ee4_0
	adrp	x10, .LCf81a4ee4_1
	ldr	q0, [x9, :lo12:.LCf81a4ee4_0]
	ldr	d1, [x10, :lo12:.LCf81a4ee4_1]
	mov	w9, #1
	stp	q2, q2, [x29, #-64]
	stp	q2, q2, [x29, #-32]
	b	39f
922:
	movi	v1.2d, #0000000000000000
	movi	v0.2d, #0000000000000000
39:
	uzp1	v1.8b, v1.8b, v0.8b
	ldp	q2, q3, [x29, #-64]
	ldp	q4, q5, [x29, #-32]
	strb	w9, [x19]
	str	w8, [x19, #12]
	ldr	x28, [sp, #352]
	stp	q0, q2, [x19, #16]
	ldp	x22, x21, [sp, #368]
	str	s1, [x19, #8]
	ldp	x29, x30, [sp, #336]
	stp	q3, q4, [x19, #48]
	str	q5, [x19, #80]
	ldp	x20, x19, [sp, #384]
	stp	q2, q3, [sp]
	stp	q4, q5, [sp, #32]
	add	sp, sp, #400
	ret
498:
	bl	core.fmt.formatter.Formatter.write_indented._1ac78889755d2eb3
	b	447b
	.section	.rodata.cst16,"aM",@progbits,16
	.p2align	4
.LCd9d5459f_0:
	.xword	7310596056926023526
	.xword	3346860010425884786
	.section	.rodata.cst8,"aM",@progbits,8
	.p2align	3
.LCd9d5459f_1:
	.hword	2
	.hword	41
	.hword	15
	.hword	0
	.section	.text.std.io.traits.Write.write_fmt._66d26946d4f3efb7,"ax",@progbits
	.p2align	2
std.io.traits.Write.write_fmt._66d26946d4f3efb7:
	sub	sp, sp, #352
	stp	x24, x23, [sp, #304]
	movi	v0.2d, #0000000000000000
	mov	w8, #32
	stp	x20, x19, [sp, #336]
	ldp	x23, x20, [x2]
	str	w8, [sp, #104]
	mov	x19, x0
	mov	x9, #-1
	stp	x22, x21, [sp, #320]
	ldr	x21, [x2, #16]
	mov	x22, sp
	ldrb	w8, [x23]
	stp	x29, x30, [sp, #272]
	add	x29, sp, #272
	stp	x28, x25, [sp, #288]
	cmp	w8, #1
	str	x1, [sp]
	stp	q0, q0, [x29, #-128]
	stp	q0, q0, [x29, #-96]
	stur	q0, [sp, #8]
	stur	q0, [sp, #24]
	stur	q0, [sp, #40]
	stur	q0, [sp, #56]
	stur	q0, [sp, #72]
	stur	q0, [sp, #88]
	stur	xzr, [sp, #108]
	str	wzr, [sp, #116]
	stp	xzr, xzr, [sp, #128]
	str	x9, [sp, #120]
	str	wzr, [sp, #116]
	stur	xzr, [sp, #108]
	b.le	613f
	cmp	w8, #2
	b.eq	939f
	cmp	w8, #3
	b.ne	168f
	adrp	x1, .LTbd1a9a90
	add	x1, x1, :lo12:.LTbd1a9a90
	mov	x0, sp
	mov	w2, #20
	bl	std.io.traits.AdapterWrite.write_str._5349ec06ad6c886c
	and	w8, w0, #0xff
	tbnz	w8, #0, 983f
	b	943f
613:
	cbnz	w8, 179f
	mov	w24, #32
	mov	x25, #-1
	adrp	x1, .LT138bf261
	add	x1, x1, :lo12:.LT138bf261
	mov	x0, sp
	mov	w2, #5
	stur	xzr, [x22, #108]
	str	w24, [sp, #104]
	stur	wzr, [x22, #116]
	str	x25, [sp, #120]
	bl	std.io.traits.AdapterWrite.write_str._5349ec06ad6c886c
	and	w8, w0, #0xff
	tbnz	w8, #0, 32f
	ldr	w8, [x23, #4]
	str	w24, [sp, #104]
	stur	xzr, [x22, #108]
	cmp	w8, #100
	stur	wzr, [x22, #116]
	str	x25, [sp, #120]
	stp	xzr, xzr, [x29, #-64]
	stur	xzr, [x29, #-48]
	b.lo	187f
	mov	x9, xzr
613:
	mov	x11, #62915
	mov	x10, x8
	lsr	x8, x8, #2
	movk	x11, #23592, lsl #16
	mov	w12, #205
	movk	x11, #49807, lsl #32
	movk	x11, #10485, lsl #48
	umulh	x8, x8, x11
	mov	w11, #100
	lsr	x8, x8, #2
	msub	w11, w8, w11, w10
	lsr	x10, x10, #4
	cmp	x10, #624
	and	w13, w11, #0xff
	mul	w12, w13, w12
	mov	w13, #10
	lsr	w12, w12, #11
	msub	w11, w12, w13, w11
	sub	x13, x29, #64
	orr	w10, w12, #0x30
	add	x13, x13, x9
	sub	x9, x9, #2
	strb	w10, [x13, #22]
	orr	w11, w11, #0x30
	strb	w11, [x13, #23]
	b.hi	613b
	add	x9, x9, #24
	cmp	x8, #10
	b.hs	447f
625:
	sub	x9, x9, #1
	sub	x10, x29, #64
	orr	w8, w8, #0x30
	strb	w8, [x10, x9]
	b	625f
939:
	adrp	x1, .LT71b4f69b
	add	x1, x1, :lo12:.LT71b4f69b
	mov	x0, sp
	mov	w2, #16
	bl	std.io.traits.AdapterWrite.write_str._5349ec06ad6c886c
	and	w8, w0, #0xff
	tbnz	w8, #0, 983f
	b	943f
168:
	adrp	x1, .LT15dbdadc
	add	x1, x1, :lo12:.LT15dbdadc
	mov	x0, sp
	mov	w2, #18
	bl	std.io.traits.AdapterWrite.write_str._5349ec06ad6c886c
	and	w8, w0, #0xff
	tbnz	w8, #0, 983f
	b	943f
179:
	adrp	x1, .LT8140752f
	add	x1, x1, :lo12:.LT8140752f
	mov	x0, sp
	mov	w2, #19
498:
	bl	std.io.traits.AdapterWrite.write_str._5349ec06ad6c886c
	and	w8, w0, #0xff
	tbz	w8, #0, 943f
983:
	mov	w9, #1
	b	922f
187:
	mov	w9, #24
	cmp	x8, #10
	b.lo	625b
447:
	and	w10, w8, #0xff
	mov	w11, #205
	mul	w10, w10, w11
	mov	w11, #10
	lsr	w10, w10, #11
	msub	w8, w10, w11, w8
	sub	x11, x29, #64
	orr	w10, w10, #0x30
	add	x11, x11, x9
	sub	x9, x9, #2
	sturb	w10, [x11, #-2]
	orr	w8, w8, #0x30
	sturb	w8, [x11, #-1]
625:
	sub	x8, x29, #64
	ldr	x10, [sp, #128]
	mov	w11, #24
	add	x1, x8, x9
	mov	w8, #45
	sub	x2, x11, x9
	mov	x0, sp
	sturb	w8, [x1, #-1]
	cbnz	x10, 970f
	bl	std.io.traits.AdapterWrite.write_str._5349ec06ad6c886c
	and	w8, w0, #0xff
	tbnz	w8, #0, 32f
613:
	mov	w8, #32
	ldr	x9, [sp, #128]
	adrp	x1, .LTbefb410e
	add	x1, x1, :lo12:.LTbefb410e
	str	w8, [sp, #104]
	mov	x8, #-1
	mov	x0, sp
	mov	w2, #2
	stur	xzr, [x22, #108]
	stur	wzr, [x22, #116]
	str	x8, [sp, #120]
	cbnz	x9, 110f
	bl	std.io.traits.AdapterWrite.write_str._5349ec06ad6c886c
	and	w8, w0, #0xff
	tbz	w8, #0, 602f
32:
	mov	w8, #1
	tbnz	w8, #0, 983b
943:
	mov	w8, #32
	ldr	x9, [sp, #128]
	mov	x0, sp
	str	w8, [sp, #104]
	mov	x8, #-1
	mov	x1, x20
	mov	x2, x21
	stur	xzr, [x22, #108]
	stur	wzr, [x22, #116]
	str	x8, [sp, #120]
	cbnz	x9, 412f
	bl	std.io.traits.AdapterWrite.write_str._5349ec06ad6c886c
447:
	and	w9, w0, #0xff
922:
	movi	v2.2d, #0000000000000000
	ldrb	w10, [sp, #8]
	ldr	s1, [sp, #16]
	ldr	w8, [sp, #20]
	ldur	q0, [sp, #24]
	cmp	x10, #1
	stp	q2, q2, [x29, #-64]
	stp	q2, q2, [x29, #-32]
	b.ne	187f
	ldur	q2, [x22, #40]
	ldur	q3, [x22, #56]
	ushll	v1.8h, v1.8b, #0
	ldur	q4, [x22, #72]
	mov	w9, #1
	stp	q2, q3, [x29, #-64]
	ldur	q2, [x22, #88]
	stp	q4, q2, [x29, #-32]
	b	39f
187:
	mov	w8, wzr
	cbz	w9, 922f
	movi	v2.16b, #46
	adrp	x9, .LCd9d5459f_0
	adrp	x10, .LCd9d5459f_1
	ldr	q0, [x9, :lo12:.LCd9d5459f_0]
	ldr	d1, [x10, :lo12:.LCd9d5459f_1]
	mov	w9, #1
	stp	q2, q2, [x29, #-64]
	stp	q2, q2, [x29, #-32]
	b	39f
922:
	movi	v1.2d, #0000000000000000
	movi	v0.2d, #0000000000000000
39:
	uzp1	v1.8b, v1.8b, v0.8b
	ldp	q2, q3, [x29, #-64]
	ldp	q4, q5, [x29, #-32]
	strb	w9, [x19]
	str	w8, [x19, #12]
	ldp	x22, x21, [sp, #320]
	stp	q2, q3, [x29, #-128]
	ldp	x24, x23, [sp, #304]
	stp	q4, q5, [x29, #-96]
	ldp	x28, x25, [sp, #288]
	str	s1, [x19, #8]
	ldp	x29, x30, [sp, #272]
	stp	q0, q2, [x19, #16]
	stp	q3, q4, [x19, #48]
	str	q5, [x19, #80]
	ldp	x20, x19, [sp, #336]
	add	sp, sp, #352
	ret
412:
	bl	core.fmt.formatter.Formatter.write_indented._1ac78889755d2eb3
	b	447b
970:
	bl	core.fmt.formatter.Formatter.write_indented._1ac78889755d2eb3
	and	w8, w0, #0xff
	tbnz	w8, #0, 32b
	b	613b
110:
	bl	core.fmt.formatter.Formatter.write_indented._1ac78889755d2eb3
	and	w8, w0, #0xff
	tbnz	w8, #0, 32b
602:
	ldrb	w9, [x23, #8]
	adrp	x11, .Lswitch.table.std.io.traits.Write.write_fmt._66d26946d4f3efb7
	add	x11, x11, :lo12:.Lswitch.table.std.io.traits.Write.write_fmt._66d26946d4f3efb7
	mov	w8, #32
	mov	x10, #-1
	mov	x0, sp
	ldr	x2, [x11, x9, lsl #3]
	adrp	x11, .Lswitch.table.std.io.traits.Write.write_fmt._66d26946d4f3efb7_.638
	add	x11, x11, :lo12:.Lswitch.table.std.io.traits.Write.write_fmt._66d26946d4f3efb7_.638
	str	w8, [sp, #104]
	ldr	x8, [sp, #128]
	ldr	x1, [x11, x9, lsl #3]
	stur	xzr, [x22, #108]
	stur	wzr, [x22, #116]
	str	x10, [sp, #120]
	cbz	x8, 498b
	bl	core.fmt.formatter.Formatter.write_indented._1ac78889755d2eb3
	and	w8, w0, #0xff
	tbnz	w8, #0, 983b
	b	943b
	.section	.text.unlikely.std_alloc.vec.Vec.grow_amortized._923596be7a9ccb34,"ax",@progbits
	.p2align	2
std_alloc.vec.Vec.grow_amortized._923596be7a9ccb34:
	ldr	x8, [x0, #8]
	cmn	x8, x1
	b.lo	598f
	mov	w0, wzr
	ret
598:
	stp	x29, x30, [sp, #-32]!
	ldr	x9, [x0, #16]
	add	x10, x8, x1
	mov	w11, #4
	cmp	x10, #4
	stp	x20, x19, [sp, #16]
	mov	x29, sp
	lsl	x12, x9, #1
	csel	x11, x10, x11, hi
	lsr	x13, x9, #62
	cmp	x11, x12
	csel	x10, x11, x12, hi
	cmp	x13, #0
	csel	x19, x10, x11, eq
	lsr	x11, x19, #59
	cbnz	x11, 187f
	cbz	x9, 983f
	mov	x20, x0
	ldr	x0, [x0]
	lsl	x1, x8, #4
	lsl	x2, x19, #4
	mov	w3, #8
	bl	rattle_realloc
	tbz	w0, #0, 187f
613:
	mov	w0, #1
	str	x1, [x20]
	str	x19, [x20, #16]
	ldp	x20, x19, [sp, #16]
	ldp	x29, x30, [sp], #32
	ret
983:
	mov	x20, x0
	lsl	x0, x10, #4
	mov	w1, #8
	bl	rattle_alloc
	tbnz	w0, #0, 613b
187:
	mov	w0, wzr
	ldp	x20, x19, [sp, #16]
	ldp	x29, x30, [sp], #32
	ret
	.section	.text.tc_make.line.octets,"ax",@progbits
	.p2align	2
tc_make.line.octets:
	stp	x29, x30, [sp, #-64]!
	str	x23, [sp, #16]
	mov	x29, sp
	stp	x22, x21, [sp, #32]
	stp	x20, x19, [sp, #48]
	tbnz	w2, #0, 613f
	cbz	x2, 983f
	lsr	x19, x2, #1
	mov	x22, x1
	mov	x20, x0
	mov	w1, #1
	mov	x23, x2
	mov	w21, #1
	mov	x0, x19
	bl	rattle_alloc
	tbz	w0, #0, 187f
	cmp	x23, #2
	b.ne	625f
	mov	x21, xzr
	add	x8, x21, #1
	strb	wzr, [x1, xzr]
	cmp	x19, x8
	b.eq	32f
	b	943f
613:
	mov	x1, xzr
	mov	x19, xzr
	mov	w8, #4
	mov	w21, #1
	b	560f
983:
	mov	w21, wzr
	mov	x19, xzr
	mov	w8, wzr
	add	x1, x29, #31
	b	560f
187:
	mov	x1, xzr
	mov	x19, xzr
	mov	w8, #16
	b	613f
625:
	sub	x2, x19, #1
	mov	x0, x1
	mov	x23, x1
	mov	w1, wzr
	sub	x21, x19, #1
	bl	memset
	mov	x1, x23
	add	x8, x21, #1
	strb	wzr, [x23, x21]
	cmp	x19, x8
	b.ne	943f
32:
	mov	x9, xzr
	add	x10, x22, #1
	b	257f
625:
	sub	w13, w12, #55
62:
	add	w11, w13, w11, lsl #4
	add	x10, x10, #2
	strb	w11, [x1, x9]
	add	x9, x9, #1
	cmp	x8, x9
	b.eq	983f
257:
	ldurb	w13, [x10, #-1]
	subs	w11, w13, #48
	b.lo	943f
	ldrb	w12, [x10]
	cmp	w13, #57
	b.ls	321f
	cmp	w13, #65
	b.lo	943f
	cmp	w13, #70
	b.hi	893f
	sub	w11, w13, #55
	b	321f
893:
	sub	w11, w13, #97
	cmp	w11, #5
	b.hi	943f
	sub	w11, w13, #87
321:
	subs	w13, w12, #48
	b.lo	943f
	cmp	w12, #57
	b.ls	62b
	cmp	w12, #65
	b.lo	943f
	cmp	w12, #70
	b.ls	625b
	sub	w13, w12, #97
	cmp	w13, #5
	b.hi	943f
	sub	w13, w12, #87
	b	62b
943:
	mov	x0, x1
	bl	rattle_dealloc
	mov	x1, xzr
	mov	x19, xzr
	mov	w8, #4
	mov	w21, #1
613:
	mov	x0, x20
560:
	strb	w21, [x0]
	ldp	x22, x21, [sp, #32]
	stp	x1, x19, [x0, #8]
	ldr	x23, [sp, #16]
	str	x19, [x0, #24]
	ldp	x20, x19, [sp, #48]
	strb	w8, [x0, #1]
	strb	wzr, [x0, #2]
	ldp	x29, x30, [sp], #64
	ret
983:
	mov	w21, wzr
	mov	w8, wzr
	b	613b
	.section	.text.tc_make.line.read_stream,"ax",@progbits
	.p2align	2
tc_make.line.read_stream:
	sub	x8, x2, #6
	cmn	x8, #5
	b.lo	32f
	cbz	x2, 187f
	ldrb	w8, [x1]
	sub	w8, w8, #48
	cmp	w8, #9
	b.hi	32f
	cmp	x2, #1
	b.ne	556f
613:
	mov	w8, wzr
983:
	mov	w9, #10
	subs	x2, x2, #1
	mul	w8, w8, w9
	ldrb	w9, [x1], #1
	sub	w9, w9, #48
	add	w8, w8, w9, uxtb
	b.ne	983b
	lsr	w9, w8, #16
	cbnz	w9, 32f
	sub	x9, x4, #6
	cmn	x9, #5
	b.hs	602f
	b	943f
187:
	mov	w8, wzr
	sub	x9, x4, #6
	cmn	x9, #5
	b.lo	943f
602:
	cbz	x4, 613f
	ldrb	w9, [x3]
	sub	w9, w9, #48
	cmp	w9, #9
	b.hi	943f
	cmp	x4, #1
	b.ne	602f
983:
	mov	w9, wzr
187:
	mov	w10, #10
	subs	x4, x4, #1
	mul	w9, w9, w10
	ldrb	w10, [x3], #1
	sub	w10, w10, #48
	add	w9, w9, w10, uxtb
	b.ne	187b
	cmp	w9, #256
	b.lo	625f
	b	943f
556:
	ldrb	w8, [x1, #1]
	sub	w8, w8, #48
	cmp	w8, #9
	b.hi	32f
	cmp	x2, #2
	b.eq	613b
	ldrb	w8, [x1, #2]
	sub	w8, w8, #48
	cmp	w8, #9
	b.hi	32f
	cmp	x2, #3
	b.eq	613b
	ldrb	w8, [x1, #3]
	sub	w8, w8, #48
	cmp	w8, #9
	b.hi	32f
	cmp	x2, #4
	b.eq	613b
	ldrb	w8, [x1, #4]
	sub	w8, w8, #48
	cmp	w8, #9
	b.hi	32f
	cmp	x2, #5
	b.eq	613b
32:
	mov	w8, #769
	stur	wzr, [x0, #2]
	strh	w8, [x0]
	ret
613:
	mov	w9, wzr
625:
	sub	x10, x6, #6
	cmn	x10, #5
	b.lo	32f
	cbz	x6, 983f
	ldrb	w10, [x5]
	sub	w10, w10, #48
	cmp	w10, #9
	b.hi	32f
	cmp	x6, #1
	b.ne	556f
613:
	mov	w10, wzr
187:
	mov	w11, #10
	subs	x6, x6, #1
	mul	w10, w10, w11
	ldrb	w11, [x5], #1
	sub	w11, w11, #48
	add	w10, w10, w11, uxtb
	b.ne	187b
	cmp	w10, #256
	b.lo	690f
	b	32f
602:
	ldrb	w9, [x3, #1]
	sub	w9, w9, #48
	cmp	w9, #9
	b.hi	943f
	cmp	x4, #2
	b.eq	983b
	ldrb	w9, [x3, #2]
	sub	w9, w9, #48
	cmp	w9, #9
	b.hi	943f
	cmp	x4, #3
	b.eq	983b
	ldrb	w9, [x3, #3]
	sub	w9, w9, #48
	cmp	w9, #9
	b.hi	943f
	cmp	x4, #4
	b.eq	983b
	ldrb	w9, [x3, #4]
	sub	w9, w9, #48
	cmp	w9, #9
	b.hi	943f
	cmp	x4, #5
	b.eq	983b
943:
	mov	w8, #769
	mov	w9, #1
	strh	w8, [x0]
	stur	w9, [x0, #2]
	ret
983:
	mov	w10, wzr
690:
	orr	w8, w8, w9, lsl #16
	strh	wzr, [x0]
	orr	w8, w8, w10, lsl #24
	stur	w8, [x0, #2]
	ret
556:
	ldrb	w10, [x5, #1]
	sub	w10, w10, #48
	cmp	w10, #9
	b.hi	32f
	cmp	x6, #2
	b.eq	613b
	ldrb	w10, [x5, #2]
	sub	w10, w10, #48
	cmp	w10, #9
	b.hi	32f
	cmp	x6, #3
	b.eq	613b
	ldrb	w10, [x5, #3]
	sub	w10, w10, #48
	cmp	w10, #9
	b.hi	32f
	cmp	x6, #4
	b.eq	613b
	ldrb	w10, [x5, #4]
	sub	w10, w10, #48
	cmp	w10, #9
	b.hi	32f
	cmp	x6, #5
	b.eq	613b
32:
	mov	w8, #769
	mov	w9, #2
	strh	w8, [x0]
	stur	w9, [x0, #2]
	ret
	.section	.text.tc_make.line.bd,"ax",@progbits
	.p2align	2
tc_make.line.bd:
	sub	sp, sp, #144
	cmp	x2, #4
	stp	x29, x30, [sp, #64]
	add	x29, sp, #64
	str	x25, [sp, #80]
	stp	x24, x23, [sp, #96]
	stp	x22, x21, [sp, #112]
	stp	x20, x19, [sp, #128]
	b.ne	922f
	ldr	x8, [x1, #8]
	sub	x9, x8, #6
	cmn	x9, #5
	b.lo	32f
	cbz	x8, 187f
	ldr	x9, [x1]
	ldrb	w10, [x9]
	sub	w10, w10, #48
	cmp	w10, #9
	b.hi	32f
	cmp	x8, #1
	b.ne	602f
613:
	mov	w10, wzr
983:
	mov	w11, #10
	subs	x8, x8, #1
	mul	w10, w10, w11
	ldrb	w11, [x9], #1
	sub	w11, w11, #48
	add	w10, w10, w11, uxtb
	b.ne	983b
	cmp	w10, #16, lsl #12
	mov	w8, #65536
	csel	w20, w10, w8, lo
	b.hs	32f
	lsr	w21, w20, #8
	ldr	x8, [x1, #24]
	sub	x9, x8, #6
	cmn	x9, #5
	b.hs	93f
	b	320f
922:
	movi	v0.2d, #0000000000000000
	mov	w8, #513
	mov	w9, #2
738:
	strh	w8, [x0]
	strb	w9, [x0, #2]
	b	448f
187:
	mov	w20, wzr
	mov	w21, wzr
	ldr	x8, [x1, #24]
	sub	x9, x8, #6
	cmn	x9, #5
	b.lo	320f
93:
	cbz	x8, 613f
	ldr	x9, [x1, #16]
	ldrb	w10, [x9]
	sub	w10, w10, #48
	cmp	w10, #9
	b.hi	320f
	cmp	x8, #1
	b.ne	556f
983:
	mov	w22, wzr
187:
	mov	w10, #10
	ldrb	w11, [x9], #1
	mul	w10, w22, w10
	subs	x8, x8, #1
	sub	w11, w11, #48
	add	w22, w10, w11, uxtb
	b.ne	187b
	cmp	w22, #256
	b.lo	681f
	b	320f
602:
	ldrb	w10, [x9, #1]
	sub	w10, w10, #48
	cmp	w10, #9
	b.hi	32f
	cmp	x8, #2
	b.eq	613b
	ldrb	w10, [x9, #2]
	sub	w10, w10, #48
	cmp	w10, #9
	b.hi	32f
	cmp	x8, #3
	b.eq	613b
	ldrb	w10, [x9, #3]
	sub	w10, w10, #48
	cmp	w10, #9
	b.hi	32f
	cmp	x8, #4
	b.eq	613b
	ldrb	w10, [x9, #4]
	sub	w10, w10, #48
	cmp	w10, #9
	b.hi	32f
	cmp	x8, #5
	b.eq	613b
32:
	mov	w8, #769
	movi	v0.2d, #0000000000000000
	strb	wzr, [x0, #2]
	strh	w8, [x0]
448:
	stur	q0, [x0, #8]
	stur	q0, [x0, #24]
	str	xzr, [x0, #40]
976:
	ldp	x20, x19, [sp, #128]
	ldr	x25, [sp, #80]
	ldp	x22, x21, [sp, #112]
	ldp	x24, x23, [sp, #96]
	ldp	x29, x30, [sp, #64]
	add	sp, sp, #144
	ret
613:
	mov	w22, wzr
681:
	ldp	x19, x25, [x1, #32]
	cmp	x25, #5
	b.ne	625f
	ldr	w8, [x19]
	mov	w9, #27760
	movk	w9, #26977, lsl #16
	cmp	w8, w9
	b.ne	613f
	adrp	x2, .LTb1732992
	add	x2, x2, :lo12:.LTb1732992
	mov	x23, x0
	mov	x0, x19
	mov	x24, x1
	mov	w1, #5
	bl	core.cmp.slices.groups_equal._i8_31_core.cmp.numbers.U8PartialEq
	mov	x1, x24
	mov	w8, w0
	mov	x0, x23
	tbz	w8, #0, 613f
	mov	w19, wzr
	mov	w25, wzr
	mov	w24, wzr
	b	737f
625:
	sub	x8, x25, #6
	cmn	x8, #5
	b.lo	922f
613:
	mov	x8, xzr
118:
	cmp	x25, x8
	b.eq	613f
	ldrb	w9, [x19, x8]
	add	x8, x8, #1
	sub	w9, w9, #48
	cmp	w9, #10
	b.lo	118b
	b	922f
556:
	ldrb	w10, [x9, #1]
	sub	w10, w10, #48
	cmp	w10, #9
	b.hi	320f
	cmp	x8, #2
	b.eq	983b
	ldrb	w10, [x9, #2]
	sub	w10, w10, #48
	cmp	w10, #9
	b.hi	320f
	cmp	x8, #3
	b.eq	983b
	ldrb	w10, [x9, #3]
	sub	w10, w10, #48
	cmp	w10, #9
	b.hi	320f
	cmp	x8, #4
	b.eq	983b
	ldrb	w10, [x9, #4]
	sub	w10, w10, #48
	cmp	w10, #9
	b.hi	320f
	cmp	x8, #5
	b.eq	983b
320:
	movi	v0.2d, #0000000000000000
	mov	w8, #769
	mov	w9, #1
	b	738b
613:
	cbz	x25, 983f
	mov	w24, wzr
613:
	mov	w8, #10
	ldrb	w9, [x19], #1
	mul	w8, w24, w8
	subs	x25, x25, #1
	sub	w9, w9, #48
	add	w24, w8, w9, uxtb
	b.ne	613b
	cmp	w24, #256
	b.hs	922f
	mov	x23, x0
	b	613f
922:
	movi	v0.2d, #0000000000000000
	mov	w8, #769
	mov	w9, #3
	b	738b
983:
	mov	x23, x0
	mov	w24, wzr
613:
	mov	w25, #3
	mov	w19, #1
737:
	movi	v0.2d, #0000000000000000
	ldp	x1, x2, [x1, #48]
	add	x0, sp, #32
	stp	q0, q0, [sp, #32]
	bl	tc_make.line.octets
	ldrb	w8, [sp, #32]
	cbz	w8, 335f
	ldrb	w9, [sp, #34]
	ldrb	w10, [sp, #33]
	mov	w22, wzr
	mov	w20, wzr
	mov	w13, wzr
	mov	x8, xzr
	mov	w14, wzr
	mov	w19, wzr
	mov	w11, wzr
	mov	w12, #1
	stp	xzr, xzr, [sp]
	stur	xzr, [sp, #13]
	b	93f
335:
	ldrh	w8, [sp, #40]
	ldrb	w13, [sp, #42]
	mov	w12, wzr
	ldur	q0, [sp, #43]
	ldr	x14, [sp, #56]
	mov	w10, wzr
	lsl	x8, x8, #40
	mov	w9, wzr
	bfi	w20, w21, #8, #24
	orr	w11, w25, w24, lsl #8
	str	q0, [sp]
	orr	x8, x8, x13, lsl #56
	stur	x14, [sp, #13]
	mov	w14, #2
	mov	w13, #1
93:
	ldr	q0, [sp]
	stur	x8, [x23, #19]
	ldur	x8, [sp, #13]
	strb	w12, [x23]
	strb	w10, [x23, #1]
	strb	w9, [x23, #2]
	strb	w14, [x23, #8]
	strb	wzr, [x23, #9]
	strb	w13, [x23, #10]
	strb	wzr, [x23, #11]
	strh	w20, [x23, #12]
	strb	w22, [x23, #14]
	strb	wzr, [x23, #15]
	strb	w19, [x23, #16]
	sturh	w11, [x23, #17]
	stur	q0, [x23, #27]
	str	x8, [x23, #40]
	b	976b
	.section	.text.tc_make.line.unlock,"ax",@progbits
	.p2align	2
tc_make.line.unlock:
	cmp	x2, #2
	b.ne	922f
	ldr	x8, [x1, #8]
	sub	x9, x8, #6
	cmn	x9, #5
	b.lo	32f
	cbz	x8, 187f
	ldr	x9, [x1]
	ldrb	w10, [x9]
	sub	w10, w10, #48
	cmp	w10, #9
	b.hi	32f
	cmp	x8, #1
	b.ne	602f
613:
	mov	w10, wzr
983:
	mov	w11, #10
	subs	x8, x8, #1
	mul	w10, w10, w11
	ldrb	w11, [x9], #1
	sub	w11, w11, #48
	add	w10, w10, w11, uxtb
	b.ne	983b
	cmp	w10, #16, lsl #12
	mov	w8, #65536
	csel	w8, w10, w8, lo
	b.hs	32f
	lsr	w9, w8, #8
	ldr	x10, [x1, #24]
	sub	x11, x10, #6
	cmn	x11, #5
	b.hs	93f
	b	320f
922:
	movi	v0.2d, #0000000000000000
	mov	w8, #513
	mov	w9, #3
	strh	w8, [x0]
	strb	w9, [x0, #2]
	stur	q0, [x0, #8]
	stur	q0, [x0, #24]
	str	xzr, [x0, #40]
	ret
187:
	mov	w9, wzr
	ldr	x10, [x1, #24]
	sub	x11, x10, #6
	cmn	x11, #5
	b.lo	320f
93:
	cbz	x10, 613f
	ldr	x11, [x1, #16]
	ldrb	w12, [x11]
	sub	w12, w12, #48
	cmp	w12, #9
	b.hi	320f
	cmp	x10, #1
	b.ne	556f
983:
	mov	w12, wzr
187:
	mov	w13, #10
	subs	x10, x10, #1
	mul	w12, w12, w13
	ldrb	w13, [x11], #1
	sub	w13, w13, #48
	add	w12, w12, w13, uxtb
	b.ne	187b
	cmp	w12, #256
	b.lo	922f
	b	320f
602:
	ldrb	w10, [x9, #1]
	sub	w10, w10, #48
	cmp	w10, #9
	b.hi	32f
	cmp	x8, #2
	b.eq	613b
	ldrb	w10, [x9, #2]
	sub	w10, w10, #48
	cmp	w10, #9
	b.hi	32f
	cmp	x8, #3
	b.eq	613b
	ldrb	w10, [x9, #3]
	sub	w10, w10, #48
	cmp	w10, #9
	b.hi	32f
	cmp	x8, #4
	b.eq	613b
	ldrb	w10, [x9, #4]
	sub	w10, w10, #48
	cmp	w10, #9
	b.hi	32f
	cmp	x8, #5
	b.eq	613b
32:
	mov	w8, #769
	movi	v0.2d, #0000000000000000
	strb	wzr, [x0, #2]
	strh	w8, [x0]
	stur	q0, [x0, #8]
	stur	q0, [x0, #24]
	str	xzr, [x0, #40]
	ret
613:
	mov	w12, wzr
922:
	movi	v0.2d, #0000000000000000
	bfi	w8, w9, #8, #24
	mov	w9, #3
	strh	wzr, [x0]
	strb	wzr, [x0, #2]
	strh	w9, [x0, #8]
	strh	w8, [x0, #10]
	strb	w12, [x0, #12]
	stur	q0, [x0, #13]
	stur	q0, [x0, #29]
	str	wzr, [x0, #44]
	ret
556:
	ldrb	w12, [x11, #1]
	sub	w12, w12, #48
	cmp	w12, #9
	b.hi	320f
	cmp	x10, #2
	b.eq	983b
	ldrb	w12, [x11, #2]
	sub	w12, w12, #48
	cmp	w12, #9
	b.hi	320f
	cmp	x10, #3
	b.eq	983b
	ldrb	w12, [x11, #3]
	sub	w12, w12, #48
	cmp	w12, #9
	b.hi	320f
	cmp	x10, #4
	b.eq	983b
	ldrb	w12, [x11, #4]
	sub	w12, w12, #48
	cmp	w12, #9
	b.hi	320f
	cmp	x10, #5
	b.eq	983b
320:
	movi	v0.2d, #0000000000000000
	mov	w8, #769
	mov	w9, #1
	strh	w8, [x0]
	strb	w9, [x0, #2]
	stur	q0, [x0, #8]
	stur	q0, [x0, #24]
	str	xzr, [x0, #40]
	ret
	.section	.text.tc_make.line.setvr,"ax",@progbits
	.p2align	2
tc_make.line.setvr:
	cmp	x2, #3
	b.ne	922f
	ldr	x8, [x1, #8]
	sub	x9, x8, #6
	cmn	x9, #5
	b.lo	32f
	cbz	x8, 187f
	ldr	x9, [x1]
	ldrb	w10, [x9]
	sub	w10, w10, #48
	cmp	w10, #9
	b.hi	32f
	cmp	x8, #1
	b.ne	602f
613:
	mov	w10, wzr
983:
	mov	w11, #10
	subs	x8, x8, #1
	mul	w10, w10, w11
	ldrb	w11, [x9], #1
	sub	w11, w11, #48
	add	w10, w10, w11, uxtb
	b.ne	983b
	cmp	w10, #16, lsl #12
	mov	w8, #65536
	csel	w8, w10, w8, lo
	b.hs	32f
	lsr	w9, w8, #8
	ldr	x11, [x1, #24]
	sub	x10, x11, #6
	cmn	x10, #5
	b.hs	93f
	b	320f
922:
	movi	v0.2d, #0000000000000000
	mov	w8, #513
	mov	w9, #4
	strh	w8, [x0]
	strb	w9, [x0, #2]
	stur	q0, [x0, #8]
	stur	q0, [x0, #24]
	str	xzr, [x0, #40]
	ret
187:
	mov	w9, wzr
	ldr	x11, [x1, #24]
	sub	x10, x11, #6
	cmn	x10, #5
	b.lo	320f
93:
	cbz	x11, 613f
	ldr	x12, [x1, #16]
	ldrb	w10, [x12]
	sub	w10, w10, #48
	cmp	w10, #9
	b.hi	320f
	cmp	x11, #1
	b.ne	556f
983:
	mov	w10, wzr
187:
	mov	w13, #10
	subs	x11, x11, #1
	mul	w10, w10, w13
	ldrb	w13, [x12], #1
	sub	w13, w13, #48
	add	w10, w10, w13, uxtb
	b.ne	187b
	cmp	w10, #256
	b.lo	93f
	b	320f
602:
	ldrb	w10, [x9, #1]
	sub	w10, w10, #48
	cmp	w10, #9
	b.hi	32f
	cmp	x8, #2
	b.eq	613b
	ldrb	w10, [x9, #2]
	sub	w10, w10, #48
	cmp	w10, #9
	b.hi	32f
	cmp	x8, #3
	b.eq	613b
	ldrb	w10, [x9, #3]
	sub	w10, w10, #48
	cmp	w10, #9
	b.hi	32f
	cmp	x8, #4
	b.eq	613b
	ldrb	w10, [x9, #4]
	sub	w10, w10, #48
	cmp	w10, #9
	b.hi	32f
	cmp	x8, #5
	b.eq	613b
32:
	mov	w8, #769
	movi	v0.2d, #0000000000000000
	strb	wzr, [x0, #2]
	strh	w8, [x0]
	stur	q0, [x0, #8]
	stur	q0, [x0, #24]
	str	xzr, [x0, #40]
	ret
613:
	mov	w10, wzr
93:
	ldr	x11, [x1, #40]
	sub	x12, x11, #6
	cmn	x12, #5
	b.lo	737f
	cbz	x11, 983f
	ldr	x12, [x1, #32]
	ldrb	w13, [x12]
	sub	w13, w13, #48
	cmp	w13, #9
	b.hi	737f
	cmp	x11, #1
	b.ne	602f
613:
	mov	w13, wzr
187:
	mov	w14, #10
	subs	x11, x11, #1
	mul	w13, w13, w14
	ldrb	w14, [x12], #1
	sub	w14, w14, #48
	add	w13, w13, w14, uxtb
	b.ne	187b
	cmp	w13, #256
	b.lo	922f
	b	737f
556:
	ldrb	w10, [x12, #1]
	sub	w10, w10, #48
	cmp	w10, #9
	b.hi	320f
	cmp	x11, #2
	b.eq	983b
	ldrb	w10, [x12, #2]
	sub	w10, w10, #48
	cmp	w10, #9
	b.hi	320f
	cmp	x11, #3
	b.eq	983b
	ldrb	w10, [x12, #3]
	sub	w10, w10, #48
	cmp	w10, #9
	b.hi	320f
	cmp	x11, #4
	b.eq	983b
	ldrb	w10, [x12, #4]
	sub	w10, w10, #48
	cmp	w10, #9
	b.hi	320f
	cmp	x11, #5
	b.eq	983b
320:
	movi	v0.2d, #0000000000000000
	mov	w8, #769
	mov	w9, #1
	strh	w8, [x0]
	strb	w9, [x0, #2]
	stur	q0, [x0, #8]
	stur	q0, [x0, #24]
	str	xzr, [x0, #40]
	ret
983:
	mov	w13, wzr
922:
	movi	v0.2d, #0000000000000000
	bfi	w8, w9, #8, #24
	mov	w9, #3
	strh	wzr, [x0]
	strh	w8, [x0, #10]
	mov	w8, #1
	strb	wzr, [x0, #2]
	strh	w9, [x0, #8]
	strb	w10, [x0, #12]
	strb	w8, [x0, #13]
	strb	w13, [x0, #14]
	stur	q0, [x0, #15]
	stur	q0, [x0, #31]
	strb	wzr, [x0, #47]
	ret
602:
	ldrb	w13, [x12, #1]
	sub	w13, w13, #48
	cmp	w13, #9
	b.hi	737f
	cmp	x11, #2
	b.eq	613b
	ldrb	w13, [x12, #2]
	sub	w13, w13, #48
	cmp	w13, #9
	b.hi	737f
	cmp	x11, #3
	b.eq	613b
	ldrb	w13, [x12, #3]
	sub	w13, w13, #48
	cmp	w13, #9
	b.hi	737f
	cmp	x11, #4
	b.eq	613b
	ldrb	w13, [x12, #4]
	sub	w13, w13, #48
	cmp	w13, #9
	b.hi	737f
	cmp	x11, #5
	b.eq	613b
737:
	movi	v0.2d, #0000000000000000
	mov	w8, #769
	mov	w9, #7
	strh	w8, [x0]
	strb	w9, [x0, #2]
	stur	q0, [x0, #8]
	stur	q0, [x0, #24]
	str	xzr, [x0, #40]
	ret
	.section	.text.tc_make.line.segments,"ax",@progbits
	.p2align	2
tc_make.line.segments:
	sub	sp, sp, #192
	stp	x20, x19, [sp, #176]
	mov	x19, x0
	cmp	x2, #6
	stp	x29, x30, [sp, #144]
	add	x29, sp, #144
	stp	x22, x21, [sp, #160]
	strh	wzr, [sp, #12]
	str	wzr, [sp, #8]
	b.ne	922f
	mov	x20, x1
	ldp	x1, x2, [x1]
	ldp	x3, x4, [x20, #16]
	add	x0, sp, #8
	ldp	x5, x6, [x20, #32]
	bl	tc_make.line.read_stream
	ldrb	w8, [sp, #8]
	ldur	w21, [sp, #10]
	cbz	w8, 93f
	ldrb	w8, [sp, #9]
	mov	w9, #1
	movi	v0.2d, #0000000000000000
	strb	w21, [x19, #2]
	strb	w9, [x19]
	strb	w8, [x19, #1]
	b	448f
922:
	movi	v0.2d, #0000000000000000
	mov	w8, #513
	mov	w9, #5
	strh	w8, [x19]
	strb	w9, [x19, #2]
448:
	stur	q0, [x19, #8]
	stur	q0, [x19, #24]
	str	xzr, [x19, #40]
	ldp	x20, x19, [sp, #176]
	ldp	x22, x21, [sp, #160]
	ldp	x29, x30, [sp, #144]
	add	sp, sp, #192
	ret
93:
	ldr	x11, [x20, #56]
	sub	x8, x11, #6
	cmn	x8, #5
	b.lo	32f
	ldp	x9, x8, [x20, #64]
	ldp	x1, x2, [x20, #80]
	cbz	x11, 187f
	ldr	x12, [x20, #48]
	ldrb	w10, [x12]
	sub	w10, w10, #48
	cmp	w10, #9
	b.hi	32f
	cmp	x11, #1
	b.ne	602f
613:
	mov	w20, wzr
983:
	mov	w10, #10
	ldrb	w13, [x12], #1
	mul	w10, w20, w10
	subs	x11, x11, #1
	sub	w13, w13, #48
	add	w20, w10, w13, uxtb
	b.ne	983b
	cmp	w20, #255
	b.ls	625f
	b	32f
187:
	mov	w20, wzr
625:
	sub	x10, x8, #6
	cmn	x10, #5
	b.lo	911f
	cbz	x8, 943f
	ldrb	w10, [x9]
	sub	w10, w10, #48
	cmp	w10, #9
	b.hi	911f
	cmp	x8, #1
	b.ne	556f
983:
	mov	w22, wzr
187:
	mov	w10, #10
	ldrb	w11, [x9], #1
	mul	w10, w22, w10
	subs	x8, x8, #1
	sub	w11, w11, #48
	add	w22, w10, w11, uxtb
	b.ne	187b
	lsr	w8, w22, #16
	cbnz	w8, 911f
	b	922f
602:
	ldrb	w10, [x12, #1]
	sub	w10, w10, #48
	cmp	w10, #9
	b.hi	32f
	cmp	x11, #2
	b.eq	613b
	ldrb	w10, [x12, #2]
	sub	w10, w10, #48
	cmp	w10, #9
	b.hi	32f
	cmp	x11, #3
	b.eq	613b
	ldrb	w10, [x12, #3]
	sub	w10, w10, #48
	cmp	w10, #9
	b.hi	32f
	cmp	x11, #4
	b.eq	613b
	ldrb	w10, [x12, #4]
	sub	w10, w10, #48
	cmp	w10, #9
	mov	w10, #3
	b.hi	613f
	cmp	x11, #5
	b.eq	613b
	b	613f
32:
	mov	w10, #3
613:
	mov	w9, wzr
	mov	w21, wzr
	mov	w8, wzr
	stp	xzr, xzr, [sp, #16]
	mov	w11, #3
	mov	w12, #1
	stur	xzr, [sp, #38]
	str	xzr, [sp, #32]
93:
	ldr	q0, [sp, #16]
	ldur	q1, [sp, #30]
	strb	w12, [x19]
	strb	w11, [x19, #1]
	strb	w10, [x19, #2]
	strb	w9, [x19, #8]
	strb	wzr, [x19, #9]
	stur	w21, [x19, #10]
	stur	w8, [x19, #14]
	stur	q0, [x19, #18]
	str	q1, [x19, #32]
	ldp	x20, x19, [sp, #176]
	ldp	x22, x21, [sp, #160]
	ldp	x29, x30, [sp, #144]
	add	sp, sp, #192
	ret
943:
	mov	w22, wzr
922:
	movi	v0.2d, #0000000000000000
	sub	x0, x29, #32
	stur	wzr, [x29, #-64]
	sturh	wzr, [x29, #-60]
	stp	q0, q0, [x29, #-32]
	bl	tc_make.line.octets
	ldurb	w8, [x29, #-32]
	cbz	w8, 232f
	ldurb	w10, [x29, #-30]
	ldurb	w11, [x29, #-31]
	mov	w9, wzr
	mov	w21, wzr
	mov	w8, wzr
	mov	w12, #1
	stp	xzr, xzr, [sp, #48]
	str	xzr, [sp, #64]
	stur	xzr, [sp, #70]
	b	659f
232:
	ldur	q0, [x29, #-24]
	ldur	x8, [x29, #-8]
	mov	w12, wzr
	mov	w11, wzr
	mov	w10, wzr
	mov	w9, #4
	stur	q0, [x29, #-58]
	stur	x8, [x29, #-42]
	ldur	q0, [x29, #-64]
	orr	w8, w20, w22, lsl #16
	ldur	q1, [x29, #-50]
	str	q0, [sp, #48]
	stur	q1, [sp, #62]
659:
	ldr	q0, [sp, #48]
	ldur	q1, [sp, #62]
	str	q0, [sp, #16]
	stur	q1, [sp, #30]
	b	93b
556:
	ldrb	w10, [x9, #1]
	sub	w10, w10, #48
	cmp	w10, #9
	b.hi	911f
	cmp	x8, #2
	b.eq	983b
	ldrb	w10, [x9, #2]
	sub	w10, w10, #48
	cmp	w10, #9
	b.hi	911f
	cmp	x8, #3
	b.eq	983b
	ldrb	w10, [x9, #3]
	sub	w10, w10, #48
	cmp	w10, #9
	b.hi	911f
	cmp	x8, #4
	b.eq	983b
	ldrb	w10, [x9, #4]
	sub	w10, w10, #48
	cmp	w10, #9
	mov	w10, #4
	b.hi	613b
	cmp	x8, #5
	b.eq	983b
	b	613b
911:
	mov	w10, #4
	b	613b
	.section	.text.tc_make.line.alone,"ax",@progbits
	.p2align	2
tc_make.line.alone:
	sub	sp, sp, #64
	movi	v0.2d, #0000000000000000
	str	x19, [sp, #48]
	mov	x19, x0
	cmp	x3, #1
	stp	x29, x30, [sp, #32]
	add	x29, sp, #32
	stp	q0, q0, [sp]
	b.ne	598f
	ldp	x1, x8, [x2]
	mov	x0, sp
	mov	x2, x8
	bl	tc_make.line.octets
	ldur	q0, [sp, #8]
	ldrb	w8, [sp]
	ldr	x10, [sp, #24]
	ldrb	w9, [sp, #1]
	ldrb	w1, [sp, #2]
	stur	q0, [x19, #8]
	str	x10, [x19, #24]
	b	976f
598:
	stp	xzr, xzr, [x19, #8]
	mov	w9, #2
	mov	w8, #1
	str	xzr, [x19, #24]
976:
	ldp	x29, x30, [sp, #32]
	strb	w8, [x19]
	strb	w9, [x19, #1]
	strb	w1, [x19, #2]
	ldr	x19, [sp, #48]
	add	sp, sp, #64
	ret
	.section	.text.tc_make.line.piece,"ax",@progbits
	.p2align	2
tc_make.line.piece:
	sub	sp, sp, #112
	movi	v0.2d, #0000000000000000
	stp	x29, x30, [sp, #80]
	add	x29, sp, #80
	cmp	x2, #2
	stp	x20, x19, [sp, #96]
	stp	q0, q0, [x29, #-32]
	stp	q0, q0, [sp]
	stur	xzr, [sp, #30]
	b.ne	187f
	ldr	x8, [x1, #8]
	sub	x9, x8, #6
	cmn	x9, #5
	b.lo	922f
	cbz	x8, 32f
	ldr	x9, [x1]
	ldrb	w10, [x9]
	sub	w10, w10, #48
	cmp	w10, #9
	b.hi	922f
	cmp	x8, #1
	b.ne	602f
613:
	mov	w19, wzr
983:
	mov	w10, #10
	ldrb	w11, [x9], #1
	mul	w10, w19, w10
	subs	x8, x8, #1
	sub	w11, w11, #48
	add	w19, w10, w11, uxtb
	b.ne	983b
	cmp	w19, #256
	b.lo	976f
	b	922f
187:
	mov	w8, #513
	mov	w9, #13
	b	738f
32:
	mov	w19, wzr
976:
	ldp	x1, x2, [x1, #16]
	mov	x20, x0
	sub	x0, x29, #32
	bl	tc_make.line.octets
	ldurb	w8, [x29, #-32]
	cbz	w8, 232f
	movi	v0.2d, #0000000000000000
	ldurh	w8, [x29, #-31]
	mov	w9, #1
	strb	w9, [x20]
	sturh	w8, [x20, #1]
	str	xzr, [x20, #40]
	stur	q0, [x20, #8]
	stur	q0, [x20, #24]
	ldp	x20, x19, [sp, #96]
	ldp	x29, x30, [sp, #80]
	add	sp, sp, #112
	ret
232:
	ldur	q0, [x29, #-24]
	ldur	x8, [x29, #-8]
	strh	wzr, [x20]
	strb	wzr, [x20, #2]
	stur	q0, [sp, #6]
	stur	x8, [sp, #22]
	mov	w8, #12
	ldp	q0, q1, [sp]
	strb	w8, [x20, #8]
	ldur	x8, [sp, #30]
	strb	w19, [x20, #9]
	str	x8, [x20, #40]
	stur	q0, [x20, #10]
	stur	q1, [x20, #26]
	ldp	x20, x19, [sp, #96]
	ldp	x29, x30, [sp, #80]
	add	sp, sp, #112
	ret
602:
	ldrb	w10, [x9, #1]
	sub	w10, w10, #48
	cmp	w10, #9
	b.hi	922f
	cmp	x8, #2
	b.eq	613b
	ldrb	w10, [x9, #2]
	sub	w10, w10, #48
	cmp	w10, #9
	b.hi	922f
	cmp	x8, #3
	b.eq	613b
	ldrb	w10, [x9, #3]
	sub	w10, w10, #48
	cmp	w10, #9
	b.hi	922f
	cmp	x8, #4
	b.eq	613b
	ldrb	w10, [x9, #4]
	sub	w10, w10, #48
	cmp	w10, #9
	b.hi	922f
	cmp	x8, #5
	b.eq	613b
922:
	movi	v0.2d, #0000000000000000
	mov	w8, #769
	mov	w9, #8
738:
	strh	w8, [x0]
	strb	w9, [x0, #2]
	stur	q0, [x0, #8]
	stur	q0, [x0, #24]
	str	xzr, [x0, #40]
	ldp	x20, x19, [sp, #96]
	ldp	x29, x30, [sp, #80]
	add	sp, sp, #112
	ret
	.section	.text.tc_make.line.search,"ax",@progbits
	.p2align	2
tc_make.line.search:
	cmp	x2, #1
	b.ne	922f
	ldr	x8, [x1, #8]
	sub	x9, x8, #6
	cmn	x9, #5
	b.lo	737f
	cbz	x8, 187f
	ldr	x9, [x1]
	ldrb	w10, [x9]
	sub	w10, w10, #48
	cmp	w10, #9
	b.hi	737f
	cmp	x8, #1
	b.ne	602f
613:
	mov	w10, wzr
983:
	mov	w11, #10
	subs	x8, x8, #1
	mul	w10, w10, w11
	ldrb	w11, [x9], #1
	sub	w11, w11, #48
	add	w10, w10, w11, uxtb
	b.ne	983b
	cmp	w10, #256
	b.lo	320f
	b	737f
922:
	movi	v0.2d, #0000000000000000
	mov	w8, #513
	mov	w9, #14
	strh	w8, [x0]
	strb	w9, [x0, #2]
	stur	q0, [x0, #8]
	stur	q0, [x0, #24]
	str	xzr, [x0, #40]
	ret
187:
	mov	w10, wzr
320:
	movi	v0.2d, #0000000000000000
	mov	w8, #13
	strh	wzr, [x0]
	strb	wzr, [x0, #2]
	strb	w10, [x0, #9]
	strb	w8, [x0, #8]
	stur	q0, [x0, #10]
	stur	q0, [x0, #26]
	str	xzr, [x0, #40]
	ret
602:
	ldrb	w10, [x9, #1]
	sub	w10, w10, #48
	cmp	w10, #9
	b.hi	737f
	cmp	x8, #2
	b.eq	613b
	ldrb	w10, [x9, #2]
	sub	w10, w10, #48
	cmp	w10, #9
	b.hi	737f
	cmp	x8, #3
	b.eq	613b
	ldrb	w10, [x9, #3]
	sub	w10, w10, #48
	cmp	w10, #9
	b.hi	737f
	cmp	x8, #4
	b.eq	613b
	ldrb	w10, [x9, #4]
	sub	w10, w10, #48
	cmp	w10, #9
	b.hi	737f
	cmp	x8, #5
	b.eq	613b
737:
	movi	v0.2d, #0000000000000000
	mov	w8, #769
	mov	w9, #8
	strh	w8, [x0]
	strb	w9, [x0, #2]
	stur	q0, [x0, #8]
	stur	q0, [x0, #24]
	str	xzr, [x0, #40]
	ret
	.section	.text.tc_make.line.frames,"ax",@progbits
	.p2align	2
tc_make.line.frames:
	sub	sp, sp, #112
	movi	v0.2d, #0000000000000000
	stp	x29, x30, [sp, #80]
	add	x29, sp, #80
	cmp	x2, #2
	stp	x20, x19, [sp, #96]
	stp	q0, q0, [x29, #-32]
	stp	q0, q0, [sp]
	stur	xzr, [sp, #30]
	b.ne	187f
	ldr	x8, [x1, #8]
	sub	x9, x8, #6
	cmn	x9, #5
	b.lo	922f
	cbz	x8, 32f
	ldr	x9, [x1]
	ldrb	w10, [x9]
	sub	w10, w10, #48
	cmp	w10, #9
	b.hi	922f
	cmp	x8, #1
	b.ne	602f
613:
	mov	w19, wzr
983:
	mov	w10, #10
	ldrb	w11, [x9], #1
	mul	w10, w19, w10
	subs	x8, x8, #1
	sub	w11, w11, #48
	add	w19, w10, w11, uxtb
	b.ne	983b
	cmp	w19, #256
	b.lo	976f
	b	922f
187:
	mov	w8, #513
	mov	w9, #15
	b	738f
32:
	mov	w19, wzr
976:
	ldp	x1, x2, [x1, #16]
	mov	x20, x0
	sub	x0, x29, #32
	bl	tc_make.line.octets
	ldurb	w8, [x29, #-32]
	cbz	w8, 232f
	movi	v0.2d, #0000000000000000
	ldurh	w8, [x29, #-31]
	mov	w9, #1
	strb	w9, [x20]
	sturh	w8, [x20, #1]
	str	xzr, [x20, #40]
	stur	q0, [x20, #8]
	stur	q0, [x20, #24]
	ldp	x20, x19, [sp, #96]
	ldp	x29, x30, [sp, #80]
	add	sp, sp, #112
	ret
232:
	ldur	q0, [x29, #-24]
	ldur	x8, [x29, #-8]
	strh	wzr, [x20]
	strb	wzr, [x20, #2]
	stur	q0, [sp, #6]
	stur	x8, [sp, #22]
	mov	w8, #14
	ldp	q0, q1, [sp]
	strb	w8, [x20, #8]
	ldur	x8, [sp, #30]
	strb	w19, [x20, #9]
	str	x8, [x20, #40]
	stur	q0, [x20, #10]
	stur	q1, [x20, #26]
	ldp	x20, x19, [sp, #96]
	ldp	x29, x30, [sp, #80]
	add	sp, sp, #112
	ret
602:
	ldrb	w10, [x9, #1]
	sub	w10, w10, #48
	cmp	w10, #9
	b.hi	922f
	cmp	x8, #2
	b.eq	613b
	ldrb	w10, [x9, #2]
	sub	w10, w10, #48
	cmp	w10, #9
	b.hi	922f
	cmp	x8, #3
	b.eq	613b
	ldrb	w10, [x9, #3]
	sub	w10, w10, #48
	cmp	w10, #9
	b.hi	922f
	cmp	x8, #4
	b.eq	613b
	ldrb	w10, [x9, #4]
	sub	w10, w10, #48
	cmp	w10, #9
	b.hi	922f
	cmp	x8, #5
	b.eq	613b
922:
	movi	v0.2d, #0000000000000000
	mov	w8, #769
	mov	w9, #9
738:
	strh	w8, [x0]
	strb	w9, [x0, #2]
	stur	q0, [x0, #8]
	stur	q0, [x0, #24]
	str	xzr, [x0, #40]
	ldp	x20, x19, [sp, #96]
	ldp	x29, x30, [sp, #80]
	add	sp, sp, #112
	ret
	.section	.rodata.cst16,"aM",@progbits,16
	.p2align	4
.LC648541ed_0:
	.xword	7310596056926023526
	.xword	3346860010425884786
.LC648541ed_2:
	.xword	0
	.xword	1029
	.section	.rodata.cst8,"aM",@progbits,8
	.p2align	3
.LC648541ed_1:
	.hword	2
	.hword	41
	.hword	15
	.hword	0
	.section	.text.tc_make.answer.answer._5349ec06ad6c886c,"ax",@progbits
	.p2align	2
tc_make.answer.answer._5349ec06ad6c886c:
	stp	x29, x30, [sp, #-96]!
	stp	x28, x27, [sp, #16]
	mov	x29, sp
	stp	x26, x25, [sp, #32]
	stp	x24, x23, [sp, #48]
	stp	x22, x21, [sp, #64]
	stp	x20, x19, [sp, #80]
	sub	sp, sp, #1040
	movi	v5.2d, #0000000000000000
	str	xzr, [sp]
	adrp	x10, .LJ648541ed_0
	add	x10, x10, :lo12:.LJ648541ed_0
	ldrb	w9, [x2]
	add	x26, sp, #352
	ldrb	w21, [x1]
	sub	x27, x29, #128
	add	x25, sp, #704
	dup	v0.4h, w9
	add	x28, sp, #160
	add	x22, x26, #24
	stp	q5, q5, [sp, #80]
	add	x23, x26, #22
	mov	x20, x3
	stp	q5, q5, [sp, #112]
	adr	x11, 922f
	ldrh	w12, [x10, x9, lsl #1]
	add	x11, x11, x12, lsl #2
	mov	x19, x0
	mov	w8, w9
	br	x11
922:
	movi	v0.2d, #0000000000000000
	ldrh	w24, [x2, #2]
	ldrh	w25, [x2, #4]
	ldp	x23, x21, [x2, #8]
	cmp	w24, #2047
	stp	q0, q0, [sp, #768]
	stp	q0, q0, [sp, #800]
	stp	q0, q0, [sp, #832]
	b.ls	405f
	mov	w1, #10
	b	946f
320:
	movi	v0.2d, #0000000000000000
	ldrb	w24, [x2, #1]
	ldp	x21, x2, [x2, #8]
	stp	q0, q0, [sp, #768]
	stp	q0, q0, [sp, #800]
	stp	q0, q0, [sp, #832]
	stp	q0, q0, [x29, #-128]
	stp	q0, q0, [x29, #-96]
	stp	q0, q0, [x29, #-64]
	cbz	w24, 239f
	mov	w25, wzr
118:
	cmp	x2, #5
	b.lo	481f
	ldrb	w8, [x21]
	tst	w8, #0xcccccccc
	b.ne	481f
	ldrb	w8, [x21, #3]
	ldrb	w9, [x21, #2]
	bfi	w8, w9, #8, #2
	cmp	w8, #5
	b.lo	481f
	add	w23, w8, #1
	subs	x22, x2, x23
	b.lo	481f
	adrp	x1, .LT4903b024
	add	x1, x1, :lo12:.LT4903b024
	sub	x0, x29, #128
	mov	w2, #5
	mov	x3, x21
	mov	x4, x23
	mov	x5, x20
	sub	x26, x29, #128
	bl	tc_make.printed.write_named._5349ec06ad6c886c
	ldurb	w8, [x29, #-128]
	cbnz	w8, 337f
	add	w25, w25, #1
	add	x21, x21, x23
	mov	x2, x22
	cmp	w25, w24
	b.lo	118b
	b	148f
737:
	movi	v0.2d, #0000000000000000
	mov	x22, x1
	ldrb	w23, [x2, #1]
	ldrb	w21, [x2, #2]
	mov	w0, #1029
	mov	w1, #1
	stp	q0, q0, [x29, #-128]
	stp	q0, q0, [x29, #-96]
	bl	rattle_alloc
	tbz	w0, #0, 98f
	mov	w9, #56
	ldr	x10, [x22, #56]
	adrp	x11, .LC648541ed_2
	umaddl	x9, w23, w9, x10
	ldr	q0, [x11, :lo12:.LC648541ed_2]
	mov	w10, #1
	movi	v1.2d, #0000000000000000
	movi	v5.2d, #0000000000000000
	mov	w8, wzr
	ldrb	w12, [x9]
	str	x10, [x9]
	ldr	x10, [x9, #32]
	stur	q0, [x9, #24]
	movi	v0.2d, #0000000000000000
	ldr	x0, [x9, #16]
	strb	w21, [x9, #8]
	cmp	w12, #1
	stur	wzr, [x9, #9]
	str	wzr, [x9, #12]
	str	x1, [x9, #16]
	stur	q1, [x9, #40]
	mov	w9, wzr
	b.ne	976f
	cbz	x10, 976f
	bl	rattle_dealloc
	mov	w8, wzr
	movi	v0.2d, #0000000000000000
	movi	v5.2d, #0000000000000000
	mov	w9, wzr
	b	976f
410:
	movi	v0.2d, #0000000000000000
	ldur	w24, [x2, #2]
	ldrb	w25, [x2, #6]
	ldp	x22, x23, [x2, #16]
	ldrh	w10, [x2, #8]
	and	w8, w24, #0xffff
	cmp	w8, #1023
	stp	q0, q0, [sp, #352]
	stp	q0, q0, [sp, #384]
	stp	q0, q0, [sp, #416]
	b.ls	532f
	mov	w1, #7
	b	231f
719:
	movi	v0.2d, #0000000000000000
	ldrb	w8, [x2, #1]
	mov	w9, #56
	ldr	x10, [x1, #56]
	ldp	x25, x28, [x2, #8]
	umaddl	x24, w8, w9, x10
	stp	q0, q0, [sp, #576]
	stp	q0, q0, [sp, #608]
	ldrb	w8, [x24]
	stp	q0, q0, [sp, #640]
	stp	q0, q0, [sp, #672]
	cmp	w8, #1
	b.ne	187f
	mov	x23, xzr
	add	x5, x24, #40
	add	x27, sp, #768
	stp	xzr, xzr, [sp, #64]
	stp	q0, q0, [sp, #160]
	stp	q0, q0, [sp, #192]
	stp	q0, q0, [sp, #704]
	stp	q0, q0, [sp, #736]
	b	321f
560:
	strb	w8, [x24, #10]
641:
	movi	v0.2d, #0000000000000000
	stp	q0, q0, [sp, #704]
	stp	q0, q0, [sp, #736]
321:
	subs	x12, x28, #8
	mov	x0, x25
	b.hs	602f
	cbz	x28, 645f
	ldrb	w9, [x24, #9]
	ldrb	w8, [x0], #1
	mov	x25, x0
	sub	x28, x28, #1
	cmp	w9, #1
	b.ne	556f
	ldr	x9, [x24, #48]
	strb	w8, [x5, x9]
	ldr	x8, [x24, #48]
	cmp	x8, #6
	b.hi	93f
62:
	add	x8, x8, #1
	str	x8, [x24, #48]
	b	641b
602:
	ldrb	w8, [x24, #9]
	tbz	w8, #0, 602f
	ldr	x9, [x24, #48]
	cbz	x9, 401f
	ldrb	w8, [x0]
	add	x25, x0, #1
	sub	x28, x28, #1
	strb	w8, [x5, x9]
	ldr	x8, [x24, #48]
	cmp	x8, #6
	b.ls	62b
93:
	ldr	x22, [x24, #40]
	adrp	x8, .LTb4175d02
	add	x8, x8, :lo12:.LTb4175d02
	str	xzr, [x24, #48]
	mov	x26, xzr
	lsr	x9, x22, #8
	lsr	x10, x22, #16
	lsr	x11, x22, #24
	lsr	x12, x22, #32
	lsr	x13, x22, #40
	add	x14, x8, w22, uxtb
	add	x9, x8, w9, uxtb
	add	x10, x8, w10, uxtb
	add	x11, x8, w11, uxtb
	add	x12, x8, w12, uxtb
	add	x13, x8, w13, uxtb
	ubfx	x15, x22, #48, #8
	ldrb	w14, [x14, #1536]
	ldrb	w9, [x9, #1280]
	ldrb	w10, [x10, #1024]
	ldrb	w11, [x11, #768]
	ldrb	w12, [x12, #512]
	ldrb	w13, [x13, #256]
	ldrb	w8, [x8, x15]
	eor	w9, w14, w9
	str	x22, [sp, #768]
	eor	w10, w10, w11
	eor	w11, w12, w13
	eor	w9, w9, w10
	eor	w8, w11, w8
	eor	w9, w9, w8
	lsr	x8, x22, #57
	eor	w9, w9, #0x7f
	cmp	w9, w8
	b.eq	93f
	ldrb	w10, [x24, #8]
	cbz	w10, 613f
	eor	w8, w9, w8
	adrp	x9, .LTddd25b9b
	add	x9, x9, :lo12:.LTddd25b9b
	ldr	x26, [x9, w8, uxtw #3]
	cbz	x26, 613f
93:
	ldr	x4, [x24, #24]
	cmp	x26, #0
	cset	w21, ne
	sub	x8, x4, #1023
	cmn	x8, #1030
	b.hs	659f
	mov	w8, wzr
	sturh	wzr, [x24, #9]
	mov	w21, #4
	cmp	w21, #1
	b.gt	280f
311:
	cbz	w21, 311f
	movi	v0.2d, #0000000000000000
	add	x23, x23, #1
	stp	q0, q0, [sp, #800]
	stp	q0, q0, [sp, #832]
	stp	q0, q0, [sp, #768]
	tbz	w8, #0, 641b
	b	263f
602:
	ldrb	w8, [x0], #1
	sub	x28, x28, #1
	mov	x25, x0
556:
	ldrb	w9, [x24, #10]
	mov	w10, #235
	mov	w11, #144
	eor	w9, w9, w10
	eor	w10, w8, w11
	ldrb	w11, [x24, #8]
	fmov	s0, w9
	fmov	s1, w10
	cnt	v0.8b, v0.8b
	cnt	v1.8b, v1.8b
	fmov	w9, s0
	fmov	w10, s1
	adds	w9, w9, w10
	cset	w10, eq
	cmp	w9, #2
	cset	w9, lo
	cmp	w11, #0
	csel	w9, w10, w9, eq
	cmp	w9, #1
	b.ne	560b
	ldr	x8, [x24, #24]
	strb	w9, [x24, #9]
	cbz	x8, 893f
	str	xzr, [x24, #24]
893:
	str	xzr, [x24, #48]
	b	641b
401:
	ldrb	w11, [x0]
	ldrb	w10, [x0, #1]
	adrp	x15, .LTb4175d02
	add	x15, x15, :lo12:.LTb4175d02
	ldrb	w9, [x0, #2]
	ldrb	w8, [x0, #3]
	ldrb	w13, [x0, #4]
	ldrb	w14, [x0, #5]
	add	x16, x15, x11
	ldrb	w17, [x0, #6]
	add	x18, x15, x10
	add	x1, x15, x9
	add	x2, x15, x8
	add	x13, x15, x13
	add	x14, x15, x14
	ldrb	w16, [x16, #1536]
	ldrb	w18, [x18, #1280]
	ldrb	w1, [x1, #1024]
	ldrb	w2, [x2, #768]
	ldrb	w13, [x13, #512]
	ldrb	w14, [x14, #256]
	ldrb	w15, [x15, x17]
	ldrb	w3, [x0, #7]
	eor	w16, w16, w18
	eor	w17, w1, w2
	eor	w13, w13, w14
	add	x25, x0, #8
	eor	w14, w16, w17
	eor	w13, w13, w15
	mov	x28, x12
	eor	w14, w14, w13
	lsr	w13, w3, #1
	eor	w14, w14, #0x7f
	cmp	w14, w13
	b.ne	602f
	ldr	x22, [x0]
	mov	w21, wzr
	ldr	x9, [x24, #24]
	sub	x8, x9, #1023
	cmn	x8, #1031
	b.hi	885f
93:
	ldr	x8, [sp, #72]
	sturh	wzr, [x24, #9]
	add	x8, x8, #1
	str	x8, [sp, #72]
	b	641b
659:
	ldr	x9, [x24, #32]
	sub	x8, x9, x4
	cmp	x8, #6
	b.ls	62f
140:
	eor	x10, x26, x22
	ldr	x11, [x24, #16]
	mov	w8, wzr
	lsr	x12, x10, #48
	lsr	x13, x10, #32
	add	x14, x11, x4
	add	x4, x4, #7
	strb	w12, [x14, #6]
	strh	w13, [x14, #4]
	str	w10, [x14]
	stp	x11, x4, [x24, #16]
	str	x9, [x24, #32]
	cmp	w21, #1
	b.gt	280f
	b	311b
613:
	mov	w8, #50629
	movk	w8, #50629, lsl #16
	cmp	w22, w8
	b.ne	613f
	adrp	x2, .LT9296ae30
	add	x2, x2, :lo12:.LT9296ae30
	add	x0, sp, #768
	b	983f
602:
	ldrb	w12, [x24, #8]
	cbz	w12, 118f
	eor	w12, w14, w13
	adrp	x13, .LTddd25b9b
	add	x13, x13, :lo12:.LTddd25b9b
	ldr	x12, [x13, w12, uxtw #3]
	cbz	x12, 118f
	ldr	x8, [x0]
	mov	w21, #1
	eor	x22, x8, x12
	ldr	x9, [x24, #24]
	sub	x8, x9, #1023
	cmn	x8, #1031
	b.ls	93b
885:
	ldr	x10, [x24, #32]
	sub	x8, x10, x9
	cmp	x8, #6
	b.ls	316f
93:
	ldr	x11, [x24, #16]
	lsr	x12, x22, #48
	lsr	x13, x22, #32
	add	x4, x9, #7
	mov	w8, wzr
	add	x14, x11, x9
	strb	w12, [x14, #6]
	strh	w13, [x14, #4]
	str	w22, [x14]
	stp	x11, x4, [x24, #16]
	str	x10, [x24, #32]
	cmp	w21, #1
	b.gt	280f
	b	311b
613:
	mov	w21, #3
	b	659f
118:
	cmp	w11, #197
	mov	w21, #3
	b.ne	659f
	cmp	w10, #197
	b.ne	659f
	cmp	w9, #197
	b.ne	659f
	cmp	w8, #197
	b.ne	659f
	adrp	x2, .LT9296ae30
	add	x2, x2, :lo12:.LT9296ae30
983:
	mov	w1, #8
	bl	core.cmp.slices.groups_equal._i8_31_core.cmp.numbers.U8PartialEq
	mov	w8, #2
	cmp	w0, #0
	add	x5, x24, #40
	cinc	w21, w8, eq
659:
	ldr	x4, [x24, #24]
	sturh	wzr, [x24, #9]
	cmp	x4, #0
	cset	w8, ne
	cmp	w21, #1
	b.le	311b
280:
	cmp	w21, #2
	b.eq	311f
	movi	v0.2d, #0000000000000000
	cmp	w21, #3
	b.ne	659f
	ldr	x9, [sp, #64]
	stp	q0, q0, [sp, #800]
	stp	q0, q0, [sp, #832]
	add	x9, x9, #1
	stp	q0, q0, [sp, #768]
	str	x9, [sp, #64]
	tbz	w8, #0, 641b
	b	263f
311:
	movi	v0.2d, #0000000000000000
	stp	q0, q0, [sp, #800]
	stp	q0, q0, [sp, #832]
	stp	q0, q0, [sp, #768]
	tbz	w8, #0, 641b
	b	263f
659:
	ldr	x9, [sp, #72]
	stp	q0, q0, [sp, #800]
	stp	q0, q0, [sp, #832]
	add	x9, x9, #1
	stp	q0, q0, [sp, #768]
	str	x9, [sp, #72]
	tbz	w8, #0, 641b
263:
	ldr	x3, [x24, #16]
	adrp	x1, .LT4903b024
	add	x1, x1, :lo12:.LT4903b024
	add	x0, sp, #768
	mov	w2, #5
	mov	x5, x20
	bl	tc_make.printed.write_named._5349ec06ad6c886c
	ldp	q0, q1, [x27, #32]
	add	x5, x24, #40
	ldrb	w9, [sp, #768]
	ldr	w8, [sp, #780]
	ldr	q5, [sp, #784]
	stp	q0, q1, [sp, #704]
	ldp	q2, q1, [x27, #64]
	ldr	s0, [sp, #776]
	stp	q2, q1, [sp, #736]
	cbz	w9, 321b
	b	530f
62:
	add	x0, x24, #16
	mov	w1, #7
	bl	std_alloc.vec.Vec.grow_amortized._5ce8f19f45e9f986
	cbz	w0, 174f
	ldp	x4, x9, [x24, #24]
	add	x5, x24, #40
	b	140b
316:
	add	x0, x24, #16
	mov	w1, #7
	bl	std_alloc.vec.Vec.grow_amortized._5ce8f19f45e9f986
	cbz	w0, 174f
	ldp	x9, x10, [x24, #24]
	add	x5, x24, #40
	b	93b
641:
	movi	v0.2d, #0000000000000000
	ldrh	w22, [x2, #2]
	ldrb	w8, [x2, #4]
	ldrh	w4, [x2, #6]
	ldr	w2, [x2, #8]
	strh	wzr, [sp, #164]
	cmp	x22, #1024
	stp	q0, q0, [sp, #768]
	stp	q0, q0, [sp, #800]
	stp	q0, q0, [sp, #832]
	b.lo	118f
	mov	w1, #7
	b	946f
311:
	movi	v0.2d, #0000000000000000
	ldp	x3, x4, [x2, #16]
	ldrb	w8, [x2, #8]
	ldurh	w9, [x2, #9]
	add	x0, sp, #256
	add	x1, x2, #2
	add	x2, sp, #160
	add	x22, sp, #256
	strb	w8, [sp, #160]
	sturh	w9, [sp, #161]
	stp	q0, q0, [sp, #256]
	stp	q0, q0, [x29, #-128]
	stp	q0, q0, [x29, #-96]
	stp	q0, q0, [x29, #-64]
	bl	tc_make.frames.make_frame
	ldrb	w8, [sp, #256]
	cbz	w8, 347f
	ldrb	w2, [sp, #258]
	ldrb	w1, [sp, #257]
	sub	x0, x29, #128
	b	868f
452:
	movi	v0.2d, #0000000000000000
	ldrh	w23, [x2, #2]
	ldrb	w22, [x2, #4]
	ldrb	w8, [x2, #5]
	ldrb	w24, [x2, #6]
	cmp	w23, #1023
	stp	q0, q0, [x29, #-128]
	stp	q0, q0, [x29, #-96]
	stp	q0, q0, [x29, #-64]
	b.ls	280f
	mov	w1, #7
	b	607f
679:
	movi	v0.2d, #0000000000000000
	ldp	x22, x21, [x2, #8]
	stp	q0, q0, [sp, #768]
	stp	q0, q0, [sp, #800]
	stp	q0, q0, [sp, #832]
	cbz	x21, 307f
	cmp	x21, #1029
	b.ls	62f
613:
	mov	w1, #14
	b	946f
478:
	movi	v0.2d, #0000000000000000
	ldp	x22, x8, [x2, #8]
	cmp	x8, #5
	stp	q0, q0, [sp, #160]
	stp	q0, q0, [sp, #192]
	stp	q0, q0, [sp, #224]
	b.hs	556f
	adrp	x1, .LT965043bc
	add	x1, x1, :lo12:.LT965043bc
	b	32f
602:
	ldrb	w8, [x2, #1]
	mov	w9, #56
	ldr	x10, [x1, #56]
	movi	v0.2d, #0000000000000000
	umaddl	x8, w8, w9, x10
	ldrb	w9, [x8]
	cmp	w9, #1
	b.ne	943f
	ldrb	w9, [x8, #9]
	sturh	wzr, [x8, #9]
	adrp	x8, .LT138070c8
	add	x8, x8, :lo12:.LT138070c8
	add	x0, sp, #768
	add	x2, sp, #352
	strb	w9, [sp, #256]
	mov	w9, #11
	mov	x1, x20
	stp	x8, x9, [sp, #352]
	add	x8, sp, #256
	adrp	x9, .LT3235efc0
	add	x9, x9, :lo12:.LT3235efc0
	stp	q0, q0, [sp, #768]
	stp	x8, x9, [sp, #368]
	mov	w8, #1
	stp	q0, q0, [sp, #800]
	stp	q0, q0, [sp, #832]
	str	x8, [sp, #384]
	bl	std.io.traits.Write.write_fmt._2163a20560420d27
	b	681f
986:
	movi	v0.2d, #0000000000000000
	ldp	x8, x9, [x2, #8]
	cmp	x9, #4
	stp	q0, q0, [sp, #448]
	stp	q0, q0, [sp, #480]
	stp	q0, q0, [x29, #-128]
	stp	q0, q0, [x29, #-96]
	stp	q0, q0, [x29, #-64]
	b.ne	911f
	ldr	w8, [x8]
	mov	w9, #16777216
	rev	w21, w8
	mov	w8, #256
	movk	w8, #58115, lsl #16
	and	w8, w21, w8
	cmp	w8, w9
	b.ne	179f
	mov	x23, #-1
	mov	w24, #32
	adrp	x1, .LT081b0d22
	add	x1, x1, :lo12:.LT081b0d22
	add	x0, sp, #768
	mov	w2, #8
	str	x20, [sp, #768]
	add	x22, sp, #768
	stp	q0, q0, [sp, #512]
	stp	q0, q0, [sp, #544]
	stur	q0, [x25, #72]
	stur	q0, [x25, #88]
	stur	q0, [x25, #104]
	stur	q0, [x25, #120]
	stur	q0, [x25, #136]
	stur	q0, [x25, #152]
	str	xzr, [sp, #904]
	str	xzr, [sp, #896]
	stur	xzr, [x25, #172]
	str	w24, [sp, #872]
	str	wzr, [sp, #884]
	str	x23, [sp, #888]
	bl	std.io.traits.AdapterWrite.write_str._5349ec06ad6c886c
	and	w8, w0, #0xff
	tbnz	w8, #0, 875f
	ubfx	w8, w21, #18, #6
	add	x9, sp, #352
	str	w24, [sp, #872]
	stur	xzr, [x22, #108]
	cmp	w8, #10
	stur	wzr, [x22, #116]
	str	x23, [sp, #888]
	stp	xzr, xzr, [sp, #352]
	stur	xzr, [x26, #15]
	b.lo	312f
	mov	w10, #26
	mov	w11, #10
	add	x1, x9, #22
	mul	w10, w8, w10
	mov	w2, #2
	lsr	w10, w10, #8
	msub	w8, w10, w11, w8
	orr	w10, w10, #0x30
	strb	w10, [sp, #374]
	b	690f
583:
	tst	w21, #0x1
	mov	w8, #11
	mov	w9, #13
	movi	v0.2d, #0000000000000000
	csel	x9, x9, x8, ne
	ldp	x8, x10, [x2, #8]
	cmp	x10, x9
	stp	q0, q0, [x29, #-128]
	stp	q0, q0, [x29, #-96]
	stp	q0, q0, [x29, #-64]
	b.hs	401f
	adrp	x1, .LT965043bc
	add	x1, x1, :lo12:.LT965043bc
983:
	mov	w2, #5
	b	625f
181:
	movi	v0.2d, #0000000000000000
	ldp	x23, x21, [x2, #8]
	stp	q0, q0, [x29, #-128]
	stp	q0, q0, [x29, #-96]
	stp	q0, q0, [x29, #-64]
	cbz	x21, 939f
	tbnz	x21, #63, 100f
	mov	x0, x21
	mov	w1, #1
	bl	rattle_alloc
	tbz	w0, #0, 100f
	sub	x8, x1, x23
	mov	x22, x1
	cmp	x8, x21
	b.hs	349f
	cmp	x21, #8
	mov	x8, xzr
	b.lo	606f
	sub	x9, x22, x23
	cmp	x9, #32
	b.lo	606f
	cmp	x21, #32
	b.hs	447f
	mov	x8, xzr
	b	523f
98:
	movi	v0.2d, #0000000000000000
	mov	w8, #16
	adrp	x9, .LT3235efc0
	add	x9, x9, :lo12:.LT3235efc0
	strh	w8, [sp, #256]
	add	x8, sp, #256
	stp	x8, x9, [sp, #352]
	mov	w8, #1
	add	x0, sp, #768
	add	x2, sp, #352
	mov	x1, x20
	str	x8, [sp, #368]
	stp	q0, q0, [sp, #768]
	stp	q0, q0, [sp, #800]
	stp	q0, q0, [sp, #832]
	bl	std.io.traits.Write.write_fmt._7427d210d622371f
	ldp	q0, q2, [sp, #800]
	ldr	s1, [sp, #776]
	ldr	q5, [sp, #784]
	ldrb	w9, [sp, #768]
	ldr	w8, [sp, #780]
	stp	q0, q2, [x29, #-128]
	ushll	v0.8h, v1.8b, #0
	ldp	q3, q1, [sp, #832]
	stp	q3, q1, [x29, #-96]
976:
	ldp	q1, q2, [x29, #-128]
	str	q1, [sp, #80]
	ldp	q1, q3, [x29, #-96]
	b	803f
532:
	ubfx	w9, w24, #16, #8
	cmp	w9, #63
	b.ls	474f
	mov	w1, #8
	b	231f
187:
	mov	w8, #15
	adrp	x9, .LT3235efc0
	add	x9, x9, :lo12:.LT3235efc0
	strh	w8, [sp, #352]
	add	x8, sp, #352
	add	x0, sp, #768
	stp	x8, x9, [x29, #-128]
	mov	w8, #1
	sub	x2, x29, #128
	mov	x1, x20
	stp	q0, q0, [sp, #768]
	stp	q0, q0, [sp, #800]
	stp	q0, q0, [sp, #832]
	stur	x8, [x29, #-112]
	bl	std.io.traits.Write.write_fmt._7427d210d622371f
	ldp	q1, q0, [sp, #832]
	ldr	s4, [sp, #776]
	ldp	q3, q2, [sp, #800]
	ldr	q5, [sp, #784]
	ldrb	w9, [sp, #768]
	ldr	w8, [sp, #780]
	stp	q1, q0, [sp, #608]
	stp	q3, q2, [sp, #576]
	stp	q3, q2, [sp, #640]
	stp	q1, q0, [sp, #672]
	ushll	v0.8h, v4.8b, #0
	b	727f
118:
	cmp	w8, #7
	b.ls	93f
	mov	w1, #8
	b	946f
280:
	cmp	w22, #63
	b.ls	599f
	mov	w1, #8
	b	607f
405:
	lsr	w8, w25, #14
	cbz	w8, 118f
	mov	w1, #11
	b	946f
556:
	ldrb	w9, [x22]
	cmp	w9, #63
	b.hi	168f
	tst	w9, #0xc
	b.eq	87f
	adrp	x1, .LT3d45e432
	add	x1, x1, :lo12:.LT3d45e432
32:
	mov	w2, #5
	b	316f
943:
	mov	w8, #15
	adrp	x9, .LT3235efc0
	add	x9, x9, :lo12:.LT3235efc0
	strh	w8, [sp, #256]
	add	x8, sp, #256
	add	x0, sp, #768
	stp	x8, x9, [sp, #352]
	mov	w8, #1
	add	x2, sp, #352
	mov	x1, x20
	stp	q0, q0, [sp, #768]
	stp	q0, q0, [sp, #800]
	stp	q0, q0, [sp, #832]
	str	x8, [sp, #368]
	bl	std.io.traits.Write.write_fmt._7427d210d622371f
681:
	ldp	q3, q2, [sp, #800]
	ldr	s4, [sp, #776]
	ldp	q1, q0, [sp, #832]
	ldr	q5, [sp, #784]
	ldrb	w9, [sp, #768]
	ldr	w8, [sp, #780]
	stp	q3, q2, [sp, #768]
	stp	q3, q2, [x29, #-128]
	stp	q1, q0, [x29, #-96]
	stp	q1, q0, [sp, #800]
	ldp	q1, q2, [sp, #768]
	ushll	v0.8h, v4.8b, #0
	str	q1, [sp, #80]
	ldp	q1, q3, [sp, #800]
	b	803f
911:
	mov	w8, #6
	adrp	x9, .LTbb49215e
	add	x9, x9, :lo12:.LTbb49215e
	strh	w8, [sp, #256]
	add	x8, sp, #256
	add	x0, sp, #768
	stp	x8, x9, [sp, #352]
	mov	w8, #21
	add	x2, sp, #352
	mov	x1, x20
	stp	q0, q0, [sp, #768]
	stp	q0, q0, [sp, #800]
	stp	q0, q0, [sp, #832]
	str	x8, [sp, #368]
	bl	std.io.traits.Write.write_fmt._7427d210d622371f
	ldp	q1, q0, [sp, #832]
	ldr	s4, [sp, #776]
	ldp	q3, q2, [sp, #800]
	ldr	q5, [sp, #784]
	ldrb	w9, [sp, #768]
	ldr	w8, [sp, #780]
	stp	q1, q0, [sp, #112]
	stp	q3, q2, [sp, #80]
	stp	q3, q2, [sp, #448]
	stp	q1, q0, [sp, #480]
	ushll	v0.8h, v4.8b, #0
	b	39f
401:
	ldrb	w9, [x8]
	cmp	w9, #63
	b.hi	110f
	ldrb	w11, [x8, #1]
	tbnz	w11, #0, 943f
	adrp	x1, .LTe2d26f26
	add	x1, x1, :lo12:.LTe2d26f26
	b	32f
100:
	movi	v0.2d, #0000000000000000
	mov	w8, #16
	adrp	x9, .LT3235efc0
	add	x9, x9, :lo12:.LT3235efc0
	strh	w8, [sp, #256]
	add	x8, sp, #256
	stp	x8, x9, [sp, #352]
	mov	w8, #1
	add	x0, sp, #768
	add	x2, sp, #352
	mov	x1, x20
	str	x8, [sp, #368]
	stp	q0, q0, [sp, #768]
	stp	q0, q0, [sp, #800]
	stp	q0, q0, [sp, #832]
	bl	std.io.traits.Write.write_fmt._7427d210d622371f
	ldrb	w8, [sp, #768]
	ldur	q0, [x25, #104]
	ldur	q1, [x25, #120]
	ldur	q2, [x25, #136]
	sturb	w8, [x29, #-128]
	ldr	x8, [sp, #856]
	stur	q0, [x27, #40]
	ldur	q0, [x25, #72]
	stur	q1, [x27, #56]
	ldur	q1, [x25, #88]
	stur	q2, [x27, #72]
	stur	x8, [x29, #-40]
	stur	q0, [x27, #8]
	stur	q1, [x27, #24]
	b	570f
645:
	movi	v0.2d, #0000000000000000
	add	x25, sp, #704
	mov	x21, #-1
	mov	w22, #32
	adrp	x1, .LTbe46598f
	add	x1, x1, :lo12:.LTbe46598f
	add	x0, sp, #768
	mov	w2, #17
	str	x20, [sp, #768]
	str	xzr, [sp, #904]
	add	x20, sp, #768
	stp	q0, q0, [sp, #256]
	stp	q0, q0, [sp, #288]
	stp	q0, q0, [sp, #352]
	stp	q0, q0, [sp, #384]
	stur	q0, [x25, #72]
	stur	q0, [x25, #88]
	stur	q0, [x25, #104]
	stur	q0, [x25, #120]
	stur	q0, [x25, #136]
	stur	q0, [x25, #152]
	str	xzr, [sp, #896]
	stur	xzr, [x25, #172]
	str	w22, [sp, #872]
	str	wzr, [sp, #884]
	str	x21, [sp, #888]
	bl	std.io.traits.AdapterWrite.write_str._5349ec06ad6c886c
	and	w8, w0, #0xff
	tbnz	w8, #0, 595f
	mov	x24, #62915
	cmp	x23, #100
	str	w22, [sp, #872]
	movk	x24, #23592, lsl #16
	stur	xzr, [x20, #108]
	movk	x24, #49807, lsl #32
	stur	wzr, [x20, #116]
	movk	x24, #10485, lsl #48
	str	x21, [sp, #888]
	stp	xzr, xzr, [x29, #-128]
	stur	xzr, [x29, #-112]
	b.lo	983f
	mov	x8, xzr
405:
	lsr	x10, x23, #2
	mov	x9, x23
	mov	w11, #205
	umulh	x10, x10, x24
	lsr	x23, x10, #2
	mov	w10, #100
	msub	w10, w23, w10, w9
	lsr	x9, x9, #4
	cmp	x9, #624
	and	w12, w10, #0xff
	mul	w11, w12, w11
	mov	w12, #10
	lsr	w11, w11, #11
	msub	w10, w11, w12, w10
	sub	x12, x29, #128
	orr	w9, w11, #0x30
	add	x12, x12, x8
	sub	x8, x8, #2
	strb	w9, [x12, #22]
	orr	w10, w10, #0x30
	strb	w10, [x12, #23]
	b.hi	405b
	add	x8, x8, #24
	b	280f
481:
	add	x0, sp, #768
	mov	x1, x21
	b	187f
239:
	mov	x22, x2
148:
	add	x0, sp, #768
	mov	x1, x21
	mov	x2, x22
187:
	mov	x3, x20
	bl	tc_make.explained.write_rest._5349ec06ad6c886c
	b	840f
347:
	movi	v0.2d, #0000000000000000
	add	x0, sp, #352
	orr	x2, x22, #0x8
	mov	w1, w21
	stp	q0, q0, [sp, #352]
	stp	q0, q0, [sp, #768]
	stp	q0, q0, [sp, #800]
	stp	q0, q0, [sp, #832]
	bl	tc_make.ending.Ending.end
	ldrb	w8, [sp, #352]
	cbz	w8, 989f
	ldrb	w2, [sp, #354]
	ldrb	w1, [sp, #353]
	add	x0, sp, #768
	mov	x3, x20
	bl	tc_make.printed.write_bad._5349ec06ad6c886c
	b	236f
939:
	adrp	x1, .LTd8c9c952
	add	x1, x1, :lo12:.LTd8c9c952
	sub	x0, x29, #128
	sub	x3, x29, #17
	mov	w2, #6
	mov	x4, xzr
	mov	x5, x20
	bl	tc_make.printed.write_named._5349ec06ad6c886c
	b	570f
62:
	add	w8, w21, #6
	mov	w10, #9363
	mov	w1, #1
	and	w9, w8, #0xffff
	mul	w9, w9, w10
	lsr	w9, w9, #16
	sub	w8, w8, w9
	add	w8, w9, w8, lsr #1
	lsl	w8, w8, #1
	and	w8, w8, #0xfff8
	add	w8, w8, #10
	and	x23, x8, #0xfffe
	mov	x0, x23
	bl	rattle_alloc
	tbz	w0, #0, 710f
	adrp	x8, .LT6035a829
	add	x8, x8, :lo12:.LT6035a829
	stur	x1, [x29, #-128]
	sub	x8, x1, x8
	cmp	x8, #1
	mov	w8, #37099
	strh	w8, [x1]
	mov	w8, #2
	cmp	x21, #7
	stp	x8, x23, [x29, #-120]
	b.lo	62f
187:
	mov	x1, x22
	sub	x0, x29, #128
	mov	w2, #7
	add	x22, x22, #7
	sub	x21, x21, #7
	bl	tc_edges.cltu.writer.push_block
	cmp	x21, #6
	b.hi	187b
	cbz	x21, 976f
62:
	add	x8, sp, #352
	eor	x2, x21, #0x7
	mov	w1, #85
	add	x0, x8, x21
	bl	memset
	add	x0, sp, #352
	mov	x1, x22
	mov	x2, x21
	bl	memcpy
	sub	x0, x29, #128
	add	x1, sp, #352
	mov	w2, #7
	bl	tc_edges.cltu.writer.push_block
976:
	ldp	x8, x22, [x29, #-120]
	sub	x9, x22, x8
	cmp	x9, #7
	b.ls	260f
232:
	ldur	x21, [x29, #-128]
	adrp	x10, .LT9296ae30
	add	x10, x10, :lo12:.LT9296ae30
	add	x9, x21, x8
	sub	x10, x9, x10
	cmp	x10, #7
	b.hi	462f
	mov	w10, #50629
	mov	w11, #121
	movk	w10, #50629, lsl #16
	strb	w11, [x9, #7]
	stur	w10, [x9, #3]
	str	w10, [x9]
	b	939f
474:
	cmp	w25, #63
	b.ls	893f
	mov	w1, #9
	b	231f
93:
	ldr	x9, [x1, #8]
	orr	x23, x8, x22, lsl #3
	ldr	x10, [x1, #32]
	strb	w8, [sp, #162]
	tst	w21, #0x1
	mov	w8, #11
	ldrb	w24, [x9, x22]
	mov	w9, #13
	ldrb	w25, [x10, x23]
	csel	x8, x9, x8, ne
	cmp	w4, #2048
	strh	w22, [sp, #160]
	strb	w24, [sp, #163]
	strb	w25, [sp, #164]
	b.hi	187f
	cmp	x8, x4
	b.hi	187f
	mov	x27, x1
	stp	q0, q0, [x29, #-128]
	stp	q0, q0, [sp, #352]
	tbz	w21, #0, 585f
	add	x0, sp, #352
	add	x1, sp, #160
	sub	x3, x4, #2
	bl	tc_edges.tm.frame.idle_frame
	ldrb	w8, [sp, #352]
	cbnz	w8, 710f
	ldur	q0, [x26, #8]
	ldr	x9, [sp, #376]
	str	q0, [sp, #256]
	ldp	x21, x8, [sp, #256]
	str	x9, [sp, #272]
	cmp	x8, #4
	b.lo	443f
	mov	w26, #255
	mov	w13, #255
	mov	x12, x21
	mov	x10, x8
	mov	x9, x27
556:
	ldrb	w11, [x12]
	ldrb	w14, [x12, #1]
	adrp	x15, .LT48aab116
	add	x15, x15, :lo12:.LT48aab116
	ldrb	w17, [x12, #3]
	adrp	x16, .LT33c05f58
	add	x16, x16, :lo12:.LT33c05f58
	eor	w11, w11, w13
	eor	w13, w14, w26
	ldrb	w14, [x12, #2]
	and	x11, x11, #0xff
	and	x13, x13, #0xff
	ldrh	w11, [x15, x11, lsl #1]
	adrp	x15, .LTbb337a2b
	add	x15, x15, :lo12:.LTbb337a2b
	ldrh	w14, [x15, x14, lsl #1]
	adrp	x15, .LT48c7e4e5
	add	x15, x15, :lo12:.LT48c7e4e5
	ldrh	w13, [x16, x13, lsl #1]
	ldrh	w15, [x15, x17, lsl #1]
	sub	x10, x10, #4
	cmp	x10, #3
	eor	w11, w13, w11
	eor	w13, w14, w15
	eor	w26, w11, w13
	add	x11, x12, #4
	ubfx	w13, w26, #8, #8
	mov	x12, x11
	b.hi	556b
	b	559f
599:
	cbz	w8, 911f
	mov	w0, #8
	mov	w1, #1
	bl	rattle_alloc
	tbz	w0, #0, 239f
	and	w8, w23, #0xff
	lsr	w9, w23, #8
	mov	w10, #130
	orr	w8, w8, w22, lsl #10
	sturh	w10, [x1, #5]
	orr	w9, w9, #0x30
	strb	w24, [x1, #7]
	orr	w8, w8, #0x70000
	strb	w9, [x1]
	stur	w8, [x1, #1]
	mov	w8, #8
	b	98f
118:
	cbz	x21, 307f
	cmp	x21, #16, lsl #12
	b.hi	613b
	add	x0, x21, #6
	mov	w1, #1
	bl	rattle_alloc
	tbz	w0, #0, 710f
	lsr	w8, w24, #8
	sub	w9, w21, #1
	lsr	w10, w25, #8
	add	x11, x1, #6
	lsr	w12, w9, #8
	mov	x22, x1
	orr	w8, w8, #0x10
	orr	w10, w10, #0xc0
	strb	w24, [x1, #1]
	strb	w8, [x1]
	sub	x8, x11, x23
	cmp	x8, x21
	strb	w25, [x1, #3]
	strb	w10, [x1, #2]
	strb	w12, [x1, #4]
	strb	w9, [x1, #5]
	b.hs	287f
	cmp	x21, #8
	b.lo	613f
	sub	x8, x22, x23
	add	x8, x8, #6
	cmp	x8, #32
	b.hs	474f
613:
	mov	x8, xzr
62:
	add	x10, x8, x22
	sub	x9, x21, x8
	add	x8, x23, x8
	add	x10, x10, #6
556:
	ldrb	w11, [x8], #1
	subs	x9, x9, #1
	strb	w11, [x10], #1
	b.ne	556b
	b	686f
307:
	mov	w1, #13
	b	946f
168:
	adrp	x1, .LTb26077fb
	add	x1, x1, :lo12:.LTb26077fb
	mov	w2, #7
316:
	add	x0, sp, #160
	mov	x3, x20
	bl	tc_make.printed.write_refused._5349ec06ad6c886c
	ldrb	w9, [sp, #160]
976:
	ldp	q0, q2, [sp, #192]
	ldr	s1, [sp, #168]
	ldr	q5, [sp, #176]
	ldr	w8, [sp, #172]
	stp	q0, q2, [sp, #80]
	ushll	v0.8h, v1.8b, #0
	ldp	q3, q1, [sp, #224]
	b	598f
179:
	adrp	x1, .LTd51b947e
	add	x1, x1, :lo12:.LTd51b947e
	sub	x0, x29, #128
	mov	w2, #4
	b	613f
110:
	adrp	x1, .LTb26077fb
	add	x1, x1, :lo12:.LTb26077fb
32:
	mov	w2, #7
625:
	sub	x0, x29, #128
613:
	mov	x3, x20
	bl	tc_make.printed.write_refused._5349ec06ad6c886c
	ldur	s0, [x29, #-120]
	ldurb	w9, [x29, #-128]
	ldur	w8, [x29, #-116]
	ldur	q5, [x29, #-112]
	ushll	v0.8h, v0.8b, #0
681:
	ldp	q1, q2, [x29, #-96]
	str	q1, [sp, #80]
	ldp	q1, q3, [x29, #-64]
	b	803f
989:
	ldp	x21, x4, [sp, #360]
	adrp	x1, .LT4903b024
	add	x1, x1, :lo12:.LT4903b024
	ldr	x22, [sp, #376]
	add	x0, sp, #768
	mov	w2, #5
	mov	x5, x20
	mov	x3, x21
	bl	tc_make.printed.write_named._5349ec06ad6c886c
	cbz	x22, 236f
	mov	x0, x21
	bl	rattle_dealloc
236:
	ldur	q0, [x25, #104]
	ldur	q1, [x25, #120]
	ldur	q2, [x25, #136]
	stur	q0, [x25, #248]
	b	93f
893:
	sub	w8, w10, #1019
	cmn	w8, #1018
	b.hs	32f
	mov	w1, #12
	b	231f
187:
	mov	w1, #12
	b	946f
943:
	tbz	w21, #0, 401f
	mov	w13, #255
	mov	w16, #255
	mov	x14, x8
	mov	x12, x10
556:
	ldrb	w15, [x14]
	ldrb	w17, [x14, #1]
	adrp	x18, .LT48aab116
	add	x18, x18, :lo12:.LT48aab116
	adrp	x0, .LT33c05f58
	add	x0, x0, :lo12:.LT33c05f58
	eor	w15, w15, w16
	ldrb	w16, [x14, #2]
	eor	w13, w17, w13
	and	x15, x15, #0xff
	ldrb	w17, [x14, #3]
	and	x13, x13, #0xff
	ldrh	w15, [x18, x15, lsl #1]
	adrp	x18, .LTbb337a2b
	add	x18, x18, :lo12:.LTbb337a2b
	ldrh	w16, [x18, x16, lsl #1]
	adrp	x18, .LT48c7e4e5
	add	x18, x18, :lo12:.LT48c7e4e5
	ldrh	w13, [x0, x13, lsl #1]
	ldrh	w17, [x18, x17, lsl #1]
	sub	x12, x12, #4
	cmp	x12, #3
	eor	w13, w13, w15
	eor	w15, w16, w17
	eor	w13, w13, w15
	add	x15, x14, #4
	ubfx	w16, w13, #8, #8
	mov	x14, x15
	b.hi	556b
	cbz	x12, 284f
	mov	x14, xzr
556:
	ldrb	w16, [x15, x14]
	and	w17, w13, #0xff00
	add	x14, x14, #1
	cmp	x12, x14
	eor	w16, w16, w17, lsr #8
	eor	w16, w16, w16, lsr #4
	orr	w13, w16, w13, lsl #8
	eor	w13, w13, w16, lsl #12
	eor	w13, w13, w16, lsl #5
	b.ne	556b
284:
	tst	w13, #0xffff
	b.eq	938f
	adrp	x1, .LT6f25b05d
	add	x1, x1, :lo12:.LT6f25b05d
	b	983b
337:
	ldur	q0, [x27, #9]
	orr	x8, x26, #0x8
	add	x9, sp, #704
	ldur	q2, [x27, #25]
	ldur	q3, [x27, #41]
	stur	q0, [x9, #73]
	ld1	{ v0.b }[0], [x8]
	ldur	x8, [x29, #-40]
	ldur	h1, [x9, #73]
	stur	q2, [x9, #89]
	ldur	q2, [x27, #57]
	stur	q3, [x9, #105]
	ldur	q3, [x27, #73]
	mov	v0.b[2], v1.b[0]
	stur	q2, [x9, #121]
	stur	q3, [x9, #137]
	add	x9, sp, #768
	str	x8, [sp, #856]
	mov	w8, #11
	ldr	q5, [sp, #784]
	orr	x8, x9, x8
	mov	w9, #1
	mov	v0.b[4], v1.b[1]
	ldp	q1, q2, [x29, #-64]
	stp	q1, q2, [sp, #112]
	ldp	q3, q2, [x29, #-96]
	ld1	{ v0.b }[6], [x8]
	ldr	w8, [sp, #780]
	stp	q3, q2, [sp, #80]
	b	39f
530:
	ldp	q1, q2, [sp, #704]
	ushll	v0.8h, v0.8b, #0
	mov	w9, #1
	stp	q1, q2, [sp, #640]
	ldp	q3, q1, [sp, #736]
	stp	q3, q1, [sp, #672]
	b	137f
983:
	mov	w8, #24
280:
	cmp	x23, #10
	b.lo	625f
	and	w9, w23, #0xff
	mov	w10, #205
	sub	x11, x29, #128
	mul	w9, w9, w10
	mov	w10, #10
	add	x11, x11, x8
	sub	x8, x8, #2
	lsr	w9, w9, #11
	msub	w10, w9, w10, w23
	orr	w9, w9, #0x30
	sturb	w9, [x11, #-2]
	orr	w10, w10, #0x30
	sturb	w10, [x11, #-1]
	b	989f
625:
	sub	x8, x8, #1
	sub	x9, x29, #128
	orr	w10, w23, #0x30
	strb	w10, [x9, x8]
989:
	ldp	x22, x21, [sp, #64]
	sub	x9, x29, #128
	ldr	x10, [sp, #896]
	mov	w11, #24
	add	x1, x9, x8
	mov	w9, #45
	sub	x2, x11, x8
	add	x0, sp, #768
	sturb	w9, [x1, #-1]
	cbnz	x10, 498f
	bl	std.io.traits.AdapterWrite.write_str._5349ec06ad6c886c
	and	w8, w0, #0xff
	tbnz	w8, #0, 595f
613:
	mov	w8, #32
	ldr	x9, [sp, #896]
	adrp	x1, .LT39c39aed
	add	x1, x1, :lo12:.LT39c39aed
	str	w8, [sp, #872]
	mov	x8, #-1
	add	x0, sp, #768
	mov	w2, #10
	stur	xzr, [x20, #108]
	stur	wzr, [x20, #116]
	str	x8, [sp, #888]
	cbnz	x9, 970f
	bl	std.io.traits.AdapterWrite.write_str._5349ec06ad6c886c
	and	w8, w0, #0xff
	tbnz	w8, #0, 595f
983:
	mov	w8, #32
	cmp	x22, #100
	stur	xzr, [x20, #108]
	str	w8, [sp, #872]
	mov	x8, #-1
	stur	wzr, [x20, #116]
	str	x8, [sp, #888]
	stp	xzr, xzr, [x29, #-128]
	stur	xzr, [x29, #-112]
	b.lo	190f
	mov	x8, xzr
405:
	lsr	x10, x22, #2
	mov	x9, x22
	mov	w11, #205
	umulh	x10, x10, x24
	lsr	x22, x10, #2
	mov	w10, #100
	msub	w10, w22, w10, w9
	lsr	x9, x9, #4
	cmp	x9, #624
	and	w12, w10, #0xff
	mul	w11, w12, w11
	mov	w12, #10
	lsr	w11, w11, #11
	msub	w10, w11, w12, w10
	sub	x12, x29, #128
	orr	w9, w11, #0x30
	add	x12, x12, x8
	sub	x8, x8, #2
	strb	w9, [x12, #22]
	orr	w10, w10, #0x30
	strb	w10, [x12, #23]
	b.hi	405b
	add	x8, x8, #24
	b	280f
349:
	mov	x0, x22
	mov	x1, x23
	mov	x2, x21
	bl	memmove
	b	307f
911:
	mov	w0, #6
	mov	w1, #1
	bl	rattle_alloc
	tbz	w0, #0, 239f
	and	w8, w23, #0xff
	lsr	w9, w23, #8
	mov	w10, #327680
	orr	w8, w8, w22, lsl #10
	strb	wzr, [x1, #5]
	orr	w9, w9, #0x30
	and	w8, w8, #0x1ffff
	strb	w9, [x1]
	orr	w8, w8, w10
	stur	w8, [x1, #1]
	mov	w8, #6
98:
	movi	v0.2d, #0000000000000000
	stp	x1, x8, [sp, #256]
	add	x0, sp, #352
	add	x2, sp, #256
	mov	w1, w21
	str	x8, [sp, #272]
	stp	q0, q0, [sp, #352]
	stp	q0, q0, [sp, #768]
	stp	q0, q0, [sp, #800]
	stp	q0, q0, [sp, #832]
	bl	tc_make.ending.Ending.end
	ldrb	w8, [sp, #352]
	cbz	w8, 989f
	ldrb	w2, [sp, #354]
	ldrb	w1, [sp, #353]
	add	x0, sp, #768
	mov	x3, x20
	bl	tc_make.printed.write_bad._5349ec06ad6c886c
	b	236f
239:
	mov	w1, #16
607:
	sub	x0, x29, #128
	mov	w2, wzr
868:
	mov	x3, x20
	bl	tc_make.printed.write_bad._5349ec06ad6c886c
	ldurb	w9, [x29, #-128]
	b	530f
87:
	ldrb	w9, [x22, #2]
	ldrb	w10, [x22, #3]
	lsl	w9, w9, #8
	and	w9, w9, #0x300
	orr	w9, w9, w10
	cmp	w9, #5
	b.hs	481f
	adrp	x1, .LT36d2c83f
	add	x1, x1, :lo12:.LT36d2c83f
	mov	w2, #6
	b	316b
462:
	mov	x10, #50629
	movk	x10, #50629, lsl #16
	movk	x10, #50629, lsl #32
	movk	x10, #31173, lsl #48
	str	x10, [x9]
939:
	adrp	x1, .LT24883227
	add	x1, x1, :lo12:.LT24883227
	add	x0, sp, #768
	add	x4, x8, #8
	mov	w2, #4
	mov	x3, x21
	mov	x5, x20
	bl	tc_make.printed.write_named._5349ec06ad6c886c
	cbnz	x22, 14f
	b	840f
32:
	cbz	x23, 349f
	mov	w8, #6
	movk	w8, #1, lsl #16
	cmp	x23, x8
	b.ls	148f
	mov	w1, #14
	b	231f
585:
	sub	x0, x29, #128
	add	x1, sp, #160
	mov	x3, x4
	bl	tc_edges.tm.frame.idle_frame
	ldurb	w8, [x29, #-128]
	cbz	w8, 87f
710:
	mov	w1, #16
946:
	add	x0, sp, #768
	mov	w2, wzr
	mov	x3, x20
	bl	tc_make.printed.write_bad._5349ec06ad6c886c
840:
	ldp	q0, q2, [sp, #800]
	ldr	s1, [sp, #776]
	ldr	q5, [sp, #784]
	ldrb	w9, [sp, #768]
	ldr	w8, [sp, #780]
	stp	q0, q2, [sp, #80]
	ushll	v0.8h, v1.8b, #0
	ldp	q3, q1, [sp, #832]
	b	598f
312:
	add	x1, x9, #23
	mov	w2, #1
690:
	orr	w8, w8, #0x30
	ldr	x9, [sp, #896]
	add	x0, sp, #768
	strb	w8, [sp, #375]
	mov	w8, #45
	sturb	w8, [x1, #-1]
	cbnz	x9, 412f
	bl	std.io.traits.AdapterWrite.write_str._5349ec06ad6c886c
	and	w8, w0, #0xff
	tbnz	w8, #0, 875f
187:
	mov	w8, #32
	ldr	x9, [sp, #896]
	adrp	x1, .LT3b969cfe
	add	x1, x1, :lo12:.LT3b969cfe
	str	w8, [sp, #872]
	mov	x8, #-1
	add	x0, sp, #768
	mov	w2, #8
	stur	xzr, [x22, #108]
	stur	wzr, [x22, #116]
	str	x8, [sp, #888]
	cbnz	x9, 110f
	bl	std.io.traits.AdapterWrite.write_str._5349ec06ad6c886c
	and	w8, w0, #0xff
	tbnz	w8, #0, 875f
32:
	mov	w8, #32
	ldr	x9, [sp, #896]
	add	x23, sp, #352
	str	w8, [sp, #872]
	mov	x8, #-1
	str	x8, [sp, #888]
	lsr	w8, w21, #26
	stur	xzr, [x22, #108]
	orr	w8, w8, #0x30
	stur	wzr, [x22, #116]
	strb	w8, [sp, #375]
	mov	w8, #45
	stp	xzr, xzr, [sp, #352]
	stur	xzr, [x26, #14]
	strb	w8, [sp, #374]
	cbnz	x9, 946f
	add	x0, sp, #768
	add	x1, x23, #23
	mov	w2, #1
	bl	std.io.traits.AdapterWrite.write_str._5349ec06ad6c886c
	and	w8, w0, #0xff
	tbnz	w8, #0, 875f
943:
	mov	w8, #32
	ldr	x9, [sp, #896]
	adrp	x1, .LT27d9cd2a
	add	x1, x1, :lo12:.LT27d9cd2a
	str	w8, [sp, #872]
	mov	x8, #-1
	add	x0, sp, #768
	mov	w2, #6
	stur	xzr, [x22, #108]
	stur	wzr, [x22, #116]
	str	x8, [sp, #888]
	cbnz	x9, 667f
	bl	std.io.traits.AdapterWrite.write_str._5349ec06ad6c886c
	and	w8, w0, #0xff
	tbnz	w8, #0, 875f
911:
	mov	w8, #32
	ldr	x9, [sp, #896]
	stur	xzr, [x22, #108]
	str	w8, [sp, #872]
	mov	x8, #-1
	str	x8, [sp, #888]
	ubfx	w8, w21, #15, #1
	stur	wzr, [x22, #116]
	orr	w8, w8, #0x30
	stp	xzr, xzr, [sp, #352]
	strb	w8, [sp, #375]
	mov	w8, #45
	stur	xzr, [x26, #14]
	strb	w8, [sp, #374]
	cbnz	x9, 740f
	add	x0, sp, #768
	add	x1, x23, #23
	mov	w2, #1
	bl	std.io.traits.AdapterWrite.write_str._5349ec06ad6c886c
	and	w8, w0, #0xff
	tbnz	w8, #0, 875f
239:
	mov	w8, #32
	ldr	x9, [sp, #896]
	adrp	x1, .LT80600969
	add	x1, x1, :lo12:.LT80600969
	str	w8, [sp, #872]
	mov	x8, #-1
	add	x0, sp, #768
	mov	w2, #11
	stur	xzr, [x22, #108]
	stur	wzr, [x22, #116]
	str	x8, [sp, #888]
	cbnz	x9, 352f
	bl	std.io.traits.AdapterWrite.write_str._5349ec06ad6c886c
	and	w8, w0, #0xff
	tbz	w8, #0, 911f
599:
	mov	w8, wzr
	b	536f
401:
	ldrb	w13, [x8, #5]
	ldrb	w12, [x8, #4]
	add	x10, x8, x10
	sub	x10, x10, #4
	b	455f
989:
	ldp	x21, x4, [sp, #360]
	adrp	x1, .LT4903b024
	add	x1, x1, :lo12:.LT4903b024
	ldr	x22, [sp, #376]
	add	x0, sp, #768
	mov	w2, #5
	mov	x5, x20
	mov	x3, x21
	bl	tc_make.printed.write_named._5349ec06ad6c886c
	cbz	x22, 236f
	mov	x0, x21
	bl	rattle_dealloc
236:
	ldur	q0, [x25, #104]
	ldur	q1, [x25, #120]
	ldur	q2, [x25, #136]
	stur	q0, [x27, #40]
93:
	ldr	x8, [sp, #856]
	stur	q1, [x27, #56]
	ldur	q0, [x25, #72]
	ldur	q1, [x25, #88]
	ldrb	w9, [sp, #768]
	stur	q2, [x27, #72]
	stur	x8, [x29, #-40]
	stur	q0, [x27, #8]
	stur	q1, [x27, #24]
530:
	ldp	q0, q2, [x29, #-96]
	ldur	s1, [x29, #-120]
	ldur	q5, [x29, #-112]
	ldur	w8, [x29, #-116]
	stp	q0, q2, [sp, #80]
	ushll	v0.8h, v1.8b, #0
	ldp	q3, q1, [x29, #-64]
	b	598f
481:
	add	w24, w9, #1
	subs	x23, x8, x24
	b.hs	744f
	adrp	x1, .LTd923d116
	add	x1, x1, :lo12:.LTd923d116
	mov	w2, #9
	b	316b
447:
	and	x9, x21, #0x18
	and	x8, x21, #0x7fffffffffffffe0
	add	x10, x23, #16
	add	x11, x22, #16
	and	x12, x21, #0x7fffffffffffffe0
989:
	ldp	q0, q1, [x10, #-16]
	subs	x12, x12, #32
	add	x10, x10, #32
	stp	q0, q1, [x11, #-16]
	add	x11, x11, #32
	b.ne	989b
	cmp	x21, x8
	b.eq	307f
	cbz	x9, 606f
523:
	mov	x11, x8
	and	x8, x21, #0x7ffffffffffffff8
	sub	x9, x11, x8
	add	x10, x23, x11
	add	x11, x22, x11
93:
	ldr	d0, [x10], #8
	adds	x9, x9, #8
	str	d0, [x11], #8
	b.ne	93b
	cmp	x21, x8
	b.eq	307f
606:
	sub	x9, x21, x8
	add	x10, x23, x8
	add	x8, x22, x8
556:
	ldrb	w11, [x10], #1
	subs	x9, x9, #1
	strb	w11, [x8], #1
	b.ne	556b
307:
	mov	x8, xzr
	mov	w9, #255
556:
	ldrb	w10, [x22, x8]
	eor	w10, w10, w9
	strb	w10, [x22, x8]
	add	x8, x8, #1
	adrp	x10, .LT359fb368
	add	x10, x10, :lo12:.LT359fb368
	cmp	x21, x8
	ldrb	w9, [x10, x9]
	b.ne	556b
	adrp	x1, .LTd8c9c952
	add	x1, x1, :lo12:.LTd8c9c952
	sub	x0, x29, #128
	mov	w2, #6
	mov	x3, x22
	mov	x4, x21
	mov	x5, x20
	bl	tc_make.printed.write_named._5349ec06ad6c886c
	mov	x0, x22
	bl	rattle_dealloc
570:
	ldp	q0, q2, [x29, #-96]
	ldur	s1, [x29, #-120]
	ldur	q5, [x29, #-112]
	ldurb	w9, [x29, #-128]
	ldur	w8, [x29, #-116]
	stp	q0, q2, [sp, #80]
	ushll	v0.8h, v1.8b, #0
	ldp	q3, q1, [x29, #-64]
	b	598f
349:
	mov	w1, #13
231:
	add	x0, sp, #352
	mov	w2, wzr
	mov	x3, x20
	bl	tc_make.printed.write_bad._5349ec06ad6c886c
	ldrb	w9, [sp, #352]
	ldrb	w8, [sp, #360]
866:
	fmov	s0, w8
	ldur	h1, [x26, #9]
	mov	w8, #11
	add	x10, sp, #352
	ldr	q5, [sp, #368]
	orr	x8, x10, x8
	mov	v0.b[2], v1.b[0]
	mov	v0.b[4], v1.b[1]
	ldp	q1, q2, [sp, #384]
	stp	q1, q2, [sp, #80]
	ldp	q3, q1, [sp, #416]
	ld1	{ v0.b }[6], [x8]
	ldr	w8, [sp, #364]
598:
	stp	q3, q1, [sp, #112]
	b	39f
87:
	ldp	x21, x4, [x29, #-120]
	mov	x9, x27
	ldur	x28, [x29, #-104]
	b	885f
744:
	stp	q0, q0, [sp, #256]
	stp	q0, q0, [sp, #288]
	stp	q0, q0, [sp, #320]
	stp	q0, q0, [sp, #352]
	stp	q0, q0, [sp, #384]
	stp	q0, q0, [sp, #416]
	stp	q0, q0, [sp, #704]
	cbz	w21, 481f
	add	x0, sp, #704
	mov	x1, x22
	mov	x2, x24
	bl	tc_edges.fecf.frames.without_field
	ldrb	w8, [sp, #704]
	cbz	w8, 263f
	movi	v0.2d, #0000000000000000
	ldrb	w8, [sp, #705]
	ldrb	w9, [sp, #706]
	cmp	w8, #2
	stp	q0, q0, [x29, #-128]
	stp	q0, q0, [x29, #-96]
	stp	q0, q0, [x29, #-64]
	b.gt	937f
	cbz	w8, 168f
	cmp	w8, #1
	b.ne	939f
	adrp	x1, .LT68d2e1d5
	add	x1, x1, :lo12:.LT68d2e1d5
	sub	x0, x29, #128
	mov	w2, #4
	b	187f
938:
	ldrb	w13, [x8, #5]
	ldrb	w12, [x8, #4]
	add	x10, x8, x10
	sub	x10, x10, #6
455:
	bfi	w13, w12, #8, #3
	orr	w27, w11, w9, lsl #8
	ldrb	w9, [x8, #2]
	ldrb	w8, [x8, #3]
	movi	v0.2d, #0000000000000000
	ubfx	w12, w11, #1, #3
	mov	x28, #-1
	str	w8, [sp, #40]
	lsr	w25, w27, #4
	mov	w24, #32
	strb	w8, [sp, #644]
	ldr	w8, [x10]
	adrp	x1, .LTec6a51b3
	add	x1, x1, :lo12:.LTec6a51b3
	add	x0, sp, #768
	mov	w2, #8
	str	w8, [sp, #72]
	add	x21, sp, #768
	str	w8, [sp, #648]
	add	x8, sp, #704
	strb	wzr, [sp, #645]
	stp	w12, w13, [sp, #60]
	strb	w12, [sp, #642]
	str	w9, [sp, #48]
	strb	w9, [sp, #643]
	strh	w25, [sp, #640]
	strh	w13, [sp, #646]
	stp	q0, q0, [sp, #704]
	stp	q0, q0, [sp, #736]
	str	x20, [sp, #768]
	stur	q0, [x8, #72]
	stur	q0, [x8, #88]
	stur	q0, [x8, #104]
	stur	q0, [x8, #120]
	stur	q0, [x8, #136]
	stur	q0, [x8, #152]
	str	xzr, [sp, #904]
	str	xzr, [sp, #896]
	stur	xzr, [x8, #172]
	str	w24, [sp, #872]
	str	wzr, [sp, #884]
	str	x28, [sp, #888]
	bl	std.io.traits.AdapterWrite.write_str._5349ec06ad6c886c
	and	w8, w0, #0xff
	tbz	w8, #0, 893f
307:
	mov	w8, wzr
	add	x25, sp, #704
	add	x24, sp, #768
	ldrb	w9, [sp, #776]
	cmp	x9, #1
	b.ne	100f
236:
	ldur	q0, [x24, #40]
	ldr	s1, [sp, #784]
	ldur	q2, [x24, #56]
	ldur	q3, [x24, #72]
	ldur	q5, [x25, #88]
	ldr	w8, [sp, #788]
	stp	q0, q2, [sp, #352]
	ushll	v0.8h, v1.8b, #0
	ldur	q1, [x24, #88]
	stp	q3, q1, [sp, #384]
	b	530f
893:
	str	w24, [sp, #872]
	cmp	w27, #1600
	add	x8, sp, #352
	add	x24, sp, #768
	stur	xzr, [x21, #108]
	stur	wzr, [x21, #116]
	str	x28, [sp, #888]
	stp	xzr, xzr, [sp, #352]
	str	xzr, [sp, #368]
	b.lo	316f
	mov	w9, #1311
	mov	w10, #100
	lsr	w12, w27, #6
	mul	w9, w25, w9
	add	x8, x8, #22
	lsr	w9, w9, #17
	msub	w9, w9, w10, w25
	mov	w10, #205
	and	w11, w9, #0xff
	mul	w10, w11, w10
	mov	w11, #10
	lsr	w10, w10, #11
	msub	w9, w10, w11, w9
	mov	w11, #2622
	orr	w10, w10, #0x30
	mul	w11, w12, w11
	strb	w10, [sp, #374]
	orr	w9, w9, #0x30
	lsr	w25, w11, #16
	strb	w9, [sp, #375]
	mov	w9, #22
	b	118f
316:
	add	x8, x8, #24
	mov	w9, #24
118:
	cmp	w25, #10
	b.lo	625f
	and	w10, w25, #0xff
	mov	w11, #205
	mul	w10, w10, w11
	mov	w11, #10
	lsr	w10, w10, #11
	msub	w11, w10, w11, w25
	orr	w10, w10, #0x30
	sturb	w10, [x8, #-2]
	orr	w11, w11, #0x30
	sturb	w11, [x8, #-1]
	sub	x8, x9, #2
	b	316f
625:
	sub	x8, x9, #1
	add	x9, sp, #352
	orr	w10, w25, #0x30
	strb	w10, [x9, x8]
316:
	add	x9, sp, #352
	ldr	x10, [sp, #896]
	mov	w11, #24
	add	x1, x9, x8
	mov	w9, #45
	sub	x2, x11, x8
	add	x25, sp, #704
	add	x0, sp, #768
	sturb	w9, [x1, #-1]
	cbnz	x10, 873f
	bl	std.io.traits.AdapterWrite.write_str._5349ec06ad6c886c
	and	w8, w0, #0xff
	tbnz	w8, #0, 943f
349:
	mov	w8, #32
	ldr	x9, [sp, #896]
	adrp	x1, .LTbd6cf3c6
	add	x1, x1, :lo12:.LTbd6cf3c6
	str	w8, [sp, #872]
	mov	x8, #-1
	add	x0, sp, #768
	mov	w2, #4
	stur	xzr, [x24, #108]
	stur	wzr, [x24, #116]
	str	x8, [sp, #888]
	cbnz	x9, 672f
	bl	std.io.traits.AdapterWrite.write_str._5349ec06ad6c886c
	and	w8, w0, #0xff
	tbnz	w8, #0, 943f
868:
	mov	w8, #32
	ldr	x9, [sp, #896]
	add	x0, sp, #768
	str	w8, [sp, #872]
	mov	x8, #-1
	mov	w2, #1
	str	x8, [sp, #888]
	ldr	w8, [sp, #60]
	stur	xzr, [x24, #108]
	orr	w8, w8, #0x30
	stur	wzr, [x24, #116]
	strb	w8, [sp, #375]
	mov	w8, #45
	strb	w8, [sp, #374]
	add	x8, sp, #352
	add	x1, x8, #23
	stp	xzr, xzr, [sp, #352]
	stur	xzr, [x26, #14]
	cbnz	x9, 671f
	bl	std.io.traits.AdapterWrite.write_str._5349ec06ad6c886c
	and	w8, w0, #0xff
	tbnz	w8, #0, 943f
462:
	mov	w8, #32
	ldr	x9, [sp, #896]
	adrp	x1, .LTafa5f7c5
	add	x1, x1, :lo12:.LTafa5f7c5
	str	w8, [sp, #872]
	mov	x8, #-1
	add	x0, sp, #768
	mov	w2, #8
	stur	xzr, [x24, #108]
	stur	wzr, [x24, #116]
	str	x8, [sp, #888]
	cbnz	x9, 460f
	bl	std.io.traits.AdapterWrite.write_str._5349ec06ad6c886c
	and	w8, w0, #0xff
	tbnz	w8, #0, 943f
93:
	ldr	w10, [sp, #48]
	mov	w8, #32
	stur	xzr, [x24, #108]
	str	w8, [sp, #872]
	mov	x8, #-1
	cmp	w10, #100
	stur	wzr, [x24, #116]
	str	x8, [sp, #888]
	stp	xzr, xzr, [sp, #352]
	str	xzr, [sp, #368]
	b.lo	67f
	mov	w8, #41
	mul	w8, w10, w8
	lsr	w9, w8, #12
	mov	w8, #100
	msub	w8, w9, w8, w10
	mov	w10, #205
	and	w11, w8, #0xff
	mul	w10, w11, w10
	mov	w11, #10
	lsr	w10, w10, #11
	msub	w8, w10, w11, w8
	orr	w10, w10, #0x30
	strb	w10, [sp, #374]
	orr	w8, w8, #0x30
	strb	w8, [sp, #375]
	mov	w8, #21
	b	312f
148:
	add	w8, w10, w23
	stp	q0, q0, [sp, #256]
	sub	w8, w8, #1
	stp	q0, q0, [sp, #288]
	cmp	w10, w8
	str	q0, [sp, #320]
	stur	xzr, [x28, #175]
	b.hi	976f
	udiv	w8, w8, w10
	str	w9, [sp, #60]
	mov	w9, #1
	add	x0, sp, #704
	add	x1, sp, #448
	add	x2, sp, #156
	mov	x3, x22
	stp	q0, q0, [sp, #640]
	str	xzr, [sp, #592]
	str	xzr, [sp, #576]
	str	xzr, [sp, #584]
	stp	q0, q0, [sp, #768]
	stp	q0, q0, [sp, #800]
	stp	x10, x8, [sp, #64]
	cmp	w8, #1
	mov	w8, #3
	csel	w8, w8, wzr, eq
	cmp	x10, x23
	stp	q0, q0, [sp, #832]
	csel	x4, x10, x23, lo
	stp	q0, q0, [x29, #-128]
	stp	q0, q0, [x29, #-96]
	stp	q0, q0, [x29, #-64]
	stp	q0, q0, [sp, #704]
	strh	wzr, [sp, #448]
	stur	w24, [x26, #98]
	strb	w9, [sp, #156]
	strb	w8, [sp, #157]
	strb	w25, [sp, #158]
	bl	tc_make.frames.make_frame
	add	x8, sp, #704
	ldrb	w10, [sp, #704]
	ldrb	w1, [sp, #705]
	ldur	q0, [x8, #11]
	ldrb	w2, [sp, #706]
	ldr	x11, [sp, #728]
	ldrb	w8, [sp, #714]
	ldrh	w9, [sp, #712]
	str	q0, [sp, #512]
	stur	x11, [x26, #173]
	cbnz	w10, 625f
	orr	w8, w9, w8, lsl #16
	add	x9, sp, #576
	ldr	q0, [sp, #512]
	orr	x10, x9, #0x3
	ldur	x9, [x26, #173]
	add	x0, sp, #640
	strh	w8, [sp, #576]
	lsr	w8, w8, #16
	add	x2, sp, #576
	mov	w1, w21
	str	q0, [x10]
	strb	w8, [sp, #578]
	str	x10, [sp, #48]
	stur	x9, [x10, #13]
	bl	tc_make.ending.Ending.end
	ldrb	w8, [sp, #640]
	cbz	w8, 489f
556:
	ldrb	w1, [sp, #641]
	ldrb	w2, [sp, #642]
625:
	sub	x0, x29, #128
	mov	x3, x20
	bl	tc_make.printed.write_bad._5349ec06ad6c886c
	ldurb	w8, [x29, #-128]
	cbz	w8, 976f
	ldur	q0, [x27, #41]
	ldur	q1, [x27, #57]
	ldur	q2, [x27, #73]
	ldur	x8, [x29, #-40]
	stp	q0, q1, [sp, #192]
	ldur	q0, [x27, #9]
	ldur	q1, [x27, #25]
	str	q2, [sp, #224]
	stur	x8, [x28, #79]
	ldurb	w8, [x29, #-120]
598:
	stp	q0, q1, [sp, #160]
	ldp	q0, q1, [sp, #192]
	ldr	q2, [sp, #224]
	ldur	x9, [x28, #79]
	stur	q0, [x28, #233]
	stur	q1, [x28, #249]
	ldp	q0, q1, [sp, #160]
	stur	q2, [x26, #73]
	str	x9, [sp, #440]
	mov	w9, #1
	stur	q0, [x26, #9]
	stur	q1, [x26, #25]
	b	866b
287:
	add	x0, x22, #6
	mov	x1, x23
	mov	x2, x21
	bl	memmove
686:
	adrp	x1, .LT841bcafc
	add	x1, x1, :lo12:.LT841bcafc
	add	x0, sp, #768
	add	x4, x21, #6
	mov	w2, #6
	mov	x3, x22
	mov	x5, x20
	bl	tc_make.printed.write_named._5349ec06ad6c886c
	mov	x0, x22
	bl	rattle_dealloc
	b	840b
190:
	mov	w8, #24
280:
	cmp	x22, #10
	b.lo	893f
	and	w9, w22, #0xff
	mov	w10, #205
	sub	x11, x29, #128
	mul	w9, w9, w10
	mov	w10, #10
	add	x11, x11, x8
	sub	x8, x8, #2
	lsr	w9, w9, #11
	msub	w10, w9, w10, w22
	orr	w9, w9, #0x30
	sturb	w9, [x11, #-2]
	orr	w10, w10, #0x30
	sturb	w10, [x11, #-1]
	b	607f
893:
	sub	x8, x8, #1
	sub	x9, x29, #128
	orr	w10, w22, #0x30
	strb	w10, [x9, x8]
607:
	sub	x9, x29, #128
	ldr	x10, [sp, #896]
	mov	w11, #24
	add	x1, x9, x8
	mov	w9, #45
	sub	x2, x11, x8
	add	x0, sp, #768
	sturb	w9, [x1, #-1]
	cbnz	x10, 563f
	bl	std.io.traits.AdapterWrite.write_str._5349ec06ad6c886c
	and	w8, w0, #0xff
	tbnz	w8, #0, 595f
710:
	mov	w8, #32
	ldr	x9, [sp, #896]
	adrp	x1, .LTec10d3fa
	add	x1, x1, :lo12:.LTec10d3fa
	str	w8, [sp, #872]
	mov	x8, #-1
	add	x0, sp, #768
	mov	w2, #10
	stur	xzr, [x20, #108]
	stur	wzr, [x20, #116]
	str	x8, [sp, #888]
	cbnz	x9, 51f
	bl	std.io.traits.AdapterWrite.write_str._5349ec06ad6c886c
	and	w8, w0, #0xff
	tbnz	w8, #0, 595f
523:
	mov	w8, #32
	cmp	x21, #100
	stur	xzr, [x20, #108]
	str	w8, [sp, #872]
	mov	x8, #-1
	stur	wzr, [x20, #116]
	str	x8, [sp, #888]
	stp	xzr, xzr, [x29, #-128]
	stur	xzr, [x29, #-112]
	b.lo	613f
	mov	x8, xzr
405:
	lsr	x10, x21, #2
	mov	x9, x21
	mov	w11, #205
	umulh	x10, x10, x24
	lsr	x21, x10, #2
	mov	w10, #100
	msub	w10, w21, w10, w9
	lsr	x9, x9, #4
	cmp	x9, #624
	and	w12, w10, #0xff
	mul	w11, w12, w11
	mov	w12, #10
	lsr	w11, w11, #11
	msub	w10, w11, w12, w10
	sub	x12, x29, #128
	orr	w9, w11, #0x30
	add	x12, x12, x8
	sub	x8, x8, #2
	strb	w9, [x12, #22]
	orr	w10, w10, #0x30
	strb	w10, [x12, #23]
	b.hi	405b
	add	x8, x8, #24
	b	118f
443:
	mov	w26, #65535
	mov	x10, x8
	mov	x11, x21
	mov	x9, x27
559:
	cbz	x10, 659f
	ldrb	w12, [x11]
	and	w13, w26, #0xff00
	cmp	x10, #1
	eor	w12, w12, w13, lsr #8
	eor	w12, w12, w12, lsr #4
	orr	w13, w12, w26, lsl #8
	eor	w13, w13, w12, lsl #12
	eor	w26, w13, w12, lsl #5
	b.eq	659f
	ldrb	w12, [x11, #1]
	and	w13, w26, #0xff00
	cmp	x10, #2
	eor	w12, w12, w13, lsr #8
	eor	w12, w12, w12, lsr #4
	orr	w13, w12, w26, lsl #8
	eor	w13, w13, w12, lsl #12
	eor	w26, w13, w12, lsl #5
	b.eq	659f
	ldrb	w10, [x11, #2]
	and	w11, w26, #0xff00
	eor	w10, w10, w11, lsr #8
	eor	w10, w10, w10, lsr #4
	orr	w11, w10, w26, lsl #8
	eor	w11, w11, w10, lsl #12
	eor	w26, w11, w10, lsl #5
659:
	ldr	x28, [sp, #272]
	ubfx	w11, w26, #8, #8
	sub	x10, x28, x8
	cmp	x10, #1
	b.ls	62f
690:
	orr	w10, w11, w26, lsl #8
	add	x4, x8, #2
	strh	w10, [x21, x8]
885:
	ldr	x8, [x9, #8]
	add	w10, w24, #1
	adrp	x1, .LTc0048dcc
	add	x1, x1, :lo12:.LTc0048dcc
	add	x0, sp, #768
	mov	w2, #2
	strb	w10, [x8, x22]
	mov	x3, x21
	mov	x5, x20
	ldr	x8, [x9, #32]
	add	w9, w25, #1
	strb	w9, [x8, x23]
	bl	tc_make.printed.write_named._5349ec06ad6c886c
	cbz	x28, 840b
14:
	mov	x0, x21
	bl	rattle_dealloc
	b	840b
498:
	bl	core.fmt.formatter.Formatter.write_indented._1ac78889755d2eb3
	and	w8, w0, #0xff
	tbnz	w8, #0, 595f
	b	613b
260:
	sub	x0, x29, #128
	mov	w1, #8
	bl	std_alloc.vec.Vec.grow_amortized._5ce8f19f45e9f986
	cbz	w0, 174f
	ldp	x8, x22, [x29, #-120]
	b	232b
481:
	add	x0, sp, #352
	add	x3, x22, x24
	mov	x1, x22
	mov	x2, x24
	mov	x4, x23
	mov	x5, x20
	bl	tc_make.explained.write_whole_frame._5349ec06ad6c886c
	ldrb	w9, [sp, #352]
	b	337f
412:
	bl	core.fmt.formatter.Formatter.write_indented._1ac78889755d2eb3
	and	w8, w0, #0xff
	tbnz	w8, #0, 875f
	b	187b
263:
	ldr	x21, [sp, #712]
	ldr	x2, [sp, #720]
	add	x0, sp, #256
	ldr	x25, [sp, #728]
	add	x3, x22, x24
	mov	x4, x23
	mov	x1, x21
	mov	x5, x20
	bl	tc_make.explained.write_whole_frame._5349ec06ad6c886c
	cbz	x25, 232f
	mov	x0, x21
	bl	rattle_dealloc
	b	232f
474:
	cmp	x21, #32
	b.hs	192f
	mov	x8, xzr
	b	983f
937:
	cmp	w8, #3
	b.eq	939f
	cmp	w8, #4
	b.ne	32f
939:
	adrp	x1, .LT6f25b05d
	add	x1, x1, :lo12:.LT6f25b05d
	sub	x0, x29, #128
	mov	w2, #5
	b	187f
970:
	bl	core.fmt.formatter.Formatter.write_indented._1ac78889755d2eb3
	and	w8, w0, #0xff
	tbnz	w8, #0, 595f
	b	983b
613:
	mov	w8, #24
118:
	cmp	x21, #10
	b.lo	893f
	and	w9, w21, #0xff
	mov	w10, #205
	sub	x11, x29, #128
	mul	w9, w9, w10
	mov	w10, #10
	add	x11, x11, x8
	sub	x8, x8, #2
	lsr	w9, w9, #11
	msub	w10, w9, w10, w21
	orr	w9, w9, #0x30
	sturb	w9, [x11, #-2]
	orr	w10, w10, #0x30
	sturb	w10, [x11, #-1]
	b	607f
893:
	sub	x8, x8, #1
	sub	x9, x29, #128
	orr	w10, w21, #0x30
	strb	w10, [x9, x8]
607:
	sub	x9, x29, #128
	ldr	x10, [sp, #896]
	mov	w11, #24
	add	x1, x9, x8
	mov	w9, #45
	sub	x2, x11, x8
	add	x0, sp, #768
	sturb	w9, [x1, #-1]
	cbnz	x10, 412f
	bl	std.io.traits.AdapterWrite.write_str._5349ec06ad6c886c
	and	w8, w0, #0xff
	tbnz	w8, #0, 595f
613:
	mov	w8, #32
	ldr	x9, [sp, #896]
	adrp	x1, .LT3235efc0
	add	x1, x1, :lo12:.LT3235efc0
	str	w8, [sp, #872]
	mov	x8, #-1
	add	x0, sp, #768
	mov	w2, #1
	stur	xzr, [x20, #108]
	stur	wzr, [x20, #116]
	str	x8, [sp, #888]
	cbnz	x9, 81f
	bl	std.io.traits.AdapterWrite.write_str._5349ec06ad6c886c
447:
	and	w9, w0, #0xff
	b	645f
110:
	bl	core.fmt.formatter.Formatter.write_indented._1ac78889755d2eb3
	and	w8, w0, #0xff
	tbnz	w8, #0, 875f
	b	32b
873:
	bl	core.fmt.formatter.Formatter.write_indented._1ac78889755d2eb3
	and	w8, w0, #0xff
	tbnz	w8, #0, 943f
	b	349b
192:
	and	x9, x21, #0x18
	and	x8, x21, #0x1ffe0
	add	x10, x23, #16
	add	x11, x22, #22
	and	x12, x21, #0x1ffe0
989:
	ldp	q0, q1, [x10, #-16]
	subs	x12, x12, #32
	add	x10, x10, #32
	stp	q0, q1, [x11, #-16]
	add	x11, x11, #32
	b.ne	989b
	cmp	x21, x8
	b.eq	686b
	cbz	x9, 62b
983:
	mov	x10, x8
	and	x8, x21, #0x1fff8
	add	x11, x10, x22
	sub	x9, x10, x8
	add	x10, x23, x10
	add	x11, x11, #6
659:
	ldr	d0, [x10], #8
	adds	x9, x9, #8
	str	d0, [x11], #8
	b.ne	659b
	cmp	x21, x8
	b.eq	686b
	b	62b
563:
	bl	core.fmt.formatter.Formatter.write_indented._1ac78889755d2eb3
	and	w8, w0, #0xff
	tbnz	w8, #0, 595f
	b	710b
168:
	adrp	x8, .Lswitch.table.tc_make.answer.answer._5349ec06ad6c886c
	add	x8, x8, :lo12:.Lswitch.table.tc_make.answer.answer._5349ec06ad6c886c
	sub	x0, x29, #128
	ldr	x2, [x8, x9, lsl #3]
	adrp	x8, .Lswitch.table.tc_make.answer.answer._5349ec06ad6c886c_.639
	add	x8, x8, :lo12:.Lswitch.table.tc_make.answer.answer._5349ec06ad6c886c_.639
	ldr	x1, [x8, x9, lsl #3]
187:
	mov	x3, x20
	bl	tc_make.printed.write_refused._5349ec06ad6c886c
257:
	ldurb	w8, [x29, #-128]
	ldur	q0, [x27, #40]
	ldur	q1, [x27, #56]
	ldur	q2, [x27, #72]
	strb	w8, [sp, #256]
	ldur	x8, [x29, #-40]
	stur	q0, [x28, #136]
	ldur	q0, [x27, #8]
	stur	q1, [x28, #152]
	ldur	q1, [x27, #24]
	stur	q2, [x28, #168]
	str	x8, [sp, #344]
	stur	q0, [x28, #104]
	stur	q1, [x28, #120]
232:
	ldur	q0, [x28, #136]
	ldur	q1, [x28, #152]
	ldur	q2, [x28, #168]
	ldr	x8, [sp, #344]
	ldrb	w9, [sp, #256]
	stur	q0, [x26, #40]
	ldur	q0, [x28, #104]
	stur	q1, [x26, #56]
	ldur	q1, [x28, #120]
	stur	q2, [x26, #72]
	str	x8, [sp, #440]
	stur	q0, [x26, #8]
	stur	q1, [x26, #24]
337:
	ldur	q0, [x26, #40]
	ldur	q1, [x26, #56]
	ldur	q2, [x26, #72]
	ldr	x8, [sp, #440]
	stur	q0, [sp, #200]
	ldur	q0, [x26, #8]
	stur	q1, [x28, #56]
	ldur	q1, [x26, #24]
	stur	q2, [x28, #72]
	str	x8, [sp, #248]
	stur	q0, [sp, #168]
	stur	q1, [sp, #184]
	b	976b
32:
	mov	w8, #16
	adrp	x9, .LT3235efc0
	add	x9, x9, :lo12:.LT3235efc0
	strh	w8, [sp, #576]
	add	x8, sp, #576
	add	x0, sp, #768
	str	x8, [sp, #640]
	mov	w8, #1
	add	x2, sp, #640
	mov	x1, x20
	stp	q0, q0, [sp, #768]
	stp	q0, q0, [sp, #800]
	stp	q0, q0, [sp, #832]
	str	x9, [sp, #648]
	str	x8, [sp, #656]
	bl	std.io.traits.Write.write_fmt._7427d210d622371f
	ldrb	w8, [sp, #768]
	ldur	q0, [x25, #104]
	ldur	q1, [x25, #120]
	ldur	q2, [x25, #136]
	sturb	w8, [x29, #-128]
	ldr	x8, [sp, #856]
	stur	q0, [x27, #40]
	ldur	q0, [x25, #72]
	stur	q1, [x27, #56]
	ldur	q1, [x25, #88]
	stur	q2, [x27, #72]
	stur	x8, [x29, #-40]
	stur	q0, [x27, #8]
	stur	q1, [x27, #24]
	b	257b
62:
	add	x0, sp, #256
	mov	w1, #2
	str	w11, [sp, #72]
	bl	std_alloc.vec.Vec.grow_amortized._5ce8f19f45e9f986
	cbz	w0, 174f
	ldp	x8, x28, [sp, #264]
	mov	x9, x27
	ldr	x21, [sp, #256]
	ldr	w11, [sp, #72]
	b	690b
946:
	add	x8, sp, #352
	add	x0, sp, #768
	mov	w2, #1
	add	x1, x8, #23
	bl	core.fmt.formatter.Formatter.write_indented._1ac78889755d2eb3
	and	w8, w0, #0xff
	tbnz	w8, #0, 875f
	b	943b
489:
	ldr	x8, [sp, #664]
	ldr	x3, [sp, #648]
	adrp	x1, .LT4903b024
	add	x1, x1, :lo12:.LT4903b024
	ldr	x4, [sp, #656]
	add	x0, sp, #768
	mov	w2, #5
	mov	x5, x20
	stp	x8, x3, [sp, #32]
	bl	tc_make.printed.write_named._5349ec06ad6c886c
	ldrb	w8, [sp, #768]
	cbz	w8, 885f
	ldr	x8, [sp, #32]
	cbz	x8, 62f
659:
	ldr	x0, [sp, #40]
	bl	rattle_dealloc
62:
	add	x9, sp, #704
	ldr	x8, [sp, #856]
	ldur	q0, [x9, #105]
	ldur	q1, [x9, #121]
	ldur	q2, [x9, #137]
	stp	q0, q1, [sp, #192]
	ldur	q0, [x9, #73]
	ldur	q1, [x9, #89]
	str	q2, [sp, #224]
	stur	x8, [x28, #79]
	ldrb	w8, [sp, #776]
	b	598b
672:
	bl	core.fmt.formatter.Formatter.write_indented._1ac78889755d2eb3
	and	w8, w0, #0xff
	tbnz	w8, #0, 943f
	b	868b
51:
	bl	core.fmt.formatter.Formatter.write_indented._1ac78889755d2eb3
	and	w8, w0, #0xff
	tbnz	w8, #0, 595f
	b	523b
67:
	cmp	w10, #10
	b.lo	263f
	ldr	w10, [sp, #48]
	mov	w8, #205
	mov	w9, #10
	mul	w8, w10, w8
	lsr	w8, w8, #11
	msub	w9, w8, w9, w10
	orr	w8, w8, #0x30
	strb	w8, [sp, #374]
	mov	w8, #22
	orr	w9, w9, #0x30
	strb	w9, [sp, #375]
	b	481f
667:
	bl	core.fmt.formatter.Formatter.write_indented._1ac78889755d2eb3
	and	w8, w0, #0xff
	tbnz	w8, #0, 875f
	b	911b
885:
	ldr	x8, [sp, #32]
	cbz	x8, 98f
	ldr	x0, [sp, #40]
	bl	rattle_dealloc
98:
	movi	v0.2d, #0000000000000000
	ldp	x9, x8, [sp, #64]
	ldr	w11, [sp, #60]
	and	w10, w24, #0xffff
	stur	xzr, [x28, #79]
	cmp	w8, #1
	stp	q0, q0, [sp, #176]
	stp	q0, q0, [sp, #208]
	str	q0, [sp, #160]
	b.ne	885f
976:
	ldp	q0, q1, [sp, #288]
	mov	w8, wzr
	ldr	q2, [sp, #320]
	ldur	x10, [x28, #175]
	mov	w9, wzr
	stur	q0, [x26, #41]
	stur	q1, [x26, #57]
	ldp	q0, q1, [sp, #256]
	stur	q2, [x26, #73]
	str	x10, [sp, #440]
	stur	q0, [x26, #9]
	stur	q1, [x26, #25]
	b	866b
671:
	bl	core.fmt.formatter.Formatter.write_indented._1ac78889755d2eb3
	and	w8, w0, #0xff
	tbz	w8, #0, 462b
943:
	mov	w8, wzr
	ldrb	w9, [sp, #776]
	cmp	x9, #1
	b.eq	236b
100:
	tbz	w8, #0, 98f
	movi	v0.2d, #0000000000000000
	ldr	w10, [sp, #72]
	adrp	x8, .LT9561cdf1
	add	x8, x8, :lo12:.LT9561cdf1
	adrp	x9, .LTd51b947e
	add	x9, x9, :lo12:.LTd51b947e
	tst	w10, #0x80
	str	x20, [sp, #768]
	mov	x26, #-1
	mov	w27, #32
	csel	x20, x9, x8, eq
	mov	w8, #6
	mov	w9, #4
	adrp	x1, .LT42d834cb
	add	x1, x1, :lo12:.LT42d834cb
	add	x0, sp, #768
	mov	w2, #9
	stp	q0, q0, [sp, #160]
	stp	q0, q0, [sp, #192]
	add	x24, sp, #704
	csel	x21, x9, x8, eq
	stp	q0, q0, [sp, #256]
	stp	q0, q0, [sp, #288]
	stur	q0, [x25, #72]
	stur	q0, [x25, #88]
	stur	q0, [x25, #104]
	stur	q0, [x25, #120]
	stur	q0, [x25, #136]
	stur	q0, [x25, #152]
	str	xzr, [sp, #904]
	str	xzr, [sp, #896]
	str	w27, [sp, #872]
	stur	xzr, [x25, #172]
	add	x25, sp, #768
	str	wzr, [sp, #884]
	str	x26, [sp, #888]
	bl	std.io.traits.AdapterWrite.write_str._5349ec06ad6c886c
	and	w8, w0, #0xff
	tbnz	w8, #0, 349f
	ldr	w11, [sp, #64]
	str	w27, [sp, #872]
	stur	xzr, [x25, #108]
	cmp	w11, #100
	stur	wzr, [x25, #116]
	str	x26, [sp, #888]
	stp	xzr, xzr, [sp, #352]
	str	xzr, [sp, #368]
	b.lo	983f
	mov	w8, #1311
	mov	w10, #205
	mov	x22, x23
	mul	w8, w11, w8
	lsr	w9, w8, #17
	mov	w8, #100
	msub	w8, w9, w8, w11
	and	w11, w8, #0xff
	mul	w10, w11, w10
	mov	w11, #10
	lsr	w10, w10, #11
	msub	w8, w10, w11, w8
	orr	w10, w10, #0x30
	mov	w11, w9
	strb	w10, [sp, #374]
	orr	w8, w8, #0x30
	strb	w8, [sp, #375]
	mov	w8, #22
	b	118f
98:
	movi	v1.16b, #46
	adrp	x9, .LC648541ed_0
	adrp	x10, .LC648541ed_1
	ldr	q5, [x9, :lo12:.LC648541ed_0]
	ldr	d0, [x10, :lo12:.LC648541ed_1]
	mov	w8, wzr
	stp	q1, q1, [sp, #352]
	stp	q1, q1, [sp, #384]
530:
	ldp	q1, q2, [sp, #352]
	stur	q1, [x29, #-96]
	ldp	q1, q3, [sp, #384]
	b	598f
983:
	mov	w8, #24
118:
	cmp	w11, #10
	b.lo	893f
	and	w9, w11, #0xff
	mov	w10, #205
	sub	x8, x8, #2
	mul	w9, w9, w10
	mov	w10, #10
	lsr	w9, w9, #11
	msub	w10, w9, w10, w11
	orr	w9, w9, #0x30
	sturb	w9, [x22, #-2]
	orr	w10, w10, #0x30
	sturb	w10, [x22, #-1]
	b	316f
893:
	sub	x8, x8, #1
	add	x9, sp, #352
	orr	w10, w11, #0x30
	strb	w10, [x9, x8]
316:
	add	x9, sp, #352
	ldr	x10, [sp, #896]
	mov	w11, #24
	add	x1, x9, x8
	mov	w9, #45
	sub	x2, x11, x8
	add	x0, sp, #768
	sturb	w9, [x1, #-1]
	cbnz	x10, 498f
	bl	std.io.traits.AdapterWrite.write_str._5349ec06ad6c886c
	and	w8, w0, #0xff
	tbnz	w8, #0, 349f
983:
	mov	w8, #32
	ldr	x9, [sp, #896]
	adrp	x1, .LT37337163
	add	x1, x1, :lo12:.LT37337163
	str	w8, [sp, #872]
	mov	x8, #-1
	add	x0, sp, #768
	mov	w2, #1
	stur	xzr, [x25, #108]
	stur	wzr, [x25, #116]
	str	x8, [sp, #888]
	cbnz	x9, 970f
	bl	std.io.traits.AdapterWrite.write_str._5349ec06ad6c886c
	and	w8, w0, #0xff
	tbnz	w8, #0, 349f
187:
	mov	w8, #32
	ldr	x9, [sp, #896]
	add	x0, sp, #768
	str	w8, [sp, #872]
	mov	x8, #-1
	mov	x1, x20
	mov	x2, x21
	stur	xzr, [x25, #108]
	stur	wzr, [x25, #116]
	str	x8, [sp, #888]
	cbnz	x9, 110f
	bl	std.io.traits.AdapterWrite.write_str._5349ec06ad6c886c
	and	w8, w0, #0xff
	tbnz	w8, #0, 349f
32:
	mov	w8, #32
	ldr	x9, [sp, #896]
	adrp	x1, .LT37337163
	add	x1, x1, :lo12:.LT37337163
	str	w8, [sp, #872]
	mov	x8, #-1
	add	x0, sp, #768
	mov	w2, #1
	mov	w20, #1
	stur	xzr, [x25, #108]
	stur	wzr, [x25, #116]
	str	x8, [sp, #888]
	cbnz	x9, 563f
	bl	std.io.traits.AdapterWrite.write_str._5349ec06ad6c886c
	and	w8, w0, #0xff
	tbnz	w8, #0, 347f
316:
	add	x8, sp, #640
	mov	w21, #32
	mov	x20, #-1
	add	x0, x8, #8
	add	x2, sp, #768
	mov	w1, #4
	stur	xzr, [x25, #108]
	str	w21, [sp, #872]
	stur	wzr, [x25, #116]
	str	x20, [sp, #888]
	bl	tc_lines.digits.DigitsDisplay.fmt._1ac78889755d2eb3
	and	w8, w0, #0xff
	tbnz	w8, #0, 349f
	ldr	x8, [sp, #896]
	adrp	x1, .LT3235efc0
	add	x1, x1, :lo12:.LT3235efc0
	add	x0, sp, #768
	mov	w2, #1
	str	w21, [sp, #872]
	stur	xzr, [x25, #108]
	stur	wzr, [x25, #116]
	str	x20, [sp, #888]
	cbnz	x8, 51f
	bl	std.io.traits.AdapterWrite.write_str._5349ec06ad6c886c
192:
	and	w20, w0, #0xff
	b	347f
498:
	bl	core.fmt.formatter.Formatter.write_indented._1ac78889755d2eb3
	and	w8, w0, #0xff
	tbnz	w8, #0, 349f
	b	983b
412:
	bl	core.fmt.formatter.Formatter.write_indented._1ac78889755d2eb3
	and	w8, w0, #0xff
	tbz	w8, #0, 613b
595:
	mov	w9, #1
645:
	movi	v1.2d, #0000000000000000
	ldrb	w10, [sp, #776]
	ldr	s0, [sp, #784]
	ldr	w8, [sp, #788]
	ldur	q5, [x25, #88]
	cmp	x10, #1
	stp	q1, q1, [x29, #-128]
	stp	q1, q1, [x29, #-96]
	b.ne	613f
	ldur	q1, [x20, #40]
	ldur	q2, [x20, #56]
	ushll	v0.8h, v0.8b, #0
	ldur	q3, [x20, #72]
	mov	w9, #1
	stp	q1, q2, [x29, #-128]
	ldur	q1, [x20, #88]
	stp	q3, q1, [x29, #-96]
	b	989f
613:
	mov	w8, wzr
	cbz	w9, 98f
	movi	v1.16b, #46
	adrp	x9, .LC648541ed_0
	adrp	x10, .LC648541ed_1
	ldr	q5, [x9, :lo12:.LC648541ed_0]
	ldr	d0, [x10, :lo12:.LC648541ed_1]
	mov	w9, #1
	stp	q1, q1, [x29, #-128]
	stp	q1, q1, [x29, #-96]
	b	989f
98:
	movi	v0.2d, #0000000000000000
	movi	v5.2d, #0000000000000000
989:
	ldp	q1, q2, [x29, #-128]
	ldp	q4, q3, [x29, #-96]
	stp	q1, q2, [sp, #256]
	stp	q2, q4, [sp, #176]
	str	q3, [sp, #208]
	ldp	q3, q2, [sp, #192]
	str	q1, [sp, #160]
	stp	q3, q2, [sp, #672]
	ldp	q2, q1, [sp, #160]
	stp	q2, q1, [sp, #640]
137:
	ldp	q1, q2, [sp, #640]
	stp	q1, q2, [sp, #576]
	ldp	q1, q3, [sp, #672]
	stp	q1, q3, [sp, #608]
727:
	ldp	q1, q2, [sp, #576]
	str	q1, [sp, #80]
	ldp	q1, q3, [sp, #608]
803:
	stp	q2, q1, [sp, #96]
	str	q3, [sp, #128]
39:
	uzp1	v0.8b, v0.8b, v0.8b
	ldp	q1, q2, [sp, #80]
	strb	w9, [x19]
	str	w8, [x19, #12]
	stp	q5, q1, [x19, #16]
	str	s0, [x19, #8]
	ldp	q0, q1, [sp, #112]
	stp	q2, q0, [x19, #48]
	str	q1, [x19, #80]
	add	sp, sp, #1040
	ldp	x20, x19, [sp, #80]
	ldp	x22, x21, [sp, #64]
	ldp	x24, x23, [sp, #48]
	ldp	x26, x25, [sp, #32]
	ldp	x28, x27, [sp, #16]
	ldp	x29, x30, [sp], #96
	ret
263:
	ldr	w9, [sp, #48]
	mov	w8, #23
312:
	add	x10, sp, #352
	orr	w9, w9, #0x30
	strb	w9, [x10, x8]
481:
	add	x9, sp, #352
	ldr	x10, [sp, #896]
	mov	w11, #24
	add	x1, x9, x8
	mov	w9, #45
	sub	x2, x11, x8
	add	x0, sp, #768
	sturb	w9, [x1, #-1]
	cbnz	x10, 873f
	bl	std.io.traits.AdapterWrite.write_str._5349ec06ad6c886c
	and	w8, w0, #0xff
	tbnz	w8, #0, 307b
613:
	mov	w8, #32
	ldr	x9, [sp, #896]
	add	x10, sp, #768
	str	w8, [sp, #872]
	mov	x8, #-1
	adrp	x1, .LT41cae141
	add	x1, x1, :lo12:.LT41cae141
	add	x0, sp, #768
	mov	w2, #9
	stur	xzr, [x10, #108]
	stur	wzr, [x10, #116]
	str	x8, [sp, #888]
	cbnz	x9, 672f
	bl	std.io.traits.AdapterWrite.write_str._5349ec06ad6c886c
	and	w8, w0, #0xff
	tbnz	w8, #0, 307b
983:
	mov	w8, #32
	add	x9, sp, #768
	stp	xzr, xzr, [sp, #352]
	str	w8, [sp, #872]
	mov	x8, #-1
	str	x8, [sp, #888]
	ldr	w8, [sp, #40]
	stur	xzr, [x9, #108]
	cmp	w8, #100
	stur	wzr, [x9, #116]
	str	xzr, [sp, #368]
	b.lo	93f
	ldr	w10, [sp, #40]
	mov	w8, #41
	mul	w8, w10, w8
	lsr	w9, w8, #12
	mov	w8, #100
	msub	w8, w9, w8, w10
	mov	w10, #205
	and	w11, w8, #0xff
	mul	w10, w11, w10
	mov	w11, #10
	lsr	w10, w10, #11
	msub	w8, w10, w11, w8
	orr	w10, w10, #0x30
	strb	w10, [sp, #374]
	orr	w8, w8, #0x30
	strb	w8, [sp, #375]
	mov	w8, #21
	b	946f
740:
	add	x8, sp, #352
	add	x0, sp, #768
	mov	w2, #1
	add	x1, x8, #23
	bl	core.fmt.formatter.Formatter.write_indented._1ac78889755d2eb3
	and	w8, w0, #0xff
	tbz	w8, #0, 239b
875:
	mov	w8, wzr
	ldrb	w9, [sp, #776]
	cmp	x9, #1
	b.ne	645f
232:
	ldur	q0, [x22, #40]
	ldr	s1, [sp, #784]
	ldur	q2, [x22, #56]
	ldur	q3, [x22, #72]
	ldur	q5, [x25, #88]
	ldr	w8, [sp, #788]
	stp	q0, q2, [sp, #576]
	ushll	v0.8h, v1.8b, #0
	ldur	q1, [x22, #88]
	stp	q3, q1, [sp, #608]
	b	976f
885:
	ldr	x12, [sp, #72]
	mov	w8, #11
	sub	x23, x23, x9
	add	x3, x22, x9
	mov	w22, #1
	sub	x12, x12, #1
	str	x12, [sp, #16]
	add	x12, sp, #704
	orr	x8, x12, x8
	str	x8, [sp, #8]
	b	481f
98:
	movi	v0.2d, #0000000000000000
	ldp	x9, x8, [sp, #64]
	ldp	x23, x3, [sp, #24]
	add	x22, x22, #1
	ldr	w11, [sp, #60]
	and	w10, w24, #0xffff
	stur	xzr, [x28, #79]
	cmp	x8, x22
	sub	x23, x23, x9
	add	x3, x3, x9
	stp	q0, q0, [sp, #176]
	stp	q0, q0, [sp, #208]
	str	q0, [sp, #160]
	b.eq	976b
481:
	add	w8, w22, w24, lsr #24
	movi	v0.2d, #0000000000000000
	strh	w10, [sp, #450]
	mov	w10, #1
	add	x0, sp, #704
	add	x1, sp, #448
	strb	w8, [sp, #453]
	ldr	x8, [sp, #16]
	add	x2, sp, #156
	str	xzr, [sp, #592]
	cmp	x8, x22
	str	xzr, [sp, #576]
	cinc	w8, w10, eq
	cmp	x9, x23
	str	xzr, [sp, #584]
	csel	x4, x9, x23, lo
	stp	q0, q0, [sp, #640]
	stp	q0, q0, [sp, #768]
	stp	q0, q0, [sp, #800]
	stp	q0, q0, [sp, #832]
	stp	q0, q0, [x29, #-128]
	stp	q0, q0, [x29, #-96]
	stp	q0, q0, [x29, #-64]
	stp	q0, q0, [sp, #704]
	strh	wzr, [sp, #448]
	strb	w11, [sp, #452]
	strb	w10, [sp, #156]
	strb	w8, [sp, #157]
	strb	w25, [sp, #158]
	str	x3, [sp, #32]
	bl	tc_make.frames.make_frame
	ldr	x8, [sp, #8]
	ldrb	w10, [sp, #704]
	ldrb	w1, [sp, #705]
	ldrb	w2, [sp, #706]
	ldrh	w9, [sp, #712]
	ldr	q0, [x8]
	ldur	x11, [x8, #13]
	ldrb	w8, [sp, #714]
	str	q0, [sp, #512]
	stur	x11, [x26, #173]
	cbnz	w10, 625b
	orr	w8, w9, w8, lsl #16
	ldr	q0, [sp, #512]
	ldur	x9, [x26, #173]
	ldr	x10, [sp, #48]
	add	x0, sp, #640
	add	x2, sp, #576
	strh	w8, [sp, #576]
	lsr	w8, w8, #16
	mov	w1, w21
	str	x23, [sp, #24]
	str	q0, [x10]
	strb	w8, [sp, #578]
	stur	x9, [x10, #13]
	bl	tc_make.ending.Ending.end
	ldrb	w8, [sp, #640]
	cbnz	w8, 556b
	ldr	x3, [sp, #648]
	ldr	x4, [sp, #656]
	adrp	x1, .LT4903b024
	add	x1, x1, :lo12:.LT4903b024
	ldr	x23, [sp, #664]
	add	x0, sp, #768
	mov	w2, #5
	mov	x5, x20
	str	x3, [sp, #40]
	bl	tc_make.printed.write_named._5349ec06ad6c886c
	ldrb	w8, [sp, #768]
	cbnz	w8, 893f
	cbz	x23, 98b
	ldr	x0, [sp, #40]
	bl	rattle_dealloc
	b	98b
970:
	bl	core.fmt.formatter.Formatter.write_indented._1ac78889755d2eb3
	and	w8, w0, #0xff
	tbnz	w8, #0, 349f
	b	187b
460:
	bl	core.fmt.formatter.Formatter.write_indented._1ac78889755d2eb3
	and	w8, w0, #0xff
	tbz	w8, #0, 93b
	mov	w8, wzr
	ldrb	w9, [sp, #776]
	cmp	x9, #1
	b.eq	236b
	b	100b
81:
	bl	core.fmt.formatter.Formatter.write_indented._1ac78889755d2eb3
	b	447b
93:
	ldr	w8, [sp, #40]
	cmp	w8, #10
	b.lo	93f
	ldr	w10, [sp, #40]
	mov	w8, #205
	mov	w9, #10
	mul	w8, w10, w8
	lsr	w8, w8, #11
	msub	w9, w8, w9, w10
	orr	w8, w8, #0x30
	strb	w8, [sp, #374]
	mov	w8, #22
	orr	w9, w9, #0x30
	strb	w9, [sp, #375]
	b	312f
352:
	bl	core.fmt.formatter.Formatter.write_indented._1ac78889755d2eb3
	and	w8, w0, #0xff
	tbnz	w8, #0, 599b
911:
	mov	w8, #32
	ldr	x9, [sp, #896]
	stur	xzr, [x22, #108]
	str	w8, [sp, #872]
	mov	x8, #-1
	str	x8, [sp, #888]
	ubfx	w8, w21, #14, #1
	stur	wzr, [x22, #116]
	orr	w8, w8, #0x30
	stp	xzr, xzr, [sp, #352]
	strb	w8, [sp, #375]
	mov	w8, #45
	stur	xzr, [x26, #14]
	strb	w8, [sp, #374]
	cbnz	x9, 62f
	add	x0, sp, #768
	add	x1, x23, #23
	mov	w2, #1
	bl	std.io.traits.AdapterWrite.write_str._5349ec06ad6c886c
447:
	and	w8, w0, #0xff
	cmp	w8, #0
	cset	w8, eq
536:
	add	x25, sp, #704
	ldrb	w9, [sp, #776]
	cmp	x9, #1
	b.eq	232b
645:
	tbz	w8, #0, 98f
	movi	v0.2d, #0000000000000000
	mov	x23, #-1
	adrp	x1, .LT8d0368cc
	add	x1, x1, :lo12:.LT8d0368cc
	add	x0, sp, #768
	mov	w2, #9
	str	x20, [sp, #768]
	add	x22, sp, #768
	str	xzr, [sp, #904]
	stp	q0, q0, [sp, #640]
	stp	q0, q0, [sp, #672]
	stur	q0, [x25, #72]
	stur	q0, [x25, #88]
	stur	q0, [x25, #104]
	stur	q0, [x25, #120]
	stur	q0, [x25, #136]
	stur	q0, [x25, #152]
	str	xzr, [sp, #896]
	stur	xzr, [x25, #172]
	str	w24, [sp, #872]
	str	wzr, [sp, #884]
	str	x23, [sp, #888]
	bl	std.io.traits.AdapterWrite.write_str._5349ec06ad6c886c
	and	w8, w0, #0xff
	tbnz	w8, #0, 599f
	ubfx	w8, w21, #13, #1
	ldr	x9, [sp, #896]
	str	x23, [sp, #888]
	add	x23, sp, #352
	str	w24, [sp, #872]
	orr	w8, w8, #0x30
	stur	xzr, [x22, #108]
	strb	w8, [sp, #375]
	mov	w8, #45
	stur	wzr, [x22, #116]
	stp	xzr, xzr, [sp, #352]
	stur	xzr, [x26, #14]
	strb	w8, [sp, #374]
	cbnz	x9, 481f
	add	x0, sp, #768
	add	x1, x23, #23
	mov	w2, #1
	bl	std.io.traits.AdapterWrite.write_str._5349ec06ad6c886c
	and	w8, w0, #0xff
	tbnz	w8, #0, 599f
187:
	mov	w8, #32
	ldr	x9, [sp, #896]
	adrp	x1, .LTb6ef8972
	add	x1, x1, :lo12:.LTb6ef8972
	str	w8, [sp, #872]
	mov	x8, #-1
	add	x0, sp, #768
	mov	w2, #6
	stur	xzr, [x22, #108]
	stur	wzr, [x22, #116]
	str	x8, [sp, #888]
	cbnz	x9, 498f
	bl	std.io.traits.AdapterWrite.write_str._5349ec06ad6c886c
	and	w8, w0, #0xff
	tbnz	w8, #0, 599f
943:
	mov	w8, #32
	ldr	x9, [sp, #896]
	stur	xzr, [x22, #108]
	str	w8, [sp, #872]
	mov	x8, #-1
	str	x8, [sp, #888]
	ubfx	w8, w21, #12, #1
	stur	wzr, [x22, #116]
	orr	w8, w8, #0x30
	stp	xzr, xzr, [sp, #352]
	strb	w8, [sp, #375]
	mov	w8, #45
	stur	xzr, [x26, #14]
	strb	w8, [sp, #374]
	cbnz	x9, 148f
	add	x0, sp, #768
	add	x1, x23, #23
	mov	w2, #1
	bl	std.io.traits.AdapterWrite.write_str._5349ec06ad6c886c
	and	w8, w0, #0xff
	tbnz	w8, #0, 599f
911:
	mov	w8, #32
	ldr	x9, [sp, #896]
	adrp	x1, .LT3ff918de
	add	x1, x1, :lo12:.LT3ff918de
	str	w8, [sp, #872]
	mov	x8, #-1
	add	x0, sp, #768
	mov	w2, #12
	stur	xzr, [x22, #108]
	stur	wzr, [x22, #116]
	str	x8, [sp, #888]
	cbnz	x9, 412f
	bl	std.io.traits.AdapterWrite.write_str._5349ec06ad6c886c
	and	w8, w0, #0xff
	tbnz	w8, #0, 599f
239:
	mov	w8, #32
	ldr	x9, [sp, #896]
	stur	xzr, [x22, #108]
	str	w8, [sp, #872]
	mov	x8, #-1
	str	x8, [sp, #888]
	ubfx	w8, w21, #11, #1
	stur	wzr, [x22, #116]
	orr	w8, w8, #0x30
	stp	xzr, xzr, [sp, #352]
	strb	w8, [sp, #375]
	mov	w8, #45
	stur	xzr, [x26, #14]
	strb	w8, [sp, #374]
	cbnz	x9, 231f
	add	x0, sp, #768
	add	x1, x23, #23
	mov	w2, #1
	bl	std.io.traits.AdapterWrite.write_str._5349ec06ad6c886c
124:
	and	w8, w0, #0xff
	add	x25, sp, #704
	cmp	w8, #0
	cset	w8, eq
	b	556f
98:
	movi	v1.16b, #46
	adrp	x9, .LC648541ed_0
	adrp	x10, .LC648541ed_1
	ldr	q5, [x9, :lo12:.LC648541ed_0]
	ldr	d0, [x10, :lo12:.LC648541ed_1]
	mov	w8, wzr
	stp	q1, q1, [sp, #576]
	stp	q1, q1, [sp, #608]
976:
	ldp	q1, q2, [sp, #576]
	stur	q1, [x29, #-96]
	ldp	q1, q3, [sp, #608]
598:
	stp	q2, q1, [x29, #-80]
	mov	w9, #1
	stur	q3, [x29, #-48]
	b	681b
481:
	add	x8, sp, #352
	add	x0, sp, #768
	mov	w2, #1
	add	x1, x8, #23
	bl	core.fmt.formatter.Formatter.write_indented._1ac78889755d2eb3
	and	w8, w0, #0xff
	tbnz	w8, #0, 599f
	b	187b
498:
	bl	core.fmt.formatter.Formatter.write_indented._1ac78889755d2eb3
	and	w8, w0, #0xff
	tbnz	w8, #0, 599f
	b	943b
148:
	add	x8, sp, #352
	add	x0, sp, #768
	mov	w2, #1
	add	x1, x8, #23
	bl	core.fmt.formatter.Formatter.write_indented._1ac78889755d2eb3
	and	w8, w0, #0xff
	tbnz	w8, #0, 599f
	b	911b
412:
	bl	core.fmt.formatter.Formatter.write_indented._1ac78889755d2eb3
	and	w8, w0, #0xff
	tbz	w8, #0, 239b
599:
	mov	w8, wzr
556:
	ldrb	w9, [sp, #776]
	cmp	x9, #1
	b.ne	98f
	ldur	q0, [x22, #40]
	ldr	s1, [sp, #784]
	ldur	q2, [x22, #56]
	ldur	q3, [x22, #72]
	ldur	q5, [x25, #88]
	ldr	w8, [sp, #788]
	stp	q0, q2, [sp, #704]
	ushll	v0.8h, v1.8b, #0
	ldur	q1, [x22, #88]
	stp	q3, q1, [sp, #736]
	b	976f
98:
	tbz	w8, #0, 645f
	movi	v0.2d, #0000000000000000
	mov	x22, #-1
	mov	w23, #32
	adrp	x1, .LTa613f50b
	add	x1, x1, :lo12:.LTa613f50b
	add	x0, sp, #768
	mov	w2, #7
	str	x20, [sp, #768]
	add	x20, sp, #768
	str	xzr, [sp, #904]
	stp	q0, q0, [sp, #160]
	stp	q0, q0, [sp, #192]
	stp	q0, q0, [sp, #256]
	stp	q0, q0, [sp, #288]
	stur	q0, [x25, #72]
	stur	q0, [x25, #88]
	stur	q0, [x25, #104]
	stur	q0, [x25, #120]
	stur	q0, [x25, #136]
	stur	q0, [x25, #152]
	str	xzr, [sp, #896]
	stur	xzr, [x25, #172]
	str	w23, [sp, #872]
	str	wzr, [sp, #884]
	str	x22, [sp, #888]
	bl	std.io.traits.AdapterWrite.write_str._5349ec06ad6c886c
	and	w8, w0, #0xff
	tbnz	w8, #0, 943f
	ubfx	w8, w21, #9, #2
	ldr	x9, [sp, #896]
	mov	w10, #45
	add	x0, sp, #768
	mov	w2, #1
	str	w23, [sp, #872]
	orr	w8, w8, #0x30
	stur	xzr, [x20, #108]
	strb	w8, [sp, #375]
	add	x8, sp, #352
	add	x1, x8, #23
	stur	wzr, [x20, #116]
	str	x22, [sp, #888]
	stp	xzr, xzr, [sp, #352]
	stur	xzr, [x26, #14]
	strb	w10, [sp, #374]
	cbnz	x9, 498f
	bl	std.io.traits.AdapterWrite.write_str._5349ec06ad6c886c
	and	w8, w0, #0xff
	tbnz	w8, #0, 943f
187:
	mov	w8, #32
	ldr	x9, [sp, #896]
	adrp	x1, .LTd2821792
	add	x1, x1, :lo12:.LTd2821792
	str	w8, [sp, #872]
	mov	x8, #-1
	add	x0, sp, #768
	mov	w2, #4
	stur	xzr, [x20, #108]
	stur	wzr, [x20, #116]
	str	x8, [sp, #888]
	cbnz	x9, 412f
	bl	std.io.traits.AdapterWrite.write_str._5349ec06ad6c886c
	and	w8, w0, #0xff
	tbz	w8, #0, 187f
943:
	mov	w9, #1
98:
	movi	v1.2d, #0000000000000000
	ldrb	w10, [sp, #776]
	ldr	s0, [sp, #784]
	ldr	w8, [sp, #788]
	ldur	q5, [x25, #88]
	cmp	x10, #1
	stp	q1, q1, [sp, #352]
	stp	q1, q1, [sp, #384]
	b.ne	911f
	ldur	q1, [x20, #40]
	ldur	q2, [x20, #56]
	ushll	v0.8h, v0.8b, #0
	ldur	q3, [x20, #72]
	mov	w9, #1
	stp	q1, q2, [sp, #352]
	ldur	q1, [x20, #88]
	stp	q3, q1, [sp, #384]
	b	989f
645:
	movi	v1.16b, #46
	adrp	x9, .LC648541ed_0
	adrp	x10, .LC648541ed_1
	ldr	q5, [x9, :lo12:.LC648541ed_0]
	ldr	d0, [x10, :lo12:.LC648541ed_1]
	mov	w8, wzr
	stp	q1, q1, [sp, #704]
	stp	q1, q1, [sp, #736]
976:
	ldp	q1, q2, [sp, #704]
	mov	w9, #1
	stp	q1, q2, [sp, #512]
	ldp	q1, q3, [sp, #736]
	stp	q1, q3, [sp, #544]
	b	976f
911:
	mov	w8, wzr
	cbz	w9, 645f
	movi	v1.16b, #46
	adrp	x9, .LC648541ed_0
	adrp	x10, .LC648541ed_1
	ldr	q5, [x9, :lo12:.LC648541ed_0]
	ldr	d0, [x10, :lo12:.LC648541ed_1]
	mov	w9, #1
	stp	q1, q1, [sp, #352]
	stp	q1, q1, [sp, #384]
	b	989f
645:
	movi	v0.2d, #0000000000000000
	movi	v5.2d, #0000000000000000
989:
	ldp	q1, q2, [sp, #352]
	ldp	q4, q3, [sp, #384]
	stp	q1, q2, [sp, #160]
	stp	q2, q4, [sp, #656]
	str	q3, [sp, #688]
	ldp	q3, q2, [sp, #672]
	str	q1, [sp, #640]
	stp	q3, q2, [sp, #544]
	ldp	q2, q1, [sp, #640]
	stp	q2, q1, [sp, #512]
976:
	ldp	q1, q2, [sp, #512]
	stp	q1, q2, [x29, #-96]
	ldp	q1, q3, [sp, #544]
	stp	q1, q3, [x29, #-64]
	b	681b
498:
	bl	core.fmt.formatter.Formatter.write_indented._1ac78889755d2eb3
	and	w8, w0, #0xff
	tbnz	w8, #0, 943b
	b	187b
412:
	bl	core.fmt.formatter.Formatter.write_indented._1ac78889755d2eb3
	and	w8, w0, #0xff
	tbnz	w8, #0, 943b
187:
	mov	w8, #32
	stur	xzr, [x20, #108]
	str	w8, [sp, #872]
	mov	x8, #-1
	str	x8, [sp, #888]
	and	w8, w21, #0xff
	cmp	w8, #100
	stur	wzr, [x20, #116]
	stp	xzr, xzr, [sp, #352]
	str	xzr, [sp, #368]
	b.lo	118f
	mov	w9, #41
	mov	w10, #205
	mul	w8, w8, w9
	lsr	w9, w8, #12
	mov	w8, #100
	msub	w8, w9, w8, w21
	and	w11, w8, #0xff
	mul	w10, w11, w10
	mov	w11, #10
	lsr	w10, w10, #11
	msub	w8, w10, w11, w8
	orr	w10, w10, #0x30
	strb	w10, [sp, #374]
	orr	w8, w8, #0x30
	strb	w8, [sp, #375]
	mov	w8, #21
	b	481f
118:
	cmp	w8, #10
	b.lo	187f
	and	w8, w21, #0xff
	mov	w9, #205
	mul	w8, w8, w9
	mov	w9, #10
	lsr	w8, w8, #11
	msub	w9, w8, w9, w21
	orr	w8, w8, #0x30
	strb	w8, [sp, #374]
	mov	w8, #22
	orr	w9, w9, #0x30
	strb	w9, [sp, #375]
	b	148f
187:
	mov	w8, #23
	mov	w9, w21
481:
	add	x10, sp, #352
	orr	w9, w9, #0x30
	strb	w9, [x10, x8]
148:
	add	x9, sp, #352
	ldr	x10, [sp, #896]
	mov	w11, #24
	add	x1, x9, x8
	mov	w9, #45
	sub	x2, x11, x8
	add	x0, sp, #768
	sturb	w9, [x1, #-1]
	cbnz	x10, 498f
	bl	std.io.traits.AdapterWrite.write_str._5349ec06ad6c886c
	and	w8, w0, #0xff
	tbz	w8, #0, 613f
187:
	mov	w9, #1
	b	481f
110:
	bl	core.fmt.formatter.Formatter.write_indented._1ac78889755d2eb3
	and	w8, w0, #0xff
	tbz	w8, #0, 32b
349:
	mov	w20, #1
347:
	movi	v1.2d, #0000000000000000
	ldrb	w9, [sp, #776]
	ldr	s0, [sp, #784]
	ldr	w8, [sp, #788]
	ldur	q5, [x24, #88]
	cmp	x9, #1
	stp	q1, q1, [sp, #352]
	stp	q1, q1, [sp, #384]
	b.ne	32f
	ldur	q1, [x25, #40]
	ldur	q2, [x25, #56]
	ushll	v0.8h, v0.8b, #0
	ldur	q3, [x25, #72]
	stp	q1, q2, [sp, #352]
	ldur	q1, [x25, #88]
	stp	q3, q1, [sp, #384]
	b	976f
32:
	mov	w8, wzr
	cbz	w20, 645f
	movi	v1.16b, #46
	adrp	x9, .LC648541ed_0
	adrp	x10, .LC648541ed_1
	ldr	q5, [x9, :lo12:.LC648541ed_0]
	ldr	d0, [x10, :lo12:.LC648541ed_1]
	mov	w9, #1
	stp	q1, q1, [sp, #352]
	stp	q1, q1, [sp, #384]
	b	976f
645:
	movi	v0.2d, #0000000000000000
	movi	v5.2d, #0000000000000000
	mov	w9, wzr
976:
	ldp	q1, q2, [sp, #352]
	ldp	q4, q3, [sp, #384]
	stp	q1, q2, [sp, #160]
	stp	q2, q4, [sp, #720]
	str	q3, [sp, #752]
	ldp	q3, q2, [sp, #736]
	str	q1, [sp, #704]
	stp	q3, q2, [x29, #-64]
	ldp	q2, q1, [sp, #704]
	stp	q2, q1, [x29, #-96]
	b	681b
873:
	bl	core.fmt.formatter.Formatter.write_indented._1ac78889755d2eb3
	and	w8, w0, #0xff
	tbnz	w8, #0, 307b
	b	613b
498:
	bl	core.fmt.formatter.Formatter.write_indented._1ac78889755d2eb3
	and	w8, w0, #0xff
	tbnz	w8, #0, 187b
613:
	mov	w8, #32
	ldr	x9, [sp, #896]
	adrp	x1, .LT3235efc0
	add	x1, x1, :lo12:.LT3235efc0
	str	w8, [sp, #872]
	mov	x8, #-1
	add	x0, sp, #768
	mov	w2, #1
	stur	xzr, [x20, #108]
	stur	wzr, [x20, #116]
	str	x8, [sp, #888]
	cbnz	x9, 498f
	bl	std.io.traits.AdapterWrite.write_str._5349ec06ad6c886c
206:
	and	w9, w0, #0xff
481:
	add	x25, sp, #704
	b	98b
93:
	ldr	w9, [sp, #40]
	mov	w8, #23
946:
	add	x10, sp, #352
	orr	w9, w9, #0x30
	strb	w9, [x10, x8]
312:
	add	x9, sp, #352
	ldr	x10, [sp, #896]
	mov	w11, #24
	add	x1, x9, x8
	mov	w9, #45
	sub	x2, x11, x8
	add	x0, sp, #768
	sturb	w9, [x1, #-1]
	cbnz	x10, 412f
	bl	std.io.traits.AdapterWrite.write_str._5349ec06ad6c886c
633:
	and	w8, w0, #0xff
	cmp	w8, #0
	cset	w8, eq
	add	x25, sp, #704
	add	x24, sp, #768
	ldrb	w9, [sp, #776]
	cmp	x9, #1
	b.eq	236b
	b	100b
231:
	add	x8, sp, #352
	add	x0, sp, #768
	mov	w2, #1
	add	x1, x8, #23
	bl	core.fmt.formatter.Formatter.write_indented._1ac78889755d2eb3
	b	124b
893:
	str	x23, [sp, #32]
	cbnz	x23, 659b
	b	62b
62:
	add	x8, sp, #352
	add	x0, sp, #768
	mov	w2, #1
	add	x1, x8, #23
	bl	core.fmt.formatter.Formatter.write_indented._1ac78889755d2eb3
	b	447b
563:
	bl	core.fmt.formatter.Formatter.write_indented._1ac78889755d2eb3
	and	w8, w0, #0xff
	tbz	w8, #0, 316b
	b	347b
672:
	bl	core.fmt.formatter.Formatter.write_indented._1ac78889755d2eb3
	and	w8, w0, #0xff
	tbnz	w8, #0, 307b
	b	983b
498:
	bl	core.fmt.formatter.Formatter.write_indented._1ac78889755d2eb3
	b	206b
412:
	bl	core.fmt.formatter.Formatter.write_indented._1ac78889755d2eb3
	b	633b
51:
	bl	core.fmt.formatter.Formatter.write_indented._1ac78889755d2eb3
	b	192b
174:
	brk	#0x1
	.section	.rodata.tc_make.answer.answer._5349ec06ad6c886c,"a",@progbits
	.p2align	1
.LJ648541ed_0:
	.hword	(39b-922b)>>2
	.hword	(922b-922b)>>2
	.hword	(311b-922b)>>2
	.hword	(452b-922b)>>2
	.hword	(410b-922b)>>2
	.hword	(478b-922b)>>2
	.hword	(986b-922b)>>2
	.hword	(679b-922b)>>2
	.hword	(181b-922b)>>2
	.hword	(641b-922b)>>2
	.hword	(583b-922b)>>2
	.hword	(737b-922b)>>2
	.hword	(719b-922b)>>2
	.hword	(602b-922b)>>2
	.hword	(320b-922b)>>2
	.section	.rodata.cst16,"aM",@progbits,16
	.p2align	4
.LCc7f8b103_0:
	.xword	7310596056926023526
	.xword	3346860010425884786
	.section	.rodata.cst8,"aM",@progbits,8
	.p2align	3
.LCc7f8b103_1:
	.hword	2
	.hword	41
	.hword	15
	.hword	0
	.section	.text.tc_make.printed.write_named._5349ec06ad6c886c,"ax",@progbits
	.p2align	2
tc_make.printed.write_named._5349ec06ad6c886c:
	sub	sp, sp, #416
	movi	v0.2d, #0000000000000000
	stp	x29, x30, [sp, #336]
	add	x29, sp, #336
	stp	x24, x23, [sp, #368]
	mov	w24, #32
	mov	x23, #-1
	stp	x22, x21, [sp, #384]
	add	x22, sp, #64
	mov	x21, x3
	stp	x20, x19, [sp, #400]
	mov	x19, x0
	add	x0, sp, #64
	str	x28, [sp, #352]
	mov	x20, x4
	stp	q0, q0, [sp]
	stp	q0, q0, [sp, #32]
	stp	q0, q0, [x29, #-128]
	stp	q0, q0, [x29, #-96]
	str	x5, [sp, #64]
	stur	q0, [sp, #72]
	stur	q0, [sp, #88]
	stur	q0, [sp, #104]
	stur	q0, [sp, #120]
	stur	q0, [x22, #72]
	stur	q0, [x22, #88]
	stp	xzr, xzr, [sp, #192]
	stur	xzr, [x22, #108]
	str	w24, [sp, #168]
	str	wzr, [sp, #180]
	str	x23, [sp, #184]
	bl	std.io.traits.AdapterWrite.write_str._5349ec06ad6c886c
	and	w8, w0, #0xff
	tbz	w8, #0, 93f
613:
	mov	w23, #1
922:
	movi	v2.2d, #0000000000000000
	ldrb	w9, [sp, #72]
	ldr	s1, [sp, #80]
	ldr	w8, [sp, #84]
	ldur	q0, [sp, #88]
	cmp	x9, #1
	stp	q2, q2, [x29, #-64]
	stp	q2, q2, [x29, #-32]
	b.ne	983f
	ldur	q2, [x22, #40]
	ldur	q3, [x22, #56]
	ushll	v1.8h, v1.8b, #0
	ldur	q4, [x22, #72]
	stp	q2, q3, [x29, #-64]
	ldur	q2, [x22, #88]
	stp	q4, q2, [x29, #-32]
	b	39f
983:
	mov	w8, wzr
	cbz	w23, 320f
	movi	v2.16b, #46
	adrp	x9, .LCc7f8b103_0
	adrp	x10, .LCc7f8b103_1
	ldr	q0, [x9, :lo12:.LCc7f8b103_0]
	ldr	d1, [x10, :lo12:.LCc7f8b103_1]
	mov	w9, #1
	stp	q2, q2, [x29, #-64]
	stp	q2, q2, [x29, #-32]
	b	39f
93:
	ldr	x8, [sp, #192]
	str	x23, [sp, #184]
	adrp	x1, .LT37337163
	add	x1, x1, :lo12:.LT37337163
	add	x0, sp, #64
	mov	w2, #1
	mov	w23, #1
	str	w24, [sp, #168]
	stur	xzr, [x22, #108]
	stur	wzr, [x22, #116]
	cbnz	x8, 498f
	bl	std.io.traits.AdapterWrite.write_str._5349ec06ad6c886c
	and	w8, w0, #0xff
	tbnz	w8, #0, 922b
983:
	mov	x23, #-1
	add	x2, sp, #64
	mov	x0, x21
	mov	x1, x20
	stur	xzr, [x22, #108]
	str	w24, [sp, #168]
	stur	wzr, [x22, #116]
	str	x23, [sp, #184]
	bl	tc_lines.digits.DigitsDisplay.fmt._1ac78889755d2eb3
	and	w8, w0, #0xff
	tbnz	w8, #0, 613b
	ldr	x8, [sp, #192]
	adrp	x1, .LT3235efc0
	add	x1, x1, :lo12:.LT3235efc0
	add	x0, sp, #64
	mov	w2, #1
	str	w24, [sp, #168]
	stur	xzr, [x22, #108]
	stur	wzr, [x22, #116]
	str	x23, [sp, #184]
	cbnz	x8, 412f
	bl	std.io.traits.AdapterWrite.write_str._5349ec06ad6c886c
447:
	and	w23, w0, #0xff
	b	922b
320:
	movi	v1.2d, #0000000000000000
	movi	v0.2d, #0000000000000000
	mov	w9, wzr
39:
	uzp1	v1.8b, v1.8b, v0.8b
	ldp	q2, q3, [x29, #-64]
	ldp	q4, q5, [x29, #-32]
	strb	w9, [x19]
	str	w8, [x19, #12]
	ldr	x28, [sp, #352]
	stp	q0, q2, [x19, #16]
	ldp	x22, x21, [sp, #384]
	str	s1, [x19, #8]
	ldp	x24, x23, [sp, #368]
	stp	q3, q4, [x19, #48]
	ldp	x29, x30, [sp, #336]
	str	q5, [x19, #80]
	ldp	x20, x19, [sp, #400]
	stp	q2, q3, [sp]
	stp	q4, q5, [sp, #32]
	add	sp, sp, #416
	ret
498:
	bl	core.fmt.formatter.Formatter.write_indented._1ac78889755d2eb3
	and	w8, w0, #0xff
	tbz	w8, #0, 983b
	b	922b
412:
	bl	core.fmt.formatter.Formatter.write_indented._1ac78889755d2eb3
	b	447b
	.section	.text.tc_make.frames.make_frame,"ax",@progbits
	.p2align	2
tc_make.frames.make_frame:
	sub	sp, sp, #112
	stp	x22, x21, [sp, #80]
	ldrh	w21, [x1, #2]
	stp	x29, x30, [sp, #16]
	add	x29, sp, #16
	cmp	w21, #1024
	stp	x28, x27, [sp, #32]
	stp	x26, x25, [sp, #48]
	stp	x24, x23, [sp, #64]
	stp	x20, x19, [sp, #96]
	b.lo	602f
	mov	w8, #1793
	b	560f
602:
	ldrb	w25, [x1, #4]
	cmp	w25, #64
	b.lo	602f
	mov	w8, #2049
560:
	strb	wzr, [x0, #2]
	strh	w8, [x0]
	stp	xzr, xzr, [x0, #16]
	str	xzr, [x0, #8]
	b	681f
602:
	ldrb	w8, [x2]
	cmp	w8, #1
	b.ne	118f
	ldrb	w22, [x2, #2]
	cmp	w22, #63
	b.ls	280f
	mov	x19, xzr
	mov	x22, xzr
	mov	w21, #9
	mov	w25, #1
	b	560f
118:
	cbz	x4, 983f
	cmp	x4, #1019
	b.hi	613f
	str	x0, [sp, #8]
	ldrb	w26, [x1]
	ldrb	w27, [x1, #1]
	ldrb	w24, [x1, #5]
	add	x0, x4, #5
	mov	w1, #1
	mov	x23, x3
	add	x22, x4, #5
	mov	x20, x4
	mov	w28, #1
	bl	rattle_alloc
	tbz	w0, #0, 93f
	add	w8, w20, #4
	lsl	w10, w27, #12
	mov	x19, x1
	add	w9, w8, w25, lsl #10
	orr	w10, w10, w26, lsl #13
	and	w9, w9, #0xff00
	bfxil	w9, w21, #0, #8
	bfi	w9, w8, #16, #8
	orr	w8, w10, w21
	add	x10, x1, #5
	lsr	w8, w8, #8
	sub	x10, x10, x23
	mov	x1, x23
	orr	w9, w9, w24, lsl #24
	cmp	x10, x20
	strb	w8, [x19]
	stur	w9, [x19, #1]
	b.hs	316f
	cmp	x20, #8
	b.hs	625f
	ldr	x0, [sp, #8]
	mov	x8, xzr
	b	893f
280:
	cmp	x4, #1018
	b.ls	187f
613:
	mov	x19, xzr
	mov	x22, xzr
	mov	w21, #14
	mov	w25, #1
	b	560f
983:
	mov	x19, xzr
	mov	x22, xzr
	mov	w21, #13
	mov	w25, #1
	b	560f
187:
	mov	x19, x1
	str	x0, [sp, #8]
	ldrb	w26, [x2, #1]
	add	x0, x4, #1
	mov	w1, #1
	mov	x23, x3
	add	x24, x4, #1
	mov	x21, x4
	mov	w25, #1
	bl	rattle_alloc
	tbz	w0, #0, 659f
	lsl	w8, w26, #3
	mov	w9, #64
	mov	x0, x1
	movk	w9, #49280, lsl #16
	mov	x20, x1
	mov	x1, x23
	lsr	w8, w9, w8
	mov	x2, x21
	orr	w8, w22, w8
	strb	w8, [x0], #1
	sub	x8, x0, x23
	cmp	x8, x21
	b.hs	498f
	cmp	x2, #8
	mov	x8, x19
	b.lo	613f
	sub	x9, x20, x1
	add	x9, x9, #1
	cmp	x9, #32
	b.hs	474f
613:
	mov	x9, xzr
62:
	add	x11, x9, x20
	sub	x10, x2, x9
	add	x9, x1, x9
	add	x11, x11, #1
602:
	ldrb	w12, [x9], #1
	subs	x10, x10, #1
	strb	w12, [x11], #1
	b.ne	602b
	b	335f
93:
	ldr	x0, [sp, #8]
	mov	x19, xzr
	mov	x22, xzr
	mov	w21, #16
	mov	w25, w28
	b	560f
659:
	ldr	x0, [sp, #8]
	mov	x19, xzr
	mov	x22, xzr
	mov	w21, #16
	b	560f
316:
	add	x0, x19, #5
	mov	x2, x20
	bl	memmove
	ldr	x0, [sp, #8]
	mov	w25, wzr
	mov	w21, wzr
	b	560f
498:
	bl	memmove
	mov	x2, x21
	mov	x8, x19
335:
	ldrh	w25, [x8, #2]
	cmp	w25, #1023
	b.hi	174f
	ldrb	w28, [x8, #4]
	cmp	w28, #63
	b.hi	174f
	ldrb	w27, [x8]
	ldrb	w23, [x8, #1]
	add	x0, x2, #6
	ldrb	w26, [x8, #5]
	mov	w1, #1
	add	x22, x2, #6
	bl	rattle_alloc
	tbz	w0, #0, 613f
	add	w8, w24, #4
	lsl	w10, w23, #12
	mov	x19, x1
	add	w9, w8, w28, lsl #10
	orr	w10, w10, w27, lsl #13
	and	w9, w9, #0xff00
	bfxil	w9, w25, #0, #8
	bfi	w9, w8, #16, #8
	orr	w8, w10, w25
	add	x10, x1, #5
	lsr	w8, w8, #8
	sub	x10, x10, x20
	orr	w9, w9, w26, lsl #24
	cmp	x10, x21
	strb	w8, [x1]
	stur	w9, [x1, #1]
	b.ls	118f
	add	x0, x19, #5
	mov	x1, x20
	mov	x2, x24
	bl	memmove
	b	983f
613:
	mov	x19, xzr
	mov	x22, xzr
	mov	w21, #16
	mov	w25, #1
	b	187f
625:
	sub	x8, x19, x1
	ldr	x0, [sp, #8]
	add	x8, x8, #5
	cmp	x8, #32
	b.hs	280f
	mov	x8, xzr
	b	893f
118:
	cmp	x21, #7
	b.lo	613f
	sub	x8, x19, x20
	add	x8, x8, #5
	cmp	x8, #32
	b.hs	118f
613:
	mov	x8, xzr
625:
	sub	x9, x21, x8
	add	x10, x20, x8
	add	x8, x8, #5
	add	x9, x9, #1
602:
	ldrb	w11, [x10], #1
	subs	x9, x9, #1
	strb	w11, [x19, x8]
	add	x8, x8, #1
	b.ne	602b
983:
	mov	w25, wzr
	mov	w21, wzr
187:
	mov	x0, x20
	bl	rattle_dealloc
	ldr	x0, [sp, #8]
	b	560f
280:
	cmp	x20, #32
	b.hs	447f
	mov	x8, xzr
	b	613f
474:
	cmp	x2, #32
	b.hs	192f
	mov	x9, xzr
	b	32f
447:
	and	x9, x20, #0x18
	and	x8, x20, #0x3e0
	add	x10, x1, #16
	add	x11, x19, #21
	and	x12, x20, #0x3e0
976:
	ldp	q0, q1, [x10, #-16]
	subs	x12, x12, #32
	add	x10, x10, #32
	stp	q0, q1, [x11, #-16]
	add	x11, x11, #32
	b.ne	976b
	cmp	x20, x8
	b.eq	187f
	cbz	x9, 893f
613:
	mov	x11, x8
	and	x8, x20, #0x3f8
	sub	x9, x11, x8
	add	x10, x1, x11
	add	x11, x11, #5
93:
	ldr	d0, [x10], #8
	adds	x9, x9, #8
	str	d0, [x19, x11]
	add	x11, x11, #8
	b.ne	93b
	cmp	x20, x8
	b.eq	187f
893:
	sub	x9, x20, x8
	add	x10, x1, x8
	add	x8, x8, #5
602:
	ldrb	w11, [x10], #1
	subs	x9, x9, #1
	strb	w11, [x19, x8]
	add	x8, x8, #1
	b.ne	602b
187:
	mov	w25, wzr
	mov	w21, wzr
560:
	strb	w25, [x0]
	strb	w21, [x0, #1]
	strb	wzr, [x0, #2]
	stp	x19, x22, [x0, #8]
	str	x22, [x0, #24]
681:
	ldp	x20, x19, [sp, #96]
	ldp	x22, x21, [sp, #80]
	ldp	x24, x23, [sp, #64]
	ldp	x26, x25, [sp, #48]
	ldp	x28, x27, [sp, #32]
	ldp	x29, x30, [sp, #16]
	add	sp, sp, #112
	ret
192:
	and	x10, x2, #0x18
	and	x9, x2, #0x3e0
	add	x11, x1, #16
	add	x12, x20, #17
	and	x13, x2, #0x3e0
976:
	ldp	q0, q1, [x11, #-16]
	subs	x13, x13, #32
	add	x11, x11, #32
	stp	q0, q1, [x12, #-16]
	add	x12, x12, #32
	b.ne	976b
	cmp	x2, x9
	b.eq	335b
	cbz	x10, 62b
32:
	mov	x11, x9
	and	x9, x2, #0x3f8
	add	x12, x11, x20
	sub	x10, x11, x9
	add	x11, x1, x11
	add	x12, x12, #1
93:
	ldr	d0, [x11], #8
	adds	x10, x10, #8
	str	d0, [x12], #8
	b.ne	93b
	cmp	x2, x9
	b.eq	335b
	b	62b
118:
	cmp	x21, #31
	add	x9, x21, #1
	b.hs	447f
	mov	x8, xzr
	b	613f
447:
	and	x10, x9, #0x18
	and	x8, x9, #0x7e0
	add	x11, x20, #16
	add	x12, x19, #21
	and	x13, x9, #0x7e0
976:
	ldp	q0, q1, [x11, #-16]
	subs	x13, x13, #32
	add	x11, x11, #32
	stp	q0, q1, [x12, #-16]
	add	x12, x12, #32
	b.ne	976b
	cmp	x9, x8
	b.eq	983b
	cbz	x10, 625b
613:
	mov	x12, x8
	and	x8, x9, #0x7f8
	sub	x10, x12, x8
	add	x11, x20, x12
	add	x12, x12, #5
93:
	ldr	d0, [x11], #8
	adds	x10, x10, #8
	str	d0, [x19, x12]
	add	x12, x12, #8
	b.ne	93b
	cmp	x9, x8
	b.eq	983b
	b	625b
174:
	brk	#0x1
	.section	.text.tc_make.ending.Ending.end,"ax",@progbits
	.p2align	2
tc_make.ending.Ending.end:
	stp	x29, x30, [sp, #-64]!
	stp	x24, x23, [sp, #16]
	tst	w1, #0xff
	mov	x29, sp
	stp	x20, x19, [sp, #48]
	ldp	x20, x23, [x2]
	stp	x22, x21, [sp, #32]
	ldr	x22, [x2, #16]
	mov	x19, x0
	b.eq	738f
	cmp	x23, #5
	b.lo	174f
	ldrb	w8, [x20]
	tst	w8, #0xcccccccc
	b.ne	174f
	ldrb	w8, [x20, #3]
	ldrb	w9, [x20, #2]
	bfi	w8, w9, #8, #2
	cmp	w8, #5
	b.lo	174f
	add	w8, w8, #1
	cmp	x23, x8
	b.ne	174f
	cmp	x23, #1022
	b.ls	62f
	cbz	x22, 613f
	mov	x0, x20
	bl	rattle_dealloc
613:
	mov	w8, #3585
	b	560f
738:
	strh	wzr, [x19]
	strb	wzr, [x19, #2]
	stp	x20, x23, [x19, #8]
	str	x22, [x19, #24]
	ldp	x20, x19, [sp, #48]
	ldp	x22, x21, [sp, #32]
	ldp	x24, x23, [sp, #16]
	ldp	x29, x30, [sp], #64
	ret
62:
	add	x0, x23, #2
	mov	w1, #1
	add	x24, x23, #2
	bl	rattle_alloc
	tbz	w0, #0, 613f
	ldrb	w8, [x20, #3]
	ldrb	w9, [x20, #2]
	mov	x0, x1
	ldrb	w10, [x20]
	mov	x21, x1
	orr	w8, w8, w9, lsl #8
	ldrb	w9, [x20, #1]
	add	w8, w8, #2
	and	w8, w8, #0xffff
	rev	w8, w8
	orr	w8, w8, w9, lsl #8
	add	x9, x20, #4
	orr	w8, w8, w10
	str	w8, [x0], #4
	sub	x8, x23, #4
	sub	x9, x0, x9
	cmp	x9, x8
	b.hs	62f
	cmp	x8, #8
	mov	x9, xzr
	b.lo	625f
	sub	x10, x21, x20
	cmp	x10, #32
	b.lo	625f
	cmp	x8, #32
	b.hs	447f
	mov	x9, xzr
	b	983f
613:
	cbz	x22, 613f
	mov	x0, x20
	bl	rattle_dealloc
613:
	mov	w8, #4097
560:
	strb	wzr, [x19, #2]
	strh	w8, [x19]
	stp	xzr, xzr, [x19, #16]
	str	xzr, [x19, #8]
	ldp	x20, x19, [sp, #48]
	ldp	x22, x21, [sp, #32]
	ldp	x24, x23, [sp, #16]
	ldp	x29, x30, [sp], #64
	ret
62:
	add	x1, x20, #4
	sub	x2, x23, #4
	bl	memmove
	b	613f
447:
	and	x10, x8, #0x18
	and	x9, x8, #0xffffffffffffffe0
	add	x11, x20, #20
	add	x12, x21, #20
	and	x13, x8, #0xffffffffffffffe0
976:
	ldp	q0, q1, [x11, #-16]
	subs	x13, x13, #32
	add	x11, x11, #32
	stp	q0, q1, [x12, #-16]
	add	x12, x12, #32
	b.ne	976b
	cmp	x8, x9
	b.eq	613f
	cbz	x10, 625f
983:
	mov	x10, x9
	and	x9, x8, #0xfffffffffffffff8
	add	x12, x10, #4
	sub	x10, x10, x9
	add	x11, x20, x12
	add	x12, x21, x12
93:
	ldr	d0, [x11], #8
	adds	x10, x10, #8
	str	d0, [x12], #8
	b.ne	93b
	cmp	x8, x9
	b.eq	613f
625:
	sub	x8, x23, x9
	add	x10, x9, #4
	sub	x8, x8, #4
	add	x9, x20, x10
	add	x10, x21, x10
602:
	ldrb	w11, [x9], #1
	subs	x8, x8, #1
	strb	w11, [x10], #1
	b.ne	602b
613:
	mov	w8, #255
	mov	w10, #255
	mov	x11, x21
	mov	x9, x23
602:
	ldrb	w12, [x11]
	ldrb	w13, [x11, #1]
	adrp	x14, .LT48aab116
	add	x14, x14, :lo12:.LT48aab116
	adrp	x15, .LT33c05f58
	add	x15, x15, :lo12:.LT33c05f58
	eor	w10, w12, w10
	ldrb	w12, [x11, #2]
	eor	w8, w13, w8
	and	x10, x10, #0xff
	ldrb	w13, [x11, #3]
	and	x8, x8, #0xff
	ldrh	w10, [x14, x10, lsl #1]
	adrp	x14, .LTbb337a2b
	add	x14, x14, :lo12:.LTbb337a2b
	ldrh	w12, [x14, x12, lsl #1]
	adrp	x14, .LT48c7e4e5
	add	x14, x14, :lo12:.LT48c7e4e5
	ldrh	w8, [x15, x8, lsl #1]
	ldrh	w13, [x14, x13, lsl #1]
	sub	x9, x9, #4
	cmp	x9, #3
	eor	w8, w8, w10
	eor	w10, w12, w13
	add	x12, x11, #4
	eor	w8, w8, w10
	mov	x11, x12
	ubfx	w10, w8, #8, #8
	b.hi	602b
	cbz	x9, 690f
	mov	x10, xzr
602:
	ldrb	w11, [x12, x10]
	and	w13, w8, #0xff00
	add	x10, x10, #1
	cmp	x9, x10
	eor	w11, w11, w13, lsr #8
	eor	w11, w11, w11, lsr #4
	orr	w8, w11, w8, lsl #8
	eor	w8, w8, w11, lsl #12
	eor	w8, w8, w11, lsl #5
	b.ne	602b
	ubfx	w10, w8, #8, #8
690:
	orr	w8, w10, w8, lsl #8
	strh	w8, [x21, x23]
	cbz	x22, 738f
	mov	x0, x20
	bl	rattle_dealloc
738:
	strh	wzr, [x19]
	strb	wzr, [x19, #2]
	stp	x21, x24, [x19, #8]
	str	x24, [x19, #24]
	ldp	x20, x19, [sp, #48]
	ldp	x22, x21, [sp, #32]
	ldp	x24, x23, [sp, #16]
	ldp	x29, x30, [sp], #64
	ret
174:
	brk	#0x1
	.section	.rodata.cst16,"aM",@progbits,16
	.p2align	4
.LC99d712ea_0:
	.xword	7310596056926023526
	.xword	3346860010425884786
	.section	.rodata.cst8,"aM",@progbits,8
	.p2align	3
.LC99d712ea_1:
	.hword	2
	.hword	41
	.hword	15
	.hword	0
	.section	.text.tc_make.explained.write_whole_frame._5349ec06ad6c886c,"ax",@progbits
	.p2align	2
tc_make.explained.write_whole_frame._5349ec06ad6c886c:
	stp	x29, x30, [sp, #-96]!
	stp	x28, x27, [sp, #16]
	mov	x29, sp
	stp	x26, x25, [sp, #32]
	stp	x24, x23, [sp, #48]
	stp	x22, x21, [sp, #64]
	stp	x20, x19, [sp, #80]
	sub	sp, sp, #960
	movi	v0.2d, #0000000000000000
	cmp	x2, #5
	str	x3, [sp, #32]
	stp	q0, q0, [sp, #64]
	stp	q0, q0, [sp, #96]
	b.lo	174f
	ldrb	w27, [x1]
	mov	x23, x1
	tst	w27, #0xcccccccc
	b.ne	174f
	ldrb	w21, [x23, #3]
	ldrb	w9, [x23, #2]
	bfi	x21, x9, #8, #2
	cmp	w21, #5
	b.lo	174f
	add	x8, x21, #1
	cmp	x2, x8
	b.lo	174f
	ldrb	w10, [x23, #4]
	mov	x19, x0
	cmp	w27, #32
	add	x11, sp, #640
	str	x4, [sp, #40]
	str	w10, [sp, #12]
	str	x9, [sp, #16]
	b.hs	118f
	add	x8, x21, #1
	mov	w9, #3
	str	x8, [sp, #56]
	ands	w8, w27, #0x10
	csel	w9, w9, wzr, ne
	cmp	w10, #0
	str	w9, [sp, #52]
	cset	w9, eq
	orr	w8, w9, w8, lsr #4
	stp	wzr, w8, [sp, #24]
	b	939f
118:
	tbz	w27, #4, 62f
	cmp	w21, #7
	b.eq	602f
	add	x8, x21, #1
	cmp	w21, #5
	str	x8, [sp, #56]
	b.ne	613f
	ldrb	w8, [x23, #5]
	cmp	w8, #0
	mov	w8, #2
	cinc	w8, w8, ne
	str	w8, [sp, #52]
	mov	w8, #1
	stp	wzr, w8, [sp, #24]
	b	939f
62:
	add	x8, x21, #1
	str	x8, [sp, #56]
	mov	w8, #1
	str	w8, [sp, #52]
	stp	wzr, w8, [sp, #24]
	b	939f
602:
	ldrb	w8, [x23, #5]
	cmp	w8, #130
	b.ne	62f
	ldrb	w8, [x23, #6]
	cbz	w8, 316f
62:
	add	x8, x21, #1
	str	x8, [sp, #56]
613:
	mov	w8, #1
	stp	wzr, w8, [sp, #24]
	mov	w8, #3
893:
	str	w8, [sp, #52]
939:
	adrp	x8, .LTbe31a6ac
	add	x8, x8, :lo12:.LTbe31a6ac
	adrp	x9, .LTa951a33e
	add	x9, x9, :lo12:.LTa951a33e
	tst	w27, #0x10
	adrp	x10, .LTe5e5d9bb
	add	x10, x10, :lo12:.LTe5e5d9bb
	csel	x8, x9, x8, eq
	adrp	x9, .LTb44569c2
	add	x9, x9, :lo12:.LTb44569c2
	mov	x28, #-1
	mov	w22, #32
	csel	x9, x10, x9, eq
	ldrb	w26, [x23, #1]
	cmp	w27, #32
	adrp	x1, .LT2e88633b
	add	x1, x1, :lo12:.LT2e88633b
	sub	x0, x29, #224
	mov	w2, #7
	stp	q0, q0, [sp, #128]
	mov	x20, x5
	stp	q0, q0, [sp, #160]
	csel	x24, x9, x8, lo
	sub	x25, x29, #224
	stp	q0, q0, [sp, #192]
	stp	q0, q0, [sp, #224]
	stp	q0, q0, [sp, #256]
	stp	q0, q0, [sp, #288]
	stp	q0, q0, [sp, #320]
	stp	q0, q0, [sp, #352]
	stp	q0, q0, [sp, #384]
	stp	q0, q0, [sp, #416]
	stur	x5, [x29, #-224]
	stur	q0, [x11, #104]
	stur	q0, [x11, #120]
	stur	q0, [x11, #136]
	stur	q0, [x11, #152]
	stur	q0, [x11, #168]
	stur	q0, [x11, #184]
	stp	xzr, xzr, [x29, #-96]
	stur	w22, [x29, #-120]
	stur	xzr, [x11, #204]
	stur	wzr, [x29, #-108]
	stur	x28, [x29, #-104]
	bl	std.io.traits.AdapterWrite.write_str._5349ec06ad6c886c
	and	w8, w0, #0xff
	tbz	w8, #0, 232f
	mov	w8, wzr
	mov	x26, x20
	sub	x22, x29, #224
	add	x25, sp, #640
	b	257f
232:
	ldur	x8, [x29, #-96]
	stur	w22, [x29, #-120]
	sub	x22, x29, #224
	sub	x0, x29, #224
	mov	x1, x24
	mov	w2, #2
	stur	xzr, [x25, #108]
	stur	wzr, [x25, #116]
	stur	x28, [x29, #-104]
	cbnz	x8, 498f
	bl	std.io.traits.AdapterWrite.write_str._5349ec06ad6c886c
	and	w8, w0, #0xff
	add	x25, sp, #640
	tbnz	w8, #0, 983f
613:
	mov	w8, #32
	ldur	x9, [x29, #-96]
	adrp	x1, .LTe393c96b
	add	x1, x1, :lo12:.LTe393c96b
	stur	w8, [x29, #-120]
	mov	x8, #-1
	sub	x0, x29, #224
	mov	w2, #6
	stur	xzr, [x22, #108]
	stur	wzr, [x22, #116]
	stur	x8, [x29, #-104]
	cbnz	x9, 412f
	bl	std.io.traits.AdapterWrite.write_str._5349ec06ad6c886c
	and	w8, w0, #0xff
	tbz	w8, #0, 455f
983:
	mov	w8, wzr
	mov	x26, x20
257:
	ldurb	w9, [x29, #-216]
	cmp	x9, #1
	b.ne	922f
	ldur	q0, [x22, #40]
	ldur	q2, [x22, #56]
	ldur	s1, [x29, #-208]
	ldur	q3, [x22, #72]
	ldur	w8, [x29, #-204]
	stp	q0, q2, [sp, #448]
	ushll	v1.8h, v1.8b, #0
	ldur	q2, [x22, #88]
	ldur	q0, [x25, #120]
	stp	q3, q2, [sp, #480]
	b	976f
922:
	tbz	w8, #0, 922f
	movi	v0.2d, #0000000000000000
	mov	x22, #-1
	mov	w24, #32
	adrp	x1, .LT26126e75
	add	x1, x1, :lo12:.LT26126e75
	sub	x0, x29, #224
	mov	w2, #8
	stur	x26, [x29, #-224]
	sub	x20, x29, #224
	stp	xzr, xzr, [x29, #-96]
	stp	q0, q0, [sp, #512]
	stp	q0, q0, [sp, #544]
	stp	q0, q0, [sp, #576]
	stp	q0, q0, [sp, #608]
	stur	q0, [x25, #104]
	stur	q0, [x25, #120]
	stur	q0, [x25, #136]
	stur	q0, [x25, #152]
	stur	q0, [x25, #168]
	stur	q0, [x25, #184]
	stur	xzr, [x25, #204]
	stur	w24, [x29, #-120]
	stur	wzr, [x29, #-108]
	stur	x22, [x29, #-104]
	bl	std.io.traits.AdapterWrite.write_str._5349ec06ad6c886c
	and	w8, w0, #0xff
	tbz	w8, #0, 118f
	ldr	x21, [sp, #56]
	mov	w9, #1
	b	320f
922:
	movi	v2.16b, #46
	adrp	x9, .LC99d712ea_0
	adrp	x10, .LC99d712ea_1
	ldr	q0, [x9, :lo12:.LC99d712ea_0]
	ldr	d1, [x10, :lo12:.LC99d712ea_1]
	mov	w8, wzr
	stp	q2, q2, [sp, #448]
	stp	q2, q2, [sp, #480]
976:
	ldp	q2, q3, [sp, #448]
	stp	q2, q3, [sp, #256]
	ldp	q2, q4, [sp, #480]
	stp	q2, q4, [sp, #288]
976:
	ldp	q2, q3, [sp, #256]
	stp	q2, q3, [sp, #128]
	ldp	q2, q4, [sp, #288]
	stp	q2, q4, [sp, #160]
681:
	ldp	q2, q3, [sp, #128]
	mov	w9, #1
	stp	q2, q3, [sp, #64]
	ldp	q2, q4, [sp, #160]
598:
	stp	q2, q4, [sp, #96]
	uzp1	v1.8b, v1.8b, v0.8b
	ldp	q2, q3, [sp, #64]
	strb	w9, [x19]
	stp	q0, q2, [x19, #16]
	str	s1, [x19, #8]
	ldp	q0, q1, [sp, #96]
	str	w8, [x19, #12]
	stp	q3, q0, [x19, #48]
	str	q1, [x19, #80]
	add	sp, sp, #960
	ldp	x20, x19, [sp, #80]
	ldp	x22, x21, [sp, #64]
	ldp	x24, x23, [sp, #48]
	ldp	x26, x25, [sp, #32]
	ldp	x28, x27, [sp, #16]
	ldp	x29, x30, [sp], #96
	ret
118:
	cmp	w21, #99
	stur	w24, [x29, #-120]
	stur	xzr, [x20, #108]
	stur	wzr, [x20, #116]
	stur	x22, [x29, #-104]
	str	xzr, [sp, #648]
	str	xzr, [sp, #640]
	str	xzr, [sp, #656]
	b.lo	93f
	ldr	x21, [sp, #56]
	mov	w8, #1311
	mov	w9, #100
	mov	w10, #205
	add	x12, x25, #22
	mul	w8, w21, w8
	lsr	w8, w8, #17
	msub	w9, w8, w9, w21
	and	w11, w9, #0xff
	mul	w10, w11, w10
	mov	w11, #10
	lsr	w10, w10, #11
	msub	w9, w10, w11, w9
	orr	w10, w10, #0x30
	strb	w10, [sp, #662]
	orr	w9, w9, #0x30
	strb	w9, [sp, #663]
	mov	w9, #22
	cmp	x8, #10
	b.lo	625f
447:
	and	w10, w8, #0xff
	mov	w11, #205
	sub	x9, x9, #2
	mul	w10, w10, w11
	mov	w11, #10
	lsr	w10, w10, #11
	msub	w8, w10, w11, w8
	orr	w10, w10, #0x30
	sturb	w10, [x12, #-2]
	orr	w8, w8, #0x30
	sturb	w8, [x12, #-1]
	b	62f
93:
	ldr	x21, [sp, #56]
	mov	w9, #24
	add	x12, x25, #24
	mov	x8, x21
	cmp	x21, #10
	b.hs	447b
625:
	sub	x9, x9, #1
	add	x10, sp, #640
	orr	w8, w8, #0x30
	strb	w8, [x10, x9]
62:
	add	x8, sp, #640
	ldur	x10, [x29, #-96]
	mov	w11, #24
	add	x1, x8, x9
	mov	w8, #45
	sub	x2, x11, x9
	sub	x0, x29, #224
	sturb	w8, [x1, #-1]
	cbnz	x10, 970f
	bl	std.io.traits.AdapterWrite.write_str._5349ec06ad6c886c
	and	w8, w0, #0xff
	tbnz	w8, #0, 911f
187:
	mov	w8, #32
	ldur	x9, [x29, #-96]
	adrp	x1, .LT72def174
	add	x1, x1, :lo12:.LT72def174
	stur	w8, [x29, #-120]
	mov	x8, #-1
	sub	x0, x29, #224
	mov	w2, #6
	stur	xzr, [x20, #108]
	stur	wzr, [x20, #116]
	stur	x8, [x29, #-104]
	cbnz	x9, 110f
	bl	std.io.traits.AdapterWrite.write_str._5349ec06ad6c886c
	and	w8, w0, #0xff
	tbnz	w8, #0, 911f
32:
	mov	w8, #32
	stur	xzr, [x20, #108]
	stur	w8, [x29, #-120]
	mov	x8, #-1
	stur	x8, [x29, #-104]
	ldr	x8, [sp, #40]
	stur	wzr, [x20, #116]
	cmp	x8, #100
	str	xzr, [sp, #648]
	str	xzr, [sp, #640]
	str	xzr, [sp, #656]
	b.lo	613f
	mov	x9, xzr
943:
	mov	x11, #62915
	mov	x10, x8
	lsr	x8, x8, #2
	movk	x11, #23592, lsl #16
	mov	w12, #205
	movk	x11, #49807, lsl #32
	movk	x11, #10485, lsl #48
	umulh	x8, x8, x11
	mov	w11, #100
	lsr	x8, x8, #2
	msub	w11, w8, w11, w10
	lsr	x10, x10, #4
	cmp	x10, #624
	and	w13, w11, #0xff
	mul	w12, w13, w12
	mov	w13, #10
	lsr	w12, w12, #11
	msub	w11, w12, w13, w11
	add	x13, sp, #640
	orr	w10, w12, #0x30
	add	x13, x13, x9
	sub	x9, x9, #2
	strb	w10, [x13, #22]
	orr	w11, w11, #0x30
	strb	w11, [x13, #23]
	b.hi	943b
	add	x9, x9, #24
	b	118f
498:
	bl	core.fmt.formatter.Formatter.write_indented._1ac78889755d2eb3
	and	w8, w0, #0xff
	add	x25, sp, #640
	tbnz	w8, #0, 983b
	b	613b
316:
	add	x8, x21, #1
	str	x8, [sp, #56]
	ldrb	w8, [x23, #7]
	stp	w8, wzr, [sp, #24]
	mov	w8, #2
	b	893b
613:
	mov	w9, #24
118:
	cmp	x8, #10
	b.lo	625f
	and	w10, w8, #0xff
	mov	w11, #205
	mul	w10, w10, w11
	mov	w11, #10
	lsr	w10, w10, #11
	msub	w8, w10, w11, w8
	add	x11, sp, #640
	orr	w10, w10, #0x30
	add	x11, x11, x9
	sub	x9, x9, #2
	sturb	w10, [x11, #-2]
	orr	w8, w8, #0x30
	sturb	w8, [x11, #-1]
	b	62f
625:
	sub	x9, x9, #1
	add	x10, sp, #640
	orr	w8, w8, #0x30
	strb	w8, [x10, x9]
62:
	add	x8, sp, #640
	ldur	x10, [x29, #-96]
	mov	w11, #24
	add	x1, x8, x9
	mov	w8, #45
	sub	x2, x11, x9
	sub	x0, x29, #224
	sturb	w8, [x1, #-1]
	cbnz	x10, 873f
	bl	std.io.traits.AdapterWrite.write_str._5349ec06ad6c886c
	and	w8, w0, #0xff
	tbnz	w8, #0, 911f
613:
	mov	w8, #32
	ldur	x9, [x29, #-96]
	adrp	x1, .LT3235efc0
	add	x1, x1, :lo12:.LT3235efc0
	stur	w8, [x29, #-120]
	mov	x8, #-1
	sub	x0, x29, #224
	mov	w2, #1
	stur	xzr, [x20, #108]
	stur	wzr, [x20, #116]
	stur	x8, [x29, #-104]
	cbnz	x9, 563f
	bl	std.io.traits.AdapterWrite.write_str._5349ec06ad6c886c
447:
	and	w9, w0, #0xff
	b	320f
412:
	bl	core.fmt.formatter.Formatter.write_indented._1ac78889755d2eb3
	and	w8, w0, #0xff
	tbnz	w8, #0, 983b
455:
	bfi	w26, w27, #8, #2
	mov	w8, #32
	stur	xzr, [x22, #108]
	stur	w8, [x29, #-120]
	mov	x8, #-1
	cmp	w26, #100
	stur	wzr, [x22, #116]
	stur	x8, [x29, #-104]
	str	xzr, [sp, #648]
	str	xzr, [sp, #640]
	str	xzr, [sp, #656]
	b.lo	983f
	mov	w8, #656
	mov	w10, #205
	mul	w8, w26, w8
	lsr	w9, w8, #16
	mov	w8, #100
	msub	w8, w9, w8, w26
	mov	w26, w9
	add	x9, x25, #22
	and	w11, w8, #0xff
	mul	w10, w11, w10
	mov	w11, #10
	lsr	w10, w10, #11
	msub	w8, w10, w11, w8
	orr	w10, w10, #0x30
	strb	w10, [sp, #662]
	orr	w8, w8, #0x30
	strb	w8, [sp, #663]
	mov	w8, #22
	cmp	w26, #10
	b.hs	192f
625:
	sub	x8, x8, #1
	add	x9, sp, #640
	orr	w10, w26, #0x30
	strb	w10, [x9, x8]
	b	62f
983:
	mov	w8, #24
	add	x9, x25, #24
	cmp	w26, #10
	b.lo	625b
192:
	and	w10, w26, #0xff
	mov	w11, #205
	sub	x8, x8, #2
	mul	w10, w10, w11
	mov	w11, #10
	lsr	w10, w10, #11
	msub	w11, w10, w11, w26
	orr	w10, w10, #0x30
	sturb	w10, [x9, #-2]
	orr	w11, w11, #0x30
	sturb	w11, [x9, #-1]
62:
	add	x9, sp, #640
	ldur	x10, [x29, #-96]
	mov	w11, #24
	add	x1, x9, x8
	mov	w9, #45
	sub	x2, x11, x8
	mov	x26, x20
	sub	x0, x29, #224
	sturb	w9, [x1, #-1]
	cbnz	x10, 498f
	bl	std.io.traits.AdapterWrite.write_str._5349ec06ad6c886c
	and	w8, w0, #0xff
	tbnz	w8, #0, 32f
983:
	mov	w8, #32
	ldur	x9, [x29, #-96]
	adrp	x1, .LTbd6cf3c6
	add	x1, x1, :lo12:.LTbd6cf3c6
	stur	w8, [x29, #-120]
	mov	x8, #-1
	sub	x0, x29, #224
	mov	w2, #4
	stur	xzr, [x22, #108]
	stur	wzr, [x22, #116]
	stur	x8, [x29, #-104]
	cbnz	x9, 412f
	bl	std.io.traits.AdapterWrite.write_str._5349ec06ad6c886c
	and	w8, w0, #0xff
	tbnz	w8, #0, 32f
943:
	mov	w8, #32
	stur	xzr, [x22, #108]
	stur	w8, [x29, #-120]
	mov	x8, #-1
	stur	x8, [x29, #-104]
	ldr	x8, [sp, #16]
	stur	wzr, [x22, #116]
	and	w9, w8, #0xff
	str	xzr, [sp, #648]
	lsr	w8, w9, #2
	cmp	w9, #40
	str	xzr, [sp, #640]
	stur	xzr, [x25, #15]
	b.lo	62f
	mov	w10, #39322
	mov	w11, #26215
	mov	w2, #2
	movk	w10, #6553, lsl #16
	movk	w11, #1638, lsl #16
	add	x1, x25, #22
	umull	x10, w8, w10
	umull	x9, w9, w11
	mov	w11, #10
	lsr	x10, x10, #32
	lsr	x9, x9, #32
	msub	w8, w10, w11, w8
	orr	w9, w9, #0x30
	strb	w9, [sp, #662]
	b	690f
970:
	bl	core.fmt.formatter.Formatter.write_indented._1ac78889755d2eb3
	and	w8, w0, #0xff
	tbnz	w8, #0, 911f
	b	187b
62:
	add	x1, x25, #23
	mov	w2, #1
690:
	orr	w8, w8, #0x30
	ldur	x9, [x29, #-96]
	sub	x0, x29, #224
	strb	w8, [sp, #663]
	mov	w8, #45
	sturb	w8, [x1, #-1]
	cbnz	x9, 970f
	bl	std.io.traits.AdapterWrite.write_str._5349ec06ad6c886c
	and	w8, w0, #0xff
	tbnz	w8, #0, 32f
187:
	mov	w8, #32
	ldur	x9, [x29, #-96]
	adrp	x1, .LT498e0c89
	add	x1, x1, :lo12:.LT498e0c89
	stur	w8, [x29, #-120]
	mov	x8, #-1
	sub	x0, x29, #224
	mov	w2, #4
	stur	xzr, [x22, #108]
	stur	wzr, [x22, #116]
	stur	x8, [x29, #-104]
	cbnz	x9, 672f
	bl	std.io.traits.AdapterWrite.write_str._5349ec06ad6c886c
	and	w8, w0, #0xff
	tbnz	w8, #0, 32f
93:
	ldr	w10, [sp, #12]
	mov	w8, #32
	stur	xzr, [x22, #108]
	stur	w8, [x29, #-120]
	mov	x8, #-1
	cmp	w10, #100
	stur	wzr, [x22, #116]
	stur	x8, [x29, #-104]
	str	xzr, [sp, #648]
	str	xzr, [sp, #640]
	str	xzr, [sp, #656]
	b.lo	280f
	mov	w8, #41
	mul	w8, w10, w8
	lsr	w9, w8, #12
	mov	w8, #100
	msub	w8, w9, w8, w10
	mov	w10, #205
	and	w11, w8, #0xff
	mul	w10, w11, w10
	mov	w11, #10
	lsr	w10, w10, #11
	msub	w8, w10, w11, w8
	orr	w10, w10, #0x30
	strb	w10, [sp, #662]
	orr	w8, w8, #0x30
	strb	w8, [sp, #663]
	mov	w8, #21
	b	62f
498:
	bl	core.fmt.formatter.Formatter.write_indented._1ac78889755d2eb3
	and	w8, w0, #0xff
	tbnz	w8, #0, 32f
	b	983b
110:
	bl	core.fmt.formatter.Formatter.write_indented._1ac78889755d2eb3
	and	w8, w0, #0xff
	tbnz	w8, #0, 911f
	b	32b
412:
	bl	core.fmt.formatter.Formatter.write_indented._1ac78889755d2eb3
	and	w8, w0, #0xff
	tbnz	w8, #0, 32f
	b	943b
873:
	bl	core.fmt.formatter.Formatter.write_indented._1ac78889755d2eb3
	and	w8, w0, #0xff
	tbz	w8, #0, 613b
911:
	mov	w9, #1
320:
	movi	v2.2d, #0000000000000000
	ldurb	w10, [x29, #-216]
	ldur	s1, [x29, #-208]
	ldur	w8, [x29, #-204]
	ldur	q0, [x25, #120]
	cmp	x10, #1
	stp	q2, q2, [sp, #640]
	stp	q2, q2, [sp, #672]
	b.ne	613f
	ldur	q2, [x20, #40]
	ldur	q3, [x20, #56]
	mov	w9, wzr
	ldur	q4, [x20, #72]
	ushll	v1.8h, v1.8b, #0
	stp	q2, q3, [sp, #640]
	ldur	q2, [x20, #88]
	stp	q4, q2, [sp, #672]
	b	989f
613:
	mov	w8, wzr
	cbz	w9, 922f
	movi	v2.16b, #46
	adrp	x10, .LC99d712ea_0
	adrp	x11, .LC99d712ea_1
	ldr	q0, [x10, :lo12:.LC99d712ea_0]
	ldr	d1, [x11, :lo12:.LC99d712ea_1]
	mov	w9, wzr
	stp	q2, q2, [sp, #640]
	stp	q2, q2, [sp, #672]
	b	989f
922:
	movi	v1.2d, #0000000000000000
	movi	v0.2d, #0000000000000000
	mov	w9, #1
989:
	ldp	q2, q3, [sp, #640]
	ldp	q5, q4, [sp, #672]
	stp	q2, q3, [sp, #512]
	stp	q3, q5, [sp, #400]
	str	q4, [sp, #432]
	ldp	q4, q3, [sp, #416]
	str	q2, [sp, #384]
	stp	q4, q3, [sp, #288]
	ldp	q3, q2, [sp, #384]
	stp	q3, q2, [sp, #256]
	cbz	w9, 976b
	movi	v0.2d, #0000000000000000
	ldr	w8, [sp, #52]
	sub	x4, x21, #5
	cmp	w8, #1
	stp	q0, q0, [sp, #640]
	stp	q0, q0, [sp, #672]
	stp	q0, q0, [sp, #704]
	b.gt	118f
	add	x0, sp, #640
	add	x1, x23, #5
	mov	x2, x4
	mov	x3, x26
	bl	tc_make.explained.write_carried._5349ec06ad6c886c
	b	976f
118:
	cmp	w8, #2
	b.ne	939f
	ldr	w8, [sp, #28]
	tbz	w8, #0, 659f
	mov	w8, #32
	adrp	x1, .LTb92a41d7
	add	x1, x1, :lo12:.LTb92a41d7
	stur	w8, [x29, #-120]
	mov	x8, #-1
	sub	x0, x29, #224
	mov	w2, #15
	stur	x26, [x29, #-224]
	stur	q0, [x25, #104]
	stur	q0, [x25, #120]
	stur	q0, [x25, #136]
	stur	q0, [x25, #152]
	stur	q0, [x25, #168]
	stur	q0, [x25, #184]
	stp	xzr, xzr, [x29, #-96]
	stur	xzr, [x25, #204]
	stur	wzr, [x29, #-108]
	stur	x8, [x29, #-104]
	bl	std.io.traits.AdapterWrite.write_str._5349ec06ad6c886c
	movi	v2.2d, #0000000000000000
	ldurb	w9, [x29, #-216]
	ldur	s1, [x29, #-208]
	ldur	w8, [x29, #-204]
	ldur	q0, [x25, #120]
	cmp	x9, #1
	stp	q2, q2, [x29, #-80]
	stp	q2, q2, [x29, #-48]
	b.ne	192f
	ldur	q2, [x25, #136]
	ldur	q3, [x25, #152]
	ushll	v1.8h, v1.8b, #0
	ldur	q4, [x25, #168]
	stp	q2, q3, [x29, #-80]
	ldur	q2, [x25, #184]
	stp	q4, q2, [x29, #-48]
	b	39f
939:
	adrp	x1, .LTcda36f6b
	add	x1, x1, :lo12:.LTcda36f6b
	add	x0, sp, #640
	add	x3, x23, #5
	mov	w2, #7
	mov	x5, x26
	bl	tc_make.printed.write_named._5349ec06ad6c886c
	b	976f
659:
	ldr	w8, [sp, #24]
	mov	w9, #14
	add	x0, sp, #640
	sub	x2, x29, #224
	mov	x1, x26
	strb	w8, [sp, #576]
	adrp	x8, .LT5ce8bbff
	add	x8, x8, :lo12:.LT5ce8bbff
	stp	x8, x9, [x29, #-224]
	add	x8, sp, #576
	adrp	x9, .LT3235efc0
	add	x9, x9, :lo12:.LT3235efc0
	stp	x8, x9, [x29, #-208]
	mov	w8, #1
	stur	x8, [x29, #-192]
	bl	std.io.traits.Write.write_fmt._2163a20560420d27
	b	976f
192:
	and	w8, w0, #0xff
	cbz	w8, 922f
	movi	v2.16b, #46
	adrp	x9, .LC99d712ea_0
	adrp	x10, .LC99d712ea_1
	ldr	q0, [x9, :lo12:.LC99d712ea_0]
	ldr	d1, [x10, :lo12:.LC99d712ea_1]
	mov	w8, wzr
	mov	w9, #1
	stp	q2, q2, [x29, #-80]
	stp	q2, q2, [x29, #-48]
	b	39f
922:
	movi	v1.2d, #0000000000000000
	movi	v0.2d, #0000000000000000
	mov	w9, wzr
39:
	uzp1	v1.8b, v1.8b, v0.8b
	ldp	q2, q3, [x29, #-80]
	strb	w9, [sp, #640]
	str	w8, [sp, #652]
	stp	q0, q2, [sp, #656]
	str	s1, [sp, #648]
	ldp	q0, q1, [x29, #-48]
	stp	q3, q0, [sp, #688]
	str	q1, [sp, #720]
976:
	ldp	q3, q1, [sp, #704]
	ldr	q4, [sp, #688]
	ldp	q0, q2, [sp, #656]
	ldrb	w9, [sp, #640]
	ldr	w8, [sp, #652]
	stp	q3, q1, [sp, #160]
	ldr	s1, [sp, #648]
	str	q2, [sp, #320]
	stp	q2, q4, [sp, #128]
	cbz	w9, 922f
	ushll	v1.8h, v1.8b, #0
	b	681b
922:
	movi	v0.2d, #0000000000000000
	ldr	x4, [sp, #40]
	cmp	x4, #6
	stp	q0, q0, [x29, #-224]
	stp	q0, q0, [x29, #-192]
	stp	q0, q0, [x29, #-160]
	b.hi	659f
	cmp	x4, #5
	b.lo	922f
	ldr	x8, [sp, #32]
	ldrb	w8, [x8]
	tst	w8, #0xcccccccc
	b.eq	976f
922:
	movi	v2.2d, #0000000000000000
	mov	w8, wzr
	mov	w9, wzr
	movi	v1.2d, #0000000000000000
	stp	q2, q2, [sp, #192]
	stp	q2, q2, [sp, #224]
	b	681f
976:
	ldp	x9, x4, [sp, #32]
	ldrb	w8, [x9, #3]
	ldrb	w9, [x9, #2]
	bfi	w8, w9, #8, #2
	cmp	w8, #5
	b.lo	922b
	add	w8, w8, #1
	cmp	x4, x8
	b.lo	922b
659:
	ldr	x3, [sp, #32]
	adrp	x1, .LT54ed9b2a
	add	x1, x1, :lo12:.LT54ed9b2a
	sub	x0, x29, #224
	mov	w2, #4
	mov	x5, x26
	bl	tc_make.printed.write_named._5349ec06ad6c886c
	ldp	q1, q3, [x29, #-192]
	ldur	s2, [x29, #-216]
	ldur	q0, [x29, #-208]
	ldurb	w9, [x29, #-224]
	ldur	w8, [x29, #-212]
	stp	q1, q3, [sp, #192]
	ushll	v1.8h, v2.8b, #0
	ldp	q4, q2, [x29, #-160]
	stp	q4, q2, [sp, #224]
681:
	ldp	q2, q3, [sp, #192]
	stp	q2, q3, [sp, #64]
	ldp	q2, q4, [sp, #224]
	b	598b
280:
	cmp	w10, #10
	b.lo	613f
	mov	w8, #205
	mov	w9, #10
	mul	w8, w10, w8
	lsr	w8, w8, #11
	msub	w9, w8, w9, w10
	orr	w8, w8, #0x30
	strb	w8, [sp, #662]
	mov	w8, #22
	orr	w9, w9, #0x30
	strb	w9, [sp, #663]
	b	316f
970:
	bl	core.fmt.formatter.Formatter.write_indented._1ac78889755d2eb3
	and	w8, w0, #0xff
	tbnz	w8, #0, 32f
	b	187b
613:
	mov	w8, #23
	mov	w9, w10
62:
	add	x10, sp, #640
	orr	w9, w9, #0x30
	strb	w9, [x10, x8]
316:
	add	x9, sp, #640
	ldur	x10, [x29, #-96]
	mov	w11, #24
	add	x1, x9, x8
	mov	w9, #45
	sub	x2, x11, x8
	sub	x0, x29, #224
	sturb	w9, [x1, #-1]
	cbnz	x10, 498f
	bl	std.io.traits.AdapterWrite.write_str._5349ec06ad6c886c
192:
	and	w8, w0, #0xff
	cmp	w8, #0
	cset	w8, eq
	b	257b
563:
	bl	core.fmt.formatter.Formatter.write_indented._1ac78889755d2eb3
	b	447b
672:
	bl	core.fmt.formatter.Formatter.write_indented._1ac78889755d2eb3
	and	w8, w0, #0xff
	tbz	w8, #0, 93b
32:
	mov	w8, wzr
	b	257b
498:
	bl	core.fmt.formatter.Formatter.write_indented._1ac78889755d2eb3
	b	192b
174:
	brk	#0x1
	.section	.rodata.cst16,"aM",@progbits,16
	.p2align	4
.LCc9e02fc4_0:
	.xword	7310596056926023526
	.xword	3346860010425884786
	.section	.rodata.cst8,"aM",@progbits,8
	.p2align	3
.LCc9e02fc4_1:
	.hword	2
	.hword	41
	.hword	15
	.hword	0
	.section	.text.tc_make.explained.write_carried._5349ec06ad6c886c,"ax",@progbits
	.p2align	2
tc_make.explained.write_carried._5349ec06ad6c886c:
	stp	x29, x30, [sp, #-96]!
	stp	x28, x27, [sp, #16]
	mov	x29, sp
	stp	x26, x25, [sp, #32]
	stp	x24, x23, [sp, #48]
	stp	x22, x21, [sp, #64]
	stp	x20, x19, [sp, #80]
	sub	sp, sp, #656
	movi	v0.2d, #0000000000000000
	mov	x19, x0
	stp	q0, q0, [sp, #48]
	stp	q0, q0, [sp, #80]
	stp	q0, q0, [sp, #112]
	stp	q0, q0, [sp, #144]
	cbz	x2, 560f
	mov	x21, x1
	adrp	x8, .Lswitch.table.tc_make.explained.write_carried._5349ec06ad6c886c
	add	x8, x8, :lo12:.Lswitch.table.tc_make.explained.write_carried._5349ec06ad6c886c
	ldrb	w20, [x21], #1
	adrp	x9, .Lswitch.table.tc_make.explained.write_carried._5349ec06ad6c886c_.640
	add	x9, x9, :lo12:.Lswitch.table.tc_make.explained.write_carried._5349ec06ad6c886c_.640
	mov	x22, x2
	add	x10, sp, #368
	lsr	w27, w20, #6
	mov	x23, #-1
	mov	w26, #32
	adrp	x1, .LTda085ef3
	add	x1, x1, :lo12:.LTda085ef3
	sub	x0, x29, #224
	ldr	x24, [x8, w27, uxtw #3]
	ldr	x25, [x9, w27, uxtw #3]
	sub	x8, x2, #1
	mov	w2, #8
	stp	q0, q0, [sp, #240]
	sub	x28, x29, #224
	stp	q0, q0, [sp, #272]
	stp	q0, q0, [sp, #304]
	stp	q0, q0, [sp, #336]
	stp	x8, x3, [sp, #32]
	stur	x3, [x29, #-224]
	stur	q0, [x10, #72]
	stur	q0, [x10, #88]
	stur	q0, [x10, #104]
	stur	q0, [x10, #120]
	stur	q0, [x10, #136]
	stur	q0, [x10, #152]
	stp	xzr, xzr, [x29, #-96]
	stur	w26, [x29, #-120]
	stur	xzr, [x10, #172]
	stur	wzr, [x29, #-108]
	stur	x23, [x29, #-104]
	bl	std.io.traits.AdapterWrite.write_str._5349ec06ad6c886c
	tst	w0, #0xff
	b.ne	911f
	ldur	x8, [x29, #-96]
	sub	x0, x29, #224
	mov	x1, x25
	mov	x2, x24
	stur	w26, [x29, #-120]
	stur	xzr, [x28, #108]
	stur	wzr, [x28, #116]
	stur	x23, [x29, #-104]
	cbnz	x8, 498f
	bl	std.io.traits.AdapterWrite.write_str._5349ec06ad6c886c
	and	w8, w0, #0xff
	tbnz	w8, #0, 911f
613:
	mov	w8, #32
	ldur	x9, [x29, #-96]
	adrp	x1, .LTb35dea14
	add	x1, x1, :lo12:.LTb35dea14
	stur	w8, [x29, #-120]
	mov	x8, #-1
	sub	x0, x29, #224
	mov	w2, #5
	stur	xzr, [x28, #108]
	stur	wzr, [x28, #116]
	stur	x8, [x29, #-104]
	cbnz	x9, 412f
	bl	std.io.traits.AdapterWrite.write_str._5349ec06ad6c886c
	and	w8, w0, #0xff
	tbnz	w8, #0, 911f
983:
	mov	w8, #32
	add	x11, sp, #368
	stur	xzr, [x28, #108]
	stur	w8, [x29, #-120]
	mov	x8, #-1
	stur	x8, [x29, #-104]
	and	w8, w20, #0x3f
	cmp	w8, #10
	stur	wzr, [x28, #116]
	stp	xzr, xzr, [sp, #368]
	stur	xzr, [x11, #15]
	b.lo	62f
	mov	w9, #26
	mov	w10, #10
	add	x1, x11, #22
	mul	w9, w8, w9
	mov	w2, #2
	lsr	w9, w9, #8
	msub	w8, w9, w10, w8
	orr	w9, w9, #0x30
	strb	w9, [sp, #390]
	b	690f
560:
	strb	wzr, [x19]
	stur	q0, [x19, #8]
	stur	q0, [x19, #24]
	stur	q0, [x19, #40]
	stur	q0, [x19, #56]
	stur	q0, [x19, #72]
	str	xzr, [x19, #88]
	b	316f
62:
	add	x1, x11, #23
	mov	w2, #1
690:
	orr	w8, w8, #0x30
	ldur	x9, [x29, #-96]
	sub	x0, x29, #224
	strb	w8, [sp, #391]
	mov	w8, #45
	sturb	w8, [x1, #-1]
	cbnz	x9, 970f
	bl	std.io.traits.AdapterWrite.write_str._5349ec06ad6c886c
	and	w8, w0, #0xff
	tbnz	w8, #0, 911f
187:
	mov	w8, #32
	ldur	x9, [x29, #-96]
	adrp	x1, .LT26126e75
	add	x1, x1, :lo12:.LT26126e75
	stur	w8, [x29, #-120]
	mov	x8, #-1
	sub	x0, x29, #224
	mov	w2, #8
	stur	xzr, [x28, #108]
	stur	wzr, [x28, #116]
	stur	x8, [x29, #-104]
	cbnz	x9, 110f
	bl	std.io.traits.AdapterWrite.write_str._5349ec06ad6c886c
	and	w8, w0, #0xff
	tbnz	w8, #0, 911f
32:
	mov	w8, #32
	stur	xzr, [x28, #108]
	stur	w8, [x29, #-120]
	mov	x8, #-1
	stur	x8, [x29, #-104]
	sub	x8, x22, #1
	cmp	x8, #100
	stur	wzr, [x28, #116]
	stp	xzr, xzr, [sp, #368]
	str	xzr, [sp, #384]
	b.lo	613f
	mov	x9, xzr
	sub	x8, x22, #1
943:
	mov	x11, #62915
	mov	x10, x8
	lsr	x8, x8, #2
	movk	x11, #23592, lsl #16
	mov	w12, #205
	movk	x11, #49807, lsl #32
	movk	x11, #10485, lsl #48
	umulh	x8, x8, x11
	mov	w11, #100
	lsr	x8, x8, #2
	msub	w11, w8, w11, w10
	lsr	x10, x10, #4
	cmp	x10, #624
	and	w13, w11, #0xff
	mul	w12, w13, w12
	mov	w13, #10
	lsr	w12, w12, #11
	msub	w11, w12, w13, w11
	add	x13, sp, #368
	orr	w10, w12, #0x30
	add	x13, x13, x9
	sub	x9, x9, #2
	strb	w10, [x13, #22]
	orr	w11, w11, #0x30
	strb	w11, [x13, #23]
	b.hi	943b
	add	x9, x9, #24
	b	118f
498:
	bl	core.fmt.formatter.Formatter.write_indented._1ac78889755d2eb3
	and	w8, w0, #0xff
	tbnz	w8, #0, 911f
	b	613b
412:
	bl	core.fmt.formatter.Formatter.write_indented._1ac78889755d2eb3
	and	w8, w0, #0xff
	tbnz	w8, #0, 911f
	b	983b
613:
	mov	w9, #24
	sub	x8, x22, #1
118:
	cmp	x8, #10
	b.lo	625f
	and	w10, w8, #0xff
	mov	w11, #205
	mul	w10, w10, w11
	mov	w11, #10
	lsr	w10, w10, #11
	msub	w8, w10, w11, w8
	add	x11, sp, #368
	orr	w10, w10, #0x30
	add	x11, x11, x9
	sub	x9, x9, #2
	sturb	w10, [x11, #-2]
	orr	w8, w8, #0x30
	sturb	w8, [x11, #-1]
	b	62f
625:
	sub	x9, x9, #1
	add	x10, sp, #368
	orr	w8, w8, #0x30
	strb	w8, [x10, x9]
62:
	add	x8, sp, #368
	ldur	x10, [x29, #-96]
	mov	w11, #24
	add	x1, x8, x9
	mov	w8, #45
	sub	x2, x11, x9
	sub	x0, x29, #224
	sturb	w8, [x1, #-1]
	cbnz	x10, 498f
	bl	std.io.traits.AdapterWrite.write_str._5349ec06ad6c886c
	and	w8, w0, #0xff
	tbnz	w8, #0, 911f
613:
	mov	w8, #32
	ldur	x9, [x29, #-96]
	adrp	x1, .LT3235efc0
	add	x1, x1, :lo12:.LT3235efc0
	stur	w8, [x29, #-120]
	mov	x8, #-1
	sub	x0, x29, #224
	mov	w2, #1
	stur	xzr, [x28, #108]
	stur	wzr, [x28, #116]
	stur	x8, [x29, #-104]
	cbnz	x9, 873f
	bl	std.io.traits.AdapterWrite.write_str._5349ec06ad6c886c
447:
	and	w8, w0, #0xff
	b	257f
970:
	bl	core.fmt.formatter.Formatter.write_indented._1ac78889755d2eb3
	and	w8, w0, #0xff
	tbnz	w8, #0, 911f
	b	187b
110:
	bl	core.fmt.formatter.Formatter.write_indented._1ac78889755d2eb3
	and	w8, w0, #0xff
	tbnz	w8, #0, 911f
	b	32b
498:
	bl	core.fmt.formatter.Formatter.write_indented._1ac78889755d2eb3
	and	w8, w0, #0xff
	tbz	w8, #0, 613b
911:
	mov	w8, #1
257:
	ldurb	w9, [x29, #-216]
	cmp	x9, #1
	b.ne	922f
	ldur	q0, [x28, #40]
	ldur	q2, [x28, #56]
	add	x9, sp, #368
	ldur	s1, [x29, #-208]
	ldur	q3, [x28, #72]
	ldur	w8, [x29, #-204]
	stp	q0, q2, [sp, #368]
	ldur	q2, [x28, #88]
	ldur	q0, [x9, #88]
	ushll	v1.8h, v1.8b, #0
	stp	q3, q2, [sp, #400]
	b	976f
922:
	cbz	w8, 192f
	movi	v2.16b, #46
	adrp	x9, .LCc9e02fc4_0
	adrp	x10, .LCc9e02fc4_1
	ldr	q0, [x9, :lo12:.LCc9e02fc4_0]
	ldr	d1, [x10, :lo12:.LCc9e02fc4_1]
	mov	w8, wzr
	stp	q2, q2, [sp, #368]
	stp	q2, q2, [sp, #400]
976:
	ldp	q2, q3, [sp, #400]
	uzp1	v1.8b, v1.8b, v0.8b
	mov	w9, #1
	str	w8, [x19, #12]
	strb	w9, [x19]
	stp	q2, q3, [sp, #80]
	ldp	q4, q2, [sp, #368]
	str	s1, [x19, #8]
	stp	q4, q2, [sp, #48]
	ldp	q1, q2, [sp, #48]
	stp	q0, q1, [x19, #16]
	ldp	q0, q1, [sp, #80]
	stp	q2, q0, [x19, #48]
	str	q1, [x19, #80]
316:
	add	sp, sp, #656
	ldp	x20, x19, [sp, #80]
	ldp	x22, x21, [sp, #64]
	ldp	x24, x23, [sp, #48]
	ldp	x26, x25, [sp, #32]
	ldp	x28, x27, [sp, #16]
	ldp	x29, x30, [sp], #96
	ret
192:
	lsl	w8, w27, #3
	mov	w9, #1
	movi	v0.2d, #0000000000000000
	movk	w9, #770, lsl #16
	lsr	w8, w9, w8
	and	w8, w8, #0xff
	stp	q0, q0, [sp, #48]
	cmp	w8, #1
	stp	q0, q0, [sp, #80]
	stp	q0, q0, [sp, #176]
	stp	q0, q0, [sp, #208]
	b.gt	93f
	ldp	x4, x5, [sp, #32]
	b	922f
93:
	ldr	x5, [sp, #40]
	cmp	w8, #2
	sub	x4, x22, #1
	b.ne	118f
922:
	movi	v2.2d, #0000000000000000
	stp	q2, q2, [x29, #-224]
	stp	q2, q2, [x29, #-192]
	stp	q2, q2, [x29, #-160]
	cbz	x4, 613f
	adrp	x1, .LTb585f321
	add	x1, x1, :lo12:.LTb585f321
	sub	x0, x29, #224
	mov	w2, #4
	mov	x3, x21
	bl	tc_make.printed.write_named._5349ec06ad6c886c
	ldp	q0, q3, [x29, #-192]
	ldur	s2, [x29, #-216]
	ldur	q1, [x29, #-208]
	ldurb	w9, [x29, #-224]
	ldur	w8, [x29, #-212]
	stp	q0, q3, [sp, #176]
	ushll	v0.8h, v2.8b, #0
	ldp	q4, q2, [x29, #-160]
	stp	q4, q2, [sp, #208]
	b	39f
613:
	mov	w9, wzr
	mov	w8, wzr
	movi	v1.2d, #0000000000000000
	stp	q2, q2, [sp, #176]
	stp	q2, q2, [sp, #208]
	b	39f
118:
	cmp	x22, #8
	stp	q0, q0, [sp, #240]
	stp	q0, q0, [sp, #272]
	stp	q0, q0, [sp, #304]
	stp	q0, q0, [sp, #336]
	b.hs	625f
	mov	x8, x4
613:
	mov	x4, x8
	stp	q0, q0, [x29, #-224]
	stp	q0, q0, [x29, #-192]
	stp	q0, q0, [x29, #-160]
	cbz	x8, 922f
939:
	adrp	x1, .LTad2772d4
	add	x1, x1, :lo12:.LTad2772d4
	sub	x0, x29, #224
	mov	w2, #4
	mov	x3, x21
	bl	tc_make.printed.write_named._5349ec06ad6c886c
	ldp	q0, q3, [x29, #-192]
	ldur	s2, [x29, #-216]
	ldur	q1, [x29, #-208]
	ldurb	w9, [x29, #-224]
	ldur	w8, [x29, #-212]
	stp	q0, q3, [sp, #304]
	ushll	v0.8h, v2.8b, #0
	ldp	q4, q2, [x29, #-160]
	stp	q4, q2, [sp, #336]
	b	976f
625:
	sub	x24, x29, #224
602:
	ldrb	w28, [x21]
	cmp	w28, #31
	b.hi	320f
	ldrh	w8, [x21, #4]
	rev16	w8, w8
	add	x8, x8, #7
	str	x8, [sp, #32]
	subs	x8, x4, x8
	b.lo	320f
	movi	v0.2d, #0000000000000000
	str	x8, [sp, #24]
	ldrb	w25, [x21, #1]
	ldrb	w22, [x21, #2]
	ldrb	w27, [x21, #3]
	mov	w20, #32
	adrp	x8, .LT9a517a8e
	add	x8, x8, :lo12:.LT9a517a8e
	adrp	x9, .LTd2f6f45b
	add	x9, x9, :lo12:.LTd2f6f45b
	cmp	w28, #15
	mov	x26, #-1
	adrp	x1, .LT7f1de622
	add	x1, x1, :lo12:.LT7f1de622
	sub	x0, x29, #224
	mov	w2, #6
	stur	x5, [x29, #-224]
	csel	x23, x9, x8, hi
	stur	q0, [x24, #8]
	stur	q0, [x24, #24]
	stur	q0, [x24, #40]
	stur	q0, [x24, #56]
	stur	q0, [x24, #72]
	stur	q0, [x24, #88]
	stp	xzr, xzr, [x24, #128]
	stur	w20, [x29, #-120]
	stur	xzr, [x24, #108]
	stur	wzr, [x24, #116]
	stur	x26, [x29, #-104]
	bl	std.io.traits.AdapterWrite.write_str._5349ec06ad6c886c
	and	w8, w0, #0xff
	tbnz	w8, #0, 943f
	ldur	x8, [x29, #-96]
	sub	x0, x29, #224
	mov	x1, x23
	mov	w2, #2
	str	x27, [sp, #8]
	str	w22, [sp, #20]
	stur	w20, [x29, #-120]
	stur	xzr, [x24, #108]
	stur	wzr, [x24, #116]
	stur	x26, [x29, #-104]
	cbnz	x8, 498f
	bl	std.io.traits.AdapterWrite.write_str._5349ec06ad6c886c
	and	w8, w0, #0xff
	tbnz	w8, #0, 943f
983:
	mov	w8, #32
	ldur	x9, [x29, #-96]
	adrp	x1, .LTd36e0410
	add	x1, x1, :lo12:.LTd36e0410
	stur	w8, [x29, #-120]
	mov	x8, #-1
	sub	x0, x29, #224
	mov	w2, #6
	stur	xzr, [x24, #108]
	stur	wzr, [x24, #116]
	stur	x8, [x29, #-104]
	cbnz	x9, 412f
	bl	std.io.traits.AdapterWrite.write_str._5349ec06ad6c886c
	and	w8, w0, #0xff
	tbnz	w8, #0, 943f
455:
	bfi	w25, w28, #8, #3
	mov	w8, #32
	stur	xzr, [x24, #108]
	stur	w8, [x29, #-120]
	mov	x8, #-1
	cmp	w25, #100
	stur	wzr, [x24, #116]
	stur	x8, [x29, #-104]
	stp	xzr, xzr, [sp, #368]
	str	xzr, [sp, #384]
	b.lo	62f
	mov	w8, #1311
	mov	w10, #205
	mul	w8, w25, w8
	lsr	w9, w8, #17
	mov	w8, #100
	msub	w8, w9, w8, w25
	mov	w25, w9
	add	x9, sp, #368
	add	x9, x9, #22
	and	w11, w8, #0xff
	mul	w10, w11, w10
	mov	w11, #10
	lsr	w10, w10, #11
	msub	w8, w10, w11, w8
	orr	w10, w10, #0x30
	strb	w10, [sp, #390]
	orr	w8, w8, #0x30
	strb	w8, [sp, #391]
	mov	w8, #22
	b	118f
62:
	add	x9, sp, #368
	mov	w8, #24
	add	x9, x9, #24
118:
	cmp	w25, #10
	b.lo	625f
	and	w10, w25, #0xff
	mov	w11, #205
	sub	x8, x8, #2
	mul	w10, w10, w11
	mov	w11, #10
	lsr	w10, w10, #11
	msub	w11, w10, w11, w25
	orr	w10, w10, #0x30
	sturb	w10, [x9, #-2]
	orr	w11, w11, #0x30
	sturb	w11, [x9, #-1]
	b	62f
625:
	sub	x8, x8, #1
	add	x9, sp, #368
	orr	w10, w25, #0x30
	strb	w10, [x9, x8]
62:
	add	x9, sp, #368
	ldur	x10, [x29, #-96]
	mov	w11, #24
	add	x1, x9, x8
	mov	w9, #45
	sub	x2, x11, x8
	sub	x0, x29, #224
	sturb	w9, [x1, #-1]
	cbnz	x10, 970f
	bl	std.io.traits.AdapterWrite.write_str._5349ec06ad6c886c
	and	w8, w0, #0xff
	tbnz	w8, #0, 943f
187:
	mov	w8, #32
	ldur	x9, [x29, #-96]
	adrp	x1, .LTfa4383a8
	add	x1, x1, :lo12:.LTfa4383a8
	stur	w8, [x29, #-120]
	mov	x8, #-1
	sub	x0, x29, #224
	mov	w2, #7
	stur	xzr, [x24, #108]
	stur	wzr, [x24, #116]
	stur	x8, [x29, #-104]
	cbnz	x9, 110f
	bl	std.io.traits.AdapterWrite.write_str._5349ec06ad6c886c
	and	w8, w0, #0xff
	tbnz	w8, #0, 943f
93:
	ldr	w9, [sp, #20]
	ldr	x13, [sp, #8]
	mov	w8, #32
	stur	w8, [x29, #-120]
	mov	x8, #-1
	bfi	w13, w9, #8, #6
	stur	xzr, [x24, #108]
	stur	wzr, [x24, #116]
	cmp	w13, #100
	stur	x8, [x29, #-104]
	stp	xzr, xzr, [sp, #368]
	str	xzr, [sp, #384]
	b.lo	983f
	mov	x8, xzr
32:
	mov	x11, #62915
	lsr	x10, x13, #2
	mov	x9, x13
	movk	x11, #23592, lsl #16
	movk	x11, #49807, lsl #32
	movk	x11, #10485, lsl #48
	umulh	x10, x10, x11
	mov	w11, #205
	lsr	x13, x10, #2
	mov	w10, #100
	msub	w10, w13, w10, w9
	lsr	x9, x9, #4
	cmp	x9, #624
	and	w12, w10, #0xff
	mul	w11, w12, w11
	mov	w12, #10
	lsr	w11, w11, #11
	msub	w10, w11, w12, w10
	add	x12, sp, #368
	orr	w9, w11, #0x30
	add	x12, x12, x8
	sub	x8, x8, #2
	strb	w9, [x12, #22]
	orr	w10, w10, #0x30
	strb	w10, [x12, #23]
	b.hi	32b
	add	x8, x8, #24
	b	118f
498:
	bl	core.fmt.formatter.Formatter.write_indented._1ac78889755d2eb3
	and	w8, w0, #0xff
	tbnz	w8, #0, 943f
	b	983b
412:
	bl	core.fmt.formatter.Formatter.write_indented._1ac78889755d2eb3
	and	w8, w0, #0xff
	tbnz	w8, #0, 943f
	b	455b
983:
	mov	w8, #24
118:
	cmp	x13, #10
	b.lo	625f
	and	w9, w13, #0xff
	mov	w10, #205
	add	x11, sp, #368
	mul	w9, w9, w10
	mov	w10, #10
	add	x11, x11, x8
	sub	x8, x8, #2
	lsr	w9, w9, #11
	msub	w10, w9, w10, w13
	orr	w9, w9, #0x30
	sturb	w9, [x11, #-2]
	orr	w10, w10, #0x30
	sturb	w10, [x11, #-1]
	b	62f
625:
	sub	x8, x8, #1
	add	x9, sp, #368
	orr	w10, w13, #0x30
	strb	w10, [x9, x8]
62:
	add	x9, sp, #368
	ldur	x10, [x29, #-96]
	mov	w11, #24
	add	x1, x9, x8
	mov	w9, #45
	sub	x2, x11, x8
	sub	x0, x29, #224
	sturb	w9, [x1, #-1]
	cbnz	x10, 498f
	bl	std.io.traits.AdapterWrite.write_str._5349ec06ad6c886c
	and	w8, w0, #0xff
	tbnz	w8, #0, 943f
983:
	mov	w8, #32
	ldur	x9, [x29, #-96]
	adrp	x1, .LT05553995
	add	x1, x1, :lo12:.LT05553995
	stur	w8, [x29, #-120]
	mov	x8, #-1
	sub	x0, x29, #224
	mov	w2, #7
	stur	xzr, [x24, #108]
	stur	wzr, [x24, #116]
	stur	x8, [x29, #-104]
	cbnz	x9, 412f
	bl	std.io.traits.AdapterWrite.write_str._5349ec06ad6c886c
	and	w8, w0, #0xff
	tbnz	w8, #0, 943f
32:
	mov	w8, #32
	add	x9, sp, #368
	stp	xzr, xzr, [sp, #368]
	stur	w8, [x29, #-120]
	mov	x8, #-1
	stur	x8, [x29, #-104]
	ldr	w8, [sp, #20]
	stur	xzr, [x9, #14]
	ldur	x9, [x29, #-96]
	lsr	w8, w8, #6
	stur	xzr, [x24, #108]
	stur	wzr, [x24, #116]
	orr	w8, w8, #0x30
	strb	w8, [sp, #391]
	mov	w8, #45
	strb	w8, [sp, #390]
	cbnz	x9, 481f
	add	x8, sp, #368
	sub	x0, x29, #224
	mov	w2, #1
	add	x1, x8, #23
	bl	std.io.traits.AdapterWrite.write_str._5349ec06ad6c886c
192:
	and	w8, w0, #0xff
	cmp	w8, #0
	cset	w8, eq
	b	257f
970:
	bl	core.fmt.formatter.Formatter.write_indented._1ac78889755d2eb3
	and	w8, w0, #0xff
	tbnz	w8, #0, 943f
	b	187b
110:
	bl	core.fmt.formatter.Formatter.write_indented._1ac78889755d2eb3
	and	w8, w0, #0xff
	tbnz	w8, #0, 943f
	b	93b
498:
	bl	core.fmt.formatter.Formatter.write_indented._1ac78889755d2eb3
	and	w8, w0, #0xff
	tbnz	w8, #0, 943f
	b	983b
412:
	bl	core.fmt.formatter.Formatter.write_indented._1ac78889755d2eb3
	and	w8, w0, #0xff
	tbz	w8, #0, 32b
943:
	mov	w8, wzr
257:
	ldurb	w9, [x29, #-216]
	cmp	x9, #1
	b.eq	148f
	tbz	w8, #0, 737f
	movi	v0.2d, #0000000000000000
	ldr	x8, [sp, #40]
	mov	w20, #32
	mov	x23, #-1
	adrp	x1, .LTd4ce07c9
	add	x1, x1, :lo12:.LTd4ce07c9
	sub	x0, x29, #224
	mov	w2, #11
	stur	x8, [x29, #-224]
	stp	xzr, xzr, [x24, #128]
	stur	q0, [x24, #8]
	stur	q0, [x24, #24]
	stur	q0, [x24, #40]
	stur	q0, [x24, #56]
	stur	q0, [x24, #72]
	stur	q0, [x24, #88]
	stur	w20, [x29, #-120]
	stur	xzr, [x24, #108]
	stur	wzr, [x24, #116]
	stur	x23, [x29, #-104]
	bl	std.io.traits.AdapterWrite.write_str._5349ec06ad6c886c
	and	w8, w0, #0xff
	tbz	w8, #0, 401f
	ldp	x22, x5, [sp, #32]
	mov	w20, #1
	add	x25, sp, #368
	b	257f
401:
	ubfx	w8, w28, #3, #1
	ldur	x9, [x29, #-96]
	add	x25, sp, #368
	stur	w20, [x29, #-120]
	orr	w8, w8, #0x30
	stur	xzr, [x24, #108]
	strb	w8, [sp, #391]
	mov	w8, #45
	stur	wzr, [x24, #116]
	stur	x23, [x29, #-104]
	stp	xzr, xzr, [sp, #368]
	stur	xzr, [x25, #14]
	strb	w8, [sp, #390]
	cbnz	x9, 62f
	add	x8, sp, #368
	sub	x0, x29, #224
	mov	w2, #1
	add	x1, x8, #23
	bl	std.io.traits.AdapterWrite.write_str._5349ec06ad6c886c
	ldp	x22, x5, [sp, #32]
	and	w8, w0, #0xff
	tbz	w8, #0, 187f
983:
	mov	w20, #1
	b	257f
62:
	add	x8, sp, #368
	sub	x0, x29, #224
	mov	w2, #1
	add	x1, x8, #23
	bl	core.fmt.formatter.Formatter.write_indented._1ac78889755d2eb3
	ldp	x22, x5, [sp, #32]
	and	w8, w0, #0xff
	tbnz	w8, #0, 983b
187:
	mov	w8, #32
	ldur	x9, [x29, #-96]
	adrp	x1, .LT37337163
	add	x1, x1, :lo12:.LT37337163
	stur	w8, [x29, #-120]
	mov	x8, #-1
	sub	x0, x29, #224
	mov	w2, #1
	mov	w20, #1
	stur	xzr, [x24, #108]
	stur	wzr, [x24, #116]
	stur	x8, [x29, #-104]
	cbnz	x9, 498f
	bl	std.io.traits.AdapterWrite.write_str._5349ec06ad6c886c
	and	w8, w0, #0xff
	ldr	x5, [sp, #40]
	tbnz	w8, #0, 257f
983:
	mov	w23, #32
	mov	x20, #-1
	sub	x2, x29, #224
	mov	x0, x21
	mov	x1, x22
	stur	xzr, [x24, #108]
	stur	w23, [x29, #-120]
	stur	wzr, [x24, #116]
	stur	x20, [x29, #-104]
	bl	tc_lines.digits.DigitsDisplay.fmt._1ac78889755d2eb3
	and	w8, w0, #0xff
	tbz	w8, #0, 232f
	mov	w20, #1
	b	93f
232:
	ldur	x8, [x29, #-96]
	adrp	x1, .LT3235efc0
	add	x1, x1, :lo12:.LT3235efc0
	sub	x0, x29, #224
	mov	w2, #1
	stur	w23, [x29, #-120]
	stur	xzr, [x24, #108]
	stur	wzr, [x24, #116]
	stur	x20, [x29, #-104]
	cbnz	x8, 412f
	bl	std.io.traits.AdapterWrite.write_str._5349ec06ad6c886c
124:
	and	w20, w0, #0xff
93:
	ldr	x5, [sp, #40]
257:
	ldurb	w8, [x29, #-216]
	cmp	x8, #1
	b.eq	232f
	cbnz	w20, 410f
	movi	v0.2d, #0000000000000000
	ldr	x8, [sp, #24]
	add	x21, x21, x22
	cmp	x8, #7
	mov	x4, x8
	stp	q0, q0, [sp, #240]
	stp	q0, q0, [sp, #272]
	b.hs	602b
	b	613b
498:
	bl	core.fmt.formatter.Formatter.write_indented._1ac78889755d2eb3
	and	w8, w0, #0xff
	ldr	x5, [sp, #40]
	tbz	w8, #0, 983b
	b	257b
412:
	bl	core.fmt.formatter.Formatter.write_indented._1ac78889755d2eb3
	b	124b
481:
	add	x8, sp, #368
	sub	x0, x29, #224
	mov	w2, #1
	add	x1, x8, #23
	bl	core.fmt.formatter.Formatter.write_indented._1ac78889755d2eb3
	b	192b
922:
	movi	v2.2d, #0000000000000000
	movi	v1.2d, #0000000000000000
	mov	w9, wzr
	stp	q2, q2, [sp, #304]
	stp	q2, q2, [sp, #336]
976:
	ldp	q2, q3, [sp, #304]
	stp	q2, q3, [sp, #176]
	ldp	q2, q4, [sp, #336]
	b	744f
320:
	movi	v0.2d, #0000000000000000
	stp	q0, q0, [x29, #-224]
	stp	q0, q0, [x29, #-192]
	stp	q0, q0, [x29, #-160]
	b	939b
148:
	add	x8, sp, #368
	ldur	s1, [x29, #-208]
	ldur	q0, [x8, #104]
	ldur	q2, [x8, #120]
	ldur	q3, [x8, #136]
	stp	q0, q2, [sp, #368]
	ldur	q2, [x8, #152]
	ushll	v0.8h, v1.8b, #0
	ldur	q1, [x8, #88]
	ldur	w8, [x29, #-204]
	stp	q3, q2, [sp, #400]
	b	976f
737:
	movi	v2.16b, #46
	adrp	x9, .LCc9e02fc4_0
	adrp	x10, .LCc9e02fc4_1
	ldr	q1, [x9, :lo12:.LCc9e02fc4_0]
	ldr	d0, [x10, :lo12:.LCc9e02fc4_1]
	mov	w8, wzr
	stp	q2, q2, [sp, #368]
	stp	q2, q2, [sp, #400]
976:
	ldp	q2, q3, [sp, #368]
	str	q2, [sp, #240]
	ldp	q2, q4, [sp, #400]
	b	598f
232:
	ldur	q0, [x24, #40]
	ldur	q2, [x24, #56]
	ldur	s1, [x29, #-208]
	ldur	q3, [x24, #72]
	ldur	w8, [x29, #-204]
	stp	q0, q2, [x29, #-80]
	ushll	v0.8h, v1.8b, #0
	ldur	q2, [x24, #88]
	ldur	q1, [x25, #88]
	stp	q3, q2, [x29, #-48]
	b	976f
410:
	movi	v2.16b, #46
	adrp	x9, .LCc9e02fc4_0
	adrp	x10, .LCc9e02fc4_1
	ldr	q1, [x9, :lo12:.LCc9e02fc4_0]
	ldr	d0, [x10, :lo12:.LCc9e02fc4_1]
	mov	w8, wzr
	stp	q2, q2, [x29, #-80]
	stp	q2, q2, [x29, #-48]
976:
	ldp	q2, q3, [x29, #-80]
	str	q2, [sp, #240]
	ldp	q2, q4, [x29, #-48]
598:
	stp	q3, q2, [sp, #256]
	mov	w9, #1
	ldp	q2, q3, [sp, #240]
	str	q4, [sp, #288]
	stp	q2, q3, [sp, #176]
	ldp	q2, q4, [sp, #272]
744:
	stp	q2, q4, [sp, #208]
39:
	uzp1	v0.8b, v0.8b, v0.8b
	ldp	q2, q3, [sp, #176]
	ldp	q4, q5, [sp, #208]
	strb	w9, [x19]
	str	w8, [x19, #12]
	stp	q2, q3, [sp, #112]
	stp	q4, q5, [sp, #144]
	str	s0, [x19, #8]
	stp	q1, q2, [x19, #16]
	stp	q3, q4, [x19, #48]
	str	q5, [x19, #80]
	b	316b
873:
	bl	core.fmt.formatter.Formatter.write_indented._1ac78889755d2eb3
	b	447b
	.section	.rodata.cst16,"aM",@progbits,16
	.p2align	4
.LCcc98f0d2_0:
	.xword	7310596056926023526
	.xword	3346860010425884786
	.section	.rodata.cst8,"aM",@progbits,8
	.p2align	3
.LCcc98f0d2_1:
	.hword	2
	.hword	41
	.hword	15
	.hword	0
	.section	.text.std.io.traits.Write.write_fmt._2163a20560420d27,"ax",@progbits
	.p2align	2
std.io.traits.Write.write_fmt._2163a20560420d27:
	sub	sp, sp, #352
	movi	v0.2d, #0000000000000000
	str	x1, [sp]
	ldp	x1, x8, [x2]
	stp	x28, x25, [sp, #288]
	stp	x22, x21, [sp, #320]
	ldp	x25, x21, [x2, #16]
	stp	x29, x30, [sp, #272]
	add	x29, sp, #272
	mov	x22, sp
	stp	x24, x23, [sp, #304]
	mov	w23, #32
	mov	x24, #-1
	stp	x20, x19, [sp, #336]
	mov	x19, x0
	ldr	x20, [x2, #32]
	mov	x0, sp
	mov	x2, x8
	stp	q0, q0, [x29, #-128]
	stp	q0, q0, [x29, #-96]
	stur	q0, [sp, #8]
	stur	q0, [sp, #24]
	stur	q0, [sp, #40]
	stur	q0, [sp, #56]
	stur	q0, [sp, #72]
	stur	q0, [sp, #88]
	str	w23, [sp, #104]
	str	wzr, [sp, #116]
	stur	xzr, [sp, #108]
	stp	x24, xzr, [sp, #120]
	str	xzr, [sp, #136]
	bl	std.io.traits.AdapterWrite.write_str._5349ec06ad6c886c
	and	w8, w0, #0xff
	tbnz	w8, #0, 983f
	ldrb	w10, [x25]
	str	w23, [sp, #104]
	stur	xzr, [x22, #108]
	cmp	w10, #100
	stur	wzr, [x22, #116]
	str	x24, [sp, #120]
	stp	xzr, xzr, [x29, #-64]
	stur	xzr, [x29, #-48]
	b.lo	118f
	mov	w8, #41
	mul	w8, w10, w8
	lsr	w9, w8, #12
	mov	w8, #100
	msub	w8, w9, w8, w10
	mov	w10, #205
	and	w11, w8, #0xff
	mul	w10, w11, w10
	mov	w11, #10
	lsr	w10, w10, #11
	msub	w8, w10, w11, w8
	orr	w10, w10, #0x30
	sturb	w10, [x29, #-42]
	orr	w8, w8, #0x30
	sturb	w8, [x29, #-41]
	mov	w8, #21
	b	625f
118:
	cmp	w10, #10
	b.lo	613f
	mov	w8, #205
	mov	w9, #10
	mul	w8, w10, w8
	lsr	w8, w8, #11
	msub	w9, w8, w9, w10
	orr	w8, w8, #0x30
	sturb	w8, [x29, #-42]
	mov	w8, #22
	orr	w9, w9, #0x30
	sturb	w9, [x29, #-41]
	b	893f
613:
	mov	w8, #23
	mov	w9, w10
625:
	sub	x10, x29, #64
	orr	w9, w9, #0x30
	strb	w9, [x10, x8]
893:
	sub	x9, x29, #64
	ldr	x10, [sp, #128]
	mov	w11, #24
	add	x1, x9, x8
	mov	w9, #45
	sub	x2, x11, x8
	mov	x0, sp
	sturb	w9, [x1, #-1]
	cbnz	x10, 498f
	bl	std.io.traits.AdapterWrite.write_str._5349ec06ad6c886c
	and	w8, w0, #0xff
	tbz	w8, #0, 187f
983:
	mov	w9, #1
922:
	movi	v2.2d, #0000000000000000
	ldrb	w10, [sp, #8]
	ldr	s1, [sp, #16]
	ldr	w8, [sp, #20]
	ldur	q0, [sp, #24]
	cmp	x10, #1
	stp	q2, q2, [x29, #-64]
	stp	q2, q2, [x29, #-32]
	b.ne	613f
	ldur	q2, [x22, #40]
	ldur	q3, [x22, #56]
	ushll	v1.8h, v1.8b, #0
	ldur	q4, [x22, #72]
	mov	w9, #1
	stp	q2, q3, [x29, #-64]
	ldur	q2, [x22, #88]
	stp	q4, q2, [x29, #-32]
	b	39f
613:
	mov	w8, wzr
	cbz	w9, 320f
	movi	v2.16b, #46
	adrp	x9, .LCcc98f0d2_0
	adrp	x10, .LCcc98f0d2_1
	ldr	q0, [x9, :lo12:.LCcc98f0d2_0]
	ldr	d1, [x10, :lo12:.LCcc98f0d2_1]
	mov	w9, #1
	stp	q2, q2, [x29, #-64]
	stp	q2, q2, [x29, #-32]
	b	39f
320:
	movi	v1.2d, #0000000000000000
	movi	v0.2d, #0000000000000000
39:
	uzp1	v1.8b, v1.8b, v0.8b
	ldp	q2, q3, [x29, #-64]
	ldp	q4, q5, [x29, #-32]
	strb	w9, [x19]
	str	w8, [x19, #12]
	ldp	x22, x21, [sp, #320]
	stp	q2, q3, [x29, #-128]
	ldp	x24, x23, [sp, #304]
	stp	q4, q5, [x29, #-96]
	ldp	x28, x25, [sp, #288]
	str	s1, [x19, #8]
	ldp	x29, x30, [sp, #272]
	stp	q0, q2, [x19, #16]
	stp	q3, q4, [x19, #48]
	str	q5, [x19, #80]
	ldp	x20, x19, [sp, #336]
	add	sp, sp, #352
	ret
498:
	bl	core.fmt.formatter.Formatter.write_indented._1ac78889755d2eb3
	and	w8, w0, #0xff
	tbnz	w8, #0, 983b
187:
	mov	w8, #32
	ldr	x9, [sp, #128]
	mov	x0, sp
	str	w8, [sp, #104]
	mov	x8, #-1
	mov	x1, x21
	mov	x2, x20
	stur	xzr, [x22, #108]
	stur	wzr, [x22, #116]
	str	x8, [sp, #120]
	cbnz	x9, 498f
	bl	std.io.traits.AdapterWrite.write_str._5349ec06ad6c886c
447:
	and	w9, w0, #0xff
	b	922b
498:
	bl	core.fmt.formatter.Formatter.write_indented._1ac78889755d2eb3
	b	447b
	.section	.rodata.cst16,"aM",@progbits,16
	.p2align	4
.LCb7a09d1d_0:
	.xword	7310596056926023526
	.xword	3346860010425884786
	.section	.rodata.cst8,"aM",@progbits,8
	.p2align	3
.LCb7a09d1d_1:
	.hword	2
	.hword	41
	.hword	15
	.hword	0
	.section	.text.tc_make.printed.write_refused._5349ec06ad6c886c,"ax",@progbits
	.p2align	2
tc_make.printed.write_refused._5349ec06ad6c886c:
	sub	sp, sp, #416
	movi	v0.2d, #0000000000000000
	stp	x29, x30, [sp, #336]
	add	x29, sp, #336
	stp	x24, x23, [sp, #368]
	mov	w24, #32
	mov	x23, #-1
	stp	x22, x21, [sp, #384]
	mov	x21, x1
	add	x22, sp, #64
	stp	x20, x19, [sp, #400]
	mov	x20, x2
	mov	x19, x0
	adrp	x1, .LTc48ebe31
	add	x1, x1, :lo12:.LTc48ebe31
	add	x0, sp, #64
	mov	w2, #8
	str	x28, [sp, #352]
	stp	q0, q0, [sp]
	stp	q0, q0, [sp, #32]
	stp	q0, q0, [x29, #-128]
	stp	q0, q0, [x29, #-96]
	str	x3, [sp, #64]
	stur	q0, [sp, #72]
	stur	q0, [sp, #88]
	stur	q0, [sp, #104]
	stur	q0, [sp, #120]
	stur	q0, [x22, #72]
	stur	q0, [x22, #88]
	stp	xzr, xzr, [sp, #192]
	stur	xzr, [x22, #108]
	str	w24, [sp, #168]
	str	wzr, [sp, #180]
	str	x23, [sp, #184]
	bl	std.io.traits.AdapterWrite.write_str._5349ec06ad6c886c
	and	w8, w0, #0xff
	tbnz	w8, #0, 613f
	ldr	x8, [sp, #192]
	add	x0, sp, #64
	mov	x1, x21
	mov	x2, x20
	str	w24, [sp, #168]
	stur	xzr, [x22, #108]
	stur	wzr, [x22, #116]
	str	x23, [sp, #184]
	cbnz	x8, 498f
	bl	std.io.traits.AdapterWrite.write_str._5349ec06ad6c886c
	and	w8, w0, #0xff
	tbz	w8, #0, 187f
613:
	mov	w9, #1
922:
	movi	v2.2d, #0000000000000000
	ldrb	w10, [sp, #72]
	ldr	s1, [sp, #80]
	ldr	w8, [sp, #84]
	ldur	q0, [sp, #88]
	cmp	x10, #1
	stp	q2, q2, [x29, #-64]
	stp	q2, q2, [x29, #-32]
	b.ne	983f
	ldur	q2, [x22, #40]
	ldur	q3, [x22, #56]
	ushll	v1.8h, v1.8b, #0
	ldur	q4, [x22, #72]
	mov	w9, #1
	stp	q2, q3, [x29, #-64]
	ldur	q2, [x22, #88]
	stp	q4, q2, [x29, #-32]
	b	39f
983:
	mov	w8, wzr
	cbz	w9, 320f
	movi	v2.16b, #46
	adrp	x9, .LCb7a09d1d_0
	adrp	x10, .LCb7a09d1d_1
	ldr	q0, [x9, :lo12:.LCb7a09d1d_0]
	ldr	d1, [x10, :lo12:.LCb7a09d1d_1]
	mov	w9, #1
	stp	q2, q2, [x29, #-64]
	stp	q2, q2, [x29, #-32]
	b	39f
320:
	movi	v1.2d, #0000000000000000
	movi	v0.2d, #0000000000000000
39:
	uzp1	v1.8b, v1.8b, v0.8b
	ldp	q2, q3, [x29, #-64]
	ldp	q4, q5, [x29, #-32]
	strb	w9, [x19]
	str	w8, [x19, #12]
	ldr	x28, [sp, #352]
	stp	q0, q2, [x19, #16]
	ldp	x22, x21, [sp, #384]
	str	s1, [x19, #8]
	ldp	x24, x23, [sp, #368]
	stp	q3, q4, [x19, #48]
	ldp	x29, x30, [sp, #336]
	str	q5, [x19, #80]
	ldp	x20, x19, [sp, #400]
	stp	q2, q3, [sp]
	stp	q4, q5, [sp, #32]
	add	sp, sp, #416
	ret
498:
	bl	core.fmt.formatter.Formatter.write_indented._1ac78889755d2eb3
	and	w8, w0, #0xff
	tbnz	w8, #0, 613b
187:
	mov	w8, #32
	ldr	x9, [sp, #192]
	adrp	x1, .LT3235efc0
	add	x1, x1, :lo12:.LT3235efc0
	str	w8, [sp, #168]
	mov	x8, #-1
	add	x0, sp, #64
	mov	w2, #1
	stur	xzr, [x22, #108]
	stur	wzr, [x22, #116]
	str	x8, [sp, #184]
	cbnz	x9, 498f
	bl	std.io.traits.AdapterWrite.write_str._5349ec06ad6c886c
447:
	and	w9, w0, #0xff
	b	922b
498:
	bl	core.fmt.formatter.Formatter.write_indented._1ac78889755d2eb3
	b	447b
	.section	.text.tc_edges.cltu.writer.push_block,"ax",@progbits
	.p2align	2
tc_edges.cltu.writer.push_block:
	stp	x29, x30, [sp, #-96]!
	stp	x24, x23, [sp, #48]
	mov	x24, x0
	mov	x29, sp
	ldp	x8, x14, [x24, #8]!
	stp	x20, x19, [sp, #80]
	mov	x19, x0
	mov	x20, x1
	stp	x28, x27, [sp, #16]
	sub	x9, x14, x8
	stp	x26, x25, [sp, #32]
	cmp	x2, x9
	stp	x22, x21, [sp, #64]
	b.hi	187f
93:
	ldr	x22, [x19]
	add	x23, x8, x2
	stp	xzr, xzr, [x24]
	add	x0, x22, x8
	sub	x9, x0, x20
	cmp	x9, x2
	b.hs	983f
	cmp	x2, #8
	b.lo	613f
	add	x9, x8, x22
	sub	x9, x9, x20
	cmp	x9, #32
	b.hs	118f
613:
	mov	x9, xzr
62:
	add	x10, x9, x8
	sub	x8, x2, x9
	add	x9, x20, x9
	add	x10, x22, x10
602:
	ldrb	w11, [x9], #1
	subs	x8, x8, #1
	strb	w11, [x10], #1
	b.ne	602b
	b	598f
983:
	mov	x1, x20
	mov	x21, x14
	bl	memmove
	mov	x14, x21
598:
	stp	x22, x23, [x19]
	adrp	x9, .LTb4175d02
	add	x9, x9, :lo12:.LTb4175d02
	str	x14, [x19, #16]
	cmp	x14, x23
	ldrb	w8, [x20]
	ldrb	w10, [x20, #1]
	ldrb	w11, [x20, #2]
	ldrb	w12, [x20, #3]
	ldrb	w13, [x20, #4]
	add	x8, x9, x8
	add	x10, x9, x10
	add	x11, x9, x11
	ldrb	w24, [x8, #1536]
	ldrb	w8, [x20, #5]
	ldrb	w25, [x10, #1280]
	add	x10, x9, x12
	ldrb	w12, [x20, #6]
	ldrb	w26, [x11, #1024]
	add	x11, x9, x13
	add	x8, x9, x8
	ldrb	w27, [x10, #768]
	ldrb	w20, [x11, #512]
	ldrb	w21, [x8, #256]
	ldrb	w28, [x9, x12]
	b.eq	983f
140:
	eor	w8, w24, w25
	eor	w9, w26, w27
	eor	w10, w20, w21
	eor	w8, w8, w9
	ldp	x26, x25, [sp, #32]
	eor	w8, w8, w10
	eon	w8, w8, w28
	ldp	x28, x27, [sp, #16]
	lsl	w8, w8, #1
	strb	w8, [x22, x23]
	add	x8, x23, #1
	stp	x22, x8, [x19]
	ldp	x22, x21, [sp, #64]
	str	x14, [x19, #16]
	ldp	x20, x19, [sp, #80]
	ldp	x24, x23, [sp, #48]
	ldp	x29, x30, [sp], #96
	ret
118:
	cmp	x2, #32
	b.hs	316f
	mov	x9, xzr
	b	613f
316:
	add	x12, x8, x22
	and	x10, x2, #0x18
	and	x9, x2, #0xffffffffffffffe0
	add	x11, x20, #16
	add	x12, x12, #16
	and	x13, x2, #0xffffffffffffffe0
976:
	ldp	q0, q1, [x11, #-16]
	subs	x13, x13, #32
	add	x11, x11, #32
	stp	q0, q1, [x12, #-16]
	add	x12, x12, #32
	b.ne	976b
	cmp	x2, x9
	b.eq	598b
	cbz	x10, 62b
613:
	mov	x11, x9
	and	x9, x2, #0xfffffffffffffff8
	add	x12, x8, x11
	sub	x10, x11, x9
	add	x11, x20, x11
	add	x12, x22, x12
659:
	ldr	d0, [x11], #8
	adds	x10, x10, #8
	str	d0, [x12], #8
	b.ne	659b
	cmp	x2, x9
	b.eq	598b
	b	62b
187:
	mov	x0, x19
	mov	x1, x2
	mov	x21, x2
	bl	std_alloc.vec.Vec.grow_amortized._5ce8f19f45e9f986
	cbz	w0, 174f
	ldp	x8, x14, [x19, #8]
	mov	x2, x21
	b	93b
983:
	mov	x0, x19
	mov	w1, #1
	bl	std_alloc.vec.Vec.grow_amortized._5ce8f19f45e9f986
	cbz	w0, 174f
	ldp	x23, x14, [x19, #8]
	ldr	x22, [x19]
	b	140b
174:
	brk	#0x1
	.section	.text.tc_edges.tm.frame.idle_frame,"ax",@progbits
	.p2align	2
tc_edges.tm.frame.idle_frame:
	sub	sp, sp, #96
	stp	x24, x23, [sp, #48]
	mov	x23, x1
	mov	w1, #1
	stp	x20, x19, [sp, #80]
	mov	x19, x0
	mov	x0, x4
	stp	x29, x30, [sp, #32]
	add	x29, sp, #32
	mov	w20, w2
	stp	x22, x21, [sp, #64]
	mov	x21, x4
	mov	x22, x3
	str	xzr, [sp, #24]
	mov	w24, #1
	bl	rattle_alloc
	tbz	w0, #0, 560f
	ldrb	w8, [x23, #2]
	ldrh	w9, [x23]
	mov	w10, #65055
	ldurh	w11, [x23, #3]
	strh	w10, [x1, #4]
	subs	x22, x22, #10
	lsl	w8, w8, #1
	str	x21, [sp, #24]
	strh	w11, [x1, #2]
	add	w9, w8, w9, lsl #4
	mov	w8, #6
	stp	x1, x8, [sp, #8]
	lsr	w10, w9, #8
	orr	w9, w9, #0x1
	strb	w9, [x1, #1]
	strb	w10, [x1]
	b.eq	625f
	mov	w8, #6
	b	93f
613:
	mov	w9, #85
	strb	w9, [x1, x8]
	add	x8, x8, #1
	subs	x22, x22, #1
	str	x8, [sp, #16]
	b.eq	659f
93:
	ldr	x9, [sp, #24]
	cmp	x9, x8
	b.ne	613b
	add	x0, sp, #8
	mov	w1, #1
	bl	std_alloc.vec.Vec.grow_amortized._5ce8f19f45e9f986
	cbz	w0, 174f
	ldp	x1, x8, [sp, #8]
	b	613b
560:
	strb	w24, [x19]
	stp	xzr, xzr, [x19, #16]
	str	xzr, [x19, #8]
	ldp	x20, x19, [sp, #80]
	ldp	x22, x21, [sp, #64]
	ldp	x24, x23, [sp, #48]
	ldp	x29, x30, [sp, #32]
	add	sp, sp, #96
	ret
659:
	ldr	x21, [sp, #24]
625:
	sub	x9, x21, x8
	cmp	x9, #3
	b.ls	316f
62:
	add	x9, x8, #4
	ldr	x10, [sp, #8]
	stp	x9, x21, [sp, #16]
	ldur	q0, [sp, #8]
	str	w20, [x10, x8]
	strb	wzr, [x19]
	str	x21, [x19, #24]
	stur	q0, [x19, #8]
	ldp	x20, x19, [sp, #80]
	ldp	x22, x21, [sp, #64]
	ldp	x24, x23, [sp, #48]
	ldp	x29, x30, [sp, #32]
	add	sp, sp, #96
	ret
316:
	add	x0, sp, #8
	mov	w1, #4
	bl	std_alloc.vec.Vec.grow_amortized._5ce8f19f45e9f986
	cbz	w0, 174f
	ldp	x8, x21, [sp, #16]
	b	62b
174:
	brk	#0x1
	.section	.rodata.cst16,"aM",@progbits,16
	.p2align	4
.LC23d35061_0:
	.xword	7310596056926023526
	.xword	3346860010425884786
	.section	.rodata.cst8,"aM",@progbits,8
	.p2align	3
.LC23d35061_1:
	.hword	2
	.hword	41
	.hword	15
	.hword	0
	.section	.text.tc_make.explained.write_rest._5349ec06ad6c886c,"ax",@progbits
	.p2align	2
tc_make.explained.write_rest._5349ec06ad6c886c:
	sub	sp, sp, #448
	movi	v0.2d, #0000000000000000
	stp	x20, x19, [sp, #432]
	mov	x5, x3
	mov	x20, x2
	mov	x3, x1
	mov	x19, x0
	cmp	x2, #6
	stp	x29, x30, [sp, #368]
	add	x29, sp, #368
	str	x28, [sp, #384]
	stp	x24, x23, [sp, #400]
	stp	x22, x21, [sp, #416]
	stp	q0, q0, [sp]
	stp	q0, q0, [sp, #32]
	stp	q0, q0, [sp, #64]
	b.hi	939f
	cmp	x20, #5
	b.lo	62f
	ldrb	w8, [x3]
	tst	w8, #0xcccccccc
	b.eq	602f
62:
	add	x22, sp, #96
	mov	x23, #-1
	mov	w24, #32
	adrp	x1, .LTd59513d8
	add	x1, x1, :lo12:.LTd59513d8
	add	x0, sp, #96
	mov	w2, #5
	str	x5, [sp, #96]
	add	x21, sp, #96
	stp	q0, q0, [x29, #-128]
	stp	q0, q0, [x29, #-96]
	stur	q0, [sp, #104]
	stur	q0, [sp, #120]
	stur	q0, [x22, #40]
	stur	q0, [x22, #56]
	stur	q0, [x22, #72]
	stur	q0, [x22, #88]
	stp	xzr, xzr, [sp, #224]
	stur	xzr, [x22, #108]
	str	w24, [sp, #200]
	str	wzr, [sp, #212]
	str	x23, [sp, #216]
	bl	std.io.traits.AdapterWrite.write_str._5349ec06ad6c886c
	and	w8, w0, #0xff
	tbnz	w8, #0, 613f
	orr	w8, w20, #0x30
	ldr	x9, [sp, #224]
	mov	w10, #45
	sturb	w8, [x29, #-41]
	sub	x8, x29, #64
	add	x0, sp, #96
	add	x1, x8, #23
	mov	w2, #1
	str	w24, [sp, #200]
	stur	xzr, [x21, #108]
	stur	wzr, [x21, #116]
	str	x23, [sp, #216]
	stp	xzr, xzr, [x29, #-64]
	stur	xzr, [x22, #222]
	sturb	w10, [x29, #-42]
	cbnz	x9, 498f
	bl	std.io.traits.AdapterWrite.write_str._5349ec06ad6c886c
	and	w8, w0, #0xff
	tbz	w8, #0, 187f
613:
	mov	w9, #1
922:
	movi	v2.2d, #0000000000000000
	ldrb	w10, [sp, #104]
	ldr	s1, [sp, #112]
	ldr	w8, [sp, #116]
	ldur	q0, [sp, #120]
	cmp	x10, #1
	stp	q2, q2, [x29, #-64]
	stp	q2, q2, [x29, #-32]
	b.ne	983f
	ldur	q2, [x21, #40]
	ldur	q3, [x21, #56]
	ushll	v1.8h, v1.8b, #0
	ldur	q4, [x21, #72]
	mov	w9, #1
	stp	q2, q3, [x29, #-64]
	ldur	q2, [x21, #88]
	stp	q4, q2, [x29, #-32]
	b	39f
983:
	mov	w8, wzr
	cbz	w9, 320f
	movi	v2.16b, #46
	adrp	x9, .LC23d35061_0
	adrp	x10, .LC23d35061_1
	ldr	q0, [x9, :lo12:.LC23d35061_0]
	ldr	d1, [x10, :lo12:.LC23d35061_1]
	mov	w9, #1
	stp	q2, q2, [x29, #-64]
	stp	q2, q2, [x29, #-32]
	b	39f
602:
	ldrb	w8, [x3, #3]
	ldrb	w9, [x3, #2]
	bfi	w8, w9, #8, #2
	cmp	w8, #5
	b.lo	62b
	add	w8, w8, #1
	cmp	x20, x8
	b.lo	62b
939:
	adrp	x1, .LT54ed9b2a
	add	x1, x1, :lo12:.LT54ed9b2a
	mov	x0, sp
	mov	w2, #4
	mov	x4, x20
	bl	tc_make.printed.write_named._5349ec06ad6c886c
	ldrb	w9, [sp]
	b	232f
320:
	movi	v1.2d, #0000000000000000
	movi	v0.2d, #0000000000000000
39:
	uzp1	v1.8b, v1.8b, v0.8b
	ldp	q4, q2, [x29, #-64]
	ldp	q5, q3, [x29, #-32]
	str	w8, [sp, #12]
	str	q0, [sp, #16]
	stur	q2, [x29, #-112]
	stp	q5, q3, [sp, #64]
	str	s1, [sp, #8]
	stp	q4, q2, [sp, #32]
232:
	ldur	q0, [sp, #40]
	ldur	q1, [sp, #56]
	ldur	q2, [sp, #72]
	ldr	x8, [sp, #88]
	strb	w9, [x19]
	ldr	x28, [sp, #384]
	stur	q0, [x19, #40]
	ldur	q0, [sp, #8]
	stur	q1, [x19, #56]
	ldur	q1, [sp, #24]
	stur	q2, [x19, #72]
	ldp	x22, x21, [sp, #416]
	str	x8, [x19, #88]
	ldp	x24, x23, [sp, #400]
	stur	q0, [x19, #8]
	ldp	x29, x30, [sp, #368]
	stur	q1, [x19, #24]
	ldp	x20, x19, [sp, #432]
	add	sp, sp, #448
	ret
498:
	bl	core.fmt.formatter.Formatter.write_indented._1ac78889755d2eb3
	and	w8, w0, #0xff
	tbnz	w8, #0, 613b
187:
	mov	w8, #32
	ldr	x9, [sp, #224]
	adrp	x1, .LT3235efc0
	add	x1, x1, :lo12:.LT3235efc0
	str	w8, [sp, #200]
	mov	x8, #-1
	add	x0, sp, #96
	mov	w2, #1
	stur	xzr, [x21, #108]
	stur	wzr, [x21, #116]
	str	x8, [sp, #216]
	cbnz	x9, 498f
	bl	std.io.traits.AdapterWrite.write_str._5349ec06ad6c886c
447:
	and	w9, w0, #0xff
	b	922b
498:
	bl	core.fmt.formatter.Formatter.write_indented._1ac78889755d2eb3
	b	447b
	.section	.rodata.cst16,"aM",@progbits,16
	.p2align	4
.LCc7034eda_0:
	.xword	7310596056926023526
	.xword	3346860010425884786
	.section	.rodata.cst8,"aM",@progbits,8
	.p2align	3
.LCc7034eda_1:
	.hword	2
	.hword	41
	.hword	15
	.hword	0
	.section	.text.tc_make.printed.write_bad._5349ec06ad6c886c,"ax",@progbits
	.p2align	2
tc_make.printed.write_bad._5349ec06ad6c886c:
	stp	x29, x30, [sp, #-96]!
	stp	x28, x27, [sp, #16]
	mov	x29, sp
	stp	x26, x25, [sp, #32]
	stp	x24, x23, [sp, #48]
	stp	x22, x21, [sp, #64]
	stp	x20, x19, [sp, #80]
	sub	sp, sp, #528
	movi	v0.2d, #0000000000000000
	and	x8, x1, #0xff
	adrp	x9, .LJc7034eda_0
	add	x9, x9, :lo12:.LJc7034eda_0
	strb	w1, [sp, #252]
	add	x24, sp, #144
	strb	w2, [sp, #253]
	mov	x19, x0
	stp	q0, q0, [sp, #144]
	stp	q0, q0, [sp, #176]
	stp	q0, q0, [sp, #208]
	adr	x10, 62f
	ldrb	w11, [x9, x8]
	add	x10, x10, x11, lsl #2
	br	x10
62:
	add	x8, sp, #252
	adrp	x9, .LT3235efc0
	add	x9, x9, :lo12:.LT3235efc0
	stp	x8, x9, [sp]
	mov	w8, #1
	add	x0, sp, #144
	mov	x2, sp
	str	x8, [sp, #16]
	b	32f
316:
	add	x0, sp, #144
	mov	w1, #11
	mov	w2, #6
	bl	tc_make.printed.write_bounds._5349ec06ad6c886c
	b	602f
481:
	add	x8, sp, #252
	adrp	x9, .LT2c4ab8d6
	add	x9, x9, :lo12:.LT2c4ab8d6
	stp	x8, x9, [sp, #72]
	mov	w8, #47
	add	x0, sp, #144
	str	x8, [sp, #88]
	add	x2, sp, #72
	b	32f
148:
	add	x0, sp, #144
	mov	w1, #12
	mov	w2, #4
	bl	tc_make.printed.write_bounds._5349ec06ad6c886c
	b	602f
946:
	add	x0, sp, #144
	mov	w1, #9
	mov	w2, #3
	bl	tc_make.printed.write_bounds._5349ec06ad6c886c
	b	602f
843:
	ubfiz	x8, x2, #3, #8
	adrp	x9, .Lswitch.table.tc_make.printed.write_bad._5349ec06ad6c886c
	add	x9, x9, :lo12:.Lswitch.table.tc_make.printed.write_bad._5349ec06ad6c886c
	adrp	x10, .Lswitch.table.tc_make.printed.write_bad._5349ec06ad6c886c_.641
	add	x10, x10, :lo12:.Lswitch.table.tc_make.printed.write_bad._5349ec06ad6c886c_.641
	mov	x26, #-1
	ldr	x23, [x9, x8]
	ldr	x22, [x10, x8]
	adrp	x9, .Lswitch.table.tc_make.printed.write_bad._5349ec06ad6c886c_.642
	add	x9, x9, :lo12:.Lswitch.table.tc_make.printed.write_bad._5349ec06ad6c886c_.642
	adrp	x10, .Lswitch.table.tc_make.printed.write_bad._5349ec06ad6c886c_.643
	add	x10, x10, :lo12:.Lswitch.table.tc_make.printed.write_bad._5349ec06ad6c886c_.643
	mov	w27, #32
	ldr	x20, [x9, x8]
	ldr	x21, [x10, x8]
	adrp	x1, .LT1ef62a42
	add	x1, x1, :lo12:.LT1ef62a42
	add	x0, sp, #256
	mov	w2, #25
	str	x3, [sp, #256]
	add	x25, sp, #256
	stp	q0, q0, [x29, #-128]
	stp	q0, q0, [x29, #-96]
	stur	q0, [x24, #120]
	stur	q0, [x24, #136]
	stur	q0, [x24, #152]
	stur	q0, [x24, #168]
	stur	q0, [x24, #184]
	stur	q0, [x24, #200]
	stp	xzr, xzr, [sp, #384]
	str	w27, [sp, #360]
	stur	xzr, [x24, #220]
	str	wzr, [sp, #372]
	str	x26, [sp, #376]
	bl	std.io.traits.AdapterWrite.write_str._5349ec06ad6c886c
	and	w8, w0, #0xff
	tbnz	w8, #0, 943f
	ldr	x8, [sp, #384]
	adrp	x1, .LT07c8561c
	add	x1, x1, :lo12:.LT07c8561c
	add	x0, sp, #256
	mov	w2, #8
	str	w27, [sp, #360]
	stur	xzr, [x25, #108]
	stur	wzr, [x25, #116]
	str	x26, [sp, #376]
	cbnz	x8, 498f
	bl	std.io.traits.AdapterWrite.write_str._5349ec06ad6c886c
	and	w8, w0, #0xff
	tbnz	w8, #0, 943f
613:
	mov	w8, #32
	ldr	x9, [sp, #384]
	add	x0, sp, #256
	str	w8, [sp, #360]
	mov	x8, #-1
	mov	x1, x23
	mov	x2, x22
	stur	xzr, [x25, #108]
	stur	wzr, [x25, #116]
	str	x8, [sp, #376]
	cbnz	x9, 412f
	bl	std.io.traits.AdapterWrite.write_str._5349ec06ad6c886c
	and	w8, w0, #0xff
	tbnz	w8, #0, 943f
983:
	mov	w8, #32
	ldr	x9, [sp, #384]
	add	x0, sp, #256
	str	w8, [sp, #360]
	mov	x8, #-1
	mov	x1, x21
	mov	x2, x20
	stur	xzr, [x25, #108]
	stur	wzr, [x25, #116]
	str	x8, [sp, #376]
	cbnz	x9, 970f
	bl	std.io.traits.AdapterWrite.write_str._5349ec06ad6c886c
	and	w8, w0, #0xff
	tbnz	w8, #0, 943f
187:
	mov	w8, #32
	ldr	x9, [sp, #384]
	adrp	x1, .LT3235efc0
	add	x1, x1, :lo12:.LT3235efc0
	str	w8, [sp, #360]
	mov	x8, #-1
	add	x0, sp, #256
	mov	w2, #1
	stur	xzr, [x25, #108]
	stur	wzr, [x25, #116]
	str	x8, [sp, #376]
	cbnz	x9, 110f
	bl	std.io.traits.AdapterWrite.write_str._5349ec06ad6c886c
447:
	and	w9, w0, #0xff
	b	922f
312:
	add	x0, sp, #144
	mov	w1, #3
	bl	tc_make.printed.write_bounds._5349ec06ad6c886c
	b	602f
231:
	add	x0, sp, #144
	mov	w1, #7
	mov	w2, wzr
	bl	tc_make.printed.write_bounds._5349ec06ad6c886c
	b	602f
287:
	add	x8, sp, #252
	adrp	x9, .LT0e3ff99a
	add	x9, x9, :lo12:.LT0e3ff99a
	stp	x8, x9, [sp, #120]
	mov	w8, #125
	add	x0, sp, #144
	str	x8, [sp, #136]
	add	x2, sp, #120
	b	32f
740:
	add	x8, sp, #252
	adrp	x9, .LT85d3bb8b
	add	x9, x9, :lo12:.LT85d3bb8b
	stp	x8, x9, [sp, #96]
	mov	w8, #67
	add	x0, sp, #144
	str	x8, [sp, #112]
	add	x2, sp, #96
	b	32f
536:
	add	x8, sp, #252
	adrp	x9, .LTcfc709a4
	add	x9, x9, :lo12:.LTcfc709a4
	stp	x8, x9, [sp, #48]
	mov	w8, #28
	add	x0, sp, #144
	str	x8, [sp, #64]
	add	x2, sp, #48
	b	32f
50:
	add	x8, sp, #252
	adrp	x9, .LTbb49215e
	add	x9, x9, :lo12:.LTbb49215e
	stp	x8, x9, [sp, #24]
	mov	w8, #21
	add	x0, sp, #144
	str	x8, [sp, #40]
	add	x2, sp, #24
32:
	mov	x1, x3
	bl	std.io.traits.Write.write_fmt._7427d210d622371f
602:
	ldrb	w8, [sp, #144]
	ldur	q0, [x24, #40]
	ldur	q1, [x24, #56]
	ldur	q2, [x24, #72]
	strb	w8, [x19]
	ldr	x8, [sp, #232]
	stur	q0, [x19, #40]
	ldur	q0, [x24, #8]
	stur	q1, [x19, #56]
	ldur	q1, [x24, #24]
	stur	q2, [x19, #72]
	str	x8, [x19, #88]
	stur	q0, [x19, #8]
	stur	q1, [x19, #24]
	add	sp, sp, #528
	ldp	x20, x19, [sp, #80]
	ldp	x22, x21, [sp, #64]
	ldp	x24, x23, [sp, #48]
	ldp	x26, x25, [sp, #32]
	ldp	x28, x27, [sp, #16]
	ldp	x29, x30, [sp], #96
	ret
597:
	add	x0, sp, #144
	mov	w1, #10
	mov	w2, #5
	bl	tc_make.printed.write_bounds._5349ec06ad6c886c
	b	602b
688:
	add	x0, sp, #144
	mov	w1, #8
	mov	w2, #1
	bl	tc_make.printed.write_bounds._5349ec06ad6c886c
	b	602b
498:
	bl	core.fmt.formatter.Formatter.write_indented._1ac78889755d2eb3
	and	w8, w0, #0xff
	tbnz	w8, #0, 943f
	b	613b
412:
	bl	core.fmt.formatter.Formatter.write_indented._1ac78889755d2eb3
	and	w8, w0, #0xff
	tbnz	w8, #0, 943f
	b	983b
970:
	bl	core.fmt.formatter.Formatter.write_indented._1ac78889755d2eb3
	and	w8, w0, #0xff
	tbz	w8, #0, 187b
943:
	mov	w9, #1
922:
	movi	v2.2d, #0000000000000000
	ldrb	w10, [sp, #264]
	ldr	s1, [sp, #272]
	ldr	w8, [sp, #276]
	ldur	q0, [x24, #136]
	cmp	x10, #1
	stp	q2, q2, [x29, #-64]
	stp	q2, q2, [x29, #-32]
	b.ne	613f
	ldur	q2, [x25, #40]
	ldur	q3, [x25, #56]
	ushll	v1.8h, v1.8b, #0
	ldur	q4, [x25, #72]
	mov	w9, #1
	stp	q2, q3, [x29, #-64]
	ldur	q2, [x25, #88]
	stp	q4, q2, [x29, #-32]
	b	39f
613:
	mov	w8, wzr
	cbz	w9, 922f
	movi	v2.16b, #46
	adrp	x9, .LCc7034eda_0
	adrp	x10, .LCc7034eda_1
	ldr	q0, [x9, :lo12:.LCc7034eda_0]
	ldr	d1, [x10, :lo12:.LCc7034eda_1]
	mov	w9, #1
	stp	q2, q2, [x29, #-64]
	stp	q2, q2, [x29, #-32]
	b	39f
922:
	movi	v1.2d, #0000000000000000
	movi	v0.2d, #0000000000000000
39:
	uzp1	v1.8b, v1.8b, v0.8b
	ldp	q4, q2, [x29, #-64]
	ldp	q5, q3, [x29, #-32]
	strb	w9, [sp, #144]
	str	w8, [sp, #156]
	stur	q2, [x29, #-112]
	stp	q5, q3, [sp, #208]
	str	s1, [sp, #152]
	stp	q4, q2, [sp, #176]
	str	q0, [sp, #160]
	b	602b
110:
	bl	core.fmt.formatter.Formatter.write_indented._1ac78889755d2eb3
	b	447b
	.section	.rodata.tc_make.printed.write_bad._5349ec06ad6c886c,"a",@progbits
.LJc7034eda_0:
	.byte	(287b-62b)>>2
	.byte	(740b-62b)>>2
	.byte	(843b-62b)>>2
	.byte	(312b-62b)>>2
	.byte	(481b-62b)>>2
	.byte	(536b-62b)>>2
	.byte	(50b-62b)>>2
	.byte	(231b-62b)>>2
	.byte	(688b-62b)>>2
	.byte	(946b-62b)>>2
	.byte	(597b-62b)>>2
	.byte	(316b-62b)>>2
	.byte	(148b-62b)>>2
	.byte	(62b-62b)>>2
	.byte	(62b-62b)>>2
	.byte	(62b-62b)>>2
	.byte	(62b-62b)>>2
	.section	.rodata.cst16,"aM",@progbits,16
	.p2align	4
.LC46831c51_0:
	.xword	7310596056926023526
	.xword	3346860010425884786
	.section	.rodata.cst8,"aM",@progbits,8
	.p2align	3
.LC46831c51_1:
	.hword	2
	.hword	41
	.hword	15
	.hword	0
	.section	.text.tc_make.printed.write_bounds._5349ec06ad6c886c,"ax",@progbits
	.p2align	2
tc_make.printed.write_bounds._5349ec06ad6c886c:
	sub	sp, sp, #416
	ubfiz	x8, x2, #3, #8
	adrp	x9, .Lswitch.table.tc_make.printed.write_bounds._5349ec06ad6c886c
	add	x9, x9, :lo12:.Lswitch.table.tc_make.printed.write_bounds._5349ec06ad6c886c
	stp	x20, x19, [sp, #400]
	movi	v0.2d, #0000000000000000
	adrp	x10, .Lswitch.table.tc_make.printed.write_bounds._5349ec06ad6c886c_.646.rel
	add	x10, x10, :lo12:.Lswitch.table.tc_make.printed.write_bounds._5349ec06ad6c886c_.646.rel
	ldr	x20, [x9, x8]
	adrp	x9, .Lswitch.table.tc_make.printed.write_bounds._5349ec06ad6c886c_.644
	add	x9, x9, :lo12:.Lswitch.table.tc_make.printed.write_bounds._5349ec06ad6c886c_.644
	stp	x22, x21, [sp, #384]
	mov	x19, x0
	ldr	x21, [x9, x8]
	sub	w8, w1, #3
	adrp	x9, .Lswitch.table.tc_make.printed.write_bounds._5349ec06ad6c886c_.645
	add	x9, x9, :lo12:.Lswitch.table.tc_make.printed.write_bounds._5349ec06ad6c886c_.645
	and	x8, x8, #0xff
	stp	x29, x30, [sp, #336]
	ldr	x2, [x9, x8, lsl #3]
	ldrsw	x8, [x10, x8, lsl #2]
	stp	x24, x23, [sp, #368]
	add	x29, sp, #336
	add	x22, sp, #64
	mov	w24, #32
	mov	x23, #-1
	add	x0, sp, #64
	add	x1, x10, x8
	str	x28, [sp, #352]
	stp	q0, q0, [sp]
	stp	q0, q0, [sp, #32]
	stp	q0, q0, [x29, #-128]
	stp	q0, q0, [x29, #-96]
	str	x3, [sp, #64]
	stur	q0, [sp, #72]
	stur	q0, [sp, #88]
	stur	q0, [sp, #104]
	stur	q0, [sp, #120]
	stur	q0, [x22, #72]
	stur	q0, [x22, #88]
	stp	xzr, xzr, [sp, #192]
	stur	xzr, [x22, #108]
	str	w24, [sp, #168]
	str	wzr, [sp, #180]
	str	x23, [sp, #184]
	bl	std.io.traits.AdapterWrite.write_str._5349ec06ad6c886c
	and	w8, w0, #0xff
	tbnz	w8, #0, 983f
	ldr	x8, [sp, #192]
	adrp	x1, .LTbefb410e
	add	x1, x1, :lo12:.LTbefb410e
	add	x0, sp, #64
	mov	w2, #2
	str	w24, [sp, #168]
	stur	xzr, [x22, #108]
	stur	wzr, [x22, #116]
	str	x23, [sp, #184]
	cbnz	x8, 498f
	bl	std.io.traits.AdapterWrite.write_str._5349ec06ad6c886c
	and	w8, w0, #0xff
	tbnz	w8, #0, 983f
613:
	mov	w8, #32
	ldr	x9, [sp, #192]
	add	x0, sp, #64
	str	w8, [sp, #168]
	mov	x8, #-1
	mov	x1, x21
	mov	x2, x20
	stur	xzr, [x22, #108]
	stur	wzr, [x22, #116]
	str	x8, [sp, #184]
	cbnz	x9, 412f
	bl	std.io.traits.AdapterWrite.write_str._5349ec06ad6c886c
	and	w8, w0, #0xff
	tbz	w8, #0, 613f
983:
	mov	w9, #1
922:
	movi	v2.2d, #0000000000000000
	ldrb	w10, [sp, #72]
	ldr	s1, [sp, #80]
	ldr	w8, [sp, #84]
	ldur	q0, [sp, #88]
	cmp	x10, #1
	stp	q2, q2, [x29, #-64]
	stp	q2, q2, [x29, #-32]
	b.ne	187f
	ldur	q2, [x22, #40]
	ldur	q3, [x22, #56]
	ushll	v1.8h, v1.8b, #0
	ldur	q4, [x22, #72]
	mov	w9, #1
	stp	q2, q3, [x29, #-64]
	ldur	q2, [x22, #88]
	stp	q4, q2, [x29, #-32]
	b	39f
187:
	mov	w8, wzr
	cbz	w9, 320f
	movi	v2.16b, #46
	adrp	x9, .LC46831c51_0
	adrp	x10, .LC46831c51_1
	ldr	q0, [x9, :lo12:.LC46831c51_0]
	ldr	d1, [x10, :lo12:.LC46831c51_1]
	mov	w9, #1
	stp	q2, q2, [x29, #-64]
	stp	q2, q2, [x29, #-32]
	b	39f
320:
	movi	v1.2d, #0000000000000000
	movi	v0.2d, #0000000000000000
39:
	uzp1	v1.8b, v1.8b, v0.8b
	ldp	q2, q3, [x29, #-64]
	ldp	q4, q5, [x29, #-32]
	strb	w9, [x19]
	str	w8, [x19, #12]
	ldr	x28, [sp, #352]
	stp	q0, q2, [x19, #16]
	ldp	x22, x21, [sp, #384]
	str	s1, [x19, #8]
	ldp	x24, x23, [sp, #368]
	stp	q3, q4, [x19, #48]
	ldp	x29, x30, [sp, #336]
	str	q5, [x19, #80]
	ldp	x20, x19, [sp, #400]
	stp	q2, q3, [sp]
	stp	q4, q5, [sp, #32]
	add	sp, sp, #416
	ret
498:
	bl	core.fmt.formatter.Formatter.write_indented._1ac78889755d2eb3
	and	w8, w0, #0xff
	tbnz	w8, #0, 983b
	b	613b
412:
	bl	core.fmt.formatter.Formatter.write_indented._1ac78889755d2eb3
	and	w8, w0, #0xff
	tbnz	w8, #0, 983b
613:
	mov	w8, #32
	ldr	x9, [sp, #192]
	adrp	x1, .LT3235efc0
	add	x1, x1, :lo12:.LT3235efc0
	str	w8, [sp, #168]
	mov	x8, #-1
	add	x0, sp, #64
	mov	w2, #1
	stur	xzr, [x22, #108]
	stur	wzr, [x22, #116]
	str	x8, [sp, #184]
	cbnz	x9, 498f
	bl	std.io.traits.AdapterWrite.write_str._5349ec06ad6c886c
447:
	and	w9, w0, #0xff
	b	922b
498:
	bl	core.fmt.formatter.Formatter.write_indented._1ac78889755d2eb3
	b	447b
	.section	.rodata.cst16,"aM",@progbits,16
	.p2align	4
.LCb4553005_0:
	.xword	7310596056926023526
	.xword	3346860010425884786
	.section	.rodata.cst8,"aM",@progbits,8
	.p2align	3
.LCb4553005_1:
	.hword	2
	.hword	41
	.hword	15
	.hword	0
	.section	.text.std.io.traits.Write.write_fmt._7427d210d622371f,"ax",@progbits
	.p2align	2
std.io.traits.Write.write_fmt._7427d210d622371f:
	sub	sp, sp, #352
	stp	x20, x19, [sp, #336]
	ldp	x8, x20, [x2]
	adrp	x9, .Lswitch.table.std.io.traits.Write.write_fmt._7427d210d622371f
	add	x9, x9, :lo12:.Lswitch.table.std.io.traits.Write.write_fmt._7427d210d622371f
	stp	x22, x21, [sp, #320]
	movi	v0.2d, #0000000000000000
	ldr	x21, [x2, #16]
	stp	x29, x30, [sp, #272]
	ldrb	w8, [x8]
	stp	x24, x23, [sp, #304]
	add	x29, sp, #272
	mov	x19, x0
	str	x1, [sp]
	mov	w24, #32
	ldr	x2, [x9, x8, lsl #3]
	adrp	x9, .Lswitch.table.std.io.traits.Write.write_fmt._7427d210d622371f_.647.rel
	add	x9, x9, :lo12:.Lswitch.table.std.io.traits.Write.write_fmt._7427d210d622371f_.647.rel
	ldrsw	x8, [x9, x8, lsl #2]
	mov	x23, #-1
	mov	x0, sp
	str	x28, [sp, #288]
	mov	x22, sp
	add	x1, x9, x8
	stp	q0, q0, [x29, #-128]
	stp	q0, q0, [x29, #-96]
	stur	q0, [sp, #8]
	stur	q0, [sp, #24]
	stur	q0, [sp, #40]
	stur	q0, [sp, #56]
	stur	q0, [sp, #72]
	stur	q0, [sp, #88]
	str	w24, [sp, #104]
	stur	xzr, [sp, #108]
	str	wzr, [sp, #116]
	stp	x23, xzr, [sp, #120]
	str	xzr, [sp, #136]
	stur	xzr, [sp, #108]
	str	wzr, [sp, #116]
	bl	std.io.traits.AdapterWrite.write_str._5349ec06ad6c886c
	and	w8, w0, #0xff
	tbz	w8, #0, 93f
	mov	w9, #1
	b	922f
93:
	ldr	x8, [sp, #128]
	mov	x0, sp
	mov	x1, x20
	mov	x2, x21
	str	w24, [sp, #104]
	stur	xzr, [x22, #108]
	stur	wzr, [x22, #116]
	str	x23, [sp, #120]
	cbnz	x8, 498f
	bl	std.io.traits.AdapterWrite.write_str._5349ec06ad6c886c
447:
	and	w9, w0, #0xff
922:
	movi	v2.2d, #0000000000000000
	ldrb	w10, [sp, #8]
	ldr	s1, [sp, #16]
	ldr	w8, [sp, #20]
	ldur	q0, [sp, #24]
	cmp	x10, #1
	stp	q2, q2, [x29, #-64]
	stp	q2, q2, [x29, #-32]
	b.ne	613f
	ldur	q2, [x22, #40]
	ldur	q3, [x22, #56]
	ushll	v1.8h, v1.8b, #0
	ldur	q4, [x22, #72]
	mov	w9, #1
	stp	q2, q3, [x29, #-64]
	ldur	q2, [x22, #88]
	stp	q4, q2, [x29, #-32]
	b	39f
613:
	mov	w8, wzr
	cbz	w9, 922f
	movi	v2.16b, #46
	adrp	x9, .LCb4553005_0
	adrp	x10, .LCb4553005_1
	ldr	q0, [x9, :lo12:.LCb4553005_0]
	ldr	d1, [x10, :lo12:.LCb4553005_1]
	mov	w9, #1
	stp	q2, q2, [x29, #-64]
	stp	q2, q2, [x29, #-32]
	b	39f
922:
	movi	v1.2d, #0000000000000000
	movi	v0.2d, #0000000000000000
39:
	uzp1	v1.8b, v1.8b, v0.8b
	ldp	q2, q3, [x29, #-64]
	ldp	q4, q5, [x29, #-32]
	strb	w9, [x19]
	str	w8, [x19, #12]
	ldr	x28, [sp, #288]
	stp	q2, q3, [x29, #-128]
	ldp	x22, x21, [sp, #320]
	stp	q4, q5, [x29, #-96]
	ldp	x24, x23, [sp, #304]
	str	s1, [x19, #8]
	ldp	x29, x30, [sp, #272]
	stp	q0, q2, [x19, #16]
	stp	q3, q4, [x19, #48]
	str	q5, [x19, #80]
	ldp	x20, x19, [sp, #336]
	add	sp, sp, #352
	ret
498:
	bl	core.fmt.formatter.Formatter.write_indented._1ac78889755d2eb3
	b	447b
	.section	.text.std_alloc.vec.Vec.drop._eda3823cd94715d4,"ax",@progbits
	.p2align	2
std_alloc.vec.Vec.drop._eda3823cd94715d4:
	stp	x29, x30, [sp, #-64]!
	stp	x22, x21, [sp, #32]
	ldr	x22, [x0, #16]
	mov	x29, sp
	stp	x20, x19, [sp, #48]
	ldp	x19, x21, [x0]
	stp	x24, x23, [sp, #16]
	cbz	x21, 983f
	add	x23, x19, #24
	b	976f
321:
	subs	x21, x21, #1
	add	x23, x23, #56
	b.eq	983f
976:
	ldp	x8, x20, [x23]
	ldr	x24, [x23, #24]
	cbz	x8, 613f
	ldur	x0, [x23, #-16]
	bl	rattle_dealloc
613:
	cbz	x24, 321b
	mov	x0, x20
	bl	rattle_dealloc
	b	321b
983:
	cbz	x22, 976f
	mov	x0, x19
	ldp	x20, x19, [sp, #48]
	ldp	x22, x21, [sp, #32]
	ldp	x24, x23, [sp, #16]
	ldp	x29, x30, [sp], #64
	b	rattle_dealloc
976:
	ldp	x20, x19, [sp, #48]
	ldp	x22, x21, [sp, #32]
	ldp	x24, x23, [sp, #16]
	ldp	x29, x30, [sp], #64
	ret
	.section	.text.std_alloc.vec.Vec.drop._135a1426c75792d3,"ax",@progbits
	.p2align	2
std_alloc.vec.Vec.drop._135a1426c75792d3:
	sub	sp, sp, #224
	ldp	x8, x9, [x0]
	stp	x29, x30, [sp, #128]
	stp	x28, x27, [sp, #144]
	add	x29, sp, #128
	stp	x26, x25, [sp, #160]
	stp	x9, x8, [sp, #16]
	ldr	x8, [x0, #16]
	stp	x24, x23, [sp, #176]
	stp	x22, x21, [sp, #192]
	stp	x20, x19, [sp, #208]
	str	x8, [sp, #8]
	cbz	x9, 659f
	mov	x25, xzr
	b	613f
625:
	sub	x0, x29, #48
	bl	tc_session.tc_queues_queues_Queues_Destruct.drop._f5f2ab754c6761f3
	add	x0, sp, #32
	bl	tc_session.tc_queues_queues_Queues_Destruct.drop._f5f2ab754c6761f3
	ldr	x8, [sp, #16]
	add	x25, x25, #1
	cmp	x25, x8
	b.eq	659f
613:
	mov	w8, #272
	ldr	x9, [sp, #24]
	madd	x8, x25, x8, x9
	ldp	q0, q1, [x8, #160]
	ldr	x0, [x8, #8]
	ldp	x9, x22, [x8, #24]
	ldr	x23, [x8, #48]
	ldp	x21, x19, [x8, #64]
	ldr	x26, [x8, #152]
	stp	q0, q1, [x29, #-48]
	ldp	q0, q2, [x8, #192]
	ldp	x28, x24, [x8, #80]
	ldp	x20, x27, [x8, #136]
	stur	q0, [x29, #-16]
	ldp	q0, q1, [x8, #224]
	stp	q2, q0, [sp, #32]
	str	q1, [sp, #64]
	cbz	x9, 613f
	bl	rattle_dealloc
613:
	cbz	x23, 118f
	mov	x0, x22
	bl	rattle_dealloc
118:
	cbz	x28, 613f
	cmp	x24, x19
	csel	x8, xzr, x19, lo
	sub	x9, x24, x8
	subs	x10, x19, x9
	cmp	x10, x28
	csel	x23, x10, x28, lo
	subs	x19, x19, x9
	b.ne	625f
118:
	cmp	x28, x19
	b.ls	613f
	sub	x19, x28, x23
	add	x22, x21, #16
	b	93f
321:
	subs	x19, x19, #1
	add	x22, x22, #32
	b.eq	613f
93:
	ldr	x8, [x22]
	cbz	x8, 321b
	ldur	x0, [x22, #-16]
	bl	rattle_dealloc
	b	321b
613:
	mov	x0, x21
	bl	rattle_dealloc
	cbz	x27, 613f
	add	x19, x20, #24
	b	93f
321:
	subs	x27, x27, #1
	add	x19, x19, #40
	b.eq	613f
93:
	ldr	x8, [x19]
	cbz	x8, 321b
	ldur	x0, [x19, #-16]
	bl	rattle_dealloc
	b	321b
613:
	cbz	x26, 625b
	mov	x0, x20
	bl	rattle_dealloc
	b	625b
625:
	sub	x8, x21, x8, lsl #5
	mov	x22, x23
	add	x8, x8, x24, lsl #5
	add	x24, x8, #16
	b	93f
321:
	subs	x22, x22, #1
	add	x24, x24, #32
	b.eq	118b
93:
	ldr	x8, [x24]
	cbz	x8, 321b
	ldur	x0, [x24, #-16]
	bl	rattle_dealloc
	b	321b
659:
	ldr	x8, [sp, #8]
	cbz	x8, 976f
	ldp	x20, x19, [sp, #208]
	ldr	x0, [sp, #24]
	ldp	x22, x21, [sp, #192]
	ldp	x24, x23, [sp, #176]
	ldp	x26, x25, [sp, #160]
	ldp	x28, x27, [sp, #144]
	ldp	x29, x30, [sp, #128]
	add	sp, sp, #224
	b	rattle_dealloc
976:
	ldp	x20, x19, [sp, #208]
	ldp	x22, x21, [sp, #192]
	ldp	x24, x23, [sp, #176]
	ldp	x26, x25, [sp, #160]
	ldp	x28, x27, [sp, #144]
	ldp	x29, x30, [sp, #128]
	add	sp, sp, #224
	ret
	.section	.text.tc_session.tc_queues_queues_Queues_Destruct.drop._f5f2ab754c6761f3,"ax",@progbits
	.p2align	2
tc_session.tc_queues_queues_Queues_Destruct.drop._f5f2ab754c6761f3:
	sub	sp, sp, #112
	stp	x24, x23, [sp, #64]
	ldp	x23, x8, [x0, #16]
	stp	x20, x19, [sp, #96]
	ldp	x20, x24, [x0]
	stp	x29, x30, [sp, #16]
	add	x29, sp, #16
	str	x8, [sp]
	ldr	x8, [x0, #40]
	stp	x28, x27, [sp, #32]
	stp	x26, x25, [sp, #48]
	stp	x22, x21, [sp, #80]
	str	x8, [sp, #8]
	cbz	x24, 983f
	mov	x25, xzr
	b	62f
613:
	mov	x0, x21
	bl	rattle_dealloc
	add	x25, x25, #1
	cmp	x25, x24
	b.eq	983f
62:
	add	x9, x20, x25, lsl #6
	ldr	x26, [x9, #24]
	ldr	x21, [x9, #8]
	cbz	x26, 613b
	ldr	x8, [x9, #32]
	ldr	x10, [x9, #16]
	cmp	x8, x10
	csel	x9, xzr, x10, lo
	sub	x11, x8, x9
	subs	x12, x10, x11
	cmp	x12, x26
	csel	x22, x12, x26, lo
	subs	x28, x10, x11
	b.ne	625f
118:
	cmp	x26, x28
	b.ls	613b
	sub	x26, x26, x22
	add	x19, x21, #16
	b	93f
321:
	subs	x26, x26, #1
	add	x19, x19, #32
	b.eq	613b
93:
	ldr	x8, [x19]
	cbz	x8, 321b
	ldur	x0, [x19, #-16]
	bl	rattle_dealloc
	b	321b
625:
	sub	x9, x21, x9, lsl #5
	mov	x27, x22
	add	x8, x9, x8, lsl #5
	add	x19, x8, #16
	b	93f
321:
	subs	x27, x27, #1
	add	x19, x19, #32
	b.eq	118b
93:
	ldr	x8, [x19]
	cbz	x8, 321b
	ldur	x0, [x19, #-16]
	bl	rattle_dealloc
	b	321b
983:
	cbz	x23, 93f
	mov	x0, x20
	bl	rattle_dealloc
93:
	ldr	x8, [sp, #8]
	cbz	x8, 976f
	ldp	x20, x19, [sp, #96]
	ldr	x0, [sp]
	ldp	x22, x21, [sp, #80]
	ldp	x24, x23, [sp, #64]
	ldp	x26, x25, [sp, #48]
	ldp	x28, x27, [sp, #32]
	ldp	x29, x30, [sp, #16]
	add	sp, sp, #112
	b	rattle_dealloc
976:
	ldp	x20, x19, [sp, #96]
	ldp	x22, x21, [sp, #80]
	ldp	x24, x23, [sp, #64]
	ldp	x26, x25, [sp, #48]
	ldp	x28, x27, [sp, #32]
	ldp	x29, x30, [sp, #16]
	add	sp, sp, #112
	ret
	.section	.text.std_alloc.vec.Vec.drop._26dad1ae63f4b67d,"ax",@progbits
	.p2align	2
std_alloc.vec.Vec.drop._26dad1ae63f4b67d:
	stp	x29, x30, [sp, #-48]!
	stp	x20, x19, [sp, #32]
	ldp	x19, x20, [x0]
	stp	x22, x21, [sp, #16]
	mov	x29, sp
	ldr	x21, [x0, #16]
	cbz	x20, 613f
	add	x22, x19, #16
	b	257f
321:
	subs	x20, x20, #1
	add	x22, x22, #56
	b.eq	613f
257:
	ldurb	w8, [x22, #-16]
	cbz	w8, 321b
	ldr	x8, [x22, #16]
	cbz	x8, 321b
	ldr	x0, [x22]
	bl	rattle_dealloc
	b	321b
613:
	cbz	x21, 976f
	mov	x0, x19
	ldp	x20, x19, [sp, #32]
	ldp	x22, x21, [sp, #16]
	ldp	x29, x30, [sp], #48
	b	rattle_dealloc
976:
	ldp	x20, x19, [sp, #32]
	ldp	x22, x21, [sp, #16]
	ldp	x29, x30, [sp], #48
	ret
	.section	.text.tc_c_base.status.code,"ax",@progbits
	.p2align	2
tc_c_base.status.code:
	and	x8, x0, #0xff
	adrp	x9, .Lswitch.table.tc_c_base.status.code
	add	x9, x9, :lo12:.Lswitch.table.tc_c_base.status.code
	ldr	w0, [x9, x8, lsl #2]
	ret
	.section	.text.tc_session.session.Session.close,"ax",@progbits
	.p2align	2
tc_session.session.Session.close:
	stp	x29, x30, [sp, #-96]!
	stp	x28, x27, [sp, #16]
	mov	x29, sp
	stp	x26, x25, [sp, #32]
	stp	x24, x23, [sp, #48]
	stp	x22, x21, [sp, #64]
	stp	x20, x19, [sp, #80]
	sub	sp, sp, #496
	movi	v0.2d, #0000000000000000
	ldrb	w10, [x1, #8]
	ldrh	w8, [x1, #2]
	ldp	x9, x24, [x1, #16]
	mov	w25, w3
	ldp	x20, x19, [x1, #32]
	mov	w23, w2
	cmp	w10, #1
	add	x27, sp, #208
	add	x22, x0, #88
	stp	q0, q0, [sp, #64]
	str	xzr, [sp, #96]
	b.eq	613f
	ldr	q0, [x1, #48]
	add	x0, sp, #64
	add	x2, sp, #208
	mov	w1, w8
	stp	x9, x24, [sp, #208]
	stp	x20, x19, [sp, #224]
	str	q0, [x27, #32]
	bl	tc_rack.rack.Rack.new
	ldrb	w8, [sp, #64]
	cbnz	w8, 187f
	ldp	x24, x20, [sp, #80]
	ldr	x19, [sp, #96]
613:
	cbz	x20, 625f
	mov	x8, #31775
	movk	x8, #49648, lsl #16
	movk	x8, #7943, lsl #32
	movk	x8, #124, lsl #48
	cmp	x20, x8
	b.hi	983f
	add	x8, x20, x20, lsl #5
	mov	w1, #8
	lsl	x0, x8, #3
	bl	rattle_alloc
	tbz	w0, #0, 983f
	mov	x21, x1
	str	w23, [sp, #16]
	mov	w23, w25
	mov	x28, x22
	mov	x25, x24
	mov	x26, x1
	mov	x22, x20
613:
	mov	x0, x26
	mov	x1, x25
	mov	w2, #264
	sub	x22, x22, #1
	bl	memmove
	add	x26, x26, #264
	add	x25, x25, #272
	cbnz	x22, 613b
	mov	w25, w23
	ldr	w23, [sp, #16]
	mov	x22, x28
	cbnz	x19, 613f
	b	280f
983:
	mov	x0, x24
	mov	x1, xzr
	mov	x2, x20
	bl	std_alloc.vec.opened.drop_run._3218a469551dd1ce
	cbz	x19, 187f
	mov	x0, x24
	bl	rattle_dealloc
187:
	mov	w8, wzr
	movi	v0.2d, #0000000000000000
	str	wzr, [sp, #192]
	stp	q0, q0, [sp, #64]
	stp	q0, q0, [sp, #96]
	stp	q0, q0, [sp, #128]
	tbz	w23, #0, 187f
118:
	cmp	w8, #0
	mov	w8, #4
	mov	w9, #14
	csel	w8, w8, wzr, ne
	csel	w10, wzr, w25, ne
	add	x0, sp, #64
	stp	w8, w10, [sp, #184]
	csel	w8, wzr, w9, ne
	adrp	x9, .LT3235efc0
	add	x9, x9, :lo12:.LT3235efc0
	strb	w8, [sp, #192]
	add	x8, sp, #184
	stp	x8, x9, [sp, #208]
	mov	w8, #1
	add	x2, sp, #208
	mov	x1, x22
	str	x8, [sp, #224]
	bl	std.io.traits.Write.write_fmt._66d26946d4f3efb7
	ldrb	w8, [sp, #64]
	b	118f
625:
	sub	x21, x29, #24
	cbz	x19, 280f
613:
	mov	x0, x24
	bl	rattle_dealloc
280:
	cmp	x20, #20
	str	x22, [sp, #32]
	str	w25, [sp, #24]
	b.hi	556f
	cmp	x20, #2
	b.lo	93f
	sub	x19, x21, #264
	mov	w26, #1
	b	983f
613:
	mov	x8, xzr
62:
	add	x0, x21, x8
	add	x1, sp, #208
	mov	w2, #263
	strb	w28, [x0], #1
	bl	memcpy
316:
	add	x26, x26, #1
	add	x19, x19, #264
	cmp	x26, x20
	b.eq	93f
983:
	mov	w8, #264
	madd	x24, x26, x8, x21
	sub	x25, x24, #264
	ldrb	w28, [x24]
	ldrb	w8, [x25]
	cmp	w28, w8
	b.hs	316b
	add	x0, sp, #208
	add	x1, x24, #1
	mov	w2, #263
	sub	x22, x26, #1
	bl	memcpy
	mov	x0, x24
	mov	x1, x25
	mov	w2, #264
	bl	memcpy
	cbz	x22, 613b
	mov	x24, x19
602:
	ldrb	w8, [x24]
	cmp	w28, w8
	b.hs	316f
	add	x0, x24, #264
	mov	x1, x24
	mov	w2, #264
	sub	x22, x22, #1
	bl	memcpy
	sub	x24, x24, #264
	cbnz	x22, 602b
316:
	add	x8, x22, x22, lsl #5
	lsl	x8, x8, #3
	b	62b
556:
	ldrb	w8, [x21, #264]
	ldrb	w9, [x21]
	add	x11, x21, #264
	mov	w10, #2
	cmp	w8, w9
	b.hs	556f
602:
	ldrb	w12, [x11, #264]
	ldrb	w13, [x11]
	cmp	w12, w13
	b.hs	280f
	add	x10, x10, #1
	add	x11, x11, #264
	cmp	x20, x10
	b.ne	602b
	b	405f
556:
	ldrb	w12, [x11, #264]
	ldrb	w13, [x11]
	cmp	w12, w13
	b.lo	280f
	add	x10, x10, #1
	add	x11, x11, #264
	cmp	x20, x10
	b.ne	556b
	b	93f
280:
	cmp	x10, x20
	b.hs	280f
	clz	x8, x20
	mov	x0, x21
	mov	x1, xzr
	lsl	w8, w8, #1
	mov	x2, x20
	eor	w3, w8, #0x7e
	bl	core.slice.sort.unstable.quicksort._454af122397d76be
	b	93f
280:
	cmp	w8, w9
	b.hs	93f
405:
	lsr	x2, x20, #1
	mov	w9, #264
	mov	x0, x21
	sub	x8, x20, x2
	madd	x1, x8, x9, x21
	bl	core.slice.edits.mirror._b5829e14db1caa1c
93:
	ldr	x22, [sp, #32]
	ldr	w25, [sp, #24]
	add	x8, x20, #1
	mov	w9, #256
321:
	subs	x8, x8, #1
	b.eq	32f
	ldr	x10, [x21, x9]
	add	x9, x9, #264
	cmn	x10, #1
	b.ne	321b
	mov	x24, x21
62:
	add	x0, sp, #208
	mov	x1, x24
	mov	w2, #264
	bl	memcpy
	add	x0, sp, #208
	bl	tc_live.tc_channel_channel_ChannelWith_Destruct.drop._429e4231f6288bb6
	subs	x20, x20, #1
	add	x24, x24, #264
	b.ne	62b
	mov	x0, x21
	bl	rattle_dealloc
	mov	w8, #1
	movi	v0.2d, #0000000000000000
	str	wzr, [sp, #192]
	stp	q0, q0, [sp, #64]
	stp	q0, q0, [sp, #96]
	stp	q0, q0, [sp, #128]
	tbnz	w23, #0, 118b
187:
	mov	w9, #32
	str	x22, [sp, #208]
	str	w9, [sp, #312]
	mov	x9, #-1
	stur	q0, [x27, #8]
	stur	q0, [x27, #24]
	stur	q0, [x27, #40]
	stur	q0, [x27, #56]
	stur	q0, [x27, #72]
	stur	q0, [x27, #88]
	stp	xzr, xzr, [sp, #336]
	stur	xzr, [x27, #108]
	str	wzr, [sp, #324]
	str	x9, [sp, #328]
	tbz	w8, #0, 939f
	adrp	x1, .LTde3001dd
	add	x1, x1, :lo12:.LTde3001dd
	add	x0, sp, #208
	mov	w2, #10
	bl	std.io.traits.AdapterWrite.write_str._5349ec06ad6c886c
	and	w8, w0, #0xff
	tbz	w8, #0, 613f
602:
	ldrb	w8, [sp, #216]
	cmp	x8, #1
	b.ne	983f
	b	118f
939:
	adrp	x1, .LT11c32282
	add	x1, x1, :lo12:.LT11c32282
	add	x0, sp, #208
	mov	w2, #9
	bl	std.io.traits.AdapterWrite.write_str._5349ec06ad6c886c
	and	w8, w0, #0xff
	tbnz	w8, #0, 602b
613:
	mov	w8, #32
	add	x9, sp, #208
	adrp	x1, .LT3235efc0
	add	x1, x1, :lo12:.LT3235efc0
	str	w8, [sp, #312]
	ldr	x8, [sp, #336]
	stur	xzr, [x9, #108]
	add	x0, sp, #208
	mov	w2, #1
	stur	wzr, [x9, #116]
	mov	x9, #-1
	str	x9, [sp, #328]
	cbnz	x8, 445f
	bl	std.io.traits.AdapterWrite.write_str._5349ec06ad6c886c
	ldrb	w9, [sp, #216]
	and	w8, w0, #0xff
	cmp	x9, #1
	b.eq	983f
360:
	cbz	w8, 118f
983:
	mov	w8, #1
118:
	cmp	w8, #0
	mov	w8, #3
	csinc	w0, w8, wzr, ne
62:
	add	sp, sp, #496
	ldp	x20, x19, [sp, #80]
	ldp	x22, x21, [sp, #64]
	ldp	x24, x23, [sp, #48]
	ldp	x26, x25, [sp, #32]
	ldp	x28, x27, [sp, #16]
	ldp	x29, x30, [sp], #96
	ret
32:
	cbz	x20, 583f
	mov	x23, xzr
	add	x24, sp, #208
	add	x26, sp, #64
613:
	mov	w8, #264
	adrp	x1, .LT8483e2a3
	add	x1, x1, :lo12:.LT8483e2a3
	madd	x25, x23, x8, x21
	add	x16, sp, #60
	adrp	x17, .LT78f06cc6
	add	x17, x17, :lo12:.LT78f06cc6
	movi	v0.2d, #0000000000000000
	mov	w19, #32
	add	x0, sp, #208
	mov	w2, #6
	ldrb	w8, [x25]
	ldr	x9, [x25, #256]
	strb	w8, [sp, #60]
	ldrb	w10, [x25, #58]
	ldrb	w11, [x25, #59]
	ldrb	w12, [x25, #60]
	ldrb	w13, [x25, #61]
	ldrb	w14, [x25, #62]
	str	x9, [sp, #48]
	orr	w10, w10, w11, lsl #13
	mov	w9, #6
	ldr	x15, [x25, #96]
	stp	x1, x9, [sp, #64]
	adrp	x9, .LT37337163
	add	x9, x9, :lo12:.LT37337163
	add	w8, w10, w8, lsl #18
	stp	x16, x9, [sp, #80]
	mov	w16, #1
	add	x9, sp, #56
	mov	w10, #16777216
	str	x22, [sp, #208]
	add	w8, w8, w12, lsl #12
	stp	x16, x9, [sp, #96]
	mov	w9, #8
	stp	x17, x9, [sp, #112]
	add	x17, sp, #48
	adrp	x9, .LTa04389c8
	add	x9, x9, :lo12:.LTa04389c8
	add	w8, w8, w13, lsl #11
	mov	x22, #-1
	stp	x17, x9, [sp, #128]
	mov	w9, #10
	add	w8, w8, w14, lsl #9
	stur	q0, [x24, #8]
	stur	q0, [x24, #24]
	add	w8, w8, w10
	stur	q0, [x24, #40]
	str	w8, [sp, #56]
	add	x8, sp, #40
	stp	x9, x8, [sp, #144]
	adrp	x8, .LT3235efc0
	add	x8, x8, :lo12:.LT3235efc0
	stur	q0, [x24, #56]
	stur	q0, [x24, #72]
	stur	q0, [x24, #88]
	stp	xzr, xzr, [x24, #128]
	str	x15, [sp, #40]
	stp	x8, x16, [sp, #160]
	str	w19, [sp, #312]
	stur	xzr, [x24, #108]
	stur	wzr, [x24, #116]
	str	x22, [sp, #328]
	bl	std.io.traits.AdapterWrite.write_str._5349ec06ad6c886c
	and	w8, w0, #0xff
	tbnz	w8, #0, 613f
	ldrb	w10, [sp, #60]
	str	w19, [sp, #312]
	stur	xzr, [x24, #108]
	cmp	w10, #100
	stur	wzr, [x24, #116]
	str	x22, [sp, #328]
	stp	xzr, xzr, [sp, #184]
	str	xzr, [sp, #200]
	b.lo	118f
	mov	w8, #41
	mul	w8, w10, w8
	lsr	w9, w8, #12
	mov	w8, #100
	msub	w8, w9, w8, w10
	mov	w10, #205
	and	w11, w8, #0xff
	mul	w10, w11, w10
	mov	w11, #10
	lsr	w10, w10, #11
	msub	w8, w10, w11, w8
	orr	w10, w10, #0x30
	strb	w10, [sp, #206]
	orr	w8, w8, #0x30
	strb	w8, [sp, #207]
	mov	w8, #21
	b	316f
118:
	cmp	w10, #10
	b.lo	187f
	mov	w8, #205
	mov	w9, #10
	mul	w8, w10, w8
	lsr	w8, w8, #11
	msub	w9, w8, w9, w10
	orr	w8, w8, #0x30
	strb	w8, [sp, #206]
	mov	w8, #22
	orr	w9, w9, #0x30
	strb	w9, [sp, #207]
	b	481f
187:
	mov	w8, #23
	mov	w9, w10
316:
	add	x10, sp, #184
	orr	w9, w9, #0x30
	strb	w9, [x10, x8]
481:
	add	x9, sp, #184
	ldr	x10, [sp, #336]
	mov	w11, #24
	add	x1, x9, x8
	mov	w9, #45
	sub	x2, x11, x8
	add	x0, sp, #208
	sturb	w9, [x1, #-1]
	cbnz	x10, 672f
	bl	std.io.traits.AdapterWrite.write_str._5349ec06ad6c886c
	and	w8, w0, #0xff
	tbnz	w8, #0, 613f
187:
	mov	w8, #32
	ldr	x9, [sp, #336]
	adrp	x1, .LT37337163
	add	x1, x1, :lo12:.LT37337163
	str	w8, [sp, #312]
	mov	x8, #-1
	add	x0, sp, #208
	mov	w2, #1
	stur	xzr, [x24, #108]
	stur	wzr, [x24, #116]
	str	x8, [sp, #328]
	cbnz	x9, 51f
	bl	std.io.traits.AdapterWrite.write_str._5349ec06ad6c886c
	and	w8, w0, #0xff
	tbnz	w8, #0, 613f
316:
	add	x0, sp, #208
	add	x1, x26, #40
	bl	core.fmt.formatter.Formatter.write_piece._372ad1e79d773fc5
	and	w8, w0, #0xff
	tbnz	w8, #0, 613f
	mov	w8, #32
	ldr	x9, [sp, #336]
	adrp	x1, .LT78f06cc6
	add	x1, x1, :lo12:.LT78f06cc6
	str	w8, [sp, #312]
	mov	x8, #-1
	add	x0, sp, #208
	mov	w2, #8
	stur	xzr, [x24, #108]
	stur	wzr, [x24, #116]
	str	x8, [sp, #328]
	cbnz	x9, 667f
	bl	std.io.traits.AdapterWrite.write_str._5349ec06ad6c886c
	and	w8, w0, #0xff
	tbnz	w8, #0, 613f
32:
	mov	w8, #32
	mov	x26, #62915
	stur	xzr, [x24, #108]
	str	w8, [sp, #312]
	mov	x8, #-1
	movk	x26, #23592, lsl #16
	str	x8, [sp, #328]
	ldr	x8, [sp, #48]
	movk	x26, #49807, lsl #32
	movk	x26, #10485, lsl #48
	stur	wzr, [x24, #116]
	cmp	x8, #100
	stp	xzr, xzr, [sp, #184]
	str	xzr, [sp, #200]
	b.lo	911f
	mov	x9, xzr
943:
	mov	x10, x8
	lsr	x8, x8, #2
	mov	w11, #100
	mov	w12, #205
	umulh	x8, x8, x26
	lsr	x8, x8, #2
	msub	w11, w8, w11, w10
	lsr	x10, x10, #4
	cmp	x10, #624
	and	w13, w11, #0xff
	mul	w12, w13, w12
	mov	w13, #10
	lsr	w12, w12, #11
	msub	w11, w12, w13, w11
	add	x13, sp, #184
	orr	w10, w12, #0x30
	add	x13, x13, x9
	sub	x9, x9, #2
	strb	w10, [x13, #22]
	orr	w11, w11, #0x30
	strb	w11, [x13, #23]
	b.hi	943b
	add	x9, x9, #24
	cmp	x8, #10
	b.hs	447f
625:
	sub	x9, x9, #1
	add	x10, sp, #184
	orr	w8, w8, #0x30
	strb	w8, [x10, x9]
	b	481f
911:
	mov	w9, #24
	cmp	x8, #10
	b.lo	625b
447:
	and	w10, w8, #0xff
	mov	w11, #205
	mul	w10, w10, w11
	mov	w11, #10
	lsr	w10, w10, #11
	msub	w8, w10, w11, w8
	add	x11, sp, #184
	orr	w10, w10, #0x30
	add	x11, x11, x9
	sub	x9, x9, #2
	sturb	w10, [x11, #-2]
	orr	w8, w8, #0x30
	sturb	w8, [x11, #-1]
481:
	add	x8, sp, #184
	ldr	x10, [sp, #336]
	mov	w11, #24
	add	x1, x8, x9
	mov	w8, #45
	sub	x2, x11, x9
	add	x0, sp, #208
	sturb	w8, [x1, #-1]
	cbnz	x10, 671f
	bl	std.io.traits.AdapterWrite.write_str._5349ec06ad6c886c
	and	w8, w0, #0xff
	tbnz	w8, #0, 613f
943:
	mov	w8, #32
	ldr	x9, [sp, #336]
	adrp	x1, .LTa04389c8
	add	x1, x1, :lo12:.LTa04389c8
	str	w8, [sp, #312]
	mov	x8, #-1
	add	x0, sp, #208
	mov	w2, #10
	stur	xzr, [x24, #108]
	stur	wzr, [x24, #116]
	str	x8, [sp, #328]
	cbnz	x9, 460f
	bl	std.io.traits.AdapterWrite.write_str._5349ec06ad6c886c
	and	w8, w0, #0xff
	tbnz	w8, #0, 613f
911:
	mov	w8, #32
	stur	xzr, [x24, #108]
	str	w8, [sp, #312]
	mov	x8, #-1
	str	x8, [sp, #328]
	ldr	x8, [sp, #40]
	stur	wzr, [x24, #116]
	cmp	x8, #100
	stp	xzr, xzr, [sp, #184]
	str	xzr, [sp, #200]
	b.lo	599f
	mov	x9, xzr
239:
	mov	x10, x8
	lsr	x8, x8, #2
	mov	w11, #100
	mov	w12, #205
	umulh	x8, x8, x26
	lsr	x8, x8, #2
	msub	w11, w8, w11, w10
	lsr	x10, x10, #4
	cmp	x10, #624
	and	w13, w11, #0xff
	mul	w12, w13, w12
	mov	w13, #10
	lsr	w12, w12, #11
	msub	w11, w12, w13, w11
	add	x13, sp, #184
	orr	w10, w12, #0x30
	add	x13, x13, x9
	sub	x9, x9, #2
	strb	w10, [x13, #22]
	orr	w11, w11, #0x30
	strb	w11, [x13, #23]
	b.hi	239b
	add	x9, x9, #24
	cmp	x8, #10
	b.hs	447f
625:
	sub	x9, x9, #1
	add	x10, sp, #184
	orr	w8, w8, #0x30
	strb	w8, [x10, x9]
	b	481f
599:
	mov	w9, #24
	cmp	x8, #10
	b.lo	625b
447:
	and	w10, w8, #0xff
	mov	w11, #205
	mul	w10, w10, w11
	mov	w11, #10
	lsr	w10, w10, #11
	msub	w8, w10, w11, w8
	add	x11, sp, #184
	orr	w10, w10, #0x30
	add	x11, x11, x9
	sub	x9, x9, #2
	sturb	w10, [x11, #-2]
	orr	w8, w8, #0x30
	sturb	w8, [x11, #-1]
481:
	add	x8, sp, #184
	ldr	x10, [sp, #336]
	mov	w11, #24
	add	x1, x8, x9
	mov	w8, #45
	sub	x2, x11, x9
	add	x0, sp, #208
	sturb	w8, [x1, #-1]
	cbnz	x10, 81f
	bl	std.io.traits.AdapterWrite.write_str._5349ec06ad6c886c
	and	w8, w0, #0xff
	tbnz	w8, #0, 613f
239:
	mov	w8, #32
	ldr	x9, [sp, #336]
	adrp	x1, .LT3235efc0
	add	x1, x1, :lo12:.LT3235efc0
	str	w8, [sp, #312]
	mov	x8, #-1
	add	x0, sp, #208
	mov	w2, #1
	stur	xzr, [x24, #108]
	stur	wzr, [x24, #116]
	str	x8, [sp, #328]
	cbnz	x9, 352f
	bl	std.io.traits.AdapterWrite.write_str._5349ec06ad6c886c
	and	w8, w0, #0xff
	tbnz	w8, #0, 613f
602:
	ldrb	w8, [sp, #216]
	cmp	x8, #1
	b.eq	613f
	ldr	x12, [x25, #16]
	str	x23, [sp, #8]
	cbz	x12, 93f
	ldr	x13, [x25, #8]
	mov	x24, xzr
	stp	x13, x12, [sp, #16]
	b	192f
481:
	add	x24, x24, #1
	cmp	x24, x12
	b.eq	93f
192:
	lsl	x8, x24, #2
	ldr	x10, [x25, #192]
	ldrb	w28, [x25]
	ldrh	w19, [x13, x8]
	ldp	x8, x9, [x25, #160]
	cmp	x10, x19
	b.ls	599f
	ldr	x10, [x25, #184]
	ldrh	w10, [x10, x19, lsl #1]
	cmp	x9, x10
	b.ls	481b
	lsl	x10, x10, #6
922:
	movi	v0.2d, #0000000000000000
	add	x8, x8, x10
	mov	w27, #32
	ldr	x22, [x8, #40]
	ldr	x8, [sp, #32]
	mov	x23, #-1
	adrp	x1, .LT46c79790
	add	x1, x1, :lo12:.LT46c79790
	add	x0, sp, #208
	str	x8, [sp, #208]
	add	x8, sp, #208
	mov	w2, #6
	stur	q0, [x8, #8]
	stur	q0, [x8, #24]
	stur	q0, [x8, #40]
	stur	q0, [x8, #56]
	stur	q0, [x8, #72]
	stur	q0, [x8, #88]
	stp	xzr, xzr, [x8, #128]
	str	w27, [sp, #312]
	stur	xzr, [x8, #108]
	stur	wzr, [x8, #116]
	str	x23, [sp, #328]
	bl	std.io.traits.AdapterWrite.write_str._5349ec06ad6c886c
	and	w8, w0, #0xff
	tbnz	w8, #0, 613f
	add	x8, sp, #208
	cmp	w28, #100
	str	w27, [sp, #312]
	stur	xzr, [x8, #108]
	stur	wzr, [x8, #116]
	str	x23, [sp, #328]
	stp	xzr, xzr, [sp, #64]
	str	xzr, [sp, #80]
	b.lo	118f
	mov	w8, #41
	mov	w10, #205
	mul	w8, w28, w8
	lsr	w9, w8, #12
	mov	w8, #100
	msub	w8, w9, w8, w28
	and	w11, w8, #0xff
	mul	w10, w11, w10
	mov	w11, #10
	lsr	w10, w10, #11
	msub	w8, w10, w11, w8
	orr	w10, w10, #0x30
	strb	w10, [sp, #86]
	orr	w8, w8, #0x30
	strb	w8, [sp, #87]
	mov	w8, #21
	b	148f
599:
	cbz	x9, 481b
	mov	x10, xzr
335:
	ldrh	w11, [x8, x10]
	cmp	w19, w11
	b.eq	922b
	subs	x9, x9, #1
	add	x10, x10, #64
	b.ne	335b
	b	481b
118:
	cmp	w28, #10
	b.lo	599f
	mov	w8, #205
	mov	w9, #10
	mul	w8, w28, w8
	lsr	w8, w8, #11
	msub	w9, w8, w9, w28
	orr	w8, w8, #0x30
	strb	w8, [sp, #86]
	mov	w8, #22
	orr	w9, w9, #0x30
	strb	w9, [sp, #87]
	b	946f
599:
	mov	w8, #23
	mov	w9, w28
148:
	add	x10, sp, #64
	orr	w9, w9, #0x30
	strb	w9, [x10, x8]
946:
	add	x9, sp, #64
	ldr	x10, [sp, #336]
	mov	w11, #24
	add	x1, x9, x8
	mov	w9, #45
	sub	x2, x11, x8
	add	x0, sp, #208
	sturb	w9, [x1, #-1]
	cbnz	x10, 498f
	bl	std.io.traits.AdapterWrite.write_str._5349ec06ad6c886c
	and	w8, w0, #0xff
	tbnz	w8, #0, 613f
599:
	mov	w8, #32
	ldr	x9, [sp, #336]
	add	x10, sp, #208
	str	w8, [sp, #312]
	mov	x8, #-1
	adrp	x1, .LT37337163
	add	x1, x1, :lo12:.LT37337163
	add	x0, sp, #208
	mov	w2, #1
	stur	xzr, [x10, #108]
	stur	wzr, [x10, #116]
	str	x8, [sp, #328]
	cbnz	x9, 412f
	bl	std.io.traits.AdapterWrite.write_str._5349ec06ad6c886c
	and	w8, w0, #0xff
	tbnz	w8, #0, 613f
307:
	mov	w8, #32
	add	x9, sp, #208
	cmp	w19, #100
	str	w8, [sp, #312]
	mov	x8, #-1
	stur	xzr, [x9, #108]
	stur	wzr, [x9, #116]
	str	x8, [sp, #328]
	stp	xzr, xzr, [sp, #64]
	str	xzr, [sp, #80]
	b.lo	349f
	mov	x8, xzr
405:
	lsr	x10, x19, #2
	mov	x9, x19
	mov	w11, #205
	umulh	x10, x10, x26
	lsr	x19, x10, #2
	mov	w10, #100
	msub	w10, w19, w10, w9
	lsr	x9, x9, #4
	cmp	x9, #624
	and	w12, w10, #0xff
	mul	w11, w12, w11
	mov	w12, #10
	lsr	w11, w11, #11
	msub	w10, w11, w12, w10
	add	x12, sp, #64
	orr	w9, w11, #0x30
	add	x12, x12, x8
	sub	x8, x8, #2
	strb	w9, [x12, #22]
	orr	w10, w10, #0x30
	strb	w10, [x12, #23]
	b.hi	405b
	add	x8, x8, #24
	cmp	x19, #10
	b.hs	447f
625:
	sub	x8, x8, #1
	add	x9, sp, #64
	orr	w10, w19, #0x30
	strb	w10, [x9, x8]
	b	148f
349:
	mov	w8, #24
	cmp	x19, #10
	b.lo	625b
447:
	and	w9, w19, #0xff
	mov	w10, #205
	add	x11, sp, #64
	mul	w9, w9, w10
	mov	w10, #10
	add	x11, x11, x8
	sub	x8, x8, #2
	lsr	w9, w9, #11
	msub	w10, w9, w10, w19
	orr	w9, w9, #0x30
	sturb	w9, [x11, #-2]
	orr	w10, w10, #0x30
	sturb	w10, [x11, #-1]
148:
	add	x9, sp, #64
	ldr	x10, [sp, #336]
	mov	w11, #24
	add	x1, x9, x8
	mov	w9, #45
	sub	x2, x11, x8
	add	x0, sp, #208
	sturb	w9, [x1, #-1]
	cbnz	x10, 970f
	bl	std.io.traits.AdapterWrite.write_str._5349ec06ad6c886c
	and	w8, w0, #0xff
	tbnz	w8, #0, 613f
349:
	mov	w8, #32
	ldr	x9, [sp, #336]
	add	x10, sp, #208
	str	w8, [sp, #312]
	mov	x8, #-1
	adrp	x1, .LT37337163
	add	x1, x1, :lo12:.LT37337163
	add	x0, sp, #208
	mov	w2, #1
	stur	xzr, [x10, #108]
	stur	wzr, [x10, #116]
	str	x8, [sp, #328]
	cbnz	x9, 110f
	bl	std.io.traits.AdapterWrite.write_str._5349ec06ad6c886c
	and	w8, w0, #0xff
	tbnz	w8, #0, 613f
868:
	mov	w8, #32
	add	x9, sp, #208
	cmp	x22, #100
	str	w8, [sp, #312]
	mov	x8, #-1
	stur	xzr, [x9, #108]
	stur	wzr, [x9, #116]
	str	x8, [sp, #328]
	stp	xzr, xzr, [sp, #64]
	str	xzr, [sp, #80]
	b.lo	462f
	mov	x8, xzr
405:
	lsr	x10, x22, #2
	mov	x9, x22
	mov	w11, #205
	umulh	x10, x10, x26
	lsr	x22, x10, #2
	mov	w10, #100
	msub	w10, w22, w10, w9
	lsr	x9, x9, #4
	cmp	x9, #624
	and	w12, w10, #0xff
	mul	w11, w12, w11
	mov	w12, #10
	lsr	w11, w11, #11
	msub	w10, w11, w12, w10
	add	x12, sp, #64
	orr	w9, w11, #0x30
	add	x12, x12, x8
	sub	x8, x8, #2
	strb	w9, [x12, #22]
	orr	w10, w10, #0x30
	strb	w10, [x12, #23]
	b.hi	405b
	add	x8, x8, #24
	cmp	x22, #10
	b.hs	447f
625:
	sub	x8, x8, #1
	add	x9, sp, #64
	orr	w10, w22, #0x30
	strb	w10, [x9, x8]
	b	148f
462:
	mov	w8, #24
	cmp	x22, #10
	b.lo	625b
447:
	and	w9, w22, #0xff
	mov	w10, #205
	add	x11, sp, #64
	mul	w9, w9, w10
	mov	w10, #10
	add	x11, x11, x8
	sub	x8, x8, #2
	lsr	w9, w9, #11
	msub	w10, w9, w10, w22
	orr	w9, w9, #0x30
	sturb	w9, [x11, #-2]
	orr	w10, w10, #0x30
	sturb	w10, [x11, #-1]
148:
	add	x9, sp, #64
	ldr	x10, [sp, #336]
	mov	w11, #24
	add	x1, x9, x8
	mov	w9, #45
	sub	x2, x11, x8
	add	x0, sp, #208
	sturb	w9, [x1, #-1]
	cbnz	x10, 873f
	bl	std.io.traits.AdapterWrite.write_str._5349ec06ad6c886c
	and	w8, w0, #0xff
	tbnz	w8, #0, 613f
462:
	mov	w8, #32
	ldr	x9, [sp, #336]
	add	x10, sp, #208
	str	w8, [sp, #312]
	mov	x8, #-1
	adrp	x1, .LT3235efc0
	add	x1, x1, :lo12:.LT3235efc0
	add	x0, sp, #208
	mov	w2, #1
	stur	xzr, [x10, #108]
	stur	wzr, [x10, #116]
	str	x8, [sp, #328]
	cbnz	x9, 563f
	bl	std.io.traits.AdapterWrite.write_str._5349ec06ad6c886c
	and	w8, w0, #0xff
	tbnz	w8, #0, 613f
556:
	ldrb	w8, [sp, #216]
	cmp	x8, #1
	b.eq	613f
	ldp	x13, x12, [sp, #16]
	b	481b
498:
	bl	core.fmt.formatter.Formatter.write_indented._1ac78889755d2eb3
	and	w8, w0, #0xff
	tbz	w8, #0, 599b
	b	613f
412:
	bl	core.fmt.formatter.Formatter.write_indented._1ac78889755d2eb3
	and	w8, w0, #0xff
	tbz	w8, #0, 307b
	b	613f
970:
	bl	core.fmt.formatter.Formatter.write_indented._1ac78889755d2eb3
	and	w8, w0, #0xff
	tbz	w8, #0, 349b
	b	613f
110:
	bl	core.fmt.formatter.Formatter.write_indented._1ac78889755d2eb3
	and	w8, w0, #0xff
	tbz	w8, #0, 868b
	b	613f
873:
	bl	core.fmt.formatter.Formatter.write_indented._1ac78889755d2eb3
	and	w8, w0, #0xff
	tbz	w8, #0, 462b
	b	613f
563:
	bl	core.fmt.formatter.Formatter.write_indented._1ac78889755d2eb3
	and	w8, w0, #0xff
	tbz	w8, #0, 556b
	b	613f
93:
	ldr	x12, [x25, #40]
	add	x24, sp, #208
	cbz	x12, 93f
	ldr	x13, [x25, #32]
	mov	x28, xzr
	stp	x13, x12, [sp, #16]
	b	192f
481:
	add	x28, x28, #1
	cmp	x28, x12
	b.eq	93f
192:
	lsl	x8, x28, #2
	ldr	x10, [x25, #240]
	ldrb	w27, [x25]
	ldrb	w19, [x13, x8]
	ldp	x8, x9, [x25, #208]
	cmp	x10, x19
	b.ls	599f
	ldr	x10, [x25, #232]
	ldrh	w10, [x10, x19, lsl #1]
	cmp	x9, x10
	b.ls	481b
	lsl	x10, x10, #6
922:
	movi	v0.2d, #0000000000000000
	add	x8, x8, x10
	mov	w23, #32
	ldr	x22, [x8, #40]
	ldr	x8, [sp, #32]
	stp	xzr, xzr, [x24, #128]
	stur	xzr, [x24, #108]
	adrp	x1, .LT3276ef29
	add	x1, x1, :lo12:.LT3276ef29
	stur	wzr, [x24, #116]
	add	x0, sp, #208
	mov	w2, #4
	stur	q0, [x24, #8]
	stur	q0, [x24, #24]
	stur	q0, [x24, #40]
	stur	q0, [x24, #56]
	stur	q0, [x24, #72]
	stur	q0, [x24, #88]
	mov	x24, #-1
	str	x8, [sp, #208]
	str	w23, [sp, #312]
	str	x24, [sp, #328]
	bl	std.io.traits.AdapterWrite.write_str._5349ec06ad6c886c
	and	w8, w0, #0xff
	tbnz	w8, #0, 613f
	add	x8, sp, #208
	cmp	w27, #100
	str	w23, [sp, #312]
	stur	xzr, [x8, #108]
	stur	wzr, [x8, #116]
	str	x24, [sp, #328]
	stp	xzr, xzr, [sp, #64]
	str	xzr, [sp, #80]
	b.lo	118f
	mov	w8, #41
	mov	w10, #205
	mul	w8, w27, w8
	lsr	w9, w8, #12
	mov	w8, #100
	msub	w8, w9, w8, w27
	and	w11, w8, #0xff
	mul	w10, w11, w10
	mov	w11, #10
	lsr	w10, w10, #11
	msub	w8, w10, w11, w8
	orr	w10, w10, #0x30
	strb	w10, [sp, #86]
	orr	w8, w8, #0x30
	strb	w8, [sp, #87]
	mov	w8, #21
	b	148f
599:
	cbz	x9, 481b
	mov	x10, xzr
335:
	ldrh	w11, [x8, x10]
	cmp	w11, w19
	b.eq	922b
	subs	x9, x9, #1
	add	x10, x10, #64
	b.ne	335b
	b	481b
118:
	cmp	w27, #10
	b.lo	599f
	mov	w8, #205
	mov	w9, #10
	mul	w8, w27, w8
	lsr	w8, w8, #11
	msub	w9, w8, w9, w27
	orr	w8, w8, #0x30
	strb	w8, [sp, #86]
	mov	w8, #22
	orr	w9, w9, #0x30
	strb	w9, [sp, #87]
	b	946f
599:
	mov	w8, #23
	mov	w9, w27
148:
	add	x10, sp, #64
	orr	w9, w9, #0x30
	strb	w9, [x10, x8]
946:
	add	x9, sp, #64
	ldr	x10, [sp, #336]
	mov	w11, #24
	add	x1, x9, x8
	mov	w9, #45
	sub	x2, x11, x8
	add	x0, sp, #208
	sturb	w9, [x1, #-1]
	cbnz	x10, 498f
	bl	std.io.traits.AdapterWrite.write_str._5349ec06ad6c886c
	and	w8, w0, #0xff
	tbnz	w8, #0, 613f
599:
	mov	w8, #32
	ldr	x9, [sp, #336]
	add	x10, sp, #208
	str	w8, [sp, #312]
	mov	x8, #-1
	adrp	x1, .LT37337163
	add	x1, x1, :lo12:.LT37337163
	add	x0, sp, #208
	mov	w2, #1
	stur	xzr, [x10, #108]
	stur	wzr, [x10, #116]
	str	x8, [sp, #328]
	cbnz	x9, 412f
	bl	std.io.traits.AdapterWrite.write_str._5349ec06ad6c886c
	and	w8, w0, #0xff
	tbnz	w8, #0, 613f
307:
	mov	w8, #32
	add	x9, sp, #208
	cmp	w19, #100
	str	w8, [sp, #312]
	mov	x8, #-1
	stur	xzr, [x9, #108]
	stur	wzr, [x9, #116]
	str	x8, [sp, #328]
	stp	xzr, xzr, [sp, #64]
	str	xzr, [sp, #80]
	b.lo	118f
	mov	w8, #41
	mov	w10, #205
	mul	w8, w19, w8
	lsr	w9, w8, #12
	mov	w8, #100
	msub	w8, w9, w8, w19
	mov	w19, w9
	and	w11, w8, #0xff
	mul	w10, w11, w10
	mov	w11, #10
	lsr	w10, w10, #11
	msub	w8, w10, w11, w8
	orr	w10, w10, #0x30
	strb	w10, [sp, #86]
	orr	w8, w8, #0x30
	strb	w8, [sp, #87]
	mov	w8, #21
	b	148f
118:
	cmp	w19, #10
	b.lo	349f
	mov	w8, #205
	mov	w9, #10
	mul	w8, w19, w8
	lsr	w8, w8, #11
	msub	w9, w8, w9, w19
	orr	w8, w8, #0x30
	strb	w8, [sp, #86]
	mov	w8, #22
	orr	w9, w9, #0x30
	strb	w9, [sp, #87]
	b	946f
349:
	mov	w8, #23
148:
	add	x9, sp, #64
	orr	w10, w19, #0x30
	strb	w10, [x9, x8]
946:
	add	x9, sp, #64
	ldr	x10, [sp, #336]
	mov	w11, #24
	add	x1, x9, x8
	mov	w9, #45
	sub	x2, x11, x8
	add	x0, sp, #208
	sturb	w9, [x1, #-1]
	cbnz	x10, 970f
	bl	std.io.traits.AdapterWrite.write_str._5349ec06ad6c886c
	and	w8, w0, #0xff
	tbnz	w8, #0, 613f
349:
	mov	w8, #32
	ldr	x9, [sp, #336]
	add	x10, sp, #208
	str	w8, [sp, #312]
	mov	x8, #-1
	adrp	x1, .LT37337163
	add	x1, x1, :lo12:.LT37337163
	add	x0, sp, #208
	mov	w2, #1
	stur	xzr, [x10, #108]
	stur	wzr, [x10, #116]
	str	x8, [sp, #328]
	cbnz	x9, 110f
	bl	std.io.traits.AdapterWrite.write_str._5349ec06ad6c886c
	and	w8, w0, #0xff
	tbnz	w8, #0, 613f
868:
	mov	w8, #32
	add	x9, sp, #208
	cmp	x22, #100
	str	w8, [sp, #312]
	mov	x8, #-1
	stur	xzr, [x9, #108]
	stur	wzr, [x9, #116]
	str	x8, [sp, #328]
	stp	xzr, xzr, [sp, #64]
	str	xzr, [sp, #80]
	b.lo	462f
	mov	x8, xzr
405:
	lsr	x10, x22, #2
	mov	x9, x22
	mov	w11, #205
	umulh	x10, x10, x26
	lsr	x22, x10, #2
	mov	w10, #100
	msub	w10, w22, w10, w9
	lsr	x9, x9, #4
	cmp	x9, #624
	and	w12, w10, #0xff
	mul	w11, w12, w11
	mov	w12, #10
	lsr	w11, w11, #11
	msub	w10, w11, w12, w10
	add	x12, sp, #64
	orr	w9, w11, #0x30
	add	x12, x12, x8
	sub	x8, x8, #2
	strb	w9, [x12, #22]
	orr	w10, w10, #0x30
	strb	w10, [x12, #23]
	b.hi	405b
	add	x8, x8, #24
	cmp	x22, #10
	b.hs	447f
625:
	sub	x8, x8, #1
	add	x9, sp, #64
	orr	w10, w22, #0x30
	strb	w10, [x9, x8]
	b	148f
462:
	mov	w8, #24
	cmp	x22, #10
	b.lo	625b
447:
	and	w9, w22, #0xff
	mov	w10, #205
	add	x11, sp, #64
	mul	w9, w9, w10
	mov	w10, #10
	add	x11, x11, x8
	sub	x8, x8, #2
	lsr	w9, w9, #11
	msub	w10, w9, w10, w22
	orr	w9, w9, #0x30
	sturb	w9, [x11, #-2]
	orr	w10, w10, #0x30
	sturb	w10, [x11, #-1]
148:
	add	x9, sp, #64
	ldr	x10, [sp, #336]
	mov	w11, #24
	add	x1, x9, x8
	mov	w9, #45
	sub	x2, x11, x8
	add	x0, sp, #208
	sturb	w9, [x1, #-1]
	cbnz	x10, 873f
	bl	std.io.traits.AdapterWrite.write_str._5349ec06ad6c886c
	and	w8, w0, #0xff
	tbnz	w8, #0, 613f
462:
	mov	w8, #32
	ldr	x9, [sp, #336]
	add	x10, sp, #208
	str	w8, [sp, #312]
	mov	x8, #-1
	adrp	x1, .LT3235efc0
	add	x1, x1, :lo12:.LT3235efc0
	add	x0, sp, #208
	mov	w2, #1
	stur	xzr, [x10, #108]
	stur	wzr, [x10, #116]
	str	x8, [sp, #328]
	cbnz	x9, 563f
	bl	std.io.traits.AdapterWrite.write_str._5349ec06ad6c886c
	and	w8, w0, #0xff
	tbnz	w8, #0, 613f
556:
	ldrb	w8, [sp, #216]
	cmp	x8, #1
	b.eq	613f
	ldp	x13, x12, [sp, #16]
	add	x24, sp, #208
	b	481b
498:
	bl	core.fmt.formatter.Formatter.write_indented._1ac78889755d2eb3
	and	w8, w0, #0xff
	tbz	w8, #0, 599b
	b	613f
412:
	bl	core.fmt.formatter.Formatter.write_indented._1ac78889755d2eb3
	and	w8, w0, #0xff
	tbz	w8, #0, 307b
	b	613f
970:
	bl	core.fmt.formatter.Formatter.write_indented._1ac78889755d2eb3
	and	w8, w0, #0xff
	tbz	w8, #0, 349b
	b	613f
110:
	bl	core.fmt.formatter.Formatter.write_indented._1ac78889755d2eb3
	and	w8, w0, #0xff
	tbz	w8, #0, 868b
	b	613f
873:
	bl	core.fmt.formatter.Formatter.write_indented._1ac78889755d2eb3
	and	w8, w0, #0xff
	tbz	w8, #0, 462b
	b	613f
563:
	bl	core.fmt.formatter.Formatter.write_indented._1ac78889755d2eb3
	and	w8, w0, #0xff
	tbz	w8, #0, 556b
	b	613f
93:
	ldr	x23, [sp, #8]
	ldr	x22, [sp, #32]
	add	x26, sp, #64
	add	x23, x23, #1
	cmp	x23, x20
	b.ne	613b
	b	983f
672:
	bl	core.fmt.formatter.Formatter.write_indented._1ac78889755d2eb3
	and	w8, w0, #0xff
	tbz	w8, #0, 187b
	b	613f
51:
	bl	core.fmt.formatter.Formatter.write_indented._1ac78889755d2eb3
	and	w8, w0, #0xff
	tbz	w8, #0, 316b
	b	613f
667:
	bl	core.fmt.formatter.Formatter.write_indented._1ac78889755d2eb3
	and	w8, w0, #0xff
	tbz	w8, #0, 32b
	b	613f
671:
	bl	core.fmt.formatter.Formatter.write_indented._1ac78889755d2eb3
	and	w8, w0, #0xff
	tbz	w8, #0, 943b
	b	613f
460:
	bl	core.fmt.formatter.Formatter.write_indented._1ac78889755d2eb3
	and	w8, w0, #0xff
	tbz	w8, #0, 911b
	b	613f
81:
	bl	core.fmt.formatter.Formatter.write_indented._1ac78889755d2eb3
	and	w8, w0, #0xff
	tbz	w8, #0, 239b
	b	613f
352:
	bl	core.fmt.formatter.Formatter.write_indented._1ac78889755d2eb3
	and	w8, w0, #0xff
	tbz	w8, #0, 602b
613:
	mov	w22, #3
613:
	mov	x19, x21
316:
	add	x0, sp, #208
	mov	x1, x19
	mov	w2, #264
	bl	memcpy
	add	x0, sp, #208
	bl	tc_live.tc_channel_channel_ChannelWith_Destruct.drop._429e4231f6288bb6
	subs	x20, x20, #1
	add	x19, x19, #264
	b.ne	316b
	mov	x0, x21
	bl	rattle_dealloc
	mov	w0, w22
	b	62b
583:
	mov	w0, wzr
	b	62b
445:
	bl	core.fmt.formatter.Formatter.write_indented._1ac78889755d2eb3
	ldrb	w9, [sp, #216]
	and	w8, w0, #0xff
	cmp	x9, #1
	b.ne	360b
	b	983b
983:
	mov	w22, wzr
	b	613b
	.section	.text.core.slice.sort.unstable.quicksort._454af122397d76be,"ax",@progbits
	.p2align	2
core.slice.sort.unstable.quicksort._454af122397d76be:
	stp	x29, x30, [sp, #-96]!
	stp	x28, x27, [sp, #16]
	mov	x29, sp
	stp	x26, x25, [sp, #32]
	stp	x24, x23, [sp, #48]
	stp	x22, x21, [sp, #64]
	stp	x20, x19, [sp, #80]
	sub	sp, sp, #560
	sub	x23, x2, x1
	mov	x19, x1
	mov	x20, x0
	cmp	x23, #17
	str	x2, [sp, #8]
	b.lo	118f
	mov	w21, w3
	b	405f
62:
	add	x8, x21, x21, lsl #5
	mov	x0, x24
	mov	w2, #264
	lsl	x22, x8, #3
	add	x1, x24, x22
	bl	memmove
316:
	add	x0, x24, x22
	add	x1, sp, #288
	mov	w2, #263
	strb	w26, [x0], #1
	bl	memcpy
	add	x2, x21, x19
	ldr	w21, [sp, #20]
	mov	x0, x20
	mov	x1, x19
	mov	w3, w21
	bl	core.slice.sort.unstable.quicksort._454af122397d76be
	ldr	x8, [sp, #8]
	add	x19, x27, x19
	sub	x23, x8, x19
	cmp	x23, #16
	b.ls	118f
405:
	cbz	w21, 911f
	lsr	x4, x23, #3
	cmp	x23, #63
	sub	x8, x19, x4
	add	x2, x19, x4, lsl #2
	add	x3, x8, x4, lsl #3
	b.hi	187f
	mov	w8, #264
	mul	x9, x19, x8
	mul	x10, x2, x8
	mul	x8, x3, x8
	ldrb	w9, [x20, x9]
	ldrb	w10, [x20, x10]
	ldrb	w8, [x20, x8]
	cmp	w9, w10
	cset	w11, lo
	cmp	w9, w8
	cset	w9, lo
	cmp	w10, w8
	cset	w8, lo
	eor	w9, w11, w9
	eor	w8, w11, w8
	cmp	w8, #0
	csel	x8, x3, x2, ne
	cmp	w9, #0
	csel	x0, x19, x8, ne
	sub	w21, w21, #1
	str	w21, [sp, #20]
	cbz	x19, 32f
481:
	add	x8, x19, x19, lsl #5
	mov	w9, #264
	mul	x9, x0, x9
	lsl	x28, x8, #3
	add	x24, x20, x28
	sub	x8, x24, #264
	ldrb	w8, [x8]
	ldrb	w9, [x20, x9]
	cmp	w8, w9
	b.lo	627f
	subs	x8, x0, x19
	b.eq	148f
	mov	w9, #264
	add	x0, sp, #24
	add	x1, x20, x28
	mov	w2, #264
	madd	x25, x8, x9, x24
	bl	memcpy
	add	x0, x20, x28
	mov	x1, x25
	mov	w2, #264
	bl	memmove
	add	x1, sp, #24
	mov	x0, x25
	mov	w2, #264
	bl	memcpy
148:
	add	x1, x20, x28
	add	x0, sp, #288
	mov	w2, #263
	ldrb	w26, [x1], #1
	bl	memcpy
	add	x8, x20, #264
	mov	w27, #1
	add	x8, x8, x28
602:
	ldrb	w9, [x8]
	cmp	w26, w9
	b.lo	625f
	add	x27, x27, #1
	add	x8, x8, #264
	cmp	x23, x27
	b.ne	602b
	mov	x27, x23
625:
	sub	x22, x23, #1
	cmp	x27, x22
	b.hs	321f
	add	x21, x27, #1
	mov	w8, #264
	add	x0, sp, #24
	madd	x1, x21, x8, x24
	mov	w2, #263
	ldrb	w8, [x1], #1
	str	w8, [sp, #4]
	bl	memcpy
	cmp	x21, x22
	b.hs	983f
	mov	w8, #264
	sub	x9, x23, x27
	add	x10, x20, #264
	madd	x8, x27, x8, x28
	sub	x21, x9, #2
	add	x0, x10, x8
613:
	mov	w8, #264
	ldrb	w28, [x0, #264]
	mov	w2, #264
	madd	x23, x27, x8, x24
	add	x25, x0, #264
	mov	x1, x23
	bl	memmove
	mov	x0, x23
	mov	x1, x25
	mov	w2, #264
	bl	memmove
	cmp	w26, w28
	mov	x0, x25
	cinc	x27, x27, hs
	subs	x21, x21, #1
	b.ne	613b
983:
	mov	w8, #264
	mov	w2, #264
	madd	x23, x27, x8, x24
	madd	x0, x22, x8, x24
	mov	x1, x23
	bl	memmove
	ldr	w21, [sp, #4]
	add	x1, sp, #24
	mov	w2, #263
	strb	w21, [x23], #1
	mov	x0, x23
	bl	memcpy
	cmp	w26, w21
	cinc	x27, x27, hs
321:
	subs	x8, x27, #1
	b.eq	943f
	add	x8, x8, x8, lsl #5
	mov	x0, x24
	mov	w2, #264
	lsl	x21, x8, #3
	add	x1, x24, x21
	bl	memmove
	b	62f
187:
	mov	x0, x20
	mov	x1, x19
	bl	core.slice.sort.pivot.median_of_medians._454af122397d76be
	sub	w21, w21, #1
	str	w21, [sp, #20]
	cbnz	x19, 481b
32:
	mov	x28, xzr
627:
	subs	x8, x0, x19
	add	x24, x20, x28
	b.eq	481f
	mov	w9, #264
	add	x0, sp, #24
	add	x1, x20, x28
	mov	w2, #264
	madd	x25, x8, x9, x24
	bl	memcpy
	add	x0, x20, x28
	mov	x1, x25
	mov	w2, #264
	bl	memmove
	add	x1, sp, #24
	mov	x0, x25
	mov	w2, #264
	bl	memcpy
481:
	add	x1, x20, x28
	add	x0, sp, #288
	mov	w2, #263
	ldrb	w26, [x1], #1
	bl	memcpy
	add	x8, x28, #264
	mov	w27, #1
602:
	ldrb	w9, [x20, x8]
	cmp	w9, w26
	b.hs	625f
	add	x27, x27, #1
	add	x8, x8, #264
	cmp	x23, x27
	b.ne	602b
	mov	x27, x23
625:
	sub	x21, x23, #1
	cmp	x27, x21
	b.hs	321f
	add	x25, x27, #1
	mov	w8, #264
	add	x0, sp, #24
	madd	x1, x25, x8, x24
	mov	w2, #263
	ldrb	w8, [x1], #1
	str	w8, [sp, #4]
	bl	memcpy
	cmp	x25, x21
	b.hs	983f
	mov	w8, #264
	sub	x9, x23, x27
	add	x10, x20, #264
	madd	x8, x27, x8, x28
	sub	x28, x9, #2
	add	x0, x10, x8
613:
	mov	w8, #264
	ldrb	w22, [x0, #264]
	mov	w2, #264
	madd	x23, x27, x8, x24
	add	x25, x0, #264
	mov	x1, x23
	bl	memmove
	mov	x0, x23
	mov	x1, x25
	mov	w2, #264
	bl	memmove
	cmp	w22, w26
	mov	x0, x25
	cinc	x27, x27, lo
	subs	x28, x28, #1
	b.ne	613b
983:
	mov	w8, #264
	mov	w2, #264
	madd	x23, x27, x8, x24
	madd	x0, x21, x8, x24
	mov	x1, x23
	bl	memmove
	ldr	w21, [sp, #4]
	add	x1, sp, #24
	mov	w2, #263
	strb	w21, [x23], #1
	mov	x0, x23
	bl	memcpy
	cmp	w21, w26
	cinc	x27, x27, lo
321:
	subs	x21, x27, #1
	b.ne	62b
	mov	x22, xzr
	b	316b
943:
	mov	x21, xzr
62:
	add	x0, x24, x21
	add	x1, sp, #288
	mov	w2, #263
	strb	w26, [x0], #1
	bl	memcpy
	ldr	w21, [sp, #20]
	ldr	x8, [sp, #8]
	add	x19, x27, x19
	sub	x23, x8, x19
	cmp	x23, #16
	b.hi	405b
118:
	cmp	x23, #2
	b.lo	481f
	add	x8, x19, x19, lsl #5
	mov	w24, #1
	lsl	x8, x8, #3
	add	x9, x8, x20
	add	x21, x20, x8
	sub	x22, x9, #264
	b	983f
613:
	mov	x8, xzr
62:
	add	x0, x21, x8
	add	x1, sp, #24
	mov	w2, #263
	strb	w25, [x0], #1
	bl	memcpy
316:
	add	x24, x24, #1
	add	x22, x22, #264
	cmp	x24, x23
	b.eq	481f
983:
	mov	w8, #264
	madd	x19, x24, x8, x21
	sub	x20, x19, #264
	ldrb	w25, [x19]
	ldrb	w8, [x20]
	cmp	w25, w8
	b.hs	316b
	add	x0, sp, #24
	add	x1, x19, #1
	mov	w2, #263
	sub	x26, x24, #1
	bl	memcpy
	mov	x0, x19
	mov	x1, x20
	mov	w2, #264
	bl	memcpy
	cbz	x26, 613b
	mov	x19, x22
602:
	ldrb	w8, [x19]
	cmp	w25, w8
	b.hs	316f
	add	x0, x19, #264
	mov	x1, x19
	mov	w2, #264
	sub	x26, x26, #1
	bl	memcpy
	sub	x19, x19, #264
	cbnz	x26, 602b
316:
	add	x8, x26, x26, lsl #5
	lsl	x8, x8, #3
	b	62b
481:
	add	sp, sp, #560
	ldp	x20, x19, [sp, #80]
	ldp	x22, x21, [sp, #64]
	ldp	x24, x23, [sp, #48]
	ldp	x26, x25, [sp, #32]
	ldp	x28, x27, [sp, #16]
	ldp	x29, x30, [sp], #96
	ret
911:
	mov	w8, #264
	mov	x1, x23
	madd	x0, x19, x8, x20
	add	sp, sp, #560
	ldp	x20, x19, [sp, #80]
	ldp	x22, x21, [sp, #64]
	ldp	x24, x23, [sp, #48]
	ldp	x26, x25, [sp, #32]
	ldp	x28, x27, [sp, #16]
	ldp	x29, x30, [sp], #96
	b	core.slice.sort.heap.heap_sort._454af122397d76be
	.section	.text.core.slice.sort.heap.heap_sort._454af122397d76be,"ax",@progbits
	.p2align	2
core.slice.sort.heap.heap_sort._454af122397d76be:
	sub	sp, sp, #352
	stp	x24, x23, [sp, #304]
	lsr	x23, x1, #1
	stp	x20, x19, [sp, #336]
	mov	x19, x1
	mov	x20, x0
	mov	x24, x23
	stp	x29, x30, [sp, #272]
	add	x29, sp, #272
	stp	x28, x25, [sp, #288]
	stp	x22, x21, [sp, #320]
	b	625f
360:
	cbz	x24, 893f
625:
	sub	x24, x24, #1
	mov	x25, x24
	b	192f
62:
	add	x0, sp, #8
	mov	x1, x21
	mov	w2, #264
	bl	memcpy
	mov	x0, x21
	mov	x1, x22
	mov	w2, #264
	bl	memmove
	add	x1, sp, #8
	mov	x0, x22
613:
	mov	w2, #264
	bl	memcpy
118:
	cmp	x25, x23
	b.hs	360b
192:
	lsl	x10, x25, #1
	mov	x8, x25
	mov	w9, #1
	bfi	x9, x25, #1, #63
	add	x25, x10, #2
	cmp	x25, x19
	b.eq	983f
	mov	w10, #264
	mul	x11, x9, x10
	mul	x10, x25, x10
	ldrb	w11, [x20, x11]
	ldrb	w10, [x20, x10]
	cmp	w11, w10
	b.lo	187f
983:
	mov	x25, x9
187:
	mov	w9, #264
	madd	x21, x8, x9, x20
	madd	x22, x25, x9, x20
	ldrb	w9, [x21]
	ldrb	w10, [x22]
	cmp	w9, w10
	b.hs	360b
	cmp	x8, x25
	b.lo	62b
	cmp	x25, x8
	b.hs	118b
	add	x0, sp, #8
	mov	x1, x22
	mov	w2, #264
	bl	memcpy
	mov	x0, x22
	mov	x1, x21
	mov	w2, #264
	bl	memmove
	add	x1, sp, #8
	mov	x0, x21
	b	613b
118:
	cmp	x19, #1
	b.ls	976f
893:
	sub	x19, x19, #1
	mov	w8, #264
	add	x0, sp, #8
	mov	x1, x20
	mov	w2, #264
	madd	x21, x19, x8, x20
	bl	memcpy
	mov	x0, x20
	mov	x1, x21
	mov	w2, #264
	bl	memmove
	add	x1, sp, #8
	mov	x0, x21
	mov	w2, #264
	bl	memcpy
	lsr	x23, x19, #1
	cbz	x23, 118b
	mov	x24, xzr
	b	192f
62:
	add	x0, sp, #8
	mov	x1, x21
	mov	w2, #264
	bl	memcpy
	mov	x0, x21
	mov	x1, x22
	mov	w2, #264
	bl	memmove
	add	x1, sp, #8
	mov	x0, x22
613:
	mov	w2, #264
	bl	memcpy
280:
	cmp	x24, x23
	b.hs	118b
192:
	lsl	x10, x24, #1
	mov	x8, x24
	mov	w9, #1
	bfi	x9, x24, #1, #63
	add	x24, x10, #2
	cmp	x24, x19
	b.eq	983f
	mov	w10, #264
	mul	x11, x9, x10
	mul	x10, x24, x10
	ldrb	w11, [x20, x11]
	ldrb	w10, [x20, x10]
	cmp	w11, w10
	b.lo	187f
983:
	mov	x24, x9
187:
	mov	w9, #264
	madd	x21, x8, x9, x20
	madd	x22, x24, x9, x20
	ldrb	w9, [x21]
	ldrb	w10, [x22]
	cmp	w9, w10
	b.hs	118b
	cmp	x8, x24
	b.lo	62b
	cmp	x24, x8
	b.hs	280b
	add	x0, sp, #8
	mov	x1, x22
	mov	w2, #264
	bl	memcpy
	mov	x0, x22
	mov	x1, x21
	mov	w2, #264
	bl	memmove
	add	x1, sp, #8
	mov	x0, x21
	b	613b
976:
	ldp	x20, x19, [sp, #336]
	ldp	x22, x21, [sp, #320]
	ldp	x24, x23, [sp, #304]
	ldp	x28, x25, [sp, #288]
	ldp	x29, x30, [sp, #272]
	add	sp, sp, #352
	ret
	.section	.text.core.slice.sort.pivot.median_of_medians._454af122397d76be,"ax",@progbits
	.p2align	2
core.slice.sort.pivot.median_of_medians._454af122397d76be:
	stp	x29, x30, [sp, #-80]!
	stp	x20, x19, [sp, #64]
	mov	x19, x3
	mov	x20, x2
	cmp	x4, #8
	str	x25, [sp, #16]
	mov	x29, sp
	stp	x24, x23, [sp, #32]
	stp	x22, x21, [sp, #48]
	b.hs	405f
	mov	w8, #264
	mul	x9, x1, x8
	mul	x10, x20, x8
	mul	x8, x19, x8
	ldrb	w9, [x0, x9]
	ldrb	w10, [x0, x10]
	ldrb	w8, [x0, x8]
	cmp	w9, w10
	cset	w11, lo
	cmp	w9, w8
	cset	w9, lo
	cmp	w10, w8
	cset	w8, lo
	eor	w9, w11, w9
	eor	w8, w11, w8
	cmp	w8, #0
	csel	x8, x19, x20, ne
	cmp	w9, #0
	csel	x0, x1, x8, ne
	ldp	x20, x19, [sp, #64]
	ldr	x25, [sp, #16]
	ldp	x22, x21, [sp, #48]
	ldp	x24, x23, [sp, #32]
	ldp	x29, x30, [sp], #80
	ret
405:
	lsr	x21, x4, #3
	mov	x22, x0
	lsl	x8, x21, #3
	lsl	x24, x21, #2
	mov	x4, x21
	sub	x25, x8, x21
	add	x2, x24, x1
	add	x3, x25, x1
	bl	core.slice.sort.pivot.median_of_medians._454af122397d76be
	mov	x23, x0
	add	x2, x24, x20
	add	x3, x25, x20
	mov	x0, x22
	mov	x1, x20
	mov	x4, x21
	bl	core.slice.sort.pivot.median_of_medians._454af122397d76be
	mov	x20, x0
	add	x2, x24, x19
	add	x3, x25, x19
	mov	x0, x22
	mov	x1, x19
	mov	x4, x21
	bl	core.slice.sort.pivot.median_of_medians._454af122397d76be
	mov	w8, #264
	mul	x9, x23, x8
	mul	x10, x20, x8
	mul	x8, x0, x8
	ldrb	w9, [x22, x9]
	ldrb	w10, [x22, x10]
	ldrb	w8, [x22, x8]
	cmp	w9, w10
	cset	w11, lo
	cmp	w9, w8
	cset	w9, lo
	cmp	w10, w8
	cset	w8, lo
	eor	w9, w11, w9
	eor	w8, w11, w8
	cmp	w8, #0
	csel	x8, x0, x20, ne
	cmp	w9, #0
	csel	x0, x23, x8, ne
	ldp	x20, x19, [sp, #64]
	ldr	x25, [sp, #16]
	ldp	x22, x21, [sp, #48]
	ldp	x24, x23, [sp, #32]
	ldp	x29, x30, [sp], #80
	ret
	.section	.text.core.slice.edits.mirror._b5829e14db1caa1c,"ax",@progbits
	.p2align	2
core.slice.edits.mirror._b5829e14db1caa1c:
	sub	sp, sp, #320
	mov	w8, #264
	stp	x28, x21, [sp, #288]
	madd	x8, x2, x8, x1
	stp	x20, x19, [sp, #304]
	mov	x19, x2
	mov	x20, x0
	stp	x29, x30, [sp, #272]
	add	x29, sp, #272
	sub	x21, x8, #264
62:
	add	x0, sp, #8
	mov	x1, x20
	mov	w2, #264
	bl	memcpy
	mov	x0, x20
	mov	x1, x21
	mov	w2, #264
	bl	memmove
	add	x1, sp, #8
	mov	x0, x21
	mov	w2, #264
	bl	memcpy
	sub	x19, x19, #1
	add	x20, x20, #264
	sub	x21, x21, #264
	cbnz	x19, 62b
	ldp	x20, x19, [sp, #304]
	ldp	x28, x21, [sp, #288]
	ldp	x29, x30, [sp, #272]
	add	sp, sp, #320
	ret
	.section	.text.tc_c_lines.tc_live_receiver_Receiver_Destruct.drop,"ax",@progbits
	.p2align	2
tc_c_lines.tc_live_receiver_Receiver_Destruct.drop:
	sub	sp, sp, #112
	stp	x24, x23, [sp, #64]
	ldp	x24, x23, [x0, #24]
	stp	x20, x19, [sp, #96]
	ldrb	w8, [x0, #8]
	ldr	x19, [x0, #40]
	stp	x29, x30, [sp, #32]
	add	x29, sp, #32
	stp	x26, x25, [sp, #48]
	stp	x22, x21, [sp, #80]
	cbz	w8, 93f
	add	x0, sp, #8
	stp	x24, x23, [sp, #8]
	str	x19, [sp, #24]
	bl	std_alloc.vec.Vec.drop._b0d11e1e9d6e266d
976:
	ldp	x20, x19, [sp, #96]
	ldp	x22, x21, [sp, #80]
	ldp	x24, x23, [sp, #64]
	ldp	x26, x25, [sp, #48]
	ldp	x29, x30, [sp, #32]
	add	sp, sp, #112
	ret
93:
	ldr	x20, [x0, #16]
	ldr	x22, [x0, #56]
	cbz	x24, 983f
	add	x25, x20, #24
	b	681f
321:
	subs	x24, x24, #1
	add	x25, x25, #56
	b.eq	983f
681:
	ldp	x8, x21, [x25]
	ldr	x26, [x25, #24]
	cbz	x8, 613f
	ldur	x0, [x25, #-16]
	bl	rattle_dealloc
613:
	cbz	x26, 321b
	mov	x0, x21
	bl	rattle_dealloc
	b	321b
983:
	cbz	x23, 613f
	mov	x0, x20
	bl	rattle_dealloc
613:
	cbz	x22, 976b
	mov	x0, x19
	ldp	x20, x19, [sp, #96]
	ldp	x22, x21, [sp, #80]
	ldp	x24, x23, [sp, #64]
	ldp	x26, x25, [sp, #48]
	ldp	x29, x30, [sp, #32]
	add	sp, sp, #112
	b	rattle_dealloc
	.section	.text.std_alloc.vec.Vec.drop._b2066bfd83055edc,"ax",@progbits
	.p2align	2
std_alloc.vec.Vec.drop._b2066bfd83055edc:
	stp	x29, x30, [sp, #-64]!
	stp	x22, x21, [sp, #32]
	ldr	x22, [x0, #16]
	mov	x29, sp
	stp	x20, x19, [sp, #48]
	ldp	x19, x21, [x0]
	stp	x24, x23, [sp, #16]
	cbz	x21, 983f
	add	x23, x19, #24
	b	976f
321:
	subs	x21, x21, #1
	add	x23, x23, #56
	b.eq	983f
976:
	ldp	x8, x20, [x23]
	ldr	x24, [x23, #24]
	cbz	x8, 613f
	ldur	x0, [x23, #-16]
	bl	rattle_dealloc
613:
	cbz	x24, 321b
	mov	x0, x20
	bl	rattle_dealloc
	b	321b
983:
	cbz	x22, 976f
	mov	x0, x19
	ldp	x20, x19, [sp, #48]
	ldp	x22, x21, [sp, #32]
	ldp	x24, x23, [sp, #16]
	ldp	x29, x30, [sp], #64
	b	rattle_dealloc
976:
	ldp	x20, x19, [sp, #48]
	ldp	x22, x21, [sp, #32]
	ldp	x24, x23, [sp, #16]
	ldp	x29, x30, [sp], #64
	ret
	.section	.text.std_alloc.vec.Vec.drop._b0d11e1e9d6e266d,"ax",@progbits
	.p2align	2
std_alloc.vec.Vec.drop._b0d11e1e9d6e266d:
	sub	sp, sp, #224
	ldp	x8, x9, [x0]
	stp	x29, x30, [sp, #128]
	stp	x28, x27, [sp, #144]
	add	x29, sp, #128
	stp	x26, x25, [sp, #160]
	stp	x9, x8, [sp, #16]
	ldr	x8, [x0, #16]
	stp	x24, x23, [sp, #176]
	stp	x22, x21, [sp, #192]
	stp	x20, x19, [sp, #208]
	str	x8, [sp, #8]
	cbz	x9, 659f
	mov	x25, xzr
	b	613f
625:
	sub	x0, x29, #48
	bl	tc_c_lines.tc_queues_queues_Queues_Destruct.drop._63f220441eaf7b3e
	add	x0, sp, #32
	bl	tc_c_lines.tc_queues_queues_Queues_Destruct.drop._63f220441eaf7b3e
	ldr	x8, [sp, #16]
	add	x25, x25, #1
	cmp	x25, x8
	b.eq	659f
613:
	mov	w8, #272
	ldr	x9, [sp, #24]
	madd	x8, x25, x8, x9
	ldp	q0, q1, [x8, #160]
	ldr	x0, [x8, #8]
	ldp	x9, x22, [x8, #24]
	ldr	x23, [x8, #48]
	ldp	x21, x19, [x8, #64]
	ldr	x26, [x8, #152]
	stp	q0, q1, [x29, #-48]
	ldp	q0, q2, [x8, #192]
	ldp	x28, x24, [x8, #80]
	ldp	x20, x27, [x8, #136]
	stur	q0, [x29, #-16]
	ldp	q0, q1, [x8, #224]
	stp	q2, q0, [sp, #32]
	str	q1, [sp, #64]
	cbz	x9, 613f
	bl	rattle_dealloc
613:
	cbz	x23, 118f
	mov	x0, x22
	bl	rattle_dealloc
118:
	cbz	x28, 613f
	cmp	x24, x19
	csel	x8, xzr, x19, lo
	sub	x9, x24, x8
	subs	x10, x19, x9
	cmp	x10, x28
	csel	x23, x10, x28, lo
	subs	x19, x19, x9
	b.ne	625f
118:
	cmp	x28, x19
	b.ls	613f
	sub	x19, x28, x23
	add	x22, x21, #16
	b	93f
321:
	subs	x19, x19, #1
	add	x22, x22, #32
	b.eq	613f
93:
	ldr	x8, [x22]
	cbz	x8, 321b
	ldur	x0, [x22, #-16]
	bl	rattle_dealloc
	b	321b
613:
	mov	x0, x21
	bl	rattle_dealloc
	cbz	x27, 613f
	add	x19, x20, #24
	b	93f
321:
	subs	x27, x27, #1
	add	x19, x19, #40
	b.eq	613f
93:
	ldr	x8, [x19]
	cbz	x8, 321b
	ldur	x0, [x19, #-16]
	bl	rattle_dealloc
	b	321b
613:
	cbz	x26, 625b
	mov	x0, x20
	bl	rattle_dealloc
	b	625b
625:
	sub	x8, x21, x8, lsl #5
	mov	x22, x23
	add	x8, x8, x24, lsl #5
	add	x24, x8, #16
	b	93f
321:
	subs	x22, x22, #1
	add	x24, x24, #32
	b.eq	118b
93:
	ldr	x8, [x24]
	cbz	x8, 321b
	ldur	x0, [x24, #-16]
	bl	rattle_dealloc
	b	321b
659:
	ldr	x8, [sp, #8]
	cbz	x8, 976f
	ldp	x20, x19, [sp, #208]
	ldr	x0, [sp, #24]
	ldp	x22, x21, [sp, #192]
	ldp	x24, x23, [sp, #176]
	ldp	x26, x25, [sp, #160]
	ldp	x28, x27, [sp, #144]
	ldp	x29, x30, [sp, #128]
	add	sp, sp, #224
	b	rattle_dealloc
976:
	ldp	x20, x19, [sp, #208]
	ldp	x22, x21, [sp, #192]
	ldp	x24, x23, [sp, #176]
	ldp	x26, x25, [sp, #160]
	ldp	x28, x27, [sp, #144]
	ldp	x29, x30, [sp, #128]
	add	sp, sp, #224
	ret
	.section	.text.tc_c_lines.tc_queues_queues_Queues_Destruct.drop._63f220441eaf7b3e,"ax",@progbits
	.p2align	2
tc_c_lines.tc_queues_queues_Queues_Destruct.drop._63f220441eaf7b3e:
	sub	sp, sp, #112
	stp	x24, x23, [sp, #64]
	ldp	x23, x8, [x0, #16]
	stp	x20, x19, [sp, #96]
	ldp	x20, x24, [x0]
	stp	x29, x30, [sp, #16]
	add	x29, sp, #16
	str	x8, [sp]
	ldr	x8, [x0, #40]
	stp	x28, x27, [sp, #32]
	stp	x26, x25, [sp, #48]
	stp	x22, x21, [sp, #80]
	str	x8, [sp, #8]
	cbz	x24, 983f
	mov	x25, xzr
	b	62f
613:
	mov	x0, x21
	bl	rattle_dealloc
	add	x25, x25, #1
	cmp	x25, x24
	b.eq	983f
62:
	add	x9, x20, x25, lsl #6
	ldr	x26, [x9, #24]
	ldr	x21, [x9, #8]
	cbz	x26, 613b
	ldr	x8, [x9, #32]
	ldr	x10, [x9, #16]
	cmp	x8, x10
	csel	x9, xzr, x10, lo
	sub	x11, x8, x9
	subs	x12, x10, x11
	cmp	x12, x26
	csel	x22, x12, x26, lo
	subs	x28, x10, x11
	b.ne	625f
118:
	cmp	x26, x28
	b.ls	613b
	sub	x26, x26, x22
	add	x19, x21, #16
	b	93f
321:
	subs	x26, x26, #1
	add	x19, x19, #32
	b.eq	613b
93:
	ldr	x8, [x19]
	cbz	x8, 321b
	ldur	x0, [x19, #-16]
	bl	rattle_dealloc
	b	321b
625:
	sub	x9, x21, x9, lsl #5
	mov	x27, x22
	add	x8, x9, x8, lsl #5
	add	x19, x8, #16
	b	93f
321:
	subs	x27, x27, #1
	add	x19, x19, #32
	b.eq	118b
93:
	ldr	x8, [x19]
	cbz	x8, 321b
	ldur	x0, [x19, #-16]
	bl	rattle_dealloc
	b	321b
983:
	cbz	x23, 93f
	mov	x0, x20
	bl	rattle_dealloc
93:
	ldr	x8, [sp, #8]
	cbz	x8, 976f
	ldp	x20, x19, [sp, #96]
	ldr	x0, [sp]
	ldp	x22, x21, [sp, #80]
	ldp	x24, x23, [sp, #64]
	ldp	x26, x25, [sp, #48]
	ldp	x28, x27, [sp, #32]
	ldp	x29, x30, [sp, #16]
	add	sp, sp, #112
	b	rattle_dealloc
976:
	ldp	x20, x19, [sp, #96]
	ldp	x22, x21, [sp, #80]
	ldp	x24, x23, [sp, #64]
	ldp	x26, x25, [sp, #48]
	ldp	x28, x27, [sp, #32]
	ldp	x29, x30, [sp, #16]
	add	sp, sp, #112
	ret
	.section	.text.tc_c_lines.calls.sit,"ax",@progbits
	.p2align	2
tc_c_lines.calls.sit:
	ldrb	w8, [x1]
	cbz	w8, 625f
	ldrb	w0, [x1, #1]
	b	tc_c_base.status.code
625:
	sub	sp, sp, #224
	stp	x22, x21, [sp, #192]
	ldp	x8, x22, [x1, #16]
	stp	x28, x27, [sp, #144]
	ldp	x21, x27, [x1, #48]
	stp	x26, x25, [sp, #160]
	stp	x8, x0, [sp]
	mov	w0, #120
	ldp	x8, x28, [x1, #32]
	stp	x24, x23, [sp, #176]
	ldp	x25, x23, [x1, #64]
	stp	x20, x19, [sp, #208]
	and	w20, w22, #0xff
	ldrb	w19, [x1, #8]
	stp	x29, x30, [sp, #128]
	add	x29, sp, #128
	str	x8, [sp, #16]
	ldp	x24, x26, [x1, #80]
	mov	w1, #8
	bl	rattle_alloc
	tbz	w0, #0, 93f
	lsr	x9, x22, #40
	lsr	x10, x22, #8
	stp	x24, x26, [x1, #72]
	ldp	x8, x26, [sp]
	mov	w0, wzr
	stp	x19, x8, [x1]
	lsr	x8, x22, #56
	strb	w20, [x1, #16]
	strb	w8, [x1, #23]
	ldr	x8, [sp, #16]
	sturh	w9, [x1, #21]
	stp	x8, x28, [x1, #24]
	sub	x8, x29, #1
	stp	x8, xzr, [x1, #88]
	mov	w8, #1
	stur	w10, [x1, #17]
	stp	x21, x27, [x1, #40]
	stp	x25, x23, [x1, #56]
	stp	xzr, xzr, [x1, #104]
	strb	w8, [x26]
	str	wzr, [x26, #4]
	stur	wzr, [x26, #1]
	str	x1, [x26, #8]
	b	976f
93:
	ldr	x8, [sp, #16]
	cmp	w19, #1
	b.gt	118f
	cbnz	w19, 598f
	cbz	w20, 625f
	sub	x0, x29, #56
	stp	x28, x21, [x29, #-56]
	stur	x27, [x29, #-40]
	b	498f
118:
	cmp	w19, #2
	b.ne	983f
	cbz	x28, 613f
	mov	x0, x22
	bl	rattle_dealloc
613:
	cbz	x25, 62f
	mov	x0, x21
	bl	rattle_dealloc
62:
	cbz	x24, 613f
	add	x19, x23, #16
	b	257f
321:
	subs	x24, x24, #1
	add	x19, x19, #56
	b.eq	613f
257:
	ldurb	w8, [x19, #-16]
	cbz	w8, 321b
	ldr	x8, [x19, #16]
	cbz	x8, 321b
	ldr	x0, [x19]
	bl	rattle_dealloc
	b	321b
598:
	cbz	w20, 62f
	stp	x28, x21, [sp, #24]
	add	x0, sp, #24
	str	x27, [sp, #40]
498:
	bl	std_alloc.vec.Vec.drop._b0d11e1e9d6e266d
	b	983f
613:
	cbz	x26, 983f
	mov	x0, x23
	b	498f
625:
	sub	x0, x29, #32
	stp	x8, x28, [x29, #-32]
	stur	x21, [x29, #-16]
	bl	std_alloc.vec.Vec.drop._b2066bfd83055edc
	cbnz	x23, 613f
	b	983f
62:
	add	x0, sp, #48
	stp	x8, x28, [sp, #48]
	str	x21, [sp, #64]
	bl	std_alloc.vec.Vec.drop._b2066bfd83055edc
	cbz	x23, 983f
613:
	mov	x0, x27
498:
	bl	rattle_dealloc
983:
	mov	w0, #13
976:
	ldp	x20, x19, [sp, #208]
	ldp	x22, x21, [sp, #192]
	ldp	x24, x23, [sp, #176]
	ldp	x26, x25, [sp, #160]
	ldp	x28, x27, [sp, #144]
	ldp	x29, x30, [sp, #128]
	add	sp, sp, #224
	ret
	.section	.text.unlikely.std_alloc.vec.Vec.grow_amortized._d74ff6a12f6fd226,"ax",@progbits
	.p2align	2
std_alloc.vec.Vec.grow_amortized._d74ff6a12f6fd226:
	ldr	x8, [x0, #8]
	cmn	x8, #1
	b.eq	983f
	stp	x29, x30, [sp, #-32]!
	ldr	x9, [x0, #16]
	cmp	x8, #3
	mov	w10, #3
	csel	x11, x8, x10, hi
	stp	x20, x19, [sp, #16]
	mov	x29, sp
	lsl	x10, x9, #1
	add	x12, x11, #1
	lsr	x13, x9, #62
	cmp	x12, x10
	csinc	x10, x10, x11, ls
	cmp	x13, #0
	csinc	x19, x10, x11, eq
	mov	x11, #37449
	movk	x11, #18724, lsl #16
	movk	x11, #9362, lsl #32
	movk	x11, #585, lsl #48
	cmp	x19, x11
	b.hi	187f
	cbz	x9, 192f
	lsl	x9, x8, #6
	lsl	x10, x19, #6
	mov	x20, x0
	ldr	x0, [x0]
	mov	w3, #8
	sub	x1, x9, x8, lsl #3
	sub	x2, x10, x19, lsl #3
	bl	rattle_realloc
	tbz	w0, #0, 187f
613:
	mov	w0, #1
	str	x1, [x20]
	str	x19, [x20, #16]
	ldp	x20, x19, [sp, #16]
	ldp	x29, x30, [sp], #32
	ret
983:
	mov	w0, wzr
	ret
192:
	lsl	x8, x10, #6
	mov	x20, x0
	mov	w1, #8
	sub	x0, x8, x10, lsl #3
	bl	rattle_alloc
	tbnz	w0, #0, 613b
187:
	mov	w0, wzr
	ldp	x20, x19, [sp, #16]
	ldp	x29, x30, [sp], #32
	ret
	.section	.text.tcrx_lines_answer_at,"ax",@progbits
	.globl	tcrx_lines_answer_at
	.p2align	2
	.type	tcrx_lines_answer_at,@function
tcrx_lines_answer_at:
	sub	sp, sp, #288
	cmp	x1, #0
	mov	w8, #4096
	ldrb	w9, [x0]
	stp	x24, x23, [sp, #240]
	csel	x23, x8, xzr, eq
	cmp	x3, #0
	stp	x26, x25, [sp, #224]
	csel	x25, x8, xzr, eq
	cmp	w9, #1
	stp	x29, x30, [sp, #192]
	add	x29, sp, #192
	stp	x28, x27, [sp, #208]
	stp	x22, x21, [sp, #256]
	stp	x20, x19, [sp, #272]
	b.ne	613f
	ldr	x19, [x0, #8]
	ldrb	w8, [x19, #112]
	cmp	w8, #1
	b.ne	922f
	mov	x1, xzr
	mov	w0, #104
	b	976f
613:
	mov	x1, xzr
	mov	w0, #100
976:
	ldp	x20, x19, [sp, #272]
	ldp	x22, x21, [sp, #256]
	ldp	x24, x23, [sp, #240]
	ldp	x26, x25, [sp, #224]
	ldp	x28, x27, [sp, #208]
	ldp	x29, x30, [sp, #192]
	add	sp, sp, #288
	ret
922:
	movi	v0.2d, #0000000000000000
	ldr	x8, [x19, #96]
	mov	x21, x4
	mov	x20, x3
	stp	xzr, xzr, [sp, #24]
	str	xzr, [sp, #16]
	stp	q0, q0, [sp, #80]
	stp	q0, q0, [sp, #112]
	stp	q0, q0, [sp, #144]
	cbz	x8, 602f
	str	xzr, [x19, #96]
602:
	ldrb	w8, [x19]
	cmp	w8, #3
	b.ne	93f
	mov	w26, #4
	b	659f
93:
	ldr	x8, [x19, #104]
	mov	x22, x2
	cmp	x8, #36, lsl #12
	b.lo	187f
62:
	add	x0, sp, #80
	add	x2, x1, x23
	add	x4, x19, #88
	mov	x1, x19
	mov	x3, x22
	bl	tc_session.engine.Engine.answer._5349ec06ad6c886c
	ldrb	w8, [sp, #80]
	cbz	w8, 602f
	movi	v0.2d, #0000000000000000
	mov	w8, #3
	ldrb	w26, [x19]
	ldp	x0, x9, [x19, #16]
	str	x8, [x19]
	ldp	x8, x23, [x19, #32]
	cmp	w26, #1
	ldp	x24, x22, [x19, #48]
	ldr	x10, [x19, #80]
	ldp	x27, x28, [x19, #64]
	stur	q0, [x19, #8]
	stur	q0, [x19, #24]
	stur	q0, [x19, #40]
	str	x10, [sp, #8]
	stur	q0, [x19, #56]
	stur	q0, [x19, #72]
	b.gt	118f
	and	w10, w0, #0xff
	cbz	w10, 481f
	add	x0, sp, #40
	stp	x8, x23, [sp, #40]
	str	x24, [sp, #56]
	bl	std_alloc.vec.Vec.drop._135a1426c75792d3
	b	983f
602:
	ldrb	w8, [sp, #81]
	tbz	w8, #0, 922f
	mov	w26, wzr
	b	659f
118:
	cmp	w26, #2
	b.ne	659f
	cbz	x8, 613f
	bl	rattle_dealloc
613:
	cbz	x22, 316f
	mov	x0, x23
	bl	rattle_dealloc
316:
	cbz	x28, 93f
	add	x22, x27, #16
	b	257f
321:
	subs	x28, x28, #1
	add	x22, x22, #56
	b.eq	93f
257:
	ldurb	w8, [x22, #-16]
	cbz	w8, 321b
	ldr	x8, [x22, #16]
	cbz	x8, 321b
	ldr	x0, [x22]
	bl	rattle_dealloc
	b	321b
922:
	movi	v1.2d, #0000000000000000
	mov	w8, #3
	ldrb	w10, [x19]
	str	x8, [x19]
	ldp	x0, x9, [x19, #16]
	ldp	x8, x22, [x19, #32]
	cmp	w10, #1
	ldp	x23, x26, [x19, #48]
	ldur	q0, [x19, #72]
	ldr	x24, [x19, #64]
	stur	q1, [x19, #72]
	str	q0, [sp, #64]
	stur	q1, [x19, #8]
	stur	q1, [x19, #24]
	stur	q1, [x19, #40]
	stur	q1, [x19, #56]
	b.gt	118f
	and	w11, w0, #0xff
	cbz	w11, 62f
	add	x0, sp, #40
	stp	x8, x22, [sp, #40]
	str	x23, [sp, #56]
	bl	std_alloc.vec.Vec.drop._135a1426c75792d3
	b	32f
93:
	ldr	x8, [sp, #8]
	cbz	x8, 983f
	mov	x0, x27
	b	498f
481:
	add	x0, sp, #40
	stp	x9, x8, [sp, #40]
	str	x23, [sp, #56]
	bl	std_alloc.vec.Vec.drop._eda3823cd94715d4
	cbz	x27, 983f
	mov	x0, x24
498:
	bl	rattle_dealloc
983:
	mov	w26, #3
	b	659f
118:
	cmp	w10, #2
	b.ne	32f
	cbz	x8, 613f
	bl	rattle_dealloc
613:
	cbz	x26, 93f
	mov	x0, x22
	bl	rattle_dealloc
93:
	ldr	q0, [sp, #64]
	add	x0, sp, #16
	str	x24, [sp, #16]
	stur	q0, [sp, #24]
	bl	std_alloc.vec.Vec.drop._26dad1ae63f4b67d
	mov	w26, #1
	b	659f
187:
	mov	x24, x1
	mov	w1, #16384
	add	x0, x19, #88
	movk	w1, #2, lsl #16
	bl	std_alloc.vec.Vec.grow_amortized._e46d560dfcddf60e
	mov	x1, x24
	cbnz	w0, 62b
	mov	w26, #2
	b	659f
62:
	add	x0, sp, #40
	stp	x9, x8, [sp, #40]
	str	x22, [sp, #56]
	bl	std_alloc.vec.Vec.drop._eda3823cd94715d4
	cbz	x24, 32f
	mov	x0, x23
	bl	rattle_dealloc
32:
	mov	w26, #1
659:
	ldr	x1, [x19, #96]
	cmp	x21, x1
	b.hs	232f
	mov	w8, #1
	strb	w26, [x19, #113]
	mov	w0, #50
	strb	w8, [x19, #112]
	b	976b
232:
	ldur	x8, [x19, #88]
	add	x0, x20, x25
	mov	x21, x1
	sub	x9, x0, x8
	cmp	x9, x1
	b.hs	983f
	cmp	x1, #8
	b.lo	613f
	add	x9, x25, x20
	sub	x9, x9, x8
	cmp	x9, #32
	b.hs	118f
613:
	mov	x9, xzr
62:
	add	x11, x25, x9
	sub	x10, x1, x9
	add	x8, x8, x9
	add	x9, x20, x11
602:
	ldrb	w11, [x8], #1
	subs	x10, x10, #1
	strb	w11, [x9], #1
	b.ne	602b
	b	613f
983:
	mov	x1, x8
	mov	x2, x21
	bl	memmove
613:
	mov	x9, #15360
	ubfiz	x8, x26, #3, #32
	strh	wzr, [x19, #112]
	movk	x9, #15884, lsl #16
	movk	x9, #63, lsl #32
	lsr	x0, x9, x8
	bl	tc_c_base.status.code
	mov	x1, x21
	mov	w0, w0
	b	976b
118:
	cmp	x1, #32
	b.hs	316f
	mov	x9, xzr
	b	983f
316:
	add	x12, x25, x20
	and	x10, x1, #0x18
	and	x9, x1, #0xffffffffffffffe0
	add	x11, x8, #16
	add	x12, x12, #16
	and	x13, x1, #0xffffffffffffffe0
976:
	ldp	q0, q1, [x11, #-16]
	subs	x13, x13, #32
	add	x11, x11, #32
	stp	q0, q1, [x12, #-16]
	add	x12, x12, #32
	b.ne	976b
	cmp	x1, x9
	b.eq	613b
	cbz	x10, 62b
983:
	mov	x11, x9
	and	x9, x1, #0xfffffffffffffff8
	add	x12, x25, x11
	sub	x10, x11, x9
	add	x11, x8, x11
	add	x12, x20, x12
93:
	ldr	d0, [x11], #8
	adds	x10, x10, #8
	str	d0, [x12], #8
	b.ne	93b
	cmp	x1, x9
	b.eq	613b
	b	62b
	.size	tcrx_lines_answer_at, .-tcrx_lines_answer_at
	.section	.text.tcrx_lines_end_at,"ax",@progbits
	.globl	tcrx_lines_end_at
	.p2align	2
	.type	tcrx_lines_end_at,@function
tcrx_lines_end_at:
	sub	sp, sp, #160
	ldrb	w9, [x0]
	mov	w8, #4096
	cmp	x1, #0
	stp	x26, x25, [sp, #96]
	csel	x25, x8, xzr, eq
	cmp	w9, #1
	stp	x29, x30, [sp, #64]
	add	x29, sp, #64
	str	x27, [sp, #80]
	stp	x24, x23, [sp, #112]
	stp	x22, x21, [sp, #128]
	stp	x20, x19, [sp, #144]
	b.ne	613f
	ldr	x19, [x0, #8]
	ldrb	w8, [x19, #112]
	cmp	w8, #1
	b.ne	93f
	mov	x1, xzr
	mov	w0, #104
	b	976f
613:
	mov	x1, xzr
	mov	w0, #100
976:
	ldp	x20, x19, [sp, #144]
	ldr	x27, [sp, #80]
	ldp	x22, x21, [sp, #128]
	ldp	x24, x23, [sp, #112]
	ldp	x26, x25, [sp, #96]
	ldp	x29, x30, [sp, #64]
	add	sp, sp, #160
	ret
93:
	ldr	x8, [x19, #96]
	mov	x20, x1
	mov	x21, x2
	cbz	x8, 602f
	str	xzr, [x19, #96]
602:
	ldrb	w8, [x19]
	cmp	w8, #3
	b.ne	93f
	mov	w22, #4
	ldr	x1, [x19, #96]
	cmp	x21, x1
	b.hs	659f
613:
	mov	w8, #1
	strb	w22, [x19, #113]
	mov	w0, #50
	strb	w8, [x19, #112]
	b	976b
93:
	ldr	x9, [x19, #104]
	cmp	x9, #36, lsl #12
	b.lo	983f
	cmp	w8, #1
	b.gt	118f
602:
	ldrb	w9, [x19, #9]
	b	922f
983:
	mov	w1, #16384
	add	x0, x19, #88
	movk	w1, #2, lsl #16
	bl	std_alloc.vec.Vec.grow_amortized._e46d560dfcddf60e
	cbz	w0, 943f
	ldrb	w8, [x19]
	cmp	w8, #1
	b.le	602b
118:
	cmp	w8, #2
	b.ne	602f
	mov	w9, wzr
	b	922f
602:
	ldrb	w9, [x19, #114]
922:
	movi	v0.2d, #0000000000000000
	strb	w9, [x19, #114]
	mov	w9, #3
	ldp	x12, x0, [x19, #8]
	str	x9, [x19]
	ldp	x11, x9, [x19, #24]
	cmp	w8, #1
	ldp	x24, x10, [x19, #40]
	ldp	x27, x22, [x19, #56]
	stur	q0, [x19, #8]
	ldp	x23, x26, [x19, #72]
	stur	q0, [x19, #24]
	stur	q0, [x19, #40]
	stur	q0, [x19, #56]
	stur	q0, [x19, #72]
	b.gt	118f
	cbnz	w8, 598f
	stp	x12, x0, [sp]
	mov	x1, sp
	mov	x0, x19
	mov	w2, wzr
	mov	w3, wzr
	stp	x11, x9, [sp, #16]
	b	744f
118:
	cmp	w8, #2
	b.ne	174f
	cbz	x9, 983f
	bl	rattle_dealloc
983:
	cbz	x27, 62f
	mov	x0, x24
	bl	rattle_dealloc
62:
	cbz	x23, 32f
	add	x24, x22, #16
	b	257f
321:
	subs	x23, x23, #1
	add	x24, x24, #56
	b.eq	32f
257:
	ldurb	w8, [x24, #-16]
	cbz	w8, 321b
	ldr	x8, [x24, #16]
	cbz	x8, 321b
	ldr	x0, [x24]
	bl	rattle_dealloc
	b	321b
598:
	stp	x12, x0, [sp]
	mov	x1, sp
	mov	x0, x19
	stp	x11, x9, [sp, #16]
	mov	w2, #1
	mov	w3, w23
744:
	stp	x24, x10, [sp, #32]
	stp	x27, x22, [sp, #48]
	bl	tc_session.session.Session.close
	and	w22, w0, #0xff
	ldr	x1, [x19, #96]
	cmp	x21, x1
	b.lo	613b
659:
	ldr	x8, [x19, #88]
	add	x0, x20, x25
	mov	x21, x1
	sub	x9, x0, x8
	cmp	x9, x1
	b.hs	187f
	cmp	x1, #8
	b.lo	983f
	add	x9, x25, x20
	sub	x9, x9, x8
	cmp	x9, #32
	b.hs	118f
983:
	mov	x9, xzr
62:
	add	x11, x25, x9
	sub	x10, x1, x9
	add	x8, x8, x9
	add	x9, x20, x11
602:
	ldrb	w11, [x8], #1
	subs	x10, x10, #1
	strb	w11, [x9], #1
	b.ne	602b
	b	983f
187:
	mov	x1, x8
	mov	x2, x21
	bl	memmove
983:
	mov	x9, #15360
	lsl	w8, w22, #3
	strh	wzr, [x19, #112]
	movk	x9, #15884, lsl #16
	movk	x9, #63, lsl #32
	lsr	x0, x9, x8
	bl	tc_c_base.status.code
	mov	x1, x21
	mov	w0, w0
	b	976b
32:
	cbz	x26, 187f
	mov	x0, x22
	bl	rattle_dealloc
187:
	mov	w22, wzr
	ldr	x1, [x19, #96]
	cmp	x21, x1
	b.hs	659b
	b	613b
118:
	cmp	x1, #32
	b.hs	316f
	mov	x9, xzr
	b	187f
316:
	add	x12, x25, x20
	and	x10, x1, #0x18
	and	x9, x1, #0xffffffffffffffe0
	add	x11, x8, #16
	add	x12, x12, #16
	and	x13, x1, #0xffffffffffffffe0
976:
	ldp	q0, q1, [x11, #-16]
	subs	x13, x13, #32
	add	x11, x11, #32
	stp	q0, q1, [x12, #-16]
	add	x12, x12, #32
	b.ne	976b
	cmp	x1, x9
	b.eq	983b
	cbz	x10, 62b
187:
	mov	x11, x9
	and	x9, x1, #0xfffffffffffffff8
	add	x12, x25, x11
	sub	x10, x11, x9
	add	x11, x8, x11
	add	x12, x20, x12
93:
	ldr	d0, [x11], #8
	adds	x10, x10, #8
	str	d0, [x12], #8
	b.ne	93b
	cmp	x1, x9
	b.eq	983b
	b	62b
943:
	mov	w22, #2
	ldr	x1, [x19, #96]
	cmp	x21, x1
	b.lo	613b
	b	659b
174:
	brk	#0x1
	.size	tcrx_lines_end_at, .-tcrx_lines_end_at
	.section	.text.tcrx_lines_free_at,"ax",@progbits
	.globl	tcrx_lines_free_at
	.p2align	2
	.type	tcrx_lines_free_at,@function
tcrx_lines_free_at:
	mov	x8, x0
	ldrb	w9, [x0]
	ldr	x0, [x0, #8]
	stp	xzr, xzr, [x8]
	tbnz	w9, #0, 625f
	mov	w0, #100
	ret
625:
	sub	sp, sp, #192
	stp	x26, x25, [sp, #128]
	ldp	x25, x8, [x0, #72]
	stp	x28, x27, [sp, #112]
	stp	x24, x23, [sp, #144]
	ldrb	w23, [x0]
	str	x8, [sp, #8]
	ldr	x8, [x0, #88]
	stp	x22, x21, [sp, #160]
	ldp	x24, x22, [x0, #8]
	stp	x20, x19, [sp, #176]
	ldp	x19, x27, [x0, #24]
	str	x8, [sp, #16]
	ldr	x8, [x0, #104]
	stp	x29, x30, [sp, #96]
	add	x29, sp, #96
	ldp	x21, x28, [x0, #40]
	str	x8, [sp, #24]
	ldp	x26, x20, [x0, #56]
	bl	rattle_dealloc
	cmp	w23, #1
	b.gt	118f
	add	x0, sp, #32
	stp	x24, x22, [sp, #32]
	stp	x19, x27, [sp, #48]
	stp	x21, x28, [sp, #64]
	stp	x26, x20, [sp, #80]
	bl	tc_c_lines.tc_live_receiver_Receiver_Destruct.drop
	b	659f
118:
	cmp	w23, #2
	b.ne	659f
	cbz	x27, 613f
	mov	x0, x22
	bl	rattle_dealloc
613:
	cbz	x26, 62f
	mov	x0, x21
	bl	rattle_dealloc
62:
	cbz	x25, 93f
	add	x21, x20, #16
	b	257f
321:
	subs	x25, x25, #1
	add	x21, x21, #56
	b.eq	93f
257:
	ldurb	w8, [x21, #-16]
	cbz	w8, 321b
	ldr	x8, [x21, #16]
	cbz	x8, 321b
	ldr	x0, [x21]
	bl	rattle_dealloc
	b	321b
93:
	ldr	x8, [sp, #8]
	cbz	x8, 659f
	mov	x0, x20
	bl	rattle_dealloc
659:
	ldr	x8, [sp, #24]
	cbz	x8, 976f
	ldr	x0, [sp, #16]
	bl	rattle_dealloc
976:
	ldp	x20, x19, [sp, #176]
	mov	w0, wzr
	ldp	x22, x21, [sp, #160]
	ldp	x24, x23, [sp, #144]
	ldp	x26, x25, [sp, #128]
	ldp	x28, x27, [sp, #112]
	ldp	x29, x30, [sp, #96]
	add	sp, sp, #192
	ret
	.size	tcrx_lines_free_at, .-tcrx_lines_free_at
	.section	.text.tcrx_lines_live_at,"ax",@progbits
	.globl	tcrx_lines_live_at
	.p2align	2
	.type	tcrx_lines_live_at,@function
tcrx_lines_live_at:
	sub	sp, sp, #128
	ldrb	w8, [x0]
	stp	x29, x30, [sp, #112]
	add	x29, sp, #112
	str	xzr, [sp, #8]
	tbz	w8, #0, 447f
	mov	w0, #101
	ldp	x29, x30, [sp, #112]
	add	sp, sp, #128
	ret
447:
	and	w8, w2, #0xff
	cmp	w8, #1
	b.hi	583f
	and	w8, w1, #0xffff
	cmp	w8, #1024
	b.hs	613f
	mov	w10, wzr
	mov	w9, wzr
	sub	x8, x29, #8
	b	922f
583:
	tst	w1, #0xfc00
	mov	w9, #59
	mov	w10, #22
	mov	w2, wzr
	mov	x8, xzr
	csel	w9, w10, w9, eq
	mov	w10, #1
	mov	w1, wzr
	b	922f
613:
	mov	w2, wzr
	mov	w1, wzr
	mov	x8, xzr
	mov	w9, #59
	mov	w10, #1
922:
	movi	v0.2d, #0000000000000000
	strh	w1, [sp, #26]
	add	x1, sp, #8
	strb	w10, [sp, #8]
	strb	w9, [sp, #9]
	str	xzr, [sp, #16]
	strb	w2, [sp, #24]
	strb	wzr, [sp, #25]
	str	wzr, [sp, #28]
	stp	xzr, x8, [sp, #32]
	stp	xzr, xzr, [sp, #48]
	str	x8, [sp, #64]
	stur	q0, [sp, #72]
	stur	q0, [sp, #88]
	bl	tc_c_lines.calls.sit
	ldp	x29, x30, [sp, #112]
	add	sp, sp, #128
	ret
	.size	tcrx_lines_live_at, .-tcrx_lines_live_at
	.section	.rodata.cst16,"aM",@progbits,16
	.p2align	4
.LC4dbd1938_0:
	.xword	0
	.xword	256
	.section	.text.tcrx_lines_make_at,"ax",@progbits
	.globl	tcrx_lines_make_at
	.p2align	2
	.type	tcrx_lines_make_at,@function
tcrx_lines_make_at:
	sub	sp, sp, #416
	ldrb	w8, [x0]
	stp	x29, x30, [sp, #336]
	add	x29, sp, #336
	str	x28, [sp, #352]
	stp	x24, x23, [sp, #368]
	stp	x22, x21, [sp, #384]
	stp	x20, x19, [sp, #400]
	str	xzr, [sp]
	tbz	w8, #0, 447f
	mov	w0, #101
	b	989f
447:
	and	w8, w1, #0xff
	add	x21, sp, #160
	str	wzr, [sp, #160]
	cmp	w8, #1
	stur	wzr, [x21, #3]
	stp	xzr, xzr, [sp, #136]
	str	xzr, [sp, #128]
	str	wzr, [sp, #120]
	stur	wzr, [sp, #123]
	stp	xzr, xzr, [sp, #104]
	str	xzr, [sp, #96]
	b.hi	613f
	mov	w23, w1
	mov	x22, x0
	mov	w0, #1024
	mov	w1, #1
	stp	xzr, xzr, [x29, #-152]
	stur	xzr, [x29, #-160]
	stur	xzr, [x21, #39]
	str	wzr, [sp, #168]
	stur	wzr, [x21, #11]
	bl	rattle_alloc
	tbz	w0, #0, 32f
	mov	x19, x1
	mov	x0, x1
	mov	w1, wzr
	mov	w2, #1024
	bl	memset
	mov	w0, #8192
	mov	w1, #1
	bl	rattle_alloc
	tbz	w0, #0, 983f
	mov	x20, x1
	mov	x0, x1
	mov	w1, wzr
	mov	w2, #8192
	bl	memset
	movi	v0.2d, #0000000000000000
	mov	w0, #14336
	mov	w1, #8
	stp	q0, q0, [x29, #-112]
	stur	q0, [x29, #-128]
	bl	rattle_alloc
	tbz	w0, #0, 187f
	adrp	x8, .LC4dbd1938_0
	mov	x9, xzr
	mov	w24, #256
	ldr	q0, [x8, :lo12:.LC4dbd1938_0]
	mov	x0, x22
	mov	w8, w23
	stur	x1, [x29, #-72]
	stur	q0, [x21, #112]
	b	681f
613:
	mov	w8, wzr
	mov	x19, xzr
	mov	x11, xzr
	mov	x20, xzr
	mov	x9, xzr
	mov	x13, xzr
	mov	w10, #22
	mov	w12, #1
	b	560f
983:
	mov	x0, x19
	b	498f
976:
	ldp	x1, x9, [x29, #-72]
	mov	x0, x22
	mov	w8, w23
613:
	mov	w10, #56
	subs	x24, x24, #1
	madd	x10, x9, x10, x1
	add	x9, x9, #1
	str	xzr, [x10]
	ldp	q0, q2, [x29, #-48]
	ldur	q1, [x29, #-16]
	stur	q1, [x10, #40]
	stur	q0, [x10, #8]
	stur	q2, [x10, #24]
	stur	x9, [x29, #-64]
	b.eq	659f
681:
	ldp	q0, q1, [x29, #-128]
	ldur	x10, [x29, #-56]
	ldur	q2, [x29, #-96]
	cmp	x10, x9
	stp	q0, q1, [x29, #-48]
	stur	q2, [x29, #-16]
	b.ne	613b
	sub	x0, x29, #72
	bl	std_alloc.vec.Vec.grow_amortized._d74ff6a12f6fd226
	cbnz	w0, 976b
	brk	#0x1
187:
	mov	x0, x19
	bl	rattle_dealloc
	mov	x0, x20
498:
	bl	rattle_dealloc
32:
	mov	w8, wzr
	mov	x19, xzr
	mov	x11, xzr
	mov	x20, xzr
	mov	x9, xzr
	mov	x13, xzr
	mov	w10, #12
	mov	w12, #1
	mov	x0, x22
93:
	ldr	w14, [sp, #120]
	ldur	w15, [sp, #123]
	ldr	q0, [sp, #96]
	str	w14, [sp, #160]
	ldr	x14, [sp, #112]
	stur	w15, [x21, #3]
	str	q0, [sp, #128]
	str	x14, [sp, #144]
560:
	strb	w10, [sp, #1]
	ldr	w10, [sp, #160]
	ldr	q0, [sp, #128]
	strb	w8, [sp, #16]
	mov	x1, sp
	ldur	w8, [x21, #3]
	stur	w10, [sp, #17]
	str	w8, [sp, #20]
	ldr	x8, [sp, #144]
	strb	w12, [sp]
	str	x13, [sp, #8]
	stp	x19, x11, [sp, #24]
	stp	x11, x20, [sp, #40]
	stp	x9, x9, [sp, #56]
	stur	q0, [sp, #72]
	str	x8, [sp, #88]
	bl	tc_c_lines.calls.sit
989:
	ldp	x20, x19, [sp, #400]
	ldr	x28, [sp, #352]
	ldp	x22, x21, [sp, #384]
	ldp	x24, x23, [sp, #368]
	ldp	x29, x30, [sp, #336]
	add	sp, sp, #416
	ret
659:
	ldr	w9, [sp, #168]
	ldur	w11, [x21, #11]
	mov	w12, wzr
	ldur	q0, [x21, #104]
	mov	w10, wzr
	mov	w13, #2
	str	w9, [sp, #120]
	ldur	x9, [x29, #-56]
	stur	w11, [sp, #123]
	mov	w11, #1024
	str	q0, [sp, #96]
	str	x9, [sp, #112]
	mov	w9, #8192
	b	93b
	.size	tcrx_lines_make_at, .-tcrx_lines_make_at
	.section	.text.tcrx_lines_saw_check_sums_at,"ax",@progbits
	.globl	tcrx_lines_saw_check_sums_at
	.p2align	2
	.type	tcrx_lines_saw_check_sums_at,@function
tcrx_lines_saw_check_sums_at:
	ldrb	w8, [x0]
	cmp	w8, #1
	b.ne	613f
	ldr	x8, [x0, #8]
	ldrb	w9, [x8]
	cmp	w9, #1
	b.gt	118f
	add	x8, x8, #9
	cmp	w9, #0
	mov	x8, x8
	b	602f
613:
	mov	w9, #100
	and	w8, wzr, #0xff
	mov	w9, w9
	orr	x0, x9, x8, lsl #32
	ret
118:
	cmp	w9, #2
	b.ne	62f
	and	w8, wzr, #0xff
	mov	w9, wzr
	orr	x0, x9, x8, lsl #32
	ret
62:
	add	x8, x8, #114
602:
	ldrb	w8, [x8]
	and	w8, w8, #0xff
	cmp	w8, #1
	cset	w8, eq
	and	w8, w8, #0xff
	mov	w9, wzr
	orr	x0, x9, x8, lsl #32
	ret
	.size	tcrx_lines_saw_check_sums_at, .-tcrx_lines_saw_check_sums_at
	.section	.text.tcrx_lines_script_at,"ax",@progbits
	.globl	tcrx_lines_script_at
	.p2align	2
	.type	tcrx_lines_script_at,@function
tcrx_lines_script_at:
	sub	sp, sp, #128
	ldrb	w8, [x0]
	stp	x29, x30, [sp, #112]
	add	x29, sp, #112
	str	xzr, [sp, #8]
	tbz	w8, #0, 447f
	mov	w0, #101
	ldp	x29, x30, [sp, #112]
	add	sp, sp, #128
	ret
447:
	and	w8, w1, #0xffff
	cmp	w8, #1023
	b.hi	613f
	mov	w10, wzr
	mov	w9, wzr
	sub	x8, x29, #8
	mov	w11, #1
	b	922f
613:
	mov	w1, wzr
	mov	x8, xzr
	mov	x11, xzr
	mov	w9, #59
	mov	w10, #1
922:
	movi	v0.2d, #0000000000000000
	strh	w1, [sp, #26]
	add	x1, sp, #8
	strb	w10, [sp, #8]
	strb	w9, [sp, #9]
	str	x11, [sp, #16]
	strh	wzr, [sp, #24]
	str	wzr, [sp, #28]
	stp	xzr, x8, [sp, #32]
	stp	xzr, xzr, [sp, #48]
	str	x8, [sp, #64]
	stur	q0, [sp, #72]
	stur	q0, [sp, #88]
	bl	tc_c_lines.calls.sit
	ldp	x29, x30, [sp, #112]
	add	sp, sp, #128
	ret
	.size	tcrx_lines_script_at, .-tcrx_lines_script_at
	.section	.text.tcrx_lines_text_at,"ax",@progbits
	.globl	tcrx_lines_text_at
	.p2align	2
	.type	tcrx_lines_text_at,@function
tcrx_lines_text_at:
	ldrb	w10, [x0]
	mov	w8, #4096
	cmp	x1, #0
	csel	x9, x8, xzr, eq
	cmp	w10, #1
	b.ne	613f
	stp	x29, x30, [sp, #-48]!
	stp	x20, x19, [sp, #32]
	ldr	x20, [x0, #8]
	mov	x29, sp
	str	x21, [sp, #16]
	ldrb	w8, [x20, #112]
	cmp	w8, #1
	b.ne	983f
	mov	x10, x1
	ldr	x1, [x20, #96]
	cmp	x2, x1
	b.hs	93f
	mov	w8, #1
	mov	w0, #50
	strb	w8, [x20, #112]
	ldp	x20, x19, [sp, #32]
	ldr	x21, [sp, #16]
	ldp	x29, x30, [sp], #48
	ret
613:
	mov	x1, xzr
	mov	w0, #100
	ret
983:
	mov	x0, xzr
	mov	x1, xzr
	ldp	x20, x19, [sp, #32]
	ldr	x21, [sp, #16]
	ldp	x29, x30, [sp], #48
	ret
93:
	ldr	x8, [x20, #88]
	add	x0, x10, x9
	ldrb	w21, [x20, #113]
	mov	x19, x1
	sub	x11, x0, x8
	cmp	x11, x1
	b.hs	983f
	cmp	x1, #8
	b.lo	613f
	add	x11, x9, x10
	sub	x11, x11, x8
	cmp	x11, #32
	b.hs	118f
613:
	mov	x11, xzr
62:
	add	x12, x9, x11
	sub	x9, x1, x11
	add	x8, x8, x11
	add	x10, x10, x12
602:
	ldrb	w11, [x8], #1
	subs	x9, x9, #1
	strb	w11, [x10], #1
	b.ne	602b
	b	613f
983:
	mov	x1, x8
	mov	x2, x19
	bl	memmove
613:
	mov	x9, #15360
	ubfiz	x8, x21, #3, #32
	strh	wzr, [x20, #112]
	movk	x9, #15884, lsl #16
	movk	x9, #63, lsl #32
	lsr	x0, x9, x8
	bl	tc_c_base.status.code
	mov	x1, x19
	mov	w0, w0
	ldp	x20, x19, [sp, #32]
	ldr	x21, [sp, #16]
	ldp	x29, x30, [sp], #48
	ret
118:
	cmp	x1, #32
	b.hs	316f
	mov	x11, xzr
	b	983f
316:
	add	x14, x9, x10
	and	x12, x1, #0x18
	and	x11, x1, #0xffffffffffffffe0
	add	x13, x8, #16
	add	x14, x14, #16
	and	x15, x1, #0xffffffffffffffe0
976:
	ldp	q0, q1, [x13, #-16]
	subs	x15, x15, #32
	add	x13, x13, #32
	stp	q0, q1, [x14, #-16]
	add	x14, x14, #32
	b.ne	976b
	cmp	x1, x11
	b.eq	613b
	cbz	x12, 62b
983:
	mov	x13, x11
	and	x11, x1, #0xfffffffffffffff8
	add	x14, x9, x13
	sub	x12, x13, x11
	add	x13, x8, x13
	add	x14, x10, x14
93:
	ldr	d0, [x13], #8
	adds	x12, x12, #8
	str	d0, [x14], #8
	b.ne	93b
	cmp	x1, x11
	b.eq	613b
	b	62b
	.size	tcrx_lines_text_at, .-tcrx_lines_text_at
	.section	.rodata..LT1c4c589c,"a",@progbits
.LT1c4c589c:
	.ascii	"bad too long\n"
	.section	.rodata..LT23999181,"a",@progbits
.LT23999181:
	.ascii	"gave up reading or writing after 2^64 tries"
	.section	.rodata.cst4,"aM",@progbits,4
.LT2e42b7fd:
	.zero	4,32
.LT3beabe2d:
	.ascii	"link"
	.section	.rodata..LT9561cdf1,"a",@progbits
.LT9561cdf1:
	.ascii	"report"
	.section	.rodata..LT9ce88526,"a",@progbits
.LT9ce88526:
	.ascii	"deliver"
	.section	.rodata..LT56694b3d,"a",@progbits
.LT56694b3d:
	.ascii	"collect"
	.section	.rodata..LT3fe1d88b,"a",@progbits
.LT3fe1d88b:
	.ascii	"candidate"
	.section	.rodata..LT7259b668,"a",@progbits
.LT7259b668:
	.ascii	"channel"
	.section	.rodata..LTcbc8f03c,"a",@progbits
.LTcbc8f03c:
	.ascii	"queue"
	.section	.rodata..LT4903b024,"a",@progbits
.LT4903b024:
	.ascii	"frame"
	.section	.rodata..LT4a7dd6d5,"a",@progbits
.LT4a7dd6d5:
	.ascii	"release"
	.section	.rodata.cst4,"aM",@progbits,4
.LTec03c545:
	.ascii	"take"
.LTce6eba13:
	.ascii	"unit"
.LTd51b947e:
	.ascii	"clcw"
	.section	.rodata..LTb1732992,"a",@progbits
.LTb1732992:
	.ascii	"plain"
	.section	.rodata..LT48aab116,"a",@progbits
	.p2align	1
.LT48aab116:
	.ascii	"\000\000\264vh\355\334\233\361\312E\274\231'-Q\303\205w\363\253h\037\0362O\2069Z\242\356\324\247\033\023m\317\366{\200V\321\342\247><\212Jd\236\320\350\fs\270\005\225T!\"\375\271I\317N7\372A&\332\222\254\277\375\013\213\327\020cf\215\2629\304\345_Q)|x\310\016\024\225\240\343\351,]Z\201\3015\267\030\346\254\220p\013\304}*\251\236\337BD\3662\333co\025\263\216\007\370\234n(\030\364\203@\365m\244\331\322\005I\261?_\353\353\2357\006\203p\256!\032W\306\314r\272;u\217\003S\230\347\356\312\277~\311\242R\026$\370\360L\206\220\035$k\t:\275La\327\325\241\322Yf/\272\264\016\302#\223\227\345K~\377\b\021\334\245\252y1\315G\340\026T`\210\373<\215uB\3014\035\257\251\331\204\2100\376\354eX\023\266\307\002\261\336*j\\G\r\363{/\340\233\2268\335\214\253P0\344F\311\027}a\241\372\025\214\373XO.\223\265'\303\n\222\276\344b\177\326\t\237\306+\260\367+C]n\f\332z\006\341\262\227\\C\35054\256\200\330\255\211\031\377\305dq\022v\352\302\234\036\007\252q\207 3V\357\315[\273\265o\001\031\335\202i\364D\245\360\323,H\230>\321\361e\207\271\034\rj ;\224MH\326\374\240\022t\246\002z\231\316\357\343\276W\310\213S?%\244\263\020\305\314^x(Uy\341\017=\224\211\342g6\323@\017\333\273\255\226\374\"\212\376\021Jg\003\250\267\336kE\3373\362bF\024\232\217.\371\300-t[\250\300\034\2661\347\205\221Y\n\355|\352\204^\362\202i6\037\033N\2578s\243\307\325)\001\235wA\354\365\232\330\313l\275\260&\004PM\237\371\351%r\221\004\274U\b#\324\270`\316\216\032:l\346\367R\201\177\320\313\246\027=\243K"
	.section	.rodata..LT33c05f58,"a",@progbits
	.p2align	1
.LT33c05f58:
	.ascii	"\000\00007`nPY\300\334\360\353\240\262\220\205\241\251\221\236\301\307\361\360auQB\001\0331,cCSt\003-3\032\243\237\223\250\303\361\363\306\302\352\362\335\242\204\222\263\00262\001bXRo\306\206\366\261\246\350\226\337\006Z6mf4V\003g/W\030\007A7v\247\363\227\304\307\235\367\252\245\305\225\362\305\253\365\234e\031U.\005w5@\004l4[d\002T5\304\260\364\207\244\336\224\351\255\035\235*\315s\375Dm\301]\366\r\257=\230\f\264<\203l\332\\\355\314h\374_\254\006\2341\316^\376i\2560\236\007\016\202>\265n\354^\333o\367_\300\017\231?\256\257+\237\034\317E\377rk\233[\254\013\365;\302\253G\233p\313)\373\036\3122\372\005\252\\\232k\n\356:\331j\200Z\267\b\3308\357h\266X\201\310\004\3703\250j\230]\251q\231F\311\037\371(i\255Y\232\t\3039\364Z;j\f:U\nb\232\347\252\320\372\211\312\276\373\222\313\245\233\374\253\313;N\013y[ k\0279x\tOY\026i!\371\244\311\223\231\312\251\375\230\321\250\346\370\277\310\210X\rh:8c\bT\234\275\254\212\374\323\314\344\\alV<\017\f8=\024\r#]zmM\375\310\315\377\235\246\255\221\377\376\317\311\237\220\257\247?\"\017\025_Lo{^Wn`>9\016\016\236\213\256\274\376\345\316\322\367&\307\021\227H\247\1777\372\007\315W\224g\243V\217f\2706\341\006\326\226S\246d\366=\306\n\224e\244R\364\013\304<T\271d\2164\327\004\3405\314\005\373U\242e\225\365\020\305'\225~\245I1\240\001\227Q\316a\371\361|\301K\221\022\241%\220\t\240>\360g\300PP\325`\3420\273\000\214R\343b\3242\215\002\272\222?\242\b\362Q\302f\363J\303}\223$\243\0233\226\003\241S\370c\317"
	.section	.rodata..LTbb337a2b,"a",@progbits
	.p2align	1
.LTbb337a2b:
	.ascii	"\000\00013bfSU\304\314\365\377\246\252\227\231\251\211\230\272\313\357\372\334mE\\v\017#>\020s\003B0\021e V\267\317\206\374\325\251\344\232\332\212\353\271\270\354\211\337\036F/u| M\023\346\006\3275\204`\265S\"\312\023\371@\254q\237O\217~\274-\351\034\332\213C\272p\351%\330\026\225\005\2446\367c\306PQ\311`\3723\257\002\234<\214\r\277^\352o\331\370@\311s\232&\253\025\314\r\375>\256k\237X\b\3019\362j\247[\224e\204T\267\007\3426\321\241H\220{\303.\362\035\277\016\216=\335h\354[{\302J\361\031\244(\227\026\207'\264t\341E\322\322K\343x\260-\201\036*\013\0338Hmy^\356\307\337\364\214\241\275\222\203\202\262\261\341\344\320\327GNv}%(\024\033Y\bh;;n\n]\235\304\254\367\377\242\316\221\360\201\301\262\222\347\243\3244M\005~V+g\030\230\033\251(\372}\313N\\\327m\344>\261\017\2021\222\000\241S\364b\307\365^\304m\2278\246\013\353\030\332+\211~\270M/\324\036\347M\262|\201B\221s\242 \367\021\304\206]\267n\344;\325\b~\035O.\034{-H\272\321\213\342\330\267\351\204\327\224\346\247\265\362\204\301\023X\"kq>@\r\r\036<-ox^K\311\322\370\341\253\264\232\207\244\227\225\244\306\361\367\302`[Qh\002=3\016T\026e%6p\007C\220\332\241\351\362\274\303\217\375\237\314\254\237\371\256\3129S\b`[5j\006'\025\026&Est@\343\331\322\352\201\277\260\214\216\234\277\257\354\372\335\311JP{c(6\031\005\262\020\203#\320v\341Ev\334G\357\024\272%\211\033\231*\252y\377H\314\337U\356f\2753\214\000\301\023\360 \243u\222F\005\3374\354g\271V\212h\232Y\251\n\374;\317\254V\235e\3160\377\003"
	.section	.rodata..LT48c7e4e5,"a",@progbits
	.p2align	1
.LT48c7e4e5:
	.ascii	"\000\000!\020B c0\204@\245P\306`\347p\b\201)\221J\241k\261\214\301\255\321\316\341\357\3611\022\020\002s2R\"\265R\224B\367r\326b9\223\030\203{\263Z\243\275\323\234\303\377\363\336\343b$C4 \004\001\024\346d\307t\244D\205Tj\245K\265(\205\t\225\356\345\317\365\254\305\215\325S6r&\021\0260\006\327v\366f\225V\264F[\267z\247\031\2278\207\337\367\376\347\235\327\274\307\304H\345X\206h\247x@\ba\030\002(#8\314\311\355\331\216\351\257\371H\211i\231\n\251+\271\365Z\324J\267z\226jq\032P\n3:\022*\375\333\334\313\277\373\236\353y\233X\213;\273\032\253\246l\207|\344L\305\\\",\003<`\fA\034\256\355\217\375\354\315\315\335*\255\013\275h\215I\235\227~\266n\325^\364N\023>2.Q\036p\016\237\377\276\357\335\337\374\317\033\277:\257Y\237x\217\210\221\251\201\312\261\353\241\f\321-\301N\361o\341\200\020\241\000\3020\343 \004P%@Fpg`\271\203\230\223\373\243\332\263=\303\034\323\177\343^\363\261\002\220\022\363\"\32225B\024RwbVr\352\265\313\245\250\225\211\205n\365O\345,\325\r\305\3424\303$\240\024\201\004ftGd$T\005D\333\247\372\267\231\207\270\227_\347~\367\035\307<\327\323&\3626\221\006\260\026Wfvv\025F4VL\331m\311\016\371/\351\310\231\351\211\212\271\253\251DXeH\006x'h\300\030\341\b\2028\243(}\313\\\333?\353\036\373\371\213\330\233\273\253\232\273uJTZ7j\026z\361\n\320\032\263*\222:.\375\017\355l\335M\315\252\275\213\255\350\235\311\215&|\007ld\\EL\242<\203,\340\034\301\f\037\357>\377]\317|\337\233\257\272\277\331\217\370\237\027n6~UNt^\223.\262>\321\016\360\036"
	.section	.rodata..LT3235efc0,"a",@progbits
.LT3235efc0:
	.byte	10
	.section	.rodata..LT4c832dbb,"a",@progbits
.LT4c832dbb:
	.ascii	"refused check\n"
	.section	.rodata..LT1bf80fd2,"a",@progbits
.LT1bf80fd2:
	.ascii	"refused more\n"
	.section	.rodata.cst16,"aM",@progbits,16
.LTa336d741:
	.ascii	"refused channel\n"
	.section	.rodata.cst8,"aM",@progbits,8
.LTc48ebe31:
	.ascii	"refused "
	.section	.rodata..LTbd49f353,"a",@progbits
.LTbd49f353:
	.ascii	"frame "
	.section	.rodata..LT6033b867,"a",@progbits
.LT6033b867:
	.ascii	" E"
	.section	.rodata..LT6574afb3,"a",@progbits
.LT6574afb3:
	.ascii	" accepted "
	.section	.rodata..LT37337163,"a",@progbits
.LT37337163:
	.byte	32
	.section	.rodata..LTe3b0c442,"a",@progbits
.LTe3b0c442:
	.section	.rodata..LT31704eaf,"a",@progbits
.LT31704eaf:
	.byte	45
	.section	.rodata..LTc8e4ece7,"a",@progbits
.LTc8e4ece7:
	.ascii	"queued "
	.section	.rodata..LT624d7ef1,"a",@progbits
.LT624d7ef1:
	.ascii	" dropped "
	.section	.rodata..LT073a3b51,"a",@progbits
.LT073a3b51:
	.ascii	" rest "
	.section	.rodata.cst8,"aM",@progbits,8
.LT8e6b4b41:
	.ascii	"release "
	.section	.rodata..LT2c3e4e31,"a",@progbits
.LT2c3e4e31:
	.ascii	"take "
	.section	.rodata.cst16,"aM",@progbits,16
.LT2bb0e2c3:
	.ascii	"0123456789abcdef"
	.section	.rodata..LTe93b56bc,"a",@progbits
.LTe93b56bc:
	.ascii	"unit "
	.section	.rodata..LTabc2e8bf,"a",@progbits
.LTabc2e8bf:
	.ascii	"clcw "
	.section	.rodata..LT45388282,"a",@progbits
.LT45388282:
	.ascii	"spacecraft"
	.section	.rodata.cst8,"aM",@progbits,8
.LTd49feab6:
	.ascii	"no queue"
	.section	.rodata..LTb7e5a2c0,"a",@progbits
.LTb7e5a2c0:
	.ascii	"no map"
	.section	.rodata..LTa1cb3204,"a",@progbits
.LTa1cb3204:
	.ascii	"empty"
	.section	.rodata..LT965043bc,"a",@progbits
.LT965043bc:
	.ascii	"short"
	.section	.rodata..LTb26077fb,"a",@progbits
.LTb26077fb:
	.ascii	"version"
	.section	.rodata..LT3d45e432,"a",@progbits
.LT3d45e432:
	.ascii	"spare"
	.section	.rodata..LT36d2c83f,"a",@progbits
.LT36d2c83f:
	.ascii	"length"
	.section	.rodata..LTd923d116,"a",@progbits
.LTd923d116:
	.ascii	"truncated"
	.section	.rodata..LT58992c68,"a",@progbits
.LT58992c68:
	.ascii	"link "
	.section	.rodata..LT88d9ed27,"a",@progbits
.LT88d9ed27:
	.ascii	"report "
	.section	.rodata..LT73ff4f13,"a",@progbits
.LT73ff4f13:
	.ascii	" state "
	.section	.rodata.cst4,"aM",@progbits,4
.LTd2821792:
	.ascii	" vr "
	.section	.rodata..LT8d0368cc,"a",@progbits
.LT8d0368cc:
	.ascii	" lockout "
	.section	.rodata..LTb6ef8972,"a",@progbits
.LTb6ef8972:
	.ascii	" wait "
	.section	.rodata.cst4,"aM",@progbits,4
.LT60ca1fe8:
	.ascii	"open"
.LT4c93fb2f:
	.ascii	"wait"
	.section	.rodata..LT7cff9fca,"a",@progbits
.LT7cff9fca:
	.ascii	"lockout"
	.section	.rodata..LT3ff918de,"a",@progbits
.LT3ff918de:
	.ascii	" retransmit "
	.section	.rodata.cst8,"aM",@progbits,8
.LTd511dccf:
	.ascii	" farm-b "
	.section	.rodata..LTa04389c8,"a",@progbits
.LTa04389c8:
	.ascii	" buffered "
	.section	.rodata..LT6778b9a6,"a",@progbits
.LT6778b9a6:
	.ascii	" queue "
	.section	.rodata..LTb35dea14,"a",@progbits
.LTb35dea14:
	.ascii	" map "
	.section	.rodata..LTe8321d2f,"a",@progbits
.LTe8321d2f:
	.ascii	"bad "
	.section	.rodata..LTb42bdd72,"a",@progbits
.LTb42bdd72:
	.ascii	": HEX is two hexadecimal digits for each octet"
	.section	.rodata..LTaa0e5251,"a",@progbits
.LTaa0e5251:
	.ascii	": write plain or nothing after VR"
	.section	.rodata..LTe897ed64,"a",@progbits
.LTe897ed64:
	.ascii	": the line begins with a byte order mark; save the file without it"
	.section	.rodata..LTd9a806d0,"a",@progbits
.LTd9a806d0:
	.ascii	": use channel, queue, map, frame, release, take, unit, clcw, link, report, deliver, collect or candidate"
	.section	.rodata..LTfebbbac6,"a",@progbits
.LTfebbbac6:
	.ascii	": write channel VC WIDTH BUFFER VR [plain]"
	.section	.rodata..LT7666c1d5,"a",@progbits
.LT7666c1d5:
	.ascii	": write queue VC APID CAPACITY"
	.section	.rodata..LTf8f41d37,"a",@progbits
.LTf8f41d37:
	.ascii	": write map VC MAP CAPACITY"
	.section	.rodata..LT4519a8fe,"a",@progbits
.LT4519a8fe:
	.ascii	": write frame HEX, octets without spaces"
	.section	.rodata..LT82b69449,"a",@progbits
.LT82b69449:
	.ascii	": write release VC"
	.section	.rodata..LTa7775bb0,"a",@progbits
.LTa7775bb0:
	.ascii	": write take VC APID"
	.section	.rodata..LTf6c2c042,"a",@progbits
.LTf6c2c042:
	.ascii	": write unit VC MAP"
	.section	.rodata..LT28500682,"a",@progbits
.LT28500682:
	.ascii	": write clcw VC"
	.section	.rodata..LT0a6e5077,"a",@progbits
.LT0a6e5077:
	.ascii	": write link VC RF BL"
	.section	.rodata..LT20344b8d,"a",@progbits
.LT20344b8d:
	.ascii	": write report VC"
	.section	.rodata..LTa322abf3,"a",@progbits
.LTa322abf3:
	.ascii	": write deliver VC"
	.section	.rodata..LTb6aa9e24,"a",@progbits
.LTb6aa9e24:
	.ascii	": write collect VC"
	.section	.rodata..LTb4d0c9a1,"a",@progbits
.LTb4d0c9a1:
	.ascii	": write candidate HEX, octets without spaces"
	.section	.rodata.cst4,"aM",@progbits,4
.LTa22647a1:
	.ascii	"\000\001\002\003"
	.section	.rodata..LTf506dd5d,"a",@progbits
.LTf506dd5d:
	.ascii	"\000\004\005"
	.section	.rodata..LTa781307c,"a",@progbits
.LTa781307c:
	.ascii	"\000\006\005"
	.section	.rodata..LT97e35543,"a",@progbits
.LT97e35543:
	.ascii	"\000\004"
	.section	.rodata..LT122e95d1,"a",@progbits
.LT122e95d1:
	.ascii	"\000\006"
	.section	.rodata..LT01a22a66,"a",@progbits
.LT01a22a66:
	.ascii	"\000\007\b"
	.section	.rodata.str1.1,"aMS",@progbits,1
.LT84067936:
	.zero	1
	.section	.rodata..LT9cd6e722,"a",@progbits
.LT9cd6e722:
	.ascii	": VC is 0 to 63"
	.section	.rodata..LT5cde739f,"a",@progbits
.LT5cde739f:
	.ascii	": WIDTH is even, 2 to 254"
	.section	.rodata..LT53c01e12,"a",@progbits
.LT53c01e12:
	.ascii	": BUFFER is 1 to 64"
	.section	.rodata..LT86cf1972,"a",@progbits
.LT86cf1972:
	.ascii	": VR is 0 to 255"
	.section	.rodata..LTf01cae55,"a",@progbits
.LTf01cae55:
	.ascii	": APID is 0 to 2046"
	.section	.rodata..LT2b151fb5,"a",@progbits
.LT2b151fb5:
	.ascii	": CAPACITY is 1 to 256"
	.section	.rodata..LT867c18b7,"a",@progbits
.LT867c18b7:
	.ascii	": MAP is 0 to 63"
	.section	.rodata..LTc8167ab5,"a",@progbits
.LTc8167ab5:
	.ascii	": RF is 0 or 1"
	.section	.rodata..LTd5773360,"a",@progbits
.LTd5773360:
	.ascii	": BL is 0 or 1"
	.section	.rodata..LTe8e39079,"a",@progbits
.LTe8e39079:
	.ascii	"unknown command"
	.section	.rodata..LT563a4948,"a",@progbits
.LT563a4948:
	.ascii	"wrong number of words"
	.section	.rodata..LT9c610d29,"a",@progbits
.LT9c610d29:
	.ascii	"bad number"
	.section	.rodata..LTede891d1,"a",@progbits
.LTede891d1:
	.ascii	"bad hex"
	.section	.rodata.cst8,"aM",@progbits,8
.LT70f9d303:
	.ascii	"too late"
	.section	.rodata..LT7e6618eb,"a",@progbits
.LT7e6618eb:
	.ascii	"no channel"
	.section	.rodata..LT2ff138a3,"a",@progbits
.LT2ff138a3:
	.ascii	"double channel"
	.section	.rodata..LTa83d2b9c,"a",@progbits
.LTa83d2b9c:
	.ascii	"unknown channel"
	.section	.rodata..LTde87a2d9,"a",@progbits
.LTde87a2d9:
	.ascii	"bad channel"
	.section	.rodata..LT4fb084ab,"a",@progbits
.LT4fb084ab:
	.ascii	"bad window"
	.section	.rodata..LT0e47d2c5,"a",@progbits
.LT0e47d2c5:
	.ascii	"bad buffer"
	.section	.rodata..LTfcd4e876,"a",@progbits
.LTfcd4e876:
	.ascii	"bad application"
	.section	.rodata..LT76d26c4b,"a",@progbits
.LT76d26c4b:
	.ascii	"double application"
	.section	.rodata..LT9b8b708f,"a",@progbits
.LT9b8b708f:
	.ascii	"bad capacity"
	.section	.rodata..LT11c32282,"a",@progbits
.LT11c32282:
	.ascii	"no memory"
	.section	.rodata..LT253fb48a,"a",@progbits
.LT253fb48a:
	.ascii	"bad option"
	.section	.rodata..LT166e95ae,"a",@progbits
.LT166e95ae:
	.ascii	"bad map"
	.section	.rodata..LTa9d7bd03,"a",@progbits
.LTa9d7bd03:
	.ascii	"double map"
	.section	.rodata..LTfa4ce404,"a",@progbits
.LTfa4ce404:
	.ascii	"bad units"
	.section	.rodata..LT821c8338,"a",@progbits
.LT821c8338:
	.ascii	"map on plain channel"
	.section	.rodata..LT138bf261,"a",@progbits
.LT138bf261:
	.ascii	"line "
	.section	.rodata..LTbefb410e,"a",@progbits
.LTbefb410e:
	.ascii	": "
	.section	.rodata..LT8140752f,"a",@progbits
.LT8140752f:
	.ascii	"line 0: cannot read"
	.section	.rodata.cst16,"aM",@progbits,16
.LT71b4f69b:
	.ascii	"line 0: too long"
	.section	.rodata..LTbd1a9a90,"a",@progbits
.LTbd1a9a90:
	.ascii	"line 0: cannot write"
	.section	.rodata..LT15dbdadc,"a",@progbits
.LT15dbdadc:
	.ascii	"line 0: unbalanced"
	.section	.rodata..LT841bcafc,"a",@progbits
.LT841bcafc:
	.ascii	"packet"
	.section	.rodata..LT8805324e,"a",@progbits
.LT8805324e:
	.ascii	"unlock"
	.section	.rodata..LT060252ac,"a",@progbits
.LT060252ac:
	.ascii	"setvr"
	.section	.rodata.cst8,"aM",@progbits,8
.LT809303c8:
	.ascii	"segments"
	.section	.rodata..LT6bb1575f,"a",@progbits
.LT6bb1575f:
	.ascii	"explain"
	.section	.rodata.cst4,"aM",@progbits,4
.LT24883227:
	.ascii	"cltu"
	.section	.rodata..LTd8c9c952,"a",@progbits
.LTd8c9c952:
	.ascii	"random"
	.section	.rodata..LTc0048dcc,"a",@progbits
.LTc0048dcc:
	.ascii	"tm"
	.section	.rodata..LTea4b73ba,"a",@progbits
.LTea4b73ba:
	.ascii	"telemetry"
	.section	.rodata..LT92808575,"a",@progbits
.LT92808575:
	.ascii	"decoder"
	.section	.rodata..LT8d98f918,"a",@progbits
.LT8d98f918:
	.ascii	"octets"
	.section	.rodata..LT62caa537,"a",@progbits
.LT62caa537:
	.ascii	"search"
	.section	.rodata..LT8e0eaf5d,"a",@progbits
.LT8e0eaf5d:
	.ascii	"frames"
	.section	.rodata..LT10360ae0,"a",@progbits
.LT10360ae0:
	.ascii	"detect"
	.section	.rodata..LTdda79b15,"a",@progbits
.LTdda79b15:
	.ascii	"correct"
	.section	.rodata..LT2e88633b,"a",@progbits
.LT2e88633b:
	.ascii	"header "
	.section	.rodata..LTe393c96b,"a",@progbits
.LTe393c96b:
	.ascii	" scid "
	.section	.rodata.cst4,"aM",@progbits,4
.LTbd6cf3c6:
	.ascii	" vc "
.LT498e0c89:
	.ascii	" ns "
	.section	.rodata..LTbe31a6ac,"a",@progbits
.LTbe31a6ac:
	.ascii	"BC"
	.section	.rodata..LTa951a33e,"a",@progbits
.LTa951a33e:
	.ascii	"BD"
	.section	.rodata..LTb44569c2,"a",@progbits
.LTb44569c2:
	.ascii	"AC"
	.section	.rodata..LTe5e5d9bb,"a",@progbits
.LTe5e5d9bb:
	.ascii	"AD"
	.section	.rodata.cst8,"aM",@progbits,8
.LT26126e75:
	.ascii	" octets "
	.section	.rodata..LT72def174,"a",@progbits
.LT72def174:
	.ascii	" fill "
	.section	.rodata..LTb92a41d7,"a",@progbits
.LTb92a41d7:
	.ascii	"command unlock\n"
	.section	.rodata..LT5ce8bbff,"a",@progbits
.LT5ce8bbff:
	.ascii	"command setvr "
	.section	.rodata..LTcda36f6b,"a",@progbits
.LTcda36f6b:
	.ascii	"invalid"
	.section	.rodata.cst8,"aM",@progbits,8
.LTda085ef3:
	.ascii	"segment "
	.section	.rodata..LT12a18633,"a",@progbits
.LT12a18633:
	.ascii	"first"
	.section	.rodata..LTa72d789d,"a",@progbits
.LTa72d789d:
	.ascii	"continuing"
	.section	.rodata.cst4,"aM",@progbits,4
.LTe43cc0b9:
	.ascii	"last"
	.section	.rodata..LT2d6ed66d,"a",@progbits
.LT2d6ed66d:
	.ascii	"unsegmented"
	.section	.rodata.cst4,"aM",@progbits,4
.LTb585f321:
	.ascii	"body"
.LTad2772d4:
	.ascii	"rest"
	.section	.rodata..LT7f1de622,"a",@progbits
.LT7f1de622:
	.ascii	"holds "
	.section	.rodata..LTd36e0410,"a",@progbits
.LTd36e0410:
	.ascii	" apid "
	.section	.rodata..LTfa4383a8,"a",@progbits
.LTfa4383a8:
	.ascii	" count "
	.section	.rodata..LT05553995,"a",@progbits
.LT05553995:
	.ascii	" flags "
	.section	.rodata..LTd2f6f45b,"a",@progbits
.LTd2f6f45b:
	.ascii	"TC"
	.section	.rodata..LT9a517a8e,"a",@progbits
.LT9a517a8e:
	.ascii	"TM"
	.section	.rodata..LTd4ce07c9,"a",@progbits
.LTd4ce07c9:
	.ascii	" secondary "
	.section	.rodata.cst4,"aM",@progbits,4
.LT54ed9b2a:
	.ascii	"more"
.LT68d2e1d5:
	.ascii	"fill"
	.section	.rodata..LT6f25b05d,"a",@progbits
.LT6f25b05d:
	.ascii	"check"
	.section	.rodata.cst8,"aM",@progbits,8
.LT081b0d22:
	.ascii	"clcw vc "
.LT3b969cfe:
	.ascii	" status "
	.section	.rodata..LT27d9cd2a,"a",@progbits
.LT27d9cd2a:
	.ascii	" norf "
	.section	.rodata..LT80600969,"a",@progbits
.LT80600969:
	.ascii	" nobitlock "
	.section	.rodata..LTa613f50b,"a",@progbits
.LTa613f50b:
	.ascii	" farmb "
	.section	.rodata..LT6035a829,"a",@progbits
.LT6035a829:
	.ascii	"\353\220"
	.section	.rodata.cst8,"aM",@progbits,8
.LT9296ae30:
	.ascii	"\305\305\305\305\305\305\305y"
	.section	.rodata..LTb4175d02,"a",@progbits
.LTb4175d02:
	.ascii	"\000EO\n[\036\024Qs6<y(mg\"#fl)x=7rP\025\037Z\013ND\001F\003\tL\035XR\0275pz?n+!de *o>{q4\026SY\034M\b\002GI\f\006C\022W]\030:\177u0a$.kj/%`1t~;\031\\V\023B\007\rH\017J@\005T\021\033^|93v'bh-,ic&w28}_\032\020U\004AK\016W\022\030]\fIC\006$ak.\177:0ut1;~/j`%\007BH\r\\\031\023V\021T^\033J\017\005@b'-h9|v32w}8i,&cA\004\016K\032_U\020\036[Q\024E\000\nOm(\"g6sy<=xr7f#)lN\013\001D\025PZ\037X\035\027R\003FL\t+nd!p5?z{>4q eo*\bMG\002S\026\034Y\000k\023x&M5^L'_4j\001y\022]6N%{\020h\003\021z\002i7\\$O\177\024l\007Y2J!3X K\025~\006m\"I1Z\004o\027|n\005}\026H#[0;P(C\035v\016ew\034d\017Q:B)f\ru\036@+S8*A9R\fg\037tD/W<b\tq\032\bc\033p.E=V\031r\na?T,GU>F-s\030`\013v\035e\016P;C(:Q)B\034w\017d+@8S\rf\036ug\ft\037A*R9\tb\032q/D<WE.V=c\bp\033T?G,r\031a\n\030s\013`>U-FM&^5k\000x\023\001j\022y'L4_\020{\003h6]%N\\7O$z\021i\0022Y!J\024\177\007l~\025m\006X3K o\004|\027I\"Z1#H0[\005n\026}\000)R{aH3\032\007.U|fO4\035\016'\\uoF=\024\t [rhA:\023\0345Ng}T/\006\0332I`zS(\001\022;@isZ!\b\025<Gnt]&\0178\021jCYp\013\"?\026mD^w\f%6\037dMW~\005,1\030cJPy\002+$\rv_El\027>#\nqXBk\0209*\003xQKb\0310-\004\177VLe\0367pY\"\013\0218Cjw^%\f\026?Dm~W,\005\0376MdyP+\002\0301JclE>\027\r$_vkB9\020\n#XqbK0\031\003*QxeL7\036\004-V\177Ha\0323)\000{ROf\0354.\007|UFo\024='\016u\\Ah\023: \tr[T}\006/5\034gNSz\001(2\033`IZs\b!;\022i@]t\017&<\025nG\000%JoQt\033>gB-\b6\023|Y\013.AdZ\177\0205lI&\003=\030wR\0263\\yGb\r(qT;\036 \005jO\0358WrLi\006#z_0\025+\016aD,\tfC}X7\022Kn\001$\032?Pu'\002mHvS<\031@e\n/\0214[~:\037pUkN!\004]x\0272\f)Fc1\024{^`E*\017Vs\0349\007\"MhX}\0227\t,Cf?\032uPnK$\001Sv\031<\002'Hm4\021~[e@/\nNk\004!\037:Up)\fcFx]2\027E`\017*\0241^{\"\007hMsV9\034tQ>\033%\000oJ\0236Y|Bg\b-\177Z5\020.\013dA\030=RwIl\003&bG(\r3\026y\\\005 OjTq\036;iL#\0068\035rW\016+Da_z\0250\000u/Z^+q\004y\fV#'R\b}7B\030mi\034F3N;a\024\020e?Jn\033A40E\037j\027b8MI<f\023Y,v\003\007r(] U\017z~\013Q$\031l6CG2h\035`\025O:>K\021d.[\001tp\005_*W\"x\r\t|&Sw\002X-)\\\006s\016{!TP%\177\n@5o\032\036k1D9L\026cg\022H=2G\035hl\031C6K>d\021\025`:O\005p*_[.t\001|\tS&\"W\rx\\)s\006\002w-X%P\n\177{\016T!k\036D15@\032o\022g=HL9c\026+^\004qu\000Z/R'}\b\fy#V\034i3FB7m\030e\020J?;N\024aE0j\037\033n4A<I\023fb\027M8r\007](,Y\003v\013~$QU z\017\000d\ri\032~\027s4P9].J#Gh\fe\001r\026\177\033\\8Q5F\"K/\025q\030|\017k\002f!E,H;_6R}\031p\024g\003j\016I-D S7^:*N'C0T=Y\036z\023w\004`\tmB&O+X<U1v\022{\037l\ba\005?[2V%A(L\013o\006b\021u\034xW3Z>M)@$c\007n\ny\035t\020T0Y=N*C'`\004m\tz\036w\023<X1U&B+O\bl\005a\022v\037{A%L([?V2u\021x\034o\013b\006)M$@3W>Z\035y\020t\007c\nn~\032s\027d\000i\rJ.G#P4]9\026r\033\177\fh\001e\"F/K8\\5Qk\017f\002q\025|\030_;R6E!H,\003g\016j\031}\024p7S:^-I D\000m\037r>S!L|\021c\016B/]0=P\"O\003n\034qA,^3\177\022`\rz\027e\bD)[6\006k\031t8U'JG*X5y\024f\013;V$I\005h\032w1\\.C\017b\020}M R?s\036l\001\fa\023~2_-@p\035o\002N#Q<K&T9u\030j\0077Z(E\td\026{v\033i\004H%W:\ng\025x4Y+Fb\017}\020\\1C.\036s\001l M?R_2@-a\f~\023#N<Q\035p\002o\030u\007j&K9Td\t{\026Z7E(%H:W\033v\004iY4F+g\nx\025S>L!m\000r\037/B0]\021|\016cn\003q\034P=O\"\022\177\r`,A3^)D6[\027z\beU8J'k\006t\031\024y\013f*G5Xh\005w\032V;I$"
	.section	.rodata..LT359fb368,"a",@progbits
.LT359fb368:
	.ascii	"\000J\225\337`*\365\277\300\212U\037\240\3525\177\312\200_\025\252\340?u\n@\237\325j \377\265\336\224K\001\276\364+a\036T\213\301~4\353\241\024^\201\313t>\341\253\324\236A\013\264\376!k\367\275b(\227\335\002H7}\242\350W\035\302\210=w\250\342]\027\310\202\375\267h\"\235\327\bB)c\274\366I\003\334\226\351\243|6\211\303\034V\343\251v<\203\311\026\\#i\266\374C\t\326\234\245\3570z\305\217P\032e/\360\272\005O\220\332o%\372\260\017E\232\320\257\345:p\317\205Z\020{1\356\244\033Q\216\304\273\361.d\333\221N\004\261\373$n\321\233D\016q;\344\256\021[\204\316R\030\307\2152x\247\355\222\330\007M\362\270g-\230\322\rG\370\262m'X\022\315\2078r\255\347\214\306\031S\354\246y3L\006\331\223,f\271\363F\f\323\231&l\263\371\206\314\023Y\346\254s9"
	.section	.rodata.cst8,"aM",@progbits,8
.LTec6a51b3:
	.ascii	"tm scid "
.LTafa5f7c5:
	.ascii	" master "
	.section	.rodata..LT41cae141,"a",@progbits
.LT41cae141:
	.ascii	" channel "
	.section	.rodata..LT42d834cb,"a",@progbits
.LT42d834cb:
	.ascii	" pointer "
	.section	.rodata..LTe2d26f26,"a",@progbits
.LTe2d26f26:
	.ascii	"control"
	.section	.rodata..LTddd25b9b,"a",@progbits
	.p2align	3
.LTddd25b9b:
	.asciz	"\000\000\000\000\000\000\000\000\000\000\000\000\000\000\000\002\000\000\000\000\000\000\000\004\000\000\000\000\000\000\000\000\000\000\000\000\000\000\000\b\000\000\000\000\000\000\000\000\000\000\000\000\000\000\000\000\000\000\000\000\b\000\000\000\000\000\000\000\000\000\000\020\000\000\000\000\000\000\000\000\000\000\000\000\000\000\000\000\000\000\000\020\000\000\000\000\000\000\000\000\000\000\000\000\000\002\000\000\000\000\000\000\000\000\000\000\020\000\000\000\000\000\000\000\000\000\000\000\000\000\000\000\000\000\000 \000\000\000\000\000\000\000\000\000\000\000\000\000\000\000\000\000\000\000\000\000\002\000\000\000\000\000\000\000\000\000\000\000 \000\000\000\000\000\000\000\000\000 \000\000\000\000\000\000\000\000\000\000\000\000\000\000\000\000\000\000\000\000\000\000@\000\000\000\000\000\000\004\000\000\000\000\000\000\000\000\000\000\000\000\000\000\000\000\000\000 \000\000\000\000\000\000\000\000\000\000\000\000\000\000\000\000\000\000\000\002\000\000\000\000\000\000\000\000\000\000\000\000\000\000@\000\000\000\000\000\000\000\000\000\000\000\000\000\000\000\000\000\000\000\000\000\000\020\000\000\000\000\000\000\000\000\000\000\000\000\001\000\000\000\000\000\000\000\000\000\004\000\000\000\000\000\000\000\000\000\000\000\000\000\000\000\000\000\000\000\000\000\000\001\000\000\000\000@\000\000\000\000\000\000\000\000\000\000\000\000\000\000\000\000\000@\000\000\000\000\000\000\000\000\000\000\000\000\000\000\000\000\000\000\000\000\000\000\002\000\000\000\000\000\000\000\000\000\000\000\000\000@\000\000\000\000\000\000\000\000\000\200\000\000\000\000\000\000\000\000\000\000\000\000\000\000\b\000\000\000\000\000\000\000\000\000\000\000\000\000\000\000\000\000\000\000\000\000\000\000\000\020\000\000\000\000\000\000\000\000\000@\000\000\000\000\000\000\000\000\000\000\000\000\000\000\000\000\000\000\000\000\000\000\000\000@\000\000\000\000\000\000\000\000\000\000\020\000\000\000\000\000\000\000\004\000\000\000\000\000\000\000\000\000\000\000\000\000\000\000\000\000\000\000\000\000\000\200\000\000\000\000\000\000\000\000\000\000\000\000\000\000\000\000\000\000\000\000\000\000\000\000\000\000\000\000\000\000\000\000\000\000\000\000\000\000\001\000\000\000\000\000\000\000 \000\000\000\000\000\000\000\000\000\000\000\000\000\000\000\000\000\000\000\000\000\000\000@\000\000\000\000\002\000\000\000\000\000\000\000\000\000\000\000\000\000\000\000\000\000\b\000\000\000\000\000\000\000\000\000\000\000\000\000\000\000\000\000\000\000\000\000\000\000\000\002\000\000\000\000\000\000\000\000\000\000\000\000\004\000\000\000\000\000\000\000\000\002\000\000\000\000\000\000\000\000\000\000\000\000\200\000\000\000\000\000\000\000\000\000\000\000\000\000\000\000\000\000\000\000\000\000\000\000\000\000\000\000\000\200\000\000\000\000\200\000\000\000\000\000\000\000\000\000\000\000\000\000\000\000\000\000\000\000\000\000\000\000\000\000\000\004\000\000\000\000\000\000\000\000\000\000\000\000\000\000\020\000\000\000\000\004\000\000\000\000\000\000\000\000\000\000\000\000\000\000\000\000\000\000\000\000\000\000\000\000\000\004\000\000\000\200\000\000\000\000\000\000\000\000\000\000\000\000\000\000\000\000\001\000\000\000\000\000\000\000\000\000\000\000\000\000\000\000\000\000\000\000\000\000\000\000\000\000\b\000\000\000\000\000\020\000\000\000\000\000\000\000\000\000\000\000\000\000\000\000\000\000\000\000\000\000\000\000\000\000\000\000\001\000\000\000\000\000\000\000\000\000\000\001\000\000\000\000\000\000\000\000\000 \000\000\000\000\000\000\000\000\000\000\000\000\000\000\000\000\000\200\000\000\000\000\000\000\000\000\000\000\000\000\000\000\000\000\000\000\000\000\000\000\000\000\000\b\000\000\000\000\000\000\000\000\000\000\000\001\000\000\000\000\000\000\000\000\000\000\200\000\000\000\000\000\000\000\000\000\000\000\000\000\000\000\000\000\000\000\000\b\000\000\000\000\000 \000\000\000\000\000\000\000\000\000\000\000\000\000\000\000\b\000\000\000\000\000\000\000\000\000\000\000\000\000\000\000\000\000\000\000\000\000\000\000\000\000\000\000\000 \000"
	.section	.rodata..LTbe46598f,"a",@progbits
.LTbe46598f:
	.ascii	"blocks corrected "
	.section	.rodata..LT39c39aed,"a",@progbits
.LT39c39aed:
	.ascii	" rejected "
	.section	.rodata..LTec10d3fa,"a",@progbits
.LTec10d3fa:
	.ascii	" overlong "
	.section	.rodata..LT138070c8,"a",@progbits
.LT138070c8:
	.ascii	"search cut "
	.section	.rodata..LTd59513d8,"a",@progbits
.LTd59513d8:
	.ascii	"fill "
	.section	.rodata..LT0e3ff99a,"a",@progbits
.LT0e3ff99a:
	.ascii	": use packet, ad, bd, unlock, setvr, segments, explain, clcw, cltu, random, tm, telemetry, decoder, octets, search or frames\n"
	.section	.rodata..LT85d3bb8b,"a",@progbits
.LT85d3bb8b:
	.ascii	": the line begins with a byte order mark; save the file without it\n"
	.section	.rodata.cst8,"aM",@progbits,8
.LT07c8561c:
	.ascii	": write "
	.section	.rodata..LT2c4ab8d6,"a",@progbits
.LT2c4ab8d6:
	.ascii	": HEX is two hexadecimal digits for each octet\n"
	.section	.rodata..LTcfc709a4,"a",@progbits
.LTcfc709a4:
	.ascii	": MODE is detect or correct\n"
	.section	.rodata..LTbb49215e,"a",@progbits
.LTbb49215e:
	.ascii	": HEX is four octets\n"
	.section	.rodata..LTa8644efb,"a",@progbits
.LTa8644efb:
	.ascii	"packet APID COUNT HEX"
	.section	.rodata..LT1e10d2cb,"a",@progbits
.LT1e10d2cb:
	.ascii	"ad SCID VC NS MAP HEX"
	.section	.rodata..LTbf0051a2,"a",@progbits
.LTbf0051a2:
	.ascii	"bd SCID VC MAP HEX"
	.section	.rodata..LT57b8e1ea,"a",@progbits
.LT57b8e1ea:
	.ascii	"unlock SCID VC"
	.section	.rodata..LT9292ad12,"a",@progbits
.LT9292ad12:
	.ascii	"setvr SCID VC X"
	.section	.rodata.cst32,"aM",@progbits,32
.LTf2c99ef3:
	.ascii	"segments SCID VC NS MAP SIZE HEX"
	.section	.rodata..LTde300d99,"a",@progbits
.LTde300d99:
	.ascii	"explain HEX"
	.section	.rodata.cst8,"aM",@progbits,8
.LTa37e1f43:
	.ascii	"clcw HEX"
.LTa2a1e7cd:
	.ascii	"cltu HEX"
	.section	.rodata..LT866b37fb,"a",@progbits
.LT866b37fb:
	.ascii	"random HEX"
	.section	.rodata..LTc4ea4c11,"a",@progbits
.LTc4ea4c11:
	.ascii	"tm SCID VC SIZE HEX"
	.section	.rodata..LTc3215bf5,"a",@progbits
.LTc3215bf5:
	.ascii	"telemetry HEX"
	.section	.rodata..LTa29a9c5b,"a",@progbits
.LTa29a9c5b:
	.ascii	"decoder ID MODE"
	.section	.rodata..LTfab5c0bd,"a",@progbits
.LTfab5c0bd:
	.ascii	"octets ID HEX"
	.section	.rodata..LTb956bf30,"a",@progbits
.LTb956bf30:
	.ascii	"search ID"
	.section	.rodata..LT7d087273,"a",@progbits
.LT7d087273:
	.ascii	"frames MOST HEX"
	.section	.rodata..LT466d4fd8,"a",@progbits
.LT466d4fd8:
	.ascii	", octets without spaces"
	.section	.rodata..LT84639798,"a",@progbits
.LT84639798:
	.ascii	"bad unknown command"
	.section	.rodata..LT1ef62a42,"a",@progbits
.LT1ef62a42:
	.ascii	"bad wrong number of words"
	.section	.rodata..LT003e77a4,"a",@progbits
.LT003e77a4:
	.ascii	"bad mode"
	.section	.rodata..LT7b2de264,"a",@progbits
.LT7b2de264:
	.ascii	"bad clcw"
	.section	.rodata..LTe2322176,"a",@progbits
.LTe2322176:
	.ascii	"bad spacecraft"
	.section	.rodata..LT21ff08f0,"a",@progbits
.LT21ff08f0:
	.ascii	"bad count"
	.section	.rodata..LTf2f620b7,"a",@progbits
.LTf2f620b7:
	.ascii	"bad size"
	.section	.rodata..LT6fc3e9ce,"a",@progbits
.LT6fc3e9ce:
	.ascii	"bad no data"
	.section	.rodata..LT0883e594,"a",@progbits
.LT0883e594:
	.ascii	"bad too much data"
	.section	.rodata..LTf4264328,"a",@progbits
.LTf4264328:
	.ascii	"bad no decoder"
	.section	.rodata..LT36a7354e,"a",@progbits
.LT36a7354e:
	.ascii	"bad no memory"
	.section	.rodata..LT18fe9770,"a",@progbits
.LT18fe9770:
	.ascii	"SCID is 0 to 1023"
	.section	.rodata..LTb684fe3b,"a",@progbits
.LTb684fe3b:
	.ascii	"VC is 0 to 63, for tm 0 to 7"
	.section	.rodata..LT4865b7f6,"a",@progbits
.LT4865b7f6:
	.ascii	"NS is 0 to 255"
	.section	.rodata..LT7249c412,"a",@progbits
.LT7249c412:
	.ascii	"MAP is 0 to 63"
	.section	.rodata..LTd5d2e183,"a",@progbits
.LTd5d2e183:
	.ascii	"SIZE is 1 to 1018, for tm 11 to 2048"
	.section	.rodata..LT5b236900,"a",@progbits
.LT5b236900:
	.ascii	"APID is 0 to 2047"
	.section	.rodata..LT8ca055ff,"a",@progbits
.LT8ca055ff:
	.ascii	"COUNT is 0 to 16383"
	.section	.rodata..LTcb36ec02,"a",@progbits
.LTcb36ec02:
	.ascii	"X is 0 to 255"
	.section	.rodata..LT07250bd6,"a",@progbits
.LT07250bd6:
	.ascii	"ID is 0 to 255"
	.section	.rodata.cst16,"aM",@progbits,16
.LTeccb0222:
	.ascii	"MOST is 0 to 255"
	.section	.rodata..LT8483e2a3,"a",@progbits
.LT8483e2a3:
	.ascii	"final "
	.section	.rodata.cst8,"aM",@progbits,8
.LT78f06cc6:
	.ascii	" events "
	.section	.rodata..LT46c79790,"a",@progbits
.LT46c79790:
	.ascii	"queue "
	.section	.rodata.cst4,"aM",@progbits,4
.LT3276ef29:
	.ascii	"map "
	.section	.rodata..LTde3001dd,"a",@progbits
.LTde3001dd:
	.ascii	"unbalanced"
	.section	.rodata..Lswitch.table.tc_session.engine.Engine.answer._5349ec06ad6c886c,"a",@progbits
	.p2align	3
.Lswitch.table.tc_session.engine.Engine.answer._5349ec06ad6c886c:
	.xword	4
	.xword	4
	.xword	0
	.xword	0
	.xword	4
	.xword	4
	.xword	4
	.xword	4
	.xword	0
	.xword	0
	.xword	0
	.xword	0
	.xword	4
	.xword	0
	.xword	4
	.xword	0
	.xword	0
	.xword	4
	.xword	0
	.xword	4
	.section	.rodata..Lswitch.table.tc_session.engine.Engine.answer._5349ec06ad6c886c_.630.rel,"a",@progbits
	.p2align	2
.Lswitch.table.tc_session.engine.Engine.answer._5349ec06ad6c886c_.630.rel:
	.word	.LTe8321d2f-.Lswitch.table.tc_session.engine.Engine.answer._5349ec06ad6c886c_.630.rel
	.word	.LTe8321d2f-.Lswitch.table.tc_session.engine.Engine.answer._5349ec06ad6c886c_.630.rel
	.word	.LTe3b0c442-.Lswitch.table.tc_session.engine.Engine.answer._5349ec06ad6c886c_.630.rel
	.word	.LTe3b0c442-.Lswitch.table.tc_session.engine.Engine.answer._5349ec06ad6c886c_.630.rel
	.word	.LTe8321d2f-.Lswitch.table.tc_session.engine.Engine.answer._5349ec06ad6c886c_.630.rel
	.word	.LTe8321d2f-.Lswitch.table.tc_session.engine.Engine.answer._5349ec06ad6c886c_.630.rel
	.word	.LTe8321d2f-.Lswitch.table.tc_session.engine.Engine.answer._5349ec06ad6c886c_.630.rel
	.word	.LTe8321d2f-.Lswitch.table.tc_session.engine.Engine.answer._5349ec06ad6c886c_.630.rel
	.word	.LTe3b0c442-.Lswitch.table.tc_session.engine.Engine.answer._5349ec06ad6c886c_.630.rel
	.word	.LTe3b0c442-.Lswitch.table.tc_session.engine.Engine.answer._5349ec06ad6c886c_.630.rel
	.word	.LTe3b0c442-.Lswitch.table.tc_session.engine.Engine.answer._5349ec06ad6c886c_.630.rel
	.word	.LTe3b0c442-.Lswitch.table.tc_session.engine.Engine.answer._5349ec06ad6c886c_.630.rel
	.word	.LTe8321d2f-.Lswitch.table.tc_session.engine.Engine.answer._5349ec06ad6c886c_.630.rel
	.word	.LTe3b0c442-.Lswitch.table.tc_session.engine.Engine.answer._5349ec06ad6c886c_.630.rel
	.word	.LTe8321d2f-.Lswitch.table.tc_session.engine.Engine.answer._5349ec06ad6c886c_.630.rel
	.word	.LTe3b0c442-.Lswitch.table.tc_session.engine.Engine.answer._5349ec06ad6c886c_.630.rel
	.word	.LTe3b0c442-.Lswitch.table.tc_session.engine.Engine.answer._5349ec06ad6c886c_.630.rel
	.word	.LTe8321d2f-.Lswitch.table.tc_session.engine.Engine.answer._5349ec06ad6c886c_.630.rel
	.word	.LTe3b0c442-.Lswitch.table.tc_session.engine.Engine.answer._5349ec06ad6c886c_.630.rel
	.word	.LTe8321d2f-.Lswitch.table.tc_session.engine.Engine.answer._5349ec06ad6c886c_.630.rel
	.section	.rodata..Lswitch.table.tc_session.engine.Engine.answer._5349ec06ad6c886c_.631,"a",@progbits
	.p2align	2
.Lswitch.table.tc_session.engine.Engine.answer._5349ec06ad6c886c_.631:
	.hword	255
	.hword	255
	.hword	255
	.hword	255
	.hword	65535
	.hword	65535
	.hword	255
	.hword	1
	.hword	1
	.section	.rodata..Lswitch.table.tc_session.engine.Engine.answer._5349ec06ad6c886c_.632,"a",@progbits
	.p2align	3
.Lswitch.table.tc_session.engine.Engine.answer._5349ec06ad6c886c_.632:
	.xword	15
	.xword	25
	.xword	19
	.xword	16
	.xword	19
	.xword	22
	.xword	16
	.xword	14
	.xword	14
	.section	.rodata..Lswitch.table.tc_session.engine.Engine.answer._5349ec06ad6c886c_.633.rel,"a",@progbits
	.p2align	2
.Lswitch.table.tc_session.engine.Engine.answer._5349ec06ad6c886c_.633.rel:
	.word	.LT9cd6e722-.Lswitch.table.tc_session.engine.Engine.answer._5349ec06ad6c886c_.633.rel
	.word	.LT5cde739f-.Lswitch.table.tc_session.engine.Engine.answer._5349ec06ad6c886c_.633.rel
	.word	.LT53c01e12-.Lswitch.table.tc_session.engine.Engine.answer._5349ec06ad6c886c_.633.rel
	.word	.LT86cf1972-.Lswitch.table.tc_session.engine.Engine.answer._5349ec06ad6c886c_.633.rel
	.word	.LTf01cae55-.Lswitch.table.tc_session.engine.Engine.answer._5349ec06ad6c886c_.633.rel
	.word	.LT2b151fb5-.Lswitch.table.tc_session.engine.Engine.answer._5349ec06ad6c886c_.633.rel
	.word	.LT867c18b7-.Lswitch.table.tc_session.engine.Engine.answer._5349ec06ad6c886c_.633.rel
	.word	.LTc8167ab5-.Lswitch.table.tc_session.engine.Engine.answer._5349ec06ad6c886c_.633.rel
	.word	.LTd5773360-.Lswitch.table.tc_session.engine.Engine.answer._5349ec06ad6c886c_.633.rel
	.section	.rodata..Lswitch.table.tc_live.receiver.Receiver.perform_passed,"a",@progbits
	.p2align	2
.Lswitch.table.tc_live.receiver.Receiver.perform_passed:
	.ascii	"\b\t\n\013\f\r\020\021\022\023\016"
	.section	.rodata..Lswitch.table.core.fmt.formatter.Formatter.write_piece._bca9c74da7838be5,"a",@progbits
	.p2align	3
.Lswitch.table.core.fmt.formatter.Formatter.write_piece._bca9c74da7838be5:
	.xword	4
	.xword	4
	.xword	7
	.section	.data.rel.ro..Lswitch.table.core.fmt.formatter.Formatter.write_piece._bca9c74da7838be5_.636,"aw",@progbits
	.p2align	3
.Lswitch.table.core.fmt.formatter.Formatter.write_piece._bca9c74da7838be5_.636:
	.xword	.LT60ca1fe8
	.xword	.LT4c93fb2f
	.xword	.LT7cff9fca
	.section	.rodata..Lswitch.table.std.io.traits.Write.write_fmt._66d26946d4f3efb7,"a",@progbits
	.p2align	3
.Lswitch.table.std.io.traits.Write.write_fmt._66d26946d4f3efb7:
	.xword	15
	.xword	21
	.xword	10
	.xword	7
	.xword	8
	.xword	10
	.xword	14
	.xword	15
	.xword	11
	.xword	10
	.xword	10
	.xword	15
	.xword	18
	.xword	12
	.xword	9
	.xword	10
	.xword	7
	.xword	10
	.xword	9
	.xword	20
	.section	.data.rel.ro..Lswitch.table.std.io.traits.Write.write_fmt._66d26946d4f3efb7_.638,"aw",@progbits
	.p2align	3
.Lswitch.table.std.io.traits.Write.write_fmt._66d26946d4f3efb7_.638:
	.xword	.LTe8e39079
	.xword	.LT563a4948
	.xword	.LT9c610d29
	.xword	.LTede891d1
	.xword	.LT70f9d303
	.xword	.LT7e6618eb
	.xword	.LT2ff138a3
	.xword	.LTa83d2b9c
	.xword	.LTde87a2d9
	.xword	.LT4fb084ab
	.xword	.LT0e47d2c5
	.xword	.LTfcd4e876
	.xword	.LT76d26c4b
	.xword	.LT9b8b708f
	.xword	.LT11c32282
	.xword	.LT253fb48a
	.xword	.LT166e95ae
	.xword	.LTa9d7bd03
	.xword	.LTfa4ce404
	.xword	.LT821c8338
	.section	.rodata..Lswitch.table.tc_make.answer.answer._5349ec06ad6c886c,"a",@progbits
	.p2align	3
.Lswitch.table.tc_make.answer.answer._5349ec06ad6c886c:
	.xword	5
	.xword	7
	.xword	5
	.xword	6
	.xword	9
	.section	.data.rel.ro..Lswitch.table.tc_make.answer.answer._5349ec06ad6c886c_.639,"aw",@progbits
	.p2align	3
.Lswitch.table.tc_make.answer.answer._5349ec06ad6c886c_.639:
	.xword	.LT965043bc
	.xword	.LTb26077fb
	.xword	.LT3d45e432
	.xword	.LT36d2c83f
	.xword	.LTd923d116
	.section	.rodata.cst32,"aM",@progbits,32
	.p2align	3
.Lswitch.table.tc_make.explained.write_carried._5349ec06ad6c886c:
	.xword	10
	.xword	5
	.xword	4
	.xword	11
	.section	.data.rel.ro..Lswitch.table.tc_make.explained.write_carried._5349ec06ad6c886c_.640,"aw",@progbits
	.p2align	3
.Lswitch.table.tc_make.explained.write_carried._5349ec06ad6c886c_.640:
	.xword	.LTa72d789d
	.xword	.LT12a18633
	.xword	.LTe43cc0b9
	.xword	.LT2d6ed66d
	.section	.data.rel.ro..Lswitch.table.tc_make.printed.write_bad._5349ec06ad6c886c,"aw",@progbits
	.p2align	3
.Lswitch.table.tc_make.printed.write_bad._5349ec06ad6c886c:
	.xword	.LTa8644efb
	.xword	.LT1e10d2cb
	.xword	.LTbf0051a2
	.xword	.LT57b8e1ea
	.xword	.LT9292ad12
	.xword	.LTf2c99ef3
	.xword	.LTde300d99
	.xword	.LTa37e1f43
	.xword	.LTa2a1e7cd
	.xword	.LT866b37fb
	.xword	.LTc4ea4c11
	.xword	.LTc3215bf5
	.xword	.LTa29a9c5b
	.xword	.LTfab5c0bd
	.xword	.LTb956bf30
	.xword	.LT7d087273
	.section	.rodata..Lswitch.table.tc_make.printed.write_bad._5349ec06ad6c886c_.641,"a",@progbits
	.p2align	3
.Lswitch.table.tc_make.printed.write_bad._5349ec06ad6c886c_.641:
	.xword	21
	.xword	21
	.xword	18
	.xword	14
	.xword	15
	.xword	32
	.xword	11
	.xword	8
	.xword	8
	.xword	10
	.xword	19
	.xword	13
	.xword	15
	.xword	13
	.xword	9
	.xword	15
	.section	.rodata..Lswitch.table.tc_make.printed.write_bad._5349ec06ad6c886c_.642,"a",@progbits
	.p2align	3
.Lswitch.table.tc_make.printed.write_bad._5349ec06ad6c886c_.642:
	.xword	23
	.xword	23
	.xword	23
	.xword	0
	.xword	0
	.xword	23
	.xword	23
	.xword	23
	.xword	23
	.xword	23
	.xword	23
	.xword	23
	.xword	0
	.xword	23
	.xword	0
	.xword	23
	.section	.data.rel.ro..Lswitch.table.tc_make.printed.write_bad._5349ec06ad6c886c_.643,"aw",@progbits
	.p2align	3
.Lswitch.table.tc_make.printed.write_bad._5349ec06ad6c886c_.643:
	.xword	.LT466d4fd8
	.xword	.LT466d4fd8
	.xword	.LT466d4fd8
	.xword	.LTe3b0c442
	.xword	.LTe3b0c442
	.xword	.LT466d4fd8
	.xword	.LT466d4fd8
	.xword	.LT466d4fd8
	.xword	.LT466d4fd8
	.xword	.LT466d4fd8
	.xword	.LT466d4fd8
	.xword	.LT466d4fd8
	.xword	.LTe3b0c442
	.xword	.LT466d4fd8
	.xword	.LTe3b0c442
	.xword	.LT466d4fd8
	.section	.rodata..Lswitch.table.tc_make.printed.write_bounds._5349ec06ad6c886c,"a",@progbits
	.p2align	3
.Lswitch.table.tc_make.printed.write_bounds._5349ec06ad6c886c:
	.xword	17
	.xword	28
	.xword	14
	.xword	14
	.xword	36
	.xword	17
	.xword	19
	.xword	13
	.xword	14
	.xword	16
	.section	.data.rel.ro..Lswitch.table.tc_make.printed.write_bounds._5349ec06ad6c886c_.644,"aw",@progbits
	.p2align	3
.Lswitch.table.tc_make.printed.write_bounds._5349ec06ad6c886c_.644:
	.xword	.LT18fe9770
	.xword	.LTb684fe3b
	.xword	.LT4865b7f6
	.xword	.LT7249c412
	.xword	.LTd5d2e183
	.xword	.LT5b236900
	.xword	.LT8ca055ff
	.xword	.LTcb36ec02
	.xword	.LT07250bd6
	.xword	.LTeccb0222
	.section	.rodata..Lswitch.table.tc_make.printed.write_bounds._5349ec06ad6c886c_.645,"a",@progbits
	.p2align	3
.Lswitch.table.tc_make.printed.write_bounds._5349ec06ad6c886c_.645:
	.xword	10
	.xword	7
	.xword	8
	.xword	8
	.xword	14
	.xword	11
	.xword	7
	.xword	15
	.xword	9
	.xword	8
	.section	.rodata..Lswitch.table.tc_make.printed.write_bounds._5349ec06ad6c886c_.646.rel,"a",@progbits
	.p2align	2
.Lswitch.table.tc_make.printed.write_bounds._5349ec06ad6c886c_.646.rel:
	.word	.LT9c610d29-.Lswitch.table.tc_make.printed.write_bounds._5349ec06ad6c886c_.646.rel
	.word	.LTede891d1-.Lswitch.table.tc_make.printed.write_bounds._5349ec06ad6c886c_.646.rel
	.word	.LT003e77a4-.Lswitch.table.tc_make.printed.write_bounds._5349ec06ad6c886c_.646.rel
	.word	.LT7b2de264-.Lswitch.table.tc_make.printed.write_bounds._5349ec06ad6c886c_.646.rel
	.word	.LTe2322176-.Lswitch.table.tc_make.printed.write_bounds._5349ec06ad6c886c_.646.rel
	.word	.LTde87a2d9-.Lswitch.table.tc_make.printed.write_bounds._5349ec06ad6c886c_.646.rel
	.word	.LT166e95ae-.Lswitch.table.tc_make.printed.write_bounds._5349ec06ad6c886c_.646.rel
	.word	.LTfcd4e876-.Lswitch.table.tc_make.printed.write_bounds._5349ec06ad6c886c_.646.rel
	.word	.LT21ff08f0-.Lswitch.table.tc_make.printed.write_bounds._5349ec06ad6c886c_.646.rel
	.word	.LTf2f620b7-.Lswitch.table.tc_make.printed.write_bounds._5349ec06ad6c886c_.646.rel
	.section	.rodata..Lswitch.table.std.io.traits.Write.write_fmt._7427d210d622371f,"a",@progbits
	.p2align	3
.Lswitch.table.std.io.traits.Write.write_fmt._7427d210d622371f:
	.xword	19
	.xword	19
	.xword	25
	.xword	10
	.xword	7
	.xword	8
	.xword	8
	.xword	14
	.xword	11
	.xword	7
	.xword	15
	.xword	9
	.xword	8
	.xword	11
	.xword	17
	.xword	14
	.xword	13
	.section	.rodata..Lswitch.table.std.io.traits.Write.write_fmt._7427d210d622371f_.647.rel,"a",@progbits
	.p2align	2
.Lswitch.table.std.io.traits.Write.write_fmt._7427d210d622371f_.647.rel:
	.word	.LT84639798-.Lswitch.table.std.io.traits.Write.write_fmt._7427d210d622371f_.647.rel
	.word	.LT84639798-.Lswitch.table.std.io.traits.Write.write_fmt._7427d210d622371f_.647.rel
	.word	.LT1ef62a42-.Lswitch.table.std.io.traits.Write.write_fmt._7427d210d622371f_.647.rel
	.word	.LT9c610d29-.Lswitch.table.std.io.traits.Write.write_fmt._7427d210d622371f_.647.rel
	.word	.LTede891d1-.Lswitch.table.std.io.traits.Write.write_fmt._7427d210d622371f_.647.rel
	.word	.LT003e77a4-.Lswitch.table.std.io.traits.Write.write_fmt._7427d210d622371f_.647.rel
	.word	.LT7b2de264-.Lswitch.table.std.io.traits.Write.write_fmt._7427d210d622371f_.647.rel
	.word	.LTe2322176-.Lswitch.table.std.io.traits.Write.write_fmt._7427d210d622371f_.647.rel
	.word	.LTde87a2d9-.Lswitch.table.std.io.traits.Write.write_fmt._7427d210d622371f_.647.rel
	.word	.LT166e95ae-.Lswitch.table.std.io.traits.Write.write_fmt._7427d210d622371f_.647.rel
	.word	.LTfcd4e876-.Lswitch.table.std.io.traits.Write.write_fmt._7427d210d622371f_.647.rel
	.word	.LT21ff08f0-.Lswitch.table.std.io.traits.Write.write_fmt._7427d210d622371f_.647.rel
	.word	.LTf2f620b7-.Lswitch.table.std.io.traits.Write.write_fmt._7427d210d622371f_.647.rel
	.word	.LT6fc3e9ce-.Lswitch.table.std.io.traits.Write.write_fmt._7427d210d622371f_.647.rel
	.word	.LT0883e594-.Lswitch.table.std.io.traits.Write.write_fmt._7427d210d622371f_.647.rel
	.word	.LTf4264328-.Lswitch.table.std.io.traits.Write.write_fmt._7427d210d622371f_.647.rel
	.word	.LT36a7354e-.Lswitch.table.std.io.traits.Write.write_fmt._7427d210d622371f_.647.rel
	.section	.rodata..Lswitch.table.tc_c_base.status.code,"a",@progbits
	.p2align	2
.Lswitch.table.tc_c_base.status.code:
	.word	0
	.word	1
	.word	2
	.word	3
	.word	4
	.word	5
	.word	6
	.word	7
	.word	8
	.word	10
	.word	11
	.word	12
	.word	13
	.word	14
	.word	15
	.word	16
	.word	17
	.word	18
	.word	19
	.word	20
	.word	21
	.word	22
	.word	23
	.word	24
	.word	25
	.word	26
	.word	30
	.word	31
	.word	40
	.word	50
	.word	51
	.word	52
	.word	60
	.word	61
	.word	62
	.word	63
	.word	64
	.word	65
	.word	66
	.word	67
	.word	70
	.word	71
	.word	72
	.word	73
	.word	74
	.word	75
	.word	76
	.word	80
	.word	81
	.word	82
	.word	83
	.word	84
	.word	85
	.word	90
	.word	91
	.word	92
	.word	93
	.word	100
	.word	101
	.word	102
	.word	103
	.word	104
	.word	105
	.word	106
	.section	".note.GNU-stack","",@progbits
