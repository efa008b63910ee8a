	.section	.text.unlikely.std_alloc.vec.Vec.grow_amortized._e46d560dfcddf60e,"ax",@progbits
	.p2align	4
std_alloc.vec.Vec.grow_amortized._e46d560dfcddf60e:
	movq	%rsi, %rax
	movq	8(%rdi), %rsi
	addq	%rsi, %rax
	jae	253f
	xorl	%eax, %eax
	retq
253:
	pushq	%r14
	pushq	%rbx
	pushq	%rax
	cmpq	$9, %rax
	movl	$8, %ebx
	cmovaeq	%rax, %rbx
	movq	16(%rdi), %rcx
	movq	%rcx, %rdx
	shrq	$62, %rdx
	leaq	(%rcx,%rcx), %rax
	cmpq	%rax, %rbx
	cmovaq	%rbx, %rax
	testq	%rdx, %rdx
	cmoveq	%rax, %rbx
	testq	%rbx, %rbx
	js	890f
	testq	%rcx, %rcx
	je	859f
	movq	%rdi, %r14
	movq	(%rdi), %rdi
	movl	$1, %ecx
	movq	%rbx, %rdx
	callq	rattle_realloc@PLT
	testb	$1, %al
	je	890f
928:
	movq	%rdx, (%r14)
	movq	%rbx, 16(%r14)
	movb	$1, %al
	addq	$8, %rsp
	popq	%rbx
	popq	%r14
	retq
859:
	movq	%rdi, %r14
	movl	$1, %esi
	movq	%rax, %rdi
	callq	rattle_alloc@PLT
	testb	$1, %al
	jne	928b
890:
	xorl	%eax, %eax
	addq	$8, %rsp
	popq	%rbx
	popq	%r14
	retq
	.section	.rodata.cst16,"aM",@progbits,16
	.p2align	4
.LCa9983fb3_0:
	.zero	16,46
.LCa9983fb3_1:
	.quad	7310596056926023526
	.quad	3346860010425884786
.LCa9983fb3_2:
	.byte	2
	.byte	41
	.byte	15
	.byte	0
	.zero	1
	.zero	1
	.zero	1
	.zero	1
	.zero	1
	.zero	1
	.zero	1
	.zero	1
	.zero	1
	.zero	1
	.zero	1
	.zero	1
.LCa9983fb3_3:
	.zero	1
	.zero	1
	.zero	1
	.zero	1
	.byte	108
	.byte	108
	.zero	1
	.zero	1
	.zero	1
	.zero	1
	.zero	1
	.zero	1
	.zero	1
	.zero	1
	.zero	1
	.zero	1
.LCa9983fb3_4:
	.byte	2
	.byte	41
	.byte	15
	.byte	0
	.byte	0
	.byte	0
	.byte	0
	.byte	0
	.byte	0
	.byte	0
	.byte	0
	.byte	0
	.byte	0
	.byte	0
	.byte	0
	.byte	0
	.section	.text.tc_session.engine.Engine.answer._5349ec06ad6c886c,"ax",@progbits
	.p2align	4
tc_session.engine.Engine.answer._5349ec06ad6c886c:
	pushq	%rbp
	pushq	%r15
	pushq	%r14
	pushq	%r13
	pushq	%r12
	pushq	%rbx
	subq	$1656, %rsp
	movq	%r8, %r15
	movq	%rdi, %r12
	pxor	%xmm0, %xmm0
	movdqa	%xmm0, 1136(%rsp)
	movdqa	%xmm0, 1120(%rsp)
	movdqa	%xmm0, 1104(%rsp)
	movdqa	%xmm0, 1088(%rsp)
	movdqa	%xmm0, 1264(%rsp)
	movdqa	%xmm0, 1280(%rsp)
	movdqa	%xmm0, 1296(%rsp)
	movdqa	%xmm0, 1312(%rsp)
	movdqa	%xmm0, 1200(%rsp)
	movdqa	%xmm0, 1216(%rsp)
	movdqa	%xmm0, 1232(%rsp)
	movdqa	%xmm0, 1248(%rsp)
	movzbl	(%rsi), %eax
	leaq	.LJa9983fb3_0(%rip), %rdi
	movslq	(%rdi,%rax,4), %rax
	addq	%rdi, %rax
	movabsq	$4294976000, %r14
	jmpq	*%rax
196:
	movdqa	%xmm0, 912(%rsp)
	movdqa	%xmm0, 896(%rsp)
	movdqa	%xmm0, 880(%rsp)
	movdqa	%xmm0, 864(%rsp)
	cmpq	$8193, %rcx
	jb	483f
	movq	%r15, 112(%rsp)
	movdqu	%xmm0, 120(%rsp)
	movdqu	%xmm0, 136(%rsp)
	movdqu	%xmm0, 152(%rsp)
	movdqu	%xmm0, 168(%rsp)
	movdqu	%xmm0, 184(%rsp)
	movdqu	%xmm0, 200(%rsp)
	movdqu	%xmm0, 240(%rsp)
	movl	$32, 216(%rsp)
	movq	$0, 220(%rsp)
	movl	$0, 228(%rsp)
	movq	$-1, 232(%rsp)
	leaq	.LT1c4c589c(%rip), %rsi
	leaq	112(%rsp), %rdi
	movl	$13, %edx
	callq	std.io.traits.AdapterWrite.write_str._5349ec06ad6c886c
	movzbl	120(%rsp), %ecx
	movsd	128(%rsp), %xmm4
	movl	132(%rsp), %ebp
	movups	136(%rsp), %xmm5
	pxor	%xmm0, %xmm0
	movdqa	%xmm0, 1328(%rsp)
	movdqa	%xmm0, 1344(%rsp)
	movdqa	%xmm0, 1360(%rsp)
	movdqa	%xmm0, 1376(%rsp)
	cmpb	$1, %cl
	jne	289f
	movdqu	152(%rsp), %xmm0
	movups	168(%rsp), %xmm1
	movups	184(%rsp), %xmm2
	movups	200(%rsp), %xmm3
	movaps	%xmm3, 1376(%rsp)
	movaps	%xmm2, 1360(%rsp)
	movaps	%xmm1, 1344(%rsp)
	movdqa	%xmm0, 1328(%rsp)
	jmp	394f
327:
	movl	72(%rsi), %eax
	incl	%eax
	movl	$-1, %ebx
	cmovnel	%eax, %ebx
	movq	%rsi, %r14
	movl	%ebx, 72(%rsi)
	movdqa	%xmm0, 768(%rsp)
	movdqa	%xmm0, 784(%rsp)
	movdqa	%xmm0, 800(%rsp)
	movdqa	%xmm0, 816(%rsp)
	movq	$0, 832(%rsp)
	movq	$0, 864(%rsp)
	movl	$0, 872(%rsp)
	movdqa	%xmm0, 704(%rsp)
	movdqa	%xmm0, 720(%rsp)
	movdqa	%xmm0, 736(%rsp)
	movdqa	%xmm0, 752(%rsp)
	movdqa	%xmm0, 512(%rsp)
	movdqa	%xmm0, 528(%rsp)
	movdqa	%xmm0, 544(%rsp)
	movdqa	%xmm0, 560(%rsp)
	movdqa	%xmm0, 576(%rsp)
	movdqa	%xmm0, 592(%rsp)
	movdqa	%xmm0, 944(%rsp)
	movq	$0, 960(%rsp)
	movdqa	%xmm0, 112(%rsp)
	movdqa	%xmm0, 128(%rsp)
	movdqa	%xmm0, 144(%rsp)
	movdqa	%xmm0, 160(%rsp)
	movdqa	%xmm0, 176(%rsp)
	movdqa	%xmm0, 352(%rsp)
	movdqa	%xmm0, 368(%rsp)
	movq	$0, 384(%rsp)
	movq	$0, 448(%rsp)
	leaq	352(%rsp), %rdi
	movq	%rdx, %rsi
	movq	%rcx, %rdx
	callq	tc_text.line.parse_line
	cmpb	$0, 352(%rsp)
	je	12f
	movzbl	353(%rsp), %eax
	jmp	981f
282:
	movdqa	%xmm0, 816(%rsp)
	movdqa	%xmm0, 800(%rsp)
	movdqa	%xmm0, 784(%rsp)
	movdqa	%xmm0, 768(%rsp)
	cmpq	$262144, %rcx
	jb	928f
	movq	%r15, 112(%rsp)
	movdqu	%xmm0, 120(%rsp)
	movdqu	%xmm0, 136(%rsp)
	movdqu	%xmm0, 152(%rsp)
	movdqu	%xmm0, 168(%rsp)
	movdqu	%xmm0, 184(%rsp)
	movdqu	%xmm0, 200(%rsp)
	movdqu	%xmm0, 240(%rsp)
	movl	$32, 216(%rsp)
	movq	$0, 220(%rsp)
	movl	$0, 228(%rsp)
	movq	$-1, 232(%rsp)
	leaq	.LT1c4c589c(%rip), %rsi
	leaq	112(%rsp), %rdi
	movl	$13, %edx
	callq	std.io.traits.AdapterWrite.write_str._5349ec06ad6c886c
	movzbl	120(%rsp), %edx
	movsd	128(%rsp), %xmm0
	movl	132(%rsp), %ecx
	movups	136(%rsp), %xmm1
	xorps	%xmm2, %xmm2
	movaps	%xmm2, 1392(%rsp)
	movaps	%xmm2, 1408(%rsp)
	movaps	%xmm2, 1424(%rsp)
	movaps	%xmm2, 1440(%rsp)
	cmpb	$1, %dl
	jne	83f
	movups	152(%rsp), %xmm2
	movups	168(%rsp), %xmm3
	movups	184(%rsp), %xmm4
	movups	200(%rsp), %xmm5
	movaps	%xmm5, 1440(%rsp)
	movaps	%xmm4, 1424(%rsp)
	movaps	%xmm3, 1408(%rsp)
	movaps	%xmm2, 1392(%rsp)
	jmp	969f
928:
	movq	%r15, 32(%rsp)
	movq	%r12, 56(%rsp)
	addq	$8, %rsi
	movdqa	%xmm0, 560(%rsp)
	movdqa	%xmm0, 544(%rsp)
	movdqa	%xmm0, 528(%rsp)
	movdqa	%xmm0, 512(%rsp)
	movdqa	%xmm0, 608(%rsp)
	movdqa	%xmm0, 624(%rsp)
	movq	$0, 640(%rsp)
	movdqa	%xmm0, 848(%rsp)
	movdqa	%xmm0, 112(%rsp)
	movdqa	%xmm0, 128(%rsp)
	movdqa	%xmm0, 144(%rsp)
	movdqa	%xmm0, 160(%rsp)
	movdqa	%xmm0, 176(%rsp)
	movdqa	%xmm0, 192(%rsp)
	movdqa	%xmm0, 1024(%rsp)
	movdqa	%xmm0, 1040(%rsp)
	movdqa	%xmm0, 448(%rsp)
	movdqa	%xmm0, 464(%rsp)
	movdqa	%xmm0, 480(%rsp)
	movdqa	%xmm0, 944(%rsp)
	movdqa	%xmm0, 960(%rsp)
	movdqa	%xmm0, 976(%rsp)
	movdqa	%xmm0, 864(%rsp)
	movdqa	%xmm0, 880(%rsp)
	movdqa	%xmm0, 896(%rsp)
	movdqa	%xmm0, 656(%rsp)
	movdqa	%xmm0, 672(%rsp)
	movdqa	%xmm0, 688(%rsp)
	movdqa	%xmm0, 1072(%rsp)
	movdqa	%xmm0, 1056(%rsp)
	movdqa	%xmm0, 1008(%rsp)
	movdqa	%xmm0, 1184(%rsp)
	movdqa	%xmm0, 1168(%rsp)
	leaq	104(%rsp), %r10
	movq	%r10, 272(%rsp)
	leaq	280(%rsp), %r9
	xorl	%r11d, %r11d
	xorl	%edi, %edi
	xorl	%ebp, %ebp
928:
	movq	%rdi, %r12
	testq	%rdi, %rdi
	movq	%r11, %rdi
	cmoveq	%r12, %rdi
	movdqu	%xmm0, (%r9)
	.p2align	4
186:
	movl	%ebp, %eax
	jmp	1f
	.p2align	4
669:
	leaq	(%r15,%r13), %rdx
	incq	%rdx
	movq	%r13, %r8
	notq	%r8
	addq	%r8, %rcx
	testq	%r13, %r13
	jne	489f
1:
	testb	$1, %al
	jne	211f
	movq	%rdx, %r15
	xorl	%r13d, %r13d
	testq	%rcx, %rcx
	jne	548f
	jmp	972f
	.p2align	4
629:
	incq	%r13
	cmpq	%r13, %rcx
	je	409f
548:
	movzbl	(%r15,%r13), %eax
	cmpq	$32, %rax
	ja	629b
	btq	%rax, %r14
	jae	629b
972:
	cmpq	%rcx, %r13
	setae	%al
	jb	669b
	movq	%r15, %rdx
	movb	$1, %bpl
	movq	%rcx, %r13
	testq	%r13, %r13
	je	1b
	jmp	489f
	.p2align	4
409:
	movb	$1, %bpl
	movq	%r15, %rdx
	movq	%rcx, %r13
489:
	cmpq	%rdi, %r12
	je	859f
	movq	%r12, %rax
	shlq	$4, %rax
	movq	%r15, (%r10,%rax)
	movq	%r13, 8(%r10,%rax)
	incq	%r12
	jmp	186b
859:
	movq	%rdi, 280(%rsp)
	movq	%r11, 288(%rsp)
	cmpq	%rdi, %r11
	je	928f
859:
	movq	272(%rsp), %r10
	movq	%rdi, %rax
	shlq	$4, %rax
	movq	%r15, (%r10,%rax)
	movq	%r13, 8(%r10,%rax)
	incq	%rdi
	movq	%rdi, 280(%rsp)
	jmp	928b
928:
	movq	%rcx, 16(%rsp)
	movq	%rdx, %r12
	movq	%rsi, %rbx
	leaq	272(%rsp), %rdi
	movl	$1, %esi
	callq	std_alloc.vec.Vec.grow_amortized._923596be7a9ccb34
	movq	280(%rsp), %rdi
	movq	288(%rsp), %r11
	cmpq	%rdi, %r11
	setne	%cl
	orb	%al, %cl
	je	669f
928:
	movq	%rbx, %rsi
	movq	%r12, %rdx
	movq	16(%rsp), %rcx
	pxor	%xmm0, %xmm0
	leaq	280(%rsp), %r9
	jmp	859b
669:
	leaq	272(%rsp), %rdi
	movl	$1, %esi
	callq	std_alloc.vec.Vec.grow_amortized._923596be7a9ccb34
	testb	%al, %al
	je	436f
	movq	280(%rsp), %rdi
	movq	288(%rsp), %r11
	jmp	928b
483:
	pxor	%xmm1, %xmm1
	movdqa	%xmm1, 992(%rsp)
	movdqa	%xmm1, 976(%rsp)
	movdqa	%xmm1, 960(%rsp)
	movdqa	%xmm1, 944(%rsp)
	movdqa	%xmm1, 768(%rsp)
	movdqa	%xmm1, 784(%rsp)
	movdqa	%xmm1, 800(%rsp)
	movdqa	%xmm1, 816(%rsp)
	movq	$0, 832(%rsp)
	movdqa	%xmm1, 272(%rsp)
	movdqa	%xmm1, 288(%rsp)
	movdqa	%xmm1, 304(%rsp)
	movdqa	%xmm1, 320(%rsp)
	movl	$0, 336(%rsp)
	movdqa	%xmm1, 448(%rsp)
	movdqa	%xmm1, 464(%rsp)
	movdqa	%xmm1, 480(%rsp)
	movdqa	%xmm1, 496(%rsp)
	movdqa	%xmm1, 512(%rsp)
	movdqa	%xmm1, 528(%rsp)
	movdqa	%xmm1, 544(%rsp)
	movdqa	%xmm1, 560(%rsp)
	movdqa	%xmm1, 576(%rsp)
	movdqa	%xmm1, 656(%rsp)
	movdqa	%xmm1, 672(%rsp)
	movdqa	%xmm1, 720(%rsp)
	movdqa	%xmm1, 704(%rsp)
	movq	$0, 736(%rsp)
	xorl	%r13d, %r13d
	testq	%rcx, %rcx
	je	669f
	.p2align	4
548:
	movzbl	(%rdx,%r13), %eax
	cmpq	$32, %rax
	ja	669f
	btq	%rax, %r14
	jae	669f
	incq	%r13
	cmpq	%r13, %rcx
	jne	548b
	movq	%rcx, %r13
669:
	leaq	8(%rsi), %rbp
	movq	%rcx, %rbx
	subq	%r13, %rbx
	movq	%rdx, 8(%rsp)
	movq	%rcx, 16(%rsp)
	movq	%r12, 56(%rsp)
	je	859f
	movq	%r15, 32(%rsp)
	leaq	(%rdx,%r13), %r15
	cmpq	$63, %rbx
	movq	%rsi, 80(%rsp)
	ja	638f
	xorl	%r12d, %r12d
	jmp	548f
	.p2align	4
629:
	incq	%r12
	cmpq	%r12, %rbx
	je	648f
548:
	movzbl	(%r15,%r12), %eax
	cmpq	$32, %rax
	ja	629b
	btq	%rax, %r14
	jae	629b
	jmp	669f
211:
	testq	%r12, %r12
	je	211f
	leaq	16(%r10), %rdx
	decq	%r12
	movq	(%r10), %r13
	movq	8(%r10), %rbp
	testq	%rbp, %rbp
	je	247f
	movzbl	(%r13), %ebx
	cmpl	$35, %ebx
	jne	219f
211:
	testq	%r11, %r11
	je	483f
	movq	%r10, %rdi
	movq	%rsi, %rbx
	callq	rattle_dealloc@PLT
	movq	%rbx, %rsi
483:
	pxor	%xmm0, %xmm0
	movdqa	%xmm0, 848(%rsp)
	xorl	%r12d, %r12d
	xorl	%r14d, %r14d
	xorl	%ebx, %ebx
	xorl	%edx, %edx
	xorl	%ecx, %ecx
928:
	movq	32(%rsp), %r15
483:
	pxor	%xmm1, %xmm1
	xorl	%ebp, %ebp
	xorl	%edi, %edi
	xorl	%eax, %eax
	xorl	%r13d, %r13d
	jmp	668f
12:
	movq	%r14, %rsi
	addq	$8, %rsi
	movzwl	360(%rsp), %eax
	movw	%ax, 448(%rsp)
	movl	362(%rsp), %eax
	movl	%eax, 450(%rsp)
	movaps	368(%rsp), %xmm0
	movups	%xmm0, 456(%rsp)
	movq	384(%rsp), %rax
	movq	%rax, 472(%rsp)
	leaq	112(%rsp), %rdi
	leaq	448(%rsp), %rdx
	callq	tc_live.receiver.Receiver.perform
	movzbl	113(%rsp), %eax
	movzbl	120(%rsp), %esi
	movzbl	121(%rsp), %ecx
	movzwl	122(%rsp), %edx
	movaps	128(%rsp), %xmm0
	movaps	%xmm0, 272(%rsp)
	movaps	144(%rsp), %xmm0
	movaps	%xmm0, 288(%rsp)
	movaps	160(%rsp), %xmm0
	movaps	%xmm0, 304(%rsp)
	movdqa	176(%rsp), %xmm0
	movdqa	%xmm0, 320(%rsp)
	cmpb	$0, 112(%rsp)
	je	548f
981:
	movl	$0, 864(%rsp)
	movl	%ebx, 868(%rsp)
	movb	%al, 872(%rsp)
	leaq	864(%rsp), %rax
	movq	%rax, 944(%rsp)
	leaq	.LT3235efc0(%rip), %rax
	movq	%rax, 952(%rsp)
	movq	$1, 960(%rsp)
	leaq	512(%rsp), %rdi
	leaq	944(%rsp), %rdx
	movq	%r15, %rsi
	callq	std.io.traits.Write.write_fmt._66d26946d4f3efb7
	cmpb	$0, 512(%rsp)
	je	890f
	movsd	520(%rsp), %xmm5
	movl	524(%rsp), %ebp
	movaps	528(%rsp), %xmm4
	movaps	544(%rsp), %xmm0
	movaps	%xmm0, 1088(%rsp)
	movaps	560(%rsp), %xmm0
	movaps	%xmm0, 1104(%rsp)
	movaps	576(%rsp), %xmm0
	movaps	%xmm0, 1120(%rsp)
	movaps	592(%rsp), %xmm0
	movaps	%xmm0, 1136(%rsp)
409:
	movb	$1, %al
	xorl	%r15d, %r15d
	jmp	642f
890:
	xorl	%r15d, %r15d
680:
	movaps	704(%rsp), %xmm0
	movaps	720(%rsp), %xmm1
	movaps	736(%rsp), %xmm2
	movaps	752(%rsp), %xmm3
	movaps	%xmm3, 1136(%rsp)
	movaps	%xmm2, 1120(%rsp)
	movaps	%xmm1, 1104(%rsp)
	movaps	%xmm0, 1088(%rsp)
	xorps	%xmm4, %xmm4
	xorps	%xmm5, %xmm5
	xorl	%eax, %eax
	jmp	886f
83:
	xorl	%ecx, %ecx
	testb	%al, %al
	je	231f
	movaps	.LCa9983fb3_0(%rip), %xmm0
	movaps	%xmm0, 1440(%rsp)
	movaps	%xmm0, 1424(%rsp)
	movaps	%xmm0, 1408(%rsp)
	movaps	%xmm0, 1392(%rsp)
	movaps	.LCa9983fb3_1(%rip), %xmm1
	movss	.LCa9983fb3_4(%rip), %xmm0
969:
	movb	$1, %al
87:
	movaps	1392(%rsp), %xmm2
	movaps	1408(%rsp), %xmm3
	movaps	1424(%rsp), %xmm4
	movaps	1440(%rsp), %xmm5
	movaps	%xmm2, 1200(%rsp)
	movaps	%xmm3, 1216(%rsp)
	movaps	%xmm4, 1232(%rsp)
	movaps	%xmm5, 1248(%rsp)
	testb	%al, %al
	jne	519f
	jmp	22f
289:
	xorl	%ebp, %ebp
	testb	%al, %al
	je	833f
	movdqa	.LCa9983fb3_0(%rip), %xmm0
	movdqa	%xmm0, 1376(%rsp)
	movdqa	%xmm0, 1360(%rsp)
	movdqa	%xmm0, 1344(%rsp)
	movdqa	%xmm0, 1328(%rsp)
	movaps	.LCa9983fb3_1(%rip), %xmm5
	movss	.LCa9983fb3_4(%rip), %xmm4
394:
	movb	$1, %r15b
430:
	movaps	1328(%rsp), %xmm0
	movaps	1344(%rsp), %xmm1
	movaps	1360(%rsp), %xmm2
	movaps	1376(%rsp), %xmm3
	movaps	%xmm0, 1264(%rsp)
	movaps	%xmm1, 1280(%rsp)
	movaps	%xmm2, 1296(%rsp)
	movaps	%xmm3, 1312(%rsp)
	testb	%r15b, %r15b
	jne	419f
	jmp	22f
859:
	movq	%rbp, 64(%rsp)
	xorl	%eax, %eax
	pxor	%xmm0, %xmm0
	xorl	%ebp, %ebp
	movzbl	%al, %edx
	leaq	.LJa9983fb3_7(%rip), %rdi
	movslq	(%rdi,%rdx,4), %rdx
	addq	%rdi, %rdx
	xorl	%r8d, %r8d
	xorl	%edi, %edi
	xorl	%r11d, %r11d
	xorl	%r10d, %r10d
	jmpq	*%rdx
638:
	movq	%r15, %rdi
	movq	%rbx, %rsi
	callq	tc_lines.word.long_word_length
	movq	16(%rsp), %rcx
	movq	8(%rsp), %rdx
	movq	%rax, %r12
669:
	leaq	-4(%r12), %rax
	cmpq	$5, %rax
	ja	949f
669:
	leaq	(%r15,%r12), %r8
	subq	%r12, %rbx
	leaq	.LJa9983fb3_6(%rip), %rsi
	movslq	(%rsi,%rax,4), %rax
	addq	%rsi, %rax
	jmpq	*%rax
871:
	cmpl	$1802398060, (%r15)
	jne	949f
	leaq	.LT3beabe2d(%rip), %rdx
	movl	$4, %esi
	movq	%r15, %rdi
	movq	%r8, %r15
	callq	core.cmp.slices.groups_equal._i8_31_core.cmp.numbers.U8PartialEq
	movq	16(%rsp), %rcx
	movq	8(%rsp), %rdx
	testb	%al, %al
	je	949f
	movq	%r15, %rsi
	pxor	%xmm0, %xmm0
	movdqa	%xmm0, 144(%rsp)
	movdqa	%xmm0, 128(%rsp)
	movdqa	%xmm0, 112(%rsp)
	movq	$0, 160(%rsp)
	leaq	112(%rsp), %rdi
	movq	%rbx, %rdx
	callq	tc_text.word.three_arguments
	cmpb	$0, 112(%rsp)
	movq	%rbp, 64(%rsp)
	je	961f
	movb	$1, %r13b
	movzbl	113(%rsp), %eax
	xorl	%r9d, %r9d
	xorl	%r11d, %r11d
	xorl	%ebp, %ebp
	movq	80(%rsp), %rsi
	jmp	678f
548:
	movzbl	%sil, %ebx
	movb	%bl, 768(%rsp)
	movb	%cl, 769(%rsp)
	movw	%dx, 770(%rsp)
	movdqa	272(%rsp), %xmm0
	movaps	288(%rsp), %xmm1
	movaps	304(%rsp), %xmm2
	movaps	320(%rsp), %xmm3
	movdqu	%xmm0, 776(%rsp)
	movups	%xmm1, 792(%rsp)
	movups	%xmm2, 808(%rsp)
	movups	%xmm3, 824(%rsp)
	movq	%r15, 112(%rsp)
	pxor	%xmm0, %xmm0
	movdqu	%xmm0, 120(%rsp)
	movdqu	%xmm0, 136(%rsp)
	movdqu	%xmm0, 152(%rsp)
	movdqu	%xmm0, 168(%rsp)
	movdqu	%xmm0, 184(%rsp)
	movdqu	%xmm0, 200(%rsp)
	movdqu	%xmm0, 240(%rsp)
	movl	$32, 216(%rsp)
	movq	$0, 220(%rsp)
	movl	$0, 228(%rsp)
	movq	$-1, 232(%rsp)
	leaq	112(%rsp), %rdi
	leaq	768(%rsp), %rsi
	callq	core.fmt.formatter.Formatter.write_piece._bca9c74da7838be5
	cmpb	$1, 120(%rsp)
	jne	1f
	movups	136(%rsp), %xmm4
	movl	132(%rsp), %ebp
	movsd	128(%rsp), %xmm5
	movups	152(%rsp), %xmm0
	movaps	%xmm0, 1520(%rsp)
	movups	168(%rsp), %xmm0
	movaps	%xmm0, 1536(%rsp)
	movups	184(%rsp), %xmm0
	movaps	%xmm0, 1552(%rsp)
	movups	200(%rsp), %xmm0
	movaps	%xmm0, 1568(%rsp)
	movl	%ebx, %eax
	leaq	.LJa9983fb3_5(%rip), %rcx
	movslq	(%rcx,%rax,4), %rax
	addq	%rcx, %rax
	jmpq	*%rax
219:
	leaq	-2(%rbp), %rax
	cmpq	$6, %rax
	ja	247f
	leaq	.LJa9983fb3_1(%rip), %rcx
	movslq	(%rcx,%rax,4), %rax
	addq	%rcx, %rax
	jmpq	*%rax
975:
	cmpl	$97, %ebx
	je	868f
	cmpl	$98, %ebx
	jne	247f
	cmpb	$100, 1(%r13)
	jne	247f
	movq	%r10, %r14
	movq	%rsi, 80(%rsp)
	leaq	448(%rsp), %rdi
	movq	%rdx, %rsi
	movq	%r12, %rdx
	movq	%r11, %r15
	callq	tc_make.line.bd
	movzbl	448(%rsp), %r8d
	movzbl	449(%rsp), %eax
	movl	%eax, 8(%rsp)
	movzbl	450(%rsp), %r9d
	movzbl	456(%rsp), %eax
	movq	%rax, 64(%rsp)
	movzbl	457(%rsp), %r13d
	movd	458(%rsp), %xmm1
	movzbl	462(%rsp), %eax
	movzbl	463(%rsp), %edi
	movzbl	464(%rsp), %edx
	movzwl	465(%rsp), %ecx
	movq	488(%rsp), %rsi
	movq	%rsi, 72(%rsp)
	testq	%r15, %r15
	je	548f
	movq	%rdi, 96(%rsp)
	movq	%r14, %rdi
	movq	%r8, %rbp
	movq	%r9, %r15
	movq	%rcx, %r12
	movl	%edx, %ebx
	movdqa	%xmm1, 256(%rsp)
	movq	%rax, %r14
	callq	rattle_dealloc@PLT
	movq	96(%rsp), %rdi
	movq	%r14, %rax
	movdqa	256(%rsp), %xmm1
	movl	%ebx, %edx
	movq	%r12, %rcx
	movq	%r15, %r9
	movq	%rbp, %r8
548:
	movzbl	467(%rsp), %r14d
	movl	468(%rsp), %r12d
	movdqu	472(%rsp), %xmm0
	movdqa	%xmm0, 848(%rsp)
	movq	80(%rsp), %rsi
	movq	32(%rsp), %r15
	movq	64(%rsp), %rbx
	movq	72(%rsp), %rbp
	jmp	15f
231:
	xorps	%xmm0, %xmm0
	xorl	%eax, %eax
	xorps	%xmm1, %xmm1
	jmp	87b
833:
	xorps	%xmm4, %xmm4
	xorl	%r15d, %r15d
	xorps	%xmm5, %xmm5
	jmp	430b
1:
	testb	%al, %al
	je	969f
	movaps	.LCa9983fb3_0(%rip), %xmm0
	movaps	%xmm0, 1568(%rsp)
	movaps	%xmm0, 1552(%rsp)
	movaps	%xmm0, 1536(%rsp)
	movaps	%xmm0, 1520(%rsp)
	movaps	.LCa9983fb3_1(%rip), %xmm4
	movss	.LCa9983fb3_4(%rip), %xmm5
	xorl	%ebp, %ebp
	movl	%ebx, %eax
	leaq	.LJa9983fb3_5(%rip), %rcx
	movslq	(%rcx,%rax,4), %rax
	addq	%rcx, %rax
	jmpq	*%rax
548:
	movzbl	776(%rsp), %ecx
	movq	784(%rsp), %rdi
	movq	800(%rsp), %rax
	movl	$51, %edx
	btl	%ecx, %edx
	jb	87f
	cmpl	$2, %ecx
	testq	%rax, %rax
	je	87f
	movaps	%xmm4, 32(%rsp)
	movaps	%xmm5, 16(%rsp)
	jmp	271f
186:
	movl	(%r15), %eax
	cmpl	$1768711524, %eax
	je	669f
	movd	%eax, %xmm0
	pshuflw	$85, %xmm0, %xmm1
	pcmpeqb	.LCa9983fb3_3(%rip), %xmm1
	pcmpeqd	%xmm2, %xmm2
	pxor	%xmm1, %xmm2
	movzbl	(%r15), %eax
	movdqa	%xmm0, 1504(%rsp)
	pextrw	$2, %xmm2, %esi
	testb	$1, %sil
	jne	949f
	cmpb	$99, %al
	jne	949f
	cmpb	$111, 1505(%rsp)
	jne	949f
	cmpb	$108, 1507(%rsp)
	jne	949f
	leaq	.LT56694b3d(%rip), %rdx
	movl	$7, %esi
	movq	%r15, %rdi
	movq	%r8, %r15
	callq	core.cmp.slices.groups_equal._i8_31_core.cmp.numbers.U8PartialEq
	movq	16(%rsp), %rcx
	movq	8(%rsp), %rdx
	testb	%al, %al
	je	949f
	movq	%r15, %rdi
	testq	%rbx, %rbx
	je	657f
	movq	%rcx, %rax
	subq	%r12, %rax
	subq	%r13, %rax
	xorl	%r15d, %r15d
284:
	movzbl	(%rdi,%r15), %esi
	cmpq	$32, %rsi
	ja	226f
	btq	%rsi, %r14
	jae	226f
	incq	%r15
	cmpq	%r15, %rax
	jne	284b
	movq	%rbx, %r15
	jmp	226f
909:
	cmpl	$1869636978, (%r15)
	jne	949f
	leaq	.LT9561cdf1(%rip), %rdx
	movl	$6, %esi
	movq	%r15, %rdi
	movq	%r8, %r15
	callq	core.cmp.slices.groups_equal._i8_31_core.cmp.numbers.U8PartialEq
	movq	16(%rsp), %rcx
	movq	8(%rsp), %rdx
	testb	%al, %al
	je	949f
	movq	%r15, %rdi
	testq	%rbx, %rbx
	je	890f
	movq	%rcx, %rax
	subq	%r12, %rax
	subq	%r13, %rax
	xorl	%r15d, %r15d
284:
	movzbl	(%rdi,%r15), %esi
	cmpq	$32, %rsi
	ja	409f
	btq	%rsi, %r14
	jae	409f
	incq	%r15
	cmpq	%r15, %rax
	jne	284b
	movq	%rbx, %r15
	jmp	409f
693:
	cmpl	$1684955491, (%r15)
	jne	949f
	leaq	.LT3fe1d88b(%rip), %rdx
	movl	$9, %esi
	movq	%r15, %rdi
	movq	%r8, %r15
	callq	core.cmp.slices.groups_equal._i8_31_core.cmp.numbers.U8PartialEq
	movq	16(%rsp), %rcx
	movq	8(%rsp), %rdx
	testb	%al, %al
	je	949f
	movq	%r15, %r9
	movq	%rbp, 64(%rsp)
	pxor	%xmm1, %xmm1
	movdqa	%xmm1, 128(%rsp)
	movdqa	%xmm1, 112(%rsp)
	testq	%rbx, %rbx
	je	83f
	movq	%rcx, %rax
	subq	%r12, %rax
	subq	%r13, %rax
	xorl	%ebp, %ebp
	movq	80(%rsp), %rsi
284:
	movzbl	(%r9,%rbp), %edi
	cmpq	$32, %rdi
	ja	980f
	btq	%rdi, %r14
	jae	980f
	incq	%rbp
	cmpq	%rbp, %rax
	jne	284b
	movq	%rbx, %rbp
	jmp	980f
648:
	movq	%rbx, %r12
	leaq	-4(%r12), %rax
	cmpq	$5, %rax
	jbe	669b
	jmp	949f
969:
	movb	$1, %r15b
	movl	%ebx, %eax
	leaq	.LJa9983fb3_4(%rip), %rcx
	movslq	(%rcx,%rax,4), %rax
	addq	%rcx, %rax
	jmpq	*%rax
284:
	movzbl	776(%rsp), %ecx
	movq	784(%rsp), %rdi
	movq	800(%rsp), %rax
	movl	$51, %edx
	btl	%ecx, %edx
	jb	680b
	cmpl	$2, %ecx
	testq	%rax, %rax
	jne	860f
	jmp	680b
669:
	leaq	.LT9ce88526(%rip), %rdx
	movl	$7, %esi
	movq	%r15, %rdi
	movq	%r8, %r15
	callq	core.cmp.slices.groups_equal._i8_31_core.cmp.numbers.U8PartialEq
	movq	16(%rsp), %rcx
	movq	8(%rsp), %rdx
	testb	%al, %al
	je	949f
	movq	%r15, %rdi
	testq	%rbx, %rbx
	je	57f
	movq	%rcx, %rax
	subq	%r12, %rax
	subq	%r13, %rax
	xorl	%r15d, %r15d
166:
	movzbl	(%rdi,%r15), %esi
	cmpq	$32, %rsi
	ja	394f
	btq	%rsi, %r14
	jae	394f
	incq	%r15
	cmpq	%r15, %rax
	jne	166b
	movq	%rbx, %r15
	jmp	394f
949:
	leaq	704(%rsp), %rdi
	movq	%rdx, %rsi
	movq	%rcx, %rdx
	callq	tc_text.line.parse_line
	cmpb	$0, 704(%rsp)
	je	638f
	movzbl	705(%rsp), %r10d
859:
	movq	8(%rsp), %rdx
	movq	16(%rsp), %rcx
12:
	movq	56(%rsp), %r12
	movq	32(%rsp), %r15
343:
	pxor	%xmm0, %xmm0
	movdqa	%xmm0, 400(%rsp)
	movdqa	%xmm0, 384(%rsp)
	movdqa	%xmm0, 368(%rsp)
	movdqa	%xmm0, 352(%rsp)
	movzbl	%r10b, %r13d
	leaq	.Lswitch.table.tc_session.engine.Engine.answer._5349ec06ad6c886c(%rip), %rax
	movq	(%rax,%r13,8), %r10
	leaq	.Lswitch.table.tc_session.engine.Engine.answer._5349ec06ad6c886c_.630.rel(%rip), %rax
	movslq	(%rax,%r13,4), %rsi
	addq	%rax, %rsi
	leaq	.LTb42bdd72(%rip), %r8
	movl	$46, %r9d
	leaq	.LJa9983fb3_8(%rip), %rax
	movslq	(%rax,%r13,4), %rdi
	addq	%rax, %rdi
	jmpq	*%rdi
638:
	movq	%rbp, 64(%rsp)
	movd	714(%rsp), %xmm0
	movzbl	712(%rsp), %edi
	movzbl	713(%rsp), %r8d
	movdqa	720(%rsp), %xmm1
	movq	736(%rsp), %rax
	xorl	%ecx, %ecx
	xorl	%ebp, %ebp
	movzbl	%cl, %r11d
	leaq	.LJa9983fb3_7(%rip), %rcx
	movslq	(%rcx,%r11,4), %rdx
	addq	%rcx, %rdx
	xorl	%r10d, %r10d
	movq	80(%rsp), %rsi
	movq	16(%rsp), %rcx
	movq	56(%rsp), %r12
	movq	32(%rsp), %r15
	jmpq	*%rdx
969:
	movb	%dil, 656(%rsp)
	movb	%r8b, 657(%rsp)
	movd	%xmm0, 658(%rsp)
	movdqu	%xmm1, 664(%rsp)
	movq	%rax, 680(%rsp)
	leaq	512(%rsp), %rdi
	leaq	656(%rsp), %rdx
	movq	64(%rsp), %rsi
	callq	tc_live.receiver.Receiver.perform
	movq	16(%rsp), %rcx
	movzbl	512(%rsp), %r12d
	movzbl	513(%rsp), %ebx
	movzbl	520(%rsp), %r13d
	movzbl	521(%rsp), %r11d
	movzwl	522(%rsp), %ebp
	jmp	268f
717:
	cmpl	$115, %ebx
	jne	247f
	cmpb	$101, 1(%r13)
	jne	247f
	cmpb	$116, 2(%r13)
	jne	247f
	cmpb	$118, 3(%r13)
	jne	247f
	movq	%rdx, %rbx
	leaq	.LT060252ac(%rip), %rdx
	movq	%rsi, 80(%rsp)
	movl	$5, %esi
	movq	%r13, %rdi
	movq	%r10, %r14
	movq	%r11, %r15
	callq	core.cmp.slices.groups_equal._i8_31_core.cmp.numbers.U8PartialEq
	movq	%rbx, %rdx
	movq	%r15, %r11
	movq	%r14, %r10
	movq	80(%rsp), %rsi
	testb	%al, %al
	je	247f
	leaq	864(%rsp), %rdi
	movq	%rdx, %rsi
	movq	%r12, %rdx
	movq	%r11, %r15
	callq	tc_make.line.setvr
	movzbl	864(%rsp), %r8d
	movzbl	865(%rsp), %eax
	movl	%eax, 8(%rsp)
	movzbl	866(%rsp), %r9d
	movzbl	872(%rsp), %eax
	movq	%rax, 64(%rsp)
	movzbl	873(%rsp), %r13d
	movd	874(%rsp), %xmm1
	movzbl	878(%rsp), %eax
	movzbl	879(%rsp), %edi
	movzbl	880(%rsp), %edx
	movzwl	881(%rsp), %ecx
	movq	904(%rsp), %rbp
	testq	%r15, %r15
	je	166f
	movq	%rdi, 96(%rsp)
	movq	%r14, %rdi
	movq	%r8, %r14
	movq	%r9, %r15
	movq	%rcx, %r12
	movq	%rbp, 72(%rsp)
	movl	%edx, %ebp
	movdqa	%xmm1, 256(%rsp)
	movq	%rax, %rbx
	callq	rattle_dealloc@PLT
	movq	96(%rsp), %rdi
	movq	%rbx, %rax
	movdqa	256(%rsp), %xmm1
	movl	%ebp, %edx
	movq	72(%rsp), %rbp
	movq	%r12, %rcx
	movq	%r15, %r9
	movq	%r14, %r8
166:
	movzbl	883(%rsp), %r14d
	movl	884(%rsp), %r12d
	movdqu	888(%rsp), %xmm0
	jmp	587f
666:
	cmpl	$115, %ebx
	jne	247f
	cmpb	$101, 1(%r13)
	jne	247f
	cmpb	$103, 2(%r13)
	jne	247f
	cmpb	$109, 3(%r13)
	jne	247f
	movq	%rdx, %rbx
	leaq	.LT809303c8(%rip), %rdx
	movq	%rsi, 80(%rsp)
	movl	$8, %esi
	movq	%r13, %rdi
	movq	%r10, %r14
	movq	%r11, %r15
	callq	core.cmp.slices.groups_equal._i8_31_core.cmp.numbers.U8PartialEq
	movq	%rbx, %rdx
	movq	%r15, %r11
	movq	%r14, %r10
	movq	80(%rsp), %rsi
	testb	%al, %al
	je	247f
	leaq	656(%rsp), %rdi
	movq	%rdx, %rsi
	movq	%r12, %rdx
	movq	%r11, %r15
	callq	tc_make.line.segments
	movzbl	656(%rsp), %r8d
	movzbl	657(%rsp), %eax
	movl	%eax, 8(%rsp)
	movzbl	658(%rsp), %r9d
	movzbl	664(%rsp), %eax
	movq	%rax, 64(%rsp)
	movzbl	665(%rsp), %r13d
	movd	666(%rsp), %xmm1
	movzbl	670(%rsp), %eax
	movzbl	671(%rsp), %edi
	movzbl	672(%rsp), %edx
	movzwl	673(%rsp), %ecx
	movq	696(%rsp), %rbp
	testq	%r15, %r15
	je	166f
	movq	%rdi, 96(%rsp)
	movq	%r14, %rdi
	movq	%r8, %r14
	movq	%r9, %r15
	movq	%rcx, %r12
	movq	%rbp, 72(%rsp)
	movl	%edx, %ebp
	movdqa	%xmm1, 256(%rsp)
	movq	%rax, %rbx
	callq	rattle_dealloc@PLT
	movq	96(%rsp), %rdi
	movq	%rbx, %rax
	movdqa	256(%rsp), %xmm1
	movl	%ebp, %edx
	movq	72(%rsp), %rbp
	movq	%r12, %rcx
	movq	%r15, %r9
	movq	%r14, %r8
166:
	movzbl	675(%rsp), %r14d
	movl	676(%rsp), %r12d
	movdqu	680(%rsp), %xmm0
	jmp	587f
318:
	cmpl	$99, %ebx
	jne	247f
	cmpb	$108, 1(%r13)
	jne	247f
	cmpb	$99, 2(%r13)
	jne	247f
	cmpb	$119, 3(%r13)
	jne	247f
	movq	%rdx, %r14
	leaq	.LTd51b947e(%rip), %rdx
	movq	%rsi, 80(%rsp)
	movl	$4, %esi
	movq	%r13, %rdi
	movq	%r10, %r15
	movq	%r11, %rbx
	callq	core.cmp.slices.groups_equal._i8_31_core.cmp.numbers.U8PartialEq
	movq	%r14, %rdx
	movq	%rbx, %r11
	movq	%r15, %r10
	movq	80(%rsp), %rsi
	testb	%al, %al
	je	247f
	leaq	1168(%rsp), %rdi
	movl	$7, %esi
	movq	%r12, %rcx
	callq	tc_make.line.alone
	cmpb	$0, 1168(%rsp)
	je	647f
	movzbl	1169(%rsp), %ebp
	movzbl	1170(%rsp), %r9d
	testq	%rbx, %rbx
	movl	%ebp, 8(%rsp)
	je	638f
	movq	%r15, %rdi
	movq	%r9, %rbx
	callq	rattle_dealloc@PLT
	movq	%rbx, %r9
638:
	movq	32(%rsp), %r15
	jmp	413f
166:
	movzbl	1(%r13), %r14d
	movzbl	2(%r13), %r15d
	movzbl	3(%r13), %eax
	cmpl	$112, %ebx
	jne	651f
	cmpb	$97, %r14b
	jne	651f
	cmpb	$99, %r15b
	jne	651f
	cmpb	$107, %al
	jne	651f
	movq	%rdx, 16(%rsp)
	leaq	.LT841bcafc(%rip), %rdx
	movq	%rsi, 80(%rsp)
	movl	$6, %esi
	movq	%r13, %rdi
	movq	%r10, 72(%rsp)
	movq	%r11, 64(%rsp)
	movb	%al, 8(%rsp)
	callq	core.cmp.slices.groups_equal._i8_31_core.cmp.numbers.U8PartialEq
	movq	16(%rsp), %rdx
	movq	64(%rsp), %r11
	movq	72(%rsp), %r10
	movq	80(%rsp), %rsi
	testb	%al, %al
	movzbl	8(%rsp), %eax
	je	651f
	pxor	%xmm1, %xmm1
	movdqa	%xmm1, 288(%rsp)
	movdqa	%xmm1, 272(%rsp)
	cmpq	$3, %r12
	jne	469f
	movq	24(%r10), %rcx
	leaq	-6(%rcx), %rax
	cmpq	$-5, %rax
	movq	32(%rsp), %r15
	jb	179f
	testq	%rcx, %rcx
	je	905f
	movq	16(%r10), %rax
	movzbl	(%rax), %edx
	addb	$-48, %dl
	cmpb	$9, %dl
	ja	179f
	cmpq	$1, %rcx
	jne	428f
981:
	movl	%ecx, %edx
	andl	$3, %edx
	cmpq	$4, %rcx
	jae	962f
	xorl	%r12d, %r12d
	xorl	%esi, %esi
	jmp	874f
59:
	cmpl	$101, %ebx
	jne	247f
	cmpb	$120, 1(%r13)
	jne	247f
	cmpb	$112, 2(%r13)
	jne	247f
	cmpb	$108, 3(%r13)
	jne	247f
	movq	%rdx, %rbx
	leaq	.LT6bb1575f(%rip), %rdx
	movq	%rsi, 80(%rsp)
	movl	$7, %esi
	movq	%r13, %rdi
	movq	%r10, %r14
	movq	%r11, %r15
	callq	core.cmp.slices.groups_equal._i8_31_core.cmp.numbers.U8PartialEq
	movq	%rbx, %rdx
	movq	%r15, %r11
	movq	%r14, %r10
	movq	80(%rsp), %rsi
	testb	%al, %al
	je	247f
	leaq	1056(%rsp), %rdi
	movl	$6, %esi
	movq	%r12, %rcx
	callq	tc_make.line.alone
	cmpb	$0, 1056(%rsp)
	je	866f
	movzbl	1057(%rsp), %eax
	movl	%eax, 8(%rsp)
	movzbl	1058(%rsp), %r9d
	testq	%r15, %r15
	movq	32(%rsp), %r15
	je	413f
	movq	%r14, %rdi
	movq	%r9, %rbx
	callq	rattle_dealloc@PLT
	movq	%rbx, %r9
	jmp	413f
648:
	movq	816(%rsp), %r14
	movq	832(%rsp), %rbx
	cmpq	$0, 808(%rsp)
	movaps	%xmm4, 32(%rsp)
	movaps	%xmm5, 16(%rsp)
	je	211f
	movq	792(%rsp), %rdi
	callq	rattle_dealloc@PLT
	movaps	16(%rsp), %xmm5
	movaps	32(%rsp), %xmm4
211:
	testq	%rbx, %rbx
	je	87f
	movq	%r14, %rdi
271:
	callq	rattle_dealloc@PLT
	movaps	16(%rsp), %xmm5
	movaps	32(%rsp), %xmm4
87:
	movaps	1520(%rsp), %xmm0
	movaps	1536(%rsp), %xmm1
	movaps	1552(%rsp), %xmm2
	movaps	1568(%rsp), %xmm3
	movaps	%xmm3, 1136(%rsp)
	movaps	%xmm2, 1120(%rsp)
	movaps	%xmm1, 1104(%rsp)
	movaps	%xmm0, 1088(%rsp)
	jmp	409b
651:
	cmpl	$117, %ebx
	jne	247f
	cmpb	$110, %r14b
	jne	247f
	cmpb	$108, %r15b
	jne	247f
	cmpb	$111, %al
	jne	247f
	movq	%rdx, %rbx
	leaq	.LT8805324e(%rip), %rdx
	movq	%rsi, 80(%rsp)
	movl	$6, %esi
	movq	%r13, %rdi
	movq	%r10, %r14
	movq	%r11, %r15
	callq	core.cmp.slices.groups_equal._i8_31_core.cmp.numbers.U8PartialEq
	movq	%rbx, %rdx
	movq	%r15, %r11
	movq	%r14, %r10
	movq	80(%rsp), %rsi
	testb	%al, %al
	je	247f
	leaq	944(%rsp), %rdi
	movq	%rdx, %rsi
	movq	%r12, %rdx
	movq	%r11, %r15
	callq	tc_make.line.unlock
	movzbl	944(%rsp), %r8d
	movzbl	945(%rsp), %eax
	movl	%eax, 8(%rsp)
	movzbl	946(%rsp), %r9d
	movzbl	952(%rsp), %eax
	movq	%rax, 64(%rsp)
	movzbl	953(%rsp), %r13d
	movd	954(%rsp), %xmm1
	movzbl	958(%rsp), %eax
	movzbl	959(%rsp), %edi
	movzbl	960(%rsp), %edx
	movzwl	961(%rsp), %ecx
	movq	984(%rsp), %rbp
	testq	%r15, %r15
	je	552f
	movq	%rdi, 96(%rsp)
	movq	%r14, %rdi
	movq	%r8, %r14
	movq	%r9, %r15
	movq	%rcx, %r12
	movq	%rbp, 72(%rsp)
	movl	%edx, %ebp
	movdqa	%xmm1, 256(%rsp)
	movq	%rax, %rbx
	callq	rattle_dealloc@PLT
	movq	96(%rsp), %rdi
	movq	%rbx, %rax
	movdqa	256(%rsp), %xmm1
	movl	%ebp, %edx
	movq	72(%rsp), %rbp
	movq	%r12, %rcx
	movq	%r15, %r9
	movq	%r14, %r8
552:
	movzbl	963(%rsp), %r14d
	movl	964(%rsp), %r12d
	movdqu	968(%rsp), %xmm0
587:
	movdqa	%xmm0, 848(%rsp)
	movq	80(%rsp), %rsi
	movq	32(%rsp), %r15
	movq	64(%rsp), %rbx
	jmp	15f
961:
	movq	128(%rsp), %r15
	leaq	-6(%r15), %rcx
	movb	$2, %al
	movb	$1, %r13b
	cmpq	$-5, %rcx
	movq	80(%rsp), %rsi
	jae	913f
	xorl	%r9d, %r9d
	xorl	%r11d, %r11d
	xorl	%ebp, %ebp
678:
	movq	8(%rsp), %rdx
	movq	16(%rsp), %rcx
	movq	56(%rsp), %r12
961:
	movq	32(%rsp), %r15
362:
	pxor	%xmm1, %xmm1
	pxor	%xmm0, %xmm0
	xorl	%r10d, %r10d
	xorl	%edi, %edi
	xorl	%r8d, %r8d
	jmp	1f
890:
	xorl	%r15d, %r15d
409:
	movb	$1, %r10b
	subq	%r15, %rbx
	je	12b
	addq	%r15, %rdi
	cmpq	$63, %rbx
	movq	%rdi, 72(%rsp)
	ja	678f
	movq	%rcx, %r9
	subq	%r12, %r9
	subq	%r15, %r9
	subq	%r13, %r9
	xorl	%eax, %eax
	movq	80(%rsp), %rsi
	jmp	552f
629:
	incq	%rax
	cmpq	%rax, %r9
	je	594f
552:
	movzbl	(%rdi,%rax), %r8d
	cmpq	$32, %r8
	ja	629b
	btq	%r8, %r14
	jae	629b
	jmp	972f
83:
	xorl	%ebp, %ebp
	movq	80(%rsp), %rsi
980:
	subq	%rbp, %rbx
	movq	32(%rsp), %r15
	je	890f
	addq	%rbp, %r9
	cmpq	$63, %rbx
	ja	966f
	movq	%rcx, %rdi
	subq	%r12, %rdi
	subq	%rbp, %rdi
	subq	%r13, %rdi
	xorl	%eax, %eax
	jmp	552f
629:
	incq	%rax
	cmpq	%rax, %rdi
	je	600f
552:
	movzbl	(%r9,%rax), %r8d
	cmpq	$32, %r8
	ja	629b
	btq	%r8, %r14
	jae	629b
	jmp	489f
890:
	xorl	%r9d, %r9d
	pxor	%xmm0, %xmm0
	movb	$1, %al
	xorl	%edi, %edi
	xorl	%r8d, %r8d
	xorl	%r10d, %r10d
	movq	56(%rsp), %r12
	movb	$1, %r13b
	jmp	378f
678:
	movq	%rbx, %rsi
	callq	tc_lines.word.long_word_length
	movq	16(%rsp), %rcx
	movq	8(%rsp), %rdx
	movq	80(%rsp), %rsi
972:
	cmpq	%rax, %rbx
	je	219f
669:
	leaq	(%r12,%rax), %rdi
	movq	%rcx, %r8
	subq	%r13, %r8
	subq	%r15, %r8
	leaq	(%r15,%r13), %r9
	leaq	(%rdx,%r9), %r10
552:
	movzbl	(%r10,%rdi), %r11d
	cmpq	$32, %r11
	ja	980f
	btq	%r11, %r14
	jae	980f
	incq	%rdi
	cmpq	%rdi, %r8
	jne	552b
219:
	leaq	-6(%rax), %rdi
	movb	$2, %r10b
	cmpq	$-5, %rdi
	jb	12b
	testq	%rax, %rax
	je	589f
	movq	72(%rsp), %r9
	movzbl	(%r9), %edi
	addb	$-48, %dil
	cmpb	$9, %dil
	ja	12b
	cmpq	$1, %rax
	jne	976f
434:
	movl	%eax, %edi
	andl	$3, %edi
	cmpq	$4, %rax
	jae	523f
	xorl	%r11d, %r11d
	xorl	%r8d, %r8d
	jmp	880f
966:
	movq	%r9, %rdi
	movq	%rbx, %rsi
	movq	%r9, %r15
	callq	tc_lines.word.long_word_length
	movq	%r15, %r9
	movq	16(%rsp), %rcx
	movq	8(%rsp), %rdx
489:
	cmpq	%rax, %rbx
	je	740f
850:
	addq	%rax, %r12
	movq	%rcx, %rsi
	subq	%r13, %rsi
	subq	%rbp, %rsi
	addq	%r13, %rbp
	leaq	(%rdx,%rbp), %rdi
552:
	movzbl	(%rdi,%r12), %r8d
	cmpq	$32, %r8
	ja	804f
	btq	%r8, %r14
	jae	804f
	incq	%r12
	cmpq	%r12, %rsi
	jne	552b
740:
	leaq	112(%rsp), %rdi
	movq	%r9, %rsi
	movq	%rax, %rdx
	callq	hex.decode._2c03b3434bbe5675
	movzbl	112(%rsp), %r13d
	movzbl	120(%rsp), %edi
	testb	%r13b, %r13b
	je	442f
	cmpb	$3, %dil
	movl	$14, %ecx
	movl	$3, %eax
	cmovel	%ecx, %eax
	pxor	%xmm1, %xmm1
	pxor	%xmm0, %xmm0
	xorl	%r9d, %r9d
	xorl	%edi, %edi
	xorl	%r8d, %r8d
	xorl	%r10d, %r10d
	jmp	586f
868:
	cmpb	$100, 1(%r13)
	jne	247f
	movw	$0, 356(%rsp)
	movl	$0, 352(%rsp)
	cmpq	$5, %r12
	jne	483f
	movq	%r11, 64(%rsp)
	movq	%rsi, 80(%rsp)
	movq	16(%r10), %rsi
	movq	24(%r10), %rdx
	movq	40(%r10), %r8
	movq	32(%r10), %rcx
	movq	56(%r10), %rax
	movq	%r10, 72(%rsp)
	movq	48(%r10), %r9
	movq	%rax, (%rsp)
	leaq	352(%rsp), %rdi
	callq	tc_make.line.read_stream
	movl	354(%rsp), %r9d
	cmpb	$0, 352(%rsp)
	je	859f
	movzbl	353(%rsp), %eax
	movl	%eax, 8(%rsp)
	pxor	%xmm0, %xmm0
	movdqa	%xmm0, 1040(%rsp)
	movb	$1, %r8b
	xorl	%ebp, %ebp
	xorl	%ebx, %ebx
	xorl	%r13d, %r13d
	xorl	%eax, %eax
	xorl	%edi, %edi
	xorl	%edx, %edx
	xorl	%ecx, %ecx
	movq	80(%rsp), %rsi
	movq	32(%rsp), %r15
	movq	72(%rsp), %r10
	movq	64(%rsp), %r11
	testq	%r11, %r11
	jne	699f
	jmp	402f
247:
	pxor	%xmm0, %xmm0
	movdqa	%xmm0, 1488(%rsp)
	movdqa	%xmm0, 1632(%rsp)
	movdqa	%xmm0, 1472(%rsp)
	movdqa	%xmm0, 1616(%rsp)
	movdqa	%xmm0, 1152(%rsp)
	movdqa	%xmm0, 1456(%rsp)
	movdqa	%xmm0, 1600(%rsp)
	movdqa	%xmm0, 1584(%rsp)
	movdqa	%xmm0, 272(%rsp)
	movdqa	%xmm0, 288(%rsp)
	movdqa	%xmm0, 304(%rsp)
	movdqa	%xmm0, 704(%rsp)
	movdqa	%xmm0, 720(%rsp)
	movdqa	%xmm0, 736(%rsp)
	movdqa	%xmm0, 352(%rsp)
	movdqa	%xmm0, 368(%rsp)
	movdqa	%xmm0, 384(%rsp)
	leaq	-2(%rbp), %rax
	cmpq	$7, %rax
	movq	%rsi, 80(%rsp)
	ja	972f
	leaq	.LJa9983fb3_2(%rip), %rcx
	movslq	(%rcx,%rax,4), %rax
	addq	%rcx, %rax
	jmpq	*%rax
552:
	movzbl	(%r13), %ebp
	cmpb	$116, %bpl
	jne	868f
	cmpb	$109, 1(%r13)
	jne	289f
	movb	$1, %r8b
	cmpq	$4, %r12
	jne	652f
	movq	24(%r10), %rcx
	leaq	-6(%rcx), %rax
	movb	$3, %r14b
	cmpq	$-5, %rax
	movq	32(%rsp), %r15
	jae	634f
890:
	xorl	%r12d, %r12d
	jmp	44f
972:
	cmpq	$2, %rbp
	jb	289f
	movzbl	(%r13), %ebp
	jne	198f
868:
	cmpb	$-2, %bpl
	je	868f
	movzbl	%bpl, %eax
	cmpl	$255, %eax
	je	409f
	jmp	289f
678:
	movq	%r11, 64(%rsp)
	movzbl	(%r13), %ebp
	movzbl	1(%r13), %r15d
	movl	%ebp, %eax
	xorb	$114, %al
	movl	%r15d, %ecx
	xorb	$97, %cl
	orb	%al, %cl
	movzbl	2(%r13), %r14d
	movl	%r14d, %eax
	xorb	$110, %al
	orb	%cl, %al
	movzbl	3(%r13), %ebx
	movl	%ebx, %ecx
	xorb	$100, %cl
	orb	%al, %cl
	jne	509f
	movq	%rdx, 16(%rsp)
	leaq	.LTd8c9c952(%rip), %rdx
	movl	$6, %esi
	movq	%r13, %rdi
	movq	%r10, 72(%rsp)
	callq	core.cmp.slices.groups_equal._i8_31_core.cmp.numbers.U8PartialEq
	movq	16(%rsp), %rdx
	movq	72(%rsp), %r10
	testb	%al, %al
	je	509f
	pxor	%xmm0, %xmm0
	movdqa	%xmm0, 432(%rsp)
	movdqa	%xmm0, 416(%rsp)
	cmpq	$1, %r12
	jne	27f
	movq	16(%r10), %rsi
	movq	24(%r10), %rdx
	leaq	416(%rsp), %rdi
	callq	tc_make.line.octets
	movq	72(%rsp), %r10
	movzbl	417(%rsp), %eax
	movzbl	418(%rsp), %r9d
	movl	424(%rsp), %r13d
	movl	428(%rsp), %r12d
	movdqa	432(%rsp), %xmm0
	movdqa	%xmm0, 1616(%rsp)
	cmpb	$0, 416(%rsp)
	movq	32(%rsp), %r15
	jne	110f
	movaps	1616(%rsp), %xmm0
	movaps	%xmm0, 1472(%rsp)
	movb	$8, %bl
	xorl	%eax, %eax
	xorl	%edx, %edx
	xorl	%ebp, %ebp
	movq	$0, 16(%rsp)
	xorl	%r9d, %r9d
	xorl	%r14d, %r14d
	xorl	%r8d, %r8d
	xorl	%ecx, %ecx
	movq	64(%rsp), %r11
	jmp	10f
651:
	cmpl	$1970564195, (%r13)
	jne	389f
	leaq	.LT24883227(%rip), %rdx
	movl	$4, %esi
	movq	%r13, %rdi
	movq	%r10, %rbx
	movq	%r11, %r14
	callq	core.cmp.slices.groups_equal._i8_31_core.cmp.numbers.U8PartialEq
	movq	%r14, %r11
	movq	%rbx, %r10
	testb	%al, %al
	je	289f
	pxor	%xmm0, %xmm0
	movdqa	%xmm0, 432(%rsp)
	movdqa	%xmm0, 416(%rsp)
	cmpq	$1, %r12
	jne	773f
	movq	16(%r10), %rsi
	movq	24(%r10), %rdx
	leaq	416(%rsp), %rdi
	callq	tc_make.line.octets
	movq	%r14, %r11
	movq	%rbx, %r10
	movzbl	417(%rsp), %eax
	movzbl	418(%rsp), %r9d
	movl	424(%rsp), %r13d
	movl	428(%rsp), %r12d
	movdqa	432(%rsp), %xmm0
	movdqa	%xmm0, 1632(%rsp)
	cmpb	$0, 416(%rsp)
	movq	32(%rsp), %r15
	jne	515f
	movaps	1632(%rsp), %xmm0
	movaps	%xmm0, 1488(%rsp)
	movb	$7, %bl
	xorl	%eax, %eax
	xorl	%edx, %edx
	xorl	%ebp, %ebp
	movq	$0, 16(%rsp)
	xorl	%r9d, %r9d
	movl	$0, 8(%rsp)
	xorl	%r8d, %r8d
	xorl	%ecx, %ecx
	jmp	933f
445:
	cmpl	$1868784996, (%r13)
	jne	389f
	leaq	.LT92808575(%rip), %rdx
	movl	$7, %esi
	movq	%r13, %rdi
	movq	%r10, %rbx
	movq	%r11, %r14
	callq	core.cmp.slices.groups_equal._i8_31_core.cmp.numbers.U8PartialEq
	movq	%r14, %r11
	movq	%rbx, %r10
	testb	%al, %al
	je	289f
	movb	$1, %r8b
	cmpq	$2, %r12
	jne	745f
	movq	24(%r10), %rcx
	leaq	-6(%rcx), %rax
	movb	$8, %r9b
	cmpq	$-5, %rax
	movq	32(%rsp), %r15
	jae	759f
83:
	xorl	%r12d, %r12d
	jmp	605f
101:
	cmpl	$1701602676, (%r13)
	jne	389f
	leaq	.LTea4b73ba(%rip), %rdx
	movl	$9, %esi
	movq	%r13, %rdi
	movq	%r10, %rbx
	movq	%r11, %r14
	callq	core.cmp.slices.groups_equal._i8_31_core.cmp.numbers.U8PartialEq
	movq	%r14, %r11
	movq	%rbx, %r10
	testb	%al, %al
	je	289f
	pxor	%xmm0, %xmm0
	movdqa	%xmm0, 432(%rsp)
	movdqa	%xmm0, 416(%rsp)
	cmpq	$1, %r12
	jne	613f
	movq	16(%r10), %rsi
	movq	24(%r10), %rdx
	leaq	416(%rsp), %rdi
	callq	tc_make.line.octets
	movq	%r14, %r11
	movq	%rbx, %r10
	movzbl	417(%rsp), %eax
	movzbl	418(%rsp), %r9d
	movl	424(%rsp), %r13d
	movl	428(%rsp), %r12d
	movdqa	432(%rsp), %xmm0
	movdqa	%xmm0, 1600(%rsp)
	cmpb	$0, 416(%rsp)
	movq	32(%rsp), %r15
	jne	515f
	movaps	1600(%rsp), %xmm0
	movaps	%xmm0, 1456(%rsp)
	movb	$10, %bl
	xorl	%eax, %eax
	xorl	%edx, %edx
	movq	$0, 8(%rsp)
	xorl	%ecx, %ecx
	xorl	%ebp, %ebp
	xorl	%edi, %edi
	xorl	%r8d, %r8d
	xorl	%r14d, %r14d
	xorl	%r9d, %r9d
	movq	$0, 16(%rsp)
	jmp	587f
389:
	movzbl	(%r13), %ebp
198:
	cmpb	$-1, %bpl
	je	409f
	movzbl	%bpl, %eax
	cmpl	$254, %eax
	je	868f
	cmpl	$239, %eax
	jne	289f
	cmpb	$-69, 1(%r13)
	jne	289f
	movb	$1, %r14b
	cmpb	$-65, 2(%r13)
	je	342f
	jmp	289f
509:
	movl	%ebp, %eax
	xorb	$111, %al
	movl	%r15d, %ecx
	xorb	$99, %cl
	orb	%al, %cl
	movl	%r14d, %eax
	xorb	$116, %al
	orb	%cl, %al
	movl	%ebx, %ecx
	xorb	$101, %cl
	orb	%al, %cl
	jne	203f
	movq	%rdx, 16(%rsp)
	leaq	.LT8d98f918(%rip), %rdx
	movl	$6, %esi
	movq	%r13, %rdi
	movq	%r10, 72(%rsp)
	callq	core.cmp.slices.groups_equal._i8_31_core.cmp.numbers.U8PartialEq
	movq	16(%rsp), %rdx
	movq	72(%rsp), %r10
	testb	%al, %al
	je	203f
	leaq	272(%rsp), %rdi
	movq	%rdx, %rsi
	movq	%r12, %rdx
	callq	tc_make.line.piece
	movq	72(%rsp), %r10
	movzbl	272(%rsp), %r8d
	movzbl	273(%rsp), %r14d
	movzbl	274(%rsp), %r9d
	movzbl	280(%rsp), %ebx
	movzbl	281(%rsp), %eax
	movq	%rax, 16(%rsp)
	movq	32(%rsp), %r15
	movq	64(%rsp), %r11
	jmp	389f
868:
	cmpb	$-1, 1(%r13)
	jne	289f
	movb	$1, %r14b
	jmp	342f
409:
	movb	$1, %r14b
	cmpb	$-2, 1(%r13)
	jne	289f
	jmp	342f
203:
	cmpb	$97, %r14b
	jne	868f
	cmpb	$115, %bpl
	jne	868f
	cmpb	$101, %r15b
	jne	868f
	cmpb	$114, %bl
	jne	868f
	movq	%rdx, %r14
	leaq	.LT62caa537(%rip), %rdx
	movl	$6, %esi
	movq	%r13, %rdi
	movq	%r10, %rbx
	callq	core.cmp.slices.groups_equal._i8_31_core.cmp.numbers.U8PartialEq
	movq	%rbx, %r10
	testb	%al, %al
	movq	64(%rsp), %r11
	je	289f
	leaq	704(%rsp), %rdi
	movq	%r14, %rsi
	movq	%r12, %rdx
	callq	tc_make.line.search
	movq	64(%rsp), %r11
	movq	%rbx, %r10
	movzbl	704(%rsp), %r8d
	movzbl	705(%rsp), %r14d
	movzbl	706(%rsp), %r9d
	movzbl	712(%rsp), %ebx
	movzbl	713(%rsp), %ecx
	jmp	771f
868:
	cmpb	$97, %r14b
	jne	209f
	cmpb	$102, %bpl
	movq	64(%rsp), %r11
	jne	198b
	cmpb	$114, %r15b
	jne	198b
	cmpb	$109, %bl
	jne	198b
	movq	%rdx, %r14
	leaq	.LT8e0eaf5d(%rip), %rdx
	movl	$6, %esi
	movq	%r13, %rdi
	movq	%r10, %rbx
	callq	core.cmp.slices.groups_equal._i8_31_core.cmp.numbers.U8PartialEq
	movq	64(%rsp), %r11
	movq	%rbx, %r10
	testb	%al, %al
	je	289f
	leaq	352(%rsp), %rdi
	movq	%r14, %rsi
	movq	%r12, %rdx
	callq	tc_make.line.frames
	movq	64(%rsp), %r11
	movq	%rbx, %r10
	movzbl	352(%rsp), %r8d
	movzbl	353(%rsp), %r14d
	movzbl	354(%rsp), %r9d
	movzbl	360(%rsp), %ebx
	movzbl	361(%rsp), %ecx
	jmp	966f
289:
	xorl	%r14d, %r14d
342:
	pxor	%xmm0, %xmm0
	movdqu	%xmm0, 376(%rsp)
	movdqu	%xmm0, 360(%rsp)
	movq	$0, 392(%rsp)
	movb	$1, %r8b
	xorl	%ecx, %ecx
	xorl	%ebx, %ebx
	xorl	%r9d, %r9d
966:
	movq	392(%rsp), %rax
	movq	%rax, 744(%rsp)
	movdqu	362(%rsp), %xmm0
	movups	378(%rsp), %xmm1
	movups	%xmm1, 730(%rsp)
	movdqu	%xmm0, 714(%rsp)
771:
	movq	32(%rsp), %r15
	movq	%rcx, 16(%rsp)
	movq	744(%rsp), %rax
	movq	%rax, 312(%rsp)
	movdqu	714(%rsp), %xmm0
	movups	730(%rsp), %xmm1
	movups	%xmm1, 298(%rsp)
	movdqu	%xmm0, 282(%rsp)
389:
	movzbl	282(%rsp), %edi
	movzbl	283(%rsp), %edx
	movzbl	284(%rsp), %eax
	movq	%rax, 8(%rsp)
	movzwl	286(%rsp), %ebp
	movl	288(%rsp), %r13d
	movl	292(%rsp), %r12d
	movdqu	296(%rsp), %xmm0
	movdqa	%xmm0, 1584(%rsp)
	movq	312(%rsp), %rax
	movzbl	285(%rsp), %ecx
	shll	$8, %ecx
430:
	movaps	1584(%rsp), %xmm0
	movaps	%xmm0, 1456(%rsp)
587:
	movdqa	1456(%rsp), %xmm0
	movdqa	%xmm0, 1152(%rsp)
389:
	movzbl	%dl, %esi
	shll	$8, %esi
	movzbl	%dil, %edx
	orl	%esi, %edx
	movaps	1152(%rsp), %xmm0
	movaps	%xmm0, 1472(%rsp)
	movzbl	8(%rsp), %esi
	orl	%esi, %ecx
10:
	movl	%r14d, 8(%rsp)
	movaps	1472(%rsp), %xmm0
	movaps	%xmm0, 1488(%rsp)
933:
	movl	%ebp, %esi
	shrl	$8, %esi
	movl	%r13d, %edi
	shrl	$8, %edi
	movl	%r13d, %r14d
	shrl	$24, %r14d
	movdqa	1488(%rsp), %xmm0
	movdqa	%xmm0, 1008(%rsp)
325:
	movw	%dx, 666(%rsp)
	movw	%cx, 668(%rsp)
	movb	%bpl, 670(%rsp)
	movb	%sil, 671(%rsp)
	movb	%r13b, 672(%rsp)
	movw	%di, 673(%rsp)
	movb	%r14b, 675(%rsp)
	movl	%r12d, 676(%rsp)
	movaps	1008(%rsp), %xmm0
	movups	%xmm0, 680(%rsp)
	movq	%rax, 696(%rsp)
	movq	%rax, 488(%rsp)
	movzwl	666(%rsp), %eax
	movw	%ax, 458(%rsp)
	movzwl	668(%rsp), %eax
	movw	%ax, 460(%rsp)
	movzbl	670(%rsp), %eax
	movb	%al, 462(%rsp)
	movzbl	671(%rsp), %eax
	movb	%al, 463(%rsp)
	movzbl	672(%rsp), %eax
	movb	%al, 464(%rsp)
	movzwl	673(%rsp), %eax
	movw	%ax, 465(%rsp)
	movzbl	675(%rsp), %eax
	movb	%al, 467(%rsp)
	movl	676(%rsp), %eax
	movl	%eax, 468(%rsp)
	movzwl	680(%rsp), %eax
	movw	%ax, 472(%rsp)
	movups	682(%rsp), %xmm0
	movups	%xmm0, 474(%rsp)
	movd	458(%rsp), %xmm1
	movzbl	462(%rsp), %eax
	movzbl	463(%rsp), %edi
	movzbl	464(%rsp), %edx
	movzwl	465(%rsp), %ecx
	movq	488(%rsp), %rbp
	testq	%r11, %r11
	je	587f
	movq	%rdi, 96(%rsp)
	movq	%r10, %rdi
	movq	%rbx, 64(%rsp)
	movq	%r8, %rbx
	movq	%rbp, 72(%rsp)
	movq	%r12, 936(%rsp)
	movq	%r15, %r12
	movq	%r9, %r15
	movl	%r14d, 652(%rsp)
	movq	%rcx, %r14
	movl	%edx, %r13d
	movdqa	%xmm1, 256(%rsp)
	movq	%rax, %rbp
	callq	rattle_dealloc@PLT
	movq	96(%rsp), %rdi
	movq	%rbp, %rax
	movdqa	256(%rsp), %xmm1
	movl	%r13d, %edx
	movq	%r14, %rcx
	movl	652(%rsp), %r14d
	movq	%r15, %r9
	movq	%r12, %r15
	movq	936(%rsp), %r12
	movq	72(%rsp), %rbp
	movq	%rbx, %r8
	movq	64(%rsp), %rbx
587:
	movdqa	1008(%rsp), %xmm0
	movdqa	%xmm0, 848(%rsp)
	movq	80(%rsp), %rsi
	movq	16(%rsp), %r13
15:
	testb	%r8b, %r8b
	je	668f
413:
	movzbl	8(%rsp), %esi
	movzbl	%r9b, %edx
	leaq	112(%rsp), %rdi
	movq	%r15, %rcx
	callq	tc_make.printed.write_bad._5349ec06ad6c886c
	jmp	413f
668:
	movb	%bl, 608(%rsp)
	movb	%r13b, 609(%rsp)
	movd	%xmm1, 610(%rsp)
	movb	%al, 614(%rsp)
	movb	%dil, 615(%rsp)
	movb	%dl, 616(%rsp)
	movw	%cx, 617(%rsp)
	movb	%r14b, 619(%rsp)
	movl	%r12d, 620(%rsp)
	movdqa	848(%rsp), %xmm0
	movdqa	%xmm0, 624(%rsp)
	movq	%rbp, 640(%rsp)
	leaq	112(%rsp), %rdi
	leaq	608(%rsp), %rdx
	movq	%r15, %rcx
	callq	tc_make.answer.answer._5349ec06ad6c886c
	movzbl	%bl, %eax
	leaq	.LJa9983fb3_3(%rip), %rcx
	movslq	(%rcx,%rax,4), %rax
	addq	%rcx, %rax
	jmpq	*%rax
489:
	cmpq	$0, 632(%rsp)
	je	413f
	movq	616(%rsp), %rdi
271:
	callq	rattle_dealloc@PLT
413:
	movzbl	112(%rsp), %eax
	movsd	120(%rsp), %xmm0
	movl	124(%rsp), %ecx
	movaps	128(%rsp), %xmm1
	movaps	192(%rsp), %xmm2
	movaps	176(%rsp), %xmm3
	movaps	160(%rsp), %xmm4
	movaps	144(%rsp), %xmm5
	movaps	%xmm5, 768(%rsp)
	movaps	%xmm4, 784(%rsp)
	movaps	%xmm3, 800(%rsp)
	movaps	%xmm2, 816(%rsp)
	movaps	%xmm2, 1248(%rsp)
	movaps	%xmm3, 1232(%rsp)
	movaps	%xmm4, 1216(%rsp)
	movaps	%xmm5, 1200(%rsp)
	movq	56(%rsp), %r12
	testb	%al, %al
	je	22f
519:
	movw	$1, (%r12)
	movss	%xmm0, 8(%r12)
	movl	%ecx, 12(%r12)
	movups	%xmm1, 16(%r12)
	movaps	1200(%rsp), %xmm0
	movaps	1216(%rsp), %xmm1
	movaps	1232(%rsp), %xmm2
	movaps	1248(%rsp), %xmm3
	jmp	464f
211:
	testq	%rbp, %rbp
	je	413b
	movq	624(%rsp), %rdi
	jmp	271b
57:
	xorl	%r15d, %r15d
394:
	movb	$1, %r10b
	subq	%r15, %rbx
	je	12b
	addq	%r15, %rdi
	cmpq	$63, %rbx
	movq	%rdi, 72(%rsp)
	ja	966f
	movq	%rcx, %r9
	subq	%r12, %r9
	subq	%r15, %r9
	subq	%r13, %r9
	xorl	%eax, %eax
	movq	80(%rsp), %rsi
	jmp	553f
629:
	incq	%rax
	cmpq	%rax, %r9
	je	710f
553:
	movzbl	(%rdi,%rax), %r8d
	cmpq	$32, %r8
	ja	629b
	btq	%r8, %r14
	jae	629b
	jmp	778f
27:
	movb	$9, %r9b
	movb	$2, %al
	movq	32(%rsp), %r15
110:
	movl	%eax, 8(%rsp)
	pxor	%xmm0, %xmm0
	movdqa	%xmm0, 1008(%rsp)
	movb	$1, %r8b
	xorl	%r12d, %r12d
	xorl	%ebx, %ebx
	movq	$0, 16(%rsp)
	xorl	%edx, %edx
	xorl	%ecx, %ecx
	xorl	%ebp, %ebp
	xorl	%esi, %esi
	xorl	%r13d, %r13d
	xorl	%edi, %edi
	xorl	%r14d, %r14d
	xorl	%eax, %eax
	movq	64(%rsp), %r11
	jmp	325b
652:
	movb	$10, %r9b
	movb	$2, %r14b
	xorl	%r12d, %r12d
	xorl	%eax, %eax
	xorl	%ebx, %ebx
	movq	$0, 16(%rsp)
	xorl	%edi, %edi
	xorl	%edx, %edx
	movq	$0, 8(%rsp)
	xorl	%ecx, %ecx
	xorl	%ebp, %ebp
	xorl	%r13d, %r13d
	movq	32(%rsp), %r15
	jmp	389b
773:
	movb	$8, %r9b
	jmp	409f
745:
	movb	$12, %r9b
	movb	$2, %r14b
	xorl	%r12d, %r12d
	xorl	%eax, %eax
	xorl	%edx, %edx
	movq	$0, 8(%rsp)
	xorl	%ecx, %ecx
	xorl	%ebp, %ebp
	xorl	%r13d, %r13d
	xorl	%ebx, %ebx
	movq	$0, 16(%rsp)
	xorl	%edi, %edi
	movq	32(%rsp), %r15
	jmp	430b
613:
	movb	$11, %r9b
409:
	movb	$2, %al
	movq	32(%rsp), %r15
515:
	movl	%eax, 8(%rsp)
	pxor	%xmm0, %xmm0
	movdqa	%xmm0, 1008(%rsp)
	movb	$1, %r8b
	xorl	%r12d, %r12d
	xorl	%ebx, %ebx
	movq	$0, 16(%rsp)
	xorl	%edx, %edx
	xorl	%ecx, %ecx
	xorl	%ebp, %ebp
	xorl	%esi, %esi
	xorl	%r13d, %r13d
	xorl	%edi, %edi
	xorl	%r14d, %r14d
	xorl	%eax, %eax
	jmp	325b
657:
	xorl	%r15d, %r15d
226:
	movb	$1, %r10b
	subq	%r15, %rbx
	je	12b
	addq	%r15, %rdi
	cmpq	$63, %rbx
	movq	%rdi, 72(%rsp)
	ja	771f
	movq	%rcx, %r9
	subq	%r12, %r9
	subq	%r15, %r9
	subq	%r13, %r9
	xorl	%eax, %eax
	movq	80(%rsp), %rsi
	jmp	553f
629:
	incq	%rax
	cmpq	%rax, %r9
	je	422f
553:
	movzbl	(%rdi,%rax), %r8d
	cmpq	$32, %r8
	ja	629b
	btq	%r8, %r14
	jae	629b
	jmp	571f
966:
	movq	%rbx, %rsi
	callq	tc_lines.word.long_word_length
	movq	16(%rsp), %rcx
	movq	8(%rsp), %rdx
	movq	80(%rsp), %rsi
778:
	cmpq	%rax, %rbx
	je	917f
71:
	leaq	(%r12,%rax), %rdi
	movq	%rcx, %r8
	subq	%r13, %r8
	subq	%r15, %r8
	leaq	(%r15,%r13), %r9
	leaq	(%rdx,%r9), %r10
553:
	movzbl	(%r10,%rdi), %r11d
	cmpq	$32, %r11
	ja	505f
	btq	%r11, %r14
	jae	505f
	incq	%rdi
	cmpq	%rdi, %r8
	jne	553b
917:
	leaq	-6(%rax), %rdi
	movb	$2, %r10b
	cmpq	$-5, %rdi
	jb	12b
	testq	%rax, %rax
	je	928f
	movq	72(%rsp), %r9
	movzbl	(%r9), %edi
	addb	$-48, %dil
	cmpb	$9, %dil
	ja	12b
	cmpq	$1, %rax
	jne	782f
509:
	movl	%eax, %edi
	andl	$3, %edi
	cmpq	$4, %rax
	movq	%rbp, 64(%rsp)
	jae	610f
	xorl	%r11d, %r11d
	xorl	%r8d, %r8d
	jmp	850f
442:
	movzbl	121(%rsp), %r8d
	movd	122(%rsp), %xmm0
	movzwl	126(%rsp), %r10d
	movb	$5, %r9b
	movdqa	128(%rsp), %xmm1
	xorl	%r13d, %r13d
	xorl	%eax, %eax
586:
	movq	80(%rsp), %rsi
	movq	8(%rsp), %rdx
	movq	16(%rsp), %rcx
	movq	56(%rsp), %r12
	movq	32(%rsp), %r15
378:
	xorl	%r11d, %r11d
	xorl	%ebp, %ebp
1:
	testb	%r13b, %r13b
	je	289f
	pxor	%xmm0, %xmm0
	movdqa	%xmm0, 400(%rsp)
	movdqa	%xmm0, 384(%rsp)
	movdqa	%xmm0, 368(%rsp)
	movdqa	%xmm0, 352(%rsp)
	movzbl	%al, %r13d
	leaq	.Lswitch.table.tc_session.engine.Engine.answer._5349ec06ad6c886c(%rip), %rax
	movq	(%rax,%r13,8), %r10
	leaq	.Lswitch.table.tc_session.engine.Engine.answer._5349ec06ad6c886c_.630.rel(%rip), %rax
	movslq	(%rax,%r13,4), %rsi
	addq	%rax, %rsi
	leaq	.LTb42bdd72(%rip), %r8
	movl	$46, %r9d
	leaq	.LJa9983fb3_8(%rip), %rax
	movslq	(%rax,%r13,4), %rdi
	addq	%rax, %rdi
	jmpq	*%rdi
289:
	xorl	%eax, %eax
	movzbl	%r9b, %edx
	leaq	.LJa9983fb3_7(%rip), %r9
	movslq	(%r9,%rdx,4), %rdx
	addq	%r9, %rdx
	jmpq	*%rdx
471:
	movzwl	10(%rsi), %eax
	movw	%ax, 112(%rsp)
	cmpb	$1, 16(%rsi)
	jne	586f
966:
	movq	40(%rsi), %rax
	movb	$8, %r13b
	testq	%rax, %rax
	je	289f
	movq	32(%rsi), %rcx
868:
	cmpb	%r11b, (%rcx)
	je	325f
	addq	$272, %rcx
	decq	%rax
	jne	868b
289:
	xorl	%r11d, %r11d
	xorl	%ebp, %ebp
	jmp	342f
325:
	movw	%bp, 264(%rcx)
	movb	$6, %r13b
342:
	pxor	%xmm0, %xmm0
	movdqu	%xmm0, 324(%rsp)
	movdqu	%xmm0, 308(%rsp)
	movdqu	%xmm0, 292(%rsp)
	movdqu	%xmm0, 276(%rsp)
	jmp	652f
771:
	movq	%rbx, %rsi
	callq	tc_lines.word.long_word_length
	movq	16(%rsp), %rcx
	movq	8(%rsp), %rdx
	movq	80(%rsp), %rsi
571:
	cmpq	%rax, %rbx
	je	661f
359:
	leaq	(%r12,%rax), %rdi
	movq	%rcx, %r8
	subq	%r13, %r8
	subq	%r15, %r8
	leaq	(%r15,%r13), %r9
	leaq	(%rdx,%r9), %r10
553:
	movzbl	(%r10,%rdi), %r11d
	cmpq	$32, %r11
	ja	356f
	btq	%r11, %r14
	jae	356f
	incq	%rdi
	cmpq	%rdi, %r8
	jne	553b
661:
	leaq	-6(%rax), %rdi
	movb	$2, %r10b
	cmpq	$-5, %rdi
	jb	12b
	testq	%rax, %rax
	je	271f
	movq	72(%rsp), %r9
	movzbl	(%r9), %edi
	addb	$-48, %dil
	cmpb	$9, %dil
	ja	12b
	cmpq	$1, %rax
	jne	212f
10:
	movl	%eax, %edi
	andl	$3, %edi
	cmpq	$4, %rax
	movq	%rbp, 64(%rsp)
	jae	748f
	xorl	%r11d, %r11d
	xorl	%r8d, %r8d
	jmp	757f
913:
	movq	136(%rsp), %r9
	movq	144(%rsp), %r10
	movq	152(%rsp), %rdi
	movq	160(%rsp), %rbx
	testq	%r15, %r15
	je	57f
	movq	120(%rsp), %r11
	movzbl	(%r11), %ecx
	addb	$-48, %cl
	cmpb	$9, %cl
	movq	8(%rsp), %rdx
	movq	16(%rsp), %rcx
	movq	56(%rsp), %r12
	ja	855f
	movq	%rbx, 72(%rsp)
	cmpq	$1, %r15
	jne	442f
933:
	movl	%r15d, %ebx
	andl	$3, %ebx
	cmpq	$4, %r15
	jae	23f
	xorl	%r8d, %r8d
	xorl	%r12d, %r12d
	jmp	793f
771:
	movq	816(%rsp), %r14
	movq	832(%rsp), %rbx
	cmpq	$0, 808(%rsp)
	je	47f
	movq	792(%rsp), %rdi
	callq	rattle_dealloc@PLT
47:
	testq	%rbx, %rbx
	je	680b
	movq	%r14, %rdi
860:
	callq	rattle_dealloc@PLT
	jmp	680b
586:
	movq	%r11, 96(%rsp)
	movq	%rsi, %rbx
	addq	$16, %rsi
	leaq	112(%rsp), %rdi
	callq	tc_rack.performing.begin_anew._ecad586609b5e68f
	testb	%al, %al
	jne	10f
	movq	%rbx, %rsi
	cmpb	$1, 16(%rbx)
	movq	96(%rsp), %r11
	je	966b
	jmp	214f
209:
	movq	64(%rsp), %r11
	jmp	198b
634:
	xorl	%r12d, %r12d
	testq	%rcx, %rcx
	je	657f
	movq	16(%r10), %rax
	movzbl	(%rax), %edx
	addb	$-48, %dl
	cmpb	$9, %dl
	ja	44f
	cmpq	$1, %rcx
	jne	78f
110:
	movl	%ecx, %edx
	andl	$3, %edx
	cmpq	$4, %rcx
	jae	838f
	xorl	%edi, %edi
	xorl	%esi, %esi
	jmp	822f
44:
	xorl	%eax, %eax
	xorl	%r9d, %r9d
289:
	xorl	%ebx, %ebx
	movq	$0, 16(%rsp)
	xorl	%edi, %edi
	xorl	%edx, %edx
	movq	$0, 8(%rsp)
	xorl	%ecx, %ecx
	xorl	%ebp, %ebp
	xorl	%r13d, %r13d
	jmp	389b
759:
	xorl	%r12d, %r12d
	testq	%rcx, %rcx
	je	378f
	movq	16(%r10), %rax
	movzbl	(%rax), %edx
	addb	$-48, %dl
	cmpb	$9, %dl
	ja	605f
	cmpq	$1, %rcx
	jne	199f
515:
	movl	%ecx, %edx
	andl	$3, %edx
	cmpq	$4, %rcx
	jae	80f
	xorl	%r12d, %r12d
	xorl	%esi, %esi
	jmp	194f
605:
	xorl	%eax, %eax
	xorl	%edx, %edx
	movq	$0, 8(%rsp)
	xorl	%ecx, %ecx
	xorl	%ebp, %ebp
	xorl	%r13d, %r13d
	xorl	%ebx, %ebx
	movq	$0, 16(%rsp)
	xorl	%edi, %edi
	movb	$3, %r14b
	jmp	430b
469:
	movdqa	%xmm1, 1024(%rsp)
	movb	$2, %al
	movl	%eax, 8(%rsp)
	movb	$1, %r8b
	xorl	%r12d, %r12d
	xorl	%r14d, %r14d
	xorl	%r9d, %r9d
	xorl	%ebx, %ebx
	xorl	%edx, %edx
	xorl	%ecx, %ecx
	movq	32(%rsp), %r15
	testq	%r11, %r11
	je	587f
966:
	movq	%r10, %rdi
	movq	%r12, 936(%rsp)
	movq	%r8, %r12
	movq	%rbx, %rbp
	movq	%r9, %rbx
	movq	%rcx, %r13
	movl	%r14d, 652(%rsp)
	movl	%edx, %r14d
	movdqa	%xmm1, 256(%rsp)
	callq	rattle_dealloc@PLT
	movdqa	256(%rsp), %xmm1
	movl	%r14d, %edx
	movl	652(%rsp), %r14d
	movq	%r13, %rcx
	movq	%rbx, %r9
	movq	%rbp, %rbx
	movq	%r12, %r8
	movq	936(%rsp), %r12
	movq	80(%rsp), %rsi
587:
	movdqa	1024(%rsp), %xmm0
	movdqa	%xmm0, 848(%rsp)
	xorl	%r13d, %r13d
	xorl	%eax, %eax
	xorl	%edi, %edi
	xorl	%ebp, %ebp
	jmp	15b
589:
	movq	%rbp, 64(%rsp)
	xorl	%r11d, %r11d
	movq	56(%rsp), %r12
	movq	32(%rsp), %r15
	jmp	68f
980:
	subq	%rdi, %r8
	je	219b
	cmpq	$64, %r8
	movq	56(%rsp), %r12
	movq	32(%rsp), %r15
	movb	$1, %r10b
	jb	343b
	addq	%rdx, %rdi
	addq	%r9, %rdi
	movq	%r8, %rsi
	callq	tc_lines.word.long_word_length
	movq	16(%rsp), %rcx
	movq	8(%rsp), %rdx
	movb	$1, %al
	pxor	%xmm0, %xmm0
	movdqa	%xmm0, 400(%rsp)
	movdqa	%xmm0, 384(%rsp)
	movdqa	%xmm0, 368(%rsp)
	movdqa	%xmm0, 352(%rsp)
	movzbl	%al, %r13d
	leaq	.Lswitch.table.tc_session.engine.Engine.answer._5349ec06ad6c886c(%rip), %rax
	movq	(%rax,%r13,8), %r10
	leaq	.Lswitch.table.tc_session.engine.Engine.answer._5349ec06ad6c886c_.630.rel(%rip), %rax
	movslq	(%rax,%r13,4), %rsi
	addq	%rax, %rsi
	leaq	.LTb42bdd72(%rip), %r8
	movl	$46, %r9d
	leaq	.LJa9983fb3_8(%rip), %rax
	movslq	(%rax,%r13,4), %rdi
	addq	%rax, %rdi
	jmpq	*%rdi
804:
	subq	%r12, %rsi
	je	740b
	cmpq	$64, %rsi
	jb	342f
	addq	%rdx, %r12
	addq	%rbp, %r12
	movq	%r12, %rdi
	callq	tc_lines.word.long_word_length
	movq	16(%rsp), %rcx
	movq	8(%rsp), %rdx
342:
	pxor	%xmm1, %xmm1
	pxor	%xmm0, %xmm0
	xorl	%r9d, %r9d
	movb	$1, %al
	xorl	%edi, %edi
	xorl	%r8d, %r8d
	xorl	%r10d, %r10d
	movq	80(%rsp), %rsi
	movq	56(%rsp), %r12
	movq	32(%rsp), %r15
	movb	$1, %r13b
	jmp	378b
647:
	movl	1176(%rsp), %edx
	leaq	1184(%rsp), %r12
	movl	%edx, %ecx
	shrl	$8, %ecx
	movl	%edx, %r14d
	shrl	$24, %r14d
	testq	%rbx, %rbx
	je	647f
	movq	%r15, %rdi
	movq	%rcx, %rbx
	movl	%edx, %ebp
	callq	rattle_dealloc@PLT
	movl	%ebp, %edx
	movq	%rbx, %rcx
647:
	movl	1180(%rsp), %eax
	movdqu	(%r12), %xmm0
	movq	%rax, %r12
	movdqa	%xmm0, 848(%rsp)
	movb	$6, %bl
	movq	80(%rsp), %rsi
	jmp	928b
866:
	movzbl	1064(%rsp), %edx
	movzwl	1065(%rsp), %ecx
	testq	%r15, %r15
	movq	32(%rsp), %r15
	je	553f
	movq	%r14, %rdi
	movq	%rcx, %r14
	movl	%edx, %ebp
	callq	rattle_dealloc@PLT
	movl	%ebp, %edx
	movq	%r14, %rcx
553:
	movzbl	1067(%rsp), %r14d
	movl	1068(%rsp), %r12d
	movdqa	1072(%rsp), %xmm0
	movdqa	%xmm0, 848(%rsp)
	movq	80(%rsp), %rsi
	movb	$5, %bl
	jmp	483b
928:
	movq	%rbp, 64(%rsp)
	xorl	%r11d, %r11d
	movq	56(%rsp), %r12
	movq	32(%rsp), %r15
	jmp	342f
594:
	movq	%rbx, %rax
	cmpq	%rax, %rbx
	jne	669b
	jmp	219b
600:
	movq	%rbx, %rax
	cmpq	%rax, %rbx
	jne	850b
	jmp	740b
505:
	subq	%rdi, %r8
	je	917b
	cmpq	$64, %r8
	movq	56(%rsp), %r12
	movq	32(%rsp), %r15
	movb	$1, %r10b
	jb	343b
	addq	%rdx, %rdi
	addq	%r9, %rdi
	movq	%r8, %rsi
	callq	tc_lines.word.long_word_length
	movq	16(%rsp), %rcx
	movq	8(%rsp), %rdx
	movb	$1, %al
	pxor	%xmm0, %xmm0
	movdqa	%xmm0, 400(%rsp)
	movdqa	%xmm0, 384(%rsp)
	movdqa	%xmm0, 368(%rsp)
	movdqa	%xmm0, 352(%rsp)
	movzbl	%al, %r13d
	leaq	.Lswitch.table.tc_session.engine.Engine.answer._5349ec06ad6c886c(%rip), %rax
	movq	(%rax,%r13,8), %r10
	leaq	.Lswitch.table.tc_session.engine.Engine.answer._5349ec06ad6c886c_.630.rel(%rip), %rax
	movslq	(%rax,%r13,4), %rsi
	addq	%rax, %rsi
	leaq	.LTb42bdd72(%rip), %r8
	movl	$46, %r9d
	leaq	.LJa9983fb3_8(%rip), %rax
	movslq	(%rax,%r13,4), %rdi
	addq	%rax, %rdi
	jmpq	*%rdi
483:
	pxor	%xmm0, %xmm0
	movdqa	%xmm0, 1040(%rsp)
	movb	$2, %al
	movl	%eax, 8(%rsp)
	movb	$1, %r8b
	xorl	%ebp, %ebp
	movb	$1, %r9b
	xorl	%ebx, %ebx
	xorl	%r13d, %r13d
	xorl	%eax, %eax
	xorl	%edi, %edi
	xorl	%edx, %edx
	xorl	%ecx, %ecx
	movq	32(%rsp), %r15
	testq	%r11, %r11
	je	402f
699:
	movq	%rdi, 96(%rsp)
	movq	%r10, %rdi
	movq	%r13, 256(%rsp)
	movq	%rsi, %r14
	movq	%rbx, 64(%rsp)
	movq	%r8, %rbx
	movq	%r9, 16(%rsp)
	movq	%rcx, %r13
	movq	%rbp, 72(%rsp)
	movl	%edx, %ebp
	movq	%rax, %r12
	callq	rattle_dealloc@PLT
	movq	96(%rsp), %rdi
	movq	%r12, %rax
	movl	%ebp, %edx
	movq	72(%rsp), %rbp
	movq	%r13, %rcx
	movq	16(%rsp), %r9
	movq	%rbx, %r8
	movq	64(%rsp), %rbx
	movq	%r14, %rsi
	movq	256(%rsp), %r13
402:
	movdqa	1040(%rsp), %xmm0
	pxor	%xmm1, %xmm1
	pinsrw	$1, %r13d, %xmm1
	movdqa	%xmm0, 848(%rsp)
	xorl	%r12d, %r12d
	xorl	%r14d, %r14d
	xorl	%r13d, %r13d
	jmp	15b
57:
	xorl	%r13d, %r13d
	movq	8(%rsp), %rdx
	movq	16(%rsp), %rcx
	movq	56(%rsp), %r12
	jmp	669f
271:
	movq	%rbp, 64(%rsp)
	xorl	%r11d, %r11d
	movq	56(%rsp), %r12
	movq	32(%rsp), %r15
	jmp	483f
356:
	subq	%rdi, %r8
	je	661b
	cmpq	$64, %r8
	movq	56(%rsp), %r12
	movq	32(%rsp), %r15
	movb	$1, %r10b
	jb	343b
	addq	%rdx, %rdi
	addq	%r9, %rdi
	movq	%r8, %rsi
	callq	tc_lines.word.long_word_length
	movq	16(%rsp), %rcx
	movq	8(%rsp), %rdx
	movb	$1, %al
	pxor	%xmm0, %xmm0
	movdqa	%xmm0, 400(%rsp)
	movdqa	%xmm0, 384(%rsp)
	movdqa	%xmm0, 368(%rsp)
	movdqa	%xmm0, 352(%rsp)
	movzbl	%al, %r13d
	leaq	.Lswitch.table.tc_session.engine.Engine.answer._5349ec06ad6c886c(%rip), %rax
	movq	(%rax,%r13,8), %r10
	leaq	.Lswitch.table.tc_session.engine.Engine.answer._5349ec06ad6c886c_.630.rel(%rip), %rax
	movslq	(%rax,%r13,4), %rsi
	addq	%rax, %rsi
	leaq	.LTb42bdd72(%rip), %r8
	movl	$46, %r9d
	leaq	.LJa9983fb3_8(%rip), %rax
	movslq	(%rax,%r13,4), %rdi
	addq	%rax, %rdi
	jmpq	*%rdi
710:
	movq	%rbx, %rax
	cmpq	%rax, %rbx
	jne	71b
	jmp	917b
422:
	movq	%rbx, %rax
	cmpq	%rax, %rbx
	jne	359b
	jmp	661b
657:
	xorl	%edi, %edi
	jmp	649f
378:
	xorl	%r12d, %r12d
	jmp	385f
976:
	movzbl	1(%r9), %edi
	addb	$-48, %dil
	cmpb	$9, %dil
	ja	12b
	cmpq	$2, %rax
	je	434b
	movzbl	2(%r9), %ecx
	addb	$-48, %cl
	cmpb	$9, %cl
	ja	859b
	movq	%rbp, %r8
	movq	%rsi, %rdi
	cmpq	$3, %rax
	movq	8(%rsp), %rdx
	movq	16(%rsp), %rcx
	je	434b
	movq	%r9, %r10
	movzbl	3(%r9), %ecx
	addb	$-48, %cl
	cmpb	$9, %cl
	ja	863f
	cmpq	$4, %rax
	movq	%rdi, %rsi
	movq	8(%rsp), %rdx
	movq	16(%rsp), %rcx
	movq	%r8, %rbp
	je	434b
	movzbl	4(%r10), %ecx
	addb	$-48, %cl
	cmpb	$9, %cl
	ja	863f
	cmpq	$5, %rax
	movq	%rdi, %rsi
	movq	8(%rsp), %rdx
	movq	16(%rsp), %rcx
	movq	%r8, %rbp
	movb	$2, %r10b
	je	434b
	jmp	12b
782:
	movzbl	1(%r9), %edi
	addb	$-48, %dil
	cmpb	$9, %dil
	ja	12b
	cmpq	$2, %rax
	je	509b
	movzbl	2(%r9), %ecx
	addb	$-48, %cl
	cmpb	$9, %cl
	ja	859b
	movq	%rbp, %r8
	movq	%rsi, %rdi
	cmpq	$3, %rax
	movq	8(%rsp), %rdx
	movq	16(%rsp), %rcx
	je	509b
	movq	%r9, %r10
	movzbl	3(%r9), %ecx
	addb	$-48, %cl
	cmpb	$9, %cl
	ja	863f
	cmpq	$4, %rax
	movq	%rdi, %rsi
	movq	8(%rsp), %rdx
	movq	16(%rsp), %rcx
	movq	%r8, %rbp
	je	509b
	movzbl	4(%r10), %ecx
	addb	$-48, %cl
	cmpb	$9, %cl
	ja	863f
	cmpq	$5, %rax
	movq	%rdi, %rsi
	movq	8(%rsp), %rdx
	movq	16(%rsp), %rcx
	movq	%r8, %rbp
	movb	$2, %r10b
	je	509b
	jmp	12b
523:
	andl	$4, %eax
	leaq	(%r12,%r13), %r8
	addq	%r15, %r8
	leaq	(%rdx,%r8), %r9
	addq	$3, %r9
	xorl	%r11d, %r11d
	xorl	%r8d, %r8d
373:
	leal	(%r11,%r11,4), %r10d
	movzbl	-3(%r9,%r8), %r11d
	movzbl	-2(%r9,%r8), %ebx
	addb	$-48, %r11b
	movzbl	%r11b, %r11d
	leal	(%r11,%r10,2), %r10d
	leal	(%r10,%r10,4), %r10d
	addb	$-48, %bl
	movzbl	%bl, %r11d
	leal	(%r11,%r10,2), %r10d
	leal	(%r10,%r10,4), %r10d
	movzbl	-1(%r9,%r8), %r11d
	addb	$-48, %r11b
	movzbl	%r11b, %r11d
	leal	(%r11,%r10,2), %r10d
	leal	(%r10,%r10,4), %r10d
	movzbl	(%r9,%r8), %r11d
	addb	$-48, %r11b
	movzbl	%r11b, %r11d
	leal	(%r11,%r10,2), %r11d
	addq	$4, %r8
	cmpq	%r8, %rax
	jne	373b
	testq	%rdi, %rdi
	je	928f
880:
	addq	%r13, %r12
	addq	%r15, %r12
	addq	%rdx, %r8
	addq	%r12, %r8
	xorl	%eax, %eax
373:
	leal	(%r11,%r11,4), %r9d
	movzbl	(%r8,%rax), %r10d
	addb	$-48, %r10b
	movzbl	%r10b, %r10d
	leal	(%r10,%r9,2), %r11d
	incq	%rax
	cmpq	%rax, %rdi
	jne	373b
928:
	movq	%rbp, 64(%rsp)
	cmpl	$255, %r11d
	movq	56(%rsp), %r12
	movq	32(%rsp), %r15
	movb	$2, %r10b
	ja	343b
68:
	pxor	%xmm1, %xmm1
	pxor	%xmm0, %xmm0
	movb	$2, %dl
	xorl	%eax, %eax
	xorl	%ebp, %ebp
	movzbl	%dl, %edx
	leaq	.LJa9983fb3_7(%rip), %rdi
	movslq	(%rdi,%rdx,4), %rdx
	addq	%rdi, %rdx
	xorl	%r8d, %r8d
	xorl	%edi, %edi
	xorl	%r10d, %r10d
	jmpq	*%rdx
442:
	movzbl	1(%r11), %ebx
	addb	$-48, %bl
	cmpb	$9, %bl
	ja	855f
	cmpq	$2, %r15
	je	933b
	movq	%rsi, %rbx
	movzbl	2(%r11), %ecx
	addb	$-48, %cl
	cmpb	$9, %cl
	ja	605f
	cmpq	$3, %r15
	movq	%rbx, %rsi
	movq	8(%rsp), %rdx
	movq	16(%rsp), %rcx
	je	933b
	movzbl	3(%r11), %ecx
	addb	$-48, %cl
	cmpb	$9, %cl
	ja	605f
	cmpq	$4, %r15
	movq	%rbx, %rsi
	movq	8(%rsp), %rdx
	movq	16(%rsp), %rcx
	movq	56(%rsp), %r12
	movb	$1, %r13b
	je	933b
	movzbl	4(%r11), %ebx
	addb	$-48, %bl
	cmpb	$10, %bl
	setb	%bl
	cmpq	$5, %r15
	sete	%bpl
	testb	%bpl, %bl
	jne	933b
855:
	xorl	%r9d, %r9d
	xorl	%r11d, %r11d
	xorl	%ebp, %ebp
	jmp	961b
212:
	movzbl	1(%r9), %edi
	addb	$-48, %dil
	cmpb	$9, %dil
	ja	12b
	cmpq	$2, %rax
	je	10b
	movzbl	2(%r9), %ecx
	addb	$-48, %cl
	cmpb	$9, %cl
	ja	859b
	movq	%rbp, %r8
	movq	%rsi, %rdi
	cmpq	$3, %rax
	movq	8(%rsp), %rdx
	movq	16(%rsp), %rcx
	je	10b
	movq	%r9, %r10
	movzbl	3(%r9), %ecx
	addb	$-48, %cl
	cmpb	$9, %cl
	ja	863f
	cmpq	$4, %rax
	movq	%rdi, %rsi
	movq	8(%rsp), %rdx
	movq	16(%rsp), %rcx
	movq	%r8, %rbp
	je	10b
	movzbl	4(%r10), %ecx
	addb	$-48, %cl
	cmpb	$9, %cl
	ja	863f
	cmpq	$5, %rax
	movq	%rdi, %rsi
	movq	8(%rsp), %rdx
	movq	16(%rsp), %rcx
	movq	%r8, %rbp
	movb	$2, %r10b
	je	10b
	jmp	12b
859:
	movq	72(%rsp), %r10
	movq	64(%r10), %r14
	movq	72(%r10), %rbx
	cmpq	$5, %rbx
	jne	435f
	cmpl	$1767992432, (%r14)
	jne	759f
	leaq	.LTb1732992(%rip), %rdx
	movl	$5, %esi
	movq	%r14, %rdi
	movq	%r9, %r15
	callq	core.cmp.slices.groups_equal._i8_31_core.cmp.numbers.U8PartialEq
	movq	%r15, %r9
	movq	72(%rsp), %r10
	testb	%al, %al
	je	759f
	xorl	%ebp, %ebp
	xorl	%r14d, %r14d
	jmp	505f
610:
	andl	$4, %eax
	leaq	(%r12,%r13), %r8
	addq	%r15, %r8
	leaq	(%rdx,%r8), %r9
	addq	$3, %r9
	xorl	%r11d, %r11d
	xorl	%r8d, %r8d
373:
	leal	(%r11,%r11,4), %r10d
	movzbl	-3(%r9,%r8), %r11d
	movzbl	-2(%r9,%r8), %ebx
	addb	$-48, %r11b
	movzbl	%r11b, %r11d
	leal	(%r11,%r10,2), %r10d
	leal	(%r10,%r10,4), %r10d
	addb	$-48, %bl
	movzbl	%bl, %r11d
	leal	(%r11,%r10,2), %r10d
	leal	(%r10,%r10,4), %r10d
	movzbl	-1(%r9,%r8), %r11d
	addb	$-48, %r11b
	movzbl	%r11b, %r11d
	leal	(%r11,%r10,2), %r10d
	leal	(%r10,%r10,4), %r10d
	movzbl	(%r9,%r8), %r11d
	addb	$-48, %r11b
	movzbl	%r11b, %r11d
	leal	(%r11,%r10,2), %r11d
	addq	$4, %r8
	cmpq	%r8, %rax
	jne	373b
	testq	%rdi, %rdi
	je	311f
850:
	addq	%r13, %r12
	addq	%r15, %r12
	addq	%rdx, %r8
	addq	%r12, %r8
	xorl	%eax, %eax
373:
	leal	(%r11,%r11,4), %r9d
	movzbl	(%r8,%rax), %r10d
	addb	$-48, %r10b
	movzbl	%r10b, %r10d
	leal	(%r10,%r9,2), %r11d
	incq	%rax
	cmpq	%rax, %rdi
	jne	373b
311:
	cmpl	$255, %r11d
	movq	56(%rsp), %r12
	movq	32(%rsp), %r15
	movb	$2, %r10b
	ja	343b
342:
	pxor	%xmm1, %xmm1
	pxor	%xmm0, %xmm0
	movb	$3, %dl
	xorl	%eax, %eax
	xorl	%ebp, %ebp
	movzbl	%dl, %edx
	leaq	.LJa9983fb3_7(%rip), %rdi
	movslq	(%rdi,%rdx,4), %rdx
	addq	%rdi, %rdx
	xorl	%r8d, %r8d
	xorl	%edi, %edi
	xorl	%r10d, %r10d
	jmpq	*%rdx
905:
	xorl	%r12d, %r12d
	jmp	978f
78:
	movzbl	1(%rax), %edx
	addb	$-48, %dl
	cmpb	$9, %dl
	ja	890b
	cmpq	$2, %rcx
	je	110b
	movq	%r11, %rdi
	movq	%r10, %rsi
	movzbl	2(%rax), %edx
	addb	$-48, %dl
	cmpb	$9, %dl
	ja	855f
	cmpq	$3, %rcx
	movq	32(%rsp), %r15
	movq	%rsi, %r10
	movq	%rdi, %r11
	movb	$3, %r14b
	je	110b
	movzbl	3(%rax), %edx
	addb	$-48, %dl
	cmpb	$9, %dl
	ja	855f
	cmpq	$4, %rcx
	movq	32(%rsp), %r15
	movq	%rsi, %r10
	movq	%rdi, %r11
	movb	$3, %r14b
	je	110b
	movzbl	4(%rax), %edx
	addb	$-48, %dl
	cmpb	$9, %dl
	ja	708f
	cmpq	$5, %rcx
	movq	32(%rsp), %r15
	movq	%rsi, %r10
	movq	%rdi, %r11
	movb	$3, %r14b
	movb	$1, %r8b
	je	110b
	xorl	%eax, %eax
	xorl	%r9d, %r9d
	xorl	%ebx, %ebx
	movq	$0, 16(%rsp)
	xorl	%edi, %edi
	xorl	%edx, %edx
	movq	$0, 8(%rsp)
	xorl	%ecx, %ecx
	xorl	%ebp, %ebp
	xorl	%r13d, %r13d
	xorl	%r12d, %r12d
	jmp	389b
199:
	movzbl	1(%rax), %edx
	addb	$-48, %dl
	cmpb	$9, %dl
	ja	83b
	cmpq	$2, %rcx
	je	515b
	movzbl	2(%rax), %edx
	addb	$-48, %dl
	cmpb	$9, %dl
	ja	905f
	cmpq	$3, %rcx
	movq	32(%rsp), %r15
	movq	%rbx, %r10
	movq	%r14, %r11
	movb	$1, %r8b
	je	515b
	movzbl	3(%rax), %edx
	addb	$-48, %dl
	cmpb	$9, %dl
	ja	905f
	cmpq	$4, %rcx
	movq	32(%rsp), %r15
	movq	%rbx, %r10
	movq	%r14, %r11
	movb	$1, %r8b
	je	515b
	movzbl	4(%rax), %edx
	addb	$-48, %dl
	cmpb	$9, %dl
	ja	468f
	cmpq	$5, %rcx
	movq	32(%rsp), %r15
	movq	%rbx, %r10
	movq	%r14, %r11
	movb	$1, %r8b
	movb	$8, %r9b
	je	515b
	xorl	%eax, %eax
	xorl	%edx, %edx
	movq	$0, 8(%rsp)
	xorl	%ecx, %ecx
	xorl	%ebp, %ebp
	xorl	%r13d, %r13d
	xorl	%ebx, %ebx
	movq	$0, 16(%rsp)
	xorl	%edi, %edi
	movb	$3, %r14b
	xorl	%r12d, %r12d
	jmp	430b
23:
	andl	$4, %r15d
	xorl	%r8d, %r8d
	xorl	%r12d, %r12d
373:
	leal	(%r8,%r8,4), %r13d
	movzbl	(%r11,%r12), %ebp
	movzbl	1(%r11,%r12), %r8d
	addb	$-48, %bpl
	movzbl	%bpl, %ebp
	leal	(%rbp,%r13,2), %r13d
	leal	(%r13,%r13,4), %r13d
	addb	$-48, %r8b
	movzbl	%r8b, %r8d
	leal	(%r8,%r13,2), %r8d
	leal	(%r8,%r8,4), %r8d
	movzbl	2(%r11,%r12), %ebp
	addb	$-48, %bpl
	movzbl	%bpl, %r13d
	leal	(%r13,%r8,2), %r8d
	leal	(%r8,%r8,4), %r8d
	movzbl	3(%r11,%r12), %ebp
	addb	$-48, %bpl
	movzbl	%bpl, %r13d
	leal	(%r13,%r8,2), %r8d
	addq	$4, %r12
	cmpq	%r12, %r15
	jne	373b
	testq	%rbx, %rbx
	je	311f
793:
	addq	%r12, %r11
	xorl	%r15d, %r15d
373:
	leal	(%r8,%r8,4), %r8d
	movzbl	(%r11,%r15), %ebp
	addb	$-48, %bpl
	movzbl	%bpl, %r12d
	leal	(%r12,%r8,2), %r8d
	incq	%r15
	cmpq	%r15, %rbx
	jne	373b
311:
	cmpl	$256, %r8d
	movq	56(%rsp), %r12
	movq	%r8, %r13
	movq	72(%rsp), %rbx
	jae	83f
669:
	leaq	-6(%r10), %r8
	cmpq	$-5, %r8
	movq	32(%rsp), %r15
	jb	890f
	testq	%r10, %r10
	je	44f
	movzbl	(%r9), %r8d
	addb	$-48, %r8b
	cmpb	$9, %r8b
	ja	890f
	movq	%rbx, %r15
	cmpq	$1, %r10
	jne	199f
434:
	movl	%r10d, %ecx
	andl	$3, %ecx
	cmpq	$4, %r10
	jae	523f
	xorl	%edx, %edx
	xorl	%r11d, %r11d
	jmp	206f
890:
	xorl	%r9d, %r9d
	xorl	%r11d, %r11d
	xorl	%ebp, %ebp
	movb	$1, %r13b
	jmp	362b
83:
	xorl	%r9d, %r9d
	xorl	%r11d, %r11d
	xorl	%ebp, %ebp
	jmp	699f
748:
	andl	$4, %eax
	leaq	(%r12,%r13), %r8
	addq	%r15, %r8
	leaq	(%rdx,%r8), %r9
	addq	$3, %r9
	xorl	%r11d, %r11d
	xorl	%r8d, %r8d
373:
	leal	(%r11,%r11,4), %r10d
	movzbl	-3(%r9,%r8), %r11d
	movzbl	-2(%r9,%r8), %ebx
	addb	$-48, %r11b
	movzbl	%r11b, %r11d
	leal	(%r11,%r10,2), %r10d
	leal	(%r10,%r10,4), %r10d
	addb	$-48, %bl
	movzbl	%bl, %r11d
	leal	(%r11,%r10,2), %r10d
	leal	(%r10,%r10,4), %r10d
	movzbl	-1(%r9,%r8), %r11d
	addb	$-48, %r11b
	movzbl	%r11b, %r11d
	leal	(%r11,%r10,2), %r10d
	leal	(%r10,%r10,4), %r10d
	movzbl	(%r9,%r8), %r11d
	addb	$-48, %r11b
	movzbl	%r11b, %r11d
	leal	(%r11,%r10,2), %r11d
	addq	$4, %r8
	cmpq	%r8, %rax
	jne	373b
	testq	%rdi, %rdi
	je	311f
757:
	addq	%r13, %r12
	addq	%r15, %r12
	addq	%rdx, %r8
	addq	%r12, %r8
	xorl	%eax, %eax
373:
	leal	(%r11,%r11,4), %r9d
	movzbl	(%r8,%rax), %r10d
	addb	$-48, %r10b
	movzbl	%r10b, %r10d
	leal	(%r10,%r9,2), %r11d
	incq	%rax
	cmpq	%rax, %rdi
	jne	373b
311:
	cmpl	$255, %r11d
	movq	56(%rsp), %r12
	movq	32(%rsp), %r15
	movb	$2, %r10b
	ja	343b
483:
	pxor	%xmm1, %xmm1
	pxor	%xmm0, %xmm0
	movb	$4, %dl
	xorl	%eax, %eax
	xorl	%ebp, %ebp
	movzbl	%dl, %edx
	leaq	.LJa9983fb3_7(%rip), %rdi
	movslq	(%rdi,%rdx,4), %rdx
	addq	%rdi, %rdx
	xorl	%r8d, %r8d
	xorl	%edi, %edi
	xorl	%r10d, %r10d
	jmpq	*%rdx
634:
	movzwl	10(%rsi), %eax
	movw	%ax, 112(%rsp)
	cmpb	$1, 16(%rsi)
	jne	209f
928:
	movq	40(%rsi), %rax
	movb	$8, %r13b
	testq	%rax, %rax
	movq	%r15, 32(%rsp)
	je	890f
	movq	32(%rsi), %rbp
	addq	$240, %rbp
868:
	cmpb	%r11b, -240(%rbp)
	je	12f
	addq	$272, %rbp
	decq	%rax
	jne	868b
890:
	xorl	%r12d, %r12d
	xorl	%edx, %edx
	xorl	%esi, %esi
	xorl	%edi, %edi
	xorl	%r8d, %r8d
	xorl	%r10d, %r10d
	xorl	%r9d, %r9d
	xorl	%eax, %eax
	xorl	%r15d, %r15d
	xorl	%ebx, %ebx
	xorl	%r11d, %r11d
	jmp	594f
483:
	pxor	%xmm0, %xmm0
	movdqa	%xmm0, 704(%rsp)
	movdqa	%xmm0, 720(%rsp)
	movq	$0, 736(%rsp)
	movdqa	%xmm0, 352(%rsp)
	movdqa	%xmm0, 368(%rsp)
	movdqa	%xmm0, 112(%rsp)
	movdqa	%xmm0, 128(%rsp)
	movdqa	%xmm0, 144(%rsp)
	movdqa	%xmm0, 160(%rsp)
	movl	$0, 176(%rsp)
	movzwl	10(%rsi), %eax
	movw	%ax, 608(%rsp)
	cmpb	$1, 16(%rsi)
	jne	913f
850:
	addq	$24, %rsi
	movb	$4, 352(%rsp)
	movb	%r11b, 353(%rsp)
	leaq	704(%rsp), %rdi
	leaq	352(%rsp), %rdx
	movq	%r11, %rbp
	callq	tc_rack.rack.Rack.operate
	movzbl	704(%rsp), %r12d
	testb	%r12b, %r12b
	je	442f
	movb	$14, %bl
	xorl	%r13d, %r13d
	xorl	%r11d, %r11d
	movq	16(%rsp), %rcx
	jmp	856f
342:
	pxor	%xmm0, %xmm0
	movdqa	%xmm0, 112(%rsp)
	movdqa	%xmm0, 128(%rsp)
	movq	$0, 144(%rsp)
	movdqa	%xmm0, 704(%rsp)
	movdqa	%xmm0, 720(%rsp)
	movdqa	%xmm0, 608(%rsp)
	movdqu	%xmm0, 620(%rsp)
	movdqa	%xmm0, 352(%rsp)
	movdqa	%xmm0, 368(%rsp)
	movzwl	10(%rsi), %eax
	movw	%ax, 416(%rsp)
	cmpb	$1, 16(%rsi)
	jne	589f
880:
	addq	$24, %rsi
	movb	$1, 704(%rsp)
	movb	%r11b, 705(%rsp)
	leaq	112(%rsp), %rdi
	leaq	704(%rsp), %rdx
	movq	%r11, %rbp
	callq	tc_rack.rack.Rack.operate
	movzbl	112(%rsp), %r12d
	testb	%r12b, %r12b
	je	866f
	movb	$14, %bl
	xorl	%eax, %eax
	xorl	%ecx, %ecx
	xorl	%edx, %edx
	xorl	%r13d, %r13d
	xorl	%r11d, %r11d
	jmp	409f
553:
	movzbl	%dil, %eax
	movzbl	%r8b, %edx
	shll	$8, %edx
	orq	%rax, %rdx
	movd	%xmm0, %eax
	shll	$16, %eax
	orq	%rdx, %rax
	pextrw	$1, %xmm0, %edx
	shlq	$32, %rdx
	orq	%rax, %rdx
	movzwl	%r10w, %edi
	shlq	$48, %rdi
	orq	%rdx, %rdi
	pxor	%xmm2, %xmm2
	movdqa	%xmm2, 112(%rsp)
	movdqa	%xmm2, 128(%rsp)
	movdqa	%xmm2, 144(%rsp)
	movdqa	%xmm2, 160(%rsp)
	movdqa	%xmm2, 176(%rsp)
	movq	$0, 352(%rsp)
	movq	%xmm1, %rax
	cmpq	$5, %rax
	movq	%r15, 32(%rsp)
	jae	1f
	movq	64(%rsp), %rsi
	jmp	868f
1:
	testb	$-52, (%rdi)
	movq	64(%rsp), %rsi
	je	976f
868:
	cmpb	$0, (%rsi)
	je	394f
	movb	$1, %bpl
	xorl	%ebx, %ebx
	xorl	%r13d, %r13d
	xorl	%r12d, %r12d
	xorl	%r15d, %r15d
	pshufd	$238, %xmm1, %xmm0
	movq	%xmm0, %rax
	testq	%rax, %rax
	je	1f
469:
	movdqa	%xmm2, 80(%rsp)
	callq	rattle_dealloc@PLT
	movdqa	80(%rsp), %xmm2
	movq	16(%rsp), %rcx
1:
	testb	%bpl, %bpl
	je	961f
	testb	%r12b, %r12b
	movq	64(%rsp), %rsi
	jne	668f
	pxor	%xmm0, %xmm0
	movdqa	%xmm0, 176(%rsp)
	movdqa	%xmm0, 160(%rsp)
	movdqa	%xmm0, 144(%rsp)
	movdqa	%xmm0, 128(%rsp)
	movb	$4, %r13b
	xorl	%ebp, %ebp
	xorl	%r11d, %r11d
	xorl	%ebx, %ebx
	xorl	%r12d, %r12d
	jmp	586f
442:
	movzbl	712(%rsp), %edx
	xorl	%ecx, %ecx
	cmpl	$5, %edx
	movq	720(%rsp), %rdi
	movq	736(%rsp), %rax
	sete	%cl
	movl	$0, %esi
	leal	3(%rcx,%rcx,4), %r13d
	movzbl	%bpl, %ebp
	movl	$0, %ebx
	cmovel	%esi, %ebp
	pxor	%xmm0, %xmm0
	movdqu	%xmm0, 116(%rsp)
	movdqu	%xmm0, 132(%rsp)
	movdqu	%xmm0, 148(%rsp)
	movdqu	%xmm0, 164(%rsp)
	movq	%rbp, %r11
	movl	$51, %ecx
	btl	%edx, %ecx
	movq	16(%rsp), %rcx
	jb	856f
	cmpl	$2, %edx
	testq	%rax, %rax
	je	890f
	movq	%r11, %rbx
	callq	rattle_dealloc@PLT
	movq	%rbx, %r11
	movq	16(%rsp), %rcx
890:
	xorl	%ebx, %ebx
856:
	movdqu	116(%rsp), %xmm0
	movdqu	132(%rsp), %xmm1
	movdqu	148(%rsp), %xmm2
	movups	164(%rsp), %xmm3
	movaps	%xmm3, 576(%rsp)
	movdqa	%xmm2, 560(%rsp)
	movdqa	%xmm1, 544(%rsp)
	movdqa	%xmm0, 528(%rsp)
	xorl	%ebp, %ebp
	jmp	268f
866:
	movzbl	120(%rsp), %eax
	movzbl	121(%rsp), %ecx
	movzwl	122(%rsp), %edx
	movups	124(%rsp), %xmm0
	movaps	%xmm0, 608(%rsp)
	movdqu	136(%rsp), %xmm0
	movdqu	%xmm0, 620(%rsp)
	pxor	%xmm0, %xmm0
	movdqa	%xmm0, 352(%rsp)
	movdqa	%xmm0, 368(%rsp)
	movb	$2, %r13b
	xorl	%ebx, %ebx
	movq	%rbp, %r11
409:
	movb	%al, 528(%rsp)
	movb	%cl, 529(%rsp)
	movw	%dx, 530(%rsp)
	movaps	608(%rsp), %xmm0
	movups	%xmm0, 532(%rsp)
	movups	620(%rsp), %xmm0
	movups	%xmm0, 544(%rsp)
	movdqa	352(%rsp), %xmm0
	movdqa	368(%rsp), %xmm1
	movdqa	%xmm0, 560(%rsp)
	movdqa	%xmm1, 576(%rsp)
859:
	movq	16(%rsp), %rcx
	xorl	%ebp, %ebp
	jmp	268f
12:
	movq	-224(%rbp), %r10
	leaq	104(%rsp), %rax
	testq	%r10, %r10
	movq	%r10, %r13
	movq	%rax, 256(%rsp)
	je	271f
	movq	%r10, %rax
	shrq	$59, %rax
	movb	$1, %r12b
	jne	409f
	movq	%r11, 96(%rsp)
	movq	-232(%rbp), %rbx
	movq	%r10, %rdi
	shlq	$4, %rdi
	movl	$8, %esi
	callq	rattle_alloc@PLT
	movq	%rdx, 72(%rsp)
	testb	$1, %al
	je	27f
	movq	$0, 80(%rsp)
	xorl	%eax, %eax
	movq	16(%rsp), %rcx
	movq	96(%rsp), %r11
	movq	%r13, %r10
	jmp	254f
12:
	movq	40(%rsi,%r8), %rsi
	movq	80(%rsp), %r9
	movq	%r9, %rdi
	shlq	$4, %rdi
	movq	72(%rsp), %r8
	movw	%dx, (%r8,%rdi)
	movl	$0, 2(%r8,%rdi)
	movw	$0, 6(%r8,%rdi)
	movq	%rsi, 8(%r8,%rdi)
	incq	%r9
	movq	%r9, 80(%rsp)
629:
	incq	%rax
	cmpq	%r10, %rax
	je	12f
254:
	movzwl	(%rbx,%rax,4), %edx
	movq	-80(%rbp), %rsi
	movq	-72(%rbp), %rdi
	movzwl	%dx, %r8d
	cmpq	%r8, -48(%rbp)
	jbe	47f
	movq	-56(%rbp), %r9
	movzwl	(%r9,%r8,2), %r8d
	cmpq	%r8, %rdi
	jbe	629b
	shll	$6, %r8d
	jmp	12b
47:
	testq	%rdi, %rdi
	je	629b
	xorl	%r8d, %r8d
129:
	cmpw	(%rsi,%r8), %dx
	je	12b
	addq	$64, %r8
	decq	%rdi
	jne	129b
	jmp	629b
961:
	movq	%r13, %rbx
	pxor	%xmm0, %xmm0
	movdqa	%xmm0, 576(%rsp)
	movdqa	%xmm0, 560(%rsp)
	movdqa	%xmm0, 544(%rsp)
	movdqa	%xmm0, 528(%rsp)
	movb	$1, %r12b
	xorl	%ebp, %ebp
	xorl	%r11d, %r11d
	xorl	%r13d, %r13d
	jmp	859f
976:
	movzbl	3(%rdi), %r8d
	shll	$8, %r8d
	movzbl	2(%rdi), %edx
	andl	$3, %edx
	orl	%r8d, %edx
	rolw	$8, %dx
	cmpw	$5, %dx
	jb	868b
	movzwl	%dx, %edx
	incq	%rdx
	subq	%rdx, %rax
	jb	868b
	cmpq	$6, %rax
	ja	423f
	cmpq	$5, %rax
	jb	868f
	testb	$-52, (%rdi,%rdx)
	je	78f
868:
	cmpb	$0, (%rsi)
	je	394f
	movdqa	%xmm1, 80(%rsp)
	pxor	%xmm0, %xmm0
	movdqa	%xmm0, 720(%rsp)
	movdqa	%xmm0, 704(%rsp)
	leaq	704(%rsp), %rax
	movq	%rdi, %rsi
	movq	%rax, %rdi
	movq	%rsi, %r13
	callq	tc_edges.fecf.frames.without_field
	cmpb	$0, 704(%rsp)
	sete	%r12b
	je	716f
	xorl	%ebx, %ebx
	cmpb	$5, 705(%rsp)
	setne	%bpl
	movl	$14, %eax
	cmovnel	%ebx, %eax
	xorl	%r15d, %r15d
	movq	16(%rsp), %rcx
	pxor	%xmm2, %xmm2
	jmp	604f
394:
	movb	$4, %r15b
	movq	%rdi, %rbx
	movdqa	%xmm1, %xmm2
668:
	movb	%r15b, 352(%rsp)
	movq	%rbx, 360(%rsp)
	movdqu	%xmm2, 368(%rsp)
	leaq	112(%rsp), %rdi
	leaq	352(%rsp), %rdx
	movq	%rsi, 64(%rsp)
	callq	tc_live.receiver.Receiver.perform_passed
	movq	16(%rsp), %rcx
	movzbl	112(%rsp), %r12d
	movzbl	113(%rsp), %ebx
	movzbl	120(%rsp), %r13d
	movzbl	121(%rsp), %r11d
	movzwl	122(%rsp), %ebp
586:
	movq	32(%rsp), %r15
	movdqa	128(%rsp), %xmm0
	movdqa	144(%rsp), %xmm1
	movdqa	160(%rsp), %xmm2
	movaps	176(%rsp), %xmm3
	movaps	%xmm3, 576(%rsp)
	movdqa	%xmm2, 560(%rsp)
	movdqa	%xmm1, 544(%rsp)
	movdqa	%xmm0, 528(%rsp)
	jmp	268f
271:
	movq	$0, 80(%rsp)
	movq	%rax, 72(%rsp)
12:
	movq	-200(%rbp), %r15
	testq	%r15, %r15
	je	83f
	movq	%r15, %rax
	shrq	$59, %rax
	jne	394f
	movq	-208(%rbp), %rbx
	movq	%r15, %rdi
	shlq	$4, %rdi
	movl	$8, %esi
	movq	%r11, 96(%rsp)
	callq	rattle_alloc@PLT
	movq	%r13, %r10
	movq	96(%rsp), %r11
	movq	16(%rsp), %rcx
	movq	%rdx, 256(%rsp)
	testb	$1, %al
	je	394f
	xorl	%eax, %eax
	xorl	%edx, %edx
	jmp	442f
12:
	movq	40(%rdi,%r10), %rdi
	movq	%rax, %r8
	shlq	$4, %r8
	movq	256(%rsp), %r9
	movb	%sil, (%r9,%r8)
	movl	$0, 1(%r9,%r8)
	movl	$0, 4(%r9,%r8)
	movq	%rdi, 8(%r9,%r8)
	incq	%rax
961:
	movq	%r13, %r10
629:
	incq	%rdx
	cmpq	%r15, %rdx
	je	509f
442:
	movzbl	(%rbx,%rdx,4), %esi
	movzbl	%sil, %r8d
	movq	-32(%rbp), %rdi
	movq	-24(%rbp), %r9
	cmpq	%r8, (%rbp)
	jbe	47f
	movq	-8(%rbp), %r10
	movzwl	(%r10,%r8,2), %r10d
	cmpq	%r10, %r9
	jbe	961b
	shll	$6, %r10d
	jmp	12b
47:
	testq	%r9, %r9
	je	629b
	xorl	%r10d, %r10d
129:
	cmpw	%r8w, (%rdi,%r10)
	je	12b
	addq	$64, %r10
	decq	%r9
	jne	129b
	jmp	961b
409:
	movb	$14, %bl
	jmp	890f
394:
	movb	$14, %bl
	movb	$1, %r12b
	testq	%r10, %r10
	je	890f
	movq	72(%rsp), %rdi
	callq	rattle_dealloc@PLT
	movq	16(%rsp), %rcx
890:
	xorl	%edx, %edx
	xorl	%esi, %esi
	xorl	%edi, %edi
	xorl	%r8d, %r8d
	xorl	%r10d, %r10d
	xorl	%r9d, %r9d
	xorl	%eax, %eax
	xorl	%r15d, %r15d
	xorl	%r13d, %r13d
	xorl	%r11d, %r11d
	jmp	594f
83:
	xorl	%eax, %eax
509:
	movl	-183(%rbp), %esi
	movzwl	-179(%rbp), %edx
	shlq	$32, %rdx
	orq	%rsi, %rdx
	movq	-144(%rbp), %rsi
	movb	$7, %r13b
	xorl	%r12d, %r12d
	xorl	%ebx, %ebx
	movq	72(%rsp), %rdi
	movq	80(%rsp), %r8
	movq	256(%rsp), %r9
	jmp	594f
913:
	movq	%r11, %r13
	movq	%rsi, %rbx
	addq	$16, %rsi
	leaq	608(%rsp), %rdi
	callq	tc_rack.performing.begin_anew._ecad586609b5e68f
	testb	%al, %al
	je	600f
	movq	%rdx, %rbx
	pxor	%xmm0, %xmm0
	movdqa	%xmm0, 576(%rsp)
	movdqa	%xmm0, 560(%rsp)
	movdqa	%xmm0, 544(%rsp)
	movdqa	%xmm0, 528(%rsp)
	movb	$1, %r12b
	xorl	%r11d, %r11d
	xorl	%r13d, %r13d
	movq	16(%rsp), %rcx
	xorl	%ebp, %ebp
	jmp	268f
209:
	movq	%r11, %rbp
	movq	%rsi, %rbx
	addq	$16, %rsi
	leaq	112(%rsp), %rdi
	callq	tc_rack.performing.begin_anew._ecad586609b5e68f
	testb	%al, %al
	je	710f
10:
	movl	%edx, %r13d
	movq	8(%rsp), %rdx
	pxor	%xmm0, %xmm0
	movdqa	%xmm0, 400(%rsp)
	movdqa	%xmm0, 384(%rsp)
	movdqa	%xmm0, 368(%rsp)
	movdqa	%xmm0, 352(%rsp)
	movzbl	%r13b, %eax
	leaq	.Lswitch.table.tc_session.engine.Engine.answer._5349ec06ad6c886c(%rip), %rcx
	movq	(%rcx,%rax,8), %r10
	leaq	.Lswitch.table.tc_session.engine.Engine.answer._5349ec06ad6c886c_.630.rel(%rip), %rcx
	movslq	(%rcx,%rax,4), %rsi
	addq	%rcx, %rsi
	leaq	.LTb42bdd72(%rip), %r8
	movl	$46, %r9d
	leaq	.LJa9983fb3_8(%rip), %rcx
	movslq	(%rcx,%rax,4), %rax
	addq	%rcx, %rax
	movq	16(%rsp), %rcx
	jmpq	*%rax
589:
	movq	%r11, %r13
	movq	%rsi, %rbx
	addq	$16, %rsi
	leaq	416(%rsp), %rdi
	callq	tc_rack.performing.begin_anew._ecad586609b5e68f
	testb	%al, %al
	je	928f
	movq	%rdx, %rbx
	pxor	%xmm0, %xmm0
	movdqa	%xmm0, 576(%rsp)
	movdqa	%xmm0, 560(%rsp)
	movdqa	%xmm0, 544(%rsp)
	movdqa	%xmm0, 528(%rsp)
	movb	$1, %r12b
	xorl	%r11d, %r11d
	xorl	%r13d, %r13d
	jmp	859b
27:
	movb	$14, %bl
	xorl	%edx, %edx
	xorl	%esi, %esi
	xorl	%edi, %edi
	xorl	%r8d, %r8d
	xorl	%r10d, %r10d
	xorl	%r9d, %r9d
	xorl	%eax, %eax
	xorl	%r15d, %r15d
	xorl	%r13d, %r13d
	xorl	%r11d, %r11d
	movq	16(%rsp), %rcx
594:
	movq	%rdx, 528(%rsp)
	movq	%rsi, 536(%rsp)
	movq	%rdi, 544(%rsp)
	movq	%r8, 552(%rsp)
	movq	%r10, 560(%rsp)
	movq	%r9, 568(%rsp)
	movq	%rax, 576(%rsp)
	movq	%r15, 584(%rsp)
	xorl	%ebp, %ebp
859:
	movq	32(%rsp), %r15
268:
	movq	528(%rsp), %rax
	movq	536(%rsp), %rdx
	movq	544(%rsp), %rsi
	movq	552(%rsp), %rdi
	movq	560(%rsp), %r8
	movq	568(%rsp), %r9
	movq	576(%rsp), %r10
	movq	%r10, 324(%rsp)
	movq	584(%rsp), %r10
	movq	%r10, 332(%rsp)
	movq	%r8, 308(%rsp)
	movq	%r9, 316(%rsp)
	movq	%rsi, 292(%rsp)
	movq	%rdi, 300(%rsp)
	movq	%rax, 276(%rsp)
	movq	%rdx, 284(%rsp)
	testb	%r12b, %r12b
	movq	56(%rsp), %r12
	je	652f
	pxor	%xmm0, %xmm0
	movdqa	%xmm0, 400(%rsp)
	movdqa	%xmm0, 384(%rsp)
	movdqa	%xmm0, 368(%rsp)
	movdqa	%xmm0, 352(%rsp)
	movq	%rbx, %r13
	movzbl	%r13b, %eax
	leaq	.Lswitch.table.tc_session.engine.Engine.answer._5349ec06ad6c886c(%rip), %rdx
	movq	(%rdx,%rax,8), %r10
	leaq	.Lswitch.table.tc_session.engine.Engine.answer._5349ec06ad6c886c_.630.rel(%rip), %rdx
	movslq	(%rdx,%rax,4), %rsi
	addq	%rdx, %rsi
	leaq	.LTb42bdd72(%rip), %r8
	movl	$46, %r9d
	leaq	.LJa9983fb3_8(%rip), %rdx
	movslq	(%rdx,%rax,4), %rax
	addq	%rdx, %rax
	movq	8(%rsp), %rdx
	jmpq	*%rax
669:
	leaq	.LTe3b0c442(%rip), %r8
890:
	xorl	%r9d, %r9d
859:
	movq	%r9, %rbx
	movq	%r8, %rbp
	pxor	%xmm0, %xmm0
	movdqa	%xmm0, 704(%rsp)
	movdqa	%xmm0, 720(%rsp)
	movdqa	%xmm0, 736(%rsp)
	movdqa	%xmm0, 752(%rsp)
	movq	%r15, 112(%rsp)
	movdqu	%xmm0, 120(%rsp)
	movdqu	%xmm0, 136(%rsp)
	movdqu	%xmm0, 152(%rsp)
	movdqu	%xmm0, 168(%rsp)
	movdqu	%xmm0, 184(%rsp)
	movdqu	%xmm0, 200(%rsp)
	movdqu	%xmm0, 240(%rsp)
	movl	$32, 216(%rsp)
	movq	$0, 220(%rsp)
	movl	$0, 228(%rsp)
	movq	$-1, 232(%rsp)
	leaq	112(%rsp), %rdi
	movq	%r10, %rdx
	callq	std.io.traits.AdapterWrite.write_str._5349ec06ad6c886c
	movb	$1, %r14b
	testb	%al, %al
	jne	782f
	leaq	220(%rsp), %r15
	movl	$32, 216(%rsp)
	movl	$0, 8(%r15)
	movq	$0, (%r15)
	movq	$-1, 232(%rsp)
	movzbl	%r13b, %eax
	shll	$3, %eax
	leaq	.Lswitch.table.std.io.traits.Write.write_fmt._66d26946d4f3efb7(%rip), %rcx
	movq	(%rax,%rcx), %rdx
	leaq	.Lswitch.table.std.io.traits.Write.write_fmt._66d26946d4f3efb7_.638(%rip), %rcx
	movq	(%rax,%rcx), %rsi
	cmpq	$0, 240(%rsp)
	jne	999f
	leaq	112(%rsp), %rdi
	callq	std.io.traits.AdapterWrite.write_str._5349ec06ad6c886c
	testb	%al, %al
	jne	782f
509:
	movl	$32, 216(%rsp)
	movl	$0, 8(%r15)
	movq	$0, (%r15)
	movq	$-1, 232(%rsp)
	cmpq	$0, 240(%rsp)
	jne	458f
	leaq	112(%rsp), %rdi
	movq	%rbp, %rsi
	movq	%rbx, %rdx
	callq	std.io.traits.AdapterWrite.write_str._5349ec06ad6c886c
	testb	%al, %al
	jne	782f
10:
	movl	$32, 216(%rsp)
	movl	$0, 8(%r15)
	movq	$0, (%r15)
	movq	$-1, 232(%rsp)
	cmpq	$0, 240(%rsp)
	jne	459f
	leaq	.LT3235efc0(%rip), %rsi
	leaq	112(%rsp), %rdi
	movl	$1, %edx
	callq	std.io.traits.AdapterWrite.write_str._5349ec06ad6c886c
933:
	movl	%eax, %r14d
	jmp	782f
652:
	movb	%r13b, 768(%rsp)
	movq	%r11, %r14
	movb	%r11b, 769(%rsp)
	movw	%bp, 770(%rsp)
	movq	276(%rsp), %rax
	movq	284(%rsp), %rcx
	movq	292(%rsp), %rdx
	movq	300(%rsp), %rsi
	movups	308(%rsp), %xmm0
	movups	324(%rsp), %xmm1
	movq	%rax, 776(%rsp)
	movq	%rcx, 784(%rsp)
	movq	%rdx, 792(%rsp)
	movq	%rsi, 800(%rsp)
	movups	%xmm0, 808(%rsp)
	movups	%xmm1, 824(%rsp)
	movq	%r15, 112(%rsp)
	xorps	%xmm0, %xmm0
	movups	%xmm0, 120(%rsp)
	movups	%xmm0, 136(%rsp)
	movups	%xmm0, 152(%rsp)
	movups	%xmm0, 168(%rsp)
	movups	%xmm0, 184(%rsp)
	movups	%xmm0, 200(%rsp)
	movups	%xmm0, 240(%rsp)
	movl	$32, 216(%rsp)
	movq	$0, 220(%rsp)
	movl	$0, 228(%rsp)
	movq	$-1, 232(%rsp)
	leaq	112(%rsp), %rdi
	leaq	768(%rsp), %rsi
	callq	core.fmt.formatter.Formatter.write_piece._bca9c74da7838be5
	cmpb	$1, 120(%rsp)
	jne	15f
	movups	136(%rsp), %xmm5
	movl	132(%rsp), %ebp
	movsd	128(%rsp), %xmm4
	movups	152(%rsp), %xmm0
	movaps	%xmm0, 512(%rsp)
	movups	168(%rsp), %xmm0
	movaps	%xmm0, 528(%rsp)
	movups	184(%rsp), %xmm0
	movaps	%xmm0, 544(%rsp)
	movups	200(%rsp), %xmm0
	movaps	%xmm0, 560(%rsp)
	movaps	512(%rsp), %xmm0
	movaps	528(%rsp), %xmm1
	movdqa	544(%rsp), %xmm2
	movaps	560(%rsp), %xmm3
	movaps	%xmm0, 448(%rsp)
	movaps	%xmm1, 464(%rsp)
	movdqa	%xmm2, 480(%rsp)
	movaps	%xmm3, 496(%rsp)
	movb	$1, %r15b
	movzbl	%r13b, %eax
	leaq	.LJa9983fb3_11(%rip), %rcx
	movslq	(%rcx,%rax,4), %rax
	addq	%rcx, %rax
	jmpq	*%rax
15:
	testb	%al, %al
	je	231f
	movaps	.LCa9983fb3_0(%rip), %xmm0
	movaps	%xmm0, 560(%rsp)
	movaps	%xmm0, 544(%rsp)
	movaps	%xmm0, 528(%rsp)
	movaps	%xmm0, 512(%rsp)
	movaps	.LCa9983fb3_1(%rip), %xmm5
	movss	.LCa9983fb3_4(%rip), %xmm4
	xorl	%ebp, %ebp
	movaps	512(%rsp), %xmm0
	movaps	528(%rsp), %xmm1
	movdqa	544(%rsp), %xmm2
	movaps	560(%rsp), %xmm3
	movaps	%xmm0, 448(%rsp)
	movaps	%xmm1, 464(%rsp)
	movdqa	%xmm2, 480(%rsp)
	movaps	%xmm3, 496(%rsp)
	movb	$1, %r15b
	movzbl	%r13b, %eax
	leaq	.LJa9983fb3_11(%rip), %rcx
	movslq	(%rcx,%rax,4), %rax
	addq	%rcx, %rax
	jmpq	*%rax
219:
	leaq	.LT2b151fb5(%rip), %r8
	movl	$22, %r9d
	jmp	859b
231:
	xorps	%xmm0, %xmm0
	movaps	%xmm0, 192(%rsp)
	movaps	%xmm0, 176(%rsp)
	movaps	%xmm0, 160(%rsp)
	movaps	%xmm0, 144(%rsp)
	movaps	%xmm0, 128(%rsp)
	movaps	%xmm0, 112(%rsp)
	movzbl	%r13b, %ebx
	movl	$499, %eax
	btl	%ebx, %eax
	movq	64(%rsp), %rsi
	jae	976f
	movzbl	112(%rsp), %r15d
	movsd	120(%rsp), %xmm4
	movl	124(%rsp), %ebp
	movaps	128(%rsp), %xmm5
	movaps	144(%rsp), %xmm0
	movaps	%xmm0, 448(%rsp)
	movaps	160(%rsp), %xmm0
	movaps	%xmm0, 464(%rsp)
	movaps	176(%rsp), %xmm0
	movaps	%xmm0, 480(%rsp)
	movaps	192(%rsp), %xmm0
	movaps	%xmm0, 496(%rsp)
	leaq	.LJa9983fb3_11(%rip), %rax
	movslq	(%rax,%rbx,4), %rcx
	addq	%rax, %rcx
	jmpq	*%rcx
442:
	movzbl	776(%rsp), %ecx
	movq	784(%rsp), %rdi
	movq	800(%rsp), %rax
	movl	$51, %edx
	btl	%ecx, %edx
	jb	368f
	cmpl	$2, %ecx
	testq	%rax, %rax
	je	368f
	movaps	%xmm4, 32(%rsp)
	movaps	%xmm5, 16(%rsp)
	jmp	193f
740:
	leaq	.LTf01cae55(%rip), %r8
	movl	$19, %r9d
	jmp	859b
71:
	leaq	.LT5cde739f(%rip), %r8
	movl	$25, %r9d
	jmp	859b
917:
	leaq	.LTaa0e5251(%rip), %r8
	movl	$33, %r9d
	jmp	859b
83:
	xorl	%eax, %eax
	testq	%rcx, %rcx
	je	359f
866:
	movzbl	(%rdx,%rax), %edi
	cmpq	$32, %rdi
	ja	359f
	btq	%rdi, %r14
	jae	359f
	incq	%rax
	cmpq	%rax, %rcx
	jne	866b
	movq	%rcx, %rax
359:
	leaq	.LTe3b0c442(%rip), %r8
	subq	%rax, %rcx
	je	890b
	addq	%rax, %rdx
	cmpq	$63, %rcx
	movq	%rsi, 64(%rsp)
	ja	961f
	xorl	%eax, %eax
	jmp	866f
629:
	incq	%rax
	cmpq	%rax, %rcx
	je	209f
866:
	movzbl	(%rdx,%rax), %edi
	cmpq	$32, %rdi
	ja	629b
	btq	%rdi, %r14
	jae	629b
	jmp	793f
57:
	xorl	%eax, %eax
	testq	%rcx, %rcx
	je	359f
866:
	movzbl	(%rdx,%rax), %edi
	cmpq	$32, %rdi
	ja	359f
	btq	%rdi, %r14
	jae	359f
	incq	%rax
	cmpq	%rax, %rcx
	jne	866b
	movq	%rcx, %rax
359:
	leaq	.LTe3b0c442(%rip), %r8
	subq	%rax, %rcx
	je	890b
	movq	%r15, 32(%rsp)
	addq	%rax, %rdx
	cmpq	$63, %rcx
	movq	%rsi, 64(%rsp)
	movq	%r10, 80(%rsp)
	ja	586f
	xorl	%r15d, %r15d
	jmp	866f
629:
	incq	%r15
	cmpq	%r15, %rcx
	je	589f
866:
	movzbl	(%rdx,%r15), %eax
	cmpq	$32, %rax
	ja	629b
	btq	%rax, %r14
	jae	629b
	jmp	90f
110:
	xorl	%eax, %eax
	testq	%rcx, %rcx
	je	359f
866:
	movzbl	(%rdx,%rax), %edi
	cmpq	$32, %rdi
	ja	359f
	btq	%rdi, %r14
	jae	359f
	incq	%rax
	cmpq	%rax, %rcx
	jne	866b
	movq	%rcx, %rax
359:
	leaq	.LTd9a806d0(%rip), %r8
	movl	$104, %r9d
	subq	%rax, %rcx
	je	859b
	addq	%rax, %rdx
	cmpq	$63, %rcx
	movq	%r10, 80(%rsp)
	ja	271f
	xorl	%eax, %eax
	jmp	866f
629:
	incq	%rax
	cmpq	%rax, %rcx
	je	594f
866:
	movzbl	(%rdx,%rax), %edi
	cmpq	$32, %rdi
	ja	629b
	btq	%rdi, %r14
	jae	629b
	movq	%rdx, %rbx
	cmpq	$2, %rax
	jb	913f
12:
	movq	%rbx, %rax
	movzbl	(%rbx), %ecx
	jne	311f
	cmpl	$254, %ecx
	je	111f
	cmpl	$255, %ecx
	movq	80(%rsp), %r10
	jne	859b
	cmpb	$-2, 1(%rax)
	jne	859b
	jmp	302f
359:
	leaq	.LT867c18b7(%rip), %r8
	movl	$16, %r9d
	jmp	859b
661:
	leaq	.LT53c01e12(%rip), %r8
	movl	$19, %r9d
	jmp	859b
172:
	leaq	.LT9cd6e722(%rip), %r8
	movl	$15, %r9d
	jmp	859b
999:
	leaq	112(%rsp), %rdi
	callq	core.fmt.formatter.Formatter.write_indented._1ac78889755d2eb3
	testb	%al, %al
	jne	782f
	jmp	509b
976:
	movzbl	%r14b, %edx
	leaq	112(%rsp), %rdi
	movq	%r15, %rcx
	cmpl	$2, %ebx
	jne	860f
	callq	tc_live.receiver.Receiver.hand_on._5349ec06ad6c886c
	movzbl	112(%rsp), %r15d
	movsd	120(%rsp), %xmm4
	movl	124(%rsp), %ebp
	movaps	128(%rsp), %xmm5
	movaps	144(%rsp), %xmm0
	movaps	%xmm0, 448(%rsp)
	movaps	160(%rsp), %xmm0
	movaps	%xmm0, 464(%rsp)
	movaps	176(%rsp), %xmm0
	movaps	%xmm0, 480(%rsp)
	movaps	192(%rsp), %xmm0
	movaps	%xmm0, 496(%rsp)
	leaq	.LJa9983fb3_11(%rip), %rax
	movslq	(%rax,%rbx,4), %rcx
	addq	%rax, %rcx
	jmpq	*%rcx
961:
	movq	%rdx, %rdi
	movq	%rcx, %rsi
	movq	%r10, %r14
	movq	%rdx, %rbx
	movq	%r8, %rbp
	callq	tc_lines.word.long_word_length
	movq	%rbp, %r8
	movq	64(%rsp), %rsi
	movq	%rbx, %rdx
	movq	%r14, %r10
793:
	addq	$-3, %rax
	cmpq	$6, %rax
	ja	890b
999:
	leaq	.LJa9983fb3_10(%rip), %rcx
	movslq	(%rcx,%rax,4), %rax
	addq	%rcx, %rax
	jmpq	*%rax
198:
	cmpb	$109, (%rdx)
	jne	890b
	cmpb	$97, 1(%rdx)
	jne	890b
	cmpb	$112, 2(%rdx)
	jne	890b
	leaq	.LTf8f41d37(%rip), %r8
	movl	$27, %r9d
	jmp	859b
586:
	movq	%rdx, %rdi
	movq	%rcx, %rsi
	movq	%rdx, %rbx
	movq	%rcx, %r15
	callq	tc_lines.word.long_word_length
	movq	64(%rsp), %rsi
	movq	%r15, %rcx
	movq	%rbx, %rdx
	movq	80(%rsp), %r10
	movq	%rax, %r15
90:
	leaq	-3(%r15), %rax
	cmpq	$4, %rax
	ja	999f
90:
	leaq	.LJa9983fb3_9(%rip), %rdi
	movslq	(%rdi,%rax,4), %rax
	addq	%rdi, %rax
	jmpq	*%rax
203:
	cmpb	$109, (%rdx)
	jne	999f
	cmpb	$97, 1(%rdx)
	jne	999f
	cmpb	$112, 2(%rdx)
	jne	999f
	leaq	.LTa781307c(%rip), %rax
	jmp	12f
271:
	movq	%rdx, %rbx
	movq	%rdx, %rdi
	movq	%rsi, %r14
	movq	%rcx, %rsi
	movq	%r13, %rbp
	movq	%r8, %r13
	callq	tc_lines.word.long_word_length
	movq	%r13, %r8
	movq	%rbp, %r13
	movl	$104, %r9d
	movq	%r14, %rsi
	cmpq	$2, %rax
	jae	12b
913:
	movq	80(%rsp), %r10
	jmp	859b
458:
	leaq	112(%rsp), %rdi
	movq	%rbp, %rsi
	movq	%rbx, %rdx
	callq	core.fmt.formatter.Formatter.write_indented._1ac78889755d2eb3
	testb	%al, %al
	je	10b
782:
	movzbl	120(%rsp), %eax
	movsd	128(%rsp), %xmm4
	movl	132(%rsp), %ebp
	movups	136(%rsp), %xmm5
	pxor	%xmm0, %xmm0
	movdqa	%xmm0, 560(%rsp)
	movdqa	%xmm0, 544(%rsp)
	movdqa	%xmm0, 528(%rsp)
	movdqa	%xmm0, 512(%rsp)
	cmpb	$1, %al
	jne	657f
	leaq	152(%rsp), %rax
	movdqu	(%rax), %xmm0
	movdqu	16(%rax), %xmm1
	movdqu	32(%rax), %xmm2
	movups	48(%rax), %xmm3
	movaps	%xmm3, 560(%rsp)
	movdqa	%xmm2, 544(%rsp)
	movdqa	%xmm1, 528(%rsp)
	movdqa	%xmm0, 512(%rsp)
	jmp	409f
657:
	xorl	%ebp, %ebp
	testb	%r14b, %r14b
	je	231f
	movdqa	.LCa9983fb3_0(%rip), %xmm0
	movdqa	%xmm0, 560(%rsp)
	movdqa	%xmm0, 544(%rsp)
	movdqa	%xmm0, 528(%rsp)
	movdqa	%xmm0, 512(%rsp)
	movaps	.LCa9983fb3_1(%rip), %xmm5
	movss	.LCa9983fb3_4(%rip), %xmm4
409:
	movb	$1, %r15b
237:
	movaps	512(%rsp), %xmm0
	movaps	528(%rsp), %xmm1
	movdqa	544(%rsp), %xmm2
	movaps	560(%rsp), %xmm3
	movaps	%xmm0, 352(%rsp)
	movaps	%xmm1, 368(%rsp)
	movaps	%xmm3, 496(%rsp)
	movdqa	%xmm2, 480(%rsp)
	movaps	%xmm1, 464(%rsp)
	movaps	%xmm0, 448(%rsp)
368:
	movaps	448(%rsp), %xmm0
	movaps	464(%rsp), %xmm1
	movaps	480(%rsp), %xmm2
	movaps	496(%rsp), %xmm3
	movaps	%xmm3, 992(%rsp)
	movaps	%xmm0, 864(%rsp)
	movaps	%xmm1, 880(%rsp)
	movaps	%xmm2, 896(%rsp)
	movaps	%xmm3, 912(%rsp)
	movaps	%xmm3, 1312(%rsp)
	movaps	%xmm2, 1296(%rsp)
	movaps	%xmm1, 1280(%rsp)
	movaps	%xmm0, 1264(%rsp)
	testb	%r15b, %r15b
	je	22f
419:
	movw	$1, (%r12)
	movss	%xmm4, 8(%r12)
	movl	%ebp, 12(%r12)
	movups	%xmm5, 16(%r12)
	movaps	1264(%rsp), %xmm0
	movaps	1280(%rsp), %xmm1
	movaps	1296(%rsp), %xmm2
	movaps	1312(%rsp), %xmm3
	jmp	464f
22:
	xorps	%xmm4, %xmm4
	xorps	%xmm5, %xmm5
	xorl	%eax, %eax
	movb	$1, %r15b
886:
	xorl	%ebp, %ebp
642:
	movb	%al, (%r12)
	movb	%r15b, 1(%r12)
	movss	%xmm5, 8(%r12)
	movl	%ebp, 12(%r12)
	movups	%xmm4, 16(%r12)
	movaps	1088(%rsp), %xmm0
	movaps	1104(%rsp), %xmm1
	movaps	1120(%rsp), %xmm2
	movaps	1136(%rsp), %xmm3
464:
	movups	%xmm0, 32(%r12)
	movups	%xmm1, 48(%r12)
	movups	%xmm2, 64(%r12)
	movups	%xmm3, 80(%r12)
	addq	$1656, %rsp
	popq	%rbx
	popq	%r12
	popq	%r13
	popq	%r14
	popq	%r15
	popq	%rbp
	retq
231:
	xorps	%xmm5, %xmm5
	xorps	%xmm4, %xmm4
	xorl	%r15d, %r15d
	jmp	237b
860:
	callq	tc_live.receiver.Receiver.hand_on._5349ec06ad6c886c
	movzbl	112(%rsp), %r15d
	movsd	120(%rsp), %xmm4
	movl	124(%rsp), %ebp
	movaps	128(%rsp), %xmm5
	movaps	144(%rsp), %xmm0
	movaps	%xmm0, 448(%rsp)
	movaps	160(%rsp), %xmm0
	movaps	%xmm0, 464(%rsp)
	movaps	176(%rsp), %xmm0
	movaps	%xmm0, 480(%rsp)
	movaps	192(%rsp), %xmm0
	movaps	%xmm0, 496(%rsp)
	leaq	.LJa9983fb3_11(%rip), %rax
	movslq	(%rax,%rbx,4), %rcx
	addq	%rax, %rcx
	jmpq	*%rcx
961:
	movq	816(%rsp), %r14
	movq	832(%rsp), %rbx
	cmpq	$0, 808(%rsp)
	movaps	%xmm4, 32(%rsp)
	movaps	%xmm5, 16(%rsp)
	je	47f
	movq	792(%rsp), %rdi
	callq	rattle_dealloc@PLT
	movaps	16(%rsp), %xmm5
	movaps	32(%rsp), %xmm4
47:
	testq	%rbx, %rbx
	je	368b
	movq	%r14, %rdi
193:
	callq	rattle_dealloc@PLT
	movaps	16(%rsp), %xmm5
	movaps	32(%rsp), %xmm4
	jmp	368b
311:
	cmpl	$255, %ecx
	je	802f
	cmpl	$254, %ecx
	movq	80(%rsp), %r10
	je	875f
	cmpl	$239, %ecx
	jne	859b
	cmpb	$-69, 1(%rax)
	jne	859b
	cmpb	$-65, 2(%rax)
	jne	859b
	jmp	302f
311:
	cmpl	$1969583473, (%rdx)
	jne	999f
	leaq	.LTcbc8f03c(%rip), %rax
	movl	$5, %esi
	movq	%rdx, %rdi
	movq	%rdx, %rbx
	movq	%rax, %rdx
	movq	%rcx, %r12
	callq	core.cmp.slices.groups_equal._i8_31_core.cmp.numbers.U8PartialEq
	movq	64(%rsp), %rsi
	movq	%r12, %rcx
	movq	%rbx, %rdx
	movq	80(%rsp), %r10
	testb	%al, %al
	je	999f
	leaq	.LTf506dd5d(%rip), %rax
	jmp	12f
866:
	movzbl	(%rdx), %r8d
	movzbl	1(%rdx), %ebx
	movl	%r8d, %eax
	xorb	$116, %al
	movl	%ebx, %edi
	xorb	$97, %dil
	orb	%al, %dil
	movzbl	2(%rdx), %r12d
	movl	%r12d, %eax
	xorb	$107, %al
	orb	%dil, %al
	movzbl	3(%rdx), %ebp
	movl	%ebp, %edi
	xorb	$101, %dil
	orb	%al, %dil
	jne	509f
	leaq	.LTec03c545(%rip), %rax
	movl	$4, %esi
	movq	%rdx, %rdi
	movq	%rdx, 8(%rsp)
	movq	%rax, %rdx
	movq	%rcx, 16(%rsp)
	movb	%r8b, 72(%rsp)
	callq	core.cmp.slices.groups_equal._i8_31_core.cmp.numbers.U8PartialEq
	movzbl	72(%rsp), %r8d
	movq	64(%rsp), %rsi
	movq	16(%rsp), %rcx
	movq	8(%rsp), %rdx
	testb	%al, %al
	je	509f
	leaq	.LT97e35543(%rip), %rax
	jmp	586f
475:
	cmpl	$1851877475, (%rdx)
	jne	999f
	leaq	.LT7259b668(%rip), %rax
	movl	$7, %esi
	movq	%rdx, %rdi
	movq	%rdx, %rbx
	movq	%rax, %rdx
	movq	%rcx, %r12
	callq	core.cmp.slices.groups_equal._i8_31_core.cmp.numbers.U8PartialEq
	movq	64(%rsp), %rsi
	movq	%r12, %rcx
	movq	%rbx, %rdx
	movq	80(%rsp), %r10
	testb	%al, %al
	je	999f
	leaq	.LTa22647a1(%rip), %rax
	movq	%rax, 72(%rsp)
	movl	$4, %eax
	jmp	913f
509:
	movl	%r8d, %eax
	xorb	$117, %al
	movl	%ebx, %edi
	xorb	$110, %dil
	orb	%al, %dil
	movl	%r12d, %eax
	xorb	$105, %al
	orb	%dil, %al
	movl	%ebp, %edi
	xorb	$116, %dil
	orb	%al, %dil
	jne	482f
	leaq	.LTce6eba13(%rip), %rax
	movl	$4, %esi
	movq	%rdx, %rdi
	movq	%rdx, 8(%rsp)
	movq	%rax, %rdx
	movq	%rcx, 16(%rsp)
	movb	%r8b, 72(%rsp)
	callq	core.cmp.slices.groups_equal._i8_31_core.cmp.numbers.U8PartialEq
	movzbl	72(%rsp), %r8d
	movq	64(%rsp), %rsi
	movq	16(%rsp), %rcx
	movq	8(%rsp), %rdx
	testb	%al, %al
	je	482f
	leaq	.LT122e95d1(%rip), %rax
586:
	movq	%rax, 72(%rsp)
	movl	$2, %eax
	movq	%rax, 256(%rsp)
	movq	80(%rsp), %r10
	jmp	793f
586:
	movq	%r10, 80(%rsp)
	movzbl	(%rdx), %ebp
	movzbl	1(%rdx), %ebx
	movl	%ebp, %eax
	xorb	$113, %al
	movl	%ebx, %ecx
	xorb	$117, %cl
	orb	%al, %cl
	movzbl	2(%rdx), %r14d
	movl	%r14d, %eax
	xorb	$101, %al
	orb	%cl, %al
	movzbl	3(%rdx), %r12d
	movl	%r12d, %ecx
	xorb	$117, %cl
	orb	%al, %cl
	jne	831f
	leaq	.LTcbc8f03c(%rip), %rax
	movl	$5, %esi
	movq	%rdx, %rdi
	movq	%rdx, 8(%rsp)
	movq	%rax, %rdx
	callq	core.cmp.slices.groups_equal._i8_31_core.cmp.numbers.U8PartialEq
	leaq	.LTe3b0c442(%rip), %r8
	movq	64(%rsp), %rsi
	movq	8(%rsp), %rdx
	testb	%al, %al
	je	831f
	leaq	.LT7666c1d5(%rip), %r8
	movl	$30, %r9d
	jmp	422f
765:
	cmpl	$1684955491, (%rdx)
	jne	890b
	leaq	.LT3fe1d88b(%rip), %rax
	movl	$9, %esi
	movq	%rdx, %rdi
	movq	%rax, %rdx
	movq	%r8, %r14
	movq	%r10, %rbx
	callq	core.cmp.slices.groups_equal._i8_31_core.cmp.numbers.U8PartialEq
	movq	%rbx, %r10
	movq	%r14, %r8
	movq	64(%rsp), %rsi
	testb	%al, %al
	je	890b
	leaq	.LTb4d0c9a1(%rip), %r8
	movl	$44, %r9d
	jmp	859b
271:
	movq	%r10, 80(%rsp)
	movzbl	(%rdx), %ebp
	movzbl	1(%rdx), %ebx
	movl	%ebp, %eax
	xorb	$116, %al
	movl	%ebx, %ecx
	xorb	$97, %cl
	orb	%al, %cl
	movzbl	2(%rdx), %r14d
	movl	%r14d, %eax
	xorb	$107, %al
	orb	%cl, %al
	movzbl	3(%rdx), %r12d
	movl	%r12d, %ecx
	xorb	$101, %cl
	orb	%al, %cl
	movq	%rdx, 8(%rsp)
	jne	10f
	leaq	.LTec03c545(%rip), %rax
	movl	$4, %esi
	movq	%rdx, %rdi
	movq	%rax, %rdx
	callq	core.cmp.slices.groups_equal._i8_31_core.cmp.numbers.U8PartialEq
	movq	64(%rsp), %rsi
	movq	8(%rsp), %rdx
	testb	%al, %al
	je	10f
	leaq	.LTa7775bb0(%rip), %r8
	movl	$20, %r9d
	jmp	422f
128:
	cmpl	$1869636978, (%rdx)
	jne	890b
	leaq	.LT9561cdf1(%rip), %rax
	movl	$6, %esi
	movq	%rdx, %rdi
	movq	%rax, %rdx
	movq	%r8, %r14
	movq	%r10, %rbx
	callq	core.cmp.slices.groups_equal._i8_31_core.cmp.numbers.U8PartialEq
	movq	%rbx, %r10
	movq	%r14, %r8
	movq	64(%rsp), %rsi
	testb	%al, %al
	je	890b
	leaq	.LT20344b8d(%rip), %r8
	movl	$17, %r9d
	jmp	859b
976:
	movzbl	(%rdx), %edi
	movzbl	1(%rdx), %ecx
	movzbl	2(%rdx), %ebp
	movzbl	3(%rdx), %eax
	cmpb	$99, %dil
	jne	212f
	cmpb	$104, %cl
	jne	212f
	cmpb	$97, %bpl
	jne	212f
	cmpb	$110, %al
	jne	212f
	movb	%al, 16(%rsp)
	leaq	.LT7259b668(%rip), %rax
	movl	$7, %esi
	movb	%dil, 72(%rsp)
	movq	%rdx, %rdi
	movq	%r10, 80(%rsp)
	movq	%rdx, %rbx
	movq	%rax, %rdx
	movq	%r8, %r14
	movl	%ecx, %r12d
	callq	core.cmp.slices.groups_equal._i8_31_core.cmp.numbers.U8PartialEq
	movzbl	72(%rsp), %edi
	movl	%r12d, %ecx
	movq	%r14, %r8
	movq	64(%rsp), %rsi
	movq	%rbx, %rdx
	movq	80(%rsp), %r10
	testb	%al, %al
	movzbl	16(%rsp), %eax
	je	212f
	leaq	.LTfebbbac6(%rip), %r8
	movl	$42, %r9d
	movq	56(%rsp), %r12
	jmp	859b
459:
	leaq	.LT3235efc0(%rip), %rsi
	leaq	112(%rsp), %rdi
	movl	$1, %edx
	callq	core.fmt.formatter.Formatter.write_indented._1ac78889755d2eb3
	jmp	933b
209:
	movq	%rcx, %rax
	addq	$-3, %rax
	cmpq	$6, %rax
	jbe	999b
	jmp	890b
589:
	movq	%rcx, %r15
	leaq	-3(%r15), %rax
	cmpq	$4, %rax
	jbe	90b
	jmp	999f
594:
	movq	%rdx, %rbx
	movq	%rcx, %rax
	cmpq	$2, %rax
	jb	913b
	jmp	12b
482:
	xorb	$108, %r8b
	xorb	$105, %bl
	orb	%r8b, %bl
	xorb	$110, %r12b
	orb	%bl, %r12b
	xorb	$107, %bpl
	orb	%r12b, %bpl
	movq	80(%rsp), %r10
	jne	999f
	leaq	.LT3beabe2d(%rip), %rax
	movl	$4, %esi
	movq	%rdx, %rdi
	movq	%rdx, %rbx
	movq	%rax, %rdx
	movq	%rcx, %r12
	callq	core.cmp.slices.groups_equal._i8_31_core.cmp.numbers.U8PartialEq
	movq	64(%rsp), %rsi
	movq	%r12, %rcx
	movq	%rbx, %rdx
	movq	80(%rsp), %r10
	testb	%al, %al
	je	999f
	leaq	.LT01a22a66(%rip), %rax
12:
	movq	%rax, 72(%rsp)
	movl	$3, %eax
	jmp	913f
999:
	leaq	.LT84067936(%rip), %rax
	movq	%rax, 72(%rsp)
	movl	$1, %eax
913:
	movq	%rax, 256(%rsp)
793:
	addq	%r15, %rdx
	subq	%r15, %rcx
	xorl	%r12d, %r12d
	leaq	.LTe3b0c442(%rip), %r8
	movq	%r13, 96(%rsp)
657:
	xorl	%ebp, %ebp
	testq	%rcx, %rcx
	je	980f
	.p2align	4
782:
	movzbl	(%rdx,%rbp), %eax
	cmpq	$32, %rax
	ja	980f
	btq	%rax, %r14
	jae	980f
	incq	%rbp
	cmpq	%rbp, %rcx
	jne	782b
	movq	%rcx, %rbp
980:
	subq	%rbp, %rcx
	je	657f
	leaq	(%rdx,%rbp), %r15
	cmpq	$63, %rcx
	ja	12f
	xorl	%eax, %eax
	jmp	782f
629:
	incq	%rax
	cmpq	%rax, %rcx
	je	209f
782:
	movzbl	(%r15,%rax), %edi
	cmpq	$32, %rdi
	ja	629b
	btq	%rdi, %r14
	jae	629b
	jmp	913f
12:
	movq	%r15, %rdi
	movq	%rcx, %rsi
	movq	%rdx, %rbx
	movq	%rcx, %r13
	callq	tc_lines.word.long_word_length
	movq	64(%rsp), %rsi
	movq	%r13, %rcx
	movq	96(%rsp), %r13
	movq	%rbx, %rdx
	movq	80(%rsp), %r10
913:
	movq	72(%rsp), %rdi
	movzbl	(%rdi,%r12), %edi
	leaq	-6(%rax), %r8
	cmpq	$-5, %r8
	jb	458f
	testq	%rax, %rax
	je	378f
	movzbl	(%r15), %r8d
	addb	$-48, %r8b
	cmpb	$9, %r8b
	ja	458f
	cmpq	$1, %rax
	je	509f
	movzbl	1(%r15), %r8d
	addb	$-48, %r8b
	cmpb	$9, %r8b
	ja	458f
	cmpq	$2, %rax
	je	509f
	movzbl	2(%r15), %r8d
	addb	$-48, %r8b
	cmpb	$9, %r8b
	ja	458f
	cmpq	$3, %rax
	je	509f
	movzbl	3(%r15), %r8d
	addb	$-48, %r8b
	cmpb	$9, %r8b
	ja	458f
	cmpq	$4, %rax
	je	509f
	movzbl	4(%r15), %r8d
	addb	$-48, %r8b
	cmpb	$9, %r8b
	ja	458f
	cmpq	$5, %rax
	jne	458f
509:
	movl	%eax, %r8d
	andl	$3, %r8d
	cmpq	$4, %rax
	jae	509f
	movq	%r10, %rbx
	xorl	%r9d, %r9d
	xorl	%edx, %edx
	jmp	793f
378:
	xorl	%r9d, %r9d
	jmp	90f
509:
	movl	%eax, %r10d
	andl	$4, %r10d
	leaq	(%rdx,%rbp), %r11
	addq	$3, %r11
	xorl	%r9d, %r9d
	xorl	%edx, %edx
373:
	leal	(%r9,%r9,4), %r9d
	movzbl	-3(%r11,%rdx), %ebx
	movzbl	-2(%r11,%rdx), %ebp
	addb	$-48, %bl
	movzbl	%bl, %ebx
	leal	(%rbx,%r9,2), %r9d
	leal	(%r9,%r9,4), %r9d
	addb	$-48, %bpl
	movzbl	%bpl, %ebx
	leal	(%rbx,%r9,2), %r9d
	leal	(%r9,%r9,4), %r9d
	movzbl	-1(%r11,%rdx), %ebx
	addb	$-48, %bl
	movzbl	%bl, %ebx
	leal	(%rbx,%r9,2), %r9d
	leal	(%r9,%r9,4), %r9d
	movzbl	(%r11,%rdx), %ebx
	addb	$-48, %bl
	movzbl	%bl, %ebx
	leal	(%rbx,%r9,2), %r9d
	addq	$4, %rdx
	cmpq	%rdx, %r10
	jne	373b
	testq	%r8, %r8
	movq	80(%rsp), %rbx
	je	515f
793:
	addq	%r15, %rdx
	xorl	%r10d, %r10d
	.p2align	4
373:
	leal	(%r9,%r9,4), %r9d
	movzbl	(%rdx,%r10), %r11d
	addb	$-48, %r11b
	movzbl	%r11b, %r11d
	leal	(%r11,%r9,2), %r9d
	incq	%r10
	cmpq	%r10, %r8
	jne	373b
515:
	cmpl	$65535, %r9d
	movq	%rbx, %r10
	ja	458f
90:
	leaq	.Lswitch.table.tc_session.engine.Engine.answer._5349ec06ad6c886c_.631(%rip), %rdx
	cmpw	(%rdx,%rdi,2), %r9w
	ja	458f
	addq	%rax, %r15
	subq	%rax, %rcx
	incq	%r12
	xorl	%r9d, %r9d
	movq	%r15, %rdx
	cmpq	256(%rsp), %r12
	leaq	.LTe3b0c442(%rip), %r8
	jne	657b
	jmp	12f
209:
	movq	%rcx, %rax
	jmp	913b
458:
	leaq	.Lswitch.table.tc_session.engine.Engine.answer._5349ec06ad6c886c_.632(%rip), %rax
	movq	(%rax,%rdi,8), %r9
	leaq	.Lswitch.table.tc_session.engine.Engine.answer._5349ec06ad6c886c_.633.rel(%rip), %rax
	movslq	(%rax,%rdi,4), %r8
	addq	%rax, %r8
	jmp	12f
657:
	xorl	%r9d, %r9d
12:
	movq	56(%rsp), %r12
	movq	32(%rsp), %r15
	jmp	859b
831:
	xorb	$102, %bpl
	xorb	$114, %bl
	orb	%bpl, %bl
	xorb	$97, %r14b
	orb	%bl, %r14b
	xorb	$109, %r12b
	orb	%r14b, %r12b
	movq	56(%rsp), %r12
	movq	80(%rsp), %r10
	jne	890b
	leaq	.LT4903b024(%rip), %rax
	movl	$5, %esi
	movq	%rdx, %rdi
	movq	%rax, %rdx
	movq	%r8, %r14
	movq	%r10, %rbx
	callq	core.cmp.slices.groups_equal._i8_31_core.cmp.numbers.U8PartialEq
	movq	%rbx, %r10
	movq	%r14, %r8
	movq	64(%rsp), %rsi
	testb	%al, %al
	je	890b
	leaq	.LT4519a8fe(%rip), %r8
	movl	$40, %r9d
	jmp	859b
10:
	movl	%ebp, %eax
	xorb	$117, %al
	movl	%ebx, %ecx
	xorb	$110, %cl
	orb	%al, %cl
	movl	%r14d, %eax
	xorb	$105, %al
	orb	%cl, %al
	movl	%r12d, %ecx
	xorb	$116, %cl
	orb	%al, %cl
	jne	509f
	leaq	.LTce6eba13(%rip), %rax
	movl	$4, %esi
	movq	%rdx, %rdi
	movq	%rax, %rdx
	callq	core.cmp.slices.groups_equal._i8_31_core.cmp.numbers.U8PartialEq
	movq	64(%rsp), %rsi
	movq	8(%rsp), %rdx
	testb	%al, %al
	je	509f
	leaq	.LTf6c2c042(%rip), %r8
	movl	$19, %r9d
	jmp	422f
212:
	cmpb	$108, %bpl
	jne	212f
	cmpb	$101, %cl
	jne	212f
	cmpb	$114, %dil
	jne	212f
	cmpb	$101, %al
	jne	212f
	leaq	.LT4a7dd6d5(%rip), %rax
	movl	$7, %esi
	movq	%rdx, %rdi
	movq	%rax, %rdx
	movq	%r8, %r14
	movq	%r10, %rbx
	callq	core.cmp.slices.groups_equal._i8_31_core.cmp.numbers.U8PartialEq
	movq	%rbx, %r10
	movq	%r14, %r8
	movq	64(%rsp), %rsi
	testb	%al, %al
	movq	56(%rsp), %r12
	je	890b
	leaq	.LT82b69449(%rip), %r8
	movl	$18, %r9d
	jmp	859b
600:
	movq	%rbx, %rsi
	cmpb	$1, 16(%rbx)
	movq	%r13, %r11
	je	850b
	jmp	214f
710:
	movq	%rbx, %rsi
	cmpb	$1, 16(%rbx)
	movq	16(%rsp), %rcx
	movq	%rbp, %r11
	je	928b
	jmp	214f
928:
	movq	%rbx, %rsi
	cmpb	$1, 16(%rbx)
	movq	%r13, %r11
	je	880b
214:
	ud2
111:
	cmpb	$-1, 1(%rax)
	jmp	928f
509:
	movl	%ebp, %eax
	xorb	$99, %al
	movl	%ebx, %ecx
	xorb	$108, %cl
	orb	%al, %cl
	movl	%r14d, %eax
	xorb	$99, %al
	orb	%cl, %al
	movl	%r12d, %ecx
	xorb	$119, %cl
	orb	%al, %cl
	jne	482f
	leaq	.LTd51b947e(%rip), %rax
	movl	$4, %esi
	movq	%rdx, %rdi
	movq	%rax, %rdx
	callq	core.cmp.slices.groups_equal._i8_31_core.cmp.numbers.U8PartialEq
	movq	64(%rsp), %rsi
	movq	8(%rsp), %rdx
	testb	%al, %al
	je	482f
	leaq	.LT28500682(%rip), %r8
	movl	$15, %r9d
422:
	movq	56(%rsp), %r12
	movq	80(%rsp), %r10
	jmp	859b
875:
	cmpb	$-1, 1(%rax)
	jne	859b
	jmp	302f
802:
	cmpb	$-2, 1(%rax)
928:
	movq	80(%rsp), %r10
	jne	859b
302:
	leaq	.LTe897ed64(%rip), %r8
	movl	$66, %r9d
	jmp	859b
482:
	xorb	$108, %bpl
	xorb	$105, %bl
	orb	%bpl, %bl
	xorb	$110, %r14b
	orb	%bl, %r14b
	xorb	$107, %r12b
	orb	%r14b, %r12b
	movq	56(%rsp), %r12
	movq	80(%rsp), %r10
	leaq	.LTe3b0c442(%rip), %r8
	jne	890b
	leaq	.LT3beabe2d(%rip), %rax
	movl	$4, %esi
	movq	%rdx, %rdi
	movq	%rax, %rdx
	movq	%r10, %rbx
	callq	core.cmp.slices.groups_equal._i8_31_core.cmp.numbers.U8PartialEq
	movq	%rbx, %r10
	leaq	.LTe3b0c442(%rip), %r8
	movq	64(%rsp), %rsi
	testb	%al, %al
	je	890b
	leaq	.LT0a6e5077(%rip), %r8
	movl	$21, %r9d
	jmp	859b
212:
	cmpb	$108, %bpl
	jne	868f
	cmpb	$101, %cl
	jne	868f
	cmpb	$100, %dil
	jne	868f
	cmpb	$105, %al
	jne	868f
	leaq	.LT9ce88526(%rip), %rax
	movl	$7, %esi
	movq	%rdx, %rdi
	movq	%rax, %rdx
	movq	%r8, %r14
	movq	%r10, %rbx
	callq	core.cmp.slices.groups_equal._i8_31_core.cmp.numbers.U8PartialEq
	movq	%rbx, %r10
	movq	%r14, %r8
	movq	64(%rsp), %rsi
	testb	%al, %al
	movq	56(%rsp), %r12
	je	890b
	leaq	.LTa322abf3(%rip), %r8
	movl	$18, %r9d
	jmp	859b
716:
	movq	712(%rsp), %rbx
	movb	$4, %r15b
	movb	$1, %bpl
	movdqa	720(%rsp), %xmm2
	xorl	%eax, %eax
	movq	16(%rsp), %rcx
604:
	movq	%r13, %rdi
	movq	%rax, %r13
	movdqa	80(%rsp), %xmm1
	pshufd	$238, %xmm1, %xmm0
	movq	%xmm0, %rax
	testq	%rax, %rax
	jne	469b
	jmp	1b
78:
	movzbl	3(%rdi,%rdx), %r8d
	shll	$8, %r8d
	movzbl	2(%rdi,%rdx), %r9d
	andl	$3, %r9d
	orl	%r8d, %r9d
	rolw	$8, %r9w
	cmpw	$5, %r9w
	jb	868b
	incl	%r9d
	movzwl	%r9w, %r8d
	cmpq	%r8, %rax
	jb	868b
423:
	pshufd	$238, %xmm1, %xmm0
	movq	%xmm0, %rax
	testq	%rax, %rax
	je	68f
	callq	rattle_dealloc@PLT
	movq	16(%rsp), %rcx
68:
	pxor	%xmm0, %xmm0
	movdqa	%xmm0, 576(%rsp)
	movdqa	%xmm0, 560(%rsp)
	movdqa	%xmm0, 544(%rsp)
	movdqa	%xmm0, 528(%rsp)
	movb	$5, %r13b
	xorl	%ebp, %ebp
	xorl	%r11d, %r11d
	xorl	%ebx, %ebx
	xorl	%r12d, %r12d
	jmp	268b
868:
	cmpb	$108, %bpl
	movq	56(%rsp), %r12
	jne	890b
	cmpb	$99, %dil
	jne	890b
	cmpb	$111, %cl
	jne	890b
	cmpb	$108, %al
	jne	890b
	leaq	.LT56694b3d(%rip), %rax
	movl	$7, %esi
	movq	%rdx, %rdi
	movq	%rax, %rdx
	movq	%r8, %r14
	movq	%r10, %rbx
	callq	core.cmp.slices.groups_equal._i8_31_core.cmp.numbers.U8PartialEq
	movq	%rbx, %r10
	movq	%r14, %r8
	movq	64(%rsp), %rsi
	testb	%al, %al
	je	890b
	leaq	.LTb6aa9e24(%rip), %r8
	movl	$18, %r9d
	jmp	859b
44:
	xorl	%ebp, %ebp
	leaq	-6(%rbx), %rcx
	cmpq	$-5, %rcx
	jb	930f
409:
	movb	$1, %r9b
	testq	%rbx, %rbx
	je	886f
	movzbl	(%rdi), %ecx
	addb	$-48, %cl
	cmpb	$9, %cl
	ja	930f
	movq	%rbx, %r8
	movq	%rbx, %r10
	cmpq	$1, %rbx
	jne	78f
509:
	movl	%r10d, %ecx
	andl	$3, %ecx
	cmpq	$4, %r10
	jae	966f
	xorl	%edx, %edx
	xorl	%r10d, %r10d
	jmp	757f
435:
	leaq	-6(%rbx), %rax
	cmpq	$-5, %rax
	jb	343f
759:
	xorl	%eax, %eax
778:
	cmpq	%rax, %rbx
	je	12f
	movzbl	(%r14,%rax), %ecx
	addb	$-48, %cl
	incq	%rax
	cmpb	$10, %cl
	jb	778b
	jmp	343f
838:
	andl	$4, %ecx
	xorl	%edi, %edi
	xorl	%esi, %esi
373:
	leal	(%rdi,%rdi,4), %edi
	movzbl	(%rax,%rsi), %r8d
	movzbl	1(%rax,%rsi), %r9d
	addb	$-48, %r8b
	movzbl	%r8b, %r8d
	leal	(%r8,%rdi,2), %edi
	leal	(%rdi,%rdi,4), %edi
	addb	$-48, %r9b
	movzbl	%r9b, %r8d
	leal	(%r8,%rdi,2), %edi
	leal	(%rdi,%rdi,4), %edi
	movzbl	2(%rax,%rsi), %r8d
	addb	$-48, %r8b
	movzbl	%r8b, %r8d
	leal	(%r8,%rdi,2), %edi
	leal	(%rdi,%rdi,4), %edi
	movzbl	3(%rax,%rsi), %r8d
	addb	$-48, %r8b
	movzbl	%r8b, %r8d
	leal	(%r8,%rdi,2), %edi
	addq	$4, %rsi
	cmpq	%rsi, %rcx
	jne	373b
	testq	%rdx, %rdx
	je	515f
822:
	addq	%rsi, %rax
	xorl	%ecx, %ecx
373:
	leal	(%rdi,%rdi,4), %esi
	movzbl	(%rax,%rcx), %edi
	addb	$-48, %dil
	movzbl	%dil, %edi
	leal	(%rdi,%rsi,2), %edi
	incq	%rcx
	cmpq	%rcx, %rdx
	jne	373b
515:
	cmpl	$65535, %edi
	ja	289f
649:
	movq	40(%r10), %rcx
	leaq	-6(%rcx), %rax
	movb	$1, %r8b
	xorl	%r12d, %r12d
	cmpq	$-5, %rax
	jb	657f
	testq	%rcx, %rcx
	movq	%rdi, 64(%rsp)
	je	928f
	movq	32(%r10), %rax
	movzbl	(%rax), %edx
	addb	$-48, %dl
	cmpb	$9, %dl
	ja	657f
	movq	%r11, %r14
	cmpq	$1, %rcx
	jne	782f
10:
	movl	%ecx, %edx
	andl	$3, %edx
	cmpq	$4, %rcx
	jae	610f
	xorl	%edi, %edi
	xorl	%esi, %esi
	jmp	850f
657:
	xorl	%eax, %eax
	movb	$1, %r9b
	jmp	289b
289:
	xorl	%r12d, %r12d
	xorl	%eax, %eax
	xorl	%r9d, %r9d
	xorl	%ebx, %ebx
	movq	$0, 16(%rsp)
	xorl	%edi, %edi
	xorl	%edx, %edx
	movq	$0, 8(%rsp)
	xorl	%ecx, %ecx
	xorl	%ebp, %ebp
	xorl	%r13d, %r13d
	movb	$1, %r8b
	jmp	389b
80:
	andl	$4, %ecx
	xorl	%r12d, %r12d
	xorl	%esi, %esi
373:
	leal	(%r12,%r12,4), %edi
	movzbl	(%rax,%rsi), %r8d
	movzbl	1(%rax,%rsi), %r9d
	addb	$-48, %r8b
	movzbl	%r8b, %r8d
	leal	(%r8,%rdi,2), %edi
	leal	(%rdi,%rdi,4), %edi
	addb	$-48, %r9b
	movzbl	%r9b, %r8d
	leal	(%r8,%rdi,2), %edi
	leal	(%rdi,%rdi,4), %edi
	movzbl	2(%rax,%rsi), %r8d
	addb	$-48, %r8b
	movzbl	%r8b, %r8d
	leal	(%r8,%rdi,2), %edi
	leal	(%rdi,%rdi,4), %edi
	movzbl	3(%rax,%rsi), %r8d
	addb	$-48, %r8b
	movzbl	%r8b, %r8d
	leal	(%r8,%rdi,2), %r12d
	addq	$4, %rsi
	cmpq	%rsi, %rcx
	jne	373b
	testq	%rdx, %rdx
	movb	$1, %r8b
	je	515f
194:
	addq	%rsi, %rax
	xorl	%ecx, %ecx
373:
	leal	(%r12,%r12,4), %esi
	movzbl	(%rax,%rcx), %edi
	addb	$-48, %dil
	movzbl	%dil, %edi
	leal	(%rdi,%rsi,2), %r12d
	incq	%rcx
	cmpq	%rcx, %rdx
	jne	373b
515:
	cmpl	$255, %r12d
	ja	289f
385:
	movq	32(%r10), %rdi
	movq	40(%r10), %rax
	cmpq	$6, %rax
	je	515f
	cmpq	$7, %rax
	jne	394f
	cmpl	$1920102243, (%rdi)
	jne	394f
	leaq	.LTdda79b15(%rip), %rdx
	movl	$7, %esi
	callq	core.cmp.slices.groups_equal._i8_31_core.cmp.numbers.U8PartialEq
	movb	$1, %r8b
	movq	%r14, %r11
	movq	%rbx, %r10
	testb	%al, %al
	je	394f
	movq	%r12, 16(%rsp)
	movb	$1, %dil
	movb	$11, %bl
	xorl	%r12d, %r12d
	xorl	%eax, %eax
	xorl	%edx, %edx
	movq	$0, 8(%rsp)
	xorl	%ecx, %ecx
	xorl	%ebp, %ebp
	xorl	%r13d, %r13d
	xorl	%r8d, %r8d
	xorl	%r14d, %r14d
	xorl	%r9d, %r9d
	jmp	430b
515:
	cmpl	$1702126948, (%rdi)
	jne	394f
	leaq	.LT10360ae0(%rip), %rdx
	movl	$6, %esi
	callq	core.cmp.slices.groups_equal._i8_31_core.cmp.numbers.U8PartialEq
	movb	$1, %r8b
	movq	%r14, %r11
	movq	%rbx, %r10
	testb	%al, %al
	je	394f
	movq	%r12, 16(%rsp)
	movb	$11, %bl
	xorl	%r12d, %r12d
	xorl	%eax, %eax
	xorl	%edx, %edx
	movq	$0, 8(%rsp)
	xorl	%ecx, %ecx
	xorl	%ebp, %ebp
	xorl	%r13d, %r13d
	xorl	%r8d, %r8d
	xorl	%r14d, %r14d
	xorl	%r9d, %r9d
	xorl	%edi, %edi
	jmp	430b
394:
	movb	$5, %r14b
	xorl	%r12d, %r12d
	xorl	%eax, %eax
	xorl	%edx, %edx
	movq	$0, 8(%rsp)
	xorl	%ecx, %ecx
	xorl	%ebp, %ebp
	xorl	%r13d, %r13d
	xorl	%r9d, %r9d
	xorl	%ebx, %ebx
	movq	$0, 16(%rsp)
	xorl	%edi, %edi
	jmp	430b
289:
	xorl	%r12d, %r12d
	xorl	%eax, %eax
	xorl	%edx, %edx
	movq	$0, 8(%rsp)
	xorl	%ecx, %ecx
	xorl	%ebp, %ebp
	xorl	%r13d, %r13d
	xorl	%ebx, %ebx
	movq	$0, 16(%rsp)
	xorl	%edi, %edi
	movb	$3, %r14b
	movb	$8, %r9b
	jmp	430b
928:
	movq	%r11, %r14
	movq	$0, 8(%rsp)
	jmp	913f
12:
	movq	%r9, %r15
	xorl	%eax, %eax
	testq	%rbx, %rbx
	je	12f
	movl	%ebx, %eax
	andl	$3, %eax
	cmpq	$4, %rbx
	jae	223f
	xorl	%ecx, %ecx
	xorl	%edx, %edx
	jmp	880f
428:
	movzbl	1(%rax), %edx
	addb	$-48, %dl
	cmpb	$9, %dl
	ja	179f
	cmpq	$2, %rcx
	je	981b
	movzbl	2(%rax), %edx
	addb	$-48, %dl
	cmpb	$9, %dl
	ja	179f
	cmpq	$3, %rcx
	je	981b
	movzbl	3(%rax), %edx
	addb	$-48, %dl
	cmpb	$9, %dl
	ja	179f
	cmpq	$4, %rcx
	je	981b
	movzbl	4(%rax), %edx
	addb	$-48, %dl
	cmpb	$9, %dl
	ja	179f
	cmpq	$5, %rcx
	je	981b
	jmp	179f
199:
	movzbl	1(%r9), %ecx
	addb	$-48, %cl
	cmpb	$9, %cl
	ja	930f
	cmpq	$2, %r10
	je	434b
	movzbl	2(%r9), %ecx
	addb	$-48, %cl
	cmpb	$9, %cl
	ja	930f
	cmpq	$3, %r10
	je	434b
	movzbl	3(%r9), %ecx
	addb	$-48, %cl
	cmpb	$9, %cl
	ja	930f
	cmpq	$4, %r10
	je	434b
	movzbl	4(%r9), %ecx
	addb	$-48, %cl
	cmpb	$10, %cl
	setb	%cl
	cmpq	$5, %r10
	sete	%dl
	testb	%dl, %cl
	jne	434b
	jmp	930f
962:
	andl	$4, %ecx
	xorl	%r12d, %r12d
	xorl	%esi, %esi
373:
	leal	(%r12,%r12,4), %edi
	movzbl	(%rax,%rsi), %r8d
	movzbl	1(%rax,%rsi), %r9d
	addb	$-48, %r8b
	movzbl	%r8b, %r8d
	leal	(%r8,%rdi,2), %edi
	leal	(%rdi,%rdi,4), %edi
	addb	$-48, %r9b
	movzbl	%r9b, %r8d
	leal	(%r8,%rdi,2), %edi
	leal	(%rdi,%rdi,4), %edi
	movzbl	2(%rax,%rsi), %r8d
	addb	$-48, %r8b
	movzbl	%r8b, %r8d
	leal	(%r8,%rdi,2), %edi
	leal	(%rdi,%rdi,4), %edi
	movzbl	3(%rax,%rsi), %r8d
	addb	$-48, %r8b
	movzbl	%r8b, %r8d
	leal	(%r8,%rdi,2), %r12d
	addq	$4, %rsi
	cmpq	%rsi, %rcx
	jne	373b
	testq	%rdx, %rdx
	je	515f
874:
	addq	%rsi, %rax
	xorl	%ecx, %ecx
373:
	leal	(%r12,%r12,4), %esi
	movzbl	(%rax,%rcx), %edi
	addb	$-48, %dil
	movzbl	%dil, %edi
	leal	(%rdi,%rsi,2), %r12d
	incq	%rcx
	cmpq	%rcx, %rdx
	jne	373b
515:
	cmpl	$65536, %r12d
	movq	80(%rsp), %rsi
	movq	32(%rsp), %r15
	movq	72(%rsp), %r10
	movq	64(%rsp), %r11
	jae	179f
978:
	movq	40(%r10), %rcx
	leaq	-6(%rcx), %rax
	cmpq	$-5, %rax
	jb	68f
	testq	%rcx, %rcx
	je	289f
	movq	32(%r10), %rax
	movzbl	(%rax), %edx
	addb	$-48, %dl
	cmpb	$9, %dl
	ja	68f
	cmpq	$1, %rcx
	jne	212f
981:
	movl	%ecx, %edx
	andl	$3, %edx
	cmpq	$4, %rcx
	jae	23f
	xorl	%ebx, %ebx
	xorl	%esi, %esi
	jmp	793f
179:
	pxor	%xmm1, %xmm1
	movdqa	%xmm1, 1024(%rsp)
	movb	$5, %r9b
394:
	movb	$3, %al
	movl	%eax, 8(%rsp)
	movb	$1, %r8b
	xorl	%r12d, %r12d
	xorl	%r14d, %r14d
	xorl	%ebx, %ebx
	xorl	%edx, %edx
	xorl	%ecx, %ecx
	testq	%r11, %r11
	jne	966b
	jmp	587b
289:
	xorl	%ebx, %ebx
	jmp	209f
782:
	movzbl	1(%rax), %edx
	addb	$-48, %dl
	cmpb	$9, %dl
	ja	657f
	cmpq	$2, %rcx
	je	10b
	movzbl	2(%rax), %edx
	addb	$-48, %dl
	cmpb	$9, %dl
	ja	657f
	cmpq	$3, %rcx
	je	10b
	movzbl	3(%rax), %edx
	addb	$-48, %dl
	cmpb	$9, %dl
	ja	657f
	cmpq	$4, %rcx
	je	10b
	movzbl	4(%rax), %edx
	addb	$-48, %dl
	cmpb	$9, %dl
	ja	289f
	cmpq	$5, %rcx
	je	10b
289:
	xorl	%eax, %eax
	movb	$1, %r9b
	xorl	%ebx, %ebx
	movq	$0, 16(%rsp)
	xorl	%edi, %edi
	xorl	%edx, %edx
	movq	$0, 8(%rsp)
	xorl	%ecx, %ecx
	xorl	%ebp, %ebp
	xorl	%r13d, %r13d
	movq	32(%rsp), %r15
	movq	%r14, %r11
	jmp	394f
523:
	andl	$4, %r10d
	xorl	%edx, %edx
	xorl	%r11d, %r11d
373:
	leal	(%rdx,%rdx,4), %edx
	movzbl	(%r9,%r11), %r8d
	movzbl	1(%r9,%r11), %ebx
	addb	$-48, %r8b
	movzbl	%r8b, %r8d
	leal	(%r8,%rdx,2), %edx
	leal	(%rdx,%rdx,4), %edx
	addb	$-48, %bl
	movzbl	%bl, %r8d
	leal	(%r8,%rdx,2), %edx
	leal	(%rdx,%rdx,4), %edx
	movzbl	2(%r9,%r11), %r8d
	addb	$-48, %r8b
	movzbl	%r8b, %r8d
	leal	(%r8,%rdx,2), %edx
	leal	(%rdx,%rdx,4), %edx
	movzbl	3(%r9,%r11), %r8d
	addb	$-48, %r8b
	movzbl	%r8b, %r8d
	leal	(%r8,%rdx,2), %edx
	addq	$4, %r11
	cmpq	%r11, %r10
	jne	373b
	testq	%rcx, %rcx
	je	515f
206:
	addq	%r11, %r9
	xorl	%r10d, %r10d
373:
	leal	(%rdx,%rdx,4), %edx
	movzbl	(%r9,%r10), %r8d
	addb	$-48, %r8b
	movzbl	%r8b, %r8d
	leal	(%r8,%rdx,2), %edx
	incq	%r10
	cmpq	%r10, %rcx
	jne	373b
515:
	cmpl	$255, %edx
	ja	930f
	xorl	%ebp, %ebp
	testl	%edx, %edx
	je	928f
	cmpl	$1, %edx
	jne	44f
	movw	$1, %bp
928:
	movq	%r15, %rbx
	leaq	-6(%rbx), %rcx
	cmpq	$-5, %rcx
	jae	409b
	jmp	930f
605:
	xorl	%r9d, %r9d
	xorl	%r11d, %r11d
	xorl	%ebp, %ebp
	movq	%rbx, %rsi
	jmp	589f
863:
	movq	8(%rsp), %rdx
	movq	16(%rsp), %rcx
	movq	56(%rsp), %r12
	movq	32(%rsp), %r15
	movb	$2, %r10b
	jmp	343b
610:
	andl	$4, %ecx
	xorl	%edi, %edi
	xorl	%esi, %esi
373:
	leal	(%rdi,%rdi,4), %edi
	movzbl	(%rax,%rsi), %r8d
	movzbl	1(%rax,%rsi), %r9d
	addb	$-48, %r8b
	movzbl	%r8b, %r8d
	leal	(%r8,%rdi,2), %edi
	leal	(%rdi,%rdi,4), %edi
	addb	$-48, %r9b
	movzbl	%r9b, %r8d
	leal	(%r8,%rdi,2), %edi
	leal	(%rdi,%rdi,4), %edi
	movzbl	2(%rax,%rsi), %r8d
	addb	$-48, %r8b
	movzbl	%r8b, %r8d
	leal	(%r8,%rdi,2), %edi
	leal	(%rdi,%rdi,4), %edi
	movzbl	3(%rax,%rsi), %r8d
	addb	$-48, %r8b
	movzbl	%r8b, %r8d
	leal	(%r8,%rdi,2), %edi
	addq	$4, %rsi
	cmpq	%rsi, %rcx
	jne	373b
	testq	%rdx, %rdx
	je	928f
850:
	addq	%rsi, %rax
	xorl	%ecx, %ecx
373:
	leal	(%rdi,%rdi,4), %esi
	movzbl	(%rax,%rcx), %edi
	addb	$-48, %dil
	movzbl	%dil, %edi
	leal	(%rdi,%rsi,2), %edi
	incq	%rcx
	cmpq	%rcx, %rdx
	jne	373b
928:
	movq	%rdi, 8(%rsp)
	cmpl	$255, %edi
	ja	657f
913:
	movq	%r10, %rbx
	movq	56(%r10), %rcx
	leaq	-6(%rcx), %rax
	cmpq	$-5, %rax
	jae	47f
289:
	xorl	%r12d, %r12d
	xorl	%eax, %eax
	movq	$0, 16(%rsp)
	xorl	%edi, %edi
	xorl	%edx, %edx
	movq	$0, 8(%rsp)
	xorl	%ecx, %ecx
	xorl	%ebp, %ebp
	xorl	%r13d, %r13d
	movq	32(%rsp), %r15
	movq	%rbx, %r10
	xorl	%ebx, %ebx
	movq	%r14, %r11
	movb	$3, %r14b
	movb	$1, %r8b
	movb	$4, %r9b
	jmp	389b
47:
	testq	%rcx, %rcx
	je	378f
	movq	48(%rbx), %rax
	movzbl	(%rax), %edx
	addb	$-48, %dl
	cmpb	$9, %dl
	ja	289f
	cmpq	$1, %rcx
	je	434f
	movzbl	1(%rax), %edx
	addb	$-48, %dl
	cmpb	$9, %dl
	ja	289b
	cmpq	$2, %rcx
	je	434f
	movzbl	2(%rax), %edx
	addb	$-48, %dl
	cmpb	$9, %dl
	ja	289b
	cmpq	$3, %rcx
	jne	199f
434:
	movl	%ecx, %edx
	andl	$3, %edx
	cmpq	$4, %rcx
	jae	523f
	xorl	%ebp, %ebp
	xorl	%esi, %esi
	jmp	850f
657:
	xorl	%r12d, %r12d
	xorl	%eax, %eax
	movb	$1, %r9b
	xorl	%ebx, %ebx
	movq	$0, 16(%rsp)
	xorl	%edi, %edi
	xorl	%edx, %edx
	movq	$0, 8(%rsp)
	xorl	%ecx, %ecx
	xorl	%ebp, %ebp
	xorl	%r13d, %r13d
	movq	32(%rsp), %r15
	movq	%r14, %r11
	jmp	409f
855:
	xorl	%r12d, %r12d
	xorl	%eax, %eax
	xorl	%r9d, %r9d
	xorl	%ebx, %ebx
	movq	$0, 16(%rsp)
	xorl	%edx, %edx
	movq	$0, 8(%rsp)
	xorl	%ecx, %ecx
	xorl	%ebp, %ebp
	xorl	%r13d, %r13d
	movq	32(%rsp), %r15
	movq	%rsi, %r10
	movq	%rdi, %r11
	xorl	%edi, %edi
409:
	movb	$3, %r14b
	movb	$1, %r8b
	jmp	389b
905:
	xorl	%r12d, %r12d
	xorl	%eax, %eax
	xorl	%edx, %edx
	movq	$0, 8(%rsp)
	xorl	%ecx, %ecx
	xorl	%ebp, %ebp
	xorl	%r13d, %r13d
	movq	$0, 16(%rsp)
	xorl	%edi, %edi
	movq	32(%rsp), %r15
	movq	%rbx, %r10
	xorl	%ebx, %ebx
	movq	%r14, %r11
	movb	$3, %r14b
	movb	$1, %r8b
	movb	$8, %r9b
	jmp	430b
223:
	andq	$-4, %rbx
	xorl	%edx, %edx
	xorl	%ecx, %ecx
373:
	leal	(%rdx,%rdx,4), %edx
	movzbl	(%r14,%rcx), %esi
	movzbl	1(%r14,%rcx), %edi
	addb	$-48, %sil
	movzbl	%sil, %esi
	leal	(%rsi,%rdx,2), %edx
	leal	(%rdx,%rdx,4), %edx
	addb	$-48, %dil
	movzbl	%dil, %esi
	leal	(%rsi,%rdx,2), %edx
	leal	(%rdx,%rdx,4), %edx
	movzbl	2(%r14,%rcx), %esi
	addb	$-48, %sil
	movzbl	%sil, %esi
	leal	(%rsi,%rdx,2), %edx
	leal	(%rdx,%rdx,4), %edx
	movzbl	3(%r14,%rcx), %esi
	addb	$-48, %sil
	movzbl	%sil, %esi
	leal	(%rsi,%rdx,2), %edx
	addq	$4, %rcx
	cmpq	%rcx, %rbx
	jne	373b
	testq	%rax, %rax
	je	928f
880:
	addq	%rcx, %r14
	xorl	%ecx, %ecx
373:
	leal	(%rdx,%rdx,4), %edx
	movzbl	(%r14,%rcx), %esi
	addb	$-48, %sil
	movzbl	%sil, %esi
	leal	(%rsi,%rdx,2), %edx
	incq	%rcx
	cmpq	%rcx, %rax
	jne	373b
928:
	movq	%rdx, %rax
	cmpl	$255, %edx
	movq	72(%rsp), %r10
	ja	343f
12:
	movq	%rax, %r14
	shll	$8, %r14d
	orl	$3, %r14d
	movb	$1, %bpl
505:
	movq	72(%rsp), %rax
	movq	80(%rax), %rsi
	movq	88(%rax), %rdx
	pxor	%xmm0, %xmm0
	movdqa	%xmm0, 288(%rsp)
	movdqa	%xmm0, 272(%rsp)
	leaq	272(%rsp), %rdi
	callq	tc_make.line.octets
	cmpb	$0, 272(%rsp)
	je	10f
	movzbl	273(%rsp), %eax
	movl	%eax, 8(%rsp)
	movzbl	274(%rsp), %r9d
	pxor	%xmm0, %xmm0
	movdqa	%xmm0, 704(%rsp)
	movb	$1, %r8b
	xorl	%eax, %eax
	xorl	%r12d, %r12d
	xorl	%edi, %edi
	xorl	%r13d, %r13d
	xorl	%ebx, %ebx
	xorl	%ebp, %ebp
	xorl	%r14d, %r14d
	jmp	469f
343:
	pxor	%xmm0, %xmm0
	movdqa	%xmm0, 1040(%rsp)
	movb	$3, %al
	movl	%eax, 8(%rsp)
	movb	$1, %r8b
	xorl	%ebp, %ebp
	movb	$3, %r9b
	xorl	%ebx, %ebx
	xorl	%r13d, %r13d
	xorl	%eax, %eax
	xorl	%edi, %edi
	xorl	%edx, %edx
	xorl	%ecx, %ecx
	movq	80(%rsp), %rsi
	movq	32(%rsp), %r15
	movq	64(%rsp), %r11
	testq	%r11, %r11
	jne	699b
	jmp	402b
10:
	movl	%r15d, %eax
	shrl	$16, %eax
	movq	%rax, %rdi
	movl	%r15d, %eax
	shrl	$24, %eax
	movq	%rax, %r12
	movdqu	280(%rsp), %xmm0
	movdqa	%xmm0, 704(%rsp)
	movb	$2, %bl
	movq	296(%rsp), %rax
	xorl	%r8d, %r8d
	movl	%r15d, %r13d
	movl	$0, 8(%rsp)
	xorl	%r9d, %r9d
469:
	movdqa	704(%rsp), %xmm0
	movdqa	%xmm0, 1040(%rsp)
	movq	80(%rsp), %rsi
	movq	32(%rsp), %r15
	movq	72(%rsp), %r10
	movq	64(%rsp), %r11
	movq	%r14, %rcx
	movl	%ebp, %edx
	movq	%rax, %rbp
	movq	%rdi, %rax
	movq	%r12, %rdi
	testq	%r11, %r11
	jne	699b
	jmp	402b
378:
	xorl	%ebp, %ebp
	jmp	12f
212:
	movzbl	1(%rax), %edx
	addb	$-48, %dl
	cmpb	$9, %dl
	ja	68f
	cmpq	$2, %rcx
	je	981b
	movzbl	2(%rax), %edx
	addb	$-48, %dl
	cmpb	$9, %dl
	ja	68f
	cmpq	$3, %rcx
	je	981b
	movzbl	3(%rax), %edx
	addb	$-48, %dl
	cmpb	$9, %dl
	ja	68f
	cmpq	$4, %rcx
	je	981b
	movzbl	4(%rax), %edx
	addb	$-48, %dl
	cmpb	$9, %dl
	ja	68f
	cmpq	$5, %rcx
	je	981b
	jmp	68f
44:
	xorl	%r9d, %r9d
	xorl	%r11d, %r11d
	jmp	589f
78:
	movzbl	1(%rdi), %ecx
	addb	$-48, %cl
	cmpb	$9, %cl
	ja	930f
	cmpq	$2, %r10
	je	509b
	movzbl	2(%rdi), %ecx
	addb	$-48, %cl
	cmpb	$9, %cl
	ja	930f
	cmpq	$3, %r10
	je	509b
	movzbl	3(%rdi), %ecx
	addb	$-48, %cl
	cmpb	$9, %cl
	ja	930f
	cmpq	$4, %r10
	je	509b
	movzbl	4(%rdi), %ecx
	addb	$-48, %cl
	cmpb	$10, %cl
	setb	%cl
	cmpq	$5, %r10
	sete	%dl
	testb	%dl, %cl
	jne	509b
	jmp	930f
23:
	andl	$4, %ecx
	xorl	%ebx, %ebx
	xorl	%esi, %esi
373:
	leal	(%rbx,%rbx,4), %edi
	movzbl	(%rax,%rsi), %r8d
	movzbl	1(%rax,%rsi), %r9d
	addb	$-48, %r8b
	movzbl	%r8b, %r8d
	leal	(%r8,%rdi,2), %edi
	leal	(%rdi,%rdi,4), %edi
	addb	$-48, %r9b
	movzbl	%r9b, %r8d
	leal	(%r8,%rdi,2), %edi
	leal	(%rdi,%rdi,4), %edi
	movzbl	2(%rax,%rsi), %r8d
	addb	$-48, %r8b
	movzbl	%r8b, %r8d
	leal	(%r8,%rdi,2), %edi
	leal	(%rdi,%rdi,4), %edi
	movzbl	3(%rax,%rsi), %r8d
	addb	$-48, %r8b
	movzbl	%r8b, %r8d
	leal	(%r8,%rdi,2), %ebx
	addq	$4, %rsi
	cmpq	%rsi, %rcx
	jne	373b
	testq	%rdx, %rdx
	je	515f
793:
	addq	%rsi, %rax
	xorl	%ecx, %ecx
373:
	leal	(%rbx,%rbx,4), %esi
	movzbl	(%rax,%rcx), %edi
	addb	$-48, %dil
	movzbl	%dil, %edi
	leal	(%rdi,%rsi,2), %ebx
	incq	%rcx
	cmpq	%rcx, %rdx
	jne	373b
515:
	cmpl	$65536, %ebx
	movq	80(%rsp), %rsi
	movq	32(%rsp), %r15
	movq	72(%rsp), %r10
	movq	64(%rsp), %r11
	jae	68f
209:
	movq	48(%r10), %rsi
	movq	56(%r10), %rdx
	leaq	272(%rsp), %rdi
	callq	tc_make.line.octets
	cmpb	$0, 272(%rsp)
	je	782f
	movzbl	273(%rsp), %eax
	movl	%eax, 8(%rsp)
	movzbl	274(%rsp), %r9d
	pxor	%xmm1, %xmm1
	movdqa	%xmm1, 1024(%rsp)
	movb	$1, %r8b
	xorl	%r12d, %r12d
	xorl	%r14d, %r14d
	xorl	%ebx, %ebx
	xorl	%edx, %edx
	xorl	%ecx, %ecx
	jmp	928f
68:
	pxor	%xmm1, %xmm1
	movdqa	%xmm1, 1024(%rsp)
	movb	$6, %r9b
	jmp	394b
782:
	movzbl	280(%rsp), %edx
	movzwl	281(%rsp), %ecx
	movzbl	283(%rsp), %r14d
	movl	284(%rsp), %eax
	movdqa	288(%rsp), %xmm0
	movdqa	%xmm0, 1024(%rsp)
	movd	%r12d, %xmm1
	movq	%rax, %r12
	pinsrw	$1, %ebx, %xmm1
	movb	$1, %bl
	xorl	%r8d, %r8d
	movl	$0, 8(%rsp)
	xorl	%r9d, %r9d
928:
	movq	80(%rsp), %rsi
	movq	32(%rsp), %r15
	movq	72(%rsp), %r10
	movq	64(%rsp), %r11
	testq	%r11, %r11
	jne	966b
	jmp	587b
966:
	movq	%r8, %rbx
	andl	$4, %ebx
	xorl	%edx, %edx
	xorl	%r10d, %r10d
373:
	leal	(%rdx,%rdx,4), %edx
	movzbl	(%rdi,%r10), %r8d
	movzbl	1(%rdi,%r10), %r11d
	addb	$-48, %r8b
	movzbl	%r8b, %r8d
	leal	(%r8,%rdx,2), %edx
	leal	(%rdx,%rdx,4), %edx
	addb	$-48, %r11b
	movzbl	%r11b, %r8d
	leal	(%r8,%rdx,2), %edx
	leal	(%rdx,%rdx,4), %edx
	movzbl	2(%rdi,%r10), %r8d
	addb	$-48, %r8b
	movzbl	%r8b, %r8d
	leal	(%r8,%rdx,2), %edx
	leal	(%rdx,%rdx,4), %edx
	movzbl	3(%rdi,%r10), %r8d
	addb	$-48, %r8b
	movzbl	%r8b, %r8d
	leal	(%r8,%rdx,2), %edx
	addq	$4, %r10
	cmpq	%r10, %rbx
	jne	373b
	testq	%rcx, %rcx
	je	966f
757:
	addq	%r10, %rdi
	xorl	%r8d, %r8d
373:
	leal	(%rdx,%rdx,4), %edx
	movzbl	(%rdi,%r8), %r10d
	addb	$-48, %r10b
	movzbl	%r10b, %r10d
	leal	(%r10,%rdx,2), %edx
	incq	%r8
	cmpq	%r8, %rcx
	jne	373b
966:
	cmpl	$255, %edx
	ja	930f
	testl	%edx, %edx
	je	509f
	cmpl	$1, %edx
	jne	930f
	movzwl	%bp, %ebp
	orl	$256, %ebp
886:
	xorl	%eax, %eax
	movq	8(%rsp), %rdx
	movq	16(%rsp), %rcx
	movq	56(%rsp), %r12
	movq	32(%rsp), %r15
	movq	%r13, %r11
	xorl	%r13d, %r13d
	jmp	362b
930:
	xorl	%r9d, %r9d
	xorl	%r11d, %r11d
	xorl	%ebp, %ebp
589:
	movq	8(%rsp), %rdx
	movq	16(%rsp), %rcx
	movq	56(%rsp), %r12
699:
	movq	32(%rsp), %r15
	movb	$1, %r13b
	jmp	362b
523:
	andl	$4, %ecx
	xorl	%ebp, %ebp
	xorl	%esi, %esi
373:
	leal	(%rbp,%rbp,4), %edi
	movzbl	(%rax,%rsi), %r8d
	movzbl	1(%rax,%rsi), %r9d
	addb	$-48, %r8b
	movzbl	%r8b, %r8d
	leal	(%r8,%rdi,2), %edi
	leal	(%rdi,%rdi,4), %edi
	addb	$-48, %r9b
	movzbl	%r9b, %r8d
	leal	(%r8,%rdi,2), %edi
	leal	(%rdi,%rdi,4), %edi
	movzbl	2(%rax,%rsi), %r8d
	addb	$-48, %r8b
	movzbl	%r8b, %r8d
	leal	(%r8,%rdi,2), %edi
	leal	(%rdi,%rdi,4), %edi
	movzbl	3(%rax,%rsi), %r8d
	addb	$-48, %r8b
	movzbl	%r8b, %r8d
	leal	(%r8,%rdi,2), %ebp
	addq	$4, %rsi
	cmpq	%rsi, %rcx
	jne	373b
	testq	%rdx, %rdx
	je	966f
850:
	addq	%rsi, %rax
	xorl	%ecx, %ecx
373:
	leal	(%rbp,%rbp,4), %esi
	movzbl	(%rax,%rcx), %edi
	addb	$-48, %dil
	movzbl	%dil, %edi
	leal	(%rdi,%rsi,2), %ebp
	incq	%rcx
	cmpq	%rcx, %rdx
	jne	373b
966:
	cmpl	$65535, %ebp
	ja	289b
12:
	movq	64(%rbx), %rsi
	movq	72(%rbx), %rdx
	pxor	%xmm0, %xmm0
	movdqa	%xmm0, 432(%rsp)
	movdqa	%xmm0, 416(%rsp)
	leaq	416(%rsp), %rdi
	callq	tc_make.line.octets
	cmpb	$0, 416(%rsp)
	je	928f
	movzwl	417(%rsp), %ebp
981:
	movl	%ebp, %esi
	movl	%ebp, %r9d
	shrl	$8, %r9d
	pxor	%xmm0, %xmm0
	movdqa	%xmm0, 1152(%rsp)
	xorl	%r12d, %r12d
	xorl	%eax, %eax
	movq	$0, 16(%rsp)
	xorl	%edi, %edi
	xorl	%edx, %edx
	movq	$0, 8(%rsp)
	xorl	%ecx, %ecx
	xorl	%ebp, %ebp
	xorl	%r13d, %r13d
	movq	32(%rsp), %r15
	movq	%rbx, %r10
	xorl	%ebx, %ebx
	movq	%r14, %r11
	movl	%esi, %r14d
	movb	$1, %r8b
	jmp	389b
928:
	movq	424(%rsp), %rdi
	movq	440(%rsp), %rax
	cmpq	$4, 432(%rsp)
	jne	325f
	movl	(%rdi), %r13d
	testq	%rax, %rax
	je	928f
	callq	rattle_dealloc@PLT
928:
	movq	64(%rsp), %rdi
	movl	%edi, %edx
	shrl	$8, %edx
	pxor	%xmm0, %xmm0
	movdqa	%xmm0, 1152(%rsp)
	xorl	%r12d, %r12d
	xorl	%eax, %eax
	xorl	%r8d, %r8d
	xorl	%r9d, %r9d
	movq	$0, 16(%rsp)
	xorl	%ecx, %ecx
	movq	32(%rsp), %r15
	movq	%rbx, %r10
	movb	$9, %bl
	movq	%r14, %r11
	xorl	%r14d, %r14d
	jmp	389b
325:
	movw	$6, %bp
	testq	%rax, %rax
	je	981b
	callq	rattle_dealloc@PLT
	jmp	981b
436:
	cmpq	$0, 288(%rsp)
	je	409f
	movq	272(%rsp), %rdi
	callq	rattle_dealloc@PLT
409:
	movb	$16, %al
	movl	%eax, 8(%rsp)
	xorl	%r9d, %r9d
	jmp	638b
509:
	movl	%edx, %edi
	movl	%edx, %eax
	movq	8(%rsp), %rdx
	movq	16(%rsp), %rcx
	movq	56(%rsp), %r12
	movq	32(%rsp), %r15
	movq	%r13, %r11
	movl	%edi, %r13d
	jmp	362b
708:
	xorl	%eax, %eax
	xorl	%r9d, %r9d
	xorl	%ebx, %ebx
	movq	$0, 16(%rsp)
	xorl	%edx, %edx
	movq	$0, 8(%rsp)
	xorl	%ecx, %ecx
	xorl	%ebp, %ebp
	xorl	%r13d, %r13d
	movq	32(%rsp), %r15
	movq	%rsi, %r10
	movq	%rdi, %r11
	xorl	%edi, %edi
394:
	movb	$3, %r14b
	movb	$1, %r8b
	xorl	%r12d, %r12d
	jmp	389b
468:
	xorl	%eax, %eax
	xorl	%edx, %edx
	movq	$0, 8(%rsp)
	xorl	%ecx, %ecx
	xorl	%ebp, %ebp
	xorl	%r13d, %r13d
	movq	$0, 16(%rsp)
	xorl	%edi, %edi
	movq	32(%rsp), %r15
	movq	%rbx, %r10
	xorl	%ebx, %ebx
	movq	%r14, %r11
	movb	$3, %r14b
	movb	$1, %r8b
	movb	$8, %r9b
	xorl	%r12d, %r12d
	jmp	430b
199:
	movzbl	3(%rax), %edx
	addb	$-48, %dl
	cmpb	$9, %dl
	ja	289b
	cmpq	$4, %rcx
	je	434b
	movzbl	4(%rax), %edx
	addb	$-48, %dl
	cmpb	$9, %dl
	ja	289f
	cmpq	$5, %rcx
	je	434b
289:
	xorl	%eax, %eax
	movq	$0, 16(%rsp)
	xorl	%edi, %edi
	xorl	%edx, %edx
	movq	$0, 8(%rsp)
	xorl	%ecx, %ecx
	xorl	%ebp, %ebp
	xorl	%r13d, %r13d
	movq	32(%rsp), %r15
	movq	%rbx, %r10
	xorl	%ebx, %ebx
	movq	%r14, %r11
	movb	$3, %r14b
	movb	$1, %r8b
	movb	$4, %r9b
	xorl	%r12d, %r12d
	jmp	389b
	.section	.rodata.tc_session.engine.Engine.answer._5349ec06ad6c886c,"a",@progbits
	.p2align	2
.LJa9983fb3_0:
	.long	196b-.LJa9983fb3_0
	.long	327b-.LJa9983fb3_0
	.long	282b-.LJa9983fb3_0
	.long	214b-.LJa9983fb3_0
.LJa9983fb3_1:
	.long	975b-.LJa9983fb3_1
	.long	247b-.LJa9983fb3_1
	.long	318b-.LJa9983fb3_1
	.long	717b-.LJa9983fb3_1
	.long	166b-.LJa9983fb3_1
	.long	59b-.LJa9983fb3_1
	.long	666b-.LJa9983fb3_1
.LJa9983fb3_2:
	.long	552b-.LJa9983fb3_2
	.long	972b-.LJa9983fb3_2
	.long	651b-.LJa9983fb3_2
	.long	972b-.LJa9983fb3_2
	.long	678b-.LJa9983fb3_2
	.long	445b-.LJa9983fb3_2
	.long	972b-.LJa9983fb3_2
	.long	101b-.LJa9983fb3_2
.LJa9983fb3_3:
	.long	413b-.LJa9983fb3_3
	.long	489b-.LJa9983fb3_3
	.long	211b-.LJa9983fb3_3
	.long	413b-.LJa9983fb3_3
	.long	211b-.LJa9983fb3_3
	.long	489b-.LJa9983fb3_3
	.long	489b-.LJa9983fb3_3
	.long	489b-.LJa9983fb3_3
	.long	489b-.LJa9983fb3_3
	.long	413b-.LJa9983fb3_3
	.long	489b-.LJa9983fb3_3
	.long	413b-.LJa9983fb3_3
	.long	489b-.LJa9983fb3_3
	.long	413b-.LJa9983fb3_3
	.long	489b-.LJa9983fb3_3
.LJa9983fb3_4:
	.long	680b-.LJa9983fb3_4
	.long	284b-.LJa9983fb3_4
	.long	284b-.LJa9983fb3_4
	.long	680b-.LJa9983fb3_4
	.long	680b-.LJa9983fb3_4
	.long	680b-.LJa9983fb3_4
	.long	680b-.LJa9983fb3_4
	.long	771b-.LJa9983fb3_4
	.long	680b-.LJa9983fb3_4
.LJa9983fb3_5:
	.long	87b-.LJa9983fb3_5
	.long	548b-.LJa9983fb3_5
	.long	548b-.LJa9983fb3_5
	.long	87b-.LJa9983fb3_5
	.long	87b-.LJa9983fb3_5
	.long	87b-.LJa9983fb3_5
	.long	87b-.LJa9983fb3_5
	.long	648b-.LJa9983fb3_5
	.long	87b-.LJa9983fb3_5
.LJa9983fb3_6:
	.long	871b-.LJa9983fb3_6
	.long	949b-.LJa9983fb3_6
	.long	909b-.LJa9983fb3_6
	.long	186b-.LJa9983fb3_6
	.long	949b-.LJa9983fb3_6
	.long	693b-.LJa9983fb3_6
.LJa9983fb3_7:
	.long	969b-.LJa9983fb3_7
	.long	471b-.LJa9983fb3_7
	.long	634b-.LJa9983fb3_7
	.long	342b-.LJa9983fb3_7
	.long	483b-.LJa9983fb3_7
	.long	553b-.LJa9983fb3_7
.LJa9983fb3_8:
	.long	110b-.LJa9983fb3_8
	.long	83b-.LJa9983fb3_8
	.long	57b-.LJa9983fb3_8
	.long	859b-.LJa9983fb3_8
	.long	669b-.LJa9983fb3_8
	.long	669b-.LJa9983fb3_8
	.long	669b-.LJa9983fb3_8
	.long	669b-.LJa9983fb3_8
	.long	172b-.LJa9983fb3_8
	.long	71b-.LJa9983fb3_8
	.long	661b-.LJa9983fb3_8
	.long	740b-.LJa9983fb3_8
	.long	669b-.LJa9983fb3_8
	.long	219b-.LJa9983fb3_8
	.long	669b-.LJa9983fb3_8
	.long	917b-.LJa9983fb3_8
	.long	359b-.LJa9983fb3_8
	.long	669b-.LJa9983fb3_8
	.long	219b-.LJa9983fb3_8
	.long	669b-.LJa9983fb3_8
.LJa9983fb3_9:
	.long	203b-.LJa9983fb3_9
	.long	866b-.LJa9983fb3_9
	.long	311b-.LJa9983fb3_9
	.long	999b-.LJa9983fb3_9
	.long	475b-.LJa9983fb3_9
.LJa9983fb3_10:
	.long	198b-.LJa9983fb3_10
	.long	271b-.LJa9983fb3_10
	.long	586b-.LJa9983fb3_10
	.long	128b-.LJa9983fb3_10
	.long	976b-.LJa9983fb3_10
	.long	890b-.LJa9983fb3_10
	.long	765b-.LJa9983fb3_10
.LJa9983fb3_11:
	.long	368b-.LJa9983fb3_11
	.long	442b-.LJa9983fb3_11
	.long	442b-.LJa9983fb3_11
	.long	368b-.LJa9983fb3_11
	.long	368b-.LJa9983fb3_11
	.long	368b-.LJa9983fb3_11
	.long	368b-.LJa9983fb3_11
	.long	961b-.LJa9983fb3_11
	.long	368b-.LJa9983fb3_11
	.section	.rodata.cst16,"aM",@progbits,16
	.p2align	4
.LC4b8e3750_0:
	.long	9729
	.long	0
	.long	0
	.long	0
	.section	.rodata.cst4,"aM",@progbits,4
	.p2align	2
.LC4b8e3750_1:
	.long	9729
	.section	.text.std.io.traits.AdapterWrite.write_str._5349ec06ad6c886c,"ax",@progbits
	.p2align	4
std.io.traits.AdapterWrite.write_str._5349ec06ad6c886c:
	testq	%rdx, %rdx
	je	83f
	pushq	%rbp
	pushq	%r15
	pushq	%r14
	pushq	%r13
	pushq	%r12
	pushq	%rbx
	subq	$168, %rsp
	movq	%rdx, %r15
	movq	%rsi, %r14
	movq	%rdi, (%rsp)
	movq	(%rdi), %rbp
	movq	$-1, %r13
	jmp	211f
	.p2align	4
928:
	movq	%r14, %rsi
	movq	%r15, %rdx
	movq	%r13, 8(%rsp)
	movq	%r8, %r13
	movq	%r9, %r12
	callq	memmove@PLT
	movq	%r12, %r9
	movq	%r13, %r8
	movq	8(%rsp), %r13
564:
	decq	%r13
	addq	%r15, %rbx
	movq	%r9, (%rbp)
	movq	%rbx, 8(%rbp)
	movq	%r8, 16(%rbp)
	addq	%r15, %r14
	xorl	%r15d, %r15d
	testq	%r13, %r13
	je	669f
211:
	testq	%r15, %r15
	je	289f
	movq	8(%rbp), %rbx
	movq	16(%rbp), %r8
	movq	%r8, %rax
	subq	%rbx, %rax
	cmpq	%rax, %r15
	ja	648f
859:
	movq	(%rbp), %r9
	xorps	%xmm0, %xmm0
	leaq	8(%rbp), %rax
	movups	%xmm0, (%rax)
	leaq	(%r9,%rbx), %rdi
	movq	%rdi, %rax
	subq	%r14, %rax
	cmpq	%r15, %rax
	jae	928b
	cmpq	$4, %r15
	jb	890f
	cmpq	$32, %rax
	jae	972f
890:
	xorl	%eax, %eax
928:
	movq	%r15, %rdx
	movq	%rax, %rcx
	andq	$3, %rdx
	je	980f
	movq	%rax, %rcx
	.p2align	4
548:
	movzbl	(%r14,%rcx), %esi
	movb	%sil, (%rdi,%rcx)
	incq	%rcx
	decq	%rdx
	jne	548b
980:
	subq	%r15, %rax
	cmpq	$-4, %rax
	ja	564b
	leaq	(%r9,%rbx), %rax
	addq	$3, %rax
	.p2align	4
548:
	movzbl	(%r14,%rcx), %edx
	movb	%dl, -3(%rax,%rcx)
	movzbl	1(%r14,%rcx), %edx
	movb	%dl, -2(%rax,%rcx)
	movzbl	2(%r14,%rcx), %edx
	movb	%dl, -1(%rax,%rcx)
	movzbl	3(%r14,%rcx), %edx
	movb	%dl, (%rax,%rcx)
	addq	$4, %rcx
	cmpq	%rcx, %r15
	jne	548b
	jmp	564b
972:
	cmpq	$32, %r15
	jae	12f
	xorl	%eax, %eax
	jmp	638f
12:
	movq	%r15, %rax
	andq	$-32, %rax
	leaq	(%r9,%rbx), %rcx
	addq	$16, %rcx
	xorl	%edx, %edx
	.p2align	4
464:
	movups	(%r14,%rdx), %xmm0
	movups	16(%r14,%rdx), %xmm1
	movups	%xmm0, -16(%rcx,%rdx)
	movups	%xmm1, (%rcx,%rdx)
	addq	$32, %rdx
	cmpq	%rdx, %rax
	jne	464b
	cmpq	%rax, %r15
	je	564b
	testb	$28, %r15b
	je	928b
638:
	movq	%rax, %rcx
	movq	%r15, %rax
	andq	$-4, %rax
	.p2align	4
327:
	movl	(%r14,%rcx), %edx
	movl	%edx, (%rdi,%rcx)
	addq	$4, %rcx
	cmpq	%rcx, %rax
	jne	327b
	cmpq	%rax, %r15
	je	564b
	jmp	928b
648:
	movq	%rbp, %rdi
	movq	%r15, %rsi
	callq	std_alloc.vec.Vec.grow_amortized._e46d560dfcddf60e
	testb	%al, %al
	je	231f
	movq	8(%rbp), %rbx
	movq	16(%rbp), %r8
	jmp	859b
83:
	xorl	%eax, %eax
	retq
289:
	xorl	%eax, %eax
	jmp	850f
669:
	leaq	.LT23999181(%rip), %rdx
	leaq	80(%rsp), %rdi
	movl	$43, %ecx
	movl	$22, %esi
	callq	std_io.io.error.Error.from_static_message
	movaps	80(%rsp), %xmm1
	movaps	96(%rsp), %xmm0
	movaps	112(%rsp), %xmm2
	movq	128(%rsp), %rax
	movups	136(%rsp), %xmm3
	movaps	%xmm3, 16(%rsp)
	movups	152(%rsp), %xmm3
	movaps	%xmm3, 32(%rsp)
680:
	movaps	16(%rsp), %xmm3
	movaps	32(%rsp), %xmm4
	movaps	%xmm4, 64(%rsp)
	movaps	%xmm3, 48(%rsp)
	movq	(%rsp), %rcx
	movq	$1, 8(%rcx)
	movups	%xmm1, 16(%rcx)
	movups	%xmm0, 32(%rcx)
	movups	%xmm2, 48(%rcx)
	movq	%rax, 64(%rcx)
	movaps	48(%rsp), %xmm0
	movaps	64(%rsp), %xmm1
	movups	%xmm0, 72(%rcx)
	movups	%xmm1, 88(%rcx)
	movb	$1, %al
850:
	addq	$168, %rsp
	popq	%rbx
	popq	%r12
	popq	%r13
	popq	%r14
	popq	%r15
	popq	%rbp
	retq
231:
	xorps	%xmm0, %xmm0
	movaps	%xmm0, 32(%rsp)
	movaps	%xmm0, 16(%rsp)
	movss	.LC4b8e3750_1(%rip), %xmm1
	xorl	%eax, %eax
	xorps	%xmm2, %xmm2
	jmp	680b
	.section	.rodata.cst16,"aM",@progbits,16
	.p2align	4
.LC3a054256_0:
	.zero	16,46
	.section	.text.std_io.io.error.Error.from_static_message,"ax",@progbits
	.p2align	4
std_io.io.error.Error.from_static_message:
	pushq	%rbp
	pushq	%r15
	pushq	%r14
	pushq	%r13
	pushq	%r12
	pushq	%rbx
	subq	$80, %rsp
	movl	%esi, 12(%rsp)
	movabsq	$3314649325744685056, %rbx
	movabsq	$12947848928690176, %r14
	movabsq	$50577534877696, %r11
	movabsq	$197568495616, %r10
	movq	(%rdx), %rsi
	movq	%rsi, 72(%rsp)
	movl	8(%rdx), %esi
	movq	%rsi, 64(%rsp)
	movzbl	12(%rdx), %r15d
	movzbl	13(%rdx), %esi
	movq	%rsi, 48(%rsp)
	movzbl	14(%rdx), %esi
	movq	%rsi, 56(%rsp)
	movl	$3014656, %esi
	movq	%rsi, 24(%rsp)
	movb	$46, -105(%rsp)
	movl	$771751936, %esi
	movq	%rsi, 40(%rsp)
	movl	$11776, %esi
	movq	%rsi, 32(%rsp)
	cmpq	$15, %rcx
	movq	%rcx, -32(%rsp)
	jne	928f
	movl	$11776, %eax
	movq	%rax, -96(%rsp)
	movq	%rbx, %r8
	movq	%r11, -56(%rsp)
	movl	$771751936, %ebp
	movq	%rax, -40(%rsp)
	movq	%rbx, %r9
	movq	%r11, -24(%rsp)
	movl	$771751936, %esi
	movq	%rbx, 16(%rsp)
	movb	$46, -121(%rsp)
	movl	$3014656, %eax
	movq	%rax, (%rsp)
	movq	%r10, %r12
	movq	%r14, %rcx
	movb	$46, -122(%rsp)
	movq	%rax, -48(%rsp)
	movb	$46, -123(%rsp)
	movq	%r10, %r13
	movq	%r14, %rax
	movl	$3014656, %edx
	movq	%rdx, -104(%rsp)
	movl	$11776, %edx
	jmp	795f
928:
	movq	%r15, -80(%rsp)
	movzbl	15(%rdx), %r11d
	shlq	$56, %r11
	cmpq	$17, %rcx
	movq	%r11, 16(%rsp)
	jb	327f
	movzbl	16(%rdx), %r12d
	movb	%r12b, -121(%rsp)
	jne	548f
	movl	$11776, %eax
	movq	%rax, -96(%rsp)
	movq	%rbx, %r8
	movabsq	$50577534877696, %r11
	movq	%r11, -56(%rsp)
	movl	$771751936, %ebp
	movq	%rax, -40(%rsp)
	movq	%rbx, %r9
	movq	%r11, -24(%rsp)
	movl	$771751936, %esi
	movl	$11776, %edx
	jmp	186f
327:
	movl	$11776, %eax
	movq	%rax, -96(%rsp)
	movq	%rbx, %r8
	movabsq	$50577534877696, %r11
	movq	%r11, -56(%rsp)
	movl	$771751936, %ebp
	movq	%rax, -40(%rsp)
	movq	%rbx, %r9
	movq	%r11, -24(%rsp)
	movl	$771751936, %esi
	movl	$11776, %edx
	movb	$46, -121(%rsp)
186:
	movl	$3014656, %eax
	movq	%rax, (%rsp)
	movq	%r10, %r12
	movb	$46, -122(%rsp)
	movq	%rax, -48(%rsp)
	movq	%r10, %r13
	movb	$46, -123(%rsp)
	movq	%r14, %rax
	movl	$3014656, %ecx
	movq	%rcx, -104(%rsp)
	movq	%r14, %rcx
928:
	movq	-80(%rsp), %r15
	jmp	795f
548:
	movzbl	17(%rdx), %esi
	shll	$8, %esi
	movq	%rsi, -120(%rsp)
	cmpq	$19, %rcx
	movq	-80(%rsp), %r15
	jb	327f
	movzbl	18(%rdx), %r13d
	shll	$16, %r13d
	cmpq	$19, %rcx
	movq	%r13, (%rsp)
	jne	548f
	movl	$11776, %eax
	movq	%rax, -96(%rsp)
	movq	%rbx, %r8
	movabsq	$50577534877696, %r11
	movq	%r11, -56(%rsp)
	movl	$771751936, %ebp
	movq	%rax, -40(%rsp)
	movq	%rbx, %r9
	movq	%r11, -24(%rsp)
	movl	$771751936, %esi
	jmp	859f
327:
	movl	$11776, %eax
	movq	%rax, -96(%rsp)
	movq	%rbx, %r8
	movabsq	$50577534877696, %r11
	movq	%r11, -56(%rsp)
	movl	$771751936, %ebp
	movq	%rax, -40(%rsp)
	movq	%rbx, %r9
	movq	%r11, -24(%rsp)
	movl	$771751936, %esi
	movl	$3014656, %eax
	movq	%rax, (%rsp)
	movq	%r10, %r12
	movb	$46, -122(%rsp)
	jmp	12f
548:
	movzbl	19(%rdx), %esi
	shll	$24, %esi
	cmpq	$21, %rcx
	jb	327f
	movzbl	20(%rdx), %r12d
	shlq	$32, %r12
	cmpq	$21, %rcx
	jne	548f
	movl	$11776, %eax
	movq	%rax, -96(%rsp)
	movq	%rbx, %r8
	movabsq	$50577534877696, %r11
	movq	%r11, -56(%rsp)
	movl	$771751936, %ebp
	movq	%rax, -40(%rsp)
	movq	%rbx, %r9
	movq	%r11, -24(%rsp)
	jmp	409f
327:
	movl	$11776, %eax
	movq	%rax, -96(%rsp)
	movq	%rbx, %r8
	movabsq	$50577534877696, %r11
	movq	%r11, -56(%rsp)
	movl	$771751936, %ebp
	movq	%rax, -40(%rsp)
	movq	%rbx, %r9
	movq	%r11, -24(%rsp)
859:
	movq	%r10, %r12
409:
	movb	$46, -122(%rsp)
	movl	$3014656, %eax
12:
	movq	%rax, -48(%rsp)
859:
	movq	%r10, %r13
	movq	%r14, %rax
	movb	$46, -123(%rsp)
	movl	$3014656, %ecx
	movq	%rcx, -104(%rsp)
	movq	%r14, %rcx
12:
	movq	-120(%rsp), %rdx
795:
	orq	%rcx, %r12
	orq	%rdx, %rsi
	orq	-24(%rsp), %r9
	orq	%rsi, %r9
	orq	%rax, %r13
	orq	-40(%rsp), %rbp
	orq	-56(%rsp), %r8
	orq	%rbp, %r8
	orq	%r14, %r10
	movq	40(%rsp), %rdx
	orq	-96(%rsp), %rdx
	orq	%r11, %rbx
	orq	%rdx, %rbx
	movq	32(%rsp), %rsi
	orq	24(%rsp), %rsi
	shlq	$32, %r15
	addq	64(%rsp), %r15
	movq	48(%rsp), %rcx
	shlq	$40, %rcx
	orq	%rcx, %r15
	movq	56(%rsp), %rcx
	shlq	$48, %rcx
	orq	%rcx, %r15
	orq	16(%rsp), %r15
	movzbl	-105(%rsp), %edx
	orq	%rsi, %rdx
	movzbl	-123(%rsp), %ecx
	orq	-104(%rsp), %rcx
	orq	%rbx, %rcx
	orq	%r10, %rcx
	movzbl	-122(%rsp), %eax
	orq	-48(%rsp), %rax
	orq	%r8, %rax
	orq	%r13, %rax
	movzbl	-121(%rsp), %esi
	orq	(%rsp), %rsi
	orq	%r9, %rsi
	orq	%r12, %rsi
	movabsq	$3327647950548500480, %r9
	orq	%rdx, %r9
	movb	$2, (%rdi)
	movl	12(%rsp), %edx
	movb	%dl, 1(%rdi)
	movq	-32(%rsp), %rdx
	movb	%dl, 2(%rdi)
	movb	$0, 3(%rdi)
	movl	$0, 4(%rdi)
	movq	72(%rsp), %rdx
	movq	%rdx, 8(%rdi)
	movq	%r15, 16(%rdi)
	movq	%rsi, 24(%rdi)
	movq	%rax, 32(%rdi)
	movq	%rcx, 40(%rdi)
	movq	%r9, 48(%rdi)
	movaps	.LC3a054256_0(%rip), %xmm0
	movups	%xmm0, 56(%rdi)
	movups	%xmm0, 72(%rdi)
	addq	$80, %rsp
	popq	%rbx
	popq	%r12
	popq	%r13
	popq	%r14
	popq	%r15
	popq	%rbp
	retq
548:
	movzbl	21(%rdx), %r10d
	shlq	$40, %r10
	cmpq	$23, %rcx
	movq	%r10, -24(%rsp)
	jb	327f
	movzbl	22(%rdx), %eax
	shlq	$48, %rax
	cmpq	$23, %rcx
	jne	548f
	movl	$11776, %ecx
	movq	%rcx, -96(%rsp)
	movq	%rbx, %r8
	movabsq	$50577534877696, %r11
	movq	%r11, -56(%rsp)
	movl	$771751936, %ebp
	movq	%rax, %rdx
	movl	$11776, %eax
	movq	%rax, -40(%rsp)
	movq	%rbx, %r9
	jmp	409f
327:
	movl	$11776, %eax
	movq	%rax, -96(%rsp)
	movq	%rbx, %r8
	movabsq	$50577534877696, %r11
	movq	%r11, -56(%rsp)
	movl	$771751936, %ebp
	movq	%rax, -40(%rsp)
	movq	%rbx, %r9
	movb	$46, -122(%rsp)
	movl	$3014656, %eax
	movq	%rax, -48(%rsp)
	movabsq	$197568495616, %r10
	jmp	859b
548:
	movzbl	23(%rdx), %r9d
	shlq	$56, %r9
	cmpq	$25, %rcx
	jb	327f
	movq	%rax, -88(%rsp)
	movzbl	24(%rdx), %r8d
	movb	%r8b, -122(%rsp)
	jne	548f
	movl	$11776, %eax
	movq	%rax, -96(%rsp)
	movq	%rbx, %r8
	movabsq	$50577534877696, %r11
	movq	%r11, -56(%rsp)
	movl	$771751936, %ebp
	movq	%rax, -40(%rsp)
	jmp	186f
327:
	movl	$11776, %ecx
	movq	%rcx, -96(%rsp)
	movq	%rbx, %r8
	movabsq	$50577534877696, %r11
	movq	%r11, -56(%rsp)
	movl	$771751936, %ebp
	movq	%rax, %rdx
	movl	$11776, %eax
	movq	%rax, -40(%rsp)
409:
	movb	$46, -122(%rsp)
	movl	$3014656, %eax
	movq	%rax, -48(%rsp)
	movabsq	$197568495616, %r10
	movq	%r10, %r13
	movq	%r14, %rax
	movb	$46, -123(%rsp)
	movl	$3014656, %ecx
	movq	%rcx, -104(%rsp)
	movq	%rdx, %rcx
	jmp	12b
548:
	movzbl	25(%rdx), %eax
	shll	$8, %eax
	cmpq	$27, %rcx
	movq	%rax, -40(%rsp)
	jb	327f
	movq	%rsi, -72(%rsp)
	movzbl	26(%rdx), %esi
	shll	$16, %esi
	cmpq	$27, %rcx
	movq	%rsi, -48(%rsp)
	jne	548f
	movl	$11776, %ecx
	movq	%rcx, -96(%rsp)
	movq	%rbx, %r8
	movabsq	$50577534877696, %r11
	movq	%r11, -56(%rsp)
	movl	$771751936, %ebp
	movabsq	$197568495616, %r10
	movq	%r10, %r13
	movq	%r14, %rax
	movb	$46, -123(%rsp)
	movl	$3014656, %ecx
	movq	%rcx, -104(%rsp)
	movq	-120(%rsp), %rdx
	movq	-72(%rsp), %rsi
	movq	-88(%rsp), %rcx
	jmp	795b
327:
	movl	$11776, %ecx
	movq	%rcx, -96(%rsp)
	movq	%rbx, %r8
	movabsq	$50577534877696, %r11
	movq	%r11, -56(%rsp)
	movl	$771751936, %ebp
186:
	movl	$3014656, %eax
	movq	%rax, -48(%rsp)
	movabsq	$197568495616, %r10
	movq	%r10, %r13
	movq	%r14, %rax
	movb	$46, -123(%rsp)
	movl	$3014656, %ecx
	movq	%rcx, -104(%rsp)
	movq	-120(%rsp), %rdx
	movq	-88(%rsp), %rcx
	jmp	795b
548:
	movzbl	27(%rdx), %eax
	shll	$24, %eax
	movq	%rax, -64(%rsp)
	cmpq	$29, %rcx
	jb	327f
	movzbl	28(%rdx), %r13d
	shlq	$32, %r13
	cmpq	$29, %rcx
	jne	548f
	movl	$11776, %eax
	movq	%rax, -96(%rsp)
	movq	%rbx, %r8
	movabsq	$50577534877696, %r11
	movq	%r11, -56(%rsp)
	movq	%r14, %rax
	movb	$46, -123(%rsp)
	movl	$3014656, %ecx
	movq	%rcx, -104(%rsp)
	jmp	859f
327:
	movl	$11776, %eax
	movq	%rax, -96(%rsp)
	movq	%rbx, %r8
	movabsq	$50577534877696, %r11
	movq	%r11, -56(%rsp)
	movabsq	$197568495616, %r10
	movq	%r10, %r13
	movq	%r14, %rax
	movb	$46, -123(%rsp)
	movl	$3014656, %ecx
	movq	%rcx, -104(%rsp)
	movq	-120(%rsp), %rdx
	movq	-72(%rsp), %rsi
	movq	-64(%rsp), %rbp
	movq	-88(%rsp), %rcx
	jmp	795b
548:
	movzbl	29(%rdx), %ecx
	shlq	$40, %rcx
	movq	%rcx, -56(%rsp)
	cmpq	$31, -32(%rsp)
	jb	327f
	movzbl	30(%rdx), %eax
	shlq	$48, %rax
	cmpq	$31, -32(%rsp)
	jne	548f
	movl	$11776, %ecx
	movq	%rcx, -96(%rsp)
	movq	%rbx, %r8
	jmp	409f
327:
	movl	$11776, %eax
	movq	%rax, -96(%rsp)
	movq	%rbx, %r8
	movq	%r14, %rax
409:
	movb	$46, -123(%rsp)
327:
	movl	$3014656, %ecx
	movq	%rcx, -104(%rsp)
631:
	movabsq	$50577534877696, %r11
859:
	movq	-120(%rsp), %rdx
	movq	-72(%rsp), %rsi
	movabsq	$197568495616, %r10
859:
	movq	-64(%rsp), %rbp
	movq	-88(%rsp), %rcx
	jmp	928b
548:
	movzbl	31(%rdx), %r8d
	shlq	$56, %r8
	cmpq	$33, -32(%rsp)
	jb	186f
	movzbl	32(%rdx), %ecx
	movb	%cl, -123(%rsp)
	jne	548f
	movl	$11776, %ecx
	movq	%rcx, -96(%rsp)
	jmp	327b
186:
	movl	$11776, %ecx
	movq	%rcx, -96(%rsp)
	jmp	409b
548:
	movzbl	33(%rdx), %ecx
	shll	$8, %ecx
	movq	%rcx, -96(%rsp)
	cmpq	$35, -32(%rsp)
	jb	327b
	movzbl	34(%rdx), %ecx
	shll	$16, %ecx
	movq	%rcx, -104(%rsp)
	cmpq	$35, -32(%rsp)
	je	631b
	movzbl	35(%rdx), %ecx
	shll	$24, %ecx
	movq	%rcx, 40(%rsp)
	cmpq	$37, -32(%rsp)
	jb	631b
	movzbl	36(%rdx), %r10d
	shlq	$32, %r10
	cmpq	$37, -32(%rsp)
	jne	548f
	movabsq	$50577534877696, %r11
	jmp	638f
548:
	movzbl	37(%rdx), %ecx
	shlq	$40, %rcx
	movq	%rcx, -16(%rsp)
	cmpq	$39, -32(%rsp)
	jb	12f
	movzbl	38(%rdx), %ecx
	shlq	$48, %rcx
	movq	%rcx, -8(%rsp)
	cmpq	$39, -32(%rsp)
	je	928f
	movzbl	39(%rdx), %ebx
	shlq	$56, %rbx
	cmpq	$41, -32(%rsp)
	jb	928f
	movzbl	40(%rdx), %ecx
	movb	%cl, -105(%rsp)
	je	928f
	movzbl	41(%rdx), %ecx
	shll	$8, %ecx
	movq	%rcx, 32(%rsp)
	cmpq	$43, -32(%rsp)
	jb	928f
	movzbl	42(%rdx), %ecx
	shll	$16, %ecx
	movq	%rcx, 24(%rsp)
928:
	movq	-16(%rsp), %r11
	movq	-8(%rsp), %r14
	jmp	638f
12:
	movq	-16(%rsp), %r11
638:
	movq	-120(%rsp), %rdx
	movq	-72(%rsp), %rsi
	jmp	859b
	.section	.text.unlikely.core.fmt.formatter.Formatter.write_indented._1ac78889755d2eb3,"ax",@progbits
	.p2align	4
core.fmt.formatter.Formatter.write_indented._1ac78889755d2eb3:
	pushq	%rbp
	pushq	%r15
	pushq	%r14
	pushq	%r13
	pushq	%r12
	pushq	%rbx
	pushq	%rax
	testq	%rdx, %rdx
	je	890f
	movq	%rsi, %r14
	movq	%rdi, %r15
	xorl	%ecx, %ecx
	xorl	%ebp, %ebp
	movq	%rdx, (%rsp)
	jmp	928f
	.p2align	4
850:
	addq	%r14, %r13
	movb	$1, 136(%r15)
	movq	%r15, %rdi
	movq	%r13, %rsi
	movq	%r12, %rdx
	callq	core.fmt.formatter.Formatter.write_raw._1ac78889755d2eb3
	movq	%rbp, %rcx
	testb	%al, %al
	movq	(%rsp), %rdx
	jne	409f
972:
	cmpq	%rdx, %rbp
	je	83f
928:
	movq	%rbp, %rax
	incq	%rbp
	cmpb	$10, (%r14,%rax)
	jne	972b
	xorl	%r13d, %r13d
	movq	%rbp, %r12
	subq	%rcx, %r12
	cmovaeq	%rcx, %r13
	cmpq	%rax, %rcx
	movq	%rbp, %rcx
	ja	972b
	cmpb	$1, 136(%r15)
	jne	850b
	movq	128(%r15), %rbx
	testq	%rbx, %rbx
	je	850b
	.p2align	4
669:
	leaq	.LT2e42b7fd(%rip), %rsi
	movl	$4, %edx
	movq	%r15, %rdi
	callq	core.fmt.formatter.Formatter.write_raw._1ac78889755d2eb3
	testb	%al, %al
	jne	409f
	decq	%rbx
	jne	669b
	jmp	850b
890:
	xorl	%eax, %eax
	jmp	880f
83:
	xorl	%eax, %eax
	cmpq	%rdx, %rcx
	movq	%rcx, %r12
	cmovaq	%rax, %r12
	subq	%rcx, %rdx
	cmovbq	%rax, %rdx
	jbe	880f
	movq	%rdx, %r13
	cmpb	$1, 136(%r15)
	jne	850f
	movq	128(%r15), %rbx
	testq	%rbx, %rbx
	je	850f
	.p2align	4
669:
	leaq	.LT2e42b7fd(%rip), %rsi
	movl	$4, %edx
	movq	%r15, %rdi
	callq	core.fmt.formatter.Formatter.write_raw._1ac78889755d2eb3
	testb	%al, %al
	jne	409f
	decq	%rbx
	jne	669b
850:
	addq	%r12, %r14
	movb	$0, 136(%r15)
	movq	%r15, %rdi
	movq	%r14, %rsi
	movq	%r13, %rdx
	addq	$8, %rsp
	popq	%rbx
	popq	%r12
	popq	%r13
	popq	%r14
	popq	%r15
	popq	%rbp
	jmp	core.fmt.formatter.Formatter.write_raw._1ac78889755d2eb3
409:
	movb	$1, %al
880:
	addq	$8, %rsp
	popq	%rbx
	popq	%r12
	popq	%r13
	popq	%r14
	popq	%r15
	popq	%rbp
	retq
	.section	.text.core.fmt.formatter.Formatter.write_raw._1ac78889755d2eb3,"ax",@progbits
	.p2align	4
core.fmt.formatter.Formatter.write_raw._1ac78889755d2eb3:
	testq	%rdx, %rdx
	je	std.io.traits.AdapterWrite.write_str._5349ec06ad6c886c
	xorl	%eax, %eax
	jmp	548f
	.p2align	4
850:
	addq	%r9, %rax
	cmpq	%rdx, %rax
	jae	360f
548:
	movzbl	(%rsi,%rax), %ecx
	movl	$1, %r9d
	testb	%cl, %cl
	jns	850b
	leaq	1(%rax), %r8
	cmpq	%r8, %rdx
	jbe	409f
	movzbl	(%rsi,%r8), %r8d
	testb	%r8b, %r8b
	jns	409f
	movzbl	%r8b, %r9d
	cmpb	$-64, %r8b
	movl	$192, %r8d
	cmovbl	%r9d, %r8d
	cmpb	$-62, %cl
	jb	409f
	movl	%r8d, %r9d
	andb	$127, %r9b
	cmpb	$63, %r9b
	ja	409f
	movl	$2, %r9d
	cmpb	$-32, %cl
	jb	850b
	leaq	2(%rax), %r9
	cmpq	%r9, %rdx
	jbe	409f
	cmpb	$-65, (%rsi,%r9)
	jg	409f
	andl	$127, %r8d
	cmpb	$-17, %cl
	ja	669f
	movl	%ecx, %r9d
	shll	$12, %r9d
	shll	$6, %r8d
	addl	%r9d, %r8d
	addl	$-917504, %r8d
	cmpl	$2048, %r8d
	jb	409f
	movl	$3, %r9d
	cmpl	$55296, %r8d
	jb	850b
	cmpb	$-18, %cl
	jae	850b
	jmp	409f
669:
	leaq	3(%rax), %r9
	cmpq	%r9, %rdx
	jbe	409f
	cmpb	$-65, (%rsi,%r9)
	jg	409f
	shll	$18, %ecx
	shll	$12, %r8d
	addl	%r8d, %ecx
	addl	$-62980096, %ecx
	movl	$4, %r9d
	cmpl	$1048575, %ecx
	jbe	850b
409:
	movb	$1, %al
	retq
360:
	jmp	std.io.traits.AdapterWrite.write_str._5349ec06ad6c886c
	.section	.text.core.str.utf8.from_utf8,"ax",@progbits
	.p2align	4
core.str.utf8.from_utf8:
	pushq	%r15
	pushq	%r14
	pushq	%r13
	pushq	%r12
	pushq	%rbx
	subq	$16, %rsp
	movq	%rdx, %r15
	movq	%rsi, %r14
	movq	%rdi, %rbx
	testq	%rdx, %rdx
	je	638f
	movabsq	$-9187201950435737472, %r12
	leaq	-8(%r15), %r13
	xorl	%ecx, %ecx
	jmp	548f
327:
	movl	$1, %edi
850:
	addq	%rcx, %rdi
928:
	movq	%rdi, %rcx
	cmpq	%r15, %rdi
	jae	638f
548:
	movzbl	(%r14,%rcx), %esi
	testb	%sil, %sil
	sets	%dl
	movq	%r15, %rax
	subq	%rcx, %rax
	cmpq	$2, %rax
	setb	%dil
	orb	%dl, %dil
	jne	327f
	cmpb	$0, 1(%r14,%rcx)
	js	327b
	movq	%r14, (%rsp)
	movq	%r15, 8(%rsp)
	cmpq	$7, %rax
	ja	859f
	cmpb	$0, (%r14,%rcx)
	js	12f
	leaq	1(%rcx), %rdi
	cmpq	%r15, %rdi
	je	638f
	cmpb	$0, (%r14,%rdi)
	js	928b
	leaq	2(%rcx), %rdi
	cmpq	%r15, %rdi
	je	638f
	cmpb	$0, (%r14,%rdi)
	js	928b
	leaq	3(%rcx), %rdi
	cmpq	%r15, %rdi
	je	638f
	cmpb	$0, (%r14,%rdi)
	js	928b
	leaq	4(%rcx), %rdi
	cmpq	%r15, %rdi
	je	638f
	cmpb	$0, (%r14,%rdi)
	js	928b
	leaq	5(%rcx), %rdi
	cmpq	%r15, %rdi
	je	638f
	cmpb	$0, (%r14,%rdi)
	js	928b
	addq	$6, %rcx
	cmpq	%r15, %rcx
	je	638f
	cmpb	$0, (%r14,%rcx)
	movq	%rcx, %rdi
	js	928b
	jmp	638f
	.p2align	4
327:
	movl	$1, %edi
	testb	%sil, %sil
	jns	850b
	movl	$257, %edx
	cmpb	$-62, %sil
	jb	928f
	cmpb	$-33, %sil
	ja	868f
	cmpq	$2, %rax
	jb	890f
	movzbl	1(%r14,%rcx), %r8d
	movl	$2, %edi
	cmpb	$-65, %r8b
	jle	850b
	jmp	871f
859:
	movq	(%r14,%rcx), %rax
	andq	%r12, %rax
	je	880f
	rep		bsfq	%rax, %rax
	shrl	$3, %eax
	addq	%rcx, %rax
	addq	$8, %rcx
	movq	%rax, %rdi
	cmpq	%rcx, %rax
	jb	928b
	movq	%r15, %rcx
	subq	%rax, %rcx
	cmpq	$32, %rcx
	jae	856f
	jmp	859f
868:
	cmpb	$-17, %sil
	ja	489f
	cmpq	$3, %rax
	jb	778f
	movzbl	1(%r14,%rcx), %r8d
	cmpb	$-65, %r8b
	jg	871f
	cmpb	$-65, 2(%r14,%rcx)
	jg	871f
	movzbl	%r8b, %edi
	movl	%esi, %r9d
	shll	$6, %r9d
	addl	%edi, %r9d
	addl	$-14464, %r9d
	cmpl	$32, %r9d
	jb	871f
	xorl	%r8d, %r8d
	cmpl	$896, %r9d
	setae	%r10b
	movl	$3, %edi
	cmpl	$864, %r9d
	jb	850b
	movb	%r10b, %r8b
	leaq	(%r8,%r8,2), %rdi
	testq	%rdi, %rdi
	jne	850b
	jmp	868f
12:
	movq	%rcx, %rdi
	jmp	928b
880:
	addq	$8, %rcx
	movq	%rcx, %rax
	movq	%r15, %rcx
	subq	%rax, %rcx
	cmpq	$32, %rcx
	jb	859f
	.p2align	4
856:
	movdqu	(%r14,%rax), %xmm0
	movdqu	16(%r14,%rax), %xmm1
	por	%xmm0, %xmm1
	pshufd	$238, %xmm1, %xmm0
	por	%xmm1, %xmm0
	movq	%xmm0, %rcx
	testq	%r12, %rcx
	jne	859f
	addq	$32, %rax
	movq	%rsp, %rdi
	movq	%rax, %rsi
	movq	%r15, %rdx
	callq	core.slice.words.skip_far._52f9edcae2f82f51
	movq	%r15, %rcx
	subq	%rax, %rcx
	cmpq	$31, %rcx
	ja	856b
859:
	movq	%r15, %rcx
	subq	%rax, %rcx
	jmp	972f
	.p2align	4
585:
	rep		bsfq	%rdx, %rdi
	shrl	$3, %edi
	addq	%rax, %rdi
	addq	$8, %rax
	addq	$-8, %rcx
	cmpq	%rax, %rdi
	jb	928b
972:
	cmpq	$9, %rcx
	jb	859f
	movq	(%r14,%rax), %rdx
	andq	%r12, %rdx
	jne	585b
	leaq	8(%rax), %rdi
	addq	$8, %rax
	addq	$-8, %rcx
	cmpq	%rax, %rdi
	jae	972b
	jmp	928b
859:
	movq	(%r14,%r13), %rax
	andq	%r12, %rax
	je	638f
	rep		bsfq	%rax, %rdi
	shrl	$3, %edi
	addq	%r13, %rdi
	jmp	928b
489:
	cmpq	$4, %rax
	jb	868f
	movzbl	1(%r14,%rcx), %edi
	cmpb	$-65, %dil
	jg	868f
	cmpb	$-65, 2(%r14,%rcx)
	jg	868f
	cmpb	$-65, 3(%r14,%rcx)
	jg	868f
	movl	%esi, %r8d
	shll	$6, %r8d
	leal	(%r8,%rdi), %r9d
	addl	$-15488, %r9d
	xorl	%edi, %edi
	cmpl	$272, %r9d
	setb	%r8b
	cmpl	$16, %r9d
	jb	868f
	movb	%r8b, %dil
	shll	$2, %edi
	testq	%rdi, %rdi
	jne	850b
868:
	cmpb	$-12, %sil
	ja	928f
778:
	cmpq	$2, %rax
	jb	890f
	movzbl	1(%r14,%rcx), %r8d
871:
	cmpl	$240, %esi
	sete	%dil
	shlb	$4, %dil
	orb	$-128, %dil
	cmpl	$224, %esi
	movzbl	%dil, %edi
	movl	$160, %r9d
	cmovnel	%edi, %r9d
	cmpl	$244, %esi
	movl	$143, %edi
	movl	$191, %r10d
	cmovel	%edi, %r10d
	cmpl	$237, %esi
	movl	$159, %esi
	cmovnel	%r10d, %esi
	cmpb	%r8b, %r9b
	ja	928f
	cmpb	%sil, %r8b
	ja	928f
	cmpq	$2, %rax
	jne	327f
890:
	xorl	%edx, %edx
928:
	movq	$1, (%rbx)
	movq	%rcx, 8(%rbx)
	movq	%rdx, 16(%rbx)
	jmp	850f
638:
	movq	$0, (%rbx)
	movq	%r14, 8(%rbx)
	movq	%r15, 16(%rbx)
850:
	addq	$16, %rsp
	popq	%rbx
	popq	%r12
	popq	%r13
	popq	%r14
	popq	%r15
	retq
327:
	movl	$513, %edx
	cmpb	$-65, 2(%r14,%rcx)
	jg	928b
	xorl	%esi, %esi
	cmpq	$4, %rax
	movl	$769, %edx
	cmovbq	%rsi, %rdx
	jmp	928b
	.section	.text.core.slice.words.skip_far._52f9edcae2f82f51,"ax",@progbits
	.p2align	4
core.slice.words.skip_far._52f9edcae2f82f51:
	movq	%rsi, %rax
	subq	%rsi, %rdx
	cmpq	$64, %rdx
	jb	5f
	movq	(%rdi), %rcx
	.p2align	4
856:
	movdqu	(%rcx,%rax), %xmm0
	movdqu	16(%rcx,%rax), %xmm1
	movdqu	32(%rcx,%rax), %xmm2
	por	%xmm0, %xmm2
	movdqu	48(%rcx,%rax), %xmm0
	por	%xmm1, %xmm0
	por	%xmm2, %xmm0
	pshufd	$238, %xmm0, %xmm1
	por	%xmm0, %xmm1
	movq	%xmm1, %rsi
	movabsq	$-9187201950435737472, %rdi
	testq	%rdi, %rsi
	jne	5f
	addq	$64, %rax
	addq	$-64, %rdx
	cmpq	$63, %rdx
	ja	856b
5:
	retq
	.section	.rodata.cst16,"aM",@progbits,16
	.p2align	4
.LCfe6faef5_0:
	.zero	16,32
.LCfe6faef5_1:
	.zero	16,251
.LCfe6faef5_2:
	.zero	16,9
	.section	.text.tc_lines.word.long_word_length,"ax",@progbits
	.p2align	4
tc_lines.word.long_word_length:
	pushq	%rbp
	pushq	%r15
	pushq	%r14
	pushq	%r13
	pushq	%r12
	pushq	%rbx
	subq	$456, %rsp
	leaq	-64(%rsi), %r11
	xorl	%edx, %edx
928:
	movq	%rsi, %rax
	subq	%rdx, %rax
	cmpq	$191, %rax
	jbe	972f
	movdqa	.LCfe6faef5_0(%rip), %xmm0
	movdqu	(%rdi,%rdx), %xmm5
	movdqu	16(%rdi,%rdx), %xmm6
	movdqu	32(%rdi,%rdx), %xmm4
	movdqu	48(%rdi,%rdx), %xmm3
	movdqa	%xmm5, %xmm7
	pcmpeqb	%xmm0, %xmm7
	movdqa	%xmm6, %xmm8
	pcmpeqb	%xmm0, %xmm8
	movdqa	.LCfe6faef5_1(%rip), %xmm2
	pand	%xmm2, %xmm6
	pand	%xmm2, %xmm5
	movdqa	.LCfe6faef5_2(%rip), %xmm1
	pcmpeqb	%xmm1, %xmm5
	por	%xmm7, %xmm5
	pcmpeqb	%xmm1, %xmm6
	por	%xmm8, %xmm6
	movdqa	%xmm4, %xmm7
	pcmpeqb	%xmm0, %xmm7
	movdqa	%xmm3, %xmm8
	pcmpeqb	%xmm0, %xmm8
	pand	%xmm2, %xmm3
	pand	%xmm2, %xmm4
	pcmpeqb	%xmm1, %xmm4
	por	%xmm7, %xmm4
	pcmpeqb	%xmm1, %xmm3
	por	%xmm8, %xmm3
	pmovmskb	%xmm5, %eax
	pmovmskb	%xmm6, %ecx
	shll	$16, %ecx
	orl	%eax, %ecx
	pmovmskb	%xmm4, %eax
	shlq	$32, %rax
	orq	%rcx, %rax
	pmovmskb	%xmm3, %r10d
	shlq	$48, %r10
	leaq	64(%rdx), %rcx
	orq	%rax, %r10
	jne	638f
	movq	%rsi, %rax
	subq	%rcx, %rax
	cmpq	$128, %rax
	jb	12f
	movq	%r11, 208(%rsp)
	movq	%rsi, 216(%rsp)
	subq	$-128, %rdx
	movq	%rdx, %rsi
	movq	%rdi, 224(%rsp)
	.p2align	4
859:
	movq	%rax, 200(%rsp)
	movdqu	-64(%rdi,%rsi), %xmm4
	movdqu	-48(%rdi,%rsi), %xmm3
	movdqu	-32(%rdi,%rsi), %xmm5
	movdqu	-16(%rdi,%rsi), %xmm6
	movdqa	%xmm4, %xmm7
	pcmpeqb	%xmm0, %xmm7
	movdqa	%xmm3, %xmm8
	pcmpeqb	%xmm0, %xmm8
	pand	%xmm2, %xmm3
	pand	%xmm2, %xmm4
	pcmpeqb	%xmm1, %xmm4
	por	%xmm7, %xmm4
	pcmpeqb	%xmm1, %xmm3
	por	%xmm8, %xmm3
	movdqa	%xmm3, -48(%rsp)
	movdqa	%xmm4, 48(%rsp)
	movzbl	-33(%rsp), %eax
	movb	%al, 352(%rsp)
	movzbl	-34(%rsp), %eax
	movb	%al, 336(%rsp)
	movzbl	-35(%rsp), %eax
	movb	%al, 320(%rsp)
	movzbl	-36(%rsp), %eax
	movb	%al, 304(%rsp)
	movzbl	-37(%rsp), %eax
	movb	%al, 432(%rsp)
	movzbl	-38(%rsp), %eax
	movb	%al, 288(%rsp)
	movzbl	-39(%rsp), %eax
	movb	%al, 416(%rsp)
	movzbl	-40(%rsp), %eax
	movb	%al, -65(%rsp)
	movzbl	-41(%rsp), %eax
	movb	%al, 400(%rsp)
	movzbl	-42(%rsp), %eax
	movb	%al, -66(%rsp)
	movzbl	-43(%rsp), %eax
	movb	%al, -67(%rsp)
	movzbl	-44(%rsp), %eax
	movb	%al, -68(%rsp)
	movzbl	-45(%rsp), %eax
	movb	%al, 384(%rsp)
	movzbl	-46(%rsp), %eax
	movb	%al, -69(%rsp)
	movzbl	-48(%rsp), %eax
	movb	%al, -71(%rsp)
	movzbl	-47(%rsp), %eax
	movb	%al, -70(%rsp)
	movzbl	63(%rsp), %eax
	movb	%al, 368(%rsp)
	movdqa	%xmm5, %xmm7
	pcmpeqb	%xmm0, %xmm7
	movdqa	%xmm6, %xmm8
	pcmpeqb	%xmm0, %xmm8
	pand	%xmm2, %xmm6
	pand	%xmm2, %xmm5
	pcmpeqb	%xmm1, %xmm5
	por	%xmm7, %xmm5
	pcmpeqb	%xmm1, %xmm6
	por	%xmm8, %xmm6
	movzbl	62(%rsp), %eax
	movb	%al, 196(%rsp)
	movzbl	61(%rsp), %eax
	movb	%al, 192(%rsp)
	movzbl	60(%rsp), %eax
	movb	%al, 188(%rsp)
	movzbl	59(%rsp), %eax
	movb	%al, 272(%rsp)
	movzbl	58(%rsp), %eax
	movb	%al, 256(%rsp)
	movzbl	57(%rsp), %eax
	movb	%al, 240(%rsp)
	movzbl	56(%rsp), %eax
	movb	%al, -72(%rsp)
	movzbl	55(%rsp), %eax
	movb	%al, -73(%rsp)
	movzbl	54(%rsp), %eax
	movb	%al, -74(%rsp)
	movzbl	53(%rsp), %eax
	movb	%al, -75(%rsp)
	movzbl	52(%rsp), %eax
	movb	%al, -76(%rsp)
	movzbl	51(%rsp), %eax
	movb	%al, -77(%rsp)
	movzbl	50(%rsp), %eax
	movb	%al, -78(%rsp)
	movzbl	48(%rsp), %eax
	movb	%al, -80(%rsp)
	movzbl	49(%rsp), %eax
	movb	%al, -79(%rsp)
	movdqa	%xmm6, -32(%rsp)
	movdqa	%xmm5, 32(%rsp)
	movdqu	16(%rdi,%rsi), %xmm7
	movdqu	(%rdi,%rsi), %xmm8
	movdqa	%xmm8, %xmm9
	pcmpeqb	%xmm0, %xmm9
	movdqa	%xmm7, %xmm10
	pcmpeqb	%xmm0, %xmm10
	pand	%xmm2, %xmm7
	pand	%xmm2, %xmm8
	pcmpeqb	%xmm1, %xmm8
	por	%xmm9, %xmm8
	pcmpeqb	%xmm1, %xmm7
	por	%xmm10, %xmm7
	movzbl	-17(%rsp), %eax
	movb	%al, 148(%rsp)
	movzbl	-18(%rsp), %eax
	movb	%al, 140(%rsp)
	movzbl	-19(%rsp), %eax
	movb	%al, 132(%rsp)
	movzbl	-20(%rsp), %eax
	movb	%al, 124(%rsp)
	movzbl	-21(%rsp), %eax
	movb	%al, 112(%rsp)
	movzbl	-22(%rsp), %eax
	movb	%al, 108(%rsp)
	movzbl	-23(%rsp), %eax
	movb	%al, 104(%rsp)
	movzbl	-24(%rsp), %eax
	movb	%al, 100(%rsp)
	movzbl	-25(%rsp), %eax
	movb	%al, 96(%rsp)
	movzbl	-26(%rsp), %eax
	movb	%al, 92(%rsp)
	movzbl	-27(%rsp), %eax
	movb	%al, 88(%rsp)
	movzbl	-28(%rsp), %eax
	movb	%al, 84(%rsp)
	movzbl	-29(%rsp), %eax
	movb	%al, 80(%rsp)
	movzbl	-30(%rsp), %eax
	movb	%al, 76(%rsp)
	movzbl	-32(%rsp), %eax
	movb	%al, 72(%rsp)
	movzbl	-31(%rsp), %eax
	movb	%al, -83(%rsp)
	movzbl	47(%rsp), %eax
	movb	%al, -81(%rsp)
	movzbl	46(%rsp), %eax
	movb	%al, -82(%rsp)
	movzbl	45(%rsp), %eax
	movb	%al, 184(%rsp)
	movzbl	44(%rsp), %eax
	movb	%al, 180(%rsp)
	movzbl	43(%rsp), %eax
	movb	%al, 176(%rsp)
	movzbl	42(%rsp), %eax
	movb	%al, 172(%rsp)
	movzbl	41(%rsp), %eax
	movb	%al, 168(%rsp)
	movzbl	40(%rsp), %eax
	movb	%al, 164(%rsp)
	movzbl	39(%rsp), %eax
	movb	%al, 160(%rsp)
	movzbl	38(%rsp), %eax
	movb	%al, 156(%rsp)
	movzbl	37(%rsp), %eax
	movb	%al, 152(%rsp)
	movzbl	36(%rsp), %eax
	movb	%al, 144(%rsp)
	movzbl	35(%rsp), %eax
	movb	%al, 136(%rsp)
	movzbl	34(%rsp), %eax
	movb	%al, 128(%rsp)
	movzbl	32(%rsp), %eax
	movb	%al, 116(%rsp)
	movzbl	33(%rsp), %eax
	movb	%al, 120(%rsp)
	movdqa	%xmm7, (%rsp)
	movdqa	%xmm8, -64(%rsp)
	movdqu	48(%rdi,%rsi), %xmm9
	movdqu	32(%rdi,%rsi), %xmm10
	movdqa	%xmm10, %xmm11
	pcmpeqb	%xmm0, %xmm11
	movdqa	%xmm9, %xmm12
	pcmpeqb	%xmm0, %xmm12
	pand	%xmm2, %xmm9
	pand	%xmm2, %xmm10
	pcmpeqb	%xmm1, %xmm10
	por	%xmm11, %xmm10
	pcmpeqb	%xmm1, %xmm9
	por	%xmm12, %xmm9
	movzbl	15(%rsp), %eax
	movb	%al, -84(%rsp)
	movzbl	14(%rsp), %eax
	movb	%al, -85(%rsp)
	movzbl	13(%rsp), %eax
	movb	%al, -86(%rsp)
	movzbl	12(%rsp), %eax
	movb	%al, -87(%rsp)
	movzbl	11(%rsp), %eax
	movb	%al, -88(%rsp)
	movzbl	10(%rsp), %eax
	movb	%al, -89(%rsp)
	movzbl	9(%rsp), %eax
	movb	%al, -90(%rsp)
	movzbl	8(%rsp), %eax
	movb	%al, -91(%rsp)
	movzbl	7(%rsp), %eax
	movb	%al, -92(%rsp)
	movzbl	6(%rsp), %eax
	movb	%al, -93(%rsp)
	movzbl	5(%rsp), %eax
	movb	%al, -94(%rsp)
	movzbl	4(%rsp), %eax
	movb	%al, -95(%rsp)
	movzbl	3(%rsp), %eax
	movb	%al, -97(%rsp)
	movzbl	2(%rsp), %eax
	movb	%al, -96(%rsp)
	movzbl	(%rsp), %eax
	movb	%al, -99(%rsp)
	movzbl	1(%rsp), %eax
	movb	%al, -98(%rsp)
	movzbl	-49(%rsp), %eax
	movb	%al, -100(%rsp)
	movzbl	-50(%rsp), %eax
	movb	%al, -101(%rsp)
	movzbl	-51(%rsp), %eax
	movb	%al, -102(%rsp)
	movzbl	-52(%rsp), %r9d
	movzbl	-53(%rsp), %r11d
	movzbl	-54(%rsp), %r10d
	movzbl	-55(%rsp), %ebx
	movzbl	-56(%rsp), %ebp
	movzbl	-57(%rsp), %r14d
	movzbl	-58(%rsp), %r15d
	movzbl	-59(%rsp), %edi
	movzbl	-60(%rsp), %edx
	movzbl	-61(%rsp), %r13d
	movzbl	-62(%rsp), %r12d
	movzbl	-64(%rsp), %ecx
	movzbl	-63(%rsp), %eax
	movdqa	%xmm9, -16(%rsp)
	movdqa	%xmm10, 16(%rsp)
	por	%xmm8, %xmm10
	por	%xmm7, %xmm9
	por	%xmm6, %xmm9
	por	%xmm5, %xmm10
	por	%xmm4, %xmm10
	por	%xmm3, %xmm9
	por	%xmm10, %xmm9
	pmovmskb	%xmm9, %r8d
	testl	%r8d, %r8d
	jne	409f
	subq	$-128, %rsi
	movq	200(%rsp), %rax
	addq	$-128, %rax
	cmpq	$127, %rax
	movq	224(%rsp), %rdi
	ja	859b
	addq	$-64, %rsi
	movq	%rsi, %rdx
	movq	216(%rsp), %rsi
	movq	208(%rsp), %r11
	cmpq	$32, %rax
	jae	859f
	jmp	918f
	.p2align	4
972:
	cmpq	$64, %rax
	jb	489f
	.p2align	4
856:
	movdqu	(%rdi,%rdx), %xmm5
	movdqu	16(%rdi,%rdx), %xmm6
	movdqu	32(%rdi,%rdx), %xmm4
	movdqu	48(%rdi,%rdx), %xmm3
	movdqa	.LCfe6faef5_0(%rip), %xmm0
	movdqa	%xmm5, %xmm7
	pcmpeqb	%xmm0, %xmm7
	movdqa	%xmm6, %xmm8
	pcmpeqb	%xmm0, %xmm8
	movdqa	.LCfe6faef5_1(%rip), %xmm1
	movdqa	%xmm6, %xmm9
	pand	%xmm1, %xmm9
	movdqa	%xmm5, %xmm10
	pand	%xmm1, %xmm10
	movdqa	.LCfe6faef5_2(%rip), %xmm2
	pcmpeqb	%xmm2, %xmm10
	por	%xmm7, %xmm10
	pcmpeqb	%xmm2, %xmm9
	por	%xmm8, %xmm9
	movdqa	%xmm4, %xmm7
	pcmpeqb	%xmm0, %xmm7
	movdqa	%xmm3, %xmm8
	pcmpeqb	%xmm0, %xmm8
	movdqa	%xmm3, %xmm11
	pand	%xmm1, %xmm11
	movdqa	%xmm4, %xmm12
	pand	%xmm1, %xmm12
	pcmpeqb	%xmm2, %xmm12
	por	%xmm7, %xmm12
	por	%xmm10, %xmm12
	pcmpeqb	%xmm2, %xmm11
	por	%xmm8, %xmm11
	por	%xmm9, %xmm11
	por	%xmm12, %xmm11
	pmovmskb	%xmm11, %ecx
	testl	%ecx, %ecx
	jne	972f
	addq	$64, %rdx
	addq	$-64, %rax
	cmpq	$63, %rax
	ja	856b
	jmp	489f
972:
	cmpq	$64, %rax
	jb	489f
196:
	movdqa	%xmm5, %xmm7
	pcmpeqb	%xmm0, %xmm7
	movdqa	%xmm6, %xmm8
	pcmpeqb	%xmm0, %xmm8
	pand	%xmm1, %xmm6
	pand	%xmm1, %xmm5
	pcmpeqb	%xmm2, %xmm5
	por	%xmm7, %xmm5
	pcmpeqb	%xmm2, %xmm6
	por	%xmm8, %xmm6
	movdqa	%xmm4, %xmm7
	pcmpeqb	%xmm0, %xmm7
	movdqa	%xmm3, %xmm8
	pcmpeqb	%xmm0, %xmm8
	pand	%xmm1, %xmm3
	pand	%xmm1, %xmm4
	pcmpeqb	%xmm2, %xmm4
	por	%xmm7, %xmm4
	pcmpeqb	%xmm2, %xmm3
	por	%xmm8, %xmm3
	pmovmskb	%xmm5, %eax
	pmovmskb	%xmm6, %ecx
	shll	$16, %ecx
	orl	%eax, %ecx
	pmovmskb	%xmm4, %eax
	shlq	$32, %rax
	orq	%rcx, %rax
	pmovmskb	%xmm3, %r10d
	shlq	$48, %r10
	orq	%rax, %r10
	jne	669f
	movq	%r11, %rax
	subq	%rdx, %rax
	.p2align	4
972:
	cmpq	$64, %rax
	jb	850f
	movdqu	64(%rdi,%rdx), %xmm5
	movdqu	80(%rdi,%rdx), %xmm6
	movdqu	96(%rdi,%rdx), %xmm4
	movdqu	112(%rdi,%rdx), %xmm3
	movdqa	%xmm5, %xmm7
	pcmpeqb	%xmm0, %xmm7
	movdqa	%xmm6, %xmm8
	pcmpeqb	%xmm0, %xmm8
	movdqa	%xmm6, %xmm9
	pand	%xmm1, %xmm9
	movdqa	%xmm5, %xmm10
	pand	%xmm1, %xmm10
	pcmpeqb	%xmm2, %xmm10
	por	%xmm7, %xmm10
	pcmpeqb	%xmm2, %xmm9
	por	%xmm8, %xmm9
	movdqa	%xmm4, %xmm7
	pcmpeqb	%xmm0, %xmm7
	movdqa	%xmm3, %xmm8
	pcmpeqb	%xmm0, %xmm8
	movdqa	%xmm3, %xmm11
	pand	%xmm1, %xmm11
	movdqa	%xmm4, %xmm12
	pand	%xmm1, %xmm12
	pcmpeqb	%xmm2, %xmm12
	por	%xmm7, %xmm12
	por	%xmm10, %xmm12
	pcmpeqb	%xmm2, %xmm11
	por	%xmm8, %xmm11
	por	%xmm9, %xmm11
	por	%xmm12, %xmm11
	pmovmskb	%xmm11, %ecx
	addq	$-64, %rax
	addq	$64, %rdx
	testl	%ecx, %ecx
	je	972b
	jmp	196b
12:
	movq	%rcx, %rdx
	cmpq	$32, %rax
	jb	918f
859:
	movq	%rsi, %rax
	subq	%rdx, %rax
	.p2align	4
856:
	movdqu	(%rdi,%rdx), %xmm3
	movdqu	16(%rdi,%rdx), %xmm4
	movdqa	%xmm3, %xmm5
	pcmpeqb	%xmm0, %xmm5
	movdqa	%xmm4, %xmm6
	pcmpeqb	%xmm0, %xmm6
	pand	%xmm2, %xmm4
	pand	%xmm2, %xmm3
	pcmpeqb	%xmm1, %xmm3
	por	%xmm5, %xmm3
	pcmpeqb	%xmm1, %xmm4
	por	%xmm6, %xmm4
	pmovmskb	%xmm3, %r8d
	pmovmskb	%xmm4, %ecx
	shll	$16, %ecx
	orl	%r8d, %ecx
	jne	327f
	addq	$-32, %rax
	addq	$32, %rdx
	cmpq	$31, %rax
	ja	856b
918:
	movdqu	-32(%rdi,%rsi), %xmm3
	movdqu	-16(%rdi,%rsi), %xmm4
	movdqa	%xmm3, %xmm5
	pcmpeqb	%xmm0, %xmm5
	pcmpeqb	%xmm4, %xmm0
	pand	%xmm2, %xmm4
	pand	%xmm2, %xmm3
	pcmpeqb	%xmm1, %xmm3
	por	%xmm5, %xmm3
	pcmpeqb	%xmm1, %xmm4
	por	%xmm0, %xmm4
	pmovmskb	%xmm3, %eax
	pmovmskb	%xmm4, %r10d
	jmp	14f
850:
	addq	$64, %rdx
	.p2align	4
489:
	cmpq	$32, %rax
	jb	918f
	movq	%rsi, %rax
	subq	%rdx, %rax
	.p2align	4
856:
	movdqu	(%rdi,%rdx), %xmm0
	movdqu	16(%rdi,%rdx), %xmm1
	movdqa	.LCfe6faef5_0(%rip), %xmm2
	movdqa	%xmm0, %xmm3
	pcmpeqb	%xmm2, %xmm3
	pcmpeqb	%xmm1, %xmm2
	movdqa	.LCfe6faef5_1(%rip), %xmm4
	pand	%xmm4, %xmm1
	pand	%xmm4, %xmm0
	movdqa	.LCfe6faef5_2(%rip), %xmm4
	pcmpeqb	%xmm4, %xmm0
	por	%xmm3, %xmm0
	pcmpeqb	%xmm4, %xmm1
	por	%xmm2, %xmm1
	pmovmskb	%xmm0, %r8d
	pmovmskb	%xmm1, %ecx
	shll	$16, %ecx
	orl	%r8d, %ecx
	jne	327f
	addq	$-32, %rax
	addq	$32, %rdx
	cmpq	$31, %rax
	ja	856b
918:
	movdqu	-32(%rdi,%rsi), %xmm0
	movdqu	-16(%rdi,%rsi), %xmm1
	movdqa	.LCfe6faef5_0(%rip), %xmm2
	movdqa	%xmm0, %xmm3
	pcmpeqb	%xmm2, %xmm3
	pcmpeqb	%xmm1, %xmm2
	movdqa	.LCfe6faef5_1(%rip), %xmm4
	pand	%xmm4, %xmm1
	pand	%xmm4, %xmm0
	movdqa	.LCfe6faef5_2(%rip), %xmm4
	pcmpeqb	%xmm4, %xmm0
	por	%xmm3, %xmm0
	pcmpeqb	%xmm4, %xmm1
	por	%xmm2, %xmm1
	pmovmskb	%xmm0, %eax
	pmovmskb	%xmm1, %r10d
14:
	shll	$16, %r10d
	orl	%eax, %r10d
	movl	%edx, %ecx
	subl	%esi, %ecx
	addb	$32, %cl
	shrq	%cl, %r10
	movq	%rsi, %rax
	movq	%rax, %rcx
	testq	%r10, %r10
	jne	638f
859:
	movq	%rcx, %rdx
	cmpq	%rsi, %rcx
	jb	928b
	jmp	928f
327:
	movl	%ecx, %r10d
	leaq	32(%rdx), %rcx
	.p2align	4
638:
	movq	%rcx, %rbx
	jmp	585f
	.p2align	4
12:
	movq	$-2, %rax
	rolq	%cl, %rax
	andq	%rax, %r10
	je	12f
585:
	rep		bsfq	%r10, %rcx
	leaq	(%rcx,%rdx), %rax
	movzbl	(%rdi,%rax), %r8d
	cmpq	$32, %r8
	ja	12b
	movabsq	$4294976000, %r9
	btq	%r8, %r9
	jae	12b
	jmp	850f
12:
	movq	%rbx, %rcx
	movq	%rcx, %rdx
	cmpq	%rsi, %rcx
	jb	928b
	jmp	928f
409:
	movb	%cl, -115(%rsp)
	movb	%al, -114(%rsp)
	movb	%r12b, -113(%rsp)
	movb	%r13b, -112(%rsp)
	movb	%dl, -111(%rsp)
	movb	%dil, -110(%rsp)
	movb	%r15b, -109(%rsp)
	movb	%r14b, -108(%rsp)
	movb	%bpl, -107(%rsp)
	movb	%bl, -106(%rsp)
	movb	%r10b, -105(%rsp)
	movb	%r11b, -104(%rsp)
	movb	%r9b, -103(%rsp)
	movq	%rsi, 200(%rsp)
	movzbl	72(%rsp), %eax
	movl	%eax, 236(%rsp)
	movzbl	-83(%rsp), %eax
	movl	%eax, 72(%rsp)
	movzbl	76(%rsp), %eax
	movl	%eax, 76(%rsp)
	movzbl	80(%rsp), %eax
	movl	%eax, 80(%rsp)
	movzbl	84(%rsp), %eax
	movl	%eax, 84(%rsp)
	movzbl	88(%rsp), %eax
	movl	%eax, 88(%rsp)
	movzbl	92(%rsp), %eax
	movl	%eax, 92(%rsp)
	movzbl	96(%rsp), %eax
	movl	%eax, 96(%rsp)
	movzbl	100(%rsp), %eax
	movl	%eax, 100(%rsp)
	movzbl	104(%rsp), %eax
	movl	%eax, 104(%rsp)
	movzbl	108(%rsp), %eax
	movl	%eax, 108(%rsp)
	movzbl	112(%rsp), %eax
	movl	%eax, 112(%rsp)
	movzbl	124(%rsp), %eax
	movl	%eax, 124(%rsp)
	movzbl	132(%rsp), %eax
	movl	%eax, 132(%rsp)
	movzbl	140(%rsp), %eax
	movl	%eax, 140(%rsp)
	movzbl	148(%rsp), %eax
	movl	%eax, 148(%rsp)
	movzbl	116(%rsp), %eax
	movl	%eax, 116(%rsp)
	movzbl	120(%rsp), %eax
	movl	%eax, 120(%rsp)
	movzbl	128(%rsp), %eax
	movl	%eax, 128(%rsp)
	movzbl	136(%rsp), %eax
	movl	%eax, 136(%rsp)
	movzbl	144(%rsp), %eax
	movl	%eax, 144(%rsp)
	movzbl	152(%rsp), %eax
	movl	%eax, 152(%rsp)
	movzbl	156(%rsp), %eax
	movl	%eax, 156(%rsp)
	movzbl	160(%rsp), %eax
	movl	%eax, 160(%rsp)
	movzbl	164(%rsp), %eax
	movl	%eax, 164(%rsp)
	movzbl	168(%rsp), %eax
	movl	%eax, 168(%rsp)
	movzbl	172(%rsp), %eax
	movl	%eax, 172(%rsp)
	movzbl	176(%rsp), %eax
	movl	%eax, 176(%rsp)
	movzbl	180(%rsp), %eax
	movl	%eax, 180(%rsp)
	movzbl	184(%rsp), %eax
	movl	%eax, 184(%rsp)
	movzbl	-82(%rsp), %r12d
	movzbl	-81(%rsp), %r13d
	movzbl	-80(%rsp), %ebx
	movzbl	-79(%rsp), %ebp
	movzbl	-78(%rsp), %r10d
	movzbl	-77(%rsp), %r11d
	movzbl	-76(%rsp), %r8d
	movzbl	-75(%rsp), %r9d
	movzbl	-74(%rsp), %edx
	movzbl	-73(%rsp), %esi
	movzbl	-72(%rsp), %eax
	movzbl	240(%rsp), %ecx
	movzbl	256(%rsp), %r14d
	movzbl	272(%rsp), %r15d
	movzbl	188(%rsp), %edi
	movl	%edi, 188(%rsp)
	movzbl	192(%rsp), %edi
	movl	%edi, 192(%rsp)
	movzbl	196(%rsp), %edi
	movl	%edi, 196(%rsp)
	movd	236(%rsp), %xmm8
	movd	72(%rsp), %xmm1
	movd	76(%rsp), %xmm3
	movd	80(%rsp), %xmm4
	movd	84(%rsp), %xmm5
	movd	88(%rsp), %xmm9
	movd	92(%rsp), %xmm7
	movd	96(%rsp), %xmm0
	movd	100(%rsp), %xmm2
	movd	104(%rsp), %xmm15
	movd	108(%rsp), %xmm11
	movd	112(%rsp), %xmm10
	movd	124(%rsp), %xmm12
	movss	132(%rsp), %xmm6
	movaps	%xmm6, 256(%rsp)
	movd	140(%rsp), %xmm14
	movss	148(%rsp), %xmm6
	movaps	%xmm6, 240(%rsp)
	punpcklbw	%xmm1, %xmm8
	movd	116(%rsp), %xmm6
	punpcklbw	%xmm4, %xmm3
	movss	120(%rsp), %xmm1
	movaps	%xmm1, 272(%rsp)
	punpcklwd	%xmm3, %xmm8
	movd	128(%rsp), %xmm13
	punpcklbw	%xmm9, %xmm5
	movd	136(%rsp), %xmm9
	punpcklbw	%xmm0, %xmm7
	movd	144(%rsp), %xmm3
	punpcklwd	%xmm7, %xmm5
	movd	152(%rsp), %xmm4
	punpckldq	%xmm5, %xmm8
	movd	156(%rsp), %xmm5
	punpcklbw	%xmm15, %xmm2
	movd	160(%rsp), %xmm1
	punpcklbw	%xmm10, %xmm11
	movd	164(%rsp), %xmm10
	punpcklwd	%xmm11, %xmm2
	movd	168(%rsp), %xmm11
	punpcklbw	256(%rsp), %xmm12
	movd	172(%rsp), %xmm0
	punpcklbw	240(%rsp), %xmm14
	movd	176(%rsp), %xmm7
	punpcklwd	%xmm14, %xmm12
	movd	180(%rsp), %xmm15
	punpckldq	%xmm12, %xmm2
	movd	184(%rsp), %xmm12
	punpcklqdq	%xmm2, %xmm8
	movd	%r12d, %xmm14
	punpcklbw	272(%rsp), %xmm6
	movd	%r13d, %xmm2
	movdqa	%xmm2, 240(%rsp)
	punpcklbw	%xmm9, %xmm13
	movd	%ebx, %xmm2
	punpcklwd	%xmm13, %xmm6
	movd	%ebp, %xmm13
	punpcklbw	%xmm4, %xmm3
	movd	%r10d, %xmm9
	punpcklbw	%xmm1, %xmm5
	movd	%r11d, %xmm1
	punpcklwd	%xmm5, %xmm3
	movd	%r8d, %xmm4
	punpckldq	%xmm3, %xmm6
	movd	%r9d, %xmm3
	movdqa	%xmm3, 272(%rsp)
	punpcklbw	%xmm11, %xmm10
	movd	%edx, %xmm5
	punpcklbw	%xmm7, %xmm0
	movd	%esi, %xmm3
	movdqa	%xmm3, 256(%rsp)
	punpcklwd	%xmm0, %xmm10
	movd	%eax, %xmm3
	movzbl	368(%rsp), %edx
	punpcklbw	%xmm12, %xmm15
	movd	%ecx, %xmm0
	movdqa	%xmm0, 368(%rsp)
	movzbl	-71(%rsp), %r8d
	movzbl	-70(%rsp), %edi
	punpcklbw	240(%rsp), %xmm14
	movd	%r14d, %xmm12
	movzbl	-69(%rsp), %ecx
	movzbl	384(%rsp), %esi
	punpcklwd	%xmm14, %xmm15
	movd	%r15d, %xmm0
	movdqa	%xmm0, 384(%rsp)
	movzbl	-68(%rsp), %r9d
	movzbl	-67(%rsp), %r10d
	punpckldq	%xmm15, %xmm10
	movd	188(%rsp), %xmm15
	movzbl	-66(%rsp), %r11d
	movzbl	400(%rsp), %ebx
	punpcklqdq	%xmm10, %xmm6
	movss	192(%rsp), %xmm0
	movaps	%xmm0, 400(%rsp)
	movzbl	-65(%rsp), %ebp
	movzbl	416(%rsp), %r14d
	punpcklbw	%xmm13, %xmm2
	movd	196(%rsp), %xmm13
	movzbl	288(%rsp), %r15d
	movzbl	432(%rsp), %r12d
	punpcklbw	%xmm1, %xmm9
	movd	%edx, %xmm14
	movzbl	304(%rsp), %r13d
	movzbl	320(%rsp), %eax
	punpcklwd	%xmm9, %xmm2
	movd	%r8d, %xmm7
	movzbl	336(%rsp), %r8d
	movzbl	352(%rsp), %edx
	punpcklbw	272(%rsp), %xmm4
	movd	%edi, %xmm11
	punpcklbw	256(%rsp), %xmm5
	movd	%ecx, %xmm9
	punpcklwd	%xmm5, %xmm4
	movd	%esi, %xmm10
	punpckldq	%xmm4, %xmm2
	movd	%r9d, %xmm0
	punpcklbw	368(%rsp), %xmm3
	movd	%r10d, %xmm5
	punpcklbw	384(%rsp), %xmm12
	movd	%r11d, %xmm1
	punpcklwd	%xmm12, %xmm3
	movd	%ebx, %xmm12
	punpcklbw	400(%rsp), %xmm15
	movd	%ebp, %xmm4
	punpcklbw	%xmm14, %xmm13
	movd	%r14d, %xmm14
	punpcklwd	%xmm13, %xmm15
	movd	%r15d, %xmm13
	punpckldq	%xmm15, %xmm3
	movd	%r12d, %xmm15
	punpcklqdq	%xmm3, %xmm2
	psllw	$7, %xmm2
	movd	%r13d, %xmm3
	pmovmskb	%xmm2, %ecx
	movd	%eax, %xmm2
	punpcklbw	%xmm11, %xmm7
	movd	%r8d, %xmm11
	punpcklbw	%xmm10, %xmm9
	punpcklwd	%xmm9, %xmm7
	punpcklbw	%xmm5, %xmm0
	punpcklbw	%xmm12, %xmm1
	punpcklwd	%xmm1, %xmm0
	punpckldq	%xmm0, %xmm7
	punpcklbw	%xmm14, %xmm4
	punpcklbw	%xmm15, %xmm13
	punpcklwd	%xmm13, %xmm4
	psllw	$7, %xmm8
	psllw	$7, %xmm6
	punpcklbw	%xmm2, %xmm3
	movd	%edx, %xmm0
	punpcklbw	%xmm0, %xmm11
	punpcklwd	%xmm11, %xmm3
	punpckldq	%xmm3, %xmm4
	punpcklqdq	%xmm4, %xmm7
	psllw	$7, %xmm7
	pmovmskb	%xmm7, %eax
	shll	$16, %eax
	orl	%ecx, %eax
	pmovmskb	%xmm6, %ecx
	shlq	$32, %rcx
	orq	%rax, %rcx
	pmovmskb	%xmm8, %r10d
	shlq	$48, %r10
	orq	%rcx, %r10
	je	548f
	movq	200(%rsp), %rcx
	leaq	-64(%rcx), %rdx
	movq	216(%rsp), %rsi
	movq	208(%rsp), %r11
	movq	224(%rsp), %rdi
	jmp	638b
548:
	movzbl	-115(%rsp), %r9d
	movzbl	-114(%rsp), %r10d
	movzbl	-113(%rsp), %r11d
	movzbl	-112(%rsp), %ebx
	movzbl	-111(%rsp), %ebp
	movzbl	-110(%rsp), %r14d
	movzbl	-109(%rsp), %r15d
	movzbl	-108(%rsp), %r12d
	movzbl	-107(%rsp), %eax
	movzbl	-106(%rsp), %r13d
	movzbl	-105(%rsp), %r8d
	movzbl	-104(%rsp), %esi
	movzbl	-103(%rsp), %edx
	movzbl	-102(%rsp), %ecx
	movl	%ecx, 352(%rsp)
	movzbl	-101(%rsp), %edi
	movzbl	-16(%rsp), %ecx
	movd	%ecx, %xmm12
	movzbl	-15(%rsp), %ecx
	movd	%ecx, %xmm1
	movzbl	-14(%rsp), %ecx
	movd	%ecx, %xmm4
	movzbl	-13(%rsp), %ecx
	movd	%ecx, %xmm5
	movzbl	-12(%rsp), %ecx
	movd	%ecx, %xmm6
	movzbl	-11(%rsp), %ecx
	movd	%ecx, %xmm0
	movzbl	-10(%rsp), %ecx
	movd	%ecx, %xmm7
	movzbl	-9(%rsp), %ecx
	movd	%ecx, %xmm10
	movzbl	-8(%rsp), %ecx
	movd	%ecx, %xmm2
	movzbl	-7(%rsp), %ecx
	movd	%ecx, %xmm13
	movzbl	-6(%rsp), %ecx
	movd	%ecx, %xmm9
	movzbl	-5(%rsp), %ecx
	movd	%ecx, %xmm15
	movzbl	-4(%rsp), %ecx
	movd	%ecx, %xmm3
	movzbl	-3(%rsp), %ecx
	movd	%ecx, %xmm8
	movdqa	%xmm8, 304(%rsp)
	movzbl	-2(%rsp), %ecx
	movd	%ecx, %xmm8
	movzbl	-1(%rsp), %ecx
	movd	%ecx, %xmm14
	punpcklbw	%xmm1, %xmm12
	movzbl	16(%rsp), %ecx
	movd	%ecx, %xmm11
	punpcklbw	%xmm5, %xmm4
	movzbl	17(%rsp), %ecx
	movd	%ecx, %xmm1
	movdqa	%xmm1, 336(%rsp)
	punpcklwd	%xmm4, %xmm12
	movzbl	18(%rsp), %ecx
	movd	%ecx, %xmm4
	punpcklbw	%xmm0, %xmm6
	movzbl	19(%rsp), %ecx
	movd	%ecx, %xmm0
	movdqa	%xmm0, 320(%rsp)
	punpcklbw	%xmm10, %xmm7
	movzbl	20(%rsp), %ecx
	movd	%ecx, %xmm5
	punpcklwd	%xmm7, %xmm6
	movzbl	21(%rsp), %ecx
	movd	%ecx, %xmm0
	movdqa	%xmm0, 288(%rsp)
	punpckldq	%xmm6, %xmm12
	movzbl	22(%rsp), %ecx
	movd	%ecx, %xmm6
	punpcklbw	%xmm13, %xmm2
	movzbl	23(%rsp), %ecx
	movd	%ecx, %xmm1
	punpcklbw	%xmm15, %xmm9
	movzbl	24(%rsp), %ecx
	movd	%ecx, %xmm10
	punpcklwd	%xmm9, %xmm2
	movzbl	25(%rsp), %ecx
	movd	%ecx, %xmm9
	punpcklbw	304(%rsp), %xmm3
	movzbl	26(%rsp), %ecx
	movd	%ecx, %xmm0
	punpcklbw	%xmm14, %xmm8
	movzbl	27(%rsp), %ecx
	movd	%ecx, %xmm7
	punpcklwd	%xmm8, %xmm3
	movzbl	28(%rsp), %ecx
	movd	%ecx, %xmm14
	punpckldq	%xmm3, %xmm2
	movzbl	29(%rsp), %ecx
	movd	%ecx, %xmm8
	punpcklqdq	%xmm2, %xmm12
	movzbl	30(%rsp), %ecx
	movd	%ecx, %xmm15
	punpcklbw	336(%rsp), %xmm11
	movzbl	31(%rsp), %ecx
	movd	%ecx, %xmm13
	punpcklbw	320(%rsp), %xmm4
	movd	%r9d, %xmm2
	punpcklwd	%xmm4, %xmm11
	movd	%r10d, %xmm3
	movdqa	%xmm3, 432(%rsp)
	punpcklbw	288(%rsp), %xmm5
	movd	%r11d, %xmm3
	movdqa	%xmm3, 320(%rsp)
	punpcklbw	%xmm1, %xmm6
	movd	%ebx, %xmm1
	movdqa	%xmm1, 304(%rsp)
	punpcklwd	%xmm6, %xmm5
	movd	%ebp, %xmm4
	punpckldq	%xmm5, %xmm11
	movd	%r14d, %xmm1
	punpcklbw	%xmm9, %xmm10
	movd	%r15d, %xmm5
	punpcklbw	%xmm7, %xmm0
	movd	%r12d, %xmm6
	punpcklwd	%xmm0, %xmm10
	movd	%eax, %xmm3
	movzbl	-100(%rsp), %r9d
	punpcklbw	%xmm8, %xmm14
	movd	%r13d, %xmm0
	movdqa	%xmm0, 336(%rsp)
	movzbl	-99(%rsp), %r11d
	movzbl	-98(%rsp), %eax
	movl	%eax, 288(%rsp)
	punpcklbw	%xmm13, %xmm15
	movd	%r8d, %xmm9
	movzbl	-96(%rsp), %r8d
	movzbl	-97(%rsp), %r10d
	punpcklwd	%xmm15, %xmm14
	movd	%esi, %xmm0
	movdqa	%xmm0, 416(%rsp)
	movzbl	-95(%rsp), %esi
	movzbl	-94(%rsp), %ebx
	punpckldq	%xmm14, %xmm10
	movd	%edx, %xmm14
	movzbl	-93(%rsp), %edx
	movzbl	-92(%rsp), %ebp
	punpcklqdq	%xmm10, %xmm11
	movss	352(%rsp), %xmm0
	movaps	%xmm0, 352(%rsp)
	movzbl	-91(%rsp), %ecx
	movzbl	-90(%rsp), %r14d
	punpcklbw	432(%rsp), %xmm2
	movd	%edi, %xmm13
	movzbl	-89(%rsp), %r15d
	movzbl	-88(%rsp), %r12d
	movdqa	320(%rsp), %xmm0
	punpcklbw	304(%rsp), %xmm0
	movd	%r9d, %xmm15
	movzbl	-87(%rsp), %r13d
	movzbl	-86(%rsp), %eax
	punpcklwd	%xmm0, %xmm2
	movd	%r11d, %xmm7
	movzbl	-85(%rsp), %r11d
	movzbl	-84(%rsp), %r9d
	punpcklbw	%xmm1, %xmm4
	movd	288(%rsp), %xmm10
	punpcklbw	%xmm6, %xmm5
	movd	%r8d, %xmm6
	punpcklwd	%xmm5, %xmm4
	movd	%r10d, %xmm8
	punpckldq	%xmm4, %xmm2
	movd	%esi, %xmm0
	punpcklbw	336(%rsp), %xmm3
	movd	%ebx, %xmm5
	punpcklbw	416(%rsp), %xmm9
	movd	%edx, %xmm1
	punpcklwd	%xmm9, %xmm3
	movd	%ebp, %xmm9
	punpcklbw	352(%rsp), %xmm14
	movd	%ecx, %xmm4
	punpcklbw	%xmm15, %xmm13
	movd	%r14d, %xmm15
	punpcklwd	%xmm13, %xmm14
	movd	%r15d, %xmm13
	punpckldq	%xmm14, %xmm3
	movd	%r12d, %xmm14
	punpcklqdq	%xmm3, %xmm2
	psllw	$7, %xmm2
	movd	%r13d, %xmm3
	pmovmskb	%xmm2, %ecx
	movd	%eax, %xmm2
	punpcklbw	%xmm10, %xmm7
	movd	%r11d, %xmm10
	punpcklbw	%xmm8, %xmm6
	punpcklwd	%xmm6, %xmm7
	punpcklbw	%xmm5, %xmm0
	punpcklbw	%xmm9, %xmm1
	punpcklwd	%xmm1, %xmm0
	punpckldq	%xmm0, %xmm7
	punpcklbw	%xmm15, %xmm4
	punpcklbw	%xmm14, %xmm13
	punpcklwd	%xmm13, %xmm4
	psllw	$7, %xmm12
	psllw	$7, %xmm11
	punpcklbw	%xmm2, %xmm3
	movd	%r9d, %xmm0
	punpcklbw	%xmm0, %xmm10
	punpcklwd	%xmm10, %xmm3
	punpckldq	%xmm3, %xmm4
	punpcklqdq	%xmm4, %xmm7
	psllw	$7, %xmm7
	pmovmskb	%xmm7, %eax
	shll	$16, %eax
	orl	%ecx, %eax
	pmovmskb	%xmm11, %ecx
	shlq	$32, %rcx
	orq	%rax, %rcx
	pmovmskb	%xmm12, %r10d
	shlq	$48, %r10
	orq	%rcx, %r10
	movq	200(%rsp), %rdx
	leaq	64(%rdx), %rax
	movq	216(%rsp), %rsi
	movq	208(%rsp), %r11
	movq	224(%rsp), %rdi
	movq	%rax, %rcx
	testq	%r10, %r10
	jne	638b
	jmp	859b
669:
	leaq	64(%rdx), %rcx
	jmp	638b
928:
	movq	%rsi, %rax
850:
	addq	$456, %rsp
	popq	%rbx
	popq	%r12
	popq	%r13
	popq	%r14
	popq	%r15
	popq	%rbp
	retq
	.section	.text.tc_text.word.three_arguments,"ax",@progbits
	.p2align	4
tc_text.word.three_arguments:
	pushq	%rbp
	pushq	%r15
	pushq	%r14
	pushq	%r13
	pushq	%r12
	pushq	%rbx
	subq	$56, %rsp
	movq	%rdx, %r12
	movq	%rsi, %rbp
	movq	%rdi, %r15
	movabsq	$4294976000, %rsi
	xorl	%r14d, %r14d
	testq	%rdx, %rdx
	je	928f
	.p2align	4
548:
	movzbl	(%rbp,%r14), %eax
	cmpq	$32, %rax
	ja	928f
	btq	%rax, %rsi
	jae	928f
	incq	%r14
	cmpq	%r14, %r12
	jne	548b
	movq	%r12, %r14
928:
	movq	%r12, %r8
	subq	%r14, %r8
	je	325f
	leaq	(%r14,%rbp), %rdi
	cmpq	$63, %r8
	ja	928f
	xorl	%r13d, %r13d
	jmp	548f
	.p2align	4
629:
	incq	%r13
	cmpq	%r13, %r8
	je	648f
548:
	movzbl	(%rdi,%r13), %eax
	cmpq	$32, %rax
	ja	629b
	btq	%rax, %rsi
	jae	629b
	jmp	669f
928:
	movq	%r8, %rsi
	movq	%rdi, %r13
	movq	%r8, %rbx
	callq	tc_lines.word.long_word_length
	movq	%rbx, %r8
	movq	%r13, %rdi
	movabsq	$4294976000, %rsi
	movq	%rax, %r13
669:
	leaq	(%rdi,%r13), %r9
	subq	%r13, %r8
	je	890f
928:
	movq	%r12, %rax
	subq	%r13, %rax
	subq	%r14, %rax
	xorl	%ebx, %ebx
	.p2align	4
548:
	movzbl	(%r9,%rbx), %ecx
	cmpq	$32, %rcx
	ja	980f
	btq	%rcx, %rsi
	jae	980f
	incq	%rbx
	cmpq	%rbx, %rax
	jne	548b
	movq	%r8, %rbx
980:
	subq	%rbx, %r8
	je	325f
859:
	movq	%rbp, 32(%rsp)
	addq	%rbx, %r9
	cmpq	$63, %r8
	movq	%rdi, 48(%rsp)
	ja	12f
	movq	%r12, %rax
	subq	%r13, %rax
	subq	%rbx, %rax
	subq	%r14, %rax
	xorl	%ebp, %ebp
	jmp	548f
	.p2align	4
629:
	incq	%rbp
	cmpq	%rbp, %rax
	je	928f
548:
	movzbl	(%r9,%rbp), %ecx
	cmpq	$32, %rcx
	ja	629b
	btq	%rcx, %rsi
	jae	629b
	jmp	638f
12:
	movq	%r9, %rdi
	movq	%r8, %rsi
	movq	%r8, %rbp
	movq	%r9, 8(%rsp)
	callq	tc_lines.word.long_word_length
	movq	8(%rsp), %r9
	movq	%rbp, %r8
	movabsq	$4294976000, %rsi
	movq	%rax, %rbp
638:
	movq	%r15, 16(%rsp)
	leaq	(%r9,%rbp), %rdi
	subq	%rbp, %r8
	je	83f
12:
	movq	%r12, %rax
	subq	%rbp, %rax
	subq	%r13, %rax
	subq	%rbx, %rax
	subq	%r14, %rax
	xorl	%r15d, %r15d
	.p2align	4
548:
	movzbl	(%rdi,%r15), %ecx
	cmpq	$32, %rcx
	ja	980f
	btq	%rcx, %rsi
	jae	980f
	incq	%r15
	cmpq	%r15, %rax
	jne	548b
	movq	%r8, %r15
980:
	subq	%r15, %r8
	jne	850f
	jmp	859f
648:
	movq	%r8, %r13
	leaq	(%rdi,%r13), %r9
	subq	%r13, %r8
	jne	928b
890:
	xorl	%ebx, %ebx
	subq	%rbx, %r8
	jne	859b
325:
	movw	$257, (%r15)
	xorps	%xmm0, %xmm0
	movups	%xmm0, 8(%r15)
	movups	%xmm0, 24(%r15)
	movups	%xmm0, 40(%r15)
	jmp	880f
928:
	movq	%r8, %rbp
	movq	%r15, 16(%rsp)
	leaq	(%r9,%rbp), %rdi
	subq	%rbp, %r8
	jne	12b
83:
	xorl	%r15d, %r15d
	subq	%r15, %r8
	je	859f
850:
	addq	%r15, %rdi
	cmpq	$63, %r8
	ja	928f
	movq	%r12, %rcx
	subq	%rbp, %rcx
	subq	%r13, %rcx
	subq	%rbx, %rcx
	subq	%r15, %rcx
	subq	%r14, %rcx
	xorl	%eax, %eax
	jmp	548f
	.p2align	4
629:
	incq	%rax
	cmpq	%rax, %rcx
	je	12f
548:
	movzbl	(%rdi,%rax), %edx
	cmpq	$32, %rdx
	ja	629b
	btq	%rdx, %rsi
	jae	629b
	jmp	972f
928:
	movq	%rdi, 24(%rsp)
	movq	24(%rsp), %rdi
	movq	%r8, %rsi
	movq	%r8, 40(%rsp)
	movq	%r9, 8(%rsp)
	callq	tc_lines.word.long_word_length
	movq	24(%rsp), %rdi
	movq	8(%rsp), %r9
	movq	40(%rsp), %r8
	movabsq	$4294976000, %rsi
972:
	cmpq	%rax, %r8
	je	928f
850:
	addq	%rax, %r14
	addq	%r13, %r14
	addq	%rbp, %r14
	subq	%rbx, %r12
	subq	%r15, %r12
	addq	%rbx, %r15
	movq	32(%rsp), %rcx
	addq	%r15, %rcx
	.p2align	4
548:
	movzbl	(%rcx,%r14), %edx
	cmpq	$32, %rdx
	ja	980f
	btq	%rdx, %rsi
	jae	980f
	incq	%r14
	cmpq	%r14, %r12
	jne	548b
928:
	movq	16(%rsp), %rcx
	movw	$0, (%rcx)
	movq	48(%rsp), %rdx
	movq	%rdx, 8(%rcx)
	movq	%r13, 16(%rcx)
	movq	%r9, 24(%rcx)
	movq	%rbp, 32(%rcx)
	movq	%rdi, 40(%rcx)
	movq	%rax, 48(%rcx)
	jmp	880f
980:
	subq	%r14, %r12
	je	928b
	cmpq	$64, %r12
	jb	859f
	movq	32(%rsp), %rdi
	addq	%r14, %rdi
	addq	%r15, %rdi
	movq	%r12, %rsi
	callq	tc_lines.word.long_word_length
859:
	movq	16(%rsp), %rax
	movw	$257, (%rax)
	xorps	%xmm0, %xmm0
	movups	%xmm0, 8(%rax)
	movups	%xmm0, 24(%rax)
	movups	%xmm0, 40(%rax)
880:
	addq	$56, %rsp
	popq	%rbx
	popq	%r12
	popq	%r13
	popq	%r14
	popq	%r15
	popq	%rbp
	retq
12:
	movq	%r8, %rax
	cmpq	%rax, %r8
	jne	850b
	jmp	928b
	.section	.text.tc_lines.number.small_number,"ax",@progbits
	.p2align	4
tc_lines.number.small_number:
	leaq	-6(%rsi), %rcx
	movb	$1, %al
	xorl	%edx, %edx
	cmpq	$-5, %rcx
	jb	5f
	testq	%rsi, %rsi
	je	83f
	movzbl	(%rdi), %ecx
	addb	$-48, %cl
	cmpb	$9, %cl
	ja	890f
	cmpq	$1, %rsi
	jne	548f
327:
	movl	%esi, %eax
	andl	$3, %eax
	cmpq	$4, %rsi
	jae	523f
	xorl	%edx, %edx
	xorl	%ecx, %ecx
	jmp	850f
548:
	movzbl	1(%rdi), %ecx
	addb	$-48, %cl
	cmpb	$9, %cl
	ja	890f
	cmpq	$2, %rsi
	je	327b
	movzbl	2(%rdi), %ecx
	addb	$-48, %cl
	cmpb	$9, %cl
	ja	890f
	cmpq	$3, %rsi
	je	327b
	movzbl	3(%rdi), %ecx
	addb	$-48, %cl
	cmpb	$9, %cl
	ja	890f
	cmpq	$4, %rsi
	je	327b
	movzbl	4(%rdi), %ecx
	addb	$-48, %cl
	cmpb	$10, %cl
	setb	%cl
	cmpq	$5, %rsi
	sete	%dl
	testb	%dl, %cl
	jne	327b
890:
	xorl	%edx, %edx
	retq
523:
	andl	$4, %esi
	xorl	%edx, %edx
	xorl	%ecx, %ecx
	.p2align	4
373:
	leal	(%rdx,%rdx,4), %edx
	movzbl	(%rdi,%rcx), %r8d
	movzbl	1(%rdi,%rcx), %r9d
	addb	$-48, %r8b
	movzbl	%r8b, %r8d
	leal	(%r8,%rdx,2), %edx
	leal	(%rdx,%rdx,4), %edx
	addb	$-48, %r9b
	movzbl	%r9b, %r8d
	leal	(%r8,%rdx,2), %edx
	leal	(%rdx,%rdx,4), %edx
	movzbl	2(%rdi,%rcx), %r8d
	addb	$-48, %r8b
	movzbl	%r8b, %r8d
	leal	(%r8,%rdx,2), %edx
	leal	(%rdx,%rdx,4), %edx
	movzbl	3(%rdi,%rcx), %r8d
	addb	$-48, %r8b
	movzbl	%r8b, %r8d
	leal	(%r8,%rdx,2), %edx
	addq	$4, %rcx
	cmpq	%rcx, %rsi
	jne	373b
	testq	%rax, %rax
	je	83f
850:
	addq	%rcx, %rdi
	xorl	%ecx, %ecx
	.p2align	4
373:
	leal	(%rdx,%rdx,4), %edx
	movzbl	(%rdi,%rcx), %esi
	addb	$-48, %sil
	movzbl	%sil, %esi
	leal	(%rsi,%rdx,2), %edx
	incq	%rcx
	cmpq	%rcx, %rax
	jne	373b
83:
	xorl	%ecx, %ecx
	cmpl	$256, %edx
	setae	%al
	cmovbl	%edx, %ecx
	movl	%ecx, %edx
5:
	retq
	.section	.text.core.cmp.slices.groups_equal._i8_31_core.cmp.numbers.U8PartialEq,"ax",@progbits
	.p2align	4
core.cmp.slices.groups_equal._i8_31_core.cmp.numbers.U8PartialEq:
	cmpq	$8, %rsi
	ja	972f
	movd	-4(%rdi,%rsi), %xmm0
	movd	(%rdi), %xmm1
	punpckldq	%xmm0, %xmm1
	movd	-4(%rdx,%rsi), %xmm0
	movd	(%rdx), %xmm2
	punpckldq	%xmm0, %xmm2
	movq	%xmm1, %rax
	movq	%xmm2, %rcx
	cmpq	%rcx, %rax
	jmp	353f
972:
	cmpq	$32, %rsi
	ja	972f
	leaq	-8(%rsi), %rax
	cmpq	$8, %rax
	movl	$8, %ecx
	cmovbq	%rax, %rcx
	cmpq	$16, %rax
	movl	$16, %r8d
	cmovbq	%rax, %r8
	movq	(%rdi,%rcx), %xmm0
	movq	(%rdi), %xmm1
	punpcklqdq	%xmm0, %xmm1
	movq	(%rdi,%r8), %xmm0
	movq	-8(%rdi,%rsi), %xmm2
	punpcklqdq	%xmm2, %xmm0
	movq	(%rdx,%rcx), %xmm2
	movq	(%rdx), %xmm3
	punpcklqdq	%xmm2, %xmm3
	pcmpeqb	%xmm1, %xmm3
	movq	(%rdx,%r8), %xmm1
	movq	-8(%rdx,%rsi), %xmm2
	punpcklqdq	%xmm2, %xmm1
	pcmpeqb	%xmm0, %xmm1
	pand	%xmm3, %xmm1
	pmovmskb	%xmm1, %eax
	jmp	83f
972:
	cmpq	$65, %rsi
	jae	890f
	movdqu	(%rdi), %xmm0
	movdqu	16(%rdi), %xmm1
	movdqu	(%rdx), %xmm2
	pcmpeqb	%xmm0, %xmm2
	movdqu	16(%rdx), %xmm0
	pcmpeqb	%xmm1, %xmm0
	movdqu	-32(%rdi,%rsi), %xmm1
	movdqu	-16(%rdi,%rsi), %xmm3
	movdqu	-32(%rdx,%rsi), %xmm4
	pcmpeqb	%xmm1, %xmm4
	pand	%xmm2, %xmm4
	movdqu	-16(%rdx,%rsi), %xmm1
	pcmpeqb	%xmm3, %xmm1
	pand	%xmm0, %xmm1
	pand	%xmm4, %xmm1
	pmovmskb	%xmm1, %eax
	jmp	83f
890:
	xorl	%eax, %eax
	movq	%rsi, %rcx
	.p2align	4
856:
	movdqu	(%rdi,%rax), %xmm0
	movdqu	16(%rdi,%rax), %xmm1
	movdqu	32(%rdi,%rax), %xmm2
	movdqu	48(%rdi,%rax), %xmm3
	movdqu	(%rdx,%rax), %xmm4
	pcmpeqb	%xmm0, %xmm4
	movdqu	16(%rdx,%rax), %xmm0
	pcmpeqb	%xmm1, %xmm0
	movdqu	32(%rdx,%rax), %xmm1
	pcmpeqb	%xmm2, %xmm1
	pand	%xmm4, %xmm1
	movdqu	48(%rdx,%rax), %xmm2
	pcmpeqb	%xmm3, %xmm2
	pand	%xmm0, %xmm2
	pand	%xmm1, %xmm2
	pmovmskb	%xmm2, %r8d
	cmpl	$65535, %r8d
	jne	972f
	addq	$64, %rax
	addq	$-64, %rcx
	cmpq	$63, %rcx
	ja	856b
972:
	cmpq	$32, %rcx
	jb	918f
	movq	%rsi, %rcx
	subq	%rax, %rcx
	.p2align	4
856:
	movdqu	(%rdi,%rax), %xmm0
	movdqu	16(%rdi,%rax), %xmm1
	movdqu	(%rdx,%rax), %xmm2
	pcmpeqb	%xmm0, %xmm2
	movdqu	16(%rdx,%rax), %xmm0
	pcmpeqb	%xmm1, %xmm0
	pand	%xmm2, %xmm0
	pmovmskb	%xmm0, %r8d
	xorl	$65535, %r8d
	jne	409f
	addq	$32, %rax
	addq	$-32, %rcx
	cmpq	$32, %rcx
	jae	856b
	jmp	918f
409:
	movb	$1, %al
	cmpq	$31, %rcx
	ja	482f
918:
	movdqu	-32(%rdi,%rsi), %xmm0
	movdqu	-16(%rdi,%rsi), %xmm1
	movdqu	-32(%rdx,%rsi), %xmm2
	pcmpeqb	%xmm0, %xmm2
	movdqu	-16(%rdx,%rsi), %xmm0
	pcmpeqb	%xmm1, %xmm0
	pand	%xmm2, %xmm0
	pmovmskb	%xmm0, %eax
83:
	xorl	$65535, %eax
353:
	setne	%al
482:
	xorb	$1, %al
	retq
	.section	.text.hex.decode._2c03b3434bbe5675,"ax",@progbits
	.p2align	4
hex.decode._2c03b3434bbe5675:
	pushq	%r15
	pushq	%r14
	pushq	%r13
	pushq	%r12
	pushq	%rbx
	subq	$16, %rsp
	testb	$1, %dl
	jne	928f
	testq	%rdx, %rdx
	je	669f
	movq	%rsi, %r12
	movq	%rdi, %r15
	movq	%rdx, %r14
	movq	%rdx, %rbx
	shrq	%rbx
	movl	$1, %esi
	movq	%rbx, %rdi
	callq	rattle_alloc@PLT
	testb	$1, %al
	je	859f
	cmpq	$2, %r14
	jne	219f
	xorl	%r14d, %r14d
	jmp	12f
928:
	movq	$1, (%rdi)
	movq	$1, 8(%rdi)
	xorps	%xmm0, %xmm0
	movups	%xmm0, 16(%rdi)
	jmp	850f
669:
	leaq	15(%rsp), %rdx
	xorl	%ebx, %ebx
928:
	movq	$0, (%rdi)
	movq	%rdx, 8(%rdi)
	movq	%rbx, 16(%rdi)
	movq	%rbx, 24(%rdi)
	jmp	850f
859:
	movq	$1, (%r15)
	movq	$3, 8(%r15)
	xorps	%xmm0, %xmm0
	movups	%xmm0, 16(%r15)
	jmp	850f
219:
	leaq	-1(%rbx), %r14
	movq	%rdx, %rdi
	xorl	%esi, %esi
	movq	%rdx, %r13
	movq	%r14, %rdx
	callq	memset@PLT
	movq	%r13, %rdx
12:
	movq	%r12, %rax
	movb	$0, (%rdx,%r14)
	incq	%r14
	cmpq	%r14, %rbx
	jne	327f
	xorl	%r12d, %r12d
	xorl	%esi, %esi
	movq	%r15, %rdi
	jmp	548f
	.p2align	4
650:
	addb	$-48, %r8b
475:
	shlb	$4, %cl
	addb	%r8b, %cl
	movb	%cl, (%rdx,%rsi)
	incq	%rsi
	addq	$-2, %r12
	cmpq	%rsi, %r14
	je	928b
548:
	movzbl	(%rax,%rsi,2), %ecx
	cmpb	$48, %cl
	jb	300f
	movzbl	1(%rax,%rsi,2), %r8d
	cmpb	$57, %cl
	ja	868f
	addb	$-48, %cl
	jmp	198f
	.p2align	4
868:
	cmpb	$65, %cl
	jb	300f
	cmpb	$70, %cl
	ja	373f
	addb	$-55, %cl
	jmp	198f
373:
	leal	-97(%rcx), %r9d
	cmpb	$5, %r9b
	ja	300f
	addb	$-87, %cl
198:
	cmpb	$48, %r8b
	jb	186f
	cmpb	$57, %r8b
	jbe	650b
	cmpb	$65, %r8b
	jb	186f
	cmpb	$70, %r8b
	ja	373f
	addb	$-55, %r8b
	jmp	475b
373:
	leal	-97(%r8), %r9d
	cmpb	$5, %r9b
	ja	186f
	addb	$-87, %r8b
	jmp	475b
327:
	movl	$2, %ebx
	xorl	%r12d, %r12d
	jmp	928f
300:
	negq	%r12
	jmp	548f
186:
	movl	$1, %eax
	subq	%r12, %rax
	movl	%r8d, %ecx
	movq	%rax, %r12
548:
	movzbl	%cl, %ebx
	shlq	$32, %rbx
928:
	movq	%rdx, %rdi
	callq	rattle_dealloc@PLT
	movq	$1, (%r15)
	movq	%rbx, 8(%r15)
	movq	%r12, 16(%r15)
	movq	$0, 24(%r15)
850:
	addq	$16, %rsp
	popq	%rbx
	popq	%r12
	popq	%r13
	popq	%r14
	popq	%r15
	retq
	.section	.text.tc_text.line.parse_line,"ax",@progbits
	.p2align	4
tc_text.line.parse_line:
	pushq	%rbp
	pushq	%r15
	pushq	%r14
	pushq	%r13
	pushq	%r12
	pushq	%rbx
	subq	$216, %rsp
	xorps	%xmm0, %xmm0
	movaps	%xmm0, 16(%rsp)
	movaps	%xmm0, (%rsp)
	movq	$0, 32(%rsp)
	movabsq	$4294976000, %r15
	xorl	%ebp, %ebp
	testq	%rdx, %rdx
	je	928f
	.p2align	4
548:
	movzbl	(%rsi,%rbp), %eax
	cmpq	$32, %rax
	ja	928f
	btq	%rax, %r15
	jae	928f
	incq	%rbp
	cmpq	%rbp, %rdx
	jne	548b
	movq	%rdx, %rbp
928:
	movq	%rdx, %rbx
	subq	%rbp, %rbx
	je	325f
	leaq	(%rsi,%rbp), %r14
	cmpq	$63, %rbx
	movq	%rdx, %r13
	movq	%rsi, 184(%rsp)
	ja	928f
	xorl	%eax, %eax
	jmp	548f
	.p2align	4
629:
	incq	%rax
	cmpq	%rax, %rbx
	je	859f
548:
	movzbl	(%r14,%rax), %ecx
	cmpq	$32, %rcx
	ja	629b
	btq	%rcx, %r15
	jae	629b
	jmp	548f
928:
	movq	%rdi, %r12
	movq	%r14, %rdi
	movq	%rbx, %rsi
	callq	tc_lines.word.long_word_length
	movq	%r12, %rdi
548:
	movzbl	(%r14), %ecx
	cmpl	$35, %ecx
	jne	669f
325:
	movw	$0, (%rdi)
	jmp	327f
859:
	movq	%rbx, %rax
	movzbl	(%r14), %ecx
	cmpl	$35, %ecx
	je	325b
669:
	leaq	-3(%rax), %rdx
	cmpq	$4, %rdx
	ja	325f
	leaq	(%r14,%rax), %rsi
	subq	%rax, %rbx
	leaq	.LJ21dbde50_0(%rip), %r8
	movslq	(%r8,%rdx,4), %rdx
	addq	%r8, %rdx
	jmpq	*%rdx
871:
	cmpl	$109, %ecx
	jne	325f
	cmpb	$97, 1(%r14)
	jne	325f
	cmpb	$112, 2(%r14)
	jne	325f
	movq	%rdi, %r14
	xorps	%xmm0, %xmm0
	movaps	%xmm0, 128(%rsp)
	movaps	%xmm0, 112(%rsp)
	movaps	%xmm0, 96(%rsp)
	movq	$0, 144(%rsp)
	leaq	96(%rsp), %rdi
	movq	%rbx, %rdx
	callq	tc_text.word.three_arguments
	cmpb	$0, 96(%rsp)
	je	859f
	movzbl	97(%rsp), %eax
	xorps	%xmm0, %xmm0
	movaps	%xmm0, 16(%rsp)
	movq	$0, 32(%rsp)
	movb	$1, %cl
	xorl	%edi, %edi
	xorl	%r9d, %r9d
	xorl	%edx, %edx
	xorl	%r8d, %r8d
	movq	%r14, %rsi
	jmp	969f
975:
	cmpl	$102, %ecx
	je	868f
	cmpl	$113, %ecx
	jne	325f
	cmpb	$117, 1(%r14)
	jne	325f
	cmpb	$101, 2(%r14)
	jne	325f
	cmpb	$117, 3(%r14)
	jne	325f
	cmpb	$101, 4(%r14)
	jne	325f
	movq	%rdi, %r14
	xorps	%xmm0, %xmm0
	movaps	%xmm0, 128(%rsp)
	movaps	%xmm0, 112(%rsp)
	movaps	%xmm0, 96(%rsp)
	movq	$0, 144(%rsp)
	leaq	96(%rsp), %rdi
	movq	%rbx, %rdx
	callq	tc_text.word.three_arguments
	cmpb	$0, 96(%rsp)
	je	12f
	movzbl	97(%rsp), %eax
	xorps	%xmm0, %xmm0
	movaps	%xmm0, 16(%rsp)
	movq	$0, 32(%rsp)
	movb	$1, %cl
890:
	xorl	%esi, %esi
	xorl	%r8d, %r8d
	xorl	%edx, %edx
	xorl	%edi, %edi
928:
	movq	%r14, %r9
	jmp	394f
909:
	cmpl	$99, %ecx
	je	212f
	cmpl	$117, %ecx
	je	203f
	cmpl	$116, %ecx
	jne	325f
	cmpb	$97, 1(%r14)
	jne	325f
	cmpb	$107, 2(%r14)
	jne	325f
	cmpb	$101, 3(%r14)
	jne	325f
	movq	%rsp, %rax
	movq	%rdi, %r14
	movq	%rax, %rdi
	movq	%rbx, %rdx
	callq	tc_text.line.take
	jmp	284f
693:
	cmpl	$114, %ecx
	je	198f
	cmpl	$99, %ecx
	jne	325f
	cmpb	$104, 1(%r14)
	jne	325f
	cmpb	$97, 2(%r14)
	jne	325f
	cmpb	$110, 3(%r14)
	jne	325f
	cmpb	$110, 4(%r14)
	jne	325f
	cmpb	$101, 5(%r14)
	jne	325f
	cmpb	$108, 6(%r14)
	jne	325f
	xorps	%xmm0, %xmm0
	movaps	%xmm0, 96(%rsp)
	movaps	%xmm0, 112(%rsp)
	testq	%rbx, %rbx
	je	289f
	movq	%r13, %rcx
	movq	%r13, %rdx
	subq	%rax, %rdx
	subq	%rbp, %rdx
	xorl	%r14d, %r14d
548:
	movzbl	(%rsi,%r14), %r8d
	cmpq	$32, %r8
	ja	980f
	btq	%r8, %r15
	jae	980f
	incq	%r14
	cmpq	%r14, %rdx
	jne	548b
	movq	%rbx, %r14
	jmp	980f
868:
	cmpb	$114, 1(%r14)
	jne	325f
	cmpb	$97, 2(%r14)
	jne	325f
	cmpb	$109, 3(%r14)
	jne	325f
	cmpb	$101, 4(%r14)
	jne	325f
	movq	%rsp, %rax
	movq	%rdi, %r14
	movq	%rax, %rdi
	movq	%rbx, %rdx
	callq	tc_text.line.frame
	jmp	284f
198:
	cmpb	$101, 1(%r14)
	jne	325f
	cmpb	$108, 2(%r14)
	jne	325f
	cmpb	$101, 3(%r14)
	jne	325f
	cmpb	$97, 4(%r14)
	jne	325f
	cmpb	$115, 5(%r14)
	jne	325f
	cmpb	$101, 6(%r14)
	jne	325f
	movq	%rsp, %rax
	movq	%rdi, %r14
	movq	%rax, %rdi
	movq	%rbx, %rdx
	callq	tc_text.line.release
	jmp	284f
203:
	cmpb	$110, 1(%r14)
	jne	325f
	cmpb	$105, 2(%r14)
	jne	325f
	cmpb	$116, 3(%r14)
	jne	325f
	movq	%rsp, %rax
	movq	%rdi, %r14
	movq	%rax, %rdi
	movq	%rbx, %rdx
	callq	tc_text.line.unit
	jmp	284f
212:
	cmpb	$108, 1(%r14)
	jne	325f
	cmpb	$99, 2(%r14)
	jne	325f
	cmpb	$119, 3(%r14)
	jne	325f
	movq	%rsp, %rax
	movq	%rdi, %r14
	movq	%rax, %rdi
	movq	%rbx, %rdx
	callq	tc_text.line.clcw
284:
	movzbl	(%rsp), %eax
	movb	%al, (%r14)
	movzbl	1(%rsp), %eax
	movb	%al, 1(%r14)
	movzbl	8(%rsp), %eax
	movb	%al, 8(%r14)
	movzbl	9(%rsp), %eax
	movb	%al, 9(%r14)
	movl	10(%rsp), %eax
	movl	%eax, 10(%r14)
	movaps	16(%rsp), %xmm0
	movups	%xmm0, 16(%r14)
	movq	32(%rsp), %rax
	movq	%rax, 32(%r14)
	jmp	850f
325:
	movw	$1, (%rdi)
327:
	movl	$0, 8(%rdi)
	movw	$0, 12(%rdi)
	xorps	%xmm0, %xmm0
	movups	%xmm0, 16(%rdi)
	movq	$0, 32(%rdi)
850:
	addq	$216, %rsp
	popq	%rbx
	popq	%r12
	popq	%r13
	popq	%r14
	popq	%r15
	popq	%rbp
	retq
859:
	movq	112(%rsp), %r10
	leaq	-6(%r10), %rax
	cmpq	$-5, %rax
	movq	%r14, %rsi
	jb	578f
	movq	120(%rsp), %rdi
	movq	128(%rsp), %r8
	movq	136(%rsp), %rax
	movq	144(%rsp), %rcx
	testq	%r10, %r10
	je	83f
	movq	104(%rsp), %r9
	movzbl	(%r9), %edx
	addb	$-48, %dl
	cmpb	$9, %dl
	ja	578f
	cmpq	$1, %r10
	jne	548f
327:
	movl	%r10d, %r11d
	andl	$3, %r11d
	cmpq	$4, %r10
	jae	523f
	xorl	%edx, %edx
	xorl	%ebx, %ebx
	jmp	880f
83:
	xorl	%edx, %edx
	jmp	669f
12:
	movq	112(%rsp), %r10
	leaq	-6(%r10), %rax
	cmpq	$-5, %rax
	movq	%r14, %r9
	jb	344f
	movq	120(%rsp), %rsi
	movq	128(%rsp), %rdi
	movq	136(%rsp), %rax
	movq	144(%rsp), %rcx
	testq	%r10, %r10
	je	57f
	movq	104(%rsp), %r8
	movzbl	(%r8), %edx
	addb	$-48, %dl
	cmpb	$9, %dl
	ja	344f
	cmpq	$1, %r10
	jne	166f
186:
	movl	%r10d, %r9d
	andl	$3, %r9d
	cmpq	$4, %r10
	jae	610f
	xorl	%edx, %edx
	xorl	%r11d, %r11d
	jmp	793f
548:
	movzbl	1(%r9), %edx
	addb	$-48, %dl
	cmpb	$9, %dl
	ja	578f
	cmpq	$2, %r10
	je	327b
	movzbl	2(%r9), %edx
	addb	$-48, %dl
	cmpb	$9, %dl
	ja	578f
	cmpq	$3, %r10
	je	327b
	movzbl	3(%r9), %edx
	addb	$-48, %dl
	cmpb	$9, %dl
	ja	578f
	cmpq	$4, %r10
	je	327b
	movzbl	4(%r9), %edx
	addb	$-48, %dl
	cmpb	$10, %dl
	setb	%dl
	cmpq	$5, %r10
	sete	%r11b
	testb	%r11b, %dl
	jne	327b
	jmp	578f
523:
	andl	$4, %r10d
	xorl	%edx, %edx
	xorl	%ebx, %ebx
373:
	leal	(%rdx,%rdx,4), %edx
	movzbl	(%r9,%rbx), %ebp
	movzbl	1(%r9,%rbx), %r15d
	addb	$-48, %bpl
	movzbl	%bpl, %r12d
	leal	(%r12,%rdx,2), %edx
	leal	(%rdx,%rdx,4), %edx
	addb	$-48, %r15b
	movzbl	%r15b, %r15d
	leal	(%r15,%rdx,2), %edx
	leal	(%rdx,%rdx,4), %edx
	movzbl	2(%r9,%rbx), %ebp
	addb	$-48, %bpl
	movzbl	%bpl, %r15d
	leal	(%r15,%rdx,2), %edx
	leal	(%rdx,%rdx,4), %edx
	movzbl	3(%r9,%rbx), %ebp
	addb	$-48, %bpl
	movzbl	%bpl, %r15d
	leal	(%r15,%rdx,2), %edx
	addq	$4, %rbx
	cmpq	%rbx, %r10
	jne	373b
	testq	%r11, %r11
	je	717f
880:
	addq	%rbx, %r9
	xorl	%r10d, %r10d
373:
	leal	(%rdx,%rdx,4), %edx
	movzbl	(%r9,%r10), %ebx
	addb	$-48, %bl
	movzbl	%bl, %ebx
	leal	(%rbx,%rdx,2), %edx
	incq	%r10
	cmpq	%r10, %r11
	jne	373b
717:
	cmpl	$256, %edx
	jae	578f
669:
	leaq	-6(%r8), %r9
	cmpq	$-5, %r9
	jb	578f
	testq	%r8, %r8
	je	83f
	movzbl	(%rdi), %r9d
	addb	$-48, %r9b
	cmpb	$9, %r9b
	ja	578f
	cmpq	$1, %r8
	jne	284f
327:
	movl	%r8d, %esi
	andl	$3, %esi
	cmpq	$4, %r8
	jae	523f
	xorl	%r9d, %r9d
	xorl	%r10d, %r10d
	jmp	880f
83:
	xorl	%r9d, %r9d
	jmp	219f
289:
	xorl	%r14d, %r14d
	movq	%r13, %rcx
980:
	subq	%r14, %rbx
	je	231f
	movq	%rdi, 48(%rsp)
	addq	%r14, %rsi
	cmpq	$63, %rbx
	movq	%rax, 64(%rsp)
	ja	859f
	movq	%rcx, %rdx
	subq	%rax, %rdx
	subq	%r14, %rdx
	subq	%rbp, %rdx
	xorl	%r8d, %r8d
	jmp	548f
629:
	incq	%r8
	cmpq	%r8, %rdx
	je	12f
548:
	movzbl	(%rsi,%r8), %edi
	cmpq	$32, %rdi
	ja	629b
	btq	%rdi, %r15
	jae	629b
	jmp	669f
231:
	xorps	%xmm0, %xmm0
	movaps	%xmm0, 16(%rsp)
	movq	$0, 32(%rsp)
	movb	$1, %dl
	xorl	%eax, %eax
	xorl	%ecx, %ecx
	xorl	%ebx, %ebx
	xorl	%r8d, %r8d
	movb	$1, %sil
	jmp	409f
859:
	movq	%rsi, %rdi
	movq	%rsi, %r12
	movq	%rbx, %rsi
	callq	tc_lines.word.long_word_length
	movq	%r13, %rcx
	movq	%r12, %rsi
	movq	%rax, %r8
	movq	64(%rsp), %rax
669:
	leaq	(%rsi,%r8), %r12
	subq	%r8, %rbx
	je	289f
859:
	movq	%rcx, %rdx
	subq	%r8, %rdx
	subq	%rax, %rdx
	subq	%r14, %rdx
	subq	%rbp, %rdx
	xorl	%r9d, %r9d
548:
	movzbl	(%r12,%r9), %edi
	cmpq	$32, %rdi
	ja	980f
	btq	%rdi, %r15
	jae	980f
	incq	%r9
	cmpq	%r9, %rdx
	jne	548b
	movq	%rbx, %r9
	jmp	980f
57:
	xorl	%edx, %edx
	jmp	669f
284:
	movzbl	1(%rdi), %r9d
	addb	$-48, %r9b
	cmpb	$9, %r9b
	ja	578f
	cmpq	$2, %r8
	je	327b
	movzbl	2(%rdi), %r9d
	addb	$-48, %r9b
	cmpb	$9, %r9b
	ja	578f
	cmpq	$3, %r8
	je	327b
	movzbl	3(%rdi), %r9d
	addb	$-48, %r9b
	cmpb	$9, %r9b
	ja	578f
	cmpq	$4, %r8
	je	327b
	movzbl	4(%rdi), %r9d
	addb	$-48, %r9b
	cmpb	$10, %r9b
	setb	%r9b
	cmpq	$5, %r8
	sete	%r10b
	testb	%r10b, %r9b
	jne	327b
	jmp	578f
166:
	movzbl	1(%r8), %edx
	addb	$-48, %dl
	cmpb	$9, %dl
	ja	344f
	cmpq	$2, %r10
	je	186b
	movzbl	2(%r8), %edx
	addb	$-48, %dl
	cmpb	$9, %dl
	ja	344f
	cmpq	$3, %r10
	je	186b
	movzbl	3(%r8), %edx
	addb	$-48, %dl
	cmpb	$9, %dl
	ja	344f
	cmpq	$4, %r10
	je	186b
	movzbl	4(%r8), %edx
	addb	$-48, %dl
	cmpb	$10, %dl
	setb	%dl
	cmpq	$5, %r10
	sete	%r11b
	testb	%r11b, %dl
	jne	186b
	jmp	344f
523:
	andl	$4, %r8d
	xorl	%r9d, %r9d
	xorl	%r10d, %r10d
373:
	leal	(%r9,%r9,4), %r9d
	movzbl	(%rdi,%r10), %r11d
	movzbl	1(%rdi,%r10), %ebx
	addb	$-48, %r11b
	movzbl	%r11b, %r11d
	leal	(%r11,%r9,2), %r9d
	leal	(%r9,%r9,4), %r9d
	addb	$-48, %bl
	movzbl	%bl, %r11d
	leal	(%r11,%r9,2), %r9d
	leal	(%r9,%r9,4), %r9d
	movzbl	2(%rdi,%r10), %r11d
	addb	$-48, %r11b
	movzbl	%r11b, %r11d
	leal	(%r11,%r9,2), %r9d
	leal	(%r9,%r9,4), %r9d
	movzbl	3(%rdi,%r10), %r11d
	addb	$-48, %r11b
	movzbl	%r11b, %r11d
	leal	(%r11,%r9,2), %r9d
	addq	$4, %r10
	cmpq	%r10, %r8
	jne	373b
	testq	%rsi, %rsi
	je	717f
880:
	addq	%r10, %rdi
	xorl	%r8d, %r8d
373:
	leal	(%r9,%r9,4), %r9d
	movzbl	(%rdi,%r8), %r10d
	addb	$-48, %r10b
	movzbl	%r10b, %r10d
	leal	(%r10,%r9,2), %r9d
	incq	%r8
	cmpq	%r8, %rsi
	jne	373b
717:
	cmpl	$256, %r9d
	movq	%r14, %rsi
	jae	578f
219:
	leaq	-6(%rcx), %rdi
	cmpq	$-5, %rdi
	jb	578f
	testq	%rcx, %rcx
	je	83f
	movzbl	(%rax), %edi
	addb	$-48, %dil
	cmpb	$9, %dil
	ja	578f
	cmpq	$1, %rcx
	jne	284f
327:
	movl	%ecx, %esi
	andl	$3, %esi
	cmpq	$4, %rcx
	jae	523f
	xorl	%edi, %edi
	xorl	%r8d, %r8d
	jmp	880f
83:
	xorl	%edi, %edi
	jmp	22f
610:
	andl	$4, %r10d
	xorl	%edx, %edx
	xorl	%r11d, %r11d
373:
	leal	(%rdx,%rdx,4), %edx
	movzbl	(%r8,%r11), %ebx
	movzbl	1(%r8,%r11), %ebp
	addb	$-48, %bl
	movzbl	%bl, %ebx
	leal	(%rbx,%rdx,2), %edx
	leal	(%rdx,%rdx,4), %edx
	addb	$-48, %bpl
	movzbl	%bpl, %ebx
	leal	(%rbx,%rdx,2), %edx
	leal	(%rdx,%rdx,4), %edx
	movzbl	2(%r8,%r11), %ebx
	addb	$-48, %bl
	movzbl	%bl, %ebx
	leal	(%rbx,%rdx,2), %edx
	leal	(%rdx,%rdx,4), %edx
	movzbl	3(%r8,%r11), %ebx
	addb	$-48, %bl
	movzbl	%bl, %ebx
	leal	(%rbx,%rdx,2), %edx
	addq	$4, %r11
	cmpq	%r11, %r10
	jne	373b
	testq	%r9, %r9
	je	717f
793:
	addq	%r11, %r8
	xorl	%r10d, %r10d
373:
	leal	(%rdx,%rdx,4), %edx
	movzbl	(%r8,%r10), %r11d
	addb	$-48, %r11b
	movzbl	%r11b, %r11d
	leal	(%r11,%rdx,2), %edx
	incq	%r10
	cmpq	%r10, %r9
	jne	373b
717:
	cmpl	$256, %edx
	movq	%r14, %r9
	jae	344f
669:
	leaq	-6(%rdi), %r8
	cmpq	$-5, %r8
	jb	344f
	testq	%rdi, %rdi
	je	57f
	movzbl	(%rsi), %r8d
	addb	$-48, %r8b
	cmpb	$9, %r8b
	movq	%r14, %r9
	ja	344f
	cmpq	$1, %rdi
	jne	166f
186:
	movl	%edi, %r9d
	andl	$3, %r9d
	cmpq	$4, %rdi
	jae	610f
	xorl	%r8d, %r8d
	xorl	%r10d, %r10d
	jmp	793f
12:
	movq	%rbx, %r8
	leaq	(%rsi,%r8), %r12
	subq	%r8, %rbx
	jne	859b
289:
	xorl	%r9d, %r9d
980:
	subq	%r9, %rbx
	je	231f
	movq	%rsi, 176(%rsp)
	addq	%r9, %r12
	cmpq	$63, %rbx
	movq	%r8, 56(%rsp)
	movq	%r9, 88(%rsp)
	ja	859f
	subq	%r8, %rcx
	subq	%rax, %rcx
	subq	%r14, %rcx
	subq	%r9, %rcx
	subq	%rbp, %rcx
	xorl	%eax, %eax
	jmp	548f
629:
	incq	%rax
	cmpq	%rax, %rcx
	je	961f
548:
	movzbl	(%r12,%rax), %edx
	cmpq	$32, %rdx
	ja	629b
	btq	%rdx, %r15
	jae	629b
	jmp	669f
859:
	movq	%r12, %rdi
	movq	%rbx, %rsi
	callq	tc_lines.word.long_word_length
669:
	leaq	(%r12,%rax), %rdi
	subq	%rax, %rbx
	movq	%r12, 168(%rsp)
	movq	%rax, 80(%rsp)
	je	83f
	movq	%r13, %rdx
	subq	%rax, %rdx
	subq	64(%rsp), %rdx
	subq	56(%rsp), %rdx
	subq	%rbp, %rdx
	subq	%r14, %rdx
	subq	88(%rsp), %rdx
	xorl	%r12d, %r12d
548:
	movzbl	(%rdi,%r12), %ecx
	cmpq	$32, %rcx
	ja	980f
	btq	%rcx, %r15
	jae	980f
	incq	%r12
	cmpq	%r12, %rdx
	jne	548b
	movq	%rbx, %r12
	jmp	980f
83:
	xorl	%r12d, %r12d
980:
	subq	%r12, %rbx
	je	231f
	addq	%r12, %rdi
	cmpq	$63, %rbx
	movq	%rdi, 160(%rsp)
	ja	859f
	movq	%r13, %rax
	subq	80(%rsp), %rax
	subq	64(%rsp), %rax
	subq	56(%rsp), %rax
	subq	%rbp, %rax
	subq	%r14, %rax
	subq	88(%rsp), %rax
	subq	%r12, %rax
	xorl	%edx, %edx
	jmp	548f
629:
	incq	%rdx
	cmpq	%rdx, %rax
	je	678f
548:
	movzbl	(%rdi,%rdx), %ecx
	cmpq	$32, %rcx
	ja	629b
	btq	%rcx, %r15
	jae	629b
	jmp	12f
859:
	movq	%rbx, %rsi
	callq	tc_lines.word.long_word_length
	movq	%rax, %rdx
12:
	movq	160(%rsp), %rax
	leaq	(%rax,%rdx), %rsi
	subq	%rdx, %rbx
	movq	%rdx, 152(%rsp)
	movq	%rsi, 72(%rsp)
	je	83f
	movq	%r13, %rcx
	subq	80(%rsp), %rcx
	subq	%rdx, %rcx
	subq	64(%rsp), %rcx
	subq	56(%rsp), %rcx
	subq	%rbp, %rcx
	subq	%r14, %rcx
	subq	88(%rsp), %rcx
	subq	%r12, %rcx
	xorl	%eax, %eax
548:
	movzbl	(%rsi,%rax), %edx
	cmpq	$32, %rdx
	ja	980f
	btq	%rdx, %r15
	jae	980f
	incq	%rax
	cmpq	%rax, %rcx
	jne	548b
	movq	%rbx, %rax
	jmp	980f
83:
	xorl	%eax, %eax
980:
	subq	%rax, %rbx
	je	231f
	addq	%rax, 72(%rsp)
	cmpq	$63, %rbx
	ja	859f
	movq	80(%rsp), %rdx
	subq	%rdx, %r13
	movq	152(%rsp), %r8
	subq	%r8, %r13
	movq	64(%rsp), %rcx
	subq	%rcx, %r13
	movq	56(%rsp), %rsi
	subq	%rsi, %r13
	subq	%rbp, %r13
	subq	%r14, %r13
	movq	88(%rsp), %rdi
	subq	%rdi, %r13
	subq	%r12, %r13
	subq	%rax, %r13
	addq	%r8, %rdx
	addq	%rsi, %rcx
	addq	%rdx, %rcx
	addq	%r12, %rax
	addq	%rdi, %rax
	addq	%rcx, %rax
	addq	%rbp, %r14
	movq	184(%rsp), %r12
	addq	%r14, %r12
	addq	%rax, %r12
	xorl	%ebp, %ebp
	jmp	548f
629:
	incq	%rbp
	cmpq	%rbp, %r13
	je	12f
548:
	movzbl	(%r12,%rbp), %eax
	cmpq	$32, %rax
	ja	629b
	btq	%rax, %r15
	jae	629b
	jmp	638f
231:
	xorps	%xmm0, %xmm0
	movaps	%xmm0, 16(%rsp)
	movq	$0, 32(%rsp)
	movb	$1, %dl
	xorl	%eax, %eax
	xorl	%ecx, %ecx
	xorl	%ebx, %ebx
	xorl	%r8d, %r8d
	movb	$1, %sil
	jmp	648f
859:
	movq	72(%rsp), %rdi
	movq	%rbx, %rsi
	callq	tc_lines.word.long_word_length
	movq	%rax, %rbp
638:
	movq	72(%rsp), %rax
	leaq	(%rax,%rbp), %rsi
	subq	%rbp, %rbx
	leaq	96(%rsp), %rdi
	movq	%rbx, %rdx
	callq	tc_text.word.last_argument
	cmpb	$0, 96(%rsp)
	je	548f
	movzbl	97(%rsp), %edx
231:
	xorps	%xmm0, %xmm0
	movaps	%xmm0, 16(%rsp)
	movq	$0, 32(%rsp)
	movb	$1, %sil
	jmp	83f
57:
	xorl	%r8d, %r8d
	jmp	669f
548:
	movzbl	104(%rsp), %r12d
	movq	176(%rsp), %rdi
	movq	56(%rsp), %rsi
	callq	tc_lines.number.small_number
	testb	%al, %al
	jne	833f
	movl	%edx, %ebx
	movq	168(%rsp), %rdi
	movq	80(%rsp), %rsi
	callq	tc_lines.number.small_number
	testb	%al, %al
	jne	833f
	movl	%edx, %r14d
	movq	160(%rsp), %rdi
	movq	152(%rsp), %rsi
	callq	tc_lines.number.small_number
	testb	%al, %al
	jne	833f
	movl	%edx, %r15d
	movq	72(%rsp), %rdi
	movq	%rbp, %rsi
	callq	tc_lines.number.small_number
	testb	%al, %al
	je	186f
833:
	xorps	%xmm0, %xmm0
	movaps	%xmm0, 16(%rsp)
	movq	$0, 32(%rsp)
	movb	$1, %sil
	movb	$2, %dl
83:
	xorl	%eax, %eax
	xorl	%ecx, %ecx
	xorl	%ebx, %ebx
	xorl	%r8d, %r8d
648:
	movq	48(%rsp), %rdi
409:
	movb	%sil, (%rdi)
	movb	%dl, 1(%rdi)
	movb	%r8b, 8(%rdi)
	movb	%bl, 9(%rdi)
	movw	%cx, 10(%rdi)
	movw	%ax, 12(%rdi)
	movaps	16(%rsp), %xmm0
	movups	%xmm0, 16(%rdi)
	movq	32(%rsp), %rax
	movq	%rax, 32(%rdi)
	jmp	850b
961:
	movq	%rbx, %rax
	jmp	669b
284:
	movzbl	1(%rax), %edi
	addb	$-48, %dil
	cmpb	$9, %dil
	ja	578f
	cmpq	$2, %rcx
	je	327b
	movzbl	2(%rax), %edi
	addb	$-48, %dil
	cmpb	$9, %dil
	ja	578f
	cmpq	$3, %rcx
	je	327b
	movzbl	3(%rax), %edi
	addb	$-48, %dil
	cmpb	$9, %dil
	ja	578f
	cmpq	$4, %rcx
	je	327b
	movzbl	4(%rax), %edi
	addb	$-48, %dil
	cmpb	$10, %dil
	setb	%dil
	cmpq	$5, %rcx
	sete	%r8b
	testb	%r8b, %dil
	jne	327b
	jmp	578f
678:
	movq	%rbx, %rdx
	jmp	12b
166:
	movzbl	1(%rsi), %r8d
	addb	$-48, %r8b
	cmpb	$9, %r8b
	ja	344f
	cmpq	$2, %rdi
	je	186b
	movzbl	2(%rsi), %r8d
	addb	$-48, %r8b
	cmpb	$9, %r8b
	ja	344f
	cmpq	$3, %rdi
	je	186b
	movzbl	3(%rsi), %r8d
	addb	$-48, %r8b
	cmpb	$9, %r8b
	ja	344f
	cmpq	$4, %rdi
	je	186b
	movzbl	4(%rsi), %r8d
	addb	$-48, %r8b
	cmpb	$10, %r8b
	setb	%r8b
	cmpq	$5, %rdi
	sete	%r10b
	testb	%r10b, %r8b
	jne	186b
	jmp	344f
523:
	andl	$4, %ecx
	xorl	%edi, %edi
	xorl	%r8d, %r8d
373:
	leal	(%rdi,%rdi,4), %edi
	movzbl	(%rax,%r8), %r10d
	movzbl	1(%rax,%r8), %r11d
	addb	$-48, %r10b
	movzbl	%r10b, %r10d
	leal	(%r10,%rdi,2), %edi
	leal	(%rdi,%rdi,4), %edi
	addb	$-48, %r11b
	movzbl	%r11b, %r10d
	leal	(%r10,%rdi,2), %edi
	leal	(%rdi,%rdi,4), %edi
	movzbl	2(%rax,%r8), %r10d
	addb	$-48, %r10b
	movzbl	%r10b, %r10d
	leal	(%r10,%rdi,2), %edi
	leal	(%rdi,%rdi,4), %edi
	movzbl	3(%rax,%r8), %r10d
	addb	$-48, %r10b
	movzbl	%r10b, %r10d
	leal	(%r10,%rdi,2), %edi
	addq	$4, %r8
	cmpq	%r8, %rcx
	jne	373b
	testq	%rsi, %rsi
	je	717f
880:
	addq	%r8, %rax
	xorl	%ecx, %ecx
373:
	leal	(%rdi,%rdi,4), %edi
	movzbl	(%rax,%rcx), %r8d
	addb	$-48, %r8b
	movzbl	%r8b, %r8d
	leal	(%r8,%rdi,2), %edi
	incq	%rcx
	cmpq	%rcx, %rsi
	jne	373b
717:
	cmpl	$65536, %edi
	movq	%r14, %rsi
	jae	578f
22:
	xorps	%xmm0, %xmm0
	movaps	%xmm0, 16(%rsp)
	movq	$0, 32(%rsp)
	movb	$3, %r8b
	xorl	%eax, %eax
	xorl	%ecx, %ecx
	jmp	969f
578:
	xorps	%xmm0, %xmm0
	movaps	%xmm0, 16(%rsp)
	movq	$0, 32(%rsp)
	movb	$1, %cl
	movb	$2, %al
	xorl	%edi, %edi
	xorl	%r9d, %r9d
	xorl	%edx, %edx
	xorl	%r8d, %r8d
969:
	movb	%cl, (%rsi)
	movb	%al, 1(%rsi)
	movb	%r8b, 8(%rsi)
	movb	%dl, 9(%rsi)
	movw	%r9w, 10(%rsi)
	movw	%di, 12(%rsi)
	movaps	16(%rsp), %xmm0
	movups	%xmm0, 16(%rsi)
	movq	32(%rsp), %rax
	movq	%rax, 32(%rsi)
	jmp	850b
610:
	andl	$4, %edi
	xorl	%r8d, %r8d
	xorl	%r10d, %r10d
373:
	leal	(%r8,%r8,4), %r8d
	movzbl	(%rsi,%r10), %r11d
	movzbl	1(%rsi,%r10), %ebx
	addb	$-48, %r11b
	movzbl	%r11b, %r11d
	leal	(%r11,%r8,2), %r8d
	leal	(%r8,%r8,4), %r8d
	addb	$-48, %bl
	movzbl	%bl, %r11d
	leal	(%r11,%r8,2), %r8d
	leal	(%r8,%r8,4), %r8d
	movzbl	2(%rsi,%r10), %r11d
	addb	$-48, %r11b
	movzbl	%r11b, %r11d
	leal	(%r11,%r8,2), %r8d
	leal	(%r8,%r8,4), %r8d
	movzbl	3(%rsi,%r10), %r11d
	addb	$-48, %r11b
	movzbl	%r11b, %r11d
	leal	(%r11,%r8,2), %r8d
	addq	$4, %r10
	cmpq	%r10, %rdi
	jne	373b
	testq	%r9, %r9
	je	717f
793:
	addq	%r10, %rsi
	xorl	%edi, %edi
373:
	leal	(%r8,%r8,4), %r8d
	movzbl	(%rsi,%rdi), %r10d
	addb	$-48, %r10b
	movzbl	%r10b, %r10d
	leal	(%r10,%r8,2), %r8d
	incq	%rdi
	cmpq	%rdi, %r9
	jne	373b
717:
	cmpl	$65536, %r8d
	movq	%r14, %r9
	jae	344f
669:
	leaq	-6(%rcx), %rsi
	cmpq	$-5, %rsi
	jb	22f
	testq	%rcx, %rcx
	je	83f
	movzbl	(%rax), %esi
	addb	$-48, %sil
	cmpb	$9, %sil
	ja	22f
	cmpq	$1, %rcx
	jne	548f
327:
	movl	%ecx, %edi
	andl	$3, %edi
	cmpq	$4, %rcx
	jae	523f
	xorl	%esi, %esi
	xorl	%r9d, %r9d
	jmp	850f
344:
	xorps	%xmm0, %xmm0
	movaps	%xmm0, 16(%rsp)
	movq	$0, 32(%rsp)
	movb	$1, %cl
	movb	$2, %al
	xorl	%esi, %esi
	xorl	%r8d, %r8d
	xorl	%edx, %edx
	xorl	%edi, %edi
394:
	movb	%cl, (%r9)
	movb	%al, 1(%r9)
	movb	%dil, 8(%r9)
	movb	%dl, 9(%r9)
	movw	%r8w, 10(%r9)
	movw	%si, 12(%r9)
	movaps	16(%rsp), %xmm0
	movups	%xmm0, 16(%r9)
	movq	32(%rsp), %rax
	movq	%rax, 32(%r9)
	jmp	850b
12:
	movq	%rbx, %rbp
	jmp	638b
83:
	xorl	%esi, %esi
	jmp	833f
548:
	movzbl	1(%rax), %esi
	addb	$-48, %sil
	cmpb	$9, %sil
	ja	22f
	cmpq	$2, %rcx
	je	327b
	movzbl	2(%rax), %esi
	addb	$-48, %sil
	cmpb	$9, %sil
	ja	22f
	cmpq	$3, %rcx
	je	327b
	movzbl	3(%rax), %esi
	addb	$-48, %sil
	cmpb	$9, %sil
	ja	22f
	cmpq	$4, %rcx
	je	327b
	movzbl	4(%rax), %esi
	addb	$-48, %sil
	cmpb	$10, %sil
	setb	%sil
	cmpq	$5, %rcx
	sete	%dil
	testb	%dil, %sil
	jne	327b
	jmp	22f
523:
	andl	$4, %ecx
	xorl	%esi, %esi
	xorl	%r9d, %r9d
373:
	leal	(%rsi,%rsi,4), %esi
	movzbl	(%rax,%r9), %r10d
	movzbl	1(%rax,%r9), %r11d
	addb	$-48, %r10b
	movzbl	%r10b, %r10d
	leal	(%r10,%rsi,2), %esi
	leal	(%rsi,%rsi,4), %esi
	addb	$-48, %r11b
	movzbl	%r11b, %r10d
	leal	(%r10,%rsi,2), %esi
	leal	(%rsi,%rsi,4), %esi
	movzbl	2(%rax,%r9), %r10d
	addb	$-48, %r10b
	movzbl	%r10b, %r10d
	leal	(%r10,%rsi,2), %esi
	leal	(%rsi,%rsi,4), %esi
	movzbl	3(%rax,%r9), %r10d
	addb	$-48, %r10b
	movzbl	%r10b, %r10d
	leal	(%r10,%rsi,2), %esi
	addq	$4, %r9
	cmpq	%r9, %rcx
	jne	373b
	testq	%rdi, %rdi
	je	717f
850:
	addq	%r9, %rax
	xorl	%ecx, %ecx
373:
	leal	(%rsi,%rsi,4), %esi
	movzbl	(%rax,%rcx), %r9d
	addb	$-48, %r9b
	movzbl	%r9b, %r9d
	leal	(%r9,%rsi,2), %esi
	incq	%rcx
	cmpq	%rcx, %rdi
	jne	373b
717:
	cmpl	$65536, %esi
	jae	22f
833:
	xorps	%xmm0, %xmm0
	movaps	%xmm0, 16(%rsp)
	movq	$0, 32(%rsp)
	movb	$2, %dil
	xorl	%eax, %eax
	xorl	%ecx, %ecx
	jmp	928b
22:
	xorps	%xmm0, %xmm0
	movaps	%xmm0, 16(%rsp)
	movq	$0, 32(%rsp)
	movb	$1, %cl
	movb	$2, %al
	jmp	890b
186:
	movl	%edx, %ebp
	leaq	112(%rsp), %rax
	movq	%r12, 192(%rsp)
	movups	(%rax), %xmm0
	movups	%xmm0, 200(%rsp)
	leaq	192(%rsp), %rdi
	callq	tc_text.line.is_segmented
	testb	%al, %al
	jne	231b
	andb	$1, %dl
	movzbl	%r15b, %eax
	shll	$8, %eax
	movzbl	%r14b, %ecx
	orl	%eax, %ecx
	movzbl	%dl, %edx
	shll	$8, %edx
	movzbl	%bpl, %eax
	orl	%edx, %eax
	xorps	%xmm0, %xmm0
	movaps	%xmm0, 16(%rsp)
	movq	$0, 32(%rsp)
	movb	$1, %r8b
	xorl	%edx, %edx
	xorl	%esi, %esi
	jmp	648b
	.section	.rodata.tc_text.line.parse_line,"a",@progbits
	.p2align	2
.LJ21dbde50_0:
	.long	871b-.LJ21dbde50_0
	.long	909b-.LJ21dbde50_0
	.long	975b-.LJ21dbde50_0
	.long	325b-.LJ21dbde50_0
	.long	693b-.LJ21dbde50_0
	.section	.text.tc_text.word.last_argument,"ax",@progbits
	.p2align	4
tc_text.word.last_argument:
	pushq	%rbp
	pushq	%r15
	pushq	%r14
	pushq	%r13
	pushq	%r12
	pushq	%rbx
	pushq	%rax
	movq	%rsi, %rbx
	movabsq	$4294976000, %r12
	xorl	%r14d, %r14d
	testq	%rdx, %rdx
	je	928f
	.p2align	4
548:
	movzbl	(%rbx,%r14), %eax
	cmpq	$32, %rax
	ja	928f
	btq	%rax, %r12
	jae	928f
	incq	%r14
	cmpq	%r14, %rdx
	jne	548b
	movq	%rdx, %r14
928:
	movq	%rdx, %r15
	subq	%r14, %r15
	je	890f
	addq	%r14, %rbx
	cmpq	$63, %r15
	ja	928f
	xorl	%eax, %eax
	jmp	548f
	.p2align	4
629:
	incq	%rax
	cmpq	%rax, %r15
	je	859f
548:
	movzbl	(%rbx,%rax), %ecx
	cmpq	$32, %rcx
	ja	629b
	btq	%rcx, %r12
	jae	629b
	jmp	327f
890:
	xorl	%esi, %esi
	xorl	%ebx, %ebx
	xorl	%eax, %eax
	jmp	325f
928:
	movq	%rdi, %r13
	movq	%rbx, %rdi
	movq	%r15, %rsi
	movq	%rdx, %rbp
	callq	tc_lines.word.long_word_length
	movq	%rbp, %rdx
	movq	%r13, %rdi
327:
	movl	$1, %esi
	cmpq	%rax, %r15
	je	325f
980:
	subq	%rdx, %r14
	movq	%rbx, %rcx
	.p2align	4
548:
	movzbl	(%rcx,%rax), %edx
	cmpq	$32, %rdx
	ja	880f
	btq	%rdx, %r12
	jae	880f
	incq	%r14
	incq	%rcx
	movq	%rax, %rdx
	addq	%r14, %rdx
	jne	548b
325:
	movw	$0, (%rdi)
	movq	%rsi, 8(%rdi)
	movq	%rbx, 16(%rdi)
	movq	%rax, 24(%rdi)
850:
	addq	$8, %rsp
	popq	%rbx
	popq	%r12
	popq	%r13
	popq	%r14
	popq	%r15
	popq	%rbp
	retq
880:
	addq	%rax, %r14
	je	325b
	negq	%r14
	cmpq	$64, %r14
	jb	519f
	addq	%rax, %rcx
	movq	%rdi, %rbx
	movq	%rcx, %rdi
	movq	%r14, %rsi
	callq	tc_lines.word.long_word_length
	movq	%rbx, %rdi
519:
	movw	$257, (%rdi)
	xorps	%xmm0, %xmm0
	movups	%xmm0, 8(%rdi)
	movq	$0, 24(%rdi)
	jmp	850b
859:
	movq	%r15, %rax
	movl	$1, %esi
	cmpq	%rax, %r15
	jne	980b
	jmp	325b
	.section	.text.tc_text.line.is_segmented,"ax",@progbits
	.p2align	4
tc_text.line.is_segmented:
	cmpb	$0, (%rdi)
	je	969f
	cmpq	$5, 16(%rdi)
	jne	409f
	movq	8(%rdi), %rdi
	cmpl	$1767992432, (%rdi)
	jne	409f
	pushq	%rax
	leaq	.LTb1732992(%rip), %rdx
	movl	$5, %esi
	callq	core.cmp.slices.groups_equal._i8_31_core.cmp.numbers.U8PartialEq
	testb	%al, %al
	leaq	8(%rsp), %rsp
	je	409f
	xorl	%eax, %eax
	xorl	%edx, %edx
	retq
409:
	movb	$15, %dl
	movb	$1, %al
	retq
969:
	movb	$1, %dl
	xorl	%eax, %eax
	retq
	.section	.text.tc_text.line.frame,"ax",@progbits
	.p2align	4
tc_text.line.frame:
	pushq	%rbp
	pushq	%r15
	pushq	%r14
	pushq	%r13
	pushq	%r12
	pushq	%rbx
	subq	$72, %rsp
	movq	%rdi, %rbx
	xorps	%xmm0, %xmm0
	movaps	%xmm0, 48(%rsp)
	movaps	%xmm0, 32(%rsp)
	movaps	%xmm0, (%rsp)
	movups	%xmm0, 10(%rsp)
	movabsq	$4294976000, %r15
	xorl	%r12d, %r12d
	testq	%rdx, %rdx
	je	928f
	.p2align	4
548:
	movzbl	(%rsi,%r12), %eax
	cmpq	$32, %rax
	ja	928f
	btq	%rax, %r15
	jae	928f
	incq	%r12
	cmpq	%r12, %rdx
	jne	548b
	movq	%rdx, %r12
928:
	movq	%rdx, %r14
	subq	%r12, %r14
	je	325f
	addq	%r12, %rsi
	cmpq	$63, %r14
	ja	928f
	xorl	%eax, %eax
	jmp	548f
	.p2align	4
629:
	incq	%rax
	cmpq	%rax, %r14
	je	859f
548:
	movzbl	(%rsi,%rax), %ecx
	cmpq	$32, %rcx
	ja	629b
	btq	%rcx, %r15
	jae	629b
	jmp	972f
928:
	movq	%rsi, %rdi
	movq	%rsi, %r13
	movq	%r14, %rsi
	movq	%rdx, %rbp
	callq	tc_lines.word.long_word_length
	movq	%r13, %rsi
	movq	%rbp, %rdx
972:
	cmpq	%rax, %r14
	je	219f
669:
	leaq	(%rsi,%rax), %rdi
	subq	%rax, %rdx
	subq	%r12, %rdx
	xorl	%ecx, %ecx
	.p2align	4
548:
	movzbl	(%rdi,%rcx), %r8d
	cmpq	$32, %r8
	ja	980f
	btq	%r8, %r15
	jae	980f
	incq	%rcx
	cmpq	%rcx, %rdx
	jne	548b
219:
	leaq	32(%rsp), %rdi
	movq	%rax, %rdx
	callq	hex.decode._2c03b3434bbe5675
	movzbl	32(%rsp), %eax
	testb	%al, %al
	je	949f
	cmpb	$3, 40(%rsp)
	movl	$14, %edx
	movl	$3, %ecx
	cmovel	%edx, %ecx
	xorl	%edx, %edx
	jmp	409f
949:
	leaq	40(%rsp), %rcx
	movq	16(%rcx), %rdx
	movq	%rdx, 18(%rsp)
	movups	(%rcx), %xmm0
	movups	%xmm0, 2(%rsp)
	movb	$4, %dl
	xorl	%ecx, %ecx
409:
	movb	%al, (%rbx)
	movb	%cl, 1(%rbx)
	movb	%dl, 8(%rbx)
	movb	$0, 9(%rbx)
	movl	$0, 10(%rbx)
	movups	2(%rsp), %xmm0
	movups	%xmm0, 16(%rbx)
	movq	18(%rsp), %rax
	movq	%rax, 32(%rbx)
	jmp	850f
980:
	subq	%rcx, %rdx
	je	219b
	cmpq	$64, %rdx
	jb	325f
	addq	%rcx, %rdi
	movq	%rdx, %rsi
	callq	tc_lines.word.long_word_length
325:
	movw	$257, (%rbx)
	movl	$0, 8(%rbx)
	movw	$0, 12(%rbx)
	xorps	%xmm0, %xmm0
	movups	%xmm0, 16(%rbx)
	movq	$0, 32(%rbx)
850:
	addq	$72, %rsp
	popq	%rbx
	popq	%r12
	popq	%r13
	popq	%r14
	popq	%r15
	popq	%rbp
	retq
859:
	movq	%r14, %rax
	cmpq	%rax, %r14
	jne	669b
	jmp	219b
	.section	.text.tc_text.line.release,"ax",@progbits
	.p2align	4
tc_text.line.release:
	pushq	%rbp
	pushq	%r15
	pushq	%r14
	pushq	%r13
	pushq	%r12
	pushq	%rbx
	pushq	%rax
	movabsq	$4294976000, %r12
	xorl	%r15d, %r15d
	testq	%rdx, %rdx
	je	928f
	.p2align	4
548:
	movzbl	(%rsi,%r15), %eax
	cmpq	$32, %rax
	ja	928f
	btq	%rax, %r12
	jae	928f
	incq	%r15
	cmpq	%r15, %rdx
	jne	548b
	movq	%rdx, %r15
928:
	movq	%rdx, %r14
	subq	%r15, %r14
	je	325f
	leaq	(%rsi,%r15), %r13
	cmpq	$63, %r14
	ja	928f
	xorl	%eax, %eax
	jmp	548f
	.p2align	4
629:
	incq	%rax
	cmpq	%rax, %r14
	je	859f
548:
	movzbl	(%r13,%rax), %ecx
	cmpq	$32, %rcx
	ja	629b
	btq	%rcx, %r12
	jae	629b
	jmp	972f
928:
	movq	%rdi, (%rsp)
	movq	%r13, %rdi
	movq	%rsi, %rbp
	movq	%r14, %rsi
	movq	%rdx, %rbx
	callq	tc_lines.word.long_word_length
	movq	%rbx, %rdx
	movq	%rbp, %rsi
	movq	(%rsp), %rdi
972:
	cmpq	%rax, %r14
	je	219f
669:
	leaq	(%rax,%r13), %rcx
	subq	%rax, %rdx
	subq	%r15, %rdx
	xorl	%r8d, %r8d
	.p2align	4
548:
	movzbl	(%rcx,%r8), %r9d
	cmpq	$32, %r9
	ja	980f
	btq	%r9, %r12
	jae	980f
	incq	%r8
	cmpq	%r8, %rdx
	jne	548b
219:
	leaq	-6(%rax), %rcx
	cmpq	$-5, %rcx
	jb	419f
	testq	%rax, %rax
	je	890f
	movzbl	(%r13), %ecx
	addb	$-48, %cl
	cmpb	$9, %cl
	ja	419f
	cmpq	$1, %rax
	jne	548f
327:
	movl	%eax, %ecx
	andl	$3, %ecx
	cmpq	$4, %rax
	jae	523f
	xorl	%edx, %edx
	xorl	%esi, %esi
	jmp	850f
890:
	xorl	%edx, %edx
	jmp	519f
980:
	subq	%r8, %rdx
	je	219b
	cmpq	$64, %rdx
	jb	325f
	addq	%r8, %rcx
	movq	%rdi, %rbx
	movq	%rcx, %rdi
	movq	%rdx, %rsi
	callq	tc_lines.word.long_word_length
	movq	%rbx, %rdi
325:
	movw	$257, (%rdi)
	jmp	327f
859:
	movq	%r14, %rax
	cmpq	%rax, %r14
	jne	669b
	jmp	219b
548:
	movzbl	1(%r13), %ecx
	addb	$-48, %cl
	cmpb	$9, %cl
	ja	419f
	cmpq	$2, %rax
	je	327b
	movzbl	2(%r13), %ecx
	addb	$-48, %cl
	cmpb	$9, %cl
	ja	419f
	cmpq	$3, %rax
	je	327b
	movzbl	3(%r13), %ecx
	addb	$-48, %cl
	cmpb	$9, %cl
	ja	419f
	cmpq	$4, %rax
	je	327b
	movzbl	4(%r13), %ecx
	addb	$-48, %cl
	cmpb	$10, %cl
	setb	%cl
	cmpq	$5, %rax
	sete	%dl
	testb	%dl, %cl
	jne	327b
	jmp	419f
523:
	andl	$4, %eax
	leaq	(%r15,%rsi), %r8
	addq	$3, %r8
	xorl	%edx, %edx
	xorl	%esi, %esi
	.p2align	4
373:
	leal	(%rdx,%rdx,4), %edx
	movzbl	-3(%r8,%rsi), %r9d
	movzbl	-2(%r8,%rsi), %r10d
	addb	$-48, %r9b
	movzbl	%r9b, %r9d
	leal	(%r9,%rdx,2), %edx
	leal	(%rdx,%rdx,4), %edx
	addb	$-48, %r10b
	movzbl	%r10b, %r9d
	leal	(%r9,%rdx,2), %edx
	leal	(%rdx,%rdx,4), %edx
	movzbl	-1(%r8,%rsi), %r9d
	addb	$-48, %r9b
	movzbl	%r9b, %r9d
	leal	(%r9,%rdx,2), %edx
	leal	(%rdx,%rdx,4), %edx
	movzbl	(%r8,%rsi), %r9d
	addb	$-48, %r9b
	movzbl	%r9b, %r9d
	leal	(%r9,%rdx,2), %edx
	addq	$4, %rsi
	cmpq	%rsi, %rax
	jne	373b
	testq	%rcx, %rcx
	je	871f
850:
	addq	%rsi, %r13
	xorl	%eax, %eax
	.p2align	4
373:
	leal	(%rdx,%rdx,4), %edx
	movzbl	(%r13,%rax), %esi
	addb	$-48, %sil
	movzbl	%sil, %esi
	leal	(%rsi,%rdx,2), %edx
	incq	%rax
	cmpq	%rax, %rcx
	jne	373b
871:
	cmpl	$256, %edx
	jae	419f
519:
	movw	$0, (%rdi)
	movb	$5, 8(%rdi)
	movb	%dl, 9(%rdi)
	movl	$0, 10(%rdi)
	jmp	231f
419:
	movw	$513, (%rdi)
327:
	movl	$0, 8(%rdi)
	movw	$0, 12(%rdi)
231:
	xorps	%xmm0, %xmm0
	movups	%xmm0, 16(%rdi)
	movq	$0, 32(%rdi)
	addq	$8, %rsp
	popq	%rbx
	popq	%r12
	popq	%r13
	popq	%r14
	popq	%r15
	popq	%rbp
	retq
	.section	.text.tc_text.line.take,"ax",@progbits
	.p2align	4
tc_text.line.take:
	pushq	%rbx
	subq	$48, %rsp
	movq	%rdi, %rbx
	xorps	%xmm0, %xmm0
	movaps	%xmm0, 16(%rsp)
	movaps	%xmm0, (%rsp)
	movq	$0, 32(%rsp)
	movq	%rsp, %rdi
	callq	tc_text.word.two_arguments
	cmpb	$0, (%rsp)
	je	928f
	movzbl	1(%rsp), %eax
	movb	$1, (%rbx)
	movb	%al, 1(%rbx)
	jmp	186f
928:
	movq	16(%rsp), %rdi
	leaq	-6(%rdi), %rax
	cmpq	$-5, %rax
	jb	519f
	movq	24(%rsp), %rax
	movq	32(%rsp), %rcx
	testq	%rdi, %rdi
	je	890f
	movq	8(%rsp), %rsi
	movzbl	(%rsi), %edx
	addb	$-48, %dl
	cmpb	$9, %dl
	ja	519f
	cmpq	$1, %rdi
	jne	548f
327:
	movl	%edi, %r8d
	andl	$3, %r8d
	cmpq	$4, %rdi
	jae	523f
	xorl	%edx, %edx
	xorl	%r9d, %r9d
	jmp	850f
890:
	xorl	%edx, %edx
	jmp	669f
548:
	movzbl	1(%rsi), %edx
	addb	$-48, %dl
	cmpb	$9, %dl
	ja	519f
	cmpq	$2, %rdi
	je	327b
	movzbl	2(%rsi), %edx
	addb	$-48, %dl
	cmpb	$9, %dl
	ja	519f
	cmpq	$3, %rdi
	je	327b
	movzbl	3(%rsi), %edx
	addb	$-48, %dl
	cmpb	$9, %dl
	ja	519f
	cmpq	$4, %rdi
	je	327b
	movzbl	4(%rsi), %edx
	addb	$-48, %dl
	cmpb	$10, %dl
	setb	%dl
	cmpq	$5, %rdi
	sete	%r8b
	testb	%r8b, %dl
	jne	327b
	jmp	519f
523:
	andl	$4, %edi
	xorl	%edx, %edx
	xorl	%r9d, %r9d
	.p2align	4
373:
	leal	(%rdx,%rdx,4), %edx
	movzbl	(%rsi,%r9), %r10d
	movzbl	1(%rsi,%r9), %r11d
	addb	$-48, %r10b
	movzbl	%r10b, %r10d
	leal	(%r10,%rdx,2), %edx
	leal	(%rdx,%rdx,4), %edx
	addb	$-48, %r11b
	movzbl	%r11b, %r10d
	leal	(%r10,%rdx,2), %edx
	leal	(%rdx,%rdx,4), %edx
	movzbl	2(%rsi,%r9), %r10d
	addb	$-48, %r10b
	movzbl	%r10b, %r10d
	leal	(%r10,%rdx,2), %edx
	leal	(%rdx,%rdx,4), %edx
	movzbl	3(%rsi,%r9), %r10d
	addb	$-48, %r10b
	movzbl	%r10b, %r10d
	leal	(%r10,%rdx,2), %edx
	addq	$4, %r9
	cmpq	%r9, %rdi
	jne	373b
	testq	%r8, %r8
	je	871f
850:
	addq	%r9, %rsi
	xorl	%edi, %edi
	.p2align	4
373:
	leal	(%rdx,%rdx,4), %edx
	movzbl	(%rsi,%rdi), %r9d
	addb	$-48, %r9b
	movzbl	%r9b, %r9d
	leal	(%r9,%rdx,2), %edx
	incq	%rdi
	cmpq	%rdi, %r8
	jne	373b
871:
	cmpl	$256, %edx
	jae	519f
669:
	leaq	-6(%rcx), %rsi
	cmpq	$-5, %rsi
	jb	519f
	testq	%rcx, %rcx
	je	890f
	movzbl	(%rax), %esi
	addb	$-48, %sil
	cmpb	$9, %sil
	ja	519f
	cmpq	$1, %rcx
	jne	548f
327:
	movl	%ecx, %esi
	andl	$3, %esi
	cmpq	$4, %rcx
	jae	523f
	xorl	%edi, %edi
	xorl	%r8d, %r8d
	jmp	850f
890:
	xorl	%edi, %edi
	jmp	325f
548:
	movzbl	1(%rax), %esi
	addb	$-48, %sil
	cmpb	$9, %sil
	ja	519f
	cmpq	$2, %rcx
	je	327b
	movzbl	2(%rax), %esi
	addb	$-48, %sil
	cmpb	$9, %sil
	ja	519f
	cmpq	$3, %rcx
	je	327b
	movzbl	3(%rax), %esi
	addb	$-48, %sil
	cmpb	$9, %sil
	ja	519f
	cmpq	$4, %rcx
	je	327b
	movzbl	4(%rax), %esi
	addb	$-48, %sil
	cmpb	$10, %sil
	setb	%sil
	cmpq	$5, %rcx
	sete	%dil
	testb	%dil, %sil
	jne	327b
	jmp	519f
523:
	andl	$4, %ecx
	xorl	%edi, %edi
	xorl	%r8d, %r8d
373:
	leal	(%rdi,%rdi,4), %edi
	movzbl	(%rax,%r8), %r9d
	movzbl	1(%rax,%r8), %r10d
	addb	$-48, %r9b
	movzbl	%r9b, %r9d
	leal	(%r9,%rdi,2), %edi
	leal	(%rdi,%rdi,4), %edi
	addb	$-48, %r10b
	movzbl	%r10b, %r9d
	leal	(%r9,%rdi,2), %edi
	leal	(%rdi,%rdi,4), %edi
	movzbl	2(%rax,%r8), %r9d
	addb	$-48, %r9b
	movzbl	%r9b, %r9d
	leal	(%r9,%rdi,2), %edi
	leal	(%rdi,%rdi,4), %edi
	movzbl	3(%rax,%r8), %r9d
	addb	$-48, %r9b
	movzbl	%r9b, %r9d
	leal	(%r9,%rdi,2), %edi
	addq	$4, %r8
	cmpq	%r8, %rcx
	jne	373b
	testq	%rsi, %rsi
	je	871f
850:
	addq	%r8, %rax
	xorl	%ecx, %ecx
	.p2align	4
373:
	leal	(%rdi,%rdi,4), %edi
	movzbl	(%rax,%rcx), %r8d
	addb	$-48, %r8b
	movzbl	%r8b, %r8d
	leal	(%r8,%rdi,2), %edi
	incq	%rcx
	cmpq	%rcx, %rsi
	jne	373b
871:
	cmpl	$65536, %edi
	jae	519f
325:
	movw	$0, (%rbx)
	movb	$6, 8(%rbx)
	movb	%dl, 9(%rbx)
	movw	%di, 10(%rbx)
	jmp	325f
519:
	movw	$513, (%rbx)
186:
	movl	$0, 8(%rbx)
325:
	movw	$0, 12(%rbx)
	xorps	%xmm0, %xmm0
	movups	%xmm0, 16(%rbx)
	movq	$0, 32(%rbx)
	addq	$48, %rsp
	popq	%rbx
	retq
	.section	.text.tc_text.word.two_arguments,"ax",@progbits
	.p2align	4
tc_text.word.two_arguments:
	pushq	%rbp
	pushq	%r15
	pushq	%r14
	pushq	%r13
	pushq	%r12
	pushq	%rbx
	subq	$40, %rsp
	movq	%rdx, %rbp
	movabsq	$4294976000, %r12
	xorl	%r14d, %r14d
	testq	%rdx, %rdx
	je	928f
	.p2align	4
548:
	movzbl	(%rsi,%r14), %eax
	cmpq	$32, %rax
	ja	928f
	btq	%rax, %r12
	jae	928f
	incq	%r14
	cmpq	%r14, %rbp
	jne	548b
	movq	%rbp, %r14
928:
	movq	%rbp, %r8
	subq	%r14, %r8
	je	325f
	leaq	(%rsi,%r14), %rbx
	cmpq	$63, %r8
	movq	%rdi, 8(%rsp)
	movq	%rsi, 16(%rsp)
	ja	928f
	xorl	%r13d, %r13d
	jmp	548f
	.p2align	4
629:
	incq	%r13
	cmpq	%r13, %r8
	je	12f
548:
	movzbl	(%rbx,%r13), %eax
	cmpq	$32, %rax
	ja	629b
	btq	%rax, %r12
	jae	629b
	jmp	859f
325:
	movw	$257, (%rdi)
	xorps	%xmm0, %xmm0
	movups	%xmm0, 8(%rdi)
	movups	%xmm0, 24(%rdi)
	jmp	880f
928:
	movq	%rbx, %rdi
	movq	%r8, %rsi
	movq	%r8, %r15
	callq	tc_lines.word.long_word_length
	movq	%r15, %r8
	movq	%rax, %r13
859:
	movq	%rbx, 32(%rsp)
	addq	%r13, %rbx
	subq	%r13, %r8
	je	890f
928:
	movq	%rbp, %rax
	subq	%r13, %rax
	subq	%r14, %rax
	xorl	%r15d, %r15d
	.p2align	4
548:
	movzbl	(%rbx,%r15), %ecx
	cmpq	$32, %rcx
	ja	980f
	btq	%rcx, %r12
	jae	980f
	incq	%r15
	cmpq	%r15, %rax
	jne	548b
	movq	%r8, %r15
980:
	subq	%r15, %r8
	jne	850f
	jmp	859f
12:
	movq	%r8, %r13
	movq	%rbx, 32(%rsp)
	addq	%r13, %rbx
	subq	%r13, %r8
	jne	928b
890:
	xorl	%r15d, %r15d
	subq	%r15, %r8
	je	859f
850:
	addq	%r15, %rbx
	cmpq	$63, %r8
	ja	928f
	movq	%rbp, %rcx
	subq	%r13, %rcx
	subq	%r15, %rcx
	subq	%r14, %rcx
	xorl	%eax, %eax
	movq	16(%rsp), %rdi
	jmp	548f
	.p2align	4
629:
	incq	%rax
	cmpq	%rax, %rcx
	je	12f
548:
	movzbl	(%rbx,%rax), %edx
	cmpq	$32, %rdx
	ja	629b
	btq	%rdx, %r12
	jae	629b
	jmp	972f
928:
	movq	%rbx, %rdi
	movq	%r8, %rsi
	movq	%r8, 24(%rsp)
	callq	tc_lines.word.long_word_length
	movq	24(%rsp), %r8
	movq	16(%rsp), %rdi
972:
	cmpq	%rax, %r8
	je	928f
669:
	leaq	(%rax,%r13), %rcx
	subq	%r14, %rbp
	subq	%r15, %rbp
	addq	%r14, %r15
	leaq	(%rdi,%r15), %rdx
	.p2align	4
548:
	movzbl	(%rdx,%rcx), %esi
	cmpq	$32, %rsi
	ja	980f
	btq	%rsi, %r12
	jae	980f
	incq	%rcx
	cmpq	%rcx, %rbp
	jne	548b
928:
	movq	8(%rsp), %rcx
	movw	$0, (%rcx)
	movq	32(%rsp), %rdx
	movq	%rdx, 8(%rcx)
	movq	%r13, 16(%rcx)
	movq	%rbx, 24(%rcx)
	movq	%rax, 32(%rcx)
	jmp	880f
980:
	subq	%rcx, %rbp
	je	928b
	cmpq	$64, %rbp
	jb	859f
	addq	%rcx, %rdi
	addq	%r15, %rdi
	movq	%rbp, %rsi
	callq	tc_lines.word.long_word_length
859:
	movq	8(%rsp), %rax
	movw	$257, (%rax)
	xorps	%xmm0, %xmm0
	movups	%xmm0, 8(%rax)
	movups	%xmm0, 24(%rax)
880:
	addq	$40, %rsp
	popq	%rbx
	popq	%r12
	popq	%r13
	popq	%r14
	popq	%r15
	popq	%rbp
	retq
12:
	movq	%r8, %rax
	cmpq	%rax, %r8
	jne	669b
	jmp	928b
	.section	.text.tc_text.line.unit,"ax",@progbits
	.p2align	4
tc_text.line.unit:
	pushq	%rbx
	subq	$48, %rsp
	movq	%rdi, %rbx
	xorps	%xmm0, %xmm0
	movaps	%xmm0, 16(%rsp)
	movaps	%xmm0, (%rsp)
	movq	$0, 32(%rsp)
	movq	%rsp, %rdi
	callq	tc_text.word.two_arguments
	cmpb	$0, (%rsp)
	je	928f
	movzbl	1(%rsp), %eax
	movb	$1, (%rbx)
	movb	%al, 1(%rbx)
	jmp	186f
928:
	movq	16(%rsp), %rdi
	leaq	-6(%rdi), %rax
	cmpq	$-5, %rax
	jb	519f
	movq	24(%rsp), %rax
	movq	32(%rsp), %rcx
	testq	%rdi, %rdi
	je	890f
	movq	8(%rsp), %rsi
	movzbl	(%rsi), %edx
	addb	$-48, %dl
	cmpb	$9, %dl
	ja	519f
	cmpq	$1, %rdi
	jne	548f
327:
	movl	%edi, %r8d
	andl	$3, %r8d
	cmpq	$4, %rdi
	jae	523f
	xorl	%edx, %edx
	xorl	%r9d, %r9d
	jmp	850f
890:
	xorl	%edx, %edx
	jmp	669f
548:
	movzbl	1(%rsi), %edx
	addb	$-48, %dl
	cmpb	$9, %dl
	ja	519f
	cmpq	$2, %rdi
	je	327b
	movzbl	2(%rsi), %edx
	addb	$-48, %dl
	cmpb	$9, %dl
	ja	519f
	cmpq	$3, %rdi
	je	327b
	movzbl	3(%rsi), %edx
	addb	$-48, %dl
	cmpb	$9, %dl
	ja	519f
	cmpq	$4, %rdi
	je	327b
	movzbl	4(%rsi), %edx
	addb	$-48, %dl
	cmpb	$10, %dl
	setb	%dl
	cmpq	$5, %rdi
	sete	%r8b
	testb	%r8b, %dl
	jne	327b
	jmp	519f
523:
	andl	$4, %edi
	xorl	%edx, %edx
	xorl	%r9d, %r9d
	.p2align	4
373:
	leal	(%rdx,%rdx,4), %edx
	movzbl	(%rsi,%r9), %r10d
	movzbl	1(%rsi,%r9), %r11d
	addb	$-48, %r10b
	movzbl	%r10b, %r10d
	leal	(%r10,%rdx,2), %edx
	leal	(%rdx,%rdx,4), %edx
	addb	$-48, %r11b
	movzbl	%r11b, %r10d
	leal	(%r10,%rdx,2), %edx
	leal	(%rdx,%rdx,4), %edx
	movzbl	2(%rsi,%r9), %r10d
	addb	$-48, %r10b
	movzbl	%r10b, %r10d
	leal	(%r10,%rdx,2), %edx
	leal	(%rdx,%rdx,4), %edx
	movzbl	3(%rsi,%r9), %r10d
	addb	$-48, %r10b
	movzbl	%r10b, %r10d
	leal	(%r10,%rdx,2), %edx
	addq	$4, %r9
	cmpq	%r9, %rdi
	jne	373b
	testq	%r8, %r8
	je	871f
850:
	addq	%r9, %rsi
	xorl	%edi, %edi
	.p2align	4
373:
	leal	(%rdx,%rdx,4), %edx
	movzbl	(%rsi,%rdi), %r9d
	addb	$-48, %r9b
	movzbl	%r9b, %r9d
	leal	(%r9,%rdx,2), %edx
	incq	%rdi
	cmpq	%rdi, %r8
	jne	373b
871:
	cmpl	$256, %edx
	jae	519f
669:
	leaq	-6(%rcx), %rsi
	cmpq	$-5, %rsi
	jb	519f
	testq	%rcx, %rcx
	je	890f
	movzbl	(%rax), %esi
	addb	$-48, %sil
	cmpb	$9, %sil
	ja	519f
	cmpq	$1, %rcx
	jne	548f
327:
	movl	%ecx, %esi
	andl	$3, %esi
	cmpq	$4, %rcx
	jae	523f
	xorl	%edi, %edi
	xorl	%r8d, %r8d
	jmp	850f
890:
	xorl	%edi, %edi
	jmp	325f
548:
	movzbl	1(%rax), %esi
	addb	$-48, %sil
	cmpb	$9, %sil
	ja	519f
	cmpq	$2, %rcx
	je	327b
	movzbl	2(%rax), %esi
	addb	$-48, %sil
	cmpb	$9, %sil
	ja	519f
	cmpq	$3, %rcx
	je	327b
	movzbl	3(%rax), %esi
	addb	$-48, %sil
	cmpb	$9, %sil
	ja	519f
	cmpq	$4, %rcx
	je	327b
	movzbl	4(%rax), %esi
	addb	$-48, %sil
	cmpb	$10, %sil
	setb	%sil
	cmpq	$5, %rcx
	sete	%dil
	testb	%dil, %sil
	jne	327b
	jmp	519f
523:
	andl	$4, %ecx
	xorl	%edi, %edi
	xorl	%r8d, %r8d
373:
	leal	(%rdi,%rdi,4), %edi
	movzbl	(%rax,%r8), %r9d
	movzbl	1(%rax,%r8), %r10d
	addb	$-48, %r9b
	movzbl	%r9b, %r9d
	leal	(%r9,%rdi,2), %edi
	leal	(%rdi,%rdi,4), %edi
	addb	$-48, %r10b
	movzbl	%r10b, %r9d
	leal	(%r9,%rdi,2), %edi
	leal	(%rdi,%rdi,4), %edi
	movzbl	2(%rax,%r8), %r9d
	addb	$-48, %r9b
	movzbl	%r9b, %r9d
	leal	(%r9,%rdi,2), %edi
	leal	(%rdi,%rdi,4), %edi
	movzbl	3(%rax,%r8), %r9d
	addb	$-48, %r9b
	movzbl	%r9b, %r9d
	leal	(%r9,%rdi,2), %edi
	addq	$4, %r8
	cmpq	%r8, %rcx
	jne	373b
	testq	%rsi, %rsi
	je	871f
850:
	addq	%r8, %rax
	xorl	%ecx, %ecx
	.p2align	4
373:
	leal	(%rdi,%rdi,4), %edi
	movzbl	(%rax,%rcx), %r8d
	addb	$-48, %r8b
	movzbl	%r8b, %r8d
	leal	(%r8,%rdi,2), %edi
	incq	%rcx
	cmpq	%rcx, %rsi
	jne	373b
871:
	cmpl	$256, %edi
	jae	519f
325:
	movw	$0, (%rbx)
	movb	$7, 8(%rbx)
	movb	%dl, 9(%rbx)
	movw	%di, 10(%rbx)
	jmp	325f
519:
	movw	$513, (%rbx)
186:
	movl	$0, 8(%rbx)
325:
	movw	$0, 12(%rbx)
	xorps	%xmm0, %xmm0
	movups	%xmm0, 16(%rbx)
	movq	$0, 32(%rbx)
	addq	$48, %rsp
	popq	%rbx
	retq
	.section	.text.tc_text.line.clcw,"ax",@progbits
	.p2align	4
tc_text.line.clcw:
	pushq	%rbp
	pushq	%r15
	pushq	%r14
	pushq	%r13
	pushq	%r12
	pushq	%rbx
	pushq	%rax
	movabsq	$4294976000, %r12
	xorl	%r15d, %r15d
	testq	%rdx, %rdx
	je	928f
	.p2align	4
548:
	movzbl	(%rsi,%r15), %eax
	cmpq	$32, %rax
	ja	928f
	btq	%rax, %r12
	jae	928f
	incq	%r15
	cmpq	%r15, %rdx
	jne	548b
	movq	%rdx, %r15
928:
	movq	%rdx, %r14
	subq	%r15, %r14
	je	325f
	leaq	(%rsi,%r15), %r13
	cmpq	$63, %r14
	ja	928f
	xorl	%eax, %eax
	jmp	548f
	.p2align	4
629:
	incq	%rax
	cmpq	%rax, %r14
	je	859f
548:
	movzbl	(%r13,%rax), %ecx
	cmpq	$32, %rcx
	ja	629b
	btq	%rcx, %r12
	jae	629b
	jmp	972f
928:
	movq	%rdi, (%rsp)
	movq	%r13, %rdi
	movq	%rsi, %rbp
	movq	%r14, %rsi
	movq	%rdx, %rbx
	callq	tc_lines.word.long_word_length
	movq	%rbx, %rdx
	movq	%rbp, %rsi
	movq	(%rsp), %rdi
972:
	cmpq	%rax, %r14
	je	219f
669:
	leaq	(%rax,%r13), %rcx
	subq	%rax, %rdx
	subq	%r15, %rdx
	xorl	%r8d, %r8d
	.p2align	4
548:
	movzbl	(%rcx,%r8), %r9d
	cmpq	$32, %r9
	ja	980f
	btq	%r9, %r12
	jae	980f
	incq	%r8
	cmpq	%r8, %rdx
	jne	548b
219:
	leaq	-6(%rax), %rcx
	cmpq	$-5, %rcx
	jb	419f
	testq	%rax, %rax
	je	890f
	movzbl	(%r13), %ecx
	addb	$-48, %cl
	cmpb	$9, %cl
	ja	419f
	cmpq	$1, %rax
	jne	548f
327:
	movl	%eax, %ecx
	andl	$3, %ecx
	cmpq	$4, %rax
	jae	523f
	xorl	%edx, %edx
	xorl	%esi, %esi
	jmp	850f
890:
	xorl	%edx, %edx
	jmp	519f
980:
	subq	%r8, %rdx
	je	219b
	cmpq	$64, %rdx
	jb	325f
	addq	%r8, %rcx
	movq	%rdi, %rbx
	movq	%rcx, %rdi
	movq	%rdx, %rsi
	callq	tc_lines.word.long_word_length
	movq	%rbx, %rdi
325:
	movw	$257, (%rdi)
	jmp	327f
859:
	movq	%r14, %rax
	cmpq	%rax, %r14
	jne	669b
	jmp	219b
548:
	movzbl	1(%r13), %ecx
	addb	$-48, %cl
	cmpb	$9, %cl
	ja	419f
	cmpq	$2, %rax
	je	327b
	movzbl	2(%r13), %ecx
	addb	$-48, %cl
	cmpb	$9, %cl
	ja	419f
	cmpq	$3, %rax
	je	327b
	movzbl	3(%r13), %ecx
	addb	$-48, %cl
	cmpb	$9, %cl
	ja	419f
	cmpq	$4, %rax
	je	327b
	movzbl	4(%r13), %ecx
	addb	$-48, %cl
	cmpb	$10, %cl
	setb	%cl
	cmpq	$5, %rax
	sete	%dl
	testb	%dl, %cl
	jne	327b
	jmp	419f
523:
	andl	$4, %eax
	leaq	(%r15,%rsi), %r8
	addq	$3, %r8
	xorl	%edx, %edx
	xorl	%esi, %esi
	.p2align	4
373:
	leal	(%rdx,%rdx,4), %edx
	movzbl	-3(%r8,%rsi), %r9d
	movzbl	-2(%r8,%rsi), %r10d
	addb	$-48, %r9b
	movzbl	%r9b, %r9d
	leal	(%r9,%rdx,2), %edx
	leal	(%rdx,%rdx,4), %edx
	addb	$-48, %r10b
	movzbl	%r10b, %r9d
	leal	(%r9,%rdx,2), %edx
	leal	(%rdx,%rdx,4), %edx
	movzbl	-1(%r8,%rsi), %r9d
	addb	$-48, %r9b
	movzbl	%r9b, %r9d
	leal	(%r9,%rdx,2), %edx
	leal	(%rdx,%rdx,4), %edx
	movzbl	(%r8,%rsi), %r9d
	addb	$-48, %r9b
	movzbl	%r9b, %r9d
	leal	(%r9,%rdx,2), %edx
	addq	$4, %rsi
	cmpq	%rsi, %rax
	jne	373b
	testq	%rcx, %rcx
	je	871f
850:
	addq	%rsi, %r13
	xorl	%eax, %eax
	.p2align	4
373:
	leal	(%rdx,%rdx,4), %edx
	movzbl	(%r13,%rax), %esi
	addb	$-48, %sil
	movzbl	%sil, %esi
	leal	(%rsi,%rdx,2), %edx
	incq	%rax
	cmpq	%rax, %rcx
	jne	373b
871:
	cmpl	$256, %edx
	jae	419f
519:
	movw	$0, (%rdi)
	movb	$8, 8(%rdi)
	movb	%dl, 9(%rdi)
	movl	$0, 10(%rdi)
	jmp	231f
419:
	movw	$513, (%rdi)
327:
	movl	$0, 8(%rdi)
	movw	$0, 12(%rdi)
231:
	xorps	%xmm0, %xmm0
	movups	%xmm0, 16(%rdi)
	movq	$0, 32(%rdi)
	addq	$8, %rsp
	popq	%rbx
	popq	%r12
	popq	%r13
	popq	%r14
	popq	%r15
	popq	%rbp
	retq
	.section	.text.tc_live.receiver.Receiver.perform,"ax",@progbits
	.p2align	4
tc_live.receiver.Receiver.perform:
	pushq	%rbp
	pushq	%r15
	pushq	%r14
	pushq	%r13
	pushq	%r12
	pushq	%rbx
	subq	$280, %rsp
	movq	%rsi, %r14
	movq	%rdi, %rbx
	movzbl	(%rdx), %ebp
	movzbl	1(%rdx), %eax
	movzwl	2(%rdx), %ecx
	movzwl	4(%rdx), %esi
	movq	8(%rdx), %r9
	movq	16(%rdx), %r11
	movq	24(%rdx), %r10
	xorps	%xmm0, %xmm0
	movaps	%xmm0, 128(%rsp)
	movaps	%xmm0, 112(%rsp)
	movaps	%xmm0, 96(%rsp)
	movaps	%xmm0, 80(%rsp)
	movl	$0, 144(%rsp)
	movaps	%xmm0, 192(%rsp)
	movaps	%xmm0, 208(%rsp)
	movaps	%xmm0, 224(%rsp)
	movaps	%xmm0, 240(%rsp)
	movaps	%xmm0, 256(%rsp)
	movq	$0, 48(%rsp)
	cmpb	$0, (%r14)
	je	548f
	movzbl	1(%r14), %r15d
	cmpb	$4, %bpl
	jne	969f
	movb	%r15b, 7(%rsp)
	movq	%r10, 16(%rsp)
	movaps	%xmm0, 176(%rsp)
	movaps	%xmm0, 160(%rsp)
	leaq	160(%rsp), %rdi
	movq	%r9, 24(%rsp)
	movq	%r9, %rsi
	movq	%r11, %rdx
	callq	tc_edges.fecf.frames.without_field
	movzbl	160(%rsp), %r13d
	testb	%r13b, %r13b
	je	12f
	xorl	%ecx, %ecx
	cmpb	$5, 161(%rsp)
	movl	$14, %r15d
	movl	$0, %eax
	movq	%rax, 40(%rsp)
	cmovnel	%ecx, %r15d
	setne	%r12b
	movq	$0, 8(%rsp)
	movq	$0, 32(%rsp)
	xorl	%ebp, %ebp
	movq	16(%rsp), %rax
	testq	%rax, %rax
	je	1f
928:
	movq	24(%rsp), %rdi
	callq	rattle_dealloc@PLT
1:
	testb	%r12b, %r12b
	je	409f
	testb	%r13b, %r13b
	je	890f
	xorps	%xmm0, %xmm0
	movups	%xmm0, 132(%rsp)
	movups	%xmm0, 116(%rsp)
	movups	%xmm0, 100(%rsp)
	movups	%xmm0, 84(%rsp)
	movb	$4, %al
	xorl	%ecx, %ecx
	xorl	%edx, %edx
	jmp	325f
548:
	movzbl	1(%r14), %r15d
	cmpb	$4, %bpl
	jne	969f
	cmpb	$2, %r15b
	sete	%dl
	cmpq	$5, %r11
	setb	%dil
	orb	%dl, %dil
	movb	$4, %bpl
	movb	$2, %r15b
	jne	969f
	testb	$-52, (%r9)
	jne	969f
	movzbl	3(%r9), %edx
	shll	$8, %edx
	movzbl	2(%r9), %edi
	andl	$3, %edi
	orl	%edx, %edi
	rolw	$8, %di
	leal	1(%rdi), %edx
	movzwl	%dx, %edx
	cmpw	$5, %di
	setb	%dil
	cmpq	%rdx, %r11
	setb	%r8b
	orb	%dil, %r8b
	jne	969f
	cmpq	$8, %r11
	jb	969f
	cmpq	%rdx, %r11
	jne	969f
	movq	%r10, 16(%rsp)
	movw	$-1, %dx
	movq	%r9, 24(%rsp)
	movq	%r11, 8(%rsp)
	movq	%r11, %rdi
	.p2align	4
859:
	movq	%r9, %r8
	addq	$-4, %rdi
	movzbl	2(%r9), %r9d
	movzbl	3(%r8), %r10d
	movl	%edx, %r11d
	shrl	$8, %r11d
	xorb	(%r8), %r11b
	movzbl	%r11b, %r11d
	leaq	.LT48aab116(%rip), %r15
	xorb	1(%r8), %dl
	movzbl	%dl, %edx
	leaq	.LT33c05f58(%rip), %r12
	movzwl	(%r12,%rdx,2), %edx
	leaq	.LTbb337a2b(%rip), %r12
	leaq	.LT48c7e4e5(%rip), %r13
	xorw	(%r15,%r11,2), %dx
	xorw	(%r12,%r9,2), %dx
	xorw	(%r13,%r10,2), %dx
	leaq	4(%r8), %r9
	cmpq	$3, %rdi
	ja	859b
	testq	%rdi, %rdi
	je	129f
	xorl	%r9d, %r9d
548:
	movzbl	4(%r8,%r9), %r10d
	movzwl	%dx, %r11d
	shrl	$8, %r11d
	xorl	%r10d, %r11d
	movl	%r11d, %r10d
	shrl	$4, %r10d
	xorl	%r11d, %r10d
	shll	$8, %edx
	movl	%r10d, %r11d
	orl	%r10d, %edx
	shll	$12, %r10d
	shll	$5, %r11d
	xorl	%r10d, %edx
	xorl	%r11d, %edx
	incq	%r9
	cmpq	%r9, %rdi
	jne	548b
129:
	cmpw	$1, %dx
	movb	$2, %r15b
	sbbb	$0, %r15b
	movq	24(%rsp), %r9
	movq	16(%rsp), %r10
	movq	8(%rsp), %r11
	jmp	969f
409:
	movb	$1, (%rbx)
	movb	%r15b, 1(%rbx)
	jmp	327f
12:
	movq	168(%rsp), %rax
	movq	%rax, 32(%rsp)
	movq	176(%rsp), %rax
	movq	%rax, 8(%rsp)
	movb	$4, %bpl
	movb	$1, %r12b
	movq	184(%rsp), %rax
	movq	%rax, 40(%rsp)
	xorl	%r15d, %r15d
	movq	16(%rsp), %rax
	testq	%rax, %rax
	jne	928b
	jmp	1b
890:
	xorl	%eax, %eax
	movq	32(%rsp), %r9
	movq	40(%rsp), %r10
	xorl	%ecx, %ecx
	xorl	%esi, %esi
	movq	8(%rsp), %r11
	movzbl	7(%rsp), %r15d
969:
	movb	%bpl, 48(%rsp)
	movb	%al, 49(%rsp)
	movw	%cx, 50(%rsp)
	movw	%si, 52(%rsp)
	movq	%r9, 56(%rsp)
	movq	%r11, 64(%rsp)
	movq	%r10, 72(%rsp)
	leaq	192(%rsp), %rdi
	leaq	48(%rsp), %rdx
	movq	%r14, %rsi
	callq	tc_live.receiver.Receiver.perform_passed
	cmpb	$0, 192(%rsp)
	je	471f
	movzbl	193(%rsp), %eax
	movb	$1, (%rbx)
	movb	%al, 1(%rbx)
327:
	movl	$0, 8(%rbx)
	xorps	%xmm0, %xmm0
	movups	%xmm0, 16(%rbx)
	movups	%xmm0, 32(%rbx)
	movups	%xmm0, 48(%rbx)
	movups	%xmm0, 64(%rbx)
	jmp	850f
471:
	movzwl	202(%rsp), %edx
	movzbl	200(%rsp), %eax
	movzbl	201(%rsp), %ecx
	movb	%r15b, 1(%r14)
	movaps	208(%rsp), %xmm0
	movaps	224(%rsp), %xmm1
	movaps	240(%rsp), %xmm2
	movaps	256(%rsp), %xmm3
	movups	%xmm3, 132(%rsp)
	movups	%xmm2, 116(%rsp)
	movups	%xmm1, 100(%rsp)
	movups	%xmm0, 84(%rsp)
325:
	movw	$0, (%rbx)
	movb	%al, 8(%rbx)
	movb	%cl, 9(%rbx)
	movw	%dx, 10(%rbx)
	movups	84(%rsp), %xmm0
	movups	100(%rsp), %xmm1
	movups	116(%rsp), %xmm2
	movups	132(%rsp), %xmm3
	movups	%xmm0, 16(%rbx)
	movups	%xmm1, 32(%rbx)
	movups	%xmm2, 48(%rbx)
	movups	%xmm3, 64(%rbx)
850:
	addq	$280, %rsp
	popq	%rbx
	popq	%r12
	popq	%r13
	popq	%r14
	popq	%r15
	popq	%rbp
	retq
	.section	.text.tc_edges.fecf.frames.without_field,"ax",@progbits
	.p2align	4
tc_edges.fecf.frames.without_field:
	pushq	%rbp
	pushq	%r15
	pushq	%r14
	pushq	%r12
	pushq	%rbx
	cmpq	$5, %rdx
	jae	471f
	xorl	%ecx, %ecx
890:
	xorl	%eax, %eax
	jmp	969f
471:
	movzwl	(%rsi), %eax
	rolw	$8, %ax
	movzwl	%ax, %ecx
	cmpl	$16383, %ecx
	ja	409f
	testl	$3072, %eax
	je	548f
	movb	$2, %al
	jmp	83f
409:
	movb	$1, %al
83:
	xorl	%ecx, %ecx
969:
	movb	$1, (%rdi)
	movb	%cl, 1(%rdi)
	movb	%al, 2(%rdi)
231:
	xorps	%xmm0, %xmm0
	movups	%xmm0, 8(%rdi)
	movq	$0, 24(%rdi)
912:
	popq	%rbx
	popq	%r12
	popq	%r14
	popq	%r15
	popq	%rbp
	retq
548:
	movzbl	2(%rsi), %ecx
	movzbl	3(%rsi), %eax
	shll	$8, %eax
	movzwl	%cx, %ecx
	andl	$3, %ecx
	orl	%ecx, %eax
	rolw	$8, %ax
	cmpw	$5, %ax
	jae	689f
	movb	$3, %al
	jmp	83b
689:
	incl	%eax
	movzwl	%ax, %eax
	cmpq	%rax, %rdx
	jae	409f
	movb	$4, %al
	jmp	83b
409:
	jbe	972f
	movb	$1, %cl
	jmp	890b
972:
	cmpq	$8, %rdx
	jae	325f
	movw	$769, (%rdi)
	jmp	409f
325:
	movw	$-1, %ax
	movq	%rsi, %r9
	movq	%rdx, %rcx
928:
	movq	%r9, %r8
	addq	$-4, %rcx
	movzbl	2(%r9), %r9d
	movzbl	3(%r8), %r10d
	movl	%eax, %r11d
	shrl	$8, %r11d
	xorb	(%r8), %r11b
	movzbl	%r11b, %r11d
	leaq	.LT48aab116(%rip), %rbx
	xorb	1(%r8), %al
	movzbl	%al, %eax
	leaq	.LT33c05f58(%rip), %r14
	movzwl	(%r14,%rax,2), %eax
	leaq	.LTbb337a2b(%rip), %r14
	leaq	.LT48c7e4e5(%rip), %r15
	xorw	(%rbx,%r11,2), %ax
	xorw	(%r14,%r9,2), %ax
	xorw	(%r15,%r10,2), %ax
	leaq	4(%r8), %r9
	cmpq	$3, %rcx
	ja	928b
	testq	%rcx, %rcx
	je	978f
	xorl	%r9d, %r9d
548:
	movzbl	4(%r8,%r9), %r10d
	movzwl	%ax, %r11d
	shrl	$8, %r11d
	xorl	%r10d, %r11d
	movl	%r11d, %r10d
	shrl	$4, %r10d
	xorl	%r11d, %r10d
	shll	$8, %eax
	movl	%r10d, %r11d
	orl	%r10d, %eax
	shll	$12, %r10d
	shll	$5, %r11d
	xorl	%r10d, %eax
	xorl	%r11d, %eax
	incq	%r9
	cmpq	%r9, %rcx
	jne	548b
978:
	testw	%ax, %ax
	je	928f
	movw	$1025, (%rdi)
409:
	movb	$0, 2(%rdi)
	jmp	231b
928:
	movq	%rsi, %r12
	movq	%rdi, %r14
	movq	%rdx, %r15
	leaq	-2(%rdx), %rbx
	movl	$1, %esi
	movq	%rbx, %rdi
	callq	rattle_alloc@PLT
	testb	$1, %al
	je	325f
	movzwl	2(%r12), %eax
	rolw	$8, %ax
	addl	$-2, %eax
	movzbl	(%r12), %esi
	movzbl	1(%r12), %edi
	movzwl	%ax, %eax
	bswapl	%eax
	shll	$8, %edi
	orl	%eax, %edi
	orl	%esi, %edi
	movl	%edi, (%rdx)
	leaq	4(%r12), %rsi
	leaq	-6(%r15), %rax
	movq	%rdx, %rdi
	addq	$4, %rdi
	movq	%rdi, %r8
	subq	%rsi, %r8
	cmpq	%rax, %r8
	jae	928f
	movq	%r12, %rcx
	movq	%r15, %r10
	xorl	%r9d, %r9d
	cmpq	$4, %rax
	jb	859f
	movq	%rdx, %r8
	subq	%rcx, %r8
	cmpq	$32, %r8
	movq	%r14, %r8
	jb	648f
	cmpq	$32, %rax
	jae	12f
	xorl	%r9d, %r9d
	jmp	638f
325:
	movw	$1281, (%r14)
	movb	$0, 2(%r14)
	xorps	%xmm0, %xmm0
	movups	%xmm0, 8(%r14)
	movq	$0, 24(%r14)
	jmp	912b
928:
	movq	%rdx, %r15
	movq	%rax, %rdx
	callq	memmove@PLT
	movq	%r15, %rdx
	movq	%r14, %r8
	jmp	325f
859:
	movq	%r14, %r8
	jmp	648f
12:
	movq	%rax, %r9
	andq	$-32, %r9
	xorl	%r11d, %r11d
464:
	movups	4(%rcx,%r11), %xmm0
	movups	20(%rcx,%r11), %xmm1
	movups	%xmm0, 4(%rdx,%r11)
	movups	%xmm1, 20(%rdx,%r11)
	addq	$32, %r11
	cmpq	%r11, %r9
	jne	464b
	cmpq	%r9, %rax
	je	325f
	testb	$28, %al
	je	648f
638:
	movq	%r9, %r11
	movq	%rax, %r9
	andq	$-4, %r9
327:
	movl	(%rsi,%r11), %ebp
	movl	%ebp, (%rdi,%r11)
	addq	$4, %r11
	cmpq	%r11, %r9
	jne	327b
	cmpq	%r9, %rax
	je	325f
648:
	movq	%r10, %r11
	subq	%r9, %r11
	addq	$-7, %r11
	andl	$3, %r10d
	cmpq	$2, %r10
	je	972f
	movl	$1, %r14d
548:
	movzbl	(%rsi,%r9), %ebp
	movb	%bpl, (%rdi,%r9)
	incq	%r9
	movq	%r10, %r15
	xorq	%r14, %r15
	incq	%r14
	cmpq	$2, %r15
	jne	548b
972:
	cmpq	$3, %r11
	jb	325f
548:
	movzbl	4(%rcx,%r9), %esi
	movb	%sil, 4(%rdx,%r9)
	movzbl	5(%rcx,%r9), %esi
	movb	%sil, 5(%rdx,%r9)
	movzbl	6(%rcx,%r9), %esi
	movb	%sil, 6(%rdx,%r9)
	movzbl	7(%rcx,%r9), %esi
	movb	%sil, 7(%rdx,%r9)
	addq	$4, %r9
	cmpq	%r9, %rax
	jne	548b
325:
	movw	$0, (%r8)
	movb	$0, 2(%r8)
	movq	%rdx, 8(%r8)
	movq	%rbx, 16(%r8)
	movq	%rbx, 24(%r8)
	jmp	912b
	.section	.text.unlikely.std_alloc.vec.Vec.grow_amortized._5ce8f19f45e9f986,"ax",@progbits
	.p2align	4
std_alloc.vec.Vec.grow_amortized._5ce8f19f45e9f986:
	movq	%rsi, %rax
	movq	8(%rdi), %rsi
	addq	%rsi, %rax
	jae	253f
	xorl	%eax, %eax
	retq
253:
	pushq	%r14
	pushq	%rbx
	pushq	%rax
	cmpq	$9, %rax
	movl	$8, %ebx
	cmovaeq	%rax, %rbx
	movq	16(%rdi), %rcx
	movq	%rcx, %rdx
	shrq	$62, %rdx
	leaq	(%rcx,%rcx), %rax
	cmpq	%rax, %rbx
	cmovaq	%rbx, %rax
	testq	%rdx, %rdx
	cmoveq	%rax, %rbx
	testq	%rbx, %rbx
	js	890f
	testq	%rcx, %rcx
	je	859f
	movq	%rdi, %r14
	movq	(%rdi), %rdi
	movl	$1, %ecx
	movq	%rbx, %rdx
	callq	rattle_realloc@PLT
	testb	$1, %al
	je	890f
928:
	movq	%rdx, (%r14)
	movq	%rbx, 16(%r14)
	movb	$1, %al
	addq	$8, %rsp
	popq	%rbx
	popq	%r14
	retq
859:
	movq	%rdi, %r14
	movl	$1, %esi
	movq	%rax, %rdi
	callq	rattle_alloc@PLT
	testb	$1, %al
	jne	928b
890:
	xorl	%eax, %eax
	addq	$8, %rsp
	popq	%rbx
	popq	%r14
	retq
	.section	.text.tc_live.receiver.Receiver.perform_passed,"ax",@progbits
	.p2align	4
tc_live.receiver.Receiver.perform_passed:
	pushq	%rbp
	pushq	%r15
	pushq	%r14
	pushq	%r13
	pushq	%r12
	pushq	%rbx
	subq	$2328, %rsp
	movq	%rsi, 200(%rsp)
	movq	%rdi, 8(%rsp)
	movzbl	(%rdx), %eax
	movzbl	1(%rdx), %ecx
	movzbl	%al, %esi
	movzwl	2(%rdx), %r8d
	movzwl	4(%rdx), %r13d
	movzbl	8(%rdx), %edi
	movb	%dil, 23(%rsp)
	movzbl	9(%rdx), %r9d
	movzbl	10(%rdx), %r10d
	movzbl	11(%rdx), %r14d
	movzbl	12(%rdx), %r11d
	movzwl	13(%rdx), %edi
	leaq	.LJ477af39e_0(%rip), %r15
	movslq	(%r15,%rsi,4), %rbp
	addq	%r15, %rbp
	movzbl	15(%rdx), %r15d
	movq	16(%rdx), %rbx
	movq	24(%rdx), %r12
	pxor	%xmm0, %xmm0
	movdqu	%xmm0, 140(%rsp)
	movdqa	%xmm0, 128(%rsp)
	movdqa	%xmm0, 176(%rsp)
	movdqa	%xmm0, 160(%rsp)
	movl	%r13d, %edx
	shll	$16, %edx
	orl	%r8d, %edx
	jmpq	*%rbp
928:
	movq	%rsi, %rdi
	movq	%rsi, 32(%rsp)
	movq	%rsi, %r12
	xorl	%ebx, %ebx
	movl	%eax, %ecx
	movq	%rcx, 24(%rsp)
	xorl	%r8d, %r8d
	xorl	%r15d, %r15d
	movl	%eax, %r9d
	movl	%eax, %r10d
	movl	%eax, %r14d
	movl	%eax, %r11d
	jmp	657f
14:
	shll	$16, %r15d
	orl	%r15d, %edi
	shlq	$40, %rdi
	xorl	%ebp, %ebp
	movb	$3, %al
	movq	$0, 24(%rsp)
	xorl	%r8d, %r8d
	xorl	%r15d, %r15d
	movq	$0, 32(%rsp)
	movzbl	23(%rsp), %ecx
	jmp	548f
890:
	xorl	%edi, %edi
	xorl	%r12d, %r12d
	xorl	%ebx, %ebx
	xorl	%ebp, %ebp
	movq	%rcx, 24(%rsp)
	xorl	%r8d, %r8d
	jmp	83f
523:
	andl	$-65281, %edx
	movw	$1, %r8w
	movb	$2, %al
	xorl	%edi, %edi
	xorl	%r12d, %r12d
	xorl	%ebx, %ebx
	xorl	%ebp, %ebp
	movq	%rcx, 24(%rsp)
83:
	xorl	%r15d, %r15d
	movl	%edx, %ecx
	movq	%rcx, 32(%rsp)
	jmp	110f
83:
	xorl	%edi, %edi
	movb	$6, %al
	xorl	%r12d, %r12d
	xorl	%ebx, %ebx
	xorl	%ebp, %ebp
	movq	%rcx, 24(%rsp)
	jmp	57f
327:
	movl	%r8d, %r9d
	shrl	$8, %r8d
	movl	%r8d, %r10d
	movl	%r13d, %r11d
	shrl	$8, %r11d
	andb	$1, %r11b
	xorl	%edi, %edi
	movb	$1, %al
	leaq	6(%rsp), %rbx
	xorl	%r12d, %r12d
	movq	%rbx, %rbp
	movq	$0, 24(%rsp)
	xorl	%r8d, %r8d
	xorl	%r15d, %r15d
	movq	$0, 32(%rsp)
	movl	%r13d, %r14d
	jmp	548f
289:
	xorl	%edi, %edi
	movb	$4, %al
	xorl	%r12d, %r12d
	xorl	%ebx, %ebx
	xorl	%ebp, %ebp
	movq	%rcx, 24(%rsp)
	xorl	%r8d, %r8d
57:
	xorl	%r15d, %r15d
	jmp	859f
186:
	movl	%r8d, %r15d
	andl	$65280, %r15d
	xorl	%edi, %edi
	movb	$5, %al
	xorl	%r12d, %r12d
	xorl	%ebx, %ebx
	xorl	%ebp, %ebp
	movq	%rcx, 24(%rsp)
859:
	movq	$0, 32(%rsp)
110:
	xorl	%ecx, %ecx
	xorl	%r9d, %r9d
	xorl	%r10d, %r10d
	xorl	%r14d, %r14d
	xorl	%r11d, %r11d
	jmp	548f
409:
	movb	$7, %al
	xorl	%edi, %edi
	xorl	%r12d, %r12d
	xorl	%ebx, %ebx
	movq	%rcx, 24(%rsp)
	xorl	%r8d, %r8d
	xorl	%r15d, %r15d
	movq	$0, 32(%rsp)
	xorl	%ecx, %ecx
	xorl	%r9d, %r9d
	xorl	%r10d, %r10d
	xorl	%r14d, %r14d
	xorl	%r11d, %r11d
657:
	xorl	%ebp, %ebp
548:
	movzbl	%r8b, %r13d
	movzbl	%r11b, %edx
	shlq	$32, %rdx
	orq	%rdi, %rdx
	movzbl	%r14b, %edi
	shll	$24, %edi
	movzbl	%r10b, %r8d
	shll	$16, %r8d
	orq	%rdi, %r8
	orq	%rdx, %r8
	movzbl	%r9b, %edx
	shll	$8, %edx
	movzbl	%cl, %r14d
	orq	%rdx, %r14
	orq	%r8, %r14
	movdqa	%xmm0, 240(%rsp)
	movdqu	%xmm0, 252(%rsp)
	movdqa	%xmm0, 208(%rsp)
	movdqu	%xmm0, 220(%rsp)
	movq	200(%rsp), %rsi
	movzwl	2(%rsi), %ecx
	movw	%cx, 4(%rsp)
	movdqu	%xmm0, 108(%rsp)
	movdqa	%xmm0, 96(%rsp)
	movzbl	%al, %eax
	leaq	.LJ477af39e_1(%rip), %rcx
	movslq	(%rcx,%rax,4), %rax
	addq	%rcx, %rax
	jmpq	*%rax
483:
	pxor	%xmm0, %xmm0
	movdqu	%xmm0, 284(%rsp)
	movdqa	%xmm0, 272(%rsp)
	xorl	%ecx, %ecx
	xorl	%eax, %eax
	movq	8(%rsp), %rdi
	jmp	464f
868:
	cmpb	$1, 8(%rsi)
	jne	648f
850:
	addq	$16, %rsi
	pxor	%xmm0, %xmm0
	movdqa	%xmm0, 272(%rsp)
	movdqa	%xmm0, 288(%rsp)
	movq	$0, 304(%rsp)
	movq	$1, 40(%rsp)
	jmp	859f
969:
	movb	$4, %dl
	cmpb	$0, 8(%rsi)
	jne	12f
	movq	24(%rsi), %rax
	movb	$7, %dl
	testq	%rax, %rax
	je	12f
	movq	16(%rsi), %r14
	addq	$48, %r14
	movq	32(%rsp), %rcx
	movl	%ecx, %r15d
	andl	$2047, %r15d
	movq	24(%rsp), %rdi
	.p2align	4
198:
	cmpb	%dil, -48(%r14)
	je	981f
	addq	$56, %r14
	addq	$2047, %r15
	decq	%rax
	jne	198b
	jmp	12f
198:
	cmpb	$1, 8(%rsi)
	jne	961f
880:
	addq	$16, %rsi
	pxor	%xmm0, %xmm0
	movdqa	%xmm0, 272(%rsp)
	movdqa	%xmm0, 288(%rsp)
	movq	$0, 304(%rsp)
	movq	$0, 40(%rsp)
	movq	%r14, 48(%rsp)
	movq	%rbx, 56(%rsp)
	movq	%r12, 64(%rsp)
	jmp	669f
203:
	cmpb	$1, 8(%rsi)
	jne	678f
793:
	addq	$16, %rsi
	pxor	%xmm0, %xmm0
	movdqa	%xmm0, 272(%rsp)
	movdqa	%xmm0, 288(%rsp)
	movq	$0, 304(%rsp)
	movq	$4, 40(%rsp)
859:
	movq	24(%rsp), %rax
	movb	%al, 41(%rsp)
	jmp	856f
212:
	cmpb	$0, 8(%rsi)
	je	638f
	movb	$4, %dl
	jmp	12f
111:
	cmpb	$1, 8(%rsi)
	jne	966f
362:
	orl	%r13d, %r15d
	addq	$16, %rsi
	pxor	%xmm0, %xmm0
	movdqa	%xmm0, 272(%rsp)
	movdqa	%xmm0, 288(%rsp)
	movq	$0, 304(%rsp)
	movq	$2, 40(%rsp)
	movq	24(%rsp), %rax
	movb	%al, 41(%rsp)
	movw	%r15w, 42(%rsp)
	jmp	856f
875:
	cmpb	$1, 8(%rsi)
	jne	771f
757:
	addq	$16, %rsi
	pxor	%xmm0, %xmm0
	movdqa	%xmm0, 272(%rsp)
	movdqa	%xmm0, 288(%rsp)
	movq	$0, 304(%rsp)
	movq	$3, 40(%rsp)
	movq	24(%rsp), %rax
	movb	%al, 41(%rsp)
	movw	%r13w, 42(%rsp)
856:
	movdqu	%xmm0, 48(%rsp)
	movq	$0, 64(%rsp)
669:
	leaq	272(%rsp), %rdi
	leaq	40(%rsp), %rdx
	callq	tc_rack.rack.Rack.operate
	cmpb	$0, 272(%rsp)
	je	859f
	movb	$14, %dl
12:
	movq	8(%rsp), %rdi
	pxor	%xmm0, %xmm0
	movdqu	%xmm0, 140(%rsp)
	movdqa	%xmm0, 128(%rsp)
	movdqa	%xmm0, 160(%rsp)
	movdqa	%xmm0, 176(%rsp)
	movb	$1, %sil
	xorl	%ecx, %ecx
	xorl	%eax, %eax
	jmp	394f
859:
	movq	280(%rsp), %xmm0
	movzwl	282(%rsp), %eax
	movups	284(%rsp), %xmm1
	movaps	%xmm1, 96(%rsp)
	movups	296(%rsp), %xmm1
	movups	%xmm1, 108(%rsp)
	movq	8(%rsp), %rdi
	movups	108(%rsp), %xmm1
	movups	%xmm1, 252(%rsp)
	movaps	96(%rsp), %xmm1
	movaps	%xmm1, 240(%rsp)
	movups	252(%rsp), %xmm1
	movups	%xmm1, 284(%rsp)
	movaps	240(%rsp), %xmm1
	movaps	%xmm1, 272(%rsp)
	movb	$1, %cl
464:
	movups	284(%rsp), %xmm1
	movups	%xmm1, 220(%rsp)
	movaps	272(%rsp), %xmm1
	movaps	%xmm1, 208(%rsp)
	movaps	208(%rsp), %xmm1
	movaps	%xmm1, 128(%rsp)
	movups	220(%rsp), %xmm1
	movups	%xmm1, 140(%rsp)
	xorps	%xmm1, %xmm1
	movaps	%xmm1, 160(%rsp)
	movaps	%xmm1, 176(%rsp)
	xorl	%esi, %esi
	xorl	%edx, %edx
394:
	movb	%sil, (%rdi)
	movb	%dl, 1(%rdi)
	movb	%cl, 8(%rdi)
	movb	$0, 9(%rdi)
	movw	$0, 10(%rdi)
	movd	%xmm0, %ecx
	movb	%cl, 16(%rdi)
	movb	%ch, 17(%rdi)
	movw	%ax, 18(%rdi)
	movaps	128(%rsp), %xmm0
	movups	%xmm0, 20(%rdi)
	movups	140(%rsp), %xmm0
	movups	%xmm0, 32(%rdi)
	movaps	160(%rsp), %xmm0
	movaps	176(%rsp), %xmm1
	movups	%xmm0, 48(%rdi)
	movups	%xmm1, 64(%rdi)
	addq	$2328, %rsp
	popq	%rbx
	popq	%r12
	popq	%r13
	popq	%r14
	popq	%r15
	popq	%rbp
	retq
638:
	movq	%r14, 40(%rsp)
	movq	%rbx, 48(%rsp)
	movq	%r12, 56(%rsp)
	movq	$0, 64(%rsp)
	movq	%rbp, 72(%rsp)
	movdqu	%xmm0, 80(%rsp)
	movq	24(%rsi), %r15
	testq	%r15, %r15
	je	859f
	movq	16(%rsi), %rax
	movq	%r15, %rcx
	.p2align	4
802:
	cmpb	%r14b, (%rax)
	je	394f
	addq	$56, %rax
	decq	%rcx
	jne	802b
859:
	movq	%rsi, %r13
	leaq	40(%rsp), %rdi
	callq	tc_queues.settings.Settings.check
	testb	%al, %al
	je	669f
	movzbl	%dl, %eax
	leaq	.Lswitch.table.tc_live.receiver.Receiver.perform_passed(%rip), %rcx
	movzbl	(%rax,%rcx), %edx
	jmp	12b
981:
	movl	%ecx, %eax
	shrl	$16, %eax
	testw	%r13w, %r13w
	je	471f
	movb	$16, %dl
	cmpb	$63, %cl
	ja	12b
	leaq	-16(%r14), %r15
	movq	-16(%r14), %rsi
	movq	-8(%r14), %rdi
	leaq	-8(%r14), %rcx
	xorl	%r8d, %r8d
972:
	cmpq	%r8, %rdi
	je	147f
	movb	$17, %dl
	movq	32(%rsp), %r9
	cmpb	%r9b, (%rsi,%r8,4)
	leaq	1(%r8), %r8
	jne	972b
	jmp	12b
394:
	movb	$6, %dl
	jmp	12b
669:
	leaq	272(%rsp), %rdi
	movl	$2047, %edx
	xorl	%esi, %esi
	callq	memset@PLT
	testq	%r12, %r12
	movq	%r13, %rax
	je	271f
	movl	%r12d, %ecx
	andl	$3, %ecx
	cmpq	$4, %r12
	jae	586f
	xorl	%edx, %edx
	jmp	669f
648:
	movq	%rsi, %r14
	addq	$8, %rsi
	leaq	4(%rsp), %rdi
	callq	tc_rack.performing.begin_anew._ecad586609b5e68f
	testb	%al, %al
	jne	12b
	movq	%r14, %rsi
	cmpb	$1, 8(%r14)
	je	850b
	jmp	214f
961:
	movq	%rsi, %r15
	addq	$8, %rsi
	leaq	4(%rsp), %rdi
	callq	tc_rack.performing.begin_anew._ecad586609b5e68f
	testb	%al, %al
	je	961f
	testq	%r12, %r12
	je	12b
	movq	%r14, %rdi
	movl	%edx, %ebp
	callq	rattle_dealloc@PLT
	movl	%ebp, %edx
	jmp	12b
678:
	movq	%rsi, %r14
	addq	$8, %rsi
	leaq	4(%rsp), %rdi
	callq	tc_rack.performing.begin_anew._ecad586609b5e68f
	testb	%al, %al
	jne	12b
	movq	%r14, %rsi
	cmpb	$1, 8(%r14)
	je	793b
	jmp	214f
966:
	movq	%rsi, %r14
	addq	$8, %rsi
	leaq	4(%rsp), %rdi
	callq	tc_rack.performing.begin_anew._ecad586609b5e68f
	testb	%al, %al
	jne	12b
	movq	%r14, %rsi
	cmpb	$1, 8(%r14)
	je	362b
	jmp	214f
771:
	movq	%rsi, %r14
	addq	$8, %rsi
	leaq	4(%rsp), %rdi
	callq	tc_rack.performing.begin_anew._ecad586609b5e68f
	testb	%al, %al
	jne	12b
	movq	%r14, %rsi
	cmpb	$1, 8(%r14)
	je	757b
	jmp	214f
471:
	movzwl	%cx, %ecx
	movb	$11, %dl
	cmpl	$2046, %ecx
	ja	12b
	movq	40(%rsi), %r12
	movb	$12, %dl
	cmpb	$0, (%r12,%r15)
	jne	12b
	decl	%eax
	movzwl	%ax, %eax
	movb	$13, %dl
	cmpl	$255, %eax
	ja	12b
	leaq	-40(%r14), %r13
	movq	-24(%r14), %rax
	movq	%rax, 288(%rsp)
	movups	-40(%r14), %xmm0
	movaps	%xmm0, 272(%rsp)
	leaq	6(%rsp), %rax
	movq	%rax, -40(%r14)
	xorps	%xmm0, %xmm0
	movups	%xmm0, -32(%r14)
	movq	280(%rsp), %rax
	cmpq	%rax, 288(%rsp)
	je	740f
859:
	movq	272(%rsp), %rcx
	movq	32(%rsp), %rdx
	movl	%edx, (%rcx,%rax,4)
	incq	%rax
	movq	%rax, 280(%rsp)
	movb	$1, %bpl
	xorl	%edx, %edx
638:
	movq	-40(%r14), %rdi
	cmpq	$0, -24(%r14)
	movq	288(%rsp), %rax
	movq	%rax, 16(%r13)
	movdqa	272(%rsp), %xmm0
	movdqu	%xmm0, (%r13)
	je	1f
	movl	%edx, %r14d
	callq	rattle_dealloc@PLT
	movl	%r14d, %edx
1:
	testb	%bpl, %bpl
	je	12b
	movb	$1, (%r12,%r15)
	jmp	483b
586:
	movq	%r12, %rsi
	andq	$-4, %rsi
	xorl	%edx, %edx
471:
	movzwl	(%rbx,%rdx,4), %edi
	movb	$1, 272(%rsp,%rdi)
	movzwl	4(%rbx,%rdx,4), %edi
	movb	$1, 272(%rsp,%rdi)
	movzwl	8(%rbx,%rdx,4), %edi
	movb	$1, 272(%rsp,%rdi)
	movzwl	12(%rbx,%rdx,4), %edi
	movb	$1, 272(%rsp,%rdi)
	addq	$4, %rdx
	cmpq	%rdx, %rsi
	jne	471b
	testq	%rcx, %rcx
	je	271f
669:
	leaq	(%rbx,%rdx,4), %rdx
	xorl	%esi, %esi
471:
	movzwl	(%rdx,%rsi,4), %edi
	movb	$1, 272(%rsp,%rdi)
	incq	%rsi
	cmpq	%rsi, %rcx
	jne	471b
271:
	movq	56(%rax), %rcx
	cmpq	48(%rax), %rcx
	je	669f
	cmpq	%r15, 32(%rax)
	je	219f
648:
	movq	16(%rax), %rcx
	imulq	$56, %r15, %rdx
	movq	%r14, (%rcx,%rdx)
	movq	%rbx, 8(%rcx,%rdx)
	movq	%r12, 16(%rcx,%rdx)
	movq	$0, 24(%rcx,%rdx)
	movq	%rbp, 32(%rcx,%rdx)
	incq	%r15
	pxor	%xmm0, %xmm0
	movdqu	%xmm0, 40(%rcx,%rdx)
	movq	%r15, 24(%rax)
	movq	48(%rax), %r14
	movq	%r14, %rdi
	shlq	$11, %rdi
	subq	%r14, %rdi
	addq	40(%rax), %rdi
	leaq	272(%rsp), %rsi
	movl	$2047, %edx
	movq	%rax, %r15
	callq	memcpy@PLT
	incq	%r14
	movq	%r14, 48(%r15)
	jmp	483b
961:
	movq	%r15, %rsi
	cmpb	$1, 8(%r15)
	je	880b
214:
	ud2
147:
	addl	$-257, %eax
	movzwl	%ax, %eax
	movb	$18, %dl
	cmpl	$65280, %eax
	jb	12b
	cmpb	$0, -44(%r14)
	je	394f
	movq	16(%r15), %rax
	movq	%rax, 288(%rsp)
	movups	(%r15), %xmm0
	movaps	%xmm0, 272(%rsp)
	leaq	6(%rsp), %rax
	movq	%rax, (%r15)
	xorps	%xmm0, %xmm0
	movups	%xmm0, (%rcx)
	movq	280(%rsp), %rax
	cmpq	%rax, 288(%rsp)
	je	949f
961:
	movq	272(%rsp), %rcx
	movq	32(%rsp), %rbp
	andl	$-65473, %ebp
	movl	%ebp, (%rcx,%rax,4)
	incq	%rax
	movq	%rax, 280(%rsp)
	movb	$1, %bpl
	xorl	%edx, %edx
678:
	movq	-16(%r14), %rdi
	cmpq	$0, (%r14)
	movq	288(%rsp), %rax
	movq	%rax, 16(%r15)
	movdqa	272(%rsp), %xmm0
	movdqu	%xmm0, (%r15)
	je	1f
	movl	%edx, %r14d
	callq	rattle_dealloc@PLT
	movl	%r14d, %edx
1:
	testb	%bpl, %bpl
	jne	483b
	jmp	12b
669:
	leaq	40(%rax), %rdi
	movl	$1, %esi
	callq	std_alloc.vec.Vec.grow_amortized._e8050a8d87fd3d72
	movb	$14, %dl
	testb	%al, %al
	je	12b
	movq	%r13, %rax
	movq	24(%r13), %r15
	cmpq	%r15, 32(%rax)
	jne	648b
219:
	leaq	16(%rax), %rdi
	callq	std_alloc.vec.Vec.grow_amortized._86fda0a74623eac7
	movb	$14, %dl
	testb	%al, %al
	je	12b
	movq	%r13, %rax
	movq	24(%r13), %r15
	jmp	648b
394:
	movb	$19, %dl
	jmp	12b
949:
	leaq	272(%rsp), %rdi
	movl	$1, %esi
	callq	std_alloc.vec.Vec.grow_amortized._99db8fdb6e2b1b0d
	testb	%al, %al
	je	394f
	movq	280(%rsp), %rax
	jmp	961b
740:
	leaq	272(%rsp), %rdi
	movl	$1, %esi
	callq	std_alloc.vec.Vec.grow_amortized._abe61ad959348920
	testb	%al, %al
	je	668f
	movq	280(%rsp), %rax
	jmp	859b
394:
	movb	$14, %dl
	xorl	%ebp, %ebp
	jmp	678b
668:
	movb	$14, %dl
	xorl	%ebp, %ebp
	jmp	638b
	.section	.rodata.tc_live.receiver.Receiver.perform_passed,"a",@progbits
	.p2align	2
.LJ477af39e_0:
	.long	928b-.LJ477af39e_0
	.long	327b-.LJ477af39e_0
	.long	890b-.LJ477af39e_0
	.long	523b-.LJ477af39e_0
	.long	14b-.LJ477af39e_0
	.long	289b-.LJ477af39e_0
	.long	186b-.LJ477af39e_0
	.long	83b-.LJ477af39e_0
	.long	409b-.LJ477af39e_0
.LJ477af39e_1:
	.long	483b-.LJ477af39e_1
	.long	212b-.LJ477af39e_1
	.long	969b-.LJ477af39e_1
	.long	198b-.LJ477af39e_1
	.long	868b-.LJ477af39e_1
	.long	111b-.LJ477af39e_1
	.long	875b-.LJ477af39e_1
	.long	203b-.LJ477af39e_1
	.section	.text.tc_queues.settings.Settings.check,"ax",@progbits
	.p2align	4
tc_queues.settings.Settings.check:
	cmpb	$63, (%rdi)
	ja	409f
	movzbl	1(%rdi), %ecx
	leal	-2(%rcx), %eax
	cmpb	$-3, %al
	setae	%dl
	movb	$1, %al
	orb	%cl, %dl
	testb	$1, %dl
	jne	969f
	movzbl	2(%rdi), %ecx
	addb	$-65, %cl
	movb	$2, %dl
	cmpb	$-64, %cl
	jb	5f
	pushq	%r15
	pushq	%r14
	pushq	%r13
	pushq	%r12
	pushq	%rbx
	subq	$2048, %rsp
	movzbl	4(%rdi), %ebx
	movq	8(%rdi), %r12
	movq	16(%rdi), %r13
	movq	32(%rdi), %r15
	movq	40(%rdi), %r14
	xorl	%ecx, %ecx
	.p2align	4
972:
	cmpq	%rcx, %r13
	je	669f
	cmpw	$2047, (%r12,%rcx,4)
	leaq	1(%rcx), %rcx
	jb	972b
	movb	$3, %dl
	jmp	850f
409:
	movb	$1, %al
	xorl	%edx, %edx
5:
	retq
969:
	movb	$1, %dl
	retq
669:
	leaq	1(%rsp), %rdi
	movl	$2047, %edx
	xorl	%esi, %esi
	callq	memset@PLT
	testq	%r13, %r13
	je	409f
	xorl	%ecx, %ecx
	movb	$1, %al
	.p2align	4
471:
	movzwl	(%r12,%rcx,4), %edx
	cmpb	$0, 1(%rsp,%rdx)
	jne	969f
	movb	$1, 1(%rsp,%rdx)
	incq	%rcx
	cmpq	%rcx, %r13
	jne	471b
	jmp	890f
409:
	movb	$1, %al
890:
	xorl	%ecx, %ecx
	.p2align	4
972:
	cmpq	%rcx, %r13
	je	890f
	movzwl	2(%r12,%rcx,4), %edx
	decl	%edx
	movzwl	%dx, %esi
	incq	%rcx
	movb	$5, %dl
	cmpl	$256, %esi
	jb	972b
	jmp	850f
890:
	xorl	%ecx, %ecx
	.p2align	4
972:
	cmpq	%rcx, %r14
	je	211f
	cmpb	$64, (%r15,%rcx,4)
	leaq	1(%rcx), %rcx
	movb	$6, %dl
	jb	972b
	jmp	850f
969:
	movb	$4, %dl
850:
	addq	$2048, %rsp
	popq	%rbx
	popq	%r12
	popq	%r13
	popq	%r14
	popq	%r15
	retq
211:
	testq	%r14, %r14
	je	890f
	xorl	%ecx, %ecx
548:
	movzbl	(%r15,%rcx,4), %esi
	xorl	%edi, %edi
	.p2align	4
972:
	cmpq	%rdi, %rcx
	je	629f
	movb	$7, %dl
	cmpb	%sil, (%r15,%rdi,4)
	leaq	1(%rdi), %rdi
	jne	972b
	jmp	850b
629:
	incq	%rcx
	cmpq	%r14, %rcx
	jne	548b
890:
	xorl	%ecx, %ecx
972:
	cmpq	%rcx, %r14
	je	211f
	movzwl	2(%r15,%rcx,4), %edx
	decl	%edx
	movzwl	%dx, %esi
	incq	%rcx
	movb	$8, %dl
	cmpl	$256, %esi
	jb	972b
	jmp	850b
211:
	testq	%r14, %r14
	sete	%al
	xorl	%ecx, %ecx
	orb	%bl, %al
	sete	%cl
	leal	(%rcx,%rcx,8), %edx
	xorb	$1, %al
	jmp	850b
	.section	.text.unlikely.std_alloc.vec.Vec.grow_amortized._e8050a8d87fd3d72,"ax",@progbits
	.p2align	4
std_alloc.vec.Vec.grow_amortized._e8050a8d87fd3d72:
	movq	8(%rdi), %rcx
	movq	%rcx, %rax
	addq	%rsi, %rax
	jb	890f
	movq	16(%rdi), %rdx
	cmpq	$1, %rax
	adcq	%rcx, %rsi
	movq	%rdx, %r8
	shrq	$62, %r8
	leaq	(%rdx,%rdx), %rax
	cmpq	%rax, %rsi
	cmovaq	%rsi, %rax
	testq	%r8, %r8
	cmoveq	%rax, %rsi
	movabsq	$4505799724892416, %r8
	cmpq	%r8, %rsi
	ja	890f
	pushq	%r14
	pushq	%rbx
	pushq	%rax
	testq	%rdx, %rdx
	je	859f
	movq	%rdi, %rbx
	movq	(%rdi), %rdi
	movq	%rcx, %rax
	shlq	$11, %rax
	subq	%rcx, %rax
	movq	%rsi, %rdx
	shlq	$11, %rdx
	movq	%rsi, %r14
	subq	%rsi, %rdx
	movl	$1, %ecx
	movq	%rax, %rsi
	callq	rattle_realloc@PLT
	testb	$1, %al
	je	83f
928:
	movq	%rdx, (%rbx)
	movq	%r14, 16(%rbx)
	movb	$1, %al
	addq	$8, %rsp
	popq	%rbx
	popq	%r14
	retq
890:
	xorl	%eax, %eax
	retq
859:
	movq	%rdi, %rbx
	movq	%rsi, %r14
	movq	%rax, %rdi
	shlq	$11, %rdi
	subq	%rax, %rdi
	movl	$1, %esi
	callq	rattle_alloc@PLT
	testb	$1, %al
	jne	928b
83:
	xorl	%eax, %eax
	addq	$8, %rsp
	popq	%rbx
	popq	%r14
	retq
	.section	.text.unlikely.std_alloc.vec.Vec.grow_amortized._86fda0a74623eac7,"ax",@progbits
	.p2align	4
std_alloc.vec.Vec.grow_amortized._86fda0a74623eac7:
	movq	8(%rdi), %rax
	cmpq	$-1, %rax
	je	890f
	pushq	%r14
	pushq	%rbx
	pushq	%rax
	movq	16(%rdi), %rcx
	cmpq	$4, %rax
	movl	$3, %ebx
	cmovaeq	%rax, %rbx
	incq	%rbx
	movq	%rcx, %rsi
	shrq	$62, %rsi
	leaq	(%rcx,%rcx), %rdx
	cmpq	%rdx, %rbx
	cmovaq	%rbx, %rdx
	testq	%rsi, %rsi
	cmoveq	%rdx, %rbx
	movabsq	$164703072086692425, %rsi
	cmpq	%rsi, %rbx
	ja	83f
	testq	%rcx, %rcx
	je	859f
	movq	%rdi, %r14
	movq	(%rdi), %rdi
	imulq	$56, %rax, %rsi
	imulq	$56, %rbx, %rdx
	movl	$8, %ecx
	callq	rattle_realloc@PLT
	testb	$1, %al
	je	83f
928:
	movq	%rdx, (%r14)
	movq	%rbx, 16(%r14)
	movb	$1, %al
	addq	$8, %rsp
	popq	%rbx
	popq	%r14
	retq
890:
	xorl	%eax, %eax
	retq
859:
	movq	%rdi, %r14
	imulq	$56, %rdx, %rdi
	movl	$8, %esi
	callq	rattle_alloc@PLT
	testb	$1, %al
	jne	928b
83:
	xorl	%eax, %eax
	addq	$8, %rsp
	popq	%rbx
	popq	%r14
	retq
	.section	.text.unlikely.std_alloc.vec.Vec.grow_amortized._abe61ad959348920,"ax",@progbits
	.p2align	4
std_alloc.vec.Vec.grow_amortized._abe61ad959348920:
	movq	%rsi, %rax
	movq	8(%rdi), %rsi
	addq	%rsi, %rax
	jae	253f
	xorl	%eax, %eax
	retq
253:
	pushq	%r14
	pushq	%rbx
	pushq	%rax
	movq	16(%rdi), %rcx
	cmpq	$5, %rax
	movl	$4, %ebx
	cmovaeq	%rax, %rbx
	movq	%rcx, %rdx
	shrq	$62, %rdx
	leaq	(%rcx,%rcx), %rax
	cmpq	%rax, %rbx
	cmovaq	%rbx, %rax
	testq	%rdx, %rdx
	cmoveq	%rax, %rbx
	movq	%rbx, %rdx
	shrq	$61, %rdx
	jne	890f
	testq	%rcx, %rcx
	je	859f
	movq	%rdi, %r14
	movq	(%rdi), %rdi
	shlq	$2, %rsi
	leaq	(,%rbx,4), %rdx
	movl	$2, %ecx
	callq	rattle_realloc@PLT
	testb	$1, %al
	je	890f
928:
	movq	%rdx, (%r14)
	movq	%rbx, 16(%r14)
	movb	$1, %al
	addq	$8, %rsp
	popq	%rbx
	popq	%r14
	retq
859:
	movq	%rdi, %r14
	shlq	$2, %rax
	movl	$2, %esi
	movq	%rax, %rdi
	callq	rattle_alloc@PLT
	testb	$1, %al
	jne	928b
890:
	xorl	%eax, %eax
	addq	$8, %rsp
	popq	%rbx
	popq	%r14
	retq
	.section	.text.unlikely.std_alloc.vec.Vec.grow_amortized._99db8fdb6e2b1b0d,"ax",@progbits
	.p2align	4
std_alloc.vec.Vec.grow_amortized._99db8fdb6e2b1b0d:
	movq	%rsi, %rax
	movq	8(%rdi), %rsi
	addq	%rsi, %rax
	jae	253f
	xorl	%eax, %eax
	retq
253:
	pushq	%r14
	pushq	%rbx
	pushq	%rax
	movq	16(%rdi), %rcx
	cmpq	$5, %rax
	movl	$4, %ebx
	cmovaeq	%rax, %rbx
	movq	%rcx, %rdx
	shrq	$62, %rdx
	leaq	(%rcx,%rcx), %rax
	cmpq	%rax, %rbx
	cmovaq	%rbx, %rax
	testq	%rdx, %rdx
	cmoveq	%rax, %rbx
	movq	%rbx, %rdx
	shrq	$61, %rdx
	jne	890f
	testq	%rcx, %rcx
	je	859f
	movq	%rdi, %r14
	movq	(%rdi), %rdi
	shlq	$2, %rsi
	leaq	(,%rbx,4), %rdx
	movl	$2, %ecx
	callq	rattle_realloc@PLT
	testb	$1, %al
	je	890f
928:
	movq	%rdx, (%r14)
	movq	%rbx, 16(%r14)
	movb	$1, %al
	addq	$8, %rsp
	popq	%rbx
	popq	%r14
	retq
859:
	movq	%rdi, %r14
	shlq	$2, %rax
	movl	$2, %esi
	movq	%rax, %rdi
	callq	rattle_alloc@PLT
	testb	$1, %al
	jne	928b
890:
	xorl	%eax, %eax
	addq	$8, %rsp
	popq	%rbx
	popq	%r14
	retq
	.section	.text.unlikely.tc_rack.performing.begin_anew._ecad586609b5e68f,"ax",@progbits
	.p2align	4
tc_rack.performing.begin_anew._ecad586609b5e68f:
	pushq	%rbp
	pushq	%r15
	pushq	%r14
	pushq	%r13
	pushq	%r12
	pushq	%rbx
	subq	$472, %rsp
	xorps	%xmm0, %xmm0
	movaps	%xmm0, 176(%rsp)
	movaps	%xmm0, 160(%rsp)
	movq	$0, 190(%rsp)
	movaps	%xmm0, 112(%rsp)
	movaps	%xmm0, 128(%rsp)
	movaps	%xmm0, 144(%rsp)
	cmpb	$1, (%rsi)
	jne	928f
890:
	xorl	%edx, %edx
	xorl	%eax, %eax
	jmp	880f
928:
	movq	16(%rsi), %rbp
	testq	%rbp, %rbp
	je	678f
	movb	$1, %al
	movb	$14, %dl
	movabsq	$164703072086692425, %rcx
	cmpq	%rcx, %rbp
	ja	880f
	movq	%rdi, %r14
	movq	%rsi, %rbx
	movq	8(%rsi), %r15
	imulq	$56, %rbp, %rdi
	movl	$8, %esi
	callq	rattle_alloc@PLT
	movq	%rdx, 8(%rsp)
	testb	$1, %al
	je	969f
	movq	%r14, 24(%rsp)
	movq	%rbx, 40(%rsp)
	xorl	%eax, %eax
	movq	%rbp, 56(%rsp)
	movq	%r15, 48(%rsp)
	jmp	12f
	.p2align	4
928:
	movq	%rsp, %r13
	xorl	%r15d, %r15d
859:
	movq	%r13, %rdi
	movq	%rbp, %rsi
	movq	%r15, %rdx
	callq	memmove@PLT
	movq	48(%rsp), %r15
548:
	movzbl	4(%r15,%r14), %eax
	movl	(%r15,%r14), %ecx
	movq	8(%rsp), %rdx
	movl	%ecx, (%rdx,%r14)
	movb	%al, 4(%rdx,%r14)
	movw	$0, 5(%rdx,%r14)
	movb	$0, 7(%rdx,%r14)
	movq	%r12, 8(%rdx,%r14)
	movq	32(%rsp), %rax
	movq	%rax, 16(%rdx,%r14)
	movq	%rax, 24(%rdx,%r14)
	movq	%r13, 32(%rdx,%r14)
	movq	%rbx, 40(%rdx,%r14)
	movq	%rbx, 48(%rdx,%r14)
	movq	16(%rsp), %rax
	incq	%rax
	movq	56(%rsp), %rbp
	cmpq	%rbp, %rax
	je	771f
12:
	movq	%rax, 16(%rsp)
	imulq	$56, %rax, %r14
	movq	8(%r15,%r14), %r13
	movq	16(%r15,%r14), %rbx
	testq	%rbx, %rbx
	movq	%rbx, 32(%rsp)
	je	638f
	movabsq	$2305843009213693944, %rax
	addq	$8, %rax
	cmpq	%rax, %rbx
	jae	966f
	leaq	(,%rbx,4), %rbp
	movl	$2, %esi
	movq	%rbp, %rdi
	callq	rattle_alloc@PLT
	testb	$1, %al
	je	966f
	movq	%rdx, %r12
	movq	%rdx, %rax
	subq	%r13, %rax
	cmpq	%rbp, %rax
	jae	648f
	xorl	%eax, %eax
	cmpq	$8, %rbx
	jb	12f
	movq	%r12, %rcx
	subq	%r13, %rcx
	cmpq	$32, %rcx
	jb	12f
	movq	%rbx, %rax
	movabsq	$2305843009213693944, %rcx
	andq	%rcx, %rax
	leaq	(,%rbx,4), %rdx
	movabsq	$9223372036854775776, %rcx
	andq	%rdx, %rcx
	xorl	%edx, %edx
	.p2align	4
464:
	movups	(%r13,%rdx), %xmm0
	movups	16(%r13,%rdx), %xmm1
	movups	%xmm0, (%r12,%rdx)
	movups	%xmm1, 16(%r12,%rdx)
	addq	$32, %rdx
	cmpq	%rdx, %rcx
	jne	464b
	cmpq	%rax, %rbx
	je	961f
12:
	movq	%rbx, %rdx
	movq	%rax, %rcx
	andq	$3, %rdx
	je	980f
	movq	%rax, %rcx
	.p2align	4
327:
	movl	(%r13,%rcx,4), %esi
	movl	%esi, (%r12,%rcx,4)
	incq	%rcx
	decq	%rdx
	jne	327b
980:
	subq	%rbx, %rax
	cmpq	$-4, %rax
	ja	961f
	.p2align	4
327:
	movl	(%r13,%rcx,4), %eax
	movl	%eax, (%r12,%rcx,4)
	movl	4(%r13,%rcx,4), %eax
	movl	%eax, 4(%r12,%rcx,4)
	movl	8(%r13,%rcx,4), %eax
	movl	%eax, 8(%r12,%rcx,4)
	movl	12(%r13,%rcx,4), %eax
	movl	%eax, 12(%r12,%rcx,4)
	addq	$4, %rcx
	cmpq	%rcx, %rbx
	jne	327b
	jmp	961f
	.p2align	4
638:
	movq	%rsp, %r12
	xorl	%ebp, %ebp
648:
	movq	%r12, %rdi
	movq	%r13, %rsi
	movq	%rbp, %rdx
	callq	memmove@PLT
961:
	movq	32(%r15,%r14), %rbp
	movq	40(%r15,%r14), %rbx
	testq	%rbx, %rbx
	je	928b
	movabsq	$2305843009213693944, %rax
	addq	$8, %rax
	cmpq	%rax, %rbx
	jae	972f
	leaq	(,%rbx,4), %r15
	movl	$2, %esi
	movq	%r15, %rdi
	callq	rattle_alloc@PLT
	testb	$1, %al
	je	972f
	movq	%rdx, %r13
	movq	%rdx, %rax
	subq	%rbp, %rax
	cmpq	%r15, %rax
	jae	859b
	xorl	%eax, %eax
	cmpq	$8, %rbx
	jb	928f
	movq	%r13, %rcx
	subq	%rbp, %rcx
	cmpq	$32, %rcx
	movq	48(%rsp), %r15
	jb	859f
	movq	%rbx, %rax
	movabsq	$2305843009213693944, %rcx
	andq	%rcx, %rax
	leaq	(,%rbx,4), %rdx
	movabsq	$9223372036854775776, %rcx
	andq	%rdx, %rcx
	xorl	%edx, %edx
	.p2align	4
464:
	movups	(%rbp,%rdx), %xmm0
	movups	16(%rbp,%rdx), %xmm1
	movups	%xmm0, (%r13,%rdx)
	movups	%xmm1, 16(%r13,%rdx)
	addq	$32, %rdx
	cmpq	%rdx, %rcx
	jne	464b
	cmpq	%rax, %rbx
	je	548b
	jmp	859f
928:
	movq	48(%rsp), %r15
859:
	movq	%rbx, %rdx
	movq	%rax, %rcx
	andq	$3, %rdx
	je	980f
	movq	%rax, %rcx
	.p2align	4
327:
	movl	(%rbp,%rcx,4), %esi
	movl	%esi, (%r13,%rcx,4)
	incq	%rcx
	decq	%rdx
	jne	327b
980:
	subq	%rbx, %rax
	cmpq	$-4, %rax
	ja	548b
	.p2align	4
327:
	movl	(%rbp,%rcx,4), %eax
	movl	%eax, (%r13,%rcx,4)
	movl	4(%rbp,%rcx,4), %eax
	movl	%eax, 4(%r13,%rcx,4)
	movl	8(%rbp,%rcx,4), %eax
	movl	%eax, 8(%r13,%rcx,4)
	movl	12(%rbp,%rcx,4), %eax
	movl	%eax, 12(%r13,%rcx,4)
	addq	$4, %rcx
	cmpq	%rcx, %rbx
	jne	327b
	jmp	548b
678:
	movq	%rsp, %rax
	movq	%rax, 8(%rsp)
	movq	40(%rsi), %rbx
	testq	%rbx, %rbx
	je	231f
928:
	movq	%rdi, 24(%rsp)
	movabsq	$4505799724892416, %rax
	cmpq	%rax, %rbx
	ja	409f
	movq	32(%rsi), %r13
	movq	%rbx, %r15
	shlq	$11, %r15
	subq	%rbx, %r15
	movq	%rsi, %r14
	movl	$1, %esi
	movq	%r15, %rdi
	callq	rattle_alloc@PLT
	testb	$1, %al
	je	409f
	movq	%rdx, %r12
	movq	%rdx, %rax
	subq	%r13, %rax
	cmpq	%r15, %rax
	jae	928f
	movq	%rbp, 56(%rsp)
	movq	%r14, 40(%rsp)
	movl	%ebx, %eax
	andl	$7, %eax
	cmpq	$8, %rbx
	jae	638f
	xorl	%r15d, %r15d
	jmp	648f
409:
	movb	$1, %al
	movb	$14, %dl
	testq	%rbp, %rbp
	je	880f
	movq	8(%rsp), %rax
	leaq	48(%rax), %rbx
	jmp	859f
	.p2align	4
850:
	addq	$56, %rbx
	decq	%rbp
	je	12f
859:
	movq	-16(%rbx), %r14
	movq	(%rbx), %r15
	cmpq	$0, -24(%rbx)
	je	211f
	movq	-40(%rbx), %rdi
	callq	rattle_dealloc@PLT
211:
	testq	%r15, %r15
	je	850b
	movq	%r14, %rdi
	callq	rattle_dealloc@PLT
	jmp	850b
972:
	cmpq	$0, 32(%rsp)
	je	966f
	movq	%r12, %rdi
	callq	rattle_dealloc@PLT
966:
	movq	16(%rsp), %r12
	testq	%r12, %r12
	je	12f
	movq	8(%rsp), %rax
	leaq	48(%rax), %rbx
	jmp	859f
	.p2align	4
850:
	addq	$56, %rbx
	decq	%r12
	je	12f
859:
	movq	-16(%rbx), %r14
	movq	(%rbx), %r15
	cmpq	$0, -24(%rbx)
	je	211f
	movq	-40(%rbx), %rdi
	callq	rattle_dealloc@PLT
211:
	testq	%r15, %r15
	je	850b
	movq	%r14, %rdi
	callq	rattle_dealloc@PLT
	jmp	850b
12:
	movq	8(%rsp), %rdi
	callq	rattle_dealloc@PLT
969:
	movb	$14, %dl
	movb	$1, %al
880:
	addq	$472, %rsp
	popq	%rbx
	popq	%r12
	popq	%r13
	popq	%r14
	popq	%r15
	popq	%rbp
	retq
771:
	movq	40(%rsp), %rsi
	movq	24(%rsp), %rdi
	movq	40(%rsi), %rbx
	testq	%rbx, %rbx
	jne	928b
231:
	xorps	%xmm0, %xmm0
	movaps	%xmm0, 64(%rsp)
	movaps	%xmm0, 80(%rsp)
	movq	$0, 96(%rsp)
	testq	%rbp, %rbp
	je	409f
	movq	%rsi, %r14
	movq	%rsp, %r12
	jmp	471f
928:
	movq	%r12, %rdi
	movq	%r13, %rsi
	movq	%r15, %rdx
	callq	memmove@PLT
	xorps	%xmm0, %xmm0
	movaps	%xmm0, 64(%rsp)
	movaps	%xmm0, 80(%rsp)
	movq	$0, 96(%rsp)
	testq	%rbp, %rbp
	jne	859f
928:
	movq	%r12, %rdi
	callq	rattle_dealloc@PLT
409:
	movb	$1, %al
	movb	$5, %dl
	jmp	880b
638:
	movq	%rax, 16(%rsp)
	movabsq	$9007199254740984, %rbp
	andq	%rbx, %rbp
	xorl	%r15d, %r15d
	xorl	%r14d, %r14d
	.p2align	4
669:
	leaq	(%r12,%r14), %rdi
	leaq	(%r14,%r13), %rsi
	movl	$2047, %edx
	callq	memmove@PLT
	leaq	(%r12,%r14), %rdi
	addq	$2047, %rdi
	leaq	(%r14,%r13), %rsi
	addq	$2047, %rsi
	movl	$2047, %edx
	callq	memmove@PLT
	leaq	(%r12,%r14), %rdi
	addq	$4094, %rdi
	leaq	(%r14,%r13), %rsi
	addq	$4094, %rsi
	movl	$2047, %edx
	callq	memmove@PLT
	leaq	(%r12,%r14), %rdi
	addq	$6141, %rdi
	leaq	(%r14,%r13), %rsi
	addq	$6141, %rsi
	movl	$2047, %edx
	callq	memmove@PLT
	leaq	(%r12,%r14), %rdi
	addq	$8188, %rdi
	leaq	(%r14,%r13), %rsi
	addq	$8188, %rsi
	movl	$2047, %edx
	callq	memmove@PLT
	leaq	(%r12,%r14), %rdi
	addq	$10235, %rdi
	leaq	(%r14,%r13), %rsi
	addq	$10235, %rsi
	movl	$2047, %edx
	callq	memmove@PLT
	leaq	(%r12,%r14), %rdi
	addq	$12282, %rdi
	leaq	(%r14,%r13), %rsi
	addq	$12282, %rsi
	movl	$2047, %edx
	callq	memmove@PLT
	leaq	(%r12,%r14), %rdi
	addq	$14329, %rdi
	leaq	(%r14,%r13), %rsi
	addq	$14329, %rsi
	movl	$2047, %edx
	callq	memmove@PLT
	addq	$8, %r15
	addq	$16376, %r14
	cmpq	%r15, %rbp
	jne	669b
	movq	16(%rsp), %rax
	testq	%rax, %rax
	je	231f
648:
	movq	%r15, %r14
	shlq	$11, %r14
	subq	%r15, %r14
	addq	%r14, %r13
	addq	%r12, %r14
	movl	%eax, %r15d
	shll	$11, %r15d
	subq	%rax, %r15
	xorl	%ebp, %ebp
	.p2align	4
669:
	leaq	(%r14,%rbp), %rdi
	movq	%r13, %rsi
	addq	%rbp, %rsi
	movl	$2047, %edx
	callq	memmove@PLT
	addq	$2047, %rbp
	cmpq	%rbp, %r15
	jne	669b
231:
	xorps	%xmm0, %xmm0
	movaps	%xmm0, 64(%rsp)
	movaps	%xmm0, 80(%rsp)
	movq	$0, 96(%rsp)
	movq	56(%rsp), %rbp
	testq	%rbp, %rbp
	movq	40(%rsp), %r14
	je	928b
859:
	movq	24(%rsp), %rdi
471:
	movzwl	(%rdi), %esi
	movq	8(%rsp), %rax
	movq	%rax, 208(%rsp)
	movq	%rbp, 216(%rsp)
	movq	%rbp, 224(%rsp)
	movq	%r12, 232(%rsp)
	movq	%rbx, 240(%rsp)
	movq	%rbx, 248(%rsp)
	leaq	64(%rsp), %rdi
	leaq	208(%rsp), %rdx
	callq	tc_rack.rack.Rack.new
	cmpb	$0, 64(%rsp)
	je	669f
	movb	$1, %al
	movb	$14, %dl
	jmp	880b
669:
	leaq	8(%r14), %rax
	movups	72(%rsp), %xmm0
	movups	88(%rsp), %xmm1
	movups	%xmm1, 182(%rsp)
	movups	%xmm0, 166(%rsp)
	movaps	%xmm0, 112(%rsp)
	movaps	%xmm1, 128(%rsp)
	movq	8(%r14), %r12
	movq	16(%r14), %r15
	movq	24(%r14), %r13
	movq	32(%r14), %rbx
	cmpb	$0, (%r14)
	movq	48(%r14), %rcx
	movq	$1, (%r14)
	movaps	112(%rsp), %xmm0
	movaps	128(%rsp), %xmm1
	movaps	144(%rsp), %xmm2
	movups	%xmm2, 32(%rax)
	movups	%xmm1, 16(%rax)
	movups	%xmm0, (%rax)
	je	928f
	testq	%r13, %r13
	je	211f
	movq	%r15, %r14
	.p2align	4
669:
	leaq	208(%rsp), %r12
	movl	$264, %edx
	movq	%r12, %rdi
	movq	%r14, %rsi
	callq	memcpy@PLT
	movq	%r12, %rdi
	callq	tc_live.tc_channel_channel_ChannelWith_Destruct.drop._429e4231f6288bb6
	addq	$272, %r14
	decq	%r13
	jne	669b
211:
	testq	%rbx, %rbx
	je	890b
	movq	%r15, %rdi
	jmp	271f
928:
	movq	%rcx, 32(%rsp)
	movq	%rbx, 16(%rsp)
	testq	%r15, %r15
	je	47f
	leaq	48(%r12), %rbx
	jmp	928f
850:
	addq	$56, %rbx
	decq	%r15
	je	47f
928:
	movq	-16(%rbx), %r14
	movq	(%rbx), %rbp
	cmpq	$0, -24(%rbx)
	je	211f
	movq	-40(%rbx), %rdi
	callq	rattle_dealloc@PLT
211:
	testq	%rbp, %rbp
	je	850b
	movq	%r14, %rdi
	callq	rattle_dealloc@PLT
	jmp	850b
47:
	testq	%r13, %r13
	je	972f
	movq	%r12, %rdi
	callq	rattle_dealloc@PLT
972:
	cmpq	$0, 32(%rsp)
	movq	16(%rsp), %rdi
	je	890b
271:
	callq	rattle_dealloc@PLT
	jmp	890b
	.section	.rodata.cst16,"aM",@progbits,16
	.p2align	4
.LC8e5f428b_0:
	.quad	65542
	.quad	65542
	.section	.text.tc_rack.rack.Rack.new,"ax",@progbits
	.p2align	4
tc_rack.rack.Rack.new:
	pushq	%rbp
	pushq	%r15
	pushq	%r14
	pushq	%r13
	pushq	%r12
	pushq	%rbx
	subq	$936, %rsp
	movl	%esi, %ebp
	movq	%rdi, %r13
	movq	(%rdx), %r15
	movq	8(%rdx), %r12
	movq	16(%rdx), %rbx
	movq	24(%rdx), %rdi
	cmpq	$0, 40(%rdx)
	movw	$0, 108(%rsp)
	movl	$0, 104(%rsp)
	je	325f
	callq	rattle_dealloc@PLT
325:
	movw	$0, 28(%rsp)
	movb	$0, 30(%rsp)
	movl	$0, 96(%rsp)
	movw	$0, 100(%rsp)
	pxor	%xmm0, %xmm0
	movdqa	%xmm0, 352(%rsp)
	movdqa	%xmm0, 368(%rsp)
	movq	$0, 384(%rsp)
	movdqa	%xmm0, 304(%rsp)
	movdqa	%xmm0, 320(%rsp)
	movq	$0, 336(%rsp)
	testq	%r12, %r12
	je	740f
	movabsq	$33909456017848441, %rax
	cmpq	%rax, %r12
	movq	%r15, 176(%rsp)
	jae	638f
	imulq	$272, %r12, %rdi
	movl	$8, %esi
	callq	rattle_alloc@PLT
	testb	$1, %al
	je	638f
	xorl	%eax, %eax
	movq	%r12, %rcx
	movq	%rbx, 88(%rsp)
	movq	%rdx, 32(%rsp)
	movl	%ebp, 192(%rsp)
928:
	movq	%rax, %rdx
	incq	%rax
	movq	%rax, 288(%rsp)
	decq	%rcx
	movq	%rcx, 216(%rsp)
	movq	%rdx, 208(%rsp)
	imulq	$56, %rdx, %r14
	movw	$0, 120(%rsp)
	movb	$0, 122(%rsp)
	movl	$0, 112(%rsp)
	movw	$0, 116(%rsp)
	movb	$0, 126(%rsp)
	movw	$0, 124(%rsp)
	movdqu	(%r15,%r14), %xmm0
	movdqu	16(%r15,%r14), %xmm1
	movups	32(%r15,%r14), %xmm2
	movdqa	%xmm0, 224(%rsp)
	movdqa	%xmm1, 240(%rsp)
	movaps	%xmm2, 256(%rsp)
	movq	48(%r15,%r14), %rax
	movq	%rax, 272(%rsp)
	leaq	224(%rsp), %rdi
	callq	tc_queues.settings.Settings.check
	testb	%al, %al
	jne	571f
	addq	%r15, %r14
	movaps	224(%rsp), %xmm0
	movaps	%xmm0, 400(%rsp)
	movzbl	225(%rsp), %ebx
	movzbl	228(%rsp), %edx
	movq	232(%rsp), %rax
	movq	%rax, 152(%rsp)
	movq	240(%rsp), %rax
	movq	%rax, 56(%rsp)
	movq	248(%rsp), %rax
	movq	%rax, 160(%rsp)
	movq	256(%rsp), %rax
	movq	%rax, 144(%rsp)
	movq	264(%rsp), %rax
	movq	%rax, 48(%rsp)
	movq	272(%rsp), %rcx
	movzbl	7(%r14), %eax
	movb	%al, 78(%rsp)
	movzwl	5(%r14), %eax
	movw	%ax, 76(%rsp)
	movdqa	.LC8e5f428b_0(%rip), %xmm0
	movdqu	%xmm0, 440(%rsp)
	movdqu	%xmm0, 424(%rsp)
	movdqu	%xmm0, 472(%rsp)
	movdqu	%xmm0, 456(%rsp)
	movdqu	%xmm0, 504(%rsp)
	movdqu	%xmm0, 488(%rsp)
	movdqu	%xmm0, 536(%rsp)
	movdqu	%xmm0, 520(%rsp)
	movdqu	%xmm0, 568(%rsp)
	movdqu	%xmm0, 552(%rsp)
	movdqu	%xmm0, 600(%rsp)
	movdqu	%xmm0, 584(%rsp)
	movdqu	%xmm0, 632(%rsp)
	movdqu	%xmm0, 616(%rsp)
	movdqu	%xmm0, 664(%rsp)
	movdqu	%xmm0, 648(%rsp)
	movdqu	%xmm0, 696(%rsp)
	movdqu	%xmm0, 680(%rsp)
	movdqu	%xmm0, 728(%rsp)
	movdqu	%xmm0, 712(%rsp)
	movdqu	%xmm0, 760(%rsp)
	movdqu	%xmm0, 744(%rsp)
	movdqu	%xmm0, 792(%rsp)
	movdqu	%xmm0, 776(%rsp)
	movdqu	%xmm0, 824(%rsp)
	movdqu	%xmm0, 808(%rsp)
	movdqu	%xmm0, 856(%rsp)
	movdqu	%xmm0, 840(%rsp)
	movdqu	%xmm0, 888(%rsp)
	movdqu	%xmm0, 872(%rsp)
	movdqu	%xmm0, 920(%rsp)
	movdqu	%xmm0, 904(%rsp)
	xorl	%r14d, %r14d
	movb	%dl, 15(%rsp)
	cmpb	$1, %dl
	movq	%rcx, 168(%rsp)
	jne	669f
	movl	$5120, %edi
	movl	$8, %esi
	callq	rattle_alloc@PLT
	testb	$1, %al
	je	436f
	leaq	72(%rdx), %rax
	xorl	%ecx, %ecx
	.p2align	4
327:
	movl	%ecx, %esi
	andl	$496, %esi
	movq	424(%rsp,%rsi), %rdi
	movq	$0, -72(%rax)
	leaq	8(%rsp), %rsi
	movq	%rsi, -64(%rax)
	pxor	%xmm0, %xmm0
	movdqu	%xmm0, -56(%rax)
	movq	%rdi, -40(%rax)
	leal	8(%rcx), %edi
	andl	$504, %edi
	movq	424(%rsp,%rdi), %rdi
	movq	$0, -32(%rax)
	movq	%rsi, -24(%rax)
	movdqu	%xmm0, -16(%rax)
	movq	%rdi, (%rax)
	addq	$16, %rcx
	addq	$80, %rax
	cmpq	$1024, %rcx
	jne	327b
	movl	$128, %r15d
	jmp	373f
669:
	leaq	8(%rsp), %rdx
	xorl	%r15d, %r15d
373:
	leal	-2(%rbx), %eax
	cmpb	$-3, %al
	setb	%al
	testb	$1, %bl
	sete	%cl
	movzbl	%bl, %esi
	testb	%cl, %al
	cmovnel	%esi, %r14d
	je	214f
	movq	%rdx, 80(%rsp)
	movdqa	400(%rsp), %xmm0
	movd	%xmm0, %ebx
	movl	%ebx, %edi
	shrl	$11, %edi
	andl	$8160, %edi
	movl	$8, %esi
	callq	rattle_alloc@PLT
	testb	$1, %al
	je	868f
	movq	%rdx, %rbp
	movq	%r14, 280(%rsp)
	movq	%r15, 40(%rsp)
	movl	%ebx, 196(%rsp)
	movl	%ebx, %eax
	shrl	$16, %eax
	movzbl	%al, %eax
	movq	%rax, 16(%rsp)
	testq	%rax, %rax
	je	859f
	leaq	24(%rbp), %r15
	xorl	%ebx, %ebx
	.p2align	4
327:
	movl	$1019, %edi
	movl	$1, %esi
	callq	rattle_alloc@PLT
	testb	$1, %al
	je	354f
	movq	%rdx, %r14
	movl	$1019, %edx
	movq	%r14, %rdi
	xorl	%esi, %esi
	callq	memset@PLT
	movq	%r14, -24(%r15)
	movq	$1019, -16(%r15)
	movq	$1019, -8(%r15)
	movq	$0, (%r15)
	incq	%rbx
	addq	$32, %r15
	cmpq	%rbx, 16(%rsp)
	jne	327b
859:
	movq	%rbp, 136(%rsp)
	movabsq	$144115188075855872, %rbp
	movq	56(%rsp), %rax
	testq	%rax, %rax
	je	409f
	cmpq	%rbp, %rax
	jae	961f
	movq	56(%rsp), %rdi
	shlq	$6, %rdi
	movl	$8, %esi
	callq	rattle_alloc@PLT
	movq	%rdx, 64(%rsp)
	testb	$1, %al
	je	961f
	xorl	%r14d, %r14d
	jmp	12f
	.p2align	4
859:
	movq	%r14, %rax
	shlq	$6, %rax
	movq	64(%rsp), %rcx
	movw	%r15w, (%rcx,%rax)
	movl	$0, 2(%rcx,%rax)
	movw	$0, 6(%rcx,%rax)
	movq	%rdx, 8(%rcx,%rax)
	movq	%rbx, 16(%rcx,%rax)
	movq	%rbx, 24(%rcx,%rax)
	pxor	%xmm0, %xmm0
	movdqu	%xmm0, 32(%rcx,%rax)
	movq	$0, 48(%rcx,%rax)
	movq	$65542, 56(%rcx,%rax)
	incq	%r14
	movq	56(%rsp), %rax
	cmpq	%rax, %r14
	je	850f
12:
	movq	152(%rsp), %rax
	movzwl	(%rax,%r14,4), %r15d
	movzwl	2(%rax,%r14,4), %ebx
	movl	%ebx, %edi
	shll	$5, %edi
	movl	$8, %esi
	callq	rattle_alloc@PLT
	testb	$1, %al
	je	648f
	testq	%rbx, %rbx
	je	859b
	movl	%ebx, %eax
	andl	$3, %eax
	cmpw	$4, %bx
	jae	327f
	xorl	%ecx, %ecx
	jmp	682f
	.p2align	4
327:
	movl	%ebx, %esi
	andl	$-4, %esi
	leaq	120(%rdx), %rdi
	xorl	%ecx, %ecx
	.p2align	4
669:
	leaq	8(%rsp), %r8
	movq	%r8, -120(%rdi)
	pxor	%xmm0, %xmm0
	movdqu	%xmm0, -112(%rdi)
	movq	$65542, -96(%rdi)
	movq	%r8, -88(%rdi)
	movdqu	%xmm0, -80(%rdi)
	movq	$65542, -64(%rdi)
	movq	%r8, -56(%rdi)
	movdqu	%xmm0, -48(%rdi)
	movq	$65542, -32(%rdi)
	movq	%r8, -24(%rdi)
	movdqu	%xmm0, -16(%rdi)
	movq	$65542, (%rdi)
	addq	$4, %rcx
	subq	$-128, %rdi
	cmpq	%rcx, %rsi
	jne	669b
	testq	%rax, %rax
	je	859b
682:
	shlq	$5, %rcx
	addq	%rdx, %rcx
	shll	$5, %eax
	xorl	%esi, %esi
	.p2align	4
669:
	leaq	8(%rsp), %rdi
	movq	%rdi, (%rcx,%rsi)
	pxor	%xmm0, %xmm0
	movdqu	%xmm0, 8(%rcx,%rsi)
	movq	$65542, 24(%rcx,%rsi)
	addq	$32, %rsi
	cmpq	%rsi, %rax
	jne	669b
	jmp	859b
409:
	movb	$1, %cl
	leaq	8(%rsp), %r10
	xorl	%r11d, %r11d
	movq	%r10, 64(%rsp)
	jmp	859f
850:
	addq	$-65536, %rax
	cmpq	$-65528, %rax
	jae	186f
	movb	$1, %cl
	leaq	8(%rsp), %r10
	xorl	%r11d, %r11d
859:
	movq	88(%rsp), %rbx
	movq	32(%rsp), %r14
	movq	40(%rsp), %r15
	movq	48(%rsp), %r9
211:
	testq	%r9, %r9
	je	219f
	movl	%ecx, 188(%rsp)
	movq	%r11, 200(%rsp)
	movq	%r10, 128(%rsp)
	cmpq	%rbp, %r9
	jae	778f
	movq	%r9, %rdi
	shlq	$6, %rdi
	movl	$8, %esi
	callq	rattle_alloc@PLT
	testb	$1, %al
	je	778f
	movq	%rdx, %rbp
	xorl	%r14d, %r14d
	jmp	12f
	.p2align	4
859:
	movq	%r14, %rax
	shlq	$6, %rax
	movw	%r15w, (%rbp,%rax)
	movl	$0, 2(%rbp,%rax)
	movw	$0, 6(%rbp,%rax)
	movq	%rdx, 8(%rbp,%rax)
	movq	%rbx, 16(%rbp,%rax)
	movq	%rbx, 24(%rbp,%rax)
	pxor	%xmm0, %xmm0
	movdqu	%xmm0, 32(%rbp,%rax)
	movq	$0, 48(%rbp,%rax)
	movq	$65542, 56(%rbp,%rax)
	incq	%r14
	cmpq	%r9, %r14
	je	949f
12:
	movq	144(%rsp), %rax
	movzbl	(%rax,%r14,4), %r15d
	movzwl	2(%rax,%r14,4), %ebx
	movl	%ebx, %edi
	shll	$5, %edi
	movl	$8, %esi
	callq	rattle_alloc@PLT
	testb	$1, %al
	je	678f
	testq	%rbx, %rbx
	movq	48(%rsp), %r9
	je	859b
	movl	%ebx, %eax
	andl	$3, %eax
	cmpw	$4, %bx
	jae	327f
	xorl	%ecx, %ecx
	jmp	682f
	.p2align	4
327:
	movl	%ebx, %esi
	andl	$-4, %esi
	leaq	120(%rdx), %rdi
	xorl	%ecx, %ecx
	.p2align	4
669:
	leaq	8(%rsp), %r8
	movq	%r8, -120(%rdi)
	pxor	%xmm0, %xmm0
	movdqu	%xmm0, -112(%rdi)
	movq	$65542, -96(%rdi)
	movq	%r8, -88(%rdi)
	movdqu	%xmm0, -80(%rdi)
	movq	$65542, -64(%rdi)
	movq	%r8, -56(%rdi)
	movdqu	%xmm0, -48(%rdi)
	movq	$65542, -32(%rdi)
	movq	%r8, -24(%rdi)
	movdqu	%xmm0, -16(%rdi)
	movq	$65542, (%rdi)
	addq	$4, %rcx
	subq	$-128, %rdi
	cmpq	%rcx, %rsi
	jne	669b
	testq	%rax, %rax
	je	859b
682:
	shlq	$5, %rcx
	addq	%rdx, %rcx
	shll	$5, %eax
	xorl	%esi, %esi
	.p2align	4
669:
	leaq	8(%rsp), %rdi
	movq	%rdi, (%rcx,%rsi)
	pxor	%xmm0, %xmm0
	movdqu	%xmm0, 8(%rcx,%rsi)
	movq	$65542, 24(%rcx,%rsi)
	addq	$32, %rsi
	cmpq	%rsi, %rax
	jne	669b
	jmp	859b
219:
	leaq	8(%rsp), %rbp
	xorl	%eax, %eax
	movq	%rbp, %rdx
	jmp	634f
949:
	leaq	-65536(%r9), %rax
	cmpq	$-65528, %rax
	jae	327f
	leaq	8(%rsp), %rdx
	xorl	%eax, %eax
	movq	88(%rsp), %rbx
	movq	32(%rsp), %r14
	movq	40(%rsp), %r15
	movq	128(%rsp), %r10
	movq	200(%rsp), %r11
	jmp	634f
186:
	movl	$4096, %edi
	movl	$2, %esi
	callq	rattle_alloc@PLT
	testb	$1, %al
	movq	88(%rsp), %rbx
	movq	32(%rsp), %r14
	movq	40(%rsp), %r15
	je	966f
	movq	%rdx, %r10
	movq	56(%rsp), %rdi
	movd	%edi, %xmm0
	pshuflw	$0, %xmm0, %xmm0
	pshufd	$68, %xmm0, %xmm0
	movl	$56, %eax
	movq	48(%rsp), %r9
	.p2align	4
856:
	movdqu	%xmm0, -112(%r10,%rax,2)
	movdqu	%xmm0, -96(%r10,%rax,2)
	movdqu	%xmm0, -80(%r10,%rax,2)
	movdqu	%xmm0, -64(%r10,%rax,2)
	movdqu	%xmm0, -48(%r10,%rax,2)
	movdqu	%xmm0, -32(%r10,%rax,2)
	cmpq	$2040, %rax
	je	777f
	movdqu	%xmm0, -16(%r10,%rax,2)
	movdqu	%xmm0, (%r10,%rax,2)
	addq	$64, %rax
	jmp	856b
777:
	movd	%edi, %xmm0
	pshuflw	$0, %xmm0, %xmm0
	pshufd	$68, %xmm0, %xmm1
	movdqu	%xmm1, 4064(%r10)
	movq	%xmm0, 4080(%r10)
	movw	%di, 4088(%r10)
	movw	%di, 4090(%r10)
	movw	%di, 4092(%r10)
	movw	%di, 4094(%r10)
	cmpq	$1, %rdi
	jne	186f
	xorl	%eax, %eax
	jmp	859f
327:
	movl	$4096, %edi
	movl	$2, %esi
	callq	rattle_alloc@PLT
	testb	$1, %al
	movq	88(%rsp), %rbx
	movq	32(%rsp), %r14
	movq	40(%rsp), %r15
	je	771f
	movq	48(%rsp), %r9
	movd	%r9d, %xmm0
	pshuflw	$0, %xmm0, %xmm0
	pshufd	$68, %xmm0, %xmm0
	movl	$56, %eax
	movq	128(%rsp), %r10
	movq	200(%rsp), %r11
	.p2align	4
856:
	movdqu	%xmm0, -112(%rdx,%rax,2)
	movdqu	%xmm0, -96(%rdx,%rax,2)
	movdqu	%xmm0, -80(%rdx,%rax,2)
	movdqu	%xmm0, -64(%rdx,%rax,2)
	movdqu	%xmm0, -48(%rdx,%rax,2)
	movdqu	%xmm0, -32(%rdx,%rax,2)
	cmpq	$2040, %rax
	je	777f
	movdqu	%xmm0, -16(%rdx,%rax,2)
	movdqu	%xmm0, (%rdx,%rax,2)
	addq	$64, %rax
	jmp	856b
777:
	movd	%r9d, %xmm0
	pshuflw	$0, %xmm0, %xmm0
	pshufd	$68, %xmm0, %xmm1
	movdqu	%xmm1, 4064(%rdx)
	movq	%xmm0, 4080(%rdx)
	movw	%r9w, 4088(%rdx)
	movw	%r9w, 4090(%rdx)
	movw	%r9w, 4092(%rdx)
	movw	%r9w, 4094(%rdx)
	cmpq	$1, %r9
	jne	327f
	xorl	%ecx, %ecx
	jmp	12f
186:
	movl	%edi, %ecx
	andl	$65534, %ecx
	movq	64(%rsp), %rax
	leaq	64(%rax), %rdx
	xorl	%eax, %eax
	jmp	471f
	.p2align	4
850:
	addq	$2, %rax
	subq	$-128, %rdx
	cmpq	%rax, %rcx
	je	1f
471:
	movzwl	-64(%rdx), %esi
	cmpq	$2047, %rsi
	ja	471f
	cmpw	%di, (%r10,%rsi,2)
	jne	471f
	movw	%ax, (%r10,%rsi,2)
471:
	movzwl	(%rdx), %esi
	cmpq	$2047, %rsi
	ja	850b
	cmpw	%di, (%r10,%rsi,2)
	jne	850b
	leal	1(%rax), %edi
	movw	%di, (%r10,%rsi,2)
	movq	56(%rsp), %rdi
	jmp	850b
1:
	testb	$1, %dil
	jne	859f
	movl	$2048, %r11d
	xorl	%ecx, %ecx
	jmp	211b
859:
	movq	%rax, %rcx
	shlq	$6, %rcx
	movq	64(%rsp), %rdx
	movzwl	(%rdx,%rcx), %ecx
	movl	$2048, %r11d
	cmpq	$2047, %rcx
	ja	890f
	cmpw	%di, (%r10,%rcx,2)
	jne	890f
	movw	%ax, (%r10,%rcx,2)
890:
	xorl	%ecx, %ecx
	jmp	211b
327:
	movl	%r9d, %eax
	andl	$65534, %eax
	leaq	64(%rbp), %rsi
	xorl	%ecx, %ecx
	jmp	471f
850:
	addq	$2, %rcx
	subq	$-128, %rsi
	cmpq	%rcx, %rax
	je	1f
471:
	movzwl	-64(%rsi), %edi
	cmpq	$2047, %rdi
	ja	471f
	cmpw	%r9w, (%rdx,%rdi,2)
	jne	471f
	movw	%cx, (%rdx,%rdi,2)
471:
	movzwl	(%rsi), %edi
	cmpq	$2047, %rdi
	ja	850b
	cmpw	%r9w, (%rdx,%rdi,2)
	jne	850b
	leal	1(%rcx), %r8d
	movw	%r8w, (%rdx,%rdi,2)
	jmp	850b
1:
	testb	$1, %r9b
	jne	12f
	movl	$2048, %eax
	jmp	634f
12:
	movq	%rcx, %rax
	shlq	$6, %rax
	movzwl	(%rbp,%rax), %esi
	movl	$2048, %eax
	cmpq	$2047, %rsi
	ja	634f
	cmpw	%r9w, (%rdx,%rsi,2)
	jne	634f
	movw	%cx, (%rdx,%rsi,2)
634:
	movzwl	76(%rsp), %ecx
	movw	%cx, 28(%rsp)
	movl	112(%rsp), %ecx
	movl	%ecx, 96(%rsp)
	movzwl	116(%rsp), %ecx
	movw	%cx, 100(%rsp)
	movzbl	78(%rsp), %ecx
	movb	%cl, 30(%rsp)
	imulq	$272, 208(%rsp), %rcx
	movdqa	400(%rsp), %xmm0
	movd	%xmm0, (%r14,%rcx)
	movzbl	15(%rsp), %edi
	movb	%dil, 4(%r14,%rcx)
	movzwl	28(%rsp), %esi
	movw	%si, 5(%r14,%rcx)
	movzbl	30(%rsp), %esi
	movb	%sil, 7(%r14,%rcx)
	movq	152(%rsp), %rsi
	movq	%rsi, 8(%r14,%rcx)
	movq	56(%rsp), %r8
	movq	%r8, 16(%r14,%rcx)
	movq	160(%rsp), %rsi
	movq	%rsi, 24(%r14,%rcx)
	movq	144(%rsp), %rsi
	movq	%rsi, 32(%r14,%rcx)
	movq	%r9, 40(%r14,%rcx)
	movq	168(%rsp), %rsi
	movq	%rsi, 48(%r14,%rcx)
	movq	280(%rsp), %rsi
	movb	%sil, 56(%r14,%rcx)
	movb	$0, 57(%r14,%rcx)
	movl	196(%rsp), %esi
	shrl	$24, %esi
	movb	%sil, 58(%r14,%rcx)
	movl	$0, 59(%r14,%rcx)
	movb	$0, 63(%r14,%rcx)
	movq	136(%rsp), %rsi
	movq	%rsi, 64(%r14,%rcx)
	movq	16(%rsp), %rsi
	movq	%rsi, 72(%r14,%rcx)
	movq	%rsi, 80(%r14,%rcx)
	movl	%edi, %esi
	andb	$1, %sil
	pxor	%xmm0, %xmm0
	movdqu	%xmm0, 88(%r14,%rcx)
	movq	$0, 104(%r14,%rcx)
	movq	$1019, 112(%r14,%rcx)
	movb	%sil, 120(%r14,%rcx)
	movl	$0, 121(%r14,%rcx)
	movl	$0, 124(%r14,%rcx)
	movq	$65542, 128(%r14,%rcx)
	movq	80(%rsp), %rsi
	movq	%rsi, 136(%r14,%rcx)
	movq	%r15, 144(%r14,%rcx)
	movq	%r15, 152(%r14,%rcx)
	movq	64(%rsp), %rsi
	movq	%rsi, 160(%r14,%rcx)
	movq	%r8, 168(%r14,%rcx)
	movq	%r8, 176(%r14,%rcx)
	movq	%r10, 184(%r14,%rcx)
	movq	%r11, 192(%r14,%rcx)
	movq	%r11, 200(%r14,%rcx)
	movq	%rbp, 208(%r14,%rcx)
	movq	%r9, 216(%r14,%rcx)
	movq	%r9, 224(%r14,%rcx)
	movq	%rdx, 232(%r14,%rcx)
	movq	%rax, 240(%r14,%rcx)
	movq	%rax, 248(%r14,%rcx)
	movq	$0, 256(%r14,%rcx)
	movw	$0, 264(%r14,%rcx)
	movzwl	100(%rsp), %eax
	movw	%ax, 270(%r14,%rcx)
	movl	96(%rsp), %eax
	movl	%eax, 266(%r14,%rcx)
	movq	216(%rsp), %rcx
	testq	%rcx, %rcx
	movq	176(%rsp), %r15
	movq	288(%rsp), %rax
	movl	192(%rsp), %ebp
	jne	928b
	jmp	859f
638:
	movq	%r13, %rbp
	movq	%rbx, %r13
	leaq	48(%r15), %rbx
	jmp	928f
	.p2align	4
850:
	addq	$56, %rbx
	decq	%r12
	je	47f
928:
	movq	-16(%rbx), %r14
	movq	(%rbx), %r15
	cmpq	$0, -24(%rbx)
	je	211f
	movq	-40(%rbx), %rdi
	callq	rattle_dealloc@PLT
211:
	testq	%r15, %r15
	je	850b
	movq	%r14, %rdi
	callq	rattle_dealloc@PLT
	jmp	850b
47:
	testq	%r13, %r13
	movq	%rbp, %r13
	je	409f
	movq	176(%rsp), %rdi
	jmp	860f
740:
	leaq	8(%rsp), %r14
859:
	movq	%r15, 304(%rsp)
	movq	$0, 312(%rsp)
	movq	%rbx, 320(%rsp)
	movq	%r12, 328(%rsp)
	movq	$0, 336(%rsp)
	leaq	304(%rsp), %rdi
	callq	std_alloc.vec.deque.VecDeque.drop._be4593220347ed7d
	movb	$0, (%r13)
	movw	%bp, 8(%r13)
	movl	104(%rsp), %eax
	movl	%eax, 10(%r13)
	movzwl	108(%rsp), %eax
	movw	%ax, 14(%r13)
	movq	%r14, 16(%r13)
	movq	%r12, 24(%r13)
	movq	%r12, 32(%r13)
	jmp	880f
354:
	testq	%rbx, %rbx
	movq	40(%rsp), %r15
	je	12f
	movq	16(%rsp), %r14
	cmpq	%r14, %rbx
	cmovbq	%rbx, %r14
	leaq	16(%rbp), %r15
	jmp	972f
	.p2align	4
850:
	addq	$32, %r15
	decq	%r14
	je	489f
972:
	cmpq	$0, (%r15)
	je	850b
	movq	-16(%r15), %rdi
	callq	rattle_dealloc@PLT
	jmp	850b
648:
	movq	64(%rsp), %rax
	movq	%rax, 424(%rsp)
	movq	%r14, 432(%rsp)
	movq	56(%rsp), %rax
	movq	%rax, 440(%rsp)
	leaq	424(%rsp), %rdi
	callq	std_alloc.vec.Vec.drop._1d33c2599f4d4e60
961:
	movq	32(%rsp), %r14
	movq	40(%rsp), %r15
	cmpq	$0, 16(%rsp)
	movq	136(%rsp), %r12
	je	638f
928:
	movq	16(%rsp), %rax
	shll	$5, %eax
	movq	%rax, 16(%rsp)
	xorl	%ebx, %ebx
	jmp	972f
	.p2align	4
850:
	addq	$32, %rbx
	cmpq	%rbx, 16(%rsp)
	je	638f
972:
	cmpq	$0, 16(%r12,%rbx)
	je	850b
	movq	(%r12,%rbx), %rdi
	callq	rattle_dealloc@PLT
	jmp	850b
489:
	cmpq	16(%rsp), %rbx
	movq	40(%rsp), %r15
	jbe	12f
	movq	16(%rsp), %rax
	cmovbq	%rbx, %rax
	movq	%rax, 16(%rsp)
	leaq	16(%rbp), %r14
	jmp	972f
	.p2align	4
859:
	movq	16(%rsp), %rcx
	incq	%rcx
	addq	$32, %r14
	movq	%rcx, 16(%rsp)
	cmpq	%rcx, %rbx
	je	12f
972:
	cmpq	$0, (%r14)
	je	859b
	movq	-16(%r14), %rdi
	callq	rattle_dealloc@PLT
	jmp	859b
12:
	movq	%rbp, %rdi
	callq	rattle_dealloc@PLT
868:
	cmpb	$1, 15(%rsp)
	movq	32(%rsp), %r14
	jne	641f
	movq	80(%rsp), %rax
	leaq	24(%rax), %rbx
	jmp	972f
	.p2align	4
850:
	addq	$40, %rbx
	decq	%r15
	je	928f
972:
	cmpq	$0, (%rbx)
	je	850b
	movq	-16(%rbx), %rdi
	callq	rattle_dealloc@PLT
	jmp	850b
678:
	movq	%rbp, 424(%rsp)
	movq	%r14, 432(%rsp)
	movq	48(%rsp), %rax
	movq	%rax, 440(%rsp)
	leaq	424(%rsp), %rdi
	callq	std_alloc.vec.Vec.drop._1d33c2599f4d4e60
	movq	32(%rsp), %r14
	movq	40(%rsp), %r15
778:
	cmpq	$0, 56(%rsp)
	movq	136(%rsp), %r12
	movq	128(%rsp), %rdi
	je	868f
890:
	xorl	%ebx, %ebx
	movq	%r13, 296(%rsp)
	jmp	12f
	.p2align	4
859:
	movq	%rbp, %rdi
	callq	rattle_dealloc@PLT
	incq	%rbx
	cmpq	56(%rsp), %rbx
	je	859f
12:
	movq	%rbx, %rax
	shlq	$6, %rax
	movq	64(%rsp), %rcx
	movq	8(%rcx,%rax), %rbp
	movq	24(%rcx,%rax), %r14
	testq	%r14, %r14
	je	859b
	movq	%rbp, 48(%rsp)
	movq	64(%rsp), %rcx
	movq	16(%rcx,%rax), %r13
	movq	32(%rcx,%rax), %rax
	xorl	%ecx, %ecx
	cmpq	%r13, %rax
	cmovaeq	%r13, %rcx
	movq	%rax, %rdx
	subq	%rcx, %rdx
	movq	%r13, %r15
	subq	%rdx, %r15
	cmpq	%r14, %r15
	cmovaeq	%r14, %r15
	subq	%rdx, %r13
	jne	682f
972:
	cmpq	%r13, %r14
	movq	296(%rsp), %r13
	movq	136(%rsp), %r12
	movq	48(%rsp), %rbp
	jbe	859b
	subq	%r15, %r14
	leaq	16(%rbp), %r15
	jmp	489f
	.p2align	4
850:
	addq	$32, %r15
	decq	%r14
	je	859b
489:
	cmpq	$0, (%r15)
	je	850b
	movq	-16(%r15), %rdi
	callq	rattle_dealloc@PLT
	jmp	850b
682:
	shlq	$5, %rax
	shlq	$5, %rcx
	subq	%rcx, %rax
	movq	48(%rsp), %rcx
	leaq	(%rcx,%rax), %rbp
	addq	$16, %rbp
	movq	%r15, %r12
	jmp	972f
	.p2align	4
850:
	addq	$32, %rbp
	decq	%r12
	je	972b
972:
	cmpq	$0, (%rbp)
	je	850b
	movq	-16(%rbp), %rdi
	callq	rattle_dealloc@PLT
	jmp	850b
859:
	movq	64(%rsp), %rdi
	callq	rattle_dealloc@PLT
	movq	32(%rsp), %r14
	movq	40(%rsp), %r15
	movq	128(%rsp), %rdi
868:
	cmpb	$0, 188(%rsp)
	jne	972f
	callq	rattle_dealloc@PLT
972:
	cmpq	$0, 16(%rsp)
	je	859f
	movq	16(%rsp), %rax
	shll	$5, %eax
	movq	%rax, 16(%rsp)
	xorl	%ebx, %ebx
	jmp	972f
	.p2align	4
850:
	addq	$32, %rbx
	cmpq	%rbx, 16(%rsp)
	je	859f
972:
	cmpq	$0, 16(%r12,%rbx)
	je	850b
	movq	(%r12,%rbx), %rdi
	callq	rattle_dealloc@PLT
	jmp	850b
859:
	movq	%r12, %rdi
	callq	rattle_dealloc@PLT
	cmpb	$1, 15(%rsp)
	jne	641f
	movq	80(%rsp), %rax
	leaq	24(%rax), %rbx
	jmp	972f
	.p2align	4
850:
	addq	$40, %rbx
	decq	%r15
	je	928f
972:
	cmpq	$0, (%rbx)
	je	850b
	movq	-16(%rbx), %rdi
	callq	rattle_dealloc@PLT
	jmp	850b
571:
	cmpq	$0, 248(%rsp)
	je	972f
	movq	232(%rsp), %rdi
	callq	rattle_dealloc@PLT
972:
	cmpq	$0, 272(%rsp)
	movq	32(%rsp), %r14
	je	12f
	movq	256(%rsp), %rdi
	jmp	271f
436:
	cmpq	$0, 160(%rsp)
	movq	32(%rsp), %r14
	je	972f
	movq	152(%rsp), %rdi
	callq	rattle_dealloc@PLT
972:
	cmpq	$0, 168(%rsp)
	movq	88(%rsp), %rbx
	jne	859f
	jmp	12f
966:
	movq	64(%rsp), %rax
	movq	%rax, 424(%rsp)
	movq	56(%rsp), %rax
	movq	%rax, 432(%rsp)
	movq	%rax, 440(%rsp)
	leaq	424(%rsp), %rdi
	callq	std_alloc.vec.Vec.drop._1d33c2599f4d4e60
	cmpq	$0, 16(%rsp)
	movq	136(%rsp), %r12
	jne	928b
638:
	movq	%r12, %rdi
	callq	rattle_dealloc@PLT
	cmpb	$1, 15(%rsp)
	jne	641f
	movq	80(%rsp), %rax
	leaq	24(%rax), %rbx
	jmp	972f
	.p2align	4
850:
	addq	$40, %rbx
	decq	%r15
	je	928f
972:
	cmpq	$0, (%rbx)
	je	850b
	movq	-16(%rbx), %rdi
	callq	rattle_dealloc@PLT
	jmp	850b
928:
	movq	80(%rsp), %rdi
	callq	rattle_dealloc@PLT
641:
	cmpq	$0, 160(%rsp)
	je	972f
	movq	152(%rsp), %rdi
	callq	rattle_dealloc@PLT
972:
	cmpq	$0, 168(%rsp)
	movq	88(%rsp), %rbx
	movq	176(%rsp), %r15
	je	12f
859:
	movq	144(%rsp), %rdi
271:
	callq	rattle_dealloc@PLT
12:
	movq	%r15, 352(%rsp)
	movq	216(%rsp), %rax
	movq	%rax, 360(%rsp)
	movq	%rbx, 368(%rsp)
	movq	208(%rsp), %rbx
	leaq	1(%rbx), %rax
	movq	%rax, 376(%rsp)
	movq	$0, 384(%rsp)
	leaq	352(%rsp), %rdi
	callq	std_alloc.vec.deque.VecDeque.drop._be4593220347ed7d
	testq	%rbx, %rbx
	je	928f
	movq	%r14, %rdi
	xorl	%esi, %esi
	movq	%rbx, %rdx
	callq	std_alloc.vec.opened.drop_run._3218a469551dd1ce
928:
	movq	%r14, %rdi
860:
	callq	rattle_dealloc@PLT
409:
	movb	$1, (%r13)
	pxor	%xmm0, %xmm0
	movdqu	%xmm0, 8(%r13)
	movdqu	%xmm0, 24(%r13)
880:
	addq	$936, %rsp
	popq	%rbx
	popq	%r12
	popq	%r13
	popq	%r14
	popq	%r15
	popq	%rbp
	retq
771:
	movq	%rbp, 424(%rsp)
	movq	48(%rsp), %rax
	movq	%rax, 432(%rsp)
	movq	%rax, 440(%rsp)
	leaq	424(%rsp), %rdi
	callq	std_alloc.vec.Vec.drop._1d33c2599f4d4e60
	cmpq	$0, 56(%rsp)
	movq	136(%rsp), %r12
	movq	128(%rsp), %rdi
	jne	890b
	jmp	868b
214:
	ud2
	.section	.text.std_alloc.vec.Vec.drop._1d33c2599f4d4e60,"ax",@progbits
	.p2align	4
std_alloc.vec.Vec.drop._1d33c2599f4d4e60:
	pushq	%rbp
	pushq	%r15
	pushq	%r14
	pushq	%r13
	pushq	%r12
	pushq	%rbx
	subq	$40, %rsp
	movq	(%rdi), %r15
	movq	8(%rdi), %rcx
	movq	16(%rdi), %rax
	movq	%rax, 16(%rsp)
	movq	%rcx, 32(%rsp)
	testq	%rcx, %rcx
	je	778f
	xorl	%r13d, %r13d
	movq	%r15, 24(%rsp)
	jmp	859f
	.p2align	4
928:
	movq	%rbx, %rdi
	callq	rattle_dealloc@PLT
	incq	%r13
	cmpq	32(%rsp), %r13
	je	778f
859:
	movq	%r13, %rax
	shlq	$6, %rax
	movq	8(%r15,%rax), %rbx
	movq	24(%r15,%rax), %rbp
	testq	%rbp, %rbp
	je	928b
	movq	%rbx, 8(%rsp)
	movq	16(%r15,%rax), %rbx
	movq	32(%r15,%rax), %rax
	xorl	%ecx, %ecx
	cmpq	%rbx, %rax
	cmovaeq	%rbx, %rcx
	movq	%rax, %rdx
	subq	%rcx, %rdx
	movq	%rbx, %r12
	subq	%rdx, %r12
	cmpq	%rbp, %r12
	cmovaeq	%rbp, %r12
	subq	%rdx, %rbx
	jne	682f
972:
	cmpq	%rbx, %rbp
	movq	24(%rsp), %r15
	movq	8(%rsp), %rbx
	jbe	928b
	subq	%r12, %rbp
	leaq	16(%rbx), %r14
	jmp	489f
	.p2align	4
850:
	addq	$32, %r14
	decq	%rbp
	je	928b
489:
	cmpq	$0, (%r14)
	je	850b
	movq	-16(%r14), %rdi
	callq	rattle_dealloc@PLT
	jmp	850b
	.p2align	4
682:
	shlq	$5, %rax
	shlq	$5, %rcx
	subq	%rcx, %rax
	movq	8(%rsp), %rcx
	leaq	(%rcx,%rax), %r14
	addq	$16, %r14
	movq	%r12, %r15
	jmp	972f
	.p2align	4
850:
	addq	$32, %r14
	decq	%r15
	je	972b
972:
	cmpq	$0, (%r14)
	je	850b
	movq	-16(%r14), %rdi
	callq	rattle_dealloc@PLT
	jmp	850b
778:
	cmpq	$0, 16(%rsp)
	je	850f
	movq	%r15, %rdi
	addq	$40, %rsp
	popq	%rbx
	popq	%r12
	popq	%r13
	popq	%r14
	popq	%r15
	popq	%rbp
	jmp	rattle_dealloc@PLT
850:
	addq	$40, %rsp
	popq	%rbx
	popq	%r12
	popq	%r13
	popq	%r14
	popq	%r15
	popq	%rbp
	retq
	.section	.text.std_alloc.vec.opened.drop_run._3218a469551dd1ce,"ax",@progbits
	.p2align	4
std_alloc.vec.opened.drop_run._3218a469551dd1ce:
	pushq	%rbp
	pushq	%r15
	pushq	%r14
	pushq	%r13
	pushq	%r12
	pushq	%rbx
	subq	$152, %rsp
	movq	%rdx, 16(%rsp)
	cmpq	%rdx, %rsi
	jae	880f
	movq	%rdi, %r15
	jmp	928f
	.p2align	4
669:
	leaq	96(%rsp), %rdi
	callq	tc_rack.tc_queues_queues_Queues_Destruct.drop._af371f0f47a8966f
	leaq	48(%rsp), %rdi
	callq	tc_rack.tc_queues_queues_Queues_Destruct.drop._af371f0f47a8966f
	movq	40(%rsp), %rsi
	incq	%rsi
	cmpq	16(%rsp), %rsi
	je	880f
928:
	movq	%rsi, 40(%rsp)
	imulq	$272, %rsi, %rax
	movq	8(%r15,%rax), %rdi
	movq	32(%r15,%rax), %rdx
	movq	48(%r15,%rax), %rsi
	movq	64(%r15,%rax), %rcx
	movq	%rcx, 8(%rsp)
	movq	72(%r15,%rax), %rbp
	movq	80(%r15,%rax), %r12
	movq	88(%r15,%rax), %r13
	movq	136(%r15,%rax), %rcx
	movq	%rcx, 32(%rsp)
	movq	144(%r15,%rax), %rbx
	movq	152(%r15,%rax), %rcx
	movq	%rcx, 24(%rsp)
	cmpq	$0, 24(%r15,%rax)
	movups	160(%r15,%rax), %xmm0
	movups	176(%r15,%rax), %xmm1
	movups	192(%r15,%rax), %xmm2
	movaps	%xmm2, 128(%rsp)
	movaps	%xmm1, 112(%rsp)
	movaps	%xmm0, 96(%rsp)
	movups	208(%r15,%rax), %xmm0
	movups	224(%r15,%rax), %xmm1
	movups	240(%r15,%rax), %xmm2
	movaps	%xmm2, 80(%rsp)
	movaps	%xmm1, 64(%rsp)
	movaps	%xmm0, 48(%rsp)
	je	211f
	movq	%r13, (%rsp)
	movq	%rdx, %r13
	movq	%rsi, %r14
	callq	rattle_dealloc@PLT
	movq	%r14, %rsi
	movq	%r13, %rdx
	movq	(%rsp), %r13
211:
	testq	%rsi, %rsi
	je	211f
	movq	%rdx, %rdi
	callq	rattle_dealloc@PLT
211:
	testq	%r12, %r12
	je	928f
	xorl	%eax, %eax
	cmpq	%rbp, %r13
	cmovaeq	%rbp, %rax
	movq	%r13, %rcx
	subq	%rax, %rcx
	movq	%rbp, %r14
	subq	%rcx, %r14
	cmpq	%r12, %r14
	cmovaeq	%r12, %r14
	subq	%rcx, %rbp
	movq	%rbp, (%rsp)
	jne	682f
972:
	cmpq	(%rsp), %r12
	jbe	928f
	subq	%r14, %r12
	movq	8(%rsp), %rax
	leaq	16(%rax), %r14
	jmp	489f
	.p2align	4
850:
	addq	$32, %r14
	decq	%r12
	je	928f
489:
	cmpq	$0, (%r14)
	je	850b
	movq	-16(%r14), %rdi
	callq	rattle_dealloc@PLT
	jmp	850b
	.p2align	4
928:
	movq	8(%rsp), %rdi
	callq	rattle_dealloc@PLT
	testq	%rbx, %rbx
	movq	32(%rsp), %r12
	je	778f
	leaq	24(%r12), %r14
	jmp	489f
	.p2align	4
850:
	addq	$40, %r14
	decq	%rbx
	je	778f
489:
	cmpq	$0, (%r14)
	je	850b
	movq	-16(%r14), %rdi
	callq	rattle_dealloc@PLT
	jmp	850b
	.p2align	4
778:
	cmpq	$0, 24(%rsp)
	je	669b
	movq	%r12, %rdi
	callq	rattle_dealloc@PLT
	jmp	669b
	.p2align	4
682:
	shlq	$5, %r13
	shlq	$5, %rax
	subq	%rax, %r13
	movq	8(%rsp), %rax
	leaq	(%rax,%r13), %rbp
	addq	$16, %rbp
	movq	%r14, %r13
	jmp	972f
	.p2align	4
850:
	addq	$32, %rbp
	decq	%r13
	je	972b
972:
	cmpq	$0, (%rbp)
	je	850b
	movq	-16(%rbp), %rdi
	callq	rattle_dealloc@PLT
	jmp	850b
880:
	addq	$152, %rsp
	popq	%rbx
	popq	%r12
	popq	%r13
	popq	%r14
	popq	%r15
	popq	%rbp
	retq
	.section	.text.tc_rack.tc_queues_queues_Queues_Destruct.drop._af371f0f47a8966f,"ax",@progbits
	.p2align	4
tc_rack.tc_queues_queues_Queues_Destruct.drop._af371f0f47a8966f:
	pushq	%rbp
	pushq	%r15
	pushq	%r14
	pushq	%r13
	pushq	%r12
	pushq	%rbx
	subq	$56, %rsp
	movq	(%rdi), %r13
	movq	8(%rdi), %rcx
	movq	16(%rdi), %rax
	movq	%rax, 24(%rsp)
	movq	24(%rdi), %rax
	movq	%rax, 16(%rsp)
	movq	40(%rdi), %rax
	movq	%rax, 32(%rsp)
	movq	%rcx, 48(%rsp)
	testq	%rcx, %rcx
	je	778f
	xorl	%ebx, %ebx
	movq	%r13, 40(%rsp)
	jmp	859f
	.p2align	4
928:
	movq	%r15, %rdi
	callq	rattle_dealloc@PLT
	incq	%rbx
	cmpq	48(%rsp), %rbx
	je	778f
859:
	movq	%rbx, %rax
	shlq	$6, %rax
	movq	8(%r13,%rax), %r15
	movq	24(%r13,%rax), %r12
	testq	%r12, %r12
	je	928b
	movq	%r15, 8(%rsp)
	movq	16(%r13,%rax), %r15
	movq	32(%r13,%rax), %rax
	xorl	%ecx, %ecx
	cmpq	%r15, %rax
	cmovaeq	%r15, %rcx
	movq	%rax, %rdx
	subq	%rcx, %rdx
	movq	%r15, %rbp
	subq	%rdx, %rbp
	cmpq	%r12, %rbp
	cmovaeq	%r12, %rbp
	subq	%rdx, %r15
	jne	682f
972:
	cmpq	%r15, %r12
	movq	40(%rsp), %r13
	movq	8(%rsp), %r15
	jbe	928b
	subq	%rbp, %r12
	leaq	16(%r15), %r14
	jmp	489f
	.p2align	4
850:
	addq	$32, %r14
	decq	%r12
	je	928b
489:
	cmpq	$0, (%r14)
	je	850b
	movq	-16(%r14), %rdi
	callq	rattle_dealloc@PLT
	jmp	850b
	.p2align	4
682:
	shlq	$5, %rax
	shlq	$5, %rcx
	subq	%rcx, %rax
	movq	8(%rsp), %rcx
	leaq	(%rcx,%rax), %r14
	addq	$16, %r14
	movq	%rbp, %r13
	jmp	972f
	.p2align	4
850:
	addq	$32, %r14
	decq	%r13
	je	972b
972:
	cmpq	$0, (%r14)
	je	850b
	movq	-16(%r14), %rdi
	callq	rattle_dealloc@PLT
	jmp	850b
778:
	cmpq	$0, 24(%rsp)
	je	972f
	movq	%r13, %rdi
	callq	rattle_dealloc@PLT
972:
	cmpq	$0, 32(%rsp)
	je	850f
	movq	16(%rsp), %rdi
	addq	$56, %rsp
	popq	%rbx
	popq	%r12
	popq	%r13
	popq	%r14
	popq	%r15
	popq	%rbp
	jmp	rattle_dealloc@PLT
850:
	addq	$56, %rsp
	popq	%rbx
	popq	%r12
	popq	%r13
	popq	%r14
	popq	%r15
	popq	%rbp
	retq
	.section	.text.std_alloc.vec.deque.VecDeque.drop._be4593220347ed7d,"ax",@progbits
	.p2align	4
std_alloc.vec.deque.VecDeque.drop._be4593220347ed7d:
	pushq	%rbp
	pushq	%r15
	pushq	%r14
	pushq	%r13
	pushq	%r12
	pushq	%rbx
	pushq	%rax
	movq	(%rdi), %rbx
	movq	8(%rdi), %r13
	movq	16(%rdi), %rbp
	testq	%r13, %r13
	je	354f
	movq	%rbp, (%rsp)
	movq	32(%rdi), %r12
	movq	24(%rdi), %rax
	subq	%r12, %r13
	leaq	(%rax,%r13), %rcx
	cmpq	%rcx, %rax
	jae	47f
	imulq	$56, %rax, %rax
	leaq	(%rax,%rbx), %rbp
	addq	$48, %rbp
	jmp	928f
	.p2align	4
850:
	addq	$56, %rbp
	decq	%r13
	je	47f
928:
	movq	-16(%rbp), %r14
	movq	(%rbp), %r15
	cmpq	$0, -24(%rbp)
	je	211f
	movq	-40(%rbp), %rdi
	callq	rattle_dealloc@PLT
211:
	testq	%r15, %r15
	je	850b
	movq	%r14, %rdi
	callq	rattle_dealloc@PLT
	jmp	850b
47:
	testq	%r12, %r12
	movq	(%rsp), %rbp
	je	354f
	leaq	48(%rbx), %r13
	jmp	928f
	.p2align	4
850:
	addq	$56, %r13
	decq	%r12
	je	354f
928:
	movq	-16(%r13), %r14
	movq	(%r13), %r15
	cmpq	$0, -24(%r13)
	je	211f
	movq	-40(%r13), %rdi
	callq	rattle_dealloc@PLT
211:
	testq	%r15, %r15
	je	850b
	movq	%r14, %rdi
	callq	rattle_dealloc@PLT
	jmp	850b
354:
	testq	%rbp, %rbp
	je	850f
	movq	%rbx, %rdi
	addq	$8, %rsp
	popq	%rbx
	popq	%r12
	popq	%r13
	popq	%r14
	popq	%r15
	popq	%rbp
	jmp	rattle_dealloc@PLT
850:
	addq	$8, %rsp
	popq	%rbx
	popq	%r12
	popq	%r13
	popq	%r14
	popq	%r15
	popq	%rbp
	retq
	.section	.text.tc_live.tc_channel_channel_ChannelWith_Destruct.drop._429e4231f6288bb6,"ax",@progbits
	.p2align	4
tc_live.tc_channel_channel_ChannelWith_Destruct.drop._429e4231f6288bb6:
	pushq	%rbp
	pushq	%r15
	pushq	%r14
	pushq	%r13
	pushq	%r12
	pushq	%rbx
	subq	$136, %rsp
	movq	%rdi, %rax
	movq	8(%rdi), %rdi
	movq	32(%rax), %r15
	movq	48(%rax), %r14
	movq	64(%rax), %rcx
	movq	%rcx, 8(%rsp)
	movq	72(%rax), %r12
	movq	80(%rax), %rbp
	movq	88(%rax), %rbx
	movq	136(%rax), %rcx
	movq	%rcx, 24(%rsp)
	movq	144(%rax), %r13
	movq	152(%rax), %rcx
	movq	%rcx, 16(%rsp)
	cmpq	$0, 24(%rax)
	movups	192(%rax), %xmm0
	movaps	%xmm0, 112(%rsp)
	movups	176(%rax), %xmm0
	movaps	%xmm0, 96(%rsp)
	movups	160(%rax), %xmm0
	movaps	%xmm0, 80(%rsp)
	movups	208(%rax), %xmm0
	movups	224(%rax), %xmm1
	movups	240(%rax), %xmm2
	movaps	%xmm2, 64(%rsp)
	movaps	%xmm1, 48(%rsp)
	movaps	%xmm0, 32(%rsp)
	je	211f
	callq	rattle_dealloc@PLT
211:
	testq	%r14, %r14
	je	211f
	movq	%r15, %rdi
	callq	rattle_dealloc@PLT
211:
	testq	%rbp, %rbp
	je	928f
	xorl	%eax, %eax
	cmpq	%r12, %rbx
	cmovaeq	%r12, %rax
	movq	%rbx, %rcx
	subq	%rax, %rcx
	movq	%r12, %r15
	subq	%rcx, %r15
	cmpq	%rbp, %r15
	cmovaeq	%rbp, %r15
	subq	%rcx, %r12
	jne	682f
972:
	cmpq	%r12, %rbp
	jbe	928f
	subq	%r15, %rbp
	movq	8(%rsp), %rax
	leaq	16(%rax), %rbx
	jmp	489f
	.p2align	4
850:
	addq	$32, %rbx
	decq	%rbp
	je	928f
489:
	cmpq	$0, (%rbx)
	je	850b
	movq	-16(%rbx), %rdi
	callq	rattle_dealloc@PLT
	jmp	850b
928:
	movq	8(%rsp), %rdi
	callq	rattle_dealloc@PLT
	testq	%r13, %r13
	movq	24(%rsp), %r14
	je	778f
	leaq	24(%r14), %rbx
	jmp	489f
	.p2align	4
850:
	addq	$40, %rbx
	decq	%r13
	je	778f
489:
	cmpq	$0, (%rbx)
	je	850b
	movq	-16(%rbx), %rdi
	callq	rattle_dealloc@PLT
	jmp	850b
778:
	cmpq	$0, 16(%rsp)
	je	669f
	movq	%r14, %rdi
	callq	rattle_dealloc@PLT
669:
	leaq	80(%rsp), %rdi
	callq	tc_live.tc_queues_queues_Queues_Destruct.drop._6a3db891a8626c76
	leaq	32(%rsp), %rdi
	callq	tc_live.tc_queues_queues_Queues_Destruct.drop._6a3db891a8626c76
	addq	$136, %rsp
	popq	%rbx
	popq	%r12
	popq	%r13
	popq	%r14
	popq	%r15
	popq	%rbp
	retq
682:
	shlq	$5, %rbx
	shlq	$5, %rax
	subq	%rax, %rbx
	movq	8(%rsp), %rax
	addq	%rax, %rbx
	addq	$16, %rbx
	movq	%r15, %r14
	jmp	972f
	.p2align	4
850:
	addq	$32, %rbx
	decq	%r14
	je	972b
972:
	cmpq	$0, (%rbx)
	je	850b
	movq	-16(%rbx), %rdi
	callq	rattle_dealloc@PLT
	jmp	850b
	.section	.text.tc_live.tc_queues_queues_Queues_Destruct.drop._6a3db891a8626c76,"ax",@progbits
	.p2align	4
tc_live.tc_queues_queues_Queues_Destruct.drop._6a3db891a8626c76:
	pushq	%rbp
	pushq	%r15
	pushq	%r14
	pushq	%r13
	pushq	%r12
	pushq	%rbx
	subq	$56, %rsp
	movq	(%rdi), %r13
	movq	8(%rdi), %rcx
	movq	16(%rdi), %rax
	movq	%rax, 24(%rsp)
	movq	24(%rdi), %rax
	movq	%rax, 16(%rsp)
	movq	40(%rdi), %rax
	movq	%rax, 32(%rsp)
	movq	%rcx, 48(%rsp)
	testq	%rcx, %rcx
	je	778f
	xorl	%ebx, %ebx
	movq	%r13, 40(%rsp)
	jmp	859f
	.p2align	4
928:
	movq	%r15, %rdi
	callq	rattle_dealloc@PLT
	incq	%rbx
	cmpq	48(%rsp), %rbx
	je	778f
859:
	movq	%rbx, %rax
	shlq	$6, %rax
	movq	8(%r13,%rax), %r15
	movq	24(%r13,%rax), %r12
	testq	%r12, %r12
	je	928b
	movq	%r15, 8(%rsp)
	movq	16(%r13,%rax), %r15
	movq	32(%r13,%rax), %rax
	xorl	%ecx, %ecx
	cmpq	%r15, %rax
	cmovaeq	%r15, %rcx
	movq	%rax, %rdx
	subq	%rcx, %rdx
	movq	%r15, %rbp
	subq	%rdx, %rbp
	cmpq	%r12, %rbp
	cmovaeq	%r12, %rbp
	subq	%rdx, %r15
	jne	682f
972:
	cmpq	%r15, %r12
	movq	40(%rsp), %r13
	movq	8(%rsp), %r15
	jbe	928b
	subq	%rbp, %r12
	leaq	16(%r15), %r14
	jmp	489f
	.p2align	4
850:
	addq	$32, %r14
	decq	%r12
	je	928b
489:
	cmpq	$0, (%r14)
	je	850b
	movq	-16(%r14), %rdi
	callq	rattle_dealloc@PLT
	jmp	850b
	.p2align	4
682:
	shlq	$5, %rax
	shlq	$5, %rcx
	subq	%rcx, %rax
	movq	8(%rsp), %rcx
	leaq	(%rcx,%rax), %r14
	addq	$16, %r14
	movq	%rbp, %r13
	jmp	972f
	.p2align	4
850:
	addq	$32, %r14
	decq	%r13
	je	972b
972:
	cmpq	$0, (%r14)
	je	850b
	movq	-16(%r14), %rdi
	callq	rattle_dealloc@PLT
	jmp	850b
778:
	cmpq	$0, 24(%rsp)
	je	972f
	movq	%r13, %rdi
	callq	rattle_dealloc@PLT
972:
	cmpq	$0, 32(%rsp)
	je	850f
	movq	16(%rsp), %rdi
	addq	$56, %rsp
	popq	%rbx
	popq	%r12
	popq	%r13
	popq	%r14
	popq	%r15
	popq	%rbp
	jmp	rattle_dealloc@PLT
850:
	addq	$56, %rsp
	popq	%rbx
	popq	%r12
	popq	%r13
	popq	%r14
	popq	%r15
	popq	%rbp
	retq
	.section	.text.tc_rack.rack.Rack.operate,"ax",@progbits
	.p2align	4
tc_rack.rack.Rack.operate:
	pushq	%rbp
	pushq	%r15
	pushq	%r14
	pushq	%r13
	pushq	%r12
	pushq	%rbx
	subq	$280, %rsp
	movzbl	(%rdx), %r8d
	movzbl	1(%rdx), %eax
	movzwl	2(%rdx), %r14d
	movzwl	%r14w, %ecx
	movq	8(%rdx), %r9
	movq	16(%rdx), %r10
	movq	24(%rdx), %r12
	movl	$0, 56(%rsp)
	movq	$0, 48(%rsp)
	movq	$0, 256(%rsp)
	movl	$0, 264(%rsp)
	movq	$0, 240(%rsp)
	movl	$0, 248(%rsp)
	leaq	.LJ30a5ded7_0(%rip), %rdx
	movslq	(%rdx,%r8,4), %r8
	addq	%rdx, %r8
	jmpq	*%r8
327:
	movl	$0, 72(%rsp)
	movq	$0, 64(%rsp)
	movb	$5, %r8b
	cmpq	$5, %r10
	jae	471f
	xorl	%r10d, %r10d
	xorl	%r15d, %r15d
	xorl	%r11d, %r11d
	xorl	%ebp, %ebp
	xorl	%r13d, %r13d
	xorl	%r14d, %r14d
	jmp	10f
928:
	movq	16(%rsi), %rcx
	xorl	%r15d, %r15d
	movb	$1, %r13b
	movb	$5, %r8b
	testq	%rcx, %rcx
	je	890f
	movq	8(%rsi), %rdx
	.p2align	4
868:
	cmpb	%al, (%rdx)
	je	548f
	addq	$272, %rdx
	decq	%rcx
	jne	868b
890:
	xorl	%r11d, %r11d
	jmp	981f
859:
	movq	8(%rsi), %rbx
	movq	16(%rsi), %rdx
	movl	$0, 152(%rsp)
	movq	$0, 144(%rsp)
	movb	$1, %r13b
	movb	$5, %r8b
	xorl	%r12d, %r12d
	testq	%rdx, %rdx
	je	890f
	addq	$160, %rbx
	.p2align	4
868:
	cmpb	%al, -160(%rbx)
	je	434f
	addq	$272, %rbx
	decq	%rdx
	jne	868b
890:
	xorl	%r15d, %r15d
	xorl	%r10d, %r10d
	xorl	%r14d, %r14d
	jmp	933f
12:
	movq	8(%rsi), %rbx
	movq	16(%rsi), %rdx
	movl	$0, 152(%rsp)
	movq	$0, 144(%rsp)
	movb	$1, %r13b
	movb	$5, %r8b
	xorl	%r12d, %r12d
	testq	%rdx, %rdx
	je	890f
	addq	$208, %rbx
	.p2align	4
868:
	cmpb	%al, -208(%rbx)
	je	509f
	addq	$272, %rbx
	decq	%rdx
	jne	868b
890:
	xorl	%r15d, %r15d
	xorl	%r10d, %r10d
	xorl	%r14d, %r14d
	jmp	110f
638:
	movq	8(%rsi), %rbx
	movq	16(%rsi), %rcx
	movl	$0, 112(%rsp)
	movq	$0, 104(%rsp)
	testq	%rcx, %rcx
	je	186f
	addq	$160, %rbx
	.p2align	4
868:
	cmpb	%al, -160(%rbx)
	je	972f
	addq	$272, %rbx
	decq	%rcx
	jne	868b
186:
	movl	$0, 56(%rsp)
	movq	$0, 48(%rsp)
	xorl	%r10d, %r10d
	movb	$1, %r13b
	movb	$5, %r8b
	xorl	%ebx, %ebx
890:
	xorl	%r11d, %r11d
	xorl	%ebp, %ebp
	xorl	%r12d, %r12d
	xorl	%r15d, %r15d
	jmp	83f
471:
	movzwl	(%r9), %r11d
	movl	%r11d, %eax
	rolw	$8, %ax
	movzwl	%ax, %edx
	cmpl	$16383, %edx
	ja	325f
	testl	$3072, %eax
	je	961f
	movw	$512, %r14w
	jmp	289f
548:
	movzbl	(%rdx), %r13d
	movzbl	264(%rdx), %esi
	movzbl	265(%rdx), %ecx
	movzbl	58(%rdx), %r8d
	movzbl	59(%rdx), %r9d
	movzbl	60(%rdx), %r10d
	movzbl	61(%rdx), %eax
	movzbl	62(%rdx), %edx
	movl	%r13d, %r11d
	shll	$18, %r11d
	andl	$1, %esi
	shll	$15, %esi
	orl	%r11d, %esi
	orl	%r8d, %esi
	andl	$1, %ecx
	shll	$14, %ecx
	orl	%esi, %ecx
	shll	$13, %r9d
	shll	$12, %r10d
	addl	%r9d, %r10d
	shll	$11, %eax
	addl	%r10d, %eax
	addl	%ecx, %eax
	shll	$9, %edx
	leal	(%rdx,%rax), %r11d
	addl	$16777216, %r11d
	movb	$4, %r8b
981:
	movl	%r11d, %ebp
	shrl	$8, %ebp
	movl	%r11d, %r12d
	andl	$-65536, %r12d
	movl	$0, 56(%rsp)
	movq	$0, 48(%rsp)
	xorl	%r10d, %r10d
	xorl	%ebx, %ebx
83:
	xorl	%r14d, %r14d
	jmp	284f
434:
	movl	$0, 112(%rsp)
	movq	$0, 104(%rsp)
	movzbl	-160(%rbx), %r13d
	movq	(%rbx), %rax
	movq	8(%rbx), %rdx
	cmpq	%rcx, 32(%rbx)
	jbe	211f
	movq	24(%rbx), %rsi
	movzwl	(%rsi,%rcx,2), %ecx
	cmpq	%rcx, %rdx
	jbe	409f
	movq	%rdi, %rbp
	shll	$6, %ecx
	jmp	489f
509:
	movl	$0, 112(%rsp)
	movq	$0, 104(%rsp)
	movzbl	-208(%rbx), %r13d
	movzbl	%cl, %r14d
	movq	(%rbx), %rax
	movq	8(%rbx), %rdx
	cmpq	%r14, 32(%rbx)
	jbe	47f
	movq	24(%rbx), %rcx
	movzwl	(%rcx,%r14,2), %ecx
	cmpq	%rcx, %rdx
	jbe	969f
	movq	%rdi, %rbp
	shll	$6, %ecx
	jmp	778f
972:
	cmpq	$0, -64(%rbx)
	je	186f
	cmpq	$0, -80(%rbx)
	je	214f
	movzbl	-160(%rbx), %r13d
	movq	-96(%rbx), %rax
	movq	-88(%rbx), %rcx
	movq	-72(%rbx), %rdx
	xorl	%r11d, %r11d
	cmpq	%rcx, %rdx
	movl	$0, %esi
	cmovaeq	%rcx, %rsi
	subq	%rsi, %rdx
	shlq	$5, %rdx
	movq	(%rax,%rdx), %r14
	movq	24(%rax,%rdx), %rbp
	movzbl	(%r14), %ecx
	movl	%ecx, %r12d
	andl	$63, %r12d
	cmpb	$1, -40(%rbx)
	jne	972f
	shrb	$3, %cl
	andb	$24, %cl
	movl	$50462721, %edx
	shrl	%cl, %edx
	leaq	1(%r14), %rcx
	leaq	-1(%rbp), %r8
	movq	-24(%rbx), %rax
	movq	%r14, %r15
	movq	%rdi, %r14
	movq	%rax, %rdi
	movq	%r12, %rsi
	callq	tc_packet.runs.follow_at._a1898dc8b9c98594
	movq	%r14, %rdi
	testb	%al, %al
	jne	600f
	movzbl	%dl, %r11d
	testb	%r11b, %r11b
	je	589f
	cmpl	$1, %r11d
	jne	594f
	movq	%r15, %r14
	movq	%r12, %r15
	jmp	850f
325:
	movw	$256, %r14w
289:
	xorl	%r10d, %r10d
	xorl	%r15d, %r15d
	xorl	%r11d, %r11d
	xorl	%ebp, %ebp
	xorl	%r13d, %r13d
10:
	movl	72(%rsp), %eax
	movl	%eax, 56(%rsp)
	movq	64(%rsp), %rax
	movq	%rax, 48(%rsp)
	xorl	%ebx, %ebx
	testq	%r12, %r12
	je	657f
648:
	movq	%r13, 40(%rsp)
	movq	%rdi, %r13
	movq	%r9, %rdi
	movq	%r14, 24(%rsp)
	movq	%r11, %r14
	movq	%r15, 8(%rsp)
	movq	%r10, %r15
	movq	%r8, %r12
	callq	rattle_dealloc@PLT
	movq	%r12, %r8
	movq	%r15, %r10
	movq	8(%rsp), %r15
	movq	%r14, %r11
	movq	24(%rsp), %r14
	movq	%r13, %rdi
	movq	40(%rsp), %r13
	xorl	%r12d, %r12d
	jmp	284f
211:
	testq	%rdx, %rdx
	je	409f
	xorl	%ecx, %ecx
	.p2align	4
129:
	cmpw	(%rax,%rcx), %r14w
	je	678f
	addq	$64, %rcx
	decq	%rdx
	jne	129b
409:
	movb	$5, %r8b
	movb	$2, %r13b
	xorl	%r15d, %r15d
	xorl	%r10d, %r10d
	xorl	%r14d, %r14d
	jmp	981f
47:
	testq	%rdx, %rdx
	je	969f
	xorl	%ecx, %ecx
	.p2align	4
129:
	cmpw	%r14w, (%rax,%rcx)
	je	966f
	addq	$64, %rcx
	decq	%rdx
	jne	129b
969:
	movb	$3, %r13b
	movb	$5, %r8b
	xorl	%r15d, %r15d
	xorl	%r10d, %r10d
	xorl	%r14d, %r14d
	jmp	434f
186:
	movl	$0, 72(%rsp)
	movq	$0, 64(%rsp)
	movb	$4, %r13b
	movb	$5, %r8b
	xorl	%r10d, %r10d
	xorl	%r11d, %r11d
	jmp	509f
972:
	cmpq	-32(%rbx), %rbp
	jbe	548f
	xorl	%r10d, %r10d
	jmp	871f
961:
	movq	%r12, %r14
	movq	%r9, %rcx
	movzbl	2(%r9), %r9d
	movq	%rcx, %r12
	movzbl	3(%rcx), %ecx
	shll	$8, %ecx
	movzwl	%r9w, %r8d
	andl	$3, %r8d
	orl	%r8d, %ecx
	rolw	$8, %cx
	cmpw	$5, %cx
	jae	373f
	xorl	%r10d, %r10d
	xorl	%r15d, %r15d
	xorl	%r11d, %r11d
	xorl	%ebp, %ebp
	xorl	%r13d, %r13d
	movq	%r12, %r9
	movq	%r14, %r12
	movw	$768, %r14w
	movb	$5, %r8b
	jmp	10b
678:
	movq	%rdi, %rbp
489:
	cmpq	$0, 40(%rax,%rcx)
	je	409f
	xorps	%xmm0, %xmm0
	movaps	%xmm0, 176(%rsp)
	movaps	%xmm0, 160(%rsp)
	leaq	160(%rsp), %rdi
	movq	%rbx, %rsi
	movl	%r14d, %edx
	callq	tc_queues.queues.Queues_GrowingRoom.take._f9a2c2c7976df771
	movzbl	160(%rsp), %eax
	movq	168(%rsp), %r10
	movl	176(%rsp), %r15d
	movq	180(%rsp), %rcx
	movq	%rcx, 64(%rsp)
	movl	188(%rsp), %ecx
	movl	%ecx, 72(%rsp)
	cmpb	$1, %al
	jne	214f
	movq	96(%rbx), %rax
	cmpq	$-1, %rax
	movq	%rbp, %rdi
	je	186f
	incq	%rax
	movq	%rax, 96(%rbx)
186:
	movl	72(%rsp), %eax
	movl	%eax, 112(%rsp)
	movq	64(%rsp), %rax
	movq	%rax, 104(%rsp)
	movb	$2, %r8b
	jmp	981f
966:
	movq	%rdi, %rbp
778:
	cmpq	$0, 40(%rax,%rcx)
	je	969f
	xorps	%xmm0, %xmm0
	movaps	%xmm0, 176(%rsp)
	movaps	%xmm0, 160(%rsp)
	leaq	160(%rsp), %rdi
	movq	%rbx, %rsi
	movl	%r14d, %edx
	callq	tc_queues.queues.Queues_GrowingRoom.take._f9a2c2c7976df771
	movzbl	160(%rsp), %eax
	movq	168(%rsp), %r10
	movl	176(%rsp), %r15d
	movq	180(%rsp), %rcx
	movq	%rcx, 64(%rsp)
	movl	188(%rsp), %ecx
	movl	%ecx, 72(%rsp)
	cmpb	$1, %al
	jne	214f
	movq	48(%rbx), %rax
	cmpq	$-1, %rax
	movq	%rbp, %rdi
	je	186f
	incq	%rax
	movq	%rax, 48(%rbx)
186:
	movl	72(%rsp), %eax
	movl	%eax, 112(%rsp)
	movq	64(%rsp), %rax
	movq	%rax, 104(%rsp)
	movb	$3, %r8b
	jmp	434f
548:
	movzbl	%r12b, %r15d
	xorl	%r11d, %r11d
850:
	addq	%r11, %r14
	subq	%r11, %rbp
	xorl	%r9d, %r9d
961:
	movq	24(%rbx), %r10
	movq	32(%rbx), %rax
	movq	%rax, 8(%rsp)
	movq	72(%rbx), %rcx
	movq	80(%rbx), %rdx
	xorps	%xmm0, %xmm0
	movaps	%xmm0, 160(%rsp)
	movq	48(%rbx), %rsi
	movq	56(%rbx), %rax
	cmpq	%r15, %rdx
	movl	%r9d, 96(%rsp)
	jbe	211f
	movzwl	(%rcx,%r15,2), %edx
	cmpq	%rdx, %rax
	jbe	966f
669:
	leaq	160(%rsp), %rax
	movq	%r14, %rcx
	movq	%rdi, %r14
	movq	%rax, %rdi
	movq	%rbp, %r8
	callq	tc_queues.delivering.deliver_whole._a1898dc8b9c98594
	movq	%r14, %rdi
	movl	164(%rsp), %r11d
	movq	168(%rsp), %r10
	cmpb	$0, 160(%rsp)
	sete	%al
	jmp	1f
409:
	movb	$5, %r8b
	movb	$4, %r13b
	xorl	%r15d, %r15d
	xorl	%r10d, %r10d
	xorl	%r14d, %r14d
	movq	%rbp, %rdi
981:
	movl	112(%rsp), %eax
	movl	%eax, 152(%rsp)
	movq	104(%rsp), %rax
	movq	%rax, 144(%rsp)
933:
	movl	152(%rsp), %eax
	movl	%eax, 264(%rsp)
	movq	144(%rsp), %rcx
	movq	%rcx, 256(%rsp)
	jmp	678f
969:
	movb	$4, %r13b
	movb	$5, %r8b
	xorl	%r15d, %r15d
	xorl	%r10d, %r10d
	xorl	%r14d, %r14d
	movq	%rbp, %rdi
434:
	movl	112(%rsp), %eax
	movl	%eax, 152(%rsp)
	movq	104(%rsp), %rax
	movq	%rax, 144(%rsp)
110:
	movl	152(%rsp), %eax
	movl	%eax, 248(%rsp)
	movq	144(%rsp), %rcx
	movq	%rcx, 240(%rsp)
678:
	movq	%rcx, 48(%rsp)
	movl	%eax, 56(%rsp)
	xorl	%ebx, %ebx
	xorl	%r11d, %r11d
	xorl	%ebp, %ebp
284:
	movzbl	%bpl, %eax
	shll	$8, %eax
	movzbl	%r11b, %ecx
	orl	%r12d, %ecx
	orl	%eax, %ecx
	movb	%bl, (%rdi)
	movb	%r8b, 8(%rdi)
	movb	%r13b, 9(%rdi)
	movw	%r14w, 10(%rdi)
	movl	%ecx, 12(%rdi)
	movq	%r10, 16(%rdi)
	movl	%r15d, 24(%rdi)
	movq	48(%rsp), %rax
	movq	%rax, 28(%rdi)
	movl	56(%rsp), %eax
	movl	%eax, 36(%rdi)
	addq	$280, %rsp
	popq	%rbx
	popq	%r12
	popq	%r13
	popq	%r14
	popq	%r15
	popq	%rbp
	retq
373:
	leal	1(%rcx), %r8d
	movzwl	%r8w, %r8d
	cmpq	%r8, %r10
	jae	523f
	xorl	%r10d, %r10d
	xorl	%r15d, %r15d
	xorl	%r11d, %r11d
	xorl	%ebp, %ebp
	xorl	%r13d, %r13d
	movq	%r12, %r9
	movq	%r14, %r12
	movw	$1024, %r14w
	movb	$5, %r8b
	jmp	10b
211:
	testq	%rax, %rax
	je	966f
	movzbl	%r12b, %ecx
	xorl	%edx, %edx
	movq	%rsi, %r8
129:
	cmpw	%cx, (%r8)
	je	669b
	incq	%rdx
	addq	$64, %r8
	cmpq	%rdx, %rax
	jne	129b
966:
	movq	%r15, (%rsp)
	cmpq	$7, %rbp
	movq	%r10, 120(%rsp)
	jae	289f
	xorl	%r11d, %r11d
	movq	%rbp, %r15
	xorl	%r8d, %r8d
980:
	subq	%r11, %r8
	xorl	%eax, %eax
	testq	%r15, %r15
	setne	%al
	shlq	$32, %rax
	jmp	434f
523:
	andl	$65283, %r11d
	rolw	$8, %r11w
	cmpw	(%rsi), %r11w
	jne	57f
	movq	16(%rsi), %r10
	testq	%r10, %r10
	je	83f
	shrb	$2, %r9b
	movl	$160, %r11d
	addq	8(%rsi), %r11
868:
	cmpb	%r9b, -160(%r11)
	je	166f
	addq	$272, %r11
	decq	%r10
	jne	868b
	xorl	%r15d, %r15d
	xorl	%r11d, %r11d
	xorl	%ebp, %ebp
	xorl	%r13d, %r13d
	movq	%r12, %r9
	movq	%r14, %r12
	xorl	%r10d, %r10d
	jmp	969f
289:
	xorl	%r8d, %r8d
	xorl	%r11d, %r11d
	movq	%r14, %r12
	movq	%rbp, %r15
	movq	%rdi, 32(%rsp)
	movq	%r14, 208(%rsp)
	movq	%rbp, 24(%rsp)
	movq	%r13, 40(%rsp)
	jmp	471f
289:
	xorl	%eax, %eax
850:
	addq	%r9, %r12
	addq	%rax, %r11
	incq	%r8
	cmpq	$6, %r15
	jbe	980b
471:
	movzwl	(%r12), %eax
	rolw	$8, %ax
	movzwl	%ax, %ecx
	cmpl	$8191, %ecx
	ja	631f
	movzwl	4(%r12), %edx
	rolw	$8, %dx
	movzwl	%dx, %esi
	leaq	7(%rsi), %r9
	subq	%r9, %r15
	jb	631f
	cmpl	$4096, %ecx
	jb	289b
	andl	$2047, %eax
	movq	(%rbx), %rbp
	movq	8(%rbx), %rcx
	movzwl	%ax, %edx
	cmpq	%rdx, 8(%rsp)
	jbe	211f
	movzwl	(%r10,%rdx,2), %r13d
	cmpq	%r13, %rcx
	jbe	289f
	movq	%rsi, 16(%rsp)
	shll	$6, %r13d
	jmp	966f
211:
	testq	%rcx, %rcx
	je	289f
	xorl	%r13d, %r13d
129:
	cmpw	(%rbp,%r13), %ax
	je	678f
	addq	$64, %r13
	decq	%rcx
	jne	129b
289:
	xorl	%eax, %eax
	jmp	209f
678:
	movq	%rsi, 16(%rsp)
966:
	movq	24(%rbp,%r13), %rcx
	movq	48(%rbp,%r13), %rsi
	addq	40(%rbp,%r13), %rsi
	cmpq	%rsi, %rcx
	jbe	289f
	movq	%rcx, 216(%rsp)
	movq	8(%rbp,%r13), %rax
	movq	16(%rbp,%r13), %rcx
	movq	32(%rbp,%r13), %rdx
	movq	%rsi, 80(%rsp)
	addq	%rsi, %rdx
	xorl	%esi, %esi
	cmpq	%rcx, %rdx
	cmovaeq	%rcx, %rsi
	subq	%rsi, %rdx
	shlq	$5, %rdx
	leaq	(%rax,%rdx), %rcx
	movq	16(%rax,%rdx), %rdx
	cmpq	%rdx, %r9
	movq	%rcx, 200(%rsp)
	jbe	678f
	movq	%rbp, 128(%rsp)
	movq	%r8, 136(%rsp)
	movq	%r11, 88(%rsp)
	movl	$1, %esi
	movq	%r9, %rdi
	movq	%r9, %rbp
	callq	rattle_alloc@PLT
	testb	$1, %al
	je	680f
	movq	%rdx, %r14
	movq	%rdx, %rax
	subq	%r12, %rax
	cmpq	%rbp, %rax
	movq	%rbp, %r9
	jae	966f
	movq	%r14, %rax
	subq	%r12, %rax
	cmpq	$32, %rax
	movq	32(%rsp), %rdi
	movq	88(%rsp), %r11
	movq	120(%rsp), %r10
	movq	136(%rsp), %r8
	movq	128(%rsp), %rbp
	movq	80(%rsp), %rsi
	jae	742f
	xorl	%eax, %eax
	jmp	271f
678:
	movq	(%rcx), %r14
	xorps	%xmm0, %xmm0
	movups	%xmm0, 8(%rcx)
	movq	%r14, %rax
	subq	%r12, %rax
	cmpq	%r9, %rax
	movq	%rdx, 232(%rsp)
	jae	678f
	cmpq	$32, %rax
	movq	80(%rsp), %rsi
	jae	129f
	xorl	%eax, %eax
	jmp	771f
678:
	movq	%r14, %rdi
	movq	%r12, %rsi
	movq	%r9, %rdx
	movq	%r11, 88(%rsp)
	movq	%r8, 136(%rsp)
	movq	%rbp, 128(%rsp)
	movq	%r9, %rbp
	callq	memmove@PLT
	movq	%rbp, %r9
	movq	128(%rsp), %rbp
	movq	136(%rsp), %r8
	movq	120(%rsp), %r10
	movq	88(%rsp), %r11
	movq	32(%rsp), %rdi
	movq	80(%rsp), %rsi
	jmp	586f
966:
	movq	%r14, %rdi
	movq	%r12, %rsi
	movq	%r9, %rdx
	movq	%r9, 16(%rsp)
	callq	memmove@PLT
	movq	16(%rsp), %r9
	movq	32(%rsp), %rdi
	movq	88(%rsp), %r11
	movq	120(%rsp), %r10
	movq	136(%rsp), %r8
	movq	128(%rsp), %rbp
	movq	80(%rsp), %rsi
	jmp	913f
129:
	cmpw	$25, 16(%rsp)
	jae	186f
	xorl	%eax, %eax
	jmp	678f
742:
	cmpw	$25, 16(%rsp)
	jae	981f
	xorl	%eax, %eax
	jmp	966f
186:
	movl	%r9d, %eax
	andl	$-32, %eax
	xorl	%ecx, %ecx
464:
	movups	(%r12,%rcx), %xmm0
	movups	16(%r12,%rcx), %xmm1
	movups	%xmm0, (%r14,%rcx)
	movups	%xmm1, 16(%r14,%rcx)
	addq	$32, %rcx
	cmpq	%rcx, %rax
	jne	464b
	cmpl	%eax, %r9d
	je	586f
	testb	$28, %r9b
	je	771f
678:
	movq	%rax, %rcx
	movl	%r9d, %eax
	andl	$-4, %eax
186:
	movl	(%r12,%rcx), %edx
	movl	%edx, (%r14,%rcx)
	addq	$4, %rcx
	cmpq	%rcx, %rax
	jne	186b
	cmpl	%eax, %r9d
	je	586f
771:
	movq	16(%rsp), %rcx
	movl	%ecx, %edx
	andl	$3, %edx
	movq	%rax, %rcx
	cmpl	$1, %edx
	je	300f
	movq	16(%rsp), %rcx
	leal	-1(%rcx), %edx
	andl	$3, %edx
	movq	%rax, %rcx
548:
	movzbl	(%r12,%rcx), %esi
	movb	%sil, (%r14,%rcx)
	incq	%rcx
	decq	%rdx
	jne	548b
300:
	negq	%rax
	movq	16(%rsp), %rdx
	addq	%rdx, %rax
	addq	$6, %rax
	cmpl	$3, %eax
	movq	80(%rsp), %rsi
	jb	586f
548:
	movzbl	(%r12,%rcx), %eax
	movb	%al, (%r14,%rcx)
	movzbl	1(%r12,%rcx), %eax
	movb	%al, 1(%r14,%rcx)
	movzbl	2(%r12,%rcx), %eax
	movb	%al, 2(%r14,%rcx)
	movzbl	3(%r12,%rcx), %eax
	movb	%al, 3(%r14,%rcx)
	addq	$4, %rcx
	cmpq	%rcx, %r9
	jne	548b
586:
	movq	200(%rsp), %rax
	movq	%r14, (%rax)
	movq	%r9, 8(%rax)
	movq	232(%rsp), %rcx
	movq	%rcx, 16(%rax)
	jmp	629f
981:
	movl	%r9d, %eax
	andl	$-32, %eax
	xorl	%ecx, %ecx
464:
	movups	(%r12,%rcx), %xmm0
	movups	16(%r12,%rcx), %xmm1
	movups	%xmm0, (%r14,%rcx)
	movups	%xmm1, 16(%r14,%rcx)
	addq	$32, %rcx
	cmpq	%rcx, %rax
	jne	464b
	cmpl	%eax, %r9d
	je	913f
	testb	$28, %r9b
	je	271f
966:
	movq	%rax, %rcx
	movl	%r9d, %eax
	andl	$-4, %eax
186:
	movl	(%r12,%rcx), %edx
	movl	%edx, (%r14,%rcx)
	addq	$4, %rcx
	cmpq	%rcx, %rax
	jne	186b
	cmpl	%eax, %r9d
	je	913f
271:
	movq	16(%rsp), %rcx
	movl	%ecx, %edx
	andl	$3, %edx
	movq	%rax, %rcx
	cmpl	$1, %edx
	je	300f
	movq	16(%rsp), %rcx
	leal	-1(%rcx), %edx
	andl	$3, %edx
	movq	%rax, %rcx
548:
	movzbl	(%r12,%rcx), %esi
	movb	%sil, (%r14,%rcx)
	incq	%rcx
	decq	%rdx
	jne	548b
300:
	negq	%rax
	movq	16(%rsp), %rdx
	addq	%rdx, %rax
	addq	$6, %rax
	cmpl	$3, %eax
	movq	80(%rsp), %rsi
	jb	913f
548:
	movzbl	(%r12,%rcx), %eax
	movb	%al, (%r14,%rcx)
	movzbl	1(%r12,%rcx), %eax
	movb	%al, 1(%r14,%rcx)
	movzbl	2(%r12,%rcx), %eax
	movb	%al, 2(%r14,%rcx)
	movzbl	3(%r12,%rcx), %eax
	movb	%al, 3(%r14,%rcx)
	addq	$4, %rcx
	cmpq	%rcx, %r9
	jne	548b
913:
	movq	200(%rsp), %rcx
	movq	(%rcx), %rax
	movq	%r14, (%rcx)
	movq	%r9, 8(%rcx)
	cmpq	$0, 16(%rcx)
	movq	%r9, 16(%rcx)
	je	629f
	movq	%rax, %rdi
	movq	%r9, %r14
	callq	rattle_dealloc@PLT
	movq	80(%rsp), %rsi
	movq	%r14, %r9
	movq	136(%rsp), %r8
	movq	120(%rsp), %r10
	movq	88(%rsp), %r11
	movq	32(%rsp), %rdi
629:
	incq	48(%rbp,%r13)
	movq	208(%rsp), %r14
	movq	216(%rsp), %rcx
289:
	xorl	%eax, %eax
	cmpq	%rsi, %rcx
	seta	%al
209:
	movq	40(%rsp), %r13
	movq	24(%rsp), %rbp
	jmp	850b
589:
	movq	%r11, %r10
	jmp	871f
594:
	movq	-24(%rbx), %rax
	leaq	(%r12,%r12,4), %rcx
	movq	8(%rax,%rcx,8), %r14
	movq	16(%rax,%rcx,8), %rbp
	movb	$1, %r9b
	movq	%r12, %r15
	jmp	961b
57:
	xorl	%r10d, %r10d
	xorl	%r15d, %r15d
	xorl	%r11d, %r11d
	xorl	%ebp, %ebp
	xorl	%r13d, %r13d
	movq	%r12, %r9
	movq	%r14, %r12
	movw	$1, %r14w
	movb	$5, %r8b
	jmp	10b
631:
	movabsq	$4294967296, %rax
	subq	%r11, %r8
434:
	movl	%r8d, %r10d
	orq	%rax, %r10
	movq	8(%rbx), %rcx
	cmpq	$0, 8(%rsp)
	movq	(%rsp), %r15
	je	409f
	movl	%r11d, %eax
	cmpq	%rax, %rcx
	jb	409f
	movb	$1, %al
	jmp	972f
961:
	movq	48(%rsi,%r8), %rdx
	addq	%rdx, 40(%rsi,%r8)
	movq	$0, 48(%rsi,%r8)
850:
	addq	%rcx, %r14
972:
	cmpq	$7, %rbp
	jb	1f
	movzwl	(%r14), %edx
	rolw	$8, %dx
	movzwl	%dx, %esi
	cmpl	$8191, %esi
	ja	1f
	movzwl	4(%r14), %ecx
	rolw	$8, %cx
	movzwl	%cx, %ecx
	addq	$7, %rcx
	subq	%rcx, %rbp
	jb	1f
	cmpl	$4096, %esi
	jb	850b
	andl	$2047, %edx
	movq	(%rbx), %rsi
	movq	8(%rbx), %r9
	movzwl	%dx, %r8d
	cmpq	%r8, 8(%rsp)
	jbe	211f
	movq	120(%rsp), %rdx
	movzwl	(%rdx,%r8,2), %r8d
	cmpq	%r8, %r9
	jbe	850b
	shll	$6, %r8d
	jmp	961b
211:
	testq	%r9, %r9
	je	850b
	xorl	%r8d, %r8d
129:
	cmpw	(%rsi,%r8), %dx
	je	961b
	addq	$64, %r8
	decq	%r9
	jne	129b
	jmp	850b
409:
	movb	$1, %al
	testq	%rcx, %rcx
	je	1f
	cmpq	$1, %rcx
	jne	961f
	xorl	%edx, %edx
	jmp	678f
961:
	movq	%r10, %r14
	movq	%rcx, %rsi
	andq	$-2, %rsi
	xorl	%edx, %edx
	xorl	%r8d, %r8d
961:
	movq	(%rbx), %r9
	movq	48(%r9,%r8), %r10
	addq	%r10, 40(%r9,%r8)
	movq	$0, 48(%r9,%r8)
	movq	(%rbx), %r9
	movq	112(%r9,%r8), %r10
	addq	%r10, 104(%r9,%r8)
	movq	$0, 112(%r9,%r8)
	addq	$2, %rdx
	subq	$-128, %r8
	cmpq	%rdx, %rsi
	jne	961b
	testb	$1, %cl
	movq	%r14, %r10
	je	1f
678:
	movq	(%rbx), %rcx
	shlq	$6, %rdx
	movq	48(%rcx,%rdx), %rsi
	addq	%rsi, 40(%rcx,%rdx)
	movq	$0, 48(%rcx,%rdx)
1:
	testb	%al, %al
	je	600f
	movq	-16(%rbx), %rax
	cmpb	$0, 96(%rsp)
	cmpq	%r15, %rax
	jbe	871f
	movq	-24(%rbx), %rax
	leaq	(%r15,%r15,4), %rcx
	movb	$0, (%rax,%rcx,8)
871:
	movq	-64(%rbx), %rcx
	testq	%rcx, %rcx
	je	548f
	decq	%rcx
	movq	%rcx, -64(%rbx)
	movq	-80(%rbx), %rax
	addq	-56(%rbx), %rcx
	jne	211f
	testq	%rax, %rax
	je	214f
	movq	-88(%rbx), %rax
	movq	-72(%rbx), %rcx
	xorl	%edx, %edx
	cmpq	%rax, %rcx
	cmovaeq	%rax, %rdx
	movq	-96(%rbx), %rax
	subq	%rdx, %rcx
	shlq	$5, %rcx
	movq	$0, 24(%rax,%rcx)
	jmp	548f
211:
	testq	%rax, %rax
	je	214f
	movq	-88(%rbx), %rdx
	movq	-72(%rbx), %rcx
	leaq	1(%rcx), %rsi
	xorl	%r8d, %r8d
	cmpq	%rdx, %rsi
	cmovaeq	%rdx, %r8
	negq	%r8
	leaq	(%rcx,%r8), %rsi
	incq	%rsi
	movq	%rsi, -72(%rbx)
	decq	%rax
	movq	%rax, -80(%rbx)
	cmpq	%rax, %rdx
	jbe	214f
	movq	-96(%rbx), %r8
	shlq	$5, %rcx
	addq	%rax, %rsi
	xorl	%eax, %eax
	cmpq	%rdx, %rsi
	cmovaeq	%rdx, %rax
	subq	%rax, %rsi
	shlq	$5, %rsi
	movups	(%r8,%rcx), %xmm0
	movq	16(%r8,%rcx), %rax
	movq	%rax, 16(%r8,%rsi)
	movups	%xmm0, (%r8,%rsi)
	movq	$0, 24(%r8,%rsi)
	incq	-80(%rbx)
548:
	movzbl	-103(%rbx), %eax
	testl	%eax, %eax
	je	961f
	cmpl	$2, %eax
	je	409f
	movb	$0, -103(%rbx)
409:
	movb	$0, -100(%rbx)
961:
	movq	96(%rbx), %rax
	cmpq	$-1, %rax
	je	186f
	incq	%rax
	movq	%rax, 96(%rbx)
186:
	movl	$0, 72(%rsp)
	movq	$0, 64(%rsp)
	movb	$1, %r8b
509:
	movl	72(%rsp), %eax
	movl	%eax, 112(%rsp)
	movq	64(%rsp), %rcx
	movq	%rcx, 104(%rsp)
	movl	%r11d, %ebp
	shrl	$8, %ebp
	movl	%r11d, %r12d
	andl	$-65536, %r12d
	movq	%rcx, 48(%rsp)
	movl	%eax, 56(%rsp)
	xorl	%ebx, %ebx
	xorl	%r15d, %r15d
	jmp	83b
83:
	xorl	%r10d, %r10d
	xorl	%r15d, %r15d
	xorl	%r11d, %r11d
	xorl	%ebp, %ebp
	xorl	%r13d, %r13d
	movq	%r12, %r9
	movq	%r14, %r12
969:
	movb	$5, %r8b
	movw	$2, %r14w
	jmp	10b
166:
	movzbl	-160(%r11), %r13d
	cmpl	$8192, %edx
	jae	961f
	testl	$4096, %eax
	movq	%r12, %r9
	jne	289f
	movzbl	4(%r9), %ecx
	movl	%ecx, %eax
	subb	-102(%r11), %al
	jne	678f
	movq	%rdi, %rbx
	movq	-64(%r11), %rax
	cmpq	-80(%r11), %rax
	jae	949f
	cmpb	$0, -103(%r11)
	je	219f
	movb	$1, %sil
83:
	xorl	%r10d, %r10d
	xorl	%r15d, %r15d
	xorl	%ebp, %ebp
	jmp	710f
961:
	movq	%r12, %r9
	leaq	5(%r12), %rdx
	testl	$4096, %eax
	jne	409f
	leaq	-5(%r8), %rsi
	movzbl	(%rdx), %ecx
	movl	%ecx, %eax
	andl	$63, %eax
	cmpb	$1, -40(%r11)
	movq	%rax, 216(%rsp)
	jne	890f
	movq	%rsi, 96(%rsp)
	movq	%rdx, %rbp
	movq	%r13, 40(%rsp)
	movq	%rdi, 32(%rsp)
	shrb	$3, %cl
	andb	$24, %cl
	movl	$50462721, %edx
	shrl	%cl, %edx
	leaq	64(%rax), %rsi
	leaq	6(%r9), %rcx
	addq	$-6, %r8
	movq	%r11, %rbx
	movq	-24(%r11), %rdi
	movq	%rsi, %r15
	callq	tc_packet.runs.follow_at._a1898dc8b9c98594
	testb	%al, %al
	jne	509f
	movzbl	%dl, %eax
	movq	%rax, %r10
	testb	%al, %al
	je	981f
	cmpl	$1, %r10d
	movq	32(%rsp), %rdi
	movq	40(%rsp), %r13
	movq	%rbx, %r11
	movq	%rbp, %rdx
	movq	96(%rsp), %rsi
	je	961f
	movq	%rbx, %r11
	movq	-24(%rbx), %rax
	leaq	(%r15,%r15,4), %rcx
	movq	8(%rax,%rcx,8), %rdx
	movq	%rdx, 88(%rsp)
	movq	16(%rax,%rcx,8), %rax
	movq	%rax, 96(%rsp)
	movb	$1, %al
	movl	%eax, 208(%rsp)
	jmp	966f
289:
	xorl	%r10d, %r10d
	movb	$9, %sil
	jmp	57f
409:
	movb	$9, %sil
	cmpw	$7, %cx
	je	868f
	movzwl	%cx, %eax
	cmpl	$5, %eax
	jne	289f
	cmpb	$0, (%rdx)
	jne	83f
	movzbl	-98(%r11), %eax
	incb	%al
	andb	$3, %al
	movb	%al, -98(%r11)
	movb	$0, -99(%r11)
	movq	%r11, %rax
	movzbl	-103(%r11), %ecx
	movb	$7, %sil
	movq	%rcx, %r15
	testl	%ecx, %ecx
	je	699f
	movq	%rax, %r11
	cmpl	$2, %r15d
	jne	409f
	movb	$0, -103(%rax)
	movw	$0, -101(%rax)
	jmp	83f
680:
	movq	%rbx, %rdi
	callq	tc_queues.committing.roll_back._811965396801c8f8
	movq	32(%rsp), %rdi
600:
	movq	$0, 48(%rsp)
	movl	$0, 56(%rsp)
	xorl	%r10d, %r10d
	movb	$1, %bl
	xorl	%r8d, %r8d
	xorl	%r13d, %r13d
	jmp	890b
678:
	movq	%rdi, %rbx
	movq	%r11, %rdx
	movzbl	-104(%r11), %ecx
	shrb	%cl
	cmpb	%cl, %al
	jb	680f
	negb	%al
	cmpb	%al, %cl
	jb	600f
	movb	$4, %sil
	xorl	%r10d, %r10d
	xorl	%r15d, %r15d
	xorl	%ebp, %ebp
	movq	%rbx, %rdi
	movq	%r12, %r9
	movq	%r14, %r12
	movq	%rdx, %r11
	jmp	422f
890:
	xorl	%r10d, %r10d
	movl	$0, %r15d
	cmpq	-32(%r11), %rsi
	ja	284f
961:
	movq	%r13, 40(%rsp)
	movq	%rdi, 32(%rsp)
	addq	%r10, %rdx
	movq	%rdx, 88(%rsp)
	subq	%r10, %rsi
	movq	%rsi, 96(%rsp)
	movl	$0, 208(%rsp)
966:
	movq	24(%r11), %rax
	movq	%rax, 200(%rsp)
	movq	32(%r11), %rax
	movq	%rax, 120(%rsp)
	movq	72(%r11), %rdx
	movq	80(%r11), %rdi
	xorps	%xmm0, %xmm0
	movaps	%xmm0, 160(%rsp)
	movq	48(%r11), %rsi
	movq	%r11, 8(%rsp)
	movq	56(%r11), %rax
	movzbl	216(%rsp), %ecx
	cmpq	%rcx, %rdi
	jbe	211f
	movzwl	(%rdx,%rcx,2), %edx
	cmpq	%rdx, %rax
	jbe	972f
669:
	leaq	160(%rsp), %rdi
	movq	88(%rsp), %rcx
	movq	96(%rsp), %r8
	callq	tc_queues.delivering.deliver_whole._a1898dc8b9c98594
	movzbl	160(%rsp), %eax
	movl	172(%rsp), %r15d
	jmp	1f
868:
	cmpb	$-126, (%rdx)
	jne	289f
	cmpb	$0, 6(%r9)
	jne	83f
	movzbl	7(%r12), %eax
	movzbl	-98(%r11), %ecx
	incb	%cl
	andb	$3, %cl
	movb	%cl, -98(%r11)
	movzbl	-103(%r11), %ecx
	movb	$8, %sil
	cmpl	$2, %ecx
	je	83f
	cmpl	$1, %ecx
	jne	969f
	movb	$0, -103(%r11)
	movb	%al, -102(%r11)
	movw	$0, -100(%r11)
	jmp	83f
289:
	xorl	%r10d, %r10d
57:
	xorl	%r15d, %r15d
	xorl	%ebp, %ebp
	jmp	378f
211:
	testq	%rax, %rax
	je	972f
	xorl	%edx, %edx
	movq	%rsi, %rdi
129:
	cmpw	%cx, (%rdi)
	je	669b
	incq	%rdx
	addq	$64, %rdi
	cmpq	%rdx, %rax
	jne	129b
972:
	cmpq	$7, 96(%rsp)
	jae	890f
	xorl	%edi, %edi
	movq	96(%rsp), %rbx
	xorl	%r8d, %r8d
961:
	movq	%rdi, %r11
	subq	%rdi, %r8
	xorl	%eax, %eax
	testq	%rbx, %rbx
	setne	%al
	shlq	$32, %rax
	jmp	434f
219:
	leaq	5(%r12), %rsi
	addq	$-5, %r8
	incb	%cl
	movb	%cl, -102(%r11)
	movb	$0, -99(%r11)
	movq	-88(%r11), %rcx
	addq	-72(%r11), %rax
	xorl	%edx, %edx
	cmpq	%rcx, %rax
	cmovaeq	%rcx, %rdx
	movq	%r11, %r15
	movq	-96(%r11), %rcx
	subq	%rdx, %rax
	shlq	$5, %rax
	movq	%r8, 24(%rcx,%rax)
	movq	(%rcx,%rax), %rdi
	movq	%rdi, %rax
	subq	%rsi, %rax
	cmpq	%r8, %rax
	jae	594f
	cmpl	$4, %r8d
	jae	871f
	xorl	%eax, %eax
	jmp	166f
890:
	xorl	%r8d, %r8d
	xorl	%edi, %edi
	movq	88(%rsp), %r13
	movq	96(%rsp), %rbx
	movq	8(%rsp), %rsi
	jmp	471f
890:
	xorl	%eax, %eax
850:
	addq	%rdx, %r13
	addq	%rax, %rdi
	incq	%r8
	cmpq	$6, %rbx
	jbe	961b
471:
	movzwl	(%r13), %eax
	rolw	$8, %ax
	movzwl	%ax, %ecx
	cmpl	$8191, %ecx
	ja	631f
	movzwl	4(%r13), %edx
	rolw	$8, %dx
	movzwl	%dx, %r9d
	leaq	7(%r9), %rdx
	subq	%rdx, %rbx
	jb	631f
	cmpl	$4096, %ecx
	jb	890b
	movq	%r9, (%rsp)
	movq	%rdx, 24(%rsp)
	andl	$2047, %eax
	movq	(%rsi), %r9
	movq	8(%rsi), %rcx
	movzwl	%ax, %edx
	cmpq	%rdx, 120(%rsp)
	movq	%rdi, 16(%rsp)
	movq	%r8, 80(%rsp)
	jbe	211f
	movq	200(%rsp), %rax
	movzwl	(%rax,%rdx,2), %ebp
	cmpq	%rbp, %rcx
	jbe	890f
	shll	$6, %ebp
961:
	movq	24(%r9,%rbp), %rcx
	movq	48(%r9,%rbp), %rsi
	movq	%r9, 136(%rsp)
	addq	40(%r9,%rbp), %rsi
	cmpq	%rsi, %rcx
	jbe	289f
	movq	%rcx, 232(%rsp)
	movq	136(%rsp), %rdx
	movq	8(%rdx,%rbp), %rax
	movq	16(%rdx,%rbp), %rcx
	movq	32(%rdx,%rbp), %rdx
	movq	%rsi, 272(%rsp)
	addq	%rsi, %rdx
	xorl	%esi, %esi
	cmpq	%rcx, %rdx
	cmovaeq	%rcx, %rsi
	subq	%rsi, %rdx
	shlq	$5, %rdx
	leaq	(%rax,%rdx), %rcx
	movq	%rcx, 128(%rsp)
	movq	16(%rax,%rdx), %rcx
	movq	(%rsp), %rax
	addq	$7, %rax
	movq	%rcx, 224(%rsp)
	cmpq	%rcx, %rax
	jbe	961f
	movl	$1, %esi
	movq	(%rsp), %rax
	leaq	7(%rax), %rdi
	callq	rattle_alloc@PLT
	testb	$1, %al
	je	268f
	movq	%rdx, %rax
	subq	%r13, %rax
	movq	(%rsp), %rcx
	addq	$7, %rcx
	cmpq	%rcx, %rax
	jae	678f
	movq	%rdx, %rax
	subq	%r13, %rax
	cmpq	$32, %rax
	jae	742f
	xorl	%eax, %eax
	movq	%rdx, %r8
	jmp	913f
211:
	testq	%rcx, %rcx
	je	890f
	xorl	%ebp, %ebp
129:
	cmpw	(%r9,%rbp), %ax
	je	961b
	addq	$64, %rbp
	decq	%rcx
	jne	129b
890:
	xorl	%eax, %eax
	jmp	589f
961:
	movq	128(%rsp), %rax
	movq	(%rax), %r15
	xorps	%xmm0, %xmm0
	movups	%xmm0, 8(%rax)
	movq	%r15, %rax
	subq	%r13, %rax
	movq	(%rsp), %rcx
	addq	$7, %rcx
	cmpq	%rcx, %rax
	jae	961f
	cmpq	$32, %rax
	jae	129f
	xorl	%eax, %eax
	jmp	966f
961:
	movq	%r15, %rdi
	movq	%r13, %rsi
	movq	24(%rsp), %rdx
	callq	memmove@PLT
	movq	24(%rsp), %rdx
	jmp	771f
678:
	movq	%rdx, %rdi
	movq	%rdx, 224(%rsp)
	movq	%r13, %rsi
	movq	24(%rsp), %r15
	movq	%r15, %rdx
	callq	memmove@PLT
	movq	224(%rsp), %r8
	jmp	209f
129:
	cmpw	$25, (%rsp)
	jae	961f
	xorl	%eax, %eax
	movq	(%rsp), %rcx
	leaq	7(%rcx), %rdx
	jmp	678f
742:
	cmpw	$25, (%rsp)
	jae	586f
	xorl	%eax, %eax
	movq	(%rsp), %rcx
	leaq	7(%rcx), %r15
	movq	%rdx, %r8
	jmp	271f
961:
	movq	(%rsp), %rax
	addq	$7, %rax
	andl	$-32, %eax
	xorl	%ecx, %ecx
464:
	movups	(%r13,%rcx), %xmm0
	movups	16(%r13,%rcx), %xmm1
	movups	%xmm0, (%r15,%rcx)
	movups	%xmm1, 16(%r15,%rcx)
	addq	$32, %rcx
	cmpq	%rcx, %rax
	jne	464b
	movq	(%rsp), %rcx
	leaq	7(%rcx), %rdx
	cmpl	%eax, %edx
	je	771f
	testb	$28, %dl
	je	966f
678:
	movq	%rax, %rcx
	movl	%edx, %eax
	andl	$-4, %eax
186:
	movl	(%r13,%rcx), %edx
	movl	%edx, (%r15,%rcx)
	addq	$4, %rcx
	cmpq	%rcx, %rax
	jne	186b
	movq	(%rsp), %rcx
	leaq	7(%rcx), %rdx
	cmpl	%eax, %edx
	je	771f
966:
	movq	(%rsp), %rcx
	movl	%ecx, %edx
	andl	$3, %edx
	movq	%rax, %rcx
	cmpl	$1, %edx
	je	300f
	movq	(%rsp), %rcx
	leal	-1(%rcx), %edx
	andl	$3, %edx
	movq	%rax, %rcx
548:
	movzbl	(%r13,%rcx), %esi
	movb	%sil, (%r15,%rcx)
	incq	%rcx
	decq	%rdx
	jne	548b
300:
	negq	%rax
	movq	(%rsp), %rdx
	addq	%rdx, %rax
	addq	$6, %rax
	cmpl	$3, %eax
	movq	24(%rsp), %rdx
	jb	771f
548:
	movzbl	(%r13,%rcx), %eax
	movb	%al, (%r15,%rcx)
	movzbl	1(%r13,%rcx), %eax
	movb	%al, 1(%r15,%rcx)
	movzbl	2(%r13,%rcx), %eax
	movb	%al, 2(%r15,%rcx)
	movzbl	3(%r13,%rcx), %eax
	movb	%al, 3(%r15,%rcx)
	addq	$4, %rcx
	cmpq	%rcx, %rdx
	jne	548b
771:
	movq	128(%rsp), %rax
	movq	%r15, (%rax)
	movq	%rdx, 8(%rax)
	movq	224(%rsp), %rcx
	movq	%rcx, 16(%rax)
	jmp	961f
586:
	movq	(%rsp), %rax
	addq	$7, %rax
	andl	$-32, %eax
	xorl	%ecx, %ecx
	movq	%rdx, %r8
464:
	movups	(%r13,%rcx), %xmm0
	movups	16(%r13,%rcx), %xmm1
	movups	%xmm0, (%r8,%rcx)
	movups	%xmm1, 16(%r8,%rcx)
	addq	$32, %rcx
	cmpq	%rcx, %rax
	jne	464b
	movq	(%rsp), %rcx
	leaq	7(%rcx), %r15
	cmpl	%eax, %r15d
	je	209f
	testb	$28, %r15b
	je	913f
271:
	movq	%rax, %rcx
	movl	%r15d, %eax
	andl	$-4, %eax
186:
	movl	(%r13,%rcx), %edx
	movl	%edx, (%r8,%rcx)
	addq	$4, %rcx
	cmpq	%rcx, %rax
	jne	186b
	movq	(%rsp), %rcx
	leaq	7(%rcx), %r15
	cmpl	%eax, %r15d
	je	209f
913:
	movq	(%rsp), %rcx
	movl	%ecx, %edx
	andl	$3, %edx
	movq	%rax, %rcx
	cmpl	$1, %edx
	je	300f
	movq	(%rsp), %rcx
	leal	-1(%rcx), %edx
	andl	$3, %edx
	movq	%rax, %rcx
548:
	movzbl	(%r13,%rcx), %esi
	movb	%sil, (%r8,%rcx)
	incq	%rcx
	decq	%rdx
	jne	548b
300:
	negq	%rax
	movq	(%rsp), %rdx
	addq	%rdx, %rax
	addq	$6, %rax
	cmpl	$3, %eax
	movq	24(%rsp), %r15
	jb	209f
548:
	movzbl	(%r13,%rcx), %eax
	movb	%al, (%r8,%rcx)
	movzbl	1(%r13,%rcx), %eax
	movb	%al, 1(%r8,%rcx)
	movzbl	2(%r13,%rcx), %eax
	movb	%al, 2(%r8,%rcx)
	movzbl	3(%r13,%rcx), %eax
	movb	%al, 3(%r8,%rcx)
	addq	$4, %rcx
	cmpq	%rcx, %r15
	jne	548b
209:
	movq	128(%rsp), %rax
	movq	(%rax), %rdi
	movq	%r8, (%rax)
	movq	%r15, 8(%rax)
	cmpq	$0, 16(%rax)
	movq	%r15, 16(%rax)
	je	961f
	callq	rattle_dealloc@PLT
961:
	movq	136(%rsp), %rax
	incq	48(%rax,%rbp)
	movq	232(%rsp), %rcx
	movq	272(%rsp), %rsi
289:
	xorl	%eax, %eax
	cmpq	%rsi, %rcx
	seta	%al
589:
	movq	8(%rsp), %rsi
	movq	16(%rsp), %rdi
	movq	80(%rsp), %r8
	movq	24(%rsp), %rdx
	jmp	850b
594:
	movq	%r8, %rdx
	callq	memmove@PLT
	jmp	966f
981:
	movl	%r10d, %r15d
	movq	32(%rsp), %rdi
	movq	40(%rsp), %r13
	movq	%r12, %r9
	movq	%rbx, %r11
	jmp	284f
631:
	movabsq	$4294967296, %rax
	movq	%rdi, %r11
	subq	%rdi, %r8
434:
	movl	%r8d, %r10d
	orq	%rax, %r10
	movq	8(%rsp), %rax
	movq	8(%rax), %rax
	cmpq	$0, 120(%rsp)
	je	47f
	movl	%r11d, %ecx
	cmpq	%rcx, %rax
	jb	47f
	movq	96(%rsp), %r9
	cmpq	$7, %r9
	movq	88(%rsp), %r8
	jae	471f
	jmp	890f
961:
	movq	48(%rax,%rsi), %rdx
	addq	%rdx, 40(%rax,%rsi)
	movq	$0, 48(%rax,%rsi)
850:
	addq	%rcx, %r8
	cmpq	$7, %r9
	jb	890f
471:
	movzwl	(%r8), %edx
	rolw	$8, %dx
	movzwl	%dx, %esi
	xorl	%eax, %eax
	cmpl	$8191, %esi
	ja	186f
	movzwl	4(%r8), %ecx
	rolw	$8, %cx
	movzwl	%cx, %ecx
	addq	$7, %rcx
	subq	%rcx, %r9
	jb	186f
	cmpl	$4096, %esi
	jb	850b
	andl	$2047, %edx
	movq	8(%rsp), %rsi
	movq	(%rsi), %rax
	movq	8(%rsi), %rdi
	movzwl	%dx, %esi
	cmpq	%rsi, 120(%rsp)
	jbe	211f
	movq	200(%rsp), %rdx
	movzwl	(%rdx,%rsi,2), %esi
	cmpq	%rsi, %rdi
	jbe	850b
	shll	$6, %esi
	jmp	961b
211:
	testq	%rdi, %rdi
	je	850b
	xorl	%esi, %esi
129:
	cmpw	(%rax,%rsi), %dx
	je	961b
	addq	$64, %rsi
	decq	%rdi
	jne	129b
	jmp	850b
47:
	testq	%rax, %rax
	je	890f
	cmpq	$1, %rax
	jne	961f
	xorl	%ecx, %ecx
	jmp	678f
871:
	movq	%rdi, %rax
	subq	%r12, %rax
	addq	$-5, %rax
	cmpq	$32, %rax
	jae	871f
	xorl	%eax, %eax
	jmp	166f
699:
	movq	%r15, %r10
	movl	%r15d, %ebp
	movq	%r12, %r9
	movq	%r14, %r12
	movq	%rax, %r11
	jmp	422f
409:
	movb	$0, -103(%rax)
	movb	$0, -100(%rax)
	jmp	83f
961:
	movq	%rax, %rdx
	andq	$-2, %rdx
	xorl	%ecx, %ecx
	xorl	%esi, %esi
	movq	8(%rsp), %r9
961:
	movq	(%r9), %rdi
	movq	48(%rdi,%rsi), %r8
	addq	%r8, 40(%rdi,%rsi)
	movq	$0, 48(%rdi,%rsi)
	movq	(%r9), %rdi
	movq	112(%rdi,%rsi), %r8
	addq	%r8, 104(%rdi,%rsi)
	movq	$0, 112(%rdi,%rsi)
	addq	$2, %rcx
	subq	$-128, %rsi
	cmpq	%rcx, %rdx
	jne	961b
	testb	$1, %al
	je	890f
678:
	movq	8(%rsp), %rax
	movq	(%rax), %rax
	shlq	$6, %rcx
	movq	48(%rax,%rcx), %rdx
	addq	%rdx, 40(%rax,%rcx)
	movq	$0, 48(%rax,%rcx)
890:
	xorl	%eax, %eax
186:
	movl	%r11d, 164(%rsp)
	movq	%r10, %r15
	movq	%r10, 168(%rsp)
	shrq	$32, %r15
1:
	testb	%al, %al
	je	648f
509:
	movl	$0, 56(%rsp)
	movq	$0, 48(%rsp)
	movb	$1, %bl
	xorl	%r15d, %r15d
	xorl	%r10d, %r10d
	xorl	%r8d, %r8d
	xorl	%r13d, %r13d
	xorl	%r11d, %r11d
	xorl	%ebp, %ebp
	movq	32(%rsp), %rdi
	movq	%r12, %r9
	movq	%r14, %r12
	xorl	%r14d, %r14d
	testq	%r12, %r12
	jne	648b
657:
	xorl	%r12d, %r12d
	jmp	284b
648:
	movq	164(%rsp), %r10
	movq	216(%rsp), %rax
	orb	$64, %al
	movzbl	%al, %eax
	movq	8(%rsp), %rcx
	movq	-16(%rcx), %rcx
	cmpb	$0, 208(%rsp)
	cmpq	%rax, %rcx
	jbe	648f
	movq	8(%rsp), %r11
	movq	-24(%r11), %rcx
	leaq	(%rax,%rax,4), %rax
	movb	$0, (%rcx,%rax,8)
	movq	32(%rsp), %rdi
	movq	40(%rsp), %r13
	movq	%r12, %r9
	jmp	284f
648:
	movq	32(%rsp), %rdi
	movq	40(%rsp), %r13
	movq	%r12, %r9
	movq	8(%rsp), %r11
284:
	movzbl	-98(%r11), %eax
	incb	%al
	andb	$3, %al
	movb	%al, -98(%r11)
	movb	$1, %bpl
	movb	$6, %sil
	jmp	378f
949:
	leaq	-103(%r11), %rdi
	movq	%r11, %r15
	callq	tc_link.farm.full
	movq	%r15, %r11
	movb	$2, %sil
	jmp	83b
680:
	movq	%rdx, %r15
	leaq	-103(%rdx), %rdi
	callq	tc_link.farm.ahead
	movq	%r15, %r11
	movb	$3, %sil
	jmp	83b
600:
	movq	%rdx, %r15
	leaq	-103(%rdx), %rdi
	callq	tc_link.farm.outside
	movq	%r15, %r11
	movb	$5, %sil
	jmp	83b
871:
	cmpl	$32, %r8d
	jae	648f
	xorl	%eax, %eax
	jmp	961f
969:
	movb	%al, -102(%r11)
	movb	$0, -99(%r11)
83:
	xorl	%r10d, %r10d
	xorl	%r15d, %r15d
	xorl	%ebp, %ebp
	jmp	678f
648:
	movq	%r8, %rax
	andq	$-32, %rax
	xorl	%ecx, %ecx
	movq	%r12, %rdx
464:
	movups	5(%rdx,%rcx), %xmm0
	movups	21(%rdx,%rcx), %xmm1
	movups	%xmm0, (%rdi,%rcx)
	movups	%xmm1, 16(%rdi,%rcx)
	addq	$32, %rcx
	cmpq	%rcx, %rax
	jne	464b
	cmpl	%eax, %r8d
	je	966f
	testb	$28, %r8b
	je	166f
961:
	movq	%rax, %rcx
	movq	%r8, %rax
	andq	$-4, %rax
981:
	movl	(%rsi,%rcx), %edx
	movl	%edx, (%rdi,%rcx)
	addq	$4, %rcx
	cmpq	%rcx, %rax
	jne	981b
	cmpl	%eax, %r8d
	je	966f
166:
	movzbl	(%rsi,%rax), %ecx
	movb	%cl, (%rdi,%rax)
	incq	%rax
	cmpq	%rax, %r8
	jne	166b
966:
	movq	%r15, %r11
	incq	-64(%r15)
	movb	$1, %sil
	xorl	%r10d, %r10d
	xorl	%r15d, %r15d
	movb	$1, %bpl
710:
	movq	%rbx, %rdi
678:
	movq	%r12, %r9
378:
	movq	%r14, %r12
422:
	movq	96(%r11), %rax
	cmpq	$-1, %rax
	je	981f
	incq	%rax
	movq	%rax, 96(%r11)
981:
	movl	$0, 72(%rsp)
	movq	$0, 64(%rsp)
	xorl	%r8d, %r8d
	xorl	%r14d, %r14d
	movq	%rsi, %r11
	jmp	10b
268:
	movq	8(%rsp), %rdi
	callq	tc_queues.committing.roll_back._811965396801c8f8
	xorl	%r11d, %r11d
	movb	$1, %al
	xorl	%r10d, %r10d
	jmp	186b
214:
	ud2
	.section	.rodata.tc_rack.rack.Rack.operate,"a",@progbits
	.p2align	2
.LJ30a5ded7_0:
	.long	327b-.LJ30a5ded7_0
	.long	638b-.LJ30a5ded7_0
	.long	859b-.LJ30a5ded7_0
	.long	12b-.LJ30a5ded7_0
	.long	928b-.LJ30a5ded7_0
	.section	.text.tc_packet.runs.follow_at._a1898dc8b9c98594,"ax",@progbits
	.p2align	4
tc_packet.runs.follow_at._a1898dc8b9c98594:
	pushq	%r15
	pushq	%r14
	pushq	%r13
	pushq	%r12
	pushq	%rbx
	leaq	(%rsi,%rsi,4), %rax
	leaq	(%rdi,%rax,8), %r14
	movzbl	%dl, %eax
	leaq	.LJ2c231272_0(%rip), %rdx
	movslq	(%rdx,%rax,4), %rax
	addq	%rdx, %rax
	jmpq	*%rax
972:
	cmpq	%r8, 32(%r14)
	jb	409f
	movq	24(%r14), %r15
	cmpq	%r15, %r8
	jbe	859f
	movb	$1, %al
	testq	%r8, %r8
	js	57f
	movq	%rcx, %r15
	movl	$1, %esi
	movq	%r8, %rbx
	movq	%r8, %rdi
	callq	rattle_alloc@PLT
	testb	$1, %al
	je	110f
	movq	%rdx, %rax
	movq	%r15, %rsi
	subq	%r15, %rax
	movq	%rbx, %r8
	cmpq	%rbx, %rax
	jae	966f
	cmpq	$4, %r8
	setb	%al
	movq	%rdx, %rcx
	subq	%rsi, %rcx
	cmpq	$32, %rcx
	setb	%cl
	orb	%al, %cl
	je	631f
	xorl	%eax, %eax
	jmp	589f
868:
	cmpb	$1, (%r14)
	jne	409f
	movq	32(%r14), %rax
	movl	4(%r14), %edx
	subq	%rdx, %rax
	cmpq	%r8, %rax
	jb	409f
	leaq	16(%r14), %r13
	movq	16(%r14), %rax
	cmpq	%rdx, %rax
	jbe	928f
	movq	%rdx, (%r13)
	movq	%rdx, %rax
928:
	movq	24(%r14), %rbx
	movq	%rbx, %rdx
	subq	%rax, %rdx
	cmpq	%rdx, %r8
	ja	913f
669:
	leaq	(%rax,%r8), %r15
	movq	8(%r14), %r12
	xorps	%xmm0, %xmm0
	movups	%xmm0, (%r13)
	leaq	(%r12,%rax), %rdi
	movq	%rdi, %rdx
	subq	%rcx, %rdx
	cmpq	%r8, %rdx
	jae	638f
	cmpq	$4, %r8
	jb	890f
	cmpq	$32, %rdx
	jae	778f
890:
	xorl	%edx, %edx
928:
	movq	%r8, %r9
	movq	%rdx, %rsi
	andq	$3, %r9
	je	980f
	movq	%rdx, %rsi
	.p2align	4
548:
	movzbl	(%rcx,%rsi), %r10d
	movb	%r10b, (%rdi,%rsi)
	incq	%rsi
	decq	%r9
	jne	548b
980:
	subq	%r8, %rdx
	cmpq	$-4, %rdx
	ja	648f
	addq	%r12, %rax
	addq	$3, %rax
	.p2align	4
548:
	movzbl	(%rcx,%rsi), %edx
	movb	%dl, -3(%rax,%rsi)
	movzbl	1(%rcx,%rsi), %edx
	movb	%dl, -2(%rax,%rsi)
	movzbl	2(%rcx,%rsi), %edx
	movb	%dl, -1(%rax,%rsi)
	movzbl	3(%rcx,%rsi), %edx
	movb	%dl, (%rax,%rsi)
	addq	$4, %rsi
	cmpq	%rsi, %r8
	jne	548b
	jmp	648f
489:
	cmpq	32(%r14), %r8
	ja	409f
	movb	$1, %dl
	jmp	83f
198:
	cmpb	$1, (%r14)
	jne	409f
	movq	32(%r14), %rax
	movl	4(%r14), %edx
	subq	%rdx, %rax
	cmpq	%r8, %rax
	jae	219f
409:
	movb	$0, (%r14)
890:
	xorl	%edx, %edx
83:
	xorl	%eax, %eax
912:
	popq	%rbx
	popq	%r12
	popq	%r13
	popq	%r14
	popq	%r15
	retq
859:
	movq	8(%r14), %rbx
	xorps	%xmm0, %xmm0
	movups	%xmm0, 16(%r14)
	movq	%rbx, %rdx
	subq	%rcx, %rdx
	cmpq	%r8, %rdx
	jae	12f
	xorl	%eax, %eax
	cmpq	$4, %r8
	jb	271f
	cmpq	$32, %rdx
	jb	271f
	cmpq	$32, %r8
	jae	771f
	xorl	%eax, %eax
	jmp	586f
219:
	leaq	16(%r14), %r13
	movq	16(%r14), %rax
	cmpq	%rdx, %rax
	jbe	859f
	movq	%rdx, (%r13)
	movq	%rdx, %rax
859:
	movq	24(%r14), %rbx
	movq	%rbx, %rdx
	subq	%rax, %rdx
	cmpq	%rdx, %r8
	ja	209f
219:
	leaq	(%rax,%r8), %r15
	movq	8(%r14), %r12
	xorps	%xmm0, %xmm0
	movups	%xmm0, (%r13)
	leaq	(%r12,%rax), %rdi
	movq	%rdi, %rdx
	subq	%rcx, %rdx
	cmpq	%r8, %rdx
	jae	961f
	cmpq	$4, %r8
	jb	289f
	cmpq	$32, %rdx
	jae	571f
289:
	xorl	%edx, %edx
859:
	movq	%r8, %r9
	movq	%rdx, %rsi
	andq	$3, %r9
	je	980f
	movq	%rdx, %rsi
	.p2align	4
548:
	movzbl	(%rcx,%rsi), %r10d
	movb	%r10b, (%rdi,%rsi)
	incq	%rsi
	decq	%r9
	jne	548b
980:
	subq	%r8, %rdx
	cmpq	$-4, %rdx
	ja	678f
	addq	%r12, %rax
	addq	$3, %rax
	.p2align	4
548:
	movzbl	(%rcx,%rsi), %edx
	movb	%dl, -3(%rax,%rsi)
	movzbl	1(%rcx,%rsi), %edx
	movb	%dl, -2(%rax,%rsi)
	movzbl	2(%rcx,%rsi), %edx
	movb	%dl, -1(%rax,%rsi)
	movzbl	3(%rcx,%rsi), %edx
	movb	%dl, (%rax,%rsi)
	addq	$4, %rsi
	cmpq	%rsi, %r8
	jne	548b
	jmp	678f
12:
	movq	%rbx, %rdi
	movq	%rcx, %rsi
	movq	%r8, %rdx
	movq	%r8, %r12
	callq	memmove@PLT
	movq	%r12, %r8
	jmp	12f
638:
	movq	%rcx, %rsi
	movq	%r8, %rdx
	callq	memmove@PLT
648:
	movq	%r12, 8(%r14)
	movq	%r15, 16(%r14)
	movq	%rbx, 24(%r14)
	movb	$2, %dl
	jmp	83b
961:
	movq	%rcx, %rsi
	movq	%r8, %rdx
	callq	memmove@PLT
678:
	movq	%r12, 8(%r14)
	movq	%r15, 16(%r14)
	movq	%rbx, 24(%r14)
	movl	%r15d, 4(%r14)
	jmp	890b
57:
	xorl	%edx, %edx
	jmp	912b
110:
	xorl	%edx, %edx
	movb	$1, %al
	jmp	912b
966:
	movq	%rdx, %rdi
	movq	%rdx, %r15
	movq	%r8, %rdx
	callq	memmove@PLT
	movq	%r15, %rdx
	movq	%rbx, %r8
	jmp	678f
771:
	movq	%r8, %rax
	andq	$-32, %rax
	xorl	%edx, %edx
	.p2align	4
464:
	movups	(%rcx,%rdx), %xmm0
	movups	16(%rcx,%rdx), %xmm1
	movups	%xmm0, (%rbx,%rdx)
	movups	%xmm1, 16(%rbx,%rdx)
	addq	$32, %rdx
	cmpq	%rdx, %rax
	jne	464b
	cmpq	%rax, %r8
	je	12f
	testb	$28, %r8b
	je	271f
586:
	movq	%rax, %rdx
	movq	%r8, %rax
	andq	$-4, %rax
	.p2align	4
327:
	movl	(%rcx,%rdx), %esi
	movl	%esi, (%rbx,%rdx)
	addq	$4, %rdx
	cmpq	%rdx, %rax
	jne	327b
	cmpq	%rax, %r8
	je	12f
271:
	movq	%r8, %rsi
	movq	%rax, %rdx
	andq	$3, %rsi
	je	980f
	movq	%rax, %rdx
	.p2align	4
548:
	movzbl	(%rcx,%rdx), %edi
	movb	%dil, (%rbx,%rdx)
	incq	%rdx
	decq	%rsi
	jne	548b
980:
	subq	%r8, %rax
	cmpq	$-4, %rax
	ja	12f
	.p2align	4
548:
	movzbl	(%rcx,%rdx), %eax
	movb	%al, (%rbx,%rdx)
	movzbl	1(%rcx,%rdx), %eax
	movb	%al, 1(%rbx,%rdx)
	movzbl	2(%rcx,%rdx), %eax
	movb	%al, 2(%rbx,%rdx)
	movzbl	3(%rcx,%rdx), %eax
	movb	%al, 3(%rbx,%rdx)
	addq	$4, %rdx
	cmpq	%rdx, %r8
	jne	548b
12:
	movq	%rbx, 8(%r14)
	movq	%r8, 16(%r14)
	movq	%r15, 24(%r14)
409:
	movb	$1, (%r14)
	movl	%r8d, 4(%r14)
	jmp	890b
778:
	cmpq	$32, %r8
	jae	12f
	xorl	%edx, %edx
	jmp	638f
571:
	cmpq	$32, %r8
	jae	928f
	xorl	%edx, %edx
	jmp	648f
631:
	movabsq	$9223372036854775776, %rcx
	cmpq	$32, %r8
	jae	859f
	xorl	%eax, %eax
	jmp	961f
12:
	movq	%r8, %rdx
	andq	$-32, %rdx
	leaq	(%rax,%r12), %rsi
	addq	$16, %rsi
	xorl	%r9d, %r9d
464:
	movups	(%rcx,%r9), %xmm0
	movups	16(%rcx,%r9), %xmm1
	movups	%xmm0, -16(%rsi,%r9)
	movups	%xmm1, (%rsi,%r9)
	addq	$32, %r9
	cmpq	%r9, %rdx
	jne	464b
	cmpq	%rdx, %r8
	je	648b
	testb	$28, %r8b
	je	928b
638:
	movq	%rdx, %rsi
	movq	%r8, %rdx
	andq	$-4, %rdx
327:
	movl	(%rcx,%rsi), %r9d
	movl	%r9d, (%rdi,%rsi)
	addq	$4, %rsi
	cmpq	%rsi, %rdx
	jne	327b
	cmpq	%rdx, %r8
	je	648b
	jmp	928b
928:
	movq	%r8, %rdx
	andq	$-32, %rdx
	leaq	(%rax,%r12), %rsi
	addq	$16, %rsi
	xorl	%r9d, %r9d
464:
	movups	(%rcx,%r9), %xmm0
	movups	16(%rcx,%r9), %xmm1
	movups	%xmm0, -16(%rsi,%r9)
	movups	%xmm1, (%rsi,%r9)
	addq	$32, %r9
	cmpq	%r9, %rdx
	jne	464b
	cmpq	%rdx, %r8
	je	678b
	testb	$28, %r8b
	je	859b
648:
	movq	%rdx, %rsi
	movq	%r8, %rdx
	andq	$-4, %rdx
327:
	movl	(%rcx,%rsi), %r9d
	movl	%r9d, (%rdi,%rsi)
	addq	$4, %rsi
	cmpq	%rsi, %rdx
	jne	327b
	cmpq	%rdx, %r8
	je	678b
	jmp	859b
913:
	movq	%rcx, %r15
	leaq	8(%r14), %rdi
	movq	%r8, %r12
	movq	%r8, %rsi
	callq	std_alloc.vec.Vec.grow_amortized._737312a0b24cb88f
	testb	%al, %al
	je	969f
	movq	16(%r14), %rax
	movq	24(%r14), %rbx
	movq	%r12, %r8
	movq	%r15, %rcx
	jmp	669b
209:
	movq	%rcx, %r15
	leaq	8(%r14), %rdi
	movq	%r8, %r12
	movq	%r8, %rsi
	callq	std_alloc.vec.Vec.grow_amortized._737312a0b24cb88f
	testb	%al, %al
	je	969f
	movq	16(%r14), %rax
	movq	24(%r14), %rbx
	movq	%r12, %r8
	movq	%r15, %rcx
	jmp	219b
969:
	movb	$1, %al
	xorl	%edx, %edx
	jmp	912b
859:
	movq	%r8, %rax
	andq	%rcx, %rax
	xorl	%edi, %edi
464:
	movups	(%rsi,%rdi), %xmm0
	movups	16(%rsi,%rdi), %xmm1
	movups	%xmm0, (%rdx,%rdi)
	movups	%xmm1, 16(%rdx,%rdi)
	addq	$32, %rdi
	cmpq	%rdi, %rax
	jne	464b
	cmpq	%rax, %r8
	je	678f
	testb	$28, %r8b
	je	589f
961:
	movq	%rax, %rdi
	addq	$28, %rcx
	movq	%rcx, %rax
	andq	%r8, %rax
327:
	movl	(%rsi,%rdi), %ecx
	movl	%ecx, (%rdx,%rdi)
	addq	$4, %rdi
	cmpq	%rdi, %rax
	jne	327b
	cmpq	%rax, %r8
	je	678f
589:
	movq	%r8, %rdi
	movq	%rax, %rcx
	andq	$3, %rdi
	je	980f
	movq	%rax, %rcx
548:
	movzbl	(%rsi,%rcx), %r9d
	movb	%r9b, (%rdx,%rcx)
	incq	%rcx
	decq	%rdi
	jne	548b
980:
	subq	%r8, %rax
	cmpq	$-4, %rax
	ja	678f
548:
	movzbl	(%rsi,%rcx), %eax
	movb	%al, (%rdx,%rcx)
	movzbl	1(%rsi,%rcx), %eax
	movb	%al, 1(%rdx,%rcx)
	movzbl	2(%rsi,%rcx), %eax
	movb	%al, 2(%rdx,%rcx)
	movzbl	3(%rsi,%rcx), %eax
	movb	%al, 3(%rdx,%rcx)
	addq	$4, %rcx
	cmpq	%rcx, %r8
	jne	548b
678:
	movq	8(%r14), %rdi
	movq	%rdx, 8(%r14)
	movq	%r8, 16(%r14)
	cmpq	$0, 24(%r14)
	movq	%r8, 24(%r14)
	je	409b
	callq	rattle_dealloc@PLT
	movq	%rbx, %r8
	jmp	409b
	.section	.rodata.tc_packet.runs.follow_at._a1898dc8b9c98594,"a",@progbits
	.p2align	2
.LJ2c231272_0:
	.long	972b-.LJ2c231272_0
	.long	198b-.LJ2c231272_0
	.long	868b-.LJ2c231272_0
	.long	489b-.LJ2c231272_0
	.section	.text.unlikely.std_alloc.vec.Vec.grow_amortized._737312a0b24cb88f,"ax",@progbits
	.p2align	4
std_alloc.vec.Vec.grow_amortized._737312a0b24cb88f:
	movq	%rsi, %rax
	movq	8(%rdi), %rsi
	addq	%rsi, %rax
	jae	253f
	xorl	%eax, %eax
	retq
253:
	pushq	%r14
	pushq	%rbx
	pushq	%rax
	cmpq	$9, %rax
	movl	$8, %ebx
	cmovaeq	%rax, %rbx
	movq	16(%rdi), %rcx
	movq	%rcx, %rdx
	shrq	$62, %rdx
	leaq	(%rcx,%rcx), %rax
	cmpq	%rax, %rbx
	cmovaq	%rbx, %rax
	testq	%rdx, %rdx
	cmoveq	%rax, %rbx
	testq	%rbx, %rbx
	js	890f
	testq	%rcx, %rcx
	je	859f
	movq	%rdi, %r14
	movq	(%rdi), %rdi
	movl	$1, %ecx
	movq	%rbx, %rdx
	callq	rattle_realloc@PLT
	testb	$1, %al
	je	890f
928:
	movq	%rdx, (%r14)
	movq	%rbx, 16(%r14)
	movb	$1, %al
	addq	$8, %rsp
	popq	%rbx
	popq	%r14
	retq
859:
	movq	%rdi, %r14
	movl	$1, %esi
	movq	%rax, %rdi
	callq	rattle_alloc@PLT
	testb	$1, %al
	jne	928b
890:
	xorl	%eax, %eax
	addq	$8, %rsp
	popq	%rbx
	popq	%r14
	retq
	.section	.text.tc_queues.delivering.deliver_whole._a1898dc8b9c98594,"ax",@progbits
	.p2align	4
tc_queues.delivering.deliver_whole._a1898dc8b9c98594:
	pushq	%rbp
	pushq	%r15
	pushq	%r14
	pushq	%r13
	pushq	%r12
	pushq	%rbx
	pushq	%rax
	shlq	$6, %rdx
	movq	40(%rsi,%rdx), %rax
	cmpq	%rax, 24(%rsi,%rdx)
	jbe	409f
	movq	8(%rsi,%rdx), %r9
	movq	16(%rsi,%rdx), %r10
	addq	32(%rsi,%rdx), %rax
	xorl	%r11d, %r11d
	cmpq	%r10, %rax
	cmovaeq	%r10, %r11
	subq	%r11, %rax
	shlq	$5, %rax
	leaq	(%r9,%rax), %r14
	movq	16(%r9,%rax), %r12
	cmpq	%r12, %r8
	jbe	928f
	testq	%r8, %r8
	js	969f
	movq	%rsi, %r15
	movq	%rdx, %r12
	movl	$1, %esi
	movq	%rdi, %r13
	movq	%r8, %rdi
	movq	%r8, %rbp
	movq	%rcx, %rbx
	callq	rattle_alloc@PLT
	movq	%r13, %rdi
	testb	$1, %al
	je	969f
	movq	%rbx, %r8
	movq	%rbp, %rcx
	movq	%rdx, %rbx
	movq	%rdx, %rax
	subq	%r8, %rax
	cmpq	%rbp, %rax
	jae	859f
	cmpq	$4, %rcx
	setb	%al
	movq	%rbx, %rdx
	subq	%r8, %rdx
	cmpq	$32, %rdx
	setb	%dl
	orb	%al, %dl
	je	631f
	xorl	%eax, %eax
	movq	%r12, %rdx
	movq	%r15, %rsi
	jmp	961f
409:
	movb	$0, (%rdi)
	movabsq	$4294967296, %rax
	movq	%rax, 4(%rdi)
	jmp	327f
928:
	movq	(%r14), %rbx
	xorps	%xmm0, %xmm0
	movups	%xmm0, 8(%r14)
	movq	%rbx, %r9
	subq	%rcx, %r9
	cmpq	%r8, %r9
	jae	928f
	xorl	%eax, %eax
	cmpq	$4, %r8
	jb	648f
	cmpq	$32, %r9
	jb	648f
	cmpq	$32, %r8
	jae	12f
	xorl	%eax, %eax
	jmp	638f
969:
	movb	$1, (%rdi)
	movq	$0, 4(%rdi)
327:
	movl	$0, 12(%rdi)
	jmp	850f
928:
	movq	%rdi, (%rsp)
	movq	%rbx, %rdi
	movq	%rsi, %r13
	movq	%rcx, %rsi
	movq	%rdx, %rbp
	movq	%r8, %rdx
	movq	%r14, %r15
	movq	%r8, %r14
	callq	memmove@PLT
	movq	%r14, %r8
	movq	%r15, %r14
	movq	%r13, %rsi
	movq	%rbp, %rdx
	movq	(%rsp), %rdi
	jmp	928f
859:
	movq	%rbx, %rdi
	movq	%r8, %rsi
	movq	%rcx, %rdx
	callq	memmove@PLT
	movq	%rbp, %rcx
	movq	%r13, %rdi
	movq	%r12, %rdx
	movq	%r15, %rsi
	jmp	678f
12:
	movq	%r8, %rax
	andq	$-32, %rax
	xorl	%r9d, %r9d
	.p2align	4
464:
	movups	(%rcx,%r9), %xmm0
	movups	16(%rcx,%r9), %xmm1
	movups	%xmm0, (%rbx,%r9)
	movups	%xmm1, 16(%rbx,%r9)
	addq	$32, %r9
	cmpq	%r9, %rax
	jne	464b
	cmpq	%rax, %r8
	je	928f
	testb	$28, %r8b
	je	648f
638:
	movq	%rax, %r9
	movq	%r8, %rax
	andq	$-4, %rax
	.p2align	4
327:
	movl	(%rcx,%r9), %r10d
	movl	%r10d, (%rbx,%r9)
	addq	$4, %r9
	cmpq	%r9, %rax
	jne	327b
	cmpq	%rax, %r8
	je	928f
648:
	movq	%r8, %r10
	movq	%rax, %r9
	andq	$3, %r10
	je	980f
	movq	%rax, %r9
	.p2align	4
548:
	movzbl	(%rcx,%r9), %r11d
	movb	%r11b, (%rbx,%r9)
	incq	%r9
	decq	%r10
	jne	548b
980:
	subq	%r8, %rax
	cmpq	$-4, %rax
	ja	928f
	.p2align	4
548:
	movzbl	(%rcx,%r9), %eax
	movb	%al, (%rbx,%r9)
	movzbl	1(%rcx,%r9), %eax
	movb	%al, 1(%rbx,%r9)
	movzbl	2(%rcx,%r9), %eax
	movb	%al, 2(%rbx,%r9)
	movzbl	3(%rcx,%r9), %eax
	movb	%al, 3(%rbx,%r9)
	addq	$4, %r9
	cmpq	%r9, %r8
	jne	548b
928:
	movq	%rbx, (%r14)
	movq	%r8, 8(%r14)
	movq	%r12, 16(%r14)
629:
	incq	40(%rsi,%rdx)
	movb	$0, (%rdi)
	movl	$1, 4(%rdi)
	movq	$0, 8(%rdi)
850:
	addq	$8, %rsp
	popq	%rbx
	popq	%r12
	popq	%r13
	popq	%r14
	popq	%r15
	popq	%rbp
	retq
631:
	movabsq	$9223372036854775776, %r9
	cmpq	$32, %rcx
	movq	%r12, %rdx
	movq	%r15, %rsi
	jae	928f
	xorl	%eax, %eax
	jmp	859f
928:
	movq	%rcx, %rax
	andq	%r9, %rax
	xorl	%r10d, %r10d
	.p2align	4
464:
	movups	(%r8,%r10), %xmm0
	movups	16(%r8,%r10), %xmm1
	movups	%xmm0, (%rbx,%r10)
	movups	%xmm1, 16(%rbx,%r10)
	addq	$32, %r10
	cmpq	%r10, %rax
	jne	464b
	cmpq	%rax, %rcx
	je	678f
	testb	$28, %cl
	je	961f
859:
	movq	%rax, %r10
	addq	$28, %r9
	movq	%r9, %rax
	andq	%rcx, %rax
	.p2align	4
327:
	movl	(%r8,%r10), %r9d
	movl	%r9d, (%rbx,%r10)
	addq	$4, %r10
	cmpq	%r10, %rax
	jne	327b
	cmpq	%rax, %rcx
	je	678f
961:
	movq	%rcx, %r10
	movq	%rax, %r9
	andq	$3, %r10
	je	980f
	movq	%rax, %r9
	.p2align	4
548:
	movzbl	(%r8,%r9), %r11d
	movb	%r11b, (%rbx,%r9)
	incq	%r9
	decq	%r10
	jne	548b
980:
	subq	%rcx, %rax
	cmpq	$-4, %rax
	ja	678f
	.p2align	4
548:
	movzbl	(%r8,%r9), %eax
	movb	%al, (%rbx,%r9)
	movzbl	1(%r8,%r9), %eax
	movb	%al, 1(%rbx,%r9)
	movzbl	2(%r8,%r9), %eax
	movb	%al, 2(%rbx,%r9)
	movzbl	3(%r8,%r9), %eax
	movb	%al, 3(%rbx,%r9)
	addq	$4, %r9
	cmpq	%r9, %rcx
	jne	548b
678:
	movq	(%r14), %rax
	movq	%rbx, (%r14)
	movq	%rcx, 8(%r14)
	cmpq	$0, 16(%r14)
	movq	%rcx, 16(%r14)
	je	629b
	movq	%rax, %rdi
	callq	rattle_dealloc@PLT
	movq	%r15, %rsi
	movq	%r12, %rdx
	movq	%r13, %rdi
	jmp	629b
	.section	.text.tc_queues.committing.roll_back._811965396801c8f8,"ax",@progbits
	.p2align	4
tc_queues.committing.roll_back._811965396801c8f8:
	pushq	%r15
	pushq	%r14
	pushq	%r13
	pushq	%r12
	pushq	%rbx
	subq	$16, %rsp
	movq	8(%rdi), %r14
	testq	%r14, %r14
	je	850f
	movq	%rdi, %rbx
	xorl	%r15d, %r15d
	jmp	928f
	.p2align	4
629:
	incq	%r15
	cmpq	%r14, %r15
	je	850f
928:
	movq	(%rbx), %r12
	movq	%r15, %r13
	shlq	$6, %r13
	movq	48(%r12,%r13), %rax
	testq	%rax, %rax
	jne	859f
	jmp	629b
	.p2align	4
928:
	movq	48(%r12,%r13), %rax
	decq	%rax
	movq	%rax, 48(%r12,%r13)
	je	629b
859:
	movq	40(%r12,%r13), %rcx
	addq	%rcx, %rax
	decq	%rax
	cmpq	%rax, 24(%r12,%r13)
	jbe	214f
	movq	8(%r12,%r13), %rcx
	movq	16(%r12,%r13), %rdx
	addq	32(%r12,%r13), %rax
	xorl	%esi, %esi
	cmpq	%rdx, %rax
	cmovaeq	%rdx, %rsi
	subq	%rsi, %rax
	shlq	$5, %rax
	movq	(%rcx,%rax), %rdi
	leaq	15(%rsp), %rdx
	movq	%rdx, (%rcx,%rax)
	xorps	%xmm0, %xmm0
	cmpq	$0, 16(%rcx,%rax)
	movups	%xmm0, 8(%rcx,%rax)
	je	928b
	callq	rattle_dealloc@PLT
	jmp	928b
850:
	addq	$16, %rsp
	popq	%rbx
	popq	%r12
	popq	%r13
	popq	%r14
	popq	%r15
	retq
214:
	ud2
	.section	.text.unlikely.tc_link.farm.full,"ax",@progbits
	.p2align	4
tc_link.farm.full:
	cmpb	$0, (%rdi)
	je	409f
	retq
409:
	movb	$1, (%rdi)
	movw	$257, 3(%rdi)
	retq
	.section	.text.unlikely.tc_link.farm.ahead,"ax",@progbits
	.p2align	4
tc_link.farm.ahead:
	cmpb	$0, (%rdi)
	je	409f
	retq
409:
	movb	$1, 4(%rdi)
	retq
	.section	.text.unlikely.tc_link.farm.outside,"ax",@progbits
	.p2align	4
tc_link.farm.outside:
	movzbl	(%rdi), %eax
	cmpl	$2, %eax
	je	5f
	cmpl	$1, %eax
	movb	$2, (%rdi)
	movb	$1, 2(%rdi)
5:
	retq
	.section	.text.tc_queues.queues.Queues_GrowingRoom.take._f9a2c2c7976df771,"ax",@progbits
	.p2align	4
tc_queues.queues.Queues_GrowingRoom.take._f9a2c2c7976df771:
	pushq	%rbx
	movq	24(%rsi), %rcx
	movq	32(%rsi), %r9
	movq	(%rsi), %rax
	movq	8(%rsi), %r8
	xorps	%xmm0, %xmm0
	movaps	%xmm0, -64(%rsp)
	movzwl	%dx, %esi
	cmpq	%rsi, %r9
	jbe	211f
	movzwl	(%rcx,%rsi,2), %ecx
	xorl	%esi, %esi
	movl	$0, %edx
	cmpq	%rcx, %r8
	jbe	87f
	shll	$6, %ecx
972:
	cmpq	$0, 40(%rax,%rcx)
	je	231f
	movq	24(%rax,%rcx), %rsi
	testq	%rsi, %rsi
	je	214f
	movq	32(%rax,%rcx), %rbx
	movq	16(%rax,%rcx), %r9
	leaq	1(%rbx), %rdx
	xorl	%r10d, %r10d
	cmpq	%r9, %rdx
	cmovaeq	%r9, %r10
	movq	8(%rax,%rcx), %r8
	negq	%r10
	addq	%rbx, %r10
	incq	%r10
	movq	%r10, 32(%rax,%rcx)
	decq	%rsi
	movq	%rsi, 24(%rax,%rcx)
	shlq	$5, %rbx
	movq	(%r8,%rbx), %rdx
	movq	24(%r8,%rbx), %r11
	movups	8(%r8,%rbx), %xmm0
	movaps	%xmm0, -16(%rsp)
	cmpq	%rsi, %r9
	jbe	214f
	addq	%rsi, %r10
	xorl	%esi, %esi
	cmpq	%r9, %r10
	cmovaeq	%r9, %rsi
	subq	%rsi, %r10
	shlq	$5, %r10
	leaq	-65(%rsp), %rsi
	movq	%rsi, (%r8,%r10)
	xorps	%xmm0, %xmm0
	movups	%xmm0, 8(%r8,%r10)
	movq	%r11, 24(%r8,%r10)
	incq	24(%rax,%rcx)
	movaps	-16(%rsp), %xmm0
	movaps	%xmm0, -48(%rsp)
	decq	40(%rax,%rcx)
	movl	$1, %esi
	jmp	680f
211:
	testq	%r8, %r8
	je	890f
	xorl	%ecx, %ecx
	.p2align	4
129:
	cmpw	(%rax,%rcx), %dx
	je	972b
	addq	$64, %rcx
	decq	%r8
	jne	129b
890:
	xorl	%esi, %esi
	xorl	%edx, %edx
	jmp	87f
231:
	xorps	%xmm0, %xmm0
	movaps	%xmm0, -48(%rsp)
	xorl	%esi, %esi
	xorl	%edx, %edx
680:
	movaps	-48(%rsp), %xmm0
	movaps	%xmm0, -64(%rsp)
87:
	movaps	-64(%rsp), %xmm0
	movaps	%xmm0, -32(%rsp)
	movq	%rsi, (%rdi)
	movq	%rdx, 8(%rdi)
	movaps	-32(%rsp), %xmm0
	movups	%xmm0, 16(%rdi)
	popq	%rbx
	retq
214:
	ud2
	.section	.text.core.fmt.formatter.Formatter.write_piece._bca9c74da7838be5,"ax",@progbits
	.p2align	4
core.fmt.formatter.Formatter.write_piece._bca9c74da7838be5:
	pushq	%rbp
	pushq	%r15
	pushq	%r14
	pushq	%r13
	pushq	%r12
	pushq	%rbx
	subq	$88, %rsp
	leaq	104(%rdi), %r15
	movl	$32, 104(%rdi)
	leaq	108(%rdi), %r12
	movq	$0, 108(%rdi)
	movl	$0, 116(%rdi)
	movq	$-1, 120(%rdi)
	movzbl	(%rsi), %eax
	leaq	.LJ23f0e5a6_0(%rip), %rcx
	movslq	(%rcx,%rax,4), %rax
	addq	%rcx, %rax
	jmpq	*%rax
890:
	xorl	%eax, %eax
	jmp	793f
850:
	addq	$8, %rsi
	movq	16(%r15), %rax
	movq	%rax, 16(%rsp)
	movups	(%r15), %xmm0
	movaps	%xmm0, (%rsp)
	movl	$32, 104(%rdi)
	movl	$0, 8(%r12)
	movq	$0, (%r12)
	movq	$-1, 120(%rdi)
	movq	%rdi, %rbx
	callq	core.fmt.formatter.Formatter.write_piece._f520552a59309161
	movl	%eax, %ecx
	movb	$1, %al
	testb	%cl, %cl
	jne	928f
	movq	%rbx, %rdi
	movl	$32, 104(%rbx)
	movl	$0, 8(%r12)
	movq	$0, (%r12)
	movq	$-1, 120(%rbx)
	cmpq	$0, 128(%rbx)
	jne	359f
	leaq	.LT3235efc0(%rip), %rsi
	movl	$1, %edx
	callq	std.io.traits.AdapterWrite.write_str._5349ec06ad6c886c
360:
928:
	movq	16(%rsp), %rcx
	movq	%rcx, 16(%r15)
	movaps	(%rsp), %xmm0
	movups	%xmm0, (%r15)
	jmp	793f
972:
	cmpq	$0, 128(%rdi)
	jne	219f
	leaq	.LT4c832dbb(%rip), %rsi
	movl	$14, %edx
	jmp	880f
548:
	movzbl	1(%rsi), %r13d
	movzbl	9(%rsi), %eax
	movb	%al, 80(%rsp)
	movzbl	8(%rsi), %eax
	shll	$3, %eax
	leaq	.Lswitch.table.core.fmt.formatter.Formatter.write_piece._bca9c74da7838be5(%rip), %rcx
	movq	(%rax,%rcx), %rbx
	leaq	.Lswitch.table.core.fmt.formatter.Formatter.write_piece._bca9c74da7838be5_.636(%rip), %rcx
	movq	(%rax,%rcx), %r14
	movzbl	10(%rsi), %eax
	movb	%al, 72(%rsp)
	movq	%rsi, 64(%rsp)
	movzbl	11(%rsi), %eax
	movb	%al, 31(%rsp)
	movq	16(%r15), %rax
	movq	%rax, 48(%rsp)
	movups	(%r15), %xmm0
	movaps	%xmm0, 32(%rsp)
	movl	$32, 104(%rdi)
	movl	$0, 8(%r12)
	movq	$0, (%r12)
	movq	$-1, 120(%rdi)
	cmpq	$0, 128(%rdi)
	jne	949f
	leaq	.LT88d9ed27(%rip), %rsi
	movl	$7, %edx
	movq	%rdi, %rbp
	callq	std.io.traits.AdapterWrite.write_str._5349ec06ad6c886c
	testb	%al, %al
	jne	586f
327:
	movl	$32, 104(%rbp)
	movl	$0, 8(%r12)
	movq	$0, (%r12)
	movq	$-1, 120(%rbp)
	xorps	%xmm0, %xmm0
	movaps	%xmm0, (%rsp)
	movq	$0, 16(%rsp)
	cmpb	$100, %r13b
	jb	186f
	movzbl	%r13b, %eax
	leal	(%rax,%rax,4), %ecx
	leal	(%rax,%rcx,8), %ecx
	shrl	$12, %ecx
	imull	$100, %ecx, %eax
	subb	%al, %r13b
	movzbl	%r13b, %eax
	imull	$205, %eax, %edx
	shrl	$11, %edx
	leal	(%rdx,%rdx), %esi
	leal	(%rsi,%rsi,4), %esi
	subb	%sil, %al
	orb	$48, %al
	movb	%al, 23(%rsp)
	orb	$48, %dl
	movb	%dl, 22(%rsp)
	movl	$21, %eax
	movl	%ecx, %r13d
	jmp	52f
489:
	cmpq	$0, 128(%rdi)
	jne	740f
	leaq	.LT1bf80fd2(%rip), %rsi
	movl	$13, %edx
	jmp	880f
284:
	movzbl	1(%rsi), %r14d
	movzbl	2(%rsi), %ebp
	movzbl	3(%rsi), %ebx
	movq	16(%r15), %rax
	movq	%rax, 48(%rsp)
	movups	(%r15), %xmm0
	movaps	%xmm0, 32(%rsp)
	movl	$32, 104(%rdi)
	movl	$0, 8(%r12)
	movq	$0, (%r12)
	movq	$-1, 120(%rdi)
	cmpq	$0, 128(%rdi)
	jne	71f
	leaq	.LT58992c68(%rip), %rsi
	movl	$5, %edx
	movq	%rdi, %r13
	callq	std.io.traits.AdapterWrite.write_str._5349ec06ad6c886c
	movl	%eax, %ecx
	movb	$1, %al
	testb	%cl, %cl
	jne	771f
928:
	movq	%r13, %rdi
	movl	$32, 104(%r13)
	movl	$0, 8(%r12)
	movq	$0, (%r12)
	movq	$-1, 120(%r13)
	xorps	%xmm0, %xmm0
	movaps	%xmm0, (%rsp)
	movq	$0, 16(%rsp)
	cmpb	$100, %r14b
	jb	981f
	movzbl	%r14b, %eax
	leal	(%rax,%rax,4), %ecx
	leal	(%rax,%rcx,8), %ecx
	shrl	$12, %ecx
	imull	$100, %ecx, %eax
	subb	%al, %r14b
	movzbl	%r14b, %eax
	imull	$205, %eax, %edx
	shrl	$11, %edx
	leal	(%rdx,%rdx), %esi
	leal	(%rsi,%rsi,4), %esi
	subb	%sil, %al
	orb	$48, %al
	movb	%al, 23(%rsp)
	orb	$48, %dl
	movb	%dl, 22(%rsp)
	movl	$21, %eax
	movl	%ecx, %r14d
	jmp	204f
778:
	cmpq	$0, 128(%rdi)
	jne	917f
	leaq	.LTa336d741(%rip), %rsi
	movl	$16, %edx
880:
	addq	$88, %rsp
	popq	%rbx
	popq	%r12
	popq	%r13
	popq	%r14
	popq	%r15
	popq	%rbp
	jmp	std.io.traits.AdapterWrite.write_str._5349ec06ad6c886c
186:
	movl	$23, %eax
	cmpb	$10, %r13b
	jb	52f
	movzbl	%r13b, %eax
	imull	$205, %eax, %eax
	shrl	$11, %eax
	leal	(%rax,%rax), %ecx
	leal	(%rcx,%rcx,4), %ecx
	subb	%cl, %r13b
	orb	$48, %r13b
	movb	%r13b, 23(%rsp)
	orb	$48, %al
	movb	%al, 22(%rsp)
	movl	$22, %eax
	jmp	669f
52:
	orb	$48, %r13b
	movb	%r13b, (%rsp,%rax)
669:
	leaq	(%rsp,%rax), %rsi
	movb	$45, -1(%rsp,%rax)
	movl	$24, %edx
	subq	%rax, %rdx
	cmpq	$0, 128(%rbp)
	jne	928f
	movq	%rbp, %r13
	movq	%rbp, %rdi
	callq	std.io.traits.AdapterWrite.write_str._5349ec06ad6c886c
	testb	%al, %al
	jne	586f
859:
	movq	%r13, %rdi
	movl	$32, 104(%r13)
	movl	$0, 8(%r12)
	movq	$0, (%r12)
	movq	$-1, 120(%r13)
	cmpq	$0, 128(%r13)
	jne	661f
	leaq	.LT73ff4f13(%rip), %rsi
	movl	$7, %edx
	movq	%rdi, %r13
	callq	std.io.traits.AdapterWrite.write_str._5349ec06ad6c886c
	testb	%al, %al
	jne	586f
12:
	movq	%r13, %rdi
	movl	$32, 104(%r13)
	movl	$0, 8(%r12)
	movq	$0, (%r12)
	movq	$-1, 120(%r13)
	cmpq	$0, 128(%r13)
	jne	966f
	movq	%rdi, %r13
	movq	%r14, %rsi
	movq	%rbx, %rdx
	callq	std.io.traits.AdapterWrite.write_str._5349ec06ad6c886c
	testb	%al, %al
	jne	586f
186:
	movl	$32, 104(%r13)
	movl	$0, 8(%r12)
	movq	$0, (%r12)
	movq	$-1, 120(%r13)
	cmpq	$0, 128(%r13)
	jne	90f
	leaq	.LTd2821792(%rip), %rsi
	movl	$4, %edx
	movq	%r13, %rbx
	movq	%r13, %rdi
	callq	std.io.traits.AdapterWrite.write_str._5349ec06ad6c886c
	testb	%al, %al
	jne	586f
638:
	movq	%rbx, %rdi
	movl	$32, 104(%rbx)
	movl	$0, 8(%r12)
	movq	$0, (%r12)
	movq	$-1, 120(%rbx)
	xorps	%xmm0, %xmm0
	movaps	%xmm0, (%rsp)
	movq	$0, 16(%rsp)
	movzbl	80(%rsp), %edx
	cmpb	$100, %dl
	jb	327f
	movzbl	%dl, %eax
	leal	(%rax,%rax,4), %ecx
	leal	(%rax,%rcx,8), %ecx
	shrl	$12, %ecx
	imull	$100, %ecx, %eax
	subb	%al, %dl
	movzbl	%dl, %eax
	imull	$205, %eax, %edx
	shrl	$11, %edx
	leal	(%rdx,%rdx), %esi
	leal	(%rsi,%rsi,4), %esi
	subb	%sil, %al
	orb	$48, %al
	movb	%al, 23(%rsp)
	orb	$48, %dl
	movb	%dl, 22(%rsp)
	movl	$21, %eax
	movl	%ecx, %edx
	jmp	52f
981:
	movl	$23, %eax
	cmpb	$10, %r14b
	jb	204f
	movzbl	%r14b, %eax
	imull	$205, %eax, %eax
	shrl	$11, %eax
	leal	(%rax,%rax), %ecx
	leal	(%rcx,%rcx,4), %ecx
	subb	%cl, %r14b
	orb	$48, %r14b
	movb	%r14b, 23(%rsp)
	orb	$48, %al
	movb	%al, 22(%rsp)
	movl	$22, %eax
	jmp	669f
204:
	orb	$48, %r14b
	movb	%r14b, (%rsp,%rax)
669:
	leaq	(%rsp,%rax), %rsi
	movb	$45, -1(%rsp,%rax)
	movl	$24, %edx
	subq	%rax, %rdx
	cmpq	$0, 128(%rdi)
	jne	859f
	movq	%rdi, %r14
	callq	std.io.traits.AdapterWrite.write_str._5349ec06ad6c886c
	testb	%al, %al
	movb	$1, %al
	jne	771f
648:
	movq	%r14, %rdi
	movl	$32, 104(%r14)
	movl	$0, 8(%r12)
	movq	$0, (%r12)
	movq	$-1, 120(%r14)
	cmpq	$0, 128(%r14)
	jne	669f
	leaq	.LT37337163(%rip), %rsi
	movl	$1, %edx
	movq	%rdi, %r14
	callq	std.io.traits.AdapterWrite.write_str._5349ec06ad6c886c
	testb	%al, %al
	movb	$1, %al
	jne	771f
27:
	andb	$1, %bpl
	movq	%r14, %rdi
	movl	$32, 104(%r14)
	movl	$0, 8(%r12)
	movq	$0, (%r12)
	movq	$-1, 120(%r14)
	xorps	%xmm0, %xmm0
	movaps	%xmm0, (%rsp)
	movq	$0, 14(%rsp)
	orb	$48, %bpl
	movb	%bpl, 23(%rsp)
	movb	$45, 22(%rsp)
	cmpq	$0, 128(%r14)
	jne	172f
	leaq	23(%rsp), %rsi
	movl	$1, %edx
	movq	%rdi, %r14
	callq	std.io.traits.AdapterWrite.write_str._5349ec06ad6c886c
	testb	%al, %al
	movb	$1, %al
	jne	771f
961:
	movq	%r14, %rdi
	movl	$32, 104(%r14)
	movl	$0, 8(%r12)
	movq	$0, (%r12)
	movq	$-1, 120(%r14)
	cmpq	$0, 128(%r14)
	jne	999f
	leaq	.LT37337163(%rip), %rsi
	movl	$1, %edx
	movq	%rdi, %r14
	callq	std.io.traits.AdapterWrite.write_str._5349ec06ad6c886c
	testb	%al, %al
	movb	$1, %al
	jne	771f
934:
	andb	$1, %bl
	movq	%r14, %rdi
	movl	$32, 104(%r14)
	movl	$0, 8(%r12)
	movq	$0, (%r12)
	movq	$-1, 120(%r14)
	xorps	%xmm0, %xmm0
	movaps	%xmm0, (%rsp)
	movq	$0, 14(%rsp)
	orb	$48, %bl
	movb	%bl, 23(%rsp)
	movb	$45, 22(%rsp)
	cmpq	$0, 128(%r14)
	jne	975f
	leaq	23(%rsp), %rsi
	movl	$1, %edx
	movq	%rdi, %rbx
	callq	std.io.traits.AdapterWrite.write_str._5349ec06ad6c886c
	testb	%al, %al
	movb	$1, %al
	jne	771f
678:
	movq	%rbx, %rdi
	movl	$32, 104(%rbx)
	movl	$0, 8(%r12)
	movq	$0, (%r12)
	movq	$-1, 120(%rbx)
	cmpq	$0, 128(%rbx)
	jne	458f
	leaq	.LT3235efc0(%rip), %rsi
	movl	$1, %edx
	callq	std.io.traits.AdapterWrite.write_str._5349ec06ad6c886c
813:
	jmp	771f
219:
	leaq	.LT4c832dbb(%rip), %rsi
	movl	$14, %edx
	jmp	880f
949:
	leaq	.LT88d9ed27(%rip), %rsi
	movl	$7, %edx
	movq	%rdi, %rbp
	callq	core.fmt.formatter.Formatter.write_indented._1ac78889755d2eb3
	testb	%al, %al
	je	327b
	jmp	586f
740:
	leaq	.LT1bf80fd2(%rip), %rsi
	movl	$13, %edx
	jmp	880f
71:
	leaq	.LT58992c68(%rip), %rsi
	movl	$5, %edx
	movq	%rdi, %r13
	callq	core.fmt.formatter.Formatter.write_indented._1ac78889755d2eb3
	movl	%eax, %ecx
	movb	$1, %al
	testb	%cl, %cl
	je	928b
	jmp	771f
917:
	leaq	.LTa336d741(%rip), %rsi
	movl	$16, %edx
880:
	addq	$88, %rsp
	popq	%rbx
	popq	%r12
	popq	%r13
	popq	%r14
	popq	%r15
	popq	%rbp
	jmp	core.fmt.formatter.Formatter.write_indented._1ac78889755d2eb3
359:
	leaq	.LT3235efc0(%rip), %rsi
	movl	$1, %edx
	callq	core.fmt.formatter.Formatter.write_indented._1ac78889755d2eb3
	jmp	360b
928:
	movq	%rbp, %r13
	movq	%rbp, %rdi
	callq	core.fmt.formatter.Formatter.write_indented._1ac78889755d2eb3
	testb	%al, %al
	jne	586f
	jmp	859b
859:
	movq	%rdi, %r14
	callq	core.fmt.formatter.Formatter.write_indented._1ac78889755d2eb3
	testb	%al, %al
	movb	$1, %al
	jne	771f
	jmp	648b
661:
	leaq	.LT73ff4f13(%rip), %rsi
	movl	$7, %edx
	movq	%rdi, %r13
	callq	core.fmt.formatter.Formatter.write_indented._1ac78889755d2eb3
	testb	%al, %al
	jne	586f
	jmp	12b
669:
	leaq	.LT37337163(%rip), %rsi
	movl	$1, %edx
	movq	%rdi, %r14
	callq	core.fmt.formatter.Formatter.write_indented._1ac78889755d2eb3
	testb	%al, %al
	movb	$1, %al
	je	27b
	jmp	771f
327:
	movl	$23, %eax
	cmpb	$10, %dl
	jb	52f
	movzbl	%dl, %eax
	imull	$205, %eax, %eax
	shrl	$11, %eax
	leal	(%rax,%rax), %ecx
	leal	(%rcx,%rcx,4), %ecx
	subb	%cl, %dl
	orb	$48, %dl
	movb	%dl, 23(%rsp)
	orb	$48, %al
	movb	%al, 22(%rsp)
	movl	$22, %eax
	jmp	669f
52:
	orb	$48, %dl
	movb	%dl, (%rsp,%rax)
669:
	leaq	(%rsp,%rax), %rsi
	movb	$45, -1(%rsp,%rax)
	movl	$24, %edx
	subq	%rax, %rdx
	cmpq	$0, 128(%rdi)
	jne	638f
	movq	%rdi, %rbx
	callq	std.io.traits.AdapterWrite.write_str._5349ec06ad6c886c
	testb	%al, %al
	jne	586f
928:
	movq	%rbx, %rdi
	movl	$32, 104(%rbx)
	movl	$0, 8(%r12)
	movq	$0, (%r12)
	movq	$-1, 120(%rbx)
	cmpq	$0, 128(%rbx)
	jne	669f
	leaq	.LT8d0368cc(%rip), %rsi
	movl	$9, %edx
	movq	%rdi, %rbx
	callq	std.io.traits.AdapterWrite.write_str._5349ec06ad6c886c
	testb	%al, %al
	jne	586f
859:
	movq	%rbx, %rdi
	movl	$32, 104(%rbx)
	movl	$0, 8(%r12)
	movq	$0, (%r12)
	movq	$-1, 120(%rbx)
	xorps	%xmm0, %xmm0
	movaps	%xmm0, (%rsp)
	movq	$0, 14(%rsp)
	movzbl	72(%rsp), %eax
	orb	$48, %al
	movb	%al, 23(%rsp)
	movb	$45, 22(%rsp)
	cmpq	$0, 128(%rbx)
	jne	219f
	leaq	23(%rsp), %rsi
	movl	$1, %edx
	movq	%rdi, %rbx
	callq	std.io.traits.AdapterWrite.write_str._5349ec06ad6c886c
	testb	%al, %al
	jne	586f
12:
	movq	%rbx, %rdi
	movl	$32, 104(%rbx)
	movl	$0, 8(%r12)
	movq	$0, (%r12)
	movq	$-1, 120(%rbx)
	cmpq	$0, 128(%rbx)
	jne	949f
	leaq	.LTb6ef8972(%rip), %rsi
	movl	$6, %edx
	movq	%rdi, %rbx
	callq	std.io.traits.AdapterWrite.write_str._5349ec06ad6c886c
	testb	%al, %al
	jne	586f
327:
	movl	$32, 104(%rbx)
	movl	$0, 8(%r12)
	movq	$0, (%r12)
	movq	$-1, 120(%rbx)
	xorps	%xmm0, %xmm0
	movaps	%xmm0, (%rsp)
	movq	$0, 14(%rsp)
	movzbl	31(%rsp), %ecx
	orb	$48, %cl
	movb	%cl, 23(%rsp)
	movb	$45, 22(%rsp)
	cmpq	$0, 128(%rbx)
	jne	740f
	leaq	23(%rsp), %rsi
	movl	$1, %edx
	movq	%rbx, %rdi
	callq	std.io.traits.AdapterWrite.write_str._5349ec06ad6c886c
648:
	movq	48(%rsp), %rcx
	movq	%rcx, 16(%r15)
	movaps	32(%rsp), %xmm0
	movups	%xmm0, (%r15)
	testb	%al, %al
	jne	409f
	movq	64(%rsp), %rax
	movzbl	12(%rax), %r14d
	movzbl	13(%rax), %ebp
	movq	16(%rax), %r13
	movq	16(%r15), %rax
	movq	%rax, 48(%rsp)
	movups	(%r15), %xmm0
	movaps	%xmm0, 32(%rsp)
	movl	$32, 104(%rbx)
	movl	$0, 8(%r12)
	movq	$0, (%r12)
	movq	$-1, 120(%rbx)
	cmpq	$0, 128(%rbx)
	jne	71f
	leaq	.LT3ff918de(%rip), %rsi
	movl	$12, %edx
	movq	%rbx, %rdi
	callq	std.io.traits.AdapterWrite.write_str._5349ec06ad6c886c
	testb	%al, %al
	jne	586f
981:
	movl	$32, 104(%rbx)
	movl	$0, 8(%r12)
	movq	$0, (%r12)
	movq	$-1, 120(%rbx)
	xorps	%xmm0, %xmm0
	movaps	%xmm0, (%rsp)
	movq	$0, 14(%rsp)
	orb	$48, %r14b
	movb	%r14b, 23(%rsp)
	movb	$45, 22(%rsp)
	cmpq	$0, 128(%rbx)
	jne	917f
	leaq	23(%rsp), %rsi
	movl	$1, %edx
	movq	%rbx, %rdi
	callq	std.io.traits.AdapterWrite.write_str._5349ec06ad6c886c
	testb	%al, %al
	jne	586f
434:
	movl	$32, 104(%rbx)
	movl	$0, 8(%r12)
	movq	$0, (%r12)
	movq	$-1, 120(%rbx)
	cmpq	$0, 128(%rbx)
	jne	359f
	leaq	.LTd511dccf(%rip), %rsi
	movl	$8, %edx
	movq	%rbx, %rdi
	callq	std.io.traits.AdapterWrite.write_str._5349ec06ad6c886c
	testb	%al, %al
	jne	586f
509:
	movl	$32, 104(%rbx)
	movl	$0, 8(%r12)
	movq	$0, (%r12)
	movq	$-1, 120(%rbx)
	xorps	%xmm0, %xmm0
	movaps	%xmm0, (%rsp)
	movq	$0, 16(%rsp)
	cmpb	$100, %bpl
	jb	327f
	movzbl	%bpl, %eax
	leal	(%rax,%rax,4), %ecx
	leal	(%rax,%rcx,8), %ecx
	shrl	$12, %ecx
	imull	$100, %ecx, %eax
	subb	%al, %bpl
	movzbl	%bpl, %eax
	imull	$205, %eax, %edx
	shrl	$11, %edx
	leal	(%rdx,%rdx), %esi
	leal	(%rsi,%rsi,4), %esi
	subb	%sil, %al
	orb	$48, %al
	movb	%al, 23(%rsp)
	orb	$48, %dl
	movb	%dl, 22(%rsp)
	movl	$21, %eax
	movl	%ecx, %ebp
	jmp	52f
172:
	leaq	23(%rsp), %rsi
	movl	$1, %edx
	movq	%rdi, %r14
	callq	core.fmt.formatter.Formatter.write_indented._1ac78889755d2eb3
	testb	%al, %al
	movb	$1, %al
	jne	771f
	jmp	961b
966:
	movq	%rdi, %r13
	movq	%r14, %rsi
	movq	%rbx, %rdx
	callq	core.fmt.formatter.Formatter.write_indented._1ac78889755d2eb3
	testb	%al, %al
	jne	586f
	jmp	186b
999:
	leaq	.LT37337163(%rip), %rsi
	movl	$1, %edx
	movq	%rdi, %r14
	callq	core.fmt.formatter.Formatter.write_indented._1ac78889755d2eb3
	testb	%al, %al
	movb	$1, %al
	je	934b
	jmp	771f
90:
	leaq	.LTd2821792(%rip), %rsi
	movl	$4, %edx
	movq	%r13, %rbx
	movq	%r13, %rdi
	callq	core.fmt.formatter.Formatter.write_indented._1ac78889755d2eb3
	testb	%al, %al
	je	638b
	jmp	586f
975:
	leaq	23(%rsp), %rsi
	movl	$1, %edx
	movq	%rdi, %rbx
	callq	core.fmt.formatter.Formatter.write_indented._1ac78889755d2eb3
	testb	%al, %al
	movb	$1, %al
	je	678b
771:
	movq	48(%rsp), %rcx
	movq	%rcx, 16(%r15)
	movaps	32(%rsp), %xmm0
	movups	%xmm0, (%r15)
	jmp	793f
638:
	movq	%rdi, %rbx
	callq	core.fmt.formatter.Formatter.write_indented._1ac78889755d2eb3
	testb	%al, %al
	jne	586f
	jmp	928b
458:
	leaq	.LT3235efc0(%rip), %rsi
	movl	$1, %edx
	callq	core.fmt.formatter.Formatter.write_indented._1ac78889755d2eb3
	jmp	813b
669:
	leaq	.LT8d0368cc(%rip), %rsi
	movl	$9, %edx
	movq	%rdi, %rbx
	callq	core.fmt.formatter.Formatter.write_indented._1ac78889755d2eb3
	testb	%al, %al
	je	859b
	jmp	586f
219:
	leaq	23(%rsp), %rsi
	movl	$1, %edx
	movq	%rdi, %rbx
	callq	core.fmt.formatter.Formatter.write_indented._1ac78889755d2eb3
	testb	%al, %al
	jne	586f
	jmp	12b
949:
	leaq	.LTb6ef8972(%rip), %rsi
	movl	$6, %edx
	movq	%rdi, %rbx
	callq	core.fmt.formatter.Formatter.write_indented._1ac78889755d2eb3
	testb	%al, %al
	je	327b
	jmp	586f
740:
	leaq	23(%rsp), %rsi
	movl	$1, %edx
	movq	%rbx, %rdi
	callq	core.fmt.formatter.Formatter.write_indented._1ac78889755d2eb3
	jmp	648b
71:
	leaq	.LT3ff918de(%rip), %rsi
	movl	$12, %edx
	movq	%rbx, %rdi
	callq	core.fmt.formatter.Formatter.write_indented._1ac78889755d2eb3
	testb	%al, %al
	je	981b
	jmp	586f
327:
	movl	$23, %eax
	cmpb	$10, %bpl
	jb	52f
	movzbl	%bpl, %eax
	imull	$205, %eax, %eax
	shrl	$11, %eax
	leal	(%rax,%rax), %ecx
	leal	(%rcx,%rcx,4), %ecx
	subb	%cl, %bpl
	orb	$48, %bpl
	movb	%bpl, 23(%rsp)
	orb	$48, %al
	movb	%al, 22(%rsp)
	movl	$22, %eax
	jmp	669f
52:
	orb	$48, %bpl
	movb	%bpl, (%rsp,%rax)
669:
	leaq	(%rsp,%rax), %rsi
	movb	$45, -1(%rsp,%rax)
	movl	$24, %edx
	subq	%rax, %rdx
	cmpq	$0, 128(%rbx)
	jne	648f
	movq	%rbx, %rdi
	callq	std.io.traits.AdapterWrite.write_str._5349ec06ad6c886c
	testb	%al, %al
	jne	586f
327:
	movl	$32, 104(%rbx)
	movl	$0, 8(%r12)
	movq	$0, (%r12)
	movq	$-1, 120(%rbx)
	cmpq	$0, 128(%rbx)
	jne	740f
	leaq	.LTa04389c8(%rip), %rsi
	movl	$10, %edx
	movq	%rbx, %rdi
	callq	std.io.traits.AdapterWrite.write_str._5349ec06ad6c886c
	testb	%al, %al
	jne	586f
186:
	movl	$32, 104(%rbx)
	movl	$0, 8(%r12)
	movq	$0, (%r12)
	movq	$-1, 120(%rbx)
	xorps	%xmm0, %xmm0
	movaps	%xmm0, (%rsp)
	movq	$0, 16(%rsp)
	movl	$24, %ecx
	cmpq	$100, %r13
	jb	859f
928:
	movq	%r13, %rax
	shrq	$2, %rax
	movabsq	$2951479051793528259, %rdx
	mulq	%rdx
	shrq	$2, %rdx
	imull	$100, %edx, %eax
	movl	%r13d, %esi
	subl	%eax, %esi
	movzbl	%sil, %eax
	imull	$205, %eax, %esi
	shrl	$11, %esi
	leal	(%rsi,%rsi), %edi
	leal	(%rdi,%rdi,4), %edi
	subb	%dil, %al
	orb	$48, %al
	movb	%al, -1(%rsp,%rcx)
	orb	$48, %sil
	movb	%sil, -2(%rsp,%rcx)
	addq	$-2, %rcx
	cmpq	$9999, %r13
	movq	%rdx, %r13
	ja	928b
	jmp	571f
917:
	leaq	23(%rsp), %rsi
	movl	$1, %edx
	movq	%rbx, %rdi
	callq	core.fmt.formatter.Formatter.write_indented._1ac78889755d2eb3
	testb	%al, %al
	jne	586f
	jmp	434b
359:
	leaq	.LTd511dccf(%rip), %rsi
	movl	$8, %edx
	movq	%rbx, %rdi
	callq	core.fmt.formatter.Formatter.write_indented._1ac78889755d2eb3
	testb	%al, %al
	je	509b
	jmp	586f
859:
	movq	%r13, %rdx
571:
	cmpq	$10, %rdx
	jb	52f
	movzbl	%dl, %eax
	imull	$205, %eax, %eax
	shrl	$11, %eax
	leal	(%rax,%rax), %esi
	leal	(%rsi,%rsi,4), %esi
	subb	%sil, %dl
	orb	$48, %dl
	movb	%dl, -1(%rsp,%rcx)
	orb	$48, %al
	movb	%al, -2(%rsp,%rcx)
	addq	$-2, %rcx
	jmp	669f
52:
	orb	$48, %dl
	movb	%dl, -1(%rsp,%rcx)
	decq	%rcx
669:
	leaq	(%rsp,%rcx), %rsi
	movb	$45, -1(%rsp,%rcx)
	movl	$24, %edx
	subq	%rcx, %rdx
	cmpq	$0, 128(%rbx)
	jne	678f
	movq	%rbx, %rdi
	callq	std.io.traits.AdapterWrite.write_str._5349ec06ad6c886c
928:
	movq	48(%rsp), %rcx
	movq	%rcx, 16(%r15)
	movaps	32(%rsp), %xmm0
	movups	%xmm0, (%r15)
	testb	%al, %al
	jne	409f
	movq	64(%rsp), %rax
	movq	32(%rax), %rax
	movq	%rax, 72(%rsp)
	testq	%rax, %rax
	je	961f
	movq	64(%rsp), %rax
	movq	24(%rax), %rax
	movq	%rax, 80(%rsp)
	xorl	%r13d, %r13d
859:
	movq	%r13, %rax
	shlq	$4, %rax
	movq	80(%rsp), %rcx
	movzwl	(%rcx,%rax), %r14d
	movq	8(%rcx,%rax), %rbp
	movq	16(%r15), %rax
	movq	%rax, 48(%rsp)
	movups	(%r15), %xmm0
	movaps	%xmm0, 32(%rsp)
	movl	$32, 104(%rbx)
	movl	$0, 8(%r12)
	movq	$0, (%r12)
	movq	$-1, 120(%rbx)
	cmpq	$0, 128(%rbx)
	jne	219f
	leaq	.LT6778b9a6(%rip), %rsi
	movl	$7, %edx
	movq	%rbx, %rdi
	callq	std.io.traits.AdapterWrite.write_str._5349ec06ad6c886c
	testb	%al, %al
	jne	586f
981:
	movl	$32, 104(%rbx)
	movl	$0, 8(%r12)
	movq	$0, (%r12)
	movq	$-1, 120(%rbx)
	xorps	%xmm0, %xmm0
	movaps	%xmm0, (%rsp)
	movq	$0, 16(%rsp)
	movl	$24, %eax
	cmpw	$100, %r14w
	jb	12f
434:
	movl	%r14d, %ecx
	imulq	$1374389535, %rcx, %rcx
	shrq	$37, %rcx
	imull	$100, %ecx, %edx
	movl	%r14d, %esi
	subl	%edx, %esi
	imull	$103, %esi, %edx
	movzwl	%dx, %edx
	shrl	$10, %edx
	leal	(%rdx,%rdx), %edi
	leal	(%rdi,%rdi,4), %edi
	subb	%dil, %sil
	orb	$48, %sil
	movb	%sil, -1(%rsp,%rax)
	orb	$48, %dl
	movb	%dl, -2(%rsp,%rax)
	addq	$-2, %rax
	cmpq	$9999, %r14
	movq	%rcx, %r14
	ja	434b
	jmp	571f
12:
	movq	%r14, %rcx
571:
	cmpq	$10, %rcx
	jb	52f
	movzbl	%cl, %edx
	imull	$205, %edx, %edx
	shrl	$11, %edx
	leal	(%rdx,%rdx), %esi
	leal	(%rsi,%rsi,4), %esi
	subb	%sil, %cl
	orb	$48, %cl
	movb	%cl, -1(%rsp,%rax)
	orb	$48, %dl
	movb	%dl, -2(%rsp,%rax)
	addq	$-2, %rax
	jmp	669f
52:
	orb	$48, %cl
	movb	%cl, -1(%rsp,%rax)
	decq	%rax
669:
	leaq	(%rsp,%rax), %rsi
	movb	$45, -1(%rsp,%rax)
	movl	$24, %edx
	subq	%rax, %rdx
	cmpq	$0, 128(%rbx)
	jne	859f
	movq	%rbx, %rdi
	callq	std.io.traits.AdapterWrite.write_str._5349ec06ad6c886c
	testb	%al, %al
	jne	586f
434:
	movl	$32, 104(%rbx)
	movl	$0, 8(%r12)
	movq	$0, (%r12)
	movq	$-1, 120(%rbx)
	cmpq	$0, 128(%rbx)
	jne	949f
	leaq	.LT37337163(%rip), %rsi
	movl	$1, %edx
	movq	%rbx, %rdi
	callq	std.io.traits.AdapterWrite.write_str._5349ec06ad6c886c
	testb	%al, %al
	jne	586f
509:
	movl	$32, 104(%rbx)
	movl	$0, 8(%r12)
	movq	$0, (%r12)
	movq	$-1, 120(%rbx)
	xorps	%xmm0, %xmm0
	movaps	%xmm0, (%rsp)
	movq	$0, 16(%rsp)
	movl	$24, %ecx
	cmpq	$100, %rbp
	jb	638f
12:
	movq	%rbp, %rax
	shrq	$2, %rax
	movabsq	$2951479051793528259, %rdx
	mulq	%rdx
	shrq	$2, %rdx
	imull	$100, %edx, %eax
	movl	%ebp, %esi
	subl	%eax, %esi
	movzbl	%sil, %eax
	imull	$205, %eax, %esi
	shrl	$11, %esi
	leal	(%rsi,%rsi), %edi
	leal	(%rdi,%rdi,4), %edi
	subb	%dil, %al
	orb	$48, %al
	movb	%al, -1(%rsp,%rcx)
	orb	$48, %sil
	movb	%sil, -2(%rsp,%rcx)
	addq	$-2, %rcx
	cmpq	$9999, %rbp
	movq	%rdx, %rbp
	ja	12b
	jmp	571f
638:
	movq	%rbp, %rdx
571:
	cmpq	$10, %rdx
	jb	52f
	movzbl	%dl, %eax
	imull	$205, %eax, %eax
	shrl	$11, %eax
	leal	(%rax,%rax), %esi
	leal	(%rsi,%rsi,4), %esi
	subb	%sil, %dl
	orb	$48, %dl
	movb	%dl, -1(%rsp,%rcx)
	orb	$48, %al
	movb	%al, -2(%rsp,%rcx)
	addq	$-2, %rcx
	jmp	669f
52:
	orb	$48, %dl
	movb	%dl, -1(%rsp,%rcx)
	decq	%rcx
669:
	leaq	(%rsp,%rcx), %rsi
	movb	$45, -1(%rsp,%rcx)
	movl	$24, %edx
	subq	%rcx, %rdx
	cmpq	$0, 128(%rbx)
	jne	638f
	movq	%rbx, %rdi
	callq	std.io.traits.AdapterWrite.write_str._5349ec06ad6c886c
12:
	movq	48(%rsp), %rcx
	movq	%rcx, 16(%r15)
	movaps	32(%rsp), %xmm0
	movups	%xmm0, (%r15)
	testb	%al, %al
	jne	409f
	incq	%r13
	cmpq	72(%rsp), %r13
	jne	859b
	jmp	961f
219:
	leaq	.LT6778b9a6(%rip), %rsi
	movl	$7, %edx
	movq	%rbx, %rdi
	callq	core.fmt.formatter.Formatter.write_indented._1ac78889755d2eb3
	testb	%al, %al
	je	981b
	jmp	586f
859:
	movq	%rbx, %rdi
	callq	core.fmt.formatter.Formatter.write_indented._1ac78889755d2eb3
	testb	%al, %al
	je	434b
	jmp	586f
949:
	leaq	.LT37337163(%rip), %rsi
	movl	$1, %edx
	movq	%rbx, %rdi
	callq	core.fmt.formatter.Formatter.write_indented._1ac78889755d2eb3
	testb	%al, %al
	je	509b
	jmp	586f
638:
	movq	%rbx, %rdi
	callq	core.fmt.formatter.Formatter.write_indented._1ac78889755d2eb3
	jmp	12b
648:
	movq	%rbx, %rdi
	callq	core.fmt.formatter.Formatter.write_indented._1ac78889755d2eb3
	testb	%al, %al
	jne	586f
	jmp	327b
961:
	movq	64(%rsp), %rax
	movq	56(%rax), %rax
	movq	%rax, 72(%rsp)
	testq	%rax, %rax
	je	436f
	movq	64(%rsp), %rax
	movq	48(%rax), %rax
	movq	%rax, 80(%rsp)
	xorl	%r13d, %r13d
859:
	movq	%r13, %rax
	shlq	$4, %rax
	movq	80(%rsp), %rcx
	movzbl	(%rcx,%rax), %r14d
	movq	8(%rcx,%rax), %rbp
	movq	16(%r15), %rax
	movq	%rax, 48(%rsp)
	movups	(%r15), %xmm0
	movaps	%xmm0, 32(%rsp)
	movl	$32, 104(%rbx)
	movl	$0, 8(%r12)
	movq	$0, (%r12)
	movq	$-1, 120(%rbx)
	cmpq	$0, 128(%rbx)
	jne	219f
	leaq	.LTb35dea14(%rip), %rsi
	movl	$5, %edx
	movq	%rbx, %rdi
	callq	std.io.traits.AdapterWrite.write_str._5349ec06ad6c886c
	testb	%al, %al
	jne	586f
327:
	movl	$32, 104(%rbx)
	movl	$0, 8(%r12)
	movq	$0, (%r12)
	movq	$-1, 120(%rbx)
	xorps	%xmm0, %xmm0
	movaps	%xmm0, (%rsp)
	movq	$0, 16(%rsp)
	cmpb	$100, %r14b
	jb	981f
	movzbl	%r14b, %eax
	leal	(%rax,%rax,4), %ecx
	leal	(%rax,%rcx,8), %ecx
	shrl	$12, %ecx
	imull	$100, %ecx, %eax
	subb	%al, %r14b
	movzbl	%r14b, %eax
	imull	$205, %eax, %edx
	shrl	$11, %edx
	leal	(%rdx,%rdx), %esi
	leal	(%rsi,%rsi,4), %esi
	subb	%sil, %al
	orb	$48, %al
	movb	%al, 23(%rsp)
	orb	$48, %dl
	movb	%dl, 22(%rsp)
	movl	$21, %eax
	movl	%ecx, %r14d
	jmp	52f
981:
	movl	$23, %eax
	cmpb	$10, %r14b
	jb	52f
	movzbl	%r14b, %eax
	imull	$205, %eax, %eax
	shrl	$11, %eax
	leal	(%rax,%rax), %ecx
	leal	(%rcx,%rcx,4), %ecx
	subb	%cl, %r14b
	orb	$48, %r14b
	movb	%r14b, 23(%rsp)
	orb	$48, %al
	movb	%al, 22(%rsp)
	movl	$22, %eax
	jmp	669f
52:
	orb	$48, %r14b
	movb	%r14b, (%rsp,%rax)
669:
	leaq	(%rsp,%rax), %rsi
	movb	$45, -1(%rsp,%rax)
	movl	$24, %edx
	subq	%rax, %rdx
	cmpq	$0, 128(%rbx)
	jne	859f
	movq	%rbx, %rdi
	callq	std.io.traits.AdapterWrite.write_str._5349ec06ad6c886c
	testb	%al, %al
	jne	586f
981:
	movl	$32, 104(%rbx)
	movl	$0, 8(%r12)
	movq	$0, (%r12)
	movq	$-1, 120(%rbx)
	cmpq	$0, 128(%rbx)
	jne	949f
	leaq	.LT37337163(%rip), %rsi
	movl	$1, %edx
	movq	%rbx, %rdi
	callq	std.io.traits.AdapterWrite.write_str._5349ec06ad6c886c
	testb	%al, %al
	jne	586f
434:
	movl	$32, 104(%rbx)
	movl	$0, 8(%r12)
	movq	$0, (%r12)
	movq	$-1, 120(%rbx)
	xorps	%xmm0, %xmm0
	movaps	%xmm0, (%rsp)
	movq	$0, 16(%rsp)
	movl	$24, %ecx
	cmpq	$100, %rbp
	jb	638f
12:
	movq	%rbp, %rax
	shrq	$2, %rax
	movabsq	$2951479051793528259, %rdx
	mulq	%rdx
	shrq	$2, %rdx
	imull	$100, %edx, %eax
	movl	%ebp, %esi
	subl	%eax, %esi
	movzbl	%sil, %eax
	imull	$205, %eax, %esi
	shrl	$11, %esi
	leal	(%rsi,%rsi), %edi
	leal	(%rdi,%rdi,4), %edi
	subb	%dil, %al
	orb	$48, %al
	movb	%al, -1(%rsp,%rcx)
	orb	$48, %sil
	movb	%sil, -2(%rsp,%rcx)
	addq	$-2, %rcx
	cmpq	$9999, %rbp
	movq	%rdx, %rbp
	ja	12b
	jmp	571f
638:
	movq	%rbp, %rdx
571:
	cmpq	$10, %rdx
	jb	52f
	movzbl	%dl, %eax
	imull	$205, %eax, %eax
	shrl	$11, %eax
	leal	(%rax,%rax), %esi
	leal	(%rsi,%rsi,4), %esi
	subb	%sil, %dl
	orb	$48, %dl
	movb	%dl, -1(%rsp,%rcx)
	orb	$48, %al
	movb	%al, -2(%rsp,%rcx)
	addq	$-2, %rcx
	jmp	669f
52:
	orb	$48, %dl
	movb	%dl, -1(%rsp,%rcx)
	decq	%rcx
669:
	leaq	(%rsp,%rcx), %rsi
	movb	$45, -1(%rsp,%rcx)
	movl	$24, %edx
	subq	%rcx, %rdx
	cmpq	$0, 128(%rbx)
	jne	638f
	movq	%rbx, %rdi
	callq	std.io.traits.AdapterWrite.write_str._5349ec06ad6c886c
12:
	movq	48(%rsp), %rcx
	movq	%rcx, 16(%r15)
	movaps	32(%rsp), %xmm0
	movups	%xmm0, (%r15)
	testb	%al, %al
	jne	409f
	incq	%r13
	cmpq	72(%rsp), %r13
	jne	859b
	jmp	436f
219:
	leaq	.LTb35dea14(%rip), %rsi
	movl	$5, %edx
	movq	%rbx, %rdi
	callq	core.fmt.formatter.Formatter.write_indented._1ac78889755d2eb3
	testb	%al, %al
	je	327b
	jmp	586f
859:
	movq	%rbx, %rdi
	callq	core.fmt.formatter.Formatter.write_indented._1ac78889755d2eb3
	testb	%al, %al
	je	981b
	jmp	586f
949:
	leaq	.LT37337163(%rip), %rsi
	movl	$1, %edx
	movq	%rbx, %rdi
	callq	core.fmt.formatter.Formatter.write_indented._1ac78889755d2eb3
	testb	%al, %al
	je	434b
	jmp	586f
638:
	movq	%rbx, %rdi
	callq	core.fmt.formatter.Formatter.write_indented._1ac78889755d2eb3
	jmp	12b
436:
	cmpq	$0, 128(%rbx)
	jne	669f
	leaq	.LT3235efc0(%rip), %rsi
	movl	$1, %edx
	movq	%rbx, %rdi
	callq	std.io.traits.AdapterWrite.write_str._5349ec06ad6c886c
	jmp	793f
740:
	leaq	.LTa04389c8(%rip), %rsi
	movl	$10, %edx
	movq	%rbx, %rdi
	callq	core.fmt.formatter.Formatter.write_indented._1ac78889755d2eb3
	testb	%al, %al
	je	186b
586:
	movq	48(%rsp), %rax
	movq	%rax, 16(%r15)
	movaps	32(%rsp), %xmm0
	movups	%xmm0, (%r15)
409:
	movb	$1, %al
793:
	addq	$88, %rsp
	popq	%rbx
	popq	%r12
	popq	%r13
	popq	%r14
	popq	%r15
	popq	%rbp
	retq
678:
	movq	%rbx, %rdi
	callq	core.fmt.formatter.Formatter.write_indented._1ac78889755d2eb3
	jmp	928b
669:
	leaq	.LT3235efc0(%rip), %rsi
	movl	$1, %edx
	movq	%rbx, %rdi
	callq	core.fmt.formatter.Formatter.write_indented._1ac78889755d2eb3
	jmp	793b
	.section	.rodata.core.fmt.formatter.Formatter.write_piece._bca9c74da7838be5,"a",@progbits
	.p2align	2
.LJ23f0e5a6_0:
	.long	890b-.LJ23f0e5a6_0
	.long	850b-.LJ23f0e5a6_0
	.long	850b-.LJ23f0e5a6_0
	.long	890b-.LJ23f0e5a6_0
	.long	972b-.LJ23f0e5a6_0
	.long	489b-.LJ23f0e5a6_0
	.long	284b-.LJ23f0e5a6_0
	.long	548b-.LJ23f0e5a6_0
	.long	778b-.LJ23f0e5a6_0
	.section	.text.core.fmt.formatter.Formatter.write_piece._f520552a59309161,"ax",@progbits
	.p2align	4
core.fmt.formatter.Formatter.write_piece._f520552a59309161:
	pushq	%rbp
	pushq	%r15
	pushq	%r14
	pushq	%r13
	pushq	%r12
	pushq	%rbx
	subq	$136, %rsp
	movq	%rdi, %rbx
	leaq	104(%rdi), %r12
	movl	$32, 104(%rdi)
	leaq	108(%rdi), %r13
	movq	$0, 108(%rdi)
	movl	$0, 116(%rdi)
	movq	$-1, 120(%rdi)
	movzbl	(%rsi), %eax
	leaq	.LJ57cdb3fc_0(%rip), %rcx
	movslq	(%rcx,%rax,4), %rax
	addq	%rcx, %rax
	jmpq	*%rax
548:
	movzbl	1(%rsi), %r14d
	movzbl	4(%rsi), %r15d
	movzbl	5(%rsi), %eax
	movb	%al, 88(%rsp)
	movl	16(%rsi), %eax
	movl	%eax, 120(%rsp)
	movq	8(%rsi), %rax
	movq	%rax, 112(%rsp)
	movq	16(%r12), %rax
	movq	%rax, 80(%rsp)
	movups	(%r12), %xmm0
	movaps	%xmm0, 64(%rsp)
	movl	$32, 104(%rbx)
	movl	$0, 8(%r13)
	movq	$0, (%r13)
	movq	$-1, 120(%rbx)
	cmpq	$0, 128(%rbx)
	jne	661f
	leaq	.LTbd49f353(%rip), %rsi
	movl	$6, %edx
	movq	%rbx, %rdi
	callq	std.io.traits.AdapterWrite.write_str._5349ec06ad6c886c
	movb	$1, %bpl
	testb	%al, %al
	jne	209f
327:
	movl	$32, 104(%rbx)
	movl	$0, 8(%r13)
	movq	$0, (%r13)
	movq	$-1, 120(%rbx)
	xorps	%xmm0, %xmm0
	movaps	%xmm0, 16(%rsp)
	movq	$0, 32(%rsp)
	cmpb	$100, %r14b
	jb	344f
	movzbl	%r14b, %eax
	leal	(%rax,%rax,4), %ecx
	leal	(%rax,%rcx,8), %ecx
	shrl	$12, %ecx
	imull	$100, %ecx, %eax
	subb	%al, %r14b
	movzbl	%r14b, %eax
	imull	$205, %eax, %edx
	shrl	$11, %edx
	leal	(%rdx,%rdx), %esi
	leal	(%rsi,%rsi,4), %esi
	subb	%sil, %al
	orb	$48, %al
	movb	%al, 39(%rsp)
	orb	$48, %dl
	movb	%dl, 38(%rsp)
	movl	$21, %eax
	movl	%ecx, %r14d
	jmp	709f
284:
	movzbl	1(%rsi), %eax
	movl	4(%rsi), %ecx
	movb	%al, 15(%rsp)
	movl	%ecx, 108(%rsp)
	leaq	.LTabc2e8bf(%rip), %rax
	movq	%rax, 16(%rsp)
	movq	$5, 24(%rsp)
	leaq	15(%rsp), %rax
	movq	%rax, 32(%rsp)
	leaq	.LT37337163(%rip), %rax
	movq	%rax, 40(%rsp)
	movq	$1, 48(%rsp)
	leaq	108(%rsp), %rax
	movq	%rax, 56(%rsp)
	movq	16(%r12), %rax
	movq	%rax, 128(%rsp)
	movups	(%r12), %xmm0
	movaps	%xmm0, 112(%rsp)
	movl	$32, 104(%rbx)
	movl	$0, 8(%r13)
	movq	$0, (%r13)
	movq	$-1, 120(%rbx)
	cmpq	$0, 128(%rbx)
	jne	917f
	leaq	.LTabc2e8bf(%rip), %rsi
	movl	$5, %edx
	movq	%rbx, %rdi
	callq	std.io.traits.AdapterWrite.write_str._5349ec06ad6c886c
	movb	$1, %bpl
	testb	%al, %al
	jne	771f
186:
	movl	$32, 104(%rbx)
	movl	$0, 8(%r13)
	movq	$0, (%r13)
	movq	$-1, 120(%rbx)
	movzbl	15(%rsp), %eax
	xorps	%xmm0, %xmm0
	movaps	%xmm0, 64(%rsp)
	movq	$0, 80(%rsp)
	cmpb	$100, %al
	jb	933f
	movzbl	%al, %ecx
	leal	(%rcx,%rcx,4), %edx
	leal	(%rcx,%rdx,8), %edx
	shrl	$12, %edx
	imull	$100, %edx, %ecx
	subb	%cl, %al
	movzbl	%al, %eax
	imull	$205, %eax, %ecx
	shrl	$11, %ecx
	leal	(%rcx,%rcx), %esi
	leal	(%rsi,%rsi,4), %esi
	subb	%sil, %al
	orb	$48, %al
	movb	%al, 87(%rsp)
	orb	$48, %cl
	movb	%cl, 86(%rsp)
	movl	$21, %ecx
	movl	%edx, %eax
	jmp	52f
166:
	movzbl	1(%rsi), %r15d
	movzwl	2(%rsi), %r14d
	movq	8(%rsi), %rax
	movq	%rax, 88(%rsp)
	movq	16(%rsi), %rax
	movq	%rax, 96(%rsp)
	movq	16(%r12), %rax
	movq	%rax, 80(%rsp)
	movups	(%r12), %xmm0
	movaps	%xmm0, 64(%rsp)
	movl	$32, 104(%rbx)
	movl	$0, 8(%r13)
	movq	$0, (%r13)
	movq	$-1, 120(%rbx)
	cmpq	$0, 128(%rbx)
	jne	359f
	leaq	.LT2c3e4e31(%rip), %rsi
	movl	$5, %edx
	movq	%rbx, %rdi
	callq	std.io.traits.AdapterWrite.write_str._5349ec06ad6c886c
	movb	$1, %bpl
	testb	%al, %al
	jne	209f
981:
	movl	$32, 104(%rbx)
	movl	$0, 8(%r13)
	movq	$0, (%r13)
	movq	$-1, 120(%rbx)
	xorps	%xmm0, %xmm0
	movaps	%xmm0, 16(%rsp)
	movq	$0, 32(%rsp)
	cmpb	$100, %r15b
	jb	110f
	movzbl	%r15b, %eax
	leal	(%rax,%rax,4), %ecx
	leal	(%rax,%rcx,8), %ecx
	shrl	$12, %ecx
	imull	$100, %ecx, %eax
	subb	%al, %r15b
	movzbl	%r15b, %eax
	imull	$205, %eax, %edx
	shrl	$11, %edx
	leal	(%rdx,%rdx), %esi
	leal	(%rsi,%rsi,4), %esi
	subb	%sil, %al
	orb	$48, %al
	movb	%al, 39(%rsp)
	orb	$48, %dl
	movb	%dl, 38(%rsp)
	movl	$21, %eax
	movl	%ecx, %r15d
	jmp	204f
552:
	movzbl	1(%rsi), %r15d
	movzbl	2(%rsi), %r14d
	movq	8(%rsi), %rcx
	movq	16(%rsi), %rdx
	movq	16(%r12), %rax
	movq	%rax, 80(%rsp)
	movups	(%r12), %xmm0
	movaps	%xmm0, 64(%rsp)
	movl	$32, 104(%rbx)
	movl	$0, 8(%r13)
	movq	$0, (%r13)
	movq	$-1, 120(%rbx)
	cmpq	$0, 128(%rbx)
	movq	%rcx, 96(%rsp)
	movq	%rdx, 88(%rsp)
	leaq	.LTe93b56bc(%rip), %rsi
	movl	$5, %edx
	movq	%rbx, %rdi
	jne	271f
	callq	std.io.traits.AdapterWrite.write_str._5349ec06ad6c886c
	movb	$1, %bpl
	testb	%al, %al
	jne	209f
434:
	movl	$32, 104(%rbx)
	movl	$0, 8(%r13)
	movq	$0, (%r13)
	movq	$-1, 120(%rbx)
	xorps	%xmm0, %xmm0
	movaps	%xmm0, 16(%rsp)
	movq	$0, 32(%rsp)
	cmpb	$100, %r15b
	jb	22f
	movzbl	%r15b, %eax
	leal	(%rax,%rax,4), %ecx
	leal	(%rax,%rcx,8), %ecx
	shrl	$12, %ecx
	imull	$100, %ecx, %eax
	subb	%al, %r15b
	movzbl	%r15b, %eax
	imull	$205, %eax, %edx
	shrl	$11, %edx
	leal	(%rdx,%rdx), %esi
	leal	(%rsi,%rsi,4), %esi
	subb	%sil, %al
	orb	$48, %al
	movb	%al, 39(%rsp)
	orb	$48, %dl
	movb	%dl, 38(%rsp)
	movl	$21, %eax
	movl	%ecx, %r15d
	jmp	144f
389:
	movzbl	1(%rsi), %r14d
	movl	12(%rsi), %eax
	movl	%eax, 120(%rsp)
	movq	4(%rsi), %rax
	movq	%rax, 112(%rsp)
	movq	16(%r12), %rax
	movq	%rax, 80(%rsp)
	movups	(%r12), %xmm0
	movaps	%xmm0, 64(%rsp)
	movl	$32, 104(%rbx)
	movl	$0, 8(%r13)
	movq	$0, (%r13)
	movq	$-1, 120(%rbx)
	cmpq	$0, 128(%rbx)
	jne	172f
	leaq	.LT8e6b4b41(%rip), %rsi
	movl	$8, %edx
	movq	%rbx, %rdi
	callq	std.io.traits.AdapterWrite.write_str._5349ec06ad6c886c
	movb	$1, %bpl
	testb	%al, %al
	jne	209f
509:
	movl	$32, 104(%rbx)
	movl	$0, 8(%r13)
	movq	$0, (%r13)
	movq	$-1, 120(%rbx)
	xorps	%xmm0, %xmm0
	movaps	%xmm0, 16(%rsp)
	movq	$0, 32(%rsp)
	cmpb	$100, %r14b
	jb	336f
	movzbl	%r14b, %eax
	leal	(%rax,%rax,4), %ecx
	leal	(%rax,%rcx,8), %ecx
	shrl	$12, %ecx
	imull	$100, %ecx, %eax
	subb	%al, %r14b
	movzbl	%r14b, %eax
	imull	$205, %eax, %edx
	shrl	$11, %edx
	leal	(%rdx,%rdx), %esi
	leal	(%rsi,%rsi,4), %esi
	subb	%sil, %al
	orb	$48, %al
	movb	%al, 39(%rsp)
	orb	$48, %dl
	movb	%dl, 38(%rsp)
	movl	$21, %eax
	movl	%ecx, %r14d
	jmp	313f
928:
	movq	%rsi, %r14
	movq	16(%r12), %rax
	movq	%rax, 32(%rsp)
	movups	(%r12), %xmm0
	movaps	%xmm0, 16(%rsp)
	movl	$32, 104(%rbx)
	movl	$0, 8(%r13)
	movq	$0, (%r13)
	movq	$-1, 120(%rbx)
	cmpq	$0, 128(%rbx)
	jne	999f
	leaq	.LTc48ebe31(%rip), %rsi
	movl	$8, %edx
	movq	%rbx, %rdi
	callq	std.io.traits.AdapterWrite.write_str._5349ec06ad6c886c
	movb	$1, %bpl
	testb	%al, %al
	jne	638f
10:
	movl	$32, 104(%rbx)
	movl	$0, 8(%r13)
	movq	$0, (%r13)
	movq	$-1, 120(%rbx)
	movzbl	1(%r14), %eax
	leaq	.LT7259b668(%rip), %rsi
	movl	$7, %edx
	leaq	.LJ57cdb3fc_1(%rip), %rcx
	movslq	(%rcx,%rax,4), %rax
	addq	%rcx, %rax
	jmpq	*%rax
413:
	movzbl	2(%r14), %eax
	cmpl	$2, %eax
	je	489f
	cmpl	$1, %eax
	jne	553f
	leaq	.LT45388282(%rip), %rsi
	movl	$10, %edx
	jmp	489f
933:
	movl	$23, %ecx
	cmpb	$10, %al
	jb	52f
	movzbl	%al, %ecx
	imull	$205, %ecx, %ecx
	shrl	$11, %ecx
	leal	(%rcx,%rcx), %edx
	leal	(%rdx,%rdx,4), %edx
	subb	%dl, %al
	orb	$48, %al
	movb	%al, 87(%rsp)
	orb	$48, %cl
	movb	%cl, 86(%rsp)
	movl	$22, %ecx
	jmp	669f
52:
	orb	$48, %al
	movb	%al, 64(%rsp,%rcx)
669:
	leaq	(%rsp,%rcx), %rsi
	addq	$64, %rsi
	movb	$45, 63(%rsp,%rcx)
	movl	$24, %edx
	subq	%rcx, %rdx
	cmpq	$0, 128(%rbx)
	jne	648f
	movq	%rbx, %rdi
	callq	std.io.traits.AdapterWrite.write_str._5349ec06ad6c886c
	testb	%al, %al
	jne	771f
933:
	movl	$32, 104(%rbx)
	movl	$0, 8(%r13)
	movq	$0, (%r13)
	movq	$-1, 120(%rbx)
	cmpq	$0, 128(%rbx)
	jne	975f
	leaq	.LT37337163(%rip), %rsi
	movl	$1, %edx
	movq	%rbx, %rdi
	callq	std.io.traits.AdapterWrite.write_str._5349ec06ad6c886c
	testb	%al, %al
	jne	771f
669:
	leaq	56(%rsp), %rsi
	movq	%rbx, %rdi
	callq	core.fmt.formatter.Formatter.write_piece._372ad1e79d773fc5
	movl	%eax, %ebp
	jmp	771f
110:
	movl	$23, %eax
	cmpb	$10, %r15b
	jb	204f
	movzbl	%r15b, %eax
	imull	$205, %eax, %eax
	shrl	$11, %eax
	leal	(%rax,%rax), %ecx
	leal	(%rcx,%rcx,4), %ecx
	subb	%cl, %r15b
	orb	$48, %r15b
	movb	%r15b, 39(%rsp)
	orb	$48, %al
	movb	%al, 38(%rsp)
	movl	$22, %eax
	jmp	219f
204:
	orb	$48, %r15b
	movb	%r15b, 16(%rsp,%rax)
219:
	leaq	(%rsp,%rax), %rsi
	addq	$16, %rsi
	movb	$45, 15(%rsp,%rax)
	movl	$24, %edx
	subq	%rax, %rdx
	cmpq	$0, 128(%rbx)
	jne	961f
	movq	%rbx, %rdi
	callq	std.io.traits.AdapterWrite.write_str._5349ec06ad6c886c
	testb	%al, %al
	jne	209f
110:
	movl	$32, 104(%rbx)
	movl	$0, 8(%r13)
	movq	$0, (%r13)
	movq	$-1, 120(%rbx)
	cmpq	$0, 128(%rbx)
	jne	669f
	leaq	.LT37337163(%rip), %rsi
	movl	$1, %edx
	movq	%rbx, %rdi
	callq	std.io.traits.AdapterWrite.write_str._5349ec06ad6c886c
	testb	%al, %al
	jne	209f
515:
	movl	$32, 104(%rbx)
	movl	$0, 8(%r13)
	movq	$0, (%r13)
	movq	$-1, 120(%rbx)
	xorps	%xmm0, %xmm0
	movaps	%xmm0, 16(%rsp)
	movq	$0, 32(%rsp)
	movl	$24, %eax
	cmpw	$100, %r14w
	jb	12f
	.p2align	4
647:
	movl	%r14d, %ecx
	imulq	$1374389535, %rcx, %rcx
	shrq	$37, %rcx
	imull	$100, %ecx, %edx
	movl	%r14d, %esi
	subl	%edx, %esi
	imull	$103, %esi, %edx
	movzwl	%dx, %edx
	shrl	$10, %edx
	leal	(%rdx,%rdx), %edi
	leal	(%rdi,%rdi,4), %edi
	subb	%dil, %sil
	orb	$48, %sil
	movb	%sil, 15(%rsp,%rax)
	orb	$48, %dl
	movb	%dl, 14(%rsp,%rax)
	addq	$-2, %rax
	cmpq	$9999, %r14
	movq	%rcx, %r14
	ja	647b
	jmp	972f
22:
	movl	$23, %eax
	cmpb	$10, %r15b
	jb	144f
	movzbl	%r15b, %eax
	imull	$205, %eax, %eax
	shrl	$11, %eax
	leal	(%rax,%rax), %ecx
	leal	(%rcx,%rcx,4), %ecx
	subb	%cl, %r15b
	orb	$48, %r15b
	movb	%r15b, 39(%rsp)
	orb	$48, %al
	movb	%al, 38(%rsp)
	movl	$22, %eax
	jmp	219f
144:
	orb	$48, %r15b
	movb	%r15b, 16(%rsp,%rax)
219:
	leaq	(%rsp,%rax), %rsi
	addq	$16, %rsi
	movb	$45, 15(%rsp,%rax)
	movl	$24, %edx
	subq	%rax, %rdx
	cmpq	$0, 128(%rbx)
	jne	678f
	movq	%rbx, %rdi
	callq	std.io.traits.AdapterWrite.write_str._5349ec06ad6c886c
	testb	%al, %al
	jne	209f
647:
	movl	$32, 104(%rbx)
	movl	$0, 8(%r13)
	movq	$0, (%r13)
	movq	$-1, 120(%rbx)
	cmpq	$0, 128(%rbx)
	jne	458f
	leaq	.LT37337163(%rip), %rsi
	movl	$1, %edx
	movq	%rbx, %rdi
	callq	std.io.traits.AdapterWrite.write_str._5349ec06ad6c886c
	testb	%al, %al
	jne	209f
22:
	movl	$32, 104(%rbx)
	movl	$0, 8(%r13)
	movq	$0, (%r13)
	movq	$-1, 120(%rbx)
	xorps	%xmm0, %xmm0
	movaps	%xmm0, 16(%rsp)
	movq	$0, 32(%rsp)
	cmpb	$100, %r14b
	jb	981f
	movzbl	%r14b, %eax
	leal	(%rax,%rax,4), %ecx
	leal	(%rax,%rcx,8), %ecx
	shrl	$12, %ecx
	imull	$100, %ecx, %eax
	subb	%al, %r14b
	movzbl	%r14b, %eax
	imull	$205, %eax, %edx
	shrl	$11, %edx
	leal	(%rdx,%rdx), %esi
	leal	(%rsi,%rsi,4), %esi
	subb	%sil, %al
	orb	$48, %al
	movb	%al, 39(%rsp)
	orb	$48, %dl
	movb	%dl, 38(%rsp)
	movl	$21, %eax
	movl	%ecx, %r14d
	jmp	204f
344:
	movl	$23, %eax
	cmpb	$10, %r14b
	jb	709f
	movzbl	%r14b, %eax
	imull	$205, %eax, %eax
	shrl	$11, %eax
	leal	(%rax,%rax), %ecx
	leal	(%rcx,%rcx,4), %ecx
	subb	%cl, %r14b
	orb	$48, %r14b
	movb	%r14b, 39(%rsp)
	orb	$48, %al
	movb	%al, 38(%rsp)
	movl	$22, %eax
	jmp	219f
709:
	orb	$48, %r14b
	movb	%r14b, 16(%rsp,%rax)
219:
	leaq	(%rsp,%rax), %rsi
	addq	$16, %rsi
	movb	$45, 15(%rsp,%rax)
	movl	$24, %edx
	subq	%rax, %rdx
	cmpq	$0, 128(%rbx)
	jne	966f
	movq	%rbx, %rdi
	callq	std.io.traits.AdapterWrite.write_str._5349ec06ad6c886c
	testb	%al, %al
	jne	209f
344:
	movl	$32, 104(%rbx)
	movl	$0, 8(%r13)
	movq	$0, (%r13)
	movq	$-1, 120(%rbx)
	cmpq	$0, 128(%rbx)
	jne	459f
	leaq	.LT6033b867(%rip), %rsi
	movl	$2, %edx
	movq	%rbx, %rdi
	callq	std.io.traits.AdapterWrite.write_str._5349ec06ad6c886c
	testb	%al, %al
	jne	209f
76:
	movl	$32, 104(%rbx)
	movl	$0, 8(%r13)
	movq	$0, (%r13)
	movq	$-1, 120(%rbx)
	xorps	%xmm0, %xmm0
	movaps	%xmm0, 16(%rsp)
	movq	$0, 32(%rsp)
	cmpb	$100, %r15b
	jb	10f
	movzbl	%r15b, %eax
	leal	(%rax,%rax,4), %ecx
	leal	(%rax,%rcx,8), %ecx
	shrl	$12, %ecx
	imull	$100, %ecx, %eax
	subb	%al, %r15b
	movzbl	%r15b, %eax
	imull	$205, %eax, %edx
	shrl	$11, %edx
	leal	(%rdx,%rdx), %esi
	leal	(%rsi,%rsi,4), %esi
	subb	%sil, %al
	orb	$48, %al
	movb	%al, 39(%rsp)
	orb	$48, %dl
	movb	%dl, 38(%rsp)
	movl	$21, %eax
	movl	%ecx, %r15d
	jmp	144f
336:
	movl	$23, %eax
	cmpb	$10, %r14b
	jb	313f
	movzbl	%r14b, %eax
	imull	$205, %eax, %eax
	shrl	$11, %eax
	leal	(%rax,%rax), %ecx
	leal	(%rcx,%rcx,4), %ecx
	subb	%cl, %r14b
	orb	$48, %r14b
	movb	%r14b, 39(%rsp)
	orb	$48, %al
	movb	%al, 38(%rsp)
	movl	$22, %eax
	jmp	219f
313:
	orb	$48, %r14b
	movb	%r14b, 16(%rsp,%rax)
219:
	leaq	(%rsp,%rax), %rsi
	addq	$16, %rsi
	movb	$45, 15(%rsp,%rax)
	movl	$24, %edx
	subq	%rax, %rdx
	cmpq	$0, 128(%rbx)
	jne	913f
859:
	movq	%rbx, %rdi
	callq	std.io.traits.AdapterWrite.write_str._5349ec06ad6c886c
	testb	%al, %al
	jne	209f
336:
	movl	$32, 104(%rbx)
	movl	$0, 8(%r13)
	movq	$0, (%r13)
	movq	$-1, 120(%rbx)
	cmpq	$0, 128(%rbx)
	jne	90f
	leaq	.LT37337163(%rip), %rsi
	movl	$1, %edx
	movq	%rbx, %rdi
	callq	std.io.traits.AdapterWrite.write_str._5349ec06ad6c886c
	testb	%al, %al
	jne	209f
219:
	leaq	112(%rsp), %rsi
	movq	%rbx, %rdi
	callq	core.fmt.formatter.Formatter.write_piece._8a816486d480f50d
	jmp	509f
949:
	leaq	.LTa1cb3204(%rip), %rsi
	movl	$5, %edx
	jmp	489f
740:
	leaq	.LTd49feab6(%rip), %rsi
	movl	$8, %edx
	jmp	489f
71:
	leaq	.LTb7e5a2c0(%rip), %rsi
	movl	$6, %edx
	jmp	489f
917:
	leaq	.LTabc2e8bf(%rip), %rsi
	movl	$5, %edx
	movq	%rbx, %rdi
	callq	core.fmt.formatter.Formatter.write_indented._1ac78889755d2eb3
	movb	$1, %bpl
	testb	%al, %al
	je	186b
	jmp	771f
359:
	leaq	.LT2c3e4e31(%rip), %rsi
	movl	$5, %edx
	movq	%rbx, %rdi
	callq	core.fmt.formatter.Formatter.write_indented._1ac78889755d2eb3
	movb	$1, %bpl
	testb	%al, %al
	je	981b
	jmp	209f
271:
	callq	core.fmt.formatter.Formatter.write_indented._1ac78889755d2eb3
	movb	$1, %bpl
	testb	%al, %al
	je	434b
	jmp	209f
661:
	leaq	.LTbd49f353(%rip), %rsi
	movl	$6, %edx
	movq	%rbx, %rdi
	callq	core.fmt.formatter.Formatter.write_indented._1ac78889755d2eb3
	movb	$1, %bpl
	testb	%al, %al
	je	327b
	jmp	209f
172:
	leaq	.LT8e6b4b41(%rip), %rsi
	movl	$8, %edx
	movq	%rbx, %rdi
	callq	core.fmt.formatter.Formatter.write_indented._1ac78889755d2eb3
	movb	$1, %bpl
	testb	%al, %al
	je	509b
	jmp	209f
999:
	leaq	.LTc48ebe31(%rip), %rsi
	movl	$8, %edx
	movq	%rbx, %rdi
	callq	core.fmt.formatter.Formatter.write_indented._1ac78889755d2eb3
	movb	$1, %bpl
	testb	%al, %al
	je	10b
	jmp	638f
12:
	movq	%r14, %rcx
972:
	cmpq	$10, %rcx
	jb	52f
	movzbl	%cl, %edx
	imull	$205, %edx, %edx
	shrl	$11, %edx
	leal	(%rdx,%rdx), %esi
	leal	(%rsi,%rsi,4), %esi
	subb	%sil, %cl
	orb	$48, %cl
	movb	%cl, 15(%rsp,%rax)
	orb	$48, %dl
	movb	%dl, 14(%rsp,%rax)
	addq	$-2, %rax
	jmp	917f
52:
	orb	$48, %cl
	movb	%cl, 15(%rsp,%rax)
	decq	%rax
917:
	leaq	(%rsp,%rax), %rsi
	addq	$16, %rsi
	movb	$45, 15(%rsp,%rax)
	movl	$24, %edx
	subq	%rax, %rdx
	cmpq	$0, 128(%rbx)
	jne	586f
	movq	%rbx, %rdi
	callq	std.io.traits.AdapterWrite.write_str._5349ec06ad6c886c
	testb	%al, %al
	jne	209f
327:
	movl	$32, 104(%rbx)
	movl	$0, 8(%r13)
	movq	$0, (%r13)
	movq	$-1, 120(%rbx)
	cmpq	$0, 128(%rbx)
	jne	219f
	leaq	.LT37337163(%rip), %rsi
	movl	$1, %edx
	movq	%rbx, %rdi
	callq	std.io.traits.AdapterWrite.write_str._5349ec06ad6c886c
	testb	%al, %al
	jne	209f
186:
	movl	$32, 104(%rbx)
	movl	$0, 8(%r13)
	movq	$0, (%r13)
	movq	$-1, 120(%rbx)
	movq	88(%rsp), %rdi
	movq	96(%rsp), %rsi
	jmp	12f
981:
	movl	$23, %eax
	cmpb	$10, %r14b
	jb	204f
	movzbl	%r14b, %eax
	imull	$205, %eax, %eax
	shrl	$11, %eax
	leal	(%rax,%rax), %ecx
	leal	(%rcx,%rcx,4), %ecx
	subb	%cl, %r14b
	orb	$48, %r14b
	movb	%r14b, 39(%rsp)
	orb	$48, %al
	movb	%al, 38(%rsp)
	movl	$22, %eax
	jmp	917f
204:
	orb	$48, %r14b
	movb	%r14b, 16(%rsp,%rax)
917:
	leaq	(%rsp,%rax), %rsi
	addq	$16, %rsi
	movb	$45, 15(%rsp,%rax)
	movl	$24, %edx
	subq	%rax, %rdx
	cmpq	$0, 128(%rbx)
	jne	271f
	movq	%rbx, %rdi
	callq	std.io.traits.AdapterWrite.write_str._5349ec06ad6c886c
	testb	%al, %al
	jne	209f
981:
	movl	$32, 104(%rbx)
	movl	$0, 8(%r13)
	movq	$0, (%r13)
	movq	$-1, 120(%rbx)
	cmpq	$0, 128(%rbx)
	jne	359f
	leaq	.LT37337163(%rip), %rsi
	movl	$1, %edx
	movq	%rbx, %rdi
	callq	std.io.traits.AdapterWrite.write_str._5349ec06ad6c886c
	testb	%al, %al
	jne	209f
434:
	movl	$32, 104(%rbx)
	movl	$0, 8(%r13)
	movq	$0, (%r13)
	movq	$-1, 120(%rbx)
	movq	88(%rsp), %rsi
	testq	%rsi, %rsi
	je	972f
	movq	96(%rsp), %rdi
12:
	movq	%rbx, %rdx
	callq	tc_lines.digits.DigitsDisplay.fmt._1ac78889755d2eb3
509:
	movl	%eax, %ebp
	jmp	209f
10:
	movl	$23, %eax
	cmpb	$10, %r15b
	jb	144f
	movzbl	%r15b, %eax
	imull	$205, %eax, %eax
	shrl	$11, %eax
	leal	(%rax,%rax), %ecx
	leal	(%rcx,%rcx,4), %ecx
	subb	%cl, %r15b
	orb	$48, %r15b
	movb	%r15b, 39(%rsp)
	orb	$48, %al
	movb	%al, 38(%rsp)
	movl	$22, %eax
	jmp	917f
144:
	orb	$48, %r15b
	movb	%r15b, 16(%rsp,%rax)
917:
	leaq	(%rsp,%rax), %rsi
	addq	$16, %rsi
	movb	$45, 15(%rsp,%rax)
	movl	$24, %edx
	subq	%rax, %rdx
	cmpq	$0, 128(%rbx)
	jne	12f
	movq	%rbx, %rdi
	callq	std.io.traits.AdapterWrite.write_str._5349ec06ad6c886c
	testb	%al, %al
	jne	209f
10:
	movl	$32, 104(%rbx)
	movl	$0, 8(%r13)
	movq	$0, (%r13)
	movq	$-1, 120(%rbx)
	cmpq	$0, 128(%rbx)
	jne	917f
	leaq	.LT6574afb3(%rip), %rsi
	movl	$10, %edx
	movq	%rbx, %rdi
	callq	std.io.traits.AdapterWrite.write_str._5349ec06ad6c886c
	testb	%al, %al
	jne	209f
559:
	movl	$32, 104(%rbx)
	movl	$0, 8(%r13)
	movq	$0, (%r13)
	movq	$-1, 120(%rbx)
	xorps	%xmm0, %xmm0
	movaps	%xmm0, 16(%rsp)
	movq	$0, 30(%rsp)
	movzbl	88(%rsp), %eax
	orb	$48, %al
	movb	%al, 39(%rsp)
	movb	$45, 38(%rsp)
	cmpq	$0, 128(%rbx)
	jne	661f
	leaq	39(%rsp), %rsi
	movl	$1, %edx
	jmp	859b
553:
	movzbl	3(%r14), %eax
	shll	$3, %eax
	leaq	.Lswitch.table.tc_make.answer.answer._5349ec06ad6c886c(%rip), %rcx
	movq	(%rax,%rcx), %rdx
	leaq	.Lswitch.table.tc_make.answer.answer._5349ec06ad6c886c_.639(%rip), %rcx
	movq	(%rax,%rcx), %rsi
489:
	cmpq	$0, 128(%rbx)
	jne	859f
	movq	%rbx, %rdi
	callq	std.io.traits.AdapterWrite.write_str._5349ec06ad6c886c
710:
	movl	%eax, %ebp
638:
	movq	32(%rsp), %rax
	movq	%rax, 16(%r12)
	movaps	16(%rsp), %xmm0
	jmp	464f
648:
	movq	%rbx, %rdi
	callq	core.fmt.formatter.Formatter.write_indented._1ac78889755d2eb3
	testb	%al, %al
	jne	771f
	jmp	933b
961:
	movq	%rbx, %rdi
	callq	core.fmt.formatter.Formatter.write_indented._1ac78889755d2eb3
	testb	%al, %al
	jne	209f
	jmp	110b
678:
	movq	%rbx, %rdi
	callq	core.fmt.formatter.Formatter.write_indented._1ac78889755d2eb3
	testb	%al, %al
	jne	209f
	jmp	647b
966:
	movq	%rbx, %rdi
	callq	core.fmt.formatter.Formatter.write_indented._1ac78889755d2eb3
	testb	%al, %al
	jne	209f
	jmp	344b
859:
	movq	%rbx, %rdi
	callq	core.fmt.formatter.Formatter.write_indented._1ac78889755d2eb3
	jmp	710b
90:
	leaq	.LT37337163(%rip), %rsi
	movl	$1, %edx
	movq	%rbx, %rdi
	callq	core.fmt.formatter.Formatter.write_indented._1ac78889755d2eb3
	testb	%al, %al
	je	219b
	jmp	209f
975:
	leaq	.LT37337163(%rip), %rsi
	movl	$1, %edx
	movq	%rbx, %rdi
	callq	core.fmt.formatter.Formatter.write_indented._1ac78889755d2eb3
	testb	%al, %al
	je	669b
771:
	movq	128(%rsp), %rax
	movq	%rax, 16(%r12)
	movaps	112(%rsp), %xmm0
	jmp	464f
669:
	leaq	.LT37337163(%rip), %rsi
	movl	$1, %edx
	movq	%rbx, %rdi
	callq	core.fmt.formatter.Formatter.write_indented._1ac78889755d2eb3
	testb	%al, %al
	je	515b
	jmp	209f
458:
	leaq	.LT37337163(%rip), %rsi
	movl	$1, %edx
	movq	%rbx, %rdi
	callq	core.fmt.formatter.Formatter.write_indented._1ac78889755d2eb3
	testb	%al, %al
	je	22b
	jmp	209f
459:
	leaq	.LT6033b867(%rip), %rsi
	movl	$2, %edx
	movq	%rbx, %rdi
	callq	core.fmt.formatter.Formatter.write_indented._1ac78889755d2eb3
	testb	%al, %al
	je	76b
	jmp	209f
972:
	cmpq	$0, 128(%rbx)
	jne	669f
	leaq	.LT31704eaf(%rip), %rsi
	movl	$1, %edx
	movq	%rbx, %rdi
	callq	std.io.traits.AdapterWrite.write_str._5349ec06ad6c886c
	jmp	509b
586:
	movq	%rbx, %rdi
	callq	core.fmt.formatter.Formatter.write_indented._1ac78889755d2eb3
	testb	%al, %al
	jne	209f
	jmp	327b
271:
	movq	%rbx, %rdi
	callq	core.fmt.formatter.Formatter.write_indented._1ac78889755d2eb3
	testb	%al, %al
	jne	209f
	jmp	981b
12:
	movq	%rbx, %rdi
	callq	core.fmt.formatter.Formatter.write_indented._1ac78889755d2eb3
	testb	%al, %al
	jne	209f
	jmp	10b
219:
	leaq	.LT37337163(%rip), %rsi
	movl	$1, %edx
	movq	%rbx, %rdi
	callq	core.fmt.formatter.Formatter.write_indented._1ac78889755d2eb3
	testb	%al, %al
	je	186b
	jmp	209f
359:
	leaq	.LT37337163(%rip), %rsi
	movl	$1, %edx
	movq	%rbx, %rdi
	callq	core.fmt.formatter.Formatter.write_indented._1ac78889755d2eb3
	testb	%al, %al
	je	434b
	jmp	209f
917:
	leaq	.LT6574afb3(%rip), %rsi
	movl	$10, %edx
	movq	%rbx, %rdi
	callq	core.fmt.formatter.Formatter.write_indented._1ac78889755d2eb3
	testb	%al, %al
	je	559b
	jmp	209f
661:
	leaq	39(%rsp), %rsi
	movl	$1, %edx
913:
	movq	%rbx, %rdi
	callq	core.fmt.formatter.Formatter.write_indented._1ac78889755d2eb3
	testb	%al, %al
	je	336b
209:
	movq	80(%rsp), %rax
	movq	%rax, 16(%r12)
	movaps	64(%rsp), %xmm0
464:
	movups	%xmm0, (%r12)
	movl	%ebp, %eax
	addq	$136, %rsp
	popq	%rbx
	popq	%r12
	popq	%r13
	popq	%r14
	popq	%r15
	popq	%rbp
	retq
669:
	leaq	.LT31704eaf(%rip), %rsi
	movl	$1, %edx
	movq	%rbx, %rdi
	callq	core.fmt.formatter.Formatter.write_indented._1ac78889755d2eb3
	jmp	509b
	.section	.rodata.core.fmt.formatter.Formatter.write_piece._f520552a59309161,"a",@progbits
	.p2align	2
.LJ57cdb3fc_0:
	.long	548b-.LJ57cdb3fc_0
	.long	389b-.LJ57cdb3fc_0
	.long	166b-.LJ57cdb3fc_0
	.long	552b-.LJ57cdb3fc_0
	.long	284b-.LJ57cdb3fc_0
	.long	928b-.LJ57cdb3fc_0
.LJ57cdb3fc_1:
	.long	413b-.LJ57cdb3fc_1
	.long	489b-.LJ57cdb3fc_1
	.long	740b-.LJ57cdb3fc_1
	.long	71b-.LJ57cdb3fc_1
	.long	949b-.LJ57cdb3fc_1
	.section	.text.core.fmt.formatter.Formatter.write_piece._8a816486d480f50d,"ax",@progbits
	.p2align	4
core.fmt.formatter.Formatter.write_piece._8a816486d480f50d:
	pushq	%rbp
	pushq	%r15
	pushq	%r14
	pushq	%r13
	pushq	%r12
	pushq	%rbx
	subq	$72, %rsp
	movq	%rdi, %rbx
	movl	$32, 104(%rdi)
	movq	$0, 108(%rdi)
	movl	$0, 116(%rdi)
	movq	$-1, 120(%rdi)
	movl	(%rsi), %r15d
	movl	4(%rsi), %r13d
	movzbl	8(%rsi), %r12d
	movq	120(%rdi), %rax
	movq	%rax, 64(%rsp)
	movl	104(%rdi), %eax
	movl	%eax, 48(%rsp)
	movq	108(%rdi), %rax
	movq	%rax, 52(%rsp)
	movl	116(%rdi), %eax
	movl	%eax, 60(%rsp)
	movl	$32, 104(%rdi)
	movq	$0, 108(%rdi)
	movl	$0, 116(%rdi)
	movq	$-1, 120(%rdi)
	cmpq	$0, 128(%rdi)
	jne	219f
	leaq	.LTc8e4ece7(%rip), %rsi
	movl	$7, %edx
	movq	%rbx, %rdi
	callq	std.io.traits.AdapterWrite.write_str._5349ec06ad6c886c
	leaq	104(%rbx), %r14
	movb	$1, %bpl
	testb	%al, %al
	jne	12f
409:
	movb	%r12b, 15(%rsp)
	leaq	108(%rbx), %r12
	movl	$32, 104(%rbx)
	movl	$0, 8(%r12)
	movq	$0, (%r12)
	movq	$-1, 120(%rbx)
	xorps	%xmm0, %xmm0
	movaps	%xmm0, 16(%rsp)
	movq	$0, 32(%rsp)
	movl	$24, %eax
	cmpl	$100, %r15d
	jb	928f
	.p2align	4
327:
	movl	%r15d, %ecx
	imulq	$1374389535, %rcx, %rcx
	shrq	$37, %rcx
	imull	$100, %ecx, %edx
	movl	%r15d, %esi
	subl	%edx, %esi
	imull	$103, %esi, %edx
	movzwl	%dx, %edx
	shrl	$10, %edx
	leal	(%rdx,%rdx), %edi
	leal	(%rdi,%rdi,4), %edi
	subb	%dil, %sil
	orb	$48, %sil
	movb	%sil, 15(%rsp,%rax)
	orb	$48, %dl
	movb	%dl, 14(%rsp,%rax)
	addq	$-2, %rax
	cmpq	$9999, %r15
	movq	%rcx, %r15
	ja	327b
	cmpq	$10, %rcx
	jb	52f
548:
	movzbl	%cl, %edx
	imull	$205, %edx, %edx
	shrl	$11, %edx
	leal	(%rdx,%rdx), %esi
	leal	(%rsi,%rsi,4), %esi
	subb	%sil, %cl
	orb	$48, %cl
	movb	%cl, 15(%rsp,%rax)
	orb	$48, %dl
	movb	%dl, 14(%rsp,%rax)
	addq	$-2, %rax
	jmp	669f
928:
	movq	%r15, %rcx
	cmpq	$10, %rcx
	jae	548b
52:
	orb	$48, %cl
	movb	%cl, 15(%rsp,%rax)
	decq	%rax
669:
	leaq	(%rsp,%rax), %rsi
	addq	$16, %rsi
	movb	$45, 15(%rsp,%rax)
	movl	$24, %edx
	subq	%rax, %rdx
	cmpq	$0, 128(%rbx)
	jne	859f
	movq	%rbx, %rdi
	callq	std.io.traits.AdapterWrite.write_str._5349ec06ad6c886c
	testb	%al, %al
	jne	12f
327:
	movl	$32, 104(%rbx)
	movl	$0, 8(%r12)
	movq	$0, (%r12)
	movq	$-1, 120(%rbx)
	cmpq	$0, 128(%rbx)
	jne	949f
	leaq	.LT624d7ef1(%rip), %rsi
	movl	$9, %edx
	movq	%rbx, %rdi
	callq	std.io.traits.AdapterWrite.write_str._5349ec06ad6c886c
	testb	%al, %al
	jne	12f
186:
	movl	$32, 104(%rbx)
	movl	$0, 8(%r12)
	movq	$0, (%r12)
	movq	$-1, 120(%rbx)
	xorps	%xmm0, %xmm0
	movaps	%xmm0, 16(%rsp)
	movq	$0, 32(%rsp)
	movl	$24, %eax
	cmpl	$100, %r13d
	jb	928f
	.p2align	4
981:
	movl	%r13d, %ecx
	imulq	$1374389535, %rcx, %rcx
	shrq	$37, %rcx
	imull	$100, %ecx, %edx
	movl	%r13d, %esi
	subl	%edx, %esi
	imull	$103, %esi, %edx
	movzwl	%dx, %edx
	shrl	$10, %edx
	leal	(%rdx,%rdx), %edi
	leal	(%rdi,%rdi,4), %edi
	subb	%dil, %sil
	orb	$48, %sil
	movb	%sil, 15(%rsp,%rax)
	orb	$48, %dl
	movb	%dl, 14(%rsp,%rax)
	addq	$-2, %rax
	cmpq	$9999, %r13
	movq	%rcx, %r13
	ja	981b
	cmpq	$10, %rcx
	jb	52f
548:
	movzbl	%cl, %edx
	imull	$205, %edx, %edx
	shrl	$11, %edx
	leal	(%rdx,%rdx), %esi
	leal	(%rsi,%rsi,4), %esi
	subb	%sil, %cl
	orb	$48, %cl
	movb	%cl, 15(%rsp,%rax)
	orb	$48, %dl
	movb	%dl, 14(%rsp,%rax)
	addq	$-2, %rax
	jmp	669f
219:
	leaq	.LTc8e4ece7(%rip), %rsi
	movl	$7, %edx
	movq	%rbx, %rdi
	callq	core.fmt.formatter.Formatter.write_indented._1ac78889755d2eb3
	leaq	104(%rbx), %r14
	movb	$1, %bpl
	testb	%al, %al
	je	409b
	jmp	12f
928:
	movq	%r13, %rcx
	cmpq	$10, %rcx
	jae	548b
52:
	orb	$48, %cl
	movb	%cl, 15(%rsp,%rax)
	decq	%rax
669:
	leaq	(%rsp,%rax), %rsi
	addq	$16, %rsi
	movb	$45, 15(%rsp,%rax)
	movl	$24, %edx
	subq	%rax, %rdx
	cmpq	$0, 128(%rbx)
	jne	928f
	movq	%rbx, %rdi
	callq	std.io.traits.AdapterWrite.write_str._5349ec06ad6c886c
	testb	%al, %al
	jne	12f
981:
	movl	$32, 104(%rbx)
	movl	$0, 8(%r12)
	movq	$0, (%r12)
	movq	$-1, 120(%rbx)
	cmpq	$0, 128(%rbx)
	jne	669f
	leaq	.LT073a3b51(%rip), %rsi
	movl	$6, %edx
	movq	%rbx, %rdi
	callq	std.io.traits.AdapterWrite.write_str._5349ec06ad6c886c
	testb	%al, %al
	jne	12f
434:
	movl	$32, 104(%rbx)
	movl	$0, 8(%r12)
	movq	$0, (%r12)
	movq	$-1, 120(%rbx)
	xorps	%xmm0, %xmm0
	movaps	%xmm0, 16(%rsp)
	movq	$0, 30(%rsp)
	movzbl	15(%rsp), %eax
	orb	$48, %al
	movb	%al, 39(%rsp)
	movb	$45, 38(%rsp)
	cmpq	$0, 128(%rbx)
	jne	219f
	leaq	39(%rsp), %rsi
	movl	$1, %edx
	movq	%rbx, %rdi
	callq	std.io.traits.AdapterWrite.write_str._5349ec06ad6c886c
509:
	movl	%eax, %ebp
	jmp	12f
859:
	movq	%rbx, %rdi
	callq	core.fmt.formatter.Formatter.write_indented._1ac78889755d2eb3
	testb	%al, %al
	jne	12f
	jmp	327b
949:
	leaq	.LT624d7ef1(%rip), %rsi
	movl	$9, %edx
	movq	%rbx, %rdi
	callq	core.fmt.formatter.Formatter.write_indented._1ac78889755d2eb3
	testb	%al, %al
	je	186b
	jmp	12f
928:
	movq	%rbx, %rdi
	callq	core.fmt.formatter.Formatter.write_indented._1ac78889755d2eb3
	testb	%al, %al
	jne	12f
	jmp	981b
669:
	leaq	.LT073a3b51(%rip), %rsi
	movl	$6, %edx
	movq	%rbx, %rdi
	callq	core.fmt.formatter.Formatter.write_indented._1ac78889755d2eb3
	testb	%al, %al
	je	434b
12:
	movq	64(%rsp), %rax
	movq	%rax, 16(%r14)
	movaps	48(%rsp), %xmm0
	movups	%xmm0, (%r14)
	movl	%ebp, %eax
	addq	$72, %rsp
	popq	%rbx
	popq	%r12
	popq	%r13
	popq	%r14
	popq	%r15
	popq	%rbp
	retq
219:
	leaq	39(%rsp), %rsi
	movl	$1, %edx
	movq	%rbx, %rdi
	callq	core.fmt.formatter.Formatter.write_indented._1ac78889755d2eb3
	jmp	509b
	.section	.text.tc_lines.digits.DigitsDisplay.fmt._1ac78889755d2eb3,"ax",@progbits
	.p2align	4
tc_lines.digits.DigitsDisplay.fmt._1ac78889755d2eb3:
	pushq	%r15
	pushq	%r14
	pushq	%r12
	pushq	%rbx
	subq	$168, %rsp
	movq	%rdx, %rbx
	movq	%rsi, %r14
	movq	%rdi, %r15
	.p2align	4
211:
	testq	%r14, %r14
	je	890f
	cmpq	$64, %r14
	movl	$64, %r12d
	cmovbq	%r14, %r12
	xorps	%xmm0, %xmm0
	movaps	%xmm0, 144(%rsp)
	movaps	%xmm0, 128(%rsp)
	movaps	%xmm0, 112(%rsp)
	movaps	%xmm0, 96(%rsp)
	movaps	%xmm0, 80(%rsp)
	movaps	%xmm0, 64(%rsp)
	movaps	%xmm0, 48(%rsp)
	movaps	%xmm0, 32(%rsp)
	cmpq	$1, %r14
	jne	327f
	xorl	%eax, %eax
	jmp	284f
	.p2align	4
327:
	movl	%r12d, %ecx
	andl	$126, %ecx
	xorl	%eax, %eax
	.p2align	4
548:
	movzbl	(%r15,%rax), %edx
	movl	%edx, %esi
	shrl	$4, %esi
	leaq	.LT2bb0e2c3(%rip), %rdi
	movzbl	(%rsi,%rdi), %esi
	movb	%sil, 32(%rsp,%rax,2)
	andl	$15, %edx
	movzbl	(%rdx,%rdi), %edx
	movb	%dl, 33(%rsp,%rax,2)
	movzbl	1(%r15,%rax), %edx
	movl	%edx, %esi
	shrl	$4, %esi
	movzbl	(%rsi,%rdi), %esi
	movb	%sil, 34(%rsp,%rax,2)
	andl	$15, %edx
	movzbl	(%rdx,%rdi), %edx
	movb	%dl, 35(%rsp,%rax,2)
	addq	$2, %rax
	cmpq	%rax, %rcx
	jne	548b
	testb	$1, %r12b
	je	669f
284:
	movzbl	(%r15,%rax), %ecx
	movl	%ecx, %edx
	shrl	$4, %edx
	leaq	.LT2bb0e2c3(%rip), %rsi
	movzbl	(%rdx,%rsi), %edx
	movb	%dl, 32(%rsp,%rax,2)
	andl	$15, %ecx
	movzbl	(%rcx,%rsi), %ecx
	movb	%cl, 33(%rsp,%rax,2)
669:
	leaq	(%r12,%r12), %rdx
	xorps	%xmm0, %xmm0
	movaps	%xmm0, (%rsp)
	movq	$0, 16(%rsp)
	movq	%rsp, %rdi
	leaq	32(%rsp), %rsi
	callq	core.str.utf8.from_utf8
	cmpb	$0, (%rsp)
	jne	409f
	movq	8(%rsp), %rsi
	movzwl	16(%rsp), %eax
	movl	18(%rsp), %ecx
	movzwl	22(%rsp), %edx
	shlq	$32, %rdx
	orq	%rcx, %rdx
	shlq	$16, %rdx
	orq	%rax, %rdx
	cmpq	$0, 128(%rbx)
	jne	928f
	movq	%rbx, %rdi
	callq	std.io.traits.AdapterWrite.write_str._5349ec06ad6c886c
	addq	%r12, %r15
	subq	%r12, %r14
	testb	%al, %al
	je	211b
	jmp	409f
928:
	movq	%rbx, %rdi
	callq	core.fmt.formatter.Formatter.write_indented._1ac78889755d2eb3
	addq	%r12, %r15
	subq	%r12, %r14
	testb	%al, %al
	je	211b
409:
	movb	$1, %al
	jmp	850f
890:
	xorl	%eax, %eax
850:
	addq	$168, %rsp
	popq	%rbx
	popq	%r12
	popq	%r14
	popq	%r15
	retq
	.section	.text.core.fmt.formatter.Formatter.write_piece._372ad1e79d773fc5,"ax",@progbits
	.p2align	4
core.fmt.formatter.Formatter.write_piece._372ad1e79d773fc5:
	pushq	%rbx
	subq	$48, %rsp
	movq	%rdi, %rbx
	movl	$32, 104(%rdi)
	movq	$0, 108(%rdi)
	movl	$0, 116(%rdi)
	movq	$-1, 120(%rdi)
	movq	(%rsi), %rax
	movl	(%rax), %eax
	bswapl	%eax
	movl	%eax, %edi
	shrl	$8, %edi
	movl	%eax, %esi
	shrl	$16, %esi
	movl	%eax, %ecx
	shrl	$24, %ecx
	movzbl	%al, %r8d
	shrl	$4, %r8d
	leaq	.LT2bb0e2c3(%rip), %rdx
	movzbl	(%r8,%rdx), %r8d
	movb	%r8b, 8(%rsp)
	movl	%eax, %r8d
	andl	$15, %r8d
	movzbl	(%r8,%rdx), %r8d
	movb	%r8b, 9(%rsp)
	movl	%eax, %r8d
	shrl	$12, %r8d
	andl	$15, %r8d
	movzbl	(%r8,%rdx), %r8d
	movb	%r8b, 10(%rsp)
	andl	$15, %edi
	movzbl	(%rdi,%rdx), %edi
	movb	%dil, 11(%rsp)
	movl	%eax, %edi
	shrl	$20, %edi
	andl	$15, %edi
	movzbl	(%rdi,%rdx), %edi
	movb	%dil, 12(%rsp)
	andl	$15, %esi
	movzbl	(%rsi,%rdx), %esi
	movb	%sil, 13(%rsp)
	shrl	$28, %eax
	movzbl	(%rax,%rdx), %eax
	movb	%al, 14(%rsp)
	andl	$15, %ecx
	movzbl	(%rcx,%rdx), %eax
	movb	%al, 15(%rsp)
	xorps	%xmm0, %xmm0
	movaps	%xmm0, 16(%rsp)
	movq	$0, 32(%rsp)
	leaq	16(%rsp), %rdi
	leaq	8(%rsp), %rsi
	movl	$8, %edx
	callq	core.str.utf8.from_utf8
	cmpb	$0, 16(%rsp)
	movb	$1, %al
	je	928f
	addq	$48, %rsp
	popq	%rbx
	retq
928:
	movq	24(%rsp), %rsi
	movzwl	32(%rsp), %eax
	movl	34(%rsp), %ecx
	movzwl	38(%rsp), %edx
	shlq	$32, %rdx
	orq	%rcx, %rdx
	shlq	$16, %rdx
	orq	%rax, %rdx
	cmpq	$0, 128(%rbx)
	jne	928f
	movq	%rbx, %rdi
	callq	std.io.traits.AdapterWrite.write_str._5349ec06ad6c886c
	addq	$48, %rsp
	popq	%rbx
	retq
928:
	movq	%rbx, %rdi
	callq	core.fmt.formatter.Formatter.write_indented._1ac78889755d2eb3
	addq	$48, %rsp
	popq	%rbx
	retq
	.section	.text.tc_live.receiver.Receiver.hand_on._5349ec06ad6c886c,"ax",@progbits
	.p2align	4
tc_live.receiver.Receiver.hand_on._5349ec06ad6c886c:
	cmpb	$1, 8(%rsi)
	jne	214f
	pushq	%rbp
	pushq	%r15
	pushq	%r14
	pushq	%r13
	pushq	%r12
	pushq	%rbx
	subq	$488, %rsp
	movq	24(%rsi), %r14
	movq	32(%rsi), %rax
	xorps	%xmm0, %xmm0
	movups	%xmm0, 191(%rsp)
	movaps	%xmm0, 176(%rsp)
	movaps	%xmm0, 160(%rsp)
	movaps	%xmm0, 144(%rsp)
	movaps	%xmm0, 128(%rsp)
	movaps	%xmm0, 112(%rsp)
	testq	%rax, %rax
	je	890f
	movq	%rcx, %rbx
	.p2align	4
868:
	cmpb	%dl, (%r14)
	je	928f
	addq	$272, %r14
	decq	%rax
	jne	868b
890:
	xorl	%eax, %eax
	jmp	638f
928:
	movq	%rdi, %r15
	xorps	%xmm0, %xmm0
	movaps	%xmm0, 208(%rsp)
	movaps	%xmm0, 224(%rsp)
	movaps	%xmm0, 240(%rsp)
	movaps	%xmm0, 256(%rsp)
	movaps	%xmm0, 272(%rsp)
	movaps	%xmm0, 288(%rsp)
	movaps	%xmm0, 304(%rsp)
	movaps	%xmm0, 320(%rsp)
	movaps	%xmm0, 336(%rsp)
	movaps	%xmm0, 352(%rsp)
	movaps	%xmm0, 368(%rsp)
	movups	%xmm0, 383(%rsp)
	movaps	%xmm0, 16(%rsp)
	movaps	%xmm0, 32(%rsp)
	movaps	%xmm0, 48(%rsp)
	movaps	%xmm0, 64(%rsp)
	movaps	%xmm0, 80(%rsp)
	movaps	%xmm0, 96(%rsp)
	movl	$0, 12(%rsp)
	movq	16(%r14), %r12
	testq	%r12, %r12
	je	231f
	xorl	%r13d, %r13d
	.p2align	4
928:
	movq	8(%r14), %rax
	movzwl	(%rax,%r13,4), %eax
	movw	%ax, 14(%rsp)
	leaq	16(%rsp), %rdi
	leaq	12(%rsp), %rdx
	movq	%r14, %rsi
	movq	%rbx, %rcx
	callq	tc_rack.delivery.empty_queue._5349ec06ad6c886c
	cmpb	$0, 16(%rsp)
	jne	859f
	incq	%r13
	cmpq	%r13, %r12
	jne	928b
231:
	xorps	%xmm0, %xmm0
	movaps	%xmm0, 16(%rsp)
	movaps	%xmm0, 32(%rsp)
	movaps	%xmm0, 48(%rsp)
	movaps	%xmm0, 64(%rsp)
	movaps	%xmm0, 80(%rsp)
	movaps	%xmm0, 96(%rsp)
	movl	$1, 12(%rsp)
	movq	40(%r14), %r13
	testq	%r13, %r13
	je	548f
	leaq	311(%rsp), %r12
	xorl	%ebp, %ebp
	.p2align	4
928:
	movq	32(%r14), %rax
	movzbl	(%rax,%rbp,4), %eax
	movb	%al, 13(%rsp)
	leaq	16(%rsp), %rdi
	leaq	12(%rsp), %rdx
	movq	%r14, %rsi
	movq	%rbx, %rcx
	callq	tc_rack.delivery.empty_queue._5349ec06ad6c886c
	cmpb	$0, 16(%rsp)
	jne	928f
	incq	%rbp
	cmpq	%rbp, %r13
	jne	928b
548:
	movzbl	(%r14), %r10d
	movzbl	264(%r14), %edi
	movzbl	265(%r14), %eax
	movzbl	58(%r14), %r9d
	movzbl	59(%r14), %r8d
	movzbl	60(%r14), %esi
	movzbl	61(%r14), %ecx
	movzbl	62(%r14), %edx
	movb	$4, 16(%rsp)
	movb	%r10b, 17(%rsp)
	shll	$18, %r10d
	andl	$1, %edi
	shll	$15, %edi
	orl	%r10d, %edi
	orl	%r9d, %edi
	andl	$1, %eax
	shll	$14, %eax
	orl	%edi, %eax
	shll	$13, %r8d
	shll	$12, %esi
	addl	%r8d, %esi
	shll	$11, %ecx
	addl	%esi, %ecx
	addl	%eax, %ecx
	shll	$9, %edx
	leal	(%rdx,%rcx), %eax
	addl	$16777216, %eax
	movw	$0, 18(%rsp)
	movl	%eax, 20(%rsp)
	xorps	%xmm0, %xmm0
	movups	%xmm0, 24(%rsp)
	movq	$0, 40(%rsp)
	leaq	208(%rsp), %rdi
	leaq	16(%rsp), %rsi
	movq	%rbx, %rdx
	callq	tc_rack.delivery.write_answer._5349ec06ad6c886c
	movzbl	208(%rsp), %eax
	movups	216(%rsp), %xmm0
	movups	%xmm0, 119(%rsp)
	movups	232(%rsp), %xmm0
	movups	%xmm0, 135(%rsp)
	movups	248(%rsp), %xmm0
	movups	%xmm0, 151(%rsp)
	movups	264(%rsp), %xmm0
	movups	%xmm0, 167(%rsp)
	movups	280(%rsp), %xmm0
	movups	%xmm0, 183(%rsp)
	movq	296(%rsp), %rcx
	movq	%rcx, 199(%rsp)
	jmp	12f
859:
	movq	104(%rsp), %rax
	movq	%rax, 391(%rsp)
	movups	88(%rsp), %xmm0
	movups	%xmm0, 375(%rsp)
	movups	24(%rsp), %xmm1
	movups	40(%rsp), %xmm2
	movups	56(%rsp), %xmm3
	movups	72(%rsp), %xmm4
	movups	%xmm4, 359(%rsp)
	movups	%xmm3, 343(%rsp)
	movups	%xmm2, 327(%rsp)
	movups	%xmm1, 311(%rsp)
	movups	%xmm1, 119(%rsp)
	movups	%xmm2, 135(%rsp)
	movups	%xmm3, 151(%rsp)
	movups	%xmm4, 167(%rsp)
	movups	%xmm0, 183(%rsp)
	jmp	859f
928:
	movq	104(%rsp), %rax
	movq	%rax, 80(%r12)
	movups	88(%rsp), %xmm0
	movups	%xmm0, 64(%r12)
	movups	24(%rsp), %xmm0
	movups	40(%rsp), %xmm1
	movups	56(%rsp), %xmm2
	movups	72(%rsp), %xmm3
	movups	%xmm3, 48(%r12)
	movups	%xmm2, 32(%r12)
	movups	%xmm1, 16(%r12)
	movups	%xmm0, (%r12)
	movups	(%r12), %xmm0
	movups	16(%r12), %xmm1
	movups	32(%r12), %xmm2
	movups	48(%r12), %xmm3
	movups	%xmm0, 119(%rsp)
	movups	%xmm1, 135(%rsp)
	movups	%xmm2, 151(%rsp)
	movups	%xmm3, 167(%rsp)
	movups	64(%r12), %xmm0
	movups	%xmm0, 183(%rsp)
	movq	80(%r12), %rax
859:
	movq	%rax, 199(%rsp)
	movb	$1, %al
12:
	movq	%r15, %rdi
638:
	movq	199(%rsp), %rcx
	movq	%rcx, 480(%rsp)
	movups	183(%rsp), %xmm0
	movaps	%xmm0, 464(%rsp)
	movups	119(%rsp), %xmm0
	movups	135(%rsp), %xmm1
	movups	151(%rsp), %xmm2
	movups	167(%rsp), %xmm3
	movaps	%xmm3, 448(%rsp)
	movaps	%xmm2, 432(%rsp)
	movaps	%xmm1, 416(%rsp)
	movaps	%xmm0, 400(%rsp)
	movb	%al, (%rdi)
	movaps	400(%rsp), %xmm0
	movaps	416(%rsp), %xmm1
	movaps	432(%rsp), %xmm2
	movaps	448(%rsp), %xmm3
	movups	%xmm0, 8(%rdi)
	movups	%xmm1, 24(%rdi)
	movups	%xmm2, 40(%rdi)
	movups	%xmm3, 56(%rdi)
	movaps	464(%rsp), %xmm0
	movups	%xmm0, 72(%rdi)
	movq	480(%rsp), %rax
	movq	%rax, 88(%rdi)
	addq	$488, %rsp
	popq	%rbx
	popq	%r12
	popq	%r13
	popq	%r14
	popq	%r15
	popq	%rbp
	retq
214:
	ud2
	.section	.text.tc_rack.delivery.empty_queue._5349ec06ad6c886c,"ax",@progbits
	.p2align	4
tc_rack.delivery.empty_queue._5349ec06ad6c886c:
	pushq	%rbp
	pushq	%r15
	pushq	%r14
	pushq	%r13
	pushq	%r12
	pushq	%rbx
	subq	$488, %rsp
	movq	%rcx, 56(%rsp)
	movq	%rsi, %r15
	movq	%rdi, 40(%rsp)
	movzbl	(%rdx), %eax
	movzbl	1(%rdx), %ebp
	movzwl	2(%rdx), %r12d
	movzwl	%r12w, %r8d
	xorps	%xmm0, %xmm0
	movups	%xmm0, 303(%rsp)
	movaps	%xmm0, 288(%rsp)
	movaps	%xmm0, 272(%rsp)
	movaps	%xmm0, 256(%rsp)
	movaps	%xmm0, 240(%rsp)
	movaps	%xmm0, 224(%rsp)
	movaps	%xmm0, (%rsp)
	movaps	%xmm0, 16(%rsp)
	movaps	%xmm0, 64(%rsp)
	movups	%xmm0, 76(%rsp)
	movaps	%xmm0, 320(%rsp)
	movaps	%xmm0, 336(%rsp)
	movaps	%xmm0, 352(%rsp)
	movaps	%xmm0, 368(%rsp)
	movaps	%xmm0, 384(%rsp)
	movaps	%xmm0, 400(%rsp)
	testb	%al, %al
	je	928f
	movq	208(%r15), %rcx
	movq	216(%r15), %rdx
	movzwl	%bp, %esi
	cmpq	%rsi, 240(%r15)
	jbe	47f
	movq	232(%r15), %rdi
	movzwl	(%rdi,%rsi,2), %esi
	cmpq	%rsi, %rdx
	jbe	859f
	shll	$6, %esi
850:
	addq	%rsi, %rcx
	movq	40(%rcx), %rcx
	movq	%rcx, 48(%rsp)
	testq	%rcx, %rcx
	jne	1f
	jmp	859f
928:
	movq	160(%r15), %rcx
	movq	168(%r15), %rsi
	cmpq	%r8, 192(%r15)
	jbe	354f
	movq	184(%r15), %rdx
	movzwl	(%rdx,%r8,2), %edx
	cmpq	%rdx, %rsi
	jbe	859f
	shll	$6, %edx
880:
	addq	%rdx, %rcx
	movq	40(%rcx), %rcx
	movq	%rcx, 48(%rsp)
	testq	%rcx, %rcx
	je	859f
1:
	testb	%al, %al
	je	890f
	movzwl	%bp, %esi
	xorl	%r12d, %r12d
	movq	%rsi, 32(%rsp)
	jmp	231f
	.p2align	4
629:
	incq	%r12
	cmpq	48(%rsp), %r12
	movq	32(%rsp), %rsi
	je	859f
231:
	xorps	%xmm0, %xmm0
	movups	%xmm0, 108(%rsp)
	movaps	%xmm0, 96(%rsp)
	movzbl	(%r15), %r13d
	movq	208(%r15), %rax
	movq	216(%r15), %rdx
	cmpq	%rsi, 240(%r15)
	jbe	211f
	movq	232(%r15), %rcx
	movzwl	(%rcx,%rsi,2), %ecx
	cmpq	%rcx, %rdx
	jbe	409f
	shll	$6, %ecx
972:
	cmpq	$0, 40(%rax,%rcx)
	je	969f
	xorps	%xmm0, %xmm0
	movaps	%xmm0, 176(%rsp)
	movaps	%xmm0, 160(%rsp)
	leaq	160(%rsp), %rdi
	leaq	208(%r15), %rsi
	movl	%ebp, %edx
	callq	tc_queues.queues.Queues_GrowingRoom.take._f9a2c2c7976df771
	movzbl	160(%rsp), %eax
	leaq	168(%rsp), %rcx
	movups	(%rcx), %xmm0
	movaps	%xmm0, 128(%rsp)
	movq	16(%rcx), %rcx
	movq	%rcx, 144(%rsp)
	cmpb	$1, %al
	jne	214f
	movq	256(%r15), %rax
	cmpq	$-1, %rax
	je	928f
	incq	%rax
	movq	%rax, 256(%r15)
928:
	movq	144(%rsp), %rax
	leaq	464(%rsp), %rcx
	movq	%rax, 16(%rcx)
	movaps	128(%rsp), %xmm0
	movups	%xmm0, (%rcx)
	movq	16(%rcx), %rax
	leaq	434(%rsp), %rdx
	movq	%rax, 16(%rdx)
	movups	(%rcx), %xmm0
	movups	%xmm0, (%rdx)
	movq	16(%rdx), %rax
	leaq	100(%rsp), %rcx
	movq	%rax, 16(%rcx)
	movups	(%rdx), %xmm0
	movups	%xmm0, (%rcx)
	movb	$3, %bl
	xorl	%r14d, %r14d
	movl	%ebp, %eax
	jmp	464f
	.p2align	4
211:
	testq	%rdx, %rdx
	je	409f
	xorl	%ecx, %ecx
	.p2align	4
129:
	cmpw	%bp, (%rax,%rcx)
	je	972b
	addq	$64, %rcx
	decq	%rdx
	jne	129b
409:
	movb	$3, %r13b
	jmp	409f
969:
	movb	$4, %r13b
409:
	movb	$5, %bl
	movb	$1, %r14b
	xorl	%eax, %eax
464:
	movups	108(%rsp), %xmm0
	movups	%xmm0, 204(%rsp)
	movaps	96(%rsp), %xmm0
	movaps	%xmm0, 192(%rsp)
	movaps	192(%rsp), %xmm0
	movaps	%xmm0, 64(%rsp)
	movups	204(%rsp), %xmm0
	movups	%xmm0, 76(%rsp)
	movb	%bl, (%rsp)
	movb	%r13b, 1(%rsp)
	movw	%ax, 2(%rsp)
	movups	76(%rsp), %xmm0
	leaq	4(%rsp), %rax
	movups	%xmm0, 12(%rax)
	movaps	64(%rsp), %xmm0
	movups	%xmm0, (%rax)
	leaq	320(%rsp), %rdi
	movq	%rsp, %rsi
	movq	56(%rsp), %rdx
	callq	tc_rack.delivery.write_answer._5349ec06ad6c886c
	cmpb	$0, 320(%rsp)
	jne	669f
	cmpq	$0, 24(%rsp)
	sete	%al
	orb	%al, %r14b
	jne	629b
	movq	8(%rsp), %rdi
	callq	rattle_dealloc@PLT
	jmp	629b
47:
	testq	%rdx, %rdx
	je	859f
	xorl	%esi, %esi
	.p2align	4
129:
	cmpw	%bp, (%rcx,%rsi)
	je	850b
	addq	$64, %rsi
	decq	%rdx
	jne	129b
	jmp	859f
354:
	testq	%rsi, %rsi
	je	859f
	xorl	%edx, %edx
	.p2align	4
129:
	cmpw	(%rcx,%rdx), %r12w
	je	880b
	addq	$64, %rdx
	decq	%rsi
	jne	129b
859:
	movq	40(%rsp), %rcx
	movb	$0, (%rcx)
	movups	231(%rsp), %xmm0
	movups	247(%rsp), %xmm1
	movups	263(%rsp), %xmm2
	movups	279(%rsp), %xmm3
	movups	%xmm0, 8(%rcx)
	movups	%xmm1, 24(%rcx)
	movups	%xmm2, 40(%rcx)
	movups	%xmm3, 56(%rcx)
	movups	295(%rsp), %xmm0
	movups	%xmm0, 72(%rcx)
	movq	311(%rsp), %rax
928:
	movq	%rax, 88(%rcx)
	addq	$488, %rsp
	popq	%rbx
	popq	%r12
	popq	%r13
	popq	%r14
	popq	%r15
	popq	%rbp
	retq
890:
	xorl	%ebp, %ebp
	movq	%r8, 32(%rsp)
	jmp	231f
	.p2align	4
629:
	incq	%rbp
	cmpq	48(%rsp), %rbp
	movq	32(%rsp), %r8
	je	859b
231:
	xorps	%xmm0, %xmm0
	movups	%xmm0, 108(%rsp)
	movaps	%xmm0, 96(%rsp)
	movzbl	(%r15), %r13d
	movq	160(%r15), %rax
	movq	168(%r15), %rdx
	cmpq	%r8, 192(%r15)
	jbe	211f
	movq	184(%r15), %rcx
	movzwl	(%rcx,%r8,2), %ecx
	cmpq	%rcx, %rdx
	jbe	409f
	shll	$6, %ecx
972:
	cmpq	$0, 40(%rax,%rcx)
	je	969f
	xorps	%xmm0, %xmm0
	movaps	%xmm0, 176(%rsp)
	movaps	%xmm0, 160(%rsp)
	leaq	160(%rsp), %rdi
	leaq	160(%r15), %rsi
	movl	%r12d, %edx
	callq	tc_queues.queues.Queues_GrowingRoom.take._f9a2c2c7976df771
	movzbl	160(%rsp), %eax
	leaq	168(%rsp), %rcx
	movups	(%rcx), %xmm0
	movaps	%xmm0, 128(%rsp)
	movq	16(%rcx), %rcx
	movq	%rcx, 144(%rsp)
	cmpb	$1, %al
	jne	214f
	movq	256(%r15), %rax
	cmpq	$-1, %rax
	je	859f
	incq	%rax
	movq	%rax, 256(%r15)
859:
	movq	144(%rsp), %rax
	leaq	464(%rsp), %rcx
	movq	%rax, 16(%rcx)
	movaps	128(%rsp), %xmm0
	movups	%xmm0, (%rcx)
	movq	16(%rcx), %rax
	leaq	434(%rsp), %rdx
	movq	%rax, 16(%rdx)
	movups	(%rcx), %xmm0
	movups	%xmm0, (%rdx)
	movq	16(%rdx), %rax
	leaq	100(%rsp), %rcx
	movq	%rax, 16(%rcx)
	movups	(%rdx), %xmm0
	movups	%xmm0, (%rcx)
	movb	$2, %bl
	xorl	%r14d, %r14d
	movl	%r12d, %eax
	jmp	464f
	.p2align	4
211:
	testq	%rdx, %rdx
	je	409f
	xorl	%ecx, %ecx
	.p2align	4
129:
	cmpw	(%rax,%rcx), %r12w
	je	972b
	addq	$64, %rcx
	decq	%rdx
	jne	129b
409:
	movb	$5, %bl
	movb	$1, %r14b
	movb	$2, %r13b
	jmp	890f
969:
	movb	$5, %bl
	movb	$1, %r14b
	movb	$4, %r13b
890:
	xorl	%eax, %eax
464:
	movups	108(%rsp), %xmm0
	movups	%xmm0, 204(%rsp)
	movaps	96(%rsp), %xmm0
	movaps	%xmm0, 192(%rsp)
	movaps	192(%rsp), %xmm0
	movaps	%xmm0, 64(%rsp)
	movups	204(%rsp), %xmm0
	movups	%xmm0, 76(%rsp)
	movb	%bl, (%rsp)
	movb	%r13b, 1(%rsp)
	movw	%ax, 2(%rsp)
	movups	76(%rsp), %xmm0
	leaq	4(%rsp), %rax
	movups	%xmm0, 12(%rax)
	movaps	64(%rsp), %xmm0
	movups	%xmm0, (%rax)
	leaq	320(%rsp), %rdi
	movq	%rsp, %rsi
	movq	56(%rsp), %rdx
	callq	tc_rack.delivery.write_answer._5349ec06ad6c886c
	cmpb	$0, 320(%rsp)
	jne	669f
	cmpq	$0, 24(%rsp)
	sete	%al
	orb	%al, %r14b
	jne	629b
	movq	8(%rsp), %rdi
	callq	rattle_dealloc@PLT
	jmp	629b
669:
	leaq	328(%rsp), %r14
	cmpb	$5, %bl
	je	859f
	movzbl	%bl, %eax
	cmpl	$3, %eax
	cmpq	$0, 24(%rsp)
	je	859f
	movq	8(%rsp), %rdi
	callq	rattle_dealloc@PLT
859:
	movq	40(%rsp), %rcx
	movb	$1, (%rcx)
	movups	(%r14), %xmm0
	movups	16(%r14), %xmm1
	movups	32(%r14), %xmm2
	movups	48(%r14), %xmm3
	movups	%xmm0, 8(%rcx)
	movups	%xmm1, 24(%rcx)
	movups	%xmm2, 40(%rcx)
	movups	%xmm3, 56(%rcx)
	movups	64(%r14), %xmm0
	movups	%xmm0, 72(%rcx)
	movq	80(%r14), %rax
	jmp	928b
214:
	ud2
	.section	.rodata.cst16,"aM",@progbits,16
	.p2align	4
.LCf81a4ee4_0:
	.zero	16,46
.LCf81a4ee4_1:
	.quad	7310596056926023526
	.quad	3346860010425884786
.LCf81a4ee4_2:
	.byte	2
	.byte	41
	.byte	15
	.byte	0
	.zero	1
	.zero	1
	.zero	1
	.zero	1
	.zero	1
	.zero	1
	.zero	1
	.zero	1
	.zero	1
	.zero	1
	.zero	1
	.zero	1
.LCf81a4ee4_3:
	.byte	2
	.byte	41
	.byte	15
	.byte	0
	.byte	0
	.byte	0
	.byte	0
	.byte	0
	.byte	0
	.byte	0
	.byte	0
	.byte	0
	.byte	0
	.byte	0
	.byte	0
	.byte	0
	.section	.text.tc_rack.delivery.write_answer._5349ec06ad6c886c,"ax",@progbits
	.p2align	4
tc_rack.delivery.write_answer._5349ec06ad6c886c:
	pushq	%rbx
	subq	$336, %rsp
	movq	%rdi, %rbx
	xorps	%xmm0, %xmm0
	movaps	%xmm0, 112(%rsp)
	movaps	%xmm0, 96(%rsp)
	movaps	%xmm0, 80(%rsp)
	movaps	%xmm0, 64(%rsp)
	movaps	%xmm0, 272(%rsp)
	movaps	%xmm0, 288(%rsp)
	movaps	%xmm0, 304(%rsp)
	movaps	%xmm0, 320(%rsp)
	movq	%rdx, 128(%rsp)
	movups	%xmm0, 136(%rsp)
	movups	%xmm0, 152(%rsp)
	movups	%xmm0, 168(%rsp)
	movups	%xmm0, 184(%rsp)
	movups	%xmm0, 200(%rsp)
	movups	%xmm0, 216(%rsp)
	movups	%xmm0, 256(%rsp)
	movl	$32, 232(%rsp)
	movq	$0, 236(%rsp)
	movl	$0, 244(%rsp)
	movq	$-1, 248(%rsp)
	leaq	128(%rsp), %rdi
	callq	core.fmt.formatter.Formatter.write_piece._f520552a59309161
	xorps	%xmm2, %xmm2
	movl	%eax, %ecx
	movb	$1, %al
	testb	%cl, %cl
	jne	548f
	leaq	236(%rsp), %rax
	movl	$32, 232(%rsp)
	movl	$0, 8(%rax)
	movq	$0, (%rax)
	movq	$-1, 248(%rsp)
	cmpq	$0, 256(%rsp)
	jne	669f
	leaq	.LT3235efc0(%rip), %rsi
	leaq	128(%rsp), %rdi
	movl	$1, %edx
	callq	std.io.traits.AdapterWrite.write_str._5349ec06ad6c886c
231:
	xorps	%xmm2, %xmm2
548:
	movzbl	136(%rsp), %edx
	movsd	144(%rsp), %xmm1
	movl	148(%rsp), %ecx
	movups	152(%rsp), %xmm0
	movaps	%xmm2, 48(%rsp)
	movaps	%xmm2, 32(%rsp)
	movaps	%xmm2, 16(%rsp)
	movaps	%xmm2, (%rsp)
	cmpb	$1, %dl
	jne	890f
	leaq	168(%rsp), %rax
	movups	(%rax), %xmm2
	movups	16(%rax), %xmm3
	movups	32(%rax), %xmm4
	movups	48(%rax), %xmm5
	movaps	%xmm5, 48(%rsp)
	movaps	%xmm4, 32(%rsp)
	movaps	%xmm3, 16(%rsp)
	movaps	%xmm2, (%rsp)
	jmp	409f
890:
	xorl	%ecx, %ecx
	testb	%al, %al
	je	833f
	movaps	.LCf81a4ee4_0(%rip), %xmm0
	movaps	%xmm0, 48(%rsp)
	movaps	%xmm0, 32(%rsp)
	movaps	%xmm0, 16(%rsp)
	movaps	%xmm0, (%rsp)
	movaps	.LCf81a4ee4_1(%rip), %xmm0
	movss	.LCf81a4ee4_3(%rip), %xmm1
409:
	movb	$1, %al
680:
	movaps	(%rsp), %xmm2
	movaps	16(%rsp), %xmm3
	movaps	32(%rsp), %xmm4
	movaps	48(%rsp), %xmm5
	movaps	%xmm2, 64(%rsp)
	movaps	%xmm3, 80(%rsp)
	movaps	%xmm4, 96(%rsp)
	movaps	%xmm5, 112(%rsp)
	movb	%al, (%rbx)
	movss	%xmm1, 8(%rbx)
	movl	%ecx, 12(%rbx)
	movups	%xmm0, 16(%rbx)
	movaps	64(%rsp), %xmm0
	movaps	80(%rsp), %xmm1
	movaps	96(%rsp), %xmm2
	movaps	112(%rsp), %xmm3
	movups	%xmm0, 32(%rbx)
	movups	%xmm1, 48(%rbx)
	movups	%xmm2, 64(%rbx)
	movups	%xmm3, 80(%rbx)
	addq	$336, %rsp
	popq	%rbx
	retq
833:
	xorps	%xmm0, %xmm0
	xorps	%xmm1, %xmm1
	xorl	%eax, %eax
	jmp	680b
669:
	leaq	.LT3235efc0(%rip), %rsi
	leaq	128(%rsp), %rdi
	movl	$1, %edx
	callq	core.fmt.formatter.Formatter.write_indented._1ac78889755d2eb3
	jmp	231b
	.section	.rodata.cst16,"aM",@progbits,16
	.p2align	4
.LCd9d5459f_0:
	.zero	16,46
.LCd9d5459f_1:
	.quad	7310596056926023526
	.quad	3346860010425884786
.LCd9d5459f_2:
	.byte	2
	.byte	41
	.byte	15
	.byte	0
	.zero	1
	.zero	1
	.zero	1
	.zero	1
	.zero	1
	.zero	1
	.zero	1
	.zero	1
	.zero	1
	.zero	1
	.zero	1
	.zero	1
.LCd9d5459f_3:
	.byte	2
	.byte	41
	.byte	15
	.byte	0
	.byte	0
	.byte	0
	.byte	0
	.byte	0
	.byte	0
	.byte	0
	.byte	0
	.byte	0
	.byte	0
	.byte	0
	.byte	0
	.byte	0
	.section	.text.std.io.traits.Write.write_fmt._66d26946d4f3efb7,"ax",@progbits
	.p2align	4
std.io.traits.Write.write_fmt._66d26946d4f3efb7:
	pushq	%r15
	pushq	%r14
	pushq	%r13
	pushq	%r12
	pushq	%rbx
	subq	$272, %rsp
	movq	%rdi, %rbx
	movq	(%rdx), %r13
	movq	8(%rdx), %r15
	movq	16(%rdx), %r14
	xorps	%xmm0, %xmm0
	movaps	%xmm0, 256(%rsp)
	movaps	%xmm0, 240(%rsp)
	movaps	%xmm0, 224(%rsp)
	movaps	%xmm0, 208(%rsp)
	movq	%rsi, 64(%rsp)
	movups	%xmm0, 72(%rsp)
	movups	%xmm0, 88(%rsp)
	movups	%xmm0, 104(%rsp)
	movups	%xmm0, 120(%rsp)
	movups	%xmm0, 136(%rsp)
	movups	%xmm0, 152(%rsp)
	movl	$32, 168(%rsp)
	leaq	172(%rsp), %r12
	movl	$0, 180(%rsp)
	movq	$0, 172(%rsp)
	movq	$-1, 184(%rsp)
	movups	%xmm0, 192(%rsp)
	movzbl	(%r13), %eax
	leaq	.LJd9d5459f_0(%rip), %rcx
	movslq	(%rcx,%rax,4), %rax
	addq	%rcx, %rax
	jmpq	*%rax
327:
	movl	$32, 168(%rsp)
	movl	$0, 8(%r12)
	movq	$0, (%r12)
	movq	$-1, 184(%rsp)
	leaq	.LT138bf261(%rip), %rsi
	leaq	64(%rsp), %rdi
	movl	$5, %edx
	callq	std.io.traits.AdapterWrite.write_str._5349ec06ad6c886c
	movl	%eax, %ecx
	movb	$1, %al
	testb	%cl, %cl
	jne	409f
	movl	$32, 168(%rsp)
	movl	$0, 8(%r12)
	movq	$0, (%r12)
	movq	$-1, 184(%rsp)
	movl	4(%r13), %edx
	xorps	%xmm0, %xmm0
	movaps	%xmm0, (%rsp)
	movq	$0, 16(%rsp)
	movl	$24, %eax
	cmpq	$100, %rdx
	jb	928f
	.p2align	4
186:
	movl	%edx, %ecx
	imulq	$1374389535, %rcx, %rcx
	shrq	$37, %rcx
	imull	$100, %ecx, %esi
	movl	%edx, %edi
	subl	%esi, %edi
	imull	$103, %edi, %esi
	movzwl	%si, %esi
	shrl	$10, %esi
	leal	(%rsi,%rsi), %r8d
	leal	(%r8,%r8,4), %r8d
	subb	%r8b, %dil
	orb	$48, %dil
	movb	%dil, -1(%rsp,%rax)
	orb	$48, %sil
	movb	%sil, -2(%rsp,%rax)
	addq	$-2, %rax
	cmpq	$9999, %rdx
	movq	%rcx, %rdx
	ja	186b
	cmpq	$10, %rcx
	jb	52f
548:
	movzbl	%cl, %edx
	imull	$205, %edx, %edx
	shrl	$11, %edx
	leal	(%rdx,%rdx), %esi
	leal	(%rsi,%rsi,4), %esi
	subb	%sil, %cl
	orb	$48, %cl
	movb	%cl, -1(%rsp,%rax)
	orb	$48, %dl
	movb	%dl, -2(%rsp,%rax)
	addq	$-2, %rax
	jmp	71f
669:
	leaq	.LT15dbdadc(%rip), %rsi
	leaq	64(%rsp), %rdi
	movl	$18, %edx
	jmp	271f
219:
	leaq	.LT71b4f69b(%rip), %rsi
	leaq	64(%rsp), %rdi
	movl	$16, %edx
	jmp	271f
949:
	leaq	.LTbd1a9a90(%rip), %rsi
	leaq	64(%rsp), %rdi
	movl	$20, %edx
	jmp	271f
740:
	leaq	.LT8140752f(%rip), %rsi
	leaq	64(%rsp), %rdi
	movl	$19, %edx
271:
	callq	std.io.traits.AdapterWrite.write_str._5349ec06ad6c886c
409:
	movb	$1, %cl
	testb	%al, %al
	jne	284f
	movl	$32, 168(%rsp)
	movl	$0, 8(%r12)
	movq	$0, (%r12)
	movq	$-1, 184(%rsp)
	cmpq	$0, 192(%rsp)
	jne	917f
	leaq	64(%rsp), %rdi
	movq	%r15, %rsi
	movq	%r14, %rdx
	callq	std.io.traits.AdapterWrite.write_str._5349ec06ad6c886c
186:
	movl	%eax, %ecx
284:
	movzbl	72(%rsp), %edx
	movsd	80(%rsp), %xmm0
	movl	84(%rsp), %eax
	movups	88(%rsp), %xmm1
	xorps	%xmm2, %xmm2
	movaps	%xmm2, 48(%rsp)
	movaps	%xmm2, 32(%rsp)
	movaps	%xmm2, 16(%rsp)
	movaps	%xmm2, (%rsp)
	cmpb	$1, %dl
	jne	890f
	leaq	104(%rsp), %rcx
	movups	(%rcx), %xmm2
	movups	16(%rcx), %xmm3
	movups	32(%rcx), %xmm4
	movups	48(%rcx), %xmm5
	movaps	%xmm5, 48(%rsp)
	movaps	%xmm4, 32(%rsp)
	movaps	%xmm3, 16(%rsp)
	movaps	%xmm2, (%rsp)
	jmp	969f
890:
	xorl	%eax, %eax
	testb	%cl, %cl
	je	231f
	movaps	.LCd9d5459f_0(%rip), %xmm0
	movaps	%xmm0, 48(%rsp)
	movaps	%xmm0, 32(%rsp)
	movaps	%xmm0, 16(%rsp)
	movaps	%xmm0, (%rsp)
	movaps	.LCd9d5459f_1(%rip), %xmm1
	movss	.LCd9d5459f_3(%rip), %xmm0
969:
	movb	$1, %cl
680:
	movaps	(%rsp), %xmm2
	movaps	16(%rsp), %xmm3
	movaps	32(%rsp), %xmm4
	movaps	48(%rsp), %xmm5
	movaps	%xmm5, 256(%rsp)
	movaps	%xmm4, 240(%rsp)
	movaps	%xmm3, 224(%rsp)
	movaps	%xmm2, 208(%rsp)
	movb	%cl, (%rbx)
	movss	%xmm0, 8(%rbx)
	movl	%eax, 12(%rbx)
	movups	%xmm1, 16(%rbx)
	movaps	208(%rsp), %xmm0
	movaps	224(%rsp), %xmm1
	movaps	240(%rsp), %xmm2
	movaps	256(%rsp), %xmm3
	movups	%xmm0, 32(%rbx)
	movups	%xmm1, 48(%rbx)
	movups	%xmm2, 64(%rbx)
	movups	%xmm3, 80(%rbx)
	addq	$272, %rsp
	popq	%rbx
	popq	%r12
	popq	%r13
	popq	%r14
	popq	%r15
	retq
231:
	xorps	%xmm0, %xmm0
	xorl	%ecx, %ecx
	xorps	%xmm1, %xmm1
	jmp	680b
928:
	movq	%rdx, %rcx
	cmpq	$10, %rcx
	jae	548b
52:
	orb	$48, %cl
	movb	%cl, -1(%rsp,%rax)
	decq	%rax
71:
	leaq	(%rsp,%rax), %rsi
	movb	$45, -1(%rsp,%rax)
	movl	$24, %edx
	subq	%rax, %rdx
	cmpq	$0, 192(%rsp)
	jne	71f
	leaq	64(%rsp), %rdi
	callq	std.io.traits.AdapterWrite.write_str._5349ec06ad6c886c
	testb	%al, %al
	movb	$1, %al
	jne	409b
981:
	movl	$32, 168(%rsp)
	movl	$0, 8(%r12)
	movq	$0, (%r12)
	movq	$-1, 184(%rsp)
	cmpq	$0, 192(%rsp)
	jne	359f
	leaq	.LTbefb410e(%rip), %rsi
	leaq	64(%rsp), %rdi
	movl	$2, %edx
	callq	std.io.traits.AdapterWrite.write_str._5349ec06ad6c886c
	testb	%al, %al
	movb	$1, %al
	jne	409b
434:
	movl	$32, 168(%rsp)
	movl	$0, 8(%r12)
	movq	$0, (%r12)
	movq	$-1, 184(%rsp)
	movzbl	8(%r13), %eax
	shll	$3, %eax
	leaq	.Lswitch.table.std.io.traits.Write.write_fmt._66d26946d4f3efb7(%rip), %rcx
	movq	(%rax,%rcx), %rdx
	leaq	.Lswitch.table.std.io.traits.Write.write_fmt._66d26946d4f3efb7_.638(%rip), %rcx
	movq	(%rax,%rcx), %rsi
	cmpq	$0, 192(%rsp)
	jne	661f
	leaq	64(%rsp), %rdi
	jmp	271b
917:
	leaq	64(%rsp), %rdi
	movq	%r15, %rsi
	movq	%r14, %rdx
	callq	core.fmt.formatter.Formatter.write_indented._1ac78889755d2eb3
	jmp	186b
71:
	leaq	64(%rsp), %rdi
	callq	core.fmt.formatter.Formatter.write_indented._1ac78889755d2eb3
	testb	%al, %al
	movb	$1, %al
	jne	409b
	jmp	981b
359:
	leaq	.LTbefb410e(%rip), %rsi
	leaq	64(%rsp), %rdi
	movl	$2, %edx
	callq	core.fmt.formatter.Formatter.write_indented._1ac78889755d2eb3
	testb	%al, %al
	movb	$1, %al
	jne	409b
	jmp	434b
661:
	leaq	64(%rsp), %rdi
	callq	core.fmt.formatter.Formatter.write_indented._1ac78889755d2eb3
	jmp	409b
	.section	.rodata.std.io.traits.Write.write_fmt._66d26946d4f3efb7,"a",@progbits
	.p2align	2
.LJd9d5459f_0:
	.long	327b-.LJd9d5459f_0
	.long	740b-.LJd9d5459f_0
	.long	219b-.LJd9d5459f_0
	.long	949b-.LJd9d5459f_0
	.long	669b-.LJd9d5459f_0
	.section	.text.unlikely.std_alloc.vec.Vec.grow_amortized._923596be7a9ccb34,"ax",@progbits
	.p2align	4
std_alloc.vec.Vec.grow_amortized._923596be7a9ccb34:
	movq	%rsi, %rax
	movq	8(%rdi), %rsi
	addq	%rsi, %rax
	jae	253f
	xorl	%eax, %eax
	retq
253:
	pushq	%r14
	pushq	%rbx
	pushq	%rax
	movq	16(%rdi), %rcx
	cmpq	$5, %rax
	movl	$4, %ebx
	cmovaeq	%rax, %rbx
	movq	%rcx, %rdx
	shrq	$62, %rdx
	leaq	(%rcx,%rcx), %rax
	cmpq	%rax, %rbx
	cmovaq	%rbx, %rax
	testq	%rdx, %rdx
	cmoveq	%rax, %rbx
	movq	%rbx, %rdx
	shrq	$59, %rdx
	jne	890f
	testq	%rcx, %rcx
	je	859f
	movq	%rdi, %r14
	movq	(%rdi), %rdi
	shlq	$4, %rsi
	movq	%rbx, %rdx
	shlq	$4, %rdx
	movl	$8, %ecx
	callq	rattle_realloc@PLT
	testb	$1, %al
	je	890f
928:
	movq	%rdx, (%r14)
	movq	%rbx, 16(%r14)
	movb	$1, %al
	addq	$8, %rsp
	popq	%rbx
	popq	%r14
	retq
859:
	movq	%rdi, %r14
	shlq	$4, %rax
	movl	$8, %esi
	movq	%rax, %rdi
	callq	rattle_alloc@PLT
	testb	$1, %al
	jne	928b
890:
	xorl	%eax, %eax
	addq	$8, %rsp
	popq	%rbx
	popq	%r14
	retq
	.section	.text.tc_make.line.octets,"ax",@progbits
	.p2align	4
tc_make.line.octets:
	pushq	%rbp
	pushq	%r15
	pushq	%r14
	pushq	%r13
	pushq	%r12
	pushq	%rbx
	subq	$24, %rsp
	movq	%rdx, %r14
	movb	$4, %bpl
	movb	$1, %r15b
	xorl	%edx, %edx
	testb	$1, %r14b
	jne	890f
	testq	%r14, %r14
	je	669f
	movq	%rsi, %r13
	movq	%rdi, 16(%rsp)
	movq	%r14, %rbx
	shrq	%rbx
	movl	$1, %esi
	movq	%rbx, %rdi
	callq	rattle_alloc@PLT
	testb	$1, %al
	je	409f
	cmpq	$2, %r14
	jne	219f
	xorl	%r14d, %r14d
	jmp	928f
890:
	xorl	%ebx, %ebx
	jmp	969f
669:
	leaq	15(%rsp), %rdx
	xorl	%r15d, %r15d
	xorl	%ebx, %ebx
	xorl	%ebp, %ebp
	jmp	969f
409:
	movb	$16, %bpl
	jmp	890f
219:
	leaq	-1(%rbx), %r14
	movq	%rdx, %rdi
	xorl	%esi, %esi
	movq	%rdx, %r12
	movq	%r14, %rdx
	callq	memset@PLT
	movq	%r12, %rdx
928:
	movq	%r13, %rax
	movb	$0, (%rdx,%r14)
	incq	%r14
	cmpq	%r14, %rbx
	jne	928f
	xorl	%ecx, %ecx
	jmp	548f
	.p2align	4
650:
	addb	$-48, %dil
475:
	shlb	$4, %sil
	addb	%dil, %sil
	movb	%sil, (%rdx,%rcx)
	incq	%rcx
	cmpq	%rcx, %r14
	je	83f
548:
	movzbl	(%rax,%rcx,2), %esi
	cmpb	$48, %sil
	jb	928f
	movzbl	1(%rax,%rcx,2), %edi
	cmpb	$57, %sil
	ja	868f
	addb	$-48, %sil
	jmp	198f
	.p2align	4
868:
	cmpb	$65, %sil
	jb	928f
	cmpb	$70, %sil
	ja	373f
	addb	$-55, %sil
	jmp	198f
373:
	leal	-97(%rsi), %r8d
	cmpb	$5, %r8b
	ja	928f
	addb	$-87, %sil
198:
	cmpb	$48, %dil
	jb	928f
	cmpb	$57, %dil
	jbe	650b
	cmpb	$65, %dil
	jb	928f
	cmpb	$70, %dil
	ja	373f
	addb	$-55, %dil
	jmp	475b
373:
	leal	-97(%rdi), %r8d
	cmpb	$5, %r8b
	ja	928f
	addb	$-87, %dil
	jmp	475b
928:
	movq	%rdx, %rdi
	callq	rattle_dealloc@PLT
890:
	xorl	%edx, %edx
	xorl	%ebx, %ebx
928:
	movq	16(%rsp), %rdi
969:
	movb	%r15b, (%rdi)
	movb	%bpl, 1(%rdi)
	movb	$0, 2(%rdi)
	movq	%rdx, 8(%rdi)
	movq	%rbx, 16(%rdi)
	movq	%rbx, 24(%rdi)
	addq	$24, %rsp
	popq	%rbx
	popq	%r12
	popq	%r13
	popq	%r14
	popq	%r15
	popq	%rbp
	retq
83:
	xorl	%r15d, %r15d
	xorl	%ebp, %ebp
	jmp	928b
	.section	.text.tc_make.line.read_stream,"ax",@progbits
	.p2align	4
tc_make.line.read_stream:
	pushq	%rbp
	pushq	%rbx
	leaq	-6(%rdx), %rax
	cmpq	$-5, %rax
	jb	325f
	testq	%rdx, %rdx
	je	890f
	movzbl	(%rsi), %eax
	addb	$-48, %al
	cmpb	$9, %al
	ja	325f
	cmpq	$1, %rdx
	jne	548f
327:
	movl	%edx, %r10d
	andl	$3, %r10d
	cmpq	$4, %rdx
	jae	523f
	xorl	%eax, %eax
	xorl	%r11d, %r11d
	jmp	850f
890:
	xorl	%eax, %eax
	jmp	669f
548:
	movzbl	1(%rsi), %eax
	addb	$-48, %al
	cmpb	$9, %al
	ja	325f
	cmpq	$2, %rdx
	je	327b
	movzbl	2(%rsi), %eax
	addb	$-48, %al
	cmpb	$9, %al
	ja	325f
	cmpq	$3, %rdx
	je	327b
	movzbl	3(%rsi), %eax
	addb	$-48, %al
	cmpb	$9, %al
	ja	325f
	cmpq	$4, %rdx
	je	327b
	movzbl	4(%rsi), %eax
	addb	$-48, %al
	cmpb	$10, %al
	setb	%al
	cmpq	$5, %rdx
	sete	%r10b
	testb	%r10b, %al
	jne	327b
	jmp	325f
523:
	andl	$4, %edx
	xorl	%eax, %eax
	xorl	%r11d, %r11d
	.p2align	4
373:
	leal	(%rax,%rax,4), %eax
	movzbl	(%rsi,%r11), %ebx
	movzbl	1(%rsi,%r11), %ebp
	addb	$-48, %bl
	movzbl	%bl, %ebx
	leal	(%rbx,%rax,2), %eax
	leal	(%rax,%rax,4), %eax
	addb	$-48, %bpl
	movzbl	%bpl, %ebx
	leal	(%rbx,%rax,2), %eax
	leal	(%rax,%rax,4), %eax
	movzbl	2(%rsi,%r11), %ebx
	addb	$-48, %bl
	movzbl	%bl, %ebx
	leal	(%rbx,%rax,2), %eax
	leal	(%rax,%rax,4), %eax
	movzbl	3(%rsi,%r11), %ebx
	addb	$-48, %bl
	movzbl	%bl, %ebx
	leal	(%rbx,%rax,2), %eax
	addq	$4, %r11
	cmpq	%r11, %rdx
	jne	373b
	testq	%r10, %r10
	je	871f
850:
	addq	%r11, %rsi
	xorl	%edx, %edx
	.p2align	4
373:
	leal	(%rax,%rax,4), %eax
	movzbl	(%rsi,%rdx), %r11d
	addb	$-48, %r11b
	movzbl	%r11b, %r11d
	leal	(%r11,%rax,2), %eax
	incq	%rdx
	cmpq	%rdx, %r10
	jne	373b
871:
	cmpl	$65535, %eax
	ja	325f
669:
	leaq	-6(%r8), %rdx
	cmpq	$-5, %rdx
	jb	519f
	testq	%r8, %r8
	je	890f
	movzbl	(%rcx), %edx
	addb	$-48, %dl
	cmpb	$9, %dl
	ja	519f
	cmpq	$1, %r8
	jne	548f
327:
	movl	%r8d, %esi
	andl	$3, %esi
	cmpq	$4, %r8
	jae	523f
	xorl	%edx, %edx
	xorl	%r10d, %r10d
	jmp	850f
325:
	movw	$769, (%rdi)
	movl	$0, 2(%rdi)
	popq	%rbx
	popq	%rbp
	retq
890:
	xorl	%edx, %edx
	jmp	928f
548:
	movzbl	1(%rcx), %edx
	addb	$-48, %dl
	cmpb	$9, %dl
	ja	519f
	cmpq	$2, %r8
	je	327b
	movzbl	2(%rcx), %edx
	addb	$-48, %dl
	cmpb	$9, %dl
	ja	519f
	cmpq	$3, %r8
	je	327b
	movzbl	3(%rcx), %edx
	addb	$-48, %dl
	cmpb	$9, %dl
	ja	519f
	cmpq	$4, %r8
	je	327b
	movzbl	4(%rcx), %edx
	addb	$-48, %dl
	cmpb	$10, %dl
	setb	%dl
	cmpq	$5, %r8
	sete	%sil
	testb	%sil, %dl
	jne	327b
	jmp	519f
523:
	andl	$4, %r8d
	xorl	%edx, %edx
	xorl	%r10d, %r10d
	.p2align	4
373:
	leal	(%rdx,%rdx,4), %edx
	movzbl	(%rcx,%r10), %r11d
	movzbl	1(%rcx,%r10), %ebx
	addb	$-48, %r11b
	movzbl	%r11b, %r11d
	leal	(%r11,%rdx,2), %edx
	leal	(%rdx,%rdx,4), %edx
	addb	$-48, %bl
	movzbl	%bl, %r11d
	leal	(%r11,%rdx,2), %edx
	leal	(%rdx,%rdx,4), %edx
	movzbl	2(%rcx,%r10), %r11d
	addb	$-48, %r11b
	movzbl	%r11b, %r11d
	leal	(%r11,%rdx,2), %edx
	leal	(%rdx,%rdx,4), %edx
	movzbl	3(%rcx,%r10), %r11d
	addb	$-48, %r11b
	movzbl	%r11b, %r11d
	leal	(%r11,%rdx,2), %edx
	addq	$4, %r10
	cmpq	%r10, %r8
	jne	373b
	testq	%rsi, %rsi
	je	871f
850:
	addq	%r10, %rcx
	xorl	%r8d, %r8d
	.p2align	4
373:
	leal	(%rdx,%rdx,4), %edx
	movzbl	(%rcx,%r8), %r10d
	addb	$-48, %r10b
	movzbl	%r10b, %r10d
	leal	(%r10,%rdx,2), %edx
	incq	%r8
	cmpq	%r8, %rsi
	jne	373b
871:
	cmpl	$256, %edx
	jae	519f
928:
	movq	24(%rsp), %rcx
	leaq	-6(%rcx), %rsi
	cmpq	$-5, %rsi
	jb	325f
	testq	%rcx, %rcx
	je	890f
	movzbl	(%r9), %esi
	addb	$-48, %sil
	cmpb	$9, %sil
	ja	325f
	cmpq	$1, %rcx
	jne	548f
327:
	movl	%ecx, %esi
	andl	$3, %esi
	cmpq	$4, %rcx
	jae	523f
	xorl	%r8d, %r8d
	xorl	%r10d, %r10d
	jmp	850f
519:
	movw	$769, (%rdi)
	movl	$1, 2(%rdi)
	popq	%rbx
	popq	%rbp
	retq
890:
	xorl	%r8d, %r8d
	jmp	14f
548:
	movzbl	1(%r9), %esi
	addb	$-48, %sil
	cmpb	$9, %sil
	ja	325f
	cmpq	$2, %rcx
	je	327b
	movzbl	2(%r9), %esi
	addb	$-48, %sil
	cmpb	$9, %sil
	ja	325f
	cmpq	$3, %rcx
	je	327b
	movzbl	3(%r9), %esi
	addb	$-48, %sil
	cmpb	$9, %sil
	ja	325f
	cmpq	$4, %rcx
	je	327b
	movzbl	4(%r9), %esi
	addb	$-48, %sil
	cmpb	$10, %sil
	setb	%sil
	cmpq	$5, %rcx
	sete	%r8b
	testb	%r8b, %sil
	jne	327b
	jmp	325f
523:
	andl	$4, %ecx
	xorl	%r8d, %r8d
	xorl	%r10d, %r10d
373:
	leal	(%r8,%r8,4), %r8d
	movzbl	(%r9,%r10), %r11d
	movzbl	1(%r9,%r10), %ebx
	addb	$-48, %r11b
	movzbl	%r11b, %r11d
	leal	(%r11,%r8,2), %r8d
	leal	(%r8,%r8,4), %r8d
	addb	$-48, %bl
	movzbl	%bl, %r11d
	leal	(%r11,%r8,2), %r8d
	leal	(%r8,%r8,4), %r8d
	movzbl	2(%r9,%r10), %r11d
	addb	$-48, %r11b
	movzbl	%r11b, %r11d
	leal	(%r11,%r8,2), %r8d
	leal	(%r8,%r8,4), %r8d
	movzbl	3(%r9,%r10), %r11d
	addb	$-48, %r11b
	movzbl	%r11b, %r11d
	leal	(%r11,%r8,2), %r8d
	addq	$4, %r10
	cmpq	%r10, %rcx
	jne	373b
	testq	%rsi, %rsi
	je	871f
850:
	addq	%r10, %r9
	xorl	%ecx, %ecx
373:
	leal	(%r8,%r8,4), %r8d
	movzbl	(%r9,%rcx), %r10d
	addb	$-48, %r10b
	movzbl	%r10b, %r10d
	leal	(%r10,%r8,2), %r8d
	incq	%rcx
	cmpq	%rcx, %rsi
	jne	373b
871:
	cmpl	$256, %r8d
	jae	325f
14:
	shll	$16, %edx
	orl	%edx, %eax
	shll	$24, %r8d
	orl	%eax, %r8d
	movw	$0, (%rdi)
	movl	%r8d, 2(%rdi)
	popq	%rbx
	popq	%rbp
	retq
325:
	movw	$769, (%rdi)
	movl	$2, 2(%rdi)
	popq	%rbx
	popq	%rbp
	retq
	.section	.text.tc_make.line.bd,"ax",@progbits
	.p2align	4
tc_make.line.bd:
	pushq	%rbp
	pushq	%r15
	pushq	%r14
	pushq	%r13
	pushq	%r12
	pushq	%rbx
	subq	$104, %rsp
	cmpq	$4, %rdx
	jne	325f
	movq	8(%rsi), %rcx
	leaq	-6(%rcx), %rax
	cmpq	$-5, %rax
	jb	519f
	testq	%rcx, %rcx
	je	890f
	movq	(%rsi), %rax
	movzbl	(%rax), %edx
	addb	$-48, %dl
	cmpb	$9, %dl
	ja	519f
	cmpq	$1, %rcx
	jne	548f
327:
	movl	%ecx, %edx
	andl	$3, %edx
	cmpq	$4, %rcx
	jae	523f
	xorl	%r14d, %r14d
	xorl	%r8d, %r8d
	jmp	850f
325:
	movw	$513, (%rdi)
	movb	$2, 2(%rdi)
	jmp	231f
890:
	xorl	%r14d, %r14d
	jmp	928f
548:
	movzbl	1(%rax), %edx
	addb	$-48, %dl
	cmpb	$9, %dl
	ja	519f
	cmpq	$2, %rcx
	je	327b
	movzbl	2(%rax), %edx
	addb	$-48, %dl
	cmpb	$9, %dl
	ja	519f
	cmpq	$3, %rcx
	je	327b
	movzbl	3(%rax), %edx
	addb	$-48, %dl
	cmpb	$9, %dl
	ja	519f
	cmpq	$4, %rcx
	je	327b
	movzbl	4(%rax), %edx
	addb	$-48, %dl
	cmpb	$10, %dl
	setb	%dl
	cmpq	$5, %rcx
	sete	%r8b
	testb	%r8b, %dl
	jne	327b
	jmp	519f
523:
	andl	$4, %ecx
	xorl	%r14d, %r14d
	xorl	%r8d, %r8d
	.p2align	4
373:
	leal	(%r14,%r14,4), %r9d
	movzbl	(%rax,%r8), %r10d
	movzbl	1(%rax,%r8), %r11d
	addb	$-48, %r10b
	movzbl	%r10b, %r10d
	leal	(%r10,%r9,2), %r9d
	leal	(%r9,%r9,4), %r9d
	addb	$-48, %r11b
	movzbl	%r11b, %r10d
	leal	(%r10,%r9,2), %r9d
	leal	(%r9,%r9,4), %r9d
	movzbl	2(%rax,%r8), %r10d
	addb	$-48, %r10b
	movzbl	%r10b, %r10d
	leal	(%r10,%r9,2), %r9d
	leal	(%r9,%r9,4), %r9d
	movzbl	3(%rax,%r8), %r10d
	addb	$-48, %r10b
	movzbl	%r10b, %r10d
	leal	(%r10,%r9,2), %r14d
	addq	$4, %r8
	cmpq	%r8, %rcx
	jne	373b
	testq	%rdx, %rdx
	je	871f
850:
	addq	%r8, %rax
	xorl	%ecx, %ecx
	.p2align	4
373:
	leal	(%r14,%r14,4), %r8d
	movzbl	(%rax,%rcx), %r9d
	addb	$-48, %r9b
	movzbl	%r9b, %r9d
	leal	(%r9,%r8,2), %r14d
	incq	%rcx
	cmpq	%rcx, %rdx
	jne	373b
871:
	cmpl	$65536, %r14d
	jae	519f
928:
	movq	24(%rsi), %rcx
	leaq	-6(%rcx), %rax
	cmpq	$-5, %rax
	jb	325f
	testq	%rcx, %rcx
	je	890f
	movq	16(%rsi), %rax
	movzbl	(%rax), %edx
	addb	$-48, %dl
	cmpb	$9, %dl
	ja	325f
	cmpq	$1, %rcx
	jne	548f
327:
	movl	%ecx, %edx
	andl	$3, %edx
	cmpq	$4, %rcx
	jae	523f
	xorl	%r15d, %r15d
	xorl	%r8d, %r8d
	jmp	880f
519:
	movw	$769, (%rdi)
	movb	$0, 2(%rdi)
231:
	xorps	%xmm0, %xmm0
	movups	%xmm0, 8(%rdi)
	movups	%xmm0, 24(%rdi)
	movq	$0, 40(%rdi)
850:
	addq	$104, %rsp
	popq	%rbx
	popq	%r12
	popq	%r13
	popq	%r14
	popq	%r15
	popq	%rbp
	retq
890:
	xorl	%r15d, %r15d
	jmp	928f
548:
	movzbl	1(%rax), %edx
	addb	$-48, %dl
	cmpb	$9, %dl
	ja	325f
	cmpq	$2, %rcx
	je	327b
	movzbl	2(%rax), %edx
	addb	$-48, %dl
	cmpb	$9, %dl
	ja	325f
	cmpq	$3, %rcx
	je	327b
	movzbl	3(%rax), %edx
	addb	$-48, %dl
	cmpb	$9, %dl
	ja	325f
	cmpq	$4, %rcx
	je	327b
	movzbl	4(%rax), %edx
	addb	$-48, %dl
	cmpb	$10, %dl
	setb	%dl
	cmpq	$5, %rcx
	sete	%r8b
	testb	%r8b, %dl
	jne	327b
	jmp	325f
523:
	andl	$4, %ecx
	xorl	%r15d, %r15d
	xorl	%r8d, %r8d
	.p2align	4
373:
	leal	(%r15,%r15,4), %r9d
	movzbl	(%rax,%r8), %r10d
	movzbl	1(%rax,%r8), %r11d
	addb	$-48, %r10b
	movzbl	%r10b, %r10d
	leal	(%r10,%r9,2), %r9d
	leal	(%r9,%r9,4), %r9d
	addb	$-48, %r11b
	movzbl	%r11b, %r10d
	leal	(%r10,%r9,2), %r9d
	leal	(%r9,%r9,4), %r9d
	movzbl	2(%rax,%r8), %r10d
	addb	$-48, %r10b
	movzbl	%r10b, %r10d
	leal	(%r10,%r9,2), %r9d
	leal	(%r9,%r9,4), %r9d
	movzbl	3(%rax,%r8), %r10d
	addb	$-48, %r10b
	movzbl	%r10b, %r10d
	leal	(%r10,%r9,2), %r15d
	addq	$4, %r8
	cmpq	%r8, %rcx
	jne	373b
	testq	%rdx, %rdx
	je	871f
880:
	addq	%r8, %rax
	xorl	%ecx, %ecx
	.p2align	4
373:
	leal	(%r15,%r15,4), %r8d
	movzbl	(%rax,%rcx), %r9d
	addb	$-48, %r9b
	movzbl	%r9b, %r9d
	leal	(%r9,%r8,2), %r15d
	incq	%rcx
	cmpq	%rcx, %rdx
	jne	373b
871:
	cmpl	$256, %r15d
	jae	325f
928:
	movq	32(%rsi), %rbx
	movq	40(%rsi), %r13
	cmpq	$5, %r13
	jne	669f
	cmpl	$1767992432, (%rbx)
	jne	890f
	leaq	.LTb1732992(%rip), %rdx
	movq	%rsi, %r12
	movl	$5, %esi
	movq	%rdi, %rbp
	movq	%rbx, %rdi
	callq	core.cmp.slices.groups_equal._i8_31_core.cmp.numbers.U8PartialEq
	movq	%r12, %rsi
	movq	%rbp, %rdi
	testb	%al, %al
	je	890f
	xorl	%ebx, %ebx
	xorl	%r12d, %r12d
	jmp	859f
325:
	movw	$769, (%rdi)
	movb	$1, 2(%rdi)
	jmp	231b
669:
	leaq	-6(%r13), %rax
	cmpq	$-5, %rax
	jb	325f
890:
	xorl	%eax, %eax
	.p2align	4
972:
	cmpq	%rax, %r13
	je	890f
	movzbl	(%rbx,%rax), %ecx
	addb	$-48, %cl
	incq	%rax
	cmpb	$10, %cl
	jb	972b
	jmp	325f
890:
	xorl	%r12d, %r12d
	testq	%r13, %r13
	je	928f
	movl	%r13d, %eax
	andl	$3, %eax
	cmpq	$4, %r13
	jae	223f
	xorl	%ecx, %ecx
	jmp	880f
223:
	andq	$-4, %r13
	xorl	%r12d, %r12d
	xorl	%ecx, %ecx
373:
	leal	(%r12,%r12,4), %edx
	movzbl	(%rbx,%rcx), %r8d
	movzbl	1(%rbx,%rcx), %r9d
	addb	$-48, %r8b
	movzbl	%r8b, %r8d
	leal	(%r8,%rdx,2), %edx
	leal	(%rdx,%rdx,4), %edx
	addb	$-48, %r9b
	movzbl	%r9b, %r8d
	leal	(%r8,%rdx,2), %edx
	leal	(%rdx,%rdx,4), %edx
	movzbl	2(%rbx,%rcx), %r8d
	addb	$-48, %r8b
	movzbl	%r8b, %r8d
	leal	(%r8,%rdx,2), %edx
	leal	(%rdx,%rdx,4), %edx
	movzbl	3(%rbx,%rcx), %r8d
	addb	$-48, %r8b
	movzbl	%r8b, %r8d
	leal	(%r8,%rdx,2), %r12d
	addq	$4, %rcx
	cmpq	%rcx, %r13
	jne	373b
	testq	%rax, %rax
	je	871f
880:
	addq	%rcx, %rbx
	xorl	%ecx, %ecx
373:
	leal	(%r12,%r12,4), %edx
	movzbl	(%rbx,%rcx), %r8d
	addb	$-48, %r8b
	movzbl	%r8b, %r8d
	leal	(%r8,%rdx,2), %r12d
	incq	%rcx
	cmpq	%rcx, %rax
	jne	373b
871:
	cmpl	$255, %r12d
	ja	325f
928:
	movq	%rdi, %rbp
	shll	$8, %r12d
	orl	$3, %r12d
	movb	$1, %bl
859:
	movq	48(%rsi), %rax
	movq	56(%rsi), %rdx
	xorps	%xmm0, %xmm0
	movaps	%xmm0, (%rsp)
	movaps	%xmm0, 16(%rsp)
	movl	$0, 72(%rsp)
	movb	$0, 76(%rsp)
	movq	%rsp, %rdi
	movq	%rax, %rsi
	callq	tc_make.line.octets
	cmpb	$0, (%rsp)
	je	464f
	movzbl	1(%rsp), %edx
	movzbl	2(%rsp), %esi
	xorps	%xmm0, %xmm0
	movaps	%xmm0, 32(%rsp)
	movups	%xmm0, 45(%rsp)
	movb	$1, %al
	xorl	%r15d, %r15d
	xorl	%r14d, %r14d
	xorl	%ecx, %ecx
	xorl	%edi, %edi
	xorl	%ebx, %ebx
	xorl	%r12d, %r12d
	jmp	409f
325:
	movw	$769, (%rdi)
	movb	$3, 2(%rdi)
	jmp	231b
464:
	movups	8(%rsp), %xmm0
	movups	%xmm0, 77(%rsp)
	movq	24(%rsp), %rax
	movq	%rax, 93(%rsp)
	movups	72(%rsp), %xmm0
	movaps	%xmm0, 32(%rsp)
	movq	85(%rsp), %rax
	movq	%rax, 45(%rsp)
	movq	93(%rsp), %rax
	movq	%rax, 53(%rsp)
	movb	$2, %dil
	movb	$1, %cl
	xorl	%eax, %eax
	xorl	%edx, %edx
	xorl	%esi, %esi
409:
	movb	%al, (%rbp)
	movb	%dl, 1(%rbp)
	movb	%sil, 2(%rbp)
	movb	%dil, 8(%rbp)
	movb	$0, 9(%rbp)
	movb	%cl, 10(%rbp)
	movb	$0, 11(%rbp)
	movw	%r14w, 12(%rbp)
	movb	%r15b, 14(%rbp)
	movb	$0, 15(%rbp)
	movb	%bl, 16(%rbp)
	movw	%r12w, 17(%rbp)
	movaps	32(%rsp), %xmm0
	movups	%xmm0, 19(%rbp)
	movups	45(%rsp), %xmm0
	movups	%xmm0, 32(%rbp)
	jmp	850b
	.section	.text.tc_make.line.unlock,"ax",@progbits
	.p2align	4
tc_make.line.unlock:
	cmpq	$2, %rdx
	jne	325f
	movq	8(%rsi), %rdx
	leaq	-6(%rdx), %rax
	cmpq	$-5, %rax
	jb	519f
	testq	%rdx, %rdx
	je	890f
	movq	(%rsi), %rcx
	movzbl	(%rcx), %eax
	addb	$-48, %al
	cmpb	$9, %al
	ja	519f
	cmpq	$1, %rdx
	jne	548f
327:
	movl	%edx, %r8d
	andl	$3, %r8d
	cmpq	$4, %rdx
	jae	523f
	xorl	%eax, %eax
	xorl	%r9d, %r9d
	jmp	850f
325:
	movw	$513, (%rdi)
	movb	$3, 2(%rdi)
	jmp	231f
890:
	xorl	%eax, %eax
	jmp	928f
548:
	movzbl	1(%rcx), %eax
	addb	$-48, %al
	cmpb	$9, %al
	ja	519f
	cmpq	$2, %rdx
	je	327b
	movzbl	2(%rcx), %eax
	addb	$-48, %al
	cmpb	$9, %al
	ja	519f
	cmpq	$3, %rdx
	je	327b
	movzbl	3(%rcx), %eax
	addb	$-48, %al
	cmpb	$9, %al
	ja	519f
	cmpq	$4, %rdx
	je	327b
	movzbl	4(%rcx), %eax
	addb	$-48, %al
	cmpb	$10, %al
	setb	%al
	cmpq	$5, %rdx
	sete	%r8b
	testb	%r8b, %al
	jne	327b
	jmp	519f
523:
	andl	$4, %edx
	xorl	%eax, %eax
	xorl	%r9d, %r9d
	.p2align	4
373:
	leal	(%rax,%rax,4), %eax
	movzbl	(%rcx,%r9), %r10d
	movzbl	1(%rcx,%r9), %r11d
	addb	$-48, %r10b
	movzbl	%r10b, %r10d
	leal	(%r10,%rax,2), %eax
	leal	(%rax,%rax,4), %eax
	addb	$-48, %r11b
	movzbl	%r11b, %r10d
	leal	(%r10,%rax,2), %eax
	leal	(%rax,%rax,4), %eax
	movzbl	2(%rcx,%r9), %r10d
	addb	$-48, %r10b
	movzbl	%r10b, %r10d
	leal	(%r10,%rax,2), %eax
	leal	(%rax,%rax,4), %eax
	movzbl	3(%rcx,%r9), %r10d
	addb	$-48, %r10b
	movzbl	%r10b, %r10d
	leal	(%r10,%rax,2), %eax
	addq	$4, %r9
	cmpq	%r9, %rdx
	jne	373b
	testq	%r8, %r8
	je	871f
850:
	addq	%r9, %rcx
	xorl	%edx, %edx
	.p2align	4
373:
	leal	(%rax,%rax,4), %eax
	movzbl	(%rcx,%rdx), %r9d
	addb	$-48, %r9b
	movzbl	%r9b, %r9d
	leal	(%r9,%rax,2), %eax
	incq	%rdx
	cmpq	%rdx, %r8
	jne	373b
871:
	cmpl	$65536, %eax
	jae	519f
928:
	movq	24(%rsi), %rdx
	leaq	-6(%rdx), %rcx
	cmpq	$-5, %rcx
	jb	419f
	testq	%rdx, %rdx
	je	890f
	movq	16(%rsi), %rcx
	movzbl	(%rcx), %esi
	addb	$-48, %sil
	cmpb	$9, %sil
	ja	419f
	cmpq	$1, %rdx
	jne	548f
327:
	movl	%edx, %esi
	andl	$3, %esi
	cmpq	$4, %rdx
	jae	523f
	xorl	%r8d, %r8d
	xorl	%r9d, %r9d
	jmp	850f
519:
	movw	$769, (%rdi)
	movb	$0, 2(%rdi)
231:
	xorps	%xmm0, %xmm0
	movups	%xmm0, 8(%rdi)
	movups	%xmm0, 24(%rdi)
	movq	$0, 40(%rdi)
	retq
890:
	xorl	%r8d, %r8d
	jmp	325f
548:
	movzbl	1(%rcx), %esi
	addb	$-48, %sil
	cmpb	$9, %sil
	ja	419f
	cmpq	$2, %rdx
	je	327b
	movzbl	2(%rcx), %esi
	addb	$-48, %sil
	cmpb	$9, %sil
	ja	419f
	cmpq	$3, %rdx
	je	327b
	movzbl	3(%rcx), %esi
	addb	$-48, %sil
	cmpb	$9, %sil
	ja	419f
	cmpq	$4, %rdx
	je	327b
	movzbl	4(%rcx), %esi
	addb	$-48, %sil
	cmpb	$10, %sil
	setb	%sil
	cmpq	$5, %rdx
	sete	%r8b
	testb	%r8b, %sil
	jne	327b
	jmp	419f
523:
	andl	$4, %edx
	xorl	%r8d, %r8d
	xorl	%r9d, %r9d
	.p2align	4
373:
	leal	(%r8,%r8,4), %r8d
	movzbl	(%rcx,%r9), %r10d
	movzbl	1(%rcx,%r9), %r11d
	addb	$-48, %r10b
	movzbl	%r10b, %r10d
	leal	(%r10,%r8,2), %r8d
	leal	(%r8,%r8,4), %r8d
	addb	$-48, %r11b
	movzbl	%r11b, %r10d
	leal	(%r10,%r8,2), %r8d
	leal	(%r8,%r8,4), %r8d
	movzbl	2(%rcx,%r9), %r10d
	addb	$-48, %r10b
	movzbl	%r10b, %r10d
	leal	(%r10,%r8,2), %r8d
	leal	(%r8,%r8,4), %r8d
	movzbl	3(%rcx,%r9), %r10d
	addb	$-48, %r10b
	movzbl	%r10b, %r10d
	leal	(%r10,%r8,2), %r8d
	addq	$4, %r9
	cmpq	%r9, %rdx
	jne	373b
	testq	%rsi, %rsi
	je	871f
850:
	addq	%r9, %rcx
	xorl	%edx, %edx
	.p2align	4
373:
	leal	(%r8,%r8,4), %r8d
	movzbl	(%rcx,%rdx), %r9d
	addb	$-48, %r9b
	movzbl	%r9b, %r9d
	leal	(%r9,%r8,2), %r8d
	incq	%rdx
	cmpq	%rdx, %rsi
	jne	373b
871:
	cmpl	$256, %r8d
	jae	419f
325:
	movw	$0, (%rdi)
	movb	$0, 2(%rdi)
	movw	$3, 8(%rdi)
	movw	%ax, 10(%rdi)
	movb	%r8b, 12(%rdi)
	xorps	%xmm0, %xmm0
	movups	%xmm0, 13(%rdi)
	movups	%xmm0, 29(%rdi)
	movl	$0, 44(%rdi)
	retq
419:
	movw	$769, (%rdi)
	movb	$1, 2(%rdi)
	jmp	231b
	.section	.text.tc_make.line.setvr,"ax",@progbits
	.p2align	4
tc_make.line.setvr:
	pushq	%rbx
	cmpq	$3, %rdx
	jne	325f
	movq	8(%rsi), %rdx
	leaq	-6(%rdx), %rax
	cmpq	$-5, %rax
	jb	519f
	testq	%rdx, %rdx
	je	890f
	movq	(%rsi), %rcx
	movzbl	(%rcx), %eax
	addb	$-48, %al
	cmpb	$9, %al
	ja	519f
	cmpq	$1, %rdx
	jne	548f
327:
	movl	%edx, %r8d
	andl	$3, %r8d
	cmpq	$4, %rdx
	jae	523f
	xorl	%eax, %eax
	xorl	%r9d, %r9d
	jmp	850f
325:
	movw	$513, (%rdi)
	movb	$4, 2(%rdi)
	jmp	231f
890:
	xorl	%eax, %eax
	jmp	928f
548:
	movzbl	1(%rcx), %eax
	addb	$-48, %al
	cmpb	$9, %al
	ja	519f
	cmpq	$2, %rdx
	je	327b
	movzbl	2(%rcx), %eax
	addb	$-48, %al
	cmpb	$9, %al
	ja	519f
	cmpq	$3, %rdx
	je	327b
	movzbl	3(%rcx), %eax
	addb	$-48, %al
	cmpb	$9, %al
	ja	519f
	cmpq	$4, %rdx
	je	327b
	movzbl	4(%rcx), %eax
	addb	$-48, %al
	cmpb	$10, %al
	setb	%al
	cmpq	$5, %rdx
	sete	%r8b
	testb	%r8b, %al
	jne	327b
	jmp	519f
523:
	andl	$4, %edx
	xorl	%eax, %eax
	xorl	%r9d, %r9d
	.p2align	4
373:
	leal	(%rax,%rax,4), %eax
	movzbl	(%rcx,%r9), %r10d
	movzbl	1(%rcx,%r9), %r11d
	addb	$-48, %r10b
	movzbl	%r10b, %r10d
	leal	(%r10,%rax,2), %eax
	leal	(%rax,%rax,4), %eax
	addb	$-48, %r11b
	movzbl	%r11b, %r10d
	leal	(%r10,%rax,2), %eax
	leal	(%rax,%rax,4), %eax
	movzbl	2(%rcx,%r9), %r10d
	addb	$-48, %r10b
	movzbl	%r10b, %r10d
	leal	(%r10,%rax,2), %eax
	leal	(%rax,%rax,4), %eax
	movzbl	3(%rcx,%r9), %r10d
	addb	$-48, %r10b
	movzbl	%r10b, %r10d
	leal	(%r10,%rax,2), %eax
	addq	$4, %r9
	cmpq	%r9, %rdx
	jne	373b
	testq	%r8, %r8
	je	871f
850:
	addq	%r9, %rcx
	xorl	%edx, %edx
	.p2align	4
373:
	leal	(%rax,%rax,4), %eax
	movzbl	(%rcx,%rdx), %r9d
	addb	$-48, %r9b
	movzbl	%r9b, %r9d
	leal	(%r9,%rax,2), %eax
	incq	%rdx
	cmpq	%rdx, %r8
	jne	373b
871:
	cmpl	$65536, %eax
	jae	519f
928:
	movq	24(%rsi), %r8
	leaq	-6(%r8), %rcx
	cmpq	$-5, %rcx
	jb	325f
	testq	%r8, %r8
	je	890f
	movq	16(%rsi), %rdx
	movzbl	(%rdx), %ecx
	addb	$-48, %cl
	cmpb	$9, %cl
	ja	325f
	cmpq	$1, %r8
	jne	548f
327:
	movl	%r8d, %r9d
	andl	$3, %r9d
	cmpq	$4, %r8
	jae	523f
	xorl	%ecx, %ecx
	xorl	%r10d, %r10d
	jmp	850f
519:
	movw	$769, (%rdi)
	movb	$0, 2(%rdi)
231:
	xorps	%xmm0, %xmm0
	movups	%xmm0, 8(%rdi)
	movups	%xmm0, 24(%rdi)
	movq	$0, 40(%rdi)
	popq	%rbx
	retq
890:
	xorl	%ecx, %ecx
	jmp	928f
548:
	movzbl	1(%rdx), %ecx
	addb	$-48, %cl
	cmpb	$9, %cl
	ja	325f
	cmpq	$2, %r8
	je	327b
	movzbl	2(%rdx), %ecx
	addb	$-48, %cl
	cmpb	$9, %cl
	ja	325f
	cmpq	$3, %r8
	je	327b
	movzbl	3(%rdx), %ecx
	addb	$-48, %cl
	cmpb	$9, %cl
	ja	325f
	cmpq	$4, %r8
	je	327b
	movzbl	4(%rdx), %ecx
	addb	$-48, %cl
	cmpb	$10, %cl
	setb	%cl
	cmpq	$5, %r8
	sete	%r9b
	testb	%r9b, %cl
	jne	327b
	jmp	325f
523:
	andl	$4, %r8d
	xorl	%ecx, %ecx
	xorl	%r10d, %r10d
	.p2align	4
373:
	leal	(%rcx,%rcx,4), %ecx
	movzbl	(%rdx,%r10), %r11d
	movzbl	1(%rdx,%r10), %ebx
	addb	$-48, %r11b
	movzbl	%r11b, %r11d
	leal	(%r11,%rcx,2), %ecx
	leal	(%rcx,%rcx,4), %ecx
	addb	$-48, %bl
	movzbl	%bl, %r11d
	leal	(%r11,%rcx,2), %ecx
	leal	(%rcx,%rcx,4), %ecx
	movzbl	2(%rdx,%r10), %r11d
	addb	$-48, %r11b
	movzbl	%r11b, %r11d
	leal	(%r11,%rcx,2), %ecx
	leal	(%rcx,%rcx,4), %ecx
	movzbl	3(%rdx,%r10), %r11d
	addb	$-48, %r11b
	movzbl	%r11b, %r11d
	leal	(%r11,%rcx,2), %ecx
	addq	$4, %r10
	cmpq	%r10, %r8
	jne	373b
	testq	%r9, %r9
	je	871f
850:
	addq	%r10, %rdx
	xorl	%r8d, %r8d
	.p2align	4
373:
	leal	(%rcx,%rcx,4), %ecx
	movzbl	(%rdx,%r8), %r10d
	addb	$-48, %r10b
	movzbl	%r10b, %r10d
	leal	(%r10,%rcx,2), %ecx
	incq	%r8
	cmpq	%r8, %r9
	jne	373b
871:
	cmpl	$256, %ecx
	jae	325f
928:
	movq	40(%rsi), %r8
	leaq	-6(%r8), %rdx
	cmpq	$-5, %rdx
	jb	519f
	testq	%r8, %r8
	je	890f
	movq	32(%rsi), %rdx
	movzbl	(%rdx), %esi
	addb	$-48, %sil
	cmpb	$9, %sil
	ja	519f
	cmpq	$1, %r8
	jne	548f
327:
	movl	%r8d, %esi
	andl	$3, %esi
	cmpq	$4, %r8
	jae	523f
	xorl	%r9d, %r9d
	xorl	%r10d, %r10d
	jmp	850f
325:
	movw	$769, (%rdi)
	movb	$1, 2(%rdi)
	jmp	231b
890:
	xorl	%r9d, %r9d
	jmp	325f
548:
	movzbl	1(%rdx), %esi
	addb	$-48, %sil
	cmpb	$9, %sil
	ja	519f
	cmpq	$2, %r8
	je	327b
	movzbl	2(%rdx), %esi
	addb	$-48, %sil
	cmpb	$9, %sil
	ja	519f
	cmpq	$3, %r8
	je	327b
	movzbl	3(%rdx), %esi
	addb	$-48, %sil
	cmpb	$9, %sil
	ja	519f
	cmpq	$4, %r8
	je	327b
	movzbl	4(%rdx), %esi
	addb	$-48, %sil
	cmpb	$10, %sil
	setb	%sil
	cmpq	$5, %r8
	sete	%r9b
	testb	%r9b, %sil
	jne	327b
	jmp	519f
523:
	andl	$4, %r8d
	xorl	%r9d, %r9d
	xorl	%r10d, %r10d
373:
	leal	(%r9,%r9,4), %r9d
	movzbl	(%rdx,%r10), %r11d
	movzbl	1(%rdx,%r10), %ebx
	addb	$-48, %r11b
	movzbl	%r11b, %r11d
	leal	(%r11,%r9,2), %r9d
	leal	(%r9,%r9,4), %r9d
	addb	$-48, %bl
	movzbl	%bl, %r11d
	leal	(%r11,%r9,2), %r9d
	leal	(%r9,%r9,4), %r9d
	movzbl	2(%rdx,%r10), %r11d
	addb	$-48, %r11b
	movzbl	%r11b, %r11d
	leal	(%r11,%r9,2), %r9d
	leal	(%r9,%r9,4), %r9d
	movzbl	3(%rdx,%r10), %r11d
	addb	$-48, %r11b
	movzbl	%r11b, %r11d
	leal	(%r11,%r9,2), %r9d
	addq	$4, %r10
	cmpq	%r10, %r8
	jne	373b
	testq	%rsi, %rsi
	je	871f
850:
	addq	%r10, %rdx
	xorl	%r8d, %r8d
373:
	leal	(%r9,%r9,4), %r9d
	movzbl	(%rdx,%r8), %r10d
	addb	$-48, %r10b
	movzbl	%r10b, %r10d
	leal	(%r10,%r9,2), %r9d
	incq	%r8
	cmpq	%r8, %rsi
	jne	373b
871:
	cmpl	$256, %r9d
	jae	519f
325:
	movw	$0, (%rdi)
	movb	$0, 2(%rdi)
	movw	$3, 8(%rdi)
	movw	%ax, 10(%rdi)
	movb	%cl, 12(%rdi)
	movb	$1, 13(%rdi)
	movb	%r9b, 14(%rdi)
	xorps	%xmm0, %xmm0
	movups	%xmm0, 15(%rdi)
	movups	%xmm0, 31(%rdi)
	movb	$0, 47(%rdi)
	popq	%rbx
	retq
519:
	movw	$769, (%rdi)
	movb	$7, 2(%rdi)
	jmp	231b
	.section	.text.tc_make.line.segments,"ax",@progbits
	.p2align	4
tc_make.line.segments:
	pushq	%rbp
	pushq	%r15
	pushq	%r14
	pushq	%r12
	pushq	%rbx
	subq	$144, %rsp
	movq	%rdi, %rbx
	movw	$0, 12(%rsp)
	movl	$0, 8(%rsp)
	cmpq	$6, %rdx
	jne	325f
	movq	%rsi, %r14
	movq	(%rsi), %rsi
	movq	8(%r14), %rdx
	movq	24(%r14), %r8
	movq	16(%r14), %rcx
	movq	40(%r14), %rax
	movq	32(%r14), %r9
	movq	%rax, (%rsp)
	leaq	8(%rsp), %rdi
	callq	tc_make.line.read_stream
	movl	10(%rsp), %ebp
	cmpb	$0, 8(%rsp)
	je	928f
	movzbl	9(%rsp), %eax
	movb	$1, (%rbx)
	movb	%al, 1(%rbx)
	movb	%bpl, 2(%rbx)
	jmp	231f
325:
	movw	$513, (%rbx)
	movb	$5, 2(%rbx)
231:
	xorps	%xmm0, %xmm0
	movups	%xmm0, 8(%rbx)
	movups	%xmm0, 24(%rbx)
	movq	$0, 40(%rbx)
850:
	addq	$144, %rsp
	popq	%rbx
	popq	%r12
	popq	%r14
	popq	%r15
	popq	%rbp
	retq
928:
	movq	56(%r14), %r10
	leaq	-6(%r10), %rcx
	movb	$3, %al
	movb	$3, %r8b
	cmpq	$-5, %rcx
	jb	833f
	movq	72(%r14), %rdi
	movq	64(%r14), %rcx
	movq	88(%r14), %rdx
	movq	80(%r14), %rsi
	testq	%r10, %r10
	je	890f
	movq	48(%r14), %r9
	movzbl	(%r9), %r11d
	addb	$-48, %r11b
	movb	$3, %r8b
	cmpb	$9, %r11b
	ja	833f
	cmpq	$1, %r10
	jne	548f
327:
	movl	%r10d, %r8d
	andl	$3, %r8d
	cmpq	$4, %r10
	jae	523f
	xorl	%r14d, %r14d
	xorl	%r11d, %r11d
	jmp	880f
890:
	xorl	%r14d, %r14d
	jmp	669f
548:
	movzbl	1(%r9), %r11d
	addb	$-48, %r11b
	movb	$3, %r8b
	cmpb	$9, %r11b
	ja	833f
	cmpq	$2, %r10
	je	327b
	movzbl	2(%r9), %r11d
	addb	$-48, %r11b
	movb	$3, %r8b
	cmpb	$9, %r11b
	ja	833f
	cmpq	$3, %r10
	je	327b
	movzbl	3(%r9), %r11d
	addb	$-48, %r11b
	movb	$3, %r8b
	cmpb	$9, %r11b
	ja	833f
	cmpq	$4, %r10
	je	327b
	movzbl	4(%r9), %r8d
	addb	$-48, %r8b
	cmpb	$10, %r8b
	setb	%r11b
	cmpq	$5, %r10
	sete	%r14b
	movb	$3, %r8b
	testb	%r14b, %r11b
	jne	327b
	jmp	833f
523:
	andl	$4, %r10d
	xorl	%r14d, %r14d
	xorl	%r11d, %r11d
	.p2align	4
373:
	leal	(%r14,%r14,4), %r14d
	movzbl	(%r9,%r11), %r15d
	movzbl	1(%r9,%r11), %r12d
	addb	$-48, %r15b
	movzbl	%r15b, %r15d
	leal	(%r15,%r14,2), %r14d
	leal	(%r14,%r14,4), %r14d
	addb	$-48, %r12b
	movzbl	%r12b, %r15d
	leal	(%r15,%r14,2), %r14d
	leal	(%r14,%r14,4), %r14d
	movzbl	2(%r9,%r11), %r15d
	addb	$-48, %r15b
	movzbl	%r15b, %r15d
	leal	(%r15,%r14,2), %r14d
	leal	(%r14,%r14,4), %r14d
	movzbl	3(%r9,%r11), %r15d
	addb	$-48, %r15b
	movzbl	%r15b, %r15d
	leal	(%r15,%r14,2), %r14d
	addq	$4, %r11
	cmpq	%r11, %r10
	jne	373b
	testq	%r8, %r8
	je	409f
880:
	addq	%r11, %r9
	xorl	%r10d, %r10d
	.p2align	4
373:
	leal	(%r14,%r14,4), %r11d
	movzbl	(%r9,%r10), %r14d
	addb	$-48, %r14b
	movzbl	%r14b, %r14d
	leal	(%r14,%r11,2), %r14d
	incq	%r10
	cmpq	%r10, %r8
	jne	373b
409:
	movb	$3, %r8b
	cmpl	$255, %r14d
	ja	833f
669:
	leaq	-6(%rdi), %r9
	movb	$4, %r8b
	cmpq	$-5, %r9
	jb	833f
	testq	%rdi, %rdi
	je	890f
	movzbl	(%rcx), %r9d
	addb	$-48, %r9b
	cmpb	$9, %r9b
	ja	833f
	cmpq	$1, %rdi
	jne	548f
327:
	movl	%edi, %r9d
	andl	$3, %r9d
	cmpq	$4, %rdi
	jae	523f
	xorl	%r15d, %r15d
	xorl	%r10d, %r10d
	jmp	880f
890:
	xorl	%r15d, %r15d
	jmp	231f
548:
	movzbl	1(%rcx), %r9d
	addb	$-48, %r9b
	cmpb	$9, %r9b
	ja	833f
	cmpq	$2, %rdi
	je	327b
	movzbl	2(%rcx), %r9d
	addb	$-48, %r9b
	cmpb	$9, %r9b
	ja	833f
	cmpq	$3, %rdi
	je	327b
	movzbl	3(%rcx), %r9d
	addb	$-48, %r9b
	cmpb	$9, %r9b
	ja	833f
	cmpq	$4, %rdi
	je	327b
	movzbl	4(%rcx), %r9d
	addb	$-48, %r9b
	cmpb	$10, %r9b
	setb	%r9b
	cmpq	$5, %rdi
	sete	%r10b
	testb	%r10b, %r9b
	jne	327b
	jmp	833f
523:
	andl	$4, %edi
	xorl	%r15d, %r15d
	xorl	%r10d, %r10d
373:
	leal	(%r15,%r15,4), %r11d
	movzbl	(%rcx,%r10), %r15d
	movzbl	1(%rcx,%r10), %r12d
	addb	$-48, %r15b
	movzbl	%r15b, %r15d
	leal	(%r15,%r11,2), %r11d
	leal	(%r11,%r11,4), %r11d
	addb	$-48, %r12b
	movzbl	%r12b, %r15d
	leal	(%r15,%r11,2), %r11d
	leal	(%r11,%r11,4), %r11d
	movzbl	2(%rcx,%r10), %r15d
	addb	$-48, %r15b
	movzbl	%r15b, %r15d
	leal	(%r15,%r11,2), %r11d
	leal	(%r11,%r11,4), %r11d
	movzbl	3(%rcx,%r10), %r15d
	addb	$-48, %r15b
	movzbl	%r15b, %r15d
	leal	(%r15,%r11,2), %r15d
	addq	$4, %r10
	cmpq	%r10, %rdi
	jne	373b
	testq	%r9, %r9
	je	871f
880:
	addq	%r10, %rcx
	xorl	%edi, %edi
373:
	leal	(%r15,%r15,4), %r10d
	movzbl	(%rcx,%rdi), %r11d
	addb	$-48, %r11b
	movzbl	%r11b, %r11d
	leal	(%r11,%r10,2), %r15d
	incq	%rdi
	cmpq	%rdi, %r9
	jne	373b
871:
	cmpl	$65535, %r15d
	ja	833f
231:
	xorps	%xmm0, %xmm0
	movaps	%xmm0, 80(%rsp)
	movaps	%xmm0, 96(%rsp)
	movl	$0, 112(%rsp)
	movw	$0, 116(%rsp)
	leaq	80(%rsp), %rdi
	callq	tc_make.line.octets
	cmpb	$0, 80(%rsp)
	je	14f
	movzbl	81(%rsp), %eax
	movzbl	82(%rsp), %r8d
	xorps	%xmm0, %xmm0
	movaps	%xmm0, 48(%rsp)
	movups	%xmm0, 62(%rsp)
	xorl	%ecx, %ecx
	movb	$1, %dl
	xorl	%ebp, %ebp
	xorl	%r15d, %r15d
	jmp	680f
833:
	xorps	%xmm0, %xmm0
	movups	%xmm0, 30(%rsp)
	movaps	%xmm0, 16(%rsp)
	xorl	%ecx, %ecx
	movb	$1, %dl
	xorl	%ebp, %ebp
	xorl	%r15d, %r15d
409:
	movb	%dl, (%rbx)
	movb	%al, 1(%rbx)
	movb	%r8b, 2(%rbx)
	movb	%cl, 8(%rbx)
	movb	$0, 9(%rbx)
	movl	%ebp, 10(%rbx)
	movl	%r15d, 14(%rbx)
	movaps	16(%rsp), %xmm0
	movups	%xmm0, 18(%rbx)
	movq	30(%rsp), %rax
	movq	%rax, 32(%rbx)
	movq	38(%rsp), %rax
	movq	%rax, 40(%rbx)
	jmp	850b
14:
	shll	$16, %r15d
	orl	%r14d, %r15d
	movups	88(%rsp), %xmm0
	movups	%xmm0, 118(%rsp)
	movq	104(%rsp), %rax
	movq	%rax, 134(%rsp)
	movups	112(%rsp), %xmm0
	movaps	%xmm0, 48(%rsp)
	movq	126(%rsp), %rax
	movq	%rax, 62(%rsp)
	movq	134(%rsp), %rax
	movq	%rax, 70(%rsp)
	movb	$4, %cl
	xorl	%edx, %edx
	xorl	%eax, %eax
	xorl	%r8d, %r8d
680:
	movaps	48(%rsp), %xmm0
	movaps	%xmm0, 16(%rsp)
	movq	62(%rsp), %rsi
	movq	%rsi, 30(%rsp)
	movq	70(%rsp), %rsi
	movq	%rsi, 38(%rsp)
	jmp	409b
	.section	.text.tc_make.line.alone,"ax",@progbits
	.p2align	4
tc_make.line.alone:
	pushq	%rbx
	subq	$32, %rsp
	movq	%rdi, %rbx
	xorps	%xmm0, %xmm0
	movaps	%xmm0, 16(%rsp)
	movaps	%xmm0, (%rsp)
	cmpq	$1, %rcx
	jne	464f
	movq	(%rdx), %rsi
	movq	8(%rdx), %rdx
	movq	%rsp, %rdi
	callq	tc_make.line.octets
	movzbl	(%rsp), %ecx
	movzbl	1(%rsp), %eax
	movzbl	2(%rsp), %esi
	movq	24(%rsp), %rdx
	movq	%rdx, 24(%rbx)
	movups	8(%rsp), %xmm0
	movups	%xmm0, 8(%rbx)
	jmp	409f
464:
	movups	%xmm0, 8(%rbx)
	movq	$0, 24(%rbx)
	movb	$2, %al
	movb	$1, %cl
409:
	movb	%cl, (%rbx)
	movb	%al, 1(%rbx)
	movb	%sil, 2(%rbx)
	addq	$32, %rsp
	popq	%rbx
	retq
	.section	.text.tc_make.line.piece,"ax",@progbits
	.p2align	4
tc_make.line.piece:
	pushq	%r14
	pushq	%rbx
	subq	$88, %rsp
	xorps	%xmm0, %xmm0
	movaps	%xmm0, 64(%rsp)
	movaps	%xmm0, 48(%rsp)
	movaps	%xmm0, (%rsp)
	movaps	%xmm0, 16(%rsp)
	movq	$0, 30(%rsp)
	cmpq	$2, %rdx
	jne	325f
	movq	8(%rsi), %rcx
	leaq	-6(%rcx), %rax
	cmpq	$-5, %rax
	jb	519f
	testq	%rcx, %rcx
	je	890f
	movq	(%rsi), %rax
	movzbl	(%rax), %edx
	addb	$-48, %dl
	cmpb	$9, %dl
	ja	519f
	cmpq	$1, %rcx
	jne	548f
327:
	movl	%ecx, %edx
	andl	$3, %edx
	cmpq	$4, %rcx
	jae	523f
	xorl	%ebx, %ebx
	xorl	%r8d, %r8d
	jmp	850f
325:
	movw	$513, (%rdi)
	movb	$13, 2(%rdi)
	jmp	464f
890:
	xorl	%ebx, %ebx
	jmp	928f
548:
	movzbl	1(%rax), %edx
	addb	$-48, %dl
	cmpb	$9, %dl
	ja	519f
	cmpq	$2, %rcx
	je	327b
	movzbl	2(%rax), %edx
	addb	$-48, %dl
	cmpb	$9, %dl
	ja	519f
	cmpq	$3, %rcx
	je	327b
	movzbl	3(%rax), %edx
	addb	$-48, %dl
	cmpb	$9, %dl
	ja	519f
	cmpq	$4, %rcx
	je	327b
	movzbl	4(%rax), %edx
	addb	$-48, %dl
	cmpb	$10, %dl
	setb	%dl
	cmpq	$5, %rcx
	sete	%r8b
	testb	%r8b, %dl
	jne	327b
	jmp	519f
523:
	andl	$4, %ecx
	xorl	%ebx, %ebx
	xorl	%r8d, %r8d
	.p2align	4
373:
	leal	(%rbx,%rbx,4), %r9d
	movzbl	(%rax,%r8), %r10d
	movzbl	1(%rax,%r8), %r11d
	addb	$-48, %r10b
	movzbl	%r10b, %r10d
	leal	(%r10,%r9,2), %r9d
	leal	(%r9,%r9,4), %r9d
	addb	$-48, %r11b
	movzbl	%r11b, %r10d
	leal	(%r10,%r9,2), %r9d
	leal	(%r9,%r9,4), %r9d
	movzbl	2(%rax,%r8), %r10d
	addb	$-48, %r10b
	movzbl	%r10b, %r10d
	leal	(%r10,%r9,2), %r9d
	leal	(%r9,%r9,4), %r9d
	movzbl	3(%rax,%r8), %r10d
	addb	$-48, %r10b
	movzbl	%r10b, %r10d
	leal	(%r10,%r9,2), %ebx
	addq	$4, %r8
	cmpq	%r8, %rcx
	jne	373b
	testq	%rdx, %rdx
	je	871f
850:
	addq	%r8, %rax
	xorl	%ecx, %ecx
	.p2align	4
373:
	leal	(%rbx,%rbx,4), %r8d
	movzbl	(%rax,%rcx), %r9d
	addb	$-48, %r9b
	movzbl	%r9b, %r9d
	leal	(%r9,%r8,2), %ebx
	incq	%rcx
	cmpq	%rcx, %rdx
	jne	373b
871:
	cmpl	$256, %ebx
	jae	519f
928:
	movq	%rdi, %r14
	movq	16(%rsi), %rax
	movq	24(%rsi), %rdx
	leaq	48(%rsp), %rdi
	movq	%rax, %rsi
	callq	tc_make.line.octets
	cmpb	$0, 48(%rsp)
	je	928f
	movzwl	49(%rsp), %eax
	movb	$1, (%r14)
	movw	%ax, 1(%r14)
	xorps	%xmm0, %xmm0
	movups	%xmm0, 8(%r14)
	movups	%xmm0, 24(%r14)
	movq	$0, 40(%r14)
	addq	$88, %rsp
	popq	%rbx
	popq	%r14
	retq
519:
	movw	$769, (%rdi)
	movb	$8, 2(%rdi)
	xorps	%xmm0, %xmm0
464:
	movups	%xmm0, 8(%rdi)
	movups	%xmm0, 24(%rdi)
	movq	$0, 40(%rdi)
	addq	$88, %rsp
	popq	%rbx
	popq	%r14
	retq
928:
	movq	72(%rsp), %rax
	movq	%rax, 22(%rsp)
	movups	56(%rsp), %xmm0
	movups	%xmm0, 6(%rsp)
	movw	$0, (%r14)
	movb	$0, 2(%r14)
	movb	$12, 8(%r14)
	movb	%bl, 9(%r14)
	movaps	(%rsp), %xmm0
	movl	16(%rsp), %eax
	movzwl	20(%rsp), %ecx
	movq	22(%rsp), %rdx
	movzwl	30(%rsp), %esi
	movups	%xmm0, 10(%r14)
	movl	%eax, 26(%r14)
	movw	%cx, 30(%r14)
	movq	%rdx, 32(%r14)
	movw	%si, 40(%r14)
	movq	30(%rsp), %rax
	movq	%rax, 40(%r14)
	addq	$88, %rsp
	popq	%rbx
	popq	%r14
	retq
	.section	.text.tc_make.line.search,"ax",@progbits
	.p2align	4
tc_make.line.search:
	cmpq	$1, %rdx
	jne	325f
	movq	8(%rsi), %rcx
	leaq	-6(%rcx), %rax
	cmpq	$-5, %rax
	jb	519f
	testq	%rcx, %rcx
	je	890f
	movq	(%rsi), %rax
	movzbl	(%rax), %edx
	addb	$-48, %dl
	cmpb	$9, %dl
	ja	519f
	cmpq	$1, %rcx
	jne	548f
327:
	movl	%ecx, %edx
	andl	$3, %edx
	cmpq	$4, %rcx
	jae	523f
	xorl	%esi, %esi
	xorl	%r8d, %r8d
	jmp	850f
325:
	movw	$513, (%rdi)
	movb	$14, 2(%rdi)
	jmp	231f
890:
	xorl	%esi, %esi
	jmp	325f
548:
	movzbl	1(%rax), %edx
	addb	$-48, %dl
	cmpb	$9, %dl
	ja	519f
	cmpq	$2, %rcx
	je	327b
	movzbl	2(%rax), %edx
	addb	$-48, %dl
	cmpb	$9, %dl
	ja	519f
	cmpq	$3, %rcx
	je	327b
	movzbl	3(%rax), %edx
	addb	$-48, %dl
	cmpb	$9, %dl
	ja	519f
	cmpq	$4, %rcx
	je	327b
	movzbl	4(%rax), %edx
	addb	$-48, %dl
	cmpb	$10, %dl
	setb	%dl
	cmpq	$5, %rcx
	sete	%sil
	testb	%sil, %dl
	jne	327b
	jmp	519f
523:
	andl	$4, %ecx
	xorl	%esi, %esi
	xorl	%r8d, %r8d
	.p2align	4
373:
	leal	(%rsi,%rsi,4), %esi
	movzbl	(%rax,%r8), %r9d
	movzbl	1(%rax,%r8), %r10d
	addb	$-48, %r9b
	movzbl	%r9b, %r9d
	leal	(%r9,%rsi,2), %esi
	leal	(%rsi,%rsi,4), %esi
	addb	$-48, %r10b
	movzbl	%r10b, %r9d
	leal	(%r9,%rsi,2), %esi
	leal	(%rsi,%rsi,4), %esi
	movzbl	2(%rax,%r8), %r9d
	addb	$-48, %r9b
	movzbl	%r9b, %r9d
	leal	(%r9,%rsi,2), %esi
	leal	(%rsi,%rsi,4), %esi
	movzbl	3(%rax,%r8), %r9d
	addb	$-48, %r9b
	movzbl	%r9b, %r9d
	leal	(%r9,%rsi,2), %esi
	addq	$4, %r8
	cmpq	%r8, %rcx
	jne	373b
	testq	%rdx, %rdx
	je	871f
850:
	addq	%r8, %rax
	xorl	%ecx, %ecx
	.p2align	4
373:
	leal	(%rsi,%rsi,4), %esi
	movzbl	(%rax,%rcx), %r8d
	addb	$-48, %r8b
	movzbl	%r8b, %r8d
	leal	(%r8,%rsi,2), %esi
	incq	%rcx
	cmpq	%rcx, %rdx
	jne	373b
871:
	cmpl	$256, %esi
	jae	519f
325:
	movw	$0, (%rdi)
	movb	$0, 2(%rdi)
	movb	$13, 8(%rdi)
	movb	%sil, 9(%rdi)
	xorps	%xmm0, %xmm0
	movups	%xmm0, 10(%rdi)
	movups	%xmm0, 26(%rdi)
	movq	$0, 40(%rdi)
	retq
519:
	movw	$769, (%rdi)
	movb	$8, 2(%rdi)
231:
	xorps	%xmm0, %xmm0
	movups	%xmm0, 8(%rdi)
	movups	%xmm0, 24(%rdi)
	movq	$0, 40(%rdi)
	retq
	.section	.text.tc_make.line.frames,"ax",@progbits
	.p2align	4
tc_make.line.frames:
	pushq	%r14
	pushq	%rbx
	subq	$88, %rsp
	xorps	%xmm0, %xmm0
	movaps	%xmm0, 64(%rsp)
	movaps	%xmm0, 48(%rsp)
	movaps	%xmm0, (%rsp)
	movaps	%xmm0, 16(%rsp)
	movq	$0, 30(%rsp)
	cmpq	$2, %rdx
	jne	325f
	movq	8(%rsi), %rcx
	leaq	-6(%rcx), %rax
	cmpq	$-5, %rax
	jb	519f
	testq	%rcx, %rcx
	je	890f
	movq	(%rsi), %rax
	movzbl	(%rax), %edx
	addb	$-48, %dl
	cmpb	$9, %dl
	ja	519f
	cmpq	$1, %rcx
	jne	548f
327:
	movl	%ecx, %edx
	andl	$3, %edx
	cmpq	$4, %rcx
	jae	523f
	xorl	%ebx, %ebx
	xorl	%r8d, %r8d
	jmp	850f
325:
	movw	$513, (%rdi)
	movb	$15, 2(%rdi)
	jmp	464f
890:
	xorl	%ebx, %ebx
	jmp	928f
548:
	movzbl	1(%rax), %edx
	addb	$-48, %dl
	cmpb	$9, %dl
	ja	519f
	cmpq	$2, %rcx
	je	327b
	movzbl	2(%rax), %edx
	addb	$-48, %dl
	cmpb	$9, %dl
	ja	519f
	cmpq	$3, %rcx
	je	327b
	movzbl	3(%rax), %edx
	addb	$-48, %dl
	cmpb	$9, %dl
	ja	519f
	cmpq	$4, %rcx
	je	327b
	movzbl	4(%rax), %edx
	addb	$-48, %dl
	cmpb	$10, %dl
	setb	%dl
	cmpq	$5, %rcx
	sete	%r8b
	testb	%r8b, %dl
	jne	327b
	jmp	519f
523:
	andl	$4, %ecx
	xorl	%ebx, %ebx
	xorl	%r8d, %r8d
	.p2align	4
373:
	leal	(%rbx,%rbx,4), %r9d
	movzbl	(%rax,%r8), %r10d
	movzbl	1(%rax,%r8), %r11d
	addb	$-48, %r10b
	movzbl	%r10b, %r10d
	leal	(%r10,%r9,2), %r9d
	leal	(%r9,%r9,4), %r9d
	addb	$-48, %r11b
	movzbl	%r11b, %r10d
	leal	(%r10,%r9,2), %r9d
	leal	(%r9,%r9,4), %r9d
	movzbl	2(%rax,%r8), %r10d
	addb	$-48, %r10b
	movzbl	%r10b, %r10d
	leal	(%r10,%r9,2), %r9d
	leal	(%r9,%r9,4), %r9d
	movzbl	3(%rax,%r8), %r10d
	addb	$-48, %r10b
	movzbl	%r10b, %r10d
	leal	(%r10,%r9,2), %ebx
	addq	$4, %r8
	cmpq	%r8, %rcx
	jne	373b
	testq	%rdx, %rdx
	je	871f
850:
	addq	%r8, %rax
	xorl	%ecx, %ecx
	.p2align	4
373:
	leal	(%rbx,%rbx,4), %r8d
	movzbl	(%rax,%rcx), %r9d
	addb	$-48, %r9b
	movzbl	%r9b, %r9d
	leal	(%r9,%r8,2), %ebx
	incq	%rcx
	cmpq	%rcx, %rdx
	jne	373b
871:
	cmpl	$256, %ebx
	jae	519f
928:
	movq	%rdi, %r14
	movq	16(%rsi), %rax
	movq	24(%rsi), %rdx
	leaq	48(%rsp), %rdi
	movq	%rax, %rsi
	callq	tc_make.line.octets
	cmpb	$0, 48(%rsp)
	je	928f
	movzwl	49(%rsp), %eax
	movb	$1, (%r14)
	movw	%ax, 1(%r14)
	xorps	%xmm0, %xmm0
	movups	%xmm0, 8(%r14)
	movups	%xmm0, 24(%r14)
	movq	$0, 40(%r14)
	addq	$88, %rsp
	popq	%rbx
	popq	%r14
	retq
519:
	movw	$769, (%rdi)
	movb	$9, 2(%rdi)
	xorps	%xmm0, %xmm0
464:
	movups	%xmm0, 8(%rdi)
	movups	%xmm0, 24(%rdi)
	movq	$0, 40(%rdi)
	addq	$88, %rsp
	popq	%rbx
	popq	%r14
	retq
928:
	movq	72(%rsp), %rax
	movq	%rax, 22(%rsp)
	movups	56(%rsp), %xmm0
	movups	%xmm0, 6(%rsp)
	movw	$0, (%r14)
	movb	$0, 2(%r14)
	movb	$14, 8(%r14)
	movb	%bl, 9(%r14)
	movaps	(%rsp), %xmm0
	movl	16(%rsp), %eax
	movzwl	20(%rsp), %ecx
	movq	22(%rsp), %rdx
	movzwl	30(%rsp), %esi
	movups	%xmm0, 10(%r14)
	movl	%eax, 26(%r14)
	movw	%cx, 30(%r14)
	movq	%rdx, 32(%r14)
	movw	%si, 40(%r14)
	movq	30(%rsp), %rax
	movq	%rax, 40(%r14)
	addq	$88, %rsp
	popq	%rbx
	popq	%r14
	retq
	.section	.rodata.cst16,"aM",@progbits,16
	.p2align	4
.LC648541ed_0:
	.zero	16,46
.LC648541ed_1:
	.quad	7310596056926023526
	.quad	3346860010425884786
.LC648541ed_2:
	.byte	2
	.byte	41
	.byte	15
	.byte	0
	.zero	1
	.zero	1
	.zero	1
	.zero	1
	.zero	1
	.zero	1
	.zero	1
	.zero	1
	.zero	1
	.zero	1
	.zero	1
	.zero	1
.LC648541ed_3:
	.byte	2
	.byte	41
	.byte	15
	.byte	0
	.byte	0
	.byte	0
	.byte	0
	.byte	0
	.byte	0
	.byte	0
	.byte	0
	.byte	0
	.byte	0
	.byte	0
	.byte	0
	.byte	0
	.section	.text.tc_make.answer.answer._5349ec06ad6c886c,"ax",@progbits
	.p2align	4
tc_make.answer.answer._5349ec06ad6c886c:
	pushq	%rbp
	pushq	%r15
	pushq	%r14
	pushq	%r13
	pushq	%r12
	pushq	%rbx
	subq	$1048, %rsp
	movq	%rcx, %r11
	movq	%rdi, %r13
	xorps	%xmm0, %xmm0
	movaps	%xmm0, 448(%rsp)
	movaps	%xmm0, 432(%rsp)
	movaps	%xmm0, 416(%rsp)
	movaps	%xmm0, 400(%rsp)
	movzbl	(%rsi), %ebp
	movzbl	(%rdx), %eax
	leaq	.LJ648541ed_0(%rip), %rcx
	movslq	(%rcx,%rax,4), %rdi
	addq	%rcx, %rdi
	jmpq	*%rdi
777:
	movd	%eax, %xmm1
	punpcklbw	%xmm1, %xmm1
	pshuflw	$0, %xmm1, %xmm5
	movl	%eax, %ecx
	jmp	27f
928:
	movq	%r13, %r14
	movzbl	1(%rdx), %ebx
	movq	8(%rdx), %r15
	movq	16(%rdx), %rdx
	movaps	%xmm0, 16(%rsp)
	movaps	%xmm0, 32(%rsp)
	movaps	%xmm0, 48(%rsp)
	movaps	%xmm0, 64(%rsp)
	movaps	%xmm0, 80(%rsp)
	movaps	%xmm0, 96(%rsp)
	movaps	%xmm0, 160(%rsp)
	movaps	%xmm0, 176(%rsp)
	movaps	%xmm0, 192(%rsp)
	movaps	%xmm0, 208(%rsp)
	movaps	%xmm0, 224(%rsp)
	movaps	%xmm0, 240(%rsp)
	testb	%bl, %bl
	je	594f
	.p2align	4
972:
	cmpq	$5, %rdx
	jb	949f
	testb	$-52, (%r15)
	jne	949f
	movzbl	3(%r15), %ecx
	shll	$8, %ecx
	movzbl	2(%r15), %eax
	andl	$3, %eax
	orl	%ecx, %eax
	rolw	$8, %ax
	cmpw	$5, %ax
	jb	949f
	incl	%eax
	movzwl	%ax, %r13d
	movq	%rdx, %r12
	subq	%r13, %r12
	jb	949f
	leaq	.LT4903b024(%rip), %rsi
	leaq	160(%rsp), %rdi
	movl	$5, %edx
	movq	%r15, %rcx
	movq	%r13, %r8
	movq	%r11, %rbp
	movq	%r11, %r9
	callq	tc_make.printed.write_named._5349ec06ad6c886c
	cmpb	$0, 160(%rsp)
	jne	229f
	addq	%r13, %r15
	movq	%r12, %rdx
	decb	%bl
	movq	%rbp, %r11
	jne	972b
	jmp	740f
859:
	movq	%r11, %r12
	movq	%rsi, %r15
	movzbl	1(%rdx), %r14d
	movzbl	2(%rdx), %ebx
	movaps	%xmm0, 208(%rsp)
	movaps	%xmm0, 192(%rsp)
	movaps	%xmm0, 176(%rsp)
	movaps	%xmm0, 160(%rsp)
	movl	$1029, %edi
	movl	$1, %esi
	callq	rattle_alloc@PLT
	testb	$1, %al
	je	22f
	movq	56(%r15), %rax
	imulq	$56, %r14, %rsi
	movzbl	(%rax,%rsi), %r8d
	movq	16(%rax,%rsi), %rdi
	movq	32(%rax,%rsi), %rcx
	movq	$1, (%rax,%rsi)
	movb	%bl, 8(%rax,%rsi)
	movl	$0, 9(%rax,%rsi)
	movl	$0, 12(%rax,%rsi)
	movq	%rdx, 16(%rax,%rsi)
	movq	$0, 24(%rax,%rsi)
	movq	$1029, 32(%rax,%rsi)
	xorps	%xmm0, %xmm0
	movups	%xmm0, 40(%rax,%rsi)
	xorl	%eax, %eax
	cmpb	$1, %r8b
	pxor	%xmm5, %xmm5
	jne	83f
	testq	%rcx, %rcx
	je	83f
	callq	rattle_dealloc@PLT
	pxor	%xmm5, %xmm5
	xorl	%eax, %eax
	xorl	%ecx, %ecx
	xorps	%xmm0, %xmm0
	jmp	196f
12:
	movq	%r13, %rbx
	movl	2(%rdx), %r13d
	movzbl	6(%rdx), %r14d
	movzwl	8(%rdx), %r12d
	movq	16(%rdx), %rcx
	movq	24(%rdx), %rdi
	movaps	%xmm0, 352(%rsp)
	movaps	%xmm0, 336(%rsp)
	movaps	%xmm0, 320(%rsp)
	movaps	%xmm0, 304(%rsp)
	movaps	%xmm0, 288(%rsp)
	movaps	%xmm0, 272(%rsp)
	movzwl	%r13w, %edx
	movb	$7, %al
	cmpl	$1023, %edx
	ja	866f
	movl	%r13d, %r15d
	shrl	$16, %r15d
	movb	$8, %al
	cmpb	$63, %r15b
	ja	866f
	movb	$9, %al
	cmpb	$63, %r14b
	ja	866f
	leal	-1019(%r12), %eax
	movzwl	%ax, %edx
	movb	$12, %al
	cmpl	$64518, %edx
	jb	866f
	testq	%rdi, %rdi
	je	668f
	movb	$14, %al
	cmpq	$65542, %rdi
	ja	866f
	leal	(%r12,%rdi), %esi
	decl	%esi
	movl	%esi, %eax
	xorl	%edx, %edx
	divl	%r12d
	movaps	%xmm0, 608(%rsp)
	movaps	%xmm0, 624(%rsp)
	movaps	%xmm0, 640(%rsp)
	movaps	%xmm0, 656(%rsp)
	movaps	%xmm0, 672(%rsp)
	movups	%xmm0, 687(%rsp)
	movaps	%xmm0, 720(%rsp)
	movaps	%xmm0, 736(%rsp)
	movaps	%xmm0, 752(%rsp)
	movaps	%xmm0, 768(%rsp)
	movaps	%xmm0, 784(%rsp)
	movups	%xmm0, 798(%rsp)
	cmpl	%esi, %r12d
	jbe	385f
638:
	movq	695(%rsp), %rax
	movq	%rax, 360(%rsp)
	movups	679(%rsp), %xmm0
	movups	%xmm0, 344(%rsp)
	movups	615(%rsp), %xmm0
	movups	631(%rsp), %xmm1
	movups	647(%rsp), %xmm2
	movups	663(%rsp), %xmm3
	movups	%xmm3, 328(%rsp)
	movups	%xmm2, 312(%rsp)
	movups	%xmm1, 296(%rsp)
	movups	%xmm0, 280(%rsp)
	xorl	%ecx, %ecx
	jmp	268f
648:
	movq	%r13, 376(%rsp)
	movzbl	1(%rdx), %eax
	movq	8(%rdx), %r15
	movq	16(%rdx), %r12
	movq	56(%rsi), %r13
	movaps	%xmm0, 880(%rsp)
	movaps	%xmm0, 864(%rsp)
	movaps	%xmm0, 848(%rsp)
	movaps	%xmm0, 832(%rsp)
	imulq	$56, %rax, %rax
	movaps	%xmm0, 592(%rsp)
	movaps	%xmm0, 576(%rsp)
	movaps	%xmm0, 560(%rsp)
	movaps	%xmm0, 544(%rsp)
	cmpb	$1, (%r13,%rax)
	jne	680f
	addq	%rax, %r13
	movaps	%xmm0, 720(%rsp)
	movaps	%xmm0, 736(%rsp)
	movaps	%xmm0, 752(%rsp)
	movaps	%xmm0, 768(%rsp)
	movaps	%xmm0, 464(%rsp)
	movaps	%xmm0, 480(%rsp)
	movaps	%xmm0, 496(%rsp)
	movaps	%xmm0, 512(%rsp)
	movq	$0, 384(%rsp)
	movq	$0, 712(%rsp)
	movq	$0, 392(%rsp)
	jmp	972f
	.p2align	4
409:
	movb	%al, 10(%r13)
961:
	movq	%r15, %r14
231:
	xorps	%xmm0, %xmm0
	movaps	%xmm0, 512(%rsp)
	movaps	%xmm0, 496(%rsp)
	movaps	%xmm0, 480(%rsp)
	movaps	%xmm0, 464(%rsp)
	movq	%r14, %r15
972:
	cmpq	$8, %r12
	jae	868f
	testq	%r12, %r12
	je	578f
	decq	%r12
	movzbl	(%r15), %eax
	incq	%r15
	cmpb	$1, 9(%r13)
	jne	548f
	movq	48(%r13), %rcx
	movb	%al, 40(%r13,%rcx)
	movq	48(%r13), %rax
	cmpq	$6, %rax
	ja	678f
629:
	incq	%rax
	movq	%rax, 48(%r13)
	jmp	961b
	.p2align	4
868:
	cmpb	$0, 9(%r13)
	je	564f
	movq	48(%r13), %rcx
	testq	%rcx, %rcx
	je	961f
	decq	%r12
	movzbl	(%r15), %eax
	incq	%r15
	movb	%al, 40(%r13,%rcx)
	movq	48(%r13), %rax
	cmpq	$6, %rax
	jbe	629b
678:
	movq	$0, 48(%r13)
	movq	40(%r13), %rbx
	movq	%rbx, 16(%rsp)
	movl	%ebx, %esi
	shrl	$16, %esi
	movl	%ebx, %eax
	shrl	$24, %eax
	movq	%rbx, %rdi
	shrq	$32, %rdi
	movq	%rbx, %r8
	shrq	$40, %r8
	movq	%rbx, %r9
	shrq	$48, %r9
	movzbl	%bl, %ecx
	leaq	.LTb4175d02(%rip), %r10
	movzbl	1536(%rcx,%r10), %ecx
	movzbl	%bh, %edx
	movzbl	%sil, %esi
	movzbl	%dil, %edi
	movzbl	%r8b, %r8d
	movzbl	%r9b, %r9d
	xorb	1280(%rdx,%r10), %cl
	xorb	1024(%rsi,%r10), %cl
	xorb	768(%rax,%r10), %cl
	xorb	512(%rdi,%r10), %cl
	xorb	256(%r8,%r10), %cl
	xorb	(%r9,%r10), %cl
	xorb	$127, %cl
	movq	%rbx, %rax
	shrq	$57, %rax
	xorb	%cl, %al
	jne	868f
	xorl	%ebp, %ebp
	jmp	890f
	.p2align	4
564:
	decq	%r12
	movzbl	(%r15), %eax
	incq	%r15
548:
	movzbl	10(%r13), %ecx
	xorb	$-21, %cl
	movzbl	%cl, %ecx
	imull	$134480385, %ecx, %ecx
	shrl	$3, %ecx
	andl	$286331153, %ecx
	imull	$286331153, %ecx, %ecx
	shrl	$28, %ecx
	movl	%eax, %edx
	xorb	$-112, %dl
	movzbl	%dl, %edx
	imull	$134480385, %edx, %edx
	shrl	$3, %edx
	andl	$286331153, %edx
	imull	$286331153, %edx, %edx
	shrl	$28, %edx
	xorl	%esi, %esi
	addb	%cl, %dl
	sete	%sil
	xorl	%ecx, %ecx
	cmpb	$2, %dl
	setb	%cl
	cmpb	$0, 8(%r13)
	cmovel	%esi, %ecx
	cmpb	$1, %cl
	jne	409b
	movb	$1, 9(%r13)
	cmpq	$0, 24(%r13)
	je	678f
	movq	$0, 24(%r13)
678:
	movq	$0, 48(%r13)
	jmp	961b
868:
	cmpb	$0, 8(%r13)
	je	409f
	movzbl	%al, %eax
	leaq	.LTddd25b9b(%rip), %rcx
	movq	(%rcx,%rax,8), %rbp
	testq	%rbp, %rbp
	je	409f
890:
	xorl	%r14d, %r14d
	testq	%rbp, %rbp
	setne	%dil
	movq	24(%r13), %rax
	leaq	-1023(%rax), %rcx
	cmpq	$-1030, %rcx
	jae	678f
	movw	$0, 9(%r13)
	movb	$4, %dl
	xorl	%ecx, %ecx
	movzbl	%dl, %edx
	leaq	.LJ648541ed_1(%rip), %rsi
	movslq	(%rsi,%rdx,4), %rdx
	addq	%rsi, %rdx
	movq	%r15, %r14
	movq	%rax, %r8
	jmpq	*%rdx
961:
	movq	%r11, %rbp
	leaq	8(%r15), %r14
	addq	$-8, %r12
	movzbl	(%r15), %esi
	movzbl	1(%r15), %eax
	movzbl	2(%r15), %ecx
	movzbl	3(%r15), %edx
	movzbl	4(%r15), %edi
	movzbl	5(%r15), %r8d
	movzbl	6(%r15), %r9d
	leaq	.LTb4175d02(%rip), %r10
	movzbl	1536(%rsi,%r10), %r11d
	xorb	1280(%rax,%r10), %r11b
	xorb	1024(%rcx,%r10), %r11b
	xorb	768(%rdx,%r10), %r11b
	xorb	512(%rdi,%r10), %r11b
	xorb	256(%r8,%r10), %r11b
	xorb	(%r9,%r10), %r11b
	movzbl	7(%r15), %edi
	xorb	$127, %r11b
	shrb	%dil
	xorb	%r11b, %dil
	jne	868f
	movq	(%r15), %rbx
	xorl	%r15d, %r15d
	movq	%rbp, %r11
	movq	24(%r13), %rax
	leaq	-1023(%rax), %rcx
	cmpq	$-1031, %rcx
	ja	961f
325:
	movw	$0, 9(%r13)
	incq	392(%rsp)
	jmp	231b
678:
	movq	32(%r13), %rcx
	movq	%rcx, %rdx
	subq	%rax, %rdx
	cmpq	$6, %rdx
	jbe	969f
177:
	xorq	%rbx, %rbp
	leaq	7(%rax), %r8
	movq	16(%r13), %rdx
	movl	%ebp, (%rdx,%rax)
	movq	%rbp, %rsi
	shrq	$48, %rsi
	movb	%sil, 6(%rdx,%rax)
	shrq	$32, %rbp
	movw	%bp, 4(%rdx,%rax)
	movq	%rdx, 16(%r13)
	movq	%r8, 24(%r13)
	movq	%rcx, 32(%r13)
	xorl	%ecx, %ecx
	movb	%dil, %r14b
	leaq	.LJ648541ed_1(%rip), %rax
	movslq	(%rax,%r14,4), %rdx
	addq	%rax, %rdx
	movq	%r15, %r14
	jmpq	*%rdx
409:
	movb	$3, %al
	movl	$3318072773, %ecx
	cmpl	%ecx, %ebx
	jne	519f
	leaq	.LT9296ae30(%rip), %rdx
	leaq	16(%rsp), %rdi
	movl	$8, %esi
	movq	%r11, %rbx
	callq	core.cmp.slices.groups_equal._i8_31_core.cmp.numbers.U8PartialEq
	movq	%rbx, %r11
	xorb	$3, %al
519:
	movw	$0, 9(%r13)
	movq	24(%r13), %r8
	testq	%r8, %r8
	setne	%cl
	movzbl	%al, %eax
	leaq	.LJ648541ed_1(%rip), %rdx
	movslq	(%rdx,%rax,4), %rax
	addq	%rdx, %rax
	movq	%r15, %r14
	jmpq	*%rax
868:
	cmpb	$0, 8(%r13)
	movq	%rbp, %r11
	je	482f
	movzbl	%dil, %edi
	leaq	.LTddd25b9b(%rip), %r8
	movq	(%r8,%rdi,8), %rbx
	testq	%rbx, %rbx
	je	482f
	xorq	(%r15), %rbx
	movb	$1, %r15b
	movq	24(%r13), %rax
	leaq	-1023(%rax), %rcx
	cmpq	$-1031, %rcx
	jbe	325b
961:
	movq	32(%r13), %rcx
	movq	%rcx, %rdx
	subq	%rax, %rdx
	cmpq	$6, %rdx
	jbe	219f
669:
	leaq	7(%rax), %r8
	movq	16(%r13), %rdx
	movl	%ebx, (%rdx,%rax)
	movq	%rbx, %rsi
	shrq	$48, %rsi
	movb	%sil, 6(%rdx,%rax)
	shrq	$32, %rbx
	movw	%bx, 4(%rdx,%rax)
	movq	%rdx, 16(%r13)
	movq	%r8, 24(%r13)
	movq	%rcx, 32(%r13)
	xorl	%ecx, %ecx
	movzbl	%r15b, %eax
	leaq	.LJ648541ed_1(%rip), %rdx
	movslq	(%rdx,%rax,4), %rax
	addq	%rdx, %rax
	jmpq	*%rax
482:
	xorb	$-59, %sil
	xorb	$-59, %al
	orb	%sil, %al
	xorb	$-59, %cl
	orb	%al, %cl
	xorb	$-59, %dl
	movb	$3, %al
	orb	%cl, %dl
	jne	325f
	leaq	.LT9296ae30(%rip), %rdx
	movl	$8, %esi
	movq	%r15, %rdi
	callq	core.cmp.slices.groups_equal._i8_31_core.cmp.numbers.U8PartialEq
	movq	%rbp, %r11
	xorb	$3, %al
325:
	movw	$0, 9(%r13)
	movq	24(%r13), %r8
	testq	%r8, %r8
	setne	%cl
	movzbl	%al, %eax
	leaq	.LJ648541ed_1(%rip), %rdx
	movslq	(%rdx,%rax,4), %rax
	addq	%rdx, %rax
	jmpq	*%rax
629:
	incq	384(%rsp)
	jmp	833f
677:
	incq	392(%rsp)
	jmp	833f
400:
	incq	712(%rsp)
	.p2align	4
833:
	xorps	%xmm0, %xmm0
	movaps	%xmm0, 96(%rsp)
	movaps	%xmm0, 80(%rsp)
	movaps	%xmm0, 64(%rsp)
	movaps	%xmm0, 48(%rsp)
	movaps	%xmm0, 32(%rsp)
	movaps	%xmm0, 16(%rsp)
	testb	%cl, %cl
	je	231b
	movq	16(%r13), %rcx
	leaq	.LT4903b024(%rip), %rsi
	leaq	16(%rsp), %rdi
	movl	$5, %edx
	movq	%r11, %r9
	movq	%r11, %rbx
	callq	tc_make.printed.write_named._5349ec06ad6c886c
	movq	%rbx, %r11
	movq	24(%rsp), %xmm5
	movl	28(%rsp), %eax
	movaps	32(%rsp), %xmm0
	leaq	48(%rsp), %rcx
	movups	(%rcx), %xmm1
	movups	16(%rcx), %xmm2
	movups	32(%rcx), %xmm3
	movups	48(%rcx), %xmm4
	movaps	%xmm1, 464(%rsp)
	movaps	%xmm2, 480(%rsp)
	movaps	%xmm3, 496(%rsp)
	movaps	%xmm4, 512(%rsp)
	cmpb	$0, 16(%rsp)
	movq	%r14, %r15
	je	972b
	jmp	237f
969:
	movb	%dil, 536(%rsp)
	movq	%r11, 8(%rsp)
	leaq	16(%r13), %rdi
	movl	$7, %esi
	callq	std_alloc.vec.Vec.grow_amortized._5ce8f19f45e9f986
	testb	%al, %al
	je	214f
	movq	24(%r13), %rax
	movq	32(%r13), %rcx
	movq	8(%rsp), %r11
	movzbl	536(%rsp), %edi
	jmp	177b
219:
	leaq	16(%r13), %rdi
	movl	$7, %esi
	callq	std_alloc.vec.Vec.grow_amortized._5ce8f19f45e9f986
	testb	%al, %al
	je	214f
	movq	24(%r13), %rax
	movq	32(%r13), %rcx
	movq	%rbp, %r11
	jmp	669b
471:
	movzwl	2(%rdx), %r14d
	movzbl	4(%rdx), %eax
	movzwl	6(%rdx), %r8d
	movl	8(%rdx), %edx
	movaps	%xmm0, 96(%rsp)
	movaps	%xmm0, 80(%rsp)
	movaps	%xmm0, 64(%rsp)
	movaps	%xmm0, 48(%rsp)
	movaps	%xmm0, 32(%rsp)
	movaps	%xmm0, 16(%rsp)
	movw	$0, 724(%rsp)
	cmpq	$1024, %r14
	jb	868f
	movb	$7, %al
	movzbl	%al, %esi
	jmp	90f
961:
	movq	%r11, %r14
	leaq	2(%rdx), %rsi
	movzbl	8(%rdx), %eax
	movzwl	9(%rdx), %edi
	movq	16(%rdx), %rcx
	movq	24(%rdx), %r8
	movb	%al, 720(%rsp)
	movw	%di, 721(%rsp)
	movaps	%xmm0, 608(%rsp)
	movaps	%xmm0, 624(%rsp)
	movaps	%xmm0, 160(%rsp)
	movaps	%xmm0, 176(%rsp)
	movaps	%xmm0, 192(%rsp)
	movaps	%xmm0, 208(%rsp)
	movaps	%xmm0, 224(%rsp)
	movaps	%xmm0, 240(%rsp)
	leaq	608(%rsp), %rdi
	leaq	720(%rsp), %rdx
	callq	tc_make.frames.make_frame
	cmpb	$0, 608(%rsp)
	je	669f
	movzbl	610(%rsp), %edx
	movzbl	609(%rsp), %esi
	leaq	160(%rsp), %rdi
	movq	%r14, %rcx
	jmp	193f
634:
	movzwl	2(%rdx), %ebx
	movzbl	4(%rdx), %r12d
	movzbl	5(%rdx), %eax
	movzbl	6(%rdx), %r15d
	movaps	%xmm0, 240(%rsp)
	movaps	%xmm0, 224(%rsp)
	movaps	%xmm0, 208(%rsp)
	movaps	%xmm0, 192(%rsp)
	movaps	%xmm0, 176(%rsp)
	movaps	%xmm0, 160(%rsp)
	movb	$7, %cl
	cmpl	$1023, %ebx
	ja	552f
	movb	$8, %cl
	cmpb	$63, %r12b
	ja	552f
	movq	%r11, 8(%rsp)
	testb	%al, %al
	je	981f
	movl	$8, %r14d
	movl	$8, %edi
	movl	$1, %esi
	callq	rattle_alloc@PLT
	movb	$16, %cl
	testb	$1, %al
	movq	8(%rsp), %r11
	je	552f
	movzwl	%r12w, %eax
	shll	$10, %eax
	movzbl	%bl, %ecx
	orl	%eax, %ecx
	movzwl	%cx, %eax
	orl	$458752, %eax
	shrl	$8, %ebx
	orb	$48, %bl
	movb	%bl, (%rdx)
	movl	%eax, 1(%rdx)
	movw	$130, 5(%rdx)
	movb	%r15b, 7(%rdx)
	jmp	344f
678:
	movq	8(%rdx), %r12
	movq	16(%rdx), %r15
	movaps	%xmm0, 96(%rsp)
	movaps	%xmm0, 80(%rsp)
	movaps	%xmm0, 64(%rsp)
	movaps	%xmm0, 48(%rsp)
	movaps	%xmm0, 32(%rsp)
	movaps	%xmm0, 16(%rsp)
	testq	%r15, %r15
	je	409f
	movb	$14, %al
	cmpq	$1029, %r15
	ja	166f
	movq	%r11, %rbp
	movq	%r13, %r14
	leal	6(%r15), %eax
	movzwl	%ax, %ecx
	imull	$9363, %ecx, %ecx
	shrl	$16, %ecx
	subl	%ecx, %eax
	movzwl	%ax, %eax
	shrl	%eax
	addl	%ecx, %eax
	andl	$-4, %eax
	leal	10(,%rax,2), %eax
	movzwl	%ax, %r13d
	movl	$1, %esi
	movq	%r13, %rdi
	callq	rattle_alloc@PLT
	testb	$1, %al
	je	969f
	movq	%rdx, 160(%rsp)
	leaq	.LT6035a829(%rip), %rax
	movq	%rdx, %rcx
	subq	%rax, %rcx
	cmpq	$1, %rcx
	movw	$-28437, (%rdx)
	movq	$2, 168(%rsp)
	movq	%r13, 176(%rsp)
	cmpq	$7, %r15
	jb	771f
966:
	movq	%r12, %rsi
	addq	$7, %r12
	addq	$-7, %r15
	leaq	160(%rsp), %rdi
	movl	$7, %edx
	callq	tc_edges.cltu.writer.push_block
	cmpq	$6, %r15
	ja	966b
	testq	%r15, %r15
	je	966f
771:
	movq	%r15, %rdx
	xorq	$7, %rdx
	leaq	(%rsp,%r15), %rdi
	addq	$272, %rdi
	movl	$85, %esi
	callq	memset@PLT
	leaq	272(%rsp), %r13
	movq	%r13, %rdi
	movq	%r12, %rsi
	movq	%r15, %rdx
	callq	memcpy@PLT
	leaq	160(%rsp), %rdi
	movl	$7, %edx
	movq	%r13, %rsi
	callq	tc_edges.cltu.writer.push_block
966:
	movq	168(%rsp), %r8
	movq	176(%rsp), %rbx
	movq	%rbx, %rax
	subq	%r8, %rax
	cmpq	$7, %rax
	movq	%r14, %r13
	jbe	458f
966:
	movq	160(%rsp), %r15
	leaq	(%r15,%r8), %rax
	addq	$8, %r8
	leaq	.LT9296ae30(%rip), %rcx
	movq	%rax, %rdx
	subq	%rcx, %rdx
	cmpq	$7, %rdx
	ja	631f
	movl	$-976894523, 3(%rax)
	movl	$-976894523, (%rax)
	movb	$121, 7(%rax)
	jmp	378f
254:
	movzwl	2(%rdx), %r14d
	movzwl	4(%rdx), %ebx
	movq	8(%rdx), %r15
	movq	16(%rdx), %r12
	movaps	%xmm0, 96(%rsp)
	movaps	%xmm0, 80(%rsp)
	movaps	%xmm0, 64(%rsp)
	movaps	%xmm0, 48(%rsp)
	movaps	%xmm0, 32(%rsp)
	movaps	%xmm0, 16(%rsp)
	movb	$10, %cl
	cmpl	$2047, %r14d
	ja	413f
	movzwl	%bx, %eax
	movb	$11, %cl
	cmpl	$16383, %eax
	ja	413f
	testq	%r12, %r12
	je	394f
	movb	$14, %cl
	cmpq	$65536, %r12
	ja	413f
	leaq	6(%r12), %rdi
	movl	$1, %esi
	movq	%rdi, 392(%rsp)
	movq	%r11, 8(%rsp)
	callq	rattle_alloc@PLT
	movq	8(%rsp), %r11
	movb	$16, %cl
	testb	$1, %al
	je	413f
	movq	%rdx, %rbp
	leal	-1(%r12), %eax
	movl	%r14d, %ecx
	shrl	$8, %ecx
	orb	$16, %cl
	movl	%ebx, %edx
	shrl	$8, %edx
	orb	$-64, %dl
	movb	%cl, (%rbp)
	movb	%r14b, 1(%rbp)
	movb	%dl, 2(%rbp)
	movb	%bl, 3(%rbp)
	movb	%ah, 4(%rbp)
	movb	%al, 5(%rbp)
	movq	%rbp, %rdi
	addq	$6, %rdi
	movq	%rdi, %rax
	subq	%r15, %rax
	cmpq	%r12, %rax
	jae	716f
	cmpq	$4, %r12
	leaq	6(%r12), %r8
	jb	890f
	movq	%rbp, %rax
	subq	%r15, %rax
	addq	$6, %rax
	cmpq	$32, %rax
	jae	778f
890:
	xorl	%eax, %eax
771:
	movq	%r12, %rdx
	movq	%rax, %rcx
	andq	$3, %rdx
	je	980f
	movq	%rax, %rcx
548:
	movzbl	(%r15,%rcx), %esi
	movb	%sil, (%rdi,%rcx)
	incq	%rcx
	decq	%rdx
	jne	548b
980:
	subq	%r12, %rax
	cmpq	$-4, %rax
	ja	975f
548:
	movzbl	(%r15,%rcx), %eax
	movb	%al, 6(%rbp,%rcx)
	movzbl	1(%r15,%rcx), %eax
	movb	%al, 7(%rbp,%rcx)
	movzbl	2(%r15,%rcx), %eax
	movb	%al, 8(%rbp,%rcx)
	movzbl	3(%r15,%rcx), %eax
	movb	%al, 9(%rbp,%rcx)
	addq	$4, %rcx
	cmpq	%rcx, %r12
	jne	548b
	jmp	975f
586:
	movq	8(%rdx), %rsi
	movq	16(%rdx), %r15
	movaps	%xmm0, 800(%rsp)
	movaps	%xmm0, 784(%rsp)
	movaps	%xmm0, 768(%rsp)
	movaps	%xmm0, 752(%rsp)
	movaps	%xmm0, 736(%rsp)
	movaps	%xmm0, 720(%rsp)
	movl	$5, %edx
	cmpq	$5, %r15
	jae	832f
	leaq	.LT965043bc(%rip), %rsi
	jmp	917f
548:
	movzbl	1(%rdx), %ecx
	movq	56(%rsi), %rax
	imulq	$56, %rcx, %rcx
	cmpb	$1, (%rax,%rcx)
	jne	87f
	movzbl	9(%rax,%rcx), %edx
	movw	$0, 9(%rax,%rcx)
	movaps	%xmm0, 16(%rsp)
	movaps	%xmm0, 32(%rsp)
	movaps	%xmm0, 48(%rsp)
	movaps	%xmm0, 64(%rsp)
	movaps	%xmm0, 80(%rsp)
	movaps	%xmm0, 96(%rsp)
	movb	%dl, 608(%rsp)
	leaq	.LT138070c8(%rip), %rax
	movq	%rax, 272(%rsp)
	movq	$11, 280(%rsp)
	leaq	608(%rsp), %rax
	movq	%rax, 288(%rsp)
	leaq	.LT3235efc0(%rip), %rax
	movq	%rax, 296(%rsp)
	movq	$1, 304(%rsp)
	leaq	16(%rsp), %rdi
	leaq	272(%rsp), %rdx
	movq	%r11, %rsi
	callq	std.io.traits.Write.write_fmt._2163a20560420d27
	jmp	284f
271:
	movq	8(%rdx), %rax
	movq	16(%rdx), %rcx
	movaps	%xmm0, 960(%rsp)
	movaps	%xmm0, 976(%rsp)
	movaps	%xmm0, 992(%rsp)
	movaps	%xmm0, 1008(%rsp)
	movaps	%xmm0, 160(%rsp)
	movaps	%xmm0, 176(%rsp)
	movaps	%xmm0, 192(%rsp)
	movaps	%xmm0, 208(%rsp)
	movaps	%xmm0, 224(%rsp)
	movaps	%xmm0, 240(%rsp)
	cmpq	$4, %rcx
	jne	430f
	movl	(%rax), %r12d
	bswapl	%r12d
	movl	%r12d, %eax
	andl	$-486342400, %eax
	cmpl	$16777216, %eax
	jne	359f
	movaps	%xmm0, 944(%rsp)
	movaps	%xmm0, 928(%rsp)
	movaps	%xmm0, 912(%rsp)
	movaps	%xmm0, 896(%rsp)
	movq	%r11, %rbx
	movq	%r11, 16(%rsp)
	movups	%xmm0, 24(%rsp)
	movups	%xmm0, 40(%rsp)
	movups	%xmm0, 56(%rsp)
	movups	%xmm0, 72(%rsp)
	movups	%xmm0, 88(%rsp)
	movups	%xmm0, 104(%rsp)
	leaq	124(%rsp), %r15
	movups	%xmm0, 144(%rsp)
	movl	$32, 120(%rsp)
	movq	$0, 124(%rsp)
	movl	$0, 132(%rsp)
	movq	$-1, 136(%rsp)
	leaq	.LT081b0d22(%rip), %rsi
	leaq	16(%rsp), %rdi
	movl	$8, %edx
	callq	std.io.traits.AdapterWrite.write_str._5349ec06ad6c886c
	testb	%al, %al
	je	186f
890:
	xorl	%eax, %eax
913:
	movq	%rbx, %rcx
	jmp	384f
209:
	movq	8(%rdx), %rax
	movq	16(%rdx), %rcx
	movaps	%xmm0, 240(%rsp)
	movaps	%xmm0, 224(%rsp)
	movaps	%xmm0, 208(%rsp)
	movaps	%xmm0, 192(%rsp)
	movaps	%xmm0, 176(%rsp)
	movaps	%xmm0, 160(%rsp)
	movzbl	%bpl, %edx
	leaq	11(,%rdx,2), %rsi
	movl	$5, %edx
	cmpq	%rsi, %rcx
	jae	106f
	leaq	.LT965043bc(%rip), %rsi
	jmp	172f
589:
	movq	%r13, %rbx
	movq	8(%rdx), %r13
	movq	16(%rdx), %r15
	movaps	%xmm0, 240(%rsp)
	movaps	%xmm0, 224(%rsp)
	movaps	%xmm0, 208(%rsp)
	movaps	%xmm0, 192(%rsp)
	movaps	%xmm0, 176(%rsp)
	movaps	%xmm0, 160(%rsp)
	testq	%r15, %r15
	je	219f
	js	231f
	movl	$1, %esi
	movq	%r15, %rdi
	movq	%r11, %r14
	callq	rattle_alloc@PLT
	movq	%r14, %r11
	testb	$1, %al
	je	231f
	movq	%rdx, %r12
	movq	%rdx, %rax
	subq	%r13, %rax
	cmpq	%r15, %rax
	jae	710f
	cmpq	$4, %r15
	setb	%al
	movq	%r12, %rcx
	subq	%r13, %rcx
	cmpq	$32, %rcx
	setb	%cl
	orb	%al, %cl
	je	712f
	xorl	%eax, %eax
	jmp	422f
22:
	xorps	%xmm0, %xmm0
	movaps	%xmm0, 16(%rsp)
	movaps	%xmm0, 32(%rsp)
	movaps	%xmm0, 48(%rsp)
	movaps	%xmm0, 64(%rsp)
	movaps	%xmm0, 80(%rsp)
	movaps	%xmm0, 96(%rsp)
	movw	$16, 608(%rsp)
	leaq	608(%rsp), %rax
	movq	%rax, 272(%rsp)
	leaq	.LT3235efc0(%rip), %rax
	movq	%rax, 280(%rsp)
	movq	$1, 288(%rsp)
	leaq	16(%rsp), %rdi
	leaq	272(%rsp), %rdx
	movq	%r12, %rsi
	callq	std.io.traits.Write.write_fmt._7427d210d622371f
	movzbl	16(%rsp), %ecx
	movq	24(%rsp), %xmm5
	movl	28(%rsp), %eax
	movaps	32(%rsp), %xmm0
	movaps	48(%rsp), %xmm1
	movaps	%xmm1, 160(%rsp)
	movaps	64(%rsp), %xmm1
	movaps	%xmm1, 176(%rsp)
	movaps	80(%rsp), %xmm1
	movaps	%xmm1, 192(%rsp)
	movaps	96(%rsp), %xmm1
	movaps	%xmm1, 208(%rsp)
	jmp	196f
680:
	movaps	%xmm0, 16(%rsp)
	movaps	%xmm0, 32(%rsp)
	movaps	%xmm0, 48(%rsp)
	movaps	%xmm0, 64(%rsp)
	movaps	%xmm0, 80(%rsp)
	movaps	%xmm0, 96(%rsp)
	movw	$15, 272(%rsp)
	leaq	272(%rsp), %rax
	movq	%rax, 160(%rsp)
	leaq	.LT3235efc0(%rip), %rax
	movq	%rax, 168(%rsp)
	movq	$1, 176(%rsp)
	leaq	16(%rsp), %rdi
	leaq	160(%rsp), %rdx
	movq	%r11, %rsi
	callq	std.io.traits.Write.write_fmt._7427d210d622371f
	movzbl	16(%rsp), %ecx
	movq	24(%rsp), %xmm5
	movl	28(%rsp), %eax
	movaps	32(%rsp), %xmm0
	movaps	96(%rsp), %xmm1
	movaps	%xmm1, 592(%rsp)
	movaps	80(%rsp), %xmm2
	movaps	%xmm2, 576(%rsp)
	movaps	64(%rsp), %xmm3
	movaps	%xmm3, 560(%rsp)
	movaps	48(%rsp), %xmm4
	movaps	%xmm4, 544(%rsp)
	movaps	%xmm4, 832(%rsp)
	movaps	%xmm3, 848(%rsp)
	movaps	%xmm2, 864(%rsp)
	movaps	%xmm1, 880(%rsp)
	movq	376(%rsp), %r13
	jmp	282f
868:
	cmpb	$7, %al
	jbe	680f
	movb	$8, %al
	movzbl	%al, %esi
	jmp	90f
832:
	movzwl	(%rsi), %eax
	rolw	$8, %ax
	movzwl	%ax, %ecx
	cmpl	$16383, %ecx
	ja	71f
	testl	$3072, %eax
	je	553f
	leaq	.LT3d45e432(%rip), %rsi
	jmp	917f
87:
	movaps	%xmm0, 16(%rsp)
	movaps	%xmm0, 32(%rsp)
	movaps	%xmm0, 48(%rsp)
	movaps	%xmm0, 64(%rsp)
	movaps	%xmm0, 80(%rsp)
	movaps	%xmm0, 96(%rsp)
	movw	$15, 608(%rsp)
	leaq	608(%rsp), %rax
	movq	%rax, 272(%rsp)
	leaq	.LT3235efc0(%rip), %rax
	movq	%rax, 280(%rsp)
	movq	$1, 288(%rsp)
	leaq	16(%rsp), %rdi
	leaq	272(%rsp), %rdx
	movq	%r11, %rsi
	callq	std.io.traits.Write.write_fmt._7427d210d622371f
284:
	movzbl	16(%rsp), %ecx
	movq	24(%rsp), %xmm5
	movl	28(%rsp), %eax
	movaps	32(%rsp), %xmm0
	movaps	96(%rsp), %xmm1
	movaps	%xmm1, 208(%rsp)
	movaps	80(%rsp), %xmm2
	movaps	%xmm2, 192(%rsp)
	movaps	64(%rsp), %xmm3
	movaps	%xmm3, 176(%rsp)
	movaps	48(%rsp), %xmm4
	movaps	%xmm4, 160(%rsp)
	movaps	%xmm4, 16(%rsp)
	movaps	%xmm3, 32(%rsp)
	movaps	%xmm2, 48(%rsp)
	movaps	%xmm1, 64(%rsp)
	movdqa	16(%rsp), %xmm1
	movaps	32(%rsp), %xmm2
	movaps	48(%rsp), %xmm3
	movaps	64(%rsp), %xmm4
	jmp	587f
430:
	movaps	%xmm0, 16(%rsp)
	movaps	%xmm0, 32(%rsp)
	movaps	%xmm0, 48(%rsp)
	movaps	%xmm0, 64(%rsp)
	movaps	%xmm0, 80(%rsp)
	movaps	%xmm0, 96(%rsp)
	movw	$6, 608(%rsp)
	leaq	608(%rsp), %rax
	movq	%rax, 272(%rsp)
	leaq	.LTbb49215e(%rip), %rax
	movq	%rax, 280(%rsp)
	movq	$21, 288(%rsp)
	leaq	16(%rsp), %rdi
	leaq	272(%rsp), %rdx
	movq	%r11, %rsi
	callq	std.io.traits.Write.write_fmt._7427d210d622371f
	movzbl	16(%rsp), %ecx
	movq	24(%rsp), %xmm5
	movl	28(%rsp), %eax
	movaps	32(%rsp), %xmm0
	movdqa	96(%rsp), %xmm1
	movdqa	%xmm1, 1008(%rsp)
	movaps	80(%rsp), %xmm2
	movaps	%xmm2, 992(%rsp)
	movaps	64(%rsp), %xmm3
	movaps	%xmm3, 976(%rsp)
	movaps	48(%rsp), %xmm4
	movaps	%xmm4, 960(%rsp)
	movaps	%xmm4, 400(%rsp)
	movaps	%xmm3, 416(%rsp)
	movaps	%xmm2, 432(%rsp)
	movdqa	%xmm1, 448(%rsp)
	jmp	27f
106:
	movzwl	(%rax), %r12d
	rolw	$8, %r12w
	movzwl	%r12w, %r15d
	cmpl	$16383, %r15d
	ja	661f
	testb	$1, %r12b
	jne	868f
	leaq	.LTe2d26f26(%rip), %rsi
	jmp	327f
231:
	xorps	%xmm0, %xmm0
	movaps	%xmm0, 16(%rsp)
	movaps	%xmm0, 32(%rsp)
	movaps	%xmm0, 48(%rsp)
	movaps	%xmm0, 64(%rsp)
	movaps	%xmm0, 80(%rsp)
	movaps	%xmm0, 96(%rsp)
	movw	$16, 608(%rsp)
	leaq	608(%rsp), %rax
	movq	%rax, 272(%rsp)
	leaq	.LT3235efc0(%rip), %rax
	movq	%rax, 280(%rsp)
	movq	$1, 288(%rsp)
	leaq	16(%rsp), %rdi
	leaq	272(%rsp), %rdx
	movq	%r11, %rsi
	callq	std.io.traits.Write.write_fmt._7427d210d622371f
	movzbl	16(%rsp), %eax
	movb	%al, 160(%rsp)
	movups	24(%rsp), %xmm0
	movups	%xmm0, 168(%rsp)
	movups	40(%rsp), %xmm0
	movups	%xmm0, 184(%rsp)
	movups	56(%rsp), %xmm0
	movups	%xmm0, 200(%rsp)
	movups	72(%rsp), %xmm0
	movups	%xmm0, 216(%rsp)
	movups	88(%rsp), %xmm0
	movups	%xmm0, 232(%rsp)
	movq	104(%rsp), %rax
	movq	%rax, 248(%rsp)
	movq	%rbx, %r13
	jmp	389f
578:
	xorps	%xmm0, %xmm0
	movaps	%xmm0, 656(%rsp)
	movaps	%xmm0, 640(%rsp)
	movaps	%xmm0, 624(%rsp)
	movaps	%xmm0, 608(%rsp)
	movaps	%xmm0, 272(%rsp)
	movaps	%xmm0, 288(%rsp)
	movaps	%xmm0, 304(%rsp)
	movaps	%xmm0, 320(%rsp)
	movq	%r11, 16(%rsp)
	movups	%xmm0, 24(%rsp)
	movups	%xmm0, 40(%rsp)
	movups	%xmm0, 56(%rsp)
	movups	%xmm0, 72(%rsp)
	movups	%xmm0, 88(%rsp)
	movups	%xmm0, 104(%rsp)
	movups	%xmm0, 144(%rsp)
	movl	$32, 120(%rsp)
	movq	$0, 124(%rsp)
	movl	$0, 132(%rsp)
	movq	$-1, 136(%rsp)
	leaq	.LTbe46598f(%rip), %rsi
	leaq	16(%rsp), %rdi
	movl	$17, %edx
	callq	std.io.traits.AdapterWrite.write_str._5349ec06ad6c886c
	movb	$1, %r14b
	testb	%al, %al
	je	999f
	movq	376(%rsp), %r13
	jmp	976f
949:
	leaq	16(%rsp), %rdi
	movq	%r15, %rsi
	jmp	871f
594:
	movq	%rdx, %r12
740:
	leaq	16(%rsp), %rdi
	movq	%r15, %rsi
	movq	%r12, %rdx
871:
	movq	%r11, %rcx
	callq	tc_make.explained.write_rest._5349ec06ad6c886c
	movzbl	16(%rsp), %ecx
	movq	24(%rsp), %xmm5
	movl	28(%rsp), %eax
	movaps	32(%rsp), %xmm0
	movaps	48(%rsp), %xmm1
	movaps	%xmm1, 400(%rsp)
	movaps	64(%rsp), %xmm1
	movaps	%xmm1, 416(%rsp)
	movaps	80(%rsp), %xmm1
	movaps	%xmm1, 432(%rsp)
	movdqa	96(%rsp), %xmm1
	movdqa	%xmm1, 448(%rsp)
594:
	movq	%r14, %r13
	jmp	27f
669:
	leaq	616(%rsp), %rdx
	xorps	%xmm0, %xmm0
	movaps	%xmm0, 272(%rsp)
	movaps	%xmm0, 288(%rsp)
	movaps	%xmm0, 16(%rsp)
	movaps	%xmm0, 32(%rsp)
	movaps	%xmm0, 48(%rsp)
	movaps	%xmm0, 64(%rsp)
	movaps	%xmm0, 80(%rsp)
	movaps	%xmm0, 96(%rsp)
	movzbl	%bpl, %esi
	leaq	272(%rsp), %rdi
	callq	tc_make.ending.Ending.end
	cmpb	$0, 272(%rsp)
	je	600f
	movzbl	274(%rsp), %edx
	movzbl	273(%rsp), %esi
	leaq	16(%rsp), %rdi
	movq	%r14, %rcx
	jmp	860f
409:
	movb	$13, %al
	movzbl	%al, %esi
	jmp	90f
219:
	leaq	.LTd8c9c952(%rip), %rsi
	leaq	160(%rsp), %rdi
	leaq	543(%rsp), %rcx
	movl	$6, %edx
	xorl	%r8d, %r8d
	movq	%r11, %r9
	callq	tc_make.printed.write_named._5349ec06ad6c886c
	movq	%rbx, %r13
	jmp	389f
83:
	xorl	%ecx, %ecx
196:
	movdqa	160(%rsp), %xmm1
	movaps	176(%rsp), %xmm2
	movaps	192(%rsp), %xmm3
	movaps	208(%rsp), %xmm4
	jmp	87f
680:
	movq	%r13, 376(%rsp)
	movzbl	%al, %ecx
	leal	(,%r14,8), %r12d
	orq	%rcx, %r12
	movq	8(%rsi), %rcx
	movq	32(%rsi), %rdi
	movzbl	(%rcx,%r14), %r15d
	movzbl	(%rdi,%r12), %r13d
	movw	%r14w, 720(%rsp)
	movb	%al, 722(%rsp)
	movb	%r15b, 723(%rsp)
	movzbl	%bpl, %eax
	leal	11(,%rax,2), %eax
	cmpl	%r8d, %eax
	seta	%al
	movb	%r13b, 724(%rsp)
	cmpl	$2049, %r8d
	setae	%cl
	orb	%al, %cl
	je	699f
	movb	$12, %al
	movq	376(%rsp), %r13
	movzbl	%al, %esi
	jmp	90f
71:
	leaq	.LTb26077fb(%rip), %rsi
	movl	$7, %edx
917:
	leaq	720(%rsp), %rdi
	movq	%r11, %rcx
	callq	tc_make.printed.write_refused._5349ec06ad6c886c
	movzbl	720(%rsp), %ecx
871:
	movq	728(%rsp), %xmm5
	movl	732(%rsp), %eax
	movaps	736(%rsp), %xmm0
	movaps	752(%rsp), %xmm1
	movaps	%xmm1, 400(%rsp)
	movaps	768(%rsp), %xmm1
	movaps	%xmm1, 416(%rsp)
	movaps	784(%rsp), %xmm1
	movaps	%xmm1, 432(%rsp)
	movdqa	800(%rsp), %xmm1
	movdqa	%xmm1, 448(%rsp)
	jmp	27f
359:
	leaq	.LTd51b947e(%rip), %rsi
	leaq	160(%rsp), %rdi
	movl	$4, %edx
	jmp	680f
661:
	leaq	.LTb26077fb(%rip), %rsi
327:
	movl	$7, %edx
172:
	leaq	160(%rsp), %rdi
680:
	movq	%r11, %rcx
	callq	tc_make.printed.write_refused._5349ec06ad6c886c
	movzbl	160(%rsp), %ecx
	movq	168(%rsp), %xmm5
	movl	172(%rsp), %eax
	movaps	176(%rsp), %xmm0
196:
	movdqa	192(%rsp), %xmm1
	movaps	208(%rsp), %xmm2
	movaps	224(%rsp), %xmm3
	movaps	240(%rsp), %xmm4
87:
	movaps	%xmm4, 448(%rsp)
	movaps	%xmm3, 432(%rsp)
	movaps	%xmm2, 416(%rsp)
	movdqa	%xmm1, 400(%rsp)
	jmp	27f
999:
	leaq	124(%rsp), %r15
	movl	$32, 120(%rsp)
	movl	$0, 8(%r15)
	movq	$0, (%r15)
	movq	$-1, 136(%rsp)
	xorps	%xmm0, %xmm0
	movaps	%xmm0, 160(%rsp)
	movq	$0, 176(%rsp)
	movl	$24, %ecx
	movabsq	$2951479051793528259, %r12
	movq	384(%rsp), %r8
	cmpq	$100, %r8
	movq	376(%rsp), %r13
	jb	594f
	.p2align	4
680:
	movq	%r8, %rax
	shrq	$2, %rax
	mulq	%r12
	shrq	$2, %rdx
	imull	$100, %edx, %eax
	movl	%r8d, %esi
	subl	%eax, %esi
	movzbl	%sil, %eax
	imull	$205, %eax, %esi
	shrl	$11, %esi
	leal	(%rsi,%rsi), %edi
	leal	(%rdi,%rdi,4), %edi
	subb	%dil, %al
	orb	$48, %al
	movb	%al, 159(%rsp,%rcx)
	orb	$48, %sil
	movb	%sil, 158(%rsp,%rcx)
	addq	$-2, %rcx
	cmpq	$9999, %r8
	movq	%rdx, %r8
	ja	680b
	jmp	972f
969:
	movb	$16, %al
	movq	%r14, %r13
	movq	%rbp, %r11
166:
	movzbl	%al, %esi
	jmp	90f
600:
	movq	280(%rsp), %r15
	movq	288(%rsp), %r8
	movq	296(%rsp), %rbx
	leaq	.LT4903b024(%rip), %rsi
	leaq	16(%rsp), %rdi
	movl	$5, %edx
	movq	%r15, %rcx
	movq	%r14, %r9
	jmp	649f
699:
	movq	%r11, 8(%rsp)
	movq	%rsi, 392(%rsp)
	movaps	%xmm0, 160(%rsp)
	movaps	%xmm0, 176(%rsp)
	movaps	%xmm0, 272(%rsp)
	movaps	%xmm0, 288(%rsp)
	cmpb	$1, %bpl
	jne	219f
	leaq	-2(%r8), %rcx
	leaq	272(%rsp), %rdi
	leaq	720(%rsp), %rsi
	callq	tc_edges.tm.frame.idle_frame
	cmpb	$0, 272(%rsp)
	je	781f
	movq	8(%rsp), %r11
	jmp	409f
186:
	movl	%r12d, %eax
	shrl	$18, %eax
	andb	$63, %al
	movl	$32, 120(%rsp)
	movl	$0, 8(%r15)
	movq	$0, (%r15)
	movq	$-1, 136(%rsp)
	xorps	%xmm0, %xmm0
	movaps	%xmm0, 272(%rsp)
	movq	$0, 287(%rsp)
	cmpb	$10, %al
	jb	949f
	leaq	294(%rsp), %rsi
	movzbl	%al, %ecx
	leal	(%rcx,%rcx,4), %edx
	leal	(%rdx,%rdx,4), %edx
	addl	%ecx, %edx
	shrl	$8, %edx
	leal	(%rdx,%rdx), %ecx
	leal	(%rcx,%rcx,4), %ecx
	subb	%cl, %al
	orb	$48, %dl
	movb	%dl, 294(%rsp)
	movl	$2, %edx
	jmp	204f
868:
	cmpb	$1, %bpl
	movq	%r13, 376(%rsp)
	movq	%r11, 8(%rsp)
	jne	166f
	movw	$-1, %si
	movq	%rax, %r9
	movq	%rcx, %rdi
680:
	movq	%r9, %r8
	addq	$-4, %rdi
	movzbl	2(%r9), %r9d
	movzbl	3(%r8), %r10d
	movl	%esi, %r11d
	shrl	$8, %r11d
	xorb	(%r8), %r11b
	movzbl	%r11b, %r11d
	leaq	.LT48aab116(%rip), %rbx
	xorb	1(%r8), %sil
	movzbl	%sil, %esi
	leaq	.LT33c05f58(%rip), %r14
	movzwl	(%r14,%rsi,2), %esi
	leaq	.LTbb337a2b(%rip), %r14
	leaq	.LT48c7e4e5(%rip), %r13
	xorw	(%rbx,%r11,2), %si
	xorw	(%r14,%r9,2), %si
	xorw	(%r13,%r10,2), %si
	leaq	4(%r8), %r9
	cmpq	$3, %rdi
	ja	680b
	testq	%rdi, %rdi
	je	699f
	xorl	%r9d, %r9d
	movq	376(%rsp), %r13
284:
	movzbl	4(%r8,%r9), %r10d
	movzwl	%si, %r11d
	shrl	$8, %r11d
	xorl	%r10d, %r11d
	movl	%r11d, %r10d
	shrl	$4, %r10d
	xorl	%r11d, %r10d
	shll	$8, %esi
	movl	%r10d, %r11d
	orl	%r10d, %esi
	shll	$12, %r10d
	shll	$5, %r11d
	xorl	%r10d, %esi
	xorl	%r11d, %esi
	incq	%r9
	cmpq	%r9, %rdi
	jne	284b
	jmp	978f
229:
	movsd	168(%rsp), %xmm5
	movl	172(%rsp), %eax
	movaps	176(%rsp), %xmm0
	movaps	192(%rsp), %xmm1
	movaps	%xmm1, 400(%rsp)
	movaps	208(%rsp), %xmm1
	movaps	%xmm1, 416(%rsp)
	movaps	224(%rsp), %xmm1
	movaps	%xmm1, 432(%rsp)
	movaps	240(%rsp), %xmm1
	movaps	%xmm1, 448(%rsp)
	movb	$1, %cl
	jmp	594b
237:
	movaps	464(%rsp), %xmm1
	movaps	480(%rsp), %xmm2
	movaps	496(%rsp), %xmm3
	movaps	512(%rsp), %xmm4
	movaps	%xmm4, 592(%rsp)
	movaps	%xmm3, 576(%rsp)
	movaps	%xmm2, 560(%rsp)
	movaps	%xmm1, 544(%rsp)
	movb	$1, %cl
	movq	376(%rsp), %r13
	jmp	237f
594:
	movq	%r8, %rdx
972:
	cmpq	$10, %rdx
	jb	52f
	movzbl	%dl, %eax
	imull	$205, %eax, %eax
	shrl	$11, %eax
	leal	(%rax,%rax), %esi
	leal	(%rsi,%rsi,4), %esi
	subb	%sil, %dl
	orb	$48, %dl
	movb	%dl, 159(%rsp,%rcx)
	orb	$48, %al
	movb	%al, 158(%rsp,%rcx)
	addq	$-2, %rcx
	jmp	669f
52:
	orb	$48, %dl
	movb	%dl, 159(%rsp,%rcx)
	decq	%rcx
669:
	leaq	(%rsp,%rcx), %rsi
	addq	$160, %rsi
	movb	$45, 159(%rsp,%rcx)
	movl	$24, %edx
	subq	%rcx, %rdx
	cmpq	$0, 144(%rsp)
	jne	740f
	leaq	16(%rsp), %rdi
	callq	std.io.traits.AdapterWrite.write_str._5349ec06ad6c886c
	testb	%al, %al
	jne	976f
327:
	movl	$32, 120(%rsp)
	movl	$0, 8(%r15)
	movq	$0, (%r15)
	movq	$-1, 136(%rsp)
	cmpq	$0, 144(%rsp)
	jne	917f
	leaq	.LT39c39aed(%rip), %rsi
	leaq	16(%rsp), %rdi
	movl	$10, %edx
	callq	std.io.traits.AdapterWrite.write_str._5349ec06ad6c886c
	testb	%al, %al
	movq	712(%rsp), %r8
	jne	976f
186:
	movl	$32, 120(%rsp)
	movl	$0, 8(%r15)
	movq	$0, (%r15)
	movq	$-1, 136(%rsp)
	xorps	%xmm0, %xmm0
	movaps	%xmm0, 160(%rsp)
	movq	$0, 176(%rsp)
	movl	$24, %ecx
	cmpq	$100, %r8
	jb	604f
594:
	movq	%r8, %rax
	shrq	$2, %rax
	mulq	%r12
	shrq	$2, %rdx
	imull	$100, %edx, %eax
	movl	%r8d, %esi
	subl	%eax, %esi
	movzbl	%sil, %eax
	imull	$205, %eax, %esi
	shrl	$11, %esi
	leal	(%rsi,%rsi), %edi
	leal	(%rdi,%rdi,4), %edi
	subb	%dil, %al
	orb	$48, %al
	movb	%al, 159(%rsp,%rcx)
	orb	$48, %sil
	movb	%sil, 158(%rsp,%rcx)
	addq	$-2, %rcx
	cmpq	$9999, %r8
	movq	%rdx, %r8
	ja	594b
	jmp	489f
710:
	movq	%r12, %rdi
	movq	%r13, %rsi
	movq	%r15, %rdx
	callq	memmove@PLT
	movq	%r14, %r11
	jmp	972f
981:
	movl	$6, %r14d
	movl	$6, %edi
	movl	$1, %esi
	callq	rattle_alloc@PLT
	movb	$16, %cl
	testb	$1, %al
	movq	8(%rsp), %r11
	je	552f
	movzwl	%r12w, %eax
	shll	$10, %eax
	movzbl	%bl, %ecx
	orl	%eax, %ecx
	movzwl	%cx, %eax
	orl	$327680, %eax
	shrl	$8, %ebx
	orb	$48, %bl
	movb	%bl, (%rdx)
	movl	%eax, 1(%rdx)
	movb	$0, 5(%rdx)
344:
	xorps	%xmm0, %xmm0
	movaps	%xmm0, 272(%rsp)
	movaps	%xmm0, 288(%rsp)
	movaps	%xmm0, 16(%rsp)
	movaps	%xmm0, 32(%rsp)
	movaps	%xmm0, 48(%rsp)
	movaps	%xmm0, 64(%rsp)
	movaps	%xmm0, 80(%rsp)
	movaps	%xmm0, 96(%rsp)
	movq	%rdx, 608(%rsp)
	movq	%r14, 616(%rsp)
	movq	%r14, 624(%rsp)
	movzbl	%bpl, %esi
	leaq	272(%rsp), %rdi
	leaq	608(%rsp), %rdx
	callq	tc_make.ending.Ending.end
	cmpb	$0, 272(%rsp)
	je	913f
	movzbl	274(%rsp), %edx
	movzbl	273(%rsp), %esi
	leaq	16(%rsp), %rdi
	movq	8(%rsp), %rcx
860:
	callq	tc_make.printed.write_bad._5349ec06ad6c886c
	jmp	442f
552:
	movzbl	%cl, %esi
	leaq	160(%rsp), %rdi
	xorl	%edx, %edx
	movq	%r11, %rcx
193:
	callq	tc_make.printed.write_bad._5349ec06ad6c886c
389:
	movzbl	160(%rsp), %ecx
594:
	movq	168(%rsp), %xmm5
	movl	172(%rsp), %eax
	movaps	176(%rsp), %xmm0
	movaps	192(%rsp), %xmm1
	movaps	%xmm1, 400(%rsp)
	movaps	208(%rsp), %xmm1
	movaps	%xmm1, 416(%rsp)
	movdqa	224(%rsp), %xmm1
	movdqa	%xmm1, 432(%rsp)
	movq	240(%rsp), %rdx
	movq	%rdx, 448(%rsp)
	movq	248(%rsp), %rdx
	movq	%rdx, 456(%rsp)
	jmp	27f
394:
	movb	$13, %cl
413:
	movzbl	%cl, %esi
90:
	leaq	16(%rsp), %rdi
	xorl	%edx, %edx
	movq	%r11, %rcx
	callq	tc_make.printed.write_bad._5349ec06ad6c886c
284:
	movzbl	16(%rsp), %ecx
	movq	24(%rsp), %xmm5
	movl	28(%rsp), %eax
	movaps	32(%rsp), %xmm0
	movaps	48(%rsp), %xmm1
	movaps	%xmm1, 400(%rsp)
	movaps	64(%rsp), %xmm1
	movaps	%xmm1, 416(%rsp)
	movaps	80(%rsp), %xmm1
	movaps	%xmm1, 432(%rsp)
	movdqa	96(%rsp), %xmm1
	movdqa	%xmm1, 448(%rsp)
	jmp	27f
553:
	movzbl	2(%rsi), %ecx
	movzbl	3(%rsi), %eax
	shll	$8, %eax
	movzwl	%cx, %ecx
	andl	$3, %ecx
	orl	%ecx, %eax
	rolw	$8, %ax
	cmpw	$5, %ax
	jae	689f
	leaq	.LT36d2c83f(%rip), %rsi
	movl	$6, %edx
	jmp	917b
631:
	movabsq	$8774636902218581445, %rcx
	movq	%rcx, (%rax)
378:
	movq	%rbp, %r9
	leaq	.LT24883227(%rip), %rsi
	leaq	16(%rsp), %rdi
	movl	$4, %edx
	movq	%r15, %rcx
	callq	tc_make.printed.write_named._5349ec06ad6c886c
	testq	%rbx, %rbx
	je	284b
	movq	%r15, %rdi
	jmp	860f
219:
	leaq	160(%rsp), %rdi
	leaq	720(%rsp), %rsi
	movq	%r8, %rcx
	callq	tc_edges.tm.frame.idle_frame
	cmpb	$0, 160(%rsp)
	movq	8(%rsp), %r11
	je	600f
409:
	movb	$16, %al
	movq	376(%rsp), %r13
	movzbl	%al, %esi
	jmp	90b
949:
	leaq	295(%rsp), %rsi
	movl	$1, %edx
204:
	orb	$48, %al
	movb	%al, 295(%rsp)
	movb	$45, -1(%rsi)
	cmpq	$0, 144(%rsp)
	jne	71f
	leaq	16(%rsp), %rdi
	callq	std.io.traits.AdapterWrite.write_str._5349ec06ad6c886c
	testb	%al, %al
	jne	710f
981:
	movl	$32, 120(%rsp)
	movl	$0, 8(%r15)
	movq	$0, (%r15)
	movq	$-1, 136(%rsp)
	cmpq	$0, 144(%rsp)
	jne	359f
	leaq	.LT3b969cfe(%rip), %rsi
	leaq	16(%rsp), %rdi
	movl	$8, %edx
	callq	std.io.traits.AdapterWrite.write_str._5349ec06ad6c886c
	testb	%al, %al
	jne	710f
434:
	movl	%r12d, %eax
	shrl	$26, %eax
	movl	$32, 120(%rsp)
	movl	$0, 8(%r15)
	movq	$0, (%r15)
	movq	$-1, 136(%rsp)
	xorps	%xmm0, %xmm0
	movaps	%xmm0, 272(%rsp)
	movq	$0, 286(%rsp)
	orb	$48, %al
	movb	%al, 295(%rsp)
	movb	$45, 294(%rsp)
	cmpq	$0, 144(%rsp)
	jne	90f
	leaq	295(%rsp), %rsi
	leaq	16(%rsp), %rdi
	movl	$1, %edx
	callq	std.io.traits.AdapterWrite.write_str._5349ec06ad6c886c
	testb	%al, %al
	jne	710f
509:
	movl	$32, 120(%rsp)
	movl	$0, 8(%r15)
	movq	$0, (%r15)
	movq	$-1, 136(%rsp)
	cmpq	$0, 144(%rsp)
	jne	302f
	leaq	.LT27d9cd2a(%rip), %rsi
	leaq	16(%rsp), %rdi
	movl	$6, %edx
	callq	std.io.traits.AdapterWrite.write_str._5349ec06ad6c886c
	testb	%al, %al
	jne	710f
832:
	movzwl	%r12w, %eax
	shrl	$15, %eax
	movl	$32, 120(%rsp)
	movl	$0, 8(%r15)
	movq	$0, (%r15)
	movq	$-1, 136(%rsp)
	xorps	%xmm0, %xmm0
	movaps	%xmm0, 272(%rsp)
	movq	$0, 286(%rsp)
	orb	$48, %al
	movb	%al, 295(%rsp)
	movb	$45, 294(%rsp)
	cmpq	$0, 144(%rsp)
	jne	696f
	leaq	295(%rsp), %rsi
	leaq	16(%rsp), %rdi
	movl	$1, %edx
	callq	std.io.traits.AdapterWrite.write_str._5349ec06ad6c886c
	testb	%al, %al
	jne	710f
10:
	movl	$32, 120(%rsp)
	movl	$0, 8(%r15)
	movq	$0, (%r15)
	movq	$-1, 136(%rsp)
	cmpq	$0, 144(%rsp)
	jne	570f
	leaq	.LT80600969(%rip), %rsi
	leaq	16(%rsp), %rdi
	movl	$11, %edx
	callq	std.io.traits.AdapterWrite.write_str._5349ec06ad6c886c
	testb	%al, %al
	jne	890b
933:
	movl	%r12d, %eax
	shrl	$14, %eax
	andb	$1, %al
	movl	$32, 120(%rsp)
	movl	$0, 8(%r15)
	movq	$0, (%r15)
	movq	$-1, 136(%rsp)
	xorps	%xmm0, %xmm0
	movaps	%xmm0, 272(%rsp)
	movq	$0, 286(%rsp)
	orb	$48, %al
	movb	%al, 295(%rsp)
	movb	$45, 294(%rsp)
	cmpq	$0, 144(%rsp)
	jne	455f
	leaq	295(%rsp), %rsi
	leaq	16(%rsp), %rdi
	movl	$1, %edx
	callq	std.io.traits.AdapterWrite.write_str._5349ec06ad6c886c
1:
	testb	%al, %al
	sete	%al
	jmp	913b
166:
	movzbl	4(%rax), %ebp
	addq	%rax, %rcx
	addq	$-4, %rcx
	movzbl	5(%rax), %edx
	shll	$8, %edx
	andl	$7, %ebp
	orl	%edx, %ebp
	rolw	$8, %bp
	jmp	515f
712:
	movabsq	$9223372036854775776, %rcx
	cmpq	$32, %r15
	jae	594f
	xorl	%eax, %eax
	jmp	680f
913:
	movq	280(%rsp), %r15
	movq	288(%rsp), %r8
	movq	296(%rsp), %rbx
	leaq	.LT4903b024(%rip), %rsi
	leaq	16(%rsp), %rdi
	movl	$5, %edx
	movq	%r15, %rcx
	movq	8(%rsp), %r9
649:
	callq	tc_make.printed.write_named._5349ec06ad6c886c
	testq	%rbx, %rbx
	je	442f
	movq	%r15, %rdi
	callq	rattle_dealloc@PLT
442:
	movzbl	16(%rsp), %ecx
	movups	24(%rsp), %xmm0
	movups	%xmm0, 168(%rsp)
	movups	40(%rsp), %xmm0
	movups	%xmm0, 184(%rsp)
	movups	56(%rsp), %xmm0
	movups	%xmm0, 200(%rsp)
	movups	72(%rsp), %xmm0
	movups	%xmm0, 216(%rsp)
	movups	88(%rsp), %xmm0
	movups	%xmm0, 232(%rsp)
	movq	104(%rsp), %rax
	movq	%rax, 248(%rsp)
	jmp	594b
689:
	incl	%eax
	movzwl	%ax, %edx
	subq	%rdx, %r15
	jae	219f
	leaq	.LTd923d116(%rip), %rsi
	movl	$9, %edx
	jmp	917b
594:
	movq	%r15, %rax
	andq	%rcx, %rax
	xorl	%edx, %edx
464:
	movups	(%r13,%rdx), %xmm0
	movups	16(%r13,%rdx), %xmm1
	movups	%xmm0, (%r12,%rdx)
	movups	%xmm1, 16(%r12,%rdx)
	addq	$32, %rdx
	cmpq	%rdx, %rax
	jne	464b
	cmpq	%rax, %r15
	je	972f
	testb	$28, %r15b
	je	422f
680:
	movq	%rax, %rdx
	addq	$28, %rcx
	movq	%rcx, %rax
	andq	%r15, %rax
110:
	movl	(%r13,%rdx), %ecx
	movl	%ecx, (%r12,%rdx)
	addq	$4, %rdx
	cmpq	%rdx, %rax
	jne	110b
	cmpq	%rax, %r15
	je	972f
422:
	movq	%r15, %rdx
	movq	%rax, %rcx
	andq	$3, %rdx
	je	980f
	movq	%rax, %rcx
166:
	movzbl	(%r13,%rcx), %esi
	movb	%sil, (%r12,%rcx)
	incq	%rcx
	decq	%rdx
	jne	166b
980:
	subq	%r15, %rax
	cmpq	$-4, %rax
	ja	972f
166:
	movzbl	(%r13,%rcx), %eax
	movb	%al, (%r12,%rcx)
	movzbl	1(%r13,%rcx), %eax
	movb	%al, 1(%r12,%rcx)
	movzbl	2(%r13,%rcx), %eax
	movb	%al, 2(%r12,%rcx)
	movzbl	3(%r13,%rcx), %eax
	movb	%al, 3(%r12,%rcx)
	addq	$4, %rcx
	cmpq	%rcx, %r15
	jne	166b
972:
	cmpq	$1, %r15
	jne	631f
	movb	$-1, %cl
	xorl	%eax, %eax
	movq	%rbx, %r13
	jmp	831f
631:
	movabsq	$9223372036854775776, %rdx
	orq	$30, %rdx
	andq	%r15, %rdx
	movb	$-1, %cl
	xorl	%eax, %eax
	movq	%rbx, %r13
	.p2align	4
482:
	xorb	%cl, (%r12,%rax)
	movzbl	%cl, %ecx
	leaq	.LT359fb368(%rip), %rsi
	movzbl	(%rcx,%rsi), %ecx
	xorb	%cl, 1(%r12,%rax)
	movzbl	(%rcx,%rsi), %ecx
	addq	$2, %rax
	cmpq	%rax, %rdx
	jne	482b
	testb	$1, %r15b
	je	669f
831:
	xorb	%cl, (%r12,%rax)
669:
	leaq	.LTd8c9c952(%rip), %rsi
	leaq	160(%rsp), %rdi
	movl	$6, %edx
	movq	%r12, %rcx
	movq	%r15, %r8
	movq	%r11, %r9
	callq	tc_make.printed.write_named._5349ec06ad6c886c
	movq	%r12, %rdi
	callq	rattle_dealloc@PLT
	jmp	389b
668:
	movb	$13, %al
866:
	movzbl	%al, %esi
	leaq	272(%rsp), %rdi
	xorl	%edx, %edx
	movq	%r11, %rcx
	callq	tc_make.printed.write_bad._5349ec06ad6c886c
	movzbl	272(%rsp), %ecx
268:
	movq	%rbx, %r13
913:
	movq	280(%rsp), %xmm5
	movl	284(%rsp), %eax
	movaps	288(%rsp), %xmm0
	movaps	304(%rsp), %xmm1
	movaps	%xmm1, 400(%rsp)
	movaps	320(%rsp), %xmm1
	movaps	%xmm1, 416(%rsp)
	movdqa	336(%rsp), %xmm1
	movdqa	%xmm1, 432(%rsp)
	movq	352(%rsp), %rdx
	movq	%rdx, 448(%rsp)
	movq	360(%rsp), %rdx
	movq	%rdx, 456(%rsp)
	jmp	27f
781:
	movups	280(%rsp), %xmm0
	movaps	%xmm0, 608(%rsp)
	movq	296(%rsp), %rax
	movq	%rax, 624(%rsp)
	movq	608(%rsp), %rdx
	movq	616(%rsp), %r8
	movw	$-1, %bp
	movq	%r8, %rcx
	movq	%rdx, 384(%rsp)
	cmpq	$4, %r8
	movq	392(%rsp), %rax
	jb	211f
	movw	$-1, %bp
	movq	384(%rsp), %rdx
	movq	%r8, %rcx
166:
	movzbl	2(%rdx), %edi
	movzbl	3(%rdx), %esi
	movl	%ebp, %r9d
	shrl	$8, %r9d
	xorb	(%rdx), %r9b
	xorb	1(%rdx), %bpl
	addq	$4, %rdx
	addq	$-4, %rcx
	movzbl	%r9b, %r9d
	leaq	.LT48aab116(%rip), %r10
	movzbl	%bpl, %r11d
	leaq	.LT33c05f58(%rip), %rbx
	movzwl	(%rbx,%r11,2), %ebp
	leaq	.LTbb337a2b(%rip), %r11
	xorw	(%r10,%r9,2), %bp
	xorw	(%r11,%rdi,2), %bp
	leaq	.LT48c7e4e5(%rip), %rdi
	xorw	(%rdi,%rsi,2), %bp
	cmpq	$3, %rcx
	ja	166b
211:
	testq	%rcx, %rcx
	movq	8(%rsp), %r11
	je	594f
	movzbl	(%rdx), %esi
	movzwl	%bp, %edi
	shrl	$8, %edi
	xorl	%esi, %edi
	movl	%edi, %esi
	shrl	$4, %esi
	xorl	%edi, %esi
	shll	$8, %ebp
	movl	%esi, %edi
	orl	%esi, %ebp
	shll	$12, %esi
	shll	$5, %edi
	xorl	%esi, %ebp
	xorl	%edi, %ebp
	cmpq	$1, %rcx
	je	594f
	movzbl	1(%rdx), %esi
	movzwl	%bp, %edi
	shrl	$8, %edi
	xorl	%esi, %edi
	movl	%edi, %esi
	shrl	$4, %esi
	xorl	%edi, %esi
	shll	$8, %ebp
	movl	%esi, %edi
	orl	%esi, %ebp
	shll	$12, %esi
	shll	$5, %edi
	xorl	%esi, %ebp
	xorl	%edi, %ebp
	cmpq	$2, %rcx
	je	594f
	movzbl	2(%rdx), %ecx
	movzwl	%bp, %edx
	shrl	$8, %edx
	xorl	%ecx, %edx
	movl	%edx, %ecx
	shrl	$4, %ecx
	xorl	%edx, %ecx
	shll	$8, %ebp
	movl	%ecx, %edx
	orl	%ecx, %ebp
	shll	$12, %ecx
	shll	$5, %edx
	xorl	%ecx, %ebp
	xorl	%edx, %ebp
594:
	movq	624(%rsp), %rbx
	movq	%rbx, %rcx
	subq	%r8, %rcx
	cmpq	$1, %rcx
	jbe	999f
750:
	rolw	$8, %bp
	movq	384(%rsp), %rcx
	movw	%bp, (%rcx,%r8)
	movq	%rcx, %rbp
	addq	$2, %r8
	jmp	797f
600:
	movq	168(%rsp), %rbp
	movq	176(%rsp), %r8
	movq	184(%rsp), %rbx
	movq	392(%rsp), %rax
797:
	incb	%r15b
	movq	8(%rax), %rcx
	movb	%r15b, (%rcx,%r14)
	incb	%r13b
	movq	32(%rax), %rax
	movb	%r13b, (%rax,%r12)
	leaq	.LTc0048dcc(%rip), %rsi
	leaq	16(%rsp), %rdi
	movl	$2, %edx
	movq	%rbp, %rcx
	movq	%r11, %r9
	callq	tc_make.printed.write_named._5349ec06ad6c886c
	testq	%rbx, %rbx
	movq	376(%rsp), %r13
	jne	594f
	jmp	284b
219:
	leaq	(%rsi,%rdx), %r12
	movaps	%xmm0, 272(%rsp)
	movaps	%xmm0, 288(%rsp)
	movaps	%xmm0, 304(%rsp)
	movaps	%xmm0, 320(%rsp)
	movaps	%xmm0, 336(%rsp)
	movaps	%xmm0, 352(%rsp)
	movaps	%xmm0, 464(%rsp)
	movaps	%xmm0, 480(%rsp)
	movaps	%xmm0, 608(%rsp)
	movaps	%xmm0, 624(%rsp)
	movaps	%xmm0, 640(%rsp)
	movaps	%xmm0, 656(%rsp)
	movaps	%xmm0, 672(%rsp)
	movaps	%xmm0, 688(%rsp)
	testb	%bpl, %bpl
	je	949f
	movq	%r11, %rbp
	leaq	464(%rsp), %rdi
	callq	tc_edges.fecf.frames.without_field
	cmpb	$0, 464(%rsp)
	je	966f
	movq	%r13, %r14
	movzbl	465(%rsp), %ecx
	movzbl	466(%rsp), %eax
	xorps	%xmm0, %xmm0
	movaps	%xmm0, 240(%rsp)
	movaps	%xmm0, 224(%rsp)
	movaps	%xmm0, 208(%rsp)
	movaps	%xmm0, 192(%rsp)
	movaps	%xmm0, 176(%rsp)
	movaps	%xmm0, 160(%rsp)
	leaq	.LJ648541ed_2(%rip), %rdx
	movslq	(%rdx,%rcx,4), %rsi
	addq	%rdx, %rsi
	jmpq	*%rsi
669:
	leaq	.LT6f25b05d(%rip), %rsi
	leaq	160(%rsp), %rdi
	movl	$5, %edx
	jmp	771f
699:
	movq	376(%rsp), %r13
978:
	testw	%si, %si
	je	166f
	leaq	.LT6f25b05d(%rip), %rsi
	movq	8(%rsp), %r11
	jmp	172b
166:
	movzbl	4(%rax), %ebp
	addq	%rax, %rcx
	addq	$-6, %rcx
	movzbl	5(%rax), %edx
	shll	$8, %edx
	andl	$7, %ebp
	orl	%edx, %ebp
	rolw	$8, %bp
	movq	8(%rsp), %r11
515:
	movl	(%rcx), %ecx
	movzbl	2(%rax), %r13d
	movzbl	3(%rax), %eax
	shrb	%r12b
	andb	$7, %r12b
	movl	%r15d, %ebx
	shrl	$4, %ebx
	movw	%bx, 544(%rsp)
	movb	%r12b, 546(%rsp)
	movb	%r13b, 547(%rsp)
	movb	%al, 384(%rsp)
	movb	%al, 548(%rsp)
	movb	$0, 549(%rsp)
	movw	%bp, 550(%rsp)
	movq	%rcx, 392(%rsp)
	movl	%ecx, 552(%rsp)
	xorps	%xmm0, %xmm0
	movaps	%xmm0, 512(%rsp)
	movaps	%xmm0, 496(%rsp)
	movaps	%xmm0, 480(%rsp)
	movaps	%xmm0, 464(%rsp)
	movq	%r11, 16(%rsp)
	movups	%xmm0, 24(%rsp)
	movups	%xmm0, 40(%rsp)
	movups	%xmm0, 56(%rsp)
	movups	%xmm0, 72(%rsp)
	movups	%xmm0, 88(%rsp)
	movups	%xmm0, 104(%rsp)
	leaq	124(%rsp), %r14
	movups	%xmm0, 144(%rsp)
	movl	$32, 120(%rsp)
	movq	$0, 124(%rsp)
	movl	$0, 132(%rsp)
	movq	$-1, 136(%rsp)
	leaq	.LTec6a51b3(%rip), %rsi
	leaq	16(%rsp), %rdi
	movl	$8, %edx
	callq	std.io.traits.AdapterWrite.write_str._5349ec06ad6c886c
	testb	%al, %al
	je	110f
	xorl	%eax, %eax
	movq	376(%rsp), %r13
	movq	8(%rsp), %rcx
	movq	%r14, %r15
	leaq	56(%rsp), %r14
	cmpb	$1, 24(%rsp)
	jne	15f
464:
	movups	40(%rsp), %xmm0
	movl	36(%rsp), %eax
	movq	32(%rsp), %xmm5
	movups	(%r14), %xmm1
	movups	16(%r14), %xmm2
	movups	32(%r14), %xmm3
	movups	48(%r14), %xmm4
	movaps	%xmm1, 272(%rsp)
	movaps	%xmm2, 288(%rsp)
	movaps	%xmm3, 304(%rsp)
	movaps	%xmm4, 320(%rsp)
	jmp	430f
110:
	movl	$32, 120(%rsp)
	movl	$0, 8(%r14)
	movq	$0, (%r14)
	movq	$-1, 136(%rsp)
	xorps	%xmm0, %xmm0
	movaps	%xmm0, 272(%rsp)
	movq	$0, 288(%rsp)
	cmpl	$1600, %r15d
	jb	219f
	leaq	294(%rsp), %rax
	movzwl	%bx, %ecx
	imull	$1311, %ecx, %edx
	shrl	$17, %edx
	imull	$100, %edx, %edx
	subl	%edx, %ecx
	imull	$103, %ecx, %edx
	movzwl	%dx, %edx
	shrl	$10, %edx
	leal	(%rdx,%rdx), %esi
	leal	(%rsi,%rsi,4), %esi
	subb	%sil, %cl
	orb	$48, %cl
	movb	%cl, 295(%rsp)
	orb	$48, %dl
	movb	%dl, 294(%rsp)
	shrl	$6, %r15d
	imull	$2622, %r15d, %ebx
	shrl	$16, %ebx
	movl	$22, %ecx
	jmp	129f
219:
	leaq	296(%rsp), %rax
	movl	$24, %ecx
129:
	cmpw	$10, %bx
	leaq	124(%rsp), %r15
	jb	52f
	movzbl	%bl, %edx
	imull	$205, %edx, %edx
	shrl	$11, %edx
	leal	(%rdx,%rdx), %esi
	leal	(%rsi,%rsi,4), %esi
	subb	%sil, %bl
	orb	$48, %bl
	movb	%bl, -1(%rax)
	orb	$48, %dl
	movb	%dl, -2(%rax)
	addq	$-2, %rcx
	jmp	219f
52:
	orb	$48, %bl
	movb	%bl, 271(%rsp,%rcx)
	decq	%rcx
219:
	leaq	(%rsp,%rcx), %rsi
	addq	$272, %rsi
	movb	$45, 271(%rsp,%rcx)
	movl	$24, %edx
	subq	%rcx, %rdx
	cmpq	$0, 144(%rsp)
	jne	661f
	leaq	16(%rsp), %rdi
	callq	std.io.traits.AdapterWrite.write_str._5349ec06ad6c886c
	testb	%al, %al
	movq	8(%rsp), %rcx
	jne	289f
110:
	movl	$32, 120(%rsp)
	movl	$0, 8(%r15)
	movq	$0, (%r15)
	movq	$-1, 136(%rsp)
	cmpq	$0, 144(%rsp)
	jne	459f
	leaq	.LTbd6cf3c6(%rip), %rsi
	leaq	16(%rsp), %rdi
	movl	$4, %edx
	callq	std.io.traits.AdapterWrite.write_str._5349ec06ad6c886c
	testb	%al, %al
	movq	8(%rsp), %rcx
	jne	289f
515:
	movl	$32, 120(%rsp)
	movl	$0, 8(%r15)
	movq	$0, (%r15)
	movq	$-1, 136(%rsp)
	xorps	%xmm0, %xmm0
	movaps	%xmm0, 272(%rsp)
	movq	$0, 286(%rsp)
	orb	$48, %r12b
	movb	%r12b, 295(%rsp)
	movb	$45, 294(%rsp)
	cmpq	$0, 144(%rsp)
	jne	435f
	leaq	295(%rsp), %rsi
	leaq	16(%rsp), %rdi
	movl	$1, %edx
	callq	std.io.traits.AdapterWrite.write_str._5349ec06ad6c886c
	testb	%al, %al
	movq	8(%rsp), %rcx
	jne	289f
647:
	movl	$32, 120(%rsp)
	movl	$0, 8(%r15)
	movq	$0, (%r15)
	movq	$-1, 136(%rsp)
	cmpq	$0, 144(%rsp)
	jne	347f
	leaq	.LTafa5f7c5(%rip), %rsi
	leaq	16(%rsp), %rdi
	movl	$8, %edx
	callq	std.io.traits.AdapterWrite.write_str._5349ec06ad6c886c
	testb	%al, %al
	je	110f
83:
	xorl	%eax, %eax
	movq	376(%rsp), %r13
	movq	8(%rsp), %rcx
	leaq	56(%rsp), %r14
	cmpb	$1, 24(%rsp)
	je	464b
	jmp	15f
716:
	movq	%r15, %rsi
	movq	%r12, %rdx
	callq	memmove@PLT
	movq	8(%rsp), %r11
	movq	392(%rsp), %r8
975:
	leaq	.LT841bcafc(%rip), %rsi
	leaq	16(%rsp), %rdi
	movl	$6, %edx
	movq	%rbp, %rcx
	movq	%r11, %r9
	callq	tc_make.printed.write_named._5349ec06ad6c886c
594:
	movq	%rbp, %rdi
860:
	callq	rattle_dealloc@PLT
	jmp	284b
604:
	movq	%r8, %rdx
489:
	cmpq	$10, %rdx
	jb	52f
	movzbl	%dl, %eax
	imull	$205, %eax, %eax
	shrl	$11, %eax
	leal	(%rax,%rax), %esi
	leal	(%rsi,%rsi,4), %esi
	subb	%sil, %dl
	orb	$48, %dl
	movb	%dl, 159(%rsp,%rcx)
	orb	$48, %al
	movb	%al, 158(%rsp,%rcx)
	addq	$-2, %rcx
	jmp	219f
52:
	orb	$48, %dl
	movb	%dl, 159(%rsp,%rcx)
	decq	%rcx
219:
	leaq	(%rsp,%rcx), %rsi
	addq	$160, %rsi
	movb	$45, 159(%rsp,%rcx)
	movl	$24, %edx
	subq	%rcx, %rdx
	cmpq	$0, 144(%rsp)
	jne	172f
	leaq	16(%rsp), %rdi
	callq	std.io.traits.AdapterWrite.write_str._5349ec06ad6c886c
	testb	%al, %al
	jne	976f
22:
	movl	$32, 120(%rsp)
	movl	$0, 8(%r15)
	movq	$0, (%r15)
	movq	$-1, 136(%rsp)
	cmpq	$0, 144(%rsp)
	jne	975f
	leaq	.LTec10d3fa(%rip), %rsi
	leaq	16(%rsp), %rdi
	movl	$10, %edx
	callq	std.io.traits.AdapterWrite.write_str._5349ec06ad6c886c
	testb	%al, %al
	movq	392(%rsp), %r8
	jne	976f
344:
	movl	$32, 120(%rsp)
	movl	$0, 8(%r15)
	movq	$0, (%r15)
	movq	$-1, 136(%rsp)
	xorps	%xmm0, %xmm0
	movaps	%xmm0, 160(%rsp)
	movq	$0, 176(%rsp)
	movl	$24, %ecx
	cmpq	$100, %r8
	jb	680f
594:
	movq	%r8, %rax
	shrq	$2, %rax
	mulq	%r12
	shrq	$2, %rdx
	imull	$100, %edx, %eax
	movl	%r8d, %esi
	subl	%eax, %esi
	movzbl	%sil, %eax
	imull	$205, %eax, %esi
	shrl	$11, %esi
	leal	(%rsi,%rsi), %edi
	leal	(%rdi,%rdi,4), %edi
	subb	%dil, %al
	orb	$48, %al
	movb	%al, 159(%rsp,%rcx)
	orb	$48, %sil
	movb	%sil, 158(%rsp,%rcx)
	addq	$-2, %rcx
	cmpq	$9999, %r8
	movq	%rdx, %r8
	ja	594b
	jmp	972f
740:
	leaq	16(%rsp), %rdi
	callq	core.fmt.formatter.Formatter.write_indented._1ac78889755d2eb3
	testb	%al, %al
	jne	976f
	jmp	327b
385:
	movq	%r11, 8(%rsp)
	movaps	%xmm0, 544(%rsp)
	movaps	%xmm0, 560(%rsp)
	movaps	%xmm0, 896(%rsp)
	movq	$0, 912(%rsp)
	movaps	%xmm0, 16(%rsp)
	movaps	%xmm0, 32(%rsp)
	movaps	%xmm0, 48(%rsp)
	movaps	%xmm0, 64(%rsp)
	movaps	%xmm0, 80(%rsp)
	movaps	%xmm0, 96(%rsp)
	movaps	%xmm0, 160(%rsp)
	movaps	%xmm0, 176(%rsp)
	movaps	%xmm0, 192(%rsp)
	movaps	%xmm0, 208(%rsp)
	movaps	%xmm0, 224(%rsp)
	movaps	%xmm0, 240(%rsp)
	movaps	%xmm0, 464(%rsp)
	movaps	%xmm0, 480(%rsp)
	movw	$0, 960(%rsp)
	movl	%r13d, 962(%rsp)
	xorl	%edx, %edx
	movq	%rax, 712(%rsp)
	cmpq	$1, %rax
	sete	%dl
	leal	(%rdx,%rdx,2), %eax
	movb	$1, 269(%rsp)
	movb	%al, 270(%rsp)
	movb	%r14b, 271(%rsp)
	cmpq	%rdi, %r12
	movq	%rdi, %r8
	movq	%rdi, 384(%rsp)
	cmovbq	%r12, %r8
	leaq	464(%rsp), %rdi
	leaq	960(%rsp), %rsi
	leaq	269(%rsp), %rdx
	movq	%rcx, 392(%rsp)
	callq	tc_make.frames.make_frame
	movzbl	465(%rsp), %eax
	movzbl	466(%rsp), %ecx
	movups	472(%rsp), %xmm0
	movups	%xmm0, 837(%rsp)
	movq	488(%rsp), %rdx
	movq	%rdx, 853(%rsp)
	cmpb	$0, 464(%rsp)
	jne	166f
	leaq	837(%rsp), %rcx
	movq	16(%rcx), %rax
	movq	%rax, 912(%rsp)
	movups	(%rcx), %xmm0
	movaps	%xmm0, 896(%rsp)
	movzbl	%bpl, %esi
	leaq	544(%rsp), %rdi
	leaq	896(%rsp), %rdx
	movl	%esi, 536(%rsp)
	callq	tc_make.ending.Ending.end
	cmpb	$0, 544(%rsp)
	je	871f
284:
	movzbl	545(%rsp), %eax
	movzbl	546(%rsp), %ecx
166:
	movzbl	%al, %esi
	movzbl	%cl, %edx
	leaq	160(%rsp), %rdi
	movq	8(%rsp), %rcx
	callq	tc_make.printed.write_bad._5349ec06ad6c886c
	cmpb	$0, 160(%rsp)
	je	594f
	movq	248(%rsp), %rax
	leaq	726(%rsp), %rcx
	movq	%rax, 80(%rcx)
	movq	%rcx, %rax
	movups	232(%rsp), %xmm0
	movups	%xmm0, 64(%rcx)
	movups	168(%rsp), %xmm0
	movups	184(%rsp), %xmm1
	movups	200(%rsp), %xmm2
	movups	216(%rsp), %xmm3
781:
	movups	%xmm3, 48(%rcx)
	movups	%xmm2, 32(%rcx)
	movups	%xmm1, 16(%rcx)
	movups	%xmm0, (%rcx)
	movq	%rbx, %r13
	movups	(%rax), %xmm0
	movups	16(%rax), %xmm1
	movups	32(%rax), %xmm2
	movups	48(%rax), %xmm3
	movups	%xmm0, 280(%rsp)
	movups	%xmm1, 296(%rsp)
	movups	%xmm2, 312(%rsp)
	movups	%xmm3, 328(%rsp)
	movups	64(%rax), %xmm0
	movups	%xmm0, 344(%rsp)
	movq	80(%rax), %rax
	movq	%rax, 360(%rsp)
	movb	$1, %cl
	jmp	913b
458:
	leaq	160(%rsp), %rdi
	movl	$8, %esi
	callq	std_alloc.vec.Vec.grow_amortized._5ce8f19f45e9f986
	testb	%al, %al
	je	214f
	movq	168(%rsp), %r8
	movq	176(%rsp), %rbx
	jmp	966b
949:
	leaq	272(%rsp), %rdi
	movq	%r12, %rcx
	movq	%r15, %r8
	movq	%r11, %r9
	callq	tc_make.explained.write_whole_frame._5349ec06ad6c886c
	movzbl	272(%rsp), %ecx
	jmp	913f
71:
	leaq	16(%rsp), %rdi
	callq	core.fmt.formatter.Formatter.write_indented._1ac78889755d2eb3
	testb	%al, %al
	jne	710f
	jmp	981b
966:
	movq	%r13, %r14
	movq	472(%rsp), %r13
	movq	480(%rsp), %rdx
	movq	488(%rsp), %rbx
	leaq	608(%rsp), %rdi
	movq	%r13, %rsi
	movq	%r12, %rcx
	movq	%r15, %r8
	movq	%rbp, %r9
	callq	tc_make.explained.write_whole_frame._5349ec06ad6c886c
	testq	%rbx, %rbx
	je	389f
	movq	%r13, %rdi
	callq	rattle_dealloc@PLT
	jmp	389f
778:
	cmpq	$32, %r12
	jae	981f
	xorl	%eax, %eax
	jmp	966f
917:
	leaq	.LT39c39aed(%rip), %rsi
	leaq	16(%rsp), %rdi
	movl	$10, %edx
	callq	core.fmt.formatter.Formatter.write_indented._1ac78889755d2eb3
	testb	%al, %al
	movq	712(%rsp), %r8
	je	186b
	jmp	976f
680:
	movq	%r8, %rdx
972:
	cmpq	$10, %rdx
	jb	52f
	movzbl	%dl, %eax
	imull	$205, %eax, %eax
	shrl	$11, %eax
	leal	(%rax,%rax), %esi
	leal	(%rsi,%rsi,4), %esi
	subb	%sil, %dl
	orb	$48, %dl
	movb	%dl, 159(%rsp,%rcx)
	orb	$48, %al
	movb	%al, 158(%rsp,%rcx)
	addq	$-2, %rcx
	jmp	219f
52:
	orb	$48, %dl
	movb	%dl, 159(%rsp,%rcx)
	decq	%rcx
219:
	leaq	(%rsp,%rcx), %rsi
	addq	$160, %rsi
	movb	$45, 159(%rsp,%rcx)
	movl	$24, %edx
	subq	%rcx, %rdx
	cmpq	$0, 144(%rsp)
	jne	740f
	leaq	16(%rsp), %rdi
	callq	std.io.traits.AdapterWrite.write_str._5349ec06ad6c886c
	testb	%al, %al
	jne	976f
327:
	movl	$32, 120(%rsp)
	movl	$0, 8(%r15)
	movq	$0, (%r15)
	movq	$-1, 136(%rsp)
	cmpq	$0, 144(%rsp)
	jne	92f
	leaq	.LT3235efc0(%rip), %rsi
	leaq	16(%rsp), %rdi
	movl	$1, %edx
	callq	std.io.traits.AdapterWrite.write_str._5349ec06ad6c886c
186:
	movl	%eax, %r14d
	jmp	976f
594:
	movq	%rbx, %r13
	movq	695(%rsp), %rax
	movq	%rax, 360(%rsp)
	movups	679(%rsp), %xmm0
	movups	%xmm0, 344(%rsp)
	movups	615(%rsp), %xmm0
	movups	631(%rsp), %xmm1
	movups	647(%rsp), %xmm2
	movups	663(%rsp), %xmm3
	movups	%xmm3, 328(%rsp)
	movups	%xmm2, 312(%rsp)
	movups	%xmm1, 296(%rsp)
	movups	%xmm0, 280(%rsp)
	xorl	%ecx, %ecx
	jmp	913b
359:
	leaq	.LT3b969cfe(%rip), %rsi
	leaq	16(%rsp), %rdi
	movl	$8, %edx
	callq	core.fmt.formatter.Formatter.write_indented._1ac78889755d2eb3
	testb	%al, %al
	je	434b
	jmp	710f
661:
	leaq	16(%rsp), %rdi
	callq	core.fmt.formatter.Formatter.write_indented._1ac78889755d2eb3
	testb	%al, %al
	movq	8(%rsp), %rcx
	jne	289f
	jmp	110b
981:
	movl	%r12d, %eax
	andl	$131040, %eax
	xorl	%ecx, %ecx
54:
	movups	(%r15,%rcx), %xmm0
	movups	16(%r15,%rcx), %xmm1
	movups	%xmm0, 6(%rbp,%rcx)
	movups	%xmm1, 22(%rbp,%rcx)
	addq	$32, %rcx
	cmpq	%rcx, %rax
	jne	54b
	cmpq	%rax, %r12
	je	975b
	testb	$28, %r12b
	je	771b
966:
	movq	%rax, %rcx
	movl	%r12d, %eax
	andl	$131068, %eax
981:
	movl	(%r15,%rcx), %edx
	movl	%edx, (%rdi,%rcx)
	addq	$4, %rcx
	cmpq	%rcx, %rax
	jne	981b
	cmpq	%rax, %r12
	je	975b
	jmp	771b
172:
	leaq	16(%rsp), %rdi
	callq	core.fmt.formatter.Formatter.write_indented._1ac78889755d2eb3
	testb	%al, %al
	jne	976f
	jmp	22b
14:
	shll	$3, %eax
	leaq	.Lswitch.table.tc_make.answer.answer._5349ec06ad6c886c(%rip), %rdx
	movq	(%rax,%rdx), %rdx
	leaq	.Lswitch.table.tc_make.answer.answer._5349ec06ad6c886c_.639(%rip), %rsi
	movq	(%rax,%rsi), %rsi
	leaq	160(%rsp), %rdi
	jmp	771f
219:
	leaq	.LT68d2e1d5(%rip), %rsi
	leaq	160(%rsp), %rdi
	movl	$4, %edx
771:
	movq	%rbp, %rcx
	callq	tc_make.printed.write_refused._5349ec06ad6c886c
552:
	movzbl	160(%rsp), %eax
	movb	%al, 608(%rsp)
	movups	168(%rsp), %xmm0
	movups	%xmm0, 616(%rsp)
	movups	184(%rsp), %xmm0
	movups	%xmm0, 632(%rsp)
	movups	200(%rsp), %xmm0
	movups	%xmm0, 648(%rsp)
	movups	216(%rsp), %xmm0
	movups	%xmm0, 664(%rsp)
	movups	232(%rsp), %xmm0
	movups	%xmm0, 680(%rsp)
	movq	248(%rsp), %rax
	movq	%rax, 696(%rsp)
389:
	movzbl	608(%rsp), %ecx
	movups	616(%rsp), %xmm0
	movups	%xmm0, 280(%rsp)
	movups	632(%rsp), %xmm0
	movups	%xmm0, 296(%rsp)
	movups	648(%rsp), %xmm0
	movups	%xmm0, 312(%rsp)
	movups	664(%rsp), %xmm0
	movups	%xmm0, 328(%rsp)
	movups	680(%rsp), %xmm0
	movups	%xmm0, 344(%rsp)
	movq	696(%rsp), %rax
	movq	%rax, 360(%rsp)
	movq	%r14, %r13
913:
	movq	360(%rsp), %rax
	movq	%rax, 808(%rsp)
	movups	344(%rsp), %xmm0
	movups	%xmm0, 792(%rsp)
	movups	280(%rsp), %xmm0
	movups	296(%rsp), %xmm1
	movups	312(%rsp), %xmm2
	movups	328(%rsp), %xmm3
	movups	%xmm3, 776(%rsp)
	movups	%xmm2, 760(%rsp)
	movups	%xmm1, 744(%rsp)
	movups	%xmm0, 728(%rsp)
	jmp	871b
680:
	movaps	%xmm0, 16(%rsp)
	movaps	%xmm0, 32(%rsp)
	movaps	%xmm0, 48(%rsp)
	movaps	%xmm0, 64(%rsp)
	movaps	%xmm0, 80(%rsp)
	movaps	%xmm0, 96(%rsp)
	movw	$16, 832(%rsp)
	leaq	832(%rsp), %rax
	movq	%rax, 544(%rsp)
	leaq	.LT3235efc0(%rip), %rax
	movq	%rax, 552(%rsp)
	movq	$1, 560(%rsp)
	leaq	16(%rsp), %rdi
	leaq	544(%rsp), %rdx
	movq	%rbp, %rsi
	callq	std.io.traits.Write.write_fmt._7427d210d622371f
	movzbl	16(%rsp), %eax
	movb	%al, 160(%rsp)
	movups	24(%rsp), %xmm0
	movups	%xmm0, 168(%rsp)
	movups	40(%rsp), %xmm0
	movups	%xmm0, 184(%rsp)
	movups	56(%rsp), %xmm0
	movups	%xmm0, 200(%rsp)
	movups	72(%rsp), %xmm0
	movups	%xmm0, 216(%rsp)
	movups	88(%rsp), %xmm0
	movups	%xmm0, 232(%rsp)
	movq	104(%rsp), %rax
	movq	%rax, 248(%rsp)
	jmp	552b
999:
	leaq	608(%rsp), %rdi
	movl	$2, %esi
	callq	std_alloc.vec.Vec.grow_amortized._5ce8f19f45e9f986
	testb	%al, %al
	je	214f
	movq	608(%rsp), %rax
	movq	%rax, 384(%rsp)
	movq	616(%rsp), %r8
	movq	624(%rsp), %rbx
	movq	392(%rsp), %rax
	movq	8(%rsp), %r11
	jmp	750b
90:
	leaq	295(%rsp), %rsi
	leaq	16(%rsp), %rdi
	movl	$1, %edx
	callq	core.fmt.formatter.Formatter.write_indented._1ac78889755d2eb3
	testb	%al, %al
	jne	710f
	jmp	509b
871:
	movq	552(%rsp), %rcx
	movq	568(%rsp), %rbp
	movq	560(%rsp), %r8
	leaq	.LT4903b024(%rip), %rsi
	leaq	16(%rsp), %rdi
	movl	$5, %edx
	movq	%rcx, 824(%rsp)
	movq	8(%rsp), %r9
	callq	tc_make.printed.write_named._5349ec06ad6c886c
	cmpb	$0, 16(%rsp)
	je	211f
949:
	leaq	24(%rsp), %r14
	testq	%rbp, %rbp
	je	966f
	movq	824(%rsp), %rdi
	callq	rattle_dealloc@PLT
966:
	movq	80(%r14), %rax
	leaq	726(%rsp), %rcx
	movq	%rax, 80(%rcx)
	movq	%rcx, %rax
	movups	64(%r14), %xmm0
	movups	%xmm0, 64(%rcx)
	movups	(%r14), %xmm0
	movups	16(%r14), %xmm1
	movups	32(%r14), %xmm2
	movups	48(%r14), %xmm3
	jmp	781b
459:
	leaq	.LTbd6cf3c6(%rip), %rsi
	leaq	16(%rsp), %rdi
	movl	$4, %edx
	callq	core.fmt.formatter.Formatter.write_indented._1ac78889755d2eb3
	testb	%al, %al
	movq	8(%rsp), %rcx
	je	515b
	jmp	289f
975:
	leaq	.LTec10d3fa(%rip), %rsi
	leaq	16(%rsp), %rdi
	movl	$10, %edx
	callq	core.fmt.formatter.Formatter.write_indented._1ac78889755d2eb3
	testb	%al, %al
	movq	392(%rsp), %r8
	je	344b
	jmp	976f
302:
	leaq	.LT27d9cd2a(%rip), %rsi
	leaq	16(%rsp), %rdi
	movl	$6, %edx
	callq	core.fmt.formatter.Formatter.write_indented._1ac78889755d2eb3
	testb	%al, %al
	je	832b
	jmp	710f
211:
	testq	%rbp, %rbp
	je	231f
	movq	824(%rsp), %rdi
	callq	rattle_dealloc@PLT
231:
	xorps	%xmm0, %xmm0
	movups	%xmm0, 790(%rsp)
	movups	%xmm0, 774(%rsp)
	movups	%xmm0, 758(%rsp)
	movups	%xmm0, 742(%rsp)
	movups	%xmm0, 726(%rsp)
	movq	$0, 806(%rsp)
	movq	712(%rsp), %rax
	cmpl	$1, %eax
	movq	392(%rsp), %rcx
	movq	384(%rsp), %r8
	je	638b
	decq	%rax
	movq	%rax, 1032(%rsp)
	subq	%r12, %r8
	addq	%r12, %rcx
	movl	%r13d, %eax
	shrl	$24, %eax
	movq	%rax, 1024(%rsp)
	movl	$1, %ebp
	jmp	22f
231:
	xorps	%xmm0, %xmm0
	leaq	726(%rsp), %rax
	movups	%xmm0, 64(%rax)
	movups	%xmm0, 48(%rax)
	movups	%xmm0, 32(%rax)
	movups	%xmm0, 16(%rax)
	movups	%xmm0, (%rax)
	movq	$0, 80(%rax)
	movq	1040(%rsp), %rbp
	incq	%rbp
	movq	384(%rsp), %r8
	subq	%r12, %r8
	movq	392(%rsp), %rcx
	addq	%r12, %rcx
	cmpq	%rbp, 712(%rsp)
	je	638b
22:
	xorps	%xmm0, %xmm0
	movaps	%xmm0, 544(%rsp)
	movaps	%xmm0, 560(%rsp)
	movaps	%xmm0, 896(%rsp)
	movq	$0, 912(%rsp)
	movaps	%xmm0, 16(%rsp)
	movaps	%xmm0, 32(%rsp)
	movaps	%xmm0, 48(%rsp)
	movaps	%xmm0, 64(%rsp)
	movaps	%xmm0, 80(%rsp)
	movaps	%xmm0, 96(%rsp)
	movaps	%xmm0, 160(%rsp)
	movaps	%xmm0, 176(%rsp)
	movaps	%xmm0, 192(%rsp)
	movaps	%xmm0, 208(%rsp)
	movaps	%xmm0, 224(%rsp)
	movaps	%xmm0, 240(%rsp)
	movaps	%xmm0, 464(%rsp)
	movaps	%xmm0, 480(%rsp)
	movq	1024(%rsp), %rax
	addl	%ebp, %eax
	movw	$0, 960(%rsp)
	movw	%r13w, 962(%rsp)
	movb	%r15b, 964(%rsp)
	movb	%al, 965(%rsp)
	cmpq	%rbp, 1032(%rsp)
	sete	%al
	incb	%al
	movb	$1, 269(%rsp)
	movb	%al, 270(%rsp)
	movb	%r14b, 271(%rsp)
	cmpq	%r8, %r12
	movq	%r8, 384(%rsp)
	cmovbq	%r12, %r8
	leaq	464(%rsp), %rdi
	leaq	960(%rsp), %rsi
	leaq	269(%rsp), %rdx
	movq	%rcx, 392(%rsp)
	callq	tc_make.frames.make_frame
	movzbl	465(%rsp), %eax
	movzbl	466(%rsp), %ecx
	cmpb	$0, 464(%rsp)
	leaq	472(%rsp), %rdi
	movq	16(%rdi), %rdx
	leaq	837(%rsp), %rsi
	movq	%rdx, 16(%rsi)
	movups	(%rdi), %xmm0
	movups	%xmm0, (%rsi)
	jne	166b
	movq	%rbp, 1040(%rsp)
	movq	16(%rsi), %rax
	movq	%rax, 912(%rsp)
	movups	(%rsi), %xmm0
	movaps	%xmm0, 896(%rsp)
	leaq	544(%rsp), %rdi
	leaq	896(%rsp), %rdx
	movl	536(%rsp), %esi
	callq	tc_make.ending.Ending.end
	cmpb	$0, 544(%rsp)
	jne	284b
	movq	552(%rsp), %rcx
	movq	568(%rsp), %rbp
	movq	560(%rsp), %r8
	leaq	.LT4903b024(%rip), %rsi
	leaq	16(%rsp), %rdi
	movl	$5, %edx
	movq	%rcx, 824(%rsp)
	movq	8(%rsp), %r9
	callq	tc_make.printed.write_named._5349ec06ad6c886c
	cmpb	$0, 16(%rsp)
	jne	949b
	testq	%rbp, %rbp
	je	231b
	movq	824(%rsp), %rdi
	callq	rattle_dealloc@PLT
	jmp	231b
435:
	leaq	295(%rsp), %rsi
	leaq	16(%rsp), %rdi
	movl	$1, %edx
	callq	core.fmt.formatter.Formatter.write_indented._1ac78889755d2eb3
	testb	%al, %al
	movq	8(%rsp), %rcx
	je	647b
289:
	xorl	%eax, %eax
	movq	376(%rsp), %r13
	leaq	56(%rsp), %r14
	cmpb	$1, 24(%rsp)
	je	464b
15:
	testb	%al, %al
	je	87f
	xorps	%xmm0, %xmm0
	movaps	%xmm0, 768(%rsp)
	movaps	%xmm0, 752(%rsp)
	movaps	%xmm0, 736(%rsp)
	movaps	%xmm0, 720(%rsp)
	movq	392(%rsp), %rax
	andl	$128, %eax
	movq	%rax, 392(%rsp)
	leaq	.LTd51b947e(%rip), %rax
	leaq	.LT9561cdf1(%rip), %r12
	cmoveq	%rax, %r12
	movaps	%xmm0, 608(%rsp)
	movaps	%xmm0, 624(%rsp)
	movaps	%xmm0, 640(%rsp)
	movaps	%xmm0, 656(%rsp)
	movq	%rcx, 16(%rsp)
	movups	%xmm0, 24(%rsp)
	movups	%xmm0, 40(%rsp)
	movups	%xmm0, 56(%rsp)
	movups	%xmm0, 72(%rsp)
	movups	%xmm0, 88(%rsp)
	movups	%xmm0, 104(%rsp)
	movups	%xmm0, 144(%rsp)
	movl	$32, 120(%rsp)
	movq	$0, 124(%rsp)
	movl	$0, 132(%rsp)
	movq	$-1, 136(%rsp)
	leaq	.LT42d834cb(%rip), %rsi
	leaq	16(%rsp), %rdi
	movl	$9, %edx
	callq	std.io.traits.AdapterWrite.write_str._5349ec06ad6c886c
	movb	$1, %dl
	testb	%al, %al
	jne	284f
	movl	$32, 120(%rsp)
	movl	$0, 8(%r15)
	movq	$0, (%r15)
	movq	$-1, 136(%rsp)
	xorps	%xmm0, %xmm0
	movaps	%xmm0, 272(%rsp)
	movq	$0, 288(%rsp)
	cmpw	$100, %bp
	jb	949f
	leaq	294(%rsp), %rax
	movzwl	%bp, %ecx
	imull	$1311, %ecx, %ebp
	shrl	$17, %ebp
	imull	$100, %ebp, %edx
	subl	%edx, %ecx
	imull	$103, %ecx, %edx
	movzwl	%dx, %edx
	shrl	$10, %edx
	leal	(%rdx,%rdx), %esi
	leal	(%rsi,%rsi,4), %esi
	subb	%sil, %cl
	orb	$48, %cl
	movb	%cl, 295(%rsp)
	orb	$48, %dl
	movb	%dl, 294(%rsp)
	movl	$22, %ecx
	jmp	129f
87:
	movaps	.LC648541ed_0(%rip), %xmm0
	movaps	%xmm0, 320(%rsp)
	movaps	%xmm0, 304(%rsp)
	movaps	%xmm0, 288(%rsp)
	movaps	%xmm0, 272(%rsp)
	movaps	.LC648541ed_1(%rip), %xmm0
	movd	.LC648541ed_3(%rip), %xmm5
	xorl	%eax, %eax
430:
	movaps	272(%rsp), %xmm1
	movaps	288(%rsp), %xmm2
	movaps	304(%rsp), %xmm3
	movaps	320(%rsp), %xmm4
	jmp	368f
949:
	leaq	296(%rsp), %rax
	movl	$24, %ecx
129:
	cmpw	$10, %bp
	jb	52f
	movzbl	%bpl, %edx
	imull	$205, %edx, %edx
	shrl	$11, %edx
	leal	(%rdx,%rdx), %esi
	leal	(%rsi,%rsi,4), %esi
	subb	%sil, %bpl
	orb	$48, %bpl
	movb	%bpl, -1(%rax)
	orb	$48, %dl
	movb	%dl, -2(%rax)
	addq	$-2, %rcx
	jmp	949f
52:
	orb	$48, %bpl
	movb	%bpl, 271(%rsp,%rcx)
	decq	%rcx
949:
	leaq	(%rsp,%rcx), %rsi
	addq	$272, %rsi
	movb	$45, 271(%rsp,%rcx)
	movl	$24, %edx
	subq	%rcx, %rdx
	cmpq	$0, 144(%rsp)
	jne	949f
	leaq	16(%rsp), %rdi
	callq	std.io.traits.AdapterWrite.write_str._5349ec06ad6c886c
	testb	%al, %al
	movb	$1, %dl
	jne	284f
981:
	movl	$32, 120(%rsp)
	movl	$0, 8(%r15)
	movq	$0, (%r15)
	movq	$-1, 136(%rsp)
	cmpq	$0, 144(%rsp)
	jne	917f
	leaq	.LT37337163(%rip), %rsi
	leaq	16(%rsp), %rdi
	movl	$1, %edx
	callq	std.io.traits.AdapterWrite.write_str._5349ec06ad6c886c
	testb	%al, %al
	jne	409f
638:
	movq	%r13, %rbx
	movq	392(%rsp), %rdx
	shrl	$6, %edx
	orq	$4, %rdx
	movl	$32, 120(%rsp)
	movl	$0, 8(%r15)
	movq	%r15, %rbp
	movq	$0, (%r15)
	movq	$-1, 136(%rsp)
	cmpq	$0, 144(%rsp)
	jne	661f
	leaq	16(%rsp), %rdi
	movq	%r12, %rsi
	callq	std.io.traits.AdapterWrite.write_str._5349ec06ad6c886c
	testb	%al, %al
	jne	966f
434:
	movl	$32, 120(%rsp)
	movl	$0, 8(%rbp)
	movq	$0, (%rbp)
	movq	$-1, 136(%rsp)
	cmpq	$0, 144(%rsp)
	jne	90f
	leaq	.LT37337163(%rip), %rsi
	leaq	16(%rsp), %rdi
	movl	$1, %edx
	callq	std.io.traits.AdapterWrite.write_str._5349ec06ad6c886c
	testb	%al, %al
	je	975f
966:
	movq	%rbx, %r13
409:
	movb	$1, %dl
284:
	movzbl	24(%rsp), %ecx
	movq	32(%rsp), %xmm5
	movl	36(%rsp), %eax
	movups	40(%rsp), %xmm0
	xorps	%xmm1, %xmm1
	movaps	%xmm1, 320(%rsp)
	movaps	%xmm1, 304(%rsp)
	movaps	%xmm1, 288(%rsp)
	movaps	%xmm1, 272(%rsp)
	cmpb	$1, %cl
	jne	289f
	movups	(%r14), %xmm1
	movups	16(%r14), %xmm2
	movups	32(%r14), %xmm3
	movups	48(%r14), %xmm4
	movaps	%xmm4, 320(%rsp)
	movaps	%xmm3, 304(%rsp)
	movaps	%xmm2, 288(%rsp)
	movaps	%xmm1, 272(%rsp)
	jmp	969f
289:
	xorl	%eax, %eax
	testb	%dl, %dl
	je	231f
	movaps	.LC648541ed_0(%rip), %xmm0
	movaps	%xmm0, 320(%rsp)
	movaps	%xmm0, 304(%rsp)
	movaps	%xmm0, 288(%rsp)
	movaps	%xmm0, 272(%rsp)
	movaps	.LC648541ed_1(%rip), %xmm0
	movd	.LC648541ed_3(%rip), %xmm5
969:
	movb	$1, %cl
87:
	movaps	272(%rsp), %xmm1
	movaps	288(%rsp), %xmm2
	movaps	304(%rsp), %xmm3
	movaps	320(%rsp), %xmm4
	movaps	%xmm1, 720(%rsp)
	movaps	%xmm2, 736(%rsp)
	movaps	%xmm4, 512(%rsp)
	movaps	%xmm3, 496(%rsp)
	movaps	%xmm2, 480(%rsp)
	movaps	%xmm1, 464(%rsp)
	movaps	464(%rsp), %xmm1
	movaps	480(%rsp), %xmm2
	movaps	496(%rsp), %xmm3
	movaps	512(%rsp), %xmm4
	movaps	%xmm4, 240(%rsp)
	movaps	%xmm3, 224(%rsp)
	movaps	%xmm2, 208(%rsp)
	movaps	%xmm1, 192(%rsp)
	jmp	196b
231:
	xorps	%xmm0, %xmm0
	pxor	%xmm5, %xmm5
	xorl	%ecx, %ecx
	jmp	87b
949:
	leaq	16(%rsp), %rdi
	callq	core.fmt.formatter.Formatter.write_indented._1ac78889755d2eb3
	testb	%al, %al
	movb	$1, %dl
	jne	284b
	jmp	981b
740:
	leaq	16(%rsp), %rdi
	callq	core.fmt.formatter.Formatter.write_indented._1ac78889755d2eb3
	testb	%al, %al
	je	327b
976:
	movzbl	24(%rsp), %ecx
	movq	32(%rsp), %xmm5
	movl	36(%rsp), %eax
	movups	40(%rsp), %xmm0
	xorps	%xmm1, %xmm1
	movaps	%xmm1, 208(%rsp)
	movaps	%xmm1, 192(%rsp)
	movaps	%xmm1, 176(%rsp)
	movaps	%xmm1, 160(%rsp)
	cmpb	$1, %cl
	jne	289f
	leaq	56(%rsp), %rcx
	movups	(%rcx), %xmm1
	movups	16(%rcx), %xmm2
	movups	32(%rcx), %xmm3
	movups	48(%rcx), %xmm4
	movaps	%xmm4, 208(%rsp)
	movaps	%xmm3, 192(%rsp)
	movaps	%xmm2, 176(%rsp)
	movaps	%xmm1, 160(%rsp)
	jmp	969f
289:
	xorl	%eax, %eax
	testb	%r14b, %r14b
	je	231f
	movaps	.LC648541ed_0(%rip), %xmm0
	movaps	%xmm0, 208(%rsp)
	movaps	%xmm0, 192(%rsp)
	movaps	%xmm0, 176(%rsp)
	movaps	%xmm0, 160(%rsp)
	movaps	.LC648541ed_1(%rip), %xmm0
	movd	.LC648541ed_3(%rip), %xmm5
969:
	movb	$1, %cl
87:
	movaps	160(%rsp), %xmm1
	movaps	176(%rsp), %xmm2
	movaps	192(%rsp), %xmm3
	movaps	208(%rsp), %xmm4
	movaps	%xmm1, 608(%rsp)
	movaps	%xmm2, 624(%rsp)
	movaps	%xmm4, 768(%rsp)
	movaps	%xmm3, 752(%rsp)
	movaps	%xmm2, 736(%rsp)
	movaps	%xmm1, 720(%rsp)
	movaps	720(%rsp), %xmm1
	movaps	736(%rsp), %xmm2
	movaps	752(%rsp), %xmm3
	movaps	768(%rsp), %xmm4
	movaps	%xmm4, 592(%rsp)
	movaps	%xmm3, 576(%rsp)
	movaps	%xmm2, 560(%rsp)
	movaps	%xmm1, 544(%rsp)
237:
	movaps	544(%rsp), %xmm1
	movaps	560(%rsp), %xmm2
	movaps	576(%rsp), %xmm3
	movaps	592(%rsp), %xmm4
	movaps	%xmm1, 832(%rsp)
	movaps	%xmm2, 848(%rsp)
	movaps	%xmm3, 864(%rsp)
	movaps	%xmm4, 880(%rsp)
282:
	movdqa	832(%rsp), %xmm1
	movaps	848(%rsp), %xmm2
	movaps	864(%rsp), %xmm3
	movaps	880(%rsp), %xmm4
587:
	movdqa	%xmm1, 400(%rsp)
	movaps	%xmm2, 416(%rsp)
	movaps	%xmm3, 432(%rsp)
	movaps	%xmm4, 448(%rsp)
27:
	movb	%cl, (%r13)
	movd	%xmm5, 8(%r13)
	movl	%eax, 12(%r13)
	movups	%xmm0, 16(%r13)
	movaps	400(%rsp), %xmm0
	movaps	416(%rsp), %xmm1
	movaps	432(%rsp), %xmm2
	movq	448(%rsp), %rax
	movq	456(%rsp), %rcx
	movups	%xmm0, 32(%r13)
	movups	%xmm1, 48(%r13)
	movups	%xmm2, 64(%r13)
	movq	%rax, 80(%r13)
	movq	%rcx, 88(%r13)
	addq	$1048, %rsp
	popq	%rbx
	popq	%r12
	popq	%r13
	popq	%r14
	popq	%r15
	popq	%rbp
	retq
231:
	xorps	%xmm0, %xmm0
	pxor	%xmm5, %xmm5
	xorl	%ecx, %ecx
	jmp	87b
696:
	leaq	295(%rsp), %rsi
	leaq	16(%rsp), %rdi
	movl	$1, %edx
	callq	core.fmt.formatter.Formatter.write_indented._1ac78889755d2eb3
	testb	%al, %al
	je	10b
710:
	movq	%rbx, %rcx
	xorl	%eax, %eax
384:
	leaq	56(%rsp), %r14
	cmpb	$1, 24(%rsp)
	jne	922f
	movups	40(%rsp), %xmm0
	movl	36(%rsp), %eax
	movq	32(%rsp), %xmm5
	movups	(%r14), %xmm1
	movups	16(%r14), %xmm2
	movups	32(%r14), %xmm3
	movups	48(%r14), %xmm4
	movaps	%xmm1, 832(%rsp)
	movaps	%xmm2, 848(%rsp)
	movaps	%xmm3, 864(%rsp)
	movaps	%xmm4, 880(%rsp)
	jmp	430f
922:
	testb	%al, %al
	je	87f
	xorps	%xmm0, %xmm0
	movaps	%xmm0, 592(%rsp)
	movaps	%xmm0, 576(%rsp)
	movaps	%xmm0, 560(%rsp)
	movaps	%xmm0, 544(%rsp)
	movq	%rcx, 16(%rsp)
	movups	%xmm0, 24(%rsp)
	movups	%xmm0, 40(%rsp)
	movups	%xmm0, 56(%rsp)
	movups	%xmm0, 72(%rsp)
	movups	%xmm0, 88(%rsp)
	movups	%xmm0, 104(%rsp)
	movups	%xmm0, 144(%rsp)
	movl	$32, 120(%rsp)
	movq	$0, 124(%rsp)
	movl	$0, 132(%rsp)
	movq	$-1, 136(%rsp)
	leaq	.LT8d0368cc(%rip), %rsi
	leaq	16(%rsp), %rdi
	movl	$9, %edx
	callq	std.io.traits.AdapterWrite.write_str._5349ec06ad6c886c
	testb	%al, %al
	je	327f
289:
	xorl	%eax, %eax
771:
	movq	%rbx, %rcx
	jmp	868f
87:
	movaps	.LC648541ed_0(%rip), %xmm0
	movaps	%xmm0, 880(%rsp)
	movaps	%xmm0, 864(%rsp)
	movaps	%xmm0, 848(%rsp)
	movaps	%xmm0, 832(%rsp)
	movaps	.LC648541ed_1(%rip), %xmm0
	movd	.LC648541ed_3(%rip), %xmm5
	xorl	%eax, %eax
430:
	movaps	832(%rsp), %xmm1
	movaps	848(%rsp), %xmm2
	movaps	864(%rsp), %xmm3
	movaps	880(%rsp), %xmm4
368:
	movaps	%xmm1, 192(%rsp)
	movaps	%xmm2, 208(%rsp)
	movaps	%xmm3, 224(%rsp)
	movaps	%xmm4, 240(%rsp)
	movb	$1, %cl
	jmp	196b
327:
	movl	%r12d, %eax
	shrl	$13, %eax
	andb	$1, %al
	movl	$32, 120(%rsp)
	movl	$0, 8(%r15)
	movq	$0, (%r15)
	movq	$-1, 136(%rsp)
	xorps	%xmm0, %xmm0
	movaps	%xmm0, 272(%rsp)
	movq	$0, 286(%rsp)
	orb	$48, %al
	movb	%al, 295(%rsp)
	movb	$45, 294(%rsp)
	cmpq	$0, 144(%rsp)
	jne	949f
	leaq	295(%rsp), %rsi
	leaq	16(%rsp), %rdi
	movl	$1, %edx
	callq	std.io.traits.AdapterWrite.write_str._5349ec06ad6c886c
	testb	%al, %al
	jne	771f
327:
	movl	$32, 120(%rsp)
	movl	$0, 8(%r15)
	movq	$0, (%r15)
	movq	$-1, 136(%rsp)
	cmpq	$0, 144(%rsp)
	jne	740f
	leaq	.LTb6ef8972(%rip), %rsi
	leaq	16(%rsp), %rdi
	movl	$6, %edx
	callq	std.io.traits.AdapterWrite.write_str._5349ec06ad6c886c
	testb	%al, %al
	jne	771f
981:
	movl	%r12d, %eax
	shrl	$12, %eax
	andb	$1, %al
	movl	$32, 120(%rsp)
	movl	$0, 8(%r15)
	movq	$0, (%r15)
	movq	$-1, 136(%rsp)
	xorps	%xmm0, %xmm0
	movaps	%xmm0, 272(%rsp)
	movq	$0, 286(%rsp)
	orb	$48, %al
	movb	%al, 295(%rsp)
	movb	$45, 294(%rsp)
	cmpq	$0, 144(%rsp)
	jne	71f
	leaq	295(%rsp), %rsi
	leaq	16(%rsp), %rdi
	movl	$1, %edx
	callq	std.io.traits.AdapterWrite.write_str._5349ec06ad6c886c
	testb	%al, %al
	jne	771f
509:
	movl	$32, 120(%rsp)
	movl	$0, 8(%r15)
	movq	$0, (%r15)
	movq	$-1, 136(%rsp)
	cmpq	$0, 144(%rsp)
	jne	359f
	leaq	.LT3ff918de(%rip), %rsi
	leaq	16(%rsp), %rdi
	movl	$12, %edx
	callq	std.io.traits.AdapterWrite.write_str._5349ec06ad6c886c
	testb	%al, %al
	jne	289b
10:
	movl	%r12d, %eax
	shrl	$11, %eax
	andb	$1, %al
	movl	$32, 120(%rsp)
	movl	$0, 8(%r15)
	movq	$0, (%r15)
	movq	$-1, 136(%rsp)
	xorps	%xmm0, %xmm0
	movaps	%xmm0, 272(%rsp)
	movq	$0, 286(%rsp)
	orb	$48, %al
	movb	%al, 295(%rsp)
	movb	$45, 294(%rsp)
	cmpq	$0, 144(%rsp)
	jne	999f
	leaq	295(%rsp), %rsi
	leaq	16(%rsp), %rdi
	movl	$1, %edx
	callq	std.io.traits.AdapterWrite.write_str._5349ec06ad6c886c
922:
	testb	%al, %al
	sete	%al
	jmp	771b
949:
	leaq	295(%rsp), %rsi
	leaq	16(%rsp), %rdi
	movl	$1, %edx
	callq	core.fmt.formatter.Formatter.write_indented._1ac78889755d2eb3
	testb	%al, %al
	jne	771f
	jmp	327b
740:
	leaq	.LTb6ef8972(%rip), %rsi
	leaq	16(%rsp), %rdi
	movl	$6, %edx
	callq	core.fmt.formatter.Formatter.write_indented._1ac78889755d2eb3
	testb	%al, %al
	je	981b
	jmp	771f
71:
	leaq	295(%rsp), %rsi
	leaq	16(%rsp), %rdi
	movl	$1, %edx
	callq	core.fmt.formatter.Formatter.write_indented._1ac78889755d2eb3
	testb	%al, %al
	je	509b
771:
	movq	%rbx, %rcx
	xorl	%eax, %eax
868:
	cmpb	$1, 24(%rsp)
	jne	458f
	movups	40(%rsp), %xmm0
	movl	36(%rsp), %eax
	movq	32(%rsp), %xmm5
	movups	(%r14), %xmm1
	movups	16(%r14), %xmm2
	movups	32(%r14), %xmm3
	movups	48(%r14), %xmm4
	movaps	%xmm1, 464(%rsp)
	movaps	%xmm2, 480(%rsp)
	movaps	%xmm3, 496(%rsp)
	movaps	%xmm4, 512(%rsp)
	jmp	430f
458:
	testb	%al, %al
	je	87f
	xorps	%xmm0, %xmm0
	movaps	%xmm0, 768(%rsp)
	movaps	%xmm0, 752(%rsp)
	movaps	%xmm0, 736(%rsp)
	movaps	%xmm0, 720(%rsp)
	movaps	%xmm0, 608(%rsp)
	movaps	%xmm0, 624(%rsp)
	movaps	%xmm0, 640(%rsp)
	movaps	%xmm0, 656(%rsp)
	movq	%rcx, 16(%rsp)
	movups	%xmm0, 24(%rsp)
	movups	%xmm0, 40(%rsp)
	movups	%xmm0, 56(%rsp)
	movups	%xmm0, 72(%rsp)
	movups	%xmm0, 88(%rsp)
	movups	%xmm0, 104(%rsp)
	movups	%xmm0, 144(%rsp)
	movl	$32, 120(%rsp)
	movq	$0, 124(%rsp)
	movl	$0, 132(%rsp)
	movq	$-1, 136(%rsp)
	leaq	.LTa613f50b(%rip), %rsi
	leaq	16(%rsp), %rdi
	movl	$7, %edx
	callq	std.io.traits.AdapterWrite.write_str._5349ec06ad6c886c
	movb	$1, %bpl
	testb	%al, %al
	jne	231f
	movl	%r12d, %eax
	shrl	$9, %eax
	andb	$3, %al
	movl	$32, 120(%rsp)
	movl	$0, 8(%r15)
	movq	$0, (%r15)
	movq	$-1, 136(%rsp)
	xorps	%xmm0, %xmm0
	movaps	%xmm0, 272(%rsp)
	movq	$0, 286(%rsp)
	orb	$48, %al
	movb	%al, 295(%rsp)
	movb	$45, 294(%rsp)
	cmpq	$0, 144(%rsp)
	jne	740f
	leaq	295(%rsp), %rsi
	leaq	16(%rsp), %rdi
	movl	$1, %edx
	callq	std.io.traits.AdapterWrite.write_str._5349ec06ad6c886c
	testb	%al, %al
	jne	231f
327:
	movl	$32, 120(%rsp)
	movl	$0, 8(%r15)
	movq	$0, (%r15)
	movq	$-1, 136(%rsp)
	cmpq	$0, 144(%rsp)
	jne	71f
	leaq	.LTd2821792(%rip), %rsi
	leaq	16(%rsp), %rdi
	movl	$4, %edx
	callq	std.io.traits.AdapterWrite.write_str._5349ec06ad6c886c
	testb	%al, %al
	jne	231f
771:
	movq	%r13, %rbx
	movl	$32, 120(%rsp)
	movl	$0, 8(%r15)
	movq	$0, (%r15)
	movq	$-1, 136(%rsp)
	xorps	%xmm0, %xmm0
	movaps	%xmm0, 272(%rsp)
	movq	$0, 288(%rsp)
	cmpb	$100, %r12b
	jb	981f
	movzbl	%r12b, %eax
	leal	(%rax,%rax,4), %ecx
	leal	(%rax,%rcx,8), %ecx
	shrl	$12, %ecx
	imull	$100, %ecx, %eax
	subb	%al, %r12b
	movzbl	%r12b, %eax
	imull	$205, %eax, %edx
	shrl	$11, %edx
	leal	(%rdx,%rdx), %esi
	leal	(%rsi,%rsi,4), %esi
	subb	%sil, %al
	orb	$48, %al
	movb	%al, 295(%rsp)
	orb	$48, %dl
	movb	%dl, 294(%rsp)
	movl	$21, %eax
	movl	%ecx, %r12d
	jmp	52f
87:
	movaps	.LC648541ed_0(%rip), %xmm0
	movaps	%xmm0, 512(%rsp)
	movaps	%xmm0, 496(%rsp)
	movaps	%xmm0, 480(%rsp)
	movaps	%xmm0, 464(%rsp)
	movaps	.LC648541ed_1(%rip), %xmm0
	movd	.LC648541ed_3(%rip), %xmm5
	xorl	%eax, %eax
430:
	movaps	464(%rsp), %xmm1
	movaps	480(%rsp), %xmm2
	movaps	496(%rsp), %xmm3
	movaps	512(%rsp), %xmm4
	movaps	%xmm1, 896(%rsp)
	movaps	%xmm2, 912(%rsp)
	movaps	%xmm3, 928(%rsp)
	movaps	%xmm4, 944(%rsp)
	movb	$1, %cl
	jmp	430f
981:
	movl	$23, %eax
	cmpb	$10, %r12b
	jb	52f
	movzbl	%r12b, %eax
	imull	$205, %eax, %eax
	shrl	$11, %eax
	leal	(%rax,%rax), %ecx
	leal	(%rcx,%rcx,4), %ecx
	subb	%cl, %r12b
	orb	$48, %r12b
	movb	%r12b, 295(%rsp)
	orb	$48, %al
	movb	%al, 294(%rsp)
	movl	$22, %eax
	jmp	949f
52:
	orb	$48, %r12b
	movb	%r12b, 272(%rsp,%rax)
949:
	leaq	(%rsp,%rax), %rsi
	addq	$272, %rsi
	movb	$45, 271(%rsp,%rax)
	movl	$24, %edx
	subq	%rax, %rdx
	cmpq	$0, 144(%rsp)
	jne	172f
	leaq	16(%rsp), %rdi
	callq	std.io.traits.AdapterWrite.write_str._5349ec06ad6c886c
	testb	%al, %al
	movq	%rbx, %r13
	xorps	%xmm1, %xmm1
	jne	166f
981:
	movl	$32, 120(%rsp)
	movl	$0, 8(%r15)
	movq	$0, (%r15)
	movq	$-1, 136(%rsp)
	cmpq	$0, 144(%rsp)
	jne	458f
	leaq	.LT3235efc0(%rip), %rsi
	leaq	16(%rsp), %rdi
	movl	$1, %edx
	callq	std.io.traits.AdapterWrite.write_str._5349ec06ad6c886c
509:
	movl	%eax, %ebp
	movq	%rbx, %r13
	jmp	231f
740:
	leaq	295(%rsp), %rsi
	leaq	16(%rsp), %rdi
	movl	$1, %edx
	callq	core.fmt.formatter.Formatter.write_indented._1ac78889755d2eb3
	testb	%al, %al
	jne	231f
	jmp	327b
917:
	leaq	.LT37337163(%rip), %rsi
	leaq	16(%rsp), %rdi
	movl	$1, %edx
	callq	core.fmt.formatter.Formatter.write_indented._1ac78889755d2eb3
	testb	%al, %al
	jne	409b
	jmp	638b
347:
	leaq	.LTafa5f7c5(%rip), %rsi
	leaq	16(%rsp), %rdi
	movl	$8, %edx
	callq	core.fmt.formatter.Formatter.write_indented._1ac78889755d2eb3
	testb	%al, %al
	jne	83b
110:
	movl	$32, 120(%rsp)
	movl	$0, 8(%r15)
	movq	$0, (%r15)
	movq	$-1, 136(%rsp)
	xorps	%xmm0, %xmm0
	movaps	%xmm0, 272(%rsp)
	movq	$0, 288(%rsp)
	cmpb	$100, %r13b
	jb	327f
	movzbl	%r13b, %eax
	leal	(%rax,%rax,4), %ecx
	leal	(%rax,%rcx,8), %ecx
	shrl	$12, %ecx
	imull	$100, %ecx, %eax
	subb	%al, %r13b
	movzbl	%r13b, %eax
	imull	$205, %eax, %edx
	shrl	$11, %edx
	leal	(%rdx,%rdx), %esi
	leal	(%rsi,%rsi,4), %esi
	subb	%sil, %al
	orb	$48, %al
	movb	%al, 295(%rsp)
	orb	$48, %dl
	movb	%dl, 294(%rsp)
	movl	$21, %eax
	movl	%ecx, %r13d
	jmp	52f
327:
	movl	$23, %eax
	cmpb	$10, %r13b
	jb	52f
	movzbl	%r13b, %eax
	imull	$205, %eax, %eax
	shrl	$11, %eax
	leal	(%rax,%rax), %ecx
	leal	(%rcx,%rcx,4), %ecx
	subb	%cl, %r13b
	orb	$48, %r13b
	movb	%r13b, 295(%rsp)
	orb	$48, %al
	movb	%al, 294(%rsp)
	movl	$22, %eax
	jmp	949f
52:
	orb	$48, %r13b
	movb	%r13b, 272(%rsp,%rax)
949:
	leaq	(%rsp,%rax), %rsi
	addq	$272, %rsi
	movb	$45, 271(%rsp,%rax)
	movl	$24, %edx
	subq	%rax, %rdx
	cmpq	$0, 144(%rsp)
	jne	949f
	leaq	16(%rsp), %rdi
	callq	std.io.traits.AdapterWrite.write_str._5349ec06ad6c886c
	testb	%al, %al
	jne	83f
327:
	movl	$32, 120(%rsp)
	leaq	124(%rsp), %rax
	movl	$0, 8(%rax)
	movq	$0, (%rax)
	movq	$-1, 136(%rsp)
	cmpq	$0, 144(%rsp)
	jne	740f
	leaq	.LT41cae141(%rip), %rsi
	leaq	16(%rsp), %rdi
	movl	$9, %edx
	callq	std.io.traits.AdapterWrite.write_str._5349ec06ad6c886c
	testb	%al, %al
	je	186f
83:
	xorl	%eax, %eax
638:
	movq	376(%rsp), %r13
	movq	8(%rsp), %rcx
	leaq	124(%rsp), %r15
	leaq	56(%rsp), %r14
	cmpb	$1, 24(%rsp)
	je	464b
	jmp	15b
71:
	leaq	.LTd2821792(%rip), %rsi
	leaq	16(%rsp), %rdi
	movl	$4, %edx
	callq	core.fmt.formatter.Formatter.write_indented._1ac78889755d2eb3
	testb	%al, %al
	je	771b
231:
	xorps	%xmm1, %xmm1
166:
	movzbl	24(%rsp), %ecx
	movq	32(%rsp), %xmm5
	movl	36(%rsp), %eax
	movups	40(%rsp), %xmm0
	movaps	%xmm1, 320(%rsp)
	movaps	%xmm1, 304(%rsp)
	movaps	%xmm1, 288(%rsp)
	movaps	%xmm1, 272(%rsp)
	cmpb	$1, %cl
	jne	57f
	movups	(%r14), %xmm1
	movups	16(%r14), %xmm2
	movups	32(%r14), %xmm3
	movups	48(%r14), %xmm4
	movaps	%xmm4, 320(%rsp)
	movaps	%xmm3, 304(%rsp)
	movaps	%xmm2, 288(%rsp)
	movaps	%xmm1, 272(%rsp)
	jmp	409f
57:
	xorl	%eax, %eax
	testb	%bpl, %bpl
	je	231f
	movaps	.LC648541ed_0(%rip), %xmm0
	movaps	%xmm0, 320(%rsp)
	movaps	%xmm0, 304(%rsp)
	movaps	%xmm0, 288(%rsp)
	movaps	%xmm0, 272(%rsp)
	movaps	.LC648541ed_1(%rip), %xmm0
	movd	.LC648541ed_3(%rip), %xmm5
409:
	movb	$1, %cl
87:
	movaps	272(%rsp), %xmm1
	movaps	288(%rsp), %xmm2
	movaps	304(%rsp), %xmm3
	movaps	320(%rsp), %xmm4
	movaps	%xmm1, 720(%rsp)
	movaps	%xmm2, 736(%rsp)
	movaps	%xmm4, 592(%rsp)
	movaps	%xmm3, 576(%rsp)
	movaps	%xmm2, 560(%rsp)
	movaps	%xmm1, 544(%rsp)
	movaps	544(%rsp), %xmm1
	movaps	560(%rsp), %xmm2
	movaps	576(%rsp), %xmm3
	movaps	592(%rsp), %xmm4
	movaps	%xmm4, 944(%rsp)
	movaps	%xmm3, 928(%rsp)
	movaps	%xmm2, 912(%rsp)
	movaps	%xmm1, 896(%rsp)
430:
	movaps	896(%rsp), %xmm1
	movaps	912(%rsp), %xmm2
	movaps	928(%rsp), %xmm3
	movaps	944(%rsp), %xmm4
	movaps	%xmm1, 192(%rsp)
	movaps	%xmm2, 208(%rsp)
	movaps	%xmm3, 224(%rsp)
	movaps	%xmm4, 240(%rsp)
	jmp	196b
231:
	xorps	%xmm0, %xmm0
	pxor	%xmm5, %xmm5
	xorl	%ecx, %ecx
	jmp	87b
92:
	leaq	.LT3235efc0(%rip), %rsi
	leaq	16(%rsp), %rdi
	movl	$1, %edx
	callq	core.fmt.formatter.Formatter.write_indented._1ac78889755d2eb3
	jmp	186b
359:
	leaq	.LT3ff918de(%rip), %rsi
	leaq	16(%rsp), %rdi
	movl	$12, %edx
	callq	core.fmt.formatter.Formatter.write_indented._1ac78889755d2eb3
	testb	%al, %al
	jne	289b
	jmp	10b
570:
	leaq	.LT80600969(%rip), %rsi
	leaq	16(%rsp), %rdi
	movl	$11, %edx
	callq	core.fmt.formatter.Formatter.write_indented._1ac78889755d2eb3
	testb	%al, %al
	jne	890b
	jmp	933b
661:
	leaq	16(%rsp), %rdi
	movq	%r12, %rsi
	callq	core.fmt.formatter.Formatter.write_indented._1ac78889755d2eb3
	testb	%al, %al
	jne	966b
	jmp	434b
949:
	leaq	16(%rsp), %rdi
	callq	core.fmt.formatter.Formatter.write_indented._1ac78889755d2eb3
	testb	%al, %al
	jne	83b
	jmp	327b
172:
	leaq	16(%rsp), %rdi
	callq	core.fmt.formatter.Formatter.write_indented._1ac78889755d2eb3
	testb	%al, %al
	movq	%rbx, %r13
	xorps	%xmm1, %xmm1
	jne	166b
	jmp	981b
999:
	leaq	295(%rsp), %rsi
	leaq	16(%rsp), %rdi
	movl	$1, %edx
	callq	core.fmt.formatter.Formatter.write_indented._1ac78889755d2eb3
	jmp	922b
455:
	leaq	295(%rsp), %rsi
	leaq	16(%rsp), %rdi
	movl	$1, %edx
	callq	core.fmt.formatter.Formatter.write_indented._1ac78889755d2eb3
	jmp	1b
90:
	leaq	.LT37337163(%rip), %rsi
	leaq	16(%rsp), %rdi
	movl	$1, %edx
	callq	core.fmt.formatter.Formatter.write_indented._1ac78889755d2eb3
	testb	%al, %al
	jne	966b
975:
	leaq	552(%rsp), %rdi
	movl	$32, 120(%rsp)
	movl	$0, 8(%rbp)
	movq	$0, (%rbp)
	movq	$-1, 136(%rsp)
	leaq	16(%rsp), %rdx
	movl	$4, %esi
	callq	tc_lines.digits.DigitsDisplay.fmt._1ac78889755d2eb3
	testb	%al, %al
	movq	%rbx, %r13
	movb	$1, %dl
	jne	284b
	movl	$32, 120(%rsp)
	movl	$0, 8(%rbp)
	movq	$0, (%rbp)
	movq	$-1, 136(%rsp)
	cmpq	$0, 144(%rsp)
	jne	71f
	leaq	.LT3235efc0(%rip), %rsi
	leaq	16(%rsp), %rdi
	movl	$1, %edx
	callq	std.io.traits.AdapterWrite.write_str._5349ec06ad6c886c
327:
	movl	%eax, %edx
	movq	%rbx, %r13
	jmp	284b
740:
	leaq	.LT41cae141(%rip), %rsi
	leaq	16(%rsp), %rdi
	movl	$9, %edx
	callq	core.fmt.formatter.Formatter.write_indented._1ac78889755d2eb3
	testb	%al, %al
	jne	83b
186:
	movl	$32, 120(%rsp)
	leaq	124(%rsp), %rax
	movl	$0, 8(%rax)
	movq	$0, (%rax)
	movq	$-1, 136(%rsp)
	xorps	%xmm0, %xmm0
	movaps	%xmm0, 272(%rsp)
	movq	$0, 288(%rsp)
	cmpb	$100, 384(%rsp)
	jb	186f
	movzbl	384(%rsp), %edx
	movzbl	%dl, %eax
	leal	(%rax,%rax,4), %ecx
	leal	(%rax,%rcx,8), %ecx
	shrl	$12, %ecx
	imull	$100, %ecx, %eax
	subb	%al, %dl
	movzbl	%dl, %eax
	imull	$205, %eax, %edx
	shrl	$11, %edx
	leal	(%rdx,%rdx), %esi
	leal	(%rsi,%rsi,4), %esi
	subb	%sil, %al
	orb	$48, %al
	movb	%al, 295(%rsp)
	orb	$48, %dl
	movb	%dl, 294(%rsp)
	movl	$21, %eax
	movb	%cl, 384(%rsp)
	jmp	284f
186:
	movl	$23, %eax
	cmpb	$10, 384(%rsp)
	jb	284f
	movzbl	384(%rsp), %edx
	movzbl	%dl, %eax
	imull	$205, %eax, %eax
	shrl	$11, %eax
	leal	(%rax,%rax), %ecx
	leal	(%rcx,%rcx,4), %ecx
	subb	%cl, %dl
	orb	$48, %dl
	movb	%dl, 295(%rsp)
	orb	$48, %al
	movb	%al, 294(%rsp)
	movl	$22, %eax
	jmp	949f
284:
	movzbl	384(%rsp), %ecx
	orb	$48, %cl
	movb	%cl, 272(%rsp,%rax)
949:
	leaq	(%rsp,%rax), %rsi
	addq	$272, %rsi
	movb	$45, 271(%rsp,%rax)
	movl	$24, %edx
	subq	%rax, %rdx
	cmpq	$0, 144(%rsp)
	jne	949f
	leaq	16(%rsp), %rdi
	callq	std.io.traits.AdapterWrite.write_str._5349ec06ad6c886c
1:
	testb	%al, %al
	sete	%al
	jmp	638b
458:
	leaq	.LT3235efc0(%rip), %rsi
	leaq	16(%rsp), %rdi
	movl	$1, %edx
	callq	core.fmt.formatter.Formatter.write_indented._1ac78889755d2eb3
	jmp	509b
949:
	leaq	16(%rsp), %rdi
	callq	core.fmt.formatter.Formatter.write_indented._1ac78889755d2eb3
	jmp	1b
71:
	leaq	.LT3235efc0(%rip), %rsi
	leaq	16(%rsp), %rdi
	movl	$1, %edx
	callq	core.fmt.formatter.Formatter.write_indented._1ac78889755d2eb3
	jmp	327b
214:
	ud2
	.section	.rodata.tc_make.answer.answer._5349ec06ad6c886c,"a",@progbits
	.p2align	2
.LJ648541ed_0:
	.long	777b-.LJ648541ed_0
	.long	254b-.LJ648541ed_0
	.long	961b-.LJ648541ed_0
	.long	634b-.LJ648541ed_0
	.long	12b-.LJ648541ed_0
	.long	586b-.LJ648541ed_0
	.long	271b-.LJ648541ed_0
	.long	678b-.LJ648541ed_0
	.long	589b-.LJ648541ed_0
	.long	471b-.LJ648541ed_0
	.long	209b-.LJ648541ed_0
	.long	859b-.LJ648541ed_0
	.long	648b-.LJ648541ed_0
	.long	548b-.LJ648541ed_0
	.long	928b-.LJ648541ed_0
.LJ648541ed_1:
	.long	833b-.LJ648541ed_1
	.long	629b-.LJ648541ed_1
	.long	833b-.LJ648541ed_1
	.long	400b-.LJ648541ed_1
	.long	677b-.LJ648541ed_1
.LJ648541ed_2:
	.long	14b-.LJ648541ed_2
	.long	219b-.LJ648541ed_2
	.long	669b-.LJ648541ed_2
	.long	669b-.LJ648541ed_2
	.long	669b-.LJ648541ed_2
	.long	680b-.LJ648541ed_2
	.section	.rodata.cst16,"aM",@progbits,16
	.p2align	4
.LCc7f8b103_0:
	.zero	16,46
.LCc7f8b103_1:
	.quad	7310596056926023526
	.quad	3346860010425884786
.LCc7f8b103_2:
	.byte	2
	.byte	41
	.byte	15
	.byte	0
	.zero	1
	.zero	1
	.zero	1
	.zero	1
	.zero	1
	.zero	1
	.zero	1
	.zero	1
	.zero	1
	.zero	1
	.zero	1
	.zero	1
.LCc7f8b103_3:
	.byte	2
	.byte	41
	.byte	15
	.byte	0
	.byte	0
	.byte	0
	.byte	0
	.byte	0
	.byte	0
	.byte	0
	.byte	0
	.byte	0
	.byte	0
	.byte	0
	.byte	0
	.byte	0
	.section	.text.tc_make.printed.write_named._5349ec06ad6c886c,"ax",@progbits
	.p2align	4
tc_make.printed.write_named._5349ec06ad6c886c:
	pushq	%rbp
	pushq	%r15
	pushq	%r14
	pushq	%r12
	pushq	%rbx
	subq	$336, %rsp
	movq	%r8, %r14
	movq	%rcx, %r15
	movq	%rdi, %rbx
	xorps	%xmm0, %xmm0
	movaps	%xmm0, 256(%rsp)
	movaps	%xmm0, 240(%rsp)
	movaps	%xmm0, 224(%rsp)
	movaps	%xmm0, 208(%rsp)
	movaps	%xmm0, 272(%rsp)
	movaps	%xmm0, 288(%rsp)
	movaps	%xmm0, 304(%rsp)
	movaps	%xmm0, 320(%rsp)
	movq	%r9, 64(%rsp)
	movups	%xmm0, 72(%rsp)
	movups	%xmm0, 88(%rsp)
	movups	%xmm0, 104(%rsp)
	movups	%xmm0, 120(%rsp)
	movups	%xmm0, 136(%rsp)
	movups	%xmm0, 152(%rsp)
	movups	%xmm0, 192(%rsp)
	movl	$32, 168(%rsp)
	movq	$0, 172(%rsp)
	movl	$0, 180(%rsp)
	movq	$-1, 184(%rsp)
	leaq	64(%rsp), %rdi
	callq	std.io.traits.AdapterWrite.write_str._5349ec06ad6c886c
	movb	$1, %bpl
	testb	%al, %al
	jne	548f
	leaq	172(%rsp), %r12
	movl	$32, 168(%rsp)
	movl	$0, 8(%r12)
	movq	$0, (%r12)
	movq	$-1, 184(%rsp)
	cmpq	$0, 192(%rsp)
	jne	669f
	leaq	.LT37337163(%rip), %rsi
	leaq	64(%rsp), %rdi
	movl	$1, %edx
	callq	std.io.traits.AdapterWrite.write_str._5349ec06ad6c886c
	testb	%al, %al
	jne	548f
327:
	movl	$32, 168(%rsp)
	movl	$0, 8(%r12)
	movq	$0, (%r12)
	movq	$-1, 184(%rsp)
	leaq	64(%rsp), %rdx
	movq	%r15, %rdi
	movq	%r14, %rsi
	callq	tc_lines.digits.DigitsDisplay.fmt._1ac78889755d2eb3
	testb	%al, %al
	jne	548f
	movl	$32, 168(%rsp)
	movl	$0, 8(%r12)
	movq	$0, (%r12)
	movq	$-1, 184(%rsp)
	cmpq	$0, 192(%rsp)
	jne	219f
	leaq	.LT3235efc0(%rip), %rsi
	leaq	64(%rsp), %rdi
	movl	$1, %edx
	callq	std.io.traits.AdapterWrite.write_str._5349ec06ad6c886c
186:
	movl	%eax, %ebp
548:
	movzbl	72(%rsp), %ecx
	movsd	80(%rsp), %xmm1
	movl	84(%rsp), %eax
	movups	88(%rsp), %xmm0
	xorps	%xmm2, %xmm2
	movaps	%xmm2, 48(%rsp)
	movaps	%xmm2, 32(%rsp)
	movaps	%xmm2, 16(%rsp)
	movaps	%xmm2, (%rsp)
	cmpb	$1, %cl
	jne	890f
	leaq	104(%rsp), %rcx
	movups	(%rcx), %xmm2
	movups	16(%rcx), %xmm3
	movups	32(%rcx), %xmm4
	movups	48(%rcx), %xmm5
	movaps	%xmm5, 48(%rsp)
	movaps	%xmm4, 32(%rsp)
	movaps	%xmm3, 16(%rsp)
	movaps	%xmm2, (%rsp)
	jmp	409f
890:
	xorl	%eax, %eax
	testb	%bpl, %bpl
	je	231f
	movaps	.LCc7f8b103_0(%rip), %xmm0
	movaps	%xmm0, 48(%rsp)
	movaps	%xmm0, 32(%rsp)
	movaps	%xmm0, 16(%rsp)
	movaps	%xmm0, (%rsp)
	movaps	.LCc7f8b103_1(%rip), %xmm0
	movss	.LCc7f8b103_3(%rip), %xmm1
409:
	movb	$1, %cl
680:
	movaps	(%rsp), %xmm2
	movaps	16(%rsp), %xmm3
	movaps	32(%rsp), %xmm4
	movaps	48(%rsp), %xmm5
	movaps	%xmm2, 208(%rsp)
	movaps	%xmm3, 224(%rsp)
	movaps	%xmm4, 240(%rsp)
	movaps	%xmm5, 256(%rsp)
	movb	%cl, (%rbx)
	movss	%xmm1, 8(%rbx)
	movl	%eax, 12(%rbx)
	movups	%xmm0, 16(%rbx)
	movaps	208(%rsp), %xmm0
	movaps	224(%rsp), %xmm1
	movaps	240(%rsp), %xmm2
	movaps	256(%rsp), %xmm3
	movups	%xmm0, 32(%rbx)
	movups	%xmm1, 48(%rbx)
	movups	%xmm2, 64(%rbx)
	movups	%xmm3, 80(%rbx)
	addq	$336, %rsp
	popq	%rbx
	popq	%r12
	popq	%r14
	popq	%r15
	popq	%rbp
	retq
231:
	xorps	%xmm0, %xmm0
	xorps	%xmm1, %xmm1
	xorl	%ecx, %ecx
	jmp	680b
669:
	leaq	.LT37337163(%rip), %rsi
	leaq	64(%rsp), %rdi
	movl	$1, %edx
	callq	core.fmt.formatter.Formatter.write_indented._1ac78889755d2eb3
	testb	%al, %al
	je	327b
	jmp	548b
219:
	leaq	.LT3235efc0(%rip), %rsi
	leaq	64(%rsp), %rdi
	movl	$1, %edx
	callq	core.fmt.formatter.Formatter.write_indented._1ac78889755d2eb3
	jmp	186b
	.section	.text.tc_make.frames.make_frame,"ax",@progbits
	.p2align	4
tc_make.frames.make_frame:
	pushq	%rbp
	pushq	%r15
	pushq	%r14
	pushq	%r13
	pushq	%r12
	pushq	%rbx
	subq	$40, %rsp
	movzwl	2(%rsi), %r15d
	cmpl	$1024, %r15d
	jb	548f
	movw	$1793, (%rdi)
	jmp	409f
548:
	movzbl	4(%rsi), %r14d
	cmpw	$64, %r14w
	jb	868f
	movw	$2049, (%rdi)
409:
	movb	$0, 2(%rdi)
	xorps	%xmm0, %xmm0
	movups	%xmm0, 8(%rdi)
	movq	$0, 24(%rdi)
	jmp	850f
868:
	cmpb	$1, (%rdx)
	jne	409f
	movzbl	2(%rdx), %ebp
	movb	$1, %r12b
	cmpb	$63, %bpl
	jbe	972f
	movb	$9, %r15b
	jmp	890f
409:
	movb	$1, %r12b
	testq	%r8, %r8
	je	969f
	cmpq	$1019, %r8
	ja	409f
	movq	%rcx, 32(%rsp)
	movq	%rdi, 8(%rsp)
	movzbl	(%rsi), %eax
	movl	%eax, 16(%rsp)
	movzbl	1(%rsi), %eax
	movl	%eax, 20(%rsp)
	movzbl	5(%rsi), %r13d
	movq	%r8, 24(%rsp)
	leaq	5(%r8), %rbp
	movl	$1, %esi
	movq	%rbp, %rdi
	callq	rattle_alloc@PLT
	testb	$1, %al
	je	394f
	movq	%rdx, %rbx
	shll	$24, %r13d
	movq	24(%rsp), %rdx
	leal	4(%rdx), %eax
	movzbl	%al, %eax
	shll	$16, %eax
	movzwl	%r14w, %ecx
	shll	$10, %ecx
	addl	%edx, %ecx
	addl	$4, %ecx
	andl	$-256, %ecx
	movzbl	%r15b, %esi
	orl	%ecx, %esi
	movzwl	%si, %ecx
	orl	%eax, %ecx
	orl	%r13d, %ecx
	movzwl	16(%rsp), %esi
	shll	$13, %esi
	movzwl	20(%rsp), %eax
	shll	$12, %eax
	orl	%esi, %eax
	orl	%r15d, %eax
	movb	%ah, (%rbx)
	movl	%ecx, 1(%rbx)
	leaq	5(%rbx), %rax
	movq	%rax, %rcx
	movq	32(%rsp), %rsi
	subq	%rsi, %rcx
	cmpq	%rdx, %rcx
	jae	859f
	cmpq	$4, %rdx
	jae	12f
	xorl	%ecx, %ecx
	movq	8(%rsp), %rdi
	jmp	648f
972:
	cmpq	$1018, %r8
	jbe	928f
409:
	movb	$14, %r15b
	jmp	890f
969:
	movb	$13, %r15b
890:
	xorl	%ebx, %ebx
	xorl	%ebp, %ebp
409:
	movb	%r12b, (%rdi)
	movb	%r15b, 1(%rdi)
	movb	$0, 2(%rdi)
	movq	%rbx, 8(%rdi)
	movq	%rbp, 16(%rdi)
	movq	%rbp, 24(%rdi)
850:
	addq	$40, %rsp
	popq	%rbx
	popq	%r12
	popq	%r13
	popq	%r14
	popq	%r15
	popq	%rbp
	retq
928:
	movq	%rsi, %r13
	movq	%rcx, %r15
	movq	%rdi, 8(%rsp)
	movzbl	1(%rdx), %ebx
	movq	%r8, 24(%rsp)
	leaq	1(%r8), %rdi
	movl	$1, %esi
	movq	%rdi, 32(%rsp)
	callq	rattle_alloc@PLT
	testb	$1, %al
	je	394f
	movq	%rdx, %r14
	shll	$3, %ebx
	movl	$-1065353152, %eax
	movl	%ebx, %ecx
	shrl	%cl, %eax
	orb	%al, %bpl
	movb	%bpl, (%rdx)
	movq	%rdx, %rdi
	incq	%rdi
	movq	%rdi, %rax
	movq	%r15, %rsi
	subq	%r15, %rax
	movq	24(%rsp), %rdx
	cmpq	%rdx, %rax
	jae	271f
	cmpq	$4, %rdx
	movq	%r13, %rax
	jb	890f
	movq	%r14, %rcx
	subq	%rsi, %rcx
	incq	%rcx
	cmpq	$32, %rcx
	jae	778f
890:
	xorl	%ecx, %ecx
928:
	movq	%rdx, %r9
	movq	%rcx, %r8
	andq	$3, %r9
	je	980f
	movq	%rcx, %r8
548:
	movzbl	(%rsi,%r8), %r10d
	movb	%r10b, (%rdi,%r8)
	incq	%r8
	decq	%r9
	jne	548b
980:
	subq	%rdx, %rcx
	cmpq	$-4, %rcx
	ja	471f
548:
	movzbl	(%rsi,%r8), %ecx
	movb	%cl, 1(%r14,%r8)
	movzbl	1(%rsi,%r8), %ecx
	movb	%cl, 2(%r14,%r8)
	movzbl	2(%rsi,%r8), %ecx
	movb	%cl, 3(%r14,%r8)
	movzbl	3(%rsi,%r8), %ecx
	movb	%cl, 4(%r14,%r8)
	addq	$4, %r8
	cmpq	%r8, %rdx
	jne	548b
	jmp	471f
394:
	movb	$16, %r15b
	xorl	%ebx, %ebx
	xorl	%ebp, %ebp
	movq	8(%rsp), %rdi
	jmp	409b
859:
	movq	%rax, %rdi
	callq	memmove@PLT
	xorl	%r12d, %r12d
	xorl	%r15d, %r15d
	movq	8(%rsp), %rdi
	jmp	409b
271:
	callq	memmove@PLT
	movq	24(%rsp), %rdx
	movq	%r13, %rax
471:
	movzwl	2(%rax), %r12d
	cmpl	$1023, %r12d
	ja	214f
	movzbl	4(%rax), %r15d
	cmpw	$63, %r15w
	ja	214f
	movzbl	(%rax), %ecx
	movl	%ecx, 16(%rsp)
	movzbl	1(%rax), %ecx
	movl	%ecx, 20(%rsp)
	movzbl	5(%rax), %r13d
	leaq	6(%rdx), %rbp
	movl	$1, %esi
	movq	%rbp, %rdi
	callq	rattle_alloc@PLT
	testb	$1, %al
	je	969f
	movq	%rdx, %rbx
	shll	$24, %r13d
	movq	32(%rsp), %rdx
	leal	4(%rdx), %eax
	movzbl	%al, %eax
	shll	$16, %eax
	movzwl	%r15w, %ecx
	shll	$10, %ecx
	addl	%edx, %ecx
	addl	$4, %ecx
	andl	$-256, %ecx
	movzbl	%r12b, %esi
	orl	%ecx, %esi
	movzwl	%si, %ecx
	orl	%eax, %ecx
	orl	%r13d, %ecx
	movzwl	16(%rsp), %esi
	shll	$13, %esi
	movzwl	20(%rsp), %eax
	shll	$12, %eax
	orl	%esi, %eax
	orl	%r12d, %eax
	movb	%ah, (%rbx)
	movl	%ecx, 1(%rbx)
	leaq	5(%rbx), %rdi
	movq	%rdi, %rax
	subq	%r14, %rax
	movq	24(%rsp), %r13
	cmpq	%r13, %rax
	jbe	972f
	movq	%r14, %rsi
	callq	memmove@PLT
	jmp	83f
969:
	movb	$16, %r15b
	movb	$1, %r12b
	xorl	%ebx, %ebx
	xorl	%ebp, %ebp
	jmp	638f
12:
	movq	%rbx, %rcx
	subq	%rsi, %rcx
	addq	$5, %rcx
	cmpq	$32, %rcx
	movq	8(%rsp), %rdi
	jae	489f
	xorl	%ecx, %ecx
	jmp	648f
972:
	cmpq	$3, %r13
	jb	890f
	movq	%rbx, %rax
	subq	%r14, %rax
	addq	$5, %rax
	cmpq	$32, %rax
	jae	571f
890:
	xorl	%eax, %eax
859:
	movq	%r13, %rcx
	subq	%rax, %rcx
	movl	%r13d, %esi
	notl	%esi
	testb	$3, %sil
	je	972f
	leal	1(%r13), %r8d
	andl	$3, %r8d
548:
	movzbl	(%r14,%rax), %esi
	movb	%sil, (%rdi,%rax)
	incq	%rax
	decq	%r8
	jne	548b
972:
	cmpq	$3, %rcx
	jb	83f
548:
	movzbl	(%r14,%rax), %ecx
	movb	%cl, 5(%rbx,%rax)
	movzbl	1(%r14,%rax), %ecx
	movb	%cl, 6(%rbx,%rax)
	movzbl	2(%r14,%rax), %ecx
	movb	%cl, 7(%rbx,%rax)
	movzbl	3(%r14,%rax), %ecx
	movb	%cl, 8(%rbx,%rax)
	addq	$4, %rax
	cmpq	%rax, %rdx
	jne	548b
83:
	xorl	%r12d, %r12d
	xorl	%r15d, %r15d
638:
	movq	%r14, %rdi
	callq	rattle_dealloc@PLT
	movq	8(%rsp), %rdi
	jmp	409b
489:
	cmpq	$32, %rdx
	jae	327f
	xorl	%ecx, %ecx
	jmp	12f
778:
	cmpq	$32, %rdx
	jae	186f
	xorl	%ecx, %ecx
	jmp	638f
327:
	movl	%edx, %ecx
	andl	$992, %ecx
	xorl	%r8d, %r8d
464:
	movups	(%rsi,%r8), %xmm0
	movups	16(%rsi,%r8), %xmm1
	movups	%xmm0, 5(%rbx,%r8)
	movups	%xmm1, 21(%rbx,%r8)
	addq	$32, %r8
	cmpq	%r8, %rcx
	jne	464b
	cmpq	%rcx, %rdx
	je	890f
	testb	$28, %dl
	je	648f
12:
	movq	%rcx, %r8
	movl	%edx, %ecx
	andl	$1020, %ecx
327:
	movl	(%rsi,%r8), %r9d
	movl	%r9d, 5(%rbx,%r8)
	addq	$4, %r8
	cmpq	%r8, %rcx
	jne	327b
	cmpq	%rcx, %rdx
	je	890f
648:
	movq	%rdx, %r9
	movq	%rcx, %r8
	andq	$3, %r9
	je	980f
	movq	%rcx, %r8
548:
	movzbl	(%rsi,%r8), %r10d
	movb	%r10b, (%rax,%r8)
	incq	%r8
	decq	%r9
	jne	548b
980:
	subq	%rdx, %rcx
	cmpq	$-4, %rcx
	jbe	548f
890:
	xorl	%r12d, %r12d
	jmp	890f
548:
	movzbl	(%rsi,%r8), %eax
	movb	%al, 5(%rbx,%r8)
	movzbl	1(%rsi,%r8), %eax
	movb	%al, 6(%rbx,%r8)
	movzbl	2(%rsi,%r8), %eax
	movb	%al, 7(%rbx,%r8)
	movzbl	3(%rsi,%r8), %eax
	movb	%al, 8(%rbx,%r8)
	addq	$4, %r8
	xorl	%r12d, %r12d
	cmpq	%r8, %rdx
	jne	548b
890:
	xorl	%r15d, %r15d
	jmp	409b
186:
	movl	%edx, %ecx
	andl	$992, %ecx
	xorl	%r8d, %r8d
464:
	movups	(%rsi,%r8), %xmm0
	movups	16(%rsi,%r8), %xmm1
	movups	%xmm0, 1(%r14,%r8)
	movups	%xmm1, 17(%r14,%r8)
	addq	$32, %r8
	cmpq	%r8, %rcx
	jne	464b
	cmpq	%rcx, %rdx
	je	471b
	testb	$28, %dl
	je	928b
638:
	movq	%rcx, %r8
	movl	%edx, %ecx
	andl	$1020, %ecx
327:
	movl	(%rsi,%r8), %r9d
	movl	%r9d, (%rdi,%r8)
	addq	$4, %r8
	cmpq	%r8, %rcx
	jne	327b
	cmpq	%rcx, %rdx
	je	471b
	jmp	928b
571:
	cmpq	$31, %r13
	jae	327f
	xorl	%eax, %eax
	jmp	928f
327:
	movl	%edx, %eax
	andl	$2016, %eax
	xorl	%ecx, %ecx
464:
	movups	(%r14,%rcx), %xmm0
	movups	16(%r14,%rcx), %xmm1
	movups	%xmm0, 5(%rbx,%rcx)
	movups	%xmm1, 21(%rbx,%rcx)
	addq	$32, %rcx
	cmpq	%rcx, %rax
	jne	464b
	cmpq	%rax, %rdx
	je	83b
	testb	$28, %dl
	je	859b
928:
	movq	%rax, %rcx
	movl	%edx, %eax
	andl	$2044, %eax
327:
	movl	(%r14,%rcx), %esi
	movl	%esi, 5(%rbx,%rcx)
	addq	$4, %rcx
	cmpq	%rcx, %rax
	jne	327b
	cmpq	%rax, %rdx
	je	83b
	jmp	859b
214:
	ud2
	.section	.text.tc_make.ending.Ending.end,"ax",@progbits
	.p2align	4
tc_make.ending.Ending.end:
	pushq	%rbp
	pushq	%r15
	pushq	%r14
	pushq	%r13
	pushq	%r12
	pushq	%rbx
	pushq	%rax
	movq	%rdi, %rbx
	movq	(%rdx), %r14
	movq	8(%rdx), %rbp
	movq	16(%rdx), %r13
	testb	%sil, %sil
	je	519f
	cmpq	$5, %rbp
	jb	214f
	testb	$-52, (%r14)
	jne	214f
	movzbl	3(%r14), %ecx
	shll	$8, %ecx
	movzbl	2(%r14), %eax
	andl	$3, %eax
	orl	%ecx, %eax
	rolw	$8, %ax
	cmpw	$5, %ax
	jb	214f
	incl	%eax
	movzwl	%ax, %eax
	cmpq	%rax, %rbp
	jne	214f
	cmpq	$1022, %rbp
	jbe	669f
	testq	%r13, %r13
	je	325f
	movq	%r14, %rdi
	callq	rattle_dealloc@PLT
325:
	movw	$3585, (%rbx)
	jmp	409f
519:
	movw	$0, (%rbx)
	movb	$0, 2(%rbx)
	movq	%r14, 8(%rbx)
	movq	%rbp, 16(%rbx)
	movq	%r13, 24(%rbx)
	jmp	850f
669:
	leaq	2(%rbp), %r15
	movl	$1, %esi
	movq	%r15, %rdi
	callq	rattle_alloc@PLT
	testb	$1, %al
	je	211f
	movq	%rdx, %r12
	movzwl	2(%r14), %eax
	rolw	$8, %ax
	addl	$2, %eax
	movzbl	(%r14), %ecx
	movzbl	1(%r14), %edx
	movzwl	%ax, %eax
	bswapl	%eax
	shll	$8, %edx
	orl	%eax, %edx
	orl	%ecx, %edx
	movl	%edx, (%r12)
	leaq	4(%r14), %rsi
	leaq	-4(%rbp), %rdx
	leaq	4(%r12), %rdi
	movq	%rdi, %rax
	subq	%rsi, %rax
	cmpq	%rdx, %rax
	jae	271f
	xorl	%eax, %eax
	cmpq	$4, %rdx
	jb	12f
	movq	%r12, %rcx
	subq	%r14, %rcx
	cmpq	$32, %rcx
	jb	12f
	cmpq	$32, %rdx
	jae	928f
	xorl	%eax, %eax
	jmp	859f
211:
	testq	%r13, %r13
	je	325f
	movq	%r14, %rdi
	callq	rattle_dealloc@PLT
325:
	movw	$4097, (%rbx)
409:
	movb	$0, 2(%rbx)
	xorps	%xmm0, %xmm0
	movups	%xmm0, 8(%rbx)
	movq	$0, 24(%rbx)
	jmp	850f
271:
	callq	memmove@PLT
	jmp	325f
928:
	movq	%rdx, %rax
	andq	$-32, %rax
	xorl	%ecx, %ecx
	.p2align	4
464:
	movups	4(%r14,%rcx), %xmm0
	movups	20(%r14,%rcx), %xmm1
	movups	%xmm0, 4(%r12,%rcx)
	movups	%xmm1, 20(%r12,%rcx)
	addq	$32, %rcx
	cmpq	%rcx, %rax
	jne	464b
	cmpq	%rax, %rdx
	je	325f
	testb	$28, %dl
	je	12f
859:
	movq	%rax, %rcx
	movq	%rdx, %rax
	andq	$-4, %rax
	.p2align	4
327:
	movl	(%rsi,%rcx), %r8d
	movl	%r8d, (%rdi,%rcx)
	addq	$4, %rcx
	cmpq	%rcx, %rax
	jne	327b
	cmpq	%rax, %rdx
	je	325f
12:
	movq	%rbp, %rcx
	subq	%rax, %rcx
	addq	$-5, %rcx
	movq	%rbp, %r8
	andq	$3, %r8
	je	972f
	.p2align	4
548:
	movzbl	(%rsi,%rax), %r9d
	movb	%r9b, (%rdi,%rax)
	incq	%rax
	decq	%r8
	jne	548b
972:
	cmpq	$3, %rcx
	jb	325f
	.p2align	4
548:
	movzbl	4(%r14,%rax), %ecx
	movb	%cl, 4(%r12,%rax)
	movzbl	5(%r14,%rax), %ecx
	movb	%cl, 5(%r12,%rax)
	movzbl	6(%r14,%rax), %ecx
	movb	%cl, 6(%r12,%rax)
	movzbl	7(%r14,%rax), %ecx
	movb	%cl, 7(%r12,%rax)
	addq	$4, %rax
	cmpq	%rax, %rdx
	jne	548b
325:
	movw	$-1, %ax
	movq	%r12, %rsi
	movq	%rbp, %rcx
	.p2align	4
928:
	movq	%rsi, %rdx
	addq	$-4, %rcx
	movzbl	2(%rsi), %esi
	movzbl	3(%rdx), %edi
	movl	%eax, %r8d
	shrl	$8, %r8d
	xorb	(%rdx), %r8b
	movzbl	%r8b, %r8d
	leaq	.LT48aab116(%rip), %r9
	xorb	1(%rdx), %al
	movzbl	%al, %eax
	leaq	.LT33c05f58(%rip), %r10
	movzwl	(%r10,%rax,2), %eax
	leaq	.LTbb337a2b(%rip), %r10
	leaq	.LT48c7e4e5(%rip), %r11
	xorw	(%r9,%r8,2), %ax
	xorw	(%r10,%rsi,2), %ax
	xorw	(%r11,%rdi,2), %ax
	leaq	4(%rdx), %rsi
	cmpq	$3, %rcx
	ja	928b
	testq	%rcx, %rcx
	je	750f
	xorl	%esi, %esi
	.p2align	4
548:
	movzbl	4(%rdx,%rsi), %edi
	movzwl	%ax, %r8d
	shrl	$8, %r8d
	xorl	%edi, %r8d
	movl	%r8d, %edi
	shrl	$4, %edi
	xorl	%r8d, %edi
	shll	$8, %eax
	movl	%edi, %r8d
	orl	%edi, %eax
	shll	$12, %edi
	shll	$5, %r8d
	xorl	%edi, %eax
	xorl	%r8d, %eax
	incq	%rsi
	cmpq	%rsi, %rcx
	jne	548b
750:
	rolw	$8, %ax
	movw	%ax, (%r12,%rbp)
	testq	%r13, %r13
	je	325f
	movq	%r14, %rdi
	callq	rattle_dealloc@PLT
325:
	movw	$0, (%rbx)
	movb	$0, 2(%rbx)
	movq	%r12, 8(%rbx)
	movq	%r15, 16(%rbx)
	movq	%r15, 24(%rbx)
850:
	addq	$8, %rsp
	popq	%rbx
	popq	%r12
	popq	%r13
	popq	%r14
	popq	%r15
	popq	%rbp
	retq
214:
	ud2
	.section	.rodata.cst16,"aM",@progbits,16
	.p2align	4
.LC99d712ea_0:
	.zero	16,46
.LC99d712ea_1:
	.quad	7310596056926023526
	.quad	3346860010425884786
.LC99d712ea_2:
	.byte	2
	.byte	41
	.byte	15
	.byte	0
	.zero	1
	.zero	1
	.zero	1
	.zero	1
	.zero	1
	.zero	1
	.zero	1
	.zero	1
	.zero	1
	.zero	1
	.zero	1
	.zero	1
.LC99d712ea_3:
	.byte	2
	.byte	41
	.byte	15
	.byte	0
	.byte	0
	.byte	0
	.byte	0
	.byte	0
	.byte	0
	.byte	0
	.byte	0
	.byte	0
	.byte	0
	.byte	0
	.byte	0
	.byte	0
	.section	.text.tc_make.explained.write_whole_frame._5349ec06ad6c886c,"ax",@progbits
	.p2align	4
tc_make.explained.write_whole_frame._5349ec06ad6c886c:
	pushq	%rbp
	pushq	%r15
	pushq	%r14
	pushq	%r13
	pushq	%r12
	pushq	%rbx
	subq	$968, %rsp
	movq	%r9, 24(%rsp)
	movq	%r8, 32(%rsp)
	movq	%rcx, 296(%rsp)
	xorps	%xmm0, %xmm0
	movaps	%xmm0, 368(%rsp)
	movaps	%xmm0, 352(%rsp)
	movaps	%xmm0, 336(%rsp)
	movaps	%xmm0, 320(%rsp)
	cmpq	$5, %rdx
	jb	214f
	movq	%rsi, %r13
	movzwl	(%rsi), %r15d
	testb	$-52, %r15b
	jne	214f
	movq	%rdi, %rbx
	movzbl	3(%r13), %eax
	shll	$8, %eax
	movzbl	2(%r13), %edi
	movl	%edi, %r14d
	andl	$3, %r14d
	orl	%eax, %r14d
	rolw	$8, %r14w
	cmpw	$5, %r14w
	jb	214f
	leal	1(%r14), %eax
	movzwl	%ax, %eax
	movq	%rax, 304(%rsp)
	cmpq	%rax, %rdx
	jb	214f
	rolw	$8, %r15w
	movzbl	4(%r13), %esi
	movzwl	%r15w, %eax
	cmpl	$8192, %eax
	movb	%sil, 23(%rsp)
	movl	%edi, 316(%rsp)
	jae	409f
	movl	%r15d, %ecx
	shrl	$12, %ecx
	xorl	%edx, %edx
	andl	$1, %ecx
	setne	%dl
	leal	(%rdx,%rdx,2), %edx
	movl	%edx, 16(%rsp)
	testb	%sil, %sil
	sete	%dl
	orb	%cl, %dl
	movl	%edx, 44(%rsp)
327:
	movl	$0, 12(%rsp)
	jmp	759f
409:
	movb	$1, %cl
	movl	%ecx, 44(%rsp)
	testl	$4096, %r15d
	je	186f
	cmpw	$7, %r14w
	je	868f
	movb	$3, %cl
	movl	%ecx, 16(%rsp)
	movzwl	%r14w, %ecx
	cmpl	$5, %ecx
	jne	327b
	cmpb	$0, 5(%r13)
	sete	%cl
	xorb	$3, %cl
	movl	%ecx, 16(%rsp)
	jmp	327b
186:
	movl	$0, 12(%rsp)
	movb	$1, %cl
	movl	%ecx, 16(%rsp)
759:
	testl	$4096, %r15d
	leaq	.LTa951a33e(%rip), %rcx
	leaq	.LTbe31a6ac(%rip), %rdx
	cmoveq	%rcx, %rdx
	leaq	.LTe5e5d9bb(%rip), %rcx
	leaq	.LTb44569c2(%rip), %r12
	cmoveq	%rcx, %r12
	cmpl	$8192, %eax
	movaps	%xmm0, 448(%rsp)
	movaps	%xmm0, 464(%rsp)
	movaps	%xmm0, 480(%rsp)
	movaps	%xmm0, 496(%rsp)
	movaps	%xmm0, 384(%rsp)
	movaps	%xmm0, 400(%rsp)
	movaps	%xmm0, 416(%rsp)
	movaps	%xmm0, 432(%rsp)
	movaps	%xmm0, 704(%rsp)
	movaps	%xmm0, 720(%rsp)
	movaps	%xmm0, 736(%rsp)
	movaps	%xmm0, 752(%rsp)
	movaps	%xmm0, 512(%rsp)
	movaps	%xmm0, 528(%rsp)
	movaps	%xmm0, 544(%rsp)
	movaps	%xmm0, 560(%rsp)
	movaps	%xmm0, 816(%rsp)
	movaps	%xmm0, 800(%rsp)
	movaps	%xmm0, 784(%rsp)
	movaps	%xmm0, 768(%rsp)
	cmovaeq	%rdx, %r12
	movq	24(%rsp), %rax
	movq	%rax, 48(%rsp)
	movups	%xmm0, 56(%rsp)
	movups	%xmm0, 72(%rsp)
	movups	%xmm0, 88(%rsp)
	movups	%xmm0, 104(%rsp)
	movups	%xmm0, 120(%rsp)
	movups	%xmm0, 136(%rsp)
	leaq	156(%rsp), %rbp
	movups	%xmm0, 176(%rsp)
	movl	$32, 152(%rsp)
	movq	$0, 156(%rsp)
	movl	$0, 164(%rsp)
	movq	$-1, 168(%rsp)
	leaq	.LT2e88633b(%rip), %rsi
	leaq	48(%rsp), %rdi
	movl	$7, %edx
	callq	std.io.traits.AdapterWrite.write_str._5349ec06ad6c886c
	testb	%al, %al
	jne	890f
	movl	$32, 152(%rsp)
	movl	$0, 8(%rbp)
	movq	$0, (%rbp)
	movq	$-1, 168(%rsp)
	cmpq	$0, 176(%rsp)
	jne	949f
	leaq	48(%rsp), %rdi
	movl	$2, %edx
	movq	%r12, %rsi
	callq	std.io.traits.AdapterWrite.write_str._5349ec06ad6c886c
	testb	%al, %al
	jne	890f
186:
	movl	$32, 152(%rsp)
	leaq	156(%rsp), %rax
	movl	$0, 8(%rax)
	movq	$0, (%rax)
	movq	$-1, 168(%rsp)
	cmpq	$0, 176(%rsp)
	jne	740f
	leaq	.LTe393c96b(%rip), %rsi
	leaq	48(%rsp), %rdi
	movl	$6, %edx
	callq	std.io.traits.AdapterWrite.write_str._5349ec06ad6c886c
	testb	%al, %al
	jne	890f
523:
	andl	$1023, %r15d
	movl	$32, 152(%rsp)
	leaq	156(%rsp), %rax
	movl	$0, 8(%rax)
	movq	$0, (%rax)
	movq	$-1, 168(%rsp)
	xorps	%xmm0, %xmm0
	movaps	%xmm0, 192(%rsp)
	movq	$0, 208(%rsp)
	cmpw	$100, %r15w
	jb	669f
	leaq	214(%rsp), %rax
	movzwl	%r15w, %ecx
	imull	$656, %ecx, %r15d
	shrl	$16, %r15d
	imull	$100, %r15d, %edx
	subl	%edx, %ecx
	imull	$205, %ecx, %edx
	movzwl	%dx, %edx
	shrl	$11, %edx
	leal	(%rdx,%rdx), %esi
	leal	(%rsi,%rsi,4), %esi
	subb	%sil, %cl
	orb	$48, %cl
	movb	%cl, 215(%rsp)
	orb	$48, %dl
	movb	%dl, 214(%rsp)
	movl	$22, %ecx
	cmpw	$10, %r15w
	jae	548f
52:
	orb	$48, %r15b
	movb	%r15b, 191(%rsp,%rcx)
	decq	%rcx
	jmp	219f
868:
	cmpb	$-126, 5(%r13)
	jne	409f
	cmpb	$0, 6(%r13)
	je	284f
409:
	movb	$3, %cl
	movl	%ecx, 16(%rsp)
	jmp	327b
669:
	leaq	216(%rsp), %rax
	movl	$24, %ecx
	cmpw	$10, %r15w
	jb	52b
548:
	movzbl	%r15b, %edx
	imull	$205, %edx, %edx
	shrl	$11, %edx
	leal	(%rdx,%rdx), %esi
	leal	(%rsi,%rsi,4), %esi
	subb	%sil, %r15b
	orb	$48, %r15b
	movb	%r15b, -1(%rax)
	orb	$48, %dl
	movb	%dl, -2(%rax)
	addq	$-2, %rcx
219:
	leaq	(%rsp,%rcx), %rsi
	addq	$192, %rsi
	movb	$45, 191(%rsp,%rcx)
	movl	$24, %edx
	subq	%rcx, %rdx
	cmpq	$0, 176(%rsp)
	leaq	156(%rsp), %r15
	leaq	48(%rsp), %rdi
	jne	271f
	callq	std.io.traits.AdapterWrite.write_str._5349ec06ad6c886c
	testb	%al, %al
	jne	890f
327:
	movl	$32, 152(%rsp)
	movl	$0, 8(%r15)
	movq	$0, (%r15)
	movq	$-1, 168(%rsp)
	cmpq	$0, 176(%rsp)
	jne	219f
	leaq	.LTbd6cf3c6(%rip), %rsi
	leaq	48(%rsp), %rdi
	movl	$4, %edx
	callq	std.io.traits.AdapterWrite.write_str._5349ec06ad6c886c
	testb	%al, %al
	movl	316(%rsp), %edx
	jne	890f
981:
	movl	%edx, %eax
	shrb	$2, %al
	movl	$32, 152(%rsp)
	movl	$0, 8(%r15)
	movq	$0, (%r15)
	movq	$-1, 168(%rsp)
	xorps	%xmm0, %xmm0
	movaps	%xmm0, 192(%rsp)
	movq	$0, 207(%rsp)
	cmpb	$40, %dl
	jb	669f
	leaq	214(%rsp), %rsi
	movzbl	%al, %eax
	leal	(%rax,%rax,4), %ecx
	leal	(%rcx,%rcx,4), %ecx
	addl	%eax, %ecx
	shrl	$7, %ecx
	andl	$14, %ecx
	leal	(%rcx,%rcx,4), %ecx
	subb	%cl, %al
	movzbl	%dl, %ecx
	imull	$205, %ecx, %ecx
	shrl	$13, %ecx
	orb	$48, %cl
	movb	%cl, 214(%rsp)
	movl	$2, %edx
	jmp	52f
949:
	leaq	48(%rsp), %rdi
	movl	$2, %edx
	movq	%r12, %rsi
	callq	core.fmt.formatter.Formatter.write_indented._1ac78889755d2eb3
	testb	%al, %al
	jne	890f
	jmp	186b
284:
	movzbl	7(%r13), %ecx
	movl	%ecx, 12(%rsp)
	movb	$2, %cl
	movl	%ecx, 16(%rsp)
	movl	$0, 44(%rsp)
	jmp	759b
740:
	leaq	.LTe393c96b(%rip), %rsi
	leaq	48(%rsp), %rdi
	movl	$6, %edx
	callq	core.fmt.formatter.Formatter.write_indented._1ac78889755d2eb3
	testb	%al, %al
	jne	890f
	jmp	523b
669:
	leaq	215(%rsp), %rsi
	movl	$1, %edx
52:
	orb	$48, %al
	movb	%al, 215(%rsp)
	movb	$45, -1(%rsi)
	cmpq	$0, 176(%rsp)
	jne	949f
	leaq	48(%rsp), %rdi
	callq	std.io.traits.AdapterWrite.write_str._5349ec06ad6c886c
	testb	%al, %al
	jne	890f
186:
	movl	$32, 152(%rsp)
	movl	$0, 8(%r15)
	movq	$0, (%r15)
	movq	$-1, 168(%rsp)
	cmpq	$0, 176(%rsp)
	jne	740f
	leaq	.LT498e0c89(%rip), %rsi
	leaq	48(%rsp), %rdi
	movl	$4, %edx
	callq	std.io.traits.AdapterWrite.write_str._5349ec06ad6c886c
	testb	%al, %al
	movzbl	23(%rsp), %edx
	jne	890f
434:
	movl	$32, 152(%rsp)
	movl	$0, 8(%r15)
	movq	$0, (%r15)
	movq	$-1, 168(%rsp)
	xorps	%xmm0, %xmm0
	movaps	%xmm0, 192(%rsp)
	movq	$0, 208(%rsp)
	cmpb	$100, %dl
	jb	327f
	movzbl	%dl, %eax
	leal	(%rax,%rax,4), %ecx
	leal	(%rax,%rcx,8), %ecx
	shrl	$12, %ecx
	imull	$100, %ecx, %eax
	subb	%al, %dl
	movzbl	%dl, %eax
	imull	$205, %eax, %edx
	shrl	$11, %edx
	leal	(%rdx,%rdx), %esi
	leal	(%rsi,%rsi,4), %esi
	subb	%sil, %al
	orb	$48, %al
	movb	%al, 215(%rsp)
	orb	$48, %dl
	movb	%dl, 214(%rsp)
	movl	$21, %eax
	movl	%ecx, %edx
	jmp	52f
271:
	callq	core.fmt.formatter.Formatter.write_indented._1ac78889755d2eb3
	testb	%al, %al
	jne	890f
	jmp	327b
219:
	leaq	.LTbd6cf3c6(%rip), %rsi
	leaq	48(%rsp), %rdi
	movl	$4, %edx
	callq	core.fmt.formatter.Formatter.write_indented._1ac78889755d2eb3
	testb	%al, %al
	movl	316(%rsp), %edx
	jne	890f
	jmp	981b
327:
	movl	$23, %eax
	cmpb	$10, %dl
	jb	52f
	movzbl	%dl, %eax
	imull	$205, %eax, %eax
	shrl	$11, %eax
	leal	(%rax,%rax), %ecx
	leal	(%rcx,%rcx,4), %ecx
	subb	%cl, %dl
	orb	$48, %dl
	movb	%dl, 215(%rsp)
	orb	$48, %al
	movb	%al, 214(%rsp)
	movl	$22, %eax
	jmp	669f
52:
	orb	$48, %dl
	movb	%dl, 192(%rsp,%rax)
669:
	leaq	(%rsp,%rax), %rsi
	addq	$192, %rsi
	movb	$45, 191(%rsp,%rax)
	movl	$24, %edx
	subq	%rax, %rdx
	cmpq	$0, 176(%rsp)
	jne	71f
	leaq	48(%rsp), %rdi
	callq	std.io.traits.AdapterWrite.write_str._5349ec06ad6c886c
1:
	testb	%al, %al
	sete	%al
	jmp	669f
949:
	leaq	48(%rsp), %rdi
	callq	core.fmt.formatter.Formatter.write_indented._1ac78889755d2eb3
	testb	%al, %al
	jne	890f
	jmp	186b
740:
	leaq	.LT498e0c89(%rip), %rsi
	leaq	48(%rsp), %rdi
	movl	$4, %edx
	callq	core.fmt.formatter.Formatter.write_indented._1ac78889755d2eb3
	testb	%al, %al
	movzbl	23(%rsp), %edx
	je	434b
890:
	xorl	%eax, %eax
669:
	leaq	88(%rsp), %r15
	cmpb	$1, 56(%rsp)
	jne	15f
	movups	72(%rsp), %xmm1
	movl	68(%rsp), %eax
	movsd	64(%rsp), %xmm0
	movups	(%r15), %xmm2
	movups	16(%r15), %xmm3
	movups	32(%r15), %xmm4
	movups	48(%r15), %xmm5
	movaps	%xmm2, 640(%rsp)
	movaps	%xmm3, 656(%rsp)
	movaps	%xmm4, 672(%rsp)
	movaps	%xmm5, 688(%rsp)
	jmp	87f
15:
	testb	%al, %al
	je	680f
	xorps	%xmm0, %xmm0
	movaps	%xmm0, 944(%rsp)
	movaps	%xmm0, 928(%rsp)
	movaps	%xmm0, 912(%rsp)
	movaps	%xmm0, 896(%rsp)
	movaps	%xmm0, 832(%rsp)
	movaps	%xmm0, 848(%rsp)
	movaps	%xmm0, 864(%rsp)
	movaps	%xmm0, 880(%rsp)
	movq	24(%rsp), %rax
	movq	%rax, 48(%rsp)
	movups	%xmm0, 56(%rsp)
	movups	%xmm0, 72(%rsp)
	movups	%xmm0, 88(%rsp)
	movups	%xmm0, 104(%rsp)
	movups	%xmm0, 120(%rsp)
	movups	%xmm0, 136(%rsp)
	movups	%xmm0, 176(%rsp)
	movl	$32, 152(%rsp)
	movq	$0, 156(%rsp)
	movl	$0, 164(%rsp)
	movq	$-1, 168(%rsp)
	leaq	.LT26126e75(%rip), %rsi
	leaq	48(%rsp), %rdi
	movl	$8, %edx
	callq	std.io.traits.AdapterWrite.write_str._5349ec06ad6c886c
	movb	$1, %r12b
	testb	%al, %al
	je	327f
	movq	304(%rsp), %r14
	jmp	284f
680:
	movaps	.LC99d712ea_0(%rip), %xmm0
	movaps	%xmm0, 688(%rsp)
	movaps	%xmm0, 672(%rsp)
	movaps	%xmm0, 656(%rsp)
	movaps	%xmm0, 640(%rsp)
	movaps	.LC99d712ea_1(%rip), %xmm1
	movss	.LC99d712ea_3(%rip), %xmm0
	xorl	%eax, %eax
87:
	movaps	640(%rsp), %xmm2
	movaps	656(%rsp), %xmm3
	movaps	672(%rsp), %xmm4
	movaps	688(%rsp), %xmm5
	movaps	%xmm2, 512(%rsp)
	movaps	%xmm3, 528(%rsp)
	movaps	%xmm4, 544(%rsp)
	movaps	%xmm5, 560(%rsp)
680:
	movaps	512(%rsp), %xmm2
	movaps	528(%rsp), %xmm3
	movaps	544(%rsp), %xmm4
	movaps	560(%rsp), %xmm5
	movaps	%xmm5, 432(%rsp)
	movaps	%xmm4, 416(%rsp)
	movaps	%xmm3, 400(%rsp)
	movaps	%xmm2, 384(%rsp)
87:
	movaps	384(%rsp), %xmm2
	movaps	400(%rsp), %xmm3
	movaps	416(%rsp), %xmm4
	movaps	432(%rsp), %xmm5
	movaps	%xmm5, 368(%rsp)
	movaps	%xmm4, 352(%rsp)
	movaps	%xmm3, 336(%rsp)
	movaps	%xmm2, 320(%rsp)
	movb	$1, %cl
409:
	movb	%cl, (%rbx)
	movss	%xmm0, 8(%rbx)
	movl	%eax, 12(%rbx)
	movups	%xmm1, 16(%rbx)
	movaps	320(%rsp), %xmm0
	movaps	336(%rsp), %xmm1
	movaps	352(%rsp), %xmm2
	movaps	368(%rsp), %xmm3
	movups	%xmm0, 32(%rbx)
	movups	%xmm1, 48(%rbx)
	movups	%xmm2, 64(%rbx)
	movups	%xmm3, 80(%rbx)
	addq	$968, %rsp
	popq	%rbx
	popq	%r12
	popq	%r13
	popq	%r14
	popq	%r15
	popq	%rbp
	retq
327:
	movl	$32, 152(%rsp)
	leaq	156(%rsp), %rax
	movl	$0, 8(%rax)
	movq	$0, (%rax)
	movq	$-1, 168(%rsp)
	xorps	%xmm0, %xmm0
	movaps	%xmm0, 192(%rsp)
	movq	$0, 208(%rsp)
	cmpw	$99, %r14w
	jb	669f
	leaq	214(%rsp), %rax
	movq	304(%rsp), %r14
	movl	%r14d, %ecx
	shrl	$2, %ecx
	imull	$5243, %ecx, %ecx
	shrl	$17, %ecx
	imull	$100, %ecx, %edx
	movl	%r14d, %esi
	subl	%edx, %esi
	imull	$103, %esi, %edx
	movzwl	%dx, %edx
	shrl	$10, %edx
	leal	(%rdx,%rdx), %edi
	leal	(%rdi,%rdi,4), %edi
	subb	%dil, %sil
	orb	$48, %sil
	movb	%sil, 215(%rsp)
	orb	$48, %dl
	movb	%dl, 214(%rsp)
	movl	$22, %edi
	cmpq	$10, %rcx
	jb	52f
548:
	movzbl	%cl, %edx
	imull	$205, %edx, %edx
	shrl	$11, %edx
	leal	(%rdx,%rdx), %esi
	leal	(%rsi,%rsi,4), %esi
	subb	%sil, %cl
	orb	$48, %cl
	movb	%cl, -1(%rax)
	orb	$48, %dl
	movb	%dl, -2(%rax)
	addq	$-2, %rdi
	jmp	219f
669:
	leaq	216(%rsp), %rax
	movl	$24, %edi
	movq	304(%rsp), %r14
	movq	%r14, %rcx
	cmpq	$10, %rcx
	jae	548b
52:
	orb	$48, %cl
	movb	%cl, 191(%rsp,%rdi)
	decq	%rdi
219:
	leaq	(%rsp,%rdi), %rsi
	addq	$192, %rsi
	movb	$45, 191(%rsp,%rdi)
	movl	$24, %edx
	subq	%rdi, %rdx
	cmpq	$0, 176(%rsp)
	jne	219f
	leaq	48(%rsp), %rdi
	callq	std.io.traits.AdapterWrite.write_str._5349ec06ad6c886c
	testb	%al, %al
	jne	284f
327:
	movl	$32, 152(%rsp)
	leaq	156(%rsp), %rax
	movl	$0, 8(%rax)
	movq	$0, (%rax)
	movq	$-1, 168(%rsp)
	cmpq	$0, 176(%rsp)
	jne	949f
	leaq	.LT72def174(%rip), %rsi
	leaq	48(%rsp), %rdi
	movl	$6, %edx
	callq	std.io.traits.AdapterWrite.write_str._5349ec06ad6c886c
	testb	%al, %al
	jne	284f
186:
	movl	$32, 152(%rsp)
	leaq	156(%rsp), %rax
	movl	$0, 8(%rax)
	movq	$0, (%rax)
	movq	$-1, 168(%rsp)
	xorps	%xmm0, %xmm0
	movaps	%xmm0, 192(%rsp)
	movq	$0, 208(%rsp)
	movl	$24, %ecx
	movq	32(%rsp), %rax
	movq	%rax, %rdx
	cmpq	$100, %rax
	jb	972f
	movq	32(%rsp), %rsi
	.p2align	4
928:
	movq	%rsi, %rax
	shrq	$2, %rax
	movabsq	$2951479051793528259, %rdx
	mulq	%rdx
	shrq	$2, %rdx
	imull	$100, %edx, %eax
	movl	%esi, %edi
	subl	%eax, %edi
	movzbl	%dil, %eax
	imull	$205, %eax, %edi
	shrl	$11, %edi
	leal	(%rdi,%rdi), %r8d
	leal	(%r8,%r8,4), %r8d
	subb	%r8b, %al
	orb	$48, %al
	movb	%al, 191(%rsp,%rcx)
	orb	$48, %dil
	movb	%dil, 190(%rsp,%rcx)
	addq	$-2, %rcx
	cmpq	$9999, %rsi
	movq	%rdx, %rsi
	ja	928b
972:
	cmpq	$10, %rdx
	jb	52f
	movzbl	%dl, %eax
	imull	$205, %eax, %eax
	shrl	$11, %eax
	leal	(%rax,%rax), %esi
	leal	(%rsi,%rsi,4), %esi
	subb	%sil, %dl
	orb	$48, %dl
	movb	%dl, 191(%rsp,%rcx)
	orb	$48, %al
	movb	%al, 190(%rsp,%rcx)
	addq	$-2, %rcx
	jmp	669f
52:
	orb	$48, %dl
	movb	%dl, 191(%rsp,%rcx)
	decq	%rcx
669:
	leaq	(%rsp,%rcx), %rsi
	addq	$192, %rsi
	movb	$45, 191(%rsp,%rcx)
	movl	$24, %edx
	subq	%rcx, %rdx
	cmpq	$0, 176(%rsp)
	jne	669f
	leaq	48(%rsp), %rdi
	callq	std.io.traits.AdapterWrite.write_str._5349ec06ad6c886c
	testb	%al, %al
	jne	284f
981:
	movl	$32, 152(%rsp)
	leaq	156(%rsp), %rax
	movl	$0, 8(%rax)
	movq	$0, (%rax)
	movq	$-1, 168(%rsp)
	cmpq	$0, 176(%rsp)
	jne	740f
	leaq	.LT3235efc0(%rip), %rsi
	leaq	48(%rsp), %rdi
	movl	$1, %edx
	callq	std.io.traits.AdapterWrite.write_str._5349ec06ad6c886c
434:
	movl	%eax, %r12d
	jmp	284f
219:
	leaq	48(%rsp), %rdi
	callq	core.fmt.formatter.Formatter.write_indented._1ac78889755d2eb3
	testb	%al, %al
	jne	284f
	jmp	327b
949:
	leaq	.LT72def174(%rip), %rsi
	leaq	48(%rsp), %rdi
	movl	$6, %edx
	callq	core.fmt.formatter.Formatter.write_indented._1ac78889755d2eb3
	testb	%al, %al
	je	186b
	jmp	284f
669:
	leaq	48(%rsp), %rdi
	callq	core.fmt.formatter.Formatter.write_indented._1ac78889755d2eb3
	testb	%al, %al
	je	981b
284:
	movzbl	56(%rsp), %ecx
	movsd	64(%rsp), %xmm0
	movl	68(%rsp), %eax
	movups	72(%rsp), %xmm1
	xorps	%xmm2, %xmm2
	movaps	%xmm2, 240(%rsp)
	movaps	%xmm2, 224(%rsp)
	movaps	%xmm2, 208(%rsp)
	movaps	%xmm2, 192(%rsp)
	cmpb	$1, %cl
	jne	15f
	movups	(%r15), %xmm2
	movups	16(%r15), %xmm3
	movups	32(%r15), %xmm4
	movups	48(%r15), %xmm5
	movaps	%xmm5, 240(%rsp)
	movaps	%xmm4, 224(%rsp)
	movaps	%xmm3, 208(%rsp)
	movaps	%xmm2, 192(%rsp)
	jmp	890f
15:
	testb	%r12b, %r12b
	je	231f
	movaps	.LC99d712ea_0(%rip), %xmm0
	movaps	%xmm0, 240(%rsp)
	movaps	%xmm0, 224(%rsp)
	movaps	%xmm0, 208(%rsp)
	movaps	%xmm0, 192(%rsp)
	movaps	.LC99d712ea_1(%rip), %xmm1
	movss	.LC99d712ea_3(%rip), %xmm0
	xorl	%eax, %eax
890:
	xorl	%ecx, %ecx
430:
	movaps	192(%rsp), %xmm2
	movaps	208(%rsp), %xmm3
	movaps	224(%rsp), %xmm4
	movaps	240(%rsp), %xmm5
	movaps	%xmm2, 768(%rsp)
	movaps	%xmm3, 784(%rsp)
	movaps	%xmm5, 560(%rsp)
	movaps	%xmm4, 544(%rsp)
	movaps	%xmm3, 528(%rsp)
	movaps	%xmm2, 512(%rsp)
	testb	%cl, %cl
	je	680b
	addq	$5, %r13
	addq	$-5, %r14
	xorps	%xmm0, %xmm0
	movaps	%xmm0, 192(%rsp)
	movaps	%xmm0, 208(%rsp)
	movaps	%xmm0, 224(%rsp)
	movaps	%xmm0, 240(%rsp)
	movaps	%xmm0, 256(%rsp)
	movaps	%xmm0, 272(%rsp)
	movzbl	16(%rsp), %eax
	leaq	.LJ99d712ea_0(%rip), %rcx
	movslq	(%rcx,%rax,4), %rax
	addq	%rcx, %rax
	jmpq	*%rax
669:
	leaq	192(%rsp), %rdi
	movq	%r13, %rsi
	movq	%r14, %rdx
	movq	24(%rsp), %rcx
	callq	tc_make.explained.write_carried._5349ec06ad6c886c
	jmp	928f
231:
	xorps	%xmm1, %xmm1
	xorps	%xmm0, %xmm0
	movb	$1, %cl
	xorl	%eax, %eax
	jmp	430b
868:
	cmpb	$0, 44(%rsp)
	je	327f
	movq	24(%rsp), %rax
	movq	%rax, 48(%rsp)
	movups	%xmm0, 56(%rsp)
	movups	%xmm0, 72(%rsp)
	movups	%xmm0, 88(%rsp)
	movups	%xmm0, 104(%rsp)
	movups	%xmm0, 120(%rsp)
	movups	%xmm0, 136(%rsp)
	movups	%xmm0, 176(%rsp)
	movl	$32, 152(%rsp)
	movq	$0, 156(%rsp)
	movl	$0, 164(%rsp)
	movq	$-1, 168(%rsp)
	leaq	.LTb92a41d7(%rip), %rsi
	leaq	48(%rsp), %rdi
	movl	$15, %edx
	callq	std.io.traits.AdapterWrite.write_str._5349ec06ad6c886c
	movzbl	56(%rsp), %edx
	movsd	64(%rsp), %xmm0
	movl	68(%rsp), %ecx
	movups	72(%rsp), %xmm1
	xorps	%xmm2, %xmm2
	movaps	%xmm2, 576(%rsp)
	movaps	%xmm2, 592(%rsp)
	movaps	%xmm2, 608(%rsp)
	movaps	%xmm2, 624(%rsp)
	cmpb	$1, %dl
	movq	32(%rsp), %r8
	jne	890f
	movups	88(%rsp), %xmm2
	movups	104(%rsp), %xmm3
	movups	120(%rsp), %xmm4
	movups	136(%rsp), %xmm5
	movaps	%xmm5, 624(%rsp)
	movaps	%xmm4, 608(%rsp)
	movaps	%xmm3, 592(%rsp)
	movaps	%xmm2, 576(%rsp)
	jmp	969f
219:
	leaq	.LTcda36f6b(%rip), %rsi
	leaq	192(%rsp), %rdi
	movl	$7, %edx
	movq	%r13, %rcx
	movq	%r14, %r8
	movq	24(%rsp), %r9
	callq	tc_make.printed.write_named._5349ec06ad6c886c
	jmp	928f
327:
	movl	12(%rsp), %eax
	movb	%al, 832(%rsp)
	leaq	.LT5ce8bbff(%rip), %rax
	movq	%rax, 48(%rsp)
	movq	$14, 56(%rsp)
	leaq	832(%rsp), %rax
	movq	%rax, 64(%rsp)
	leaq	.LT3235efc0(%rip), %rax
	movq	%rax, 72(%rsp)
	movq	$1, 80(%rsp)
	leaq	192(%rsp), %rdi
	leaq	48(%rsp), %rdx
	movq	24(%rsp), %rsi
	callq	std.io.traits.Write.write_fmt._2163a20560420d27
928:
	movq	32(%rsp), %r8
229:
	movsd	200(%rsp), %xmm0
	movl	204(%rsp), %eax
	movaps	208(%rsp), %xmm1
	movaps	224(%rsp), %xmm2
	movaps	%xmm2, 704(%rsp)
	movaps	240(%rsp), %xmm3
	movaps	%xmm3, 720(%rsp)
	movaps	272(%rsp), %xmm4
	movaps	256(%rsp), %xmm5
	cmpb	$0, 192(%rsp)
	movaps	%xmm2, 384(%rsp)
	movaps	%xmm3, 400(%rsp)
	movaps	%xmm5, 416(%rsp)
	movaps	%xmm4, 432(%rsp)
	jne	87b
	xorps	%xmm0, %xmm0
	movaps	%xmm0, 128(%rsp)
	movaps	%xmm0, 112(%rsp)
	movaps	%xmm0, 96(%rsp)
	movaps	%xmm0, 80(%rsp)
	movaps	%xmm0, 64(%rsp)
	movaps	%xmm0, 48(%rsp)
	cmpq	$6, %r8
	ja	949f
	cmpq	$5, %r8
	jb	680f
	movq	296(%rsp), %rax
	testb	$-52, (%rax)
	je	928f
680:
	movaps	%xmm0, 496(%rsp)
	movaps	%xmm0, 480(%rsp)
	movaps	%xmm0, 464(%rsp)
	movaps	%xmm0, 448(%rsp)
	xorl	%eax, %eax
	xorl	%ecx, %ecx
	xorps	%xmm1, %xmm1
	jmp	680f
890:
	xorl	%ecx, %ecx
	testb	%al, %al
	je	231f
	movaps	.LC99d712ea_0(%rip), %xmm0
	movaps	%xmm0, 624(%rsp)
	movaps	%xmm0, 608(%rsp)
	movaps	%xmm0, 592(%rsp)
	movaps	%xmm0, 576(%rsp)
	movaps	.LC99d712ea_1(%rip), %xmm1
	movss	.LC99d712ea_3(%rip), %xmm0
969:
	movb	$1, %al
969:
	movb	%al, 192(%rsp)
	movss	%xmm0, 200(%rsp)
	movl	%ecx, 204(%rsp)
	movaps	%xmm1, 208(%rsp)
	movaps	576(%rsp), %xmm0
	movaps	592(%rsp), %xmm1
	movaps	608(%rsp), %xmm2
	movaps	624(%rsp), %xmm3
	movaps	%xmm0, 224(%rsp)
	movaps	%xmm1, 240(%rsp)
	movaps	%xmm2, 256(%rsp)
	movaps	%xmm3, 272(%rsp)
	jmp	229b
928:
	movq	296(%rsp), %rax
	movzbl	3(%rax), %ecx
	shll	$8, %ecx
	movzbl	2(%rax), %eax
	andl	$3, %eax
	orl	%ecx, %eax
	rolw	$8, %ax
	cmpw	$5, %ax
	jb	680b
	incl	%eax
	movzwl	%ax, %eax
	cmpq	%rax, %r8
	jb	680b
949:
	leaq	.LT54ed9b2a(%rip), %rsi
	leaq	48(%rsp), %rdi
	movl	$4, %edx
	movq	296(%rsp), %rcx
	movq	24(%rsp), %r9
	callq	tc_make.printed.write_named._5349ec06ad6c886c
	movzbl	48(%rsp), %ecx
	movsd	56(%rsp), %xmm0
	movl	60(%rsp), %eax
	movaps	64(%rsp), %xmm1
	movaps	80(%rsp), %xmm2
	movaps	%xmm2, 448(%rsp)
	movaps	96(%rsp), %xmm2
	movaps	%xmm2, 464(%rsp)
	movaps	112(%rsp), %xmm2
	movaps	%xmm2, 480(%rsp)
	movaps	128(%rsp), %xmm2
	movaps	%xmm2, 496(%rsp)
680:
	movaps	448(%rsp), %xmm2
	movaps	464(%rsp), %xmm3
	movaps	480(%rsp), %xmm4
	movaps	496(%rsp), %xmm5
	movaps	%xmm2, 320(%rsp)
	movaps	%xmm3, 336(%rsp)
	movaps	%xmm4, 352(%rsp)
	movaps	%xmm5, 368(%rsp)
	jmp	409b
231:
	xorps	%xmm0, %xmm0
	xorl	%eax, %eax
	xorps	%xmm1, %xmm1
	jmp	969b
740:
	leaq	.LT3235efc0(%rip), %rsi
	leaq	48(%rsp), %rdi
	movl	$1, %edx
	callq	core.fmt.formatter.Formatter.write_indented._1ac78889755d2eb3
	jmp	434b
71:
	leaq	48(%rsp), %rdi
	callq	core.fmt.formatter.Formatter.write_indented._1ac78889755d2eb3
	jmp	1b
214:
	ud2
	.section	.rodata.tc_make.explained.write_whole_frame._5349ec06ad6c886c,"a",@progbits
	.p2align	2
.LJ99d712ea_0:
	.long	669b-.LJ99d712ea_0
	.long	669b-.LJ99d712ea_0
	.long	868b-.LJ99d712ea_0
	.long	219b-.LJ99d712ea_0
	.section	.rodata.cst16,"aM",@progbits,16
	.p2align	4
.LCc9e02fc4_0:
	.zero	16,46
.LCc9e02fc4_1:
	.quad	7310596056926023526
	.quad	3346860010425884786
.LCc9e02fc4_2:
	.byte	2
	.byte	41
	.byte	15
	.byte	0
	.zero	1
	.zero	1
	.zero	1
	.zero	1
	.zero	1
	.zero	1
	.zero	1
	.zero	1
	.zero	1
	.zero	1
	.zero	1
	.zero	1
.LCc9e02fc4_3:
	.byte	2
	.byte	41
	.byte	15
	.byte	0
	.byte	0
	.byte	0
	.byte	0
	.byte	0
	.byte	0
	.byte	0
	.byte	0
	.byte	0
	.byte	0
	.byte	0
	.byte	0
	.byte	0
	.section	.text.tc_make.explained.write_carried._5349ec06ad6c886c,"ax",@progbits
	.p2align	4
tc_make.explained.write_carried._5349ec06ad6c886c:
	pushq	%rbp
	pushq	%r15
	pushq	%r14
	pushq	%r13
	pushq	%r12
	pushq	%rbx
	subq	$648, %rsp
	xorps	%xmm0, %xmm0
	movaps	%xmm0, 560(%rsp)
	movaps	%xmm0, 544(%rsp)
	movaps	%xmm0, 528(%rsp)
	movaps	%xmm0, 512(%rsp)
	movaps	%xmm0, 448(%rsp)
	movaps	%xmm0, 464(%rsp)
	movaps	%xmm0, 480(%rsp)
	movaps	%xmm0, 496(%rsp)
	testq	%rdx, %rdx
	je	409f
	movq	%rcx, %r8
	movq	%rdx, %r13
	movq	%rdi, 168(%rsp)
	leaq	-1(%rdx), %rax
	movq	%rax, 160(%rsp)
	movq	%rsi, %r14
	movzbl	(%rsi), %ebp
	movaps	%xmm0, 368(%rsp)
	movaps	%xmm0, 352(%rsp)
	movaps	%xmm0, 336(%rsp)
	movaps	%xmm0, 320(%rsp)
	movl	%ebp, %ecx
	shrl	$3, %ecx
	andl	$-8, %ecx
	movl	$50462721, %eax
	shrl	%cl, %eax
	movl	%eax, 304(%rsp)
	leaq	.Lswitch.table.tc_make.explained.write_carried._5349ec06ad6c886c(%rip), %rax
	movq	(%rcx,%rax), %r15
	leaq	.Lswitch.table.tc_make.explained.write_carried._5349ec06ad6c886c_.640(%rip), %rax
	movq	(%rcx,%rax), %r12
	movaps	%xmm0, 384(%rsp)
	movaps	%xmm0, 400(%rsp)
	movaps	%xmm0, 416(%rsp)
	movaps	%xmm0, 432(%rsp)
	movq	%r8, 8(%rsp)
	movq	%r8, 16(%rsp)
	movups	%xmm0, 24(%rsp)
	movups	%xmm0, 40(%rsp)
	movups	%xmm0, 56(%rsp)
	movups	%xmm0, 72(%rsp)
	movups	%xmm0, 88(%rsp)
	movups	%xmm0, 104(%rsp)
	leaq	124(%rsp), %rbx
	movups	%xmm0, 144(%rsp)
	movl	$32, 120(%rsp)
	movq	$0, 124(%rsp)
	movl	$0, 132(%rsp)
	movq	$-1, 136(%rsp)
	leaq	.LTda085ef3(%rip), %rsi
	leaq	16(%rsp), %rdi
	movl	$8, %edx
	callq	std.io.traits.AdapterWrite.write_str._5349ec06ad6c886c
	movb	$1, %dl
	testb	%al, %al
	je	327f
928:
	movq	8(%rsp), %r9
	jmp	71f
409:
	movb	$0, (%rdi)
	movups	%xmm0, 8(%rdi)
	movups	%xmm0, 24(%rdi)
	movups	%xmm0, 40(%rdi)
	movups	%xmm0, 56(%rdi)
	movups	%xmm0, 72(%rdi)
	movq	$0, 88(%rdi)
	jmp	850f
327:
	movl	$32, 120(%rsp)
	movl	$0, 8(%rbx)
	movq	$0, (%rbx)
	movq	$-1, 136(%rsp)
	cmpq	$0, 144(%rsp)
	jne	219f
	leaq	16(%rsp), %rdi
	movq	%r12, %rsi
	movq	%r15, %rdx
	callq	std.io.traits.AdapterWrite.write_str._5349ec06ad6c886c
	testb	%al, %al
	movq	8(%rsp), %r9
	movb	$1, %dl
	jne	71f
327:
	movl	$32, 120(%rsp)
	leaq	124(%rsp), %r15
	movl	$0, 8(%r15)
	movq	$0, (%r15)
	movq	$-1, 136(%rsp)
	cmpq	$0, 144(%rsp)
	jne	949f
	leaq	.LTb35dea14(%rip), %rsi
	leaq	16(%rsp), %rdi
	movl	$5, %edx
	callq	std.io.traits.AdapterWrite.write_str._5349ec06ad6c886c
	testb	%al, %al
	movq	8(%rsp), %r9
	movb	$1, %dl
	jne	71f
27:
	andb	$63, %bpl
	movl	$32, 120(%rsp)
	movl	$0, 8(%r15)
	movq	$0, (%r15)
	movq	$-1, 136(%rsp)
	xorps	%xmm0, %xmm0
	movaps	%xmm0, 176(%rsp)
	movq	$0, 191(%rsp)
	cmpb	$10, %bpl
	jb	669f
	leaq	198(%rsp), %rsi
	movzbl	%bpl, %eax
	leal	(%rax,%rax,4), %ecx
	leal	(%rcx,%rcx,4), %ecx
	addl	%eax, %ecx
	shrl	$8, %ecx
	leal	(%rcx,%rcx), %eax
	leal	(%rax,%rax,4), %eax
	subb	%al, %bpl
	orb	$48, %cl
	movb	%cl, 198(%rsp)
	movl	$2, %edx
	jmp	52f
669:
	leaq	199(%rsp), %rsi
	movl	$1, %edx
52:
	orb	$48, %bpl
	movb	%bpl, 199(%rsp)
	movb	$45, -1(%rsi)
	cmpq	$0, 144(%rsp)
	jne	669f
	leaq	16(%rsp), %rdi
	callq	std.io.traits.AdapterWrite.write_str._5349ec06ad6c886c
	testb	%al, %al
	movq	8(%rsp), %r9
	movb	$1, %dl
	jne	71f
186:
	movl	$32, 120(%rsp)
	movl	$0, 8(%r15)
	movq	$0, (%r15)
	movq	$-1, 136(%rsp)
	cmpq	$0, 144(%rsp)
	jne	740f
	leaq	.LT26126e75(%rip), %rsi
	leaq	16(%rsp), %rdi
	movl	$8, %edx
	callq	std.io.traits.AdapterWrite.write_str._5349ec06ad6c886c
	testb	%al, %al
	movq	8(%rsp), %r9
	je	327f
409:
	movb	$1, %dl
	jmp	71f
219:
	leaq	16(%rsp), %rdi
	movq	%r12, %rsi
	movq	%r15, %rdx
	callq	core.fmt.formatter.Formatter.write_indented._1ac78889755d2eb3
	testb	%al, %al
	movq	8(%rsp), %r9
	movb	$1, %dl
	jne	71f
	jmp	327b
949:
	leaq	.LTb35dea14(%rip), %rsi
	leaq	16(%rsp), %rdi
	movl	$5, %edx
	callq	core.fmt.formatter.Formatter.write_indented._1ac78889755d2eb3
	testb	%al, %al
	movq	8(%rsp), %r9
	movb	$1, %dl
	je	27b
	jmp	71f
669:
	leaq	16(%rsp), %rdi
	callq	core.fmt.formatter.Formatter.write_indented._1ac78889755d2eb3
	testb	%al, %al
	movq	8(%rsp), %r9
	movb	$1, %dl
	jne	71f
	jmp	186b
740:
	leaq	.LT26126e75(%rip), %rsi
	leaq	16(%rsp), %rdi
	movl	$8, %edx
	callq	core.fmt.formatter.Formatter.write_indented._1ac78889755d2eb3
	testb	%al, %al
	movq	8(%rsp), %r9
	jne	409b
327:
	movl	$32, 120(%rsp)
	movl	$0, 8(%r15)
	movq	$0, (%r15)
	movq	$-1, 136(%rsp)
	xorps	%xmm0, %xmm0
	movaps	%xmm0, 176(%rsp)
	movq	$0, 192(%rsp)
	movl	$24, %ecx
	leaq	-1(%r13), %rax
	movq	%rax, %rdx
	cmpq	$100, %rax
	jb	972f
	leaq	-1(%r13), %rsi
859:
	movq	%rsi, %rax
	shrq	$2, %rax
	movabsq	$2951479051793528259, %rdx
	mulq	%rdx
	shrq	$2, %rdx
	imull	$100, %edx, %eax
	movl	%esi, %edi
	subl	%eax, %edi
	movzbl	%dil, %eax
	imull	$205, %eax, %edi
	shrl	$11, %edi
	leal	(%rdi,%rdi), %r8d
	leal	(%r8,%r8,4), %r8d
	subb	%r8b, %al
	orb	$48, %al
	movb	%al, 175(%rsp,%rcx)
	orb	$48, %dil
	movb	%dil, 174(%rsp,%rcx)
	addq	$-2, %rcx
	cmpq	$9999, %rsi
	movq	%rdx, %rsi
	ja	859b
972:
	cmpq	$10, %rdx
	jb	52f
	movzbl	%dl, %eax
	imull	$205, %eax, %eax
	shrl	$11, %eax
	leal	(%rax,%rax), %esi
	leal	(%rsi,%rsi,4), %esi
	subb	%sil, %dl
	orb	$48, %dl
	movb	%dl, 175(%rsp,%rcx)
	orb	$48, %al
	movb	%al, 174(%rsp,%rcx)
	addq	$-2, %rcx
	jmp	669f
52:
	orb	$48, %dl
	movb	%dl, 175(%rsp,%rcx)
	decq	%rcx
669:
	leaq	(%rsp,%rcx), %rsi
	addq	$176, %rsi
	movb	$45, 175(%rsp,%rcx)
	movl	$24, %edx
	subq	%rcx, %rdx
	cmpq	$0, 144(%rsp)
	jne	172f
	leaq	16(%rsp), %rdi
	callq	std.io.traits.AdapterWrite.write_str._5349ec06ad6c886c
	testb	%al, %al
	movq	8(%rsp), %r9
	movb	$1, %dl
	je	434f
71:
	leaq	56(%rsp), %rcx
	cmpb	$1, 24(%rsp)
	jne	1f
	movsd	32(%rsp), %xmm1
	movl	36(%rsp), %eax
	movups	40(%rsp), %xmm0
	movups	(%rcx), %xmm2
	movups	16(%rcx), %xmm3
	movups	32(%rcx), %xmm4
	movups	48(%rcx), %xmm5
	movaps	%xmm5, 224(%rsp)
	movaps	%xmm4, 208(%rsp)
	movaps	%xmm3, 192(%rsp)
	movaps	%xmm2, 176(%rsp)
	jmp	680f
1:
	testb	%dl, %dl
	je	629f
	movaps	.LCc9e02fc4_0(%rip), %xmm0
	movaps	%xmm0, 224(%rsp)
	movaps	%xmm0, 208(%rsp)
	movaps	%xmm0, 192(%rsp)
	movaps	%xmm0, 176(%rsp)
	movaps	.LCc9e02fc4_1(%rip), %xmm0
	movss	.LCc9e02fc4_3(%rip), %xmm1
	xorl	%eax, %eax
680:
	movaps	176(%rsp), %xmm2
	movaps	192(%rsp), %xmm3
	movaps	208(%rsp), %xmm4
	movaps	224(%rsp), %xmm5
	movaps	%xmm2, 320(%rsp)
	movaps	%xmm2, 448(%rsp)
	movaps	%xmm3, 464(%rsp)
	movaps	%xmm4, 480(%rsp)
	movaps	%xmm5, 496(%rsp)
	movq	168(%rsp), %rcx
	movb	$1, (%rcx)
	movss	%xmm1, 8(%rcx)
	movl	%eax, 12(%rcx)
	movups	%xmm0, 16(%rcx)
	movaps	448(%rsp), %xmm0
	movaps	464(%rsp), %xmm1
	movaps	480(%rsp), %xmm2
	movaps	496(%rsp), %xmm3
	movups	%xmm0, 32(%rcx)
	movups	%xmm1, 48(%rcx)
	movups	%xmm2, 64(%rcx)
	movups	%xmm3, 80(%rcx)
850:
	addq	$648, %rsp
	popq	%rbx
	popq	%r12
	popq	%r13
	popq	%r14
	popq	%r15
	popq	%rbp
	retq
629:
	incq	%r14
	xorps	%xmm0, %xmm0
	movaps	%xmm0, 448(%rsp)
	movaps	%xmm0, 464(%rsp)
	movaps	%xmm0, 480(%rsp)
	movaps	%xmm0, 496(%rsp)
	movaps	%xmm0, 288(%rsp)
	movaps	%xmm0, 272(%rsp)
	movaps	%xmm0, 256(%rsp)
	movaps	%xmm0, 240(%rsp)
	movzbl	304(%rsp), %eax
	leaq	.LJc9e02fc4_0(%rip), %rcx
	movslq	(%rcx,%rax,4), %rax
	addq	%rcx, %rax
	jmpq	*%rax
680:
	movaps	%xmm0, 96(%rsp)
	movaps	%xmm0, 80(%rsp)
	movaps	%xmm0, 64(%rsp)
	movaps	%xmm0, 48(%rsp)
	movaps	%xmm0, 32(%rsp)
	movaps	%xmm0, 16(%rsp)
	movq	160(%rsp), %r8
	testq	%r8, %r8
	movq	168(%rsp), %rbx
	je	87f
	leaq	.LTb585f321(%rip), %rsi
	leaq	16(%rsp), %rdi
	movl	$4, %edx
	movq	%r14, %rcx
	callq	tc_make.printed.write_named._5349ec06ad6c886c
	movzbl	16(%rsp), %ecx
	movsd	24(%rsp), %xmm0
	movl	28(%rsp), %eax
	movaps	32(%rsp), %xmm1
	movaps	48(%rsp), %xmm2
	movaps	%xmm2, 240(%rsp)
	movaps	64(%rsp), %xmm2
	movaps	%xmm2, 256(%rsp)
	movaps	80(%rsp), %xmm2
	movaps	%xmm2, 272(%rsp)
	movaps	96(%rsp), %xmm2
	movaps	%xmm2, 288(%rsp)
	jmp	860f
87:
	movaps	%xmm0, 288(%rsp)
	movaps	%xmm0, 272(%rsp)
	movaps	%xmm0, 256(%rsp)
	movaps	%xmm0, 240(%rsp)
	xorl	%ecx, %ecx
	xorl	%eax, %eax
	xorps	%xmm1, %xmm1
	jmp	860f
87:
	movaps	%xmm0, 384(%rsp)
	movaps	%xmm0, 400(%rsp)
	movaps	%xmm0, 416(%rsp)
	movaps	%xmm0, 432(%rsp)
	movaps	%xmm0, 320(%rsp)
	movaps	%xmm0, 336(%rsp)
	movaps	%xmm0, 352(%rsp)
	movaps	%xmm0, 368(%rsp)
	cmpq	$8, %r13
	jae	219f
	movq	160(%rsp), %r13
430:
	movaps	%xmm0, 96(%rsp)
	movaps	%xmm0, 80(%rsp)
	movaps	%xmm0, 64(%rsp)
	movaps	%xmm0, 48(%rsp)
	movaps	%xmm0, 32(%rsp)
	movaps	%xmm0, 16(%rsp)
	movq	%r13, %r8
	testq	%r13, %r13
	je	430f
669:
	leaq	.LTad2772d4(%rip), %rsi
	leaq	16(%rsp), %rdi
	movl	$4, %edx
	movq	%r14, %rcx
	callq	tc_make.printed.write_named._5349ec06ad6c886c
	movzbl	16(%rsp), %ecx
	movsd	24(%rsp), %xmm0
	movl	28(%rsp), %eax
	movaps	32(%rsp), %xmm1
	movaps	48(%rsp), %xmm2
	movaps	%xmm2, 384(%rsp)
	movaps	64(%rsp), %xmm2
	movaps	%xmm2, 400(%rsp)
	movaps	80(%rsp), %xmm2
	movaps	%xmm2, 416(%rsp)
	movaps	96(%rsp), %xmm2
	movaps	%xmm2, 432(%rsp)
	jmp	12f
219:
	leaq	24(%rsp), %rbx
	movq	160(%rsp), %r8
471:
	movzwl	(%r14), %r15d
	rolw	$8, %r15w
	movzwl	%r15w, %ecx
	cmpl	$8191, %ecx
	ja	231f
	movzwl	4(%r14), %eax
	rolw	$8, %ax
	movzwl	%ax, %eax
	addq	$7, %rax
	movq	%r8, %r13
	movq	%rax, 304(%rsp)
	subq	%rax, %r13
	jb	231f
	movq	%r14, 160(%rsp)
	movzwl	2(%r14), %ebp
	movl	%ecx, 316(%rsp)
	cmpl	$4096, %ecx
	leaq	.LTd2f6f45b(%rip), %rax
	leaq	.LT9a517a8e(%rip), %r14
	cmovaeq	%rax, %r14
	movq	%r9, 16(%rsp)
	xorps	%xmm0, %xmm0
	movups	%xmm0, 80(%rbx)
	movups	%xmm0, 64(%rbx)
	movups	%xmm0, 48(%rbx)
	movups	%xmm0, 32(%rbx)
	movups	%xmm0, 16(%rbx)
	movups	%xmm0, (%rbx)
	movq	%rbx, %r12
	movups	%xmm0, 120(%rbx)
	movl	$32, 120(%rsp)
	leaq	124(%rsp), %rbx
	movl	$0, 8(%rbx)
	movq	$0, (%rbx)
	movq	$-1, 136(%rsp)
	leaq	.LT7f1de622(%rip), %rsi
	leaq	16(%rsp), %rdi
	movl	$6, %edx
	callq	std.io.traits.AdapterWrite.write_str._5349ec06ad6c886c
	testb	%al, %al
	je	327f
	xorl	%eax, %eax
	movq	8(%rsp), %rcx
	movq	%r12, %rbx
	jmp	868f
327:
	movl	%ebp, 312(%rsp)
	movl	$32, 120(%rsp)
	movl	$0, 8(%rbx)
	movq	$0, (%rbx)
	movq	$-1, 136(%rsp)
	cmpq	$0, 144(%rsp)
	jne	949f
	leaq	16(%rsp), %rdi
	movl	$2, %edx
	movq	%r14, %rsi
	callq	std.io.traits.AdapterWrite.write_str._5349ec06ad6c886c
	movq	%r12, %rbx
	testb	%al, %al
	movq	8(%rsp), %rcx
	jne	890f
327:
	movl	$32, 120(%rsp)
	leaq	124(%rsp), %rax
	movl	$0, 8(%rax)
	movq	$0, (%rax)
	movq	$-1, 136(%rsp)
	cmpq	$0, 144(%rsp)
	jne	740f
	leaq	.LTd36e0410(%rip), %rsi
	leaq	16(%rsp), %rdi
	movl	$6, %edx
	callq	std.io.traits.AdapterWrite.write_str._5349ec06ad6c886c
	testb	%al, %al
	movq	8(%rsp), %rcx
	jne	890f
523:
	andl	$2047, %r15d
	movl	$32, 120(%rsp)
	leaq	124(%rsp), %rax
	movl	$0, 8(%rax)
	movq	$0, (%rax)
	movq	$-1, 136(%rsp)
	xorps	%xmm0, %xmm0
	movaps	%xmm0, 176(%rsp)
	movq	$0, 192(%rsp)
	movl	$24, %eax
	cmpw	$100, %r15w
	jb	219f
	movzwl	%r15w, %eax
	imull	$1311, %eax, %r15d
	shrl	$17, %r15d
	imull	$100, %r15d, %ecx
	subl	%ecx, %eax
	imull	$205, %eax, %ecx
	movzwl	%cx, %ecx
	shrl	$11, %ecx
	leal	(%rcx,%rcx), %edx
	leal	(%rdx,%rdx,4), %edx
	subb	%dl, %al
	orb	$48, %al
	movb	%al, 199(%rsp)
	orb	$48, %cl
	movb	%cl, 198(%rsp)
	movl	$22, %eax
	leaq	198(%rsp), %rcx
	jmp	129f
219:
	leaq	200(%rsp), %rcx
129:
	cmpw	$10, %r15w
	jb	52f
	movzbl	%r15b, %edx
	imull	$205, %edx, %edx
	shrl	$11, %edx
	leal	(%rdx,%rdx), %esi
	leal	(%rsi,%rsi,4), %esi
	subb	%sil, %r15b
	orb	$48, %r15b
	movb	%r15b, -1(%rcx)
	orb	$48, %dl
	movb	%dl, -2(%rcx)
	addq	$-2, %rax
	jmp	219f
52:
	orb	$48, %r15b
	movb	%r15b, 175(%rsp,%rax)
	decq	%rax
219:
	leaq	(%rsp,%rax), %rsi
	addq	$176, %rsi
	movb	$45, 175(%rsp,%rax)
	movl	$24, %edx
	subq	%rax, %rdx
	cmpq	$0, 144(%rsp)
	jne	917f
	leaq	16(%rsp), %rdi
	callq	std.io.traits.AdapterWrite.write_str._5349ec06ad6c886c
	testb	%al, %al
	movq	8(%rsp), %rcx
	jne	890f
186:
	movl	$32, 120(%rsp)
	leaq	124(%rsp), %rax
	movl	$0, 8(%rax)
	movq	$0, (%rax)
	movq	$-1, 136(%rsp)
	cmpq	$0, 144(%rsp)
	jne	359f
	leaq	.LTfa4383a8(%rip), %rsi
	leaq	16(%rsp), %rdi
	movl	$7, %edx
	callq	std.io.traits.AdapterWrite.write_str._5349ec06ad6c886c
	testb	%al, %al
	movq	8(%rsp), %rcx
	movl	312(%rsp), %eax
	jne	890f
750:
	rolw	$8, %ax
	movl	%eax, %r14d
	andl	$16383, %eax
	movl	$32, 120(%rsp)
	leaq	124(%rsp), %rcx
	movl	$0, 8(%rcx)
	movq	$0, (%rcx)
	movq	$-1, 136(%rsp)
	movzwl	%ax, %edx
	xorps	%xmm0, %xmm0
	movaps	%xmm0, 176(%rsp)
	movq	$0, 192(%rsp)
	movl	$24, %eax
	cmpw	$100, %dx
	jb	859f
981:
	movl	%edx, %ecx
	imulq	$1374389535, %rcx, %rcx
	shrq	$37, %rcx
	imull	$100, %ecx, %esi
	movl	%edx, %edi
	subl	%esi, %edi
	imull	$103, %edi, %esi
	movzwl	%si, %esi
	shrl	$10, %esi
	leal	(%rsi,%rsi), %r8d
	leal	(%r8,%r8,4), %r8d
	subb	%r8b, %dil
	orb	$48, %dil
	movb	%dil, 175(%rsp,%rax)
	orb	$48, %sil
	movb	%sil, 174(%rsp,%rax)
	addq	$-2, %rax
	cmpq	$9999, %rdx
	movq	%rcx, %rdx
	ja	981b
	jmp	972f
949:
	leaq	16(%rsp), %rdi
	movl	$2, %edx
	movq	%r14, %rsi
	callq	core.fmt.formatter.Formatter.write_indented._1ac78889755d2eb3
	movq	%r12, %rbx
	testb	%al, %al
	movq	8(%rsp), %rcx
	jne	890f
	jmp	327b
740:
	leaq	.LTd36e0410(%rip), %rsi
	leaq	16(%rsp), %rdi
	movl	$6, %edx
	callq	core.fmt.formatter.Formatter.write_indented._1ac78889755d2eb3
	testb	%al, %al
	movq	8(%rsp), %rcx
	jne	890f
	jmp	523b
859:
	movq	%rdx, %rcx
972:
	cmpq	$10, %rcx
	jb	52f
	movzbl	%cl, %edx
	imull	$205, %edx, %edx
	shrl	$11, %edx
	leal	(%rdx,%rdx), %esi
	leal	(%rsi,%rsi,4), %esi
	subb	%sil, %cl
	orb	$48, %cl
	movb	%cl, 175(%rsp,%rax)
	orb	$48, %dl
	movb	%dl, 174(%rsp,%rax)
	addq	$-2, %rax
	jmp	219f
52:
	orb	$48, %cl
	movb	%cl, 175(%rsp,%rax)
	decq	%rax
219:
	leaq	(%rsp,%rax), %rsi
	addq	$176, %rsi
	movb	$45, 175(%rsp,%rax)
	movl	$24, %edx
	subq	%rax, %rdx
	cmpq	$0, 144(%rsp)
	jne	219f
	leaq	16(%rsp), %rdi
	callq	std.io.traits.AdapterWrite.write_str._5349ec06ad6c886c
	testb	%al, %al
	movq	8(%rsp), %rcx
	jne	890f
327:
	movl	$32, 120(%rsp)
	leaq	124(%rsp), %rax
	movl	$0, 8(%rax)
	movq	$0, (%rax)
	movq	$-1, 136(%rsp)
	cmpq	$0, 144(%rsp)
	jne	949f
	leaq	.LT05553995(%rip), %rsi
	leaq	16(%rsp), %rdi
	movl	$7, %edx
	callq	std.io.traits.AdapterWrite.write_str._5349ec06ad6c886c
	testb	%al, %al
	movq	8(%rsp), %rcx
	jne	890f
634:
	movzwl	%r14w, %eax
	shrl	$14, %eax
	movl	$32, 120(%rsp)
	leaq	124(%rsp), %rcx
	movl	$0, 8(%rcx)
	movq	$0, (%rcx)
	movq	$-1, 136(%rsp)
	xorps	%xmm0, %xmm0
	movaps	%xmm0, 176(%rsp)
	movq	$0, 190(%rsp)
	orb	$48, %al
	movb	%al, 199(%rsp)
	movb	$45, 198(%rsp)
	cmpq	$0, 144(%rsp)
	jne	661f
	leaq	16(%rsp), %rdi
	movl	$1, %edx
	leaq	199(%rsp), %rsi
	callq	std.io.traits.AdapterWrite.write_str._5349ec06ad6c886c
1:
	testb	%al, %al
	sete	%al
	movq	8(%rsp), %rcx
	jmp	868f
917:
	leaq	16(%rsp), %rdi
	callq	core.fmt.formatter.Formatter.write_indented._1ac78889755d2eb3
	testb	%al, %al
	movq	8(%rsp), %rcx
	jne	890f
	jmp	186b
359:
	leaq	.LTfa4383a8(%rip), %rsi
	leaq	16(%rsp), %rdi
	movl	$7, %edx
	callq	core.fmt.formatter.Formatter.write_indented._1ac78889755d2eb3
	testb	%al, %al
	movq	8(%rsp), %rcx
	movl	312(%rsp), %eax
	jne	890f
	jmp	750b
219:
	leaq	16(%rsp), %rdi
	callq	core.fmt.formatter.Formatter.write_indented._1ac78889755d2eb3
	testb	%al, %al
	movq	8(%rsp), %rcx
	jne	890f
	jmp	327b
949:
	leaq	.LT05553995(%rip), %rsi
	leaq	16(%rsp), %rdi
	movl	$7, %edx
	callq	core.fmt.formatter.Formatter.write_indented._1ac78889755d2eb3
	testb	%al, %al
	movq	8(%rsp), %rcx
	je	634b
890:
	xorl	%eax, %eax
868:
	cmpb	$1, 24(%rsp)
	je	464f
	testb	%al, %al
	je	237f
	movq	%rcx, 16(%rsp)
	xorps	%xmm0, %xmm0
	movups	%xmm0, 80(%rbx)
	movups	%xmm0, 64(%rbx)
	movups	%xmm0, 48(%rbx)
	movups	%xmm0, 32(%rbx)
	movups	%xmm0, 16(%rbx)
	movups	%xmm0, (%rbx)
	movups	%xmm0, 120(%rbx)
	movl	$32, 120(%rsp)
	leaq	124(%rsp), %r15
	movl	$0, 8(%r15)
	movq	$0, (%r15)
	movq	$-1, 136(%rsp)
	leaq	.LTd4ce07c9(%rip), %rsi
	leaq	16(%rsp), %rdi
	movl	$11, %edx
	callq	std.io.traits.AdapterWrite.write_str._5349ec06ad6c886c
	movb	$1, %r14b
	testb	%al, %al
	je	327f
	movq	8(%rsp), %r9
	movq	304(%rsp), %r15
	jmp	868f
327:
	movl	316(%rsp), %eax
	shrl	$11, %eax
	andb	$1, %al
	movl	$32, 120(%rsp)
	movl	$0, 8(%r15)
	movq	$0, (%r15)
	movq	$-1, 136(%rsp)
	xorps	%xmm0, %xmm0
	movaps	%xmm0, 176(%rsp)
	movq	$0, 190(%rsp)
	orb	$48, %al
	movb	%al, 199(%rsp)
	movb	$45, 198(%rsp)
	cmpq	$0, 144(%rsp)
	jne	219f
	leaq	16(%rsp), %rdi
	movl	$1, %edx
	leaq	199(%rsp), %rsi
	callq	std.io.traits.AdapterWrite.write_str._5349ec06ad6c886c
	testb	%al, %al
	movq	8(%rsp), %r9
	movq	304(%rsp), %r15
	jne	868f
327:
	movl	$32, 120(%rsp)
	leaq	124(%rsp), %rax
	movl	$0, 8(%rax)
	movq	$0, (%rax)
	movq	$-1, 136(%rsp)
	cmpq	$0, 144(%rsp)
	jne	949f
	leaq	.LT37337163(%rip), %rsi
	leaq	16(%rsp), %rdi
	movl	$1, %edx
	callq	std.io.traits.AdapterWrite.write_str._5349ec06ad6c886c
	testb	%al, %al
	jne	859f
186:
	movl	$32, 120(%rsp)
	leaq	124(%rsp), %rax
	movl	$0, 8(%rax)
	movq	$0, (%rax)
	movq	$-1, 136(%rsp)
	leaq	16(%rsp), %rdx
	movq	160(%rsp), %rdi
	movq	%r15, %rsi
	callq	tc_lines.digits.DigitsDisplay.fmt._1ac78889755d2eb3
	testb	%al, %al
	movq	8(%rsp), %r9
	jne	868f
	movl	$32, 120(%rsp)
	leaq	124(%rsp), %rax
	movl	$0, 8(%rax)
	movq	$0, (%rax)
	movq	$-1, 136(%rsp)
	cmpq	$0, 144(%rsp)
	jne	740f
	leaq	.LT3235efc0(%rip), %rsi
	leaq	16(%rsp), %rdi
	movl	$1, %edx
	callq	std.io.traits.AdapterWrite.write_str._5349ec06ad6c886c
981:
	movl	%eax, %r14d
859:
	movq	8(%rsp), %r9
868:
	cmpb	$1, 24(%rsp)
	je	781f
	testb	%r14b, %r14b
	jne	368f
	movq	160(%rsp), %r14
	addq	%r15, %r14
	xorps	%xmm0, %xmm0
	movaps	%xmm0, 320(%rsp)
	movaps	%xmm0, 336(%rsp)
	movaps	%xmm0, 352(%rsp)
	movaps	%xmm0, 368(%rsp)
	movq	%r13, %r8
	cmpq	$7, %r13
	jae	471b
	jmp	430b
219:
	leaq	199(%rsp), %rsi
	leaq	16(%rsp), %rdi
	movl	$1, %edx
	callq	core.fmt.formatter.Formatter.write_indented._1ac78889755d2eb3
	testb	%al, %al
	movq	8(%rsp), %r9
	movq	304(%rsp), %r15
	jne	868b
	jmp	327b
949:
	leaq	.LT37337163(%rip), %rsi
	leaq	16(%rsp), %rdi
	movl	$1, %edx
	callq	core.fmt.formatter.Formatter.write_indented._1ac78889755d2eb3
	testb	%al, %al
	je	186b
	jmp	859b
740:
	leaq	.LT3235efc0(%rip), %rsi
	leaq	16(%rsp), %rdi
	movl	$1, %edx
	callq	core.fmt.formatter.Formatter.write_indented._1ac78889755d2eb3
	jmp	981b
661:
	leaq	199(%rsp), %rsi
	leaq	16(%rsp), %rdi
	movl	$1, %edx
	callq	core.fmt.formatter.Formatter.write_indented._1ac78889755d2eb3
	jmp	1b
430:
	movaps	%xmm0, 432(%rsp)
	movaps	%xmm0, 416(%rsp)
	movaps	%xmm0, 400(%rsp)
	movaps	%xmm0, 384(%rsp)
	xorl	%eax, %eax
	xorl	%ecx, %ecx
	xorps	%xmm1, %xmm1
12:
	movq	168(%rsp), %rbx
	movaps	384(%rsp), %xmm2
	movaps	400(%rsp), %xmm3
	movaps	416(%rsp), %xmm4
	movaps	432(%rsp), %xmm5
	movaps	%xmm2, 240(%rsp)
	movaps	%xmm3, 256(%rsp)
	movaps	%xmm4, 272(%rsp)
	movaps	%xmm5, 288(%rsp)
	jmp	860f
231:
	xorps	%xmm0, %xmm0
	movaps	%xmm0, 96(%rsp)
	movaps	%xmm0, 80(%rsp)
	movaps	%xmm0, 64(%rsp)
	movaps	%xmm0, 48(%rsp)
	movaps	%xmm0, 32(%rsp)
	movaps	%xmm0, 16(%rsp)
	jmp	669b
464:
	movups	40(%rsp), %xmm1
	movl	36(%rsp), %eax
	movsd	32(%rsp), %xmm0
	movups	56(%rsp), %xmm2
	movaps	%xmm2, 176(%rsp)
	movups	72(%rsp), %xmm2
	movaps	%xmm2, 192(%rsp)
	movups	88(%rsp), %xmm2
	movaps	%xmm2, 208(%rsp)
	movups	104(%rsp), %xmm2
	movaps	%xmm2, 224(%rsp)
	jmp	430f
237:
	movaps	.LCc9e02fc4_0(%rip), %xmm0
	movaps	%xmm0, 224(%rsp)
	movaps	%xmm0, 208(%rsp)
	movaps	%xmm0, 192(%rsp)
	movaps	%xmm0, 176(%rsp)
	movaps	.LCc9e02fc4_1(%rip), %xmm1
	movss	.LCc9e02fc4_3(%rip), %xmm0
	xorl	%eax, %eax
430:
	movaps	176(%rsp), %xmm2
	movaps	192(%rsp), %xmm3
	movaps	208(%rsp), %xmm4
	movaps	224(%rsp), %xmm5
	jmp	237f
781:
	movups	40(%rsp), %xmm1
	movl	36(%rsp), %eax
	movsd	32(%rsp), %xmm0
	leaq	56(%rsp), %rcx
	movups	(%rcx), %xmm2
	movups	16(%rcx), %xmm3
	movups	32(%rcx), %xmm4
	movups	48(%rcx), %xmm5
	movaps	%xmm2, 576(%rsp)
	movaps	%xmm3, 592(%rsp)
	movaps	%xmm4, 608(%rsp)
	movaps	%xmm5, 624(%rsp)
	jmp	430f
368:
	movaps	.LCc9e02fc4_0(%rip), %xmm0
	movaps	%xmm0, 624(%rsp)
	movaps	%xmm0, 608(%rsp)
	movaps	%xmm0, 592(%rsp)
	movaps	%xmm0, 576(%rsp)
	movaps	.LCc9e02fc4_1(%rip), %xmm1
	movss	.LCc9e02fc4_3(%rip), %xmm0
	xorl	%eax, %eax
430:
	movaps	576(%rsp), %xmm2
	movaps	592(%rsp), %xmm3
	movaps	608(%rsp), %xmm4
	movaps	624(%rsp), %xmm5
237:
	movaps	%xmm2, 320(%rsp)
	movaps	%xmm3, 336(%rsp)
	movaps	%xmm4, 352(%rsp)
	movaps	%xmm5, 368(%rsp)
	movq	168(%rsp), %rbx
	movaps	320(%rsp), %xmm2
	movaps	336(%rsp), %xmm3
	movaps	352(%rsp), %xmm4
	movaps	368(%rsp), %xmm5
	movaps	%xmm5, 288(%rsp)
	movaps	%xmm4, 272(%rsp)
	movaps	%xmm3, 256(%rsp)
	movaps	%xmm2, 240(%rsp)
	movb	$1, %cl
860:
	movaps	240(%rsp), %xmm2
	movaps	256(%rsp), %xmm3
	movaps	272(%rsp), %xmm4
	movaps	288(%rsp), %xmm5
	movaps	%xmm5, 560(%rsp)
	movaps	%xmm4, 544(%rsp)
	movaps	%xmm3, 528(%rsp)
	movaps	%xmm2, 512(%rsp)
	movb	%cl, (%rbx)
	movss	%xmm0, 8(%rbx)
	movl	%eax, 12(%rbx)
	movups	%xmm1, 16(%rbx)
	movaps	512(%rsp), %xmm0
	movaps	528(%rsp), %xmm1
	movaps	544(%rsp), %xmm2
	movaps	560(%rsp), %xmm3
	movups	%xmm0, 32(%rbx)
	movups	%xmm1, 48(%rbx)
	movups	%xmm2, 64(%rbx)
	movups	%xmm3, 80(%rbx)
	jmp	850b
172:
	leaq	16(%rsp), %rdi
	callq	core.fmt.formatter.Formatter.write_indented._1ac78889755d2eb3
	testb	%al, %al
	movq	8(%rsp), %r9
	movb	$1, %dl
	jne	71b
434:
	movl	$32, 120(%rsp)
	leaq	124(%rsp), %rax
	movl	$0, 8(%rax)
	movq	$0, (%rax)
	movq	$-1, 136(%rsp)
	cmpq	$0, 144(%rsp)
	jne	669f
	leaq	.LT3235efc0(%rip), %rsi
	leaq	16(%rsp), %rdi
	movl	$1, %edx
	callq	std.io.traits.AdapterWrite.write_str._5349ec06ad6c886c
327:
	movl	%eax, %edx
	jmp	928b
669:
	leaq	.LT3235efc0(%rip), %rsi
	leaq	16(%rsp), %rdi
	movl	$1, %edx
	callq	core.fmt.formatter.Formatter.write_indented._1ac78889755d2eb3
	jmp	327b
	.section	.rodata.tc_make.explained.write_carried._5349ec06ad6c886c,"a",@progbits
	.p2align	2
.LJc9e02fc4_0:
	.long	680b-.LJc9e02fc4_0
	.long	680b-.LJc9e02fc4_0
	.long	680b-.LJc9e02fc4_0
	.long	87b-.LJc9e02fc4_0
	.section	.rodata.cst16,"aM",@progbits,16
	.p2align	4
.LCcc98f0d2_0:
	.zero	16,46
.LCcc98f0d2_1:
	.quad	7310596056926023526
	.quad	3346860010425884786
.LCcc98f0d2_2:
	.byte	2
	.byte	41
	.byte	15
	.byte	0
	.zero	1
	.zero	1
	.zero	1
	.zero	1
	.zero	1
	.zero	1
	.zero	1
	.zero	1
	.zero	1
	.zero	1
	.zero	1
	.zero	1
.LCcc98f0d2_3:
	.byte	2
	.byte	41
	.byte	15
	.byte	0
	.byte	0
	.byte	0
	.byte	0
	.byte	0
	.byte	0
	.byte	0
	.byte	0
	.byte	0
	.byte	0
	.byte	0
	.byte	0
	.byte	0
	.section	.text.std.io.traits.Write.write_fmt._2163a20560420d27,"ax",@progbits
	.p2align	4
std.io.traits.Write.write_fmt._2163a20560420d27:
	pushq	%rbp
	pushq	%r15
	pushq	%r14
	pushq	%r13
	pushq	%r12
	pushq	%rbx
	subq	$280, %rsp
	movq	%rdi, %rbx
	movq	(%rdx), %rax
	movq	8(%rdx), %rcx
	movq	16(%rdx), %r13
	movq	24(%rdx), %r15
	movq	32(%rdx), %r14
	xorps	%xmm0, %xmm0
	movaps	%xmm0, 256(%rsp)
	movaps	%xmm0, 240(%rsp)
	movaps	%xmm0, 224(%rsp)
	movaps	%xmm0, 208(%rsp)
	movq	%rsi, 64(%rsp)
	movups	%xmm0, 72(%rsp)
	movups	%xmm0, 88(%rsp)
	movups	%xmm0, 104(%rsp)
	movups	%xmm0, 120(%rsp)
	movups	%xmm0, 136(%rsp)
	movups	%xmm0, 152(%rsp)
	movl	$32, 168(%rsp)
	movl	$0, 180(%rsp)
	movq	$0, 172(%rsp)
	movq	$-1, 184(%rsp)
	movups	%xmm0, 192(%rsp)
	leaq	64(%rsp), %rdi
	movq	%rax, %rsi
	movq	%rcx, %rdx
	callq	std.io.traits.AdapterWrite.write_str._5349ec06ad6c886c
	movb	$1, %bpl
	testb	%al, %al
	jne	548f
	leaq	172(%rsp), %r12
	movl	$32, 168(%rsp)
	movl	$0, 8(%r12)
	movq	$0, (%r12)
	movq	$-1, 184(%rsp)
	movzbl	(%r13), %eax
	xorps	%xmm0, %xmm0
	movaps	%xmm0, (%rsp)
	movq	$0, 16(%rsp)
	cmpb	$100, %al
	jb	327f
	movzbl	%al, %ecx
	leal	(%rcx,%rcx,4), %edx
	leal	(%rcx,%rdx,8), %edx
	shrl	$12, %edx
	imull	$100, %edx, %ecx
	subb	%cl, %al
	movzbl	%al, %eax
	imull	$205, %eax, %ecx
	shrl	$11, %ecx
	leal	(%rcx,%rcx), %esi
	leal	(%rsi,%rsi,4), %esi
	subb	%sil, %al
	orb	$48, %al
	movb	%al, 23(%rsp)
	orb	$48, %cl
	movb	%cl, 22(%rsp)
	movl	$21, %ecx
	movl	%edx, %eax
	jmp	52f
327:
	movl	$23, %ecx
	cmpb	$10, %al
	jb	52f
	movzbl	%al, %ecx
	imull	$205, %ecx, %ecx
	shrl	$11, %ecx
	leal	(%rcx,%rcx), %edx
	leal	(%rdx,%rdx,4), %edx
	subb	%dl, %al
	orb	$48, %al
	movb	%al, 23(%rsp)
	orb	$48, %cl
	movb	%cl, 22(%rsp)
	movl	$22, %ecx
	jmp	669f
52:
	orb	$48, %al
	movb	%al, (%rsp,%rcx)
669:
	leaq	(%rsp,%rcx), %rsi
	movb	$45, -1(%rsp,%rcx)
	movl	$24, %edx
	subq	%rcx, %rdx
	cmpq	$0, 192(%rsp)
	jne	669f
	leaq	64(%rsp), %rdi
	callq	std.io.traits.AdapterWrite.write_str._5349ec06ad6c886c
	testb	%al, %al
	jne	548f
327:
	movl	$32, 168(%rsp)
	movl	$0, 8(%r12)
	movq	$0, (%r12)
	movq	$-1, 184(%rsp)
	cmpq	$0, 192(%rsp)
	jne	219f
	leaq	64(%rsp), %rdi
	movq	%r15, %rsi
	movq	%r14, %rdx
	callq	std.io.traits.AdapterWrite.write_str._5349ec06ad6c886c
186:
	movl	%eax, %ebp
548:
	movzbl	72(%rsp), %ecx
	movsd	80(%rsp), %xmm1
	movl	84(%rsp), %eax
	movups	88(%rsp), %xmm0
	xorps	%xmm2, %xmm2
	movaps	%xmm2, 48(%rsp)
	movaps	%xmm2, 32(%rsp)
	movaps	%xmm2, 16(%rsp)
	movaps	%xmm2, (%rsp)
	cmpb	$1, %cl
	jne	890f
	leaq	104(%rsp), %rcx
	movups	(%rcx), %xmm2
	movups	16(%rcx), %xmm3
	movups	32(%rcx), %xmm4
	movups	48(%rcx), %xmm5
	movaps	%xmm5, 48(%rsp)
	movaps	%xmm4, 32(%rsp)
	movaps	%xmm3, 16(%rsp)
	movaps	%xmm2, (%rsp)
	jmp	409f
890:
	xorl	%eax, %eax
	testb	%bpl, %bpl
	je	231f
	movaps	.LCcc98f0d2_0(%rip), %xmm0
	movaps	%xmm0, 48(%rsp)
	movaps	%xmm0, 32(%rsp)
	movaps	%xmm0, 16(%rsp)
	movaps	%xmm0, (%rsp)
	movaps	.LCcc98f0d2_1(%rip), %xmm0
	movss	.LCcc98f0d2_3(%rip), %xmm1
409:
	movb	$1, %cl
680:
	movaps	(%rsp), %xmm2
	movaps	16(%rsp), %xmm3
	movaps	32(%rsp), %xmm4
	movaps	48(%rsp), %xmm5
	movaps	%xmm5, 256(%rsp)
	movaps	%xmm4, 240(%rsp)
	movaps	%xmm3, 224(%rsp)
	movaps	%xmm2, 208(%rsp)
	movb	%cl, (%rbx)
	movss	%xmm1, 8(%rbx)
	movl	%eax, 12(%rbx)
	movups	%xmm0, 16(%rbx)
	movaps	208(%rsp), %xmm0
	movaps	224(%rsp), %xmm1
	movaps	240(%rsp), %xmm2
	movaps	256(%rsp), %xmm3
	movups	%xmm0, 32(%rbx)
	movups	%xmm1, 48(%rbx)
	movups	%xmm2, 64(%rbx)
	movups	%xmm3, 80(%rbx)
	addq	$280, %rsp
	popq	%rbx
	popq	%r12
	popq	%r13
	popq	%r14
	popq	%r15
	popq	%rbp
	retq
231:
	xorps	%xmm0, %xmm0
	xorps	%xmm1, %xmm1
	xorl	%ecx, %ecx
	jmp	680b
669:
	leaq	64(%rsp), %rdi
	callq	core.fmt.formatter.Formatter.write_indented._1ac78889755d2eb3
	testb	%al, %al
	jne	548b
	jmp	327b
219:
	leaq	64(%rsp), %rdi
	movq	%r15, %rsi
	movq	%r14, %rdx
	callq	core.fmt.formatter.Formatter.write_indented._1ac78889755d2eb3
	jmp	186b
	.section	.rodata.cst16,"aM",@progbits,16
	.p2align	4
.LCb7a09d1d_0:
	.zero	16,46
.LCb7a09d1d_1:
	.quad	7310596056926023526
	.quad	3346860010425884786
.LCb7a09d1d_2:
	.byte	2
	.byte	41
	.byte	15
	.byte	0
	.zero	1
	.zero	1
	.zero	1
	.zero	1
	.zero	1
	.zero	1
	.zero	1
	.zero	1
	.zero	1
	.zero	1
	.zero	1
	.zero	1
.LCb7a09d1d_3:
	.byte	2
	.byte	41
	.byte	15
	.byte	0
	.byte	0
	.byte	0
	.byte	0
	.byte	0
	.byte	0
	.byte	0
	.byte	0
	.byte	0
	.byte	0
	.byte	0
	.byte	0
	.byte	0
	.section	.text.tc_make.printed.write_refused._5349ec06ad6c886c,"ax",@progbits
	.p2align	4
tc_make.printed.write_refused._5349ec06ad6c886c:
	pushq	%rbp
	pushq	%r15
	pushq	%r14
	pushq	%r12
	pushq	%rbx
	subq	$336, %rsp
	movq	%rdx, %r14
	movq	%rsi, %r15
	movq	%rdi, %rbx
	xorps	%xmm0, %xmm0
	movaps	%xmm0, 256(%rsp)
	movaps	%xmm0, 240(%rsp)
	movaps	%xmm0, 224(%rsp)
	movaps	%xmm0, 208(%rsp)
	movaps	%xmm0, 272(%rsp)
	movaps	%xmm0, 288(%rsp)
	movaps	%xmm0, 304(%rsp)
	movaps	%xmm0, 320(%rsp)
	movq	%rcx, 64(%rsp)
	movups	%xmm0, 72(%rsp)
	movups	%xmm0, 88(%rsp)
	movups	%xmm0, 104(%rsp)
	movups	%xmm0, 120(%rsp)
	movups	%xmm0, 136(%rsp)
	movups	%xmm0, 152(%rsp)
	movups	%xmm0, 192(%rsp)
	movl	$32, 168(%rsp)
	movq	$0, 172(%rsp)
	movl	$0, 180(%rsp)
	movq	$-1, 184(%rsp)
	leaq	.LTc48ebe31(%rip), %rsi
	leaq	64(%rsp), %rdi
	movl	$8, %edx
	callq	std.io.traits.AdapterWrite.write_str._5349ec06ad6c886c
	movb	$1, %bpl
	testb	%al, %al
	jne	548f
	leaq	172(%rsp), %r12
	movl	$32, 168(%rsp)
	movl	$0, 8(%r12)
	movq	$0, (%r12)
	movq	$-1, 184(%rsp)
	cmpq	$0, 192(%rsp)
	jne	669f
	leaq	64(%rsp), %rdi
	movq	%r15, %rsi
	movq	%r14, %rdx
	callq	std.io.traits.AdapterWrite.write_str._5349ec06ad6c886c
	testb	%al, %al
	jne	548f
327:
	movl	$32, 168(%rsp)
	movl	$0, 8(%r12)
	movq	$0, (%r12)
	movq	$-1, 184(%rsp)
	cmpq	$0, 192(%rsp)
	jne	219f
	leaq	.LT3235efc0(%rip), %rsi
	leaq	64(%rsp), %rdi
	movl	$1, %edx
	callq	std.io.traits.AdapterWrite.write_str._5349ec06ad6c886c
186:
	movl	%eax, %ebp
548:
	movzbl	72(%rsp), %ecx
	movsd	80(%rsp), %xmm1
	movl	84(%rsp), %eax
	movups	88(%rsp), %xmm0
	xorps	%xmm2, %xmm2
	movaps	%xmm2, 48(%rsp)
	movaps	%xmm2, 32(%rsp)
	movaps	%xmm2, 16(%rsp)
	movaps	%xmm2, (%rsp)
	cmpb	$1, %cl
	jne	890f
	leaq	104(%rsp), %rcx
	movups	(%rcx), %xmm2
	movups	16(%rcx), %xmm3
	movups	32(%rcx), %xmm4
	movups	48(%rcx), %xmm5
	movaps	%xmm5, 48(%rsp)
	movaps	%xmm4, 32(%rsp)
	movaps	%xmm3, 16(%rsp)
	movaps	%xmm2, (%rsp)
	jmp	409f
890:
	xorl	%eax, %eax
	testb	%bpl, %bpl
	je	231f
	movaps	.LCb7a09d1d_0(%rip), %xmm0
	movaps	%xmm0, 48(%rsp)
	movaps	%xmm0, 32(%rsp)
	movaps	%xmm0, 16(%rsp)
	movaps	%xmm0, (%rsp)
	movaps	.LCb7a09d1d_1(%rip), %xmm0
	movss	.LCb7a09d1d_3(%rip), %xmm1
409:
	movb	$1, %cl
680:
	movaps	(%rsp), %xmm2
	movaps	16(%rsp), %xmm3
	movaps	32(%rsp), %xmm4
	movaps	48(%rsp), %xmm5
	movaps	%xmm2, 208(%rsp)
	movaps	%xmm3, 224(%rsp)
	movaps	%xmm4, 240(%rsp)
	movaps	%xmm5, 256(%rsp)
	movb	%cl, (%rbx)
	movss	%xmm1, 8(%rbx)
	movl	%eax, 12(%rbx)
	movups	%xmm0, 16(%rbx)
	movaps	208(%rsp), %xmm0
	movaps	224(%rsp), %xmm1
	movaps	240(%rsp), %xmm2
	movaps	256(%rsp), %xmm3
	movups	%xmm0, 32(%rbx)
	movups	%xmm1, 48(%rbx)
	movups	%xmm2, 64(%rbx)
	movups	%xmm3, 80(%rbx)
	addq	$336, %rsp
	popq	%rbx
	popq	%r12
	popq	%r14
	popq	%r15
	popq	%rbp
	retq
231:
	xorps	%xmm0, %xmm0
	xorps	%xmm1, %xmm1
	xorl	%ecx, %ecx
	jmp	680b
669:
	leaq	64(%rsp), %rdi
	movq	%r15, %rsi
	movq	%r14, %rdx
	callq	core.fmt.formatter.Formatter.write_indented._1ac78889755d2eb3
	testb	%al, %al
	jne	548b
	jmp	327b
219:
	leaq	.LT3235efc0(%rip), %rsi
	leaq	64(%rsp), %rdi
	movl	$1, %edx
	callq	core.fmt.formatter.Formatter.write_indented._1ac78889755d2eb3
	jmp	186b
	.section	.text.tc_edges.cltu.writer.push_block,"ax",@progbits
	.p2align	4
tc_edges.cltu.writer.push_block:
	pushq	%rbp
	pushq	%r15
	pushq	%r14
	pushq	%r13
	pushq	%r12
	pushq	%rbx
	pushq	%rax
	movq	%rsi, %r14
	movq	%rdi, %rbx
	movq	8(%rdi), %rax
	movq	16(%rdi), %r10
	movq	%r10, %rcx
	subq	%rax, %rcx
	cmpq	%rcx, %rdx
	ja	648f
669:
	leaq	8(%rbx), %rcx
	leaq	(%rax,%rdx), %r11
	movq	(%rbx), %r9
	xorps	%xmm0, %xmm0
	movups	%xmm0, (%rcx)
	leaq	(%r9,%rax), %rdi
	movq	%rdi, %rcx
	subq	%r14, %rcx
	cmpq	%rdx, %rcx
	jae	859f
	cmpq	$4, %rdx
	jb	890f
	cmpq	$32, %rcx
	jae	972f
890:
	xorl	%ecx, %ecx
928:
	movq	%r9, %r15
	movq	%rdx, %r8
	movq	%rcx, %rsi
	andq	$3, %r8
	je	980f
	movq	%rcx, %rsi
	.p2align	4
548:
	movzbl	(%r14,%rsi), %r9d
	movb	%r9b, (%rdi,%rsi)
	incq	%rsi
	decq	%r8
	jne	548b
980:
	subq	%rdx, %rcx
	cmpq	$-4, %rcx
	movq	%r15, %r9
	ja	12f
	addq	%r9, %rax
	addq	$3, %rax
	.p2align	4
548:
	movzbl	(%r14,%rsi), %ecx
	movb	%cl, -3(%rax,%rsi)
	movzbl	1(%r14,%rsi), %ecx
	movb	%cl, -2(%rax,%rsi)
	movzbl	2(%r14,%rsi), %ecx
	movb	%cl, -1(%rax,%rsi)
	movzbl	3(%r14,%rsi), %ecx
	movb	%cl, (%rax,%rsi)
	addq	$4, %rsi
	cmpq	%rsi, %rdx
	jne	548b
	jmp	12f
859:
	movq	%r14, %rsi
	movq	%r10, %r15
	movq	%r11, %r12
	movq	%r9, %r13
	callq	memmove@PLT
	movq	%r13, %r9
	movq	%r12, %r11
	movq	%r15, %r10
12:
	movq	%r9, (%rbx)
	movq	%r11, 8(%rbx)
	movq	%r10, 16(%rbx)
	movzbl	(%r14), %eax
	leaq	.LTb4175d02(%rip), %rcx
	movzbl	1536(%rax,%rcx), %ebp
	movzbl	1(%r14), %eax
	movzbl	1280(%rax,%rcx), %edx
	movzbl	2(%r14), %eax
	movzbl	1024(%rax,%rcx), %r15d
	movzbl	3(%r14), %eax
	movzbl	768(%rax,%rcx), %esi
	movzbl	4(%r14), %eax
	movzbl	512(%rax,%rcx), %r13d
	movzbl	5(%r14), %eax
	movzbl	256(%rax,%rcx), %r12d
	movzbl	6(%r14), %eax
	movzbl	(%rax,%rcx), %r14d
	cmpq	%r11, %r10
	je	409f
482:
	xorb	%dl, %bpl
	xorb	%sil, %r15b
	xorb	%bpl, %r15b
	xorb	%r12b, %r13b
	xorb	%r14b, %r13b
	xorb	%r15b, %r13b
	notb	%r13b
	addb	%r13b, %r13b
	movb	%r13b, (%r9,%r11)
	incq	%r11
	movq	%r9, (%rbx)
	movq	%r11, 8(%rbx)
	movq	%r10, 16(%rbx)
	addq	$8, %rsp
	popq	%rbx
	popq	%r12
	popq	%r13
	popq	%r14
	popq	%r15
	popq	%rbp
	retq
972:
	cmpq	$32, %rdx
	jae	859f
	xorl	%ecx, %ecx
	jmp	638f
859:
	movq	%rdx, %rcx
	andq	$-32, %rcx
	leaq	(%rax,%r9), %rsi
	addq	$16, %rsi
	xorl	%r8d, %r8d
	.p2align	4
464:
	movups	(%r14,%r8), %xmm0
	movups	16(%r14,%r8), %xmm1
	movups	%xmm0, -16(%rsi,%r8)
	movups	%xmm1, (%rsi,%r8)
	addq	$32, %r8
	cmpq	%r8, %rcx
	jne	464b
	cmpq	%rcx, %rdx
	je	12b
	testb	$28, %dl
	je	928b
638:
	movq	%rcx, %rsi
	movq	%rdx, %rcx
	andq	$-4, %rcx
	.p2align	4
327:
	movl	(%r14,%rsi), %r8d
	movl	%r8d, (%rdi,%rsi)
	addq	$4, %rsi
	cmpq	%rsi, %rcx
	jne	327b
	cmpq	%rcx, %rdx
	je	12b
	jmp	928b
648:
	movq	%rbx, %rdi
	movq	%rdx, %r15
	movq	%rdx, %rsi
	callq	std_alloc.vec.Vec.grow_amortized._5ce8f19f45e9f986
	testb	%al, %al
	je	214f
	movq	8(%rbx), %rax
	movq	16(%rbx), %r10
	movq	%r15, %rdx
	jmp	669b
409:
	movb	%sil, 6(%rsp)
	movb	%dl, 7(%rsp)
	movl	$1, %esi
	movq	%rbx, %rdi
	callq	std_alloc.vec.Vec.grow_amortized._5ce8f19f45e9f986
	testb	%al, %al
	je	214f
	movq	(%rbx), %r9
	movq	8(%rbx), %r11
	movq	16(%rbx), %r10
	movzbl	7(%rsp), %edx
	movzbl	6(%rsp), %esi
	jmp	482b
214:
	ud2
	.section	.rodata.cst16,"aM",@progbits,16
	.p2align	4
.LCc1bf4245_0:
	.short	65535
	.short	0
	.short	65535
	.short	65535
	.short	65535
	.short	65535
	.short	65535
	.short	65535
.LCc1bf4245_1:
	.short	0
	.short	65055
	.short	0
	.short	0
	.short	0
	.short	0
	.short	0
	.short	0
	.section	.text.tc_edges.tm.frame.idle_frame,"ax",@progbits
	.p2align	4
tc_edges.tm.frame.idle_frame:
	pushq	%rbp
	pushq	%r15
	pushq	%r14
	pushq	%r12
	pushq	%rbx
	subq	$32, %rsp
	movq	%r8, %r15
	movq	%rcx, %r14
	movl	%edx, %ebp
	movq	%rsi, %r12
	movq	%rdi, %rbx
	movq	$0, 24(%rsp)
	movl	$1, %esi
	movq	%r8, %rdi
	callq	rattle_alloc@PLT
	testb	$1, %al
	je	969f
	movq	%rdx, 8(%rsp)
	movq	$0, 16(%rsp)
	movzwl	(%r12), %eax
	shll	$4, %eax
	movzbl	2(%r12), %ecx
	leal	(%rax,%rcx,2), %eax
	leal	1(%rax), %ecx
	movzwl	3(%r12), %esi
	movd	%esi, %xmm0
	pand	.LCc1bf4245_0(%rip), %xmm0
	por	.LCc1bf4245_1(%rip), %xmm0
	movb	%ah, (%rdx)
	movb	%cl, 1(%rdx)
	movd	%xmm0, 2(%rdx)
	movq	$6, 16(%rsp)
	movq	%r15, 24(%rsp)
	movl	$6, %eax
	addq	$-10, %r14
	jne	972f
	movq	%r15, %rcx
	subq	%rax, %rcx
	cmpq	$3, %rcx
	ja	859f
	jmp	669f
	.p2align	4
409:
	movb	$85, (%rdx,%rax)
	incq	%rax
	movq	%rax, 16(%rsp)
	decq	%r14
	je	928f
972:
	cmpq	%rax, 24(%rsp)
	jne	409b
	leaq	8(%rsp), %rdi
	movl	$1, %esi
	callq	std_alloc.vec.Vec.grow_amortized._5ce8f19f45e9f986
	testb	%al, %al
	je	214f
	movq	8(%rsp), %rdx
	movq	16(%rsp), %rax
	jmp	409b
969:
	movb	$1, (%rbx)
	pxor	%xmm0, %xmm0
	movdqu	%xmm0, 8(%rbx)
	movq	$0, 24(%rbx)
	jmp	850f
928:
	movq	24(%rsp), %r15
	movq	%r15, %rcx
	subq	%rax, %rcx
	cmpq	$3, %rcx
	jbe	669f
859:
	movq	8(%rsp), %rcx
	movl	%ebp, (%rcx,%rax)
	addq	$4, %rax
	movq	%rax, 16(%rsp)
	movq	%r15, 24(%rsp)
	movb	$0, (%rbx)
	movq	8(%rsp), %rax
	movq	%rax, 8(%rbx)
	movq	16(%rsp), %rax
	movq	%rax, 16(%rbx)
	movq	24(%rsp), %rax
	movq	%rax, 24(%rbx)
850:
	addq	$32, %rsp
	popq	%rbx
	popq	%r12
	popq	%r14
	popq	%r15
	popq	%rbp
	retq
669:
	leaq	8(%rsp), %rdi
	movl	$4, %esi
	callq	std_alloc.vec.Vec.grow_amortized._5ce8f19f45e9f986
	testb	%al, %al
	je	214f
	movq	16(%rsp), %rax
	movq	24(%rsp), %r15
	jmp	859b
214:
	ud2
	.section	.rodata.cst16,"aM",@progbits,16
	.p2align	4
.LC23d35061_0:
	.zero	16,46
.LC23d35061_1:
	.quad	7310596056926023526
	.quad	3346860010425884786
.LC23d35061_2:
	.byte	2
	.byte	41
	.byte	15
	.byte	0
	.zero	1
	.zero	1
	.zero	1
	.zero	1
	.zero	1
	.zero	1
	.zero	1
	.zero	1
	.zero	1
	.zero	1
	.zero	1
	.zero	1
.LC23d35061_3:
	.byte	2
	.byte	41
	.byte	15
	.byte	0
	.byte	0
	.byte	0
	.byte	0
	.byte	0
	.byte	0
	.byte	0
	.byte	0
	.byte	0
	.byte	0
	.byte	0
	.byte	0
	.byte	0
	.section	.text.tc_make.explained.write_rest._5349ec06ad6c886c,"ax",@progbits
	.p2align	4
tc_make.explained.write_rest._5349ec06ad6c886c:
	pushq	%rbp
	pushq	%r15
	pushq	%r14
	pushq	%rbx
	subq	$376, %rsp
	movq	%rcx, %r9
	movq	%rdx, %r14
	movq	%rsi, %rcx
	movq	%rdi, %rbx
	xorps	%xmm0, %xmm0
	movaps	%xmm0, 144(%rsp)
	movaps	%xmm0, 128(%rsp)
	movaps	%xmm0, 112(%rsp)
	movaps	%xmm0, 96(%rsp)
	movaps	%xmm0, 80(%rsp)
	movaps	%xmm0, 64(%rsp)
	cmpq	$6, %rdx
	ja	669f
	cmpq	$5, %r14
	jb	680f
	testb	$-52, (%rcx)
	je	284f
680:
	movaps	%xmm0, 304(%rsp)
	movaps	%xmm0, 320(%rsp)
	movaps	%xmm0, 336(%rsp)
	movaps	%xmm0, 352(%rsp)
	movq	%r9, 160(%rsp)
	movups	%xmm0, 168(%rsp)
	movups	%xmm0, 184(%rsp)
	movups	%xmm0, 200(%rsp)
	movups	%xmm0, 216(%rsp)
	movups	%xmm0, 232(%rsp)
	movups	%xmm0, 248(%rsp)
	movups	%xmm0, 288(%rsp)
	movl	$32, 264(%rsp)
	movq	$0, 268(%rsp)
	movl	$0, 276(%rsp)
	movq	$-1, 280(%rsp)
	leaq	.LTd59513d8(%rip), %rsi
	leaq	160(%rsp), %rdi
	movl	$5, %edx
	callq	std.io.traits.AdapterWrite.write_str._5349ec06ad6c886c
	movb	$1, %bpl
	testb	%al, %al
	jne	231f
	leaq	268(%rsp), %r15
	movl	$32, 264(%rsp)
	movl	$0, 8(%r15)
	movq	$0, (%r15)
	movq	$-1, 280(%rsp)
	xorps	%xmm0, %xmm0
	movaps	%xmm0, (%rsp)
	movq	$0, 14(%rsp)
	orb	$48, %r14b
	movb	%r14b, 23(%rsp)
	movb	$45, 22(%rsp)
	cmpq	$0, 288(%rsp)
	jne	219f
	leaq	23(%rsp), %rsi
	leaq	160(%rsp), %rdi
	movl	$1, %edx
	callq	std.io.traits.AdapterWrite.write_str._5349ec06ad6c886c
	testb	%al, %al
	xorps	%xmm2, %xmm2
	jne	548f
327:
	movl	$32, 264(%rsp)
	movl	$0, 8(%r15)
	movq	$0, (%r15)
	movq	$-1, 280(%rsp)
	cmpq	$0, 288(%rsp)
	jne	949f
	leaq	.LT3235efc0(%rip), %rsi
	leaq	160(%rsp), %rdi
	movl	$1, %edx
	callq	std.io.traits.AdapterWrite.write_str._5349ec06ad6c886c
186:
	movl	%eax, %ebp
231:
	xorps	%xmm2, %xmm2
548:
	movzbl	168(%rsp), %ecx
	movsd	176(%rsp), %xmm1
	movl	180(%rsp), %eax
	movups	184(%rsp), %xmm0
	movaps	%xmm2, 48(%rsp)
	movaps	%xmm2, 32(%rsp)
	movaps	%xmm2, 16(%rsp)
	movaps	%xmm2, (%rsp)
	cmpb	$1, %cl
	jne	890f
	leaq	200(%rsp), %rcx
	movups	(%rcx), %xmm2
	movups	16(%rcx), %xmm3
	movups	32(%rcx), %xmm4
	movups	48(%rcx), %xmm5
	movaps	%xmm5, 48(%rsp)
	movaps	%xmm4, 32(%rsp)
	movaps	%xmm3, 16(%rsp)
	movaps	%xmm2, (%rsp)
	jmp	409f
890:
	xorl	%eax, %eax
	testb	%bpl, %bpl
	je	231f
	movaps	.LC23d35061_0(%rip), %xmm0
	movaps	%xmm0, 48(%rsp)
	movaps	%xmm0, 32(%rsp)
	movaps	%xmm0, 16(%rsp)
	movaps	%xmm0, (%rsp)
	movaps	.LC23d35061_1(%rip), %xmm0
	movss	.LC23d35061_3(%rip), %xmm1
409:
	movb	$1, %cl
87:
	movaps	(%rsp), %xmm2
	movaps	16(%rsp), %xmm3
	movaps	32(%rsp), %xmm4
	movaps	48(%rsp), %xmm5
	movaps	%xmm5, 352(%rsp)
	movss	%xmm1, 72(%rsp)
	movl	%eax, 76(%rsp)
	movaps	%xmm0, 80(%rsp)
	movaps	%xmm2, 96(%rsp)
	movaps	%xmm3, 112(%rsp)
	movaps	%xmm4, 128(%rsp)
	movaps	%xmm5, 144(%rsp)
	jmp	409f
284:
	movzbl	3(%rcx), %edx
	shll	$8, %edx
	movzbl	2(%rcx), %eax
	andl	$3, %eax
	orl	%edx, %eax
	rolw	$8, %ax
	cmpw	$5, %ax
	jb	680b
	incl	%eax
	movzwl	%ax, %eax
	cmpq	%rax, %r14
	jb	680b
669:
	leaq	.LT54ed9b2a(%rip), %rsi
	leaq	64(%rsp), %rdi
	movl	$4, %edx
	movq	%r14, %r8
	callq	tc_make.printed.write_named._5349ec06ad6c886c
	movzbl	64(%rsp), %ecx
409:
	movb	%cl, (%rbx)
	movl	72(%rsp), %eax
	movl	76(%rsp), %ecx
	movq	80(%rsp), %rdx
	movups	88(%rsp), %xmm0
	movups	104(%rsp), %xmm1
	movups	120(%rsp), %xmm2
	movl	%eax, 8(%rbx)
	movl	%ecx, 12(%rbx)
	movq	%rdx, 16(%rbx)
	movups	%xmm0, 24(%rbx)
	movups	%xmm1, 40(%rbx)
	movups	%xmm2, 56(%rbx)
	movups	136(%rsp), %xmm0
	movups	%xmm0, 72(%rbx)
	movq	152(%rsp), %rax
	movq	%rax, 88(%rbx)
	addq	$376, %rsp
	popq	%rbx
	popq	%r14
	popq	%r15
	popq	%rbp
	retq
231:
	xorps	%xmm0, %xmm0
	xorps	%xmm1, %xmm1
	xorl	%ecx, %ecx
	jmp	87b
219:
	leaq	23(%rsp), %rsi
	leaq	160(%rsp), %rdi
	movl	$1, %edx
	callq	core.fmt.formatter.Formatter.write_indented._1ac78889755d2eb3
	testb	%al, %al
	xorps	%xmm2, %xmm2
	jne	548b
	jmp	327b
949:
	leaq	.LT3235efc0(%rip), %rsi
	leaq	160(%rsp), %rdi
	movl	$1, %edx
	callq	core.fmt.formatter.Formatter.write_indented._1ac78889755d2eb3
	jmp	186b
	.section	.rodata.cst16,"aM",@progbits,16
	.p2align	4
.LCc7034eda_0:
	.zero	16,46
.LCc7034eda_1:
	.quad	7310596056926023526
	.quad	3346860010425884786
.LCc7034eda_2:
	.byte	2
	.byte	41
	.byte	15
	.byte	0
	.zero	1
	.zero	1
	.zero	1
	.zero	1
	.zero	1
	.zero	1
	.zero	1
	.zero	1
	.zero	1
	.zero	1
	.zero	1
	.zero	1
.LCc7034eda_3:
	.byte	2
	.byte	41
	.byte	15
	.byte	0
	.byte	0
	.byte	0
	.byte	0
	.byte	0
	.byte	0
	.byte	0
	.byte	0
	.byte	0
	.byte	0
	.byte	0
	.byte	0
	.byte	0
	.section	.text.tc_make.printed.write_bad._5349ec06ad6c886c,"ax",@progbits
	.p2align	4
tc_make.printed.write_bad._5349ec06ad6c886c:
	pushq	%rbp
	pushq	%r15
	pushq	%r14
	pushq	%r13
	pushq	%r12
	pushq	%rbx
	subq	$536, %rsp
	movq	%rdi, %rbx
	xorps	%xmm0, %xmm0
	movaps	%xmm0, 96(%rsp)
	movaps	%xmm0, 80(%rsp)
	movaps	%xmm0, 64(%rsp)
	movaps	%xmm0, 48(%rsp)
	movaps	%xmm0, 32(%rsp)
	movaps	%xmm0, 16(%rsp)
	movb	%sil, 14(%rsp)
	movb	%dl, 15(%rsp)
	movzbl	%sil, %eax
	leaq	.LJc7034eda_0(%rip), %rsi
	movslq	(%rsi,%rax,4), %rax
	addq	%rsi, %rax
	jmpq	*%rax
669:
	leaq	14(%rsp), %rax
	movq	%rax, 320(%rsp)
	leaq	.LT3235efc0(%rip), %rax
	movq	%rax, 328(%rsp)
	movq	$1, 336(%rsp)
	leaq	16(%rsp), %rdi
	leaq	320(%rsp), %rdx
	jmp	928f
219:
	leaq	16(%rsp), %rdi
	movl	$11, %esi
	movl	$6, %edx
	callq	tc_make.printed.write_bounds._5349ec06ad6c886c
	jmp	166f
949:
	leaq	14(%rsp), %rax
	movq	%rax, 392(%rsp)
	leaq	.LT2c4ab8d6(%rip), %rax
	movq	%rax, 400(%rsp)
	movq	$47, 408(%rsp)
	leaq	16(%rsp), %rdi
	leaq	392(%rsp), %rdx
	jmp	928f
740:
	leaq	16(%rsp), %rdi
	movl	$12, %esi
	movl	$4, %edx
	callq	tc_make.printed.write_bounds._5349ec06ad6c886c
	jmp	166f
71:
	leaq	16(%rsp), %rdi
	movl	$9, %esi
	movl	$3, %edx
	callq	tc_make.printed.write_bounds._5349ec06ad6c886c
	jmp	166f
548:
	movzbl	%dl, %eax
	shll	$3, %eax
	leaq	.Lswitch.table.tc_make.printed.write_bad._5349ec06ad6c886c(%rip), %rdx
	movq	(%rax,%rdx), %r12
	leaq	.Lswitch.table.tc_make.printed.write_bad._5349ec06ad6c886c_.641(%rip), %rdx
	movq	(%rax,%rdx), %r13
	leaq	.Lswitch.table.tc_make.printed.write_bad._5349ec06ad6c886c_.642(%rip), %rdx
	movq	(%rax,%rdx), %r14
	leaq	.Lswitch.table.tc_make.printed.write_bad._5349ec06ad6c886c_.643(%rip), %rdx
	movq	(%rax,%rdx), %r15
	movaps	%xmm0, 464(%rsp)
	movaps	%xmm0, 480(%rsp)
	movaps	%xmm0, 496(%rsp)
	movaps	%xmm0, 512(%rsp)
	movq	%rcx, 112(%rsp)
	movups	%xmm0, 120(%rsp)
	movups	%xmm0, 136(%rsp)
	movups	%xmm0, 152(%rsp)
	movups	%xmm0, 168(%rsp)
	movups	%xmm0, 184(%rsp)
	movups	%xmm0, 200(%rsp)
	movups	%xmm0, 240(%rsp)
	movl	$32, 216(%rsp)
	movq	$0, 220(%rsp)
	movl	$0, 228(%rsp)
	movq	$-1, 232(%rsp)
	leaq	.LT1ef62a42(%rip), %rsi
	leaq	112(%rsp), %rdi
	movl	$25, %edx
	callq	std.io.traits.AdapterWrite.write_str._5349ec06ad6c886c
	movb	$1, %bpl
	testb	%al, %al
	jne	552f
	leaq	220(%rsp), %rax
	movl	$32, 216(%rsp)
	movl	$0, 8(%rax)
	movq	$0, (%rax)
	movq	$-1, 232(%rsp)
	cmpq	$0, 240(%rsp)
	jne	458f
	leaq	.LT07c8561c(%rip), %rsi
	leaq	112(%rsp), %rdi
	movl	$8, %edx
	callq	std.io.traits.AdapterWrite.write_str._5349ec06ad6c886c
	testb	%al, %al
	jne	552f
327:
	movl	$32, 216(%rsp)
	leaq	220(%rsp), %rax
	movl	$0, 8(%rax)
	movq	$0, (%rax)
	movq	$-1, 232(%rsp)
	cmpq	$0, 240(%rsp)
	jne	459f
	leaq	112(%rsp), %rdi
	movq	%r12, %rsi
	movq	%r13, %rdx
	callq	std.io.traits.AdapterWrite.write_str._5349ec06ad6c886c
	testb	%al, %al
	jne	552f
186:
	movl	$32, 216(%rsp)
	leaq	220(%rsp), %rax
	movl	$0, 8(%rax)
	movq	$0, (%rax)
	movq	$-1, 232(%rsp)
	cmpq	$0, 240(%rsp)
	jne	302f
	leaq	112(%rsp), %rdi
	movq	%r15, %rsi
	movq	%r14, %rdx
	callq	std.io.traits.AdapterWrite.write_str._5349ec06ad6c886c
	testb	%al, %al
	jne	552f
981:
	movl	$32, 216(%rsp)
	leaq	220(%rsp), %rax
	movl	$0, 8(%rax)
	movq	$0, (%rax)
	movq	$-1, 232(%rsp)
	cmpq	$0, 240(%rsp)
	jne	435f
	leaq	.LT3235efc0(%rip), %rsi
	leaq	112(%rsp), %rdi
	movl	$1, %edx
	callq	std.io.traits.AdapterWrite.write_str._5349ec06ad6c886c
434:
	movl	%eax, %ebp
	jmp	552f
284:
	movzbl	%dl, %edx
	leaq	16(%rsp), %rdi
	movl	$3, %esi
	callq	tc_make.printed.write_bounds._5349ec06ad6c886c
	jmp	166f
917:
	leaq	16(%rsp), %rdi
	movl	$7, %esi
	xorl	%edx, %edx
	callq	tc_make.printed.write_bounds._5349ec06ad6c886c
	jmp	166f
359:
	leaq	14(%rsp), %rax
	movq	%rax, 440(%rsp)
	leaq	.LT0e3ff99a(%rip), %rax
	movq	%rax, 448(%rsp)
	movq	$125, 456(%rsp)
	leaq	16(%rsp), %rdi
	leaq	440(%rsp), %rdx
	jmp	928f
661:
	leaq	14(%rsp), %rax
	movq	%rax, 416(%rsp)
	leaq	.LT85d3bb8b(%rip), %rax
	movq	%rax, 424(%rsp)
	movq	$67, 432(%rsp)
	leaq	16(%rsp), %rdi
	leaq	416(%rsp), %rdx
	jmp	928f
172:
	leaq	14(%rsp), %rax
	movq	%rax, 368(%rsp)
	leaq	.LTcfc709a4(%rip), %rax
	movq	%rax, 376(%rsp)
	movq	$28, 384(%rsp)
	leaq	16(%rsp), %rdi
	leaq	368(%rsp), %rdx
	jmp	928f
999:
	leaq	14(%rsp), %rax
	movq	%rax, 344(%rsp)
	leaq	.LTbb49215e(%rip), %rax
	movq	%rax, 352(%rsp)
	movq	$21, 360(%rsp)
	leaq	16(%rsp), %rdi
	leaq	344(%rsp), %rdx
928:
	movq	%rcx, %rsi
	callq	std.io.traits.Write.write_fmt._7427d210d622371f
166:
	movzbl	16(%rsp), %eax
	movb	%al, (%rbx)
	movl	24(%rsp), %eax
	movl	28(%rsp), %ecx
	movq	32(%rsp), %rdx
	movups	40(%rsp), %xmm0
	movups	56(%rsp), %xmm1
	movups	72(%rsp), %xmm2
	movl	%eax, 8(%rbx)
	movl	%ecx, 12(%rbx)
	movq	%rdx, 16(%rbx)
	movups	%xmm0, 24(%rbx)
	movups	%xmm1, 40(%rbx)
	movups	%xmm2, 56(%rbx)
	movups	88(%rsp), %xmm0
	movups	%xmm0, 72(%rbx)
	movq	104(%rsp), %rax
	movq	%rax, 88(%rbx)
	addq	$536, %rsp
	popq	%rbx
	popq	%r12
	popq	%r13
	popq	%r14
	popq	%r15
	popq	%rbp
	retq
90:
	leaq	16(%rsp), %rdi
	movl	$10, %esi
	movl	$5, %edx
	callq	tc_make.printed.write_bounds._5349ec06ad6c886c
	jmp	166b
975:
	leaq	16(%rsp), %rdi
	movl	$8, %esi
	movl	$1, %edx
	callq	tc_make.printed.write_bounds._5349ec06ad6c886c
	jmp	166b
458:
	leaq	.LT07c8561c(%rip), %rsi
	leaq	112(%rsp), %rdi
	movl	$8, %edx
	callq	core.fmt.formatter.Formatter.write_indented._1ac78889755d2eb3
	testb	%al, %al
	jne	552f
	jmp	327b
459:
	leaq	112(%rsp), %rdi
	movq	%r12, %rsi
	movq	%r13, %rdx
	callq	core.fmt.formatter.Formatter.write_indented._1ac78889755d2eb3
	testb	%al, %al
	jne	552f
	jmp	186b
302:
	leaq	112(%rsp), %rdi
	movq	%r15, %rsi
	movq	%r14, %rdx
	callq	core.fmt.formatter.Formatter.write_indented._1ac78889755d2eb3
	testb	%al, %al
	je	981b
552:
	movzbl	120(%rsp), %ecx
	movsd	128(%rsp), %xmm0
	movl	132(%rsp), %eax
	movups	136(%rsp), %xmm1
	xorps	%xmm2, %xmm2
	movaps	%xmm2, 304(%rsp)
	movaps	%xmm2, 288(%rsp)
	movaps	%xmm2, 272(%rsp)
	movaps	%xmm2, 256(%rsp)
	cmpb	$1, %cl
	jne	890f
	leaq	152(%rsp), %rcx
	movups	(%rcx), %xmm2
	movups	16(%rcx), %xmm3
	movups	32(%rcx), %xmm4
	movups	48(%rcx), %xmm5
	movaps	%xmm5, 304(%rsp)
	movaps	%xmm4, 288(%rsp)
	movaps	%xmm3, 272(%rsp)
	movaps	%xmm2, 256(%rsp)
	jmp	409f
890:
	xorl	%eax, %eax
	testb	%bpl, %bpl
	je	231f
	movaps	.LCc7034eda_0(%rip), %xmm0
	movaps	%xmm0, 304(%rsp)
	movaps	%xmm0, 288(%rsp)
	movaps	%xmm0, 272(%rsp)
	movaps	%xmm0, 256(%rsp)
	movaps	.LCc7034eda_1(%rip), %xmm1
	movss	.LCc7034eda_3(%rip), %xmm0
409:
	movb	$1, %cl
680:
	movaps	256(%rsp), %xmm2
	movaps	272(%rsp), %xmm3
	movaps	288(%rsp), %xmm4
	movaps	304(%rsp), %xmm5
	movaps	%xmm5, 512(%rsp)
	movb	%cl, 16(%rsp)
	movss	%xmm0, 24(%rsp)
	movl	%eax, 28(%rsp)
	movaps	%xmm1, 32(%rsp)
	movaps	%xmm2, 48(%rsp)
	movaps	%xmm3, 64(%rsp)
	movaps	%xmm4, 80(%rsp)
	movaps	%xmm5, 96(%rsp)
	jmp	166b
231:
	xorps	%xmm0, %xmm0
	xorl	%ecx, %ecx
	xorps	%xmm1, %xmm1
	jmp	680b
435:
	leaq	.LT3235efc0(%rip), %rsi
	leaq	112(%rsp), %rdi
	movl	$1, %edx
	callq	core.fmt.formatter.Formatter.write_indented._1ac78889755d2eb3
	jmp	434b
	.section	.rodata.tc_make.printed.write_bad._5349ec06ad6c886c,"a",@progbits
	.p2align	2
.LJc7034eda_0:
	.long	359b-.LJc7034eda_0
	.long	661b-.LJc7034eda_0
	.long	548b-.LJc7034eda_0
	.long	284b-.LJc7034eda_0
	.long	949b-.LJc7034eda_0
	.long	172b-.LJc7034eda_0
	.long	999b-.LJc7034eda_0
	.long	917b-.LJc7034eda_0
	.long	975b-.LJc7034eda_0
	.long	71b-.LJc7034eda_0
	.long	90b-.LJc7034eda_0
	.long	219b-.LJc7034eda_0
	.long	740b-.LJc7034eda_0
	.long	669b-.LJc7034eda_0
	.long	669b-.LJc7034eda_0
	.long	669b-.LJc7034eda_0
	.long	669b-.LJc7034eda_0
	.section	.rodata.cst16,"aM",@progbits,16
	.p2align	4
.LC46831c51_0:
	.zero	16,46
.LC46831c51_1:
	.quad	7310596056926023526
	.quad	3346860010425884786
.LC46831c51_2:
	.byte	2
	.byte	41
	.byte	15
	.byte	0
	.zero	1
	.zero	1
	.zero	1
	.zero	1
	.zero	1
	.zero	1
	.zero	1
	.zero	1
	.zero	1
	.zero	1
	.zero	1
	.zero	1
.LC46831c51_3:
	.byte	2
	.byte	41
	.byte	15
	.byte	0
	.byte	0
	.byte	0
	.byte	0
	.byte	0
	.byte	0
	.byte	0
	.byte	0
	.byte	0
	.byte	0
	.byte	0
	.byte	0
	.byte	0
	.section	.text.tc_make.printed.write_bounds._5349ec06ad6c886c,"ax",@progbits
	.p2align	4
tc_make.printed.write_bounds._5349ec06ad6c886c:
	pushq	%rbp
	pushq	%r15
	pushq	%r14
	pushq	%r12
	pushq	%rbx
	subq	$336, %rsp
	movq	%rdi, %rbx
	xorps	%xmm0, %xmm0
	movaps	%xmm0, 256(%rsp)
	movaps	%xmm0, 240(%rsp)
	movaps	%xmm0, 224(%rsp)
	movaps	%xmm0, 208(%rsp)
	movzbl	%dl, %eax
	shll	$3, %eax
	leaq	.Lswitch.table.tc_make.printed.write_bounds._5349ec06ad6c886c(%rip), %rdx
	movq	(%rax,%rdx), %r14
	leaq	.Lswitch.table.tc_make.printed.write_bounds._5349ec06ad6c886c_.644(%rip), %rdx
	movq	(%rax,%rdx), %r15
	movaps	%xmm0, 272(%rsp)
	movaps	%xmm0, 288(%rsp)
	movaps	%xmm0, 304(%rsp)
	movaps	%xmm0, 320(%rsp)
	movq	%rcx, 64(%rsp)
	movups	%xmm0, 72(%rsp)
	movups	%xmm0, 88(%rsp)
	movups	%xmm0, 104(%rsp)
	movups	%xmm0, 120(%rsp)
	movups	%xmm0, 136(%rsp)
	movups	%xmm0, 152(%rsp)
	movups	%xmm0, 192(%rsp)
	movl	$32, 168(%rsp)
	movq	$0, 172(%rsp)
	movl	$0, 180(%rsp)
	movq	$-1, 184(%rsp)
	addb	$-3, %sil
	leaq	.Lswitch.table.tc_make.printed.write_bounds._5349ec06ad6c886c_.645(%rip), %rax
	movzbl	%sil, %ecx
	movq	(%rax,%rcx,8), %rdx
	leaq	.Lswitch.table.tc_make.printed.write_bounds._5349ec06ad6c886c_.646.rel(%rip), %rax
	movslq	(%rax,%rcx,4), %rsi
	addq	%rax, %rsi
	leaq	64(%rsp), %rdi
	callq	std.io.traits.AdapterWrite.write_str._5349ec06ad6c886c
	movb	$1, %bpl
	testb	%al, %al
	jne	548f
	leaq	172(%rsp), %r12
	movl	$32, 168(%rsp)
	movl	$0, 8(%r12)
	movq	$0, (%r12)
	movq	$-1, 184(%rsp)
	cmpq	$0, 192(%rsp)
	jne	669f
	leaq	.LTbefb410e(%rip), %rsi
	leaq	64(%rsp), %rdi
	movl	$2, %edx
	callq	std.io.traits.AdapterWrite.write_str._5349ec06ad6c886c
	testb	%al, %al
	jne	548f
327:
	movl	$32, 168(%rsp)
	movl	$0, 8(%r12)
	movq	$0, (%r12)
	movq	$-1, 184(%rsp)
	cmpq	$0, 192(%rsp)
	jne	219f
	leaq	64(%rsp), %rdi
	movq	%r15, %rsi
	movq	%r14, %rdx
	callq	std.io.traits.AdapterWrite.write_str._5349ec06ad6c886c
	testb	%al, %al
	jne	548f
186:
	movl	$32, 168(%rsp)
	movl	$0, 8(%r12)
	movq	$0, (%r12)
	movq	$-1, 184(%rsp)
	cmpq	$0, 192(%rsp)
	jne	949f
	leaq	.LT3235efc0(%rip), %rsi
	leaq	64(%rsp), %rdi
	movl	$1, %edx
	callq	std.io.traits.AdapterWrite.write_str._5349ec06ad6c886c
981:
	movl	%eax, %ebp
	jmp	548f
669:
	leaq	.LTbefb410e(%rip), %rsi
	leaq	64(%rsp), %rdi
	movl	$2, %edx
	callq	core.fmt.formatter.Formatter.write_indented._1ac78889755d2eb3
	testb	%al, %al
	jne	548f
	jmp	327b
219:
	leaq	64(%rsp), %rdi
	movq	%r15, %rsi
	movq	%r14, %rdx
	callq	core.fmt.formatter.Formatter.write_indented._1ac78889755d2eb3
	testb	%al, %al
	je	186b
548:
	movzbl	72(%rsp), %ecx
	movsd	80(%rsp), %xmm1
	movl	84(%rsp), %eax
	movups	88(%rsp), %xmm0
	xorps	%xmm2, %xmm2
	movaps	%xmm2, 48(%rsp)
	movaps	%xmm2, 32(%rsp)
	movaps	%xmm2, 16(%rsp)
	movaps	%xmm2, (%rsp)
	cmpb	$1, %cl
	jne	890f
	leaq	104(%rsp), %rcx
	movups	(%rcx), %xmm2
	movups	16(%rcx), %xmm3
	movups	32(%rcx), %xmm4
	movups	48(%rcx), %xmm5
	movaps	%xmm5, 48(%rsp)
	movaps	%xmm4, 32(%rsp)
	movaps	%xmm3, 16(%rsp)
	movaps	%xmm2, (%rsp)
	jmp	409f
890:
	xorl	%eax, %eax
	testb	%bpl, %bpl
	je	231f
	movaps	.LC46831c51_0(%rip), %xmm0
	movaps	%xmm0, 48(%rsp)
	movaps	%xmm0, 32(%rsp)
	movaps	%xmm0, 16(%rsp)
	movaps	%xmm0, (%rsp)
	movaps	.LC46831c51_1(%rip), %xmm0
	movss	.LC46831c51_3(%rip), %xmm1
409:
	movb	$1, %cl
680:
	movaps	(%rsp), %xmm2
	movaps	16(%rsp), %xmm3
	movaps	32(%rsp), %xmm4
	movaps	48(%rsp), %xmm5
	movaps	%xmm2, 208(%rsp)
	movaps	%xmm3, 224(%rsp)
	movaps	%xmm4, 240(%rsp)
	movaps	%xmm5, 256(%rsp)
	movb	%cl, (%rbx)
	movss	%xmm1, 8(%rbx)
	movl	%eax, 12(%rbx)
	movups	%xmm0, 16(%rbx)
	movaps	208(%rsp), %xmm0
	movaps	224(%rsp), %xmm1
	movaps	240(%rsp), %xmm2
	movaps	256(%rsp), %xmm3
	movups	%xmm0, 32(%rbx)
	movups	%xmm1, 48(%rbx)
	movups	%xmm2, 64(%rbx)
	movups	%xmm3, 80(%rbx)
	addq	$336, %rsp
	popq	%rbx
	popq	%r12
	popq	%r14
	popq	%r15
	popq	%rbp
	retq
231:
	xorps	%xmm0, %xmm0
	xorps	%xmm1, %xmm1
	xorl	%ecx, %ecx
	jmp	680b
949:
	leaq	.LT3235efc0(%rip), %rsi
	leaq	64(%rsp), %rdi
	movl	$1, %edx
	callq	core.fmt.formatter.Formatter.write_indented._1ac78889755d2eb3
	jmp	981b
	.section	.rodata.cst16,"aM",@progbits,16
	.p2align	4
.LCb4553005_0:
	.zero	16,46
.LCb4553005_1:
	.quad	7310596056926023526
	.quad	3346860010425884786
.LCb4553005_2:
	.byte	2
	.byte	41
	.byte	15
	.byte	0
	.zero	1
	.zero	1
	.zero	1
	.zero	1
	.zero	1
	.zero	1
	.zero	1
	.zero	1
	.zero	1
	.zero	1
	.zero	1
	.zero	1
.LCb4553005_3:
	.byte	2
	.byte	41
	.byte	15
	.byte	0
	.byte	0
	.byte	0
	.byte	0
	.byte	0
	.byte	0
	.byte	0
	.byte	0
	.byte	0
	.byte	0
	.byte	0
	.byte	0
	.byte	0
	.section	.text.std.io.traits.Write.write_fmt._7427d210d622371f,"ax",@progbits
	.p2align	4
std.io.traits.Write.write_fmt._7427d210d622371f:
	pushq	%r15
	pushq	%r14
	pushq	%rbx
	subq	$272, %rsp
	movq	%rdi, %rbx
	movq	(%rdx), %rax
	movq	8(%rdx), %r15
	movq	16(%rdx), %r14
	xorps	%xmm0, %xmm0
	movaps	%xmm0, 112(%rsp)
	movaps	%xmm0, 96(%rsp)
	movaps	%xmm0, 80(%rsp)
	movaps	%xmm0, 64(%rsp)
	movq	%rsi, 128(%rsp)
	movups	%xmm0, 136(%rsp)
	movups	%xmm0, 152(%rsp)
	movups	%xmm0, 168(%rsp)
	movups	%xmm0, 184(%rsp)
	movups	%xmm0, 200(%rsp)
	movups	%xmm0, 216(%rsp)
	movl	$32, 232(%rsp)
	movl	$0, 244(%rsp)
	movq	$0, 236(%rsp)
	movq	$-1, 248(%rsp)
	movups	%xmm0, 256(%rsp)
	movzbl	(%rax), %eax
	leaq	.Lswitch.table.std.io.traits.Write.write_fmt._7427d210d622371f(%rip), %rcx
	movq	(%rcx,%rax,8), %rdx
	leaq	.Lswitch.table.std.io.traits.Write.write_fmt._7427d210d622371f_.647.rel(%rip), %rcx
	movslq	(%rcx,%rax,4), %rsi
	addq	%rcx, %rsi
	leaq	128(%rsp), %rdi
	callq	std.io.traits.AdapterWrite.write_str._5349ec06ad6c886c
	xorps	%xmm2, %xmm2
	movl	%eax, %ecx
	movb	$1, %al
	testb	%cl, %cl
	jne	548f
	leaq	236(%rsp), %rax
	movl	$32, 232(%rsp)
	movl	$0, 8(%rax)
	movq	$0, (%rax)
	movq	$-1, 248(%rsp)
	cmpq	$0, 256(%rsp)
	jne	669f
	leaq	128(%rsp), %rdi
	movq	%r15, %rsi
	movq	%r14, %rdx
	callq	std.io.traits.AdapterWrite.write_str._5349ec06ad6c886c
231:
	xorps	%xmm2, %xmm2
548:
	movzbl	136(%rsp), %edx
	movsd	144(%rsp), %xmm1
	movl	148(%rsp), %ecx
	movups	152(%rsp), %xmm0
	movaps	%xmm2, 48(%rsp)
	movaps	%xmm2, 32(%rsp)
	movaps	%xmm2, 16(%rsp)
	movaps	%xmm2, (%rsp)
	cmpb	$1, %dl
	jne	890f
	leaq	168(%rsp), %rax
	movups	(%rax), %xmm2
	movups	16(%rax), %xmm3
	movups	32(%rax), %xmm4
	movups	48(%rax), %xmm5
	movaps	%xmm5, 48(%rsp)
	movaps	%xmm4, 32(%rsp)
	movaps	%xmm3, 16(%rsp)
	movaps	%xmm2, (%rsp)
	jmp	409f
890:
	xorl	%ecx, %ecx
	testb	%al, %al
	je	833f
	movaps	.LCb4553005_0(%rip), %xmm0
	movaps	%xmm0, 48(%rsp)
	movaps	%xmm0, 32(%rsp)
	movaps	%xmm0, 16(%rsp)
	movaps	%xmm0, (%rsp)
	movaps	.LCb4553005_1(%rip), %xmm0
	movss	.LCb4553005_3(%rip), %xmm1
409:
	movb	$1, %al
680:
	movaps	(%rsp), %xmm2
	movaps	16(%rsp), %xmm3
	movaps	32(%rsp), %xmm4
	movaps	48(%rsp), %xmm5
	movaps	%xmm5, 112(%rsp)
	movaps	%xmm4, 96(%rsp)
	movaps	%xmm3, 80(%rsp)
	movaps	%xmm2, 64(%rsp)
	movb	%al, (%rbx)
	movss	%xmm1, 8(%rbx)
	movl	%ecx, 12(%rbx)
	movups	%xmm0, 16(%rbx)
	movaps	64(%rsp), %xmm0
	movaps	80(%rsp), %xmm1
	movaps	96(%rsp), %xmm2
	movaps	112(%rsp), %xmm3
	movups	%xmm0, 32(%rbx)
	movups	%xmm1, 48(%rbx)
	movups	%xmm2, 64(%rbx)
	movups	%xmm3, 80(%rbx)
	addq	$272, %rsp
	popq	%rbx
	popq	%r14
	popq	%r15
	retq
833:
	xorps	%xmm0, %xmm0
	xorps	%xmm1, %xmm1
	xorl	%eax, %eax
	jmp	680b
669:
	leaq	128(%rsp), %rdi
	movq	%r15, %rsi
	movq	%r14, %rdx
	callq	core.fmt.formatter.Formatter.write_indented._1ac78889755d2eb3
	jmp	231b
	.section	.text.std_alloc.vec.Vec.drop._eda3823cd94715d4,"ax",@progbits
	.p2align	4
std_alloc.vec.Vec.drop._eda3823cd94715d4:
	pushq	%rbp
	pushq	%r15
	pushq	%r14
	pushq	%r13
	pushq	%r12
	pushq	%rbx
	pushq	%rax
	movq	(%rdi), %rbx
	movq	8(%rdi), %r12
	movq	16(%rdi), %r15
	testq	%r12, %r12
	je	47f
	leaq	48(%rbx), %r13
	jmp	928f
	.p2align	4
850:
	addq	$56, %r13
	decq	%r12
	je	47f
928:
	movq	-16(%r13), %r14
	movq	(%r13), %rbp
	cmpq	$0, -24(%r13)
	je	211f
	movq	-40(%r13), %rdi
	callq	rattle_dealloc@PLT
211:
	testq	%rbp, %rbp
	je	850b
	movq	%r14, %rdi
	callq	rattle_dealloc@PLT
	jmp	850b
47:
	testq	%r15, %r15
	je	850f
	movq	%rbx, %rdi
	addq	$8, %rsp
	popq	%rbx
	popq	%r12
	popq	%r13
	popq	%r14
	popq	%r15
	popq	%rbp
	jmp	rattle_dealloc@PLT
850:
	addq	$8, %rsp
	popq	%rbx
	popq	%r12
	popq	%r13
	popq	%r14
	popq	%r15
	popq	%rbp
	retq
	.section	.text.std_alloc.vec.Vec.drop._135a1426c75792d3,"ax",@progbits
	.p2align	4
std_alloc.vec.Vec.drop._135a1426c75792d3:
	pushq	%rbp
	pushq	%r15
	pushq	%r14
	pushq	%r13
	pushq	%r12
	pushq	%rbx
	subq	$168, %rsp
	movq	(%rdi), %rbx
	movq	8(%rdi), %rcx
	movq	16(%rdi), %rax
	movq	%rax, 24(%rsp)
	movq	%rcx, 32(%rsp)
	testq	%rcx, %rcx
	je	571f
	xorl	%eax, %eax
	jmp	928f
	.p2align	4
669:
	leaq	112(%rsp), %rdi
	callq	tc_session.tc_queues_queues_Queues_Destruct.drop._f5f2ab754c6761f3
	leaq	64(%rsp), %rdi
	callq	tc_session.tc_queues_queues_Queues_Destruct.drop._f5f2ab754c6761f3
	movq	56(%rsp), %rax
	incq	%rax
	cmpq	32(%rsp), %rax
	je	571f
928:
	movq	%rax, 56(%rsp)
	imulq	$272, %rax, %rax
	movq	8(%rbx,%rax), %rdi
	movq	32(%rbx,%rax), %rdx
	movq	48(%rbx,%rax), %r13
	movq	64(%rbx,%rax), %rcx
	movq	%rcx, 16(%rsp)
	movq	72(%rbx,%rax), %r15
	movq	80(%rbx,%rax), %r14
	movq	88(%rbx,%rax), %r12
	movq	136(%rbx,%rax), %rcx
	movq	%rcx, 48(%rsp)
	movq	144(%rbx,%rax), %rbp
	movq	152(%rbx,%rax), %rcx
	movq	%rcx, 40(%rsp)
	cmpq	$0, 24(%rbx,%rax)
	movups	160(%rbx,%rax), %xmm0
	movups	176(%rbx,%rax), %xmm1
	movups	192(%rbx,%rax), %xmm2
	movaps	%xmm2, 144(%rsp)
	movaps	%xmm1, 128(%rsp)
	movaps	%xmm0, 112(%rsp)
	movups	208(%rbx,%rax), %xmm0
	movups	224(%rbx,%rax), %xmm1
	movups	240(%rbx,%rax), %xmm2
	movaps	%xmm2, 96(%rsp)
	movaps	%xmm1, 80(%rsp)
	movaps	%xmm0, 64(%rsp)
	je	211f
	movq	%r12, 8(%rsp)
	movq	%r15, %r12
	movq	%rdx, %r15
	callq	rattle_dealloc@PLT
	movq	%r15, %rdx
	movq	%r12, %r15
	movq	8(%rsp), %r12
211:
	testq	%r13, %r13
	je	211f
	movq	%rdx, %rdi
	callq	rattle_dealloc@PLT
211:
	testq	%r14, %r14
	je	928f
	xorl	%eax, %eax
	cmpq	%r15, %r12
	cmovaeq	%r15, %rax
	movq	%r12, %rcx
	subq	%rax, %rcx
	movq	%r15, %rdx
	movq	%r15, %r13
	subq	%rcx, %r13
	cmpq	%r14, %r13
	cmovaeq	%r14, %r13
	subq	%rcx, %rdx
	movq	%rdx, 8(%rsp)
	jne	682f
972:
	cmpq	8(%rsp), %r14
	jbe	928f
	subq	%r13, %r14
	movq	16(%rsp), %rax
	leaq	16(%rax), %r15
	jmp	489f
	.p2align	4
850:
	addq	$32, %r15
	decq	%r14
	je	928f
489:
	cmpq	$0, (%r15)
	je	850b
	movq	-16(%r15), %rdi
	callq	rattle_dealloc@PLT
	jmp	850b
	.p2align	4
928:
	movq	16(%rsp), %rdi
	callq	rattle_dealloc@PLT
	testq	%rbp, %rbp
	movq	48(%rsp), %r15
	je	778f
	leaq	24(%r15), %r14
	jmp	489f
	.p2align	4
850:
	addq	$40, %r14
	decq	%rbp
	je	778f
489:
	cmpq	$0, (%r14)
	je	850b
	movq	-16(%r14), %rdi
	callq	rattle_dealloc@PLT
	jmp	850b
	.p2align	4
778:
	cmpq	$0, 40(%rsp)
	je	669b
	movq	%r15, %rdi
	callq	rattle_dealloc@PLT
	jmp	669b
	.p2align	4
682:
	shlq	$5, %r12
	shlq	$5, %rax
	subq	%rax, %r12
	movq	16(%rsp), %rax
	addq	%rax, %r12
	addq	$16, %r12
	movq	%r13, %r15
	jmp	972f
	.p2align	4
850:
	addq	$32, %r12
	decq	%r15
	je	972b
972:
	cmpq	$0, (%r12)
	je	850b
	movq	-16(%r12), %rdi
	callq	rattle_dealloc@PLT
	jmp	850b
571:
	cmpq	$0, 24(%rsp)
	je	850f
	movq	%rbx, %rdi
	addq	$168, %rsp
	popq	%rbx
	popq	%r12
	popq	%r13
	popq	%r14
	popq	%r15
	popq	%rbp
	jmp	rattle_dealloc@PLT
850:
	addq	$168, %rsp
	popq	%rbx
	popq	%r12
	popq	%r13
	popq	%r14
	popq	%r15
	popq	%rbp
	retq
	.section	.text.tc_session.tc_queues_queues_Queues_Destruct.drop._f5f2ab754c6761f3,"ax",@progbits
	.p2align	4
tc_session.tc_queues_queues_Queues_Destruct.drop._f5f2ab754c6761f3:
	pushq	%rbp
	pushq	%r15
	pushq	%r14
	pushq	%r13
	pushq	%r12
	pushq	%rbx
	subq	$56, %rsp
	movq	(%rdi), %r13
	movq	8(%rdi), %rcx
	movq	16(%rdi), %rax
	movq	%rax, 24(%rsp)
	movq	24(%rdi), %rax
	movq	%rax, 16(%rsp)
	movq	40(%rdi), %rax
	movq	%rax, 32(%rsp)
	movq	%rcx, 48(%rsp)
	testq	%rcx, %rcx
	je	778f
	xorl	%ebx, %ebx
	movq	%r13, 40(%rsp)
	jmp	859f
	.p2align	4
928:
	movq	%r15, %rdi
	callq	rattle_dealloc@PLT
	incq	%rbx
	cmpq	48(%rsp), %rbx
	je	778f
859:
	movq	%rbx, %rax
	shlq	$6, %rax
	movq	8(%r13,%rax), %r15
	movq	24(%r13,%rax), %r12
	testq	%r12, %r12
	je	928b
	movq	%r15, 8(%rsp)
	movq	16(%r13,%rax), %r15
	movq	32(%r13,%rax), %rax
	xorl	%ecx, %ecx
	cmpq	%r15, %rax
	cmovaeq	%r15, %rcx
	movq	%rax, %rdx
	subq	%rcx, %rdx
	movq	%r15, %rbp
	subq	%rdx, %rbp
	cmpq	%r12, %rbp
	cmovaeq	%r12, %rbp
	subq	%rdx, %r15
	jne	682f
972:
	cmpq	%r15, %r12
	movq	40(%rsp), %r13
	movq	8(%rsp), %r15
	jbe	928b
	subq	%rbp, %r12
	leaq	16(%r15), %r14
	jmp	489f
	.p2align	4
850:
	addq	$32, %r14
	decq	%r12
	je	928b
489:
	cmpq	$0, (%r14)
	je	850b
	movq	-16(%r14), %rdi
	callq	rattle_dealloc@PLT
	jmp	850b
	.p2align	4
682:
	shlq	$5, %rax
	shlq	$5, %rcx
	subq	%rcx, %rax
	movq	8(%rsp), %rcx
	leaq	(%rcx,%rax), %r14
	addq	$16, %r14
	movq	%rbp, %r13
	jmp	972f
	.p2align	4
850:
	addq	$32, %r14
	decq	%r13
	je	972b
972:
	cmpq	$0, (%r14)
	je	850b
	movq	-16(%r14), %rdi
	callq	rattle_dealloc@PLT
	jmp	850b
778:
	cmpq	$0, 24(%rsp)
	je	972f
	movq	%r13, %rdi
	callq	rattle_dealloc@PLT
972:
	cmpq	$0, 32(%rsp)
	je	850f
	movq	16(%rsp), %rdi
	addq	$56, %rsp
	popq	%rbx
	popq	%r12
	popq	%r13
	popq	%r14
	popq	%r15
	popq	%rbp
	jmp	rattle_dealloc@PLT
850:
	addq	$56, %rsp
	popq	%rbx
	popq	%r12
	popq	%r13
	popq	%r14
	popq	%r15
	popq	%rbp
	retq
	.section	.text.std_alloc.vec.Vec.drop._26dad1ae63f4b67d,"ax",@progbits
	.p2align	4
std_alloc.vec.Vec.drop._26dad1ae63f4b67d:
	pushq	%r15
	pushq	%r14
	pushq	%r12
	pushq	%rbx
	pushq	%rax
	movq	(%rdi), %rbx
	movq	8(%rdi), %r15
	movq	16(%rdi), %r14
	testq	%r15, %r15
	je	211f
	leaq	32(%rbx), %r12
	jmp	868f
	.p2align	4
850:
	addq	$56, %r12
	decq	%r15
	je	211f
868:
	cmpb	$0, -32(%r12)
	je	850b
	cmpq	$0, (%r12)
	je	850b
	movq	-16(%r12), %rdi
	callq	rattle_dealloc@PLT
	jmp	850b
211:
	testq	%r14, %r14
	je	850f
	movq	%rbx, %rdi
	addq	$8, %rsp
	popq	%rbx
	popq	%r12
	popq	%r14
	popq	%r15
	jmp	rattle_dealloc@PLT
850:
	addq	$8, %rsp
	popq	%rbx
	popq	%r12
	popq	%r14
	popq	%r15
	retq
	.section	.text.tc_c_base.status.code,"ax",@progbits
	.p2align	4
tc_c_base.status.code:
	movzbl	%dil, %eax
	leaq	.Lswitch.table.tc_c_base.status.code(%rip), %rcx
	movl	(%rcx,%rax,4), %eax
	retq
	.section	.text.tc_session.session.Session.close,"ax",@progbits
	.p2align	4
tc_session.session.Session.close:
	pushq	%rbp
	pushq	%r15
	pushq	%r14
	pushq	%r13
	pushq	%r12
	pushq	%rbx
	subq	$504, %rsp
	movl	%ecx, %r15d
	movl	%edx, %r13d
	movq	%rsi, %rax
	movq	%rdi, %rbp
	movzwl	2(%rsi), %esi
	movzbl	8(%rax), %edx
	movq	16(%rax), %rcx
	movq	24(%rax), %r12
	movq	32(%rax), %r14
	movq	40(%rax), %rbx
	addq	$88, %rbp
	xorps	%xmm0, %xmm0
	movaps	%xmm0, 80(%rsp)
	movaps	%xmm0, 96(%rsp)
	movq	$0, 112(%rsp)
	cmpb	$1, %dl
	je	211f
	movq	%rcx, 208(%rsp)
	movq	%r12, 216(%rsp)
	movq	%r14, 224(%rsp)
	movq	%rbx, 232(%rsp)
	movups	48(%rax), %xmm0
	movups	%xmm0, 240(%rsp)
	leaq	80(%rsp), %rdi
	leaq	208(%rsp), %rdx
	callq	tc_rack.rack.Rack.new
	cmpb	$0, 80(%rsp)
	je	928f
	xorl	%ebx, %ebx
	jmp	186f
928:
	movq	96(%rsp), %r12
	movq	104(%rsp), %r14
	movq	112(%rsp), %rbx
211:
	testq	%r14, %r14
	movq	%r14, 48(%rsp)
	movl	%r13d, 40(%rsp)
	je	327f
	movabsq	$34937015291116575, %rax
	cmpq	%rax, %r14
	ja	928f
	movq	%r14, %rax
	shlq	$8, %rax
	leaq	(%rax,%r14,8), %rdi
	movl	$8, %esi
	callq	rattle_alloc@PLT
	testb	$1, %al
	je	928f
	movq	%rbx, 200(%rsp)
	movl	%r15d, 64(%rsp)
	leaq	-1(%r14), %rax
	movl	%r14d, %ecx
	andl	$3, %ecx
	cmpq	$3, %rax
	movq	%rdx, 8(%rsp)
	jae	638f
	xorl	%ebx, %ebx
	jmp	648f
928:
	movq	%rbp, %r13
	movq	%rbx, %rbp
	xorl	%ebx, %ebx
	movq	%r12, %rdi
	xorl	%esi, %esi
	movq	%r14, %rdx
	callq	std_alloc.vec.opened.drop_run._3218a469551dd1ce
	testq	%rbp, %rbp
	je	928f
	movq	%r12, %rdi
	callq	rattle_dealloc@PLT
	xorl	%ebx, %ebx
928:
	movq	%r13, %rbp
	movl	40(%rsp), %r13d
	jmp	186f
327:
	movl	%r15d, 64(%rsp)
	leaq	56(%rsp), %r15
	testq	%rbx, %rbx
	je	972f
928:
	movq	%r12, %rdi
	callq	rattle_dealloc@PLT
972:
	cmpq	$20, %r14
	movq	%r15, 8(%rsp)
	movq	%rbp, 72(%rsp)
	ja	548f
	cmpq	$2, %r14
	jb	219f
	leaq	-264(%r15), %r13
	movl	$1, %ebp
	jmp	12f
890:
	xorl	%eax, %eax
859:
	movq	8(%rsp), %r15
	movb	%bl, (%r15,%rax)
	leaq	(%r15,%rax), %rdi
	incq	%rdi
	leaq	208(%rsp), %rsi
	movl	$263, %edx
	callq	memcpy@PLT
	movq	48(%rsp), %r14
629:
	incq	%rbp
	addq	$264, %r13
	cmpq	%r14, %rbp
	je	219f
12:
	movq	%rbp, %rax
	shlq	$8, %rax
	leaq	(%rax,%rbp,8), %rax
	movzbl	(%r15,%rax), %ebx
	cmpb	-264(%r15,%rax), %bl
	jae	629b
	movq	%r15, %rcx
	addq	%rax, %r15
	leaq	-1(%rbp), %r14
	leaq	-264(%rcx,%rax), %r12
	leaq	1(%r15), %rsi
	leaq	208(%rsp), %rdi
	movl	$263, %edx
	callq	memcpy@PLT
	movl	$264, %edx
	movq	%r15, %rdi
	movq	%r12, %rsi
	callq	memcpy@PLT
	testq	%r14, %r14
	je	890b
	movq	%r13, %r15
	.p2align	4
868:
	cmpb	(%r15), %bl
	jae	12f
	decq	%r14
	leaq	264(%r15), %rdi
	movl	$264, %edx
	movq	%r15, %rsi
	callq	memcpy@PLT
	addq	$-264, %r15
	testq	%r14, %r14
	jne	868b
	xorl	%r14d, %r14d
12:
	movq	%r14, %rax
	shlq	$8, %rax
	leaq	(%rax,%r14,8), %rax
	jmp	859b
548:
	movzbl	(%r15), %eax
	movzbl	264(%r15), %ecx
	leaq	528(%r15), %rsi
	movl	$2, %edx
	cmpb	%al, %cl
	jae	284f
	.p2align	4
548:
	movzbl	(%rsi), %edi
	cmpb	-264(%rsi), %dil
	jae	489f
	incq	%rdx
	addq	$264, %rsi
	cmpq	%rdx, %r14
	jne	548b
	jmp	928f
	.p2align	4
284:
	movzbl	(%rsi), %edi
	cmpb	-264(%rsi), %dil
	jb	489f
	incq	%rdx
	addq	$264, %rsi
	cmpq	%rdx, %r14
	jne	284b
	jmp	219f
489:
	cmpq	%r14, %rdx
	jae	868f
	bsrq	%r14, %rcx
	xorl	$63, %ecx
	addl	%ecx, %ecx
	xorl	$126, %ecx
	movq	%r15, %rdi
	xorl	%esi, %esi
	movq	%r14, %rdx
	callq	core.slice.sort.unstable.quicksort._454af122397d76be
	jmp	219f
638:
	movq	%r14, %rax
	movq	%rcx, %r14
	movq	%rbp, 72(%rsp)
	movabsq	$36028797018963964, %rbp
	andq	%rax, %rbp
	xorl	%ebx, %ebx
	movq	%rdx, %r15
	movq	%r12, %r13
	.p2align	4
327:
	movl	$264, %edx
	movq	%r15, %rdi
	movq	%r13, %rsi
	callq	memmove@PLT
	leaq	272(%r13), %rsi
	leaq	264(%r15), %rdi
	movl	$264, %edx
	callq	memmove@PLT
	leaq	544(%r13), %rsi
	leaq	528(%r15), %rdi
	movl	$264, %edx
	callq	memmove@PLT
	addq	$4, %rbx
	leaq	816(%r13), %rsi
	leaq	792(%r15), %rdi
	movl	$264, %edx
	callq	memmove@PLT
	addq	$1088, %r13
	addq	$1056, %r15
	cmpq	%rbx, %rbp
	jne	327b
	movq	%r14, %rcx
	testq	%r14, %r14
	movq	72(%rsp), %rbp
	je	859f
648:
	movq	%rbx, %rax
	shlq	$8, %rax
	leaq	(%rax,%rbx,8), %r15
	addq	8(%rsp), %r15
	imulq	$272, %rbx, %rbx
	addq	%r12, %rbx
	imulq	$272, %rcx, %r14
	xorl	%r13d, %r13d
	.p2align	4
669:
	leaq	(%rbx,%r13), %rsi
	movl	$264, %edx
	movq	%r15, %rdi
	callq	memmove@PLT
	addq	$264, %r15
	addq	$272, %r13
	cmpq	%r13, %r14
	jne	669b
859:
	movq	48(%rsp), %r14
	movq	8(%rsp), %r15
	movq	200(%rsp), %rbx
	testq	%rbx, %rbx
	jne	928b
	jmp	972b
868:
	cmpb	%al, %cl
	jae	219f
928:
	movq	%r14, %rdx
	shrq	%rdx
	movq	%r14, %rax
	subq	%rdx, %rax
	movq	%rax, %rcx
	shlq	$8, %rcx
	leaq	(%rcx,%rax,8), %rsi
	addq	%r15, %rsi
	movq	%r15, %rdi
	callq	core.slice.edits.mirror._b5829e14db1caa1c
219:
	leaq	256(%r15), %rcx
	movq	$-1, %rax
	movq	72(%rsp), %rbp
	movl	40(%rsp), %r13d
	.p2align	4
629:
	incq	%rax
	cmpq	%rax, %r14
	je	211f
	cmpq	$-1, (%rcx)
	leaq	264(%rcx), %rcx
	jne	629b
	.p2align	4
669:
	leaq	208(%rsp), %r12
	movl	$264, %edx
	movq	%r12, %rdi
	movq	%r15, %rsi
	callq	memcpy@PLT
	movq	%r12, %rdi
	callq	tc_live.tc_channel_channel_ChannelWith_Destruct.drop._429e4231f6288bb6
	addq	$264, %r15
	decq	%r14
	jne	669b
	movq	8(%rsp), %rdi
	callq	rattle_dealloc@PLT
	movb	$1, %bl
	movl	64(%rsp), %r15d
186:
	movl	$0, 24(%rsp)
	xorps	%xmm0, %xmm0
	movaps	%xmm0, 80(%rsp)
	movaps	%xmm0, 96(%rsp)
	movaps	%xmm0, 112(%rsp)
	movaps	%xmm0, 128(%rsp)
	movaps	%xmm0, 144(%rsp)
	movaps	%xmm0, 160(%rsp)
	testb	$1, %r13b
	je	928f
	xorl	%eax, %eax
	testb	%bl, %bl
	cmovnel	%eax, %r15d
	movl	$14, %ecx
	cmovnel	%eax, %ecx
	movzbl	%bl, %eax
	shll	$2, %eax
	movl	%eax, 16(%rsp)
	movl	%r15d, 20(%rsp)
	movb	%cl, 24(%rsp)
	leaq	16(%rsp), %rax
	movq	%rax, 208(%rsp)
	leaq	.LT3235efc0(%rip), %rax
	movq	%rax, 216(%rsp)
	movq	$1, 224(%rsp)
	leaq	80(%rsp), %rdi
	leaq	208(%rsp), %rdx
	movq	%rbp, %rsi
	callq	std.io.traits.Write.write_fmt._66d26946d4f3efb7
	movzbl	80(%rsp), %ecx
	jmp	15f
928:
	movq	%rbp, 208(%rsp)
	movups	%xmm0, 216(%rsp)
	movups	%xmm0, 232(%rsp)
	movups	%xmm0, 248(%rsp)
	movups	%xmm0, 264(%rsp)
	movups	%xmm0, 280(%rsp)
	movups	%xmm0, 296(%rsp)
	movups	%xmm0, 336(%rsp)
	movl	$32, 312(%rsp)
	movq	$0, 316(%rsp)
	movl	$0, 324(%rsp)
	movq	$-1, 328(%rsp)
	testb	%bl, %bl
	je	669f
	leaq	.LTde3001dd(%rip), %rsi
	leaq	208(%rsp), %rdi
	movl	$10, %edx
	callq	std.io.traits.AdapterWrite.write_str._5349ec06ad6c886c
	testb	%al, %al
	je	219f
409:
	movb	$1, %cl
	cmpb	$1, 216(%rsp)
	jne	409f
	jmp	15f
669:
	leaq	.LT11c32282(%rip), %rsi
	leaq	208(%rsp), %rdi
	movl	$9, %edx
	callq	std.io.traits.AdapterWrite.write_str._5349ec06ad6c886c
	testb	%al, %al
	jne	409b
219:
	leaq	316(%rsp), %rax
	movl	$32, 312(%rsp)
	movl	$0, 8(%rax)
	movq	$0, (%rax)
	movq	$-1, 328(%rsp)
	cmpq	$0, 336(%rsp)
	jne	459f
	leaq	.LT3235efc0(%rip), %rsi
	leaq	208(%rsp), %rdi
	movl	$1, %edx
	callq	std.io.traits.AdapterWrite.write_str._5349ec06ad6c886c
	movb	$1, %cl
	cmpb	$1, 216(%rsp)
	je	15f
1:
	testb	%al, %al
	je	83f
409:
	movb	$1, %cl
15:
	testb	%cl, %cl
	setne	%al
	addb	%al, %al
	incb	%al
850:
	addq	$504, %rsp
	popq	%rbx
	popq	%r12
	popq	%r13
	popq	%r14
	popq	%r15
	popq	%rbp
	retq
211:
	testq	%r14, %r14
	je	890f
	leaq	216(%rsp), %rbx
	leaq	120(%rsp), %r12
	xorl	%r13d, %r13d
928:
	movq	%r13, %rax
	shlq	$8, %rax
	leaq	(%rax,%r13,8), %r9
	movzbl	(%r15,%r9), %eax
	movb	%al, 7(%rsp)
	movzbl	58(%r15,%r9), %ecx
	movzbl	59(%r15,%r9), %edx
	movzbl	60(%r15,%r9), %esi
	movzbl	61(%r15,%r9), %edi
	movzbl	62(%r15,%r9), %r8d
	shll	$18, %eax
	shll	$13, %edx
	orl	%ecx, %edx
	shll	$12, %esi
	addl	%eax, %esi
	addl	%edx, %esi
	shll	$11, %edi
	addl	%esi, %edi
	shll	$9, %r8d
	leal	(%r8,%rdi), %eax
	addl	$16777216, %eax
	movl	%eax, 476(%rsp)
	movq	256(%r15,%r9), %rax
	movq	%rax, 488(%rsp)
	movq	%r9, 48(%rsp)
	movq	96(%r15,%r9), %rax
	movq	%rax, 480(%rsp)
	movq	%rbp, 208(%rsp)
	xorps	%xmm0, %xmm0
	movups	%xmm0, 80(%rbx)
	movups	%xmm0, 64(%rbx)
	movups	%xmm0, 48(%rbx)
	movups	%xmm0, 32(%rbx)
	movups	%xmm0, 16(%rbx)
	movups	%xmm0, (%rbx)
	movups	%xmm0, 120(%rbx)
	leaq	.LT8483e2a3(%rip), %rsi
	movq	%rsi, 80(%rsp)
	movq	$6, 88(%rsp)
	leaq	7(%rsp), %rax
	movq	%rax, 96(%rsp)
	leaq	.LT37337163(%rip), %rax
	movq	%rax, 104(%rsp)
	movq	$1, 112(%rsp)
	leaq	476(%rsp), %rax
	movq	%rax, 120(%rsp)
	leaq	.LT78f06cc6(%rip), %rax
	movq	%rax, 128(%rsp)
	movq	$8, 136(%rsp)
	leaq	488(%rsp), %rax
	movq	%rax, 144(%rsp)
	leaq	.LTa04389c8(%rip), %rax
	movq	%rax, 152(%rsp)
	movq	$10, 160(%rsp)
	leaq	480(%rsp), %rax
	movq	%rax, 168(%rsp)
	leaq	.LT3235efc0(%rip), %rax
	movq	%rax, 176(%rsp)
	movq	$1, 184(%rsp)
	movl	$32, 312(%rsp)
	movl	$0, 108(%rbx)
	movq	$0, 100(%rbx)
	movq	$-1, 328(%rsp)
	leaq	208(%rsp), %rdi
	movl	$6, %edx
	callq	std.io.traits.AdapterWrite.write_str._5349ec06ad6c886c
	testb	%al, %al
	jne	409f
	movl	$32, 312(%rsp)
	movl	$0, 108(%rbx)
	movq	$0, 100(%rbx)
	movq	$-1, 328(%rsp)
	movzbl	7(%rsp), %eax
	xorps	%xmm0, %xmm0
	movaps	%xmm0, 16(%rsp)
	movq	$0, 32(%rsp)
	cmpb	$100, %al
	jb	327f
	movzbl	%al, %ecx
	leal	(%rcx,%rcx,4), %edx
	leal	(%rcx,%rdx,8), %edx
	shrl	$12, %edx
	imull	$100, %edx, %ecx
	subb	%cl, %al
	movzbl	%al, %eax
	imull	$205, %eax, %ecx
	shrl	$11, %ecx
	leal	(%rcx,%rcx), %esi
	leal	(%rsi,%rsi,4), %esi
	subb	%sil, %al
	orb	$48, %al
	movb	%al, 39(%rsp)
	orb	$48, %cl
	movb	%cl, 38(%rsp)
	movl	$21, %ecx
	movl	%edx, %eax
	jmp	52f
327:
	movl	$23, %ecx
	cmpb	$10, %al
	jb	52f
	movzbl	%al, %ecx
	imull	$205, %ecx, %ecx
	shrl	$11, %ecx
	leal	(%rcx,%rcx), %edx
	leal	(%rdx,%rdx,4), %edx
	subb	%dl, %al
	orb	$48, %al
	movb	%al, 39(%rsp)
	orb	$48, %cl
	movb	%cl, 38(%rsp)
	movl	$22, %ecx
	jmp	669f
52:
	orb	$48, %al
	movb	%al, 16(%rsp,%rcx)
669:
	leaq	(%rsp,%rcx), %rsi
	addq	$16, %rsi
	movb	$45, 15(%rsp,%rcx)
	movl	$24, %edx
	subq	%rcx, %rdx
	cmpq	$0, 336(%rsp)
	jne	661f
	leaq	208(%rsp), %rdi
	callq	std.io.traits.AdapterWrite.write_str._5349ec06ad6c886c
	testb	%al, %al
	jne	409f
327:
	movl	$32, 312(%rsp)
	movl	$0, 108(%rbx)
	movq	$0, 100(%rbx)
	movq	$-1, 328(%rsp)
	cmpq	$0, 336(%rsp)
	jne	172f
	leaq	.LT37337163(%rip), %rsi
	leaq	208(%rsp), %rdi
	movl	$1, %edx
	callq	std.io.traits.AdapterWrite.write_str._5349ec06ad6c886c
	testb	%al, %al
	jne	409f
669:
	leaq	208(%rsp), %rdi
	movq	%r12, %rsi
	callq	core.fmt.formatter.Formatter.write_piece._372ad1e79d773fc5
	testb	%al, %al
	jne	409f
	movl	$32, 312(%rsp)
	movl	$0, 108(%rbx)
	movq	$0, 100(%rbx)
	movq	$-1, 328(%rsp)
	cmpq	$0, 336(%rsp)
	jne	669f
	leaq	.LT78f06cc6(%rip), %rsi
	leaq	208(%rsp), %rdi
	movl	$8, %edx
	callq	std.io.traits.AdapterWrite.write_str._5349ec06ad6c886c
	testb	%al, %al
	jne	409f
186:
	movl	$32, 312(%rsp)
	movl	$0, 108(%rbx)
	movq	$0, 100(%rbx)
	movq	$-1, 328(%rsp)
	movq	488(%rsp), %rsi
	xorps	%xmm0, %xmm0
	movaps	%xmm0, 16(%rsp)
	movq	$0, 32(%rsp)
	movl	$24, %ecx
	movabsq	$2951479051793528259, %r12
	cmpq	$100, %rsi
	jb	12f
	.p2align	4
859:
	movq	%rsi, %rax
	shrq	$2, %rax
	mulq	%r12
	shrq	$2, %rdx
	imull	$100, %edx, %eax
	movl	%esi, %edi
	subl	%eax, %edi
	movzbl	%dil, %eax
	imull	$205, %eax, %edi
	shrl	$11, %edi
	leal	(%rdi,%rdi), %r8d
	leal	(%r8,%r8,4), %r8d
	subb	%r8b, %al
	orb	$48, %al
	movb	%al, 15(%rsp,%rcx)
	orb	$48, %dil
	movb	%dil, 14(%rsp,%rcx)
	addq	$-2, %rcx
	cmpq	$9999, %rsi
	movq	%rdx, %rsi
	ja	859b
	cmpq	$10, %rdx
	jb	52f
548:
	movzbl	%dl, %eax
	imull	$205, %eax, %eax
	shrl	$11, %eax
	leal	(%rax,%rax), %esi
	leal	(%rsi,%rsi,4), %esi
	subb	%sil, %dl
	orb	$48, %dl
	movb	%dl, 15(%rsp,%rcx)
	orb	$48, %al
	movb	%al, 14(%rsp,%rcx)
	addq	$-2, %rcx
	jmp	219f
12:
	movq	%rsi, %rdx
	cmpq	$10, %rdx
	jae	548b
52:
	orb	$48, %dl
	movb	%dl, 15(%rsp,%rcx)
	decq	%rcx
219:
	leaq	(%rsp,%rcx), %rsi
	addq	$16, %rsi
	movb	$45, 15(%rsp,%rcx)
	movl	$24, %edx
	subq	%rcx, %rdx
	cmpq	$0, 336(%rsp)
	jne	999f
	leaq	208(%rsp), %rdi
	callq	std.io.traits.AdapterWrite.write_str._5349ec06ad6c886c
	testb	%al, %al
	jne	409f
981:
	movl	$32, 312(%rsp)
	movl	$0, 108(%rbx)
	movq	$0, 100(%rbx)
	movq	$-1, 328(%rsp)
	cmpq	$0, 336(%rsp)
	jne	90f
	leaq	.LTa04389c8(%rip), %rsi
	leaq	208(%rsp), %rdi
	movl	$10, %edx
	callq	std.io.traits.AdapterWrite.write_str._5349ec06ad6c886c
	testb	%al, %al
	jne	409f
434:
	movl	$32, 312(%rsp)
	movl	$0, 108(%rbx)
	movq	$0, 100(%rbx)
	movq	$-1, 328(%rsp)
	movq	480(%rsp), %rsi
	xorps	%xmm0, %xmm0
	movaps	%xmm0, 16(%rsp)
	movq	$0, 32(%rsp)
	movl	$24, %ecx
	cmpq	$100, %rsi
	jb	12f
	.p2align	4
859:
	movq	%rsi, %rax
	shrq	$2, %rax
	mulq	%r12
	shrq	$2, %rdx
	imull	$100, %edx, %eax
	movl	%esi, %edi
	subl	%eax, %edi
	movzbl	%dil, %eax
	imull	$205, %eax, %edi
	shrl	$11, %edi
	leal	(%rdi,%rdi), %r8d
	leal	(%r8,%r8,4), %r8d
	subb	%r8b, %al
	orb	$48, %al
	movb	%al, 15(%rsp,%rcx)
	orb	$48, %dil
	movb	%dil, 14(%rsp,%rcx)
	addq	$-2, %rcx
	cmpq	$9999, %rsi
	movq	%rdx, %rsi
	ja	859b
	cmpq	$10, %rdx
	jb	52f
548:
	movzbl	%dl, %eax
	imull	$205, %eax, %eax
	shrl	$11, %eax
	leal	(%rax,%rax), %esi
	leal	(%rsi,%rsi,4), %esi
	subb	%sil, %dl
	orb	$48, %dl
	movb	%dl, 15(%rsp,%rcx)
	orb	$48, %al
	movb	%al, 14(%rsp,%rcx)
	addq	$-2, %rcx
	jmp	219f
12:
	movq	%rsi, %rdx
	cmpq	$10, %rdx
	jae	548b
52:
	orb	$48, %dl
	movb	%dl, 15(%rsp,%rcx)
	decq	%rcx
219:
	leaq	(%rsp,%rcx), %rsi
	addq	$16, %rsi
	movb	$45, 15(%rsp,%rcx)
	movl	$24, %edx
	subq	%rcx, %rdx
	cmpq	$0, 336(%rsp)
	jne	975f
	leaq	208(%rsp), %rdi
	callq	std.io.traits.AdapterWrite.write_str._5349ec06ad6c886c
	testb	%al, %al
	jne	409f
509:
	movl	$32, 312(%rsp)
	movl	$0, 108(%rbx)
	movq	$0, 100(%rbx)
	movq	$-1, 328(%rsp)
	cmpq	$0, 336(%rsp)
	jne	458f
	leaq	.LT3235efc0(%rip), %rsi
	leaq	208(%rsp), %rdi
	movl	$1, %edx
	callq	std.io.traits.AdapterWrite.write_str._5349ec06ad6c886c
	testb	%al, %al
	movq	48(%rsp), %rcx
	jne	409f
548:
	movzbl	216(%rsp), %eax
	cmpl	$1, %eax
	je	409f
	movq	%r13, 496(%rsp)
	movq	16(%r15,%rcx), %rax
	movq	%rax, 64(%rsp)
	testq	%rax, %rax
	je	648f
	movq	8(%r15,%rcx), %rax
	movq	%rax, 40(%rsp)
	xorl	%r13d, %r13d
	jmp	12f
	.p2align	4
859:
	movq	8(%rsp), %r15
629:
	incq	%r13
	cmpq	64(%rsp), %r13
	movq	48(%rsp), %rcx
	je	648f
12:
	movq	40(%rsp), %rax
	movzwl	(%rax,%r13,4), %r12d
	movzbl	(%r15,%rcx), %ebp
	movq	160(%r15,%rcx), %rax
	movq	168(%r15,%rcx), %rdx
	cmpq	%r12, 192(%r15,%rcx)
	jbe	211f
	movq	184(%r15,%rcx), %rcx
	movzwl	(%rcx,%r12,2), %ecx
	cmpq	%rcx, %rdx
	jbe	629b
	shll	$6, %ecx
12:
	movq	40(%rax,%rcx), %r15
	movq	72(%rsp), %rax
	movq	%rax, 208(%rsp)
	xorps	%xmm0, %xmm0
	movups	%xmm0, 80(%rbx)
	movups	%xmm0, 64(%rbx)
	movups	%xmm0, 48(%rbx)
	movups	%xmm0, 32(%rbx)
	movups	%xmm0, 16(%rbx)
	movups	%xmm0, (%rbx)
	movups	%xmm0, 120(%rbx)
	movl	$32, 312(%rsp)
	movl	$0, 108(%rbx)
	movq	$0, 100(%rbx)
	movq	$-1, 328(%rsp)
	leaq	.LT46c79790(%rip), %rsi
	leaq	208(%rsp), %rdi
	movl	$6, %edx
	callq	std.io.traits.AdapterWrite.write_str._5349ec06ad6c886c
	testb	%al, %al
	jne	969f
	movl	$32, 312(%rsp)
	movl	$0, 108(%rbx)
	movq	$0, 100(%rbx)
	movq	$-1, 328(%rsp)
	xorps	%xmm0, %xmm0
	movaps	%xmm0, 80(%rsp)
	movq	$0, 96(%rsp)
	cmpb	$100, %bpl
	jb	10f
	movzbl	%bpl, %eax
	leal	(%rax,%rax,4), %ecx
	leal	(%rax,%rcx,8), %ecx
	shrl	$12, %ecx
	imull	$100, %ecx, %eax
	subb	%al, %bpl
	movzbl	%bpl, %eax
	imull	$205, %eax, %edx
	shrl	$11, %edx
	leal	(%rdx,%rdx), %esi
	leal	(%rsi,%rsi,4), %esi
	subb	%sil, %al
	orb	$48, %al
	movb	%al, 103(%rsp)
	orb	$48, %dl
	movb	%dl, 102(%rsp)
	movl	$21, %eax
	movl	%ecx, %ebp
	jmp	52f
	.p2align	4
211:
	testq	%rdx, %rdx
	je	629b
	xorl	%ecx, %ecx
	.p2align	4
129:
	cmpw	(%rax,%rcx), %r12w
	je	12b
	addq	$64, %rcx
	decq	%rdx
	jne	129b
	jmp	629b
10:
	movl	$23, %eax
	cmpb	$10, %bpl
	jb	52f
	movzbl	%bpl, %eax
	imull	$205, %eax, %eax
	shrl	$11, %eax
	leal	(%rax,%rax), %ecx
	leal	(%rcx,%rcx,4), %ecx
	subb	%cl, %bpl
	orb	$48, %bpl
	movb	%bpl, 103(%rsp)
	orb	$48, %al
	movb	%al, 102(%rsp)
	movl	$22, %eax
	jmp	219f
52:
	orb	$48, %bpl
	movb	%bpl, 80(%rsp,%rax)
219:
	leaq	(%rsp,%rax), %rsi
	addq	$80, %rsi
	movb	$45, 79(%rsp,%rax)
	movl	$24, %edx
	subq	%rax, %rdx
	cmpq	$0, 336(%rsp)
	jne	949f
	leaq	208(%rsp), %rdi
	callq	std.io.traits.AdapterWrite.write_str._5349ec06ad6c886c
	testb	%al, %al
	jne	969f
10:
	movl	$32, 312(%rsp)
	movl	$0, 108(%rbx)
	movq	$0, 100(%rbx)
	movq	$-1, 328(%rsp)
	cmpq	$0, 336(%rsp)
	jne	740f
	leaq	.LT37337163(%rip), %rsi
	leaq	208(%rsp), %rdi
	movl	$1, %edx
	callq	std.io.traits.AdapterWrite.write_str._5349ec06ad6c886c
	testb	%al, %al
	jne	969f
933:
	movl	$32, 312(%rsp)
	movl	$0, 108(%rbx)
	movq	$0, 100(%rbx)
	movq	$-1, 328(%rsp)
	xorps	%xmm0, %xmm0
	movaps	%xmm0, 80(%rsp)
	movq	$0, 96(%rsp)
	movl	$24, %eax
	cmpw	$100, %r12w
	jb	12f
	.p2align	4
110:
	movl	%r12d, %ecx
	imulq	$1374389535, %rcx, %rcx
	shrq	$37, %rcx
	imull	$100, %ecx, %edx
	movl	%r12d, %esi
	subl	%edx, %esi
	imull	$103, %esi, %edx
	movzwl	%dx, %edx
	shrl	$10, %edx
	leal	(%rdx,%rdx), %edi
	leal	(%rdi,%rdi,4), %edi
	subb	%dil, %sil
	orb	$48, %sil
	movb	%sil, 79(%rsp,%rax)
	orb	$48, %dl
	movb	%dl, 78(%rsp,%rax)
	addq	$-2, %rax
	cmpq	$9999, %r12
	movq	%rcx, %r12
	ja	110b
	cmpq	$10, %rcx
	jb	52f
284:
	movzbl	%cl, %edx
	imull	$205, %edx, %edx
	shrl	$11, %edx
	leal	(%rdx,%rdx), %esi
	leal	(%rsi,%rsi,4), %esi
	subb	%sil, %cl
	orb	$48, %cl
	movb	%cl, 79(%rsp,%rax)
	orb	$48, %dl
	movb	%dl, 78(%rsp,%rax)
	addq	$-2, %rax
	jmp	219f
12:
	movq	%r12, %rcx
	cmpq	$10, %rcx
	jae	284b
52:
	orb	$48, %cl
	movb	%cl, 79(%rsp,%rax)
	decq	%rax
219:
	leaq	(%rsp,%rax), %rsi
	addq	$80, %rsi
	movb	$45, 79(%rsp,%rax)
	movl	$24, %edx
	subq	%rax, %rdx
	cmpq	$0, 336(%rsp)
	jne	71f
	leaq	208(%rsp), %rdi
	callq	std.io.traits.AdapterWrite.write_str._5349ec06ad6c886c
	testb	%al, %al
	jne	969f
110:
	movl	$32, 312(%rsp)
	movl	$0, 108(%rbx)
	movq	$0, 100(%rbx)
	movq	$-1, 328(%rsp)
	cmpq	$0, 336(%rsp)
	jne	917f
	leaq	.LT37337163(%rip), %rsi
	leaq	208(%rsp), %rdi
	movl	$1, %edx
	callq	std.io.traits.AdapterWrite.write_str._5349ec06ad6c886c
	testb	%al, %al
	jne	969f
515:
	movl	$32, 312(%rsp)
	movl	$0, 108(%rbx)
	movq	$0, 100(%rbx)
	movq	$-1, 328(%rsp)
	xorps	%xmm0, %xmm0
	movaps	%xmm0, 80(%rsp)
	movq	$0, 96(%rsp)
	movl	$24, %ecx
	cmpq	$100, %r15
	jb	638f
	movabsq	$2951479051793528259, %r8
	.p2align	4
12:
	movq	%r15, %rax
	shrq	$2, %rax
	mulq	%r8
	shrq	$2, %rdx
	imull	$100, %edx, %eax
	movl	%r15d, %esi
	subl	%eax, %esi
	movzbl	%sil, %eax
	imull	$205, %eax, %esi
	shrl	$11, %esi
	leal	(%rsi,%rsi), %edi
	leal	(%rdi,%rdi,4), %edi
	subb	%dil, %al
	orb	$48, %al
	movb	%al, 79(%rsp,%rcx)
	orb	$48, %sil
	movb	%sil, 78(%rsp,%rcx)
	addq	$-2, %rcx
	cmpq	$9999, %r15
	movq	%rdx, %r15
	ja	12b
	cmpq	$10, %rdx
	jb	52f
284:
	movzbl	%dl, %eax
	imull	$205, %eax, %eax
	shrl	$11, %eax
	leal	(%rax,%rax), %esi
	leal	(%rsi,%rsi,4), %esi
	subb	%sil, %dl
	orb	$48, %dl
	movb	%dl, 79(%rsp,%rcx)
	orb	$48, %al
	movb	%al, 78(%rsp,%rcx)
	addq	$-2, %rcx
	jmp	219f
638:
	movq	%r15, %rdx
	cmpq	$10, %rdx
	jae	284b
52:
	orb	$48, %dl
	movb	%dl, 79(%rsp,%rcx)
	decq	%rcx
219:
	leaq	(%rsp,%rcx), %rsi
	addq	$80, %rsi
	movb	$45, 79(%rsp,%rcx)
	movl	$24, %edx
	subq	%rcx, %rdx
	cmpq	$0, 336(%rsp)
	jne	219f
	leaq	208(%rsp), %rdi
	callq	std.io.traits.AdapterWrite.write_str._5349ec06ad6c886c
	testb	%al, %al
	jne	969f
647:
	movl	$32, 312(%rsp)
	movl	$0, 108(%rbx)
	movq	$0, 100(%rbx)
	movq	$-1, 328(%rsp)
	cmpq	$0, 336(%rsp)
	jne	359f
	leaq	.LT3235efc0(%rip), %rsi
	leaq	208(%rsp), %rdi
	movl	$1, %edx
	callq	std.io.traits.AdapterWrite.write_str._5349ec06ad6c886c
	testb	%al, %al
	jne	969f
284:
	movzbl	216(%rsp), %eax
	cmpl	$1, %eax
	jne	859b
	jmp	969f
949:
	leaq	208(%rsp), %rdi
	callq	core.fmt.formatter.Formatter.write_indented._1ac78889755d2eb3
	testb	%al, %al
	je	10b
	jmp	969f
740:
	leaq	.LT37337163(%rip), %rsi
	leaq	208(%rsp), %rdi
	movl	$1, %edx
	callq	core.fmt.formatter.Formatter.write_indented._1ac78889755d2eb3
	testb	%al, %al
	je	933b
	jmp	969f
71:
	leaq	208(%rsp), %rdi
	callq	core.fmt.formatter.Formatter.write_indented._1ac78889755d2eb3
	testb	%al, %al
	je	110b
	jmp	969f
917:
	leaq	.LT37337163(%rip), %rsi
	leaq	208(%rsp), %rdi
	movl	$1, %edx
	callq	core.fmt.formatter.Formatter.write_indented._1ac78889755d2eb3
	testb	%al, %al
	je	515b
	jmp	969f
219:
	leaq	208(%rsp), %rdi
	callq	core.fmt.formatter.Formatter.write_indented._1ac78889755d2eb3
	testb	%al, %al
	je	647b
	jmp	969f
359:
	leaq	.LT3235efc0(%rip), %rsi
	leaq	208(%rsp), %rdi
	movl	$1, %edx
	callq	core.fmt.formatter.Formatter.write_indented._1ac78889755d2eb3
	testb	%al, %al
	je	284b
	jmp	969f
648:
	movq	40(%r15,%rcx), %rax
	movq	%rax, 200(%rsp)
	testq	%rax, %rax
	je	648f
	movq	32(%r15,%rcx), %rax
	movq	%rax, 64(%rsp)
	xorl	%edx, %edx
	jmp	638f
859:
	movq	8(%rsp), %r15
12:
	movq	40(%rsp), %rdx
	incq	%rdx
	cmpq	200(%rsp), %rdx
	movq	48(%rsp), %rcx
	je	648f
638:
	movq	64(%rsp), %rax
	movq	%rdx, 40(%rsp)
	movzbl	(%rax,%rdx,4), %r12d
	movzbl	(%r15,%rcx), %r13d
	movzbl	%r12b, %ebp
	movq	208(%r15,%rcx), %rax
	movq	%rcx, %rdx
	movq	216(%r15,%rcx), %rcx
	cmpq	%rbp, 240(%r15,%rdx)
	jbe	211f
	movq	232(%r15,%rdx), %rdx
	movzwl	(%rdx,%rbp,2), %edx
	cmpq	%rdx, %rcx
	jbe	12b
	shll	$6, %edx
638:
	movq	40(%rax,%rdx), %r15
	movq	72(%rsp), %rax
	movq	%rax, 208(%rsp)
	xorps	%xmm0, %xmm0
	movups	%xmm0, 80(%rbx)
	movups	%xmm0, 64(%rbx)
	movups	%xmm0, 48(%rbx)
	movups	%xmm0, 32(%rbx)
	movups	%xmm0, 16(%rbx)
	movups	%xmm0, (%rbx)
	movups	%xmm0, 120(%rbx)
	movl	$32, 312(%rsp)
	movl	$0, 108(%rbx)
	movq	$0, 100(%rbx)
	movq	$-1, 328(%rsp)
	leaq	.LT3276ef29(%rip), %rsi
	leaq	208(%rsp), %rdi
	movl	$4, %edx
	callq	std.io.traits.AdapterWrite.write_str._5349ec06ad6c886c
	testb	%al, %al
	jne	969f
	movl	$32, 312(%rsp)
	movl	$0, 108(%rbx)
	movq	$0, 100(%rbx)
	movq	$-1, 328(%rsp)
	xorps	%xmm0, %xmm0
	movaps	%xmm0, 80(%rsp)
	movq	$0, 96(%rsp)
	cmpb	$100, %r13b
	jb	10f
	movzbl	%r13b, %eax
	leal	(%rax,%rax,4), %ecx
	leal	(%rax,%rcx,8), %ecx
	shrl	$12, %ecx
	imull	$100, %ecx, %eax
	subb	%al, %r13b
	movzbl	%r13b, %eax
	imull	$205, %eax, %edx
	shrl	$11, %edx
	leal	(%rdx,%rdx), %esi
	leal	(%rsi,%rsi,4), %esi
	subb	%sil, %al
	orb	$48, %al
	movb	%al, 103(%rsp)
	orb	$48, %dl
	movb	%dl, 102(%rsp)
	movl	$21, %eax
	movl	%ecx, %r13d
	jmp	52f
211:
	testq	%rcx, %rcx
	je	12b
	xorl	%edx, %edx
	.p2align	4
129:
	cmpw	%bp, (%rax,%rdx)
	je	638b
	addq	$64, %rdx
	decq	%rcx
	jne	129b
	jmp	12b
10:
	movl	$23, %eax
	cmpb	$10, %r13b
	jb	52f
	movzbl	%r13b, %eax
	imull	$205, %eax, %eax
	shrl	$11, %eax
	leal	(%rax,%rax), %ecx
	leal	(%rcx,%rcx,4), %ecx
	subb	%cl, %r13b
	orb	$48, %r13b
	movb	%r13b, 103(%rsp)
	orb	$48, %al
	movb	%al, 102(%rsp)
	movl	$22, %eax
	jmp	219f
52:
	orb	$48, %r13b
	movb	%r13b, 80(%rsp,%rax)
219:
	leaq	(%rsp,%rax), %rsi
	addq	$80, %rsi
	movb	$45, 79(%rsp,%rax)
	movl	$24, %edx
	subq	%rax, %rdx
	cmpq	$0, 336(%rsp)
	jne	949f
	leaq	208(%rsp), %rdi
	callq	std.io.traits.AdapterWrite.write_str._5349ec06ad6c886c
	testb	%al, %al
	jne	969f
10:
	movl	$32, 312(%rsp)
	movl	$0, 108(%rbx)
	movq	$0, 100(%rbx)
	movq	$-1, 328(%rsp)
	cmpq	$0, 336(%rsp)
	jne	740f
	leaq	.LT37337163(%rip), %rsi
	leaq	208(%rsp), %rdi
	movl	$1, %edx
	callq	std.io.traits.AdapterWrite.write_str._5349ec06ad6c886c
	testb	%al, %al
	jne	969f
933:
	movl	$32, 312(%rsp)
	movl	$0, 108(%rbx)
	movq	$0, 100(%rbx)
	movq	$-1, 328(%rsp)
	xorps	%xmm0, %xmm0
	movaps	%xmm0, 80(%rsp)
	movq	$0, 96(%rsp)
	cmpb	$100, %r12b
	jb	110f
	leal	(%rbp,%rbp,4), %eax
	leal	(%rbp,%rax,8), %ecx
	shrl	$12, %ecx
	imull	$100, %ecx, %eax
	subb	%al, %r12b
	movzbl	%r12b, %eax
	imull	$205, %eax, %edx
	shrl	$11, %edx
	leal	(%rdx,%rdx), %esi
	leal	(%rsi,%rsi,4), %esi
	subb	%sil, %al
	orb	$48, %al
	movb	%al, 103(%rsp)
	orb	$48, %dl
	movb	%dl, 102(%rsp)
	movl	$21, %eax
	movl	%ecx, %r12d
	jmp	52f
110:
	movl	$23, %eax
	cmpb	$10, %r12b
	jb	52f
	imull	$205, %ebp, %eax
	shrl	$11, %eax
	leal	(%rax,%rax), %ecx
	leal	(%rcx,%rcx,4), %ecx
	subb	%cl, %r12b
	orb	$48, %r12b
	movb	%r12b, 103(%rsp)
	orb	$48, %al
	movb	%al, 102(%rsp)
	movl	$22, %eax
	jmp	219f
52:
	orb	$48, %r12b
	movb	%r12b, 80(%rsp,%rax)
219:
	leaq	(%rsp,%rax), %rsi
	addq	$80, %rsi
	movb	$45, 79(%rsp,%rax)
	movl	$24, %edx
	subq	%rax, %rdx
	cmpq	$0, 336(%rsp)
	jne	71f
	leaq	208(%rsp), %rdi
	callq	std.io.traits.AdapterWrite.write_str._5349ec06ad6c886c
	testb	%al, %al
	jne	969f
110:
	movl	$32, 312(%rsp)
	movl	$0, 108(%rbx)
	movq	$0, 100(%rbx)
	movq	$-1, 328(%rsp)
	cmpq	$0, 336(%rsp)
	jne	917f
	leaq	.LT37337163(%rip), %rsi
	leaq	208(%rsp), %rdi
	movl	$1, %edx
	callq	std.io.traits.AdapterWrite.write_str._5349ec06ad6c886c
	testb	%al, %al
	jne	969f
515:
	movl	$32, 312(%rsp)
	movl	$0, 108(%rbx)
	movq	$0, 100(%rbx)
	movq	$-1, 328(%rsp)
	xorps	%xmm0, %xmm0
	movaps	%xmm0, 80(%rsp)
	movq	$0, 96(%rsp)
	movl	$24, %ecx
	cmpq	$100, %r15
	jb	638f
	movabsq	$2951479051793528259, %r8
	.p2align	4
12:
	movq	%r15, %rax
	shrq	$2, %rax
	mulq	%r8
	shrq	$2, %rdx
	imull	$100, %edx, %eax
	movl	%r15d, %esi
	subl	%eax, %esi
	movzbl	%sil, %eax
	imull	$205, %eax, %esi
	shrl	$11, %esi
	leal	(%rsi,%rsi), %edi
	leal	(%rdi,%rdi,4), %edi
	subb	%dil, %al
	orb	$48, %al
	movb	%al, 79(%rsp,%rcx)
	orb	$48, %sil
	movb	%sil, 78(%rsp,%rcx)
	addq	$-2, %rcx
	cmpq	$9999, %r15
	movq	%rdx, %r15
	ja	12b
	cmpq	$10, %rdx
	jb	52f
284:
	movzbl	%dl, %eax
	imull	$205, %eax, %eax
	shrl	$11, %eax
	leal	(%rax,%rax), %esi
	leal	(%rsi,%rsi,4), %esi
	subb	%sil, %dl
	orb	$48, %dl
	movb	%dl, 79(%rsp,%rcx)
	orb	$48, %al
	movb	%al, 78(%rsp,%rcx)
	addq	$-2, %rcx
	jmp	219f
638:
	movq	%r15, %rdx
	cmpq	$10, %rdx
	jae	284b
52:
	orb	$48, %dl
	movb	%dl, 79(%rsp,%rcx)
	decq	%rcx
219:
	leaq	(%rsp,%rcx), %rsi
	addq	$80, %rsi
	movb	$45, 79(%rsp,%rcx)
	movl	$24, %edx
	subq	%rcx, %rdx
	cmpq	$0, 336(%rsp)
	jne	219f
	leaq	208(%rsp), %rdi
	callq	std.io.traits.AdapterWrite.write_str._5349ec06ad6c886c
	testb	%al, %al
	jne	969f
647:
	movl	$32, 312(%rsp)
	movl	$0, 108(%rbx)
	movq	$0, 100(%rbx)
	movq	$-1, 328(%rsp)
	cmpq	$0, 336(%rsp)
	jne	359f
	leaq	.LT3235efc0(%rip), %rsi
	leaq	208(%rsp), %rdi
	movl	$1, %edx
	callq	std.io.traits.AdapterWrite.write_str._5349ec06ad6c886c
	testb	%al, %al
	jne	969f
284:
	movzbl	216(%rsp), %eax
	cmpl	$1, %eax
	jne	859b
	jmp	969f
949:
	leaq	208(%rsp), %rdi
	callq	core.fmt.formatter.Formatter.write_indented._1ac78889755d2eb3
	testb	%al, %al
	je	10b
	jmp	969f
740:
	leaq	.LT37337163(%rip), %rsi
	leaq	208(%rsp), %rdi
	movl	$1, %edx
	callq	core.fmt.formatter.Formatter.write_indented._1ac78889755d2eb3
	testb	%al, %al
	je	933b
	jmp	969f
71:
	leaq	208(%rsp), %rdi
	callq	core.fmt.formatter.Formatter.write_indented._1ac78889755d2eb3
	testb	%al, %al
	je	110b
	jmp	969f
917:
	leaq	.LT37337163(%rip), %rsi
	leaq	208(%rsp), %rdi
	movl	$1, %edx
	callq	core.fmt.formatter.Formatter.write_indented._1ac78889755d2eb3
	testb	%al, %al
	je	515b
	jmp	969f
219:
	leaq	208(%rsp), %rdi
	callq	core.fmt.formatter.Formatter.write_indented._1ac78889755d2eb3
	testb	%al, %al
	je	647b
	jmp	969f
359:
	leaq	.LT3235efc0(%rip), %rsi
	leaq	208(%rsp), %rdi
	movl	$1, %edx
	callq	core.fmt.formatter.Formatter.write_indented._1ac78889755d2eb3
	testb	%al, %al
	je	284b
	jmp	969f
648:
	movq	496(%rsp), %r13
	incq	%r13
	cmpq	%r14, %r13
	movq	72(%rsp), %rbp
	leaq	120(%rsp), %r12
	jne	928b
	jmp	289f
661:
	leaq	208(%rsp), %rdi
	callq	core.fmt.formatter.Formatter.write_indented._1ac78889755d2eb3
	testb	%al, %al
	je	327b
	jmp	409f
172:
	leaq	.LT37337163(%rip), %rsi
	leaq	208(%rsp), %rdi
	movl	$1, %edx
	callq	core.fmt.formatter.Formatter.write_indented._1ac78889755d2eb3
	testb	%al, %al
	je	669b
	jmp	409f
669:
	leaq	.LT78f06cc6(%rip), %rsi
	leaq	208(%rsp), %rdi
	movl	$8, %edx
	callq	core.fmt.formatter.Formatter.write_indented._1ac78889755d2eb3
	testb	%al, %al
	je	186b
	jmp	409f
999:
	leaq	208(%rsp), %rdi
	callq	core.fmt.formatter.Formatter.write_indented._1ac78889755d2eb3
	testb	%al, %al
	je	981b
	jmp	409f
90:
	leaq	.LTa04389c8(%rip), %rsi
	leaq	208(%rsp), %rdi
	movl	$10, %edx
	callq	core.fmt.formatter.Formatter.write_indented._1ac78889755d2eb3
	testb	%al, %al
	je	434b
	jmp	409f
975:
	leaq	208(%rsp), %rdi
	callq	core.fmt.formatter.Formatter.write_indented._1ac78889755d2eb3
	testb	%al, %al
	je	509b
	jmp	409f
458:
	leaq	.LT3235efc0(%rip), %rsi
	leaq	208(%rsp), %rdi
	movl	$1, %edx
	callq	core.fmt.formatter.Formatter.write_indented._1ac78889755d2eb3
	testb	%al, %al
	movq	48(%rsp), %rcx
	je	548b
409:
	movb	$3, %bl
	jmp	669f
969:
	movb	$3, %bl
	movq	8(%rsp), %r15
	.p2align	4
669:
	leaq	208(%rsp), %r12
	movl	$264, %edx
	movq	%r12, %rdi
	movq	%r15, %rsi
	callq	memcpy@PLT
	movq	%r12, %rdi
	callq	tc_live.tc_channel_channel_ChannelWith_Destruct.drop._429e4231f6288bb6
	addq	$264, %r15
	decq	%r14
	jne	669b
	movq	8(%rsp), %rdi
	callq	rattle_dealloc@PLT
	movl	%ebx, %eax
	jmp	850b
890:
	xorl	%eax, %eax
	jmp	850b
83:
	xorl	%ecx, %ecx
	jmp	15b
459:
	leaq	.LT3235efc0(%rip), %rsi
	leaq	208(%rsp), %rdi
	movl	$1, %edx
	callq	core.fmt.formatter.Formatter.write_indented._1ac78889755d2eb3
	movb	$1, %cl
	cmpb	$1, 216(%rsp)
	jne	1b
	jmp	15b
289:
	xorl	%ebx, %ebx
	jmp	669b
	.section	.text.core.slice.sort.unstable.quicksort._454af122397d76be,"ax",@progbits
	.p2align	4
core.slice.sort.unstable.quicksort._454af122397d76be:
	pushq	%rbp
	pushq	%r15
	pushq	%r14
	pushq	%r13
	pushq	%r12
	pushq	%rbx
	subq	$632, %rsp
	movq	%rdx, %rbp
	movq	%rsi, %r15
	movq	%rdi, %r14
	movq	%rdx, 96(%rsp)
	subq	%rsi, %rbp
	cmpq	$17, %rbp
	jb	972f
	movl	%ecx, %r13d
	leaq	264(%r14), %rax
	movq	%rax, 80(%rsp)
	leaq	528(%r14), %rax
	movq	%rax, 64(%rsp)
	movq	%r14, 72(%rsp)
	jmp	759f
	.p2align	4
928:
	movq	%rbx, %rax
	shlq	$8, %rax
	leaq	(%rax,%rbx,8), %r15
	leaq	(%r15,%rbp), %rsi
	movl	$264, %edx
	movq	%rbp, %rdi
	callq	memmove@PLT
	movzbl	15(%rsp), %ecx
409:
	movb	%cl, (%rbp,%r15)
	leaq	(%r15,%rbp), %rdi
	incq	%rdi
	leaq	369(%rsp), %rsi
	movl	$263, %edx
	callq	memcpy@PLT
	movq	56(%rsp), %r15
	addq	%r15, %rbx
	movq	%r14, %rdi
	movq	%r15, %rsi
	movq	%rbx, %rdx
	movl	%r13d, %ecx
	callq	core.slice.sort.unstable.quicksort._454af122397d76be
850:
	addq	%r12, %r15
	movq	96(%rsp), %rbp
	subq	%r15, %rbp
	cmpq	$16, %rbp
	jbe	972f
759:
	testl	%r13d, %r13d
	je	648f
	movq	%rbp, %r8
	shrq	$3, %r8
	movq	%rbp, %rcx
	andq	$-8, %rcx
	subq	%r8, %rcx
	addq	%r15, %rcx
	leaq	(%r15,%r8,4), %rax
	cmpq	$63, %rbp
	ja	12f
	movq	%r15, %rdx
	shlq	$8, %rdx
	leaq	(%rdx,%r15,8), %rdx
	movq	%rax, %rsi
	shlq	$8, %rsi
	leaq	(%rsi,%rax,8), %rsi
	movzbl	(%r14,%rdx), %edx
	movzbl	(%r14,%rsi), %esi
	cmpb	%sil, %dl
	setb	%dil
	movq	%rcx, %r8
	shlq	$8, %r8
	leaq	(%r8,%rcx,8), %r8
	movzbl	(%r14,%r8), %r8d
	cmpb	%r8b, %dl
	setb	%dl
	xorb	%dil, %dl
	cmpb	%r8b, %sil
	setb	%sil
	xorb	%dil, %sil
	cmovneq	%rcx, %rax
	testb	%dl, %dl
	cmovneq	%r15, %rax
	decl	%r13d
	movl	%r13d, 36(%rsp)
	testq	%r15, %r15
	je	890f
859:
	movq	%r15, %rcx
	shlq	$8, %rcx
	leaq	(%rcx,%r15,8), %r13
	movq	%rax, %rcx
	shlq	$8, %rcx
	leaq	(%rcx,%rax,8), %rcx
	movzbl	-264(%r14,%r13), %edx
	cmpb	(%r14,%rcx), %dl
	jb	219f
	leaq	(%r14,%r13), %r12
	subq	%r15, %rax
	je	548f
	movq	%rax, %rcx
	shlq	$8, %rcx
	leaq	(%rcx,%rax,8), %rbx
	addq	%r12, %rbx
	leaq	104(%rsp), %r14
	movl	$264, %edx
	movq	%r14, %rdi
	movq	%r12, %rsi
	callq	memcpy@PLT
	movl	$264, %edx
	movq	%r12, %rdi
	movq	%rbx, %rsi
	callq	memmove@PLT
	movl	$264, %edx
	movq	%rbx, %rdi
	movq	%r14, %rsi
	callq	memcpy@PLT
548:
	movzbl	(%r12), %r14d
	movq	%r12, 16(%rsp)
	leaq	1(%r12), %rsi
	leaq	369(%rsp), %rdi
	movl	$263, %edx
	callq	memcpy@PLT
	movq	80(%rsp), %rax
	addq	%r13, %rax
	movl	$1, %r12d
	.p2align	4
868:
	cmpb	(%rax), %r14b
	jb	669f
	incq	%r12
	addq	$264, %rax
	cmpq	%r12, %rbp
	jne	868b
	movq	%rbp, %r12
669:
	leaq	-1(%rbp), %rcx
	cmpq	%rcx, %r12
	jae	638f
	movb	%r14b, 24(%rsp)
	leaq	1(%r12), %r14
	movq	%r14, %rbx
	shlq	$8, %rbx
	leaq	(%rbx,%r12,8), %rax
	addq	$8, %rax
	movq	%rcx, 48(%rsp)
	movq	16(%rsp), %rcx
	movzbl	(%rcx,%rax), %edx
	movb	%dl, 15(%rsp)
	leaq	(%rcx,%rax), %rsi
	incq	%rsi
	leaq	104(%rsp), %rdi
	movl	$263, %edx
	callq	memcpy@PLT
	leaq	-1(%rbp), %rax
	cmpq	%rax, %r14
	movq	%r15, 56(%rsp)
	jae	928f
	movl	%ebp, %eax
	subl	%r12d, %eax
	testb	$1, %al
	jne	949f
	movq	%r12, %rdx
	jmp	740f
	.p2align	4
12:
	movq	%r14, %rdi
	movq	%r15, %rsi
	movq	%rax, %rdx
	callq	core.slice.sort.pivot.median_of_medians._454af122397d76be
	decl	%r13d
	movl	%r13d, 36(%rsp)
	testq	%r15, %r15
	jne	859b
890:
	xorl	%r13d, %r13d
219:
	leaq	(%r14,%r13), %rbx
	subq	%r15, %rax
	je	548f
	movq	%rax, %rcx
	shlq	$8, %rcx
	leaq	(%rcx,%rax,8), %r12
	addq	%rbx, %r12
	leaq	104(%rsp), %rdi
	movl	$264, %edx
	movq	%rbx, %rsi
	callq	memcpy@PLT
	movl	$264, %edx
	movq	%rbx, %rdi
	movq	%r12, %rsi
	callq	memmove@PLT
	movl	$264, %edx
	movq	%r12, %rdi
	leaq	104(%rsp), %rsi
	callq	memcpy@PLT
548:
	movzbl	(%rbx), %r12d
	movq	%rbx, 24(%rsp)
	leaq	1(%rbx), %rsi
	leaq	369(%rsp), %rdi
	movl	$263, %edx
	callq	memcpy@PLT
	movl	%r12d, %ecx
	movq	80(%rsp), %rax
	addq	%r13, %rax
	movl	$1, %r12d
	.p2align	4
868:
	cmpb	%cl, (%rax)
	jae	669f
	incq	%r12
	addq	$264, %rax
	cmpq	%r12, %rbp
	jne	868b
	movq	%rbp, %r12
669:
	leaq	-1(%rbp), %rax
	cmpq	%rax, %r12
	movb	%cl, 15(%rsp)
	movq	%r15, 56(%rsp)
	jae	859f
	leaq	1(%r12), %rbx
	shlq	$8, %rbx
	movq	%rax, %r14
	leaq	(%rbx,%r12,8), %rax
	addq	$8, %rax
	movq	24(%rsp), %rcx
	movzbl	(%rcx,%rax), %edx
	movb	%dl, 48(%rsp)
	leaq	(%rcx,%rax), %rsi
	incq	%rsi
	leaq	104(%rsp), %rdi
	movl	$263, %edx
	callq	memcpy@PLT
	leaq	1(%r12), %rdi
	movq	%r14, 40(%rsp)
	cmpq	%r14, %rdi
	jae	12f
	movl	%ebp, %eax
	subl	%r12d, %eax
	testb	$1, %al
	jne	669f
	movq	%r12, %rax
	movzbl	15(%rsp), %edx
	jmp	219f
	.p2align	4
859:
	movq	24(%rsp), %rbp
	movq	%r12, %rbx
	decq	%rbx
	movl	36(%rsp), %r13d
	jne	928b
	jmp	890f
12:
	movq	24(%rsp), %rsi
	jmp	859f
669:
	leaq	2(%r12), %r14
	movq	%r12, %rax
	shlq	$8, %rax
	leaq	(%rax,%r12,8), %r15
	movq	24(%rsp), %rax
	leaq	(%rax,%r15), %rcx
	addq	$528, %rcx
	movq	%rcx, 88(%rsp)
	movzbl	528(%rax,%r15), %ecx
	movb	%cl, 16(%rsp)
	addq	%rax, %r15
	leaq	(%rbx,%rdi,8), %rdi
	addq	%rax, %rdi
	movl	$264, %edx
	movq	%r15, %rsi
	callq	memmove@PLT
	movl	$264, %edx
	movq	%r15, %rdi
	movq	88(%rsp), %rsi
	callq	memmove@PLT
	movzbl	15(%rsp), %edx
	cmpb	%dl, 16(%rsp)
	movq	%r12, %rax
	adcq	$0, %rax
	movq	%r14, %rdi
219:
	leaq	-3(%rbp), %rcx
	cmpq	%r12, %rcx
	movq	%rax, %r12
	movq	24(%rsp), %rsi
	je	859f
	movq	%rdi, %r15
	notq	%r15
	addq	%rbp, %r15
	movq	%rdi, %rcx
	shlq	$8, %rcx
	leaq	(%rcx,%rdi,8), %rcx
	addq	64(%rsp), %r13
	addq	%rcx, %r13
	movq	%rax, %r12
	.p2align	4
669:
	leaq	-264(%r13), %r14
	xorl	%ebp, %ebp
	cmpb	%dl, -264(%r13)
	setb	%bpl
	movq	%r12, %rax
	shlq	$8, %rax
	leaq	(%rax,%r12,8), %rbx
	addq	%rsi, %rbx
	leaq	-528(%r13), %rdi
	movl	$264, %edx
	movq	%rbx, %rsi
	callq	memmove@PLT
	movl	$264, %edx
	movq	%rbx, %rdi
	movq	%r14, %rsi
	callq	memmove@PLT
	leaq	(%r12,%rbp), %rax
	movzbl	(%r13), %ecx
	movb	%cl, 16(%rsp)
	movq	%rax, %rcx
	shlq	$8, %rcx
	leaq	(%rcx,%rax,8), %rbx
	addq	24(%rsp), %rbx
	movl	$264, %edx
	movq	%r14, %rdi
	movq	%rbx, %rsi
	callq	memmove@PLT
	movl	$264, %edx
	movq	%rbx, %rdi
	movq	%r13, %rsi
	callq	memmove@PLT
	movq	24(%rsp), %rsi
	movzbl	15(%rsp), %edx
	cmpb	%dl, 16(%rsp)
	adcq	%rbp, %r12
	addq	$528, %r13
	addq	$-2, %r15
	jne	669b
859:
	movq	%r12, %rax
	shlq	$8, %rax
	leaq	(%rax,%r12,8), %rbx
	movq	%rsi, %r15
	addq	%rbx, %rsi
	movq	40(%rsp), %rcx
	movq	%rcx, %rax
	shlq	$8, %rax
	leaq	(%rax,%rcx,8), %rdi
	addq	%r15, %rdi
	movl	$264, %edx
	callq	memmove@PLT
	movzbl	48(%rsp), %ebp
	movb	%bpl, (%r15,%rbx)
	leaq	(%r15,%rbx), %rdi
	incq	%rdi
	leaq	104(%rsp), %rsi
	movl	$263, %edx
	callq	memcpy@PLT
	movzbl	15(%rsp), %ecx
	cmpb	%cl, %bpl
	adcq	$0, %r12
	movq	72(%rsp), %r14
	movq	%r15, %rbp
	movq	%r12, %rbx
	decq	%rbx
	movl	36(%rsp), %r13d
	jne	928b
890:
	xorl	%r15d, %r15d
	jmp	409b
928:
	movq	16(%rsp), %rcx
	jmp	859f
949:
	leaq	2(%r12), %r15
	movq	%r12, %rax
	shlq	$8, %rax
	leaq	(%rax,%r12,8), %rax
	movq	16(%rsp), %rcx
	leaq	(%rcx,%rax), %rdx
	addq	$528, %rdx
	movq	%rdx, 40(%rsp)
	leaq	(%rbx,%r14,8), %rdi
	addq	%rcx, %rdi
	movzbl	24(%rsp), %edx
	cmpb	528(%rcx,%rax), %dl
	leaq	(%rcx,%rax), %rbx
	movq	%r12, %r14
	sbbq	$-1, %r14
	movl	$264, %edx
	movq	%rbx, %rsi
	callq	memmove@PLT
	movl	$264, %edx
	movq	%rbx, %rdi
	movq	40(%rsp), %rsi
	callq	memmove@PLT
	movq	%r14, %rdx
	movq	%r15, %r14
740:
	leaq	-3(%rbp), %rax
	cmpq	%r12, %rax
	movq	%rdx, %r12
	movq	16(%rsp), %rcx
	je	859f
	movq	%r14, %r15
	notq	%r15
	addq	%rbp, %r15
	movq	%r14, %rax
	shlq	$8, %rax
	leaq	(%rax,%r14,8), %rax
	addq	64(%rsp), %r13
	addq	%rax, %r13
	movq	%rdx, %r12
	.p2align	4
928:
	movq	%r12, %rax
	shlq	$8, %rax
	leaq	(%rax,%r12,8), %rbp
	addq	%rcx, %rbp
	leaq	-528(%r13), %rdi
	movzbl	24(%rsp), %ebx
	cmpb	-264(%r13), %bl
	sbbq	$-1, %r12
	movl	$264, %edx
	movq	%rbp, %rsi
	movq	%rcx, %r14
	callq	memmove@PLT
	movl	$264, %edx
	movq	%rbp, %rdi
	leaq	-264(%r13), %rsi
	callq	memmove@PLT
	movq	%r12, %rax
	shlq	$8, %rax
	leaq	(%rax,%r12,8), %rbp
	addq	%r14, %rbp
	cmpb	(%r13), %bl
	sbbq	$-1, %r12
	movl	$264, %edx
	leaq	-264(%r13), %rdi
	movq	%rbp, %rsi
	callq	memmove@PLT
	movl	$264, %edx
	movq	%rbp, %rdi
	movq	%r13, %rsi
	callq	memmove@PLT
	movq	%r14, %rcx
	addq	$528, %r13
	addq	$-2, %r15
	jne	928b
859:
	movq	%r12, %rax
	shlq	$8, %rax
	leaq	(%rax,%r12,8), %rbx
	leaq	(%rcx,%rbx), %rsi
	movq	%rcx, %r14
	movq	48(%rsp), %rcx
	movq	%rcx, %rax
	shlq	$8, %rax
	leaq	(%rax,%rcx,8), %rdi
	addq	%r14, %rdi
	movl	$264, %edx
	callq	memmove@PLT
	movzbl	15(%rsp), %ebp
	movb	%bpl, (%r14,%rbx)
	leaq	(%r14,%rbx), %rdi
	incq	%rdi
	leaq	104(%rsp), %rsi
	movl	$263, %edx
	callq	memcpy@PLT
	movzbl	24(%rsp), %r14d
	cmpb	%bpl, %r14b
	sbbq	$-1, %r12
	movq	56(%rsp), %r15
638:
	movq	%r12, %rax
	decq	%rax
	movl	36(%rsp), %r13d
	je	890f
	movq	%rax, %rcx
	shlq	$8, %rcx
	leaq	(%rcx,%rax,8), %rbx
	movq	16(%rsp), %rbp
	leaq	(%rbx,%rbp), %rsi
	movl	$264, %edx
	movq	%rbp, %rdi
	callq	memmove@PLT
	jmp	409f
890:
	xorl	%ebx, %ebx
	movq	16(%rsp), %rbp
409:
	movb	%r14b, (%rbp,%rbx)
	leaq	(%rbx,%rbp), %rdi
	incq	%rdi
	leaq	369(%rsp), %rsi
	movl	$263, %edx
	callq	memcpy@PLT
	movq	72(%rsp), %r14
	jmp	850b
972:
	cmpq	$2, %rbp
	jb	850f
	movq	%r15, %rax
	shlq	$8, %rax
	leaq	(%rax,%r15,8), %rax
	leaq	(%r14,%rax), %rbx
	leaq	(%rax,%r14), %r12
	addq	$-264, %r12
	movl	$1, %r13d
	movq	%rbx, 16(%rsp)
	jmp	859f
890:
	xorl	%eax, %eax
928:
	movq	16(%rsp), %rbx
	movb	%r14b, (%rbx,%rax)
	leaq	(%rbx,%rax), %rdi
	incq	%rdi
	leaq	104(%rsp), %rsi
	movl	$263, %edx
	callq	memcpy@PLT
629:
	incq	%r13
	addq	$264, %r12
	cmpq	%rbp, %r13
	je	850f
859:
	movq	%r13, %rax
	shlq	$8, %rax
	leaq	(%rax,%r13,8), %rax
	movzbl	(%rbx,%rax), %r14d
	cmpb	-264(%rbx,%rax), %r14b
	jae	629b
	movq	%rbx, %rcx
	addq	%rax, %rbx
	leaq	-1(%r13), %r15
	leaq	-264(%rcx,%rax), %rax
	movq	%rax, 24(%rsp)
	leaq	1(%rbx), %rsi
	leaq	104(%rsp), %rdi
	movl	$263, %edx
	callq	memcpy@PLT
	movl	$264, %edx
	movq	%rbx, %rdi
	movq	24(%rsp), %rsi
	callq	memcpy@PLT
	testq	%r15, %r15
	je	890b
	movq	%r12, %rbx
	.p2align	4
868:
	cmpb	(%rbx), %r14b
	jae	859f
	decq	%r15
	leaq	264(%rbx), %rdi
	movl	$264, %edx
	movq	%rbx, %rsi
	callq	memcpy@PLT
	addq	$-264, %rbx
	testq	%r15, %r15
	jne	868b
	xorl	%r15d, %r15d
859:
	movq	%r15, %rax
	shlq	$8, %rax
	leaq	(%rax,%r15,8), %rax
	jmp	928b
850:
	addq	$632, %rsp
	popq	%rbx
	popq	%r12
	popq	%r13
	popq	%r14
	popq	%r15
	popq	%rbp
	retq
648:
	movq	%r15, %rax
	shlq	$8, %rax
	leaq	(%rax,%r15,8), %rax
	addq	%rax, %r14
	movq	%r14, %rdi
	movq	%rbp, %rsi
	addq	$632, %rsp
	popq	%rbx
	popq	%r12
	popq	%r13
	popq	%r14
	popq	%r15
	popq	%rbp
	jmp	core.slice.sort.heap.heap_sort._454af122397d76be
	.section	.text.core.slice.sort.heap.heap_sort._454af122397d76be,"ax",@progbits
	.p2align	4
core.slice.sort.heap.heap_sort._454af122397d76be:
	pushq	%rbp
	pushq	%r15
	pushq	%r14
	pushq	%r13
	pushq	%r12
	pushq	%rbx
	subq	$280, %rsp
	movq	%rsi, %r14
	movq	%rdi, %rbx
	movq	%rsi, %rbp
	shrq	%r14
	movq	%r14, (%rsp)
	jmp	564f
	.p2align	4
928:
	movq	8(%rsp), %r14
	testq	%r14, %r14
	je	928f
564:
	decq	%r14
	movq	%r14, 8(%rsp)
	jmp	12f
	.p2align	4
669:
	leaq	16(%rsp), %r13
	movl	$264, %edx
	movq	%r13, %rdi
	movq	%r15, %rsi
	callq	memcpy@PLT
	movl	$264, %edx
	movq	%r15, %rdi
	movq	%r12, %rsi
	callq	memmove@PLT
	movl	$264, %edx
	movq	%r12, %rdi
859:
	movq	%r13, %rsi
	callq	memcpy@PLT
972:
	cmpq	(%rsp), %r14
	jae	928b
12:
	movq	%r14, %rax
	leaq	1(,%r14,2), %r14
	leaq	2(,%rax,2), %rcx
	cmpq	%rbp, %rcx
	je	638f
	movq	%r14, %rdx
	shlq	$8, %rdx
	leaq	(%rdx,%r14,8), %rdx
	movq	%rcx, %rsi
	shlq	$8, %rsi
	leaq	(%rsi,%rcx,8), %rsi
	movzbl	(%rbx,%rdx), %edx
	cmpb	(%rbx,%rsi), %dl
	jb	12f
	movq	%r14, %rcx
12:
	movq	%rcx, %r14
638:
	movq	%rax, %rcx
	shlq	$8, %rcx
	leaq	(%rcx,%rax,8), %r15
	movq	%r14, %rcx
	shlq	$8, %rcx
	leaq	(%rcx,%r14,8), %r12
	movzbl	(%rbx,%r15), %ecx
	cmpb	(%rbx,%r12), %cl
	jae	928b
	addq	%rbx, %r15
	addq	%rbx, %r12
	cmpq	%r14, %rax
	jb	669b
	jbe	972b
	leaq	16(%rsp), %r13
	movl	$264, %edx
	movq	%r13, %rdi
	movq	%r12, %rsi
	callq	memcpy@PLT
	movl	$264, %edx
	movq	%r12, %rdi
	movq	%r15, %rsi
	callq	memmove@PLT
	movl	$264, %edx
	movq	%r15, %rdi
	jmp	859b
928:
	movq	%rbp, %r14
	jmp	928f
	.p2align	4
972:
	cmpq	$1, %r14
	jbe	850f
928:
	movq	%r14, %rax
	decq	%r14
	movq	%r14, %rcx
	shlq	$8, %rcx
	leaq	(%rcx,%rax,8), %r15
	addq	$-8, %r15
	addq	%rbx, %r15
	leaq	16(%rsp), %r12
	movl	$264, %edx
	movq	%r12, %rdi
	movq	%rbx, %rsi
	callq	memcpy@PLT
	movl	$264, %edx
	movq	%rbx, %rdi
	movq	%r15, %rsi
	callq	memmove@PLT
	movl	$264, %edx
	movq	%r15, %rdi
	movq	%r12, %rsi
	callq	memcpy@PLT
	movq	%r14, %rax
	shrq	%rax
	movq	%rax, (%rsp)
	je	972b
	xorl	%ebp, %ebp
	jmp	859f
	.p2align	4
669:
	leaq	16(%rsp), %r13
	movl	$264, %edx
	movq	%r13, %rdi
	movq	%r15, %rsi
	callq	memcpy@PLT
	movl	$264, %edx
	movq	%r15, %rdi
	movq	%r12, %rsi
	callq	memmove@PLT
	movl	$264, %edx
	movq	%r12, %rdi
928:
	movq	%r13, %rsi
	callq	memcpy@PLT
489:
	cmpq	(%rsp), %rbp
	jae	972b
859:
	movq	%rbp, %rax
	leaq	1(,%rbp,2), %rbp
	leaq	2(,%rax,2), %rcx
	cmpq	%r14, %rcx
	je	12f
	movq	%rbp, %rdx
	shlq	$8, %rdx
	leaq	(%rdx,%rbp,8), %rdx
	movq	%rcx, %rsi
	shlq	$8, %rsi
	leaq	(%rsi,%rcx,8), %rsi
	movzbl	(%rbx,%rdx), %edx
	cmpb	(%rbx,%rsi), %dl
	jb	859f
	movq	%rbp, %rcx
859:
	movq	%rcx, %rbp
12:
	movq	%rax, %rcx
	shlq	$8, %rcx
	leaq	(%rcx,%rax,8), %r15
	movq	%rbp, %rcx
	shlq	$8, %rcx
	leaq	(%rcx,%rbp,8), %r12
	movzbl	(%rbx,%r15), %ecx
	cmpb	(%rbx,%r12), %cl
	jae	972b
	addq	%rbx, %r15
	addq	%rbx, %r12
	cmpq	%rbp, %rax
	jb	669b
	jbe	489b
	leaq	16(%rsp), %r13
	movl	$264, %edx
	movq	%r13, %rdi
	movq	%r12, %rsi
	callq	memcpy@PLT
	movl	$264, %edx
	movq	%r12, %rdi
	movq	%r15, %rsi
	callq	memmove@PLT
	movl	$264, %edx
	movq	%r15, %rdi
	jmp	928b
850:
	addq	$280, %rsp
	popq	%rbx
	popq	%r12
	popq	%r13
	popq	%r14
	popq	%r15
	popq	%rbp
	retq
	.section	.text.core.slice.sort.pivot.median_of_medians._454af122397d76be,"ax",@progbits
	.p2align	4
core.slice.sort.pivot.median_of_medians._454af122397d76be:
	pushq	%rbp
	pushq	%r15
	pushq	%r14
	pushq	%r13
	pushq	%r12
	pushq	%rbx
	pushq	%rax
	movq	%rcx, %r14
	movq	%rdx, %rbx
	cmpq	$8, %r8
	jae	928f
	movq	%rsi, %rax
	shlq	$8, %rax
	leaq	(%rax,%rsi,8), %rax
	movq	%rbx, %rcx
	shlq	$8, %rcx
	leaq	(%rcx,%rbx,8), %rcx
	movzbl	(%rdi,%rax), %eax
	movzbl	(%rdi,%rcx), %ecx
	cmpb	%cl, %al
	setb	%dl
	movq	%r14, %r8
	shlq	$8, %r8
	leaq	(%r8,%r14,8), %r8
	movzbl	(%rdi,%r8), %edi
	cmpb	%dil, %al
	setb	%al
	xorb	%dl, %al
	cmpb	%dil, %cl
	setb	%cl
	xorb	%dl, %cl
	cmovneq	%r14, %rbx
	testb	%al, %al
	cmovneq	%rsi, %rbx
	jmp	859f
928:
	movq	%r8, %r13
	shrq	$3, %r13
	leaq	(%rsi,%r13,4), %rdx
	andq	$-8, %r8
	subq	%r13, %r8
	leaq	(%r8,%rsi), %rcx
	movq	%rdi, %r12
	movq	%r8, %rbp
	movq	%r13, %r8
	callq	core.slice.sort.pivot.median_of_medians._454af122397d76be
	movq	%rax, %r15
	leaq	(%rbx,%r13,4), %rdx
	leaq	(%rbx,%rbp), %rcx
	movq	%r12, %rdi
	movq	%rbx, %rsi
	movq	%r13, %r8
	callq	core.slice.sort.pivot.median_of_medians._454af122397d76be
	movq	%rax, %rbx
	leaq	(%r14,%r13,4), %rdx
	addq	%r14, %rbp
	movq	%r12, %rdi
	movq	%r14, %rsi
	movq	%rbp, %rcx
	movq	%r13, %r8
	callq	core.slice.sort.pivot.median_of_medians._454af122397d76be
	movq	%r15, %rcx
	shlq	$8, %rcx
	leaq	(%rcx,%r15,8), %rcx
	movq	%rbx, %rdx
	shlq	$8, %rdx
	leaq	(%rdx,%rbx,8), %rdx
	movzbl	(%r12,%rcx), %ecx
	movzbl	(%r12,%rdx), %edx
	cmpb	%dl, %cl
	setb	%sil
	movq	%rax, %rdi
	shlq	$8, %rdi
	leaq	(%rdi,%rax,8), %rdi
	movzbl	(%r12,%rdi), %edi
	cmpb	%dil, %cl
	setb	%cl
	xorb	%sil, %cl
	cmpb	%dil, %dl
	setb	%dl
	xorb	%sil, %dl
	cmovneq	%rax, %rbx
	testb	%cl, %cl
	cmovneq	%r15, %rbx
859:
	movq	%rbx, %rax
	addq	$8, %rsp
	popq	%rbx
	popq	%r12
	popq	%r13
	popq	%r14
	popq	%r15
	popq	%rbp
	retq
	.section	.text.core.slice.edits.mirror._b5829e14db1caa1c,"ax",@progbits
	.p2align	4
core.slice.edits.mirror._b5829e14db1caa1c:
	pushq	%r15
	pushq	%r14
	pushq	%r12
	pushq	%rbx
	subq	$264, %rsp
	movq	%rdx, %rbx
	movq	%rdi, %r14
	movq	%rdx, %rax
	shlq	$8, %rax
	leaq	(%rax,%rdx,8), %rax
	leaq	(%rsi,%rax), %r15
	addq	$-264, %r15
	.p2align	4
928:
	movq	%rsp, %r12
	movl	$264, %edx
	movq	%r12, %rdi
	movq	%r14, %rsi
	callq	memcpy@PLT
	movl	$264, %edx
	movq	%r14, %rdi
	movq	%r15, %rsi
	callq	memmove@PLT
	movl	$264, %edx
	movq	%r15, %rdi
	movq	%r12, %rsi
	callq	memcpy@PLT
	addq	$264, %r14
	addq	$-264, %r15
	decq	%rbx
	jne	928b
	addq	$264, %rsp
	popq	%rbx
	popq	%r12
	popq	%r14
	popq	%r15
	retq
	.section	.text.tc_c_lines.tc_live_receiver_Receiver_Destruct.drop,"ax",@progbits
	.p2align	4
tc_c_lines.tc_live_receiver_Receiver_Destruct.drop:
	pushq	%rbp
	pushq	%r15
	pushq	%r14
	pushq	%r13
	pushq	%r12
	pushq	%rbx
	subq	$40, %rsp
	movq	24(%rdi), %rbp
	movq	32(%rdi), %r12
	movq	40(%rdi), %rbx
	cmpb	$0, 8(%rdi)
	je	928f
	movq	%rbp, 16(%rsp)
	movq	%r12, 24(%rsp)
	movq	%rbx, 32(%rsp)
	leaq	16(%rsp), %rdi
	callq	std_alloc.vec.Vec.drop._b0d11e1e9d6e266d
850:
	addq	$40, %rsp
	popq	%rbx
	popq	%r12
	popq	%r13
	popq	%r14
	popq	%r15
	popq	%rbp
	retq
928:
	movq	16(%rdi), %rax
	movq	%rax, (%rsp)
	movq	56(%rdi), %rax
	movq	%rax, 8(%rsp)
	testq	%rbp, %rbp
	je	47f
	movq	(%rsp), %rax
	leaq	48(%rax), %r13
	jmp	928f
	.p2align	4
880:
	addq	$56, %r13
	decq	%rbp
	je	47f
928:
	movq	-16(%r13), %r15
	movq	(%r13), %r14
	cmpq	$0, -24(%r13)
	je	211f
	movq	-40(%r13), %rdi
	callq	rattle_dealloc@PLT
211:
	testq	%r14, %r14
	je	880b
	movq	%r15, %rdi
	callq	rattle_dealloc@PLT
	jmp	880b
47:
	testq	%r12, %r12
	je	972f
	movq	(%rsp), %rdi
	callq	rattle_dealloc@PLT
972:
	cmpq	$0, 8(%rsp)
	je	850b
	movq	%rbx, %rdi
	addq	$40, %rsp
	popq	%rbx
	popq	%r12
	popq	%r13
	popq	%r14
	popq	%r15
	popq	%rbp
	jmp	rattle_dealloc@PLT
	.section	.text.std_alloc.vec.Vec.drop._b2066bfd83055edc,"ax",@progbits
	.p2align	4
std_alloc.vec.Vec.drop._b2066bfd83055edc:
	pushq	%rbp
	pushq	%r15
	pushq	%r14
	pushq	%r13
	pushq	%r12
	pushq	%rbx
	pushq	%rax
	movq	(%rdi), %rbx
	movq	8(%rdi), %r12
	movq	16(%rdi), %r15
	testq	%r12, %r12
	je	47f
	leaq	48(%rbx), %r13
	jmp	928f
	.p2align	4
850:
	addq	$56, %r13
	decq	%r12
	je	47f
928:
	movq	-16(%r13), %r14
	movq	(%r13), %rbp
	cmpq	$0, -24(%r13)
	je	211f
	movq	-40(%r13), %rdi
	callq	rattle_dealloc@PLT
211:
	testq	%rbp, %rbp
	je	850b
	movq	%r14, %rdi
	callq	rattle_dealloc@PLT
	jmp	850b
47:
	testq	%r15, %r15
	je	850f
	movq	%rbx, %rdi
	addq	$8, %rsp
	popq	%rbx
	popq	%r12
	popq	%r13
	popq	%r14
	popq	%r15
	popq	%rbp
	jmp	rattle_dealloc@PLT
850:
	addq	$8, %rsp
	popq	%rbx
	popq	%r12
	popq	%r13
	popq	%r14
	popq	%r15
	popq	%rbp
	retq
	.section	.text.std_alloc.vec.Vec.drop._b0d11e1e9d6e266d,"ax",@progbits
	.p2align	4
std_alloc.vec.Vec.drop._b0d11e1e9d6e266d:
	pushq	%rbp
	pushq	%r15
	pushq	%r14
	pushq	%r13
	pushq	%r12
	pushq	%rbx
	subq	$168, %rsp
	movq	(%rdi), %rbx
	movq	8(%rdi), %rcx
	movq	16(%rdi), %rax
	movq	%rax, 24(%rsp)
	movq	%rcx, 32(%rsp)
	testq	%rcx, %rcx
	je	571f
	xorl	%eax, %eax
	jmp	928f
	.p2align	4
669:
	leaq	112(%rsp), %rdi
	callq	tc_c_lines.tc_queues_queues_Queues_Destruct.drop._63f220441eaf7b3e
	leaq	64(%rsp), %rdi
	callq	tc_c_lines.tc_queues_queues_Queues_Destruct.drop._63f220441eaf7b3e
	movq	56(%rsp), %rax
	incq	%rax
	cmpq	32(%rsp), %rax
	je	571f
928:
	movq	%rax, 56(%rsp)
	imulq	$272, %rax, %rax
	movq	8(%rbx,%rax), %rdi
	movq	32(%rbx,%rax), %rdx
	movq	48(%rbx,%rax), %r13
	movq	64(%rbx,%rax), %rcx
	movq	%rcx, 16(%rsp)
	movq	72(%rbx,%rax), %r15
	movq	80(%rbx,%rax), %r14
	movq	88(%rbx,%rax), %r12
	movq	136(%rbx,%rax), %rcx
	movq	%rcx, 48(%rsp)
	movq	144(%rbx,%rax), %rbp
	movq	152(%rbx,%rax), %rcx
	movq	%rcx, 40(%rsp)
	cmpq	$0, 24(%rbx,%rax)
	movups	160(%rbx,%rax), %xmm0
	movups	176(%rbx,%rax), %xmm1
	movups	192(%rbx,%rax), %xmm2
	movaps	%xmm2, 144(%rsp)
	movaps	%xmm1, 128(%rsp)
	movaps	%xmm0, 112(%rsp)
	movups	208(%rbx,%rax), %xmm0
	movups	224(%rbx,%rax), %xmm1
	movups	240(%rbx,%rax), %xmm2
	movaps	%xmm2, 96(%rsp)
	movaps	%xmm1, 80(%rsp)
	movaps	%xmm0, 64(%rsp)
	je	211f
	movq	%r12, 8(%rsp)
	movq	%r15, %r12
	movq	%rdx, %r15
	callq	rattle_dealloc@PLT
	movq	%r15, %rdx
	movq	%r12, %r15
	movq	8(%rsp), %r12
211:
	testq	%r13, %r13
	je	211f
	movq	%rdx, %rdi
	callq	rattle_dealloc@PLT
211:
	testq	%r14, %r14
	je	928f
	xorl	%eax, %eax
	cmpq	%r15, %r12
	cmovaeq	%r15, %rax
	movq	%r12, %rcx
	subq	%rax, %rcx
	movq	%r15, %rdx
	movq	%r15, %r13
	subq	%rcx, %r13
	cmpq	%r14, %r13
	cmovaeq	%r14, %r13
	subq	%rcx, %rdx
	movq	%rdx, 8(%rsp)
	jne	682f
972:
	cmpq	8(%rsp), %r14
	jbe	928f
	subq	%r13, %r14
	movq	16(%rsp), %rax
	leaq	16(%rax), %r15
	jmp	489f
	.p2align	4
850:
	addq	$32, %r15
	decq	%r14
	je	928f
489:
	cmpq	$0, (%r15)
	je	850b
	movq	-16(%r15), %rdi
	callq	rattle_dealloc@PLT
	jmp	850b
	.p2align	4
928:
	movq	16(%rsp), %rdi
	callq	rattle_dealloc@PLT
	testq	%rbp, %rbp
	movq	48(%rsp), %r15
	je	778f
	leaq	24(%r15), %r14
	jmp	489f
	.p2align	4
850:
	addq	$40, %r14
	decq	%rbp
	je	778f
489:
	cmpq	$0, (%r14)
	je	850b
	movq	-16(%r14), %rdi
	callq	rattle_dealloc@PLT
	jmp	850b
	.p2align	4
778:
	cmpq	$0, 40(%rsp)
	je	669b
	movq	%r15, %rdi
	callq	rattle_dealloc@PLT
	jmp	669b
	.p2align	4
682:
	shlq	$5, %r12
	shlq	$5, %rax
	subq	%rax, %r12
	movq	16(%rsp), %rax
	addq	%rax, %r12
	addq	$16, %r12
	movq	%r13, %r15
	jmp	972f
	.p2align	4
850:
	addq	$32, %r12
	decq	%r15
	je	972b
972:
	cmpq	$0, (%r12)
	je	850b
	movq	-16(%r12), %rdi
	callq	rattle_dealloc@PLT
	jmp	850b
571:
	cmpq	$0, 24(%rsp)
	je	850f
	movq	%rbx, %rdi
	addq	$168, %rsp
	popq	%rbx
	popq	%r12
	popq	%r13
	popq	%r14
	popq	%r15
	popq	%rbp
	jmp	rattle_dealloc@PLT
850:
	addq	$168, %rsp
	popq	%rbx
	popq	%r12
	popq	%r13
	popq	%r14
	popq	%r15
	popq	%rbp
	retq
	.section	.text.tc_c_lines.tc_queues_queues_Queues_Destruct.drop._63f220441eaf7b3e,"ax",@progbits
	.p2align	4
tc_c_lines.tc_queues_queues_Queues_Destruct.drop._63f220441eaf7b3e:
	pushq	%rbp
	pushq	%r15
	pushq	%r14
	pushq	%r13
	pushq	%r12
	pushq	%rbx
	subq	$56, %rsp
	movq	(%rdi), %r13
	movq	8(%rdi), %rcx
	movq	16(%rdi), %rax
	movq	%rax, 24(%rsp)
	movq	24(%rdi), %rax
	movq	%rax, 16(%rsp)
	movq	40(%rdi), %rax
	movq	%rax, 32(%rsp)
	movq	%rcx, 48(%rsp)
	testq	%rcx, %rcx
	je	778f
	xorl	%ebx, %ebx
	movq	%r13, 40(%rsp)
	jmp	859f
	.p2align	4
928:
	movq	%r15, %rdi
	callq	rattle_dealloc@PLT
	incq	%rbx
	cmpq	48(%rsp), %rbx
	je	778f
859:
	movq	%rbx, %rax
	shlq	$6, %rax
	movq	8(%r13,%rax), %r15
	movq	24(%r13,%rax), %r12
	testq	%r12, %r12
	je	928b
	movq	%r15, 8(%rsp)
	movq	16(%r13,%rax), %r15
	movq	32(%r13,%rax), %rax
	xorl	%ecx, %ecx
	cmpq	%r15, %rax
	cmovaeq	%r15, %rcx
	movq	%rax, %rdx
	subq	%rcx, %rdx
	movq	%r15, %rbp
	subq	%rdx, %rbp
	cmpq	%r12, %rbp
	cmovaeq	%r12, %rbp
	subq	%rdx, %r15
	jne	682f
972:
	cmpq	%r15, %r12
	movq	40(%rsp), %r13
	movq	8(%rsp), %r15
	jbe	928b
	subq	%rbp, %r12
	leaq	16(%r15), %r14
	jmp	489f
	.p2align	4
850:
	addq	$32, %r14
	decq	%r12
	je	928b
489:
	cmpq	$0, (%r14)
	je	850b
	movq	-16(%r14), %rdi
	callq	rattle_dealloc@PLT
	jmp	850b
	.p2align	4
682:
	shlq	$5, %rax
	shlq	$5, %rcx
	subq	%rcx, %rax
	movq	8(%rsp), %rcx
	leaq	(%rcx,%rax), %r14
	addq	$16, %r14
	movq	%rbp, %r13
	jmp	972f
	.p2align	4
850:
	addq	$32, %r14
	decq	%r13
	je	972b
972:
	cmpq	$0, (%r14)
	je	850b
	movq	-16(%r14), %rdi
	callq	rattle_dealloc@PLT
	jmp	850b
778:
	cmpq	$0, 24(%rsp)
	je	972f
	movq	%r13, %rdi
	callq	rattle_dealloc@PLT
972:
	cmpq	$0, 32(%rsp)
	je	850f
	movq	16(%rsp), %rdi
	addq	$56, %rsp
	popq	%rbx
	popq	%r12
	popq	%r13
	popq	%r14
	popq	%r15
	popq	%rbp
	jmp	rattle_dealloc@PLT
850:
	addq	$56, %rsp
	popq	%rbx
	popq	%r12
	popq	%r13
	popq	%r14
	popq	%r15
	popq	%rbp
	retq
	.section	.text.tc_c_lines.calls.sit,"ax",@progbits
	.p2align	4
tc_c_lines.calls.sit:
	cmpb	$0, (%rsi)
	je	253f
	movzbl	1(%rsi), %edi
	jmp	tc_c_base.status.code
253:
	pushq	%rbp
	pushq	%r15
	pushq	%r14
	pushq	%r13
	pushq	%r12
	pushq	%rbx
	subq	$152, %rsp
	movq	%rdi, (%rsp)
	movzbl	8(%rsi), %ebp
	movq	16(%rsi), %rax
	movq	%rax, 48(%rsp)
	movq	24(%rsi), %r13
	movq	32(%rsi), %r15
	movq	40(%rsi), %rax
	movq	%rax, 32(%rsp)
	movq	48(%rsi), %r12
	movq	56(%rsi), %rax
	movq	%rax, 40(%rsp)
	movq	64(%rsi), %rax
	movq	%rax, 24(%rsp)
	movq	72(%rsi), %rax
	movq	%rax, 16(%rsp)
	movq	80(%rsi), %rbx
	movq	88(%rsi), %r14
	movl	$120, %edi
	movl	$8, %esi
	callq	rattle_alloc@PLT
	testb	$1, %al
	je	928f
	movq	%r13, %rax
	shrq	$8, %rax
	movq	%rbp, (%rdx)
	movq	48(%rsp), %rcx
	movq	%rcx, 8(%rdx)
	movb	%r13b, 16(%rdx)
	movl	%eax, 17(%rdx)
	movq	%rax, %rcx
	shrq	$48, %rcx
	movb	%cl, 23(%rdx)
	shrq	$32, %rax
	movw	%ax, 21(%rdx)
	movq	%r15, 24(%rdx)
	movq	32(%rsp), %rax
	movq	%rax, 32(%rdx)
	movq	%r12, 40(%rdx)
	movq	40(%rsp), %rax
	movq	%rax, 48(%rdx)
	movq	24(%rsp), %rax
	movq	%rax, 56(%rdx)
	movq	16(%rsp), %rax
	movq	%rax, 64(%rdx)
	movq	%rbx, 72(%rdx)
	movq	%r14, 80(%rdx)
	leaq	15(%rsp), %rax
	movq	%rax, 88(%rdx)
	xorps	%xmm0, %xmm0
	movups	%xmm0, 96(%rdx)
	movq	$0, 112(%rdx)
	movq	(%rsp), %rax
	movb	$1, (%rax)
	movl	$0, 4(%rax)
	movl	$0, 1(%rax)
	movq	%rdx, 8(%rax)
	xorl	%r12d, %r12d
327:
	movl	%r12d, %eax
	addq	$152, %rsp
	popq	%rbx
	popq	%r12
	popq	%r13
	popq	%r14
	popq	%r15
	popq	%rbp
	retq
928:
	movq	%r15, %rsi
	movq	32(%rsp), %rdx
	movq	%r12, (%rsp)
	movq	40(%rsp), %r15
	movl	$13, %r12d
	leaq	.LJ4d797093_0(%rip), %rax
	movslq	(%rax,%rbp,4), %rcx
	addq	%rax, %rcx
	jmpq	*%rcx
1:
	testb	%r13b, %r13b
	je	859f
	movq	%rdx, 104(%rsp)
	movq	(%rsp), %rax
	movq	%rax, 112(%rsp)
	movq	%r15, 120(%rsp)
	leaq	104(%rsp), %rdi
	callq	std_alloc.vec.Vec.drop._b0d11e1e9d6e266d
	jmp	327b
15:
	testb	%r13b, %r13b
	je	928f
	movq	%rdx, 56(%rsp)
	movq	(%rsp), %rax
	movq	%rax, 64(%rsp)
	movq	%r15, 72(%rsp)
	leaq	56(%rsp), %rdi
	callq	std_alloc.vec.Vec.drop._b0d11e1e9d6e266d
	jmp	327b
211:
	testq	%rdx, %rdx
	je	972f
	movq	%r13, %rdi
	callq	rattle_dealloc@PLT
972:
	cmpq	$0, 24(%rsp)
	movq	(%rsp), %rdi
	je	47f
	callq	rattle_dealloc@PLT
47:
	testq	%rbx, %rbx
	movq	16(%rsp), %r12
	movq	%r14, %r13
	je	47f
	leaq	32(%r12), %r14
	jmp	868f
	.p2align	4
850:
	addq	$56, %r14
	decq	%rbx
	je	47f
868:
	cmpb	$0, -32(%r14)
	je	850b
	cmpq	$0, (%r14)
	je	850b
	movq	-16(%r14), %rdi
	callq	rattle_dealloc@PLT
	jmp	850b
47:
	testq	%r13, %r13
	je	186f
	movq	%r12, %rdi
	callq	rattle_dealloc@PLT
186:
	movl	$13, %r12d
	jmp	327b
928:
	movq	%rsi, 80(%rsp)
	movq	%rdx, 88(%rsp)
	movq	(%rsp), %rax
	movq	%rax, 96(%rsp)
	leaq	80(%rsp), %rdi
	jmp	271f
859:
	movq	%rsi, 128(%rsp)
	movq	%rdx, 136(%rsp)
	movq	(%rsp), %rax
	movq	%rax, 144(%rsp)
	leaq	128(%rsp), %rdi
271:
	callq	std_alloc.vec.Vec.drop._b2066bfd83055edc
	cmpq	$0, 16(%rsp)
	je	327b
	movq	%r15, %rdi
	callq	rattle_dealloc@PLT
	jmp	327b
	.section	.rodata.tc_c_lines.calls.sit,"a",@progbits
	.p2align	2
.LJ4d797093_0:
	.long	1b-.LJ4d797093_0
	.long	15b-.LJ4d797093_0
	.long	211b-.LJ4d797093_0
	.long	327b-.LJ4d797093_0
	.section	.text.unlikely.std_alloc.vec.Vec.grow_amortized._d74ff6a12f6fd226,"ax",@progbits
	.p2align	4
std_alloc.vec.Vec.grow_amortized._d74ff6a12f6fd226:
	movq	8(%rdi), %rax
	cmpq	$-1, %rax
	je	890f
	pushq	%r14
	pushq	%rbx
	pushq	%rax
	movq	16(%rdi), %rcx
	cmpq	$4, %rax
	movl	$3, %ebx
	cmovaeq	%rax, %rbx
	incq	%rbx
	movq	%rcx, %rsi
	shrq	$62, %rsi
	leaq	(%rcx,%rcx), %rdx
	cmpq	%rdx, %rbx
	cmovaq	%rbx, %rdx
	testq	%rsi, %rsi
	cmoveq	%rdx, %rbx
	movabsq	$164703072086692425, %rsi
	cmpq	%rsi, %rbx
	ja	83f
	testq	%rcx, %rcx
	je	859f
	movq	%rdi, %r14
	movq	(%rdi), %rdi
	imulq	$56, %rax, %rsi
	imulq	$56, %rbx, %rdx
	movl	$8, %ecx
	callq	rattle_realloc@PLT
	testb	$1, %al
	je	83f
928:
	movq	%rdx, (%r14)
	movq	%rbx, 16(%r14)
	movb	$1, %al
	addq	$8, %rsp
	popq	%rbx
	popq	%r14
	retq
890:
	xorl	%eax, %eax
	retq
859:
	movq	%rdi, %r14
	imulq	$56, %rdx, %rdi
	movl	$8, %esi
	callq	rattle_alloc@PLT
	testb	$1, %al
	jne	928b
83:
	xorl	%eax, %eax
	addq	$8, %rsp
	popq	%rbx
	popq	%r14
	retq
	.section	.text.tcrx_lines_answer_at,"ax",@progbits
	.globl	tcrx_lines_answer_at
	.p2align	4
	.type	tcrx_lines_answer_at,@function
tcrx_lines_answer_at:
	pushq	%rbp
	pushq	%r15
	pushq	%r14
	pushq	%r13
	pushq	%r12
	pushq	%rbx
	subq	$216, %rsp
	xorl	%r12d, %r12d
	testq	%rsi, %rsi
	sete	%bpl
	xorl	%r13d, %r13d
	testq	%rcx, %rcx
	sete	%al
	cmpb	$1, (%rdi)
	jne	327f
	movq	8(%rdi), %rbx
	testb	$1, 112(%rbx)
	je	928f
	movl	$104, %eax
	jmp	890f
327:
	movl	$100, %eax
890:
	xorl	%edx, %edx
850:
	addq	$216, %rsp
	popq	%rbx
	popq	%r12
	popq	%r13
	popq	%r14
	popq	%r15
	popq	%rbp
	retq
928:
	movq	%rcx, %r14
	movq	%r8, %r15
	movb	%al, 15(%rsp)
	xorps	%xmm0, %xmm0
	movaps	%xmm0, 112(%rsp)
	movaps	%xmm0, 128(%rsp)
	movaps	%xmm0, 144(%rsp)
	movaps	%xmm0, 160(%rsp)
	movaps	%xmm0, 176(%rsp)
	movaps	%xmm0, 192(%rsp)
	movaps	%xmm0, 64(%rsp)
	movq	$0, 80(%rsp)
	cmpq	$0, 96(%rbx)
	je	409f
	movq	$0, 96(%rbx)
409:
	movb	$4, %r10b
	cmpb	$3, (%rbx)
	jne	972f
928:
	movq	96(%rbx), %rdx
	cmpq	%rdx, %r15
	jae	548f
	movb	$1, 112(%rbx)
	movb	%r10b, 113(%rbx)
	movl	$50, %eax
	jmp	850b
972:
	cmpq	$147455, 104(%rbx)
	jbe	678f
409:
	movb	%bpl, %r12b
	shll	$12, %r12d
	addq	%r12, %rsi
	leaq	112(%rsp), %rdi
	movq	%rsi, %rax
	movq	%rbx, %rsi
	movq	%rdx, %rcx
	movq	%rax, %rdx
	leaq	88(%rbx), %r8
	callq	tc_session.engine.Engine.answer._5349ec06ad6c886c
	cmpb	$0, 112(%rsp)
	je	868f
	movzbl	(%rbx), %r10d
	movq	16(%rbx), %rdi
	movq	24(%rbx), %rcx
	movq	32(%rbx), %rax
	movq	40(%rbx), %r11
	movq	48(%rbx), %r9
	movq	56(%rbx), %rbp
	movq	64(%rbx), %rdx
	movq	%rdx, 40(%rsp)
	movq	72(%rbx), %r12
	movq	80(%rbx), %r8
	movq	$3, (%rbx)
	xorps	%xmm0, %xmm0
	movups	%xmm0, 8(%rbx)
	movups	%xmm0, 24(%rbx)
	movups	%xmm0, 40(%rbx)
	movups	%xmm0, 56(%rbx)
	movups	%xmm0, 72(%rbx)
	movzbl	%r10b, %edx
	leaq	.LJf2ad8e8b_0(%rip), %rsi
	movslq	(%rsi,%rdx,4), %rdx
	addq	%rsi, %rdx
	jmpq	*%rdx
1:
	testb	%dil, %dil
	je	648f
	movq	%rax, 16(%rsp)
	movq	%r11, 24(%rsp)
	movq	%r9, 32(%rsp)
	leaq	16(%rsp), %rdi
	callq	std_alloc.vec.Vec.drop._135a1426c75792d3
	movb	$3, %r10b
	jmp	928b
548:
	movzbl	15(%rsp), %eax
	movb	%al, %r13b
	shll	$12, %r13d
	leaq	(%r14,%r13), %rdi
	leaq	88(%rbx), %rax
	movq	(%rax), %rsi
	movq	%rdi, %rax
	subq	%rsi, %rax
	cmpq	%rdx, %rax
	movq	%rdx, %r15
	jae	12f
	cmpq	$4, %rdx
	jb	890f
	cmpq	$32, %rax
	jae	972f
890:
	xorl	%eax, %eax
859:
	movq	%rdx, %r8
	movq	%rax, %rcx
	andq	$3, %r8
	je	980f
	movq	%rax, %rcx
	.p2align	4
548:
	movzbl	(%rsi,%rcx), %r9d
	movb	%r9b, (%rdi,%rcx)
	incq	%rcx
	decq	%r8
	jne	548b
980:
	subq	%rdx, %rax
	cmpq	$-4, %rax
	ja	325f
	leaq	(%r14,%r13), %rax
	addq	$3, %rax
	.p2align	4
548:
	movzbl	(%rsi,%rcx), %edi
	movb	%dil, -3(%rax,%rcx)
	movzbl	1(%rsi,%rcx), %edi
	movb	%dil, -2(%rax,%rcx)
	movzbl	2(%rsi,%rcx), %edi
	movb	%dil, -1(%rax,%rcx)
	movzbl	3(%rsi,%rcx), %edi
	movb	%dil, (%rax,%rcx)
	addq	$4, %rcx
	cmpq	%rcx, %rdx
	jne	548b
	jmp	325f
12:
	movq	%r15, %rdx
	movl	%r10d, %ebp
	callq	memmove@PLT
	movl	%ebp, %r10d
325:
	movw	$0, 112(%rbx)
	movzbl	%r10b, %ecx
	shll	$3, %ecx
	movabsq	$271623928832, %rdi
	shrq	%cl, %rdi
	callq	tc_c_base.status.code
	movq	%r15, %rdx
	movl	%eax, %eax
	jmp	850b
868:
	cmpb	$0, 113(%rsp)
	je	548f
	xorl	%r10d, %r10d
	jmp	928b
548:
	movzbl	(%rbx), %edx
	movq	16(%rbx), %rdi
	movq	24(%rbx), %rcx
	movq	32(%rbx), %rax
	movq	40(%rbx), %r9
	movq	48(%rbx), %r8
	movq	56(%rbx), %rbp
	movq	64(%rbx), %r12
	movups	72(%rbx), %xmm0
	movaps	%xmm0, 96(%rsp)
	movq	$3, (%rbx)
	xorps	%xmm0, %xmm0
	movups	%xmm0, 8(%rbx)
	movups	%xmm0, 24(%rbx)
	movups	%xmm0, 40(%rbx)
	movups	%xmm0, 56(%rbx)
	movups	%xmm0, 72(%rbx)
	movb	$1, %r10b
	leaq	.LJf2ad8e8b_1(%rip), %rsi
	movslq	(%rsi,%rdx,4), %rdx
	addq	%rsi, %rdx
	jmpq	*%rdx
15:
	testb	%dil, %dil
	je	966f
	movq	%rax, 16(%rsp)
	movq	%r9, 24(%rsp)
	movq	%r8, 32(%rsp)
	leaq	16(%rsp), %rdi
	callq	std_alloc.vec.Vec.drop._135a1426c75792d3
	movb	$1, %r10b
	jmp	928b
12:
	movq	%r15, 48(%rsp)
	testq	%rax, %rax
	movq	%r8, %r15
	je	211f
	movq	%r11, 56(%rsp)
	callq	rattle_dealloc@PLT
	movq	56(%rsp), %r11
	movq	%r15, %r8
211:
	testq	%rbp, %rbp
	je	211f
	movq	%r11, %rdi
	callq	rattle_dealloc@PLT
	movq	%r15, %r8
211:
	testq	%r12, %r12
	je	969f
	movq	40(%rsp), %rax
	leaq	32(%rax), %rbp
	jmp	868f
	.p2align	4
850:
	addq	$56, %rbp
	decq	%r12
	je	969f
868:
	cmpb	$0, -32(%rbp)
	je	850b
	cmpq	$0, (%rbp)
	je	850b
	movq	-16(%rbp), %rdi
	callq	rattle_dealloc@PLT
	movq	%r15, %r8
	jmp	850b
969:
	movb	$3, %r10b
	testq	%r8, %r8
	je	638f
	movq	40(%rsp), %rdi
	callq	rattle_dealloc@PLT
	movb	$3, %r10b
638:
	movq	48(%rsp), %r15
	jmp	928b
972:
	cmpq	$32, %rdx
	jae	638f
	xorl	%eax, %eax
	jmp	961f
648:
	movq	%r9, %r12
	movq	%rcx, 16(%rsp)
	movq	%rax, 24(%rsp)
	movq	%r11, 32(%rsp)
	leaq	16(%rsp), %rdi
	callq	std_alloc.vec.Vec.drop._eda3823cd94715d4
	movb	$3, %r10b
	cmpq	$0, 40(%rsp)
	je	928b
	movq	%r12, %rdi
	callq	rattle_dealloc@PLT
	movb	$3, %r10b
	jmp	928b
638:
	movq	%rdx, %rax
	andq	$-32, %rax
	leaq	(%r14,%r13), %rcx
	addq	$16, %rcx
	xorl	%r8d, %r8d
	.p2align	4
464:
	movups	(%rsi,%r8), %xmm0
	movups	16(%rsi,%r8), %xmm1
	movups	%xmm0, -16(%rcx,%r8)
	movups	%xmm1, (%rcx,%r8)
	addq	$32, %r8
	cmpq	%r8, %rax
	jne	464b
	cmpq	%rax, %rdx
	je	325b
	testb	$28, %dl
	je	859b
961:
	movq	%rax, %rcx
	movq	%rdx, %rax
	andq	$-4, %rax
	.p2align	4
327:
	movl	(%rsi,%rcx), %r8d
	movl	%r8d, (%rdi,%rcx)
	addq	$4, %rcx
	cmpq	%rcx, %rax
	jne	327b
	cmpq	%rax, %rdx
	je	325b
	jmp	859b
678:
	movq	%rsi, 40(%rsp)
	movl	$147456, %esi
	leaq	88(%rbx), %rdi
	movq	%rdx, 48(%rsp)
	callq	std_alloc.vec.Vec.grow_amortized._e46d560dfcddf60e
	movq	40(%rsp), %rsi
	movq	48(%rsp), %rdx
	movb	$2, %r10b
	testb	%al, %al
	je	928b
	jmp	409b
211:
	testq	%rax, %rax
	je	47f
	movq	%r9, 40(%rsp)
	callq	rattle_dealloc@PLT
	movq	40(%rsp), %r9
47:
	testq	%rbp, %rbp
	je	859f
	movq	%r9, %rdi
	callq	rattle_dealloc@PLT
859:
	movq	%r12, 64(%rsp)
	movaps	96(%rsp), %xmm0
	movups	%xmm0, 72(%rsp)
	leaq	64(%rsp), %rdi
	callq	std_alloc.vec.Vec.drop._26dad1ae63f4b67d
	movb	$1, %r10b
	jmp	928b
966:
	movq	%r8, %rbp
	movq	%rcx, 16(%rsp)
	movq	%rax, 24(%rsp)
	movq	%r9, 32(%rsp)
	leaq	16(%rsp), %rdi
	callq	std_alloc.vec.Vec.drop._eda3823cd94715d4
	testq	%r12, %r12
	je	409f
	movq	%rbp, %rdi
	callq	rattle_dealloc@PLT
409:
	movb	$1, %r10b
	jmp	928b
	.size	tcrx_lines_answer_at, .-tcrx_lines_answer_at
	.section	.rodata.tcrx_lines_answer_at,"a",@progbits
	.p2align	2
.LJf2ad8e8b_0:
	.long	1b-.LJf2ad8e8b_0
	.long	1b-.LJf2ad8e8b_0
	.long	12b-.LJf2ad8e8b_0
	.long	928b-.LJf2ad8e8b_0
.LJf2ad8e8b_1:
	.long	15b-.LJf2ad8e8b_1
	.long	15b-.LJf2ad8e8b_1
	.long	211b-.LJf2ad8e8b_1
	.long	928b-.LJf2ad8e8b_1
	.section	.text.tcrx_lines_end_at,"ax",@progbits
	.globl	tcrx_lines_end_at
	.p2align	4
	.type	tcrx_lines_end_at,@function
tcrx_lines_end_at:
	pushq	%rbp
	pushq	%r15
	pushq	%r14
	pushq	%r13
	pushq	%r12
	pushq	%rbx
	subq	$88, %rsp
	xorl	%r12d, %r12d
	testq	%rsi, %rsi
	sete	%bpl
	cmpb	$1, (%rdi)
	jne	327f
	movq	8(%rdi), %rbx
	testb	$1, 112(%rbx)
	je	928f
	movl	$104, %eax
	jmp	890f
327:
	movl	$100, %eax
890:
	xorl	%edx, %edx
850:
	addq	$88, %rsp
	popq	%rbx
	popq	%r12
	popq	%r13
	popq	%r14
	popq	%r15
	popq	%rbp
	retq
928:
	movq	%rsi, %r14
	movq	%rdx, 80(%rsp)
	cmpq	$0, 96(%rbx)
	je	548f
	movq	$0, 96(%rbx)
548:
	movzbl	(%rbx), %eax
	movb	$4, %r13b
	cmpb	$3, %al
	je	638f
	cmpq	$147455, 104(%rbx)
	jbe	669f
548:
	movzbl	%al, %eax
	leaq	.LJe831913e_0(%rip), %rcx
	movslq	(%rcx,%rax,4), %rdx
	addq	%rcx, %rdx
	jmpq	*%rdx
284:
	movzbl	9(%rbx), %ecx
	jmp	409f
890:
	xorl	%ecx, %ecx
	jmp	409f
166:
	movzbl	114(%rbx), %ecx
409:
	movb	%cl, 114(%rbx)
	movq	8(%rbx), %r8
	movq	16(%rbx), %rdi
	movq	24(%rbx), %rsi
	movq	32(%rbx), %rdx
	movq	40(%rbx), %rcx
	movq	48(%rbx), %r9
	movq	%r9, (%rsp)
	movq	56(%rbx), %r15
	movq	64(%rbx), %r10
	movq	72(%rbx), %r13
	movq	80(%rbx), %r11
	movq	$3, (%rbx)
	xorps	%xmm0, %xmm0
	movups	%xmm0, 8(%rbx)
	movups	%xmm0, 24(%rbx)
	movups	%xmm0, 40(%rbx)
	movups	%xmm0, 56(%rbx)
	movups	%xmm0, 72(%rbx)
	leaq	.LJe831913e_1(%rip), %r9
	movslq	(%r9,%rax,4), %rax
	addq	%r9, %rax
	jmpq	*%rax
928:
	movq	%r8, 8(%rsp)
	movq	%rdi, 16(%rsp)
	movq	%rsi, 24(%rsp)
	movq	%rdx, 32(%rsp)
	movq	%rcx, 40(%rsp)
	movq	(%rsp), %rax
	movq	%rax, 48(%rsp)
	movq	%r15, 56(%rsp)
	movq	%r10, 64(%rsp)
	leaq	8(%rsp), %rsi
	movq	%rbx, %rdi
	xorl	%edx, %edx
	xorl	%ecx, %ecx
	jmp	271f
859:
	movq	%r15, %r12
	movq	%rcx, 72(%rsp)
	movb	%bpl, (%rsp)
	testq	%rdx, %rdx
	movq	%r10, %rbp
	movq	%r11, %r15
	je	211f
	callq	rattle_dealloc@PLT
	movq	%r15, %r11
	movq	%rbp, %r10
211:
	testq	%r12, %r12
	movq	72(%rsp), %rdi
	je	211f
	callq	rattle_dealloc@PLT
	movq	%r15, %r11
	movq	%rbp, %r10
211:
	testq	%r13, %r13
	je	211f
	leaq	32(%r10), %r12
	jmp	868f
	.p2align	4
880:
	addq	$56, %r12
	decq	%r13
	je	211f
868:
	cmpb	$0, -32(%r12)
	je	880b
	cmpq	$0, (%r12)
	je	880b
	movq	-16(%r12), %rdi
	callq	rattle_dealloc@PLT
	movq	%r15, %r11
	movq	%rbp, %r10
	jmp	880b
211:
	testq	%r11, %r11
	je	83f
	movq	%r10, %rdi
	callq	rattle_dealloc@PLT
83:
	xorl	%r13d, %r13d
	xorl	%r12d, %r12d
	movzbl	(%rsp), %ebp
	jmp	638f
12:
	movq	%r8, 8(%rsp)
	movq	%rdi, 16(%rsp)
	movq	%rsi, 24(%rsp)
	movq	%rdx, 32(%rsp)
	movq	%rcx, 40(%rsp)
	movq	(%rsp), %rax
	movq	%rax, 48(%rsp)
	movq	%r15, 56(%rsp)
	movq	%r10, 64(%rsp)
	leaq	8(%rsp), %rsi
	movq	%rbx, %rdi
	movl	$1, %edx
	movl	%r13d, %ecx
271:
	callq	tc_session.session.Session.close
	movl	%eax, %r13d
638:
	movq	96(%rbx), %rdx
	cmpq	%rdx, 80(%rsp)
	jae	409f
	movb	$1, 112(%rbx)
	movb	%r13b, 113(%rbx)
	movl	$50, %eax
	jmp	850b
409:
	movb	%bpl, %r12b
	shll	$12, %r12d
	leaq	(%r14,%r12), %rdi
	movq	88(%rbx), %rsi
	movq	%rdi, %rax
	subq	%rsi, %rax
	cmpq	%rdx, %rax
	movq	%rdx, %r15
	jae	961f
	cmpq	$4, %rdx
	jb	83f
	cmpq	$32, %rax
	jae	972f
83:
	xorl	%eax, %eax
648:
	movq	%rdx, %r8
	movq	%rax, %rcx
	andq	$3, %r8
	je	980f
	movq	%rax, %rcx
	.p2align	4
552:
	movzbl	(%rsi,%rcx), %r9d
	movb	%r9b, (%rdi,%rcx)
	incq	%rcx
	decq	%r8
	jne	552b
980:
	subq	%rdx, %rax
	cmpq	$-4, %rax
	ja	325f
	leaq	(%r12,%r14), %rax
	addq	$3, %rax
	.p2align	4
552:
	movzbl	(%rsi,%rcx), %edi
	movb	%dil, -3(%rax,%rcx)
	movzbl	1(%rsi,%rcx), %edi
	movb	%dil, -2(%rax,%rcx)
	movzbl	2(%rsi,%rcx), %edi
	movb	%dil, -1(%rax,%rcx)
	movzbl	3(%rsi,%rcx), %edi
	movb	%dil, (%rax,%rcx)
	addq	$4, %rcx
	cmpq	%rcx, %rdx
	jne	552b
	jmp	325f
961:
	movq	%r15, %rdx
	callq	memmove@PLT
325:
	movw	$0, 112(%rbx)
	shlb	$3, %r13b
	movabsq	$271623928832, %rdi
	movl	%r13d, %ecx
	shrq	%cl, %rdi
	callq	tc_c_base.status.code
	movq	%r15, %rdx
	movl	%eax, %eax
	jmp	850b
972:
	cmpq	$32, %rdx
	jae	961f
	xorl	%eax, %eax
	jmp	678f
961:
	movq	%rdx, %rax
	andq	$-32, %rax
	leaq	(%r12,%r14), %rcx
	addq	$16, %rcx
	xorl	%r8d, %r8d
	.p2align	4
464:
	movups	(%rsi,%r8), %xmm0
	movups	16(%rsi,%r8), %xmm1
	movups	%xmm0, -16(%rcx,%r8)
	movups	%xmm1, (%rcx,%r8)
	addq	$32, %r8
	cmpq	%r8, %rax
	jne	464b
	cmpq	%rax, %rdx
	je	325b
	testb	$28, %dl
	je	648b
678:
	movq	%rax, %rcx
	movq	%rdx, %rax
	andq	$-4, %rax
	.p2align	4
327:
	movl	(%rsi,%rcx), %r8d
	movl	%r8d, (%rdi,%rcx)
	addq	$4, %rcx
	cmpq	%rcx, %rax
	jne	327b
	cmpq	%rax, %rdx
	je	325b
	jmp	648b
669:
	leaq	88(%rbx), %rdi
	movl	$147456, %esi
	callq	std_alloc.vec.Vec.grow_amortized._e46d560dfcddf60e
	movb	$2, %r13b
	testb	%al, %al
	je	638b
	movzbl	(%rbx), %eax
	jmp	548b
214:
	ud2
	.size	tcrx_lines_end_at, .-tcrx_lines_end_at
	.section	.rodata.tcrx_lines_end_at,"a",@progbits
	.p2align	2
.LJe831913e_0:
	.long	284b-.LJe831913e_0
	.long	284b-.LJe831913e_0
	.long	890b-.LJe831913e_0
	.long	166b-.LJe831913e_0
.LJe831913e_1:
	.long	928b-.LJe831913e_1
	.long	12b-.LJe831913e_1
	.long	859b-.LJe831913e_1
	.long	214b-.LJe831913e_1
	.section	.text.tcrx_lines_free_at,"ax",@progbits
	.globl	tcrx_lines_free_at
	.p2align	4
	.type	tcrx_lines_free_at,@function
tcrx_lines_free_at:
	pushq	%rbp
	pushq	%r15
	pushq	%r14
	pushq	%r13
	pushq	%r12
	pushq	%rbx
	subq	$136, %rsp
	movq	%rdi, %rax
	movzbl	(%rdi), %ebp
	movq	8(%rdi), %rdi
	xorps	%xmm0, %xmm0
	movups	%xmm0, (%rax)
	testb	$1, %bpl
	je	890f
	movzbl	(%rdi), %r13d
	movq	8(%rdi), %rax
	movq	%rax, 40(%rsp)
	movq	16(%rdi), %r12
	movq	24(%rdi), %rax
	movq	%rax, 48(%rsp)
	movq	32(%rdi), %rax
	movq	%rax, 16(%rsp)
	movq	40(%rdi), %r15
	movq	48(%rdi), %rax
	movq	%rax, 8(%rsp)
	movq	56(%rdi), %rax
	movq	%rax, 24(%rsp)
	movq	64(%rdi), %rax
	movq	%rax, 32(%rsp)
	movq	72(%rdi), %rbx
	movq	80(%rdi), %r14
	movq	88(%rdi), %rax
	movq	%rax, 120(%rsp)
	movq	104(%rdi), %rax
	movq	%rax, 128(%rsp)
	callq	rattle_dealloc@PLT
	leaq	.LJ07f1f1e5_0(%rip), %rax
	movslq	(%rax,%r13,4), %rcx
	addq	%rax, %rcx
	jmpq	*%rcx
928:
	movq	40(%rsp), %rax
	movq	%rax, 56(%rsp)
	movq	%r12, 64(%rsp)
	movq	48(%rsp), %rax
	movq	%rax, 72(%rsp)
	movq	16(%rsp), %rax
	movq	%rax, 80(%rsp)
	movq	%r15, 88(%rsp)
	movq	8(%rsp), %rax
	movq	%rax, 96(%rsp)
	movq	24(%rsp), %rax
	movq	%rax, 104(%rsp)
	movq	32(%rsp), %rax
	movq	%rax, 112(%rsp)
	leaq	56(%rsp), %rdi
	callq	tc_c_lines.tc_live_receiver_Receiver_Destruct.drop
	jmp	972f
859:
	movq	24(%rsp), %r13
	movq	%r15, 8(%rsp)
	movq	32(%rsp), %r15
	cmpq	$0, 16(%rsp)
	je	211f
	movq	%r12, %rdi
	callq	rattle_dealloc@PLT
211:
	testq	%r13, %r13
	movq	8(%rsp), %rdi
	je	211f
	callq	rattle_dealloc@PLT
211:
	testq	%rbx, %rbx
	movq	%r14, %r12
	je	211f
	leaq	32(%r15), %r14
	jmp	868f
	.p2align	4
850:
	addq	$56, %r14
	decq	%rbx
	je	211f
868:
	cmpb	$0, -32(%r14)
	je	850b
	cmpq	$0, (%r14)
	je	850b
	movq	-16(%r14), %rdi
	callq	rattle_dealloc@PLT
	jmp	850b
211:
	testq	%r12, %r12
	je	972f
	movq	%r15, %rdi
	callq	rattle_dealloc@PLT
972:
	cmpq	$0, 128(%rsp)
	je	890f
	movq	120(%rsp), %rdi
	callq	rattle_dealloc@PLT
890:
	xorl	%ecx, %ecx
	testb	$1, %bpl
	movl	$100, %eax
	cmovnel	%ecx, %eax
	addq	$136, %rsp
	popq	%rbx
	popq	%r12
	popq	%r13
	popq	%r14
	popq	%r15
	popq	%rbp
	retq
	.size	tcrx_lines_free_at, .-tcrx_lines_free_at
	.section	.rodata.tcrx_lines_free_at,"a",@progbits
	.p2align	2
.LJ07f1f1e5_0:
	.long	928b-.LJ07f1f1e5_0
	.long	928b-.LJ07f1f1e5_0
	.long	859b-.LJ07f1f1e5_0
	.long	972b-.LJ07f1f1e5_0
	.section	.text.tcrx_lines_live_at,"ax",@progbits
	.globl	tcrx_lines_live_at
	.p2align	4
	.type	tcrx_lines_live_at,@function
tcrx_lines_live_at:
	subq	$104, %rsp
	movq	$0, 8(%rsp)
	movl	$101, %eax
	cmpb	$0, (%rdi)
	jne	850f
	cmpb	$1, %dl
	ja	471f
	movzwl	%si, %eax
	cmpl	$1024, %eax
	jae	409f
	movq	%rsp, %r8
	xorl	%ecx, %ecx
	xorl	%eax, %eax
	jmp	394f
471:
	movzwl	%si, %eax
	cmpl	$1024, %eax
	movl	$22, %ecx
	movl	$59, %eax
	cmovbl	%ecx, %eax
	jmp	969f
409:
	movb	$59, %al
969:
	movb	$1, %cl
	xorl	%edx, %edx
	xorl	%esi, %esi
	xorl	%r8d, %r8d
394:
	movb	%cl, 8(%rsp)
	movb	%al, 9(%rsp)
	movq	$0, 16(%rsp)
	movb	%dl, 24(%rsp)
	movb	$0, 25(%rsp)
	movw	%si, 26(%rsp)
	movl	$0, 28(%rsp)
	movq	$0, 32(%rsp)
	movq	%r8, 40(%rsp)
	xorps	%xmm0, %xmm0
	movups	%xmm0, 48(%rsp)
	movq	%r8, 64(%rsp)
	movups	%xmm0, 72(%rsp)
	movups	%xmm0, 88(%rsp)
	leaq	8(%rsp), %rsi
	callq	tc_c_lines.calls.sit
850:
	addq	$104, %rsp
	retq
	.size	tcrx_lines_live_at, .-tcrx_lines_live_at
	.section	.text.tcrx_lines_make_at,"ax",@progbits
	.globl	tcrx_lines_make_at
	.p2align	4
	.type	tcrx_lines_make_at,@function
tcrx_lines_make_at:
	pushq	%r15
	pushq	%r14
	pushq	%r13
	pushq	%r12
	pushq	%rbx
	subq	$336, %rsp
	movq	$0, 112(%rsp)
	movl	$101, %eax
	cmpb	$0, (%rdi)
	jne	850f
	movl	$0, 16(%rsp)
	movl	$0, 19(%rsp)
	xorps	%xmm0, %xmm0
	movaps	%xmm0, 80(%rsp)
	movq	$0, 96(%rsp)
	movl	$0, 8(%rsp)
	movl	$0, 11(%rsp)
	movaps	%xmm0, 48(%rsp)
	movq	$0, 64(%rsp)
	cmpb	$1, %sil
	ja	409f
	movq	%rsi, %r12
	movq	%rdi, %r15
	movups	%xmm0, 319(%rsp)
	movaps	%xmm0, 304(%rsp)
	movl	$1024, %edi
	movl	$1, %esi
	callq	rattle_alloc@PLT
	testb	$1, %al
	je	969f
	movq	%rdx, %rbx
	movl	$1024, %edx
	movq	%rbx, %rdi
	xorl	%esi, %esi
	callq	memset@PLT
	movl	$8192, %edi
	movl	$1, %esi
	callq	rattle_alloc@PLT
	testb	$1, %al
	je	928f
	movq	%rdx, %r14
	movl	$8192, %edx
	movq	%r14, %rdi
	xorl	%esi, %esi
	callq	memset@PLT
	xorps	%xmm0, %xmm0
	movaps	%xmm0, 240(%rsp)
	movaps	%xmm0, 224(%rsp)
	movaps	%xmm0, 208(%rsp)
	movl	$14336, %edi
	movl	$8, %esi
	callq	rattle_alloc@PLT
	testb	$1, %al
	je	859f
	movq	%rdx, 24(%rsp)
	movq	$0, 32(%rsp)
	movq	$256, 40(%rsp)
	movl	$256, %r13d
	xorl	%ecx, %ecx
	movq	%r15, %rdi
	movq	%r12, %rax
	jmp	680f
409:
	movb	$22, %r8b
	movb	$1, %cl
	xorl	%eax, %eax
	xorl	%ebx, %ebx
	xorl	%edx, %edx
	xorl	%r14d, %r14d
	xorl	%esi, %esi
	xorl	%r9d, %r9d
	jmp	409f
928:
	movq	%rbx, %rdi
	jmp	271f
928:
	movq	24(%rsp), %rdx
	movq	32(%rsp), %rcx
	movq	%r15, %rdi
	movq	%r12, %rax
	.p2align	4
540:
	imulq	$56, %rcx, %rsi
	movq	$0, (%rdx,%rsi)
	movaps	256(%rsp), %xmm0
	movaps	272(%rsp), %xmm1
	movaps	288(%rsp), %xmm2
	movups	%xmm0, 8(%rdx,%rsi)
	movups	%xmm1, 24(%rdx,%rsi)
	movups	%xmm2, 40(%rdx,%rsi)
	incq	%rcx
	movq	%rcx, 32(%rsp)
	decq	%r13
	je	928f
680:
	movaps	208(%rsp), %xmm0
	movaps	224(%rsp), %xmm1
	movaps	240(%rsp), %xmm2
	movaps	%xmm2, 288(%rsp)
	movaps	%xmm1, 272(%rsp)
	movaps	%xmm0, 256(%rsp)
	cmpq	%rcx, 40(%rsp)
	jne	540b
	leaq	24(%rsp), %rdi
	callq	std_alloc.vec.Vec.grow_amortized._d74ff6a12f6fd226
	testb	%al, %al
	jne	928b
	ud2
859:
	movq	%rbx, %rdi
	callq	rattle_dealloc@PLT
	movq	%r14, %rdi
271:
	callq	rattle_dealloc@PLT
969:
	movb	$12, %r8b
	movb	$1, %cl
	xorl	%eax, %eax
	xorl	%ebx, %ebx
	xorl	%edx, %edx
	xorl	%r14d, %r14d
	xorl	%esi, %esi
	xorl	%r9d, %r9d
	movq	%r15, %rdi
327:
	movl	8(%rsp), %r10d
	movl	11(%rsp), %r11d
	movl	%r11d, 19(%rsp)
	movl	%r10d, 16(%rsp)
	movaps	48(%rsp), %xmm0
	movaps	%xmm0, 80(%rsp)
	movq	64(%rsp), %r10
	movq	%r10, 96(%rsp)
409:
	movb	%cl, 112(%rsp)
	movb	%r8b, 113(%rsp)
	movq	%r9, 120(%rsp)
	movb	%al, 128(%rsp)
	movl	16(%rsp), %eax
	movl	19(%rsp), %ecx
	movl	%eax, 129(%rsp)
	movl	%ecx, 132(%rsp)
	movq	%rbx, 136(%rsp)
	movq	%rdx, 144(%rsp)
	movq	%rdx, 152(%rsp)
	movq	%r14, 160(%rsp)
	movq	%rsi, 168(%rsp)
	movq	%rsi, 176(%rsp)
	movaps	80(%rsp), %xmm0
	movups	%xmm0, 184(%rsp)
	movq	96(%rsp), %rax
	movq	%rax, 200(%rsp)
	leaq	112(%rsp), %rsi
	callq	tc_c_lines.calls.sit
850:
	addq	$336, %rsp
	popq	%rbx
	popq	%r12
	popq	%r13
	popq	%r14
	popq	%r15
	retq
928:
	movq	40(%rsp), %rcx
	movq	24(%rsp), %rdx
	movq	%rdx, 48(%rsp)
	movq	32(%rsp), %rdx
	movq	%rdx, 56(%rsp)
	movq	%rcx, 64(%rsp)
	movl	$0, 8(%rsp)
	movl	$0, 11(%rsp)
	movl	$2, %r9d
	movl	$8192, %esi
	movl	$1024, %edx
	xorl	%ecx, %ecx
	xorl	%r8d, %r8d
	jmp	327b
	.size	tcrx_lines_make_at, .-tcrx_lines_make_at
	.section	.text.tcrx_lines_saw_check_sums_at,"ax",@progbits
	.globl	tcrx_lines_saw_check_sums_at
	.p2align	4
	.type	tcrx_lines_saw_check_sums_at,@function
tcrx_lines_saw_check_sums_at:
	cmpb	$1, (%rdi)
	jne	327f
	movq	8(%rdi), %rcx
	movzbl	(%rcx), %edx
	xorl	%eax, %eax
	leaq	.LJf31610e1_0(%rip), %rsi
	movslq	(%rsi,%rdx,4), %rdx
	addq	%rsi, %rdx
	jmpq	*%rdx
850:
	addq	$9, %rcx
	jmp	868f
327:
	movl	$100, %eax
890:
	xorl	%ecx, %ecx
	jmp	548f
880:
	addq	$114, %rcx
868:
	cmpb	$1, (%rcx)
	sete	%cl
548:
	movzbl	%cl, %ecx
	shlq	$32, %rcx
	movl	%eax, %eax
	orq	%rcx, %rax
	retq
	.size	tcrx_lines_saw_check_sums_at, .-tcrx_lines_saw_check_sums_at
	.section	.rodata.tcrx_lines_saw_check_sums_at,"a",@progbits
	.p2align	2
.LJf31610e1_0:
	.long	850b-.LJf31610e1_0
	.long	850b-.LJf31610e1_0
	.long	890b-.LJf31610e1_0
	.long	880b-.LJf31610e1_0
	.section	.text.tcrx_lines_script_at,"ax",@progbits
	.globl	tcrx_lines_script_at
	.p2align	4
	.type	tcrx_lines_script_at,@function
tcrx_lines_script_at:
	subq	$104, %rsp
	movq	$0, 8(%rsp)
	movl	$101, %eax
	cmpb	$0, (%rdi)
	jne	850f
	movzwl	%si, %eax
	cmpl	$1023, %eax
	ja	409f
	movl	$1, %r8d
	movq	%rsp, %rax
	xorl	%ecx, %ecx
	xorl	%edx, %edx
	jmp	969f
409:
	movb	$59, %dl
	movb	$1, %cl
	xorl	%esi, %esi
	xorl	%eax, %eax
	xorl	%r8d, %r8d
969:
	movb	%cl, 8(%rsp)
	movb	%dl, 9(%rsp)
	movq	%r8, 16(%rsp)
	movw	$0, 24(%rsp)
	movw	%si, 26(%rsp)
	movl	$0, 28(%rsp)
	movq	$0, 32(%rsp)
	movq	%rax, 40(%rsp)
	xorps	%xmm0, %xmm0
	movups	%xmm0, 48(%rsp)
	movq	%rax, 64(%rsp)
	movups	%xmm0, 72(%rsp)
	movups	%xmm0, 88(%rsp)
	leaq	8(%rsp), %rsi
	callq	tc_c_lines.calls.sit
850:
	addq	$104, %rsp
	retq
	.size	tcrx_lines_script_at, .-tcrx_lines_script_at
	.section	.text.tcrx_lines_text_at,"ax",@progbits
	.globl	tcrx_lines_text_at
	.p2align	4
	.type	tcrx_lines_text_at,@function
tcrx_lines_text_at:
	xorl	%ecx, %ecx
	testq	%rsi, %rsi
	sete	%al
	cmpb	$1, (%rdi)
	jne	327f
	pushq	%rbp
	pushq	%r14
	pushq	%rbx
	movq	8(%rdi), %r14
	cmpb	$1, 112(%r14)
	jne	890f
	movq	%rdx, %rdi
	movq	96(%r14), %rdx
	cmpq	%rdx, %rdi
	jae	409f
	movb	$1, 112(%r14)
	movl	$50, %eax
	popq	%rbx
	popq	%r14
	popq	%rbp
	retq
327:
	movl	$100, %eax
	xorl	%edx, %edx
	retq
890:
	xorl	%eax, %eax
	xorl	%edx, %edx
	popq	%rbx
	popq	%r14
	popq	%rbp
	retq
409:
	movb	%al, %cl
	shll	$12, %ecx
	leaq	(%rsi,%rcx), %rdi
	movzbl	113(%r14), %ebp
	movq	88(%r14), %rax
	movq	%rdi, %r8
	subq	%rax, %r8
	cmpq	%rdx, %r8
	movq	%rdx, %rbx
	jae	859f
	cmpq	$4, %rdx
	jb	890f
	cmpq	$32, %r8
	jae	972f
890:
	xorl	%r8d, %r8d
928:
	movq	%rdx, %r10
	movq	%r8, %r9
	andq	$3, %r10
	je	980f
	movq	%r8, %r9
	.p2align	4
548:
	movzbl	(%rax,%r9), %r11d
	movb	%r11b, (%rdi,%r9)
	incq	%r9
	decq	%r10
	jne	548b
980:
	subq	%rdx, %r8
	cmpq	$-4, %r8
	ja	325f
	addq	%rsi, %rcx
	addq	$3, %rcx
	.p2align	4
548:
	movzbl	(%rax,%r9), %esi
	movb	%sil, -3(%rcx,%r9)
	movzbl	1(%rax,%r9), %esi
	movb	%sil, -2(%rcx,%r9)
	movzbl	2(%rax,%r9), %esi
	movb	%sil, -1(%rcx,%r9)
	movzbl	3(%rax,%r9), %esi
	movb	%sil, (%rcx,%r9)
	addq	$4, %r9
	cmpq	%r9, %rdx
	jne	548b
	jmp	325f
859:
	movq	%rax, %rsi
	movq	%rbx, %rdx
	callq	memmove@PLT
325:
	movw	$0, 112(%r14)
	movzbl	%bpl, %ecx
	shll	$3, %ecx
	movabsq	$271623928832, %rdi
	shrq	%cl, %rdi
	callq	tc_c_base.status.code
	movq	%rbx, %rdx
	movl	%eax, %eax
	popq	%rbx
	popq	%r14
	popq	%rbp
	retq
972:
	cmpq	$32, %rdx
	jae	859f
	xorl	%r8d, %r8d
	jmp	12f
859:
	movq	%rdx, %r8
	andq	$-32, %r8
	leaq	(%rcx,%rsi), %r9
	addq	$16, %r9
	xorl	%r10d, %r10d
	.p2align	4
464:
	movups	(%rax,%r10), %xmm0
	movups	16(%rax,%r10), %xmm1
	movups	%xmm0, -16(%r9,%r10)
	movups	%xmm1, (%r9,%r10)
	addq	$32, %r10
	cmpq	%r10, %r8
	jne	464b
	cmpq	%r8, %rdx
	je	325b
	testb	$28, %dl
	je	928b
12:
	movq	%r8, %r9
	movq	%rdx, %r8
	andq	$-4, %r8
	.p2align	4
327:
	movl	(%rax,%r9), %r10d
	movl	%r10d, (%rdi,%r9)
	addq	$4, %r9
	cmpq	%r9, %r8
	jne	327b
	cmpq	%r8, %rdx
	je	325b
	jmp	928b
	.size	tcrx_lines_text_at, .-tcrx_lines_text_at
	.section	.rodata..LT1c4c589c,"a",@progbits
.LT1c4c589c:
	.ascii	"bad too long\n"
	.section	.rodata..LT23999181,"a",@progbits
.LT23999181:
	.ascii	"gave up reading or writing after 2^64 tries"
	.section	.rodata.cst4,"aM",@progbits,4
.LT2e42b7fd:
	.zero	4,32
.LT3beabe2d:
	.ascii	"link"
	.section	.rodata..LT9561cdf1,"a",@progbits
.LT9561cdf1:
	.ascii	"report"
	.section	.rodata..LT9ce88526,"a",@progbits
.LT9ce88526:
	.ascii	"deliver"
	.section	.rodata..LT56694b3d,"a",@progbits
.LT56694b3d:
	.ascii	"collect"
	.section	.rodata..LT3fe1d88b,"a",@progbits
.LT3fe1d88b:
	.ascii	"candidate"
	.section	.rodata..LT7259b668,"a",@progbits
.LT7259b668:
	.ascii	"channel"
	.section	.rodata..LTcbc8f03c,"a",@progbits
.LTcbc8f03c:
	.ascii	"queue"
	.section	.rodata..LT4903b024,"a",@progbits
.LT4903b024:
	.ascii	"frame"
	.section	.rodata..LT4a7dd6d5,"a",@progbits
.LT4a7dd6d5:
	.ascii	"release"
	.section	.rodata.cst4,"aM",@progbits,4
.LTec03c545:
	.ascii	"take"
.LTce6eba13:
	.ascii	"unit"
.LTd51b947e:
	.ascii	"clcw"
	.section	.rodata..LTb1732992,"a",@progbits
.LTb1732992:
	.ascii	"plain"
	.section	.rodata..LT48aab116,"a",@progbits
	.p2align	1
.LT48aab116:
	.ascii	"\000\000\264vh\355\334\233\361\312E\274\231'-Q\303\205w\363\253h\037\0362O\2069Z\242\356\324\247\033\023m\317\366{\200V\321\342\247><\212Jd\236\320\350\fs\270\005\225T!\"\375\271I\317N7\372A&\332\222\254\277\375\013\213\327\020cf\215\2629\304\345_Q)|x\310\016\024\225\240\343\351,]Z\201\3015\267\030\346\254\220p\013\304}*\251\236\337BD\3662\333co\025\263\216\007\370\234n(\030\364\203@\365m\244\331\322\005I\261?_\353\353\2357\006\203p\256!\032W\306\314r\272;u\217\003S\230\347\356\312\277~\311\242R\026$\370\360L\206\220\035$k\t:\275La\327\325\241\322Yf/\272\264\016\302#\223\227\345K~\377\b\021\334\245\252y1\315G\340\026T`\210\373<\215uB\3014\035\257\251\331\204\2100\376\354eX\023\266\307\002\261\336*j\\G\r\363{/\340\233\2268\335\214\253P0\344F\311\027}a\241\372\025\214\373XO.\223\265'\303\n\222\276\344b\177\326\t\237\306+\260\367+C]n\f\332z\006\341\262\227\\C\35054\256\200\330\255\211\031\377\305dq\022v\352\302\234\036\007\252q\207 3V\357\315[\273\265o\001\031\335\202i\364D\245\360\323,H\230>\321\361e\207\271\034\rj ;\224MH\326\374\240\022t\246\002z\231\316\357\343\276W\310\213S?%\244\263\020\305\314^x(Uy\341\017=\224\211\342g6\323@\017\333\273\255\226\374\"\212\376\021Jg\003\250\267\336kE\3373\362bF\024\232\217.\371\300-t[\250\300\034\2661\347\205\221Y\n\355|\352\204^\362\202i6\037\033N\2578s\243\307\325)\001\235wA\354\365\232\330\313l\275\260&\004PM\237\371\351%r\221\004\274U\b#\324\270`\316\216\032:l\346\367R\201\177\320\313\246\027=\243K"
	.section	.rodata..LT33c05f58,"a",@progbits
	.p2align	1
.LT33c05f58:
	.ascii	"\000\00007`nPY\300\334\360\353\240\262\220\205\241\251\221\236\301\307\361\360auQB\001\0331,cCSt\003-3\032\243\237\223\250\303\361\363\306\302\352\362\335\242\204\222\263\00262\001bXRo\306\206\366\261\246\350\226\337\006Z6mf4V\003g/W\030\007A7v\247\363\227\304\307\235\367\252\245\305\225\362\305\253\365\234e\031U.\005w5@\004l4[d\002T5\304\260\364\207\244\336\224\351\255\035\235*\315s\375Dm\301]\366\r\257=\230\f\264<\203l\332\\\355\314h\374_\254\006\2341\316^\376i\2560\236\007\016\202>\265n\354^\333o\367_\300\017\231?\256\257+\237\034\317E\377rk\233[\254\013\365;\302\253G\233p\313)\373\036\3122\372\005\252\\\232k\n\356:\331j\200Z\267\b\3308\357h\266X\201\310\004\3703\250j\230]\251q\231F\311\037\371(i\255Y\232\t\3039\364Z;j\f:U\nb\232\347\252\320\372\211\312\276\373\222\313\245\233\374\253\313;N\013y[ k\0279x\tOY\026i!\371\244\311\223\231\312\251\375\230\321\250\346\370\277\310\210X\rh:8c\bT\234\275\254\212\374\323\314\344\\alV<\017\f8=\024\r#]zmM\375\310\315\377\235\246\255\221\377\376\317\311\237\220\257\247?\"\017\025_Lo{^Wn`>9\016\016\236\213\256\274\376\345\316\322\367&\307\021\227H\247\1777\372\007\315W\224g\243V\217f\2706\341\006\326\226S\246d\366=\306\n\224e\244R\364\013\304<T\271d\2164\327\004\3405\314\005\373U\242e\225\365\020\305'\225~\245I1\240\001\227Q\316a\371\361|\301K\221\022\241%\220\t\240>\360g\300PP\325`\3420\273\000\214R\343b\3242\215\002\272\222?\242\b\362Q\302f\363J\303}\223$\243\0233\226\003\241S\370c\317"
	.section	.rodata..LTbb337a2b,"a",@progbits
	.p2align	1
.LTbb337a2b:
	.ascii	"\000\00013bfSU\304\314\365\377\246\252\227\231\251\211\230\272\313\357\372\334mE\\v\017#>\020s\003B0\021e V\267\317\206\374\325\251\344\232\332\212\353\271\270\354\211\337\036F/u| M\023\346\006\3275\204`\265S\"\312\023\371@\254q\237O\217~\274-\351\034\332\213C\272p\351%\330\026\225\005\2446\367c\306PQ\311`\3723\257\002\234<\214\r\277^\352o\331\370@\311s\232&\253\025\314\r\375>\256k\237X\b\3019\362j\247[\224e\204T\267\007\3426\321\241H\220{\303.\362\035\277\016\216=\335h\354[{\302J\361\031\244(\227\026\207'\264t\341E\322\322K\343x\260-\201\036*\013\0338Hmy^\356\307\337\364\214\241\275\222\203\202\262\261\341\344\320\327GNv}%(\024\033Y\bh;;n\n]\235\304\254\367\377\242\316\221\360\201\301\262\222\347\243\3244M\005~V+g\030\230\033\251(\372}\313N\\\327m\344>\261\017\2021\222\000\241S\364b\307\365^\304m\2278\246\013\353\030\332+\211~\270M/\324\036\347M\262|\201B\221s\242 \367\021\304\206]\267n\344;\325\b~\035O.\034{-H\272\321\213\342\330\267\351\204\327\224\346\247\265\362\204\301\023X\"kq>@\r\r\036<-ox^K\311\322\370\341\253\264\232\207\244\227\225\244\306\361\367\302`[Qh\002=3\016T\026e%6p\007C\220\332\241\351\362\274\303\217\375\237\314\254\237\371\256\3129S\b`[5j\006'\025\026&Est@\343\331\322\352\201\277\260\214\216\234\277\257\354\372\335\311JP{c(6\031\005\262\020\203#\320v\341Ev\334G\357\024\272%\211\033\231*\252y\377H\314\337U\356f\2753\214\000\301\023\360 \243u\222F\005\3374\354g\271V\212h\232Y\251\n\374;\317\254V\235e\3160\377\003"
	.section	.rodata..LT48c7e4e5,"a",@progbits
	.p2align	1
.LT48c7e4e5:
	.ascii	"\000\000!\020B c0\204@\245P\306`\347p\b\201)\221J\241k\261\214\301\255\321\316\341\357\3611\022\020\002s2R\"\265R\224B\367r\326b9\223\030\203{\263Z\243\275\323\234\303\377\363\336\343b$C4 \004\001\024\346d\307t\244D\205Tj\245K\265(\205\t\225\356\345\317\365\254\305\215\325S6r&\021\0260\006\327v\366f\225V\264F[\267z\247\031\2278\207\337\367\376\347\235\327\274\307\304H\345X\206h\247x@\ba\030\002(#8\314\311\355\331\216\351\257\371H\211i\231\n\251+\271\365Z\324J\267z\226jq\032P\n3:\022*\375\333\334\313\277\373\236\353y\233X\213;\273\032\253\246l\207|\344L\305\\\",\003<`\fA\034\256\355\217\375\354\315\315\335*\255\013\275h\215I\235\227~\266n\325^\364N\023>2.Q\036p\016\237\377\276\357\335\337\374\317\033\277:\257Y\237x\217\210\221\251\201\312\261\353\241\f\321-\301N\361o\341\200\020\241\000\3020\343 \004P%@Fpg`\271\203\230\223\373\243\332\263=\303\034\323\177\343^\363\261\002\220\022\363\"\32225B\024RwbVr\352\265\313\245\250\225\211\205n\365O\345,\325\r\305\3424\303$\240\024\201\004ftGd$T\005D\333\247\372\267\231\207\270\227_\347~\367\035\307<\327\323&\3626\221\006\260\026Wfvv\025F4VL\331m\311\016\371/\351\310\231\351\211\212\271\253\251DXeH\006x'h\300\030\341\b\2028\243(}\313\\\333?\353\036\373\371\213\330\233\273\253\232\273uJTZ7j\026z\361\n\320\032\263*\222:.\375\017\355l\335M\315\252\275\213\255\350\235\311\215&|\007ld\\EL\242<\203,\340\034\301\f\037\357>\377]\317|\337\233\257\272\277\331\217\370\237\027n6~UNt^\223.\262>\321\016\360\036"
	.section	.rodata..LT3235efc0,"a",@progbits
.LT3235efc0:
	.byte	10
	.section	.rodata..LT4c832dbb,"a",@progbits
.LT4c832dbb:
	.ascii	"refused check\n"
	.section	.rodata..LT1bf80fd2,"a",@progbits
.LT1bf80fd2:
	.ascii	"refused more\n"
	.section	.rodata.cst16,"aM",@progbits,16
.LTa336d741:
	.ascii	"refused channel\n"
	.section	.rodata.cst8,"aM",@progbits,8
.LTc48ebe31:
	.ascii	"refused "
	.section	.rodata..LTbd49f353,"a",@progbits
.LTbd49f353:
	.ascii	"frame "
	.section	.rodata..LT6033b867,"a",@progbits
.LT6033b867:
	.ascii	" E"
	.section	.rodata..LT6574afb3,"a",@progbits
.LT6574afb3:
	.ascii	" accepted "
	.section	.rodata..LT37337163,"a",@progbits
.LT37337163:
	.byte	32
	.section	.rodata..LTe3b0c442,"a",@progbits
.LTe3b0c442:
	.section	.rodata..LT31704eaf,"a",@progbits
.LT31704eaf:
	.byte	45
	.section	.rodata..LTc8e4ece7,"a",@progbits
.LTc8e4ece7:
	.ascii	"queued "
	.section	.rodata..LT624d7ef1,"a",@progbits
.LT624d7ef1:
	.ascii	" dropped "
	.section	.rodata..LT073a3b51,"a",@progbits
.LT073a3b51:
	.ascii	" rest "
	.section	.rodata.cst8,"aM",@progbits,8
.LT8e6b4b41:
	.ascii	"release "
	.section	.rodata..LT2c3e4e31,"a",@progbits
.LT2c3e4e31:
	.ascii	"take "
	.section	.rodata.cst16,"aM",@progbits,16
.LT2bb0e2c3:
	.ascii	"0123456789abcdef"
	.section	.rodata..LTe93b56bc,"a",@progbits
.LTe93b56bc:
	.ascii	"unit "
	.section	.rodata..LTabc2e8bf,"a",@progbits
.LTabc2e8bf:
	.ascii	"clcw "
	.section	.rodata..LT45388282,"a",@progbits
.LT45388282:
	.ascii	"spacecraft"
	.section	.rodata.cst8,"aM",@progbits,8
.LTd49feab6:
	.ascii	"no queue"
	.section	.rodata..LTb7e5a2c0,"a",@progbits
.LTb7e5a2c0:
	.ascii	"no map"
	.section	.rodata..LTa1cb3204,"a",@progbits
.LTa1cb3204:
	.ascii	"empty"
	.section	.rodata..LT965043bc,"a",@progbits
.LT965043bc:
	.ascii	"short"
	.section	.rodata..LTb26077fb,"a",@progbits
.LTb26077fb:
	.ascii	"version"
	.section	.rodata..LT3d45e432,"a",@progbits
.LT3d45e432:
	.ascii	"spare"
	.section	.rodata..LT36d2c83f,"a",@progbits
.LT36d2c83f:
	.ascii	"length"
	.section	.rodata..LTd923d116,"a",@progbits
.LTd923d116:
	.ascii	"truncated"
	.section	.rodata..LT58992c68,"a",@progbits
.LT58992c68:
	.ascii	"link "
	.section	.rodata..LT88d9ed27,"a",@progbits
.LT88d9ed27:
	.ascii	"report "
	.section	.rodata..LT73ff4f13,"a",@progbits
.LT73ff4f13:
	.ascii	" state "
	.section	.rodata.cst4,"aM",@progbits,4
.LTd2821792:
	.ascii	" vr "
	.section	.rodata..LT8d0368cc,"a",@progbits
.LT8d0368cc:
	.ascii	" lockout "
	.section	.rodata..LTb6ef8972,"a",@progbits
.LTb6ef8972:
	.ascii	" wait "
	.section	.rodata.cst4,"aM",@progbits,4
.LT60ca1fe8:
	.ascii	"open"
.LT4c93fb2f:
	.ascii	"wait"
	.section	.rodata..LT7cff9fca,"a",@progbits
.LT7cff9fca:
	.ascii	"lockout"
	.section	.rodata..LT3ff918de,"a",@progbits
.LT3ff918de:
	.ascii	" retransmit "
	.section	.rodata.cst8,"aM",@progbits,8
.LTd511dccf:
	.ascii	" farm-b "
	.section	.rodata..LTa04389c8,"a",@progbits
.LTa04389c8:
	.ascii	" buffered "
	.section	.rodata..LT6778b9a6,"a",@progbits
.LT6778b9a6:
	.ascii	" queue "
	.section	.rodata..LTb35dea14,"a",@progbits
.LTb35dea14:
	.ascii	" map "
	.section	.rodata.cst4,"aM",@progbits,4
.LTe8321d2f:
	.ascii	"bad "
	.section	.rodata..LTb42bdd72,"a",@progbits
.LTb42bdd72:
	.ascii	": HEX is two hexadecimal digits for each octet"
	.section	.rodata..LTaa0e5251,"a",@progbits
.LTaa0e5251:
	.ascii	": write plain or nothing after VR"
	.section	.rodata..LTe897ed64,"a",@progbits
.LTe897ed64:
	.ascii	": the line begins with a byte order mark; save the file without it"
	.section	.rodata..LTd9a806d0,"a",@progbits
.LTd9a806d0:
	.ascii	": use channel, queue, map, frame, release, take, unit, clcw, link, report, deliver, collect or candidate"
	.section	.rodata..LTfebbbac6,"a",@progbits
.LTfebbbac6:
	.ascii	": write channel VC WIDTH BUFFER VR [plain]"
	.section	.rodata..LT7666c1d5,"a",@progbits
.LT7666c1d5:
	.ascii	": write queue VC APID CAPACITY"
	.section	.rodata..LTf8f41d37,"a",@progbits
.LTf8f41d37:
	.ascii	": write map VC MAP CAPACITY"
	.section	.rodata..LT4519a8fe,"a",@progbits
.LT4519a8fe:
	.ascii	": write frame HEX, octets without spaces"
	.section	.rodata..LT82b69449,"a",@progbits
.LT82b69449:
	.ascii	": write release VC"
	.section	.rodata..LTa7775bb0,"a",@progbits
.LTa7775bb0:
	.ascii	": write take VC APID"
	.section	.rodata..LTf6c2c042,"a",@progbits
.LTf6c2c042:
	.ascii	": write unit VC MAP"
	.section	.rodata..LT28500682,"a",@progbits
.LT28500682:
	.ascii	": write clcw VC"
	.section	.rodata..LT0a6e5077,"a",@progbits
.LT0a6e5077:
	.ascii	": write link VC RF BL"
	.section	.rodata..LT20344b8d,"a",@progbits
.LT20344b8d:
	.ascii	": write report VC"
	.section	.rodata..LTa322abf3,"a",@progbits
.LTa322abf3:
	.ascii	": write deliver VC"
	.section	.rodata..LTb6aa9e24,"a",@progbits
.LTb6aa9e24:
	.ascii	": write collect VC"
	.section	.rodata..LTb4d0c9a1,"a",@progbits
.LTb4d0c9a1:
	.ascii	": write candidate HEX, octets without spaces"
	.section	.rodata.cst4,"aM",@progbits,4
.LTa22647a1:
	.ascii	"\000\001\002\003"
	.section	.rodata..LTf506dd5d,"a",@progbits
.LTf506dd5d:
	.ascii	"\000\004\005"
	.section	.rodata..LTa781307c,"a",@progbits
.LTa781307c:
	.ascii	"\000\006\005"
	.section	.rodata..LT97e35543,"a",@progbits
.LT97e35543:
	.ascii	"\000\004"
	.section	.rodata..LT122e95d1,"a",@progbits
.LT122e95d1:
	.ascii	"\000\006"
	.section	.rodata..LT01a22a66,"a",@progbits
.LT01a22a66:
	.ascii	"\000\007\b"
	.section	.rodata.str1.1,"aMS",@progbits,1
.LT84067936:
	.zero	1
	.section	.rodata..LT9cd6e722,"a",@progbits
.LT9cd6e722:
	.ascii	": VC is 0 to 63"
	.section	.rodata..LT5cde739f,"a",@progbits
.LT5cde739f:
	.ascii	": WIDTH is even, 2 to 254"
	.section	.rodata..LT53c01e12,"a",@progbits
.LT53c01e12:
	.ascii	": BUFFER is 1 to 64"
	.section	.rodata.cst16,"aM",@progbits,16
.LT86cf1972:
	.ascii	": VR is 0 to 255"
	.section	.rodata..LTf01cae55,"a",@progbits
.LTf01cae55:
	.ascii	": APID is 0 to 2046"
	.section	.rodata..LT2b151fb5,"a",@progbits
.LT2b151fb5:
	.ascii	": CAPACITY is 1 to 256"
	.section	.rodata.cst16,"aM",@progbits,16
.LT867c18b7:
	.ascii	": MAP is 0 to 63"
	.section	.rodata..LTc8167ab5,"a",@progbits
.LTc8167ab5:
	.ascii	": RF is 0 or 1"
	.section	.rodata..LTd5773360,"a",@progbits
.LTd5773360:
	.ascii	": BL is 0 or 1"
	.section	.rodata..LTe8e39079,"a",@progbits
.LTe8e39079:
	.ascii	"unknown command"
	.section	.rodata..LT563a4948,"a",@progbits
.LT563a4948:
	.ascii	"wrong number of words"
	.section	.rodata..LT9c610d29,"a",@progbits
.LT9c610d29:
	.ascii	"bad number"
	.section	.rodata..LTede891d1,"a",@progbits
.LTede891d1:
	.ascii	"bad hex"
	.section	.rodata.cst8,"aM",@progbits,8
.LT70f9d303:
	.ascii	"too late"
	.section	.rodata..LT7e6618eb,"a",@progbits
.LT7e6618eb:
	.ascii	"no channel"
	.section	.rodata..LT2ff138a3,"a",@progbits
.LT2ff138a3:
	.ascii	"double channel"
	.section	.rodata..LTa83d2b9c,"a",@progbits
.LTa83d2b9c:
	.ascii	"unknown channel"
	.section	.rodata..LTde87a2d9,"a",@progbits
.LTde87a2d9:
	.ascii	"bad channel"
	.section	.rodata..LT4fb084ab,"a",@progbits
.LT4fb084ab:
	.ascii	"bad window"
	.section	.rodata..LT0e47d2c5,"a",@progbits
.LT0e47d2c5:
	.ascii	"bad buffer"
	.section	.rodata..LTfcd4e876,"a",@progbits
.LTfcd4e876:
	.ascii	"bad application"
	.section	.rodata..LT76d26c4b,"a",@progbits
.LT76d26c4b:
	.ascii	"double application"
	.section	.rodata..LT9b8b708f,"a",@progbits
.LT9b8b708f:
	.ascii	"bad capacity"
	.section	.rodata..LT11c32282,"a",@progbits
.LT11c32282:
	.ascii	"no memory"
	.section	.rodata..LT253fb48a,"a",@progbits
.LT253fb48a:
	.ascii	"bad option"
	.section	.rodata..LT166e95ae,"a",@progbits
.LT166e95ae:
	.ascii	"bad map"
	.section	.rodata..LTa9d7bd03,"a",@progbits
.LTa9d7bd03:
	.ascii	"double map"
	.section	.rodata..LTfa4ce404,"a",@progbits
.LTfa4ce404:
	.ascii	"bad units"
	.section	.rodata..LT821c8338,"a",@progbits
.LT821c8338:
	.ascii	"map on plain channel"
	.section	.rodata..LT138bf261,"a",@progbits
.LT138bf261:
	.ascii	"line "
	.section	.rodata..LTbefb410e,"a",@progbits
.LTbefb410e:
	.ascii	": "
	.section	.rodata..LT8140752f,"a",@progbits
.LT8140752f:
	.ascii	"line 0: cannot read"
	.section	.rodata.cst16,"aM",@progbits,16
.LT71b4f69b:
	.ascii	"line 0: too long"
	.section	.rodata..LTbd1a9a90,"a",@progbits
.LTbd1a9a90:
	.ascii	"line 0: cannot write"
	.section	.rodata..LT15dbdadc,"a",@progbits
.LT15dbdadc:
	.ascii	"line 0: unbalanced"
	.section	.rodata..LT841bcafc,"a",@progbits
.LT841bcafc:
	.ascii	"packet"
	.section	.rodata..LT8805324e,"a",@progbits
.LT8805324e:
	.ascii	"unlock"
	.section	.rodata..LT060252ac,"a",@progbits
.LT060252ac:
	.ascii	"setvr"
	.section	.rodata.cst8,"aM",@progbits,8
.LT809303c8:
	.ascii	"segments"
	.section	.rodata..LT6bb1575f,"a",@progbits
.LT6bb1575f:
	.ascii	"explain"
	.section	.rodata.cst4,"aM",@progbits,4
.LT24883227:
	.ascii	"cltu"
	.section	.rodata..LTd8c9c952,"a",@progbits
.LTd8c9c952:
	.ascii	"random"
	.section	.rodata..LTc0048dcc,"a",@progbits
.LTc0048dcc:
	.ascii	"tm"
	.section	.rodata..LTea4b73ba,"a",@progbits
.LTea4b73ba:
	.ascii	"telemetry"
	.section	.rodata..LT92808575,"a",@progbits
.LT92808575:
	.ascii	"decoder"
	.section	.rodata..LT8d98f918,"a",@progbits
.LT8d98f918:
	.ascii	"octets"
	.section	.rodata..LT62caa537,"a",@progbits
.LT62caa537:
	.ascii	"search"
	.section	.rodata..LT8e0eaf5d,"a",@progbits
.LT8e0eaf5d:
	.ascii	"frames"
	.section	.rodata..LT10360ae0,"a",@progbits
.LT10360ae0:
	.ascii	"detect"
	.section	.rodata..LTdda79b15,"a",@progbits
.LTdda79b15:
	.ascii	"correct"
	.section	.rodata..LT2e88633b,"a",@progbits
.LT2e88633b:
	.ascii	"header "
	.section	.rodata..LTe393c96b,"a",@progbits
.LTe393c96b:
	.ascii	" scid "
	.section	.rodata.cst4,"aM",@progbits,4
.LTbd6cf3c6:
	.ascii	" vc "
.LT498e0c89:
	.ascii	" ns "
	.section	.rodata..LTbe31a6ac,"a",@progbits
.LTbe31a6ac:
	.ascii	"BC"
	.section	.rodata..LTa951a33e,"a",@progbits
.LTa951a33e:
	.ascii	"BD"
	.section	.rodata..LTb44569c2,"a",@progbits
.LTb44569c2:
	.ascii	"AC"
	.section	.rodata..LTe5e5d9bb,"a",@progbits
.LTe5e5d9bb:
	.ascii	"AD"
	.section	.rodata.cst8,"aM",@progbits,8
.LT26126e75:
	.ascii	" octets "
	.section	.rodata..LT72def174,"a",@progbits
.LT72def174:
	.ascii	" fill "
	.section	.rodata..LTb92a41d7,"a",@progbits
.LTb92a41d7:
	.ascii	"command unlock\n"
	.section	.rodata..LT5ce8bbff,"a",@progbits
.LT5ce8bbff:
	.ascii	"command setvr "
	.section	.rodata..LTcda36f6b,"a",@progbits
.LTcda36f6b:
	.ascii	"invalid"
	.section	.rodata.cst8,"aM",@progbits,8
.LTda085ef3:
	.ascii	"segment "
	.section	.rodata..LT12a18633,"a",@progbits
.LT12a18633:
	.ascii	"first"
	.section	.rodata..LTa72d789d,"a",@progbits
.LTa72d789d:
	.ascii	"continuing"
	.section	.rodata.cst4,"aM",@progbits,4
.LTe43cc0b9:
	.ascii	"last"
	.section	.rodata..LT2d6ed66d,"a",@progbits
.LT2d6ed66d:
	.ascii	"unsegmented"
	.section	.rodata.cst4,"aM",@progbits,4
.LTb585f321:
	.ascii	"body"
.LTad2772d4:
	.ascii	"rest"
	.section	.rodata..LT7f1de622,"a",@progbits
.LT7f1de622:
	.ascii	"holds "
	.section	.rodata..LTd36e0410,"a",@progbits
.LTd36e0410:
	.ascii	" apid "
	.section	.rodata..LTfa4383a8,"a",@progbits
.LTfa4383a8:
	.ascii	" count "
	.section	.rodata..LT05553995,"a",@progbits
.LT05553995:
	.ascii	" flags "
	.section	.rodata..LTd2f6f45b,"a",@progbits
.LTd2f6f45b:
	.ascii	"TC"
	.section	.rodata..LT9a517a8e,"a",@progbits
.LT9a517a8e:
	.ascii	"TM"
	.section	.rodata..LTd4ce07c9,"a",@progbits
.LTd4ce07c9:
	.ascii	" secondary "
	.section	.rodata.cst4,"aM",@progbits,4
.LT54ed9b2a:
	.ascii	"more"
.LT68d2e1d5:
	.ascii	"fill"
	.section	.rodata..LT6f25b05d,"a",@progbits
.LT6f25b05d:
	.ascii	"check"
	.section	.rodata.cst8,"aM",@progbits,8
.LT081b0d22:
	.ascii	"clcw vc "
.LT3b969cfe:
	.ascii	" status "
	.section	.rodata..LT27d9cd2a,"a",@progbits
.LT27d9cd2a:
	.ascii	" norf "
	.section	.rodata..LT80600969,"a",@progbits
.LT80600969:
	.ascii	" nobitlock "
	.section	.rodata..LTa613f50b,"a",@progbits
.LTa613f50b:
	.ascii	" farmb "
	.section	.rodata..LT6035a829,"a",@progbits
.LT6035a829:
	.ascii	"\353\220"
	.section	.rodata.cst8,"aM",@progbits,8
.LT9296ae30:
	.ascii	"\305\305\305\305\305\305\305y"
	.section	.rodata..LTb4175d02,"a",@progbits
.LTb4175d02:
	.ascii	"\000EO\n[\036\024Qs6<y(mg\"#fl)x=7rP\025\037Z\013ND\001F\003\tL\035XR\0275pz?n+!de *o>{q4\026SY\034M\b\002GI\f\006C\022W]\030:\177u0a$.kj/%`1t~;\031\\V\023B\007\rH\017J@\005T\021\033^|93v'bh-,ic&w28}_\032\020U\004AK\016W\022\030]\fIC\006$ak.\177:0ut1;~/j`%\007BH\r\\\031\023V\021T^\033J\017\005@b'-h9|v32w}8i,&cA\004\016K\032_U\020\036[Q\024E\000\nOm(\"g6sy<=xr7f#)lN\013\001D\025PZ\037X\035\027R\003FL\t+nd!p5?z{>4q eo*\bMG\002S\026\034Y\000k\023x&M5^L'_4j\001y\022]6N%{\020h\003\021z\002i7\\$O\177\024l\007Y2J!3X K\025~\006m\"I1Z\004o\027|n\005}\026H#[0;P(C\035v\016ew\034d\017Q:B)f\ru\036@+S8*A9R\fg\037tD/W<b\tq\032\bc\033p.E=V\031r\na?T,GU>F-s\030`\013v\035e\016P;C(:Q)B\034w\017d+@8S\rf\036ug\ft\037A*R9\tb\032q/D<WE.V=c\bp\033T?G,r\031a\n\030s\013`>U-FM&^5k\000x\023\001j\022y'L4_\020{\003h6]%N\\7O$z\021i\0022Y!J\024\177\007l~\025m\006X3K o\004|\027I\"Z1#H0[\005n\026}\000)R{aH3\032\007.U|fO4\035\016'\\uoF=\024\t [rhA:\023\0345Ng}T/\006\0332I`zS(\001\022;@isZ!\b\025<Gnt]&\0178\021jCYp\013\"?\026mD^w\f%6\037dMW~\005,1\030cJPy\002+$\rv_El\027>#\nqXBk\0209*\003xQKb\0310-\004\177VLe\0367pY\"\013\0218Cjw^%\f\026?Dm~W,\005\0376MdyP+\002\0301JclE>\027\r$_vkB9\020\n#XqbK0\031\003*QxeL7\036\004-V\177Ha\0323)\000{ROf\0354.\007|UFo\024='\016u\\Ah\023: \tr[T}\006/5\034gNSz\001(2\033`IZs\b!;\022i@]t\017&<\025nG\000%JoQt\033>gB-\b6\023|Y\013.AdZ\177\0205lI&\003=\030wR\0263\\yGb\r(qT;\036 \005jO\0358WrLi\006#z_0\025+\016aD,\tfC}X7\022Kn\001$\032?Pu'\002mHvS<\031@e\n/\0214[~:\037pUkN!\004]x\0272\f)Fc1\024{^`E*\017Vs\0349\007\"MhX}\0227\t,Cf?\032uPnK$\001Sv\031<\002'Hm4\021~[e@/\nNk\004!\037:Up)\fcFx]2\027E`\017*\0241^{\"\007hMsV9\034tQ>\033%\000oJ\0236Y|Bg\b-\177Z5\020.\013dA\030=RwIl\003&bG(\r3\026y\\\005 OjTq\036;iL#\0068\035rW\016+Da_z\0250\000u/Z^+q\004y\fV#'R\b}7B\030mi\034F3N;a\024\020e?Jn\033A40E\037j\027b8MI<f\023Y,v\003\007r(] U\017z~\013Q$\031l6CG2h\035`\025O:>K\021d.[\001tp\005_*W\"x\r\t|&Sw\002X-)\\\006s\016{!TP%\177\n@5o\032\036k1D9L\026cg\022H=2G\035hl\031C6K>d\021\025`:O\005p*_[.t\001|\tS&\"W\rx\\)s\006\002w-X%P\n\177{\016T!k\036D15@\032o\022g=HL9c\026+^\004qu\000Z/R'}\b\fy#V\034i3FB7m\030e\020J?;N\024aE0j\037\033n4A<I\023fb\027M8r\007](,Y\003v\013~$QU z\017\000d\ri\032~\027s4P9].J#Gh\fe\001r\026\177\033\\8Q5F\"K/\025q\030|\017k\002f!E,H;_6R}\031p\024g\003j\016I-D S7^:*N'C0T=Y\036z\023w\004`\tmB&O+X<U1v\022{\037l\ba\005?[2V%A(L\013o\006b\021u\034xW3Z>M)@$c\007n\ny\035t\020T0Y=N*C'`\004m\tz\036w\023<X1U&B+O\bl\005a\022v\037{A%L([?V2u\021x\034o\013b\006)M$@3W>Z\035y\020t\007c\nn~\032s\027d\000i\rJ.G#P4]9\026r\033\177\fh\001e\"F/K8\\5Qk\017f\002q\025|\030_;R6E!H,\003g\016j\031}\024p7S:^-I D\000m\037r>S!L|\021c\016B/]0=P\"O\003n\034qA,^3\177\022`\rz\027e\bD)[6\006k\031t8U'JG*X5y\024f\013;V$I\005h\032w1\\.C\017b\020}M R?s\036l\001\fa\023~2_-@p\035o\002N#Q<K&T9u\030j\0077Z(E\td\026{v\033i\004H%W:\ng\025x4Y+Fb\017}\020\\1C.\036s\001l M?R_2@-a\f~\023#N<Q\035p\002o\030u\007j&K9Td\t{\026Z7E(%H:W\033v\004iY4F+g\nx\025S>L!m\000r\037/B0]\021|\016cn\003q\034P=O\"\022\177\r`,A3^)D6[\027z\beU8J'k\006t\031\024y\013f*G5Xh\005w\032V;I$"
	.section	.rodata..LT359fb368,"a",@progbits
.LT359fb368:
	.ascii	"\000J\225\337`*\365\277\300\212U\037\240\3525\177\312\200_\025\252\340?u\n@\237\325j \377\265\336\224K\001\276\364+a\036T\213\301~4\353\241\024^\201\313t>\341\253\324\236A\013\264\376!k\367\275b(\227\335\002H7}\242\350W\035\302\210=w\250\342]\027\310\202\375\267h\"\235\327\bB)c\274\366I\003\334\226\351\243|6\211\303\034V\343\251v<\203\311\026\\#i\266\374C\t\326\234\245\3570z\305\217P\032e/\360\272\005O\220\332o%\372\260\017E\232\320\257\345:p\317\205Z\020{1\356\244\033Q\216\304\273\361.d\333\221N\004\261\373$n\321\233D\016q;\344\256\021[\204\316R\030\307\2152x\247\355\222\330\007M\362\270g-\230\322\rG\370\262m'X\022\315\2078r\255\347\214\306\031S\354\246y3L\006\331\223,f\271\363F\f\323\231&l\263\371\206\314\023Y\346\254s9"
	.section	.rodata.cst8,"aM",@progbits,8
.LTec6a51b3:
	.ascii	"tm scid "
.LTafa5f7c5:
	.ascii	" master "
	.section	.rodata..LT41cae141,"a",@progbits
.LT41cae141:
	.ascii	" channel "
	.section	.rodata..LT42d834cb,"a",@progbits
.LT42d834cb:
	.ascii	" pointer "
	.section	.rodata..LTe2d26f26,"a",@progbits
.LTe2d26f26:
	.ascii	"control"
	.section	.rodata..LTddd25b9b,"a",@progbits
	.p2align	3
.LTddd25b9b:
	.asciz	"\000\000\000\000\000\000\000\000\000\000\000\000\000\000\000\002\000\000\000\000\000\000\000\004\000\000\000\000\000\000\000\000\000\000\000\000\000\000\000\b\000\000\000\000\000\000\000\000\000\000\000\000\000\000\000\000\000\000\000\000\b\000\000\000\000\000\000\000\000\000\000\020\000\000\000\000\000\000\000\000\000\000\000\000\000\000\000\000\000\000\000\020\000\000\000\000\000\000\000\000\000\000\000\000\000\002\000\000\000\000\000\000\000\000\000\000\020\000\000\000\000\000\000\000\000\000\000\000\000\000\000\000\000\000\000 \000\000\000\000\000\000\000\000\000\000\000\000\000\000\000\000\000\000\000\000\000\002\000\000\000\000\000\000\000\000\000\000\000 \000\000\000\000\000\000\000\000\000 \000\000\000\000\000\000\000\000\000\000\000\000\000\000\000\000\000\000\000\000\000\000@\000\000\000\000\000\000\004\000\000\000\000\000\000\000\000\000\000\000\000\000\000\000\000\000\000 \000\000\000\000\000\000\000\000\000\000\000\000\000\000\000\000\000\000\000\002\000\000\000\000\000\000\000\000\000\000\000\000\000\000@\000\000\000\000\000\000\000\000\000\000\000\000\000\000\000\000\000\000\000\000\000\000\020\000\000\000\000\000\000\000\000\000\000\000\000\001\000\000\000\000\000\000\000\000\000\004\000\000\000\000\000\000\000\000\000\000\000\000\000\000\000\000\000\000\000\000\000\000\001\000\000\000\000@\000\000\000\000\000\000\000\000\000\000\000\000\000\000\000\000\000@\000\000\000\000\000\000\000\000\000\000\000\000\000\000\000\000\000\000\000\000\000\000\002\000\000\000\000\000\000\000\000\000\000\000\000\000@\000\000\000\000\000\000\000\000\000\200\000\000\000\000\000\000\000\000\000\000\000\000\000\000\b\000\000\000\000\000\000\000\000\000\000\000\000\000\000\000\000\000\000\000\000\000\000\000\000\020\000\000\000\000\000\000\000\000\000@\000\000\000\000\000\000\000\000\000\000\000\000\000\000\000\000\000\000\000\000\000\000\000\000@\000\000\000\000\000\000\000\000\000\000\020\000\000\000\000\000\000\000\004\000\000\000\000\000\000\000\000\000\000\000\000\000\000\000\000\000\000\000\000\000\000\200\000\000\000\000\000\000\000\000\000\000\000\000\000\000\000\000\000\000\000\000\000\000\000\000\000\000\000\000\000\000\000\000\000\000\000\000\000\000\001\000\000\000\000\000\000\000 \000\000\000\000\000\000\000\000\000\000\000\000\000\000\000\000\000\000\000\000\000\000\000@\000\000\000\000\002\000\000\000\000\000\000\000\000\000\000\000\000\000\000\000\000\000\b\000\000\000\000\000\000\000\000\000\000\000\000\000\000\000\000\000\000\000\000\000\000\000\000\002\000\000\000\000\000\000\000\000\000\000\000\000\004\000\000\000\000\000\000\000\000\002\000\000\000\000\000\000\000\000\000\000\000\000\200\000\000\000\000\000\000\000\000\000\000\000\000\000\000\000\000\000\000\000\000\000\000\000\000\000\000\000\000\200\000\000\000\000\200\000\000\000\000\000\000\000\000\000\000\000\000\000\000\000\000\000\000\000\000\000\000\000\000\000\000\004\000\000\000\000\000\000\000\000\000\000\000\000\000\000\020\000\000\000\000\004\000\000\000\000\000\000\000\000\000\000\000\000\000\000\000\000\000\000\000\000\000\000\000\000\000\004\000\000\000\200\000\000\000\000\000\000\000\000\000\000\000\000\000\000\000\000\001\000\000\000\000\000\000\000\000\000\000\000\000\000\000\000\000\000\000\000\000\000\000\000\000\000\b\000\000\000\000\000\020\000\000\000\000\000\000\000\000\000\000\000\000\000\000\000\000\000\000\000\000\000\000\000\000\000\000\000\001\000\000\000\000\000\000\000\000\000\000\001\000\000\000\000\000\000\000\000\000 \000\000\000\000\000\000\000\000\000\000\000\000\000\000\000\000\000\200\000\000\000\000\000\000\000\000\000\000\000\000\000\000\000\000\000\000\000\000\000\000\000\000\000\b\000\000\000\000\000\000\000\000\000\000\000\001\000\000\000\000\000\000\000\000\000\000\200\000\000\000\000\000\000\000\000\000\000\000\000\000\000\000\000\000\000\000\000\b\000\000\000\000\000 \000\000\000\000\000\000\000\000\000\000\000\000\000\000\000\b\000\000\000\000\000\000\000\000\000\000\000\000\000\000\000\000\000\000\000\000\000\000\000\000\000\000\000\000 \000"
	.section	.rodata..LTbe46598f,"a",@progbits
.LTbe46598f:
	.ascii	"blocks corrected "
	.section	.rodata..LT39c39aed,"a",@progbits
.LT39c39aed:
	.ascii	" rejected "
	.section	.rodata..LTec10d3fa,"a",@progbits
.LTec10d3fa:
	.ascii	" overlong "
	.section	.rodata..LT138070c8,"a",@progbits
.LT138070c8:
	.ascii	"search cut "
	.section	.rodata..LTd59513d8,"a",@progbits
.LTd59513d8:
	.ascii	"fill "
	.section	.rodata..LT0e3ff99a,"a",@progbits
.LT0e3ff99a:
	.ascii	": use packet, ad, bd, unlock, setvr, segments, explain, clcw, cltu, random, tm, telemetry, decoder, octets, search or frames\n"
	.section	.rodata..LT85d3bb8b,"a",@progbits
.LT85d3bb8b:
	.ascii	": the line begins with a byte order mark; save the file without it\n"
	.section	.rodata.cst8,"aM",@progbits,8
.LT07c8561c:
	.ascii	": write "
	.section	.rodata..LT2c4ab8d6,"a",@progbits
.LT2c4ab8d6:
	.ascii	": HEX is two hexadecimal digits for each octet\n"
	.section	.rodata..LTcfc709a4,"a",@progbits
.LTcfc709a4:
	.ascii	": MODE is detect or correct\n"
	.section	.rodata..LTbb49215e,"a",@progbits
.LTbb49215e:
	.ascii	": HEX is four octets\n"
	.section	.rodata..LTa8644efb,"a",@progbits
.LTa8644efb:
	.ascii	"packet APID COUNT HEX"
	.section	.rodata..LT1e10d2cb,"a",@progbits
.LT1e10d2cb:
	.ascii	"ad SCID VC NS MAP HEX"
	.section	.rodata..LTbf0051a2,"a",@progbits
.LTbf0051a2:
	.ascii	"bd SCID VC MAP HEX"
	.section	.rodata..LT57b8e1ea,"a",@progbits
.LT57b8e1ea:
	.ascii	"unlock SCID VC"
	.section	.rodata..LT9292ad12,"a",@progbits
.LT9292ad12:
	.ascii	"setvr SCID VC X"
	.section	.rodata.cst32,"aM",@progbits,32
.LTf2c99ef3:
	.ascii	"segments SCID VC NS MAP SIZE HEX"
	.section	.rodata..LTde300d99,"a",@progbits
.LTde300d99:
	.ascii	"explain HEX"
	.section	.rodata.cst8,"aM",@progbits,8
.LTa37e1f43:
	.ascii	"clcw HEX"
.LTa2a1e7cd:
	.ascii	"cltu HEX"
	.section	.rodata..LT866b37fb,"a",@progbits
.LT866b37fb:
	.ascii	"random HEX"
	.section	.rodata..LTc4ea4c11,"a",@progbits
.LTc4ea4c11:
	.ascii	"tm SCID VC SIZE HEX"
	.section	.rodata..LTc3215bf5,"a",@progbits
.LTc3215bf5:
	.ascii	"telemetry HEX"
	.section	.rodata..LTa29a9c5b,"a",@progbits
.LTa29a9c5b:
	.ascii	"decoder ID MODE"
	.section	.rodata..LTfab5c0bd,"a",@progbits
.LTfab5c0bd:
	.ascii	"octets ID HEX"
	.section	.rodata..LTb956bf30,"a",@progbits
.LTb956bf30:
	.ascii	"search ID"
	.section	.rodata..LT7d087273,"a",@progbits
.LT7d087273:
	.ascii	"frames MOST HEX"
	.section	.rodata..LT466d4fd8,"a",@progbits
.LT466d4fd8:
	.ascii	", octets without spaces"
	.section	.rodata..LT84639798,"a",@progbits
.LT84639798:
	.ascii	"bad unknown command"
	.section	.rodata..LT1ef62a42,"a",@progbits
.LT1ef62a42:
	.ascii	"bad wrong number of words"
	.section	.rodata.cst8,"aM",@progbits,8
.LT003e77a4:
	.ascii	"bad mode"
.LT7b2de264:
	.ascii	"bad clcw"
	.section	.rodata..LTe2322176,"a",@progbits
.LTe2322176:
	.ascii	"bad spacecraft"
	.section	.rodata..LT21ff08f0,"a",@progbits
.LT21ff08f0:
	.ascii	"bad count"
	.section	.rodata.cst8,"aM",@progbits,8
.LTf2f620b7:
	.ascii	"bad size"
	.section	.rodata..LT6fc3e9ce,"a",@progbits
.LT6fc3e9ce:
	.ascii	"bad no data"
	.section	.rodata..LT0883e594,"a",@progbits
.LT0883e594:
	.ascii	"bad too much data"
	.section	.rodata..LTf4264328,"a",@progbits
.LTf4264328:
	.ascii	"bad no decoder"
	.section	.rodata..LT36a7354e,"a",@progbits
.LT36a7354e:
	.ascii	"bad no memory"
	.section	.rodata..LT18fe9770,"a",@progbits
.LT18fe9770:
	.ascii	"SCID is 0 to 1023"
	.section	.rodata..LTb684fe3b,"a",@progbits
.LTb684fe3b:
	.ascii	"VC is 0 to 63, for tm 0 to 7"
	.section	.rodata..LT4865b7f6,"a",@progbits
.LT4865b7f6:
	.ascii	"NS is 0 to 255"
	.section	.rodata..LT7249c412,"a",@progbits
.LT7249c412:
	.ascii	"MAP is 0 to 63"
	.section	.rodata..LTd5d2e183,"a",@progbits
.LTd5d2e183:
	.ascii	"SIZE is 1 to 1018, for tm 11 to 2048"
	.section	.rodata..LT5b236900,"a",@progbits
.LT5b236900:
	.ascii	"APID is 0 to 2047"
	.section	.rodata..LT8ca055ff,"a",@progbits
.LT8ca055ff:
	.ascii	"COUNT is 0 to 16383"
	.section	.rodata..LTcb36ec02,"a",@progbits
.LTcb36ec02:
	.ascii	"X is 0 to 255"
	.section	.rodata..LT07250bd6,"a",@progbits
.LT07250bd6:
	.ascii	"ID is 0 to 255"
	.section	.rodata.cst16,"aM",@progbits,16
.LTeccb0222:
	.ascii	"MOST is 0 to 255"
	.section	.rodata..LT8483e2a3,"a",@progbits
.LT8483e2a3:
	.ascii	"final "
	.section	.rodata.cst8,"aM",@progbits,8
.LT78f06cc6:
	.ascii	" events "
	.section	.rodata..LT46c79790,"a",@progbits
.LT46c79790:
	.ascii	"queue "
	.section	.rodata.cst4,"aM",@progbits,4
.LT3276ef29:
	.ascii	"map "
	.section	.rodata..LTde3001dd,"a",@progbits
.LTde3001dd:
	.ascii	"unbalanced"
	.section	.rodata..Lswitch.table.tc_session.engine.Engine.answer._5349ec06ad6c886c,"a",@progbits
	.p2align	3
.Lswitch.table.tc_session.engine.Engine.answer._5349ec06ad6c886c:
	.quad	4
	.quad	4
	.quad	0
	.quad	0
	.quad	4
	.quad	4
	.quad	4
	.quad	4
	.quad	0
	.quad	0
	.quad	0
	.quad	0
	.quad	4
	.quad	0
	.quad	4
	.quad	0
	.quad	0
	.quad	4
	.quad	0
	.quad	4
	.section	.rodata..Lswitch.table.tc_session.engine.Engine.answer._5349ec06ad6c886c_.630.rel,"a",@progbits
	.p2align	2
.Lswitch.table.tc_session.engine.Engine.answer._5349ec06ad6c886c_.630.rel:
	.long	.LTe8321d2f-.Lswitch.table.tc_session.engine.Engine.answer._5349ec06ad6c886c_.630.rel
	.long	.LTe8321d2f-.Lswitch.table.tc_session.engine.Engine.answer._5349ec06ad6c886c_.630.rel
	.long	.LTe3b0c442-.Lswitch.table.tc_session.engine.Engine.answer._5349ec06ad6c886c_.630.rel
	.long	.LTe3b0c442-.Lswitch.table.tc_session.engine.Engine.answer._5349ec06ad6c886c_.630.rel
	.long	.LTe8321d2f-.Lswitch.table.tc_session.engine.Engine.answer._5349ec06ad6c886c_.630.rel
	.long	.LTe8321d2f-.Lswitch.table.tc_session.engine.Engine.answer._5349ec06ad6c886c_.630.rel
	.long	.LTe8321d2f-.Lswitch.table.tc_session.engine.Engine.answer._5349ec06ad6c886c_.630.rel
	.long	.LTe8321d2f-.Lswitch.table.tc_session.engine.Engine.answer._5349ec06ad6c886c_.630.rel
	.long	.LTe3b0c442-.Lswitch.table.tc_session.engine.Engine.answer._5349ec06ad6c886c_.630.rel
	.long	.LTe3b0c442-.Lswitch.table.tc_session.engine.Engine.answer._5349ec06ad6c886c_.630.rel
	.long	.LTe3b0c442-.Lswitch.table.tc_session.engine.Engine.answer._5349ec06ad6c886c_.630.rel
	.long	.LTe3b0c442-.Lswitch.table.tc_session.engine.Engine.answer._5349ec06ad6c886c_.630.rel
	.long	.LTe8321d2f-.Lswitch.table.tc_session.engine.Engine.answer._5349ec06ad6c886c_.630.rel
	.long	.LTe3b0c442-.Lswitch.table.tc_session.engine.Engine.answer._5349ec06ad6c886c_.630.rel
	.long	.LTe8321d2f-.Lswitch.table.tc_session.engine.Engine.answer._5349ec06ad6c886c_.630.rel
	.long	.LTe3b0c442-.Lswitch.table.tc_session.engine.Engine.answer._5349ec06ad6c886c_.630.rel
	.long	.LTe3b0c442-.Lswitch.table.tc_session.engine.Engine.answer._5349ec06ad6c886c_.630.rel
	.long	.LTe8321d2f-.Lswitch.table.tc_session.engine.Engine.answer._5349ec06ad6c886c_.630.rel
	.long	.LTe3b0c442-.Lswitch.table.tc_session.engine.Engine.answer._5349ec06ad6c886c_.630.rel
	.long	.LTe8321d2f-.Lswitch.table.tc_session.engine.Engine.answer._5349ec06ad6c886c_.630.rel
	.section	.rodata..Lswitch.table.tc_session.engine.Engine.answer._5349ec06ad6c886c_.631,"a",@progbits
	.p2align	1
.Lswitch.table.tc_session.engine.Engine.answer._5349ec06ad6c886c_.631:
	.short	255
	.short	255
	.short	255
	.short	255
	.short	65535
	.short	65535
	.short	255
	.short	1
	.short	1
	.section	.rodata..Lswitch.table.tc_session.engine.Engine.answer._5349ec06ad6c886c_.632,"a",@progbits
	.p2align	3
.Lswitch.table.tc_session.engine.Engine.answer._5349ec06ad6c886c_.632:
	.quad	15
	.quad	25
	.quad	19
	.quad	16
	.quad	19
	.quad	22
	.quad	16
	.quad	14
	.quad	14
	.section	.rodata..Lswitch.table.tc_session.engine.Engine.answer._5349ec06ad6c886c_.633.rel,"a",@progbits
	.p2align	2
.Lswitch.table.tc_session.engine.Engine.answer._5349ec06ad6c886c_.633.rel:
	.long	.LT9cd6e722-.Lswitch.table.tc_session.engine.Engine.answer._5349ec06ad6c886c_.633.rel
	.long	.LT5cde739f-.Lswitch.table.tc_session.engine.Engine.answer._5349ec06ad6c886c_.633.rel
	.long	.LT53c01e12-.Lswitch.table.tc_session.engine.Engine.answer._5349ec06ad6c886c_.633.rel
	.long	.LT86cf1972-.Lswitch.table.tc_session.engine.Engine.answer._5349ec06ad6c886c_.633.rel
	.long	.LTf01cae55-.Lswitch.table.tc_session.engine.Engine.answer._5349ec06ad6c886c_.633.rel
	.long	.LT2b151fb5-.Lswitch.table.tc_session.engine.Engine.answer._5349ec06ad6c886c_.633.rel
	.long	.LT867c18b7-.Lswitch.table.tc_session.engine.Engine.answer._5349ec06ad6c886c_.633.rel
	.long	.LTc8167ab5-.Lswitch.table.tc_session.engine.Engine.answer._5349ec06ad6c886c_.633.rel
	.long	.LTd5773360-.Lswitch.table.tc_session.engine.Engine.answer._5349ec06ad6c886c_.633.rel
	.section	.rodata..Lswitch.table.tc_live.receiver.Receiver.perform_passed,"a",@progbits
.Lswitch.table.tc_live.receiver.Receiver.perform_passed:
	.ascii	"\b\t\n\013\f\r\020\021\022\023\016"
	.section	.rodata..Lswitch.table.core.fmt.formatter.Formatter.write_piece._bca9c74da7838be5,"a",@progbits
	.p2align	3
.Lswitch.table.core.fmt.formatter.Formatter.write_piece._bca9c74da7838be5:
	.quad	4
	.quad	4
	.quad	7
	.section	.data.rel.ro..Lswitch.table.core.fmt.formatter.Formatter.write_piece._bca9c74da7838be5_.636,"aw",@progbits
	.p2align	3
.Lswitch.table.core.fmt.formatter.Formatter.write_piece._bca9c74da7838be5_.636:
	.quad	.LT60ca1fe8
	.quad	.LT4c93fb2f
	.quad	.LT7cff9fca
	.section	.rodata..Lswitch.table.std.io.traits.Write.write_fmt._66d26946d4f3efb7,"a",@progbits
	.p2align	3
.Lswitch.table.std.io.traits.Write.write_fmt._66d26946d4f3efb7:
	.quad	15
	.quad	21
	.quad	10
	.quad	7
	.quad	8
	.quad	10
	.quad	14
	.quad	15
	.quad	11
	.quad	10
	.quad	10
	.quad	15
	.quad	18
	.quad	12
	.quad	9
	.quad	10
	.quad	7
	.quad	10
	.quad	9
	.quad	20
	.section	.data.rel.ro..Lswitch.table.std.io.traits.Write.write_fmt._66d26946d4f3efb7_.638,"aw",@progbits
	.p2align	3
.Lswitch.table.std.io.traits.Write.write_fmt._66d26946d4f3efb7_.638:
	.quad	.LTe8e39079
	.quad	.LT563a4948
	.quad	.LT9c610d29
	.quad	.LTede891d1
	.quad	.LT70f9d303
	.quad	.LT7e6618eb
	.quad	.LT2ff138a3
	.quad	.LTa83d2b9c
	.quad	.LTde87a2d9
	.quad	.LT4fb084ab
	.quad	.LT0e47d2c5
	.quad	.LTfcd4e876
	.quad	.LT76d26c4b
	.quad	.LT9b8b708f
	.quad	.LT11c32282
	.quad	.LT253fb48a
	.quad	.LT166e95ae
	.quad	.LTa9d7bd03
	.quad	.LTfa4ce404
	.quad	.LT821c8338
	.section	.rodata..Lswitch.table.tc_make.answer.answer._5349ec06ad6c886c,"a",@progbits
	.p2align	3
.Lswitch.table.tc_make.answer.answer._5349ec06ad6c886c:
	.quad	5
	.quad	7
	.quad	5
	.quad	6
	.quad	9
	.section	.data.rel.ro..Lswitch.table.tc_make.answer.answer._5349ec06ad6c886c_.639,"aw",@progbits
	.p2align	3
.Lswitch.table.tc_make.answer.answer._5349ec06ad6c886c_.639:
	.quad	.LT965043bc
	.quad	.LTb26077fb
	.quad	.LT3d45e432
	.quad	.LT36d2c83f
	.quad	.LTd923d116
	.section	.rodata.cst32,"aM",@progbits,32
	.p2align	3
.Lswitch.table.tc_make.explained.write_carried._5349ec06ad6c886c:
	.quad	10
	.quad	5
	.quad	4
	.quad	11
	.section	.data.rel.ro..Lswitch.table.tc_make.explained.write_carried._5349ec06ad6c886c_.640,"aw",@progbits
	.p2align	3
.Lswitch.table.tc_make.explained.write_carried._5349ec06ad6c886c_.640:
	.quad	.LTa72d789d
	.quad	.LT12a18633
	.quad	.LTe43cc0b9
	.quad	.LT2d6ed66d
	.section	.data.rel.ro..Lswitch.table.tc_make.printed.write_bad._5349ec06ad6c886c,"aw",@progbits
	.p2align	3
.Lswitch.table.tc_make.printed.write_bad._5349ec06ad6c886c:
	.quad	.LTa8644efb
	.quad	.LT1e10d2cb
	.quad	.LTbf0051a2
	.quad	.LT57b8e1ea
	.quad	.LT9292ad12
	.quad	.LTf2c99ef3
	.quad	.LTde300d99
	.quad	.LTa37e1f43
	.quad	.LTa2a1e7cd
	.quad	.LT866b37fb
	.quad	.LTc4ea4c11
	.quad	.LTc3215bf5
	.quad	.LTa29a9c5b
	.quad	.LTfab5c0bd
	.quad	.LTb956bf30
	.quad	.LT7d087273
	.section	.rodata..Lswitch.table.tc_make.printed.write_bad._5349ec06ad6c886c_.641,"a",@progbits
	.p2align	3
.Lswitch.table.tc_make.printed.write_bad._5349ec06ad6c886c_.641:
	.quad	21
	.quad	21
	.quad	18
	.quad	14
	.quad	15
	.quad	32
	.quad	11
	.quad	8
	.quad	8
	.quad	10
	.quad	19
	.quad	13
	.quad	15
	.quad	13
	.quad	9
	.quad	15
	.section	.rodata..Lswitch.table.tc_make.printed.write_bad._5349ec06ad6c886c_.642,"a",@progbits
	.p2align	3
.Lswitch.table.tc_make.printed.write_bad._5349ec06ad6c886c_.642:
	.quad	23
	.quad	23
	.quad	23
	.quad	0
	.quad	0
	.quad	23
	.quad	23
	.quad	23
	.quad	23
	.quad	23
	.quad	23
	.quad	23
	.quad	0
	.quad	23
	.quad	0
	.quad	23
	.section	.data.rel.ro..Lswitch.table.tc_make.printed.write_bad._5349ec06ad6c886c_.643,"aw",@progbits
	.p2align	3
.Lswitch.table.tc_make.printed.write_bad._5349ec06ad6c886c_.643:
	.quad	.LT466d4fd8
	.quad	.LT466d4fd8
	.quad	.LT466d4fd8
	.quad	.LTe3b0c442
	.quad	.LTe3b0c442
	.quad	.LT466d4fd8
	.quad	.LT466d4fd8
	.quad	.LT466d4fd8
	.quad	.LT466d4fd8
	.quad	.LT466d4fd8
	.quad	.LT466d4fd8
	.quad	.LT466d4fd8
	.quad	.LTe3b0c442
	.quad	.LT466d4fd8
	.quad	.LTe3b0c442
	.quad	.LT466d4fd8
	.section	.rodata..Lswitch.table.tc_make.printed.write_bounds._5349ec06ad6c886c,"a",@progbits
	.p2align	3
.Lswitch.table.tc_make.printed.write_bounds._5349ec06ad6c886c:
	.quad	17
	.quad	28
	.quad	14
	.quad	14
	.quad	36
	.quad	17
	.quad	19
	.quad	13
	.quad	14
	.quad	16
	.section	.data.rel.ro..Lswitch.table.tc_make.printed.write_bounds._5349ec06ad6c886c_.644,"aw",@progbits
	.p2align	3
.Lswitch.table.tc_make.printed.write_bounds._5349ec06ad6c886c_.644:
	.quad	.LT18fe9770
	.quad	.LTb684fe3b
	.quad	.LT4865b7f6
	.quad	.LT7249c412
	.quad	.LTd5d2e183
	.quad	.LT5b236900
	.quad	.LT8ca055ff
	.quad	.LTcb36ec02
	.quad	.LT07250bd6
	.quad	.LTeccb0222
	.section	.rodata..Lswitch.table.tc_make.printed.write_bounds._5349ec06ad6c886c_.645,"a",@progbits
	.p2align	3
.Lswitch.table.tc_make.printed.write_bounds._5349ec06ad6c886c_.645:
	.quad	10
	.quad	7
	.quad	8
	.quad	8
	.quad	14
	.quad	11
	.quad	7
	.quad	15
	.quad	9
	.quad	8
	.section	.rodata..Lswitch.table.tc_make.printed.write_bounds._5349ec06ad6c886c_.646.rel,"a",@progbits
	.p2align	2
.Lswitch.table.tc_make.printed.write_bounds._5349ec06ad6c886c_.646.rel:
	.long	.LT9c610d29-.Lswitch.table.tc_make.printed.write_bounds._5349ec06ad6c886c_.646.rel
	.long	.LTede891d1-.Lswitch.table.tc_make.printed.write_bounds._5349ec06ad6c886c_.646.rel
	.long	.LT003e77a4-.Lswitch.table.tc_make.printed.write_bounds._5349ec06ad6c886c_.646.rel
	.long	.LT7b2de264-.Lswitch.table.tc_make.printed.write_bounds._5349ec06ad6c886c_.646.rel
	.long	.LTe2322176-.Lswitch.table.tc_make.printed.write_bounds._5349ec06ad6c886c_.646.rel
	.long	.LTde87a2d9-.Lswitch.table.tc_make.printed.write_bounds._5349ec06ad6c886c_.646.rel
	.long	.LT166e95ae-.Lswitch.table.tc_make.printed.write_bounds._5349ec06ad6c886c_.646.rel
	.long	.LTfcd4e876-.Lswitch.table.tc_make.printed.write_bounds._5349ec06ad6c886c_.646.rel
	.long	.LT21ff08f0-.Lswitch.table.tc_make.printed.write_bounds._5349ec06ad6c886c_.646.rel
	.long	.LTf2f620b7-.Lswitch.table.tc_make.printed.write_bounds._5349ec06ad6c886c_.646.rel
	.section	.rodata..Lswitch.table.std.io.traits.Write.write_fmt._7427d210d622371f,"a",@progbits
	.p2align	3
.Lswitch.table.std.io.traits.Write.write_fmt._7427d210d622371f:
	.quad	19
	.quad	19
	.quad	25
	.quad	10
	.quad	7
	.quad	8
	.quad	8
	.quad	14
	.quad	11
	.quad	7
	.quad	15
	.quad	9
	.quad	8
	.quad	11
	.quad	17
	.quad	14
	.quad	13
	.section	.rodata..Lswitch.table.std.io.traits.Write.write_fmt._7427d210d622371f_.647.rel,"a",@progbits
	.p2align	2
.Lswitch.table.std.io.traits.Write.write_fmt._7427d210d622371f_.647.rel:
	.long	.LT84639798-.Lswitch.table.std.io.traits.Write.write_fmt._7427d210d622371f_.647.rel
	.long	.LT84639798-.Lswitch.table.std.io.traits.Write.write_fmt._7427d210d622371f_.647.rel
	.long	.LT1ef62a42-.Lswitch.table.std.io.traits.Write.write_fmt._7427d210d622371f_.647.rel
	.long	.LT9c610d29-.Lswitch.table.std.io.traits.Write.write_fmt._7427d210d622371f_.647.rel
	.long	.LTede891d1-.Lswitch.table.std.io.traits.Write.write_fmt._7427d210d622371f_.647.rel
	.long	.LT003e77a4-.Lswitch.table.std.io.traits.Write.write_fmt._7427d210d622371f_.647.rel
	.long	.LT7b2de264-.Lswitch.table.std.io.traits.Write.write_fmt._7427d210d622371f_.647.rel
	.long	.LTe2322176-.Lswitch.table.std.io.traits.Write.write_fmt._7427d210d622371f_.647.rel
	.long	.LTde87a2d9-.Lswitch.table.std.io.traits.Write.write_fmt._7427d210d622371f_.647.rel
	.long	.LT166e95ae-.Lswitch.table.std.io.traits.Write.write_fmt._7427d210d622371f_.647.rel
	.long	.LTfcd4e876-.Lswitch.table.std.io.traits.Write.write_fmt._7427d210d622371f_.647.rel
	.long	.LT21ff08f0-.Lswitch.table.std.io.traits.Write.write_fmt._7427d210d622371f_.647.rel
	.long	.LTf2f620b7-.Lswitch.table.std.io.traits.Write.write_fmt._7427d210d622371f_.647.rel
	.long	.LT6fc3e9ce-.Lswitch.table.std.io.traits.Write.write_fmt._7427d210d622371f_.647.rel
	.long	.LT0883e594-.Lswitch.table.std.io.traits.Write.write_fmt._7427d210d622371f_.647.rel
	.long	.LTf4264328-.Lswitch.table.std.io.traits.Write.write_fmt._7427d210d622371f_.647.rel
	.long	.LT36a7354e-.Lswitch.table.std.io.traits.Write.write_fmt._7427d210d622371f_.647.rel
	.section	.rodata..Lswitch.table.tc_c_base.status.code,"a",@progbits
	.p2align	2
.Lswitch.table.tc_c_base.status.code:
	.long	0
	.long	1
	.long	2
	.long	3
	.long	4
	.long	5
	.long	6
	.long	7
	.long	8
	.long	10
	.long	11
	.long	12
	.long	13
	.long	14
	.long	15
	.long	16
	.long	17
	.long	18
	.long	19
	.long	20
	.long	21
	.long	22
	.long	23
	.long	24
	.long	25
	.long	26
	.long	30
	.long	31
	.long	40
	.long	50
	.long	51
	.long	52
	.long	60
	.long	61
	.long	62
	.long	63
	.long	64
	.long	65
	.long	66
	.long	67
	.long	70
	.long	71
	.long	72
	.long	73
	.long	74
	.long	75
	.long	76
	.long	80
	.long	81
	.long	82
	.long	83
	.long	84
	.long	85
	.long	90
	.long	91
	.long	92
	.long	93
	.long	100
	.long	101
	.long	102
	.long	103
	.long	104
	.long	105
	.long	106
	.section	".note.GNU-stack","",@progbits
