	.section	.text.tc_c_base.status.code,"ax",@progbits
	.p2align	4
tc_c_base.status.code:
	movzbl	%dil, %eax
	leaq	.Lswitch.table.tc_c_base.status.code(%rip), %rcx
	movl	(%rcx,%rax,4), %eax
	retq
	.section	.text.tc_c.channel.tcrx_channel_frame_at,"ax",@progbits
	.p2align	4
tc_c.channel.tcrx_channel_frame_at:
	pushq	%rbp
	pushq	%r15
	pushq	%r14
	pushq	%r13
	pushq	%r12
	pushq	%rbx
	subq	$56, %rsp
	movq	%rdi, %rbx
	cmpb	$1, (%rsi)
	jne	890f
	movb	$1, %r10b
	cmpq	$5, %rcx
	jb	548f
	movzwl	(%rdx), %eax
	rolw	$8, %ax
	movzwl	%ax, %edi
	movb	$2, %r10b
	cmpl	$16383, %edi
	ja	548f
	movb	$3, %r10b
	testl	$3072, %eax
	jne	548f
	movzbl	2(%rdx), %r8d
	movzbl	3(%rdx), %r9d
	shll	$8, %r9d
	movzwl	%r8w, %r8d
	andl	$3, %r8d
	orl	%r8d, %r9d
	rolw	$8, %r9w
	movb	$4, %r10b
	cmpw	$5, %r9w
	jb	548f
	leal	1(%r9), %r8d
	movzwl	%r8w, %r8d
	movb	$5, %r10b
	cmpq	%r8, %rcx
	jae	928f
548:
	movzbl	%r10b, %edi
	callq	tc_c_base.status.code
	xorl	%ebp, %ebp
	jmp	83f
890:
	xorl	%ebp, %ebp
	movl	$70, %eax
83:
	xorl	%edx, %edx
	xorl	%ecx, %ecx
	xorl	%esi, %esi
	xorl	%edi, %edi
327:
	movl	%eax, (%rbx)
	movl	%ebp, 4(%rbx)
	movl	%edx, 8(%rbx)
	movb	%cl, 12(%rbx)
	movb	%sil, 13(%rbx)
	movb	%dil, 14(%rbx)
	movb	$0, 15(%rbx)
	addq	$56, %rsp
	popq	%rbx
	popq	%r12
	popq	%r13
	popq	%r14
	popq	%r15
	popq	%rbp
	retq
928:
	movq	8(%rsi), %r10
	cmpl	$8192, %edi
	jae	669f
	testl	$4096, %eax
	jne	409f
	movzbl	4(%rdx), %ecx
	movl	%ecx, %eax
	subb	90(%r10), %al
	jne	548f
	movq	128(%r10), %rax
	cmpq	112(%r10), %rax
	jae	949f
	cmpb	$0, 89(%r10)
	je	219f
	movb	$1, %cl
	jmp	83f
669:
	leaq	5(%rdx), %r14
	testl	$4096, %eax
	jne	969f
	leaq	-5(%r8), %r9
	movzbl	(%r14), %ecx
	movl	%ecx, %r13d
	andl	$63, %r13d
	cmpb	$1, 152(%r10)
	jne	972f
	shrb	$3, %cl
	andb	$24, %cl
	movl	$50462721, %eax
	shrl	%cl, %eax
	leaq	64(%r13), %r12
	addq	$6, %rdx
	addq	$-6, %r8
	movq	168(%r10), %rdi
	movq	%r12, %rsi
	movq	%rdx, %rcx
	movl	%eax, %edx
	movq	%r10, %r15
	movq	%r9, %rbp
	callq	tc_packet.runs.follow_at._0e1c90a670cc60a2
	movq	%r15, %r10
	testb	%al, %al
	je	284f
	movzbl	%al, %eax
	cmpl	$1, %eax
	jne	928f
	movq	%rbp, %r9
	jmp	850f
409:
	movb	$9, %cl
	jmp	83f
969:
	movb	$9, %cl
	cmpw	$7, %r9w
	je	868f
	movzwl	%r9w, %eax
	cmpl	$5, %eax
	jne	83f
	cmpb	$0, (%r14)
	jne	83f
	leaq	89(%r10), %rdi
	movq	%r10, %r14
	callq	tc_link.farm.unlock
	movq	%r14, %r10
	movb	$7, %cl
	jmp	83f
548:
	movzbl	88(%r10), %ecx
	shrb	%cl
	cmpb	%cl, %al
	jb	669f
	negb	%al
	cmpb	%al, %cl
	jb	740f
	movb	$4, %cl
	jmp	83f
972:
	cmpq	160(%r10), %r9
	jbe	890f
284:
	movzbl	94(%r10), %eax
	incb	%al
	andb	$3, %al
	movb	%al, 94(%r10)
	movb	$1, %sil
	movb	$6, %cl
	xorl	%ebp, %ebp
	xorl	%edx, %edx
	jmp	678f
868:
	cmpb	$-126, (%r14)
	jne	83f
	cmpb	$0, 6(%rdx)
	jne	83f
	movzbl	7(%rdx), %eax
	movzbl	94(%r10), %ecx
	incb	%cl
	andb	$3, %cl
	movb	%cl, 94(%r10)
	movzbl	89(%r10), %edx
	movb	$8, %cl
	cmpl	$2, %edx
	je	83f
	cmpl	$1, %edx
	jne	409f
	movb	$0, 89(%r10)
	movb	%al, 90(%r10)
	movw	$0, 92(%r10)
	jmp	83f
890:
	xorl	%eax, %eax
850:
	addq	%rax, %r14
	subq	%rax, %r9
	xorl	%r11d, %r11d
	jmp	859f
219:
	leaq	5(%rdx), %rsi
	addq	$-5, %r8
	incb	%cl
	movb	%cl, 90(%r10)
	movb	$0, 93(%r10)
	movq	104(%r10), %rcx
	addq	120(%r10), %rax
	xorl	%edi, %edi
	cmpq	%rcx, %rax
	cmovaeq	%rcx, %rdi
	movq	96(%r10), %rcx
	subq	%rdi, %rax
	shlq	$5, %rax
	movq	%r8, 24(%rcx,%rax)
	movq	(%rcx,%rax), %rdi
	movq	%rdi, %rax
	subq	%rsi, %rax
	cmpq	%r8, %rax
	jae	638f
	cmpl	$4, %r8d
	jae	961f
	xorl	%eax, %eax
	jmp	284f
928:
	movq	168(%r10), %rax
	leaq	(%r12,%r12,4), %rcx
	movq	8(%rax,%rcx,8), %r14
	movq	32(%rax,%rcx,8), %r9
	movb	$1, %r11b
859:
	movq	216(%r10), %r8
	movq	224(%r10), %rdi
	movq	240(%r10), %r15
	movq	248(%r10), %rax
	movzbl	%r13b, %ecx
	cmpq	%rcx, 272(%r10)
	jbe	211f
	movq	264(%r10), %rdx
	movzwl	(%rdx,%rcx,2), %r12d
	cmpq	%r12, %rax
	jbe	859f
	shll	$6, %r12d
928:
	movq	40(%r15,%r12), %rax
	cmpq	%rax, 24(%r15,%r12)
	jbe	981f
	movq	16(%r15,%r12), %rcx
	addq	32(%r15,%r12), %rax
	xorl	%edx, %edx
	cmpq	%rcx, %rax
	cmovaeq	%rcx, %rdx
	movq	8(%r15,%r12), %rcx
	subq	%rdx, %rax
	shlq	$5, %rax
	movq	%r9, 24(%rcx,%rax)
	movq	(%rcx,%rax), %rdi
	movq	%rdi, %rcx
	subq	%r14, %rcx
	cmpq	%r9, %rcx
	jae	648f
	xorl	%eax, %eax
	cmpq	$4, %r9
	jb	586f
	cmpq	$32, %rcx
	jb	586f
	cmpq	$32, %r9
	jae	966f
	xorl	%eax, %eax
	jmp	771f
211:
	testq	%rax, %rax
	je	859f
	xorl	%r12d, %r12d
129:
	cmpw	%cx, (%r15,%r12)
	je	928b
	addq	$64, %r12
	decq	%rax
	jne	129b
859:
	movq	%r13, 48(%rsp)
	cmpq	$7, %r9
	jae	890f
	xorl	%ebp, %ebp
	xorl	%r13d, %r13d
980:
	subq	%rbp, %r13
	testq	%r9, %r9
	movabsq	$4294967296, %rax
	cmoveq	%r9, %rax
	jmp	434f
890:
	xorl	%r13d, %r13d
	xorl	%ebp, %ebp
	movl	%r11d, 4(%rsp)
	movq	%rdi, 40(%rsp)
471:
	movzwl	(%r14), %ecx
	rolw	$8, %cx
	movzwl	%cx, %edx
	cmpl	$8191, %edx
	ja	980f
	movzwl	4(%r14), %eax
	rolw	$8, %ax
	movzwl	%ax, %eax
	leaq	7(%rax), %r12
	subq	%r12, %r9
	jb	980f
	cmpl	$4096, %edx
	jb	890f
	andl	$2047, %ecx
	movq	192(%r10), %rdx
	movq	%rdx, 8(%rsp)
	movq	200(%r10), %rdx
	movzwl	%cx, %esi
	cmpq	%rsi, %rdi
	jbe	211f
	movzwl	(%r8,%rsi,2), %r15d
	cmpq	%r15, %rdx
	jbe	890f
	shll	$6, %r15d
	movq	8(%rsp), %rsi
928:
	movq	40(%rsi,%r15), %rcx
	cmpq	%rcx, 24(%rsi,%r15)
	jbe	890f
	movq	16(%rsi,%r15), %rdx
	addq	32(%rsi,%r15), %rcx
	movq	%rsi, %rdi
	xorl	%esi, %esi
	cmpq	%rdx, %rcx
	cmovaeq	%rdx, %rsi
	movq	8(%rdi,%r15), %rdx
	subq	%rsi, %rcx
	shlq	$5, %rcx
	movq	%r12, 24(%rdx,%rcx)
	movq	(%rdx,%rcx), %rdi
	movq	%rdi, %rcx
	subq	%r14, %rcx
	cmpq	%r12, %rcx
	jae	928f
	cmpq	$32, %rcx
	jae	742f
	xorl	%ecx, %ecx
	jmp	859f
211:
	testq	%rdx, %rdx
	je	890f
	xorl	%r15d, %r15d
	movq	8(%rsp), %rsi
129:
	cmpw	(%rsi,%r15), %cx
	je	928b
	addq	$64, %r15
	decq	%rdx
	jne	129b
890:
	xorl	%eax, %eax
850:
	addq	%r12, %r14
	addq	%rax, %rbp
	incq	%r13
	cmpq	$6, %r9
	ja	471b
	jmp	980b
928:
	movq	%r14, %rsi
	movq	%r12, %rdx
	movq	%r10, 32(%rsp)
	movq	%r9, 24(%rsp)
	movq	%r8, 16(%rsp)
	callq	memmove@PLT
	movq	16(%rsp), %r8
	movl	4(%rsp), %r11d
	movq	24(%rsp), %r9
	movq	32(%rsp), %r10
	jmp	12f
742:
	cmpw	$25, %ax
	jae	186f
	xorl	%ecx, %ecx
	jmp	928f
186:
	movl	%r12d, %ecx
	andl	$-32, %ecx
	xorl	%edx, %edx
464:
	movups	(%r14,%rdx), %xmm0
	movups	16(%r14,%rdx), %xmm1
	movups	%xmm0, (%rdi,%rdx)
	movups	%xmm1, 16(%rdi,%rdx)
	addq	$32, %rdx
	cmpq	%rdx, %rcx
	jne	464b
	cmpl	%ecx, %r12d
	je	12f
	testb	$28, %r12b
	je	859f
928:
	movq	%rcx, %rdx
	movl	%r12d, %ecx
	andl	$-4, %ecx
186:
	movl	(%r14,%rdx), %esi
	movl	%esi, (%rdi,%rdx)
	addq	$4, %rdx
	cmpq	%rdx, %rcx
	jne	186b
	cmpl	%ecx, %r12d
	je	12f
859:
	movq	%r8, %r11
	movl	%eax, %esi
	andl	$3, %esi
	movq	%rcx, %rdx
	cmpl	$1, %esi
	je	300f
	leal	-1(%rax), %esi
	andl	$3, %esi
	movq	%rcx, %rdx
548:
	movzbl	(%r14,%rdx), %r8d
	movb	%r8b, (%rdi,%rdx)
	incq	%rdx
	decq	%rsi
	jne	548b
300:
	negq	%rcx
	addq	%rcx, %rax
	addq	$6, %rax
	cmpl	$3, %eax
	movq	%r11, %r8
	movl	4(%rsp), %r11d
	jb	12f
548:
	movzbl	(%r14,%rdx), %eax
	movb	%al, (%rdi,%rdx)
	movzbl	1(%r14,%rdx), %eax
	movb	%al, 1(%rdi,%rdx)
	movzbl	2(%r14,%rdx), %eax
	movb	%al, 2(%rdi,%rdx)
	movzbl	3(%r14,%rdx), %eax
	movb	%al, 3(%rdi,%rdx)
	addq	$4, %rdx
	cmpq	%rdx, %r12
	jne	548b
12:
	movq	8(%rsp), %rax
	incq	40(%rax,%r15)
	movl	$1, %eax
	movq	40(%rsp), %rdi
	jmp	850b
981:
	movl	$1, %edx
	xorl	%ebp, %ebp
	jmp	52f
638:
	movq	%r8, %rdx
	movq	%r10, %r14
	callq	memmove@PLT
	movq	%r14, %r10
	jmp	677f
980:
	subq	%rbp, %r13
	movabsq	$4294967296, %rax
434:
	movl	%r13d, %edx
	orq	%rax, %rdx
	movq	48(%rsp), %r13
	jmp	52f
648:
	movq	%r14, %rsi
	movq	%r9, %rdx
	movq	%r10, %r14
	movl	%r11d, %ebp
	callq	memmove@PLT
	movl	%ebp, %r11d
	movq	%r14, %r10
	jmp	629f
961:
	movq	%rdi, %rax
	subq	%rdx, %rax
	addq	$-5, %rax
	cmpq	$32, %rax
	jae	928f
	xorl	%eax, %eax
	jmp	284f
949:
	leaq	89(%r10), %rdi
	movq	%r10, %r14
	callq	tc_link.farm.full
	movq	%r14, %r10
	movb	$2, %cl
	jmp	83f
669:
	leaq	89(%r10), %rdi
	movq	%r10, %r14
	callq	tc_link.farm.ahead
	movq	%r14, %r10
	movb	$3, %cl
	jmp	83f
740:
	leaq	89(%r10), %rdi
	movq	%r10, %r14
	callq	tc_link.farm.outside
	movq	%r14, %r10
	movb	$5, %cl
	jmp	83f
928:
	movq	%r10, %r9
	cmpl	$32, %r8d
	jae	859f
	xorl	%eax, %eax
	jmp	12f
409:
	movb	%al, 90(%r10)
	movb	$0, 93(%r10)
83:
	xorl	%ebp, %ebp
	xorl	%edx, %edx
	xorl	%esi, %esi
678:
	movq	288(%r10), %rax
	cmpq	$-1, %rax
	je	928f
	incq	%rax
	movq	%rax, 288(%r10)
928:
	movq	%rdx, %rdi
	shrq	$32, %rdi
	xorl	%eax, %eax
	jmp	327b
966:
	movq	%r9, %rdx
	movq	%r9, %rax
	andq	$-32, %rax
	xorl	%ecx, %ecx
464:
	movups	(%r14,%rcx), %xmm0
	movups	16(%r14,%rcx), %xmm1
	movups	%xmm0, (%rdi,%rcx)
	movups	%xmm1, 16(%rdi,%rcx)
	addq	$32, %rcx
	cmpq	%rcx, %rax
	jne	464b
	cmpq	%rax, %rdx
	je	629f
	movq	%rdx, %r9
	testb	$28, %r9b
	je	586f
771:
	movq	%rax, %rcx
	movq	%r9, %rax
	andq	$-4, %rax
327:
	movl	(%r14,%rcx), %edx
	movl	%edx, (%rdi,%rcx)
	addq	$4, %rcx
	cmpq	%rcx, %rax
	jne	327b
	cmpq	%rax, %r9
	je	629f
586:
	movq	%r9, %rdx
	movq	%rax, %rcx
	andq	$3, %rdx
	je	980f
	movq	%rax, %rcx
548:
	movzbl	(%r14,%rcx), %esi
	movb	%sil, (%rdi,%rcx)
	incq	%rcx
	decq	%rdx
	jne	548b
980:
	subq	%r9, %rax
	cmpq	$-4, %rax
	ja	629f
548:
	movzbl	(%r14,%rcx), %eax
	movb	%al, (%rdi,%rcx)
	movzbl	1(%r14,%rcx), %eax
	movb	%al, 1(%rdi,%rcx)
	movzbl	2(%r14,%rcx), %eax
	movb	%al, 2(%rdi,%rcx)
	movzbl	3(%r14,%rcx), %eax
	movb	%al, 3(%rdi,%rcx)
	addq	$4, %rcx
	cmpq	%rcx, %r9
	jne	548b
629:
	incq	40(%r15,%r12)
	movl	$1, %ebp
	xorl	%edx, %edx
52:
	orb	$64, %r13b
	movzbl	%r13b, %eax
	movq	176(%r10), %rcx
	testb	%r11b, %r11b
	cmpq	%rax, %rcx
	jbe	548f
	movq	168(%r10), %rcx
	leaq	(%rax,%rax,4), %rax
	movb	$0, (%rcx,%rax,8)
548:
	movzbl	94(%r10), %eax
	incb	%al
	andb	$3, %al
	movb	%al, 94(%r10)
	movb	$1, %sil
	movb	$6, %cl
	jmp	678b
859:
	movq	%r8, %rax
	andq	$-32, %rax
	xorl	%ecx, %ecx
464:
	movups	5(%rdx,%rcx), %xmm0
	movups	21(%rdx,%rcx), %xmm1
	movups	%xmm0, (%rdi,%rcx)
	movups	%xmm1, 16(%rdi,%rcx)
	addq	$32, %rcx
	cmpq	%rcx, %rax
	jne	464b
	cmpl	%eax, %r8d
	movq	%r9, %r10
	je	677f
	testb	$28, %r8b
	je	284f
12:
	movq	%rax, %rcx
	movq	%r8, %rax
	andq	$-4, %rax
327:
	movl	(%rsi,%rcx), %edx
	movl	%edx, (%rdi,%rcx)
	addq	$4, %rcx
	cmpq	%rcx, %rax
	jne	327b
	cmpl	%eax, %r8d
	movq	%r9, %r10
	je	677f
284:
	movzbl	(%rsi,%rax), %ecx
	movb	%cl, (%rdi,%rax)
	incq	%rax
	cmpq	%rax, %r8
	jne	284b
677:
	incq	128(%r10)
	movb	$1, %cl
	xorl	%ebp, %ebp
	xorl	%edx, %edx
	movb	$1, %sil
	jmp	678b
	.section	.text.tc_packet.runs.follow_at._0e1c90a670cc60a2,"ax",@progbits
	.p2align	4
tc_packet.runs.follow_at._0e1c90a670cc60a2:
	pushq	%rbp
	pushq	%r15
	pushq	%r14
	pushq	%rbx
	pushq	%rax
	shlq	$3, %rsi
	leaq	(%rsi,%rsi,4), %rbx
	movzbl	%dl, %eax
	leaq	.LJ39d41116_0(%rip), %rdx
	movslq	(%rdx,%rax,4), %rax
	addq	%rdx, %rax
	jmpq	*%rax
972:
	cmpq	%r8, 16(%rdi,%rbx)
	jb	969f
	movq	%r8, 32(%rdi,%rbx)
	movq	8(%rdi,%rbx), %rax
	movq	%rax, %rsi
	subq	%rcx, %rsi
	cmpq	%r8, %rsi
	jae	859f
	xorl	%edx, %edx
	cmpq	$4, %r8
	jb	678f
	cmpq	$32, %rsi
	jb	678f
	cmpq	$32, %r8
	jae	648f
	xorl	%edx, %edx
	jmp	961f
868:
	cmpb	$1, (%rdi,%rbx)
	jne	969f
	movq	16(%rdi,%rbx), %rdx
	movl	4(%rdi,%rbx), %eax
	subq	%rax, %rdx
	cmpq	%r8, %rdx
	jb	969f
	movq	32(%rdi,%rbx), %rdx
	cmpq	%rax, %rdx
	jbe	928f
	movq	%rax, 32(%rdi,%rbx)
	movq	%rax, %rdx
928:
	movq	8(%rdi,%rbx), %rsi
	leaq	(%rsi,%rdx), %rax
	movq	%rax, %r9
	subq	%rcx, %r9
	cmpq	%r8, %r9
	jae	638f
	cmpq	$4, %r8
	jb	890f
	cmpq	$32, %r9
	jae	489f
890:
	xorl	%r9d, %r9d
928:
	movq	%r8, %r11
	movq	%r9, %r10
	andq	$3, %r11
	je	980f
	movq	%r9, %r10
	.p2align	4
548:
	movzbl	(%rcx,%r10), %ebp
	movb	%bpl, (%rax,%r10)
	incq	%r10
	decq	%r11
	jne	548b
980:
	subq	%r8, %r9
	cmpq	$-4, %r9
	ja	880f
	leaq	(%rdx,%rsi), %rax
	addq	$3, %rax
	.p2align	4
548:
	movzbl	(%rcx,%r10), %edx
	movb	%dl, -3(%rax,%r10)
	movzbl	1(%rcx,%r10), %edx
	movb	%dl, -2(%rax,%r10)
	movzbl	2(%rcx,%r10), %edx
	movb	%dl, -1(%rax,%r10)
	movzbl	3(%rcx,%r10), %edx
	movb	%dl, (%rax,%r10)
	addq	$4, %r10
	cmpq	%r10, %r8
	jne	548b
	jmp	880f
409:
	movb	$1, %al
	cmpq	16(%rdi,%rbx), %r8
	ja	969f
	jmp	850f
198:
	cmpb	$1, (%rdi,%rbx)
	jne	969f
	movq	16(%rdi,%rbx), %rdx
	movl	4(%rdi,%rbx), %eax
	subq	%rax, %rdx
	cmpq	%r8, %rdx
	jae	12f
969:
	movb	$0, (%rdi,%rbx)
890:
	xorl	%eax, %eax
850:
	addq	$8, %rsp
	popq	%rbx
	popq	%r14
	popq	%r15
	popq	%rbp
	retq
859:
	movq	%rdi, %r14
	movq	%rax, %rdi
	movq	%rcx, %rsi
	movq	%r8, %rdx
	movq	%r8, %r15
	callq	memmove@PLT
	movq	%r15, %r8
	movq	%r14, %rdi
	jmp	969f
12:
	movq	32(%rdi,%rbx), %rdx
	cmpq	%rax, %rdx
	jbe	859f
	movq	%rax, 32(%rdi,%rbx)
	movq	%rax, %rdx
859:
	movq	8(%rdi,%rbx), %rsi
	leaq	(%rsi,%rdx), %rax
	movq	%rax, %r9
	subq	%rcx, %r9
	cmpq	%r8, %r9
	jae	12f
	cmpq	$4, %r8
	jb	83f
	cmpq	$32, %r9
	jae	778f
83:
	xorl	%r9d, %r9d
859:
	movq	%r8, %r11
	movq	%r9, %r10
	andq	$3, %r11
	je	980f
	movq	%r9, %r10
	.p2align	4
548:
	movzbl	(%rcx,%r10), %ebp
	movb	%bpl, (%rax,%r10)
	incq	%r10
	decq	%r11
	jne	548b
980:
	subq	%r8, %r9
	cmpq	$-4, %r9
	ja	850f
	leaq	(%rdx,%rsi), %rax
	addq	$3, %rax
	.p2align	4
548:
	movzbl	(%rcx,%r10), %edx
	movb	%dl, -3(%rax,%r10)
	movzbl	1(%rcx,%r10), %edx
	movb	%dl, -2(%rax,%r10)
	movzbl	2(%rcx,%r10), %edx
	movb	%dl, -1(%rax,%r10)
	movzbl	3(%rcx,%r10), %edx
	movb	%dl, (%rax,%r10)
	addq	$4, %r10
	cmpq	%r10, %r8
	jne	548b
	jmp	850f
638:
	movq	%rdi, %r14
	movq	%rax, %rdi
	movq	%rcx, %rsi
	movq	%r8, %rdx
	movq	%r8, %r15
	callq	memmove@PLT
	movq	%r15, %r8
	movq	%r14, %rdi
880:
	addq	%r8, 32(%rdi,%rbx)
	movb	$2, %al
	jmp	850b
12:
	movq	%rdi, %r14
	movq	%rax, %rdi
	movq	%rcx, %rsi
	movq	%r8, %rdx
	movq	%r8, %r15
	callq	memmove@PLT
	movq	%r15, %r8
	movq	%r14, %rdi
850:
	addq	32(%rdi,%rbx), %r8
	movq	%r8, 32(%rdi,%rbx)
	movl	%r8d, 4(%rdi,%rbx)
	jmp	890b
648:
	movq	%r8, %rdx
	andq	$-32, %rdx
	xorl	%esi, %esi
	.p2align	4
464:
	movups	(%rcx,%rsi), %xmm0
	movups	16(%rcx,%rsi), %xmm1
	movups	%xmm0, (%rax,%rsi)
	movups	%xmm1, 16(%rax,%rsi)
	addq	$32, %rsi
	cmpq	%rsi, %rdx
	jne	464b
	cmpq	%rdx, %r8
	je	969f
	testb	$28, %r8b
	je	678f
961:
	movq	%rdx, %rsi
	movq	%r8, %rdx
	andq	$-4, %rdx
	.p2align	4
327:
	movl	(%rcx,%rsi), %r9d
	movl	%r9d, (%rax,%rsi)
	addq	$4, %rsi
	cmpq	%rsi, %rdx
	jne	327b
	cmpq	%rdx, %r8
	je	969f
678:
	movq	%r8, %r9
	movq	%rdx, %rsi
	andq	$3, %r9
	je	980f
	movq	%rdx, %rsi
	.p2align	4
548:
	movzbl	(%rcx,%rsi), %r10d
	movb	%r10b, (%rax,%rsi)
	incq	%rsi
	decq	%r9
	jne	548b
980:
	subq	%r8, %rdx
	cmpq	$-4, %rdx
	ja	969f
	.p2align	4
548:
	movzbl	(%rcx,%rsi), %edx
	movb	%dl, (%rax,%rsi)
	movzbl	1(%rcx,%rsi), %edx
	movb	%dl, 1(%rax,%rsi)
	movzbl	2(%rcx,%rsi), %edx
	movb	%dl, 2(%rax,%rsi)
	movzbl	3(%rcx,%rsi), %edx
	movb	%dl, 3(%rax,%rsi)
	addq	$4, %rsi
	cmpq	%rsi, %r8
	jne	548b
969:
	movb	$1, (%rdi,%rbx)
	movl	%r8d, 4(%rdi,%rbx)
	jmp	890b
489:
	cmpq	$32, %r8
	jae	12f
	xorl	%r9d, %r9d
	jmp	638f
778:
	cmpq	$32, %r8
	jae	928f
	xorl	%r9d, %r9d
	jmp	648f
12:
	movq	%r8, %r9
	andq	$-32, %r9
	leaq	(%rdx,%rsi), %r10
	addq	$16, %r10
	xorl	%r11d, %r11d
464:
	movups	(%rcx,%r11), %xmm0
	movups	16(%rcx,%r11), %xmm1
	movups	%xmm0, -16(%r10,%r11)
	movups	%xmm1, (%r10,%r11)
	addq	$32, %r11
	cmpq	%r11, %r9
	jne	464b
	cmpq	%r9, %r8
	je	880b
	testb	$28, %r8b
	je	928b
638:
	movq	%r9, %r10
	movq	%r8, %r9
	andq	$-4, %r9
327:
	movl	(%rcx,%r10), %r11d
	movl	%r11d, (%rax,%r10)
	addq	$4, %r10
	cmpq	%r10, %r9
	jne	327b
	cmpq	%r9, %r8
	je	880b
	jmp	928b
928:
	movq	%r8, %r9
	andq	$-32, %r9
	leaq	(%rdx,%rsi), %r10
	addq	$16, %r10
	xorl	%r11d, %r11d
464:
	movups	(%rcx,%r11), %xmm0
	movups	16(%rcx,%r11), %xmm1
	movups	%xmm0, -16(%r10,%r11)
	movups	%xmm1, (%r10,%r11)
	addq	$32, %r11
	cmpq	%r11, %r9
	jne	464b
	cmpq	%r9, %r8
	je	850b
	testb	$28, %r8b
	je	859b
648:
	movq	%r9, %r10
	movq	%r8, %r9
	andq	$-4, %r9
327:
	movl	(%rcx,%r10), %r11d
	movl	%r11d, (%rax,%r10)
	addq	$4, %r10
	cmpq	%r10, %r9
	jne	327b
	cmpq	%r9, %r8
	je	850b
	jmp	859b
	.section	.rodata.tc_packet.runs.follow_at._0e1c90a670cc60a2,"a",@progbits
	.p2align	2
.LJ39d41116_0:
	.long	972b-.LJ39d41116_0
	.long	198b-.LJ39d41116_0
	.long	868b-.LJ39d41116_0
	.long	409b-.LJ39d41116_0
	.section	.text.unlikely.tc_link.farm.full,"ax",@progbits
	.p2align	4
tc_link.farm.full:
	cmpb	$0, (%rdi)
	je	409f
	retq
409:
	movb	$1, (%rdi)
	movw	$257, 3(%rdi)
	retq
	.section	.text.unlikely.tc_link.farm.ahead,"ax",@progbits
	.p2align	4
tc_link.farm.ahead:
	cmpb	$0, (%rdi)
	je	409f
	retq
409:
	movb	$1, 4(%rdi)
	retq
	.section	.text.unlikely.tc_link.farm.outside,"ax",@progbits
	.p2align	4
tc_link.farm.outside:
	movzbl	(%rdi), %eax
	cmpl	$2, %eax
	je	5f
	cmpl	$1, %eax
	movb	$2, (%rdi)
	movb	$1, 2(%rdi)
5:
	retq
	.section	.text.tc_link.farm.unlock,"ax",@progbits
	.p2align	4
tc_link.farm.unlock:
	movzbl	5(%rdi), %eax
	incb	%al
	andb	$3, %al
	movb	%al, 5(%rdi)
	movb	$0, 4(%rdi)
	movzbl	(%rdi), %eax
	testl	%eax, %eax
	je	5f
	cmpl	$2, %eax
	jne	409f
	movb	$0, (%rdi)
	movw	$0, 2(%rdi)
5:
	retq
409:
	movb	$0, (%rdi)
	movb	$0, 3(%rdi)
	retq
	.section	.text.circular_buffer.heap.HeapCircularBuffer.drop._e2a004e41971e60f,"ax",@progbits
	.p2align	4
circular_buffer.heap.HeapCircularBuffer.drop._e2a004e41971e60f:
	pushq	%rbp
	pushq	%r15
	pushq	%r14
	pushq	%r13
	pushq	%r12
	pushq	%rbx
	pushq	%rax
	movq	(%rdi), %rbx
	movq	16(%rdi), %r14
	testq	%r14, %r14
	je	928f
	movq	8(%rdi), %r15
	movq	24(%rdi), %rax
	xorl	%ecx, %ecx
	cmpq	%r15, %rax
	cmovaeq	%r15, %rcx
	movq	%rax, %rdx
	subq	%rcx, %rdx
	movq	%r15, %r12
	subq	%rdx, %r12
	cmpq	%r14, %r12
	cmovaeq	%r14, %r12
	subq	%rdx, %r15
	jne	682f
972:
	cmpq	%r15, %r14
	jbe	928f
	subq	%r12, %r14
	leaq	16(%rbx), %r15
	jmp	489f
	.p2align	4
850:
	addq	$32, %r15
	decq	%r14
	je	928f
489:
	cmpq	$0, (%r15)
	je	850b
	movq	-16(%r15), %rdi
	callq	rattle_dealloc@PLT
	jmp	850b
928:
	movq	%rbx, %rdi
	addq	$8, %rsp
	popq	%rbx
	popq	%r12
	popq	%r13
	popq	%r14
	popq	%r15
	popq	%rbp
	jmp	rattle_dealloc@PLT
682:
	shlq	$5, %rax
	shlq	$5, %rcx
	subq	%rcx, %rax
	leaq	(%rbx,%rax), %r13
	addq	$16, %r13
	movq	%r12, %rbp
	jmp	972f
	.p2align	4
850:
	addq	$32, %r13
	decq	%rbp
	je	972b
972:
	cmpq	$0, (%r13)
	je	850b
	movq	-16(%r13), %rdi
	callq	rattle_dealloc@PLT
	jmp	850b
	.section	.text.std_alloc.vec.Vec.drop._f15ea28f165ebcb3,"ax",@progbits
	.p2align	4
std_alloc.vec.Vec.drop._f15ea28f165ebcb3:
	pushq	%r15
	pushq	%r14
	pushq	%r12
	pushq	%rbx
	pushq	%rax
	movq	(%rdi), %rbx
	movq	8(%rdi), %r15
	movq	16(%rdi), %r14
	testq	%r15, %r15
	je	211f
	leaq	24(%rbx), %r12
	jmp	972f
	.p2align	4
850:
	addq	$40, %r12
	decq	%r15
	je	211f
972:
	cmpq	$0, (%r12)
	je	850b
	movq	-16(%r12), %rdi
	callq	rattle_dealloc@PLT
	jmp	850b
211:
	testq	%r14, %r14
	je	850f
	movq	%rbx, %rdi
	addq	$8, %rsp
	popq	%rbx
	popq	%r12
	popq	%r14
	popq	%r15
	jmp	rattle_dealloc@PLT
850:
	addq	$8, %rsp
	popq	%rbx
	popq	%r12
	popq	%r14
	popq	%r15
	retq
	.section	.text.std_alloc.vec.Vec.drop._d9a1838fed3faa39,"ax",@progbits
	.p2align	4
std_alloc.vec.Vec.drop._d9a1838fed3faa39:
	pushq	%rbp
	pushq	%r15
	pushq	%r14
	pushq	%r13
	pushq	%r12
	pushq	%rbx
	subq	$40, %rsp
	movq	(%rdi), %r15
	movq	8(%rdi), %rcx
	movq	16(%rdi), %rax
	movq	%rax, 16(%rsp)
	movq	%rcx, 32(%rsp)
	testq	%rcx, %rcx
	je	778f
	xorl	%r13d, %r13d
	movq	%r15, 24(%rsp)
	jmp	859f
	.p2align	4
928:
	movq	%rbx, %rdi
	callq	rattle_dealloc@PLT
	incq	%r13
	cmpq	32(%rsp), %r13
	je	778f
859:
	movq	%r13, %rax
	shlq	$6, %rax
	movq	8(%r15,%rax), %rbx
	movq	24(%r15,%rax), %rbp
	testq	%rbp, %rbp
	je	928b
	movq	%rbx, 8(%rsp)
	movq	16(%r15,%rax), %rbx
	movq	32(%r15,%rax), %rax
	xorl	%ecx, %ecx
	cmpq	%rbx, %rax
	cmovaeq	%rbx, %rcx
	movq	%rax, %rdx
	subq	%rcx, %rdx
	movq	%rbx, %r12
	subq	%rdx, %r12
	cmpq	%rbp, %r12
	cmovaeq	%rbp, %r12
	subq	%rdx, %rbx
	jne	682f
972:
	cmpq	%rbx, %rbp
	movq	24(%rsp), %r15
	movq	8(%rsp), %rbx
	jbe	928b
	subq	%r12, %rbp
	leaq	16(%rbx), %r14
	jmp	489f
	.p2align	4
850:
	addq	$32, %r14
	decq	%rbp
	je	928b
489:
	cmpq	$0, (%r14)
	je	850b
	movq	-16(%r14), %rdi
	callq	rattle_dealloc@PLT
	jmp	850b
	.p2align	4
682:
	shlq	$5, %rax
	shlq	$5, %rcx
	subq	%rcx, %rax
	movq	8(%rsp), %rcx
	leaq	(%rcx,%rax), %r14
	addq	$16, %r14
	movq	%r12, %r15
	jmp	972f
	.p2align	4
850:
	addq	$32, %r14
	decq	%r15
	je	972b
972:
	cmpq	$0, (%r14)
	je	850b
	movq	-16(%r14), %rdi
	callq	rattle_dealloc@PLT
	jmp	850b
778:
	cmpq	$0, 16(%rsp)
	je	850f
	movq	%r15, %rdi
	addq	$40, %rsp
	popq	%rbx
	popq	%r12
	popq	%r13
	popq	%r14
	popq	%r15
	popq	%rbp
	jmp	rattle_dealloc@PLT
850:
	addq	$40, %rsp
	popq	%rbx
	popq	%r12
	popq	%r13
	popq	%r14
	popq	%r15
	popq	%rbp
	retq
	.section	.text.tc_queues.settings.LentSettings.check,"ax",@progbits
	.p2align	4
tc_queues.settings.LentSettings.check:
	cmpb	$63, (%rdi)
	ja	409f
	movzbl	1(%rdi), %ecx
	leal	-2(%rcx), %eax
	cmpb	$-3, %al
	setae	%dl
	movb	$1, %al
	orb	%cl, %dl
	testb	$1, %dl
	jne	969f
	movzbl	2(%rdi), %ecx
	addb	$-65, %cl
	movb	$2, %dl
	cmpb	$-64, %cl
	jb	5f
	pushq	%r15
	pushq	%r14
	pushq	%r13
	pushq	%r12
	pushq	%rbx
	subq	$2048, %rsp
	movl	4(%rdi), %ebx
	movq	8(%rdi), %r12
	movq	16(%rdi), %r13
	movq	24(%rdi), %r15
	movq	32(%rdi), %r14
	xorl	%ecx, %ecx
	.p2align	4
972:
	cmpq	%rcx, %r13
	je	669f
	cmpw	$2047, (%r12,%rcx,4)
	leaq	1(%rcx), %rcx
	jb	972b
	movb	$3, %dl
	jmp	850f
409:
	movb	$1, %al
	xorl	%edx, %edx
5:
	retq
969:
	movb	$1, %dl
	retq
669:
	leaq	1(%rsp), %rdi
	movl	$2047, %edx
	xorl	%esi, %esi
	callq	memset@PLT
	testq	%r13, %r13
	je	409f
	xorl	%ecx, %ecx
	movb	$1, %al
	.p2align	4
471:
	movzwl	(%r12,%rcx,4), %edx
	cmpb	$0, 1(%rsp,%rdx)
	jne	969f
	movb	$1, 1(%rsp,%rdx)
	incq	%rcx
	cmpq	%rcx, %r13
	jne	471b
	jmp	890f
409:
	movb	$1, %al
890:
	xorl	%ecx, %ecx
	.p2align	4
972:
	cmpq	%rcx, %r13
	je	890f
	movzwl	2(%r12,%rcx,4), %edx
	decl	%edx
	movzwl	%dx, %esi
	incq	%rcx
	movb	$5, %dl
	cmpl	$256, %esi
	jb	972b
	jmp	850f
890:
	xorl	%ecx, %ecx
	.p2align	4
972:
	cmpq	%rcx, %r14
	je	211f
	cmpb	$64, (%r15,%rcx,4)
	leaq	1(%rcx), %rcx
	movb	$6, %dl
	jb	972b
	jmp	850f
969:
	movb	$4, %dl
850:
	addq	$2048, %rsp
	popq	%rbx
	popq	%r12
	popq	%r13
	popq	%r14
	popq	%r15
	retq
211:
	testq	%r14, %r14
	je	890f
	xorl	%ecx, %ecx
548:
	movzbl	(%r15,%rcx,4), %esi
	xorl	%edi, %edi
	.p2align	4
972:
	cmpq	%rdi, %rcx
	je	629f
	movb	$7, %dl
	cmpb	%sil, (%r15,%rdi,4)
	leaq	1(%rdi), %rdi
	jne	972b
	jmp	850b
629:
	incq	%rcx
	cmpq	%r14, %rcx
	jne	548b
890:
	xorl	%ecx, %ecx
972:
	cmpq	%rcx, %r14
	je	211f
	movzwl	2(%r15,%rcx,4), %edx
	decl	%edx
	movzwl	%dx, %esi
	incq	%rcx
	movb	$8, %dl
	cmpl	$256, %esi
	jb	972b
	jmp	850b
211:
	testq	%r14, %r14
	sete	%al
	orb	%al, %bl
	xorl	%eax, %eax
	testb	$1, %bl
	sete	%al
	leal	(%rax,%rax,8), %edx
	notb	%bl
	andb	$1, %bl
	movl	%ebx, %eax
	jmp	850b
	.section	.text.tc_queues.settings.LentSettings.copied,"ax",@progbits
	.p2align	4
tc_queues.settings.LentSettings.copied:
	pushq	%rbp
	pushq	%r15
	pushq	%r14
	pushq	%r13
	pushq	%r12
	pushq	%rbx
	subq	$40, %rsp
	movq	%rdi, %rbx
	movss	(%rsi), %xmm0
	movaps	%xmm0, 16(%rsp)
	movzbl	4(%rsi), %eax
	movb	%al, 3(%rsp)
	movq	8(%rsi), %r12
	movq	16(%rsi), %rbp
	movq	24(%rsi), %r15
	movq	32(%rsi), %rax
	movq	%rax, 8(%rsp)
	testq	%rbp, %rbp
	je	669f
	movabsq	$2305843009213693944, %rax
	addq	$8, %rax
	cmpq	%rax, %rbp
	jae	409f
	leaq	(,%rbp,4), %r13
	movl	$2, %esi
	movq	%r13, %rdi
	callq	rattle_alloc@PLT
	movq	8(%rsp), %rdi
	movq	%rdx, %r14
	movabsq	$2305843009213693944, %rdx
	testb	$1, %al
	je	409f
	movq	%r14, %rax
	subq	%r12, %rax
	cmpq	%r13, %rax
	jae	859f
	xorl	%eax, %eax
	cmpq	$8, %rbp
	jb	928f
	movq	%r14, %rcx
	subq	%r12, %rcx
	cmpq	$32, %rcx
	jb	928f
	movq	%rdx, %rax
	andq	%rbp, %rax
	leaq	(,%rbp,4), %rdx
	movabsq	$9223372036854775776, %rcx
	andq	%rdx, %rcx
	xorl	%edx, %edx
	.p2align	4
464:
	movups	(%r12,%rdx), %xmm0
	movups	16(%r12,%rdx), %xmm1
	movups	%xmm0, (%r14,%rdx)
	movups	%xmm1, 16(%r14,%rdx)
	addq	$32, %rdx
	cmpq	%rdx, %rcx
	jne	464b
	cmpq	%rax, %rbp
	je	211f
928:
	movq	%rbp, %rdx
	movq	%rax, %rcx
	andq	$3, %rdx
	je	980f
	movq	%rax, %rcx
	.p2align	4
327:
	movl	(%r12,%rcx,4), %esi
	movl	%esi, (%r14,%rcx,4)
	incq	%rcx
	decq	%rdx
	jne	327b
980:
	subq	%rbp, %rax
	cmpq	$-4, %rax
	ja	211f
	.p2align	4
327:
	movl	(%r12,%rcx,4), %eax
	movl	%eax, (%r14,%rcx,4)
	movl	4(%r12,%rcx,4), %eax
	movl	%eax, 4(%r14,%rcx,4)
	movl	8(%r12,%rcx,4), %eax
	movl	%eax, 8(%r14,%rcx,4)
	movl	12(%r12,%rcx,4), %eax
	movl	%eax, 12(%r14,%rcx,4)
	addq	$4, %rcx
	cmpq	%rcx, %rbp
	jne	327b
	jmp	211f
409:
	movb	$1, (%rbx)
	xorps	%xmm0, %xmm0
	movups	%xmm0, 8(%rbx)
	movups	%xmm0, 24(%rbx)
	movups	%xmm0, 40(%rbx)
	movq	$0, 56(%rbx)
	jmp	850f
669:
	leaq	2(%rsp), %r14
	xorl	%r13d, %r13d
859:
	movq	%r14, %rdi
	movq	%r12, %rsi
	movq	%r13, %rdx
	callq	memmove@PLT
	movq	8(%rsp), %rdi
211:
	testq	%rdi, %rdi
	je	669f
	movabsq	$2305843009213693944, %rax
	addq	$8, %rax
	cmpq	%rax, %rdi
	jae	409f
	leaq	(,%rdi,4), %r13
	movl	$2, %esi
	movq	%r13, %rdi
	callq	rattle_alloc@PLT
	movq	8(%rsp), %rdi
	movq	%rdx, %r12
	movabsq	$2305843009213693944, %rdx
	testb	$1, %al
	je	409f
	movq	%r12, %rax
	subq	%r15, %rax
	cmpq	%r13, %rax
	jae	859f
	xorl	%eax, %eax
	cmpq	$8, %rdi
	jb	928f
	movq	%r12, %rcx
	subq	%r15, %rcx
	cmpq	$32, %rcx
	jb	928f
	movq	%rdx, %rax
	andq	%rdi, %rax
	leaq	(,%rdi,4), %rdx
	movabsq	$9223372036854775776, %rcx
	andq	%rdx, %rcx
	xorl	%edx, %edx
	.p2align	4
464:
	movups	(%r15,%rdx), %xmm0
	movups	16(%r15,%rdx), %xmm1
	movups	%xmm0, (%r12,%rdx)
	movups	%xmm1, 16(%r12,%rdx)
	addq	$32, %rdx
	cmpq	%rdx, %rcx
	jne	464b
	cmpq	%rax, %rdi
	je	548f
928:
	movq	%rdi, %rdx
	movq	%rax, %rcx
	andq	$3, %rdx
	je	980f
	movq	%rax, %rcx
	.p2align	4
327:
	movl	(%r15,%rcx,4), %esi
	movl	%esi, (%r12,%rcx,4)
	incq	%rcx
	decq	%rdx
	jne	327b
980:
	subq	%rdi, %rax
	cmpq	$-4, %rax
	ja	548f
	.p2align	4
327:
	movl	(%r15,%rcx,4), %eax
	movl	%eax, (%r12,%rcx,4)
	movl	4(%r15,%rcx,4), %eax
	movl	%eax, 4(%r12,%rcx,4)
	movl	8(%r15,%rcx,4), %eax
	movl	%eax, 8(%r12,%rcx,4)
	movl	12(%r15,%rcx,4), %eax
	movl	%eax, 12(%r12,%rcx,4)
	addq	$4, %rcx
	cmpq	%rcx, %rdi
	jne	327b
	jmp	548f
409:
	movb	$0, 6(%rsp)
	movw	$0, 4(%rsp)
	testq	%rbp, %rbp
	je	409f
	movq	%r14, %rdi
	callq	rattle_dealloc@PLT
409:
	movb	$1, (%rbx)
	movl	$0, 8(%rbx)
	movb	$0, 12(%rbx)
	movzwl	4(%rsp), %eax
	movw	%ax, 13(%rbx)
	movzbl	6(%rsp), %eax
	movb	%al, 15(%rbx)
	xorps	%xmm0, %xmm0
	movups	%xmm0, 16(%rbx)
	movups	%xmm0, 32(%rbx)
	movups	%xmm0, 48(%rbx)
	jmp	850f
669:
	leaq	2(%rsp), %r12
	xorl	%r13d, %r13d
859:
	movq	%r12, %rdi
	movq	%r15, %rsi
	movq	%r13, %rdx
	callq	memmove@PLT
	movq	8(%rsp), %rdi
548:
	movzbl	3(%rsp), %eax
	andb	$1, %al
	movb	$0, (%rbx)
	movaps	16(%rsp), %xmm0
	movss	%xmm0, 8(%rbx)
	movb	%al, 12(%rbx)
	movw	$0, 13(%rbx)
	movb	$0, 15(%rbx)
	movq	%r14, 16(%rbx)
	movq	%rbp, 24(%rbx)
	movq	%rbp, 32(%rbx)
	movq	%r12, 40(%rbx)
	movq	%rdi, 48(%rbx)
	movq	%rdi, 56(%rbx)
850:
	addq	$40, %rsp
	popq	%rbx
	popq	%r12
	popq	%r13
	popq	%r14
	popq	%r15
	popq	%rbp
	retq
	.section	.rodata.cst16,"aM",@progbits,16
	.p2align	4
.LCebaae86d_0:
	.long	2147483648
	.long	2147483648
	.long	2147483648
	.long	2147483648
	.section	.text.tc_fixed.channel.start._2310a0e7207bbbe1,"ax",@progbits
	.p2align	4
tc_fixed.channel.start._2310a0e7207bbbe1:
	pushq	%rbp
	pushq	%r15
	pushq	%r14
	pushq	%r13
	pushq	%r12
	pushq	%rbx
	subq	$1768, %rsp
	movq	%rdi, %r12
	movss	(%rsi), %xmm0
	movaps	%xmm0, 192(%rsp)
	movzbl	1(%rsi), %eax
	movq	%rax, 88(%rsp)
	movzbl	4(%rsi), %ecx
	movq	8(%rsi), %rax
	movq	%rax, 152(%rsp)
	movq	16(%rsi), %rax
	movq	%rax, 184(%rsp)
	movq	24(%rsi), %r15
	movq	32(%rsi), %rax
	movq	%rax, 144(%rsp)
	movq	40(%rsi), %rax
	movq	%rax, 112(%rsp)
	movq	48(%rsi), %rbx
	movq	(%rdx), %xmm0
	movdqa	%xmm0, 720(%rsp)
	movl	(%rdx), %ebp
	movq	8(%rdx), %r14
	movq	16(%rdx), %r13
	movq	24(%rdx), %rax
	movq	%rax, 160(%rsp)
	movzbl	7(%rsi), %eax
	movb	%al, 62(%rsp)
	movzwl	5(%rsi), %eax
	movw	%ax, 60(%rsp)
	movb	%cl, 15(%rsp)
	cmpb	$1, %cl
	jne	669f
	leaq	208(%rsp), %rdi
	movl	$512, %edx
	xorl	%esi, %esi
	callq	memset@PLT
	testq	%r13, %r13
	je	859f
	xorl	%eax, %eax
	jmp	890f
	.p2align	4
327:
	movl	4(%r14,%rcx,8), %ecx
186:
	movl	%ecx, %ecx
	movq	%rcx, 208(%rsp,%rax,8)
	incq	%rax
	cmpq	$64, %rax
	je	12f
890:
	xorl	%ecx, %ecx
	.p2align	4
868:
	cmpb	%al, (%r14,%rcx,8)
	je	327b
	incq	%rcx
	cmpq	%rcx, %r13
	jne	868b
	movl	%ebp, %ecx
	jmp	186b
669:
	leaq	8(%rsp), %rax
	movq	%rax, 64(%rsp)
	movq	$0, 96(%rsp)
	movq	%rbp, 176(%rsp)
	xorl	%eax, %eax
	testq	%r13, %r13
	movq	%r15, 72(%rsp)
	movq	%rax, 136(%rsp)
	je	1f
972:
	cmpq	$8, %r13
	jae	928f
	xorl	%eax, %eax
	jmp	981f
928:
	movq	%r13, %rax
	andq	$-8, %rax
	movd	%ebp, %xmm0
	pshufd	$0, %xmm0, %xmm0
	xorl	%ecx, %ecx
	movdqa	%xmm0, %xmm1
	.p2align	4
777:
	movd	28(%r14,%rcx,8), %xmm2
	movd	20(%r14,%rcx,8), %xmm3
	punpckldq	%xmm2, %xmm3
	movd	12(%r14,%rcx,8), %xmm2
	movd	4(%r14,%rcx,8), %xmm4
	punpckldq	%xmm2, %xmm4
	punpcklqdq	%xmm3, %xmm4
	movd	60(%r14,%rcx,8), %xmm2
	movd	52(%r14,%rcx,8), %xmm3
	punpckldq	%xmm2, %xmm3
	movd	44(%r14,%rcx,8), %xmm2
	movd	36(%r14,%rcx,8), %xmm5
	punpckldq	%xmm2, %xmm5
	punpcklqdq	%xmm3, %xmm5
	movdqa	.LCebaae86d_0(%rip), %xmm2
	movdqa	%xmm4, %xmm3
	pxor	%xmm2, %xmm3
	movdqa	%xmm0, %xmm6
	pxor	%xmm2, %xmm6
	pcmpgtd	%xmm6, %xmm3
	pand	%xmm3, %xmm4
	pandn	%xmm0, %xmm3
	movdqa	%xmm3, %xmm0
	por	%xmm4, %xmm0
	movdqa	%xmm5, %xmm3
	pxor	%xmm2, %xmm3
	movdqa	%xmm1, %xmm4
	pxor	%xmm2, %xmm4
	pcmpgtd	%xmm4, %xmm3
	pand	%xmm3, %xmm5
	pandn	%xmm1, %xmm3
	movdqa	%xmm3, %xmm1
	por	%xmm5, %xmm1
	addq	$8, %rcx
	cmpq	%rcx, %rax
	jne	777b
	movdqa	%xmm1, %xmm3
	pxor	%xmm2, %xmm3
	movdqa	%xmm0, %xmm4
	pxor	%xmm2, %xmm4
	pcmpgtd	%xmm3, %xmm4
	pand	%xmm4, %xmm0
	pandn	%xmm1, %xmm4
	por	%xmm0, %xmm4
	pshufd	$238, %xmm4, %xmm0
	movdqa	%xmm4, %xmm1
	pxor	%xmm2, %xmm1
	movdqa	%xmm0, %xmm3
	pxor	%xmm2, %xmm3
	pcmpgtd	%xmm3, %xmm1
	pand	%xmm1, %xmm4
	pandn	%xmm0, %xmm1
	por	%xmm4, %xmm1
	pshufd	$85, %xmm1, %xmm0
	movdqa	%xmm1, %xmm3
	pxor	%xmm2, %xmm3
	pxor	%xmm0, %xmm2
	pcmpgtd	%xmm2, %xmm3
	pand	%xmm3, %xmm1
	pandn	%xmm0, %xmm3
	por	%xmm1, %xmm3
	movd	%xmm3, %ebp
	jmp	972f
859:
	movq	%rbp, 208(%rsp)
	movq	%rbp, 216(%rsp)
	movq	%rbp, 224(%rsp)
	movq	%rbp, 232(%rsp)
	movq	%rbp, 240(%rsp)
	movq	%rbp, 248(%rsp)
	movq	%rbp, 256(%rsp)
	movq	%rbp, 264(%rsp)
	movq	%rbp, 272(%rsp)
	movq	%rbp, 280(%rsp)
	movq	%rbp, 288(%rsp)
	movq	%rbp, 296(%rsp)
	movq	%rbp, 304(%rsp)
	movq	%rbp, 312(%rsp)
	movq	%rbp, 320(%rsp)
	movq	%rbp, 328(%rsp)
	movq	%rbp, 336(%rsp)
	movq	%rbp, 344(%rsp)
	movq	%rbp, 352(%rsp)
	movq	%rbp, 360(%rsp)
	movq	%rbp, 368(%rsp)
	movq	%rbp, 376(%rsp)
	movq	%rbp, 384(%rsp)
	movq	%rbp, 392(%rsp)
	movq	%rbp, 400(%rsp)
	movq	%rbp, 408(%rsp)
	movq	%rbp, 416(%rsp)
	movq	%rbp, 424(%rsp)
	movq	%rbp, 432(%rsp)
	movq	%rbp, 440(%rsp)
	movq	%rbp, 448(%rsp)
	movq	%rbp, 456(%rsp)
	movq	%rbp, 464(%rsp)
	movq	%rbp, 472(%rsp)
	movq	%rbp, 480(%rsp)
	movq	%rbp, 488(%rsp)
	movq	%rbp, 496(%rsp)
	movq	%rbp, 504(%rsp)
	movq	%rbp, 512(%rsp)
	movq	%rbp, 520(%rsp)
	movq	%rbp, 528(%rsp)
	movq	%rbp, 536(%rsp)
	movq	%rbp, 544(%rsp)
	movq	%rbp, 552(%rsp)
	movq	%rbp, 560(%rsp)
	movq	%rbp, 568(%rsp)
	movq	%rbp, 576(%rsp)
	movq	%rbp, 584(%rsp)
	movq	%rbp, 592(%rsp)
	movq	%rbp, 600(%rsp)
	movq	%rbp, 608(%rsp)
	movq	%rbp, 616(%rsp)
	movq	%rbp, 624(%rsp)
	movq	%rbp, 632(%rsp)
	movq	%rbp, 640(%rsp)
	movq	%rbp, 648(%rsp)
	movq	%rbp, 656(%rsp)
	movq	%rbp, 664(%rsp)
	movq	%rbp, 672(%rsp)
	movq	%rbp, 680(%rsp)
	movq	%rbp, 688(%rsp)
	movq	%rbp, 696(%rsp)
	movq	%rbp, 704(%rsp)
	movq	%rbp, 712(%rsp)
12:
	movq	%r14, 16(%rsp)
	leaq	744(%rsp), %r14
	leaq	208(%rsp), %rsi
	movl	$512, %edx
	movq	%r14, %rdi
	callq	memcpy@PLT
	leaq	1256(%rsp), %rdi
	movl	$512, %edx
	movq	%r14, %rsi
	callq	memcpy@PLT
	movl	$5120, %edi
	movl	$8, %esi
	callq	rattle_alloc@PLT
	testb	$1, %al
	je	778f
	movq	%r15, 72(%rsp)
	movq	%rbx, 32(%rsp)
	movq	%r12, 24(%rsp)
	movq	%rdx, 64(%rsp)
	leaq	32(%rdx), %rbx
	xorl	%r14d, %r14d
	xorl	%r12d, %r12d
	movq	%r13, 104(%rsp)
	jmp	327f
	.p2align	4
669:
	leaq	8(%rsp), %rdx
	xorl	%r13d, %r13d
928:
	movq	$0, -32(%rbx)
	movq	%rdx, -24(%rbx)
	movq	%r13, -16(%rbx)
	movq	%rcx, -8(%rbx)
	movq	$0, (%rbx)
	incq	%r12
	addq	$40, %rbx
	addq	$8, %r14
	cmpq	$128, %r12
	movq	104(%rsp), %r13
	je	186f
327:
	movl	%r14d, %eax
	andl	$504, %eax
	movq	1256(%rsp,%rax), %rcx
	testq	%rcx, %rcx
	je	669b
	js	211f
	movl	$1, %esi
	movq	%rcx, %r15
	movq	%rcx, %rdi
	callq	rattle_alloc@PLT
	testb	$1, %al
	je	211f
	movq	%r15, %rcx
	cmpq	$1, %r15
	jne	669f
	xorl	%r13d, %r13d
	jmp	409f
	.p2align	4
669:
	leaq	-1(%rcx), %r13
	movq	%rdx, %rdi
	xorl	%esi, %esi
	movq	%rdx, 96(%rsp)
	movq	%r13, %rdx
	callq	memset@PLT
	movq	96(%rsp), %rdx
	movq	%r15, %rcx
409:
	movb	$0, (%rdx,%r13)
	incq	%r13
	jmp	928b
211:
	testq	%r12, %r12
	movq	72(%rsp), %r15
	movq	64(%rsp), %r14
	je	928f
	leaq	24(%r14), %rbx
	jmp	489f
	.p2align	4
850:
	addq	$40, %rbx
	decq	%r12
	je	928f
489:
	cmpq	$0, (%rbx)
	je	850b
	movq	-16(%rbx), %rdi
	callq	rattle_dealloc@PLT
	jmp	850b
928:
	movq	%r14, %rdi
	callq	rattle_dealloc@PLT
	movq	24(%rsp), %r12
	movq	32(%rsp), %rbx
778:
	cmpq	$0, 160(%rsp)
	je	211f
	movq	16(%rsp), %rdi
	callq	rattle_dealloc@PLT
211:
	testq	%r15, %r15
	movq	152(%rsp), %rdi
	jne	271f
	jmp	211f
186:
	movl	$128, %eax
	movl	$1, %ecx
	movq	%rcx, 96(%rsp)
	movq	$0, 176(%rsp)
	movq	24(%rsp), %r12
	movq	32(%rsp), %rbx
	movq	72(%rsp), %r15
	movq	16(%rsp), %r14
	testq	%r13, %r13
	movq	%r15, 72(%rsp)
	movq	%rax, 136(%rsp)
	jne	972b
	jmp	1f
271:
	callq	rattle_dealloc@PLT
211:
	testq	%rbx, %rbx
	je	409f
	movq	144(%rsp), %rdi
	callq	rattle_dealloc@PLT
409:
	movb	$1, (%r12)
	addq	$8, %r12
	movl	$296, %edx
	movq	%r12, %rdi
	xorl	%esi, %esi
	callq	memset@PLT
850:
	addq	$1768, %rsp
	popq	%rbx
	popq	%r12
	popq	%r13
	popq	%r14
	popq	%r15
	popq	%rbp
	retq
981:
	movl	4(%r14,%rax,8), %ecx
	cmpl	%ebp, %ecx
	cmoval	%ecx, %ebp
	incq	%rax
972:
	cmpq	%rax, %r13
	jne	981b
1:
	testb	$1, 15(%rsp)
	movl	$65542, %eax
	movl	$1019, %r15d
	cmovneq	%rax, %r15
	movl	%ebp, %eax
	cmpq	%r15, %rax
	cmovbq	%rax, %r15
	movq	88(%rsp), %rdx
	leal	-2(%rdx), %eax
	cmpb	$-3, %al
	setb	%al
	testb	$1, %dl
	sete	%cl
	movzbl	%dl, %edx
	xorl	%esi, %esi
	testb	%cl, %al
	cmovnel	%edx, %esi
	movl	%esi, 172(%rsp)
	je	214f
	movdqa	192(%rsp), %xmm0
	movd	%xmm0, %ebp
	movl	%ebp, %edi
	shrl	$11, %edi
	andl	$8160, %edi
	movl	$8, %esi
	callq	rattle_alloc@PLT
	movq	%rdx, 88(%rsp)
	testb	$1, %al
	movq	184(%rsp), %rcx
	je	868f
	movq	%r14, 16(%rsp)
	movq	%rbx, 32(%rsp)
	movq	%r12, 24(%rsp)
	movl	%ebp, 44(%rsp)
	shrl	$16, %ebp
	movzbl	%bpl, %eax
	movq	%rax, 104(%rsp)
	testq	%rax, %rax
	movq	%rcx, %rbp
	je	483f
	movq	88(%rsp), %rax
	leaq	24(%rax), %rbx
	xorl	%r12d, %r12d
	.p2align	4
327:
	movl	$1019, %edi
	movl	$1, %esi
	callq	rattle_alloc@PLT
	testb	$1, %al
	je	47f
	movq	%rdx, %r14
	movl	$1019, %edx
	movq	%r14, %rdi
	xorl	%esi, %esi
	callq	memset@PLT
	movq	%r14, -24(%rbx)
	movq	$1019, -16(%rbx)
	movq	$1019, -8(%rbx)
	movq	$0, (%rbx)
	incq	%r12
	addq	$32, %rbx
	cmpq	%r12, 104(%rsp)
	jne	327b
483:
	pxor	%xmm0, %xmm0
	movdqa	%xmm0, 208(%rsp)
	movdqa	%xmm0, 224(%rsp)
	movdqa	%xmm0, 240(%rsp)
	movdqa	%xmm0, 256(%rsp)
	movq	$0, 272(%rsp)
	testq	%rbp, %rbp
	je	409f
	movq	%rbp, %rax
	shrq	$57, %rax
	movq	24(%rsp), %r12
	movq	16(%rsp), %r14
	jne	638f
	movq	%rbp, %rdi
	shlq	$6, %rdi
	movl	$8, %esi
	callq	rattle_alloc@PLT
	testb	$1, %al
	je	638f
	leaq	216(%rsp), %r14
	xorl	%ebx, %ebx
	movq	%rdx, 48(%rsp)
	movq	%rdx, %r12
	.p2align	4
928:
	movq	152(%rsp), %rax
	movzwl	2(%rax,%rbx,4), %edx
	movzwl	(%rax,%rbx,4), %esi
	leaq	208(%rsp), %rdi
	movq	%r15, %rcx
	callq	tc_queues.queue.Queue.with_capacity._0e1c90a670cc60a2
	cmpb	$0, 208(%rsp)
	jne	12f
	movdqu	(%r14), %xmm0
	movdqu	16(%r14), %xmm1
	movdqu	32(%r14), %xmm2
	movdqu	48(%r14), %xmm3
	movdqu	%xmm3, 48(%r12)
	movdqu	%xmm2, 32(%r12)
	movdqu	%xmm1, 16(%r12)
	movdqu	%xmm0, (%r12)
	incq	%rbx
	addq	$64, %r12
	cmpq	%rbx, %rbp
	jne	928b
	leaq	-65536(%rbp), %rax
	cmpq	$-65528, %rax
	jae	327f
	movb	$1, %al
	movl	%eax, 40(%rsp)
	leaq	8(%rsp), %r8
	xorl	%esi, %esi
	jmp	928f
47:
	testq	%r12, %r12
	movq	16(%rsp), %r14
	movq	88(%rsp), %r15
	movq	104(%rsp), %r13
	je	859f
	cmpq	%r13, %r12
	movq	%r13, %rbx
	cmovbq	%r12, %rbx
	leaq	16(%r15), %r14
	jmp	972f
	.p2align	4
880:
	addq	$32, %r14
	decq	%rbx
	je	489f
972:
	cmpq	$0, (%r14)
	je	880b
	movq	-16(%r14), %rdi
	callq	rattle_dealloc@PLT
	jmp	880b
409:
	movb	$1, %al
	movl	%eax, 40(%rsp)
	leaq	8(%rsp), %r8
	xorl	%esi, %esi
	movq	%r8, 48(%rsp)
928:
	movq	24(%rsp), %r12
	movq	32(%rsp), %r9
	movq	16(%rsp), %r14
	movq	112(%rsp), %rbx
	movl	44(%rsp), %r11d
483:
	pxor	%xmm0, %xmm0
	movdqa	%xmm0, 208(%rsp)
	movdqa	%xmm0, 224(%rsp)
	movdqa	%xmm0, 240(%rsp)
	movdqa	%xmm0, 256(%rsp)
	movq	$0, 272(%rsp)
	testq	%rbx, %rbx
	je	669f
	movq	%rsi, 128(%rsp)
	movq	%rbx, %rax
	shrq	$57, %rax
	movq	%r8, 80(%rsp)
	jne	961f
	movq	%rbx, %rdi
	shlq	$6, %rdi
	movl	$8, %esi
	callq	rattle_alloc@PLT
	movq	80(%rsp), %r8
	testb	$1, %al
	je	961f
	leaq	216(%rsp), %r14
	xorl	%ebx, %ebx
	movq	%rdx, 120(%rsp)
	movq	%rdx, %r12
	.p2align	4
928:
	movq	144(%rsp), %rax
	movzbl	(%rax,%rbx,4), %esi
	movzwl	2(%rax,%rbx,4), %edx
	leaq	208(%rsp), %rdi
	movq	%r15, %rcx
	callq	tc_queues.queue.Queue.with_capacity._0e1c90a670cc60a2
	cmpb	$0, 208(%rsp)
	jne	648f
	movdqu	(%r14), %xmm0
	movdqu	16(%r14), %xmm1
	movdqu	32(%r14), %xmm2
	movdqu	48(%r14), %xmm3
	movdqu	%xmm3, 48(%r12)
	movdqu	%xmm2, 32(%r12)
	movdqu	%xmm1, 16(%r12)
	movdqu	%xmm0, (%r12)
	incq	%rbx
	addq	$64, %r12
	cmpq	%rbx, 112(%rsp)
	jne	928b
	movq	112(%rsp), %rbx
	leaq	-65536(%rbx), %rax
	cmpq	$-65528, %rax
	jae	186f
	leaq	8(%rsp), %rdx
	xorl	%eax, %eax
	movq	24(%rsp), %r12
	movq	32(%rsp), %r9
	movq	72(%rsp), %r10
	movq	16(%rsp), %r14
	movq	48(%rsp), %r15
	movl	44(%rsp), %r11d
	movq	80(%rsp), %r8
	movq	128(%rsp), %rsi
	movq	120(%rsp), %rdi
	jmp	409f
489:
	cmpq	%r13, %r12
	movq	16(%rsp), %r14
	jbe	859f
	cmovbq	%r12, %r13
	leaq	16(%r15), %rbx
	jmp	972f
	.p2align	4
629:
	incq	%r13
	addq	$32, %rbx
	cmpq	%r13, %r12
	je	859f
972:
	cmpq	$0, (%rbx)
	je	629b
	movq	-16(%rbx), %rdi
	callq	rattle_dealloc@PLT
	jmp	629b
859:
	movq	%r15, %rdi
	callq	rattle_dealloc@PLT
	movq	24(%rsp), %r12
	movq	32(%rsp), %rbx
868:
	cmpb	$1, 15(%rsp)
	movq	72(%rsp), %r15
	jne	778f
	movq	%r14, %rbp
	movq	%rbx, %r14
	movq	64(%rsp), %rax
	leaq	24(%rax), %rbx
	movq	136(%rsp), %r13
	jmp	972f
	.p2align	4
880:
	addq	$40, %rbx
	decq	%r13
	je	928f
972:
	cmpq	$0, (%rbx)
	je	880b
	movq	-16(%rbx), %rdi
	callq	rattle_dealloc@PLT
	jmp	880b
928:
	movq	64(%rsp), %rdi
	callq	rattle_dealloc@PLT
	movq	%r14, %rbx
	movq	%rbp, %r14
	jmp	778f
669:
	leaq	8(%rsp), %rdi
	xorl	%eax, %eax
	movq	%rdi, %rdx
	movq	72(%rsp), %r10
	movq	48(%rsp), %r15
409:
	movb	$0, (%r12)
	movaps	192(%rsp), %xmm0
	movss	%xmm0, 8(%r12)
	movzbl	15(%rsp), %ecx
	movb	%cl, 12(%r12)
	movzwl	60(%rsp), %ecx
	movw	%cx, 13(%r12)
	movzbl	62(%rsp), %ecx
	movb	%cl, 15(%r12)
	movq	152(%rsp), %rcx
	movq	%rcx, 16(%r12)
	movq	%rbp, 24(%r12)
	movq	%r10, 32(%r12)
	movq	144(%rsp), %rcx
	movq	%rcx, 40(%r12)
	movq	%rbx, 48(%r12)
	movq	%r9, 56(%r12)
	movdqa	720(%rsp), %xmm0
	movq	%xmm0, 64(%r12)
	movq	%r14, 72(%r12)
	movq	%r13, 80(%r12)
	movq	160(%rsp), %rcx
	movq	%rcx, 88(%r12)
	movl	172(%rsp), %ecx
	movb	%cl, 96(%r12)
	movb	$0, 97(%r12)
	shrl	$24, %r11d
	movb	%r11b, 98(%r12)
	movl	$0, 99(%r12)
	movb	$0, 103(%r12)
	movq	88(%rsp), %rcx
	movq	%rcx, 104(%r12)
	movq	104(%rsp), %rcx
	movq	%rcx, 112(%r12)
	movq	%rcx, 120(%r12)
	pxor	%xmm0, %xmm0
	movdqu	%xmm0, 128(%r12)
	movq	$0, 144(%r12)
	movq	$1019, 152(%r12)
	movq	96(%rsp), %rcx
	movq	%rcx, 160(%r12)
	movq	176(%rsp), %rcx
	movq	%rcx, 168(%r12)
	movq	64(%rsp), %rcx
	movq	%rcx, 176(%r12)
	movq	136(%rsp), %rcx
	movq	%rcx, 184(%r12)
	movq	%rcx, 192(%r12)
	movq	%r15, 200(%r12)
	movq	%rbp, 208(%r12)
	movq	%rbp, 216(%r12)
	movq	%r8, 224(%r12)
	movq	%rsi, 232(%r12)
	movq	%rsi, 240(%r12)
	movq	%rdi, 248(%r12)
	movq	%rbx, 256(%r12)
	movq	%rbx, 264(%r12)
	movq	%rdx, 272(%r12)
	movq	%rax, 280(%r12)
	movq	%rax, 288(%r12)
	movq	$0, 296(%r12)
	jmp	850b
12:
	movq	48(%rsp), %rax
	movq	%rax, 744(%rsp)
	movq	%rbx, 752(%rsp)
	movq	%rbp, 760(%rsp)
	leaq	744(%rsp), %rdi
	callq	std_alloc.vec.Vec.drop._ac5925e1d03ce435
	movq	24(%rsp), %r12
	movq	16(%rsp), %r14
638:
	movq	104(%rsp), %rbp
	testb	%bpl, %bpl
	movq	72(%rsp), %r15
	movq	88(%rsp), %r13
	je	928f
	shll	$5, %ebp
	xorl	%ebx, %ebx
	jmp	972f
	.p2align	4
850:
	addq	$32, %rbx
	cmpq	%rbx, %rbp
	je	928f
972:
	cmpq	$0, 16(%r13,%rbx)
	je	850b
	movq	(%r13,%rbx), %rdi
	callq	rattle_dealloc@PLT
	jmp	850b
928:
	movq	%r13, %rdi
	callq	rattle_dealloc@PLT
	cmpb	$1, 15(%rsp)
	movq	32(%rsp), %rbx
	jne	778f
	movq	64(%rsp), %rax
	leaq	24(%rax), %rbx
	movq	136(%rsp), %rax
	jmp	972f
	.p2align	4
850:
	addq	$40, %rbx
	decq	%rax
	je	12f
972:
	cmpq	$0, (%rbx)
	je	850b
	movq	-16(%rbx), %rdi
	movq	%rax, %r13
	callq	rattle_dealloc@PLT
	movq	%r13, %rax
	jmp	850b
327:
	movl	$4096, %edi
	movl	$2, %esi
	callq	rattle_alloc@PLT
	testb	$1, %al
	movq	24(%rsp), %r12
	movq	16(%rsp), %r14
	movq	112(%rsp), %rbx
	je	678f
	movq	%rdx, %r8
	movd	%ebp, %xmm0
	pshuflw	$0, %xmm0, %xmm0
	pshufd	$68, %xmm0, %xmm0
	movl	$56, %eax
	movq	32(%rsp), %r9
	movl	44(%rsp), %r11d
856:
	movdqu	%xmm0, -112(%r8,%rax,2)
	movdqu	%xmm0, -96(%r8,%rax,2)
	movdqu	%xmm0, -80(%r8,%rax,2)
	movdqu	%xmm0, -64(%r8,%rax,2)
	movdqu	%xmm0, -48(%r8,%rax,2)
	movdqu	%xmm0, -32(%r8,%rax,2)
	cmpq	$2040, %rax
	je	777f
	movdqu	%xmm0, -16(%r8,%rax,2)
	movdqu	%xmm0, (%r8,%rax,2)
	addq	$64, %rax
	jmp	856b
648:
	movq	120(%rsp), %rax
	movq	%rax, 744(%rsp)
	movq	%rbx, 752(%rsp)
	movq	112(%rsp), %rax
	movq	%rax, 760(%rsp)
	leaq	744(%rsp), %rdi
	callq	std_alloc.vec.Vec.drop._ac5925e1d03ce435
	movq	24(%rsp), %r12
	movq	16(%rsp), %r14
	movq	80(%rsp), %r8
961:
	movq	48(%rsp), %r15
	testq	%rbp, %rbp
	je	868f
890:
	xorl	%ebx, %ebx
	jmp	859f
	.p2align	4
928:
	movq	%r13, %rdi
	callq	rattle_dealloc@PLT
	incq	%rbx
	cmpq	184(%rsp), %rbx
	je	928f
859:
	movq	%rbx, %rax
	shlq	$6, %rax
	movq	8(%r15,%rax), %r13
	movq	24(%r15,%rax), %r12
	testq	%r12, %r12
	je	928b
	movq	%r13, 96(%rsp)
	movq	16(%r15,%rax), %r13
	movq	32(%r15,%rax), %rax
	xorl	%ecx, %ecx
	cmpq	%r13, %rax
	cmovaeq	%r13, %rcx
	movq	%rax, %rdx
	subq	%rcx, %rdx
	movq	%r13, %rbp
	subq	%rdx, %rbp
	cmpq	%r12, %rbp
	cmovaeq	%r12, %rbp
	subq	%rdx, %r13
	jne	682f
972:
	cmpq	%r13, %r12
	movq	48(%rsp), %r15
	movq	96(%rsp), %r13
	jbe	928b
	subq	%rbp, %r12
	leaq	16(%r13), %r14
	jmp	489f
	.p2align	4
850:
	addq	$32, %r14
	decq	%r12
	je	928b
489:
	cmpq	$0, (%r14)
	je	850b
	movq	-16(%r14), %rdi
	callq	rattle_dealloc@PLT
	jmp	850b
	.p2align	4
682:
	shlq	$5, %rax
	shlq	$5, %rcx
	subq	%rcx, %rax
	movq	96(%rsp), %rcx
	leaq	(%rcx,%rax), %r15
	addq	$16, %r15
	movq	%rbp, %r14
	jmp	972f
	.p2align	4
850:
	addq	$32, %r15
	decq	%r14
	je	972b
972:
	cmpq	$0, (%r15)
	je	850b
	movq	-16(%r15), %rdi
	callq	rattle_dealloc@PLT
	jmp	850b
928:
	movq	%r15, %rdi
	callq	rattle_dealloc@PLT
	movq	24(%rsp), %r12
	movq	16(%rsp), %r14
	movq	80(%rsp), %r8
868:
	cmpb	$0, 40(%rsp)
	movq	72(%rsp), %r15
	jne	928f
	movq	%r8, %rdi
	callq	rattle_dealloc@PLT
928:
	movq	104(%rsp), %rbp
	testb	%bpl, %bpl
	movq	88(%rsp), %r13
	je	928f
	shll	$5, %ebp
	xorl	%ebx, %ebx
	jmp	972f
	.p2align	4
850:
	addq	$32, %rbx
	cmpq	%rbx, %rbp
	je	928f
972:
	cmpq	$0, 16(%r13,%rbx)
	je	850b
	movq	(%r13,%rbx), %rdi
	callq	rattle_dealloc@PLT
	jmp	850b
928:
	movq	%r13, %rdi
	callq	rattle_dealloc@PLT
	cmpb	$1, 15(%rsp)
	movq	32(%rsp), %rbx
	jne	778f
	movq	64(%rsp), %rax
	leaq	24(%rax), %rbx
	movq	136(%rsp), %rax
	jmp	972f
	.p2align	4
850:
	addq	$40, %rbx
	decq	%rax
	je	12f
972:
	cmpq	$0, (%rbx)
	je	850b
	movq	-16(%rbx), %rdi
	movq	%rax, %r13
	callq	rattle_dealloc@PLT
	movq	%r13, %rax
	jmp	850b
12:
	movq	64(%rsp), %rdi
	callq	rattle_dealloc@PLT
	movq	32(%rsp), %rbx
778:
	cmpq	$0, 160(%rsp)
	je	47f
	movq	%r14, %rdi
	callq	rattle_dealloc@PLT
47:
	testq	%r15, %r15
	je	211b
	movq	152(%rsp), %rdi
	jmp	271b
678:
	movq	48(%rsp), %rax
	movq	%rax, 208(%rsp)
	movq	%rbp, 216(%rsp)
	movq	%rbp, 224(%rsp)
	leaq	208(%rsp), %rdi
	callq	std_alloc.vec.Vec.drop._ac5925e1d03ce435
	jmp	638b
777:
	movd	%ebp, %xmm0
	pshuflw	$0, %xmm0, %xmm0
	pshufd	$68, %xmm0, %xmm1
	movdqu	%xmm1, 4064(%r8)
	movq	%xmm0, 4080(%r8)
	movw	%bp, 4088(%r8)
	movw	%bp, 4090(%r8)
	movw	%bp, 4092(%r8)
	movw	%bp, 4094(%r8)
	cmpq	$1, %rbp
	jne	327f
	xorl	%eax, %eax
	jmp	928f
186:
	movl	$4096, %edi
	movl	$2, %esi
	callq	rattle_alloc@PLT
	testb	$1, %al
	movq	24(%rsp), %r12
	movq	32(%rsp), %r9
	movq	16(%rsp), %r14
	movq	48(%rsp), %r15
	je	859f
	movd	%ebx, %xmm0
	pshuflw	$0, %xmm0, %xmm0
	pshufd	$68, %xmm0, %xmm0
	movl	$56, %eax
	movq	72(%rsp), %r10
	movl	44(%rsp), %r11d
	movq	80(%rsp), %r8
	movq	120(%rsp), %rdi
856:
	movdqu	%xmm0, -112(%rdx,%rax,2)
	movdqu	%xmm0, -96(%rdx,%rax,2)
	movdqu	%xmm0, -80(%rdx,%rax,2)
	movdqu	%xmm0, -64(%rdx,%rax,2)
	movdqu	%xmm0, -48(%rdx,%rax,2)
	movdqu	%xmm0, -32(%rdx,%rax,2)
	cmpq	$2040, %rax
	je	777f
	movdqu	%xmm0, -16(%rdx,%rax,2)
	movdqu	%xmm0, (%rdx,%rax,2)
	addq	$64, %rax
	jmp	856b
327:
	movl	%ebp, %ecx
	andl	$65534, %ecx
	movq	48(%rsp), %rax
	leaq	64(%rax), %rdx
	xorl	%eax, %eax
	jmp	471f
850:
	addq	$2, %rax
	subq	$-128, %rdx
	cmpq	%rax, %rcx
	je	1f
471:
	movzwl	-64(%rdx), %esi
	cmpq	$2047, %rsi
	ja	471f
	cmpw	%bp, (%r8,%rsi,2)
	jne	471f
	movw	%ax, (%r8,%rsi,2)
471:
	movzwl	(%rdx), %esi
	cmpq	$2047, %rsi
	ja	850b
	cmpw	%bp, (%r8,%rsi,2)
	jne	850b
	leal	1(%rax), %edi
	movw	%di, (%r8,%rsi,2)
	jmp	850b
1:
	testb	$1, %bpl
	jne	928f
	movl	$2048, %esi
	movl	$0, 40(%rsp)
	jmp	483b
928:
	movq	%rax, %rcx
	shlq	$6, %rcx
	movq	48(%rsp), %rdx
	movzwl	(%rdx,%rcx), %ecx
	movl	$2048, %esi
	cmpq	$2047, %rcx
	ja	327f
	cmpw	%bp, (%r8,%rcx,2)
	jne	327f
	movw	%ax, (%r8,%rcx,2)
327:
	movl	$0, 40(%rsp)
	jmp	483b
859:
	movq	120(%rsp), %rax
	movq	%rax, 208(%rsp)
	movq	%rbx, 216(%rsp)
	movq	%rbx, 224(%rsp)
	leaq	208(%rsp), %rdi
	callq	std_alloc.vec.Vec.drop._ac5925e1d03ce435
	movq	80(%rsp), %r8
	testq	%rbp, %rbp
	jne	890b
	jmp	868b
777:
	movd	%ebx, %xmm0
	pshuflw	$0, %xmm0, %xmm0
	pshufd	$68, %xmm0, %xmm1
	movdqu	%xmm1, 4064(%rdx)
	movq	%xmm0, 4080(%rdx)
	movw	%bx, 4088(%rdx)
	movw	%bx, 4090(%rdx)
	movw	%bx, 4092(%rdx)
	movw	%bx, 4094(%rdx)
	cmpq	$1, %rbx
	jne	327f
	xorl	%ecx, %ecx
	jmp	928f
327:
	movl	%ebx, %eax
	andl	$65534, %eax
	leaq	64(%rdi), %rsi
	xorl	%ecx, %ecx
	jmp	471f
850:
	addq	$2, %rcx
	subq	$-128, %rsi
	cmpq	%rcx, %rax
	je	1f
471:
	movzwl	-64(%rsi), %edi
	cmpq	$2047, %rdi
	ja	471f
	cmpw	%bx, (%rdx,%rdi,2)
	jne	471f
	movw	%cx, (%rdx,%rdi,2)
471:
	movzwl	(%rsi), %edi
	cmpq	$2047, %rdi
	ja	850b
	cmpw	%bx, (%rdx,%rdi,2)
	jne	850b
	leal	1(%rcx), %r8d
	movw	%r8w, (%rdx,%rdi,2)
	movq	80(%rsp), %r8
	jmp	850b
1:
	testb	$1, %bl
	movq	120(%rsp), %rdi
	jne	928f
	movl	$2048, %eax
	movq	128(%rsp), %rsi
	jmp	409b
928:
	movq	%rcx, %rax
	shlq	$6, %rax
	movzwl	(%rdi,%rax), %esi
	movl	$2048, %eax
	cmpq	$2047, %rsi
	ja	928f
	cmpw	%bx, (%rdx,%rsi,2)
	jne	928f
	movw	%cx, (%rdx,%rsi,2)
928:
	movq	128(%rsp), %rsi
	jmp	409b
214:
	ud2
	.section	.text.tc_queues.queue.Queue.with_capacity._0e1c90a670cc60a2,"ax",@progbits
	.p2align	4
tc_queues.queue.Queue.with_capacity._0e1c90a670cc60a2:
	pushq	%rbp
	pushq	%r15
	pushq	%r14
	pushq	%r13
	pushq	%r12
	pushq	%rbx
	subq	$40, %rsp
	movq	%rcx, %r14
	movl	%edx, %r13d
	movl	%esi, %r15d
	movq	%rdi, %rbx
	movzwl	%r13w, %ebp
	movl	%ebp, %edi
	shll	$5, %edi
	movl	$8, %esi
	callq	rattle_alloc@PLT
	testb	$1, %al
	je	409f
	movl	%r15d, 28(%rsp)
	movq	%rbx, 32(%rsp)
	movq	%r14, 16(%rsp)
	movq	%rdx, 8(%rsp)
	testw	%bp, %bp
	je	928f
	movq	16(%rsp), %rax
	movq	%rax, %r12
	subq	$1, %r12
	jae	211f
	movl	%ebp, %eax
	andl	$3, %eax
	cmpw	$4, %r13w
	jae	186f
	xorl	%ecx, %ecx
	jmp	682f
211:
	testq	%rax, %rax
	js	12f
	cmpq	$1, %rax
	jne	859f
	movq	8(%rsp), %rax
	leaq	24(%rax), %r15
	xorl	%r14d, %r14d
	.p2align	4
327:
	movl	$1, %edi
	movl	$1, %esi
	callq	rattle_alloc@PLT
	testb	$1, %al
	je	211f
	movb	$0, (%rdx)
	movq	%rdx, -24(%r15)
	movq	$1, -16(%r15)
	movq	$1, -8(%r15)
	movq	$0, (%r15)
	incq	%r14
	addq	$32, %r15
	cmpq	%r14, %rbp
	jne	327b
	jmp	928f
186:
	movl	%ebp, %edx
	andl	$-4, %edx
	movq	8(%rsp), %rcx
	leaq	104(%rcx), %rsi
	xorl	%ecx, %ecx
	.p2align	4
669:
	leaq	7(%rsp), %rdi
	movq	%rdi, -104(%rsi)
	xorps	%xmm0, %xmm0
	movups	%xmm0, -96(%rsi)
	movq	$0, -80(%rsi)
	movq	%rdi, -72(%rsi)
	movups	%xmm0, -64(%rsi)
	movq	$0, -48(%rsi)
	movq	%rdi, -40(%rsi)
	movups	%xmm0, -32(%rsi)
	movq	$0, -16(%rsi)
	movq	%rdi, -8(%rsi)
	addq	$4, %rcx
	movups	%xmm0, (%rsi)
	movq	$0, 16(%rsi)
	subq	$-128, %rsi
	cmpq	%rcx, %rdx
	jne	669b
	testq	%rax, %rax
	je	928f
682:
	shlq	$5, %rcx
	movq	8(%rsp), %rdx
	addq	%rdx, %rcx
	addq	$8, %rcx
	shll	$5, %eax
	xorl	%edx, %edx
	.p2align	4
669:
	leaq	7(%rsp), %rsi
	movq	%rsi, -8(%rcx,%rdx)
	xorps	%xmm0, %xmm0
	movups	%xmm0, (%rcx,%rdx)
	movq	$0, 16(%rcx,%rdx)
	addq	$32, %rdx
	cmpq	%rdx, %rax
	jne	669b
928:
	movq	32(%rsp), %rcx
	movb	$0, (%rcx)
	movl	28(%rsp), %eax
	movw	%ax, 8(%rcx)
	movl	$0, 10(%rcx)
	movw	$0, 14(%rcx)
	movq	8(%rsp), %rax
	movq	%rax, 16(%rcx)
	movq	%rbp, 24(%rcx)
	movq	%rbp, 32(%rcx)
	xorps	%xmm0, %xmm0
	movups	%xmm0, 40(%rcx)
	movq	$0, 56(%rcx)
	movq	16(%rsp), %rax
	movq	%rax, 64(%rcx)
	jmp	880f
859:
	movq	8(%rsp), %rax
	leaq	24(%rax), %r15
	xorl	%r14d, %r14d
	.p2align	4
859:
	movq	%rbp, %rbx
	movl	$1, %esi
	movq	16(%rsp), %rbp
	movq	%rbp, %rdi
	callq	rattle_alloc@PLT
	testb	$1, %al
	je	928f
	movq	%rdx, %r13
	movq	%rdx, %rdi
	xorl	%esi, %esi
	movq	%r12, %rdx
	callq	memset@PLT
	movb	$0, (%r13,%r12)
	movq	%r13, -24(%r15)
	movq	%rbp, -16(%r15)
	movq	%rbp, -8(%r15)
	movq	$0, (%r15)
	incq	%r14
	addq	$32, %r15
	movq	%rbx, %rbp
	cmpq	%r14, %rbx
	jne	859b
	jmp	928b
928:
	movq	%rbx, %rbp
211:
	testq	%r14, %r14
	je	12f
	cmpq	%r14, %rbp
	movq	%r14, %r15
	cmovbq	%rbp, %r15
	movq	8(%rsp), %rax
	leaq	16(%rax), %r12
	movq	%r15, %r13
	jmp	972f
	.p2align	4
850:
	addq	$32, %r12
	decq	%r13
	je	489f
972:
	cmpq	$0, (%r12)
	je	850b
	movq	-16(%r12), %rdi
	callq	rattle_dealloc@PLT
	jmp	850b
489:
	cmpq	%rbp, %r14
	jbe	12f
	subq	%r15, %r14
	movq	8(%rsp), %rax
	leaq	16(%rax), %r15
	jmp	972f
	.p2align	4
850:
	addq	$32, %r15
	decq	%r14
	je	12f
972:
	cmpq	$0, (%r15)
	je	850b
	movq	-16(%r15), %rdi
	callq	rattle_dealloc@PLT
	jmp	850b
12:
	movq	8(%rsp), %rdi
	callq	rattle_dealloc@PLT
	movq	32(%rsp), %rbx
409:
	movb	$1, (%rbx)
	xorps	%xmm0, %xmm0
	movups	%xmm0, 8(%rbx)
	movups	%xmm0, 24(%rbx)
	movups	%xmm0, 40(%rbx)
	movups	%xmm0, 56(%rbx)
880:
	addq	$40, %rsp
	popq	%rbx
	popq	%r12
	popq	%r13
	popq	%r14
	popq	%r15
	popq	%rbp
	retq
	.section	.text.std_alloc.vec.Vec.drop._ac5925e1d03ce435,"ax",@progbits
	.p2align	4
std_alloc.vec.Vec.drop._ac5925e1d03ce435:
	pushq	%rbp
	pushq	%r15
	pushq	%r14
	pushq	%r13
	pushq	%r12
	pushq	%rbx
	subq	$40, %rsp
	movq	(%rdi), %r15
	movq	8(%rdi), %rcx
	movq	16(%rdi), %rax
	movq	%rax, 16(%rsp)
	movq	%rcx, 32(%rsp)
	testq	%rcx, %rcx
	je	778f
	xorl	%r13d, %r13d
	movq	%r15, 24(%rsp)
	jmp	859f
	.p2align	4
928:
	movq	%rbx, %rdi
	callq	rattle_dealloc@PLT
	incq	%r13
	cmpq	32(%rsp), %r13
	je	778f
859:
	movq	%r13, %rax
	shlq	$6, %rax
	movq	8(%r15,%rax), %rbx
	movq	24(%r15,%rax), %rbp
	testq	%rbp, %rbp
	je	928b
	movq	%rbx, 8(%rsp)
	movq	16(%r15,%rax), %rbx
	movq	32(%r15,%rax), %rax
	xorl	%ecx, %ecx
	cmpq	%rbx, %rax
	cmovaeq	%rbx, %rcx
	movq	%rax, %rdx
	subq	%rcx, %rdx
	movq	%rbx, %r12
	subq	%rdx, %r12
	cmpq	%rbp, %r12
	cmovaeq	%rbp, %r12
	subq	%rdx, %rbx
	jne	682f
972:
	cmpq	%rbx, %rbp
	movq	24(%rsp), %r15
	movq	8(%rsp), %rbx
	jbe	928b
	subq	%r12, %rbp
	leaq	16(%rbx), %r14
	jmp	489f
	.p2align	4
850:
	addq	$32, %r14
	decq	%rbp
	je	928b
489:
	cmpq	$0, (%r14)
	je	850b
	movq	-16(%r14), %rdi
	callq	rattle_dealloc@PLT
	jmp	850b
	.p2align	4
682:
	shlq	$5, %rax
	shlq	$5, %rcx
	subq	%rcx, %rax
	movq	8(%rsp), %rcx
	leaq	(%rcx,%rax), %r14
	addq	$16, %r14
	movq	%r12, %r15
	jmp	972f
	.p2align	4
850:
	addq	$32, %r14
	decq	%r15
	je	972b
972:
	cmpq	$0, (%r14)
	je	850b
	movq	-16(%r14), %rdi
	callq	rattle_dealloc@PLT
	jmp	850b
778:
	cmpq	$0, 16(%rsp)
	je	850f
	movq	%r15, %rdi
	addq	$40, %rsp
	popq	%rbx
	popq	%r12
	popq	%r13
	popq	%r14
	popq	%r15
	popq	%rbp
	jmp	rattle_dealloc@PLT
850:
	addq	$40, %rsp
	popq	%rbx
	popq	%r12
	popq	%r13
	popq	%r14
	popq	%r15
	popq	%rbp
	retq
	.section	.text.tc_fixed.limits.LentLimits.check,"ax",@progbits
	.p2align	4
tc_fixed.limits.LentLimits.check:
	pushq	%rbp
	pushq	%r15
	pushq	%r14
	pushq	%r13
	pushq	%r12
	pushq	%rbx
	subq	$56, %rsp
	movq	%rdi, %r12
	movl	(%rsi), %ebx
	movq	8(%rsi), %r14
	movq	16(%rsi), %rax
	movq	%rax, 8(%rsp)
	movl	(%rdx), %eax
	movzbl	4(%rdx), %r15d
	movq	24(%rdx), %r13
	movq	32(%rdx), %rbp
	movl	%eax, 16(%rsp)
	movb	%r15b, 20(%rsp)
	movups	5(%rdx), %xmm0
	movups	%xmm0, 21(%rsp)
	movl	20(%rdx), %eax
	movl	%eax, 36(%rsp)
	movq	%r13, 40(%rsp)
	movq	%rbp, 48(%rsp)
	leaq	16(%rsp), %rdi
	callq	tc_queues.settings.LentSettings.check
	testb	%al, %al
	je	928f
	movw	$1, (%r12)
	movb	%dl, 2(%r12)
	jmp	850f
928:
	movq	8(%rsp), %r11
	xorb	$1, %r15b
	cmpl	$65543, %ebx
	setae	%cl
	testl	%ebx, %ebx
	sete	%dl
	andb	%r15b, %dl
	movb	$1, %al
	orb	%cl, %dl
	jne	409f
	xorl	%ecx, %ecx
	.p2align	4
972:
	cmpq	%rcx, %r11
	je	211f
	cmpb	$64, (%r14,%rcx,8)
	leaq	1(%rcx), %rcx
	jb	972b
	movb	$2, %cl
	jmp	969f
409:
	movb	$1, %cl
	jmp	394f
211:
	testq	%r11, %r11
	je	890f
	xorl	%ecx, %ecx
548:
	movzbl	(%r14,%rcx,8), %edx
	xorl	%esi, %esi
	.p2align	4
972:
	cmpq	%rsi, %rcx
	je	629f
	cmpb	%dl, (%r14,%rsi,8)
	leaq	1(%rsi), %rsi
	jne	972b
	jmp	409f
629:
	incq	%rcx
	cmpq	%r11, %rcx
	jne	548b
890:
	xorl	%ecx, %ecx
	.p2align	4
972:
	cmpq	%rcx, %r11
	je	211f
	movl	4(%r14,%rcx,8), %edx
	decl	%edx
	incq	%rcx
	cmpl	$65542, %edx
	jb	972b
	movb	$4, %cl
	jmp	969f
409:
	movb	$3, %cl
969:
	movb	$1, %al
394:
	movb	%al, (%r12)
	movb	%cl, 1(%r12)
	movb	$0, 2(%r12)
850:
	addq	$56, %rsp
	popq	%rbx
	popq	%r12
	popq	%r13
	popq	%r14
	popq	%r15
	popq	%rbp
	retq
211:
	testq	%r11, %r11
	setne	%dl
	movb	$5, %cl
	testb	%r15b, %dl
	jne	394b
	testl	%ebx, %ebx
	setne	%al
	testq	%rbp, %rbp
	sete	%cl
	orb	%al, %cl
	je	890f
	xorl	%eax, %eax
	xorl	%ecx, %ecx
	jmp	394b
890:
	xorl	%edx, %edx
548:
	movzbl	(%r13,%rdx,4), %eax
	xorl	%ecx, %ecx
972:
	cmpq	%rcx, %r11
	je	409f
	cmpb	%al, (%r14,%rcx,8)
	leaq	1(%rcx), %rcx
	jne	972b
	incq	%rdx
	xorl	%eax, %eax
	movl	$0, %ecx
	cmpq	%rbp, %rdx
	jne	548b
	jmp	394b
409:
	movb	$6, %cl
	jmp	969b
	.section	.text.tc_edges.write.fields.check_taking,"ax",@progbits
	.p2align	4
tc_edges.write.fields.check_taking:
	cmpq	$5, %rdx
	jae	471f
	xorl	%ecx, %ecx
890:
	xorl	%eax, %eax
	movb	$1, (%rdi)
	movb	%cl, 1(%rdi)
	movb	%al, 2(%rdi)
	retq
471:
	movzwl	(%rsi), %eax
	rolw	$8, %ax
	movzwl	%ax, %ecx
	cmpl	$16383, %ecx
	ja	409f
	testl	$3072, %eax
	je	548f
	movb	$2, %al
	jmp	83f
409:
	movb	$1, %al
83:
	xorl	%ecx, %ecx
	movb	$1, (%rdi)
	movb	%cl, 1(%rdi)
	movb	%al, 2(%rdi)
	retq
548:
	movzbl	2(%rsi), %ecx
	movzbl	3(%rsi), %eax
	shll	$8, %eax
	movzwl	%cx, %ecx
	andl	$3, %ecx
	orl	%ecx, %eax
	rolw	$8, %ax
	cmpw	$5, %ax
	jae	689f
	movb	$3, %al
	jmp	83b
689:
	incl	%eax
	movzwl	%ax, %eax
	cmpq	%rax, %rdx
	jae	409f
	movb	$4, %al
	jmp	83b
409:
	jbe	972f
	movb	$1, %cl
	jmp	890b
972:
	cmpq	$8, %rdx
	jae	253f
	movw	$769, (%rdi)
	movb	$0, 2(%rdi)
	retq
253:
	pushq	%rbx
	movw	$-1, %ax
928:
	movq	%rsi, %rcx
	addq	$-4, %rdx
	movzbl	2(%rsi), %esi
	movzbl	3(%rcx), %r8d
	movl	%eax, %r9d
	shrl	$8, %r9d
	xorb	(%rcx), %r9b
	movzbl	%r9b, %r9d
	leaq	.LT48aab116(%rip), %r10
	xorb	1(%rcx), %al
	movzbl	%al, %eax
	leaq	.LT33c05f58(%rip), %r11
	movzwl	(%r11,%rax,2), %eax
	leaq	.LTbb337a2b(%rip), %r11
	leaq	.LT48c7e4e5(%rip), %rbx
	xorw	(%r10,%r9,2), %ax
	xorw	(%r11,%rsi,2), %ax
	xorw	(%rbx,%r8,2), %ax
	leaq	4(%rcx), %rsi
	cmpq	$3, %rdx
	ja	928b
	testq	%rdx, %rdx
	je	978f
	xorl	%esi, %esi
548:
	movzbl	4(%rcx,%rsi), %r8d
	movzwl	%ax, %r9d
	shrl	$8, %r9d
	xorl	%r8d, %r9d
	movl	%r9d, %r8d
	shrl	$4, %r8d
	xorl	%r9d, %r8d
	shll	$8, %eax
	movl	%r8d, %r9d
	orl	%r8d, %eax
	shll	$12, %r8d
	shll	$5, %r9d
	xorl	%r8d, %eax
	xorl	%r9d, %eax
	incq	%rsi
	cmpq	%rsi, %rdx
	jne	548b
978:
	testw	%ax, %ax
	popq	%rbx
	je	325f
	movw	$1025, (%rdi)
	movb	$0, 2(%rdi)
	retq
325:
	movw	$0, (%rdi)
	movb	$0, 2(%rdi)
	retq
	.section	.text.core.cmp.slices.groups_equal._i8_31_core.cmp.numbers.U8PartialEq,"ax",@progbits
	.p2align	4
core.cmp.slices.groups_equal._i8_31_core.cmp.numbers.U8PartialEq:
	cmpq	$8, %rsi
	ja	972f
	movd	-4(%rdi,%rsi), %xmm0
	movd	(%rdi), %xmm1
	punpckldq	%xmm0, %xmm1
	movd	-4(%rdx,%rsi), %xmm0
	movd	(%rdx), %xmm2
	punpckldq	%xmm0, %xmm2
	movq	%xmm1, %rax
	movq	%xmm2, %rcx
	cmpq	%rcx, %rax
	jmp	353f
972:
	cmpq	$32, %rsi
	ja	972f
	leaq	-8(%rsi), %rax
	cmpq	$8, %rax
	movl	$8, %ecx
	cmovbq	%rax, %rcx
	cmpq	$16, %rax
	movl	$16, %r8d
	cmovbq	%rax, %r8
	movq	(%rdi,%rcx), %xmm0
	movq	(%rdi), %xmm1
	punpcklqdq	%xmm0, %xmm1
	movq	(%rdi,%r8), %xmm0
	movq	-8(%rdi,%rsi), %xmm2
	punpcklqdq	%xmm2, %xmm0
	movq	(%rdx,%rcx), %xmm2
	movq	(%rdx), %xmm3
	punpcklqdq	%xmm2, %xmm3
	pcmpeqb	%xmm1, %xmm3
	movq	(%rdx,%r8), %xmm1
	movq	-8(%rdx,%rsi), %xmm2
	punpcklqdq	%xmm2, %xmm1
	pcmpeqb	%xmm0, %xmm1
	pand	%xmm3, %xmm1
	pmovmskb	%xmm1, %eax
	jmp	83f
972:
	cmpq	$65, %rsi
	jae	890f
	movdqu	(%rdi), %xmm0
	movdqu	16(%rdi), %xmm1
	movdqu	(%rdx), %xmm2
	pcmpeqb	%xmm0, %xmm2
	movdqu	16(%rdx), %xmm0
	pcmpeqb	%xmm1, %xmm0
	movdqu	-32(%rdi,%rsi), %xmm1
	movdqu	-16(%rdi,%rsi), %xmm3
	movdqu	-32(%rdx,%rsi), %xmm4
	pcmpeqb	%xmm1, %xmm4
	pand	%xmm2, %xmm4
	movdqu	-16(%rdx,%rsi), %xmm1
	pcmpeqb	%xmm3, %xmm1
	pand	%xmm0, %xmm1
	pand	%xmm4, %xmm1
	pmovmskb	%xmm1, %eax
	jmp	83f
890:
	xorl	%eax, %eax
	movq	%rsi, %rcx
	.p2align	4
856:
	movdqu	(%rdi,%rax), %xmm0
	movdqu	16(%rdi,%rax), %xmm1
	movdqu	32(%rdi,%rax), %xmm2
	movdqu	48(%rdi,%rax), %xmm3
	movdqu	(%rdx,%rax), %xmm4
	pcmpeqb	%xmm0, %xmm4
	movdqu	16(%rdx,%rax), %xmm0
	pcmpeqb	%xmm1, %xmm0
	movdqu	32(%rdx,%rax), %xmm1
	pcmpeqb	%xmm2, %xmm1
	pand	%xmm4, %xmm1
	movdqu	48(%rdx,%rax), %xmm2
	pcmpeqb	%xmm3, %xmm2
	pand	%xmm0, %xmm2
	pand	%xmm1, %xmm2
	pmovmskb	%xmm2, %r8d
	cmpl	$65535, %r8d
	jne	972f
	addq	$64, %rax
	addq	$-64, %rcx
	cmpq	$63, %rcx
	ja	856b
972:
	cmpq	$32, %rcx
	jb	918f
	movq	%rsi, %rcx
	subq	%rax, %rcx
	.p2align	4
856:
	movdqu	(%rdi,%rax), %xmm0
	movdqu	16(%rdi,%rax), %xmm1
	movdqu	(%rdx,%rax), %xmm2
	pcmpeqb	%xmm0, %xmm2
	movdqu	16(%rdx,%rax), %xmm0
	pcmpeqb	%xmm1, %xmm0
	pand	%xmm2, %xmm0
	pmovmskb	%xmm0, %r8d
	xorl	$65535, %r8d
	jne	409f
	addq	$32, %rax
	addq	$-32, %rcx
	cmpq	$32, %rcx
	jae	856b
	jmp	918f
409:
	movb	$1, %al
	cmpq	$31, %rcx
	ja	482f
918:
	movdqu	-32(%rdi,%rsi), %xmm0
	movdqu	-16(%rdi,%rsi), %xmm1
	movdqu	-32(%rdx,%rsi), %xmm2
	pcmpeqb	%xmm0, %xmm2
	movdqu	-16(%rdx,%rsi), %xmm0
	pcmpeqb	%xmm1, %xmm0
	pand	%xmm2, %xmm0
	pmovmskb	%xmm0, %eax
83:
	xorl	$65535, %eax
353:
	setne	%al
482:
	xorb	$1, %al
	retq
	.section	.text.tc_c.decoder.take_blocks,"ax",@progbits
	.p2align	4
tc_c.decoder.take_blocks:
	pushq	%rbp
	pushq	%r15
	pushq	%r14
	pushq	%r13
	pushq	%r12
	pushq	%rbx
	movq	%r9, -8(%rsp)
	movzwl	%dx, %r10d
	cmpl	$1022, %r10d
	jbe	928f
	xorl	%eax, %eax
	xorl	%r9d, %r9d
	jmp	325f
928:
	movq	56(%rsp), %rdx
	subq	%r10, %rdx
	testb	%sil, %sil
	je	890f
	xorl	%r9d, %r9d
	xorl	%eax, %eax
	movq	%r10, %r11
	jmp	972f
	.p2align	4
928:
	movq	-8(%rsp), %rsi
	movq	%r10, (%rsi,%r11)
669:
	leaq	7(%r11), %r10
	addq	$8, %rax
	addq	%rbx, %r9
	addq	$-8, %r8
	addq	$-7, %rdx
	cmpq	$1016, %r11
	movq	%r10, %r11
	jae	325f
972:
	cmpq	$8, %r8
	jb	928f
	movzbl	(%rcx,%rax), %r10d
	movzbl	1(%rcx,%rax), %ebx
	movzbl	2(%rcx,%rax), %r14d
	movzbl	3(%rcx,%rax), %r15d
	movzbl	4(%rcx,%rax), %r12d
	movzbl	5(%rcx,%rax), %r13d
	movzbl	6(%rcx,%rax), %ebp
	leaq	.LTb4175d02(%rip), %rsi
	movzbl	1536(%r10,%rsi), %r10d
	xorb	1280(%rbx,%rsi), %r10b
	xorb	1024(%r14,%rsi), %r10b
	xorb	768(%r15,%rsi), %r10b
	xorb	512(%r12,%rsi), %r10b
	xorb	256(%r13,%rsi), %r10b
	xorb	(%rbp,%rsi), %r10b
	movzbl	7(%rcx,%rax), %ebx
	xorb	$127, %r10b
	shrb	%bl
	cmpb	%bl, %r10b
	jne	482f
	movq	(%rcx,%rax), %r10
	xorl	%ebx, %ebx
	cmpq	$8, %rdx
	jb	669b
	jmp	928b
	.p2align	4
482:
	xorb	%bl, %r10b
	movzbl	%r10b, %esi
	leaq	.LTddd25b9b(%rip), %r10
	movq	(%r10,%rsi,8), %r10
	testq	%r10, %r10
	je	928f
	xorq	(%rcx,%rax), %r10
	movl	$1, %ebx
	cmpq	$8, %rdx
	jb	669b
	jmp	928b
890:
	xorl	%eax, %eax
	jmp	972f
	.p2align	4
669:
	leaq	7(%r10), %r11
	addq	$8, %rax
	addq	$-8, %r8
	addq	$-7, %rdx
	cmpq	$1015, %r10
	movq	%r11, %r10
	ja	83f
972:
	cmpq	$8, %r8
	jb	890f
	movzbl	(%rcx,%rax), %esi
	movzbl	1(%rcx,%rax), %r11d
	movzbl	2(%rcx,%rax), %ebx
	movzbl	3(%rcx,%rax), %r14d
	movzbl	4(%rcx,%rax), %r15d
	movzbl	5(%rcx,%rax), %r12d
	movzbl	6(%rcx,%rax), %r13d
	leaq	.LTb4175d02(%rip), %rbp
	movzbl	1536(%rsi,%rbp), %esi
	xorb	1280(%r11,%rbp), %sil
	xorb	1024(%rbx,%rbp), %sil
	xorb	768(%r14,%rbp), %sil
	xorb	512(%r15,%rbp), %sil
	xorb	256(%r12,%rbp), %sil
	xorb	(%r13,%rbp), %sil
	movzbl	7(%rcx,%rax), %r11d
	shrb	%r11b
	xorb	%sil, %r11b
	cmpb	$127, %r11b
	jne	890f
	cmpq	$8, %rdx
	jb	669b
	movq	(%rcx,%rax), %rsi
	movq	-8(%rsp), %r9
	movq	%rsi, (%r9,%r10)
	jmp	669b
890:
	xorl	%r9d, %r9d
	jmp	325f
83:
	xorl	%r9d, %r9d
928:
	movq	%r11, %r10
325:
	movw	%r10w, (%rdi)
	movl	$0, 2(%rdi)
	movw	$0, 6(%rdi)
	movq	%rax, 8(%rdi)
	movq	%r9, 16(%rdi)
	popq	%rbx
	popq	%r12
	popq	%r13
	popq	%r14
	popq	%r15
	popq	%rbp
	retq
	.section	.text.tc_c.rack.bring,"ax",@progbits
	.p2align	4
tc_c.rack.bring:
	pushq	%rbp
	pushq	%rbx
	subq	$24, %rsp
	movq	%rdi, %rbx
	movb	$1, %al
	cmpq	$5, %r9
	jb	548f
	movzwl	(%r8), %edi
	movl	%edi, %r10d
	rolw	$8, %r10w
	movzwl	%r10w, %r11d
	movb	$2, %al
	cmpl	$16383, %r11d
	ja	548f
	movb	$3, %al
	testl	$3072, %r10d
	jne	548f
	movzbl	2(%r8), %ebp
	movzbl	3(%r8), %r10d
	shll	$8, %r10d
	movzwl	%bp, %eax
	andl	$3, %eax
	orl	%eax, %r10d
	rolw	$8, %r10w
	movb	$4, %al
	cmpw	$5, %r10w
	jb	548f
	incl	%r10d
	movzwl	%r10w, %r10d
	movb	$5, %al
	cmpq	%r10, %r9
	jb	548f
	andl	$65283, %edi
	rolw	$8, %di
	movb	$45, %al
	cmpw	%cx, %di
	jne	548f
	movb	$46, %al
	testq	%rdx, %rdx
	je	548f
	shrb	$2, %bpl
	jmp	868f
850:
	addq	$16, %rsi
	decq	%rdx
	je	548f
868:
	cmpb	$1, (%rsi)
	jne	850b
	movq	8(%rsi), %rcx
	cmpb	%bpl, (%rcx)
	jne	850b
	xorps	%xmm0, %xmm0
	movaps	%xmm0, (%rsp)
	movq	%rsp, %rdi
	movq	%r8, %rdx
	movq	%r9, %rcx
	callq	tc_c.channel.tcrx_channel_frame_at
	movl	(%rsp), %eax
	movsd	4(%rsp), %xmm0
	movzbl	12(%rsp), %ecx
	movzbl	13(%rsp), %edx
	movzbl	14(%rsp), %esi
	jmp	327f
548:
	movzbl	%al, %edi
	callq	tc_c_base.status.code
	xorps	%xmm0, %xmm0
	xorl	%ecx, %ecx
	xorl	%edx, %edx
	xorl	%esi, %esi
	xorl	%ebp, %ebp
327:
	movl	%eax, (%rbx)
	movlps	%xmm0, 4(%rbx)
	movb	%cl, 12(%rbx)
	movb	%dl, 13(%rbx)
	movb	%sil, 14(%rbx)
	movb	%bpl, 15(%rbx)
	addq	$24, %rsp
	popq	%rbx
	popq	%rbp
	retq
	.section	.text.tcrx_add_fecf_at,"ax",@progbits
	.globl	tcrx_add_fecf_at
	.p2align	4
	.type	tcrx_add_fecf_at,@function
tcrx_add_fecf_at:
	pushq	%rbp
	pushq	%r15
	pushq	%r14
	pushq	%r12
	pushq	%rbx
	xorl	%r9d, %r9d
	testq	%rdi, %rdi
	sete	%r8b
	xorl	%r10d, %r10d
	testq	%rdx, %rdx
	sete	%al
	movb	$1, %r11b
	cmpq	$5, %rsi
	jb	548f
	movb	%r8b, %r9b
	shll	$12, %r9d
	leaq	(%rdi,%r9), %r8
	movzwl	(%r8), %ebx
	rolw	$8, %bx
	movzwl	%bx, %ebp
	movb	$2, %r11b
	cmpl	$16383, %ebp
	ja	548f
	movb	$3, %r11b
	testl	$3072, %ebx
	jne	548f
	movzbl	2(%r8), %r11d
	movzbl	3(%r8), %ebp
	shll	$8, %ebp
	movzwl	%r11w, %r11d
	andl	$3, %r11d
	orl	%r11d, %ebp
	rolw	$8, %bp
	movb	$4, %r11b
	cmpw	$5, %bp
	jb	548f
	movb	%al, %r10b
	shll	$12, %r10d
	leaq	(%rdx,%r10), %rbx
	incl	%ebp
	movzwl	%bp, %eax
	movb	$5, %r11b
	cmpq	%rax, %rsi
	jb	548f
	movb	$6, %r11b
	ja	548f
	movb	$15, %r11b
	cmpq	$1023, %rsi
	jb	669f
548:
	movzbl	%r11b, %edi
	callq	tc_c_base.status.code
	movl	%eax, %eax
	xorl	%edx, %edx
912:
	popq	%rbx
	popq	%r12
	popq	%r14
	popq	%r15
	popq	%rbp
	retq
669:
	leaq	2(%rsi), %r11
	movl	$50, %eax
	movq	%r11, %r15
	cmpq	%r11, %rcx
	jae	471f
	movq	%r15, %rdx
	jmp	912b
471:
	movzwl	2(%r8), %ebp
	rolw	$8, %bp
	addl	$2, %ebp
	movl	%ebp, %r12d
	shrl	$8, %r12d
	movq	%rbx, %rax
	subq	%r8, %rax
	cmpq	%rsi, %rax
	jae	928f
	leaq	(%rdx,%r10), %rax
	subq	%r8, %rax
	cmpq	$32, %rax
	jae	972f
	xorl	%eax, %eax
	jmp	859f
928:
	movq	%rbx, %rdi
	movq	%rsi, %r14
	movq	%r8, %rsi
	movq	%r14, %rdx
	callq	memmove@PLT
	movq	%r14, %rsi
	jmp	409f
972:
	cmpq	$32, %rsi
	jae	327f
	xorl	%eax, %eax
	jmp	928f
327:
	movl	%esi, %eax
	andl	$992, %eax
	leaq	(%r9,%rdi), %rcx
	addq	$16, %rcx
	leaq	(%r10,%rdx), %r11
	addq	$16, %r11
	xorl	%r14d, %r14d
464:
	movups	-16(%rcx,%r14), %xmm0
	movups	(%rcx,%r14), %xmm1
	movups	%xmm0, -16(%r11,%r14)
	movups	%xmm1, (%r11,%r14)
	addq	$32, %r14
	cmpq	%r14, %rax
	jne	464b
	cmpq	%rax, %rsi
	je	409f
	testb	$28, %sil
	je	859f
928:
	movq	%rax, %rcx
	movl	%esi, %eax
	andl	$1020, %eax
327:
	movl	(%r8,%rcx), %r11d
	movl	%r11d, (%rbx,%rcx)
	addq	$4, %rcx
	cmpq	%rcx, %rax
	jne	327b
	cmpq	%rax, %rsi
	je	409f
859:
	movq	%rsi, %r11
	movq	%rax, %rcx
	andq	$3, %r11
	je	980f
	movq	%rax, %rcx
548:
	movzbl	(%r8,%rcx), %r14d
	movb	%r14b, (%rbx,%rcx)
	incq	%rcx
	decq	%r11
	jne	548b
980:
	subq	%rsi, %rax
	cmpq	$-4, %rax
	ja	409f
	leaq	(%r9,%rdi), %rax
	addq	$3, %rax
	addq	%r10, %rdx
	addq	$3, %rdx
548:
	movzbl	-3(%rax,%rcx), %edi
	movb	%dil, -3(%rdx,%rcx)
	movzbl	-2(%rax,%rcx), %edi
	movb	%dil, -2(%rdx,%rcx)
	movzbl	-1(%rax,%rcx), %edi
	movb	%dil, -1(%rdx,%rcx)
	movzbl	(%rax,%rcx), %edi
	movb	%dil, (%rdx,%rcx)
	addq	$4, %rcx
	cmpq	%rcx, %rsi
	jne	548b
409:
	movb	%r12b, 2(%rbx)
	movb	%bpl, 3(%rbx)
	movw	$-1, %ax
	movq	%rbx, %rdx
	movq	%rsi, %rcx
928:
	movq	%rdx, %rdi
	addq	$-4, %rcx
	movzbl	2(%rdx), %edx
	movzbl	3(%rdi), %r8d
	movl	%eax, %r9d
	shrl	$8, %r9d
	xorb	(%rdi), %r9b
	movzbl	%r9b, %r9d
	leaq	.LT48aab116(%rip), %r10
	xorb	1(%rdi), %al
	movzbl	%al, %eax
	leaq	.LT33c05f58(%rip), %r11
	movzwl	(%r11,%rax,2), %eax
	leaq	.LTbb337a2b(%rip), %r11
	leaq	.LT48c7e4e5(%rip), %r14
	xorw	(%r10,%r9,2), %ax
	xorw	(%r11,%rdx,2), %ax
	xorw	(%r14,%r8,2), %ax
	leaq	4(%rdi), %rdx
	cmpq	$3, %rcx
	ja	928b
	testq	%rcx, %rcx
	movq	%r15, %rdx
	je	750f
	xorl	%r8d, %r8d
548:
	movzbl	4(%rdi,%r8), %r9d
	movzwl	%ax, %r10d
	shrl	$8, %r10d
	xorl	%r9d, %r10d
	movl	%r10d, %r9d
	shrl	$4, %r9d
	xorl	%r10d, %r9d
	shll	$8, %eax
	movl	%r9d, %r10d
	orl	%r9d, %eax
	shll	$12, %r9d
	shll	$5, %r10d
	xorl	%r9d, %eax
	xorl	%r10d, %eax
	incq	%r8
	cmpq	%r8, %rcx
	jne	548b
750:
	rolw	$8, %ax
	movw	%ax, (%rbx,%rsi)
	xorl	%eax, %eax
	jmp	912b
	.size	tcrx_add_fecf_at, .-tcrx_add_fecf_at
	.section	.text.tcrx_channel_buffered_at,"ax",@progbits
	.globl	tcrx_channel_buffered_at
	.p2align	4
	.type	tcrx_channel_buffered_at,@function
tcrx_channel_buffered_at:
	cmpb	$1, (%rdi)
	jne	327f
	movq	8(%rdi), %rax
	movq	128(%rax), %rdx
	xorl	%eax, %eax
	retq
327:
	movl	$70, %eax
	xorl	%edx, %edx
	retq
	.size	tcrx_channel_buffered_at, .-tcrx_channel_buffered_at
	.section	.text.tcrx_channel_clcw_at,"ax",@progbits
	.globl	tcrx_channel_clcw_at
	.p2align	4
	.type	tcrx_channel_clcw_at,@function
tcrx_channel_clcw_at:
	movl	$70, %eax
	cmpb	$1, (%rdi)
	jne	5f
	movl	%edx, %ecx
	orb	%sil, %cl
	movl	$23, %eax
	cmpb	$1, %cl
	ja	5f
	movq	8(%rdi), %r8
	movzbl	90(%r8), %r9d
	movzbl	91(%r8), %eax
	movzbl	92(%r8), %edi
	movzbl	93(%r8), %ecx
	movzbl	94(%r8), %r10d
	movzbl	(%r8), %r8d
	movzbl	%sil, %esi
	shll	$15, %esi
	movzbl	%dl, %edx
	shll	$14, %edx
	orl	%esi, %edx
	orl	%r9d, %edx
	shlq	$50, %r8
	shlq	$41, %r10
	shlq	$43, %rcx
	addq	%r10, %rcx
	addq	%r8, %rcx
	shlq	$44, %rdi
	shlq	$45, %rax
	addq	%rdi, %rax
	shlq	$32, %rdx
	addq	%rax, %rdx
	addq	%rcx, %rdx
	movabsq	$72057594037927936, %rcx
	addq	%rdx, %rcx
	movabsq	$-4294967296, %rax
	andq	%rcx, %rax
5:
	retq
	.size	tcrx_channel_clcw_at, .-tcrx_channel_clcw_at
	.section	.text.tcrx_channel_events_at,"ax",@progbits
	.globl	tcrx_channel_events_at
	.p2align	4
	.type	tcrx_channel_events_at,@function
tcrx_channel_events_at:
	cmpb	$1, (%rdi)
	jne	327f
	movq	8(%rdi), %rax
	movq	288(%rax), %rdx
	xorl	%eax, %eax
	retq
327:
	movl	$70, %eax
	xorl	%edx, %edx
	retq
	.size	tcrx_channel_events_at, .-tcrx_channel_events_at
	.section	.text.tcrx_channel_frame_at,"ax",@progbits
	.globl	tcrx_channel_frame_at
	.p2align	4
	.type	tcrx_channel_frame_at,@function
tcrx_channel_frame_at:
	subq	$24, %rsp
	movq	%rdx, %rcx
	movq	%rdi, %rax
	xorl	%edx, %edx
	testq	%rsi, %rsi
	sete	%dl
	shll	$12, %edx
	addq	%rsi, %rdx
	leaq	8(%rsp), %rdi
	movq	%rax, %rsi
	callq	tc_c.channel.tcrx_channel_frame_at
	movq	8(%rsp), %rax
	movq	16(%rsp), %rdx
	addq	$24, %rsp
	retq
	.size	tcrx_channel_frame_at, .-tcrx_channel_frame_at
	.section	.text.tcrx_channel_free_at,"ax",@progbits
	.globl	tcrx_channel_free_at
	.p2align	4
	.type	tcrx_channel_free_at,@function
tcrx_channel_free_at:
	movq	%rdi, %rax
	movzbl	(%rdi), %edx
	movq	8(%rdi), %rdi
	xorps	%xmm0, %xmm0
	movups	%xmm0, (%rax)
	testb	$1, %dl
	je	890f
	pushq	%rbp
	pushq	%r15
	pushq	%r14
	pushq	%r13
	pushq	%r12
	pushq	%rbx
	subq	$152, %rsp
	movb	%dl, 7(%rsp)
	movq	8(%rdi), %rax
	movq	%rax, 16(%rsp)
	movq	32(%rdi), %rax
	movq	%rax, 24(%rsp)
	movq	48(%rdi), %rbx
	movq	64(%rdi), %rax
	movq	%rax, 32(%rsp)
	movq	80(%rdi), %rax
	movq	%rax, 56(%rsp)
	movq	96(%rdi), %rax
	movq	%rax, 8(%rsp)
	movq	104(%rdi), %r13
	movq	112(%rdi), %r12
	movq	120(%rdi), %rbp
	movq	168(%rdi), %rax
	movq	%rax, 80(%rsp)
	movq	176(%rdi), %r15
	movq	184(%rdi), %rax
	movq	%rax, 64(%rsp)
	movq	24(%rdi), %r14
	movq	208(%rdi), %rax
	movq	%rax, 144(%rsp)
	movups	192(%rdi), %xmm0
	movaps	%xmm0, 128(%rsp)
	movq	216(%rdi), %rax
	movq	%rax, 40(%rsp)
	movq	232(%rdi), %rax
	movq	%rax, 72(%rsp)
	movq	256(%rdi), %rax
	movq	%rax, 112(%rsp)
	movups	240(%rdi), %xmm0
	movaps	%xmm0, 96(%rsp)
	movq	264(%rdi), %rax
	movq	%rax, 48(%rsp)
	movq	280(%rdi), %rax
	movq	%rax, 88(%rsp)
	callq	rattle_dealloc@PLT
	testq	%r14, %r14
	je	211f
	movq	16(%rsp), %rdi
	callq	rattle_dealloc@PLT
211:
	testq	%rbx, %rbx
	je	972f
	movq	24(%rsp), %rdi
	callq	rattle_dealloc@PLT
972:
	cmpq	$0, 56(%rsp)
	je	211f
	movq	32(%rsp), %rdi
	callq	rattle_dealloc@PLT
211:
	testq	%r12, %r12
	je	928f
	xorl	%eax, %eax
	cmpq	%r13, %rbp
	cmovaeq	%r13, %rax
	movq	%rbp, %rcx
	subq	%rax, %rcx
	movq	%r13, %rbx
	subq	%rcx, %rbx
	cmpq	%r12, %rbx
	cmovaeq	%r12, %rbx
	subq	%rcx, %r13
	jne	682f
972:
	cmpq	%r13, %r12
	jbe	928f
	subq	%rbx, %r12
	movq	8(%rsp), %rax
	leaq	16(%rax), %rbx
	jmp	489f
	.p2align	4
850:
	addq	$32, %rbx
	decq	%r12
	je	928f
489:
	cmpq	$0, (%rbx)
	je	850b
	movq	-16(%rbx), %rdi
	callq	rattle_dealloc@PLT
	jmp	850b
928:
	movq	8(%rsp), %rdi
	callq	rattle_dealloc@PLT
	testq	%r15, %r15
	movq	80(%rsp), %r14
	je	778f
	leaq	24(%r14), %rbx
	jmp	489f
	.p2align	4
850:
	addq	$40, %rbx
	decq	%r15
	je	778f
489:
	cmpq	$0, (%rbx)
	je	850b
	movq	-16(%rbx), %rdi
	callq	rattle_dealloc@PLT
	jmp	850b
778:
	cmpq	$0, 64(%rsp)
	je	669f
	movq	%r14, %rdi
	callq	rattle_dealloc@PLT
669:
	leaq	128(%rsp), %rdi
	callq	std_alloc.vec.Vec.drop._d9a1838fed3faa39
	cmpq	$0, 72(%rsp)
	je	669f
	movq	40(%rsp), %rdi
	callq	rattle_dealloc@PLT
669:
	leaq	96(%rsp), %rdi
	callq	std_alloc.vec.Vec.drop._d9a1838fed3faa39
	cmpq	$0, 88(%rsp)
	je	548f
	movq	48(%rsp), %rdi
	callq	rattle_dealloc@PLT
548:
	movzbl	7(%rsp), %edx
	addq	$152, %rsp
	popq	%rbx
	popq	%r12
	popq	%r13
	popq	%r14
	popq	%r15
	popq	%rbp
890:
	xorl	%ecx, %ecx
	testb	$1, %dl
	movl	$70, %eax
	cmovnel	%ecx, %eax
	retq
682:
	shlq	$5, %rbp
	shlq	$5, %rax
	subq	%rax, %rbp
	movq	8(%rsp), %rax
	leaq	(%rax,%rbp), %r14
	addq	$16, %r14
	movq	%rbx, %rbp
	jmp	972f
	.p2align	4
850:
	addq	$32, %r14
	decq	%rbp
	je	972b
972:
	cmpq	$0, (%r14)
	je	850b
	movq	-16(%r14), %rdi
	callq	rattle_dealloc@PLT
	jmp	850b
	.size	tcrx_channel_free_at, .-tcrx_channel_free_at
	.section	.text.tcrx_channel_new_at,"ax",@progbits
	.globl	tcrx_channel_new_at
	.p2align	4
	.type	tcrx_channel_new_at,@function
tcrx_channel_new_at:
	pushq	%rbp
	pushq	%r15
	pushq	%r14
	pushq	%r13
	pushq	%r12
	pushq	%rbx
	subq	$1000, %rsp
	xorl	%r11d, %r11d
	testq	%rdx, %rdx
	sete	%r14b
	xorl	%r10d, %r10d
	testq	%r8, %r8
	sete	%bpl
	movl	$71, %eax
	cmpb	$0, (%rdi)
	jne	850f
	movq	%rsi, %rbx
	shrq	$32, %rbx
	xorps	%xmm0, %xmm0
	movaps	%xmm0, 144(%rsp)
	movaps	%xmm0, 160(%rsp)
	movaps	%xmm0, 176(%rsp)
	movaps	%xmm0, 192(%rsp)
	movaps	%xmm0, 352(%rsp)
	movaps	%xmm0, 368(%rsp)
	movaps	%xmm0, 384(%rsp)
	movaps	%xmm0, 400(%rsp)
	movaps	%xmm0, 416(%rsp)
	movaps	%xmm0, 432(%rsp)
	movaps	%xmm0, 448(%rsp)
	movaps	%xmm0, 464(%rsp)
	movaps	%xmm0, 208(%rsp)
	movq	$0, 224(%rsp)
	movaps	%xmm0, 528(%rsp)
	movaps	%xmm0, 544(%rsp)
	movaps	%xmm0, 560(%rsp)
	movaps	%xmm0, 576(%rsp)
	movaps	%xmm0, 592(%rsp)
	movaps	%xmm0, 608(%rsp)
	movaps	%xmm0, 624(%rsp)
	movaps	%xmm0, 640(%rsp)
	cmpb	$1, %bl
	ja	409f
	movq	%rdi, 488(%rsp)
	movl	%esi, %r15d
	shrl	$8, %r15d
	movl	%esi, %r12d
	shrl	$16, %r12d
	movl	%esi, %r13d
	shrl	$24, %r13d
	movb	%r14b, %r11b
	shll	$12, %r11d
	addq	%r11, %rdx
	movb	%bpl, %r10b
	shll	$12, %r10d
	addq	%r10, %r8
	movq	%rsi, 32(%rsp)
	movb	%sil, 656(%rsp)
	movb	%r15b, 657(%rsp)
	movb	%r12b, 658(%rsp)
	movb	%r13b, 659(%rsp)
	movb	%bl, 660(%rsp)
	movw	$0, 661(%rsp)
	movb	$0, 663(%rsp)
	movq	%rdx, 16(%rsp)
	movq	%rdx, 664(%rsp)
	movq	%rcx, 24(%rsp)
	movq	%rcx, 672(%rsp)
	movq	%r8, %rbp
	movq	%r8, 680(%rsp)
	movq	%r9, %r14
	movq	%r9, 688(%rsp)
	leaq	656(%rsp), %rdi
	callq	tc_queues.settings.LentSettings.check
	testb	%al, %al
	je	928f
	movzbl	%dl, %eax
	leaq	.Lswitch.table.tcrx_storage_with_limits_at(%rip), %rcx
	movzbl	(%rax,%rcx), %ebp
	jmp	548f
409:
	movb	$22, %bpl
548:
	movzbl	%bpl, %edi
	callq	tc_c_base.status.code
850:
	addq	$1000, %rsp
	popq	%rbx
	popq	%r12
	popq	%r13
	popq	%r14
	popq	%r15
	popq	%rbp
	retq
928:
	movq	32(%rsp), %rax
	movb	%al, 64(%rsp)
	movb	%r15b, 65(%rsp)
	movb	%r12b, 66(%rsp)
	movb	%r13b, 67(%rsp)
	movb	%bl, 68(%rsp)
	movw	$0, 69(%rsp)
	movb	$0, 71(%rsp)
	movq	16(%rsp), %rax
	movq	%rax, 72(%rsp)
	movq	24(%rsp), %rax
	movq	%rax, 80(%rsp)
	movq	%rbp, 88(%rsp)
	movq	%r14, 96(%rsp)
	leaq	144(%rsp), %rdi
	leaq	64(%rsp), %rsi
	callq	tc_queues.settings.LentSettings.copied
	movb	$12, %bpl
	cmpb	$0, 144(%rsp)
	jne	548b
	movzbl	152(%rsp), %r14d
	movzbl	153(%rsp), %r13d
	movzbl	154(%rsp), %eax
	movb	%al, 48(%rsp)
	movzbl	155(%rsp), %eax
	movb	%al, 336(%rsp)
	movzbl	156(%rsp), %ebx
	movq	160(%rsp), %r12
	movq	168(%rsp), %r15
	movq	176(%rsp), %rax
	movq	%rax, 24(%rsp)
	movq	184(%rsp), %rax
	movq	%rax, 32(%rsp)
	movq	192(%rsp), %rax
	movq	%rax, 56(%rsp)
	movq	200(%rsp), %rax
	movq	%rax, 16(%rsp)
	leaq	656(%rsp), %rdi
	movl	$304, %edx
	xorl	%esi, %esi
	callq	memset@PLT
	xorps	%xmm0, %xmm0
	movups	%xmm0, 272(%rsp)
	movups	%xmm0, 512(%rsp)
	movb	%r14b, 304(%rsp)
	movb	%r14b, 104(%rsp)
	movq	%r12, %r14
	movzbl	48(%rsp), %r12d
	movb	%r13b, 320(%rsp)
	movb	%r13b, 105(%rsp)
	movzbl	336(%rsp), %r13d
	movb	%r12b, 106(%rsp)
	movb	%r13b, 107(%rsp)
	movb	%bl, 288(%rsp)
	movb	%bl, 108(%rsp)
	movw	$0, 109(%rsp)
	movb	$0, 111(%rsp)
	movq	%r14, 112(%rsp)
	movq	%r15, 40(%rsp)
	movq	%r15, 120(%rsp)
	movq	56(%rsp), %r15
	movq	32(%rsp), %rbx
	movq	%rbx, 128(%rsp)
	movq	%r15, 136(%rsp)
	leaq	104(%rsp), %rdi
	callq	tc_queues.settings.LentSettings.check
	testb	%al, %al
	je	669f
	movq	16(%rsp), %r15
	cmpq	$0, 24(%rsp)
	je	211f
	movq	%r14, %rdi
	callq	rattle_dealloc@PLT
211:
	testq	%r15, %r15
	je	548b
	movq	%rbx, %rdi
	callq	rattle_dealloc@PLT
	jmp	548b
669:
	leaq	512(%rsp), %rax
	movzbl	304(%rsp), %ecx
	movb	%cl, 232(%rsp)
	movzbl	320(%rsp), %ecx
	movb	%cl, 233(%rsp)
	movb	%r12b, 234(%rsp)
	movb	%r13b, 235(%rsp)
	movzbl	288(%rsp), %ecx
	movb	%cl, 236(%rsp)
	movzwl	157(%rsp), %ecx
	movw	%cx, 237(%rsp)
	movzbl	159(%rsp), %ecx
	movb	%cl, 239(%rsp)
	movq	%r14, 240(%rsp)
	movq	40(%rsp), %rcx
	movq	%rcx, 248(%rsp)
	movq	24(%rsp), %rcx
	movq	%rcx, 256(%rsp)
	movq	%rbx, 264(%rsp)
	movq	%r15, 272(%rsp)
	movq	16(%rsp), %rcx
	movq	%rcx, 280(%rsp)
	movq	$65542, 496(%rsp)
	leaq	12(%rsp), %rcx
	movq	%rcx, 504(%rsp)
	xorps	%xmm0, %xmm0
	movups	%xmm0, (%rax)
	leaq	656(%rsp), %rdi
	leaq	232(%rsp), %rsi
	leaq	496(%rsp), %rdx
	callq	tc_fixed.channel.start._2310a0e7207bbbe1
	cmpb	$0, 656(%rsp)
	jne	548b
	movq	672(%rsp), %rax
	movq	%rax, 480(%rsp)
	movups	664(%rsp), %xmm0
	movaps	%xmm0, 304(%rsp)
	movq	688(%rsp), %rax
	movq	%rax, 40(%rsp)
	movups	680(%rsp), %xmm0
	movaps	%xmm0, 288(%rsp)
	movq	696(%rsp), %r12
	movq	712(%rsp), %rax
	movq	%rax, 56(%rsp)
	movups	704(%rsp), %xmm0
	movaps	%xmm0, 976(%rsp)
	movq	720(%rsp), %r15
	movq	728(%rsp), %rbx
	movq	744(%rsp), %rax
	movq	%rax, 32(%rsp)
	movups	736(%rsp), %xmm0
	movaps	%xmm0, 960(%rsp)
	movq	880(%rsp), %r13
	movq	896(%rsp), %rax
	movq	%rax, 16(%rsp)
	movups	888(%rsp), %xmm0
	movaps	%xmm0, 320(%rsp)
	movq	928(%rsp), %r14
	movq	944(%rsp), %rax
	movq	%rax, 24(%rsp)
	movups	936(%rsp), %xmm0
	movaps	%xmm0, 336(%rsp)
	movq	952(%rsp), %rax
	movq	%rax, 48(%rsp)
	movups	864(%rsp), %xmm0
	movaps	%xmm0, 464(%rsp)
	movups	848(%rsp), %xmm0
	movaps	%xmm0, 448(%rsp)
	movups	832(%rsp), %xmm0
	movaps	%xmm0, 432(%rsp)
	movups	816(%rsp), %xmm0
	movaps	%xmm0, 416(%rsp)
	movups	752(%rsp), %xmm0
	movups	768(%rsp), %xmm1
	movups	784(%rsp), %xmm2
	movups	800(%rsp), %xmm3
	movaps	%xmm3, 400(%rsp)
	movaps	%xmm2, 384(%rsp)
	movaps	%xmm1, 368(%rsp)
	movaps	%xmm0, 352(%rsp)
	movups	904(%rsp), %xmm0
	movaps	%xmm0, 208(%rsp)
	movq	920(%rsp), %rax
	movq	%rax, 224(%rsp)
	movl	$296, %edi
	movl	$8, %esi
	callq	rattle_alloc@PLT
	testb	$1, %al
	je	680f
	movaps	304(%rsp), %xmm0
	movups	%xmm0, (%rdx)
	movaps	288(%rsp), %xmm0
	movups	%xmm0, 16(%rdx)
	movq	%r12, 32(%rdx)
	movaps	976(%rsp), %xmm0
	movups	%xmm0, 40(%rdx)
	movq	%r15, 56(%rdx)
	movq	%rbx, 64(%rdx)
	movaps	960(%rsp), %xmm0
	movups	%xmm0, 72(%rdx)
	movaps	352(%rsp), %xmm0
	movaps	368(%rsp), %xmm1
	movaps	384(%rsp), %xmm2
	movaps	400(%rsp), %xmm3
	movups	%xmm0, 88(%rdx)
	movups	%xmm1, 104(%rdx)
	movups	%xmm2, 120(%rdx)
	movups	%xmm3, 136(%rdx)
	movaps	416(%rsp), %xmm0
	movups	%xmm0, 152(%rdx)
	movaps	432(%rsp), %xmm0
	movups	%xmm0, 168(%rdx)
	movaps	448(%rsp), %xmm0
	movups	%xmm0, 184(%rdx)
	movaps	464(%rsp), %xmm0
	movups	%xmm0, 200(%rdx)
	movq	%r13, 216(%rdx)
	movaps	320(%rsp), %xmm0
	movups	%xmm0, 224(%rdx)
	movaps	208(%rsp), %xmm0
	movups	%xmm0, 240(%rdx)
	movq	224(%rsp), %rax
	movq	%rax, 256(%rdx)
	movq	%r14, 264(%rdx)
	movaps	336(%rsp), %xmm0
	movups	%xmm0, 272(%rdx)
	movq	48(%rsp), %rax
	movq	%rax, 288(%rdx)
	movq	488(%rsp), %rax
	movb	$1, (%rax)
	movl	$0, 1(%rax)
	movl	$0, 4(%rax)
	movq	%rdx, 8(%rax)
	xorl	%eax, %eax
	jmp	850b
680:
	movaps	464(%rsp), %xmm0
	movaps	%xmm0, 640(%rsp)
	movaps	448(%rsp), %xmm0
	movaps	%xmm0, 624(%rsp)
	movaps	432(%rsp), %xmm0
	movaps	%xmm0, 608(%rsp)
	movaps	416(%rsp), %xmm0
	movaps	%xmm0, 592(%rsp)
	movaps	352(%rsp), %xmm0
	movaps	368(%rsp), %xmm1
	movaps	384(%rsp), %xmm2
	movaps	400(%rsp), %xmm3
	movaps	%xmm3, 576(%rsp)
	movaps	%xmm2, 560(%rsp)
	movaps	%xmm1, 544(%rsp)
	movaps	%xmm0, 528(%rsp)
	cmpq	$0, 40(%rsp)
	je	972f
	movq	480(%rsp), %rdi
	callq	rattle_dealloc@PLT
972:
	cmpq	$0, 56(%rsp)
	je	972f
	movq	%r12, %rdi
	callq	rattle_dealloc@PLT
972:
	cmpq	$0, 32(%rsp)
	je	669f
	movq	%rbx, %rdi
	callq	rattle_dealloc@PLT
669:
	leaq	536(%rsp), %rdi
	callq	circular_buffer.heap.HeapCircularBuffer.drop._e2a004e41971e60f
	leaq	608(%rsp), %rdi
	callq	std_alloc.vec.Vec.drop._f15ea28f165ebcb3
	leaq	632(%rsp), %rdi
	callq	std_alloc.vec.Vec.drop._d9a1838fed3faa39
	cmpq	$0, 16(%rsp)
	je	669f
	movq	%r13, %rdi
	callq	rattle_dealloc@PLT
669:
	leaq	208(%rsp), %rdi
	callq	std_alloc.vec.Vec.drop._d9a1838fed3faa39
	cmpq	$0, 24(%rsp)
	je	548b
	movq	%r14, %rdi
	callq	rattle_dealloc@PLT
	jmp	548b
	.size	tcrx_channel_new_at, .-tcrx_channel_new_at
	.section	.text.tcrx_channel_new_with_limits_at,"ax",@progbits
	.globl	tcrx_channel_new_with_limits_at
	.p2align	4
	.type	tcrx_channel_new_with_limits_at,@function
tcrx_channel_new_with_limits_at:
	pushq	%rbp
	pushq	%r15
	pushq	%r14
	pushq	%r13
	pushq	%r12
	pushq	%rbx
	subq	$936, %rsp
	movq	1000(%rsp), %rbx
	xorl	%r12d, %r12d
	testq	%rdx, %rdx
	sete	%r13b
	xorl	%r10d, %r10d
	testq	%r8, %r8
	sete	%bpl
	xorl	%r14d, %r14d
	testq	%rbx, %rbx
	sete	%r11b
	movl	$71, %eax
	cmpb	$0, (%rdi)
	jne	850f
	movq	%rsi, %r15
	shrq	$32, %r15
	xorps	%xmm0, %xmm0
	movaps	%xmm0, 368(%rsp)
	movaps	%xmm0, 384(%rsp)
	movaps	%xmm0, 400(%rsp)
	movaps	%xmm0, 416(%rsp)
	movaps	%xmm0, 288(%rsp)
	movaps	%xmm0, 304(%rsp)
	movq	$0, 320(%rsp)
	movaps	%xmm0, 480(%rsp)
	movaps	%xmm0, 496(%rsp)
	movaps	%xmm0, 512(%rsp)
	movaps	%xmm0, 528(%rsp)
	movaps	%xmm0, 544(%rsp)
	movaps	%xmm0, 560(%rsp)
	movaps	%xmm0, 576(%rsp)
	movaps	%xmm0, 592(%rsp)
	movaps	%xmm0, 336(%rsp)
	movq	$0, 352(%rsp)
	movw	$0, 120(%rsp)
	movb	$0, 122(%rsp)
	cmpb	$1, %r15b
	ja	409f
	movq	%rdi, 472(%rsp)
	movq	1008(%rsp), %rdi
	movl	992(%rsp), %eax
	movb	%r13b, %r12b
	movl	%esi, %r13d
	shrl	$8, %r13d
	shll	$12, %r12d
	addq	%r12, %rdx
	movl	%esi, %r12d
	shrl	$16, %r12d
	movb	%bpl, %r10b
	shll	$12, %r10d
	addq	%r10, %r8
	movl	%esi, %ebp
	shrl	$24, %ebp
	movb	%r11b, %r14b
	shll	$12, %r14d
	addq	%r14, %rbx
	movl	%eax, 160(%rsp)
	movl	$0, 164(%rsp)
	movq	%rbx, 168(%rsp)
	movq	%rdi, 176(%rsp)
	movq	%rsi, 16(%rsp)
	movb	%sil, 632(%rsp)
	movb	%r13b, 633(%rsp)
	movb	%r12b, 634(%rsp)
	movb	%bpl, 635(%rsp)
	movb	%r15b, 636(%rsp)
	movw	$0, 637(%rsp)
	movb	$0, 639(%rsp)
	movq	%rdx, 96(%rsp)
	movq	%rdx, 640(%rsp)
	movq	%rcx, 24(%rsp)
	movq	%rcx, 648(%rsp)
	movq	%r8, 32(%rsp)
	movq	%r8, 656(%rsp)
	movq	%r9, 64(%rsp)
	movq	%r9, 664(%rsp)
	leaq	120(%rsp), %rdi
	leaq	160(%rsp), %rsi
	leaq	632(%rsp), %rdx
	callq	tc_fixed.limits.LentLimits.check
	cmpb	$0, 120(%rsp)
	je	928f
	movzbl	121(%rsp), %eax
	leaq	.LJ27937d30_0(%rip), %rcx
	movslq	(%rcx,%rax,4), %rax
	addq	%rcx, %rax
	jmpq	*%rax
548:
	movzbl	122(%rsp), %eax
	leaq	.Lswitch.table.tcrx_storage_with_limits_at(%rip), %rcx
	movzbl	(%rax,%rcx), %r12d
	jmp	284f
409:
	movb	$22, %r12b
284:
	movzbl	%r12b, %edi
	callq	tc_c_base.status.code
850:
	addq	$936, %rsp
	popq	%rbx
	popq	%r12
	popq	%r13
	popq	%r14
	popq	%r15
	popq	%rbp
	retq
928:
	movq	%rbx, 88(%rsp)
	movq	16(%rsp), %rax
	movb	%al, 288(%rsp)
	movb	%r13b, 289(%rsp)
	movb	%r12b, 290(%rsp)
	movb	%bpl, 291(%rsp)
	movb	%r15b, 292(%rsp)
	movw	$0, 293(%rsp)
	movb	$0, 295(%rsp)
	movq	96(%rsp), %rax
	movq	%rax, 296(%rsp)
	movq	24(%rsp), %rax
	movq	%rax, 304(%rsp)
	movq	32(%rsp), %rax
	movq	%rax, 312(%rsp)
	movq	64(%rsp), %rax
	movq	%rax, 320(%rsp)
	leaq	368(%rsp), %rdi
	leaq	288(%rsp), %rsi
	callq	tc_queues.settings.LentSettings.copied
	movb	$12, %r12b
	cmpb	$0, 368(%rsp)
	jne	284b
	movzbl	376(%rsp), %eax
	movb	%al, 16(%rsp)
	movzbl	377(%rsp), %eax
	movb	%al, 64(%rsp)
	movzbl	378(%rsp), %edi
	movzbl	379(%rsp), %r8d
	movzbl	380(%rsp), %r9d
	movq	384(%rsp), %rax
	movq	%rax, 24(%rsp)
	movq	392(%rsp), %rdx
	movq	400(%rsp), %rcx
	movq	408(%rsp), %rax
	movq	%rax, 32(%rsp)
	movq	416(%rsp), %r10
	movq	424(%rsp), %rbp
	movq	1008(%rsp), %rbx
	testq	%rbx, %rbx
	je	669f
	movabsq	$1152921504606846972, %r11
	leaq	4(%r11), %rax
	cmpq	%rax, %rbx
	jae	211f
	leaq	(,%rbx,8), %r13
	movq	%r10, 96(%rsp)
	movl	$4, %esi
	movb	%dil, 56(%rsp)
	movq	%r13, %rdi
	movq	%rcx, 48(%rsp)
	movq	%rdx, 272(%rsp)
	movb	%r8b, 256(%rsp)
	movb	%r9b, 240(%rsp)
	movq	%r11, %r15
	callq	rattle_alloc@PLT
	movq	%r15, %r11
	movzbl	240(%rsp), %r9d
	movzbl	256(%rsp), %r8d
	movzbl	56(%rsp), %edi
	movq	96(%rsp), %r10
	movq	48(%rsp), %rcx
	movq	%rdx, %r15
	movq	272(%rsp), %rdx
	testb	$1, %al
	je	211f
	movq	%r15, %rax
	movq	88(%rsp), %rsi
	subq	%rsi, %rax
	cmpq	%r13, %rax
	jae	773f
	cmpq	$6, %rbx
	movq	%rbp, 224(%rsp)
	jae	859f
	xorl	%r11d, %r11d
	movzbl	16(%rsp), %r13d
	jmp	12f
409:
	movb	$50, %r12b
	jmp	284b
969:
	movb	$48, %r12b
	jmp	284b
394:
	movb	$49, %r12b
	jmp	284b
668:
	movb	$47, %r12b
	jmp	284b
27:
	movb	$51, %r12b
	jmp	284b
652:
	movb	$52, %r12b
	jmp	284b
211:
	testq	%rcx, %rcx
	movq	32(%rsp), %rbx
	je	211f
	movq	24(%rsp), %rdi
	callq	rattle_dealloc@PLT
211:
	testq	%rbp, %rbp
	je	284b
928:
	movq	%rbx, %rdi
	callq	rattle_dealloc@PLT
	jmp	284b
669:
	leaq	44(%rsp), %r15
	xorl	%r13d, %r13d
	movq	88(%rsp), %rsi
773:
	movb	%r9b, 240(%rsp)
	movb	%r8b, 256(%rsp)
	movb	%dil, 56(%rsp)
	movq	%r10, 96(%rsp)
	movq	%rdx, 272(%rsp)
	movq	%rcx, 48(%rsp)
	movq	%rbp, 224(%rsp)
	movq	%r15, %rdi
	movq	%r13, %rdx
	callq	memmove@PLT
	movl	992(%rsp), %ebp
	movzbl	16(%rsp), %r13d
166:
	movzbl	64(%rsp), %r14d
	leaq	632(%rsp), %rdi
	movl	$304, %edx
	xorl	%esi, %esi
	callq	memset@PLT
	xorps	%xmm0, %xmm0
	movaps	%xmm0, 160(%rsp)
	movaps	%xmm0, 176(%rsp)
	movaps	%xmm0, 192(%rsp)
	movq	$0, 208(%rsp)
	movaps	%xmm0, 432(%rsp)
	movaps	%xmm0, 448(%rsp)
	movw	$0, 12(%rsp)
	movb	$0, 14(%rsp)
	movl	%ebp, 608(%rsp)
	movl	$0, 612(%rsp)
	movq	%r15, 616(%rsp)
	movq	%rbx, 624(%rsp)
	movb	%r13b, 120(%rsp)
	movb	%r14b, 121(%rsp)
	movzbl	56(%rsp), %ebp
	movb	%bpl, 122(%rsp)
	movzbl	256(%rsp), %r13d
	movb	%r13b, 123(%rsp)
	movzbl	240(%rsp), %ebx
	movb	%bl, 124(%rsp)
	movw	$0, 125(%rsp)
	movb	$0, 127(%rsp)
	movq	24(%rsp), %rdx
	movq	%rdx, 128(%rsp)
	movq	272(%rsp), %r14
	movq	%r14, 136(%rsp)
	movq	32(%rsp), %rcx
	movq	%rcx, 144(%rsp)
	movq	96(%rsp), %rax
	movq	%rax, 152(%rsp)
	leaq	12(%rsp), %rdi
	leaq	608(%rsp), %rsi
	leaq	120(%rsp), %rdx
	callq	tc_fixed.limits.LentLimits.check
	cmpb	$0, 12(%rsp)
	je	669f
	movq	32(%rsp), %r13
	movq	24(%rsp), %r14
	cmpq	$0, 1008(%rsp)
	je	972f
	movq	%r15, %rdi
	callq	rattle_dealloc@PLT
972:
	cmpq	$0, 48(%rsp)
	movq	224(%rsp), %rbx
	je	211f
	movq	%r14, %rdi
	callq	rattle_dealloc@PLT
211:
	testq	%rbx, %rbx
	je	284b
	movq	%r13, %rdi
	callq	rattle_dealloc@PLT
	jmp	284b
669:
	leaq	381(%rsp), %rax
	movzbl	16(%rsp), %ecx
	movb	%cl, 160(%rsp)
	movzbl	64(%rsp), %ecx
	movb	%cl, 161(%rsp)
	movb	%bpl, 162(%rsp)
	movb	%r13b, 163(%rsp)
	movb	%bl, 164(%rsp)
	movzwl	(%rax), %ecx
	movw	%cx, 165(%rsp)
	movzbl	2(%rax), %eax
	movb	%al, 167(%rsp)
	movq	24(%rsp), %rax
	movq	%rax, 168(%rsp)
	movq	%r14, 176(%rsp)
	movq	48(%rsp), %rax
	movq	%rax, 184(%rsp)
	movq	32(%rsp), %rax
	movq	%rax, 192(%rsp)
	movq	96(%rsp), %rax
	movq	%rax, 200(%rsp)
	movq	224(%rsp), %rax
	movq	%rax, 208(%rsp)
	movl	992(%rsp), %eax
	movl	%eax, 432(%rsp)
	movl	$0, 436(%rsp)
	movq	%r15, 440(%rsp)
	movq	1008(%rsp), %rax
	movq	%rax, 448(%rsp)
	movq	%rax, 456(%rsp)
	leaq	632(%rsp), %rdi
	leaq	160(%rsp), %rsi
	leaq	432(%rsp), %rdx
	callq	tc_fixed.channel.start._2310a0e7207bbbe1
	cmpb	$0, 632(%rsp)
	jne	284b
	movq	648(%rsp), %rax
	movq	%rax, 464(%rsp)
	movups	640(%rsp), %xmm0
	movaps	%xmm0, 272(%rsp)
	movq	664(%rsp), %rax
	movq	%rax, 56(%rsp)
	movups	656(%rsp), %xmm0
	movaps	%xmm0, 256(%rsp)
	movq	672(%rsp), %r14
	movq	688(%rsp), %rax
	movq	%rax, 48(%rsp)
	movups	680(%rsp), %xmm0
	movaps	%xmm0, 240(%rsp)
	movq	696(%rsp), %rbx
	movq	704(%rsp), %rbp
	movq	720(%rsp), %rax
	movq	%rax, 88(%rsp)
	movups	712(%rsp), %xmm0
	movaps	%xmm0, 224(%rsp)
	movq	856(%rsp), %r13
	movq	872(%rsp), %rax
	movq	%rax, 24(%rsp)
	movups	864(%rsp), %xmm0
	movaps	%xmm0, 64(%rsp)
	movq	904(%rsp), %r15
	movq	920(%rsp), %rax
	movq	%rax, 32(%rsp)
	movups	912(%rsp), %xmm0
	movaps	%xmm0, 96(%rsp)
	movq	928(%rsp), %rax
	movq	%rax, 16(%rsp)
	movups	840(%rsp), %xmm0
	movaps	%xmm0, 592(%rsp)
	movups	824(%rsp), %xmm0
	movaps	%xmm0, 576(%rsp)
	movups	808(%rsp), %xmm0
	movaps	%xmm0, 560(%rsp)
	movups	792(%rsp), %xmm0
	movaps	%xmm0, 544(%rsp)
	movups	728(%rsp), %xmm0
	movups	744(%rsp), %xmm1
	movups	760(%rsp), %xmm2
	movups	776(%rsp), %xmm3
	movaps	%xmm3, 528(%rsp)
	movaps	%xmm2, 512(%rsp)
	movaps	%xmm1, 496(%rsp)
	movaps	%xmm0, 480(%rsp)
	movups	880(%rsp), %xmm0
	movaps	%xmm0, 336(%rsp)
	movq	896(%rsp), %rax
	movq	%rax, 352(%rsp)
	movl	$296, %edi
	movl	$8, %esi
	callq	rattle_alloc@PLT
	testb	$1, %al
	je	972f
	movaps	272(%rsp), %xmm0
	movups	%xmm0, (%rdx)
	movaps	256(%rsp), %xmm0
	movups	%xmm0, 16(%rdx)
	movq	%r14, 32(%rdx)
	movaps	240(%rsp), %xmm0
	movups	%xmm0, 40(%rdx)
	movq	%rbx, 56(%rdx)
	movq	%rbp, 64(%rdx)
	movaps	224(%rsp), %xmm0
	movups	%xmm0, 72(%rdx)
	movaps	480(%rsp), %xmm0
	movaps	496(%rsp), %xmm1
	movaps	512(%rsp), %xmm2
	movaps	528(%rsp), %xmm3
	movups	%xmm0, 88(%rdx)
	movups	%xmm1, 104(%rdx)
	movups	%xmm2, 120(%rdx)
	movups	%xmm3, 136(%rdx)
	movaps	544(%rsp), %xmm0
	movups	%xmm0, 152(%rdx)
	movaps	560(%rsp), %xmm0
	movups	%xmm0, 168(%rdx)
	movaps	576(%rsp), %xmm0
	movups	%xmm0, 184(%rdx)
	movaps	592(%rsp), %xmm0
	movups	%xmm0, 200(%rdx)
	movq	%r13, 216(%rdx)
	movaps	64(%rsp), %xmm0
	movups	%xmm0, 224(%rdx)
	movaps	336(%rsp), %xmm0
	movups	%xmm0, 240(%rdx)
	movq	352(%rsp), %rax
	movq	%rax, 256(%rdx)
	movq	%r15, 264(%rdx)
	movaps	96(%rsp), %xmm0
	movups	%xmm0, 272(%rdx)
	movq	16(%rsp), %rax
	movq	%rax, 288(%rdx)
	movq	472(%rsp), %rax
	movb	$1, (%rax)
	movl	$0, 1(%rax)
	movl	$0, 4(%rax)
	movq	%rdx, 8(%rax)
	xorl	%eax, %eax
	jmp	850b
859:
	movq	%r15, %rax
	subq	%rsi, %rax
	cmpq	$32, %rax
	movzbl	16(%rsp), %r13d
	jae	223f
	xorl	%r11d, %r11d
	jmp	12f
972:
	cmpq	$0, 56(%rsp)
	je	972f
	movq	464(%rsp), %rdi
	callq	rattle_dealloc@PLT
972:
	cmpq	$0, 48(%rsp)
	movq	%r15, %rbx
	je	972f
	movq	%r14, %rdi
	callq	rattle_dealloc@PLT
972:
	cmpq	$0, 88(%rsp)
	je	669f
	movq	%rbp, %rdi
	callq	rattle_dealloc@PLT
669:
	leaq	488(%rsp), %rdi
	callq	circular_buffer.heap.HeapCircularBuffer.drop._e2a004e41971e60f
	leaq	560(%rsp), %rdi
	callq	std_alloc.vec.Vec.drop._f15ea28f165ebcb3
	leaq	584(%rsp), %rdi
	callq	std_alloc.vec.Vec.drop._d9a1838fed3faa39
	cmpq	$0, 24(%rsp)
	je	669f
	movq	%r13, %rdi
	callq	rattle_dealloc@PLT
669:
	leaq	336(%rsp), %rdi
	callq	std_alloc.vec.Vec.drop._d9a1838fed3faa39
	cmpq	$0, 32(%rsp)
	jne	928b
	jmp	284b
223:
	andq	%rbx, %r11
	leaq	(,%rbx,8), %rcx
	movabsq	$9223372036854775776, %rax
	andq	%rcx, %rax
	movq	1000(%rsp), %rcx
	addq	%r14, %rcx
	addq	$16, %rcx
	xorl	%edx, %edx
464:
	movups	-16(%rcx,%rdx), %xmm0
	movups	(%rcx,%rdx), %xmm1
	movups	%xmm0, (%r15,%rdx)
	movups	%xmm1, 16(%r15,%rdx)
	addq	$32, %rdx
	cmpq	%rdx, %rax
	jne	464b
	cmpq	%r11, %rbx
	je	327f
12:
	movq	%rbx, %rcx
	movq	%r11, %rax
	andq	$3, %rcx
	je	980f
	movq	%r11, %rax
928:
	movq	(%rsi,%rax,8), %rdx
	movq	%rdx, (%r15,%rax,8)
	incq	%rax
	decq	%rcx
	jne	928b
980:
	subq	%rbx, %r11
	cmpq	$-4, %r11
	ja	327f
	movq	1000(%rsp), %rcx
	addq	%r14, %rcx
	addq	$24, %rcx
928:
	movq	-24(%rcx,%rax,8), %rdx
	movq	%rdx, (%r15,%rax,8)
	movq	-16(%rcx,%rax,8), %rdx
	movq	%rdx, 8(%r15,%rax,8)
	movq	-8(%rcx,%rax,8), %rdx
	movq	%rdx, 16(%r15,%rax,8)
	movq	(%rcx,%rax,8), %rdx
	movq	%rdx, 24(%r15,%rax,8)
	addq	$4, %rax
	cmpq	%rax, %rbx
	jne	928b
327:
	movl	992(%rsp), %ebp
	jmp	166b
	.size	tcrx_channel_new_with_limits_at, .-tcrx_channel_new_with_limits_at
	.section	.rodata.tcrx_channel_new_with_limits_at,"a",@progbits
	.p2align	2
.LJ27937d30_0:
	.long	548b-.LJ27937d30_0
	.long	668b-.LJ27937d30_0
	.long	969b-.LJ27937d30_0
	.long	394b-.LJ27937d30_0
	.long	409b-.LJ27937d30_0
	.long	27b-.LJ27937d30_0
	.long	652b-.LJ27937d30_0
	.section	.text.tcrx_channel_queued_at,"ax",@progbits
	.globl	tcrx_channel_queued_at
	.p2align	4
	.type	tcrx_channel_queued_at,@function
tcrx_channel_queued_at:
	cmpb	$1, (%rdi)
	jne	327f
	movq	8(%rdi), %rax
	movq	192(%rax), %rcx
	movq	200(%rax), %rdx
	movzwl	%si, %edi
	cmpq	%rdi, 224(%rax)
	jbe	186f
	movq	216(%rax), %rax
	movzwl	(%rax,%rdi,2), %edi
	cmpq	%rdi, %rdx
	jbe	83f
	shll	$6, %edi
928:
	movq	40(%rcx,%rdi), %rdx
	xorl	%eax, %eax
	retq
327:
	movl	$70, %eax
890:
	xorl	%edx, %edx
	retq
186:
	movl	$72, %eax
	testq	%rdx, %rdx
	je	890b
	xorl	%edi, %edi
	.p2align	4
129:
	cmpw	(%rcx,%rdi), %si
	je	928b
	addq	$64, %rdi
	decq	%rdx
	jne	129b
	jmp	890b
83:
	xorl	%edx, %edx
	movl	$72, %eax
	retq
	.size	tcrx_channel_queued_at, .-tcrx_channel_queued_at
	.section	.text.tcrx_channel_release_at,"ax",@progbits
	.globl	tcrx_channel_release_at
	.p2align	4
	.type	tcrx_channel_release_at,@function
tcrx_channel_release_at:
	pushq	%rbp
	pushq	%r15
	pushq	%r14
	pushq	%r13
	pushq	%r12
	pushq	%rbx
	subq	$56, %rsp
	cmpb	$1, (%rdi)
	jne	327f
	movq	8(%rdi), %r10
	cmpq	$0, 128(%r10)
	je	186f
	cmpq	$0, 112(%r10)
	je	214f
	movq	96(%r10), %rcx
	movq	104(%r10), %rdx
	movq	120(%r10), %rsi
	xorl	%eax, %eax
	cmpq	%rdx, %rsi
	movl	$0, %edi
	cmovaeq	%rdx, %rdi
	subq	%rdi, %rsi
	shlq	$5, %rsi
	movq	(%rcx,%rsi), %r14
	movq	24(%rcx,%rsi), %rbx
	movzbl	(%r14), %ecx
	movl	%ecx, %r15d
	andl	$63, %r15d
	cmpb	$1, 152(%r10)
	jne	972f
	shrb	$3, %cl
	andb	$24, %cl
	movl	$50462721, %edx
	shrl	%cl, %edx
	leaq	1(%r14), %rcx
	leaq	-1(%rbx), %r8
	movq	%r10, %r12
	movq	168(%r10), %rdi
	movq	%r15, %rsi
	callq	tc_packet.runs.follow_at._0e1c90a670cc60a2
	movzbl	%al, %eax
	testb	%al, %al
	je	928f
	cmpl	$1, %eax
	jne	859f
	movq	%r15, %r11
	movq	%r12, %r10
	jmp	850f
327:
	movl	$70, %eax
	xorl	%edx, %edx
	jmp	880f
186:
	movl	$74, %eax
	xorl	%edx, %edx
	jmp	880f
972:
	cmpq	160(%r10), %rbx
	jbe	548f
	xorl	%edx, %edx
	jmp	638f
548:
	movzbl	%r15b, %r11d
	xorl	%eax, %eax
850:
	addq	%rax, %r14
	subq	%rax, %rbx
	xorl	%r9d, %r9d
	jmp	12f
928:
	movq	%rax, %rdx
	movq	%r12, %r10
	jmp	638f
859:
	movq	%r12, %r10
	movq	168(%r12), %rax
	leaq	(%r15,%r15,4), %rcx
	movq	8(%rax,%rcx,8), %r14
	movq	32(%rax,%rcx,8), %rbx
	movb	$1, %r9b
	movq	%r15, %r11
12:
	movq	216(%r10), %r8
	movq	224(%r10), %rax
	movq	%rax, 48(%rsp)
	movq	240(%r10), %r13
	movq	248(%r10), %rax
	cmpq	%r11, 272(%r10)
	jbe	211f
	movq	264(%r10), %rcx
	movzwl	(%rcx,%r11,2), %r15d
	cmpq	%r15, %rax
	jbe	972f
	shll	$6, %r15d
928:
	movq	40(%r13,%r15), %rax
	cmpq	%rax, 24(%r13,%r15)
	jbe	981f
	movq	16(%r13,%r15), %rcx
	addq	32(%r13,%r15), %rax
	xorl	%edx, %edx
	cmpq	%rcx, %rax
	cmovaeq	%rcx, %rdx
	movq	8(%r13,%r15), %rcx
	subq	%rdx, %rax
	shlq	$5, %rax
	movq	%rbx, 24(%rcx,%rax)
	movq	(%rcx,%rax), %rdi
	movq	%rdi, %rcx
	subq	%r14, %rcx
	cmpq	%rbx, %rcx
	jae	12f
	xorl	%eax, %eax
	cmpq	$4, %rbx
	jb	678f
	cmpq	$32, %rcx
	jb	678f
	cmpq	$32, %rbx
	jae	648f
	xorl	%eax, %eax
	jmp	961f
211:
	testq	%rax, %rax
	je	972f
	movzbl	%r15b, %ecx
	xorl	%r15d, %r15d
	.p2align	4
129:
	cmpw	%cx, (%r13,%r15)
	je	928b
	addq	$64, %r15
	decq	%rax
	jne	129b
972:
	cmpq	$7, %rbx
	jae	890f
	xorl	%eax, %eax
	xorl	%r13d, %r13d
980:
	subq	%rax, %r13
	xorl	%ecx, %ecx
	testq	%rbx, %rbx
	setne	%cl
	shlq	$32, %rcx
	jmp	434f
890:
	xorl	%r13d, %r13d
	xorl	%eax, %eax
	movq	%r8, 16(%rsp)
	movl	%r9d, 12(%rsp)
	.p2align	4
471:
	movzwl	(%r14), %edx
	rolw	$8, %dx
	movzwl	%dx, %esi
	cmpl	$8191, %esi
	ja	631f
	movzwl	4(%r14), %ecx
	rolw	$8, %cx
	movzwl	%cx, %ecx
	leaq	7(%rcx), %r15
	subq	%r15, %rbx
	jb	631f
	cmpl	$4096, %esi
	jb	890f
	andl	$2047, %edx
	movq	192(%r10), %rbp
	movq	200(%r10), %rsi
	movzwl	%dx, %edi
	cmpq	%rdi, 48(%rsp)
	jbe	211f
	movzwl	(%r8,%rdi,2), %r12d
	cmpq	%r12, %rsi
	jbe	890f
	shll	$6, %r12d
928:
	movq	40(%rbp,%r12), %rdx
	cmpq	%rdx, 24(%rbp,%r12)
	jbe	890f
	movq	16(%rbp,%r12), %rsi
	addq	32(%rbp,%r12), %rdx
	xorl	%edi, %edi
	cmpq	%rsi, %rdx
	cmovaeq	%rsi, %rdi
	movq	8(%rbp,%r12), %rsi
	subq	%rdi, %rdx
	shlq	$5, %rdx
	movq	%r15, 24(%rsi,%rdx)
	movq	(%rsi,%rdx), %rdi
	movq	%rdi, %rdx
	subq	%r14, %rdx
	cmpq	%r15, %rdx
	jae	928f
	cmpq	$32, %rdx
	jae	742f
	xorl	%edx, %edx
	jmp	186f
	.p2align	4
211:
	testq	%rsi, %rsi
	je	890f
	xorl	%r12d, %r12d
	.p2align	4
129:
	cmpw	(%rbp,%r12), %dx
	je	928b
	addq	$64, %r12
	decq	%rsi
	jne	129b
	.p2align	4
890:
	xorl	%ecx, %ecx
850:
	addq	%r15, %r14
	addq	%rcx, %rax
	incq	%r13
	cmpq	$6, %rbx
	ja	471b
	jmp	980b
928:
	movq	%r14, %rsi
	movq	%r15, %rdx
	movq	%rax, 40(%rsp)
	movq	%r10, 32(%rsp)
	movq	%r11, 24(%rsp)
	callq	memmove@PLT
	movq	16(%rsp), %r8
	movl	12(%rsp), %r9d
	movq	24(%rsp), %r11
	movq	32(%rsp), %r10
	movq	40(%rsp), %rax
	jmp	629f
742:
	cmpw	$25, %cx
	jae	327f
	xorl	%edx, %edx
	jmp	928f
327:
	movl	%r15d, %edx
	andl	$-32, %edx
	xorl	%esi, %esi
	.p2align	4
464:
	movups	(%r14,%rsi), %xmm0
	movups	16(%r14,%rsi), %xmm1
	movups	%xmm0, (%rdi,%rsi)
	movups	%xmm1, 16(%rdi,%rsi)
	addq	$32, %rsi
	cmpq	%rsi, %rdx
	jne	464b
	cmpl	%edx, %r15d
	je	629f
	testb	$28, %r15b
	je	186f
928:
	movq	%rdx, %rsi
	movl	%r15d, %edx
	andl	$-4, %edx
	.p2align	4
327:
	movl	(%r14,%rsi), %r8d
	movl	%r8d, (%rdi,%rsi)
	addq	$4, %rsi
	cmpq	%rsi, %rdx
	jne	327b
	cmpl	%edx, %r15d
	movq	16(%rsp), %r8
	je	629f
186:
	movl	%ecx, %r8d
	andl	$3, %r8d
	movq	%rdx, %rsi
	cmpl	$1, %r8d
	je	300f
	leal	-1(%rcx), %r8d
	andl	$3, %r8d
	movq	%rdx, %rsi
	.p2align	4
548:
	movzbl	(%r14,%rsi), %r9d
	movb	%r9b, (%rdi,%rsi)
	incq	%rsi
	decq	%r8
	jne	548b
300:
	negq	%rdx
	addq	%rdx, %rcx
	addq	$6, %rcx
	cmpl	$3, %ecx
	movl	12(%rsp), %r9d
	movq	16(%rsp), %r8
	jb	629f
	.p2align	4
548:
	movzbl	(%r14,%rsi), %ecx
	movb	%cl, (%rdi,%rsi)
	movzbl	1(%r14,%rsi), %ecx
	movb	%cl, 1(%rdi,%rsi)
	movzbl	2(%r14,%rsi), %ecx
	movb	%cl, 2(%rdi,%rsi)
	movzbl	3(%r14,%rsi), %ecx
	movb	%cl, 3(%rdi,%rsi)
	addq	$4, %rsi
	cmpq	%rsi, %r15
	jne	548b
629:
	incq	40(%rbp,%r12)
	movl	$1, %ecx
	jmp	850b
981:
	movl	$1, %edx
	xorl	%eax, %eax
	movq	176(%r10), %rcx
	testb	%r9b, %r9b
	cmpq	%r11, %rcx
	ja	928f
	jmp	638f
631:
	movabsq	$4294967296, %rcx
	subq	%rax, %r13
434:
	movl	%r13d, %edx
	orq	%rcx, %rdx
	movq	176(%r10), %rcx
	testb	%r9b, %r9b
	cmpq	%r11, %rcx
	jbe	638f
928:
	movq	168(%r10), %rcx
	leaq	(%r11,%r11,4), %rsi
	movb	$0, (%rcx,%rsi,8)
638:
	movq	128(%r10), %rsi
	testq	%rsi, %rsi
	je	548f
	decq	%rsi
	movq	%rsi, 128(%r10)
	movq	112(%r10), %rcx
	addq	136(%r10), %rsi
	jne	211f
	testq	%rcx, %rcx
	je	214f
	movq	104(%r10), %rcx
	movq	120(%r10), %rsi
	xorl	%edi, %edi
	cmpq	%rcx, %rsi
	cmovaeq	%rcx, %rdi
	movq	96(%r10), %rcx
	subq	%rdi, %rsi
	shlq	$5, %rsi
	movq	$0, 24(%rcx,%rsi)
548:
	movzbl	89(%r10), %ecx
	testl	%ecx, %ecx
	je	859f
871:
	cmpl	$2, %ecx
	je	409f
	movb	$0, 89(%r10)
409:
	movb	$0, 92(%r10)
	movq	288(%r10), %rcx
	cmpq	$-1, %rcx
	jne	629f
	jmp	682f
211:
	testq	%rcx, %rcx
	je	214f
	movq	104(%r10), %rdi
	movq	120(%r10), %rsi
	leaq	1(%rsi), %r8
	xorl	%r9d, %r9d
	cmpq	%rdi, %r8
	cmovaeq	%rdi, %r9
	negq	%r9
	leaq	(%rsi,%r9), %r8
	incq	%r8
	movq	%r8, 120(%r10)
	decq	%rcx
	movq	%rcx, 112(%r10)
	cmpq	%rcx, %rdi
	jbe	214f
	movq	96(%r10), %r9
	shlq	$5, %rsi
	addq	%rcx, %r8
	xorl	%ecx, %ecx
	cmpq	%rdi, %r8
	cmovaeq	%rdi, %rcx
	subq	%rcx, %r8
	shlq	$5, %r8
	movups	(%r9,%rsi), %xmm0
	movq	16(%r9,%rsi), %rcx
	movq	%rcx, 16(%r9,%r8)
	movups	%xmm0, (%r9,%r8)
	movq	$0, 24(%r9,%r8)
	incq	112(%r10)
	movzbl	89(%r10), %ecx
	testl	%ecx, %ecx
	jne	871b
859:
	movq	288(%r10), %rcx
	cmpq	$-1, %rcx
	je	682f
629:
	incq	%rcx
	movq	%rcx, 288(%r10)
682:
	shlq	$32, %rax
880:
	addq	$56, %rsp
	popq	%rbx
	popq	%r12
	popq	%r13
	popq	%r14
	popq	%r15
	popq	%rbp
	retq
12:
	movq	%r14, %rsi
	movq	%rbx, %rdx
	movq	%r10, %rbx
	movq	%r11, %r14
	movl	%r9d, %ebp
	callq	memmove@PLT
	movl	%ebp, %r9d
	movq	%r14, %r11
	movq	%rbx, %r10
	jmp	629f
648:
	movq	%rbx, %rax
	andq	$-32, %rax
	xorl	%ecx, %ecx
464:
	movups	(%r14,%rcx), %xmm0
	movups	16(%r14,%rcx), %xmm1
	movups	%xmm0, (%rdi,%rcx)
	movups	%xmm1, 16(%rdi,%rcx)
	addq	$32, %rcx
	cmpq	%rcx, %rax
	jne	464b
	cmpq	%rax, %rbx
	je	629f
	testb	$28, %bl
	je	678f
961:
	movq	%rax, %rcx
	movq	%rbx, %rax
	andq	$-4, %rax
	.p2align	4
327:
	movl	(%r14,%rcx), %edx
	movl	%edx, (%rdi,%rcx)
	addq	$4, %rcx
	cmpq	%rcx, %rax
	jne	327b
	cmpq	%rax, %rbx
	je	629f
678:
	movq	%rbx, %rdx
	movq	%rax, %rcx
	andq	$3, %rdx
	je	980f
	movq	%rax, %rcx
	.p2align	4
548:
	movzbl	(%r14,%rcx), %esi
	movb	%sil, (%rdi,%rcx)
	incq	%rcx
	decq	%rdx
	jne	548b
980:
	subq	%rbx, %rax
	cmpq	$-4, %rax
	ja	629f
	.p2align	4
548:
	movzbl	(%r14,%rcx), %eax
	movb	%al, (%rdi,%rcx)
	movzbl	1(%r14,%rcx), %eax
	movb	%al, 1(%rdi,%rcx)
	movzbl	2(%r14,%rcx), %eax
	movb	%al, 2(%rdi,%rcx)
	movzbl	3(%r14,%rcx), %eax
	movb	%al, 3(%rdi,%rcx)
	addq	$4, %rcx
	cmpq	%rcx, %rbx
	jne	548b
629:
	incq	40(%r13,%r15)
	movl	$1, %eax
	xorl	%edx, %edx
	movq	176(%r10), %rcx
	testb	%r9b, %r9b
	cmpq	%r11, %rcx
	ja	928b
	jmp	638b
214:
	ud2
	.size	tcrx_channel_release_at, .-tcrx_channel_release_at
	.section	.text.tcrx_channel_report_at,"ax",@progbits
	.globl	tcrx_channel_report_at
	.p2align	4
	.type	tcrx_channel_report_at,@function
tcrx_channel_report_at:
	xorl	%edx, %edx
	cmpb	$1, (%rdi)
	jne	327f
	movq	8(%rdi), %rdi
	movzbl	1(%rdi), %r8d
	movzbl	89(%rdi), %r9d
	movzbl	90(%rdi), %esi
	movzbl	91(%rdi), %ecx
	movzbl	92(%rdi), %eax
	movzbl	93(%rdi), %edx
	incb	%r9b
	andl	$1, %ecx
	andl	$1, %eax
	andl	$1, %edx
	movzbl	%r9b, %r9d
	shll	$8, %r9d
	orq	%r8, %r9
	shll	$16, %esi
	orq	%r9, %rsi
	movzbl	94(%rdi), %edi
	shll	$24, %edi
	orq	%rsi, %rdi
	shlq	$32, %rcx
	orq	%rdi, %rcx
	shlq	$40, %rax
	orq	%rcx, %rax
	shlq	$48, %rdx
	orq	%rax, %rdx
	xorl	%eax, %eax
	jmp	186f
327:
	movl	$70, %eax
186:
	movl	%eax, -16(%rsp)
	movq	%rdx, -12(%rsp)
	movq	-16(%rsp), %rax
	shrq	$32, %rdx
	retq
	.size	tcrx_channel_report_at, .-tcrx_channel_report_at
	.section	.text.tcrx_channel_take_at,"ax",@progbits
	.globl	tcrx_channel_take_at
	.p2align	4
	.type	tcrx_channel_take_at,@function
tcrx_channel_take_at:
	pushq	%r15
	pushq	%r14
	pushq	%r12
	pushq	%rbx
	pushq	%rax
	xorl	%eax, %eax
	testq	%rdx, %rdx
	sete	%r9b
	cmpb	$1, (%rdi)
	jne	327f
	movq	8(%rdi), %r14
	movq	192(%r14), %r15
	movq	200(%r14), %r8
	movzwl	%si, %edi
	cmpq	%rdi, 224(%r14)
	jbe	186f
	movq	216(%r14), %rsi
	movzwl	(%rsi,%rdi,2), %r12d
	cmpq	%r12, %r8
	jbe	981f
	shll	$6, %r12d
972:
	cmpq	$0, 40(%r15,%r12)
	je	434f
	cmpq	$0, 24(%r15,%r12)
	je	214f
	movq	%rdx, %r8
	movq	8(%r15,%r12), %rsi
	movq	16(%r15,%r12), %rdx
	movq	32(%r15,%r12), %r10
	xorl	%edi, %edi
	cmpq	%rdx, %r10
	cmovaeq	%rdx, %rdi
	subq	%rdi, %r10
	shlq	$5, %r10
	movq	24(%rsi,%r10), %rdx
	cmpq	%rdx, %rcx
	jae	409f
	movl	$50, %edi
	jmp	509f
327:
	movl	$70, %eax
	xorl	%edx, %edx
	jmp	850f
186:
	movl	$72, %edi
	testq	%r8, %r8
	je	890f
	xorl	%r12d, %r12d
	.p2align	4
129:
	cmpw	(%r15,%r12), %si
	je	972b
	addq	$64, %r12
	decq	%r8
	jne	129b
	jmp	890f
981:
	movl	$72, %edi
890:
	xorl	%edx, %edx
	jmp	509f
434:
	movl	$74, %edi
	xorl	%edx, %edx
	jmp	509f
409:
	movb	%r9b, %al
	shll	$12, %eax
	leaq	(%r8,%rax), %rdi
	movq	(%rsi,%r10), %rsi
	movq	%rdi, %rcx
	subq	%rsi, %rcx
	cmpq	%rdx, %rcx
	jae	859f
	cmpq	$4, %rdx
	jb	890f
	cmpq	$32, %rcx
	jae	972f
890:
	xorl	%ecx, %ecx
928:
	movq	%rdx, %r10
	movq	%rcx, %r9
	andq	$3, %r10
	je	980f
	movq	%rcx, %r9
	.p2align	4
548:
	movzbl	(%rsi,%r9), %r11d
	movb	%r11b, (%rdi,%r9)
	incq	%r9
	decq	%r10
	jne	548b
980:
	subq	%rdx, %rcx
	cmpq	$-4, %rcx
	ja	12f
	addq	%r8, %rax
	addq	$3, %rax
	.p2align	4
548:
	movzbl	(%rsi,%r9), %ecx
	movb	%cl, -3(%rax,%r9)
	movzbl	1(%rsi,%r9), %ecx
	movb	%cl, -2(%rax,%r9)
	movzbl	2(%rsi,%r9), %ecx
	movb	%cl, -1(%rax,%r9)
	movzbl	3(%rsi,%r9), %ecx
	movb	%cl, (%rax,%r9)
	addq	$4, %r9
	cmpq	%r9, %rdx
	jne	548b
	jmp	12f
859:
	movq	%rdx, %rbx
	callq	memmove@PLT
	movq	%rbx, %rdx
12:
	movq	40(%r15,%r12), %rcx
	testq	%rcx, %rcx
	je	859f
	decq	%rcx
	movq	%rcx, 40(%r15,%r12)
	movq	24(%r15,%r12), %rax
	addq	48(%r15,%r12), %rcx
	jne	211f
	testq	%rax, %rax
	je	214f
	movq	16(%r15,%r12), %rax
	movq	32(%r15,%r12), %rcx
	xorl	%esi, %esi
	cmpq	%rax, %rcx
	cmovaeq	%rax, %rsi
	movq	8(%r15,%r12), %rax
	subq	%rsi, %rcx
	shlq	$5, %rcx
	movq	$0, 24(%rax,%rcx)
	jmp	859f
211:
	testq	%rax, %rax
	je	214f
	movq	16(%r15,%r12), %rsi
	movq	32(%r15,%r12), %rcx
	leaq	1(%rcx), %rdi
	xorl	%r8d, %r8d
	cmpq	%rsi, %rdi
	cmovaeq	%rsi, %r8
	negq	%r8
	leaq	(%rcx,%r8), %rdi
	incq	%rdi
	movq	%rdi, 32(%r15,%r12)
	decq	%rax
	movq	%rax, 24(%r15,%r12)
	cmpq	%rax, %rsi
	jbe	214f
	movq	8(%r15,%r12), %r8
	shlq	$5, %rcx
	addq	%rax, %rdi
	xorl	%eax, %eax
	cmpq	%rsi, %rdi
	cmovaeq	%rsi, %rax
	subq	%rax, %rdi
	shlq	$5, %rdi
	movups	(%r8,%rcx), %xmm0
	movq	16(%r8,%rcx), %rax
	movq	%rax, 16(%r8,%rdi)
	movups	%xmm0, (%r8,%rdi)
	movq	$0, 24(%r8,%rdi)
	incq	24(%r15,%r12)
859:
	movq	288(%r14), %rax
	cmpq	$-1, %rax
	je	890f
	incq	%rax
	movq	%rax, 288(%r14)
890:
	xorl	%edi, %edi
509:
	movl	%edi, %eax
850:
	addq	$8, %rsp
	popq	%rbx
	popq	%r12
	popq	%r14
	popq	%r15
	retq
972:
	cmpq	$32, %rdx
	jae	859f
	xorl	%ecx, %ecx
	jmp	638f
859:
	movq	%rdx, %rcx
	andq	$-32, %rcx
	leaq	(%rax,%r8), %r9
	addq	$16, %r9
	xorl	%r10d, %r10d
464:
	movups	(%rsi,%r10), %xmm0
	movups	16(%rsi,%r10), %xmm1
	movups	%xmm0, -16(%r9,%r10)
	movups	%xmm1, (%r9,%r10)
	addq	$32, %r10
	cmpq	%r10, %rcx
	jne	464b
	cmpq	%rcx, %rdx
	je	12b
	testb	$28, %dl
	je	928b
638:
	movq	%rcx, %r9
	movq	%rdx, %rcx
	andq	$-4, %rcx
327:
	movl	(%rsi,%r9), %r10d
	movl	%r10d, (%rdi,%r9)
	addq	$4, %r9
	cmpq	%r9, %rcx
	jne	327b
	cmpq	%rcx, %rdx
	je	12b
	jmp	928b
214:
	ud2
	.size	tcrx_channel_take_at, .-tcrx_channel_take_at
	.section	.text.tcrx_channel_take_unit_at,"ax",@progbits
	.globl	tcrx_channel_take_unit_at
	.p2align	4
	.type	tcrx_channel_take_unit_at,@function
tcrx_channel_take_unit_at:
	pushq	%r15
	pushq	%r14
	pushq	%r12
	pushq	%rbx
	pushq	%rax
	xorl	%eax, %eax
	testq	%rdx, %rdx
	sete	%r9b
	cmpb	$1, (%rdi)
	jne	327f
	movq	8(%rdi), %r14
	movzbl	%sil, %edi
	movq	240(%r14), %r15
	movq	248(%r14), %r8
	cmpq	%rdi, 272(%r14)
	jbe	186f
	movq	264(%r14), %rsi
	movzwl	(%rsi,%rdi,2), %r12d
	cmpq	%r12, %r8
	jbe	981f
	shll	$6, %r12d
972:
	cmpq	$0, 40(%r15,%r12)
	je	434f
	cmpq	$0, 24(%r15,%r12)
	je	214f
	movq	%rdx, %r8
	movq	8(%r15,%r12), %rsi
	movq	16(%r15,%r12), %rdx
	movq	32(%r15,%r12), %r10
	xorl	%edi, %edi
	cmpq	%rdx, %r10
	cmovaeq	%rdx, %rdi
	subq	%rdi, %r10
	shlq	$5, %r10
	movq	24(%rsi,%r10), %rdx
	cmpq	%rdx, %rcx
	jae	409f
	movl	$50, %esi
	jmp	509f
327:
	movl	$70, %eax
	xorl	%edx, %edx
	jmp	850f
186:
	movl	$73, %esi
	testq	%r8, %r8
	je	890f
	xorl	%r12d, %r12d
	.p2align	4
129:
	cmpw	%di, (%r15,%r12)
	je	972b
	addq	$64, %r12
	decq	%r8
	jne	129b
	jmp	890f
981:
	movl	$73, %esi
890:
	xorl	%edx, %edx
	jmp	509f
434:
	movl	$74, %esi
	xorl	%edx, %edx
	jmp	509f
409:
	movb	%r9b, %al
	shll	$12, %eax
	leaq	(%r8,%rax), %rdi
	movq	(%rsi,%r10), %rsi
	movq	%rdi, %rcx
	subq	%rsi, %rcx
	cmpq	%rdx, %rcx
	jae	859f
	cmpq	$4, %rdx
	jb	890f
	cmpq	$32, %rcx
	jae	972f
890:
	xorl	%ecx, %ecx
928:
	movq	%rdx, %r10
	movq	%rcx, %r9
	andq	$3, %r10
	je	980f
	movq	%rcx, %r9
	.p2align	4
548:
	movzbl	(%rsi,%r9), %r11d
	movb	%r11b, (%rdi,%r9)
	incq	%r9
	decq	%r10
	jne	548b
980:
	subq	%rdx, %rcx
	cmpq	$-4, %rcx
	ja	12f
	addq	%r8, %rax
	addq	$3, %rax
	.p2align	4
548:
	movzbl	(%rsi,%r9), %ecx
	movb	%cl, -3(%rax,%r9)
	movzbl	1(%rsi,%r9), %ecx
	movb	%cl, -2(%rax,%r9)
	movzbl	2(%rsi,%r9), %ecx
	movb	%cl, -1(%rax,%r9)
	movzbl	3(%rsi,%r9), %ecx
	movb	%cl, (%rax,%r9)
	addq	$4, %r9
	cmpq	%r9, %rdx
	jne	548b
	jmp	12f
859:
	movq	%rdx, %rbx
	callq	memmove@PLT
	movq	%rbx, %rdx
12:
	movq	40(%r15,%r12), %rcx
	testq	%rcx, %rcx
	je	859f
	decq	%rcx
	movq	%rcx, 40(%r15,%r12)
	movq	24(%r15,%r12), %rax
	addq	48(%r15,%r12), %rcx
	jne	211f
	testq	%rax, %rax
	je	214f
	movq	16(%r15,%r12), %rax
	movq	32(%r15,%r12), %rcx
	xorl	%esi, %esi
	cmpq	%rax, %rcx
	cmovaeq	%rax, %rsi
	movq	8(%r15,%r12), %rax
	subq	%rsi, %rcx
	shlq	$5, %rcx
	movq	$0, 24(%rax,%rcx)
	jmp	859f
211:
	testq	%rax, %rax
	je	214f
	movq	16(%r15,%r12), %rsi
	movq	32(%r15,%r12), %rcx
	leaq	1(%rcx), %rdi
	xorl	%r8d, %r8d
	cmpq	%rsi, %rdi
	cmovaeq	%rsi, %r8
	negq	%r8
	leaq	(%rcx,%r8), %rdi
	incq	%rdi
	movq	%rdi, 32(%r15,%r12)
	decq	%rax
	movq	%rax, 24(%r15,%r12)
	cmpq	%rax, %rsi
	jbe	214f
	movq	8(%r15,%r12), %r8
	shlq	$5, %rcx
	addq	%rax, %rdi
	xorl	%eax, %eax
	cmpq	%rsi, %rdi
	cmovaeq	%rsi, %rax
	subq	%rax, %rdi
	shlq	$5, %rdi
	movups	(%r8,%rcx), %xmm0
	movq	16(%r8,%rcx), %rax
	movq	%rax, 16(%r8,%rdi)
	movups	%xmm0, (%r8,%rdi)
	movq	$0, 24(%r8,%rdi)
	incq	24(%r15,%r12)
859:
	movq	288(%r14), %rax
	cmpq	$-1, %rax
	je	890f
	incq	%rax
	movq	%rax, 288(%r14)
890:
	xorl	%esi, %esi
509:
	movl	%esi, %eax
850:
	addq	$8, %rsp
	popq	%rbx
	popq	%r12
	popq	%r14
	popq	%r15
	retq
972:
	cmpq	$32, %rdx
	jae	859f
	xorl	%ecx, %ecx
	jmp	638f
859:
	movq	%rdx, %rcx
	andq	$-32, %rcx
	leaq	(%rax,%r8), %r9
	addq	$16, %r9
	xorl	%r10d, %r10d
464:
	movups	(%rsi,%r10), %xmm0
	movups	16(%rsi,%r10), %xmm1
	movups	%xmm0, -16(%r9,%r10)
	movups	%xmm1, (%r9,%r10)
	addq	$32, %r10
	cmpq	%r10, %rcx
	jne	464b
	cmpq	%rcx, %rdx
	je	12b
	testb	$28, %dl
	je	928b
638:
	movq	%rcx, %r9
	movq	%rdx, %rcx
	andq	$-4, %rcx
327:
	movl	(%rsi,%r9), %r10d
	movl	%r10d, (%rdi,%r9)
	addq	$4, %r9
	cmpq	%r9, %rcx
	jne	327b
	cmpq	%rcx, %rdx
	je	12b
	jmp	928b
214:
	ud2
	.size	tcrx_channel_take_unit_at, .-tcrx_channel_take_unit_at
	.section	.text.tcrx_check_fecf_at,"ax",@progbits
	.globl	tcrx_check_fecf_at
	.p2align	4
	.type	tcrx_check_fecf_at,@function
tcrx_check_fecf_at:
	pushq	%rbp
	pushq	%r15
	pushq	%r14
	pushq	%r13
	pushq	%r12
	pushq	%rbx
	subq	$24, %rsp
	movq	%rcx, %r14
	movq	%rsi, %r12
	xorl	%ebp, %ebp
	testq	%rdi, %rdi
	sete	%bpl
	shll	$12, %ebp
	movq	%rdi, 16(%rsp)
	leaq	(%rdi,%rbp), %r13
	movq	%rdx, %r15
	testq	%rdx, %rdx
	sete	%bl
	movb	$0, 14(%rsp)
	movw	$0, 12(%rsp)
	leaq	12(%rsp), %rdi
	movq	%r13, %rsi
	movq	%r12, %rdx
	callq	tc_edges.write.fields.check_taking
	cmpb	$1, 12(%rsp)
	jne	669f
	movzbl	13(%rsp), %eax
	leaq	.LJ67181047_0(%rip), %rcx
	movslq	(%rcx,%rax,4), %rax
	addq	%rcx, %rax
	jmpq	*%rax
548:
	movzbl	14(%rsp), %eax
	incb	%al
	jmp	166f
669:
	leaq	-2(%r12), %rdx
	movl	$50, %eax
	cmpq	%rdx, %r14
	jb	850f
	xorl	%r9d, %r9d
	movb	%bl, %r9b
	shll	$12, %r9d
	movq	%r15, %r8
	leaq	(%r15,%r9), %r14
	movzwl	2(%r13), %r15d
	movq	%r14, %rax
	subq	%r13, %rax
	cmpq	%rdx, %rax
	jae	859f
	cmpq	$4, %rdx
	jb	890f
	cmpq	$32, %rax
	jae	489f
890:
	xorl	%eax, %eax
928:
	movq	%r12, %rcx
	subq	%rax, %rcx
	addq	$-3, %rcx
	andl	$3, %r12d
	cmpq	$2, %r12
	je	972f
	movl	$1, %esi
	.p2align	4
284:
	movzbl	(%r13,%rax), %edi
	movb	%dil, (%r14,%rax)
	incq	%rax
	movq	%r12, %rdi
	xorq	%rsi, %rdi
	incq	%rsi
	cmpq	$2, %rdi
	jne	284b
972:
	cmpq	$3, %rcx
	jb	750f
	movq	16(%rsp), %rcx
	addq	%rbp, %rcx
	addq	$3, %rcx
	leaq	(%r9,%r8), %rsi
	addq	$3, %rsi
	.p2align	4
284:
	movzbl	-3(%rcx,%rax), %edi
	movb	%dil, -3(%rsi,%rax)
	movzbl	-2(%rcx,%rax), %edi
	movb	%dil, -2(%rsi,%rax)
	movzbl	-1(%rcx,%rax), %edi
	movb	%dil, -1(%rsi,%rax)
	movzbl	(%rcx,%rax), %edi
	movb	%dil, (%rsi,%rax)
	addq	$4, %rax
	cmpq	%rax, %rdx
	jne	284b
	jmp	750f
859:
	movq	%r14, %rdi
	movq	%r13, %rsi
	movq	%rdx, %rbx
	callq	memmove@PLT
	movq	%rbx, %rdx
750:
	rolw	$8, %r15w
	addl	$-2, %r15d
	rolw	$8, %r15w
	movw	%r15w, 2(%r14)
	xorl	%eax, %eax
	jmp	850f
409:
	movb	$8, %al
	jmp	166f
969:
	movb	$15, %al
	jmp	166f
394:
	movb	$7, %al
	jmp	166f
668:
	movb	$6, %al
	jmp	166f
27:
	movb	$12, %al
166:
	movzbl	%al, %edi
	callq	tc_c_base.status.code
	movl	%eax, %eax
	xorl	%edx, %edx
850:
	addq	$24, %rsp
	popq	%rbx
	popq	%r12
	popq	%r13
	popq	%r14
	popq	%r15
	popq	%rbp
	retq
489:
	cmpq	$32, %rdx
	jae	859f
	xorl	%eax, %eax
	jmp	12f
859:
	movq	%rdx, %rax
	andq	$-32, %rax
	movq	16(%rsp), %rcx
	addq	%rbp, %rcx
	addq	$16, %rcx
	leaq	(%r9,%r8), %rsi
	addq	$16, %rsi
	xorl	%edi, %edi
	.p2align	4
464:
	movups	-16(%rcx,%rdi), %xmm0
	movups	(%rcx,%rdi), %xmm1
	movups	%xmm0, -16(%rsi,%rdi)
	movups	%xmm1, (%rsi,%rdi)
	addq	$32, %rdi
	cmpq	%rdi, %rax
	jne	464b
	cmpq	%rax, %rdx
	je	750b
	testb	$28, %dl
	je	928b
12:
	movq	%rax, %rcx
	movq	%rdx, %rax
	andq	$-4, %rax
	.p2align	4
327:
	movl	(%r13,%rcx), %esi
	movl	%esi, (%r14,%rcx)
	addq	$4, %rcx
	cmpq	%rcx, %rax
	jne	327b
	cmpq	%rax, %rdx
	je	750b
	jmp	928b
	.size	tcrx_check_fecf_at, .-tcrx_check_fecf_at
	.section	.rodata.tcrx_check_fecf_at,"a",@progbits
	.p2align	2
.LJ67181047_0:
	.long	548b-.LJ67181047_0
	.long	668b-.LJ67181047_0
	.long	969b-.LJ67181047_0
	.long	394b-.LJ67181047_0
	.long	409b-.LJ67181047_0
	.long	27b-.LJ67181047_0
	.section	.text.tcrx_cltu_octets_at,"ax",@progbits
	.globl	tcrx_cltu_octets_at
	.p2align	4
	.type	tcrx_cltu_octets_at,@function
tcrx_cltu_octets_at:
	pushq	%rbp
	pushq	%r15
	pushq	%r14
	pushq	%r13
	pushq	%r12
	pushq	%rbx
	subq	$120, %rsp
	movq	%r8, %r10
	movq	%rcx, %r11
	movq	%rsi, %r15
	movq	%rdi, %rbx
	movq	%rsi, %r14
	shrq	$8, %r14
	movl	%r15d, %eax
	shrl	$16, %eax
	movl	%eax, 20(%rsp)
	movl	%r15d, %ebp
	shrl	$24, %ebp
	movq	%rsi, %r12
	shrq	$32, %r12
	xorl	%ecx, %ecx
	movq	%rdx, 80(%rsp)
	testq	%rdx, %rdx
	sete	%sil
	xorl	%eax, %eax
	testq	%r8, %r8
	sete	%dl
	movl	%r14d, %r8d
	orl	%r15d, %r8d
	movb	$22, %dil
	testb	$-2, %r8b
	jne	548f
	cmpb	$8, %bpl
	setae	%dil
	movzwl	%r12w, %r8d
	cmpl	$1030, %r8d
	setae	%r8b
	orb	%dil, %r8b
	movb	$56, %dil
	jne	548f
	movb	$29, %dil
	cmpq	$1037, %r9
	movzbl	%r15b, %r8d
	movl	$29, %r13d
	cmovael	%r8d, %r13d
	movl	%r13d, 92(%rsp)
	jae	231f
548:
	movzbl	%dil, %edi
	callq	tc_c_base.status.code
	movl	$0, 24(%rsp)
	movb	$0, 28(%rsp)
	xorl	%ecx, %ecx
	xorl	%r13d, %r13d
	xorl	%r8d, %r8d
	xorl	%esi, %esi
	xorl	%edx, %edx
327:
	movl	%eax, (%rbx)
	movb	%r15b, 4(%rbx)
	movb	%r14b, 5(%rbx)
	movl	20(%rsp), %eax
	movb	%al, 6(%rbx)
	movb	%bpl, 7(%rbx)
	movw	%r12w, 8(%rbx)
	movb	%cl, 10(%rbx)
	movl	24(%rsp), %eax
	movl	%eax, 11(%rbx)
	movzbl	28(%rsp), %eax
	movb	%al, 15(%rbx)
	movq	%r13, 16(%rbx)
	movq	%r8, 24(%rbx)
	movq	%rsi, 32(%rbx)
	movq	%rdx, 40(%rbx)
	movq	%rbx, %rax
	addq	$120, %rsp
	popq	%rbx
	popq	%r12
	popq	%r13
	popq	%r14
	popq	%r15
	popq	%rbp
	retq
231:
	xorps	%xmm0, %xmm0
	movaps	%xmm0, 96(%rsp)
	movq	$0, 112(%rsp)
	testq	%r11, %r11
	je	83f
	movq	%r9, 72(%rsp)
	movb	%sil, %cl
	shll	$12, %ecx
	addq	%rcx, 80(%rsp)
	movb	%dl, %al
	shll	$12, %eax
	addq	%rax, %r10
	xorl	%r13d, %r13d
	movq	$0, 56(%rsp)
	movq	$0, 48(%rsp)
	xorl	%r8d, %r8d
	movq	%r10, 40(%rsp)
	movq	%r11, 32(%rsp)
	jmp	928f
	.p2align	4
972:
	cmpq	%r11, %r13
	jae	969f
928:
	movq	80(%rsp), %rax
	leaq	(%rax,%r13), %rdi
	movl	%r14d, %eax
	xorb	$1, %al
	orb	%bpl, %al
	jne	548f
	movq	%r11, %rax
	subq	%r13, %rax
	cmpq	$7, %rax
	jbe	284f
	movq	%r8, %rbp
	movzbl	(%rdi), %esi
	movzbl	1(%rdi), %eax
	movzbl	2(%rdi), %ecx
	movzbl	3(%rdi), %edx
	movzbl	4(%rdi), %r9d
	movzbl	5(%rdi), %r10d
	movzbl	6(%rdi), %r11d
	leaq	.LTb4175d02(%rip), %r14
	movzbl	1536(%rsi,%r14), %r8d
	xorb	1280(%rax,%r14), %r8b
	xorb	1024(%rcx,%r14), %r8b
	xorb	768(%rdx,%r14), %r8b
	xorb	512(%r9,%r14), %r8b
	xorb	256(%r10,%r14), %r8b
	xorb	(%r11,%r14), %r8b
	movzbl	7(%rdi), %r9d
	xorb	$127, %r8b
	shrb	%r9b
	testb	%r15b, %r15b
	je	868f
	cmpb	%r9b, %r8b
	je	868f
	xorb	%r9b, %r8b
	movzbl	%r8b, %r8d
	leaq	.LTddd25b9b(%rip), %r9
	movq	(%r9,%r8,8), %r8
	testq	%r8, %r8
	movq	40(%rsp), %r10
	je	482f
	xorq	(%rdi), %r8
	movb	$1, %al
	movq	32(%rsp), %r11
	movzwl	%r12w, %ecx
	cmpl	$1022, %ecx
	jbe	928f
409:
	movb	$4, %al
	xorl	%edx, %edx
	xorl	%r8d, %r8d
	xorl	%ecx, %ecx
	jmp	850f
	.p2align	4
548:
	movzbl	(%rdi), %esi
	movzbl	%bpl, %edx
	testb	%r14b, %r14b
	je	186f
	movzwl	%r12w, %ecx
	leaq	(%r10,%rcx), %rax
	movb	%sil, (%rdx,%rax)
	cmpb	$7, %dl
	jne	634f
	movq	%r8, 64(%rsp)
	movq	(%rax), %rdx
	movq	%rdx, 24(%rsp)
	movl	%edx, %r8d
	shrl	$16, %r8d
	movl	%edx, %esi
	shrl	$24, %esi
	movq	%rdx, %r9
	shrq	$32, %r9
	movq	%rdx, %r10
	shrq	$40, %r10
	movq	%rdx, %r11
	shrq	$48, %r11
	movzbl	%dl, %edi
	leaq	.LTb4175d02(%rip), %r14
	movzbl	1536(%rdi,%r14), %edi
	movzbl	%dh, %ebp
	movzbl	%r8b, %r8d
	movzbl	%r9b, %r9d
	movzbl	%r10b, %r10d
	movzbl	%r11b, %r11d
	xorb	1280(%rbp,%r14), %dil
	xorb	1024(%r8,%r14), %dil
	xorb	768(%rsi,%r14), %dil
	xorb	512(%r9,%r14), %dil
	xorb	256(%r10,%r14), %dil
	xorb	(%r11,%r14), %dil
	xorb	$127, %dil
	movq	%rdx, %rsi
	shrq	$57, %rsi
	xorb	%dil, %sil
	jne	1f
	xorl	%edi, %edi
	jmp	890f
	.p2align	4
284:
	movzbl	(%rdi), %eax
	movzwl	%r12w, %ecx
	movb	%al, (%r10,%rcx)
634:
	incb	%bpl
	incq	%r13
	jmp	198f
186:
	movl	20(%rsp), %r9d
	movl	%r9d, %eax
	xorb	$-21, %al
	movzbl	%al, %eax
	imull	$134480385, %eax, %eax
	shrl	$3, %eax
	andl	$286331153, %eax
	imull	$286331153, %eax, %eax
	shrl	$28, %eax
	movl	%esi, %ecx
	xorb	$-112, %cl
	movzbl	%cl, %ecx
	imull	$134480385, %ecx, %ecx
	shrl	$3, %ecx
	andl	$286331153, %ecx
	imull	$286331153, %ecx, %ecx
	shrl	$28, %ecx
	xorl	%edi, %edi
	addb	%al, %cl
	sete	%dil
	xorl	%r14d, %r14d
	cmpb	$2, %cl
	setb	%r14b
	testb	%r15b, %r15b
	cmovel	%edi, %r14d
	movzbl	%r9b, %eax
	movzbl	%sil, %esi
	xorl	%ecx, %ecx
	testb	%r14b, %r14b
	cmovnel	%eax, %esi
	movl	%esi, 20(%rsp)
	cmovnel	%ecx, %edx
	cmovnel	%ecx, %r12d
	incq	%r13
	movl	%edx, %ebp
	jmp	198f
868:
	cmpb	%r9b, %r8b
	movq	40(%rsp), %r10
	jne	482f
	movq	(%rdi), %r8
	xorl	%eax, %eax
	movq	32(%rsp), %r11
	movzwl	%r12w, %ecx
	cmpl	$1022, %ecx
	ja	409b
928:
	movq	72(%rsp), %rdx
	subq	%rcx, %rdx
	cmpq	$8, %rdx
	jb	147f
	movq	%r8, (%r10,%rcx)
147:
	addl	$7, %r12d
	movb	$1, %dl
	xorl	%ecx, %ecx
	movl	20(%rsp), %r8d
850:
	addq	$8, %r13
	movzbl	%al, %eax
	leaq	.LJ3c3e2ee8_0(%rip), %rsi
	movslq	(%rsi,%rax,4), %rdi
	addq	%rsi, %rdi
	movl	%r8d, 20(%rsp)
	movl	%r8d, %eax
	movl	%edx, %r14d
	movq	%rbp, %r8
	jmpq	*%rdi
482:
	xorb	$-59, %sil
	xorb	$-59, %al
	orb	%sil, %al
	xorb	$-59, %cl
	orb	%al, %cl
	xorb	$-59, %dl
	movb	$3, %al
	orb	%cl, %dl
	jne	978f
	leaq	.LT9296ae30(%rip), %rdx
	movl	$8, %esi
	callq	core.cmp.slices.groups_equal._i8_31_core.cmp.numbers.U8PartialEq
	movq	40(%rsp), %r10
	xorb	$3, %al
978:
	testw	%r12w, %r12w
	setne	%cl
	xorl	%edx, %edx
	addq	$8, %r13
	movzbl	%al, %eax
	leaq	.LJ3c3e2ee8_0(%rip), %rsi
	movslq	(%rsi,%rax,4), %rdi
	addq	%rsi, %rdi
	xorl	%eax, %eax
	xorl	%r14d, %r14d
	movl	$0, 20(%rsp)
	movq	%rbp, %r8
	movq	32(%rsp), %r11
	jmpq	*%rdi
1:
	testb	%r15b, %r15b
	je	409f
	movzbl	%sil, %esi
	leaq	.LTddd25b9b(%rip), %rdi
	movq	(%rdi,%rsi,8), %rdi
	testq	%rdi, %rdi
	je	409f
890:
	xorl	%esi, %esi
	testq	%rdi, %rdi
	setne	%r8b
	cmpl	$1022, %ecx
	movq	40(%rsp), %r10
	movq	32(%rsp), %r11
	jbe	928f
	movb	$4, %al
	xorl	%edx, %edx
	incq	%r13
	movzbl	%al, %eax
	leaq	.LJ3c3e2ee8_0(%rip), %rcx
	movslq	(%rcx,%rax,4), %rsi
	addq	%rcx, %rsi
	xorl	%eax, %eax
	xorl	%ecx, %ecx
	xorl	%r14d, %r14d
	movl	$0, 20(%rsp)
	movq	64(%rsp), %r8
	jmpq	*%rsi
928:
	movq	72(%rsp), %r9
	subq	%rcx, %r9
	cmpq	$8, %r9
	jb	147f
	xorq	%rdx, %rdi
	movq	%rdi, (%rax)
147:
	addl	$7, %r12d
	movb	$1, %dl
	xorl	%ecx, %ecx
	incq	%r13
	movb	%r8b, %sil
	leaq	.LJ3c3e2ee8_0(%rip), %rax
	movslq	(%rax,%rsi,4), %rsi
	addq	%rax, %rsi
	movl	20(%rsp), %eax
	movb	$1, %r14b
	movq	64(%rsp), %r8
	jmpq	*%rsi
409:
	movb	$3, %al
	cmpl	$-976894523, %edx
	jne	978f
	leaq	.LT9296ae30(%rip), %rdx
	leaq	24(%rsp), %rdi
	movl	$8, %esi
	callq	core.cmp.slices.groups_equal._i8_31_core.cmp.numbers.U8PartialEq
	xorb	$3, %al
978:
	testw	%r12w, %r12w
	setne	%cl
	xorl	%edx, %edx
	incq	%r13
	movzbl	%al, %eax
	leaq	.LJ3c3e2ee8_0(%rip), %rsi
	movslq	(%rsi,%rax,4), %rdi
	addq	%rsi, %rdi
	xorl	%eax, %eax
	xorl	%r14d, %r14d
	movl	$0, 20(%rsp)
	movq	64(%rsp), %r8
	movq	40(%rsp), %r10
	movq	32(%rsp), %r11
	jmpq	*%rdi
629:
	incq	%r8
	jmp	186f
677:
	incq	56(%rsp)
	jmp	186f
400:
	incq	48(%rsp)
186:
	movl	%edx, %r14d
	movl	%eax, 20(%rsp)
1:
	testb	%cl, %cl
	jne	409f
	xorl	%ebp, %ebp
198:
	cmpb	$1, %r14b
	jne	972b
	testb	%bpl, %bpl
	jne	972b
	movq	80(%rsp), %rax
	leaq	(%rax,%r13), %rcx
	movq	%r12, %rdx
	movq	%r8, %r12
	subq	%r13, %r11
	movq	72(%rsp), %rax
	movq	%rax, (%rsp)
	movzbl	92(%rsp), %esi
	leaq	96(%rsp), %rdi
	movq	%r11, %r8
	movq	%r10, %r9
	callq	tc_c.decoder.take_blocks
	movq	32(%rsp), %r11
	movq	40(%rsp), %r10
	movq	%r12, %r8
	movzwl	96(%rsp), %r12d
	addq	104(%rsp), %r13
	addq	112(%rsp), %r8
	jmp	972b
83:
	xorl	%r8d, %r8d
	movq	$0, 48(%rsp)
	movq	$0, 56(%rsp)
	xorl	%r13d, %r13d
969:
	movb	$0, 28(%rsp)
	movl	$0, 24(%rsp)
	xorl	%ecx, %ecx
890:
	xorl	%eax, %eax
	movq	56(%rsp), %rdx
	movq	48(%rsp), %rsi
	jmp	327b
409:
	movb	$0, 28(%rsp)
	movl	$0, 24(%rsp)
	movb	$1, %cl
	xorl	%ebp, %ebp
	jmp	890b
	.size	tcrx_cltu_octets_at, .-tcrx_cltu_octets_at
	.section	.rodata.tcrx_cltu_octets_at,"a",@progbits
	.p2align	2
.LJ3c3e2ee8_0:
	.long	1b-.LJ3c3e2ee8_0
	.long	629b-.LJ3c3e2ee8_0
	.long	1b-.LJ3c3e2ee8_0
	.long	400b-.LJ3c3e2ee8_0
	.long	677b-.LJ3c3e2ee8_0
	.section	.text.tcrx_cltu_search,"ax",@progbits
	.globl	tcrx_cltu_search
	.p2align	4
	.type	tcrx_cltu_search,@function
tcrx_cltu_search:
	pushq	%rbp
	pushq	%r15
	pushq	%r14
	pushq	%r13
	pushq	%r12
	pushq	%rbx
	subq	$40, %rsp
	movq	%rsi, %r14
	movq	%rdi, %rbx
	movq	%rsi, %r15
	shrq	$8, %r15
	movl	%r14d, %ebp
	movl	%r14d, %r12d
	shrl	$24, %r12d
	movq	%rsi, %r13
	shrq	$32, %r13
	movl	%r15d, %ecx
	orl	%r14d, %ecx
	movb	$22, %al
	testb	$-2, %cl
	jne	99f
	cmpb	$8, %r12b
	setae	%al
	movzwl	%r13w, %ecx
	cmpl	$1030, %ecx
	setae	%cl
	orb	%al, %cl
	movb	$56, %al
	cmpb	$1, %cl
	jne	231f
99:
	shrl	$16, %ebp
	movzbl	%al, %edi
	callq	tc_c_base.status.code
	xorps	%xmm0, %xmm0
	movaps	%xmm0, (%rsp)
	movaps	%xmm0, 16(%rsp)
	movq	$0, 30(%rsp)
327:
	movl	%eax, (%rbx)
	movb	%r14b, 4(%rbx)
	movb	%r15b, 5(%rbx)
	movb	%bpl, 6(%rbx)
	movb	%r12b, 7(%rbx)
	movw	%r13w, 8(%rbx)
	movaps	(%rsp), %xmm0
	movaps	16(%rsp), %xmm1
	movups	%xmm0, 10(%rbx)
	movups	%xmm1, 26(%rbx)
	movq	30(%rsp), %rax
	movq	%rax, 40(%rbx)
	movq	%rbx, %rax
	addq	$40, %rsp
	popq	%rbx
	popq	%r12
	popq	%r13
	popq	%r14
	popq	%r15
	popq	%rbp
	retq
231:
	xorps	%xmm0, %xmm0
	movaps	%xmm0, 16(%rsp)
	movaps	%xmm0, (%rsp)
	movq	$0, 30(%rsp)
	xorl	%r15d, %r15d
	xorl	%ebp, %ebp
	xorl	%r12d, %r12d
	xorl	%r13d, %r13d
	xorl	%eax, %eax
	jmp	327b
	.size	tcrx_cltu_search, .-tcrx_cltu_search
	.section	.text.tcrx_farm_start,"ax",@progbits
	.globl	tcrx_farm_start
	.p2align	4
	.type	tcrx_farm_start,@function
tcrx_farm_start:
	leal	-2(%rdi), %eax
	cmpb	$-3, %al
	setae	%cl
	xorl	%eax, %eax
	orb	%dil, %cl
	testb	$1, %cl
	jne	327f
	movzbl	%dil, %eax
	movzbl	%sil, %ecx
	shll	$16, %ecx
	addq	%rcx, %rax
	addq	$256, %rax
	xorl	%ecx, %ecx
	jmp	186f
327:
	movl	$20, %ecx
186:
	movl	%ecx, -16(%rsp)
	movq	%rax, -12(%rsp)
	movq	-16(%rsp), %rax
	xorl	%edx, %edx
	retq
	.size	tcrx_farm_start, .-tcrx_farm_start
	.section	.text.tcrx_farm_step,"ax",@progbits
	.globl	tcrx_farm_step
	.p2align	4
	.type	tcrx_farm_step,@function
tcrx_farm_step:
	pushq	%rbp
	pushq	%r15
	pushq	%r14
	pushq	%r13
	pushq	%r12
	pushq	%rbx
	subq	$24, %rsp
	movq	%rdi, %r13
	movabsq	$72057594037927935, %r15
	andq	%rdi, %r15
	movl	%r13d, %eax
	movl	%r13d, %r14d
	shrl	$8, %r14d
	movl	%r13d, %ebp
	shrl	$16, %ebp
	movq	%r15, %r12
	shrq	$24, %r12
	movq	%r15, %rbx
	shrq	$32, %rbx
	shrq	$48, %r15
	movzbl	%bh, %edi
	movl	%edi, 20(%rsp)
	leal	-2(%rax), %edi
	cmpb	$-3, %dil
	setae	%dil
	movb	$19, %r9b
	orb	%r13b, %dil
	testb	$1, %dil
	jne	166f
	leal	-1(%r14), %edi
	movb	$20, %r9b
	cmpb	$2, %dil
	ja	166f
	movb	$21, %r9b
	cmpb	$3, %r12b
	ja	166f
	movb	$22, %r9b
	cmpb	$1, %bl
	ja	166f
	movzwl	%bx, %r8d
	cmpl	$512, %r8d
	setb	%r8b
	cmpb	$2, %r15b
	setb	%r10b
	andb	%r8b, %r10b
	cmpb	$1, %r10b
	jne	166f
	movzbl	%r14b, %r8d
	cmpb	$3, %r14b
	je	327f
	cmpl	$2, %r8d
	jne	409f
	testb	%r15b, 20(%rsp)
	sete	%r10b
	orb	%bl, %r10b
	movb	$23, %r9b
	testb	$1, %r10b
	je	969f
	jmp	166f
327:
	movl	20(%rsp), %r9d
	movl	%r9d, %r10d
	notb	%r10b
	orb	%r15b, %r10b
	andb	%bl, %r10b
	movb	$23, %r9b
	testb	$1, %r10b
	jne	969f
	jmp	166f
409:
	movb	$23, %r9b
	movl	20(%rsp), %r10d
	orb	%bl, %r10b
	jne	166f
969:
	movb	$22, %r9b
	cmpb	$1, %cl
	ja	166f
	movzbl	%sil, %r9d
	decl	%r9d
	cmpl	$5, %r9d
	ja	394f
	xorl	%esi, %esi
	leaq	.LJ66a22f14_0(%rip), %r10
	movslq	(%r10,%r9,4), %r9
	addq	%r10, %r9
	jmpq	*%r9
890:
	xorl	%edx, %edx
	movl	$1, %esi
	jmp	57f
83:
	xorl	%edx, %edx
	movl	$3, %esi
	jmp	57f
289:
	xorl	%edx, %edx
	movl	$2, %esi
57:
	xorl	%r9d, %r9d
548:
	movzbl	%dl, %edx
	shll	$8, %edx
	orl	%esi, %edx
	orl	%r9d, %edx
	movzbl	%cl, %esi
	shll	$24, %esi
	orl	%edx, %esi
	movb	$1, %cl
327:
	movl	%esi, %edx
	shrl	$8, %edx
	movl	%esi, %r9d
	andl	$16777471, %r9d
	cmpl	$16777216, %r9d
	sete	%r9b
	andb	%cl, %r9b
	cmpb	$1, %dil
	sete	%r10b
	andb	%r9b, %r10b
	cmpb	%bpl, %dl
	sete	%r11b
	movb	$25, %r9b
	testb	%r11b, %r10b
	jne	166f
	andl	$257, %ebx
	shll	$16, %r15d
	orl	%ebx, %r15d
	movl	%r12d, %r9d
	shll	$24, %r9d
	orl	%r15d, %r9d
	movb	%al, 13(%rsp)
	movb	%dil, 14(%rsp)
	movb	%bpl, 15(%rsp)
	movl	%r9d, 16(%rsp)
	testb	%cl, %cl
	je	186f
	movzbl	%sil, %ecx
	leaq	.LJ66a22f14_1(%rip), %r9
	movslq	(%r9,%rcx,4), %rcx
	addq	%r9, %rcx
	jmpq	*%rcx
676:
	subb	%bpl, %dl
	jne	795f
	testl	$16777216, %esi
	je	669f
	movl	$16777216, %ecx
	testb	%dil, %dil
	jne	552f
	movabsq	$4311744512, %rcx
	incb	%bpl
	movb	%bpl, 15(%rsp)
	jmp	668f
186:
	movl	$167772160, %ecx
	cmpb	$1, %r14b
	je	552f
	cmpl	$3, %r8d
	je	969f
409:
	movb	$0, 14(%rsp)
969:
	movb	$0, 17(%rsp)
	jmp	552f
284:
	movzbl	%dl, %r9d
	shll	$16, %r9d
	movb	$1, %dl
	movl	$2, %esi
	jmp	548b
110:
	xorl	%ecx, %ecx
	jmp	327b
394:
	movb	$24, %r9b
166:
	movzbl	%r9b, %edi
	callq	tc_c_base.status.code
	movl	%eax, %edx
	xorl	%ecx, %ecx
548:
	movzbl	%r12b, %eax
	shlq	$56, %rax
	movzbl	%bpl, %esi
	shlq	$48, %rsi
	orq	%rax, %rsi
	movzbl	%r14b, %edi
	shlq	$40, %rdi
	orq	%rsi, %rdi
	movzbl	%r13b, %eax
	shlq	$32, %rax
	orq	%rdi, %rax
	orq	%rdx, %rax
	movzbl	%r15b, %esi
	shll	$16, %esi
	movzbl	20(%rsp), %edi
	shll	$8, %edi
	movzbl	%bl, %edx
	orq	%rdi, %rdx
	orq	%rsi, %rdx
	orq	%rcx, %rdx
	addq	$24, %rsp
	popq	%rbx
	popq	%r12
	popq	%r13
	popq	%r14
	popq	%r15
	popq	%rbp
	retq
1:
	testb	%dl, %dl
	je	634f
	leal	1(%r12), %eax
	andb	$3, %al
	movb	%al, 19(%rsp)
	movl	$134217728, %ecx
	cmpb	$3, %r14b
	je	552f
	shrl	$16, %esi
	cmpl	$2, %r8d
	jne	409f
	movb	$0, 14(%rsp)
	movb	%sil, 15(%rsp)
	movw	$0, 17(%rsp)
	jmp	552f
327:
	movl	$150994944, %ecx
	jmp	552f
373:
	leal	1(%r12), %eax
	andb	$3, %al
	movb	%al, 19(%rsp)
	movabsq	$4311744512, %rcx
	addq	$83886080, %rcx
	jmp	552f
795:
	shrb	%al
	cmpb	%al, %dl
	jb	219f
	negb	%dl
	movl	$67108864, %ecx
	cmpb	%dl, %al
	jae	552f
	leaq	14(%rsp), %rdi
	callq	tc_link.farm.outside
	movl	$83886080, %ecx
	jmp	552f
634:
	incb	%r12b
	andb	$3, %r12b
	movb	%r12b, 19(%rsp)
	movb	$0, 18(%rsp)
	movl	$117440512, %ecx
	cmpb	$1, %r14b
	je	552f
	cmpl	$3, %r8d
	jne	409b
	movb	$0, 14(%rsp)
	movw	$0, 16(%rsp)
	jmp	552f
409:
	movb	%sil, 15(%rsp)
668:
	movb	$0, 18(%rsp)
552:
	movzbl	14(%rsp), %r14d
	movzbl	15(%rsp), %ebp
	movzbl	16(%rsp), %ebx
	movzbl	17(%rsp), %eax
	movzbl	18(%rsp), %r15d
	movzbl	19(%rsp), %r12d
	incb	%r14b
	andb	$1, %bl
	andb	$1, %al
	movl	%eax, 20(%rsp)
	andb	$1, %r15b
	xorl	%edx, %edx
	jmp	548b
669:
	leaq	14(%rsp), %rdi
	callq	tc_link.farm.full
	movl	$33554432, %ecx
	jmp	552b
219:
	leaq	14(%rsp), %rdi
	callq	tc_link.farm.ahead
	movl	$50331648, %ecx
	jmp	552b
	.size	tcrx_farm_step, .-tcrx_farm_step
	.section	.rodata.tcrx_farm_step,"a",@progbits
	.p2align	2
.LJ66a22f14_0:
	.long	57b-.LJ66a22f14_0
	.long	890b-.LJ66a22f14_0
	.long	289b-.LJ66a22f14_0
	.long	284b-.LJ66a22f14_0
	.long	83b-.LJ66a22f14_0
	.long	110b-.LJ66a22f14_0
.LJ66a22f14_1:
	.long	676b-.LJ66a22f14_1
	.long	373b-.LJ66a22f14_1
	.long	1b-.LJ66a22f14_1
	.long	327b-.LJ66a22f14_1
	.section	.text.tcrx_kind_at,"ax",@progbits
	.globl	tcrx_kind_at
	.p2align	4
	.type	tcrx_kind_at,@function
tcrx_kind_at:
	xorl	%eax, %eax
	testq	%rdi, %rdi
	sete	%cl
	movb	$1, %r9b
	cmpq	$5, %rsi
	jb	253f
	movb	%cl, %al
	shll	$12, %eax
	movzwl	(%rdi,%rax), %ecx
	rolw	$8, %cx
	movzwl	%cx, %edx
	movb	$2, %r9b
	cmpl	$16383, %edx
	ja	253f
	movb	$3, %r9b
	testl	$3072, %ecx
	jne	253f
	movzbl	2(%rdi,%rax), %r9d
	movzbl	3(%rdi,%rax), %r8d
	shll	$8, %r8d
	movzwl	%r9w, %r9d
	andl	$3, %r9d
	orl	%r9d, %r8d
	rolw	$8, %r8w
	movb	$4, %r9b
	cmpw	$5, %r8w
	jb	253f
	leal	1(%r8), %r9d
	movzwl	%r9w, %r10d
	movb	$5, %r9b
	cmpq	%r10, %rsi
	jae	871f
253:
	pushq	%rax
	movzbl	%r9b, %edi
	callq	tc_c_base.status.code
	movl	%eax, %edx
	xorl	%eax, %eax
	xorl	%ecx, %ecx
	addq	$8, %rsp
548:
	movzbl	%al, %eax
	shlq	$40, %rax
	orq	%rcx, %rax
	orq	%rdx, %rax
	retq
871:
	cmpl	$8192, %edx
	jae	759f
	andl	$4096, %ecx
	movl	%ecx, %esi
	shrl	$12, %esi
	xorl	%edx, %edx
	testl	%ecx, %ecx
	movzbl	4(%rdi,%rax), %eax
	cmovnel	%edx, %eax
	shlq	$34, %rsi
	movabsq	$4294967296, %rcx
	orq	%rsi, %rcx
	jmp	548b
759:
	testl	$4096, %ecx
	jne	631f
	movabsq	$8589934592, %rcx
	jmp	890f
631:
	movabsq	$21474836480, %rcx
	cmpw	$7, %r8w
	je	868f
	movzwl	%r8w, %edx
	cmpl	$5, %edx
	jne	890f
	cmpb	$0, 5(%rdi,%rax)
	movabsq	$12884901888, %rax
	cmoveq	%rax, %rcx
	jmp	890f
868:
	cmpb	$-126, 5(%rdi,%rax)
	jne	890f
	cmpb	$0, 6(%rdi,%rax)
	je	284f
890:
	xorl	%eax, %eax
	xorl	%edx, %edx
	jmp	548b
284:
	movzbl	7(%rdi,%rax), %eax
	movabsq	$17179869184, %rcx
	xorl	%edx, %edx
	jmp	548b
	.size	tcrx_kind_at, .-tcrx_kind_at
	.section	.text.tcrx_randomise_at,"ax",@progbits
	.globl	tcrx_randomise_at
	.p2align	4
	.type	tcrx_randomise_at,@function
tcrx_randomise_at:
	pushq	%r15
	pushq	%r14
	pushq	%r12
	pushq	%rbx
	pushq	%rax
	movq	%rdx, %r14
	movq	%rsi, %rdx
	xorl	%r8d, %r8d
	testq	%rdi, %rdi
	sete	%sil
	xorl	%r12d, %r12d
	testq	%r14, %r14
	sete	%r9b
	leaq	-1030(%rdx), %rax
	cmpq	$-1030, %rax
	ja	327f
	xorl	%eax, %eax
	cmpq	$1030, %rdx
	movl	$53, %ecx
	cmovbl	%eax, %ecx
	testq	%rdx, %rdx
	movl	$10, %edi
	cmovnel	%ecx, %edi
	callq	tc_c_base.status.code
	movl	%eax, %eax
	xorl	%edx, %edx
	jmp	850f
327:
	movl	$50, %eax
	cmpq	%rdx, %rcx
	jb	850f
	movb	%sil, %r8b
	shll	$12, %r8d
	leaq	(%rdi,%r8), %rsi
	movb	%r9b, %r12b
	shll	$12, %r12d
	leaq	(%r14,%r12), %rbx
	movq	%rbx, %rax
	subq	%rsi, %rax
	cmpq	%rdx, %rax
	jae	859f
	cmpq	$4, %rdx
	jb	890f
	cmpq	$32, %rax
	jae	489f
890:
	xorl	%eax, %eax
928:
	movq	%rdx, %r9
	movq	%rax, %rcx
	andq	$3, %r9
	je	980f
	movq	%rax, %rcx
	.p2align	4
548:
	movzbl	(%rsi,%rcx), %r10d
	movb	%r10b, (%rbx,%rcx)
	incq	%rcx
	decq	%r9
	jne	548b
980:
	subq	%rdx, %rax
	cmpq	$-4, %rax
	ja	972f
	leaq	(%r8,%rdi), %rax
	addq	$3, %rax
	leaq	(%r12,%r14), %rsi
	addq	$3, %rsi
	.p2align	4
548:
	movzbl	-3(%rax,%rcx), %edi
	movb	%dil, -3(%rsi,%rcx)
	movzbl	-2(%rax,%rcx), %edi
	movb	%dil, -2(%rsi,%rcx)
	movzbl	-1(%rax,%rcx), %edi
	movb	%dil, -1(%rsi,%rcx)
	movzbl	(%rax,%rcx), %edi
	movb	%dil, (%rsi,%rcx)
	addq	$4, %rcx
	cmpq	%rcx, %rdx
	jne	548b
	jmp	972f
859:
	movq	%rbx, %rdi
	movq	%rdx, %r15
	callq	memmove@PLT
	movq	%r15, %rdx
972:
	cmpq	$1, %rdx
	jne	327f
	movb	$-1, %cl
	xorl	%eax, %eax
	jmp	831f
327:
	movl	%edx, %esi
	andl	$2046, %esi
	leaq	(%r12,%r14), %rdi
	incq	%rdi
	movb	$-1, %cl
	xorl	%eax, %eax
	.p2align	4
482:
	xorb	%cl, -1(%rdi,%rax)
	movzbl	%cl, %ecx
	leaq	.LT359fb368(%rip), %r8
	movzbl	(%rcx,%r8), %ecx
	xorb	%cl, (%rdi,%rax)
	movzbl	(%rcx,%r8), %ecx
	addq	$2, %rax
	cmpq	%rax, %rsi
	jne	482b
	testb	$1, %dl
	je	890f
831:
	xorb	%cl, (%rbx,%rax)
890:
	xorl	%eax, %eax
850:
	addq	$8, %rsp
	popq	%rbx
	popq	%r12
	popq	%r14
	popq	%r15
	retq
489:
	cmpq	$32, %rdx
	jae	327f
	xorl	%eax, %eax
	jmp	859f
327:
	movl	%edx, %eax
	andl	$2016, %eax
	leaq	(%r8,%rdi), %rcx
	addq	$16, %rcx
	leaq	(%r12,%r14), %r9
	addq	$16, %r9
	xorl	%r10d, %r10d
	.p2align	4
464:
	movups	-16(%rcx,%r10), %xmm0
	movups	(%rcx,%r10), %xmm1
	movups	%xmm0, -16(%r9,%r10)
	movups	%xmm1, (%r9,%r10)
	addq	$32, %r10
	cmpq	%r10, %rax
	jne	464b
	cmpq	%rax, %rdx
	je	972b
	testb	$28, %dl
	je	928b
859:
	movq	%rax, %rcx
	movl	%edx, %eax
	andl	$2044, %eax
	.p2align	4
327:
	movl	(%rsi,%rcx), %r9d
	movl	%r9d, (%rbx,%rcx)
	addq	$4, %rcx
	cmpq	%rcx, %rax
	jne	327b
	cmpq	%rax, %rdx
	je	972b
	jmp	928b
	.size	tcrx_randomise_at, .-tcrx_randomise_at
	.section	.text.tcrx_read_clcw,"ax",@progbits
	.globl	tcrx_read_clcw
	.p2align	4
	.type	tcrx_read_clcw,@function
tcrx_read_clcw:
	movl	%edi, %eax
	andl	$-486342400, %eax
	cmpl	$16777216, %eax
	jne	327f
	movl	%edi, %eax
	shrl	$26, %eax
	movl	%edi, %edx
	shrl	$18, %edx
	andl	$63, %edx
	movzwl	%di, %esi
	shrl	$15, %esi
	movl	%edi, %r8d
	shrl	$14, %r8d
	andl	$1, %r8d
	movl	%edi, %ecx
	shrl	$13, %ecx
	andl	$1, %ecx
	shlq	$56, %r8
	shlq	$48, %rsi
	orq	%r8, %rsi
	shlq	$40, %rdx
	orq	%rsi, %rdx
	shlq	$32, %rax
	orq	%rdx, %rax
	movzbl	%dil, %edx
	shlq	$32, %rdx
	movl	%edi, %esi
	shll	$15, %esi
	andl	$50331648, %esi
	orq	%rdx, %rsi
	movl	%edi, %edx
	shll	$5, %edx
	andl	$65536, %edx
	orq	%rsi, %rdx
	shrl	$4, %edi
	andl	$256, %edi
	orq	%rdx, %rdi
	orq	%rcx, %rdi
	movq	%rdi, %rdx
	retq
327:
	movl	$31, %eax
	xorl	%edi, %edi
	movq	%rdi, %rdx
	retq
	.size	tcrx_read_clcw, .-tcrx_read_clcw
	.section	.text.tcrx_read_frame_at,"ax",@progbits
	.globl	tcrx_read_frame_at
	.p2align	4
	.type	tcrx_read_frame_at,@function
tcrx_read_frame_at:
	xorl	%ecx, %ecx
	testq	%rdi, %rdi
	sete	%al
	movb	$1, %r10b
	cmpq	$5, %rsi
	jb	253f
	movb	%al, %cl
	shll	$12, %ecx
	movzwl	(%rdi,%rcx), %eax
	rolw	$8, %ax
	movzwl	%ax, %edx
	movb	$2, %r10b
	cmpl	$16383, %edx
	ja	253f
	movb	$3, %r10b
	testl	$3072, %eax
	jne	253f
	movzbl	2(%rdi,%rcx), %r9d
	movzbl	3(%rdi,%rcx), %r8d
	shll	$8, %r8d
	movzwl	%r9w, %r10d
	andl	$3, %r10d
	orl	%r10d, %r8d
	rolw	$8, %r8w
	movb	$4, %r10b
	cmpw	$5, %r8w
	jb	253f
	incl	%r8d
	movzwl	%r8w, %r11d
	movb	$5, %r10b
	cmpq	%r11, %rsi
	jae	327f
253:
	pushq	%rax
	movzbl	%r10b, %edi
	callq	tc_c_base.status.code
	movl	%eax, %eax
	xorl	%edx, %edx
	addq	$8, %rsp
	retq
327:
	movl	%edx, %esi
	shrl	$13, %esi
	andl	$1023, %eax
	shrb	$2, %r9b
	movzbl	4(%rdi,%rcx), %ecx
	shlq	$56, %rcx
	movzbl	%r9b, %edi
	shlq	$48, %rdi
	orq	%rcx, %rdi
	shlq	$32, %rax
	orq	%rdi, %rax
	shll	$16, %r8d
	shrl	$4, %edx
	andl	$256, %edx
	orl	%r8d, %edx
	orl	%esi, %edx
	retq
	.size	tcrx_read_frame_at, .-tcrx_read_frame_at
	.section	.text.tcrx_read_packet_at,"ax",@progbits
	.globl	tcrx_read_packet_at
	.p2align	4
	.type	tcrx_read_packet_at,@function
tcrx_read_packet_at:
	xorl	%r9d, %r9d
	testq	%rdi, %rdi
	sete	%cl
	movl	$40, %eax
	cmpq	$7, %rsi
	jae	409f
	xorl	%edx, %edx
	retq
409:
	movb	%cl, %r9b
	shll	$12, %r9d
	movzwl	(%rdi,%r9), %ecx
	rolw	$8, %cx
	movzwl	%cx, %r8d
	xorl	%edx, %edx
	cmpl	$8191, %r8d
	ja	5f
	movzwl	4(%rdi,%r9), %ecx
	rolw	$8, %cx
	movzwl	%cx, %ecx
	addq	$7, %rcx
	cmpq	%rcx, %rsi
	jb	5f
	movzwl	2(%rdi,%r9), %eax
	rolw	$8, %ax
	movzwl	%ax, %edi
	xorl	%esi, %esi
	cmpl	$4096, %r8d
	setae	%sil
	movl	%r8d, %edx
	andl	$2047, %edx
	shrl	$14, %edi
	andl	$16383, %eax
	shrl	$11, %r8d
	andl	$1, %r8d
	shlq	$32, %rcx
	shlq	$48, %rdi
	shlq	$40, %r8
	orq	%rdi, %r8
	shlq	$32, %rsi
	orq	%r8, %rsi
	shll	$16, %eax
	orq	%rsi, %rax
	orq	%rax, %rdx
	movq	%rcx, %rax
5:
	retq
	.size	tcrx_read_packet_at, .-tcrx_read_packet_at
	.section	.text.tcrx_read_tm_at,"ax",@progbits
	.globl	tcrx_read_tm_at
	.p2align	4
	.type	tcrx_read_tm_at,@function
tcrx_read_tm_at:
	pushq	%r15
	pushq	%r14
	pushq	%r12
	pushq	%rbx
	pushq	%rax
	movq	%rdx, %rax
	xorl	%ecx, %ecx
	testq	%rsi, %rsi
	sete	%dl
	movb	$22, %r8b
	cmpb	$1, %dil
	ja	284f
	movb	$54, %r8b
	cmpq	$2048, %rax
	ja	284f
	xorl	%r9d, %r9d
	testb	%dil, %dil
	setne	%r9b
	leaq	11(,%r9,2), %r9
	cmpq	%r9, %rax
	jb	284f
	movb	%dl, %cl
	shll	$12, %ecx
	addq	%rcx, %rsi
	movzwl	(%rsi), %ecx
	rolw	$8, %cx
	movzwl	%cx, %edx
	movb	$2, %r8b
	cmpl	$16383, %edx
	ja	284f
	movb	$55, %r8b
	testb	$1, %cl
	je	284f
	testb	%dil, %dil
	je	166f
	movw	$-1, %di
	movq	%rsi, %r10
	movq	%rax, %r8
	.p2align	4
928:
	movq	%r10, %r9
	addq	$-4, %r8
	movzbl	2(%r10), %r10d
	movzbl	3(%r9), %r11d
	movl	%edi, %ebx
	shrl	$8, %ebx
	xorb	(%r9), %bl
	movzbl	%bl, %ebx
	leaq	.LT48aab116(%rip), %r14
	xorb	1(%r9), %dil
	movzbl	%dil, %edi
	leaq	.LT33c05f58(%rip), %r15
	movzwl	(%r15,%rdi,2), %edi
	leaq	.LTbb337a2b(%rip), %r15
	leaq	.LT48c7e4e5(%rip), %r12
	xorw	(%r14,%rbx,2), %di
	xorw	(%r15,%r10,2), %di
	xorw	(%r12,%r11,2), %di
	leaq	4(%r9), %r10
	cmpq	$3, %r8
	ja	928b
	testq	%r8, %r8
	je	409f
	xorl	%r10d, %r10d
	.p2align	4
548:
	movzbl	4(%r9,%r10), %r11d
	movzwl	%di, %ebx
	shrl	$8, %ebx
	xorl	%r11d, %ebx
	movl	%ebx, %r11d
	shrl	$4, %r11d
	xorl	%ebx, %r11d
	shll	$8, %edi
	movl	%r11d, %ebx
	orl	%r11d, %edi
	shll	$12, %r11d
	shll	$5, %ebx
	xorl	%r11d, %edi
	xorl	%ebx, %edi
	incq	%r10
	cmpq	%r10, %r8
	jne	548b
409:
	movb	$8, %r8b
	testw	%di, %di
	je	548f
284:
	movzbl	%r8b, %edi
	callq	tc_c_base.status.code
	movl	%eax, %eax
	xorl	%edx, %edx
850:
	addq	$8, %rsp
	popq	%rbx
	popq	%r12
	popq	%r14
	popq	%r15
	retq
166:
	movzbl	4(%rsi), %edi
	addq	%rsi, %rax
	addq	$-4, %rax
	jmp	284f
548:
	movzbl	4(%rsi), %edi
	addq	%rsi, %rax
	addq	$-6, %rax
284:
	movzbl	5(%rsi), %r8d
	shll	$8, %r8d
	andl	$7, %edi
	orl	%r8d, %edi
	rolw	$8, %di
	movl	(%rax), %eax
	movzbl	3(%rsi), %r8d
	shrl	%ecx
	andl	$7, %ecx
	shrl	$4, %edx
	bswapl	%eax
	shlq	$32, %rax
	movzwl	%di, %edi
	shlq	$48, %rdi
	shlq	$32, %r8
	orq	%rdi, %r8
	movzbl	2(%rsi), %esi
	shll	$24, %esi
	orq	%r8, %rsi
	shll	$16, %ecx
	orq	%rsi, %rcx
	orq	%rcx, %rdx
	jmp	850b
	.size	tcrx_read_tm_at, .-tcrx_read_tm_at
	.section	.text.tcrx_storage_at,"ax",@progbits
	.globl	tcrx_storage_at
	.p2align	4
	.type	tcrx_storage_at,@function
tcrx_storage_at:
	pushq	%rbp
	pushq	%r15
	pushq	%r14
	pushq	%r13
	pushq	%r12
	pushq	%rbx
	subq	$56, %rsp
	movq	%rdi, %rbx
	shrq	$8, %rbx
	xorl	%r15d, %r15d
	testq	%rsi, %rsi
	sete	%r9b
	xorl	%r14d, %r14d
	testq	%rcx, %rcx
	sete	%al
	movb	$22, %r10b
	cmpl	$33554431, %ebx
	ja	548f
	movb	%r9b, %r15b
	shll	$12, %r15d
	movq	%rsi, 8(%rsp)
	addq	%r15, %rsi
	movb	%al, %r14b
	shll	$12, %r14d
	movq	%rcx, %r13
	leaq	(%rcx,%r14), %rax
	movb	%dil, 16(%rsp)
	movl	%ebx, 17(%rsp)
	movw	$0, 21(%rsp)
	movb	$0, 23(%rsp)
	movq	%rsi, 24(%rsp)
	movq	%rdx, %r12
	movq	%rdx, 32(%rsp)
	movq	%rax, 40(%rsp)
	movq	%r8, %rbp
	movq	%r8, 48(%rsp)
	leaq	16(%rsp), %rdi
	callq	tc_queues.settings.LentSettings.check
	testb	%al, %al
	je	928f
	movzbl	%dl, %eax
	leaq	.Lswitch.table.tcrx_storage_with_limits_at(%rip), %rcx
	movzbl	(%rax,%rcx), %r10d
548:
	movzbl	%r10b, %edi
	callq	tc_c_base.status.code
	movl	%eax, %eax
	xorl	%edx, %edx
850:
	addq	$56, %rsp
	popq	%rbx
	popq	%r12
	popq	%r13
	popq	%r14
	popq	%r15
	popq	%rbp
	retq
928:
	movq	%r12, %rcx
	testq	%r12, %r12
	je	890f
	movl	%ecx, %eax
	andl	$3, %eax
	cmpq	$4, %rcx
	movq	%rbp, %rsi
	movq	%r13, %r8
	jae	928f
	xorl	%edi, %edi
	xorl	%edx, %edx
	xorl	%r10d, %r10d
	movq	8(%rsp), %r9
	jmp	669f
890:
	xorl	%edi, %edi
	xorl	%edx, %edx
	movq	%rbp, %rsi
	movq	%r13, %r8
	jmp	327f
928:
	movq	%rcx, %r11
	andq	$-4, %r11
	movq	8(%rsp), %r9
	leaq	(%r15,%r9), %r12
	addq	$14, %r12
	xorl	%edi, %edi
	xorl	%edx, %edx
	xorl	%r10d, %r10d
	.p2align	4
471:
	movzwl	-12(%r12,%r10,4), %r13d
	addq	%rdi, %r13
	adcq	$0, %rdx
	movzwl	-8(%r12,%r10,4), %edi
	addq	%r13, %rdi
	adcq	$0, %rdx
	movzwl	-4(%r12,%r10,4), %r13d
	addq	%rdi, %r13
	adcq	$0, %rdx
	movzwl	(%r12,%r10,4), %edi
	addq	%r13, %rdi
	adcq	$0, %rdx
	addq	$4, %r10
	cmpq	%r10, %r11
	jne	471b
	testq	%rax, %rax
	je	327f
669:
	leaq	(%r15,%r10,4), %r10
	addq	%r10, %r9
	addq	$2, %r9
	xorl	%r10d, %r10d
	.p2align	4
471:
	movzwl	(%r9,%r10,4), %r11d
	addq	%r11, %rdi
	adcq	$0, %rdx
	incq	%r10
	cmpq	%r10, %rax
	jne	471b
327:
	movl	%ebx, %r10d
	shrl	$8, %r10d
	testq	%rsi, %rsi
	je	890f
	movl	%esi, %r11d
	andl	$3, %r11d
	cmpq	$4, %rsi
	jae	928f
	xorl	%eax, %eax
	xorl	%r9d, %r9d
	xorl	%r15d, %r15d
	jmp	669f
890:
	xorl	%eax, %eax
	xorl	%r9d, %r9d
	jmp	548f
928:
	movq	%rsi, %r12
	andq	$-4, %r12
	leaq	(%r14,%r8), %r13
	addq	$14, %r13
	xorl	%eax, %eax
	xorl	%r9d, %r9d
	xorl	%r15d, %r15d
	.p2align	4
471:
	movzwl	-12(%r13,%r15,4), %ebp
	addq	%rax, %rbp
	adcq	$0, %r9
	movzwl	-8(%r13,%r15,4), %eax
	addq	%rbp, %rax
	adcq	$0, %r9
	movzwl	-4(%r13,%r15,4), %ebp
	addq	%rax, %rbp
	adcq	$0, %r9
	movzwl	(%r13,%r15,4), %eax
	addq	%rbp, %rax
	adcq	$0, %r9
	addq	$4, %r15
	cmpq	%r15, %r12
	jne	471b
	testq	%r11, %r11
	je	548f
669:
	leaq	(%r14,%r15,4), %r14
	addq	%r14, %r8
	addq	$2, %r8
	xorl	%r14d, %r14d
	.p2align	4
471:
	movzwl	(%r8,%r14,4), %r15d
	addq	%r15, %rax
	adcq	$0, %r9
	incq	%r14
	cmpq	%r14, %r11
	jne	471b
548:
	movzbl	%r10b, %r8d
	imull	$1051, %r8d, %r11d
	xorl	%r14d, %r14d
	cmpq	$8, %rcx
	setae	%r14b
	xorl	%r8d, %r8d
	cmpq	$8, %rsi
	setae	%r8b
	xorl	%r10d, %r10d
	addq	%rcx, %rsi
	setb	%r10b
	addq	%rdi, %rax
	adcq	%rdx, %r9
	shldq	$6, %rsi, %r10
	shlq	$6, %rsi
	shll	$12, %r14d
	cmpl	$16777216, %ebx
	movl	$1051, %ecx
	movl	$65574, %edx
	cmovbq	%rcx, %rdx
	leaq	8394496(%r14), %rdi
	cmovbq	%r14, %rdi
	imulq	%rdx, %r9
	mulq	%rdx
	movq	%rax, %rcx
	addq	%r9, %rdx
	shll	$12, %r8d
	addq	%r11, %r8
	addq	%rdi, %r8
	addq	%rsi, %r8
	adcq	$0, %r10
	xorl	%eax, %eax
	addq	%rcx, %r8
	adcq	%rdx, %r10
	cmovneq	%rax, %r8
	negq	%r10
	movl	$0, %edx
	sbbq	%rdx, %rdx
	orq	%r8, %rdx
	jmp	850b
	.size	tcrx_storage_at, .-tcrx_storage_at
	.section	.rodata.cst16,"aM",@progbits,16
	.p2align	4
.LC0bde1fc8_0:
	.long	2147483648
	.long	2147483648
	.long	2147483648
	.long	2147483648
	.section	.text.tcrx_storage_with_limits_at,"ax",@progbits
	.globl	tcrx_storage_with_limits_at
	.p2align	4
	.type	tcrx_storage_with_limits_at,@function
tcrx_storage_with_limits_at:
	pushq	%rbp
	pushq	%r15
	pushq	%r14
	pushq	%r13
	pushq	%r12
	pushq	%rbx
	subq	$136, %rsp
	movq	%rdi, %rax
	movabsq	$1099511627775, %r12
	andq	%rdi, %r12
	movq	192(%rsp), %rbp
	movq	%r12, %rbx
	shrq	$32, %rbx
	xorl	%r15d, %r15d
	testq	%rsi, %rsi
	sete	%dil
	xorl	%r14d, %r14d
	testq	%rcx, %rcx
	sete	%r10b
	xorl	%r13d, %r13d
	testq	%rbp, %rbp
	sete	%r11b
	movw	$0, 8(%rsp)
	movb	$0, 10(%rsp)
	cmpb	$1, %bl
	ja	409f
	movb	%r11b, %r13b
	shll	$12, %r13d
	movq	%rbp, %r11
	addq	%r13, %r11
	movl	%r9d, 12(%rsp)
	movl	%r9d, 112(%rsp)
	movl	$0, 116(%rsp)
	movq	%r11, 120(%rsp)
	movb	%dil, %r15b
	movb	%r10b, %r14b
	shrq	$16, %r12
	movq	%r12, 88(%rsp)
	shll	$12, %r15d
	movb	%al, 40(%rsp)
	movb	%ah, 41(%rsp)
	shrl	$24, %eax
	movb	%r12b, 42(%rsp)
	movb	%al, 43(%rsp)
	movq	%rsi, 104(%rsp)
	leaq	(%rsi,%r15), %rax
	shll	$12, %r14d
	movb	%bl, 44(%rsp)
	movw	$0, 45(%rsp)
	movb	$0, 47(%rsp)
	movq	%rax, 48(%rsp)
	movq	%rcx, 32(%rsp)
	leaq	(%rcx,%r14), %rax
	movq	%rdx, 96(%rsp)
	movq	%rdx, 56(%rsp)
	movq	%rax, 64(%rsp)
	movq	%r13, %r12
	movq	200(%rsp), %r13
	movq	%r13, 128(%rsp)
	movq	%r8, %rbp
	movq	%r8, 72(%rsp)
	leaq	8(%rsp), %rdi
	leaq	112(%rsp), %rsi
	leaq	40(%rsp), %rdx
	callq	tc_fixed.limits.LentLimits.check
	cmpb	$0, 8(%rsp)
	je	928f
	movzbl	9(%rsp), %eax
	leaq	.LJ0bde1fc8_0(%rip), %rcx
	movslq	(%rcx,%rax,4), %rax
	addq	%rcx, %rax
	jmpq	*%rax
548:
	movzbl	10(%rsp), %eax
	leaq	.Lswitch.table.tcrx_storage_with_limits_at(%rip), %rcx
	movzbl	(%rax,%rcx), %eax
	jmp	284f
409:
	movb	$22, %al
284:
	movzbl	%al, %edi
	callq	tc_c_base.status.code
	movl	%eax, %eax
	xorl	%edx, %edx
850:
	addq	$136, %rsp
	popq	%rbx
	popq	%r12
	popq	%r13
	popq	%r14
	popq	%r15
	popq	%rbp
	retq
928:
	movq	%r12, %rax
	movq	%r15, 16(%rsp)
	movq	%r14, 24(%rsp)
	xorl	%ecx, %ecx
	movl	$0, %edi
	movq	%rbx, 80(%rsp)
	testb	$1, %bl
	movq	%rbp, %rsi
	movq	96(%rsp), %rdx
	movl	12(%rsp), %r9d
	movq	104(%rsp), %r15
	movq	192(%rsp), %r14
	movq	88(%rsp), %r12
	je	211f
	testq	%r13, %r13
	je	509f
	leaq	(%rax,%r14), %r10
	addq	$4, %r10
	xorl	%ecx, %ecx
	xorl	%edi, %edi
	xorl	%r11d, %r11d
	jmp	890f
	.p2align	4
327:
	movl	(%r10,%rbx,8), %r8d
186:
	movl	%r8d, %r8d
	addq	%r8, %rcx
	adcq	$0, %rdi
	addq	$2, %r11
	cmpq	$64, %r11
	je	339f
890:
	xorl	%r8d, %r8d
	.p2align	4
868:
	cmpb	%r11b, -4(%r10,%r8,8)
	je	981f
	incq	%r8
	cmpq	%r8, %r13
	jne	868b
	movl	%r9d, %r8d
	jmp	434f
	.p2align	4
981:
	movl	(%r10,%r8,8), %r8d
434:
	movl	%r8d, %r8d
	addq	%r8, %rcx
	adcq	$0, %rdi
	movl	%r11d, %r8d
	orb	$1, %r8b
	xorl	%ebx, %ebx
	.p2align	4
868:
	cmpb	%r8b, -4(%r10,%rbx,8)
	je	327b
	incq	%rbx
	cmpq	%rbx, %r13
	jne	868b
	movl	%r9d, %r8d
	jmp	186b
409:
	movb	$50, %al
	jmp	284b
969:
	movb	$48, %al
	jmp	284b
394:
	movb	$49, %al
	jmp	284b
668:
	movb	$47, %al
	jmp	284b
27:
	movb	$51, %al
	jmp	284b
652:
	movb	$52, %al
	jmp	284b
509:
	movl	%r9d, %ecx
	shlq	$6, %rcx
	xorl	%edi, %edi
339:
	shldq	$1, %rcx, %rdi
	addq	%rcx, %rcx
	addq	$5120, %rcx
	adcq	$0, %rdi
211:
	testq	%r13, %r13
	je	284f
	cmpq	$8, %r13
	jae	928f
	xorl	%r10d, %r10d
	jmp	669f
928:
	movq	%r13, %r10
	andq	$-8, %r10
	movd	%r9d, %xmm0
	pshufd	$0, %xmm0, %xmm0
	leaq	(%rax,%r14), %r9
	addq	$60, %r9
	xorl	%r11d, %r11d
	movdqa	%xmm0, %xmm1
	.p2align	4
777:
	movd	-32(%r9,%r11,8), %xmm2
	movd	-40(%r9,%r11,8), %xmm3
	punpckldq	%xmm2, %xmm3
	movd	-48(%r9,%r11,8), %xmm2
	movd	-56(%r9,%r11,8), %xmm4
	punpckldq	%xmm2, %xmm4
	punpcklqdq	%xmm3, %xmm4
	movd	(%r9,%r11,8), %xmm2
	movd	-8(%r9,%r11,8), %xmm3
	punpckldq	%xmm2, %xmm3
	movd	-16(%r9,%r11,8), %xmm2
	movd	-24(%r9,%r11,8), %xmm5
	punpckldq	%xmm2, %xmm5
	punpcklqdq	%xmm3, %xmm5
	movdqa	.LC0bde1fc8_0(%rip), %xmm2
	movdqa	%xmm4, %xmm3
	pxor	%xmm2, %xmm3
	movdqa	%xmm0, %xmm6
	pxor	%xmm2, %xmm6
	pcmpgtd	%xmm6, %xmm3
	pand	%xmm3, %xmm4
	pandn	%xmm0, %xmm3
	movdqa	%xmm3, %xmm0
	por	%xmm4, %xmm0
	movdqa	%xmm5, %xmm3
	pxor	%xmm2, %xmm3
	movdqa	%xmm1, %xmm4
	pxor	%xmm2, %xmm4
	pcmpgtd	%xmm4, %xmm3
	pand	%xmm3, %xmm5
	pandn	%xmm1, %xmm3
	movdqa	%xmm3, %xmm1
	por	%xmm5, %xmm1
	addq	$8, %r11
	cmpq	%r11, %r10
	jne	777b
	movdqa	%xmm1, %xmm3
	pxor	%xmm2, %xmm3
	movdqa	%xmm0, %xmm4
	pxor	%xmm2, %xmm4
	pcmpgtd	%xmm3, %xmm4
	pand	%xmm4, %xmm0
	pandn	%xmm1, %xmm4
	por	%xmm0, %xmm4
	pshufd	$238, %xmm4, %xmm0
	movdqa	%xmm4, %xmm1
	pxor	%xmm2, %xmm1
	movdqa	%xmm0, %xmm3
	pxor	%xmm2, %xmm3
	pcmpgtd	%xmm3, %xmm1
	pand	%xmm1, %xmm4
	pandn	%xmm0, %xmm1
	por	%xmm4, %xmm1
	pshufd	$85, %xmm1, %xmm0
	movdqa	%xmm1, %xmm3
	pxor	%xmm2, %xmm3
	pxor	%xmm0, %xmm2
	pcmpgtd	%xmm2, %xmm3
	pand	%xmm3, %xmm1
	pandn	%xmm0, %xmm3
	por	%xmm1, %xmm3
	movd	%xmm3, %r9d
	cmpq	%r10, %r13
	je	284f
669:
	leaq	(%rax,%r14), %r8
	addq	$4, %r8
	.p2align	4
327:
	movl	(%r8,%r10,8), %r11d
	cmpl	%r9d, %r11d
	cmoval	%r11d, %r9d
	incq	%r10
	cmpq	%r10, %r13
	jne	327b
284:
	movzbl	%r12b, %ebp
	testq	%rdx, %rdx
	je	890f
	movl	%edx, %r12d
	andl	$3, %r12d
	cmpq	$4, %rdx
	jae	928f
	xorl	%r11d, %r11d
	xorl	%r10d, %r10d
	xorl	%r14d, %r14d
	jmp	859f
890:
	xorl	%r11d, %r11d
	xorl	%r10d, %r10d
	jmp	107f
928:
	movq	%rdx, %r13
	andq	$-4, %r13
	movq	16(%rsp), %r8
	addq	%r15, %r8
	addq	$14, %r8
	xorl	%r11d, %r11d
	xorl	%r10d, %r10d
	xorl	%r14d, %r14d
	.p2align	4
471:
	movzwl	-12(%r8,%r14,4), %ebx
	addq	%r11, %rbx
	adcq	$0, %r10
	movzwl	-8(%r8,%r14,4), %r11d
	addq	%rbx, %r11
	adcq	$0, %r10
	movzwl	-4(%r8,%r14,4), %ebx
	addq	%r11, %rbx
	adcq	$0, %r10
	movzwl	(%r8,%r14,4), %r11d
	addq	%rbx, %r11
	adcq	$0, %r10
	addq	$4, %r14
	cmpq	%r14, %r13
	jne	471b
	testq	%r12, %r12
	je	107f
859:
	movq	16(%rsp), %r8
	leaq	(%r8,%r14,4), %r8
	leaq	(%r15,%r8), %rax
	addq	$2, %rax
	xorl	%r8d, %r8d
	.p2align	4
471:
	movzwl	(%rax,%r8,4), %ebx
	addq	%rbx, %r11
	adcq	$0, %r10
	incq	%r8
	cmpq	%r8, %r12
	jne	471b
107:
	imull	$1051, %ebp, %r13d
	testq	%rsi, %rsi
	je	890f
	movl	%esi, %r12d
	andl	$3, %r12d
	cmpq	$4, %rsi
	jae	327f
	movq	32(%rsp), %rbp
	xorl	%eax, %eax
	xorl	%r15d, %r15d
	xorl	%r14d, %r14d
	jmp	928f
890:
	xorl	%eax, %eax
	xorl	%r15d, %r15d
	jmp	186f
327:
	movl	%r13d, 12(%rsp)
	movq	%rsi, %r13
	andq	$-4, %r13
	movq	24(%rsp), %rax
	movq	32(%rsp), %r8
	movq	%r8, %rbp
	addq	%rax, %r8
	addq	$14, %r8
	xorl	%eax, %eax
	xorl	%r15d, %r15d
	xorl	%r14d, %r14d
	.p2align	4
471:
	movzwl	-12(%r8,%r14,4), %ebx
	addq	%rax, %rbx
	adcq	$0, %r15
	movzwl	-8(%r8,%r14,4), %eax
	addq	%rbx, %rax
	adcq	$0, %r15
	movzwl	-4(%r8,%r14,4), %ebx
	addq	%rax, %rbx
	adcq	$0, %r15
	movzwl	(%r8,%r14,4), %eax
	addq	%rbx, %rax
	adcq	$0, %r15
	addq	$4, %r14
	cmpq	%r14, %r13
	jne	471b
	testq	%r12, %r12
	movl	12(%rsp), %r13d
	je	186f
928:
	movq	24(%rsp), %r8
	leaq	(%r8,%r14,4), %r8
	addq	%rbp, %r8
	addq	$2, %r8
	xorl	%ebx, %ebx
	.p2align	4
471:
	movzwl	(%r8,%rbx,4), %r14d
	addq	%r14, %rax
	adcq	$0, %r15
	incq	%rbx
	cmpq	%rbx, %r12
	jne	471b
186:
	movl	%r9d, %r8d
	testb	$1, 80(%rsp)
	movl	$65542, %r9d
	movl	$1019, %r14d
	cmovneq	%r9, %r14
	cmpq	%r14, %r8
	cmovbq	%r8, %r14
	xorl	%ebx, %ebx
	cmpq	$8, %rdx
	setae	%bl
	xorl	%r8d, %r8d
	cmpq	$8, %rsi
	setae	%r8b
	xorl	%r9d, %r9d
	addq	%rdx, %rsi
	setb	%r9b
	addq	%r11, %rax
	adcq	%r10, %r15
	shldq	$6, %rsi, %r9
	movl	%r13d, %r10d
	shlq	$6, %rsi
	addq	$32, %r14
	imulq	%r14, %r15
	mulq	%r14
	addq	%r15, %rdx
	shll	$12, %ebx
	addq	%r10, %rbx
	shll	$12, %r8d
	addq	%rbx, %r8
	addq	%rsi, %r8
	adcq	$0, %r9
	addq	%rcx, %r8
	adcq	%rdi, %r9
	addq	%rax, %r8
	movl	$0, %eax
	adcq	%rdx, %r9
	cmovneq	%rax, %r8
	negq	%r9
	movl	$0, %edx
	sbbq	%rdx, %rdx
	orq	%r8, %rdx
	jmp	850b
	.size	tcrx_storage_with_limits_at, .-tcrx_storage_with_limits_at
	.section	.rodata.tcrx_storage_with_limits_at,"a",@progbits
	.p2align	2
.LJ0bde1fc8_0:
	.long	548b-.LJ0bde1fc8_0
	.long	668b-.LJ0bde1fc8_0
	.long	969b-.LJ0bde1fc8_0
	.long	394b-.LJ0bde1fc8_0
	.long	409b-.LJ0bde1fc8_0
	.long	27b-.LJ0bde1fc8_0
	.long	652b-.LJ0bde1fc8_0
	.section	.text.tcrx_text_at,"ax",@progbits
	.globl	tcrx_text_at
	.p2align	4
	.type	tcrx_text_at,@function
tcrx_text_at:
	pushq	%rbp
	pushq	%r15
	pushq	%r14
	pushq	%r13
	pushq	%r12
	pushq	%rbx
	pushq	%rax
	movq	%rdx, (%rsp)
	movq	%rsi, %r14
	movl	%edi, %ebp
	xorl	%r13d, %r13d
	testq	%rsi, %rsi
	sete	%r13b
	shll	$12, %r13d
	leaq	(%rsi,%r13), %rbx
	xorl	%r15d, %r15d
	.p2align	4
972:
	cmpq	$64, %r15
	je	327f
	leaq	.LTbb19773e(%rip), %rax
	movzbl	(%r15,%rax), %r12d
	movl	%r12d, %edi
	callq	tc_c_base.status.code
	incq	%r15
	cmpl	%ebp, %eax
	jne	972b
	movb	$1, %cl
	movl	%r12d, %eax
	leaq	.LJbcc88025_0(%rip), %rdx
	movslq	(%rdx,%rax,4), %rax
	addq	%rdx, %rax
	jmpq	*%rax
669:
	leaq	.LTfab3cca2(%rip), %rsi
	movl	$4, %r12d
	jmp	928f
327:
	movl	$52, %eax
	xorl	%edx, %edx
	jmp	850f
219:
	leaq	.LT9ca90559(%rip), %rsi
	movl	$43, %r12d
	jmp	890f
949:
	leaq	.LT290ea87a(%rip), %rsi
	movl	$21, %r12d
	jmp	890f
740:
	leaq	.LTfbebc291(%rip), %rsi
	movl	$21, %r12d
	jmp	890f
71:
	leaq	.LTfe3338ef(%rip), %rsi
	movl	$35, %r12d
	jmp	890f
917:
	leaq	.LTe06be31d(%rip), %rsi
	movl	$47, %r12d
	jmp	890f
359:
	leaq	.LT3658ec33(%rip), %rsi
	movl	$35, %r12d
	jmp	890f
661:
	leaq	.LT46e62e51(%rip), %rsi
	movl	$34, %r12d
	jmp	890f
172:
	leaq	.LTd55d72f1(%rip), %rsi
	movl	$16, %r12d
	jmp	890f
999:
	leaq	.LTe199b508(%rip), %rsi
	movl	$28, %r12d
	jmp	890f
90:
	leaq	.LT4ac7c18d(%rip), %rsi
	movl	$24, %r12d
	jmp	890f
975:
	leaq	.LT20d558df(%rip), %rsi
	movl	$37, %r12d
	jmp	890f
458:
	leaq	.LT3db31328(%rip), %rsi
	movl	$19, %r12d
	jmp	890f
459:
	leaq	.LT97a4dc65(%rip), %rsi
	movl	$36, %r12d
	jmp	890f
302:
	leaq	.LT4c898d49(%rip), %rsi
	movl	$33, %r12d
	jmp	890f
435:
	leaq	.LTf5153f34(%rip), %rsi
	movl	$29, %r12d
	jmp	890f
696:
	leaq	.LTae2c6a3d(%rip), %rsi
	movl	$25, %r12d
	jmp	890f
384:
	leaq	.LTb30c4e51(%rip), %rsi
	movl	$41, %r12d
	jmp	890f
347:
	leaq	.LT01cec7ba(%rip), %rsi
	jmp	327f
92:
	leaq	.LTc3836849(%rip), %rsi
	movl	$42, %r12d
	jmp	890f
570:
	leaq	.LT59e5f42b(%rip), %rsi
	movl	$18, %r12d
	jmp	890f
455:
	leaq	.LT6b39cd25(%rip), %rsi
	movl	$41, %r12d
	jmp	890f
533:
	leaq	.LT11c32282(%rip), %rsi
	movl	$9, %r12d
	jmp	928f
312:
	leaq	.LT580251c1(%rip), %rsi
	movl	$39, %r12d
	jmp	890f
715:
	leaq	.LTea2f882f(%rip), %rsi
	movl	$37, %r12d
	jmp	890f
753:
	leaq	.LT4b4185f9(%rip), %rsi
	movl	$24, %r12d
	jmp	890f
447:
	leaq	.LT71a5f666(%rip), %rsi
	movl	$19, %r12d
	jmp	890f
506:
	leaq	.LTa4fd88a6(%rip), %rsi
	movl	$36, %r12d
	jmp	890f
486:
	leaq	.LT17fb76fc(%rip), %rsi
327:
	movl	$20, %r12d
	jmp	890f
457:
	leaq	.LT0052164e(%rip), %rsi
	movl	$23, %r12d
	jmp	890f
356:
	leaq	.LTf25b4188(%rip), %rsi
	movl	$33, %r12d
	jmp	890f
279:
	leaq	.LT8f6839ec(%rip), %rsi
	movl	$19, %r12d
	jmp	890f
781:
	leaq	.LTe4bd5d69(%rip), %rsi
	movl	$14, %r12d
	jmp	928f
121:
	leaq	.LTef9ae52e(%rip), %rsi
	movl	$37, %r12d
	jmp	890f
782:
	leaq	.LT6c19ea7f(%rip), %rsi
	movl	$25, %r12d
	jmp	890f
755:
	leaq	.LTc3e1dd7a(%rip), %rsi
	movl	$22, %r12d
	jmp	890f
467:
	leaq	.LT7e1f4dbf(%rip), %rsi
	movl	$33, %r12d
	jmp	890f
394:
	leaq	.LTd0a9ac08(%rip), %rsi
	movl	$49, %r12d
	jmp	890f
487:
	leaq	.LT0f2a07b8(%rip), %rsi
	movl	$38, %r12d
	jmp	890f
323:
	leaq	.LT3dc80ff8(%rip), %rsi
	movl	$28, %r12d
	jmp	890f
430:
	leaq	.LT1f9aeb32(%rip), %rsi
	movl	$49, %r12d
	jmp	890f
688:
	leaq	.LT138712ef(%rip), %rsi
	movl	$23, %r12d
	jmp	890f
936:
	leaq	.LT91539c8c(%rip), %rsi
	movl	$42, %r12d
	jmp	890f
10:
	leaq	.LT94255f9a(%rip), %rsi
	movl	$23, %r12d
	jmp	890f
624:
	leaq	.LT3538cb2b(%rip), %rsi
	movl	$38, %r12d
	jmp	890f
427:
	leaq	.LTdd8444d7(%rip), %rsi
	movl	$17, %r12d
	jmp	890f
463:
	leaq	.LTacd56a44(%rip), %rsi
	movl	$40, %r12d
	jmp	890f
725:
	leaq	.LTab209b3c(%rip), %rsi
	movl	$35, %r12d
	jmp	890f
940:
	leaq	.LT1f398924(%rip), %rsi
	movl	$25, %r12d
	jmp	890f
969:
	leaq	.LTc3e0b8ef(%rip), %rsi
	movl	$45, %r12d
	jmp	890f
52:
	leaq	.LTeb6253d2(%rip), %rsi
	movl	$47, %r12d
	jmp	890f
211:
	leaq	.LTa48e2876(%rip), %rsi
	movl	$18, %r12d
	jmp	890f
925:
	leaq	.LTcedf9ef2(%rip), %rsi
	movl	$22, %r12d
	jmp	890f
692:
	leaq	.LT99c6f716(%rip), %rsi
	movl	$31, %r12d
	jmp	890f
687:
	leaq	.LTe0aca583(%rip), %rsi
	movl	$36, %r12d
	jmp	890f
691:
	leaq	.LT5569709d(%rip), %rsi
	movl	$24, %r12d
	jmp	890f
895:
	leaq	.LTbae1953e(%rip), %rsi
	movl	$23, %r12d
	jmp	890f
166:
	leaq	.LTf51ba29c(%rip), %rsi
	movl	$43, %r12d
	jmp	890f
123:
	leaq	.LT366853d5(%rip), %rsi
	movl	$33, %r12d
	jmp	890f
107:
	leaq	.LT90382c6f(%rip), %rsi
	movl	$53, %r12d
	jmp	890f
744:
	leaq	.LT918e64dc(%rip), %rsi
	movl	$37, %r12d
	jmp	890f
13:
	leaq	.LT13107e67(%rip), %rsi
	movl	$25, %r12d
	jmp	890f
333:
	leaq	.LT33f7845b(%rip), %rsi
	movl	$38, %r12d
	jmp	890f
801:
	leaq	.LTb4cf770f(%rip), %rsi
	movl	$54, %r12d
890:
	xorl	%ecx, %ecx
928:
	movq	(%rsp), %rdi
	leaq	1(%r12), %rdx
	movl	$50, %eax
	cmpq	%r12, %rdi
	jbe	850f
	movq	%rbx, %rax
	subq	%rsi, %rax
	cmpq	%r12, %rax
	jae	928f
	cmpq	$16, %rax
	jae	1f
	xorl	%eax, %eax
	jmp	859f
928:
	movq	%rbx, %rdi
	movq	%rdx, %r14
	movq	%r12, %rdx
	callq	memmove@PLT
	movq	%r14, %rdx
	jmp	409f
1:
	testb	%cl, %cl
	je	327f
	xorl	%eax, %eax
	jmp	928f
327:
	movl	%r12d, %eax
	andl	$-16, %eax
	xorl	%ecx, %ecx
	.p2align	4
464:
	movups	(%rsi,%rcx), %xmm0
	movups	%xmm0, (%rbx,%rcx)
	addq	$16, %rcx
	cmpq	%rcx, %rax
	jne	464b
	cmpl	%eax, %r12d
	je	409f
	testb	$12, %r12b
	je	859f
928:
	movq	%rax, %rcx
	movl	%r12d, %eax
	andl	$-4, %eax
	.p2align	4
327:
	movl	(%rsi,%rcx), %edi
	movl	%edi, (%rbx,%rcx)
	addq	$4, %rcx
	cmpq	%rcx, %rax
	jne	327b
	cmpl	%eax, %r12d
	je	409f
859:
	movq	%r12, %rdi
	movq	%rax, %rcx
	andq	$3, %rdi
	je	203f
	movq	%rax, %rcx
	.p2align	4
548:
	movzbl	(%rsi,%rcx), %r8d
	movb	%r8b, (%rbx,%rcx)
	incq	%rcx
	decq	%rdi
	jne	548b
203:
	subl	%r12d, %eax
	cmpl	$-4, %eax
	ja	409f
	leaq	(%r14,%r13), %rax
	addq	$3, %rax
	.p2align	4
548:
	movzbl	(%rsi,%rcx), %edi
	movb	%dil, -3(%rax,%rcx)
	movzbl	1(%rsi,%rcx), %edi
	movb	%dil, -2(%rax,%rcx)
	movzbl	2(%rsi,%rcx), %edi
	movb	%dil, -1(%rax,%rcx)
	movzbl	3(%rsi,%rcx), %edi
	movb	%dil, (%rax,%rcx)
	addq	$4, %rcx
	cmpq	%rcx, %r12
	jne	548b
409:
	movb	$0, (%rbx,%r12)
	xorl	%eax, %eax
850:
	addq	$8, %rsp
	popq	%rbx
	popq	%r12
	popq	%r13
	popq	%r14
	popq	%r15
	popq	%rbp
	retq
	.size	tcrx_text_at, .-tcrx_text_at
	.section	.rodata.tcrx_text_at,"a",@progbits
	.p2align	2
.LJbcc88025_0:
	.long	669b-.LJbcc88025_0
	.long	279b-.LJbcc88025_0
	.long	447b-.LJbcc88025_0
	.long	457b-.LJbcc88025_0
	.long	92b-.LJbcc88025_0
	.long	394b-.LJbcc88025_0
	.long	688b-.LJbcc88025_0
	.long	356b-.LJbcc88025_0
	.long	624b-.LJbcc88025_0
	.long	312b-.LJbcc88025_0
	.long	10b-.LJbcc88025_0
	.long	384b-.LJbcc88025_0
	.long	533b-.LJbcc88025_0
	.long	430b-.LJbcc88025_0
	.long	459b-.LJbcc88025_0
	.long	506b-.LJbcc88025_0
	.long	975b-.LJbcc88025_0
	.long	121b-.LJbcc88025_0
	.long	936b-.LJbcc88025_0
	.long	52b-.LJbcc88025_0
	.long	755b-.LJbcc88025_0
	.long	323b-.LJbcc88025_0
	.long	940b-.LJbcc88025_0
	.long	687b-.LJbcc88025_0
	.long	753b-.LJbcc88025_0
	.long	715b-.LJbcc88025_0
	.long	123b-.LJbcc88025_0
	.long	999b-.LJbcc88025_0
	.long	691b-.LJbcc88025_0
	.long	895b-.LJbcc88025_0
	.long	427b-.LJbcc88025_0
	.long	781b-.LJbcc88025_0
	.long	463b-.LJbcc88025_0
	.long	302b-.LJbcc88025_0
	.long	90b-.LJbcc88025_0
	.long	661b-.LJbcc88025_0
	.long	172b-.LJbcc88025_0
	.long	740b-.LJbcc88025_0
	.long	166b-.LJbcc88025_0
	.long	969b-.LJbcc88025_0
	.long	570b-.LJbcc88025_0
	.long	782b-.LJbcc88025_0
	.long	925b-.LJbcc88025_0
	.long	949b-.LJbcc88025_0
	.long	458b-.LJbcc88025_0
	.long	725b-.LJbcc88025_0
	.long	333b-.LJbcc88025_0
	.long	917b-.LJbcc88025_0
	.long	435b-.LJbcc88025_0
	.long	347b-.LJbcc88025_0
	.long	219b-.LJbcc88025_0
	.long	801b-.LJbcc88025_0
	.long	13b-.LJbcc88025_0
	.long	71b-.LJbcc88025_0
	.long	107b-.LJbcc88025_0
	.long	744b-.LJbcc88025_0
	.long	359b-.LJbcc88025_0
	.long	211b-.LJbcc88025_0
	.long	696b-.LJbcc88025_0
	.long	692b-.LJbcc88025_0
	.long	455b-.LJbcc88025_0
	.long	467b-.LJbcc88025_0
	.long	487b-.LJbcc88025_0
	.long	486b-.LJbcc88025_0
	.section	.text.tcrx_write_packet_at,"ax",@progbits
	.globl	tcrx_write_packet_at
	.p2align	4
	.type	tcrx_write_packet_at,@function
tcrx_write_packet_at:
	pushq	%rbp
	pushq	%r15
	pushq	%r14
	pushq	%r13
	pushq	%r12
	pushq	%rbx
	pushq	%rax
	movq	%rdx, %r11
	xorl	%r9d, %r9d
	testq	%rsi, %rsi
	sete	%r15b
	xorl	%r10d, %r10d
	testq	%rcx, %rcx
	sete	%bpl
	movq	%rdi, %rbx
	shrq	$32, %rbx
	testb	$-2, %bl
	setne	%dl
	movzwl	%bx, %eax
	cmpl	$512, %eax
	setae	%r14b
	movb	$22, %al
	orb	%dl, %r14b
	jne	284f
	movq	%rdi, %rdx
	shrq	$16, %rdx
	movzwl	%dx, %eax
	cmpl	$16384, %eax
	setae	%al
	movabsq	$70931694131148800, %r14
	testq	%r14, %rdi
	setne	%r14b
	orb	%al, %r14b
	movb	$9, %al
	jne	284f
	testq	%r11, %r11
	je	409f
	movb	$13, %al
	cmpq	$65536, %r11
	ja	284f
	leaq	6(%r11), %r12
	movl	$50, %eax
	movq	%r12, %r14
	cmpq	%r12, %r8
	jb	12f
	movb	%r15b, %r9b
	shll	$12, %r9d
	leaq	(%rsi,%r9), %rax
	movb	%bpl, %r10b
	shll	$12, %r10d
	leaq	(%rcx,%r10), %rbp
	leal	-1(%r11), %r13d
	movl	%edx, %r8d
	movq	%rdi, %r15
	shrq	$34, %r15
	andl	$1073725440, %r15d
	orl	%r15d, %edx
	movl	%edi, %r15d
	movl	%edi, %r12d
	shrq	$29, %rdi
	andl	$-2048, %edi
	shll	$12, %ebx
	addl	%edi, %ebx
	orl	%r12d, %ebx
	leaq	6(%rbp), %rdi
	movb	%bh, (%rbp)
	movb	%r15b, 1(%rbp)
	movb	%dh, 2(%rbp)
	movb	%r8b, 3(%rbp)
	movl	%r13d, %edx
	movb	%dh, 4(%rbp)
	movb	%dl, 5(%rbp)
	movq	%rdi, %rdx
	subq	%rax, %rdx
	cmpq	%r11, %rdx
	jae	859f
	cmpq	$4, %r11
	jb	890f
	subq	%rax, %rbp
	addq	$6, %rbp
	cmpq	$32, %rbp
	jae	972f
890:
	xorl	%r8d, %r8d
928:
	movq	%r11, %rbx
	movq	%r8, %rdx
	andq	$3, %rbx
	je	980f
	movq	%r8, %rdx
	.p2align	4
548:
	movzbl	(%rax,%rdx), %ebp
	movb	%bpl, (%rdi,%rdx)
	incq	%rdx
	decq	%rbx
	jne	548b
980:
	subq	%r11, %r8
	cmpq	$-4, %r8
	jbe	880f
890:
	xorl	%eax, %eax
	jmp	12f
409:
	movb	$10, %al
284:
	movzbl	%al, %edi
	callq	tc_c_base.status.code
	movl	%eax, %eax
	xorl	%edx, %edx
850:
	addq	$8, %rsp
	popq	%rbx
	popq	%r12
	popq	%r13
	popq	%r14
	popq	%r15
	popq	%rbp
	retq
859:
	movq	%rax, %rsi
	movq	%r11, %rdx
	callq	memmove@PLT
	xorl	%eax, %eax
	jmp	12f
880:
	addq	%r9, %rsi
	addq	$3, %rsi
	addq	%r10, %rcx
	addq	$9, %rcx
	.p2align	4
548:
	movzbl	-3(%rsi,%rdx), %eax
	movb	%al, -3(%rcx,%rdx)
	movzbl	-2(%rsi,%rdx), %eax
	movb	%al, -2(%rcx,%rdx)
	movzbl	-1(%rsi,%rdx), %eax
	movb	%al, -1(%rcx,%rdx)
	movzbl	(%rsi,%rdx), %eax
	movb	%al, (%rcx,%rdx)
	addq	$4, %rdx
	xorl	%eax, %eax
	cmpq	%rdx, %r11
	jne	548b
12:
	movq	%r14, %rdx
	jmp	850b
972:
	cmpq	$32, %r11
	jae	327f
	xorl	%r8d, %r8d
	jmp	859f
327:
	movl	%r11d, %r8d
	andl	$131040, %r8d
	leaq	(%r9,%rsi), %rdx
	addq	$16, %rdx
	leaq	(%r10,%rcx), %rbx
	addq	$22, %rbx
	xorl	%r15d, %r15d
464:
	movups	-16(%rdx,%r15), %xmm0
	movups	(%rdx,%r15), %xmm1
	movups	%xmm0, -16(%rbx,%r15)
	movups	%xmm1, (%rbx,%r15)
	addq	$32, %r15
	cmpq	%r15, %r8
	jne	464b
	cmpq	%r8, %r11
	je	890b
	testb	$28, %r11b
	je	928b
859:
	movq	%r8, %rdx
	movl	%r11d, %r8d
	andl	$131068, %r8d
327:
	movl	(%rax,%rdx), %ebx
	movl	%ebx, (%rdi,%rdx)
	addq	$4, %rdx
	cmpq	%rdx, %r8
	jne	327b
	cmpq	%r8, %r11
	je	890b
	jmp	928b
	.size	tcrx_write_packet_at, .-tcrx_write_packet_at
	.section	.text.tcrx_write_segment_at,"ax",@progbits
	.globl	tcrx_write_segment_at
	.p2align	4
	.type	tcrx_write_segment_at,@function
tcrx_write_segment_at:
	pushq	%rbp
	pushq	%r15
	pushq	%r14
	pushq	%r13
	pushq	%r12
	pushq	%rbx
	subq	$24, %rsp
	movq	80(%rsp), %r11
	xorl	%ebx, %ebx
	testq	%r8, %r8
	sete	%r15b
	xorl	%r14d, %r14d
	testq	%r11, %r11
	sete	%bpl
	movb	$22, %r10b
	movabsq	$280366875148288, %rax
	testq	%rax, %rdi
	jne	548f
	movb	$9, %r10b
	movabsq	$1099524275200, %rax
	testq	%rax, %rdi
	jne	548f
	movb	$36, %r10b
	cmpb	$63, %sil
	ja	548f
	movl	%edx, %eax
	addl	$-1019, %eax
	movzwl	%ax, %eax
	movb	$16, %r10b
	cmpl	$64518, %eax
	jb	548f
	testq	%r9, %r9
	je	409f
	movb	$14, %r10b
	cmpq	$65542, %r9
	ja	548f
	movzwl	%dx, %r13d
	leal	(%r9,%r13), %eax
	decl	%eax
	xorl	%edx, %edx
	divl	%r13d
	movb	$17, %r10b
	cmpl	%ecx, %eax
	jbe	548f
	movl	%ecx, %r12d
	movl	$24, %r10d
	cmpl	$1, %eax
	je	540f
	movl	%eax, %eax
	decq	%rax
	xorl	%edx, %edx
	cmpq	%r12, %rax
	sete	%dl
	testl	%ecx, %ecx
	leal	8(,%rdx,8), %r10d
	cmovel	%ecx, %r10d
540:
	imulq	%r13, %r12
	subq	%r12, %r9
	cmpq	%r9, %r13
	cmovbq	%r13, %r9
	leaq	6(%r9), %rdx
	movl	$50, %eax
	cmpq	%rdx, 88(%rsp)
	jb	850f
	movl	%ecx, 12(%rsp)
	movq	%rdi, %rax
	shrq	$32, %rax
	movb	%r15b, %bl
	shll	$12, %ebx
	movb	%bpl, %r14b
	movzwl	%ax, %eax
	movq	%rax, 16(%rsp)
	shll	$12, %r14d
	movl	%esi, %ebp
	leaq	(%r8,%rbx), %rsi
	leaq	(%r11,%r14), %r13
	addq	%r12, %rsi
	leaq	6(%r13), %rax
	movl	$-1065353152, %r15d
	movl	%r10d, %ecx
	shrl	%cl, %r15d
	orb	%r15b, %bpl
	movb	%bpl, 5(%r13)
	movq	%r13, %rbp
	movq	%rax, %rcx
	subq	%rsi, %rcx
	cmpq	%r9, %rcx
	jae	928f
	cmpq	$4, %r9
	jae	859f
	xorl	%r10d, %r10d
	movl	12(%rsp), %ecx
	jmp	12f
409:
	movb	$10, %r10b
548:
	movzbl	%r10b, %edi
	callq	tc_c_base.status.code
	movl	%eax, %eax
	xorl	%edx, %edx
850:
	addq	$24, %rsp
	popq	%rbx
	popq	%r12
	popq	%r13
	popq	%r14
	popq	%r15
	popq	%rbp
	retq
928:
	movq	%rdi, %rbx
	movq	%rax, %rdi
	movq	%rdx, %r14
	movq	%r9, %rdx
	callq	memmove@PLT
	movq	%r14, %rdx
	movq	%rbx, %rdi
	movl	12(%rsp), %ecx
	jmp	638f
859:
	movq	%rbp, %rcx
	subq	%rsi, %rcx
	addq	$6, %rcx
	cmpq	$32, %rcx
	movl	12(%rsp), %ecx
	jae	972f
	xorl	%r10d, %r10d
	jmp	12f
972:
	cmpq	$32, %r9
	jae	327f
	xorl	%r10d, %r10d
	jmp	928f
327:
	movl	%r9d, %r10d
	andl	$992, %r10d
	leaq	(%rbx,%r12), %r15
	addq	%r8, %r15
	addq	$16, %r15
	leaq	(%r14,%r11), %r13
	addq	$22, %r13
	xorl	%ebp, %ebp
464:
	movups	-16(%r15,%rbp), %xmm0
	movups	(%r15,%rbp), %xmm1
	movups	%xmm0, -16(%r13,%rbp)
	movups	%xmm1, (%r13,%rbp)
	addq	$32, %rbp
	cmpq	%rbp, %r10
	jne	464b
	cmpq	%r10, %r9
	leaq	(%r11,%r14), %rbp
	je	638f
	testb	$28, %r9b
	je	12f
928:
	movq	%rbp, %r13
	movq	%r10, %r15
	movl	%r9d, %r10d
	andl	$1020, %r10d
327:
	movl	(%rsi,%r15), %ebp
	movl	%ebp, (%rax,%r15)
	addq	$4, %r15
	cmpq	%r15, %r10
	jne	327b
	cmpq	%r10, %r9
	movq	%r13, %rbp
	je	638f
12:
	movq	%r9, %r15
	movq	%r10, %r13
	andq	$3, %r15
	je	980f
	negq	%r15
	movq	%r10, %r13
548:
	movzbl	(%rsi,%r13), %ebp
	movb	%bpl, (%rax,%r13)
	incq	%r13
	incq	%r15
	jne	548b
980:
	subq	%r9, %r10
	cmpq	$-4, %r10
	leaq	(%r11,%r14), %rbp
	ja	638f
	addq	%r12, %rbx
	leaq	(%r8,%rbx), %rax
	addq	$3, %rax
	leaq	(%r14,%r11), %rsi
	addq	$9, %rsi
548:
	movzbl	-3(%rax,%r13), %r8d
	movb	%r8b, -3(%rsi,%r13)
	movzbl	-2(%rax,%r13), %r8d
	movb	%r8b, -2(%rsi,%r13)
	movzbl	-1(%rax,%r13), %r8d
	movb	%r8b, -1(%rsi,%r13)
	movzbl	(%rax,%r13), %r8d
	movb	%r8b, (%rsi,%r13)
	addq	$4, %r13
	cmpq	%r13, %r9
	jne	548b
638:
	movq	16(%rsp), %r9
	movl	%r9d, %ebx
	shll	$13, %ebx
	orl	%edi, %ebx
	movl	%edi, %eax
	shrl	$6, %eax
	andl	$67107840, %eax
	leal	-1(%rdx), %esi
	addl	%edx, %eax
	decl	%eax
	andl	$-256, %eax
	movzbl	%dil, %r8d
	orl	%eax, %r8d
	movzwl	%r8w, %eax
	movzbl	%sil, %esi
	shll	$16, %esi
	orl	%eax, %esi
	shll	$24, %ecx
	xorl	%eax, %eax
	testb	$1, %r9b
	cmovnel	%eax, %ecx
	addl	%edi, %ecx
	andl	$-16777216, %ecx
	orl	%esi, %ecx
	movb	%bh, (%rbp)
	movl	%ecx, 1(%rbp)
	jmp	850b
	.size	tcrx_write_segment_at, .-tcrx_write_segment_at
	.section	.text.tcrx_channel_units_at,"ax",@progbits
	.globl	tcrx_channel_units_at
	.p2align	4
	.type	tcrx_channel_units_at,@function
tcrx_channel_units_at:
	cmpb	$1, (%rdi)
	jne	327f
	movq	8(%rdi), %rax
	movzbl	%sil, %edx
	movq	240(%rax), %rcx
	movq	248(%rax), %rsi
	cmpq	%rdx, 272(%rax)
	jbe	186f
	movq	264(%rax), %rax
	movzwl	(%rax,%rdx,2), %edi
	cmpq	%rdi, %rsi
	jbe	83f
	shll	$6, %edi
928:
	movq	40(%rcx,%rdi), %rdx
	xorl	%eax, %eax
	retq
327:
	movl	$70, %eax
890:
	xorl	%edx, %edx
	retq
186:
	movl	$73, %eax
	testq	%rsi, %rsi
	je	890b
	xorl	%edi, %edi
	.p2align	4
129:
	cmpw	%dx, (%rcx,%rdi)
	je	928b
	addq	$64, %rdi
	decq	%rsi
	jne	129b
	jmp	890b
83:
	xorl	%edx, %edx
	movl	$73, %eax
	retq
	.size	tcrx_channel_units_at, .-tcrx_channel_units_at
	.section	.text.tcrx_rack_candidate_at,"ax",@progbits
	.globl	tcrx_rack_candidate_at
	.p2align	4
	.type	tcrx_rack_candidate_at,@function
tcrx_rack_candidate_at:
	pushq	%rbp
	pushq	%r15
	pushq	%r14
	pushq	%r13
	pushq	%r12
	pushq	%rbx
	subq	$1096, %rsp
	movq	%rdi, %rbx
	xorl	%eax, %eax
	testq	%rsi, %rsi
	sete	%dil
	xorl	%r11d, %r11d
	testq	%r9, %r9
	sete	%bpl
	cmpb	$1, %r8b
	ja	231f
	movq	1152(%rsp), %r13
	movb	$1, %r10b
	cmpq	$5, %r13
	jb	548f
	movb	%bpl, %r11b
	shll	$12, %r11d
	addq	%r11, %r9
	movzwl	(%r9), %r11d
	rolw	$8, %r11w
	movzwl	%r11w, %ebp
	movb	$2, %r10b
	cmpl	$16383, %ebp
	ja	548f
	movb	$3, %r10b
	testl	$3072, %r11d
	jne	548f
	movzbl	2(%r9), %r10d
	movzbl	3(%r9), %r11d
	shll	$8, %r11d
	movzwl	%r10w, %r10d
	andl	$3, %r10d
	orl	%r10d, %r11d
	rolw	$8, %r11w
	movb	$4, %r10b
	cmpw	$5, %r11w
	jb	548f
	movzwl	%r11w, %r14d
	incq	%r14
	movb	$5, %r10b
	subq	%r14, %r13
	jae	409f
548:
	movzbl	%r10b, %edi
	callq	tc_c_base.status.code
	xorps	%xmm0, %xmm0
	xorps	%xmm1, %xmm1
	jmp	890f
231:
	xorps	%xmm0, %xmm0
	xorps	%xmm1, %xmm1
	movl	$23, %eax
890:
	xorl	%ecx, %ecx
	xorl	%r14d, %r14d
327:
	movl	%eax, (%rbx)
	movlps	%xmm0, 4(%rbx)
	movss	%xmm1, 12(%rbx)
	movb	%cl, 16(%rbx)
	movb	$0, 17(%rbx)
	movw	%r14w, 18(%rbx)
	movq	%rbx, %rax
	addq	$1096, %rsp
	popq	%rbx
	popq	%r12
	popq	%r13
	popq	%r14
	popq	%r15
	popq	%rbp
	retq
409:
	movb	%dil, %al
	shll	$12, %eax
	addq	%rax, %rsi
	xorps	%xmm0, %xmm0
	movaps	%xmm0, 16(%rsp)
	cmpb	$1, %r8b
	movq	%r9, 56(%rsp)
	jne	669f
	movq	%rsi, %r12
	movq	%rdx, 64(%rsp)
	movl	%ecx, 52(%rsp)
	movaps	%xmm0, 32(%rsp)
	movw	$0, 12(%rsp)
	movb	$0, 14(%rsp)
	leaq	12(%rsp), %rdi
	movq	%r9, %rsi
	movq	%r14, %rdx
	callq	tc_edges.write.fields.check_taking
	cmpb	$1, 12(%rsp)
	jne	219f
	movzbl	13(%rsp), %eax
	leaq	.LJ75b3fc6a_0(%rip), %rcx
	movslq	(%rcx,%rax,4), %rax
	addq	%rcx, %rax
	jmpq	*%rax
548:
	movzbl	14(%rsp), %eax
	incb	%al
	jmp	284f
669:
	leaq	16(%rsp), %rdi
	movq	%r9, %r8
	movq	%r14, %r9
	callq	tc_c.rack.bring
	jmp	186f
219:
	leaq	74(%rsp), %rbp
	movl	$1022, %edx
	movq	%rbp, %rdi
	xorl	%esi, %esi
	callq	memset@PLT
	leaq	-2(%r14), %rdx
	movq	56(%rsp), %rsi
	movzwl	2(%rsi), %r15d
	movq	%rbp, %rdi
	movq	%rdx, %rbp
	callq	memcpy@PLT
	rolw	$8, %r15w
	addl	$-2, %r15d
	rolw	$8, %r15w
	movw	%r15w, 76(%rsp)
	leaq	32(%rsp), %rdi
	movq	%r12, %rsi
	movq	64(%rsp), %rdx
	movl	52(%rsp), %ecx
	leaq	74(%rsp), %r8
	movq	%rbp, %r9
	callq	tc_c.rack.bring
	movaps	32(%rsp), %xmm0
	movaps	%xmm0, 16(%rsp)
	jmp	186f
409:
	movb	$8, %al
	jmp	284f
969:
	movb	$15, %al
	jmp	284f
394:
	movb	$7, %al
	jmp	284f
668:
	movb	$6, %al
	jmp	284f
27:
	movb	$12, %al
284:
	movzbl	%al, %edi
	callq	tc_c_base.status.code
	movl	%eax, 32(%rsp)
	movq	$0, 36(%rsp)
	movl	$0, 44(%rsp)
	movl	32(%rsp), %eax
	movl	%eax, 16(%rsp)
	movq	36(%rsp), %rax
	movq	%rax, 20(%rsp)
	movl	44(%rsp), %eax
	movl	%eax, 28(%rsp)
186:
	movl	16(%rsp), %eax
	movsd	20(%rsp), %xmm0
	movss	28(%rsp), %xmm1
	movb	$1, %cl
	cmpq	$6, %r13
	ja	327b
	cmpq	$5, %r13
	jb	890f
	movq	56(%rsp), %rbp
	testb	$-52, (%rbp,%r14)
	je	284f
890:
	xorl	%ecx, %ecx
	jmp	327b
284:
	movzbl	3(%rbp,%r14), %ecx
	shll	$8, %ecx
	movzbl	2(%rbp,%r14), %edx
	andl	$3, %edx
	orl	%ecx, %edx
	rolw	$8, %dx
	leal	1(%rdx), %ecx
	movzwl	%cx, %ecx
	cmpw	$5, %dx
	setae	%dl
	cmpq	%rcx, %r13
	setae	%cl
	andb	%dl, %cl
	jmp	327b
	.size	tcrx_rack_candidate_at, .-tcrx_rack_candidate_at
	.section	.rodata.tcrx_rack_candidate_at,"a",@progbits
	.p2align	2
.LJ75b3fc6a_0:
	.long	548b-.LJ75b3fc6a_0
	.long	668b-.LJ75b3fc6a_0
	.long	969b-.LJ75b3fc6a_0
	.long	394b-.LJ75b3fc6a_0
	.long	409b-.LJ75b3fc6a_0
	.long	27b-.LJ75b3fc6a_0
	.section	.text.tcrx_rack_find_at,"ax",@progbits
	.globl	tcrx_rack_find_at
	.p2align	4
	.type	tcrx_rack_find_at,@function
tcrx_rack_find_at:
	movl	%edx, %ecx
	xorl	%edx, %edx
	testq	%rdi, %rdi
	sete	%r8b
	movl	$76, %eax
	testq	%rsi, %rsi
	je	890f
	movb	%r8b, %dl
	shll	$12, %edx
	addq	%rdx, %rdi
	addq	$8, %rdi
	xorl	%edx, %edx
	jmp	868f
	.p2align	4
629:
	incq	%rdx
	addq	$16, %rdi
	cmpq	%rdx, %rsi
	je	890f
868:
	cmpb	$1, -8(%rdi)
	jne	629b
	movq	(%rdi), %r8
	cmpb	%cl, (%r8)
	jne	629b
	xorl	%eax, %eax
	retq
890:
	xorl	%edx, %edx
	retq
	.size	tcrx_rack_find_at, .-tcrx_rack_find_at
	.section	.text.tcrx_rack_frame_at,"ax",@progbits
	.globl	tcrx_rack_frame_at
	.p2align	4
	.type	tcrx_rack_frame_at,@function
tcrx_rack_frame_at:
	pushq	%rbp
	pushq	%r15
	pushq	%r14
	pushq	%r13
	pushq	%r12
	pushq	%rbx
	subq	$1080, %rsp
	movl	%edx, %ebx
	movq	%rsi, %r14
	xorl	%r15d, %r15d
	testq	%rdi, %rdi
	sete	%r15b
	shll	$12, %r15d
	addq	%rdi, %r15
	xorl	%r12d, %r12d
	testq	%r8, %r8
	sete	%r12b
	shll	$12, %r12d
	addq	%r8, %r12
	xorps	%xmm0, %xmm0
	movaps	%xmm0, 16(%rsp)
	testb	%cl, %cl
	je	669f
	movzbl	%cl, %eax
	cmpl	$1, %eax
	jne	327f
	movaps	%xmm0, 32(%rsp)
	movw	$0, 12(%rsp)
	movb	$0, 14(%rsp)
	leaq	12(%rsp), %rdi
	movq	%r12, %rsi
	movq	%r9, %rbp
	movq	%r9, %rdx
	callq	tc_edges.write.fields.check_taking
	cmpb	$1, 12(%rsp)
	jne	219f
	movzbl	13(%rsp), %eax
	leaq	.LJ0aa4fed1_0(%rip), %rcx
	movslq	(%rcx,%rax,4), %rax
	addq	%rcx, %rax
	jmpq	*%rax
548:
	movzbl	14(%rsp), %eax
	incb	%al
	jmp	284f
669:
	leaq	16(%rsp), %rdi
	movq	%r15, %rsi
	movq	%r14, %rdx
	movl	%ebx, %ecx
	movq	%r12, %r8
	callq	tc_c.rack.bring
	jmp	928f
327:
	movl	$23, 16(%rsp)
	movq	$0, 20(%rsp)
	movl	$0, 28(%rsp)
	jmp	928f
219:
	leaq	58(%rsp), %rdi
	movl	$1022, %edx
	xorl	%esi, %esi
	callq	memset@PLT
	addq	$-2, %rbp
	movzwl	2(%r12), %r13d
	leaq	58(%rsp), %rdi
	movq	%r12, %rsi
	movq	%rbp, %rdx
	callq	memcpy@PLT
	rolw	$8, %r13w
	addl	$-2, %r13d
	rolw	$8, %r13w
	movw	%r13w, 60(%rsp)
	leaq	32(%rsp), %rdi
	movq	%r15, %rsi
	movq	%r14, %rdx
	movl	%ebx, %ecx
	leaq	58(%rsp), %r8
	movq	%rbp, %r9
	callq	tc_c.rack.bring
	movaps	32(%rsp), %xmm0
	movaps	%xmm0, 16(%rsp)
	jmp	928f
409:
	movb	$8, %al
	jmp	284f
969:
	movb	$15, %al
	jmp	284f
394:
	movb	$7, %al
	jmp	284f
668:
	movb	$6, %al
	jmp	284f
27:
	movb	$12, %al
284:
	movzbl	%al, %edi
	callq	tc_c_base.status.code
	movl	%eax, 32(%rsp)
	movq	$0, 36(%rsp)
	movl	$0, 44(%rsp)
	movl	32(%rsp), %eax
	movl	%eax, 16(%rsp)
	movq	36(%rsp), %rax
	movq	%rax, 20(%rsp)
	movl	44(%rsp), %eax
	movl	%eax, 28(%rsp)
928:
	movq	16(%rsp), %rax
	movq	24(%rsp), %rdx
	addq	$1080, %rsp
	popq	%rbx
	popq	%r12
	popq	%r13
	popq	%r14
	popq	%r15
	popq	%rbp
	retq
	.size	tcrx_rack_frame_at, .-tcrx_rack_frame_at
	.section	.rodata.tcrx_rack_frame_at,"a",@progbits
	.p2align	2
.LJ0aa4fed1_0:
	.long	548b-.LJ0aa4fed1_0
	.long	668b-.LJ0aa4fed1_0
	.long	969b-.LJ0aa4fed1_0
	.long	394b-.LJ0aa4fed1_0
	.long	409b-.LJ0aa4fed1_0
	.long	27b-.LJ0aa4fed1_0
	.section	.text.tcrx_clcw,"ax",@progbits
	.globl	tcrx_clcw
	.p2align	4
	.type	tcrx_clcw,@function
tcrx_clcw:
	leal	-2(%rdi), %eax
	cmpb	$-3, %al
	setae	%al
	movb	$19, %r9b
	orb	%dil, %al
	testb	$1, %al
	jne	253f
	movl	%edi, %r10d
	shrl	$8, %r10d
	leal	-1(%r10), %eax
	movb	$20, %r9b
	cmpb	$2, %al
	ja	253f
	movb	$21, %r9b
	testl	$-67108864, %edi
	jne	253f
	movb	$22, %r9b
	movabsq	$1090921693184, %rax
	testq	%rax, %rdi
	jne	253f
	movabsq	$72057594037927935, %rax
	andq	%rax, %rdi
	movq	%rdi, %rax
	shrq	$40, %rax
	testl	$65278, %eax
	je	928f
253:
	pushq	%rax
	movzbl	%r9b, %edi
	callq	tc_c_base.status.code
	movl	%eax, %eax
	addq	$8, %rsp
	retq
928:
	movq	%rdi, %r8
	shrq	$32, %r8
	movq	%rdi, %r9
	shrq	$48, %r9
	cmpb	$3, %r10b
	je	327f
	movzbl	%r10b, %r10d
	cmpl	$2, %r10d
	jne	409f
	movzwl	%r9w, %r9d
	testl	%eax, %r9d
	sete	%r10b
	orb	%r8b, %r10b
	movb	$23, %r9b
	testb	$1, %r10b
	jne	253b
	jmp	969f
327:
	movl	%eax, %r10d
	notb	%r10b
	orb	%r9b, %r10b
	andb	%r8b, %r10b
	movb	$23, %r9b
	testb	$1, %r10b
	je	253b
	jmp	969f
409:
	movb	$23, %r9b
	movl	%r8d, %r10d
	orb	%al, %r10b
	jne	253b
969:
	movb	$26, %r9b
	cmpb	$63, %sil
	ja	253b
	movl	%ecx, %r10d
	orb	%dl, %r10b
	movb	$22, %r9b
	cmpb	$1, %r10b
	ja	253b
	movq	%rdi, %r9
	shrq	$16, %r9
	movzbl	%sil, %esi
	shll	$18, %esi
	movzbl	%dl, %edx
	shll	$15, %edx
	orl	%esi, %edx
	movzbl	%cl, %ecx
	shll	$14, %ecx
	orl	%edx, %ecx
	movl	%eax, %edx
	andl	$1, %edx
	shll	$12, %edx
	andl	$256, %eax
	shrl	$15, %edi
	andl	$1536, %edi
	movzbl	%r9b, %esi
	orl	%ecx, %esi
	orl	%edi, %esi
	andl	$1, %r8d
	shll	$13, %r8d
	orl	%esi, %r8d
	orl	$16777216, %r8d
	leal	(%rdx,%rax,8), %eax
	addl	%r8d, %eax
	shlq	$32, %rax
	retq
	.size	tcrx_clcw, .-tcrx_clcw
	.section	.text.tcrx_write_frame_at,"ax",@progbits
	.globl	tcrx_write_frame_at
	.p2align	4
	.type	tcrx_write_frame_at,@function
tcrx_write_frame_at:
	pushq	%rbp
	pushq	%r15
	pushq	%r14
	pushq	%r12
	pushq	%rbx
	xorl	%r10d, %r10d
	testq	%rsi, %rsi
	sete	%r14b
	xorl	%r11d, %r11d
	testq	%rcx, %rcx
	sete	%bl
	movb	$22, %al
	movabsq	$280366875148288, %r9
	testq	%r9, %rdi
	jne	548f
	movb	$9, %al
	testl	$12647424, %edi
	je	211f
548:
	movzbl	%al, %edi
	callq	tc_c_base.status.code
	movl	%eax, %eax
	xorl	%edx, %edx
912:
	popq	%rbx
	popq	%r12
	popq	%r14
	popq	%r15
	popq	%rbp
	retq
211:
	testq	%rdx, %rdx
	je	409f
	movb	$11, %al
	cmpq	$1019, %rdx
	ja	548b
	movq	%rdx, %r9
	addq	$5, %rdx
	movl	$50, %eax
	cmpq	%rdx, %r8
	jb	912b
	movl	%edi, %ebp
	andl	$-16777216, %ebp
	movb	%r14b, %r10b
	shll	$12, %r10d
	leaq	(%rsi,%r10), %r8
	movb	%bl, %r11b
	shll	$12, %r11d
	leaq	(%rcx,%r11), %rax
	leal	4(%r9), %ebx
	movzbl	%bl, %ebx
	shll	$16, %ebx
	movl	%edi, %r15d
	shrl	$6, %r15d
	andl	$67107840, %r15d
	addl	%r9d, %r15d
	addl	$4, %r15d
	andl	$-256, %r15d
	movzbl	%dil, %r12d
	orl	%r15d, %r12d
	movzwl	%r12w, %r15d
	orl	%ebx, %r15d
	orl	%ebp, %r15d
	movq	%rdi, %r12
	shrq	$19, %r12
	andl	$8192, %r12d
	movq	%rdi, %rbx
	shrq	$28, %rbx
	andl	$4096, %ebx
	orl	%r12d, %ebx
	orl	%edi, %ebx
	leaq	5(%rax), %rdi
	movb	%bh, (%rax)
	movl	%r15d, 1(%rax)
	movq	%rdi, %rbx
	subq	%r8, %rbx
	cmpq	%r9, %rbx
	jae	859f
	cmpq	$4, %r9
	jb	890f
	subq	%r8, %rax
	addq	$5, %rax
	cmpq	$32, %rax
	jae	972f
890:
	xorl	%eax, %eax
928:
	movq	%r9, %r14
	movq	%rax, %rbx
	andq	$3, %r14
	je	980f
	movq	%rax, %rbx
284:
	movzbl	(%r8,%rbx), %ebp
	movb	%bpl, (%rdi,%rbx)
	incq	%rbx
	decq	%r14
	jne	284b
980:
	subq	%r9, %rax
	cmpq	$-4, %rax
	jbe	850f
890:
	xorl	%eax, %eax
	jmp	912b
409:
	movb	$10, %al
	jmp	548b
859:
	movq	%r8, %rsi
	movq	%rdx, %rbx
	movq	%r9, %rdx
	callq	memmove@PLT
	movq	%rbx, %rdx
	xorl	%eax, %eax
	jmp	912b
850:
	addq	%r10, %rsi
	addq	$3, %rsi
	addq	%r11, %rcx
	addq	$8, %rcx
548:
	movzbl	-3(%rsi,%rbx), %eax
	movb	%al, -3(%rcx,%rbx)
	movzbl	-2(%rsi,%rbx), %eax
	movb	%al, -2(%rcx,%rbx)
	movzbl	-1(%rsi,%rbx), %eax
	movb	%al, -1(%rcx,%rbx)
	movzbl	(%rsi,%rbx), %eax
	movb	%al, (%rcx,%rbx)
	addq	$4, %rbx
	xorl	%eax, %eax
	cmpq	%rbx, %r9
	jne	548b
	jmp	912b
972:
	cmpq	$32, %r9
	jae	327f
	xorl	%eax, %eax
	jmp	859f
327:
	movl	%r9d, %eax
	andl	$992, %eax
	leaq	(%r10,%rsi), %rbx
	addq	$16, %rbx
	leaq	(%r11,%rcx), %r14
	addq	$21, %r14
	xorl	%r15d, %r15d
464:
	movups	-16(%rbx,%r15), %xmm0
	movups	(%rbx,%r15), %xmm1
	movups	%xmm0, -16(%r14,%r15)
	movups	%xmm1, (%r14,%r15)
	addq	$32, %r15
	cmpq	%r15, %rax
	jne	464b
	cmpq	%rax, %r9
	je	890b
	testb	$28, %r9b
	je	928b
859:
	movq	%rax, %rbx
	movl	%r9d, %eax
	andl	$1020, %eax
327:
	movl	(%r8,%rbx), %ebp
	movl	%ebp, (%rdi,%rbx)
	addq	$4, %rbx
	cmpq	%rbx, %rax
	jne	327b
	cmpq	%rax, %r9
	jne	928b
	jmp	890b
	.size	tcrx_write_frame_at, .-tcrx_write_frame_at
	.section	.text.tcrx_write_command_at,"ax",@progbits
	.globl	tcrx_write_command_at
	.p2align	4
	.type	tcrx_write_command_at,@function
tcrx_write_command_at:
	pushq	%rbx
	xorl	%eax, %eax
	testq	%r8, %r8
	sete	%r10b
	movzwl	%di, %r11d
	cmpl	$1024, %r11d
	setae	%r11b
	cmpb	$64, %sil
	setae	%bl
	orb	%r11b, %bl
	je	409f
	movl	$10, %r10d
	xorl	%edx, %edx
	movl	%r10d, %eax
	popq	%rbx
	retq
409:
	movb	%r10b, %al
	shll	$12, %eax
	cmpb	$4, %dl
	je	186f
	movzbl	%dl, %ecx
	cmpl	$3, %ecx
	jne	981f
	movl	$50, %r10d
	cmpq	$6, %r9
	jb	327f
	movzbl	%sil, %ecx
	shll	$10, %ecx
	movzbl	%dil, %edx
	orl	%ecx, %edx
	movzwl	%dx, %ecx
	orl	$327680, %ecx
	shrl	$8, %edi
	orb	$48, %dil
	movb	%dil, (%r8,%rax)
	movl	%ecx, 1(%r8,%rax)
	movb	$0, 5(%r8,%rax)
	xorl	%r10d, %r10d
327:
	movl	$6, %edx
	movl	%r10d, %eax
	popq	%rbx
	retq
186:
	movl	$50, %r10d
	cmpq	$8, %r9
	jb	327f
	movzbl	%sil, %edx
	shll	$10, %edx
	movzbl	%dil, %esi
	orl	%edx, %esi
	movzwl	%si, %edx
	orl	$458752, %edx
	shrl	$8, %edi
	orb	$48, %dil
	movb	%dil, (%r8,%rax)
	movl	%edx, 1(%r8,%rax)
	movw	$130, 5(%r8,%rax)
	movb	%cl, 7(%r8,%rax)
	xorl	%r10d, %r10d
327:
	movl	$8, %edx
	movl	%r10d, %eax
	popq	%rbx
	retq
981:
	movl	$19, %r10d
	xorl	%edx, %edx
	movl	%r10d, %eax
	popq	%rbx
	retq
	.size	tcrx_write_command_at, .-tcrx_write_command_at
	.section	.text.tcrx_write_tm_at,"ax",@progbits
	.globl	tcrx_write_tm_at
	.p2align	4
	.type	tcrx_write_tm_at,@function
tcrx_write_tm_at:
	pushq	%rbp
	pushq	%r15
	pushq	%r14
	pushq	%r13
	pushq	%r12
	pushq	%rbx
	pushq	%rax
	xorl	%r11d, %r11d
	testq	%r8, %r8
	sete	%bpl
	movb	$22, %al
	cmpb	$1, %sil
	ja	548f
	movl	%edx, %ebx
	movl	%edi, %r10d
	shrl	$16, %r10d
	testl	$64512, %edi
	setne	%al
	cmpb	$8, %r10b
	setae	%dl
	orb	%al, %dl
	movb	$9, %al
	je	471f
548:
	movzbl	%al, %edi
	callq	tc_c_base.status.code
	movl	%eax, %eax
	xorl	%edx, %edx
850:
	addq	$8, %rsp
	popq	%rbx
	popq	%r12
	popq	%r13
	popq	%r14
	popq	%r15
	popq	%rbp
	retq
471:
	movzwl	%cx, %edx
	xorl	%ecx, %ecx
	testb	%sil, %sil
	setne	%r14b
	movb	$54, %al
	cmpl	$2048, %edx
	ja	548b
	movb	%r14b, %cl
	leaq	11(,%rcx,2), %rcx
	cmpl	%edx, %ecx
	ja	548b
	movl	$50, %eax
	cmpq	%rdx, %r9
	jb	850b
	movb	%bpl, %r11b
	shll	$12, %r11d
	addq	%r11, %r8
	bswapl	%ebx
	leaq	6(%r8), %r14
	addb	%r10b, %r10b
	movl	%edi, %eax
	shrl	$4, %eax
	movl	%edi, %ecx
	shlb	$4, %cl
	orb	%r10b, %cl
	incb	%cl
	testb	%sil, %sil
	je	409f
	shrq	$24, %rdi
	movq	%rdx, %r12
	movb	%al, (%r8)
	movb	%cl, 1(%r8)
	movw	%di, 2(%r8)
	movw	$-481, 4(%r8)
	addq	$-12, %r12
	je	327f
	movq	%rdx, %r15
	addq	$-13, %r15
	je	969f
	movq	%r14, %rdi
	movl	$85, %esi
	movq	%rdx, %r13
	movq	%r15, %rdx
	movq	%r8, %rbp
	callq	memset@PLT
	movq	%rbp, %r8
	movq	%r13, %rdx
	movb	$85, (%r14,%r15)
	jmp	186f
409:
	movb	%al, (%r8)
	movb	%cl, 1(%r8)
	shrq	$24, %rdi
	movw	%di, 2(%r8)
	movw	$-481, 4(%r8)
	movq	%rdx, %rax
	addq	$-11, %rax
	je	409f
	movq	%r14, %rdi
	movl	$85, %esi
	movq	%rdx, %r15
	movq	%rax, %rdx
	callq	memset@PLT
	movq	%r15, %rdx
409:
	movb	$85, -11(%r14,%rdx)
	movl	%ebx, -10(%r14,%rdx)
	xorl	%eax, %eax
	jmp	850b
327:
	movl	%ebx, (%r14)
	jmp	669f
969:
	movb	$85, (%r14)
186:
	movl	%ebx, (%r14,%r12)
669:
	leaq	-2(%rdx), %rax
	movw	$-1, %cx
	xorl	%esi, %esi
	movq	%rax, %rdi
	.p2align	4
880:
	addq	$-4, %rdi
	movzbl	2(%r8,%rsi), %r9d
	movzbl	3(%r8,%rsi), %r10d
	movl	%ecx, %r11d
	shrl	$8, %r11d
	xorb	(%r8,%rsi), %r11b
	movzbl	%r11b, %r11d
	leaq	.LT48aab116(%rip), %rbx
	xorb	1(%r8,%rsi), %cl
	movzbl	%cl, %ecx
	leaq	.LT33c05f58(%rip), %r14
	movzwl	(%r14,%rcx,2), %ecx
	leaq	.LTbb337a2b(%rip), %r14
	leaq	.LT48c7e4e5(%rip), %r15
	xorw	(%rbx,%r11,2), %cx
	xorw	(%r14,%r9,2), %cx
	xorw	(%r15,%r10,2), %cx
	addq	$4, %rsi
	cmpq	$3, %rdi
	ja	880b
	movq	%rsi, %rdi
	subq	%rdx, %rdi
	cmpq	$-2, %rdi
	je	750f
	leaq	-4(%rsi), %rdi
	leaq	-6(%rdx), %r9
	.p2align	4
548:
	movzbl	(%r8,%rsi), %r10d
	movzwl	%cx, %r11d
	shrl	$8, %r11d
	xorl	%r10d, %r11d
	movl	%r11d, %r10d
	shrl	$4, %r10d
	xorl	%r11d, %r10d
	shll	$8, %ecx
	movl	%r10d, %r11d
	orl	%r10d, %ecx
	shll	$12, %r10d
	shll	$5, %r11d
	xorl	%r10d, %ecx
	xorl	%r11d, %ecx
	incq	%rdi
	incq	%rsi
	cmpq	%rdi, %r9
	jne	548b
750:
	rolw	$8, %cx
	movw	%cx, (%r8,%rax)
	xorl	%eax, %eax
	jmp	850b
	.size	tcrx_write_tm_at, .-tcrx_write_tm_at
	.section	.text.tcrx_write_cltu_at,"ax",@progbits
	.globl	tcrx_write_cltu_at
	.p2align	4
	.type	tcrx_write_cltu_at,@function
tcrx_write_cltu_at:
	pushq	%rbp
	pushq	%r15
	pushq	%r14
	pushq	%r13
	pushq	%r12
	pushq	%rbx
	pushq	%rax
	xorl	%r8d, %r8d
	testq	%rdi, %rdi
	sete	%r11b
	xorl	%r9d, %r9d
	testq	%rdx, %rdx
	sete	%r10b
	leaq	-1030(%rsi), %rax
	cmpq	$-1030, %rax
	ja	373f
	xorl	%ebx, %ebx
	cmpq	$1030, %rsi
	movl	$53, %eax
	cmovbl	%ebx, %eax
	testq	%rsi, %rsi
	movl	$10, %edi
	cmovnel	%eax, %edi
	callq	tc_c_base.status.code
	movl	%eax, %eax
	jmp	859f
373:
	leal	6(%rsi), %eax
	movzwl	%ax, %ebx
	imull	$9363, %ebx, %ebx
	shrl	$16, %ebx
	subl	%ebx, %eax
	movzwl	%ax, %eax
	shrl	%eax
	addl	%ebx, %eax
	andl	$-4, %eax
	leal	10(,%rax,2), %eax
	movzwl	%ax, %ebx
	movl	$50, %eax
	cmpq	%rbx, %rcx
	jb	859f
	movb	%r11b, %r8b
	shll	$12, %r8d
	movb	%r10b, %r9b
	shll	$12, %r9d
	addq	%r9, %rdx
	leaq	.LT6035a829(%rip), %rax
	movq	%rdx, %rcx
	subq	%rax, %rcx
	cmpq	$1, %rcx
	movw	$-28437, (%rdx)
	addq	%r8, %rdi
	movl	$2, %r12d
	cmpq	$7, %rsi
	jb	928f
	.p2align	4
548:
	movzbl	(%rdi), %eax
	movzbl	1(%rdi), %ecx
	movzbl	2(%rdi), %r8d
	movzbl	4(%rdi), %r9d
	movzbl	5(%rdi), %r11d
	movzbl	6(%rdi), %r14d
	movzbl	3(%rdi), %r10d
	addq	$7, %rdi
	leaq	.LTb4175d02(%rip), %r15
	movzbl	1536(%rax,%r15), %ebp
	xorb	1280(%rcx,%r15), %bpl
	xorb	1024(%r8,%r15), %bpl
	xorb	768(%r10,%r15), %bpl
	xorb	512(%r9,%r15), %bpl
	xorb	256(%r11,%r15), %bpl
	xorb	(%r14,%r15), %bpl
	addq	$-7, %rsi
	notb	%bpl
	movzbl	%bpl, %r15d
	shlq	$57, %r15
	shlq	$48, %r14
	orq	%r15, %r14
	shlq	$40, %r11
	orq	%r14, %r11
	shlq	$32, %r9
	orq	%r11, %r9
	shll	$24, %r10d
	orq	%r9, %r10
	shll	$16, %r8d
	orq	%r10, %r8
	shll	$8, %ecx
	orq	%r8, %rcx
	orq	%rax, %rcx
	movq	%rcx, (%rdx,%r12)
	addq	$8, %r12
	cmpq	$6, %rsi
	ja	548b
	testq	%rsi, %rsi
	je	850f
928:
	movq	%rsi, %rax
	xorq	$7, %rax
	leaq	(%rsp,%rsi), %rcx
	incq	%rcx
	movq	%rdi, %r14
	movq	%rcx, %rdi
	movq	%rsi, %r15
	movl	$85, %esi
	movq	%rdx, %r13
	movq	%rax, %rdx
	callq	memset@PLT
	leaq	1(%rsp), %rdi
	movq	%r14, %rsi
	movq	%r15, %rdx
	callq	memcpy@PLT
	movq	%r13, %rdx
	movzbl	1(%rsp), %eax
	movzbl	2(%rsp), %ecx
	movzbl	3(%rsp), %esi
	movzbl	5(%rsp), %edi
	movzbl	6(%rsp), %r9d
	movzbl	7(%rsp), %r10d
	movzbl	4(%rsp), %r8d
	leaq	.LTb4175d02(%rip), %r11
	movzbl	1536(%rax,%r11), %ebp
	xorb	1280(%rcx,%r11), %bpl
	xorb	1024(%rsi,%r11), %bpl
	xorb	768(%r8,%r11), %bpl
	xorb	512(%rdi,%r11), %bpl
	xorb	256(%r9,%r11), %bpl
	xorb	(%r10,%r11), %bpl
	notb	%bpl
	movzbl	%bpl, %r11d
	shlq	$57, %r11
	shlq	$48, %r10
	orq	%r11, %r10
	shlq	$40, %r9
	orq	%r10, %r9
	shlq	$32, %rdi
	orq	%r9, %rdi
	shll	$24, %r8d
	orq	%rdi, %r8
	shll	$16, %esi
	orq	%r8, %rsi
	shll	$8, %ecx
	orq	%rsi, %rcx
	orq	%rax, %rcx
	movq	%rcx, (%r13,%r12)
	addq	$8, %r12
850:
	addq	%r12, %rdx
	leaq	.LT9296ae30(%rip), %rax
	movq	%rdx, %rcx
	subq	%rax, %rcx
	cmpq	$7, %rcx
	ja	631f
	movl	$-976894523, 3(%rdx)
	movl	$-976894523, (%rdx)
	movb	$121, 7(%rdx)
	jmp	890f
631:
	movabsq	$8774636902218581445, %rax
	movq	%rax, (%rdx)
890:
	xorl	%eax, %eax
859:
	movq	%rbx, %rdx
	addq	$8, %rsp
	popq	%rbx
	popq	%r12
	popq	%r13
	popq	%r14
	popq	%r15
	popq	%rbp
	retq
	.size	tcrx_write_cltu_at, .-tcrx_write_cltu_at
	.section	.rodata..LT48aab116,"a",@progbits
	.p2align	1
.LT48aab116:
	.ascii	"\000\000\264vh\355\334\233\361\312E\274\231'-Q\303\205w\363\253h\037\0362O\2069Z\242\356\324\247\033\023m\317\366{\200V\321\342\247><\212Jd\236\320\350\fs\270\005\225T!\"\375\271I\317N7\372A&\332\222\254\277\375\013\213\327\020cf\215\2629\304\345_Q)|x\310\016\024\225\240\343\351,]Z\201\3015\267\030\346\254\220p\013\304}*\251\236\337BD\3662\333co\025\263\216\007\370\234n(\030\364\203@\365m\244\331\322\005I\261?_\353\353\2357\006\203p\256!\032W\306\314r\272;u\217\003S\230\347\356\312\277~\311\242R\026$\370\360L\206\220\035$k\t:\275La\327\325\241\322Yf/\272\264\016\302#\223\227\345K~\377\b\021\334\245\252y1\315G\340\026T`\210\373<\215uB\3014\035\257\251\331\204\2100\376\354eX\023\266\307\002\261\336*j\\G\r\363{/\340\233\2268\335\214\253P0\344F\311\027}a\241\372\025\214\373XO.\223\265'\303\n\222\276\344b\177\326\t\237\306+\260\367+C]n\f\332z\006\341\262\227\\C\35054\256\200\330\255\211\031\377\305dq\022v\352\302\234\036\007\252q\207 3V\357\315[\273\265o\001\031\335\202i\364D\245\360\323,H\230>\321\361e\207\271\034\rj ;\224MH\326\374\240\022t\246\002z\231\316\357\343\276W\310\213S?%\244\263\020\305\314^x(Uy\341\017=\224\211\342g6\323@\017\333\273\255\226\374\"\212\376\021Jg\003\250\267\336kE\3373\362bF\024\232\217.\371\300-t[\250\300\034\2661\347\205\221Y\n\355|\352\204^\362\202i6\037\033N\2578s\243\307\325)\001\235wA\354\365\232\330\313l\275\260&\004PM\237\371\351%r\221\004\274U\b#\324\270`\316\216\032:l\346\367R\201\177\320\313\246\027=\243K"
	.section	.rodata..LT33c05f58,"a",@progbits
	.p2align	1
.LT33c05f58:
	.ascii	"\000\00007`nPY\300\334\360\353\240\262\220\205\241\251\221\236\301\307\361\360auQB\001\0331,cCSt\003-3\032\243\237\223\250\303\361\363\306\302\352\362\335\242\204\222\263\00262\001bXRo\306\206\366\261\246\350\226\337\006Z6mf4V\003g/W\030\007A7v\247\363\227\304\307\235\367\252\245\305\225\362\305\253\365\234e\031U.\005w5@\004l4[d\002T5\304\260\364\207\244\336\224\351\255\035\235*\315s\375Dm\301]\366\r\257=\230\f\264<\203l\332\\\355\314h\374_\254\006\2341\316^\376i\2560\236\007\016\202>\265n\354^\333o\367_\300\017\231?\256\257+\237\034\317E\377rk\233[\254\013\365;\302\253G\233p\313)\373\036\3122\372\005\252\\\232k\n\356:\331j\200Z\267\b\3308\357h\266X\201\310\004\3703\250j\230]\251q\231F\311\037\371(i\255Y\232\t\3039\364Z;j\f:U\nb\232\347\252\320\372\211\312\276\373\222\313\245\233\374\253\313;N\013y[ k\0279x\tOY\026i!\371\244\311\223\231\312\251\375\230\321\250\346\370\277\310\210X\rh:8c\bT\234\275\254\212\374\323\314\344\\alV<\017\f8=\024\r#]zmM\375\310\315\377\235\246\255\221\377\376\317\311\237\220\257\247?\"\017\025_Lo{^Wn`>9\016\016\236\213\256\274\376\345\316\322\367&\307\021\227H\247\1777\372\007\315W\224g\243V\217f\2706\341\006\326\226S\246d\366=\306\n\224e\244R\364\013\304<T\271d\2164\327\004\3405\314\005\373U\242e\225\365\020\305'\225~\245I1\240\001\227Q\316a\371\361|\301K\221\022\241%\220\t\240>\360g\300PP\325`\3420\273\000\214R\343b\3242\215\002\272\222?\242\b\362Q\302f\363J\303}\223$\243\0233\226\003\241S\370c\317"
	.section	.rodata..LTbb337a2b,"a",@progbits
	.p2align	1
.LTbb337a2b:
	.ascii	"\000\00013bfSU\304\314\365\377\246\252\227\231\251\211\230\272\313\357\372\334mE\\v\017#>\020s\003B0\021e V\267\317\206\374\325\251\344\232\332\212\353\271\270\354\211\337\036F/u| M\023\346\006\3275\204`\265S\"\312\023\371@\254q\237O\217~\274-\351\034\332\213C\272p\351%\330\026\225\005\2446\367c\306PQ\311`\3723\257\002\234<\214\r\277^\352o\331\370@\311s\232&\253\025\314\r\375>\256k\237X\b\3019\362j\247[\224e\204T\267\007\3426\321\241H\220{\303.\362\035\277\016\216=\335h\354[{\302J\361\031\244(\227\026\207'\264t\341E\322\322K\343x\260-\201\036*\013\0338Hmy^\356\307\337\364\214\241\275\222\203\202\262\261\341\344\320\327GNv}%(\024\033Y\bh;;n\n]\235\304\254\367\377\242\316\221\360\201\301\262\222\347\243\3244M\005~V+g\030\230\033\251(\372}\313N\\\327m\344>\261\017\2021\222\000\241S\364b\307\365^\304m\2278\246\013\353\030\332+\211~\270M/\324\036\347M\262|\201B\221s\242 \367\021\304\206]\267n\344;\325\b~\035O.\034{-H\272\321\213\342\330\267\351\204\327\224\346\247\265\362\204\301\023X\"kq>@\r\r\036<-ox^K\311\322\370\341\253\264\232\207\244\227\225\244\306\361\367\302`[Qh\002=3\016T\026e%6p\007C\220\332\241\351\362\274\303\217\375\237\314\254\237\371\256\3129S\b`[5j\006'\025\026&Est@\343\331\322\352\201\277\260\214\216\234\277\257\354\372\335\311JP{c(6\031\005\262\020\203#\320v\341Ev\334G\357\024\272%\211\033\231*\252y\377H\314\337U\356f\2753\214\000\301\023\360 \243u\222F\005\3374\354g\271V\212h\232Y\251\n\374;\317\254V\235e\3160\377\003"
	.section	.rodata..LT48c7e4e5,"a",@progbits
	.p2align	1
.LT48c7e4e5:
	.ascii	"\000\000!\020B c0\204@\245P\306`\347p\b\201)\221J\241k\261\214\301\255\321\316\341\357\3611\022\020\002s2R\"\265R\224B\367r\326b9\223\030\203{\263Z\243\275\323\234\303\377\363\336\343b$C4 \004\001\024\346d\307t\244D\205Tj\245K\265(\205\t\225\356\345\317\365\254\305\215\325S6r&\021\0260\006\327v\366f\225V\264F[\267z\247\031\2278\207\337\367\376\347\235\327\274\307\304H\345X\206h\247x@\ba\030\002(#8\314\311\355\331\216\351\257\371H\211i\231\n\251+\271\365Z\324J\267z\226jq\032P\n3:\022*\375\333\334\313\277\373\236\353y\233X\213;\273\032\253\246l\207|\344L\305\\\",\003<`\fA\034\256\355\217\375\354\315\315\335*\255\013\275h\215I\235\227~\266n\325^\364N\023>2.Q\036p\016\237\377\276\357\335\337\374\317\033\277:\257Y\237x\217\210\221\251\201\312\261\353\241\f\321-\301N\361o\341\200\020\241\000\3020\343 \004P%@Fpg`\271\203\230\223\373\243\332\263=\303\034\323\177\343^\363\261\002\220\022\363\"\32225B\024RwbVr\352\265\313\245\250\225\211\205n\365O\345,\325\r\305\3424\303$\240\024\201\004ftGd$T\005D\333\247\372\267\231\207\270\227_\347~\367\035\307<\327\323&\3626\221\006\260\026Wfvv\025F4VL\331m\311\016\371/\351\310\231\351\211\212\271\253\251DXeH\006x'h\300\030\341\b\2028\243(}\313\\\333?\353\036\373\371\213\330\233\273\253\232\273uJTZ7j\026z\361\n\320\032\263*\222:.\375\017\355l\335M\315\252\275\213\255\350\235\311\215&|\007ld\\EL\242<\203,\340\034\301\f\037\357>\377]\317|\337\233\257\272\277\331\217\370\237\027n6~UNt^\223.\262>\321\016\360\036"
	.section	.rodata..LTddd25b9b,"a",@progbits
	.p2align	3
.LTddd25b9b:
	.asciz	"\000\000\000\000\000\000\000\000\000\000\000\000\000\000\000\002\000\000\000\000\000\000\000\004\000\000\000\000\000\000\000\000\000\000\000\000\000\000\000\b\000\000\000\000\000\000\000\000\000\000\000\000\000\000\000\000\000\000\000\000\b\000\000\000\000\000\000\000\000\000\000\020\000\000\000\000\000\000\000\000\000\000\000\000\000\000\000\000\000\000\000\020\000\000\000\000\000\000\000\000\000\000\000\000\000\002\000\000\000\000\000\000\000\000\000\000\020\000\000\000\000\000\000\000\000\000\000\000\000\000\000\000\000\000\000 \000\000\000\000\000\000\000\000\000\000\000\000\000\000\000\000\000\000\000\000\000\002\000\000\000\000\000\000\000\000\000\000\000 \000\000\000\000\000\000\000\000\000 \000\000\000\000\000\000\000\000\000\000\000\000\000\000\000\000\000\000\000\000\000\000@\000\000\000\000\000\000\004\000\000\000\000\000\000\000\000\000\000\000\000\000\000\000\000\000\000 \000\000\000\000\000\000\000\000\000\000\000\000\000\000\000\000\000\000\000\002\000\000\000\000\000\000\000\000\000\000\000\000\000\000@\000\000\000\000\000\000\000\000\000\000\000\000\000\000\000\000\000\000\000\000\000\000\020\000\000\000\000\000\000\000\000\000\000\000\000\001\000\000\000\000\000\000\000\000\000\004\000\000\000\000\000\000\000\000\000\000\000\000\000\000\000\000\000\000\000\000\000\000\001\000\000\000\000@\000\000\000\000\000\000\000\000\000\000\000\000\000\000\000\000\000@\000\000\000\000\000\000\000\000\000\000\000\000\000\000\000\000\000\000\000\000\000\000\002\000\000\000\000\000\000\000\000\000\000\000\000\000@\000\000\000\000\000\000\000\000\000\200\000\000\000\000\000\000\000\000\000\000\000\000\000\000\b\000\000\000\000\000\000\000\000\000\000\000\000\000\000\000\000\000\000\000\000\000\000\000\000\020\000\000\000\000\000\000\000\000\000@\000\000\000\000\000\000\000\000\000\000\000\000\000\000\000\000\000\000\000\000\000\000\000\000@\000\000\000\000\000\000\000\000\000\000\020\000\000\000\000\000\000\000\004\000\000\000\000\000\000\000\000\000\000\000\000\000\000\000\000\000\000\000\000\000\000\200\000\000\000\000\000\000\000\000\000\000\000\000\000\000\000\000\000\000\000\000\000\000\000\000\000\000\000\000\000\000\000\000\000\000\000\000\000\000\001\000\000\000\000\000\000\000 \000\000\000\000\000\000\000\000\000\000\000\000\000\000\000\000\000\000\000\000\000\000\000@\000\000\000\000\002\000\000\000\000\000\000\000\000\000\000\000\000\000\000\000\000\000\b\000\000\000\000\000\000\000\000\000\000\000\000\000\000\000\000\000\000\000\000\000\000\000\000\002\000\000\000\000\000\000\000\000\000\000\000\000\004\000\000\000\000\000\000\000\000\002\000\000\000\000\000\000\000\000\000\000\000\000\200\000\000\000\000\000\000\000\000\000\000\000\000\000\000\000\000\000\000\000\000\000\000\000\000\000\000\000\000\200\000\000\000\000\200\000\000\000\000\000\000\000\000\000\000\000\000\000\000\000\000\000\000\000\000\000\000\000\000\000\000\004\000\000\000\000\000\000\000\000\000\000\000\000\000\000\020\000\000\000\000\004\000\000\000\000\000\000\000\000\000\000\000\000\000\000\000\000\000\000\000\000\000\000\000\000\000\004\000\000\000\200\000\000\000\000\000\000\000\000\000\000\000\000\000\000\000\000\001\000\000\000\000\000\000\000\000\000\000\000\000\000\000\000\000\000\000\000\000\000\000\000\000\000\b\000\000\000\000\000\020\000\000\000\000\000\000\000\000\000\000\000\000\000\000\000\000\000\000\000\000\000\000\000\000\000\000\000\001\000\000\000\000\000\000\000\000\000\000\001\000\000\000\000\000\000\000\000\000 \000\000\000\000\000\000\000\000\000\000\000\000\000\000\000\000\000\200\000\000\000\000\000\000\000\000\000\000\000\000\000\000\000\000\000\000\000\000\000\000\000\000\000\b\000\000\000\000\000\000\000\000\000\000\000\001\000\000\000\000\000\000\000\000\000\000\200\000\000\000\000\000\000\000\000\000\000\000\000\000\000\000\000\000\000\000\000\b\000\000\000\000\000 \000\000\000\000\000\000\000\000\000\000\000\000\000\000\000\b\000\000\000\000\000\000\000\000\000\000\000\000\000\000\000\000\000\000\000\000\000\000\000\000\000\000\000\000 \000"
	.section	.rodata..LTb4175d02,"a",@progbits
.LTb4175d02:
	.ascii	"\000EO\n[\036\024Qs6<y(mg\"#fl)x=7rP\025\037Z\013ND\001F\003\tL\035XR\0275pz?n+!de *o>{q4\026SY\034M\b\002GI\f\006C\022W]\030:\177u0a$.kj/%`1t~;\031\\V\023B\007\rH\017J@\005T\021\033^|93v'bh-,ic&w28}_\032\020U\004AK\016W\022\030]\fIC\006$ak.\177:0ut1;~/j`%\007BH\r\\\031\023V\021T^\033J\017\005@b'-h9|v32w}8i,&cA\004\016K\032_U\020\036[Q\024E\000\nOm(\"g6sy<=xr7f#)lN\013\001D\025PZ\037X\035\027R\003FL\t+nd!p5?z{>4q eo*\bMG\002S\026\034Y\000k\023x&M5^L'_4j\001y\022]6N%{\020h\003\021z\002i7\\$O\177\024l\007Y2J!3X K\025~\006m\"I1Z\004o\027|n\005}\026H#[0;P(C\035v\016ew\034d\017Q:B)f\ru\036@+S8*A9R\fg\037tD/W<b\tq\032\bc\033p.E=V\031r\na?T,GU>F-s\030`\013v\035e\016P;C(:Q)B\034w\017d+@8S\rf\036ug\ft\037A*R9\tb\032q/D<WE.V=c\bp\033T?G,r\031a\n\030s\013`>U-FM&^5k\000x\023\001j\022y'L4_\020{\003h6]%N\\7O$z\021i\0022Y!J\024\177\007l~\025m\006X3K o\004|\027I\"Z1#H0[\005n\026}\000)R{aH3\032\007.U|fO4\035\016'\\uoF=\024\t [rhA:\023\0345Ng}T/\006\0332I`zS(\001\022;@isZ!\b\025<Gnt]&\0178\021jCYp\013\"?\026mD^w\f%6\037dMW~\005,1\030cJPy\002+$\rv_El\027>#\nqXBk\0209*\003xQKb\0310-\004\177VLe\0367pY\"\013\0218Cjw^%\f\026?Dm~W,\005\0376MdyP+\002\0301JclE>\027\r$_vkB9\020\n#XqbK0\031\003*QxeL7\036\004-V\177Ha\0323)\000{ROf\0354.\007|UFo\024='\016u\\Ah\023: \tr[T}\006/5\034gNSz\001(2\033`IZs\b!;\022i@]t\017&<\025nG\000%JoQt\033>gB-\b6\023|Y\013.AdZ\177\0205lI&\003=\030wR\0263\\yGb\r(qT;\036 \005jO\0358WrLi\006#z_0\025+\016aD,\tfC}X7\022Kn\001$\032?Pu'\002mHvS<\031@e\n/\0214[~:\037pUkN!\004]x\0272\f)Fc1\024{^`E*\017Vs\0349\007\"MhX}\0227\t,Cf?\032uPnK$\001Sv\031<\002'Hm4\021~[e@/\nNk\004!\037:Up)\fcFx]2\027E`\017*\0241^{\"\007hMsV9\034tQ>\033%\000oJ\0236Y|Bg\b-\177Z5\020.\013dA\030=RwIl\003&bG(\r3\026y\\\005 OjTq\036;iL#\0068\035rW\016+Da_z\0250\000u/Z^+q\004y\fV#'R\b}7B\030mi\034F3N;a\024\020e?Jn\033A40E\037j\027b8MI<f\023Y,v\003\007r(] U\017z~\013Q$\031l6CG2h\035`\025O:>K\021d.[\001tp\005_*W\"x\r\t|&Sw\002X-)\\\006s\016{!TP%\177\n@5o\032\036k1D9L\026cg\022H=2G\035hl\031C6K>d\021\025`:O\005p*_[.t\001|\tS&\"W\rx\\)s\006\002w-X%P\n\177{\016T!k\036D15@\032o\022g=HL9c\026+^\004qu\000Z/R'}\b\fy#V\034i3FB7m\030e\020J?;N\024aE0j\037\033n4A<I\023fb\027M8r\007](,Y\003v\013~$QU z\017\000d\ri\032~\027s4P9].J#Gh\fe\001r\026\177\033\\8Q5F\"K/\025q\030|\017k\002f!E,H;_6R}\031p\024g\003j\016I-D S7^:*N'C0T=Y\036z\023w\004`\tmB&O+X<U1v\022{\037l\ba\005?[2V%A(L\013o\006b\021u\034xW3Z>M)@$c\007n\ny\035t\020T0Y=N*C'`\004m\tz\036w\023<X1U&B+O\bl\005a\022v\037{A%L([?V2u\021x\034o\013b\006)M$@3W>Z\035y\020t\007c\nn~\032s\027d\000i\rJ.G#P4]9\026r\033\177\fh\001e\"F/K8\\5Qk\017f\002q\025|\030_;R6E!H,\003g\016j\031}\024p7S:^-I D\000m\037r>S!L|\021c\016B/]0=P\"O\003n\034qA,^3\177\022`\rz\027e\bD)[6\006k\031t8U'JG*X5y\024f\013;V$I\005h\032w1\\.C\017b\020}M R?s\036l\001\fa\023~2_-@p\035o\002N#Q<K&T9u\030j\0077Z(E\td\026{v\033i\004H%W:\ng\025x4Y+Fb\017}\020\\1C.\036s\001l M?R_2@-a\f~\023#N<Q\035p\002o\030u\007j&K9Td\t{\026Z7E(%H:W\033v\004iY4F+g\nx\025S>L!m\000r\037/B0]\021|\016cn\003q\034P=O\"\022\177\r`,A3^)D6[\027z\beU8J'k\006t\031\024y\013f*G5Xh\005w\032V;I$"
	.section	.rodata.cst8,"aM",@progbits,8
.LT9296ae30:
	.ascii	"\305\305\305\305\305\305\305y"
	.section	.rodata..LT6035a829,"a",@progbits
.LT6035a829:
	.ascii	"\353\220"
	.section	.rodata..LT359fb368,"a",@progbits
.LT359fb368:
	.ascii	"\000J\225\337`*\365\277\300\212U\037\240\3525\177\312\200_\025\252\340?u\n@\237\325j \377\265\336\224K\001\276\364+a\036T\213\301~4\353\241\024^\201\313t>\341\253\324\236A\013\264\376!k\367\275b(\227\335\002H7}\242\350W\035\302\210=w\250\342]\027\310\202\375\267h\"\235\327\bB)c\274\366I\003\334\226\351\243|6\211\303\034V\343\251v<\203\311\026\\#i\266\374C\t\326\234\245\3570z\305\217P\032e/\360\272\005O\220\332o%\372\260\017E\232\320\257\345:p\317\205Z\020{1\356\244\033Q\216\304\273\361.d\333\221N\004\261\373$n\321\233D\016q;\344\256\021[\204\316R\030\307\2152x\247\355\222\330\007M\362\270g-\230\322\rG\370\262m'X\022\315\2078r\255\347\214\306\031S\354\246y3L\006\331\223,f\271\363F\f\323\231&l\263\371\206\314\023Y\346\254s9"
	.section	.rodata..LTbb19773e,"a",@progbits
.LTbb19773e:
	.ascii	"\000\001\002\003\004\005\006\007\b\t\n\013\f\r\016\017\020\021\022\023\024\025\026\027\030\031\032\033\034\035\036\037 !\"#$%&'()*+,-./0123456789:;<=>?"
	.section	.rodata.cst4,"aM",@progbits,4
.LTfab3cca2:
	.ascii	"done"
	.section	.rodata..LT8f6839ec,"a",@progbits
.LT8f6839ec:
	.ascii	"fewer than 5 octets"
	.section	.rodata..LT71a5f666,"a",@progbits
.LT71a5f666:
	.ascii	"the version isn't 0"
	.section	.rodata..LT0052164e,"a",@progbits
.LT0052164e:
	.ascii	"the spare bits aren't 0"
	.section	.rodata..LTc3836849,"a",@progbits
.LTc3836849:
	.ascii	"the frame length names fewer than 6 octets"
	.section	.rodata..LTd0a9ac08,"a",@progbits
.LTd0a9ac08:
	.ascii	"the frame length names more octets than there are"
	.section	.rodata..LT138712ef,"a",@progbits
.LT138712ef:
	.ascii	"octets follow the frame"
	.section	.rodata..LTf25b4188,"a",@progbits
.LTf25b4188:
	.ascii	"the frame has fewer than 8 octets"
	.section	.rodata..LT3538cb2b,"a",@progbits
.LT3538cb2b:
	.ascii	"the frame error control field is wrong"
	.section	.rodata..LT580251c1,"a",@progbits
.LT580251c1:
	.ascii	"a field of the header is over its bound"
	.section	.rodata..LT94255f9a,"a",@progbits
.LT94255f9a:
	.ascii	"the data field is empty"
	.section	.rodata..LTb30c4e51,"a",@progbits
.LTb30c4e51:
	.ascii	"the data field has more than 1,019 octets"
	.section	.rodata..LT11c32282,"a",@progbits
.LT11c32282:
	.ascii	"no memory"
	.section	.rodata..LT1f9aeb32,"a",@progbits
.LT1f9aeb32:
	.ascii	"the packet data field has more than 65,536 octets"
	.section	.rodata..LT97a4dc65,"a",@progbits
.LT97a4dc65:
	.ascii	"the unit has more than 65,542 octets"
	.section	.rodata..LTa4fd88a6,"a",@progbits
.LTa4fd88a6:
	.ascii	"the frame has more than 1,022 octets"
	.section	.rodata..LT20d558df,"a",@progbits
.LT20d558df:
	.ascii	"a segment isn't for 1 to 1,018 octets"
	.section	.rodata..LTef9ae52e,"a",@progbits
.LTef9ae52e:
	.ascii	"the unit has no segment at that place"
	.section	.rodata..LT91539c8c,"a",@progbits
.LT91539c8c:
	.ascii	"the command is neither Unlock nor Set V(R)"
	.section	.rodata..LTeb6253d2,"a",@progbits
.LTeb6253d2:
	.ascii	"the width of the window isn't even and 2 to 254"
	.section	.rodata..LTc3e1dd7a,"a",@progbits
.LTc3e1dd7a:
	.ascii	"the state isn't 1 to 3"
	.section	.rodata..LT3dc80ff8,"a",@progbits
.LT3dc80ff8:
	.ascii	"the FARM-B counter is over 3"
	.section	.rodata..LT1f398924,"a",@progbits
.LT1f398924:
	.ascii	"a flag is neither 0 nor 1"
	.section	.rodata..LTe0aca583,"a",@progbits
.LTe0aca583:
	.ascii	"the flags don't agree with the state"
	.section	.rodata..LT4b4185f9,"a",@progbits
.LT4b4185f9:
	.ascii	"the arrival isn't 1 to 6"
	.section	.rodata..LTea2f882f,"a",@progbits
.LTea2f882f:
	.ascii	"in S2 no expected AD frame finds room"
	.section	.rodata..LT366853d5,"a",@progbits
.LT366853d5:
	.ascii	"the virtual channel id is over 63"
	.section	.rodata..LTe199b508,"a",@progbits
.LTe199b508:
	.ascii	"the word is no CLCW of COP-1"
	.section	.rodata..LT5569709d,"a",@progbits
.LT5569709d:
	.ascii	"no whole packet is there"
	.section	.rodata..LTbae1953e,"a",@progbits
.LTbae1953e:
	.ascii	"the buffer is too short"
	.section	.rodata..LTdd8444d7,"a",@progbits
.LTdd8444d7:
	.ascii	"a pointer is null"
	.section	.rodata..LTe4bd5d69,"a",@progbits
.LTe4bd5d69:
	.ascii	"no such status"
	.section	.rodata..LTacd56a44,"a",@progbits
.LTacd56a44:
	.ascii	"the buffer isn't for 1 to 64 data fields"
	.section	.rodata..LT4c898d49,"a",@progbits
.LT4c898d49:
	.ascii	"the APID of a queue is over 2,046"
	.section	.rodata..LT4ac7c18d,"a",@progbits
.LT4ac7c18d:
	.ascii	"two queues have one APID"
	.section	.rodata..LT46e62e51,"a",@progbits
.LT46e62e51:
	.ascii	"a queue isn't for 1 to 256 packets"
	.section	.rodata.cst16,"aM",@progbits,16
.LTd55d72f1:
	.ascii	"a MAP is over 63"
	.section	.rodata..LTfbebc291,"a",@progbits
.LTfbebc291:
	.ascii	"a MAP is chosen twice"
	.section	.rodata..LTf51ba29c,"a",@progbits
.LTf51ba29c:
	.ascii	"the queue of a MAP isn't for 1 to 256 units"
	.section	.rodata..LTc3e0b8ef,"a",@progbits
.LTc3e0b8ef:
	.ascii	"a channel without segment headers has no MAPs"
	.section	.rodata..LT59e5f42b,"a",@progbits
.LT59e5f42b:
	.ascii	"no channel is held"
	.section	.rodata..LT6c19ea7f,"a",@progbits
.LT6c19ea7f:
	.ascii	"a channel is held already"
	.section	.rodata..LTcedf9ef2,"a",@progbits
.LTcedf9ef2:
	.ascii	"no queue has that APID"
	.section	.rodata..LT290ea87a,"a",@progbits
.LT290ea87a:
	.ascii	"that MAP isn't chosen"
	.section	.rodata..LT3db31328,"a",@progbits
.LT3db31328:
	.ascii	"nothing waits there"
	.section	.rodata..LTab209b3c,"a",@progbits
.LTab209b3c:
	.ascii	"the frame is for another spacecraft"
	.section	.rodata..LT33f7845b,"a",@progbits
.LT33f7845b:
	.ascii	"no channel has that virtual channel id"
	.section	.rodata..LTe06be31d,"a",@progbits
.LTe06be31d:
	.ascii	"the limit of the other MAPs is out of its range"
	.section	.rodata..LTf5153f34,"a",@progbits
.LTf5153f34:
	.ascii	"the MAP of a limit is over 63"
	.section	.rodata..LT01cec7ba,"a",@progbits
.LT01cec7ba:
	.ascii	"a MAP has two limits"
	.section	.rodata..LT9ca90559,"a",@progbits
.LT9ca90559:
	.ascii	"the limit of a MAP isn't 1 to 65,542 octets"
	.section	.rodata..LTb4cf770f,"a",@progbits
.LTb4cf770f:
	.ascii	"a channel without segment headers has no limits by MAP"
	.section	.rodata..LT13107e67,"a",@progbits
.LT13107e67:
	.ascii	"a chosen MAP has no limit"
	.section	.rodata..LTfe3338ef,"a",@progbits
.LTfe3338ef:
	.ascii	"a CLTU carries at most 1,029 octets"
	.section	.rodata..LT90382c6f,"a",@progbits
.LT90382c6f:
	.ascii	"the telemetry frame isn't of 11 or 13 to 2,048 octets"
	.section	.rodata..LT918e64dc,"a",@progbits
.LT918e64dc:
	.ascii	"there is no operational control field"
	.section	.rodata..LT3658ec33,"a",@progbits
.LT3658ec33:
	.ascii	"no decoder of CLTUs has that record"
	.section	.rodata..LTa48e2876,"a",@progbits
.LTa48e2876:
	.ascii	"no session is held"
	.section	.rodata..LTae2c6a3d,"a",@progbits
.LTae2c6a3d:
	.ascii	"a session is held already"
	.section	.rodata..LT99c6f716,"a",@progbits
.LT99c6f716:
	.ascii	"the spacecraft id is over 1,023"
	.section	.rodata..LT6b39cd25,"a",@progbits
.LT6b39cd25:
	.ascii	"the lines end here, and the text says why"
	.section	.rodata..LT7e1f4dbf,"a",@progbits
.LT7e1f4dbf:
	.ascii	"the text of an earlier call waits"
	.section	.rodata..LT0f2a07b8,"a",@progbits
.LT0f2a07b8:
	.ascii	"no memory for an answer, which is lost"
	.section	.rodata..LT17fb76fc,"a",@progbits
.LT17fb76fc:
	.ascii	"the lines have ended"
	.section	.rodata..Lswitch.table.tc_c_base.status.code,"a",@progbits
	.p2align	2
.Lswitch.table.tc_c_base.status.code:
	.long	0
	.long	1
	.long	2
	.long	3
	.long	4
	.long	5
	.long	6
	.long	7
	.long	8
	.long	10
	.long	11
	.long	12
	.long	13
	.long	14
	.long	15
	.long	16
	.long	17
	.long	18
	.long	19
	.long	20
	.long	21
	.long	22
	.long	23
	.long	24
	.long	25
	.long	26
	.long	30
	.long	31
	.long	40
	.long	50
	.long	51
	.long	52
	.long	60
	.long	61
	.long	62
	.long	63
	.long	64
	.long	65
	.long	66
	.long	67
	.long	70
	.long	71
	.long	72
	.long	73
	.long	74
	.long	75
	.long	76
	.long	80
	.long	81
	.long	82
	.long	83
	.long	84
	.long	85
	.long	90
	.long	91
	.long	92
	.long	93
	.long	100
	.long	101
	.long	102
	.long	103
	.long	104
	.long	105
	.long	106
	.section	.rodata..Lswitch.table.tcrx_storage_with_limits_at,"a",@progbits
.Lswitch.table.tcrx_storage_with_limits_at:
	.ascii	"\032\023 !\"#$%&'\f"
	.section	".note.GNU-stack","",@progbits
