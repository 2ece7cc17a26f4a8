	.section	__TEXT,__text,regular,pure_instructions
"_deerlapse_0_1_0::deerlapse::hkdf::deerlapse_hmac":     ## -- Begin function deerlapse::hkdf::deerlapse_hmac
                                        ## @"deerlapse::hkdf::deerlapse_hmac"
	.cfi_startproc
## %bb.0:                               ## %start
	pushq	%rbp
	.cfi_def_cfa_offset 16
	pushq	%r15
	.cfi_def_cfa_offset 24
	pushq	%r14
	.cfi_def_cfa_offset 32
	pushq	%r13
	.cfi_def_cfa_offset 40
	pushq	%r12
	.cfi_def_cfa_offset 48
	pushq	%rbx
	.cfi_def_cfa_offset 56
	subq	$936, %rsp                      ## imm = 0x3A8
	.cfi_def_cfa_offset 992
	.cfi_offset %rbx, -56
	.cfi_offset %r12, -48
	.cfi_offset %r13, -40
	.cfi_offset %r14, -32
	.cfi_offset %r15, -24
	.cfi_offset %rbp, -16
	movq	%r8, %rbx
	movq	%rcx, %r14
	movq	%rdx, %r15
	movq	%rsi, %rdx
	movq	%rdi, %rsi
	cmpq	$48, %r9
	je	Ldeerlapse_0_1_0_BB0_4
## %bb.1:                               ## %start
	cmpq	$32, %r9
	jne	Ldeerlapse_0_1_0_BB0_2
## %bb.3:                               ## %arm.1
	leaq	16(%rsp), %r12
	movq	%r12, %rdi
	movq	%r15, %rcx
	movq	%r14, %r8
	callq	"_deerlapse_0_1_0::key_derivation::hmac::hmac::<#7cab53feae2e1c66>"
	movups	(%r12), %xmm0
	movups	16(%r12), %xmm1
	jmp	Ldeerlapse_0_1_0_BB0_5
Ldeerlapse_0_1_0_BB0_4:                                 ## %arm.2
	leaq	512(%rsp), %r12
	movq	%r12, %rdi
	callq	"_deerlapse_0_1_0::key_derivation::hmac::HmacKey::new::<#01e4f4eb65b1d8bb>"
	movaps	(%r12), %xmm0
	movaps	16(%r12), %xmm1
	movaps	32(%r12), %xmm2
	movaps	48(%r12), %xmm3
	leaq	96(%rsp), %rsi
	movaps	%xmm3, 48(%rsi)
	movaps	%xmm2, 32(%rsi)
	movaps	%xmm1, 16(%rsi)
	movaps	%xmm0, (%rsi)
	movaps	64(%r12), %xmm0
	movaps	%xmm0, 64(%rsi)
	movaps	80(%r12), %xmm0
	movaps	%xmm0, 80(%rsi)
	movaps	96(%r12), %xmm0
	movaps	%xmm0, 96(%rsi)
	movaps	112(%r12), %xmm0
	movaps	%xmm0, 112(%rsi)
	movaps	128(%r12), %xmm0
	movaps	%xmm0, 128(%rsi)
	movaps	144(%r12), %xmm0
	movaps	%xmm0, 144(%rsi)
	movaps	160(%r12), %xmm0
	movaps	%xmm0, 160(%rsi)
	movaps	176(%r12), %xmm0
	movaps	%xmm0, 176(%rsi)
	movaps	192(%r12), %xmm0
	movaps	%xmm0, (%rsp)                   ## 16-byte Spill
	leaq	319(%rsp), %r13
	movl	$192, %edx
	movq	%r13, %rdi
	callq	_memcpy
	leaq	111(%rsp), %rbp
	movl	$192, %edx
	movq	%rbp, %rdi
	movq	%r13, %rsi
	callq	_memcpy
	leaq	304(%rsp), %r13
	movl	$192, %edx
	movq	%r13, %rdi
	movq	%rbp, %rsi
	callq	_memcpy
	movaps	(%rsp), %xmm0                   ## 16-byte Reload
	movaps	%xmm0, 192(%r13)
	movq	%r13, %rdi
	movq	%r15, %rsi
	movq	%r14, %rdx
	callq	"_deerlapse_0_1_0::sha2::block512::Core512::update"
	leaq	48(%rsp), %r14
	movq	%r14, %rdi
	movq	%r12, %rsi
	movq	%r13, %rdx
	callq	"_deerlapse_0_1_0::key_derivation::hmac::HmacKey::finish::<#01e4f4eb65b1d8bb>"
	movups	(%r14), %xmm0
	movups	16(%r14), %xmm1
	movups	32(%r14), %xmm2
	movups	%xmm2, 32(%rbx)
Ldeerlapse_0_1_0_BB0_5:                                 ## %common.ret
	movups	%xmm1, 16(%rbx)
	movups	%xmm0, (%rbx)
	movb	$1, %al
	jmp	Ldeerlapse_0_1_0_BB0_6
Ldeerlapse_0_1_0_BB0_2:
	xorl	%eax, %eax
Ldeerlapse_0_1_0_BB0_6:                                 ## %common.ret
                                        ## kill: def $al killed $al killed $eax
	addq	$936, %rsp                      ## imm = 0x3A8
	popq	%rbx
	popq	%r12
	popq	%r13
	popq	%r14
	popq	%r15
	popq	%rbp
	retq
	.cfi_endproc
                                        ## -- End function
"_deerlapse_0_1_0::key_derivation::hmac::hmac::<#7cab53feae2e1c66>": ## -- Begin function key_derivation::hmac::hmac::<#7cab53feae2e1c66>
                                        ## @"key_derivation::hmac::hmac::<#7cab53feae2e1c66>"
	.cfi_startproc
## %bb.0:                               ## %start
	pushq	%r15
	.cfi_def_cfa_offset 16
	pushq	%r14
	.cfi_def_cfa_offset 24
	pushq	%r13
	.cfi_def_cfa_offset 32
	pushq	%r12
	.cfi_def_cfa_offset 40
	pushq	%rbx
	.cfi_def_cfa_offset 48
	subq	$656, %rsp                      ## imm = 0x290
	.cfi_def_cfa_offset 704
	.cfi_offset %rbx, -48
	.cfi_offset %r12, -40
	.cfi_offset %r13, -32
	.cfi_offset %r14, -24
	.cfi_offset %r15, -16
	movq	%r8, %r14
	movq	%rcx, %r12
	movq	%rdi, %rbx
	leaq	352(%rsp), %r15
	movq	%r15, %rdi
	callq	"_deerlapse_0_1_0::key_derivation::hmac::HmacKey::new::<#7cab53feae2e1c66>"
	movups	80(%r15), %xmm0
	movups	64(%r15), %xmm1
	movups	(%r15), %xmm2
	movups	16(%r15), %xmm3
	movups	32(%r15), %xmm4
	movups	48(%r15), %xmm5
	movq	96(%r15), %rax
	movups	%xmm2, 112(%rsp)
	movups	%xmm3, 128(%rsp)
	movups	%xmm4, 144(%rsp)
	movups	%xmm5, 160(%rsp)
	movups	%xmm1, 176(%rsp)
	movups	%xmm0, 192(%rsp)
	movups	192(%rsp), %xmm0
	movups	%xmm0, 89(%rsp)
	movups	176(%rsp), %xmm0
	movups	%xmm0, 73(%rsp)
	movups	160(%rsp), %xmm0
	movups	%xmm0, 57(%rsp)
	movups	144(%rsp), %xmm0
	movups	%xmm0, 41(%rsp)
	movups	128(%rsp), %xmm0
	movups	%xmm0, 25(%rsp)
	movups	112(%rsp), %xmm0
	movups	%xmm0, 9(%rsp)
	movups	89(%rsp), %xmm0
	leaq	240(%rsp), %r13
	movaps	%xmm0, 80(%r13)
	movups	73(%rsp), %xmm0
	movaps	%xmm0, 64(%r13)
	movups	9(%rsp), %xmm0
	movups	25(%rsp), %xmm1
	movups	41(%rsp), %xmm2
	movups	57(%rsp), %xmm3
	movaps	%xmm3, 48(%r13)
	movaps	%xmm2, 32(%r13)
	movaps	%xmm1, 16(%r13)
	movaps	%xmm0, (%r13)
	movq	%rax, 96(%r13)
	movq	%r13, %rdi
	movq	%r12, %rsi
	movq	%r14, %rdx
	callq	"_deerlapse_0_1_0::sha2::block256::Core256::update"
	leaq	208(%rsp), %r14
	movq	%r14, %rdi
	movq	%r15, %rsi
	movq	%r13, %rdx
	callq	"_deerlapse_0_1_0::key_derivation::hmac::HmacKey::finish::<#7cab53feae2e1c66>"
	movups	(%r14), %xmm0
	movups	16(%r14), %xmm1
	movups	%xmm1, 16(%rbx)
	movups	%xmm0, (%rbx)
	addq	$656, %rsp                      ## imm = 0x290
	popq	%rbx
	popq	%r12
	popq	%r13
	popq	%r14
	popq	%r15
	retq
	.cfi_endproc
                                        ## -- End function
	.section	__TEXT,__literal16,16byte_literals
	.p2align	4, 0x0                          ## -- Begin function key_derivation::hmac::HmacKey::new::<#7cab53feae2e1c66>
Ldeerlapse_0_1_0_CPI2_0:
	.long	1779033703                      ## 0x6a09e667
	.long	3144134277                      ## 0xbb67ae85
	.long	1013904242                      ## 0x3c6ef372
	.long	2773480762                      ## 0xa54ff53a
Ldeerlapse_0_1_0_CPI2_1:
	.long	1359893119                      ## 0x510e527f
	.long	2600822924                      ## 0x9b05688c
	.long	528734635                       ## 0x1f83d9ab
	.long	1541459225                      ## 0x5be0cd19
	.section	__TEXT,__text,regular,pure_instructions
"_deerlapse_0_1_0::key_derivation::hmac::HmacKey::new::<#7cab53feae2e1c66>": ## @"key_derivation::hmac::HmacKey::new::<#7cab53feae2e1c66>"
	.cfi_startproc
## %bb.0:                               ## %start
	pushq	%r15
	.cfi_def_cfa_offset 16
	pushq	%r14
	.cfi_def_cfa_offset 24
	pushq	%r12
	.cfi_def_cfa_offset 32
	pushq	%rbx
	.cfi_def_cfa_offset 40
	subq	$824, %rsp                      ## imm = 0x338
	.cfi_def_cfa_offset 864
	.cfi_offset %rbx, -40
	.cfi_offset %r12, -32
	.cfi_offset %r14, -24
	.cfi_offset %r15, -16
	movq	%rdi, %rbx
	xorps	%xmm0, %xmm0
	movaps	%xmm0, 672(%rsp)
	movaps	%xmm0, 656(%rsp)
	movaps	%xmm0, 640(%rsp)
	movaps	%xmm0, 624(%rsp)
	movaps	%xmm0, 608(%rsp)
	movaps	%xmm0, 592(%rsp)
	movaps	%xmm0, 576(%rsp)
	movaps	%xmm0, 560(%rsp)
	movaps	%xmm0, 544(%rsp)
	movaps	%xmm0, 528(%rsp)
	movaps	%xmm0, 512(%rsp)
	movaps	%xmm0, 496(%rsp)
	movaps	%xmm0, 480(%rsp)
	movaps	%xmm0, 352(%rsp)
	movaps	%xmm0, 368(%rsp)
	movaps	%xmm0, 384(%rsp)
	movaps	%xmm0, 400(%rsp)
	movaps	%xmm0, 416(%rsp)
	movaps	%xmm0, 432(%rsp)
	movaps	%xmm0, 448(%rsp)
	movaps	%xmm0, 464(%rsp)
	xorl	%eax, %eax
	movq	%rax, 336(%rsp)
	movaps	%xmm0, 320(%rsp)
	movaps	%xmm0, 304(%rsp)
	movaps	%xmm0, 288(%rsp)
	movaps	%xmm0, 272(%rsp)
	movaps	%xmm0, 256(%rsp)
	movaps	%xmm0, 240(%rsp)
	movaps	%xmm0, 128(%rsp)
	movaps	%xmm0, 144(%rsp)
	movaps	%xmm0, 160(%rsp)
	movaps	%xmm0, 176(%rsp)
	movaps	%xmm0, 192(%rsp)
	movaps	%xmm0, 208(%rsp)
	movq	%rax, 224(%rsp)
	movaps	%xmm0, 112(%rsp)
	movaps	%xmm0, 96(%rsp)
	movaps	%xmm0, 80(%rsp)
	movaps	%xmm0, 64(%rsp)
	movaps	%xmm0, 48(%rsp)
	movaps	%xmm0, 32(%rsp)
	movaps	%xmm0, 16(%rsp)
	movaps	%xmm0, (%rsp)
	cmpq	$65, %rdx
	jb	Ldeerlapse_0_1_0_BB2_2
## %bb.1:                               ## %then.1.i
	leaq	688(%rsp), %r14
	movaps	%xmm0, (%r14)
	movaps	%xmm0, 16(%r14)
	leaq	720(%rsp), %r15
	movaps	%xmm0, 32(%r15)
	movaps	%xmm0, 48(%r15)
	movaps	%xmm0, 64(%r15)
	movaps	%xmm0, 80(%r15)
	movq	$0, 96(%r15)
	movaps	Ldeerlapse_0_1_0_CPI2_0(%rip), %xmm0            ## xmm0 = [1779033703,3144134277,1013904242,2773480762]
	movaps	%xmm0, (%r15)
	movaps	Ldeerlapse_0_1_0_CPI2_1(%rip), %xmm0            ## xmm0 = [1359893119,2600822924,528734635,1541459225]
	movaps	%xmm0, 16(%r15)
	movq	%r15, %rdi
	callq	"_deerlapse_0_1_0::sha2::block256::Core256::update"
	movq	%r14, %rdi
	movq	%r15, %rsi
	callq	"_deerlapse_0_1_0::sha2::Sha256Digest::finalize"
	movaps	(%r14), %xmm0
	movaps	16(%r14), %xmm1
	movaps	%xmm0, (%rsp)
	movaps	%xmm1, 16(%rsp)
	jmp	Ldeerlapse_0_1_0_BB2_3
Ldeerlapse_0_1_0_BB2_2:                                 ## %else.2.i
	movq	%rsp, %rdi
	callq	_memcpy
Ldeerlapse_0_1_0_BB2_3:                                 ## %"key_derivation::hmac::key_block::<#7cab53feae2e1c66>.exit"
	movaps	112(%rsp), %xmm0
	leaq	352(%rsp), %r15
	movaps	%xmm0, 112(%r15)
	movaps	96(%rsp), %xmm0
	movaps	%xmm0, 96(%r15)
	movaps	80(%rsp), %xmm0
	movaps	%xmm0, 80(%r15)
	movaps	64(%rsp), %xmm0
	movaps	%xmm0, 64(%r15)
	movaps	(%rsp), %xmm0
	movaps	16(%rsp), %xmm1
	movaps	32(%rsp), %xmm2
	movaps	48(%rsp), %xmm3
	movaps	%xmm3, 48(%r15)
	movaps	%xmm2, 32(%r15)
	movaps	%xmm1, 16(%r15)
	movaps	%xmm0, (%r15)
	leaq	240(%rsp), %r12
	movq	%r12, %rdi
	movq	%r15, %rsi
	movl	$54, %edx
	callq	"_deerlapse_0_1_0::key_derivation::hmac::absorb_xored::<#7cab53feae2e1c66>"
	leaq	128(%rsp), %r14
	movq	%r14, %rdi
	movq	%r15, %rsi
	movl	$92, %edx
	callq	"_deerlapse_0_1_0::key_derivation::hmac::absorb_xored::<#7cab53feae2e1c66>"
	movq	96(%r12), %rax
	leaq	480(%rsp), %rsi
	movq	%rax, 96(%rsi)
	movaps	80(%r12), %xmm0
	movaps	%xmm0, 80(%rsi)
	movaps	64(%r12), %xmm0
	movaps	%xmm0, 64(%rsi)
	movaps	(%r12), %xmm0
	movaps	16(%r12), %xmm1
	movaps	32(%r12), %xmm2
	movaps	48(%r12), %xmm3
	movaps	%xmm3, 48(%rsi)
	movaps	%xmm2, 32(%rsi)
	movaps	%xmm1, 16(%rsi)
	movaps	%xmm0, (%rsi)
	movaps	(%r14), %xmm0
	movaps	16(%r14), %xmm1
	movaps	32(%r14), %xmm2
	movaps	48(%r14), %xmm3
	movups	%xmm0, 104(%rsi)
	movups	%xmm1, 120(%rsi)
	movups	%xmm2, 136(%rsi)
	movups	%xmm3, 152(%rsi)
	movaps	64(%r14), %xmm0
	movups	%xmm0, 168(%rsi)
	movaps	80(%r14), %xmm0
	movups	%xmm0, 184(%rsi)
	movq	96(%r14), %rax
	movq	%rax, 200(%rsi)
	movl	$208, %edx
	movq	%rbx, %rdi
	callq	_memcpy
	addq	$824, %rsp                      ## imm = 0x338
	popq	%rbx
	popq	%r12
	popq	%r14
	popq	%r15
	retq
	.cfi_endproc
                                        ## -- End function
	.section	__TEXT,__literal16,16byte_literals
	.p2align	4, 0x0                          ## -- Begin function sha2::Sha256Digest::finalize
Ldeerlapse_0_1_0_CPI3_0:
	.byte	0                               ## 0x0
	.byte	0                               ## 0x0
	.byte	0                               ## 0x0
	.byte	0                               ## 0x0
	.byte	0                               ## 0x0
	.byte	0                               ## 0x0
	.byte	255                             ## 0xff
	.byte	0                               ## 0x0
	.byte	0                               ## 0x0
	.byte	0                               ## 0x0
	.byte	0                               ## 0x0
	.byte	0                               ## 0x0
	.byte	0                               ## 0x0
	.byte	255                             ## 0xff
	.byte	0                               ## 0x0
	.byte	0                               ## 0x0
Ldeerlapse_0_1_0_CPI3_1:
	.byte	0                               ## 0x0
	.byte	0                               ## 0x0
	.byte	0                               ## 0x0
	.byte	0                               ## 0x0
	.byte	255                             ## 0xff
	.byte	0                               ## 0x0
	.byte	0                               ## 0x0
	.byte	0                               ## 0x0
	.byte	255                             ## 0xff
	.byte	255                             ## 0xff
	.byte	255                             ## 0xff
	.byte	255                             ## 0xff
	.byte	255                             ## 0xff
	.byte	255                             ## 0xff
	.byte	255                             ## 0xff
	.byte	255                             ## 0xff
Ldeerlapse_0_1_0_CPI3_2:
	.byte	128                             ## 0x80
	.byte	128                             ## 0x80
	.byte	128                             ## 0x80
	.byte	4                               ## 0x4
	.byte	128                             ## 0x80
	.byte	128                             ## 0x80
	.byte	128                             ## 0x80
	.byte	128                             ## 0x80
	.byte	128                             ## 0x80
	.byte	128                             ## 0x80
	.byte	13                              ## 0xd
	.byte	128                             ## 0x80
	.byte	128                             ## 0x80
	.byte	128                             ## 0x80
	.byte	128                             ## 0x80
	.byte	128                             ## 0x80
Ldeerlapse_0_1_0_CPI3_3:
	.byte	128                             ## 0x80
	.byte	6                               ## 0x6
	.byte	128                             ## 0x80
	.byte	128                             ## 0x80
	.byte	128                             ## 0x80
	.byte	128                             ## 0x80
	.byte	128                             ## 0x80
	.byte	128                             ## 0x80
	.byte	15                              ## 0xf
	.byte	128                             ## 0x80
	.byte	128                             ## 0x80
	.byte	128                             ## 0x80
	.byte	128                             ## 0x80
	.byte	128                             ## 0x80
	.byte	128                             ## 0x80
	.byte	128                             ## 0x80
Ldeerlapse_0_1_0_CPI3_4:
	.byte	3                               ## 0x3
	.byte	2                               ## 0x2
	.byte	1                               ## 0x1
	.byte	0                               ## 0x0
	.byte	7                               ## 0x7
	.byte	6                               ## 0x6
	.byte	5                               ## 0x5
	.byte	4                               ## 0x4
	.byte	11                              ## 0xb
	.byte	10                              ## 0xa
	.byte	9                               ## 0x9
	.byte	8                               ## 0x8
	.byte	15                              ## 0xf
	.byte	14                              ## 0xe
	.byte	13                              ## 0xd
	.byte	12                              ## 0xc
	.section	__TEXT,__text,regular,pure_instructions
"_deerlapse_0_1_0::sha2::Sha256Digest::finalize":        ## @"sha2::Sha256Digest::finalize"
	.cfi_startproc
## %bb.0:                               ## %start
	pushq	%r15
	.cfi_def_cfa_offset 16
	pushq	%r14
	.cfi_def_cfa_offset 24
	pushq	%rbx
	.cfi_def_cfa_offset 32
	subq	$224, %rsp
	.cfi_def_cfa_offset 256
	.cfi_offset %rbx, -32
	.cfi_offset %r14, -24
	.cfi_offset %r15, -16
	movq	%rdi, %rbx
	movq	96(%rsi), %r15
	leaq	112(%rsp), %r14
	movq	%r15, 96(%r14)
	movups	80(%rsi), %xmm0
	movaps	%xmm0, 80(%r14)
	movups	64(%rsi), %xmm0
	movaps	%xmm0, 64(%r14)
	movups	(%rsi), %xmm0
	movups	16(%rsi), %xmm1
	movups	32(%rsi), %xmm2
	movups	48(%rsi), %xmm3
	movaps	%xmm3, 48(%r14)
	movaps	%xmm2, 32(%r14)
	movaps	%xmm1, 16(%r14)
	movaps	%xmm0, (%r14)
	movl	$55, %edx
	subl	%r15d, %edx
	andl	$63, %edx
	incq	%rdx
	leaq	ldeerlapse_0_1_0__static.0(%rip), %rsi
	movq	%r14, %rdi
	callq	"_deerlapse_0_1_0::sha2::block256::Core256::update"
	movq	%r15, %xmm0
	pshufd	$68, %xmm0, %xmm1               ## xmm1 = xmm0[0,1,0,1]
	movdqa	%xmm0, %xmm2
	psllq	$11, %xmm2
	movdqa	%xmm1, %xmm3
	psllq	$59, %xmm3
	pblendw	$15, %xmm2, %xmm3               ## xmm3 = xmm2[0,1,2,3],xmm3[4,5,6,7]
	psllq	$43, %xmm0
	movdqa	%xmm1, %xmm2
	psllq	$27, %xmm2
	pblendw	$15, %xmm0, %xmm2               ## xmm2 = xmm0[0,1,2,3],xmm2[4,5,6,7]
	psllq	$3, %xmm1
	pand	Ldeerlapse_0_1_0_CPI3_0(%rip), %xmm2
	pand	Ldeerlapse_0_1_0_CPI3_1(%rip), %xmm3
	movdqa	%xmm1, %xmm0
	pshufb	Ldeerlapse_0_1_0_CPI3_2(%rip), %xmm0            ## xmm0 = zero,zero,zero,xmm0[4],zero,zero,zero,zero,zero,zero,xmm0[13],zero,zero,zero,zero,zero
	por	%xmm2, %xmm0
	pshufb	Ldeerlapse_0_1_0_CPI3_3(%rip), %xmm1            ## xmm1 = zero,xmm1[6],zero,zero,zero,zero,zero,zero,xmm1[15],zero,zero,zero,zero,zero,zero,zero
	por	%xmm3, %xmm1
	por	%xmm0, %xmm1
	pshufd	$238, %xmm1, %xmm0              ## xmm0 = xmm1[2,3,2,3]
	por	%xmm1, %xmm0
	leaq	40(%rsp), %rsi
	movq	%xmm0, (%rsi)
	movl	$8, %edx
	movq	%r14, %rdi
	callq	"_deerlapse_0_1_0::sha2::block256::Core256::update"
	movdqa	(%r14), %xmm0
	movaps	16(%r14), %xmm1
	movaps	%xmm1, 64(%rsp)
	movdqa	%xmm0, 48(%rsp)
	pxor	%xmm0, %xmm0
	movdqa	%xmm0, (%rsp)
	movdqa	%xmm0, 16(%rsp)
	xorl	%eax, %eax
Ldeerlapse_0_1_0_BB3_1:                                 ## %vector.body
                                        ## =>This Inner Loop Header: Depth=1
	movdqu	48(%rsp,%rax,4), %xmm0
	pshufb	Ldeerlapse_0_1_0_CPI3_4(%rip), %xmm0            ## xmm0 = xmm0[3,2,1,0,7,6,5,4,11,10,9,8,15,14,13,12]
	movdqu	%xmm0, (%rsp,%rax,4)
	addq	$4, %rax
	cmpq	$8, %rax
	jne	Ldeerlapse_0_1_0_BB3_1
## %bb.2:                               ## %"sha2::block256::Core256::finalize.exit"
	movaps	(%rsp), %xmm0
	movaps	16(%rsp), %xmm1
	movaps	%xmm1, 96(%rsp)
	movaps	%xmm0, 80(%rsp)
	movups	%xmm1, 16(%rbx)
	movups	%xmm0, (%rbx)
	addq	$224, %rsp
	popq	%rbx
	popq	%r14
	popq	%r15
	retq
	.cfi_endproc
                                        ## -- End function
"_deerlapse_0_1_0::sha2::block256::Core256::update":     ## -- Begin function sha2::block256::Core256::update
                                        ## @"sha2::block256::Core256::update"
	.cfi_startproc
## %bb.0:                               ## %start
	pushq	%rbp
	.cfi_def_cfa_offset 16
	pushq	%r15
	.cfi_def_cfa_offset 24
	pushq	%r14
	.cfi_def_cfa_offset 32
	pushq	%r13
	.cfi_def_cfa_offset 40
	pushq	%r12
	.cfi_def_cfa_offset 48
	pushq	%rbx
	.cfi_def_cfa_offset 56
	pushq	%rax
	.cfi_def_cfa_offset 64
	.cfi_offset %rbx, -56
	.cfi_offset %r12, -48
	.cfi_offset %r13, -40
	.cfi_offset %r14, -32
	.cfi_offset %r15, -24
	.cfi_offset %rbp, -16
	movq	%rdx, %rbx
	movq	%rsi, %r14
	movq	%rdi, %r15
	movq	96(%rdi), %rax
	leaq	(%rax,%rdx), %rcx
	movq	%rcx, 96(%rdi)
	andq	$63, %rax
	je	Ldeerlapse_0_1_0_BB4_1
## %bb.6:                               ## %then.1
	movl	$64, %ebp
	subq	%rax, %rbp
	leaq	(%r15,%rax), %rdi
	addq	$32, %rdi
	movq	%rdi, %rax
	subq	%r14, %rax
	cmpq	%rbp, %rbx
	jae	Ldeerlapse_0_1_0_BB4_7
## %bb.2:                               ## %then.4
	cmpq	%rbx, %rax
	jae	Ldeerlapse_0_1_0_BB4_18
## %bb.3:                               ## %join.7.i.i.i.i.i.i.preheader
	xorl	%eax, %eax
Ldeerlapse_0_1_0_BB4_4:                                 ## %join.7.i.i.i.i.i.i
                                        ## =>This Inner Loop Header: Depth=1
	movb	(%r14,%rax), %cl
	movb	%cl, (%rdi,%rax)
	incq	%rax
	cmpq	%rax, %rbx
	jne	Ldeerlapse_0_1_0_BB4_4
	jmp	Ldeerlapse_0_1_0_BB4_5
Ldeerlapse_0_1_0_BB4_1:
	xorl	%ebp, %ebp
	jmp	Ldeerlapse_0_1_0_BB4_11
Ldeerlapse_0_1_0_BB4_7:                                 ## %join.6
	leaq	32(%r15), %r13
	cmpq	%rbp, %rax
	jae	Ldeerlapse_0_1_0_BB4_19
## %bb.8:                               ## %join.7.i.i.i.i.i.i37.preheader
	xorl	%eax, %eax
Ldeerlapse_0_1_0_BB4_9:                                 ## %join.7.i.i.i.i.i.i37
                                        ## =>This Inner Loop Header: Depth=1
	movb	(%r14,%rax), %cl
	movb	%cl, (%rdi,%rax)
	incq	%rax
	cmpq	%rax, %rbp
	jne	Ldeerlapse_0_1_0_BB4_9
	jmp	Ldeerlapse_0_1_0_BB4_10
Ldeerlapse_0_1_0_BB4_19:                                ## %apart.2.i.i.i.i.i.i36
	movq	%r14, %rsi
	movq	%rbp, %rdx
	callq	_memmove
Ldeerlapse_0_1_0_BB4_10:                                ## %"core::slice::edits::slice+T::copy_from_slice::<i8,20'core::clone::U8Clone{}>.exit44"
	movq	%r15, %rdi
	movq	%r13, %rsi
	callq	"_deerlapse_0_1_0::sha2::block256::compress"
Ldeerlapse_0_1_0_BB4_11:                                ## %join.3
	movq	%rbx, %r12
	movq	%rbp, (%rsp)                    ## 8-byte Spill
	subq	%rbp, %r12
	movq	%r12, %rbp
	shrq	$6, %rbp
	je	Ldeerlapse_0_1_0_BB4_14
## %bb.12:                              ## %join.11.lr.ph
	movq	(%rsp), %rax                    ## 8-byte Reload
	leaq	(%r14,%rax), %r13
Ldeerlapse_0_1_0_BB4_13:                                ## %join.11
                                        ## =>This Inner Loop Header: Depth=1
	movq	%r15, %rdi
	movq	%r13, %rsi
	callq	"_deerlapse_0_1_0::sha2::block256::compress"
	addq	$64, %r13
	decq	%rbp
	jne	Ldeerlapse_0_1_0_BB4_13
Ldeerlapse_0_1_0_BB4_14:                                ## %after.7
	andq	$-64, %r12
	addq	(%rsp), %r12                    ## 8-byte Folded Reload
	addq	%r12, %r14
	subq	%r12, %rbx
	addq	$32, %r15
	movq	%r15, %rax
	subq	%r14, %rax
	cmpq	%rbx, %rax
	jae	Ldeerlapse_0_1_0_BB4_17
## %bb.15:                              ## %join.7.i.i.i.i.i.i50.preheader
	xorl	%eax, %eax
Ldeerlapse_0_1_0_BB4_16:                                ## %join.7.i.i.i.i.i.i50
                                        ## =>This Inner Loop Header: Depth=1
	movb	(%r14,%rax), %cl
	movb	%cl, (%r15,%rax)
	incq	%rax
	cmpq	%rax, %rbx
	jne	Ldeerlapse_0_1_0_BB4_16
Ldeerlapse_0_1_0_BB4_5:                                 ## %common.ret
	addq	$8, %rsp
	popq	%rbx
	popq	%r12
	popq	%r13
	popq	%r14
	popq	%r15
	popq	%rbp
	retq
Ldeerlapse_0_1_0_BB4_17:                                ## %apart.2.i.i.i.i.i.i49
	movq	%r15, %rdi
Ldeerlapse_0_1_0_BB4_18:                                ## %apart.2.i.i.i.i.i.i
	movq	%r14, %rsi
	movq	%rbx, %rdx
	addq	$8, %rsp
	popq	%rbx
	popq	%r12
	popq	%r13
	popq	%r14
	popq	%r15
	popq	%rbp
	jmp	_memmove                        ## TAILCALL
	.cfi_endproc
                                        ## -- End function
	.section	__TEXT,__literal16,16byte_literals
	.p2align	4, 0x0                          ## -- Begin function sha2::block256::compress
Ldeerlapse_0_1_0_CPI5_0:
	.byte	3                               ## 0x3
	.byte	2                               ## 0x2
	.byte	1                               ## 0x1
	.byte	0                               ## 0x0
	.byte	7                               ## 0x7
	.byte	6                               ## 0x6
	.byte	5                               ## 0x5
	.byte	4                               ## 0x4
	.byte	11                              ## 0xb
	.byte	10                              ## 0xa
	.byte	9                               ## 0x9
	.byte	8                               ## 0x8
	.byte	15                              ## 0xf
	.byte	14                              ## 0xe
	.byte	13                              ## 0xd
	.byte	12                              ## 0xc
	.section	__TEXT,__text,regular,pure_instructions
"_deerlapse_0_1_0::sha2::block256::compress":            ## @"sha2::block256::compress"
	.cfi_startproc
## %bb.0:                               ## %start
	pushq	%rbp
	.cfi_def_cfa_offset 16
	pushq	%r15
	.cfi_def_cfa_offset 24
	pushq	%r14
	.cfi_def_cfa_offset 32
	pushq	%r13
	.cfi_def_cfa_offset 40
	pushq	%r12
	.cfi_def_cfa_offset 48
	pushq	%rbx
	.cfi_def_cfa_offset 56
	subq	$56, %rsp
	.cfi_def_cfa_offset 112
	.cfi_offset %rbx, -56
	.cfi_offset %r12, -48
	.cfi_offset %r13, -40
	.cfi_offset %r14, -32
	.cfi_offset %r15, -24
	.cfi_offset %rbp, -16
	pxor	%xmm0, %xmm0
	movdqa	%xmm0, 32(%rsp)
	movdqa	%xmm0, 16(%rsp)
	movdqa	%xmm0, (%rsp)
	movdqa	%xmm0, -16(%rsp)
	xorl	%eax, %eax
Ldeerlapse_0_1_0_BB5_1:                                 ## %vector.body
                                        ## =>This Inner Loop Header: Depth=1
	movdqu	(%rsi,%rax,4), %xmm0
	pshufb	Ldeerlapse_0_1_0_CPI5_0(%rip), %xmm0            ## xmm0 = xmm0[3,2,1,0,7,6,5,4,11,10,9,8,15,14,13,12]
	movdqu	%xmm0, -16(%rsp,%rax,4)
	addq	$4, %rax
	cmpq	$16, %rax
	jne	Ldeerlapse_0_1_0_BB5_1
## %bb.2:                               ## %after.3
	movl	8(%rdi), %r10d
	movl	(%rdi), %edx
	movl	4(%rdi), %r12d
	movl	16(%rdi), %r9d
	movl	%r9d, %ecx
	shldl	$18, %ecx, %ecx
	movl	20(%rdi), %r8d
	xorl	%r9d, %ecx
	shldl	$27, %ecx, %ecx
	movl	24(%rdi), %eax
	xorl	%r9d, %ecx
	shldl	$26, %ecx, %ecx
	movl	%eax, %esi
	xorl	%r8d, %esi
	andl	%r9d, %esi
	xorl	%eax, %esi
	movl	-16(%rsp), %ebx
	movl	28(%rdi), %r11d
	movl	%ebx, -80(%rsp)                 ## 4-byte Spill
	addl	%ebx, %r11d
	addl	%ecx, %r11d
	addl	%r11d, %esi
	addl	$1116352408, %esi               ## imm = 0x428A2F98
	movl	%edx, %r11d
	shldl	$23, %r11d, %r11d
	xorl	%edx, %r11d
	shldl	$21, %r11d, %r11d
	xorl	%edx, %r11d
	shldl	$30, %r11d, %r11d
	movl	%r12d, %ecx
	xorl	%edx, %ecx
	movl	%r10d, %r14d
	xorl	%r12d, %r14d
	andl	%ecx, %r14d
	xorl	%r12d, %r14d
	addl	%r11d, %r14d
	addl	%esi, %r14d
	addl	12(%rdi), %esi
	movl	%esi, %r11d
	shldl	$18, %r11d, %r11d
	xorl	%esi, %r11d
	shldl	$27, %r11d, %r11d
	xorl	%esi, %r11d
	shldl	$26, %r11d, %r11d
	movl	-12(%rsp), %ebp
	movl	%r8d, %ebx
	xorl	%r9d, %ebx
	andl	%esi, %ebx
	xorl	%r8d, %ebx
	movl	%ebp, -68(%rsp)                 ## 4-byte Spill
	addl	%ebp, %eax
	addl	%ebx, %eax
	leal	(%rax,%r11), %ebx
	addl	%eax, %r11d
	addl	$1899447441, %r11d              ## imm = 0x71374491
	movl	%r14d, %ebp
	shldl	$23, %ebp, %ebp
	xorl	%r14d, %ebp
	shldl	$21, %ebp, %ebp
	xorl	%r14d, %ebp
	shldl	$30, %ebp, %ebp
	movl	%r14d, %eax
	xorl	%edx, %eax
	andl	%eax, %ecx
	xorl	%edx, %ecx
	addl	%ebp, %ecx
	addl	%r11d, %ecx
	movq	%rdi, -24(%rsp)                 ## 8-byte Spill
	leal	(%r10,%rbx), %edi
	addl	$1899447441, %edi               ## imm = 0x71374491
	movl	%edi, %r11d
	shldl	$18, %r11d, %r11d
	movl	-8(%rsp), %ebp
	xorl	%edi, %r11d
	shldl	$27, %r11d, %r11d
	xorl	%edi, %r11d
	shldl	$26, %r11d, %r11d
	movl	%esi, %ebx
	xorl	%r9d, %ebx
	andl	%edi, %ebx
	xorl	%r9d, %ebx
	movl	%ebp, -72(%rsp)                 ## 4-byte Spill
	addl	%ebp, %r8d
	addl	%ebx, %r8d
	movl	%ecx, %ebx
	shldl	$23, %ebx, %ebx
	leal	(%r8,%r11), %r15d
	xorl	%ecx, %ebx
	shldl	$21, %ebx, %ebx
	addl	%r8d, %r11d
	addl	$-1245643825, %r11d             ## imm = 0xB5C0FBCF
	xorl	%ecx, %ebx
	shldl	$30, %ebx, %ebx
	movl	%ecx, %r8d
	xorl	%r14d, %r8d
	andl	%r8d, %eax
	xorl	%r14d, %eax
	addl	%r15d, %r12d
	addl	$-1245643825, %r12d             ## imm = 0xB5C0FBCF
	movl	%r12d, %r15d
	shldl	$18, %r15d, %r15d
	addl	%ebx, %eax
	xorl	%r12d, %r15d
	shldl	$27, %r15d, %r15d
	addl	%r11d, %eax
	xorl	%r12d, %r15d
	shldl	$26, %r15d, %r15d
	movl	-4(%rsp), %ebx
	movl	%edi, %r11d
	xorl	%esi, %r11d
	andl	%r12d, %r11d
	xorl	%esi, %r11d
	movl	%ebx, -52(%rsp)                 ## 4-byte Spill
	addl	%ebx, %r9d
	addl	%r11d, %r9d
	leal	(%r9,%r15), %r11d
	leal	(%r15,%r9), %ebx
	addl	$-373957723, %ebx               ## imm = 0xE9B5DBA5
	movl	%eax, %ebp
	shldl	$23, %ebp, %ebp
	xorl	%eax, %ebp
	shldl	$21, %ebp, %ebp
	xorl	%eax, %ebp
	shldl	$30, %ebp, %ebp
	movl	%eax, %r13d
	xorl	%ecx, %r13d
	andl	%r13d, %r8d
	xorl	%ecx, %r8d
	addl	%ebp, %r8d
	addl	%ebx, %r8d
	leal	(%rdx,%r11), %ebx
	addl	$-373957723, %ebx               ## imm = 0xE9B5DBA5
	movl	%ebx, %edx
	shldl	$18, %edx, %edx
	xorl	%ebx, %edx
	shldl	$27, %edx, %edx
	xorl	%ebx, %edx
	shldl	$26, %edx, %edx
	movl	%r12d, %r11d
	xorl	%edi, %r11d
	andl	%ebx, %r11d
	xorl	%edi, %r11d
	movl	(%rsp), %ebp
	movl	%ebp, -56(%rsp)                 ## 4-byte Spill
	addl	%ebp, %esi
	addl	%r11d, %esi
	movl	%r8d, %r11d
	shldl	$23, %r11d, %r11d
	leal	(%rdx,%rsi), %ebp
	addl	$961987163, %ebp                ## imm = 0x3956C25B
	xorl	%r8d, %r11d
	shldl	$21, %r11d, %r11d
	xorl	%r8d, %r11d
	shldl	$30, %r11d, %r11d
	movl	%r8d, %edx
	xorl	%eax, %edx
	andl	%edx, %r13d
	xorl	%eax, %r13d
	addl	%r11d, %r13d
	addl	%ebp, %r14d
	movl	%r14d, %esi
	shldl	$18, %esi, %esi
	addl	%ebp, %r13d
	xorl	%r14d, %esi
	shldl	$27, %esi, %esi
	xorl	%r14d, %esi
	shldl	$26, %esi, %esi
	movl	%ebx, %r11d
	xorl	%r12d, %r11d
	andl	%r14d, %r11d
	xorl	%r12d, %r11d
	movl	4(%rsp), %ebp
	movl	%ebp, -60(%rsp)                 ## 4-byte Spill
	addl	%ebp, %edi
	movl	%r13d, %ebp
	shldl	$23, %ebp, %ebp
	addl	%r11d, %edi
	xorl	%r13d, %ebp
	shldl	$21, %ebp, %ebp
	leal	(%rsi,%rdi), %r11d
	addl	$1508970993, %r11d              ## imm = 0x59F111F1
	xorl	%r13d, %ebp
	shldl	$30, %ebp, %ebp
	movl	%r13d, %edi
	xorl	%r8d, %edi
	andl	%edi, %edx
	xorl	%r8d, %edx
	addl	%r11d, %ecx
	movl	%ecx, %esi
	shldl	$18, %esi, %esi
	addl	%ebp, %edx
	xorl	%ecx, %esi
	shldl	$27, %esi, %esi
	addl	%r11d, %edx
	xorl	%ecx, %esi
	shldl	$26, %esi, %esi
	movl	%r14d, %r11d
	xorl	%ebx, %r11d
	andl	%ecx, %r11d
	xorl	%ebx, %r11d
	movl	%edx, %ebp
	shldl	$23, %ebp, %ebp
	movl	8(%rsp), %r15d
	movl	%r15d, -76(%rsp)                ## 4-byte Spill
	addl	%r15d, %r12d
	xorl	%edx, %ebp
	shldl	$21, %ebp, %ebp
	addl	%r11d, %r12d
	xorl	%edx, %ebp
	shldl	$30, %ebp, %ebp
	addl	%r12d, %esi
	addl	$-1841331548, %esi              ## imm = 0x923F82A4
	movl	%edx, %r15d
	xorl	%r13d, %r15d
	andl	%r15d, %edi
	xorl	%r13d, %edi
	addl	%ebp, %edi
	addl	%esi, %edi
	addl	%esi, %eax
	movl	%eax, %esi
	shldl	$18, %esi, %esi
	xorl	%eax, %esi
	shldl	$27, %esi, %esi
	movl	%ecx, %r11d
	xorl	%r14d, %r11d
	andl	%eax, %r11d
	xorl	%r14d, %r11d
	movl	12(%rsp), %ebp
	movl	%ebp, -64(%rsp)                 ## 4-byte Spill
	addl	%ebp, %ebx
	addl	%r11d, %ebx
	xorl	%eax, %esi
	shldl	$26, %esi, %esi
	addl	%ebx, %esi
	addl	$-1424204075, %esi              ## imm = 0xAB1C5ED5
	movl	%edi, %ebx
	shldl	$23, %ebx, %ebx
	xorl	%edi, %ebx
	shldl	$21, %ebx, %ebx
	xorl	%edi, %ebx
	shldl	$30, %ebx, %ebx
	movl	%edi, %r10d
	xorl	%edx, %r10d
	andl	%r10d, %r15d
	xorl	%edx, %r15d
	addl	%ebx, %r15d
	addl	%esi, %r15d
	movq	%r15, %r11
	addl	%esi, %r8d
	movl	%r8d, %esi
	shldl	$18, %esi, %esi
	xorl	%r8d, %esi
	shldl	$27, %esi, %esi
	xorl	%r8d, %esi
	shldl	$26, %esi, %esi
	movl	%eax, %ebx
	xorl	%ecx, %ebx
	andl	%r8d, %ebx
	xorl	%ecx, %ebx
	movl	16(%rsp), %ebp
	movl	%ebp, -84(%rsp)                 ## 4-byte Spill
	addl	%ebp, %r14d
	addl	%ebx, %r14d
	movl	%r11d, %ebx
	shldl	$23, %ebx, %ebx
	leal	(%rsi,%r14), %ebp
	addl	$-670586216, %ebp               ## imm = 0xD807AA98
	xorl	%r11d, %ebx
	shldl	$21, %ebx, %ebx
	xorl	%r11d, %ebx
	shldl	$30, %ebx, %ebx
	movl	%r11d, %r12d
	movq	%rdi, -128(%rsp)                ## 8-byte Spill
	xorl	%edi, %r12d
	andl	%r12d, %r10d
	xorl	%edi, %r10d
	addl	%ebx, %r10d
	addl	%ebp, %r13d
	movl	%r13d, %esi
	shldl	$18, %esi, %esi
	addl	%ebp, %r10d
	xorl	%r13d, %esi
	shldl	$27, %esi, %esi
	xorl	%r13d, %esi
	shldl	$26, %esi, %esi
	movl	%r8d, %ebx
	xorl	%eax, %ebx
	andl	%r13d, %ebx
	xorl	%eax, %ebx
	movl	20(%rsp), %r9d
	addl	%r9d, %ecx
	movl	%r10d, %ebp
	shldl	$23, %ebp, %ebp
	addl	%ebx, %ecx
	xorl	%r10d, %ebp
	shldl	$21, %ebp, %ebp
	leal	(%rsi,%rcx), %ebx
	addl	$310598401, %ebx                ## imm = 0x12835B01
	xorl	%r10d, %ebp
	shldl	$30, %ebp, %ebp
	movl	%r10d, %esi
	xorl	%r11d, %esi
	andl	%esi, %r12d
	xorl	%r11d, %r12d
	addl	%ebx, %edx
	movl	%edx, %ecx
	shldl	$18, %ecx, %ecx
	addl	%ebp, %r12d
	xorl	%edx, %ecx
	shldl	$27, %ecx, %ecx
	addl	%ebx, %r12d
	xorl	%edx, %ecx
	shldl	$26, %ecx, %ecx
	movl	%r13d, %ebx
	xorl	%r8d, %ebx
	andl	%edx, %ebx
	xorl	%r8d, %ebx
	movl	%r12d, %ebp
	shldl	$23, %ebp, %ebp
	movl	24(%rsp), %edi
	movl	%edi, -108(%rsp)                ## 4-byte Spill
	addl	%edi, %eax
	xorl	%r12d, %ebp
	shldl	$21, %ebp, %ebp
	addl	%ebx, %eax
	xorl	%r12d, %ebp
	shldl	$30, %ebp, %ebp
	addl	%ecx, %eax
	addl	$607225278, %eax                ## imm = 0x243185BE
	movl	%r12d, %r15d
	xorl	%r10d, %r15d
	movl	%esi, %ebx
	andl	%r15d, %ebx
	xorl	%r10d, %ebx
	addl	%ebp, %ebx
	addl	%eax, %ebx
	movq	-128(%rsp), %rcx                ## 8-byte Reload
	addl	%eax, %ecx
	movl	%ecx, %eax
	shldl	$18, %eax, %eax
	xorl	%ecx, %eax
	movq	%rcx, %rbp
	shldl	$27, %eax, %eax
	movl	%edx, %ecx
	xorl	%r13d, %ecx
	andl	%ebp, %ecx
	xorl	%r13d, %ecx
	movl	28(%rsp), %edi
	movl	%edi, -116(%rsp)                ## 4-byte Spill
	addl	%edi, %r8d
	addl	%ecx, %r8d
	xorl	%ebp, %eax
	shldl	$26, %eax, %eax
	addl	%r8d, %eax
	addl	$1426881987, %eax               ## imm = 0x550C7DC3
	movl	%ebx, %ecx
	shldl	$23, %ecx, %ecx
	xorl	%ebx, %ecx
	shldl	$21, %ecx, %ecx
	xorl	%ebx, %ecx
	shldl	$30, %ecx, %ecx
	movl	%ebx, %esi
	xorl	%r12d, %esi
	andl	%esi, %r15d
	xorl	%r12d, %r15d
	addl	%ecx, %r15d
	addl	%eax, %r15d
	addl	%eax, %r11d
	movl	%r11d, %eax
	shldl	$18, %eax, %eax
	xorl	%r11d, %eax
	shldl	$27, %eax, %eax
	xorl	%r11d, %eax
	shldl	$26, %eax, %eax
	movl	%ebp, %ecx
	xorl	%edx, %ecx
	andl	%r11d, %ecx
	xorl	%edx, %ecx
	movl	32(%rsp), %edi
	movl	%edi, -112(%rsp)                ## 4-byte Spill
	addl	%edi, %r13d
	addl	%ecx, %r13d
	movl	%r15d, %ecx
	shldl	$23, %ecx, %ecx
	leal	(%rax,%r13), %r8d
	addl	$1925078388, %r8d               ## imm = 0x72BE5D74
	xorl	%r15d, %ecx
	shldl	$21, %ecx, %ecx
	xorl	%r15d, %ecx
	shldl	$30, %ecx, %ecx
	movl	%r15d, %r14d
	xorl	%ebx, %r14d
	andl	%r14d, %esi
	xorl	%ebx, %esi
	addl	%ecx, %esi
	addl	%r8d, %r10d
	movl	%r10d, %eax
	shldl	$18, %eax, %eax
	addl	%r8d, %esi
	xorl	%r10d, %eax
	shldl	$27, %eax, %eax
	xorl	%r10d, %eax
	shldl	$26, %eax, %eax
	movl	%r11d, %ecx
	xorl	%ebp, %ecx
	andl	%r10d, %ecx
	xorl	%ebp, %ecx
	movq	%rbp, %r13
	movl	36(%rsp), %edi
	movl	%edi, -92(%rsp)                 ## 4-byte Spill
	addl	%edi, %edx
	movl	%esi, %r8d
	shldl	$23, %r8d, %r8d
	addl	%ecx, %edx
	xorl	%esi, %r8d
	shldl	$21, %r8d, %r8d
	addl	%eax, %edx
	addl	$-2132889090, %edx              ## imm = 0x80DEB1FE
	xorl	%esi, %r8d
	shldl	$30, %r8d, %r8d
	movl	%esi, %ebp
	xorl	%r15d, %ebp
	andl	%ebp, %r14d
	xorl	%r15d, %r14d
	addl	%edx, %r12d
	movl	%r12d, %eax
	shldl	$18, %eax, %eax
	addl	%r8d, %r14d
	xorl	%r12d, %eax
	shldl	$27, %eax, %eax
	addl	%edx, %r14d
	xorl	%r12d, %eax
	shldl	$26, %eax, %eax
	movl	%r10d, %edx
	movq	%r11, %rdi
	xorl	%edi, %edx
	andl	%r12d, %edx
	xorl	%edi, %edx
	movl	%r14d, %r8d
	shldl	$23, %r8d, %r8d
	movl	40(%rsp), %ecx
	addl	%ecx, %r13d
	xorl	%r14d, %r8d
	shldl	$21, %r8d, %r8d
	addl	%edx, %r13d
	xorl	%r14d, %r8d
	shldl	$30, %r8d, %r8d
	leal	(%rax,%r13), %edx
	addl	$-1680079193, %edx              ## imm = 0x9BDC06A7
	movl	%r14d, %eax
	xorl	%esi, %eax
	andl	%eax, %ebp
	xorl	%esi, %ebp
	addl	%r8d, %ebp
	addl	%edx, %ebp
	addl	%edx, %ebx
	movl	%ebx, %edx
	shldl	$18, %edx, %edx
	xorl	%ebx, %edx
	shldl	$27, %edx, %edx
	movl	%r12d, %r8d
	xorl	%r10d, %r8d
	andl	%ebx, %r8d
	movl	%r10d, %r13d
	xorl	%r10d, %r8d
	movl	44(%rsp), %r10d
	movl	%r10d, -96(%rsp)                ## 4-byte Spill
	addl	%r10d, %edi
	addl	%r8d, %edi
	movl	%ebx, -120(%rsp)                ## 4-byte Spill
	xorl	%ebx, %edx
	shldl	$26, %edx, %edx
	leal	(%rdx,%rdi), %r10d
	addl	$-1046744716, %r10d             ## imm = 0xC19BF174
	movl	%ebp, %r8d
	shldl	$23, %r8d, %r8d
	xorl	%ebp, %r8d
	shldl	$21, %r8d, %r8d
	xorl	%ebp, %r8d
	shldl	$30, %r8d, %r8d
	movl	%ebp, %edx
	xorl	%r14d, %edx
	andl	%eax, %edx
	xorl	%r14d, %edx
	addl	%r8d, %edx
	addl	%r10d, %edx
	addl	%r10d, %r15d
	movq	-24(%rsp), %rdi                 ## 8-byte Reload
	movdqu	(%rdi), %xmm1
	movdqu	16(%rdi), %xmm0
	xorl	%r10d, %r10d
Ldeerlapse_0_1_0_BB5_3:                                 ## %join.12
                                        ## =>This Inner Loop Header: Depth=1
	movl	%r9d, -88(%rsp)                 ## 4-byte Spill
	movq	%r10, -128(%rsp)                ## 8-byte Spill
	movl	%ecx, -104(%rsp)                ## 4-byte Spill
	movl	%ecx, %eax
	shldl	$30, %eax, %eax
	xorl	%ecx, %eax
	shldl	$15, %eax, %eax
	movl	%ecx, %edi
	shrl	$10, %edi
	movl	-68(%rsp), %ecx                 ## 4-byte Reload
	movl	%ecx, %r8d
	shldl	$21, %r8d, %r8d
	xorl	%eax, %edi
	xorl	%ecx, %r8d
	shldl	$25, %r8d, %r8d
	movl	%ecx, %eax
	shrl	$3, %eax
	xorl	%r8d, %eax
	movl	-80(%rsp), %r11d                ## 4-byte Reload
	addl	%r9d, %r11d
	addl	%edi, %r11d
	movl	%r15d, %edi
	shldl	$18, %edi, %edi
	addl	%eax, %r11d
	movl	%r11d, -80(%rsp)                ## 4-byte Spill
	xorl	%r15d, %edi
	shldl	$27, %edi, %edi
	movl	%r12d, %eax
	movl	-120(%rsp), %ebx                ## 4-byte Reload
	xorl	%ebx, %eax
	andl	%r15d, %eax
	xorl	%r12d, %eax
	addl	%r13d, %eax
	xorl	%r15d, %edi
	shldl	$26, %edi, %edi
	addl	%edi, %eax
	movl	%eax, %r13d
	movl	%edx, %eax
	shldl	$23, %eax, %eax
	xorl	%edx, %eax
	shldl	$21, %eax, %eax
	xorl	%edx, %eax
	shldl	$30, %eax, %eax
	movl	%ebp, %r8d
	xorl	%edx, %r8d
	movl	%r14d, %r9d
	xorl	%ebp, %r9d
	andl	%r8d, %r9d
	xorl	%ebp, %r9d
	addl	%eax, %r9d
	leaq	ldeerlapse_0_1_0__static.1(%rip), %rax
	addl	64(%r10,%rax), %r13d
	addl	%r11d, %r13d
	movl	-96(%rsp), %edi                 ## 4-byte Reload
	movl	%edi, %eax
	shldl	$30, %eax, %eax
	addl	%r13d, %r9d
	xorl	%edi, %eax
	shldl	$15, %eax, %eax
	addl	%esi, %r13d
	shrl	$10, %edi
	xorl	%eax, %edi
	movl	-72(%rsp), %r11d                ## 4-byte Reload
	movl	%r11d, %eax
	shldl	$21, %eax, %eax
	xorl	%r11d, %eax
	shldl	$25, %eax, %eax
	movl	%r11d, %r10d
	movl	%r11d, %esi
	shrl	$3, %r10d
	xorl	%eax, %r10d
	movl	%r13d, %eax
	shldl	$18, %eax, %eax
	addl	-108(%rsp), %ecx                ## 4-byte Folded Reload
	xorl	%r13d, %eax
	shldl	$27, %eax, %eax
	addl	%edi, %ecx
	xorl	%r13d, %eax
	shldl	$26, %eax, %eax
	addl	%r10d, %ecx
	movl	%ecx, -68(%rsp)                 ## 4-byte Spill
	movl	%ebx, -120(%rsp)                ## 4-byte Spill
	movl	%ebx, %edi
	xorl	%r15d, %edi
	andl	%r13d, %edi
	xorl	%ebx, %edi
	movq	-128(%rsp), %r10                ## 8-byte Reload
	leaq	ldeerlapse_0_1_0__static.1(%rip), %r11
	addl	68(%r10,%r11), %r12d
	addl	%ecx, %r12d
	addl	%edi, %r12d
	movl	%r9d, %edi
	shldl	$23, %edi, %edi
	addl	%eax, %r12d
	xorl	%r9d, %edi
	shldl	$21, %edi, %edi
	xorl	%r9d, %edi
	shldl	$30, %edi, %edi
	movl	%r9d, %r10d
	xorl	%edx, %r10d
	andl	%r10d, %r8d
	xorl	%edx, %r8d
	addl	%edi, %r8d
	addl	%r12d, %r8d
	movl	-80(%rsp), %edi                 ## 4-byte Reload
	movl	%edi, %eax
	shldl	$30, %eax, %eax
	addl	%r14d, %r12d
	xorl	%edi, %eax
	movl	%edi, %r11d
	shldl	$15, %eax, %eax
	movl	-52(%rsp), %ebx                 ## 4-byte Reload
	movl	%ebx, %edi
	shldl	$21, %edi, %edi
	shrl	$10, %r11d
	xorl	%ebx, %edi
	shldl	$25, %edi, %edi
	xorl	%eax, %r11d
	movl	%ebx, %eax
	shrl	$3, %eax
	xorl	%edi, %eax
	movl	%esi, %ecx
	addl	-116(%rsp), %ecx                ## 4-byte Folded Reload
	movl	%r12d, %edi
	shldl	$18, %edi, %edi
	addl	%eax, %ecx
	xorl	%r12d, %edi
	shldl	$27, %edi, %edi
	addl	%r11d, %ecx
	movl	%ecx, -72(%rsp)                 ## 4-byte Spill
	movl	%r13d, %eax
	xorl	%r15d, %eax
	andl	%r12d, %eax
	xorl	%r15d, %eax
	movq	-128(%rsp), %r11                ## 8-byte Reload
	movl	-120(%rsp), %esi                ## 4-byte Reload
	leaq	ldeerlapse_0_1_0__static.1(%rip), %r14
	addl	72(%r11,%r14), %esi
	addl	%ecx, %esi
	addl	%eax, %esi
	xorl	%r12d, %edi
	shldl	$26, %edi, %edi
	addl	%edi, %esi
	movl	%r8d, -100(%rsp)                ## 4-byte Spill
	movl	%r8d, %eax
	shldl	$23, %eax, %eax
	xorl	%r8d, %eax
	shldl	$21, %eax, %eax
	xorl	%r8d, %eax
	shldl	$30, %eax, %eax
	xorl	%r9d, %r8d
	andl	%r8d, %r10d
	xorl	%r9d, %r10d
	addl	%eax, %r10d
	addl	%esi, %r10d
	movl	%r10d, %r11d
	addl	%ebp, %esi
	movl	-68(%rsp), %ecx                 ## 4-byte Reload
	movl	%ecx, %eax
	shldl	$30, %eax, %eax
	xorl	%ecx, %eax
	shldl	$15, %eax, %eax
	shrl	$10, %ecx
	movl	-56(%rsp), %r14d                ## 4-byte Reload
	movl	%r14d, %edi
	shldl	$21, %edi, %edi
	xorl	%eax, %ecx
	xorl	%r14d, %edi
	shldl	$25, %edi, %edi
	movl	%r14d, %eax
	shrl	$3, %eax
	xorl	%edi, %eax
	movl	%ebx, %ebp
	addl	-112(%rsp), %ebp                ## 4-byte Folded Reload
	addl	%eax, %ebp
	movl	%esi, %eax
	shldl	$18, %eax, %eax
	addl	%ecx, %ebp
	xorl	%esi, %eax
	shldl	$27, %eax, %eax
	xorl	%esi, %eax
	shldl	$26, %eax, %eax
	movl	%r12d, %ecx
	xorl	%r13d, %ecx
	andl	%esi, %ecx
	movq	-128(%rsp), %rdi                ## 8-byte Reload
	leaq	ldeerlapse_0_1_0__static.1(%rip), %r10
	addl	76(%rdi,%r10), %r15d
	xorl	%r13d, %ecx
	movl	%r11d, %ebx
	shldl	$23, %r11d, %r11d
	addl	%ebp, %r15d
	xorl	%ebx, %r11d
	shldl	$21, %r11d, %r11d
	addl	%ecx, %r15d
	xorl	%ebx, %r11d
	shldl	$30, %r11d, %r11d
	addl	%eax, %r15d
	movl	%ebx, %edi
	movl	-100(%rsp), %eax                ## 4-byte Reload
	xorl	%eax, %edi
	andl	%edi, %r8d
	xorl	%eax, %r8d
	addl	%r11d, %r8d
	addl	%r15d, %r8d
	addl	%edx, %r15d
	movl	-72(%rsp), %ecx                 ## 4-byte Reload
	movl	%ecx, %eax
	shldl	$30, %eax, %eax
	xorl	%ecx, %eax
	shldl	$15, %eax, %eax
	shrl	$10, %ecx
	xorl	%eax, %ecx
	movl	-60(%rsp), %r10d                ## 4-byte Reload
	movl	%r10d, %eax
	shldl	$21, %eax, %eax
	xorl	%r10d, %eax
	shldl	$25, %eax, %eax
	movl	%r10d, %edx
	shrl	$3, %edx
	xorl	%eax, %edx
	addl	-92(%rsp), %r14d                ## 4-byte Folded Reload
	addl	%edx, %r14d
	addl	%ecx, %r14d
	movl	%r15d, %eax
	shldl	$18, %eax, %eax
	xorl	%r15d, %eax
	shldl	$27, %eax, %eax
	xorl	%r15d, %eax
	shldl	$26, %eax, %eax
	movl	%esi, %ecx
	xorl	%r12d, %ecx
	andl	%r15d, %ecx
	xorl	%r12d, %ecx
	movq	-128(%rsp), %rdx                ## 8-byte Reload
	leaq	ldeerlapse_0_1_0__static.1(%rip), %r11
	addl	80(%rdx,%r11), %r13d
	addl	%r14d, %r13d
	movl	%r8d, %edx
	shldl	$23, %edx, %edx
	addl	%ecx, %r13d
	xorl	%r8d, %edx
	shldl	$21, %edx, %edx
	addl	%eax, %r13d
	xorl	%r8d, %edx
	shldl	$30, %edx, %edx
	movl	%r8d, %r11d
	movl	%ebx, -44(%rsp)                 ## 4-byte Spill
	xorl	%ebx, %r11d
	andl	%r11d, %edi
	xorl	%ebx, %edi
	addl	%edx, %edi
	movl	%ebp, -52(%rsp)                 ## 4-byte Spill
	movl	%ebp, %ecx
	shldl	$30, %ecx, %ecx
	addl	%r13d, %edi
	xorl	%ebp, %ecx
	shldl	$15, %ecx, %ecx
	addl	%r9d, %r13d
	movl	%ebp, %eax
	shrl	$10, %eax
	xorl	%ecx, %eax
	movl	-76(%rsp), %r9d                 ## 4-byte Reload
	movl	%r9d, %ecx
	shldl	$21, %ecx, %ecx
	xorl	%r9d, %ecx
	shldl	$25, %ecx, %ecx
	movl	%r9d, %edx
	movl	%r9d, %ebp
	shrl	$3, %edx
	xorl	%ecx, %edx
	movl	%r13d, %ecx
	shldl	$18, %ecx, %ecx
	addl	-104(%rsp), %r10d               ## 4-byte Folded Reload
	xorl	%r13d, %ecx
	shldl	$27, %ecx, %ecx
	addl	%edx, %r10d
	xorl	%r13d, %ecx
	shldl	$26, %ecx, %ecx
	addl	%eax, %r10d
	movl	%r15d, %eax
	xorl	%esi, %eax
	andl	%r13d, %eax
	movl	%r13d, -32(%rsp)                ## 4-byte Spill
	xorl	%esi, %eax
	movq	-128(%rsp), %rdx                ## 8-byte Reload
	leaq	ldeerlapse_0_1_0__static.1(%rip), %r9
	addl	84(%rdx,%r9), %r12d
	addl	%r10d, %r12d
	addl	%eax, %r12d
	movl	%edi, %eax
	shldl	$23, %eax, %eax
	addl	%ecx, %r12d
	xorl	%edi, %eax
	shldl	$21, %eax, %eax
	xorl	%edi, %eax
	shldl	$30, %eax, %eax
	movl	%edi, %ebx
	movl	%r8d, -28(%rsp)                 ## 4-byte Spill
	xorl	%r8d, %ebx
	andl	%ebx, %r11d
	xorl	%r8d, %r11d
	addl	%eax, %r11d
	addl	%r12d, %r11d
	movl	%r14d, %eax
	shldl	$30, %eax, %eax
	addl	-100(%rsp), %r12d               ## 4-byte Folded Reload
	xorl	%r14d, %eax
	movl	%r14d, %edx
	movl	%r14d, -56(%rsp)                ## 4-byte Spill
	shldl	$15, %eax, %eax
	movl	-64(%rsp), %r8d                 ## 4-byte Reload
	movl	%r8d, %ecx
	shldl	$21, %ecx, %ecx
	shrl	$10, %edx
	xorl	%r8d, %ecx
	shldl	$25, %ecx, %ecx
	xorl	%eax, %edx
	movl	%r8d, %eax
	shrl	$3, %eax
	xorl	%ecx, %eax
	addl	-96(%rsp), %ebp                 ## 4-byte Folded Reload
	movl	%r12d, %ecx
	shldl	$18, %ecx, %ecx
	addl	%eax, %ebp
	xorl	%r12d, %ecx
	shldl	$27, %ecx, %ecx
	addl	%edx, %ebp
	movl	%ebp, -76(%rsp)                 ## 4-byte Spill
	xorl	%r12d, %ecx
	shldl	$26, %ecx, %ecx
	xorl	%r15d, %r13d
	movq	-128(%rsp), %rax                ## 8-byte Reload
	addl	88(%rax,%r9), %esi
	andl	%r12d, %r13d
	movl	%r11d, %eax
	shldl	$23, %eax, %eax
	xorl	%r15d, %r13d
	xorl	%r11d, %eax
	shldl	$21, %eax, %eax
	addl	%ebp, %esi
	xorl	%r11d, %eax
	movl	%r11d, -120(%rsp)               ## 4-byte Spill
	shldl	$30, %eax, %eax
	addl	%r13d, %esi
	movl	%r10d, %edx
	movl	%r10d, %r9d
	shldl	$30, %r9d, %r9d
	addl	%ecx, %esi
	xorl	%r10d, %r9d
	movl	%r10d, -60(%rsp)                ## 4-byte Spill
	shldl	$15, %r9d, %r9d
	movl	-84(%rsp), %ecx                 ## 4-byte Reload
	movl	%ecx, %r14d
	shldl	$21, %r14d, %r14d
	movl	%edi, -40(%rsp)                 ## 4-byte Spill
	xorl	%edi, %r11d
	movl	%r11d, -36(%rsp)                ## 4-byte Spill
	xorl	%ecx, %r14d
	shldl	$25, %r14d, %r14d
	andl	%r11d, %ebx
	movl	-88(%rsp), %ecx                 ## 4-byte Reload
	movl	%ecx, %ebp
	shldl	$21, %ebp, %ebp
	xorl	%edi, %ebx
	xorl	%ecx, %ebp
	shldl	$25, %ebp, %ebp
	addl	%eax, %ebx
	movl	-108(%rsp), %eax                ## 4-byte Reload
	movl	%eax, %edi
	shldl	$21, %edi, %edi
	addl	%esi, %ebx
	xorl	%eax, %edi
	shldl	$25, %edi, %edi
	addl	-44(%rsp), %esi                 ## 4-byte Folded Reload
	movl	-116(%rsp), %eax                ## 4-byte Reload
	movl	%eax, %r11d
	shldl	$21, %r11d, %r11d
	xorl	%eax, %r11d
	movl	%eax, %r13d
	shldl	$25, %r11d, %r11d
	shrl	$10, %edx
	movl	-112(%rsp), %r8d                ## 4-byte Reload
	movl	%r8d, %r10d
	shldl	$21, %r10d, %r10d
	xorl	%r9d, %edx
	xorl	%r8d, %r10d
	shldl	$25, %r10d, %r10d
	movl	-92(%rsp), %eax                 ## 4-byte Reload
	movl	%eax, %r9d
	shldl	$21, %r9d, %r9d
	xorl	%eax, %r9d
	shldl	$25, %r9d, %r9d
	shrl	$3, %eax
	xorl	%r9d, %eax
	addl	%r8d, %eax
	movl	%eax, -100(%rsp)                ## 4-byte Spill
	shrl	$3, %r8d
	xorl	%r10d, %r8d
	addl	%r13d, %r8d
	movl	%r8d, -112(%rsp)                ## 4-byte Spill
	shrl	$3, %r13d
	xorl	%r11d, %r13d
	movl	-108(%rsp), %eax                ## 4-byte Reload
	addl	%eax, %r13d
	movl	%r13d, -116(%rsp)               ## 4-byte Spill
	shrl	$3, %eax
	xorl	%edi, %eax
	movl	-88(%rsp), %r11d                ## 4-byte Reload
	addl	%r11d, %eax
	movl	%eax, %r13d
	shrl	$3, %r11d
	xorl	%ebp, %r11d
	movl	-84(%rsp), %eax                 ## 4-byte Reload
	addl	%eax, %r11d
	shrl	$3, %eax
	xorl	%r14d, %eax
	movl	-64(%rsp), %ebp                 ## 4-byte Reload
	addl	-80(%rsp), %ebp                 ## 4-byte Folded Reload
	addl	%eax, %ebp
	addl	%edx, %ebp
	movl	%esi, %eax
	shldl	$18, %eax, %eax
	xorl	%esi, %eax
	shldl	$27, %eax, %eax
	movq	-128(%rsp), %rcx                ## 8-byte Reload
	leaq	ldeerlapse_0_1_0__static.1(%rip), %r8
	movl	92(%rcx,%r8), %r10d
	addl	%ebp, %r10d
	movl	%ebp, %r9d
	addl	%r15d, %r10d
	xorl	%esi, %eax
	shldl	$26, %eax, %eax
	movl	%r12d, %ecx
	movl	-32(%rsp), %edi                 ## 4-byte Reload
	xorl	%edi, %ecx
	andl	%esi, %ecx
	movl	%esi, %ebp
	xorl	%edi, %ecx
	addl	%ecx, %r10d
	movl	%ebx, %ecx
	shldl	$23, %ecx, %ecx
	addl	%eax, %r10d
	xorl	%ebx, %ecx
	shldl	$21, %ecx, %ecx
	xorl	%ebx, %ecx
	shldl	$30, %ecx, %ecx
	movl	%ebx, %r14d
	movl	-120(%rsp), %eax                ## 4-byte Reload
	xorl	%eax, %r14d
	movl	-36(%rsp), %esi                 ## 4-byte Reload
	andl	%r14d, %esi
	xorl	%eax, %esi
	addl	%ecx, %esi
	addl	%r10d, %esi
	movl	-76(%rsp), %ecx                 ## 4-byte Reload
	movl	%ecx, %eax
	shldl	$30, %eax, %eax
	addl	-28(%rsp), %r10d                ## 4-byte Folded Reload
	xorl	%ecx, %eax
	shldl	$15, %eax, %eax
	shrl	$10, %ecx
	xorl	%eax, %ecx
	addl	-68(%rsp), %r11d                ## 4-byte Folded Reload
	addl	%ecx, %r11d
	movl	%r10d, %eax
	shldl	$18, %eax, %eax
	xorl	%r10d, %eax
	shldl	$27, %eax, %eax
	xorl	%r10d, %eax
	shldl	$26, %eax, %eax
	movq	-128(%rsp), %rcx                ## 8-byte Reload
	movq	%r8, %rdx
	movl	96(%rcx,%r8), %ecx
	addl	%r11d, %ecx
	addl	%edi, %ecx
	movl	%ebp, %r8d
	xorl	%r12d, %r8d
	andl	%r10d, %r8d
	xorl	%r12d, %r8d
	movl	%r12d, %r15d
	movl	%r9d, %edi
	movl	%r9d, -64(%rsp)                 ## 4-byte Spill
	shldl	$30, %r9d, %r9d
	addl	%r8d, %ecx
	xorl	%edi, %r9d
	shldl	$15, %r9d, %r9d
	addl	%eax, %ecx
	movl	%edi, %eax
	shrl	$10, %eax
	xorl	%r9d, %eax
	addl	-72(%rsp), %r13d                ## 4-byte Folded Reload
	addl	%eax, %r13d
	movl	%r13d, -88(%rsp)                ## 4-byte Spill
	movq	-128(%rsp), %rax                ## 8-byte Reload
	movl	100(%rax,%rdx), %r12d
	addl	%r13d, %r12d
	addl	%r15d, %r12d
	movl	%esi, %eax
	shldl	$23, %eax, %eax
	xorl	%esi, %eax
	shldl	$21, %eax, %eax
	xorl	%esi, %eax
	shldl	$30, %eax, %eax
	movl	%esi, %r15d
	movl	%esi, %edx
	movl	%ebx, -48(%rsp)                 ## 4-byte Spill
	xorl	%ebx, %r15d
	andl	%r15d, %r14d
	xorl	%ebx, %r14d
	addl	%eax, %r14d
	addl	%ecx, %r14d
	addl	-40(%rsp), %ecx                 ## 4-byte Folded Reload
	movl	-104(%rsp), %r8d                ## 4-byte Reload
	movl	%r8d, %eax
	shldl	$21, %eax, %eax
	xorl	%r8d, %eax
	movl	%ecx, %edi
	shldl	$18, %edi, %edi
	shldl	$25, %eax, %eax
	movl	%r8d, %r9d
	shrl	$3, %r9d
	xorl	%eax, %r9d
	xorl	%ecx, %edi
	shldl	$27, %edi, %edi
	addl	-92(%rsp), %r9d                 ## 4-byte Folded Reload
	movl	%r9d, -92(%rsp)                 ## 4-byte Spill
	xorl	%ecx, %edi
	shldl	$26, %edi, %edi
	movl	%r10d, %eax
	xorl	%ebp, %eax
	andl	%ecx, %eax
	xorl	%ebp, %eax
	addl	%eax, %r12d
	movl	%r11d, -108(%rsp)               ## 4-byte Spill
	movl	%r11d, %eax
	shldl	$30, %eax, %eax
	addl	%edi, %r12d
	xorl	%r11d, %eax
	shldl	$15, %eax, %eax
	shrl	$10, %r11d
	xorl	%eax, %r11d
	movl	-116(%rsp), %eax                ## 4-byte Reload
	addl	-52(%rsp), %eax                 ## 4-byte Folded Reload
	addl	%r11d, %eax
	movl	%eax, %r9d
	movl	%eax, -116(%rsp)                ## 4-byte Spill
	movl	%r14d, %eax
	shldl	$23, %eax, %eax
	xorl	%r14d, %eax
	shldl	$21, %eax, %eax
	xorl	%r14d, %eax
	shldl	$30, %eax, %eax
	movq	-128(%rsp), %rdi                ## 8-byte Reload
	leaq	ldeerlapse_0_1_0__static.1(%rip), %r13
	movl	104(%rdi,%r13), %edi
	addl	%r9d, %edi
	addl	%ebp, %edi
	movl	%r14d, %r9d
	xorl	%esi, %r9d
	andl	%r9d, %r15d
	xorl	%esi, %r15d
	addl	%eax, %r15d
	addl	%r12d, %r15d
	addl	-120(%rsp), %r12d               ## 4-byte Folded Reload
	movl	-96(%rsp), %r11d                ## 4-byte Reload
	movl	%r11d, %eax
	shldl	$21, %eax, %eax
	xorl	%r11d, %eax
	shldl	$25, %eax, %eax
	movl	%r11d, %esi
	movl	%r11d, %ebx
	shrl	$3, %esi
	xorl	%eax, %esi
	movl	%r12d, %eax
	shldl	$18, %eax, %eax
	addl	%r8d, %esi
	movl	%esi, -104(%rsp)                ## 4-byte Spill
	xorl	%r12d, %eax
	shldl	$27, %eax, %eax
	movl	-80(%rsp), %r8d                 ## 4-byte Reload
	movl	%r8d, %r11d
	shldl	$21, %r11d, %r11d
	xorl	%r8d, %r11d
	shldl	$25, %r11d, %r11d
	shrl	$3, %r8d
	xorl	%r11d, %r8d
	xorl	%r12d, %eax
	shldl	$26, %eax, %eax
	addl	%ebx, %r8d
	movl	%r8d, -96(%rsp)                 ## 4-byte Spill
	movl	%ecx, %r11d
	xorl	%r10d, %r11d
	andl	%r12d, %r11d
	xorl	%r10d, %r11d
	movl	%r15d, %ebx
	shldl	$23, %ebx, %ebx
	addl	%r11d, %edi
	xorl	%r15d, %ebx
	shldl	$21, %ebx, %ebx
	addl	%eax, %edi
	xorl	%r15d, %ebx
	shldl	$30, %ebx, %ebx
	movl	%r15d, %r8d
	xorl	%r14d, %r8d
	andl	%r8d, %r9d
	xorl	%r14d, %r9d
	addl	%ebx, %r9d
	movl	-88(%rsp), %r11d                ## 4-byte Reload
	movl	%r11d, %eax
	shldl	$30, %eax, %eax
	addl	%edi, %r9d
	xorl	%r11d, %eax
	shldl	$15, %eax, %eax
	addl	-48(%rsp), %edi                 ## 4-byte Folded Reload
	shrl	$10, %r11d
	xorl	%eax, %r11d
	movl	-112(%rsp), %esi                ## 4-byte Reload
	addl	-56(%rsp), %esi                 ## 4-byte Folded Reload
	addl	%r11d, %esi
	movl	%esi, -112(%rsp)                ## 4-byte Spill
	movq	-128(%rsp), %rax                ## 8-byte Reload
	movl	108(%rax,%r13), %eax
	movq	%r13, %rbx
	addl	%esi, %eax
	addl	%r10d, %eax
	movl	%edi, %r10d
	shldl	$18, %r10d, %r10d
	xorl	%edi, %r10d
	shldl	$27, %r10d, %r10d
	xorl	%edi, %r10d
	shldl	$26, %r10d, %r10d
	movl	%r12d, %r11d
	xorl	%ecx, %r11d
	andl	%edi, %r11d
	movl	%r9d, %r13d
	shldl	$23, %r13d, %r13d
	xorl	%ecx, %r11d
	xorl	%r9d, %r13d
	shldl	$21, %r13d, %r13d
	addl	%r11d, %eax
	xorl	%r9d, %r13d
	shldl	$30, %r13d, %r13d
	addl	%r10d, %eax
	movl	%r9d, %esi
	xorl	%r15d, %esi
	andl	%esi, %r8d
	xorl	%r15d, %r8d
	addl	%r13d, %r8d
	addl	%eax, %r8d
	movl	%r8d, %ebp
	addl	%edx, %eax
	movl	-116(%rsp), %r10d               ## 4-byte Reload
	movl	%r10d, %edx
	shldl	$30, %edx, %edx
	xorl	%r10d, %edx
	shldl	$15, %edx, %edx
	shrl	$10, %r10d
	xorl	%edx, %r10d
	movl	-100(%rsp), %r8d                ## 4-byte Reload
	addl	-60(%rsp), %r8d                 ## 4-byte Folded Reload
	addl	%r10d, %r8d
	movl	%eax, %edx
	shldl	$18, %edx, %edx
	movq	-128(%rsp), %r10                ## 8-byte Reload
	movq	%rbx, %r13
	movl	112(%r10,%rbx), %ebx
	addl	%r8d, %ebx
	addl	%ecx, %ebx
	xorl	%eax, %edx
	shldl	$27, %edx, %edx
	movl	%edi, %ecx
	xorl	%r12d, %ecx
	andl	%eax, %ecx
	xorl	%r12d, %ecx
	addl	%ecx, %ebx
	xorl	%eax, %edx
	shldl	$26, %edx, %edx
	addl	%edx, %ebx
	movl	%ebp, %edx
	movl	%ebp, -84(%rsp)                 ## 4-byte Spill
	movl	%ebp, %ecx
	shldl	$23, %ecx, %ecx
	xorl	%ebp, %ecx
	shldl	$21, %ecx, %ecx
	xorl	%ebp, %ecx
	shldl	$30, %ecx, %ecx
	xorl	%r9d, %edx
	andl	%edx, %esi
	movl	-112(%rsp), %r11d               ## 4-byte Reload
	movl	%r11d, %r10d
	shldl	$30, %r10d, %r10d
	xorl	%r9d, %esi
	xorl	%r11d, %r10d
	shldl	$15, %r10d, %r10d
	addl	%ecx, %esi
	movl	%r11d, %ecx
	shrl	$10, %ecx
	xorl	%r10d, %ecx
	movl	-92(%rsp), %r11d                ## 4-byte Reload
	addl	-76(%rsp), %r11d                ## 4-byte Folded Reload
	addl	%ecx, %r11d
	movq	-128(%rsp), %rcx                ## 8-byte Reload
	movl	116(%rcx,%r13), %ecx
	movq	%r13, %rbp
	addl	%r11d, %ecx
	addl	%r12d, %ecx
	movl	%r8d, -100(%rsp)                ## 4-byte Spill
	movl	%r8d, %r10d
	shldl	$30, %r10d, %r10d
	xorl	%r8d, %r10d
	shldl	$15, %r10d, %r10d
	shrl	$10, %r8d
	xorl	%r10d, %r8d
	movl	-104(%rsp), %r13d               ## 4-byte Reload
	addl	-64(%rsp), %r13d                ## 4-byte Folded Reload
	addl	%r8d, %r13d
	movl	%r13d, -104(%rsp)               ## 4-byte Spill
	movl	%r11d, -92(%rsp)                ## 4-byte Spill
	movl	%r11d, %r10d
	shldl	$30, %r10d, %r10d
	xorl	%r11d, %r10d
	shldl	$15, %r10d, %r10d
	shrl	$10, %r11d
	xorl	%r10d, %r11d
	movl	-96(%rsp), %r8d                 ## 4-byte Reload
	addl	-108(%rsp), %r8d                ## 4-byte Folded Reload
	addl	%r11d, %r8d
	addl	%ebx, %esi
	addl	%r14d, %ebx
	movl	%eax, %r14d
	xorl	%edi, %r14d
	movq	-128(%rsp), %r10                ## 8-byte Reload
	movl	120(%r10,%rbp), %r12d
	addl	%r13d, %r12d
	addl	%edi, %r12d
	andl	%ebx, %r14d
	xorl	%edi, %r14d
	addl	%ecx, %r14d
	movl	%ebx, %ecx
	shldl	$18, %ecx, %ecx
	xorl	%ebx, %ecx
	shldl	$27, %ecx, %ecx
	xorl	%ebx, %ecx
	shldl	$26, %ecx, %ecx
	addl	%ecx, %r14d
	movq	-128(%rsp), %rcx                ## 8-byte Reload
	movl	124(%rcx,%rbp), %edi
	addl	%r8d, %edi
	movl	%esi, %r13d
	shldl	$23, %r13d, %r13d
	xorl	%esi, %r13d
	shldl	$21, %r13d, %r13d
	addl	%r14d, %r15d
	movl	%r15d, %ecx
	shldl	$18, %ecx, %ecx
	addl	%eax, %edi
	movl	%ebx, %r10d
	xorl	%eax, %r10d
	andl	%r15d, %r10d
	xorl	%eax, %r10d
	xorl	%r15d, %ecx
	shldl	$27, %ecx, %ecx
	addl	%r12d, %r10d
	movl	%r15d, %r12d
	xorl	%r15d, %ecx
	shldl	$26, %ecx, %ecx
	addl	%ecx, %r10d
	xorl	%esi, %r13d
	shldl	$30, %r13d, %r13d
	movl	%esi, %ebp
	movl	-84(%rsp), %ecx                 ## 4-byte Reload
	xorl	%ecx, %ebp
	andl	%ebp, %edx
	addl	%r10d, %r9d
	movl	%r9d, %eax
	shldl	$18, %eax, %eax
	xorl	%ecx, %edx
	xorl	%r9d, %eax
	shldl	$27, %eax, %eax
	addl	%r13d, %edx
	xorl	%r9d, %eax
	shldl	$26, %eax, %eax
	addl	%edx, %r14d
	xorl	%ebx, %r15d
	movl	%r9d, -120(%rsp)                ## 4-byte Spill
	andl	%r9d, %r15d
	xorl	%ebx, %r15d
	movl	%r14d, %edx
	shldl	$23, %edx, %edx
	addl	%edi, %r15d
	xorl	%r14d, %edx
	shldl	$21, %edx, %edx
	addl	%eax, %r15d
	xorl	%r14d, %edx
	shldl	$30, %edx, %edx
	movl	%r14d, %eax
	xorl	%esi, %eax
	andl	%eax, %ebp
	xorl	%esi, %ebp
	addl	%edx, %ebp
	addl	%r10d, %ebp
	movq	-128(%rsp), %r10                ## 8-byte Reload
	movl	%ebp, %edx
	xorl	%r14d, %edx
	andl	%eax, %edx
	movl	%ebp, %eax
	shldl	$23, %eax, %eax
	xorl	%ebp, %eax
	shldl	$21, %eax, %eax
	xorl	%ebp, %eax
	shldl	$30, %eax, %eax
	xorl	%r14d, %edx
	addl	%eax, %edx
	addl	%r15d, %edx
	addl	%ecx, %r15d
	movl	-108(%rsp), %eax                ## 4-byte Reload
	movl	%eax, -84(%rsp)                 ## 4-byte Spill
	movl	-88(%rsp), %r9d                 ## 4-byte Reload
	movl	-116(%rsp), %eax                ## 4-byte Reload
	movl	%eax, -108(%rsp)                ## 4-byte Spill
	movl	-112(%rsp), %eax                ## 4-byte Reload
	movl	%eax, -116(%rsp)                ## 4-byte Spill
	movl	-100(%rsp), %eax                ## 4-byte Reload
	movl	%eax, -112(%rsp)                ## 4-byte Spill
	movl	%ebx, %r13d
	addq	$64, %r10
	movl	-104(%rsp), %ecx                ## 4-byte Reload
	movl	%r8d, -96(%rsp)                 ## 4-byte Spill
	cmpq	$192, %r10
	jne	Ldeerlapse_0_1_0_BB5_3
## %bb.4:                               ## %after.8
	movd	%edx, %xmm2
	pinsrd	$1, %ebp, %xmm2
	pinsrd	$2, %r14d, %xmm2
	pinsrd	$3, %esi, %xmm2
	movd	%r15d, %xmm3
	pinsrd	$1, -120(%rsp), %xmm3           ## 4-byte Folded Reload
	pinsrd	$2, %r12d, %xmm3
	pinsrd	$3, %r13d, %xmm3
	paddd	%xmm1, %xmm2
	paddd	%xmm0, %xmm3
	movq	-24(%rsp), %rax                 ## 8-byte Reload
	movdqu	%xmm2, (%rax)
	movdqu	%xmm3, 16(%rax)
	addq	$56, %rsp
	popq	%rbx
	popq	%r12
	popq	%r13
	popq	%r14
	popq	%r15
	popq	%rbp
	retq
	.cfi_endproc
                                        ## -- End function
	.section	__TEXT,__literal16,16byte_literals
	.p2align	4, 0x0                          ## -- Begin function key_derivation::hmac::absorb_xored::<#7cab53feae2e1c66>
Ldeerlapse_0_1_0_CPI6_0:
	.long	1779033703                      ## 0x6a09e667
	.long	3144134277                      ## 0xbb67ae85
	.long	1013904242                      ## 0x3c6ef372
	.long	2773480762                      ## 0xa54ff53a
Ldeerlapse_0_1_0_CPI6_1:
	.long	1359893119                      ## 0x510e527f
	.long	2600822924                      ## 0x9b05688c
	.long	528734635                       ## 0x1f83d9ab
	.long	1541459225                      ## 0x5be0cd19
	.section	__TEXT,__text,regular,pure_instructions
"_deerlapse_0_1_0::key_derivation::hmac::absorb_xored::<#7cab53feae2e1c66>": ## @"key_derivation::hmac::absorb_xored::<#7cab53feae2e1c66>"
	.cfi_startproc
## %bb.0:                               ## %start
	pushq	%r14
	.cfi_def_cfa_offset 16
	pushq	%rbx
	.cfi_def_cfa_offset 24
	subq	$232, %rsp
	.cfi_def_cfa_offset 256
	.cfi_offset %rbx, -24
	.cfi_offset %r14, -16
	movq	%rdi, %rbx
	pxor	%xmm1, %xmm1
	movdqa	%xmm1, 112(%rsp)
	movdqa	%xmm1, 96(%rsp)
	movdqa	%xmm1, 80(%rsp)
	movdqa	%xmm1, 64(%rsp)
	movdqa	%xmm1, 48(%rsp)
	movdqa	%xmm1, 32(%rsp)
	movdqa	%xmm1, 16(%rsp)
	movdqa	%xmm1, (%rsp)
	movd	%edx, %xmm0
	pshufb	%xmm1, %xmm0
	xorl	%eax, %eax
Ldeerlapse_0_1_0_BB6_1:                                 ## %vector.body
                                        ## =>This Inner Loop Header: Depth=1
	movdqu	(%rsi,%rax), %xmm1
	pxor	%xmm0, %xmm1
	movdqu	%xmm1, (%rsp,%rax)
	addq	$16, %rax
	cmpq	$64, %rax
	jne	Ldeerlapse_0_1_0_BB6_1
## %bb.2:                               ## %after.1
	movaps	Ldeerlapse_0_1_0_CPI6_0(%rip), %xmm0            ## xmm0 = [1779033703,3144134277,1013904242,2773480762]
	leaq	128(%rsp), %r14
	movaps	%xmm0, (%r14)
	movaps	Ldeerlapse_0_1_0_CPI6_1(%rip), %xmm0            ## xmm0 = [1359893119,2600822924,528734635,1541459225]
	movaps	%xmm0, 16(%r14)
	xorps	%xmm0, %xmm0
	movaps	%xmm0, 32(%r14)
	movaps	%xmm0, 48(%r14)
	movaps	%xmm0, 64(%r14)
	movaps	%xmm0, 80(%r14)
	movq	$0, 96(%r14)
	movq	%rsp, %rsi
	movl	$64, %edx
	movq	%r14, %rdi
	callq	"_deerlapse_0_1_0::sha2::block256::Core256::update"
	movq	96(%r14), %rax
	movq	%rax, 96(%rbx)
	movaps	80(%r14), %xmm0
	movups	%xmm0, 80(%rbx)
	movaps	64(%r14), %xmm0
	movups	%xmm0, 64(%rbx)
	movaps	(%r14), %xmm0
	movaps	16(%r14), %xmm1
	movaps	32(%r14), %xmm2
	movaps	48(%r14), %xmm3
	movups	%xmm3, 48(%rbx)
	movups	%xmm2, 32(%rbx)
	movups	%xmm1, 16(%rbx)
	movups	%xmm0, (%rbx)
	addq	$232, %rsp
	popq	%rbx
	popq	%r14
	retq
	.cfi_endproc
                                        ## -- End function
"_deerlapse_0_1_0::key_derivation::hmac::HmacKey::finish::<#7cab53feae2e1c66>": ## -- Begin function key_derivation::hmac::HmacKey::finish::<#7cab53feae2e1c66>
                                        ## @"key_derivation::hmac::HmacKey::finish::<#7cab53feae2e1c66>"
	.cfi_startproc
## %bb.0:                               ## %start
	pushq	%r15
	.cfi_def_cfa_offset 16
	pushq	%r14
	.cfi_def_cfa_offset 24
	pushq	%r12
	.cfi_def_cfa_offset 32
	pushq	%rbx
	.cfi_def_cfa_offset 40
	subq	$488, %rsp                      ## imm = 0x1E8
	.cfi_def_cfa_offset 528
	.cfi_offset %rbx, -40
	.cfi_offset %r12, -32
	.cfi_offset %r14, -24
	.cfi_offset %r15, -16
	movq	%rdi, %rbx
	xorps	%xmm0, %xmm0
	leaq	240(%rsp), %r14
	movaps	%xmm0, 16(%r14)
	movaps	%xmm0, (%r14)
	leaq	208(%rsp), %r15
	movaps	%xmm0, (%r15)
	movaps	%xmm0, 16(%r15)
	movups	104(%rsi), %xmm0
	movups	120(%rsi), %xmm1
	movaps	%xmm1, 16(%rsp)
	movaps	%xmm0, (%rsp)
	movups	136(%rsi), %xmm2
	movups	152(%rsi), %xmm3
	movups	168(%rsi), %xmm4
	movups	184(%rsi), %xmm5
	movaps	%xmm2, 32(%rsp)
	movaps	%xmm3, 48(%rsp)
	movaps	%xmm4, 64(%rsp)
	movaps	%xmm5, 80(%rsp)
	movq	200(%rsi), %rax
	movups	%xmm1, 128(%rsp)
	movups	%xmm2, 144(%rsp)
	movups	%xmm3, 160(%rsp)
	movups	%xmm4, 176(%rsp)
	movups	%xmm5, 192(%rsp)
	movups	%xmm0, 112(%rsp)
	movups	192(%rsp), %xmm0
	movups	%xmm0, 87(%rsp)
	movups	176(%rsp), %xmm0
	movups	%xmm0, 71(%rsp)
	movups	112(%rsp), %xmm0
	movups	128(%rsp), %xmm1
	movups	144(%rsp), %xmm2
	movups	160(%rsp), %xmm3
	movups	%xmm3, 55(%rsp)
	movups	%xmm2, 39(%rsp)
	movups	%xmm1, 23(%rsp)
	movups	%xmm0, 7(%rsp)
	movups	87(%rsp), %xmm0
	leaq	384(%rsp), %r12
	movaps	%xmm0, 80(%r12)
	movups	71(%rsp), %xmm0
	movaps	%xmm0, 64(%r12)
	movups	7(%rsp), %xmm0
	movups	23(%rsp), %xmm1
	movups	39(%rsp), %xmm2
	movups	55(%rsp), %xmm3
	movaps	%xmm3, 48(%r12)
	movaps	%xmm2, 32(%r12)
	movaps	%xmm1, 16(%r12)
	movaps	%xmm0, (%r12)
	movq	%rax, 96(%r12)
	movq	96(%rdx), %rax
	leaq	272(%rsp), %rsi
	movq	%rax, 96(%rsi)
	movups	80(%rdx), %xmm0
	movaps	%xmm0, 80(%rsi)
	movups	64(%rdx), %xmm0
	movaps	%xmm0, 64(%rsi)
	movups	(%rdx), %xmm0
	movups	16(%rdx), %xmm1
	movups	32(%rdx), %xmm2
	movups	48(%rdx), %xmm3
	movaps	%xmm3, 48(%rsi)
	movaps	%xmm2, 32(%rsi)
	movaps	%xmm1, 16(%rsi)
	movaps	%xmm0, (%rsi)
	movq	%r15, %rdi
	callq	"_deerlapse_0_1_0::sha2::Sha256Digest::finalize"
	movl	$32, %edx
	movq	%r12, %rdi
	movq	%r15, %rsi
	callq	"_deerlapse_0_1_0::sha2::block256::Core256::update"
	movq	%r14, %rdi
	movq	%r12, %rsi
	callq	"_deerlapse_0_1_0::sha2::Sha256Digest::finalize"
	movaps	(%r14), %xmm0
	movaps	16(%r14), %xmm1
	movups	%xmm1, 16(%rbx)
	movups	%xmm0, (%rbx)
	addq	$488, %rsp                      ## imm = 0x1E8
	popq	%rbx
	popq	%r12
	popq	%r14
	popq	%r15
	retq
	.cfi_endproc
                                        ## -- End function
"_deerlapse_0_1_0::key_derivation::hmac::HmacKey::new::<#01e4f4eb65b1d8bb>": ## -- Begin function key_derivation::hmac::HmacKey::new::<#01e4f4eb65b1d8bb>
                                        ## @"key_derivation::hmac::HmacKey::new::<#01e4f4eb65b1d8bb>"
	.cfi_startproc
## %bb.0:                               ## %start
	pushq	%r15
	.cfi_def_cfa_offset 16
	pushq	%r14
	.cfi_def_cfa_offset 24
	pushq	%r13
	.cfi_def_cfa_offset 32
	pushq	%r12
	.cfi_def_cfa_offset 40
	pushq	%rbx
	.cfi_def_cfa_offset 48
	subq	$1344, %rsp                     ## imm = 0x540
	.cfi_def_cfa_offset 1392
	.cfi_offset %rbx, -48
	.cfi_offset %r12, -40
	.cfi_offset %r13, -32
	.cfi_offset %r14, -24
	.cfi_offset %r15, -16
	movq	%rdx, %r14
	movq	%rsi, %r15
	movq	%rdi, %rbx
	leaq	720(%rsp), %rdi
	movl	$416, %esi                      ## imm = 0x1A0
	callq	___bzero
	xorps	%xmm0, %xmm0
	movaps	%xmm0, 240(%rsp)
	movaps	%xmm0, 224(%rsp)
	movaps	%xmm0, 208(%rsp)
	movaps	%xmm0, 192(%rsp)
	movaps	%xmm0, 176(%rsp)
	movaps	%xmm0, 160(%rsp)
	movaps	%xmm0, 144(%rsp)
	movaps	%xmm0, 128(%rsp)
	movaps	%xmm0, 464(%rsp)
	movaps	%xmm0, 480(%rsp)
	movaps	%xmm0, 496(%rsp)
	movaps	%xmm0, 512(%rsp)
	movaps	%xmm0, 528(%rsp)
	movaps	%xmm0, 544(%rsp)
	movaps	%xmm0, 560(%rsp)
	movaps	%xmm0, 576(%rsp)
	movaps	%xmm0, 592(%rsp)
	movaps	%xmm0, 608(%rsp)
	movaps	%xmm0, 624(%rsp)
	movaps	%xmm0, 640(%rsp)
	movaps	%xmm0, 656(%rsp)
	movaps	%xmm0, 448(%rsp)
	movaps	%xmm0, 432(%rsp)
	movaps	%xmm0, 416(%rsp)
	movaps	%xmm0, 400(%rsp)
	movaps	%xmm0, 384(%rsp)
	movaps	%xmm0, 368(%rsp)
	movaps	%xmm0, 352(%rsp)
	movaps	%xmm0, 336(%rsp)
	movaps	%xmm0, 320(%rsp)
	movaps	%xmm0, 304(%rsp)
	movaps	%xmm0, 288(%rsp)
	movaps	%xmm0, 272(%rsp)
	movaps	%xmm0, 256(%rsp)
	movaps	%xmm0, 112(%rsp)
	movaps	%xmm0, 96(%rsp)
	movaps	%xmm0, 80(%rsp)
	movaps	%xmm0, 64(%rsp)
	movaps	%xmm0, 48(%rsp)
	movaps	%xmm0, 32(%rsp)
	movaps	%xmm0, 16(%rsp)
	movaps	%xmm0, (%rsp)
	cmpq	$129, %r14
	jb	Ldeerlapse_0_1_0_BB8_2
## %bb.1:                               ## %then.1.i
	leaq	672(%rsp), %r12
	movaps	%xmm0, (%r12)
	movaps	%xmm0, 16(%r12)
	movaps	%xmm0, 32(%r12)
	leaq	1136(%rsp), %r13
	movaps	%xmm0, 64(%r13)
	movaps	%xmm0, 80(%r13)
	movaps	%xmm0, 96(%r13)
	movaps	%xmm0, 112(%r13)
	movaps	%xmm0, 128(%r13)
	movaps	%xmm0, 144(%r13)
	movaps	%xmm0, 160(%r13)
	movaps	%xmm0, 176(%r13)
	movaps	%xmm0, 192(%r13)
	movabsq	$-3766243637369397544, %rax     ## imm = 0xCBBB9D5DC1059ED8
	movq	%rax, (%r13)
	movabsq	$7105036623409894663, %rax      ## imm = 0x629A292A367CD507
	movq	%rax, 8(%r13)
	movabsq	$-7973340178411365097, %rax     ## imm = 0x9159015A3070DD17
	movq	%rax, 16(%r13)
	movabsq	$1526699215303891257, %rax      ## imm = 0x152FECD8F70E5939
	movq	%rax, 24(%r13)
	movabsq	$7436329637833083697, %rax      ## imm = 0x67332667FFC00B31
	movq	%rax, 32(%r13)
	movabsq	$-8163818279084223215, %rax     ## imm = 0x8EB44A8768581511
	movq	%rax, 40(%r13)
	movabsq	$-2662702644619276377, %rax     ## imm = 0xDB0C2E0D64F98FA7
	movq	%rax, 48(%r13)
	movabsq	$5167115440072839076, %rax      ## imm = 0x47B5481DBEFA4FA4
	movq	%rax, 56(%r13)
	movq	%r13, %rdi
	movq	%r15, %rsi
	movq	%r14, %rdx
	callq	"_deerlapse_0_1_0::sha2::block512::Core512::update"
	movq	%r12, %rdi
	movq	%r13, %rsi
	callq	"_deerlapse_0_1_0::sha2::Sha384Digest::finalize"
	movaps	(%r12), %xmm0
	movaps	16(%r12), %xmm1
	movaps	32(%r12), %xmm2
	movaps	%xmm0, (%rsp)
	movaps	%xmm1, 16(%rsp)
	movaps	%xmm2, 32(%rsp)
	jmp	Ldeerlapse_0_1_0_BB8_3
Ldeerlapse_0_1_0_BB8_2:                                 ## %else.2.i
	movq	%rsp, %rdi
	movq	%r15, %rsi
	movq	%r14, %rdx
	callq	_memcpy
Ldeerlapse_0_1_0_BB8_3:                                 ## %"key_derivation::hmac::key_block::<#01e4f4eb65b1d8bb>.exit"
	movaps	112(%rsp), %xmm0
	leaq	128(%rsp), %r14
	movaps	%xmm0, 112(%r14)
	movaps	96(%rsp), %xmm0
	movaps	%xmm0, 96(%r14)
	movaps	80(%rsp), %xmm0
	movaps	%xmm0, 80(%r14)
	movaps	64(%rsp), %xmm0
	movaps	%xmm0, 64(%r14)
	movaps	(%rsp), %xmm0
	movaps	16(%rsp), %xmm1
	movaps	32(%rsp), %xmm2
	movaps	48(%rsp), %xmm3
	movaps	%xmm3, 48(%r14)
	movaps	%xmm2, 32(%r14)
	movaps	%xmm1, 16(%r14)
	movaps	%xmm0, (%r14)
	leaq	464(%rsp), %r15
	movq	%r15, %rdi
	movq	%r14, %rsi
	movl	$54, %edx
	callq	"_deerlapse_0_1_0::key_derivation::hmac::absorb_xored::<#01e4f4eb65b1d8bb>"
	leaq	256(%rsp), %r12
	movq	%r12, %rdi
	movq	%r14, %rsi
	movl	$92, %edx
	callq	"_deerlapse_0_1_0::key_derivation::hmac::absorb_xored::<#01e4f4eb65b1d8bb>"
	leaq	720(%rsp), %r14
	movl	$208, %edx
	movq	%r14, %rdi
	movq	%r15, %rsi
	callq	_memcpy
	leaq	928(%rsp), %rdi
	movl	$208, %edx
	movq	%r12, %rsi
	callq	_memcpy
	movl	$416, %edx                      ## imm = 0x1A0
	movq	%rbx, %rdi
	movq	%r14, %rsi
	callq	_memcpy
	addq	$1344, %rsp                     ## imm = 0x540
	popq	%rbx
	popq	%r12
	popq	%r13
	popq	%r14
	popq	%r15
	retq
	.cfi_endproc
                                        ## -- End function
	.section	__TEXT,__literal16,16byte_literals
	.p2align	4, 0x0                          ## -- Begin function sha2::Sha384Digest::finalize
Ldeerlapse_0_1_0_CPI9_0:
	.byte	7                               ## 0x7
	.byte	6                               ## 0x6
	.byte	5                               ## 0x5
	.byte	4                               ## 0x4
	.byte	3                               ## 0x3
	.byte	2                               ## 0x2
	.byte	1                               ## 0x1
	.byte	0                               ## 0x0
	.byte	15                              ## 0xf
	.byte	14                              ## 0xe
	.byte	13                              ## 0xd
	.byte	12                              ## 0xc
	.byte	11                              ## 0xb
	.byte	10                              ## 0xa
	.byte	9                               ## 0x9
	.byte	8                               ## 0x8
	.section	__TEXT,__text,regular,pure_instructions
"_deerlapse_0_1_0::sha2::Sha384Digest::finalize":        ## @"sha2::Sha384Digest::finalize"
	.cfi_startproc
## %bb.0:                               ## %start
	pushq	%r15
	.cfi_def_cfa_offset 16
	pushq	%r14
	.cfi_def_cfa_offset 24
	pushq	%r12
	.cfi_def_cfa_offset 32
	pushq	%rbx
	.cfi_def_cfa_offset 40
	subq	$424, %rsp                      ## imm = 0x1A8
	.cfi_def_cfa_offset 464
	.cfi_offset %rbx, -40
	.cfi_offset %r12, -32
	.cfi_offset %r14, -24
	.cfi_offset %r15, -16
	movq	%rdi, %rbx
	xorps	%xmm0, %xmm0
	movaps	%xmm0, 112(%rsp)
	movaps	%xmm0, 96(%rsp)
	movaps	%xmm0, 80(%rsp)
	movaps	%xmm0, 64(%rsp)
	leaq	208(%rsp), %r14
	movl	$208, %edx
	movq	%r14, %rdi
	callq	_memcpy
	movq	192(%r14), %r12
	movq	200(%r14), %r15
	movl	$111, %edx
	subl	%r12d, %edx
	andl	$127, %edx
	incq	%rdx
	leaq	ldeerlapse_0_1_0__static.2(%rip), %rsi
	movq	%r14, %rdi
	callq	"_deerlapse_0_1_0::sha2::block512::Core512::update"
	leaq	(,%r12,8), %rcx
	movq	%r15, %rdx
	shldq	$3, %r12, %rdx
	movq	%rdx, %rax
	movq	%rdx, %rsi
	movq	%rdx, %r9
	movq	%rdx, %xmm0
	movq	%rdx, %r10
	shldq	$8, %rcx, %r10
	shldq	$16, %rcx, %rax
	leaq	(,%r15,8), %r8
	movq	%r8, %rdx
	shrq	$56, %rdx
	movq	%r8, %rdi
	shrq	$48, %rdi
	shrq	$40, %r8
	movq	%r12, %r11
	shrq	$37, %r11
	shldq	$40, %rcx, %rsi
	shldq	$48, %rcx, %r9
	movq	%r9, %xmm1
	movq	%rsi, %xmm2
	punpcklbw	%xmm1, %xmm2            ## xmm2 = xmm2[0],xmm1[0],xmm2[1],xmm1[1],xmm2[2],xmm1[2],xmm2[3],xmm1[3],xmm2[4],xmm1[4],xmm2[5],xmm1[5],xmm2[6],xmm1[6],xmm2[7],xmm1[7]
	pshufd	$0, %xmm2, %xmm1                ## xmm1 = xmm2[0,0,0,0]
	movq	%rcx, %xmm2
	movd	%r12d, %xmm3
	psrld	$5, %xmm3
	punpcklbw	%xmm2, %xmm3            ## xmm3 = xmm3[0],xmm2[0],xmm3[1],xmm2[1],xmm3[2],xmm2[2],xmm3[3],xmm2[3],xmm3[4],xmm2[4],xmm3[5],xmm2[5],xmm3[6],xmm2[6],xmm3[7],xmm2[7]
	pslldq	$14, %xmm3                      ## xmm3 = zero,zero,zero,zero,zero,zero,zero,zero,zero,zero,zero,zero,zero,zero,xmm3[0,1]
	pblendw	$127, %xmm1, %xmm3              ## xmm3 = xmm1[0,1,2,3,4,5,6],xmm3[7]
	movq	%rax, %xmm1
	movq	%r10, %xmm2
	punpcklbw	%xmm1, %xmm2            ## xmm2 = xmm2[0],xmm1[0],xmm2[1],xmm1[1],xmm2[2],xmm1[2],xmm2[3],xmm1[3],xmm2[4],xmm1[4],xmm2[5],xmm1[5],xmm2[6],xmm1[6],xmm2[7],xmm1[7]
	pshufd	$68, %xmm2, %xmm2               ## xmm2 = xmm2[0,1,0,1]
	movq	%r12, %xmm4
	psrlq	$29, %xmm4
	movd	%r11d, %xmm1
	punpcklbw	%xmm4, %xmm1            ## xmm1 = xmm1[0],xmm4[0],xmm1[1],xmm4[1],xmm1[2],xmm4[2],xmm1[3],xmm4[3],xmm1[4],xmm4[4],xmm1[5],xmm4[5],xmm1[6],xmm4[6],xmm1[7],xmm4[7]
	pslldq	$10, %xmm1                      ## xmm1 = zero,zero,zero,zero,zero,zero,zero,zero,zero,zero,xmm1[0,1,2,3,4,5]
	pblendw	$223, %xmm2, %xmm1              ## xmm1 = xmm2[0,1,2,3,4],xmm1[5],xmm2[6,7]
	pblendw	$192, %xmm3, %xmm1              ## xmm1 = xmm1[0,1,2,3,4,5],xmm3[6,7]
	movq	%r15, %xmm2
	movdqa	%xmm2, %xmm3
	psrlq	$5, %xmm3
	punpcklbw	%xmm0, %xmm3            ## xmm3 = xmm3[0],xmm0[0],xmm3[1],xmm0[1],xmm3[2],xmm0[2],xmm3[3],xmm0[3],xmm3[4],xmm0[4],xmm3[5],xmm0[5],xmm3[6],xmm0[6],xmm3[7],xmm0[7]
	psllq	$48, %xmm3
	movdqa	%xmm2, %xmm0
	psrlq	$13, %xmm0
	movdqa	%xmm2, %xmm4
	psrlq	$21, %xmm4
	punpcklbw	%xmm0, %xmm4            ## xmm4 = xmm4[0],xmm0[0],xmm4[1],xmm0[1],xmm4[2],xmm0[2],xmm4[3],xmm0[3],xmm4[4],xmm0[4],xmm4[5],xmm0[5],xmm4[6],xmm0[6],xmm4[7],xmm0[7]
	pshufd	$80, %xmm4, %xmm0               ## xmm0 = xmm4[0,0,1,1]
	pblendw	$8, %xmm3, %xmm0                ## xmm0 = xmm0[0,1,2],xmm3[3],xmm0[4,5,6,7]
	psrlq	$29, %xmm2
	movd	%r8d, %xmm3
	punpcklbw	%xmm2, %xmm3            ## xmm3 = xmm3[0],xmm2[0],xmm3[1],xmm2[1],xmm3[2],xmm2[2],xmm3[3],xmm2[3],xmm3[4],xmm2[4],xmm3[5],xmm2[5],xmm3[6],xmm2[6],xmm3[7],xmm2[7]
	movd	%edi, %xmm2
	movd	%edx, %xmm4
	punpcklbw	%xmm2, %xmm4            ## xmm4 = xmm4[0],xmm2[0],xmm4[1],xmm2[1],xmm4[2],xmm2[2],xmm4[3],xmm2[3],xmm4[4],xmm2[4],xmm4[5],xmm2[5],xmm4[6],xmm2[6],xmm4[7],xmm2[7]
	punpcklwd	%xmm3, %xmm4            ## xmm4 = xmm4[0],xmm3[0],xmm4[1],xmm3[1],xmm4[2],xmm3[2],xmm4[3],xmm3[3]
	pblendw	$12, %xmm0, %xmm4               ## xmm4 = xmm4[0,1],xmm0[2,3],xmm4[4,5,6,7]
	pblendw	$240, %xmm1, %xmm4              ## xmm4 = xmm4[0,1,2,3],xmm1[4,5,6,7]
	leaq	192(%rsp), %rsi
	movdqa	%xmm4, (%rsi)
	movl	$16, %edx
	movq	%r14, %rdi
	callq	"_deerlapse_0_1_0::sha2::block512::Core512::update"
	movdqa	(%r14), %xmm0
	movaps	16(%r14), %xmm1
	movaps	32(%r14), %xmm2
	movaps	48(%r14), %xmm3
	movaps	%xmm3, 176(%rsp)
	movaps	%xmm2, 160(%rsp)
	movaps	%xmm1, 144(%rsp)
	movdqa	%xmm0, 128(%rsp)
	pxor	%xmm0, %xmm0
	movdqa	%xmm0, (%rsp)
	movdqa	%xmm0, 16(%rsp)
	movdqa	%xmm0, 32(%rsp)
	movdqa	%xmm0, 48(%rsp)
	xorl	%eax, %eax
Ldeerlapse_0_1_0_BB9_1:                                 ## %vector.body
                                        ## =>This Inner Loop Header: Depth=1
	movdqu	128(%rsp,%rax,8), %xmm0
	pshufb	Ldeerlapse_0_1_0_CPI9_0(%rip), %xmm0            ## xmm0 = xmm0[7,6,5,4,3,2,1,0,15,14,13,12,11,10,9,8]
	movdqu	%xmm0, (%rsp,%rax,8)
	addq	$2, %rax
	cmpq	$8, %rax
	jne	Ldeerlapse_0_1_0_BB9_1
## %bb.2:                               ## %"sha2::block512::Core512::finalize.exit"
	movaps	(%rsp), %xmm0
	movaps	16(%rsp), %xmm1
	movaps	32(%rsp), %xmm2
	movaps	48(%rsp), %xmm3
	movaps	%xmm3, 112(%rsp)
	movaps	%xmm2, 96(%rsp)
	movaps	%xmm1, 80(%rsp)
	movaps	%xmm0, 64(%rsp)
	movups	%xmm2, 32(%rbx)
	movups	%xmm1, 16(%rbx)
	movups	%xmm0, (%rbx)
	addq	$424, %rsp                      ## imm = 0x1A8
	popq	%rbx
	popq	%r12
	popq	%r14
	popq	%r15
	retq
	.cfi_endproc
                                        ## -- End function
"_deerlapse_0_1_0::sha2::block512::Core512::update":     ## -- Begin function sha2::block512::Core512::update
                                        ## @"sha2::block512::Core512::update"
	.cfi_startproc
## %bb.0:                               ## %start
	pushq	%rbp
	.cfi_def_cfa_offset 16
	pushq	%r15
	.cfi_def_cfa_offset 24
	pushq	%r14
	.cfi_def_cfa_offset 32
	pushq	%r13
	.cfi_def_cfa_offset 40
	pushq	%r12
	.cfi_def_cfa_offset 48
	pushq	%rbx
	.cfi_def_cfa_offset 56
	pushq	%rax
	.cfi_def_cfa_offset 64
	.cfi_offset %rbx, -56
	.cfi_offset %r12, -48
	.cfi_offset %r13, -40
	.cfi_offset %r14, -32
	.cfi_offset %r15, -24
	.cfi_offset %rbp, -16
	movq	%rdx, %rbx
	movq	%rdi, %r15
	movq	192(%rdi), %rax
	movq	%rax, %rcx
	addq	%rdx, %rcx
	adcq	$0, 200(%rdi)
	movq	%rsi, %r14
	movq	%rcx, 192(%rdi)
	andq	$127, %rax
	je	Ldeerlapse_0_1_0_BB10_1
## %bb.6:                               ## %then.1
	movl	$128, %ebp
	subq	%rax, %rbp
	leaq	(%r15,%rax), %rdi
	addq	$64, %rdi
	movq	%rdi, %rax
	subq	%r14, %rax
	cmpq	%rbp, %rbx
	jae	Ldeerlapse_0_1_0_BB10_7
## %bb.2:                               ## %then.4
	cmpq	%rbx, %rax
	jae	Ldeerlapse_0_1_0_BB10_18
## %bb.3:                               ## %join.7.i.i.i.i.i.i.preheader
	xorl	%eax, %eax
Ldeerlapse_0_1_0_BB10_4:                                ## %join.7.i.i.i.i.i.i
                                        ## =>This Inner Loop Header: Depth=1
	movb	(%r14,%rax), %cl
	movb	%cl, (%rdi,%rax)
	incq	%rax
	cmpq	%rax, %rbx
	jne	Ldeerlapse_0_1_0_BB10_4
	jmp	Ldeerlapse_0_1_0_BB10_5
Ldeerlapse_0_1_0_BB10_1:
	xorl	%ebp, %ebp
	jmp	Ldeerlapse_0_1_0_BB10_11
Ldeerlapse_0_1_0_BB10_7:                                ## %join.6
	leaq	64(%r15), %r13
	cmpq	%rbp, %rax
	jae	Ldeerlapse_0_1_0_BB10_19
## %bb.8:                               ## %join.7.i.i.i.i.i.i37.preheader
	xorl	%eax, %eax
Ldeerlapse_0_1_0_BB10_9:                                ## %join.7.i.i.i.i.i.i37
                                        ## =>This Inner Loop Header: Depth=1
	movb	(%r14,%rax), %cl
	movb	%cl, (%rdi,%rax)
	incq	%rax
	cmpq	%rax, %rbp
	jne	Ldeerlapse_0_1_0_BB10_9
	jmp	Ldeerlapse_0_1_0_BB10_10
Ldeerlapse_0_1_0_BB10_19:                               ## %apart.2.i.i.i.i.i.i36
	movq	%r14, %rsi
	movq	%rbp, %rdx
	callq	_memmove
Ldeerlapse_0_1_0_BB10_10:                               ## %"core::slice::edits::slice+T::copy_from_slice::<i8,20'core::clone::U8Clone{}>.exit44"
	movq	%r15, %rdi
	movq	%r13, %rsi
	callq	"_deerlapse_0_1_0::sha2::block512::compress"
Ldeerlapse_0_1_0_BB10_11:                               ## %join.3
	movq	%rbx, %r12
	movq	%rbp, (%rsp)                    ## 8-byte Spill
	subq	%rbp, %r12
	movq	%r12, %rbp
	shrq	$7, %rbp
	je	Ldeerlapse_0_1_0_BB10_14
## %bb.12:                              ## %join.11.lr.ph
	movq	(%rsp), %rax                    ## 8-byte Reload
	leaq	(%r14,%rax), %r13
Ldeerlapse_0_1_0_BB10_13:                               ## %join.11
                                        ## =>This Inner Loop Header: Depth=1
	movq	%r15, %rdi
	movq	%r13, %rsi
	callq	"_deerlapse_0_1_0::sha2::block512::compress"
	subq	$-128, %r13
	decq	%rbp
	jne	Ldeerlapse_0_1_0_BB10_13
Ldeerlapse_0_1_0_BB10_14:                               ## %after.7
	andq	$-128, %r12
	addq	(%rsp), %r12                    ## 8-byte Folded Reload
	addq	%r12, %r14
	subq	%r12, %rbx
	addq	$64, %r15
	movq	%r15, %rax
	subq	%r14, %rax
	cmpq	%rbx, %rax
	jae	Ldeerlapse_0_1_0_BB10_17
## %bb.15:                              ## %join.7.i.i.i.i.i.i50.preheader
	xorl	%eax, %eax
Ldeerlapse_0_1_0_BB10_16:                               ## %join.7.i.i.i.i.i.i50
                                        ## =>This Inner Loop Header: Depth=1
	movb	(%r14,%rax), %cl
	movb	%cl, (%r15,%rax)
	incq	%rax
	cmpq	%rax, %rbx
	jne	Ldeerlapse_0_1_0_BB10_16
Ldeerlapse_0_1_0_BB10_5:                                ## %common.ret
	addq	$8, %rsp
	popq	%rbx
	popq	%r12
	popq	%r13
	popq	%r14
	popq	%r15
	popq	%rbp
	retq
Ldeerlapse_0_1_0_BB10_17:                               ## %apart.2.i.i.i.i.i.i49
	movq	%r15, %rdi
Ldeerlapse_0_1_0_BB10_18:                               ## %apart.2.i.i.i.i.i.i
	movq	%r14, %rsi
	movq	%rbx, %rdx
	addq	$8, %rsp
	popq	%rbx
	popq	%r12
	popq	%r13
	popq	%r14
	popq	%r15
	popq	%rbp
	jmp	_memmove                        ## TAILCALL
	.cfi_endproc
                                        ## -- End function
	.section	__TEXT,__literal16,16byte_literals
	.p2align	4, 0x0                          ## -- Begin function sha2::block512::compress
Ldeerlapse_0_1_0_CPI11_0:
	.byte	7                               ## 0x7
	.byte	6                               ## 0x6
	.byte	5                               ## 0x5
	.byte	4                               ## 0x4
	.byte	3                               ## 0x3
	.byte	2                               ## 0x2
	.byte	1                               ## 0x1
	.byte	0                               ## 0x0
	.byte	15                              ## 0xf
	.byte	14                              ## 0xe
	.byte	13                              ## 0xd
	.byte	12                              ## 0xc
	.byte	11                              ## 0xb
	.byte	10                              ## 0xa
	.byte	9                               ## 0x9
	.byte	8                               ## 0x8
	.section	__TEXT,__text,regular,pure_instructions
"_deerlapse_0_1_0::sha2::block512::compress":            ## @"sha2::block512::compress"
	.cfi_startproc
## %bb.0:                               ## %start
	pushq	%rbp
	.cfi_def_cfa_offset 16
	pushq	%r15
	.cfi_def_cfa_offset 24
	pushq	%r14
	.cfi_def_cfa_offset 32
	pushq	%r13
	.cfi_def_cfa_offset 40
	pushq	%r12
	.cfi_def_cfa_offset 48
	pushq	%rbx
	.cfi_def_cfa_offset 56
	subq	$264, %rsp                      ## imm = 0x108
	.cfi_def_cfa_offset 320
	.cfi_offset %rbx, -56
	.cfi_offset %r12, -48
	.cfi_offset %r13, -40
	.cfi_offset %r14, -32
	.cfi_offset %r15, -24
	.cfi_offset %rbp, -16
	pxor	%xmm0, %xmm0
	movdqa	%xmm0, 240(%rsp)
	movdqa	%xmm0, 224(%rsp)
	movdqa	%xmm0, 208(%rsp)
	movdqa	%xmm0, 192(%rsp)
	movdqa	%xmm0, 176(%rsp)
	movdqa	%xmm0, 160(%rsp)
	movdqa	%xmm0, 144(%rsp)
	movdqa	%xmm0, 128(%rsp)
	xorl	%eax, %eax
Ldeerlapse_0_1_0_BB11_1:                                ## %vector.body
                                        ## =>This Inner Loop Header: Depth=1
	movdqu	(%rsi,%rax,8), %xmm0
	pshufb	Ldeerlapse_0_1_0_CPI11_0(%rip), %xmm0           ## xmm0 = xmm0[7,6,5,4,3,2,1,0,15,14,13,12,11,10,9,8]
	movdqu	%xmm0, 128(%rsp,%rax,8)
	addq	$2, %rax
	cmpq	$16, %rax
	jne	Ldeerlapse_0_1_0_BB11_1
## %bb.2:                               ## %after.3
	movq	(%rdi), %r13
	movq	8(%rdi), %r12
	movq	16(%rdi), %r14
	movq	24(%rdi), %rbx
	movq	32(%rdi), %r11
	movq	40(%rdi), %r10
	movq	48(%rdi), %r9
	movq	%rdi, 88(%rsp)                  ## 8-byte Spill
	movq	56(%rdi), %rax
	movq	%r11, %rcx
	shldq	$41, %rcx, %rcx
	xorq	%r11, %rcx
	shldq	$60, %rcx, %rcx
	xorq	%r11, %rcx
	shldq	$50, %rcx, %rcx
	movq	%r9, %rdx
	xorq	%r10, %rdx
	andq	%r11, %rdx
	xorq	%r9, %rdx
	movq	128(%rsp), %rsi
	movq	136(%rsp), %rdi
	movq	%rax, 80(%rsp)                  ## 8-byte Spill
	movq	%rsi, -32(%rsp)                 ## 8-byte Spill
	addq	%rsi, %rax
	addq	%rax, %rdx
	movabsq	$4794697086780616226, %rax      ## imm = 0x428A2F98D728AE22
	addq	%rdx, %rax
	addq	%rcx, %rax
	movq	%r13, %rcx
	shldq	$59, %rcx, %rcx
	xorq	%r13, %rcx
	shldq	$58, %rcx, %rcx
	xorq	%r13, %rcx
	shldq	$36, %rcx, %rcx
	movq	%r12, %rsi
	xorq	%r13, %rsi
	movq	%r14, %r8
	xorq	%r12, %r8
	andq	%rsi, %r8
	xorq	%r12, %r8
	addq	%rcx, %r8
	addq	%rax, %r8
	movq	%rbx, 48(%rsp)                  ## 8-byte Spill
	addq	%rbx, %rax
	movq	%r10, %rcx
	xorq	%r11, %rcx
	andq	%rax, %rcx
	xorq	%r10, %rcx
	movq	%r9, 72(%rsp)                   ## 8-byte Spill
	movq	%rdi, -72(%rsp)                 ## 8-byte Spill
	addq	%r9, %rcx
	addq	%rdi, %rcx
	movq	%rax, %rdx
	shldq	$41, %rdx, %rdx
	xorq	%rax, %rdx
	shldq	$60, %rdx, %rdx
	movabsq	$8158064640168781261, %rbx      ## imm = 0x7137449123EF65CD
	addq	%rcx, %rbx
	xorq	%rax, %rdx
	shldq	$50, %rdx, %rdx
	addq	%rdx, %rbx
	movq	%r8, %rcx
	shldq	$59, %rcx, %rcx
	xorq	%r8, %rcx
	shldq	$58, %rcx, %rcx
	xorq	%r8, %rcx
	shldq	$36, %rcx, %rcx
	movq	%r8, %rdi
	xorq	%r13, %rdi
	andq	%rdi, %rsi
	xorq	%r13, %rsi
	addq	%rcx, %rsi
	addq	%rbx, %rsi
	movq	%r14, 40(%rsp)                  ## 8-byte Spill
	addq	%r14, %rbx
	movq	%rbx, %rcx
	shldq	$41, %rcx, %rcx
	xorq	%rbx, %rcx
	shldq	$60, %rcx, %rcx
	xorq	%rbx, %rcx
	shldq	$50, %rcx, %rcx
	movq	%rax, %rdx
	xorq	%r11, %rdx
	andq	%rbx, %rdx
	xorq	%r11, %rdx
	movq	144(%rsp), %r9
	movq	%r10, 64(%rsp)                  ## 8-byte Spill
	movq	%r9, -40(%rsp)                  ## 8-byte Spill
	addq	%r10, %r9
	addq	%r9, %rdx
	movq	%rsi, %r9
	shldq	$59, %r9, %r9
	xorq	%rsi, %r9
	shldq	$58, %r9, %r9
	movabsq	$-5349999486874862801, %r15     ## imm = 0xB5C0FBCFEC4D3B2F
	addq	%rdx, %r15
	xorq	%rsi, %r9
	shldq	$36, %r9, %r9
	addq	%rcx, %r15
	movq	%rsi, %rdx
	xorq	%r8, %rdx
	andq	%rdx, %rdi
	xorq	%r8, %rdi
	addq	%r9, %rdi
	addq	%r15, %rdi
	movq	%r12, 32(%rsp)                  ## 8-byte Spill
	addq	%r12, %r15
	movq	%r15, %rcx
	shldq	$41, %rcx, %rcx
	xorq	%r15, %rcx
	shldq	$60, %rcx, %rcx
	movq	%rbx, %r9
	xorq	%rax, %r9
	andq	%r15, %r9
	xorq	%rax, %r9
	movq	152(%rsp), %r10
	movq	%r11, 56(%rsp)                  ## 8-byte Spill
	movq	%r10, (%rsp)                    ## 8-byte Spill
	addq	%r11, %r10
	addq	%r10, %r9
	xorq	%r15, %rcx
	shldq	$50, %rcx, %rcx
	movq	%rdi, %r10
	shldq	$59, %r10, %r10
	movabsq	$-1606136188198331460, %r11     ## imm = 0xE9B5DBA58189DBBC
	addq	%r9, %r11
	xorq	%rdi, %r10
	shldq	$58, %r10, %r10
	addq	%rcx, %r11
	xorq	%rdi, %r10
	shldq	$36, %r10, %r10
	movq	%rdi, %rcx
	xorq	%rsi, %rcx
	andq	%rcx, %rdx
	xorq	%rsi, %rdx
	addq	%r10, %rdx
	addq	%r11, %rdx
	movq	%r13, 24(%rsp)                  ## 8-byte Spill
	addq	%r13, %r11
	movq	%r11, %r10
	shldq	$41, %r10, %r10
	movq	%r15, %r9
	xorq	%rbx, %r9
	andq	%r11, %r9
	xorq	%rbx, %r9
	movq	160(%rsp), %r14
	movq	%r14, -8(%rsp)                  ## 8-byte Spill
	addq	%r14, %rax
	addq	%r9, %rax
	xorq	%r11, %r10
	shldq	$60, %r10, %r10
	xorq	%r11, %r10
	shldq	$50, %r10, %r10
	movabsq	$4131703408338449720, %r9       ## imm = 0x3956C25BF348B538
	addq	%rax, %r9
	movq	%rdx, %r14
	shldq	$59, %r14, %r14
	addq	%r10, %r9
	xorq	%rdx, %r14
	shldq	$58, %r14, %r14
	xorq	%rdx, %r14
	shldq	$36, %r14, %r14
	movq	%rdx, %rax
	xorq	%rdi, %rax
	andq	%rax, %rcx
	xorq	%rdi, %rcx
	addq	%r14, %rcx
	addq	%r9, %rcx
	addq	%r8, %r9
	movq	%r11, %r8
	xorq	%r15, %r8
	andq	%r9, %r8
	xorq	%r15, %r8
	movq	168(%rsp), %r10
	movq	%r10, -16(%rsp)                 ## 8-byte Spill
	addq	%r10, %rbx
	addq	%r8, %rbx
	movq	%r9, %r8
	shldq	$41, %r8, %r8
	xorq	%r9, %r8
	shldq	$60, %r8, %r8
	movabsq	$6480981068601479193, %r10      ## imm = 0x59F111F1B605D019
	addq	%rbx, %r10
	xorq	%r9, %r8
	shldq	$50, %r8, %r8
	addq	%r8, %r10
	movq	%rcx, %rbx
	shldq	$59, %rbx, %rbx
	xorq	%rcx, %rbx
	shldq	$58, %rbx, %rbx
	xorq	%rcx, %rbx
	shldq	$36, %rbx, %rbx
	movq	%rcx, %r8
	xorq	%rdx, %r8
	andq	%r8, %rax
	xorq	%rdx, %rax
	addq	%rbx, %rax
	addq	%r10, %rax
	addq	%rsi, %r10
	movq	%r10, %rsi
	shldq	$41, %rsi, %rsi
	xorq	%r10, %rsi
	shldq	$60, %rsi, %rsi
	xorq	%r10, %rsi
	shldq	$50, %rsi, %rsi
	movq	%r9, %rbx
	xorq	%r11, %rbx
	andq	%r10, %rbx
	xorq	%r11, %rbx
	movq	176(%rsp), %r14
	movq	%r14, -24(%rsp)                 ## 8-byte Spill
	addq	%r14, %r15
	addq	%rbx, %r15
	movq	%rax, %rbx
	shldq	$59, %rbx, %rbx
	xorq	%rax, %rbx
	shldq	$58, %rbx, %rbx
	movabsq	$-7908458776815382629, %r14     ## imm = 0x923F82A4AF194F9B
	addq	%r15, %r14
	xorq	%rax, %rbx
	shldq	$36, %rbx, %rbx
	addq	%rsi, %r14
	movq	%rax, %rsi
	xorq	%rcx, %rsi
	andq	%rsi, %r8
	xorq	%rcx, %r8
	addq	%rbx, %r8
	addq	%r14, %r8
	addq	%rdi, %r14
	movq	%r14, %rdi
	shldq	$41, %rdi, %rdi
	xorq	%r14, %rdi
	shldq	$60, %rdi, %rdi
	movq	%r10, %rbx
	xorq	%r9, %rbx
	andq	%r14, %rbx
	xorq	%r9, %rbx
	movq	184(%rsp), %r15
	movq	%r15, -48(%rsp)                 ## 8-byte Spill
	addq	%r15, %r11
	addq	%rbx, %r11
	xorq	%r14, %rdi
	shldq	$50, %rdi, %rdi
	movq	%r8, %rbx
	shldq	$59, %rbx, %rbx
	movabsq	$-6116909921290321640, %r15     ## imm = 0xAB1C5ED5DA6D8118
	addq	%r11, %r15
	xorq	%r8, %rbx
	shldq	$58, %rbx, %rbx
	addq	%rdi, %r15
	xorq	%r8, %rbx
	shldq	$36, %rbx, %rbx
	movq	%r8, %rdi
	xorq	%rax, %rdi
	andq	%rdi, %rsi
	xorq	%rax, %rsi
	addq	%rbx, %rsi
	addq	%r15, %rsi
	addq	%rdx, %r15
	movq	%r15, %rdx
	shldq	$41, %rdx, %rdx
	movq	%r14, %r11
	xorq	%r10, %r11
	andq	%r15, %r11
	xorq	%r10, %r11
	movq	192(%rsp), %rbx
	movq	%rbx, 8(%rsp)                   ## 8-byte Spill
	addq	%rbx, %r9
	addq	%r11, %r9
	xorq	%r15, %rdx
	shldq	$60, %rdx, %rdx
	xorq	%r15, %rdx
	shldq	$50, %rdx, %rdx
	movabsq	$-2880145864133508542, %r11     ## imm = 0xD807AA98A3030242
	addq	%r9, %r11
	movq	%rsi, %r9
	shldq	$59, %r9, %r9
	addq	%rdx, %r11
	xorq	%rsi, %r9
	shldq	$58, %r9, %r9
	xorq	%rsi, %r9
	shldq	$36, %r9, %r9
	movq	%rsi, %rdx
	xorq	%r8, %rdx
	andq	%rdx, %rdi
	xorq	%r8, %rdi
	addq	%r9, %rdi
	addq	%r11, %rdi
	addq	%rcx, %r11
	movq	%r15, %rcx
	xorq	%r14, %rcx
	andq	%r11, %rcx
	xorq	%r14, %rcx
	movq	200(%rsp), %r13
	addq	%r13, %r10
	addq	%rcx, %r10
	movq	%r11, %rcx
	shldq	$41, %rcx, %rcx
	xorq	%r11, %rcx
	shldq	$60, %rcx, %rcx
	movabsq	$1334009975649890238, %rbx      ## imm = 0x12835B0145706FBE
	addq	%r10, %rbx
	xorq	%r11, %rcx
	shldq	$50, %rcx, %rcx
	addq	%rcx, %rbx
	movq	%rdi, %rcx
	shldq	$59, %rcx, %rcx
	xorq	%rdi, %rcx
	shldq	$58, %rcx, %rcx
	xorq	%rdi, %rcx
	shldq	$36, %rcx, %rcx
	movq	%rdi, %r9
	xorq	%rsi, %r9
	andq	%r9, %rdx
	xorq	%rsi, %rdx
	addq	%rcx, %rdx
	addq	%rbx, %rdx
	addq	%rax, %rbx
	movq	%rbx, %rax
	shldq	$41, %rax, %rax
	xorq	%rbx, %rax
	shldq	$60, %rax, %rax
	xorq	%rbx, %rax
	shldq	$50, %rax, %rax
	movq	%r11, %rcx
	xorq	%r15, %rcx
	andq	%rbx, %rcx
	xorq	%r15, %rcx
	movq	208(%rsp), %r10
	movq	%r10, -88(%rsp)                 ## 8-byte Spill
	addq	%r10, %r14
	addq	%rcx, %r14
	movq	%rdx, %rcx
	shldq	$59, %rcx, %rcx
	xorq	%rdx, %rcx
	shldq	$58, %rcx, %rcx
	movabsq	$2608012711638119052, %r10      ## imm = 0x243185BE4EE4B28C
	addq	%r14, %r10
	xorq	%rdx, %rcx
	shldq	$36, %rcx, %rcx
	addq	%rax, %r10
	movq	%rdx, %rbp
	xorq	%rdi, %rbp
	andq	%rbp, %r9
	xorq	%rdi, %r9
	addq	%rcx, %r9
	addq	%r10, %r9
	addq	%r8, %r10
	movq	%r10, %rcx
	shldq	$41, %rcx, %rcx
	xorq	%r10, %rcx
	shldq	$60, %rcx, %rcx
	movq	%rbx, %r8
	xorq	%r11, %r8
	andq	%r10, %r8
	xorq	%r11, %r8
	movq	216(%rsp), %r14
	movq	%r14, -104(%rsp)                ## 8-byte Spill
	addq	%r14, %r15
	addq	%r8, %r15
	xorq	%r10, %rcx
	shldq	$50, %rcx, %rcx
	movq	%r9, %r8
	shldq	$59, %r8, %r8
	movabsq	$6128411473006802146, %rax      ## imm = 0x550C7DC3D5FFB4E2
	addq	%r15, %rax
	xorq	%r9, %r8
	shldq	$58, %r8, %r8
	addq	%rcx, %rax
	xorq	%r9, %r8
	shldq	$36, %r8, %r8
	movq	%r9, %rcx
	xorq	%rdx, %rcx
	andq	%rcx, %rbp
	xorq	%rdx, %rbp
	addq	%r8, %rbp
	addq	%rax, %rbp
	addq	%rsi, %rax
	movq	%rax, %rsi
	shldq	$41, %rsi, %rsi
	movq	%r10, %r8
	xorq	%rbx, %r8
	andq	%rax, %r8
	xorq	%rbx, %r8
	movq	224(%rsp), %r14
	movq	%r14, -120(%rsp)                ## 8-byte Spill
	addq	%r14, %r11
	addq	%r8, %r11
	xorq	%rax, %rsi
	shldq	$60, %rsi, %rsi
	xorq	%rax, %rsi
	shldq	$50, %rsi, %rsi
	movabsq	$8268148722764581231, %r14      ## imm = 0x72BE5D74F27B896F
	addq	%r11, %r14
	movq	%rbp, %r11
	shldq	$59, %r11, %r11
	addq	%rsi, %r14
	xorq	%rbp, %r11
	shldq	$58, %r11, %r11
	xorq	%rbp, %r11
	shldq	$36, %r11, %r11
	movq	%rbp, %r8
	xorq	%r9, %r8
	andq	%r8, %rcx
	xorq	%r9, %rcx
	addq	%r11, %rcx
	addq	%r14, %rcx
	addq	%rdi, %r14
	movq	%rax, %rsi
	xorq	%r10, %rsi
	andq	%r14, %rsi
	xorq	%r10, %rsi
	movq	232(%rsp), %rdi
	movq	%rdi, -112(%rsp)                ## 8-byte Spill
	addq	%rdi, %rbx
	addq	%rsi, %rbx
	movq	%r14, %rsi
	shldq	$41, %rsi, %rsi
	xorq	%r14, %rsi
	shldq	$60, %rsi, %rsi
	movabsq	$-9160688886553864527, %r12     ## imm = 0x80DEB1FE3B1696B1
	addq	%rbx, %r12
	xorq	%r14, %rsi
	shldq	$50, %rsi, %rsi
	addq	%rsi, %r12
	movq	%rcx, %rsi
	shldq	$59, %rsi, %rsi
	xorq	%rcx, %rsi
	shldq	$58, %rsi, %rsi
	xorq	%rcx, %rsi
	shldq	$36, %rsi, %rsi
	movq	%rcx, %rdi
	xorq	%rbp, %rdi
	andq	%rdi, %r8
	xorq	%rbp, %r8
	addq	%rsi, %r8
	addq	%r12, %r8
	addq	%rdx, %r12
	movq	%r12, %rdx
	shldq	$41, %rdx, %rdx
	xorq	%r12, %rdx
	shldq	$60, %rdx, %rdx
	xorq	%r12, %rdx
	shldq	$50, %rdx, %rdx
	movq	%r14, %rsi
	xorq	%rax, %rsi
	andq	%r12, %rsi
	xorq	%rax, %rsi
	movq	240(%rsp), %r15
	addq	%r15, %r10
	addq	%rsi, %r10
	movq	%r8, %rsi
	shldq	$59, %rsi, %rsi
	xorq	%r8, %rsi
	shldq	$58, %rsi, %rsi
	movabsq	$-7215885187991268811, %r11     ## imm = 0x9BDC06A725C71235
	addq	%r10, %r11
	movq	%r13, %r10
	xorq	%r8, %rsi
	shldq	$36, %rsi, %rsi
	addq	%rdx, %r11
	movq	%r8, %rdx
	xorq	%rcx, %rdx
	andq	%rdx, %rdi
	xorq	%rcx, %rdi
	addq	%rsi, %rdi
	addq	%r11, %rdi
	addq	%r9, %r11
	movq	%r12, %rsi
	xorq	%r14, %rsi
	andq	%r11, %rsi
	xorq	%r14, %rsi
	movq	248(%rsp), %r9
	movq	%r9, %r13
	addq	%r9, %rax
	addq	%rsi, %rax
	movabsq	$-4495734319001033068, %rsi     ## imm = 0xC19BF174CF692694
	addq	%rax, %rsi
	movq	%r11, %r9
	shldq	$41, %r9, %r9
	xorq	%r11, %r9
	shldq	$60, %r9, %r9
	xorq	%r11, %r9
	shldq	$50, %r9, %r9
	addq	%r9, %rsi
	movq	%rdi, %r9
	shldq	$59, %r9, %r9
	movq	%rdi, %rbx
	xorq	%r8, %rbx
	andq	%rdx, %rbx
	xorq	%rdi, %r9
	shldq	$58, %r9, %r9
	xorq	%rdi, %r9
	shldq	$36, %r9, %r9
	xorq	%r8, %rbx
	addq	%r9, %rbx
	addq	%rsi, %rbx
	addq	%rbp, %rsi
	movq	%r15, %rax
	xorl	%edx, %edx
Ldeerlapse_0_1_0_BB11_3:                                ## %join.12
                                        ## =>This Inner Loop Header: Depth=1
	movq	%rdx, -128(%rsp)                ## 8-byte Spill
	movq	%r10, 120(%rsp)                 ## 8-byte Spill
	movq	%rax, %rdx
	movq	%rax, -96(%rsp)                 ## 8-byte Spill
	shldq	$22, %rax, %rax
	xorq	%rdx, %rax
	shldq	$45, %rax, %rax
	shrq	$6, %rdx
	xorq	%rax, %rdx
	movq	-72(%rsp), %rax                 ## 8-byte Reload
	movq	%rax, %r9
	shldq	$57, %r9, %r9
	movq	%rax, %rbp
	shrq	$7, %rbp
	xorq	%rax, %r9
	shldq	$63, %r9, %r9
	xorq	%rbp, %r9
	movq	%rsi, %rax
	shldq	$41, %rax, %rax
	movq	-32(%rsp), %r15                 ## 8-byte Reload
	addq	%r10, %r15
	xorq	%rsi, %rax
	shldq	$60, %rax, %rax
	addq	%rdx, %r15
	xorq	%rsi, %rax
	shldq	$50, %rax, %rax
	addq	%r9, %r15
	movq	%r15, -32(%rsp)                 ## 8-byte Spill
	movq	%r15, %rbp
	movq	%r12, %r15
	xorq	%r11, %r12
	andq	%rsi, %r12
	xorq	%r15, %r12
	movq	%rbx, %r10
	shldq	$59, %r10, %r10
	addq	%r14, %r12
	xorq	%rbx, %r10
	shldq	$58, %r10, %r10
	addq	%rax, %r12
	xorq	%rbx, %r10
	shldq	$36, %r10, %r10
	movq	%rdi, %r14
	xorq	%rbx, %r14
	movq	%r8, %r9
	xorq	%rdi, %r9
	andq	%r14, %r9
	xorq	%rdi, %r9
	addq	%r10, %r9
	leaq	ldeerlapse_0_1_0__static.3(%rip), %rax
	movq	-128(%rsp), %rdx                ## 8-byte Reload
	addq	128(%rdx,%rax), %r12
	addq	%rbp, %r12
	addq	%r12, %r9
	addq	%rcx, %r12
	movq	%r12, %rbp
	movq	%r13, -80(%rsp)                 ## 8-byte Spill
	movq	%r13, %rax
	shldq	$22, %rax, %rax
	xorq	%r13, %rax
	shldq	$45, %rax, %rax
	movq	%r13, %rcx
	shrq	$6, %rcx
	xorq	%rax, %rcx
	movq	-40(%rsp), %r12                 ## 8-byte Reload
	movq	%r12, %rax
	shrq	$7, %rax
	movq	%r12, %r10
	shldq	$57, %r10, %r10
	xorq	%r12, %r10
	shldq	$63, %r10, %r10
	xorq	%rax, %r10
	movq	-72(%rsp), %r13                 ## 8-byte Reload
	addq	-88(%rsp), %r13                 ## 8-byte Folded Reload
	addq	%rcx, %r13
	movq	%rbp, %rax
	shldq	$41, %rax, %rax
	addq	%r10, %r13
	movq	%r13, -72(%rsp)                 ## 8-byte Spill
	xorq	%rbp, %rax
	shldq	$60, %rax, %rax
	xorq	%rbp, %rax
	shldq	$50, %rax, %rax
	movq	%r11, %rcx
	xorq	%rsi, %rcx
	andq	%rbp, %rcx
	leaq	ldeerlapse_0_1_0__static.3(%rip), %r10
	addq	136(%rdx,%r10), %r15
	xorq	%r11, %rcx
	movq	%r9, %r10
	shldq	$59, %r10, %r10
	addq	%r13, %r15
	xorq	%r9, %r10
	shldq	$58, %r10, %r10
	addq	%rcx, %r15
	xorq	%r9, %r10
	shldq	$36, %r10, %r10
	addq	%rax, %r15
	movq	%r9, %rdx
	xorq	%rbx, %rdx
	movq	%r14, %r13
	andq	%rdx, %r13
	xorq	%rbx, %r13
	addq	%r10, %r13
	addq	%r15, %r13
	addq	%r8, %r15
	movq	-32(%rsp), %r8                  ## 8-byte Reload
	movq	%r8, %rcx
	shldq	$22, %rcx, %rcx
	xorq	%r8, %rcx
	shldq	$45, %rcx, %rcx
	shrq	$6, %r8
	xorq	%rcx, %r8
	movq	(%rsp), %rax                    ## 8-byte Reload
	movq	%rax, %rcx
	shldq	$57, %rcx, %rcx
	xorq	%rax, %rcx
	shldq	$63, %rcx, %rcx
	movq	%rax, %r10
	shrq	$7, %r10
	xorq	%r10, %rcx
	addq	-104(%rsp), %r12                ## 8-byte Folded Reload
	addq	%rcx, %r12
	addq	%r8, %r12
	movq	%r12, -40(%rsp)                 ## 8-byte Spill
	movq	%r15, %r14
	movq	%r15, %rcx
	shldq	$41, %rcx, %rcx
	xorq	%r15, %rcx
	shldq	$60, %rcx, %rcx
	xorq	%r15, %rcx
	shldq	$50, %rcx, %rcx
	movq	%rbp, %r8
	xorq	%rsi, %r8
	andq	%r15, %r8
	xorq	%rsi, %r8
	leaq	ldeerlapse_0_1_0__static.3(%rip), %r10
	movq	-128(%rsp), %r15                ## 8-byte Reload
	addq	144(%r15,%r10), %r11
	addq	%r12, %r11
	movq	%r13, -64(%rsp)                 ## 8-byte Spill
	movq	%r13, %r10
	shldq	$59, %r10, %r10
	addq	%r8, %r11
	xorq	%r13, %r10
	shldq	$58, %r10, %r10
	addq	%rcx, %r11
	xorq	%r13, %r10
	shldq	$36, %r10, %r10
	movq	%r13, %r15
	xorq	%r9, %r15
	andq	%r15, %rdx
	xorq	%r9, %rdx
	addq	%r10, %rdx
	movq	-72(%rsp), %rcx                 ## 8-byte Reload
	movq	%rcx, %r8
	shldq	$22, %r8, %r8
	addq	%r11, %rdx
	xorq	%rcx, %r8
	shldq	$45, %r8, %r8
	addq	%rdi, %r11
	shrq	$6, %rcx
	xorq	%r8, %rcx
	movq	-8(%rsp), %r12                  ## 8-byte Reload
	movq	%r12, %rdi
	shldq	$57, %rdi, %rdi
	movq	%r12, %r8
	shrq	$7, %r8
	xorq	%r12, %rdi
	shldq	$63, %rdi, %rdi
	xorq	%r8, %rdi
	movq	%r11, %r8
	shldq	$41, %r8, %r8
	addq	-120(%rsp), %rax                ## 8-byte Folded Reload
	xorq	%r11, %r8
	shldq	$60, %r8, %r8
	addq	%rdi, %rax
	xorq	%r11, %r8
	shldq	$50, %r8, %r8
	addq	%rcx, %rax
	movq	%r14, %rcx
	xorq	%rbp, %rcx
	andq	%r11, %rcx
	xorq	%rbp, %rcx
	leaq	ldeerlapse_0_1_0__static.3(%rip), %r13
	movq	-128(%rsp), %rdi                ## 8-byte Reload
	addq	152(%rdi,%r13), %rsi
	addq	%rax, %rsi
	addq	%rcx, %rsi
	movq	%rdx, -56(%rsp)                 ## 8-byte Spill
	movq	%rdx, %rcx
	shldq	$59, %rcx, %rcx
	addq	%r8, %rsi
	xorq	%rdx, %rcx
	shldq	$58, %rcx, %rcx
	xorq	%rdx, %rcx
	shldq	$36, %rcx, %rcx
	movq	%rdx, %r10
	movq	-64(%rsp), %rdi                 ## 8-byte Reload
	xorq	%rdi, %r10
	andq	%r10, %r15
	xorq	%rdi, %r15
	addq	%rcx, %r15
	addq	%rsi, %r15
	movq	-40(%rsp), %rdi                 ## 8-byte Reload
	movq	%rdi, %rcx
	shldq	$22, %rcx, %rcx
	addq	%rbx, %rsi
	xorq	%rdi, %rcx
	shldq	$45, %rcx, %rcx
	shrq	$6, %rdi
	xorq	%rcx, %rdi
	movq	-16(%rsp), %rbx                 ## 8-byte Reload
	movq	%rbx, %rcx
	shrq	$7, %rcx
	movq	%rbx, %r8
	shldq	$57, %r8, %r8
	xorq	%rbx, %r8
	shldq	$63, %r8, %r8
	xorq	%rcx, %r8
	addq	-112(%rsp), %r12                ## 8-byte Folded Reload
	movq	%rsi, %rcx
	shldq	$41, %rcx, %rcx
	addq	%r8, %r12
	xorq	%rsi, %rcx
	shldq	$60, %rcx, %rcx
	addq	%rdi, %r12
	movq	%r11, %rdi
	xorq	%r14, %rdi
	andq	%rsi, %rdi
	xorq	%r14, %rdi
	movq	-128(%rsp), %r8                 ## 8-byte Reload
	addq	160(%r8,%r13), %rbp
	addq	%r12, %rbp
	addq	%rdi, %rbp
	xorq	%rsi, %rcx
	shldq	$50, %rcx, %rcx
	addq	%rcx, %rbp
	movq	%rbp, %r13
	movq	%r15, %rcx
	shldq	$59, %rcx, %rcx
	xorq	%r15, %rcx
	shldq	$58, %rcx, %rcx
	xorq	%r15, %rcx
	shldq	$36, %rcx, %rcx
	movq	%r15, %rdx
	movq	-56(%rsp), %rdi                 ## 8-byte Reload
	xorq	%rdi, %rdx
	andq	%rdx, %r10
	xorq	%rdi, %r10
	addq	%rcx, %r10
	addq	%rbp, %r10
	addq	%r9, %r13
	movq	%rax, (%rsp)                    ## 8-byte Spill
	movq	%rax, %rcx
	shldq	$22, %rcx, %rcx
	xorq	%rax, %rcx
	shldq	$45, %rcx, %rcx
	movq	%rax, %rdi
	shrq	$6, %rdi
	xorq	%rcx, %rdi
	movq	-24(%rsp), %rbp                 ## 8-byte Reload
	movq	%rbp, %rcx
	shrq	$7, %rcx
	movq	%rbp, %r8
	shldq	$57, %r8, %r8
	xorq	%rbp, %r8
	shldq	$63, %r8, %r8
	xorq	%rcx, %r8
	addq	-96(%rsp), %rbx                 ## 8-byte Folded Reload
	addq	%r8, %rbx
	movq	%r13, %rcx
	shldq	$41, %rcx, %rcx
	addq	%rdi, %rbx
	xorq	%r13, %rcx
	shldq	$60, %rcx, %rcx
	xorq	%r13, %rcx
	shldq	$50, %rcx, %rcx
	movq	%rsi, %rdi
	xorq	%r11, %rdi
	andq	%r13, %rdi
	movq	%r13, 96(%rsp)                  ## 8-byte Spill
	movq	-128(%rsp), %r8                 ## 8-byte Reload
	leaq	ldeerlapse_0_1_0__static.3(%rip), %rax
	addq	168(%r8,%rax), %r14
	xorq	%r11, %rdi
	movq	%r10, %r8
	shldq	$59, %r8, %r8
	addq	%rbx, %r14
	xorq	%r10, %r8
	shldq	$58, %r8, %r8
	addq	%rdi, %r14
	xorq	%r10, %r8
	shldq	$36, %r8, %r8
	addq	%rcx, %r14
	movq	%r10, %r9
	movq	%r15, 112(%rsp)                 ## 8-byte Spill
	xorq	%r15, %r9
	andq	%r9, %rdx
	xorq	%r15, %rdx
	addq	%r8, %rdx
	addq	%r14, %rdx
	movq	%rdx, %r8
	addq	-64(%rsp), %r14                 ## 8-byte Folded Reload
	movq	%r12, -8(%rsp)                  ## 8-byte Spill
	movq	%r12, %rcx
	shldq	$22, %rcx, %rcx
	xorq	%r12, %rcx
	shldq	$45, %rcx, %rcx
	movq	%r12, %rdx
	shrq	$6, %rdx
	xorq	%rcx, %rdx
	movq	-48(%rsp), %r12                 ## 8-byte Reload
	movq	%r12, %rcx
	shldq	$57, %rcx, %rcx
	xorq	%r12, %rcx
	shldq	$63, %rcx, %rcx
	movq	%r12, %rdi
	shrq	$7, %rdi
	xorq	%rdi, %rcx
	addq	-80(%rsp), %rbp                 ## 8-byte Folded Reload
	addq	%rcx, %rbp
	addq	%rdx, %rbp
	movq	%r14, -64(%rsp)                 ## 8-byte Spill
	movq	%r14, %rcx
	shldq	$41, %rcx, %rcx
	xorq	%r14, %rcx
	shldq	$60, %rcx, %rcx
	xorq	%r14, %rcx
	shldq	$50, %rcx, %rcx
	xorq	%rsi, %r13
	andq	%r14, %r13
	xorq	%rsi, %r13
	movq	-128(%rsp), %rdi                ## 8-byte Reload
	addq	176(%rdi,%rax), %r11
	addq	%rbp, %r11
	movq	%r8, 16(%rsp)                   ## 8-byte Spill
	movq	%r8, %rdi
	shldq	$59, %rdi, %rdi
	addq	%r13, %r11
	xorq	%r8, %rdi
	shldq	$58, %rdi, %rdi
	addq	%rcx, %r11
	xorq	%r8, %rdi
	shldq	$36, %rdi, %rdi
	movq	%r10, 104(%rsp)                 ## 8-byte Spill
	xorq	%r10, %r8
	andq	%r8, %r9
	xorq	%r10, %r9
	addq	%rdi, %r9
	movq	%r9, %r13
	movq	%rbx, -16(%rsp)                 ## 8-byte Spill
	movq	%rbx, %rcx
	shldq	$22, %rcx, %rcx
	addq	%r11, %r13
	xorq	%rbx, %rcx
	shldq	$45, %rcx, %rcx
	addq	-56(%rsp), %r11                 ## 8-byte Folded Reload
	shrq	$6, %rbx
	xorq	%rcx, %rbx
	movq	-32(%rsp), %rcx                 ## 8-byte Reload
	movq	%rcx, %rdx
	shldq	$57, %rdx, %rdx
	movq	%rcx, %rax
	shrq	$7, %rax
	xorq	%rcx, %rdx
	movq	%rcx, %rdi
	shldq	$63, %rdx, %rdx
	xorq	%rax, %rdx
	movq	-80(%rsp), %rax                 ## 8-byte Reload
	movq	%rax, %rcx
	shldq	$57, %rcx, %rcx
	xorq	%rax, %rcx
	addq	%rax, %rdx
	movq	%rdx, -56(%rsp)                 ## 8-byte Spill
	shrq	$7, %rax
	shldq	$63, %rcx, %rcx
	xorq	%rax, %rcx
	movq	-96(%rsp), %rax                 ## 8-byte Reload
	movq	%rax, %rdx
	shldq	$57, %rdx, %rdx
	xorq	%rax, %rdx
	addq	%rax, %rcx
	movq	%rcx, -80(%rsp)                 ## 8-byte Spill
	shrq	$7, %rax
	shldq	$63, %rdx, %rdx
	xorq	%rax, %rdx
	movq	-112(%rsp), %rax                ## 8-byte Reload
	movq	%rax, %rcx
	shldq	$57, %rcx, %rcx
	xorq	%rax, %rcx
	addq	%rax, %rdx
	movq	%rdx, -96(%rsp)                 ## 8-byte Spill
	shrq	$7, %rax
	shldq	$63, %rcx, %rcx
	xorq	%rax, %rcx
	movq	-120(%rsp), %rax                ## 8-byte Reload
	movq	%rax, %rdx
	shldq	$57, %rdx, %rdx
	xorq	%rax, %rdx
	addq	%rax, %rcx
	movq	%rcx, -112(%rsp)                ## 8-byte Spill
	shrq	$7, %rax
	shldq	$63, %rdx, %rdx
	xorq	%rax, %rdx
	movq	-104(%rsp), %rax                ## 8-byte Reload
	movq	%rax, %rcx
	shldq	$57, %rcx, %rcx
	xorq	%rax, %rcx
	addq	%rax, %rdx
	movq	%rdx, -120(%rsp)                ## 8-byte Spill
	shrq	$7, %rax
	shldq	$63, %rcx, %rcx
	xorq	%rax, %rcx
	movq	-88(%rsp), %rax                 ## 8-byte Reload
	movq	%rax, %rdx
	shldq	$57, %rdx, %rdx
	xorq	%rax, %rdx
	addq	%rax, %rcx
	movq	%rcx, -104(%rsp)                ## 8-byte Spill
	shrq	$7, %rax
	shldq	$63, %rdx, %rdx
	xorq	%rax, %rdx
	movq	120(%rsp), %rax                 ## 8-byte Reload
	movq	%rax, %r9
	shldq	$57, %r9, %r9
	xorq	%rax, %r9
	addq	%rax, %rdx
	shrq	$7, %rax
	shldq	$63, %r9, %r9
	xorq	%rax, %r9
	movq	8(%rsp), %rcx                   ## 8-byte Reload
	movq	%rcx, %rax
	shldq	$57, %rax, %rax
	xorq	%rcx, %rax
	addq	%rcx, %r9
	shrq	$7, %rcx
	shldq	$63, %rax, %rax
	xorq	%rcx, %rax
	addq	%rdi, %r12
	addq	%rax, %r12
	addq	%rbx, %r12
	movq	%r12, -48(%rsp)                 ## 8-byte Spill
	movq	%r11, %rax
	shldq	$41, %rax, %rax
	xorq	%r11, %rax
	shldq	$60, %rax, %rax
	movq	-128(%rsp), %rcx                ## 8-byte Reload
	leaq	ldeerlapse_0_1_0__static.3(%rip), %r15
	movq	184(%rcx,%r15), %rcx
	addq	%r12, %rcx
	addq	%rsi, %rcx
	xorq	%r11, %rax
	shldq	$50, %rax, %rax
	movq	-64(%rsp), %r12                 ## 8-byte Reload
	movq	%r12, %rsi
	movq	96(%rsp), %r10                  ## 8-byte Reload
	xorq	%r10, %rsi
	andq	%r11, %rsi
	xorq	%r10, %rsi
	addq	%rsi, %rcx
	movq	%r13, %rsi
	shldq	$59, %rsi, %rsi
	addq	%rax, %rcx
	xorq	%r13, %rsi
	shldq	$58, %rsi, %rsi
	xorq	%r13, %rsi
	shldq	$36, %rsi, %rsi
	movq	%r13, %rdi
	movq	%r13, %r14
	movq	16(%rsp), %rax                  ## 8-byte Reload
	xorq	%rax, %rdi
	andq	%rdi, %r8
	xorq	%rax, %r8
	addq	%rsi, %r8
	addq	%rcx, %r8
	movq	%rbp, -24(%rsp)                 ## 8-byte Spill
	movq	%rbp, %rax
	shldq	$22, %rax, %rax
	addq	112(%rsp), %rcx                 ## 8-byte Folded Reload
	xorq	%rbp, %rax
	shldq	$45, %rax, %rax
	shrq	$6, %rbp
	xorq	%rax, %rbp
	addq	-72(%rsp), %r9                  ## 8-byte Folded Reload
	addq	%rbp, %r9
	movq	%rcx, %rax
	shldq	$41, %rax, %rax
	xorq	%rcx, %rax
	shldq	$60, %rax, %rax
	xorq	%rcx, %rax
	shldq	$50, %rax, %rax
	movq	-128(%rsp), %rsi                ## 8-byte Reload
	movq	192(%rsi,%r15), %rbp
	addq	%r9, %rbp
	addq	%r10, %rbp
	movq	%r11, %rsi
	xorq	%r12, %rsi
	andq	%rcx, %rsi
	xorq	%r12, %rsi
	movq	%r8, %r13
	shldq	$59, %r13, %r13
	addq	%rsi, %rbp
	xorq	%r8, %r13
	shldq	$58, %r13, %r13
	addq	%rax, %rbp
	xorq	%r8, %r13
	shldq	$36, %r13, %r13
	movq	%r8, %rbx
	xorq	%r14, %rbx
	andq	%rbx, %rdi
	xorq	%r14, %rdi
	addq	%r13, %rdi
	movq	-48(%rsp), %rsi                 ## 8-byte Reload
	movq	%rsi, %rax
	shldq	$22, %rax, %rax
	addq	%rbp, %rdi
	xorq	%rsi, %rax
	shldq	$45, %rax, %rax
	addq	104(%rsp), %rbp                 ## 8-byte Folded Reload
	shrq	$6, %rsi
	xorq	%rax, %rsi
	addq	-40(%rsp), %rdx                 ## 8-byte Folded Reload
	addq	%rsi, %rdx
	movq	%rdx, -88(%rsp)                 ## 8-byte Spill
	movq	-128(%rsp), %rax                ## 8-byte Reload
	movq	%r15, %r13
	movq	200(%rax,%r15), %r15
	addq	%rdx, %r15
	addq	%r12, %r15
	movq	%rbp, %rax
	shldq	$41, %rax, %rax
	xorq	%rbp, %rax
	shldq	$60, %rax, %rax
	xorq	%rbp, %rax
	shldq	$50, %rax, %rax
	movq	%rcx, %rsi
	xorq	%r11, %rsi
	andq	%rbp, %rsi
	movq	%rdi, %r12
	shldq	$59, %r12, %r12
	xorq	%r11, %rsi
	xorq	%rdi, %r12
	shldq	$58, %r12, %r12
	addq	%rsi, %r15
	xorq	%rdi, %r12
	shldq	$36, %r12, %r12
	addq	%rax, %r15
	movq	%rdi, %rsi
	xorq	%r8, %rsi
	andq	%rsi, %rbx
	xorq	%r8, %rbx
	addq	%r12, %rbx
	addq	%r15, %rbx
	addq	16(%rsp), %r15                  ## 8-byte Folded Reload
	movq	%r9, %rax
	shldq	$22, %rax, %rax
	xorq	%r9, %rax
	shldq	$45, %rax, %rax
	movq	%r9, %r10
	shrq	$6, %r10
	xorq	%rax, %r10
	movq	-104(%rsp), %r12                ## 8-byte Reload
	addq	(%rsp), %r12                    ## 8-byte Folded Reload
	addq	%r10, %r12
	movq	%r15, %rax
	shldq	$41, %rax, %rax
	movq	-128(%rsp), %r10                ## 8-byte Reload
	movq	%r13, %rdx
	movq	208(%r10,%r13), %r13
	addq	%r12, %r13
	addq	%r11, %r13
	xorq	%r15, %rax
	shldq	$60, %rax, %rax
	movq	%rbp, %r10
	xorq	%rcx, %r10
	andq	%r15, %r10
	xorq	%rcx, %r10
	addq	%r10, %r13
	xorq	%r15, %rax
	shldq	$50, %rax, %rax
	addq	%rax, %r13
	movq	%rbx, %rax
	shldq	$59, %rax, %rax
	xorq	%rbx, %rax
	shldq	$58, %rax, %rax
	xorq	%rbx, %rax
	shldq	$36, %rax, %rax
	movq	%rbx, %r10
	xorq	%rdi, %r10
	andq	%r10, %rsi
	xorq	%rdi, %rsi
	addq	%rax, %rsi
	addq	%r13, %rsi
	addq	%r14, %r13
	movq	-88(%rsp), %r11                 ## 8-byte Reload
	movq	%r11, %rax
	shldq	$22, %rax, %rax
	xorq	%r11, %rax
	shldq	$45, %rax, %rax
	shrq	$6, %r11
	xorq	%rax, %r11
	movq	-120(%rsp), %r14                ## 8-byte Reload
	addq	-8(%rsp), %r14                  ## 8-byte Folded Reload
	addq	%r11, %r14
	movq	%r14, -120(%rsp)                ## 8-byte Spill
	movq	%r13, %r11
	shldq	$41, %r11, %r11
	xorq	%r13, %r11
	shldq	$60, %r11, %r11
	movq	-128(%rsp), %rax                ## 8-byte Reload
	movq	216(%rax,%rdx), %rax
	addq	%r14, %rax
	addq	%rcx, %rax
	xorq	%r13, %r11
	shldq	$50, %r11, %r11
	movq	%r15, %rcx
	xorq	%rbp, %rcx
	andq	%r13, %rcx
	xorq	%rbp, %rcx
	addq	%rcx, %rax
	movq	%rsi, %r14
	shldq	$59, %r14, %r14
	addq	%r11, %rax
	xorq	%rsi, %r14
	shldq	$58, %r14, %r14
	xorq	%rsi, %r14
	shldq	$36, %r14, %r14
	movq	%rsi, %rcx
	xorq	%rbx, %rcx
	andq	%rcx, %r10
	xorq	%rbx, %r10
	addq	%r14, %r10
	addq	%rax, %r10
	movq	%r12, -104(%rsp)                ## 8-byte Spill
	movq	%r12, %r11
	shldq	$22, %r11, %r11
	addq	%r8, %rax
	xorq	%r12, %r11
	shldq	$45, %r11, %r11
	shrq	$6, %r12
	xorq	%r11, %r12
	movq	-112(%rsp), %r11                ## 8-byte Reload
	addq	-16(%rsp), %r11                 ## 8-byte Folded Reload
	addq	%r12, %r11
	movq	%r11, %r12
	movq	%r11, -112(%rsp)                ## 8-byte Spill
	movq	%rax, %r8
	shldq	$41, %r8, %r8
	xorq	%rax, %r8
	shldq	$60, %r8, %r8
	xorq	%rax, %r8
	shldq	$50, %r8, %r8
	movq	-128(%rsp), %r11                ## 8-byte Reload
	movq	224(%r11,%rdx), %r14
	addq	%r12, %r14
	addq	%rbp, %r14
	movq	%r13, %r11
	xorq	%r15, %r11
	andq	%rax, %r11
	xorq	%r15, %r11
	movq	%r10, %r12
	shldq	$59, %r12, %r12
	addq	%r11, %r14
	xorq	%r10, %r12
	shldq	$58, %r12, %r12
	addq	%r8, %r14
	xorq	%r10, %r12
	shldq	$36, %r12, %r12
	movq	%r10, %r8
	xorq	%rsi, %r8
	andq	%r8, %rcx
	xorq	%rsi, %rcx
	addq	%r12, %rcx
	movq	-120(%rsp), %r12                ## 8-byte Reload
	movq	%r12, %r11
	shldq	$22, %r11, %r11
	addq	%r14, %rcx
	xorq	%r12, %r11
	shldq	$45, %r11, %r11
	addq	%rdi, %r14
	movq	%r12, %rdi
	shrq	$6, %rdi
	xorq	%r11, %rdi
	movq	-96(%rsp), %r11                 ## 8-byte Reload
	addq	-24(%rsp), %r11                 ## 8-byte Folded Reload
	addq	%rdi, %r11
	movq	%r11, -96(%rsp)                 ## 8-byte Spill
	movq	-128(%rsp), %rdi                ## 8-byte Reload
	movq	232(%rdi,%rdx), %r12
	addq	%r11, %r12
	addq	%r15, %r12
	movq	%r14, %rdi
	shldq	$41, %rdi, %rdi
	xorq	%r14, %rdi
	shldq	$60, %rdi, %rdi
	xorq	%r14, %rdi
	shldq	$50, %rdi, %rdi
	movq	%rax, %r11
	xorq	%r13, %r11
	andq	%r14, %r11
	movq	%rcx, %r15
	shldq	$59, %r15, %r15
	xorq	%r13, %r11
	xorq	%rcx, %r15
	shldq	$58, %r15, %r15
	addq	%r11, %r12
	xorq	%rcx, %r15
	shldq	$36, %r15, %r15
	addq	%rdi, %r12
	movq	%rcx, %rdi
	xorq	%r10, %rdi
	andq	%rdi, %r8
	xorq	%r10, %r8
	addq	%r15, %r8
	addq	%r12, %r8
	addq	%rbx, %r12
	movq	-112(%rsp), %rbx                ## 8-byte Reload
	movq	%rbx, %r11
	shldq	$22, %r11, %r11
	xorq	%rbx, %r11
	shldq	$45, %r11, %r11
	shrq	$6, %rbx
	xorq	%r11, %rbx
	movq	-80(%rsp), %r15                 ## 8-byte Reload
	addq	-48(%rsp), %r15                 ## 8-byte Folded Reload
	addq	%rbx, %r15
	movq	%r15, -80(%rsp)                 ## 8-byte Spill
	movq	%r12, %rbx
	shldq	$41, %rbx, %rbx
	movq	-128(%rsp), %r11                ## 8-byte Reload
	movq	240(%r11,%rdx), %r11
	addq	%r15, %r11
	addq	%r13, %r11
	xorq	%r12, %rbx
	shldq	$60, %rbx, %rbx
	movq	%r14, %r15
	xorq	%rax, %r15
	andq	%r12, %r15
	xorq	%rax, %r15
	addq	%r15, %r11
	xorq	%r12, %rbx
	shldq	$50, %rbx, %rbx
	addq	%rbx, %r11
	movq	%r8, %rbx
	shldq	$59, %rbx, %rbx
	xorq	%r8, %rbx
	shldq	$58, %rbx, %rbx
	xorq	%r8, %rbx
	shldq	$36, %rbx, %rbx
	movq	%r8, %r15
	xorq	%rcx, %r15
	andq	%r15, %rdi
	xorq	%rcx, %rdi
	addq	%rbx, %rdi
	addq	%r11, %rdi
	addq	%rsi, %r11
	movq	-96(%rsp), %rbx                 ## 8-byte Reload
	movq	%rbx, %rsi
	shldq	$22, %rsi, %rsi
	xorq	%rbx, %rsi
	shldq	$45, %rsi, %rsi
	shrq	$6, %rbx
	xorq	%rsi, %rbx
	movq	-56(%rsp), %r13                 ## 8-byte Reload
	addq	%r9, %r13
	addq	%rbx, %r13
	movq	%r11, %rbx
	shldq	$41, %rbx, %rbx
	xorq	%r11, %rbx
	shldq	$60, %rbx, %rbx
	movq	-128(%rsp), %rsi                ## 8-byte Reload
	leaq	ldeerlapse_0_1_0__static.3(%rip), %rbp
	movq	248(%rsi,%rbp), %rsi
	addq	%r13, %rsi
	addq	%rax, %rsi
	xorq	%r11, %rbx
	shldq	$50, %rbx, %rbx
	movq	%r12, %rax
	xorq	%r14, %rax
	andq	%r11, %rax
	xorq	%r14, %rax
	addq	%rax, %rsi
	addq	%rbx, %rsi
	movq	%rdi, %rbx
	xorq	%r8, %rbx
	andq	%r15, %rbx
	movq	-128(%rsp), %r15                ## 8-byte Reload
	movq	%rdi, %rax
	shldq	$59, %rax, %rax
	xorq	%rdi, %rax
	shldq	$58, %rax, %rax
	xorq	%rdi, %rax
	shldq	$36, %rax, %rax
	xorq	%r8, %rbx
	addq	%rax, %rbx
	addq	%rsi, %rbx
	addq	%r10, %rsi
	movq	-88(%rsp), %r10                 ## 8-byte Reload
	movq	-104(%rsp), %rax                ## 8-byte Reload
	movq	%rax, -88(%rsp)                 ## 8-byte Spill
	movq	-120(%rsp), %rax                ## 8-byte Reload
	movq	%rax, -104(%rsp)                ## 8-byte Spill
	movq	-112(%rsp), %rax                ## 8-byte Reload
	movq	%rax, -120(%rsp)                ## 8-byte Spill
	movq	-96(%rsp), %rax                 ## 8-byte Reload
	movq	%rax, -112(%rsp)                ## 8-byte Spill
	movq	%r9, 8(%rsp)                    ## 8-byte Spill
	subq	$-128, %r15
	movq	-80(%rsp), %rax                 ## 8-byte Reload
	movq	%r15, %rdx
	cmpq	$512, %r15                      ## imm = 0x200
	jne	Ldeerlapse_0_1_0_BB11_3
## %bb.4:                               ## %after.8
	addq	24(%rsp), %rbx                  ## 8-byte Folded Reload
	addq	32(%rsp), %rdi                  ## 8-byte Folded Reload
	addq	40(%rsp), %r8                   ## 8-byte Folded Reload
	addq	48(%rsp), %rcx                  ## 8-byte Folded Reload
	addq	56(%rsp), %rsi                  ## 8-byte Folded Reload
	addq	64(%rsp), %r11                  ## 8-byte Folded Reload
	addq	72(%rsp), %r12                  ## 8-byte Folded Reload
	addq	80(%rsp), %r14                  ## 8-byte Folded Reload
	movq	88(%rsp), %rax                  ## 8-byte Reload
	movq	%rbx, (%rax)
	movq	%rdi, 8(%rax)
	movq	%r8, 16(%rax)
	movq	%rcx, 24(%rax)
	movq	%rsi, 32(%rax)
	movq	%r11, 40(%rax)
	movq	%r12, 48(%rax)
	movq	%r14, 56(%rax)
	addq	$264, %rsp                      ## imm = 0x108
	popq	%rbx
	popq	%r12
	popq	%r13
	popq	%r14
	popq	%r15
	popq	%rbp
	retq
	.cfi_endproc
                                        ## -- End function
"_deerlapse_0_1_0::key_derivation::hmac::absorb_xored::<#01e4f4eb65b1d8bb>": ## -- Begin function key_derivation::hmac::absorb_xored::<#01e4f4eb65b1d8bb>
                                        ## @"key_derivation::hmac::absorb_xored::<#01e4f4eb65b1d8bb>"
	.cfi_startproc
## %bb.0:                               ## %start
	pushq	%r14
	.cfi_def_cfa_offset 16
	pushq	%rbx
	.cfi_def_cfa_offset 24
	subq	$344, %rsp                      ## imm = 0x158
	.cfi_def_cfa_offset 368
	.cfi_offset %rbx, -24
	.cfi_offset %r14, -16
	movq	%rdi, %rbx
	pxor	%xmm1, %xmm1
	movdqa	%xmm1, 112(%rsp)
	movdqa	%xmm1, 96(%rsp)
	movdqa	%xmm1, 80(%rsp)
	movdqa	%xmm1, 64(%rsp)
	movdqa	%xmm1, 48(%rsp)
	movdqa	%xmm1, 32(%rsp)
	movdqa	%xmm1, 16(%rsp)
	movdqa	%xmm1, (%rsp)
	movd	%edx, %xmm0
	pshufb	%xmm1, %xmm0
	xorl	%eax, %eax
Ldeerlapse_0_1_0_BB12_1:                                ## %vector.body
                                        ## =>This Inner Loop Header: Depth=1
	movdqu	(%rsi,%rax), %xmm1
	pxor	%xmm0, %xmm1
	movdqu	%xmm1, (%rsp,%rax)
	addq	$16, %rax
	cmpq	$128, %rax
	jne	Ldeerlapse_0_1_0_BB12_1
## %bb.2:                               ## %after.1
	movabsq	$-3766243637369397544, %rax     ## imm = 0xCBBB9D5DC1059ED8
	leaq	128(%rsp), %r14
	movq	%rax, (%r14)
	movabsq	$7105036623409894663, %rax      ## imm = 0x629A292A367CD507
	movq	%rax, 8(%r14)
	movabsq	$-7973340178411365097, %rax     ## imm = 0x9159015A3070DD17
	movq	%rax, 16(%r14)
	movabsq	$1526699215303891257, %rax      ## imm = 0x152FECD8F70E5939
	movq	%rax, 24(%r14)
	movabsq	$7436329637833083697, %rax      ## imm = 0x67332667FFC00B31
	movq	%rax, 32(%r14)
	movabsq	$-8163818279084223215, %rax     ## imm = 0x8EB44A8768581511
	movq	%rax, 40(%r14)
	movabsq	$-2662702644619276377, %rax     ## imm = 0xDB0C2E0D64F98FA7
	movq	%rax, 48(%r14)
	movabsq	$5167115440072839076, %rax      ## imm = 0x47B5481DBEFA4FA4
	movq	%rax, 56(%r14)
	pxor	%xmm0, %xmm0
	movdqa	%xmm0, 64(%r14)
	movdqa	%xmm0, 80(%r14)
	movdqa	%xmm0, 96(%r14)
	movdqa	%xmm0, 112(%r14)
	movdqa	%xmm0, 128(%r14)
	movdqa	%xmm0, 144(%r14)
	movdqa	%xmm0, 160(%r14)
	movdqa	%xmm0, 176(%r14)
	movdqa	%xmm0, 192(%r14)
	movq	%rsp, %rsi
	movl	$128, %edx
	movq	%r14, %rdi
	callq	"_deerlapse_0_1_0::sha2::block512::Core512::update"
	movl	$208, %edx
	movq	%rbx, %rdi
	movq	%r14, %rsi
	callq	_memcpy
	addq	$344, %rsp                      ## imm = 0x158
	popq	%rbx
	popq	%r14
	retq
	.cfi_endproc
                                        ## -- End function
"_deerlapse_0_1_0::key_derivation::hmac::HmacKey::finish::<#01e4f4eb65b1d8bb>": ## -- Begin function key_derivation::hmac::HmacKey::finish::<#01e4f4eb65b1d8bb>
                                        ## @"key_derivation::hmac::HmacKey::finish::<#01e4f4eb65b1d8bb>"
	.cfi_startproc
## %bb.0:                               ## %start
	pushq	%rbp
	.cfi_def_cfa_offset 16
	pushq	%r15
	.cfi_def_cfa_offset 24
	pushq	%r14
	.cfi_def_cfa_offset 32
	pushq	%r13
	.cfi_def_cfa_offset 40
	pushq	%r12
	.cfi_def_cfa_offset 48
	pushq	%rbx
	.cfi_def_cfa_offset 56
	subq	$952, %rsp                      ## imm = 0x3B8
	.cfi_def_cfa_offset 1008
	.cfi_offset %rbx, -56
	.cfi_offset %r12, -48
	.cfi_offset %r13, -40
	.cfi_offset %r14, -32
	.cfi_offset %r15, -24
	.cfi_offset %rbp, -16
	movq	%rdx, %r12
	movq	%rdi, %rbx
	xorps	%xmm0, %xmm0
	leaq	64(%rsp), %r14
	movaps	%xmm0, 32(%r14)
	movaps	%xmm0, 16(%r14)
	movaps	%xmm0, (%r14)
	leaq	16(%rsp), %r15
	movaps	%xmm0, (%r15)
	movaps	%xmm0, 16(%r15)
	movaps	%xmm0, 32(%r15)
	movups	208(%rsi), %xmm0
	movups	224(%rsi), %xmm1
	movups	240(%rsi), %xmm2
	movups	256(%rsi), %xmm3
	leaq	112(%rsp), %rax
	movaps	%xmm3, 48(%rax)
	movaps	%xmm2, 32(%rax)
	movaps	%xmm1, 16(%rax)
	movaps	%xmm0, (%rax)
	movups	272(%rsi), %xmm0
	movups	288(%rsi), %xmm1
	movups	304(%rsi), %xmm2
	movups	320(%rsi), %xmm3
	movaps	%xmm0, 64(%rax)
	movaps	%xmm1, 80(%rax)
	movaps	%xmm2, 96(%rax)
	movaps	%xmm3, 112(%rax)
	movups	336(%rsi), %xmm0
	movaps	%xmm0, 128(%rax)
	movups	352(%rsi), %xmm0
	movaps	%xmm0, 144(%rax)
	movups	368(%rsi), %xmm0
	movaps	%xmm0, 160(%rax)
	movups	384(%rsi), %xmm0
	movaps	%xmm0, 176(%rax)
	movaps	400(%rsi), %xmm0
	movaps	%xmm0, (%rsp)                   ## 16-byte Spill
	leaq	336(%rsp), %r13
	movl	$192, %edx
	movq	%r13, %rdi
	movq	%rax, %rsi
	callq	_memcpy
	leaq	127(%rsp), %rbp
	movl	$192, %edx
	movq	%rbp, %rdi
	movq	%r13, %rsi
	callq	_memcpy
	leaq	736(%rsp), %r13
	movl	$192, %edx
	movq	%r13, %rdi
	movq	%rbp, %rsi
	callq	_memcpy
	movaps	(%rsp), %xmm0                   ## 16-byte Reload
	movaps	%xmm0, 192(%r13)
	leaq	528(%rsp), %rbp
	movl	$208, %edx
	movq	%rbp, %rdi
	movq	%r12, %rsi
	callq	_memcpy
	movq	%r15, %rdi
	movq	%rbp, %rsi
	callq	"_deerlapse_0_1_0::sha2::Sha384Digest::finalize"
	movl	$48, %edx
	movq	%r13, %rdi
	movq	%r15, %rsi
	callq	"_deerlapse_0_1_0::sha2::block512::Core512::update"
	movq	%r14, %rdi
	movq	%r13, %rsi
	callq	"_deerlapse_0_1_0::sha2::Sha384Digest::finalize"
	movaps	(%r14), %xmm0
	movaps	16(%r14), %xmm1
	movaps	32(%r14), %xmm2
	movups	%xmm2, 32(%rbx)
	movups	%xmm1, 16(%rbx)
	movups	%xmm0, (%rbx)
	addq	$952, %rsp                      ## imm = 0x3B8
	popq	%rbx
	popq	%r12
	popq	%r13
	popq	%r14
	popq	%r15
	popq	%rbp
	retq
	.cfi_endproc
                                        ## -- End function
	.section	__TEXT,__literal16,16byte_literals
	.p2align	4, 0x0                          ## -- Begin function aead_ciphers_wide::aes::expand
Ldeerlapse_0_1_0_CPI14_0:
	.space	16,15
Ldeerlapse_0_1_0_CPI14_1:
	.byte	0                               ## 0x0
	.byte	1                               ## 0x1
	.byte	39                              ## 0x27
	.byte	38                              ## 0x26
	.byte	192                             ## 0xc0
	.byte	193                             ## 0xc1
	.byte	231                             ## 0xe7
	.byte	230                             ## 0xe6
	.byte	195                             ## 0xc3
	.byte	194                             ## 0xc2
	.byte	228                             ## 0xe4
	.byte	229                             ## 0xe5
	.byte	3                               ## 0x3
	.byte	2                               ## 0x2
	.byte	36                              ## 0x24
	.byte	37                              ## 0x25
Ldeerlapse_0_1_0_CPI14_2:
	.byte	0                               ## 0x0
	.byte	170                             ## 0xaa
	.byte	122                             ## 0x7a
	.byte	208                             ## 0xd0
	.byte	175                             ## 0xaf
	.byte	5                               ## 0x5
	.byte	213                             ## 0xd5
	.byte	127                             ## 0x7f
	.byte	216                             ## 0xd8
	.byte	114                             ## 0x72
	.byte	162                             ## 0xa2
	.byte	8                               ## 0x8
	.byte	119                             ## 0x77
	.byte	221                             ## 0xdd
	.byte	13                              ## 0xd
	.byte	167                             ## 0xa7
Ldeerlapse_0_1_0_CPI14_3:
	.byte	128                             ## 0x80
	.byte	3                               ## 0x3
	.byte	13                              ## 0xd
	.byte	1                               ## 0x1
	.byte	10                              ## 0xa
	.byte	8                               ## 0x8
	.byte	12                              ## 0xc
	.byte	11                              ## 0xb
	.byte	5                               ## 0x5
	.byte	14                              ## 0xe
	.byte	4                               ## 0x4
	.byte	7                               ## 0x7
	.byte	6                               ## 0x6
	.byte	2                               ## 0x2
	.byte	9                               ## 0x9
	.byte	15                              ## 0xf
Ldeerlapse_0_1_0_CPI14_4:
	.byte	128                             ## 0x80
	.byte	1                               ## 0x1
	.byte	12                              ## 0xc
	.byte	8                               ## 0x8
	.byte	6                               ## 0x6
	.byte	15                              ## 0xf
	.byte	4                               ## 0x4
	.byte	14                              ## 0xe
	.byte	3                               ## 0x3
	.byte	13                              ## 0xd
	.byte	11                              ## 0xb
	.byte	10                              ## 0xa
	.byte	2                               ## 0x2
	.byte	9                               ## 0x9
	.byte	7                               ## 0x7
	.byte	5                               ## 0x5
Ldeerlapse_0_1_0_CPI14_5:
	.byte	0                               ## 0x0
	.byte	250                             ## 0xfa
	.byte	53                              ## 0x35
	.byte	106                             ## 0x6a
	.byte	43                              ## 0x2b
	.byte	187                             ## 0xbb
	.byte	95                              ## 0x5f
	.byte	65                              ## 0x41
	.byte	142                             ## 0x8e
	.byte	207                             ## 0xcf
	.byte	228                             ## 0xe4
	.byte	30                              ## 0x1e
	.byte	116                             ## 0x74
	.byte	144                             ## 0x90
	.byte	209                             ## 0xd1
	.byte	165                             ## 0xa5
Ldeerlapse_0_1_0_CPI14_6:
	.byte	0                               ## 0x0
	.byte	129                             ## 0x81
	.byte	153                             ## 0x99
	.byte	118                             ## 0x76
	.byte	10                              ## 0xa
	.byte	253                             ## 0xfd
	.byte	239                             ## 0xef
	.byte	124                             ## 0x7c
	.byte	100                             ## 0x64
	.byte	24                              ## 0x18
	.byte	18                              ## 0x12
	.byte	147                             ## 0x93
	.byte	229                             ## 0xe5
	.byte	247                             ## 0xf7
	.byte	139                             ## 0x8b
	.byte	110                             ## 0x6e
Ldeerlapse_0_1_0_CPI14_7:
	.byte	13                              ## 0xd
	.byte	14                              ## 0xe
	.byte	15                              ## 0xf
	.byte	12                              ## 0xc
	.byte	13                              ## 0xd
	.byte	14                              ## 0xe
	.byte	15                              ## 0xf
	.byte	12                              ## 0xc
	.byte	13                              ## 0xd
	.byte	14                              ## 0xe
	.byte	15                              ## 0xf
	.byte	12                              ## 0xc
	.byte	13                              ## 0xd
	.byte	14                              ## 0xe
	.byte	15                              ## 0xf
	.byte	12                              ## 0xc
Ldeerlapse_0_1_0_CPI14_8:
	.byte	0                               ## 0x0
	.byte	128                             ## 0x80
	.byte	128                             ## 0x80
	.byte	128                             ## 0x80
	.byte	0                               ## 0x0
	.byte	128                             ## 0x80
	.byte	128                             ## 0x80
	.byte	128                             ## 0x80
	.byte	0                               ## 0x0
	.byte	128                             ## 0x80
	.byte	128                             ## 0x80
	.byte	128                             ## 0x80
	.byte	0                               ## 0x0
	.byte	128                             ## 0x80
	.byte	128                             ## 0x80
	.byte	128                             ## 0x80
Ldeerlapse_0_1_0_CPI14_9:
	.space	16,99
	.section	__TEXT,__text,regular,pure_instructions
	.p2align	4
"_deerlapse_0_1_0::aead_ciphers_wide::aes::expand":      ## @"aead_ciphers_wide::aes::expand"
	.cfi_startproc
## %bb.0:                               ## %start
	xorl	%eax, %eax
	testb	%sil, %sil
	setne	%al
	shll	$4, %eax
	addq	$16, %rax
	xorps	%xmm0, %xmm0
	movups	%xmm0, 224(%rdi)
	movups	%xmm0, 208(%rdi)
	movups	%xmm0, 192(%rdi)
	movups	%xmm0, 176(%rdi)
	movl	%eax, %r8d
	shrl	$4, %r8d
	xorl	%ecx, %ecx
	movq	%r8, %r9
	.p2align	4
Ldeerlapse_0_1_0_BB14_1:                                ## %join.5.i617.i.epil
                                        ## =>This Inner Loop Header: Depth=1
	movups	(%rdx,%rcx), %xmm0
	movups	%xmm0, (%rdi,%rcx)
	addq	$16, %rcx
	decq	%r9
	jne	Ldeerlapse_0_1_0_BB14_1
## %bb.2:                               ## %join.5.lr.ph.i
	xorl	%ecx, %ecx
	testb	%sil, %sil
	setne	%cl
	movl	%eax, %edx
	shrl	$2, %edx
	movdqu	(%rdi), %xmm1
	leaq	(%rdi,%rax), %r9
	movdqu	-16(%rdi,%rax), %xmm0
	leaq	6(%rdx), %rax
	leaq	-1(%r8), %rdi
	addq	$7, %rdx
	jmp	Ldeerlapse_0_1_0_BB14_3
	.p2align	4
Ldeerlapse_0_1_0_BB14_8:                                ## %"aead_ciphers_wide::aes::key_schedule::transformed.exit.i"
                                        ##   in Loop: Header=BB14_3 Depth=1
	incq	%r8
	addq	$16, %r9
	movdqa	%xmm0, %xmm1
	movdqa	%xmm3, %xmm0
	cmpq	%r8, %rdx
	je	Ldeerlapse_0_1_0_BB14_9
Ldeerlapse_0_1_0_BB14_3:                                ## %join.5.i
                                        ## =>This Inner Loop Header: Depth=1
	testq	%rdi, %r8
	je	Ldeerlapse_0_1_0_BB14_4
## %bb.5:                               ## %else.4.i.i
                                        ##   in Loop: Header=BB14_3 Depth=1
	pshufd	$255, %xmm0, %xmm2              ## xmm2 = xmm0[3,3,3,3]
	movdqa	Ldeerlapse_0_1_0_CPI14_0(%rip), %xmm3           ## xmm3 = [15,15,15,15,15,15,15,15,15,15,15,15,15,15,15,15]
	movdqa	%xmm2, %xmm4
	pand	%xmm3, %xmm4
	movdqa	Ldeerlapse_0_1_0_CPI14_1(%rip), %xmm5           ## xmm5 = [0,1,39,38,192,193,231,230,195,194,228,229,3,2,36,37]
	pshufb	%xmm4, %xmm5
	psrlw	$4, %xmm2
	pand	%xmm3, %xmm2
	movdqa	Ldeerlapse_0_1_0_CPI14_2(%rip), %xmm4           ## xmm4 = [0,170,122,208,175,5,213,127,216,114,162,8,119,221,13,167]
	pshufb	%xmm2, %xmm4
	pxor	%xmm5, %xmm4
	movdqa	%xmm4, %xmm2
	pand	%xmm3, %xmm2
	psrlw	$4, %xmm4
	pand	%xmm3, %xmm4
	movdqa	%xmm4, %xmm3
	pxor	%xmm2, %xmm3
	movdqa	Ldeerlapse_0_1_0_CPI14_3(%rip), %xmm5           ## xmm5 = [128,3,13,1,10,8,12,11,5,14,4,7,6,2,9,15]
	pshufb	%xmm2, %xmm5
	movdqa	Ldeerlapse_0_1_0_CPI14_4(%rip), %xmm6           ## xmm6 = [128,1,12,8,6,15,4,14,3,13,11,10,2,9,7,5]
	movdqa	%xmm6, %xmm2
	pshufb	%xmm4, %xmm2
	pxor	%xmm5, %xmm2
	movdqa	%xmm6, %xmm7
	pshufb	%xmm3, %xmm7
	pxor	%xmm5, %xmm7
	movdqa	%xmm6, %xmm5
	pshufb	%xmm2, %xmm5
	pxor	%xmm3, %xmm5
	pshufb	%xmm7, %xmm6
	pxor	%xmm4, %xmm6
	movdqa	Ldeerlapse_0_1_0_CPI14_5(%rip), %xmm3           ## xmm3 = [0,250,53,106,43,187,95,65,142,207,228,30,116,144,209,165]
	pshufb	%xmm5, %xmm3
	movdqa	Ldeerlapse_0_1_0_CPI14_6(%rip), %xmm2           ## xmm2 = [0,129,153,118,10,253,239,124,100,24,18,147,229,247,139,110]
	pshufb	%xmm6, %xmm2
	pxor	%xmm3, %xmm2
	jmp	Ldeerlapse_0_1_0_BB14_6
	.p2align	4
Ldeerlapse_0_1_0_BB14_4:                                ## %ok.6.i.i
                                        ##   in Loop: Header=BB14_3 Depth=1
	movq	%r8, %r10
	shrq	%cl, %r10
	movdqa	%xmm0, %xmm2
	pshufb	Ldeerlapse_0_1_0_CPI14_7(%rip), %xmm2           ## xmm2 = xmm2[13,14,15,12,13,14,15,12,13,14,15,12,13,14,15,12]
	movdqa	Ldeerlapse_0_1_0_CPI14_0(%rip), %xmm3           ## xmm3 = [15,15,15,15,15,15,15,15,15,15,15,15,15,15,15,15]
	movdqa	%xmm2, %xmm4
	pand	%xmm3, %xmm4
	movdqa	Ldeerlapse_0_1_0_CPI14_1(%rip), %xmm5           ## xmm5 = [0,1,39,38,192,193,231,230,195,194,228,229,3,2,36,37]
	pshufb	%xmm4, %xmm5
	psrlw	$4, %xmm2
	pand	%xmm3, %xmm2
	movdqa	Ldeerlapse_0_1_0_CPI14_2(%rip), %xmm4           ## xmm4 = [0,170,122,208,175,5,213,127,216,114,162,8,119,221,13,167]
	pshufb	%xmm2, %xmm4
	pxor	%xmm5, %xmm4
	movdqa	%xmm4, %xmm2
	pand	%xmm3, %xmm2
	psrlw	$4, %xmm4
	pand	%xmm3, %xmm4
	movdqa	%xmm4, %xmm3
	pxor	%xmm2, %xmm3
	movdqa	Ldeerlapse_0_1_0_CPI14_3(%rip), %xmm5           ## xmm5 = [128,3,13,1,10,8,12,11,5,14,4,7,6,2,9,15]
	pshufb	%xmm2, %xmm5
	movdqa	Ldeerlapse_0_1_0_CPI14_4(%rip), %xmm2           ## xmm2 = [128,1,12,8,6,15,4,14,3,13,11,10,2,9,7,5]
	movdqa	%xmm2, %xmm6
	pshufb	%xmm4, %xmm6
	pxor	%xmm5, %xmm6
	movdqa	%xmm2, %xmm7
	pshufb	%xmm3, %xmm7
	pxor	%xmm5, %xmm7
	movdqa	%xmm2, %xmm5
	pshufb	%xmm6, %xmm5
	pxor	%xmm3, %xmm5
	pshufb	%xmm7, %xmm2
	pxor	%xmm4, %xmm2
	movdqa	Ldeerlapse_0_1_0_CPI14_5(%rip), %xmm3           ## xmm3 = [0,250,53,106,43,187,95,65,142,207,228,30,116,144,209,165]
	pshufb	%xmm5, %xmm3
	movdqa	Ldeerlapse_0_1_0_CPI14_6(%rip), %xmm4           ## xmm4 = [0,129,153,118,10,253,239,124,100,24,18,147,229,247,139,110]
	pshufb	%xmm2, %xmm4
	leaq	ldeerlapse_0_1_0__static.4(%rip), %r11
	movzbl	-1(%r10,%r11), %r10d
	movd	%r10d, %xmm2
	pshufb	Ldeerlapse_0_1_0_CPI14_8(%rip), %xmm2           ## xmm2 = xmm2[0],zero,zero,zero,xmm2[0],zero,zero,zero,xmm2[0],zero,zero,zero,xmm2[0],zero,zero,zero
	pxor	%xmm3, %xmm2
	pxor	%xmm4, %xmm2
Ldeerlapse_0_1_0_BB14_6:                                ## %"aead_ciphers_wide::aes::key_schedule::transformed.exit.i"
                                        ##   in Loop: Header=BB14_3 Depth=1
	movdqa	%xmm1, %xmm4
	pslldq	$4, %xmm4                       ## xmm4 = zero,zero,zero,zero,xmm4[0,1,2,3,4,5,6,7,8,9,10,11]
	pxor	%xmm1, %xmm4
	movdqa	%xmm4, %xmm3
	pslldq	$8, %xmm3                       ## xmm3 = zero,zero,zero,zero,zero,zero,zero,zero,xmm3[0,1,2,3,4,5,6,7]
	pxor	%xmm4, %xmm3
	pxor	%xmm2, %xmm3
	pxor	Ldeerlapse_0_1_0_CPI14_9(%rip), %xmm3
	movdqu	%xmm3, (%r9)
	testb	%sil, %sil
	jne	Ldeerlapse_0_1_0_BB14_8
## %bb.7:                               ## %"aead_ciphers_wide::aes::key_schedule::transformed.exit.i"
                                        ##   in Loop: Header=BB14_3 Depth=1
	movdqa	%xmm3, %xmm0
	jmp	Ldeerlapse_0_1_0_BB14_8
Ldeerlapse_0_1_0_BB14_9:                                ## %"aead_ciphers_wide::aes::key_schedule::expand.exit"
	retq
	.cfi_endproc
                                        ## -- End function
	.section	__TEXT,__literal16,16byte_literals
	.p2align	4, 0x0                          ## -- Begin function aead_ciphers_wide::aes::block_key::BlockKeyRef::encrypt_one
Ldeerlapse_0_1_0_CPI15_0:
	.space	16,15
Ldeerlapse_0_1_0_CPI15_1:
	.byte	0                               ## 0x0
	.byte	1                               ## 0x1
	.byte	39                              ## 0x27
	.byte	38                              ## 0x26
	.byte	192                             ## 0xc0
	.byte	193                             ## 0xc1
	.byte	231                             ## 0xe7
	.byte	230                             ## 0xe6
	.byte	195                             ## 0xc3
	.byte	194                             ## 0xc2
	.byte	228                             ## 0xe4
	.byte	229                             ## 0xe5
	.byte	3                               ## 0x3
	.byte	2                               ## 0x2
	.byte	36                              ## 0x24
	.byte	37                              ## 0x25
Ldeerlapse_0_1_0_CPI15_2:
	.byte	0                               ## 0x0
	.byte	170                             ## 0xaa
	.byte	122                             ## 0x7a
	.byte	208                             ## 0xd0
	.byte	175                             ## 0xaf
	.byte	5                               ## 0x5
	.byte	213                             ## 0xd5
	.byte	127                             ## 0x7f
	.byte	216                             ## 0xd8
	.byte	114                             ## 0x72
	.byte	162                             ## 0xa2
	.byte	8                               ## 0x8
	.byte	119                             ## 0x77
	.byte	221                             ## 0xdd
	.byte	13                              ## 0xd
	.byte	167                             ## 0xa7
Ldeerlapse_0_1_0_CPI15_3:
	.byte	128                             ## 0x80
	.byte	3                               ## 0x3
	.byte	13                              ## 0xd
	.byte	1                               ## 0x1
	.byte	10                              ## 0xa
	.byte	8                               ## 0x8
	.byte	12                              ## 0xc
	.byte	11                              ## 0xb
	.byte	5                               ## 0x5
	.byte	14                              ## 0xe
	.byte	4                               ## 0x4
	.byte	7                               ## 0x7
	.byte	6                               ## 0x6
	.byte	2                               ## 0x2
	.byte	9                               ## 0x9
	.byte	15                              ## 0xf
Ldeerlapse_0_1_0_CPI15_4:
	.byte	128                             ## 0x80
	.byte	1                               ## 0x1
	.byte	12                              ## 0xc
	.byte	8                               ## 0x8
	.byte	6                               ## 0x6
	.byte	15                              ## 0xf
	.byte	4                               ## 0x4
	.byte	14                              ## 0xe
	.byte	3                               ## 0x3
	.byte	13                              ## 0xd
	.byte	11                              ## 0xb
	.byte	10                              ## 0xa
	.byte	2                               ## 0x2
	.byte	9                               ## 0x9
	.byte	7                               ## 0x7
	.byte	5                               ## 0x5
Ldeerlapse_0_1_0_CPI15_5:
	.byte	0                               ## 0x0
	.byte	250                             ## 0xfa
	.byte	53                              ## 0x35
	.byte	106                             ## 0x6a
	.byte	43                              ## 0x2b
	.byte	187                             ## 0xbb
	.byte	95                              ## 0x5f
	.byte	65                              ## 0x41
	.byte	142                             ## 0x8e
	.byte	207                             ## 0xcf
	.byte	228                             ## 0xe4
	.byte	30                              ## 0x1e
	.byte	116                             ## 0x74
	.byte	144                             ## 0x90
	.byte	209                             ## 0xd1
	.byte	165                             ## 0xa5
Ldeerlapse_0_1_0_CPI15_6:
	.byte	0                               ## 0x0
	.byte	129                             ## 0x81
	.byte	153                             ## 0x99
	.byte	118                             ## 0x76
	.byte	10                              ## 0xa
	.byte	253                             ## 0xfd
	.byte	239                             ## 0xef
	.byte	124                             ## 0x7c
	.byte	100                             ## 0x64
	.byte	24                              ## 0x18
	.byte	18                              ## 0x12
	.byte	147                             ## 0x93
	.byte	229                             ## 0xe5
	.byte	247                             ## 0xf7
	.byte	139                             ## 0x8b
	.byte	110                             ## 0x6e
Ldeerlapse_0_1_0_CPI15_7:
	.space	16,99
Ldeerlapse_0_1_0_CPI15_8:
	.byte	0                               ## 0x0
	.byte	5                               ## 0x5
	.byte	10                              ## 0xa
	.byte	15                              ## 0xf
	.byte	4                               ## 0x4
	.byte	9                               ## 0x9
	.byte	14                              ## 0xe
	.byte	3                               ## 0x3
	.byte	8                               ## 0x8
	.byte	13                              ## 0xd
	.byte	2                               ## 0x2
	.byte	7                               ## 0x7
	.byte	12                              ## 0xc
	.byte	1                               ## 0x1
	.byte	6                               ## 0x6
	.byte	11                              ## 0xb
Ldeerlapse_0_1_0_CPI15_9:
	.byte	5                               ## 0x5
	.byte	10                              ## 0xa
	.byte	15                              ## 0xf
	.byte	0                               ## 0x0
	.byte	9                               ## 0x9
	.byte	14                              ## 0xe
	.byte	3                               ## 0x3
	.byte	4                               ## 0x4
	.byte	13                              ## 0xd
	.byte	2                               ## 0x2
	.byte	7                               ## 0x7
	.byte	8                               ## 0x8
	.byte	1                               ## 0x1
	.byte	6                               ## 0x6
	.byte	11                              ## 0xb
	.byte	12                              ## 0xc
Ldeerlapse_0_1_0_CPI15_10:
	.space	16,27
	.section	__TEXT,__text,regular,pure_instructions
	.p2align	4
"_deerlapse_0_1_0::aead_ciphers_wide::aes::block_key::BlockKeyRef::encrypt_one": ## @"aead_ciphers_wide::aes::block_key::BlockKeyRef::encrypt_one"
	.cfi_startproc
## %bb.0:                               ## %start
	movdqu	(%rcx), %xmm1
	movdqu	(%rsi), %xmm0
	pxor	%xmm1, %xmm0
	cmpq	$2, %rdx
	jb	Ldeerlapse_0_1_0_BB15_3
## %bb.1:                               ## %join.5.preheader
	leaq	-1(%rdx), %rax
	leaq	16(%rsi), %rcx
	.p2align	4
Ldeerlapse_0_1_0_BB15_2:                                ## %join.5
                                        ## =>This Inner Loop Header: Depth=1
	movdqa	Ldeerlapse_0_1_0_CPI15_0(%rip), %xmm1           ## xmm1 = [15,15,15,15,15,15,15,15,15,15,15,15,15,15,15,15]
	movdqa	%xmm0, %xmm2
	pand	%xmm1, %xmm2
	movdqa	Ldeerlapse_0_1_0_CPI15_1(%rip), %xmm3           ## xmm3 = [0,1,39,38,192,193,231,230,195,194,228,229,3,2,36,37]
	pshufb	%xmm2, %xmm3
	psrlw	$4, %xmm0
	pand	%xmm1, %xmm0
	movdqa	Ldeerlapse_0_1_0_CPI15_2(%rip), %xmm2           ## xmm2 = [0,170,122,208,175,5,213,127,216,114,162,8,119,221,13,167]
	pshufb	%xmm0, %xmm2
	pxor	%xmm3, %xmm2
	movdqa	%xmm2, %xmm0
	pand	%xmm1, %xmm0
	psrlw	$4, %xmm2
	pand	%xmm1, %xmm2
	movdqa	%xmm2, %xmm1
	pxor	%xmm0, %xmm1
	movdqa	Ldeerlapse_0_1_0_CPI15_3(%rip), %xmm3           ## xmm3 = [128,3,13,1,10,8,12,11,5,14,4,7,6,2,9,15]
	pshufb	%xmm0, %xmm3
	movdqa	Ldeerlapse_0_1_0_CPI15_4(%rip), %xmm0           ## xmm0 = [128,1,12,8,6,15,4,14,3,13,11,10,2,9,7,5]
	movdqa	%xmm0, %xmm4
	pshufb	%xmm2, %xmm4
	pxor	%xmm3, %xmm4
	movdqa	%xmm0, %xmm5
	pshufb	%xmm1, %xmm5
	pxor	%xmm3, %xmm5
	movdqa	%xmm0, %xmm3
	pshufb	%xmm4, %xmm3
	pxor	%xmm1, %xmm3
	pshufb	%xmm5, %xmm0
	pxor	%xmm2, %xmm0
	movdqa	Ldeerlapse_0_1_0_CPI15_5(%rip), %xmm1           ## xmm1 = [0,250,53,106,43,187,95,65,142,207,228,30,116,144,209,165]
	pshufb	%xmm3, %xmm1
	movdqa	Ldeerlapse_0_1_0_CPI15_6(%rip), %xmm2           ## xmm2 = [0,129,153,118,10,253,239,124,100,24,18,147,229,247,139,110]
	pshufb	%xmm0, %xmm2
	pxor	%xmm1, %xmm2
	pxor	Ldeerlapse_0_1_0_CPI15_7(%rip), %xmm2
	movdqa	%xmm2, %xmm0
	pshufb	Ldeerlapse_0_1_0_CPI15_8(%rip), %xmm0           ## xmm0 = xmm0[0,5,10,15,4,9,14,3,8,13,2,7,12,1,6,11]
	pshufb	Ldeerlapse_0_1_0_CPI15_9(%rip), %xmm2           ## xmm2 = xmm2[5,10,15,0,9,14,3,4,13,2,7,8,1,6,11,12]
	pxor	%xmm2, %xmm0
	pxor	%xmm1, %xmm1
	pcmpgtb	%xmm0, %xmm1
	pshuflw	$177, %xmm0, %xmm3              ## xmm3 = xmm0[1,0,3,2,4,5,6,7]
	paddb	%xmm0, %xmm0
	pand	Ldeerlapse_0_1_0_CPI15_10(%rip), %xmm1
	pshufhw	$177, %xmm3, %xmm3              ## xmm3 = xmm3[0,1,2,3,5,4,7,6]
	pxor	%xmm0, %xmm3
	movdqu	(%rcx), %xmm0
	pxor	%xmm3, %xmm0
	pxor	%xmm2, %xmm0
	pxor	%xmm1, %xmm0
	addq	$16, %rcx
	decq	%rax
	jne	Ldeerlapse_0_1_0_BB15_2
Ldeerlapse_0_1_0_BB15_3:                                ## %after.1
	movdqa	Ldeerlapse_0_1_0_CPI15_0(%rip), %xmm1           ## xmm1 = [15,15,15,15,15,15,15,15,15,15,15,15,15,15,15,15]
	movdqa	%xmm0, %xmm2
	pand	%xmm1, %xmm2
	movdqa	Ldeerlapse_0_1_0_CPI15_1(%rip), %xmm3           ## xmm3 = [0,1,39,38,192,193,231,230,195,194,228,229,3,2,36,37]
	pshufb	%xmm2, %xmm3
	psrlw	$4, %xmm0
	pand	%xmm1, %xmm0
	movdqa	Ldeerlapse_0_1_0_CPI15_2(%rip), %xmm2           ## xmm2 = [0,170,122,208,175,5,213,127,216,114,162,8,119,221,13,167]
	pshufb	%xmm0, %xmm2
	pxor	%xmm3, %xmm2
	movdqa	%xmm2, %xmm0
	pand	%xmm1, %xmm0
	psrlw	$4, %xmm2
	pand	%xmm1, %xmm2
	movdqa	%xmm2, %xmm1
	pxor	%xmm0, %xmm1
	movdqa	Ldeerlapse_0_1_0_CPI15_3(%rip), %xmm3           ## xmm3 = [128,3,13,1,10,8,12,11,5,14,4,7,6,2,9,15]
	pshufb	%xmm0, %xmm3
	movdqa	Ldeerlapse_0_1_0_CPI15_4(%rip), %xmm0           ## xmm0 = [128,1,12,8,6,15,4,14,3,13,11,10,2,9,7,5]
	movdqa	%xmm0, %xmm4
	pshufb	%xmm2, %xmm4
	pxor	%xmm3, %xmm4
	movdqa	%xmm0, %xmm5
	pshufb	%xmm1, %xmm5
	pxor	%xmm3, %xmm5
	movdqa	%xmm0, %xmm3
	pshufb	%xmm4, %xmm3
	pxor	%xmm1, %xmm3
	pshufb	%xmm5, %xmm0
	pxor	%xmm2, %xmm0
	movdqa	Ldeerlapse_0_1_0_CPI15_5(%rip), %xmm1           ## xmm1 = [0,250,53,106,43,187,95,65,142,207,228,30,116,144,209,165]
	pshufb	%xmm3, %xmm1
	movdqa	Ldeerlapse_0_1_0_CPI15_6(%rip), %xmm2           ## xmm2 = [0,129,153,118,10,253,239,124,100,24,18,147,229,247,139,110]
	pshufb	%xmm0, %xmm2
	movdqa	Ldeerlapse_0_1_0_CPI15_8(%rip), %xmm0           ## xmm0 = [0,5,10,15,4,9,14,3,8,13,2,7,12,1,6,11]
	pshufb	%xmm0, %xmm1
	pshufb	%xmm0, %xmm2
	pxor	%xmm1, %xmm2
	pxor	Ldeerlapse_0_1_0_CPI15_7(%rip), %xmm2
	shlq	$4, %rdx
	movdqu	(%rsi,%rdx), %xmm0
	pxor	%xmm2, %xmm0
	movdqu	%xmm0, (%rdi)
	retq
	.cfi_endproc
                                        ## -- End function
	.section	__TEXT,__literal16,16byte_literals
	.p2align	4, 0x0                          ## -- Begin function key_derivation::quic::endpoint_secret
Ldeerlapse_0_1_0_CPI16_0:
	.byte	56                              ## 0x38
	.byte	118                             ## 0x76
	.byte	44                              ## 0x2c
	.byte	247                             ## 0xf7
	.byte	245                             ## 0xf5
	.byte	89                              ## 0x59
	.byte	52                              ## 0x34
	.byte	179                             ## 0xb3
	.byte	77                              ## 0x4d
	.byte	23                              ## 0x17
	.byte	154                             ## 0x9a
	.byte	230                             ## 0xe6
	.byte	164                             ## 0xa4
	.byte	200                             ## 0xc8
	.byte	12                              ## 0xc
	.byte	173                             ## 0xad
Ldeerlapse_0_1_0_CPI16_1:
	.byte	13                              ## 0xd
	.byte	237                             ## 0xed
	.byte	227                             ## 0xe3
	.byte	222                             ## 0xde
	.byte	247                             ## 0xf7
	.byte	0                               ## 0x0
	.byte	166                             ## 0xa6
	.byte	219                             ## 0xdb
	.byte	129                             ## 0x81
	.byte	147                             ## 0x93
	.byte	129                             ## 0x81
	.byte	190                             ## 0xbe
	.byte	110                             ## 0x6e
	.byte	38                              ## 0x26
	.byte	157                             ## 0x9d
	.byte	203                             ## 0xcb
Ldeerlapse_0_1_0_CPI16_2:
	.byte	204                             ## 0xcc
	.byte	187                             ## 0xbb
	.byte	127                             ## 0x7f
	.byte	10                              ## 0xa
	.space	1
	.space	1
	.space	1
	.space	1
	.space	1
	.space	1
	.space	1
	.space	1
	.space	1
	.space	1
	.space	1
	.space	1
Ldeerlapse_0_1_0_CPI16_3:
	.byte	249                             ## 0xf9
	.byte	189                             ## 0xbd
	.byte	46                              ## 0x2e
	.byte	217                             ## 0xd9
	.space	1
	.space	1
	.space	1
	.space	1
	.space	1
	.space	1
	.space	1
	.space	1
	.space	1
	.space	1
	.space	1
	.space	1
Ldeerlapse_0_1_0_CPI16_4:
	.byte	204                             ## 0xcc
	.byte	187                             ## 0xbb
	.byte	127                             ## 0x7f
	.byte	10                              ## 0xa
	.byte	0                               ## 0x0
	.byte	0                               ## 0x0
	.byte	0                               ## 0x0
	.byte	0                               ## 0x0
	.byte	0                               ## 0x0
	.byte	0                               ## 0x0
	.byte	0                               ## 0x0
	.byte	0                               ## 0x0
	.byte	0                               ## 0x0
	.byte	0                               ## 0x0
	.byte	0                               ## 0x0
	.byte	0                               ## 0x0
	.section	__TEXT,__text,regular,pure_instructions
"_deerlapse_0_1_0::key_derivation::quic::endpoint_secret": ## @"key_derivation::quic::endpoint_secret"
	.cfi_startproc
## %bb.0:                               ## %start
	pushq	%rbp
	.cfi_def_cfa_offset 16
	pushq	%r15
	.cfi_def_cfa_offset 24
	pushq	%r14
	.cfi_def_cfa_offset 32
	pushq	%r12
	.cfi_def_cfa_offset 40
	pushq	%rbx
	.cfi_def_cfa_offset 48
	subq	$480, %rsp                      ## imm = 0x1E0
	.cfi_def_cfa_offset 528
	.cfi_offset %rbx, -48
	.cfi_offset %r12, -40
	.cfi_offset %r14, -32
	.cfi_offset %r15, -24
	.cfi_offset %rbp, -16
	movq	%r8, %r14
	movq	%rcx, %r8
	movq	%rdi, %rbx
	cmpq	$20, %rcx
	jbe	Ldeerlapse_0_1_0_BB16_2
## %bb.1:                               ## %then.1
	movb	$1, (%rbx)
	xorps	%xmm0, %xmm0
	movups	%xmm0, 3(%rbx)
	movups	%xmm0, 19(%rbx)
	movups	%xmm0, 35(%rbx)
	movb	$1, %bpl
	jmp	Ldeerlapse_0_1_0_BB16_3
Ldeerlapse_0_1_0_BB16_2:                                ## %join.3
	movq	%rdx, %rcx
	movl	%esi, %ebp
	movzbl	%bpl, %eax
	movd	%eax, %xmm0
	punpcklbw	%xmm0, %xmm0            ## xmm0 = xmm0[0,0,1,1,2,2,3,3,4,4,5,5,6,6,7,7]
	pshuflw	$0, %xmm0, %xmm1                ## xmm1 = xmm0[0,0,0,0,4,5,6,7]
	pshufd	$68, %xmm1, %xmm0               ## xmm0 = xmm1[0,1,0,1]
	psllw	$7, %xmm0
	movdqa	Ldeerlapse_0_1_0_CPI16_0(%rip), %xmm2           ## xmm2 = [56,118,44,247,245,89,52,179,77,23,154,230,164,200,12,173]
	pblendvb	%xmm0, Ldeerlapse_0_1_0_CPI16_1(%rip), %xmm2
	leaq	96(%rsp), %rsi
	movdqa	%xmm2, (%rsi)
	psllw	$7, %xmm1
	movd	Ldeerlapse_0_1_0_CPI16_4(%rip), %xmm2           ## xmm2 = [204,187,127,10,0,0,0,0,0,0,0,0,0,0,0,0]
	movdqa	%xmm1, %xmm0
	pblendvb	%xmm0, Ldeerlapse_0_1_0_CPI16_3(%rip), %xmm2
	movd	%xmm2, 16(%rsi)
	leaq	192(%rsp), %r15
	movl	$20, %edx
	movq	%r15, %rdi
	callq	"_deerlapse_0_1_0::key_derivation::hmac::hmac::<#7cab53feae2e1c66>"
	movups	(%r15), %xmm0
	movups	16(%r15), %xmm1
	leaq	128(%rsp), %rsi
	movaps	%xmm1, 16(%rsi)
	movaps	%xmm0, (%rsi)
	leaq	224(%rsp), %r15
	movl	$32, %edx
	movq	%r15, %rdi
	callq	"_deerlapse_0_1_0::key_derivation::hmac::HmacKey::new::<#7cab53feae2e1c66>"
	xorps	%xmm0, %xmm0
	leaq	160(%rsp), %r12
	movaps	%xmm0, 16(%r12)
	movaps	%xmm0, (%r12)
	movq	$32, (%rsp)
	leaq	ldeerlapse_0_1_0__static.6(%rip), %rcx
	movl	$9, %edx
	movq	%r15, %rdi
	movq	%r14, %rsi
	xorl	%r8d, %r8d
	movq	%r12, %r9
	callq	"_deerlapse_0_1_0::key_derivation::hkdf::Expander::fill_labeled::<#7cab53feae2e1c66>"
	movaps	(%r12), %xmm0
	movaps	16(%r12), %xmm1
	movaps	%xmm1, 80(%rsp)
	movaps	%xmm0, 64(%rsp)
	pxor	%xmm2, %xmm2
	movdqa	%xmm2, 48(%rsp)
	movaps	%xmm0, 16(%rsp)
	movaps	%xmm1, 32(%rsp)
	movb	$0, (%rbx)
	movaps	16(%rsp), %xmm0
	movaps	32(%rsp), %xmm1
	movaps	48(%rsp), %xmm2
	movups	%xmm0, 3(%rbx)
	movups	%xmm1, 19(%rbx)
	movups	%xmm2, 35(%rbx)
Ldeerlapse_0_1_0_BB16_3:                                ## %common.ret
	movb	%bpl, 1(%rbx)
	movb	$0, 2(%rbx)
	addq	$480, %rsp                      ## imm = 0x1E0
	popq	%rbx
	popq	%r12
	popq	%r14
	popq	%r15
	popq	%rbp
	retq
	.cfi_endproc
                                        ## -- End function
"_deerlapse_0_1_0::key_derivation::hkdf::Expander::fill_labeled::<#7cab53feae2e1c66>": ## -- Begin function key_derivation::hkdf::Expander::fill_labeled::<#7cab53feae2e1c66>
                                        ## @"key_derivation::hkdf::Expander::fill_labeled::<#7cab53feae2e1c66>"
	.cfi_startproc
## %bb.0:                               ## %start
	pushq	%rbp
	.cfi_def_cfa_offset 16
	pushq	%r15
	.cfi_def_cfa_offset 24
	pushq	%r14
	.cfi_def_cfa_offset 32
	pushq	%r13
	.cfi_def_cfa_offset 40
	pushq	%r12
	.cfi_def_cfa_offset 48
	pushq	%rbx
	.cfi_def_cfa_offset 56
	subq	$552, %rsp                      ## imm = 0x228
	.cfi_def_cfa_offset 608
	.cfi_offset %rbx, -56
	.cfi_offset %r12, -48
	.cfi_offset %r13, -40
	.cfi_offset %r14, -32
	.cfi_offset %r15, -24
	.cfi_offset %rbp, -16
	movq	%r9, 8(%rsp)                    ## 8-byte Spill
	movq	%r8, %r14
	movq	%rcx, %r15
	movq	%rdx, %r12
	movq	%rsi, %r13
	movq	%rdi, %rbp
	leaq	41(%rsp), %rdi
	movl	$511, %esi                      ## imm = 0x1FF
	callq	___bzero
	leaq	38(%rsp), %rbx
	movq	%rbx, %rdi
	movq	%r13, %rsi
	movq	%r12, %rdx
	movq	%r15, %rcx
	movq	%r14, %r8
	movq	608(%rsp), %r9
                                        ## kill: def $r9d killed $r9d killed $r9
	callq	"_deerlapse_0_1_0::key_derivation::hkdf::write_hkdf_label"
	leaq	16(%rsp), %rsi
	movq	%rbx, (%rsi)
	movq	%rax, 8(%rsi)
	movq	%rbp, %rdi
	movq	8(%rsp), %rdx                   ## 8-byte Reload
	movq	608(%rsp), %rcx
	callq	"_deerlapse_0_1_0::key_derivation::hkdf::Expander::fill_okm::<#7cab53feae2e1c66>"
	addq	$552, %rsp                      ## imm = 0x228
	popq	%rbx
	popq	%r12
	popq	%r13
	popq	%r14
	popq	%r15
	popq	%rbp
	retq
	.cfi_endproc
                                        ## -- End function
"_deerlapse_0_1_0::key_derivation::hkdf::write_hkdf_label": ## -- Begin function key_derivation::hkdf::write_hkdf_label
                                        ## @"key_derivation::hkdf::write_hkdf_label"
	.cfi_startproc
## %bb.0:                               ## %start
	pushq	%r15
	.cfi_def_cfa_offset 16
	pushq	%r14
	.cfi_def_cfa_offset 24
	pushq	%r12
	.cfi_def_cfa_offset 32
	pushq	%rbx
	.cfi_def_cfa_offset 40
	pushq	%rax
	.cfi_def_cfa_offset 48
	.cfi_offset %rbx, -40
	.cfi_offset %r12, -32
	.cfi_offset %r14, -24
	.cfi_offset %r15, -16
	movq	%r8, %rbx
	movq	%rcx, %r15
	movq	%rdx, %r14
	movq	%rdi, %r12
	rolw	$8, %r9w
	movw	%r9w, (%rdi)
	leal	6(%rdx), %eax
	movb	%al, 2(%rdi)
	leaq	3(%rdi), %rax
	leaq	ldeerlapse_0_1_0__static.7(%rip), %rcx
	movq	%rcx, %rdx
	negq	%rdx
	addq	%rdi, %rdx
	addq	$3, %rdx
	cmpq	$5, %rdx
	ja	Ldeerlapse_0_1_0_BB18_10
## %bb.1:                               ## %join.7.i.i.i.i.i.i.i23.preheader
	xorl	%edx, %edx
Ldeerlapse_0_1_0_BB18_2:                                ## %join.7.i.i.i.i.i.i.i23
                                        ## =>This Inner Loop Header: Depth=1
	movb	(%rdx,%rcx), %dil
	movb	%dil, (%rax,%rdx)
	incq	%rdx
	cmpq	$6, %rdx
	jne	Ldeerlapse_0_1_0_BB18_2
	jmp	Ldeerlapse_0_1_0_BB18_3
Ldeerlapse_0_1_0_BB18_10:                               ## %apart.2.i.i.i.i.i.i.i22
	movw	$8243, 4(%rax)                  ## imm = 0x2033
	movl	$829647988, (%rax)              ## imm = 0x31736C74
Ldeerlapse_0_1_0_BB18_3:                                ## %"key_derivation::hkdf::write_at.exit30"
	leaq	9(%r12), %rdi
	movq	%rdi, %rax
	subq	%rsi, %rax
	cmpq	%r14, %rax
	jae	Ldeerlapse_0_1_0_BB18_11
## %bb.4:                               ## %join.7.i.i.i.i.i.i.i37.preheader
	xorl	%eax, %eax
Ldeerlapse_0_1_0_BB18_5:                                ## %join.7.i.i.i.i.i.i.i37
                                        ## =>This Inner Loop Header: Depth=1
	movb	(%rsi,%rax), %cl
	movb	%cl, (%rdi,%rax)
	incq	%rax
	cmpq	%rax, %r14
	jne	Ldeerlapse_0_1_0_BB18_5
	jmp	Ldeerlapse_0_1_0_BB18_6
Ldeerlapse_0_1_0_BB18_11:                               ## %apart.2.i.i.i.i.i.i.i36
	movq	%r14, %rdx
	callq	_memmove
Ldeerlapse_0_1_0_BB18_6:                                ## %"key_derivation::hkdf::write_at.exit44"
	leaq	(%r12,%r14), %rdi
	addq	$10, %rdi
	movb	%bl, -1(%rdi)
	addq	$10, %r14
	movq	%rdi, %rax
	subq	%r15, %rax
	cmpq	%rbx, %rax
	jae	Ldeerlapse_0_1_0_BB18_12
## %bb.7:                               ## %join.7.i.i.i.i.i.i.i67.preheader
	xorl	%eax, %eax
Ldeerlapse_0_1_0_BB18_8:                                ## %join.7.i.i.i.i.i.i.i67
                                        ## =>This Inner Loop Header: Depth=1
	movb	(%r15,%rax), %cl
	movb	%cl, (%rdi,%rax)
	incq	%rax
	cmpq	%rax, %rbx
	jne	Ldeerlapse_0_1_0_BB18_8
	jmp	Ldeerlapse_0_1_0_BB18_9
Ldeerlapse_0_1_0_BB18_12:                               ## %apart.2.i.i.i.i.i.i.i65
	movq	%r15, %rsi
	movq	%rbx, %rdx
	callq	_memmove
Ldeerlapse_0_1_0_BB18_9:                                ## %"key_derivation::hkdf::write_at.exit74"
	addq	%r14, %rbx
	movq	%rbx, %rax
	addq	$8, %rsp
	popq	%rbx
	popq	%r12
	popq	%r14
	popq	%r15
	retq
	.cfi_endproc
                                        ## -- End function
"_deerlapse_0_1_0::key_derivation::hkdf::Expander::fill_okm::<#7cab53feae2e1c66>": ## -- Begin function key_derivation::hkdf::Expander::fill_okm::<#7cab53feae2e1c66>
                                        ## @"key_derivation::hkdf::Expander::fill_okm::<#7cab53feae2e1c66>"
	.cfi_startproc
## %bb.0:                               ## %start
	pushq	%rbp
	.cfi_def_cfa_offset 16
	pushq	%r15
	.cfi_def_cfa_offset 24
	pushq	%r14
	.cfi_def_cfa_offset 32
	pushq	%r13
	.cfi_def_cfa_offset 40
	pushq	%r12
	.cfi_def_cfa_offset 48
	pushq	%rbx
	.cfi_def_cfa_offset 56
	subq	$744, %rsp                      ## imm = 0x2E8
	.cfi_def_cfa_offset 800
	.cfi_offset %rbx, -56
	.cfi_offset %r12, -48
	.cfi_offset %r13, -40
	.cfi_offset %r14, -32
	.cfi_offset %r15, -24
	.cfi_offset %rbp, -16
	movq	%rcx, %rbp
	movq	%rsi, 56(%rsp)                  ## 8-byte Spill
	movq	%rdi, 16(%rsp)                  ## 8-byte Spill
	addq	$31, %rcx
	shrq	$5, %rcx
	je	Ldeerlapse_0_1_0_BB19_3
## %bb.1:                               ## %join.7.lr.ph
	movq	16(%rsp), %rax                  ## 8-byte Reload
	addq	$32, %rax
	movq	%rax, 32(%rsp)                  ## 8-byte Spill
	leaq	544(%rsp), %r15
	xorl	%r13d, %r13d
	xorl	%r12d, %r12d
	movq	%rbp, 48(%rsp)                  ## 8-byte Spill
	movq	%rdx, 24(%rsp)                  ## 8-byte Spill
	movq	%rcx, 40(%rsp)                  ## 8-byte Spill
Ldeerlapse_0_1_0_BB19_2:                                ## %join.7
                                        ## =>This Inner Loop Header: Depth=1
	movq	16(%rsp), %r14                  ## 8-byte Reload
	movups	(%r14), %xmm0
	movups	16(%r14), %xmm1
	movaps	%xmm1, 176(%rsp)
	movaps	%xmm0, 160(%rsp)
	movq	32(%rsp), %rax                  ## 8-byte Reload
	movups	(%rax), %xmm0
	movups	16(%rax), %xmm1
	movups	32(%rax), %xmm2
	movups	48(%rax), %xmm3
	leaq	192(%rsp), %rax
	movups	%xmm3, 48(%rax)
	movups	%xmm2, 32(%rax)
	movups	%xmm1, 16(%rax)
	movups	%xmm0, (%rax)
	movq	96(%r14), %rax
	movaps	160(%rsp), %xmm0
	movaps	176(%rsp), %xmm1
	movaps	192(%rsp), %xmm2
	movaps	208(%rsp), %xmm3
	leaq	439(%rsp), %rcx
	movups	%xmm1, 16(%rcx)
	movups	%xmm2, 32(%rcx)
	movups	%xmm3, 48(%rcx)
	movaps	224(%rsp), %xmm1
	movups	%xmm1, 64(%rcx)
	movaps	240(%rsp), %xmm1
	movups	%xmm1, 80(%rcx)
	movups	%xmm0, (%rcx)
	movups	80(%rcx), %xmm0
	movups	%xmm0, 80(%r15)
	movups	64(%rcx), %xmm0
	movups	%xmm0, 64(%r15)
	movups	(%rcx), %xmm0
	movups	16(%rcx), %xmm1
	movups	32(%rcx), %xmm2
	movups	48(%rcx), %xmm3
	movups	%xmm3, 48(%r15)
	movups	%xmm2, 32(%r15)
	movups	%xmm1, 16(%r15)
	movups	%xmm0, (%r15)
	movups	(%r15), %xmm0
	movups	16(%r15), %xmm1
	movups	32(%r15), %xmm2
	movups	48(%r15), %xmm3
	movaps	%xmm0, 64(%rsp)
	movaps	%xmm1, 80(%rsp)
	movaps	%xmm2, 96(%rsp)
	movaps	%xmm3, 112(%rsp)
	movups	64(%r15), %xmm0
	movaps	%xmm0, 128(%rsp)
	movups	80(%r15), %xmm0
	movaps	%xmm0, 144(%rsp)
	movaps	64(%rsp), %xmm0
	movaps	80(%rsp), %xmm1
	movaps	96(%rsp), %xmm2
	movaps	112(%rsp), %xmm3
	leaq	640(%rsp), %rbp
	movaps	%xmm0, (%rbp)
	movaps	%xmm1, 16(%rbp)
	movaps	%xmm2, 32(%rbp)
	movaps	%xmm3, 48(%rbp)
	movaps	128(%rsp), %xmm0
	movaps	%xmm0, 64(%rbp)
	movaps	144(%rsp), %xmm0
	movaps	%xmm0, 80(%rbp)
	xorl	%ecx, %ecx
	movq	%r13, %rsi
	subq	$32, %rsi
	cmovaeq	%rsi, %rcx
	movq	%rax, 96(%rbp)
	leaq	(%rdx,%rcx), %rsi
	movq	%r13, %rdx
	subq	%rcx, %rdx
	movq	%rbp, %rdi
	callq	"_deerlapse_0_1_0::sha2::block256::Core256::update"
	movq	96(%rbp), %rax
	leaq	432(%rsp), %rbx
	movq	%rax, 96(%rbx)
	movaps	80(%rbp), %xmm0
	movaps	%xmm0, 80(%rbx)
	movaps	64(%rbp), %xmm0
	movaps	%xmm0, 64(%rbx)
	movaps	(%rbp), %xmm0
	movaps	16(%rbp), %xmm1
	movaps	32(%rbp), %xmm2
	movaps	48(%rbp), %xmm3
	movaps	%xmm3, 48(%rbx)
	movaps	%xmm2, 32(%rbx)
	movaps	%xmm1, 16(%rbx)
	movaps	%xmm0, (%rbx)
	movq	56(%rsp), %rax                  ## 8-byte Reload
	movq	(%rax), %rsi
	movq	8(%rax), %rdx
	movq	%rbx, %rdi
	callq	"_deerlapse_0_1_0::sha2::block256::Core256::update"
	movq	96(%rbx), %rax
	movq	%rax, 352(%rsp)
	movaps	80(%rbx), %xmm0
	movaps	%xmm0, 336(%rsp)
	movaps	64(%rbx), %xmm1
	movaps	%xmm1, 320(%rsp)
	movaps	(%rbx), %xmm2
	movaps	16(%rbx), %xmm3
	movaps	32(%rbx), %xmm4
	movaps	48(%rbx), %xmm5
	movaps	%xmm5, 304(%rsp)
	movaps	%xmm4, 288(%rsp)
	movaps	%xmm3, 272(%rsp)
	movaps	%xmm2, 256(%rsp)
	movaps	%xmm2, (%rbp)
	movaps	%xmm3, 16(%rbp)
	movaps	%xmm4, 32(%rbp)
	movaps	%xmm5, 48(%rbp)
	movaps	%xmm1, 64(%rbp)
	movaps	%xmm0, 80(%rbp)
	movq	%rax, 96(%rbp)
	incq	%r12
	leaq	15(%rsp), %rsi
	movb	%r12b, (%rsi)
	movl	$1, %edx
	movq	%rbp, %rdi
	callq	"_deerlapse_0_1_0::sha2::block256::Core256::update"
	leaq	400(%rsp), %rbx
	movq	%rbx, %rdi
	movq	%r14, %rsi
	movq	%rbp, %rdx
	movq	48(%rsp), %rbp                  ## 8-byte Reload
	callq	"_deerlapse_0_1_0::key_derivation::hmac::HmacKey::finish::<#7cab53feae2e1c66>"
	movups	(%rbx), %xmm0
	movups	16(%rbx), %xmm1
	leaq	368(%rsp), %rsi
	movaps	%xmm1, 16(%rsi)
	movaps	%xmm0, (%rsi)
	movq	%rbp, %rax
	subq	%r13, %rax
	cmpq	$32, %rax
	movl	$32, %edx
	cmovbq	%rax, %rdx
	leaq	(%rdx,%r13), %rbx
	addq	24(%rsp), %r13                  ## 8-byte Folded Reload
	movq	%r13, %rdi
	callq	_memcpy
	movq	40(%rsp), %rcx                  ## 8-byte Reload
	movq	24(%rsp), %rdx                  ## 8-byte Reload
	movq	%rbx, %r13
	cmpq	%r12, %rcx
	jne	Ldeerlapse_0_1_0_BB19_2
Ldeerlapse_0_1_0_BB19_3:                                ## %after.3
	addq	$744, %rsp                      ## imm = 0x2E8
	popq	%rbx
	popq	%r12
	popq	%r13
	popq	%r14
	popq	%r15
	popq	%rbp
	retq
	.cfi_endproc
                                        ## -- End function
	.section	__TEXT,__literal16,16byte_literals
	.p2align	4, 0x0                          ## -- Begin function aead_ciphers_wide::gcm::KeyRefUpdateBlocks::update_blocks
Ldeerlapse_0_1_0_CPI20_0:
	.space	16,15
Ldeerlapse_0_1_0_CPI20_1:
	.space	16,192
Ldeerlapse_0_1_0_CPI20_2:
	.space	16,63
Ldeerlapse_0_1_0_CPI20_3:
	.space	16,1
Ldeerlapse_0_1_0_CPI20_4:
	.space	16,127
	.section	__TEXT,__text,regular,pure_instructions
	.p2align	4
"_deerlapse_0_1_0::aead_ciphers_wide::gcm::KeyRefUpdateBlocks::update_blocks": ## @"aead_ciphers_wide::gcm::KeyRefUpdateBlocks::update_blocks"
	.cfi_startproc
## %bb.0:                               ## %start
	movdqu	(%rsi), %xmm2
	cmpq	$32, %rcx
	jb	Ldeerlapse_0_1_0_BB20_3
## %bb.1:                               ## %arm.3.lr.ph
	movq	(%rdi), %rax
	movq	8(%rdi), %r9
	.p2align	4
Ldeerlapse_0_1_0_BB20_2:                                ## %arm.3
                                        ## =>This Inner Loop Header: Depth=1
	movdqu	(%rdx), %xmm14
	pxor	%xmm2, %xmm14
	movdqu	16(%rdx), %xmm4
	movdqa	%xmm4, %xmm6
	psrlw	$4, %xmm6
	movdqa	Ldeerlapse_0_1_0_CPI20_0(%rip), %xmm0           ## xmm0 = [15,15,15,15,15,15,15,15,15,15,15,15,15,15,15,15]
	pand	%xmm0, %xmm4
	pand	%xmm0, %xmm6
	movdqu	240(%rax), %xmm5
	movdqu	496(%rax), %xmm7
	pshufb	%xmm4, %xmm7
	pshufb	%xmm6, %xmm5
	movdqu	224(%rax), %xmm8
	movdqu	480(%rax), %xmm1
	pshufb	%xmm4, %xmm1
	pshufb	%xmm6, %xmm8
	movdqu	208(%rax), %xmm9
	movdqu	464(%rax), %xmm15
	pshufb	%xmm4, %xmm15
	pshufb	%xmm6, %xmm9
	movdqu	192(%rax), %xmm10
	pshufb	%xmm6, %xmm10
	movdqu	448(%rax), %xmm2
	pxor	%xmm5, %xmm7
	pshufb	%xmm4, %xmm2
	movdqu	176(%rax), %xmm12
	pshufb	%xmm6, %xmm12
	pxor	%xmm8, %xmm1
	movdqu	432(%rax), %xmm13
	pshufb	%xmm4, %xmm13
	movdqu	160(%rax), %xmm8
	pxor	%xmm9, %xmm15
	pshufb	%xmm6, %xmm8
	movdqu	416(%rax), %xmm5
	pshufb	%xmm4, %xmm5
	pxor	%xmm10, %xmm2
	movdqu	144(%rax), %xmm9
	pshufb	%xmm6, %xmm9
	movdqu	400(%rax), %xmm0
	pxor	%xmm12, %xmm13
	pshufb	%xmm4, %xmm0
	movdqu	128(%rax), %xmm10
	pshufb	%xmm6, %xmm10
	pxor	%xmm8, %xmm5
	movdqu	384(%rax), %xmm11
	pshufb	%xmm4, %xmm11
	movdqu	112(%rax), %xmm8
	pxor	%xmm9, %xmm0
	movdqa	%xmm0, -72(%rsp)                ## 16-byte Spill
	pshufb	%xmm6, %xmm8
	movdqu	368(%rax), %xmm9
	pshufb	%xmm4, %xmm9
	pxor	%xmm10, %xmm11
	movdqu	96(%rax), %xmm10
	pshufb	%xmm6, %xmm10
	movdqu	352(%rax), %xmm12
	pxor	%xmm8, %xmm9
	pshufb	%xmm4, %xmm12
	movdqu	80(%rax), %xmm8
	pshufb	%xmm6, %xmm8
	pxor	%xmm10, %xmm12
	movdqu	336(%rax), %xmm0
	pshufb	%xmm4, %xmm0
	pxor	%xmm8, %xmm0
	movdqa	%xmm0, -56(%rsp)                ## 16-byte Spill
	movdqu	64(%rax), %xmm8
	pshufb	%xmm6, %xmm8
	movdqu	320(%rax), %xmm10
	pshufb	%xmm4, %xmm10
	pxor	%xmm8, %xmm10
	movdqu	304(%rax), %xmm0
	pshufb	%xmm4, %xmm0
	movdqu	48(%rax), %xmm8
	pshufb	%xmm6, %xmm8
	pxor	%xmm8, %xmm0
	movdqa	%xmm0, -40(%rsp)                ## 16-byte Spill
	movdqu	32(%rax), %xmm0
	pshufb	%xmm6, %xmm0
	movdqu	288(%rax), %xmm8
	pshufb	%xmm4, %xmm8
	pxor	%xmm0, %xmm8
	movdqu	16(%rax), %xmm0
	pshufb	%xmm6, %xmm0
	movdqu	272(%rax), %xmm3
	pshufb	%xmm4, %xmm3
	pxor	%xmm0, %xmm3
	movdqa	%xmm3, -24(%rsp)                ## 16-byte Spill
	movdqu	(%rax), %xmm0
	pshufb	%xmm6, %xmm0
	movdqu	256(%rax), %xmm6
	pshufb	%xmm4, %xmm6
	movdqa	%xmm14, %xmm4
	psrlw	$4, %xmm4
	movdqa	Ldeerlapse_0_1_0_CPI20_0(%rip), %xmm3           ## xmm3 = [15,15,15,15,15,15,15,15,15,15,15,15,15,15,15,15]
	pand	%xmm3, %xmm4
	pand	%xmm3, %xmm14
	pxor	%xmm0, %xmm6
	movdqu	224(%r9), %xmm0
	pshufb	%xmm4, %xmm0
	pxor	%xmm1, %xmm0
	movdqu	480(%r9), %xmm3
	pshufb	%xmm14, %xmm3
	pxor	%xmm0, %xmm3
	movdqu	240(%r9), %xmm0
	pshufb	%xmm4, %xmm0
	pxor	%xmm7, %xmm0
	movdqu	496(%r9), %xmm1
	pshufb	%xmm14, %xmm1
	pxor	%xmm0, %xmm1
	movdqu	192(%r9), %xmm0
	pshufb	%xmm4, %xmm0
	pxor	%xmm2, %xmm0
	movdqu	448(%r9), %xmm2
	pshufb	%xmm14, %xmm2
	pxor	%xmm0, %xmm2
	movdqu	208(%r9), %xmm0
	pshufb	%xmm4, %xmm0
	pxor	%xmm15, %xmm0
	movdqu	464(%r9), %xmm7
	pshufb	%xmm14, %xmm7
	pxor	%xmm0, %xmm7
	movdqu	160(%r9), %xmm0
	pshufb	%xmm4, %xmm0
	pxor	%xmm5, %xmm0
	movdqu	416(%r9), %xmm15
	pshufb	%xmm14, %xmm15
	pxor	%xmm0, %xmm15
	movdqu	176(%r9), %xmm0
	pshufb	%xmm4, %xmm0
	pxor	%xmm13, %xmm0
	movdqa	%xmm3, %xmm5
	pslldq	$2, %xmm5                       ## xmm5 = zero,zero,xmm5[0,1,2,3,4,5,6,7,8,9,10,11,12,13]
	pxor	%xmm5, %xmm2
	movdqu	432(%r9), %xmm13
	pshufb	%xmm14, %xmm13
	pxor	%xmm0, %xmm13
	movdqu	128(%r9), %xmm0
	pshufb	%xmm4, %xmm0
	pxor	%xmm11, %xmm0
	movdqu	384(%r9), %xmm5
	pshufb	%xmm14, %xmm5
	pxor	%xmm0, %xmm5
	movdqa	%xmm1, %xmm0
	pslldq	$2, %xmm0                       ## xmm0 = zero,zero,xmm0[0,1,2,3,4,5,6,7,8,9,10,11,12,13]
	pxor	%xmm0, %xmm7
	psrldq	$14, %xmm3                      ## xmm3 = xmm3[14,15],zero,zero,zero,zero,zero,zero,zero,zero,zero,zero,zero,zero,zero,zero
	palignr	$14, %xmm2, %xmm3               ## xmm3 = xmm2[14,15],xmm3[0,1,2,3,4,5,6,7,8,9,10,11,12,13]
	pslldq	$2, %xmm2                       ## xmm2 = zero,zero,xmm2[0,1,2,3,4,5,6,7,8,9,10,11,12,13]
	pxor	%xmm2, %xmm15
	psrldq	$14, %xmm1                      ## xmm1 = xmm1[14,15],zero,zero,zero,zero,zero,zero,zero,zero,zero,zero,zero,zero,zero,zero
	palignr	$14, %xmm7, %xmm1               ## xmm1 = xmm7[14,15],xmm1[0,1,2,3,4,5,6,7,8,9,10,11,12,13]
	pslldq	$2, %xmm7                       ## xmm7 = zero,zero,xmm7[0,1,2,3,4,5,6,7,8,9,10,11,12,13]
	pxor	%xmm7, %xmm13
	palignr	$14, %xmm15, %xmm3              ## xmm3 = xmm15[14,15],xmm3[0,1,2,3,4,5,6,7,8,9,10,11,12,13]
	pslldq	$2, %xmm15                      ## xmm15 = zero,zero,xmm15[0,1,2,3,4,5,6,7,8,9,10,11,12,13]
	pxor	%xmm15, %xmm5
	movdqu	144(%r9), %xmm0
	pshufb	%xmm4, %xmm0
	pxor	-72(%rsp), %xmm0                ## 16-byte Folded Reload
	movdqu	400(%r9), %xmm2
	pshufb	%xmm14, %xmm2
	pxor	%xmm0, %xmm2
	palignr	$14, %xmm13, %xmm1              ## xmm1 = xmm13[14,15],xmm1[0,1,2,3,4,5,6,7,8,9,10,11,12,13]
	pslldq	$2, %xmm13                      ## xmm13 = zero,zero,xmm13[0,1,2,3,4,5,6,7,8,9,10,11,12,13]
	pxor	%xmm13, %xmm2
	movdqu	96(%r9), %xmm0
	pshufb	%xmm4, %xmm0
	pxor	%xmm12, %xmm0
	movdqu	352(%r9), %xmm11
	pshufb	%xmm14, %xmm11
	pxor	%xmm0, %xmm11
	movdqu	112(%r9), %xmm0
	pshufb	%xmm4, %xmm0
	pxor	%xmm9, %xmm0
	palignr	$14, %xmm5, %xmm3               ## xmm3 = xmm5[14,15],xmm3[0,1,2,3,4,5,6,7,8,9,10,11,12,13]
	pslldq	$2, %xmm5                       ## xmm5 = zero,zero,xmm5[0,1,2,3,4,5,6,7,8,9,10,11,12,13]
	pxor	%xmm5, %xmm11
	movdqu	368(%r9), %xmm9
	pshufb	%xmm14, %xmm9
	pxor	%xmm0, %xmm9
	movdqu	64(%r9), %xmm0
	pshufb	%xmm4, %xmm0
	pxor	%xmm10, %xmm0
	movdqu	320(%r9), %xmm7
	pshufb	%xmm14, %xmm7
	pxor	%xmm0, %xmm7
	palignr	$14, %xmm2, %xmm1               ## xmm1 = xmm2[14,15],xmm1[0,1,2,3,4,5,6,7,8,9,10,11,12,13]
	pslldq	$2, %xmm2                       ## xmm2 = zero,zero,xmm2[0,1,2,3,4,5,6,7,8,9,10,11,12,13]
	pxor	%xmm2, %xmm9
	palignr	$14, %xmm11, %xmm3              ## xmm3 = xmm11[14,15],xmm3[0,1,2,3,4,5,6,7,8,9,10,11,12,13]
	pslldq	$2, %xmm11                      ## xmm11 = zero,zero,xmm11[0,1,2,3,4,5,6,7,8,9,10,11,12,13]
	pxor	%xmm11, %xmm7
	movdqu	80(%r9), %xmm0
	pshufb	%xmm4, %xmm0
	pxor	-56(%rsp), %xmm0                ## 16-byte Folded Reload
	movdqu	336(%r9), %xmm5
	pshufb	%xmm14, %xmm5
	pxor	%xmm0, %xmm5
	palignr	$14, %xmm9, %xmm1               ## xmm1 = xmm9[14,15],xmm1[0,1,2,3,4,5,6,7,8,9,10,11,12,13]
	pslldq	$2, %xmm9                       ## xmm9 = zero,zero,xmm9[0,1,2,3,4,5,6,7,8,9,10,11,12,13]
	pxor	%xmm9, %xmm5
	movdqu	32(%r9), %xmm0
	pshufb	%xmm4, %xmm0
	pxor	%xmm8, %xmm0
	movdqu	288(%r9), %xmm2
	pshufb	%xmm14, %xmm2
	pxor	%xmm0, %xmm2
	movdqu	48(%r9), %xmm0
	pshufb	%xmm4, %xmm0
	pxor	-40(%rsp), %xmm0                ## 16-byte Folded Reload
	palignr	$14, %xmm7, %xmm3               ## xmm3 = xmm7[14,15],xmm3[0,1,2,3,4,5,6,7,8,9,10,11,12,13]
	pslldq	$2, %xmm7                       ## xmm7 = zero,zero,xmm7[0,1,2,3,4,5,6,7,8,9,10,11,12,13]
	pxor	%xmm7, %xmm2
	movdqu	304(%r9), %xmm7
	pshufb	%xmm14, %xmm7
	pxor	%xmm0, %xmm7
	movdqu	(%r9), %xmm0
	pshufb	%xmm4, %xmm0
	pxor	%xmm6, %xmm0
	movdqu	256(%r9), %xmm6
	pshufb	%xmm14, %xmm6
	pxor	%xmm0, %xmm6
	palignr	$14, %xmm5, %xmm1               ## xmm1 = xmm5[14,15],xmm1[0,1,2,3,4,5,6,7,8,9,10,11,12,13]
	pslldq	$2, %xmm5                       ## xmm5 = zero,zero,xmm5[0,1,2,3,4,5,6,7,8,9,10,11,12,13]
	pxor	%xmm5, %xmm7
	movdqu	16(%r9), %xmm0
	pshufb	%xmm4, %xmm0
	pxor	-24(%rsp), %xmm0                ## 16-byte Folded Reload
	movdqu	272(%r9), %xmm4
	pshufb	%xmm14, %xmm4
	pxor	%xmm0, %xmm4
	palignr	$14, %xmm7, %xmm1               ## xmm1 = xmm7[14,15],xmm1[0,1,2,3,4,5,6,7,8,9,10,11,12,13]
	pslldq	$2, %xmm7                       ## xmm7 = zero,zero,xmm7[0,1,2,3,4,5,6,7,8,9,10,11,12,13]
	pxor	%xmm7, %xmm4
	palignr	$14, %xmm2, %xmm3               ## xmm3 = xmm2[14,15],xmm3[0,1,2,3,4,5,6,7,8,9,10,11,12,13]
	pslldq	$2, %xmm2                       ## xmm2 = zero,zero,xmm2[0,1,2,3,4,5,6,7,8,9,10,11,12,13]
	pxor	%xmm2, %xmm6
	palignr	$15, %xmm4, %xmm1               ## xmm1 = xmm4[15],xmm1[0,1,2,3,4,5,6,7,8,9,10,11,12,13,14]
	pslldq	$1, %xmm4                       ## xmm4 = zero,xmm4[0,1,2,3,4,5,6,7,8,9,10,11,12,13,14]
	pxor	%xmm3, %xmm1
	pxor	%xmm6, %xmm4
	movdqa	%xmm1, %xmm0
	pslldq	$1, %xmm0                       ## xmm0 = zero,xmm0[0,1,2,3,4,5,6,7,8,9,10,11,12,13,14]
	movdqa	%xmm1, %xmm3
	psrlw	$7, %xmm3
	pand	Ldeerlapse_0_1_0_CPI20_3(%rip), %xmm3
	movdqa	%xmm1, %xmm2
	psrlw	$1, %xmm2
	pand	Ldeerlapse_0_1_0_CPI20_4(%rip), %xmm2
	pxor	%xmm4, %xmm2
	movdqa	%xmm0, %xmm4
	paddb	%xmm0, %xmm4
	por	%xmm4, %xmm3
	pxor	%xmm3, %xmm2
	pxor	%xmm4, %xmm0
	psllw	$6, %xmm0
	pand	Ldeerlapse_0_1_0_CPI20_1(%rip), %xmm0
	pxor	%xmm1, %xmm2
	psrlw	$2, %xmm1
	pand	Ldeerlapse_0_1_0_CPI20_2(%rip), %xmm1
	por	%xmm0, %xmm1
	pxor	%xmm1, %xmm2
	addq	$-32, %rcx
	addq	$32, %rdx
	addq	$2, 8(%r8)
	cmpq	$31, %rcx
	ja	Ldeerlapse_0_1_0_BB20_2
Ldeerlapse_0_1_0_BB20_3:                                ## %after.1
	cmpq	$16, %rcx
	jb	Ldeerlapse_0_1_0_BB20_5
## %bb.4:                               ## %arm.7
	movdqu	(%rdx), %xmm1
	pxor	%xmm2, %xmm1
	movq	(%rdi), %rax
	movdqa	%xmm1, %xmm2
	psrlw	$4, %xmm2
	movdqa	Ldeerlapse_0_1_0_CPI20_0(%rip), %xmm0           ## xmm0 = [15,15,15,15,15,15,15,15,15,15,15,15,15,15,15,15]
	pand	%xmm0, %xmm2
	pand	%xmm0, %xmm1
	movdqu	240(%rax), %xmm3
	pshufb	%xmm2, %xmm3
	movdqu	496(%rax), %xmm0
	pshufb	%xmm1, %xmm0
	pxor	%xmm3, %xmm0
	movdqa	%xmm0, %xmm3
	pslldq	$1, %xmm3                       ## xmm3 = zero,xmm3[0,1,2,3,4,5,6,7,8,9,10,11,12,13,14]
	psrldq	$15, %xmm0                      ## xmm0 = xmm0[15],zero,zero,zero,zero,zero,zero,zero,zero,zero,zero,zero,zero,zero,zero,zero
	movdqu	224(%rax), %xmm4
	pshufb	%xmm2, %xmm4
	movdqu	480(%rax), %xmm5
	pshufb	%xmm1, %xmm5
	pxor	%xmm4, %xmm5
	pxor	%xmm3, %xmm5
	palignr	$15, %xmm5, %xmm0               ## xmm0 = xmm5[15],xmm0[0,1,2,3,4,5,6,7,8,9,10,11,12,13,14]
	pslldq	$1, %xmm5                       ## xmm5 = zero,xmm5[0,1,2,3,4,5,6,7,8,9,10,11,12,13,14]
	movdqu	208(%rax), %xmm3
	pshufb	%xmm2, %xmm3
	movdqu	464(%rax), %xmm4
	pshufb	%xmm1, %xmm4
	pxor	%xmm3, %xmm4
	pxor	%xmm5, %xmm4
	palignr	$15, %xmm4, %xmm0               ## xmm0 = xmm4[15],xmm0[0,1,2,3,4,5,6,7,8,9,10,11,12,13,14]
	pslldq	$1, %xmm4                       ## xmm4 = zero,xmm4[0,1,2,3,4,5,6,7,8,9,10,11,12,13,14]
	movdqu	192(%rax), %xmm3
	pshufb	%xmm2, %xmm3
	movdqu	448(%rax), %xmm5
	pshufb	%xmm1, %xmm5
	pxor	%xmm3, %xmm5
	pxor	%xmm4, %xmm5
	palignr	$15, %xmm5, %xmm0               ## xmm0 = xmm5[15],xmm0[0,1,2,3,4,5,6,7,8,9,10,11,12,13,14]
	pslldq	$1, %xmm5                       ## xmm5 = zero,xmm5[0,1,2,3,4,5,6,7,8,9,10,11,12,13,14]
	movdqu	176(%rax), %xmm3
	pshufb	%xmm2, %xmm3
	movdqu	432(%rax), %xmm4
	pshufb	%xmm1, %xmm4
	pxor	%xmm3, %xmm4
	pxor	%xmm5, %xmm4
	palignr	$15, %xmm4, %xmm0               ## xmm0 = xmm4[15],xmm0[0,1,2,3,4,5,6,7,8,9,10,11,12,13,14]
	pslldq	$1, %xmm4                       ## xmm4 = zero,xmm4[0,1,2,3,4,5,6,7,8,9,10,11,12,13,14]
	movdqu	160(%rax), %xmm3
	pshufb	%xmm2, %xmm3
	movdqu	416(%rax), %xmm5
	pshufb	%xmm1, %xmm5
	pxor	%xmm3, %xmm5
	pxor	%xmm4, %xmm5
	palignr	$15, %xmm5, %xmm0               ## xmm0 = xmm5[15],xmm0[0,1,2,3,4,5,6,7,8,9,10,11,12,13,14]
	pslldq	$1, %xmm5                       ## xmm5 = zero,xmm5[0,1,2,3,4,5,6,7,8,9,10,11,12,13,14]
	movdqu	144(%rax), %xmm3
	pshufb	%xmm2, %xmm3
	movdqu	400(%rax), %xmm4
	pshufb	%xmm1, %xmm4
	pxor	%xmm3, %xmm4
	pxor	%xmm5, %xmm4
	palignr	$15, %xmm4, %xmm0               ## xmm0 = xmm4[15],xmm0[0,1,2,3,4,5,6,7,8,9,10,11,12,13,14]
	pslldq	$1, %xmm4                       ## xmm4 = zero,xmm4[0,1,2,3,4,5,6,7,8,9,10,11,12,13,14]
	movdqu	128(%rax), %xmm3
	pshufb	%xmm2, %xmm3
	movdqu	384(%rax), %xmm5
	pshufb	%xmm1, %xmm5
	pxor	%xmm3, %xmm5
	pxor	%xmm4, %xmm5
	palignr	$15, %xmm5, %xmm0               ## xmm0 = xmm5[15],xmm0[0,1,2,3,4,5,6,7,8,9,10,11,12,13,14]
	pslldq	$1, %xmm5                       ## xmm5 = zero,xmm5[0,1,2,3,4,5,6,7,8,9,10,11,12,13,14]
	movdqu	112(%rax), %xmm3
	pshufb	%xmm2, %xmm3
	movdqu	368(%rax), %xmm4
	pshufb	%xmm1, %xmm4
	pxor	%xmm3, %xmm4
	pxor	%xmm5, %xmm4
	palignr	$15, %xmm4, %xmm0               ## xmm0 = xmm4[15],xmm0[0,1,2,3,4,5,6,7,8,9,10,11,12,13,14]
	pslldq	$1, %xmm4                       ## xmm4 = zero,xmm4[0,1,2,3,4,5,6,7,8,9,10,11,12,13,14]
	movdqu	96(%rax), %xmm3
	pshufb	%xmm2, %xmm3
	movdqu	352(%rax), %xmm5
	pshufb	%xmm1, %xmm5
	pxor	%xmm3, %xmm5
	pxor	%xmm4, %xmm5
	palignr	$15, %xmm5, %xmm0               ## xmm0 = xmm5[15],xmm0[0,1,2,3,4,5,6,7,8,9,10,11,12,13,14]
	pslldq	$1, %xmm5                       ## xmm5 = zero,xmm5[0,1,2,3,4,5,6,7,8,9,10,11,12,13,14]
	movdqu	80(%rax), %xmm3
	pshufb	%xmm2, %xmm3
	movdqu	336(%rax), %xmm4
	pshufb	%xmm1, %xmm4
	pxor	%xmm3, %xmm4
	pxor	%xmm5, %xmm4
	palignr	$15, %xmm4, %xmm0               ## xmm0 = xmm4[15],xmm0[0,1,2,3,4,5,6,7,8,9,10,11,12,13,14]
	pslldq	$1, %xmm4                       ## xmm4 = zero,xmm4[0,1,2,3,4,5,6,7,8,9,10,11,12,13,14]
	movdqu	64(%rax), %xmm3
	pshufb	%xmm2, %xmm3
	movdqu	320(%rax), %xmm5
	pshufb	%xmm1, %xmm5
	pxor	%xmm3, %xmm5
	pxor	%xmm4, %xmm5
	palignr	$15, %xmm5, %xmm0               ## xmm0 = xmm5[15],xmm0[0,1,2,3,4,5,6,7,8,9,10,11,12,13,14]
	pslldq	$1, %xmm5                       ## xmm5 = zero,xmm5[0,1,2,3,4,5,6,7,8,9,10,11,12,13,14]
	movdqu	(%rax), %xmm3
	movdqu	16(%rax), %xmm4
	movdqu	32(%rax), %xmm6
	movdqu	48(%rax), %xmm7
	pshufb	%xmm2, %xmm7
	movdqu	304(%rax), %xmm8
	pshufb	%xmm1, %xmm8
	pxor	%xmm7, %xmm8
	pxor	%xmm5, %xmm8
	palignr	$15, %xmm8, %xmm0               ## xmm0 = xmm8[15],xmm0[0,1,2,3,4,5,6,7,8,9,10,11,12,13,14]
	pslldq	$1, %xmm8                       ## xmm8 = zero,xmm8[0,1,2,3,4,5,6,7,8,9,10,11,12,13,14]
	pshufb	%xmm2, %xmm6
	movdqu	288(%rax), %xmm5
	pshufb	%xmm1, %xmm5
	pxor	%xmm6, %xmm5
	pxor	%xmm8, %xmm5
	palignr	$15, %xmm5, %xmm0               ## xmm0 = xmm5[15],xmm0[0,1,2,3,4,5,6,7,8,9,10,11,12,13,14]
	pslldq	$1, %xmm5                       ## xmm5 = zero,xmm5[0,1,2,3,4,5,6,7,8,9,10,11,12,13,14]
	pshufb	%xmm2, %xmm4
	movdqu	272(%rax), %xmm6
	pshufb	%xmm1, %xmm6
	pxor	%xmm4, %xmm6
	pxor	%xmm5, %xmm6
	palignr	$15, %xmm6, %xmm0               ## xmm0 = xmm6[15],xmm0[0,1,2,3,4,5,6,7,8,9,10,11,12,13,14]
	pslldq	$1, %xmm6                       ## xmm6 = zero,xmm6[0,1,2,3,4,5,6,7,8,9,10,11,12,13,14]
	pshufb	%xmm2, %xmm3
	pxor	%xmm6, %xmm3
	movdqu	256(%rax), %xmm4
	pshufb	%xmm1, %xmm4
	pxor	%xmm3, %xmm4
	movdqa	%xmm0, %xmm1
	pslldq	$1, %xmm1                       ## xmm1 = zero,xmm1[0,1,2,3,4,5,6,7,8,9,10,11,12,13,14]
	movdqa	%xmm1, %xmm2
	paddb	%xmm1, %xmm2
	pxor	%xmm2, %xmm1
	psllw	$6, %xmm1
	pand	Ldeerlapse_0_1_0_CPI20_1(%rip), %xmm1
	movdqa	%xmm0, %xmm3
	psrlw	$7, %xmm3
	pand	Ldeerlapse_0_1_0_CPI20_3(%rip), %xmm3
	por	%xmm2, %xmm3
	movdqa	%xmm0, %xmm2
	psrlw	$1, %xmm2
	pand	Ldeerlapse_0_1_0_CPI20_4(%rip), %xmm2
	pxor	%xmm4, %xmm2
	pxor	%xmm3, %xmm2
	pxor	%xmm0, %xmm2
	psrlw	$2, %xmm0
	pand	Ldeerlapse_0_1_0_CPI20_2(%rip), %xmm0
	por	%xmm1, %xmm0
	pxor	%xmm0, %xmm2
	incq	8(%r8)
Ldeerlapse_0_1_0_BB20_5:                                ## %join.9
	movdqu	%xmm2, (%rsi)
	retq
	.cfi_endproc
                                        ## -- End function
	.section	__TEXT,__literal16,16byte_literals
	.p2align	4, 0x0                          ## -- Begin function aead_ciphers_wide::gcm::KeyRefUpdateBlock::update_block
Ldeerlapse_0_1_0_CPI21_0:
	.space	16,15
Ldeerlapse_0_1_0_CPI21_1:
	.space	16,192
Ldeerlapse_0_1_0_CPI21_2:
	.space	16,63
Ldeerlapse_0_1_0_CPI21_3:
	.space	16,1
Ldeerlapse_0_1_0_CPI21_4:
	.space	16,127
	.section	__TEXT,__text,regular,pure_instructions
	.p2align	4
"_deerlapse_0_1_0::aead_ciphers_wide::gcm::KeyRefUpdateBlock::update_block": ## @"aead_ciphers_wide::gcm::KeyRefUpdateBlock::update_block"
	.cfi_startproc
## %bb.0:                               ## %start
	movdqu	(%rdx), %xmm0
	movdqu	(%rsi), %xmm1
	pxor	%xmm0, %xmm1
	movdqa	%xmm1, %xmm2
	psrlw	$4, %xmm2
	movdqa	Ldeerlapse_0_1_0_CPI21_0(%rip), %xmm0           ## xmm0 = [15,15,15,15,15,15,15,15,15,15,15,15,15,15,15,15]
	pand	%xmm0, %xmm2
	pand	%xmm0, %xmm1
	movdqu	240(%rdi), %xmm3
	pshufb	%xmm2, %xmm3
	movdqu	496(%rdi), %xmm0
	pshufb	%xmm1, %xmm0
	pxor	%xmm3, %xmm0
	movdqa	%xmm0, %xmm3
	pslldq	$1, %xmm3                       ## xmm3 = zero,xmm3[0,1,2,3,4,5,6,7,8,9,10,11,12,13,14]
	psrldq	$15, %xmm0                      ## xmm0 = xmm0[15],zero,zero,zero,zero,zero,zero,zero,zero,zero,zero,zero,zero,zero,zero,zero
	movdqu	224(%rdi), %xmm4
	pshufb	%xmm2, %xmm4
	movdqu	480(%rdi), %xmm5
	pshufb	%xmm1, %xmm5
	pxor	%xmm4, %xmm5
	pxor	%xmm3, %xmm5
	palignr	$15, %xmm5, %xmm0               ## xmm0 = xmm5[15],xmm0[0,1,2,3,4,5,6,7,8,9,10,11,12,13,14]
	pslldq	$1, %xmm5                       ## xmm5 = zero,xmm5[0,1,2,3,4,5,6,7,8,9,10,11,12,13,14]
	movdqu	208(%rdi), %xmm3
	pshufb	%xmm2, %xmm3
	movdqu	464(%rdi), %xmm4
	pshufb	%xmm1, %xmm4
	pxor	%xmm3, %xmm4
	pxor	%xmm5, %xmm4
	palignr	$15, %xmm4, %xmm0               ## xmm0 = xmm4[15],xmm0[0,1,2,3,4,5,6,7,8,9,10,11,12,13,14]
	pslldq	$1, %xmm4                       ## xmm4 = zero,xmm4[0,1,2,3,4,5,6,7,8,9,10,11,12,13,14]
	movdqu	192(%rdi), %xmm3
	pshufb	%xmm2, %xmm3
	movdqu	448(%rdi), %xmm5
	pshufb	%xmm1, %xmm5
	pxor	%xmm3, %xmm5
	pxor	%xmm4, %xmm5
	palignr	$15, %xmm5, %xmm0               ## xmm0 = xmm5[15],xmm0[0,1,2,3,4,5,6,7,8,9,10,11,12,13,14]
	pslldq	$1, %xmm5                       ## xmm5 = zero,xmm5[0,1,2,3,4,5,6,7,8,9,10,11,12,13,14]
	movdqu	176(%rdi), %xmm3
	pshufb	%xmm2, %xmm3
	movdqu	432(%rdi), %xmm4
	pshufb	%xmm1, %xmm4
	pxor	%xmm3, %xmm4
	pxor	%xmm5, %xmm4
	palignr	$15, %xmm4, %xmm0               ## xmm0 = xmm4[15],xmm0[0,1,2,3,4,5,6,7,8,9,10,11,12,13,14]
	pslldq	$1, %xmm4                       ## xmm4 = zero,xmm4[0,1,2,3,4,5,6,7,8,9,10,11,12,13,14]
	movdqu	160(%rdi), %xmm3
	pshufb	%xmm2, %xmm3
	movdqu	416(%rdi), %xmm5
	pshufb	%xmm1, %xmm5
	pxor	%xmm3, %xmm5
	pxor	%xmm4, %xmm5
	palignr	$15, %xmm5, %xmm0               ## xmm0 = xmm5[15],xmm0[0,1,2,3,4,5,6,7,8,9,10,11,12,13,14]
	pslldq	$1, %xmm5                       ## xmm5 = zero,xmm5[0,1,2,3,4,5,6,7,8,9,10,11,12,13,14]
	movdqu	144(%rdi), %xmm3
	pshufb	%xmm2, %xmm3
	movdqu	400(%rdi), %xmm4
	pshufb	%xmm1, %xmm4
	pxor	%xmm3, %xmm4
	pxor	%xmm5, %xmm4
	palignr	$15, %xmm4, %xmm0               ## xmm0 = xmm4[15],xmm0[0,1,2,3,4,5,6,7,8,9,10,11,12,13,14]
	pslldq	$1, %xmm4                       ## xmm4 = zero,xmm4[0,1,2,3,4,5,6,7,8,9,10,11,12,13,14]
	movdqu	128(%rdi), %xmm3
	pshufb	%xmm2, %xmm3
	movdqu	384(%rdi), %xmm5
	pshufb	%xmm1, %xmm5
	pxor	%xmm3, %xmm5
	pxor	%xmm4, %xmm5
	palignr	$15, %xmm5, %xmm0               ## xmm0 = xmm5[15],xmm0[0,1,2,3,4,5,6,7,8,9,10,11,12,13,14]
	pslldq	$1, %xmm5                       ## xmm5 = zero,xmm5[0,1,2,3,4,5,6,7,8,9,10,11,12,13,14]
	movdqu	112(%rdi), %xmm3
	pshufb	%xmm2, %xmm3
	movdqu	368(%rdi), %xmm4
	pshufb	%xmm1, %xmm4
	pxor	%xmm3, %xmm4
	pxor	%xmm5, %xmm4
	palignr	$15, %xmm4, %xmm0               ## xmm0 = xmm4[15],xmm0[0,1,2,3,4,5,6,7,8,9,10,11,12,13,14]
	pslldq	$1, %xmm4                       ## xmm4 = zero,xmm4[0,1,2,3,4,5,6,7,8,9,10,11,12,13,14]
	movdqu	96(%rdi), %xmm3
	pshufb	%xmm2, %xmm3
	movdqu	352(%rdi), %xmm5
	pshufb	%xmm1, %xmm5
	pxor	%xmm3, %xmm5
	pxor	%xmm4, %xmm5
	palignr	$15, %xmm5, %xmm0               ## xmm0 = xmm5[15],xmm0[0,1,2,3,4,5,6,7,8,9,10,11,12,13,14]
	pslldq	$1, %xmm5                       ## xmm5 = zero,xmm5[0,1,2,3,4,5,6,7,8,9,10,11,12,13,14]
	movdqu	80(%rdi), %xmm3
	pshufb	%xmm2, %xmm3
	movdqu	336(%rdi), %xmm4
	pshufb	%xmm1, %xmm4
	pxor	%xmm3, %xmm4
	pxor	%xmm5, %xmm4
	palignr	$15, %xmm4, %xmm0               ## xmm0 = xmm4[15],xmm0[0,1,2,3,4,5,6,7,8,9,10,11,12,13,14]
	pslldq	$1, %xmm4                       ## xmm4 = zero,xmm4[0,1,2,3,4,5,6,7,8,9,10,11,12,13,14]
	movdqu	64(%rdi), %xmm3
	pshufb	%xmm2, %xmm3
	movdqu	320(%rdi), %xmm5
	pshufb	%xmm1, %xmm5
	pxor	%xmm3, %xmm5
	pxor	%xmm4, %xmm5
	palignr	$15, %xmm5, %xmm0               ## xmm0 = xmm5[15],xmm0[0,1,2,3,4,5,6,7,8,9,10,11,12,13,14]
	pslldq	$1, %xmm5                       ## xmm5 = zero,xmm5[0,1,2,3,4,5,6,7,8,9,10,11,12,13,14]
	movdqu	(%rdi), %xmm3
	movdqu	16(%rdi), %xmm4
	movdqu	32(%rdi), %xmm6
	movdqu	48(%rdi), %xmm7
	pshufb	%xmm2, %xmm7
	movdqu	304(%rdi), %xmm8
	pshufb	%xmm1, %xmm8
	pxor	%xmm7, %xmm8
	pxor	%xmm5, %xmm8
	palignr	$15, %xmm8, %xmm0               ## xmm0 = xmm8[15],xmm0[0,1,2,3,4,5,6,7,8,9,10,11,12,13,14]
	pslldq	$1, %xmm8                       ## xmm8 = zero,xmm8[0,1,2,3,4,5,6,7,8,9,10,11,12,13,14]
	pshufb	%xmm2, %xmm6
	movdqu	288(%rdi), %xmm5
	pshufb	%xmm1, %xmm5
	pxor	%xmm6, %xmm5
	pxor	%xmm8, %xmm5
	palignr	$15, %xmm5, %xmm0               ## xmm0 = xmm5[15],xmm0[0,1,2,3,4,5,6,7,8,9,10,11,12,13,14]
	pslldq	$1, %xmm5                       ## xmm5 = zero,xmm5[0,1,2,3,4,5,6,7,8,9,10,11,12,13,14]
	pshufb	%xmm2, %xmm4
	movdqu	272(%rdi), %xmm6
	pshufb	%xmm1, %xmm6
	pxor	%xmm4, %xmm6
	pxor	%xmm5, %xmm6
	palignr	$15, %xmm6, %xmm0               ## xmm0 = xmm6[15],xmm0[0,1,2,3,4,5,6,7,8,9,10,11,12,13,14]
	pslldq	$1, %xmm6                       ## xmm6 = zero,xmm6[0,1,2,3,4,5,6,7,8,9,10,11,12,13,14]
	pshufb	%xmm2, %xmm3
	pxor	%xmm6, %xmm3
	movdqu	256(%rdi), %xmm2
	pshufb	%xmm1, %xmm2
	pxor	%xmm3, %xmm2
	movdqa	%xmm0, %xmm1
	pslldq	$1, %xmm1                       ## xmm1 = zero,xmm1[0,1,2,3,4,5,6,7,8,9,10,11,12,13,14]
	movdqa	%xmm1, %xmm3
	paddb	%xmm1, %xmm3
	pxor	%xmm3, %xmm1
	psllw	$6, %xmm1
	pand	Ldeerlapse_0_1_0_CPI21_1(%rip), %xmm1
	movdqa	%xmm0, %xmm4
	psrlw	$7, %xmm4
	pand	Ldeerlapse_0_1_0_CPI21_3(%rip), %xmm4
	por	%xmm3, %xmm4
	movdqa	%xmm0, %xmm3
	psrlw	$1, %xmm3
	pand	Ldeerlapse_0_1_0_CPI21_4(%rip), %xmm3
	pxor	%xmm2, %xmm3
	pxor	%xmm4, %xmm3
	pxor	%xmm0, %xmm3
	psrlw	$2, %xmm0
	pand	Ldeerlapse_0_1_0_CPI21_2(%rip), %xmm0
	por	%xmm1, %xmm0
	pxor	%xmm0, %xmm3
	movdqu	%xmm3, (%rsi)
	incq	8(%rcx)
	retq
	.cfi_endproc
                                        ## -- End function
	.p2align	4                               ## -- Begin function aead_ciphers::aes_gcm::opening::authenticate::<#7bfdf0a6b4753edd>
"_deerlapse_0_1_0::aead_ciphers::aes_gcm::opening::authenticate::<#7bfdf0a6b4753edd>": ## @"aead_ciphers::aes_gcm::opening::authenticate::<#7bfdf0a6b4753edd>"
	.cfi_startproc
## %bb.0:                               ## %start
	pushq	%rbp
	.cfi_def_cfa_offset 16
	pushq	%r15
	.cfi_def_cfa_offset 24
	pushq	%r14
	.cfi_def_cfa_offset 32
	pushq	%r13
	.cfi_def_cfa_offset 40
	pushq	%r12
	.cfi_def_cfa_offset 48
	pushq	%rbx
	.cfi_def_cfa_offset 56
	subq	$248, %rsp
	.cfi_def_cfa_offset 304
	.cfi_offset %rbx, -56
	.cfi_offset %r12, -48
	.cfi_offset %r13, -40
	.cfi_offset %r14, -32
	.cfi_offset %r15, -24
	.cfi_offset %rbp, -16
	movq	%r9, %r15
	movq	%r8, %r14
	movq	%rdx, %rbx
	movq	%rsi, 80(%rsp)                  ## 8-byte Spill
	movq	%rdi, 88(%rsp)                  ## 8-byte Spill
	movq	328(%rsp), %r8
	movq	320(%rsp), %r12
	movq	312(%rsp), %r13
	movq	304(%rsp), %rax
	movl	8(%rcx), %edx
	movl	%edx, 8(%rsp)
	movq	(%rcx), %rcx
	movq	%rcx, (%rsp)
	movups	(%rax), %xmm0
	movaps	%xmm0, 176(%rsp)                ## 16-byte Spill
	xorps	%xmm0, %xmm0
	movaps	%xmm0, 112(%rsp)
	movaps	%xmm0, 96(%rsp)
	movaps	%xmm0, 32(%rsp)
	movq	%rbx, 48(%rsp)
	movq	%r9, 56(%rsp)
	movq	%r12, 64(%rsp)
	movq	%r9, %rbp
	andq	$-16, %rbp
	leaq	32(%rsp), %rsi
	movq	%rbx, %rdi
	movq	%r14, %rdx
	movq	%rbp, %rcx
	callq	"_deerlapse_0_1_0::aead_ciphers_wide::gcm::KeyRefUpdateBlocks::update_blocks"
	andq	$15, %r15
	je	Ldeerlapse_0_1_0_BB22_2
## %bb.1:                               ## %then.1.i.i.i
	addq	%rbp, %r14
	movl	$16, %esi
	subq	%r15, %rsi
	leaq	(%rsp,%r15), %rdi
	addq	$16, %rdi
	callq	___bzero
	leaq	16(%rsp), %rbp
	movq	%rbp, %rdi
	movq	%r14, %rsi
	movq	%r15, %rdx
	callq	_memcpy
	movq	(%rbx), %rdi
	leaq	32(%rsp), %rsi
	movq	%rbp, %rdx
	movq	328(%rsp), %rcx
	callq	"_deerlapse_0_1_0::aead_ciphers_wide::gcm::KeyRefUpdateBlock::update_block"
Ldeerlapse_0_1_0_BB22_2:                                ## %"aead_ciphers::gcm::context::Context::of_fitting::<#3f2567b24793e466>.exit"
	movq	64(%rsp), %rax
	movq	%rax, 240(%rsp)
	movaps	32(%rsp), %xmm0
	movaps	48(%rsp), %xmm1
	movaps	%xmm1, 224(%rsp)
	movaps	%xmm0, 208(%rsp)
	movaps	%xmm1, 144(%rsp)
	movaps	%xmm0, 128(%rsp)
	movq	%rax, 160(%rsp)
	movq	144(%rsp), %rbx
	movq	%r12, %r14
	andq	$-16, %r14
	leaq	128(%rsp), %rsi
	movq	%rbx, %rdi
	movq	%r13, %rdx
	movq	%r14, %rcx
	movq	328(%rsp), %r15
	movq	%r15, %r8
	callq	"_deerlapse_0_1_0::aead_ciphers_wide::gcm::KeyRefUpdateBlocks::update_blocks"
	andq	$15, %r12
	je	Ldeerlapse_0_1_0_BB22_4
## %bb.3:                               ## %then.1.i.i
	addq	%r14, %r13
	movl	$16, %esi
	subq	%r12, %rsi
	leaq	(%rsp,%r12), %rdi
	addq	$192, %rdi
	callq	___bzero
	leaq	192(%rsp), %r14
	movq	%r14, %rdi
	movq	%r13, %rsi
	movq	%r12, %rdx
	callq	_memcpy
	movq	(%rbx), %rdi
	leaq	128(%rsp), %rsi
	movq	%r14, %rdx
	movq	%r15, %rcx
	callq	"_deerlapse_0_1_0::aead_ciphers_wide::gcm::KeyRefUpdateBlock::update_block"
Ldeerlapse_0_1_0_BB22_4:                                ## %"aead_ciphers::gcm::context::Context::absorb::<#3f2567b24793e466>.exit"
	movq	80(%rsp), %rax                  ## 8-byte Reload
	movq	8(%rax), %rsi
	movq	16(%rax), %rdx
	movl	8(%rsp), %eax
	movl	%eax, 24(%rsp)
	movq	(%rsp), %rax
	movq	%rax, 16(%rsp)
	movl	$16777216, 28(%rsp)             ## imm = 0x1000000
	xorps	%xmm0, %xmm0
	movaps	%xmm0, 32(%rsp)
	incq	(%r15)
	leaq	32(%rsp), %rdi
	leaq	16(%rsp), %rcx
	callq	"_deerlapse_0_1_0::aead_ciphers_wide::aes::block_key::BlockKeyRef::encrypt_one"
	movaps	32(%rsp), %xmm0
	movaps	%xmm0, 112(%rsp)
	leaq	96(%rsp), %rdi
	leaq	128(%rsp), %rsi
	leaq	112(%rsp), %rdx
	movq	%r15, %rcx
	callq	"_deerlapse_0_1_0::aead_ciphers::aes_gcm::hash::finish::<#0f83097016d41fe1>"
	movdqa	176(%rsp), %xmm1                ## 16-byte Reload
	pxor	96(%rsp), %xmm1
	pshufd	$238, %xmm1, %xmm0              ## xmm0 = xmm1[2,3,2,3]
	por	%xmm1, %xmm0
	pshufd	$85, %xmm0, %xmm1               ## xmm1 = xmm0[1,1,1,1]
	por	%xmm0, %xmm1
	movdqa	%xmm1, %xmm0
	psrld	$16, %xmm0
	por	%xmm1, %xmm0
	movdqa	%xmm0, %xmm1
	psrlw	$8, %xmm1
	por	%xmm0, %xmm1
	movd	%xmm1, %edi
	callq	"_deerlapse_0_1_0::aead_ciphers_base::bb::is_zero"
	movq	88(%rsp), %rdx                  ## 8-byte Reload
	leaq	1(%rdx), %rcx
	testb	%al, %al
	je	Ldeerlapse_0_1_0_BB22_7
## %bb.5:                               ## %arm.1
	movl	8(%rsp), %eax
	movl	%eax, 8(%rcx)
	movq	(%rsp), %rax
	movq	%rax, (%rcx)
	movl	$33554432, %eax                 ## imm = 0x2000000
	xorl	%ecx, %ecx
	jmp	Ldeerlapse_0_1_0_BB22_6
Ldeerlapse_0_1_0_BB22_7:                                ## %arm.2
	movl	$0, 8(%rcx)
	movq	$0, (%rcx)
	xorl	%eax, %eax
	movb	$1, %cl
Ldeerlapse_0_1_0_BB22_6:                                ## %common.ret
	movb	%cl, (%rdx)
	movl	%eax, 13(%rdx)
	addq	$248, %rsp
	popq	%rbx
	popq	%r12
	popq	%r13
	popq	%r14
	popq	%r15
	popq	%rbp
	retq
	.cfi_endproc
                                        ## -- End function
	.section	__TEXT,__literal16,16byte_literals
	.p2align	4, 0x0                          ## -- Begin function aead_ciphers::aes_gcm::hash::finish::<#0f83097016d41fe1>
Ldeerlapse_0_1_0_CPI23_0:
	.byte	255                             ## 0xff
	.byte	0                               ## 0x0
	.byte	0                               ## 0x0
	.byte	0                               ## 0x0
	.byte	0                               ## 0x0
	.byte	0                               ## 0x0
	.byte	0                               ## 0x0
	.byte	0                               ## 0x0
	.byte	255                             ## 0xff
	.byte	0                               ## 0x0
	.byte	0                               ## 0x0
	.byte	0                               ## 0x0
	.byte	0                               ## 0x0
	.byte	0                               ## 0x0
	.byte	0                               ## 0x0
	.byte	0                               ## 0x0
Ldeerlapse_0_1_0_CPI23_1:
	.byte	0                               ## 0x0
	.byte	0                               ## 0x0
	.byte	0                               ## 0x0
	.byte	0                               ## 0x0
	.byte	0                               ## 0x0
	.byte	0                               ## 0x0
	.byte	255                             ## 0xff
	.byte	0                               ## 0x0
	.byte	0                               ## 0x0
	.byte	0                               ## 0x0
	.byte	0                               ## 0x0
	.byte	0                               ## 0x0
	.byte	0                               ## 0x0
	.byte	0                               ## 0x0
	.byte	255                             ## 0xff
	.byte	0                               ## 0x0
Ldeerlapse_0_1_0_CPI23_2:
	.byte	0                               ## 0x0
	.byte	0                               ## 0x0
	.byte	0                               ## 0x0
	.byte	0                               ## 0x0
	.byte	0                               ## 0x0
	.byte	255                             ## 0xff
	.byte	0                               ## 0x0
	.byte	0                               ## 0x0
	.byte	0                               ## 0x0
	.byte	0                               ## 0x0
	.byte	0                               ## 0x0
	.byte	0                               ## 0x0
	.byte	0                               ## 0x0
	.byte	255                             ## 0xff
	.byte	0                               ## 0x0
	.byte	0                               ## 0x0
Ldeerlapse_0_1_0_CPI23_3:
	.byte	0                               ## 0x0
	.byte	0                               ## 0x0
	.byte	0                               ## 0x0
	.byte	0                               ## 0x0
	.byte	255                             ## 0xff
	.byte	0                               ## 0x0
	.byte	0                               ## 0x0
	.byte	0                               ## 0x0
	.byte	0                               ## 0x0
	.byte	0                               ## 0x0
	.byte	0                               ## 0x0
	.byte	0                               ## 0x0
	.byte	255                             ## 0xff
	.byte	0                               ## 0x0
	.byte	0                               ## 0x0
	.byte	0                               ## 0x0
Ldeerlapse_0_1_0_CPI23_4:
	.byte	0                               ## 0x0
	.byte	0                               ## 0x0
	.byte	0                               ## 0x0
	.byte	255                             ## 0xff
	.byte	0                               ## 0x0
	.byte	0                               ## 0x0
	.byte	0                               ## 0x0
	.byte	0                               ## 0x0
	.byte	0                               ## 0x0
	.byte	0                               ## 0x0
	.byte	0                               ## 0x0
	.byte	255                             ## 0xff
	.byte	0                               ## 0x0
	.byte	0                               ## 0x0
	.byte	0                               ## 0x0
	.byte	0                               ## 0x0
Ldeerlapse_0_1_0_CPI23_5:
	.byte	0                               ## 0x0
	.byte	0                               ## 0x0
	.byte	255                             ## 0xff
	.byte	0                               ## 0x0
	.byte	0                               ## 0x0
	.byte	0                               ## 0x0
	.byte	0                               ## 0x0
	.byte	0                               ## 0x0
	.byte	0                               ## 0x0
	.byte	0                               ## 0x0
	.byte	255                             ## 0xff
	.byte	0                               ## 0x0
	.byte	0                               ## 0x0
	.byte	0                               ## 0x0
	.byte	0                               ## 0x0
	.byte	0                               ## 0x0
Ldeerlapse_0_1_0_CPI23_6:
	.byte	0                               ## 0x0
	.byte	255                             ## 0xff
	.byte	0                               ## 0x0
	.byte	0                               ## 0x0
	.byte	0                               ## 0x0
	.byte	0                               ## 0x0
	.byte	0                               ## 0x0
	.byte	0                               ## 0x0
	.byte	0                               ## 0x0
	.byte	255                             ## 0xff
	.byte	0                               ## 0x0
	.byte	0                               ## 0x0
	.byte	0                               ## 0x0
	.byte	0                               ## 0x0
	.byte	0                               ## 0x0
	.byte	0                               ## 0x0
	.section	__TEXT,__text,regular,pure_instructions
	.p2align	4
"_deerlapse_0_1_0::aead_ciphers::aes_gcm::hash::finish::<#0f83097016d41fe1>": ## @"aead_ciphers::aes_gcm::hash::finish::<#0f83097016d41fe1>"
	.cfi_startproc
## %bb.0:                               ## %start
	pushq	%rbx
	.cfi_def_cfa_offset 16
	subq	$48, %rsp
	.cfi_def_cfa_offset 64
	.cfi_offset %rbx, -16
	movq	%rdi, %rbx
	movq	16(%rsi), %rax
	movups	(%rdx), %xmm0
	movaps	%xmm0, 16(%rsp)                 ## 16-byte Spill
	movups	(%rsi), %xmm0
	movaps	%xmm0, (%rsp)
	movdqu	24(%rsi), %xmm0
	movdqa	%xmm0, %xmm1
	psrlq	$53, %xmm1
	pand	Ldeerlapse_0_1_0_CPI23_0(%rip), %xmm1
	movdqa	%xmm0, %xmm2
	psllq	$59, %xmm2
	movdqa	%xmm0, %xmm3
	psllq	$43, %xmm3
	pand	Ldeerlapse_0_1_0_CPI23_1(%rip), %xmm3
	movdqa	%xmm0, %xmm4
	psllq	$27, %xmm4
	pand	Ldeerlapse_0_1_0_CPI23_2(%rip), %xmm4
	movdqa	%xmm0, %xmm5
	psllq	$11, %xmm5
	pand	Ldeerlapse_0_1_0_CPI23_3(%rip), %xmm5
	por	%xmm2, %xmm3
	por	%xmm4, %xmm5
	por	%xmm3, %xmm5
	movdqa	%xmm0, %xmm2
	psrlq	$5, %xmm2
	pand	Ldeerlapse_0_1_0_CPI23_4(%rip), %xmm2
	movdqa	%xmm0, %xmm3
	psrlq	$21, %xmm3
	pand	Ldeerlapse_0_1_0_CPI23_5(%rip), %xmm3
	por	%xmm2, %xmm3
	psrlq	$37, %xmm0
	pand	Ldeerlapse_0_1_0_CPI23_6(%rip), %xmm0
	por	%xmm3, %xmm0
	por	%xmm5, %xmm0
	por	%xmm1, %xmm0
	movdqa	%xmm0, 32(%rsp)
	movq	(%rax), %rdi
	movq	%rsp, %rsi
	leaq	32(%rsp), %rdx
	callq	"_deerlapse_0_1_0::aead_ciphers_wide::gcm::KeyRefUpdateBlock::update_block"
	movaps	16(%rsp), %xmm0                 ## 16-byte Reload
	xorps	(%rsp), %xmm0
	movups	%xmm0, (%rbx)
	addq	$48, %rsp
	popq	%rbx
	retq
	.cfi_endproc
                                        ## -- End function
	.p2align	4                               ## -- Begin function aead_ciphers_base::bb::is_zero
"_deerlapse_0_1_0::aead_ciphers_base::bb::is_zero":      ## @"aead_ciphers_base::bb::is_zero"
	.cfi_startproc
## %bb.0:                               ## %start
	testb	%dil, %dil
	sete	%al
	retq
	.cfi_endproc
                                        ## -- End function
	.p2align	4                               ## -- Begin function aead_ciphers::aes_gcm::counter_mode::encrypt_within::<#6fa349fe97f872a2>
"_deerlapse_0_1_0::aead_ciphers::aes_gcm::counter_mode::encrypt_within::<#6fa349fe97f872a2>": ## @"aead_ciphers::aes_gcm::counter_mode::encrypt_within::<#6fa349fe97f872a2>"
	.cfi_startproc
## %bb.0:                               ## %start
	pushq	%rbp
	.cfi_def_cfa_offset 16
	pushq	%r15
	.cfi_def_cfa_offset 24
	pushq	%r14
	.cfi_def_cfa_offset 32
	pushq	%r13
	.cfi_def_cfa_offset 40
	pushq	%r12
	.cfi_def_cfa_offset 48
	pushq	%rbx
	.cfi_def_cfa_offset 56
	subq	$392, %rsp                      ## imm = 0x188
	.cfi_def_cfa_offset 448
	.cfi_offset %rbx, -56
	.cfi_offset %r12, -48
	.cfi_offset %r13, -40
	.cfi_offset %r14, -32
	.cfi_offset %r15, -24
	.cfi_offset %rbp, -16
	movq	%r9, 88(%rsp)                   ## 8-byte Spill
	movq	%r8, %r9
	movq	%rdx, 40(%rsp)                  ## 8-byte Spill
	movq	%rdi, 8(%rsp)                   ## 8-byte Spill
	movups	(%rsi), %xmm0
	movaps	%xmm0, 48(%rsp)
	movq	%rcx, 72(%rsp)                  ## 8-byte Spill
	movq	%rcx, %rax
	subq	%r8, %rax
	movq	%rax, %rdx
	andq	$-256, %rdx
	testb	$15, %al
	movq	%rax, 80(%rsp)                  ## 8-byte Spill
	cmoveq	%rax, %rdx
	testq	%rdx, %rdx
	je	Ldeerlapse_0_1_0_BB25_11
## %bb.1:                               ## %join.5.lr.ph
	movl	60(%rsp), %eax
	xorl	%esi, %esi
	movq	%r9, 112(%rsp)                  ## 8-byte Spill
	movq	%rdx, 96(%rsp)                  ## 8-byte Spill
	jmp	Ldeerlapse_0_1_0_BB25_3
	.p2align	4
Ldeerlapse_0_1_0_BB25_2:                                ## %loop.2.loopexit
                                        ##   in Loop: Header=BB25_3 Depth=1
	movq	104(%rsp), %rsi                 ## 8-byte Reload
	addq	%rbx, %rsi
	movq	96(%rsp), %rdx                  ## 8-byte Reload
	cmpq	%rdx, %rsi
	jae	Ldeerlapse_0_1_0_BB25_11
Ldeerlapse_0_1_0_BB25_3:                                ## %join.5
                                        ## =>This Loop Header: Depth=1
                                        ##     Child Loop BB25_5 Depth 2
	movq	%rdx, %rcx
	subq	%rsi, %rcx
	cmpq	$3072, %rcx                     ## imm = 0xC00
	movl	$3072, %ebx                     ## imm = 0xC00
	cmovbq	%rcx, %rbx
	xorl	%r13d, %r13d
	movq	8(%rsp), %rcx                   ## 8-byte Reload
	cmpl	$256, 24(%rcx)                  ## imm = 0x100
	sete	%cl
	cmpq	%rsi, %rdx
	movq	%rsi, 104(%rsp)                 ## 8-byte Spill
	je	Ldeerlapse_0_1_0_BB25_2
## %bb.4:                               ## %join.8.i.preheader
                                        ##   in Loop: Header=BB25_3 Depth=1
	movq	40(%rsp), %rdx                  ## 8-byte Reload
	addq	%rsi, %rdx
	movq	%rdx, 120(%rsp)                 ## 8-byte Spill
	movb	%cl, %r13b
	shll	$7, %r13d
	subq	$-128, %r13
	bswapl	%eax
	xorl	%ebp, %ebp
	movl	%eax, %r15d
	jmp	Ldeerlapse_0_1_0_BB25_5
	.p2align	4
Ldeerlapse_0_1_0_BB25_6:                                ## %then.1.i
                                        ##   in Loop: Header=BB25_5 Depth=2
	movq	8(%rsp), %rax                   ## 8-byte Reload
	movq	8(%rax), %rdi
	movq	16(%rax), %rsi
	leaq	48(%rsp), %r8
	movq	%r9, %rcx
	movq	%r14, %r9
	callq	"_deerlapse_0_1_0::aead_ciphers_wide::aes::ctr32::encrypt_few"
Ldeerlapse_0_1_0_BB25_10:                               ## %"aead_ciphers_wide::aes::ctr32::encrypt_batch.exit"
                                        ##   in Loop: Header=BB25_5 Depth=2
	addq	%r12, %rbp
	addl	%r14d, %r15d
	movl	%r15d, %eax
	bswapl	%eax
	movl	%eax, 60(%rsp)
	movq	88(%rsp), %rcx                  ## 8-byte Reload
	addq	%r14, (%rcx)
	cmpq	%rbx, %rbp
	movq	112(%rsp), %r9                  ## 8-byte Reload
	jae	Ldeerlapse_0_1_0_BB25_2
Ldeerlapse_0_1_0_BB25_5:                                ## %join.8.i
                                        ##   Parent Loop BB25_3 Depth=1
                                        ## =>  This Inner Loop Header: Depth=2
	movq	%rbx, %rax
	subq	%rbp, %rax
	cmpq	%r13, %rax
	movq	%r13, %r12
	cmovbq	%rax, %r12
	movq	120(%rsp), %rcx                 ## 8-byte Reload
	leaq	(%rcx,%rbp), %rdx
	movl	%r12d, %r14d
	shrl	$4, %r14d
	cmpq	$79, %rax
	jbe	Ldeerlapse_0_1_0_BB25_6
## %bb.7:                               ## %else.2.i
                                        ##   in Loop: Header=BB25_5 Depth=2
	movq	8(%rsp), %rax                   ## 8-byte Reload
	movq	(%rax), %rdi
	movq	16(%rax), %rsi
	leaq	48(%rsp), %r8
	movq	%r9, %rcx
	movq	%r14, %r9
	cmpq	$143, %r12
	ja	Ldeerlapse_0_1_0_BB25_9
## %bb.8:                               ## %then.4.i
                                        ##   in Loop: Header=BB25_5 Depth=2
	callq	"_deerlapse_0_1_0::aead_ciphers_wide::aes::ctr32::encrypt_up_to_eight"
	jmp	Ldeerlapse_0_1_0_BB25_10
	.p2align	4
Ldeerlapse_0_1_0_BB25_9:                                ## %else.5.i
                                        ##   in Loop: Header=BB25_5 Depth=2
	callq	"_deerlapse_0_1_0::aead_ciphers_wide::aes::ctr32::encrypt_up_to_sixteen"
	jmp	Ldeerlapse_0_1_0_BB25_10
Ldeerlapse_0_1_0_BB25_11:                               ## %after.1
	movq	80(%rsp), %r13                  ## 8-byte Reload
	cmpq	%r13, %rdx
	jae	Ldeerlapse_0_1_0_BB25_24
## %bb.12:                              ## %then.6
	movq	40(%rsp), %rbp                  ## 8-byte Reload
	addq	%rdx, %rbp
	addq	%r9, %rdx
	movq	72(%rsp), %r12                  ## 8-byte Reload
	subq	%rdx, %r12
	xorl	%r14d, %r14d
	testb	$15, %r12b
	setne	%r14b
	shll	$4, %r14d
	addq	%r12, %r14
	movq	%r14, %r15
	andq	$-16, %r15
	addq	%rbp, %r9
	xorps	%xmm0, %xmm0
	cmpq	$64, %r15
	ja	Ldeerlapse_0_1_0_BB25_16
## %bb.13:                              ## %then.1.i20
	movaps	%xmm0, 176(%rsp)
	movaps	%xmm0, 160(%rsp)
	movaps	%xmm0, 144(%rsp)
	movaps	%xmm0, 128(%rsp)
	movaps	48(%rsp), %xmm0
	movaps	%xmm0, 16(%rsp)
	leaq	128(%rsp), %rbx
	movq	%rbx, %rax
	subq	%r9, %rax
	cmpq	%r12, %rax
	leaq	128(%rsp), %rdi
	movq	%r9, %rsi
	movq	%r12, %rdx
	callq	_memcpy
	testq	%r15, %r15
	je	Ldeerlapse_0_1_0_BB25_15
## %bb.14:                              ## %join.8.i.i
	movl	28(%rsp), %r15d
	bswapl	%r15d
	shrq	$4, %r14
	movq	8(%rsp), %rax                   ## 8-byte Reload
	movq	8(%rax), %rdi
	movq	16(%rax), %rsi
	leaq	128(%rsp), %rdx
	leaq	16(%rsp), %r8
	xorl	%ecx, %ecx
	movq	%r14, %r9
	callq	"_deerlapse_0_1_0::aead_ciphers_wide::aes::ctr32::encrypt_few"
	leal	(%r14,%r15), %eax
	bswapl	%eax
	movl	%eax, 28(%rsp)
	movq	88(%rsp), %rax                  ## 8-byte Reload
	addq	%r14, (%rax)
Ldeerlapse_0_1_0_BB25_15:                               ## %"aead_ciphers::aes_gcm::counter_mode::encrypt_padded::<#6fa349fe97f872a2>.exit"
	movq	%rbp, %rdi
	movq	%rbp, %rax
	subq	%rbx, %rax
	cmpq	%r12, %rax
	leaq	128(%rsp), %rsi
	movq	%r12, %rdx
	callq	_memcpy
	jmp	Ldeerlapse_0_1_0_BB25_24
Ldeerlapse_0_1_0_BB25_16:                               ## %else.2.i19
	movaps	%xmm0, 368(%rsp)
	movaps	%xmm0, 352(%rsp)
	movaps	%xmm0, 336(%rsp)
	movaps	%xmm0, 320(%rsp)
	movaps	%xmm0, 304(%rsp)
	movaps	%xmm0, 288(%rsp)
	movaps	%xmm0, 272(%rsp)
	movaps	%xmm0, 256(%rsp)
	movaps	%xmm0, 240(%rsp)
	movaps	%xmm0, 224(%rsp)
	movaps	%xmm0, 208(%rsp)
	movaps	%xmm0, 192(%rsp)
	movaps	%xmm0, 176(%rsp)
	movaps	%xmm0, 160(%rsp)
	movaps	%xmm0, 144(%rsp)
	movaps	%xmm0, 128(%rsp)
	movaps	48(%rsp), %xmm0
	movaps	%xmm0, 16(%rsp)
	leaq	128(%rsp), %rax
	subq	%r9, %rax
	cmpq	%r12, %rax
	movq	%r12, 72(%rsp)                  ## 8-byte Spill
	movq	%rbp, 40(%rsp)                  ## 8-byte Spill
	leaq	128(%rsp), %rdi
	movq	%r9, %rsi
	movq	%r12, %rdx
	callq	_memcpy
	xorl	%ebx, %ebx
	movq	8(%rsp), %rax                   ## 8-byte Reload
	cmpl	$256, 24(%rax)                  ## imm = 0x100
	sete	%bl
	shll	$7, %ebx
	subq	$-128, %rbx
	movl	28(%rsp), %ebp
	bswapl	%ebp
	xorl	%r12d, %r12d
	jmp	Ldeerlapse_0_1_0_BB25_17
	.p2align	4
Ldeerlapse_0_1_0_BB25_18:                               ## %then.1.i.i60
                                        ##   in Loop: Header=BB25_17 Depth=1
	movq	8(%rsp), %rax                   ## 8-byte Reload
	movq	8(%rax), %rdi
	movq	16(%rax), %rsi
	leaq	16(%rsp), %r8
	xorl	%ecx, %ecx
	movq	%r14, %r9
	callq	"_deerlapse_0_1_0::aead_ciphers_wide::aes::ctr32::encrypt_few"
Ldeerlapse_0_1_0_BB25_22:                               ## %"aead_ciphers_wide::aes::ctr32::encrypt_batch.exit.i57"
                                        ##   in Loop: Header=BB25_17 Depth=1
	addq	%r15, %r12
	addl	%r14d, %ebp
	movl	%ebp, %eax
	bswapl	%eax
	movl	%eax, 28(%rsp)
	movq	88(%rsp), %rax                  ## 8-byte Reload
	addq	%r14, (%rax)
	movq	%r13, %r15
	cmpq	%r13, %r12
	jae	Ldeerlapse_0_1_0_BB25_23
Ldeerlapse_0_1_0_BB25_17:                               ## %join.8.i.i44
                                        ## =>This Inner Loop Header: Depth=1
	movq	%r15, %r13
	movq	%r15, %rax
	subq	%r12, %rax
	cmpq	%rbx, %rax
	movq	%rbx, %r15
	cmovbq	%rax, %r15
	leaq	(%rsp,%r12), %rdx
	addq	$128, %rdx
	movl	%r15d, %r14d
	shrl	$4, %r14d
	cmpq	$79, %rax
	jbe	Ldeerlapse_0_1_0_BB25_18
## %bb.19:                              ## %else.2.i.i54
                                        ##   in Loop: Header=BB25_17 Depth=1
	movq	8(%rsp), %rax                   ## 8-byte Reload
	movq	(%rax), %rdi
	movq	16(%rax), %rsi
	leaq	16(%rsp), %r8
	xorl	%ecx, %ecx
	movq	%r14, %r9
	cmpq	$143, %r15
	ja	Ldeerlapse_0_1_0_BB25_21
## %bb.20:                              ## %then.4.i.i59
                                        ##   in Loop: Header=BB25_17 Depth=1
	callq	"_deerlapse_0_1_0::aead_ciphers_wide::aes::ctr32::encrypt_up_to_eight"
	jmp	Ldeerlapse_0_1_0_BB25_22
	.p2align	4
Ldeerlapse_0_1_0_BB25_21:                               ## %else.5.i.i56
                                        ##   in Loop: Header=BB25_17 Depth=1
	callq	"_deerlapse_0_1_0::aead_ciphers_wide::aes::ctr32::encrypt_up_to_sixteen"
	jmp	Ldeerlapse_0_1_0_BB25_22
Ldeerlapse_0_1_0_BB25_23:                               ## %"aead_ciphers::aes_gcm::counter_mode::encrypt_padded::<#6fa349fe97f872a2>.exit65"
	movq	40(%rsp), %rdi                  ## 8-byte Reload
	movq	%rdi, %rax
	leaq	128(%rsp), %rcx
	subq	%rcx, %rax
	movq	72(%rsp), %rdx                  ## 8-byte Reload
	cmpq	%rdx, %rax
	leaq	128(%rsp), %rsi
	callq	_memcpy
	movq	80(%rsp), %r13                  ## 8-byte Reload
Ldeerlapse_0_1_0_BB25_24:                               ## %join.8
	movq	%r13, %rax
	addq	$392, %rsp                      ## imm = 0x188
	popq	%rbx
	popq	%r12
	popq	%r13
	popq	%r14
	popq	%r15
	popq	%rbp
	retq
	.cfi_endproc
                                        ## -- End function
	.section	__TEXT,__literal16,16byte_literals
	.p2align	4, 0x0                          ## -- Begin function aead_ciphers_wide::aes::ctr32::encrypt_few
Ldeerlapse_0_1_0_CPI26_0:
	.space	16,15
Ldeerlapse_0_1_0_CPI26_1:
	.byte	0                               ## 0x0
	.byte	1                               ## 0x1
	.byte	39                              ## 0x27
	.byte	38                              ## 0x26
	.byte	192                             ## 0xc0
	.byte	193                             ## 0xc1
	.byte	231                             ## 0xe7
	.byte	230                             ## 0xe6
	.byte	195                             ## 0xc3
	.byte	194                             ## 0xc2
	.byte	228                             ## 0xe4
	.byte	229                             ## 0xe5
	.byte	3                               ## 0x3
	.byte	2                               ## 0x2
	.byte	36                              ## 0x24
	.byte	37                              ## 0x25
Ldeerlapse_0_1_0_CPI26_2:
	.byte	0                               ## 0x0
	.byte	170                             ## 0xaa
	.byte	122                             ## 0x7a
	.byte	208                             ## 0xd0
	.byte	175                             ## 0xaf
	.byte	5                               ## 0x5
	.byte	213                             ## 0xd5
	.byte	127                             ## 0x7f
	.byte	216                             ## 0xd8
	.byte	114                             ## 0x72
	.byte	162                             ## 0xa2
	.byte	8                               ## 0x8
	.byte	119                             ## 0x77
	.byte	221                             ## 0xdd
	.byte	13                              ## 0xd
	.byte	167                             ## 0xa7
Ldeerlapse_0_1_0_CPI26_3:
	.byte	128                             ## 0x80
	.byte	3                               ## 0x3
	.byte	13                              ## 0xd
	.byte	1                               ## 0x1
	.byte	10                              ## 0xa
	.byte	8                               ## 0x8
	.byte	12                              ## 0xc
	.byte	11                              ## 0xb
	.byte	5                               ## 0x5
	.byte	14                              ## 0xe
	.byte	4                               ## 0x4
	.byte	7                               ## 0x7
	.byte	6                               ## 0x6
	.byte	2                               ## 0x2
	.byte	9                               ## 0x9
	.byte	15                              ## 0xf
Ldeerlapse_0_1_0_CPI26_4:
	.byte	128                             ## 0x80
	.byte	1                               ## 0x1
	.byte	12                              ## 0xc
	.byte	8                               ## 0x8
	.byte	6                               ## 0x6
	.byte	15                              ## 0xf
	.byte	4                               ## 0x4
	.byte	14                              ## 0xe
	.byte	3                               ## 0x3
	.byte	13                              ## 0xd
	.byte	11                              ## 0xb
	.byte	10                              ## 0xa
	.byte	2                               ## 0x2
	.byte	9                               ## 0x9
	.byte	7                               ## 0x7
	.byte	5                               ## 0x5
Ldeerlapse_0_1_0_CPI26_5:
	.byte	0                               ## 0x0
	.byte	250                             ## 0xfa
	.byte	53                              ## 0x35
	.byte	106                             ## 0x6a
	.byte	43                              ## 0x2b
	.byte	187                             ## 0xbb
	.byte	95                              ## 0x5f
	.byte	65                              ## 0x41
	.byte	142                             ## 0x8e
	.byte	207                             ## 0xcf
	.byte	228                             ## 0xe4
	.byte	30                              ## 0x1e
	.byte	116                             ## 0x74
	.byte	144                             ## 0x90
	.byte	209                             ## 0xd1
	.byte	165                             ## 0xa5
Ldeerlapse_0_1_0_CPI26_6:
	.byte	0                               ## 0x0
	.byte	129                             ## 0x81
	.byte	153                             ## 0x99
	.byte	118                             ## 0x76
	.byte	10                              ## 0xa
	.byte	253                             ## 0xfd
	.byte	239                             ## 0xef
	.byte	124                             ## 0x7c
	.byte	100                             ## 0x64
	.byte	24                              ## 0x18
	.byte	18                              ## 0x12
	.byte	147                             ## 0x93
	.byte	229                             ## 0xe5
	.byte	247                             ## 0xf7
	.byte	139                             ## 0x8b
	.byte	110                             ## 0x6e
Ldeerlapse_0_1_0_CPI26_7:
	.space	16,99
Ldeerlapse_0_1_0_CPI26_8:
	.byte	0                               ## 0x0
	.byte	5                               ## 0x5
	.byte	10                              ## 0xa
	.byte	15                              ## 0xf
	.byte	4                               ## 0x4
	.byte	9                               ## 0x9
	.byte	14                              ## 0xe
	.byte	3                               ## 0x3
	.byte	8                               ## 0x8
	.byte	13                              ## 0xd
	.byte	2                               ## 0x2
	.byte	7                               ## 0x7
	.byte	12                              ## 0xc
	.byte	1                               ## 0x1
	.byte	6                               ## 0x6
	.byte	11                              ## 0xb
Ldeerlapse_0_1_0_CPI26_9:
	.byte	5                               ## 0x5
	.byte	10                              ## 0xa
	.byte	15                              ## 0xf
	.byte	0                               ## 0x0
	.byte	9                               ## 0x9
	.byte	14                              ## 0xe
	.byte	3                               ## 0x3
	.byte	4                               ## 0x4
	.byte	13                              ## 0xd
	.byte	2                               ## 0x2
	.byte	7                               ## 0x7
	.byte	8                               ## 0x8
	.byte	1                               ## 0x1
	.byte	6                               ## 0x6
	.byte	11                              ## 0xb
	.byte	12                              ## 0xc
Ldeerlapse_0_1_0_CPI26_10:
	.space	16,27
	.section	__TEXT,__text,regular,pure_instructions
	.p2align	4
"_deerlapse_0_1_0::aead_ciphers_wide::aes::ctr32::encrypt_few": ## @"aead_ciphers_wide::aes::ctr32::encrypt_few"
	.cfi_startproc
## %bb.0:                               ## %start
	pushq	%rbp
	.cfi_def_cfa_offset 16
	pushq	%r15
	.cfi_def_cfa_offset 24
	pushq	%r14
	.cfi_def_cfa_offset 32
	pushq	%r13
	.cfi_def_cfa_offset 40
	pushq	%r12
	.cfi_def_cfa_offset 48
	pushq	%rbx
	.cfi_def_cfa_offset 56
	subq	$56, %rsp
	.cfi_def_cfa_offset 112
	.cfi_offset %rbx, -56
	.cfi_offset %r12, -48
	.cfi_offset %r13, -40
	.cfi_offset %r14, -32
	.cfi_offset %r15, -24
	.cfi_offset %rbp, -16
	movq	%rcx, (%rsp)                    ## 8-byte Spill
	movq	%rdx, %rbx
	movq	%rsi, %rdx
	movq	%rdi, %rsi
	pxor	%xmm0, %xmm0
	movdqa	%xmm0, 32(%rsp)
	movq	%r9, 8(%rsp)                    ## 8-byte Spill
	movq	%r9, %rax
	shrq	%rax
	je	Ldeerlapse_0_1_0_BB26_7
## %bb.1:                               ## %join.5.lr.ph
	movq	%rdx, %rcx
	shlq	$4, %rcx
	movq	(%rsp), %rdi                    ## 8-byte Reload
	addq	%rbx, %rdi
	leaq	16(%rsi), %r11
	xorl	%r15d, %r15d
	jmp	Ldeerlapse_0_1_0_BB26_2
	.p2align	4
Ldeerlapse_0_1_0_BB26_3:                                ##   in Loop: Header=BB26_2 Depth=1
	movdqa	%xmm1, %xmm3
Ldeerlapse_0_1_0_BB26_6:                                ## %"aead_ciphers_wide::aes::block_key::BlockKeyRef::encrypt_two.exit"
                                        ##   in Loop: Header=BB26_2 Depth=1
	movq	%r15, %r12
	shlq	$5, %r12
	movdqa	Ldeerlapse_0_1_0_CPI26_0(%rip), %xmm2           ## xmm2 = [15,15,15,15,15,15,15,15,15,15,15,15,15,15,15,15]
	movdqa	%xmm0, %xmm1
	pand	%xmm2, %xmm1
	movdqa	Ldeerlapse_0_1_0_CPI26_1(%rip), %xmm6           ## xmm6 = [0,1,39,38,192,193,231,230,195,194,228,229,3,2,36,37]
	movdqa	%xmm6, %xmm4
	pshufb	%xmm1, %xmm4
	psrlw	$4, %xmm0
	pand	%xmm2, %xmm0
	movdqa	Ldeerlapse_0_1_0_CPI26_2(%rip), %xmm1           ## xmm1 = [0,170,122,208,175,5,213,127,216,114,162,8,119,221,13,167]
	movdqa	%xmm1, %xmm5
	pshufb	%xmm0, %xmm5
	pxor	%xmm4, %xmm5
	movdqa	%xmm5, %xmm0
	pand	%xmm2, %xmm0
	psrlw	$4, %xmm5
	pand	%xmm2, %xmm5
	movdqa	%xmm5, %xmm8
	pxor	%xmm0, %xmm8
	movdqa	Ldeerlapse_0_1_0_CPI26_3(%rip), %xmm7           ## xmm7 = [128,3,13,1,10,8,12,11,5,14,4,7,6,2,9,15]
	movdqa	%xmm7, %xmm9
	pshufb	%xmm0, %xmm9
	movdqa	Ldeerlapse_0_1_0_CPI26_4(%rip), %xmm4           ## xmm4 = [128,1,12,8,6,15,4,14,3,13,11,10,2,9,7,5]
	movdqa	%xmm4, %xmm0
	pshufb	%xmm5, %xmm0
	pxor	%xmm9, %xmm0
	movdqa	%xmm4, %xmm10
	pshufb	%xmm8, %xmm10
	pxor	%xmm9, %xmm10
	movdqa	%xmm4, %xmm9
	pshufb	%xmm0, %xmm9
	pxor	%xmm8, %xmm9
	movdqa	%xmm4, %xmm11
	pshufb	%xmm10, %xmm11
	pxor	%xmm5, %xmm11
	movdqa	Ldeerlapse_0_1_0_CPI26_5(%rip), %xmm0           ## xmm0 = [0,250,53,106,43,187,95,65,142,207,228,30,116,144,209,165]
	movdqa	%xmm0, %xmm5
	pshufb	%xmm9, %xmm5
	movdqa	Ldeerlapse_0_1_0_CPI26_6(%rip), %xmm8           ## xmm8 = [0,129,153,118,10,253,239,124,100,24,18,147,229,247,139,110]
	movdqa	%xmm8, %xmm9
	pshufb	%xmm11, %xmm9
	movdqa	Ldeerlapse_0_1_0_CPI26_7(%rip), %xmm10          ## xmm10 = [99,99,99,99,99,99,99,99,99,99,99,99,99,99,99,99]
	movdqa	Ldeerlapse_0_1_0_CPI26_8(%rip), %xmm11          ## xmm11 = [0,5,10,15,4,9,14,3,8,13,2,7,12,1,6,11]
	pshufb	%xmm11, %xmm5
	pshufb	%xmm11, %xmm9
	pxor	%xmm10, %xmm5
	pxor	%xmm9, %xmm5
	movdqu	(%rsi,%rcx), %xmm9
	movdqa	%xmm3, %xmm12
	pand	%xmm2, %xmm12
	pshufb	%xmm12, %xmm6
	psrlw	$4, %xmm3
	pand	%xmm2, %xmm3
	pshufb	%xmm3, %xmm1
	pxor	%xmm6, %xmm1
	movdqa	%xmm1, %xmm3
	pand	%xmm2, %xmm3
	psrlw	$4, %xmm1
	pand	%xmm2, %xmm1
	movdqa	%xmm1, %xmm2
	pxor	%xmm3, %xmm2
	pshufb	%xmm3, %xmm7
	movdqa	%xmm4, %xmm3
	pshufb	%xmm1, %xmm3
	pxor	%xmm7, %xmm3
	movdqa	%xmm4, %xmm6
	pshufb	%xmm2, %xmm6
	pxor	%xmm7, %xmm6
	movdqa	%xmm4, %xmm7
	pshufb	%xmm3, %xmm7
	pxor	%xmm2, %xmm7
	pshufb	%xmm6, %xmm4
	pxor	%xmm1, %xmm4
	pshufb	%xmm7, %xmm0
	pshufb	%xmm4, %xmm8
	pshufb	%xmm11, %xmm0
	pshufb	%xmm11, %xmm8
	pxor	%xmm10, %xmm0
	pxor	%xmm8, %xmm0
	movdqu	(%rdi,%r12), %xmm1
	pxor	%xmm9, %xmm1
	pxor	%xmm5, %xmm1
	movdqu	%xmm1, (%rbx,%r12)
	movdqu	16(%rdi,%r12), %xmm1
	pxor	%xmm9, %xmm1
	pxor	%xmm0, %xmm1
	movdqu	%xmm1, 16(%rbx,%r12)
	incq	%r15
	cmpq	%rax, %r15
	je	Ldeerlapse_0_1_0_BB26_7
Ldeerlapse_0_1_0_BB26_2:                                ## %join.5
                                        ## =>This Loop Header: Depth=1
                                        ##     Child Loop BB26_5 Depth 2
	movl	12(%r8), %r13d
	bswapl	%r13d
	leal	(%r13,%r15,2), %ebp
	bswapl	%ebp
	movl	%ebp, %r14d
	movl	%ebp, %r12d
	movd	(%r8), %xmm0                    ## xmm0 = mem[0],zero,zero,zero
	movq	4(%r8), %xmm1                   ## xmm1 = mem[0],zero
	movq	%xmm0, %xmm0                    ## xmm0 = xmm0[0],zero
	pshufd	$80, %xmm1, %xmm1               ## xmm1 = xmm1[0,0,1,1]
	pblendw	$195, %xmm0, %xmm1              ## xmm1 = xmm0[0,1],xmm1[2,3,4,5],xmm0[6,7]
	movdqa	%xmm1, %xmm0
	pinsrb	$12, %ebp, %xmm0
	shrl	$8, %ebp
	shrl	$16, %r14d
	shrl	$24, %r12d
	leal	1(%r13,%r15,2), %r13d
	bswapl	%r13d
	movl	%r13d, %r10d
	movl	%r13d, %r9d
	pinsrb	$12, %r13d, %xmm1
	shrl	$8, %r13d
	shrl	$16, %r10d
	shrl	$24, %r9d
	pinsrb	$13, %ebp, %xmm0
	pinsrb	$14, %r14d, %xmm0
	pinsrb	$15, %r12d, %xmm0
	movdqu	(%rsi), %xmm2
	pxor	%xmm2, %xmm0
	pinsrb	$13, %r13d, %xmm1
	pinsrb	$14, %r10d, %xmm1
	pinsrb	$15, %r9d, %xmm1
	pxor	%xmm2, %xmm1
	cmpq	$2, %rdx
	jb	Ldeerlapse_0_1_0_BB26_3
## %bb.4:                               ## %join.5.i.preheader
                                        ##   in Loop: Header=BB26_2 Depth=1
	movq	%r11, %r12
	leaq	-1(%rdx), %r13
	.p2align	4
Ldeerlapse_0_1_0_BB26_5:                                ## %join.5.i
                                        ##   Parent Loop BB26_2 Depth=1
                                        ## =>  This Inner Loop Header: Depth=2
	movdqa	Ldeerlapse_0_1_0_CPI26_0(%rip), %xmm4           ## xmm4 = [15,15,15,15,15,15,15,15,15,15,15,15,15,15,15,15]
	movdqa	%xmm0, %xmm2
	pand	%xmm4, %xmm2
	movdqa	Ldeerlapse_0_1_0_CPI26_1(%rip), %xmm6           ## xmm6 = [0,1,39,38,192,193,231,230,195,194,228,229,3,2,36,37]
	movdqa	%xmm6, %xmm5
	pshufb	%xmm2, %xmm5
	psrlw	$4, %xmm0
	pand	%xmm4, %xmm0
	movdqa	Ldeerlapse_0_1_0_CPI26_2(%rip), %xmm3           ## xmm3 = [0,170,122,208,175,5,213,127,216,114,162,8,119,221,13,167]
	movdqa	%xmm3, %xmm2
	pshufb	%xmm0, %xmm2
	pxor	%xmm5, %xmm2
	movdqa	%xmm2, %xmm0
	pand	%xmm4, %xmm0
	psrlw	$4, %xmm2
	pand	%xmm4, %xmm2
	movdqa	%xmm2, %xmm8
	pxor	%xmm0, %xmm8
	movdqa	Ldeerlapse_0_1_0_CPI26_3(%rip), %xmm7           ## xmm7 = [128,3,13,1,10,8,12,11,5,14,4,7,6,2,9,15]
	movdqa	%xmm7, %xmm9
	pshufb	%xmm0, %xmm9
	movdqa	Ldeerlapse_0_1_0_CPI26_4(%rip), %xmm5           ## xmm5 = [128,1,12,8,6,15,4,14,3,13,11,10,2,9,7,5]
	movdqa	%xmm5, %xmm0
	pshufb	%xmm2, %xmm0
	pxor	%xmm9, %xmm0
	movdqa	%xmm5, %xmm10
	pshufb	%xmm8, %xmm10
	pxor	%xmm9, %xmm10
	movdqa	%xmm5, %xmm9
	pshufb	%xmm0, %xmm9
	pxor	%xmm8, %xmm9
	movdqa	%xmm5, %xmm0
	pshufb	%xmm10, %xmm0
	pxor	%xmm2, %xmm0
	movdqa	Ldeerlapse_0_1_0_CPI26_5(%rip), %xmm2           ## xmm2 = [0,250,53,106,43,187,95,65,142,207,228,30,116,144,209,165]
	movdqa	%xmm2, %xmm13
	pshufb	%xmm9, %xmm13
	movdqa	Ldeerlapse_0_1_0_CPI26_6(%rip), %xmm8           ## xmm8 = [0,129,153,118,10,253,239,124,100,24,18,147,229,247,139,110]
	movdqa	%xmm8, %xmm10
	pshufb	%xmm0, %xmm10
	movdqa	Ldeerlapse_0_1_0_CPI26_7(%rip), %xmm9           ## xmm9 = [99,99,99,99,99,99,99,99,99,99,99,99,99,99,99,99]
	pxor	%xmm9, %xmm13
	pxor	%xmm10, %xmm13
	movdqa	Ldeerlapse_0_1_0_CPI26_8(%rip), %xmm10          ## xmm10 = [0,5,10,15,4,9,14,3,8,13,2,7,12,1,6,11]
	movdqa	%xmm13, %xmm12
	pshufb	%xmm10, %xmm12
	movdqa	Ldeerlapse_0_1_0_CPI26_9(%rip), %xmm11          ## xmm11 = [5,10,15,0,9,14,3,4,13,2,7,8,1,6,11,12]
	pshufb	%xmm11, %xmm13
	pxor	%xmm13, %xmm12
	pxor	%xmm0, %xmm0
	pcmpgtb	%xmm12, %xmm0
	pshuflw	$177, %xmm12, %xmm14            ## xmm14 = xmm12[1,0,3,2,4,5,6,7]
	paddb	%xmm12, %xmm12
	pshufhw	$177, %xmm14, %xmm14            ## xmm14 = xmm14[0,1,2,3,5,4,7,6]
	pxor	%xmm12, %xmm14
	movdqa	Ldeerlapse_0_1_0_CPI26_10(%rip), %xmm12         ## xmm12 = [27,27,27,27,27,27,27,27,27,27,27,27,27,27,27,27]
	pand	%xmm12, %xmm0
	pxor	%xmm13, %xmm0
	pxor	%xmm14, %xmm0
	movdqa	%xmm1, %xmm13
	pand	%xmm4, %xmm13
	pshufb	%xmm13, %xmm6
	psrlw	$4, %xmm1
	pand	%xmm4, %xmm1
	pshufb	%xmm1, %xmm3
	pxor	%xmm6, %xmm3
	movdqa	%xmm3, %xmm1
	pand	%xmm4, %xmm1
	psrlw	$4, %xmm3
	pand	%xmm4, %xmm3
	movdqa	%xmm3, %xmm4
	pxor	%xmm1, %xmm4
	pshufb	%xmm1, %xmm7
	movdqa	%xmm5, %xmm1
	pshufb	%xmm3, %xmm1
	pxor	%xmm7, %xmm1
	movdqa	%xmm5, %xmm6
	pshufb	%xmm4, %xmm6
	pxor	%xmm7, %xmm6
	movdqa	%xmm5, %xmm7
	pshufb	%xmm1, %xmm7
	pxor	%xmm4, %xmm7
	pshufb	%xmm6, %xmm5
	pxor	%xmm3, %xmm5
	pshufb	%xmm7, %xmm2
	pshufb	%xmm5, %xmm8
	pxor	%xmm9, %xmm2
	pxor	%xmm8, %xmm2
	movdqa	%xmm2, %xmm1
	pshufb	%xmm10, %xmm1
	pshufb	%xmm11, %xmm2
	pxor	%xmm3, %xmm3
	pxor	%xmm2, %xmm1
	pcmpgtb	%xmm1, %xmm3
	pand	%xmm12, %xmm3
	pshuflw	$177, %xmm1, %xmm4              ## xmm4 = xmm1[1,0,3,2,4,5,6,7]
	paddb	%xmm1, %xmm1
	pshufhw	$177, %xmm4, %xmm4              ## xmm4 = xmm4[0,1,2,3,5,4,7,6]
	pxor	%xmm1, %xmm4
	movdqu	(%r12), %xmm1
	pxor	%xmm1, %xmm0
	pxor	%xmm1, %xmm3
	pxor	%xmm4, %xmm3
	pxor	%xmm2, %xmm3
	addq	$16, %r12
	movdqa	%xmm3, %xmm1
	decq	%r13
	jne	Ldeerlapse_0_1_0_BB26_5
	jmp	Ldeerlapse_0_1_0_BB26_6
Ldeerlapse_0_1_0_BB26_7:                                ## %after.1
	movq	8(%rsp), %rcx                   ## 8-byte Reload
	testb	$1, %cl
	je	Ldeerlapse_0_1_0_BB26_9
## %bb.8:                               ## %then.6
	decq	%rcx
	movq	%rcx, %r14
	shlq	$4, %r14
	movl	8(%r8), %eax
	movl	%eax, 24(%rsp)
	movq	(%r8), %rax
	movq	%rax, 16(%rsp)
	movl	12(%r8), %eax
	bswapl	%eax
	addl	%ecx, %eax
	bswapl	%eax
	movl	%eax, 28(%rsp)
	leaq	32(%rsp), %rdi
	leaq	16(%rsp), %rcx
	callq	"_deerlapse_0_1_0::aead_ciphers_wide::aes::block_key::BlockKeyRef::encrypt_one"
	leaq	(%rbx,%r14), %rax
	movq	(%rsp), %rcx                    ## 8-byte Reload
	movdqu	(%rcx,%rax), %xmm0
	pxor	32(%rsp), %xmm0
	movdqu	%xmm0, (%rbx,%r14)
Ldeerlapse_0_1_0_BB26_9:                                ## %join.8
	addq	$56, %rsp
	popq	%rbx
	popq	%r12
	popq	%r13
	popq	%r14
	popq	%r15
	popq	%rbp
	retq
	.cfi_endproc
                                        ## -- End function
	.section	__TEXT,__literal16,16byte_literals
	.p2align	4, 0x0                          ## -- Begin function aead_ciphers_wide::aes::ctr32::encrypt_up_to_eight
Ldeerlapse_0_1_0_CPI27_0:
	.byte	4                               ## 0x4
	.byte	5                               ## 0x5
	.byte	6                               ## 0x6
	.byte	7                               ## 0x7
	.byte	8                               ## 0x8
	.byte	9                               ## 0x9
	.byte	10                              ## 0xa
	.byte	11                              ## 0xb
	.byte	12                              ## 0xc
	.byte	13                              ## 0xd
	.byte	14                              ## 0xe
	.byte	15                              ## 0xf
	.byte	3                               ## 0x3
	.byte	2                               ## 0x2
	.byte	1                               ## 0x1
	.byte	0                               ## 0x0
Ldeerlapse_0_1_0_CPI27_1:
	.space	4
	.space	4
	.space	4
	.long	2                               ## 0x2
Ldeerlapse_0_1_0_CPI27_2:
	.space	4
	.space	4
	.space	4
	.long	3                               ## 0x3
Ldeerlapse_0_1_0_CPI27_3:
	.space	4
	.space	4
	.space	4
	.long	4                               ## 0x4
Ldeerlapse_0_1_0_CPI27_4:
	.space	4
	.space	4
	.space	4
	.long	5                               ## 0x5
Ldeerlapse_0_1_0_CPI27_5:
	.space	4
	.space	4
	.space	4
	.long	6                               ## 0x6
Ldeerlapse_0_1_0_CPI27_6:
	.space	4
	.space	4
	.space	4
	.long	7                               ## 0x7
Ldeerlapse_0_1_0_CPI27_7:
	.space	16,15
Ldeerlapse_0_1_0_CPI27_8:
	.space	16,51
Ldeerlapse_0_1_0_CPI27_9:
	.space	16,85
Ldeerlapse_0_1_0_CPI27_10:
	.byte	0                               ## 0x0
	.byte	5                               ## 0x5
	.byte	10                              ## 0xa
	.byte	15                              ## 0xf
	.byte	4                               ## 0x4
	.byte	9                               ## 0x9
	.byte	14                              ## 0xe
	.byte	3                               ## 0x3
	.byte	8                               ## 0x8
	.byte	13                              ## 0xd
	.byte	2                               ## 0x2
	.byte	7                               ## 0x7
	.byte	12                              ## 0xc
	.byte	1                               ## 0x1
	.byte	6                               ## 0x6
	.byte	11                              ## 0xb
Ldeerlapse_0_1_0_CPI27_11:
	.byte	5                               ## 0x5
	.byte	10                              ## 0xa
	.byte	15                              ## 0xf
	.byte	0                               ## 0x0
	.byte	9                               ## 0x9
	.byte	14                              ## 0xe
	.byte	3                               ## 0x3
	.byte	4                               ## 0x4
	.byte	13                              ## 0xd
	.byte	2                               ## 0x2
	.byte	7                               ## 0x7
	.byte	8                               ## 0x8
	.byte	1                               ## 0x1
	.byte	6                               ## 0x6
	.byte	11                              ## 0xb
	.byte	12                              ## 0xc
	.section	__TEXT,__text,regular,pure_instructions
	.p2align	4
"_deerlapse_0_1_0::aead_ciphers_wide::aes::ctr32::encrypt_up_to_eight": ## @"aead_ciphers_wide::aes::ctr32::encrypt_up_to_eight"
	.cfi_startproc
## %bb.0:                               ## %start
	subq	$72, %rsp
	.cfi_def_cfa_offset 80
	movd	(%r8), %xmm0                    ## xmm0 = mem[0],zero,zero,zero
	movq	4(%r8), %xmm1                   ## xmm1 = mem[0],zero
	movl	12(%r8), %eax
	bswapl	%eax
	movd	%eax, %xmm2
	pshufd	$0, %xmm2, %xmm5                ## xmm5 = xmm2[0,0,0,0]
	movq	%xmm0, %xmm2                    ## xmm2 = xmm0[0],zero
	pshufd	$80, %xmm1, %xmm0               ## xmm0 = xmm1[0,0,1,1]
	pblendw	$195, %xmm2, %xmm0              ## xmm0 = xmm2[0,1],xmm0[2,3,4,5],xmm2[6,7]
	movdqa	%xmm0, %xmm4
	palignr	$12, %xmm5, %xmm4               ## xmm4 = xmm5[12,13,14,15],xmm4[0,1,2,3,4,5,6,7,8,9,10,11]
	movdqa	Ldeerlapse_0_1_0_CPI27_0(%rip), %xmm6           ## xmm6 = [4,5,6,7,8,9,10,11,12,13,14,15,3,2,1,0]
	pshufb	%xmm6, %xmm4
	pcmpeqd	%xmm2, %xmm2
	movdqa	%xmm5, %xmm1
	psubd	%xmm2, %xmm1
	movdqa	%xmm0, %xmm3
	palignr	$12, %xmm1, %xmm3               ## xmm3 = xmm1[12,13,14,15],xmm3[0,1,2,3,4,5,6,7,8,9,10,11]
	pshufb	%xmm6, %xmm3
	movdqa	Ldeerlapse_0_1_0_CPI27_1(%rip), %xmm1           ## xmm1 = [u,u,u,2]
	paddd	%xmm5, %xmm1
	movdqa	%xmm0, %xmm2
	palignr	$12, %xmm1, %xmm2               ## xmm2 = xmm1[12,13,14,15],xmm2[0,1,2,3,4,5,6,7,8,9,10,11]
	pshufb	%xmm6, %xmm2
	movdqa	Ldeerlapse_0_1_0_CPI27_2(%rip), %xmm7           ## xmm7 = [u,u,u,3]
	paddd	%xmm5, %xmm7
	movdqa	%xmm0, %xmm1
	palignr	$12, %xmm7, %xmm1               ## xmm1 = xmm7[12,13,14,15],xmm1[0,1,2,3,4,5,6,7,8,9,10,11]
	pshufb	%xmm6, %xmm1
	movdqa	Ldeerlapse_0_1_0_CPI27_3(%rip), %xmm8           ## xmm8 = [u,u,u,4]
	paddd	%xmm5, %xmm8
	movdqa	%xmm0, %xmm7
	palignr	$12, %xmm8, %xmm7               ## xmm7 = xmm8[12,13,14,15],xmm7[0,1,2,3,4,5,6,7,8,9,10,11]
	pshufb	%xmm6, %xmm7
	movdqa	Ldeerlapse_0_1_0_CPI27_4(%rip), %xmm8           ## xmm8 = [u,u,u,5]
	paddd	%xmm5, %xmm8
	movdqa	%xmm0, %xmm10
	palignr	$12, %xmm8, %xmm10              ## xmm10 = xmm8[12,13,14,15],xmm10[0,1,2,3,4,5,6,7,8,9,10,11]
	pshufb	%xmm6, %xmm10
	movdqa	Ldeerlapse_0_1_0_CPI27_5(%rip), %xmm8           ## xmm8 = [u,u,u,6]
	paddd	%xmm5, %xmm8
	movdqa	%xmm0, %xmm9
	palignr	$12, %xmm8, %xmm9               ## xmm9 = xmm8[12,13,14,15],xmm9[0,1,2,3,4,5,6,7,8,9,10,11]
	pshufb	%xmm6, %xmm9
	paddd	Ldeerlapse_0_1_0_CPI27_6(%rip), %xmm5
	palignr	$12, %xmm5, %xmm0               ## xmm0 = xmm5[12,13,14,15],xmm0[0,1,2,3,4,5,6,7,8,9,10,11]
	pshufb	%xmm6, %xmm0
	movdqa	%xmm4, %xmm5
	psrlq	$4, %xmm5
	pxor	%xmm7, %xmm5
	movdqa	Ldeerlapse_0_1_0_CPI27_7(%rip), %xmm11          ## xmm11 = [1085102592571150095,1085102592571150095]
	pand	%xmm11, %xmm5
	movdqa	%xmm5, %xmm8
	psllq	$4, %xmm8
	pxor	%xmm4, %xmm8
	pxor	%xmm7, %xmm5
	movdqa	%xmm3, %xmm6
	psrlq	$4, %xmm6
	pxor	%xmm10, %xmm6
	pand	%xmm11, %xmm6
	movdqa	%xmm6, %xmm7
	psllq	$4, %xmm7
	pxor	%xmm3, %xmm7
	pxor	%xmm10, %xmm6
	movdqa	%xmm2, %xmm10
	psrlq	$4, %xmm10
	pxor	%xmm9, %xmm10
	pand	%xmm11, %xmm10
	movdqa	%xmm10, %xmm3
	psllq	$4, %xmm3
	pxor	%xmm2, %xmm3
	pxor	%xmm9, %xmm10
	movdqa	%xmm1, %xmm9
	psrlq	$4, %xmm9
	pxor	%xmm0, %xmm9
	pand	%xmm11, %xmm9
	movdqa	%xmm9, %xmm11
	psllq	$4, %xmm11
	pxor	%xmm1, %xmm11
	pxor	%xmm0, %xmm9
	movdqa	%xmm8, %xmm2
	psrlq	$2, %xmm2
	pxor	%xmm3, %xmm2
	movdqa	Ldeerlapse_0_1_0_CPI27_8(%rip), %xmm12          ## xmm12 = [3689348814741910323,3689348814741910323]
	pand	%xmm12, %xmm2
	movdqa	%xmm2, %xmm4
	psllq	$2, %xmm4
	pxor	%xmm8, %xmm4
	pxor	%xmm3, %xmm2
	movdqa	%xmm5, %xmm0
	psrlq	$2, %xmm0
	pxor	%xmm10, %xmm0
	pand	%xmm12, %xmm0
	movdqa	%xmm0, %xmm3
	psllq	$2, %xmm3
	pxor	%xmm5, %xmm3
	pxor	%xmm10, %xmm0
	movdqa	%xmm7, %xmm5
	psrlq	$2, %xmm5
	pxor	%xmm11, %xmm5
	pand	%xmm12, %xmm5
	movdqa	%xmm5, %xmm8
	psllq	$2, %xmm8
	pxor	%xmm7, %xmm8
	pxor	%xmm11, %xmm5
	movdqa	%xmm6, %xmm1
	psrlq	$2, %xmm1
	pxor	%xmm9, %xmm1
	pand	%xmm12, %xmm1
	movdqa	%xmm1, %xmm10
	psllq	$2, %xmm10
	pxor	%xmm6, %xmm10
	pxor	%xmm9, %xmm1
	movdqu	(%rdi), %xmm14
	pxor	%xmm4, %xmm14
	psrlq	$1, %xmm4
	pxor	%xmm8, %xmm4
	movdqa	Ldeerlapse_0_1_0_CPI27_9(%rip), %xmm9           ## xmm9 = [6148914691236517205,6148914691236517205]
	pand	%xmm9, %xmm4
	movdqu	16(%rdi), %xmm7
	pxor	%xmm8, %xmm7
	pxor	%xmm4, %xmm7
	movdqa	%xmm4, %xmm6
	paddq	%xmm6, %xmm6
	movdqu	32(%rdi), %xmm15
	pxor	%xmm2, %xmm15
	psrlq	$1, %xmm2
	pxor	%xmm5, %xmm2
	movdqu	64(%rdi), %xmm4
	pxor	%xmm3, %xmm4
	psrlq	$1, %xmm3
	pxor	%xmm10, %xmm3
	pxor	%xmm6, %xmm14
	movdqu	48(%rdi), %xmm11
	pxor	%xmm5, %xmm11
	movdqu	80(%rdi), %xmm12
	pxor	%xmm10, %xmm12
	pand	%xmm9, %xmm2
	pxor	%xmm2, %xmm11
	paddq	%xmm2, %xmm2
	pand	%xmm9, %xmm3
	pxor	%xmm3, %xmm12
	paddq	%xmm3, %xmm3
	pxor	%xmm2, %xmm15
	movdqu	96(%rdi), %xmm2
	pxor	%xmm0, %xmm2
	psrlq	$1, %xmm0
	pxor	%xmm1, %xmm0
	pxor	%xmm3, %xmm4
	movdqu	112(%rdi), %xmm10
	pxor	%xmm1, %xmm10
	pand	%xmm9, %xmm0
	pxor	%xmm0, %xmm10
	paddq	%xmm0, %xmm0
	pxor	%xmm0, %xmm2
	cmpq	$2, %rsi
	jb	Ldeerlapse_0_1_0_BB27_3
## %bb.1:                               ## %join.5.i.i.preheader
	leaq	-1(%rsi), %rax
	leaq	240(%rdi), %r8
	.p2align	4
Ldeerlapse_0_1_0_BB27_2:                                ## %join.5.i.i
                                        ## =>This Inner Loop Header: Depth=1
	movdqa	%xmm14, -112(%rsp)              ## 16-byte Spill
	movdqa	%xmm2, %xmm1
	pxor	%xmm14, %xmm1
	movdqa	%xmm1, %xmm0
	pxor	%xmm12, %xmm0
	pxor	%xmm7, %xmm11
	movdqa	%xmm0, %xmm3
	movdqa	%xmm0, -64(%rsp)                ## 16-byte Spill
	pxor	%xmm7, %xmm3
	movdqa	%xmm10, %xmm9
	pxor	%xmm4, %xmm9
	movdqa	%xmm9, %xmm6
	pxor	%xmm11, %xmm6
	movdqa	%xmm6, -80(%rsp)                ## 16-byte Spill
	pxor	%xmm14, %xmm6
	pxor	%xmm15, %xmm11
	pxor	%xmm11, %xmm1
	movdqa	%xmm1, -128(%rsp)               ## 16-byte Spill
	movdqa	%xmm10, %xmm5
	movdqa	%xmm0, %xmm1
	pxor	%xmm10, %xmm1
	movdqa	%xmm1, -96(%rsp)                ## 16-byte Spill
	pxor	%xmm7, %xmm10
	movdqa	%xmm0, %xmm14
	pxor	%xmm4, %xmm14
	pxor	%xmm15, %xmm5
	pxor	%xmm11, %xmm12
	pxor	%xmm2, %xmm11
	movdqa	%xmm6, %xmm2
	movdqa	%xmm6, 16(%rsp)                 ## 16-byte Spill
	pxor	%xmm0, %xmm6
	pxor	%xmm15, %xmm4
	movdqa	%xmm6, %xmm1
	pxor	%xmm11, %xmm1
	movdqa	%xmm1, 48(%rsp)                 ## 16-byte Spill
	pand	%xmm4, %xmm1
	movdqa	%xmm9, %xmm0
	pand	%xmm11, %xmm0
	pxor	%xmm0, %xmm1
	movdqa	%xmm6, %xmm8
	movdqa	%xmm6, %xmm15
	movdqa	%xmm6, 32(%rsp)                 ## 16-byte Spill
	pand	%xmm5, %xmm8
	pxor	%xmm0, %xmm8
	movdqa	%xmm3, %xmm6
	movdqa	%xmm3, (%rsp)                   ## 16-byte Spill
	movdqa	%xmm3, %xmm13
	pxor	%xmm5, %xmm13
	movdqa	%xmm13, %xmm3
	pand	%xmm2, %xmm3
	movdqa	%xmm11, %xmm0
	pxor	%xmm9, %xmm0
	pxor	%xmm3, %xmm0
	movdqa	%xmm13, %xmm7
	pxor	%xmm14, %xmm7
	movdqa	%xmm7, -16(%rsp)                ## 16-byte Spill
	pand	-80(%rsp), %xmm7                ## 16-byte Folded Reload
	movdqa	%xmm14, %xmm3
	pand	-112(%rsp), %xmm3               ## 16-byte Folded Reload
	pxor	%xmm5, %xmm3
	pxor	%xmm15, %xmm3
	pxor	%xmm7, %xmm3
	pxor	%xmm7, %xmm0
	movdqa	%xmm12, %xmm2
	movdqa	%xmm10, %xmm12
	pand	%xmm2, %xmm12
	movdqa	%xmm2, -32(%rsp)                ## 16-byte Spill
	movdqa	-96(%rsp), %xmm7                ## 16-byte Reload
	por	-128(%rsp), %xmm7               ## 16-byte Folded Reload
	pxor	%xmm12, %xmm7
	pxor	%xmm8, %xmm3
	pxor	%xmm8, %xmm7
	movdqa	%xmm6, %xmm8
	pand	-64(%rsp), %xmm8                ## 16-byte Folded Reload
	movdqa	%xmm10, %xmm15
	por	%xmm2, %xmm15
	pxor	%xmm8, %xmm15
	pxor	%xmm1, %xmm0
	pxor	%xmm1, %xmm15
	movdqa	%xmm0, %xmm12
	pand	%xmm15, %xmm12
	movdqa	%xmm12, %xmm2
	pxor	%xmm3, %xmm2
	movdqa	%xmm0, %xmm8
	pxor	%xmm3, %xmm8
	pxor	%xmm7, %xmm12
	pand	%xmm8, %xmm12
	pxor	%xmm3, %xmm12
	pand	%xmm7, %xmm3
	movdqa	%xmm8, %xmm1
	pxor	%xmm3, %xmm1
	pand	%xmm15, %xmm1
	pxor	%xmm7, %xmm15
	pand	%xmm15, %xmm2
	pxor	%xmm7, %xmm2
	pxor	%xmm15, %xmm1
	pxor	%xmm3, %xmm15
	pand	%xmm0, %xmm15
	pxor	%xmm8, %xmm15
	movdqa	%xmm2, %xmm7
	pxor	%xmm12, %xmm7
	movdqa	%xmm1, %xmm3
	pxor	%xmm15, %xmm3
	movdqa	%xmm7, %xmm0
	pxor	%xmm3, %xmm0
	pand	%xmm0, %xmm4
	pand	%xmm7, %xmm9
	pxor	%xmm9, %xmm4
	pand	%xmm3, %xmm5
	pxor	%xmm9, %xmm5
	movdqa	%xmm5, -48(%rsp)                ## 16-byte Spill
	movdqa	%xmm2, %xmm5
	pxor	%xmm1, %xmm5
	movdqa	-16(%rsp), %xmm6                ## 16-byte Reload
	pand	%xmm5, %xmm6
	pand	-80(%rsp), %xmm5                ## 16-byte Folded Reload
	pand	%xmm2, %xmm14
	pand	-112(%rsp), %xmm2               ## 16-byte Folded Reload
	pand	%xmm1, %xmm13
	pand	16(%rsp), %xmm1                 ## 16-byte Folded Reload
	pxor	%xmm5, %xmm2
	pxor	%xmm5, %xmm1
	movdqa	%xmm12, %xmm5
	pxor	%xmm15, %xmm5
	pand	%xmm5, %xmm10
	pand	-32(%rsp), %xmm5                ## 16-byte Folded Reload
	movdqa	-96(%rsp), %xmm9                ## 16-byte Reload
	pand	%xmm12, %xmm9
	pand	-128(%rsp), %xmm12              ## 16-byte Folded Reload
	movdqa	%xmm11, %xmm8
	movdqa	(%rsp), %xmm11                  ## 16-byte Reload
	pand	%xmm15, %xmm11
	pand	-64(%rsp), %xmm15               ## 16-byte Folded Reload
	pxor	%xmm5, %xmm12
	pxor	%xmm5, %xmm15
	pand	48(%rsp), %xmm0                 ## 16-byte Folded Reload
	pand	%xmm8, %xmm7
	pxor	%xmm6, %xmm13
	pxor	%xmm10, %xmm9
	pxor	%xmm4, %xmm13
	movdqa	-48(%rsp), %xmm8                ## 16-byte Reload
	pxor	%xmm8, %xmm9
	pxor	%xmm7, %xmm0
	pand	32(%rsp), %xmm3                 ## 16-byte Folded Reload
	pxor	%xmm7, %xmm3
	pxor	%xmm10, %xmm11
	pxor	%xmm3, %xmm11
	pxor	%xmm12, %xmm11
	pxor	%xmm2, %xmm12
	movdqa	%xmm2, %xmm7
	pxor	%xmm3, %xmm7
	pxor	%xmm0, %xmm1
	pxor	%xmm15, %xmm0
	movdqa	%xmm13, %xmm15
	pxor	%xmm0, %xmm15
	movdqa	%xmm15, %xmm5
	pxor	%xmm1, %xmm5
	pxor	%xmm7, %xmm9
	pcmpeqd	%xmm2, %xmm2
	pxor	%xmm2, %xmm4
	pxor	%xmm11, %xmm4
	pxor	%xmm4, %xmm7
	pxor	%xmm0, %xmm4
	pxor	%xmm6, %xmm14
	pxor	%xmm8, %xmm14
	pxor	%xmm9, %xmm14
	pxor	%xmm15, %xmm14
	pxor	%xmm5, %xmm12
	pxor	%xmm13, %xmm1
	movdqa	Ldeerlapse_0_1_0_CPI27_10(%rip), %xmm0          ## xmm0 = [0,5,10,15,4,9,14,3,8,13,2,7,12,1,6,11]
	movdqa	%xmm7, %xmm2
	pshufb	%xmm0, %xmm2
	movdqa	%xmm4, %xmm6
	pshufb	%xmm0, %xmm6
	movdqa	%xmm14, %xmm11
	pshufb	%xmm0, %xmm11
	movdqa	%xmm12, %xmm3
	pshufb	%xmm0, %xmm3
	movdqa	%xmm3, -112(%rsp)               ## 16-byte Spill
	movdqa	%xmm5, %xmm8
	pshufb	%xmm0, %xmm8
	pcmpeqd	%xmm3, %xmm3
	pxor	%xmm3, %xmm9
	movdqa	%xmm9, %xmm10
	pshufb	%xmm0, %xmm10
	pxor	%xmm3, %xmm1
	movdqa	%xmm1, %xmm3
	pshufb	%xmm0, %xmm3
	movdqa	%xmm15, %xmm13
	pshufb	%xmm0, %xmm13
	movdqa	Ldeerlapse_0_1_0_CPI27_11(%rip), %xmm0          ## xmm0 = [5,10,15,0,9,14,3,4,13,2,7,8,1,6,11,12]
	pshufb	%xmm0, %xmm7
	pshufb	%xmm0, %xmm4
	pshufb	%xmm0, %xmm14
	pshufb	%xmm0, %xmm12
	pshufb	%xmm0, %xmm5
	pshufb	%xmm0, %xmm9
	pshufb	%xmm0, %xmm1
	pshufb	%xmm0, %xmm15
	pxor	%xmm4, %xmm6
	pxor	%xmm14, %xmm11
	pshuflw	$177, %xmm6, %xmm0              ## xmm0 = xmm6[1,0,3,2,4,5,6,7]
	movdqa	%xmm0, -128(%rsp)               ## 16-byte Spill
	pxor	%xmm14, %xmm6
	pxor	%xmm7, %xmm2
	movdqa	-112(%rsp), %xmm14              ## 16-byte Reload
	pxor	%xmm12, %xmm14
	movdqa	%xmm14, -112(%rsp)              ## 16-byte Spill
	pxor	%xmm5, %xmm8
	pxor	%xmm15, %xmm13
	pxor	%xmm13, %xmm7
	pxor	%xmm13, %xmm4
	pxor	%xmm13, %xmm12
	pshuflw	$177, %xmm13, %xmm0             ## xmm0 = xmm13[1,0,3,2,4,5,6,7]
	pxor	%xmm5, %xmm13
	pshuflw	$177, %xmm8, %xmm5              ## xmm5 = xmm8[1,0,3,2,4,5,6,7]
	pshufhw	$177, %xmm5, %xmm5              ## xmm5 = xmm5[0,1,2,3,5,4,7,6]
	pxor	%xmm14, %xmm13
	pxor	%xmm5, %xmm13
	pxor	%xmm9, %xmm10
	pxor	%xmm9, %xmm8
	pshuflw	$177, %xmm10, %xmm5             ## xmm5 = xmm10[1,0,3,2,4,5,6,7]
	pshufhw	$177, %xmm5, %xmm5              ## xmm5 = xmm5[0,1,2,3,5,4,7,6]
	pxor	%xmm5, %xmm8
	pxor	%xmm1, %xmm3
	pxor	%xmm1, %xmm10
	pshuflw	$177, %xmm3, %xmm5              ## xmm5 = xmm3[1,0,3,2,4,5,6,7]
	pxor	%xmm15, %xmm3
	pshufhw	$177, %xmm0, %xmm0              ## xmm0 = xmm0[0,1,2,3,5,4,7,6]
	pxor	%xmm0, %xmm3
	movdqu	-112(%r8), %xmm14
	pxor	%xmm7, %xmm14
	pxor	%xmm2, %xmm4
	pshuflw	$177, %xmm2, %xmm0              ## xmm0 = xmm2[1,0,3,2,4,5,6,7]
	pshufhw	$177, %xmm0, %xmm0              ## xmm0 = xmm0[0,1,2,3,5,4,7,6]
	pxor	%xmm0, %xmm14
	movdqu	-96(%r8), %xmm7
	pxor	%xmm4, %xmm7
	pshufhw	$177, -128(%rsp), %xmm0         ## 16-byte Folded Reload
                                        ## xmm0 = mem[0,1,2,3,5,4,7,6]
	pxor	%xmm0, %xmm7
	movdqu	-80(%r8), %xmm15
	pxor	%xmm6, %xmm15
	pxor	%xmm11, %xmm12
	pshuflw	$177, %xmm11, %xmm0             ## xmm0 = xmm11[1,0,3,2,4,5,6,7]
	pshufhw	$177, %xmm0, %xmm0              ## xmm0 = xmm0[0,1,2,3,5,4,7,6]
	pxor	%xmm0, %xmm15
	movdqu	-64(%r8), %xmm11
	pxor	%xmm12, %xmm11
	pshuflw	$177, -112(%rsp), %xmm0         ## 16-byte Folded Reload
                                        ## xmm0 = mem[1,0,3,2,4,5,6,7]
	pshufhw	$177, %xmm0, %xmm0              ## xmm0 = xmm0[0,1,2,3,5,4,7,6]
	pxor	%xmm0, %xmm11
	movdqu	-48(%r8), %xmm4
	pxor	%xmm13, %xmm4
	movdqu	-32(%r8), %xmm12
	pxor	%xmm8, %xmm12
	movdqu	-16(%r8), %xmm2
	pxor	%xmm10, %xmm2
	pshufhw	$177, %xmm5, %xmm0              ## xmm0 = xmm5[0,1,2,3,5,4,7,6]
	pxor	%xmm0, %xmm2
	movdqu	(%r8), %xmm10
	pxor	%xmm3, %xmm10
	subq	$-128, %r8
	decq	%rax
	jne	Ldeerlapse_0_1_0_BB27_2
Ldeerlapse_0_1_0_BB27_3:                                ## %"aead_ciphers_wide::aes::KeyRef::encrypt_eight.exit"
	movdqa	%xmm14, %xmm1
	pxor	%xmm2, %xmm1
	movdqa	%xmm1, %xmm0
	pxor	%xmm12, %xmm0
	pxor	%xmm7, %xmm11
	movdqa	%xmm0, %xmm13
	pxor	%xmm7, %xmm13
	movdqa	%xmm4, %xmm9
	pxor	%xmm10, %xmm9
	movdqa	%xmm15, %xmm5
	pxor	%xmm10, %xmm5
	movdqa	%xmm0, %xmm8
	pxor	%xmm10, %xmm8
	movdqa	%xmm8, -48(%rsp)                ## 16-byte Spill
	pxor	%xmm10, %xmm7
	movdqa	%xmm11, %xmm10
	pxor	%xmm15, %xmm11
	pxor	%xmm11, %xmm1
	movdqa	%xmm1, -80(%rsp)                ## 16-byte Spill
	pxor	%xmm11, %xmm12
	pxor	%xmm2, %xmm11
	movdqa	%xmm0, -96(%rsp)                ## 16-byte Spill
	movdqa	%xmm0, %xmm8
	pxor	%xmm4, %xmm8
	pxor	%xmm4, %xmm15
	pxor	%xmm9, %xmm10
	movdqa	%xmm10, %xmm6
	movdqa	%xmm10, (%rsp)                  ## 16-byte Spill
	movdqa	%xmm14, -112(%rsp)              ## 16-byte Spill
	pxor	%xmm14, %xmm6
	movdqa	%xmm6, %xmm1
	movdqa	%xmm6, 32(%rsp)                 ## 16-byte Spill
	pxor	%xmm0, %xmm1
	movdqa	%xmm1, %xmm0
	movdqa	%xmm1, %xmm4
	movdqa	%xmm1, 48(%rsp)                 ## 16-byte Spill
	pxor	%xmm11, %xmm0
	movdqa	%xmm0, -64(%rsp)                ## 16-byte Spill
	pand	%xmm15, %xmm0
	movdqa	%xmm11, %xmm1
	pand	%xmm9, %xmm1
	movdqa	%xmm9, -32(%rsp)                ## 16-byte Spill
	pxor	%xmm1, %xmm0
	movdqa	%xmm4, %xmm3
	movdqa	%xmm5, -128(%rsp)               ## 16-byte Spill
	pand	%xmm5, %xmm3
	pxor	%xmm1, %xmm3
	movdqa	%xmm8, %xmm1
	pand	%xmm14, %xmm1
	movdqa	%xmm5, %xmm2
	pxor	%xmm4, %xmm2
	pxor	%xmm1, %xmm2
	movdqa	%xmm13, 16(%rsp)                ## 16-byte Spill
	movdqa	%xmm13, %xmm14
	pxor	%xmm5, %xmm14
	movdqa	%xmm14, %xmm4
	pand	%xmm6, %xmm4
	movdqa	%xmm9, %xmm1
	pxor	%xmm11, %xmm1
	pxor	%xmm4, %xmm1
	movdqa	%xmm14, %xmm4
	pxor	%xmm8, %xmm4
	movdqa	%xmm4, -16(%rsp)                ## 16-byte Spill
	pand	%xmm10, %xmm4
	pxor	%xmm3, %xmm2
	pxor	%xmm4, %xmm2
	pxor	%xmm4, %xmm1
	movdqa	%xmm12, %xmm5
	pand	%xmm7, %xmm5
	movdqa	-48(%rsp), %xmm9                ## 16-byte Reload
	movdqa	%xmm9, %xmm4
	por	-80(%rsp), %xmm4                ## 16-byte Folded Reload
	pxor	%xmm5, %xmm4
	pxor	%xmm3, %xmm4
	pand	-96(%rsp), %xmm13               ## 16-byte Folded Reload
	movdqa	%xmm12, %xmm3
	por	%xmm7, %xmm3
	pxor	%xmm13, %xmm3
	pxor	%xmm0, %xmm1
	pxor	%xmm0, %xmm3
	movdqa	%xmm1, %xmm0
	pand	%xmm3, %xmm0
	movdqa	%xmm0, %xmm6
	pxor	%xmm2, %xmm6
	movdqa	%xmm1, %xmm5
	pxor	%xmm2, %xmm5
	pxor	%xmm4, %xmm0
	pand	%xmm5, %xmm0
	pxor	%xmm2, %xmm0
	pand	%xmm4, %xmm2
	movdqa	%xmm5, %xmm10
	pxor	%xmm2, %xmm10
	pand	%xmm3, %xmm10
	pxor	%xmm4, %xmm3
	pand	%xmm3, %xmm6
	pxor	%xmm4, %xmm6
	pxor	%xmm3, %xmm10
	pxor	%xmm2, %xmm3
	pand	%xmm1, %xmm3
	pxor	%xmm5, %xmm3
	movdqa	%xmm6, %xmm5
	pxor	%xmm0, %xmm5
	movdqa	%xmm10, %xmm4
	pxor	%xmm3, %xmm4
	movdqa	%xmm5, %xmm1
	pxor	%xmm4, %xmm1
	pand	%xmm1, %xmm15
	movdqa	-32(%rsp), %xmm2                ## 16-byte Reload
	pand	%xmm5, %xmm2
	pxor	%xmm2, %xmm15
	movdqa	%xmm2, %xmm13
	movdqa	-128(%rsp), %xmm2               ## 16-byte Reload
	pand	%xmm4, %xmm2
	pxor	%xmm13, %xmm2
	movdqa	%xmm2, -128(%rsp)               ## 16-byte Spill
	movdqa	%xmm6, %xmm2
	pxor	%xmm10, %xmm2
	movdqa	-16(%rsp), %xmm13               ## 16-byte Reload
	pand	%xmm2, %xmm13
	pand	(%rsp), %xmm2                   ## 16-byte Folded Reload
	pand	%xmm6, %xmm8
	pand	-112(%rsp), %xmm6               ## 16-byte Folded Reload
	pand	%xmm10, %xmm14
	pand	32(%rsp), %xmm10                ## 16-byte Folded Reload
	pxor	%xmm2, %xmm6
	pxor	%xmm2, %xmm10
	movdqa	%xmm0, %xmm2
	pxor	%xmm3, %xmm2
	pand	%xmm2, %xmm7
	pand	%xmm12, %xmm2
	pand	%xmm0, %xmm9
	pand	-80(%rsp), %xmm0                ## 16-byte Folded Reload
	movdqa	16(%rsp), %xmm12                ## 16-byte Reload
	pand	%xmm3, %xmm12
	pand	-96(%rsp), %xmm3                ## 16-byte Folded Reload
	pxor	%xmm2, %xmm0
	pxor	%xmm2, %xmm3
	pand	-64(%rsp), %xmm1                ## 16-byte Folded Reload
	pand	%xmm11, %xmm5
	pand	48(%rsp), %xmm4                 ## 16-byte Folded Reload
	pxor	%xmm5, %xmm1
	pxor	%xmm5, %xmm4
	pxor	%xmm7, %xmm9
	movdqa	%xmm12, %xmm2
	pxor	%xmm7, %xmm2
	pxor	%xmm4, %xmm2
	pxor	%xmm0, %xmm2
	movdqa	%xmm2, %xmm5
	pxor	%xmm6, %xmm0
	movdqa	%xmm6, %xmm7
	pxor	%xmm4, %xmm7
	pxor	%xmm1, %xmm10
	pxor	%xmm3, %xmm1
	pxor	%xmm13, %xmm14
	pxor	%xmm15, %xmm14
	movdqa	%xmm9, %xmm6
	movdqa	-128(%rsp), %xmm9               ## 16-byte Reload
	pxor	%xmm9, %xmm6
	pcmpeqd	%xmm2, %xmm2
	pxor	%xmm2, %xmm15
	pxor	%xmm5, %xmm15
	movdqa	%xmm14, %xmm4
	pxor	%xmm1, %xmm4
	pxor	%xmm7, %xmm6
	pxor	%xmm15, %xmm7
	pxor	%xmm1, %xmm15
	pxor	%xmm13, %xmm8
	shlq	$7, %rsi
	pxor	%xmm9, %xmm8
	movdqa	%xmm4, %xmm3
	pxor	%xmm10, %xmm3
	pxor	%xmm6, %xmm8
	pxor	%xmm4, %xmm8
	pxor	%xmm3, %xmm0
	pxor	%xmm14, %xmm10
	movdqa	Ldeerlapse_0_1_0_CPI27_10(%rip), %xmm1          ## xmm1 = [0,5,10,15,4,9,14,3,8,13,2,7,12,1,6,11]
	pshufb	%xmm1, %xmm7
	pshufb	%xmm1, %xmm15
	pshufb	%xmm1, %xmm8
	pshufb	%xmm1, %xmm0
	pshufb	%xmm1, %xmm3
	pshufb	%xmm1, %xmm6
	pshufb	%xmm1, %xmm10
	pshufb	%xmm1, %xmm4
	movdqu	(%rdi,%rsi), %xmm11
	pxor	%xmm7, %xmm11
	movdqu	16(%rdi,%rsi), %xmm7
	pxor	%xmm15, %xmm7
	movdqu	32(%rdi,%rsi), %xmm5
	pxor	%xmm8, %xmm5
	movdqu	48(%rdi,%rsi), %xmm1
	pxor	%xmm0, %xmm1
	movdqu	64(%rdi,%rsi), %xmm0
	pxor	%xmm3, %xmm0
	movdqu	112(%rdi,%rsi), %xmm3
	pxor	%xmm4, %xmm3
	movdqu	80(%rdi,%rsi), %xmm8
	pxor	%xmm2, %xmm8
	pxor	%xmm6, %xmm8
	movdqu	96(%rdi,%rsi), %xmm9
	pxor	%xmm2, %xmm9
	pxor	%xmm10, %xmm9
	movdqa	%xmm11, %xmm2
	psrlq	$4, %xmm2
	pxor	%xmm0, %xmm2
	movdqa	Ldeerlapse_0_1_0_CPI27_7(%rip), %xmm12          ## xmm12 = [1085102592571150095,1085102592571150095]
	pand	%xmm12, %xmm2
	movdqa	%xmm2, %xmm6
	psllq	$4, %xmm6
	pxor	%xmm11, %xmm6
	pxor	%xmm0, %xmm2
	movdqa	%xmm7, %xmm0
	psrlq	$4, %xmm0
	pxor	%xmm8, %xmm0
	pand	%xmm12, %xmm0
	movdqa	%xmm0, %xmm4
	psllq	$4, %xmm4
	pxor	%xmm7, %xmm4
	pxor	%xmm8, %xmm0
	movdqa	%xmm5, %xmm8
	psrlq	$4, %xmm8
	pxor	%xmm9, %xmm8
	pand	%xmm12, %xmm8
	movdqa	%xmm8, %xmm10
	psllq	$4, %xmm10
	pxor	%xmm5, %xmm10
	pxor	%xmm9, %xmm8
	movdqa	%xmm1, %xmm5
	psrlq	$4, %xmm5
	pxor	%xmm3, %xmm5
	pand	%xmm12, %xmm5
	movdqa	%xmm5, %xmm9
	psllq	$4, %xmm9
	pxor	%xmm1, %xmm9
	pxor	%xmm3, %xmm5
	movdqa	%xmm6, %xmm3
	psrlq	$2, %xmm3
	pxor	%xmm10, %xmm3
	movdqa	Ldeerlapse_0_1_0_CPI27_8(%rip), %xmm11          ## xmm11 = [3689348814741910323,3689348814741910323]
	pand	%xmm11, %xmm3
	movdqa	%xmm3, %xmm7
	psllq	$2, %xmm7
	pxor	%xmm6, %xmm7
	pxor	%xmm10, %xmm3
	movdqa	%xmm2, %xmm1
	psrlq	$2, %xmm1
	pxor	%xmm8, %xmm1
	pand	%xmm11, %xmm1
	movdqa	%xmm1, %xmm6
	psllq	$2, %xmm6
	pxor	%xmm2, %xmm6
	pxor	%xmm8, %xmm1
	movdqa	%xmm4, %xmm2
	psrlq	$2, %xmm2
	pxor	%xmm9, %xmm2
	pand	%xmm11, %xmm2
	movdqa	%xmm2, %xmm12
	psllq	$2, %xmm12
	pxor	%xmm4, %xmm12
	pxor	%xmm9, %xmm2
	movdqa	%xmm0, %xmm8
	psrlq	$2, %xmm8
	pxor	%xmm5, %xmm8
	pand	%xmm11, %xmm8
	movdqa	%xmm8, %xmm11
	psllq	$2, %xmm11
	pxor	%xmm0, %xmm11
	pxor	%xmm5, %xmm8
	movdqa	%xmm7, %xmm5
	psrlq	$1, %xmm5
	pxor	%xmm12, %xmm5
	movdqa	Ldeerlapse_0_1_0_CPI27_9(%rip), %xmm13          ## xmm13 = [6148914691236517205,6148914691236517205]
	pand	%xmm13, %xmm5
	movdqa	%xmm5, %xmm10
	paddq	%xmm10, %xmm10
	pxor	%xmm7, %xmm10
	pxor	%xmm12, %xmm5
	movdqa	%xmm3, %xmm4
	psrlq	$1, %xmm4
	pxor	%xmm2, %xmm4
	pand	%xmm13, %xmm4
	movdqa	%xmm4, %xmm9
	paddq	%xmm9, %xmm9
	pxor	%xmm3, %xmm9
	pxor	%xmm2, %xmm4
	movdqa	%xmm6, %xmm2
	psrlq	$1, %xmm2
	pxor	%xmm11, %xmm2
	pand	%xmm13, %xmm2
	movdqa	%xmm2, %xmm7
	paddq	%xmm7, %xmm7
	pxor	%xmm6, %xmm7
	pxor	%xmm11, %xmm2
	movdqa	%xmm1, %xmm0
	psrlq	$1, %xmm0
	pxor	%xmm8, %xmm0
	pand	%xmm13, %xmm0
	movdqa	%xmm0, %xmm3
	paddq	%xmm3, %xmm3
	pxor	%xmm1, %xmm3
	pxor	%xmm8, %xmm0
	cmpq	$8, %r9
	jne	Ldeerlapse_0_1_0_BB27_5
## %bb.4:                               ## %then.1
	movdqu	(%rdx,%rcx), %xmm1
	pxor	%xmm10, %xmm1
	movdqu	%xmm1, (%rdx)
	movdqu	16(%rdx,%rcx), %xmm1
	pxor	%xmm5, %xmm1
	movdqu	%xmm1, 16(%rdx)
	movdqu	32(%rdx,%rcx), %xmm1
	pxor	%xmm9, %xmm1
	movdqu	%xmm1, 32(%rdx)
	movdqu	48(%rdx,%rcx), %xmm1
	pxor	%xmm4, %xmm1
	movdqu	%xmm1, 48(%rdx)
	movdqu	64(%rdx,%rcx), %xmm1
	pxor	%xmm7, %xmm1
	movdqu	%xmm1, 64(%rdx)
	movdqu	80(%rdx,%rcx), %xmm1
	pxor	%xmm2, %xmm1
	movdqu	%xmm1, 80(%rdx)
	movdqu	96(%rdx,%rcx), %xmm1
	pxor	%xmm3, %xmm1
	movdqu	%xmm1, 96(%rdx)
Ldeerlapse_0_1_0_BB27_8:                                ## %join.5.i318.7
	movdqu	112(%rdx,%rcx), %xmm1
	pxor	%xmm0, %xmm1
	movdqu	%xmm1, 112(%rdx)
	addq	$72, %rsp
	retq
Ldeerlapse_0_1_0_BB27_5:                                ## %else.2
	movdqu	(%rdx,%rcx), %xmm1
	pxor	%xmm10, %xmm1
	movdqu	%xmm1, (%rdx)
	movdqu	16(%rdx,%rcx), %xmm1
	pxor	%xmm5, %xmm1
	movdqu	%xmm1, 16(%rdx)
	movdqu	32(%rdx,%rcx), %xmm1
	pxor	%xmm9, %xmm1
	movdqu	%xmm1, 32(%rdx)
	movdqu	48(%rdx,%rcx), %xmm1
	pxor	%xmm4, %xmm1
	movdqu	%xmm1, 48(%rdx)
	movdqu	64(%rdx,%rcx), %xmm1
	pxor	%xmm7, %xmm1
	movdqu	%xmm1, 64(%rdx)
	cmpq	$5, %r9
	je	Ldeerlapse_0_1_0_BB27_9
## %bb.6:                               ## %join.5.i318.5
	movdqu	80(%rdx,%rcx), %xmm1
	pxor	%xmm2, %xmm1
	movdqu	%xmm1, 80(%rdx)
	cmpq	$6, %r9
	je	Ldeerlapse_0_1_0_BB27_9
## %bb.7:                               ## %join.5.i318.6
	movdqu	96(%rdx,%rcx), %xmm1
	pxor	%xmm3, %xmm1
	movdqu	%xmm1, 96(%rdx)
	cmpq	$7, %r9
	jne	Ldeerlapse_0_1_0_BB27_8
Ldeerlapse_0_1_0_BB27_9:                                ## %join.3
	addq	$72, %rsp
	retq
	.cfi_endproc
                                        ## -- End function
	.section	__TEXT,__literal16,16byte_literals
	.p2align	4, 0x0                          ## -- Begin function aead_ciphers_wide::aes::ctr32::encrypt_up_to_sixteen
Ldeerlapse_0_1_0_CPI28_0:
	.byte	4                               ## 0x4
	.byte	5                               ## 0x5
	.byte	6                               ## 0x6
	.byte	7                               ## 0x7
	.byte	8                               ## 0x8
	.byte	9                               ## 0x9
	.byte	10                              ## 0xa
	.byte	11                              ## 0xb
	.byte	12                              ## 0xc
	.byte	13                              ## 0xd
	.byte	14                              ## 0xe
	.byte	15                              ## 0xf
	.byte	3                               ## 0x3
	.byte	2                               ## 0x2
	.byte	1                               ## 0x1
	.byte	0                               ## 0x0
Ldeerlapse_0_1_0_CPI28_1:
	.space	4
	.space	4
	.space	4
	.long	2                               ## 0x2
Ldeerlapse_0_1_0_CPI28_2:
	.space	4
	.space	4
	.space	4
	.long	3                               ## 0x3
Ldeerlapse_0_1_0_CPI28_3:
	.space	4
	.space	4
	.space	4
	.long	4                               ## 0x4
Ldeerlapse_0_1_0_CPI28_4:
	.space	4
	.space	4
	.space	4
	.long	5                               ## 0x5
Ldeerlapse_0_1_0_CPI28_5:
	.space	4
	.space	4
	.space	4
	.long	6                               ## 0x6
Ldeerlapse_0_1_0_CPI28_6:
	.space	4
	.space	4
	.space	4
	.long	7                               ## 0x7
Ldeerlapse_0_1_0_CPI28_7:
	.space	4
	.space	4
	.space	4
	.long	8                               ## 0x8
Ldeerlapse_0_1_0_CPI28_8:
	.space	4
	.space	4
	.space	4
	.long	9                               ## 0x9
Ldeerlapse_0_1_0_CPI28_9:
	.space	4
	.space	4
	.space	4
	.long	10                              ## 0xa
Ldeerlapse_0_1_0_CPI28_10:
	.space	4
	.space	4
	.space	4
	.long	11                              ## 0xb
Ldeerlapse_0_1_0_CPI28_11:
	.space	4
	.space	4
	.space	4
	.long	12                              ## 0xc
Ldeerlapse_0_1_0_CPI28_12:
	.space	4
	.space	4
	.space	4
	.long	13                              ## 0xd
Ldeerlapse_0_1_0_CPI28_13:
	.space	4
	.space	4
	.space	4
	.long	14                              ## 0xe
Ldeerlapse_0_1_0_CPI28_14:
	.space	4
	.space	4
	.space	4
	.long	15                              ## 0xf
Ldeerlapse_0_1_0_CPI28_15:
	.space	16,15
Ldeerlapse_0_1_0_CPI28_16:
	.space	16,51
Ldeerlapse_0_1_0_CPI28_17:
	.space	16,85
Ldeerlapse_0_1_0_CPI28_18:
	.byte	0                               ## 0x0
	.byte	5                               ## 0x5
	.byte	10                              ## 0xa
	.byte	15                              ## 0xf
	.byte	4                               ## 0x4
	.byte	9                               ## 0x9
	.byte	14                              ## 0xe
	.byte	3                               ## 0x3
	.byte	8                               ## 0x8
	.byte	13                              ## 0xd
	.byte	2                               ## 0x2
	.byte	7                               ## 0x7
	.byte	12                              ## 0xc
	.byte	1                               ## 0x1
	.byte	6                               ## 0x6
	.byte	11                              ## 0xb
Ldeerlapse_0_1_0_CPI28_19:
	.byte	5                               ## 0x5
	.byte	10                              ## 0xa
	.byte	15                              ## 0xf
	.byte	0                               ## 0x0
	.byte	9                               ## 0x9
	.byte	14                              ## 0xe
	.byte	3                               ## 0x3
	.byte	4                               ## 0x4
	.byte	13                              ## 0xd
	.byte	2                               ## 0x2
	.byte	7                               ## 0x7
	.byte	8                               ## 0x8
	.byte	1                               ## 0x1
	.byte	6                               ## 0x6
	.byte	11                              ## 0xb
	.byte	12                              ## 0xc
	.section	__TEXT,__text,regular,pure_instructions
	.p2align	4
"_deerlapse_0_1_0::aead_ciphers_wide::aes::ctr32::encrypt_up_to_sixteen": ## @"aead_ciphers_wide::aes::ctr32::encrypt_up_to_sixteen"
	.cfi_startproc
## %bb.0:                               ## %start
	subq	$744, %rsp                      ## imm = 0x2E8
	.cfi_def_cfa_offset 752
	movd	(%r8), %xmm0                    ## xmm0 = mem[0],zero,zero,zero
	movq	4(%r8), %xmm1                   ## xmm1 = mem[0],zero
	movl	12(%r8), %eax
	bswapl	%eax
	movd	%eax, %xmm2
	pshufd	$0, %xmm2, %xmm6                ## xmm6 = xmm2[0,0,0,0]
	movq	%xmm0, %xmm0                    ## xmm0 = xmm0[0],zero
	pshufd	$80, %xmm1, %xmm9               ## xmm9 = xmm1[0,0,1,1]
	pblendw	$195, %xmm0, %xmm9              ## xmm9 = xmm0[0,1],xmm9[2,3,4,5],xmm0[6,7]
	pcmpeqd	%xmm1, %xmm1
	movdqa	%xmm6, %xmm0
	psubd	%xmm1, %xmm0
	movdqa	%xmm9, %xmm10
	palignr	$12, %xmm0, %xmm10              ## xmm10 = xmm0[12,13,14,15],xmm10[0,1,2,3,4,5,6,7,8,9,10,11]
	movdqa	Ldeerlapse_0_1_0_CPI28_1(%rip), %xmm0           ## xmm0 = [u,u,u,2]
	paddd	%xmm6, %xmm0
	movdqa	%xmm9, %xmm3
	palignr	$12, %xmm0, %xmm3               ## xmm3 = xmm0[12,13,14,15],xmm3[0,1,2,3,4,5,6,7,8,9,10,11]
	movdqa	Ldeerlapse_0_1_0_CPI28_2(%rip), %xmm0           ## xmm0 = [u,u,u,3]
	paddd	%xmm6, %xmm0
	movdqa	%xmm9, %xmm5
	palignr	$12, %xmm0, %xmm5               ## xmm5 = xmm0[12,13,14,15],xmm5[0,1,2,3,4,5,6,7,8,9,10,11]
	movdqa	Ldeerlapse_0_1_0_CPI28_3(%rip), %xmm0           ## xmm0 = [u,u,u,4]
	paddd	%xmm6, %xmm0
	movdqa	%xmm9, %xmm1
	palignr	$12, %xmm0, %xmm1               ## xmm1 = xmm0[12,13,14,15],xmm1[0,1,2,3,4,5,6,7,8,9,10,11]
	movdqa	%xmm1, %xmm13
	movdqa	Ldeerlapse_0_1_0_CPI28_4(%rip), %xmm0           ## xmm0 = [u,u,u,5]
	paddd	%xmm6, %xmm0
	movdqa	%xmm9, %xmm7
	palignr	$12, %xmm0, %xmm7               ## xmm7 = xmm0[12,13,14,15],xmm7[0,1,2,3,4,5,6,7,8,9,10,11]
	movdqa	Ldeerlapse_0_1_0_CPI28_5(%rip), %xmm0           ## xmm0 = [u,u,u,6]
	paddd	%xmm6, %xmm0
	movdqa	%xmm9, %xmm1
	palignr	$12, %xmm0, %xmm1               ## xmm1 = xmm0[12,13,14,15],xmm1[0,1,2,3,4,5,6,7,8,9,10,11]
	movdqa	%xmm1, -128(%rsp)               ## 16-byte Spill
	movdqa	Ldeerlapse_0_1_0_CPI28_6(%rip), %xmm0           ## xmm0 = [u,u,u,7]
	paddd	%xmm6, %xmm0
	movdqa	%xmm9, %xmm1
	palignr	$12, %xmm0, %xmm1               ## xmm1 = xmm0[12,13,14,15],xmm1[0,1,2,3,4,5,6,7,8,9,10,11]
	movdqa	%xmm1, %xmm11
	movdqa	Ldeerlapse_0_1_0_CPI28_7(%rip), %xmm0           ## xmm0 = [u,u,u,8]
	paddd	%xmm6, %xmm0
	movdqa	%xmm9, %xmm12
	palignr	$12, %xmm0, %xmm12              ## xmm12 = xmm0[12,13,14,15],xmm12[0,1,2,3,4,5,6,7,8,9,10,11]
	movdqa	Ldeerlapse_0_1_0_CPI28_8(%rip), %xmm0           ## xmm0 = [u,u,u,9]
	paddd	%xmm6, %xmm0
	movdqa	%xmm9, %xmm15
	palignr	$12, %xmm0, %xmm15              ## xmm15 = xmm0[12,13,14,15],xmm15[0,1,2,3,4,5,6,7,8,9,10,11]
	movdqa	Ldeerlapse_0_1_0_CPI28_9(%rip), %xmm0           ## xmm0 = [u,u,u,10]
	paddd	%xmm6, %xmm0
	movdqa	%xmm9, %xmm4
	palignr	$12, %xmm0, %xmm4               ## xmm4 = xmm0[12,13,14,15],xmm4[0,1,2,3,4,5,6,7,8,9,10,11]
	movdqa	Ldeerlapse_0_1_0_CPI28_10(%rip), %xmm0          ## xmm0 = [u,u,u,11]
	paddd	%xmm6, %xmm0
	movdqa	%xmm9, %xmm1
	palignr	$12, %xmm0, %xmm1               ## xmm1 = xmm0[12,13,14,15],xmm1[0,1,2,3,4,5,6,7,8,9,10,11]
	movdqa	Ldeerlapse_0_1_0_CPI28_11(%rip), %xmm0          ## xmm0 = [u,u,u,12]
	paddd	%xmm6, %xmm0
	movdqa	%xmm9, %xmm8
	palignr	$12, %xmm0, %xmm8               ## xmm8 = xmm0[12,13,14,15],xmm8[0,1,2,3,4,5,6,7,8,9,10,11]
	movdqa	Ldeerlapse_0_1_0_CPI28_12(%rip), %xmm0          ## xmm0 = [u,u,u,13]
	paddd	%xmm6, %xmm0
	movdqa	%xmm9, %xmm14
	palignr	$12, %xmm0, %xmm14              ## xmm14 = xmm0[12,13,14,15],xmm14[0,1,2,3,4,5,6,7,8,9,10,11]
	movdqa	Ldeerlapse_0_1_0_CPI28_13(%rip), %xmm0          ## xmm0 = [u,u,u,14]
	paddd	%xmm6, %xmm0
	movdqa	%xmm9, %xmm2
	palignr	$12, %xmm0, %xmm2               ## xmm2 = xmm0[12,13,14,15],xmm2[0,1,2,3,4,5,6,7,8,9,10,11]
	movdqa	%xmm9, %xmm0
	palignr	$12, %xmm6, %xmm0               ## xmm0 = xmm6[12,13,14,15],xmm0[0,1,2,3,4,5,6,7,8,9,10,11]
	paddd	Ldeerlapse_0_1_0_CPI28_14(%rip), %xmm6
	palignr	$12, %xmm6, %xmm9               ## xmm9 = xmm6[12,13,14,15],xmm9[0,1,2,3,4,5,6,7,8,9,10,11]
	movdqa	Ldeerlapse_0_1_0_CPI28_0(%rip), %xmm6           ## xmm6 = [4,5,6,7,8,9,10,11,12,13,14,15,3,2,1,0]
	pshufb	%xmm6, %xmm0
	pshufb	%xmm6, %xmm10
	pshufb	%xmm6, %xmm3
	pshufb	%xmm6, %xmm5
	pshufb	%xmm6, %xmm13
	movdqa	%xmm13, -96(%rsp)               ## 16-byte Spill
	pshufb	%xmm6, %xmm7
	movdqa	-128(%rsp), %xmm13              ## 16-byte Reload
	pshufb	%xmm6, %xmm13
	movdqa	%xmm13, -128(%rsp)              ## 16-byte Spill
	pshufb	%xmm6, %xmm11
	movdqa	%xmm11, -80(%rsp)               ## 16-byte Spill
	pshufb	%xmm6, %xmm12
	pshufb	%xmm6, %xmm15
	pshufb	%xmm6, %xmm4
	pshufb	%xmm6, %xmm1
	pshufb	%xmm6, %xmm8
	pshufb	%xmm6, %xmm14
	pshufb	%xmm6, %xmm2
	pshufb	%xmm6, %xmm9
	movdqa	%xmm10, %xmm6
	psrlq	$4, %xmm6
	pxor	%xmm15, %xmm6
	movdqa	Ldeerlapse_0_1_0_CPI28_15(%rip), %xmm13         ## xmm13 = [1085102592571150095,1085102592571150095]
	pand	%xmm13, %xmm6
	movdqa	%xmm6, %xmm11
	psllq	$4, %xmm11
	pxor	%xmm10, %xmm11
	movdqa	%xmm0, %xmm10
	psrlq	$4, %xmm10
	pxor	%xmm12, %xmm10
	pand	%xmm13, %xmm10
	movdqa	%xmm10, %xmm13
	psllq	$4, %xmm13
	pxor	%xmm0, %xmm13
	pxor	%xmm15, %xmm6
	pxor	%xmm12, %xmm10
	movdqa	%xmm5, %xmm0
	psrlq	$4, %xmm0
	pxor	%xmm1, %xmm0
	pand	Ldeerlapse_0_1_0_CPI28_15(%rip), %xmm0
	movdqa	%xmm0, %xmm15
	movdqa	%xmm0, %xmm12
	psllq	$4, %xmm15
	pxor	%xmm5, %xmm15
	movdqa	%xmm15, -112(%rsp)              ## 16-byte Spill
	movdqa	%xmm3, %xmm0
	psrlq	$4, %xmm0
	pxor	%xmm4, %xmm0
	movdqa	Ldeerlapse_0_1_0_CPI28_15(%rip), %xmm15         ## xmm15 = [1085102592571150095,1085102592571150095]
	pand	%xmm15, %xmm0
	movdqa	%xmm0, %xmm5
	psllq	$4, %xmm5
	pxor	%xmm3, %xmm5
	movdqa	%xmm5, -48(%rsp)                ## 16-byte Spill
	pxor	%xmm4, %xmm0
	movdqa	%xmm0, -64(%rsp)                ## 16-byte Spill
	pxor	%xmm1, %xmm12
	movdqa	%xmm12, -32(%rsp)               ## 16-byte Spill
	movdqa	%xmm7, %xmm5
	psrlq	$4, %xmm5
	pxor	%xmm14, %xmm5
	pand	%xmm15, %xmm5
	movdqa	%xmm5, %xmm3
	psllq	$4, %xmm3
	pxor	%xmm7, %xmm3
	movdqa	-96(%rsp), %xmm0                ## 16-byte Reload
	movdqa	%xmm0, %xmm4
	psrlq	$4, %xmm4
	pxor	%xmm8, %xmm4
	pand	%xmm15, %xmm4
	movdqa	%xmm4, %xmm1
	psllq	$4, %xmm1
	pxor	%xmm0, %xmm1
	pxor	%xmm8, %xmm4
	pxor	%xmm14, %xmm5
	movdqa	-128(%rsp), %xmm0               ## 16-byte Reload
	movdqa	%xmm0, %xmm8
	psrlq	$4, %xmm8
	pxor	%xmm2, %xmm8
	pand	%xmm15, %xmm8
	movdqa	%xmm8, %xmm7
	psllq	$4, %xmm7
	pxor	%xmm0, %xmm7
	movdqa	%xmm7, -128(%rsp)               ## 16-byte Spill
	movdqa	-80(%rsp), %xmm0                ## 16-byte Reload
	movdqa	%xmm0, %xmm14
	psrlq	$4, %xmm14
	pxor	%xmm9, %xmm14
	pand	%xmm15, %xmm14
	movdqa	%xmm14, %xmm15
	psllq	$4, %xmm15
	pxor	%xmm0, %xmm15
	pxor	%xmm9, %xmm14
	pxor	%xmm2, %xmm8
	movdqa	%xmm11, %xmm9
	psrlq	$2, %xmm9
	pxor	%xmm3, %xmm9
	movdqa	Ldeerlapse_0_1_0_CPI28_16(%rip), %xmm2          ## xmm2 = [3689348814741910323,3689348814741910323]
	pand	%xmm2, %xmm9
	movdqa	%xmm9, %xmm12
	psllq	$2, %xmm12
	pxor	%xmm11, %xmm12
	movdqa	%xmm13, %xmm7
	psrlq	$2, %xmm7
	pxor	%xmm1, %xmm7
	pand	%xmm2, %xmm7
	movdqa	%xmm7, %xmm0
	psllq	$2, %xmm0
	pxor	%xmm13, %xmm0
	movdqa	%xmm0, 16(%rsp)                 ## 16-byte Spill
	pxor	%xmm1, %xmm7
	pxor	%xmm3, %xmm9
	movdqa	%xmm10, %xmm3
	psrlq	$2, %xmm3
	pxor	%xmm4, %xmm3
	pand	%xmm2, %xmm3
	movdqa	%xmm3, %xmm0
	psllq	$2, %xmm0
	pxor	%xmm10, %xmm0
	movdqa	%xmm0, -80(%rsp)                ## 16-byte Spill
	movdqa	%xmm6, %xmm1
	psrlq	$2, %xmm1
	pxor	%xmm5, %xmm1
	pand	%xmm2, %xmm1
	movdqa	%xmm2, %xmm11
	movdqa	%xmm1, %xmm0
	psllq	$2, %xmm0
	pxor	%xmm6, %xmm0
	movdqa	%xmm0, -96(%rsp)                ## 16-byte Spill
	pxor	%xmm4, %xmm3
	pxor	%xmm5, %xmm1
	movdqa	-48(%rsp), %xmm0                ## 16-byte Reload
	movdqa	%xmm0, %xmm13
	psrlq	$2, %xmm13
	movdqa	-128(%rsp), %xmm5               ## 16-byte Reload
	pxor	%xmm5, %xmm13
	pand	%xmm2, %xmm13
	movdqa	%xmm13, %xmm2
	psllq	$2, %xmm2
	pxor	%xmm0, %xmm2
	movdqa	-112(%rsp), %xmm0               ## 16-byte Reload
	movdqa	%xmm0, %xmm10
	psrlq	$2, %xmm10
	pxor	%xmm15, %xmm10
	pand	%xmm11, %xmm10
	movdqa	%xmm10, %xmm6
	psllq	$2, %xmm6
	pxor	%xmm0, %xmm6
	pxor	%xmm15, %xmm10
	movdqa	%xmm12, %xmm11
	pxor	%xmm5, %xmm13
	movdqa	-32(%rsp), %xmm0                ## 16-byte Reload
	movdqa	%xmm0, %xmm12
	psrlq	$2, %xmm12
	pxor	%xmm14, %xmm12
	pand	Ldeerlapse_0_1_0_CPI28_16(%rip), %xmm12
	movdqa	%xmm12, %xmm4
	psllq	$2, %xmm4
	pxor	%xmm0, %xmm4
	movdqa	%xmm4, 96(%rsp)                 ## 16-byte Spill
	movdqa	-64(%rsp), %xmm0                ## 16-byte Reload
	movdqa	%xmm0, %xmm4
	psrlq	$2, %xmm4
	pxor	%xmm8, %xmm4
	pand	Ldeerlapse_0_1_0_CPI28_16(%rip), %xmm4
	movdqa	%xmm4, %xmm15
	psllq	$2, %xmm4
	pxor	%xmm0, %xmm4
	pxor	%xmm14, %xmm12
	movdqa	%xmm4, %xmm14
	pxor	%xmm8, %xmm15
	movdqa	%xmm11, %xmm4
	psrlq	$1, %xmm4
	pxor	%xmm6, %xmm4
	movdqa	Ldeerlapse_0_1_0_CPI28_17(%rip), %xmm8          ## xmm8 = [6148914691236517205,6148914691236517205]
	pand	%xmm8, %xmm4
	movdqu	16(%rdi), %xmm5
	pxor	%xmm5, %xmm6
	pxor	%xmm4, %xmm6
	movdqa	%xmm6, 64(%rsp)                 ## 16-byte Spill
	paddq	%xmm4, %xmm4
	movdqu	(%rdi), %xmm6
	pxor	%xmm6, %xmm11
	pxor	%xmm4, %xmm11
	movdqa	%xmm11, -48(%rsp)               ## 16-byte Spill
	movdqa	16(%rsp), %xmm11                ## 16-byte Reload
	movdqa	%xmm11, %xmm4
	pxor	%xmm6, %xmm11
	psrlq	$1, %xmm4
	pxor	%xmm2, %xmm4
	pxor	%xmm5, %xmm2
	pand	%xmm8, %xmm4
	pxor	%xmm4, %xmm2
	movdqa	%xmm2, 48(%rsp)                 ## 16-byte Spill
	movdqa	96(%rsp), %xmm0                 ## 16-byte Reload
	paddq	%xmm4, %xmm4
	pxor	%xmm4, %xmm11
	movdqa	%xmm11, 16(%rsp)                ## 16-byte Spill
	movdqa	%xmm7, %xmm4
	psrlq	$1, %xmm4
	pxor	%xmm13, %xmm4
	pand	%xmm8, %xmm4
	movdqu	48(%rdi), %xmm5
	pxor	%xmm5, %xmm13
	pxor	%xmm4, %xmm13
	paddq	%xmm4, %xmm4
	movdqu	32(%rdi), %xmm6
	pxor	%xmm6, %xmm7
	pxor	%xmm4, %xmm7
	movdqa	%xmm7, -16(%rsp)                ## 16-byte Spill
	movdqa	%xmm9, %xmm4
	pxor	%xmm6, %xmm9
	psrlq	$1, %xmm4
	pxor	%xmm10, %xmm4
	pxor	%xmm5, %xmm10
	pand	%xmm8, %xmm4
	pxor	%xmm4, %xmm10
	paddq	%xmm4, %xmm4
	pxor	%xmm4, %xmm9
	movdqa	%xmm9, -112(%rsp)               ## 16-byte Spill
	movdqa	%xmm15, %xmm11
	movdqa	-80(%rsp), %xmm7                ## 16-byte Reload
	movdqa	%xmm7, %xmm4
	psrlq	$1, %xmm4
	pxor	%xmm14, %xmm4
	pand	%xmm8, %xmm4
	movdqu	80(%rdi), %xmm5
	pxor	%xmm5, %xmm14
	pxor	%xmm4, %xmm14
	paddq	%xmm4, %xmm4
	movdqu	64(%rdi), %xmm6
	pxor	%xmm6, %xmm7
	pxor	%xmm4, %xmm7
	movdqa	%xmm7, -80(%rsp)                ## 16-byte Spill
	movdqa	-96(%rsp), %xmm7                ## 16-byte Reload
	movdqa	%xmm7, %xmm4
	pxor	%xmm6, %xmm7
	psrlq	$1, %xmm4
	pxor	%xmm0, %xmm4
	pxor	%xmm5, %xmm0
	pand	%xmm8, %xmm4
	pxor	%xmm4, %xmm0
	paddq	%xmm4, %xmm4
	pxor	%xmm4, %xmm7
	movdqa	%xmm7, -96(%rsp)                ## 16-byte Spill
	movdqa	%xmm3, %xmm4
	psrlq	$1, %xmm4
	pxor	%xmm15, %xmm4
	pand	%xmm8, %xmm4
	movdqu	112(%rdi), %xmm5
	pxor	%xmm5, %xmm11
	pxor	%xmm4, %xmm11
	paddq	%xmm4, %xmm4
	movdqu	96(%rdi), %xmm6
	pxor	%xmm6, %xmm3
	pxor	%xmm4, %xmm3
	movdqa	%xmm1, %xmm4
	pxor	%xmm6, %xmm1
	psrlq	$1, %xmm4
	pxor	%xmm12, %xmm4
	pxor	%xmm5, %xmm12
	pand	%xmm8, %xmm4
	pxor	%xmm4, %xmm12
	paddq	%xmm4, %xmm4
	pxor	%xmm4, %xmm1
	movdqa	%xmm1, (%rsp)                   ## 16-byte Spill
	cmpq	$2, %rsi
	jb	Ldeerlapse_0_1_0_BB28_1
## %bb.2:                               ## %join.5.i.i.preheader
	leaq	-1(%rsi), %rax
	leaq	240(%rdi), %r8
	movdqa	%xmm12, %xmm7
	movdqa	%xmm11, 32(%rsp)                ## 16-byte Spill
	movdqa	%xmm0, %xmm8
	movdqa	%xmm14, %xmm12
	.p2align	4
Ldeerlapse_0_1_0_BB28_3:                                ## %join.5.i.i
                                        ## =>This Inner Loop Header: Depth=1
	movdqa	(%rsp), %xmm2                   ## 16-byte Reload
	pxor	-48(%rsp), %xmm2                ## 16-byte Folded Reload
	movdqa	%xmm2, %xmm15
	movdqa	%xmm2, %xmm6
	movdqa	%xmm8, %xmm11
	pxor	%xmm8, %xmm15
	movdqa	64(%rsp), %xmm2                 ## 16-byte Reload
	pxor	%xmm2, %xmm10
	movdqa	%xmm15, %xmm0
	pxor	%xmm2, %xmm0
	movdqa	%xmm0, 320(%rsp)                ## 16-byte Spill
	movdqa	%xmm15, %xmm0
	pxor	%xmm7, %xmm0
	movdqa	%xmm0, 80(%rsp)                 ## 16-byte Spill
	movdqa	%xmm7, %xmm8
	movdqa	%xmm7, 112(%rsp)                ## 16-byte Spill
	pxor	%xmm2, %xmm7
	movdqa	%xmm7, 288(%rsp)                ## 16-byte Spill
	movdqa	%xmm3, %xmm0
	movdqa	%xmm3, %xmm2
	pxor	16(%rsp), %xmm2                 ## 16-byte Folded Reload
	movdqa	%xmm2, %xmm7
	movdqa	%xmm2, %xmm14
	pxor	%xmm12, %xmm7
	movdqa	%xmm12, %xmm1
	movdqa	48(%rsp), %xmm2                 ## 16-byte Reload
	pxor	%xmm2, %xmm13
	movdqa	%xmm7, %xmm3
	pxor	%xmm2, %xmm3
	movdqa	%xmm3, 64(%rsp)                 ## 16-byte Spill
	movdqa	%xmm7, %xmm4
	movdqa	%xmm7, %xmm12
	movdqa	32(%rsp), %xmm3                 ## 16-byte Reload
	pxor	%xmm3, %xmm4
	movdqa	%xmm4, -64(%rsp)                ## 16-byte Spill
	movdqa	%xmm10, %xmm4
	movdqa	%xmm3, %xmm9
	movdqa	%xmm3, %xmm5
	pxor	%xmm2, %xmm3
	movdqa	%xmm3, 32(%rsp)                 ## 16-byte Spill
	movdqa	-80(%rsp), %xmm10               ## 16-byte Reload
	pxor	%xmm10, %xmm9
	movdqa	%xmm9, 400(%rsp)                ## 16-byte Spill
	pxor	%xmm13, %xmm9
	movdqa	-16(%rsp), %xmm2                ## 16-byte Reload
	pxor	%xmm2, %xmm13
	pxor	%xmm13, %xmm14
	movdqa	%xmm14, 240(%rsp)               ## 16-byte Spill
	pxor	%xmm13, %xmm1
	movdqa	%xmm1, 304(%rsp)                ## 16-byte Spill
	pxor	%xmm0, %xmm13
	movdqa	%xmm13, 384(%rsp)               ## 16-byte Spill
	movdqa	-96(%rsp), %xmm1                ## 16-byte Reload
	pxor	%xmm1, %xmm8
	movdqa	%xmm8, %xmm0
	movdqa	%xmm8, 336(%rsp)                ## 16-byte Spill
	pxor	%xmm4, %xmm0
	movdqa	%xmm0, %xmm7
	movdqa	%xmm0, 192(%rsp)                ## 16-byte Spill
	movdqa	-112(%rsp), %xmm0               ## 16-byte Reload
	pxor	%xmm0, %xmm4
	pxor	%xmm4, %xmm6
	movdqa	%xmm6, 224(%rsp)                ## 16-byte Spill
	pxor	%xmm4, %xmm11
	movdqa	%xmm11, 96(%rsp)                ## 16-byte Spill
	pxor	(%rsp), %xmm4                   ## 16-byte Folded Reload
	movdqa	%xmm15, 208(%rsp)               ## 16-byte Spill
	movdqa	%xmm15, %xmm3
	pxor	%xmm1, %xmm3
	movdqa	%xmm3, -32(%rsp)                ## 16-byte Spill
	movdqa	112(%rsp), %xmm3                ## 16-byte Reload
	pxor	%xmm0, %xmm3
	pxor	%xmm0, %xmm1
	movdqa	%xmm1, -96(%rsp)                ## 16-byte Spill
	movdqa	%xmm12, 256(%rsp)               ## 16-byte Spill
	movdqa	%xmm12, %xmm0
	pxor	%xmm10, %xmm0
	movdqa	%xmm0, -128(%rsp)               ## 16-byte Spill
	pxor	%xmm2, %xmm5
	pxor	%xmm2, %xmm10
	movdqa	%xmm10, -80(%rsp)               ## 16-byte Spill
	movdqa	%xmm10, %xmm14
	movdqa	%xmm7, %xmm0
	pxor	-48(%rsp), %xmm0                ## 16-byte Folded Reload
	movdqa	%xmm0, -16(%rsp)                ## 16-byte Spill
	pxor	%xmm15, %xmm0
	movdqa	%xmm0, %xmm10
	movdqa	%xmm0, %xmm7
	movdqa	%xmm0, 272(%rsp)                ## 16-byte Spill
	pxor	%xmm4, %xmm10
	movdqa	%xmm10, 464(%rsp)               ## 16-byte Spill
	pand	%xmm1, %xmm10
	movdqa	%xmm8, %xmm0
	pand	%xmm4, %xmm0
	movdqa	%xmm4, %xmm8
	movdqa	%xmm4, 368(%rsp)                ## 16-byte Spill
	pxor	%xmm0, %xmm10
	pand	%xmm3, %xmm7
	movdqa	%xmm3, %xmm1
	pxor	%xmm0, %xmm7
	movdqa	%xmm9, 416(%rsp)                ## 16-byte Spill
	movdqa	%xmm9, %xmm11
	movdqa	16(%rsp), %xmm15                ## 16-byte Reload
	pxor	%xmm15, %xmm11
	movdqa	%xmm11, %xmm2
	movdqa	%xmm11, 432(%rsp)               ## 16-byte Spill
	pxor	%xmm12, %xmm2
	movdqa	%xmm2, 352(%rsp)                ## 16-byte Spill
	movdqa	%xmm2, %xmm3
	pxor	%xmm13, %xmm3
	movdqa	%xmm3, 448(%rsp)                ## 16-byte Spill
	pand	%xmm14, %xmm3
	movdqa	400(%rsp), %xmm6                ## 16-byte Reload
	movdqa	%xmm6, %xmm0
	pand	%xmm13, %xmm0
	pxor	%xmm0, %xmm3
	movdqa	%xmm2, %xmm12
	movdqa	%xmm5, 128(%rsp)                ## 16-byte Spill
	pand	%xmm5, %xmm12
	pxor	%xmm0, %xmm12
	movdqa	64(%rsp), %xmm14                ## 16-byte Reload
	pxor	%xmm5, %xmm14
	movdqa	%xmm14, %xmm4
	movdqa	%xmm14, 160(%rsp)               ## 16-byte Spill
	pand	%xmm11, %xmm4
	movdqa	%xmm13, %xmm2
	pxor	%xmm6, %xmm2
	pxor	%xmm4, %xmm2
	movdqa	320(%rsp), %xmm6                ## 16-byte Reload
	movdqa	%xmm6, %xmm11
	movdqa	%xmm1, 112(%rsp)                ## 16-byte Spill
	pxor	%xmm1, %xmm11
	movdqa	%xmm11, %xmm4
	movdqa	%xmm11, %xmm5
	movdqa	%xmm11, (%rsp)                  ## 16-byte Spill
	pand	-16(%rsp), %xmm4                ## 16-byte Folded Reload
	movdqa	%xmm8, %xmm11
	pxor	336(%rsp), %xmm11               ## 16-byte Folded Reload
	pxor	%xmm4, %xmm11
	movdqa	%xmm5, %xmm4
	movdqa	-32(%rsp), %xmm8                ## 16-byte Reload
	pxor	%xmm8, %xmm4
	movdqa	%xmm4, 176(%rsp)                ## 16-byte Spill
	movdqa	%xmm4, %xmm5
	pand	192(%rsp), %xmm5                ## 16-byte Folded Reload
	movdqa	%xmm8, %xmm4
	pand	-48(%rsp), %xmm4                ## 16-byte Folded Reload
	pxor	%xmm1, %xmm4
	pxor	272(%rsp), %xmm4                ## 16-byte Folded Reload
	pxor	%xmm5, %xmm4
	pxor	%xmm5, %xmm11
	movdqa	-128(%rsp), %xmm5               ## 16-byte Reload
	pxor	%xmm5, %xmm14
	movdqa	%xmm14, 144(%rsp)               ## 16-byte Spill
	pand	%xmm9, %xmm14
	pand	%xmm15, %xmm5
	pxor	128(%rsp), %xmm5                ## 16-byte Folded Reload
	pxor	352(%rsp), %xmm5                ## 16-byte Folded Reload
	pxor	%xmm14, %xmm5
	pxor	%xmm14, %xmm2
	movdqa	32(%rsp), %xmm1                 ## 16-byte Reload
	movdqa	%xmm1, %xmm14
	movdqa	304(%rsp), %xmm0                ## 16-byte Reload
	pand	%xmm0, %xmm14
	movdqa	-64(%rsp), %xmm8                ## 16-byte Reload
	por	240(%rsp), %xmm8                ## 16-byte Folded Reload
	pxor	%xmm14, %xmm8
	movdqa	288(%rsp), %xmm13               ## 16-byte Reload
	movdqa	%xmm13, %xmm14
	movdqa	96(%rsp), %xmm9                 ## 16-byte Reload
	pand	%xmm9, %xmm14
	movdqa	80(%rsp), %xmm15                ## 16-byte Reload
	por	224(%rsp), %xmm15               ## 16-byte Folded Reload
	pxor	%xmm14, %xmm15
	pxor	%xmm12, %xmm5
	pxor	%xmm12, %xmm8
	pxor	%xmm7, %xmm4
	pxor	%xmm7, %xmm15
	movdqa	64(%rsp), %xmm12                ## 16-byte Reload
	pand	256(%rsp), %xmm12               ## 16-byte Folded Reload
	movdqa	%xmm1, %xmm7
	por	%xmm0, %xmm7
	pxor	%xmm12, %xmm7
	pand	208(%rsp), %xmm6                ## 16-byte Folded Reload
	movdqa	%xmm13, %xmm12
	por	%xmm9, %xmm12
	pxor	%xmm6, %xmm12
	pxor	%xmm3, %xmm2
	pxor	%xmm3, %xmm7
	pxor	%xmm10, %xmm11
	pxor	%xmm10, %xmm12
	movdqa	%xmm2, %xmm14
	pand	%xmm7, %xmm14
	movdqa	%xmm14, %xmm0
	pxor	%xmm5, %xmm0
	movdqa	%xmm2, %xmm3
	pxor	%xmm5, %xmm3
	pxor	%xmm8, %xmm14
	pand	%xmm3, %xmm14
	pxor	%xmm5, %xmm14
	pand	%xmm8, %xmm5
	movdqa	%xmm3, %xmm1
	pxor	%xmm5, %xmm1
	pand	%xmm7, %xmm1
	pxor	%xmm8, %xmm7
	pand	%xmm7, %xmm0
	pxor	%xmm8, %xmm0
	movdqa	%xmm0, %xmm13
	movdqa	%xmm11, %xmm8
	pand	%xmm12, %xmm8
	movdqa	%xmm8, %xmm0
	pxor	%xmm4, %xmm0
	movdqa	%xmm11, %xmm6
	pxor	%xmm4, %xmm6
	pxor	%xmm15, %xmm8
	pand	%xmm6, %xmm8
	pxor	%xmm4, %xmm8
	movdqa	%xmm8, %xmm10
	movdqa	%xmm8, 48(%rsp)                 ## 16-byte Spill
	pand	%xmm15, %xmm4
	movdqa	%xmm6, %xmm9
	pxor	%xmm4, %xmm9
	pand	%xmm12, %xmm9
	movdqa	%xmm12, %xmm8
	pxor	%xmm15, %xmm8
	pand	%xmm8, %xmm0
	pxor	%xmm15, %xmm0
	movdqa	%xmm0, %xmm12
	pxor	%xmm8, %xmm9
	pxor	%xmm4, %xmm8
	pxor	%xmm7, %xmm1
	pxor	%xmm5, %xmm7
	pand	%xmm2, %xmm7
	pand	%xmm11, %xmm8
	pxor	%xmm6, %xmm8
	pxor	%xmm3, %xmm7
	movdqa	%xmm13, %xmm4
	pxor	%xmm14, %xmm4
	movdqa	%xmm1, %xmm11
	movdqa	%xmm1, -112(%rsp)               ## 16-byte Spill
	movdqa	%xmm1, %xmm6
	pxor	%xmm7, %xmm6
	movdqa	%xmm4, %xmm0
	pxor	%xmm6, %xmm0
	movdqa	-80(%rsp), %xmm1                ## 16-byte Reload
	pand	%xmm0, %xmm1
	movdqa	400(%rsp), %xmm2                ## 16-byte Reload
	pand	%xmm4, %xmm2
	pxor	%xmm2, %xmm1
	movdqa	%xmm1, -80(%rsp)                ## 16-byte Spill
	movdqa	128(%rsp), %xmm1                ## 16-byte Reload
	pand	%xmm6, %xmm1
	pxor	%xmm2, %xmm1
	movdqa	%xmm1, 128(%rsp)                ## 16-byte Spill
	movdqa	%xmm12, %xmm3
	pxor	%xmm10, %xmm3
	movdqa	%xmm9, %xmm15
	pxor	%xmm8, %xmm15
	movdqa	%xmm3, %xmm10
	pxor	%xmm15, %xmm10
	movdqa	-96(%rsp), %xmm1                ## 16-byte Reload
	pand	%xmm10, %xmm1
	movdqa	336(%rsp), %xmm2                ## 16-byte Reload
	pand	%xmm3, %xmm2
	pxor	%xmm2, %xmm1
	movdqa	%xmm1, -96(%rsp)                ## 16-byte Spill
	movdqa	112(%rsp), %xmm1                ## 16-byte Reload
	pand	%xmm15, %xmm1
	pxor	%xmm2, %xmm1
	movdqa	%xmm1, 112(%rsp)                ## 16-byte Spill
	movdqa	%xmm12, %xmm2
	pxor	%xmm9, %xmm12
	movdqa	176(%rsp), %xmm1                ## 16-byte Reload
	pand	%xmm12, %xmm1
	movdqa	%xmm1, 176(%rsp)                ## 16-byte Spill
	pand	192(%rsp), %xmm12               ## 16-byte Folded Reload
	movdqa	%xmm13, %xmm5
	pxor	%xmm11, %xmm5
	movdqa	144(%rsp), %xmm1                ## 16-byte Reload
	pand	%xmm5, %xmm1
	movdqa	%xmm1, 144(%rsp)                ## 16-byte Spill
	pand	416(%rsp), %xmm5                ## 16-byte Folded Reload
	movdqa	-32(%rsp), %xmm1                ## 16-byte Reload
	pand	%xmm2, %xmm1
	movdqa	%xmm1, -32(%rsp)                ## 16-byte Spill
	pand	-48(%rsp), %xmm2                ## 16-byte Folded Reload
	movdqa	-128(%rsp), %xmm1               ## 16-byte Reload
	pand	%xmm13, %xmm1
	movdqa	%xmm1, -128(%rsp)               ## 16-byte Spill
	pand	16(%rsp), %xmm13                ## 16-byte Folded Reload
	movdqa	(%rsp), %xmm1                   ## 16-byte Reload
	pand	%xmm9, %xmm1
	movdqa	%xmm1, (%rsp)                   ## 16-byte Spill
	pand	-16(%rsp), %xmm9                ## 16-byte Folded Reload
	movdqa	%xmm9, %xmm11
	movdqa	-112(%rsp), %xmm9               ## 16-byte Reload
	movdqa	160(%rsp), %xmm1                ## 16-byte Reload
	pand	%xmm9, %xmm1
	movdqa	%xmm1, 160(%rsp)                ## 16-byte Spill
	pand	432(%rsp), %xmm9                ## 16-byte Folded Reload
	pxor	%xmm5, %xmm13
	movdqa	%xmm13, 16(%rsp)                ## 16-byte Spill
	pxor	%xmm5, %xmm9
	pxor	%xmm12, %xmm2
	movdqa	%xmm2, 192(%rsp)                ## 16-byte Spill
	pxor	%xmm12, %xmm11
	movdqa	%xmm11, -16(%rsp)               ## 16-byte Spill
	movdqa	48(%rsp), %xmm12                ## 16-byte Reload
	movdqa	%xmm12, %xmm5
	pxor	%xmm8, %xmm5
	movdqa	288(%rsp), %xmm13               ## 16-byte Reload
	pand	%xmm5, %xmm13
	pand	96(%rsp), %xmm5                 ## 16-byte Folded Reload
	movdqa	%xmm14, %xmm11
	pxor	%xmm7, %xmm11
	movdqa	32(%rsp), %xmm2                 ## 16-byte Reload
	pand	%xmm11, %xmm2
	movdqa	%xmm2, 32(%rsp)                 ## 16-byte Spill
	pand	304(%rsp), %xmm11               ## 16-byte Folded Reload
	movdqa	80(%rsp), %xmm1                 ## 16-byte Reload
	pand	%xmm12, %xmm1
	pand	224(%rsp), %xmm12               ## 16-byte Folded Reload
	movdqa	-64(%rsp), %xmm2                ## 16-byte Reload
	pand	%xmm14, %xmm2
	movdqa	%xmm2, -64(%rsp)                ## 16-byte Spill
	pand	240(%rsp), %xmm14               ## 16-byte Folded Reload
	movdqa	64(%rsp), %xmm2                 ## 16-byte Reload
	pand	%xmm7, %xmm2
	movdqa	%xmm2, 64(%rsp)                 ## 16-byte Spill
	pand	256(%rsp), %xmm7                ## 16-byte Folded Reload
	movdqa	320(%rsp), %xmm2                ## 16-byte Reload
	pand	%xmm8, %xmm2
	pand	208(%rsp), %xmm8                ## 16-byte Folded Reload
	pxor	%xmm5, %xmm12
	movdqa	%xmm12, 48(%rsp)                ## 16-byte Spill
	pxor	%xmm5, %xmm8
	pxor	%xmm11, %xmm14
	movdqa	%xmm14, 96(%rsp)                ## 16-byte Spill
	pxor	%xmm11, %xmm7
	pand	464(%rsp), %xmm10               ## 16-byte Folded Reload
	pand	448(%rsp), %xmm0                ## 16-byte Folded Reload
	pand	368(%rsp), %xmm3                ## 16-byte Folded Reload
	pand	384(%rsp), %xmm4                ## 16-byte Folded Reload
	pand	272(%rsp), %xmm15               ## 16-byte Folded Reload
	pand	352(%rsp), %xmm6                ## 16-byte Folded Reload
	pxor	%xmm4, %xmm0
	pxor	%xmm4, %xmm6
	pxor	%xmm3, %xmm10
	pxor	%xmm3, %xmm15
	pxor	%xmm0, %xmm9
	movdqa	%xmm9, -112(%rsp)               ## 16-byte Spill
	pxor	%xmm7, %xmm0
	movdqa	-16(%rsp), %xmm3                ## 16-byte Reload
	pxor	%xmm10, %xmm3
	movdqa	%xmm3, -16(%rsp)                ## 16-byte Spill
	pxor	%xmm8, %xmm10
	movdqa	%xmm1, %xmm7
	pxor	%xmm13, %xmm7
	movdqa	%xmm2, %xmm3
	pxor	%xmm13, %xmm3
	movdqa	-64(%rsp), %xmm5                ## 16-byte Reload
	movdqa	32(%rsp), %xmm8                 ## 16-byte Reload
	pxor	%xmm8, %xmm5
	movdqa	64(%rsp), %xmm4                 ## 16-byte Reload
	pxor	%xmm8, %xmm4
	movdqa	16(%rsp), %xmm12                ## 16-byte Reload
	pxor	%xmm6, %xmm12
	pxor	%xmm6, %xmm4
	movdqa	%xmm4, %xmm6
	movdqa	192(%rsp), %xmm2                ## 16-byte Reload
	pxor	%xmm15, %xmm2
	pxor	%xmm15, %xmm3
	movdqa	(%rsp), %xmm4                   ## 16-byte Reload
	movdqa	176(%rsp), %xmm8                ## 16-byte Reload
	pxor	%xmm8, %xmm4
	movdqa	-96(%rsp), %xmm1                ## 16-byte Reload
	pxor	%xmm1, %xmm4
	movdqa	%xmm4, (%rsp)                   ## 16-byte Spill
	pxor	48(%rsp), %xmm3                 ## 16-byte Folded Reload
	pcmpeqd	%xmm9, %xmm9
	pxor	%xmm9, %xmm1
	pxor	%xmm3, %xmm1
	movdqa	160(%rsp), %xmm15               ## 16-byte Reload
	movdqa	144(%rsp), %xmm14               ## 16-byte Reload
	pxor	%xmm14, %xmm15
	movdqa	-80(%rsp), %xmm13               ## 16-byte Reload
	pxor	%xmm13, %xmm15
	movdqa	96(%rsp), %xmm3                 ## 16-byte Reload
	pxor	%xmm3, %xmm6
	pxor	%xmm9, %xmm13
	pxor	%xmm6, %xmm13
	movdqa	112(%rsp), %xmm9                ## 16-byte Reload
	pxor	%xmm9, %xmm7
	movdqa	%xmm4, %xmm6
	pxor	%xmm10, %xmm6
	pxor	%xmm2, %xmm7
	pxor	%xmm1, %xmm2
	movdqa	%xmm2, -48(%rsp)                ## 16-byte Spill
	pxor	%xmm10, %xmm1
	movdqa	%xmm1, -96(%rsp)                ## 16-byte Spill
	movdqa	%xmm5, %xmm4
	movdqa	128(%rsp), %xmm1                ## 16-byte Reload
	pxor	%xmm1, %xmm4
	movdqa	%xmm15, %xmm11
	pxor	%xmm0, %xmm11
	pxor	%xmm12, %xmm4
	movdqa	%xmm4, %xmm2
	pxor	%xmm13, %xmm12
	pxor	%xmm0, %xmm13
	movdqa	%xmm13, -80(%rsp)               ## 16-byte Spill
	movdqa	-32(%rsp), %xmm5                ## 16-byte Reload
	pxor	%xmm8, %xmm5
	movdqa	-128(%rsp), %xmm8               ## 16-byte Reload
	pxor	%xmm14, %xmm8
	pxor	%xmm1, %xmm8
	pxor	%xmm9, %xmm5
	movdqa	%xmm5, %xmm13
	movdqa	%xmm3, %xmm5
	pxor	16(%rsp), %xmm5                 ## 16-byte Folded Reload
	movdqa	48(%rsp), %xmm10                ## 16-byte Reload
	pxor	192(%rsp), %xmm10               ## 16-byte Folded Reload
	movdqa	%xmm6, %xmm14
	movdqa	-16(%rsp), %xmm1                ## 16-byte Reload
	pxor	%xmm1, %xmm14
	pxor	(%rsp), %xmm1                   ## 16-byte Folded Reload
	movdqa	%xmm11, %xmm4
	movdqa	-112(%rsp), %xmm0               ## 16-byte Reload
	pxor	%xmm0, %xmm4
	pxor	%xmm15, %xmm0
	pxor	%xmm7, %xmm13
	pxor	%xmm2, %xmm8
	pcmpeqd	%xmm3, %xmm3
	pxor	%xmm3, %xmm2
	movdqa	%xmm2, -64(%rsp)                ## 16-byte Spill
	pxor	%xmm3, %xmm7
	movdqa	%xmm7, 80(%rsp)                 ## 16-byte Spill
	pxor	%xmm3, %xmm0
	movdqa	%xmm0, -112(%rsp)               ## 16-byte Spill
	pcmpeqd	%xmm2, %xmm2
	pxor	%xmm2, %xmm1
	movdqa	%xmm1, %xmm7
	pxor	%xmm11, %xmm8
	movdqa	%xmm8, -128(%rsp)               ## 16-byte Spill
	pxor	%xmm6, %xmm13
	movdqa	%xmm13, -32(%rsp)               ## 16-byte Spill
	pxor	%xmm14, %xmm10
	movdqa	%xmm10, %xmm1
	movdqa	%xmm10, 48(%rsp)                ## 16-byte Spill
	pxor	%xmm4, %xmm5
	movdqa	Ldeerlapse_0_1_0_CPI28_18(%rip), %xmm2          ## xmm2 = [0,5,10,15,4,9,14,3,8,13,2,7,12,1,6,11]
	movdqa	-48(%rsp), %xmm10               ## 16-byte Reload
	movdqa	%xmm10, %xmm3
	pshufb	%xmm2, %xmm3
	movdqa	%xmm3, 272(%rsp)                ## 16-byte Spill
	movdqa	%xmm12, %xmm3
	pshufb	%xmm2, %xmm3
	movdqa	%xmm3, 256(%rsp)                ## 16-byte Spill
	movdqa	-80(%rsp), %xmm9                ## 16-byte Reload
	movdqa	%xmm9, %xmm3
	pshufb	%xmm2, %xmm3
	movdqa	%xmm3, 64(%rsp)                 ## 16-byte Spill
	movdqa	-96(%rsp), %xmm15               ## 16-byte Reload
	movdqa	%xmm15, %xmm3
	pshufb	%xmm2, %xmm3
	movdqa	%xmm3, 224(%rsp)                ## 16-byte Spill
	pshufb	%xmm2, %xmm13
	movdqa	%xmm13, 368(%rsp)               ## 16-byte Spill
	movdqa	%xmm8, %xmm13
	pshufb	%xmm2, %xmm13
	movdqa	%xmm5, %xmm3
	pshufb	%xmm2, %xmm3
	movdqa	%xmm3, 160(%rsp)                ## 16-byte Spill
	movdqa	%xmm1, %xmm0
	pshufb	%xmm2, %xmm0
	movdqa	%xmm0, 240(%rsp)                ## 16-byte Spill
	movdqa	%xmm4, %xmm0
	pshufb	%xmm2, %xmm0
	movdqa	%xmm0, 144(%rsp)                ## 16-byte Spill
	movdqa	%xmm14, %xmm0
	pshufb	%xmm2, %xmm0
	movdqa	%xmm0, 176(%rsp)                ## 16-byte Spill
	movdqa	80(%rsp), %xmm3                 ## 16-byte Reload
	movdqa	%xmm3, %xmm0
	pshufb	%xmm2, %xmm0
	movdqa	%xmm0, (%rsp)                   ## 16-byte Spill
	movdqa	-64(%rsp), %xmm0                ## 16-byte Reload
	movdqa	%xmm0, %xmm1
	pshufb	%xmm2, %xmm1
	movdqa	%xmm1, 208(%rsp)                ## 16-byte Spill
	movdqa	%xmm7, %xmm1
	pshufb	%xmm2, %xmm1
	movdqa	%xmm1, 112(%rsp)                ## 16-byte Spill
	movdqa	-112(%rsp), %xmm1               ## 16-byte Reload
	movdqa	%xmm1, %xmm8
	pshufb	%xmm2, %xmm8
	movdqa	%xmm8, 128(%rsp)                ## 16-byte Spill
	movdqa	%xmm6, %xmm8
	pshufb	%xmm2, %xmm8
	movdqa	%xmm8, 32(%rsp)                 ## 16-byte Spill
	movdqa	%xmm11, %xmm8
	pshufb	%xmm2, %xmm8
	movdqa	%xmm8, 16(%rsp)                 ## 16-byte Spill
	movdqa	Ldeerlapse_0_1_0_CPI28_19(%rip), %xmm2          ## xmm2 = [5,10,15,0,9,14,3,4,13,2,7,8,1,6,11,12]
	pshufb	%xmm2, %xmm10
	pshufb	%xmm2, %xmm12
	pshufb	%xmm2, %xmm9
	movdqa	%xmm9, -80(%rsp)                ## 16-byte Spill
	pshufb	%xmm2, %xmm15
	movdqa	%xmm15, %xmm9
	movdqa	-32(%rsp), %xmm15               ## 16-byte Reload
	pshufb	%xmm2, %xmm15
	movdqa	%xmm15, -32(%rsp)               ## 16-byte Spill
	movdqa	-128(%rsp), %xmm15              ## 16-byte Reload
	pshufb	%xmm2, %xmm15
	movdqa	%xmm15, -128(%rsp)              ## 16-byte Spill
	pshufb	%xmm2, %xmm5
	movdqa	%xmm5, 96(%rsp)                 ## 16-byte Spill
	movdqa	48(%rsp), %xmm15                ## 16-byte Reload
	pshufb	%xmm2, %xmm15
	pshufb	%xmm2, %xmm4
	pshufb	%xmm2, %xmm14
	pshufb	%xmm2, %xmm3
	movdqa	%xmm3, 80(%rsp)                 ## 16-byte Spill
	pshufb	%xmm2, %xmm0
	movdqa	%xmm0, -64(%rsp)                ## 16-byte Spill
	pshufb	%xmm2, %xmm7
	movdqa	%xmm7, -16(%rsp)                ## 16-byte Spill
	pshufb	%xmm2, %xmm1
	movdqa	%xmm1, -112(%rsp)               ## 16-byte Spill
	pshufb	%xmm2, %xmm6
	pshufb	%xmm2, %xmm11
	movdqa	256(%rsp), %xmm5                ## 16-byte Reload
	pxor	%xmm12, %xmm5
	movdqa	272(%rsp), %xmm7                ## 16-byte Reload
	pxor	%xmm10, %xmm7
	movdqa	%xmm10, %xmm8
	movdqu	-112(%r8), %xmm2
	pxor	%xmm2, %xmm8
	pxor	%xmm2, %xmm12
	movdqa	16(%rsp), %xmm0                 ## 16-byte Reload
	pxor	%xmm11, %xmm0
	pshuflw	$177, %xmm5, %xmm2              ## xmm2 = xmm5[1,0,3,2,4,5,6,7]
	movdqa	%xmm5, %xmm10
	pshufhw	$177, %xmm2, %xmm2              ## xmm2 = xmm2[0,1,2,3,5,4,7,6]
	pxor	%xmm0, %xmm12
	pxor	%xmm2, %xmm12
	movdqa	%xmm12, 16(%rsp)                ## 16-byte Spill
	movdqa	32(%rsp), %xmm1                 ## 16-byte Reload
	pxor	%xmm6, %xmm1
	movdqa	%xmm7, %xmm5
	pshuflw	$177, %xmm7, %xmm2              ## xmm2 = xmm7[1,0,3,2,4,5,6,7]
	pshufhw	$177, %xmm2, %xmm2              ## xmm2 = xmm2[0,1,2,3,5,4,7,6]
	pxor	%xmm1, %xmm8
	movdqa	%xmm1, %xmm12
	pxor	%xmm2, %xmm8
	movdqa	%xmm8, -48(%rsp)                ## 16-byte Spill
	movdqa	%xmm9, %xmm1
	movdqa	224(%rsp), %xmm8                ## 16-byte Reload
	pxor	%xmm9, %xmm8
	movdqa	-80(%rsp), %xmm7                ## 16-byte Reload
	movdqa	64(%rsp), %xmm9                 ## 16-byte Reload
	pxor	%xmm7, %xmm9
	movdqu	-96(%r8), %xmm2
	pxor	%xmm2, %xmm7
	pxor	%xmm2, %xmm1
	pxor	%xmm5, %xmm1
	movdqa	-32(%rsp), %xmm5                ## 16-byte Reload
	pxor	%xmm10, %xmm7
	movdqa	368(%rsp), %xmm10               ## 16-byte Reload
	pshuflw	$177, %xmm9, %xmm2              ## xmm2 = xmm9[1,0,3,2,4,5,6,7]
	pshufhw	$177, %xmm2, %xmm2              ## xmm2 = xmm2[0,1,2,3,5,4,7,6]
	pxor	%xmm0, %xmm7
	pxor	%xmm2, %xmm7
	movdqa	%xmm7, 48(%rsp)                 ## 16-byte Spill
	pshuflw	$177, %xmm8, %xmm2              ## xmm2 = xmm8[1,0,3,2,4,5,6,7]
	pshufhw	$177, %xmm2, %xmm2              ## xmm2 = xmm2[0,1,2,3,5,4,7,6]
	pxor	%xmm12, %xmm1
	movdqa	%xmm12, %xmm3
	movdqa	%xmm12, 32(%rsp)                ## 16-byte Spill
	pxor	%xmm2, %xmm1
	movdqa	%xmm1, 64(%rsp)                 ## 16-byte Spill
	movdqa	-128(%rsp), %xmm2               ## 16-byte Reload
	pxor	%xmm2, %xmm13
	pxor	%xmm5, %xmm10
	movdqu	-80(%r8), %xmm1
	pxor	%xmm1, %xmm5
	pxor	%xmm1, %xmm2
	pxor	%xmm9, %xmm2
	movdqa	%xmm2, %xmm9
	pshuflw	$177, %xmm13, %xmm1             ## xmm1 = xmm13[1,0,3,2,4,5,6,7]
	pshufhw	$177, %xmm1, %xmm1              ## xmm1 = xmm1[0,1,2,3,5,4,7,6]
	pxor	%xmm1, %xmm9
	pxor	%xmm8, %xmm5
	pshuflw	$177, %xmm10, %xmm1             ## xmm1 = xmm10[1,0,3,2,4,5,6,7]
	pshufhw	$177, %xmm1, %xmm1              ## xmm1 = xmm1[0,1,2,3,5,4,7,6]
	pxor	%xmm1, %xmm5
	movdqu	-64(%r8), %xmm1
	pxor	%xmm1, %xmm13
	pxor	%xmm1, %xmm10
	movdqa	240(%rsp), %xmm7                ## 16-byte Reload
	pxor	%xmm15, %xmm7
	pxor	%xmm15, %xmm10
	movdqa	96(%rsp), %xmm1                 ## 16-byte Reload
	movdqa	160(%rsp), %xmm2                ## 16-byte Reload
	pxor	%xmm1, %xmm2
	pxor	%xmm1, %xmm13
	pshuflw	$177, %xmm2, %xmm1              ## xmm1 = xmm2[1,0,3,2,4,5,6,7]
	movdqa	%xmm2, %xmm8
	pshufhw	$177, %xmm1, %xmm1              ## xmm1 = xmm1[0,1,2,3,5,4,7,6]
	pxor	%xmm0, %xmm13
	pxor	%xmm1, %xmm13
	pshuflw	$177, %xmm7, %xmm1              ## xmm1 = xmm7[1,0,3,2,4,5,6,7]
	movdqa	%xmm7, %xmm12
	pshufhw	$177, %xmm1, %xmm1              ## xmm1 = xmm1[0,1,2,3,5,4,7,6]
	pxor	%xmm3, %xmm10
	pxor	%xmm1, %xmm10
	movdqa	176(%rsp), %xmm2                ## 16-byte Reload
	pxor	%xmm14, %xmm2
	movdqa	144(%rsp), %xmm7                ## 16-byte Reload
	pxor	%xmm4, %xmm7
	movdqu	-48(%r8), %xmm1
	pxor	%xmm1, %xmm4
	pxor	%xmm1, %xmm14
	pxor	%xmm12, %xmm14
	pshuflw	$177, %xmm2, %xmm1              ## xmm1 = xmm2[1,0,3,2,4,5,6,7]
	movdqa	%xmm2, %xmm12
	pshufhw	$177, %xmm1, %xmm1              ## xmm1 = xmm1[0,1,2,3,5,4,7,6]
	pxor	%xmm1, %xmm14
	pxor	%xmm8, %xmm4
	pshuflw	$177, %xmm7, %xmm1              ## xmm1 = xmm7[1,0,3,2,4,5,6,7]
	movdqa	%xmm7, %xmm15
	pshufhw	$177, %xmm1, %xmm1              ## xmm1 = xmm1[0,1,2,3,5,4,7,6]
	pxor	%xmm1, %xmm4
	movdqa	-64(%rsp), %xmm2                ## 16-byte Reload
	movdqa	208(%rsp), %xmm3                ## 16-byte Reload
	pxor	%xmm2, %xmm3
	movdqa	80(%rsp), %xmm8                 ## 16-byte Reload
	movdqa	(%rsp), %xmm7                   ## 16-byte Reload
	pxor	%xmm8, %xmm7
	movdqu	-32(%r8), %xmm1
	pxor	%xmm1, %xmm8
	pxor	%xmm1, %xmm2
	pxor	%xmm15, %xmm2
	pshuflw	$177, %xmm3, %xmm1              ## xmm1 = xmm3[1,0,3,2,4,5,6,7]
	pshufhw	$177, %xmm1, %xmm1              ## xmm1 = xmm1[0,1,2,3,5,4,7,6]
	pxor	%xmm1, %xmm2
	pxor	%xmm12, %xmm8
	pshuflw	$177, %xmm7, %xmm1              ## xmm1 = xmm7[1,0,3,2,4,5,6,7]
	pshufhw	$177, %xmm1, %xmm1              ## xmm1 = xmm1[0,1,2,3,5,4,7,6]
	pxor	%xmm1, %xmm8
	movdqu	-16(%r8), %xmm1
	pxor	%xmm1, %xmm7
	pxor	%xmm1, %xmm3
	movdqa	-112(%rsp), %xmm1               ## 16-byte Reload
	movdqa	128(%rsp), %xmm12               ## 16-byte Reload
	pxor	%xmm1, %xmm12
	pxor	%xmm1, %xmm3
	pshuflw	$177, %xmm12, %xmm1             ## xmm1 = xmm12[1,0,3,2,4,5,6,7]
	movdqa	%xmm12, %xmm15
	pshufhw	$177, %xmm1, %xmm1              ## xmm1 = xmm1[0,1,2,3,5,4,7,6]
	pxor	%xmm1, %xmm3
	movdqa	-16(%rsp), %xmm1                ## 16-byte Reload
	movdqa	112(%rsp), %xmm12               ## 16-byte Reload
	pxor	%xmm1, %xmm12
	pxor	%xmm1, %xmm7
	pshuflw	$177, %xmm12, %xmm1             ## xmm1 = xmm12[1,0,3,2,4,5,6,7]
	pshufhw	$177, %xmm1, %xmm1              ## xmm1 = xmm1[0,1,2,3,5,4,7,6]
	pxor	%xmm1, %xmm7
	movdqa	%xmm7, (%rsp)                   ## 16-byte Spill
	movdqu	(%r8), %xmm1
	pxor	%xmm1, %xmm6
	pxor	%xmm1, %xmm11
	pxor	%xmm15, %xmm11
	pxor	%xmm0, %xmm4
	pshuflw	$177, %xmm0, %xmm1              ## xmm1 = xmm0[1,0,3,2,4,5,6,7]
	pshufhw	$177, %xmm1, %xmm1              ## xmm1 = xmm1[0,1,2,3,5,4,7,6]
	pxor	%xmm1, %xmm11
	pxor	%xmm12, %xmm6
	movdqa	32(%rsp), %xmm1                 ## 16-byte Reload
	pxor	%xmm1, %xmm14
	pshuflw	$177, %xmm1, %xmm1              ## xmm1 = xmm1[1,0,3,2,4,5,6,7]
	pshufhw	$177, %xmm1, %xmm1              ## xmm1 = xmm1[0,1,2,3,5,4,7,6]
	pxor	%xmm1, %xmm6
	subq	$-128, %r8
	movdqa	%xmm9, -128(%rsp)               ## 16-byte Spill
	movdqa	%xmm9, -16(%rsp)                ## 16-byte Spill
	movdqa	%xmm5, -112(%rsp)               ## 16-byte Spill
	movdqa	%xmm4, -80(%rsp)                ## 16-byte Spill
	movdqa	%xmm14, -96(%rsp)               ## 16-byte Spill
	movdqa	%xmm2, -64(%rsp)                ## 16-byte Spill
	movdqa	%xmm2, %xmm12
	movdqa	%xmm8, %xmm0
	movdqa	%xmm11, 32(%rsp)                ## 16-byte Spill
	movdqa	%xmm6, %xmm7
	decq	%rax
	jne	Ldeerlapse_0_1_0_BB28_3
	jmp	Ldeerlapse_0_1_0_BB28_4
Ldeerlapse_0_1_0_BB28_1:
	movdqa	%xmm12, %xmm6
	movdqa	%xmm14, -64(%rsp)               ## 16-byte Spill
	movdqa	-80(%rsp), %xmm4                ## 16-byte Reload
	movdqa	-96(%rsp), %xmm14               ## 16-byte Reload
	movdqa	-16(%rsp), %xmm1                ## 16-byte Reload
	movdqa	%xmm1, -128(%rsp)               ## 16-byte Spill
	movdqa	-112(%rsp), %xmm5               ## 16-byte Reload
Ldeerlapse_0_1_0_BB28_4:                                ## %"aead_ciphers_wide::aes::KeyRef::encrypt_sixteen.exit"
	movdqa	-48(%rsp), %xmm7                ## 16-byte Reload
	pxor	(%rsp), %xmm7                   ## 16-byte Folded Reload
	movdqa	%xmm7, 112(%rsp)                ## 16-byte Spill
	pxor	%xmm0, %xmm7
	movdqa	64(%rsp), %xmm1                 ## 16-byte Reload
	pxor	%xmm1, %xmm10
	movdqa	%xmm7, %xmm2
	movdqa	%xmm7, 224(%rsp)                ## 16-byte Spill
	pxor	%xmm1, %xmm2
	movdqa	%xmm2, 208(%rsp)                ## 16-byte Spill
	movdqa	%xmm1, %xmm2
	movdqa	%xmm14, %xmm1
	pxor	%xmm6, %xmm1
	movdqa	%xmm1, 288(%rsp)                ## 16-byte Spill
	movdqa	%xmm5, %xmm1
	pxor	%xmm6, %xmm1
	movdqa	%xmm1, 144(%rsp)                ## 16-byte Spill
	movdqa	%xmm7, %xmm1
	pxor	%xmm6, %xmm1
	movdqa	%xmm1, 272(%rsp)                ## 16-byte Spill
	pxor	%xmm6, %xmm2
	movdqa	%xmm2, 64(%rsp)                 ## 16-byte Spill
	movdqa	16(%rsp), %xmm7                 ## 16-byte Reload
	pxor	%xmm3, %xmm7
	movdqa	%xmm7, %xmm12
	movdqa	-64(%rsp), %xmm6                ## 16-byte Reload
	pxor	%xmm6, %xmm12
	movdqa	48(%rsp), %xmm8                 ## 16-byte Reload
	pxor	%xmm8, %xmm13
	movdqa	%xmm12, %xmm1
	pxor	%xmm8, %xmm1
	movdqa	%xmm1, -16(%rsp)                ## 16-byte Spill
	movdqa	%xmm13, %xmm15
	movdqa	%xmm4, %xmm1
	pxor	%xmm11, %xmm1
	movdqa	%xmm1, -112(%rsp)               ## 16-byte Spill
	movdqa	-128(%rsp), %xmm13              ## 16-byte Reload
	movdqa	%xmm13, %xmm1
	pxor	%xmm11, %xmm1
	movdqa	%xmm1, 128(%rsp)                ## 16-byte Spill
	movdqa	%xmm12, %xmm1
	pxor	%xmm11, %xmm1
	movdqa	%xmm1, -80(%rsp)                ## 16-byte Spill
	pxor	%xmm11, %xmm8
	movdqa	%xmm8, 48(%rsp)                 ## 16-byte Spill
	movdqa	%xmm15, %xmm9
	pxor	%xmm13, %xmm15
	pxor	%xmm15, %xmm7
	movdqa	%xmm7, 256(%rsp)                ## 16-byte Spill
	pxor	%xmm15, %xmm6
	movdqa	%xmm6, -64(%rsp)                ## 16-byte Spill
	pxor	%xmm3, %xmm15
	movdqa	%xmm10, %xmm11
	pxor	%xmm5, %xmm10
	movdqa	112(%rsp), %xmm1                ## 16-byte Reload
	pxor	%xmm10, %xmm1
	movdqa	%xmm1, 112(%rsp)                ## 16-byte Spill
	pxor	%xmm10, %xmm0
	movdqa	%xmm0, 80(%rsp)                 ## 16-byte Spill
	pxor	(%rsp), %xmm10                  ## 16-byte Folded Reload
	movdqa	%xmm10, 368(%rsp)               ## 16-byte Spill
	movdqa	224(%rsp), %xmm2                ## 16-byte Reload
	movdqa	%xmm2, %xmm0
	pxor	%xmm14, %xmm0
	movdqa	%xmm0, %xmm3
	pxor	%xmm14, %xmm5
	movdqa	%xmm5, -32(%rsp)                ## 16-byte Spill
	movdqa	%xmm12, 192(%rsp)               ## 16-byte Spill
	movdqa	%xmm12, %xmm0
	pxor	%xmm4, %xmm0
	movdqa	%xmm0, %xmm14
	movdqa	%xmm0, 32(%rsp)                 ## 16-byte Spill
	pxor	%xmm4, %xmm13
	movdqa	%xmm13, -128(%rsp)              ## 16-byte Spill
	movdqa	-112(%rsp), %xmm7               ## 16-byte Reload
	pxor	%xmm7, %xmm9
	movdqa	%xmm9, 336(%rsp)                ## 16-byte Spill
	movdqa	%xmm9, %xmm0
	movdqa	16(%rsp), %xmm1                 ## 16-byte Reload
	pxor	%xmm1, %xmm0
	movdqa	%xmm0, 352(%rsp)                ## 16-byte Spill
	pxor	%xmm12, %xmm0
	movdqa	%xmm0, %xmm6
	movdqa	%xmm0, %xmm4
	movdqa	%xmm15, %xmm0
	movdqa	%xmm15, 384(%rsp)               ## 16-byte Spill
	pxor	%xmm15, %xmm6
	movdqa	%xmm6, 400(%rsp)                ## 16-byte Spill
	pand	%xmm13, %xmm6
	pand	%xmm7, %xmm0
	pxor	%xmm0, %xmm6
	movdqa	%xmm6, -96(%rsp)                ## 16-byte Spill
	movdqa	%xmm4, 464(%rsp)                ## 16-byte Spill
	movdqa	%xmm4, %xmm7
	movdqa	128(%rsp), %xmm12               ## 16-byte Reload
	pand	%xmm12, %xmm7
	pxor	%xmm0, %xmm7
	movdqa	288(%rsp), %xmm13               ## 16-byte Reload
	movdqa	%xmm11, %xmm0
	pxor	%xmm13, %xmm0
	movdqa	%xmm0, 320(%rsp)                ## 16-byte Spill
	movdqa	-48(%rsp), %xmm11               ## 16-byte Reload
	pxor	%xmm11, %xmm0
	movdqa	%xmm0, 304(%rsp)                ## 16-byte Spill
	pxor	%xmm2, %xmm0
	movdqa	%xmm0, %xmm15
	movdqa	%xmm0, %xmm2
	pxor	%xmm10, %xmm15
	movdqa	%xmm15, 448(%rsp)               ## 16-byte Spill
	pand	%xmm5, %xmm15
	movdqa	%xmm10, %xmm0
	pand	%xmm13, %xmm0
	pxor	%xmm0, %xmm15
	movdqa	%xmm2, %xmm8
	movdqa	%xmm2, 432(%rsp)                ## 16-byte Spill
	movdqa	%xmm2, %xmm9
	movdqa	144(%rsp), %xmm6                ## 16-byte Reload
	pand	%xmm6, %xmm9
	pxor	%xmm0, %xmm9
	movdqa	%xmm14, %xmm0
	pand	%xmm1, %xmm0
	movdqa	%xmm12, %xmm14
	pxor	%xmm4, %xmm14
	pxor	%xmm0, %xmm14
	movdqa	%xmm3, %xmm2
	movdqa	%xmm3, (%rsp)                   ## 16-byte Spill
	pand	%xmm11, %xmm3
	movdqa	%xmm6, %xmm4
	pxor	%xmm8, %xmm4
	pxor	%xmm3, %xmm4
	movdqa	-16(%rsp), %xmm11               ## 16-byte Reload
	movdqa	%xmm11, %xmm8
	pxor	%xmm12, %xmm8
	movdqa	%xmm8, %xmm5
	movdqa	%xmm8, 96(%rsp)                 ## 16-byte Spill
	pand	352(%rsp), %xmm5                ## 16-byte Folded Reload
	movdqa	-112(%rsp), %xmm3               ## 16-byte Reload
	pxor	384(%rsp), %xmm3                ## 16-byte Folded Reload
	pxor	%xmm5, %xmm3
	movdqa	208(%rsp), %xmm0                ## 16-byte Reload
	pxor	%xmm6, %xmm0
	movdqa	%xmm0, 176(%rsp)                ## 16-byte Spill
	movdqa	%xmm0, %xmm6
	pand	304(%rsp), %xmm6                ## 16-byte Folded Reload
	movdqa	%xmm13, %xmm5
	pxor	%xmm10, %xmm5
	pxor	%xmm6, %xmm5
	movdqa	%xmm0, %xmm6
	pxor	%xmm2, %xmm6
	movdqa	%xmm6, 160(%rsp)                ## 16-byte Spill
	pand	320(%rsp), %xmm6                ## 16-byte Folded Reload
	pxor	%xmm9, %xmm4
	pxor	%xmm6, %xmm4
	pxor	%xmm6, %xmm5
	pxor	32(%rsp), %xmm8                 ## 16-byte Folded Reload
	movdqa	%xmm8, 240(%rsp)                ## 16-byte Spill
	pand	336(%rsp), %xmm8                ## 16-byte Folded Reload
	pxor	%xmm7, %xmm14
	pxor	%xmm8, %xmm14
	pxor	%xmm8, %xmm3
	movdqa	-64(%rsp), %xmm12               ## 16-byte Reload
	movdqa	%xmm12, %xmm8
	movdqa	48(%rsp), %xmm1                 ## 16-byte Reload
	pand	%xmm1, %xmm8
	movdqa	-80(%rsp), %xmm6                ## 16-byte Reload
	por	256(%rsp), %xmm6                ## 16-byte Folded Reload
	pxor	%xmm8, %xmm6
	movdqa	80(%rsp), %xmm0                 ## 16-byte Reload
	movdqa	%xmm0, %xmm10
	movdqa	64(%rsp), %xmm2                 ## 16-byte Reload
	pand	%xmm2, %xmm10
	movdqa	272(%rsp), %xmm8                ## 16-byte Reload
	por	112(%rsp), %xmm8                ## 16-byte Folded Reload
	pxor	%xmm10, %xmm8
	pxor	%xmm7, %xmm6
	pxor	%xmm9, %xmm8
	pand	192(%rsp), %xmm11               ## 16-byte Folded Reload
	por	%xmm1, %xmm12
	pxor	%xmm11, %xmm12
	movdqa	208(%rsp), %xmm7                ## 16-byte Reload
	pand	224(%rsp), %xmm7                ## 16-byte Folded Reload
	movdqa	%xmm0, %xmm9
	por	%xmm2, %xmm9
	pxor	%xmm7, %xmm9
	movdqa	-96(%rsp), %xmm0                ## 16-byte Reload
	pxor	%xmm0, %xmm3
	pxor	%xmm0, %xmm12
	pxor	%xmm15, %xmm5
	pxor	%xmm15, %xmm9
	movdqa	%xmm3, %xmm10
	pand	%xmm12, %xmm10
	movdqa	%xmm10, %xmm13
	pxor	%xmm14, %xmm13
	movdqa	%xmm3, %xmm2
	pxor	%xmm14, %xmm2
	pxor	%xmm6, %xmm10
	pand	%xmm2, %xmm10
	pxor	%xmm14, %xmm10
	movdqa	%xmm14, %xmm11
	pand	%xmm6, %xmm11
	movdqa	%xmm2, %xmm7
	pxor	%xmm11, %xmm7
	pand	%xmm12, %xmm7
	movdqa	%xmm12, %xmm1
	pxor	%xmm6, %xmm1
	pand	%xmm1, %xmm13
	pxor	%xmm6, %xmm13
	movdqa	%xmm5, %xmm0
	pand	%xmm9, %xmm0
	movdqa	%xmm0, %xmm14
	pxor	%xmm4, %xmm14
	movdqa	%xmm5, %xmm6
	pxor	%xmm4, %xmm6
	pxor	%xmm8, %xmm0
	pand	%xmm6, %xmm0
	pxor	%xmm4, %xmm0
	movdqa	%xmm0, -96(%rsp)                ## 16-byte Spill
	pand	%xmm8, %xmm4
	movdqa	%xmm6, %xmm15
	pxor	%xmm4, %xmm15
	pand	%xmm9, %xmm15
	movdqa	%xmm9, %xmm0
	pxor	%xmm8, %xmm0
	pand	%xmm0, %xmm14
	pxor	%xmm8, %xmm14
	pxor	%xmm0, %xmm15
	pxor	%xmm4, %xmm0
	pxor	%xmm1, %xmm7
	pxor	%xmm11, %xmm1
	pand	%xmm3, %xmm1
	pand	%xmm5, %xmm0
	pxor	%xmm6, %xmm0
	pxor	%xmm2, %xmm1
	movdqa	%xmm13, %xmm9
	pxor	%xmm10, %xmm9
	movdqa	%xmm7, %xmm5
	pxor	%xmm1, %xmm5
	movdqa	%xmm9, %xmm3
	pxor	%xmm5, %xmm3
	movdqa	%xmm3, 416(%rsp)                ## 16-byte Spill
	movdqa	-128(%rsp), %xmm2               ## 16-byte Reload
	pand	%xmm3, %xmm2
	movdqa	-112(%rsp), %xmm4               ## 16-byte Reload
	pand	%xmm9, %xmm4
	pxor	%xmm4, %xmm2
	movdqa	%xmm2, -128(%rsp)               ## 16-byte Spill
	movdqa	128(%rsp), %xmm2                ## 16-byte Reload
	pand	%xmm5, %xmm2
	pxor	%xmm4, %xmm2
	movdqa	%xmm2, 128(%rsp)                ## 16-byte Spill
	movdqa	%xmm14, %xmm2
	pxor	-96(%rsp), %xmm2                ## 16-byte Folded Reload
	movdqa	%xmm15, %xmm12
	movdqa	%xmm15, %xmm8
	pxor	%xmm0, %xmm8
	movdqa	%xmm2, %xmm15
	pxor	%xmm8, %xmm15
	movdqa	-32(%rsp), %xmm3                ## 16-byte Reload
	pand	%xmm15, %xmm3
	movdqa	288(%rsp), %xmm6                ## 16-byte Reload
	pand	%xmm2, %xmm6
	pxor	%xmm6, %xmm3
	movdqa	%xmm3, -32(%rsp)                ## 16-byte Spill
	movdqa	144(%rsp), %xmm3                ## 16-byte Reload
	pand	%xmm8, %xmm3
	pxor	%xmm6, %xmm3
	movdqa	%xmm3, 144(%rsp)                ## 16-byte Spill
	movdqa	%xmm14, %xmm6
	pxor	%xmm12, %xmm6
	movdqa	160(%rsp), %xmm4                ## 16-byte Reload
	pand	%xmm6, %xmm4
	movdqa	%xmm4, 160(%rsp)                ## 16-byte Spill
	pand	320(%rsp), %xmm6                ## 16-byte Folded Reload
	movdqa	%xmm13, %xmm11
	pxor	%xmm7, %xmm11
	movdqa	240(%rsp), %xmm4                ## 16-byte Reload
	pand	%xmm11, %xmm4
	movdqa	%xmm4, 240(%rsp)                ## 16-byte Spill
	pand	336(%rsp), %xmm11               ## 16-byte Folded Reload
	movdqa	(%rsp), %xmm4                   ## 16-byte Reload
	pand	%xmm14, %xmm4
	movdqa	%xmm4, (%rsp)                   ## 16-byte Spill
	pand	-48(%rsp), %xmm14               ## 16-byte Folded Reload
	movdqa	32(%rsp), %xmm4                 ## 16-byte Reload
	pand	%xmm13, %xmm4
	movdqa	%xmm4, 32(%rsp)                 ## 16-byte Spill
	pand	16(%rsp), %xmm13                ## 16-byte Folded Reload
	movdqa	176(%rsp), %xmm4                ## 16-byte Reload
	pand	%xmm12, %xmm4
	movdqa	%xmm4, 176(%rsp)                ## 16-byte Spill
	pand	304(%rsp), %xmm12               ## 16-byte Folded Reload
	movdqa	96(%rsp), %xmm4                 ## 16-byte Reload
	pand	%xmm7, %xmm4
	movdqa	%xmm4, 96(%rsp)                 ## 16-byte Spill
	pand	352(%rsp), %xmm7                ## 16-byte Folded Reload
	pxor	%xmm11, %xmm13
	movdqa	%xmm13, 16(%rsp)                ## 16-byte Spill
	pxor	%xmm11, %xmm7
	movdqa	%xmm7, -112(%rsp)               ## 16-byte Spill
	pxor	%xmm6, %xmm14
	pxor	%xmm6, %xmm12
	movdqa	%xmm12, -48(%rsp)               ## 16-byte Spill
	movdqa	%xmm10, %xmm6
	pxor	%xmm1, %xmm6
	movdqa	48(%rsp), %xmm4                 ## 16-byte Reload
	pand	%xmm6, %xmm4
	movdqa	%xmm4, 48(%rsp)                 ## 16-byte Spill
	pand	-64(%rsp), %xmm6                ## 16-byte Folded Reload
	movdqa	-96(%rsp), %xmm13               ## 16-byte Reload
	movdqa	%xmm13, %xmm11
	pxor	%xmm0, %xmm11
	movdqa	64(%rsp), %xmm3                 ## 16-byte Reload
	pand	%xmm11, %xmm3
	pand	80(%rsp), %xmm11                ## 16-byte Folded Reload
	movdqa	-80(%rsp), %xmm4                ## 16-byte Reload
	pand	%xmm10, %xmm4
	pand	256(%rsp), %xmm10               ## 16-byte Folded Reload
	movdqa	272(%rsp), %xmm12               ## 16-byte Reload
	pand	%xmm13, %xmm12
	pand	112(%rsp), %xmm13               ## 16-byte Folded Reload
	movdqa	%xmm13, %xmm7
	movdqa	-16(%rsp), %xmm13               ## 16-byte Reload
	pand	%xmm1, %xmm13
	movdqa	%xmm13, -16(%rsp)               ## 16-byte Spill
	pand	192(%rsp), %xmm1                ## 16-byte Folded Reload
	movdqa	208(%rsp), %xmm13               ## 16-byte Reload
	pand	%xmm0, %xmm13
	pand	224(%rsp), %xmm0                ## 16-byte Folded Reload
	pxor	%xmm11, %xmm7
	pxor	%xmm11, %xmm0
	pxor	%xmm6, %xmm10
	pxor	%xmm6, %xmm1
	pand	448(%rsp), %xmm15               ## 16-byte Folded Reload
	movdqa	416(%rsp), %xmm11               ## 16-byte Reload
	pand	400(%rsp), %xmm11               ## 16-byte Folded Reload
	pand	368(%rsp), %xmm2                ## 16-byte Folded Reload
	pand	384(%rsp), %xmm9                ## 16-byte Folded Reload
	pand	432(%rsp), %xmm8                ## 16-byte Folded Reload
	pand	464(%rsp), %xmm5                ## 16-byte Folded Reload
	pxor	%xmm9, %xmm11
	pxor	%xmm9, %xmm5
	pxor	%xmm2, %xmm15
	pxor	%xmm2, %xmm8
	pxor	%xmm3, %xmm12
	movdqa	%xmm13, %xmm6
	pxor	%xmm3, %xmm6
	pxor	%xmm8, %xmm6
	pxor	%xmm7, %xmm6
	movdqa	%xmm6, %xmm3
	pxor	%xmm14, %xmm7
	movdqa	%xmm7, -96(%rsp)                ## 16-byte Spill
	movdqa	%xmm14, %xmm7
	pxor	%xmm8, %xmm7
	movdqa	48(%rsp), %xmm9                 ## 16-byte Reload
	pxor	%xmm9, %xmm4
	movdqa	-16(%rsp), %xmm8                ## 16-byte Reload
	pxor	%xmm9, %xmm8
	pxor	%xmm5, %xmm8
	pxor	%xmm10, %xmm8
	movdqa	16(%rsp), %xmm9                 ## 16-byte Reload
	pxor	%xmm9, %xmm10
	movdqa	%xmm10, -64(%rsp)               ## 16-byte Spill
	pxor	%xmm5, %xmm9
	movdqa	%xmm11, %xmm5
	movdqa	-112(%rsp), %xmm2               ## 16-byte Reload
	pxor	%xmm11, %xmm2
	movdqa	%xmm2, -112(%rsp)               ## 16-byte Spill
	pxor	%xmm1, %xmm5
	movdqa	%xmm5, %xmm13
	movdqa	-48(%rsp), %xmm2                ## 16-byte Reload
	pxor	%xmm15, %xmm2
	pxor	%xmm0, %xmm15
	movdqa	96(%rsp), %xmm6                 ## 16-byte Reload
	movdqa	240(%rsp), %xmm14               ## 16-byte Reload
	pxor	%xmm14, %xmm6
	movdqa	-128(%rsp), %xmm0               ## 16-byte Reload
	pxor	%xmm0, %xmm6
	pcmpeqd	%xmm1, %xmm1
	pxor	%xmm1, %xmm0
	pxor	%xmm8, %xmm0
	movdqa	176(%rsp), %xmm8                ## 16-byte Reload
	movdqa	160(%rsp), %xmm10               ## 16-byte Reload
	pxor	%xmm10, %xmm8
	movdqa	-32(%rsp), %xmm11               ## 16-byte Reload
	pxor	%xmm11, %xmm8
	pxor	%xmm1, %xmm11
	pxor	%xmm3, %xmm11
	movdqa	128(%rsp), %xmm3                ## 16-byte Reload
	pxor	%xmm3, %xmm4
	movdqa	%xmm6, %xmm5
	pxor	%xmm13, %xmm5
	pxor	%xmm9, %xmm4
	movdqa	%xmm4, -80(%rsp)                ## 16-byte Spill
	pxor	%xmm0, %xmm9
	pxor	%xmm13, %xmm0
	movdqa	%xmm0, -128(%rsp)               ## 16-byte Spill
	movdqa	%xmm12, %xmm4
	movdqa	144(%rsp), %xmm1                ## 16-byte Reload
	pxor	%xmm1, %xmm4
	movdqa	%xmm8, %xmm0
	pxor	%xmm15, %xmm0
	pxor	%xmm7, %xmm4
	pxor	%xmm11, %xmm7
	pxor	%xmm15, %xmm11
	movdqa	(%rsp), %xmm12                  ## 16-byte Reload
	pxor	%xmm10, %xmm12
	movdqa	32(%rsp), %xmm13                ## 16-byte Reload
	pxor	%xmm14, %xmm13
	pxor	%xmm3, %xmm13
	pxor	%xmm1, %xmm12
	movdqa	%xmm0, %xmm3
	movdqa	%xmm0, %xmm14
	pxor	%xmm2, %xmm3
	pxor	%xmm8, %xmm2
	movdqa	%xmm5, %xmm10
	movdqa	-112(%rsp), %xmm0               ## 16-byte Reload
	pxor	%xmm0, %xmm10
	pxor	%xmm6, %xmm0
	movdqa	%xmm0, -112(%rsp)               ## 16-byte Spill
	pxor	%xmm4, %xmm12
	movdqa	-80(%rsp), %xmm1                ## 16-byte Reload
	pxor	%xmm1, %xmm13
	pxor	%xmm5, %xmm13
	pxor	%xmm14, %xmm12
	movdqa	%xmm14, %xmm8
	movdqa	-96(%rsp), %xmm14               ## 16-byte Reload
	pxor	%xmm3, %xmm14
	movdqa	-64(%rsp), %xmm6                ## 16-byte Reload
	pxor	%xmm10, %xmm6
	movdqa	Ldeerlapse_0_1_0_CPI28_18(%rip), %xmm0          ## xmm0 = [0,5,10,15,4,9,14,3,8,13,2,7,12,1,6,11]
	pshufb	%xmm0, %xmm9
	pshufb	%xmm0, %xmm7
	pshufb	%xmm0, %xmm11
	movdqa	-128(%rsp), %xmm15              ## 16-byte Reload
	pshufb	%xmm0, %xmm15
	pshufb	%xmm0, %xmm12
	pshufb	%xmm0, %xmm13
	pshufb	%xmm0, %xmm6
	pshufb	%xmm0, %xmm14
	pshufb	%xmm0, %xmm3
	pshufb	%xmm0, %xmm10
	pshufb	%xmm0, %xmm1
	movdqa	%xmm1, -80(%rsp)                ## 16-byte Spill
	pshufb	%xmm0, %xmm4
	movdqa	-112(%rsp), %xmm1               ## 16-byte Reload
	pshufb	%xmm0, %xmm1
	pshufb	%xmm0, %xmm2
	pshufb	%xmm0, %xmm8
	pshufb	%xmm0, %xmm5
	shlq	$7, %rsi
	movdqu	(%rdi,%rsi), %xmm0
	pxor	%xmm0, %xmm7
	pxor	%xmm0, %xmm9
	movdqu	16(%rdi,%rsi), %xmm0
	pxor	%xmm0, %xmm15
	movdqa	%xmm15, -128(%rsp)              ## 16-byte Spill
	pxor	%xmm0, %xmm11
	movdqu	32(%rdi,%rsi), %xmm0
	pxor	%xmm0, %xmm13
	pxor	%xmm0, %xmm12
	movdqu	48(%rdi,%rsi), %xmm0
	pxor	%xmm0, %xmm14
	movdqa	%xmm14, -96(%rsp)               ## 16-byte Spill
	pxor	%xmm0, %xmm6
	movdqa	%xmm6, -64(%rsp)                ## 16-byte Spill
	movdqu	64(%rdi,%rsi), %xmm0
	pxor	%xmm0, %xmm10
	pxor	%xmm0, %xmm3
	movdqu	80(%rdi,%rsi), %xmm0
	pcmpeqd	%xmm6, %xmm6
	pxor	%xmm6, %xmm0
	pxor	%xmm0, %xmm4
	movdqa	%xmm4, %xmm14
	pxor	-80(%rsp), %xmm0                ## 16-byte Folded Reload
	movdqu	96(%rdi,%rsi), %xmm4
	pxor	%xmm6, %xmm4
	pxor	%xmm4, %xmm2
	movdqa	%xmm2, -48(%rsp)                ## 16-byte Spill
	pxor	%xmm1, %xmm4
	movdqu	112(%rdi,%rsi), %xmm1
	pxor	%xmm1, %xmm5
	movdqa	%xmm5, 80(%rsp)                 ## 16-byte Spill
	pxor	%xmm1, %xmm8
	movdqa	%xmm8, %xmm5
	movdqa	%xmm9, %xmm15
	psrlq	$4, %xmm15
	pxor	%xmm10, %xmm15
	movdqa	Ldeerlapse_0_1_0_CPI28_15(%rip), %xmm6          ## xmm6 = [1085102592571150095,1085102592571150095]
	pand	%xmm6, %xmm15
	movdqa	%xmm15, %xmm1
	psllq	$4, %xmm1
	pxor	%xmm9, %xmm1
	movdqa	%xmm1, -32(%rsp)                ## 16-byte Spill
	movdqa	%xmm7, %xmm8
	psrlq	$4, %xmm8
	pxor	%xmm3, %xmm8
	pand	%xmm6, %xmm8
	movdqa	%xmm8, %xmm9
	psllq	$4, %xmm9
	pxor	%xmm7, %xmm9
	pxor	%xmm10, %xmm15
	pxor	%xmm3, %xmm8
	movdqa	%xmm11, %xmm1
	psrlq	$4, %xmm1
	pxor	%xmm14, %xmm1
	pand	%xmm6, %xmm1
	movdqa	%xmm1, %xmm3
	psllq	$4, %xmm3
	pxor	%xmm11, %xmm3
	movdqa	%xmm3, -80(%rsp)                ## 16-byte Spill
	movdqa	-128(%rsp), %xmm2               ## 16-byte Reload
	movdqa	%xmm2, %xmm11
	psrlq	$4, %xmm11
	pxor	%xmm0, %xmm11
	pand	%xmm6, %xmm11
	movdqa	%xmm11, %xmm3
	psllq	$4, %xmm3
	pxor	%xmm2, %xmm3
	movdqa	%xmm3, -112(%rsp)               ## 16-byte Spill
	pxor	%xmm14, %xmm1
	movdqa	%xmm1, -128(%rsp)               ## 16-byte Spill
	pxor	%xmm0, %xmm11
	movdqa	%xmm12, %xmm1
	psrlq	$4, %xmm1
	movdqa	-48(%rsp), %xmm3                ## 16-byte Reload
	pxor	%xmm3, %xmm1
	pand	%xmm6, %xmm1
	movdqa	%xmm1, %xmm7
	psllq	$4, %xmm7
	pxor	%xmm12, %xmm7
	movdqa	%xmm13, %xmm0
	psrlq	$4, %xmm0
	pxor	%xmm4, %xmm0
	pand	%xmm6, %xmm0
	movdqa	%xmm0, %xmm2
	psllq	$4, %xmm2
	pxor	%xmm13, %xmm2
	pxor	%xmm3, %xmm1
	pxor	%xmm4, %xmm0
	movdqa	-64(%rsp), %xmm3                ## 16-byte Reload
	movdqa	%xmm3, %xmm12
	psrlq	$4, %xmm12
	movdqa	-96(%rsp), %xmm13               ## 16-byte Reload
	movdqa	%xmm13, %xmm10
	psrlq	$4, %xmm10
	pxor	%xmm5, %xmm10
	movdqa	80(%rsp), %xmm4                 ## 16-byte Reload
	pxor	%xmm4, %xmm12
	pand	%xmm6, %xmm12
	pand	%xmm6, %xmm10
	movdqa	%xmm12, %xmm14
	psllq	$4, %xmm14
	pxor	%xmm3, %xmm14
	movdqa	%xmm10, %xmm6
	psllq	$4, %xmm6
	pxor	%xmm13, %xmm6
	pxor	%xmm4, %xmm12
	pxor	%xmm5, %xmm10
	movdqa	%xmm9, %xmm13
	psrlq	$2, %xmm13
	pxor	%xmm7, %xmm13
	movdqa	Ldeerlapse_0_1_0_CPI28_16(%rip), %xmm5          ## xmm5 = [3689348814741910323,3689348814741910323]
	pand	%xmm5, %xmm13
	movdqa	%xmm13, %xmm3
	psllq	$2, %xmm3
	pxor	%xmm9, %xmm3
	movdqa	%xmm3, -96(%rsp)                ## 16-byte Spill
	movdqa	-32(%rsp), %xmm3                ## 16-byte Reload
	movdqa	%xmm3, %xmm9
	psrlq	$2, %xmm9
	pxor	%xmm2, %xmm9
	pand	%xmm5, %xmm9
	movdqa	%xmm9, %xmm4
	psllq	$2, %xmm4
	pxor	%xmm3, %xmm4
	movdqa	%xmm4, 80(%rsp)                 ## 16-byte Spill
	pxor	%xmm7, %xmm13
	pxor	%xmm2, %xmm9
	movdqa	%xmm8, %xmm2
	psrlq	$2, %xmm2
	pxor	%xmm1, %xmm2
	pand	%xmm5, %xmm2
	movdqa	%xmm2, %xmm3
	psllq	$2, %xmm3
	pxor	%xmm8, %xmm3
	movdqa	%xmm3, -32(%rsp)                ## 16-byte Spill
	movdqa	%xmm15, %xmm3
	psrlq	$2, %xmm3
	pxor	%xmm0, %xmm3
	pand	%xmm5, %xmm3
	movdqa	%xmm5, %xmm7
	movdqa	%xmm3, %xmm8
	psllq	$2, %xmm8
	pxor	%xmm15, %xmm8
	pxor	%xmm1, %xmm2
	movdqa	%xmm2, -64(%rsp)                ## 16-byte Spill
	pxor	%xmm0, %xmm3
	movdqa	%xmm3, -48(%rsp)                ## 16-byte Spill
	movdqa	-112(%rsp), %xmm1               ## 16-byte Reload
	movdqa	%xmm1, %xmm0
	psrlq	$2, %xmm0
	pxor	%xmm14, %xmm0
	pand	%xmm5, %xmm0
	movdqa	%xmm0, %xmm3
	psllq	$2, %xmm3
	pxor	%xmm1, %xmm3
	movdqa	-80(%rsp), %xmm4                ## 16-byte Reload
	movdqa	%xmm4, %xmm1
	psrlq	$2, %xmm1
	pxor	%xmm6, %xmm1
	pand	%xmm5, %xmm1
	movdqa	%xmm1, %xmm2
	psllq	$2, %xmm2
	pxor	%xmm4, %xmm2
	pxor	%xmm14, %xmm0
	pxor	%xmm6, %xmm1
	movdqa	%xmm11, %xmm6
	psrlq	$2, %xmm6
	movdqa	-128(%rsp), %xmm4               ## 16-byte Reload
	movdqa	%xmm4, %xmm5
	psrlq	$2, %xmm5
	pxor	%xmm10, %xmm5
	pxor	%xmm12, %xmm6
	pand	%xmm7, %xmm6
	pand	%xmm7, %xmm5
	movdqa	%xmm6, %xmm14
	psllq	$2, %xmm14
	pxor	%xmm11, %xmm14
	movdqa	%xmm5, %xmm7
	psllq	$2, %xmm7
	pxor	%xmm4, %xmm7
	pxor	%xmm12, %xmm6
	pxor	%xmm10, %xmm5
	movdqa	80(%rsp), %xmm12                ## 16-byte Reload
	movdqa	%xmm12, %xmm11
	psrlq	$1, %xmm11
	pxor	%xmm3, %xmm11
	movdqa	Ldeerlapse_0_1_0_CPI28_17(%rip), %xmm15         ## xmm15 = [6148914691236517205,6148914691236517205]
	pand	%xmm15, %xmm11
	movdqa	%xmm11, %xmm4
	paddq	%xmm4, %xmm4
	pxor	%xmm12, %xmm4
	movdqa	%xmm4, -128(%rsp)               ## 16-byte Spill
	movdqa	-96(%rsp), %xmm4                ## 16-byte Reload
	movdqa	%xmm4, %xmm10
	psrlq	$1, %xmm10
	pxor	%xmm2, %xmm10
	pand	%xmm15, %xmm10
	movdqa	%xmm10, %xmm12
	paddq	%xmm12, %xmm12
	pxor	%xmm4, %xmm12
	movdqa	%xmm12, -80(%rsp)               ## 16-byte Spill
	pxor	%xmm3, %xmm11
	pxor	%xmm2, %xmm10
	movdqa	%xmm9, %xmm3
	psrlq	$1, %xmm3
	pxor	%xmm0, %xmm3
	pand	%xmm15, %xmm3
	movdqa	%xmm3, %xmm2
	paddq	%xmm2, %xmm2
	pxor	%xmm9, %xmm2
	movdqa	%xmm2, -96(%rsp)                ## 16-byte Spill
	movdqa	%xmm13, %xmm9
	psrlq	$1, %xmm9
	pxor	%xmm1, %xmm9
	pand	%xmm15, %xmm9
	movdqa	%xmm9, %xmm2
	paddq	%xmm2, %xmm2
	pxor	%xmm13, %xmm2
	movdqa	%xmm2, -112(%rsp)               ## 16-byte Spill
	pxor	%xmm0, %xmm3
	pxor	%xmm1, %xmm9
	movdqa	%xmm8, %xmm4
	psrlq	$1, %xmm4
	pxor	%xmm14, %xmm4
	pand	%xmm15, %xmm4
	movdqa	%xmm4, %xmm2
	paddq	%xmm2, %xmm2
	pxor	%xmm8, %xmm2
	movdqa	-32(%rsp), %xmm1                ## 16-byte Reload
	movdqa	%xmm1, %xmm0
	psrlq	$1, %xmm0
	pxor	%xmm7, %xmm0
	pand	%xmm15, %xmm0
	movdqa	%xmm0, %xmm12
	paddq	%xmm12, %xmm12
	pxor	%xmm1, %xmm12
	pxor	%xmm14, %xmm4
	pxor	%xmm7, %xmm0
	movdqa	-48(%rsp), %xmm1                ## 16-byte Reload
	movdqa	%xmm1, %xmm8
	psrlq	$1, %xmm8
	movdqa	-64(%rsp), %xmm14               ## 16-byte Reload
	movdqa	%xmm14, %xmm7
	psrlq	$1, %xmm7
	pxor	%xmm5, %xmm7
	pxor	%xmm6, %xmm8
	pand	%xmm15, %xmm8
	pand	%xmm15, %xmm7
	movdqa	%xmm8, %xmm13
	paddq	%xmm13, %xmm13
	pxor	%xmm1, %xmm13
	movdqa	%xmm7, %xmm1
	paddq	%xmm1, %xmm1
	pxor	%xmm14, %xmm1
	pxor	%xmm6, %xmm8
	pxor	%xmm5, %xmm7
	cmpq	$16, %r9
	jne	Ldeerlapse_0_1_0_BB28_6
## %bb.5:                               ## %join.5.i
	movups	(%rdx,%rcx), %xmm5
	xorps	-128(%rsp), %xmm5               ## 16-byte Folded Reload
	movups	%xmm5, (%rdx)
	movups	16(%rdx,%rcx), %xmm5
	xorps	-80(%rsp), %xmm5                ## 16-byte Folded Reload
	movups	%xmm5, 16(%rdx)
	movdqu	32(%rdx,%rcx), %xmm5
	pxor	%xmm11, %xmm5
	movdqu	%xmm5, 32(%rdx)
	movdqu	48(%rdx,%rcx), %xmm5
	pxor	%xmm10, %xmm5
	movdqu	%xmm5, 48(%rdx)
	movups	64(%rdx,%rcx), %xmm5
	xorps	-96(%rsp), %xmm5                ## 16-byte Folded Reload
	movups	%xmm5, 64(%rdx)
	movups	80(%rdx,%rcx), %xmm5
	xorps	-112(%rsp), %xmm5               ## 16-byte Folded Reload
	movups	%xmm5, 80(%rdx)
	movdqu	96(%rdx,%rcx), %xmm5
	pxor	%xmm3, %xmm5
	movdqu	%xmm5, 96(%rdx)
	movdqu	112(%rdx,%rcx), %xmm3
	pxor	%xmm9, %xmm3
	movdqu	%xmm3, 112(%rdx)
	movdqu	128(%rdx,%rcx), %xmm3
	pxor	%xmm2, %xmm3
	movdqu	%xmm3, 128(%rdx)
	movdqu	144(%rdx,%rcx), %xmm2
	pxor	%xmm12, %xmm2
	movdqu	%xmm2, 144(%rdx)
	movdqu	160(%rdx,%rcx), %xmm2
	pxor	%xmm4, %xmm2
	movdqu	%xmm2, 160(%rdx)
	movdqu	176(%rdx,%rcx), %xmm2
	pxor	%xmm0, %xmm2
	movdqu	%xmm2, 176(%rdx)
	movdqu	192(%rdx,%rcx), %xmm0
	pxor	%xmm13, %xmm0
	movdqu	%xmm0, 192(%rdx)
	movdqu	208(%rdx,%rcx), %xmm0
	pxor	%xmm1, %xmm0
	movdqu	%xmm0, 208(%rdx)
	movdqu	224(%rdx,%rcx), %xmm0
	pxor	%xmm8, %xmm0
	movdqu	%xmm0, 224(%rdx)
	movdqu	240(%rdx,%rcx), %xmm0
	pxor	%xmm7, %xmm0
	movdqu	%xmm0, 240(%rdx)
	addq	$744, %rsp                      ## imm = 0x2E8
	retq
Ldeerlapse_0_1_0_BB28_6:                                ## %else.2
	pxor	%xmm5, %xmm5
	movdqu	%xmm5, 569(%rsp)
	movdqu	%xmm5, 585(%rsp)
	movdqu	%xmm5, 601(%rsp)
	movdqu	%xmm5, 617(%rsp)
	movdqu	%xmm5, 633(%rsp)
	movdqu	%xmm5, 649(%rsp)
	movdqu	%xmm5, 665(%rsp)
	movdqu	%xmm5, 681(%rsp)
	movdqu	%xmm5, 697(%rsp)
	movdqu	%xmm5, 713(%rsp)
	movq	$0, 728(%rsp)
	movaps	-128(%rsp), %xmm5               ## 16-byte Reload
	movaps	%xmm5, 480(%rsp)
	movaps	-80(%rsp), %xmm5                ## 16-byte Reload
	movaps	%xmm5, 496(%rsp)
	movdqa	%xmm11, 512(%rsp)
	movdqa	%xmm10, 528(%rsp)
	movaps	-96(%rsp), %xmm5                ## 16-byte Reload
	movaps	%xmm5, 544(%rsp)
	movaps	-112(%rsp), %xmm5               ## 16-byte Reload
	movaps	%xmm5, 560(%rsp)
	movdqa	%xmm3, 576(%rsp)
	movdqa	%xmm9, 592(%rsp)
	movdqa	%xmm2, 608(%rsp)
	movdqa	%xmm12, 624(%rsp)
	movdqa	%xmm4, 640(%rsp)
	movdqa	%xmm0, 656(%rsp)
	movdqa	%xmm13, 672(%rsp)
	movdqa	%xmm1, 688(%rsp)
	movdqa	%xmm8, 704(%rsp)
	movdqa	%xmm7, 720(%rsp)
	addq	%rdx, %rcx
	movabsq	$1152921504606846974, %rsi      ## imm = 0xFFFFFFFFFFFFFFE
	andq	%r9, %rsi
	xorl	%eax, %eax
	.p2align	4
Ldeerlapse_0_1_0_BB28_7:                                ## %join.5.i660
                                        ## =>This Inner Loop Header: Depth=1
	movups	(%rcx,%rax), %xmm0
	xorps	480(%rsp,%rax), %xmm0
	movups	%xmm0, (%rdx,%rax)
	movdqu	16(%rcx,%rax), %xmm0
	pxor	496(%rsp,%rax), %xmm0
	movdqu	%xmm0, 16(%rdx,%rax)
	addq	$32, %rax
	addq	$-2, %rsi
	jne	Ldeerlapse_0_1_0_BB28_7
## %bb.8:                               ## %"aead_ciphers_wide::aes::ctr32::add_keystream::<=16>.exit716.unr-lcssa"
	testb	$1, %r9b
	je	Ldeerlapse_0_1_0_BB28_10
## %bb.9:                               ## %join.5.i660.epil.preheader
	movdqu	(%rcx,%rax), %xmm0
	pxor	480(%rsp,%rax), %xmm0
	movdqu	%xmm0, (%rdx,%rax)
Ldeerlapse_0_1_0_BB28_10:                               ## %join.3
	addq	$744, %rsp                      ## imm = 0x2E8
	retq
	.cfi_endproc
                                        ## -- End function
	.p2align	4                               ## -- Begin function deerlapse::out_of_place::deerlapse_key_open_to_sized
"_deerlapse_0_1_0::deerlapse::out_of_place::deerlapse_key_open_to_sized": ## @"deerlapse::out_of_place::deerlapse_key_open_to_sized"
	.cfi_startproc
## %bb.0:                               ## %start
	pushq	%rbp
	.cfi_def_cfa_offset 16
	pushq	%r15
	.cfi_def_cfa_offset 24
	pushq	%r14
	.cfi_def_cfa_offset 32
	pushq	%r13
	.cfi_def_cfa_offset 40
	pushq	%r12
	.cfi_def_cfa_offset 48
	pushq	%rbx
	.cfi_def_cfa_offset 56
	subq	$168, %rsp
	.cfi_def_cfa_offset 224
	.cfi_offset %rbx, -56
	.cfi_offset %r12, -48
	.cfi_offset %r13, -40
	.cfi_offset %r14, -32
	.cfi_offset %r15, -24
	.cfi_offset %rbp, -16
	movq	232(%rsp), %rbx
	movl	1920(%rdi), %eax
	leal	-10(%rax), %r10d
	cmpl	$5, %r10d
	setae	%r10b
	cmpq	%r9, %rbx
	setne	%r9b
	orb	%r10b, %r9b
	jne	Ldeerlapse_0_1_0_BB29_2
## %bb.1:                               ## %else.7
	movabsq	$68719476704, %r12              ## imm = 0xFFFFFFFE0
	movq	%rcx, %r9
	shrq	$61, %r9
	sete	%r9b
	leaq	1(%r12), %r10
	cmpq	%r10, %rbx
	setb	%r10b
	testb	%r10b, %r9b
	je	Ldeerlapse_0_1_0_BB29_2
## %bb.4:                               ## %join.3.i.i
	movq	240(%rsp), %r9
	xorps	%xmm0, %xmm0
	movaps	%xmm0, 80(%rsp)
	movl	8(%rsi), %r10d
	movl	%r10d, 40(%rsp)
	movq	(%rsi), %rsi
	movq	%rsi, 32(%rsp)
	movups	(%r9), %xmm0
	movaps	%xmm0, 144(%rsp)
	leaq	1928(%rdi), %rsi
	movl	1924(%rdi), %r9d
	movq	%rdi, 48(%rsp)
	movq	%rsi, 56(%rsp)
	movq	%rax, 64(%rsp)
	movl	%r9d, 72(%rsp)
	movl	$0, 76(%rsp)
	leaq	2168(%rdi), %rax
	addq	$2680, %rdi                     ## imm = 0xA78
	movq	%rax, 104(%rsp)
	movq	%rdi, 112(%rsp)
	leaq	80(%rsp), %rax
	movq	%rax, 24(%rsp)
	movq	%rbx, 16(%rsp)
	movq	%r8, %r13
	movq	%r8, 8(%rsp)
	leaq	144(%rsp), %rax
	movq	%rax, (%rsp)
	leaq	127(%rsp), %rdi
	leaq	48(%rsp), %rsi
	leaq	104(%rsp), %rax
	leaq	32(%rsp), %r10
	movq	%rdx, %r8
	movq	%rax, %rdx
	movq	%rcx, %r9
	movq	%r10, %rcx
	callq	"_deerlapse_0_1_0::aead_ciphers::aes_gcm::opening::authenticate::<#7bfdf0a6b4753edd>"
	cmpb	$0, 127(%rsp)
	sete	%al
	jne	Ldeerlapse_0_1_0_BB29_3
## %bb.5:                               ## %arm.5.i.i
	movq	224(%rsp), %r14
	leaq	128(%rsp), %r15
	movq	%r14, %rcx
	movq	%r13, %rsi
	subq	%r13, %rcx
	cmpq	%rbx, %rcx
	jae	Ldeerlapse_0_1_0_BB29_23
## %bb.6:                               ## %iter.check
	cmpq	$4, %rbx
	setb	%dl
	cmpq	$32, %rcx
	setb	%cl
	movl	%eax, %ebp
	orb	%dl, %cl
	je	Ldeerlapse_0_1_0_BB29_8
## %bb.7:
	xorl	%eax, %eax
	jmp	Ldeerlapse_0_1_0_BB29_17
Ldeerlapse_0_1_0_BB29_2:
	xorl	%eax, %eax
Ldeerlapse_0_1_0_BB29_3:                                ## %common.ret
                                        ## kill: def $al killed $al killed $eax
	addq	$168, %rsp
	popq	%rbx
	popq	%r12
	popq	%r13
	popq	%r14
	popq	%r15
	popq	%rbp
	retq
Ldeerlapse_0_1_0_BB29_23:                               ## %apart.2.i.i.i.i.i.i.i.i
	movl	%eax, %ebp
	movq	%r14, %rdi
	movq	%rbx, %rdx
	callq	_memmove
	jmp	Ldeerlapse_0_1_0_BB29_22
Ldeerlapse_0_1_0_BB29_8:                                ## %vector.main.loop.iter.check
	cmpq	$32, %rbx
	jae	Ldeerlapse_0_1_0_BB29_10
## %bb.9:
	xorl	%eax, %eax
	jmp	Ldeerlapse_0_1_0_BB29_14
Ldeerlapse_0_1_0_BB29_10:                               ## %vector.ph
	movq	%rbx, %rax
	andq	%r12, %rax
	xorl	%ecx, %ecx
	.p2align	4
Ldeerlapse_0_1_0_BB29_11:                               ## %vector.body
                                        ## =>This Inner Loop Header: Depth=1
	movups	(%rsi,%rcx), %xmm0
	movups	16(%rsi,%rcx), %xmm1
	movups	%xmm0, (%r14,%rcx)
	movups	%xmm1, 16(%r14,%rcx)
	addq	$32, %rcx
	cmpq	%rcx, %rax
	jne	Ldeerlapse_0_1_0_BB29_11
## %bb.12:                              ## %middle.block
	cmpq	%rax, %rbx
	je	Ldeerlapse_0_1_0_BB29_22
## %bb.13:                              ## %vec.epilog.iter.check
	testb	$28, %bl
	je	Ldeerlapse_0_1_0_BB29_17
Ldeerlapse_0_1_0_BB29_14:                               ## %vec.epilog.ph
	movq	%rax, %rcx
	addq	$28, %r12
	movq	%r12, %rax
	andq	%rbx, %rax
	.p2align	4
Ldeerlapse_0_1_0_BB29_15:                               ## %vec.epilog.vector.body
                                        ## =>This Inner Loop Header: Depth=1
	movl	(%rsi,%rcx), %edx
	movl	%edx, (%r14,%rcx)
	addq	$4, %rcx
	cmpq	%rcx, %rax
	jne	Ldeerlapse_0_1_0_BB29_15
## %bb.16:                              ## %vec.epilog.middle.block
	cmpq	%rax, %rbx
	je	Ldeerlapse_0_1_0_BB29_22
Ldeerlapse_0_1_0_BB29_17:                               ## %join.7.i.i.i.i.i.i.i.i.preheader
	movq	%rbx, %rdx
	movq	%rax, %rcx
	andq	$3, %rdx
	je	Ldeerlapse_0_1_0_BB29_20
## %bb.18:                              ## %join.7.i.i.i.i.i.i.i.i.prol.preheader
	movq	%rax, %rcx
	.p2align	4
Ldeerlapse_0_1_0_BB29_19:                               ## %join.7.i.i.i.i.i.i.i.i.prol
                                        ## =>This Inner Loop Header: Depth=1
	movzbl	(%rsi,%rcx), %edi
	movb	%dil, (%r14,%rcx)
	incq	%rcx
	decq	%rdx
	jne	Ldeerlapse_0_1_0_BB29_19
Ldeerlapse_0_1_0_BB29_20:                               ## %join.7.i.i.i.i.i.i.i.i.prol.loopexit
	subq	%rbx, %rax
	cmpq	$-4, %rax
	ja	Ldeerlapse_0_1_0_BB29_22
	.p2align	4
Ldeerlapse_0_1_0_BB29_21:                               ## %join.7.i.i.i.i.i.i.i.i
                                        ## =>This Inner Loop Header: Depth=1
	movzbl	(%rsi,%rcx), %eax
	movb	%al, (%r14,%rcx)
	movzbl	1(%rsi,%rcx), %eax
	movb	%al, 1(%r14,%rcx)
	movzbl	2(%rsi,%rcx), %eax
	movb	%al, 2(%r14,%rcx)
	movzbl	3(%rsi,%rcx), %eax
	movb	%al, 3(%r14,%rcx)
	addq	$4, %rcx
	cmpq	%rcx, %rbx
	jne	Ldeerlapse_0_1_0_BB29_21
Ldeerlapse_0_1_0_BB29_22:                               ## %"core::slice::edits::slice+T::copy_from_slice::<i8,20'core::clone::U8Clone{}>.exit.i.i"
	leaq	48(%rsp), %rdi
	leaq	80(%rsp), %r9
	movq	%r15, %rsi
	movq	%r14, %rdx
	movq	%rbx, %rcx
	xorl	%r8d, %r8d
	callq	"_deerlapse_0_1_0::aead_ciphers::aes_gcm::counter_mode::encrypt_within::<#6fa349fe97f872a2>"
	movl	%ebp, %eax
	jmp	Ldeerlapse_0_1_0_BB29_3
	.cfi_endproc
                                        ## -- End function
	.p2align	4                               ## -- Begin function deerlapse::key::deerlapse_key_seal
"_deerlapse_0_1_0::deerlapse::key::deerlapse_key_seal":  ## @"deerlapse::key::deerlapse_key_seal"
	.cfi_startproc
## %bb.0:                               ## %start
	pushq	%rbp
	.cfi_def_cfa_offset 16
	pushq	%r15
	.cfi_def_cfa_offset 24
	pushq	%r14
	.cfi_def_cfa_offset 32
	pushq	%r13
	.cfi_def_cfa_offset 40
	pushq	%r12
	.cfi_def_cfa_offset 48
	pushq	%rbx
	.cfi_def_cfa_offset 56
	subq	$680, %rsp                      ## imm = 0x2A8
	.cfi_def_cfa_offset 736
	.cfi_offset %rbx, -56
	.cfi_offset %r12, -48
	.cfi_offset %r13, -40
	.cfi_offset %r14, -32
	.cfi_offset %r15, -24
	.cfi_offset %rbp, -16
	xorps	%xmm0, %xmm0
	movaps	%xmm0, 592(%rsp)
	movl	1920(%rdi), %eax
	movq	%rax, (%rsp)                    ## 8-byte Spill
	addl	$-10, %eax
	cmpl	$5, %eax
	jae	Ldeerlapse_0_1_0_BB30_1
## %bb.3:                               ## %join.3
	movq	%rsi, %rbp
	movabsq	$2305843009213693936, %r14      ## imm = 0x1FFFFFFFFFFFFFF0
	movabsq	$68719476480, %rsi              ## imm = 0xFFFFFFF00
	movaps	%xmm0, 16(%rsp)
	movl	1924(%rdi), %r10d
	leaq	2168(%rdi), %r12
	leaq	2680(%rdi), %rax
	movq	%r12, 576(%rsp)
	movq	%rax, 584(%rsp)
	movaps	%xmm0, 544(%rsp)
	movaps	%xmm0, 528(%rsp)
	leaq	16(%r14), %rax
	cmpq	%rax, %rcx
	setae	%al
	addq	$225, %rsi
	cmpq	%rsi, %r9
	setae	%sil
	orb	%al, %sil
	jne	Ldeerlapse_0_1_0_BB30_1
## %bb.4:                               ## %join.3.i.i
	movl	%r10d, 84(%rsp)                 ## 4-byte Spill
	movq	%rdi, 8(%rsp)                   ## 8-byte Spill
	movq	%r8, 88(%rsp)                   ## 8-byte Spill
	movaps	%xmm0, 128(%rsp)
	leaq	576(%rsp), %rdi
	movq	%rdi, 144(%rsp)
	movq	%rcx, 152(%rsp)
	movq	%r9, %r13
	movq	%r9, 160(%rsp)
	andq	%rcx, %r14
	leaq	128(%rsp), %rsi
	leaq	16(%rsp), %r8
	movq	%rdx, %rbx
	movq	%rcx, %r15
	movq	%r14, %rcx
	callq	"_deerlapse_0_1_0::aead_ciphers_wide::gcm::KeyRefUpdateBlocks::update_blocks"
	movq	%r15, %rax
	andq	$15, %rax
	je	Ldeerlapse_0_1_0_BB30_6
## %bb.5:                               ## %then.1.i.i.i.i.i
	addq	%r14, %rbx
	movl	$16, %esi
	subq	%rax, %rsi
	leaq	(%rsp,%rax), %rdi
	addq	$256, %rdi                      ## imm = 0x100
	movq	%rax, %r14
	callq	___bzero
	leaq	256(%rsp), %r15
	movq	%r15, %rdi
	movq	%rbx, %rsi
	movq	%r14, %rdx
	callq	_memcpy
	leaq	128(%rsp), %rsi
	leaq	16(%rsp), %rcx
	movq	%r12, %rdi
	movq	%r15, %rdx
	callq	"_deerlapse_0_1_0::aead_ciphers_wide::gcm::KeyRefUpdateBlock::update_block"
Ldeerlapse_0_1_0_BB30_6:                                ## %"aead_ciphers::gcm::context::Context::of_fitting::<#3f2567b24793e466>.exit.i.i"
	movq	736(%rsp), %r12
	movq	8(%rsp), %rax                   ## 8-byte Reload
	addq	$1928, %rax                     ## imm = 0x788
	movq	%rax, 112(%rsp)                 ## 8-byte Spill
	movq	%r13, %rbx
	leaq	-1(%r13), %rax
	cmpq	$239, %rax
	movq	88(%rsp), %r15                  ## 8-byte Reload
	ja	Ldeerlapse_0_1_0_BB30_20
## %bb.7:                               ## %then.8.i.i
	xorl	%eax, %eax
	movq	%rbx, %rcx
	andq	$15, %rcx
	movq	%rcx, 120(%rsp)                 ## 8-byte Spill
	setne	%al
	shll	$4, %eax
	leaq	(%rbx,%rax), %r14
	addq	$16, %r14
	movl	%r14d, %eax
	andl	$1008, %eax                     ## imm = 0x3F0
	xorps	%xmm0, %xmm0
	cmpq	$64, %rax
	ja	Ldeerlapse_0_1_0_BB30_9
## %bb.8:                               ## %then.1.i114.i.i
	movaps	%xmm0, 304(%rsp)
	movaps	%xmm0, 288(%rsp)
	movaps	%xmm0, 272(%rsp)
	movaps	%xmm0, 256(%rsp)
	leaq	272(%rsp), %r13
	movq	%r13, %rdi
	movq	%r15, %rsi
	movq	%rbx, %rdx
	callq	_memcpy
	movw	$0, 204(%rsp)
	movb	$0, 206(%rsp)
	movl	8(%rbp), %eax
	movl	%eax, 200(%rsp)
	movq	(%rbp), %rax
	movq	%rax, 192(%rsp)
	movq	%rax, 32(%rsp)
	movq	199(%rsp), %rax
	movq	%rax, 39(%rsp)
	movb	$1, 47(%rsp)
	shrq	$4, %r14
	leaq	256(%rsp), %rdx
	leaq	32(%rsp), %r8
	movq	112(%rsp), %rdi                 ## 8-byte Reload
	movq	(%rsp), %rsi                    ## 8-byte Reload
	xorl	%ecx, %ecx
	movq	%r14, %r9
	callq	"_deerlapse_0_1_0::aead_ciphers_wide::aes::ctr32::encrypt_few"
	addq	%r14, 16(%rsp)
	movq	%r15, %rdi
	movq	%r13, %rsi
	movq	%rbx, %rdx
	callq	_memcpy
	movaps	256(%rsp), %xmm0
	movaps	%xmm0, 560(%rsp)
	jmp	Ldeerlapse_0_1_0_BB30_17
Ldeerlapse_0_1_0_BB30_1:
	xorl	%eax, %eax
	jmp	Ldeerlapse_0_1_0_BB30_2
Ldeerlapse_0_1_0_BB30_20:                               ## %after.4.i.i
	movb	$0, 238(%rsp)
	movw	$0, 236(%rsp)
	movq	(%rbp), %rax
	movq	%rax, 224(%rsp)
	movl	8(%rbp), %ecx
	movl	%ecx, 232(%rsp)
	movq	%rax, 64(%rsp)
	movq	231(%rsp), %rax
	movq	%rax, 71(%rsp)
	movb	$1, 79(%rsp)
	movq	64(%rsp), %rax
	movq	%rax, 176(%rsp)
	movl	72(%rsp), %eax
	movl	%eax, 184(%rsp)
	movzwl	76(%rsp), %eax
	movw	%ax, 188(%rsp)
	movzbl	78(%rsp), %eax
	movb	%al, 190(%rsp)
	movzbl	79(%rsp), %eax
	movb	%al, 191(%rsp)
	movl	76(%rsp), %r13d
	bswapl	%r13d
	incl	%r13d
	bswapl	%r13d
	movl	%r13d, 76(%rsp)
	movq	%rbx, %rbp
	movabsq	$68719476480, %rcx              ## imm = 0xFFFFFFF00
	andq	%rcx, %rbp
	movq	%rbx, %rcx
	andq	$15, %rcx
	movq	%rcx, 104(%rsp)                 ## 8-byte Spill
	movq	%rbx, 96(%rsp)                  ## 8-byte Spill
	cmoveq	%rbx, %rbp
	testq	%rbp, %rbp
	je	Ldeerlapse_0_1_0_BB30_34
## %bb.21:                              ## %join.17.lr.ph.i.i
	xorl	%eax, %eax
	cmpl	$256, 84(%rsp)                  ## 4-byte Folded Reload
                                        ## imm = 0x100
	sete	%al
	shll	$7, %eax
	subq	$-128, %rax
	movq	%rax, 120(%rsp)                 ## 8-byte Spill
	xorl	%ecx, %ecx
	movq	%rbp, 240(%rsp)                 ## 8-byte Spill
	jmp	Ldeerlapse_0_1_0_BB30_22
	.p2align	4
Ldeerlapse_0_1_0_BB30_33:                               ## %"aead_ciphers::gcm::context::Context::absorb::<#3f2567b24793e466>.exit142.i.i"
                                        ##   in Loop: Header=BB30_22 Depth=1
	movq	248(%rsp), %rcx                 ## 8-byte Reload
	addq	56(%rsp), %rcx                  ## 8-byte Folded Reload
	cmpq	%rbp, %rcx
	jae	Ldeerlapse_0_1_0_BB30_34
Ldeerlapse_0_1_0_BB30_22:                               ## %join.17.i.i
                                        ## =>This Loop Header: Depth=1
                                        ##     Child Loop BB30_24 Depth 2
	movq	%rbp, %rax
	subq	%rcx, %rax
	cmpq	$3072, %rax                     ## imm = 0xC00
	movl	$3072, %esi                     ## imm = 0xC00
	cmovbq	%rax, %rsi
	movq	88(%rsp), %rax                  ## 8-byte Reload
	leaq	(%rax,%rcx), %rdx
	movq	%rcx, 248(%rsp)                 ## 8-byte Spill
	cmpq	%rcx, %rbp
	movq	%rsi, 56(%rsp)                  ## 8-byte Spill
	je	Ldeerlapse_0_1_0_BB30_31
## %bb.23:                              ## %join.8.i.preheader.i.i
                                        ##   in Loop: Header=BB30_22 Depth=1
	bswapl	%r13d
	movq	16(%rsp), %rbx
	xorl	%ebp, %ebp
	movl	%r13d, %r15d
	jmp	Ldeerlapse_0_1_0_BB30_24
	.p2align	4
Ldeerlapse_0_1_0_BB30_25:                               ## %then.1.i.i.i
                                        ##   in Loop: Header=BB30_24 Depth=2
	movq	8(%rsp), %rax                   ## 8-byte Reload
	leaq	1928(%rax), %rdi
	movq	(%rsp), %rsi                    ## 8-byte Reload
	xorl	%ecx, %ecx
	movq	%r14, %r9
	callq	"_deerlapse_0_1_0::aead_ciphers_wide::aes::ctr32::encrypt_few"
Ldeerlapse_0_1_0_BB30_29:                               ## %"aead_ciphers_wide::aes::ctr32::encrypt_batch.exit.i.i"
                                        ##   in Loop: Header=BB30_24 Depth=2
	addq	%r13, %rbp
	addl	%r14d, %r15d
	movl	%r15d, %r13d
	bswapl	%r13d
	movl	%r13d, 76(%rsp)
	addq	%r14, %rbx
	movq	56(%rsp), %rsi                  ## 8-byte Reload
	cmpq	%rsi, %rbp
	movq	%r12, %rdx
	jae	Ldeerlapse_0_1_0_BB30_30
Ldeerlapse_0_1_0_BB30_24:                               ## %join.8.i.i.i
                                        ##   Parent Loop BB30_22 Depth=1
                                        ## =>  This Inner Loop Header: Depth=2
	movq	%rsi, %rax
	subq	%rbp, %rax
	movq	120(%rsp), %r13                 ## 8-byte Reload
	cmpq	%r13, %rax
	cmovbq	%rax, %r13
	movq	%rdx, %r12
	addq	%rbp, %rdx
	movl	%r13d, %r14d
	shrl	$4, %r14d
	leaq	64(%rsp), %r8
	cmpq	$79, %rax
	jbe	Ldeerlapse_0_1_0_BB30_25
## %bb.26:                              ## %else.2.i.i.i
                                        ##   in Loop: Header=BB30_24 Depth=2
	cmpq	$143, %r13
	ja	Ldeerlapse_0_1_0_BB30_28
## %bb.27:                              ## %then.4.i.i.i
                                        ##   in Loop: Header=BB30_24 Depth=2
	movq	8(%rsp), %rdi                   ## 8-byte Reload
	movq	(%rsp), %rsi                    ## 8-byte Reload
	xorl	%ecx, %ecx
	movq	%r14, %r9
	callq	"_deerlapse_0_1_0::aead_ciphers_wide::aes::ctr32::encrypt_up_to_eight"
	jmp	Ldeerlapse_0_1_0_BB30_29
	.p2align	4
Ldeerlapse_0_1_0_BB30_28:                               ## %else.5.i.i.i
                                        ##   in Loop: Header=BB30_24 Depth=2
	movq	8(%rsp), %rdi                   ## 8-byte Reload
	movq	(%rsp), %rsi                    ## 8-byte Reload
	xorl	%ecx, %ecx
	movq	%r14, %r9
	callq	"_deerlapse_0_1_0::aead_ciphers_wide::aes::ctr32::encrypt_up_to_sixteen"
	jmp	Ldeerlapse_0_1_0_BB30_29
	.p2align	4
Ldeerlapse_0_1_0_BB30_30:                               ## %"aead_ciphers_wide::aes::ctr32::KeyRefEncryptCtr32::ctr32_encrypt_within.exit.i.i.loopexit"
                                        ##   in Loop: Header=BB30_22 Depth=1
	movq	%rbx, 16(%rsp)
	movq	240(%rsp), %rbp                 ## 8-byte Reload
Ldeerlapse_0_1_0_BB30_31:                               ## %"aead_ciphers_wide::aes::ctr32::KeyRefEncryptCtr32::ctr32_encrypt_within.exit.i.i"
                                        ##   in Loop: Header=BB30_22 Depth=1
	movq	144(%rsp), %rdi
	movq	%rsi, %rbx
	movl	%ebx, %r14d
	andl	$4080, %r14d                    ## imm = 0xFF0
	leaq	128(%rsp), %rsi
	leaq	16(%rsp), %r8
	movq	%rdi, %r12
	movq	%rdx, %r15
	movq	%r14, %rcx
	callq	"_deerlapse_0_1_0::aead_ciphers_wide::gcm::KeyRefUpdateBlocks::update_blocks"
	andq	$15, %rbx
	je	Ldeerlapse_0_1_0_BB30_33
## %bb.32:                              ## %then.1.i.i139.i.i
                                        ##   in Loop: Header=BB30_22 Depth=1
	addq	%r14, %r15
	movl	$16, %esi
	subq	%rbx, %rsi
	leaq	(%rsp,%rbx), %rdi
	addq	$256, %rdi                      ## imm = 0x100
	callq	___bzero
	leaq	256(%rsp), %rdi
	movq	%r15, %rsi
	movq	%rbx, %rdx
	callq	_memcpy
	movups	256(%rsp), %xmm0
	movaps	%xmm0, 32(%rsp)
	movq	(%r12), %rdi
	leaq	128(%rsp), %rsi
	leaq	32(%rsp), %rdx
	leaq	16(%rsp), %rcx
	callq	"_deerlapse_0_1_0::aead_ciphers_wide::gcm::KeyRefUpdateBlock::update_block"
	jmp	Ldeerlapse_0_1_0_BB30_33
Ldeerlapse_0_1_0_BB30_34:                               ## %after.13.i.i
	movq	88(%rsp), %rsi                  ## 8-byte Reload
	movq	96(%rsp), %rbx                  ## 8-byte Reload
	subq	%rbp, %rbx
	movq	736(%rsp), %r12
	jbe	Ldeerlapse_0_1_0_BB30_49
## %bb.35:                              ## %then.18.i.i
	xorl	%r14d, %r14d
	cmpq	$0, 104(%rsp)                   ## 8-byte Folded Reload
	setne	%r14b
	addq	%rbp, %rsi
	shll	$4, %r14d
	addq	%rbx, %r14
	movabsq	$137438953456, %r15             ## imm = 0x1FFFFFFFF0
	andq	%r14, %r15
	xorps	%xmm0, %xmm0
	cmpq	$64, %r15
	ja	Ldeerlapse_0_1_0_BB30_39
## %bb.36:                              ## %then.1.i37.i.i
	movaps	%xmm0, 304(%rsp)
	movaps	%xmm0, 288(%rsp)
	movaps	%xmm0, 272(%rsp)
	movaps	%xmm0, 256(%rsp)
	leaq	256(%rsp), %rdi
	movq	%r15, %r13
	movq	%rsi, %r15
	movq	%rbx, %rdx
	callq	_memcpy
	testq	%r13, %r13
	je	Ldeerlapse_0_1_0_BB30_38
## %bb.37:                              ## %join.8.i.i.lr.ph.i.i
	shrq	$4, %r14
	leaq	256(%rsp), %rdx
	leaq	64(%rsp), %r8
	movq	112(%rsp), %rdi                 ## 8-byte Reload
	movq	(%rsp), %rsi                    ## 8-byte Reload
	xorl	%ecx, %ecx
	movq	%r14, %r9
	callq	"_deerlapse_0_1_0::aead_ciphers_wide::aes::ctr32::encrypt_few"
	addq	%r14, 16(%rsp)
Ldeerlapse_0_1_0_BB30_38:                               ## %"aead_ciphers::aes_gcm::counter_mode::encrypt_padded::<#6fa349fe97f872a2>.exit.i.i"
	leaq	256(%rsp), %rsi
	movq	%r15, %rdi
	movq	%rbx, %rdx
	callq	_memcpy
	jmp	Ldeerlapse_0_1_0_BB30_47
Ldeerlapse_0_1_0_BB30_9:                                ## %else.2.i113.i.i
	movaps	%xmm0, 496(%rsp)
	movaps	%xmm0, 480(%rsp)
	movaps	%xmm0, 464(%rsp)
	movaps	%xmm0, 448(%rsp)
	movaps	%xmm0, 432(%rsp)
	movaps	%xmm0, 416(%rsp)
	movaps	%xmm0, 400(%rsp)
	movaps	%xmm0, 384(%rsp)
	movaps	%xmm0, 368(%rsp)
	movaps	%xmm0, 352(%rsp)
	movaps	%xmm0, 336(%rsp)
	movaps	%xmm0, 320(%rsp)
	movaps	%xmm0, 304(%rsp)
	movaps	%xmm0, 288(%rsp)
	movaps	%xmm0, 272(%rsp)
	movaps	%xmm0, 256(%rsp)
	leaq	272(%rsp), %rdi
	movq	%r15, %rsi
	movq	%rbx, 96(%rsp)                  ## 8-byte Spill
	movq	%rbx, %rdx
	movq	%rax, 56(%rsp)                  ## 8-byte Spill
	callq	_memcpy
	movw	$0, 220(%rsp)
	movb	$0, 222(%rsp)
	movl	8(%rbp), %eax
	movl	%eax, 216(%rsp)
	movq	(%rbp), %rax
	movq	%rax, 208(%rsp)
	movq	215(%rsp), %rcx
	movq	%rcx, 39(%rsp)
	movq	56(%rsp), %rcx                  ## 8-byte Reload
	movq	%rax, 32(%rsp)
	movb	$1, 47(%rsp)
	xorl	%ebx, %ebx
	cmpl	$256, 84(%rsp)                  ## 4-byte Folded Reload
                                        ## imm = 0x100
	sete	%bl
	shll	$7, %ebx
	subq	$-128, %rbx
	movl	44(%rsp), %r15d
	bswapl	%r15d
	xorl	%r12d, %r12d
	movq	16(%rsp), %r13
	jmp	Ldeerlapse_0_1_0_BB30_10
	.p2align	4
Ldeerlapse_0_1_0_BB30_11:                               ## %then.1.i.i43.i.i.i
                                        ##   in Loop: Header=BB30_10 Depth=1
	movq	8(%rsp), %rax                   ## 8-byte Reload
	leaq	1928(%rax), %rdi
	movq	(%rsp), %rsi                    ## 8-byte Reload
	xorl	%ecx, %ecx
	movq	%rbp, %r9
	callq	"_deerlapse_0_1_0::aead_ciphers_wide::aes::ctr32::encrypt_few"
Ldeerlapse_0_1_0_BB30_15:                               ## %"aead_ciphers_wide::aes::ctr32::encrypt_batch.exit.i40.i.i.i"
                                        ##   in Loop: Header=BB30_10 Depth=1
	addq	%r14, %r12
	addl	%ebp, %r15d
	movl	%r15d, %eax
	bswapl	%eax
	movl	%eax, 44(%rsp)
	addq	%rbp, %r13
	movq	56(%rsp), %rcx                  ## 8-byte Reload
	cmpq	%rcx, %r12
	jae	Ldeerlapse_0_1_0_BB30_16
Ldeerlapse_0_1_0_BB30_10:                               ## %join.8.i.i27.i.i.i
                                        ## =>This Inner Loop Header: Depth=1
	movq	%rcx, %rax
	subq	%r12, %rax
	cmpq	%rbx, %rax
	movq	%rbx, %r14
	cmovbq	%rax, %r14
	leaq	(%rsp,%r12), %rdx
	addq	$256, %rdx                      ## imm = 0x100
	movl	%r14d, %ebp
	shrl	$4, %ebp
	leaq	32(%rsp), %r8
	cmpq	$79, %rax
	jbe	Ldeerlapse_0_1_0_BB30_11
## %bb.12:                              ## %else.2.i.i37.i.i.i
                                        ##   in Loop: Header=BB30_10 Depth=1
	cmpl	$143, %r14d
	ja	Ldeerlapse_0_1_0_BB30_14
## %bb.13:                              ## %then.4.i.i42.i.i.i
                                        ##   in Loop: Header=BB30_10 Depth=1
	movq	8(%rsp), %rdi                   ## 8-byte Reload
	movq	(%rsp), %rsi                    ## 8-byte Reload
	xorl	%ecx, %ecx
	movq	%rbp, %r9
	callq	"_deerlapse_0_1_0::aead_ciphers_wide::aes::ctr32::encrypt_up_to_eight"
	jmp	Ldeerlapse_0_1_0_BB30_15
	.p2align	4
Ldeerlapse_0_1_0_BB30_14:                               ## %else.5.i.i39.i.i.i
                                        ##   in Loop: Header=BB30_10 Depth=1
	movq	8(%rsp), %rdi                   ## 8-byte Reload
	movq	(%rsp), %rsi                    ## 8-byte Reload
	xorl	%ecx, %ecx
	movq	%rbp, %r9
	callq	"_deerlapse_0_1_0::aead_ciphers_wide::aes::ctr32::encrypt_up_to_sixteen"
	jmp	Ldeerlapse_0_1_0_BB30_15
Ldeerlapse_0_1_0_BB30_16:                               ## %"aead_ciphers::aes_gcm::sealing::encrypt_after_zeros::<#6fa349fe97f872a2>.exit48.i.i.i"
	movq	%r13, 16(%rsp)
	movq	88(%rsp), %r15                  ## 8-byte Reload
	movq	%r15, %rdi
	leaq	272(%rsp), %rsi
	movq	96(%rsp), %rbx                  ## 8-byte Reload
	movq	%rbx, %rdx
	callq	_memcpy
	movaps	256(%rsp), %xmm0
	movaps	%xmm0, 560(%rsp)
	movq	736(%rsp), %r12
Ldeerlapse_0_1_0_BB30_17:                               ## %"aead_ciphers::aes_gcm::sealing::encrypt_short::<#6fa349fe97f872a2>.exit.i.i"
	movaps	560(%rsp), %xmm0
	movaps	%xmm0, 608(%rsp)
	movq	144(%rsp), %r14
	andl	$240, %ebx
	leaq	128(%rsp), %rsi
	leaq	16(%rsp), %r8
	movq	%r14, %rdi
	movq	%r15, %rdx
	movq	%rbx, %rcx
	callq	"_deerlapse_0_1_0::aead_ciphers_wide::gcm::KeyRefUpdateBlocks::update_blocks"
	movq	120(%rsp), %r13                 ## 8-byte Reload
	testq	%r13, %r13
	je	Ldeerlapse_0_1_0_BB30_19
## %bb.18:                              ## %then.1.i.i121.i.i
	addq	%rbx, %r15
	movl	$16, %esi
	subq	%r13, %rsi
	leaq	(%rsp,%r13), %rdi
	addq	$648, %rdi                      ## imm = 0x288
	callq	___bzero
	leaq	648(%rsp), %rbx
	movq	%rbx, %rdi
	movq	%r15, %rsi
	movq	%r13, %rdx
	callq	_memcpy
	movq	(%r14), %rdi
	leaq	128(%rsp), %rsi
	leaq	16(%rsp), %rcx
	movq	%rbx, %rdx
	callq	"_deerlapse_0_1_0::aead_ciphers_wide::gcm::KeyRefUpdateBlock::update_block"
Ldeerlapse_0_1_0_BB30_19:                               ## %"aead_ciphers::gcm::context::Context::absorb::<#3f2567b24793e466>.exit.i.i"
	leaq	544(%rsp), %rdi
	leaq	128(%rsp), %rsi
	leaq	608(%rsp), %rdx
	leaq	16(%rsp), %rcx
	callq	"_deerlapse_0_1_0::aead_ciphers::aes_gcm::hash::finish::<#0f83097016d41fe1>"
	movaps	544(%rsp), %xmm0
	jmp	Ldeerlapse_0_1_0_BB30_50
Ldeerlapse_0_1_0_BB30_39:                               ## %else.2.i36.i.i
	movaps	%xmm0, 496(%rsp)
	movaps	%xmm0, 480(%rsp)
	movaps	%xmm0, 464(%rsp)
	movaps	%xmm0, 448(%rsp)
	movaps	%xmm0, 432(%rsp)
	movaps	%xmm0, 416(%rsp)
	movaps	%xmm0, 400(%rsp)
	movaps	%xmm0, 384(%rsp)
	movaps	%xmm0, 368(%rsp)
	movaps	%xmm0, 352(%rsp)
	movaps	%xmm0, 336(%rsp)
	movaps	%xmm0, 320(%rsp)
	movaps	%xmm0, 304(%rsp)
	movaps	%xmm0, 288(%rsp)
	movaps	%xmm0, 272(%rsp)
	movaps	%xmm0, 256(%rsp)
	movups	64(%rsp), %xmm0
	movaps	%xmm0, 32(%rsp)
	leaq	256(%rsp), %rdi
	movq	%rsi, 88(%rsp)                  ## 8-byte Spill
	movq	%rbx, 96(%rsp)                  ## 8-byte Spill
	movq	%rbx, %rdx
	callq	_memcpy
	xorl	%ebx, %ebx
	cmpl	$256, 84(%rsp)                  ## 4-byte Folded Reload
                                        ## imm = 0x100
	sete	%bl
	shll	$7, %ebx
	subq	$-128, %rbx
	movl	44(%rsp), %ebp
	bswapl	%ebp
	xorl	%r12d, %r12d
	movq	16(%rsp), %r13
	movq	%r15, %rax
	movq	%r15, 56(%rsp)                  ## 8-byte Spill
	jmp	Ldeerlapse_0_1_0_BB30_40
	.p2align	4
Ldeerlapse_0_1_0_BB30_41:                               ## %then.1.i.i75.i.i
                                        ##   in Loop: Header=BB30_40 Depth=1
	movq	8(%rsp), %rax                   ## 8-byte Reload
	leaq	1928(%rax), %rdi
	movq	(%rsp), %rsi                    ## 8-byte Reload
	xorl	%ecx, %ecx
	movq	%r14, %r9
	callq	"_deerlapse_0_1_0::aead_ciphers_wide::aes::ctr32::encrypt_few"
Ldeerlapse_0_1_0_BB30_45:                               ## %"aead_ciphers_wide::aes::ctr32::encrypt_batch.exit.i72.i.i"
                                        ##   in Loop: Header=BB30_40 Depth=1
	addq	%r15, %r12
	addl	%r14d, %ebp
	movl	%ebp, %eax
	bswapl	%eax
	movl	%eax, 44(%rsp)
	addq	%r14, %r13
	movq	56(%rsp), %rax                  ## 8-byte Reload
	cmpq	%rax, %r12
	jae	Ldeerlapse_0_1_0_BB30_46
Ldeerlapse_0_1_0_BB30_40:                               ## %join.8.i.i59.i.i
                                        ## =>This Inner Loop Header: Depth=1
	subq	%r12, %rax
	cmpq	%rbx, %rax
	movq	%rbx, %r15
	cmovbq	%rax, %r15
	leaq	(%rsp,%r12), %rdx
	addq	$256, %rdx                      ## imm = 0x100
	movl	%r15d, %r14d
	shrl	$4, %r14d
	leaq	32(%rsp), %r8
	cmpq	$79, %rax
	jbe	Ldeerlapse_0_1_0_BB30_41
## %bb.42:                              ## %else.2.i.i69.i.i
                                        ##   in Loop: Header=BB30_40 Depth=1
	cmpq	$143, %r15
	ja	Ldeerlapse_0_1_0_BB30_44
## %bb.43:                              ## %then.4.i.i74.i.i
                                        ##   in Loop: Header=BB30_40 Depth=1
	movq	8(%rsp), %rdi                   ## 8-byte Reload
	movq	(%rsp), %rsi                    ## 8-byte Reload
	xorl	%ecx, %ecx
	movq	%r14, %r9
	callq	"_deerlapse_0_1_0::aead_ciphers_wide::aes::ctr32::encrypt_up_to_eight"
	jmp	Ldeerlapse_0_1_0_BB30_45
	.p2align	4
Ldeerlapse_0_1_0_BB30_44:                               ## %else.5.i.i71.i.i
                                        ##   in Loop: Header=BB30_40 Depth=1
	movq	8(%rsp), %rdi                   ## 8-byte Reload
	movq	(%rsp), %rsi                    ## 8-byte Reload
	xorl	%ecx, %ecx
	movq	%r14, %r9
	callq	"_deerlapse_0_1_0::aead_ciphers_wide::aes::ctr32::encrypt_up_to_sixteen"
	jmp	Ldeerlapse_0_1_0_BB30_45
Ldeerlapse_0_1_0_BB30_46:                               ## %"aead_ciphers::aes_gcm::counter_mode::encrypt_padded::<#6fa349fe97f872a2>.exit80.i.i"
	movq	%r13, 16(%rsp)
	leaq	256(%rsp), %rsi
	movq	88(%rsp), %r15                  ## 8-byte Reload
	movq	%r15, %rdi
	movq	96(%rsp), %rbx                  ## 8-byte Reload
	movq	%rbx, %rdx
	callq	_memcpy
	movq	736(%rsp), %r12
Ldeerlapse_0_1_0_BB30_47:                               ## %"aead_ciphers::aes_gcm::counter_mode::encrypt_rest::<#6fa349fe97f872a2>.exit.i.i"
	movabsq	$68719476480, %rax              ## imm = 0xFFFFFFF00
	movq	144(%rsp), %r14
	addq	$240, %rax
	andq	%rax, %rbx
	leaq	128(%rsp), %rsi
	leaq	16(%rsp), %r8
	movq	%r14, %rdi
	movq	%r15, %r13
	movq	%r15, %rdx
	movq	%rbx, %rcx
	callq	"_deerlapse_0_1_0::aead_ciphers_wide::gcm::KeyRefUpdateBlocks::update_blocks"
	cmpq	$0, 104(%rsp)                   ## 8-byte Folded Reload
	je	Ldeerlapse_0_1_0_BB30_49
## %bb.48:                              ## %then.1.i.i214.i.i
	movq	%r13, %r15
	addq	%rbx, %r15
	movl	$16, %esi
	movq	104(%rsp), %r13                 ## 8-byte Reload
	subq	%r13, %rsi
	leaq	(%rsp,%r13), %rdi
	addq	$664, %rdi                      ## imm = 0x298
	callq	___bzero
	leaq	664(%rsp), %rbx
	movq	%rbx, %rdi
	movq	%r15, %rsi
	movq	%r13, %rdx
	callq	_memcpy
	movq	(%r14), %rdi
	leaq	128(%rsp), %rsi
	leaq	16(%rsp), %rcx
	movq	%rbx, %rdx
	callq	"_deerlapse_0_1_0::aead_ciphers_wide::gcm::KeyRefUpdateBlock::update_block"
Ldeerlapse_0_1_0_BB30_49:                               ## %join.20.i.i
	xorps	%xmm0, %xmm0
	movaps	%xmm0, 624(%rsp)
	incq	16(%rsp)
	leaq	624(%rsp), %rbx
	leaq	176(%rsp), %rcx
	movq	%rbx, %rdi
	movq	112(%rsp), %rsi                 ## 8-byte Reload
	movq	(%rsp), %rdx                    ## 8-byte Reload
	callq	"_deerlapse_0_1_0::aead_ciphers_wide::aes::block_key::BlockKeyRef::encrypt_one"
	leaq	528(%rsp), %rdi
	leaq	128(%rsp), %rsi
	leaq	16(%rsp), %rcx
	movq	%rbx, %rdx
	callq	"_deerlapse_0_1_0::aead_ciphers::aes_gcm::hash::finish::<#0f83097016d41fe1>"
	movaps	528(%rsp), %xmm0
Ldeerlapse_0_1_0_BB30_50:                               ## %arm.4
	movaps	%xmm0, 512(%rsp)
	movaps	512(%rsp), %xmm0
	movaps	%xmm0, 592(%rsp)
	movups	%xmm0, (%r12)
	movb	$1, %al
Ldeerlapse_0_1_0_BB30_2:                                ## %common.ret
                                        ## kill: def $al killed $al killed $eax
	addq	$680, %rsp                      ## imm = 0x2A8
	popq	%rbx
	popq	%r12
	popq	%r13
	popq	%r14
	popq	%r15
	popq	%rbp
	retq
	.cfi_endproc
                                        ## -- End function
	.p2align	4                               ## -- Begin function deerlapse::opener::deerlapse_opener_open_number
"_deerlapse_0_1_0::deerlapse::opener::deerlapse_opener_open_number": ## @"deerlapse::opener::deerlapse_opener_open_number"
	.cfi_startproc
## %bb.0:                               ## %start
	pushq	%r15
	.cfi_def_cfa_offset 16
	pushq	%r14
	.cfi_def_cfa_offset 24
	pushq	%r12
	.cfi_def_cfa_offset 32
	pushq	%rbx
	.cfi_def_cfa_offset 40
	subq	$168, %rsp
	.cfi_def_cfa_offset 208
	.cfi_offset %rbx, -40
	.cfi_offset %r12, -32
	.cfi_offset %r14, -24
	.cfi_offset %r15, -16
	bswapq	%rsi
	movl	%esi, %eax
	shrl	$24, %eax
	movl	%esi, %r10d
	shrl	$16, %r10d
	movd	3212(%rdi), %xmm0               ## xmm0 = mem[0],zero,zero,zero
	movd	%esi, %xmm1
	movl	%esi, %r11d
	shrl	$8, %r11d
	pinsrb	$1, %r11d, %xmm1
	pinsrb	$2, %r10d, %xmm1
	pinsrb	$3, %eax, %xmm1
	pxor	%xmm0, %xmm1
	movd	3208(%rdi), %xmm0               ## xmm0 = mem[0],zero,zero,zero
	punpckldq	%xmm1, %xmm0            ## xmm0 = xmm0[0],xmm1[0],xmm0[1],xmm1[1]
	movq	%rsi, %rax
	shrq	$56, %rax
	movq	%rsi, %r10
	shrq	$48, %r10
	movq	%rsi, %r11
	shrq	$40, %r11
	shrq	$32, %rsi
	movd	3216(%rdi), %xmm1               ## xmm1 = mem[0],zero,zero,zero
	movd	%esi, %xmm2
	pinsrb	$1, %r11d, %xmm2
	pinsrb	$2, %r10d, %xmm2
	pinsrb	$3, %eax, %xmm2
	pxor	%xmm1, %xmm2
	movq	%xmm0, 32(%rsp)
	movd	%xmm2, 40(%rsp)
	movl	1920(%rdi), %esi
	leal	-10(%rsi), %eax
	cmpl	$4, %eax
	ja	Ldeerlapse_0_1_0_BB31_6
## %bb.1:                               ## %join.3.i
	cmpq	$16, %r9
	jb	Ldeerlapse_0_1_0_BB31_6
## %bb.2:                               ## %arm.1.i.i
	movq	208(%rsp), %rbx
	leaq	-16(%r9), %r14
	movq	%r14, %rax
	subq	%rbx, %rax
	jb	Ldeerlapse_0_1_0_BB31_6
## %bb.3:                               ## %arm.8.i.i
	movq	%rcx, %r10
	shrq	$61, %r10
	setne	%r10b
	movabsq	$68719476704, %r11              ## imm = 0xFFFFFFFE0
	cmpq	%r11, %rax
	seta	%r11b
	orb	%r10b, %r11b
	jne	Ldeerlapse_0_1_0_BB31_6
## %bb.4:                               ## %then.11.i.i
	addq	%r8, %r9
	addq	$-16, %r9
	leaq	1928(%rdi), %r10
	movl	1924(%rdi), %r11d
	movq	%rdi, 48(%rsp)
	movq	%r10, 56(%rsp)
	movq	%rsi, 64(%rsp)
	movl	%r11d, 72(%rsp)
	movl	$0, 76(%rsp)
	leaq	2168(%rdi), %rsi
	addq	$2680, %rdi                     ## imm = 0xA78
	movq	%rsi, 104(%rsp)
	movq	%rdi, 112(%rsp)
	pxor	%xmm0, %xmm0
	movdqa	%xmm0, 80(%rsp)
	movdqu	(%r9), %xmm0
	movdqa	%xmm0, 144(%rsp)
	movq	%r8, %r15
	leaq	(%r8,%rbx), %rsi
	leaq	80(%rsp), %rdi
	movq	%rdi, 24(%rsp)
	movq	%rax, 16(%rsp)
	movq	%rsi, 8(%rsp)
	leaq	144(%rsp), %rax
	movq	%rax, (%rsp)
	leaq	127(%rsp), %rdi
	leaq	48(%rsp), %rsi
	leaq	104(%rsp), %rax
	leaq	32(%rsp), %r10
	movq	%rdx, %r8
	movq	%rax, %rdx
	movq	%rcx, %r9
	movq	%r10, %rcx
	callq	"_deerlapse_0_1_0::aead_ciphers::aes_gcm::opening::authenticate::<#7bfdf0a6b4753edd>"
	cmpb	$0, 127(%rsp)
	je	Ldeerlapse_0_1_0_BB31_8
Ldeerlapse_0_1_0_BB31_6:
	xorl	%eax, %eax
Ldeerlapse_0_1_0_BB31_7:                                ## %"deerlapse::key::deerlapse_key_open.exit"
                                        ## kill: def $al killed $al killed $eax
	addq	$168, %rsp
	popq	%rbx
	popq	%r12
	popq	%r14
	popq	%r15
	retq
Ldeerlapse_0_1_0_BB31_8:                                ## %arm.4.i
	movq	216(%rsp), %r12
	leaq	128(%rsp), %rsi
	leaq	48(%rsp), %rdi
	leaq	80(%rsp), %r9
	movq	%r15, %rdx
	movq	%r14, %rcx
	movq	%rbx, %r8
	callq	"_deerlapse_0_1_0::aead_ciphers::aes_gcm::counter_mode::encrypt_within::<#6fa349fe97f872a2>"
	movq	%rax, (%r12)
	movb	$1, %al
	jmp	Ldeerlapse_0_1_0_BB31_7
	.cfi_endproc
                                        ## -- End function
	.section	__TEXT,__literal16,16byte_literals
	.p2align	4, 0x0                          ## -- Begin function deerlapse::xaes_key::expand_message_key
Ldeerlapse_0_1_0_CPI32_0:
	.byte	0                               ## 0x0
	.byte	1                               ## 0x1
	.byte	88                              ## 0x58
	.byte	0                               ## 0x0
	.space	1
	.space	1
	.space	1
	.space	1
	.space	1
	.space	1
	.space	1
	.space	1
	.space	1
	.space	1
	.space	1
	.space	1
Ldeerlapse_0_1_0_CPI32_1:
	.byte	2                               ## 0x2
	.byte	128                             ## 0x80
	.byte	4                               ## 0x4
	.byte	5                               ## 0x5
	.byte	6                               ## 0x6
	.byte	7                               ## 0x7
	.byte	8                               ## 0x8
	.byte	9                               ## 0x9
	.space	1
	.space	1
	.space	1
	.space	1
	.space	1
	.space	1
	.space	1
	.space	1
Ldeerlapse_0_1_0_CPI32_2:
	.byte	128                             ## 0x80
	.byte	3                               ## 0x3
	.byte	128                             ## 0x80
	.byte	128                             ## 0x80
	.byte	128                             ## 0x80
	.byte	128                             ## 0x80
	.byte	128                             ## 0x80
	.byte	128                             ## 0x80
	.space	1
	.space	1
	.space	1
	.space	1
	.space	1
	.space	1
	.space	1
	.space	1
Ldeerlapse_0_1_0_CPI32_3:
	.byte	0                               ## 0x0
	.byte	1                               ## 0x1
	.byte	88                              ## 0x58
	.byte	0                               ## 0x0
	.byte	0                               ## 0x0
	.byte	0                               ## 0x0
	.byte	0                               ## 0x0
	.byte	0                               ## 0x0
	.byte	0                               ## 0x0
	.byte	0                               ## 0x0
	.byte	0                               ## 0x0
	.byte	0                               ## 0x0
	.byte	0                               ## 0x0
	.byte	0                               ## 0x0
	.byte	0                               ## 0x0
	.byte	0                               ## 0x0
	.section	__TEXT,__text,regular,pure_instructions
	.p2align	4
"_deerlapse_0_1_0::deerlapse::xaes_key::expand_message_key": ## @"deerlapse::xaes_key::expand_message_key"
	.cfi_startproc
## %bb.0:                               ## %start
	pushq	%rbp
	.cfi_def_cfa_offset 16
	pushq	%r15
	.cfi_def_cfa_offset 24
	pushq	%r14
	.cfi_def_cfa_offset 32
	pushq	%r12
	.cfi_def_cfa_offset 40
	pushq	%rbx
	.cfi_def_cfa_offset 48
	subq	$128, %rsp
	.cfi_def_cfa_offset 176
	.cfi_offset %rbx, -48
	.cfi_offset %r12, -40
	.cfi_offset %r14, -32
	.cfi_offset %r15, -24
	.cfi_offset %rbp, -16
	movq	%rdi, %rbx
	cmpl	$14, (%rsi)
	jne	Ldeerlapse_0_1_0_BB32_1
## %bb.3:                               ## %join.3
	movq	%rcx, %r14
	movq	12(%rdx), %rax
	movq	%rax, 16(%rsp)
	movl	20(%rdx), %eax
	movl	%eax, 24(%rsp)
	leaq	8(%rsi), %r15
	movss	(%rdx), %xmm0                   ## xmm0 = mem[0],zero,zero,zero
	movsd	4(%rdx), %xmm1                  ## xmm1 = mem[0],zero
	movups	248(%rsi), %xmm3
	movaps	%xmm3, 96(%rsp)                 ## 16-byte Spill
	movzbl	248(%rsi), %ebp
	movss	Ldeerlapse_0_1_0_CPI32_3(%rip), %xmm2           ## xmm2 = [0,1,88,0,0,0,0,0,0,0,0,0,0,0,0,0]
	unpcklps	%xmm0, %xmm2                    ## xmm2 = xmm2[0],xmm0[0],xmm2[1],xmm0[1]
	movlhps	%xmm1, %xmm2                    ## xmm2 = xmm2[0],xmm1[0]
	xorps	%xmm3, %xmm2
	movaps	%xmm2, 112(%rsp)                ## 16-byte Spill
	movaps	%xmm2, 64(%rsp)
	xorps	%xmm0, %xmm0
	movaps	%xmm0, 48(%rsp)
	leaq	48(%rsp), %rdi
	leaq	64(%rsp), %rcx
	movl	$14, %edx
	movq	%rsi, %r12
	movq	%r15, %rsi
	callq	"_deerlapse_0_1_0::aead_ciphers_wide::aes::block_key::BlockKeyRef::encrypt_one"
	movaps	48(%rsp), %xmm0
	movaps	%xmm0, 64(%rsp)
	movdqa	96(%rsp), %xmm1                 ## 16-byte Reload
	pextrb	$1, %xmm1, %eax
	xorb	$2, %al
	movb	%bpl, (%rsp)
	movb	%al, 1(%rsp)
	movdqa	112(%rsp), %xmm2                ## 16-byte Reload
	movdqa	%xmm2, %xmm0
	pshufb	Ldeerlapse_0_1_0_CPI32_1(%rip), %xmm0           ## xmm0 = xmm0[2],zero,xmm0[4,5,6,7,8,9,u,u,u,u,u,u,u,u]
	pshufb	Ldeerlapse_0_1_0_CPI32_2(%rip), %xmm1           ## xmm1 = zero,xmm1[3],zero,zero,zero,zero,zero,zero,xmm1[u,u,u,u,u,u,u,u]
	por	%xmm0, %xmm1
	movq	%xmm1, 2(%rsp)
	movdqa	%xmm2, %xmm0
	psrldq	$10, %xmm0                      ## xmm0 = xmm0[10,11,12,13,14,15],zero,zero,zero,zero,zero,zero,zero,zero,zero,zero
	movd	%xmm0, 10(%rsp)
	pextrb	$14, %xmm2, 14(%rsp)
	pextrb	$15, %xmm2, 15(%rsp)
	pxor	%xmm0, %xmm0
	movdqa	%xmm0, 32(%rsp)
	leaq	32(%rsp), %rdi
	movq	%rsp, %rcx
	movl	$14, %edx
	movq	%r15, %rsi
	callq	"_deerlapse_0_1_0::aead_ciphers_wide::aes::block_key::BlockKeyRef::encrypt_one"
	movaps	32(%rsp), %xmm0
	movaps	%xmm0, 48(%rsp)
	movaps	%xmm0, 80(%rsp)
	xorl	%ecx, %ecx
	cmpl	$256, 4(%r12)                   ## imm = 0x100
	sete	%cl
	xorps	%xmm0, %xmm0
	movaps	%xmm0, 32(%rsp)
	leaq	64(%rsp), %rdx
	leaq	32(%rsp), %r8
	movq	%r14, %rdi
	movl	$1, %esi
	callq	"_deerlapse_0_1_0::aead_ciphers_wide::aes_gcm::ExpandedKey::expand_with_width"
	movl	24(%rsp), %eax
	movl	%eax, 9(%rbx)
	movq	16(%rsp), %rax
	movq	%rax, 1(%rbx)
	movb	$1, %al
	jmp	Ldeerlapse_0_1_0_BB32_2
Ldeerlapse_0_1_0_BB32_1:                                ## %then.1
	movl	$0, 9(%rbx)
	movq	$0, 1(%rbx)
	xorl	%eax, %eax
Ldeerlapse_0_1_0_BB32_2:                                ## %common.ret
	movb	%al, (%rbx)
	addq	$128, %rsp
	popq	%rbx
	popq	%r12
	popq	%r14
	popq	%r15
	popq	%rbp
	retq
	.cfi_endproc
                                        ## -- End function
	.section	__TEXT,__literal16,16byte_literals
	.p2align	4, 0x0                          ## -- Begin function aead_ciphers_wide::aes_gcm::ExpandedKey::expand_with_width
Ldeerlapse_0_1_0_CPI33_0:
	.space	16,15
Ldeerlapse_0_1_0_CPI33_1:
	.byte	0                               ## 0x0
	.byte	255                             ## 0xff
	.byte	0                               ## 0x0
	.byte	255                             ## 0xff
	.byte	0                               ## 0x0
	.byte	255                             ## 0xff
	.byte	0                               ## 0x0
	.byte	255                             ## 0xff
	.byte	0                               ## 0x0
	.byte	255                             ## 0xff
	.byte	0                               ## 0x0
	.byte	255                             ## 0xff
	.byte	0                               ## 0x0
	.byte	255                             ## 0xff
	.byte	0                               ## 0x0
	.byte	255                             ## 0xff
Ldeerlapse_0_1_0_CPI33_2:
	.byte	0                               ## 0x0
	.byte	0                               ## 0x0
	.byte	255                             ## 0xff
	.byte	255                             ## 0xff
	.byte	0                               ## 0x0
	.byte	0                               ## 0x0
	.byte	255                             ## 0xff
	.byte	255                             ## 0xff
	.byte	0                               ## 0x0
	.byte	0                               ## 0x0
	.byte	255                             ## 0xff
	.byte	255                             ## 0xff
	.byte	0                               ## 0x0
	.byte	0                               ## 0x0
	.byte	255                             ## 0xff
	.byte	255                             ## 0xff
Ldeerlapse_0_1_0_CPI33_3:
	.byte	0                               ## 0x0
	.byte	0                               ## 0x0
	.byte	0                               ## 0x0
	.byte	0                               ## 0x0
	.byte	255                             ## 0xff
	.byte	255                             ## 0xff
	.byte	255                             ## 0xff
	.byte	255                             ## 0xff
	.byte	0                               ## 0x0
	.byte	0                               ## 0x0
	.byte	0                               ## 0x0
	.byte	0                               ## 0x0
	.byte	255                             ## 0xff
	.byte	255                             ## 0xff
	.byte	255                             ## 0xff
	.byte	255                             ## 0xff
Ldeerlapse_0_1_0_CPI33_4:
	.byte	0                               ## 0x0
	.byte	0                               ## 0x0
	.byte	0                               ## 0x0
	.byte	0                               ## 0x0
	.byte	0                               ## 0x0
	.byte	0                               ## 0x0
	.byte	0                               ## 0x0
	.byte	0                               ## 0x0
	.byte	255                             ## 0xff
	.byte	255                             ## 0xff
	.byte	255                             ## 0xff
	.byte	255                             ## 0xff
	.byte	255                             ## 0xff
	.byte	255                             ## 0xff
	.byte	255                             ## 0xff
	.byte	255                             ## 0xff
Ldeerlapse_0_1_0_CPI33_5:
	.space	16,192
Ldeerlapse_0_1_0_CPI33_6:
	.space	16,63
Ldeerlapse_0_1_0_CPI33_7:
	.space	16,1
Ldeerlapse_0_1_0_CPI33_8:
	.space	16,127
	.section	__TEXT,__text,regular,pure_instructions
	.p2align	4
"_deerlapse_0_1_0::aead_ciphers_wide::aes_gcm::ExpandedKey::expand_with_width": ## @"aead_ciphers_wide::aes_gcm::ExpandedKey::expand_with_width"
	.cfi_startproc
## %bb.0:                               ## %start
	pushq	%rbp
	.cfi_def_cfa_offset 16
	pushq	%r15
	.cfi_def_cfa_offset 24
	pushq	%r14
	.cfi_def_cfa_offset 32
	pushq	%r12
	.cfi_def_cfa_offset 40
	pushq	%rbx
	.cfi_def_cfa_offset 48
	subq	$48, %rsp
	.cfi_def_cfa_offset 96
	.cfi_offset %rbx, -48
	.cfi_offset %r12, -40
	.cfi_offset %r14, -32
	.cfi_offset %r15, -24
	.cfi_offset %rbp, -16
	movq	%r8, %r14
	movl	%ecx, %ebp
	movq	%rdi, %rbx
	leaq	1928(%rdi), %r15
	movq	%r15, %rdi
	callq	"_deerlapse_0_1_0::aead_ciphers_wide::aes::expand"
	movq	%rax, %r12
	leaq	1408(%rbx), %rdi
	movl	$512, %esi                      ## imm = 0x200
	callq	___bzero
	movq	%r12, %rax
	shlq	$4, %rax
	addq	$16, %rax
	xorl	%ecx, %ecx
	.p2align	4
Ldeerlapse_0_1_0_BB33_1:                                ## %join.7.i
                                        ## =>This Inner Loop Header: Depth=1
	movdqu	1928(%rbx,%rcx), %xmm0
	movdqa	Ldeerlapse_0_1_0_CPI33_0(%rip), %xmm2           ## xmm2 = [15,15,15,15,15,15,15,15,15,15,15,15,15,15,15,15]
	movdqa	%xmm0, %xmm1
	pand	%xmm2, %xmm1
	psrlw	$4, %xmm0
	pand	%xmm2, %xmm0
	movdqa	Ldeerlapse_0_1_0_CPI33_1(%rip), %xmm2           ## xmm2 = [0,255,0,255,0,255,0,255,0,255,0,255,0,255,0,255]
	movdqa	%xmm2, %xmm3
	pshufb	%xmm1, %xmm3
	movdqa	Ldeerlapse_0_1_0_CPI33_2(%rip), %xmm4           ## xmm4 = [0,0,255,255,0,0,255,255,0,0,255,255,0,0,255,255]
	movdqa	%xmm4, %xmm5
	pshufb	%xmm1, %xmm5
	movdqa	Ldeerlapse_0_1_0_CPI33_3(%rip), %xmm6           ## xmm6 = [0,0,0,0,255,255,255,255,0,0,0,0,255,255,255,255]
	movdqa	%xmm6, %xmm7
	pshufb	%xmm1, %xmm7
	movdqa	Ldeerlapse_0_1_0_CPI33_4(%rip), %xmm8           ## xmm8 = [0,0,0,0,0,0,0,0,255,255,255,255,255,255,255,255]
	movdqa	%xmm8, %xmm9
	pshufb	%xmm1, %xmm9
	pshufb	%xmm0, %xmm2
	pshufb	%xmm0, %xmm4
	pshufb	%xmm0, %xmm6
	pshufb	%xmm0, %xmm8
	movdqu	%xmm3, (%rbx,%rcx,8)
	movdqu	%xmm5, 16(%rbx,%rcx,8)
	movdqu	%xmm7, 32(%rbx,%rcx,8)
	movdqu	%xmm9, 48(%rbx,%rcx,8)
	movdqu	%xmm2, 64(%rbx,%rcx,8)
	movdqu	%xmm4, 80(%rbx,%rcx,8)
	movdqu	%xmm6, 96(%rbx,%rcx,8)
	movdqu	%xmm8, 112(%rbx,%rcx,8)
	addq	$16, %rcx
	cmpq	%rcx, %rax
	jne	Ldeerlapse_0_1_0_BB33_1
## %bb.2:                               ## %"aead_ciphers_wide::aes::round_keys::write_planes.exit"
	movl	%r12d, 1920(%rbx)
	movzbl	%bpl, %eax
	shll	$7, %eax
	subl	$-128, %eax
	movl	%eax, 1924(%rbx)
	pxor	%xmm0, %xmm0
	movdqa	%xmm0, 32(%rsp)
	movdqa	%xmm0, (%rsp)
	incq	(%r14)
	movq	%rsp, %rdi
	leaq	32(%rsp), %rcx
	movq	%r15, %rsi
	movq	%r12, %rdx
	callq	"_deerlapse_0_1_0::aead_ciphers_wide::aes::block_key::BlockKeyRef::encrypt_one"
	movq	(%rsp), %rdx
	movq	8(%rsp), %rsi
	movaps	(%rsp), %xmm0
	movaps	%xmm0, 16(%rsp)                 ## 16-byte Spill
	leaq	2168(%rbx), %rdi
	leaq	2680(%rbx), %r14
	bswapq	%rsi
	bswapq	%rdx
	callq	"_deerlapse_0_1_0::aead_ciphers_wide::gcm::product::write_products"
	movdqa	16(%rsp), %xmm3                 ## 16-byte Reload
	movdqa	%xmm3, %xmm1
	psrlw	$4, %xmm1
	movdqa	Ldeerlapse_0_1_0_CPI33_0(%rip), %xmm0           ## xmm0 = [15,15,15,15,15,15,15,15,15,15,15,15,15,15,15,15]
	pand	%xmm0, %xmm1
	pand	%xmm0, %xmm3
	movdqu	2408(%rbx), %xmm2
	pshufb	%xmm1, %xmm2
	movdqu	2664(%rbx), %xmm0
	pshufb	%xmm3, %xmm0
	movdqa	%xmm3, %xmm8
	pxor	%xmm2, %xmm0
	movdqa	%xmm0, %xmm2
	pslldq	$1, %xmm2                       ## xmm2 = zero,xmm2[0,1,2,3,4,5,6,7,8,9,10,11,12,13,14]
	psrldq	$15, %xmm0                      ## xmm0 = xmm0[15],zero,zero,zero,zero,zero,zero,zero,zero,zero,zero,zero,zero,zero,zero,zero
	movdqu	2392(%rbx), %xmm3
	pshufb	%xmm1, %xmm3
	movdqu	2648(%rbx), %xmm4
	pshufb	%xmm8, %xmm4
	pxor	%xmm3, %xmm4
	pxor	%xmm2, %xmm4
	palignr	$15, %xmm4, %xmm0               ## xmm0 = xmm4[15],xmm0[0,1,2,3,4,5,6,7,8,9,10,11,12,13,14]
	pslldq	$1, %xmm4                       ## xmm4 = zero,xmm4[0,1,2,3,4,5,6,7,8,9,10,11,12,13,14]
	movdqu	2376(%rbx), %xmm2
	pshufb	%xmm1, %xmm2
	movdqu	2632(%rbx), %xmm3
	pshufb	%xmm8, %xmm3
	pxor	%xmm2, %xmm3
	pxor	%xmm4, %xmm3
	palignr	$15, %xmm3, %xmm0               ## xmm0 = xmm3[15],xmm0[0,1,2,3,4,5,6,7,8,9,10,11,12,13,14]
	pslldq	$1, %xmm3                       ## xmm3 = zero,xmm3[0,1,2,3,4,5,6,7,8,9,10,11,12,13,14]
	movdqu	2360(%rbx), %xmm2
	pshufb	%xmm1, %xmm2
	movdqu	2616(%rbx), %xmm4
	pshufb	%xmm8, %xmm4
	pxor	%xmm2, %xmm4
	pxor	%xmm3, %xmm4
	palignr	$15, %xmm4, %xmm0               ## xmm0 = xmm4[15],xmm0[0,1,2,3,4,5,6,7,8,9,10,11,12,13,14]
	pslldq	$1, %xmm4                       ## xmm4 = zero,xmm4[0,1,2,3,4,5,6,7,8,9,10,11,12,13,14]
	movdqu	2344(%rbx), %xmm2
	pshufb	%xmm1, %xmm2
	movdqu	2600(%rbx), %xmm3
	pshufb	%xmm8, %xmm3
	pxor	%xmm2, %xmm3
	pxor	%xmm4, %xmm3
	palignr	$15, %xmm3, %xmm0               ## xmm0 = xmm3[15],xmm0[0,1,2,3,4,5,6,7,8,9,10,11,12,13,14]
	pslldq	$1, %xmm3                       ## xmm3 = zero,xmm3[0,1,2,3,4,5,6,7,8,9,10,11,12,13,14]
	movdqu	2328(%rbx), %xmm2
	pshufb	%xmm1, %xmm2
	movdqu	2584(%rbx), %xmm4
	pshufb	%xmm8, %xmm4
	pxor	%xmm2, %xmm4
	pxor	%xmm3, %xmm4
	palignr	$15, %xmm4, %xmm0               ## xmm0 = xmm4[15],xmm0[0,1,2,3,4,5,6,7,8,9,10,11,12,13,14]
	pslldq	$1, %xmm4                       ## xmm4 = zero,xmm4[0,1,2,3,4,5,6,7,8,9,10,11,12,13,14]
	movdqu	2312(%rbx), %xmm2
	pshufb	%xmm1, %xmm2
	movdqu	2568(%rbx), %xmm3
	pshufb	%xmm8, %xmm3
	pxor	%xmm2, %xmm3
	pxor	%xmm4, %xmm3
	palignr	$15, %xmm3, %xmm0               ## xmm0 = xmm3[15],xmm0[0,1,2,3,4,5,6,7,8,9,10,11,12,13,14]
	pslldq	$1, %xmm3                       ## xmm3 = zero,xmm3[0,1,2,3,4,5,6,7,8,9,10,11,12,13,14]
	movdqu	2296(%rbx), %xmm2
	pshufb	%xmm1, %xmm2
	movdqu	2552(%rbx), %xmm4
	pshufb	%xmm8, %xmm4
	pxor	%xmm2, %xmm4
	pxor	%xmm3, %xmm4
	palignr	$15, %xmm4, %xmm0               ## xmm0 = xmm4[15],xmm0[0,1,2,3,4,5,6,7,8,9,10,11,12,13,14]
	pslldq	$1, %xmm4                       ## xmm4 = zero,xmm4[0,1,2,3,4,5,6,7,8,9,10,11,12,13,14]
	movdqu	2280(%rbx), %xmm2
	pshufb	%xmm1, %xmm2
	movdqu	2536(%rbx), %xmm3
	pshufb	%xmm8, %xmm3
	pxor	%xmm2, %xmm3
	pxor	%xmm4, %xmm3
	palignr	$15, %xmm3, %xmm0               ## xmm0 = xmm3[15],xmm0[0,1,2,3,4,5,6,7,8,9,10,11,12,13,14]
	pslldq	$1, %xmm3                       ## xmm3 = zero,xmm3[0,1,2,3,4,5,6,7,8,9,10,11,12,13,14]
	movdqu	2264(%rbx), %xmm2
	pshufb	%xmm1, %xmm2
	movdqu	2520(%rbx), %xmm4
	pshufb	%xmm8, %xmm4
	pxor	%xmm2, %xmm4
	pxor	%xmm3, %xmm4
	palignr	$15, %xmm4, %xmm0               ## xmm0 = xmm4[15],xmm0[0,1,2,3,4,5,6,7,8,9,10,11,12,13,14]
	pslldq	$1, %xmm4                       ## xmm4 = zero,xmm4[0,1,2,3,4,5,6,7,8,9,10,11,12,13,14]
	movdqu	2248(%rbx), %xmm2
	pshufb	%xmm1, %xmm2
	movdqu	2504(%rbx), %xmm3
	pshufb	%xmm8, %xmm3
	pxor	%xmm2, %xmm3
	pxor	%xmm4, %xmm3
	palignr	$15, %xmm3, %xmm0               ## xmm0 = xmm3[15],xmm0[0,1,2,3,4,5,6,7,8,9,10,11,12,13,14]
	pslldq	$1, %xmm3                       ## xmm3 = zero,xmm3[0,1,2,3,4,5,6,7,8,9,10,11,12,13,14]
	movdqu	2232(%rbx), %xmm2
	pshufb	%xmm1, %xmm2
	movdqu	2488(%rbx), %xmm4
	pshufb	%xmm8, %xmm4
	pxor	%xmm2, %xmm4
	pxor	%xmm3, %xmm4
	palignr	$15, %xmm4, %xmm0               ## xmm0 = xmm4[15],xmm0[0,1,2,3,4,5,6,7,8,9,10,11,12,13,14]
	pslldq	$1, %xmm4                       ## xmm4 = zero,xmm4[0,1,2,3,4,5,6,7,8,9,10,11,12,13,14]
	movdqu	2168(%rbx), %xmm2
	movdqu	2184(%rbx), %xmm3
	movdqu	2200(%rbx), %xmm5
	movdqu	2216(%rbx), %xmm6
	pshufb	%xmm1, %xmm6
	movdqu	2472(%rbx), %xmm7
	pshufb	%xmm8, %xmm7
	pxor	%xmm6, %xmm7
	pxor	%xmm4, %xmm7
	palignr	$15, %xmm7, %xmm0               ## xmm0 = xmm7[15],xmm0[0,1,2,3,4,5,6,7,8,9,10,11,12,13,14]
	pslldq	$1, %xmm7                       ## xmm7 = zero,xmm7[0,1,2,3,4,5,6,7,8,9,10,11,12,13,14]
	pshufb	%xmm1, %xmm5
	movdqu	2456(%rbx), %xmm4
	pshufb	%xmm8, %xmm4
	pxor	%xmm5, %xmm4
	pxor	%xmm7, %xmm4
	palignr	$15, %xmm4, %xmm0               ## xmm0 = xmm4[15],xmm0[0,1,2,3,4,5,6,7,8,9,10,11,12,13,14]
	pslldq	$1, %xmm4                       ## xmm4 = zero,xmm4[0,1,2,3,4,5,6,7,8,9,10,11,12,13,14]
	pshufb	%xmm1, %xmm3
	movdqu	2440(%rbx), %xmm5
	pshufb	%xmm8, %xmm5
	pxor	%xmm3, %xmm5
	pxor	%xmm4, %xmm5
	palignr	$15, %xmm5, %xmm0               ## xmm0 = xmm5[15],xmm0[0,1,2,3,4,5,6,7,8,9,10,11,12,13,14]
	pslldq	$1, %xmm5                       ## xmm5 = zero,xmm5[0,1,2,3,4,5,6,7,8,9,10,11,12,13,14]
	pshufb	%xmm1, %xmm2
	pxor	%xmm5, %xmm2
	movdqu	2424(%rbx), %xmm3
	pshufb	%xmm8, %xmm3
	pxor	%xmm2, %xmm3
	movdqa	%xmm0, %xmm1
	pslldq	$1, %xmm1                       ## xmm1 = zero,xmm1[0,1,2,3,4,5,6,7,8,9,10,11,12,13,14]
	movdqa	%xmm1, %xmm2
	paddb	%xmm1, %xmm2
	pxor	%xmm2, %xmm1
	psllw	$6, %xmm1
	pand	Ldeerlapse_0_1_0_CPI33_5(%rip), %xmm1
	movdqa	%xmm0, %xmm4
	psrlw	$7, %xmm4
	pand	Ldeerlapse_0_1_0_CPI33_7(%rip), %xmm4
	por	%xmm2, %xmm4
	movdqa	%xmm0, %xmm2
	psrlw	$1, %xmm2
	pand	Ldeerlapse_0_1_0_CPI33_8(%rip), %xmm2
	pxor	%xmm3, %xmm2
	pxor	%xmm4, %xmm2
	pxor	%xmm0, %xmm2
	psrlw	$2, %xmm0
	pand	Ldeerlapse_0_1_0_CPI33_6(%rip), %xmm0
	por	%xmm1, %xmm0
	pxor	%xmm0, %xmm2
	movq	%xmm2, %rdx
	pextrq	$1, %xmm2, %rsi
	bswapq	%rsi
	bswapq	%rdx
	movq	%r14, %rdi
	addq	$48, %rsp
	popq	%rbx
	popq	%r12
	popq	%r14
	popq	%r15
	popq	%rbp
	jmp	"_deerlapse_0_1_0::aead_ciphers_wide::gcm::product::write_products" ## TAILCALL
	.cfi_endproc
                                        ## -- End function
	.p2align	4                               ## -- Begin function aead_ciphers_wide::gcm::product::write_products
"_deerlapse_0_1_0::aead_ciphers_wide::gcm::product::write_products": ## @"aead_ciphers_wide::gcm::product::write_products"
	.cfi_startproc
## %bb.0:                               ## %start
	pushq	%r15
	.cfi_def_cfa_offset 16
	pushq	%r14
	.cfi_def_cfa_offset 24
	pushq	%rbx
	.cfi_def_cfa_offset 32
	.cfi_offset %rbx, -32
	.cfi_offset %r14, -24
	.cfi_offset %r15, -16
	movq	%rdx, %r11
	shldq	$63, %rsi, %r11
	movq	%rdx, %r10
	shrq	%r10
	movl	%esi, %ebx
	andl	$1, %ebx
	negq	%rbx
	movabsq	$-2233785415175766016, %rax     ## imm = 0xE100000000000000
	andq	%rax, %rbx
	xorq	%r10, %rbx
	shldq	$63, %r11, %r10
	movq	%rbx, %r9
	shrq	%r9
	movq	%rsi, %r14
	shlq	$62, %r14
	sarq	$63, %r14
	andq	%rax, %r14
	xorq	%r9, %r14
	shldq	$63, %r10, %r9
	movq	%r14, %r8
	shrq	%r8
	movq	%rsi, %rcx
	shlq	$61, %rcx
	sarq	$63, %rcx
	andq	%rax, %rcx
	bswapq	%rdx
	xorq	%r8, %rcx
	movq	%rsi, %r15
	bswapq	%r15
	movq	%r15, %xmm0
	movq	%rdx, %xmm2
	bswapq	%rbx
	punpcklqdq	%xmm0, %xmm2            ## xmm2 = xmm2[0],xmm0[0]
	bswapq	%r11
	movq	%r11, %xmm0
	movq	%rbx, %xmm3
	punpcklqdq	%xmm0, %xmm3            ## xmm3 = xmm3[0],xmm0[0]
	bswapq	%r14
	bswapq	%r10
	movq	%r14, %xmm1
	movq	%r10, %xmm0
	punpcklqdq	%xmm0, %xmm1            ## xmm1 = xmm1[0],xmm0[0]
	movq	%rcx, %rdx
	bswapq	%rdx
	movq	%r9, %r10
	bswapq	%r10
	movq	%r10, %xmm0
	movq	%rdx, %xmm4
	punpcklqdq	%xmm0, %xmm4            ## xmm4 = xmm4[0],xmm0[0]
	pxor	%xmm9, %xmm9
	punpcklbw	%xmm3, %xmm9            ## xmm9 = xmm9[0],xmm3[0],xmm9[1],xmm3[1],xmm9[2],xmm3[2],xmm9[3],xmm3[3],xmm9[4],xmm3[4],xmm9[5],xmm3[5],xmm9[6],xmm3[6],xmm9[7],xmm3[7]
	pxor	%xmm10, %xmm10
	punpckhbw	%xmm3, %xmm10           ## xmm10 = xmm10[8],xmm3[8],xmm10[9],xmm3[9],xmm10[10],xmm3[10],xmm10[11],xmm3[11],xmm10[12],xmm3[12],xmm10[13],xmm3[13],xmm10[14],xmm3[14],xmm10[15],xmm3[15]
	pxor	%xmm2, %xmm3
	movdqa	%xmm2, %xmm5
	punpcklbw	%xmm3, %xmm5            ## xmm5 = xmm5[0],xmm3[0],xmm5[1],xmm3[1],xmm5[2],xmm3[2],xmm5[3],xmm3[3],xmm5[4],xmm3[4],xmm5[5],xmm3[5],xmm5[6],xmm3[6],xmm5[7],xmm3[7]
	punpckhbw	%xmm3, %xmm2            ## xmm2 = xmm2[8],xmm3[8],xmm2[9],xmm3[9],xmm2[10],xmm3[10],xmm2[11],xmm3[11],xmm2[12],xmm3[12],xmm2[13],xmm3[13],xmm2[14],xmm3[14],xmm2[15],xmm3[15]
	movdqa	%xmm9, %xmm7
	punpcklwd	%xmm5, %xmm7            ## xmm7 = xmm7[0],xmm5[0],xmm7[1],xmm5[1],xmm7[2],xmm5[2],xmm7[3],xmm5[3]
	punpckhwd	%xmm5, %xmm9            ## xmm9 = xmm9[4],xmm5[4],xmm9[5],xmm5[5],xmm9[6],xmm5[6],xmm9[7],xmm5[7]
	movdqa	%xmm10, %xmm6
	punpcklwd	%xmm2, %xmm6            ## xmm6 = xmm6[0],xmm2[0],xmm6[1],xmm2[1],xmm6[2],xmm2[2],xmm6[3],xmm2[3]
	punpckhwd	%xmm2, %xmm10           ## xmm10 = xmm10[4],xmm2[4],xmm10[5],xmm2[5],xmm10[6],xmm2[6],xmm10[7],xmm2[7]
	pxor	%xmm11, %xmm11
	punpcklbw	%xmm4, %xmm11           ## xmm11 = xmm11[0],xmm4[0],xmm11[1],xmm4[1],xmm11[2],xmm4[2],xmm11[3],xmm4[3],xmm11[4],xmm4[4],xmm11[5],xmm4[5],xmm11[6],xmm4[6],xmm11[7],xmm4[7]
	pxor	%xmm2, %xmm2
	punpckhbw	%xmm4, %xmm2            ## xmm2 = xmm2[8],xmm4[8],xmm2[9],xmm4[9],xmm2[10],xmm4[10],xmm2[11],xmm4[11],xmm2[12],xmm4[12],xmm2[13],xmm4[13],xmm2[14],xmm4[14],xmm2[15],xmm4[15]
	pxor	%xmm1, %xmm4
	movdqa	%xmm1, %xmm3
	punpcklbw	%xmm4, %xmm3            ## xmm3 = xmm3[0],xmm4[0],xmm3[1],xmm4[1],xmm3[2],xmm4[2],xmm3[3],xmm4[3],xmm3[4],xmm4[4],xmm3[5],xmm4[5],xmm3[6],xmm4[6],xmm3[7],xmm4[7]
	punpckhbw	%xmm4, %xmm1            ## xmm1 = xmm1[8],xmm4[8],xmm1[9],xmm4[9],xmm1[10],xmm4[10],xmm1[11],xmm4[11],xmm1[12],xmm4[12],xmm1[13],xmm4[13],xmm1[14],xmm4[14],xmm1[15],xmm4[15]
	movdqa	%xmm11, %xmm5
	punpcklwd	%xmm3, %xmm5            ## xmm5 = xmm5[0],xmm3[0],xmm5[1],xmm3[1],xmm5[2],xmm3[2],xmm5[3],xmm3[3]
	punpckhwd	%xmm3, %xmm11           ## xmm11 = xmm11[4],xmm3[4],xmm11[5],xmm3[5],xmm11[6],xmm3[6],xmm11[7],xmm3[7]
	movdqa	%xmm2, %xmm12
	punpcklwd	%xmm1, %xmm12           ## xmm12 = xmm12[0],xmm1[0],xmm12[1],xmm1[1],xmm12[2],xmm1[2],xmm12[3],xmm1[3]
	punpckhwd	%xmm1, %xmm2            ## xmm2 = xmm2[4],xmm1[4],xmm2[5],xmm1[5],xmm2[6],xmm1[6],xmm2[7],xmm1[7]
	movdqa	%xmm7, %xmm1
	punpcklbw	%xmm7, %xmm1            ## xmm1 = xmm1[0],xmm7[0],xmm1[1],xmm7[1],xmm1[2],xmm7[2],xmm1[3],xmm7[3],xmm1[4],xmm7[4],xmm1[5],xmm7[5],xmm1[6],xmm7[6],xmm1[7],xmm7[7]
	movdqa	%xmm1, %xmm3
	punpcklwd	%xmm1, %xmm3            ## xmm3 = xmm3[0],xmm1[0],xmm3[1],xmm1[1],xmm3[2],xmm1[2],xmm3[3],xmm1[3]
	pshufd	$0, %xmm5, %xmm0                ## xmm0 = xmm5[0,0,0,0]
	pxor	%xmm3, %xmm0
	movdqa	%xmm0, -16(%rsp)                ## 16-byte Spill
	punpckhwd	%xmm1, %xmm1            ## xmm1 = xmm1[4,4,5,5,6,6,7,7]
	pshufd	$85, %xmm5, %xmm0               ## xmm0 = xmm5[1,1,1,1]
	pxor	%xmm1, %xmm0
	movdqa	%xmm0, -32(%rsp)                ## 16-byte Spill
	punpckhbw	%xmm7, %xmm7            ## xmm7 = xmm7[8,8,9,9,10,10,11,11,12,12,13,13,14,14,15,15]
	movdqa	%xmm7, %xmm1
	punpcklwd	%xmm7, %xmm1            ## xmm1 = xmm1[0],xmm7[0],xmm1[1],xmm7[1],xmm1[2],xmm7[2],xmm1[3],xmm7[3]
	pshufd	$170, %xmm5, %xmm4              ## xmm4 = xmm5[2,2,2,2]
	pxor	%xmm1, %xmm4
	punpckhwd	%xmm7, %xmm7            ## xmm7 = xmm7[4,4,5,5,6,6,7,7]
	pshufd	$255, %xmm5, %xmm5              ## xmm5 = xmm5[3,3,3,3]
	pxor	%xmm7, %xmm5
	movdqa	%xmm9, %xmm1
	punpcklbw	%xmm9, %xmm1            ## xmm1 = xmm1[0],xmm9[0],xmm1[1],xmm9[1],xmm1[2],xmm9[2],xmm1[3],xmm9[3],xmm1[4],xmm9[4],xmm1[5],xmm9[5],xmm1[6],xmm9[6],xmm1[7],xmm9[7]
	movdqa	%xmm1, %xmm8
	punpcklwd	%xmm1, %xmm8            ## xmm8 = xmm8[0],xmm1[0],xmm8[1],xmm1[1],xmm8[2],xmm1[2],xmm8[3],xmm1[3]
	pshufd	$0, %xmm11, %xmm7               ## xmm7 = xmm11[0,0,0,0]
	pxor	%xmm8, %xmm7
	punpckhwd	%xmm1, %xmm1            ## xmm1 = xmm1[4,4,5,5,6,6,7,7]
	pshufd	$85, %xmm11, %xmm8              ## xmm8 = xmm11[1,1,1,1]
	pxor	%xmm1, %xmm8
	punpckhbw	%xmm9, %xmm9            ## xmm9 = xmm9[8,8,9,9,10,10,11,11,12,12,13,13,14,14,15,15]
	movdqa	%xmm9, %xmm1
	punpcklwd	%xmm9, %xmm1            ## xmm1 = xmm1[0],xmm9[0],xmm1[1],xmm9[1],xmm1[2],xmm9[2],xmm1[3],xmm9[3]
	pshufd	$170, %xmm11, %xmm3             ## xmm3 = xmm11[2,2,2,2]
	pxor	%xmm1, %xmm3
	punpckhwd	%xmm9, %xmm9            ## xmm9 = xmm9[4,4,5,5,6,6,7,7]
	pshufd	$255, %xmm11, %xmm11            ## xmm11 = xmm11[3,3,3,3]
	pxor	%xmm9, %xmm11
	movdqa	%xmm6, %xmm1
	punpcklbw	%xmm6, %xmm1            ## xmm1 = xmm1[0],xmm6[0],xmm1[1],xmm6[1],xmm1[2],xmm6[2],xmm1[3],xmm6[3],xmm1[4],xmm6[4],xmm1[5],xmm6[5],xmm1[6],xmm6[6],xmm1[7],xmm6[7]
	movdqa	%xmm1, %xmm13
	punpcklwd	%xmm1, %xmm13           ## xmm13 = xmm13[0],xmm1[0],xmm13[1],xmm1[1],xmm13[2],xmm1[2],xmm13[3],xmm1[3]
	pshufd	$0, %xmm12, %xmm9               ## xmm9 = xmm12[0,0,0,0]
	pxor	%xmm13, %xmm9
	punpckhwd	%xmm1, %xmm1            ## xmm1 = xmm1[4,4,5,5,6,6,7,7]
	pshufd	$85, %xmm12, %xmm13             ## xmm13 = xmm12[1,1,1,1]
	pxor	%xmm1, %xmm13
	punpckhbw	%xmm6, %xmm6            ## xmm6 = xmm6[8,8,9,9,10,10,11,11,12,12,13,13,14,14,15,15]
	movdqa	%xmm6, %xmm1
	punpcklwd	%xmm6, %xmm1            ## xmm1 = xmm1[0],xmm6[0],xmm1[1],xmm6[1],xmm1[2],xmm6[2],xmm1[3],xmm6[3]
	pshufd	$170, %xmm12, %xmm14            ## xmm14 = xmm12[2,2,2,2]
	pxor	%xmm1, %xmm14
	punpckhwd	%xmm6, %xmm6            ## xmm6 = xmm6[4,4,5,5,6,6,7,7]
	pshufd	$255, %xmm12, %xmm12            ## xmm12 = xmm12[3,3,3,3]
	pxor	%xmm6, %xmm12
	movdqa	%xmm10, %xmm1
	punpcklbw	%xmm10, %xmm1           ## xmm1 = xmm1[0],xmm10[0],xmm1[1],xmm10[1],xmm1[2],xmm10[2],xmm1[3],xmm10[3],xmm1[4],xmm10[4],xmm1[5],xmm10[5],xmm1[6],xmm10[6],xmm1[7],xmm10[7]
	movdqa	%xmm1, %xmm15
	punpcklwd	%xmm1, %xmm15           ## xmm15 = xmm15[0],xmm1[0],xmm15[1],xmm1[1],xmm15[2],xmm1[2],xmm15[3],xmm1[3]
	pshufd	$0, %xmm2, %xmm6                ## xmm6 = xmm2[0,0,0,0]
	pxor	%xmm15, %xmm6
	punpckhwd	%xmm1, %xmm1            ## xmm1 = xmm1[4,4,5,5,6,6,7,7]
	pshufd	$85, %xmm2, %xmm15              ## xmm15 = xmm2[1,1,1,1]
	pxor	%xmm1, %xmm15
	punpckhbw	%xmm10, %xmm10          ## xmm10 = xmm10[8,8,9,9,10,10,11,11,12,12,13,13,14,14,15,15]
	movdqa	%xmm10, %xmm0
	punpcklwd	%xmm10, %xmm0           ## xmm0 = xmm0[0],xmm10[0],xmm0[1],xmm10[1],xmm0[2],xmm10[2],xmm0[3],xmm10[3]
	pshufd	$170, %xmm2, %xmm1              ## xmm1 = xmm2[2,2,2,2]
	pxor	%xmm0, %xmm1
	punpckhwd	%xmm10, %xmm10          ## xmm10 = xmm10[4,4,5,5,6,6,7,7]
	pshufd	$255, %xmm2, %xmm2              ## xmm2 = xmm2[3,3,3,3]
	pxor	%xmm10, %xmm2
	shldq	$63, %r9, %r8
	movdqa	-16(%rsp), %xmm0                ## 16-byte Reload
	movdqu	%xmm0, (%rdi)
	pxor	%xmm0, %xmm0
	movaps	-32(%rsp), %xmm10               ## 16-byte Reload
	movups	%xmm10, 16(%rdi)
	movdqu	%xmm4, 32(%rdi)
	movdqu	%xmm5, 48(%rdi)
	movdqu	%xmm7, 64(%rdi)
	movdqu	%xmm8, 80(%rdi)
	movdqu	%xmm3, 96(%rdi)
	movdqu	%xmm11, 112(%rdi)
	movdqu	%xmm9, 128(%rdi)
	movdqu	%xmm13, 144(%rdi)
	movdqu	%xmm14, 160(%rdi)
	movdqu	%xmm12, 176(%rdi)
	movdqu	%xmm6, 192(%rdi)
	movdqu	%xmm15, 208(%rdi)
	movdqu	%xmm1, 224(%rdi)
	shrq	%rcx
	movq	%rsi, %r10
	shlq	$60, %r10
	sarq	$63, %r10
	andq	%rax, %r10
	xorq	%rcx, %r10
	shldq	$63, %r8, %rcx
	movdqu	%xmm2, 240(%rdi)
	movq	%r10, %rdx
	shrq	%rdx
	movq	%rsi, %r11
	shlq	$59, %r11
	sarq	$63, %r11
	andq	%rax, %r11
	xorq	%rdx, %r11
	shldq	$63, %rcx, %rdx
	movq	%r11, %r9
	shrq	%r9
	movq	%rsi, %rbx
	shlq	$58, %rbx
	sarq	$63, %rbx
	andq	%rax, %rbx
	xorq	%r9, %rbx
	shldq	$63, %rdx, %r9
	movq	%rbx, %r14
	shrq	%r14
	shlq	$57, %rsi
	sarq	$63, %rsi
	andq	%rax, %rsi
	bswapq	%r8
	bswapq	%r10
	xorq	%r14, %rsi
	movq	%r8, %xmm1
	movq	%r10, %xmm4
	punpcklqdq	%xmm1, %xmm4            ## xmm4 = xmm4[0],xmm1[0]
	bswapq	%rcx
	bswapq	%r11
	movq	%rcx, %xmm1
	movq	%r11, %xmm2
	bswapq	%rdx
	punpcklqdq	%xmm1, %xmm2            ## xmm2 = xmm2[0],xmm1[0]
	bswapq	%rbx
	movq	%rdx, %xmm1
	movq	%rbx, %xmm3
	punpcklqdq	%xmm1, %xmm3            ## xmm3 = xmm3[0],xmm1[0]
	bswapq	%r9
	bswapq	%rsi
	movq	%r9, %xmm1
	movq	%rsi, %xmm6
	punpcklqdq	%xmm1, %xmm6            ## xmm6 = xmm6[0],xmm1[0]
	pxor	%xmm5, %xmm5
	punpcklbw	%xmm2, %xmm5            ## xmm5 = xmm5[0],xmm2[0],xmm5[1],xmm2[1],xmm5[2],xmm2[2],xmm5[3],xmm2[3],xmm5[4],xmm2[4],xmm5[5],xmm2[5],xmm5[6],xmm2[6],xmm5[7],xmm2[7]
	pxor	%xmm1, %xmm1
	punpckhbw	%xmm2, %xmm1            ## xmm1 = xmm1[8],xmm2[8],xmm1[9],xmm2[9],xmm1[10],xmm2[10],xmm1[11],xmm2[11],xmm1[12],xmm2[12],xmm1[13],xmm2[13],xmm1[14],xmm2[14],xmm1[15],xmm2[15]
	pxor	%xmm4, %xmm2
	movdqa	%xmm4, %xmm7
	punpcklbw	%xmm2, %xmm7            ## xmm7 = xmm7[0],xmm2[0],xmm7[1],xmm2[1],xmm7[2],xmm2[2],xmm7[3],xmm2[3],xmm7[4],xmm2[4],xmm7[5],xmm2[5],xmm7[6],xmm2[6],xmm7[7],xmm2[7]
	punpckhbw	%xmm2, %xmm4            ## xmm4 = xmm4[8],xmm2[8],xmm4[9],xmm2[9],xmm4[10],xmm2[10],xmm4[11],xmm2[11],xmm4[12],xmm2[12],xmm4[13],xmm2[13],xmm4[14],xmm2[14],xmm4[15],xmm2[15]
	movdqa	%xmm5, %xmm9
	punpcklwd	%xmm7, %xmm9            ## xmm9 = xmm9[0],xmm7[0],xmm9[1],xmm7[1],xmm9[2],xmm7[2],xmm9[3],xmm7[3]
	punpckhwd	%xmm7, %xmm5            ## xmm5 = xmm5[4],xmm7[4],xmm5[5],xmm7[5],xmm5[6],xmm7[6],xmm5[7],xmm7[7]
	movdqa	%xmm1, %xmm2
	punpcklwd	%xmm4, %xmm2            ## xmm2 = xmm2[0],xmm4[0],xmm2[1],xmm4[1],xmm2[2],xmm4[2],xmm2[3],xmm4[3]
	punpckhwd	%xmm4, %xmm1            ## xmm1 = xmm1[4],xmm4[4],xmm1[5],xmm4[5],xmm1[6],xmm4[6],xmm1[7],xmm4[7]
	pxor	%xmm11, %xmm11
	punpcklbw	%xmm6, %xmm11           ## xmm11 = xmm11[0],xmm6[0],xmm11[1],xmm6[1],xmm11[2],xmm6[2],xmm11[3],xmm6[3],xmm11[4],xmm6[4],xmm11[5],xmm6[5],xmm11[6],xmm6[6],xmm11[7],xmm6[7]
	punpckhbw	%xmm6, %xmm0            ## xmm0 = xmm0[8],xmm6[8],xmm0[9],xmm6[9],xmm0[10],xmm6[10],xmm0[11],xmm6[11],xmm0[12],xmm6[12],xmm0[13],xmm6[13],xmm0[14],xmm6[14],xmm0[15],xmm6[15]
	pxor	%xmm3, %xmm6
	movdqa	%xmm3, %xmm4
	punpcklbw	%xmm6, %xmm4            ## xmm4 = xmm4[0],xmm6[0],xmm4[1],xmm6[1],xmm4[2],xmm6[2],xmm4[3],xmm6[3],xmm4[4],xmm6[4],xmm4[5],xmm6[5],xmm4[6],xmm6[6],xmm4[7],xmm6[7]
	punpckhbw	%xmm6, %xmm3            ## xmm3 = xmm3[8],xmm6[8],xmm3[9],xmm6[9],xmm3[10],xmm6[10],xmm3[11],xmm6[11],xmm3[12],xmm6[12],xmm3[13],xmm6[13],xmm3[14],xmm6[14],xmm3[15],xmm6[15]
	movdqa	%xmm11, %xmm7
	punpcklwd	%xmm4, %xmm7            ## xmm7 = xmm7[0],xmm4[0],xmm7[1],xmm4[1],xmm7[2],xmm4[2],xmm7[3],xmm4[3]
	punpckhwd	%xmm4, %xmm11           ## xmm11 = xmm11[4],xmm4[4],xmm11[5],xmm4[5],xmm11[6],xmm4[6],xmm11[7],xmm4[7]
	movdqa	%xmm0, %xmm8
	punpcklwd	%xmm3, %xmm8            ## xmm8 = xmm8[0],xmm3[0],xmm8[1],xmm3[1],xmm8[2],xmm3[2],xmm8[3],xmm3[3]
	punpckhwd	%xmm3, %xmm0            ## xmm0 = xmm0[4],xmm3[4],xmm0[5],xmm3[5],xmm0[6],xmm3[6],xmm0[7],xmm3[7]
	movdqa	%xmm9, %xmm6
	punpcklbw	%xmm9, %xmm6            ## xmm6 = xmm6[0],xmm9[0],xmm6[1],xmm9[1],xmm6[2],xmm9[2],xmm6[3],xmm9[3],xmm6[4],xmm9[4],xmm6[5],xmm9[5],xmm6[6],xmm9[6],xmm6[7],xmm9[7]
	movdqa	%xmm6, %xmm4
	punpcklwd	%xmm6, %xmm4            ## xmm4 = xmm4[0],xmm6[0],xmm4[1],xmm6[1],xmm4[2],xmm6[2],xmm4[3],xmm6[3]
	pshufd	$0, %xmm7, %xmm3                ## xmm3 = xmm7[0,0,0,0]
	pxor	%xmm4, %xmm3
	movdqa	%xmm3, -16(%rsp)                ## 16-byte Spill
	punpckhwd	%xmm6, %xmm6            ## xmm6 = xmm6[4,4,5,5,6,6,7,7]
	pshufd	$85, %xmm7, %xmm3               ## xmm3 = xmm7[1,1,1,1]
	pxor	%xmm6, %xmm3
	movdqa	%xmm3, -32(%rsp)                ## 16-byte Spill
	punpckhbw	%xmm9, %xmm9            ## xmm9 = xmm9[8,8,9,9,10,10,11,11,12,12,13,13,14,14,15,15]
	movdqa	%xmm9, %xmm10
	punpcklwd	%xmm9, %xmm10           ## xmm10 = xmm10[0],xmm9[0],xmm10[1],xmm9[1],xmm10[2],xmm9[2],xmm10[3],xmm9[3]
	pshufd	$170, %xmm7, %xmm6              ## xmm6 = xmm7[2,2,2,2]
	pxor	%xmm10, %xmm6
	punpckhwd	%xmm9, %xmm9            ## xmm9 = xmm9[4,4,5,5,6,6,7,7]
	pshufd	$255, %xmm7, %xmm7              ## xmm7 = xmm7[3,3,3,3]
	pxor	%xmm9, %xmm7
	movdqa	%xmm5, %xmm12
	punpcklbw	%xmm5, %xmm12           ## xmm12 = xmm12[0],xmm5[0],xmm12[1],xmm5[1],xmm12[2],xmm5[2],xmm12[3],xmm5[3],xmm12[4],xmm5[4],xmm12[5],xmm5[5],xmm12[6],xmm5[6],xmm12[7],xmm5[7]
	movdqa	%xmm12, %xmm10
	punpcklwd	%xmm12, %xmm10          ## xmm10 = xmm10[0],xmm12[0],xmm10[1],xmm12[1],xmm10[2],xmm12[2],xmm10[3],xmm12[3]
	pshufd	$0, %xmm11, %xmm9               ## xmm9 = xmm11[0,0,0,0]
	pxor	%xmm10, %xmm9
	punpckhwd	%xmm12, %xmm12          ## xmm12 = xmm12[4,4,5,5,6,6,7,7]
	pshufd	$85, %xmm11, %xmm10             ## xmm10 = xmm11[1,1,1,1]
	pxor	%xmm12, %xmm10
	punpckhbw	%xmm5, %xmm5            ## xmm5 = xmm5[8,8,9,9,10,10,11,11,12,12,13,13,14,14,15,15]
	movdqa	%xmm5, %xmm13
	punpcklwd	%xmm5, %xmm13           ## xmm13 = xmm13[0],xmm5[0],xmm13[1],xmm5[1],xmm13[2],xmm5[2],xmm13[3],xmm5[3]
	pshufd	$170, %xmm11, %xmm12            ## xmm12 = xmm11[2,2,2,2]
	pxor	%xmm13, %xmm12
	punpckhwd	%xmm5, %xmm5            ## xmm5 = xmm5[4,4,5,5,6,6,7,7]
	pshufd	$255, %xmm11, %xmm11            ## xmm11 = xmm11[3,3,3,3]
	pxor	%xmm5, %xmm11
	movdqa	%xmm2, %xmm14
	punpcklbw	%xmm2, %xmm14           ## xmm14 = xmm14[0],xmm2[0],xmm14[1],xmm2[1],xmm14[2],xmm2[2],xmm14[3],xmm2[3],xmm14[4],xmm2[4],xmm14[5],xmm2[5],xmm14[6],xmm2[6],xmm14[7],xmm2[7]
	movdqa	%xmm14, %xmm13
	punpcklwd	%xmm14, %xmm13          ## xmm13 = xmm13[0],xmm14[0],xmm13[1],xmm14[1],xmm13[2],xmm14[2],xmm13[3],xmm14[3]
	pshufd	$0, %xmm8, %xmm5                ## xmm5 = xmm8[0,0,0,0]
	pxor	%xmm13, %xmm5
	punpckhwd	%xmm14, %xmm14          ## xmm14 = xmm14[4,4,5,5,6,6,7,7]
	pshufd	$85, %xmm8, %xmm13              ## xmm13 = xmm8[1,1,1,1]
	pxor	%xmm14, %xmm13
	punpckhbw	%xmm2, %xmm2            ## xmm2 = xmm2[8,8,9,9,10,10,11,11,12,12,13,13,14,14,15,15]
	movdqa	%xmm2, %xmm15
	punpcklwd	%xmm2, %xmm15           ## xmm15 = xmm15[0],xmm2[0],xmm15[1],xmm2[1],xmm15[2],xmm2[2],xmm15[3],xmm2[3]
	pshufd	$170, %xmm8, %xmm14             ## xmm14 = xmm8[2,2,2,2]
	pxor	%xmm15, %xmm14
	punpckhwd	%xmm2, %xmm2            ## xmm2 = xmm2[4,4,5,5,6,6,7,7]
	pshufd	$255, %xmm8, %xmm8              ## xmm8 = xmm8[3,3,3,3]
	pxor	%xmm2, %xmm8
	movdqa	%xmm1, %xmm2
	punpcklbw	%xmm1, %xmm2            ## xmm2 = xmm2[0],xmm1[0],xmm2[1],xmm1[1],xmm2[2],xmm1[2],xmm2[3],xmm1[3],xmm2[4],xmm1[4],xmm2[5],xmm1[5],xmm2[6],xmm1[6],xmm2[7],xmm1[7]
	movdqa	%xmm2, %xmm15
	punpcklwd	%xmm2, %xmm15           ## xmm15 = xmm15[0],xmm2[0],xmm15[1],xmm2[1],xmm15[2],xmm2[2],xmm15[3],xmm2[3]
	pshufd	$0, %xmm0, %xmm4                ## xmm4 = xmm0[0,0,0,0]
	pxor	%xmm15, %xmm4
	punpckhwd	%xmm2, %xmm2            ## xmm2 = xmm2[4,4,5,5,6,6,7,7]
	pshufd	$85, %xmm0, %xmm15              ## xmm15 = xmm0[1,1,1,1]
	pxor	%xmm2, %xmm15
	punpckhbw	%xmm1, %xmm1            ## xmm1 = xmm1[8,8,9,9,10,10,11,11,12,12,13,13,14,14,15,15]
	movdqa	%xmm1, %xmm2
	punpcklwd	%xmm1, %xmm2            ## xmm2 = xmm2[0],xmm1[0],xmm2[1],xmm1[1],xmm2[2],xmm1[2],xmm2[3],xmm1[3]
	pshufd	$170, %xmm0, %xmm3              ## xmm3 = xmm0[2,2,2,2]
	pxor	%xmm2, %xmm3
	punpckhwd	%xmm1, %xmm1            ## xmm1 = xmm1[4,4,5,5,6,6,7,7]
	pshufd	$255, %xmm0, %xmm2              ## xmm2 = xmm0[3,3,3,3]
	pxor	%xmm1, %xmm2
	movaps	-16(%rsp), %xmm0                ## 16-byte Reload
	movups	%xmm0, 256(%rdi)
	movaps	-32(%rsp), %xmm0                ## 16-byte Reload
	movups	%xmm0, 272(%rdi)
	movdqu	%xmm6, 288(%rdi)
	movdqu	%xmm7, 304(%rdi)
	movdqu	%xmm9, 320(%rdi)
	movdqu	%xmm10, 336(%rdi)
	movdqu	%xmm12, 352(%rdi)
	movdqu	%xmm11, 368(%rdi)
	movdqu	%xmm5, 384(%rdi)
	movdqu	%xmm13, 400(%rdi)
	movdqu	%xmm14, 416(%rdi)
	movdqu	%xmm8, 432(%rdi)
	movdqu	%xmm4, 448(%rdi)
	movdqu	%xmm15, 464(%rdi)
	movdqu	%xmm3, 480(%rdi)
	movdqu	%xmm2, 496(%rdi)
	popq	%rbx
	popq	%r14
	popq	%r15
	retq
	.cfi_endproc
                                        ## -- End function
"_deerlapse_0_1_0::key_derivation::hkdf::Expander::fill_okm::<#01e4f4eb65b1d8bb>": ## -- Begin function key_derivation::hkdf::Expander::fill_okm::<#01e4f4eb65b1d8bb>
                                        ## @"key_derivation::hkdf::Expander::fill_okm::<#01e4f4eb65b1d8bb>"
	.cfi_startproc
## %bb.0:                               ## %start
	pushq	%rbp
	.cfi_def_cfa_offset 16
	pushq	%r15
	.cfi_def_cfa_offset 24
	pushq	%r14
	.cfi_def_cfa_offset 32
	pushq	%r13
	.cfi_def_cfa_offset 40
	pushq	%r12
	.cfi_def_cfa_offset 48
	pushq	%rbx
	.cfi_def_cfa_offset 56
	subq	$1400, %rsp                     ## imm = 0x578
	.cfi_def_cfa_offset 1456
	.cfi_offset %rbx, -56
	.cfi_offset %r12, -48
	.cfi_offset %r13, -40
	.cfi_offset %r14, -32
	.cfi_offset %r15, -24
	.cfi_offset %rbp, -16
	movq	%rdx, %r14
	movq	%rsi, 56(%rsp)                  ## 8-byte Spill
	movq	%rdi, 24(%rsp)                  ## 8-byte Spill
	movq	%rcx, %r12
	addq	$47, %rcx
	movabsq	$-6148914691236517205, %rdx     ## imm = 0xAAAAAAAAAAAAAAAB
	movq	%rcx, %rax
	mulq	%rdx
	movq	%rdx, 16(%rsp)                  ## 8-byte Spill
	cmpq	$48, %rcx
	jb	Ldeerlapse_0_1_0_BB35_3
## %bb.1:                               ## %join.7.lr.ph
	shrq	$5, 16(%rsp)                    ## 8-byte Folded Spill
	movq	24(%rsp), %rax                  ## 8-byte Reload
	addq	$64, %rax
	movq	%rax, 40(%rsp)                  ## 8-byte Spill
	xorl	%ebp, %ebp
	xorl	%r15d, %r15d
	movq	%r14, 32(%rsp)                  ## 8-byte Spill
	movq	%r12, 48(%rsp)                  ## 8-byte Spill
Ldeerlapse_0_1_0_BB35_2:                                ## %join.7
                                        ## =>This Inner Loop Header: Depth=1
	movq	24(%rsp), %r12                  ## 8-byte Reload
	movups	(%r12), %xmm0
	movups	16(%r12), %xmm1
	movups	32(%r12), %xmm2
	movups	48(%r12), %xmm3
	leaq	176(%rsp), %rsi
	movaps	%xmm3, 48(%rsi)
	movaps	%xmm2, 32(%rsi)
	movaps	%xmm1, 16(%rsi)
	movaps	%xmm0, (%rsi)
	movq	40(%rsp), %rax                  ## 8-byte Reload
	movups	112(%rax), %xmm0
	leaq	240(%rsp), %rcx
	movups	%xmm0, 112(%rcx)
	movups	96(%rax), %xmm0
	movups	%xmm0, 96(%rcx)
	movups	80(%rax), %xmm0
	movups	%xmm0, 80(%rcx)
	movups	64(%rax), %xmm0
	movups	%xmm0, 64(%rcx)
	movups	(%rax), %xmm0
	movups	16(%rax), %xmm1
	movups	32(%rax), %xmm2
	movups	48(%rax), %xmm3
	movups	%xmm3, 48(%rcx)
	movups	%xmm2, 32(%rcx)
	movups	%xmm1, 16(%rcx)
	movups	%xmm0, (%rcx)
	movaps	192(%r12), %xmm0
	movaps	%xmm0, 64(%rsp)                 ## 16-byte Spill
	movl	$192, %edx
	leaq	383(%rsp), %rbx
	movq	%rbx, %rdi
	callq	_memcpy
	movl	$192, %edx
	leaq	784(%rsp), %r14
	movq	%r14, %rdi
	movq	%rbx, %rsi
	callq	_memcpy
	leaq	576(%rsp), %r13
	movl	$192, %edx
	movq	%r13, %rdi
	movq	%r14, %rsi
	callq	_memcpy
	leaq	1184(%rsp), %rbx
	movl	$192, %edx
	movq	%rbx, %rdi
	movq	%r13, %rsi
	callq	_memcpy
	xorl	%eax, %eax
	movq	%rbp, %rcx
	subq	$48, %rcx
	cmovaeq	%rcx, %rax
	movaps	64(%rsp), %xmm0                 ## 16-byte Reload
	movaps	%xmm0, 192(%rbx)
	movq	32(%rsp), %rcx                  ## 8-byte Reload
	leaq	(%rcx,%rax), %rsi
	movq	%rbp, %rdx
	subq	%rax, %rdx
	movq	%rbx, %rdi
	callq	"_deerlapse_0_1_0::sha2::block512::Core512::update"
	leaq	368(%rsp), %r13
	movl	$208, %edx
	movq	%r13, %rdi
	movq	%rbx, %rsi
	callq	_memcpy
	movq	56(%rsp), %rax                  ## 8-byte Reload
	movq	(%rax), %rsi
	movq	8(%rax), %rdx
	movq	%r13, %rdi
	callq	"_deerlapse_0_1_0::sha2::block512::Core512::update"
	leaq	976(%rsp), %r14
	movl	$208, %edx
	movq	%r14, %rdi
	movq	%r13, %rsi
	callq	_memcpy
	movl	$208, %edx
	movq	%rbx, %rdi
	movq	%r14, %rsi
	callq	_memcpy
	incq	%r15
	leaq	15(%rsp), %rsi
	movb	%r15b, (%rsi)
	movl	$1, %edx
	movq	%rbx, %rdi
	callq	"_deerlapse_0_1_0::sha2::block512::Core512::update"
	leaq	128(%rsp), %r14
	movq	%r14, %rdi
	movq	%r12, %rsi
	movq	%rbx, %rdx
	callq	"_deerlapse_0_1_0::key_derivation::hmac::HmacKey::finish::<#01e4f4eb65b1d8bb>"
	movups	(%r14), %xmm0
	movups	16(%r14), %xmm1
	movups	32(%r14), %xmm2
	movq	48(%rsp), %rax                  ## 8-byte Reload
	movq	32(%rsp), %rcx                  ## 8-byte Reload
	leaq	80(%rsp), %rsi
	movaps	%xmm2, 32(%rsi)
	movaps	%xmm1, 16(%rsi)
	movaps	%xmm0, (%rsi)
	subq	%rbp, %rax
	cmpq	$48, %rax
	movl	$48, %edx
	cmovbq	%rax, %rdx
	leaq	(%rdx,%rbp), %rbx
	addq	%rcx, %rbp
	movq	%rbp, %rdi
	callq	_memcpy
	movq	%rbx, %rbp
	cmpq	%r15, 16(%rsp)                  ## 8-byte Folded Reload
	jne	Ldeerlapse_0_1_0_BB35_2
Ldeerlapse_0_1_0_BB35_3:                                ## %after.3
	addq	$1400, %rsp                     ## imm = 0x578
	popq	%rbx
	popq	%r12
	popq	%r13
	popq	%r14
	popq	%r15
	popq	%rbp
	retq
	.cfi_endproc
                                        ## -- End function
"_deerlapse_0_1_0::key_derivation::hkdf::Expander::fill_labeled::<#01e4f4eb65b1d8bb>": ## -- Begin function key_derivation::hkdf::Expander::fill_labeled::<#01e4f4eb65b1d8bb>
                                        ## @"key_derivation::hkdf::Expander::fill_labeled::<#01e4f4eb65b1d8bb>"
	.cfi_startproc
## %bb.0:                               ## %start
	pushq	%rbp
	.cfi_def_cfa_offset 16
	pushq	%r15
	.cfi_def_cfa_offset 24
	pushq	%r14
	.cfi_def_cfa_offset 32
	pushq	%r13
	.cfi_def_cfa_offset 40
	pushq	%r12
	.cfi_def_cfa_offset 48
	pushq	%rbx
	.cfi_def_cfa_offset 56
	subq	$552, %rsp                      ## imm = 0x228
	.cfi_def_cfa_offset 608
	.cfi_offset %rbx, -56
	.cfi_offset %r12, -48
	.cfi_offset %r13, -40
	.cfi_offset %r14, -32
	.cfi_offset %r15, -24
	.cfi_offset %rbp, -16
	movq	%r9, 8(%rsp)                    ## 8-byte Spill
	movq	%r8, %r14
	movq	%rcx, %r15
	movq	%rdx, %r12
	movq	%rsi, %r13
	movq	%rdi, %rbp
	leaq	41(%rsp), %rdi
	movl	$511, %esi                      ## imm = 0x1FF
	callq	___bzero
	leaq	38(%rsp), %rbx
	movq	%rbx, %rdi
	movq	%r13, %rsi
	movq	%r12, %rdx
	movq	%r15, %rcx
	movq	%r14, %r8
	movq	608(%rsp), %r9
                                        ## kill: def $r9d killed $r9d killed $r9
	callq	"_deerlapse_0_1_0::key_derivation::hkdf::write_hkdf_label"
	leaq	16(%rsp), %rsi
	movq	%rbx, (%rsi)
	movq	%rax, 8(%rsi)
	movq	%rbp, %rdi
	movq	8(%rsp), %rdx                   ## 8-byte Reload
	movq	608(%rsp), %rcx
	callq	"_deerlapse_0_1_0::key_derivation::hkdf::Expander::fill_okm::<#01e4f4eb65b1d8bb>"
	addq	$552, %rsp                      ## imm = 0x228
	popq	%rbx
	popq	%r12
	popq	%r13
	popq	%r14
	popq	%r15
	popq	%rbp
	retq
	.cfi_endproc
                                        ## -- End function
"_deerlapse_0_1_0::key_derivation::secret::Secret::next": ## -- Begin function key_derivation::secret::Secret::next
                                        ## @"key_derivation::secret::Secret::next"
	.cfi_startproc
## %bb.0:                               ## %start
	pushq	%rbp
	.cfi_def_cfa_offset 16
	pushq	%r15
	.cfi_def_cfa_offset 24
	pushq	%r14
	.cfi_def_cfa_offset 32
	pushq	%r13
	.cfi_def_cfa_offset 40
	pushq	%r12
	.cfi_def_cfa_offset 48
	pushq	%rbx
	.cfi_def_cfa_offset 56
	subq	$872, %rsp                      ## imm = 0x368
	.cfi_def_cfa_offset 928
	.cfi_offset %rbx, -56
	.cfi_offset %r12, -48
	.cfi_offset %r13, -40
	.cfi_offset %r14, -32
	.cfi_offset %r15, -24
	.cfi_offset %rbp, -16
	movq	%rcx, %r14
	movq	%rdx, %r15
	movq	%rsi, %rax
	movq	%rdi, %rbx
	incq	%rsi
	cmpb	$0, (%rax)
	je	Ldeerlapse_0_1_0_BB37_1
## %bb.2:                               ## %arm.2
	leaq	400(%rsp), %r12
	movl	$48, %edx
	movq	%r12, %rdi
	callq	"_deerlapse_0_1_0::key_derivation::hmac::HmacKey::new::<#01e4f4eb65b1d8bb>"
	xorps	%xmm0, %xmm0
	leaq	144(%rsp), %r13
	movaps	%xmm0, 32(%r13)
	movaps	%xmm0, 16(%r13)
	movaps	%xmm0, (%r13)
	movq	$48, (%rsp)
	leaq	ldeerlapse_0_1_0__static.6(%rip), %rcx
	movq	%r12, %rdi
	movq	%r15, %rsi
	movq	%r14, %rdx
	xorl	%r8d, %r8d
	movq	%r13, %r9
	callq	"_deerlapse_0_1_0::key_derivation::hkdf::Expander::fill_labeled::<#01e4f4eb65b1d8bb>"
	movaps	(%r13), %xmm0
	movaps	16(%r13), %xmm1
	movaps	32(%r13), %xmm2
	movaps	%xmm2, 96(%rsp)
	movaps	%xmm1, 80(%rsp)
	movaps	%xmm0, 64(%rsp)
	movaps	%xmm0, 16(%rsp)
	movaps	%xmm1, 32(%rsp)
	movaps	%xmm2, 48(%rsp)
	movb	$1, %bpl
	jmp	Ldeerlapse_0_1_0_BB37_3
Ldeerlapse_0_1_0_BB37_1:                                ## %arm.1
	leaq	192(%rsp), %r12
	movl	$32, %edx
	movq	%r12, %rdi
	callq	"_deerlapse_0_1_0::key_derivation::hmac::HmacKey::new::<#7cab53feae2e1c66>"
	xorps	%xmm0, %xmm0
	leaq	144(%rsp), %r13
	movaps	%xmm0, 16(%r13)
	movaps	%xmm0, (%r13)
	movq	$32, (%rsp)
	leaq	ldeerlapse_0_1_0__static.6(%rip), %rcx
	xorl	%ebp, %ebp
	movq	%r12, %rdi
	movq	%r15, %rsi
	movq	%r14, %rdx
	xorl	%r8d, %r8d
	movq	%r13, %r9
	callq	"_deerlapse_0_1_0::key_derivation::hkdf::Expander::fill_labeled::<#7cab53feae2e1c66>"
	movaps	(%r13), %xmm0
	movaps	16(%r13), %xmm1
	movaps	%xmm1, 128(%rsp)
	movaps	%xmm0, 112(%rsp)
	xorps	%xmm2, %xmm2
	movaps	%xmm2, 48(%rsp)
	movaps	%xmm0, 16(%rsp)
	movaps	%xmm1, 32(%rsp)
Ldeerlapse_0_1_0_BB37_3:                                ## %join.4
	movb	%bpl, (%rbx)
	movaps	16(%rsp), %xmm0
	movaps	32(%rsp), %xmm1
	movaps	48(%rsp), %xmm2
	movups	%xmm0, 1(%rbx)
	movups	%xmm1, 17(%rbx)
	movups	%xmm2, 33(%rbx)
	addq	$872, %rsp                      ## imm = 0x368
	popq	%rbx
	popq	%r12
	popq	%r13
	popq	%r14
	popq	%r15
	popq	%rbp
	retq
	.cfi_endproc
                                        ## -- End function
	.section	__TEXT,__literal16,16byte_literals
	.p2align	4, 0x0                          ## -- Begin function deerlapse_chacha20
Ldeerlapse_0_1_0_CPI38_0:
	.long	1634760805                      ## 0x61707865
	.long	857760878                       ## 0x3320646e
	.long	2036477234                      ## 0x79622d32
	.long	1797285236                      ## 0x6b206574
Ldeerlapse_0_1_0_CPI38_1:
	.byte	2                               ## 0x2
	.byte	3                               ## 0x3
	.byte	0                               ## 0x0
	.byte	1                               ## 0x1
	.byte	6                               ## 0x6
	.byte	7                               ## 0x7
	.byte	4                               ## 0x4
	.byte	5                               ## 0x5
	.byte	10                              ## 0xa
	.byte	11                              ## 0xb
	.byte	8                               ## 0x8
	.byte	9                               ## 0x9
	.byte	14                              ## 0xe
	.byte	15                              ## 0xf
	.byte	12                              ## 0xc
	.byte	13                              ## 0xd
Ldeerlapse_0_1_0_CPI38_2:
	.byte	3                               ## 0x3
	.byte	0                               ## 0x0
	.byte	1                               ## 0x1
	.byte	2                               ## 0x2
	.byte	7                               ## 0x7
	.byte	4                               ## 0x4
	.byte	5                               ## 0x5
	.byte	6                               ## 0x6
	.byte	11                              ## 0xb
	.byte	8                               ## 0x8
	.byte	9                               ## 0x9
	.byte	10                              ## 0xa
	.byte	15                              ## 0xf
	.byte	12                              ## 0xc
	.byte	13                              ## 0xd
	.byte	14                              ## 0xe
Ldeerlapse_0_1_0_CPI38_3:
	.byte	14                              ## 0xe
	.byte	15                              ## 0xf
	.byte	12                              ## 0xc
	.byte	13                              ## 0xd
	.byte	2                               ## 0x2
	.byte	3                               ## 0x3
	.byte	0                               ## 0x0
	.byte	1                               ## 0x1
	.byte	6                               ## 0x6
	.byte	7                               ## 0x7
	.byte	4                               ## 0x4
	.byte	5                               ## 0x5
	.byte	10                              ## 0xa
	.byte	11                              ## 0xb
	.byte	8                               ## 0x8
	.byte	9                               ## 0x9
Ldeerlapse_0_1_0_CPI38_4:
	.long	0                               ## 0x0
	.long	1                               ## 0x1
	.long	2                               ## 0x2
	.long	3                               ## 0x3
Ldeerlapse_0_1_0_CPI38_5:
	.long	1797285236                      ## 0x6b206574
	.long	1797285236                      ## 0x6b206574
	.long	1797285236                      ## 0x6b206574
	.long	1797285236                      ## 0x6b206574
Ldeerlapse_0_1_0_CPI38_6:
	.long	2036477234                      ## 0x79622d32
	.long	2036477234                      ## 0x79622d32
	.long	2036477234                      ## 0x79622d32
	.long	2036477234                      ## 0x79622d32
Ldeerlapse_0_1_0_CPI38_7:
	.long	857760878                       ## 0x3320646e
	.long	857760878                       ## 0x3320646e
	.long	857760878                       ## 0x3320646e
	.long	857760878                       ## 0x3320646e
Ldeerlapse_0_1_0_CPI38_8:
	.long	1634760805                      ## 0x61707865
	.long	1634760805                      ## 0x61707865
	.long	1634760805                      ## 0x61707865
	.long	1634760805                      ## 0x61707865
	.section	__TEXT,__text,regular,pure_instructions
	.ifdef	deerlapse_in_rust
	.globl	_deerlapse_0_1_0_chacha20
	.p2align	4
_deerlapse_0_1_0_chacha20:                    ## @deerlapse_chacha20
	.else
	.globl	_deerlapse_chacha20
	.p2align	4
_deerlapse_chacha20:                    ## @deerlapse_chacha20
	.endif
	.cfi_startproc
## %bb.0:                               ## %start
	pushq	%rbp
	.cfi_def_cfa_offset 16
	pushq	%r15
	.cfi_def_cfa_offset 24
	pushq	%r14
	.cfi_def_cfa_offset 32
	pushq	%r13
	.cfi_def_cfa_offset 40
	pushq	%r12
	.cfi_def_cfa_offset 48
	pushq	%rbx
	.cfi_def_cfa_offset 56
	subq	$488, %rsp                      ## imm = 0x1E8
	.cfi_def_cfa_offset 544
	.cfi_offset %rbx, -56
	.cfi_offset %r12, -48
	.cfi_offset %r13, -40
	.cfi_offset %r14, -32
	.cfi_offset %r15, -24
	.cfi_offset %rbp, -16
	movq	%r8, %rbx
	movl	%edx, %r14d
	xorl	%eax, %eax
	testq	%rcx, %rcx
	sete	%dl
	movl	%r14d, %r8d
	movabsq	$4294967296, %r9                ## imm = 0x100000000
	subq	%r8, %r9
	movq	%rbx, %r12
	shrq	$6, %r12
	movl	%ebx, %r8d
	andl	$63, %r8d
	cmpq	$1, %r8
	sbbq	$-1, %r12
	movq	%r9, 120(%rsp)                  ## 8-byte Spill
	cmpq	%r12, %r9
	jb	Ldeerlapse_0_1_0_BB38_23
## %bb.1:                               ## %join.3.i
	testq	%rbx, %rbx
	je	Ldeerlapse_0_1_0_BB38_23
## %bb.2:                               ## %join.5.lr.ph.i.i.i
	movb	%dl, %al
	shll	$12, %eax
	leaq	(%rcx,%rax), %r13
	movl	(%rsi), %ebp
	movq	4(%rsi), %xmm3                  ## xmm3 = mem[0],zero
	movq	24(%rdi), %xmm0                 ## xmm0 = mem[0],zero
	movq	8(%rdi), %xmm1                  ## xmm1 = mem[0],zero
	movd	%ebp, %xmm2
	pshufd	$0, %xmm2, %xmm2                ## xmm2 = xmm2[0,0,0,0]
	movdqa	%xmm2, 320(%rsp)                ## 16-byte Spill
	pshufd	$0, %xmm3, %xmm2                ## xmm2 = xmm3[0,0,0,0]
	movdqa	%xmm2, 304(%rsp)                ## 16-byte Spill
	movdqa	%xmm3, 400(%rsp)                ## 16-byte Spill
	pshufd	$85, %xmm3, %xmm2               ## xmm2 = xmm3[1,1,1,1]
	movdqa	%xmm2, 288(%rsp)                ## 16-byte Spill
	movups	(%rdi), %xmm2
	movaps	%xmm2, 272(%rsp)                ## 16-byte Spill
	movups	16(%rdi), %xmm2
	movaps	%xmm2, 256(%rsp)                ## 16-byte Spill
	movd	(%rdi), %xmm2                   ## xmm2 = mem[0],zero,zero,zero
	pshufd	$0, %xmm2, %xmm2                ## xmm2 = xmm2[0,0,0,0]
	movdqa	%xmm2, 240(%rsp)                ## 16-byte Spill
	movd	4(%rdi), %xmm2                  ## xmm2 = mem[0],zero,zero,zero
	pshufd	$0, %xmm2, %xmm2                ## xmm2 = xmm2[0,0,0,0]
	movdqa	%xmm2, 224(%rsp)                ## 16-byte Spill
	pshufd	$0, %xmm1, %xmm2                ## xmm2 = xmm1[0,0,0,0]
	movdqa	%xmm2, 208(%rsp)                ## 16-byte Spill
	pshufd	$85, %xmm1, %xmm1               ## xmm1 = xmm1[1,1,1,1]
	movdqa	%xmm1, 192(%rsp)                ## 16-byte Spill
	movd	16(%rdi), %xmm1                 ## xmm1 = mem[0],zero,zero,zero
	pshufd	$0, %xmm1, %xmm1                ## xmm1 = xmm1[0,0,0,0]
	movdqa	%xmm1, 176(%rsp)                ## 16-byte Spill
	movd	20(%rdi), %xmm1                 ## xmm1 = mem[0],zero,zero,zero
	pshufd	$0, %xmm1, %xmm1                ## xmm1 = xmm1[0,0,0,0]
	movdqa	%xmm1, 160(%rsp)                ## 16-byte Spill
	pshufd	$0, %xmm0, %xmm1                ## xmm1 = xmm0[0,0,0,0]
	movdqa	%xmm1, 144(%rsp)                ## 16-byte Spill
	pshufd	$85, %xmm0, %xmm0               ## xmm0 = xmm0[1,1,1,1]
	movdqa	%xmm0, 128(%rsp)                ## 16-byte Spill
	addq	%rcx, %rax
	addq	$16, %rax
	movq	%rax, 112(%rsp)                 ## 8-byte Spill
	xorl	%eax, %eax
	xorl	%r15d, %r15d
	jmp	Ldeerlapse_0_1_0_BB38_3
	.p2align	4
Ldeerlapse_0_1_0_BB38_21:                               ## %"aead_ciphers_base::chacha::xor_stream::<=64>.exit.loopexit.i.i.i"
                                        ##   in Loop: Header=BB38_3 Depth=1
	leaq	336(%rsp), %rsi
	callq	_memcpy
	incq	%r15
	movq	%r15, %rax
	shlq	$6, %rax
	cmpq	%rbx, %rax
	jae	Ldeerlapse_0_1_0_BB38_23
Ldeerlapse_0_1_0_BB38_3:                                ## %join.5.i.i.i
                                        ## =>This Loop Header: Depth=1
                                        ##     Child Loop BB38_8 Depth 2
                                        ##     Child Loop BB38_15 Depth 2
                                        ##     Child Loop BB38_19 Depth 2
                                        ##     Child Loop BB38_5 Depth 2
	movq	%rbx, %rcx
	subq	%rax, %rcx
	leal	(%r14,%r15), %edx
	movd	%edx, %xmm0
	cmpq	$256, %rcx                      ## imm = 0x100
	jb	Ldeerlapse_0_1_0_BB38_7
## %bb.4:                               ## %then.6.i.i.i
                                        ##   in Loop: Header=BB38_3 Depth=1
	pshufd	$0, %xmm0, %xmm12               ## xmm12 = xmm0[0,0,0,0]
	paddd	Ldeerlapse_0_1_0_CPI38_4(%rip), %xmm12
	movaps	Ldeerlapse_0_1_0_CPI38_5(%rip), %xmm0           ## xmm0 = [1797285236,1797285236,1797285236,1797285236]
	movaps	%xmm0, 48(%rsp)                 ## 16-byte Spill
	movaps	Ldeerlapse_0_1_0_CPI38_6(%rip), %xmm0           ## xmm0 = [2036477234,2036477234,2036477234,2036477234]
	movaps	%xmm0, 80(%rsp)                 ## 16-byte Spill
	movaps	Ldeerlapse_0_1_0_CPI38_7(%rip), %xmm0           ## xmm0 = [857760878,857760878,857760878,857760878]
	movaps	%xmm0, 64(%rsp)                 ## 16-byte Spill
	movaps	Ldeerlapse_0_1_0_CPI38_8(%rip), %xmm0           ## xmm0 = [1634760805,1634760805,1634760805,1634760805]
	movaps	%xmm0, 32(%rsp)                 ## 16-byte Spill
	movl	$10, %ecx
	movdqa	240(%rsp), %xmm4                ## 16-byte Reload
	movdqa	224(%rsp), %xmm7                ## 16-byte Reload
	movdqa	208(%rsp), %xmm6                ## 16-byte Reload
	movdqa	192(%rsp), %xmm5                ## 16-byte Reload
	movdqa	176(%rsp), %xmm8                ## 16-byte Reload
	movdqa	160(%rsp), %xmm11               ## 16-byte Reload
	movdqa	144(%rsp), %xmm10               ## 16-byte Reload
	movdqa	128(%rsp), %xmm9                ## 16-byte Reload
	movdqa	%xmm12, 96(%rsp)                ## 16-byte Spill
	movdqa	320(%rsp), %xmm15               ## 16-byte Reload
	movdqa	304(%rsp), %xmm14               ## 16-byte Reload
	movdqa	288(%rsp), %xmm13               ## 16-byte Reload
	.p2align	4
Ldeerlapse_0_1_0_BB38_5:                                ## %join.5.i.i.i.i.i
                                        ##   Parent Loop BB38_3 Depth=1
                                        ## =>  This Inner Loop Header: Depth=2
	movdqa	32(%rsp), %xmm2                 ## 16-byte Reload
	paddd	%xmm4, %xmm2
	pxor	%xmm2, %xmm12
	pshufb	Ldeerlapse_0_1_0_CPI38_1(%rip), %xmm12          ## xmm12 = xmm12[2,3,0,1,6,7,4,5,10,11,8,9,14,15,12,13]
	paddd	%xmm12, %xmm8
	pxor	%xmm8, %xmm4
	movdqa	%xmm4, %xmm0
	psrld	$20, %xmm0
	pslld	$12, %xmm4
	por	%xmm0, %xmm4
	paddd	%xmm4, %xmm2
	movdqa	Ldeerlapse_0_1_0_CPI38_2(%rip), %xmm3           ## xmm3 = [3,0,1,2,7,4,5,6,11,8,9,10,15,12,13,14]
	movdqa	%xmm2, %xmm0
	pshufb	%xmm3, %xmm0
	pshufb	%xmm3, %xmm12
	pxor	%xmm0, %xmm12
	paddd	%xmm12, %xmm8
	movdqa	%xmm8, 16(%rsp)                 ## 16-byte Spill
	pxor	%xmm8, %xmm4
	movdqa	%xmm4, %xmm0
	psrld	$25, %xmm0
	pslld	$7, %xmm4
	por	%xmm0, %xmm4
	movdqa	64(%rsp), %xmm8                 ## 16-byte Reload
	paddd	%xmm7, %xmm8
	pxor	%xmm8, %xmm15
	movdqa	Ldeerlapse_0_1_0_CPI38_1(%rip), %xmm1           ## xmm1 = [2,3,0,1,6,7,4,5,10,11,8,9,14,15,12,13]
	pshufb	%xmm1, %xmm15
	paddd	%xmm15, %xmm11
	pxor	%xmm11, %xmm7
	movdqa	%xmm7, %xmm0
	psrld	$20, %xmm0
	pslld	$12, %xmm7
	por	%xmm0, %xmm7
	paddd	%xmm7, %xmm8
	movdqa	%xmm8, %xmm0
	pshufb	%xmm3, %xmm0
	pshufb	%xmm3, %xmm15
	pxor	%xmm0, %xmm15
	paddd	%xmm15, %xmm11
	movdqa	%xmm11, (%rsp)                  ## 16-byte Spill
	pxor	%xmm11, %xmm7
	movdqa	%xmm7, %xmm0
	psrld	$25, %xmm0
	pslld	$7, %xmm7
	por	%xmm0, %xmm7
	movdqa	80(%rsp), %xmm3                 ## 16-byte Reload
	paddd	%xmm6, %xmm3
	pxor	%xmm3, %xmm14
	pshufb	%xmm1, %xmm14
	movdqa	%xmm1, %xmm11
	paddd	%xmm14, %xmm10
	pxor	%xmm10, %xmm6
	movdqa	%xmm6, %xmm0
	psrld	$20, %xmm0
	pslld	$12, %xmm6
	por	%xmm0, %xmm6
	paddd	%xmm6, %xmm3
	movdqa	%xmm3, %xmm0
	movdqa	Ldeerlapse_0_1_0_CPI38_2(%rip), %xmm1           ## xmm1 = [3,0,1,2,7,4,5,6,11,8,9,10,15,12,13,14]
	pshufb	%xmm1, %xmm0
	pshufb	%xmm1, %xmm14
	pxor	%xmm0, %xmm14
	paddd	%xmm14, %xmm10
	pxor	%xmm10, %xmm6
	movdqa	%xmm6, %xmm0
	psrld	$25, %xmm0
	pslld	$7, %xmm6
	por	%xmm0, %xmm6
	movdqa	48(%rsp), %xmm1                 ## 16-byte Reload
	paddd	%xmm5, %xmm1
	pxor	%xmm1, %xmm13
	pshufb	%xmm11, %xmm13
	paddd	%xmm13, %xmm9
	pxor	%xmm9, %xmm5
	movdqa	%xmm5, %xmm0
	psrld	$20, %xmm0
	pslld	$12, %xmm5
	por	%xmm0, %xmm5
	paddd	%xmm5, %xmm1
	movdqa	%xmm1, %xmm0
	movdqa	Ldeerlapse_0_1_0_CPI38_2(%rip), %xmm11          ## xmm11 = [3,0,1,2,7,4,5,6,11,8,9,10,15,12,13,14]
	pshufb	%xmm11, %xmm0
	pshufb	%xmm11, %xmm13
	pxor	%xmm0, %xmm13
	paddd	%xmm13, %xmm9
	pxor	%xmm9, %xmm5
	movdqa	%xmm5, %xmm0
	psrld	$25, %xmm0
	pslld	$7, %xmm5
	por	%xmm0, %xmm5
	paddd	%xmm7, %xmm2
	movdqa	%xmm2, %xmm0
	movdqa	%xmm10, %xmm11
	movdqa	%xmm9, %xmm10
	movdqa	Ldeerlapse_0_1_0_CPI38_1(%rip), %xmm9           ## xmm9 = [2,3,0,1,6,7,4,5,10,11,8,9,14,15,12,13]
	pshufb	%xmm9, %xmm0
	pshufb	%xmm9, %xmm13
	movdqa	%xmm10, %xmm9
	movdqa	%xmm11, %xmm10
	movdqa	(%rsp), %xmm11                  ## 16-byte Reload
	pxor	%xmm0, %xmm13
	paddd	%xmm13, %xmm10
	pxor	%xmm10, %xmm7
	movdqa	%xmm7, %xmm0
	psrld	$20, %xmm0
	pslld	$12, %xmm7
	por	%xmm0, %xmm7
	paddd	%xmm7, %xmm2
	movdqa	%xmm2, 32(%rsp)                 ## 16-byte Spill
	movdqa	%xmm2, %xmm0
	movdqa	Ldeerlapse_0_1_0_CPI38_2(%rip), %xmm2           ## xmm2 = [3,0,1,2,7,4,5,6,11,8,9,10,15,12,13,14]
	pshufb	%xmm2, %xmm0
	pshufb	%xmm2, %xmm13
	pxor	%xmm0, %xmm13
	paddd	%xmm13, %xmm10
	pxor	%xmm10, %xmm7
	movdqa	%xmm7, %xmm0
	psrld	$25, %xmm0
	pslld	$7, %xmm7
	por	%xmm0, %xmm7
	paddd	%xmm6, %xmm8
	movdqa	%xmm8, %xmm0
	movdqa	Ldeerlapse_0_1_0_CPI38_1(%rip), %xmm2           ## xmm2 = [2,3,0,1,6,7,4,5,10,11,8,9,14,15,12,13]
	pshufb	%xmm2, %xmm0
	pshufb	%xmm2, %xmm12
	pxor	%xmm0, %xmm12
	paddd	%xmm12, %xmm9
	pxor	%xmm9, %xmm6
	movdqa	%xmm6, %xmm0
	psrld	$20, %xmm0
	pslld	$12, %xmm6
	por	%xmm0, %xmm6
	paddd	%xmm6, %xmm8
	movdqa	%xmm8, 64(%rsp)                 ## 16-byte Spill
	movdqa	%xmm8, %xmm0
	movdqa	16(%rsp), %xmm8                 ## 16-byte Reload
	movdqa	Ldeerlapse_0_1_0_CPI38_2(%rip), %xmm2           ## xmm2 = [3,0,1,2,7,4,5,6,11,8,9,10,15,12,13,14]
	pshufb	%xmm2, %xmm0
	pshufb	%xmm2, %xmm12
	pxor	%xmm0, %xmm12
	paddd	%xmm12, %xmm9
	pxor	%xmm9, %xmm6
	movdqa	%xmm6, %xmm0
	psrld	$25, %xmm0
	pslld	$7, %xmm6
	por	%xmm0, %xmm6
	paddd	%xmm5, %xmm3
	movdqa	%xmm3, %xmm0
	movdqa	Ldeerlapse_0_1_0_CPI38_1(%rip), %xmm2           ## xmm2 = [2,3,0,1,6,7,4,5,10,11,8,9,14,15,12,13]
	pshufb	%xmm2, %xmm0
	pshufb	%xmm2, %xmm15
	pxor	%xmm0, %xmm15
	paddd	%xmm15, %xmm8
	pxor	%xmm8, %xmm5
	movdqa	%xmm5, %xmm0
	psrld	$20, %xmm0
	pslld	$12, %xmm5
	por	%xmm0, %xmm5
	paddd	%xmm5, %xmm3
	movdqa	%xmm3, 80(%rsp)                 ## 16-byte Spill
	movdqa	%xmm3, %xmm0
	movdqa	Ldeerlapse_0_1_0_CPI38_2(%rip), %xmm3           ## xmm3 = [3,0,1,2,7,4,5,6,11,8,9,10,15,12,13,14]
	pshufb	%xmm3, %xmm0
	pshufb	%xmm3, %xmm15
	pxor	%xmm0, %xmm15
	paddd	%xmm15, %xmm8
	pxor	%xmm8, %xmm5
	movdqa	%xmm5, %xmm0
	psrld	$25, %xmm0
	pslld	$7, %xmm5
	por	%xmm0, %xmm5
	paddd	%xmm4, %xmm1
	movdqa	%xmm1, %xmm0
	movdqa	Ldeerlapse_0_1_0_CPI38_1(%rip), %xmm2           ## xmm2 = [2,3,0,1,6,7,4,5,10,11,8,9,14,15,12,13]
	pshufb	%xmm2, %xmm0
	pshufb	%xmm2, %xmm14
	pxor	%xmm0, %xmm14
	paddd	%xmm14, %xmm11
	pxor	%xmm11, %xmm4
	movdqa	%xmm4, %xmm0
	psrld	$20, %xmm0
	pslld	$12, %xmm4
	por	%xmm0, %xmm4
	paddd	%xmm4, %xmm1
	movdqa	%xmm1, 48(%rsp)                 ## 16-byte Spill
	pshufb	%xmm3, %xmm1
	pshufb	%xmm3, %xmm14
	pxor	%xmm1, %xmm14
	paddd	%xmm14, %xmm11
	pxor	%xmm11, %xmm4
	movdqa	%xmm4, %xmm0
	psrld	$25, %xmm0
	pslld	$7, %xmm4
	por	%xmm0, %xmm4
	decl	%ecx
	jne	Ldeerlapse_0_1_0_BB38_5
## %bb.6:                               ## %vector.body
                                        ##   in Loop: Header=BB38_3 Depth=1
	paddd	96(%rsp), %xmm12                ## 16-byte Folded Reload
	paddd	320(%rsp), %xmm15               ## 16-byte Folded Reload
	movdqa	%xmm12, %xmm1
	punpckhdq	%xmm15, %xmm1           ## xmm1 = xmm1[2],xmm15[2],xmm1[3],xmm15[3]
	paddd	304(%rsp), %xmm14               ## 16-byte Folded Reload
	paddd	288(%rsp), %xmm13               ## 16-byte Folded Reload
	movdqa	%xmm1, 16(%rsp)                 ## 16-byte Spill
	pblendw	$240, %xmm14, %xmm1             ## xmm1 = xmm1[0,1,2,3],xmm14[4,5,6,7]
	pshufd	$170, %xmm13, %xmm0             ## xmm0 = xmm13[2,2,2,2]
	pblendw	$63, %xmm1, %xmm0               ## xmm0 = xmm1[0,1,2,3,4,5],xmm0[6,7]
	movdqa	%xmm0, 96(%rsp)                 ## 16-byte Spill
	paddd	176(%rsp), %xmm8                ## 16-byte Folded Reload
	paddd	160(%rsp), %xmm11               ## 16-byte Folded Reload
	movdqa	%xmm8, %xmm0
	punpckhdq	%xmm11, %xmm0           ## xmm0 = xmm0[2],xmm11[2],xmm0[3],xmm11[3]
	paddd	144(%rsp), %xmm10               ## 16-byte Folded Reload
	paddd	128(%rsp), %xmm9                ## 16-byte Folded Reload
	movdqa	%xmm0, (%rsp)                   ## 16-byte Spill
	pblendw	$240, %xmm10, %xmm0             ## xmm0 = xmm0[0,1,2,3],xmm10[4,5,6,7]
	pshufd	$170, %xmm9, %xmm1              ## xmm1 = xmm9[2,2,2,2]
	pblendw	$63, %xmm0, %xmm1               ## xmm1 = xmm0[0,1,2,3,4,5],xmm1[6,7]
	movdqa	%xmm1, 464(%rsp)                ## 16-byte Spill
	paddd	240(%rsp), %xmm4                ## 16-byte Folded Reload
	paddd	224(%rsp), %xmm7                ## 16-byte Folded Reload
	movdqa	%xmm4, %xmm0
	punpckhdq	%xmm7, %xmm0            ## xmm0 = xmm0[2],xmm7[2],xmm0[3],xmm7[3]
	paddd	208(%rsp), %xmm6                ## 16-byte Folded Reload
	movdqa	32(%rsp), %xmm3                 ## 16-byte Reload
	paddd	Ldeerlapse_0_1_0_CPI38_8(%rip), %xmm3
	movdqa	64(%rsp), %xmm1                 ## 16-byte Reload
	paddd	Ldeerlapse_0_1_0_CPI38_7(%rip), %xmm1
	movdqa	%xmm1, 64(%rsp)                 ## 16-byte Spill
	paddd	192(%rsp), %xmm5                ## 16-byte Folded Reload
	movdqa	%xmm0, 432(%rsp)                ## 16-byte Spill
	pblendw	$240, %xmm6, %xmm0              ## xmm0 = xmm0[0,1,2,3],xmm6[4,5,6,7]
	pshufd	$170, %xmm5, %xmm2              ## xmm2 = xmm5[2,2,2,2]
	pblendw	$63, %xmm0, %xmm2               ## xmm2 = xmm0[0,1,2,3,4,5],xmm2[6,7]
	movdqa	%xmm2, 32(%rsp)                 ## 16-byte Spill
	movdqa	80(%rsp), %xmm2                 ## 16-byte Reload
	paddd	Ldeerlapse_0_1_0_CPI38_6(%rip), %xmm2
	movdqa	%xmm2, 80(%rsp)                 ## 16-byte Spill
	movdqa	%xmm3, %xmm0
	punpckhdq	%xmm1, %xmm0            ## xmm0 = xmm0[2],xmm1[2],xmm0[3],xmm1[3]
	movdqa	48(%rsp), %xmm1                 ## 16-byte Reload
	paddd	Ldeerlapse_0_1_0_CPI38_5(%rip), %xmm1
	movdqa	%xmm0, 448(%rsp)                ## 16-byte Spill
	pblendw	$240, %xmm2, %xmm0              ## xmm0 = xmm0[0,1,2,3],xmm2[4,5,6,7]
	pshufd	$170, %xmm1, %xmm2              ## xmm2 = xmm1[2,2,2,2]
	pblendw	$63, %xmm0, %xmm2               ## xmm2 = xmm0[0,1,2,3,4,5],xmm2[6,7]
	movdqa	%xmm2, 48(%rsp)                 ## 16-byte Spill
	pshufd	$85, %xmm12, %xmm2              ## xmm2 = xmm12[1,1,1,1]
	pblendw	$12, %xmm15, %xmm2              ## xmm2 = xmm2[0,1],xmm15[2,3],xmm2[4,5,6,7]
	punpckldq	%xmm15, %xmm12          ## xmm12 = xmm12[0],xmm15[0],xmm12[1],xmm15[1]
	movaps	16(%rsp), %xmm0                 ## 16-byte Reload
	shufps	$254, %xmm14, %xmm0             ## xmm0 = xmm0[2,3],xmm14[3,3]
	shufps	$212, %xmm14, %xmm2             ## xmm2 = xmm2[0,1],xmm14[1,3]
	punpcklqdq	%xmm14, %xmm12          ## xmm12 = xmm12[0],xmm14[0]
	blendps	$8, %xmm13, %xmm0               ## xmm0 = xmm0[0,1,2],xmm13[3]
	movaps	%xmm0, 16(%rsp)                 ## 16-byte Spill
	insertps	$112, %xmm13, %xmm2             ## xmm2 = xmm2[0,1,2],xmm13[1]
	movaps	%xmm2, 416(%rsp)                ## 16-byte Spill
	pshufd	$0, %xmm13, %xmm13              ## xmm13 = xmm13[0,0,0,0]
	pblendw	$63, %xmm12, %xmm13             ## xmm13 = xmm12[0,1,2,3,4,5],xmm13[6,7]
	pshufd	$85, %xmm8, %xmm12              ## xmm12 = xmm8[1,1,1,1]
	pblendw	$12, %xmm11, %xmm12             ## xmm12 = xmm12[0,1],xmm11[2,3],xmm12[4,5,6,7]
	punpckldq	%xmm11, %xmm8           ## xmm8 = xmm8[0],xmm11[0],xmm8[1],xmm11[1]
	movaps	(%rsp), %xmm0                   ## 16-byte Reload
	shufps	$254, %xmm10, %xmm0             ## xmm0 = xmm0[2,3],xmm10[3,3]
	shufps	$212, %xmm10, %xmm12            ## xmm12 = xmm12[0,1],xmm10[1,3]
	punpcklqdq	%xmm10, %xmm8           ## xmm8 = xmm8[0],xmm10[0]
	blendps	$8, %xmm9, %xmm0                ## xmm0 = xmm0[0,1,2],xmm9[3]
	movaps	%xmm0, (%rsp)                   ## 16-byte Spill
	insertps	$112, %xmm9, %xmm12             ## xmm12 = xmm12[0,1,2],xmm9[1]
	pshufd	$0, %xmm9, %xmm9                ## xmm9 = xmm9[0,0,0,0]
	pblendw	$63, %xmm8, %xmm9               ## xmm9 = xmm8[0,1,2,3,4,5],xmm9[6,7]
	pshufd	$85, %xmm4, %xmm8               ## xmm8 = xmm4[1,1,1,1]
	pblendw	$12, %xmm7, %xmm8               ## xmm8 = xmm8[0,1],xmm7[2,3],xmm8[4,5,6,7]
	punpckldq	%xmm7, %xmm4            ## xmm4 = xmm4[0],xmm7[0],xmm4[1],xmm7[1]
	movaps	432(%rsp), %xmm15               ## 16-byte Reload
	shufps	$254, %xmm6, %xmm15             ## xmm15 = xmm15[2,3],xmm6[3,3]
	shufps	$212, %xmm6, %xmm8              ## xmm8 = xmm8[0,1],xmm6[1,3]
	punpcklqdq	%xmm6, %xmm4            ## xmm4 = xmm4[0],xmm6[0]
	blendps	$8, %xmm5, %xmm15               ## xmm15 = xmm15[0,1,2],xmm5[3]
	insertps	$112, %xmm5, %xmm8              ## xmm8 = xmm8[0,1,2],xmm5[1]
	pshufd	$0, %xmm5, %xmm5                ## xmm5 = xmm5[0,0,0,0]
	pblendw	$63, %xmm4, %xmm5               ## xmm5 = xmm4[0,1,2,3,4,5],xmm5[6,7]
	pshufd	$85, %xmm3, %xmm6               ## xmm6 = xmm3[1,1,1,1]
	movdqa	64(%rsp), %xmm0                 ## 16-byte Reload
	pblendw	$12, %xmm0, %xmm6               ## xmm6 = xmm6[0,1],xmm0[2,3],xmm6[4,5,6,7]
	punpckldq	%xmm0, %xmm3            ## xmm3 = xmm3[0],xmm0[0],xmm3[1],xmm0[1]
	movaps	448(%rsp), %xmm14               ## 16-byte Reload
	movaps	80(%rsp), %xmm0                 ## 16-byte Reload
	shufps	$254, %xmm0, %xmm14             ## xmm14 = xmm14[2,3],xmm0[3,3]
	shufps	$212, %xmm0, %xmm6              ## xmm6 = xmm6[0,1],xmm0[1,3]
	punpcklqdq	%xmm0, %xmm3            ## xmm3 = xmm3[0],xmm0[0]
	blendps	$8, %xmm1, %xmm14               ## xmm14 = xmm14[0,1,2],xmm1[3]
	insertps	$112, %xmm1, %xmm6              ## xmm6 = xmm6[0,1,2],xmm1[1]
	pshufd	$0, %xmm1, %xmm2                ## xmm2 = xmm1[0,0,0,0]
	pblendw	$63, %xmm3, %xmm2               ## xmm2 = xmm3[0,1,2,3,4,5],xmm2[6,7]
	movdqu	(%r13,%rax), %xmm0
	pxor	%xmm2, %xmm0
	movdqu	16(%r13,%rax), %xmm1
	pxor	%xmm5, %xmm1
	movdqu	32(%r13,%rax), %xmm2
	pxor	%xmm9, %xmm2
	movdqu	48(%r13,%rax), %xmm3
	pxor	%xmm13, %xmm3
	movups	64(%r13,%rax), %xmm4
	xorps	%xmm6, %xmm4
	movups	80(%r13,%rax), %xmm5
	xorps	%xmm8, %xmm5
	movups	96(%r13,%rax), %xmm6
	xorps	%xmm12, %xmm6
	movdqu	112(%r13,%rax), %xmm7
	pxor	416(%rsp), %xmm7                ## 16-byte Folded Reload
	movdqu	128(%r13,%rax), %xmm8
	pxor	48(%rsp), %xmm8                 ## 16-byte Folded Reload
	movdqu	144(%r13,%rax), %xmm9
	pxor	32(%rsp), %xmm9                 ## 16-byte Folded Reload
	movdqu	160(%r13,%rax), %xmm10
	pxor	464(%rsp), %xmm10               ## 16-byte Folded Reload
	movdqu	176(%r13,%rax), %xmm11
	pxor	96(%rsp), %xmm11                ## 16-byte Folded Reload
	movups	192(%r13,%rax), %xmm12
	xorps	%xmm14, %xmm12
	movups	208(%r13,%rax), %xmm13
	xorps	%xmm15, %xmm13
	movdqu	224(%r13,%rax), %xmm14
	pxor	(%rsp), %xmm14                  ## 16-byte Folded Reload
	movdqu	240(%r13,%rax), %xmm15
	pxor	16(%rsp), %xmm15                ## 16-byte Folded Reload
	movdqu	%xmm0, (%r13,%rax)
	movdqu	%xmm1, 16(%r13,%rax)
	movdqu	%xmm2, 32(%r13,%rax)
	movdqu	%xmm3, 48(%r13,%rax)
	movups	%xmm4, 64(%r13,%rax)
	movups	%xmm5, 80(%r13,%rax)
	movups	%xmm6, 96(%r13,%rax)
	movdqu	%xmm7, 112(%r13,%rax)
	movdqu	%xmm8, 128(%r13,%rax)
	movdqu	%xmm9, 144(%r13,%rax)
	movdqu	%xmm10, 160(%r13,%rax)
	movdqu	%xmm11, 176(%r13,%rax)
	movups	%xmm12, 192(%r13,%rax)
	movups	%xmm13, 208(%r13,%rax)
	movdqu	%xmm14, 224(%r13,%rax)
	movdqu	%xmm15, 240(%r13,%rax)
	addq	$4, %r15
	movq	%r15, %rax
	shlq	$6, %rax
	cmpq	%rbx, %rax
	jb	Ldeerlapse_0_1_0_BB38_3
	jmp	Ldeerlapse_0_1_0_BB38_23
	.p2align	4
Ldeerlapse_0_1_0_BB38_7:                                ## %else.7.i.i.i
                                        ##   in Loop: Header=BB38_3 Depth=1
	pinsrd	$1, %ebp, %xmm0
	punpcklqdq	400(%rsp), %xmm0        ## 16-byte Folded Reload
                                        ## xmm0 = xmm0[0],mem[0]
	movdqa	Ldeerlapse_0_1_0_CPI38_0(%rip), %xmm1           ## xmm1 = [1634760805,857760878,2036477234,1797285236]
	movl	$10, %edx
	movdqa	272(%rsp), %xmm3                ## 16-byte Reload
	movdqa	256(%rsp), %xmm4                ## 16-byte Reload
	movdqa	%xmm0, %xmm2
	.p2align	4
Ldeerlapse_0_1_0_BB38_8:                                ## %join.5.i.i40.i.i.i
                                        ##   Parent Loop BB38_3 Depth=1
                                        ## =>  This Inner Loop Header: Depth=2
	paddd	%xmm3, %xmm1
	pxor	%xmm1, %xmm2
	movdqa	Ldeerlapse_0_1_0_CPI38_1(%rip), %xmm6           ## xmm6 = [2,3,0,1,6,7,4,5,10,11,8,9,14,15,12,13]
	pshufb	%xmm6, %xmm2
	paddd	%xmm2, %xmm4
	pxor	%xmm4, %xmm3
	movdqa	%xmm3, %xmm5
	psrld	$20, %xmm5
	pslld	$12, %xmm3
	por	%xmm5, %xmm3
	paddd	%xmm3, %xmm1
	movdqa	Ldeerlapse_0_1_0_CPI38_2(%rip), %xmm5           ## xmm5 = [3,0,1,2,7,4,5,6,11,8,9,10,15,12,13,14]
	movdqa	%xmm1, %xmm7
	pshufb	%xmm5, %xmm7
	pshufb	%xmm5, %xmm2
	pxor	%xmm7, %xmm2
	paddd	%xmm2, %xmm4
	pxor	%xmm4, %xmm3
	movdqa	%xmm3, %xmm7
	psrld	$25, %xmm7
	pslld	$7, %xmm3
	por	%xmm7, %xmm3
	pshufd	$57, %xmm3, %xmm3               ## xmm3 = xmm3[1,2,3,0]
	pshufd	$78, %xmm4, %xmm4               ## xmm4 = xmm4[2,3,0,1]
	paddd	%xmm3, %xmm1
	movdqa	%xmm1, %xmm7
	pshufb	%xmm6, %xmm7
	pshufb	Ldeerlapse_0_1_0_CPI38_3(%rip), %xmm2           ## xmm2 = xmm2[14,15,12,13,2,3,0,1,6,7,4,5,10,11,8,9]
	pxor	%xmm7, %xmm2
	paddd	%xmm2, %xmm4
	pxor	%xmm4, %xmm3
	movdqa	%xmm3, %xmm6
	psrld	$20, %xmm6
	pslld	$12, %xmm3
	por	%xmm6, %xmm3
	paddd	%xmm3, %xmm1
	movdqa	%xmm1, %xmm6
	pshufb	%xmm5, %xmm6
	pshufb	%xmm5, %xmm2
	pxor	%xmm6, %xmm2
	paddd	%xmm2, %xmm4
	pxor	%xmm4, %xmm3
	movdqa	%xmm3, %xmm5
	psrld	$25, %xmm5
	pslld	$7, %xmm3
	por	%xmm5, %xmm3
	pshufd	$147, %xmm3, %xmm3              ## xmm3 = xmm3[3,0,1,2]
	pshufd	$78, %xmm4, %xmm4               ## xmm4 = xmm4[2,3,0,1]
	pshufd	$57, %xmm2, %xmm2               ## xmm2 = xmm2[1,2,3,0]
	decl	%edx
	jne	Ldeerlapse_0_1_0_BB38_8
## %bb.9:                               ## %iter.check
                                        ##   in Loop: Header=BB38_3 Depth=1
	cmpq	$64, %rcx
	movl	$64, %edx
	cmovbq	%rcx, %rdx
	paddd	Ldeerlapse_0_1_0_CPI38_0(%rip), %xmm1
	paddd	272(%rsp), %xmm3                ## 16-byte Folded Reload
	paddd	256(%rsp), %xmm4                ## 16-byte Folded Reload
	paddd	%xmm0, %xmm2
	movdqa	%xmm1, 336(%rsp)
	movdqa	%xmm3, 352(%rsp)
	movdqa	%xmm4, 368(%rsp)
	movdqa	%xmm2, 384(%rsp)
	leaq	(%rax,%r13), %rdi
	cmpq	$4, %rcx
	jae	Ldeerlapse_0_1_0_BB38_12
## %bb.10:                              ##   in Loop: Header=BB38_3 Depth=1
	xorl	%ecx, %ecx
	jmp	Ldeerlapse_0_1_0_BB38_11
	.p2align	4
Ldeerlapse_0_1_0_BB38_12:                               ## %vector.main.loop.iter.check
                                        ##   in Loop: Header=BB38_3 Depth=1
	cmpq	$32, %rcx
	jae	Ldeerlapse_0_1_0_BB38_14
## %bb.13:                              ##   in Loop: Header=BB38_3 Depth=1
	xorl	%ecx, %ecx
	jmp	Ldeerlapse_0_1_0_BB38_18
Ldeerlapse_0_1_0_BB38_14:                               ## %vector.ph6
                                        ##   in Loop: Header=BB38_3 Depth=1
	movl	%edx, %ecx
	andl	$96, %ecx
	addq	112(%rsp), %rax                 ## 8-byte Folded Reload
	xorl	%esi, %esi
	.p2align	4
Ldeerlapse_0_1_0_BB38_15:                               ## %vector.body7
                                        ##   Parent Loop BB38_3 Depth=1
                                        ## =>  This Inner Loop Header: Depth=2
	movdqu	-16(%rax,%rsi), %xmm0
	movdqu	(%rax,%rsi), %xmm1
	pxor	336(%rsp,%rsi), %xmm0
	pxor	352(%rsp,%rsi), %xmm1
	movdqa	%xmm0, 336(%rsp,%rsi)
	movdqa	%xmm1, 352(%rsp,%rsi)
	addq	$32, %rsi
	cmpq	%rsi, %rcx
	jne	Ldeerlapse_0_1_0_BB38_15
## %bb.16:                              ## %middle.block14
                                        ##   in Loop: Header=BB38_3 Depth=1
	cmpq	%rcx, %rdx
	je	Ldeerlapse_0_1_0_BB38_21
## %bb.17:                              ## %vec.epilog.iter.check
                                        ##   in Loop: Header=BB38_3 Depth=1
	testb	$28, %dl
	je	Ldeerlapse_0_1_0_BB38_11
Ldeerlapse_0_1_0_BB38_18:                               ## %vec.epilog.ph
                                        ##   in Loop: Header=BB38_3 Depth=1
	movq	%rcx, %rax
	movl	%edx, %ecx
	andl	$124, %ecx
	.p2align	4
Ldeerlapse_0_1_0_BB38_19:                               ## %vec.epilog.vector.body
                                        ##   Parent Loop BB38_3 Depth=1
                                        ## =>  This Inner Loop Header: Depth=2
	movl	(%rdi,%rax), %esi
	xorl	%esi, 336(%rsp,%rax)
	addq	$4, %rax
	cmpq	%rax, %rcx
	jne	Ldeerlapse_0_1_0_BB38_19
	jmp	Ldeerlapse_0_1_0_BB38_20
	.p2align	4
Ldeerlapse_0_1_0_BB38_11:                               ## %join.5.i.i59.i.i.i
                                        ##   in Loop: Header=BB38_3 Depth=1
	movzbl	(%rdi,%rcx), %eax
	xorb	%al, 336(%rsp,%rcx)
	incq	%rcx
Ldeerlapse_0_1_0_BB38_20:                               ## %join.5.i.i59.i.i.i
                                        ##   in Loop: Header=BB38_3 Depth=1
	cmpq	%rcx, %rdx
	jne	Ldeerlapse_0_1_0_BB38_11
	jmp	Ldeerlapse_0_1_0_BB38_21
Ldeerlapse_0_1_0_BB38_23:                               ## %"deerlapse::chacha20::deerlapse_chacha20.exit"
	cmpq	%r12, 120(%rsp)                 ## 8-byte Folded Reload
	setae	%al
	addq	$488, %rsp                      ## imm = 0x1E8
	popq	%rbx
	popq	%r12
	popq	%r13
	popq	%r14
	popq	%r15
	popq	%rbp
	retq
	.cfi_endproc
                                        ## -- End function
	.ifdef	deerlapse_in_rust
	.globl	_deerlapse_0_1_0_hmac                 ## -- Begin function deerlapse_hmac
_deerlapse_0_1_0_hmac:                        ## @deerlapse_hmac
	.else
	.globl	_deerlapse_hmac                 ## -- Begin function deerlapse_hmac
_deerlapse_hmac:                        ## @deerlapse_hmac
	.endif
	.cfi_startproc
## %bb.0:                               ## %start
	pushq	%rax
	.cfi_def_cfa_offset 16
	xorl	%eax, %eax
	testq	%rdi, %rdi
	sete	%al
	shll	$12, %eax
	addq	%rax, %rdi
	xorl	%eax, %eax
	testq	%rdx, %rdx
	sete	%al
	shll	$12, %eax
	addq	%rax, %rdx
	xorl	%eax, %eax
	testq	%r8, %r8
	sete	%al
	shll	$12, %eax
	addq	%rax, %r8
	callq	"_deerlapse_0_1_0::deerlapse::hkdf::deerlapse_hmac"
	popq	%rcx
	retq
	.cfi_endproc
                                        ## -- End function
	.ifdef	deerlapse_in_rust
	.globl	_deerlapse_0_1_0_hkdf_extract         ## -- Begin function deerlapse_hkdf_extract
_deerlapse_0_1_0_hkdf_extract:                ## @deerlapse_hkdf_extract
	.else
	.globl	_deerlapse_hkdf_extract         ## -- Begin function deerlapse_hkdf_extract
_deerlapse_hkdf_extract:                ## @deerlapse_hkdf_extract
	.endif
	.cfi_startproc
## %bb.0:                               ## %start
	pushq	%rax
	.cfi_def_cfa_offset 16
	xorl	%eax, %eax
	testq	%rdi, %rdi
	sete	%al
	shll	$12, %eax
	addq	%rax, %rdi
	xorl	%eax, %eax
	testq	%rdx, %rdx
	sete	%al
	shll	$12, %eax
	addq	%rax, %rdx
	xorl	%eax, %eax
	testq	%r8, %r8
	sete	%al
	shll	$12, %eax
	addq	%rax, %r8
	callq	"_deerlapse_0_1_0::deerlapse::hkdf::deerlapse_hmac"
	popq	%rcx
	retq
	.cfi_endproc
                                        ## -- End function
	.ifdef	deerlapse_in_rust
	.globl	_deerlapse_0_1_0_key_wipe             ## -- Begin function deerlapse_key_wipe
	.p2align	4
_deerlapse_0_1_0_key_wipe:                    ## @deerlapse_key_wipe
	.else
	.globl	_deerlapse_key_wipe             ## -- Begin function deerlapse_key_wipe
	.p2align	4
_deerlapse_key_wipe:                    ## @deerlapse_key_wipe
	.endif
	.cfi_startproc
## %bb.0:                               ## %start
	movl	$3192, %esi                     ## imm = 0xC78
	jmp	___bzero                        ## TAILCALL
	.cfi_endproc
                                        ## -- End function
	.ifdef	deerlapse_in_rust
	.globl	_deerlapse_0_1_0_mask_aes             ## -- Begin function deerlapse_mask_aes
	.p2align	4
_deerlapse_0_1_0_mask_aes:                    ## @deerlapse_mask_aes
	.else
	.globl	_deerlapse_mask_aes             ## -- Begin function deerlapse_mask_aes
	.p2align	4
_deerlapse_mask_aes:                    ## @deerlapse_mask_aes
	.endif
	.cfi_startproc
## %bb.0:                               ## %start
	pushq	%rbp
	.cfi_def_cfa_offset 16
	pushq	%r15
	.cfi_def_cfa_offset 24
	pushq	%r14
	.cfi_def_cfa_offset 32
	pushq	%r13
	.cfi_def_cfa_offset 40
	pushq	%r12
	.cfi_def_cfa_offset 48
	pushq	%rbx
	.cfi_def_cfa_offset 56
	subq	$520, %rsp                      ## imm = 0x208
	.cfi_def_cfa_offset 576
	.cfi_offset %rbx, -56
	.cfi_offset %r12, -48
	.cfi_offset %r13, -40
	.cfi_offset %r14, -32
	.cfi_offset %r15, -24
	.cfi_offset %rbp, -16
	movq	%rcx, %r14
	movq	%rdx, %r15
	movq	%rdi, %rdx
	xorl	%ecx, %ecx
	testq	%rdi, %rdi
	sete	%dil
	movb	$1, %bl
	movb	$1, %al
	cmpq	$32, %rsi
	je	Ldeerlapse_0_1_0_BB42_4
## %bb.1:                               ## %start
	cmpq	$16, %rsi
	jne	Ldeerlapse_0_1_0_BB42_2
## %bb.3:                               ## %join.3.fold.split.i.i
	xorl	%eax, %eax
Ldeerlapse_0_1_0_BB42_4:                                ## %arm.1.i
	movb	%dil, %cl
	shll	$12, %ecx
	addq	%rcx, %rdx
	xorps	%xmm0, %xmm0
	movaps	%xmm0, 256(%rsp)
	movaps	%xmm0, 240(%rsp)
	movaps	%xmm0, 224(%rsp)
	movaps	%xmm0, 208(%rsp)
	movaps	%xmm0, 192(%rsp)
	movaps	%xmm0, 176(%rsp)
	movaps	%xmm0, 160(%rsp)
	movaps	%xmm0, 144(%rsp)
	movaps	%xmm0, 128(%rsp)
	movaps	%xmm0, 112(%rsp)
	movaps	%xmm0, 96(%rsp)
	movaps	%xmm0, 80(%rsp)
	movaps	%xmm0, 64(%rsp)
	movaps	%xmm0, 48(%rsp)
	movaps	%xmm0, 32(%rsp)
	movzbl	%al, %esi
	leaq	32(%rsp), %r12
	movq	%r12, %rdi
	callq	"_deerlapse_0_1_0::aead_ciphers_wide::aes::expand"
	movq	%rax, %r13
	leaq	272(%rsp), %rbp
	movl	$240, %edx
	movq	%rbp, %rdi
	movq	%r12, %rsi
	callq	_memcpy
	movq	%r13, 512(%rsp)
	xorps	%xmm0, %xmm0
	movaps	%xmm0, 16(%rsp)
	leaq	16(%rsp), %rdi
	movq	%rbp, %rsi
	movq	%r13, %rdx
	movq	%r15, %rcx
	callq	"_deerlapse_0_1_0::aead_ciphers_wide::aes::block_key::BlockKeyRef::encrypt_one"
	movzbl	20(%rsp), %eax
	movb	%al, 12(%rsp)
	movl	16(%rsp), %ecx
	movl	%ecx, 8(%rsp)
	movb	%al, 4(%r14)
	movl	%ecx, (%r14)
	jmp	Ldeerlapse_0_1_0_BB42_5
Ldeerlapse_0_1_0_BB42_2:
	xorl	%ebx, %ebx
Ldeerlapse_0_1_0_BB42_5:                                ## %"deerlapse::masks::deerlapse_mask_aes.exit"
	movl	%ebx, %eax
	addq	$520, %rsp                      ## imm = 0x208
	popq	%rbx
	popq	%r12
	popq	%r13
	popq	%r14
	popq	%r15
	popq	%rbp
	retq
	.cfi_endproc
                                        ## -- End function
	.section	__TEXT,__literal16,16byte_literals
	.p2align	4, 0x0                          ## -- Begin function deerlapse_mask_chacha20
Ldeerlapse_0_1_0_CPI43_0:
	.long	1634760805                      ## 0x61707865
	.long	857760878                       ## 0x3320646e
	.long	2036477234                      ## 0x79622d32
	.long	1797285236                      ## 0x6b206574
Ldeerlapse_0_1_0_CPI43_1:
	.byte	2                               ## 0x2
	.byte	3                               ## 0x3
	.byte	0                               ## 0x0
	.byte	1                               ## 0x1
	.byte	6                               ## 0x6
	.byte	7                               ## 0x7
	.byte	4                               ## 0x4
	.byte	5                               ## 0x5
	.byte	10                              ## 0xa
	.byte	11                              ## 0xb
	.byte	8                               ## 0x8
	.byte	9                               ## 0x9
	.byte	14                              ## 0xe
	.byte	15                              ## 0xf
	.byte	12                              ## 0xc
	.byte	13                              ## 0xd
Ldeerlapse_0_1_0_CPI43_2:
	.byte	3                               ## 0x3
	.byte	0                               ## 0x0
	.byte	1                               ## 0x1
	.byte	2                               ## 0x2
	.byte	7                               ## 0x7
	.byte	4                               ## 0x4
	.byte	5                               ## 0x5
	.byte	6                               ## 0x6
	.byte	11                              ## 0xb
	.byte	8                               ## 0x8
	.byte	9                               ## 0x9
	.byte	10                              ## 0xa
	.byte	15                              ## 0xf
	.byte	12                              ## 0xc
	.byte	13                              ## 0xd
	.byte	14                              ## 0xe
Ldeerlapse_0_1_0_CPI43_3:
	.byte	14                              ## 0xe
	.byte	15                              ## 0xf
	.byte	12                              ## 0xc
	.byte	13                              ## 0xd
	.byte	2                               ## 0x2
	.byte	3                               ## 0x3
	.byte	0                               ## 0x0
	.byte	1                               ## 0x1
	.byte	6                               ## 0x6
	.byte	7                               ## 0x7
	.byte	4                               ## 0x4
	.byte	5                               ## 0x5
	.byte	10                              ## 0xa
	.byte	11                              ## 0xb
	.byte	8                               ## 0x8
	.byte	9                               ## 0x9
Ldeerlapse_0_1_0_CPI43_4:
	.long	1634760805                      ## 0x61707865
	.long	857760878                       ## 0x3320646e
	.space	4
	.space	4
	.section	__TEXT,__text,regular,pure_instructions
	.ifdef	deerlapse_in_rust
	.globl	_deerlapse_0_1_0_mask_chacha20
	.p2align	4
_deerlapse_0_1_0_mask_chacha20:               ## @deerlapse_mask_chacha20
	.else
	.globl	_deerlapse_mask_chacha20
	.p2align	4
_deerlapse_mask_chacha20:               ## @deerlapse_mask_chacha20
	.endif
	.cfi_startproc
## %bb.0:                               ## %start
	movdqu	(%rdi), %xmm2
	movdqu	16(%rdi), %xmm3
	movdqu	(%rsi), %xmm1
	movdqa	Ldeerlapse_0_1_0_CPI43_0(%rip), %xmm0           ## xmm0 = [1634760805,857760878,2036477234,1797285236]
	movl	$10, %eax
	.p2align	4
Ldeerlapse_0_1_0_BB43_1:                                ## %join.5.i.i.i.i
                                        ## =>This Inner Loop Header: Depth=1
	paddd	%xmm2, %xmm0
	pxor	%xmm0, %xmm1
	movdqa	Ldeerlapse_0_1_0_CPI43_1(%rip), %xmm5           ## xmm5 = [2,3,0,1,6,7,4,5,10,11,8,9,14,15,12,13]
	pshufb	%xmm5, %xmm1
	paddd	%xmm1, %xmm3
	pxor	%xmm3, %xmm2
	movdqa	%xmm2, %xmm4
	psrld	$20, %xmm4
	pslld	$12, %xmm2
	por	%xmm4, %xmm2
	paddd	%xmm2, %xmm0
	movdqa	Ldeerlapse_0_1_0_CPI43_2(%rip), %xmm4           ## xmm4 = [3,0,1,2,7,4,5,6,11,8,9,10,15,12,13,14]
	movdqa	%xmm0, %xmm6
	pshufb	%xmm4, %xmm6
	pshufb	%xmm4, %xmm1
	pxor	%xmm6, %xmm1
	paddd	%xmm1, %xmm3
	pxor	%xmm3, %xmm2
	movdqa	%xmm2, %xmm6
	psrld	$25, %xmm6
	pslld	$7, %xmm2
	por	%xmm6, %xmm2
	pshufd	$57, %xmm2, %xmm2               ## xmm2 = xmm2[1,2,3,0]
	pshufd	$78, %xmm3, %xmm3               ## xmm3 = xmm3[2,3,0,1]
	paddd	%xmm2, %xmm0
	movdqa	%xmm0, %xmm6
	pshufb	%xmm5, %xmm6
	pshufb	Ldeerlapse_0_1_0_CPI43_3(%rip), %xmm1           ## xmm1 = xmm1[14,15,12,13,2,3,0,1,6,7,4,5,10,11,8,9]
	pxor	%xmm6, %xmm1
	paddd	%xmm1, %xmm3
	pxor	%xmm3, %xmm2
	movdqa	%xmm2, %xmm5
	psrld	$20, %xmm5
	pslld	$12, %xmm2
	por	%xmm5, %xmm2
	paddd	%xmm2, %xmm0
	movdqa	%xmm0, %xmm5
	pshufb	%xmm4, %xmm5
	pshufb	%xmm4, %xmm1
	pxor	%xmm5, %xmm1
	paddd	%xmm1, %xmm3
	pxor	%xmm3, %xmm2
	movdqa	%xmm2, %xmm4
	psrld	$25, %xmm4
	pslld	$7, %xmm2
	por	%xmm4, %xmm2
	pshufd	$147, %xmm2, %xmm2              ## xmm2 = xmm2[3,0,1,2]
	pshufd	$78, %xmm3, %xmm3               ## xmm3 = xmm3[2,3,0,1]
	pshufd	$57, %xmm1, %xmm1               ## xmm1 = xmm1[1,2,3,0]
	decl	%eax
	jne	Ldeerlapse_0_1_0_BB43_1
## %bb.2:                               ## %"deerlapse::masks::deerlapse_mask_chacha20.exit"
	paddd	Ldeerlapse_0_1_0_CPI43_4(%rip), %xmm0
	movd	%xmm0, (%rdx)
	pextrb	$4, %xmm0, 4(%rdx)
	retq
	.cfi_endproc
                                        ## -- End function
	.ifdef	deerlapse_in_rust
	.globl	_deerlapse_0_1_0_nonce                ## -- Begin function deerlapse_nonce
	.p2align	4
_deerlapse_0_1_0_nonce:                       ## @deerlapse_nonce
	.else
	.globl	_deerlapse_nonce                ## -- Begin function deerlapse_nonce
	.p2align	4
_deerlapse_nonce:                       ## @deerlapse_nonce
	.endif
	.cfi_startproc
## %bb.0:                               ## %start
	bswapq	%rsi
	movl	%esi, %eax
	shrl	$24, %eax
	movl	%esi, %ecx
	shrl	$16, %ecx
	movd	%esi, %xmm0
	movl	%esi, %r8d
	shrl	$8, %r8d
	pinsrb	$1, %r8d, %xmm0
	pinsrb	$2, %ecx, %xmm0
	movd	4(%rdi), %xmm1                  ## xmm1 = mem[0],zero,zero,zero
	pinsrb	$3, %eax, %xmm0
	pxor	%xmm1, %xmm0
	movd	(%rdi), %xmm1                   ## xmm1 = mem[0],zero,zero,zero
	punpckldq	%xmm0, %xmm1            ## xmm1 = xmm1[0],xmm0[0],xmm1[1],xmm0[1]
	movq	%rsi, %rax
	shrq	$56, %rax
	movq	%rsi, %rcx
	shrq	$48, %rcx
	movq	%rsi, %r8
	shrq	$40, %r8
	shrq	$32, %rsi
	movd	%esi, %xmm0
	pinsrb	$1, %r8d, %xmm0
	pinsrb	$2, %ecx, %xmm0
	pinsrb	$3, %eax, %xmm0
	movd	8(%rdi), %xmm2                  ## xmm2 = mem[0],zero,zero,zero
	pxor	%xmm2, %xmm0
	movq	%xmm1, (%rdx)
	movd	%xmm0, 8(%rdx)
	retq
	.cfi_endproc
                                        ## -- End function
	.ifdef	deerlapse_in_rust
	.globl	_deerlapse_0_1_0_opener_next          ## -- Begin function deerlapse_opener_next
	.p2align	4
_deerlapse_0_1_0_opener_next:                 ## @deerlapse_opener_next
	.else
	.globl	_deerlapse_opener_next          ## -- Begin function deerlapse_opener_next
	.p2align	4
_deerlapse_opener_next:                 ## @deerlapse_opener_next
	.endif
	.cfi_startproc
## %bb.0:                               ## %start
	movq	3192(%rdi), %rax
	retq
	.cfi_endproc
                                        ## -- End function
	.ifdef	deerlapse_in_rust
	.globl	_deerlapse_0_1_0_quic_header_key_wipe ## -- Begin function deerlapse_quic_header_key_wipe
	.p2align	4
_deerlapse_0_1_0_quic_header_key_wipe:        ## @deerlapse_quic_header_key_wipe
	.else
	.globl	_deerlapse_quic_header_key_wipe ## -- Begin function deerlapse_quic_header_key_wipe
	.p2align	4
_deerlapse_quic_header_key_wipe:        ## @deerlapse_quic_header_key_wipe
	.endif
	.cfi_startproc
## %bb.0:                               ## %start
	xorps	%xmm0, %xmm0
	movups	%xmm0, 224(%rdi)
	movups	%xmm0, 208(%rdi)
	movups	%xmm0, 192(%rdi)
	movups	%xmm0, 176(%rdi)
	movups	%xmm0, 160(%rdi)
	movups	%xmm0, 144(%rdi)
	movups	%xmm0, 128(%rdi)
	movups	%xmm0, 112(%rdi)
	movups	%xmm0, 96(%rdi)
	movups	%xmm0, 80(%rdi)
	movups	%xmm0, 64(%rdi)
	movups	%xmm0, 48(%rdi)
	movups	%xmm0, 32(%rdi)
	movups	%xmm0, 16(%rdi)
	movups	%xmm0, (%rdi)
	movq	$0, 240(%rdi)
	retq
	.cfi_endproc
                                        ## -- End function
	.ifdef	deerlapse_in_rust
	.globl	_deerlapse_0_1_0_quic_initial_secrets ## -- Begin function deerlapse_quic_initial_secrets
_deerlapse_0_1_0_quic_initial_secrets:        ## @deerlapse_quic_initial_secrets
	.else
	.globl	_deerlapse_quic_initial_secrets ## -- Begin function deerlapse_quic_initial_secrets
_deerlapse_quic_initial_secrets:        ## @deerlapse_quic_initial_secrets
	.endif
	.cfi_startproc
## %bb.0:                               ## %start
	pushq	%rbp
	.cfi_def_cfa_offset 16
	pushq	%r15
	.cfi_def_cfa_offset 24
	pushq	%r14
	.cfi_def_cfa_offset 32
	pushq	%r13
	.cfi_def_cfa_offset 40
	pushq	%r12
	.cfi_def_cfa_offset 48
	pushq	%rbx
	.cfi_def_cfa_offset 56
	subq	$232, %rsp
	.cfi_def_cfa_offset 288
	.cfi_offset %rbx, -56
	.cfi_offset %r12, -48
	.cfi_offset %r13, -40
	.cfi_offset %r14, -32
	.cfi_offset %r15, -24
	.cfi_offset %rbp, -16
	movq	%rdx, %r15
	movq	%rsi, %r12
	xorl	%esi, %esi
	testq	%r12, %r12
	sete	%dl
	xorl	%eax, %eax
	cmpl	$1, %edi
	je	Ldeerlapse_0_1_0_BB47_3
## %bb.1:                               ## %start
	cmpl	$1798521807, %edi               ## imm = 0x6B3343CF
	jne	Ldeerlapse_0_1_0_BB47_6
## %bb.2:                               ## %arm.2.i.i
	movb	$1, %al
Ldeerlapse_0_1_0_BB47_3:                                ## %arm.1.i
	movq	%rcx, (%rsp)                    ## 8-byte Spill
	movq	%r8, 8(%rsp)                    ## 8-byte Spill
	movb	%dl, %sil
	shll	$12, %esi
	addq	%rsi, %r12
	movzbl	%al, %ebp
	leaq	ldeerlapse_0_1_0__static.5(%rip), %r8
	leaq	112(%rsp), %r13
	movq	%r13, %rdi
	movl	%ebp, %esi
	movq	%r12, %rdx
	movq	%r15, %rcx
	callq	"_deerlapse_0_1_0::key_derivation::quic::endpoint_secret"
	movb	(%r13), %r14b
	movb	2(%r13), %bl
	movups	3(%r13), %xmm0
	movaps	%xmm0, 64(%rsp)
	movups	19(%r13), %xmm0
	movaps	%xmm0, 80(%rsp)
	movups	35(%r13), %xmm0
	movaps	%xmm0, 96(%rsp)
	leaq	ldeerlapse_0_1_0__static.8(%rip), %r8
	leaq	112(%rsp), %r13
	movq	%r13, %rdi
	movl	%ebp, %esi
	movq	%r12, %rdx
	movq	%r15, %rcx
	callq	"_deerlapse_0_1_0::key_derivation::quic::endpoint_secret"
	movb	(%r13), %al
	movb	2(%r13), %bpl
	movups	3(%r13), %xmm0
	movaps	%xmm0, 16(%rsp)
	movups	19(%r13), %xmm0
	movaps	%xmm0, 32(%rsp)
	movups	35(%r13), %xmm0
	movaps	%xmm0, 48(%rsp)
	orb	%r14b, %al
	jne	Ldeerlapse_0_1_0_BB47_4
## %bb.5:                               ## %arm.10.i
	movaps	64(%rsp), %xmm0
	movaps	80(%rsp), %xmm1
	movaps	96(%rsp), %xmm2
	leaq	112(%rsp), %rsi
	movaps	%xmm2, 32(%rsi)
	movaps	%xmm1, 16(%rsi)
	movaps	%xmm0, (%rsi)
	movaps	16(%rsp), %xmm0
	movaps	32(%rsp), %xmm1
	movaps	48(%rsp), %xmm2
	leaq	176(%rsp), %r15
	movaps	%xmm0, (%r15)
	movaps	%xmm1, 16(%r15)
	movaps	%xmm2, 32(%r15)
	xorl	%edx, %edx
	testb	%bl, %bl
	setne	%dl
	shll	$4, %edx
	orq	$32, %rdx
	movq	(%rsp), %rdi                    ## 8-byte Reload
	callq	_memcpy
	xorl	%edx, %edx
	testb	%bpl, %bpl
	setne	%dl
	shll	$4, %edx
	orq	$32, %rdx
	movq	8(%rsp), %rdi                   ## 8-byte Reload
	movq	%r15, %rsi
	callq	_memcpy
	movb	$1, %al
	jmp	Ldeerlapse_0_1_0_BB47_6
Ldeerlapse_0_1_0_BB47_4:
	xorl	%eax, %eax
Ldeerlapse_0_1_0_BB47_6:                                ## %"deerlapse::quic_key::deerlapse_quic_initial_secrets.exit"
                                        ## kill: def $al killed $al killed $eax
	addq	$232, %rsp
	popq	%rbx
	popq	%r12
	popq	%r13
	popq	%r14
	popq	%r15
	popq	%rbp
	retq
	.cfi_endproc
                                        ## -- End function
	.ifdef	deerlapse_in_rust
	.globl	_deerlapse_0_1_0_sealer_next          ## -- Begin function deerlapse_sealer_next
	.p2align	4
_deerlapse_0_1_0_sealer_next:                 ## @deerlapse_sealer_next
	.else
	.globl	_deerlapse_sealer_next          ## -- Begin function deerlapse_sealer_next
	.p2align	4
_deerlapse_sealer_next:                 ## @deerlapse_sealer_next
	.endif
	.cfi_startproc
## %bb.0:                               ## %start
	movq	3192(%rdi), %rax
	retq
	.cfi_endproc
                                        ## -- End function
	.ifdef	deerlapse_in_rust
	.globl	_deerlapse_0_1_0_version              ## -- Begin function deerlapse_version
	.p2align	4
_deerlapse_0_1_0_version:                     ## @deerlapse_version
	.else
	.globl	_deerlapse_version              ## -- Begin function deerlapse_version
	.p2align	4
_deerlapse_version:                     ## @deerlapse_version
	.endif
	.cfi_startproc
## %bb.0:                               ## %start
	movl	$256, %eax                      ## imm = 0x100
	retq
	.cfi_endproc
                                        ## -- End function
	.ifdef	deerlapse_in_rust
	.globl	_deerlapse_0_1_0_xaes_wipe            ## -- Begin function deerlapse_xaes_wipe
	.p2align	4
_deerlapse_0_1_0_xaes_wipe:                   ## @deerlapse_xaes_wipe
	.else
	.globl	_deerlapse_xaes_wipe            ## -- Begin function deerlapse_xaes_wipe
	.p2align	4
_deerlapse_xaes_wipe:                   ## @deerlapse_xaes_wipe
	.endif
	.cfi_startproc
## %bb.0:                               ## %start
	movl	$264, %esi                      ## imm = 0x108
	jmp	___bzero                        ## TAILCALL
	.cfi_endproc
                                        ## -- End function
	.ifdef	deerlapse_in_rust
	.globl	_deerlapse_0_1_0_quic_header_key_init ## -- Begin function deerlapse_quic_header_key_init
	.p2align	4
_deerlapse_0_1_0_quic_header_key_init:        ## @deerlapse_quic_header_key_init
	.else
	.globl	_deerlapse_quic_header_key_init ## -- Begin function deerlapse_quic_header_key_init
	.p2align	4
_deerlapse_quic_header_key_init:        ## @deerlapse_quic_header_key_init
	.endif
	.cfi_startproc
## %bb.0:                               ## %start
	pushq	%r14
	.cfi_def_cfa_offset 16
	pushq	%rbx
	.cfi_def_cfa_offset 24
	pushq	%rax
	.cfi_def_cfa_offset 32
	.cfi_offset %rbx, -24
	.cfi_offset %r14, -16
	xorl	%eax, %eax
	testq	%rsi, %rsi
	sete	%r8b
	movb	$1, %bl
	movb	$1, %cl
	cmpq	$32, %rdx
	je	Ldeerlapse_0_1_0_BB51_4
## %bb.1:                               ## %start
	cmpq	$16, %rdx
	jne	Ldeerlapse_0_1_0_BB51_2
## %bb.3:                               ## %join.3.fold.split.i.i
	xorl	%ecx, %ecx
Ldeerlapse_0_1_0_BB51_4:                                ## %arm.1.i
	movb	%r8b, %al
	shll	$12, %eax
	addq	%rax, %rsi
	leaq	8(%rdi), %rax
	movzbl	%cl, %ecx
	movq	%rdi, %r14
	movq	%rax, %rdi
	movq	%rsi, %rdx
	movl	%ecx, %esi
	callq	"_deerlapse_0_1_0::aead_ciphers_wide::aes::expand"
	movq	%rax, (%r14)
	jmp	Ldeerlapse_0_1_0_BB51_5
Ldeerlapse_0_1_0_BB51_2:
	xorl	%ebx, %ebx
Ldeerlapse_0_1_0_BB51_5:                                ## %"deerlapse::header_key::deerlapse_quic_header_key_init.exit"
	movl	%ebx, %eax
	addq	$8, %rsp
	popq	%rbx
	popq	%r14
	retq
	.cfi_endproc
                                        ## -- End function
	.ifdef	deerlapse_in_rust
	.globl	_deerlapse_0_1_0_quic_header_key_mask ## -- Begin function deerlapse_quic_header_key_mask
	.p2align	4
_deerlapse_0_1_0_quic_header_key_mask:        ## @deerlapse_quic_header_key_mask
	.else
	.globl	_deerlapse_quic_header_key_mask ## -- Begin function deerlapse_quic_header_key_mask
	.p2align	4
_deerlapse_quic_header_key_mask:        ## @deerlapse_quic_header_key_mask
	.endif
	.cfi_startproc
## %bb.0:                               ## %start
	pushq	%r14
	.cfi_def_cfa_offset 16
	pushq	%rbx
	.cfi_def_cfa_offset 24
	subq	$40, %rsp
	.cfi_def_cfa_offset 64
	.cfi_offset %rbx, -24
	.cfi_offset %r14, -16
	movq	%rdx, %rbx
	movq	(%rdi), %rdx
	leaq	-10(%rdx), %r14
	cmpq	$4, %r14
	ja	Ldeerlapse_0_1_0_BB52_2
## %bb.1:                               ## %join.3.i
	movq	%rsi, %rcx
	movq	%rdi, %rsi
	addq	$8, %rsi
	xorps	%xmm0, %xmm0
	movaps	%xmm0, 16(%rsp)
	leaq	16(%rsp), %rdi
	callq	"_deerlapse_0_1_0::aead_ciphers_wide::aes::block_key::BlockKeyRef::encrypt_one"
	movzbl	20(%rsp), %eax
	movb	%al, 12(%rsp)
	movl	16(%rsp), %ecx
	movl	%ecx, 8(%rsp)
	movb	%al, 4(%rbx)
	movl	%ecx, (%rbx)
Ldeerlapse_0_1_0_BB52_2:                                ## %"deerlapse::header_key::deerlapse_quic_header_key_mask.exit"
	cmpq	$5, %r14
	setb	%al
	addq	$40, %rsp
	popq	%rbx
	popq	%r14
	retq
	.cfi_endproc
                                        ## -- End function
	.ifdef	deerlapse_in_rust
	.globl	_deerlapse_0_1_0_key_begin            ## -- Begin function deerlapse_key_begin
	.p2align	4
_deerlapse_0_1_0_key_begin:                   ## @deerlapse_key_begin
	.else
	.globl	_deerlapse_key_begin            ## -- Begin function deerlapse_key_begin
	.p2align	4
_deerlapse_key_begin:                   ## @deerlapse_key_begin
	.endif
	.cfi_startproc
## %bb.0:                               ## %start
	pushq	%rbp
	.cfi_def_cfa_offset 16
	pushq	%r15
	.cfi_def_cfa_offset 24
	pushq	%r14
	.cfi_def_cfa_offset 32
	pushq	%r13
	.cfi_def_cfa_offset 40
	pushq	%r12
	.cfi_def_cfa_offset 48
	pushq	%rbx
	.cfi_def_cfa_offset 56
	subq	$392, %rsp                      ## imm = 0x188
	.cfi_def_cfa_offset 448
	.cfi_offset %rbx, -56
	.cfi_offset %r12, -48
	.cfi_offset %r13, -40
	.cfi_offset %r14, -32
	.cfi_offset %r15, -24
	.cfi_offset %rbp, -16
	movq	%rcx, %rbx
	xorl	%eax, %eax
	testq	%rdx, %rdx
	sete	%cl
	movl	1920(%rdi), %r9d
	addl	$-10, %r9d
	cmpl	$4, %r9d
	ja	Ldeerlapse_0_1_0_BB53_3
## %bb.1:                               ## %join.3.i
	movabsq	$2305843009213693936, %r15      ## imm = 0x1FFFFFFFFFFFFFF0
	leaq	2168(%rdi), %r14
	addq	$2680, %rdi                     ## imm = 0xA78
	movq	%r14, 48(%rsp)
	movq	%rdi, 56(%rsp)
	leaq	15(%r15), %rdi
	cmpq	%rdi, %rbx
	jbe	Ldeerlapse_0_1_0_BB53_4
Ldeerlapse_0_1_0_BB53_3:
	xorl	%eax, %eax
	jmp	Ldeerlapse_0_1_0_BB53_7
Ldeerlapse_0_1_0_BB53_4:                                ## %join.3.i.i.i
	movq	%rsi, %rbp
	movq	%r8, 24(%rsp)                   ## 8-byte Spill
	movb	%cl, %al
	shll	$12, %eax
	addq	%rax, %rdx
	xorps	%xmm0, %xmm0
	movaps	%xmm0, (%rsp)
	movaps	%xmm0, 32(%rsp)
	andq	%rbx, %r15
	leaq	48(%rsp), %rdi
	movq	%rsp, %rsi
	leaq	32(%rsp), %r8
	movq	%rdx, %r13
	movq	%r15, %rcx
	callq	"_deerlapse_0_1_0::aead_ciphers_wide::gcm::KeyRefUpdateBlocks::update_blocks"
	movq	%rbx, %r12
	andq	$15, %r12
	je	Ldeerlapse_0_1_0_BB53_6
## %bb.5:                               ## %then.1.i.i.i.i.i
	addq	%r15, %r13
	movl	$16, %esi
	subq	%r12, %rsi
	leaq	(%rsp,%r12), %rdi
	addq	$64, %rdi
	callq	___bzero
	leaq	64(%rsp), %r15
	movq	%r15, %rdi
	movq	%r13, %rsi
	movq	%r12, %rdx
	callq	_memcpy
	movq	%rsp, %rsi
	leaq	32(%rsp), %rcx
	movq	%r14, %rdi
	movq	%r15, %rdx
	callq	"_deerlapse_0_1_0::aead_ciphers_wide::gcm::KeyRefUpdateBlock::update_block"
Ldeerlapse_0_1_0_BB53_6:                                ## %arm.4.i
	movaps	(%rsp), %xmm0
	movaps	%xmm0, 80(%rsp)
	xorps	%xmm0, %xmm0
	movaps	%xmm0, 96(%rsp)
	movaps	%xmm0, 112(%rsp)
	movaps	%xmm0, 128(%rsp)
	movaps	%xmm0, 144(%rsp)
	movaps	%xmm0, 160(%rsp)
	movaps	%xmm0, 176(%rsp)
	movaps	%xmm0, 192(%rsp)
	movaps	%xmm0, 208(%rsp)
	leaq	247(%rsp), %r14
	leaq	80(%rsp), %rsi
	movl	$144, %edx
	movq	%r14, %rdi
	callq	_memcpy
	leaq	87(%rsp), %r15
	movl	$144, %edx
	movq	%r15, %rdi
	movq	%r14, %rsi
	callq	_memcpy
	movq	(%rbp), %rax
	movq	%rax, 240(%rsp)
	movl	8(%rbp), %eax
	movl	%eax, 248(%rsp)
	movl	$144, %edx
	movq	24(%rsp), %r14                  ## 8-byte Reload
	movq	%r14, %rdi
	movq	%r15, %rsi
	callq	_memcpy
	movq	%rbx, 144(%r14)
	movq	$0, 152(%r14)
	movq	240(%rsp), %rax
	movq	%rax, 160(%r14)
	movl	248(%rsp), %eax
	movl	%eax, 168(%r14)
	movl	$1, 172(%r14)
	movb	$1, %al
Ldeerlapse_0_1_0_BB53_7:                                ## %"deerlapse::pieces::deerlapse_key_begin.exit"
                                        ## kill: def $al killed $al killed $eax
	addq	$392, %rsp                      ## imm = 0x188
	popq	%rbx
	popq	%r12
	popq	%r13
	popq	%r14
	popq	%r15
	popq	%rbp
	retq
	.cfi_endproc
                                        ## -- End function
	.ifdef	deerlapse_in_rust
	.globl	_deerlapse_0_1_0_key_finish           ## -- Begin function deerlapse_key_finish
	.p2align	4
_deerlapse_0_1_0_key_finish:                  ## @deerlapse_key_finish
	.else
	.globl	_deerlapse_key_finish           ## -- Begin function deerlapse_key_finish
	.p2align	4
_deerlapse_key_finish:                  ## @deerlapse_key_finish
	.endif
	.cfi_startproc
## %bb.0:                               ## %start
	movl	1920(%rdi), %eax
	addl	$-10, %eax
	cmpl	$4, %eax
	ja	Ldeerlapse_0_1_0_BB54_6
## %bb.1:                               ## %else.4.i
	cmpl	$0, 172(%rsi)
	je	Ldeerlapse_0_1_0_BB54_6
## %bb.2:                               ## %after.1.i
	pushq	%rbp
	.cfi_def_cfa_offset 16
	pushq	%r15
	.cfi_def_cfa_offset 24
	pushq	%r14
	.cfi_def_cfa_offset 32
	pushq	%r13
	.cfi_def_cfa_offset 40
	pushq	%r12
	.cfi_def_cfa_offset 48
	pushq	%rbx
	.cfi_def_cfa_offset 56
	subq	$312, %rsp                      ## imm = 0x138
	.cfi_def_cfa_offset 368
	.cfi_offset %rbx, -56
	.cfi_offset %r12, -48
	.cfi_offset %r13, -40
	.cfi_offset %r14, -32
	.cfi_offset %r15, -24
	.cfi_offset %rbp, -16
	movq	%rdi, %rbx
	movq	%rdx, 88(%rsp)                  ## 8-byte Spill
	leaq	128(%rsp), %rdi
	movl	$176, %edx
	movq	%rsi, %r14
	callq	_memcpy
	xorps	%xmm1, %xmm1
	movups	%xmm1, (%r14)
	movups	%xmm1, 16(%r14)
	movups	%xmm1, 32(%r14)
	movups	%xmm1, 48(%r14)
	movups	%xmm1, 64(%r14)
	movups	%xmm1, 80(%r14)
	movups	%xmm1, 96(%r14)
	movups	%xmm1, 112(%r14)
	movups	%xmm1, 128(%r14)
	movups	%xmm1, 144(%r14)
	movups	%xmm1, 160(%r14)
	movl	1920(%rbx), %eax
	movq	%rax, 80(%rsp)                  ## 8-byte Spill
	leaq	2168(%rbx), %r15
	leaq	2680(%rbx), %rax
	movq	%r15, 96(%rsp)
	movq	%rax, 104(%rsp)
	movaps	%xmm1, 64(%rsp)
	movaps	%xmm1, (%rsp)
	movq	$0, 48(%rsp)
	movq	$0, 55(%rsp)
	movq	280(%rsp), %r14
	leaq	144(%rsp), %r12
	movaps	128(%rsp), %xmm0
	movaps	%xmm0, 16(%rsp)
	movaps	%xmm1, 32(%rsp)
	movl	%r14d, %r13d
	andl	$112, %r13d
	leaq	96(%rsp), %rdi
	leaq	16(%rsp), %rsi
	leaq	32(%rsp), %r8
	movq	%r12, %rdx
	movq	%r13, %rcx
	callq	"_deerlapse_0_1_0::aead_ciphers_wide::gcm::KeyRefUpdateBlocks::update_blocks"
	movq	%r14, %rbp
	andq	$15, %rbp
	je	Ldeerlapse_0_1_0_BB54_4
## %bb.3:                               ## %then.1.i.i.i.i.i
	addq	%r13, %r12
	movl	$16, %esi
	subq	%rbp, %rsi
	leaq	(%rsp,%rbp), %rdi
	addq	$112, %rdi
	callq	___bzero
	leaq	112(%rsp), %r13
	movq	%r13, %rdi
	movq	%r12, %rsi
	movq	%rbp, %rdx
	callq	_memcpy
	leaq	16(%rsp), %rsi
	leaq	32(%rsp), %rcx
	movq	%r15, %rdi
	movq	%r13, %rdx
	callq	"_deerlapse_0_1_0::aead_ciphers_wide::gcm::KeyRefUpdateBlock::update_block"
Ldeerlapse_0_1_0_BB54_4:                                ## %"aead_ciphers_wide::aes_gcm::ExpandedKey::finish.exit.i"
	movq	272(%rsp), %rax
	movq	%rax, %rcx
	shrq	$53, %rcx
	movb	%cl, (%rsp)
	movq	%rax, %rcx
	shrq	$45, %rcx
	movb	%cl, 1(%rsp)
	movq	%rax, %rcx
	shrq	$37, %rcx
	movb	%cl, 2(%rsp)
	movq	%rax, %rcx
	shrq	$29, %rcx
	movb	%cl, 3(%rsp)
	movl	%eax, %ecx
	shrl	$21, %ecx
	movb	%cl, 4(%rsp)
	movl	%eax, %ecx
	shrl	$13, %ecx
	movb	%cl, 5(%rsp)
	movl	%eax, %ecx
	shrl	$5, %ecx
	movb	%cl, 6(%rsp)
	shlb	$3, %al
	movb	%al, 7(%rsp)
	movq	%r14, %rax
	shrq	$53, %rax
	movb	%al, 8(%rsp)
	movq	%r14, %rax
	shrq	$45, %rax
	movb	%al, 9(%rsp)
	movq	%r14, %rax
	shrq	$37, %rax
	movb	%al, 10(%rsp)
	movq	%r14, %rax
	shrq	$29, %rax
	movb	%al, 11(%rsp)
	movl	%r14d, %eax
	shrl	$21, %eax
	movb	%al, 12(%rsp)
	movl	%r14d, %eax
	shrl	$13, %eax
	movb	%al, 13(%rsp)
	movl	%r14d, %eax
	shrl	$5, %eax
	movb	%al, 14(%rsp)
	shlb	$3, %r14b
	movb	%r14b, 15(%rsp)
	addq	$1928, %rbx                     ## imm = 0x788
	movaps	16(%rsp), %xmm0
	movaps	%xmm0, 64(%rsp)
	xorps	%xmm0, %xmm0
	movaps	%xmm0, 16(%rsp)
	leaq	96(%rsp), %rdi
	leaq	64(%rsp), %rsi
	movq	%rsp, %rdx
	leaq	16(%rsp), %r8
	movl	$16, %ecx
	callq	"_deerlapse_0_1_0::aead_ciphers_wide::gcm::KeyRefUpdateBlocks::update_blocks"
	movb	$0, 30(%rsp)
	movw	$0, 28(%rsp)
	movl	296(%rsp), %eax
	movl	%eax, 24(%rsp)
	movq	288(%rsp), %rax
	movq	%rax, 16(%rsp)
	movq	%rax, 48(%rsp)
	movq	23(%rsp), %rax
	movq	%rax, 55(%rsp)
	movq	48(%rsp), %rax
	movq	55(%rsp), %rcx
	movq	%rcx, 39(%rsp)
	movq	%rax, 32(%rsp)
	movb	$1, 47(%rsp)
	xorps	%xmm0, %xmm0
	movaps	%xmm0, 16(%rsp)
	leaq	16(%rsp), %rdi
	leaq	32(%rsp), %rcx
	movq	%rbx, %rsi
	movq	80(%rsp), %rdx                  ## 8-byte Reload
	callq	"_deerlapse_0_1_0::aead_ciphers_wide::aes::block_key::BlockKeyRef::encrypt_one"
	movaps	16(%rsp), %xmm0
	xorps	64(%rsp), %xmm0
	movq	88(%rsp), %rax                  ## 8-byte Reload
	movups	%xmm0, (%rax)
	movb	$1, %al
	addq	$312, %rsp                      ## imm = 0x138
	popq	%rbx
	popq	%r12
	popq	%r13
	popq	%r14
	popq	%r15
	popq	%rbp
                                        ## kill: def $al killed $al killed $eax
	retq
Ldeerlapse_0_1_0_BB54_6:
	xorl	%eax, %eax
                                        ## kill: def $al killed $al killed $eax
	retq
	.cfi_endproc
                                        ## -- End function
	.ifdef	deerlapse_in_rust
	.globl	_deerlapse_0_1_0_key_open             ## -- Begin function deerlapse_key_open
	.p2align	4
_deerlapse_0_1_0_key_open:                    ## @deerlapse_key_open
	.else
	.globl	_deerlapse_key_open             ## -- Begin function deerlapse_key_open
	.p2align	4
_deerlapse_key_open:                    ## @deerlapse_key_open
	.endif
	.cfi_startproc
## %bb.0:                               ## %start
	pushq	%rbp
	.cfi_def_cfa_offset 16
	pushq	%r15
	.cfi_def_cfa_offset 24
	pushq	%r14
	.cfi_def_cfa_offset 32
	pushq	%r13
	.cfi_def_cfa_offset 40
	pushq	%r12
	.cfi_def_cfa_offset 48
	pushq	%rbx
	.cfi_def_cfa_offset 56
	subq	$168, %rsp
	.cfi_def_cfa_offset 224
	.cfi_offset %rbx, -56
	.cfi_offset %r12, -48
	.cfi_offset %r13, -40
	.cfi_offset %r14, -32
	.cfi_offset %r15, -24
	.cfi_offset %rbp, -16
	xorl	%r15d, %r15d
	testq	%rdx, %rdx
	sete	%r12b
	xorl	%r11d, %r11d
	testq	%r8, %r8
	sete	%bpl
	movl	1920(%rdi), %r10d
	leal	-10(%r10), %eax
	cmpl	$4, %eax
	ja	Ldeerlapse_0_1_0_BB55_6
## %bb.1:                               ## %join.3.i
	cmpq	$16, %r9
	jb	Ldeerlapse_0_1_0_BB55_6
## %bb.2:                               ## %arm.1.i.i
	leaq	-16(%r9), %r14
	movq	%r14, %rax
	subq	224(%rsp), %rax
	jb	Ldeerlapse_0_1_0_BB55_6
## %bb.3:                               ## %arm.8.i.i
	movq	%rcx, %r13
	shrq	$61, %r13
	setne	%r13b
	movabsq	$68719476704, %rbx              ## imm = 0xFFFFFFFE0
	cmpq	%rbx, %rax
	seta	%bl
	orb	%r13b, %bl
	movq	224(%rsp), %r13
	jne	Ldeerlapse_0_1_0_BB55_6
## %bb.4:                               ## %then.11.i.i
	movb	%r12b, %r15b
	shll	$12, %r15d
	addq	%r15, %rdx
	movb	%bpl, %r11b
	shll	$12, %r11d
	addq	%r11, %r8
	addq	%r8, %r9
	addq	$-16, %r9
	leaq	1928(%rdi), %r11
	movl	1924(%rdi), %ebx
	movq	%rdi, 48(%rsp)
	movq	%r11, 56(%rsp)
	movq	%r10, 64(%rsp)
	movl	%ebx, 72(%rsp)
	movl	$0, 76(%rsp)
	leaq	2168(%rdi), %r10
	addq	$2680, %rdi                     ## imm = 0xA78
	movq	%r10, 104(%rsp)
	movq	%rdi, 112(%rsp)
	xorps	%xmm0, %xmm0
	movaps	%xmm0, 80(%rsp)
	movq	(%rsi), %rdi
	movq	%rdi, 32(%rsp)
	movl	8(%rsi), %esi
	movl	%esi, 40(%rsp)
	movups	(%r9), %xmm0
	movaps	%xmm0, 144(%rsp)
	movq	%r8, %r15
	leaq	(%r8,%r13), %rsi
	leaq	80(%rsp), %rdi
	movq	%rdi, 24(%rsp)
	movq	%rax, 16(%rsp)
	movq	%rsi, 8(%rsp)
	leaq	144(%rsp), %rax
	movq	%rax, (%rsp)
	leaq	127(%rsp), %rdi
	leaq	48(%rsp), %rsi
	leaq	104(%rsp), %rax
	leaq	32(%rsp), %r10
	movq	%rdx, %r8
	movq	%rax, %rdx
	movq	%rcx, %r9
	movq	%r10, %rcx
	callq	"_deerlapse_0_1_0::aead_ciphers::aes_gcm::opening::authenticate::<#7bfdf0a6b4753edd>"
	cmpb	$0, 127(%rsp)
	je	Ldeerlapse_0_1_0_BB55_8
Ldeerlapse_0_1_0_BB55_6:
	xorl	%eax, %eax
Ldeerlapse_0_1_0_BB55_7:                                ## %"deerlapse::key::deerlapse_key_open.exit"
                                        ## kill: def $al killed $al killed $eax
	addq	$168, %rsp
	popq	%rbx
	popq	%r12
	popq	%r13
	popq	%r14
	popq	%r15
	popq	%rbp
	retq
Ldeerlapse_0_1_0_BB55_8:                                ## %arm.4.i
	movq	232(%rsp), %rbx
	leaq	128(%rsp), %rsi
	leaq	48(%rsp), %rdi
	leaq	80(%rsp), %r9
	movq	%r15, %rdx
	movq	%r14, %rcx
	movq	%r13, %r8
	callq	"_deerlapse_0_1_0::aead_ciphers::aes_gcm::counter_mode::encrypt_within::<#6fa349fe97f872a2>"
	movq	%rax, (%rbx)
	movb	$1, %al
	jmp	Ldeerlapse_0_1_0_BB55_7
	.cfi_endproc
                                        ## -- End function
	.ifdef	deerlapse_in_rust
	.globl	_deerlapse_0_1_0_key_open_separate_tag ## -- Begin function deerlapse_key_open_separate_tag
	.p2align	4
_deerlapse_0_1_0_key_open_separate_tag:       ## @deerlapse_key_open_separate_tag
	.else
	.globl	_deerlapse_key_open_separate_tag ## -- Begin function deerlapse_key_open_separate_tag
	.p2align	4
_deerlapse_key_open_separate_tag:       ## @deerlapse_key_open_separate_tag
	.endif
	.cfi_startproc
## %bb.0:                               ## %start
	pushq	%rbp
	.cfi_def_cfa_offset 16
	pushq	%r15
	.cfi_def_cfa_offset 24
	pushq	%r14
	.cfi_def_cfa_offset 32
	pushq	%r13
	.cfi_def_cfa_offset 40
	pushq	%r12
	.cfi_def_cfa_offset 48
	pushq	%rbx
	.cfi_def_cfa_offset 56
	subq	$168, %rsp
	.cfi_def_cfa_offset 224
	.cfi_offset %rbx, -56
	.cfi_offset %r12, -48
	.cfi_offset %r13, -40
	.cfi_offset %r14, -32
	.cfi_offset %r15, -24
	.cfi_offset %rbp, -16
	xorl	%r15d, %r15d
	testq	%rdx, %rdx
	sete	%r12b
	xorl	%r11d, %r11d
	testq	%r8, %r8
	sete	%bpl
	xorl	%eax, %eax
	movq	%r9, %r10
	subq	224(%rsp), %r10
	movl	$0, %r13d
	cmovaeq	%r10, %r13
	jb	Ldeerlapse_0_1_0_BB56_8
## %bb.1:                               ## %arm.3.i
	movl	1920(%rdi), %r14d
	leal	-10(%r14), %eax
	cmpl	$4, %eax
	ja	Ldeerlapse_0_1_0_BB56_7
## %bb.2:                               ## %then.7.i
	xorl	%eax, %eax
	movq	%rcx, %rbx
	shrq	$61, %rbx
	jne	Ldeerlapse_0_1_0_BB56_8
## %bb.3:                               ## %then.7.i
	movabsq	$68719476705, %rbx              ## imm = 0xFFFFFFFE1
	cmpq	%rbx, %r13
	jae	Ldeerlapse_0_1_0_BB56_8
## %bb.4:                               ## %join.3.i.i.i
	movq	%rbx, %r13
	xorps	%xmm0, %xmm0
	movaps	%xmm0, 80(%rsp)
	leaq	1928(%rdi), %rax
	movl	1924(%rdi), %ebx
	movq	%rdi, 48(%rsp)
	movq	%rax, 56(%rsp)
	movq	%r14, 64(%rsp)
	movl	%ebx, 72(%rsp)
	movl	$0, 76(%rsp)
	leaq	2168(%rdi), %rax
	addq	$2680, %rdi                     ## imm = 0xA78
	movq	%rax, 104(%rsp)
	movq	%rdi, 112(%rsp)
	cmpq	%r13, %r10
	jae	Ldeerlapse_0_1_0_BB56_7
## %bb.5:                               ## %join.7.i.i.i
	movq	%r9, %r14
	movq	232(%rsp), %rax
	movb	%r12b, %r15b
	shll	$12, %r15d
	addq	%r15, %rdx
	movb	%bpl, %r11b
	shll	$12, %r11d
	addq	%r11, %r8
	movq	(%rsi), %rdi
	movq	%rdi, 32(%rsp)
	movl	8(%rsi), %esi
	movl	%esi, 40(%rsp)
	movups	(%rax), %xmm0
	movaps	%xmm0, 144(%rsp)
	movq	%r8, %r15
	movq	224(%rsp), %rbx
	leaq	(%r8,%rbx), %rax
	leaq	80(%rsp), %rsi
	movq	%rsi, 24(%rsp)
	movq	%r10, 16(%rsp)
	movq	%rax, 8(%rsp)
	leaq	144(%rsp), %rax
	movq	%rax, (%rsp)
	leaq	127(%rsp), %rdi
	leaq	48(%rsp), %rsi
	leaq	104(%rsp), %rax
	leaq	32(%rsp), %r10
	movq	%rdx, %r8
	movq	%rax, %rdx
	movq	%rcx, %r9
	movq	%r10, %rcx
	callq	"_deerlapse_0_1_0::aead_ciphers::aes_gcm::opening::authenticate::<#7bfdf0a6b4753edd>"
	cmpb	$0, 127(%rsp)
	sete	%al
	jne	Ldeerlapse_0_1_0_BB56_8
## %bb.6:                               ## %arm.1.i.i.i.i
	leaq	128(%rsp), %rsi
	leaq	48(%rsp), %rdi
	leaq	80(%rsp), %r9
	movq	%r15, %rdx
	movq	%r14, %rcx
	movq	%rbx, %r8
	movq	%rax, %rbx
	callq	"_deerlapse_0_1_0::aead_ciphers::aes_gcm::counter_mode::encrypt_within::<#6fa349fe97f872a2>"
	movq	%rbx, %rax
	jmp	Ldeerlapse_0_1_0_BB56_8
Ldeerlapse_0_1_0_BB56_7:
	xorl	%eax, %eax
Ldeerlapse_0_1_0_BB56_8:                                ## %"deerlapse::key::deerlapse_key_open_separate_tag.exit"
                                        ## kill: def $al killed $al killed $rax
	addq	$168, %rsp
	popq	%rbx
	popq	%r12
	popq	%r13
	popq	%r14
	popq	%r15
	popq	%rbp
	retq
	.cfi_endproc
                                        ## -- End function
	.ifdef	deerlapse_in_rust
	.globl	_deerlapse_0_1_0_key_open_to_sized    ## -- Begin function deerlapse_key_open_to_sized
	.p2align	4
_deerlapse_0_1_0_key_open_to_sized:           ## @deerlapse_key_open_to_sized
	.else
	.globl	_deerlapse_key_open_to_sized    ## -- Begin function deerlapse_key_open_to_sized
	.p2align	4
_deerlapse_key_open_to_sized:           ## @deerlapse_key_open_to_sized
	.endif
	.cfi_startproc
## %bb.0:                               ## %start
	subq	$24, %rsp
	.cfi_def_cfa_offset 32
	movups	40(%rsp), %xmm0
	movq	32(%rsp), %rax
	xorl	%r10d, %r10d
	testq	%rdx, %rdx
	sete	%r10b
	shll	$12, %r10d
	addq	%r10, %rdx
	xorl	%r10d, %r10d
	testq	%r8, %r8
	sete	%r10b
	shll	$12, %r10d
	addq	%r10, %r8
	xorl	%r10d, %r10d
	testq	%rax, %rax
	sete	%r10b
	shll	$12, %r10d
	addq	%rax, %r10
	movups	%xmm0, 8(%rsp)
	movq	%r10, (%rsp)
	callq	"_deerlapse_0_1_0::deerlapse::out_of_place::deerlapse_key_open_to_sized"
	addq	$24, %rsp
	retq
	.cfi_endproc
                                        ## -- End function
	.ifdef	deerlapse_in_rust
	.globl	_deerlapse_0_1_0_key_open_appended_tag_sized ## -- Begin function deerlapse_key_open_appended_tag_sized
	.p2align	4
_deerlapse_0_1_0_key_open_appended_tag_sized: ## @deerlapse_key_open_appended_tag_sized
	.else
	.globl	_deerlapse_key_open_appended_tag_sized ## -- Begin function deerlapse_key_open_appended_tag_sized
	.p2align	4
_deerlapse_key_open_appended_tag_sized: ## @deerlapse_key_open_appended_tag_sized
	.endif
	.cfi_startproc
## %bb.0:                               ## %start
	cmpq	$16, %r9
	jae	Ldeerlapse_0_1_0_BB58_2
## %bb.1:
	xorl	%eax, %eax
                                        ## kill: def $al killed $al killed $eax
	retq
Ldeerlapse_0_1_0_BB58_2:                                ## %arm.1.i
	subq	$24, %rsp
	.cfi_def_cfa_offset 32
	movq	%r8, %rax
	movq	40(%rsp), %r10
	movq	32(%rsp), %r8
	xorl	%r11d, %r11d
	testq	%r8, %r8
	sete	%r11b
	shll	$12, %r11d
	addq	%r8, %r11
	xorl	%r8d, %r8d
	testq	%rax, %rax
	sete	%r8b
	shll	$12, %r8d
	addq	%rax, %r8
	xorl	%eax, %eax
	testq	%rdx, %rdx
	sete	%al
	shll	$12, %eax
	addq	%rdx, %rax
	leaq	(%r9,%r8), %rdx
	addq	$-16, %rdx
	addq	$-16, %r9
	movq	%r10, 8(%rsp)
	movq	%r11, (%rsp)
	movq	%rdx, 16(%rsp)
	movq	%rax, %rdx
	callq	"_deerlapse_0_1_0::deerlapse::out_of_place::deerlapse_key_open_to_sized"
                                        ## kill: def $al killed $al def $eax
	addq	$24, %rsp
                                        ## kill: def $al killed $al killed $eax
	retq
	.cfi_endproc
                                        ## -- End function
	.ifdef	deerlapse_in_rust
	.globl	_deerlapse_0_1_0_key_seal             ## -- Begin function deerlapse_key_seal
	.p2align	4
_deerlapse_0_1_0_key_seal:                    ## @deerlapse_key_seal
	.else
	.globl	_deerlapse_key_seal             ## -- Begin function deerlapse_key_seal
	.p2align	4
_deerlapse_key_seal:                    ## @deerlapse_key_seal
	.endif
	.cfi_startproc
## %bb.0:                               ## %start
	pushq	%rax
	.cfi_def_cfa_offset 16
	movq	16(%rsp), %rax
	xorl	%r10d, %r10d
	testq	%rdx, %rdx
	sete	%r10b
	shll	$12, %r10d
	addq	%r10, %rdx
	xorl	%r10d, %r10d
	testq	%r8, %r8
	sete	%r10b
	shll	$12, %r10d
	addq	%r10, %r8
	movq	%rax, (%rsp)
	callq	"_deerlapse_0_1_0::deerlapse::key::deerlapse_key_seal"
	popq	%rcx
	retq
	.cfi_endproc
                                        ## -- End function
	.ifdef	deerlapse_in_rust
	.globl	_deerlapse_0_1_0_key_seal_to_sized    ## -- Begin function deerlapse_key_seal_to_sized
	.p2align	4
_deerlapse_0_1_0_key_seal_to_sized:           ## @deerlapse_key_seal_to_sized
	.else
	.globl	_deerlapse_key_seal_to_sized    ## -- Begin function deerlapse_key_seal_to_sized
	.p2align	4
_deerlapse_key_seal_to_sized:           ## @deerlapse_key_seal_to_sized
	.endif
	.cfi_startproc
## %bb.0:                               ## %start
	pushq	%rbp
	.cfi_def_cfa_offset 16
	pushq	%r15
	.cfi_def_cfa_offset 24
	pushq	%r14
	.cfi_def_cfa_offset 32
	pushq	%r13
	.cfi_def_cfa_offset 40
	pushq	%r12
	.cfi_def_cfa_offset 48
	pushq	%rbx
	.cfi_def_cfa_offset 56
	pushq	%rax
	.cfi_def_cfa_offset 64
	.cfi_offset %rbx, -56
	.cfi_offset %r12, -48
	.cfi_offset %r13, -40
	.cfi_offset %r14, -32
	.cfi_offset %r15, -24
	.cfi_offset %rbp, -16
	movq	72(%rsp), %rbx
	xorl	%r14d, %r14d
	testq	%rdx, %rdx
	sete	%r10b
	xorl	%r11d, %r11d
	testq	%r8, %r8
	sete	%r15b
	xorl	%r12d, %r12d
	cmpq	$0, 64(%rsp)
	sete	%bpl
	xorl	%eax, %eax
	cmpq	%r9, %rbx
	jne	Ldeerlapse_0_1_0_BB60_26
## %bb.1:                               ## %start
	movl	1920(%rdi), %r9d
	addl	$-10, %r9d
	cmpl	$4, %r9d
	ja	Ldeerlapse_0_1_0_BB60_26
## %bb.2:                               ## %else.7.i
	movabsq	$68719476704, %r13              ## imm = 0xFFFFFFFE0
	movq	%rcx, %rax
	shrq	$61, %rax
	setne	%al
	leaq	1(%r13), %r9
	cmpq	%r9, %rbx
	setae	%r9b
	orb	%al, %r9b
	jne	Ldeerlapse_0_1_0_BB60_6
## %bb.3:                               ## %after.1.i
	movb	%r10b, %r14b
	shll	$12, %r14d
	addq	%r14, %rdx
	movb	%r15b, %r11b
	shll	$12, %r11d
	leaq	(%r8,%r11), %rax
	movb	%bpl, %r12b
	shll	$12, %r12d
	movq	64(%rsp), %r9
	leaq	(%r9,%r12), %r14
	movq	%r14, %r9
	subq	%rax, %r9
	cmpq	%rbx, %r9
	jae	Ldeerlapse_0_1_0_BB60_7
## %bb.4:                               ## %iter.check
	cmpq	$4, %rbx
	jb	Ldeerlapse_0_1_0_BB60_5
## %bb.8:                               ## %vector.memcheck
	cmpq	$32, %r9
	jae	Ldeerlapse_0_1_0_BB60_10
Ldeerlapse_0_1_0_BB60_5:
	xorl	%r9d, %r9d
Ldeerlapse_0_1_0_BB60_19:                               ## %join.7.i.i.i.i.i.i.i.preheader
	movq	%rbx, %r10
	movq	%r9, %r13
	andq	$3, %r10
	je	Ldeerlapse_0_1_0_BB60_22
## %bb.20:                              ## %join.7.i.i.i.i.i.i.i.prol.preheader
	movq	%r9, %r13
	.p2align	4
Ldeerlapse_0_1_0_BB60_21:                               ## %join.7.i.i.i.i.i.i.i.prol
                                        ## =>This Inner Loop Header: Depth=1
	movzbl	(%rax,%r13), %ebp
	movb	%bpl, (%r14,%r13)
	incq	%r13
	decq	%r10
	jne	Ldeerlapse_0_1_0_BB60_21
Ldeerlapse_0_1_0_BB60_22:                               ## %join.7.i.i.i.i.i.i.i.prol.loopexit
	subq	%rbx, %r9
	cmpq	$-4, %r9
	ja	Ldeerlapse_0_1_0_BB60_25
## %bb.23:                              ## %join.7.i.i.i.i.i.i.i.preheader11
	leaq	(%r11,%r8), %rax
	addq	$3, %rax
	movq	64(%rsp), %r8
	addq	%r12, %r8
	addq	$3, %r8
	.p2align	4
Ldeerlapse_0_1_0_BB60_24:                               ## %join.7.i.i.i.i.i.i.i
                                        ## =>This Inner Loop Header: Depth=1
	movzbl	-3(%rax,%r13), %r9d
	movb	%r9b, -3(%r8,%r13)
	movzbl	-2(%rax,%r13), %r9d
	movb	%r9b, -2(%r8,%r13)
	movzbl	-1(%rax,%r13), %r9d
	movb	%r9b, -1(%r8,%r13)
	movzbl	(%rax,%r13), %r9d
	movb	%r9b, (%r8,%r13)
	addq	$4, %r13
	cmpq	%r13, %rbx
	jne	Ldeerlapse_0_1_0_BB60_24
	jmp	Ldeerlapse_0_1_0_BB60_25
Ldeerlapse_0_1_0_BB60_6:
	xorl	%eax, %eax
	jmp	Ldeerlapse_0_1_0_BB60_26
Ldeerlapse_0_1_0_BB60_7:                                ## %apart.2.i.i.i.i.i.i.i
	movq	%rdi, %r15
	movq	%r14, %rdi
	movq	%rsi, %r12
	movq	%rax, %rsi
	movq	%rdx, %r13
	movq	%rbx, %rdx
	movq	%rcx, %rbp
	callq	_memmove
	movq	%r15, %rdi
	movq	%r12, %rsi
	movq	%r13, %rdx
	movq	%rbp, %rcx
Ldeerlapse_0_1_0_BB60_25:                               ## %"core::slice::edits::slice+T::copy_from_slice::<i8,20'core::clone::U8Clone{}>.exit.i"
	movq	80(%rsp), %rax
	movq	%rax, (%rsp)
	movq	%r14, %r8
	movq	%rbx, %r9
	callq	"_deerlapse_0_1_0::deerlapse::key::deerlapse_key_seal"
                                        ## kill: def $al killed $al def $eax
Ldeerlapse_0_1_0_BB60_26:                               ## %"deerlapse::out_of_place::deerlapse_key_seal_to_sized.exit"
                                        ## kill: def $al killed $al killed $eax
	addq	$8, %rsp
	popq	%rbx
	popq	%r12
	popq	%r13
	popq	%r14
	popq	%r15
	popq	%rbp
	retq
Ldeerlapse_0_1_0_BB60_10:                               ## %vector.main.loop.iter.check
	cmpq	$32, %rbx
	jae	Ldeerlapse_0_1_0_BB60_12
## %bb.11:
	xorl	%r9d, %r9d
	jmp	Ldeerlapse_0_1_0_BB60_16
Ldeerlapse_0_1_0_BB60_12:                               ## %vector.ph
	movq	%rbx, %r9
	andq	%r13, %r9
	leaq	(%r11,%r8), %r10
	addq	$16, %r10
	movq	64(%rsp), %r15
	addq	%r12, %r15
	addq	$16, %r15
	xorl	%ebp, %ebp
	.p2align	4
Ldeerlapse_0_1_0_BB60_13:                               ## %vector.body
                                        ## =>This Inner Loop Header: Depth=1
	movups	-16(%r10,%rbp), %xmm0
	movups	(%r10,%rbp), %xmm1
	movups	%xmm0, -16(%r15,%rbp)
	movups	%xmm1, (%r15,%rbp)
	addq	$32, %rbp
	cmpq	%rbp, %r9
	jne	Ldeerlapse_0_1_0_BB60_13
## %bb.14:                              ## %middle.block
	cmpq	%r9, %rbx
	je	Ldeerlapse_0_1_0_BB60_25
## %bb.15:                              ## %vec.epilog.iter.check
	testb	$28, %bl
	je	Ldeerlapse_0_1_0_BB60_19
Ldeerlapse_0_1_0_BB60_16:                               ## %vec.epilog.ph
	movq	%r9, %r10
	addq	$28, %r13
	movq	%r13, %r9
	andq	%rbx, %r9
	.p2align	4
Ldeerlapse_0_1_0_BB60_17:                               ## %vec.epilog.vector.body
                                        ## =>This Inner Loop Header: Depth=1
	movl	(%rax,%r10), %ebp
	movl	%ebp, (%r14,%r10)
	addq	$4, %r10
	cmpq	%r10, %r9
	jne	Ldeerlapse_0_1_0_BB60_17
## %bb.18:                              ## %vec.epilog.middle.block
	cmpq	%r9, %rbx
	je	Ldeerlapse_0_1_0_BB60_25
	jmp	Ldeerlapse_0_1_0_BB60_19
	.cfi_endproc
                                        ## -- End function
	.ifdef	deerlapse_in_rust
	.globl	_deerlapse_0_1_0_key_seal_append_tag_sized ## -- Begin function deerlapse_key_seal_append_tag_sized
	.p2align	4
_deerlapse_0_1_0_key_seal_append_tag_sized:   ## @deerlapse_key_seal_append_tag_sized
	.else
	.globl	_deerlapse_key_seal_append_tag_sized ## -- Begin function deerlapse_key_seal_append_tag_sized
	.p2align	4
_deerlapse_key_seal_append_tag_sized:   ## @deerlapse_key_seal_append_tag_sized
	.endif
	.cfi_startproc
## %bb.0:                               ## %start
	pushq	%rbp
	.cfi_def_cfa_offset 16
	pushq	%r15
	.cfi_def_cfa_offset 24
	pushq	%r14
	.cfi_def_cfa_offset 32
	pushq	%r13
	.cfi_def_cfa_offset 40
	pushq	%r12
	.cfi_def_cfa_offset 48
	pushq	%rbx
	.cfi_def_cfa_offset 56
	subq	$24, %rsp
	.cfi_def_cfa_offset 80
	.cfi_offset %rbx, -56
	.cfi_offset %r12, -48
	.cfi_offset %r13, -40
	.cfi_offset %r14, -32
	.cfi_offset %r15, -24
	.cfi_offset %rbp, -16
	movq	88(%rsp), %r15
	xorl	%ebx, %ebx
	testq	%rdx, %rdx
	sete	%r13b
	xorl	%r11d, %r11d
	testq	%r8, %r8
	sete	%r12b
	xorl	%r14d, %r14d
	cmpq	$0, 80(%rsp)
	sete	%bpl
	cmpq	$16, %r15
	jae	Ldeerlapse_0_1_0_BB61_3
Ldeerlapse_0_1_0_BB61_1:
	xorl	%eax, %eax
Ldeerlapse_0_1_0_BB61_2:                                ## %"deerlapse::out_of_place::deerlapse_key_seal_append_tag_sized.exit"
                                        ## kill: def $al killed $al killed $eax
	addq	$24, %rsp
	popq	%rbx
	popq	%r12
	popq	%r13
	popq	%r14
	popq	%r15
	popq	%rbp
	retq
Ldeerlapse_0_1_0_BB61_3:                                ## %arm.1.i
	leaq	-16(%r15), %r10
	xorl	%eax, %eax
	cmpq	%r9, %r10
	jne	Ldeerlapse_0_1_0_BB61_2
## %bb.4:                               ## %arm.1.i
	movl	1920(%rdi), %r10d
	addl	$-10, %r10d
	cmpl	$4, %r10d
	ja	Ldeerlapse_0_1_0_BB61_2
## %bb.5:                               ## %else.7.i.i
	movabsq	$68719476704, %r10              ## imm = 0xFFFFFFFE0
	movq	%rcx, %rax
	shrq	$61, %rax
	setne	%al
	incq	%r10
	cmpq	%r10, %r9
	setae	%r10b
	orb	%al, %r10b
	jne	Ldeerlapse_0_1_0_BB61_1
## %bb.6:                               ## %after.1.i.i
	movb	%r13b, %bl
	shll	$12, %ebx
	addq	%rbx, %rdx
	movb	%r12b, %r11b
	shll	$12, %r11d
	leaq	(%r8,%r11), %rax
	movb	%bpl, %r14b
	shll	$12, %r14d
	movq	80(%rsp), %r10
	leaq	(%r10,%r14), %rbx
	leaq	(%rbx,%r15), %rbp
	addq	$-16, %rbp
	movq	%rbx, %r15
	subq	%rax, %r15
	cmpq	%r9, %r15
	jae	Ldeerlapse_0_1_0_BB61_10
## %bb.7:                               ## %iter.check
	cmpq	$4, %r9
	jb	Ldeerlapse_0_1_0_BB61_8
## %bb.11:                              ## %vector.memcheck
	cmpq	$32, %r15
	jae	Ldeerlapse_0_1_0_BB61_13
Ldeerlapse_0_1_0_BB61_8:
	xorl	%r12d, %r12d
Ldeerlapse_0_1_0_BB61_22:                               ## %join.7.i.i.i.i.i.i.i.i.preheader
	movq	%rbp, %r15
	movq	%r9, %rbp
	movq	%r12, %r13
	andq	$3, %rbp
	je	Ldeerlapse_0_1_0_BB61_25
## %bb.23:                              ## %join.7.i.i.i.i.i.i.i.i.prol.preheader
	movq	%r12, %r13
	.p2align	4
Ldeerlapse_0_1_0_BB61_24:                               ## %join.7.i.i.i.i.i.i.i.i.prol
                                        ## =>This Inner Loop Header: Depth=1
	movzbl	(%rax,%r13), %r10d
	movb	%r10b, (%rbx,%r13)
	incq	%r13
	decq	%rbp
	jne	Ldeerlapse_0_1_0_BB61_24
Ldeerlapse_0_1_0_BB61_25:                               ## %join.7.i.i.i.i.i.i.i.i.prol.loopexit
	subq	%r9, %r12
	cmpq	$-4, %r12
	movq	%r15, %rbp
	ja	Ldeerlapse_0_1_0_BB61_28
## %bb.26:                              ## %join.7.i.i.i.i.i.i.i.i.preheader11
	leaq	(%r11,%r8), %rax
	addq	$3, %rax
	movq	80(%rsp), %r8
	addq	%r14, %r8
	addq	$3, %r8
	.p2align	4
Ldeerlapse_0_1_0_BB61_27:                               ## %join.7.i.i.i.i.i.i.i.i
                                        ## =>This Inner Loop Header: Depth=1
	movzbl	-3(%rax,%r13), %r10d
	movb	%r10b, -3(%r8,%r13)
	movzbl	-2(%rax,%r13), %r10d
	movb	%r10b, -2(%r8,%r13)
	movzbl	-1(%rax,%r13), %r10d
	movb	%r10b, -1(%r8,%r13)
	movzbl	(%rax,%r13), %r10d
	movb	%r10b, (%r8,%r13)
	addq	$4, %r13
	cmpq	%r13, %r9
	jne	Ldeerlapse_0_1_0_BB61_27
	jmp	Ldeerlapse_0_1_0_BB61_28
Ldeerlapse_0_1_0_BB61_10:                               ## %apart.2.i.i.i.i.i.i.i.i
	movq	%rdi, 16(%rsp)                  ## 8-byte Spill
	movq	%rbx, %rdi
	movq	%rsi, %r15
	movq	%rax, %rsi
	movq	%rdx, %r12
	movq	%r9, %rdx
	movq	%r9, %r13
	movq	%rbp, %r14
	movq	%rcx, %rbp
	callq	_memmove
	movq	16(%rsp), %rdi                  ## 8-byte Reload
	movq	%r15, %rsi
	movq	%r12, %rdx
	movq	%rbp, %rcx
	movq	%r14, %rbp
	movq	%r13, %r9
Ldeerlapse_0_1_0_BB61_28:                               ## %"core::slice::edits::slice+T::copy_from_slice::<i8,20'core::clone::U8Clone{}>.exit.i.i"
	movq	%rbp, (%rsp)
	movq	%rbx, %r8
	callq	"_deerlapse_0_1_0::deerlapse::key::deerlapse_key_seal"
                                        ## kill: def $al killed $al def $eax
	jmp	Ldeerlapse_0_1_0_BB61_2
Ldeerlapse_0_1_0_BB61_13:                               ## %vector.main.loop.iter.check
	cmpq	$32, %r9
	jae	Ldeerlapse_0_1_0_BB61_15
## %bb.14:
	xorl	%r12d, %r12d
	jmp	Ldeerlapse_0_1_0_BB61_19
Ldeerlapse_0_1_0_BB61_15:                               ## %vector.ph
	movq	%rbp, 16(%rsp)                  ## 8-byte Spill
	movq	%r9, %r12
	movabsq	$68719476704, %r15              ## imm = 0xFFFFFFFE0
	andq	%r15, %r12
	leaq	(%r11,%r8), %r13
	addq	$16, %r13
	leaq	(%r14,%r10), %rbp
	addq	$16, %rbp
	xorl	%r15d, %r15d
	.p2align	4
Ldeerlapse_0_1_0_BB61_16:                               ## %vector.body
                                        ## =>This Inner Loop Header: Depth=1
	movups	-16(%r13,%r15), %xmm0
	movups	(%r13,%r15), %xmm1
	movups	%xmm0, -16(%rbp,%r15)
	movups	%xmm1, (%rbp,%r15)
	addq	$32, %r15
	cmpq	%r15, %r12
	jne	Ldeerlapse_0_1_0_BB61_16
## %bb.17:                              ## %middle.block
	cmpq	%r12, %r9
	movq	16(%rsp), %rbp                  ## 8-byte Reload
	je	Ldeerlapse_0_1_0_BB61_28
## %bb.18:                              ## %vec.epilog.iter.check
	testb	$28, %r9b
	je	Ldeerlapse_0_1_0_BB61_22
Ldeerlapse_0_1_0_BB61_19:                               ## %vec.epilog.ph
	movq	%r12, %r13
	movabsq	$68719476704, %r12              ## imm = 0xFFFFFFFE0
	addq	$28, %r12
	andq	%r9, %r12
	.p2align	4
Ldeerlapse_0_1_0_BB61_20:                               ## %vec.epilog.vector.body
                                        ## =>This Inner Loop Header: Depth=1
	movl	(%rax,%r13), %r10d
	movl	%r10d, (%rbx,%r13)
	addq	$4, %r13
	cmpq	%r13, %r12
	jne	Ldeerlapse_0_1_0_BB61_20
## %bb.21:                              ## %vec.epilog.middle.block
	cmpq	%r12, %r9
	je	Ldeerlapse_0_1_0_BB61_28
	jmp	Ldeerlapse_0_1_0_BB61_22
	.cfi_endproc
                                        ## -- End function
	.ifdef	deerlapse_in_rust
	.globl	_deerlapse_0_1_0_key_update           ## -- Begin function deerlapse_key_update
	.p2align	4
_deerlapse_0_1_0_key_update:                  ## @deerlapse_key_update
	.else
	.globl	_deerlapse_key_update           ## -- Begin function deerlapse_key_update
	.p2align	4
_deerlapse_key_update:                  ## @deerlapse_key_update
	.endif
	.cfi_startproc
## %bb.0:                               ## %start
	pushq	%rbp
	.cfi_def_cfa_offset 16
	pushq	%r15
	.cfi_def_cfa_offset 24
	pushq	%r14
	.cfi_def_cfa_offset 32
	pushq	%r13
	.cfi_def_cfa_offset 40
	pushq	%r12
	.cfi_def_cfa_offset 48
	pushq	%rbx
	.cfi_def_cfa_offset 56
	subq	$376, %rsp                      ## imm = 0x178
	.cfi_def_cfa_offset 432
	.cfi_offset %rbx, -56
	.cfi_offset %r12, -48
	.cfi_offset %r13, -40
	.cfi_offset %r14, -32
	.cfi_offset %r15, -24
	.cfi_offset %rbp, -16
	movq	%rsi, %r14
	xorl	%r9d, %r9d
	testq	%rdx, %rdx
	sete	%sil
	movq	%rdi, 24(%rsp)                  ## 8-byte Spill
	movl	1920(%rdi), %eax
	movq	%rax, 64(%rsp)                  ## 8-byte Spill
	addl	$-10, %eax
	cmpl	$4, %eax
	ja	Ldeerlapse_0_1_0_BB62_57
## %bb.1:                               ## %join.3.i
	cmpl	$0, 172(%r14)
	je	Ldeerlapse_0_1_0_BB62_57
## %bb.2:                               ## %then.4.i
	movq	24(%rsp), %rdi                  ## 8-byte Reload
	leaq	2168(%rdi), %rax
	addq	$2680, %rdi                     ## imm = 0xA78
	movq	%rax, 208(%rsp)
	movq	%rdi, 216(%rsp)
	movq	152(%r14), %rax
	movabsq	$68719476704, %rdi              ## imm = 0xFFFFFFFE0
	subq	%rax, %rdi
	cmpq	%rcx, %rdi
	setae	%r8b
	movl	%r8d, 20(%rsp)                  ## 4-byte Spill
	leaq	-1(%rcx), %r8
	cmpq	%rdi, %r8
	jae	Ldeerlapse_0_1_0_BB62_56
## %bb.3:                               ## %join.9.lr.ph.i.i.i
	movb	%sil, %r9b
	shll	$12, %r9d
	leaq	(%rdx,%r9), %rsi
	movq	%rsi, 40(%rsp)                  ## 8-byte Spill
	leaq	16(%r14), %r13
	addq	%r9, %rdx
	addq	$3, %rdx
	movq	%rdx, 32(%rsp)                  ## 8-byte Spill
	xorl	%r12d, %r12d
	movq	%rcx, 72(%rsp)                  ## 8-byte Spill
	jmp	Ldeerlapse_0_1_0_BB62_5
	.p2align	4
Ldeerlapse_0_1_0_BB62_4:                                ## %"aead_ciphers_wide::aes_gcm::pieces::SealState::seal_in_batch::<#7bfdf0a6b4753edd>.exit.i.i.i"
                                        ##   in Loop: Header=BB62_5 Depth=1
	movq	%rbp, %rax
	movq	%rbx, %r12
	movq	72(%rsp), %rcx                  ## 8-byte Reload
	cmpq	%rcx, %rbx
	jae	Ldeerlapse_0_1_0_BB62_56
Ldeerlapse_0_1_0_BB62_5:                                ## %join.9.i.i.i
                                        ## =>This Loop Header: Depth=1
                                        ##     Child Loop BB62_22 Depth 2
                                        ##     Child Loop BB62_26 Depth 2
                                        ##     Child Loop BB62_29 Depth 2
                                        ##     Child Loop BB62_45 Depth 2
                                        ##     Child Loop BB62_49 Depth 2
                                        ##     Child Loop BB62_52 Depth 2
	subq	%r12, %rcx
	movl	%eax, %r15d
	andl	$127, %r15d
	movl	$128, %ebp
	subq	%r15, %rbp
	cmpq	%rcx, %rbp
	cmovaeq	%rcx, %rbp
	xorps	%xmm0, %xmm0
	movaps	%xmm0, 352(%rsp)
	testq	%r15, %r15
	je	Ldeerlapse_0_1_0_BB62_7
## %bb.6:                               ## %then.1.i.i.i.i.i
                                        ##   in Loop: Header=BB62_5 Depth=1
	movups	112(%r13), %xmm0
	movaps	%xmm0, 192(%rsp)
	movups	96(%r13), %xmm0
	movaps	%xmm0, 176(%rsp)
	movups	80(%r13), %xmm0
	movaps	%xmm0, 160(%rsp)
	movups	64(%r13), %xmm0
	movaps	%xmm0, 144(%rsp)
	movups	(%r13), %xmm0
	movups	16(%r13), %xmm1
	movups	32(%r13), %xmm2
	movups	48(%r13), %xmm3
	jmp	Ldeerlapse_0_1_0_BB62_8
	.p2align	4
Ldeerlapse_0_1_0_BB62_7:                                ## %join.3.i.i.i.i.i
                                        ##   in Loop: Header=BB62_5 Depth=1
	leaq	60(%rsp), %rcx
	movb	$0, 2(%rcx)
	movw	$0, (%rcx)
	leaq	160(%r14), %rdx
	movl	8(%rdx), %ecx
	movl	%ecx, 56(%rsp)
	movq	(%rdx), %rcx
	movq	%rcx, 48(%rsp)
	movq	55(%rsp), %rdx
	movq	%rdx, 7(%rsp)
	movq	%rcx, (%rsp)
	movb	$1, 15(%rsp)
	shrq	$4, %rax
	movl	12(%rsp), %ecx
	bswapl	%ecx
	addl	%ecx, %eax
	incl	%eax
	bswapl	%eax
	movl	%eax, 12(%rsp)
	movaps	%xmm0, 224(%rsp)
	movaps	%xmm0, 240(%rsp)
	movaps	%xmm0, 256(%rsp)
	movaps	%xmm0, 272(%rsp)
	movaps	%xmm0, 288(%rsp)
	movaps	%xmm0, 304(%rsp)
	movaps	%xmm0, 320(%rsp)
	movaps	%xmm0, 336(%rsp)
	leaq	224(%rsp), %rdx
	movq	%rsp, %r8
	movl	$8, %r9d
	movq	24(%rsp), %rdi                  ## 8-byte Reload
	movq	64(%rsp), %rsi                  ## 8-byte Reload
	xorl	%ecx, %ecx
	callq	"_deerlapse_0_1_0::aead_ciphers_wide::aes::ctr32::encrypt_up_to_eight"
	movaps	336(%rsp), %xmm0
	movaps	%xmm0, 192(%rsp)
	movaps	320(%rsp), %xmm0
	movaps	%xmm0, 176(%rsp)
	movaps	304(%rsp), %xmm0
	movaps	%xmm0, 160(%rsp)
	movaps	288(%rsp), %xmm0
	movaps	%xmm0, 144(%rsp)
	movaps	224(%rsp), %xmm0
	movaps	240(%rsp), %xmm1
	movaps	256(%rsp), %xmm2
	movaps	272(%rsp), %xmm3
Ldeerlapse_0_1_0_BB62_8:                                ## %iter.check17
                                        ##   in Loop: Header=BB62_5 Depth=1
	movaps	%xmm3, 128(%rsp)
	movaps	%xmm2, 112(%rsp)
	movaps	%xmm1, 96(%rsp)
	movaps	%xmm0, 80(%rsp)
	leaq	(%r12,%rbp), %rbx
	movq	40(%rsp), %rax                  ## 8-byte Reload
	leaq	(%rax,%r12), %rsi
	movaps	192(%rsp), %xmm0
	movups	%xmm0, 112(%r13)
	movaps	176(%rsp), %xmm0
	movups	%xmm0, 96(%r13)
	movaps	160(%rsp), %xmm0
	movups	%xmm0, 80(%r13)
	movaps	144(%rsp), %xmm0
	movups	%xmm0, 64(%r13)
	movaps	80(%rsp), %xmm0
	movaps	96(%rsp), %xmm1
	movaps	112(%rsp), %xmm2
	movaps	128(%rsp), %xmm3
	movups	%xmm3, 48(%r13)
	movups	%xmm2, 32(%r13)
	movups	%xmm1, 16(%r13)
	movups	%xmm0, (%r13)
	leaq	(%r15,%r13), %rdi
	cmpq	$4, %rbp
	jb	Ldeerlapse_0_1_0_BB62_9
## %bb.10:                              ## %vector.memcheck11
                                        ##   in Loop: Header=BB62_5 Depth=1
	movq	%r13, %rax
	addq	%rbp, %rax
	addq	%r15, %rax
	cmpq	%rax, %rsi
	jae	Ldeerlapse_0_1_0_BB62_13
## %bb.11:                              ## %vector.memcheck11
                                        ##   in Loop: Header=BB62_5 Depth=1
	movq	40(%rsp), %rax                  ## 8-byte Reload
	addq	%rbx, %rax
	cmpq	%rax, %rdi
	jae	Ldeerlapse_0_1_0_BB62_13
Ldeerlapse_0_1_0_BB62_9:                                ##   in Loop: Header=BB62_5 Depth=1
	xorl	%eax, %eax
Ldeerlapse_0_1_0_BB62_24:                               ## %join.5.i.i.i.i.i.preheader
                                        ##   in Loop: Header=BB62_5 Depth=1
	movq	%rbp, %rdx
	movq	%rax, %rcx
	andq	$3, %rdx
	je	Ldeerlapse_0_1_0_BB62_27
## %bb.25:                              ## %join.5.i.i.i.i.i.prol.preheader
                                        ##   in Loop: Header=BB62_5 Depth=1
	movq	%rax, %rcx
	.p2align	4
Ldeerlapse_0_1_0_BB62_26:                               ## %join.5.i.i.i.i.i.prol
                                        ##   Parent Loop BB62_5 Depth=1
                                        ## =>  This Inner Loop Header: Depth=2
	movzbl	(%rdi,%rcx), %r8d
	xorb	%r8b, (%rsi,%rcx)
	incq	%rcx
	decq	%rdx
	jne	Ldeerlapse_0_1_0_BB62_26
Ldeerlapse_0_1_0_BB62_27:                               ## %join.5.i.i.i.i.i.prol.loopexit
                                        ##   in Loop: Header=BB62_5 Depth=1
	subq	%rbp, %rax
	cmpq	$-4, %rax
	ja	Ldeerlapse_0_1_0_BB62_30
## %bb.28:                              ## %join.5.i.i.i.i.i.preheader51
                                        ##   in Loop: Header=BB62_5 Depth=1
	movq	32(%rsp), %rax                  ## 8-byte Reload
	addq	%r12, %rax
	leaq	19(%r14), %rdx
	addq	%r15, %rdx
	.p2align	4
Ldeerlapse_0_1_0_BB62_29:                               ## %join.5.i.i.i.i.i
                                        ##   Parent Loop BB62_5 Depth=1
                                        ## =>  This Inner Loop Header: Depth=2
	movzbl	-3(%rdx,%rcx), %r8d
	xorb	%r8b, -3(%rax,%rcx)
	movzbl	-2(%rdx,%rcx), %r8d
	xorb	%r8b, -2(%rax,%rcx)
	movzbl	-1(%rdx,%rcx), %r8d
	xorb	%r8b, -1(%rax,%rcx)
	movzbl	(%rdx,%rcx), %r8d
	xorb	%r8b, (%rax,%rcx)
	addq	$4, %rcx
	cmpq	%rcx, %rbp
	jne	Ldeerlapse_0_1_0_BB62_29
Ldeerlapse_0_1_0_BB62_30:                               ## %"aead_ciphers_base::bb::xor_assign_at_start.exit.i.loopexit.i.i.i"
                                        ##   in Loop: Header=BB62_5 Depth=1
	movq	%rdi, %rax
	subq	%rsi, %rax
	cmpq	%rbp, %rax
	jae	Ldeerlapse_0_1_0_BB62_33
## %bb.31:                              ## %iter.check
                                        ##   in Loop: Header=BB62_5 Depth=1
	cmpq	$4, %rbp
	jb	Ldeerlapse_0_1_0_BB62_32
## %bb.34:                              ## %vector.memcheck
                                        ##   in Loop: Header=BB62_5 Depth=1
	cmpq	$32, %rax
	jae	Ldeerlapse_0_1_0_BB62_36
Ldeerlapse_0_1_0_BB62_32:                               ##   in Loop: Header=BB62_5 Depth=1
	xorl	%eax, %eax
Ldeerlapse_0_1_0_BB62_47:                               ## %join.7.i.i.i.i.i.i.i.i.i.i.preheader
                                        ##   in Loop: Header=BB62_5 Depth=1
	movq	%rbp, %rdx
	movq	%rax, %rcx
	andq	$3, %rdx
	je	Ldeerlapse_0_1_0_BB62_50
## %bb.48:                              ## %join.7.i.i.i.i.i.i.i.i.i.i.prol.preheader
                                        ##   in Loop: Header=BB62_5 Depth=1
	movq	%rax, %rcx
	.p2align	4
Ldeerlapse_0_1_0_BB62_49:                               ## %join.7.i.i.i.i.i.i.i.i.i.i.prol
                                        ##   Parent Loop BB62_5 Depth=1
                                        ## =>  This Inner Loop Header: Depth=2
	movzbl	(%rsi,%rcx), %r8d
	movb	%r8b, (%rdi,%rcx)
	incq	%rcx
	decq	%rdx
	jne	Ldeerlapse_0_1_0_BB62_49
Ldeerlapse_0_1_0_BB62_50:                               ## %join.7.i.i.i.i.i.i.i.i.i.i.prol.loopexit
                                        ##   in Loop: Header=BB62_5 Depth=1
	subq	%rbp, %rax
	cmpq	$-4, %rax
	ja	Ldeerlapse_0_1_0_BB62_53
## %bb.51:                              ## %join.7.i.i.i.i.i.i.i.i.i.i.preheader50
                                        ##   in Loop: Header=BB62_5 Depth=1
	addq	32(%rsp), %r12                  ## 8-byte Folded Reload
	leaq	19(%r14), %rax
	addq	%r15, %rax
	.p2align	4
Ldeerlapse_0_1_0_BB62_52:                               ## %join.7.i.i.i.i.i.i.i.i.i.i
                                        ##   Parent Loop BB62_5 Depth=1
                                        ## =>  This Inner Loop Header: Depth=2
	movzbl	-3(%r12,%rcx), %edx
	movb	%dl, -3(%rax,%rcx)
	movzbl	-2(%r12,%rcx), %edx
	movb	%dl, -2(%rax,%rcx)
	movzbl	-1(%r12,%rcx), %edx
	movb	%dl, -1(%rax,%rcx)
	movzbl	(%r12,%rcx), %edx
	movb	%dl, (%rax,%rcx)
	addq	$4, %rcx
	cmpq	%rcx, %rbp
	jne	Ldeerlapse_0_1_0_BB62_52
	jmp	Ldeerlapse_0_1_0_BB62_53
	.p2align	4
Ldeerlapse_0_1_0_BB62_33:                               ## %apart.2.i.i.i.i.i.i.i.i.i.i
                                        ##   in Loop: Header=BB62_5 Depth=1
	movq	%rbp, %rdx
	callq	_memmove
Ldeerlapse_0_1_0_BB62_53:                               ## %"core::slice::edits::slice+T::copy_from_slice::<i8,20'core::clone::U8Clone{}>.exit.i.i.i.i"
                                        ##   in Loop: Header=BB62_5 Depth=1
	addq	%rbp, %r15
	addq	152(%r14), %rbp
	movq	%rbp, 152(%r14)
	cmpq	$128, %r15
	jne	Ldeerlapse_0_1_0_BB62_4
## %bb.54:                              ## %then.1.i.i.i.i
                                        ##   in Loop: Header=BB62_5 Depth=1
	movups	(%r14), %xmm0
	movaps	%xmm0, 224(%rsp)
	xorps	%xmm0, %xmm0
	movaps	%xmm0, (%rsp)
	leaq	208(%rsp), %rdi
	leaq	224(%rsp), %rsi
	movq	%rsp, %r8
	movl	$128, %ecx
	movq	%r13, %rdx
	callq	"_deerlapse_0_1_0::aead_ciphers_wide::gcm::KeyRefUpdateBlocks::update_blocks"
	movaps	224(%rsp), %xmm0
	movaps	%xmm0, 352(%rsp)
	movups	%xmm0, (%r14)
	jmp	Ldeerlapse_0_1_0_BB62_4
	.p2align	4
Ldeerlapse_0_1_0_BB62_13:                               ## %vector.main.loop.iter.check19
                                        ##   in Loop: Header=BB62_5 Depth=1
	cmpq	$32, %rbp
	jae	Ldeerlapse_0_1_0_BB62_15
## %bb.14:                              ##   in Loop: Header=BB62_5 Depth=1
	xorl	%eax, %eax
	jmp	Ldeerlapse_0_1_0_BB62_21
Ldeerlapse_0_1_0_BB62_15:                               ## %vector.ph20
                                        ##   in Loop: Header=BB62_5 Depth=1
	movl	%ebp, %eax
	andl	$224, %eax
	movups	(%rdi), %xmm0
	movups	16(%rdi), %xmm1
	movups	(%rsi), %xmm2
	xorps	%xmm0, %xmm2
	movups	16(%rsi), %xmm0
	xorps	%xmm1, %xmm0
	movups	%xmm2, (%rsi)
	movups	%xmm0, 16(%rsi)
	cmpq	$32, %rax
	je	Ldeerlapse_0_1_0_BB62_19
## %bb.16:                              ## %vector.body23.1
                                        ##   in Loop: Header=BB62_5 Depth=1
	movups	32(%rdi), %xmm0
	movups	48(%rdi), %xmm1
	movups	32(%rsi), %xmm2
	xorps	%xmm0, %xmm2
	movups	48(%rsi), %xmm0
	xorps	%xmm1, %xmm0
	movups	%xmm2, 32(%rsi)
	movups	%xmm0, 48(%rsi)
	cmpl	$64, %eax
	je	Ldeerlapse_0_1_0_BB62_19
## %bb.17:                              ## %vector.body23.2
                                        ##   in Loop: Header=BB62_5 Depth=1
	movups	64(%rdi), %xmm0
	movups	80(%rdi), %xmm1
	movups	64(%rsi), %xmm2
	xorps	%xmm0, %xmm2
	movups	80(%rsi), %xmm0
	xorps	%xmm1, %xmm0
	movups	%xmm2, 64(%rsi)
	movups	%xmm0, 80(%rsi)
	cmpl	$96, %eax
	je	Ldeerlapse_0_1_0_BB62_19
## %bb.18:                              ## %vector.body23.3
                                        ##   in Loop: Header=BB62_5 Depth=1
	movups	96(%rdi), %xmm0
	movups	112(%rdi), %xmm1
	movups	96(%rsi), %xmm2
	xorps	%xmm0, %xmm2
	movups	112(%rsi), %xmm0
	xorps	%xmm1, %xmm0
	movups	%xmm2, 96(%rsi)
	movups	%xmm0, 112(%rsi)
Ldeerlapse_0_1_0_BB62_19:                               ## %middle.block30
                                        ##   in Loop: Header=BB62_5 Depth=1
	cmpq	%rax, %rbp
	je	Ldeerlapse_0_1_0_BB62_30
## %bb.20:                              ## %vec.epilog.iter.check34
                                        ##   in Loop: Header=BB62_5 Depth=1
	testb	$28, %bpl
	je	Ldeerlapse_0_1_0_BB62_24
Ldeerlapse_0_1_0_BB62_21:                               ## %vec.epilog.ph36
                                        ##   in Loop: Header=BB62_5 Depth=1
	movq	%rax, %rcx
	movl	%ebp, %eax
	andl	$252, %eax
	.p2align	4
Ldeerlapse_0_1_0_BB62_22:                               ## %vec.epilog.vector.body39
                                        ##   Parent Loop BB62_5 Depth=1
                                        ## =>  This Inner Loop Header: Depth=2
	movl	(%rdi,%rcx), %edx
	xorl	%edx, (%rsi,%rcx)
	addq	$4, %rcx
	cmpq	%rcx, %rax
	jne	Ldeerlapse_0_1_0_BB62_22
## %bb.23:                              ## %vec.epilog.middle.block44
                                        ##   in Loop: Header=BB62_5 Depth=1
	cmpq	%rax, %rbp
	je	Ldeerlapse_0_1_0_BB62_30
	jmp	Ldeerlapse_0_1_0_BB62_24
Ldeerlapse_0_1_0_BB62_36:                               ## %vector.main.loop.iter.check
                                        ##   in Loop: Header=BB62_5 Depth=1
	cmpq	$32, %rbp
	jae	Ldeerlapse_0_1_0_BB62_38
## %bb.37:                              ##   in Loop: Header=BB62_5 Depth=1
	xorl	%eax, %eax
	jmp	Ldeerlapse_0_1_0_BB62_44
Ldeerlapse_0_1_0_BB62_38:                               ## %vector.ph
                                        ##   in Loop: Header=BB62_5 Depth=1
	movl	%ebp, %eax
	andl	$224, %eax
	movups	(%rsi), %xmm0
	movups	16(%rsi), %xmm1
	movups	%xmm0, (%rdi)
	movups	%xmm1, 16(%rdi)
	cmpq	$32, %rax
	je	Ldeerlapse_0_1_0_BB62_42
## %bb.39:                              ## %vector.body.1
                                        ##   in Loop: Header=BB62_5 Depth=1
	movups	32(%rsi), %xmm0
	movups	48(%rsi), %xmm1
	movups	%xmm0, 32(%rdi)
	movups	%xmm1, 48(%rdi)
	cmpl	$64, %eax
	je	Ldeerlapse_0_1_0_BB62_42
## %bb.40:                              ## %vector.body.2
                                        ##   in Loop: Header=BB62_5 Depth=1
	movups	64(%rsi), %xmm0
	movups	80(%rsi), %xmm1
	movups	%xmm0, 64(%rdi)
	movups	%xmm1, 80(%rdi)
	cmpl	$96, %eax
	je	Ldeerlapse_0_1_0_BB62_42
## %bb.41:                              ## %vector.body.3
                                        ##   in Loop: Header=BB62_5 Depth=1
	movups	96(%rsi), %xmm0
	movups	112(%rsi), %xmm1
	movups	%xmm0, 96(%rdi)
	movups	%xmm1, 112(%rdi)
Ldeerlapse_0_1_0_BB62_42:                               ## %middle.block
                                        ##   in Loop: Header=BB62_5 Depth=1
	cmpq	%rax, %rbp
	je	Ldeerlapse_0_1_0_BB62_53
## %bb.43:                              ## %vec.epilog.iter.check
                                        ##   in Loop: Header=BB62_5 Depth=1
	testb	$28, %bpl
	je	Ldeerlapse_0_1_0_BB62_47
Ldeerlapse_0_1_0_BB62_44:                               ## %vec.epilog.ph
                                        ##   in Loop: Header=BB62_5 Depth=1
	movq	%rax, %rcx
	movl	%ebp, %eax
	andl	$252, %eax
	.p2align	4
Ldeerlapse_0_1_0_BB62_45:                               ## %vec.epilog.vector.body
                                        ##   Parent Loop BB62_5 Depth=1
                                        ## =>  This Inner Loop Header: Depth=2
	movl	(%rsi,%rcx), %edx
	movl	%edx, (%rdi,%rcx)
	addq	$4, %rcx
	cmpq	%rcx, %rax
	jne	Ldeerlapse_0_1_0_BB62_45
## %bb.46:                              ## %vec.epilog.middle.block
                                        ##   in Loop: Header=BB62_5 Depth=1
	cmpq	%rax, %rbp
	je	Ldeerlapse_0_1_0_BB62_53
	jmp	Ldeerlapse_0_1_0_BB62_47
Ldeerlapse_0_1_0_BB62_57:
	xorl	%eax, %eax
	jmp	Ldeerlapse_0_1_0_BB62_58
Ldeerlapse_0_1_0_BB62_56:                               ## %"aead_ciphers_wide::aes_gcm::ExpandedKey::update.exit.i"
	movl	20(%rsp), %eax                  ## 4-byte Reload
Ldeerlapse_0_1_0_BB62_58:                               ## %"deerlapse::pieces::deerlapse_key_update.exit"
                                        ## kill: def $al killed $al killed $eax
	addq	$376, %rsp                      ## imm = 0x178
	popq	%rbx
	popq	%r12
	popq	%r13
	popq	%r14
	popq	%r15
	popq	%rbp
	retq
	.cfi_endproc
                                        ## -- End function
	.ifdef	deerlapse_in_rust
	.globl	_deerlapse_0_1_0_opener_open_number   ## -- Begin function deerlapse_opener_open_number
	.p2align	4
_deerlapse_0_1_0_opener_open_number:          ## @deerlapse_opener_open_number
	.else
	.globl	_deerlapse_opener_open_number   ## -- Begin function deerlapse_opener_open_number
	.p2align	4
_deerlapse_opener_open_number:          ## @deerlapse_opener_open_number
	.endif
	.cfi_startproc
## %bb.0:                               ## %start
	subq	$24, %rsp
	.cfi_def_cfa_offset 32
	movaps	32(%rsp), %xmm0
	xorl	%eax, %eax
	testq	%rdx, %rdx
	sete	%al
	shll	$12, %eax
	addq	%rax, %rdx
	xorl	%eax, %eax
	testq	%r8, %r8
	sete	%al
	shll	$12, %eax
	addq	%rax, %r8
	movups	%xmm0, (%rsp)
	callq	"_deerlapse_0_1_0::deerlapse::opener::deerlapse_opener_open_number"
	addq	$24, %rsp
	retq
	.cfi_endproc
                                        ## -- End function
	.ifdef	deerlapse_in_rust
	.globl	_deerlapse_0_1_0_opener_open          ## -- Begin function deerlapse_opener_open
	.p2align	4
_deerlapse_0_1_0_opener_open:                 ## @deerlapse_opener_open
	.else
	.globl	_deerlapse_opener_open          ## -- Begin function deerlapse_opener_open
	.p2align	4
_deerlapse_opener_open:                 ## @deerlapse_opener_open
	.endif
	.cfi_startproc
## %bb.0:                               ## %start
	movq	%rsi, %r11
	movq	3192(%rdi), %rsi
	cmpq	%rsi, 3200(%rdi)
	jbe	Ldeerlapse_0_1_0_BB64_1
## %bb.3:                               ## %else.4.i
	pushq	%rbx
	.cfi_def_cfa_offset 16
	subq	$16, %rsp
	.cfi_def_cfa_offset 32
	.cfi_offset %rbx, -16
	movq	%r8, %rax
	movq	%rdx, %r10
	movq	%rdi, %rbx
	movq	32(%rsp), %rdi
	xorl	%r8d, %r8d
	testq	%rcx, %rcx
	sete	%r8b
	shll	$12, %r8d
	addq	%rcx, %r8
	xorl	%edx, %edx
	testq	%r11, %r11
	sete	%dl
	shll	$12, %edx
	addq	%r11, %rdx
	movq	%rdi, 8(%rsp)
	movq	%r9, (%rsp)
	movq	%rbx, %rdi
	movq	%r10, %rcx
	movq	%rax, %r9
	callq	"_deerlapse_0_1_0::deerlapse::opener::deerlapse_opener_open_number"
	testb	%al, %al
	je	Ldeerlapse_0_1_0_BB64_4
## %bb.5:                               ## %after.1.i
	incq	3192(%rbx)
	movb	$1, %al
	addq	$16, %rsp
	popq	%rbx
                                        ## kill: def $al killed $al killed $eax
	retq
Ldeerlapse_0_1_0_BB64_1:
	xorl	%eax, %eax
                                        ## kill: def $al killed $al killed $eax
	retq
Ldeerlapse_0_1_0_BB64_4:
	xorl	%eax, %eax
	addq	$16, %rsp
	popq	%rbx
                                        ## kill: def $al killed $al killed $eax
	retq
	.cfi_endproc
                                        ## -- End function
	.ifdef	deerlapse_in_rust
	.globl	_deerlapse_0_1_0_quic_key_open        ## -- Begin function deerlapse_quic_key_open
	.p2align	4
_deerlapse_0_1_0_quic_key_open:               ## @deerlapse_quic_key_open
	.else
	.globl	_deerlapse_quic_key_open        ## -- Begin function deerlapse_quic_key_open
	.p2align	4
_deerlapse_quic_key_open:               ## @deerlapse_quic_key_open
	.endif
	.cfi_startproc
## %bb.0:                               ## %start
	pushq	%rbp
	.cfi_def_cfa_offset 16
	pushq	%r15
	.cfi_def_cfa_offset 24
	pushq	%r14
	.cfi_def_cfa_offset 32
	pushq	%r12
	.cfi_def_cfa_offset 40
	pushq	%rbx
	.cfi_def_cfa_offset 48
	subq	$160, %rsp
	.cfi_def_cfa_offset 208
	.cfi_offset %rbx, -48
	.cfi_offset %r12, -40
	.cfi_offset %r14, -32
	.cfi_offset %r15, -24
	.cfi_offset %rbp, -16
	xorl	%r10d, %r10d
	testq	%rdx, %rdx
	sete	%bl
	xorl	%eax, %eax
	testq	%r8, %r8
	sete	%r11b
	movq	%rsi, %r14
	shrq	$62, %r14
	jne	Ldeerlapse_0_1_0_BB65_7
## %bb.2:                               ## %join.3.i
	bswapq	%rsi
	movl	%esi, %ebp
	shrl	$24, %ebp
	movl	%esi, %r14d
	shrl	$16, %r14d
	movd	3196(%rdi), %xmm0               ## xmm0 = mem[0],zero,zero,zero
	movd	%esi, %xmm1
	movl	%esi, %r15d
	shrl	$8, %r15d
	pinsrb	$1, %r15d, %xmm1
	pinsrb	$2, %r14d, %xmm1
	pinsrb	$3, %ebp, %xmm1
	pxor	%xmm0, %xmm1
	movd	3192(%rdi), %xmm0               ## xmm0 = mem[0],zero,zero,zero
	punpckldq	%xmm1, %xmm0            ## xmm0 = xmm0[0],xmm1[0],xmm0[1],xmm1[1]
	movq	%xmm0, 32(%rsp)
	movq	%rsi, %r14
	shrq	$56, %r14
	movq	%rsi, %r15
	shrq	$48, %r15
	movq	%rsi, %r12
	shrq	$40, %r12
	shrq	$32, %rsi
	movd	%esi, %xmm0
	pinsrb	$1, %r12d, %xmm0
	pinsrb	$2, %r15d, %xmm0
	movd	3200(%rdi), %xmm1               ## xmm1 = mem[0],zero,zero,zero
	pinsrb	$3, %r14d, %xmm0
	pxor	%xmm1, %xmm0
	movd	%xmm0, 40(%rsp)
	movl	1920(%rdi), %esi
	leal	-10(%rsi), %ebp
	cmpl	$4, %ebp
	ja	Ldeerlapse_0_1_0_BB65_7
## %bb.3:                               ## %join.3.i.i
	cmpq	$16, %r9
	jb	Ldeerlapse_0_1_0_BB65_7
## %bb.4:                               ## %arm.1.i.i.i
	addq	$-16, %r9
	movq	%rcx, %r14
	shrq	$61, %r14
	setne	%bpl
	movabsq	$68719476704, %r14              ## imm = 0xFFFFFFFE0
	cmpq	%r14, %r9
	seta	%r14b
	orb	%bpl, %r14b
	jne	Ldeerlapse_0_1_0_BB65_7
## %bb.5:                               ## %then.11.i.i.i
	movb	%bl, %r10b
	shll	$12, %r10d
	addq	%r10, %rdx
	movb	%r11b, %al
	shll	$12, %eax
	addq	%rax, %r8
	leaq	1928(%rdi), %rax
	movl	1924(%rdi), %r10d
	movq	%rdi, 48(%rsp)
	movq	%rax, 56(%rsp)
	movq	%rsi, 64(%rsp)
	movl	%r10d, 72(%rsp)
	movl	$0, 76(%rsp)
	leaq	2168(%rdi), %rax
	addq	$2680, %rdi                     ## imm = 0xA78
	movq	%rax, 104(%rsp)
	movq	%rdi, 112(%rsp)
	pxor	%xmm0, %xmm0
	movdqa	%xmm0, 80(%rsp)
	movdqu	(%r8,%r9), %xmm0
	movdqa	%xmm0, 144(%rsp)
	leaq	80(%rsp), %rax
	movq	%rax, 24(%rsp)
	movq	%r9, %rbx
	movq	%r9, 16(%rsp)
	movq	%r8, %r14
	movq	%r8, 8(%rsp)
	leaq	144(%rsp), %rax
	movq	%rax, (%rsp)
	leaq	127(%rsp), %rdi
	leaq	48(%rsp), %rsi
	leaq	104(%rsp), %rax
	leaq	32(%rsp), %r10
	movq	%rdx, %r8
	movq	%rax, %rdx
	movq	%rcx, %r9
	movq	%r10, %rcx
	callq	"_deerlapse_0_1_0::aead_ciphers::aes_gcm::opening::authenticate::<#7bfdf0a6b4753edd>"
	cmpb	$0, 127(%rsp)
	je	Ldeerlapse_0_1_0_BB65_9
Ldeerlapse_0_1_0_BB65_7:
	xorl	%eax, %eax
Ldeerlapse_0_1_0_BB65_8:                                ## %"deerlapse::quic_key::deerlapse_quic_key_open.exit"
                                        ## kill: def $al killed $al killed $eax
	addq	$160, %rsp
	popq	%rbx
	popq	%r12
	popq	%r14
	popq	%r15
	popq	%rbp
	retq
Ldeerlapse_0_1_0_BB65_9:                                ## %arm.4.i.i
	movq	208(%rsp), %r15
	leaq	128(%rsp), %rsi
	leaq	48(%rsp), %rdi
	leaq	80(%rsp), %r9
	movq	%r14, %rdx
	movq	%rbx, %rcx
	xorl	%r8d, %r8d
	callq	"_deerlapse_0_1_0::aead_ciphers::aes_gcm::counter_mode::encrypt_within::<#6fa349fe97f872a2>"
	movq	%rax, (%r15)
	movb	$1, %al
	jmp	Ldeerlapse_0_1_0_BB65_8
	.cfi_endproc
                                        ## -- End function
	.ifdef	deerlapse_in_rust
	.globl	_deerlapse_0_1_0_quic_key_seal        ## -- Begin function deerlapse_quic_key_seal
	.p2align	4
_deerlapse_0_1_0_quic_key_seal:               ## @deerlapse_quic_key_seal
	.else
	.globl	_deerlapse_quic_key_seal        ## -- Begin function deerlapse_quic_key_seal
	.p2align	4
_deerlapse_quic_key_seal:               ## @deerlapse_quic_key_seal
	.endif
	.cfi_startproc
## %bb.0:                               ## %start
	movq	%rdx, %rax
	movq	%rsi, %rdx
	shrq	$62, %rdx
	je	Ldeerlapse_0_1_0_BB66_2
## %bb.1:
	xorl	%eax, %eax
                                        ## kill: def $al killed $al killed $eax
	retq
Ldeerlapse_0_1_0_BB66_2:                                ## %join.3.i
	pushq	%rbx
	.cfi_def_cfa_offset 16
	subq	$32, %rsp
	.cfi_def_cfa_offset 48
	.cfi_offset %rbx, -16
	movq	%r8, %r10
	movq	48(%rsp), %r11
	xorl	%r8d, %r8d
	testq	%r10, %r10
	sete	%r8b
	shll	$12, %r8d
	addq	%r10, %r8
	xorl	%edx, %edx
	testq	%rax, %rax
	sete	%dl
	shll	$12, %edx
	bswapq	%rsi
	addq	%rax, %rdx
	movl	%esi, %eax
	shrl	$24, %eax
	movl	%esi, %r10d
	shrl	$16, %r10d
	movd	%esi, %xmm0
	movl	%esi, %ebx
	shrl	$8, %ebx
	pinsrb	$1, %ebx, %xmm0
	pinsrb	$2, %r10d, %xmm0
	movd	3196(%rdi), %xmm1               ## xmm1 = mem[0],zero,zero,zero
	pinsrb	$3, %eax, %xmm0
	pxor	%xmm1, %xmm0
	movd	3192(%rdi), %xmm1               ## xmm1 = mem[0],zero,zero,zero
	punpckldq	%xmm0, %xmm1            ## xmm1 = xmm1[0],xmm0[0],xmm1[1],xmm0[1]
	movq	%xmm1, 16(%rsp)
	movq	%rsi, %rax
	shrq	$56, %rax
	movq	%rsi, %r10
	shrq	$48, %r10
	movq	%rsi, %rbx
	shrq	$40, %rbx
	shrq	$32, %rsi
	movd	3200(%rdi), %xmm0               ## xmm0 = mem[0],zero,zero,zero
	movd	%esi, %xmm1
	pinsrb	$1, %ebx, %xmm1
	pinsrb	$2, %r10d, %xmm1
	pinsrb	$3, %eax, %xmm1
	pxor	%xmm0, %xmm1
	movd	%xmm1, 24(%rsp)
	movq	%r11, (%rsp)
	leaq	16(%rsp), %rsi
	callq	"_deerlapse_0_1_0::deerlapse::key::deerlapse_key_seal"
                                        ## kill: def $al killed $al def $eax
	addq	$32, %rsp
	popq	%rbx
                                        ## kill: def $al killed $al killed $eax
	retq
	.cfi_endproc
                                        ## -- End function
	.ifdef	deerlapse_in_rust
	.globl	_deerlapse_0_1_0_record_key_open      ## -- Begin function deerlapse_record_key_open
	.p2align	4
_deerlapse_0_1_0_record_key_open:             ## @deerlapse_record_key_open
	.else
	.globl	_deerlapse_record_key_open      ## -- Begin function deerlapse_record_key_open
	.p2align	4
_deerlapse_record_key_open:             ## @deerlapse_record_key_open
	.endif
	.cfi_startproc
## %bb.0:                               ## %start
	pushq	%rbp
	.cfi_def_cfa_offset 16
	pushq	%r15
	.cfi_def_cfa_offset 24
	pushq	%r14
	.cfi_def_cfa_offset 32
	pushq	%r13
	.cfi_def_cfa_offset 40
	pushq	%r12
	.cfi_def_cfa_offset 48
	pushq	%rbx
	.cfi_def_cfa_offset 56
	subq	$184, %rsp
	.cfi_def_cfa_offset 240
	.cfi_offset %rbx, -56
	.cfi_offset %r12, -48
	.cfi_offset %r13, -40
	.cfi_offset %r14, -32
	.cfi_offset %r15, -24
	.cfi_offset %rbp, -16
	xorl	%r15d, %r15d
	testq	%rdx, %rdx
	sete	%al
	leaq	-16641(%rcx), %r10
	cmpq	$-16624, %r10                   ## imm = 0xBF10
	jb	Ldeerlapse_0_1_0_BB67_1
## %bb.2:                               ## %after.1.i
	bswapq	%rsi
	movl	%esi, %r10d
	shrl	$24, %r10d
	movl	%esi, %r11d
	shrl	$16, %r11d
	movd	3196(%rdi), %xmm0               ## xmm0 = mem[0],zero,zero,zero
	movd	%esi, %xmm1
	movl	%esi, %ebx
	shrl	$8, %ebx
	pinsrb	$1, %ebx, %xmm1
	pinsrb	$2, %r11d, %xmm1
	pinsrb	$3, %r10d, %xmm1
	pxor	%xmm0, %xmm1
	movd	3192(%rdi), %xmm0               ## xmm0 = mem[0],zero,zero,zero
	punpckldq	%xmm1, %xmm0            ## xmm0 = xmm0[0],xmm1[0],xmm0[1],xmm1[1]
	movq	%xmm0, 48(%rsp)
	movq	%rsi, %r10
	shrq	$56, %r10
	movq	%rsi, %r11
	shrq	$48, %r11
	movq	%rsi, %rbx
	shrq	$40, %rbx
	shrq	$32, %rsi
	movd	%esi, %xmm0
	pinsrb	$1, %ebx, %xmm0
	pinsrb	$2, %r11d, %xmm0
	movd	3200(%rdi), %xmm1               ## xmm1 = mem[0],zero,zero,zero
	pinsrb	$3, %r10d, %xmm0
	pxor	%xmm1, %xmm0
	movd	%xmm0, 56(%rsp)
	movw	$791, 35(%rsp)                  ## imm = 0x317
	movb	$3, 37(%rsp)
	movb	%ch, 38(%rsp)
	movb	%cl, 39(%rsp)
	movl	1920(%rdi), %esi
	leal	-10(%rsi), %r10d
	cmpl	$4, %r10d
	ja	Ldeerlapse_0_1_0_BB67_1
## %bb.3:                               ## %then.11.i.i.i
	movq	%r8, %rbp
	movq	%r9, %r13
	movb	%al, %r15b
	shll	$12, %r15d
	movq	%rdx, 40(%rsp)                  ## 8-byte Spill
	leaq	(%rdx,%r15), %rbx
	leaq	-16(%rcx), %r14
	leaq	1928(%rdi), %rax
	movl	1924(%rdi), %edx
	movq	%rdi, 64(%rsp)
	movq	%rax, 72(%rsp)
	movq	%rsi, 80(%rsp)
	movl	%edx, 88(%rsp)
	movl	$0, 92(%rsp)
	leaq	2168(%rdi), %rax
	addq	$2680, %rdi                     ## imm = 0xA78
	movq	%rax, 120(%rsp)
	movq	%rdi, 128(%rsp)
	pxor	%xmm0, %xmm0
	movdqa	%xmm0, 96(%rsp)
	movdqu	-16(%rbx,%rcx), %xmm0
	movdqa	%xmm0, 160(%rsp)
	leaq	96(%rsp), %rax
	movq	%rax, 24(%rsp)
	movq	%r14, 16(%rsp)
	movq	%rbx, 8(%rsp)
	leaq	160(%rsp), %rax
	movq	%rax, (%rsp)
	leaq	143(%rsp), %rdi
	leaq	64(%rsp), %rsi
	leaq	120(%rsp), %rdx
	leaq	48(%rsp), %rcx
	leaq	35(%rsp), %r8
	movl	$5, %r9d
	callq	"_deerlapse_0_1_0::aead_ciphers::aes_gcm::opening::authenticate::<#7bfdf0a6b4753edd>"
	cmpb	$0, 143(%rsp)
	je	Ldeerlapse_0_1_0_BB67_6
Ldeerlapse_0_1_0_BB67_1:
	xorl	%eax, %eax
Ldeerlapse_0_1_0_BB67_17:                               ## %"deerlapse::record_key::deerlapse_record_key_open.exit"
                                        ## kill: def $al killed $al killed $eax
	addq	$184, %rsp
	popq	%rbx
	popq	%r12
	popq	%r13
	popq	%r14
	popq	%r15
	popq	%rbp
	retq
Ldeerlapse_0_1_0_BB67_6:                                ## %join.13.i
	leaq	144(%rsp), %rsi
	xorl	%r12d, %r12d
	leaq	64(%rsp), %rdi
	leaq	96(%rsp), %r9
	movq	%rbx, %rdx
	movq	%r14, %rcx
	xorl	%r8d, %r8d
	callq	"_deerlapse_0_1_0::aead_ciphers::aes_gcm::counter_mode::encrypt_within::<#6fa349fe97f872a2>"
	testq	%rax, %rax
	movq	%rbp, %rdx
	je	Ldeerlapse_0_1_0_BB67_13
## %bb.7:                               ## %join.6.i.i.preheader
	movl	%eax, %esi
	andl	$3, %esi
	cmpq	$4, %rax
	jae	Ldeerlapse_0_1_0_BB67_9
## %bb.8:
	xorl	%r12d, %r12d
	xorl	%edi, %edi
	jmp	Ldeerlapse_0_1_0_BB67_12
Ldeerlapse_0_1_0_BB67_9:                                ## %join.6.i.i.preheader.new
	movq	%rax, %r8
	andq	$-4, %r8
	movq	40(%rsp), %rdi                  ## 8-byte Reload
	leaq	(%r15,%rdi), %r9
	addq	$3, %r9
	xorl	%r12d, %r12d
	xorl	%edi, %edi
	.p2align	4
Ldeerlapse_0_1_0_BB67_10:                               ## %join.6.i.i
                                        ## =>This Inner Loop Header: Depth=1
	cmpb	$0, -3(%r9,%rdi)
	cmovneq	%rdi, %r12
	cmpb	$0, -2(%r9,%rdi)
	leaq	1(%rdi), %r10
	cmoveq	%r12, %r10
	leaq	2(%rdi), %r11
	cmpb	$0, -1(%r9,%rdi)
	cmoveq	%r10, %r11
	leaq	3(%rdi), %r12
	cmpb	$0, (%r9,%rdi)
	cmoveq	%r11, %r12
	addq	$4, %rdi
	cmpq	%r8, %rdi
	jne	Ldeerlapse_0_1_0_BB67_10
## %bb.11:                              ## %after.1.i.i.loopexit.unr-lcssa
	testq	%rsi, %rsi
	je	Ldeerlapse_0_1_0_BB67_13
	.p2align	4
Ldeerlapse_0_1_0_BB67_12:                               ## %join.6.i.i.epil
                                        ## =>This Inner Loop Header: Depth=1
	cmpb	$0, (%rbx,%rdi)
	cmovneq	%rdi, %r12
	incq	%rdi
	decq	%rsi
	jne	Ldeerlapse_0_1_0_BB67_12
Ldeerlapse_0_1_0_BB67_13:                               ## %after.1.i.i
	cmpq	%rax, %r12
	jae	Ldeerlapse_0_1_0_BB67_15
## %bb.14:                              ## %"records::inner::last_nonzero.exit.i"
	movzbl	(%rbx,%r12), %eax
	xorl	%esi, %esi
	testb	%al, %al
	cmovneq	%r12, %rsi
	jmp	Ldeerlapse_0_1_0_BB67_16
Ldeerlapse_0_1_0_BB67_15:
	xorl	%eax, %eax
	xorl	%esi, %esi
Ldeerlapse_0_1_0_BB67_16:                               ## %"records::inner::last_nonzero.exit.thread.i"
	movb	%al, (%rdx)
	movq	%rsi, (%r13)
	movb	$1, %al
	jmp	Ldeerlapse_0_1_0_BB67_17
	.cfi_endproc
                                        ## -- End function
	.ifdef	deerlapse_in_rust
	.globl	_deerlapse_0_1_0_record_key_seal      ## -- Begin function deerlapse_record_key_seal
	.p2align	4
_deerlapse_0_1_0_record_key_seal:             ## @deerlapse_record_key_seal
	.else
	.globl	_deerlapse_record_key_seal      ## -- Begin function deerlapse_record_key_seal
	.p2align	4
_deerlapse_record_key_seal:             ## @deerlapse_record_key_seal
	.endif
	.cfi_startproc
## %bb.0:                               ## %start
	pushq	%rbp
	.cfi_def_cfa_offset 16
	pushq	%r15
	.cfi_def_cfa_offset 24
	pushq	%r14
	.cfi_def_cfa_offset 32
	pushq	%r13
	.cfi_def_cfa_offset 40
	pushq	%r12
	.cfi_def_cfa_offset 48
	pushq	%rbx
	.cfi_def_cfa_offset 56
	subq	$72, %rsp
	.cfi_def_cfa_offset 128
	.cfi_offset %rbx, -56
	.cfi_offset %r12, -48
	.cfi_offset %r13, -40
	.cfi_offset %r14, -32
	.cfi_offset %r15, -24
	.cfi_offset %rbp, -16
	xorl	%r14d, %r14d
	testq	%rcx, %rcx
	sete	%r11b
	xorl	%eax, %eax
	testb	%dl, %dl
	je	Ldeerlapse_0_1_0_BB68_10
## %bb.1:                               ## %start
	movq	%r9, %r10
	leaq	-16402(%r8), %r9
	cmpq	$-16385, %r9                    ## imm = 0xBFFF
	jb	Ldeerlapse_0_1_0_BB68_10
## %bb.2:                               ## %start
	leaq	-16(%r8), %r9
	movq	%r9, %rbx
	subq	%r10, %rbx
	jbe	Ldeerlapse_0_1_0_BB68_10
## %bb.3:                               ## %else.13.i
	movl	1920(%rdi), %eax
	addl	$-10, %eax
	cmpl	$4, %eax
	ja	Ldeerlapse_0_1_0_BB68_4
## %bb.5:                               ## %after.7.i
	movq	%r8, %r15
	movb	%r11b, %r14b
	shll	$12, %r14d
	addq	%r14, %rcx
	leaq	(%rcx,%r9), %r12
	movb	%dl, (%rcx,%r10)
	leaq	1(%r10), %rax
	cmpq	%rax, %r9
	je	Ldeerlapse_0_1_0_BB68_9
## %bb.6:                               ## %loop.5.preheader.i.i.i
	leaq	(%rcx,%r10), %r14
	incq	%r14
	addq	$-2, %rbx
	je	Ldeerlapse_0_1_0_BB68_8
## %bb.7:                               ## %join.8.preheader.i.i.i
	movq	%r12, 24(%rsp)                  ## 8-byte Spill
	movq	%rdi, %r12
	movq	%r14, %rdi
	movq	%rsi, %r13
	movq	%rbx, %rsi
	movq	%rcx, %rbp
	callq	___bzero
	movq	%r13, %rsi
	leaq	-16(%r15), %r9
	movq	%r12, %rdi
	movq	24(%rsp), %r12                  ## 8-byte Reload
	movq	%rbp, %rcx
Ldeerlapse_0_1_0_BB68_8:                                ## %after.4.i.i.i
	movb	$0, (%r14,%rbx)
Ldeerlapse_0_1_0_BB68_9:                                ## %"records::inner::write_type_and_padding.exit.i"
	bswapq	%rsi
	movl	%esi, %eax
	shrl	$24, %eax
	movl	%esi, %edx
	shrl	$16, %edx
	movd	%esi, %xmm0
	movl	%esi, %r8d
	shrl	$8, %r8d
	pinsrb	$1, %r8d, %xmm0
	pinsrb	$2, %edx, %xmm0
	pinsrb	$3, %eax, %xmm0
	movd	3196(%rdi), %xmm1               ## xmm1 = mem[0],zero,zero,zero
	pxor	%xmm1, %xmm0
	movd	3192(%rdi), %xmm1               ## xmm1 = mem[0],zero,zero,zero
	punpckldq	%xmm0, %xmm1            ## xmm1 = xmm1[0],xmm0[0],xmm1[1],xmm0[1]
	movq	%xmm1, 32(%rsp)
	movq	%rsi, %rax
	shrq	$56, %rax
	movq	%rsi, %rdx
	shrq	$48, %rdx
	movq	%rsi, %r8
	shrq	$40, %r8
	shrq	$32, %rsi
	movd	3200(%rdi), %xmm0               ## xmm0 = mem[0],zero,zero,zero
	movd	%esi, %xmm1
	pinsrb	$1, %r8d, %xmm1
	pinsrb	$2, %edx, %xmm1
	pinsrb	$3, %eax, %xmm1
	pxor	%xmm0, %xmm1
	movd	%xmm1, 40(%rsp)
	pxor	%xmm0, %xmm0
	movdqa	%xmm0, 48(%rsp)
	movw	$791, 19(%rsp)                  ## imm = 0x317
	movb	$3, 21(%rsp)
	movq	%r15, %rax
	movb	%ah, 22(%rsp)
	movb	%al, 23(%rsp)
	leaq	48(%rsp), %rax
	movq	%rax, (%rsp)
	leaq	32(%rsp), %rsi
	leaq	19(%rsp), %rdx
	movq	%rcx, %r8
	movl	$5, %ecx
	callq	"_deerlapse_0_1_0::deerlapse::key::deerlapse_key_seal"
                                        ## kill: def $al killed $al def $eax
	movaps	48(%rsp), %xmm0
	movups	%xmm0, (%r12)
	jmp	Ldeerlapse_0_1_0_BB68_10
Ldeerlapse_0_1_0_BB68_4:
	xorl	%eax, %eax
Ldeerlapse_0_1_0_BB68_10:                               ## %"deerlapse::record_key::deerlapse_record_key_seal.exit"
                                        ## kill: def $al killed $al killed $eax
	addq	$72, %rsp
	popq	%rbx
	popq	%r12
	popq	%r13
	popq	%r14
	popq	%r15
	popq	%rbp
	retq
	.cfi_endproc
                                        ## -- End function
	.ifdef	deerlapse_in_rust
	.globl	_deerlapse_0_1_0_sealer_seal          ## -- Begin function deerlapse_sealer_seal
	.p2align	4
_deerlapse_0_1_0_sealer_seal:                 ## @deerlapse_sealer_seal
	.else
	.globl	_deerlapse_sealer_seal          ## -- Begin function deerlapse_sealer_seal
	.p2align	4
_deerlapse_sealer_seal:                 ## @deerlapse_sealer_seal
	.endif
	.cfi_startproc
## %bb.0:                               ## %start
	pushq	%rbx
	.cfi_def_cfa_offset 16
	subq	$32, %rsp
	.cfi_def_cfa_offset 48
	.cfi_offset %rbx, -16
	movq	%rdi, %rbx
	movq	3192(%rdi), %rdi
	cmpq	%rdi, 3200(%rbx)
	jbe	Ldeerlapse_0_1_0_BB69_4
## %bb.1:                               ## %join.3.i
	movq	%r8, %rax
	movq	%rdx, %r10
	xorl	%r8d, %r8d
	testq	%rcx, %rcx
	sete	%r8b
	shll	$12, %r8d
	addq	%rcx, %r8
	xorl	%edx, %edx
	testq	%rsi, %rsi
	sete	%dl
	shll	$12, %edx
	bswapq	%rdi
	addq	%rsi, %rdx
	movl	%edi, %ecx
	shrl	$24, %ecx
	movl	%edi, %esi
	shrl	$16, %esi
	movd	%edi, %xmm0
	movl	%edi, %r11d
	shrl	$8, %r11d
	pinsrb	$1, %r11d, %xmm0
	pinsrb	$2, %esi, %xmm0
	movd	3212(%rbx), %xmm1               ## xmm1 = mem[0],zero,zero,zero
	pinsrb	$3, %ecx, %xmm0
	pxor	%xmm1, %xmm0
	movd	3208(%rbx), %xmm1               ## xmm1 = mem[0],zero,zero,zero
	punpckldq	%xmm0, %xmm1            ## xmm1 = xmm1[0],xmm0[0],xmm1[1],xmm0[1]
	movq	%xmm1, 16(%rsp)
	movq	%rdi, %rcx
	shrq	$56, %rcx
	movq	%rdi, %rsi
	shrq	$48, %rsi
	movq	%rdi, %r11
	shrq	$40, %r11
	shrq	$32, %rdi
	movd	3216(%rbx), %xmm0               ## xmm0 = mem[0],zero,zero,zero
	movd	%edi, %xmm1
	pinsrb	$1, %r11d, %xmm1
	pinsrb	$2, %esi, %xmm1
	pinsrb	$3, %ecx, %xmm1
	pxor	%xmm0, %xmm1
	movd	%xmm1, 24(%rsp)
	movq	%r9, (%rsp)
	leaq	16(%rsp), %rsi
	movq	%rbx, %rdi
	movq	%r10, %rcx
	movq	%rax, %r9
	callq	"_deerlapse_0_1_0::deerlapse::key::deerlapse_key_seal"
	testb	%al, %al
	je	Ldeerlapse_0_1_0_BB69_4
## %bb.2:                               ## %join.6.i
	incq	3192(%rbx)
	movb	$1, %al
                                        ## kill: def $al killed $al killed $eax
	addq	$32, %rsp
	popq	%rbx
	retq
Ldeerlapse_0_1_0_BB69_4:
	xorl	%eax, %eax
                                        ## kill: def $al killed $al killed $eax
	addq	$32, %rsp
	popq	%rbx
	retq
	.cfi_endproc
                                        ## -- End function
	.ifdef	deerlapse_in_rust
	.globl	_deerlapse_0_1_0_xaes_open            ## -- Begin function deerlapse_xaes_open
	.p2align	4
_deerlapse_0_1_0_xaes_open:                   ## @deerlapse_xaes_open
	.else
	.globl	_deerlapse_xaes_open            ## -- Begin function deerlapse_xaes_open
	.p2align	4
_deerlapse_xaes_open:                   ## @deerlapse_xaes_open
	.endif
	.cfi_startproc
## %bb.0:                               ## %start
	pushq	%rbp
	.cfi_def_cfa_offset 16
	pushq	%r15
	.cfi_def_cfa_offset 24
	pushq	%r14
	.cfi_def_cfa_offset 32
	pushq	%r13
	.cfi_def_cfa_offset 40
	pushq	%r12
	.cfi_def_cfa_offset 48
	pushq	%rbx
	.cfi_def_cfa_offset 56
	subq	$3072, %rsp                     ## imm = 0xC00
	.cfi_adjust_cfa_offset 3072
	movq	$0, (%rsp)
	subq	$296, %rsp                      ## imm = 0x128
	.cfi_def_cfa_offset 3424
	.cfi_offset %rbx, -56
	.cfi_offset %r12, -48
	.cfi_offset %r13, -40
	.cfi_offset %r14, -32
	.cfi_offset %r15, -24
	.cfi_offset %rbp, -16
	movq	%r9, %rbp
	movq	%r8, %rbx
	movq	%rcx, 40(%rsp)                  ## 8-byte Spill
	movq	%rdx, %r15
	movq	%rsi, %r13
	movq	%rdi, %r14
	testq	%rdx, %rdx
	sete	38(%rsp)                        ## 1-byte Folded Spill
	testq	%r8, %r8
	sete	39(%rsp)                        ## 1-byte Folded Spill
	leaq	176(%rsp), %r12
	movl	$3192, %esi                     ## imm = 0xC78
	movq	%r12, %rdi
	callq	___bzero
	leaq	51(%rsp), %rdi
	movq	%r14, %rsi
	movq	%r13, %rdx
	movq	%r12, %rcx
	callq	"_deerlapse_0_1_0::deerlapse::xaes_key::expand_message_key"
	cmpb	$1, 51(%rsp)
	jne	Ldeerlapse_0_1_0_BB70_8
## %bb.1:                               ## %arm.1.i
	movl	2096(%rsp), %edx
	leal	-10(%rdx), %eax
	cmpl	$4, %eax
	ja	Ldeerlapse_0_1_0_BB70_8
## %bb.2:                               ## %join.3.i.i
	cmpq	$16, %rbp
	jb	Ldeerlapse_0_1_0_BB70_8
## %bb.3:                               ## %arm.1.i.i.i
	movq	3424(%rsp), %r14
	leaq	-16(%rbp), %r13
	movq	%r13, %rax
	subq	%r14, %rax
	jb	Ldeerlapse_0_1_0_BB70_8
## %bb.4:                               ## %arm.8.i.i.i
	movq	40(%rsp), %rcx                  ## 8-byte Reload
	shrq	$61, %rcx
	setne	%cl
	movabsq	$68719476704, %rsi              ## imm = 0xFFFFFFFE0
	cmpq	%rsi, %rax
	seta	%sil
	orb	%cl, %sil
	jne	Ldeerlapse_0_1_0_BB70_8
## %bb.5:                               ## %then.11.i.i.i
	xorl	%ecx, %ecx
	movzbl	38(%rsp), %esi                  ## 1-byte Folded Reload
	movb	%sil, %cl
	shll	$12, %ecx
	addq	%rcx, %r15
	xorl	%ecx, %ecx
	movzbl	39(%rsp), %esi                  ## 1-byte Folded Reload
	movb	%sil, %cl
	shll	$12, %ecx
	addq	%rcx, %rbx
	leaq	2104(%rsp), %rsi
	leaq	2344(%rsp), %rdi
	leaq	2856(%rsp), %r8
	leaq	52(%rsp), %rcx
	leaq	-16(%rbx,%rbp), %r9
	movl	2100(%rsp), %r10d
	movq	%r12, 64(%rsp)
	movq	%rsi, 72(%rsp)
	movq	%rdx, 80(%rsp)
	movl	%r10d, 88(%rsp)
	movl	$0, 92(%rsp)
	movq	%rdi, 120(%rsp)
	movq	%r8, 128(%rsp)
	xorps	%xmm0, %xmm0
	movaps	%xmm0, 96(%rsp)
	movups	(%r9), %xmm0
	movaps	%xmm0, 160(%rsp)
	leaq	(%rbx,%r14), %rdx
	leaq	96(%rsp), %rsi
	movq	%rsi, 24(%rsp)
	movq	%rax, 16(%rsp)
	movq	%rdx, 8(%rsp)
	leaq	160(%rsp), %rax
	movq	%rax, (%rsp)
	leaq	143(%rsp), %rdi
	leaq	64(%rsp), %rsi
	leaq	120(%rsp), %rdx
	movq	%r15, %r8
	movq	40(%rsp), %r9                   ## 8-byte Reload
	callq	"_deerlapse_0_1_0::aead_ciphers::aes_gcm::opening::authenticate::<#7bfdf0a6b4753edd>"
	cmpb	$0, 143(%rsp)
	je	Ldeerlapse_0_1_0_BB70_10
Ldeerlapse_0_1_0_BB70_8:
	xorl	%eax, %eax
Ldeerlapse_0_1_0_BB70_9:                                ## %"deerlapse::xaes_key::deerlapse_xaes_open.exit"
                                        ## kill: def $al killed $al killed $eax
	addq	$3368, %rsp                     ## imm = 0xD28
	popq	%rbx
	popq	%r12
	popq	%r13
	popq	%r14
	popq	%r15
	popq	%rbp
	retq
Ldeerlapse_0_1_0_BB70_10:                               ## %arm.4.i.i
	movq	%r14, %r8
	movq	3432(%rsp), %r14
	leaq	144(%rsp), %rsi
	leaq	64(%rsp), %rdi
	leaq	96(%rsp), %r9
	movq	%rbx, %rdx
	movq	%r13, %rcx
	callq	"_deerlapse_0_1_0::aead_ciphers::aes_gcm::counter_mode::encrypt_within::<#6fa349fe97f872a2>"
	movq	%rax, (%r14)
	movb	$1, %al
	jmp	Ldeerlapse_0_1_0_BB70_9
	.cfi_endproc
                                        ## -- End function
	.ifdef	deerlapse_in_rust
	.globl	_deerlapse_0_1_0_xaes_open_appended_tag_sized ## -- Begin function deerlapse_xaes_open_appended_tag_sized
	.p2align	4
_deerlapse_0_1_0_xaes_open_appended_tag_sized: ## @deerlapse_xaes_open_appended_tag_sized
	.else
	.globl	_deerlapse_xaes_open_appended_tag_sized ## -- Begin function deerlapse_xaes_open_appended_tag_sized
	.p2align	4
_deerlapse_xaes_open_appended_tag_sized: ## @deerlapse_xaes_open_appended_tag_sized
	.endif
	.cfi_startproc
## %bb.0:                               ## %start
	pushq	%rbp
	.cfi_def_cfa_offset 16
	pushq	%r15
	.cfi_def_cfa_offset 24
	pushq	%r14
	.cfi_def_cfa_offset 32
	pushq	%r13
	.cfi_def_cfa_offset 40
	pushq	%r12
	.cfi_def_cfa_offset 48
	pushq	%rbx
	.cfi_def_cfa_offset 56
	subq	$3072, %rsp                     ## imm = 0xC00
	.cfi_adjust_cfa_offset 3072
	movq	$0, (%rsp)
	subq	$168, %rsp
	.cfi_def_cfa_offset 3296
	.cfi_offset %rbx, -56
	.cfi_offset %r12, -48
	.cfi_offset %r13, -40
	.cfi_offset %r14, -32
	.cfi_offset %r15, -24
	.cfi_offset %rbp, -16
	movq	%r9, %r12
	movq	%r8, %r15
	movq	%rcx, 24(%rsp)                  ## 8-byte Spill
	movq	%rdx, %r14
	movq	%rsi, %r13
	movq	%rdi, %rbp
	leaq	48(%rsp), %rbx
	movl	$3192, %esi                     ## imm = 0xC78
	movq	%rbx, %rdi
	callq	___bzero
	leaq	35(%rsp), %rdi
	movq	%rbp, %rsi
	movq	%r13, %rdx
	movq	%rbx, %rcx
	callq	"_deerlapse_0_1_0::deerlapse::xaes_key::expand_message_key"
	xorl	%eax, %eax
	cmpq	$16, %r12
	jb	Ldeerlapse_0_1_0_BB71_3
## %bb.1:                               ## %start
	cmpb	$1, 35(%rsp)
	jne	Ldeerlapse_0_1_0_BB71_3
## %bb.2:                               ## %arm.1.i.i
	movq	3304(%rsp), %rax
	movq	3296(%rsp), %rdx
	xorl	%ecx, %ecx
	testq	%rdx, %rdx
	sete	%cl
	shll	$12, %ecx
	addq	%rdx, %rcx
	xorl	%r8d, %r8d
	testq	%r15, %r15
	sete	%r8b
	shll	$12, %r8d
	addq	%r15, %r8
	xorl	%edx, %edx
	testq	%r14, %r14
	sete	%dl
	shll	$12, %edx
	addq	%r14, %rdx
	leaq	36(%rsp), %rsi
	leaq	(%r12,%r8), %rdi
	addq	$-16, %rdi
	addq	$-16, %r12
	movq	%rax, 8(%rsp)
	movq	%rcx, (%rsp)
	movq	%rdi, 16(%rsp)
	leaq	48(%rsp), %rdi
	movq	24(%rsp), %rcx                  ## 8-byte Reload
	movq	%r12, %r9
	callq	"_deerlapse_0_1_0::deerlapse::out_of_place::deerlapse_key_open_to_sized"
                                        ## kill: def $al killed $al def $eax
Ldeerlapse_0_1_0_BB71_3:                                ## %"deerlapse::xaes_key::deerlapse_xaes_open_appended_tag_sized.exit"
                                        ## kill: def $al killed $al killed $eax
	addq	$3240, %rsp                     ## imm = 0xCA8
	popq	%rbx
	popq	%r12
	popq	%r13
	popq	%r14
	popq	%r15
	popq	%rbp
	retq
	.cfi_endproc
                                        ## -- End function
	.ifdef	deerlapse_in_rust
	.globl	_deerlapse_0_1_0_xaes_open_separate_tag ## -- Begin function deerlapse_xaes_open_separate_tag
	.p2align	4
_deerlapse_0_1_0_xaes_open_separate_tag:      ## @deerlapse_xaes_open_separate_tag
	.else
	.globl	_deerlapse_xaes_open_separate_tag ## -- Begin function deerlapse_xaes_open_separate_tag
	.p2align	4
_deerlapse_xaes_open_separate_tag:      ## @deerlapse_xaes_open_separate_tag
	.endif
	.cfi_startproc
## %bb.0:                               ## %start
	pushq	%rbp
	.cfi_def_cfa_offset 16
	pushq	%r15
	.cfi_def_cfa_offset 24
	pushq	%r14
	.cfi_def_cfa_offset 32
	pushq	%r13
	.cfi_def_cfa_offset 40
	pushq	%r12
	.cfi_def_cfa_offset 48
	pushq	%rbx
	.cfi_def_cfa_offset 56
	subq	$3072, %rsp                     ## imm = 0xC00
	.cfi_adjust_cfa_offset 3072
	movq	$0, (%rsp)
	subq	$296, %rsp                      ## imm = 0x128
	.cfi_def_cfa_offset 3424
	.cfi_offset %rbx, -56
	.cfi_offset %r12, -48
	.cfi_offset %r13, -40
	.cfi_offset %r14, -32
	.cfi_offset %r15, -24
	.cfi_offset %rbp, -16
	movq	%r9, %rbx
	movq	%r8, %r14
	movq	%rcx, 40(%rsp)                  ## 8-byte Spill
	movq	%rdx, %r12
	movq	%rsi, %r13
	movq	%rdi, %r15
	testq	%rdx, %rdx
	sete	38(%rsp)                        ## 1-byte Folded Spill
	testq	%r8, %r8
	sete	39(%rsp)                        ## 1-byte Folded Spill
	leaq	176(%rsp), %rbp
	movl	$3192, %esi                     ## imm = 0xC78
	movq	%rbp, %rdi
	callq	___bzero
	leaq	51(%rsp), %rdi
	movq	%r15, %rsi
	movq	%r13, %rdx
	movq	%rbp, %rcx
	callq	"_deerlapse_0_1_0::deerlapse::xaes_key::expand_message_key"
	cmpb	$1, 51(%rsp)
	jne	Ldeerlapse_0_1_0_BB72_8
## %bb.1:                               ## %arm.1.i
	movq	3424(%rsp), %r13
	xorl	%eax, %eax
	movq	%rbx, %rdx
	subq	%r13, %rdx
	movl	$0, %esi
	cmovaeq	%rdx, %rsi
	jb	Ldeerlapse_0_1_0_BB72_9
## %bb.2:                               ## %arm.3.i.i
	movl	2096(%rsp), %ecx
	leal	-10(%rcx), %eax
	cmpl	$4, %eax
	ja	Ldeerlapse_0_1_0_BB72_8
## %bb.3:                               ## %then.7.i.i
	xorl	%eax, %eax
	movq	40(%rsp), %rdi                  ## 8-byte Reload
	shrq	$61, %rdi
	jne	Ldeerlapse_0_1_0_BB72_9
## %bb.4:                               ## %then.7.i.i
	movabsq	$68719476705, %rdi              ## imm = 0xFFFFFFFE1
	cmpq	%rdi, %rsi
	jae	Ldeerlapse_0_1_0_BB72_9
## %bb.5:                               ## %join.3.i.i.i.i
	leaq	2104(%rsp), %rax
	leaq	2344(%rsp), %rsi
	leaq	2856(%rsp), %r8
	xorps	%xmm0, %xmm0
	movaps	%xmm0, 96(%rsp)
	movl	2100(%rsp), %r9d
	movq	%rbp, 64(%rsp)
	movq	%rax, 72(%rsp)
	movq	%rcx, 80(%rsp)
	movl	%r9d, 88(%rsp)
	movl	$0, 92(%rsp)
	movq	%rsi, 120(%rsp)
	movq	%r8, 128(%rsp)
	cmpq	%rdi, %rdx
	jae	Ldeerlapse_0_1_0_BB72_8
## %bb.6:                               ## %join.7.i.i.i.i
	movq	3432(%rsp), %rax
	xorl	%ecx, %ecx
	movzbl	38(%rsp), %esi                  ## 1-byte Folded Reload
	movb	%sil, %cl
	shll	$12, %ecx
	addq	%rcx, %r12
	xorl	%ecx, %ecx
	movzbl	39(%rsp), %esi                  ## 1-byte Folded Reload
	movb	%sil, %cl
	shll	$12, %ecx
	addq	%rcx, %r14
	leaq	52(%rsp), %rcx
	movups	(%rax), %xmm0
	movaps	%xmm0, 160(%rsp)
	leaq	(%r14,%r13), %rax
	leaq	96(%rsp), %rsi
	movq	%rsi, 24(%rsp)
	movq	%rdx, 16(%rsp)
	movq	%rax, 8(%rsp)
	leaq	160(%rsp), %rax
	movq	%rax, (%rsp)
	leaq	143(%rsp), %rdi
	leaq	64(%rsp), %rsi
	leaq	120(%rsp), %rdx
	movq	%r12, %r8
	movq	40(%rsp), %r9                   ## 8-byte Reload
	callq	"_deerlapse_0_1_0::aead_ciphers::aes_gcm::opening::authenticate::<#7bfdf0a6b4753edd>"
	cmpb	$0, 143(%rsp)
	sete	%al
	jne	Ldeerlapse_0_1_0_BB72_9
## %bb.7:                               ## %arm.1.i.i.i.i.i
	leaq	144(%rsp), %rsi
	leaq	64(%rsp), %rdi
	leaq	96(%rsp), %r9
	movq	%r14, %rdx
	movq	%rbx, %rcx
	movq	%r13, %r8
	movq	%rax, %rbx
	callq	"_deerlapse_0_1_0::aead_ciphers::aes_gcm::counter_mode::encrypt_within::<#6fa349fe97f872a2>"
	movq	%rbx, %rax
	jmp	Ldeerlapse_0_1_0_BB72_9
Ldeerlapse_0_1_0_BB72_8:
	xorl	%eax, %eax
Ldeerlapse_0_1_0_BB72_9:                                ## %"deerlapse::xaes_key::deerlapse_xaes_open_separate_tag.exit"
                                        ## kill: def $al killed $al killed $rax
	addq	$3368, %rsp                     ## imm = 0xD28
	popq	%rbx
	popq	%r12
	popq	%r13
	popq	%r14
	popq	%r15
	popq	%rbp
	retq
	.cfi_endproc
                                        ## -- End function
	.ifdef	deerlapse_in_rust
	.globl	_deerlapse_0_1_0_xaes_open_to_sized   ## -- Begin function deerlapse_xaes_open_to_sized
	.p2align	4
_deerlapse_0_1_0_xaes_open_to_sized:          ## @deerlapse_xaes_open_to_sized
	.else
	.globl	_deerlapse_xaes_open_to_sized   ## -- Begin function deerlapse_xaes_open_to_sized
	.p2align	4
_deerlapse_xaes_open_to_sized:          ## @deerlapse_xaes_open_to_sized
	.endif
	.cfi_startproc
## %bb.0:                               ## %start
	pushq	%rbp
	.cfi_def_cfa_offset 16
	pushq	%r15
	.cfi_def_cfa_offset 24
	pushq	%r14
	.cfi_def_cfa_offset 32
	pushq	%r13
	.cfi_def_cfa_offset 40
	pushq	%r12
	.cfi_def_cfa_offset 48
	pushq	%rbx
	.cfi_def_cfa_offset 56
	subq	$3072, %rsp                     ## imm = 0xC00
	.cfi_adjust_cfa_offset 3072
	movq	$0, (%rsp)
	subq	$168, %rsp
	.cfi_def_cfa_offset 3296
	.cfi_offset %rbx, -56
	.cfi_offset %r12, -48
	.cfi_offset %r13, -40
	.cfi_offset %r14, -32
	.cfi_offset %r15, -24
	.cfi_offset %rbp, -16
	movq	%r9, 24(%rsp)                   ## 8-byte Spill
	movq	%r8, %r12
	movq	%rcx, %r14
	movq	%rdx, %r15
	movq	%rsi, %r13
	movq	%rdi, %rbp
	leaq	48(%rsp), %rbx
	movl	$3192, %esi                     ## imm = 0xC78
	movq	%rbx, %rdi
	callq	___bzero
	leaq	35(%rsp), %rdi
	movq	%rbp, %rsi
	movq	%r13, %rdx
	movq	%rbx, %rcx
	callq	"_deerlapse_0_1_0::deerlapse::xaes_key::expand_message_key"
	cmpb	$1, 35(%rsp)
	jne	Ldeerlapse_0_1_0_BB73_1
## %bb.2:                               ## %arm.1.i
	movq	3312(%rsp), %rcx
	movq	3304(%rsp), %rax
	movq	3296(%rsp), %rdx
	xorl	%edi, %edi
	testq	%rdx, %rdx
	sete	%dil
	shll	$12, %edi
	addq	%rdx, %rdi
	xorl	%r8d, %r8d
	testq	%r12, %r12
	sete	%r8b
	shll	$12, %r8d
	addq	%r12, %r8
	xorl	%edx, %edx
	testq	%r15, %r15
	sete	%dl
	shll	$12, %edx
	addq	%r15, %rdx
	leaq	36(%rsp), %rsi
	movq	%rcx, 16(%rsp)
	movq	%rax, 8(%rsp)
	movq	%rdi, (%rsp)
	leaq	48(%rsp), %rdi
	movq	%r14, %rcx
	movq	24(%rsp), %r9                   ## 8-byte Reload
	callq	"_deerlapse_0_1_0::deerlapse::out_of_place::deerlapse_key_open_to_sized"
                                        ## kill: def $al killed $al def $eax
	jmp	Ldeerlapse_0_1_0_BB73_3
Ldeerlapse_0_1_0_BB73_1:
	xorl	%eax, %eax
Ldeerlapse_0_1_0_BB73_3:                                ## %"deerlapse::xaes_key::deerlapse_xaes_open_to_sized.exit"
                                        ## kill: def $al killed $al killed $eax
	addq	$3240, %rsp                     ## imm = 0xCA8
	popq	%rbx
	popq	%r12
	popq	%r13
	popq	%r14
	popq	%r15
	popq	%rbp
	retq
	.cfi_endproc
                                        ## -- End function
	.ifdef	deerlapse_in_rust
	.globl	_deerlapse_0_1_0_xaes_seal            ## -- Begin function deerlapse_xaes_seal
	.p2align	4
_deerlapse_0_1_0_xaes_seal:                   ## @deerlapse_xaes_seal
	.else
	.globl	_deerlapse_xaes_seal            ## -- Begin function deerlapse_xaes_seal
	.p2align	4
_deerlapse_xaes_seal:                   ## @deerlapse_xaes_seal
	.endif
	.cfi_startproc
## %bb.0:                               ## %start
	pushq	%rbp
	.cfi_def_cfa_offset 16
	pushq	%r15
	.cfi_def_cfa_offset 24
	pushq	%r14
	.cfi_def_cfa_offset 32
	pushq	%r13
	.cfi_def_cfa_offset 40
	pushq	%r12
	.cfi_def_cfa_offset 48
	pushq	%rbx
	.cfi_def_cfa_offset 56
	subq	$3072, %rsp                     ## imm = 0xC00
	.cfi_adjust_cfa_offset 3072
	movq	$0, (%rsp)
	subq	$152, %rsp
	.cfi_def_cfa_offset 3280
	.cfi_offset %rbx, -56
	.cfi_offset %r12, -48
	.cfi_offset %r13, -40
	.cfi_offset %r14, -32
	.cfi_offset %r15, -24
	.cfi_offset %rbp, -16
	movq	%r9, 8(%rsp)                    ## 8-byte Spill
	movq	%r8, %r12
	movq	%rcx, %r14
	movq	%rdx, %r15
	movq	%rsi, %r13
	movq	%rdi, %rbp
	leaq	32(%rsp), %rbx
	movl	$3192, %esi                     ## imm = 0xC78
	movq	%rbx, %rdi
	callq	___bzero
	leaq	19(%rsp), %rdi
	movq	%rbp, %rsi
	movq	%r13, %rdx
	movq	%rbx, %rcx
	callq	"_deerlapse_0_1_0::deerlapse::xaes_key::expand_message_key"
	cmpb	$1, 19(%rsp)
	jne	Ldeerlapse_0_1_0_BB74_1
## %bb.2:                               ## %arm.1.i
	movq	3280(%rsp), %rax
	xorl	%r8d, %r8d
	testq	%r12, %r12
	sete	%r8b
	shll	$12, %r8d
	addq	%r12, %r8
	xorl	%edx, %edx
	testq	%r15, %r15
	sete	%dl
	shll	$12, %edx
	addq	%r15, %rdx
	leaq	20(%rsp), %rsi
	movq	%rax, (%rsp)
	leaq	32(%rsp), %rdi
	movq	%r14, %rcx
	movq	8(%rsp), %r9                    ## 8-byte Reload
	callq	"_deerlapse_0_1_0::deerlapse::key::deerlapse_key_seal"
                                        ## kill: def $al killed $al def $eax
	jmp	Ldeerlapse_0_1_0_BB74_3
Ldeerlapse_0_1_0_BB74_1:
	xorl	%eax, %eax
Ldeerlapse_0_1_0_BB74_3:                                ## %"deerlapse::xaes_key::deerlapse_xaes_seal.exit"
                                        ## kill: def $al killed $al killed $eax
	addq	$3224, %rsp                     ## imm = 0xC98
	popq	%rbx
	popq	%r12
	popq	%r13
	popq	%r14
	popq	%r15
	popq	%rbp
	retq
	.cfi_endproc
                                        ## -- End function
	.ifdef	deerlapse_in_rust
	.globl	_deerlapse_0_1_0_xaes_seal_append_tag_sized ## -- Begin function deerlapse_xaes_seal_append_tag_sized
	.p2align	4
_deerlapse_0_1_0_xaes_seal_append_tag_sized:  ## @deerlapse_xaes_seal_append_tag_sized
	.else
	.globl	_deerlapse_xaes_seal_append_tag_sized ## -- Begin function deerlapse_xaes_seal_append_tag_sized
	.p2align	4
_deerlapse_xaes_seal_append_tag_sized:  ## @deerlapse_xaes_seal_append_tag_sized
	.endif
	.cfi_startproc
## %bb.0:                               ## %start
	pushq	%rbp
	.cfi_def_cfa_offset 16
	pushq	%r15
	.cfi_def_cfa_offset 24
	pushq	%r14
	.cfi_def_cfa_offset 32
	pushq	%r13
	.cfi_def_cfa_offset 40
	pushq	%r12
	.cfi_def_cfa_offset 48
	pushq	%rbx
	.cfi_def_cfa_offset 56
	subq	$3072, %rsp                     ## imm = 0xC00
	.cfi_adjust_cfa_offset 3072
	movq	$0, (%rsp)
	subq	$184, %rsp
	.cfi_def_cfa_offset 3312
	.cfi_offset %rbx, -56
	.cfi_offset %r12, -48
	.cfi_offset %r13, -40
	.cfi_offset %r14, -32
	.cfi_offset %r15, -24
	.cfi_offset %rbp, -16
	movq	%r9, 24(%rsp)                   ## 8-byte Spill
	movq	%rcx, 16(%rsp)                  ## 8-byte Spill
	movq	%rsi, %r13
	movq	%rdi, %rbp
	xorl	%ebx, %ebx
	movq	%rdx, 40(%rsp)                  ## 8-byte Spill
	testq	%rdx, %rdx
	sete	%r15b
	movq	%r8, 32(%rsp)                   ## 8-byte Spill
	testq	%r8, %r8
	sete	%r12b
	cmpq	$0, 3312(%rsp)
	sete	15(%rsp)                        ## 1-byte Folded Spill
	leaq	64(%rsp), %r14
	movl	$3192, %esi                     ## imm = 0xC78
	movq	%r14, %rdi
	callq	___bzero
	leaq	51(%rsp), %rdi
	movq	%rbp, %rsi
	movq	%r13, %rdx
	movq	%r14, %rcx
	callq	"_deerlapse_0_1_0::deerlapse::xaes_key::expand_message_key"
	cmpb	$1, 51(%rsp)
	jne	Ldeerlapse_0_1_0_BB75_3
## %bb.1:                               ## %arm.1.i
	movq	3320(%rsp), %rdx
	cmpq	$16, %rdx
	jae	Ldeerlapse_0_1_0_BB75_5
Ldeerlapse_0_1_0_BB75_3:
	xorl	%eax, %eax
Ldeerlapse_0_1_0_BB75_4:                                ## %"deerlapse::xaes_key::deerlapse_xaes_seal_append_tag_sized.exit"
                                        ## kill: def $al killed $al killed $eax
	addq	$3256, %rsp                     ## imm = 0xCB8
	popq	%rbx
	popq	%r12
	popq	%r13
	popq	%r14
	popq	%r15
	popq	%rbp
	retq
Ldeerlapse_0_1_0_BB75_5:                                ## %arm.1.i.i
	leaq	-16(%rdx), %rcx
	xorl	%eax, %eax
	movq	24(%rsp), %r9                   ## 8-byte Reload
	cmpq	%r9, %rcx
	jne	Ldeerlapse_0_1_0_BB75_4
## %bb.6:                               ## %arm.1.i.i
	movl	1984(%rsp), %ecx
	addl	$-10, %ecx
	cmpl	$4, %ecx
	ja	Ldeerlapse_0_1_0_BB75_4
## %bb.7:                               ## %else.7.i.i.i
	movabsq	$68719476704, %rcx              ## imm = 0xFFFFFFFE0
	movq	16(%rsp), %rax                  ## 8-byte Reload
	shrq	$61, %rax
	setne	%al
	leaq	1(%rcx), %rsi
	cmpq	%rsi, %r9
	setae	%sil
	orb	%al, %sil
	jne	Ldeerlapse_0_1_0_BB75_3
## %bb.8:                               ## %after.1.i.i.i
	movb	%r15b, %bl
	shll	$12, %ebx
	movq	40(%rsp), %rax                  ## 8-byte Reload
	addq	%rbx, %rax
	movq	%rax, %rbx
	xorl	%r15d, %r15d
	movb	%r12b, %r15b
	shll	$12, %r15d
	movq	32(%rsp), %r10                  ## 8-byte Reload
	leaq	(%r10,%r15), %rsi
	xorl	%r12d, %r12d
	movzbl	15(%rsp), %eax                  ## 1-byte Folded Reload
	movb	%al, %r12b
	shll	$12, %r12d
	movq	3312(%rsp), %r11
	leaq	(%r11,%r12), %r13
	leaq	52(%rsp), %rbp
	leaq	(%rdx,%r13), %r14
	addq	$-16, %r14
	movq	%r13, %rax
	subq	%rsi, %rax
	cmpq	%r9, %rax
	jae	Ldeerlapse_0_1_0_BB75_12
## %bb.9:                               ## %iter.check
	cmpq	$4, %r9
	jb	Ldeerlapse_0_1_0_BB75_10
## %bb.13:                              ## %vector.memcheck
	cmpq	$32, %rax
	jae	Ldeerlapse_0_1_0_BB75_15
Ldeerlapse_0_1_0_BB75_10:
	xorl	%eax, %eax
Ldeerlapse_0_1_0_BB75_24:                               ## %join.7.i.i.i.i.i.i.i.i.i.preheader
	movq	%r9, %rdx
	movq	%rax, %rcx
	andq	$3, %rdx
	je	Ldeerlapse_0_1_0_BB75_27
## %bb.25:                              ## %join.7.i.i.i.i.i.i.i.i.i.prol.preheader
	movq	%rax, %rcx
	.p2align	4
Ldeerlapse_0_1_0_BB75_26:                               ## %join.7.i.i.i.i.i.i.i.i.i.prol
                                        ## =>This Inner Loop Header: Depth=1
	movzbl	(%rsi,%rcx), %edi
	movb	%dil, (%r13,%rcx)
	incq	%rcx
	decq	%rdx
	jne	Ldeerlapse_0_1_0_BB75_26
Ldeerlapse_0_1_0_BB75_27:                               ## %join.7.i.i.i.i.i.i.i.i.i.prol.loopexit
	subq	%r9, %rax
	cmpq	$-4, %rax
	ja	Ldeerlapse_0_1_0_BB75_30
## %bb.28:                              ## %join.7.i.i.i.i.i.i.i.i.i.preheader11
	leaq	(%r15,%r10), %rax
	addq	$3, %rax
	leaq	(%r12,%r11), %rdx
	addq	$3, %rdx
	.p2align	4
Ldeerlapse_0_1_0_BB75_29:                               ## %join.7.i.i.i.i.i.i.i.i.i
                                        ## =>This Inner Loop Header: Depth=1
	movzbl	-3(%rax,%rcx), %esi
	movb	%sil, -3(%rdx,%rcx)
	movzbl	-2(%rax,%rcx), %esi
	movb	%sil, -2(%rdx,%rcx)
	movzbl	-1(%rax,%rcx), %esi
	movb	%sil, -1(%rdx,%rcx)
	movzbl	(%rax,%rcx), %esi
	movb	%sil, (%rdx,%rcx)
	addq	$4, %rcx
	cmpq	%rcx, %r9
	jne	Ldeerlapse_0_1_0_BB75_29
	jmp	Ldeerlapse_0_1_0_BB75_30
Ldeerlapse_0_1_0_BB75_12:                               ## %apart.2.i.i.i.i.i.i.i.i.i
	movq	%r13, %rdi
	movq	%r9, %rdx
	callq	_memmove
	movq	24(%rsp), %r9                   ## 8-byte Reload
Ldeerlapse_0_1_0_BB75_30:                               ## %"core::slice::edits::slice+T::copy_from_slice::<i8,20'core::clone::U8Clone{}>.exit.i.i.i"
	movq	%r14, (%rsp)
	leaq	64(%rsp), %rdi
	movq	%rbp, %rsi
	movq	%rbx, %rdx
	movq	16(%rsp), %rcx                  ## 8-byte Reload
	movq	%r13, %r8
	callq	"_deerlapse_0_1_0::deerlapse::key::deerlapse_key_seal"
                                        ## kill: def $al killed $al def $eax
	jmp	Ldeerlapse_0_1_0_BB75_4
Ldeerlapse_0_1_0_BB75_15:                               ## %vector.main.loop.iter.check
	cmpq	$32, %r9
	jae	Ldeerlapse_0_1_0_BB75_17
## %bb.16:
	xorl	%eax, %eax
	jmp	Ldeerlapse_0_1_0_BB75_21
Ldeerlapse_0_1_0_BB75_17:                               ## %vector.ph
	movq	%r9, %rax
	andq	%rcx, %rax
	leaq	(%r15,%r10), %rdx
	addq	$16, %rdx
	leaq	(%r12,%r11), %rdi
	addq	$16, %rdi
	xorl	%r8d, %r8d
Ldeerlapse_0_1_0_BB75_18:                               ## %vector.body
                                        ## =>This Inner Loop Header: Depth=1
	movups	-16(%rdx,%r8), %xmm0
	movups	(%rdx,%r8), %xmm1
	movups	%xmm0, -16(%rdi,%r8)
	movups	%xmm1, (%rdi,%r8)
	addq	$32, %r8
	cmpq	%r8, %rax
	jne	Ldeerlapse_0_1_0_BB75_18
## %bb.19:                              ## %middle.block
	cmpq	%rax, %r9
	je	Ldeerlapse_0_1_0_BB75_30
## %bb.20:                              ## %vec.epilog.iter.check
	testb	$28, %r9b
	je	Ldeerlapse_0_1_0_BB75_24
Ldeerlapse_0_1_0_BB75_21:                               ## %vec.epilog.ph
	movq	%rax, %rdx
	addq	$28, %rcx
	movq	%rcx, %rax
	andq	%r9, %rax
Ldeerlapse_0_1_0_BB75_22:                               ## %vec.epilog.vector.body
                                        ## =>This Inner Loop Header: Depth=1
	movl	(%rsi,%rdx), %ecx
	movl	%ecx, (%r13,%rdx)
	addq	$4, %rdx
	cmpq	%rdx, %rax
	jne	Ldeerlapse_0_1_0_BB75_22
## %bb.23:                              ## %vec.epilog.middle.block
	cmpq	%rax, %r9
	je	Ldeerlapse_0_1_0_BB75_30
	jmp	Ldeerlapse_0_1_0_BB75_24
	.cfi_endproc
                                        ## -- End function
	.ifdef	deerlapse_in_rust
	.globl	_deerlapse_0_1_0_xaes_seal_to_sized   ## -- Begin function deerlapse_xaes_seal_to_sized
	.p2align	4
_deerlapse_0_1_0_xaes_seal_to_sized:          ## @deerlapse_xaes_seal_to_sized
	.else
	.globl	_deerlapse_xaes_seal_to_sized   ## -- Begin function deerlapse_xaes_seal_to_sized
	.p2align	4
_deerlapse_xaes_seal_to_sized:          ## @deerlapse_xaes_seal_to_sized
	.endif
	.cfi_startproc
## %bb.0:                               ## %start
	pushq	%rbp
	.cfi_def_cfa_offset 16
	pushq	%r15
	.cfi_def_cfa_offset 24
	pushq	%r14
	.cfi_def_cfa_offset 32
	pushq	%r13
	.cfi_def_cfa_offset 40
	pushq	%r12
	.cfi_def_cfa_offset 48
	pushq	%rbx
	.cfi_def_cfa_offset 56
	subq	$3072, %rsp                     ## imm = 0xC00
	.cfi_adjust_cfa_offset 3072
	movq	$0, (%rsp)
	subq	$184, %rsp
	.cfi_def_cfa_offset 3312
	.cfi_offset %rbx, -56
	.cfi_offset %r12, -48
	.cfi_offset %r13, -40
	.cfi_offset %r14, -32
	.cfi_offset %r15, -24
	.cfi_offset %rbp, -16
	movq	%r9, %r13
	movq	%rcx, 24(%rsp)                  ## 8-byte Spill
	movq	%rsi, %r15
	movq	%rdi, %rbp
	xorl	%r14d, %r14d
	movq	%rdx, 40(%rsp)                  ## 8-byte Spill
	testq	%rdx, %rdx
	sete	%r12b
	movq	%r8, 32(%rsp)                   ## 8-byte Spill
	testq	%r8, %r8
	sete	22(%rsp)                        ## 1-byte Folded Spill
	cmpq	$0, 3312(%rsp)
	sete	23(%rsp)                        ## 1-byte Folded Spill
	leaq	64(%rsp), %rbx
	movl	$3192, %esi                     ## imm = 0xC78
	movq	%rbx, %rdi
	callq	___bzero
	leaq	51(%rsp), %rdi
	movq	%rbp, %rsi
	movq	%r15, %rdx
	movq	%rbx, %rcx
	callq	"_deerlapse_0_1_0::deerlapse::xaes_key::expand_message_key"
	cmpb	$1, 51(%rsp)
	jne	Ldeerlapse_0_1_0_BB76_7
## %bb.1:                               ## %arm.1.i
	movq	3320(%rsp), %r15
	xorl	%eax, %eax
	cmpq	%r13, %r15
	jne	Ldeerlapse_0_1_0_BB76_8
## %bb.2:                               ## %arm.1.i
	movl	1984(%rsp), %ecx
	addl	$-10, %ecx
	cmpl	$4, %ecx
	ja	Ldeerlapse_0_1_0_BB76_8
## %bb.3:                               ## %else.7.i.i
	movabsq	$68719476704, %rcx              ## imm = 0xFFFFFFFE0
	movq	24(%rsp), %rax                  ## 8-byte Reload
	shrq	$61, %rax
	setne	%al
	leaq	1(%rcx), %rdx
	cmpq	%rdx, %r15
	setae	%dl
	orb	%al, %dl
	jne	Ldeerlapse_0_1_0_BB76_7
## %bb.4:                               ## %after.1.i.i
	movq	3328(%rsp), %rbx
	movb	%r12b, %r14b
	shll	$12, %r14d
	movq	40(%rsp), %rax                  ## 8-byte Reload
	addq	%r14, %rax
	movq	%rax, %r14
	xorl	%r11d, %r11d
	movzbl	22(%rsp), %eax                  ## 1-byte Folded Reload
	movb	%al, %r11b
	shll	$12, %r11d
	movq	32(%rsp), %r9                   ## 8-byte Reload
	leaq	(%r9,%r11), %rsi
	xorl	%r12d, %r12d
	movzbl	23(%rsp), %eax                  ## 1-byte Folded Reload
	movb	%al, %r12b
	shll	$12, %r12d
	movq	3312(%rsp), %r10
	leaq	(%r10,%r12), %r13
	leaq	52(%rsp), %rbp
	movq	%r13, %rax
	subq	%rsi, %rax
	cmpq	%r15, %rax
	jae	Ldeerlapse_0_1_0_BB76_10
## %bb.5:                               ## %iter.check
	cmpq	$4, %r15
	jb	Ldeerlapse_0_1_0_BB76_6
## %bb.11:                              ## %vector.memcheck
	cmpq	$32, %rax
	jae	Ldeerlapse_0_1_0_BB76_13
Ldeerlapse_0_1_0_BB76_6:
	xorl	%eax, %eax
Ldeerlapse_0_1_0_BB76_22:                               ## %join.7.i.i.i.i.i.i.i.i.preheader
	movq	%r15, %rdx
	movq	%rax, %rcx
	andq	$3, %rdx
	je	Ldeerlapse_0_1_0_BB76_25
## %bb.23:                              ## %join.7.i.i.i.i.i.i.i.i.prol.preheader
	movq	%rax, %rcx
	.p2align	4
Ldeerlapse_0_1_0_BB76_24:                               ## %join.7.i.i.i.i.i.i.i.i.prol
                                        ## =>This Inner Loop Header: Depth=1
	movzbl	(%rsi,%rcx), %edi
	movb	%dil, (%r13,%rcx)
	incq	%rcx
	decq	%rdx
	jne	Ldeerlapse_0_1_0_BB76_24
Ldeerlapse_0_1_0_BB76_25:                               ## %join.7.i.i.i.i.i.i.i.i.prol.loopexit
	subq	%r15, %rax
	cmpq	$-4, %rax
	ja	Ldeerlapse_0_1_0_BB76_28
## %bb.26:                              ## %join.7.i.i.i.i.i.i.i.i.preheader11
	leaq	(%r11,%r9), %rax
	addq	$3, %rax
	leaq	(%r12,%r10), %rdx
	addq	$3, %rdx
	.p2align	4
Ldeerlapse_0_1_0_BB76_27:                               ## %join.7.i.i.i.i.i.i.i.i
                                        ## =>This Inner Loop Header: Depth=1
	movzbl	-3(%rax,%rcx), %esi
	movb	%sil, -3(%rdx,%rcx)
	movzbl	-2(%rax,%rcx), %esi
	movb	%sil, -2(%rdx,%rcx)
	movzbl	-1(%rax,%rcx), %esi
	movb	%sil, -1(%rdx,%rcx)
	movzbl	(%rax,%rcx), %esi
	movb	%sil, (%rdx,%rcx)
	addq	$4, %rcx
	cmpq	%rcx, %r15
	jne	Ldeerlapse_0_1_0_BB76_27
	jmp	Ldeerlapse_0_1_0_BB76_28
Ldeerlapse_0_1_0_BB76_7:
	xorl	%eax, %eax
Ldeerlapse_0_1_0_BB76_8:                                ## %"deerlapse::xaes_key::deerlapse_xaes_seal_to_sized.exit"
                                        ## kill: def $al killed $al killed $eax
	addq	$3256, %rsp                     ## imm = 0xCB8
	popq	%rbx
	popq	%r12
	popq	%r13
	popq	%r14
	popq	%r15
	popq	%rbp
	retq
Ldeerlapse_0_1_0_BB76_10:                               ## %apart.2.i.i.i.i.i.i.i.i
	movq	%r13, %rdi
	movq	%r15, %rdx
	callq	_memmove
Ldeerlapse_0_1_0_BB76_28:                               ## %"core::slice::edits::slice+T::copy_from_slice::<i8,20'core::clone::U8Clone{}>.exit.i.i"
	movq	%rbx, (%rsp)
	leaq	64(%rsp), %rdi
	movq	%rbp, %rsi
	movq	%r14, %rdx
	movq	24(%rsp), %rcx                  ## 8-byte Reload
	movq	%r13, %r8
	movq	%r15, %r9
	callq	"_deerlapse_0_1_0::deerlapse::key::deerlapse_key_seal"
                                        ## kill: def $al killed $al def $eax
	jmp	Ldeerlapse_0_1_0_BB76_8
Ldeerlapse_0_1_0_BB76_13:                               ## %vector.main.loop.iter.check
	cmpq	$32, %r15
	jae	Ldeerlapse_0_1_0_BB76_15
## %bb.14:
	xorl	%eax, %eax
	jmp	Ldeerlapse_0_1_0_BB76_19
Ldeerlapse_0_1_0_BB76_15:                               ## %vector.ph
	movq	%r15, %rax
	andq	%rcx, %rax
	leaq	(%r11,%r9), %rdx
	addq	$16, %rdx
	leaq	(%r12,%r10), %rdi
	addq	$16, %rdi
	xorl	%r8d, %r8d
	.p2align	4
Ldeerlapse_0_1_0_BB76_16:                               ## %vector.body
                                        ## =>This Inner Loop Header: Depth=1
	movups	-16(%rdx,%r8), %xmm0
	movups	(%rdx,%r8), %xmm1
	movups	%xmm0, -16(%rdi,%r8)
	movups	%xmm1, (%rdi,%r8)
	addq	$32, %r8
	cmpq	%r8, %rax
	jne	Ldeerlapse_0_1_0_BB76_16
## %bb.17:                              ## %middle.block
	cmpq	%rax, %r15
	je	Ldeerlapse_0_1_0_BB76_28
## %bb.18:                              ## %vec.epilog.iter.check
	testb	$28, %r15b
	je	Ldeerlapse_0_1_0_BB76_22
Ldeerlapse_0_1_0_BB76_19:                               ## %vec.epilog.ph
	movq	%rax, %rdx
	addq	$28, %rcx
	movq	%rcx, %rax
	andq	%r15, %rax
	.p2align	4
Ldeerlapse_0_1_0_BB76_20:                               ## %vec.epilog.vector.body
                                        ## =>This Inner Loop Header: Depth=1
	movl	(%rsi,%rdx), %ecx
	movl	%ecx, (%r13,%rdx)
	addq	$4, %rdx
	cmpq	%rdx, %rax
	jne	Ldeerlapse_0_1_0_BB76_20
## %bb.21:                              ## %vec.epilog.middle.block
	cmpq	%rax, %r15
	je	Ldeerlapse_0_1_0_BB76_28
	jmp	Ldeerlapse_0_1_0_BB76_22
	.cfi_endproc
                                        ## -- End function
	.ifdef	deerlapse_in_rust
	.globl	_deerlapse_0_1_0_hkdf_expand          ## -- Begin function deerlapse_hkdf_expand
_deerlapse_0_1_0_hkdf_expand:                 ## @deerlapse_hkdf_expand
	.else
	.globl	_deerlapse_hkdf_expand          ## -- Begin function deerlapse_hkdf_expand
_deerlapse_hkdf_expand:                 ## @deerlapse_hkdf_expand
	.endif
	.cfi_startproc
## %bb.0:                               ## %start
	pushq	%rbp
	.cfi_def_cfa_offset 16
	pushq	%r15
	.cfi_def_cfa_offset 24
	pushq	%r14
	.cfi_def_cfa_offset 32
	pushq	%r12
	.cfi_def_cfa_offset 40
	pushq	%rbx
	.cfi_def_cfa_offset 48
	subq	$544, %rsp                      ## imm = 0x220
	.cfi_def_cfa_offset 592
	.cfi_offset %rbx, -48
	.cfi_offset %r12, -40
	.cfi_offset %r14, -32
	.cfi_offset %r15, -24
	.cfi_offset %rbp, -16
	movq	%r9, %rbx
	movq	%rcx, %r14
	xorl	%eax, %eax
	testq	%rdi, %rdi
	sete	%al
	shll	$12, %eax
	addq	%rdi, %rax
	xorl	%r12d, %r12d
	testq	%rdx, %rdx
	sete	%r12b
	shll	$12, %r12d
	addq	%rdx, %r12
	xorl	%r15d, %r15d
	testq	%r8, %r8
	sete	%r15b
	shll	$12, %r15d
	addq	%r8, %r15
	xorps	%xmm0, %xmm0
	movaps	%xmm0, 96(%rsp)
	movaps	%xmm0, 80(%rsp)
	movaps	%xmm0, 64(%rsp)
	movb	$0, 112(%rsp)
	cmpq	$48, %rsi
	je	Ldeerlapse_0_1_0_BB77_5
## %bb.1:                               ## %start
	cmpq	$32, %rsi
	jne	Ldeerlapse_0_1_0_BB77_2
## %bb.3:                               ## %arm.1.i.i
	movaps	%xmm0, 48(%rsp)
	movups	(%rax), %xmm1
	movups	16(%rax), %xmm2
	movaps	%xmm1, 16(%rsp)
	movaps	%xmm2, 32(%rsp)
	leaq	65(%rsp), %rsi
	movups	%xmm1, (%rsi)
	movups	%xmm2, 16(%rsi)
	movups	%xmm0, 32(%rsi)
	leaq	128(%rsp), %rdi
	movl	$32, %edx
	callq	"_deerlapse_0_1_0::key_derivation::hmac::HmacKey::new::<#7cab53feae2e1c66>"
	movq	%r12, (%rsp)
	movq	%r14, 8(%rsp)
	cmpq	$8161, %rbx                     ## imm = 0x1FE1
	setae	%bpl
	jae	Ldeerlapse_0_1_0_BB77_7
## %bb.4:                               ## %arm.1.i.i.i.i
	leaq	128(%rsp), %rdi
	movq	%rsp, %rsi
	movq	%r15, %rdx
	movq	%rbx, %rcx
	callq	"_deerlapse_0_1_0::key_derivation::hkdf::Expander::fill_okm::<#7cab53feae2e1c66>"
	jmp	Ldeerlapse_0_1_0_BB77_7
Ldeerlapse_0_1_0_BB77_5:                                ## %arm.2.i.i
	leaq	65(%rsp), %rsi
	movb	$1, -1(%rsi)
	movups	(%rax), %xmm0
	movups	16(%rax), %xmm1
	movups	32(%rax), %xmm2
	movups	%xmm0, (%rsi)
	movups	%xmm1, 16(%rsi)
	movups	%xmm2, 32(%rsi)
	leaq	128(%rsp), %rdi
	movl	$48, %edx
	callq	"_deerlapse_0_1_0::key_derivation::hmac::HmacKey::new::<#01e4f4eb65b1d8bb>"
	movq	%r12, 16(%rsp)
	movq	%r14, 24(%rsp)
	cmpq	$12241, %rbx                    ## imm = 0x2FD1
	setae	%bpl
	jae	Ldeerlapse_0_1_0_BB77_7
## %bb.6:                               ## %arm.1.i.i8.i.i
	leaq	128(%rsp), %rdi
	leaq	16(%rsp), %rsi
	movq	%r15, %rdx
	movq	%rbx, %rcx
	callq	"_deerlapse_0_1_0::key_derivation::hkdf::Expander::fill_okm::<#01e4f4eb65b1d8bb>"
Ldeerlapse_0_1_0_BB77_7:                                ## %"key_derivation::secret::Secret::expand.exit.i"
	xorb	$1, %bpl
	jmp	Ldeerlapse_0_1_0_BB77_8
Ldeerlapse_0_1_0_BB77_2:
	xorl	%ebp, %ebp
Ldeerlapse_0_1_0_BB77_8:                                ## %"deerlapse::hkdf::deerlapse_hkdf_expand.exit"
	movl	%ebp, %eax
	addq	$544, %rsp                      ## imm = 0x220
	popq	%rbx
	popq	%r12
	popq	%r14
	popq	%r15
	popq	%rbp
	retq
	.cfi_endproc
                                        ## -- End function
	.ifdef	deerlapse_in_rust
	.globl	_deerlapse_0_1_0_hkdf_expand_label    ## -- Begin function deerlapse_hkdf_expand_label
_deerlapse_0_1_0_hkdf_expand_label:           ## @deerlapse_hkdf_expand_label
	.else
	.globl	_deerlapse_hkdf_expand_label    ## -- Begin function deerlapse_hkdf_expand_label
_deerlapse_hkdf_expand_label:           ## @deerlapse_hkdf_expand_label
	.endif
	.cfi_startproc
## %bb.0:                               ## %start
	pushq	%rbp
	.cfi_def_cfa_offset 16
	pushq	%r15
	.cfi_def_cfa_offset 24
	pushq	%r14
	.cfi_def_cfa_offset 32
	pushq	%r13
	.cfi_def_cfa_offset 40
	pushq	%r12
	.cfi_def_cfa_offset 48
	pushq	%rbx
	.cfi_def_cfa_offset 56
	subq	$536, %rsp                      ## imm = 0x218
	.cfi_def_cfa_offset 592
	.cfi_offset %rbx, -56
	.cfi_offset %r12, -48
	.cfi_offset %r13, -40
	.cfi_offset %r14, -32
	.cfi_offset %r15, -24
	.cfi_offset %rbp, -16
	movq	%r9, %rbx
	movq	%rcx, %r14
	movq	600(%rsp), %r9
	movq	592(%rsp), %rcx
	xorl	%eax, %eax
	testq	%rdi, %rdi
	sete	%al
	shll	$12, %eax
	addq	%rdi, %rax
	xorl	%r15d, %r15d
	testq	%rdx, %rdx
	sete	%r15b
	shll	$12, %r15d
	addq	%rdx, %r15
	xorl	%r12d, %r12d
	testq	%r8, %r8
	sete	%r12b
	shll	$12, %r12d
	addq	%r8, %r12
	xorl	%r13d, %r13d
	testq	%rcx, %rcx
	sete	%r13b
	shll	$12, %r13d
	addq	%rcx, %r13
	cmpq	$48, %rsi
	je	Ldeerlapse_0_1_0_BB78_7
## %bb.1:                               ## %start
	cmpq	$32, %rsi
	jne	Ldeerlapse_0_1_0_BB78_2
## %bb.3:                               ## %arm.1.i.i
	xorps	%xmm0, %xmm0
	movaps	%xmm0, 96(%rsp)
	movups	(%rax), %xmm1
	movups	16(%rax), %xmm2
	movaps	%xmm1, 64(%rsp)
	movaps	%xmm2, 80(%rsp)
	movb	$0, 15(%rsp)
	movups	%xmm1, 16(%rsp)
	movups	%xmm2, 32(%rsp)
	movups	%xmm0, 48(%rsp)
	leaq	-250(%r14), %rcx
	movb	$1, %al
	cmpq	$-249, %rcx
	jb	Ldeerlapse_0_1_0_BB78_12
## %bb.4:                               ## %arm.1.i.i
	cmpq	$255, %rbx
	ja	Ldeerlapse_0_1_0_BB78_12
## %bb.5:                               ## %arm.1.i.i
	cmpq	$8160, %r9                      ## imm = 0x1FE0
	ja	Ldeerlapse_0_1_0_BB78_12
## %bb.6:                               ## %arm.9.i.i.i
	leaq	16(%rsp), %rsi
	leaq	112(%rsp), %rbp
	movl	$32, %edx
	movq	%rbp, %rdi
	callq	"_deerlapse_0_1_0::key_derivation::hmac::HmacKey::new::<#7cab53feae2e1c66>"
	movq	600(%rsp), %rax
	movq	%rax, (%rsp)
	movq	%rbp, %rdi
	movq	%r15, %rsi
	movq	%r14, %rdx
	movq	%r12, %rcx
	movq	%rbx, %r8
	movq	%r13, %r9
	callq	"_deerlapse_0_1_0::key_derivation::hkdf::Expander::fill_labeled::<#7cab53feae2e1c66>"
	jmp	Ldeerlapse_0_1_0_BB78_11
Ldeerlapse_0_1_0_BB78_7:                                ## %arm.2.i.i
	movb	$1, 15(%rsp)
	movups	(%rax), %xmm0
	movups	16(%rax), %xmm1
	movups	32(%rax), %xmm2
	movups	%xmm0, 16(%rsp)
	movups	%xmm1, 32(%rsp)
	movups	%xmm2, 48(%rsp)
	leaq	-250(%r14), %rcx
	movb	$1, %al
	cmpq	$-249, %rcx
	jb	Ldeerlapse_0_1_0_BB78_12
## %bb.8:                               ## %arm.2.i.i
	cmpq	$255, %rbx
	ja	Ldeerlapse_0_1_0_BB78_12
## %bb.9:                               ## %arm.2.i.i
	cmpq	$12240, %r9                     ## imm = 0x2FD0
	ja	Ldeerlapse_0_1_0_BB78_12
## %bb.10:                              ## %arm.9.i15.i.i
	leaq	16(%rsp), %rsi
	leaq	112(%rsp), %rbp
	movl	$48, %edx
	movq	%rbp, %rdi
	callq	"_deerlapse_0_1_0::key_derivation::hmac::HmacKey::new::<#01e4f4eb65b1d8bb>"
	movq	600(%rsp), %rax
	movq	%rax, (%rsp)
	movq	%rbp, %rdi
	movq	%r15, %rsi
	movq	%r14, %rdx
	movq	%r12, %rcx
	movq	%rbx, %r8
	movq	%r13, %r9
	callq	"_deerlapse_0_1_0::key_derivation::hkdf::Expander::fill_labeled::<#01e4f4eb65b1d8bb>"
Ldeerlapse_0_1_0_BB78_11:                               ## %"key_derivation::secret::Secret::expand_label.exit.i"
	xorl	%eax, %eax
Ldeerlapse_0_1_0_BB78_12:                               ## %"key_derivation::secret::Secret::expand_label.exit.i"
	testb	%al, %al
	sete	%al
	jmp	Ldeerlapse_0_1_0_BB78_13
Ldeerlapse_0_1_0_BB78_2:
	xorl	%eax, %eax
Ldeerlapse_0_1_0_BB78_13:                               ## %"deerlapse::hkdf::deerlapse_hkdf_expand_label.exit"
                                        ## kill: def $al killed $al killed $eax
	addq	$536, %rsp                      ## imm = 0x218
	popq	%rbx
	popq	%r12
	popq	%r13
	popq	%r14
	popq	%r15
	popq	%rbp
	retq
	.cfi_endproc
                                        ## -- End function
	.ifdef	deerlapse_in_rust
	.globl	_deerlapse_0_1_0_quic_header_key_from_secret ## -- Begin function deerlapse_quic_header_key_from_secret
_deerlapse_0_1_0_quic_header_key_from_secret: ## @deerlapse_quic_header_key_from_secret
	.else
	.globl	_deerlapse_quic_header_key_from_secret ## -- Begin function deerlapse_quic_header_key_from_secret
_deerlapse_quic_header_key_from_secret: ## @deerlapse_quic_header_key_from_secret
	.endif
	.cfi_startproc
## %bb.0:                               ## %start
	pushq	%rbp
	.cfi_def_cfa_offset 16
	pushq	%r15
	.cfi_def_cfa_offset 24
	pushq	%r14
	.cfi_def_cfa_offset 32
	pushq	%r13
	.cfi_def_cfa_offset 40
	pushq	%r12
	.cfi_def_cfa_offset 48
	pushq	%rbx
	.cfi_def_cfa_offset 56
	subq	$808, %rsp                      ## imm = 0x328
	.cfi_def_cfa_offset 864
	.cfi_offset %rbx, -56
	.cfi_offset %r12, -48
	.cfi_offset %r13, -40
	.cfi_offset %r14, -32
	.cfi_offset %r15, -24
	.cfi_offset %rbp, -16
	movq	%rdi, %rbx
	xorl	%edi, %edi
	testq	%rdx, %rdx
	sete	%r8b
	xorl	%ebp, %ebp
	cmpl	$1, %esi
	je	Ldeerlapse_0_1_0_BB79_1
## %bb.2:                               ## %start
	cmpl	$1798521807, %esi               ## imm = 0x6B3343CF
	jne	Ldeerlapse_0_1_0_BB79_13
## %bb.3:                               ## %arm.2.i.i
	movb	$1, %bpl
	xorl	%eax, %eax
	jmp	Ldeerlapse_0_1_0_BB79_4
Ldeerlapse_0_1_0_BB79_1:
	movb	$1, %al
Ldeerlapse_0_1_0_BB79_4:                                ## %arm.1.i
	movb	%r8b, %dil
	shll	$12, %edi
	addq	%rdi, %rdx
	cmpq	$48, %rcx
	je	Ldeerlapse_0_1_0_BB79_8
## %bb.5:                               ## %arm.1.i
	cmpq	$32, %rcx
	jne	Ldeerlapse_0_1_0_BB79_6
## %bb.7:                               ## %arm.1.i.i
	xorps	%xmm2, %xmm2
	movaps	%xmm2, 96(%rsp)
	movups	(%rdx), %xmm0
	movups	16(%rdx), %xmm1
	movaps	%xmm0, 64(%rsp)
	movaps	%xmm1, 80(%rsp)
	leaq	128(%rsp), %rsi
	movb	%bpl, -2(%rsi)
	movb	$0, -1(%rsi)
	movups	%xmm0, (%rsi)
	movups	%xmm1, 16(%rsi)
	movups	%xmm2, 32(%rsi)
	movl	%eax, %ecx
	xorb	$1, %cl
	movzbl	%cl, %ecx
	leaq	7(,%rcx,2), %r14
	leaq	ldeerlapse_0_1_0__static.10(%rip), %rcx
	leaq	ldeerlapse_0_1_0__static.11(%rip), %r15
	testb	%al, %al
	cmovneq	%rcx, %r15
	leaq	176(%rsp), %r12
	movl	$32, %edx
	movq	%r12, %rdi
	callq	"_deerlapse_0_1_0::key_derivation::hmac::HmacKey::new::<#7cab53feae2e1c66>"
	leaq	16(%rsp), %r9
	xorps	%xmm0, %xmm0
	movaps	%xmm0, 16(%r9)
	movaps	%xmm0, (%r9)
	movl	$16, %eax
	movq	%rax, 32(%r9)
	movq	%rax, (%rsp)
	leaq	ldeerlapse_0_1_0__static.6(%rip), %rcx
	movq	%r12, %rdi
	movq	%r15, %rsi
	movq	%r14, %rdx
	xorl	%r8d, %r8d
	callq	"_deerlapse_0_1_0::key_derivation::hkdf::Expander::fill_labeled::<#7cab53feae2e1c66>"
	jmp	Ldeerlapse_0_1_0_BB79_9
Ldeerlapse_0_1_0_BB79_8:                                ## %arm.2.i3.i
	leaq	128(%rsp), %rsi
	movb	%bpl, -2(%rsi)
	movb	$1, -1(%rsi)
	movups	(%rdx), %xmm0
	movups	16(%rdx), %xmm1
	movups	32(%rdx), %xmm2
	movups	%xmm0, (%rsi)
	movups	%xmm1, 16(%rsi)
	movups	%xmm2, 32(%rsi)
	movl	%eax, %ecx
	xorb	$1, %cl
	movzbl	%cl, %ecx
	leaq	7(,%rcx,2), %r14
	leaq	ldeerlapse_0_1_0__static.10(%rip), %rcx
	leaq	ldeerlapse_0_1_0__static.11(%rip), %r15
	testb	%al, %al
	cmovneq	%rcx, %r15
	leaq	384(%rsp), %r12
	movl	$48, %edx
	movq	%r12, %rdi
	callq	"_deerlapse_0_1_0::key_derivation::hmac::HmacKey::new::<#01e4f4eb65b1d8bb>"
	xorps	%xmm0, %xmm0
	leaq	64(%rsp), %r13
	movaps	%xmm0, 16(%r13)
	movaps	%xmm0, (%r13)
	movl	$32, %eax
	movq	%rax, 32(%r13)
	movq	%rax, (%rsp)
	leaq	ldeerlapse_0_1_0__static.6(%rip), %rcx
	movq	%r12, %rdi
	movq	%r15, %rsi
	movq	%r14, %rdx
	xorl	%r8d, %r8d
	movq	%r13, %r9
	callq	"_deerlapse_0_1_0::key_derivation::hkdf::Expander::fill_labeled::<#01e4f4eb65b1d8bb>"
	movq	32(%r13), %rax
	movq	%rax, 48(%rsp)
	movaps	(%r13), %xmm0
	movaps	16(%r13), %xmm1
	movaps	%xmm1, 32(%rsp)
	movaps	%xmm0, 16(%rsp)
Ldeerlapse_0_1_0_BB79_9:                                ## %"key_derivation::quic::QuicSecret::header_key.exit.i"
	movb	$1, %bpl
	movq	48(%rsp), %rcx
	movb	$1, %al
	cmpq	$32, %rcx
	je	Ldeerlapse_0_1_0_BB79_12
## %bb.10:                              ## %"key_derivation::quic::QuicSecret::header_key.exit.i"
	cmpq	$16, %rcx
	jne	Ldeerlapse_0_1_0_BB79_6
## %bb.11:                              ## %join.3.fold.split.i.i.i
	xorl	%eax, %eax
Ldeerlapse_0_1_0_BB79_12:                               ## %arm.1.i5.i
	leaq	8(%rbx), %rdi
	movzbl	%al, %esi
	leaq	16(%rsp), %rdx
	callq	"_deerlapse_0_1_0::aead_ciphers_wide::aes::expand"
	movq	%rax, (%rbx)
	jmp	Ldeerlapse_0_1_0_BB79_13
Ldeerlapse_0_1_0_BB79_6:
	xorl	%ebp, %ebp
Ldeerlapse_0_1_0_BB79_13:                               ## %"deerlapse::header_key::deerlapse_quic_header_key_from_secret.exit"
	movl	%ebp, %eax
	addq	$808, %rsp                      ## imm = 0x328
	popq	%rbx
	popq	%r12
	popq	%r13
	popq	%r14
	popq	%r15
	popq	%rbp
	retq
	.cfi_endproc
                                        ## -- End function
	.ifdef	deerlapse_in_rust
	.globl	_deerlapse_0_1_0_quic_next_secret     ## -- Begin function deerlapse_quic_next_secret
_deerlapse_0_1_0_quic_next_secret:            ## @deerlapse_quic_next_secret
	.else
	.globl	_deerlapse_quic_next_secret     ## -- Begin function deerlapse_quic_next_secret
_deerlapse_quic_next_secret:            ## @deerlapse_quic_next_secret
	.endif
	.cfi_startproc
## %bb.0:                               ## %start
	pushq	%r14
	.cfi_def_cfa_offset 16
	pushq	%rbx
	.cfi_def_cfa_offset 24
	subq	$200, %rsp
	.cfi_def_cfa_offset 224
	.cfi_offset %rbx, -24
	.cfi_offset %r14, -16
	movq	%rsi, %rbx
	xorl	%ecx, %ecx
	testq	%rsi, %rsi
	sete	%sil
	xorl	%eax, %eax
	cmpl	$1, %edi
	je	Ldeerlapse_0_1_0_BB80_1
## %bb.2:                               ## %start
	cmpl	$1798521807, %edi               ## imm = 0x6B3343CF
	jne	Ldeerlapse_0_1_0_BB80_10
## %bb.3:                               ## %arm.2.i.i
	movb	$1, %al
	xorl	%edi, %edi
	jmp	Ldeerlapse_0_1_0_BB80_4
Ldeerlapse_0_1_0_BB80_1:
	movb	$1, %dil
Ldeerlapse_0_1_0_BB80_4:                                ## %arm.1.i
	movb	%sil, %cl
	shll	$12, %ecx
	addq	%rcx, %rbx
	cmpq	$32, %rdx
	je	Ldeerlapse_0_1_0_BB80_8
## %bb.5:                               ## %arm.1.i
	cmpq	$48, %rdx
	jne	Ldeerlapse_0_1_0_BB80_6
## %bb.7:                               ## %arm.4.i.i
	movups	(%rbx), %xmm0
	movups	16(%rbx), %xmm1
	movups	32(%rbx), %xmm2
	movaps	%xmm2, 32(%rsp)
	movaps	%xmm1, 16(%rsp)
	movaps	%xmm0, (%rsp)
	movb	$1, %cl
	jmp	Ldeerlapse_0_1_0_BB80_9
Ldeerlapse_0_1_0_BB80_8:                                ## %arm.8.i.i
	xorps	%xmm0, %xmm0
	movaps	%xmm0, 32(%rsp)
	movups	(%rbx), %xmm0
	movups	16(%rbx), %xmm1
	movaps	%xmm0, (%rsp)
	movaps	%xmm1, 16(%rsp)
	xorl	%ecx, %ecx
Ldeerlapse_0_1_0_BB80_9:                                ## %arm.5.i
	leaq	151(%rsp), %rsi
	movb	%al, -1(%rsi)
	movb	%cl, (%rsi)
	movaps	(%rsp), %xmm0
	movaps	16(%rsp), %xmm1
	movaps	32(%rsp), %xmm2
	movups	%xmm0, 1(%rsi)
	movups	%xmm1, 17(%rsi)
	movups	%xmm2, 33(%rsi)
	movl	%edi, %eax
	xorb	$1, %al
	movzbl	%al, %eax
	leaq	7(,%rax,2), %rcx
	leaq	ldeerlapse_0_1_0__static.12(%rip), %rax
	leaq	ldeerlapse_0_1_0__static.13(%rip), %rdx
	testb	%dil, %dil
	cmovneq	%rax, %rdx
	leaq	101(%rsp), %r14
	movq	%r14, %rdi
	callq	"_deerlapse_0_1_0::key_derivation::secret::Secret::next"
	movups	1(%r14), %xmm0
	movups	17(%r14), %xmm1
	movups	33(%r14), %xmm2
	leaq	48(%rsp), %rsi
	movaps	%xmm0, (%rsi)
	movaps	%xmm1, 16(%rsi)
	xorl	%edx, %edx
	cmpb	$0, (%r14)
	movaps	%xmm2, 32(%rsi)
	setne	%dl
	shll	$4, %edx
	orq	$32, %rdx
	movq	%rbx, %rdi
	callq	_memcpy
	movb	$1, %al
	jmp	Ldeerlapse_0_1_0_BB80_10
Ldeerlapse_0_1_0_BB80_6:
	xorl	%eax, %eax
Ldeerlapse_0_1_0_BB80_10:                               ## %"deerlapse::quic_key::deerlapse_quic_next_secret.exit"
                                        ## kill: def $al killed $al killed $eax
	addq	$200, %rsp
	popq	%rbx
	popq	%r14
	retq
	.cfi_endproc
                                        ## -- End function
	.ifdef	deerlapse_in_rust
	.globl	_deerlapse_0_1_0_tls_next_secret      ## -- Begin function deerlapse_tls_next_secret
_deerlapse_0_1_0_tls_next_secret:             ## @deerlapse_tls_next_secret
	.else
	.globl	_deerlapse_tls_next_secret      ## -- Begin function deerlapse_tls_next_secret
_deerlapse_tls_next_secret:             ## @deerlapse_tls_next_secret
	.endif
	.cfi_startproc
## %bb.0:                               ## %start
	pushq	%r14
	.cfi_def_cfa_offset 16
	pushq	%rbx
	.cfi_def_cfa_offset 24
	subq	$200, %rsp
	.cfi_def_cfa_offset 224
	.cfi_offset %rbx, -24
	.cfi_offset %r14, -16
	xorl	%ebx, %ebx
	testq	%rdi, %rdi
	sete	%bl
	shll	$12, %ebx
	addq	%rdi, %rbx
	cmpq	$32, %rsi
	je	Ldeerlapse_0_1_0_BB81_4
## %bb.1:                               ## %start
	cmpq	$48, %rsi
	jne	Ldeerlapse_0_1_0_BB81_2
## %bb.3:                               ## %arm.4.i.i
	movups	(%rbx), %xmm0
	movups	16(%rbx), %xmm1
	movups	32(%rbx), %xmm2
	movaps	%xmm2, 32(%rsp)
	movaps	%xmm1, 16(%rsp)
	movaps	%xmm0, (%rsp)
	movb	$1, %al
	jmp	Ldeerlapse_0_1_0_BB81_5
Ldeerlapse_0_1_0_BB81_4:                                ## %arm.8.i.i
	xorps	%xmm0, %xmm0
	movaps	%xmm0, 32(%rsp)
	movups	(%rbx), %xmm0
	movups	16(%rbx), %xmm1
	movaps	%xmm0, (%rsp)
	movaps	%xmm1, 16(%rsp)
	xorl	%eax, %eax
Ldeerlapse_0_1_0_BB81_5:                                ## %arm.1.i
	leaq	102(%rsp), %rsi
	movb	%al, (%rsi)
	movaps	(%rsp), %xmm0
	movaps	16(%rsp), %xmm1
	movaps	32(%rsp), %xmm2
	movups	%xmm0, 1(%rsi)
	movups	%xmm1, 17(%rsi)
	movups	%xmm2, 33(%rsi)
	leaq	ldeerlapse_0_1_0__static.14(%rip), %rdx
	leaq	151(%rsp), %r14
	movl	$11, %ecx
	movq	%r14, %rdi
	callq	"_deerlapse_0_1_0::key_derivation::secret::Secret::next"
	movups	1(%r14), %xmm0
	movups	17(%r14), %xmm1
	movups	33(%r14), %xmm2
	leaq	48(%rsp), %rsi
	movaps	%xmm0, (%rsi)
	movaps	%xmm1, 16(%rsi)
	xorl	%edx, %edx
	cmpb	$0, (%r14)
	movaps	%xmm2, 32(%rsi)
	setne	%dl
	shll	$4, %edx
	orq	$32, %rdx
	movq	%rbx, %rdi
	callq	_memcpy
	movb	$1, %al
	jmp	Ldeerlapse_0_1_0_BB81_6
Ldeerlapse_0_1_0_BB81_2:
	xorl	%eax, %eax
Ldeerlapse_0_1_0_BB81_6:                                ## %"deerlapse::record_key::deerlapse_tls_next_secret.exit"
                                        ## kill: def $al killed $al killed $eax
	addq	$200, %rsp
	popq	%rbx
	popq	%r14
	retq
	.cfi_endproc
                                        ## -- End function
	.ifdef	deerlapse_in_rust
	.globl	_deerlapse_0_1_0_key_init             ## -- Begin function deerlapse_key_init
	.p2align	4
_deerlapse_0_1_0_key_init:                    ## @deerlapse_key_init
	.else
	.globl	_deerlapse_key_init             ## -- Begin function deerlapse_key_init
	.p2align	4
_deerlapse_key_init:                    ## @deerlapse_key_init
	.endif
	.cfi_startproc
## %bb.0:                               ## %start
	pushq	%rbx
	.cfi_def_cfa_offset 16
	subq	$16, %rsp
	.cfi_def_cfa_offset 32
	.cfi_offset %rbx, -16
	xorl	%eax, %eax
	testq	%rsi, %rsi
	sete	%r8b
	movb	$1, %bl
	movb	$1, %cl
	cmpq	$32, %rdx
	je	Ldeerlapse_0_1_0_BB82_3
## %bb.1:                               ## %start
	cmpq	$16, %rdx
	jne	Ldeerlapse_0_1_0_BB82_4
## %bb.2:                               ## %join.3.fold.split.i.i.i
	xorl	%ecx, %ecx
Ldeerlapse_0_1_0_BB82_3:                                ## %arm.1.i.i
	movb	%r8b, %al
	shll	$12, %eax
	addq	%rax, %rsi
	xorps	%xmm0, %xmm0
	movaps	%xmm0, (%rsp)
	movzbl	%cl, %eax
	movq	%rsp, %r8
	movq	%rsi, %rdx
	movl	%eax, %esi
	xorl	%ecx, %ecx
	callq	"_deerlapse_0_1_0::aead_ciphers_wide::aes_gcm::ExpandedKey::expand_with_width"
	movl	%ebx, %eax
	addq	$16, %rsp
	popq	%rbx
	retq
Ldeerlapse_0_1_0_BB82_4:                                ## %arm.2.i.i
	movl	$3192, %esi                     ## imm = 0xC78
	callq	___bzero
	xorl	%ebx, %ebx
	movl	%ebx, %eax
	addq	$16, %rsp
	popq	%rbx
	retq
	.cfi_endproc
                                        ## -- End function
	.ifdef	deerlapse_in_rust
	.globl	_deerlapse_0_1_0_open                 ## -- Begin function deerlapse_open
	.p2align	4
_deerlapse_0_1_0_open:                        ## @deerlapse_open
	.else
	.globl	_deerlapse_open                 ## -- Begin function deerlapse_open
	.p2align	4
_deerlapse_open:                        ## @deerlapse_open
	.endif
	.cfi_startproc
## %bb.0:                               ## %start
	pushq	%rbp
	.cfi_def_cfa_offset 16
	pushq	%r15
	.cfi_def_cfa_offset 24
	pushq	%r14
	.cfi_def_cfa_offset 32
	pushq	%r13
	.cfi_def_cfa_offset 40
	pushq	%r12
	.cfi_def_cfa_offset 48
	pushq	%rbx
	.cfi_def_cfa_offset 56
	subq	$3072, %rsp                     ## imm = 0xC00
	.cfi_adjust_cfa_offset 3072
	movq	$0, (%rsp)
	subq	$312, %rsp                      ## imm = 0x138
	.cfi_def_cfa_offset 3440
	.cfi_offset %rbx, -56
	.cfi_offset %r12, -48
	.cfi_offset %r13, -40
	.cfi_offset %r14, -32
	.cfi_offset %r15, -24
	.cfi_offset %rbp, -16
	movq	%r9, %rbx
	movq	%r8, 40(%rsp)                   ## 8-byte Spill
	movq	%rcx, %r15
	movq	%rdx, 88(%rsp)                  ## 8-byte Spill
	movq	%rsi, %r14
	movq	%rdi, %rbp
	xorl	%r12d, %r12d
	testq	%rdi, %rdi
	sete	%r13b
	testq	%rcx, %rcx
	sete	38(%rsp)                        ## 1-byte Folded Spill
	testq	%r9, %r9
	sete	39(%rsp)                        ## 1-byte Folded Spill
	leaq	192(%rsp), %rdi
	movl	$3192, %esi                     ## imm = 0xC78
	callq	___bzero
	cmpq	$32, %r14
	je	Ldeerlapse_0_1_0_BB83_3
## %bb.1:                               ## %start
	cmpq	$16, %r14
	jne	Ldeerlapse_0_1_0_BB83_10
## %bb.2:                               ## %join.3.fold.split.i.i.i.i
	xorl	%eax, %eax
	jmp	Ldeerlapse_0_1_0_BB83_4
Ldeerlapse_0_1_0_BB83_3:
	movb	$1, %al
Ldeerlapse_0_1_0_BB83_4:                                ## %then.1.i.i
	movb	%r13b, %r12b
	shll	$12, %r12d
	addq	%r12, %rbp
	xorps	%xmm0, %xmm0
	movaps	%xmm0, 48(%rsp)
	movzbl	%al, %esi
	leaq	192(%rsp), %r13
	xorl	%r14d, %r14d
	leaq	48(%rsp), %r8
	movq	%r13, %rdi
	movq	%rbp, %rdx
	xorl	%ecx, %ecx
	callq	"_deerlapse_0_1_0::aead_ciphers_wide::aes_gcm::ExpandedKey::expand_with_width"
	movl	2112(%rsp), %ecx
	leal	-10(%rcx), %eax
	cmpl	$4, %eax
	ja	Ldeerlapse_0_1_0_BB83_11
## %bb.5:                               ## %join.3.i.i.i
	movq	3440(%rsp), %rdx
	cmpq	$16, %rdx
	jb	Ldeerlapse_0_1_0_BB83_10
## %bb.6:                               ## %arm.1.i.i.i.i
	movq	3448(%rsp), %r12
	leaq	-16(%rdx), %rbp
	movq	%rbp, %rax
	subq	%r12, %rax
	jb	Ldeerlapse_0_1_0_BB83_10
## %bb.7:                               ## %arm.8.i.i.i.i
	movq	40(%rsp), %rsi                  ## 8-byte Reload
	shrq	$61, %rsi
	setne	%sil
	movabsq	$68719476704, %rdi              ## imm = 0xFFFFFFFE0
	cmpq	%rdi, %rax
	seta	%dil
	orb	%sil, %dil
	jne	Ldeerlapse_0_1_0_BB83_10
## %bb.8:                               ## %then.11.i.i.i.i
	xorl	%esi, %esi
	movzbl	38(%rsp), %edi                  ## 1-byte Folded Reload
	movb	%dil, %sil
	shll	$12, %esi
	addq	%rsi, %r15
	xorl	%esi, %esi
	movzbl	39(%rsp), %edi                  ## 1-byte Folded Reload
	movb	%dil, %sil
	shll	$12, %esi
	addq	%rsi, %rbx
	leaq	2120(%rsp), %rsi
	leaq	2360(%rsp), %rdi
	leaq	2872(%rsp), %r8
	addq	%rbx, %rdx
	addq	$-16, %rdx
	movl	2116(%rsp), %r9d
	movq	%r13, 48(%rsp)
	movq	%rsi, 56(%rsp)
	movq	%rcx, 64(%rsp)
	movl	%r9d, 72(%rsp)
	movl	$0, 76(%rsp)
	movq	%rdi, 136(%rsp)
	movq	%r8, 144(%rsp)
	xorps	%xmm0, %xmm0
	movaps	%xmm0, 112(%rsp)
	movq	88(%rsp), %rsi                  ## 8-byte Reload
	movq	(%rsi), %rcx
	movq	%rcx, 96(%rsp)
	movl	8(%rsi), %ecx
	movl	%ecx, 104(%rsp)
	movups	(%rdx), %xmm0
	movaps	%xmm0, 176(%rsp)
	leaq	(%rbx,%r12), %rcx
	leaq	112(%rsp), %rdx
	movq	%rdx, 24(%rsp)
	movq	%rax, 16(%rsp)
	movq	%rcx, 8(%rsp)
	leaq	176(%rsp), %rax
	movq	%rax, (%rsp)
	leaq	159(%rsp), %rdi
	leaq	48(%rsp), %rsi
	leaq	136(%rsp), %rdx
	leaq	96(%rsp), %rcx
	movq	%r15, %r8
	movq	40(%rsp), %r9                   ## 8-byte Reload
	callq	"_deerlapse_0_1_0::aead_ciphers::aes_gcm::opening::authenticate::<#7bfdf0a6b4753edd>"
	cmpb	$0, 159(%rsp)
	je	Ldeerlapse_0_1_0_BB83_12
Ldeerlapse_0_1_0_BB83_10:                               ## %"deerlapse::key::expand.exit.i.i"
	xorl	%r14d, %r14d
Ldeerlapse_0_1_0_BB83_11:                               ## %"deerlapse::aes_gcm::deerlapse_open.exit"
	movl	%r14d, %eax
	addq	$3384, %rsp                     ## imm = 0xD38
	popq	%rbx
	popq	%r12
	popq	%r13
	popq	%r14
	popq	%r15
	popq	%rbp
	retq
Ldeerlapse_0_1_0_BB83_12:                               ## %arm.4.i.i.i
	movq	3456(%rsp), %r14
	leaq	160(%rsp), %rsi
	leaq	48(%rsp), %rdi
	leaq	112(%rsp), %r9
	movq	%rbx, %rdx
	movq	%rbp, %rcx
	movq	%r12, %r8
	callq	"_deerlapse_0_1_0::aead_ciphers::aes_gcm::counter_mode::encrypt_within::<#6fa349fe97f872a2>"
	movq	%rax, (%r14)
	movb	$1, %r14b
	jmp	Ldeerlapse_0_1_0_BB83_11
	.cfi_endproc
                                        ## -- End function
	.ifdef	deerlapse_in_rust
	.globl	_deerlapse_0_1_0_opener_init          ## -- Begin function deerlapse_opener_init
	.p2align	4
_deerlapse_0_1_0_opener_init:                 ## @deerlapse_opener_init
	.else
	.globl	_deerlapse_opener_init          ## -- Begin function deerlapse_opener_init
	.p2align	4
_deerlapse_opener_init:                 ## @deerlapse_opener_init
	.endif
	.cfi_startproc
## %bb.0:                               ## %start
	xorl	%eax, %eax
	testq	%rsi, %rsi
	sete	%r10b
	cmpq	$32, %rdx
	je	Ldeerlapse_0_1_0_BB84_4
## %bb.1:                               ## %start
	cmpq	$16, %rdx
	jne	Ldeerlapse_0_1_0_BB84_6
## %bb.2:                               ## %join.3.fold.split.i.i.i
	xorl	%edx, %edx
	cmpq	%r8, %r9
	jae	Ldeerlapse_0_1_0_BB84_5
Ldeerlapse_0_1_0_BB84_6:
	xorl	%eax, %eax
                                        ## kill: def $al killed $al killed $eax
	retq
Ldeerlapse_0_1_0_BB84_4:
	movb	$1, %dl
	cmpq	%r8, %r9
	jb	Ldeerlapse_0_1_0_BB84_6
Ldeerlapse_0_1_0_BB84_5:                                ## %join.7.i.i
	pushq	%r15
	.cfi_def_cfa_offset 16
	pushq	%r14
	.cfi_def_cfa_offset 24
	pushq	%r12
	.cfi_def_cfa_offset 32
	pushq	%rbx
	.cfi_def_cfa_offset 40
	subq	$24, %rsp
	.cfi_def_cfa_offset 64
	.cfi_offset %rbx, -40
	.cfi_offset %r12, -32
	.cfi_offset %r14, -24
	.cfi_offset %r15, -16
	movb	%r10b, %al
	shll	$12, %eax
	addq	%rax, %rsi
	xorps	%xmm0, %xmm0
	movaps	%xmm0, (%rsp)
	movzbl	%dl, %eax
	movq	%rsp, %r10
	movq	%rdi, %rbx
	movq	%rsi, %rdx
	movl	%eax, %esi
	movq	%rcx, %r14
	xorl	%ecx, %ecx
	movq	%r8, %r15
	movq	%r10, %r8
	movq	%r9, %r12
	callq	"_deerlapse_0_1_0::aead_ciphers_wide::aes_gcm::ExpandedKey::expand_with_width"
	movq	%r15, 3192(%rbx)
	movq	%r12, 3200(%rbx)
	movq	(%r14), %rax
	movl	8(%r14), %ecx
	movl	%ecx, 3216(%rbx)
	movq	%rax, 3208(%rbx)
	xorps	%xmm0, %xmm0
	movups	%xmm0, 3220(%rbx)
	movups	%xmm0, 3236(%rbx)
	movups	%xmm0, 3252(%rbx)
	movups	%xmm0, 3268(%rbx)
	movups	%xmm0, 3284(%rbx)
	movups	%xmm0, 3300(%rbx)
	movups	%xmm0, 3316(%rbx)
	movups	%xmm0, 3332(%rbx)
	movups	%xmm0, 3348(%rbx)
	movups	%xmm0, 3364(%rbx)
	movups	%xmm0, 3380(%rbx)
	movups	%xmm0, 3396(%rbx)
	movups	%xmm0, 3412(%rbx)
	movups	%xmm0, 3424(%rbx)
	movb	$1, %al
	addq	$24, %rsp
	popq	%rbx
	popq	%r12
	popq	%r14
	popq	%r15
                                        ## kill: def $al killed $al killed $eax
	retq
	.cfi_endproc
                                        ## -- End function
	.ifdef	deerlapse_in_rust
	.globl	_deerlapse_0_1_0_quic_key_from_secret ## -- Begin function deerlapse_quic_key_from_secret
_deerlapse_0_1_0_quic_key_from_secret:        ## @deerlapse_quic_key_from_secret
	.else
	.globl	_deerlapse_quic_key_from_secret ## -- Begin function deerlapse_quic_key_from_secret
_deerlapse_quic_key_from_secret:        ## @deerlapse_quic_key_from_secret
	.endif
	.cfi_startproc
## %bb.0:                               ## %start
	pushq	%rbp
	.cfi_def_cfa_offset 16
	pushq	%r15
	.cfi_def_cfa_offset 24
	pushq	%r14
	.cfi_def_cfa_offset 32
	pushq	%r13
	.cfi_def_cfa_offset 40
	pushq	%r12
	.cfi_def_cfa_offset 48
	pushq	%rbx
	.cfi_def_cfa_offset 56
	subq	$728, %rsp                      ## imm = 0x2D8
	.cfi_def_cfa_offset 784
	.cfi_offset %rbx, -56
	.cfi_offset %r12, -48
	.cfi_offset %r13, -40
	.cfi_offset %r14, -32
	.cfi_offset %r15, -24
	.cfi_offset %rbp, -16
	movq	%rdi, %rbx
	xorl	%edi, %edi
	testq	%rdx, %rdx
	sete	%r8b
	xorps	%xmm0, %xmm0
	movaps	%xmm0, 80(%rsp)
	movaps	%xmm0, 96(%rsp)
	movaps	%xmm0, 112(%rsp)
	movq	$0, 128(%rsp)
	xorl	%ebp, %ebp
	cmpl	$1, %esi
	je	Ldeerlapse_0_1_0_BB85_1
## %bb.2:                               ## %start
	cmpl	$1798521807, %esi               ## imm = 0x6B3343CF
	jne	Ldeerlapse_0_1_0_BB85_16
## %bb.3:                               ## %arm.2.i.i.i
	movb	$1, %bpl
	xorl	%eax, %eax
	jmp	Ldeerlapse_0_1_0_BB85_4
Ldeerlapse_0_1_0_BB85_1:
	movb	$1, %al
Ldeerlapse_0_1_0_BB85_4:                                ## %arm.1.i.i
	movb	%r8b, %dil
	shll	$12, %edi
	addq	%rdi, %rdx
	cmpq	$32, %rcx
	je	Ldeerlapse_0_1_0_BB85_8
## %bb.5:                               ## %arm.1.i.i
	cmpq	$48, %rcx
	jne	Ldeerlapse_0_1_0_BB85_6
## %bb.7:                               ## %arm.4.i.i.i
	movups	(%rdx), %xmm0
	movups	16(%rdx), %xmm1
	movups	32(%rdx), %xmm2
	movaps	%xmm2, 176(%rsp)
	movaps	%xmm1, 160(%rsp)
	movaps	%xmm0, 144(%rsp)
	movb	$1, %dl
	xorl	%ecx, %ecx
	jmp	Ldeerlapse_0_1_0_BB85_9
Ldeerlapse_0_1_0_BB85_8:                                ## %arm.8.i.i.i
	movaps	%xmm0, 176(%rsp)
	movups	(%rdx), %xmm0
	movups	16(%rdx), %xmm1
	movaps	%xmm0, 144(%rsp)
	movaps	%xmm1, 160(%rsp)
	movb	$1, %cl
	xorl	%edx, %edx
Ldeerlapse_0_1_0_BB85_9:                                ## %arm.5.i.i
	leaq	256(%rsp), %rsi
	movb	%bpl, -2(%rsi)
	movb	%dl, -1(%rsi)
	movaps	144(%rsp), %xmm0
	movaps	160(%rsp), %xmm1
	movaps	176(%rsp), %xmm2
	movups	%xmm0, (%rsi)
	movups	%xmm1, 16(%rsi)
	movups	%xmm2, 32(%rsi)
	movl	%eax, %edx
	xorb	$1, %dl
	movzbl	%dl, %r14d
	addl	%r14d, %r14d
	leaq	8(%r14), %r12
	leaq	Ldeerlapse_0_1_0__static.15(%rip), %rdx
	leaq	ldeerlapse_0_1_0__static.16(%rip), %r13
	addq	$7, %r14
	testb	%al, %al
	cmovneq	%rdx, %r13
	leaq	ldeerlapse_0_1_0__static.17(%rip), %rax
	leaq	ldeerlapse_0_1_0__static.18(%rip), %r15
	cmovneq	%rax, %r15
	leaq	304(%rsp), %rdi
	testb	%cl, %cl
	je	Ldeerlapse_0_1_0_BB85_11
## %bb.10:                              ## %arm.1.i.i.i
	movl	$32, %edx
	callq	"_deerlapse_0_1_0::key_derivation::hmac::HmacKey::new::<#7cab53feae2e1c66>"
	xorps	%xmm0, %xmm0
	leaq	208(%rsp), %rbp
	movaps	%xmm0, 16(%rbp)
	movaps	%xmm0, (%rbp)
	movl	$16, %eax
	movq	%rax, 32(%rbp)
	movq	%rax, (%rsp)
	leaq	ldeerlapse_0_1_0__static.6(%rip), %rcx
	leaq	304(%rsp), %rdi
	movq	%r13, %rsi
	movq	%r12, %rdx
	movq	%rcx, %r13
	xorl	%r8d, %r8d
	movq	%rbp, %r9
	callq	"_deerlapse_0_1_0::key_derivation::hkdf::Expander::fill_labeled::<#7cab53feae2e1c66>"
	leaq	192(%rsp), %r12
	movl	$0, 8(%r12)
	movq	$0, (%r12)
	movq	$12, (%rsp)
	leaq	304(%rsp), %rdi
	movq	%r15, %rsi
	movq	%r14, %rdx
	movq	%r13, %rcx
	xorl	%r8d, %r8d
	movq	%r12, %r9
	callq	"_deerlapse_0_1_0::key_derivation::hkdf::Expander::fill_labeled::<#7cab53feae2e1c66>"
	jmp	Ldeerlapse_0_1_0_BB85_12
Ldeerlapse_0_1_0_BB85_11:                               ## %arm.2.i3.i.i
	movl	$48, %edx
	movq	%rbx, 72(%rsp)                  ## 8-byte Spill
	movq	%rdi, %rbx
	callq	"_deerlapse_0_1_0::key_derivation::hmac::HmacKey::new::<#01e4f4eb65b1d8bb>"
	xorps	%xmm0, %xmm0
	leaq	208(%rsp), %rbp
	movaps	%xmm0, 16(%rbp)
	movaps	%xmm0, (%rbp)
	movl	$32, %eax
	movq	%rax, 32(%rbp)
	movq	%rax, (%rsp)
	leaq	ldeerlapse_0_1_0__static.6(%rip), %rcx
	movq	%rbx, %rdi
	movq	%r13, %rsi
	movq	%r12, %rdx
	movq	%rcx, %r13
	xorl	%r8d, %r8d
	movq	%rbp, %r9
	callq	"_deerlapse_0_1_0::key_derivation::hkdf::Expander::fill_labeled::<#01e4f4eb65b1d8bb>"
	leaq	192(%rsp), %r12
	movl	$0, 8(%r12)
	movq	$0, (%r12)
	movq	$12, (%rsp)
	movq	%rbx, %rdi
	movq	72(%rsp), %rbx                  ## 8-byte Reload
	movq	%r15, %rsi
	movq	%r14, %rdx
	movq	%r13, %rcx
	xorl	%r8d, %r8d
	movq	%r12, %r9
	callq	"_deerlapse_0_1_0::key_derivation::hkdf::Expander::fill_labeled::<#01e4f4eb65b1d8bb>"
Ldeerlapse_0_1_0_BB85_12:                               ## %"key_derivation::quic::QuicSecret::packet_keys.exit.i.i"
	movq	32(%rbp), %rax
	movq	%rax, 48(%rsp)
	movaps	(%rbp), %xmm0
	movaps	16(%rbp), %xmm1
	movaps	%xmm1, 32(%rsp)
	movaps	%xmm0, 16(%rsp)
	movl	8(%r12), %eax
	leaq	56(%rsp), %r14
	movl	%eax, 8(%r14)
	movq	(%r12), %rax
	movq	%rax, (%r14)
	movaps	16(%rsp), %xmm0
	movaps	32(%rsp), %xmm1
	movq	48(%rsp), %rax
	movq	%rax, 112(%rsp)
	movq	56(%rsp), %rax
	movq	%rax, 120(%rsp)
	movaps	%xmm0, 80(%rsp)
	movaps	%xmm1, 96(%rsp)
	movl	64(%rsp), %eax
	movl	%eax, 128(%rsp)
	movl	$0, 132(%rsp)
	movq	112(%rsp), %rcx
	movb	$1, %bpl
	movb	$1, %al
	cmpq	$32, %rcx
	je	Ldeerlapse_0_1_0_BB85_15
## %bb.13:                              ## %"key_derivation::quic::QuicSecret::packet_keys.exit.i.i"
	cmpq	$16, %rcx
	jne	Ldeerlapse_0_1_0_BB85_6
## %bb.14:                              ## %join.3.fold.split.i.i.i.i
	xorl	%eax, %eax
Ldeerlapse_0_1_0_BB85_15:                               ## %arm.1.i6.i.i
	xorps	%xmm0, %xmm0
	leaq	304(%rsp), %r8
	movaps	%xmm0, (%r8)
	movzbl	%al, %esi
	leaq	80(%rsp), %rdx
	movq	%rbx, %rdi
	xorl	%ecx, %ecx
	callq	"_deerlapse_0_1_0::aead_ciphers_wide::aes_gcm::ExpandedKey::expand_with_width"
	movl	8(%r14), %eax
	movl	%eax, 3200(%rbx)
	movq	(%r14), %rax
	movq	%rax, 3192(%rbx)
	movl	$0, 3204(%rbx)
	jmp	Ldeerlapse_0_1_0_BB85_16
Ldeerlapse_0_1_0_BB85_6:
	xorl	%ebp, %ebp
Ldeerlapse_0_1_0_BB85_16:                               ## %"deerlapse::quic_key::deerlapse_quic_key_from_secret.exit"
	movl	%ebp, %eax
	addq	$728, %rsp                      ## imm = 0x2D8
	popq	%rbx
	popq	%r12
	popq	%r13
	popq	%r14
	popq	%r15
	popq	%rbp
	retq
	.cfi_endproc
                                        ## -- End function
	.ifdef	deerlapse_in_rust
	.globl	_deerlapse_0_1_0_quic_key_init        ## -- Begin function deerlapse_quic_key_init
	.p2align	4
_deerlapse_0_1_0_quic_key_init:               ## @deerlapse_quic_key_init
	.else
	.globl	_deerlapse_quic_key_init        ## -- Begin function deerlapse_quic_key_init
	.p2align	4
_deerlapse_quic_key_init:               ## @deerlapse_quic_key_init
	.endif
	.cfi_startproc
## %bb.0:                               ## %start
	pushq	%r15
	.cfi_def_cfa_offset 16
	pushq	%r14
	.cfi_def_cfa_offset 24
	pushq	%rbx
	.cfi_def_cfa_offset 32
	subq	$16, %rsp
	.cfi_def_cfa_offset 48
	.cfi_offset %rbx, -32
	.cfi_offset %r14, -24
	.cfi_offset %r15, -16
	movq	%rcx, %r14
	xorl	%eax, %eax
	testq	%rsi, %rsi
	sete	%r8b
	movb	$1, %bl
	movb	$1, %cl
	cmpq	$32, %rdx
	je	Ldeerlapse_0_1_0_BB86_4
## %bb.1:                               ## %start
	cmpq	$16, %rdx
	jne	Ldeerlapse_0_1_0_BB86_2
## %bb.3:                               ## %join.3.fold.split.i.i.i
	xorl	%ecx, %ecx
Ldeerlapse_0_1_0_BB86_4:                                ## %arm.1.i.i
	movb	%r8b, %al
	shll	$12, %eax
	addq	%rax, %rsi
	xorps	%xmm0, %xmm0
	movaps	%xmm0, (%rsp)
	movzbl	%cl, %eax
	movq	%rsp, %r8
	movq	%rdi, %r15
	movq	%rsi, %rdx
	movl	%eax, %esi
	xorl	%ecx, %ecx
	callq	"_deerlapse_0_1_0::aead_ciphers_wide::aes_gcm::ExpandedKey::expand_with_width"
	movq	(%r14), %rax
	movl	8(%r14), %ecx
	movl	%ecx, 3200(%r15)
	movq	%rax, 3192(%r15)
	movl	$0, 3204(%r15)
	jmp	Ldeerlapse_0_1_0_BB86_5
Ldeerlapse_0_1_0_BB86_2:
	xorl	%ebx, %ebx
Ldeerlapse_0_1_0_BB86_5:                                ## %"deerlapse::quic_key::deerlapse_quic_key_init.exit"
	movl	%ebx, %eax
	addq	$16, %rsp
	popq	%rbx
	popq	%r14
	popq	%r15
	retq
	.cfi_endproc
                                        ## -- End function
	.ifdef	deerlapse_in_rust
	.globl	_deerlapse_0_1_0_record_key_from_secret ## -- Begin function deerlapse_record_key_from_secret
_deerlapse_0_1_0_record_key_from_secret:      ## @deerlapse_record_key_from_secret
	.else
	.globl	_deerlapse_record_key_from_secret ## -- Begin function deerlapse_record_key_from_secret
_deerlapse_record_key_from_secret:      ## @deerlapse_record_key_from_secret
	.endif
	.cfi_startproc
## %bb.0:                               ## %start
	pushq	%rbp
	.cfi_def_cfa_offset 16
	pushq	%r15
	.cfi_def_cfa_offset 24
	pushq	%r14
	.cfi_def_cfa_offset 32
	pushq	%r13
	.cfi_def_cfa_offset 40
	pushq	%r12
	.cfi_def_cfa_offset 48
	pushq	%rbx
	.cfi_def_cfa_offset 56
	subq	$680, %rsp                      ## imm = 0x2A8
	.cfi_def_cfa_offset 736
	.cfi_offset %rbx, -56
	.cfi_offset %r12, -48
	.cfi_offset %r13, -40
	.cfi_offset %r14, -32
	.cfi_offset %r15, -24
	.cfi_offset %rbp, -16
	movq	%rdi, %rbx
	xorl	%eax, %eax
	testq	%rsi, %rsi
	sete	%al
	shll	$12, %eax
	addq	%rsi, %rax
	xorps	%xmm0, %xmm0
	movaps	%xmm0, 80(%rsp)
	movaps	%xmm0, 96(%rsp)
	movaps	%xmm0, 112(%rsp)
	movb	$0, 128(%rsp)
	cmpq	$48, %rdx
	je	Ldeerlapse_0_1_0_BB87_4
## %bb.1:                               ## %start
	cmpq	$32, %rdx
	jne	Ldeerlapse_0_1_0_BB87_2
## %bb.3:                               ## %arm.1.i.i.i
	xorps	%xmm2, %xmm2
	movaps	%xmm2, 176(%rsp)
	movups	(%rax), %xmm0
	movups	16(%rax), %xmm1
	movaps	%xmm0, 144(%rsp)
	movaps	%xmm1, 160(%rsp)
	leaq	81(%rsp), %rsi
	movups	%xmm0, (%rsi)
	movups	%xmm1, 16(%rsi)
	movups	%xmm2, 32(%rsi)
	leaq	256(%rsp), %r15
	movl	$32, %edx
	movq	%r15, %rdi
	callq	"_deerlapse_0_1_0::key_derivation::hmac::HmacKey::new::<#7cab53feae2e1c66>"
	leaq	208(%rsp), %r14
	xorps	%xmm0, %xmm0
	movaps	%xmm0, 16(%r14)
	movaps	%xmm0, (%r14)
	movl	$16, %eax
	movq	%rax, 32(%r14)
	movq	%rax, (%rsp)
	leaq	ldeerlapse_0_1_0__static.19(%rip), %rsi
	leaq	ldeerlapse_0_1_0__static.6(%rip), %r12
	movl	$3, %edx
	movq	%r15, %rdi
	movq	%r12, %rcx
	xorl	%r8d, %r8d
	movq	%r14, %r9
	callq	"_deerlapse_0_1_0::key_derivation::hkdf::Expander::fill_labeled::<#7cab53feae2e1c66>"
	leaq	192(%rsp), %r13
	movl	$0, 8(%r13)
	movq	$0, (%r13)
	movq	$12, (%rsp)
	leaq	ldeerlapse_0_1_0__static.20(%rip), %rsi
	movl	$2, %edx
	movq	%r15, %rdi
	movq	%r12, %rcx
	xorl	%r8d, %r8d
	movq	%r13, %r9
	callq	"_deerlapse_0_1_0::key_derivation::hkdf::Expander::fill_labeled::<#7cab53feae2e1c66>"
	jmp	Ldeerlapse_0_1_0_BB87_5
Ldeerlapse_0_1_0_BB87_4:                                ## %arm.2.i.i.i
	leaq	81(%rsp), %rsi
	movb	$1, -1(%rsi)
	movups	(%rax), %xmm0
	movups	16(%rax), %xmm1
	movups	32(%rax), %xmm2
	movups	%xmm0, (%rsi)
	movups	%xmm1, 16(%rsi)
	movups	%xmm2, 32(%rsi)
	leaq	256(%rsp), %r15
	movl	$48, %edx
	movq	%r15, %rdi
	callq	"_deerlapse_0_1_0::key_derivation::hmac::HmacKey::new::<#01e4f4eb65b1d8bb>"
	leaq	144(%rsp), %r14
	xorps	%xmm0, %xmm0
	movaps	%xmm0, 16(%r14)
	movaps	%xmm0, (%r14)
	movl	$32, %eax
	movq	%rax, 32(%r14)
	movq	%rax, (%rsp)
	leaq	ldeerlapse_0_1_0__static.19(%rip), %rsi
	leaq	ldeerlapse_0_1_0__static.6(%rip), %r12
	movl	$3, %edx
	movq	%r15, %rdi
	movq	%r12, %rcx
	xorl	%r8d, %r8d
	movq	%r14, %r9
	callq	"_deerlapse_0_1_0::key_derivation::hkdf::Expander::fill_labeled::<#01e4f4eb65b1d8bb>"
	leaq	208(%rsp), %r13
	movl	$0, 8(%r13)
	movq	$0, (%r13)
	movq	$12, (%rsp)
	leaq	ldeerlapse_0_1_0__static.20(%rip), %rsi
	movl	$2, %edx
	movq	%r15, %rdi
	movq	%r12, %rcx
	xorl	%r8d, %r8d
	movq	%r13, %r9
	callq	"_deerlapse_0_1_0::key_derivation::hkdf::Expander::fill_labeled::<#01e4f4eb65b1d8bb>"
Ldeerlapse_0_1_0_BB87_5:                                ## %"key_derivation::secret::Secret::record_keys.exit.i.i"
	movq	32(%r14), %rax
	movq	%rax, 48(%rsp)
	movaps	(%r14), %xmm0
	movaps	16(%r14), %xmm1
	movaps	%xmm1, 32(%rsp)
	movaps	%xmm0, 16(%rsp)
	movq	(%r13), %rax
	movq	%rax, 56(%rsp)
	movl	8(%r13), %eax
	movl	%eax, 64(%rsp)
	movaps	16(%rsp), %xmm0
	movaps	32(%rsp), %xmm1
	movq	48(%rsp), %rax
	movq	%rax, 288(%rsp)
	movq	56(%rsp), %rax
	movq	%rax, 296(%rsp)
	movl	64(%rsp), %eax
	movl	%eax, 304(%rsp)
	movaps	%xmm1, 272(%rsp)
	movaps	%xmm0, 256(%rsp)
	movl	$0, 308(%rsp)
	movq	288(%rsp), %rcx
	movb	$1, %bpl
	movb	$1, %al
	cmpq	$32, %rcx
	je	Ldeerlapse_0_1_0_BB87_8
## %bb.6:                               ## %"key_derivation::secret::Secret::record_keys.exit.i.i"
	cmpq	$16, %rcx
	jne	Ldeerlapse_0_1_0_BB87_2
## %bb.7:                               ## %join.3.fold.split.i.i.i.i
	xorl	%eax, %eax
Ldeerlapse_0_1_0_BB87_8:                                ## %arm.1.i3.i.i
	xorps	%xmm0, %xmm0
	leaq	208(%rsp), %r8
	movaps	%xmm0, (%r8)
	movzbl	%al, %esi
	leaq	256(%rsp), %rdx
	movq	%rbx, %rdi
	xorl	%ecx, %ecx
	callq	"_deerlapse_0_1_0::aead_ciphers_wide::aes_gcm::ExpandedKey::expand_with_width"
	movl	64(%rsp), %eax
	movl	%eax, 3200(%rbx)
	movq	56(%rsp), %rax
	movq	%rax, 3192(%rbx)
	movl	$0, 3204(%rbx)
	jmp	Ldeerlapse_0_1_0_BB87_9
Ldeerlapse_0_1_0_BB87_2:
	xorl	%ebp, %ebp
Ldeerlapse_0_1_0_BB87_9:                                ## %"deerlapse::record_key::deerlapse_record_key_from_secret.exit"
	movl	%ebp, %eax
	addq	$680, %rsp                      ## imm = 0x2A8
	popq	%rbx
	popq	%r12
	popq	%r13
	popq	%r14
	popq	%r15
	popq	%rbp
	retq
	.cfi_endproc
                                        ## -- End function
	.ifdef	deerlapse_in_rust
	.globl	_deerlapse_0_1_0_record_key_init      ## -- Begin function deerlapse_record_key_init
	.p2align	4
_deerlapse_0_1_0_record_key_init:             ## @deerlapse_record_key_init
	.else
	.globl	_deerlapse_record_key_init      ## -- Begin function deerlapse_record_key_init
	.p2align	4
_deerlapse_record_key_init:             ## @deerlapse_record_key_init
	.endif
	.cfi_startproc
## %bb.0:                               ## %start
	pushq	%r15
	.cfi_def_cfa_offset 16
	pushq	%r14
	.cfi_def_cfa_offset 24
	pushq	%rbx
	.cfi_def_cfa_offset 32
	subq	$16, %rsp
	.cfi_def_cfa_offset 48
	.cfi_offset %rbx, -32
	.cfi_offset %r14, -24
	.cfi_offset %r15, -16
	movq	%rcx, %r14
	xorl	%eax, %eax
	testq	%rsi, %rsi
	sete	%r8b
	movb	$1, %bl
	movb	$1, %cl
	cmpq	$32, %rdx
	je	Ldeerlapse_0_1_0_BB88_4
## %bb.1:                               ## %start
	cmpq	$16, %rdx
	jne	Ldeerlapse_0_1_0_BB88_2
## %bb.3:                               ## %join.3.fold.split.i.i.i
	xorl	%ecx, %ecx
Ldeerlapse_0_1_0_BB88_4:                                ## %arm.1.i.i
	movb	%r8b, %al
	shll	$12, %eax
	addq	%rax, %rsi
	xorps	%xmm0, %xmm0
	movaps	%xmm0, (%rsp)
	movzbl	%cl, %eax
	movq	%rsp, %r8
	movq	%rdi, %r15
	movq	%rsi, %rdx
	movl	%eax, %esi
	xorl	%ecx, %ecx
	callq	"_deerlapse_0_1_0::aead_ciphers_wide::aes_gcm::ExpandedKey::expand_with_width"
	movq	(%r14), %rax
	movl	8(%r14), %ecx
	movl	%ecx, 3200(%r15)
	movq	%rax, 3192(%r15)
	movl	$0, 3204(%r15)
	jmp	Ldeerlapse_0_1_0_BB88_5
Ldeerlapse_0_1_0_BB88_2:
	xorl	%ebx, %ebx
Ldeerlapse_0_1_0_BB88_5:                                ## %"deerlapse::record_key::deerlapse_record_key_init.exit"
	movl	%ebx, %eax
	addq	$16, %rsp
	popq	%rbx
	popq	%r14
	popq	%r15
	retq
	.cfi_endproc
                                        ## -- End function
	.ifdef	deerlapse_in_rust
	.globl	_deerlapse_0_1_0_seal                 ## -- Begin function deerlapse_seal
	.p2align	4
_deerlapse_0_1_0_seal:                        ## @deerlapse_seal
	.else
	.globl	_deerlapse_seal                 ## -- Begin function deerlapse_seal
	.p2align	4
_deerlapse_seal:                        ## @deerlapse_seal
	.endif
	.cfi_startproc
## %bb.0:                               ## %start
	pushq	%rbp
	.cfi_def_cfa_offset 16
	pushq	%r15
	.cfi_def_cfa_offset 24
	pushq	%r14
	.cfi_def_cfa_offset 32
	pushq	%r13
	.cfi_def_cfa_offset 40
	pushq	%r12
	.cfi_def_cfa_offset 48
	pushq	%rbx
	.cfi_def_cfa_offset 56
	subq	$3072, %rsp                     ## imm = 0xC00
	.cfi_adjust_cfa_offset 3072
	movq	$0, (%rsp)
	subq	$184, %rsp
	.cfi_def_cfa_offset 3312
	.cfi_offset %rbx, -56
	.cfi_offset %r12, -48
	.cfi_offset %r13, -40
	.cfi_offset %r14, -32
	.cfi_offset %r15, -24
	.cfi_offset %rbp, -16
	movq	%r8, 32(%rsp)                   ## 8-byte Spill
	movq	%rcx, %r15
	movq	%rdx, 24(%rsp)                  ## 8-byte Spill
	movq	%rsi, %rbp
	movq	%rdi, %r13
	xorl	%ebx, %ebx
	testq	%rdi, %rdi
	sete	21(%rsp)                        ## 1-byte Folded Spill
	xorl	%r12d, %r12d
	testq	%rcx, %rcx
	sete	22(%rsp)                        ## 1-byte Folded Spill
	xorl	%r14d, %r14d
	movq	%r9, 40(%rsp)                   ## 8-byte Spill
	testq	%r9, %r9
	sete	23(%rsp)                        ## 1-byte Folded Spill
	leaq	64(%rsp), %rdi
	movl	$3192, %esi                     ## imm = 0xC78
	callq	___bzero
	cmpq	$32, %rbp
	je	Ldeerlapse_0_1_0_BB89_1
## %bb.2:                               ## %start
	xorl	%eax, %eax
	cmpq	$16, %rbp
	je	Ldeerlapse_0_1_0_BB89_3
	jmp	Ldeerlapse_0_1_0_BB89_4
Ldeerlapse_0_1_0_BB89_1:
	movb	$1, %al
Ldeerlapse_0_1_0_BB89_3:                                ## %then.1.i.i
	movzbl	21(%rsp), %ecx                  ## 1-byte Folded Reload
	movb	%cl, %bl
	shll	$12, %ebx
	addq	%rbx, %r13
	movzbl	22(%rsp), %ecx                  ## 1-byte Folded Reload
	movb	%cl, %r12b
	shll	$12, %r12d
	addq	%r12, %r15
	movzbl	23(%rsp), %ecx                  ## 1-byte Folded Reload
	movb	%cl, %r14b
	shll	$12, %r14d
	movq	40(%rsp), %rbx                  ## 8-byte Reload
	addq	%r14, %rbx
	xorps	%xmm0, %xmm0
	movaps	%xmm0, 48(%rsp)
	movzbl	%al, %esi
	leaq	64(%rsp), %rbp
	leaq	48(%rsp), %r8
	movq	%rbp, %rdi
	movq	%r13, %rdx
	xorl	%ecx, %ecx
	callq	"_deerlapse_0_1_0::aead_ciphers_wide::aes_gcm::ExpandedKey::expand_with_width"
	movq	3320(%rsp), %rax
	movq	%rax, (%rsp)
	movq	%rbp, %rdi
	movq	24(%rsp), %rsi                  ## 8-byte Reload
	movq	%r15, %rdx
	movq	32(%rsp), %rcx                  ## 8-byte Reload
	movq	%rbx, %r8
	movq	3312(%rsp), %r9
	callq	"_deerlapse_0_1_0::deerlapse::key::deerlapse_key_seal"
                                        ## kill: def $al killed $al def $eax
Ldeerlapse_0_1_0_BB89_4:                                ## %"deerlapse::aes_gcm::deerlapse_seal.exit"
                                        ## kill: def $al killed $al killed $eax
	addq	$3256, %rsp                     ## imm = 0xCB8
	popq	%rbx
	popq	%r12
	popq	%r13
	popq	%r14
	popq	%r15
	popq	%rbp
	retq
	.cfi_endproc
                                        ## -- End function
	.ifdef	deerlapse_in_rust
	.globl	_deerlapse_0_1_0_sealer_init          ## -- Begin function deerlapse_sealer_init
	.p2align	4
_deerlapse_0_1_0_sealer_init:                 ## @deerlapse_sealer_init
	.else
	.globl	_deerlapse_sealer_init          ## -- Begin function deerlapse_sealer_init
	.p2align	4
_deerlapse_sealer_init:                 ## @deerlapse_sealer_init
	.endif
	.cfi_startproc
## %bb.0:                               ## %start
	xorl	%eax, %eax
	testq	%rsi, %rsi
	sete	%r10b
	cmpq	$32, %rdx
	je	Ldeerlapse_0_1_0_BB90_4
## %bb.1:                               ## %start
	cmpq	$16, %rdx
	jne	Ldeerlapse_0_1_0_BB90_6
## %bb.2:                               ## %join.3.fold.split.i.i.i
	xorl	%edx, %edx
	cmpq	%r8, %r9
	jae	Ldeerlapse_0_1_0_BB90_5
Ldeerlapse_0_1_0_BB90_6:
	xorl	%eax, %eax
                                        ## kill: def $al killed $al killed $eax
	retq
Ldeerlapse_0_1_0_BB90_4:
	movb	$1, %dl
	cmpq	%r8, %r9
	jb	Ldeerlapse_0_1_0_BB90_6
Ldeerlapse_0_1_0_BB90_5:                                ## %join.7.i.i
	pushq	%r15
	.cfi_def_cfa_offset 16
	pushq	%r14
	.cfi_def_cfa_offset 24
	pushq	%r12
	.cfi_def_cfa_offset 32
	pushq	%rbx
	.cfi_def_cfa_offset 40
	subq	$24, %rsp
	.cfi_def_cfa_offset 64
	.cfi_offset %rbx, -40
	.cfi_offset %r12, -32
	.cfi_offset %r14, -24
	.cfi_offset %r15, -16
	movb	%r10b, %al
	shll	$12, %eax
	addq	%rax, %rsi
	xorps	%xmm0, %xmm0
	movaps	%xmm0, (%rsp)
	movzbl	%dl, %eax
	movq	%rsp, %r10
	movq	%rdi, %rbx
	movq	%rsi, %rdx
	movl	%eax, %esi
	movq	%rcx, %r14
	xorl	%ecx, %ecx
	movq	%r8, %r15
	movq	%r10, %r8
	movq	%r9, %r12
	callq	"_deerlapse_0_1_0::aead_ciphers_wide::aes_gcm::ExpandedKey::expand_with_width"
	movq	%r15, 3192(%rbx)
	movq	%r12, 3200(%rbx)
	movq	(%r14), %rax
	movl	8(%r14), %ecx
	movl	%ecx, 3216(%rbx)
	movq	%rax, 3208(%rbx)
	xorps	%xmm0, %xmm0
	movups	%xmm0, 3220(%rbx)
	movups	%xmm0, 3236(%rbx)
	movups	%xmm0, 3252(%rbx)
	movups	%xmm0, 3268(%rbx)
	movups	%xmm0, 3284(%rbx)
	movups	%xmm0, 3300(%rbx)
	movups	%xmm0, 3316(%rbx)
	movups	%xmm0, 3332(%rbx)
	movups	%xmm0, 3348(%rbx)
	movups	%xmm0, 3364(%rbx)
	movups	%xmm0, 3380(%rbx)
	movups	%xmm0, 3396(%rbx)
	movups	%xmm0, 3412(%rbx)
	movups	%xmm0, 3424(%rbx)
	movb	$1, %al
	addq	$24, %rsp
	popq	%rbx
	popq	%r12
	popq	%r14
	popq	%r15
                                        ## kill: def $al killed $al killed $eax
	retq
	.cfi_endproc
                                        ## -- End function
	.ifdef	deerlapse_in_rust
	.globl	_deerlapse_0_1_0_xaes_init            ## -- Begin function deerlapse_xaes_init
	.p2align	4
_deerlapse_0_1_0_xaes_init:                   ## @deerlapse_xaes_init
	.else
	.globl	_deerlapse_xaes_init            ## -- Begin function deerlapse_xaes_init
	.p2align	4
_deerlapse_xaes_init:                   ## @deerlapse_xaes_init
	.endif
	.cfi_startproc
## %bb.0:                               ## %start
	pushq	%r14
	.cfi_def_cfa_offset 16
	pushq	%rbx
	.cfi_def_cfa_offset 24
	subq	$40, %rsp
	.cfi_def_cfa_offset 64
	.cfi_offset %rbx, -24
	.cfi_offset %r14, -16
	movq	%rsi, %rdx
	movq	%rdi, %rbx
	leaq	8(%rdi), %r14
	movq	%r14, %rdi
	movl	$1, %esi
	callq	"_deerlapse_0_1_0::aead_ciphers_wide::aes::expand"
	movl	%eax, (%rbx)
	movl	$128, 4(%rbx)
	xorps	%xmm0, %xmm0
	movaps	%xmm0, 16(%rsp)
	movaps	%xmm0, (%rsp)
	movq	%rsp, %rdi
	leaq	16(%rsp), %rcx
	movq	%r14, %rsi
	movq	%rax, %rdx
	callq	"_deerlapse_0_1_0::aead_ciphers_wide::aes::block_key::BlockKeyRef::encrypt_one"
	movq	8(%rsp), %rcx
	bswapq	%rcx
	movq	(%rsp), %rdx
	bswapq	%rdx
	movq	%rdx, %r8
	shldq	$1, %rcx, %r8
	leal	(%rcx,%rcx), %edi
	leaq	(%rdx,%rdx), %rsi
	movq	%rdx, %rax
	sarq	$63, %rax
	andl	$135, %eax
	xorl	%edi, %eax
	movq	%rsi, %rdi
	shrq	$56, %rdi
	movq	%rsi, %r9
	shrq	$48, %r9
	shrq	$40, %rsi
	movq	%r8, %xmm0
	movq	%rdx, %xmm1
	shrq	$31, %rdx
	movdqa	%xmm1, %xmm2
	psrlq	$7, %xmm2
	punpcklbw	%xmm0, %xmm2            ## xmm2 = xmm2[0],xmm0[0],xmm2[1],xmm0[1],xmm2[2],xmm0[2],xmm2[3],xmm0[3],xmm2[4],xmm0[4],xmm2[5],xmm0[5],xmm2[6],xmm0[6],xmm2[7],xmm0[7]
	psllq	$48, %xmm2
	movdqa	%xmm1, %xmm0
	psrlq	$15, %xmm0
	psrlq	$23, %xmm1
	punpcklbw	%xmm0, %xmm1            ## xmm1 = xmm1[0],xmm0[0],xmm1[1],xmm0[1],xmm1[2],xmm0[2],xmm1[3],xmm0[3],xmm1[4],xmm0[4],xmm1[5],xmm0[5],xmm1[6],xmm0[6],xmm1[7],xmm0[7]
	pshufd	$80, %xmm1, %xmm1               ## xmm1 = xmm1[0,0,1,1]
	pblendw	$8, %xmm2, %xmm1                ## xmm1 = xmm1[0,1,2],xmm2[3],xmm1[4,5,6,7]
	movd	%edx, %xmm0
	movd	%esi, %xmm2
	punpcklbw	%xmm0, %xmm2            ## xmm2 = xmm2[0],xmm0[0],xmm2[1],xmm0[1],xmm2[2],xmm0[2],xmm2[3],xmm0[3],xmm2[4],xmm0[4],xmm2[5],xmm0[5],xmm2[6],xmm0[6],xmm2[7],xmm0[7]
	movd	%r9d, %xmm3
	movd	%edi, %xmm0
	punpcklbw	%xmm3, %xmm0            ## xmm0 = xmm0[0],xmm3[0],xmm0[1],xmm3[1],xmm0[2],xmm3[2],xmm0[3],xmm3[3],xmm0[4],xmm3[4],xmm0[5],xmm3[5],xmm0[6],xmm3[6],xmm0[7],xmm3[7]
	punpcklwd	%xmm2, %xmm0            ## xmm0 = xmm0[0],xmm2[0],xmm0[1],xmm2[1],xmm0[2],xmm2[2],xmm0[3],xmm2[3]
	pblendw	$12, %xmm1, %xmm0               ## xmm0 = xmm0[0,1],xmm1[2,3],xmm0[4,5,6,7]
	movl	%ecx, %edx
	shrl	$7, %edx
	movl	%ecx, %esi
	shrl	$15, %esi
	movl	%ecx, %edi
	shrl	$23, %edi
	movq	%rcx, %r8
	shrq	$31, %r8
	movq	%rcx, %r9
	shrq	$39, %r9
	movq	%rcx, %r10
	shrq	$47, %r10
	shrq	$55, %rcx
	movd	%ecx, %xmm1
	pinsrb	$1, %r10d, %xmm1
	pinsrb	$2, %r9d, %xmm1
	pinsrb	$3, %r8d, %xmm1
	pinsrb	$4, %edi, %xmm1
	pinsrb	$5, %esi, %xmm1
	pinsrb	$6, %edx, %xmm1
	pinsrb	$7, %eax, %xmm1
	punpcklqdq	%xmm1, %xmm0            ## xmm0 = xmm0[0],xmm1[0]
	movdqu	%xmm0, 248(%rbx)
	addq	$40, %rsp
	popq	%rbx
	popq	%r14
	retq
	.cfi_endproc
                                        ## -- End function
	.ifdef	deerlapse_in_rust
	.globl	_deerlapse_0_1_0_opener_wipe          ## -- Begin function deerlapse_opener_wipe
	.p2align	4
_deerlapse_0_1_0_opener_wipe:                 ## @deerlapse_opener_wipe
	.else
	.globl	_deerlapse_opener_wipe          ## -- Begin function deerlapse_opener_wipe
	.p2align	4
_deerlapse_opener_wipe:                 ## @deerlapse_opener_wipe
	.endif
	.cfi_startproc
## %bb.0:                               ## %start
	movl	$3440, %esi                     ## imm = 0xD70
	jmp	___bzero                        ## TAILCALL
	.cfi_endproc
                                        ## -- End function
	.ifdef	deerlapse_in_rust
	.globl	_deerlapse_0_1_0_sealer_wipe          ## -- Begin function deerlapse_sealer_wipe
	.p2align	4
_deerlapse_0_1_0_sealer_wipe:                 ## @deerlapse_sealer_wipe
	.else
	.globl	_deerlapse_sealer_wipe          ## -- Begin function deerlapse_sealer_wipe
	.p2align	4
_deerlapse_sealer_wipe:                 ## @deerlapse_sealer_wipe
	.endif
	.cfi_startproc
## %bb.0:                               ## %start
	movl	$3440, %esi                     ## imm = 0xD70
	jmp	___bzero                        ## TAILCALL
	.cfi_endproc
                                        ## -- End function
	.ifdef	deerlapse_in_rust
	.globl	_deerlapse_0_1_0_quic_key_wipe        ## -- Begin function deerlapse_quic_key_wipe
	.p2align	4
_deerlapse_0_1_0_quic_key_wipe:               ## @deerlapse_quic_key_wipe
	.else
	.globl	_deerlapse_quic_key_wipe        ## -- Begin function deerlapse_quic_key_wipe
	.p2align	4
_deerlapse_quic_key_wipe:               ## @deerlapse_quic_key_wipe
	.endif
	.cfi_startproc
## %bb.0:                               ## %start
	movl	$3208, %esi                     ## imm = 0xC88
	jmp	___bzero                        ## TAILCALL
	.cfi_endproc
                                        ## -- End function
	.ifdef	deerlapse_in_rust
	.globl	_deerlapse_0_1_0_record_key_wipe      ## -- Begin function deerlapse_record_key_wipe
	.p2align	4
_deerlapse_0_1_0_record_key_wipe:             ## @deerlapse_record_key_wipe
	.else
	.globl	_deerlapse_record_key_wipe      ## -- Begin function deerlapse_record_key_wipe
	.p2align	4
_deerlapse_record_key_wipe:             ## @deerlapse_record_key_wipe
	.endif
	.cfi_startproc
## %bb.0:                               ## %start
	movl	$3208, %esi                     ## imm = 0xC88
	jmp	___bzero                        ## TAILCALL
	.cfi_endproc
                                        ## -- End function
	.section	__TEXT,__const
ldeerlapse_0_1_0__static.0:                             ## @static.0
	.asciz	"\200\000\000\000\000\000\000\000\000\000\000\000\000\000\000\000\000\000\000\000\000\000\000\000\000\000\000\000\000\000\000\000\000\000\000\000\000\000\000\000\000\000\000\000\000\000\000\000\000\000\000\000\000\000\000\000\000\000\000\000\000\000\000"

	.p2align	2, 0x0                          ## @static.1
ldeerlapse_0_1_0__static.1:
	.ascii	"\230/\212B\221D7q\317\373\300\265\245\333\265\351[\302V9\361\021\361Y\244\202?\222\325^\034\253\230\252\007\330\001[\203\022\276\2051$\303}\fUt]\276r\376\261\336\200\247\006\334\233t\361\233\301\301i\233\344\206G\276\357\306\235\301\017\314\241\f$o,\351-\252\204tJ\334\251\260\\\332\210\371vRQ>\230m\3061\250\310'\003\260\307\177Y\277\363\013\340\306G\221\247\325Qc\312\006g))\024\205\n\267'8!\033.\374m,M\023\r8STs\ne\273\njv.\311\302\201\205,r\222\241\350\277\242Kf\032\250p\213K\302\243Ql\307\031\350\222\321$\006\231\326\2055\016\364p\240j\020\026\301\244\031\bl7\036LwH'\265\274\2604\263\f\0349J\252\330NO\312\234[\363o.h\356\202\217toc\245x\024x\310\204\b\002\307\214\372\377\276\220\353lP\244\367\243\371\276\362xq\306"

ldeerlapse_0_1_0__static.2:                             ## @static.2
	.asciz	"\200\000\000\000\000\000\000\000\000\000\000\000\000\000\000\000\000\000\000\000\000\000\000\000\000\000\000\000\000\000\000\000\000\000\000\000\000\000\000\000\000\000\000\000\000\000\000\000\000\000\000\000\000\000\000\000\000\000\000\000\000\000\000\000\000\000\000\000\000\000\000\000\000\000\000\000\000\000\000\000\000\000\000\000\000\000\000\000\000\000\000\000\000\000\000\000\000\000\000\000\000\000\000\000\000\000\000\000\000\000\000\000\000\000\000\000\000\000\000\000\000\000\000\000\000\000\000"

	.p2align	3, 0x0                          ## @static.3
ldeerlapse_0_1_0__static.3:
	.ascii	"\"\256(\327\230/\212B\315e\357#\221D7q/;M\354\317\373\300\265\274\333\211\201\245\333\265\3518\265H\363[\302V9\031\320\005\266\361\021\361Y\233O\031\257\244\202?\222\030\201m\332\325^\034\253B\002\003\243\230\252\007\330\276opE\001[\203\022\214\262\344N\276\2051$\342\264\377\325\303}\fUo\211{\362t]\276r\261\226\026;\376\261\336\2005\022\307%\247\006\334\233\224&i\317t\361\233\301\322J\361\236\301i\233\344\343%O8\206G\276\357\265\325\214\213\306\235\301\017e\234\254w\314\241\f$u\002+Yo,\351-\203\344\246n\252\204tJ\324\373A\275\334\251\260\\\265S\021\203\332\210\371v\253\337f\356RQ>\230\0202\264-m\3061\250?!\373\230\310'\003\260\344\016\357\276\307\177Y\277\302\217\250=\363\013\340\306%\247\n\223G\221\247\325o\202\003\340Qc\312\006pn\016\ng))\024\374/\322F\205\n\267'&\311&\\8!\033.\355*\304Z\374m,M\337\263\225\235\023\r8S\336c\257\213Ts\ne\250\262w<\273\njv\346\256\355G.\311\302\201;5\202\024\205,r\222d\003\361L\241\350\277\242\0010B\274Kf\032\250\221\227\370\320p\213K\3020\276T\006\243Ql\307\030R\357\326\031\350\222\321\020\251eU$\006\231\326* qW\2055\016\364\270\321\2732p\240j\020\310\320\322\270\026\301\244\031S\253AQ\bl7\036\231\353\216\337LwH'\250H\233\341\265\274\2604cZ\311\305\263\f\0349\313\212A\343J\252\330Ns\343cwO\312\234[\243\270\262\326\363o.h\374\262\357]\356\202\217t`/\027Coc\245xr\253\360\241\024x\310\204\3549d\032\b\002\307\214(\036c#\372\377\276\220\351\275\202\336\353lP\244\025y\306\262\367\243\371\276+Sr\343\362xq\306\234a&\352\316>'\312\007\302\300!\307\270\206\321\036\353\340\315\326}\332\352x\321n\356\177O}\365\272o\027r\252g\360\006\246\230\310\242\305}c\n\256\r\371\276\004\230?\021\033G\034\0235\013q\033\204}\004#\365w\333(\223$\307@{\253\3122\274\276\311\025\n\276\236<L\r\020\234\304g\035C\266B>\313\276\324\305L*~e\374\234)\177Y\354\372\326:\253o\313_\027XGJ\214\031Dl"

ldeerlapse_0_1_0__static.4:                             ## @static.4
	.ascii	"\001\002\004\b\020 @\200\0336"

ldeerlapse_0_1_0__static.5:                             ## @static.5
	.ascii	"client in"

ldeerlapse_0_1_0__static.6:                             ## @static.6
	.byte	0

ldeerlapse_0_1_0__static.7:                             ## @static.7
	.ascii	"tls13 "

ldeerlapse_0_1_0__static.8:                             ## @static.8
	.ascii	"server in"

ldeerlapse_0_1_0__static.10:                            ## @static.10
	.ascii	"quic hp"

ldeerlapse_0_1_0__static.11:                            ## @static.11
	.ascii	"quicv2 hp"

ldeerlapse_0_1_0__static.12:                            ## @static.12
	.ascii	"quic ku"

ldeerlapse_0_1_0__static.13:                            ## @static.13
	.ascii	"quicv2 ku"

ldeerlapse_0_1_0__static.14:                            ## @static.14
	.ascii	"traffic upd"

	.section	__TEXT,__literal8,8byte_literals
Ldeerlapse_0_1_0__static.15:                            ## @static.15
	.ascii	"quic key"

	.section	__TEXT,__const
ldeerlapse_0_1_0__static.16:                            ## @static.16
	.ascii	"quicv2 key"

ldeerlapse_0_1_0__static.17:                            ## @static.17
	.ascii	"quic iv"

ldeerlapse_0_1_0__static.18:                            ## @static.18
	.ascii	"quicv2 iv"

ldeerlapse_0_1_0__static.19:                            ## @static.19
	.ascii	"key"

ldeerlapse_0_1_0__static.20:                            ## @static.20
	.ascii	"iv"

.subsections_via_symbols
