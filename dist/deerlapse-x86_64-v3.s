	.ifndef	deerlapse_in_rust
	.section	.note.gnu.property,"a",@note
	.p2align	3, 0x0
	.long	4
	.long	16
	.long	5
	.asciz	"GNU"
	.long	3221225474
	.long	4
	.long	3
	.p2align	3, 0x0
	.endif
	.text
	.file	"rattle"
	.section	.text.deerlapse_key_derivation,"ax",@progbits
	.type	"deerlapse_0_1_0_v3::deerlapse::hkdf::deerlapse_hmac",@function # -- Begin function deerlapse::hkdf::deerlapse_0_1_0_v3_hmac
"deerlapse_0_1_0_v3::deerlapse::hkdf::deerlapse_hmac":      # @"deerlapse_0_1_0_v3::deerlapse::hkdf::deerlapse_hmac"
	.cfi_startproc
# %bb.0:                                # %start
	pushq	%rbp
	.cfi_def_cfa_offset 16
	pushq	%r15
	.cfi_def_cfa_offset 24
	pushq	%r14
	.cfi_def_cfa_offset 32
	pushq	%r13
	.cfi_def_cfa_offset 40
	pushq	%r12
	.cfi_def_cfa_offset 48
	pushq	%rbx
	.cfi_def_cfa_offset 56
	subq	$936, %rsp                      # imm = 0x3A8
	.cfi_def_cfa_offset 992
	.cfi_offset %rbx, -56
	.cfi_offset %r12, -48
	.cfi_offset %r13, -40
	.cfi_offset %r14, -32
	.cfi_offset %r15, -24
	.cfi_offset %rbp, -16
	movq	%r8, %rbx
	movq	%rcx, %r14
	movq	%rdx, %r15
	movq	%rsi, %rdx
	movq	%rdi, %rsi
	cmpq	$48, %r9
	je	.Ldeerlapse_0_1_0_v3_BB0_4
# %bb.1:                                # %start
	cmpq	$32, %r9
	jne	.Ldeerlapse_0_1_0_v3_BB0_2
# %bb.3:                                # %arm.1
	leaq	16(%rsp), %r12
	movq	%r12, %rdi
	movq	%r15, %rcx
	movq	%r14, %r8
	callq	"deerlapse_0_1_0_v3::key_derivation::hmac::hmac::<#7cab53feae2e1c66>"
	vmovups	(%r12), %ymm0
	jmp	.Ldeerlapse_0_1_0_v3_BB0_5
.Ldeerlapse_0_1_0_v3_BB0_4:                                # %arm.2
	leaq	512(%rsp), %r12
	movq	%r12, %rdi
	callq	"deerlapse_0_1_0_v3::key_derivation::hmac::HmacKey::new::<#01e4f4eb65b1d8bb>"
	vmovups	(%r12), %ymm0
	vmovups	32(%r12), %ymm1
	vmovups	64(%r12), %ymm2
	vmovups	96(%r12), %ymm3
	leaq	96(%rsp), %rsi
	vmovups	%ymm1, 32(%rsi)
	vmovups	%ymm0, (%rsi)
	vmovups	%ymm2, 64(%rsi)
	vmovups	%ymm3, 96(%rsi)
	vmovups	128(%r12), %ymm0
	vmovups	%ymm0, 128(%rsi)
	vmovups	160(%r12), %ymm0
	vmovups	%ymm0, 160(%rsi)
	vmovaps	192(%r12), %xmm0
	vmovaps	%xmm0, (%rsp)                   # 16-byte Spill
	leaq	319(%rsp), %r13
	movl	$192, %edx
	movq	%r13, %rdi
	vzeroupper
	callq	memcpy@PLT
	leaq	111(%rsp), %rbp
	movl	$192, %edx
	movq	%rbp, %rdi
	movq	%r13, %rsi
	callq	memcpy@PLT
	leaq	304(%rsp), %r13
	movl	$192, %edx
	movq	%r13, %rdi
	movq	%rbp, %rsi
	callq	memcpy@PLT
	vmovaps	(%rsp), %xmm0                   # 16-byte Reload
	vmovaps	%xmm0, 192(%r13)
	movq	%r13, %rdi
	movq	%r15, %rsi
	movq	%r14, %rdx
	callq	"deerlapse_0_1_0_v3::sha2::block512::Core512::update"
	leaq	48(%rsp), %r14
	movq	%r14, %rdi
	movq	%r12, %rsi
	movq	%r13, %rdx
	callq	"deerlapse_0_1_0_v3::key_derivation::hmac::HmacKey::finish::<#01e4f4eb65b1d8bb>"
	vmovups	(%r14), %ymm0
	vmovups	16(%r14), %ymm1
	vmovups	%ymm1, 16(%rbx)
.Ldeerlapse_0_1_0_v3_BB0_5:                                # %common.ret
	vmovups	%ymm0, (%rbx)
	movb	$1, %al
	jmp	.Ldeerlapse_0_1_0_v3_BB0_6
.Ldeerlapse_0_1_0_v3_BB0_2:
	xorl	%eax, %eax
.Ldeerlapse_0_1_0_v3_BB0_6:                                # %common.ret
                                        # kill: def $al killed $al killed $eax
	addq	$936, %rsp                      # imm = 0x3A8
	.cfi_def_cfa_offset 56
	popq	%rbx
	.cfi_def_cfa_offset 48
	popq	%r12
	.cfi_def_cfa_offset 40
	popq	%r13
	.cfi_def_cfa_offset 32
	popq	%r14
	.cfi_def_cfa_offset 24
	popq	%r15
	.cfi_def_cfa_offset 16
	popq	%rbp
	.cfi_def_cfa_offset 8
	vzeroupper
	retq
.Ldeerlapse_0_1_0_v3_func_end0:
	.size	"deerlapse_0_1_0_v3::deerlapse::hkdf::deerlapse_hmac", .Ldeerlapse_0_1_0_v3_func_end0-"deerlapse_0_1_0_v3::deerlapse::hkdf::deerlapse_hmac"
	.cfi_endproc
                                        # -- End function
	.section	.text.deerlapse_key_derivation,"ax",@progbits
	.type	"deerlapse_0_1_0_v3::key_derivation::hmac::hmac::<#7cab53feae2e1c66>",@function # -- Begin function key_derivation::hmac::hmac::<#7cab53feae2e1c66>
"deerlapse_0_1_0_v3::key_derivation::hmac::hmac::<#7cab53feae2e1c66>": # @"deerlapse_0_1_0_v3::key_derivation::hmac::hmac::<#7cab53feae2e1c66>"
	.cfi_startproc
# %bb.0:                                # %start
	pushq	%r15
	.cfi_def_cfa_offset 16
	pushq	%r14
	.cfi_def_cfa_offset 24
	pushq	%r13
	.cfi_def_cfa_offset 32
	pushq	%r12
	.cfi_def_cfa_offset 40
	pushq	%rbx
	.cfi_def_cfa_offset 48
	subq	$656, %rsp                      # imm = 0x290
	.cfi_def_cfa_offset 704
	.cfi_offset %rbx, -48
	.cfi_offset %r12, -40
	.cfi_offset %r13, -32
	.cfi_offset %r14, -24
	.cfi_offset %r15, -16
	movq	%r8, %r14
	movq	%rcx, %r15
	movq	%rdi, %rbx
	leaq	352(%rsp), %r12
	movq	%r12, %rdi
	callq	"deerlapse_0_1_0_v3::key_derivation::hmac::HmacKey::new::<#7cab53feae2e1c66>"
	vmovups	(%r12), %ymm0
	vmovups	32(%r12), %ymm1
	vmovups	64(%r12), %ymm2
	vmovups	%ymm0, 41(%rsp)
	vmovups	41(%rsp), %ymm0
	vmovups	%ymm0, 144(%rsp)
	leaq	240(%rsp), %r13
	vmovups	%ymm2, 64(%r13)
	vmovups	%ymm1, 32(%r13)
	movq	96(%r12), %rax
	vmovups	%ymm0, (%r13)
	movq	%rax, 96(%r13)
	movq	%r13, %rdi
	movq	%r15, %rsi
	movq	%r14, %rdx
	vzeroupper
	callq	"deerlapse_0_1_0_v3::sha2::block256::Core256::update"
	leaq	2(%rsp), %r14
	movq	%r14, %rdi
	movq	%r12, %rsi
	movq	%r13, %rdx
	callq	"deerlapse_0_1_0_v3::key_derivation::hmac::HmacKey::finish::<#7cab53feae2e1c66>"
	vmovups	(%r14), %ymm0
	vmovups	%ymm0, (%rbx)
	addq	$656, %rsp                      # imm = 0x290
	.cfi_def_cfa_offset 48
	popq	%rbx
	.cfi_def_cfa_offset 40
	popq	%r12
	.cfi_def_cfa_offset 32
	popq	%r13
	.cfi_def_cfa_offset 24
	popq	%r14
	.cfi_def_cfa_offset 16
	popq	%r15
	.cfi_def_cfa_offset 8
	vzeroupper
	retq
.Ldeerlapse_0_1_0_v3_func_end1:
	.size	"deerlapse_0_1_0_v3::key_derivation::hmac::hmac::<#7cab53feae2e1c66>", .Ldeerlapse_0_1_0_v3_func_end1-"deerlapse_0_1_0_v3::key_derivation::hmac::hmac::<#7cab53feae2e1c66>"
	.cfi_endproc
                                        # -- End function
	.section	.rodata.cst32,"aM",@progbits,32
	.p2align	5, 0x0                          # -- Begin function key_derivation::hmac::HmacKey::new::<#7cab53feae2e1c66>
.Ldeerlapse_0_1_0_v3_CPI2_0:
	.long	1779033703                      # 0x6a09e667
	.long	3144134277                      # 0xbb67ae85
	.long	1013904242                      # 0x3c6ef372
	.long	2773480762                      # 0xa54ff53a
	.long	1359893119                      # 0x510e527f
	.long	2600822924                      # 0x9b05688c
	.long	528734635                       # 0x1f83d9ab
	.long	1541459225                      # 0x5be0cd19
	.section	.text.deerlapse_key_derivation,"ax",@progbits
	.type	"deerlapse_0_1_0_v3::key_derivation::hmac::HmacKey::new::<#7cab53feae2e1c66>",@function
"deerlapse_0_1_0_v3::key_derivation::hmac::HmacKey::new::<#7cab53feae2e1c66>": # @"deerlapse_0_1_0_v3::key_derivation::hmac::HmacKey::new::<#7cab53feae2e1c66>"
	.cfi_startproc
# %bb.0:                                # %start
	pushq	%r15
	.cfi_def_cfa_offset 16
	pushq	%r14
	.cfi_def_cfa_offset 24
	pushq	%r12
	.cfi_def_cfa_offset 32
	pushq	%rbx
	.cfi_def_cfa_offset 40
	subq	$824, %rsp                      # imm = 0x338
	.cfi_def_cfa_offset 864
	.cfi_offset %rbx, -40
	.cfi_offset %r12, -32
	.cfi_offset %r14, -24
	.cfi_offset %r15, -16
	movq	%rdi, %rbx
	vxorps	%xmm0, %xmm0, %xmm0
	vmovups	%ymm0, 656(%rsp)
	vmovups	%ymm0, 640(%rsp)
	vmovups	%ymm0, 608(%rsp)
	vmovups	%ymm0, 576(%rsp)
	vmovups	%ymm0, 544(%rsp)
	vmovups	%ymm0, 512(%rsp)
	vmovups	%ymm0, 480(%rsp)
	vmovups	%ymm0, 352(%rsp)
	vmovups	%ymm0, 384(%rsp)
	vmovups	%ymm0, 416(%rsp)
	vmovups	%ymm0, 448(%rsp)
	vmovups	%ymm0, 240(%rsp)
	vmovups	%ymm0, 272(%rsp)
	vmovups	%ymm0, 304(%rsp)
	xorl	%eax, %eax
	movq	%rax, 336(%rsp)
	vmovups	%ymm0, 128(%rsp)
	vmovups	%ymm0, 160(%rsp)
	vmovups	%ymm0, 192(%rsp)
	vmovups	%ymm0, 96(%rsp)
	vmovups	%ymm0, 64(%rsp)
	vmovups	%ymm0, 32(%rsp)
	movq	%rax, 224(%rsp)
	vmovups	%ymm0, (%rsp)
	cmpq	$65, %rdx
	jb	.Ldeerlapse_0_1_0_v3_BB2_2
# %bb.1:                                # %then.1.i
	leaq	688(%rsp), %r14
	vmovups	%ymm0, (%r14)
	leaq	720(%rsp), %r15
	vmovups	%ymm0, 32(%r15)
	vmovups	%ymm0, 64(%r15)
	movq	$0, 96(%r15)
	vmovaps	.Ldeerlapse_0_1_0_v3_CPI2_0(%rip), %ymm0           # ymm0 = [1779033703,3144134277,1013904242,2773480762,1359893119,2600822924,528734635,1541459225]
	vmovups	%ymm0, (%r15)
	movq	%r15, %rdi
	vzeroupper
	callq	"deerlapse_0_1_0_v3::sha2::block256::Core256::update"
	movq	%r14, %rdi
	movq	%r15, %rsi
	callq	"deerlapse_0_1_0_v3::sha2::Sha256Digest::finalize"
	vmovups	(%r14), %ymm0
	vmovups	%ymm0, (%rsp)
	jmp	.Ldeerlapse_0_1_0_v3_BB2_3
.Ldeerlapse_0_1_0_v3_BB2_2:                                # %else.2.i
	movq	%rsp, %rdi
	vzeroupper
	callq	memcpy@PLT
.Ldeerlapse_0_1_0_v3_BB2_3:                                # %"key_derivation::hmac::key_block::<#7cab53feae2e1c66>.exit"
	vmovups	(%rsp), %ymm0
	vmovups	32(%rsp), %ymm1
	vmovups	64(%rsp), %ymm2
	vmovups	96(%rsp), %ymm3
	leaq	352(%rsp), %r14
	vmovups	%ymm3, 96(%r14)
	vmovups	%ymm2, 64(%r14)
	vmovups	%ymm1, 32(%r14)
	vmovups	%ymm0, (%r14)
	leaq	240(%rsp), %r15
	movq	%r15, %rdi
	movq	%r14, %rsi
	movl	$54, %edx
	vzeroupper
	callq	"deerlapse_0_1_0_v3::key_derivation::hmac::absorb_xored::<#7cab53feae2e1c66>"
	leaq	128(%rsp), %r12
	movq	%r12, %rdi
	movq	%r14, %rsi
	movl	$92, %edx
	callq	"deerlapse_0_1_0_v3::key_derivation::hmac::absorb_xored::<#7cab53feae2e1c66>"
	movq	96(%r15), %rax
	leaq	480(%rsp), %rsi
	vmovups	(%r15), %ymm0
	vmovups	32(%r15), %ymm1
	vmovups	64(%r15), %ymm2
	vmovups	%ymm2, 64(%rsi)
	vmovups	%ymm1, 32(%rsi)
	vmovups	%ymm0, (%rsi)
	movq	%rax, 96(%rsi)
	vmovups	(%r12), %ymm0
	vmovups	32(%r12), %ymm1
	vmovups	64(%r12), %ymm2
	vmovups	%ymm0, 104(%rsi)
	vmovups	%ymm1, 136(%rsi)
	vmovups	%ymm2, 168(%rsi)
	movq	96(%r12), %rax
	movq	%rax, 200(%rsi)
	movl	$208, %edx
	movq	%rbx, %rdi
	vzeroupper
	callq	memcpy@PLT
	addq	$824, %rsp                      # imm = 0x338
	.cfi_def_cfa_offset 40
	popq	%rbx
	.cfi_def_cfa_offset 32
	popq	%r12
	.cfi_def_cfa_offset 24
	popq	%r14
	.cfi_def_cfa_offset 16
	popq	%r15
	.cfi_def_cfa_offset 8
	retq
.Ldeerlapse_0_1_0_v3_func_end2:
	.size	"deerlapse_0_1_0_v3::key_derivation::hmac::HmacKey::new::<#7cab53feae2e1c66>", .Ldeerlapse_0_1_0_v3_func_end2-"deerlapse_0_1_0_v3::key_derivation::hmac::HmacKey::new::<#7cab53feae2e1c66>"
	.cfi_endproc
                                        # -- End function
	.section	.rodata.cst32,"aM",@progbits,32
	.p2align	5, 0x0                          # -- Begin function sha2::Sha256Digest::finalize
.Ldeerlapse_0_1_0_v3_CPI3_0:
	.quad	43                              # 0x2b
	.quad	27                              # 0x1b
	.quad	11                              # 0xb
	.quad	59                              # 0x3b
.Ldeerlapse_0_1_0_v3_CPI3_1:
	.byte	128                             # 0x80
	.byte	128                             # 0x80
	.byte	128                             # 0x80
	.byte	4                               # 0x4
	.byte	128                             # 0x80
	.byte	128                             # 0x80
	.byte	128                             # 0x80
	.byte	128                             # 0x80
	.byte	128                             # 0x80
	.byte	128                             # 0x80
	.byte	13                              # 0xd
	.byte	128                             # 0x80
	.byte	128                             # 0x80
	.byte	128                             # 0x80
	.byte	128                             # 0x80
	.byte	128                             # 0x80
	.byte	128                             # 0x80
	.byte	22                              # 0x16
	.byte	128                             # 0x80
	.byte	128                             # 0x80
	.byte	128                             # 0x80
	.byte	128                             # 0x80
	.byte	128                             # 0x80
	.byte	128                             # 0x80
	.byte	31                              # 0x1f
	.byte	128                             # 0x80
	.byte	128                             # 0x80
	.byte	128                             # 0x80
	.byte	128                             # 0x80
	.byte	128                             # 0x80
	.byte	128                             # 0x80
	.byte	128                             # 0x80
.Ldeerlapse_0_1_0_v3_CPI3_2:
	.byte	0                               # 0x0
	.byte	0                               # 0x0
	.byte	0                               # 0x0
	.byte	0                               # 0x0
	.byte	0                               # 0x0
	.byte	0                               # 0x0
	.byte	255                             # 0xff
	.byte	0                               # 0x0
	.byte	0                               # 0x0
	.byte	0                               # 0x0
	.byte	0                               # 0x0
	.byte	0                               # 0x0
	.byte	0                               # 0x0
	.byte	255                             # 0xff
	.byte	0                               # 0x0
	.byte	0                               # 0x0
	.byte	0                               # 0x0
	.byte	0                               # 0x0
	.byte	0                               # 0x0
	.byte	0                               # 0x0
	.byte	255                             # 0xff
	.byte	0                               # 0x0
	.byte	0                               # 0x0
	.byte	0                               # 0x0
	.byte	255                             # 0xff
	.byte	255                             # 0xff
	.byte	255                             # 0xff
	.byte	255                             # 0xff
	.byte	255                             # 0xff
	.byte	255                             # 0xff
	.byte	255                             # 0xff
	.byte	255                             # 0xff
.Ldeerlapse_0_1_0_v3_CPI3_3:
	.byte	3                               # 0x3
	.byte	2                               # 0x2
	.byte	1                               # 0x1
	.byte	0                               # 0x0
	.byte	7                               # 0x7
	.byte	6                               # 0x6
	.byte	5                               # 0x5
	.byte	4                               # 0x4
	.byte	11                              # 0xb
	.byte	10                              # 0xa
	.byte	9                               # 0x9
	.byte	8                               # 0x8
	.byte	15                              # 0xf
	.byte	14                              # 0xe
	.byte	13                              # 0xd
	.byte	12                              # 0xc
	.byte	3                               # 0x3
	.byte	2                               # 0x2
	.byte	1                               # 0x1
	.byte	0                               # 0x0
	.byte	7                               # 0x7
	.byte	6                               # 0x6
	.byte	5                               # 0x5
	.byte	4                               # 0x4
	.byte	11                              # 0xb
	.byte	10                              # 0xa
	.byte	9                               # 0x9
	.byte	8                               # 0x8
	.byte	15                              # 0xf
	.byte	14                              # 0xe
	.byte	13                              # 0xd
	.byte	12                              # 0xc
	.section	.text.deerlapse_key_derivation,"ax",@progbits
	.type	"deerlapse_0_1_0_v3::sha2::Sha256Digest::finalize",@function
"deerlapse_0_1_0_v3::sha2::Sha256Digest::finalize":         # @"deerlapse_0_1_0_v3::sha2::Sha256Digest::finalize"
	.cfi_startproc
# %bb.0:                                # %start
	pushq	%r15
	.cfi_def_cfa_offset 16
	pushq	%r14
	.cfi_def_cfa_offset 24
	pushq	%r12
	.cfi_def_cfa_offset 32
	pushq	%rbx
	.cfi_def_cfa_offset 40
	subq	$120, %rsp
	.cfi_def_cfa_offset 160
	.cfi_offset %rbx, -40
	.cfi_offset %r12, -32
	.cfi_offset %r14, -24
	.cfi_offset %r15, -16
	movq	96(%rsi), %r15
	leaq	16(%rsp), %rbx
	movq	%r15, 96(%rbx)
	vmovups	(%rsi), %ymm0
	vmovups	32(%rsi), %ymm1
	vmovups	64(%rsi), %ymm2
	vmovups	%ymm2, 64(%rbx)
	vmovups	%ymm1, 32(%rbx)
	movq	%rdi, %r14
	vmovups	%ymm0, (%rbx)
	leaq	(,%r15,8), %r12
	movl	$55, %edx
	subl	%r15d, %edx
	andl	$63, %edx
	incq	%rdx
	leaq	.Ldeerlapse_0_1_0_v3_static.0(%rip), %rsi
	movq	%rbx, %rdi
	vzeroupper
	callq	"deerlapse_0_1_0_v3::sha2::block256::Core256::update"
	vmovq	%r15, %xmm0
	vpbroadcastq	%xmm0, %ymm0
	vpsllvq	.Ldeerlapse_0_1_0_v3_CPI3_0(%rip), %ymm0, %ymm0
	vmovq	%r12, %xmm1
	vpbroadcastq	%xmm1, %ymm1
	vpshufb	.Ldeerlapse_0_1_0_v3_CPI3_1(%rip), %ymm1, %ymm1    # ymm1 = zero,zero,zero,ymm1[4],zero,zero,zero,zero,zero,zero,ymm1[13],zero,zero,zero,zero,zero,zero,ymm1[22],zero,zero,zero,zero,zero,zero,ymm1[31],zero,zero,zero,zero,zero,zero,zero
	vpand	.Ldeerlapse_0_1_0_v3_CPI3_2(%rip), %ymm0, %ymm0
	vpor	%ymm1, %ymm0, %ymm0
	vextracti128	$1, %ymm0, %xmm1
	vpor	%xmm1, %xmm0, %xmm0
	vpshufd	$238, %xmm0, %xmm1              # xmm1 = xmm0[2,3,2,3]
	vpor	%xmm1, %xmm0, %xmm0
	leaq	8(%rsp), %rsi
	vmovq	%xmm0, (%rsi)
	movl	$8, %edx
	movq	%rbx, %rdi
	vzeroupper
	callq	"deerlapse_0_1_0_v3::sha2::block256::Core256::update"
	vmovdqu	(%rbx), %ymm0
	vpshufb	.Ldeerlapse_0_1_0_v3_CPI3_3(%rip), %ymm0, %ymm0    # ymm0 = ymm0[3,2,1,0,7,6,5,4,11,10,9,8,15,14,13,12,19,18,17,16,23,22,21,20,27,26,25,24,31,30,29,28]
	vmovdqu	%ymm0, (%r14)
	addq	$120, %rsp
	.cfi_def_cfa_offset 40
	popq	%rbx
	.cfi_def_cfa_offset 32
	popq	%r12
	.cfi_def_cfa_offset 24
	popq	%r14
	.cfi_def_cfa_offset 16
	popq	%r15
	.cfi_def_cfa_offset 8
	vzeroupper
	retq
.Ldeerlapse_0_1_0_v3_func_end3:
	.size	"deerlapse_0_1_0_v3::sha2::Sha256Digest::finalize", .Ldeerlapse_0_1_0_v3_func_end3-"deerlapse_0_1_0_v3::sha2::Sha256Digest::finalize"
	.cfi_endproc
                                        # -- End function
	.section	.text.deerlapse_key_derivation,"ax",@progbits
	.type	"deerlapse_0_1_0_v3::sha2::block256::Core256::update",@function # -- Begin function sha2::block256::Core256::update
"deerlapse_0_1_0_v3::sha2::block256::Core256::update":      # @"deerlapse_0_1_0_v3::sha2::block256::Core256::update"
	.cfi_startproc
# %bb.0:                                # %start
	pushq	%rbp
	.cfi_def_cfa_offset 16
	pushq	%r15
	.cfi_def_cfa_offset 24
	pushq	%r14
	.cfi_def_cfa_offset 32
	pushq	%r13
	.cfi_def_cfa_offset 40
	pushq	%r12
	.cfi_def_cfa_offset 48
	pushq	%rbx
	.cfi_def_cfa_offset 56
	pushq	%rax
	.cfi_def_cfa_offset 64
	.cfi_offset %rbx, -56
	.cfi_offset %r12, -48
	.cfi_offset %r13, -40
	.cfi_offset %r14, -32
	.cfi_offset %r15, -24
	.cfi_offset %rbp, -16
	movq	%rdx, %rbx
	movq	%rsi, %r14
	movq	%rdi, %r15
	movq	96(%rdi), %rax
	leaq	(%rax,%rdx), %rcx
	movq	%rcx, 96(%rdi)
	andq	$63, %rax
	je	.Ldeerlapse_0_1_0_v3_BB4_1
# %bb.6:                                # %then.1
	movl	$64, %ebp
	subq	%rax, %rbp
	leaq	(%r15,%rax), %rdi
	addq	$32, %rdi
	movq	%rdi, %rax
	subq	%r14, %rax
	cmpq	%rbp, %rbx
	jae	.Ldeerlapse_0_1_0_v3_BB4_7
# %bb.2:                                # %then.4
	cmpq	%rbx, %rax
	jae	.Ldeerlapse_0_1_0_v3_BB4_18
# %bb.3:                                # %join.7.i.i.i.i.i.i.preheader
	xorl	%eax, %eax
.Ldeerlapse_0_1_0_v3_BB4_4:                                # %join.7.i.i.i.i.i.i
                                        # =>This Inner Loop Header: Depth=1
	movb	(%r14,%rax), %cl
	movb	%cl, (%rdi,%rax)
	incq	%rax
	cmpq	%rax, %rbx
	jne	.Ldeerlapse_0_1_0_v3_BB4_4
	jmp	.Ldeerlapse_0_1_0_v3_BB4_5
.Ldeerlapse_0_1_0_v3_BB4_1:
	xorl	%ebp, %ebp
	jmp	.Ldeerlapse_0_1_0_v3_BB4_11
.Ldeerlapse_0_1_0_v3_BB4_7:                                # %join.6
	leaq	32(%r15), %r13
	cmpq	%rbp, %rax
	jae	.Ldeerlapse_0_1_0_v3_BB4_19
# %bb.8:                                # %join.7.i.i.i.i.i.i37.preheader
	xorl	%eax, %eax
.Ldeerlapse_0_1_0_v3_BB4_9:                                # %join.7.i.i.i.i.i.i37
                                        # =>This Inner Loop Header: Depth=1
	movb	(%r14,%rax), %cl
	movb	%cl, (%rdi,%rax)
	incq	%rax
	cmpq	%rax, %rbp
	jne	.Ldeerlapse_0_1_0_v3_BB4_9
	jmp	.Ldeerlapse_0_1_0_v3_BB4_10
.Ldeerlapse_0_1_0_v3_BB4_19:                               # %apart.2.i.i.i.i.i.i36
	movq	%r14, %rsi
	movq	%rbp, %rdx
	callq	memmove@PLT
.Ldeerlapse_0_1_0_v3_BB4_10:                               # %"core::slice::edits::slice+T::copy_from_slice::<i8,20'core::clone::U8Clone{}>.exit44"
	movq	%r15, %rdi
	movq	%r13, %rsi
	callq	"deerlapse_0_1_0_v3::sha2::block256::compress"
.Ldeerlapse_0_1_0_v3_BB4_11:                               # %join.3
	movq	%rbx, %r12
	movq	%rbp, (%rsp)                    # 8-byte Spill
	subq	%rbp, %r12
	movq	%r12, %rbp
	shrq	$6, %rbp
	je	.Ldeerlapse_0_1_0_v3_BB4_14
# %bb.12:                               # %join.11.lr.ph
	movq	(%rsp), %rax                    # 8-byte Reload
	leaq	(%r14,%rax), %r13
.Ldeerlapse_0_1_0_v3_BB4_13:                               # %join.11
                                        # =>This Inner Loop Header: Depth=1
	movq	%r15, %rdi
	movq	%r13, %rsi
	callq	"deerlapse_0_1_0_v3::sha2::block256::compress"
	addq	$64, %r13
	decq	%rbp
	jne	.Ldeerlapse_0_1_0_v3_BB4_13
.Ldeerlapse_0_1_0_v3_BB4_14:                               # %after.7
	andq	$-64, %r12
	addq	(%rsp), %r12                    # 8-byte Folded Reload
	addq	%r12, %r14
	subq	%r12, %rbx
	addq	$32, %r15
	movq	%r15, %rax
	subq	%r14, %rax
	cmpq	%rbx, %rax
	jae	.Ldeerlapse_0_1_0_v3_BB4_17
# %bb.15:                               # %join.7.i.i.i.i.i.i50.preheader
	xorl	%eax, %eax
.Ldeerlapse_0_1_0_v3_BB4_16:                               # %join.7.i.i.i.i.i.i50
                                        # =>This Inner Loop Header: Depth=1
	movb	(%r14,%rax), %cl
	movb	%cl, (%r15,%rax)
	incq	%rax
	cmpq	%rax, %rbx
	jne	.Ldeerlapse_0_1_0_v3_BB4_16
.Ldeerlapse_0_1_0_v3_BB4_5:                                # %common.ret
	addq	$8, %rsp
	.cfi_def_cfa_offset 56
	popq	%rbx
	.cfi_def_cfa_offset 48
	popq	%r12
	.cfi_def_cfa_offset 40
	popq	%r13
	.cfi_def_cfa_offset 32
	popq	%r14
	.cfi_def_cfa_offset 24
	popq	%r15
	.cfi_def_cfa_offset 16
	popq	%rbp
	.cfi_def_cfa_offset 8
	retq
.Ldeerlapse_0_1_0_v3_BB4_17:                               # %apart.2.i.i.i.i.i.i49
	.cfi_def_cfa_offset 64
	movq	%r15, %rdi
.Ldeerlapse_0_1_0_v3_BB4_18:                               # %apart.2.i.i.i.i.i.i
	movq	%r14, %rsi
	movq	%rbx, %rdx
	addq	$8, %rsp
	.cfi_def_cfa_offset 56
	popq	%rbx
	.cfi_def_cfa_offset 48
	popq	%r12
	.cfi_def_cfa_offset 40
	popq	%r13
	.cfi_def_cfa_offset 32
	popq	%r14
	.cfi_def_cfa_offset 24
	popq	%r15
	.cfi_def_cfa_offset 16
	popq	%rbp
	.cfi_def_cfa_offset 8
	jmp	memmove@PLT                     # TAILCALL
.Ldeerlapse_0_1_0_v3_func_end4:
	.size	"deerlapse_0_1_0_v3::sha2::block256::Core256::update", .Ldeerlapse_0_1_0_v3_func_end4-"deerlapse_0_1_0_v3::sha2::block256::Core256::update"
	.cfi_endproc
                                        # -- End function
	.section	.rodata.cst32,"aM",@progbits,32
	.p2align	5, 0x0                          # -- Begin function sha2::block256::compress
.Ldeerlapse_0_1_0_v3_CPI5_0:
	.byte	3                               # 0x3
	.byte	2                               # 0x2
	.byte	1                               # 0x1
	.byte	0                               # 0x0
	.byte	7                               # 0x7
	.byte	6                               # 0x6
	.byte	5                               # 0x5
	.byte	4                               # 0x4
	.byte	11                              # 0xb
	.byte	10                              # 0xa
	.byte	9                               # 0x9
	.byte	8                               # 0x8
	.byte	15                              # 0xf
	.byte	14                              # 0xe
	.byte	13                              # 0xd
	.byte	12                              # 0xc
	.byte	3                               # 0x3
	.byte	2                               # 0x2
	.byte	1                               # 0x1
	.byte	0                               # 0x0
	.byte	7                               # 0x7
	.byte	6                               # 0x6
	.byte	5                               # 0x5
	.byte	4                               # 0x4
	.byte	11                              # 0xb
	.byte	10                              # 0xa
	.byte	9                               # 0x9
	.byte	8                               # 0x8
	.byte	15                              # 0xf
	.byte	14                              # 0xe
	.byte	13                              # 0xd
	.byte	12                              # 0xc
	.section	.text.deerlapse_key_derivation,"ax",@progbits
	.type	"deerlapse_0_1_0_v3::sha2::block256::compress",@function
"deerlapse_0_1_0_v3::sha2::block256::compress":             # @"deerlapse_0_1_0_v3::sha2::block256::compress"
	.cfi_startproc
# %bb.0:                                # %start
	pushq	%rbp
	.cfi_def_cfa_offset 16
	pushq	%r15
	.cfi_def_cfa_offset 24
	pushq	%r14
	.cfi_def_cfa_offset 32
	pushq	%r13
	.cfi_def_cfa_offset 40
	pushq	%r12
	.cfi_def_cfa_offset 48
	pushq	%rbx
	.cfi_def_cfa_offset 56
	subq	$56, %rsp
	.cfi_def_cfa_offset 112
	.cfi_offset %rbx, -56
	.cfi_offset %r12, -48
	.cfi_offset %r13, -40
	.cfi_offset %r14, -32
	.cfi_offset %r15, -24
	.cfi_offset %rbp, -16
	vpxor	%xmm0, %xmm0, %xmm0
	vmovdqu	%ymm0, 16(%rsp)
	movq	%rdi, -48(%rsp)                 # 8-byte Spill
	vmovdqu	%ymm0, -16(%rsp)
	xorl	%eax, %eax
.Ldeerlapse_0_1_0_v3_BB5_1:                                # %vector.body
                                        # =>This Inner Loop Header: Depth=1
	vmovdqu	(%rsi,%rax,4), %ymm0
	vpshufb	.Ldeerlapse_0_1_0_v3_CPI5_0(%rip), %ymm0, %ymm0    # ymm0 = ymm0[3,2,1,0,7,6,5,4,11,10,9,8,15,14,13,12,19,18,17,16,23,22,21,20,27,26,25,24,31,30,29,28]
	vmovdqu	%ymm0, -16(%rsp,%rax,4)
	addq	$8, %rax
	cmpq	$16, %rax
	jne	.Ldeerlapse_0_1_0_v3_BB5_1
# %bb.2:                                # %after.3
	movq	-48(%rsp), %r14                 # 8-byte Reload
	movl	8(%r14), %ecx
	movl	(%r14), %eax
	movl	4(%r14), %edx
	movl	20(%r14), %r8d
	movl	24(%r14), %r9d
	movl	16(%r14), %edi
	rorxl	$14, %edi, %esi
	xorl	%edi, %esi
	rorxl	$5, %esi, %esi
	xorl	%edi, %esi
	rorxl	$6, %esi, %esi
	andnl	%r9d, %edi, %r10d
	movl	%r8d, %r11d
	andl	%edi, %r11d
	orl	%r10d, %r11d
	movl	-16(%rsp), %ebx
	movl	-12(%rsp), %r15d
	movl	28(%r14), %r10d
	movl	%ebx, -56(%rsp)                 # 4-byte Spill
	addl	%ebx, %r10d
	addl	%esi, %r10d
	leal	(%r10,%r11), %esi
	addl	$1116352408, %esi               # imm = 0x428A2F98
	rorxl	$9, %eax, %r10d
	xorl	%eax, %r10d
	rorxl	$11, %r10d, %r10d
	xorl	%eax, %r10d
	rorxl	$2, %r10d, %ebx
	movl	%edx, %r10d
	xorl	%eax, %r10d
	andnl	%edx, %r10d, %ebp
	movl	%ecx, %r11d
	andl	%r10d, %r11d
	orl	%ebp, %r11d
	addl	%ebx, %r11d
	addl	%esi, %r11d
	addl	12(%r14), %esi
	rorxl	$14, %esi, %ebx
	xorl	%esi, %ebx
	rorxl	$5, %ebx, %ebx
	xorl	%esi, %ebx
	rorxl	$6, %ebx, %ebx
	andnl	%r8d, %esi, %ebp
	movl	%edi, %r14d
	andl	%esi, %r14d
	orl	%ebp, %r14d
	movl	%r15d, -60(%rsp)                # 4-byte Spill
	addl	%r15d, %r9d
	addl	%r14d, %r9d
	movl	%r9d, %r14d
	addl	%ebx, %r9d
	addl	%r14d, %ebx
	addl	$1899447441, %ebx               # imm = 0x71374491
	rorxl	$9, %r11d, %ebp
	xorl	%r11d, %ebp
	rorxl	$11, %ebp, %ebp
	xorl	%r11d, %ebp
	rorxl	$2, %ebp, %ebp
	movl	%r11d, %r14d
	xorl	%eax, %r14d
	andl	%r14d, %r10d
	xorl	%eax, %r10d
	addl	%ebp, %r10d
	addl	%ebx, %r10d
	leal	(%rcx,%r9), %ebx
	addl	$1899447441, %ebx               # imm = 0x71374491
	movl	-8(%rsp), %r15d
	rorxl	$14, %ebx, %ecx
	xorl	%ebx, %ecx
	rorxl	$5, %ecx, %ecx
	xorl	%ebx, %ecx
	rorxl	$6, %ecx, %ecx
	andnl	%edi, %ebx, %r9d
	movl	%esi, %ebp
	andl	%ebx, %ebp
	orl	%r9d, %ebp
	movl	%r15d, -64(%rsp)                # 4-byte Spill
	addl	%r15d, %r8d
	addl	%ebp, %r8d
	movl	%r8d, %r9d
	addl	%ecx, %r8d
	addl	%ecx, %r9d
	addl	$-1245643825, %r9d              # imm = 0xB5C0FBCF
	rorxl	$9, %r10d, %ecx
	xorl	%r10d, %ecx
	rorxl	$11, %ecx, %ecx
	xorl	%r10d, %ecx
	rorxl	$2, %ecx, %ebp
	movl	%r10d, %ecx
	xorl	%r11d, %ecx
	andl	%ecx, %r14d
	xorl	%r11d, %r14d
	addl	%ebp, %r14d
	addl	%r9d, %r14d
	addl	%edx, %r8d
	addl	$-1245643825, %r8d              # imm = 0xB5C0FBCF
	movl	-4(%rsp), %ebp
	andnl	%esi, %r8d, %edx
	movl	%ebx, %r9d
	andl	%r8d, %r9d
	orl	%edx, %r9d
	rorxl	$14, %r8d, %edx
	xorl	%r8d, %edx
	rorxl	$5, %edx, %edx
	xorl	%r8d, %edx
	rorxl	$6, %edx, %edx
	movl	%ebp, -68(%rsp)                 # 4-byte Spill
	addl	%ebp, %edi
	addl	%r9d, %edi
	movl	%edi, %r9d
	addl	%edx, %edi
	addl	%edx, %r9d
	addl	$-373957723, %r9d               # imm = 0xE9B5DBA5
	rorxl	$9, %r14d, %edx
	xorl	%r14d, %edx
	rorxl	$11, %edx, %edx
	xorl	%r14d, %edx
	rorxl	$2, %edx, %ebp
	movl	%r14d, %edx
	xorl	%r10d, %edx
	andl	%edx, %ecx
	xorl	%r10d, %ecx
	addl	%ebp, %ecx
	addl	%r9d, %ecx
	addl	%edi, %eax
	addl	$-373957723, %eax               # imm = 0xE9B5DBA5
	andnl	%ebx, %eax, %edi
	movl	%r8d, %r9d
	andl	%eax, %r9d
	orl	%edi, %r9d
	movl	(%rsp), %edi
	movl	%edi, -72(%rsp)                 # 4-byte Spill
	addl	%edi, %esi
	addl	%r9d, %esi
	rorxl	$14, %eax, %edi
	xorl	%eax, %edi
	rorxl	$5, %edi, %edi
	xorl	%eax, %edi
	rorxl	$6, %edi, %edi
	addl	%esi, %edi
	addl	$961987163, %edi                # imm = 0x3956C25B
	rorxl	$9, %ecx, %esi
	xorl	%ecx, %esi
	rorxl	$11, %esi, %esi
	xorl	%ecx, %esi
	rorxl	$2, %esi, %r9d
	movl	%ecx, %esi
	xorl	%r14d, %esi
	andl	%esi, %edx
	xorl	%r14d, %edx
	addl	%r9d, %edx
	addl	%edi, %edx
	addl	%edi, %r11d
	movl	%eax, %edi
	andl	%r11d, %edi
	andnl	%r8d, %r11d, %r9d
	orl	%r9d, %edi
	movl	4(%rsp), %r9d
	movl	%r9d, -76(%rsp)                 # 4-byte Spill
	addl	%r9d, %ebx
	addl	%edi, %ebx
	rorxl	$14, %r11d, %edi
	xorl	%r11d, %edi
	rorxl	$5, %edi, %edi
	xorl	%r11d, %edi
	rorxl	$6, %edi, %edi
	leal	(%rdi,%rbx), %r9d
	addl	$1508970993, %r9d               # imm = 0x59F111F1
	rorxl	$9, %edx, %edi
	xorl	%edx, %edi
	rorxl	$11, %edi, %edi
	xorl	%edx, %edi
	rorxl	$2, %edi, %ebx
	movl	%edx, %edi
	xorl	%ecx, %edi
	andl	%edi, %esi
	xorl	%ecx, %esi
	addl	%ebx, %esi
	addl	%r9d, %esi
	addl	%r9d, %r10d
	movl	%r11d, %r9d
	andl	%r10d, %r9d
	andnl	%eax, %r10d, %ebx
	orl	%ebx, %r9d
	movl	8(%rsp), %ebx
	movl	%ebx, -84(%rsp)                 # 4-byte Spill
	addl	%ebx, %r8d
	addl	%r9d, %r8d
	rorxl	$14, %r10d, %r9d
	xorl	%r10d, %r9d
	rorxl	$5, %r9d, %r9d
	xorl	%r10d, %r9d
	rorxl	$6, %r9d, %r9d
	addl	%r8d, %r9d
	addl	$-1841331548, %r9d              # imm = 0x923F82A4
	rorxl	$9, %esi, %r8d
	xorl	%esi, %r8d
	rorxl	$11, %r8d, %r8d
	xorl	%esi, %r8d
	rorxl	$2, %r8d, %ebx
	movl	%esi, %r8d
	xorl	%edx, %r8d
	andl	%r8d, %edi
	xorl	%edx, %edi
	addl	%ebx, %edi
	addl	%r9d, %edi
	addl	%r9d, %r14d
	movl	%r10d, %r9d
	andl	%r14d, %r9d
	andnl	%r11d, %r14d, %ebx
	orl	%ebx, %r9d
	movl	12(%rsp), %ebx
	movl	%ebx, -80(%rsp)                 # 4-byte Spill
	addl	%ebx, %eax
	addl	%r9d, %eax
	rorxl	$14, %r14d, %r9d
	xorl	%r14d, %r9d
	rorxl	$5, %r9d, %r9d
	xorl	%r14d, %r9d
	rorxl	$6, %r9d, %r9d
	addl	%r9d, %eax
	addl	$-1424204075, %eax              # imm = 0xAB1C5ED5
	rorxl	$9, %edi, %r9d
	xorl	%edi, %r9d
	rorxl	$11, %r9d, %r9d
	xorl	%edi, %r9d
	rorxl	$2, %r9d, %ebx
	movl	%edi, %r9d
	xorl	%esi, %r9d
	andl	%r9d, %r8d
	xorl	%esi, %r8d
	addl	%ebx, %r8d
	addl	%eax, %r8d
	addl	%eax, %ecx
	movl	%r14d, %eax
	andl	%ecx, %eax
	andnl	%r10d, %ecx, %ebx
	orl	%ebx, %eax
	movl	16(%rsp), %ebx
	movl	%ebx, -52(%rsp)                 # 4-byte Spill
	addl	%ebx, %r11d
	addl	%eax, %r11d
	rorxl	$14, %ecx, %eax
	xorl	%ecx, %eax
	rorxl	$5, %eax, %eax
	xorl	%ecx, %eax
	rorxl	$6, %eax, %eax
	addl	%r11d, %eax
	addl	$-670586216, %eax               # imm = 0xD807AA98
	rorxl	$9, %r8d, %r11d
	xorl	%r8d, %r11d
	rorxl	$11, %r11d, %r11d
	xorl	%r8d, %r11d
	rorxl	$2, %r11d, %r11d
	movl	%r8d, %ebx
	xorl	%edi, %ebx
	andl	%ebx, %r9d
	xorl	%edi, %r9d
	addl	%r11d, %r9d
	addl	%eax, %r9d
	addl	%eax, %edx
	movl	%ecx, %eax
	andl	%edx, %eax
	andnl	%r14d, %edx, %r11d
	orl	%r11d, %eax
	movl	20(%rsp), %ebp
	addl	%ebp, %r10d
	addl	%eax, %r10d
	rorxl	$14, %edx, %eax
	xorl	%edx, %eax
	rorxl	$5, %eax, %eax
	xorl	%edx, %eax
	rorxl	$6, %eax, %eax
	addl	%r10d, %eax
	addl	$310598401, %eax                # imm = 0x12835B01
	rorxl	$9, %r9d, %r10d
	xorl	%r9d, %r10d
	rorxl	$11, %r10d, %r10d
	xorl	%r9d, %r10d
	rorxl	$2, %r10d, %r10d
	movl	%r9d, %r11d
	xorl	%r8d, %r11d
	andl	%r11d, %ebx
	xorl	%r8d, %ebx
	addl	%r10d, %ebx
	addl	%eax, %ebx
	addl	%eax, %esi
	movl	%edx, %eax
	andl	%esi, %eax
	andnl	%ecx, %esi, %r10d
	orl	%r10d, %eax
	movl	24(%rsp), %r10d
	movl	%r10d, -108(%rsp)               # 4-byte Spill
	addl	%r10d, %r14d
	addl	%eax, %r14d
	rorxl	$14, %esi, %eax
	xorl	%esi, %eax
	rorxl	$5, %eax, %eax
	xorl	%esi, %eax
	rorxl	$6, %eax, %eax
	addl	%r14d, %eax
	addl	$607225278, %eax                # imm = 0x243185BE
	rorxl	$9, %ebx, %r10d
	xorl	%ebx, %r10d
	rorxl	$11, %r10d, %r10d
	xorl	%ebx, %r10d
	rorxl	$2, %r10d, %r10d
	movl	%ebx, %r12d
	xorl	%r9d, %r12d
	andl	%r12d, %r11d
	xorl	%r9d, %r11d
	addl	%r10d, %r11d
	addl	%eax, %r11d
	addl	%eax, %edi
	movl	%esi, %eax
	andl	%edi, %eax
	andnl	%edx, %edi, %r10d
	orl	%r10d, %eax
	movl	28(%rsp), %r10d
	movl	%r10d, -104(%rsp)               # 4-byte Spill
	addl	%r10d, %ecx
	addl	%eax, %ecx
	rorxl	$14, %edi, %eax
	xorl	%edi, %eax
	rorxl	$5, %eax, %eax
	xorl	%edi, %eax
	rorxl	$6, %eax, %eax
	addl	%ecx, %eax
	addl	$1426881987, %eax               # imm = 0x550C7DC3
	rorxl	$9, %r11d, %ecx
	xorl	%r11d, %ecx
	rorxl	$11, %ecx, %ecx
	xorl	%r11d, %ecx
	rorxl	$2, %ecx, %ecx
	movl	%r11d, %r10d
	xorl	%ebx, %r10d
	andl	%r10d, %r12d
	xorl	%ebx, %r12d
	addl	%ecx, %r12d
	addl	%eax, %r12d
	addl	%eax, %r8d
	movl	%edi, %eax
	andl	%r8d, %eax
	andnl	%esi, %r8d, %ecx
	orl	%ecx, %eax
	movl	32(%rsp), %ecx
	movl	%ecx, -100(%rsp)                # 4-byte Spill
	addl	%ecx, %edx
	addl	%eax, %edx
	rorxl	$14, %r8d, %eax
	xorl	%r8d, %eax
	rorxl	$5, %eax, %eax
	xorl	%r8d, %eax
	rorxl	$6, %eax, %eax
	leal	(%rax,%rdx), %ecx
	addl	$1925078388, %ecx               # imm = 0x72BE5D74
	rorxl	$9, %r12d, %eax
	xorl	%r12d, %eax
	rorxl	$11, %eax, %eax
	xorl	%r12d, %eax
	rorxl	$2, %eax, %edx
	movl	%r12d, %eax
	xorl	%r11d, %eax
	andl	%eax, %r10d
	xorl	%r11d, %r10d
	addl	%edx, %r10d
	addl	%ecx, %r10d
	addl	%ecx, %r9d
	movl	%r8d, %ecx
	andl	%r9d, %ecx
	andnl	%edi, %r9d, %edx
	orl	%edx, %ecx
	movl	36(%rsp), %edx
	movl	%edx, -116(%rsp)                # 4-byte Spill
	addl	%edx, %esi
	addl	%ecx, %esi
	rorxl	$14, %r9d, %ecx
	xorl	%r9d, %ecx
	rorxl	$5, %ecx, %ecx
	xorl	%r9d, %ecx
	rorxl	$6, %ecx, %ecx
	addl	%esi, %ecx
	addl	$-2132889090, %ecx              # imm = 0x80DEB1FE
	rorxl	$9, %r10d, %edx
	xorl	%r10d, %edx
	rorxl	$11, %edx, %edx
	xorl	%r10d, %edx
	rorxl	$2, %edx, %edx
	movl	%r10d, %r15d
	xorl	%r12d, %r15d
	andl	%r15d, %eax
	xorl	%r12d, %eax
	addl	%edx, %eax
	addl	%ecx, %eax
	addl	%ecx, %ebx
	movl	%r9d, %ecx
	andl	%ebx, %ecx
	andnl	%r8d, %ebx, %edx
	orl	%edx, %ecx
	movl	40(%rsp), %r14d
	addl	%r14d, %edi
	addl	%ecx, %edi
	rorxl	$14, %ebx, %ecx
	xorl	%ebx, %ecx
	rorxl	$5, %ecx, %ecx
	xorl	%ebx, %ecx
	rorxl	$6, %ecx, %ecx
	leal	(%rcx,%rdi), %edx
	addl	$-1680079193, %edx              # imm = 0x9BDC06A7
	rorxl	$9, %eax, %ecx
	xorl	%eax, %ecx
	rorxl	$11, %ecx, %ecx
	xorl	%eax, %ecx
	rorxl	$2, %ecx, %esi
	movl	%eax, %ecx
	xorl	%r10d, %ecx
	andl	%ecx, %r15d
	xorl	%r10d, %r15d
	addl	%esi, %r15d
	addl	%edx, %r15d
	addl	%edx, %r11d
	movl	%ebx, %edx
	andl	%r11d, %edx
	andnl	%r9d, %r11d, %esi
	orl	%esi, %edx
	movl	44(%rsp), %esi
	movl	%esi, -112(%rsp)                # 4-byte Spill
	addl	%esi, %r8d
	addl	%edx, %r8d
	rorxl	$14, %r11d, %edx
	xorl	%r11d, %edx
	rorxl	$5, %edx, %edx
	xorl	%r11d, %edx
	rorxl	$6, %edx, %edx
	addl	%r8d, %edx
	addl	$-1046744716, %edx              # imm = 0xC19BF174
	movl	%r15d, %esi
	andl	%ecx, %esi
	andnl	%eax, %ecx, %r13d
	orl	%esi, %r13d
	rorxl	$9, %r15d, %ecx
	xorl	%r15d, %ecx
	rorxl	$11, %ecx, %ecx
	xorl	%r15d, %ecx
	rorxl	$2, %ecx, %ecx
	addl	%ecx, %r13d
	addl	%edx, %r13d
	addl	%edx, %r12d
	movl	%r14d, %edx
	movq	-48(%rsp), %rcx                 # 8-byte Reload
	vmovdqu	(%rcx), %xmm1
	vmovdqu	16(%rcx), %xmm0
	xorl	%r8d, %r8d
.Ldeerlapse_0_1_0_v3_BB5_3:                                # %join.12
                                        # =>This Inner Loop Header: Depth=1
	movl	%ebp, -20(%rsp)                 # 4-byte Spill
	movq	%r8, -128(%rsp)                 # 8-byte Spill
	rorxl	$2, %edx, %ecx
	xorl	%edx, %ecx
	rorxl	$17, %ecx, %ecx
	movl	%edx, -96(%rsp)                 # 4-byte Spill
	shrl	$10, %edx
	xorl	%ecx, %edx
	movl	-60(%rsp), %r14d                # 4-byte Reload
	rorxl	$11, %r14d, %ecx
	xorl	%r14d, %ecx
	rorxl	$7, %ecx, %ecx
	movl	%r14d, %esi
	shrl	$3, %esi
	xorl	%ecx, %esi
	movl	-56(%rsp), %edi                 # 4-byte Reload
	addl	%ebp, %edi
	addl	%edx, %edi
	addl	%esi, %edi
	movl	%r11d, %ebp
	andl	%r12d, %ebp
	andnl	%ebx, %r12d, %ecx
	orl	%ecx, %ebp
	addl	%r9d, %ebp
	rorxl	$14, %r12d, %ecx
	xorl	%r12d, %ecx
	rorxl	$5, %ecx, %ecx
	xorl	%r12d, %ecx
	rorxl	$6, %ecx, %ecx
	addl	%ecx, %ebp
	movl	%r15d, %esi
	xorl	%r13d, %esi
	movl	%eax, %r9d
	andl	%esi, %r9d
	andnl	%r15d, %esi, %ecx
	orl	%ecx, %r9d
	rorxl	$9, %r13d, %ecx
	xorl	%r13d, %ecx
	rorxl	$11, %ecx, %ecx
	xorl	%r13d, %ecx
	rorxl	$2, %ecx, %ecx
	addl	%ecx, %r9d
	leaq	.Ldeerlapse_0_1_0_v3_static.1(%rip), %rcx
	addl	64(%r8,%rcx), %ebp
	addl	%edi, %ebp
	addl	%ebp, %r9d
	addl	%r10d, %ebp
	movl	-112(%rsp), %edx                # 4-byte Reload
	rorxl	$2, %edx, %ecx
	xorl	%edx, %ecx
	rorxl	$17, %ecx, %ecx
	shrl	$10, %edx
	xorl	%ecx, %edx
	movl	-64(%rsp), %r10d                # 4-byte Reload
	rorxl	$11, %r10d, %ecx
	xorl	%r10d, %ecx
	rorxl	$7, %ecx, %ecx
	movl	%r10d, %r8d
	shrl	$3, %r8d
	xorl	%ecx, %r8d
	addl	-108(%rsp), %r14d               # 4-byte Folded Reload
	addl	%edx, %r14d
	addl	%r8d, %r14d
	movl	%r12d, %ecx
	andl	%ebp, %ecx
	movq	-128(%rsp), %rdx                # 8-byte Reload
	leaq	.Ldeerlapse_0_1_0_v3_static.1(%rip), %r8
	addl	68(%rdx,%r8), %ebx
	andnl	%r11d, %ebp, %edx
	orl	%edx, %ecx
	addl	%r14d, %ebx
	addl	%ecx, %ebx
	rorxl	$14, %ebp, %ecx
	xorl	%ebp, %ecx
	rorxl	$5, %ecx, %ecx
	xorl	%ebp, %ecx
	rorxl	$6, %ecx, %ecx
	addl	%ecx, %ebx
	rorxl	$9, %r9d, %ecx
	xorl	%r9d, %ecx
	rorxl	$11, %ecx, %ecx
	xorl	%r9d, %ecx
	rorxl	$2, %ecx, %ecx
	movl	%r9d, %r8d
	xorl	%r13d, %r8d
	andl	%r8d, %esi
	xorl	%r13d, %esi
	addl	%ecx, %esi
	addl	%ebx, %esi
	addl	%eax, %ebx
	movl	%edi, -56(%rsp)                 # 4-byte Spill
	rorxl	$2, %edi, %eax
	xorl	%edi, %eax
	rorxl	$17, %eax, %eax
	movl	%edi, %ecx
	shrl	$10, %ecx
	xorl	%eax, %ecx
	movl	-68(%rsp), %edi                 # 4-byte Reload
	rorxl	$11, %edi, %eax
	xorl	%edi, %eax
	rorxl	$7, %eax, %eax
	movl	%edi, %edx
	shrl	$3, %edx
	xorl	%eax, %edx
	addl	-104(%rsp), %r10d               # 4-byte Folded Reload
	addl	%edx, %r10d
	addl	%ecx, %r10d
	movl	%ebp, %eax
	andl	%ebx, %eax
	andnl	%r12d, %ebx, %ecx
	orl	%ecx, %eax
	movq	-128(%rsp), %rcx                # 8-byte Reload
	leaq	.Ldeerlapse_0_1_0_v3_static.1(%rip), %rdx
	addl	72(%rcx,%rdx), %r11d
	addl	%r10d, %r11d
	addl	%eax, %r11d
	rorxl	$14, %ebx, %eax
	xorl	%ebx, %eax
	rorxl	$5, %eax, %eax
	xorl	%ebx, %eax
	rorxl	$6, %eax, %eax
	addl	%eax, %r11d
	movl	%esi, -92(%rsp)                 # 4-byte Spill
	rorxl	$9, %esi, %eax
	xorl	%esi, %eax
	rorxl	$11, %eax, %eax
	xorl	%esi, %eax
	rorxl	$2, %eax, %eax
	xorl	%r9d, %esi
	andl	%esi, %r8d
	xorl	%r9d, %r8d
	addl	%eax, %r8d
	addl	%r11d, %r8d
	addl	%r15d, %r11d
	movl	%r14d, -60(%rsp)                # 4-byte Spill
	rorxl	$2, %r14d, %eax
	xorl	%r14d, %eax
	rorxl	$17, %eax, %eax
	movl	%r14d, %ecx
	shrl	$10, %ecx
	xorl	%eax, %ecx
	movl	-72(%rsp), %r14d                # 4-byte Reload
	rorxl	$11, %r14d, %eax
	xorl	%r14d, %eax
	rorxl	$7, %eax, %eax
	movl	%r14d, %edx
	shrl	$3, %edx
	xorl	%eax, %edx
	addl	-100(%rsp), %edi                # 4-byte Folded Reload
	addl	%edx, %edi
	addl	%ecx, %edi
	movl	%ebx, %eax
	andl	%r11d, %eax
	andnl	%ebp, %r11d, %ecx
	orl	%ecx, %eax
	movq	-128(%rsp), %rcx                # 8-byte Reload
	leaq	.Ldeerlapse_0_1_0_v3_static.1(%rip), %rdx
	addl	76(%rcx,%rdx), %r12d
	addl	%edi, %r12d
	addl	%eax, %r12d
	rorxl	$14, %r11d, %eax
	xorl	%r11d, %eax
	rorxl	$5, %eax, %eax
	xorl	%r11d, %eax
	rorxl	$6, %eax, %eax
	addl	%eax, %r12d
	rorxl	$9, %r8d, %eax
	xorl	%r8d, %eax
	rorxl	$11, %eax, %eax
	xorl	%r8d, %eax
	rorxl	$2, %eax, %eax
	movl	%r8d, %edx
	movl	-92(%rsp), %ecx                 # 4-byte Reload
	xorl	%ecx, %edx
	andl	%edx, %esi
	xorl	%ecx, %esi
	addl	%eax, %esi
	addl	%r12d, %esi
	addl	%r13d, %r12d
	movl	%r10d, %ecx
	movl	%r10d, -64(%rsp)                # 4-byte Spill
	rorxl	$2, %r10d, %eax
	xorl	%r10d, %eax
	rorxl	$17, %eax, %eax
	shrl	$10, %ecx
	xorl	%eax, %ecx
	movl	-76(%rsp), %r15d                # 4-byte Reload
	rorxl	$11, %r15d, %eax
	xorl	%r15d, %eax
	rorxl	$7, %eax, %eax
	movl	%r15d, %r10d
	shrl	$3, %r10d
	xorl	%eax, %r10d
	addl	-116(%rsp), %r14d               # 4-byte Folded Reload
	addl	%r10d, %r14d
	addl	%ecx, %r14d
	movl	%r11d, %eax
	andl	%r12d, %eax
	andnl	%ebx, %r12d, %ecx
	orl	%ecx, %eax
	movq	-128(%rsp), %rcx                # 8-byte Reload
	leaq	.Ldeerlapse_0_1_0_v3_static.1(%rip), %r10
	addl	80(%rcx,%r10), %ebp
	addl	%r14d, %ebp
	addl	%eax, %ebp
	rorxl	$14, %r12d, %eax
	xorl	%r12d, %eax
	rorxl	$5, %eax, %eax
	xorl	%r12d, %eax
	rorxl	$6, %eax, %eax
	addl	%eax, %ebp
	movl	%esi, %r13d
	rorxl	$9, %esi, %eax
	xorl	%esi, %eax
	rorxl	$11, %eax, %eax
	xorl	%esi, %eax
	rorxl	$2, %eax, %eax
	xorl	%r8d, %esi
	andl	%esi, %edx
	xorl	%r8d, %edx
	addl	%eax, %edx
	addl	%ebp, %edx
	addl	%r9d, %ebp
	movl	%edi, -68(%rsp)                 # 4-byte Spill
	rorxl	$2, %edi, %eax
	xorl	%edi, %eax
	rorxl	$17, %eax, %eax
	movl	%edi, %ecx
	shrl	$10, %ecx
	xorl	%eax, %ecx
	movl	-84(%rsp), %edi                 # 4-byte Reload
	rorxl	$11, %edi, %eax
	xorl	%edi, %eax
	rorxl	$7, %eax, %eax
	movl	%edi, %r9d
	shrl	$3, %r9d
	xorl	%eax, %r9d
	addl	-96(%rsp), %r15d                # 4-byte Folded Reload
	addl	%r9d, %r15d
	addl	%ecx, %r15d
	movl	%r12d, %eax
	andl	%ebp, %eax
	movq	-128(%rsp), %rcx                # 8-byte Reload
	addl	84(%rcx,%r10), %ebx
	andnl	%r11d, %ebp, %ecx
	orl	%ecx, %eax
	addl	%r15d, %ebx
	addl	%eax, %ebx
	rorxl	$14, %ebp, %eax
	xorl	%ebp, %eax
	rorxl	$5, %eax, %eax
	xorl	%ebp, %eax
	movl	%ebp, -28(%rsp)                 # 4-byte Spill
	rorxl	$6, %eax, %eax
	addl	%eax, %ebx
	rorxl	$9, %edx, %eax
	xorl	%edx, %eax
	rorxl	$11, %eax, %eax
	xorl	%edx, %eax
	rorxl	$2, %eax, %eax
	movl	%edx, %r10d
	movl	%r13d, -24(%rsp)                # 4-byte Spill
	xorl	%r13d, %r10d
	andl	%r10d, %esi
	xorl	%r13d, %esi
	addl	%eax, %esi
	addl	%ebx, %esi
	movl	%esi, %r9d
	addl	-92(%rsp), %ebx                 # 4-byte Folded Reload
	movl	%r14d, -72(%rsp)                # 4-byte Spill
	rorxl	$2, %r14d, %eax
	xorl	%r14d, %eax
	rorxl	$17, %eax, %eax
	movl	%r14d, %ecx
	shrl	$10, %ecx
	xorl	%eax, %ecx
	movl	-80(%rsp), %r13d                # 4-byte Reload
	rorxl	$11, %r13d, %eax
	xorl	%r13d, %eax
	rorxl	$7, %eax, %eax
	movl	%r13d, %esi
	shrl	$3, %esi
	xorl	%eax, %esi
	movl	-112(%rsp), %r14d               # 4-byte Reload
	addl	%r14d, %edi
	addl	%esi, %edi
	addl	%ecx, %edi
	movl	%edi, -84(%rsp)                 # 4-byte Spill
	andl	%ebx, %ebp
	andnl	%r12d, %ebx, %ecx
	orl	%ecx, %ebp
	movq	-128(%rsp), %rcx                # 8-byte Reload
	leaq	.Ldeerlapse_0_1_0_v3_static.1(%rip), %rsi
	addl	88(%rcx,%rsi), %r11d
	addl	%edi, %r11d
	addl	%ebp, %r11d
	rorxl	$14, %ebx, %eax
	xorl	%ebx, %eax
	rorxl	$5, %eax, %eax
	xorl	%ebx, %eax
	rorxl	$6, %eax, %eax
	addl	%eax, %r11d
	movl	%r9d, -88(%rsp)                 # 4-byte Spill
	rorxl	$9, %r9d, %eax
	xorl	%r9d, %eax
	rorxl	$11, %eax, %eax
	xorl	%r9d, %eax
	rorxl	$2, %eax, %eax
	movl	%edx, -32(%rsp)                 # 4-byte Spill
	xorl	%edx, %r9d
	movl	%r9d, -92(%rsp)                 # 4-byte Spill
	andl	%r9d, %r10d
	xorl	%edx, %r10d
	addl	%eax, %r10d
	addl	%r11d, %r10d
	movl	%r10d, %edi
	addl	%r8d, %r11d
	movl	%r15d, -76(%rsp)                # 4-byte Spill
	rorxl	$2, %r15d, %eax
	xorl	%r15d, %eax
	rorxl	$17, %eax, %eax
	movl	%r15d, %r8d
	shrl	$10, %r8d
	xorl	%eax, %r8d
	movl	-56(%rsp), %esi                 # 4-byte Reload
	rorxl	$11, %esi, %eax
	xorl	%esi, %eax
	rorxl	$7, %eax, %eax
	movl	%esi, %edx
	shrl	$3, %edx
	xorl	%eax, %edx
	rorxl	$11, %r14d, %eax
	xorl	%r14d, %eax
	addl	%r14d, %edx
	movl	%edx, -36(%rsp)                 # 4-byte Spill
	movl	%r14d, %edx
	rorxl	$7, %eax, %eax
	shrl	$3, %edx
	xorl	%eax, %edx
	movl	-96(%rsp), %ecx                 # 4-byte Reload
	rorxl	$11, %ecx, %eax
	xorl	%ecx, %eax
	addl	%ecx, %edx
	movl	%edx, -112(%rsp)                # 4-byte Spill
	movl	%ecx, %edx
	rorxl	$7, %eax, %eax
	shrl	$3, %edx
	xorl	%eax, %edx
	movl	-116(%rsp), %ecx                # 4-byte Reload
	rorxl	$11, %ecx, %eax
	xorl	%ecx, %eax
	rorxl	$7, %eax, %eax
	addl	%ecx, %edx
	movl	%edx, -96(%rsp)                 # 4-byte Spill
	movl	%ecx, %edx
	shrl	$3, %edx
	xorl	%eax, %edx
	movl	-100(%rsp), %r15d               # 4-byte Reload
	rorxl	$11, %r15d, %eax
	xorl	%r15d, %eax
	rorxl	$7, %eax, %eax
	addl	%r15d, %edx
	movl	%edx, -116(%rsp)                # 4-byte Spill
	shrl	$3, %r15d
	xorl	%eax, %r15d
	movl	-104(%rsp), %r9d                # 4-byte Reload
	rorxl	$11, %r9d, %eax
	xorl	%r9d, %eax
	rorxl	$7, %eax, %eax
	addl	%r9d, %r15d
	shrl	$3, %r9d
	xorl	%eax, %r9d
	movl	-108(%rsp), %edx                # 4-byte Reload
	rorxl	$11, %edx, %eax
	xorl	%edx, %eax
	rorxl	$7, %eax, %eax
	addl	%edx, %r9d
	shrl	$3, %edx
	xorl	%eax, %edx
	movl	-20(%rsp), %r10d                # 4-byte Reload
	rorxl	$11, %r10d, %eax
	xorl	%r10d, %eax
	rorxl	$7, %eax, %eax
	addl	%r10d, %edx
	shrl	$3, %r10d
	xorl	%eax, %r10d
	movl	-52(%rsp), %ecx                 # 4-byte Reload
	rorxl	$11, %ecx, %eax
	xorl	%ecx, %eax
	rorxl	$7, %eax, %eax
	addl	%ecx, %r10d
	shrl	$3, %ecx
	xorl	%eax, %ecx
	movl	%r13d, %ebp
	addl	%esi, %ebp
	addl	%ecx, %ebp
	addl	%r8d, %ebp
	movl	%ebx, %ecx
	andl	%r11d, %ecx
	movl	-28(%rsp), %r13d                # 4-byte Reload
	andnl	%r13d, %r11d, %eax
	orl	%eax, %ecx
	movq	-128(%rsp), %rax                # 8-byte Reload
	leaq	.Ldeerlapse_0_1_0_v3_static.1(%rip), %r8
	movl	92(%rax,%r8), %eax
	addl	%ebp, %eax
	addl	%r12d, %eax
	addl	%ecx, %eax
	rorxl	$14, %r11d, %ecx
	xorl	%r11d, %ecx
	rorxl	$5, %ecx, %ecx
	xorl	%r11d, %ecx
	rorxl	$6, %ecx, %ecx
	addl	%ecx, %eax
	movl	%edi, %r12d
	movl	%edi, -40(%rsp)                 # 4-byte Spill
	rorxl	$9, %edi, %ecx
	xorl	%edi, %ecx
	rorxl	$11, %ecx, %ecx
	xorl	%edi, %ecx
	rorxl	$2, %ecx, %ecx
	movl	-88(%rsp), %esi                 # 4-byte Reload
	xorl	%esi, %r12d
	movl	-92(%rsp), %r14d                # 4-byte Reload
	andl	%r12d, %r14d
	xorl	%esi, %r14d
	addl	%ecx, %r14d
	addl	%eax, %r14d
	addl	-24(%rsp), %eax                 # 4-byte Folded Reload
	movl	-84(%rsp), %esi                 # 4-byte Reload
	rorxl	$2, %esi, %ecx
	xorl	%esi, %ecx
	rorxl	$17, %ecx, %ecx
	shrl	$10, %esi
	xorl	%ecx, %esi
	addl	-60(%rsp), %r10d                # 4-byte Folded Reload
	addl	%esi, %r10d
	movl	%r11d, %esi
	andl	%eax, %esi
	andnl	%ebx, %eax, %ecx
	orl	%ecx, %esi
	movq	-128(%rsp), %rcx                # 8-byte Reload
	movl	96(%rcx,%r8), %ecx
	addl	%r10d, %ecx
	addl	%r13d, %ecx
	addl	%esi, %ecx
	rorxl	$14, %eax, %esi
	xorl	%eax, %esi
	rorxl	$5, %esi, %esi
	xorl	%eax, %esi
	rorxl	$6, %esi, %esi
	addl	%esi, %ecx
	movl	%ebp, %edi
	movl	%ebp, -80(%rsp)                 # 4-byte Spill
	rorxl	$2, %ebp, %esi
	xorl	%ebp, %esi
	rorxl	$17, %esi, %esi
	shrl	$10, %edi
	xorl	%esi, %edi
	addl	-64(%rsp), %edx                 # 4-byte Folded Reload
	addl	%edi, %edx
	movl	%edx, -100(%rsp)                # 4-byte Spill
	movq	-128(%rsp), %rsi                # 8-byte Reload
	movl	100(%rsi,%r8), %esi
	movq	%r8, %r13
	addl	%edx, %esi
	addl	%ebx, %esi
	rorxl	$9, %r14d, %edi
	xorl	%r14d, %edi
	rorxl	$11, %edi, %edi
	xorl	%r14d, %edi
	rorxl	$2, %edi, %edi
	movl	%r14d, %ebx
	movl	-40(%rsp), %r8d                 # 4-byte Reload
	xorl	%r8d, %ebx
	andl	%ebx, %r12d
	xorl	%r8d, %r12d
	addl	%edi, %r12d
	addl	%ecx, %r12d
	addl	-32(%rsp), %ecx                 # 4-byte Folded Reload
	movl	%eax, %edx
	andl	%ecx, %edx
	andnl	%r11d, %ecx, %edi
	orl	%edi, %edx
	addl	%edx, %esi
	rorxl	$14, %ecx, %edx
	xorl	%ecx, %edx
	rorxl	$5, %edx, %edx
	xorl	%ecx, %edx
	rorxl	$6, %edx, %edx
	addl	%edx, %esi
	movl	%r10d, -108(%rsp)               # 4-byte Spill
	rorxl	$2, %r10d, %edx
	xorl	%r10d, %edx
	rorxl	$17, %edx, %edx
	shrl	$10, %r10d
	xorl	%edx, %r10d
	addl	-68(%rsp), %r9d                 # 4-byte Folded Reload
	addl	%r10d, %r9d
	movl	%r9d, -104(%rsp)                # 4-byte Spill
	movq	-128(%rsp), %rdx                # 8-byte Reload
	movq	%r13, %r10
	movl	104(%rdx,%r13), %r13d
	addl	%r9d, %r13d
	addl	%r11d, %r13d
	rorxl	$9, %r12d, %edx
	xorl	%r12d, %edx
	rorxl	$11, %edx, %edx
	xorl	%r12d, %edx
	rorxl	$2, %edx, %edx
	movl	%r12d, %ebp
	xorl	%r14d, %ebp
	andl	%ebp, %ebx
	xorl	%r14d, %ebx
	addl	%edx, %ebx
	addl	%esi, %ebx
	addl	-88(%rsp), %esi                 # 4-byte Folded Reload
	movl	%ecx, %edx
	andl	%esi, %edx
	andnl	%eax, %esi, %edi
	orl	%edi, %edx
	addl	%edx, %r13d
	rorxl	$14, %esi, %edx
	xorl	%esi, %edx
	rorxl	$5, %edx, %edx
	xorl	%esi, %edx
	rorxl	$6, %edx, %edx
	addl	%edx, %r13d
	rorxl	$9, %ebx, %edx
	xorl	%ebx, %edx
	rorxl	$11, %edx, %edx
	xorl	%ebx, %edx
	rorxl	$2, %edx, %edx
	movl	%ebx, %edi
	xorl	%r12d, %edi
	andl	%edi, %ebp
	xorl	%r12d, %ebp
	addl	%edx, %ebp
	addl	%r13d, %ebp
	addl	%r8d, %r13d
	movl	-100(%rsp), %r8d                # 4-byte Reload
	rorxl	$2, %r8d, %edx
	xorl	%r8d, %edx
	rorxl	$17, %edx, %edx
	shrl	$10, %r8d
	xorl	%edx, %r8d
	addl	-72(%rsp), %r15d                # 4-byte Folded Reload
	addl	%r8d, %r15d
	movl	%esi, %r8d
	andl	%r13d, %r8d
	andnl	%ecx, %r13d, %edx
	orl	%edx, %r8d
	movq	-128(%rsp), %rdx                # 8-byte Reload
	movl	108(%rdx,%r10), %edx
	movq	%r10, %r9
	addl	%r15d, %edx
	addl	%eax, %edx
	addl	%r8d, %edx
	rorxl	$14, %r13d, %eax
	xorl	%r13d, %eax
	rorxl	$5, %eax, %eax
	xorl	%r13d, %eax
	rorxl	$6, %eax, %eax
	addl	%eax, %edx
	rorxl	$9, %ebp, %eax
	xorl	%ebp, %eax
	rorxl	$11, %eax, %eax
	xorl	%ebp, %eax
	rorxl	$2, %eax, %eax
	movl	%ebp, %r10d
	xorl	%ebx, %r10d
	andl	%r10d, %edi
	xorl	%ebx, %edi
	addl	%eax, %edi
	addl	%edx, %edi
	addl	%r14d, %edx
	movl	-104(%rsp), %r8d                # 4-byte Reload
	rorxl	$2, %r8d, %eax
	xorl	%r8d, %eax
	rorxl	$17, %eax, %eax
	shrl	$10, %r8d
	xorl	%eax, %r8d
	movl	-116(%rsp), %r11d               # 4-byte Reload
	addl	-76(%rsp), %r11d                # 4-byte Folded Reload
	addl	%r8d, %r11d
	movl	%r13d, %eax
	andl	%edx, %eax
	andnl	%esi, %edx, %r8d
	orl	%r8d, %eax
	movq	-128(%rsp), %r8                 # 8-byte Reload
	movl	112(%r8,%r9), %r9d
	addl	%r11d, %r9d
	addl	%ecx, %r9d
	addl	%eax, %r9d
	rorxl	$14, %edx, %eax
	xorl	%edx, %eax
	rorxl	$5, %eax, %eax
	xorl	%edx, %eax
	rorxl	$6, %eax, %eax
	addl	%eax, %r9d
	rorxl	$9, %edi, %eax
	xorl	%edi, %eax
	rorxl	$11, %eax, %eax
	xorl	%edi, %eax
	rorxl	$2, %eax, %eax
	movl	%edi, %ecx
	xorl	%ebp, %ecx
	andl	%ecx, %r10d
	xorl	%ebp, %r10d
	addl	%eax, %r10d
	movl	%r15d, -88(%rsp)                # 4-byte Spill
	rorxl	$2, %r15d, %eax
	xorl	%r15d, %eax
	rorxl	$17, %eax, %eax
	shrl	$10, %r15d
	xorl	%eax, %r15d
	movl	-96(%rsp), %r14d                # 4-byte Reload
	addl	-84(%rsp), %r14d                # 4-byte Folded Reload
	addl	%r15d, %r14d
	movl	%r14d, -96(%rsp)                # 4-byte Spill
	movq	-128(%rsp), %rax                # 8-byte Reload
	leaq	.Ldeerlapse_0_1_0_v3_static.1(%rip), %r8
	movl	116(%rax,%r8), %r8d
	addl	%r14d, %r8d
	addl	%esi, %r8d
	rorxl	$2, %r11d, %eax
	xorl	%r11d, %eax
	movl	%r11d, %esi
	movl	%r11d, -116(%rsp)               # 4-byte Spill
	rorxl	$17, %eax, %eax
	shrl	$10, %esi
	xorl	%eax, %esi
	movl	-112(%rsp), %r11d               # 4-byte Reload
	addl	-80(%rsp), %r11d                # 4-byte Folded Reload
	addl	%esi, %r11d
	movl	%r11d, -112(%rsp)               # 4-byte Spill
	rorxl	$2, %r14d, %eax
	xorl	%r14d, %eax
	rorxl	$17, %eax, %eax
	movl	%r14d, %esi
	shrl	$10, %esi
	xorl	%eax, %esi
	movl	-36(%rsp), %r14d                # 4-byte Reload
	addl	-108(%rsp), %r14d               # 4-byte Folded Reload
	addl	%esi, %r14d
	addl	%r9d, %r10d
	rorxl	$9, %r10d, %eax
	xorl	%r10d, %eax
	rorxl	$11, %eax, %eax
	xorl	%r10d, %eax
	rorxl	$2, %eax, %eax
	movl	%r10d, %r15d
	xorl	%edi, %r15d
	andl	%r15d, %ecx
	xorl	%edi, %ecx
	addl	%eax, %ecx
	addl	%r12d, %r9d
	movq	-128(%rsp), %rax                # 8-byte Reload
	leaq	.Ldeerlapse_0_1_0_v3_static.1(%rip), %rsi
	movl	120(%rax,%rsi), %esi
	addl	%r11d, %esi
	addl	%r13d, %esi
	andnl	%r13d, %r9d, %r12d
	movl	%edx, %eax
	andl	%r9d, %eax
	orl	%r12d, %eax
	addl	%r8d, %eax
	rorxl	$14, %r9d, %r8d
	xorl	%r9d, %r8d
	rorxl	$5, %r8d, %r8d
	xorl	%r9d, %r8d
	rorxl	$6, %r8d, %r8d
	addl	%r8d, %eax
	movq	-128(%rsp), %r8                 # 8-byte Reload
	leaq	.Ldeerlapse_0_1_0_v3_static.1(%rip), %r11
	movl	124(%r8,%r11), %r8d
	addl	%r14d, %r8d
	addl	%edx, %r8d
	addl	%eax, %ebx
	andnl	%edx, %ebx, %r12d
	movl	%r9d, %edx
	andl	%ebx, %edx
	orl	%r12d, %edx
	addl	%esi, %edx
	rorxl	$14, %ebx, %esi
	xorl	%ebx, %esi
	rorxl	$5, %esi, %esi
	xorl	%ebx, %esi
	rorxl	$6, %esi, %esi
	addl	%esi, %edx
	movl	%ebp, %r11d
	addl	%edx, %r11d
	movl	%ebx, %r12d
	andl	%r11d, %r12d
	andnl	%r9d, %r11d, %esi
	orl	%esi, %r12d
	addl	%r8d, %r12d
	movq	-128(%rsp), %r8                 # 8-byte Reload
	rorxl	$14, %r11d, %esi
	xorl	%r11d, %esi
	rorxl	$5, %esi, %esi
	xorl	%r11d, %esi
	rorxl	$6, %esi, %esi
	addl	%esi, %r12d
	addl	%ecx, %eax
	rorxl	$9, %eax, %ecx
	xorl	%eax, %ecx
	rorxl	$11, %ecx, %ecx
	xorl	%eax, %ecx
	rorxl	$2, %ecx, %ecx
	movl	%eax, %esi
	xorl	%r10d, %esi
	andl	%esi, %r15d
	xorl	%r10d, %r15d
	addl	%ecx, %r15d
	addl	%edx, %r15d
	movl	%r15d, %ecx
	andl	%esi, %ecx
	andnl	%eax, %esi, %r13d
	orl	%ecx, %r13d
	rorxl	$9, %r15d, %ecx
	xorl	%r15d, %ecx
	rorxl	$11, %ecx, %ecx
	xorl	%r15d, %ecx
	rorxl	$2, %ecx, %ecx
	addl	%ecx, %r13d
	addl	%r12d, %r13d
	addl	%edi, %r12d
	movl	-108(%rsp), %ecx                # 4-byte Reload
	movl	%ecx, -52(%rsp)                 # 4-byte Spill
	movl	-100(%rsp), %ebp                # 4-byte Reload
	movl	-104(%rsp), %ecx                # 4-byte Reload
	movl	%ecx, -108(%rsp)                # 4-byte Spill
	movl	-88(%rsp), %ecx                 # 4-byte Reload
	movl	%ecx, -104(%rsp)                # 4-byte Spill
	movl	-116(%rsp), %ecx                # 4-byte Reload
	movl	%ecx, -100(%rsp)                # 4-byte Spill
	movl	-96(%rsp), %ecx                 # 4-byte Reload
	movl	%ecx, -116(%rsp)                # 4-byte Spill
	addq	$64, %r8
	movl	-112(%rsp), %edx                # 4-byte Reload
	movl	%r14d, -112(%rsp)               # 4-byte Spill
	cmpq	$192, %r8
	jne	.Ldeerlapse_0_1_0_v3_BB5_3
# %bb.4:                                # %after.8
	vmovd	%r13d, %xmm2
	vpinsrd	$1, %r15d, %xmm2, %xmm2
	vpinsrd	$2, %eax, %xmm2, %xmm2
	vpinsrd	$3, %r10d, %xmm2, %xmm2
	vmovd	%r12d, %xmm3
	vpinsrd	$1, %r11d, %xmm3, %xmm3
	vpinsrd	$2, %ebx, %xmm3, %xmm3
	vpaddd	%xmm1, %xmm2, %xmm1
	vpinsrd	$3, %r9d, %xmm3, %xmm2
	vpaddd	%xmm0, %xmm2, %xmm0
	movq	-48(%rsp), %rax                 # 8-byte Reload
	vmovdqu	%xmm1, (%rax)
	vmovdqu	%xmm0, 16(%rax)
	addq	$56, %rsp
	.cfi_def_cfa_offset 56
	popq	%rbx
	.cfi_def_cfa_offset 48
	popq	%r12
	.cfi_def_cfa_offset 40
	popq	%r13
	.cfi_def_cfa_offset 32
	popq	%r14
	.cfi_def_cfa_offset 24
	popq	%r15
	.cfi_def_cfa_offset 16
	popq	%rbp
	.cfi_def_cfa_offset 8
	vzeroupper
	retq
.Ldeerlapse_0_1_0_v3_func_end5:
	.size	"deerlapse_0_1_0_v3::sha2::block256::compress", .Ldeerlapse_0_1_0_v3_func_end5-"deerlapse_0_1_0_v3::sha2::block256::compress"
	.cfi_endproc
                                        # -- End function
	.section	.rodata.cst32,"aM",@progbits,32
	.p2align	5, 0x0                          # -- Begin function key_derivation::hmac::absorb_xored::<#7cab53feae2e1c66>
.Ldeerlapse_0_1_0_v3_CPI6_0:
	.long	1779033703                      # 0x6a09e667
	.long	3144134277                      # 0xbb67ae85
	.long	1013904242                      # 0x3c6ef372
	.long	2773480762                      # 0xa54ff53a
	.long	1359893119                      # 0x510e527f
	.long	2600822924                      # 0x9b05688c
	.long	528734635                       # 0x1f83d9ab
	.long	1541459225                      # 0x5be0cd19
	.section	.text.deerlapse_key_derivation,"ax",@progbits
	.type	"deerlapse_0_1_0_v3::key_derivation::hmac::absorb_xored::<#7cab53feae2e1c66>",@function
"deerlapse_0_1_0_v3::key_derivation::hmac::absorb_xored::<#7cab53feae2e1c66>": # @"deerlapse_0_1_0_v3::key_derivation::hmac::absorb_xored::<#7cab53feae2e1c66>"
	.cfi_startproc
# %bb.0:                                # %start
	pushq	%r14
	.cfi_def_cfa_offset 16
	pushq	%rbx
	.cfi_def_cfa_offset 24
	subq	$232, %rsp
	.cfi_def_cfa_offset 256
	.cfi_offset %rbx, -24
	.cfi_offset %r14, -16
	vxorps	%xmm0, %xmm0, %xmm0
	vmovups	%ymm0, 96(%rsp)
	vmovups	%ymm0, 64(%rsp)
	vmovups	%ymm0, 32(%rsp)
	vmovups	%ymm0, (%rsp)
	movq	%rdi, %rbx
	vmovd	%edx, %xmm0
	vpbroadcastb	%xmm0, %ymm0
	xorl	%eax, %eax
.Ldeerlapse_0_1_0_v3_BB6_1:                                # %vector.body
                                        # =>This Inner Loop Header: Depth=1
	vpxor	(%rsi,%rax), %ymm0, %ymm1
	vmovdqu	%ymm1, (%rsp,%rax)
	addq	$32, %rax
	cmpq	$64, %rax
	jne	.Ldeerlapse_0_1_0_v3_BB6_1
# %bb.2:                                # %after.1
	vmovaps	.Ldeerlapse_0_1_0_v3_CPI6_0(%rip), %ymm0           # ymm0 = [1779033703,3144134277,1013904242,2773480762,1359893119,2600822924,528734635,1541459225]
	leaq	128(%rsp), %r14
	vmovups	%ymm0, (%r14)
	vxorps	%xmm0, %xmm0, %xmm0
	vmovups	%ymm0, 32(%r14)
	vmovups	%ymm0, 64(%r14)
	movq	$0, 96(%r14)
	movq	%rsp, %rsi
	movl	$64, %edx
	movq	%r14, %rdi
	vzeroupper
	callq	"deerlapse_0_1_0_v3::sha2::block256::Core256::update"
	movq	96(%r14), %rax
	movq	%rax, 96(%rbx)
	vmovups	(%r14), %ymm0
	vmovups	32(%r14), %ymm1
	vmovups	64(%r14), %ymm2
	vmovups	%ymm2, 64(%rbx)
	vmovups	%ymm1, 32(%rbx)
	vmovups	%ymm0, (%rbx)
	addq	$232, %rsp
	.cfi_def_cfa_offset 24
	popq	%rbx
	.cfi_def_cfa_offset 16
	popq	%r14
	.cfi_def_cfa_offset 8
	vzeroupper
	retq
.Ldeerlapse_0_1_0_v3_func_end6:
	.size	"deerlapse_0_1_0_v3::key_derivation::hmac::absorb_xored::<#7cab53feae2e1c66>", .Ldeerlapse_0_1_0_v3_func_end6-"deerlapse_0_1_0_v3::key_derivation::hmac::absorb_xored::<#7cab53feae2e1c66>"
	.cfi_endproc
                                        # -- End function
	.section	.text.deerlapse_key_derivation,"ax",@progbits
	.type	"deerlapse_0_1_0_v3::key_derivation::hmac::HmacKey::finish::<#7cab53feae2e1c66>",@function # -- Begin function key_derivation::hmac::HmacKey::finish::<#7cab53feae2e1c66>
"deerlapse_0_1_0_v3::key_derivation::hmac::HmacKey::finish::<#7cab53feae2e1c66>": # @"deerlapse_0_1_0_v3::key_derivation::hmac::HmacKey::finish::<#7cab53feae2e1c66>"
	.cfi_startproc
# %bb.0:                                # %start
	pushq	%r15
	.cfi_def_cfa_offset 16
	pushq	%r14
	.cfi_def_cfa_offset 24
	pushq	%r12
	.cfi_def_cfa_offset 32
	pushq	%rbx
	.cfi_def_cfa_offset 40
	subq	$584, %rsp                      # imm = 0x248
	.cfi_def_cfa_offset 624
	.cfi_offset %rbx, -40
	.cfi_offset %r12, -32
	.cfi_offset %r14, -24
	.cfi_offset %r15, -16
	vxorps	%xmm0, %xmm0, %xmm0
	leaq	32(%rsp), %rbx
	vmovups	%ymm0, (%rbx)
	movq	%rsp, %r14
	vmovups	%ymm0, (%r14)
	vmovups	104(%rsi), %ymm0
	vmovups	%ymm0, 64(%rsp)
	vmovups	136(%rsi), %ymm1
	vmovups	168(%rsi), %ymm2
	vmovups	%ymm1, 96(%rsp)
	vmovups	%ymm2, 128(%rsp)
	movq	200(%rsi), %rax
	leaq	272(%rsp), %r12
	vmovups	%ymm2, 64(%r12)
	vmovups	%ymm0, (%r12)
	movq	%rdi, %r15
	vmovups	%ymm1, 32(%r12)
	movq	%rax, 96(%r12)
	movq	96(%rdx), %rax
	leaq	160(%rsp), %rsi
	movq	%rax, 96(%rsi)
	vmovups	(%rdx), %ymm0
	vmovups	32(%rdx), %ymm1
	vmovups	64(%rdx), %ymm2
	vmovups	%ymm2, 64(%rsi)
	vmovups	%ymm1, 32(%rsi)
	vmovups	%ymm0, (%rsi)
	movq	%r14, %rdi
	vzeroupper
	callq	"deerlapse_0_1_0_v3::sha2::Sha256Digest::finalize"
	movl	$32, %edx
	movq	%r12, %rdi
	movq	%r14, %rsi
	callq	"deerlapse_0_1_0_v3::sha2::block256::Core256::update"
	movq	%rbx, %rdi
	movq	%r12, %rsi
	callq	"deerlapse_0_1_0_v3::sha2::Sha256Digest::finalize"
	vmovups	(%rbx), %ymm0
	vmovups	%ymm0, (%r15)
	addq	$584, %rsp                      # imm = 0x248
	.cfi_def_cfa_offset 40
	popq	%rbx
	.cfi_def_cfa_offset 32
	popq	%r12
	.cfi_def_cfa_offset 24
	popq	%r14
	.cfi_def_cfa_offset 16
	popq	%r15
	.cfi_def_cfa_offset 8
	vzeroupper
	retq
.Ldeerlapse_0_1_0_v3_func_end7:
	.size	"deerlapse_0_1_0_v3::key_derivation::hmac::HmacKey::finish::<#7cab53feae2e1c66>", .Ldeerlapse_0_1_0_v3_func_end7-"deerlapse_0_1_0_v3::key_derivation::hmac::HmacKey::finish::<#7cab53feae2e1c66>"
	.cfi_endproc
                                        # -- End function
	.section	.rodata.cst32,"aM",@progbits,32
	.p2align	5, 0x0                          # -- Begin function key_derivation::hmac::HmacKey::new::<#01e4f4eb65b1d8bb>
.Ldeerlapse_0_1_0_v3_CPI8_0:
	.quad	-3766243637369397544            # 0xcbbb9d5dc1059ed8
	.quad	7105036623409894663             # 0x629a292a367cd507
	.quad	-7973340178411365097            # 0x9159015a3070dd17
	.quad	1526699215303891257             # 0x152fecd8f70e5939
.Ldeerlapse_0_1_0_v3_CPI8_1:
	.quad	7436329637833083697             # 0x67332667ffc00b31
	.quad	-8163818279084223215            # 0x8eb44a8768581511
	.quad	-2662702644619276377            # 0xdb0c2e0d64f98fa7
	.quad	5167115440072839076             # 0x47b5481dbefa4fa4
	.section	.text.deerlapse_key_derivation,"ax",@progbits
	.type	"deerlapse_0_1_0_v3::key_derivation::hmac::HmacKey::new::<#01e4f4eb65b1d8bb>",@function
"deerlapse_0_1_0_v3::key_derivation::hmac::HmacKey::new::<#01e4f4eb65b1d8bb>": # @"deerlapse_0_1_0_v3::key_derivation::hmac::HmacKey::new::<#01e4f4eb65b1d8bb>"
	.cfi_startproc
# %bb.0:                                # %start
	pushq	%r15
	.cfi_def_cfa_offset 16
	pushq	%r14
	.cfi_def_cfa_offset 24
	pushq	%r13
	.cfi_def_cfa_offset 32
	pushq	%r12
	.cfi_def_cfa_offset 40
	pushq	%rbx
	.cfi_def_cfa_offset 48
	subq	$1344, %rsp                     # imm = 0x540
	.cfi_def_cfa_offset 1392
	.cfi_offset %rbx, -48
	.cfi_offset %r12, -40
	.cfi_offset %r13, -32
	.cfi_offset %r14, -24
	.cfi_offset %r15, -16
	movq	%rdx, %r14
	movq	%rsi, %r15
	movq	%rdi, %rbx
	leaq	720(%rsp), %rdi
	movl	$416, %edx                      # imm = 0x1A0
	xorl	%esi, %esi
	callq	memset@PLT
	vxorps	%xmm0, %xmm0, %xmm0
	vmovups	%ymm0, 128(%rsp)
	vmovups	%ymm0, 160(%rsp)
	vmovups	%ymm0, 192(%rsp)
	vmovups	%ymm0, 224(%rsp)
	vmovups	%ymm0, 464(%rsp)
	vmovups	%ymm0, 496(%rsp)
	vmovups	%ymm0, 528(%rsp)
	vmovups	%ymm0, 560(%rsp)
	vmovups	%ymm0, 592(%rsp)
	vmovups	%ymm0, 624(%rsp)
	vmovups	%ymm0, 640(%rsp)
	vmovups	%ymm0, 256(%rsp)
	vmovups	%ymm0, 288(%rsp)
	vmovups	%ymm0, 320(%rsp)
	vmovups	%ymm0, 352(%rsp)
	vmovups	%ymm0, 384(%rsp)
	vmovups	%ymm0, 416(%rsp)
	vmovups	%ymm0, 432(%rsp)
	vmovups	%ymm0, 96(%rsp)
	vmovups	%ymm0, 64(%rsp)
	vmovups	%ymm0, 32(%rsp)
	vmovups	%ymm0, (%rsp)
	cmpq	$129, %r14
	jb	.Ldeerlapse_0_1_0_v3_BB8_2
# %bb.1:                                # %then.1.i
	leaq	672(%rsp), %r12
	vmovups	%ymm0, (%r12)
	vmovups	%ymm0, 16(%r12)
	leaq	1136(%rsp), %r13
	vmovups	%ymm0, 64(%r13)
	vmovups	%ymm0, 96(%r13)
	vmovups	%ymm0, 128(%r13)
	vmovups	%ymm0, 160(%r13)
	vmovups	%ymm0, 176(%r13)
	vmovaps	.Ldeerlapse_0_1_0_v3_CPI8_0(%rip), %ymm0           # ymm0 = [14680500436340154072,7105036623409894663,10473403895298186519,1526699215303891257]
	vmovups	%ymm0, (%r13)
	vmovaps	.Ldeerlapse_0_1_0_v3_CPI8_1(%rip), %ymm0           # ymm0 = [7436329637833083697,10282925794625328401,15784041429090275239,5167115440072839076]
	vmovups	%ymm0, 32(%r13)
	movq	%r13, %rdi
	movq	%r15, %rsi
	movq	%r14, %rdx
	vzeroupper
	callq	"deerlapse_0_1_0_v3::sha2::block512::Core512::update"
	movq	%r12, %rdi
	movq	%r13, %rsi
	callq	"deerlapse_0_1_0_v3::sha2::Sha384Digest::finalize"
	vmovups	(%r12), %ymm0
	vmovups	16(%r12), %ymm1
	vmovups	%ymm0, (%rsp)
	vmovups	%ymm1, 16(%rsp)
	jmp	.Ldeerlapse_0_1_0_v3_BB8_3
.Ldeerlapse_0_1_0_v3_BB8_2:                                # %else.2.i
	movq	%rsp, %rdi
	movq	%r15, %rsi
	movq	%r14, %rdx
	vzeroupper
	callq	memcpy@PLT
.Ldeerlapse_0_1_0_v3_BB8_3:                                # %"key_derivation::hmac::key_block::<#01e4f4eb65b1d8bb>.exit"
	vmovups	(%rsp), %ymm0
	vmovups	32(%rsp), %ymm1
	vmovups	64(%rsp), %ymm2
	vmovups	96(%rsp), %ymm3
	leaq	128(%rsp), %r14
	vmovups	%ymm3, 96(%r14)
	vmovups	%ymm2, 64(%r14)
	vmovups	%ymm1, 32(%r14)
	vmovups	%ymm0, (%r14)
	leaq	464(%rsp), %r15
	movq	%r15, %rdi
	movq	%r14, %rsi
	movl	$54, %edx
	vzeroupper
	callq	"deerlapse_0_1_0_v3::key_derivation::hmac::absorb_xored::<#01e4f4eb65b1d8bb>"
	leaq	256(%rsp), %r12
	movq	%r12, %rdi
	movq	%r14, %rsi
	movl	$92, %edx
	callq	"deerlapse_0_1_0_v3::key_derivation::hmac::absorb_xored::<#01e4f4eb65b1d8bb>"
	leaq	720(%rsp), %r14
	movl	$208, %edx
	movq	%r14, %rdi
	movq	%r15, %rsi
	callq	memcpy@PLT
	leaq	928(%rsp), %rdi
	movl	$208, %edx
	movq	%r12, %rsi
	callq	memcpy@PLT
	movl	$416, %edx                      # imm = 0x1A0
	movq	%rbx, %rdi
	movq	%r14, %rsi
	callq	memcpy@PLT
	addq	$1344, %rsp                     # imm = 0x540
	.cfi_def_cfa_offset 48
	popq	%rbx
	.cfi_def_cfa_offset 40
	popq	%r12
	.cfi_def_cfa_offset 32
	popq	%r13
	.cfi_def_cfa_offset 24
	popq	%r14
	.cfi_def_cfa_offset 16
	popq	%r15
	.cfi_def_cfa_offset 8
	retq
.Ldeerlapse_0_1_0_v3_func_end8:
	.size	"deerlapse_0_1_0_v3::key_derivation::hmac::HmacKey::new::<#01e4f4eb65b1d8bb>", .Ldeerlapse_0_1_0_v3_func_end8-"deerlapse_0_1_0_v3::key_derivation::hmac::HmacKey::new::<#01e4f4eb65b1d8bb>"
	.cfi_endproc
                                        # -- End function
	.section	.rodata.cst16,"aM",@progbits,16
	.p2align	4, 0x0                          # -- Begin function sha2::Sha384Digest::finalize
.Ldeerlapse_0_1_0_v3_CPI9_0:
	.zero	1
	.zero	1
	.zero	1
	.zero	1
	.zero	1
	.zero	1
	.zero	1
	.zero	1
	.byte	0                               # 0x0
	.byte	8                               # 0x8
	.byte	0                               # 0x0
	.byte	8                               # 0x8
	.zero	1
	.zero	1
	.zero	1
	.zero	1
.Ldeerlapse_0_1_0_v3_CPI9_1:
	.zero	1
	.zero	1
	.zero	1
	.zero	1
	.zero	1
	.zero	1
	.zero	1
	.zero	1
	.zero	1
	.zero	1
	.zero	1
	.zero	1
	.byte	0                               # 0x0
	.byte	8                               # 0x8
	.byte	0                               # 0x0
	.byte	8                               # 0x8
.Ldeerlapse_0_1_0_v3_CPI9_2:
	.zero	1
	.zero	1
	.zero	1
	.zero	1
	.byte	3                               # 0x3
	.byte	2                               # 0x2
	.byte	0                               # 0x0
	.byte	8                               # 0x8
	.zero	1
	.zero	1
	.zero	1
	.zero	1
	.zero	1
	.zero	1
	.zero	1
	.zero	1
.Ldeerlapse_0_1_0_v3_CPI9_3:
	.zero	1
	.zero	1
	.byte	0                               # 0x0
	.byte	8                               # 0x8
	.zero	1
	.zero	1
	.zero	1
	.zero	1
	.zero	1
	.zero	1
	.zero	1
	.zero	1
	.zero	1
	.zero	1
	.zero	1
	.zero	1
	.section	.rodata.cst32,"aM",@progbits,32
	.p2align	5, 0x0
.Ldeerlapse_0_1_0_v3_CPI9_4:
	.byte	7                               # 0x7
	.byte	6                               # 0x6
	.byte	5                               # 0x5
	.byte	4                               # 0x4
	.byte	3                               # 0x3
	.byte	2                               # 0x2
	.byte	1                               # 0x1
	.byte	0                               # 0x0
	.byte	15                              # 0xf
	.byte	14                              # 0xe
	.byte	13                              # 0xd
	.byte	12                              # 0xc
	.byte	11                              # 0xb
	.byte	10                              # 0xa
	.byte	9                               # 0x9
	.byte	8                               # 0x8
	.byte	7                               # 0x7
	.byte	6                               # 0x6
	.byte	5                               # 0x5
	.byte	4                               # 0x4
	.byte	3                               # 0x3
	.byte	2                               # 0x2
	.byte	1                               # 0x1
	.byte	0                               # 0x0
	.byte	15                              # 0xf
	.byte	14                              # 0xe
	.byte	13                              # 0xd
	.byte	12                              # 0xc
	.byte	11                              # 0xb
	.byte	10                              # 0xa
	.byte	9                               # 0x9
	.byte	8                               # 0x8
	.section	.rodata,"a",@progbits
	.p2align	1, 0x0
.Ldeerlapse_0_1_0_v3_CPI9_5:
	.byte	0                               # 0x0
	.byte	8                               # 0x8
	.section	.rodata.cst4,"aM",@progbits,4
	.p2align	2, 0x0
.Ldeerlapse_0_1_0_v3_CPI9_6:
	.byte	3                               # 0x3
	.byte	2                               # 0x2
	.byte	0                               # 0x0
	.byte	8                               # 0x8
	.section	.text.deerlapse_key_derivation,"ax",@progbits
	.type	"deerlapse_0_1_0_v3::sha2::Sha384Digest::finalize",@function
"deerlapse_0_1_0_v3::sha2::Sha384Digest::finalize":         # @"deerlapse_0_1_0_v3::sha2::Sha384Digest::finalize"
	.cfi_startproc
# %bb.0:                                # %start
	pushq	%r15
	.cfi_def_cfa_offset 16
	pushq	%r14
	.cfi_def_cfa_offset 24
	pushq	%r13
	.cfi_def_cfa_offset 32
	pushq	%r12
	.cfi_def_cfa_offset 40
	pushq	%rbx
	.cfi_def_cfa_offset 48
	subq	$416, %rsp                      # imm = 0x1A0
	.cfi_def_cfa_offset 464
	.cfi_offset %rbx, -48
	.cfi_offset %r12, -40
	.cfi_offset %r13, -32
	.cfi_offset %r14, -24
	.cfi_offset %r15, -16
	movq	%rdi, %rbx
	vxorps	%xmm0, %xmm0, %xmm0
	vmovups	%ymm0, 32(%rsp)
	vmovups	%ymm0, (%rsp)
	leaq	208(%rsp), %r14
	movl	$208, %edx
	movq	%r14, %rdi
	vzeroupper
	callq	memcpy@PLT
	movq	192(%r14), %r12
	movq	200(%r14), %r15
	movl	$111, %edx
	subl	%r12d, %edx
	andl	$127, %edx
	incq	%rdx
	leaq	.Ldeerlapse_0_1_0_v3_static.2(%rip), %rsi
	movq	%r14, %rdi
	callq	"deerlapse_0_1_0_v3::sha2::block512::Core512::update"
	leaq	(,%r15,8), %rax
	movq	%r15, %rdi
	shldq	$3, %r12, %rdi
	shlq	$3, %r12
	movq	%rdi, %rcx
	movq	%rdi, %rdx
	movq	%rdi, %r8
	movq	%rdi, %rsi
	movq	%rdi, %r10
	movq	%rdi, %r9
	vmovq	%rdi, %xmm0
	movq	%rdi, %r13
	shldq	$8, %r12, %r13
	shldq	$16, %r12, %rcx
	shldq	$24, %r12, %rdx
	shldq	$32, %r12, %r8
	movq	%rax, %rdi
	movq	%rax, %r11
	shldq	$40, %r12, %rsi
	shldq	$48, %r12, %r10
	shldq	$56, %r12, %r9
	vmovq	%r8, %xmm1
	vmovq	%rdx, %xmm2
	vpunpcklqdq	%xmm1, %xmm2, %xmm1     # xmm1 = xmm2[0],xmm1[0]
	vpbroadcastw	.Ldeerlapse_0_1_0_v3_CPI9_5(%rip), %xmm2   # xmm2 = [0,8,0,8,0,8,0,8,0,8,0,8,0,8,0,8]
	vpshufb	%xmm2, %xmm1, %xmm1
	vmovq	%rcx, %xmm3
	vmovq	%r13, %xmm4
	vpunpcklqdq	%xmm3, %xmm4, %xmm3     # xmm3 = xmm4[0],xmm3[0]
	vpshufb	%xmm2, %xmm3, %xmm2
	vpblendw	$32, %xmm1, %xmm2, %xmm1        # xmm1 = xmm2[0,1,2,3,4],xmm1[5],xmm2[6,7]
	vmovq	%r10, %xmm2
	vmovq	%rsi, %xmm3
	vpunpcklqdq	%xmm2, %xmm3, %xmm2     # xmm2 = xmm3[0],xmm2[0]
	vmovq	%r9, %xmm3
	vmovq	%r12, %xmm4
	vpunpcklqdq	%xmm4, %xmm3, %xmm3     # xmm3 = xmm3[0],xmm4[0]
	vpbroadcastw	.Ldeerlapse_0_1_0_v3_CPI9_5(%rip), %xmm4   # xmm4 = [0,8,0,8,0,8,0,8,0,8,0,8,0,8,0,8]
	vpshufb	%xmm4, %xmm2, %xmm2
	vpshufb	%xmm4, %xmm3, %xmm3
	vmovq	%rax, %xmm4
	shrq	$40, %rax
	shrq	$29, %r15
	shrq	$56, %rdi
	shrq	$48, %r11
	vpblendw	$128, %xmm3, %xmm2, %xmm2       # xmm2 = xmm2[0,1,2,3,4,5,6],xmm3[7]
	vpblendd	$8, %xmm2, %xmm1, %xmm1         # xmm1 = xmm1[0,1,2],xmm2[3]
	vpbroadcastd	.Ldeerlapse_0_1_0_v3_CPI9_6(%rip), %xmm2   # xmm2 = [3,2,0,8,3,2,0,8,3,2,0,8,3,2,0,8]
	vpshufb	%xmm2, %xmm4, %xmm3
	vpsrlq	$8, %xmm4, %xmm4
	vpunpcklqdq	%xmm0, %xmm4, %xmm0     # xmm0 = xmm4[0],xmm0[0]
	vpshufb	%xmm2, %xmm0, %xmm0
	vpblendw	$8, %xmm0, %xmm3, %xmm0         # xmm0 = xmm3[0,1,2],xmm0[3],xmm3[4,5,6,7]
	vmovd	%r11d, %xmm2
	vmovd	%edi, %xmm3
	vpunpcklbw	%xmm2, %xmm3, %xmm2     # xmm2 = xmm3[0],xmm2[0],xmm3[1],xmm2[1],xmm3[2],xmm2[2],xmm3[3],xmm2[3],xmm3[4],xmm2[4],xmm3[5],xmm2[5],xmm3[6],xmm2[6],xmm3[7],xmm2[7]
	vmovd	%r15d, %xmm3
	vmovd	%eax, %xmm4
	vpunpcklqdq	%xmm3, %xmm4, %xmm3     # xmm3 = xmm4[0],xmm3[0]
	vpshufb	.Ldeerlapse_0_1_0_v3_CPI9_3(%rip), %xmm3, %xmm3    # xmm3 = xmm3[u,u,0,8,u,u,u,u,u,u,u,u,u,u,u,u]
	vpblendw	$2, %xmm3, %xmm2, %xmm2         # xmm2 = xmm2[0],xmm3[1],xmm2[2,3,4,5,6,7]
	vpblendd	$2, %xmm0, %xmm2, %xmm0         # xmm0 = xmm2[0],xmm0[1],xmm2[2,3]
	vpblendd	$12, %xmm1, %xmm0, %xmm0        # xmm0 = xmm0[0,1],xmm1[2,3]
	leaq	128(%rsp), %rsi
	vmovdqa	%xmm0, (%rsi)
	movl	$16, %edx
	movq	%r14, %rdi
	callq	"deerlapse_0_1_0_v3::sha2::block512::Core512::update"
	vmovdqu	(%r14), %ymm0
	vmovups	32(%r14), %ymm1
	vmovups	%ymm1, 176(%rsp)
	vmovdqu	%ymm0, 144(%rsp)
	vpxor	%xmm0, %xmm0, %xmm0
	vmovdqu	%ymm0, 64(%rsp)
	vmovdqu	%ymm0, 96(%rsp)
	xorl	%eax, %eax
.Ldeerlapse_0_1_0_v3_BB9_1:                                # %vector.body
                                        # =>This Inner Loop Header: Depth=1
	vmovdqu	144(%rsp,%rax,8), %ymm0
	vpshufb	.Ldeerlapse_0_1_0_v3_CPI9_4(%rip), %ymm0, %ymm0    # ymm0 = ymm0[7,6,5,4,3,2,1,0,15,14,13,12,11,10,9,8,23,22,21,20,19,18,17,16,31,30,29,28,27,26,25,24]
	vmovdqu	%ymm0, 64(%rsp,%rax,8)
	addq	$4, %rax
	cmpq	$8, %rax
	jne	.Ldeerlapse_0_1_0_v3_BB9_1
# %bb.2:                                # %"sha2::block512::Core512::finalize.exit"
	vmovups	96(%rsp), %ymm0
	vmovups	%ymm0, 32(%rsp)
	vmovups	64(%rsp), %ymm0
	vmovups	%ymm0, (%rsp)
	vmovups	16(%rsp), %ymm1
	vmovups	%ymm1, 16(%rbx)
	vmovups	%ymm0, (%rbx)
	addq	$416, %rsp                      # imm = 0x1A0
	.cfi_def_cfa_offset 48
	popq	%rbx
	.cfi_def_cfa_offset 40
	popq	%r12
	.cfi_def_cfa_offset 32
	popq	%r13
	.cfi_def_cfa_offset 24
	popq	%r14
	.cfi_def_cfa_offset 16
	popq	%r15
	.cfi_def_cfa_offset 8
	vzeroupper
	retq
.Ldeerlapse_0_1_0_v3_func_end9:
	.size	"deerlapse_0_1_0_v3::sha2::Sha384Digest::finalize", .Ldeerlapse_0_1_0_v3_func_end9-"deerlapse_0_1_0_v3::sha2::Sha384Digest::finalize"
	.cfi_endproc
                                        # -- End function
	.section	.text.deerlapse_key_derivation,"ax",@progbits
	.type	"deerlapse_0_1_0_v3::sha2::block512::Core512::update",@function # -- Begin function sha2::block512::Core512::update
"deerlapse_0_1_0_v3::sha2::block512::Core512::update":      # @"deerlapse_0_1_0_v3::sha2::block512::Core512::update"
	.cfi_startproc
# %bb.0:                                # %start
	pushq	%rbp
	.cfi_def_cfa_offset 16
	pushq	%r15
	.cfi_def_cfa_offset 24
	pushq	%r14
	.cfi_def_cfa_offset 32
	pushq	%r13
	.cfi_def_cfa_offset 40
	pushq	%r12
	.cfi_def_cfa_offset 48
	pushq	%rbx
	.cfi_def_cfa_offset 56
	pushq	%rax
	.cfi_def_cfa_offset 64
	.cfi_offset %rbx, -56
	.cfi_offset %r12, -48
	.cfi_offset %r13, -40
	.cfi_offset %r14, -32
	.cfi_offset %r15, -24
	.cfi_offset %rbp, -16
	movq	%rdx, %rbx
	movq	%rdi, %r15
	movq	192(%rdi), %rax
	movq	%rax, %rcx
	addq	%rdx, %rcx
	adcq	$0, 200(%rdi)
	movq	%rsi, %r14
	movq	%rcx, 192(%rdi)
	andq	$127, %rax
	je	.Ldeerlapse_0_1_0_v3_BB10_1
# %bb.6:                                # %then.1
	movl	$128, %ebp
	subq	%rax, %rbp
	leaq	(%r15,%rax), %rdi
	addq	$64, %rdi
	movq	%rdi, %rax
	subq	%r14, %rax
	cmpq	%rbp, %rbx
	jae	.Ldeerlapse_0_1_0_v3_BB10_7
# %bb.2:                                # %then.4
	cmpq	%rbx, %rax
	jae	.Ldeerlapse_0_1_0_v3_BB10_18
# %bb.3:                                # %join.7.i.i.i.i.i.i.preheader
	xorl	%eax, %eax
.Ldeerlapse_0_1_0_v3_BB10_4:                               # %join.7.i.i.i.i.i.i
                                        # =>This Inner Loop Header: Depth=1
	movb	(%r14,%rax), %cl
	movb	%cl, (%rdi,%rax)
	incq	%rax
	cmpq	%rax, %rbx
	jne	.Ldeerlapse_0_1_0_v3_BB10_4
	jmp	.Ldeerlapse_0_1_0_v3_BB10_5
.Ldeerlapse_0_1_0_v3_BB10_1:
	xorl	%ebp, %ebp
	jmp	.Ldeerlapse_0_1_0_v3_BB10_11
.Ldeerlapse_0_1_0_v3_BB10_7:                               # %join.6
	leaq	64(%r15), %r13
	cmpq	%rbp, %rax
	jae	.Ldeerlapse_0_1_0_v3_BB10_19
# %bb.8:                                # %join.7.i.i.i.i.i.i37.preheader
	xorl	%eax, %eax
.Ldeerlapse_0_1_0_v3_BB10_9:                               # %join.7.i.i.i.i.i.i37
                                        # =>This Inner Loop Header: Depth=1
	movb	(%r14,%rax), %cl
	movb	%cl, (%rdi,%rax)
	incq	%rax
	cmpq	%rax, %rbp
	jne	.Ldeerlapse_0_1_0_v3_BB10_9
	jmp	.Ldeerlapse_0_1_0_v3_BB10_10
.Ldeerlapse_0_1_0_v3_BB10_19:                              # %apart.2.i.i.i.i.i.i36
	movq	%r14, %rsi
	movq	%rbp, %rdx
	callq	memmove@PLT
.Ldeerlapse_0_1_0_v3_BB10_10:                              # %"core::slice::edits::slice+T::copy_from_slice::<i8,20'core::clone::U8Clone{}>.exit44"
	movq	%r15, %rdi
	movq	%r13, %rsi
	callq	"deerlapse_0_1_0_v3::sha2::block512::compress"
.Ldeerlapse_0_1_0_v3_BB10_11:                              # %join.3
	movq	%rbx, %r12
	movq	%rbp, (%rsp)                    # 8-byte Spill
	subq	%rbp, %r12
	movq	%r12, %rbp
	shrq	$7, %rbp
	je	.Ldeerlapse_0_1_0_v3_BB10_14
# %bb.12:                               # %join.11.lr.ph
	movq	(%rsp), %rax                    # 8-byte Reload
	leaq	(%r14,%rax), %r13
.Ldeerlapse_0_1_0_v3_BB10_13:                              # %join.11
                                        # =>This Inner Loop Header: Depth=1
	movq	%r15, %rdi
	movq	%r13, %rsi
	callq	"deerlapse_0_1_0_v3::sha2::block512::compress"
	subq	$-128, %r13
	decq	%rbp
	jne	.Ldeerlapse_0_1_0_v3_BB10_13
.Ldeerlapse_0_1_0_v3_BB10_14:                              # %after.7
	andq	$-128, %r12
	addq	(%rsp), %r12                    # 8-byte Folded Reload
	addq	%r12, %r14
	subq	%r12, %rbx
	addq	$64, %r15
	movq	%r15, %rax
	subq	%r14, %rax
	cmpq	%rbx, %rax
	jae	.Ldeerlapse_0_1_0_v3_BB10_17
# %bb.15:                               # %join.7.i.i.i.i.i.i50.preheader
	xorl	%eax, %eax
.Ldeerlapse_0_1_0_v3_BB10_16:                              # %join.7.i.i.i.i.i.i50
                                        # =>This Inner Loop Header: Depth=1
	movb	(%r14,%rax), %cl
	movb	%cl, (%r15,%rax)
	incq	%rax
	cmpq	%rax, %rbx
	jne	.Ldeerlapse_0_1_0_v3_BB10_16
.Ldeerlapse_0_1_0_v3_BB10_5:                               # %common.ret
	addq	$8, %rsp
	.cfi_def_cfa_offset 56
	popq	%rbx
	.cfi_def_cfa_offset 48
	popq	%r12
	.cfi_def_cfa_offset 40
	popq	%r13
	.cfi_def_cfa_offset 32
	popq	%r14
	.cfi_def_cfa_offset 24
	popq	%r15
	.cfi_def_cfa_offset 16
	popq	%rbp
	.cfi_def_cfa_offset 8
	retq
.Ldeerlapse_0_1_0_v3_BB10_17:                              # %apart.2.i.i.i.i.i.i49
	.cfi_def_cfa_offset 64
	movq	%r15, %rdi
.Ldeerlapse_0_1_0_v3_BB10_18:                              # %apart.2.i.i.i.i.i.i
	movq	%r14, %rsi
	movq	%rbx, %rdx
	addq	$8, %rsp
	.cfi_def_cfa_offset 56
	popq	%rbx
	.cfi_def_cfa_offset 48
	popq	%r12
	.cfi_def_cfa_offset 40
	popq	%r13
	.cfi_def_cfa_offset 32
	popq	%r14
	.cfi_def_cfa_offset 24
	popq	%r15
	.cfi_def_cfa_offset 16
	popq	%rbp
	.cfi_def_cfa_offset 8
	jmp	memmove@PLT                     # TAILCALL
.Ldeerlapse_0_1_0_v3_func_end10:
	.size	"deerlapse_0_1_0_v3::sha2::block512::Core512::update", .Ldeerlapse_0_1_0_v3_func_end10-"deerlapse_0_1_0_v3::sha2::block512::Core512::update"
	.cfi_endproc
                                        # -- End function
	.section	.rodata.cst32,"aM",@progbits,32
	.p2align	5, 0x0                          # -- Begin function sha2::block512::compress
.Ldeerlapse_0_1_0_v3_CPI11_0:
	.byte	7                               # 0x7
	.byte	6                               # 0x6
	.byte	5                               # 0x5
	.byte	4                               # 0x4
	.byte	3                               # 0x3
	.byte	2                               # 0x2
	.byte	1                               # 0x1
	.byte	0                               # 0x0
	.byte	15                              # 0xf
	.byte	14                              # 0xe
	.byte	13                              # 0xd
	.byte	12                              # 0xc
	.byte	11                              # 0xb
	.byte	10                              # 0xa
	.byte	9                               # 0x9
	.byte	8                               # 0x8
	.byte	7                               # 0x7
	.byte	6                               # 0x6
	.byte	5                               # 0x5
	.byte	4                               # 0x4
	.byte	3                               # 0x3
	.byte	2                               # 0x2
	.byte	1                               # 0x1
	.byte	0                               # 0x0
	.byte	15                              # 0xf
	.byte	14                              # 0xe
	.byte	13                              # 0xd
	.byte	12                              # 0xc
	.byte	11                              # 0xb
	.byte	10                              # 0xa
	.byte	9                               # 0x9
	.byte	8                               # 0x8
	.section	.text.deerlapse_key_derivation,"ax",@progbits
	.type	"deerlapse_0_1_0_v3::sha2::block512::compress",@function
"deerlapse_0_1_0_v3::sha2::block512::compress":             # @"deerlapse_0_1_0_v3::sha2::block512::compress"
	.cfi_startproc
# %bb.0:                                # %start
	pushq	%rbp
	.cfi_def_cfa_offset 16
	pushq	%r15
	.cfi_def_cfa_offset 24
	pushq	%r14
	.cfi_def_cfa_offset 32
	pushq	%r13
	.cfi_def_cfa_offset 40
	pushq	%r12
	.cfi_def_cfa_offset 48
	pushq	%rbx
	.cfi_def_cfa_offset 56
	subq	$280, %rsp                      # imm = 0x118
	.cfi_def_cfa_offset 336
	.cfi_offset %rbx, -56
	.cfi_offset %r12, -48
	.cfi_offset %r13, -40
	.cfi_offset %r14, -32
	.cfi_offset %r15, -24
	.cfi_offset %rbp, -16
	vpxor	%xmm0, %xmm0, %xmm0
	vmovdqu	%ymm0, 240(%rsp)
	vmovdqu	%ymm0, 208(%rsp)
	vmovdqu	%ymm0, 176(%rsp)
	vmovdqu	%ymm0, 144(%rsp)
	xorl	%eax, %eax
.Ldeerlapse_0_1_0_v3_BB11_1:                               # %vector.body
                                        # =>This Inner Loop Header: Depth=1
	vmovdqu	(%rsi,%rax,8), %ymm0
	vpshufb	.Ldeerlapse_0_1_0_v3_CPI11_0(%rip), %ymm0, %ymm0   # ymm0 = ymm0[7,6,5,4,3,2,1,0,15,14,13,12,11,10,9,8,23,22,21,20,19,18,17,16,31,30,29,28,27,26,25,24]
	vmovdqu	%ymm0, 144(%rsp,%rax,8)
	addq	$4, %rax
	cmpq	$16, %rax
	jne	.Ldeerlapse_0_1_0_v3_BB11_1
# %bb.2:                                # %after.3
	movq	(%rdi), %r12
	movq	8(%rdi), %r15
	movq	16(%rdi), %r14
	movq	24(%rdi), %r11
	movq	32(%rdi), %r10
	movq	40(%rdi), %r9
	movq	48(%rdi), %r8
	movq	%rdi, 112(%rsp)                 # 8-byte Spill
	movq	56(%rdi), %rsi
	rorxq	$23, %r10, %rax
	xorq	%r10, %rax
	rorxq	$4, %rax, %rax
	xorq	%r10, %rax
	rorxq	$14, %rax, %rax
	andnq	%r8, %r10, %rcx
	movq	%r9, %rdx
	andq	%r10, %rdx
	orq	%rcx, %rdx
	movq	144(%rsp), %rcx
	movq	152(%rsp), %rbx
	movq	%rsi, 104(%rsp)                 # 8-byte Spill
	movq	%rcx, 32(%rsp)                  # 8-byte Spill
	addq	%rsi, %rcx
	addq	%rcx, %rdx
	movabsq	$4794697086780616226, %rcx      # imm = 0x428A2F98D728AE22
	addq	%rdx, %rcx
	addq	%rax, %rcx
	rorxq	$5, %r12, %rax
	xorq	%r12, %rax
	rorxq	$6, %rax, %rax
	xorq	%r12, %rax
	rorxq	$28, %rax, %rax
	movq	%r15, %rsi
	xorq	%r12, %rsi
	andnq	%r15, %rsi, %rdi
	movq	%r14, %rdx
	andq	%rsi, %rdx
	orq	%rdi, %rdx
	addq	%rax, %rdx
	addq	%rcx, %rdx
	movq	%r11, 72(%rsp)                  # 8-byte Spill
	addq	%r11, %rcx
	andnq	%r9, %rcx, %rax
	movq	%r10, %rdi
	andq	%rcx, %rdi
	orq	%rax, %rdi
	movq	%r8, 96(%rsp)                   # 8-byte Spill
	movq	%rbx, -48(%rsp)                 # 8-byte Spill
	addq	%r8, %rdi
	addq	%rbx, %rdi
	movabsq	$8158064640168781261, %rbx      # imm = 0x7137449123EF65CD
	addq	%rdi, %rbx
	rorxq	$23, %rcx, %rax
	xorq	%rcx, %rax
	rorxq	$4, %rax, %rax
	xorq	%rcx, %rax
	rorxq	$14, %rax, %rax
	addq	%rax, %rbx
	rorxq	$5, %rdx, %rax
	xorq	%rdx, %rax
	rorxq	$6, %rax, %rax
	xorq	%rdx, %rax
	rorxq	$28, %rax, %rax
	movq	%rdx, %r8
	xorq	%r12, %r8
	andq	%r8, %rsi
	xorq	%r12, %rsi
	addq	%rax, %rsi
	addq	%rbx, %rsi
	movq	%r14, 64(%rsp)                  # 8-byte Spill
	addq	%r14, %rbx
	movq	%rcx, %rax
	andq	%rbx, %rax
	andnq	%r10, %rbx, %rdi
	orq	%rdi, %rax
	movq	160(%rsp), %rdi
	movq	%r9, 88(%rsp)                   # 8-byte Spill
	movq	%rdi, 24(%rsp)                  # 8-byte Spill
	addq	%r9, %rdi
	addq	%rdi, %rax
	movabsq	$-5349999486874862801, %r14     # imm = 0xB5C0FBCFEC4D3B2F
	addq	%rax, %r14
	rorxq	$23, %rbx, %rax
	xorq	%rbx, %rax
	rorxq	$4, %rax, %rax
	xorq	%rbx, %rax
	rorxq	$14, %rax, %rax
	addq	%rax, %r14
	rorxq	$5, %rsi, %rax
	xorq	%rsi, %rax
	rorxq	$6, %rax, %rax
	xorq	%rsi, %rax
	rorxq	$28, %rax, %rax
	movq	%rsi, %rdi
	xorq	%rdx, %rdi
	andq	%rdi, %r8
	xorq	%rdx, %r8
	addq	%rax, %r8
	addq	%r14, %r8
	movq	%r15, 56(%rsp)                  # 8-byte Spill
	addq	%r15, %r14
	movq	%rbx, %rax
	andq	%r14, %rax
	andnq	%rcx, %r14, %r9
	orq	%r9, %rax
	movq	168(%rsp), %r9
	movq	%r10, 80(%rsp)                  # 8-byte Spill
	movq	%r9, 16(%rsp)                   # 8-byte Spill
	addq	%r10, %r9
	addq	%r9, %rax
	movabsq	$-1606136188198331460, %r9      # imm = 0xE9B5DBA58189DBBC
	addq	%rax, %r9
	rorxq	$23, %r14, %rax
	xorq	%r14, %rax
	rorxq	$4, %rax, %rax
	xorq	%r14, %rax
	rorxq	$14, %rax, %rax
	addq	%rax, %r9
	rorxq	$5, %r8, %rax
	xorq	%r8, %rax
	rorxq	$6, %rax, %rax
	xorq	%r8, %rax
	rorxq	$28, %rax, %r10
	movq	%r8, %rax
	xorq	%rsi, %rax
	andq	%rax, %rdi
	xorq	%rsi, %rdi
	addq	%r10, %rdi
	addq	%r9, %rdi
	movq	%r12, 48(%rsp)                  # 8-byte Spill
	addq	%r12, %r9
	movq	%r14, %r10
	andq	%r9, %r10
	andnq	%rbx, %r9, %r11
	orq	%r11, %r10
	movq	176(%rsp), %r11
	movq	%r11, 8(%rsp)                   # 8-byte Spill
	addq	%r11, %rcx
	addq	%r10, %rcx
	movabsq	$4131703408338449720, %r10      # imm = 0x3956C25BF348B538
	addq	%rcx, %r10
	rorxq	$23, %r9, %rcx
	xorq	%r9, %rcx
	rorxq	$4, %rcx, %rcx
	xorq	%r9, %rcx
	rorxq	$14, %rcx, %rcx
	addq	%rcx, %r10
	rorxq	$5, %rdi, %rcx
	xorq	%rdi, %rcx
	rorxq	$6, %rcx, %rcx
	xorq	%rdi, %rcx
	rorxq	$28, %rcx, %r11
	movq	%rdi, %rcx
	xorq	%r8, %rcx
	andq	%rcx, %rax
	xorq	%r8, %rax
	addq	%r11, %rax
	addq	%r10, %rax
	addq	%rdx, %r10
	movq	%r9, %rdx
	andq	%r10, %rdx
	andnq	%r14, %r10, %r11
	orq	%r11, %rdx
	movq	184(%rsp), %r11
	movq	%r11, (%rsp)                    # 8-byte Spill
	addq	%r11, %rbx
	addq	%rdx, %rbx
	movabsq	$6480981068601479193, %r11      # imm = 0x59F111F1B605D019
	addq	%rbx, %r11
	rorxq	$23, %r10, %rdx
	xorq	%r10, %rdx
	rorxq	$4, %rdx, %rdx
	xorq	%r10, %rdx
	rorxq	$14, %rdx, %rdx
	addq	%rdx, %r11
	rorxq	$5, %rax, %rdx
	xorq	%rax, %rdx
	rorxq	$6, %rdx, %rdx
	xorq	%rax, %rdx
	rorxq	$28, %rdx, %rbx
	movq	%rax, %rdx
	xorq	%rdi, %rdx
	andq	%rdx, %rcx
	xorq	%rdi, %rcx
	addq	%rbx, %rcx
	addq	%r11, %rcx
	addq	%rsi, %r11
	movq	%r10, %rsi
	andq	%r11, %rsi
	andnq	%r9, %r11, %rbx
	orq	%rbx, %rsi
	movq	192(%rsp), %rbx
	movq	%rbx, -24(%rsp)                 # 8-byte Spill
	addq	%rbx, %r14
	addq	%rsi, %r14
	movabsq	$-7908458776815382629, %rbx     # imm = 0x923F82A4AF194F9B
	addq	%r14, %rbx
	rorxq	$23, %r11, %rsi
	xorq	%r11, %rsi
	rorxq	$4, %rsi, %rsi
	xorq	%r11, %rsi
	rorxq	$14, %rsi, %rsi
	addq	%rsi, %rbx
	rorxq	$5, %rcx, %rsi
	xorq	%rcx, %rsi
	rorxq	$6, %rsi, %rsi
	xorq	%rcx, %rsi
	rorxq	$28, %rsi, %r14
	movq	%rcx, %rsi
	xorq	%rax, %rsi
	andq	%rsi, %rdx
	xorq	%rax, %rdx
	addq	%r14, %rdx
	addq	%rbx, %rdx
	addq	%r8, %rbx
	movq	%r11, %r8
	andq	%rbx, %r8
	andnq	%r10, %rbx, %r14
	orq	%r14, %r8
	movq	200(%rsp), %r14
	movq	%r14, -8(%rsp)                  # 8-byte Spill
	addq	%r14, %r9
	addq	%r8, %r9
	movabsq	$-6116909921290321640, %r14     # imm = 0xAB1C5ED5DA6D8118
	addq	%r9, %r14
	rorxq	$23, %rbx, %r8
	xorq	%rbx, %r8
	rorxq	$4, %r8, %r8
	xorq	%rbx, %r8
	rorxq	$14, %r8, %r8
	addq	%r8, %r14
	rorxq	$5, %rdx, %r8
	xorq	%rdx, %r8
	rorxq	$6, %r8, %r8
	xorq	%rdx, %r8
	rorxq	$28, %r8, %r9
	movq	%rdx, %r8
	xorq	%rcx, %r8
	andq	%r8, %rsi
	xorq	%rcx, %rsi
	addq	%r9, %rsi
	addq	%r14, %rsi
	addq	%rdi, %r14
	movq	%rbx, %rdi
	andq	%r14, %rdi
	andnq	%r11, %r14, %r9
	orq	%r9, %rdi
	movq	208(%rsp), %r9
	movq	%r9, -40(%rsp)                  # 8-byte Spill
	addq	%r9, %r10
	addq	%rdi, %r10
	movabsq	$-2880145864133508542, %r12     # imm = 0xD807AA98A3030242
	addq	%r10, %r12
	rorxq	$23, %r14, %rdi
	xorq	%r14, %rdi
	rorxq	$4, %rdi, %rdi
	xorq	%r14, %rdi
	rorxq	$14, %rdi, %rdi
	addq	%rdi, %r12
	rorxq	$5, %rsi, %rdi
	xorq	%rsi, %rdi
	rorxq	$6, %rdi, %rdi
	xorq	%rsi, %rdi
	rorxq	$28, %rdi, %rdi
	movq	%rsi, %r9
	xorq	%rdx, %r9
	andq	%r9, %r8
	xorq	%rdx, %r8
	addq	%rdi, %r8
	addq	%r12, %r8
	addq	%rax, %r12
	movq	%r14, %rax
	andq	%r12, %rax
	andnq	%rbx, %r12, %rdi
	orq	%rdi, %rax
	movq	216(%rsp), %rdi
	movq	%rdi, -16(%rsp)                 # 8-byte Spill
	addq	%rdi, %r11
	addq	%rax, %r11
	movabsq	$1334009975649890238, %r13      # imm = 0x12835B0145706FBE
	addq	%r11, %r13
	rorxq	$23, %r12, %rax
	xorq	%r12, %rax
	rorxq	$4, %rax, %rax
	xorq	%r12, %rax
	rorxq	$14, %rax, %rax
	addq	%rax, %r13
	rorxq	$5, %r8, %rax
	xorq	%r8, %rax
	rorxq	$6, %rax, %rax
	xorq	%r8, %rax
	rorxq	$28, %rax, %rax
	movq	%r8, %rdi
	xorq	%rsi, %rdi
	andq	%rdi, %r9
	xorq	%rsi, %r9
	addq	%rax, %r9
	addq	%r13, %r9
	addq	%rcx, %r13
	movq	%r12, %rax
	andq	%r13, %rax
	andnq	%r14, %r13, %rcx
	orq	%rcx, %rax
	movq	224(%rsp), %rcx
	movq	%rcx, -72(%rsp)                 # 8-byte Spill
	addq	%rcx, %rbx
	addq	%rax, %rbx
	movabsq	$2608012711638119052, %rcx      # imm = 0x243185BE4EE4B28C
	addq	%rbx, %rcx
	rorxq	$23, %r13, %rax
	xorq	%r13, %rax
	rorxq	$4, %rax, %rax
	xorq	%r13, %rax
	rorxq	$14, %rax, %rax
	addq	%rax, %rcx
	rorxq	$5, %r9, %rax
	xorq	%r9, %rax
	rorxq	$6, %rax, %rax
	xorq	%r9, %rax
	rorxq	$28, %rax, %r10
	movq	%r9, %rax
	xorq	%r8, %rax
	andq	%rax, %rdi
	xorq	%r8, %rdi
	addq	%r10, %rdi
	addq	%rcx, %rdi
	addq	%rdx, %rcx
	movq	%r13, %rdx
	andq	%rcx, %rdx
	andnq	%r12, %rcx, %r10
	orq	%r10, %rdx
	movq	232(%rsp), %r10
	movq	%r10, -56(%rsp)                 # 8-byte Spill
	addq	%r10, %r14
	addq	%rdx, %r14
	movabsq	$6128411473006802146, %rdx      # imm = 0x550C7DC3D5FFB4E2
	addq	%r14, %rdx
	rorxq	$23, %rcx, %r10
	xorq	%rcx, %r10
	rorxq	$4, %r10, %r10
	xorq	%rcx, %r10
	rorxq	$14, %r10, %r10
	addq	%r10, %rdx
	rorxq	$5, %rdi, %r10
	xorq	%rdi, %r10
	rorxq	$6, %r10, %r10
	xorq	%rdi, %r10
	rorxq	$28, %r10, %r10
	movq	%rdi, %rbx
	xorq	%r9, %rbx
	andq	%rbx, %rax
	xorq	%r9, %rax
	addq	%r10, %rax
	addq	%rdx, %rax
	addq	%rsi, %rdx
	movq	%rcx, %rsi
	andq	%rdx, %rsi
	andnq	%r13, %rdx, %r10
	orq	%r10, %rsi
	movq	240(%rsp), %r10
	movq	%r10, -64(%rsp)                 # 8-byte Spill
	addq	%r10, %r12
	addq	%rsi, %r12
	movabsq	$8268148722764581231, %r14      # imm = 0x72BE5D74F27B896F
	addq	%r12, %r14
	rorxq	$23, %rdx, %rsi
	xorq	%rdx, %rsi
	rorxq	$4, %rsi, %rsi
	xorq	%rdx, %rsi
	rorxq	$14, %rsi, %rsi
	addq	%rsi, %r14
	rorxq	$5, %rax, %rsi
	xorq	%rax, %rsi
	rorxq	$6, %rsi, %rsi
	xorq	%rax, %rsi
	rorxq	$28, %rsi, %rsi
	movq	%rax, %r15
	xorq	%rdi, %r15
	andq	%r15, %rbx
	xorq	%rdi, %rbx
	addq	%rsi, %rbx
	addq	%r14, %rbx
	addq	%r8, %r14
	movq	%rdx, %rsi
	andq	%r14, %rsi
	andnq	%rcx, %r14, %r8
	orq	%r8, %rsi
	movq	248(%rsp), %r8
	movq	%r8, -104(%rsp)                 # 8-byte Spill
	addq	%r8, %r13
	addq	%rsi, %r13
	movabsq	$-9160688886553864527, %r11     # imm = 0x80DEB1FE3B1696B1
	addq	%r13, %r11
	rorxq	$23, %r14, %rsi
	xorq	%r14, %rsi
	rorxq	$4, %rsi, %rsi
	xorq	%r14, %rsi
	rorxq	$14, %rsi, %rsi
	addq	%rsi, %r11
	rorxq	$5, %rbx, %rsi
	xorq	%rbx, %rsi
	rorxq	$6, %rsi, %rsi
	xorq	%rbx, %rsi
	rorxq	$28, %rsi, %rsi
	movq	%rbx, %rbp
	xorq	%rax, %rbp
	andq	%rbp, %r15
	xorq	%rax, %r15
	addq	%rsi, %r15
	addq	%r11, %r15
	addq	%r9, %r11
	movq	%r14, %rsi
	andq	%r11, %rsi
	andnq	%rdx, %r11, %r8
	orq	%r8, %rsi
	movq	256(%rsp), %r9
	movq	%r9, %r8
	addq	%r9, %rcx
	addq	%rsi, %rcx
	movabsq	$-7215885187991268811, %r12     # imm = 0x9BDC06A725C71235
	addq	%rcx, %r12
	rorxq	$23, %r11, %rcx
	xorq	%r11, %rcx
	rorxq	$4, %rcx, %rcx
	xorq	%r11, %rcx
	rorxq	$14, %rcx, %rcx
	addq	%rcx, %r12
	rorxq	$5, %r15, %rcx
	xorq	%r15, %rcx
	rorxq	$6, %rcx, %rcx
	xorq	%r15, %rcx
	rorxq	$28, %rcx, %rsi
	movq	%r15, %rcx
	xorq	%rbx, %rcx
	andq	%rcx, %rbp
	movq	%rbx, -96(%rsp)                 # 8-byte Spill
	xorq	%rbx, %rbp
	addq	%rsi, %rbp
	addq	%r12, %rbp
	addq	%rdi, %r12
	movq	%r11, %rsi
	andq	%r12, %rsi
	andnq	%r14, %r12, %rdi
	orq	%rdi, %rsi
	movq	264(%rsp), %rdi
	movq	%rdi, -112(%rsp)                # 8-byte Spill
	addq	%rdi, %rdx
	addq	%rsi, %rdx
	movabsq	$-4495734319001033068, %rsi     # imm = 0xC19BF174CF692694
	addq	%rdx, %rsi
	rorxq	$23, %r12, %rdx
	xorq	%r12, %rdx
	rorxq	$4, %rdx, %rdx
	xorq	%r12, %rdx
	rorxq	$14, %rdx, %rdx
	addq	%rdx, %rsi
	movq	%rbp, %rdx
	andq	%rcx, %rdx
	andnq	%r15, %rcx, %r13
	orq	%rdx, %r13
	rorxq	$5, %rbp, %rcx
	xorq	%rbp, %rcx
	rorxq	$6, %rcx, %rcx
	xorq	%rbp, %rcx
	rorxq	$28, %rcx, %rcx
	addq	%rcx, %r13
	addq	%rsi, %r13
	addq	%rax, %rsi
	xorl	%eax, %eax
.Ldeerlapse_0_1_0_v3_BB11_3:                               # %join.12
                                        # =>This Inner Loop Header: Depth=1
	movq	%rax, -120(%rsp)                # 8-byte Spill
	movq	%r8, %rcx
	movq	%r8, -32(%rsp)                  # 8-byte Spill
	rorxq	$42, %r8, %rax
	xorq	%r8, %rax
	rorxq	$19, %rax, %rax
	shrq	$6, %rcx
	xorq	%rax, %rcx
	movq	-48(%rsp), %rdi                 # 8-byte Reload
	movq	%rdi, %rax
	shrq	$7, %rax
	rorxq	$7, %rdi, %rdx
	xorq	%rdi, %rdx
	rorxq	$1, %rdx, %rdx
	xorq	%rax, %rdx
	movq	32(%rsp), %r8                   # 8-byte Reload
	addq	-16(%rsp), %r8                  # 8-byte Folded Reload
	addq	%rcx, %r8
	addq	%rdx, %r8
	movq	%r11, %rbx
	movq	%r12, %r11
	andq	%rsi, %r11
	andnq	%rbx, %rsi, %rax
	orq	%rax, %r11
	addq	%r14, %r11
	rorxq	$23, %rsi, %rax
	xorq	%rsi, %rax
	rorxq	$4, %rax, %rax
	xorq	%rsi, %rax
	rorxq	$14, %rax, %rax
	addq	%rax, %r11
	movq	%rbp, %r9
	xorq	%r13, %r9
	movq	%r15, %r10
	andq	%r9, %r10
	andnq	%rbp, %r9, %rcx
	orq	%rcx, %r10
	rorxq	$5, %r13, %rcx
	xorq	%r13, %rcx
	rorxq	$6, %rcx, %rcx
	xorq	%r13, %rcx
	rorxq	$28, %rcx, %rcx
	addq	%rcx, %r10
	leaq	.Ldeerlapse_0_1_0_v3_static.3(%rip), %r14
	movq	-120(%rsp), %rax                # 8-byte Reload
	addq	128(%rax,%r14), %r11
	addq	%r8, %r11
	addq	%r11, %r10
	addq	-96(%rsp), %r11                 # 8-byte Folded Reload
	movq	-112(%rsp), %rdx                # 8-byte Reload
	rorxq	$42, %rdx, %rcx
	xorq	%rdx, %rcx
	rorxq	$19, %rcx, %rcx
	shrq	$6, %rdx
	xorq	%rcx, %rdx
	movq	24(%rsp), %rax                  # 8-byte Reload
	movq	%rax, %rcx
	shrq	$7, %rcx
	rorxq	$7, %rax, %rdi
	xorq	%rax, %rdi
	rorxq	$1, %rdi, %rdi
	xorq	%rcx, %rdi
	movq	-48(%rsp), %rcx                 # 8-byte Reload
	addq	-72(%rsp), %rcx                 # 8-byte Folded Reload
	addq	%rdx, %rcx
	addq	%rdi, %rcx
	movq	%rcx, %rdi
	movq	%rcx, -48(%rsp)                 # 8-byte Spill
	movq	%rsi, %rcx
	andq	%r11, %rcx
	movq	-120(%rsp), %rdx                # 8-byte Reload
	addq	136(%rdx,%r14), %rbx
	andnq	%r12, %r11, %rdx
	orq	%rdx, %rcx
	addq	%rdi, %rbx
	addq	%rcx, %rbx
	rorxq	$23, %r11, %rcx
	xorq	%r11, %rcx
	rorxq	$4, %rcx, %rcx
	xorq	%r11, %rcx
	rorxq	$14, %rcx, %rcx
	addq	%rcx, %rbx
	movq	%r10, %r14
	movq	%r10, -80(%rsp)                 # 8-byte Spill
	rorxq	$5, %r10, %rcx
	xorq	%r10, %rcx
	rorxq	$6, %rcx, %rcx
	xorq	%r10, %rcx
	rorxq	$28, %rcx, %rcx
	xorq	%r13, %r14
	andq	%r14, %r9
	xorq	%r13, %r9
	addq	%rcx, %r9
	addq	%rbx, %r9
	addq	%r15, %rbx
	movq	%r8, 32(%rsp)                   # 8-byte Spill
	rorxq	$42, %r8, %rcx
	xorq	%r8, %rcx
	rorxq	$19, %rcx, %rcx
	movq	%r8, %rdi
	shrq	$6, %rdi
	xorq	%rcx, %rdi
	movq	16(%rsp), %r8                   # 8-byte Reload
	movq	%r8, %rcx
	shrq	$7, %rcx
	rorxq	$7, %r8, %r10
	xorq	%r8, %r10
	rorxq	$1, %r10, %r10
	xorq	%rcx, %r10
	addq	-56(%rsp), %rax                 # 8-byte Folded Reload
	addq	%r10, %rax
	addq	%rdi, %rax
	movq	%r11, %rcx
	andq	%rbx, %rcx
	andnq	%rsi, %rbx, %rdi
	orq	%rdi, %rcx
	movq	-120(%rsp), %rdi                # 8-byte Reload
	leaq	.Ldeerlapse_0_1_0_v3_static.3(%rip), %rdx
	addq	144(%rdi,%rdx), %r12
	addq	%rax, %r12
	addq	%rcx, %r12
	rorxq	$23, %rbx, %rcx
	xorq	%rbx, %rcx
	rorxq	$4, %rcx, %rcx
	xorq	%rbx, %rcx
	movq	%rbx, %rdx
	rorxq	$14, %rcx, %rcx
	addq	%rcx, %r12
	movq	%r9, -88(%rsp)                  # 8-byte Spill
	rorxq	$5, %r9, %rcx
	xorq	%r9, %rcx
	rorxq	$6, %rcx, %rcx
	xorq	%r9, %rcx
	rorxq	$28, %rcx, %rcx
	movq	-80(%rsp), %rdi                 # 8-byte Reload
	xorq	%rdi, %r9
	andq	%r9, %r14
	xorq	%rdi, %r14
	addq	%rcx, %r14
	addq	%r12, %r14
	addq	%rbp, %r12
	movq	-48(%rsp), %rdi                 # 8-byte Reload
	rorxq	$42, %rdi, %rcx
	xorq	%rdi, %rcx
	rorxq	$19, %rcx, %rcx
	shrq	$6, %rdi
	xorq	%rcx, %rdi
	movq	8(%rsp), %r15                   # 8-byte Reload
	movq	%r15, %rcx
	shrq	$7, %rcx
	rorxq	$7, %r15, %r10
	xorq	%r15, %r10
	rorxq	$1, %r10, %r10
	xorq	%rcx, %r10
	addq	-64(%rsp), %r8                  # 8-byte Folded Reload
	addq	%r10, %r8
	addq	%rdi, %r8
	movq	%rbx, %rcx
	andq	%r12, %rcx
	andnq	%r11, %r12, %rdi
	orq	%rdi, %rcx
	movq	-120(%rsp), %rdi                # 8-byte Reload
	leaq	.Ldeerlapse_0_1_0_v3_static.3(%rip), %r10
	addq	152(%rdi,%r10), %rsi
	addq	%r8, %rsi
	addq	%rcx, %rsi
	rorxq	$23, %r12, %rcx
	xorq	%r12, %rcx
	rorxq	$4, %rcx, %rcx
	xorq	%r12, %rcx
	rorxq	$14, %rcx, %rcx
	addq	%rcx, %rsi
	rorxq	$5, %r14, %rcx
	xorq	%r14, %rcx
	rorxq	$6, %rcx, %rcx
	xorq	%r14, %rcx
	rorxq	$28, %rcx, %rcx
	movq	%r14, %rbp
	movq	-88(%rsp), %rdi                 # 8-byte Reload
	xorq	%rdi, %rbp
	andq	%rbp, %r9
	xorq	%rdi, %r9
	addq	%rcx, %r9
	addq	%rsi, %r9
	addq	%r13, %rsi
	movq	%rax, 24(%rsp)                  # 8-byte Spill
	rorxq	$42, %rax, %rcx
	xorq	%rax, %rcx
	rorxq	$19, %rcx, %rcx
	movq	%rax, %r10
	shrq	$6, %r10
	xorq	%rcx, %r10
	movq	(%rsp), %rdi                    # 8-byte Reload
	movq	%rdi, %rcx
	shrq	$7, %rcx
	rorxq	$7, %rdi, %rbx
	xorq	%rdi, %rbx
	rorxq	$1, %rbx, %rbx
	xorq	%rcx, %rbx
	addq	-104(%rsp), %r15                # 8-byte Folded Reload
	addq	%rbx, %r15
	addq	%r10, %r15
	movq	%r12, %rcx
	andq	%rsi, %rcx
	andnq	%rdx, %rsi, %r10
	orq	%r10, %rcx
	movq	-120(%rsp), %r10                # 8-byte Reload
	leaq	.Ldeerlapse_0_1_0_v3_static.3(%rip), %rax
	addq	160(%r10,%rax), %r11
	addq	%r15, %r11
	addq	%rcx, %r11
	rorxq	$23, %rsi, %rcx
	xorq	%rsi, %rcx
	rorxq	$4, %rcx, %rcx
	xorq	%rsi, %rcx
	rorxq	$14, %rcx, %rcx
	addq	%rcx, %r11
	rorxq	$5, %r9, %rcx
	xorq	%r9, %rcx
	rorxq	$6, %rcx, %rcx
	xorq	%r9, %rcx
	rorxq	$28, %rcx, %rcx
	movq	%r9, %rbx
	xorq	%r14, %rbx
	andq	%rbx, %rbp
	xorq	%r14, %rbp
	addq	%rcx, %rbp
	addq	%r11, %rbp
	addq	-80(%rsp), %r11                 # 8-byte Folded Reload
	movq	%r8, 16(%rsp)                   # 8-byte Spill
	rorxq	$42, %r8, %rcx
	xorq	%r8, %rcx
	rorxq	$19, %rcx, %rcx
	shrq	$6, %r8
	xorq	%rcx, %r8
	movq	-24(%rsp), %r13                 # 8-byte Reload
	movq	%r13, %rcx
	shrq	$7, %rcx
	rorxq	$7, %r13, %r10
	xorq	%r13, %r10
	rorxq	$1, %r10, %r10
	xorq	%rcx, %r10
	addq	-32(%rsp), %rdi                 # 8-byte Folded Reload
	addq	%r10, %rdi
	addq	%r8, %rdi
	movq	%rsi, %rcx
	andq	%r11, %rcx
	movq	-120(%rsp), %r8                 # 8-byte Reload
	leaq	.Ldeerlapse_0_1_0_v3_static.3(%rip), %r10
	addq	168(%r8,%r10), %rdx
	andnq	%r12, %r11, %r8
	orq	%r8, %rcx
	addq	%rdi, %rdx
	addq	%rcx, %rdx
	rorxq	$23, %r11, %rcx
	xorq	%r11, %rcx
	rorxq	$4, %rcx, %rcx
	xorq	%r11, %rcx
	movq	%r11, 128(%rsp)                 # 8-byte Spill
	rorxq	$14, %rcx, %rcx
	addq	%rcx, %rdx
	movq	%rbp, -96(%rsp)                 # 8-byte Spill
	rorxq	$5, %rbp, %rcx
	xorq	%rbp, %rcx
	rorxq	$6, %rcx, %rcx
	xorq	%rbp, %rcx
	rorxq	$28, %rcx, %rcx
	movq	%r9, 136(%rsp)                  # 8-byte Spill
	xorq	%r9, %rbp
	andq	%rbp, %rbx
	xorq	%r9, %rbx
	addq	%rcx, %rbx
	addq	%rdx, %rbx
	movq	%rbx, %r9
	addq	-88(%rsp), %rdx                 # 8-byte Folded Reload
	movq	%r15, 8(%rsp)                   # 8-byte Spill
	rorxq	$42, %r15, %rax
	xorq	%r15, %rax
	rorxq	$19, %rax, %rax
	movq	%r15, %rcx
	shrq	$6, %rcx
	xorq	%rax, %rcx
	movq	-8(%rsp), %r15                  # 8-byte Reload
	movq	%r15, %rax
	shrq	$7, %rax
	rorxq	$7, %r15, %r8
	xorq	%r15, %r8
	rorxq	$1, %r8, %r8
	xorq	%rax, %r8
	addq	-112(%rsp), %r13                # 8-byte Folded Reload
	addq	%r8, %r13
	addq	%rcx, %r13
	movq	%r13, -24(%rsp)                 # 8-byte Spill
	andq	%rdx, %r11
	andnq	%rsi, %rdx, %rcx
	orq	%rcx, %r11
	movq	-120(%rsp), %rcx                # 8-byte Reload
	addq	176(%rcx,%r10), %r12
	addq	%r13, %r12
	addq	%r11, %r12
	rorxq	$23, %rdx, %rax
	xorq	%rdx, %rax
	rorxq	$4, %rax, %rax
	xorq	%rdx, %rax
	movq	%rdx, %r13
	rorxq	$14, %rax, %rax
	addq	%rax, %r12
	movq	%rbx, 40(%rsp)                  # 8-byte Spill
	rorxq	$5, %rbx, %rax
	xorq	%rbx, %rax
	rorxq	$6, %rax, %rax
	xorq	%rbx, %rax
	rorxq	$28, %rax, %rax
	movq	-96(%rsp), %rcx                 # 8-byte Reload
	xorq	%rcx, %r9
	andq	%r9, %rbp
	xorq	%rcx, %rbp
	addq	%rax, %rbp
	addq	%r12, %rbp
	movq	%rbp, -80(%rsp)                 # 8-byte Spill
	addq	%r14, %r12
	movq	%rdi, (%rsp)                    # 8-byte Spill
	rorxq	$42, %rdi, %rax
	xorq	%rdi, %rax
	rorxq	$19, %rax, %rax
	movq	%rdi, %rbp
	shrq	$6, %rbp
	xorq	%rax, %rbp
	movq	32(%rsp), %rdx                  # 8-byte Reload
	movq	%rdx, %rax
	shrq	$7, %rax
	rorxq	$7, %rdx, %rcx
	xorq	%rdx, %rcx
	movq	%rdx, %rdi
	rorxq	$1, %rcx, %rdx
	xorq	%rax, %rdx
	movq	-112(%rsp), %rcx                # 8-byte Reload
	rorxq	$7, %rcx, %rax
	xorq	%rcx, %rax
	addq	%rcx, %rdx
	movq	%rdx, 120(%rsp)                 # 8-byte Spill
	shrq	$7, %rcx
	rorxq	$1, %rax, %rdx
	xorq	%rcx, %rdx
	movq	-32(%rsp), %rcx                 # 8-byte Reload
	rorxq	$7, %rcx, %rax
	xorq	%rcx, %rax
	addq	%rcx, %rdx
	movq	%rdx, -88(%rsp)                 # 8-byte Spill
	shrq	$7, %rcx
	rorxq	$1, %rax, %rdx
	xorq	%rcx, %rdx
	movq	-104(%rsp), %rcx                # 8-byte Reload
	rorxq	$7, %rcx, %rax
	xorq	%rcx, %rax
	addq	%rcx, %rdx
	movq	%rdx, -32(%rsp)                 # 8-byte Spill
	shrq	$7, %rcx
	rorxq	$1, %rax, %rdx
	xorq	%rcx, %rdx
	movq	-64(%rsp), %rcx                 # 8-byte Reload
	rorxq	$7, %rcx, %rax
	xorq	%rcx, %rax
	addq	%rcx, %rdx
	movq	%rdx, -104(%rsp)                # 8-byte Spill
	shrq	$7, %rcx
	rorxq	$1, %rax, %rdx
	xorq	%rcx, %rdx
	movq	-56(%rsp), %rcx                 # 8-byte Reload
	rorxq	$7, %rcx, %rax
	xorq	%rcx, %rax
	addq	%rcx, %rdx
	movq	%rdx, -112(%rsp)                # 8-byte Spill
	shrq	$7, %rcx
	rorxq	$1, %rax, %r10
	xorq	%rcx, %r10
	movq	-72(%rsp), %rcx                 # 8-byte Reload
	rorxq	$7, %rcx, %rax
	xorq	%rcx, %rax
	addq	%rcx, %r10
	shrq	$7, %rcx
	rorxq	$1, %rax, %r8
	xorq	%rcx, %r8
	movq	-16(%rsp), %rcx                 # 8-byte Reload
	rorxq	$7, %rcx, %rax
	xorq	%rcx, %rax
	addq	%rcx, %r8
	shrq	$7, %rcx
	rorxq	$1, %rax, %rdx
	xorq	%rcx, %rdx
	movq	-40(%rsp), %rcx                 # 8-byte Reload
	rorxq	$7, %rcx, %rax
	xorq	%rcx, %rax
	addq	%rcx, %rdx
	shrq	$7, %rcx
	rorxq	$1, %rax, %rax
	xorq	%rcx, %rax
	movq	%r15, %r11
	addq	%rdi, %r11
	addq	%rax, %r11
	addq	%rbp, %r11
	movq	%r13, %rbp
	movq	%r13, %rax
	andq	%r12, %rax
	movq	128(%rsp), %rdi                 # 8-byte Reload
	andnq	%rdi, %r12, %rcx
	orq	%rcx, %rax
	movq	-120(%rsp), %rcx                # 8-byte Reload
	leaq	.Ldeerlapse_0_1_0_v3_static.3(%rip), %r13
	movq	184(%rcx,%r13), %r15
	addq	%r11, %r15
	addq	%rsi, %r15
	addq	%rax, %r15
	rorxq	$23, %r12, %rax
	xorq	%r12, %rax
	rorxq	$4, %rax, %rax
	xorq	%r12, %rax
	rorxq	$14, %rax, %rax
	addq	%rax, %r15
	movq	-80(%rsp), %rbx                 # 8-byte Reload
	rorxq	$5, %rbx, %rax
	xorq	%rbx, %rax
	rorxq	$6, %rax, %rax
	xorq	%rbx, %rax
	rorxq	$28, %rax, %rax
	movq	%rbx, %rsi
	movq	40(%rsp), %rcx                  # 8-byte Reload
	xorq	%rcx, %rsi
	andq	%rsi, %r9
	xorq	%rcx, %r9
	addq	%rax, %r9
	addq	%r15, %r9
	movq	%r9, %r14
	addq	136(%rsp), %r15                 # 8-byte Folded Reload
	movq	-24(%rsp), %rcx                 # 8-byte Reload
	rorxq	$42, %rcx, %rax
	xorq	%rcx, %rax
	rorxq	$19, %rax, %rax
	shrq	$6, %rcx
	xorq	%rax, %rcx
	addq	-48(%rsp), %rdx                 # 8-byte Folded Reload
	addq	%rcx, %rdx
	movq	%r12, %rax
	andq	%r15, %rax
	movq	%rbp, %r9
	andnq	%rbp, %r15, %rcx
	orq	%rcx, %rax
	movq	-120(%rsp), %rcx                # 8-byte Reload
	movq	192(%rcx,%r13), %rcx
	movq	%r13, %rbp
	addq	%rdx, %rcx
	addq	%rdi, %rcx
	addq	%rax, %rcx
	rorxq	$23, %r15, %rax
	xorq	%r15, %rax
	rorxq	$4, %rax, %rax
	xorq	%r15, %rax
	rorxq	$14, %rax, %rax
	addq	%rax, %rcx
	rorxq	$5, %r14, %rax
	xorq	%r14, %rax
	rorxq	$6, %rax, %rax
	xorq	%r14, %rax
	rorxq	$28, %rax, %rax
	movq	%r14, %r13
	xorq	%rbx, %r13
	andq	%r13, %rsi
	xorq	%rbx, %rsi
	addq	%rax, %rsi
	addq	%rcx, %rsi
	addq	-96(%rsp), %rcx                 # 8-byte Folded Reload
	movq	%r11, -8(%rsp)                  # 8-byte Spill
	rorxq	$42, %r11, %rax
	xorq	%r11, %rax
	rorxq	$19, %rax, %rax
	shrq	$6, %r11
	xorq	%rax, %r11
	addq	24(%rsp), %r8                   # 8-byte Folded Reload
	addq	%r11, %r8
	movq	%r15, %rax
	andq	%rcx, %rax
	andnq	%r12, %rcx, %rdi
	orq	%rdi, %rax
	movq	-120(%rsp), %rdi                # 8-byte Reload
	movq	%rbp, %r11
	movq	200(%rdi,%rbp), %rbp
	addq	%r8, %rbp
	addq	%r9, %rbp
	addq	%rax, %rbp
	rorxq	$23, %rcx, %rax
	xorq	%rcx, %rax
	rorxq	$4, %rax, %rax
	xorq	%rcx, %rax
	rorxq	$14, %rax, %rax
	addq	%rax, %rbp
	rorxq	$5, %rsi, %rax
	xorq	%rsi, %rax
	rorxq	$6, %rax, %rax
	xorq	%rsi, %rax
	rorxq	$28, %rax, %rax
	movq	%rsi, %rdi
	movq	%r14, -72(%rsp)                 # 8-byte Spill
	xorq	%r14, %rdi
	andq	%rdi, %r13
	xorq	%r14, %r13
	addq	%rax, %r13
	addq	%rbp, %r13
	addq	40(%rsp), %rbp                  # 8-byte Folded Reload
	rorxq	$42, %rdx, %rax
	xorq	%rdx, %rax
	movq	%rdx, -40(%rsp)                 # 8-byte Spill
	rorxq	$19, %rax, %rax
	shrq	$6, %rdx
	xorq	%rax, %rdx
	addq	16(%rsp), %r10                  # 8-byte Folded Reload
	addq	%rdx, %r10
	movq	%rcx, %rax
	andq	%rbp, %rax
	andnq	%r15, %rbp, %r9
	orq	%r9, %rax
	movq	-120(%rsp), %r9                 # 8-byte Reload
	movq	%r11, %r14
	movq	208(%r9,%r11), %rbx
	addq	%r10, %rbx
	addq	%r12, %rbx
	addq	%rax, %rbx
	rorxq	$23, %rbp, %rax
	xorq	%rbp, %rax
	rorxq	$4, %rax, %rax
	xorq	%rbp, %rax
	rorxq	$14, %rax, %rax
	addq	%rax, %rbx
	rorxq	$5, %r13, %rax
	xorq	%r13, %rax
	rorxq	$6, %rax, %rax
	xorq	%r13, %rax
	rorxq	$28, %rax, %rax
	movq	%r13, %r9
	xorq	%rsi, %r9
	andq	%r9, %rdi
	xorq	%rsi, %rdi
	addq	%rax, %rdi
	addq	%rbx, %rdi
	addq	-80(%rsp), %rbx                 # 8-byte Folded Reload
	movq	%r8, -56(%rsp)                  # 8-byte Spill
	rorxq	$42, %r8, %rax
	xorq	%r8, %rax
	rorxq	$19, %rax, %rax
	shrq	$6, %r8
	xorq	%rax, %r8
	movq	-112(%rsp), %rdx                # 8-byte Reload
	addq	8(%rsp), %rdx                   # 8-byte Folded Reload
	addq	%r8, %rdx
	movq	%rdx, -112(%rsp)                # 8-byte Spill
	movq	%rbp, %r11
	andq	%rbx, %r11
	andnq	%rcx, %rbx, %rax
	orq	%rax, %r11
	movq	-120(%rsp), %rax                # 8-byte Reload
	movq	216(%rax,%r14), %rax
	addq	%rdx, %rax
	addq	%r15, %rax
	addq	%r11, %rax
	rorxq	$23, %rbx, %r11
	xorq	%rbx, %r11
	rorxq	$4, %r11, %r11
	xorq	%rbx, %r11
	rorxq	$14, %r11, %r11
	addq	%r11, %rax
	movq	%rdi, %rdx
	rorxq	$5, %rdi, %r11
	xorq	%rdi, %r11
	rorxq	$6, %r11, %r11
	xorq	%rdi, %r11
	rorxq	$28, %r11, %r11
	xorq	%r13, %rdi
	andq	%rdi, %r9
	xorq	%r13, %r9
	addq	%r11, %r9
	addq	%rax, %r9
	addq	-72(%rsp), %rax                 # 8-byte Folded Reload
	movq	%r10, %r11
	movq	%r10, -64(%rsp)                 # 8-byte Spill
	rorxq	$42, %r10, %r10
	xorq	%r11, %r10
	rorxq	$19, %r10, %r10
	shrq	$6, %r11
	xorq	%r10, %r11
	movq	-104(%rsp), %r12                # 8-byte Reload
	addq	(%rsp), %r12                    # 8-byte Folded Reload
	addq	%r11, %r12
	movq	%rbx, %r10
	andq	%rax, %r10
	andnq	%rbp, %rax, %r11
	orq	%r11, %r10
	movq	-120(%rsp), %r11                # 8-byte Reload
	leaq	.Ldeerlapse_0_1_0_v3_static.3(%rip), %r8
	movq	224(%r11,%r8), %r14
	addq	%r12, %r14
	addq	%rcx, %r14
	addq	%r10, %r14
	rorxq	$23, %rax, %rcx
	xorq	%rax, %rcx
	rorxq	$4, %rcx, %rcx
	xorq	%rax, %rcx
	rorxq	$14, %rcx, %rcx
	addq	%rcx, %r14
	rorxq	$5, %r9, %rcx
	xorq	%r9, %rcx
	rorxq	$6, %rcx, %rcx
	xorq	%r9, %rcx
	rorxq	$28, %rcx, %rcx
	movq	%r9, %r15
	xorq	%rdx, %r15
	andq	%r15, %rdi
	xorq	%rdx, %rdi
	addq	%rcx, %rdi
	addq	%r14, %rdi
	addq	%rsi, %r14
	movq	-112(%rsp), %rsi                # 8-byte Reload
	rorxq	$42, %rsi, %rcx
	xorq	%rsi, %rcx
	rorxq	$19, %rcx, %rcx
	shrq	$6, %rsi
	xorq	%rcx, %rsi
	movq	-32(%rsp), %r8                  # 8-byte Reload
	addq	-24(%rsp), %r8                  # 8-byte Folded Reload
	addq	%rsi, %r8
	movq	%rax, %rcx
	andq	%r14, %rcx
	andnq	%rbx, %r14, %rsi
	orq	%rsi, %rcx
	movq	-120(%rsp), %rsi                # 8-byte Reload
	leaq	.Ldeerlapse_0_1_0_v3_static.3(%rip), %r10
	movq	232(%rsi,%r10), %r11
	addq	%r8, %r11
	addq	%rbp, %r11
	addq	%rcx, %r11
	rorxq	$23, %r14, %rcx
	xorq	%r14, %rcx
	rorxq	$4, %rcx, %rcx
	xorq	%r14, %rcx
	rorxq	$14, %rcx, %rcx
	addq	%rcx, %r11
	rorxq	$5, %rdi, %rcx
	xorq	%rdi, %rcx
	rorxq	$6, %rcx, %rcx
	xorq	%rdi, %rcx
	rorxq	$28, %rcx, %rcx
	movq	%rdi, %rbp
	xorq	%r9, %rbp
	andq	%rbp, %r15
	xorq	%r9, %r15
	addq	%rcx, %r15
	addq	%r11, %r15
	addq	%r13, %r11
	movq	%r12, %rsi
	movq	%r12, -104(%rsp)                # 8-byte Spill
	rorxq	$42, %r12, %rcx
	xorq	%r12, %rcx
	rorxq	$19, %rcx, %rcx
	shrq	$6, %rsi
	xorq	%rcx, %rsi
	movq	-88(%rsp), %r13                 # 8-byte Reload
	addq	-8(%rsp), %r13                  # 8-byte Folded Reload
	addq	%rsi, %r13
	movq	%r13, -88(%rsp)                 # 8-byte Spill
	movq	%r14, %rcx
	andq	%r11, %rcx
	andnq	%rax, %r11, %rsi
	orq	%rsi, %rcx
	movq	-120(%rsp), %rsi                # 8-byte Reload
	movq	240(%rsi,%r10), %r12
	addq	%r13, %r12
	addq	%rbx, %r12
	addq	%rcx, %r12
	rorxq	$23, %r11, %rcx
	xorq	%r11, %rcx
	rorxq	$4, %rcx, %rcx
	xorq	%r11, %rcx
	rorxq	$14, %rcx, %rcx
	addq	%rcx, %r12
	rorxq	$5, %r15, %rcx
	xorq	%r15, %rcx
	rorxq	$6, %rcx, %rcx
	xorq	%r15, %rcx
	rorxq	$28, %rcx, %rsi
	movq	%r15, %rcx
	xorq	%rdi, %rcx
	andq	%rcx, %rbp
	movq	%rdi, -96(%rsp)                 # 8-byte Spill
	xorq	%rdi, %rbp
	addq	%rsi, %rbp
	addq	%r12, %rbp
	addq	%rdx, %r12
	rorxq	$42, %r8, %rsi
	xorq	%r8, %rsi
	rorxq	$19, %rsi, %rsi
	movq	%r8, %rdi
	movq	%r8, %rdx
	shrq	$6, %rdi
	xorq	%rsi, %rdi
	movq	120(%rsp), %rbx                 # 8-byte Reload
	movq	-40(%rsp), %r8                  # 8-byte Reload
	addq	%r8, %rbx
	addq	%rdi, %rbx
	movq	%r11, %rdi
	andq	%r12, %rdi
	andnq	%r14, %r12, %rsi
	orq	%rsi, %rdi
	movq	-120(%rsp), %rsi                # 8-byte Reload
	movq	248(%rsi,%r10), %rsi
	addq	%rbx, %rsi
	addq	%rax, %rsi
	addq	%rdi, %rsi
	movq	-120(%rsp), %rdi                # 8-byte Reload
	rorxq	$23, %r12, %rax
	xorq	%r12, %rax
	rorxq	$4, %rax, %rax
	xorq	%r12, %rax
	rorxq	$14, %rax, %rax
	addq	%rax, %rsi
	movq	%rbp, %rax
	andq	%rcx, %rax
	andnq	%r15, %rcx, %r13
	orq	%rax, %r13
	rorxq	$5, %rbp, %rax
	xorq	%rbp, %rax
	rorxq	$6, %rax, %rax
	xorq	%rbp, %rax
	rorxq	$28, %rax, %rax
	addq	%rax, %r13
	addq	%rsi, %r13
	addq	%r9, %rsi
	movq	-56(%rsp), %rax                 # 8-byte Reload
	movq	%rax, -16(%rsp)                 # 8-byte Spill
	movq	-64(%rsp), %rax                 # 8-byte Reload
	movq	%rax, -72(%rsp)                 # 8-byte Spill
	movq	-112(%rsp), %rax                # 8-byte Reload
	movq	%rax, -56(%rsp)                 # 8-byte Spill
	movq	-104(%rsp), %rax                # 8-byte Reload
	movq	%rax, -64(%rsp)                 # 8-byte Spill
	movq	%rdx, -104(%rsp)                # 8-byte Spill
	movq	%r8, -40(%rsp)                  # 8-byte Spill
	subq	$-128, %rdi
	movq	-88(%rsp), %r8                  # 8-byte Reload
	movq	%rbx, -112(%rsp)                # 8-byte Spill
	movq	%rdi, %rax
	cmpq	$512, %rdi                      # imm = 0x200
	jne	.Ldeerlapse_0_1_0_v3_BB11_3
# %bb.4:                                # %after.8
	addq	48(%rsp), %r13                  # 8-byte Folded Reload
	addq	56(%rsp), %rbp                  # 8-byte Folded Reload
	addq	64(%rsp), %r15                  # 8-byte Folded Reload
	movq	-96(%rsp), %rcx                 # 8-byte Reload
	addq	72(%rsp), %rcx                  # 8-byte Folded Reload
	addq	80(%rsp), %rsi                  # 8-byte Folded Reload
	addq	88(%rsp), %r12                  # 8-byte Folded Reload
	addq	96(%rsp), %r11                  # 8-byte Folded Reload
	addq	104(%rsp), %r14                 # 8-byte Folded Reload
	movq	112(%rsp), %rax                 # 8-byte Reload
	movq	%r13, (%rax)
	movq	%rbp, 8(%rax)
	movq	%r15, 16(%rax)
	movq	%rcx, 24(%rax)
	movq	%rsi, 32(%rax)
	movq	%r12, 40(%rax)
	movq	%r11, 48(%rax)
	movq	%r14, 56(%rax)
	addq	$280, %rsp                      # imm = 0x118
	.cfi_def_cfa_offset 56
	popq	%rbx
	.cfi_def_cfa_offset 48
	popq	%r12
	.cfi_def_cfa_offset 40
	popq	%r13
	.cfi_def_cfa_offset 32
	popq	%r14
	.cfi_def_cfa_offset 24
	popq	%r15
	.cfi_def_cfa_offset 16
	popq	%rbp
	.cfi_def_cfa_offset 8
	vzeroupper
	retq
.Ldeerlapse_0_1_0_v3_func_end11:
	.size	"deerlapse_0_1_0_v3::sha2::block512::compress", .Ldeerlapse_0_1_0_v3_func_end11-"deerlapse_0_1_0_v3::sha2::block512::compress"
	.cfi_endproc
                                        # -- End function
	.section	.rodata.cst32,"aM",@progbits,32
	.p2align	5, 0x0                          # -- Begin function key_derivation::hmac::absorb_xored::<#01e4f4eb65b1d8bb>
.Ldeerlapse_0_1_0_v3_CPI12_0:
	.quad	-3766243637369397544            # 0xcbbb9d5dc1059ed8
	.quad	7105036623409894663             # 0x629a292a367cd507
	.quad	-7973340178411365097            # 0x9159015a3070dd17
	.quad	1526699215303891257             # 0x152fecd8f70e5939
.Ldeerlapse_0_1_0_v3_CPI12_1:
	.quad	7436329637833083697             # 0x67332667ffc00b31
	.quad	-8163818279084223215            # 0x8eb44a8768581511
	.quad	-2662702644619276377            # 0xdb0c2e0d64f98fa7
	.quad	5167115440072839076             # 0x47b5481dbefa4fa4
	.section	.text.deerlapse_key_derivation,"ax",@progbits
	.type	"deerlapse_0_1_0_v3::key_derivation::hmac::absorb_xored::<#01e4f4eb65b1d8bb>",@function
"deerlapse_0_1_0_v3::key_derivation::hmac::absorb_xored::<#01e4f4eb65b1d8bb>": # @"deerlapse_0_1_0_v3::key_derivation::hmac::absorb_xored::<#01e4f4eb65b1d8bb>"
	.cfi_startproc
# %bb.0:                                # %start
	pushq	%r14
	.cfi_def_cfa_offset 16
	pushq	%rbx
	.cfi_def_cfa_offset 24
	subq	$344, %rsp                      # imm = 0x158
	.cfi_def_cfa_offset 368
	.cfi_offset %rbx, -24
	.cfi_offset %r14, -16
	vxorps	%xmm0, %xmm0, %xmm0
	vmovups	%ymm0, 96(%rsp)
	vmovups	%ymm0, 64(%rsp)
	vmovups	%ymm0, 32(%rsp)
	vmovups	%ymm0, (%rsp)
	movq	%rdi, %rbx
	vmovd	%edx, %xmm0
	vpbroadcastb	%xmm0, %ymm0
	xorl	%eax, %eax
.Ldeerlapse_0_1_0_v3_BB12_1:                               # %vector.body
                                        # =>This Inner Loop Header: Depth=1
	vpxor	(%rsi,%rax), %ymm0, %ymm1
	vmovdqu	%ymm1, (%rsp,%rax)
	addq	$32, %rax
	cmpq	$128, %rax
	jne	.Ldeerlapse_0_1_0_v3_BB12_1
# %bb.2:                                # %after.1
	vmovaps	.Ldeerlapse_0_1_0_v3_CPI12_0(%rip), %ymm0          # ymm0 = [14680500436340154072,7105036623409894663,10473403895298186519,1526699215303891257]
	leaq	128(%rsp), %r14
	vmovups	%ymm0, (%r14)
	vmovaps	.Ldeerlapse_0_1_0_v3_CPI12_1(%rip), %ymm0          # ymm0 = [7436329637833083697,10282925794625328401,15784041429090275239,5167115440072839076]
	vmovups	%ymm0, 32(%r14)
	vxorps	%xmm0, %xmm0, %xmm0
	vmovups	%ymm0, 64(%r14)
	vmovups	%ymm0, 96(%r14)
	vmovups	%ymm0, 128(%r14)
	vmovups	%ymm0, 160(%r14)
	vmovups	%ymm0, 176(%r14)
	movq	%rsp, %rsi
	movl	$128, %edx
	movq	%r14, %rdi
	vzeroupper
	callq	"deerlapse_0_1_0_v3::sha2::block512::Core512::update"
	movl	$208, %edx
	movq	%rbx, %rdi
	movq	%r14, %rsi
	callq	memcpy@PLT
	addq	$344, %rsp                      # imm = 0x158
	.cfi_def_cfa_offset 24
	popq	%rbx
	.cfi_def_cfa_offset 16
	popq	%r14
	.cfi_def_cfa_offset 8
	retq
.Ldeerlapse_0_1_0_v3_func_end12:
	.size	"deerlapse_0_1_0_v3::key_derivation::hmac::absorb_xored::<#01e4f4eb65b1d8bb>", .Ldeerlapse_0_1_0_v3_func_end12-"deerlapse_0_1_0_v3::key_derivation::hmac::absorb_xored::<#01e4f4eb65b1d8bb>"
	.cfi_endproc
                                        # -- End function
	.section	.text.deerlapse_key_derivation,"ax",@progbits
	.type	"deerlapse_0_1_0_v3::key_derivation::hmac::HmacKey::finish::<#01e4f4eb65b1d8bb>",@function # -- Begin function key_derivation::hmac::HmacKey::finish::<#01e4f4eb65b1d8bb>
"deerlapse_0_1_0_v3::key_derivation::hmac::HmacKey::finish::<#01e4f4eb65b1d8bb>": # @"deerlapse_0_1_0_v3::key_derivation::hmac::HmacKey::finish::<#01e4f4eb65b1d8bb>"
	.cfi_startproc
# %bb.0:                                # %start
	pushq	%rbp
	.cfi_def_cfa_offset 16
	pushq	%r15
	.cfi_def_cfa_offset 24
	pushq	%r14
	.cfi_def_cfa_offset 32
	pushq	%r13
	.cfi_def_cfa_offset 40
	pushq	%r12
	.cfi_def_cfa_offset 48
	pushq	%rbx
	.cfi_def_cfa_offset 56
	subq	$952, %rsp                      # imm = 0x3B8
	.cfi_def_cfa_offset 1008
	.cfi_offset %rbx, -56
	.cfi_offset %r12, -48
	.cfi_offset %r13, -40
	.cfi_offset %r14, -32
	.cfi_offset %r15, -24
	.cfi_offset %rbp, -16
	vxorps	%xmm0, %xmm0, %xmm0
	leaq	64(%rsp), %rbx
	vmovups	%ymm0, 16(%rbx)
	vmovups	%ymm0, (%rbx)
	leaq	16(%rsp), %r15
	vmovups	%ymm0, (%r15)
	movq	%rdx, %r12
	movq	%rdi, %r14
	vmovups	%ymm0, 16(%r15)
	vmovups	208(%rsi), %ymm0
	vmovups	240(%rsi), %ymm1
	leaq	112(%rsp), %rax
	vmovups	%ymm1, 32(%rax)
	vmovups	%ymm0, (%rax)
	vmovups	272(%rsi), %ymm0
	vmovups	304(%rsi), %ymm1
	vmovups	336(%rsi), %ymm2
	vmovups	368(%rsi), %ymm3
	vmovups	%ymm0, 64(%rax)
	vmovups	%ymm1, 96(%rax)
	vmovups	%ymm2, 128(%rax)
	vmovups	%ymm3, 160(%rax)
	vmovaps	400(%rsi), %xmm0
	vmovaps	%xmm0, (%rsp)                   # 16-byte Spill
	leaq	336(%rsp), %r13
	movl	$192, %edx
	movq	%r13, %rdi
	movq	%rax, %rsi
	vzeroupper
	callq	memcpy@PLT
	leaq	127(%rsp), %rbp
	movl	$192, %edx
	movq	%rbp, %rdi
	movq	%r13, %rsi
	callq	memcpy@PLT
	leaq	736(%rsp), %r13
	movl	$192, %edx
	movq	%r13, %rdi
	movq	%rbp, %rsi
	callq	memcpy@PLT
	vmovaps	(%rsp), %xmm0                   # 16-byte Reload
	vmovaps	%xmm0, 192(%r13)
	leaq	528(%rsp), %rbp
	movl	$208, %edx
	movq	%rbp, %rdi
	movq	%r12, %rsi
	callq	memcpy@PLT
	movq	%r15, %rdi
	movq	%rbp, %rsi
	callq	"deerlapse_0_1_0_v3::sha2::Sha384Digest::finalize"
	movl	$48, %edx
	movq	%r13, %rdi
	movq	%r15, %rsi
	callq	"deerlapse_0_1_0_v3::sha2::block512::Core512::update"
	movq	%rbx, %rdi
	movq	%r13, %rsi
	callq	"deerlapse_0_1_0_v3::sha2::Sha384Digest::finalize"
	vmovups	(%rbx), %ymm0
	vmovups	16(%rbx), %ymm1
	vmovups	%ymm1, 16(%r14)
	vmovups	%ymm0, (%r14)
	addq	$952, %rsp                      # imm = 0x3B8
	.cfi_def_cfa_offset 56
	popq	%rbx
	.cfi_def_cfa_offset 48
	popq	%r12
	.cfi_def_cfa_offset 40
	popq	%r13
	.cfi_def_cfa_offset 32
	popq	%r14
	.cfi_def_cfa_offset 24
	popq	%r15
	.cfi_def_cfa_offset 16
	popq	%rbp
	.cfi_def_cfa_offset 8
	vzeroupper
	retq
.Ldeerlapse_0_1_0_v3_func_end13:
	.size	"deerlapse_0_1_0_v3::key_derivation::hmac::HmacKey::finish::<#01e4f4eb65b1d8bb>", .Ldeerlapse_0_1_0_v3_func_end13-"deerlapse_0_1_0_v3::key_derivation::hmac::HmacKey::finish::<#01e4f4eb65b1d8bb>"
	.cfi_endproc
                                        # -- End function
	.section	.rodata.cst16,"aM",@progbits,16
	.p2align	4, 0x0                          # -- Begin function aead_ciphers_wide::aes::expand
.Ldeerlapse_0_1_0_v3_CPI14_0:
	.zero	16,15
.Ldeerlapse_0_1_0_v3_CPI14_1:
	.byte	0                               # 0x0
	.byte	1                               # 0x1
	.byte	39                              # 0x27
	.byte	38                              # 0x26
	.byte	192                             # 0xc0
	.byte	193                             # 0xc1
	.byte	231                             # 0xe7
	.byte	230                             # 0xe6
	.byte	195                             # 0xc3
	.byte	194                             # 0xc2
	.byte	228                             # 0xe4
	.byte	229                             # 0xe5
	.byte	3                               # 0x3
	.byte	2                               # 0x2
	.byte	36                              # 0x24
	.byte	37                              # 0x25
.Ldeerlapse_0_1_0_v3_CPI14_2:
	.byte	0                               # 0x0
	.byte	170                             # 0xaa
	.byte	122                             # 0x7a
	.byte	208                             # 0xd0
	.byte	175                             # 0xaf
	.byte	5                               # 0x5
	.byte	213                             # 0xd5
	.byte	127                             # 0x7f
	.byte	216                             # 0xd8
	.byte	114                             # 0x72
	.byte	162                             # 0xa2
	.byte	8                               # 0x8
	.byte	119                             # 0x77
	.byte	221                             # 0xdd
	.byte	13                              # 0xd
	.byte	167                             # 0xa7
.Ldeerlapse_0_1_0_v3_CPI14_3:
	.byte	128                             # 0x80
	.byte	3                               # 0x3
	.byte	13                              # 0xd
	.byte	1                               # 0x1
	.byte	10                              # 0xa
	.byte	8                               # 0x8
	.byte	12                              # 0xc
	.byte	11                              # 0xb
	.byte	5                               # 0x5
	.byte	14                              # 0xe
	.byte	4                               # 0x4
	.byte	7                               # 0x7
	.byte	6                               # 0x6
	.byte	2                               # 0x2
	.byte	9                               # 0x9
	.byte	15                              # 0xf
.Ldeerlapse_0_1_0_v3_CPI14_4:
	.byte	128                             # 0x80
	.byte	1                               # 0x1
	.byte	12                              # 0xc
	.byte	8                               # 0x8
	.byte	6                               # 0x6
	.byte	15                              # 0xf
	.byte	4                               # 0x4
	.byte	14                              # 0xe
	.byte	3                               # 0x3
	.byte	13                              # 0xd
	.byte	11                              # 0xb
	.byte	10                              # 0xa
	.byte	2                               # 0x2
	.byte	9                               # 0x9
	.byte	7                               # 0x7
	.byte	5                               # 0x5
.Ldeerlapse_0_1_0_v3_CPI14_5:
	.byte	0                               # 0x0
	.byte	250                             # 0xfa
	.byte	53                              # 0x35
	.byte	106                             # 0x6a
	.byte	43                              # 0x2b
	.byte	187                             # 0xbb
	.byte	95                              # 0x5f
	.byte	65                              # 0x41
	.byte	142                             # 0x8e
	.byte	207                             # 0xcf
	.byte	228                             # 0xe4
	.byte	30                              # 0x1e
	.byte	116                             # 0x74
	.byte	144                             # 0x90
	.byte	209                             # 0xd1
	.byte	165                             # 0xa5
.Ldeerlapse_0_1_0_v3_CPI14_6:
	.byte	0                               # 0x0
	.byte	129                             # 0x81
	.byte	153                             # 0x99
	.byte	118                             # 0x76
	.byte	10                              # 0xa
	.byte	253                             # 0xfd
	.byte	239                             # 0xef
	.byte	124                             # 0x7c
	.byte	100                             # 0x64
	.byte	24                              # 0x18
	.byte	18                              # 0x12
	.byte	147                             # 0x93
	.byte	229                             # 0xe5
	.byte	247                             # 0xf7
	.byte	139                             # 0x8b
	.byte	110                             # 0x6e
.Ldeerlapse_0_1_0_v3_CPI14_7:
	.byte	13                              # 0xd
	.byte	14                              # 0xe
	.byte	15                              # 0xf
	.byte	12                              # 0xc
	.byte	13                              # 0xd
	.byte	14                              # 0xe
	.byte	15                              # 0xf
	.byte	12                              # 0xc
	.byte	13                              # 0xd
	.byte	14                              # 0xe
	.byte	15                              # 0xf
	.byte	12                              # 0xc
	.byte	13                              # 0xd
	.byte	14                              # 0xe
	.byte	15                              # 0xf
	.byte	12                              # 0xc
.Ldeerlapse_0_1_0_v3_CPI14_8:
	.byte	255                             # 0xff
	.byte	0                               # 0x0
	.byte	0                               # 0x0
	.byte	0                               # 0x0
	.byte	255                             # 0xff
	.byte	0                               # 0x0
	.byte	0                               # 0x0
	.byte	0                               # 0x0
	.byte	255                             # 0xff
	.byte	0                               # 0x0
	.byte	0                               # 0x0
	.byte	0                               # 0x0
	.byte	255                             # 0xff
	.byte	0                               # 0x0
	.byte	0                               # 0x0
	.byte	0                               # 0x0
.Ldeerlapse_0_1_0_v3_CPI14_9:
	.zero	16,99
	.section	.rodata.cst4,"aM",@progbits,4
	.p2align	2, 0x0
.Ldeerlapse_0_1_0_v3_CPI14_10:
	.zero	4,15
	.section	.text.deerlapse_aes_gcm,"ax",@progbits
	.p2align	4
	.type	"deerlapse_0_1_0_v3::aead_ciphers_wide::aes::expand",@function
"deerlapse_0_1_0_v3::aead_ciphers_wide::aes::expand":       # @"deerlapse_0_1_0_v3::aead_ciphers_wide::aes::expand"
	.cfi_startproc
# %bb.0:                                # %start
	xorl	%eax, %eax
	testb	%sil, %sil
	setne	%al
	shll	$4, %eax
	addq	$16, %rax
	vxorps	%xmm0, %xmm0, %xmm0
	vmovups	%ymm0, 208(%rdi)
	vmovups	%ymm0, 176(%rdi)
	movl	%eax, %ecx
	shrl	$4, %ecx
	xorl	%r8d, %r8d
	movq	%rcx, %r9
	.p2align	4
.Ldeerlapse_0_1_0_v3_BB14_1:                               # %join.5.i617.i.epil
                                        # =>This Inner Loop Header: Depth=1
	vmovups	(%rdx,%r8), %xmm0
	vmovups	%xmm0, (%rdi,%r8)
	addq	$16, %r8
	decq	%r9
	jne	.Ldeerlapse_0_1_0_v3_BB14_1
# %bb.2:                                # %join.5.lr.ph.i
	xorl	%edx, %edx
	testb	%sil, %sil
	setne	%dl
	movl	%eax, %r8d
	shrl	$2, %r8d
	vmovdqu	(%rdi), %xmm1
	leaq	(%rdi,%rax), %r9
	vmovdqu	-16(%rdi,%rax), %xmm0
	leaq	6(%r8), %rax
	leaq	-1(%rcx), %rdi
	addq	$7, %r8
	jmp	.Ldeerlapse_0_1_0_v3_BB14_3
	.p2align	4
.Ldeerlapse_0_1_0_v3_BB14_8:                               # %"aead_ciphers_wide::aes::key_schedule::transformed.exit.i"
                                        #   in Loop: Header=BB14_3 Depth=1
	incq	%rcx
	addq	$16, %r9
	vmovdqa	%xmm0, %xmm1
	vmovdqa	%xmm2, %xmm0
	cmpq	%rcx, %r8
	je	.Ldeerlapse_0_1_0_v3_BB14_9
.Ldeerlapse_0_1_0_v3_BB14_3:                               # %join.5.i
                                        # =>This Inner Loop Header: Depth=1
	testq	%rdi, %rcx
	je	.Ldeerlapse_0_1_0_v3_BB14_4
# %bb.5:                                # %else.4.i.i
                                        #   in Loop: Header=BB14_3 Depth=1
	vpshufd	$255, %xmm0, %xmm2              # xmm2 = xmm0[3,3,3,3]
	vpbroadcastd	.Ldeerlapse_0_1_0_v3_CPI14_10(%rip), %xmm3 # xmm3 = [15,15,15,15,15,15,15,15,15,15,15,15,15,15,15,15]
	vpand	%xmm3, %xmm2, %xmm4
	vmovdqa	.Ldeerlapse_0_1_0_v3_CPI14_1(%rip), %xmm5          # xmm5 = [0,1,39,38,192,193,231,230,195,194,228,229,3,2,36,37]
	vpshufb	%xmm4, %xmm5, %xmm4
	vpsrlw	$4, %xmm2, %xmm2
	vpand	%xmm3, %xmm2, %xmm2
	vmovdqa	.Ldeerlapse_0_1_0_v3_CPI14_2(%rip), %xmm5          # xmm5 = [0,170,122,208,175,5,213,127,216,114,162,8,119,221,13,167]
	vpshufb	%xmm2, %xmm5, %xmm2
	vpxor	%xmm4, %xmm2, %xmm2
	vpand	%xmm3, %xmm2, %xmm4
	vpsrlw	$4, %xmm2, %xmm2
	vpand	%xmm3, %xmm2, %xmm2
	vpxor	%xmm4, %xmm2, %xmm3
	vmovdqa	.Ldeerlapse_0_1_0_v3_CPI14_3(%rip), %xmm5          # xmm5 = [128,3,13,1,10,8,12,11,5,14,4,7,6,2,9,15]
	vpshufb	%xmm4, %xmm5, %xmm4
	vmovdqa	.Ldeerlapse_0_1_0_v3_CPI14_4(%rip), %xmm5          # xmm5 = [128,1,12,8,6,15,4,14,3,13,11,10,2,9,7,5]
	vpshufb	%xmm2, %xmm5, %xmm6
	vpxor	%xmm4, %xmm6, %xmm6
	vpshufb	%xmm3, %xmm5, %xmm7
	vpxor	%xmm4, %xmm7, %xmm4
	vpshufb	%xmm6, %xmm5, %xmm6
	vpxor	%xmm3, %xmm6, %xmm3
	vpshufb	%xmm4, %xmm5, %xmm4
	vpxor	%xmm2, %xmm4, %xmm2
	vmovdqa	.Ldeerlapse_0_1_0_v3_CPI14_5(%rip), %xmm4          # xmm4 = [0,250,53,106,43,187,95,65,142,207,228,30,116,144,209,165]
	vpshufb	%xmm3, %xmm4, %xmm3
	vmovdqa	.Ldeerlapse_0_1_0_v3_CPI14_6(%rip), %xmm4          # xmm4 = [0,129,153,118,10,253,239,124,100,24,18,147,229,247,139,110]
	vpshufb	%xmm2, %xmm4, %xmm2
	jmp	.Ldeerlapse_0_1_0_v3_BB14_6
	.p2align	4
.Ldeerlapse_0_1_0_v3_BB14_4:                               # %ok.6.i.i
                                        #   in Loop: Header=BB14_3 Depth=1
	shrxq	%rdx, %rcx, %r10
	vpshufb	.Ldeerlapse_0_1_0_v3_CPI14_7(%rip), %xmm0, %xmm2   # xmm2 = xmm0[13,14,15,12,13,14,15,12,13,14,15,12,13,14,15,12]
	vpbroadcastd	.Ldeerlapse_0_1_0_v3_CPI14_10(%rip), %xmm3 # xmm3 = [15,15,15,15,15,15,15,15,15,15,15,15,15,15,15,15]
	vpand	%xmm3, %xmm2, %xmm4
	vmovdqa	.Ldeerlapse_0_1_0_v3_CPI14_1(%rip), %xmm5          # xmm5 = [0,1,39,38,192,193,231,230,195,194,228,229,3,2,36,37]
	vpshufb	%xmm4, %xmm5, %xmm4
	vpsrlw	$4, %xmm2, %xmm2
	vpand	%xmm3, %xmm2, %xmm2
	vmovdqa	.Ldeerlapse_0_1_0_v3_CPI14_2(%rip), %xmm5          # xmm5 = [0,170,122,208,175,5,213,127,216,114,162,8,119,221,13,167]
	vpshufb	%xmm2, %xmm5, %xmm2
	vpxor	%xmm4, %xmm2, %xmm2
	vpand	%xmm3, %xmm2, %xmm4
	vpsrlw	$4, %xmm2, %xmm2
	vpand	%xmm3, %xmm2, %xmm2
	vpxor	%xmm4, %xmm2, %xmm3
	vmovdqa	.Ldeerlapse_0_1_0_v3_CPI14_3(%rip), %xmm5          # xmm5 = [128,3,13,1,10,8,12,11,5,14,4,7,6,2,9,15]
	vpshufb	%xmm4, %xmm5, %xmm4
	vmovdqa	.Ldeerlapse_0_1_0_v3_CPI14_4(%rip), %xmm5          # xmm5 = [128,1,12,8,6,15,4,14,3,13,11,10,2,9,7,5]
	vpshufb	%xmm2, %xmm5, %xmm6
	vpxor	%xmm4, %xmm6, %xmm6
	vpshufb	%xmm3, %xmm5, %xmm7
	vpxor	%xmm4, %xmm7, %xmm4
	vpshufb	%xmm6, %xmm5, %xmm6
	vpxor	%xmm3, %xmm6, %xmm3
	vpshufb	%xmm4, %xmm5, %xmm4
	vpxor	%xmm2, %xmm4, %xmm2
	vmovdqa	.Ldeerlapse_0_1_0_v3_CPI14_5(%rip), %xmm4          # xmm4 = [0,250,53,106,43,187,95,65,142,207,228,30,116,144,209,165]
	vpshufb	%xmm3, %xmm4, %xmm3
	vmovdqa	.Ldeerlapse_0_1_0_v3_CPI14_6(%rip), %xmm4          # xmm4 = [0,129,153,118,10,253,239,124,100,24,18,147,229,247,139,110]
	vpshufb	%xmm2, %xmm4, %xmm2
	leaq	.Ldeerlapse_0_1_0_v3_static.4(%rip), %r11
	vpbroadcastb	-1(%r10,%r11), %xmm4
	vpand	.Ldeerlapse_0_1_0_v3_CPI14_8(%rip), %xmm4, %xmm4
	vpxor	%xmm4, %xmm3, %xmm3
.Ldeerlapse_0_1_0_v3_BB14_6:                               # %"aead_ciphers_wide::aes::key_schedule::transformed.exit.i"
                                        #   in Loop: Header=BB14_3 Depth=1
	vpxor	%xmm3, %xmm2, %xmm2
	vpslldq	$4, %xmm1, %xmm3                # xmm3 = zero,zero,zero,zero,xmm1[0,1,2,3,4,5,6,7,8,9,10,11]
	vpxor	%xmm1, %xmm3, %xmm1
	vpslldq	$8, %xmm1, %xmm3                # xmm3 = zero,zero,zero,zero,zero,zero,zero,zero,xmm1[0,1,2,3,4,5,6,7]
	vpxor	%xmm1, %xmm3, %xmm1
	vpxor	%xmm2, %xmm1, %xmm1
	vpxor	.Ldeerlapse_0_1_0_v3_CPI14_9(%rip), %xmm1, %xmm2
	vmovdqu	%xmm2, (%r9)
	testb	%sil, %sil
	jne	.Ldeerlapse_0_1_0_v3_BB14_8
# %bb.7:                                # %"aead_ciphers_wide::aes::key_schedule::transformed.exit.i"
                                        #   in Loop: Header=BB14_3 Depth=1
	vmovdqa	%xmm2, %xmm0
	jmp	.Ldeerlapse_0_1_0_v3_BB14_8
.Ldeerlapse_0_1_0_v3_BB14_9:                               # %"aead_ciphers_wide::aes::key_schedule::expand.exit"
	vzeroupper
	retq
.Ldeerlapse_0_1_0_v3_func_end14:
	.size	"deerlapse_0_1_0_v3::aead_ciphers_wide::aes::expand", .Ldeerlapse_0_1_0_v3_func_end14-"deerlapse_0_1_0_v3::aead_ciphers_wide::aes::expand"
	.cfi_endproc
                                        # -- End function
	.section	.rodata.cst16,"aM",@progbits,16
	.p2align	4, 0x0                          # -- Begin function aead_ciphers_wide::aes::block_key::BlockKeyRef::encrypt_one
.Ldeerlapse_0_1_0_v3_CPI15_0:
	.zero	16,15
.Ldeerlapse_0_1_0_v3_CPI15_1:
	.byte	0                               # 0x0
	.byte	1                               # 0x1
	.byte	39                              # 0x27
	.byte	38                              # 0x26
	.byte	192                             # 0xc0
	.byte	193                             # 0xc1
	.byte	231                             # 0xe7
	.byte	230                             # 0xe6
	.byte	195                             # 0xc3
	.byte	194                             # 0xc2
	.byte	228                             # 0xe4
	.byte	229                             # 0xe5
	.byte	3                               # 0x3
	.byte	2                               # 0x2
	.byte	36                              # 0x24
	.byte	37                              # 0x25
.Ldeerlapse_0_1_0_v3_CPI15_2:
	.byte	0                               # 0x0
	.byte	170                             # 0xaa
	.byte	122                             # 0x7a
	.byte	208                             # 0xd0
	.byte	175                             # 0xaf
	.byte	5                               # 0x5
	.byte	213                             # 0xd5
	.byte	127                             # 0x7f
	.byte	216                             # 0xd8
	.byte	114                             # 0x72
	.byte	162                             # 0xa2
	.byte	8                               # 0x8
	.byte	119                             # 0x77
	.byte	221                             # 0xdd
	.byte	13                              # 0xd
	.byte	167                             # 0xa7
.Ldeerlapse_0_1_0_v3_CPI15_3:
	.byte	128                             # 0x80
	.byte	3                               # 0x3
	.byte	13                              # 0xd
	.byte	1                               # 0x1
	.byte	10                              # 0xa
	.byte	8                               # 0x8
	.byte	12                              # 0xc
	.byte	11                              # 0xb
	.byte	5                               # 0x5
	.byte	14                              # 0xe
	.byte	4                               # 0x4
	.byte	7                               # 0x7
	.byte	6                               # 0x6
	.byte	2                               # 0x2
	.byte	9                               # 0x9
	.byte	15                              # 0xf
.Ldeerlapse_0_1_0_v3_CPI15_4:
	.byte	128                             # 0x80
	.byte	1                               # 0x1
	.byte	12                              # 0xc
	.byte	8                               # 0x8
	.byte	6                               # 0x6
	.byte	15                              # 0xf
	.byte	4                               # 0x4
	.byte	14                              # 0xe
	.byte	3                               # 0x3
	.byte	13                              # 0xd
	.byte	11                              # 0xb
	.byte	10                              # 0xa
	.byte	2                               # 0x2
	.byte	9                               # 0x9
	.byte	7                               # 0x7
	.byte	5                               # 0x5
.Ldeerlapse_0_1_0_v3_CPI15_5:
	.byte	0                               # 0x0
	.byte	250                             # 0xfa
	.byte	53                              # 0x35
	.byte	106                             # 0x6a
	.byte	43                              # 0x2b
	.byte	187                             # 0xbb
	.byte	95                              # 0x5f
	.byte	65                              # 0x41
	.byte	142                             # 0x8e
	.byte	207                             # 0xcf
	.byte	228                             # 0xe4
	.byte	30                              # 0x1e
	.byte	116                             # 0x74
	.byte	144                             # 0x90
	.byte	209                             # 0xd1
	.byte	165                             # 0xa5
.Ldeerlapse_0_1_0_v3_CPI15_6:
	.byte	0                               # 0x0
	.byte	129                             # 0x81
	.byte	153                             # 0x99
	.byte	118                             # 0x76
	.byte	10                              # 0xa
	.byte	253                             # 0xfd
	.byte	239                             # 0xef
	.byte	124                             # 0x7c
	.byte	100                             # 0x64
	.byte	24                              # 0x18
	.byte	18                              # 0x12
	.byte	147                             # 0x93
	.byte	229                             # 0xe5
	.byte	247                             # 0xf7
	.byte	139                             # 0x8b
	.byte	110                             # 0x6e
.Ldeerlapse_0_1_0_v3_CPI15_7:
	.zero	16,99
.Ldeerlapse_0_1_0_v3_CPI15_8:
	.byte	0                               # 0x0
	.byte	5                               # 0x5
	.byte	10                              # 0xa
	.byte	15                              # 0xf
	.byte	4                               # 0x4
	.byte	9                               # 0x9
	.byte	14                              # 0xe
	.byte	3                               # 0x3
	.byte	8                               # 0x8
	.byte	13                              # 0xd
	.byte	2                               # 0x2
	.byte	7                               # 0x7
	.byte	12                              # 0xc
	.byte	1                               # 0x1
	.byte	6                               # 0x6
	.byte	11                              # 0xb
.Ldeerlapse_0_1_0_v3_CPI15_9:
	.byte	5                               # 0x5
	.byte	10                              # 0xa
	.byte	15                              # 0xf
	.byte	0                               # 0x0
	.byte	9                               # 0x9
	.byte	14                              # 0xe
	.byte	3                               # 0x3
	.byte	4                               # 0x4
	.byte	13                              # 0xd
	.byte	2                               # 0x2
	.byte	7                               # 0x7
	.byte	8                               # 0x8
	.byte	1                               # 0x1
	.byte	6                               # 0x6
	.byte	11                              # 0xb
	.byte	12                              # 0xc
.Ldeerlapse_0_1_0_v3_CPI15_10:
	.zero	16,27
.Ldeerlapse_0_1_0_v3_CPI15_11:
	.byte	2                               # 0x2
	.byte	3                               # 0x3
	.byte	0                               # 0x0
	.byte	1                               # 0x1
	.byte	6                               # 0x6
	.byte	7                               # 0x7
	.byte	4                               # 0x4
	.byte	5                               # 0x5
	.byte	10                              # 0xa
	.byte	11                              # 0xb
	.byte	8                               # 0x8
	.byte	9                               # 0x9
	.byte	14                              # 0xe
	.byte	15                              # 0xf
	.byte	12                              # 0xc
	.byte	13                              # 0xd
	.section	.rodata.cst4,"aM",@progbits,4
	.p2align	2, 0x0
.Ldeerlapse_0_1_0_v3_CPI15_12:
	.zero	4,15
	.section	.text.deerlapse_aes_gcm,"ax",@progbits
	.p2align	4
	.type	"deerlapse_0_1_0_v3::aead_ciphers_wide::aes::block_key::BlockKeyRef::encrypt_one",@function
"deerlapse_0_1_0_v3::aead_ciphers_wide::aes::block_key::BlockKeyRef::encrypt_one": # @"deerlapse_0_1_0_v3::aead_ciphers_wide::aes::block_key::BlockKeyRef::encrypt_one"
	.cfi_startproc
# %bb.0:                                # %start
	vmovdqu	(%rsi), %xmm0
	vpxor	(%rcx), %xmm0, %xmm0
	cmpq	$2, %rdx
	jb	.Ldeerlapse_0_1_0_v3_BB15_3
# %bb.1:                                # %join.5.preheader
	leaq	-1(%rdx), %rax
	leaq	16(%rsi), %rcx
	.p2align	4
.Ldeerlapse_0_1_0_v3_BB15_2:                               # %join.5
                                        # =>This Inner Loop Header: Depth=1
	vpbroadcastd	.Ldeerlapse_0_1_0_v3_CPI15_12(%rip), %xmm1 # xmm1 = [15,15,15,15,15,15,15,15,15,15,15,15,15,15,15,15]
	vpand	%xmm1, %xmm0, %xmm2
	vmovdqa	.Ldeerlapse_0_1_0_v3_CPI15_1(%rip), %xmm3          # xmm3 = [0,1,39,38,192,193,231,230,195,194,228,229,3,2,36,37]
	vpshufb	%xmm2, %xmm3, %xmm2
	vpsrlw	$4, %xmm0, %xmm0
	vpand	%xmm1, %xmm0, %xmm0
	vmovdqa	.Ldeerlapse_0_1_0_v3_CPI15_2(%rip), %xmm3          # xmm3 = [0,170,122,208,175,5,213,127,216,114,162,8,119,221,13,167]
	vpshufb	%xmm0, %xmm3, %xmm0
	vpxor	%xmm2, %xmm0, %xmm0
	vpand	%xmm1, %xmm0, %xmm2
	vpsrlw	$4, %xmm0, %xmm0
	vpand	%xmm1, %xmm0, %xmm0
	vpxor	%xmm2, %xmm0, %xmm1
	vmovdqa	.Ldeerlapse_0_1_0_v3_CPI15_3(%rip), %xmm3          # xmm3 = [128,3,13,1,10,8,12,11,5,14,4,7,6,2,9,15]
	vpshufb	%xmm2, %xmm3, %xmm2
	vmovdqa	.Ldeerlapse_0_1_0_v3_CPI15_4(%rip), %xmm3          # xmm3 = [128,1,12,8,6,15,4,14,3,13,11,10,2,9,7,5]
	vpshufb	%xmm0, %xmm3, %xmm4
	vpxor	%xmm2, %xmm4, %xmm4
	vpshufb	%xmm1, %xmm3, %xmm5
	vpxor	%xmm2, %xmm5, %xmm2
	vpshufb	%xmm4, %xmm3, %xmm4
	vpxor	%xmm1, %xmm4, %xmm1
	vpshufb	%xmm2, %xmm3, %xmm2
	vpxor	%xmm0, %xmm2, %xmm0
	vmovdqa	.Ldeerlapse_0_1_0_v3_CPI15_5(%rip), %xmm2          # xmm2 = [0,250,53,106,43,187,95,65,142,207,228,30,116,144,209,165]
	vpshufb	%xmm1, %xmm2, %xmm1
	vmovdqa	.Ldeerlapse_0_1_0_v3_CPI15_6(%rip), %xmm2          # xmm2 = [0,129,153,118,10,253,239,124,100,24,18,147,229,247,139,110]
	vpshufb	%xmm0, %xmm2, %xmm0
	vpxor	%xmm0, %xmm1, %xmm0
	vpxor	.Ldeerlapse_0_1_0_v3_CPI15_7(%rip), %xmm0, %xmm0
	vpshufb	.Ldeerlapse_0_1_0_v3_CPI15_8(%rip), %xmm0, %xmm1   # xmm1 = xmm0[0,5,10,15,4,9,14,3,8,13,2,7,12,1,6,11]
	vpshufb	.Ldeerlapse_0_1_0_v3_CPI15_9(%rip), %xmm0, %xmm0   # xmm0 = xmm0[5,10,15,0,9,14,3,4,13,2,7,8,1,6,11,12]
	vpxor	%xmm1, %xmm0, %xmm1
	vpaddb	%xmm1, %xmm1, %xmm2
	vpxor	%xmm3, %xmm3, %xmm3
	vpcmpgtb	%xmm1, %xmm3, %xmm3
	vpand	.Ldeerlapse_0_1_0_v3_CPI15_10(%rip), %xmm3, %xmm3
	vpshufb	.Ldeerlapse_0_1_0_v3_CPI15_11(%rip), %xmm1, %xmm1  # xmm1 = xmm1[2,3,0,1,6,7,4,5,10,11,8,9,14,15,12,13]
	vpxor	%xmm1, %xmm2, %xmm1
	vpxor	%xmm3, %xmm1, %xmm1
	vpxor	(%rcx), %xmm1, %xmm1
	vpxor	%xmm0, %xmm1, %xmm0
	addq	$16, %rcx
	decq	%rax
	jne	.Ldeerlapse_0_1_0_v3_BB15_2
.Ldeerlapse_0_1_0_v3_BB15_3:                               # %after.1
	shlq	$4, %rdx
	vpbroadcastd	.Ldeerlapse_0_1_0_v3_CPI15_12(%rip), %xmm1 # xmm1 = [15,15,15,15,15,15,15,15,15,15,15,15,15,15,15,15]
	vpand	%xmm1, %xmm0, %xmm2
	vmovdqa	.Ldeerlapse_0_1_0_v3_CPI15_1(%rip), %xmm3          # xmm3 = [0,1,39,38,192,193,231,230,195,194,228,229,3,2,36,37]
	vpshufb	%xmm2, %xmm3, %xmm2
	vpsrlw	$4, %xmm0, %xmm0
	vpand	%xmm1, %xmm0, %xmm0
	vmovdqa	.Ldeerlapse_0_1_0_v3_CPI15_2(%rip), %xmm3          # xmm3 = [0,170,122,208,175,5,213,127,216,114,162,8,119,221,13,167]
	vpshufb	%xmm0, %xmm3, %xmm0
	vpxor	%xmm2, %xmm0, %xmm0
	vpand	%xmm1, %xmm0, %xmm2
	vpsrlw	$4, %xmm0, %xmm0
	vpand	%xmm1, %xmm0, %xmm0
	vpxor	%xmm2, %xmm0, %xmm1
	vmovdqa	.Ldeerlapse_0_1_0_v3_CPI15_3(%rip), %xmm3          # xmm3 = [128,3,13,1,10,8,12,11,5,14,4,7,6,2,9,15]
	vpshufb	%xmm2, %xmm3, %xmm2
	vmovdqa	.Ldeerlapse_0_1_0_v3_CPI15_4(%rip), %xmm3          # xmm3 = [128,1,12,8,6,15,4,14,3,13,11,10,2,9,7,5]
	vpshufb	%xmm0, %xmm3, %xmm4
	vpxor	%xmm2, %xmm4, %xmm4
	vpshufb	%xmm1, %xmm3, %xmm5
	vpxor	%xmm2, %xmm5, %xmm2
	vpshufb	%xmm4, %xmm3, %xmm4
	vpxor	%xmm1, %xmm4, %xmm1
	vpshufb	%xmm2, %xmm3, %xmm2
	vpxor	%xmm0, %xmm2, %xmm0
	vmovdqa	.Ldeerlapse_0_1_0_v3_CPI15_5(%rip), %xmm2          # xmm2 = [0,250,53,106,43,187,95,65,142,207,228,30,116,144,209,165]
	vpshufb	%xmm1, %xmm2, %xmm1
	vmovdqa	.Ldeerlapse_0_1_0_v3_CPI15_6(%rip), %xmm2          # xmm2 = [0,129,153,118,10,253,239,124,100,24,18,147,229,247,139,110]
	vpshufb	%xmm0, %xmm2, %xmm0
	vmovdqa	.Ldeerlapse_0_1_0_v3_CPI15_8(%rip), %xmm2          # xmm2 = [0,5,10,15,4,9,14,3,8,13,2,7,12,1,6,11]
	vpshufb	%xmm2, %xmm1, %xmm1
	vpshufb	%xmm2, %xmm0, %xmm0
	vpxor	%xmm0, %xmm1, %xmm0
	vpxor	.Ldeerlapse_0_1_0_v3_CPI15_7(%rip), %xmm0, %xmm0
	vpxor	(%rsi,%rdx), %xmm0, %xmm0
	vmovdqu	%xmm0, (%rdi)
	retq
.Ldeerlapse_0_1_0_v3_func_end15:
	.size	"deerlapse_0_1_0_v3::aead_ciphers_wide::aes::block_key::BlockKeyRef::encrypt_one", .Ldeerlapse_0_1_0_v3_func_end15-"deerlapse_0_1_0_v3::aead_ciphers_wide::aes::block_key::BlockKeyRef::encrypt_one"
	.cfi_endproc
                                        # -- End function
	.section	.rodata.cst16,"aM",@progbits,16
	.p2align	4, 0x0                          # -- Begin function key_derivation::quic::endpoint_secret
.Ldeerlapse_0_1_0_v3_CPI16_0:
	.byte	56                              # 0x38
	.byte	118                             # 0x76
	.byte	44                              # 0x2c
	.byte	247                             # 0xf7
	.byte	245                             # 0xf5
	.byte	89                              # 0x59
	.byte	52                              # 0x34
	.byte	179                             # 0xb3
	.byte	77                              # 0x4d
	.byte	23                              # 0x17
	.byte	154                             # 0x9a
	.byte	230                             # 0xe6
	.byte	164                             # 0xa4
	.byte	200                             # 0xc8
	.byte	12                              # 0xc
	.byte	173                             # 0xad
.Ldeerlapse_0_1_0_v3_CPI16_1:
	.byte	13                              # 0xd
	.byte	237                             # 0xed
	.byte	227                             # 0xe3
	.byte	222                             # 0xde
	.byte	247                             # 0xf7
	.byte	0                               # 0x0
	.byte	166                             # 0xa6
	.byte	219                             # 0xdb
	.byte	129                             # 0x81
	.byte	147                             # 0x93
	.byte	129                             # 0x81
	.byte	190                             # 0xbe
	.byte	110                             # 0x6e
	.byte	38                              # 0x26
	.byte	157                             # 0x9d
	.byte	203                             # 0xcb
.Ldeerlapse_0_1_0_v3_CPI16_2:
	.byte	204                             # 0xcc
	.byte	187                             # 0xbb
	.byte	127                             # 0x7f
	.byte	10                              # 0xa
	.zero	1
	.zero	1
	.zero	1
	.zero	1
	.zero	1
	.zero	1
	.zero	1
	.zero	1
	.zero	1
	.zero	1
	.zero	1
	.zero	1
.Ldeerlapse_0_1_0_v3_CPI16_3:
	.byte	249                             # 0xf9
	.byte	189                             # 0xbd
	.byte	46                              # 0x2e
	.byte	217                             # 0xd9
	.zero	1
	.zero	1
	.zero	1
	.zero	1
	.zero	1
	.zero	1
	.zero	1
	.zero	1
	.zero	1
	.zero	1
	.zero	1
	.zero	1
.Ldeerlapse_0_1_0_v3_CPI16_4:
	.byte	204                             # 0xcc
	.byte	187                             # 0xbb
	.byte	127                             # 0x7f
	.byte	10                              # 0xa
	.byte	0                               # 0x0
	.byte	0                               # 0x0
	.byte	0                               # 0x0
	.byte	0                               # 0x0
	.byte	0                               # 0x0
	.byte	0                               # 0x0
	.byte	0                               # 0x0
	.byte	0                               # 0x0
	.byte	0                               # 0x0
	.byte	0                               # 0x0
	.byte	0                               # 0x0
	.byte	0                               # 0x0
	.section	.text.deerlapse_key_derivation,"ax",@progbits
	.type	"deerlapse_0_1_0_v3::key_derivation::quic::endpoint_secret",@function
"deerlapse_0_1_0_v3::key_derivation::quic::endpoint_secret": # @"deerlapse_0_1_0_v3::key_derivation::quic::endpoint_secret"
	.cfi_startproc
# %bb.0:                                # %start
	pushq	%rbp
	.cfi_def_cfa_offset 16
	pushq	%r15
	.cfi_def_cfa_offset 24
	pushq	%r14
	.cfi_def_cfa_offset 32
	pushq	%r12
	.cfi_def_cfa_offset 40
	pushq	%rbx
	.cfi_def_cfa_offset 48
	subq	$448, %rsp                      # imm = 0x1C0
	.cfi_def_cfa_offset 496
	.cfi_offset %rbx, -48
	.cfi_offset %r12, -40
	.cfi_offset %r14, -32
	.cfi_offset %r15, -24
	.cfi_offset %rbp, -16
	movq	%r8, %r14
	movq	%rcx, %r8
	movq	%rdi, %rbx
	cmpq	$20, %rcx
	jbe	.Ldeerlapse_0_1_0_v3_BB16_2
# %bb.1:                                # %then.1
	movb	$1, (%rbx)
	vxorps	%xmm0, %xmm0, %xmm0
	vmovups	%ymm0, 3(%rbx)
	vmovups	%ymm0, 19(%rbx)
	movb	$1, %bpl
	jmp	.Ldeerlapse_0_1_0_v3_BB16_3
.Ldeerlapse_0_1_0_v3_BB16_2:                               # %join.3
	movq	%rdx, %rcx
	movl	%esi, %ebp
	vmovd	%esi, %xmm0
	vpbroadcastb	%xmm0, %xmm0
	vpsllw	$7, %xmm0, %xmm0
	vmovdqa	.Ldeerlapse_0_1_0_v3_CPI16_0(%rip), %xmm1          # xmm1 = [56,118,44,247,245,89,52,179,77,23,154,230,164,200,12,173]
	vpblendvb	%xmm0, .Ldeerlapse_0_1_0_v3_CPI16_1(%rip), %xmm1, %xmm1
	vmovd	.Ldeerlapse_0_1_0_v3_CPI16_4(%rip), %xmm2          # xmm2 = [204,187,127,10,0,0,0,0,0,0,0,0,0,0,0,0]
	vpblendvb	%xmm0, .Ldeerlapse_0_1_0_v3_CPI16_3(%rip), %xmm2, %xmm0
	leaq	64(%rsp), %rsi
	vmovdqa	%xmm1, (%rsi)
	vmovd	%xmm0, 16(%rsi)
	leaq	160(%rsp), %r15
	movl	$20, %edx
	movq	%r15, %rdi
	callq	"deerlapse_0_1_0_v3::key_derivation::hmac::hmac::<#7cab53feae2e1c66>"
	vmovups	(%r15), %ymm0
	leaq	128(%rsp), %rsi
	vmovups	%ymm0, (%rsi)
	leaq	240(%rsp), %r15
	movl	$32, %edx
	movq	%r15, %rdi
	vzeroupper
	callq	"deerlapse_0_1_0_v3::key_derivation::hmac::HmacKey::new::<#7cab53feae2e1c66>"
	vxorps	%xmm0, %xmm0, %xmm0
	leaq	192(%rsp), %r12
	vmovups	%ymm0, (%r12)
	movq	$32, (%rsp)
	leaq	.Ldeerlapse_0_1_0_v3_static.6(%rip), %rcx
	movl	$9, %edx
	movq	%r15, %rdi
	movq	%r14, %rsi
	xorl	%r8d, %r8d
	movq	%r12, %r9
	vzeroupper
	callq	"deerlapse_0_1_0_v3::key_derivation::hkdf::Expander::fill_labeled::<#7cab53feae2e1c66>"
	vmovups	(%r12), %ymm0
	vmovups	%ymm0, 96(%rsp)
	vpxor	%xmm1, %xmm1, %xmm1
	vmovdqa	%xmm1, 32(%r12)
	vmovups	%ymm0, (%r12)
	vmovups	%ymm0, 16(%rsp)
	vmovups	16(%r12), %xmm0
	vmovups	%xmm0, 32(%rsp)
	vmovups	32(%r12), %xmm0
	vmovups	%xmm0, 48(%rsp)
	movb	$0, (%rbx)
	vmovups	16(%rsp), %xmm0
	vmovups	32(%rsp), %xmm1
	vmovups	32(%rsp), %xmm2
	vmovups	48(%rsp), %xmm3
	vmovups	%xmm0, 3(%rbx)
	vmovups	%xmm1, 19(%rbx)
	vmovups	%xmm2, 19(%rbx)
	vmovups	%xmm3, 35(%rbx)
.Ldeerlapse_0_1_0_v3_BB16_3:                               # %common.ret
	movb	%bpl, 1(%rbx)
	movb	$0, 2(%rbx)
	addq	$448, %rsp                      # imm = 0x1C0
	.cfi_def_cfa_offset 48
	popq	%rbx
	.cfi_def_cfa_offset 40
	popq	%r12
	.cfi_def_cfa_offset 32
	popq	%r14
	.cfi_def_cfa_offset 24
	popq	%r15
	.cfi_def_cfa_offset 16
	popq	%rbp
	.cfi_def_cfa_offset 8
	vzeroupper
	retq
.Ldeerlapse_0_1_0_v3_func_end16:
	.size	"deerlapse_0_1_0_v3::key_derivation::quic::endpoint_secret", .Ldeerlapse_0_1_0_v3_func_end16-"deerlapse_0_1_0_v3::key_derivation::quic::endpoint_secret"
	.cfi_endproc
                                        # -- End function
	.section	.text.deerlapse_key_derivation,"ax",@progbits
	.type	"deerlapse_0_1_0_v3::key_derivation::hkdf::Expander::fill_labeled::<#7cab53feae2e1c66>",@function # -- Begin function key_derivation::hkdf::Expander::fill_labeled::<#7cab53feae2e1c66>
"deerlapse_0_1_0_v3::key_derivation::hkdf::Expander::fill_labeled::<#7cab53feae2e1c66>": # @"deerlapse_0_1_0_v3::key_derivation::hkdf::Expander::fill_labeled::<#7cab53feae2e1c66>"
	.cfi_startproc
# %bb.0:                                # %start
	pushq	%rbp
	.cfi_def_cfa_offset 16
	pushq	%r15
	.cfi_def_cfa_offset 24
	pushq	%r14
	.cfi_def_cfa_offset 32
	pushq	%r13
	.cfi_def_cfa_offset 40
	pushq	%r12
	.cfi_def_cfa_offset 48
	pushq	%rbx
	.cfi_def_cfa_offset 56
	subq	$552, %rsp                      # imm = 0x228
	.cfi_def_cfa_offset 608
	.cfi_offset %rbx, -56
	.cfi_offset %r12, -48
	.cfi_offset %r13, -40
	.cfi_offset %r14, -32
	.cfi_offset %r15, -24
	.cfi_offset %rbp, -16
	movq	%r9, 8(%rsp)                    # 8-byte Spill
	movq	%r8, %r14
	movq	%rcx, %r15
	movq	%rdx, %r12
	movq	%rsi, %r13
	movq	%rdi, %rbp
	leaq	41(%rsp), %rdi
	movl	$511, %edx                      # imm = 0x1FF
	xorl	%esi, %esi
	callq	memset@PLT
	leaq	38(%rsp), %rbx
	movq	%rbx, %rdi
	movq	%r13, %rsi
	movq	%r12, %rdx
	movq	%r15, %rcx
	movq	%r14, %r8
	movq	608(%rsp), %r9
                                        # kill: def $r9d killed $r9d killed $r9
	callq	"deerlapse_0_1_0_v3::key_derivation::hkdf::write_hkdf_label"
	leaq	16(%rsp), %rsi
	movq	%rbx, (%rsi)
	movq	%rax, 8(%rsi)
	movq	%rbp, %rdi
	movq	8(%rsp), %rdx                   # 8-byte Reload
	movq	608(%rsp), %rcx
	callq	"deerlapse_0_1_0_v3::key_derivation::hkdf::Expander::fill_okm::<#7cab53feae2e1c66>"
	addq	$552, %rsp                      # imm = 0x228
	.cfi_def_cfa_offset 56
	popq	%rbx
	.cfi_def_cfa_offset 48
	popq	%r12
	.cfi_def_cfa_offset 40
	popq	%r13
	.cfi_def_cfa_offset 32
	popq	%r14
	.cfi_def_cfa_offset 24
	popq	%r15
	.cfi_def_cfa_offset 16
	popq	%rbp
	.cfi_def_cfa_offset 8
	retq
.Ldeerlapse_0_1_0_v3_func_end17:
	.size	"deerlapse_0_1_0_v3::key_derivation::hkdf::Expander::fill_labeled::<#7cab53feae2e1c66>", .Ldeerlapse_0_1_0_v3_func_end17-"deerlapse_0_1_0_v3::key_derivation::hkdf::Expander::fill_labeled::<#7cab53feae2e1c66>"
	.cfi_endproc
                                        # -- End function
	.section	.text.deerlapse_key_derivation,"ax",@progbits
	.type	"deerlapse_0_1_0_v3::key_derivation::hkdf::write_hkdf_label",@function # -- Begin function key_derivation::hkdf::write_hkdf_label
"deerlapse_0_1_0_v3::key_derivation::hkdf::write_hkdf_label": # @"deerlapse_0_1_0_v3::key_derivation::hkdf::write_hkdf_label"
	.cfi_startproc
# %bb.0:                                # %start
	pushq	%r15
	.cfi_def_cfa_offset 16
	pushq	%r14
	.cfi_def_cfa_offset 24
	pushq	%r12
	.cfi_def_cfa_offset 32
	pushq	%rbx
	.cfi_def_cfa_offset 40
	pushq	%rax
	.cfi_def_cfa_offset 48
	.cfi_offset %rbx, -40
	.cfi_offset %r12, -32
	.cfi_offset %r14, -24
	.cfi_offset %r15, -16
	movq	%rdi, %r12
	movbew	%r9w, (%rdi)
	movq	%r8, %rbx
	movq	%rcx, %r15
	movq	%rdx, %r14
	leal	6(%rdx), %eax
	movb	%al, 2(%rdi)
	leaq	3(%rdi), %rax
	leaq	.Ldeerlapse_0_1_0_v3_static.7(%rip), %rcx
	movq	%rcx, %rdx
	negq	%rdx
	addq	%rdi, %rdx
	addq	$3, %rdx
	cmpq	$5, %rdx
	ja	.Ldeerlapse_0_1_0_v3_BB18_10
# %bb.1:                                # %join.7.i.i.i.i.i.i.i23.preheader
	xorl	%edx, %edx
.Ldeerlapse_0_1_0_v3_BB18_2:                               # %join.7.i.i.i.i.i.i.i23
                                        # =>This Inner Loop Header: Depth=1
	movb	(%rdx,%rcx), %dil
	movb	%dil, (%rax,%rdx)
	incq	%rdx
	cmpq	$6, %rdx
	jne	.Ldeerlapse_0_1_0_v3_BB18_2
	jmp	.Ldeerlapse_0_1_0_v3_BB18_3
.Ldeerlapse_0_1_0_v3_BB18_10:                              # %apart.2.i.i.i.i.i.i.i22
	movw	$8243, 4(%rax)                  # imm = 0x2033
	movl	$829647988, (%rax)              # imm = 0x31736C74
.Ldeerlapse_0_1_0_v3_BB18_3:                               # %"key_derivation::hkdf::write_at.exit30"
	leaq	9(%r12), %rdi
	movq	%rdi, %rax
	subq	%rsi, %rax
	cmpq	%r14, %rax
	jae	.Ldeerlapse_0_1_0_v3_BB18_11
# %bb.4:                                # %join.7.i.i.i.i.i.i.i37.preheader
	xorl	%eax, %eax
.Ldeerlapse_0_1_0_v3_BB18_5:                               # %join.7.i.i.i.i.i.i.i37
                                        # =>This Inner Loop Header: Depth=1
	movb	(%rsi,%rax), %cl
	movb	%cl, (%rdi,%rax)
	incq	%rax
	cmpq	%rax, %r14
	jne	.Ldeerlapse_0_1_0_v3_BB18_5
	jmp	.Ldeerlapse_0_1_0_v3_BB18_6
.Ldeerlapse_0_1_0_v3_BB18_11:                              # %apart.2.i.i.i.i.i.i.i36
	movq	%r14, %rdx
	callq	memmove@PLT
.Ldeerlapse_0_1_0_v3_BB18_6:                               # %"key_derivation::hkdf::write_at.exit44"
	leaq	(%r12,%r14), %rdi
	addq	$10, %rdi
	movb	%bl, -1(%rdi)
	addq	$10, %r14
	movq	%rdi, %rax
	subq	%r15, %rax
	cmpq	%rbx, %rax
	jae	.Ldeerlapse_0_1_0_v3_BB18_12
# %bb.7:                                # %join.7.i.i.i.i.i.i.i67.preheader
	xorl	%eax, %eax
.Ldeerlapse_0_1_0_v3_BB18_8:                               # %join.7.i.i.i.i.i.i.i67
                                        # =>This Inner Loop Header: Depth=1
	movb	(%r15,%rax), %cl
	movb	%cl, (%rdi,%rax)
	incq	%rax
	cmpq	%rax, %rbx
	jne	.Ldeerlapse_0_1_0_v3_BB18_8
	jmp	.Ldeerlapse_0_1_0_v3_BB18_9
.Ldeerlapse_0_1_0_v3_BB18_12:                              # %apart.2.i.i.i.i.i.i.i65
	movq	%r15, %rsi
	movq	%rbx, %rdx
	callq	memmove@PLT
.Ldeerlapse_0_1_0_v3_BB18_9:                               # %"key_derivation::hkdf::write_at.exit74"
	addq	%r14, %rbx
	movq	%rbx, %rax
	addq	$8, %rsp
	.cfi_def_cfa_offset 40
	popq	%rbx
	.cfi_def_cfa_offset 32
	popq	%r12
	.cfi_def_cfa_offset 24
	popq	%r14
	.cfi_def_cfa_offset 16
	popq	%r15
	.cfi_def_cfa_offset 8
	retq
.Ldeerlapse_0_1_0_v3_func_end18:
	.size	"deerlapse_0_1_0_v3::key_derivation::hkdf::write_hkdf_label", .Ldeerlapse_0_1_0_v3_func_end18-"deerlapse_0_1_0_v3::key_derivation::hkdf::write_hkdf_label"
	.cfi_endproc
                                        # -- End function
	.section	.text.deerlapse_key_derivation,"ax",@progbits
	.type	"deerlapse_0_1_0_v3::key_derivation::hkdf::Expander::fill_okm::<#7cab53feae2e1c66>",@function # -- Begin function key_derivation::hkdf::Expander::fill_okm::<#7cab53feae2e1c66>
"deerlapse_0_1_0_v3::key_derivation::hkdf::Expander::fill_okm::<#7cab53feae2e1c66>": # @"deerlapse_0_1_0_v3::key_derivation::hkdf::Expander::fill_okm::<#7cab53feae2e1c66>"
	.cfi_startproc
# %bb.0:                                # %start
	pushq	%rbp
	.cfi_def_cfa_offset 16
	pushq	%r15
	.cfi_def_cfa_offset 24
	pushq	%r14
	.cfi_def_cfa_offset 32
	pushq	%r13
	.cfi_def_cfa_offset 40
	pushq	%r12
	.cfi_def_cfa_offset 48
	pushq	%rbx
	.cfi_def_cfa_offset 56
	subq	$728, %rsp                      # imm = 0x2D8
	.cfi_def_cfa_offset 784
	.cfi_offset %rbx, -56
	.cfi_offset %r12, -48
	.cfi_offset %r13, -40
	.cfi_offset %r14, -32
	.cfi_offset %r15, -24
	.cfi_offset %rbp, -16
	movq	%rcx, %r14
	movq	%rsi, 40(%rsp)                  # 8-byte Spill
	movq	%rdi, 8(%rsp)                   # 8-byte Spill
	addq	$31, %rcx
	shrq	$5, %rcx
	je	.Ldeerlapse_0_1_0_v3_BB19_3
# %bb.1:                                # %join.7.lr.ph
	movq	%rdx, %r15
	movq	8(%rsp), %rax                   # 8-byte Reload
	addq	$32, %rax
	movq	%rax, 16(%rsp)                  # 8-byte Spill
	xorl	%r13d, %r13d
	xorl	%r12d, %r12d
	movq	%r14, 32(%rsp)                  # 8-byte Spill
	movq	%rcx, 24(%rsp)                  # 8-byte Spill
.Ldeerlapse_0_1_0_v3_BB19_2:                               # %join.7
                                        # =>This Inner Loop Header: Depth=1
	movq	8(%rsp), %r14                   # 8-byte Reload
	vmovups	(%r14), %ymm0
	vmovups	%ymm0, 48(%rsp)
	movq	16(%rsp), %rax                  # 8-byte Reload
	vmovups	(%rax), %ymm0
	vmovups	32(%rax), %ymm1
	leaq	80(%rsp), %rax
	vmovups	%ymm1, 32(%rax)
	vmovups	%ymm0, (%rax)
	movq	96(%r14), %rax
	vmovups	48(%rsp), %ymm0
	vmovups	80(%rsp), %ymm1
	vmovups	112(%rsp), %ymm2
	leaq	423(%rsp), %rcx
	vmovups	%ymm1, 32(%rcx)
	vmovups	%ymm2, 64(%rcx)
	vmovups	%ymm0, (%rcx)
	vmovups	32(%rcx), %ymm0
	vmovups	64(%rcx), %ymm1
	leaq	528(%rsp), %rsi
	vmovups	%ymm1, 64(%rsi)
	vmovups	%ymm0, 32(%rsi)
	vmovups	(%rcx), %ymm0
	vmovups	%ymm0, (%rsi)
	vmovups	(%rsi), %ymm0
	vmovups	32(%rsi), %ymm1
	vmovups	64(%rsi), %ymm2
	vmovups	%ymm0, 256(%rsp)
	vmovups	%ymm1, 288(%rsp)
	vmovups	%ymm2, 320(%rsp)
	leaq	624(%rsp), %rbp
	vmovups	%ymm0, (%rbp)
	vmovups	%ymm1, 32(%rbp)
	vmovups	%ymm2, 64(%rbp)
	movq	%rax, 96(%rbp)
	xorl	%eax, %eax
	movq	%r13, %rcx
	subq	$32, %rcx
	cmovaeq	%rcx, %rax
	leaq	(%r15,%rax), %rsi
	movq	%r13, %rdx
	subq	%rax, %rdx
	movq	%rbp, %rdi
	vzeroupper
	callq	"deerlapse_0_1_0_v3::sha2::block256::Core256::update"
	movq	96(%rbp), %rax
	leaq	416(%rsp), %rbx
	movq	%rax, 96(%rbx)
	vmovups	(%rbp), %ymm0
	vmovups	32(%rbp), %ymm1
	vmovups	64(%rbp), %ymm2
	vmovups	%ymm2, 64(%rbx)
	vmovups	%ymm1, 32(%rbx)
	vmovups	%ymm0, (%rbx)
	movq	40(%rsp), %rax                  # 8-byte Reload
	movq	(%rax), %rsi
	movq	8(%rax), %rdx
	movq	%rbx, %rdi
	vzeroupper
	callq	"deerlapse_0_1_0_v3::sha2::block256::Core256::update"
	movq	96(%rbx), %rax
	movq	%rax, 240(%rsp)
	vmovups	(%rbx), %ymm0
	vmovups	32(%rbx), %ymm1
	vmovups	64(%rbx), %ymm2
	vmovups	%ymm2, 208(%rsp)
	vmovups	%ymm1, 176(%rsp)
	vmovups	%ymm0, 144(%rsp)
	vmovups	%ymm0, (%rbp)
	vmovups	%ymm1, 32(%rbp)
	vmovups	%ymm2, 64(%rbp)
	movq	%rax, 96(%rbp)
	incq	%r12
	leaq	7(%rsp), %rsi
	movb	%r12b, (%rsi)
	movl	$1, %edx
	movq	%rbp, %rdi
	vzeroupper
	callq	"deerlapse_0_1_0_v3::sha2::block256::Core256::update"
	leaq	384(%rsp), %rbx
	movq	%rbx, %rdi
	movq	%r14, %rsi
	movq	%rbp, %rdx
	movq	32(%rsp), %r14                  # 8-byte Reload
	callq	"deerlapse_0_1_0_v3::key_derivation::hmac::HmacKey::finish::<#7cab53feae2e1c66>"
	vmovups	(%rbx), %ymm0
	leaq	352(%rsp), %rsi
	vmovups	%ymm0, (%rsi)
	movq	%r14, %rax
	subq	%r13, %rax
	cmpq	$32, %rax
	movl	$32, %edx
	cmovbq	%rax, %rdx
	leaq	(%rdx,%r13), %rbx
	addq	%r15, %r13
	movq	%r13, %rdi
	vzeroupper
	callq	memcpy@PLT
	movq	24(%rsp), %rcx                  # 8-byte Reload
	movq	%rbx, %r13
	cmpq	%r12, %rcx
	jne	.Ldeerlapse_0_1_0_v3_BB19_2
.Ldeerlapse_0_1_0_v3_BB19_3:                               # %after.3
	addq	$728, %rsp                      # imm = 0x2D8
	.cfi_def_cfa_offset 56
	popq	%rbx
	.cfi_def_cfa_offset 48
	popq	%r12
	.cfi_def_cfa_offset 40
	popq	%r13
	.cfi_def_cfa_offset 32
	popq	%r14
	.cfi_def_cfa_offset 24
	popq	%r15
	.cfi_def_cfa_offset 16
	popq	%rbp
	.cfi_def_cfa_offset 8
	retq
.Ldeerlapse_0_1_0_v3_func_end19:
	.size	"deerlapse_0_1_0_v3::key_derivation::hkdf::Expander::fill_okm::<#7cab53feae2e1c66>", .Ldeerlapse_0_1_0_v3_func_end19-"deerlapse_0_1_0_v3::key_derivation::hkdf::Expander::fill_okm::<#7cab53feae2e1c66>"
	.cfi_endproc
                                        # -- End function
	.section	.rodata.cst16,"aM",@progbits,16
	.p2align	4, 0x0                          # -- Begin function aead_ciphers_wide::gcm::KeyRefUpdateBlocks::update_blocks
.Ldeerlapse_0_1_0_v3_CPI20_0:
	.zero	16,15
.Ldeerlapse_0_1_0_v3_CPI20_1:
	.zero	16,192
.Ldeerlapse_0_1_0_v3_CPI20_2:
	.zero	16,63
.Ldeerlapse_0_1_0_v3_CPI20_3:
	.zero	16,1
.Ldeerlapse_0_1_0_v3_CPI20_4:
	.zero	16,127
	.section	.rodata.cst4,"aM",@progbits,4
	.p2align	2, 0x0
.Ldeerlapse_0_1_0_v3_CPI20_5:
	.zero	4,15
	.section	.text.deerlapse_aes_gcm,"ax",@progbits
	.p2align	4
	.type	"deerlapse_0_1_0_v3::aead_ciphers_wide::gcm::KeyRefUpdateBlocks::update_blocks",@function
"deerlapse_0_1_0_v3::aead_ciphers_wide::gcm::KeyRefUpdateBlocks::update_blocks": # @"deerlapse_0_1_0_v3::aead_ciphers_wide::gcm::KeyRefUpdateBlocks::update_blocks"
	.cfi_startproc
# %bb.0:                                # %start
	vmovdqu	(%rsi), %xmm1
	cmpq	$32, %rcx
	jb	.Ldeerlapse_0_1_0_v3_BB20_3
# %bb.1:                                # %arm.3.lr.ph
	movq	(%rdi), %rax
	movq	8(%rdi), %r9
	.p2align	4
.Ldeerlapse_0_1_0_v3_BB20_2:                               # %arm.3
                                        # =>This Inner Loop Header: Depth=1
	vmovdqu	16(%rdx), %xmm2
	vpsrlw	$4, %xmm2, %xmm3
	vpbroadcastd	.Ldeerlapse_0_1_0_v3_CPI20_5(%rip), %xmm0  # xmm0 = [15,15,15,15,15,15,15,15,15,15,15,15,15,15,15,15]
	vpand	%xmm0, %xmm3, %xmm4
	vpand	%xmm0, %xmm2, %xmm2
	vmovdqu	240(%rax), %xmm3
	vpshufb	%xmm4, %xmm3, %xmm3
	vmovdqu	496(%rax), %xmm5
	vpshufb	%xmm2, %xmm5, %xmm5
	vpxor	%xmm3, %xmm5, %xmm15
	vmovdqu	224(%rax), %xmm3
	vpshufb	%xmm4, %xmm3, %xmm3
	vmovdqu	480(%rax), %xmm5
	vpshufb	%xmm2, %xmm5, %xmm5
	vpxor	%xmm3, %xmm5, %xmm3
	vmovdqu	208(%rax), %xmm5
	vpshufb	%xmm4, %xmm5, %xmm5
	vmovdqu	464(%rax), %xmm6
	vpshufb	%xmm2, %xmm6, %xmm6
	vpxor	%xmm5, %xmm6, %xmm13
	vmovdqu	192(%rax), %xmm5
	vpshufb	%xmm4, %xmm5, %xmm5
	vmovdqu	448(%rax), %xmm6
	vpshufb	%xmm2, %xmm6, %xmm6
	vpxor	%xmm5, %xmm6, %xmm5
	vmovdqu	176(%rax), %xmm6
	vpshufb	%xmm4, %xmm6, %xmm6
	vmovdqu	432(%rax), %xmm7
	vpshufb	%xmm2, %xmm7, %xmm7
	vpxor	%xmm6, %xmm7, %xmm11
	vmovdqu	160(%rax), %xmm6
	vpshufb	%xmm4, %xmm6, %xmm6
	vmovdqu	416(%rax), %xmm7
	vpshufb	%xmm2, %xmm7, %xmm7
	vpxor	%xmm6, %xmm7, %xmm14
	vmovdqu	144(%rax), %xmm6
	vpshufb	%xmm4, %xmm6, %xmm6
	vmovdqu	400(%rax), %xmm7
	vpshufb	%xmm2, %xmm7, %xmm7
	vpxor	%xmm6, %xmm7, %xmm9
	vmovdqu	128(%rax), %xmm6
	vpshufb	%xmm4, %xmm6, %xmm6
	vmovdqu	384(%rax), %xmm7
	vpshufb	%xmm2, %xmm7, %xmm7
	vpxor	%xmm6, %xmm7, %xmm12
	vmovdqu	112(%rax), %xmm6
	vpshufb	%xmm4, %xmm6, %xmm6
	vmovdqu	368(%rax), %xmm7
	vpshufb	%xmm2, %xmm7, %xmm7
	vpxor	%xmm6, %xmm7, %xmm6
	vmovdqa	%xmm6, -88(%rsp)                # 16-byte Spill
	vmovdqu	96(%rax), %xmm6
	vpshufb	%xmm4, %xmm6, %xmm6
	vmovdqu	352(%rax), %xmm8
	vpshufb	%xmm2, %xmm8, %xmm8
	vpxor	%xmm6, %xmm8, %xmm10
	vmovdqu	80(%rax), %xmm6
	vpshufb	%xmm4, %xmm6, %xmm6
	vmovdqu	336(%rax), %xmm8
	vpshufb	%xmm2, %xmm8, %xmm8
	vpxor	%xmm6, %xmm8, %xmm6
	vmovdqa	%xmm6, -56(%rsp)                # 16-byte Spill
	vmovdqu	64(%rax), %xmm6
	vpshufb	%xmm4, %xmm6, %xmm6
	vmovdqu	320(%rax), %xmm8
	vpshufb	%xmm2, %xmm8, %xmm8
	vpxor	%xmm6, %xmm8, %xmm8
	vmovdqu	48(%rax), %xmm6
	vpshufb	%xmm4, %xmm6, %xmm6
	vmovdqu	304(%rax), %xmm7
	vpshufb	%xmm2, %xmm7, %xmm7
	vpxor	%xmm6, %xmm7, %xmm6
	vmovdqa	%xmm6, -40(%rsp)                # 16-byte Spill
	vmovdqu	32(%rax), %xmm6
	vpshufb	%xmm4, %xmm6, %xmm6
	vmovdqu	288(%rax), %xmm7
	vpshufb	%xmm2, %xmm7, %xmm7
	vpxor	%xmm6, %xmm7, %xmm6
	vmovdqa	%xmm6, -72(%rsp)                # 16-byte Spill
	vmovdqu	16(%rax), %xmm7
	vpshufb	%xmm4, %xmm7, %xmm7
	vmovdqu	272(%rax), %xmm6
	vpshufb	%xmm2, %xmm6, %xmm6
	vpxor	%xmm7, %xmm6, %xmm6
	vmovdqa	%xmm6, -24(%rsp)                # 16-byte Spill
	vmovdqu	(%rax), %xmm6
	vpshufb	%xmm4, %xmm6, %xmm4
	vmovdqu	256(%rax), %xmm6
	vpshufb	%xmm2, %xmm6, %xmm2
	vpxor	%xmm4, %xmm2, %xmm4
	vpxor	(%rdx), %xmm1, %xmm1
	vpsrlw	$4, %xmm1, %xmm2
	vpand	%xmm0, %xmm2, %xmm2
	vpand	%xmm0, %xmm1, %xmm1
	vmovdqu	224(%r9), %xmm0
	vpshufb	%xmm2, %xmm0, %xmm0
	vpxor	%xmm0, %xmm3, %xmm0
	vmovdqu	480(%r9), %xmm3
	vpshufb	%xmm1, %xmm3, %xmm3
	vpxor	%xmm3, %xmm0, %xmm3
	vmovdqu	240(%r9), %xmm0
	vpshufb	%xmm2, %xmm0, %xmm0
	vpxor	%xmm0, %xmm15, %xmm0
	vmovdqu	496(%r9), %xmm6
	vpshufb	%xmm1, %xmm6, %xmm6
	vpxor	%xmm6, %xmm0, %xmm0
	vmovdqu	192(%r9), %xmm6
	vpshufb	%xmm2, %xmm6, %xmm6
	vpxor	%xmm6, %xmm5, %xmm5
	vmovdqu	448(%r9), %xmm6
	vpshufb	%xmm1, %xmm6, %xmm6
	vpxor	%xmm6, %xmm5, %xmm5
	vpslldq	$2, %xmm3, %xmm6                # xmm6 = zero,zero,xmm3[0,1,2,3,4,5,6,7,8,9,10,11,12,13]
	vpxor	%xmm6, %xmm5, %xmm5
	vmovdqu	208(%r9), %xmm6
	vpshufb	%xmm2, %xmm6, %xmm6
	vpxor	%xmm6, %xmm13, %xmm6
	vmovdqu	464(%r9), %xmm7
	vpshufb	%xmm1, %xmm7, %xmm7
	vpxor	%xmm7, %xmm6, %xmm6
	vpslldq	$2, %xmm0, %xmm7                # xmm7 = zero,zero,xmm0[0,1,2,3,4,5,6,7,8,9,10,11,12,13]
	vpxor	%xmm7, %xmm6, %xmm6
	vmovdqu	160(%r9), %xmm7
	vpshufb	%xmm2, %xmm7, %xmm7
	vpxor	%xmm7, %xmm14, %xmm7
	vmovdqu	416(%r9), %xmm13
	vpshufb	%xmm1, %xmm13, %xmm13
	vpxor	%xmm7, %xmm13, %xmm7
	vpsrldq	$14, %xmm3, %xmm3               # xmm3 = xmm3[14,15],zero,zero,zero,zero,zero,zero,zero,zero,zero,zero,zero,zero,zero,zero
	vpalignr	$14, %xmm5, %xmm3, %xmm3        # xmm3 = xmm5[14,15],xmm3[0,1,2,3,4,5,6,7,8,9,10,11,12,13]
	vpslldq	$2, %xmm5, %xmm5                # xmm5 = zero,zero,xmm5[0,1,2,3,4,5,6,7,8,9,10,11,12,13]
	vpxor	%xmm5, %xmm7, %xmm5
	vmovdqu	176(%r9), %xmm7
	vpshufb	%xmm2, %xmm7, %xmm7
	vpxor	%xmm7, %xmm11, %xmm7
	vmovdqu	432(%r9), %xmm11
	vpshufb	%xmm1, %xmm11, %xmm11
	vpxor	%xmm7, %xmm11, %xmm7
	vpsrldq	$14, %xmm0, %xmm0               # xmm0 = xmm0[14,15],zero,zero,zero,zero,zero,zero,zero,zero,zero,zero,zero,zero,zero,zero
	vpalignr	$14, %xmm6, %xmm0, %xmm0        # xmm0 = xmm6[14,15],xmm0[0,1,2,3,4,5,6,7,8,9,10,11,12,13]
	vpslldq	$2, %xmm6, %xmm6                # xmm6 = zero,zero,xmm6[0,1,2,3,4,5,6,7,8,9,10,11,12,13]
	vpxor	%xmm6, %xmm7, %xmm6
	vmovdqu	128(%r9), %xmm7
	vpshufb	%xmm2, %xmm7, %xmm7
	vpxor	%xmm7, %xmm12, %xmm7
	vmovdqu	384(%r9), %xmm11
	vpshufb	%xmm1, %xmm11, %xmm11
	vpxor	%xmm7, %xmm11, %xmm7
	vpalignr	$14, %xmm5, %xmm3, %xmm3        # xmm3 = xmm5[14,15],xmm3[0,1,2,3,4,5,6,7,8,9,10,11,12,13]
	vpslldq	$2, %xmm5, %xmm5                # xmm5 = zero,zero,xmm5[0,1,2,3,4,5,6,7,8,9,10,11,12,13]
	vpxor	%xmm5, %xmm7, %xmm5
	vmovdqu	144(%r9), %xmm7
	vpshufb	%xmm2, %xmm7, %xmm7
	vpxor	%xmm7, %xmm9, %xmm7
	vmovdqu	400(%r9), %xmm9
	vpshufb	%xmm1, %xmm9, %xmm9
	vpxor	%xmm7, %xmm9, %xmm7
	vpalignr	$14, %xmm6, %xmm0, %xmm0        # xmm0 = xmm6[14,15],xmm0[0,1,2,3,4,5,6,7,8,9,10,11,12,13]
	vpslldq	$2, %xmm6, %xmm6                # xmm6 = zero,zero,xmm6[0,1,2,3,4,5,6,7,8,9,10,11,12,13]
	vpxor	%xmm6, %xmm7, %xmm6
	vmovdqu	96(%r9), %xmm7
	vpshufb	%xmm2, %xmm7, %xmm7
	vpxor	%xmm7, %xmm10, %xmm7
	vmovdqu	352(%r9), %xmm9
	vpshufb	%xmm1, %xmm9, %xmm9
	vpxor	%xmm7, %xmm9, %xmm7
	vpalignr	$14, %xmm5, %xmm3, %xmm3        # xmm3 = xmm5[14,15],xmm3[0,1,2,3,4,5,6,7,8,9,10,11,12,13]
	vpslldq	$2, %xmm5, %xmm5                # xmm5 = zero,zero,xmm5[0,1,2,3,4,5,6,7,8,9,10,11,12,13]
	vpxor	%xmm5, %xmm7, %xmm5
	vmovdqu	112(%r9), %xmm7
	vpshufb	%xmm2, %xmm7, %xmm7
	vpxor	-88(%rsp), %xmm7, %xmm7         # 16-byte Folded Reload
	vmovdqu	368(%r9), %xmm9
	vpshufb	%xmm1, %xmm9, %xmm9
	vpxor	%xmm7, %xmm9, %xmm7
	vpalignr	$14, %xmm6, %xmm0, %xmm0        # xmm0 = xmm6[14,15],xmm0[0,1,2,3,4,5,6,7,8,9,10,11,12,13]
	vpslldq	$2, %xmm6, %xmm6                # xmm6 = zero,zero,xmm6[0,1,2,3,4,5,6,7,8,9,10,11,12,13]
	vpxor	%xmm6, %xmm7, %xmm6
	vmovdqu	64(%r9), %xmm7
	vpshufb	%xmm2, %xmm7, %xmm7
	vpxor	%xmm7, %xmm8, %xmm7
	vmovdqu	320(%r9), %xmm8
	vpshufb	%xmm1, %xmm8, %xmm8
	vpxor	%xmm7, %xmm8, %xmm7
	vpalignr	$14, %xmm5, %xmm3, %xmm3        # xmm3 = xmm5[14,15],xmm3[0,1,2,3,4,5,6,7,8,9,10,11,12,13]
	vpslldq	$2, %xmm5, %xmm5                # xmm5 = zero,zero,xmm5[0,1,2,3,4,5,6,7,8,9,10,11,12,13]
	vpxor	%xmm5, %xmm7, %xmm5
	vmovdqu	80(%r9), %xmm7
	vpshufb	%xmm2, %xmm7, %xmm7
	vpxor	-56(%rsp), %xmm7, %xmm7         # 16-byte Folded Reload
	vmovdqu	336(%r9), %xmm8
	vpshufb	%xmm1, %xmm8, %xmm8
	vpxor	%xmm7, %xmm8, %xmm7
	vpalignr	$14, %xmm6, %xmm0, %xmm0        # xmm0 = xmm6[14,15],xmm0[0,1,2,3,4,5,6,7,8,9,10,11,12,13]
	vpslldq	$2, %xmm6, %xmm6                # xmm6 = zero,zero,xmm6[0,1,2,3,4,5,6,7,8,9,10,11,12,13]
	vpxor	%xmm6, %xmm7, %xmm6
	vmovdqu	32(%r9), %xmm7
	vpshufb	%xmm2, %xmm7, %xmm7
	vpxor	-72(%rsp), %xmm7, %xmm7         # 16-byte Folded Reload
	vmovdqu	288(%r9), %xmm8
	vpshufb	%xmm1, %xmm8, %xmm8
	vpxor	%xmm7, %xmm8, %xmm7
	vpalignr	$14, %xmm5, %xmm3, %xmm3        # xmm3 = xmm5[14,15],xmm3[0,1,2,3,4,5,6,7,8,9,10,11,12,13]
	vpslldq	$2, %xmm5, %xmm5                # xmm5 = zero,zero,xmm5[0,1,2,3,4,5,6,7,8,9,10,11,12,13]
	vpxor	%xmm5, %xmm7, %xmm5
	vmovdqu	48(%r9), %xmm7
	vpshufb	%xmm2, %xmm7, %xmm7
	vpxor	-40(%rsp), %xmm7, %xmm7         # 16-byte Folded Reload
	vmovdqu	304(%r9), %xmm8
	vpshufb	%xmm1, %xmm8, %xmm8
	vpxor	%xmm7, %xmm8, %xmm7
	vpalignr	$14, %xmm6, %xmm0, %xmm0        # xmm0 = xmm6[14,15],xmm0[0,1,2,3,4,5,6,7,8,9,10,11,12,13]
	vpslldq	$2, %xmm6, %xmm6                # xmm6 = zero,zero,xmm6[0,1,2,3,4,5,6,7,8,9,10,11,12,13]
	vpxor	%xmm6, %xmm7, %xmm6
	vmovdqu	(%r9), %xmm7
	vpshufb	%xmm2, %xmm7, %xmm7
	vpxor	%xmm7, %xmm4, %xmm4
	vmovdqu	256(%r9), %xmm7
	vpshufb	%xmm1, %xmm7, %xmm7
	vpxor	%xmm7, %xmm4, %xmm4
	vpalignr	$14, %xmm5, %xmm3, %xmm3        # xmm3 = xmm5[14,15],xmm3[0,1,2,3,4,5,6,7,8,9,10,11,12,13]
	vpslldq	$2, %xmm5, %xmm5                # xmm5 = zero,zero,xmm5[0,1,2,3,4,5,6,7,8,9,10,11,12,13]
	vpxor	%xmm5, %xmm4, %xmm4
	vmovdqu	16(%r9), %xmm5
	vpshufb	%xmm2, %xmm5, %xmm2
	vpxor	-24(%rsp), %xmm2, %xmm2         # 16-byte Folded Reload
	vmovdqu	272(%r9), %xmm5
	vpshufb	%xmm1, %xmm5, %xmm1
	vpxor	%xmm1, %xmm2, %xmm1
	vpalignr	$14, %xmm6, %xmm0, %xmm0        # xmm0 = xmm6[14,15],xmm0[0,1,2,3,4,5,6,7,8,9,10,11,12,13]
	vpslldq	$2, %xmm6, %xmm2                # xmm2 = zero,zero,xmm6[0,1,2,3,4,5,6,7,8,9,10,11,12,13]
	vpxor	%xmm2, %xmm1, %xmm1
	vpslldq	$1, %xmm1, %xmm2                # xmm2 = zero,xmm1[0,1,2,3,4,5,6,7,8,9,10,11,12,13,14]
	vpxor	%xmm2, %xmm4, %xmm2
	vpalignr	$15, %xmm1, %xmm0, %xmm0        # xmm0 = xmm1[15],xmm0[0,1,2,3,4,5,6,7,8,9,10,11,12,13,14]
	vpxor	%xmm3, %xmm0, %xmm0
	vpslldq	$1, %xmm0, %xmm1                # xmm1 = zero,xmm0[0,1,2,3,4,5,6,7,8,9,10,11,12,13,14]
	vpaddb	%xmm1, %xmm1, %xmm3
	vpxor	%xmm1, %xmm3, %xmm1
	vpsllw	$6, %xmm1, %xmm1
	vpand	.Ldeerlapse_0_1_0_v3_CPI20_1(%rip), %xmm1, %xmm1
	vpsrlw	$2, %xmm0, %xmm4
	vpand	.Ldeerlapse_0_1_0_v3_CPI20_2(%rip), %xmm4, %xmm4
	vpor	%xmm4, %xmm1, %xmm1
	vpsrlw	$7, %xmm0, %xmm4
	vpand	.Ldeerlapse_0_1_0_v3_CPI20_3(%rip), %xmm4, %xmm4
	vpor	%xmm4, %xmm3, %xmm3
	vpsrlw	$1, %xmm0, %xmm4
	vpand	.Ldeerlapse_0_1_0_v3_CPI20_4(%rip), %xmm4, %xmm4
	vpxor	%xmm4, %xmm2, %xmm2
	vpxor	%xmm3, %xmm2, %xmm2
	vpxor	%xmm0, %xmm2, %xmm0
	vpxor	%xmm1, %xmm0, %xmm1
	addq	$32, %rdx
	addq	$-32, %rcx
	addq	$2, 8(%r8)
	cmpq	$31, %rcx
	ja	.Ldeerlapse_0_1_0_v3_BB20_2
.Ldeerlapse_0_1_0_v3_BB20_3:                               # %after.1
	cmpq	$16, %rcx
	jb	.Ldeerlapse_0_1_0_v3_BB20_5
# %bb.4:                                # %arm.7
	vpxor	(%rdx), %xmm1, %xmm0
	movq	(%rdi), %rax
	vpsrlw	$4, %xmm0, %xmm1
	vpbroadcastd	.Ldeerlapse_0_1_0_v3_CPI20_5(%rip), %xmm2  # xmm2 = [15,15,15,15,15,15,15,15,15,15,15,15,15,15,15,15]
	vpand	%xmm2, %xmm1, %xmm1
	vpand	%xmm2, %xmm0, %xmm0
	vmovdqu	240(%rax), %xmm2
	vpshufb	%xmm1, %xmm2, %xmm2
	vmovdqu	496(%rax), %xmm3
	vpshufb	%xmm0, %xmm3, %xmm3
	vpxor	%xmm2, %xmm3, %xmm2
	vpslldq	$1, %xmm2, %xmm3                # xmm3 = zero,xmm2[0,1,2,3,4,5,6,7,8,9,10,11,12,13,14]
	vpsrldq	$15, %xmm2, %xmm2               # xmm2 = xmm2[15],zero,zero,zero,zero,zero,zero,zero,zero,zero,zero,zero,zero,zero,zero,zero
	vmovdqu	224(%rax), %xmm4
	vpshufb	%xmm1, %xmm4, %xmm4
	vmovdqu	480(%rax), %xmm5
	vpshufb	%xmm0, %xmm5, %xmm5
	vpxor	%xmm5, %xmm4, %xmm4
	vpxor	%xmm3, %xmm4, %xmm3
	vpslldq	$1, %xmm3, %xmm4                # xmm4 = zero,xmm3[0,1,2,3,4,5,6,7,8,9,10,11,12,13,14]
	vpalignr	$15, %xmm3, %xmm2, %xmm2        # xmm2 = xmm3[15],xmm2[0,1,2,3,4,5,6,7,8,9,10,11,12,13,14]
	vmovdqu	208(%rax), %xmm3
	vpshufb	%xmm1, %xmm3, %xmm3
	vmovdqu	464(%rax), %xmm5
	vpshufb	%xmm0, %xmm5, %xmm5
	vpxor	%xmm5, %xmm3, %xmm3
	vpxor	%xmm4, %xmm3, %xmm3
	vpslldq	$1, %xmm3, %xmm4                # xmm4 = zero,xmm3[0,1,2,3,4,5,6,7,8,9,10,11,12,13,14]
	vpalignr	$15, %xmm3, %xmm2, %xmm2        # xmm2 = xmm3[15],xmm2[0,1,2,3,4,5,6,7,8,9,10,11,12,13,14]
	vmovdqu	192(%rax), %xmm3
	vpshufb	%xmm1, %xmm3, %xmm3
	vmovdqu	448(%rax), %xmm5
	vpshufb	%xmm0, %xmm5, %xmm5
	vpxor	%xmm5, %xmm3, %xmm3
	vpxor	%xmm4, %xmm3, %xmm3
	vpslldq	$1, %xmm3, %xmm4                # xmm4 = zero,xmm3[0,1,2,3,4,5,6,7,8,9,10,11,12,13,14]
	vpalignr	$15, %xmm3, %xmm2, %xmm2        # xmm2 = xmm3[15],xmm2[0,1,2,3,4,5,6,7,8,9,10,11,12,13,14]
	vmovdqu	176(%rax), %xmm3
	vpshufb	%xmm1, %xmm3, %xmm3
	vmovdqu	432(%rax), %xmm5
	vpshufb	%xmm0, %xmm5, %xmm5
	vpxor	%xmm5, %xmm3, %xmm3
	vpxor	%xmm4, %xmm3, %xmm3
	vpslldq	$1, %xmm3, %xmm4                # xmm4 = zero,xmm3[0,1,2,3,4,5,6,7,8,9,10,11,12,13,14]
	vpalignr	$15, %xmm3, %xmm2, %xmm2        # xmm2 = xmm3[15],xmm2[0,1,2,3,4,5,6,7,8,9,10,11,12,13,14]
	vmovdqu	160(%rax), %xmm3
	vpshufb	%xmm1, %xmm3, %xmm3
	vmovdqu	416(%rax), %xmm5
	vpshufb	%xmm0, %xmm5, %xmm5
	vpxor	%xmm5, %xmm3, %xmm3
	vpxor	%xmm4, %xmm3, %xmm3
	vpslldq	$1, %xmm3, %xmm4                # xmm4 = zero,xmm3[0,1,2,3,4,5,6,7,8,9,10,11,12,13,14]
	vpalignr	$15, %xmm3, %xmm2, %xmm2        # xmm2 = xmm3[15],xmm2[0,1,2,3,4,5,6,7,8,9,10,11,12,13,14]
	vmovdqu	144(%rax), %xmm3
	vpshufb	%xmm1, %xmm3, %xmm3
	vmovdqu	400(%rax), %xmm5
	vpshufb	%xmm0, %xmm5, %xmm5
	vpxor	%xmm5, %xmm3, %xmm3
	vpxor	%xmm4, %xmm3, %xmm3
	vpslldq	$1, %xmm3, %xmm4                # xmm4 = zero,xmm3[0,1,2,3,4,5,6,7,8,9,10,11,12,13,14]
	vpalignr	$15, %xmm3, %xmm2, %xmm2        # xmm2 = xmm3[15],xmm2[0,1,2,3,4,5,6,7,8,9,10,11,12,13,14]
	vmovdqu	128(%rax), %xmm3
	vpshufb	%xmm1, %xmm3, %xmm3
	vmovdqu	384(%rax), %xmm5
	vpshufb	%xmm0, %xmm5, %xmm5
	vpxor	%xmm5, %xmm3, %xmm3
	vpxor	%xmm4, %xmm3, %xmm3
	vpslldq	$1, %xmm3, %xmm4                # xmm4 = zero,xmm3[0,1,2,3,4,5,6,7,8,9,10,11,12,13,14]
	vpalignr	$15, %xmm3, %xmm2, %xmm2        # xmm2 = xmm3[15],xmm2[0,1,2,3,4,5,6,7,8,9,10,11,12,13,14]
	vmovdqu	112(%rax), %xmm3
	vpshufb	%xmm1, %xmm3, %xmm3
	vmovdqu	368(%rax), %xmm5
	vpshufb	%xmm0, %xmm5, %xmm5
	vpxor	%xmm5, %xmm3, %xmm3
	vpxor	%xmm4, %xmm3, %xmm3
	vpslldq	$1, %xmm3, %xmm4                # xmm4 = zero,xmm3[0,1,2,3,4,5,6,7,8,9,10,11,12,13,14]
	vpalignr	$15, %xmm3, %xmm2, %xmm2        # xmm2 = xmm3[15],xmm2[0,1,2,3,4,5,6,7,8,9,10,11,12,13,14]
	vmovdqu	96(%rax), %xmm3
	vpshufb	%xmm1, %xmm3, %xmm3
	vmovdqu	352(%rax), %xmm5
	vpshufb	%xmm0, %xmm5, %xmm5
	vpxor	%xmm5, %xmm3, %xmm3
	vpxor	%xmm4, %xmm3, %xmm3
	vpslldq	$1, %xmm3, %xmm4                # xmm4 = zero,xmm3[0,1,2,3,4,5,6,7,8,9,10,11,12,13,14]
	vpalignr	$15, %xmm3, %xmm2, %xmm2        # xmm2 = xmm3[15],xmm2[0,1,2,3,4,5,6,7,8,9,10,11,12,13,14]
	vmovdqu	80(%rax), %xmm3
	vpshufb	%xmm1, %xmm3, %xmm3
	vmovdqu	336(%rax), %xmm5
	vpshufb	%xmm0, %xmm5, %xmm5
	vpxor	%xmm5, %xmm3, %xmm3
	vpxor	%xmm4, %xmm3, %xmm3
	vpslldq	$1, %xmm3, %xmm4                # xmm4 = zero,xmm3[0,1,2,3,4,5,6,7,8,9,10,11,12,13,14]
	vpalignr	$15, %xmm3, %xmm2, %xmm2        # xmm2 = xmm3[15],xmm2[0,1,2,3,4,5,6,7,8,9,10,11,12,13,14]
	vmovdqu	64(%rax), %xmm3
	vpshufb	%xmm1, %xmm3, %xmm3
	vmovdqu	320(%rax), %xmm5
	vpshufb	%xmm0, %xmm5, %xmm5
	vpxor	%xmm5, %xmm3, %xmm3
	vpxor	%xmm4, %xmm3, %xmm3
	vpslldq	$1, %xmm3, %xmm4                # xmm4 = zero,xmm3[0,1,2,3,4,5,6,7,8,9,10,11,12,13,14]
	vpalignr	$15, %xmm3, %xmm2, %xmm2        # xmm2 = xmm3[15],xmm2[0,1,2,3,4,5,6,7,8,9,10,11,12,13,14]
	vmovdqu	(%rax), %xmm3
	vmovdqu	16(%rax), %xmm5
	vmovdqu	32(%rax), %xmm6
	vmovdqu	48(%rax), %xmm7
	vpshufb	%xmm1, %xmm7, %xmm7
	vmovdqu	304(%rax), %xmm8
	vpshufb	%xmm0, %xmm8, %xmm8
	vpxor	%xmm7, %xmm8, %xmm7
	vpxor	%xmm4, %xmm7, %xmm4
	vpslldq	$1, %xmm4, %xmm7                # xmm7 = zero,xmm4[0,1,2,3,4,5,6,7,8,9,10,11,12,13,14]
	vpalignr	$15, %xmm4, %xmm2, %xmm2        # xmm2 = xmm4[15],xmm2[0,1,2,3,4,5,6,7,8,9,10,11,12,13,14]
	vpshufb	%xmm1, %xmm6, %xmm4
	vmovdqu	288(%rax), %xmm6
	vpshufb	%xmm0, %xmm6, %xmm6
	vpxor	%xmm6, %xmm4, %xmm4
	vpxor	%xmm7, %xmm4, %xmm4
	vpslldq	$1, %xmm4, %xmm6                # xmm6 = zero,xmm4[0,1,2,3,4,5,6,7,8,9,10,11,12,13,14]
	vpalignr	$15, %xmm4, %xmm2, %xmm2        # xmm2 = xmm4[15],xmm2[0,1,2,3,4,5,6,7,8,9,10,11,12,13,14]
	vpshufb	%xmm1, %xmm5, %xmm4
	vmovdqu	272(%rax), %xmm5
	vpshufb	%xmm0, %xmm5, %xmm5
	vpxor	%xmm5, %xmm4, %xmm4
	vpxor	%xmm6, %xmm4, %xmm4
	vpslldq	$1, %xmm4, %xmm5                # xmm5 = zero,xmm4[0,1,2,3,4,5,6,7,8,9,10,11,12,13,14]
	vpalignr	$15, %xmm4, %xmm2, %xmm2        # xmm2 = xmm4[15],xmm2[0,1,2,3,4,5,6,7,8,9,10,11,12,13,14]
	vpshufb	%xmm1, %xmm3, %xmm1
	vpxor	%xmm5, %xmm1, %xmm1
	vmovdqu	256(%rax), %xmm3
	vpslldq	$1, %xmm2, %xmm4                # xmm4 = zero,xmm2[0,1,2,3,4,5,6,7,8,9,10,11,12,13,14]
	vpaddb	%xmm4, %xmm4, %xmm5
	vpxor	%xmm4, %xmm5, %xmm4
	vpsllw	$6, %xmm4, %xmm4
	vpand	.Ldeerlapse_0_1_0_v3_CPI20_1(%rip), %xmm4, %xmm4
	vpshufb	%xmm0, %xmm3, %xmm0
	vpsrlw	$2, %xmm2, %xmm3
	vpand	.Ldeerlapse_0_1_0_v3_CPI20_2(%rip), %xmm3, %xmm3
	vpxor	%xmm0, %xmm1, %xmm0
	vpsrlw	$7, %xmm2, %xmm1
	vpand	.Ldeerlapse_0_1_0_v3_CPI20_3(%rip), %xmm1, %xmm1
	vpor	%xmm3, %xmm4, %xmm3
	vpsrlw	$1, %xmm2, %xmm4
	vpand	.Ldeerlapse_0_1_0_v3_CPI20_4(%rip), %xmm4, %xmm4
	vpor	%xmm1, %xmm5, %xmm1
	vpxor	%xmm4, %xmm0, %xmm0
	vpxor	%xmm1, %xmm0, %xmm0
	vpxor	%xmm2, %xmm0, %xmm0
	vpxor	%xmm3, %xmm0, %xmm1
	incq	8(%r8)
.Ldeerlapse_0_1_0_v3_BB20_5:                               # %join.9
	vmovdqu	%xmm1, (%rsi)
	retq
.Ldeerlapse_0_1_0_v3_func_end20:
	.size	"deerlapse_0_1_0_v3::aead_ciphers_wide::gcm::KeyRefUpdateBlocks::update_blocks", .Ldeerlapse_0_1_0_v3_func_end20-"deerlapse_0_1_0_v3::aead_ciphers_wide::gcm::KeyRefUpdateBlocks::update_blocks"
	.cfi_endproc
                                        # -- End function
	.section	.rodata.cst16,"aM",@progbits,16
	.p2align	4, 0x0                          # -- Begin function aead_ciphers_wide::gcm::KeyRefUpdateBlock::update_block
.Ldeerlapse_0_1_0_v3_CPI21_0:
	.zero	16,15
.Ldeerlapse_0_1_0_v3_CPI21_1:
	.zero	16,192
.Ldeerlapse_0_1_0_v3_CPI21_2:
	.zero	16,63
.Ldeerlapse_0_1_0_v3_CPI21_3:
	.zero	16,1
.Ldeerlapse_0_1_0_v3_CPI21_4:
	.zero	16,127
	.section	.rodata.cst4,"aM",@progbits,4
	.p2align	2, 0x0
.Ldeerlapse_0_1_0_v3_CPI21_5:
	.zero	4,15
	.section	.text.deerlapse_aes_gcm,"ax",@progbits
	.p2align	4
	.type	"deerlapse_0_1_0_v3::aead_ciphers_wide::gcm::KeyRefUpdateBlock::update_block",@function
"deerlapse_0_1_0_v3::aead_ciphers_wide::gcm::KeyRefUpdateBlock::update_block": # @"deerlapse_0_1_0_v3::aead_ciphers_wide::gcm::KeyRefUpdateBlock::update_block"
	.cfi_startproc
# %bb.0:                                # %start
	vmovdqu	(%rsi), %xmm0
	vpxor	(%rdx), %xmm0, %xmm0
	vpsrlw	$4, %xmm0, %xmm1
	vpbroadcastd	.Ldeerlapse_0_1_0_v3_CPI21_5(%rip), %xmm2  # xmm2 = [15,15,15,15,15,15,15,15,15,15,15,15,15,15,15,15]
	vpand	%xmm2, %xmm1, %xmm1
	vpand	%xmm2, %xmm0, %xmm0
	vmovdqu	240(%rdi), %xmm2
	vpshufb	%xmm1, %xmm2, %xmm2
	vmovdqu	496(%rdi), %xmm3
	vpshufb	%xmm0, %xmm3, %xmm3
	vpxor	%xmm2, %xmm3, %xmm2
	vpslldq	$1, %xmm2, %xmm3                # xmm3 = zero,xmm2[0,1,2,3,4,5,6,7,8,9,10,11,12,13,14]
	vpsrldq	$15, %xmm2, %xmm2               # xmm2 = xmm2[15],zero,zero,zero,zero,zero,zero,zero,zero,zero,zero,zero,zero,zero,zero,zero
	vmovdqu	224(%rdi), %xmm4
	vpshufb	%xmm1, %xmm4, %xmm4
	vmovdqu	480(%rdi), %xmm5
	vpshufb	%xmm0, %xmm5, %xmm5
	vpxor	%xmm5, %xmm4, %xmm4
	vpxor	%xmm3, %xmm4, %xmm3
	vpslldq	$1, %xmm3, %xmm4                # xmm4 = zero,xmm3[0,1,2,3,4,5,6,7,8,9,10,11,12,13,14]
	vpalignr	$15, %xmm3, %xmm2, %xmm2        # xmm2 = xmm3[15],xmm2[0,1,2,3,4,5,6,7,8,9,10,11,12,13,14]
	vmovdqu	208(%rdi), %xmm3
	vpshufb	%xmm1, %xmm3, %xmm3
	vmovdqu	464(%rdi), %xmm5
	vpshufb	%xmm0, %xmm5, %xmm5
	vpxor	%xmm5, %xmm3, %xmm3
	vpxor	%xmm4, %xmm3, %xmm3
	vpslldq	$1, %xmm3, %xmm4                # xmm4 = zero,xmm3[0,1,2,3,4,5,6,7,8,9,10,11,12,13,14]
	vpalignr	$15, %xmm3, %xmm2, %xmm2        # xmm2 = xmm3[15],xmm2[0,1,2,3,4,5,6,7,8,9,10,11,12,13,14]
	vmovdqu	192(%rdi), %xmm3
	vpshufb	%xmm1, %xmm3, %xmm3
	vmovdqu	448(%rdi), %xmm5
	vpshufb	%xmm0, %xmm5, %xmm5
	vpxor	%xmm5, %xmm3, %xmm3
	vpxor	%xmm4, %xmm3, %xmm3
	vpslldq	$1, %xmm3, %xmm4                # xmm4 = zero,xmm3[0,1,2,3,4,5,6,7,8,9,10,11,12,13,14]
	vpalignr	$15, %xmm3, %xmm2, %xmm2        # xmm2 = xmm3[15],xmm2[0,1,2,3,4,5,6,7,8,9,10,11,12,13,14]
	vmovdqu	176(%rdi), %xmm3
	vpshufb	%xmm1, %xmm3, %xmm3
	vmovdqu	432(%rdi), %xmm5
	vpshufb	%xmm0, %xmm5, %xmm5
	vpxor	%xmm5, %xmm3, %xmm3
	vpxor	%xmm4, %xmm3, %xmm3
	vpslldq	$1, %xmm3, %xmm4                # xmm4 = zero,xmm3[0,1,2,3,4,5,6,7,8,9,10,11,12,13,14]
	vpalignr	$15, %xmm3, %xmm2, %xmm2        # xmm2 = xmm3[15],xmm2[0,1,2,3,4,5,6,7,8,9,10,11,12,13,14]
	vmovdqu	160(%rdi), %xmm3
	vpshufb	%xmm1, %xmm3, %xmm3
	vmovdqu	416(%rdi), %xmm5
	vpshufb	%xmm0, %xmm5, %xmm5
	vpxor	%xmm5, %xmm3, %xmm3
	vpxor	%xmm4, %xmm3, %xmm3
	vpslldq	$1, %xmm3, %xmm4                # xmm4 = zero,xmm3[0,1,2,3,4,5,6,7,8,9,10,11,12,13,14]
	vpalignr	$15, %xmm3, %xmm2, %xmm2        # xmm2 = xmm3[15],xmm2[0,1,2,3,4,5,6,7,8,9,10,11,12,13,14]
	vmovdqu	144(%rdi), %xmm3
	vpshufb	%xmm1, %xmm3, %xmm3
	vmovdqu	400(%rdi), %xmm5
	vpshufb	%xmm0, %xmm5, %xmm5
	vpxor	%xmm5, %xmm3, %xmm3
	vpxor	%xmm4, %xmm3, %xmm3
	vpslldq	$1, %xmm3, %xmm4                # xmm4 = zero,xmm3[0,1,2,3,4,5,6,7,8,9,10,11,12,13,14]
	vpalignr	$15, %xmm3, %xmm2, %xmm2        # xmm2 = xmm3[15],xmm2[0,1,2,3,4,5,6,7,8,9,10,11,12,13,14]
	vmovdqu	128(%rdi), %xmm3
	vpshufb	%xmm1, %xmm3, %xmm3
	vmovdqu	384(%rdi), %xmm5
	vpshufb	%xmm0, %xmm5, %xmm5
	vpxor	%xmm5, %xmm3, %xmm3
	vpxor	%xmm4, %xmm3, %xmm3
	vpslldq	$1, %xmm3, %xmm4                # xmm4 = zero,xmm3[0,1,2,3,4,5,6,7,8,9,10,11,12,13,14]
	vpalignr	$15, %xmm3, %xmm2, %xmm2        # xmm2 = xmm3[15],xmm2[0,1,2,3,4,5,6,7,8,9,10,11,12,13,14]
	vmovdqu	112(%rdi), %xmm3
	vpshufb	%xmm1, %xmm3, %xmm3
	vmovdqu	368(%rdi), %xmm5
	vpshufb	%xmm0, %xmm5, %xmm5
	vpxor	%xmm5, %xmm3, %xmm3
	vpxor	%xmm4, %xmm3, %xmm3
	vpslldq	$1, %xmm3, %xmm4                # xmm4 = zero,xmm3[0,1,2,3,4,5,6,7,8,9,10,11,12,13,14]
	vpalignr	$15, %xmm3, %xmm2, %xmm2        # xmm2 = xmm3[15],xmm2[0,1,2,3,4,5,6,7,8,9,10,11,12,13,14]
	vmovdqu	96(%rdi), %xmm3
	vpshufb	%xmm1, %xmm3, %xmm3
	vmovdqu	352(%rdi), %xmm5
	vpshufb	%xmm0, %xmm5, %xmm5
	vpxor	%xmm5, %xmm3, %xmm3
	vpxor	%xmm4, %xmm3, %xmm3
	vpslldq	$1, %xmm3, %xmm4                # xmm4 = zero,xmm3[0,1,2,3,4,5,6,7,8,9,10,11,12,13,14]
	vpalignr	$15, %xmm3, %xmm2, %xmm2        # xmm2 = xmm3[15],xmm2[0,1,2,3,4,5,6,7,8,9,10,11,12,13,14]
	vmovdqu	80(%rdi), %xmm3
	vpshufb	%xmm1, %xmm3, %xmm3
	vmovdqu	336(%rdi), %xmm5
	vpshufb	%xmm0, %xmm5, %xmm5
	vpxor	%xmm5, %xmm3, %xmm3
	vpxor	%xmm4, %xmm3, %xmm3
	vpslldq	$1, %xmm3, %xmm4                # xmm4 = zero,xmm3[0,1,2,3,4,5,6,7,8,9,10,11,12,13,14]
	vpalignr	$15, %xmm3, %xmm2, %xmm2        # xmm2 = xmm3[15],xmm2[0,1,2,3,4,5,6,7,8,9,10,11,12,13,14]
	vmovdqu	64(%rdi), %xmm3
	vpshufb	%xmm1, %xmm3, %xmm3
	vmovdqu	320(%rdi), %xmm5
	vpshufb	%xmm0, %xmm5, %xmm5
	vpxor	%xmm5, %xmm3, %xmm3
	vpxor	%xmm4, %xmm3, %xmm3
	vpslldq	$1, %xmm3, %xmm4                # xmm4 = zero,xmm3[0,1,2,3,4,5,6,7,8,9,10,11,12,13,14]
	vpalignr	$15, %xmm3, %xmm2, %xmm2        # xmm2 = xmm3[15],xmm2[0,1,2,3,4,5,6,7,8,9,10,11,12,13,14]
	vmovdqu	(%rdi), %xmm3
	vmovdqu	16(%rdi), %xmm5
	vmovdqu	32(%rdi), %xmm6
	vmovdqu	48(%rdi), %xmm7
	vpshufb	%xmm1, %xmm7, %xmm7
	vmovdqu	304(%rdi), %xmm8
	vpshufb	%xmm0, %xmm8, %xmm8
	vpxor	%xmm7, %xmm8, %xmm7
	vpxor	%xmm4, %xmm7, %xmm4
	vpslldq	$1, %xmm4, %xmm7                # xmm7 = zero,xmm4[0,1,2,3,4,5,6,7,8,9,10,11,12,13,14]
	vpalignr	$15, %xmm4, %xmm2, %xmm2        # xmm2 = xmm4[15],xmm2[0,1,2,3,4,5,6,7,8,9,10,11,12,13,14]
	vpshufb	%xmm1, %xmm6, %xmm4
	vmovdqu	288(%rdi), %xmm6
	vpshufb	%xmm0, %xmm6, %xmm6
	vpxor	%xmm6, %xmm4, %xmm4
	vpxor	%xmm7, %xmm4, %xmm4
	vpslldq	$1, %xmm4, %xmm6                # xmm6 = zero,xmm4[0,1,2,3,4,5,6,7,8,9,10,11,12,13,14]
	vpalignr	$15, %xmm4, %xmm2, %xmm2        # xmm2 = xmm4[15],xmm2[0,1,2,3,4,5,6,7,8,9,10,11,12,13,14]
	vpshufb	%xmm1, %xmm5, %xmm4
	vmovdqu	272(%rdi), %xmm5
	vpshufb	%xmm0, %xmm5, %xmm5
	vpxor	%xmm5, %xmm4, %xmm4
	vpxor	%xmm6, %xmm4, %xmm4
	vpslldq	$1, %xmm4, %xmm5                # xmm5 = zero,xmm4[0,1,2,3,4,5,6,7,8,9,10,11,12,13,14]
	vpalignr	$15, %xmm4, %xmm2, %xmm2        # xmm2 = xmm4[15],xmm2[0,1,2,3,4,5,6,7,8,9,10,11,12,13,14]
	vpshufb	%xmm1, %xmm3, %xmm1
	vpxor	%xmm5, %xmm1, %xmm1
	vmovdqu	256(%rdi), %xmm3
	vpshufb	%xmm0, %xmm3, %xmm0
	vpxor	%xmm0, %xmm1, %xmm0
	vpslldq	$1, %xmm2, %xmm1                # xmm1 = zero,xmm2[0,1,2,3,4,5,6,7,8,9,10,11,12,13,14]
	vpaddb	%xmm1, %xmm1, %xmm3
	vpxor	%xmm1, %xmm3, %xmm1
	vpsllw	$6, %xmm1, %xmm1
	vpand	.Ldeerlapse_0_1_0_v3_CPI21_1(%rip), %xmm1, %xmm1
	vpsrlw	$2, %xmm2, %xmm4
	vpand	.Ldeerlapse_0_1_0_v3_CPI21_2(%rip), %xmm4, %xmm4
	vpor	%xmm4, %xmm1, %xmm1
	vpsrlw	$7, %xmm2, %xmm4
	vpand	.Ldeerlapse_0_1_0_v3_CPI21_3(%rip), %xmm4, %xmm4
	vpor	%xmm4, %xmm3, %xmm3
	vpsrlw	$1, %xmm2, %xmm4
	vpand	.Ldeerlapse_0_1_0_v3_CPI21_4(%rip), %xmm4, %xmm4
	vpxor	%xmm4, %xmm0, %xmm0
	vpxor	%xmm3, %xmm0, %xmm0
	vpxor	%xmm2, %xmm0, %xmm0
	vpxor	%xmm1, %xmm0, %xmm0
	vmovdqu	%xmm0, (%rsi)
	incq	8(%rcx)
	retq
.Ldeerlapse_0_1_0_v3_func_end21:
	.size	"deerlapse_0_1_0_v3::aead_ciphers_wide::gcm::KeyRefUpdateBlock::update_block", .Ldeerlapse_0_1_0_v3_func_end21-"deerlapse_0_1_0_v3::aead_ciphers_wide::gcm::KeyRefUpdateBlock::update_block"
	.cfi_endproc
                                        # -- End function
	.section	.text.deerlapse_aes_gcm,"ax",@progbits
	.p2align	4                               # -- Begin function aead_ciphers::aes_gcm::opening::authenticate::<#7bfdf0a6b4753edd>
	.type	"deerlapse_0_1_0_v3::aead_ciphers::aes_gcm::opening::authenticate::<#7bfdf0a6b4753edd>",@function
"deerlapse_0_1_0_v3::aead_ciphers::aes_gcm::opening::authenticate::<#7bfdf0a6b4753edd>": # @"deerlapse_0_1_0_v3::aead_ciphers::aes_gcm::opening::authenticate::<#7bfdf0a6b4753edd>"
	.cfi_startproc
# %bb.0:                                # %start
	pushq	%rbp
	.cfi_def_cfa_offset 16
	pushq	%r15
	.cfi_def_cfa_offset 24
	pushq	%r14
	.cfi_def_cfa_offset 32
	pushq	%r13
	.cfi_def_cfa_offset 40
	pushq	%r12
	.cfi_def_cfa_offset 48
	pushq	%rbx
	.cfi_def_cfa_offset 56
	subq	$248, %rsp
	.cfi_def_cfa_offset 304
	.cfi_offset %rbx, -56
	.cfi_offset %r12, -48
	.cfi_offset %r13, -40
	.cfi_offset %r14, -32
	.cfi_offset %r15, -24
	.cfi_offset %rbp, -16
	movq	%r9, %r15
	movq	%r8, %rbx
	movq	%rdx, %r14
	movq	%rsi, 80(%rsp)                  # 8-byte Spill
	movq	%rdi, 88(%rsp)                  # 8-byte Spill
	movq	328(%rsp), %r8
	movq	320(%rsp), %r12
	movq	312(%rsp), %r13
	movq	304(%rsp), %rax
	movl	8(%rcx), %edx
	movl	%edx, 8(%rsp)
	movq	(%rcx), %rcx
	movq	%rcx, (%rsp)
	vmovups	(%rax), %xmm0
	vmovaps	%xmm0, 176(%rsp)                # 16-byte Spill
	vxorps	%xmm0, %xmm0, %xmm0
	vmovaps	%xmm0, 112(%rsp)
	vmovaps	%xmm0, 96(%rsp)
	vmovaps	%xmm0, 32(%rsp)
	movq	%r14, 48(%rsp)
	movq	%r9, 56(%rsp)
	movq	%r12, 64(%rsp)
	movq	%r9, %rbp
	andq	$-16, %rbp
	leaq	32(%rsp), %rsi
	movq	%r14, %rdi
	movq	%rbx, %rdx
	movq	%rbp, %rcx
	callq	"deerlapse_0_1_0_v3::aead_ciphers_wide::gcm::KeyRefUpdateBlocks::update_blocks"
	andq	$15, %r15
	je	.Ldeerlapse_0_1_0_v3_BB22_2
# %bb.1:                                # %then.1.i.i.i
	addq	%rbp, %rbx
	movl	$16, %edx
	subq	%r15, %rdx
	leaq	(%rsp,%r15), %rdi
	addq	$16, %rdi
	xorl	%esi, %esi
	callq	memset@PLT
	leaq	16(%rsp), %rbp
	movq	%rbp, %rdi
	movq	%rbx, %rsi
	movq	%r15, %rdx
	callq	memcpy@PLT
	movq	(%r14), %rdi
	leaq	32(%rsp), %rsi
	movq	%rbp, %rdx
	movq	328(%rsp), %rcx
	callq	"deerlapse_0_1_0_v3::aead_ciphers_wide::gcm::KeyRefUpdateBlock::update_block"
.Ldeerlapse_0_1_0_v3_BB22_2:                               # %"aead_ciphers::gcm::context::Context::of_fitting::<#3f2567b24793e466>.exit"
	movq	64(%rsp), %rax
	vmovups	32(%rsp), %ymm0
	vmovups	%ymm0, 208(%rsp)
	vmovups	%ymm0, 128(%rsp)
	movq	%rax, 240(%rsp)
	movq	%rax, 160(%rsp)
	movq	144(%rsp), %rbx
	movq	%r12, %r14
	andq	$-16, %r14
	leaq	128(%rsp), %rsi
	movq	%rbx, %rdi
	movq	%r13, %rdx
	movq	%r14, %rcx
	movq	328(%rsp), %r15
	movq	%r15, %r8
	vzeroupper
	callq	"deerlapse_0_1_0_v3::aead_ciphers_wide::gcm::KeyRefUpdateBlocks::update_blocks"
	andq	$15, %r12
	je	.Ldeerlapse_0_1_0_v3_BB22_4
# %bb.3:                                # %then.1.i.i
	addq	%r14, %r13
	movl	$16, %edx
	subq	%r12, %rdx
	leaq	(%rsp,%r12), %rdi
	addq	$192, %rdi
	xorl	%esi, %esi
	callq	memset@PLT
	leaq	192(%rsp), %r14
	movq	%r14, %rdi
	movq	%r13, %rsi
	movq	%r12, %rdx
	callq	memcpy@PLT
	movq	(%rbx), %rdi
	leaq	128(%rsp), %rsi
	movq	%r14, %rdx
	movq	%r15, %rcx
	callq	"deerlapse_0_1_0_v3::aead_ciphers_wide::gcm::KeyRefUpdateBlock::update_block"
.Ldeerlapse_0_1_0_v3_BB22_4:                               # %"aead_ciphers::gcm::context::Context::absorb::<#3f2567b24793e466>.exit"
	movq	80(%rsp), %rax                  # 8-byte Reload
	movq	8(%rax), %rsi
	movq	16(%rax), %rdx
	movl	8(%rsp), %eax
	movl	%eax, 24(%rsp)
	movq	(%rsp), %rax
	movq	%rax, 16(%rsp)
	vxorps	%xmm0, %xmm0, %xmm0
	vmovaps	%xmm0, 32(%rsp)
	movl	$16777216, 28(%rsp)             # imm = 0x1000000
	incq	(%r15)
	leaq	32(%rsp), %rdi
	leaq	16(%rsp), %rcx
	callq	"deerlapse_0_1_0_v3::aead_ciphers_wide::aes::block_key::BlockKeyRef::encrypt_one"
	vmovaps	32(%rsp), %xmm0
	vmovaps	%xmm0, 112(%rsp)
	leaq	96(%rsp), %rdi
	leaq	128(%rsp), %rsi
	leaq	112(%rsp), %rdx
	movq	%r15, %rcx
	callq	"deerlapse_0_1_0_v3::aead_ciphers::aes_gcm::hash::finish::<#0f83097016d41fe1>"
	vmovdqa	176(%rsp), %xmm0                # 16-byte Reload
	vpxor	96(%rsp), %xmm0, %xmm0
	vpshufd	$238, %xmm0, %xmm1              # xmm1 = xmm0[2,3,2,3]
	vpor	%xmm1, %xmm0, %xmm0
	vpshufd	$85, %xmm0, %xmm1               # xmm1 = xmm0[1,1,1,1]
	vpor	%xmm1, %xmm0, %xmm0
	vpsrld	$16, %xmm0, %xmm1
	vpor	%xmm1, %xmm0, %xmm0
	vpsrlw	$8, %xmm0, %xmm1
	vpor	%xmm1, %xmm0, %xmm0
	vmovd	%xmm0, %edi
	callq	"deerlapse_0_1_0_v3::aead_ciphers_base::bb::is_zero"
	movq	88(%rsp), %rdx                  # 8-byte Reload
	leaq	1(%rdx), %rcx
	testb	%al, %al
	je	.Ldeerlapse_0_1_0_v3_BB22_7
# %bb.5:                                # %arm.1
	movl	8(%rsp), %eax
	movl	%eax, 8(%rcx)
	movq	(%rsp), %rax
	movq	%rax, (%rcx)
	movl	$33554432, %eax                 # imm = 0x2000000
	xorl	%ecx, %ecx
	jmp	.Ldeerlapse_0_1_0_v3_BB22_6
.Ldeerlapse_0_1_0_v3_BB22_7:                               # %arm.2
	movl	$0, 8(%rcx)
	movq	$0, (%rcx)
	xorl	%eax, %eax
	movb	$1, %cl
.Ldeerlapse_0_1_0_v3_BB22_6:                               # %common.ret
	movb	%cl, (%rdx)
	movl	%eax, 13(%rdx)
	addq	$248, %rsp
	.cfi_def_cfa_offset 56
	popq	%rbx
	.cfi_def_cfa_offset 48
	popq	%r12
	.cfi_def_cfa_offset 40
	popq	%r13
	.cfi_def_cfa_offset 32
	popq	%r14
	.cfi_def_cfa_offset 24
	popq	%r15
	.cfi_def_cfa_offset 16
	popq	%rbp
	.cfi_def_cfa_offset 8
	retq
.Ldeerlapse_0_1_0_v3_func_end22:
	.size	"deerlapse_0_1_0_v3::aead_ciphers::aes_gcm::opening::authenticate::<#7bfdf0a6b4753edd>", .Ldeerlapse_0_1_0_v3_func_end22-"deerlapse_0_1_0_v3::aead_ciphers::aes_gcm::opening::authenticate::<#7bfdf0a6b4753edd>"
	.cfi_endproc
                                        # -- End function
	.section	.rodata.cst16,"aM",@progbits,16
	.p2align	4, 0x0                          # -- Begin function aead_ciphers::aes_gcm::hash::finish::<#0f83097016d41fe1>
.Ldeerlapse_0_1_0_v3_CPI23_0:
	.byte	255                             # 0xff
	.byte	0                               # 0x0
	.byte	0                               # 0x0
	.byte	0                               # 0x0
	.byte	0                               # 0x0
	.byte	0                               # 0x0
	.byte	0                               # 0x0
	.byte	0                               # 0x0
	.byte	255                             # 0xff
	.byte	0                               # 0x0
	.byte	0                               # 0x0
	.byte	0                               # 0x0
	.byte	0                               # 0x0
	.byte	0                               # 0x0
	.byte	0                               # 0x0
	.byte	0                               # 0x0
.Ldeerlapse_0_1_0_v3_CPI23_1:
	.byte	0                               # 0x0
	.byte	0                               # 0x0
	.byte	0                               # 0x0
	.byte	0                               # 0x0
	.byte	0                               # 0x0
	.byte	0                               # 0x0
	.byte	255                             # 0xff
	.byte	0                               # 0x0
	.byte	0                               # 0x0
	.byte	0                               # 0x0
	.byte	0                               # 0x0
	.byte	0                               # 0x0
	.byte	0                               # 0x0
	.byte	0                               # 0x0
	.byte	255                             # 0xff
	.byte	0                               # 0x0
.Ldeerlapse_0_1_0_v3_CPI23_2:
	.byte	0                               # 0x0
	.byte	0                               # 0x0
	.byte	0                               # 0x0
	.byte	0                               # 0x0
	.byte	0                               # 0x0
	.byte	255                             # 0xff
	.byte	0                               # 0x0
	.byte	0                               # 0x0
	.byte	0                               # 0x0
	.byte	0                               # 0x0
	.byte	0                               # 0x0
	.byte	0                               # 0x0
	.byte	0                               # 0x0
	.byte	255                             # 0xff
	.byte	0                               # 0x0
	.byte	0                               # 0x0
.Ldeerlapse_0_1_0_v3_CPI23_3:
	.byte	0                               # 0x0
	.byte	0                               # 0x0
	.byte	0                               # 0x0
	.byte	0                               # 0x0
	.byte	255                             # 0xff
	.byte	0                               # 0x0
	.byte	0                               # 0x0
	.byte	0                               # 0x0
	.byte	0                               # 0x0
	.byte	0                               # 0x0
	.byte	0                               # 0x0
	.byte	0                               # 0x0
	.byte	255                             # 0xff
	.byte	0                               # 0x0
	.byte	0                               # 0x0
	.byte	0                               # 0x0
.Ldeerlapse_0_1_0_v3_CPI23_4:
	.byte	0                               # 0x0
	.byte	0                               # 0x0
	.byte	0                               # 0x0
	.byte	255                             # 0xff
	.byte	0                               # 0x0
	.byte	0                               # 0x0
	.byte	0                               # 0x0
	.byte	0                               # 0x0
	.byte	0                               # 0x0
	.byte	0                               # 0x0
	.byte	0                               # 0x0
	.byte	255                             # 0xff
	.byte	0                               # 0x0
	.byte	0                               # 0x0
	.byte	0                               # 0x0
	.byte	0                               # 0x0
.Ldeerlapse_0_1_0_v3_CPI23_5:
	.byte	0                               # 0x0
	.byte	0                               # 0x0
	.byte	255                             # 0xff
	.byte	0                               # 0x0
	.byte	0                               # 0x0
	.byte	0                               # 0x0
	.byte	0                               # 0x0
	.byte	0                               # 0x0
	.byte	0                               # 0x0
	.byte	0                               # 0x0
	.byte	255                             # 0xff
	.byte	0                               # 0x0
	.byte	0                               # 0x0
	.byte	0                               # 0x0
	.byte	0                               # 0x0
	.byte	0                               # 0x0
.Ldeerlapse_0_1_0_v3_CPI23_6:
	.byte	0                               # 0x0
	.byte	255                             # 0xff
	.byte	0                               # 0x0
	.byte	0                               # 0x0
	.byte	0                               # 0x0
	.byte	0                               # 0x0
	.byte	0                               # 0x0
	.byte	0                               # 0x0
	.byte	0                               # 0x0
	.byte	255                             # 0xff
	.byte	0                               # 0x0
	.byte	0                               # 0x0
	.byte	0                               # 0x0
	.byte	0                               # 0x0
	.byte	0                               # 0x0
	.byte	0                               # 0x0
	.section	.text.deerlapse_aes_gcm,"ax",@progbits
	.p2align	4
	.type	"deerlapse_0_1_0_v3::aead_ciphers::aes_gcm::hash::finish::<#0f83097016d41fe1>",@function
"deerlapse_0_1_0_v3::aead_ciphers::aes_gcm::hash::finish::<#0f83097016d41fe1>": # @"deerlapse_0_1_0_v3::aead_ciphers::aes_gcm::hash::finish::<#0f83097016d41fe1>"
	.cfi_startproc
# %bb.0:                                # %start
	pushq	%rbx
	.cfi_def_cfa_offset 16
	subq	$48, %rsp
	.cfi_def_cfa_offset 64
	.cfi_offset %rbx, -16
	movq	%rdi, %rbx
	movq	16(%rsi), %rax
	vmovups	(%rdx), %xmm0
	vmovaps	%xmm0, 16(%rsp)                 # 16-byte Spill
	vmovups	(%rsi), %xmm0
	vmovaps	%xmm0, (%rsp)
	vmovdqu	24(%rsi), %xmm0
	vpsrlq	$53, %xmm0, %xmm1
	vpand	.Ldeerlapse_0_1_0_v3_CPI23_0(%rip), %xmm1, %xmm1
	vpsllq	$59, %xmm0, %xmm2
	vpsllq	$43, %xmm0, %xmm3
	vpand	.Ldeerlapse_0_1_0_v3_CPI23_1(%rip), %xmm3, %xmm3
	vpor	%xmm2, %xmm3, %xmm2
	vpsllq	$27, %xmm0, %xmm3
	vpand	.Ldeerlapse_0_1_0_v3_CPI23_2(%rip), %xmm3, %xmm3
	vpsllq	$11, %xmm0, %xmm4
	vpand	.Ldeerlapse_0_1_0_v3_CPI23_3(%rip), %xmm4, %xmm4
	vpor	%xmm4, %xmm3, %xmm3
	vpor	%xmm3, %xmm2, %xmm2
	vpsrlq	$5, %xmm0, %xmm3
	vpand	.Ldeerlapse_0_1_0_v3_CPI23_4(%rip), %xmm3, %xmm3
	vpsrlq	$21, %xmm0, %xmm4
	vpand	.Ldeerlapse_0_1_0_v3_CPI23_5(%rip), %xmm4, %xmm4
	vpor	%xmm4, %xmm3, %xmm3
	vpsrlq	$37, %xmm0, %xmm0
	vpand	.Ldeerlapse_0_1_0_v3_CPI23_6(%rip), %xmm0, %xmm0
	vpor	%xmm0, %xmm3, %xmm0
	vpor	%xmm0, %xmm2, %xmm0
	vpor	%xmm1, %xmm0, %xmm0
	vmovdqa	%xmm0, 32(%rsp)
	movq	(%rax), %rdi
	movq	%rsp, %rsi
	leaq	32(%rsp), %rdx
	callq	"deerlapse_0_1_0_v3::aead_ciphers_wide::gcm::KeyRefUpdateBlock::update_block"
	vmovaps	16(%rsp), %xmm0                 # 16-byte Reload
	vxorps	(%rsp), %xmm0, %xmm0
	vmovups	%xmm0, (%rbx)
	addq	$48, %rsp
	.cfi_def_cfa_offset 16
	popq	%rbx
	.cfi_def_cfa_offset 8
	retq
.Ldeerlapse_0_1_0_v3_func_end23:
	.size	"deerlapse_0_1_0_v3::aead_ciphers::aes_gcm::hash::finish::<#0f83097016d41fe1>", .Ldeerlapse_0_1_0_v3_func_end23-"deerlapse_0_1_0_v3::aead_ciphers::aes_gcm::hash::finish::<#0f83097016d41fe1>"
	.cfi_endproc
                                        # -- End function
	.section	.text.deerlapse_aes_gcm,"ax",@progbits
	.p2align	4                               # -- Begin function aead_ciphers_base::bb::is_zero
	.type	"deerlapse_0_1_0_v3::aead_ciphers_base::bb::is_zero",@function
"deerlapse_0_1_0_v3::aead_ciphers_base::bb::is_zero":       # @"deerlapse_0_1_0_v3::aead_ciphers_base::bb::is_zero"
	.cfi_startproc
# %bb.0:                                # %start
	testb	%dil, %dil
	sete	%al
	retq
.Ldeerlapse_0_1_0_v3_func_end24:
	.size	"deerlapse_0_1_0_v3::aead_ciphers_base::bb::is_zero", .Ldeerlapse_0_1_0_v3_func_end24-"deerlapse_0_1_0_v3::aead_ciphers_base::bb::is_zero"
	.cfi_endproc
                                        # -- End function
	.section	.text.deerlapse_aes_gcm,"ax",@progbits
	.p2align	4                               # -- Begin function aead_ciphers::aes_gcm::counter_mode::encrypt_within::<#6fa349fe97f872a2>
	.type	"deerlapse_0_1_0_v3::aead_ciphers::aes_gcm::counter_mode::encrypt_within::<#6fa349fe97f872a2>",@function
"deerlapse_0_1_0_v3::aead_ciphers::aes_gcm::counter_mode::encrypt_within::<#6fa349fe97f872a2>": # @"deerlapse_0_1_0_v3::aead_ciphers::aes_gcm::counter_mode::encrypt_within::<#6fa349fe97f872a2>"
	.cfi_startproc
# %bb.0:                                # %start
	pushq	%rbp
	.cfi_def_cfa_offset 16
	pushq	%r15
	.cfi_def_cfa_offset 24
	pushq	%r14
	.cfi_def_cfa_offset 32
	pushq	%r13
	.cfi_def_cfa_offset 40
	pushq	%r12
	.cfi_def_cfa_offset 48
	pushq	%rbx
	.cfi_def_cfa_offset 56
	subq	$376, %rsp                      # imm = 0x178
	.cfi_def_cfa_offset 432
	.cfi_offset %rbx, -56
	.cfi_offset %r12, -48
	.cfi_offset %r13, -40
	.cfi_offset %r14, -32
	.cfi_offset %r15, -24
	.cfi_offset %rbp, -16
	movq	%r9, 64(%rsp)                   # 8-byte Spill
	movq	%r8, %r9
	movq	%rdi, 8(%rsp)                   # 8-byte Spill
	vmovups	(%rsi), %xmm0
	vmovaps	%xmm0, 32(%rsp)
	movq	%rcx, 48(%rsp)                  # 8-byte Spill
	movq	%rcx, %rax
	subq	%r8, %rax
	movq	%rax, %rcx
	andq	$-256, %rcx
	testb	$15, %al
	movq	%rax, 72(%rsp)                  # 8-byte Spill
	cmoveq	%rax, %rcx
	testq	%rcx, %rcx
	je	.Ldeerlapse_0_1_0_v3_BB25_12
# %bb.1:                                # %join.5.lr.ph
	movl	44(%rsp), %r15d
	xorl	%esi, %esi
	movq	%r9, 96(%rsp)                   # 8-byte Spill
	movq	%rdx, 56(%rsp)                  # 8-byte Spill
	movq	%rcx, 80(%rsp)                  # 8-byte Spill
	jmp	.Ldeerlapse_0_1_0_v3_BB25_3
	.p2align	4
.Ldeerlapse_0_1_0_v3_BB25_11:                              #   in Loop: Header=BB25_3 Depth=1
	bswapl	%r15d
	movq	56(%rsp), %rdx                  # 8-byte Reload
	movq	80(%rsp), %rcx                  # 8-byte Reload
	movq	88(%rsp), %rsi                  # 8-byte Reload
.Ldeerlapse_0_1_0_v3_BB25_2:                               # %loop.2.loopexit
                                        #   in Loop: Header=BB25_3 Depth=1
	addq	%r12, %rsi
	cmpq	%rcx, %rsi
	jae	.Ldeerlapse_0_1_0_v3_BB25_12
.Ldeerlapse_0_1_0_v3_BB25_3:                               # %join.5
                                        # =>This Loop Header: Depth=1
                                        #     Child Loop BB25_5 Depth 2
	movq	%rcx, %rax
	subq	%rsi, %rax
	cmpq	$3072, %rax                     # imm = 0xC00
	movl	$3072, %r12d                    # imm = 0xC00
	cmovbq	%rax, %r12
	xorl	%r13d, %r13d
	movq	8(%rsp), %rax                   # 8-byte Reload
	cmpl	$256, 24(%rax)                  # imm = 0x100
	sete	%al
	cmpq	%rsi, %rcx
	je	.Ldeerlapse_0_1_0_v3_BB25_2
# %bb.4:                                # %join.8.i.preheader
                                        #   in Loop: Header=BB25_3 Depth=1
	movq	%rsi, 88(%rsp)                  # 8-byte Spill
	leaq	(%rdx,%rsi), %rcx
	movq	%rcx, 104(%rsp)                 # 8-byte Spill
	movb	%al, %r13b
	shll	$7, %r13d
	subq	$-128, %r13
	bswapl	%r15d
	xorl	%ebp, %ebp
	jmp	.Ldeerlapse_0_1_0_v3_BB25_5
	.p2align	4
.Ldeerlapse_0_1_0_v3_BB25_6:                               # %then.1.i
                                        #   in Loop: Header=BB25_5 Depth=2
	movq	8(%rsp), %rax                   # 8-byte Reload
	movq	8(%rax), %rdi
	movq	16(%rax), %rsi
	leaq	32(%rsp), %r8
	movq	%r9, %rcx
	movq	%r14, %r9
	callq	"deerlapse_0_1_0_v3::aead_ciphers_wide::aes::ctr32::encrypt_few"
.Ldeerlapse_0_1_0_v3_BB25_10:                              # %"aead_ciphers_wide::aes::ctr32::encrypt_batch.exit"
                                        #   in Loop: Header=BB25_5 Depth=2
	addq	%rbx, %rbp
	addl	%r14d, %r15d
	movbel	%r15d, 44(%rsp)
	movq	64(%rsp), %rax                  # 8-byte Reload
	addq	%r14, (%rax)
	cmpq	%r12, %rbp
	movq	96(%rsp), %r9                   # 8-byte Reload
	jae	.Ldeerlapse_0_1_0_v3_BB25_11
.Ldeerlapse_0_1_0_v3_BB25_5:                               # %join.8.i
                                        #   Parent Loop BB25_3 Depth=1
                                        # =>  This Inner Loop Header: Depth=2
	movq	%r12, %rax
	subq	%rbp, %rax
	cmpq	%r13, %rax
	movq	%r13, %rbx
	cmovbq	%rax, %rbx
	movq	104(%rsp), %rcx                 # 8-byte Reload
	leaq	(%rcx,%rbp), %rdx
	movl	%ebx, %r14d
	shrl	$4, %r14d
	cmpq	$79, %rax
	jbe	.Ldeerlapse_0_1_0_v3_BB25_6
# %bb.7:                                # %else.2.i
                                        #   in Loop: Header=BB25_5 Depth=2
	movq	8(%rsp), %rax                   # 8-byte Reload
	movq	(%rax), %rdi
	movq	16(%rax), %rsi
	leaq	32(%rsp), %r8
	movq	%r9, %rcx
	movq	%r14, %r9
	cmpq	$143, %rbx
	ja	.Ldeerlapse_0_1_0_v3_BB25_9
# %bb.8:                                # %then.4.i
                                        #   in Loop: Header=BB25_5 Depth=2
	callq	"deerlapse_0_1_0_v3::aead_ciphers_wide::aes::ctr32::encrypt_up_to_eight"
	jmp	.Ldeerlapse_0_1_0_v3_BB25_10
	.p2align	4
.Ldeerlapse_0_1_0_v3_BB25_9:                               # %else.5.i
                                        #   in Loop: Header=BB25_5 Depth=2
	callq	"deerlapse_0_1_0_v3::aead_ciphers_wide::aes::ctr32::encrypt_up_to_sixteen"
	jmp	.Ldeerlapse_0_1_0_v3_BB25_10
.Ldeerlapse_0_1_0_v3_BB25_12:                              # %after.1
	movq	72(%rsp), %r15                  # 8-byte Reload
	cmpq	%r15, %rcx
	jae	.Ldeerlapse_0_1_0_v3_BB25_26
# %bb.13:                               # %then.6
	addq	%rcx, %rdx
	addq	%r9, %rcx
	movq	48(%rsp), %r12                  # 8-byte Reload
	subq	%rcx, %r12
	xorl	%r14d, %r14d
	testb	$15, %r12b
	setne	%r14b
	shll	$4, %r14d
	addq	%r12, %r14
	movq	%r14, %r13
	andq	$-16, %r13
	addq	%rdx, %r9
	cmpq	$64, %r13
	ja	.Ldeerlapse_0_1_0_v3_BB25_17
# %bb.14:                               # %then.1.i20
	movq	%rdx, %rbp
	vxorps	%xmm0, %xmm0, %xmm0
	vmovups	%ymm0, 144(%rsp)
	vmovups	%ymm0, 112(%rsp)
	vmovaps	32(%rsp), %xmm0
	vmovaps	%xmm0, 16(%rsp)
	leaq	112(%rsp), %rbx
	movq	%rbx, %rax
	subq	%r9, %rax
	cmpq	%r12, %rax
	leaq	112(%rsp), %rdi
	movq	%r9, %rsi
	movq	%r12, %rdx
	vzeroupper
	callq	memcpy@PLT
	testq	%r13, %r13
	je	.Ldeerlapse_0_1_0_v3_BB25_16
# %bb.15:                               # %join.8.i.i
	movq	%r15, %r13
	movbel	28(%rsp), %r15d
	shrq	$4, %r14
	movq	8(%rsp), %rax                   # 8-byte Reload
	movq	8(%rax), %rdi
	movq	16(%rax), %rsi
	leaq	112(%rsp), %rdx
	leaq	16(%rsp), %r8
	xorl	%ecx, %ecx
	movq	%r14, %r9
	callq	"deerlapse_0_1_0_v3::aead_ciphers_wide::aes::ctr32::encrypt_few"
	leal	(%r14,%r15), %eax
	movq	%r13, %r15
	movbel	%eax, 28(%rsp)
	movq	64(%rsp), %rax                  # 8-byte Reload
	addq	%r14, (%rax)
.Ldeerlapse_0_1_0_v3_BB25_16:                              # %"aead_ciphers::aes_gcm::counter_mode::encrypt_padded::<#6fa349fe97f872a2>.exit"
	movq	%rbp, %rdi
	movq	%rbp, %rax
	subq	%rbx, %rax
	cmpq	%r12, %rax
	leaq	112(%rsp), %rsi
	movq	%r12, %rdx
	jmp	.Ldeerlapse_0_1_0_v3_BB25_25
.Ldeerlapse_0_1_0_v3_BB25_17:                              # %else.2.i19
	vxorps	%xmm0, %xmm0, %xmm0
	vmovups	%ymm0, 336(%rsp)
	vmovups	%ymm0, 304(%rsp)
	vmovups	%ymm0, 272(%rsp)
	vmovups	%ymm0, 240(%rsp)
	vmovups	%ymm0, 208(%rsp)
	vmovups	%ymm0, 176(%rsp)
	vmovups	%ymm0, 144(%rsp)
	vmovups	%ymm0, 112(%rsp)
	vmovaps	32(%rsp), %xmm0
	vmovaps	%xmm0, 16(%rsp)
	leaq	112(%rsp), %rax
	subq	%r9, %rax
	cmpq	%r12, %rax
	movq	%r12, 48(%rsp)                  # 8-byte Spill
	movq	%rdx, 56(%rsp)                  # 8-byte Spill
	leaq	112(%rsp), %rdi
	movq	%r9, %rsi
	movq	%r12, %rdx
	vzeroupper
	callq	memcpy@PLT
	xorl	%ebx, %ebx
	movq	8(%rsp), %rax                   # 8-byte Reload
	cmpl	$256, 24(%rax)                  # imm = 0x100
	sete	%bl
	shll	$7, %ebx
	subq	$-128, %rbx
	movbel	28(%rsp), %ebp
	xorl	%r15d, %r15d
	movq	%r13, %rax
	jmp	.Ldeerlapse_0_1_0_v3_BB25_18
	.p2align	4
.Ldeerlapse_0_1_0_v3_BB25_19:                              # %then.1.i.i60
                                        #   in Loop: Header=BB25_18 Depth=1
	movq	8(%rsp), %rax                   # 8-byte Reload
	movq	8(%rax), %rdi
	movq	16(%rax), %rsi
	leaq	16(%rsp), %r8
	xorl	%ecx, %ecx
	movq	%r14, %r9
	callq	"deerlapse_0_1_0_v3::aead_ciphers_wide::aes::ctr32::encrypt_few"
.Ldeerlapse_0_1_0_v3_BB25_23:                              # %"aead_ciphers_wide::aes::ctr32::encrypt_batch.exit.i57"
                                        #   in Loop: Header=BB25_18 Depth=1
	addq	%r12, %r15
	addl	%r14d, %ebp
	movbel	%ebp, 28(%rsp)
	movq	64(%rsp), %rax                  # 8-byte Reload
	addq	%r14, (%rax)
	movq	%r13, %rax
	cmpq	%r13, %r15
	jae	.Ldeerlapse_0_1_0_v3_BB25_24
.Ldeerlapse_0_1_0_v3_BB25_18:                              # %join.8.i.i44
                                        # =>This Inner Loop Header: Depth=1
	subq	%r15, %rax
	cmpq	%rbx, %rax
	movq	%rbx, %r12
	cmovbq	%rax, %r12
	leaq	(%rsp,%r15), %rdx
	addq	$112, %rdx
	movl	%r12d, %r14d
	shrl	$4, %r14d
	cmpq	$79, %rax
	jbe	.Ldeerlapse_0_1_0_v3_BB25_19
# %bb.20:                               # %else.2.i.i54
                                        #   in Loop: Header=BB25_18 Depth=1
	movq	8(%rsp), %rax                   # 8-byte Reload
	movq	(%rax), %rdi
	movq	16(%rax), %rsi
	leaq	16(%rsp), %r8
	xorl	%ecx, %ecx
	movq	%r14, %r9
	cmpq	$143, %r12
	ja	.Ldeerlapse_0_1_0_v3_BB25_22
# %bb.21:                               # %then.4.i.i59
                                        #   in Loop: Header=BB25_18 Depth=1
	callq	"deerlapse_0_1_0_v3::aead_ciphers_wide::aes::ctr32::encrypt_up_to_eight"
	jmp	.Ldeerlapse_0_1_0_v3_BB25_23
	.p2align	4
.Ldeerlapse_0_1_0_v3_BB25_22:                              # %else.5.i.i56
                                        #   in Loop: Header=BB25_18 Depth=1
	callq	"deerlapse_0_1_0_v3::aead_ciphers_wide::aes::ctr32::encrypt_up_to_sixteen"
	jmp	.Ldeerlapse_0_1_0_v3_BB25_23
.Ldeerlapse_0_1_0_v3_BB25_24:                              # %"aead_ciphers::aes_gcm::counter_mode::encrypt_padded::<#6fa349fe97f872a2>.exit65"
	movq	56(%rsp), %rdi                  # 8-byte Reload
	movq	%rdi, %rax
	leaq	112(%rsp), %rcx
	subq	%rcx, %rax
	movq	48(%rsp), %rdx                  # 8-byte Reload
	cmpq	%rdx, %rax
	movq	72(%rsp), %r15                  # 8-byte Reload
	leaq	112(%rsp), %rsi
.Ldeerlapse_0_1_0_v3_BB25_25:                              # %join.8
	callq	memcpy@PLT
.Ldeerlapse_0_1_0_v3_BB25_26:                              # %join.8
	movq	%r15, %rax
	addq	$376, %rsp                      # imm = 0x178
	.cfi_def_cfa_offset 56
	popq	%rbx
	.cfi_def_cfa_offset 48
	popq	%r12
	.cfi_def_cfa_offset 40
	popq	%r13
	.cfi_def_cfa_offset 32
	popq	%r14
	.cfi_def_cfa_offset 24
	popq	%r15
	.cfi_def_cfa_offset 16
	popq	%rbp
	.cfi_def_cfa_offset 8
	retq
.Ldeerlapse_0_1_0_v3_func_end25:
	.size	"deerlapse_0_1_0_v3::aead_ciphers::aes_gcm::counter_mode::encrypt_within::<#6fa349fe97f872a2>", .Ldeerlapse_0_1_0_v3_func_end25-"deerlapse_0_1_0_v3::aead_ciphers::aes_gcm::counter_mode::encrypt_within::<#6fa349fe97f872a2>"
	.cfi_endproc
                                        # -- End function
	.section	.rodata.cst16,"aM",@progbits,16
	.p2align	4, 0x0                          # -- Begin function aead_ciphers_wide::aes::ctr32::encrypt_few
.Ldeerlapse_0_1_0_v3_CPI26_0:
	.zero	16,15
.Ldeerlapse_0_1_0_v3_CPI26_1:
	.byte	0                               # 0x0
	.byte	1                               # 0x1
	.byte	39                              # 0x27
	.byte	38                              # 0x26
	.byte	192                             # 0xc0
	.byte	193                             # 0xc1
	.byte	231                             # 0xe7
	.byte	230                             # 0xe6
	.byte	195                             # 0xc3
	.byte	194                             # 0xc2
	.byte	228                             # 0xe4
	.byte	229                             # 0xe5
	.byte	3                               # 0x3
	.byte	2                               # 0x2
	.byte	36                              # 0x24
	.byte	37                              # 0x25
.Ldeerlapse_0_1_0_v3_CPI26_2:
	.byte	0                               # 0x0
	.byte	170                             # 0xaa
	.byte	122                             # 0x7a
	.byte	208                             # 0xd0
	.byte	175                             # 0xaf
	.byte	5                               # 0x5
	.byte	213                             # 0xd5
	.byte	127                             # 0x7f
	.byte	216                             # 0xd8
	.byte	114                             # 0x72
	.byte	162                             # 0xa2
	.byte	8                               # 0x8
	.byte	119                             # 0x77
	.byte	221                             # 0xdd
	.byte	13                              # 0xd
	.byte	167                             # 0xa7
.Ldeerlapse_0_1_0_v3_CPI26_3:
	.byte	128                             # 0x80
	.byte	3                               # 0x3
	.byte	13                              # 0xd
	.byte	1                               # 0x1
	.byte	10                              # 0xa
	.byte	8                               # 0x8
	.byte	12                              # 0xc
	.byte	11                              # 0xb
	.byte	5                               # 0x5
	.byte	14                              # 0xe
	.byte	4                               # 0x4
	.byte	7                               # 0x7
	.byte	6                               # 0x6
	.byte	2                               # 0x2
	.byte	9                               # 0x9
	.byte	15                              # 0xf
.Ldeerlapse_0_1_0_v3_CPI26_4:
	.byte	128                             # 0x80
	.byte	1                               # 0x1
	.byte	12                              # 0xc
	.byte	8                               # 0x8
	.byte	6                               # 0x6
	.byte	15                              # 0xf
	.byte	4                               # 0x4
	.byte	14                              # 0xe
	.byte	3                               # 0x3
	.byte	13                              # 0xd
	.byte	11                              # 0xb
	.byte	10                              # 0xa
	.byte	2                               # 0x2
	.byte	9                               # 0x9
	.byte	7                               # 0x7
	.byte	5                               # 0x5
.Ldeerlapse_0_1_0_v3_CPI26_5:
	.byte	0                               # 0x0
	.byte	250                             # 0xfa
	.byte	53                              # 0x35
	.byte	106                             # 0x6a
	.byte	43                              # 0x2b
	.byte	187                             # 0xbb
	.byte	95                              # 0x5f
	.byte	65                              # 0x41
	.byte	142                             # 0x8e
	.byte	207                             # 0xcf
	.byte	228                             # 0xe4
	.byte	30                              # 0x1e
	.byte	116                             # 0x74
	.byte	144                             # 0x90
	.byte	209                             # 0xd1
	.byte	165                             # 0xa5
.Ldeerlapse_0_1_0_v3_CPI26_6:
	.byte	0                               # 0x0
	.byte	129                             # 0x81
	.byte	153                             # 0x99
	.byte	118                             # 0x76
	.byte	10                              # 0xa
	.byte	253                             # 0xfd
	.byte	239                             # 0xef
	.byte	124                             # 0x7c
	.byte	100                             # 0x64
	.byte	24                              # 0x18
	.byte	18                              # 0x12
	.byte	147                             # 0x93
	.byte	229                             # 0xe5
	.byte	247                             # 0xf7
	.byte	139                             # 0x8b
	.byte	110                             # 0x6e
.Ldeerlapse_0_1_0_v3_CPI26_7:
	.zero	16,99
.Ldeerlapse_0_1_0_v3_CPI26_8:
	.byte	0                               # 0x0
	.byte	5                               # 0x5
	.byte	10                              # 0xa
	.byte	15                              # 0xf
	.byte	4                               # 0x4
	.byte	9                               # 0x9
	.byte	14                              # 0xe
	.byte	3                               # 0x3
	.byte	8                               # 0x8
	.byte	13                              # 0xd
	.byte	2                               # 0x2
	.byte	7                               # 0x7
	.byte	12                              # 0xc
	.byte	1                               # 0x1
	.byte	6                               # 0x6
	.byte	11                              # 0xb
.Ldeerlapse_0_1_0_v3_CPI26_9:
	.byte	5                               # 0x5
	.byte	10                              # 0xa
	.byte	15                              # 0xf
	.byte	0                               # 0x0
	.byte	9                               # 0x9
	.byte	14                              # 0xe
	.byte	3                               # 0x3
	.byte	4                               # 0x4
	.byte	13                              # 0xd
	.byte	2                               # 0x2
	.byte	7                               # 0x7
	.byte	8                               # 0x8
	.byte	1                               # 0x1
	.byte	6                               # 0x6
	.byte	11                              # 0xb
	.byte	12                              # 0xc
.Ldeerlapse_0_1_0_v3_CPI26_10:
	.zero	16,27
.Ldeerlapse_0_1_0_v3_CPI26_11:
	.byte	2                               # 0x2
	.byte	3                               # 0x3
	.byte	0                               # 0x0
	.byte	1                               # 0x1
	.byte	6                               # 0x6
	.byte	7                               # 0x7
	.byte	4                               # 0x4
	.byte	5                               # 0x5
	.byte	10                              # 0xa
	.byte	11                              # 0xb
	.byte	8                               # 0x8
	.byte	9                               # 0x9
	.byte	14                              # 0xe
	.byte	15                              # 0xf
	.byte	12                              # 0xc
	.byte	13                              # 0xd
	.section	.rodata.cst4,"aM",@progbits,4
	.p2align	2, 0x0
.Ldeerlapse_0_1_0_v3_CPI26_12:
	.zero	4,15
.Ldeerlapse_0_1_0_v3_CPI26_13:
	.zero	4,99
.Ldeerlapse_0_1_0_v3_CPI26_14:
	.zero	4,27
	.section	.text.deerlapse_aes_gcm,"ax",@progbits
	.p2align	4
	.type	"deerlapse_0_1_0_v3::aead_ciphers_wide::aes::ctr32::encrypt_few",@function
"deerlapse_0_1_0_v3::aead_ciphers_wide::aes::ctr32::encrypt_few": # @"deerlapse_0_1_0_v3::aead_ciphers_wide::aes::ctr32::encrypt_few"
	.cfi_startproc
# %bb.0:                                # %start
	pushq	%rbp
	.cfi_def_cfa_offset 16
	pushq	%r15
	.cfi_def_cfa_offset 24
	pushq	%r14
	.cfi_def_cfa_offset 32
	pushq	%r13
	.cfi_def_cfa_offset 40
	pushq	%r12
	.cfi_def_cfa_offset 48
	pushq	%rbx
	.cfi_def_cfa_offset 56
	subq	$56, %rsp
	.cfi_def_cfa_offset 112
	.cfi_offset %rbx, -56
	.cfi_offset %r12, -48
	.cfi_offset %r13, -40
	.cfi_offset %r14, -32
	.cfi_offset %r15, -24
	.cfi_offset %rbp, -16
	movq	%rcx, (%rsp)                    # 8-byte Spill
	movq	%rdx, %rbx
	movq	%rsi, %rdx
	movq	%rdi, %rsi
	vpxor	%xmm0, %xmm0, %xmm0
	vmovdqa	%xmm0, 32(%rsp)
	movq	%r9, 8(%rsp)                    # 8-byte Spill
	movq	%r9, %rax
	shrq	%rax
	je	.Ldeerlapse_0_1_0_v3_BB26_6
# %bb.1:                                # %join.5.lr.ph
	movq	%rdx, %rcx
	shlq	$4, %rcx
	movq	(%rsp), %rdi                    # 8-byte Reload
	addq	%rbx, %rdi
	leaq	16(%rsi), %r11
	xorl	%r15d, %r15d
	jmp	.Ldeerlapse_0_1_0_v3_BB26_2
	.p2align	4
.Ldeerlapse_0_1_0_v3_BB26_5:                               # %"aead_ciphers_wide::aes::block_key::BlockKeyRef::encrypt_two.exit"
                                        #   in Loop: Header=BB26_2 Depth=1
	movq	%r15, %r12
	shlq	$5, %r12
	vpbroadcastd	.Ldeerlapse_0_1_0_v3_CPI26_12(%rip), %xmm2 # xmm2 = [15,15,15,15,15,15,15,15,15,15,15,15,15,15,15,15]
	vpand	%xmm2, %xmm1, %xmm0
	vmovdqa	.Ldeerlapse_0_1_0_v3_CPI26_1(%rip), %xmm3          # xmm3 = [0,1,39,38,192,193,231,230,195,194,228,229,3,2,36,37]
	vpshufb	%xmm0, %xmm3, %xmm5
	vpsrlw	$4, %xmm1, %xmm0
	vpand	%xmm2, %xmm0, %xmm1
	vmovdqa	.Ldeerlapse_0_1_0_v3_CPI26_2(%rip), %xmm0          # xmm0 = [0,170,122,208,175,5,213,127,216,114,162,8,119,221,13,167]
	vpshufb	%xmm1, %xmm0, %xmm1
	vpxor	%xmm5, %xmm1, %xmm1
	vpand	%xmm2, %xmm1, %xmm5
	vpsrlw	$4, %xmm1, %xmm1
	vpand	%xmm2, %xmm1, %xmm6
	vpxor	%xmm5, %xmm6, %xmm7
	vmovdqa	.Ldeerlapse_0_1_0_v3_CPI26_3(%rip), %xmm8          # xmm8 = [128,3,13,1,10,8,12,11,5,14,4,7,6,2,9,15]
	vpshufb	%xmm5, %xmm8, %xmm5
	vmovdqa	.Ldeerlapse_0_1_0_v3_CPI26_4(%rip), %xmm1          # xmm1 = [128,1,12,8,6,15,4,14,3,13,11,10,2,9,7,5]
	vpshufb	%xmm6, %xmm1, %xmm9
	vpxor	%xmm5, %xmm9, %xmm9
	vpshufb	%xmm7, %xmm1, %xmm10
	vpxor	%xmm5, %xmm10, %xmm5
	vpshufb	%xmm9, %xmm1, %xmm9
	vpxor	%xmm7, %xmm9, %xmm7
	vpshufb	%xmm5, %xmm1, %xmm5
	vpxor	%xmm6, %xmm5, %xmm5
	vmovdqa	.Ldeerlapse_0_1_0_v3_CPI26_5(%rip), %xmm6          # xmm6 = [0,250,53,106,43,187,95,65,142,207,228,30,116,144,209,165]
	vpshufb	%xmm7, %xmm6, %xmm7
	vmovdqa	.Ldeerlapse_0_1_0_v3_CPI26_6(%rip), %xmm9          # xmm9 = [0,129,153,118,10,253,239,124,100,24,18,147,229,247,139,110]
	vpshufb	%xmm5, %xmm9, %xmm10
	vpbroadcastd	.Ldeerlapse_0_1_0_v3_CPI26_13(%rip), %xmm5 # xmm5 = [99,99,99,99,99,99,99,99,99,99,99,99,99,99,99,99]
	vmovdqa	.Ldeerlapse_0_1_0_v3_CPI26_8(%rip), %xmm11         # xmm11 = [0,5,10,15,4,9,14,3,8,13,2,7,12,1,6,11]
	vpshufb	%xmm11, %xmm7, %xmm7
	vpshufb	%xmm11, %xmm10, %xmm10
	vpxor	%xmm5, %xmm7, %xmm7
	vpxor	%xmm7, %xmm10, %xmm7
	vmovdqu	(%rsi,%rcx), %xmm10
	vpand	%xmm2, %xmm4, %xmm12
	vpshufb	%xmm12, %xmm3, %xmm3
	vpsrlw	$4, %xmm4, %xmm4
	vpand	%xmm2, %xmm4, %xmm4
	vpshufb	%xmm4, %xmm0, %xmm0
	vpxor	%xmm3, %xmm0, %xmm0
	vpand	%xmm2, %xmm0, %xmm3
	vpsrlw	$4, %xmm0, %xmm0
	vpand	%xmm2, %xmm0, %xmm0
	vpxor	%xmm3, %xmm0, %xmm2
	vpshufb	%xmm3, %xmm8, %xmm3
	vpshufb	%xmm0, %xmm1, %xmm4
	vpxor	%xmm3, %xmm4, %xmm4
	vpshufb	%xmm2, %xmm1, %xmm8
	vpxor	%xmm3, %xmm8, %xmm3
	vpshufb	%xmm4, %xmm1, %xmm4
	vpxor	%xmm2, %xmm4, %xmm2
	vpshufb	%xmm3, %xmm1, %xmm1
	vpxor	%xmm0, %xmm1, %xmm0
	vpshufb	%xmm2, %xmm6, %xmm1
	vpshufb	%xmm0, %xmm9, %xmm0
	vpshufb	%xmm11, %xmm1, %xmm1
	vpshufb	%xmm11, %xmm0, %xmm0
	vpxor	(%rdi,%r12), %xmm7, %xmm2
	vpxor	%xmm5, %xmm1, %xmm1
	vpxor	%xmm2, %xmm10, %xmm2
	vmovdqu	%xmm2, (%rbx,%r12)
	vpxor	%xmm0, %xmm1, %xmm0
	vpxor	16(%rdi,%r12), %xmm0, %xmm0
	vpxor	%xmm0, %xmm10, %xmm0
	vmovdqu	%xmm0, 16(%rbx,%r12)
	incq	%r15
	cmpq	%rax, %r15
	je	.Ldeerlapse_0_1_0_v3_BB26_6
.Ldeerlapse_0_1_0_v3_BB26_2:                               # %join.5
                                        # =>This Loop Header: Depth=1
                                        #     Child Loop BB26_4 Depth 2
	movbel	12(%r8), %r13d
	leal	(%r13,%r15,2), %ebp
	bswapl	%ebp
	movl	%ebp, %r14d
	movl	%ebp, %r12d
	vmovd	(%r8), %xmm0                    # xmm0 = mem[0],zero,zero,zero
	vmovq	4(%r8), %xmm1                   # xmm1 = mem[0],zero
	vmovq	%xmm0, %xmm0                    # xmm0 = xmm0[0],zero
	vpshufd	$80, %xmm1, %xmm1               # xmm1 = xmm1[0,0,1,1]
	vpblendd	$6, %xmm1, %xmm0, %xmm0         # xmm0 = xmm0[0],xmm1[1,2],xmm0[3]
	vpinsrb	$12, %ebp, %xmm0, %xmm1
	shrl	$8, %ebp
	shrl	$16, %r14d
	leal	1(%r13,%r15,2), %r13d
	bswapl	%r13d
	vpinsrb	$12, %r13d, %xmm0, %xmm0
	shrl	$24, %r12d
	movl	%r13d, %r10d
	movl	%r13d, %r9d
	shrl	$8, %r13d
	shrl	$16, %r10d
	shrl	$24, %r9d
	vpinsrb	$13, %ebp, %xmm1, %xmm1
	vpinsrb	$14, %r14d, %xmm1, %xmm1
	vpinsrb	$15, %r12d, %xmm1, %xmm1
	vmovdqu	(%rsi), %xmm2
	vpxor	%xmm1, %xmm2, %xmm1
	vpinsrb	$13, %r13d, %xmm0, %xmm0
	vpinsrb	$14, %r10d, %xmm0, %xmm0
	vpinsrb	$15, %r9d, %xmm0, %xmm0
	vpxor	%xmm0, %xmm2, %xmm4
	cmpq	$2, %rdx
	jb	.Ldeerlapse_0_1_0_v3_BB26_5
# %bb.3:                                # %join.5.i.preheader
                                        #   in Loop: Header=BB26_2 Depth=1
	movq	%r11, %r12
	leaq	-1(%rdx), %r13
	.p2align	4
.Ldeerlapse_0_1_0_v3_BB26_4:                               # %join.5.i
                                        #   Parent Loop BB26_2 Depth=1
                                        # =>  This Inner Loop Header: Depth=2
	vpbroadcastd	.Ldeerlapse_0_1_0_v3_CPI26_12(%rip), %xmm2 # xmm2 = [15,15,15,15,15,15,15,15,15,15,15,15,15,15,15,15]
	vpand	%xmm2, %xmm1, %xmm3
	vmovdqa	.Ldeerlapse_0_1_0_v3_CPI26_1(%rip), %xmm0          # xmm0 = [0,1,39,38,192,193,231,230,195,194,228,229,3,2,36,37]
	vpshufb	%xmm3, %xmm0, %xmm3
	vpsrlw	$4, %xmm1, %xmm1
	vpand	%xmm2, %xmm1, %xmm1
	vmovdqa	.Ldeerlapse_0_1_0_v3_CPI26_2(%rip), %xmm0          # xmm0 = [0,170,122,208,175,5,213,127,216,114,162,8,119,221,13,167]
	vpshufb	%xmm1, %xmm0, %xmm1
	vpxor	%xmm3, %xmm1, %xmm1
	vpand	%xmm2, %xmm1, %xmm3
	vpsrlw	$4, %xmm1, %xmm1
	vpand	%xmm2, %xmm1, %xmm1
	vpxor	%xmm3, %xmm1, %xmm7
	vmovdqa	.Ldeerlapse_0_1_0_v3_CPI26_3(%rip), %xmm6          # xmm6 = [128,3,13,1,10,8,12,11,5,14,4,7,6,2,9,15]
	vpshufb	%xmm3, %xmm6, %xmm8
	vmovdqa	.Ldeerlapse_0_1_0_v3_CPI26_4(%rip), %xmm3          # xmm3 = [128,1,12,8,6,15,4,14,3,13,11,10,2,9,7,5]
	vpshufb	%xmm1, %xmm3, %xmm9
	vpxor	%xmm8, %xmm9, %xmm9
	vpshufb	%xmm7, %xmm3, %xmm10
	vpxor	%xmm8, %xmm10, %xmm8
	vpshufb	%xmm9, %xmm3, %xmm9
	vpxor	%xmm7, %xmm9, %xmm9
	vpshufb	%xmm8, %xmm3, %xmm7
	vpxor	%xmm1, %xmm7, %xmm1
	vmovdqa	.Ldeerlapse_0_1_0_v3_CPI26_5(%rip), %xmm7          # xmm7 = [0,250,53,106,43,187,95,65,142,207,228,30,116,144,209,165]
	vpshufb	%xmm9, %xmm7, %xmm10
	vmovdqa	.Ldeerlapse_0_1_0_v3_CPI26_6(%rip), %xmm8          # xmm8 = [0,129,153,118,10,253,239,124,100,24,18,147,229,247,139,110]
	vpshufb	%xmm1, %xmm8, %xmm1
	vpbroadcastd	.Ldeerlapse_0_1_0_v3_CPI26_13(%rip), %xmm9 # xmm9 = [99,99,99,99,99,99,99,99,99,99,99,99,99,99,99,99]
	vpxor	%xmm9, %xmm10, %xmm10
	vpxor	%xmm1, %xmm10, %xmm1
	vmovdqa	.Ldeerlapse_0_1_0_v3_CPI26_8(%rip), %xmm10         # xmm10 = [0,5,10,15,4,9,14,3,8,13,2,7,12,1,6,11]
	vpshufb	%xmm10, %xmm1, %xmm12
	vmovdqa	.Ldeerlapse_0_1_0_v3_CPI26_9(%rip), %xmm11         # xmm11 = [5,10,15,0,9,14,3,4,13,2,7,8,1,6,11,12]
	vpshufb	%xmm11, %xmm1, %xmm1
	vpxor	%xmm1, %xmm12, %xmm13
	vpaddb	%xmm13, %xmm13, %xmm14
	vmovdqa	.Ldeerlapse_0_1_0_v3_CPI26_11(%rip), %xmm12        # xmm12 = [2,3,0,1,6,7,4,5,10,11,8,9,14,15,12,13]
	vpshufb	%xmm12, %xmm13, %xmm15
	vpxor	%xmm14, %xmm15, %xmm0
	vpxor	%xmm14, %xmm14, %xmm14
	vpcmpgtb	%xmm13, %xmm14, %xmm13
	vpbroadcastd	.Ldeerlapse_0_1_0_v3_CPI26_14(%rip), %xmm15 # xmm15 = [27,27,27,27,27,27,27,27,27,27,27,27,27,27,27,27]
	vpand	%xmm15, %xmm13, %xmm13
	vpxor	%xmm0, %xmm13, %xmm0
	vmovdqu	(%r12), %xmm13
	vpxor	%xmm1, %xmm13, %xmm1
	vpxor	%xmm1, %xmm0, %xmm1
	vpand	%xmm2, %xmm4, %xmm0
	vmovdqa	.Ldeerlapse_0_1_0_v3_CPI26_1(%rip), %xmm5          # xmm5 = [0,1,39,38,192,193,231,230,195,194,228,229,3,2,36,37]
	vpshufb	%xmm0, %xmm5, %xmm0
	vpsrlw	$4, %xmm4, %xmm4
	vpand	%xmm2, %xmm4, %xmm4
	vmovdqa	.Ldeerlapse_0_1_0_v3_CPI26_2(%rip), %xmm5          # xmm5 = [0,170,122,208,175,5,213,127,216,114,162,8,119,221,13,167]
	vpshufb	%xmm4, %xmm5, %xmm4
	vpxor	%xmm0, %xmm4, %xmm0
	vpand	%xmm2, %xmm0, %xmm4
	vpsrlw	$4, %xmm0, %xmm0
	vpand	%xmm2, %xmm0, %xmm0
	vpxor	%xmm4, %xmm0, %xmm2
	vpshufb	%xmm4, %xmm6, %xmm4
	vpshufb	%xmm0, %xmm3, %xmm5
	vpxor	%xmm4, %xmm5, %xmm5
	vpshufb	%xmm2, %xmm3, %xmm6
	vpxor	%xmm4, %xmm6, %xmm4
	vpshufb	%xmm5, %xmm3, %xmm5
	vpxor	%xmm2, %xmm5, %xmm2
	vpshufb	%xmm4, %xmm3, %xmm3
	vpxor	%xmm0, %xmm3, %xmm0
	vpshufb	%xmm2, %xmm7, %xmm2
	vpshufb	%xmm0, %xmm8, %xmm0
	vpxor	%xmm2, %xmm9, %xmm2
	vpxor	%xmm0, %xmm2, %xmm0
	vpshufb	%xmm10, %xmm0, %xmm2
	vpshufb	%xmm11, %xmm0, %xmm0
	vpxor	%xmm2, %xmm0, %xmm2
	vpcmpgtb	%xmm2, %xmm14, %xmm3
	vpand	%xmm3, %xmm15, %xmm3
	vpshufb	%xmm12, %xmm2, %xmm4
	vpaddb	%xmm2, %xmm2, %xmm2
	vpxor	%xmm2, %xmm4, %xmm2
	vpxor	%xmm3, %xmm2, %xmm2
	vpxor	%xmm0, %xmm13, %xmm0
	vpxor	%xmm0, %xmm2, %xmm4
	addq	$16, %r12
	decq	%r13
	jne	.Ldeerlapse_0_1_0_v3_BB26_4
	jmp	.Ldeerlapse_0_1_0_v3_BB26_5
.Ldeerlapse_0_1_0_v3_BB26_6:                               # %after.1
	movq	8(%rsp), %rcx                   # 8-byte Reload
	testb	$1, %cl
	je	.Ldeerlapse_0_1_0_v3_BB26_8
# %bb.7:                                # %then.6
	decq	%rcx
	movq	%rcx, %r14
	shlq	$4, %r14
	movl	8(%r8), %eax
	movl	%eax, 24(%rsp)
	movq	(%r8), %rax
	movq	%rax, 16(%rsp)
	movbel	12(%r8), %eax
	addl	%ecx, %eax
	movbel	%eax, 28(%rsp)
	leaq	32(%rsp), %rdi
	leaq	16(%rsp), %rcx
	callq	"deerlapse_0_1_0_v3::aead_ciphers_wide::aes::block_key::BlockKeyRef::encrypt_one"
	leaq	(%rbx,%r14), %rax
	movq	(%rsp), %rcx                    # 8-byte Reload
	vmovdqu	(%rcx,%rax), %xmm0
	vpxor	32(%rsp), %xmm0, %xmm0
	vmovdqu	%xmm0, (%rbx,%r14)
.Ldeerlapse_0_1_0_v3_BB26_8:                               # %join.8
	addq	$56, %rsp
	.cfi_def_cfa_offset 56
	popq	%rbx
	.cfi_def_cfa_offset 48
	popq	%r12
	.cfi_def_cfa_offset 40
	popq	%r13
	.cfi_def_cfa_offset 32
	popq	%r14
	.cfi_def_cfa_offset 24
	popq	%r15
	.cfi_def_cfa_offset 16
	popq	%rbp
	.cfi_def_cfa_offset 8
	retq
.Ldeerlapse_0_1_0_v3_func_end26:
	.size	"deerlapse_0_1_0_v3::aead_ciphers_wide::aes::ctr32::encrypt_few", .Ldeerlapse_0_1_0_v3_func_end26-"deerlapse_0_1_0_v3::aead_ciphers_wide::aes::ctr32::encrypt_few"
	.cfi_endproc
                                        # -- End function
	.section	.rodata.cst16,"aM",@progbits,16
	.p2align	4, 0x0                          # -- Begin function aead_ciphers_wide::aes::ctr32::encrypt_up_to_eight
.Ldeerlapse_0_1_0_v3_CPI27_0:
	.byte	4                               # 0x4
	.byte	5                               # 0x5
	.byte	6                               # 0x6
	.byte	7                               # 0x7
	.byte	8                               # 0x8
	.byte	9                               # 0x9
	.byte	10                              # 0xa
	.byte	11                              # 0xb
	.byte	12                              # 0xc
	.byte	13                              # 0xd
	.byte	14                              # 0xe
	.byte	15                              # 0xf
	.byte	3                               # 0x3
	.byte	2                               # 0x2
	.byte	1                               # 0x1
	.byte	0                               # 0x0
.Ldeerlapse_0_1_0_v3_CPI27_7:
	.zero	16,15
.Ldeerlapse_0_1_0_v3_CPI27_8:
	.zero	16,51
.Ldeerlapse_0_1_0_v3_CPI27_9:
	.zero	16,85
.Ldeerlapse_0_1_0_v3_CPI27_10:
	.byte	0                               # 0x0
	.byte	5                               # 0x5
	.byte	10                              # 0xa
	.byte	15                              # 0xf
	.byte	4                               # 0x4
	.byte	9                               # 0x9
	.byte	14                              # 0xe
	.byte	3                               # 0x3
	.byte	8                               # 0x8
	.byte	13                              # 0xd
	.byte	2                               # 0x2
	.byte	7                               # 0x7
	.byte	12                              # 0xc
	.byte	1                               # 0x1
	.byte	6                               # 0x6
	.byte	11                              # 0xb
.Ldeerlapse_0_1_0_v3_CPI27_11:
	.byte	5                               # 0x5
	.byte	10                              # 0xa
	.byte	15                              # 0xf
	.byte	0                               # 0x0
	.byte	9                               # 0x9
	.byte	14                              # 0xe
	.byte	3                               # 0x3
	.byte	4                               # 0x4
	.byte	13                              # 0xd
	.byte	2                               # 0x2
	.byte	7                               # 0x7
	.byte	8                               # 0x8
	.byte	1                               # 0x1
	.byte	6                               # 0x6
	.byte	11                              # 0xb
	.byte	12                              # 0xc
.Ldeerlapse_0_1_0_v3_CPI27_12:
	.byte	2                               # 0x2
	.byte	3                               # 0x3
	.byte	0                               # 0x0
	.byte	1                               # 0x1
	.byte	6                               # 0x6
	.byte	7                               # 0x7
	.byte	4                               # 0x4
	.byte	5                               # 0x5
	.byte	10                              # 0xa
	.byte	11                              # 0xb
	.byte	8                               # 0x8
	.byte	9                               # 0x9
	.byte	14                              # 0xe
	.byte	15                              # 0xf
	.byte	12                              # 0xc
	.byte	13                              # 0xd
	.section	.rodata.cst4,"aM",@progbits,4
	.p2align	2, 0x0
.Ldeerlapse_0_1_0_v3_CPI27_1:
	.long	2                               # 0x2
.Ldeerlapse_0_1_0_v3_CPI27_2:
	.long	3                               # 0x3
.Ldeerlapse_0_1_0_v3_CPI27_3:
	.long	4                               # 0x4
.Ldeerlapse_0_1_0_v3_CPI27_4:
	.long	5                               # 0x5
.Ldeerlapse_0_1_0_v3_CPI27_5:
	.long	6                               # 0x6
.Ldeerlapse_0_1_0_v3_CPI27_6:
	.long	7                               # 0x7
.Ldeerlapse_0_1_0_v3_CPI27_13:
	.zero	4,15
.Ldeerlapse_0_1_0_v3_CPI27_14:
	.zero	4,51
.Ldeerlapse_0_1_0_v3_CPI27_15:
	.zero	4,85
	.section	.text.deerlapse_aes_gcm,"ax",@progbits
	.p2align	4
	.type	"deerlapse_0_1_0_v3::aead_ciphers_wide::aes::ctr32::encrypt_up_to_eight",@function
"deerlapse_0_1_0_v3::aead_ciphers_wide::aes::ctr32::encrypt_up_to_eight": # @"deerlapse_0_1_0_v3::aead_ciphers_wide::aes::ctr32::encrypt_up_to_eight"
	.cfi_startproc
# %bb.0:                                # %start
	pushq	%rbp
	.cfi_def_cfa_offset 16
	.cfi_offset %rbp, -16
	movq	%rsp, %rbp
	.cfi_def_cfa_register %rbp
	andq	$-32, %rsp
	subq	$320, %rsp                      # imm = 0x140
	vmovd	(%r8), %xmm0                    # xmm0 = mem[0],zero,zero,zero
	vmovq	4(%r8), %xmm1                   # xmm1 = mem[0],zero
	movbel	12(%r8), %eax
	vmovd	%eax, %xmm2
	vpbroadcastd	%xmm2, %xmm4
	vmovq	%xmm0, %xmm0                    # xmm0 = xmm0[0],zero
	vpshufd	$80, %xmm1, %xmm1               # xmm1 = xmm1[0,0,1,1]
	vpblendd	$6, %xmm1, %xmm0, %xmm5         # xmm5 = xmm0[0],xmm1[1,2],xmm0[3]
	vpalignr	$12, %xmm4, %xmm5, %xmm0        # xmm0 = xmm4[12,13,14,15],xmm5[0,1,2,3,4,5,6,7,8,9,10,11]
	vmovdqa	.Ldeerlapse_0_1_0_v3_CPI27_0(%rip), %xmm6          # xmm6 = [4,5,6,7,8,9,10,11,12,13,14,15,3,2,1,0]
	vpshufb	%xmm6, %xmm0, %xmm3
	vpcmpeqd	%xmm0, %xmm0, %xmm0
	vpsubd	%xmm0, %xmm4, %xmm0
	vpalignr	$12, %xmm0, %xmm5, %xmm0        # xmm0 = xmm0[12,13,14,15],xmm5[0,1,2,3,4,5,6,7,8,9,10,11]
	vpshufb	%xmm6, %xmm0, %xmm2
	vpbroadcastd	.Ldeerlapse_0_1_0_v3_CPI27_1(%rip), %xmm0  # xmm0 = [2,2,2,2]
	vpaddd	%xmm0, %xmm4, %xmm0
	vpalignr	$12, %xmm0, %xmm5, %xmm0        # xmm0 = xmm0[12,13,14,15],xmm5[0,1,2,3,4,5,6,7,8,9,10,11]
	vpshufb	%xmm6, %xmm0, %xmm1
	vpbroadcastd	.Ldeerlapse_0_1_0_v3_CPI27_2(%rip), %xmm0  # xmm0 = [3,3,3,3]
	vpaddd	%xmm0, %xmm4, %xmm0
	vpalignr	$12, %xmm0, %xmm5, %xmm0        # xmm0 = xmm0[12,13,14,15],xmm5[0,1,2,3,4,5,6,7,8,9,10,11]
	vpshufb	%xmm6, %xmm0, %xmm0
	vpbroadcastd	.Ldeerlapse_0_1_0_v3_CPI27_3(%rip), %xmm7  # xmm7 = [4,4,4,4]
	vpaddd	%xmm7, %xmm4, %xmm7
	vpalignr	$12, %xmm7, %xmm5, %xmm7        # xmm7 = xmm7[12,13,14,15],xmm5[0,1,2,3,4,5,6,7,8,9,10,11]
	vpshufb	%xmm6, %xmm7, %xmm7
	vpbroadcastd	.Ldeerlapse_0_1_0_v3_CPI27_4(%rip), %xmm8  # xmm8 = [5,5,5,5]
	vpaddd	%xmm4, %xmm8, %xmm8
	vpalignr	$12, %xmm8, %xmm5, %xmm8        # xmm8 = xmm8[12,13,14,15],xmm5[0,1,2,3,4,5,6,7,8,9,10,11]
	vpshufb	%xmm6, %xmm8, %xmm8
	vpbroadcastd	.Ldeerlapse_0_1_0_v3_CPI27_5(%rip), %xmm9  # xmm9 = [6,6,6,6]
	vpaddd	%xmm4, %xmm9, %xmm9
	vpalignr	$12, %xmm9, %xmm5, %xmm9        # xmm9 = xmm9[12,13,14,15],xmm5[0,1,2,3,4,5,6,7,8,9,10,11]
	vpshufb	%xmm6, %xmm9, %xmm9
	vpbroadcastd	.Ldeerlapse_0_1_0_v3_CPI27_6(%rip), %xmm10 # xmm10 = [7,7,7,7]
	vpaddd	%xmm4, %xmm10, %xmm4
	vpalignr	$12, %xmm4, %xmm5, %xmm4        # xmm4 = xmm4[12,13,14,15],xmm5[0,1,2,3,4,5,6,7,8,9,10,11]
	vpshufb	%xmm6, %xmm4, %xmm4
	vpsrlq	$4, %xmm3, %xmm5
	vpxor	%xmm7, %xmm5, %xmm5
	vpbroadcastd	.Ldeerlapse_0_1_0_v3_CPI27_13(%rip), %xmm10 # xmm10 = [252645135,252645135,252645135,252645135]
	vpand	%xmm5, %xmm10, %xmm5
	vpsllq	$4, %xmm5, %xmm6
	vpxor	%xmm3, %xmm6, %xmm6
	vpxor	%xmm7, %xmm5, %xmm5
	vpsrlq	$4, %xmm2, %xmm3
	vpxor	%xmm3, %xmm8, %xmm3
	vpand	%xmm3, %xmm10, %xmm3
	vpsllq	$4, %xmm3, %xmm7
	vpxor	%xmm2, %xmm7, %xmm7
	vpxor	%xmm3, %xmm8, %xmm3
	vpsrlq	$4, %xmm1, %xmm2
	vpxor	%xmm2, %xmm9, %xmm2
	vpand	%xmm2, %xmm10, %xmm2
	vpsllq	$4, %xmm2, %xmm8
	vpxor	%xmm1, %xmm8, %xmm1
	vpxor	%xmm2, %xmm9, %xmm8
	vpsrlq	$4, %xmm0, %xmm2
	vpxor	%xmm4, %xmm2, %xmm2
	vpand	%xmm2, %xmm10, %xmm2
	vpsllq	$4, %xmm2, %xmm9
	vpxor	%xmm0, %xmm9, %xmm9
	vpxor	%xmm4, %xmm2, %xmm10
	vpsrlq	$2, %xmm6, %xmm0
	vpxor	%xmm0, %xmm1, %xmm0
	vpbroadcastd	.Ldeerlapse_0_1_0_v3_CPI27_14(%rip), %xmm11 # xmm11 = [858993459,858993459,858993459,858993459]
	vpand	%xmm0, %xmm11, %xmm0
	vpsllq	$2, %xmm0, %xmm2
	vpxor	%xmm6, %xmm2, %xmm4
	vpxor	%xmm1, %xmm0, %xmm0
	vpsrlq	$2, %xmm5, %xmm1
	vpxor	%xmm1, %xmm8, %xmm1
	vpand	%xmm1, %xmm11, %xmm1
	vpsllq	$2, %xmm1, %xmm2
	vpxor	%xmm5, %xmm2, %xmm2
	vpxor	%xmm1, %xmm8, %xmm1
	vpsrlq	$2, %xmm7, %xmm5
	vpxor	%xmm5, %xmm9, %xmm5
	vpand	%xmm5, %xmm11, %xmm5
	vpsllq	$2, %xmm5, %xmm6
	vpxor	%xmm7, %xmm6, %xmm8
	vpxor	%xmm5, %xmm9, %xmm7
	vpsrlq	$2, %xmm3, %xmm5
	vpxor	%xmm5, %xmm10, %xmm5
	vpand	%xmm5, %xmm11, %xmm5
	vpsllq	$2, %xmm5, %xmm6
	vpxor	%xmm3, %xmm6, %xmm6
	vpxor	%xmm5, %xmm10, %xmm3
	vpsrlq	$1, %xmm4, %xmm5
	vpxor	%xmm5, %xmm8, %xmm5
	vpbroadcastd	.Ldeerlapse_0_1_0_v3_CPI27_15(%rip), %xmm11 # xmm11 = [1431655765,1431655765,1431655765,1431655765]
	vpand	%xmm5, %xmm11, %xmm5
	vpaddq	%xmm5, %xmm5, %xmm9
	vpsrlq	$1, %xmm0, %xmm10
	vpxor	%xmm7, %xmm10, %xmm10
	vpand	%xmm11, %xmm10, %xmm10
	vpxor	(%rdi), %xmm9, %xmm9
	vpxor	%xmm4, %xmm9, %xmm12
	vpaddq	%xmm10, %xmm10, %xmm4
	vpxor	16(%rdi), %xmm8, %xmm8
	vpxor	%xmm5, %xmm8, %xmm13
	vpsrlq	$1, %xmm2, %xmm8
	vpxor	%xmm6, %xmm8, %xmm8
	vpand	%xmm11, %xmm8, %xmm5
	vpxor	32(%rdi), %xmm4, %xmm4
	vpxor	%xmm0, %xmm4, %xmm8
	vpaddq	%xmm5, %xmm5, %xmm0
	vpxor	48(%rdi), %xmm7, %xmm4
	vpxor	64(%rdi), %xmm0, %xmm7
	vpxor	%xmm4, %xmm10, %xmm0
	vpxor	%xmm2, %xmm7, %xmm9
	vpsrlq	$1, %xmm1, %xmm2
	vpxor	%xmm3, %xmm2, %xmm2
	vpand	%xmm2, %xmm11, %xmm2
	vpxor	80(%rdi), %xmm6, %xmm4
	vpxor	%xmm5, %xmm4, %xmm11
	vpaddq	%xmm2, %xmm2, %xmm4
	vpxor	96(%rdi), %xmm4, %xmm4
	vpxor	%xmm1, %xmm4, %xmm4
	vpxor	112(%rdi), %xmm3, %xmm1
	vpxor	%xmm2, %xmm1, %xmm14
	cmpq	$2, %rsi
	jb	.Ldeerlapse_0_1_0_v3_BB27_3
# %bb.1:                                # %join.5.i.i.preheader
	leaq	-1(%rsi), %rax
	leaq	240(%rdi), %r8
	.p2align	4
.Ldeerlapse_0_1_0_v3_BB27_2:                               # %join.5.i.i
                                        # =>This Inner Loop Header: Depth=1
	vmovdqa	%xmm12, %xmm5
	vmovdqa	%xmm12, 16(%rsp)                # 16-byte Spill
	vpxor	%xmm4, %xmm12, %xmm2
	vpxor	%xmm2, %xmm11, %xmm7
	vpxor	%xmm0, %xmm13, %xmm0
	vpxor	%xmm9, %xmm14, %xmm6
	vpxor	%xmm0, %xmm6, %xmm15
	vpxor	%xmm12, %xmm15, %xmm3
	vmovdqa	%xmm15, 128(%rsp)               # 16-byte Spill
	vpxor	%xmm0, %xmm8, %xmm0
	vpxor	%xmm0, %xmm2, %xmm1
	vmovdqa	%xmm1, 32(%rsp)                 # 16-byte Spill
	vmovdqa	%xmm9, %xmm10
	vpxor	%xmm8, %xmm14, %xmm12
	vpxor	%xmm0, %xmm11, %xmm1
	vmovdqa	%xmm1, 272(%rsp)                # 16-byte Spill
	vpxor	%xmm0, %xmm4, %xmm4
	vpxor	%xmm7, %xmm3, %xmm1
	vmovdqa	%xmm3, %xmm11
	vmovdqa	%xmm3, 176(%rsp)                # 16-byte Spill
	vpxor	%xmm4, %xmm1, %xmm0
	vmovdqa	%xmm0, 48(%rsp)                 # 16-byte Spill
	vpxor	%xmm8, %xmm9, %xmm2
	vmovdqa	%xmm2, 80(%rsp)                 # 16-byte Spill
	vpand	%xmm2, %xmm0, %xmm0
	vpand	%xmm4, %xmm6, %xmm2
	vmovdqa	%xmm6, 112(%rsp)                # 16-byte Spill
	vmovdqa	%xmm4, 192(%rsp)                # 16-byte Spill
	vpxor	%xmm2, %xmm0, %xmm0
	vmovdqa	%xmm0, 256(%rsp)                # 16-byte Spill
	vpand	%xmm1, %xmm12, %xmm3
	vmovdqa	%xmm1, 208(%rsp)                # 16-byte Spill
	vpxor	%xmm2, %xmm3, %xmm2
	vpxor	%xmm7, %xmm13, %xmm9
	vpxor	%xmm12, %xmm9, %xmm0
	vmovdqa	%xmm12, 96(%rsp)                # 16-byte Spill
	vpand	%xmm0, %xmm11, %xmm3
	vmovdqa	%xmm0, 144(%rsp)                # 16-byte Spill
	vpxor	%xmm6, %xmm4, %xmm8
	vpxor	%xmm3, %xmm8, %xmm3
	vpxor	%xmm7, %xmm10, %xmm11
	vpand	%xmm5, %xmm11, %xmm8
	vpxor	%xmm12, %xmm8, %xmm8
	vpxor	%xmm1, %xmm8, %xmm4
	vpxor	%xmm0, %xmm11, %xmm0
	vmovdqa	%xmm0, 288(%rsp)                # 16-byte Spill
	vpand	%xmm0, %xmm15, %xmm1
	vpxor	%xmm1, %xmm4, %xmm12
	vpxor	%xmm1, %xmm3, %xmm1
	vpxor	%xmm13, %xmm14, %xmm8
	vmovdqa	%xmm7, 64(%rsp)                 # 16-byte Spill
	vpxor	%xmm7, %xmm14, %xmm0
	vmovdqa	%xmm0, 160(%rsp)                # 16-byte Spill
	vmovdqa	272(%rsp), %xmm13               # 16-byte Reload
	vpand	%xmm13, %xmm8, %xmm3
	vpor	32(%rsp), %xmm0, %xmm15         # 16-byte Folded Reload
	vpxor	%xmm3, %xmm15, %xmm3
	vpxor	%xmm2, %xmm12, %xmm12
	vpxor	%xmm2, %xmm3, %xmm2
	vpand	%xmm7, %xmm9, %xmm3
	vpor	%xmm13, %xmm8, %xmm15
	vpxor	%xmm3, %xmm15, %xmm14
	vmovdqa	256(%rsp), %xmm0                # 16-byte Reload
	vpxor	%xmm0, %xmm1, %xmm4
	vpxor	%xmm0, %xmm14, %xmm0
	vpand	%xmm2, %xmm12, %xmm5
	vpxor	%xmm4, %xmm12, %xmm15
	vpxor	%xmm5, %xmm15, %xmm14
	vpand	%xmm0, %xmm14, %xmm14
	vpand	%xmm0, %xmm4, %xmm1
	vpxor	%xmm2, %xmm0, %xmm0
	vpxor	%xmm1, %xmm12, %xmm3
	vpand	%xmm0, %xmm3, %xmm3
	vpxor	%xmm2, %xmm3, %xmm3
	vpxor	%xmm2, %xmm1, %xmm1
	vpand	%xmm1, %xmm15, %xmm1
	vpxor	%xmm1, %xmm12, %xmm2
	vpxor	%xmm0, %xmm14, %xmm12
	vpxor	%xmm5, %xmm0, %xmm0
	vpand	%xmm4, %xmm0, %xmm0
	vpxor	%xmm0, %xmm15, %xmm1
	vpxor	%xmm2, %xmm3, %xmm4
	vpxor	%xmm1, %xmm12, %xmm14
	vpxor	%xmm4, %xmm14, %xmm6
	vpand	80(%rsp), %xmm6, %xmm5          # 16-byte Folded Reload
	vpand	112(%rsp), %xmm4, %xmm10        # 16-byte Folded Reload
	vpxor	%xmm5, %xmm10, %xmm15
	vpand	96(%rsp), %xmm14, %xmm5         # 16-byte Folded Reload
	vpxor	%xmm5, %xmm10, %xmm7
	vpxor	%xmm3, %xmm12, %xmm10
	vpand	288(%rsp), %xmm10, %xmm5        # 16-byte Folded Reload
	vpand	128(%rsp), %xmm10, %xmm10       # 16-byte Folded Reload
	vpand	%xmm3, %xmm11, %xmm0
	vmovdqa	%xmm0, 80(%rsp)                 # 16-byte Spill
	vpand	16(%rsp), %xmm3, %xmm3          # 16-byte Folded Reload
	vpand	144(%rsp), %xmm12, %xmm11       # 16-byte Folded Reload
	vpand	176(%rsp), %xmm12, %xmm12       # 16-byte Folded Reload
	vpxor	%xmm3, %xmm10, %xmm3
	vpxor	%xmm12, %xmm10, %xmm10
	vpxor	%xmm1, %xmm2, %xmm12
	vpand	%xmm8, %xmm12, %xmm8
	vpand	%xmm13, %xmm12, %xmm12
	vpand	160(%rsp), %xmm2, %xmm0         # 16-byte Folded Reload
	vpand	32(%rsp), %xmm2, %xmm2          # 16-byte Folded Reload
	vpand	%xmm1, %xmm9, %xmm13
	vpand	64(%rsp), %xmm1, %xmm1          # 16-byte Folded Reload
	vpxor	%xmm2, %xmm12, %xmm9
	vpxor	%xmm1, %xmm12, %xmm1
	vpand	48(%rsp), %xmm6, %xmm2          # 16-byte Folded Reload
	vpand	192(%rsp), %xmm4, %xmm4         # 16-byte Folded Reload
	vpxor	%xmm5, %xmm11, %xmm6
	vpxor	%xmm0, %xmm8, %xmm0
	vpxor	%xmm6, %xmm15, %xmm6
	vpxor	%xmm7, %xmm0, %xmm0
	vpxor	%xmm4, %xmm2, %xmm2
	vpand	208(%rsp), %xmm14, %xmm11       # 16-byte Folded Reload
	vpxor	%xmm4, %xmm11, %xmm4
	vpxor	%xmm4, %xmm3, %xmm11
	vpxor	%xmm2, %xmm10, %xmm12
	vpxor	%xmm2, %xmm1, %xmm1
	vpxor	%xmm1, %xmm6, %xmm10
	vpxor	%xmm12, %xmm10, %xmm2
	vpxor	%xmm0, %xmm11, %xmm0
	vpxor	%xmm8, %xmm13, %xmm8
	vpxor	%xmm4, %xmm8, %xmm4
	vpxor	%xmm4, %xmm9, %xmm4
	vpcmpeqd	%xmm8, %xmm8, %xmm8
	vpxor	%xmm8, %xmm15, %xmm13
	vpxor	%xmm4, %xmm13, %xmm4
	vpxor	%xmm4, %xmm11, %xmm11
	vpxor	%xmm4, %xmm1, %xmm13
	vpxor	80(%rsp), %xmm5, %xmm1          # 16-byte Folded Reload
	vpxor	%xmm7, %xmm1, %xmm1
	vpxor	%xmm0, %xmm1, %xmm1
	vpxor	%xmm1, %xmm10, %xmm14
	vpxor	%xmm3, %xmm9, %xmm1
	vpxor	%xmm2, %xmm1, %xmm3
	vpxor	%xmm6, %xmm12, %xmm6
	vmovdqa	.Ldeerlapse_0_1_0_v3_CPI27_10(%rip), %xmm12        # xmm12 = [0,5,10,15,4,9,14,3,8,13,2,7,12,1,6,11]
	vpshufb	%xmm12, %xmm11, %xmm15
	vpshufb	%xmm12, %xmm13, %xmm9
	vpshufb	%xmm12, %xmm14, %xmm7
	vpshufb	%xmm12, %xmm3, %xmm1
	vmovdqa	%xmm1, 48(%rsp)                 # 16-byte Spill
	vpshufb	%xmm12, %xmm2, %xmm5
	vpxor	%xmm0, %xmm8, %xmm0
	vpshufb	%xmm12, %xmm0, %xmm1
	vmovdqa	%xmm1, 16(%rsp)                 # 16-byte Spill
	vpxor	%xmm6, %xmm8, %xmm6
	vpshufb	%xmm12, %xmm6, %xmm1
	vmovdqa	%xmm1, 32(%rsp)                 # 16-byte Spill
	vpshufb	%xmm12, %xmm10, %xmm4
	vmovdqa	.Ldeerlapse_0_1_0_v3_CPI27_11(%rip), %xmm8         # xmm8 = [5,10,15,0,9,14,3,4,13,2,7,8,1,6,11,12]
	vpshufb	%xmm8, %xmm11, %xmm1
	vpshufb	%xmm8, %xmm13, %xmm13
	vpshufb	%xmm8, %xmm14, %xmm12
	vpshufb	%xmm8, %xmm3, %xmm11
	vpshufb	%xmm8, %xmm2, %xmm14
	vpshufb	%xmm8, %xmm0, %xmm0
	vpshufb	%xmm8, %xmm6, %xmm3
	vpshufb	%xmm8, %xmm10, %xmm2
	vpxor	%xmm1, %xmm15, %xmm6
	vpxor	%xmm4, %xmm2, %xmm10
	vpxor	%xmm1, %xmm10, %xmm1
	vmovdqa	.Ldeerlapse_0_1_0_v3_CPI27_12(%rip), %xmm4         # xmm4 = [2,3,0,1,6,7,4,5,10,11,8,9,14,15,12,13]
	vpshufb	%xmm4, %xmm6, %xmm8
	vpxor	%xmm1, %xmm8, %xmm1
	vpxor	%xmm9, %xmm13, %xmm8
	vpxor	%xmm13, %xmm10, %xmm9
	vpxor	%xmm6, %xmm9, %xmm6
	vpshufb	%xmm4, %xmm8, %xmm9
	vpxor	%xmm6, %xmm9, %xmm6
	vpxor	%xmm7, %xmm12, %xmm7
	vpxor	%xmm8, %xmm12, %xmm8
	vpshufb	%xmm4, %xmm7, %xmm9
	vpxor	%xmm8, %xmm9, %xmm8
	vpxor	48(%rsp), %xmm11, %xmm9         # 16-byte Folded Reload
	vpxor	%xmm5, %xmm14, %xmm5
	vpxor	%xmm11, %xmm10, %xmm11
	vpxor	%xmm7, %xmm11, %xmm7
	vpshufb	%xmm4, %xmm9, %xmm11
	vpxor	%xmm7, %xmm11, %xmm7
	vpshufb	%xmm4, %xmm5, %xmm11
	vpxor	%xmm10, %xmm14, %xmm12
	vpxor	%xmm11, %xmm12, %xmm11
	vpxor	16(%rsp), %xmm0, %xmm12         # 16-byte Folded Reload
	vpxor	%xmm9, %xmm11, %xmm9
	vpshufb	%xmm4, %xmm12, %xmm11
	vpxor	%xmm0, %xmm11, %xmm0
	vpxor	%xmm5, %xmm0, %xmm11
	vpxor	32(%rsp), %xmm3, %xmm0          # 16-byte Folded Reload
	vpxor	%xmm3, %xmm12, %xmm3
	vpshufb	%xmm4, %xmm10, %xmm5
	vpshufb	%xmm4, %xmm0, %xmm4
	vpxor	%xmm4, %xmm3, %xmm3
	vpxor	%xmm5, %xmm2, %xmm2
	vpxor	%xmm0, %xmm2, %xmm2
	vpxor	-112(%r8), %xmm1, %xmm12
	vpxor	-96(%r8), %xmm6, %xmm13
	vpxor	-80(%r8), %xmm8, %xmm8
	vpxor	-64(%r8), %xmm7, %xmm0
	vpxor	-48(%r8), %xmm9, %xmm9
	vpxor	-32(%r8), %xmm11, %xmm11
	vpxor	-16(%r8), %xmm3, %xmm4
	vpxor	(%r8), %xmm2, %xmm14
	subq	$-128, %r8
	decq	%rax
	jne	.Ldeerlapse_0_1_0_v3_BB27_2
.Ldeerlapse_0_1_0_v3_BB27_3:                               # %"aead_ciphers_wide::aes::KeyRef::encrypt_eight.exit"
	vmovdqa	%xmm12, %xmm6
	vpxor	%xmm4, %xmm12, %xmm1
	vpxor	%xmm1, %xmm11, %xmm10
	vpxor	%xmm0, %xmm13, %xmm0
	vmovdqa	%xmm13, %xmm15
	vpxor	%xmm14, %xmm9, %xmm13
	vpxor	%xmm0, %xmm13, %xmm2
	vpxor	%xmm0, %xmm8, %xmm0
	vpxor	%xmm1, %xmm0, %xmm1
	vmovdqa	%xmm1, 32(%rsp)                 # 16-byte Spill
	vpxor	%xmm0, %xmm11, %xmm1
	vmovdqa	%xmm1, 48(%rsp)                 # 16-byte Spill
	vpxor	%xmm4, %xmm0, %xmm0
	vmovdqa	%xmm12, 16(%rsp)                # 16-byte Spill
	vpxor	%xmm14, %xmm8, %xmm12
	vpxor	%xmm9, %xmm8, %xmm5
	vmovdqa	%xmm5, 64(%rsp)                 # 16-byte Spill
	vpxor	%xmm6, %xmm2, %xmm3
	vmovdqa	%xmm2, %xmm8
	vmovdqa	%xmm2, 112(%rsp)                # 16-byte Spill
	vpxor	%xmm3, %xmm10, %xmm4
	vmovdqa	%xmm3, 80(%rsp)                 # 16-byte Spill
	vmovdqa	%xmm4, 192(%rsp)                # 16-byte Spill
	vmovdqa	%xmm0, %xmm2
	vpxor	%xmm0, %xmm4, %xmm0
	vmovdqa	%xmm0, 208(%rsp)                # 16-byte Spill
	vpand	%xmm5, %xmm0, %xmm0
	vpand	%xmm2, %xmm13, %xmm1
	vmovdqa	%xmm9, %xmm5
	vmovdqa	%xmm2, %xmm7
	vmovdqa	%xmm2, 176(%rsp)                # 16-byte Spill
	vpxor	%xmm1, %xmm0, %xmm9
	vpand	%xmm4, %xmm12, %xmm2
	vpxor	%xmm1, %xmm2, %xmm1
	vpxor	%xmm5, %xmm10, %xmm5
	vpand	%xmm6, %xmm5, %xmm0
	vmovdqa	%xmm5, 128(%rsp)                # 16-byte Spill
	vpxor	%xmm4, %xmm12, %xmm4
	vpxor	%xmm0, %xmm4, %xmm0
	vpxor	%xmm15, %xmm10, %xmm4
	vpxor	%xmm4, %xmm12, %xmm11
	vmovdqa	%xmm4, 144(%rsp)                # 16-byte Spill
	vpand	%xmm3, %xmm11, %xmm2
	vpxor	%xmm7, %xmm13, %xmm6
	vpxor	%xmm2, %xmm6, %xmm2
	vpxor	%xmm1, %xmm0, %xmm6
	vpxor	%xmm5, %xmm11, %xmm0
	vmovdqa	%xmm0, 96(%rsp)                 # 16-byte Spill
	vpand	%xmm0, %xmm8, %xmm7
	vpxor	%xmm7, %xmm6, %xmm6
	vpxor	%xmm7, %xmm2, %xmm0
	vpxor	%xmm14, %xmm15, %xmm7
	vpxor	%xmm14, %xmm10, %xmm3
	vmovdqa	%xmm3, 160(%rsp)                # 16-byte Spill
	vmovdqa	48(%rsp), %xmm2                 # 16-byte Reload
	vpand	%xmm7, %xmm2, %xmm15
	vpor	32(%rsp), %xmm3, %xmm5          # 16-byte Folded Reload
	vpxor	%xmm5, %xmm15, %xmm5
	vpxor	%xmm1, %xmm5, %xmm5
	vpand	%xmm4, %xmm10, %xmm1
	vpor	%xmm7, %xmm2, %xmm15
	vpxor	%xmm1, %xmm15, %xmm1
	vpxor	%xmm0, %xmm9, %xmm4
	vpxor	%xmm1, %xmm9, %xmm1
	vpand	%xmm5, %xmm6, %xmm8
	vpxor	%xmm6, %xmm4, %xmm15
	vpxor	%xmm8, %xmm15, %xmm3
	vpand	%xmm1, %xmm3, %xmm3
	vpand	%xmm1, %xmm4, %xmm2
	vpxor	%xmm5, %xmm1, %xmm0
	vpxor	%xmm6, %xmm2, %xmm1
	vpand	%xmm0, %xmm1, %xmm1
	vpxor	%xmm5, %xmm1, %xmm1
	vpxor	%xmm5, %xmm2, %xmm2
	vpand	%xmm2, %xmm15, %xmm2
	vpxor	%xmm6, %xmm2, %xmm6
	vpxor	%xmm0, %xmm3, %xmm3
	vpxor	%xmm0, %xmm8, %xmm0
	vpand	%xmm4, %xmm0, %xmm0
	vpxor	%xmm0, %xmm15, %xmm0
	vpxor	%xmm6, %xmm1, %xmm4
	vpxor	%xmm0, %xmm3, %xmm5
	vpxor	%xmm5, %xmm4, %xmm8
	vpand	64(%rsp), %xmm8, %xmm2          # 16-byte Folded Reload
	vpand	%xmm4, %xmm13, %xmm15
	vpxor	%xmm2, %xmm15, %xmm14
	vpand	%xmm5, %xmm12, %xmm2
	vpxor	%xmm2, %xmm15, %xmm15
	vpxor	%xmm3, %xmm1, %xmm2
	vpand	96(%rsp), %xmm2, %xmm12         # 16-byte Folded Reload
	vpand	112(%rsp), %xmm2, %xmm2         # 16-byte Folded Reload
	vpand	128(%rsp), %xmm1, %xmm9         # 16-byte Folded Reload
	vmovdqa	%xmm9, 64(%rsp)                 # 16-byte Spill
	vpand	16(%rsp), %xmm1, %xmm1          # 16-byte Folded Reload
	vpand	%xmm3, %xmm11, %xmm9
	vmovdqa	%xmm9, 16(%rsp)                 # 16-byte Spill
	vpand	80(%rsp), %xmm3, %xmm3          # 16-byte Folded Reload
	vpxor	%xmm1, %xmm2, %xmm11
	vpxor	%xmm3, %xmm2, %xmm2
	vpxor	%xmm0, %xmm6, %xmm3
	vpand	%xmm7, %xmm3, %xmm7
	vpand	48(%rsp), %xmm3, %xmm3          # 16-byte Folded Reload
	vpand	160(%rsp), %xmm6, %xmm1         # 16-byte Folded Reload
	vpand	32(%rsp), %xmm6, %xmm6          # 16-byte Folded Reload
	vpand	144(%rsp), %xmm0, %xmm13        # 16-byte Folded Reload
	vpand	%xmm0, %xmm10, %xmm9
	vpxor	%xmm6, %xmm3, %xmm0
	vpxor	%xmm3, %xmm9, %xmm3
	vpand	208(%rsp), %xmm8, %xmm6         # 16-byte Folded Reload
	vpand	176(%rsp), %xmm4, %xmm4         # 16-byte Folded Reload
	vpand	192(%rsp), %xmm5, %xmm5         # 16-byte Folded Reload
	vpxor	%xmm4, %xmm6, %xmm6
	vpxor	%xmm5, %xmm4, %xmm4
	vpxor	%xmm6, %xmm2, %xmm2
	vpxor	%xmm6, %xmm3, %xmm3
	vpxor	%xmm1, %xmm7, %xmm1
	vpxor	%xmm7, %xmm13, %xmm5
	vpxor	16(%rsp), %xmm12, %xmm6         # 16-byte Folded Reload
	vpxor	%xmm6, %xmm14, %xmm6
	vpxor	%xmm4, %xmm5, %xmm5
	vpxor	%xmm0, %xmm5, %xmm5
	vpcmpeqd	%xmm10, %xmm10, %xmm10
	vpxor	%xmm10, %xmm14, %xmm7
	vpxor	%xmm7, %xmm5, %xmm5
	vpxor	64(%rsp), %xmm12, %xmm7         # 16-byte Folded Reload
	vpxor	%xmm1, %xmm15, %xmm1
	vpxor	%xmm7, %xmm15, %xmm7
	shlq	$7, %rsi
	vpxor	%xmm4, %xmm11, %xmm4
	vpxor	%xmm4, %xmm1, %xmm8
	vpxor	%xmm5, %xmm4, %xmm1
	vpxor	%xmm5, %xmm3, %xmm4
	vpxor	%xmm3, %xmm6, %xmm3
	vpxor	%xmm0, %xmm11, %xmm0
	vpxor	%xmm2, %xmm3, %xmm5
	vpxor	%xmm7, %xmm8, %xmm7
	vpxor	%xmm3, %xmm7, %xmm7
	vpxor	%xmm5, %xmm0, %xmm0
	vpxor	%xmm6, %xmm2, %xmm2
	vmovdqa	.Ldeerlapse_0_1_0_v3_CPI27_10(%rip), %xmm6         # xmm6 = [0,5,10,15,4,9,14,3,8,13,2,7,12,1,6,11]
	vpshufb	%xmm6, %xmm1, %xmm9
	vpshufb	%xmm6, %xmm4, %xmm4
	vpshufb	%xmm6, %xmm7, %xmm7
	vpshufb	%xmm6, %xmm0, %xmm1
	vpshufb	%xmm6, %xmm5, %xmm0
	vpshufb	%xmm6, %xmm8, %xmm5
	vpxor	%xmm5, %xmm10, %xmm5
	vpshufb	%xmm6, %xmm2, %xmm2
	vpxor	%xmm2, %xmm10, %xmm2
	vpxor	(%rdi,%rsi), %xmm9, %xmm8
	vpxor	16(%rdi,%rsi), %xmm4, %xmm4
	vpxor	32(%rdi,%rsi), %xmm7, %xmm7
	vpxor	64(%rdi,%rsi), %xmm0, %xmm0
	vpxor	80(%rdi,%rsi), %xmm5, %xmm5
	vpshufb	%xmm6, %xmm3, %xmm3
	vpxor	96(%rdi,%rsi), %xmm2, %xmm2
	vpsrlq	$4, %xmm8, %xmm6
	vpxor	%xmm0, %xmm6, %xmm6
	vpbroadcastd	.Ldeerlapse_0_1_0_v3_CPI27_13(%rip), %xmm10 # xmm10 = [252645135,252645135,252645135,252645135]
	vpand	%xmm6, %xmm10, %xmm6
	vpsllq	$4, %xmm6, %xmm9
	vpxor	%xmm8, %xmm9, %xmm8
	vpxor	%xmm0, %xmm6, %xmm6
	vpsrlq	$4, %xmm4, %xmm0
	vpxor	%xmm5, %xmm0, %xmm0
	vpand	%xmm0, %xmm10, %xmm0
	vpsllq	$4, %xmm0, %xmm9
	vpxor	%xmm4, %xmm9, %xmm4
	vpxor	%xmm5, %xmm0, %xmm0
	vpsrlq	$4, %xmm7, %xmm5
	vpxor	%xmm2, %xmm5, %xmm5
	vpand	%xmm5, %xmm10, %xmm5
	vpsllq	$4, %xmm5, %xmm9
	vpxor	%xmm7, %xmm9, %xmm7
	vpxor	48(%rdi,%rsi), %xmm1, %xmm1
	vpxor	112(%rdi,%rsi), %xmm3, %xmm3
	vpxor	%xmm2, %xmm5, %xmm2
	vpsrlq	$4, %xmm1, %xmm5
	vpxor	%xmm3, %xmm5, %xmm5
	vpand	%xmm5, %xmm10, %xmm5
	vpsllq	$4, %xmm5, %xmm9
	vpxor	%xmm1, %xmm9, %xmm9
	vpxor	%xmm3, %xmm5, %xmm3
	vpsrlq	$2, %xmm8, %xmm1
	vpxor	%xmm7, %xmm1, %xmm1
	vpbroadcastd	.Ldeerlapse_0_1_0_v3_CPI27_14(%rip), %xmm10 # xmm10 = [858993459,858993459,858993459,858993459]
	vpand	%xmm1, %xmm10, %xmm1
	vpsllq	$2, %xmm1, %xmm5
	vpxor	%xmm5, %xmm8, %xmm5
	vpxor	%xmm7, %xmm1, %xmm7
	vpsrlq	$2, %xmm6, %xmm1
	vpxor	%xmm2, %xmm1, %xmm1
	vpand	%xmm1, %xmm10, %xmm1
	vpsllq	$2, %xmm1, %xmm8
	vpxor	%xmm6, %xmm8, %xmm6
	vpxor	%xmm2, %xmm1, %xmm1
	vpsrlq	$2, %xmm4, %xmm2
	vpxor	%xmm2, %xmm9, %xmm2
	vpand	%xmm2, %xmm10, %xmm2
	vpsllq	$2, %xmm2, %xmm8
	vpxor	%xmm4, %xmm8, %xmm4
	vpxor	%xmm2, %xmm9, %xmm2
	vpsrlq	$2, %xmm0, %xmm8
	vpxor	%xmm3, %xmm8, %xmm8
	vpand	%xmm10, %xmm8, %xmm8
	vpsllq	$2, %xmm8, %xmm9
	vpxor	%xmm0, %xmm9, %xmm0
	vpxor	%xmm3, %xmm8, %xmm8
	vpsrlq	$1, %xmm5, %xmm3
	vpxor	%xmm4, %xmm3, %xmm3
	vpbroadcastd	.Ldeerlapse_0_1_0_v3_CPI27_15(%rip), %xmm10 # xmm10 = [1431655765,1431655765,1431655765,1431655765]
	vpand	%xmm3, %xmm10, %xmm3
	vpaddq	%xmm3, %xmm3, %xmm9
	vpxor	%xmm5, %xmm9, %xmm5
	vpxor	%xmm4, %xmm3, %xmm3
	vpsrlq	$1, %xmm7, %xmm4
	vpxor	%xmm2, %xmm4, %xmm4
	vpand	%xmm4, %xmm10, %xmm9
	vpaddq	%xmm9, %xmm9, %xmm4
	vpxor	%xmm7, %xmm4, %xmm4
	vpxor	%xmm2, %xmm9, %xmm2
	vpsrlq	$1, %xmm6, %xmm7
	vpxor	%xmm0, %xmm7, %xmm7
	vpand	%xmm7, %xmm10, %xmm9
	vpaddq	%xmm9, %xmm9, %xmm7
	vpxor	%xmm6, %xmm7, %xmm7
	vpxor	%xmm0, %xmm9, %xmm6
	vpsrlq	$1, %xmm1, %xmm0
	vpxor	%xmm0, %xmm8, %xmm0
	vpand	%xmm0, %xmm10, %xmm0
	vpaddq	%xmm0, %xmm0, %xmm9
	vpxor	%xmm1, %xmm9, %xmm1
	vpxor	%xmm0, %xmm8, %xmm0
	cmpq	$8, %r9
	jne	.Ldeerlapse_0_1_0_v3_BB27_5
# %bb.4:                                # %then.1
	vpxor	(%rdx,%rcx), %xmm5, %xmm5
	vmovdqu	%xmm5, (%rdx)
	vpxor	16(%rdx,%rcx), %xmm3, %xmm3
	vmovdqu	%xmm3, 16(%rdx)
	vpxor	32(%rdx,%rcx), %xmm4, %xmm3
	vmovdqu	%xmm3, 32(%rdx)
	vpxor	48(%rdx,%rcx), %xmm2, %xmm2
	vmovdqu	%xmm2, 48(%rdx)
	vpxor	64(%rdx,%rcx), %xmm7, %xmm2
	vmovdqu	%xmm2, 64(%rdx)
	vpxor	80(%rdx,%rcx), %xmm6, %xmm2
	vmovdqu	%xmm2, 80(%rdx)
	vpxor	96(%rdx,%rcx), %xmm1, %xmm1
	vmovdqu	%xmm1, 96(%rdx)
.Ldeerlapse_0_1_0_v3_BB27_8:                               # %join.5.i318.7
	vpxor	112(%rdx,%rcx), %xmm0, %xmm0
	vmovdqu	%xmm0, 112(%rdx)
	movq	%rbp, %rsp
	popq	%rbp
	.cfi_def_cfa %rsp, 8
	retq
.Ldeerlapse_0_1_0_v3_BB27_5:                               # %else.2
	.cfi_def_cfa %rbp, 16
	movl	$0, 252(%rsp)
	movl	$0, 249(%rsp)
	vmovdqa	%xmm7, 224(%rsp)
	vmovdqa	%xmm6, 240(%rsp)
	vpxor	(%rdx,%rcx), %xmm5, %xmm5
	vmovdqu	%xmm5, (%rdx)
	vpxor	16(%rdx,%rcx), %xmm3, %xmm3
	vmovdqu	%xmm3, 16(%rdx)
	vpxor	32(%rdx,%rcx), %xmm4, %xmm3
	vmovdqu	%xmm3, 32(%rdx)
	vpxor	48(%rdx,%rcx), %xmm2, %xmm2
	vmovdqu	%xmm2, 48(%rdx)
	vmovdqu	64(%rdx,%rcx), %xmm2
	vpxor	224(%rsp), %xmm2, %xmm2
	vmovdqu	%xmm2, 64(%rdx)
	cmpq	$5, %r9
	je	.Ldeerlapse_0_1_0_v3_BB27_9
# %bb.6:                                # %join.5.i318.5
	vmovdqu	80(%rdx,%rcx), %xmm2
	vpxor	240(%rsp), %xmm2, %xmm2
	vmovdqu	%xmm2, 80(%rdx)
	cmpq	$6, %r9
	je	.Ldeerlapse_0_1_0_v3_BB27_9
# %bb.7:                                # %join.5.i318.6
	vpxor	96(%rdx,%rcx), %xmm1, %xmm1
	vmovdqu	%xmm1, 96(%rdx)
	cmpq	$7, %r9
	jne	.Ldeerlapse_0_1_0_v3_BB27_8
.Ldeerlapse_0_1_0_v3_BB27_9:                               # %join.3
	movq	%rbp, %rsp
	popq	%rbp
	.cfi_def_cfa %rsp, 8
	retq
.Ldeerlapse_0_1_0_v3_func_end27:
	.size	"deerlapse_0_1_0_v3::aead_ciphers_wide::aes::ctr32::encrypt_up_to_eight", .Ldeerlapse_0_1_0_v3_func_end27-"deerlapse_0_1_0_v3::aead_ciphers_wide::aes::ctr32::encrypt_up_to_eight"
	.cfi_endproc
                                        # -- End function
	.section	.rodata.cst32,"aM",@progbits,32
	.p2align	5, 0x0                          # -- Begin function aead_ciphers_wide::aes::ctr32::encrypt_up_to_sixteen
.Ldeerlapse_0_1_0_v3_CPI28_0:
	.byte	4                               # 0x4
	.byte	5                               # 0x5
	.byte	6                               # 0x6
	.byte	7                               # 0x7
	.byte	8                               # 0x8
	.byte	9                               # 0x9
	.byte	10                              # 0xa
	.byte	11                              # 0xb
	.byte	12                              # 0xc
	.byte	13                              # 0xd
	.byte	14                              # 0xe
	.byte	15                              # 0xf
	.byte	3                               # 0x3
	.byte	2                               # 0x2
	.byte	1                               # 0x1
	.byte	0                               # 0x0
	.byte	4                               # 0x4
	.byte	5                               # 0x5
	.byte	6                               # 0x6
	.byte	7                               # 0x7
	.byte	8                               # 0x8
	.byte	9                               # 0x9
	.byte	10                              # 0xa
	.byte	11                              # 0xb
	.byte	12                              # 0xc
	.byte	13                              # 0xd
	.byte	14                              # 0xe
	.byte	15                              # 0xf
	.byte	3                               # 0x3
	.byte	2                               # 0x2
	.byte	1                               # 0x1
	.byte	0                               # 0x0
.Ldeerlapse_0_1_0_v3_CPI28_18:
	.byte	0                               # 0x0
	.byte	5                               # 0x5
	.byte	10                              # 0xa
	.byte	15                              # 0xf
	.byte	4                               # 0x4
	.byte	9                               # 0x9
	.byte	14                              # 0xe
	.byte	3                               # 0x3
	.byte	8                               # 0x8
	.byte	13                              # 0xd
	.byte	2                               # 0x2
	.byte	7                               # 0x7
	.byte	12                              # 0xc
	.byte	1                               # 0x1
	.byte	6                               # 0x6
	.byte	11                              # 0xb
	.byte	0                               # 0x0
	.byte	5                               # 0x5
	.byte	10                              # 0xa
	.byte	15                              # 0xf
	.byte	4                               # 0x4
	.byte	9                               # 0x9
	.byte	14                              # 0xe
	.byte	3                               # 0x3
	.byte	8                               # 0x8
	.byte	13                              # 0xd
	.byte	2                               # 0x2
	.byte	7                               # 0x7
	.byte	12                              # 0xc
	.byte	1                               # 0x1
	.byte	6                               # 0x6
	.byte	11                              # 0xb
.Ldeerlapse_0_1_0_v3_CPI28_19:
	.byte	5                               # 0x5
	.byte	10                              # 0xa
	.byte	15                              # 0xf
	.byte	0                               # 0x0
	.byte	9                               # 0x9
	.byte	14                              # 0xe
	.byte	3                               # 0x3
	.byte	4                               # 0x4
	.byte	13                              # 0xd
	.byte	2                               # 0x2
	.byte	7                               # 0x7
	.byte	8                               # 0x8
	.byte	1                               # 0x1
	.byte	6                               # 0x6
	.byte	11                              # 0xb
	.byte	12                              # 0xc
	.byte	5                               # 0x5
	.byte	10                              # 0xa
	.byte	15                              # 0xf
	.byte	0                               # 0x0
	.byte	9                               # 0x9
	.byte	14                              # 0xe
	.byte	3                               # 0x3
	.byte	4                               # 0x4
	.byte	13                              # 0xd
	.byte	2                               # 0x2
	.byte	7                               # 0x7
	.byte	8                               # 0x8
	.byte	1                               # 0x1
	.byte	6                               # 0x6
	.byte	11                              # 0xb
	.byte	12                              # 0xc
.Ldeerlapse_0_1_0_v3_CPI28_20:
	.byte	2                               # 0x2
	.byte	3                               # 0x3
	.byte	0                               # 0x0
	.byte	1                               # 0x1
	.byte	6                               # 0x6
	.byte	7                               # 0x7
	.byte	4                               # 0x4
	.byte	5                               # 0x5
	.byte	10                              # 0xa
	.byte	11                              # 0xb
	.byte	8                               # 0x8
	.byte	9                               # 0x9
	.byte	14                              # 0xe
	.byte	15                              # 0xf
	.byte	12                              # 0xc
	.byte	13                              # 0xd
	.byte	18                              # 0x12
	.byte	19                              # 0x13
	.byte	16                              # 0x10
	.byte	17                              # 0x11
	.byte	22                              # 0x16
	.byte	23                              # 0x17
	.byte	20                              # 0x14
	.byte	21                              # 0x15
	.byte	26                              # 0x1a
	.byte	27                              # 0x1b
	.byte	24                              # 0x18
	.byte	25                              # 0x19
	.byte	30                              # 0x1e
	.byte	31                              # 0x1f
	.byte	28                              # 0x1c
	.byte	29                              # 0x1d
	.section	.rodata.cst4,"aM",@progbits,4
	.p2align	2, 0x0
.Ldeerlapse_0_1_0_v3_CPI28_1:
	.long	2                               # 0x2
.Ldeerlapse_0_1_0_v3_CPI28_2:
	.long	3                               # 0x3
.Ldeerlapse_0_1_0_v3_CPI28_3:
	.long	4                               # 0x4
.Ldeerlapse_0_1_0_v3_CPI28_4:
	.long	5                               # 0x5
.Ldeerlapse_0_1_0_v3_CPI28_5:
	.long	6                               # 0x6
.Ldeerlapse_0_1_0_v3_CPI28_6:
	.long	7                               # 0x7
.Ldeerlapse_0_1_0_v3_CPI28_7:
	.long	8                               # 0x8
.Ldeerlapse_0_1_0_v3_CPI28_8:
	.long	9                               # 0x9
.Ldeerlapse_0_1_0_v3_CPI28_9:
	.long	10                              # 0xa
.Ldeerlapse_0_1_0_v3_CPI28_10:
	.long	11                              # 0xb
.Ldeerlapse_0_1_0_v3_CPI28_11:
	.long	12                              # 0xc
.Ldeerlapse_0_1_0_v3_CPI28_12:
	.long	13                              # 0xd
.Ldeerlapse_0_1_0_v3_CPI28_13:
	.long	14                              # 0xe
.Ldeerlapse_0_1_0_v3_CPI28_14:
	.long	15                              # 0xf
	.section	.rodata.cst8,"aM",@progbits,8
	.p2align	3, 0x0
.Ldeerlapse_0_1_0_v3_CPI28_15:
	.quad	1085102592571150095             # 0xf0f0f0f0f0f0f0f
.Ldeerlapse_0_1_0_v3_CPI28_16:
	.quad	3689348814741910323             # 0x3333333333333333
.Ldeerlapse_0_1_0_v3_CPI28_17:
	.quad	6148914691236517205             # 0x5555555555555555
	.section	.rodata.cst16,"aM",@progbits,16
	.p2align	4, 0x0
.Ldeerlapse_0_1_0_v3_CPI28_21:
	.byte	4                               # 0x4
	.byte	5                               # 0x5
	.byte	6                               # 0x6
	.byte	7                               # 0x7
	.byte	8                               # 0x8
	.byte	9                               # 0x9
	.byte	10                              # 0xa
	.byte	11                              # 0xb
	.byte	12                              # 0xc
	.byte	13                              # 0xd
	.byte	14                              # 0xe
	.byte	15                              # 0xf
	.byte	3                               # 0x3
	.byte	2                               # 0x2
	.byte	1                               # 0x1
	.byte	0                               # 0x0
.Ldeerlapse_0_1_0_v3_CPI28_22:
	.byte	0                               # 0x0
	.byte	5                               # 0x5
	.byte	10                              # 0xa
	.byte	15                              # 0xf
	.byte	4                               # 0x4
	.byte	9                               # 0x9
	.byte	14                              # 0xe
	.byte	3                               # 0x3
	.byte	8                               # 0x8
	.byte	13                              # 0xd
	.byte	2                               # 0x2
	.byte	7                               # 0x7
	.byte	12                              # 0xc
	.byte	1                               # 0x1
	.byte	6                               # 0x6
	.byte	11                              # 0xb
.Ldeerlapse_0_1_0_v3_CPI28_23:
	.byte	5                               # 0x5
	.byte	10                              # 0xa
	.byte	15                              # 0xf
	.byte	0                               # 0x0
	.byte	9                               # 0x9
	.byte	14                              # 0xe
	.byte	3                               # 0x3
	.byte	4                               # 0x4
	.byte	13                              # 0xd
	.byte	2                               # 0x2
	.byte	7                               # 0x7
	.byte	8                               # 0x8
	.byte	1                               # 0x1
	.byte	6                               # 0x6
	.byte	11                              # 0xb
	.byte	12                              # 0xc
	.section	.text.deerlapse_aes_gcm,"ax",@progbits
	.p2align	4
	.type	"deerlapse_0_1_0_v3::aead_ciphers_wide::aes::ctr32::encrypt_up_to_sixteen",@function
"deerlapse_0_1_0_v3::aead_ciphers_wide::aes::ctr32::encrypt_up_to_sixteen": # @"deerlapse_0_1_0_v3::aead_ciphers_wide::aes::ctr32::encrypt_up_to_sixteen"
	.cfi_startproc
# %bb.0:                                # %start
	pushq	%rbp
	.cfi_def_cfa_offset 16
	.cfi_offset %rbp, -16
	movq	%rsp, %rbp
	.cfi_def_cfa_register %rbp
	andq	$-32, %rsp
	subq	$832, %rsp                      # imm = 0x340
	vmovd	(%r8), %xmm1                    # xmm1 = mem[0],zero,zero,zero
	vmovq	4(%r8), %xmm2                   # xmm2 = mem[0],zero
	movbel	12(%r8), %eax
	vmovd	%eax, %xmm0
	vpbroadcastd	%xmm0, %xmm0
	vmovq	%xmm1, %xmm1                    # xmm1 = xmm1[0],zero
	vpshufd	$80, %xmm2, %xmm2               # xmm2 = xmm2[0,0,1,1]
	vpblendd	$6, %xmm2, %xmm1, %xmm2         # xmm2 = xmm1[0],xmm2[1,2],xmm1[3]
	vpalignr	$12, %xmm0, %xmm2, %xmm1        # xmm1 = xmm0[12,13,14,15],xmm2[0,1,2,3,4,5,6,7,8,9,10,11]
	vpcmpeqd	%xmm3, %xmm3, %xmm3
	vpsubd	%xmm3, %xmm0, %xmm3
	vpalignr	$12, %xmm3, %xmm2, %xmm3        # xmm3 = xmm3[12,13,14,15],xmm2[0,1,2,3,4,5,6,7,8,9,10,11]
	vinserti128	$1, %xmm3, %ymm1, %ymm1
	vbroadcasti128	.Ldeerlapse_0_1_0_v3_CPI28_21(%rip), %ymm4 # ymm4 = [4,5,6,7,8,9,10,11,12,13,14,15,3,2,1,0,4,5,6,7,8,9,10,11,12,13,14,15,3,2,1,0]
                                        # ymm4 = mem[0,1,0,1]
	vpshufb	%ymm4, %ymm1, %ymm1
	vpbroadcastd	.Ldeerlapse_0_1_0_v3_CPI28_1(%rip), %xmm3  # xmm3 = [2,2,2,2]
	vpaddd	%xmm3, %xmm0, %xmm3
	vpalignr	$12, %xmm3, %xmm2, %xmm3        # xmm3 = xmm3[12,13,14,15],xmm2[0,1,2,3,4,5,6,7,8,9,10,11]
	vpbroadcastd	.Ldeerlapse_0_1_0_v3_CPI28_2(%rip), %xmm5  # xmm5 = [3,3,3,3]
	vpaddd	%xmm5, %xmm0, %xmm5
	vpalignr	$12, %xmm5, %xmm2, %xmm5        # xmm5 = xmm5[12,13,14,15],xmm2[0,1,2,3,4,5,6,7,8,9,10,11]
	vinserti128	$1, %xmm5, %ymm3, %ymm3
	vpshufb	%ymm4, %ymm3, %ymm3
	vpbroadcastd	.Ldeerlapse_0_1_0_v3_CPI28_3(%rip), %xmm5  # xmm5 = [4,4,4,4]
	vpaddd	%xmm5, %xmm0, %xmm5
	vpalignr	$12, %xmm5, %xmm2, %xmm5        # xmm5 = xmm5[12,13,14,15],xmm2[0,1,2,3,4,5,6,7,8,9,10,11]
	vpbroadcastd	.Ldeerlapse_0_1_0_v3_CPI28_4(%rip), %xmm6  # xmm6 = [5,5,5,5]
	vpaddd	%xmm6, %xmm0, %xmm6
	vpalignr	$12, %xmm6, %xmm2, %xmm6        # xmm6 = xmm6[12,13,14,15],xmm2[0,1,2,3,4,5,6,7,8,9,10,11]
	vinserti128	$1, %xmm6, %ymm5, %ymm5
	vpshufb	%ymm4, %ymm5, %ymm5
	vpbroadcastd	.Ldeerlapse_0_1_0_v3_CPI28_5(%rip), %xmm6  # xmm6 = [6,6,6,6]
	vpaddd	%xmm6, %xmm0, %xmm6
	vpalignr	$12, %xmm6, %xmm2, %xmm6        # xmm6 = xmm6[12,13,14,15],xmm2[0,1,2,3,4,5,6,7,8,9,10,11]
	vpbroadcastd	.Ldeerlapse_0_1_0_v3_CPI28_6(%rip), %xmm7  # xmm7 = [7,7,7,7]
	vpaddd	%xmm7, %xmm0, %xmm7
	vpalignr	$12, %xmm7, %xmm2, %xmm7        # xmm7 = xmm7[12,13,14,15],xmm2[0,1,2,3,4,5,6,7,8,9,10,11]
	vinserti128	$1, %xmm7, %ymm6, %ymm6
	vpshufb	%ymm4, %ymm6, %ymm6
	vpbroadcastd	.Ldeerlapse_0_1_0_v3_CPI28_7(%rip), %xmm7  # xmm7 = [8,8,8,8]
	vpaddd	%xmm7, %xmm0, %xmm7
	vpalignr	$12, %xmm7, %xmm2, %xmm7        # xmm7 = xmm7[12,13,14,15],xmm2[0,1,2,3,4,5,6,7,8,9,10,11]
	vpbroadcastd	.Ldeerlapse_0_1_0_v3_CPI28_8(%rip), %xmm8  # xmm8 = [9,9,9,9]
	vpaddd	%xmm0, %xmm8, %xmm8
	vpalignr	$12, %xmm8, %xmm2, %xmm8        # xmm8 = xmm8[12,13,14,15],xmm2[0,1,2,3,4,5,6,7,8,9,10,11]
	vinserti128	$1, %xmm8, %ymm7, %ymm7
	vpshufb	%ymm4, %ymm7, %ymm7
	vpbroadcastd	.Ldeerlapse_0_1_0_v3_CPI28_9(%rip), %xmm8  # xmm8 = [10,10,10,10]
	vpaddd	%xmm0, %xmm8, %xmm8
	vpalignr	$12, %xmm8, %xmm2, %xmm8        # xmm8 = xmm8[12,13,14,15],xmm2[0,1,2,3,4,5,6,7,8,9,10,11]
	vpbroadcastd	.Ldeerlapse_0_1_0_v3_CPI28_10(%rip), %xmm9 # xmm9 = [11,11,11,11]
	vpaddd	%xmm0, %xmm9, %xmm9
	vpalignr	$12, %xmm9, %xmm2, %xmm9        # xmm9 = xmm9[12,13,14,15],xmm2[0,1,2,3,4,5,6,7,8,9,10,11]
	vinserti128	$1, %xmm9, %ymm8, %ymm8
	vpshufb	%ymm4, %ymm8, %ymm8
	vpbroadcastd	.Ldeerlapse_0_1_0_v3_CPI28_11(%rip), %xmm9 # xmm9 = [12,12,12,12]
	vpaddd	%xmm0, %xmm9, %xmm9
	vpalignr	$12, %xmm9, %xmm2, %xmm9        # xmm9 = xmm9[12,13,14,15],xmm2[0,1,2,3,4,5,6,7,8,9,10,11]
	vpbroadcastd	.Ldeerlapse_0_1_0_v3_CPI28_12(%rip), %xmm10 # xmm10 = [13,13,13,13]
	vpaddd	%xmm0, %xmm10, %xmm10
	vpalignr	$12, %xmm10, %xmm2, %xmm10      # xmm10 = xmm10[12,13,14,15],xmm2[0,1,2,3,4,5,6,7,8,9,10,11]
	vinserti128	$1, %xmm10, %ymm9, %ymm9
	vpshufb	%ymm4, %ymm9, %ymm9
	vpbroadcastd	.Ldeerlapse_0_1_0_v3_CPI28_13(%rip), %xmm10 # xmm10 = [14,14,14,14]
	vpaddd	%xmm0, %xmm10, %xmm10
	vpalignr	$12, %xmm10, %xmm2, %xmm10      # xmm10 = xmm10[12,13,14,15],xmm2[0,1,2,3,4,5,6,7,8,9,10,11]
	vpbroadcastd	.Ldeerlapse_0_1_0_v3_CPI28_14(%rip), %xmm11 # xmm11 = [15,15,15,15]
	vpaddd	%xmm0, %xmm11, %xmm0
	vpalignr	$12, %xmm0, %xmm2, %xmm0        # xmm0 = xmm0[12,13,14,15],xmm2[0,1,2,3,4,5,6,7,8,9,10,11]
	vinserti128	$1, %xmm0, %ymm10, %ymm0
	vpshufb	%ymm4, %ymm0, %ymm0
	vpsrlq	$4, %ymm1, %ymm2
	vpxor	%ymm7, %ymm2, %ymm2
	vpbroadcastq	.Ldeerlapse_0_1_0_v3_CPI28_15(%rip), %ymm10 # ymm10 = [1085102592571150095,1085102592571150095,1085102592571150095,1085102592571150095]
	vpand	%ymm2, %ymm10, %ymm2
	vpsllq	$4, %ymm2, %ymm4
	vpxor	%ymm1, %ymm4, %ymm4
	vpxor	%ymm7, %ymm2, %ymm2
	vpsrlq	$4, %ymm3, %ymm1
	vpxor	%ymm1, %ymm8, %ymm1
	vpand	%ymm1, %ymm10, %ymm1
	vpsllq	$4, %ymm1, %ymm7
	vpxor	%ymm3, %ymm7, %ymm7
	vpxor	%ymm1, %ymm8, %ymm1
	vpsrlq	$4, %ymm5, %ymm3
	vpxor	%ymm3, %ymm9, %ymm3
	vpand	%ymm3, %ymm10, %ymm3
	vpsllq	$4, %ymm3, %ymm8
	vpxor	%ymm5, %ymm8, %ymm5
	vpxor	%ymm3, %ymm9, %ymm8
	vpsrlq	$4, %ymm6, %ymm3
	vpxor	%ymm0, %ymm3, %ymm3
	vmovdqa	%ymm10, 768(%rsp)               # 32-byte Spill
	vpand	%ymm3, %ymm10, %ymm3
	vpsllq	$4, %ymm3, %ymm9
	vpxor	%ymm6, %ymm9, %ymm6
	vpxor	%ymm0, %ymm3, %ymm0
	vpsrlq	$2, %ymm4, %ymm3
	vpxor	%ymm5, %ymm3, %ymm3
	vpbroadcastq	.Ldeerlapse_0_1_0_v3_CPI28_16(%rip), %ymm10 # ymm10 = [3689348814741910323,3689348814741910323,3689348814741910323,3689348814741910323]
	vpand	%ymm3, %ymm10, %ymm3
	vpsllq	$2, %ymm3, %ymm9
	vpxor	%ymm4, %ymm9, %ymm4
	vpxor	%ymm5, %ymm3, %ymm3
	vpsrlq	$2, %ymm2, %ymm5
	vpxor	%ymm5, %ymm8, %ymm5
	vpand	%ymm5, %ymm10, %ymm5
	vpsllq	$2, %ymm5, %ymm9
	vpxor	%ymm2, %ymm9, %ymm2
	vpxor	%ymm5, %ymm8, %ymm9
	vpsrlq	$2, %ymm7, %ymm5
	vpxor	%ymm6, %ymm5, %ymm5
	vpand	%ymm5, %ymm10, %ymm8
	vpsllq	$2, %ymm8, %ymm5
	vpxor	%ymm7, %ymm5, %ymm5
	vpxor	%ymm6, %ymm8, %ymm6
	vpsrlq	$2, %ymm1, %ymm7
	vpxor	%ymm0, %ymm7, %ymm7
	vmovdqa	%ymm10, 736(%rsp)               # 32-byte Spill
	vpand	%ymm7, %ymm10, %ymm8
	vpsllq	$2, %ymm8, %ymm7
	vpxor	%ymm1, %ymm7, %ymm7
	vpxor	%ymm0, %ymm8, %ymm1
	vpsrlq	$1, %ymm4, %ymm0
	vpxor	%ymm5, %ymm0, %ymm0
	vpbroadcastq	.Ldeerlapse_0_1_0_v3_CPI28_17(%rip), %ymm10 # ymm10 = [6148914691236517205,6148914691236517205,6148914691236517205,6148914691236517205]
	vpand	%ymm0, %ymm10, %ymm0
	vbroadcasti128	(%rdi), %ymm8           # ymm8 = mem[0,1,0,1]
	vpxor	%ymm4, %ymm8, %ymm4
	vpaddq	%ymm0, %ymm0, %ymm8
	vpxor	%ymm4, %ymm8, %ymm8
	vbroadcasti128	16(%rdi), %ymm4         # ymm4 = mem[0,1,0,1]
	vpxor	%ymm4, %ymm5, %ymm4
	vpsrlq	$1, %ymm3, %ymm5
	vpxor	%ymm6, %ymm5, %ymm5
	vpand	%ymm5, %ymm10, %ymm5
	vpxor	%ymm0, %ymm4, %ymm15
	vbroadcasti128	32(%rdi), %ymm0         # ymm0 = mem[0,1,0,1]
	vpxor	%ymm3, %ymm0, %ymm0
	vpaddq	%ymm5, %ymm5, %ymm3
	vpxor	%ymm3, %ymm0, %ymm13
	vbroadcasti128	48(%rdi), %ymm3         # ymm3 = mem[0,1,0,1]
	vpxor	%ymm3, %ymm6, %ymm3
	vpsrlq	$1, %ymm2, %ymm4
	vpxor	%ymm7, %ymm4, %ymm4
	vpand	%ymm4, %ymm10, %ymm4
	vpxor	%ymm5, %ymm3, %ymm5
	vbroadcasti128	64(%rdi), %ymm3         # ymm3 = mem[0,1,0,1]
	vpxor	%ymm2, %ymm3, %ymm2
	vpaddq	%ymm4, %ymm4, %ymm3
	vpxor	%ymm3, %ymm2, %ymm14
	vbroadcasti128	80(%rdi), %ymm2         # ymm2 = mem[0,1,0,1]
	vpxor	%ymm2, %ymm7, %ymm2
	vpsrlq	$1, %ymm9, %ymm3
	vpxor	%ymm1, %ymm3, %ymm3
	vmovdqa	%ymm10, 704(%rsp)               # 32-byte Spill
	vpand	%ymm3, %ymm10, %ymm3
	vpxor	%ymm4, %ymm2, %ymm0
	vbroadcasti128	96(%rdi), %ymm2         # ymm2 = mem[0,1,0,1]
	vpxor	%ymm2, %ymm9, %ymm2
	vpaddq	%ymm3, %ymm3, %ymm4
	vpxor	%ymm4, %ymm2, %ymm9
	vbroadcasti128	112(%rdi), %ymm2        # ymm2 = mem[0,1,0,1]
	vpxor	%ymm1, %ymm2, %ymm1
	vpxor	%ymm3, %ymm1, %ymm11
	cmpq	$2, %rsi
	jb	.Ldeerlapse_0_1_0_v3_BB28_3
# %bb.1:                                # %join.5.i.i.preheader
	leaq	-1(%rsi), %rax
	leaq	240(%rdi), %r8
	.p2align	4
.Ldeerlapse_0_1_0_v3_BB28_2:                               # %join.5.i.i
                                        # =>This Inner Loop Header: Depth=1
	vpxor	%ymm8, %ymm9, %ymm2
	vpxor	%ymm0, %ymm2, %ymm10
	vpxor	%ymm5, %ymm15, %ymm3
	vmovdqa	%ymm8, %ymm1
	vpxor	%ymm14, %ymm11, %ymm6
	vpxor	%ymm3, %ymm6, %ymm8
	vpxor	%ymm1, %ymm8, %ymm5
	vmovdqa	%ymm5, 320(%rsp)                # 32-byte Spill
	vmovdqa	%ymm8, 192(%rsp)                # 32-byte Spill
	vmovdqa	%ymm1, %ymm12
	vmovdqa	%ymm1, 160(%rsp)                # 32-byte Spill
	vpxor	%ymm3, %ymm13, %ymm3
	vpxor	%ymm3, %ymm2, %ymm1
	vmovdqa	%ymm1, 64(%rsp)                 # 32-byte Spill
	vmovdqa	%ymm14, %ymm4
	vpxor	%ymm13, %ymm11, %ymm14
	vpxor	%ymm0, %ymm3, %ymm0
	vmovdqa	%ymm0, 32(%rsp)                 # 32-byte Spill
	vpxor	%ymm3, %ymm9, %ymm9
	vpxor	%ymm5, %ymm10, %ymm1
	vpxor	%ymm1, %ymm9, %ymm0
	vmovdqa	%ymm0, 128(%rsp)                # 32-byte Spill
	vpxor	%ymm4, %ymm13, %ymm2
	vmovdqa	%ymm2, (%rsp)                   # 32-byte Spill
	vpand	%ymm2, %ymm0, %ymm0
	vpand	%ymm6, %ymm9, %ymm2
	vmovdqa	%ymm6, 96(%rsp)                 # 32-byte Spill
	vmovdqa	%ymm9, 352(%rsp)                # 32-byte Spill
	vpxor	%ymm2, %ymm0, %ymm7
	vpand	%ymm1, %ymm14, %ymm3
	vmovdqa	%ymm1, 384(%rsp)                # 32-byte Spill
	vpxor	%ymm2, %ymm3, %ymm2
	vpxor	%ymm15, %ymm10, %ymm0
	vpxor	%ymm0, %ymm14, %ymm13
	vmovdqa	%ymm0, 224(%rsp)                # 32-byte Spill
	vpand	%ymm5, %ymm13, %ymm3
	vpxor	%ymm6, %ymm9, %ymm5
	vpxor	%ymm3, %ymm5, %ymm3
	vpxor	%ymm4, %ymm10, %ymm4
	vmovdqa	%ymm4, 256(%rsp)                # 32-byte Spill
	vpand	%ymm4, %ymm12, %ymm5
	vpxor	%ymm5, %ymm14, %ymm5
	vmovdqa	%ymm14, %ymm6
	vpxor	%ymm1, %ymm5, %ymm5
	vpxor	%ymm4, %ymm13, %ymm12
	vpand	%ymm8, %ymm12, %ymm14
	vpxor	%ymm5, %ymm14, %ymm1
	vpxor	%ymm3, %ymm14, %ymm3
	vpxor	%ymm15, %ymm11, %ymm9
	vpxor	%ymm11, %ymm10, %ymm5
	vmovdqa	%ymm5, 288(%rsp)                # 32-byte Spill
	vmovdqa	32(%rsp), %ymm4                 # 32-byte Reload
	vpand	%ymm4, %ymm9, %ymm11
	vpor	64(%rsp), %ymm5, %ymm14         # 32-byte Folded Reload
	vpxor	%ymm11, %ymm14, %ymm11
	vpxor	%ymm2, %ymm1, %ymm1
	vpxor	%ymm2, %ymm11, %ymm2
	vpand	%ymm0, %ymm10, %ymm11
	vpor	%ymm4, %ymm9, %ymm14
	vpxor	%ymm14, %ymm11, %ymm11
	vpxor	%ymm7, %ymm3, %ymm5
	vpxor	%ymm7, %ymm11, %ymm0
	vpand	%ymm2, %ymm1, %ymm11
	vpxor	%ymm1, %ymm5, %ymm14
	vpxor	%ymm11, %ymm14, %ymm15
	vpand	%ymm0, %ymm15, %ymm15
	vpand	%ymm0, %ymm5, %ymm3
	vpxor	%ymm2, %ymm0, %ymm0
	vpxor	%ymm1, %ymm3, %ymm4
	vpand	%ymm0, %ymm4, %ymm4
	vpxor	%ymm2, %ymm4, %ymm4
	vpxor	%ymm2, %ymm3, %ymm2
	vpand	%ymm2, %ymm14, %ymm2
	vpxor	%ymm1, %ymm2, %ymm2
	vpxor	%ymm0, %ymm15, %ymm15
	vpxor	%ymm0, %ymm11, %ymm0
	vpand	%ymm5, %ymm0, %ymm0
	vpxor	%ymm0, %ymm14, %ymm1
	vpxor	%ymm2, %ymm4, %ymm5
	vpxor	%ymm1, %ymm15, %ymm3
	vpxor	%ymm3, %ymm5, %ymm14
	vpand	(%rsp), %ymm14, %ymm0           # 32-byte Folded Reload
	vpand	96(%rsp), %ymm5, %ymm8          # 32-byte Folded Reload
	vpxor	%ymm0, %ymm8, %ymm11
	vpand	%ymm6, %ymm3, %ymm0
	vpxor	%ymm0, %ymm8, %ymm0
	vmovdqa	%ymm0, 96(%rsp)                 # 32-byte Spill
	vpxor	%ymm4, %ymm15, %ymm0
	vpand	%ymm0, %ymm12, %ymm8
	vpand	192(%rsp), %ymm0, %ymm6         # 32-byte Folded Reload
	vpand	256(%rsp), %ymm4, %ymm0         # 32-byte Folded Reload
	vmovdqa	%ymm0, (%rsp)                   # 32-byte Spill
	vpand	160(%rsp), %ymm4, %ymm0         # 32-byte Folded Reload
	vpand	%ymm13, %ymm15, %ymm4
	vpand	320(%rsp), %ymm15, %ymm13       # 32-byte Folded Reload
	vpxor	%ymm0, %ymm6, %ymm12
	vpxor	%ymm6, %ymm13, %ymm7
	vpxor	%ymm1, %ymm2, %ymm13
	vpand	%ymm9, %ymm13, %ymm9
	vpand	32(%rsp), %ymm13, %ymm13        # 32-byte Folded Reload
	vpand	288(%rsp), %ymm2, %ymm15        # 32-byte Folded Reload
	vpand	64(%rsp), %ymm2, %ymm2          # 32-byte Folded Reload
	vpand	224(%rsp), %ymm1, %ymm6         # 32-byte Folded Reload
	vpand	%ymm1, %ymm10, %ymm1
	vpxor	%ymm2, %ymm13, %ymm0
	vpxor	%ymm1, %ymm13, %ymm1
	vpand	128(%rsp), %ymm14, %ymm2        # 32-byte Folded Reload
	vpand	352(%rsp), %ymm5, %ymm5         # 32-byte Folded Reload
	vpxor	%ymm4, %ymm8, %ymm4
	vpxor	%ymm15, %ymm9, %ymm13
	vpxor	%ymm4, %ymm11, %ymm15
	vmovdqa	96(%rsp), %ymm4                 # 32-byte Reload
	vpxor	%ymm4, %ymm13, %ymm13
	vpxor	%ymm5, %ymm2, %ymm2
	vpand	384(%rsp), %ymm3, %ymm3         # 32-byte Folded Reload
	vpxor	%ymm3, %ymm5, %ymm3
	vpxor	%ymm3, %ymm12, %ymm5
	vpxor	%ymm2, %ymm7, %ymm10
	vpxor	%ymm2, %ymm1, %ymm14
	vpxor	%ymm14, %ymm15, %ymm1
	vpxor	%ymm1, %ymm10, %ymm7
	vpxor	%ymm5, %ymm13, %ymm13
	vpxor	%ymm6, %ymm9, %ymm6
	vpxor	%ymm3, %ymm6, %ymm3
	vpxor	%ymm0, %ymm3, %ymm3
	vpcmpeqd	%ymm6, %ymm6, %ymm6
	vpxor	%ymm6, %ymm11, %ymm9
	vpxor	%ymm3, %ymm9, %ymm3
	vpxor	%ymm3, %ymm5, %ymm9
	vpxor	%ymm3, %ymm14, %ymm11
	vpxor	(%rsp), %ymm8, %ymm3            # 32-byte Folded Reload
	vpxor	%ymm4, %ymm3, %ymm3
	vpxor	%ymm3, %ymm13, %ymm3
	vpxor	%ymm1, %ymm3, %ymm8
	vpxor	%ymm0, %ymm12, %ymm0
	vpxor	%ymm7, %ymm0, %ymm4
	vpxor	%ymm6, %ymm13, %ymm5
	vpxor	%ymm15, %ymm10, %ymm3
	vpxor	%ymm6, %ymm3, %ymm2
	vbroadcasti128	.Ldeerlapse_0_1_0_v3_CPI28_22(%rip), %ymm12 # ymm12 = [0,5,10,15,4,9,14,3,8,13,2,7,12,1,6,11,0,5,10,15,4,9,14,3,8,13,2,7,12,1,6,11]
                                        # ymm12 = mem[0,1,0,1]
	vpshufb	%ymm12, %ymm9, %ymm3
	vpshufb	%ymm12, %ymm11, %ymm6
	vpshufb	%ymm12, %ymm8, %ymm15
	vpshufb	%ymm12, %ymm4, %ymm0
	vmovdqa	%ymm0, 160(%rsp)                # 32-byte Spill
	vpshufb	%ymm12, %ymm7, %ymm0
	vmovdqa	%ymm0, 128(%rsp)                # 32-byte Spill
	vpshufb	%ymm12, %ymm5, %ymm0
	vmovdqa	%ymm0, 32(%rsp)                 # 32-byte Spill
	vpshufb	%ymm12, %ymm2, %ymm0
	vmovdqa	%ymm0, 64(%rsp)                 # 32-byte Spill
	vpshufb	%ymm12, %ymm1, %ymm12
	vbroadcasti128	.Ldeerlapse_0_1_0_v3_CPI28_23(%rip), %ymm0 # ymm0 = [5,10,15,0,9,14,3,4,13,2,7,8,1,6,11,12,5,10,15,0,9,14,3,4,13,2,7,8,1,6,11,12]
                                        # ymm0 = mem[0,1,0,1]
	vpshufb	%ymm0, %ymm9, %ymm13
	vpshufb	%ymm0, %ymm11, %ymm14
	vpshufb	%ymm0, %ymm8, %ymm11
	vpshufb	%ymm0, %ymm4, %ymm9
	vpshufb	%ymm0, %ymm7, %ymm8
	vpshufb	%ymm0, %ymm5, %ymm4
	vpshufb	%ymm0, %ymm2, %ymm2
	vpshufb	%ymm0, %ymm1, %ymm10
	vpxor	%ymm3, %ymm13, %ymm0
	vbroadcasti128	-112(%r8), %ymm3        # ymm3 = mem[0,1,0,1]
	vpxor	%ymm3, %ymm13, %ymm3
	vpxor	%ymm12, %ymm10, %ymm12
	vpxor	%ymm3, %ymm12, %ymm3
	vmovdqa	.Ldeerlapse_0_1_0_v3_CPI28_20(%rip), %ymm13        # ymm13 = [2,3,0,1,6,7,4,5,10,11,8,9,14,15,12,13,18,19,16,17,22,23,20,21,26,27,24,25,30,31,28,29]
	vpshufb	%ymm13, %ymm0, %ymm5
	vpxor	%ymm5, %ymm3, %ymm1
	vpxor	%ymm6, %ymm14, %ymm3
	vbroadcasti128	-96(%r8), %ymm5         # ymm5 = mem[0,1,0,1]
	vpxor	%ymm5, %ymm14, %ymm5
	vpxor	%ymm0, %ymm5, %ymm0
	vpshufb	%ymm13, %ymm3, %ymm5
	vpxor	%ymm5, %ymm0, %ymm5
	vpxor	%ymm15, %ymm11, %ymm6
	vbroadcasti128	-80(%r8), %ymm0         # ymm0 = mem[0,1,0,1]
	vpxor	%ymm0, %ymm11, %ymm0
	vpxor	%ymm3, %ymm0, %ymm0
	vpshufb	%ymm13, %ymm6, %ymm3
	vpxor	%ymm3, %ymm0, %ymm11
	vbroadcasti128	-64(%r8), %ymm3         # ymm3 = mem[0,1,0,1]
	vpxor	%ymm6, %ymm3, %ymm3
	vpxor	160(%rsp), %ymm9, %ymm6         # 32-byte Folded Reload
	vpxor	128(%rsp), %ymm8, %ymm7         # 32-byte Folded Reload
	vpxor	%ymm3, %ymm9, %ymm3
	vpshufb	%ymm13, %ymm6, %ymm9
	vpxor	%ymm3, %ymm9, %ymm3
	vbroadcasti128	-48(%r8), %ymm9         # ymm9 = mem[0,1,0,1]
	vpxor	%ymm8, %ymm9, %ymm8
	vpshufb	%ymm13, %ymm7, %ymm9
	vpxor	%ymm9, %ymm8, %ymm8
	vpxor	32(%rsp), %ymm4, %ymm9          # 32-byte Folded Reload
	vpxor	%ymm6, %ymm12, %ymm6
	vpxor	%ymm6, %ymm8, %ymm14
	vmovdqa	%ymm1, %ymm8
	vbroadcasti128	-32(%r8), %ymm6         # ymm6 = mem[0,1,0,1]
	vpxor	%ymm4, %ymm6, %ymm4
	vpshufb	%ymm13, %ymm9, %ymm6
	vpxor	%ymm6, %ymm4, %ymm4
	vpxor	%ymm7, %ymm4, %ymm0
	vbroadcasti128	-16(%r8), %ymm4         # ymm4 = mem[0,1,0,1]
	vpxor	%ymm4, %ymm9, %ymm4
	vpxor	64(%rsp), %ymm2, %ymm6          # 32-byte Folded Reload
	vpxor	%ymm2, %ymm4, %ymm2
	vpxor	%ymm5, %ymm12, %ymm15
	vpxor	%ymm3, %ymm12, %ymm5
	vpshufb	%ymm13, %ymm12, %ymm3
	vpshufb	%ymm13, %ymm6, %ymm4
	vmovdqa	%ymm11, %ymm13
	vpxor	%ymm4, %ymm2, %ymm9
	vbroadcasti128	(%r8), %ymm2            # ymm2 = mem[0,1,0,1]
	vpxor	%ymm2, %ymm10, %ymm1
	vpxor	%ymm3, %ymm1, %ymm1
	vpxor	%ymm6, %ymm1, %ymm11
	subq	$-128, %r8
	decq	%rax
	jne	.Ldeerlapse_0_1_0_v3_BB28_2
.Ldeerlapse_0_1_0_v3_BB28_3:                               # %"aead_ciphers_wide::aes::KeyRef::encrypt_sixteen.exit"
	vmovdqa	%ymm8, 160(%rsp)                # 32-byte Spill
	vpxor	%ymm9, %ymm8, %ymm1
	vpxor	%ymm0, %ymm1, %ymm12
	vmovdqa	%ymm15, 672(%rsp)               # 32-byte Spill
	vpxor	%ymm5, %ymm15, %ymm2
	vpxor	%ymm11, %ymm14, %ymm5
	vpxor	%ymm5, %ymm2, %ymm15
	vpxor	%ymm8, %ymm15, %ymm3
	vmovdqa	%ymm15, 224(%rsp)               # 32-byte Spill
	vpxor	%ymm2, %ymm13, %ymm2
	vpxor	%ymm1, %ymm2, %ymm1
	vmovdqa	%ymm1, 64(%rsp)                 # 32-byte Spill
	vpxor	%ymm0, %ymm2, %ymm0
	vmovdqa	%ymm0, 32(%rsp)                 # 32-byte Spill
	vpxor	%ymm2, %ymm9, %ymm2
	vpxor	%ymm11, %ymm13, %ymm10
	vpxor	%ymm14, %ymm13, %ymm1
	vmovdqa	%ymm1, (%rsp)                   # 32-byte Spill
	vmovdqa	%ymm3, %ymm9
	vmovdqa	%ymm3, 320(%rsp)                # 32-byte Spill
	vpxor	%ymm3, %ymm12, %ymm4
	vmovdqa	%ymm4, 384(%rsp)                # 32-byte Spill
	vpxor	%ymm2, %ymm4, %ymm0
	vmovdqa	%ymm0, 128(%rsp)                # 32-byte Spill
	vpand	%ymm1, %ymm0, %ymm0
	vpand	%ymm5, %ymm2, %ymm1
	vmovdqa	%ymm5, 96(%rsp)                 # 32-byte Spill
	vmovdqa	%ymm2, 352(%rsp)                # 32-byte Spill
	vpxor	%ymm1, %ymm0, %ymm7
	vpand	%ymm4, %ymm10, %ymm3
	vpxor	%ymm1, %ymm3, %ymm6
	vpxor	%ymm14, %ymm12, %ymm1
	vpand	%ymm1, %ymm8, %ymm3
	vmovdqa	%ymm1, 256(%rsp)                # 32-byte Spill
	vpxor	%ymm4, %ymm10, %ymm4
	vpxor	%ymm3, %ymm4, %ymm3
	vmovdqa	672(%rsp), %ymm8                # 32-byte Reload
	vpxor	%ymm8, %ymm12, %ymm4
	vpxor	%ymm4, %ymm10, %ymm13
	vmovdqa	%ymm4, 288(%rsp)                # 32-byte Spill
	vpand	%ymm9, %ymm13, %ymm0
	vpxor	%ymm2, %ymm5, %ymm14
	vpxor	%ymm0, %ymm14, %ymm2
	vpxor	%ymm6, %ymm3, %ymm14
	vpxor	%ymm1, %ymm13, %ymm0
	vmovdqa	%ymm0, 192(%rsp)                # 32-byte Spill
	vpand	%ymm0, %ymm15, %ymm0
	vpxor	%ymm0, %ymm14, %ymm3
	vpxor	%ymm0, %ymm2, %ymm0
	vpxor	%ymm11, %ymm8, %ymm8
	vpxor	%ymm11, %ymm12, %ymm11
	vmovdqa	32(%rsp), %ymm1                 # 32-byte Reload
	vpand	%ymm1, %ymm8, %ymm14
	vpor	64(%rsp), %ymm11, %ymm9         # 32-byte Folded Reload
	vpxor	%ymm14, %ymm9, %ymm9
	vpxor	%ymm6, %ymm9, %ymm2
	vpand	%ymm4, %ymm12, %ymm9
	vpor	%ymm1, %ymm8, %ymm14
	vpxor	%ymm14, %ymm9, %ymm9
	vpxor	%ymm7, %ymm0, %ymm4
	vpxor	%ymm7, %ymm9, %ymm5
	vpand	%ymm2, %ymm3, %ymm9
	vpxor	%ymm3, %ymm4, %ymm0
	vpxor	%ymm0, %ymm9, %ymm14
	vpand	%ymm5, %ymm14, %ymm6
	vpand	%ymm5, %ymm4, %ymm1
	vpxor	%ymm2, %ymm5, %ymm5
	vpxor	%ymm3, %ymm1, %ymm14
	vpand	%ymm5, %ymm14, %ymm14
	vpxor	%ymm2, %ymm14, %ymm14
	vpxor	%ymm2, %ymm1, %ymm1
	vpand	%ymm0, %ymm1, %ymm1
	vpxor	%ymm3, %ymm1, %ymm1
	vpxor	%ymm5, %ymm6, %ymm2
	vpxor	%ymm5, %ymm9, %ymm3
	vpand	%ymm4, %ymm3, %ymm3
	vpxor	%ymm0, %ymm3, %ymm0
	vpxor	%ymm1, %ymm14, %ymm4
	vpxor	%ymm0, %ymm2, %ymm6
	vpxor	%ymm6, %ymm4, %ymm5
	vpand	(%rsp), %ymm5, %ymm3            # 32-byte Folded Reload
	vpand	96(%rsp), %ymm4, %ymm15         # 32-byte Folded Reload
	vpxor	%ymm3, %ymm15, %ymm9
	vpand	%ymm6, %ymm10, %ymm3
	vpxor	%ymm3, %ymm15, %ymm15
	vpxor	%ymm2, %ymm14, %ymm7
	vpand	192(%rsp), %ymm7, %ymm10        # 32-byte Folded Reload
	vpand	224(%rsp), %ymm7, %ymm7         # 32-byte Folded Reload
	vpand	256(%rsp), %ymm14, %ymm3        # 32-byte Folded Reload
	vmovdqa	%ymm3, (%rsp)                   # 32-byte Spill
	vpand	160(%rsp), %ymm14, %ymm14       # 32-byte Folded Reload
	vpand	%ymm2, %ymm13, %ymm13
	vpand	320(%rsp), %ymm2, %ymm2         # 32-byte Folded Reload
	vpxor	%ymm7, %ymm14, %ymm14
	vpxor	%ymm2, %ymm7, %ymm2
	vpxor	%ymm0, %ymm1, %ymm7
	vpand	%ymm7, %ymm8, %ymm8
	vpand	32(%rsp), %ymm7, %ymm7          # 32-byte Folded Reload
	vpand	%ymm1, %ymm11, %ymm11
	vpand	64(%rsp), %ymm1, %ymm1          # 32-byte Folded Reload
	vpand	288(%rsp), %ymm0, %ymm3         # 32-byte Folded Reload
	vpand	%ymm0, %ymm12, %ymm0
	vpxor	%ymm1, %ymm7, %ymm1
	vpxor	%ymm0, %ymm7, %ymm0
	vpand	128(%rsp), %ymm5, %ymm5         # 32-byte Folded Reload
	vpand	352(%rsp), %ymm4, %ymm4         # 32-byte Folded Reload
	vpand	384(%rsp), %ymm6, %ymm6         # 32-byte Folded Reload
	vpxor	%ymm4, %ymm5, %ymm5
	vpxor	%ymm6, %ymm4, %ymm4
	vpxor	%ymm5, %ymm2, %ymm2
	vpxor	%ymm5, %ymm0, %ymm5
	vpxor	%ymm13, %ymm10, %ymm0
	vpxor	%ymm11, %ymm8, %ymm6
	vpxor	%ymm0, %ymm9, %ymm7
	vpxor	%ymm3, %ymm8, %ymm0
	vpxor	%ymm4, %ymm0, %ymm0
	vpxor	%ymm1, %ymm0, %ymm3
	vpcmpeqd	%ymm0, %ymm0, %ymm0
	vpxor	%ymm0, %ymm9, %ymm8
	vpxor	%ymm3, %ymm8, %ymm3
	vpxor	(%rsp), %ymm10, %ymm8           # 32-byte Folded Reload
	vpxor	%ymm6, %ymm15, %ymm6
	vpxor	%ymm15, %ymm8, %ymm8
	shlq	$7, %rsi
	vpxor	%ymm4, %ymm14, %ymm4
	vpxor	%ymm4, %ymm6, %ymm6
	vpxor	%ymm3, %ymm4, %ymm4
	vpxor	%ymm3, %ymm5, %ymm3
	vpxor	%ymm5, %ymm7, %ymm5
	vpxor	%ymm1, %ymm14, %ymm1
	vpxor	%ymm2, %ymm5, %ymm9
	vpxor	%ymm6, %ymm8, %ymm8
	vpxor	%ymm5, %ymm8, %ymm8
	vpxor	%ymm1, %ymm9, %ymm1
	vpxor	%ymm7, %ymm2, %ymm2
	vbroadcasti128	.Ldeerlapse_0_1_0_v3_CPI28_22(%rip), %ymm7 # ymm7 = [0,5,10,15,4,9,14,3,8,13,2,7,12,1,6,11,0,5,10,15,4,9,14,3,8,13,2,7,12,1,6,11]
                                        # ymm7 = mem[0,1,0,1]
	vpshufb	%ymm7, %ymm4, %ymm4
	vpshufb	%ymm7, %ymm3, %ymm3
	vpshufb	%ymm7, %ymm8, %ymm8
	vpshufb	%ymm7, %ymm1, %ymm1
	vpshufb	%ymm7, %ymm9, %ymm9
	vpshufb	%ymm7, %ymm6, %ymm6
	vpshufb	%ymm7, %ymm2, %ymm2
	vpshufb	%ymm7, %ymm5, %ymm5
	vbroadcasti128	(%rdi,%rsi), %ymm7      # ymm7 = mem[0,1,0,1]
	vpxor	%ymm4, %ymm7, %ymm4
	vbroadcasti128	16(%rdi,%rsi), %ymm7    # ymm7 = mem[0,1,0,1]
	vpxor	%ymm3, %ymm7, %ymm3
	vbroadcasti128	32(%rdi,%rsi), %ymm7    # ymm7 = mem[0,1,0,1]
	vpxor	%ymm7, %ymm8, %ymm7
	vbroadcasti128	48(%rdi,%rsi), %ymm8    # ymm8 = mem[0,1,0,1]
	vpxor	%ymm1, %ymm8, %ymm1
	vbroadcasti128	64(%rdi,%rsi), %ymm8    # ymm8 = mem[0,1,0,1]
	vpxor	%ymm9, %ymm8, %ymm8
	vbroadcasti128	112(%rdi,%rsi), %ymm9   # ymm9 = mem[0,1,0,1]
	vpxor	%ymm5, %ymm9, %ymm5
	vbroadcasti128	80(%rdi,%rsi), %ymm9    # ymm9 = mem[0,1,0,1]
	vpxor	%ymm0, %ymm9, %ymm9
	vpxor	%ymm6, %ymm9, %ymm6
	vbroadcasti128	96(%rdi,%rsi), %ymm9    # ymm9 = mem[0,1,0,1]
	vpxor	%ymm0, %ymm9, %ymm0
	vpxor	%ymm2, %ymm0, %ymm2
	vpsrlq	$4, %ymm4, %ymm0
	vpxor	%ymm0, %ymm8, %ymm0
	vmovdqa	768(%rsp), %ymm10               # 32-byte Reload
	vpand	%ymm0, %ymm10, %ymm0
	vpsllq	$4, %ymm0, %ymm9
	vpxor	%ymm4, %ymm9, %ymm4
	vpxor	%ymm0, %ymm8, %ymm8
	vpsrlq	$4, %ymm3, %ymm0
	vpxor	%ymm6, %ymm0, %ymm0
	vpand	%ymm0, %ymm10, %ymm0
	vpsllq	$4, %ymm0, %ymm9
	vpxor	%ymm3, %ymm9, %ymm3
	vpxor	%ymm6, %ymm0, %ymm0
	vpsrlq	$4, %ymm7, %ymm6
	vpxor	%ymm2, %ymm6, %ymm6
	vpand	%ymm6, %ymm10, %ymm6
	vpsllq	$4, %ymm6, %ymm9
	vpxor	%ymm7, %ymm9, %ymm7
	vpxor	%ymm2, %ymm6, %ymm2
	vpsrlq	$4, %ymm1, %ymm6
	vpxor	%ymm5, %ymm6, %ymm6
	vpand	%ymm6, %ymm10, %ymm6
	vpsllq	$4, %ymm6, %ymm9
	vpxor	%ymm1, %ymm9, %ymm9
	vpxor	%ymm5, %ymm6, %ymm5
	vpsrlq	$2, %ymm4, %ymm1
	vpxor	%ymm7, %ymm1, %ymm1
	vmovdqa	736(%rsp), %ymm10               # 32-byte Reload
	vpand	%ymm1, %ymm10, %ymm1
	vpsllq	$2, %ymm1, %ymm6
	vpxor	%ymm4, %ymm6, %ymm4
	vpxor	%ymm7, %ymm1, %ymm7
	vpsrlq	$2, %ymm8, %ymm1
	vpxor	%ymm2, %ymm1, %ymm1
	vpand	%ymm1, %ymm10, %ymm1
	vpsllq	$2, %ymm1, %ymm6
	vpxor	%ymm6, %ymm8, %ymm8
	vpxor	%ymm2, %ymm1, %ymm1
	vpsrlq	$2, %ymm3, %ymm2
	vpxor	%ymm2, %ymm9, %ymm2
	vpand	%ymm2, %ymm10, %ymm2
	vpsllq	$2, %ymm2, %ymm6
	vpxor	%ymm3, %ymm6, %ymm3
	vpxor	%ymm2, %ymm9, %ymm2
	vpsrlq	$2, %ymm0, %ymm6
	vpxor	%ymm5, %ymm6, %ymm6
	vpand	%ymm6, %ymm10, %ymm6
	vpsllq	$2, %ymm6, %ymm9
	vpxor	%ymm0, %ymm9, %ymm0
	vpxor	%ymm5, %ymm6, %ymm9
	vpsrlq	$1, %ymm4, %ymm5
	vpxor	%ymm3, %ymm5, %ymm5
	vmovdqa	704(%rsp), %ymm10               # 32-byte Reload
	vpand	%ymm5, %ymm10, %ymm5
	vpaddq	%ymm5, %ymm5, %ymm6
	vpxor	%ymm4, %ymm6, %ymm6
	vpxor	%ymm3, %ymm5, %ymm5
	vpsrlq	$1, %ymm7, %ymm3
	vpxor	%ymm2, %ymm3, %ymm3
	vpand	%ymm3, %ymm10, %ymm3
	vpaddq	%ymm3, %ymm3, %ymm4
	vpxor	%ymm7, %ymm4, %ymm7
	vpxor	%ymm2, %ymm3, %ymm4
	vpsrlq	$1, %ymm8, %ymm2
	vpxor	%ymm0, %ymm2, %ymm2
	vpand	%ymm2, %ymm10, %ymm2
	vpaddq	%ymm2, %ymm2, %ymm3
	vpxor	%ymm3, %ymm8, %ymm3
	vpxor	%ymm0, %ymm2, %ymm2
	vpsrlq	$1, %ymm1, %ymm0
	vpxor	%ymm0, %ymm9, %ymm0
	vpand	%ymm0, %ymm10, %ymm0
	vpaddq	%ymm0, %ymm0, %ymm8
	vpxor	%ymm1, %ymm8, %ymm1
	vpxor	%ymm0, %ymm9, %ymm0
	cmpq	$16, %r9
	jne	.Ldeerlapse_0_1_0_v3_BB28_5
# %bb.4:                                # %then.1
	movl	$0, 444(%rsp)
	movl	$0, 441(%rsp)
	vmovdqa	%ymm7, 416(%rsp)
	vpxor	(%rdx,%rcx), %xmm6, %xmm7
	vmovdqu	%xmm7, (%rdx)
	vextracti128	$1, %ymm6, %xmm6
	vpxor	16(%rdx,%rcx), %xmm6, %xmm6
	vmovdqu	%xmm6, 16(%rdx)
	vpxor	32(%rdx,%rcx), %xmm5, %xmm6
	vmovdqu	%xmm6, 32(%rdx)
	vextracti128	$1, %ymm5, %xmm5
	vpxor	48(%rdx,%rcx), %xmm5, %xmm5
	vmovdqu	%xmm5, 48(%rdx)
	vmovups	64(%rdx,%rcx), %xmm5
	vxorps	416(%rsp), %xmm5, %xmm5
	vmovups	%xmm5, 64(%rdx)
	vmovups	80(%rdx,%rcx), %xmm5
	vxorps	432(%rsp), %xmm5, %xmm5
	vmovups	%xmm5, 80(%rdx)
	vpxor	96(%rdx,%rcx), %xmm4, %xmm5
	vmovdqu	%xmm5, 96(%rdx)
	vextracti128	$1, %ymm4, %xmm4
	vpxor	112(%rdx,%rcx), %xmm4, %xmm4
	vmovdqu	%xmm4, 112(%rdx)
	vpxor	128(%rdx,%rcx), %xmm3, %xmm4
	vmovdqu	%xmm4, 128(%rdx)
	vextracti128	$1, %ymm3, %xmm3
	vpxor	144(%rdx,%rcx), %xmm3, %xmm3
	vmovdqu	%xmm3, 144(%rdx)
	vpxor	160(%rdx,%rcx), %xmm2, %xmm3
	vmovdqu	%xmm3, 160(%rdx)
	vextracti128	$1, %ymm2, %xmm2
	vpxor	176(%rdx,%rcx), %xmm2, %xmm2
	vmovdqu	%xmm2, 176(%rdx)
	vpxor	192(%rdx,%rcx), %xmm1, %xmm2
	vmovdqu	%xmm2, 192(%rdx)
	vextracti128	$1, %ymm1, %xmm1
	vpxor	208(%rdx,%rcx), %xmm1, %xmm1
	vmovdqu	%xmm1, 208(%rdx)
	vpxor	224(%rdx,%rcx), %xmm0, %xmm1
	vmovdqu	%xmm1, 224(%rdx)
	vextracti128	$1, %ymm0, %xmm0
	vpxor	240(%rdx,%rcx), %xmm0, %xmm0
	vmovdqu	%xmm0, 240(%rdx)
	movq	%rbp, %rsp
	popq	%rbp
	.cfi_def_cfa %rsp, 8
	vzeroupper
	retq
.Ldeerlapse_0_1_0_v3_BB28_5:                               # %else.2
	.cfi_def_cfa %rbp, 16
	vpxor	%xmm8, %xmm8, %xmm8
	vmovdqu	%ymm8, 505(%rsp)
	vmovdqu	%ymm8, 537(%rsp)
	vmovdqu	%ymm8, 569(%rsp)
	vmovdqu	%ymm8, 601(%rsp)
	vmovdqu	%ymm8, 633(%rsp)
	movq	$0, 664(%rsp)
	vmovdqu	%ymm6, 416(%rsp)
	vmovdqu	%ymm5, 448(%rsp)
	vmovdqu	%ymm7, 480(%rsp)
	vmovdqu	%ymm4, 512(%rsp)
	vmovdqu	%ymm3, 544(%rsp)
	vmovdqu	%ymm2, 576(%rsp)
	vmovdqu	%ymm1, 608(%rsp)
	vmovdqu	%ymm0, 640(%rsp)
	movl	%r9d, %eax
	andl	$3, %eax
	movabsq	$1152921504606846972, %rdi      # imm = 0xFFFFFFFFFFFFFFC
	andq	%r9, %rdi
	leaq	416(%rsp), %rsi
	.p2align	4
.Ldeerlapse_0_1_0_v3_BB28_6:                               # %join.5.i660
                                        # =>This Inner Loop Header: Depth=1
	vmovups	(%rdx,%rcx), %xmm0
	vxorps	(%rsi), %xmm0, %xmm0
	vmovups	%xmm0, (%rdx)
	vmovups	16(%rdx,%rcx), %xmm0
	vxorps	16(%rsi), %xmm0, %xmm0
	vmovups	%xmm0, 16(%rdx)
	vmovups	32(%rdx,%rcx), %xmm0
	vxorps	32(%rsi), %xmm0, %xmm0
	vmovups	%xmm0, 32(%rdx)
	vmovdqu	48(%rdx,%rcx), %xmm0
	vpxor	48(%rsi), %xmm0, %xmm0
	vmovdqu	%xmm0, 48(%rdx)
	addq	$64, %rsi
	addq	$64, %rdx
	addq	$-4, %rdi
	jne	.Ldeerlapse_0_1_0_v3_BB28_6
# %bb.7:                                # %"aead_ciphers_wide::aes::ctr32::add_keystream::<=16>.exit716.unr-lcssa"
	testq	%rax, %rax
	je	.Ldeerlapse_0_1_0_v3_BB28_9
	.p2align	4
.Ldeerlapse_0_1_0_v3_BB28_8:                               # %join.5.i660.epil
                                        # =>This Inner Loop Header: Depth=1
	vmovdqu	(%rdx,%rcx), %xmm0
	vpxor	(%rsi), %xmm0, %xmm0
	vmovdqu	%xmm0, (%rdx)
	addq	$16, %rdx
	addq	$16, %rsi
	decq	%rax
	jne	.Ldeerlapse_0_1_0_v3_BB28_8
.Ldeerlapse_0_1_0_v3_BB28_9:                               # %join.3
	movq	%rbp, %rsp
	popq	%rbp
	.cfi_def_cfa %rsp, 8
	vzeroupper
	retq
.Ldeerlapse_0_1_0_v3_func_end28:
	.size	"deerlapse_0_1_0_v3::aead_ciphers_wide::aes::ctr32::encrypt_up_to_sixteen", .Ldeerlapse_0_1_0_v3_func_end28-"deerlapse_0_1_0_v3::aead_ciphers_wide::aes::ctr32::encrypt_up_to_sixteen"
	.cfi_endproc
                                        # -- End function
	.section	.text.deerlapse_aes_gcm,"ax",@progbits
	.p2align	4                               # -- Begin function deerlapse::out_of_place::deerlapse_0_1_0_v3_key_open_to_sized
	.type	"deerlapse_0_1_0_v3::deerlapse::out_of_place::deerlapse_key_open_to_sized",@function
"deerlapse_0_1_0_v3::deerlapse::out_of_place::deerlapse_key_open_to_sized": # @"deerlapse_0_1_0_v3::deerlapse::out_of_place::deerlapse_key_open_to_sized"
	.cfi_startproc
# %bb.0:                                # %start
	pushq	%rbp
	.cfi_def_cfa_offset 16
	pushq	%r15
	.cfi_def_cfa_offset 24
	pushq	%r14
	.cfi_def_cfa_offset 32
	pushq	%r13
	.cfi_def_cfa_offset 40
	pushq	%r12
	.cfi_def_cfa_offset 48
	pushq	%rbx
	.cfi_def_cfa_offset 56
	subq	$168, %rsp
	.cfi_def_cfa_offset 224
	.cfi_offset %rbx, -56
	.cfi_offset %r12, -48
	.cfi_offset %r13, -40
	.cfi_offset %r14, -32
	.cfi_offset %r15, -24
	.cfi_offset %rbp, -16
	movq	232(%rsp), %rbx
	movl	1920(%rdi), %eax
	leal	-10(%rax), %r10d
	cmpl	$5, %r10d
	setae	%r10b
	cmpq	%r9, %rbx
	setne	%r9b
	orb	%r10b, %r9b
	jne	.Ldeerlapse_0_1_0_v3_BB29_2
# %bb.1:                                # %else.7
	movabsq	$68719476608, %r12              # imm = 0xFFFFFFF80
	movq	%rcx, %r9
	shrq	$61, %r9
	sete	%r9b
	leaq	97(%r12), %r10
	cmpq	%r10, %rbx
	setb	%r10b
	testb	%r10b, %r9b
	je	.Ldeerlapse_0_1_0_v3_BB29_2
# %bb.4:                                # %join.3.i.i
	vxorps	%xmm0, %xmm0, %xmm0
	vmovaps	%xmm0, 80(%rsp)
	movq	240(%rsp), %r9
	movl	8(%rsi), %r10d
	movl	%r10d, 40(%rsp)
	movq	(%rsi), %rsi
	movq	%rsi, 32(%rsp)
	vmovups	(%r9), %xmm0
	vmovaps	%xmm0, 144(%rsp)
	leaq	1928(%rdi), %rsi
	movl	1924(%rdi), %r9d
	movq	%rdi, 48(%rsp)
	movq	%rsi, 56(%rsp)
	movq	%rax, 64(%rsp)
	movl	%r9d, 72(%rsp)
	movl	$0, 76(%rsp)
	leaq	2168(%rdi), %rax
	addq	$2680, %rdi                     # imm = 0xA78
	movq	%rax, 104(%rsp)
	movq	%rdi, 112(%rsp)
	leaq	80(%rsp), %rax
	movq	%rax, 24(%rsp)
	movq	%rbx, 16(%rsp)
	movq	%r8, %r13
	movq	%r8, 8(%rsp)
	leaq	144(%rsp), %rax
	movq	%rax, (%rsp)
	leaq	127(%rsp), %rdi
	leaq	48(%rsp), %rsi
	leaq	104(%rsp), %rax
	leaq	32(%rsp), %r10
	movq	%rdx, %r8
	movq	%rax, %rdx
	movq	%rcx, %r9
	movq	%r10, %rcx
	callq	"deerlapse_0_1_0_v3::aead_ciphers::aes_gcm::opening::authenticate::<#7bfdf0a6b4753edd>"
	cmpb	$0, 127(%rsp)
	sete	%al
	jne	.Ldeerlapse_0_1_0_v3_BB29_3
# %bb.5:                                # %arm.5.i.i
	movq	224(%rsp), %r14
	leaq	128(%rsp), %r15
	movq	%r14, %rcx
	movq	%r13, %rsi
	subq	%r13, %rcx
	cmpq	%rbx, %rcx
	jae	.Ldeerlapse_0_1_0_v3_BB29_23
# %bb.6:                                # %iter.check
	cmpq	$8, %rbx
	setb	%dl
	cmpq	$128, %rcx
	setb	%cl
	movl	%eax, %ebp
	orb	%dl, %cl
	je	.Ldeerlapse_0_1_0_v3_BB29_8
# %bb.7:
	xorl	%eax, %eax
	jmp	.Ldeerlapse_0_1_0_v3_BB29_17
.Ldeerlapse_0_1_0_v3_BB29_2:
	xorl	%eax, %eax
.Ldeerlapse_0_1_0_v3_BB29_3:                               # %common.ret
                                        # kill: def $al killed $al killed $eax
	addq	$168, %rsp
	.cfi_def_cfa_offset 56
	popq	%rbx
	.cfi_def_cfa_offset 48
	popq	%r12
	.cfi_def_cfa_offset 40
	popq	%r13
	.cfi_def_cfa_offset 32
	popq	%r14
	.cfi_def_cfa_offset 24
	popq	%r15
	.cfi_def_cfa_offset 16
	popq	%rbp
	.cfi_def_cfa_offset 8
	retq
.Ldeerlapse_0_1_0_v3_BB29_23:                              # %apart.2.i.i.i.i.i.i.i.i
	.cfi_def_cfa_offset 224
	movl	%eax, %ebp
	movq	%r14, %rdi
	movq	%rbx, %rdx
	callq	memmove@PLT
	jmp	.Ldeerlapse_0_1_0_v3_BB29_22
.Ldeerlapse_0_1_0_v3_BB29_8:                               # %vector.main.loop.iter.check
	cmpq	$128, %rbx
	jae	.Ldeerlapse_0_1_0_v3_BB29_10
# %bb.9:
	xorl	%eax, %eax
	jmp	.Ldeerlapse_0_1_0_v3_BB29_14
.Ldeerlapse_0_1_0_v3_BB29_10:                              # %vector.ph
	movq	%rbx, %rax
	andq	%r12, %rax
	xorl	%ecx, %ecx
	.p2align	4
.Ldeerlapse_0_1_0_v3_BB29_11:                              # %vector.body
                                        # =>This Inner Loop Header: Depth=1
	vmovups	(%rsi,%rcx), %ymm0
	vmovups	32(%rsi,%rcx), %ymm1
	vmovups	64(%rsi,%rcx), %ymm2
	vmovups	96(%rsi,%rcx), %ymm3
	vmovups	%ymm0, (%r14,%rcx)
	vmovups	%ymm1, 32(%r14,%rcx)
	vmovups	%ymm2, 64(%r14,%rcx)
	vmovups	%ymm3, 96(%r14,%rcx)
	subq	$-128, %rcx
	cmpq	%rcx, %rax
	jne	.Ldeerlapse_0_1_0_v3_BB29_11
# %bb.12:                               # %middle.block
	cmpq	%rax, %rbx
	je	.Ldeerlapse_0_1_0_v3_BB29_22
# %bb.13:                               # %vec.epilog.iter.check
	testb	$120, %bl
	je	.Ldeerlapse_0_1_0_v3_BB29_17
.Ldeerlapse_0_1_0_v3_BB29_14:                              # %vec.epilog.ph
	movq	%rax, %rcx
	addq	$120, %r12
	movq	%r12, %rax
	andq	%rbx, %rax
	.p2align	4
.Ldeerlapse_0_1_0_v3_BB29_15:                              # %vec.epilog.vector.body
                                        # =>This Inner Loop Header: Depth=1
	movq	(%rsi,%rcx), %rdx
	movq	%rdx, (%r14,%rcx)
	addq	$8, %rcx
	cmpq	%rcx, %rax
	jne	.Ldeerlapse_0_1_0_v3_BB29_15
# %bb.16:                               # %vec.epilog.middle.block
	cmpq	%rax, %rbx
	je	.Ldeerlapse_0_1_0_v3_BB29_22
.Ldeerlapse_0_1_0_v3_BB29_17:                              # %join.7.i.i.i.i.i.i.i.i.preheader
	movq	%rbx, %rdx
	movq	%rax, %rcx
	andq	$7, %rdx
	je	.Ldeerlapse_0_1_0_v3_BB29_20
# %bb.18:                               # %join.7.i.i.i.i.i.i.i.i.prol.preheader
	movq	%rax, %rcx
	.p2align	4
.Ldeerlapse_0_1_0_v3_BB29_19:                              # %join.7.i.i.i.i.i.i.i.i.prol
                                        # =>This Inner Loop Header: Depth=1
	movzbl	(%rsi,%rcx), %edi
	movb	%dil, (%r14,%rcx)
	incq	%rcx
	decq	%rdx
	jne	.Ldeerlapse_0_1_0_v3_BB29_19
.Ldeerlapse_0_1_0_v3_BB29_20:                              # %join.7.i.i.i.i.i.i.i.i.prol.loopexit
	subq	%rbx, %rax
	cmpq	$-8, %rax
	ja	.Ldeerlapse_0_1_0_v3_BB29_22
	.p2align	4
.Ldeerlapse_0_1_0_v3_BB29_21:                              # %join.7.i.i.i.i.i.i.i.i
                                        # =>This Inner Loop Header: Depth=1
	movzbl	(%rsi,%rcx), %eax
	movb	%al, (%r14,%rcx)
	movzbl	1(%rsi,%rcx), %eax
	movb	%al, 1(%r14,%rcx)
	movzbl	2(%rsi,%rcx), %eax
	movb	%al, 2(%r14,%rcx)
	movzbl	3(%rsi,%rcx), %eax
	movb	%al, 3(%r14,%rcx)
	movzbl	4(%rsi,%rcx), %eax
	movb	%al, 4(%r14,%rcx)
	movzbl	5(%rsi,%rcx), %eax
	movb	%al, 5(%r14,%rcx)
	movzbl	6(%rsi,%rcx), %eax
	movb	%al, 6(%r14,%rcx)
	movzbl	7(%rsi,%rcx), %eax
	movb	%al, 7(%r14,%rcx)
	addq	$8, %rcx
	cmpq	%rcx, %rbx
	jne	.Ldeerlapse_0_1_0_v3_BB29_21
.Ldeerlapse_0_1_0_v3_BB29_22:                              # %"core::slice::edits::slice+T::copy_from_slice::<i8,20'core::clone::U8Clone{}>.exit.i.i"
	leaq	48(%rsp), %rdi
	leaq	80(%rsp), %r9
	movq	%r15, %rsi
	movq	%r14, %rdx
	movq	%rbx, %rcx
	xorl	%r8d, %r8d
	vzeroupper
	callq	"deerlapse_0_1_0_v3::aead_ciphers::aes_gcm::counter_mode::encrypt_within::<#6fa349fe97f872a2>"
	movl	%ebp, %eax
	jmp	.Ldeerlapse_0_1_0_v3_BB29_3
.Ldeerlapse_0_1_0_v3_func_end29:
	.size	"deerlapse_0_1_0_v3::deerlapse::out_of_place::deerlapse_key_open_to_sized", .Ldeerlapse_0_1_0_v3_func_end29-"deerlapse_0_1_0_v3::deerlapse::out_of_place::deerlapse_key_open_to_sized"
	.cfi_endproc
                                        # -- End function
	.section	.text.deerlapse_aes_gcm,"ax",@progbits
	.p2align	4                               # -- Begin function deerlapse::key::deerlapse_0_1_0_v3_key_seal
	.type	"deerlapse_0_1_0_v3::deerlapse::key::deerlapse_key_seal",@function
"deerlapse_0_1_0_v3::deerlapse::key::deerlapse_key_seal":   # @"deerlapse_0_1_0_v3::deerlapse::key::deerlapse_key_seal"
	.cfi_startproc
# %bb.0:                                # %start
	pushq	%rbp
	.cfi_def_cfa_offset 16
	pushq	%r15
	.cfi_def_cfa_offset 24
	pushq	%r14
	.cfi_def_cfa_offset 32
	pushq	%r13
	.cfi_def_cfa_offset 40
	pushq	%r12
	.cfi_def_cfa_offset 48
	pushq	%rbx
	.cfi_def_cfa_offset 56
	subq	$680, %rsp                      # imm = 0x2A8
	.cfi_def_cfa_offset 736
	.cfi_offset %rbx, -56
	.cfi_offset %r12, -48
	.cfi_offset %r13, -40
	.cfi_offset %r14, -32
	.cfi_offset %r15, -24
	.cfi_offset %rbp, -16
	vxorps	%xmm0, %xmm0, %xmm0
	vmovaps	%xmm0, 592(%rsp)
	movl	1920(%rdi), %eax
	movq	%rax, (%rsp)                    # 8-byte Spill
	addl	$-10, %eax
	cmpl	$5, %eax
	jae	.Ldeerlapse_0_1_0_v3_BB30_1
# %bb.3:                                # %join.3
	movq	%rsi, %rbp
	movabsq	$2305843009213693936, %r14      # imm = 0x1FFFFFFFFFFFFFF0
	movabsq	$68719476480, %rsi              # imm = 0xFFFFFFF00
	vmovaps	%xmm0, 16(%rsp)
	movl	1924(%rdi), %r10d
	leaq	2168(%rdi), %r12
	leaq	2680(%rdi), %rax
	movq	%r12, 320(%rsp)
	vmovaps	%xmm0, 288(%rsp)
	vmovaps	%xmm0, 272(%rsp)
	movq	%rax, 328(%rsp)
	leaq	16(%r14), %rax
	cmpq	%rax, %rcx
	setae	%al
	addq	$225, %rsi
	cmpq	%rsi, %r9
	setae	%sil
	orb	%al, %sil
	jne	.Ldeerlapse_0_1_0_v3_BB30_1
# %bb.4:                                # %join.3.i.i
	movl	%r10d, 84(%rsp)                 # 4-byte Spill
	movq	%rdi, 8(%rsp)                   # 8-byte Spill
	movq	%r8, 88(%rsp)                   # 8-byte Spill
	vmovaps	%xmm0, 128(%rsp)
	leaq	320(%rsp), %rdi
	movq	%rdi, 144(%rsp)
	movq	%rcx, 152(%rsp)
	movq	%r9, %r13
	movq	%r9, 160(%rsp)
	andq	%rcx, %r14
	leaq	128(%rsp), %rsi
	leaq	16(%rsp), %r8
	movq	%rdx, %rbx
	movq	%rcx, %r15
	movq	%r14, %rcx
	callq	"deerlapse_0_1_0_v3::aead_ciphers_wide::gcm::KeyRefUpdateBlocks::update_blocks"
	movq	%r15, %rax
	andq	$15, %rax
	je	.Ldeerlapse_0_1_0_v3_BB30_6
# %bb.5:                                # %then.1.i.i.i.i.i
	addq	%r14, %rbx
	movl	$16, %edx
	subq	%rax, %rdx
	leaq	(%rsp,%rax), %rdi
	addq	$336, %rdi                      # imm = 0x150
	xorl	%esi, %esi
	movq	%rax, %r14
	callq	memset@PLT
	leaq	336(%rsp), %r15
	movq	%r15, %rdi
	movq	%rbx, %rsi
	movq	%r14, %rdx
	callq	memcpy@PLT
	leaq	128(%rsp), %rsi
	leaq	16(%rsp), %rcx
	movq	%r12, %rdi
	movq	%r15, %rdx
	callq	"deerlapse_0_1_0_v3::aead_ciphers_wide::gcm::KeyRefUpdateBlock::update_block"
.Ldeerlapse_0_1_0_v3_BB30_6:                               # %"aead_ciphers::gcm::context::Context::of_fitting::<#3f2567b24793e466>.exit.i.i"
	movq	736(%rsp), %r12
	movq	8(%rsp), %rax                   # 8-byte Reload
	addq	$1928, %rax                     # imm = 0x788
	movq	%rax, 112(%rsp)                 # 8-byte Spill
	movq	%r13, %rbx
	leaq	-1(%r13), %rax
	cmpq	$239, %rax
	movq	88(%rsp), %r15                  # 8-byte Reload
	ja	.Ldeerlapse_0_1_0_v3_BB30_20
# %bb.7:                                # %then.8.i.i
	xorl	%eax, %eax
	movq	%rbx, %rcx
	andq	$15, %rcx
	movq	%rcx, 120(%rsp)                 # 8-byte Spill
	setne	%al
	shll	$4, %eax
	leaq	(%rbx,%rax), %r14
	addq	$16, %r14
	movl	%r14d, %eax
	andl	$1008, %eax                     # imm = 0x3F0
	vxorps	%xmm0, %xmm0, %xmm0
	cmpq	$64, %rax
	ja	.Ldeerlapse_0_1_0_v3_BB30_9
# %bb.8:                                # %then.1.i114.i.i
	vmovups	%ymm0, 368(%rsp)
	vmovups	%ymm0, 336(%rsp)
	leaq	352(%rsp), %r13
	movq	%r13, %rdi
	movq	%r15, %rsi
	movq	%rbx, %rdx
	vzeroupper
	callq	memcpy@PLT
	movw	$0, 204(%rsp)
	movb	$0, 206(%rsp)
	movl	8(%rbp), %eax
	movl	%eax, 200(%rsp)
	movq	(%rbp), %rax
	movq	%rax, 192(%rsp)
	movq	%rax, 32(%rsp)
	movq	199(%rsp), %rax
	movq	%rax, 39(%rsp)
	movb	$1, 47(%rsp)
	shrq	$4, %r14
	leaq	336(%rsp), %rdx
	leaq	32(%rsp), %r8
	movq	112(%rsp), %rdi                 # 8-byte Reload
	movq	(%rsp), %rsi                    # 8-byte Reload
	xorl	%ecx, %ecx
	movq	%r14, %r9
	callq	"deerlapse_0_1_0_v3::aead_ciphers_wide::aes::ctr32::encrypt_few"
	addq	%r14, 16(%rsp)
	movq	%r15, %rdi
	movq	%r13, %rsi
	movq	%rbx, %rdx
	callq	memcpy@PLT
	vmovaps	336(%rsp), %xmm0
	vmovaps	%xmm0, 304(%rsp)
	jmp	.Ldeerlapse_0_1_0_v3_BB30_17
.Ldeerlapse_0_1_0_v3_BB30_1:
	xorl	%eax, %eax
	jmp	.Ldeerlapse_0_1_0_v3_BB30_2
.Ldeerlapse_0_1_0_v3_BB30_20:                              # %after.4.i.i
	movb	$0, 238(%rsp)
	movw	$0, 236(%rsp)
	movq	(%rbp), %rax
	movq	%rax, 224(%rsp)
	movl	8(%rbp), %ecx
	movl	%ecx, 232(%rsp)
	movq	%rax, 64(%rsp)
	movq	231(%rsp), %rax
	movq	%rax, 71(%rsp)
	movb	$1, 79(%rsp)
	movq	64(%rsp), %rax
	movq	%rax, 176(%rsp)
	movl	72(%rsp), %eax
	movl	%eax, 184(%rsp)
	movzwl	76(%rsp), %eax
	movw	%ax, 188(%rsp)
	movzbl	78(%rsp), %eax
	movb	%al, 190(%rsp)
	movzbl	79(%rsp), %eax
	movb	%al, 191(%rsp)
	movbel	76(%rsp), %r13d
	incl	%r13d
	movbel	%r13d, 76(%rsp)
	movq	%rbx, %rbp
	movabsq	$68719476480, %rcx              # imm = 0xFFFFFFF00
	andq	%rcx, %rbp
	movq	%rbx, %rcx
	andq	$15, %rcx
	movq	%rcx, 104(%rsp)                 # 8-byte Spill
	movq	%rbx, 96(%rsp)                  # 8-byte Spill
	cmoveq	%rbx, %rbp
	testq	%rbp, %rbp
	je	.Ldeerlapse_0_1_0_v3_BB30_34
# %bb.21:                               # %join.17.lr.ph.i.i
	bswapl	%r13d
	xorl	%eax, %eax
	cmpl	$256, 84(%rsp)                  # 4-byte Folded Reload
                                        # imm = 0x100
	sete	%al
	shll	$7, %eax
	subq	$-128, %rax
	movq	%rax, 120(%rsp)                 # 8-byte Spill
	xorl	%ecx, %ecx
	movq	%rbp, 240(%rsp)                 # 8-byte Spill
	jmp	.Ldeerlapse_0_1_0_v3_BB30_22
	.p2align	4
.Ldeerlapse_0_1_0_v3_BB30_33:                              # %"aead_ciphers::gcm::context::Context::absorb::<#3f2567b24793e466>.exit142.i.i"
                                        #   in Loop: Header=BB30_22 Depth=1
	movq	248(%rsp), %rcx                 # 8-byte Reload
	addq	56(%rsp), %rcx                  # 8-byte Folded Reload
	cmpq	%rbp, %rcx
	jae	.Ldeerlapse_0_1_0_v3_BB30_34
.Ldeerlapse_0_1_0_v3_BB30_22:                              # %join.17.i.i
                                        # =>This Loop Header: Depth=1
                                        #     Child Loop BB30_24 Depth 2
	movq	%rbp, %rax
	subq	%rcx, %rax
	cmpq	$3072, %rax                     # imm = 0xC00
	movl	$3072, %esi                     # imm = 0xC00
	cmovbq	%rax, %rsi
	movq	88(%rsp), %rax                  # 8-byte Reload
	leaq	(%rax,%rcx), %rdx
	movq	%rcx, 248(%rsp)                 # 8-byte Spill
	cmpq	%rcx, %rbp
	movq	%rsi, 56(%rsp)                  # 8-byte Spill
	je	.Ldeerlapse_0_1_0_v3_BB30_31
# %bb.23:                               # %join.8.i.preheader.i.i
                                        #   in Loop: Header=BB30_22 Depth=1
	bswapl	%r13d
	movq	16(%rsp), %rbx
	xorl	%ebp, %ebp
	jmp	.Ldeerlapse_0_1_0_v3_BB30_24
	.p2align	4
.Ldeerlapse_0_1_0_v3_BB30_25:                              # %then.1.i.i.i
                                        #   in Loop: Header=BB30_24 Depth=2
	movq	8(%rsp), %rax                   # 8-byte Reload
	leaq	1928(%rax), %rdi
	movq	(%rsp), %rsi                    # 8-byte Reload
	xorl	%ecx, %ecx
	movq	%r14, %r9
	callq	"deerlapse_0_1_0_v3::aead_ciphers_wide::aes::ctr32::encrypt_few"
.Ldeerlapse_0_1_0_v3_BB30_29:                              # %"aead_ciphers_wide::aes::ctr32::encrypt_batch.exit.i.i"
                                        #   in Loop: Header=BB30_24 Depth=2
	addl	%r14d, %r13d
	movbel	%r13d, 76(%rsp)
	addq	%r15, %rbp
	addq	%r14, %rbx
	movq	56(%rsp), %rsi                  # 8-byte Reload
	cmpq	%rsi, %rbp
	movq	%r12, %rdx
	jae	.Ldeerlapse_0_1_0_v3_BB30_30
.Ldeerlapse_0_1_0_v3_BB30_24:                              # %join.8.i.i.i
                                        #   Parent Loop BB30_22 Depth=1
                                        # =>  This Inner Loop Header: Depth=2
	movq	%rsi, %rax
	subq	%rbp, %rax
	movq	120(%rsp), %r15                 # 8-byte Reload
	cmpq	%r15, %rax
	cmovbq	%rax, %r15
	movq	%rdx, %r12
	addq	%rbp, %rdx
	movl	%r15d, %r14d
	shrl	$4, %r14d
	leaq	64(%rsp), %r8
	cmpq	$79, %rax
	jbe	.Ldeerlapse_0_1_0_v3_BB30_25
# %bb.26:                               # %else.2.i.i.i
                                        #   in Loop: Header=BB30_24 Depth=2
	cmpq	$143, %r15
	ja	.Ldeerlapse_0_1_0_v3_BB30_28
# %bb.27:                               # %then.4.i.i.i
                                        #   in Loop: Header=BB30_24 Depth=2
	movq	8(%rsp), %rdi                   # 8-byte Reload
	movq	(%rsp), %rsi                    # 8-byte Reload
	xorl	%ecx, %ecx
	movq	%r14, %r9
	callq	"deerlapse_0_1_0_v3::aead_ciphers_wide::aes::ctr32::encrypt_up_to_eight"
	jmp	.Ldeerlapse_0_1_0_v3_BB30_29
	.p2align	4
.Ldeerlapse_0_1_0_v3_BB30_28:                              # %else.5.i.i.i
                                        #   in Loop: Header=BB30_24 Depth=2
	movq	8(%rsp), %rdi                   # 8-byte Reload
	movq	(%rsp), %rsi                    # 8-byte Reload
	xorl	%ecx, %ecx
	movq	%r14, %r9
	callq	"deerlapse_0_1_0_v3::aead_ciphers_wide::aes::ctr32::encrypt_up_to_sixteen"
	jmp	.Ldeerlapse_0_1_0_v3_BB30_29
	.p2align	4
.Ldeerlapse_0_1_0_v3_BB30_30:                              # %"aead_ciphers_wide::aes::ctr32::KeyRefEncryptCtr32::ctr32_encrypt_within.exit.i.i.loopexit"
                                        #   in Loop: Header=BB30_22 Depth=1
	bswapl	%r13d
	movq	%rbx, 16(%rsp)
	movq	240(%rsp), %rbp                 # 8-byte Reload
.Ldeerlapse_0_1_0_v3_BB30_31:                              # %"aead_ciphers_wide::aes::ctr32::KeyRefEncryptCtr32::ctr32_encrypt_within.exit.i.i"
                                        #   in Loop: Header=BB30_22 Depth=1
	movq	144(%rsp), %rdi
	movq	%rsi, %rbx
	movl	%ebx, %r14d
	andl	$4080, %r14d                    # imm = 0xFF0
	leaq	128(%rsp), %rsi
	leaq	16(%rsp), %r8
	movq	%rdi, %r12
	movq	%rdx, %r15
	movq	%r14, %rcx
	callq	"deerlapse_0_1_0_v3::aead_ciphers_wide::gcm::KeyRefUpdateBlocks::update_blocks"
	andq	$15, %rbx
	je	.Ldeerlapse_0_1_0_v3_BB30_33
# %bb.32:                               # %then.1.i.i139.i.i
                                        #   in Loop: Header=BB30_22 Depth=1
	addq	%r14, %r15
	movl	$16, %edx
	subq	%rbx, %rdx
	leaq	(%rsp,%rbx), %rdi
	addq	$336, %rdi                      # imm = 0x150
	xorl	%esi, %esi
	callq	memset@PLT
	leaq	336(%rsp), %rdi
	movq	%r15, %rsi
	movq	%rbx, %rdx
	callq	memcpy@PLT
	vmovups	336(%rsp), %xmm0
	vmovaps	%xmm0, 32(%rsp)
	movq	(%r12), %rdi
	leaq	128(%rsp), %rsi
	leaq	32(%rsp), %rdx
	leaq	16(%rsp), %rcx
	callq	"deerlapse_0_1_0_v3::aead_ciphers_wide::gcm::KeyRefUpdateBlock::update_block"
	jmp	.Ldeerlapse_0_1_0_v3_BB30_33
.Ldeerlapse_0_1_0_v3_BB30_34:                              # %after.13.i.i
	movq	88(%rsp), %rsi                  # 8-byte Reload
	movq	96(%rsp), %rbx                  # 8-byte Reload
	subq	%rbp, %rbx
	movq	736(%rsp), %r12
	jbe	.Ldeerlapse_0_1_0_v3_BB30_49
# %bb.35:                               # %then.18.i.i
	xorl	%r14d, %r14d
	cmpq	$0, 104(%rsp)                   # 8-byte Folded Reload
	setne	%r14b
	addq	%rbp, %rsi
	shll	$4, %r14d
	addq	%rbx, %r14
	movabsq	$137438953456, %r15             # imm = 0x1FFFFFFFF0
	andq	%r14, %r15
	vxorps	%xmm0, %xmm0, %xmm0
	cmpq	$64, %r15
	ja	.Ldeerlapse_0_1_0_v3_BB30_39
# %bb.36:                               # %then.1.i37.i.i
	vmovups	%ymm0, 368(%rsp)
	vmovups	%ymm0, 336(%rsp)
	leaq	336(%rsp), %rdi
	movq	%r15, %r13
	movq	%rsi, %r15
	movq	%rbx, %rdx
	vzeroupper
	callq	memcpy@PLT
	testq	%r13, %r13
	je	.Ldeerlapse_0_1_0_v3_BB30_38
# %bb.37:                               # %join.8.i.i.lr.ph.i.i
	shrq	$4, %r14
	leaq	336(%rsp), %rdx
	leaq	64(%rsp), %r8
	movq	112(%rsp), %rdi                 # 8-byte Reload
	movq	(%rsp), %rsi                    # 8-byte Reload
	xorl	%ecx, %ecx
	movq	%r14, %r9
	callq	"deerlapse_0_1_0_v3::aead_ciphers_wide::aes::ctr32::encrypt_few"
	addq	%r14, 16(%rsp)
.Ldeerlapse_0_1_0_v3_BB30_38:                              # %"aead_ciphers::aes_gcm::counter_mode::encrypt_padded::<#6fa349fe97f872a2>.exit.i.i"
	leaq	336(%rsp), %rsi
	movq	%r15, %rdi
	movq	%rbx, %rdx
	callq	memcpy@PLT
	jmp	.Ldeerlapse_0_1_0_v3_BB30_47
.Ldeerlapse_0_1_0_v3_BB30_9:                               # %else.2.i113.i.i
	vmovups	%ymm0, 560(%rsp)
	vmovups	%ymm0, 528(%rsp)
	vmovups	%ymm0, 496(%rsp)
	vmovups	%ymm0, 464(%rsp)
	vmovups	%ymm0, 432(%rsp)
	vmovups	%ymm0, 400(%rsp)
	vmovups	%ymm0, 368(%rsp)
	vmovups	%ymm0, 336(%rsp)
	leaq	352(%rsp), %rdi
	movq	%r15, %rsi
	movq	%rbx, 96(%rsp)                  # 8-byte Spill
	movq	%rbx, %rdx
	movq	%rax, 56(%rsp)                  # 8-byte Spill
	vzeroupper
	callq	memcpy@PLT
	movw	$0, 220(%rsp)
	movb	$0, 222(%rsp)
	movl	8(%rbp), %eax
	movl	%eax, 216(%rsp)
	movq	(%rbp), %rax
	movq	%rax, 208(%rsp)
	movq	215(%rsp), %rcx
	movq	%rcx, 39(%rsp)
	movq	56(%rsp), %rcx                  # 8-byte Reload
	movq	%rax, 32(%rsp)
	movb	$1, 47(%rsp)
	xorl	%ebx, %ebx
	cmpl	$256, 84(%rsp)                  # 4-byte Folded Reload
                                        # imm = 0x100
	sete	%bl
	shll	$7, %ebx
	subq	$-128, %rbx
	movbel	44(%rsp), %r15d
	xorl	%r12d, %r12d
	movq	16(%rsp), %r13
	jmp	.Ldeerlapse_0_1_0_v3_BB30_10
	.p2align	4
.Ldeerlapse_0_1_0_v3_BB30_11:                              # %then.1.i.i43.i.i.i
                                        #   in Loop: Header=BB30_10 Depth=1
	movq	8(%rsp), %rax                   # 8-byte Reload
	leaq	1928(%rax), %rdi
	movq	(%rsp), %rsi                    # 8-byte Reload
	xorl	%ecx, %ecx
	movq	%rbp, %r9
	callq	"deerlapse_0_1_0_v3::aead_ciphers_wide::aes::ctr32::encrypt_few"
.Ldeerlapse_0_1_0_v3_BB30_15:                              # %"aead_ciphers_wide::aes::ctr32::encrypt_batch.exit.i40.i.i.i"
                                        #   in Loop: Header=BB30_10 Depth=1
	addl	%ebp, %r15d
	movbel	%r15d, 44(%rsp)
	addq	%r14, %r12
	addq	%rbp, %r13
	movq	56(%rsp), %rcx                  # 8-byte Reload
	cmpq	%rcx, %r12
	jae	.Ldeerlapse_0_1_0_v3_BB30_16
.Ldeerlapse_0_1_0_v3_BB30_10:                              # %join.8.i.i27.i.i.i
                                        # =>This Inner Loop Header: Depth=1
	movq	%rcx, %rax
	subq	%r12, %rax
	cmpq	%rbx, %rax
	movq	%rbx, %r14
	cmovbq	%rax, %r14
	leaq	(%rsp,%r12), %rdx
	addq	$336, %rdx                      # imm = 0x150
	movl	%r14d, %ebp
	shrl	$4, %ebp
	leaq	32(%rsp), %r8
	cmpq	$79, %rax
	jbe	.Ldeerlapse_0_1_0_v3_BB30_11
# %bb.12:                               # %else.2.i.i37.i.i.i
                                        #   in Loop: Header=BB30_10 Depth=1
	cmpl	$143, %r14d
	ja	.Ldeerlapse_0_1_0_v3_BB30_14
# %bb.13:                               # %then.4.i.i42.i.i.i
                                        #   in Loop: Header=BB30_10 Depth=1
	movq	8(%rsp), %rdi                   # 8-byte Reload
	movq	(%rsp), %rsi                    # 8-byte Reload
	xorl	%ecx, %ecx
	movq	%rbp, %r9
	callq	"deerlapse_0_1_0_v3::aead_ciphers_wide::aes::ctr32::encrypt_up_to_eight"
	jmp	.Ldeerlapse_0_1_0_v3_BB30_15
	.p2align	4
.Ldeerlapse_0_1_0_v3_BB30_14:                              # %else.5.i.i39.i.i.i
                                        #   in Loop: Header=BB30_10 Depth=1
	movq	8(%rsp), %rdi                   # 8-byte Reload
	movq	(%rsp), %rsi                    # 8-byte Reload
	xorl	%ecx, %ecx
	movq	%rbp, %r9
	callq	"deerlapse_0_1_0_v3::aead_ciphers_wide::aes::ctr32::encrypt_up_to_sixteen"
	jmp	.Ldeerlapse_0_1_0_v3_BB30_15
.Ldeerlapse_0_1_0_v3_BB30_16:                              # %"aead_ciphers::aes_gcm::sealing::encrypt_after_zeros::<#6fa349fe97f872a2>.exit48.i.i.i"
	movq	%r13, 16(%rsp)
	movq	88(%rsp), %r15                  # 8-byte Reload
	movq	%r15, %rdi
	leaq	352(%rsp), %rsi
	movq	96(%rsp), %rbx                  # 8-byte Reload
	movq	%rbx, %rdx
	callq	memcpy@PLT
	vmovaps	336(%rsp), %xmm0
	vmovaps	%xmm0, 304(%rsp)
	movq	736(%rsp), %r12
.Ldeerlapse_0_1_0_v3_BB30_17:                              # %"aead_ciphers::aes_gcm::sealing::encrypt_short::<#6fa349fe97f872a2>.exit.i.i"
	vmovaps	304(%rsp), %xmm0
	vmovaps	%xmm0, 608(%rsp)
	movq	144(%rsp), %r14
	andl	$240, %ebx
	leaq	128(%rsp), %rsi
	leaq	16(%rsp), %r8
	movq	%r14, %rdi
	movq	%r15, %rdx
	movq	%rbx, %rcx
	callq	"deerlapse_0_1_0_v3::aead_ciphers_wide::gcm::KeyRefUpdateBlocks::update_blocks"
	movq	120(%rsp), %r13                 # 8-byte Reload
	testq	%r13, %r13
	je	.Ldeerlapse_0_1_0_v3_BB30_19
# %bb.18:                               # %then.1.i.i121.i.i
	addq	%rbx, %r15
	movl	$16, %edx
	subq	%r13, %rdx
	leaq	(%rsp,%r13), %rdi
	addq	$648, %rdi                      # imm = 0x288
	xorl	%esi, %esi
	callq	memset@PLT
	leaq	648(%rsp), %rbx
	movq	%rbx, %rdi
	movq	%r15, %rsi
	movq	%r13, %rdx
	callq	memcpy@PLT
	movq	(%r14), %rdi
	leaq	128(%rsp), %rsi
	leaq	16(%rsp), %rcx
	movq	%rbx, %rdx
	callq	"deerlapse_0_1_0_v3::aead_ciphers_wide::gcm::KeyRefUpdateBlock::update_block"
.Ldeerlapse_0_1_0_v3_BB30_19:                              # %"aead_ciphers::gcm::context::Context::absorb::<#3f2567b24793e466>.exit.i.i"
	leaq	288(%rsp), %rdi
	leaq	128(%rsp), %rsi
	leaq	608(%rsp), %rdx
	leaq	16(%rsp), %rcx
	callq	"deerlapse_0_1_0_v3::aead_ciphers::aes_gcm::hash::finish::<#0f83097016d41fe1>"
	vmovaps	288(%rsp), %xmm0
	jmp	.Ldeerlapse_0_1_0_v3_BB30_50
.Ldeerlapse_0_1_0_v3_BB30_39:                              # %else.2.i36.i.i
	vmovups	%ymm0, 560(%rsp)
	vmovups	%ymm0, 528(%rsp)
	vmovups	%ymm0, 496(%rsp)
	vmovups	%ymm0, 464(%rsp)
	vmovups	%ymm0, 432(%rsp)
	vmovups	%ymm0, 400(%rsp)
	vmovups	%ymm0, 368(%rsp)
	vmovups	%ymm0, 336(%rsp)
	vmovups	64(%rsp), %xmm0
	vmovaps	%xmm0, 32(%rsp)
	leaq	336(%rsp), %rdi
	movq	%rsi, 88(%rsp)                  # 8-byte Spill
	movq	%rbx, 96(%rsp)                  # 8-byte Spill
	movq	%rbx, %rdx
	vzeroupper
	callq	memcpy@PLT
	xorl	%eax, %eax
	cmpl	$256, 84(%rsp)                  # 4-byte Folded Reload
                                        # imm = 0x100
	sete	%al
	shll	$7, %eax
	subq	$-128, %rax
	movq	%rax, 56(%rsp)                  # 8-byte Spill
	movbel	44(%rsp), %ebp
	xorl	%r12d, %r12d
	movq	16(%rsp), %r13
	jmp	.Ldeerlapse_0_1_0_v3_BB30_40
	.p2align	4
.Ldeerlapse_0_1_0_v3_BB30_41:                              # %then.1.i.i75.i.i
                                        #   in Loop: Header=BB30_40 Depth=1
	movq	8(%rsp), %rax                   # 8-byte Reload
	leaq	1928(%rax), %rdi
	movq	(%rsp), %rsi                    # 8-byte Reload
	xorl	%ecx, %ecx
	movq	%r14, %r9
	callq	"deerlapse_0_1_0_v3::aead_ciphers_wide::aes::ctr32::encrypt_few"
.Ldeerlapse_0_1_0_v3_BB30_45:                              # %"aead_ciphers_wide::aes::ctr32::encrypt_batch.exit.i72.i.i"
                                        #   in Loop: Header=BB30_40 Depth=1
	addl	%r14d, %ebp
	movbel	%ebp, 44(%rsp)
	addq	%r15, %r12
	addq	%r14, %r13
	movq	%rbx, %r15
	cmpq	%rbx, %r12
	jae	.Ldeerlapse_0_1_0_v3_BB30_46
.Ldeerlapse_0_1_0_v3_BB30_40:                              # %join.8.i.i59.i.i
                                        # =>This Inner Loop Header: Depth=1
	movq	%r15, %rbx
	movq	%r15, %rax
	subq	%r12, %rax
	movq	56(%rsp), %r15                  # 8-byte Reload
	cmpq	%r15, %rax
	cmovbq	%rax, %r15
	leaq	(%rsp,%r12), %rdx
	addq	$336, %rdx                      # imm = 0x150
	movl	%r15d, %r14d
	shrl	$4, %r14d
	leaq	32(%rsp), %r8
	cmpq	$79, %rax
	jbe	.Ldeerlapse_0_1_0_v3_BB30_41
# %bb.42:                               # %else.2.i.i69.i.i
                                        #   in Loop: Header=BB30_40 Depth=1
	cmpq	$143, %r15
	ja	.Ldeerlapse_0_1_0_v3_BB30_44
# %bb.43:                               # %then.4.i.i74.i.i
                                        #   in Loop: Header=BB30_40 Depth=1
	movq	8(%rsp), %rdi                   # 8-byte Reload
	movq	(%rsp), %rsi                    # 8-byte Reload
	xorl	%ecx, %ecx
	movq	%r14, %r9
	callq	"deerlapse_0_1_0_v3::aead_ciphers_wide::aes::ctr32::encrypt_up_to_eight"
	jmp	.Ldeerlapse_0_1_0_v3_BB30_45
	.p2align	4
.Ldeerlapse_0_1_0_v3_BB30_44:                              # %else.5.i.i71.i.i
                                        #   in Loop: Header=BB30_40 Depth=1
	movq	8(%rsp), %rdi                   # 8-byte Reload
	movq	(%rsp), %rsi                    # 8-byte Reload
	xorl	%ecx, %ecx
	movq	%r14, %r9
	callq	"deerlapse_0_1_0_v3::aead_ciphers_wide::aes::ctr32::encrypt_up_to_sixteen"
	jmp	.Ldeerlapse_0_1_0_v3_BB30_45
.Ldeerlapse_0_1_0_v3_BB30_46:                              # %"aead_ciphers::aes_gcm::counter_mode::encrypt_padded::<#6fa349fe97f872a2>.exit80.i.i"
	movq	%r13, 16(%rsp)
	leaq	336(%rsp), %rsi
	movq	88(%rsp), %r15                  # 8-byte Reload
	movq	%r15, %rdi
	movq	96(%rsp), %rbx                  # 8-byte Reload
	movq	%rbx, %rdx
	callq	memcpy@PLT
	movq	736(%rsp), %r12
.Ldeerlapse_0_1_0_v3_BB30_47:                              # %"aead_ciphers::aes_gcm::counter_mode::encrypt_rest::<#6fa349fe97f872a2>.exit.i.i"
	movabsq	$68719476480, %rax              # imm = 0xFFFFFFF00
	movq	144(%rsp), %r14
	addq	$240, %rax
	andq	%rax, %rbx
	leaq	128(%rsp), %rsi
	leaq	16(%rsp), %r8
	movq	%r14, %rdi
	movq	%r15, %r13
	movq	%r15, %rdx
	movq	%rbx, %rcx
	callq	"deerlapse_0_1_0_v3::aead_ciphers_wide::gcm::KeyRefUpdateBlocks::update_blocks"
	cmpq	$0, 104(%rsp)                   # 8-byte Folded Reload
	je	.Ldeerlapse_0_1_0_v3_BB30_49
# %bb.48:                               # %then.1.i.i214.i.i
	movq	%r13, %r15
	addq	%rbx, %r15
	movl	$16, %edx
	movq	104(%rsp), %r13                 # 8-byte Reload
	subq	%r13, %rdx
	leaq	(%rsp,%r13), %rdi
	addq	$664, %rdi                      # imm = 0x298
	xorl	%esi, %esi
	callq	memset@PLT
	leaq	664(%rsp), %rbx
	movq	%rbx, %rdi
	movq	%r15, %rsi
	movq	%r13, %rdx
	callq	memcpy@PLT
	movq	(%r14), %rdi
	leaq	128(%rsp), %rsi
	leaq	16(%rsp), %rcx
	movq	%rbx, %rdx
	callq	"deerlapse_0_1_0_v3::aead_ciphers_wide::gcm::KeyRefUpdateBlock::update_block"
.Ldeerlapse_0_1_0_v3_BB30_49:                              # %join.20.i.i
	vxorps	%xmm0, %xmm0, %xmm0
	vmovaps	%xmm0, 624(%rsp)
	incq	16(%rsp)
	leaq	624(%rsp), %rbx
	leaq	176(%rsp), %rcx
	movq	%rbx, %rdi
	movq	112(%rsp), %rsi                 # 8-byte Reload
	movq	(%rsp), %rdx                    # 8-byte Reload
	callq	"deerlapse_0_1_0_v3::aead_ciphers_wide::aes::block_key::BlockKeyRef::encrypt_one"
	leaq	272(%rsp), %rdi
	leaq	128(%rsp), %rsi
	leaq	16(%rsp), %rcx
	movq	%rbx, %rdx
	callq	"deerlapse_0_1_0_v3::aead_ciphers::aes_gcm::hash::finish::<#0f83097016d41fe1>"
	vmovaps	272(%rsp), %xmm0
.Ldeerlapse_0_1_0_v3_BB30_50:                              # %arm.4
	vmovaps	%xmm0, 256(%rsp)
	vmovaps	256(%rsp), %xmm0
	vmovaps	%xmm0, 592(%rsp)
	vmovups	%xmm0, (%r12)
	movb	$1, %al
.Ldeerlapse_0_1_0_v3_BB30_2:                               # %common.ret
                                        # kill: def $al killed $al killed $eax
	addq	$680, %rsp                      # imm = 0x2A8
	.cfi_def_cfa_offset 56
	popq	%rbx
	.cfi_def_cfa_offset 48
	popq	%r12
	.cfi_def_cfa_offset 40
	popq	%r13
	.cfi_def_cfa_offset 32
	popq	%r14
	.cfi_def_cfa_offset 24
	popq	%r15
	.cfi_def_cfa_offset 16
	popq	%rbp
	.cfi_def_cfa_offset 8
	retq
.Ldeerlapse_0_1_0_v3_func_end30:
	.size	"deerlapse_0_1_0_v3::deerlapse::key::deerlapse_key_seal", .Ldeerlapse_0_1_0_v3_func_end30-"deerlapse_0_1_0_v3::deerlapse::key::deerlapse_key_seal"
	.cfi_endproc
                                        # -- End function
	.section	.text.deerlapse_aes_gcm,"ax",@progbits
	.p2align	4                               # -- Begin function deerlapse::opener::deerlapse_0_1_0_v3_opener_open_number
	.type	"deerlapse_0_1_0_v3::deerlapse::opener::deerlapse_opener_open_number",@function
"deerlapse_0_1_0_v3::deerlapse::opener::deerlapse_opener_open_number": # @"deerlapse_0_1_0_v3::deerlapse::opener::deerlapse_opener_open_number"
	.cfi_startproc
# %bb.0:                                # %start
	pushq	%r15
	.cfi_def_cfa_offset 16
	pushq	%r14
	.cfi_def_cfa_offset 24
	pushq	%r12
	.cfi_def_cfa_offset 32
	pushq	%rbx
	.cfi_def_cfa_offset 40
	subq	$168, %rsp
	.cfi_def_cfa_offset 208
	.cfi_offset %rbx, -40
	.cfi_offset %r12, -32
	.cfi_offset %r14, -24
	.cfi_offset %r15, -16
	bswapq	%rsi
	movl	%esi, %eax
	shrl	$24, %eax
	movl	%esi, %r10d
	shrl	$16, %r10d
	vmovd	3212(%rdi), %xmm0               # xmm0 = mem[0],zero,zero,zero
	vmovd	%esi, %xmm1
	movl	%esi, %r11d
	shrl	$8, %r11d
	vpinsrb	$1, %r11d, %xmm1, %xmm1
	vpinsrb	$2, %r10d, %xmm1, %xmm1
	vpinsrb	$3, %eax, %xmm1, %xmm1
	vpxor	%xmm1, %xmm0, %xmm0
	vmovd	3208(%rdi), %xmm1               # xmm1 = mem[0],zero,zero,zero
	vpunpckldq	%xmm0, %xmm1, %xmm0     # xmm0 = xmm1[0],xmm0[0],xmm1[1],xmm0[1]
	movq	%rsi, %rax
	shrq	$56, %rax
	movq	%rsi, %r10
	shrq	$48, %r10
	movq	%rsi, %r11
	shrq	$40, %r11
	shrq	$32, %rsi
	vmovd	%esi, %xmm1
	vpinsrb	$1, %r11d, %xmm1, %xmm1
	vpinsrb	$2, %r10d, %xmm1, %xmm1
	vmovd	3216(%rdi), %xmm2               # xmm2 = mem[0],zero,zero,zero
	vpinsrb	$3, %eax, %xmm1, %xmm1
	vpxor	%xmm1, %xmm2, %xmm1
	vmovq	%xmm0, 32(%rsp)
	vmovd	%xmm1, 40(%rsp)
	movl	1920(%rdi), %esi
	leal	-10(%rsi), %eax
	cmpl	$4, %eax
	ja	.Ldeerlapse_0_1_0_v3_BB31_6
# %bb.1:                                # %join.3.i
	cmpq	$16, %r9
	jb	.Ldeerlapse_0_1_0_v3_BB31_6
# %bb.2:                                # %arm.1.i.i
	movq	208(%rsp), %rbx
	leaq	-16(%r9), %r14
	movq	%r14, %rax
	subq	%rbx, %rax
	jb	.Ldeerlapse_0_1_0_v3_BB31_6
# %bb.3:                                # %arm.8.i.i
	movq	%rcx, %r10
	shrq	$61, %r10
	setne	%r10b
	movabsq	$68719476704, %r11              # imm = 0xFFFFFFFE0
	cmpq	%r11, %rax
	seta	%r11b
	orb	%r10b, %r11b
	jne	.Ldeerlapse_0_1_0_v3_BB31_6
# %bb.4:                                # %then.11.i.i
	addq	%r8, %r9
	addq	$-16, %r9
	leaq	1928(%rdi), %r10
	movl	1924(%rdi), %r11d
	movq	%rdi, 48(%rsp)
	movq	%r10, 56(%rsp)
	movq	%rsi, 64(%rsp)
	movl	%r11d, 72(%rsp)
	movl	$0, 76(%rsp)
	leaq	2168(%rdi), %rsi
	addq	$2680, %rdi                     # imm = 0xA78
	movq	%rsi, 104(%rsp)
	movq	%rdi, 112(%rsp)
	vpxor	%xmm0, %xmm0, %xmm0
	vmovdqa	%xmm0, 80(%rsp)
	vmovdqu	(%r9), %xmm0
	vmovdqa	%xmm0, 144(%rsp)
	movq	%r8, %r15
	leaq	(%r8,%rbx), %rsi
	leaq	80(%rsp), %rdi
	movq	%rdi, 24(%rsp)
	movq	%rax, 16(%rsp)
	movq	%rsi, 8(%rsp)
	leaq	144(%rsp), %rax
	movq	%rax, (%rsp)
	leaq	127(%rsp), %rdi
	leaq	48(%rsp), %rsi
	leaq	104(%rsp), %rax
	leaq	32(%rsp), %r10
	movq	%rdx, %r8
	movq	%rax, %rdx
	movq	%rcx, %r9
	movq	%r10, %rcx
	callq	"deerlapse_0_1_0_v3::aead_ciphers::aes_gcm::opening::authenticate::<#7bfdf0a6b4753edd>"
	cmpb	$0, 127(%rsp)
	je	.Ldeerlapse_0_1_0_v3_BB31_8
.Ldeerlapse_0_1_0_v3_BB31_6:
	xorl	%eax, %eax
.Ldeerlapse_0_1_0_v3_BB31_7:                               # %"deerlapse::key::deerlapse_key_open.exit"
                                        # kill: def $al killed $al killed $eax
	addq	$168, %rsp
	.cfi_def_cfa_offset 40
	popq	%rbx
	.cfi_def_cfa_offset 32
	popq	%r12
	.cfi_def_cfa_offset 24
	popq	%r14
	.cfi_def_cfa_offset 16
	popq	%r15
	.cfi_def_cfa_offset 8
	retq
.Ldeerlapse_0_1_0_v3_BB31_8:                               # %arm.4.i
	.cfi_def_cfa_offset 208
	movq	216(%rsp), %r12
	leaq	128(%rsp), %rsi
	leaq	48(%rsp), %rdi
	leaq	80(%rsp), %r9
	movq	%r15, %rdx
	movq	%r14, %rcx
	movq	%rbx, %r8
	callq	"deerlapse_0_1_0_v3::aead_ciphers::aes_gcm::counter_mode::encrypt_within::<#6fa349fe97f872a2>"
	movq	%rax, (%r12)
	movb	$1, %al
	jmp	.Ldeerlapse_0_1_0_v3_BB31_7
.Ldeerlapse_0_1_0_v3_func_end31:
	.size	"deerlapse_0_1_0_v3::deerlapse::opener::deerlapse_opener_open_number", .Ldeerlapse_0_1_0_v3_func_end31-"deerlapse_0_1_0_v3::deerlapse::opener::deerlapse_opener_open_number"
	.cfi_endproc
                                        # -- End function
	.section	.rodata.cst16,"aM",@progbits,16
	.p2align	4, 0x0                          # -- Begin function deerlapse::xaes_key::expand_message_key
.Ldeerlapse_0_1_0_v3_CPI32_0:
	.byte	0                               # 0x0
	.byte	1                               # 0x1
	.byte	88                              # 0x58
	.byte	0                               # 0x0
	.zero	1
	.zero	1
	.zero	1
	.zero	1
	.zero	1
	.zero	1
	.zero	1
	.zero	1
	.zero	1
	.zero	1
	.zero	1
	.zero	1
.Ldeerlapse_0_1_0_v3_CPI32_1:
	.byte	2                               # 0x2
	.byte	128                             # 0x80
	.byte	4                               # 0x4
	.byte	5                               # 0x5
	.byte	6                               # 0x6
	.byte	7                               # 0x7
	.byte	8                               # 0x8
	.byte	9                               # 0x9
	.zero	1
	.zero	1
	.zero	1
	.zero	1
	.zero	1
	.zero	1
	.zero	1
	.zero	1
.Ldeerlapse_0_1_0_v3_CPI32_2:
	.byte	128                             # 0x80
	.byte	3                               # 0x3
	.byte	128                             # 0x80
	.byte	128                             # 0x80
	.byte	128                             # 0x80
	.byte	128                             # 0x80
	.byte	128                             # 0x80
	.byte	128                             # 0x80
	.zero	1
	.zero	1
	.zero	1
	.zero	1
	.zero	1
	.zero	1
	.zero	1
	.zero	1
.Ldeerlapse_0_1_0_v3_CPI32_3:
	.byte	0                               # 0x0
	.byte	1                               # 0x1
	.byte	88                              # 0x58
	.byte	0                               # 0x0
	.byte	0                               # 0x0
	.byte	0                               # 0x0
	.byte	0                               # 0x0
	.byte	0                               # 0x0
	.byte	0                               # 0x0
	.byte	0                               # 0x0
	.byte	0                               # 0x0
	.byte	0                               # 0x0
	.byte	0                               # 0x0
	.byte	0                               # 0x0
	.byte	0                               # 0x0
	.byte	0                               # 0x0
	.section	.text.deerlapse_aes_gcm,"ax",@progbits
	.p2align	4
	.type	"deerlapse_0_1_0_v3::deerlapse::xaes_key::expand_message_key",@function
"deerlapse_0_1_0_v3::deerlapse::xaes_key::expand_message_key": # @"deerlapse_0_1_0_v3::deerlapse::xaes_key::expand_message_key"
	.cfi_startproc
# %bb.0:                                # %start
	pushq	%rbp
	.cfi_def_cfa_offset 16
	pushq	%r15
	.cfi_def_cfa_offset 24
	pushq	%r14
	.cfi_def_cfa_offset 32
	pushq	%r12
	.cfi_def_cfa_offset 40
	pushq	%rbx
	.cfi_def_cfa_offset 48
	subq	$128, %rsp
	.cfi_def_cfa_offset 176
	.cfi_offset %rbx, -48
	.cfi_offset %r12, -40
	.cfi_offset %r14, -32
	.cfi_offset %r15, -24
	.cfi_offset %rbp, -16
	movq	%rdi, %rbx
	cmpl	$14, (%rsi)
	jne	.Ldeerlapse_0_1_0_v3_BB32_1
# %bb.3:                                # %join.3
	movq	%rcx, %r14
	movq	12(%rdx), %rax
	movq	%rax, 16(%rsp)
	movl	20(%rdx), %eax
	movl	%eax, 24(%rsp)
	vmovss	(%rdx), %xmm0                   # xmm0 = mem[0],zero,zero,zero
	vmovsd	4(%rdx), %xmm1                  # xmm1 = mem[0],zero
	vmovups	248(%rsi), %xmm3
	vmovaps	%xmm3, 96(%rsp)                 # 16-byte Spill
	movzbl	248(%rsi), %ebp
	vmovss	.Ldeerlapse_0_1_0_v3_CPI32_3(%rip), %xmm2          # xmm2 = [0,1,88,0,0,0,0,0,0,0,0,0,0,0,0,0]
	vunpcklps	%xmm0, %xmm2, %xmm0     # xmm0 = xmm2[0],xmm0[0],xmm2[1],xmm0[1]
	vmovlhps	%xmm1, %xmm0, %xmm0             # xmm0 = xmm0[0],xmm1[0]
	vxorps	%xmm0, %xmm3, %xmm0
	vmovaps	%xmm0, 112(%rsp)                # 16-byte Spill
	vmovaps	%xmm0, 64(%rsp)
	leaq	8(%rsi), %r15
	vxorps	%xmm0, %xmm0, %xmm0
	vmovaps	%xmm0, 48(%rsp)
	leaq	48(%rsp), %rdi
	leaq	64(%rsp), %rcx
	movl	$14, %edx
	movq	%rsi, %r12
	movq	%r15, %rsi
	callq	"deerlapse_0_1_0_v3::aead_ciphers_wide::aes::block_key::BlockKeyRef::encrypt_one"
	vmovdqa	96(%rsp), %xmm1                 # 16-byte Reload
	vpextrb	$1, %xmm1, %eax
	xorb	$2, %al
	movb	%bpl, (%rsp)
	vmovdqa	112(%rsp), %xmm2                # 16-byte Reload
	vpshufb	.Ldeerlapse_0_1_0_v3_CPI32_1(%rip), %xmm2, %xmm0   # xmm0 = xmm2[2],zero,xmm2[4,5,6,7,8,9,u,u,u,u,u,u,u,u]
	vpshufb	.Ldeerlapse_0_1_0_v3_CPI32_2(%rip), %xmm1, %xmm1   # xmm1 = zero,xmm1[3],zero,zero,zero,zero,zero,zero,xmm1[u,u,u,u,u,u,u,u]
	movb	%al, 1(%rsp)
	vpor	%xmm1, %xmm0, %xmm0
	vmovq	%xmm0, 2(%rsp)
	vpsrldq	$10, %xmm2, %xmm0               # xmm0 = xmm2[10,11,12,13,14,15],zero,zero,zero,zero,zero,zero,zero,zero,zero,zero
	vmovd	%xmm0, 10(%rsp)
	vpextrb	$14, %xmm2, 14(%rsp)
	vmovaps	48(%rsp), %xmm0
	vpextrb	$15, %xmm2, 15(%rsp)
	vmovaps	%xmm0, 64(%rsp)
	vxorps	%xmm0, %xmm0, %xmm0
	vmovaps	%xmm0, 32(%rsp)
	leaq	32(%rsp), %rdi
	movq	%rsp, %rcx
	movl	$14, %edx
	movq	%r15, %rsi
	callq	"deerlapse_0_1_0_v3::aead_ciphers_wide::aes::block_key::BlockKeyRef::encrypt_one"
	vmovaps	32(%rsp), %xmm0
	vmovaps	%xmm0, 48(%rsp)
	vmovaps	%xmm0, 80(%rsp)
	xorl	%ecx, %ecx
	cmpl	$256, 4(%r12)                   # imm = 0x100
	sete	%cl
	vxorps	%xmm0, %xmm0, %xmm0
	vmovaps	%xmm0, 32(%rsp)
	leaq	64(%rsp), %rdx
	leaq	32(%rsp), %r8
	movq	%r14, %rdi
	movl	$1, %esi
	callq	"deerlapse_0_1_0_v3::aead_ciphers_wide::aes_gcm::ExpandedKey::expand_with_width"
	movl	24(%rsp), %eax
	movl	%eax, 9(%rbx)
	movq	16(%rsp), %rax
	movq	%rax, 1(%rbx)
	movb	$1, %al
	jmp	.Ldeerlapse_0_1_0_v3_BB32_2
.Ldeerlapse_0_1_0_v3_BB32_1:                               # %then.1
	movl	$0, 9(%rbx)
	movq	$0, 1(%rbx)
	xorl	%eax, %eax
.Ldeerlapse_0_1_0_v3_BB32_2:                               # %common.ret
	movb	%al, (%rbx)
	addq	$128, %rsp
	.cfi_def_cfa_offset 48
	popq	%rbx
	.cfi_def_cfa_offset 40
	popq	%r12
	.cfi_def_cfa_offset 32
	popq	%r14
	.cfi_def_cfa_offset 24
	popq	%r15
	.cfi_def_cfa_offset 16
	popq	%rbp
	.cfi_def_cfa_offset 8
	retq
.Ldeerlapse_0_1_0_v3_func_end32:
	.size	"deerlapse_0_1_0_v3::deerlapse::xaes_key::expand_message_key", .Ldeerlapse_0_1_0_v3_func_end32-"deerlapse_0_1_0_v3::deerlapse::xaes_key::expand_message_key"
	.cfi_endproc
                                        # -- End function
	.section	.rodata.cst16,"aM",@progbits,16
	.p2align	4, 0x0                          # -- Begin function aead_ciphers_wide::aes_gcm::ExpandedKey::expand_with_width
.Ldeerlapse_0_1_0_v3_CPI33_0:
	.zero	16,15
.Ldeerlapse_0_1_0_v3_CPI33_1:
	.byte	0                               # 0x0
	.byte	255                             # 0xff
	.byte	0                               # 0x0
	.byte	255                             # 0xff
	.byte	0                               # 0x0
	.byte	255                             # 0xff
	.byte	0                               # 0x0
	.byte	255                             # 0xff
	.byte	0                               # 0x0
	.byte	255                             # 0xff
	.byte	0                               # 0x0
	.byte	255                             # 0xff
	.byte	0                               # 0x0
	.byte	255                             # 0xff
	.byte	0                               # 0x0
	.byte	255                             # 0xff
.Ldeerlapse_0_1_0_v3_CPI33_2:
	.byte	0                               # 0x0
	.byte	0                               # 0x0
	.byte	255                             # 0xff
	.byte	255                             # 0xff
	.byte	0                               # 0x0
	.byte	0                               # 0x0
	.byte	255                             # 0xff
	.byte	255                             # 0xff
	.byte	0                               # 0x0
	.byte	0                               # 0x0
	.byte	255                             # 0xff
	.byte	255                             # 0xff
	.byte	0                               # 0x0
	.byte	0                               # 0x0
	.byte	255                             # 0xff
	.byte	255                             # 0xff
.Ldeerlapse_0_1_0_v3_CPI33_3:
	.byte	0                               # 0x0
	.byte	0                               # 0x0
	.byte	0                               # 0x0
	.byte	0                               # 0x0
	.byte	255                             # 0xff
	.byte	255                             # 0xff
	.byte	255                             # 0xff
	.byte	255                             # 0xff
	.byte	0                               # 0x0
	.byte	0                               # 0x0
	.byte	0                               # 0x0
	.byte	0                               # 0x0
	.byte	255                             # 0xff
	.byte	255                             # 0xff
	.byte	255                             # 0xff
	.byte	255                             # 0xff
.Ldeerlapse_0_1_0_v3_CPI33_4:
	.byte	0                               # 0x0
	.byte	0                               # 0x0
	.byte	0                               # 0x0
	.byte	0                               # 0x0
	.byte	0                               # 0x0
	.byte	0                               # 0x0
	.byte	0                               # 0x0
	.byte	0                               # 0x0
	.byte	255                             # 0xff
	.byte	255                             # 0xff
	.byte	255                             # 0xff
	.byte	255                             # 0xff
	.byte	255                             # 0xff
	.byte	255                             # 0xff
	.byte	255                             # 0xff
	.byte	255                             # 0xff
.Ldeerlapse_0_1_0_v3_CPI33_5:
	.zero	16,192
.Ldeerlapse_0_1_0_v3_CPI33_6:
	.zero	16,63
.Ldeerlapse_0_1_0_v3_CPI33_7:
	.zero	16,1
.Ldeerlapse_0_1_0_v3_CPI33_8:
	.zero	16,127
	.section	.rodata.cst4,"aM",@progbits,4
	.p2align	2, 0x0
.Ldeerlapse_0_1_0_v3_CPI33_9:
	.zero	4,15
.Ldeerlapse_0_1_0_v3_CPI33_10:
	.byte	0                               # 0x0
	.byte	255                             # 0xff
	.byte	0                               # 0x0
	.byte	255                             # 0xff
.Ldeerlapse_0_1_0_v3_CPI33_11:
	.byte	0                               # 0x0
	.byte	0                               # 0x0
	.byte	255                             # 0xff
	.byte	255                             # 0xff
	.section	.rodata.cst8,"aM",@progbits,8
	.p2align	3, 0x0
.Ldeerlapse_0_1_0_v3_CPI33_12:
	.byte	0                               # 0x0
	.byte	0                               # 0x0
	.byte	0                               # 0x0
	.byte	0                               # 0x0
	.byte	255                             # 0xff
	.byte	255                             # 0xff
	.byte	255                             # 0xff
	.byte	255                             # 0xff
	.section	.text.deerlapse_aes_gcm,"ax",@progbits
	.p2align	4
	.type	"deerlapse_0_1_0_v3::aead_ciphers_wide::aes_gcm::ExpandedKey::expand_with_width",@function
"deerlapse_0_1_0_v3::aead_ciphers_wide::aes_gcm::ExpandedKey::expand_with_width": # @"deerlapse_0_1_0_v3::aead_ciphers_wide::aes_gcm::ExpandedKey::expand_with_width"
	.cfi_startproc
# %bb.0:                                # %start
	pushq	%rbp
	.cfi_def_cfa_offset 16
	pushq	%r15
	.cfi_def_cfa_offset 24
	pushq	%r14
	.cfi_def_cfa_offset 32
	pushq	%rbx
	.cfi_def_cfa_offset 40
	subq	$56, %rsp
	.cfi_def_cfa_offset 96
	.cfi_offset %rbx, -40
	.cfi_offset %r14, -32
	.cfi_offset %r15, -24
	.cfi_offset %rbp, -16
	movq	%r8, %r14
	movl	%ecx, %ebp
	movq	%rdi, %rbx
	leaq	1928(%rdi), %r15
	movq	%r15, %rdi
	callq	"deerlapse_0_1_0_v3::aead_ciphers_wide::aes::expand"
	vpxor	%xmm0, %xmm0, %xmm0
	vmovdqu	%ymm0, 1408(%rbx)
	vmovdqu	%ymm0, 1440(%rbx)
	vmovdqu	%ymm0, 1472(%rbx)
	vmovdqu	%ymm0, 1504(%rbx)
	vmovdqu	%ymm0, 1536(%rbx)
	vmovdqu	%ymm0, 1568(%rbx)
	vmovdqu	%ymm0, 1600(%rbx)
	vmovdqu	%ymm0, 1632(%rbx)
	vmovdqu	%ymm0, 1664(%rbx)
	vmovdqu	%ymm0, 1696(%rbx)
	vmovdqu	%ymm0, 1728(%rbx)
	vmovdqu	%ymm0, 1760(%rbx)
	vmovdqu	%ymm0, 1792(%rbx)
	vmovdqu	%ymm0, 1824(%rbx)
	vmovdqu	%ymm0, 1856(%rbx)
	vmovdqu	%ymm0, 1888(%rbx)
	leaq	1(%rax), %rdx
	movq	%rdx, %rsi
	shlq	$4, %rsi
	andq	$-32, %rsi
	xorl	%ecx, %ecx
	.p2align	4
.Ldeerlapse_0_1_0_v3_BB33_1:                               # %join.7.i
                                        # =>This Inner Loop Header: Depth=1
	vmovdqu	1928(%rbx,%rcx), %xmm0
	vpbroadcastd	.Ldeerlapse_0_1_0_v3_CPI33_9(%rip), %xmm12 # xmm12 = [15,15,15,15,15,15,15,15,15,15,15,15,15,15,15,15]
	vpand	%xmm0, %xmm12, %xmm4
	vpsrlw	$4, %xmm0, %xmm0
	vpand	%xmm0, %xmm12, %xmm5
	vpbroadcastd	.Ldeerlapse_0_1_0_v3_CPI33_10(%rip), %xmm0 # xmm0 = [0,255,0,255,0,255,0,255,0,255,0,255,0,255,0,255]
	vpshufb	%xmm4, %xmm0, %xmm6
	vpbroadcastd	.Ldeerlapse_0_1_0_v3_CPI33_11(%rip), %xmm1 # xmm1 = [0,0,255,255,0,0,255,255,0,0,255,255,0,0,255,255]
	vpshufb	%xmm4, %xmm1, %xmm7
	vpbroadcastq	.Ldeerlapse_0_1_0_v3_CPI33_12(%rip), %xmm2 # xmm2 = [0,0,0,0,255,255,255,255,0,0,0,0,255,255,255,255]
	vpshufb	%xmm4, %xmm2, %xmm8
	vmovdqa	.Ldeerlapse_0_1_0_v3_CPI33_4(%rip), %xmm3          # xmm3 = [0,0,0,0,0,0,0,0,255,255,255,255,255,255,255,255]
	vpshufb	%xmm4, %xmm3, %xmm4
	vpshufb	%xmm5, %xmm0, %xmm9
	vpshufb	%xmm5, %xmm1, %xmm10
	vpshufb	%xmm5, %xmm2, %xmm11
	vpshufb	%xmm5, %xmm3, %xmm5
	vmovdqu	%xmm7, 16(%rbx,%rcx,8)
	vmovdqu	%xmm6, (%rbx,%rcx,8)
	vmovdqu	%xmm4, 48(%rbx,%rcx,8)
	vmovdqu	%xmm8, 32(%rbx,%rcx,8)
	vmovdqu	%xmm10, 80(%rbx,%rcx,8)
	vmovdqu	%xmm9, 64(%rbx,%rcx,8)
	vmovdqu	%xmm5, 112(%rbx,%rcx,8)
	vmovdqu	%xmm11, 96(%rbx,%rcx,8)
	vmovdqu	1944(%rbx,%rcx), %xmm4
	vpand	%xmm4, %xmm12, %xmm5
	vpsrlw	$4, %xmm4, %xmm4
	vpand	%xmm4, %xmm12, %xmm4
	vpshufb	%xmm5, %xmm0, %xmm6
	vpshufb	%xmm5, %xmm1, %xmm7
	vpshufb	%xmm5, %xmm2, %xmm8
	vpshufb	%xmm5, %xmm3, %xmm5
	vpshufb	%xmm4, %xmm0, %xmm9
	vpshufb	%xmm4, %xmm1, %xmm10
	vpshufb	%xmm4, %xmm2, %xmm11
	vpshufb	%xmm4, %xmm3, %xmm4
	vmovdqu	%xmm6, 128(%rbx,%rcx,8)
	vmovdqu	%xmm7, 144(%rbx,%rcx,8)
	vmovdqu	%xmm8, 160(%rbx,%rcx,8)
	vmovdqu	%xmm5, 176(%rbx,%rcx,8)
	vmovdqu	%xmm9, 192(%rbx,%rcx,8)
	vmovdqu	%xmm10, 208(%rbx,%rcx,8)
	vmovdqu	%xmm4, 240(%rbx,%rcx,8)
	vmovdqu	%xmm11, 224(%rbx,%rcx,8)
	addq	$32, %rcx
	cmpq	%rcx, %rsi
	jne	.Ldeerlapse_0_1_0_v3_BB33_1
# %bb.2:                                # %"aead_ciphers_wide::aes::round_keys::write_planes.exit.unr-lcssa"
	testb	$1, %dl
	je	.Ldeerlapse_0_1_0_v3_BB33_4
# %bb.3:                                # %join.7.i.epil.preheader
	vmovdqu	1928(%rbx,%rcx), %xmm4
	vpand	%xmm4, %xmm12, %xmm5
	vpsrlw	$4, %xmm4, %xmm4
	vpand	%xmm4, %xmm12, %xmm4
	vpshufb	%xmm5, %xmm0, %xmm6
	vpshufb	%xmm5, %xmm1, %xmm7
	vpshufb	%xmm5, %xmm2, %xmm8
	vpshufb	%xmm5, %xmm3, %xmm5
	vpshufb	%xmm4, %xmm0, %xmm0
	vpshufb	%xmm4, %xmm1, %xmm1
	vpshufb	%xmm4, %xmm2, %xmm2
	vpshufb	%xmm4, %xmm3, %xmm3
	vmovdqu	%xmm7, 16(%rbx,%rcx,8)
	vmovdqu	%xmm6, (%rbx,%rcx,8)
	vmovdqu	%xmm5, 48(%rbx,%rcx,8)
	vmovdqu	%xmm8, 32(%rbx,%rcx,8)
	vmovdqu	%xmm1, 80(%rbx,%rcx,8)
	vmovdqu	%xmm0, 64(%rbx,%rcx,8)
	vmovdqu	%xmm3, 112(%rbx,%rcx,8)
	vmovdqu	%xmm2, 96(%rbx,%rcx,8)
.Ldeerlapse_0_1_0_v3_BB33_4:                               # %"aead_ciphers_wide::aes::round_keys::write_planes.exit"
	movl	%eax, 1920(%rbx)
	movzbl	%bpl, %ecx
	shll	$7, %ecx
	subl	$-128, %ecx
	movl	%ecx, 1924(%rbx)
	vpxor	%xmm0, %xmm0, %xmm0
	vmovdqa	%xmm0, 32(%rsp)
	vmovdqa	%xmm0, (%rsp)
	incq	(%r14)
	movq	%rsp, %rdi
	leaq	32(%rsp), %rcx
	movq	%r15, %rsi
	movq	%rax, %rdx
	vzeroupper
	callq	"deerlapse_0_1_0_v3::aead_ciphers_wide::aes::block_key::BlockKeyRef::encrypt_one"
	movbeq	8(%rsp), %rsi
	movbeq	(%rsp), %rdx
	vmovaps	(%rsp), %xmm0
	vmovaps	%xmm0, 16(%rsp)                 # 16-byte Spill
	leaq	2168(%rbx), %rdi
	leaq	2680(%rbx), %r14
	callq	"deerlapse_0_1_0_v3::aead_ciphers_wide::gcm::product::write_products"
	vmovdqa	16(%rsp), %xmm3                 # 16-byte Reload
	vpsrlw	$4, %xmm3, %xmm0
	vpbroadcastd	.Ldeerlapse_0_1_0_v3_CPI33_9(%rip), %xmm2  # xmm2 = [15,15,15,15,15,15,15,15,15,15,15,15,15,15,15,15]
	vpand	%xmm2, %xmm0, %xmm1
	vpand	%xmm2, %xmm3, %xmm0
	vmovdqu	2408(%rbx), %xmm2
	vpshufb	%xmm1, %xmm2, %xmm2
	vmovdqu	2664(%rbx), %xmm3
	vpshufb	%xmm0, %xmm3, %xmm3
	vpxor	%xmm2, %xmm3, %xmm2
	vpslldq	$1, %xmm2, %xmm3                # xmm3 = zero,xmm2[0,1,2,3,4,5,6,7,8,9,10,11,12,13,14]
	vpsrldq	$15, %xmm2, %xmm2               # xmm2 = xmm2[15],zero,zero,zero,zero,zero,zero,zero,zero,zero,zero,zero,zero,zero,zero,zero
	vmovdqu	2392(%rbx), %xmm4
	vpshufb	%xmm1, %xmm4, %xmm4
	vmovdqu	2648(%rbx), %xmm5
	vpshufb	%xmm0, %xmm5, %xmm5
	vpxor	%xmm5, %xmm4, %xmm4
	vpxor	%xmm3, %xmm4, %xmm3
	vpslldq	$1, %xmm3, %xmm4                # xmm4 = zero,xmm3[0,1,2,3,4,5,6,7,8,9,10,11,12,13,14]
	vpalignr	$15, %xmm3, %xmm2, %xmm2        # xmm2 = xmm3[15],xmm2[0,1,2,3,4,5,6,7,8,9,10,11,12,13,14]
	vmovdqu	2376(%rbx), %xmm3
	vpshufb	%xmm1, %xmm3, %xmm3
	vmovdqu	2632(%rbx), %xmm5
	vpshufb	%xmm0, %xmm5, %xmm5
	vpxor	%xmm5, %xmm3, %xmm3
	vpxor	%xmm4, %xmm3, %xmm3
	vpslldq	$1, %xmm3, %xmm4                # xmm4 = zero,xmm3[0,1,2,3,4,5,6,7,8,9,10,11,12,13,14]
	vpalignr	$15, %xmm3, %xmm2, %xmm2        # xmm2 = xmm3[15],xmm2[0,1,2,3,4,5,6,7,8,9,10,11,12,13,14]
	vmovdqu	2360(%rbx), %xmm3
	vpshufb	%xmm1, %xmm3, %xmm3
	vmovdqu	2616(%rbx), %xmm5
	vpshufb	%xmm0, %xmm5, %xmm5
	vpxor	%xmm5, %xmm3, %xmm3
	vpxor	%xmm4, %xmm3, %xmm3
	vpslldq	$1, %xmm3, %xmm4                # xmm4 = zero,xmm3[0,1,2,3,4,5,6,7,8,9,10,11,12,13,14]
	vpalignr	$15, %xmm3, %xmm2, %xmm2        # xmm2 = xmm3[15],xmm2[0,1,2,3,4,5,6,7,8,9,10,11,12,13,14]
	vmovdqu	2344(%rbx), %xmm3
	vpshufb	%xmm1, %xmm3, %xmm3
	vmovdqu	2600(%rbx), %xmm5
	vpshufb	%xmm0, %xmm5, %xmm5
	vpxor	%xmm5, %xmm3, %xmm3
	vpxor	%xmm4, %xmm3, %xmm3
	vpslldq	$1, %xmm3, %xmm4                # xmm4 = zero,xmm3[0,1,2,3,4,5,6,7,8,9,10,11,12,13,14]
	vpalignr	$15, %xmm3, %xmm2, %xmm2        # xmm2 = xmm3[15],xmm2[0,1,2,3,4,5,6,7,8,9,10,11,12,13,14]
	vmovdqu	2328(%rbx), %xmm3
	vpshufb	%xmm1, %xmm3, %xmm3
	vmovdqu	2584(%rbx), %xmm5
	vpshufb	%xmm0, %xmm5, %xmm5
	vpxor	%xmm5, %xmm3, %xmm3
	vpxor	%xmm4, %xmm3, %xmm3
	vpslldq	$1, %xmm3, %xmm4                # xmm4 = zero,xmm3[0,1,2,3,4,5,6,7,8,9,10,11,12,13,14]
	vpalignr	$15, %xmm3, %xmm2, %xmm2        # xmm2 = xmm3[15],xmm2[0,1,2,3,4,5,6,7,8,9,10,11,12,13,14]
	vmovdqu	2312(%rbx), %xmm3
	vpshufb	%xmm1, %xmm3, %xmm3
	vmovdqu	2568(%rbx), %xmm5
	vpshufb	%xmm0, %xmm5, %xmm5
	vpxor	%xmm5, %xmm3, %xmm3
	vpxor	%xmm4, %xmm3, %xmm3
	vpslldq	$1, %xmm3, %xmm4                # xmm4 = zero,xmm3[0,1,2,3,4,5,6,7,8,9,10,11,12,13,14]
	vpalignr	$15, %xmm3, %xmm2, %xmm2        # xmm2 = xmm3[15],xmm2[0,1,2,3,4,5,6,7,8,9,10,11,12,13,14]
	vmovdqu	2296(%rbx), %xmm3
	vpshufb	%xmm1, %xmm3, %xmm3
	vmovdqu	2552(%rbx), %xmm5
	vpshufb	%xmm0, %xmm5, %xmm5
	vpxor	%xmm5, %xmm3, %xmm3
	vpxor	%xmm4, %xmm3, %xmm3
	vpslldq	$1, %xmm3, %xmm4                # xmm4 = zero,xmm3[0,1,2,3,4,5,6,7,8,9,10,11,12,13,14]
	vpalignr	$15, %xmm3, %xmm2, %xmm2        # xmm2 = xmm3[15],xmm2[0,1,2,3,4,5,6,7,8,9,10,11,12,13,14]
	vmovdqu	2280(%rbx), %xmm3
	vpshufb	%xmm1, %xmm3, %xmm3
	vmovdqu	2536(%rbx), %xmm5
	vpshufb	%xmm0, %xmm5, %xmm5
	vpxor	%xmm5, %xmm3, %xmm3
	vpxor	%xmm4, %xmm3, %xmm3
	vpslldq	$1, %xmm3, %xmm4                # xmm4 = zero,xmm3[0,1,2,3,4,5,6,7,8,9,10,11,12,13,14]
	vpalignr	$15, %xmm3, %xmm2, %xmm2        # xmm2 = xmm3[15],xmm2[0,1,2,3,4,5,6,7,8,9,10,11,12,13,14]
	vmovdqu	2264(%rbx), %xmm3
	vpshufb	%xmm1, %xmm3, %xmm3
	vmovdqu	2520(%rbx), %xmm5
	vpshufb	%xmm0, %xmm5, %xmm5
	vpxor	%xmm5, %xmm3, %xmm3
	vpxor	%xmm4, %xmm3, %xmm3
	vpslldq	$1, %xmm3, %xmm4                # xmm4 = zero,xmm3[0,1,2,3,4,5,6,7,8,9,10,11,12,13,14]
	vpalignr	$15, %xmm3, %xmm2, %xmm2        # xmm2 = xmm3[15],xmm2[0,1,2,3,4,5,6,7,8,9,10,11,12,13,14]
	vmovdqu	2248(%rbx), %xmm3
	vpshufb	%xmm1, %xmm3, %xmm3
	vmovdqu	2504(%rbx), %xmm5
	vpshufb	%xmm0, %xmm5, %xmm5
	vpxor	%xmm5, %xmm3, %xmm3
	vpxor	%xmm4, %xmm3, %xmm3
	vpslldq	$1, %xmm3, %xmm4                # xmm4 = zero,xmm3[0,1,2,3,4,5,6,7,8,9,10,11,12,13,14]
	vpalignr	$15, %xmm3, %xmm2, %xmm2        # xmm2 = xmm3[15],xmm2[0,1,2,3,4,5,6,7,8,9,10,11,12,13,14]
	vmovdqu	2232(%rbx), %xmm3
	vpshufb	%xmm1, %xmm3, %xmm3
	vmovdqu	2488(%rbx), %xmm5
	vpshufb	%xmm0, %xmm5, %xmm5
	vpxor	%xmm5, %xmm3, %xmm3
	vpxor	%xmm4, %xmm3, %xmm3
	vpslldq	$1, %xmm3, %xmm4                # xmm4 = zero,xmm3[0,1,2,3,4,5,6,7,8,9,10,11,12,13,14]
	vpalignr	$15, %xmm3, %xmm2, %xmm2        # xmm2 = xmm3[15],xmm2[0,1,2,3,4,5,6,7,8,9,10,11,12,13,14]
	vmovdqu	2168(%rbx), %xmm3
	vmovdqu	2184(%rbx), %xmm5
	vmovdqu	2200(%rbx), %xmm6
	vmovdqu	2216(%rbx), %xmm7
	vpshufb	%xmm1, %xmm7, %xmm7
	vmovdqu	2472(%rbx), %xmm8
	vpshufb	%xmm0, %xmm8, %xmm8
	vpxor	%xmm7, %xmm8, %xmm7
	vpxor	%xmm4, %xmm7, %xmm4
	vpslldq	$1, %xmm4, %xmm7                # xmm7 = zero,xmm4[0,1,2,3,4,5,6,7,8,9,10,11,12,13,14]
	vpalignr	$15, %xmm4, %xmm2, %xmm2        # xmm2 = xmm4[15],xmm2[0,1,2,3,4,5,6,7,8,9,10,11,12,13,14]
	vpshufb	%xmm1, %xmm6, %xmm4
	vmovdqu	2456(%rbx), %xmm6
	vpshufb	%xmm0, %xmm6, %xmm6
	vpxor	%xmm6, %xmm4, %xmm4
	vpxor	%xmm7, %xmm4, %xmm4
	vpslldq	$1, %xmm4, %xmm6                # xmm6 = zero,xmm4[0,1,2,3,4,5,6,7,8,9,10,11,12,13,14]
	vpalignr	$15, %xmm4, %xmm2, %xmm2        # xmm2 = xmm4[15],xmm2[0,1,2,3,4,5,6,7,8,9,10,11,12,13,14]
	vpshufb	%xmm1, %xmm5, %xmm4
	vmovdqu	2440(%rbx), %xmm5
	vpshufb	%xmm0, %xmm5, %xmm5
	vpxor	%xmm5, %xmm4, %xmm4
	vpxor	%xmm6, %xmm4, %xmm4
	vpslldq	$1, %xmm4, %xmm5                # xmm5 = zero,xmm4[0,1,2,3,4,5,6,7,8,9,10,11,12,13,14]
	vpalignr	$15, %xmm4, %xmm2, %xmm2        # xmm2 = xmm4[15],xmm2[0,1,2,3,4,5,6,7,8,9,10,11,12,13,14]
	vpshufb	%xmm1, %xmm3, %xmm1
	vpxor	%xmm5, %xmm1, %xmm1
	vmovdqu	2424(%rbx), %xmm3
	vpslldq	$1, %xmm2, %xmm4                # xmm4 = zero,xmm2[0,1,2,3,4,5,6,7,8,9,10,11,12,13,14]
	vpaddb	%xmm4, %xmm4, %xmm5
	vpxor	%xmm4, %xmm5, %xmm4
	vpsllw	$6, %xmm4, %xmm4
	vpand	.Ldeerlapse_0_1_0_v3_CPI33_5(%rip), %xmm4, %xmm4
	vpshufb	%xmm0, %xmm3, %xmm0
	vpsrlw	$2, %xmm2, %xmm3
	vpand	.Ldeerlapse_0_1_0_v3_CPI33_6(%rip), %xmm3, %xmm3
	vpxor	%xmm0, %xmm1, %xmm0
	vpsrlw	$7, %xmm2, %xmm1
	vpand	.Ldeerlapse_0_1_0_v3_CPI33_7(%rip), %xmm1, %xmm1
	vpor	%xmm3, %xmm4, %xmm3
	vpsrlw	$1, %xmm2, %xmm4
	vpand	.Ldeerlapse_0_1_0_v3_CPI33_8(%rip), %xmm4, %xmm4
	vpor	%xmm1, %xmm5, %xmm1
	vpxor	%xmm4, %xmm0, %xmm0
	vpxor	%xmm1, %xmm0, %xmm0
	vpxor	%xmm2, %xmm0, %xmm0
	vpxor	%xmm3, %xmm0, %xmm0
	vmovq	%xmm0, %rdx
	vpextrq	$1, %xmm0, %rsi
	bswapq	%rsi
	bswapq	%rdx
	movq	%r14, %rdi
	addq	$56, %rsp
	.cfi_def_cfa_offset 40
	popq	%rbx
	.cfi_def_cfa_offset 32
	popq	%r14
	.cfi_def_cfa_offset 24
	popq	%r15
	.cfi_def_cfa_offset 16
	popq	%rbp
	.cfi_def_cfa_offset 8
	jmp	"deerlapse_0_1_0_v3::aead_ciphers_wide::gcm::product::write_products" # TAILCALL
.Ldeerlapse_0_1_0_v3_func_end33:
	.size	"deerlapse_0_1_0_v3::aead_ciphers_wide::aes_gcm::ExpandedKey::expand_with_width", .Ldeerlapse_0_1_0_v3_func_end33-"deerlapse_0_1_0_v3::aead_ciphers_wide::aes_gcm::ExpandedKey::expand_with_width"
	.cfi_endproc
                                        # -- End function
	.section	.text.deerlapse_aes_gcm,"ax",@progbits
	.p2align	4                               # -- Begin function aead_ciphers_wide::gcm::product::write_products
	.type	"deerlapse_0_1_0_v3::aead_ciphers_wide::gcm::product::write_products",@function
"deerlapse_0_1_0_v3::aead_ciphers_wide::gcm::product::write_products": # @"deerlapse_0_1_0_v3::aead_ciphers_wide::gcm::product::write_products"
	.cfi_startproc
# %bb.0:                                # %start
	pushq	%r15
	.cfi_def_cfa_offset 16
	pushq	%r14
	.cfi_def_cfa_offset 24
	pushq	%rbx
	.cfi_def_cfa_offset 32
	.cfi_offset %rbx, -32
	.cfi_offset %r14, -24
	.cfi_offset %r15, -16
	movq	%rdx, %r11
	shldq	$63, %rsi, %r11
	movq	%rdx, %r10
	shrq	%r10
	movl	%esi, %ebx
	andl	$1, %ebx
	negq	%rbx
	movabsq	$-2233785415175766016, %rax     # imm = 0xE100000000000000
	andq	%rax, %rbx
	xorq	%r10, %rbx
	shldq	$63, %r11, %r10
	movq	%rbx, %r9
	shrq	%r9
	movq	%rsi, %r14
	shlq	$62, %r14
	sarq	$63, %r14
	andq	%rax, %r14
	xorq	%r9, %r14
	shldq	$63, %r10, %r9
	movq	%r14, %r8
	shrq	%r8
	movq	%rsi, %rcx
	shlq	$61, %rcx
	sarq	$63, %rcx
	andq	%rax, %rcx
	bswapq	%rdx
	xorq	%r8, %rcx
	movq	%rsi, %r15
	bswapq	%r15
	vmovq	%r15, %xmm0
	vmovq	%rdx, %xmm1
	vpunpcklqdq	%xmm0, %xmm1, %xmm1     # xmm1 = xmm1[0],xmm0[0]
	bswapq	%rbx
	bswapq	%r11
	vmovq	%r11, %xmm0
	vmovq	%rbx, %xmm2
	bswapq	%r14
	bswapq	%r10
	vpunpcklqdq	%xmm0, %xmm2, %xmm2     # xmm2 = xmm2[0],xmm0[0]
	vmovq	%r14, %xmm0
	vmovq	%r10, %xmm3
	vpunpcklqdq	%xmm3, %xmm0, %xmm3     # xmm3 = xmm0[0],xmm3[0]
	movq	%rcx, %rdx
	bswapq	%rdx
	movq	%r9, %r10
	bswapq	%r10
	vmovq	%r10, %xmm0
	vmovq	%rdx, %xmm4
	vpunpcklqdq	%xmm0, %xmm4, %xmm5     # xmm5 = xmm4[0],xmm0[0]
	vpxor	%xmm0, %xmm0, %xmm0
	vpunpcklbw	%xmm2, %xmm0, %xmm4     # xmm4 = xmm0[0],xmm2[0],xmm0[1],xmm2[1],xmm0[2],xmm2[2],xmm0[3],xmm2[3],xmm0[4],xmm2[4],xmm0[5],xmm2[5],xmm0[6],xmm2[6],xmm0[7],xmm2[7]
	vpunpckhbw	%xmm2, %xmm0, %xmm6     # xmm6 = xmm0[8],xmm2[8],xmm0[9],xmm2[9],xmm0[10],xmm2[10],xmm0[11],xmm2[11],xmm0[12],xmm2[12],xmm0[13],xmm2[13],xmm0[14],xmm2[14],xmm0[15],xmm2[15]
	vpxor	%xmm1, %xmm2, %xmm2
	vpunpcklbw	%xmm2, %xmm1, %xmm7     # xmm7 = xmm1[0],xmm2[0],xmm1[1],xmm2[1],xmm1[2],xmm2[2],xmm1[3],xmm2[3],xmm1[4],xmm2[4],xmm1[5],xmm2[5],xmm1[6],xmm2[6],xmm1[7],xmm2[7]
	vpunpckhbw	%xmm2, %xmm1, %xmm1     # xmm1 = xmm1[8],xmm2[8],xmm1[9],xmm2[9],xmm1[10],xmm2[10],xmm1[11],xmm2[11],xmm1[12],xmm2[12],xmm1[13],xmm2[13],xmm1[14],xmm2[14],xmm1[15],xmm2[15]
	vpunpcklwd	%xmm7, %xmm4, %xmm2     # xmm2 = xmm4[0],xmm7[0],xmm4[1],xmm7[1],xmm4[2],xmm7[2],xmm4[3],xmm7[3]
	vpunpckhwd	%xmm7, %xmm4, %xmm7     # xmm7 = xmm4[4],xmm7[4],xmm4[5],xmm7[5],xmm4[6],xmm7[6],xmm4[7],xmm7[7]
	vpunpcklwd	%xmm1, %xmm6, %xmm13    # xmm13 = xmm6[0],xmm1[0],xmm6[1],xmm1[1],xmm6[2],xmm1[2],xmm6[3],xmm1[3]
	vpunpckhwd	%xmm1, %xmm6, %xmm4     # xmm4 = xmm6[4],xmm1[4],xmm6[5],xmm1[5],xmm6[6],xmm1[6],xmm6[7],xmm1[7]
	vpunpcklbw	%xmm5, %xmm0, %xmm1     # xmm1 = xmm0[0],xmm5[0],xmm0[1],xmm5[1],xmm0[2],xmm5[2],xmm0[3],xmm5[3],xmm0[4],xmm5[4],xmm0[5],xmm5[5],xmm0[6],xmm5[6],xmm0[7],xmm5[7]
	vpunpckhbw	%xmm5, %xmm0, %xmm6     # xmm6 = xmm0[8],xmm5[8],xmm0[9],xmm5[9],xmm0[10],xmm5[10],xmm0[11],xmm5[11],xmm0[12],xmm5[12],xmm0[13],xmm5[13],xmm0[14],xmm5[14],xmm0[15],xmm5[15]
	vpxor	%xmm3, %xmm5, %xmm5
	vpunpcklbw	%xmm5, %xmm3, %xmm8     # xmm8 = xmm3[0],xmm5[0],xmm3[1],xmm5[1],xmm3[2],xmm5[2],xmm3[3],xmm5[3],xmm3[4],xmm5[4],xmm3[5],xmm5[5],xmm3[6],xmm5[6],xmm3[7],xmm5[7]
	vpunpckhbw	%xmm5, %xmm3, %xmm3     # xmm3 = xmm3[8],xmm5[8],xmm3[9],xmm5[9],xmm3[10],xmm5[10],xmm3[11],xmm5[11],xmm3[12],xmm5[12],xmm3[13],xmm5[13],xmm3[14],xmm5[14],xmm3[15],xmm5[15]
	vpunpcklwd	%xmm8, %xmm1, %xmm5     # xmm5 = xmm1[0],xmm8[0],xmm1[1],xmm8[1],xmm1[2],xmm8[2],xmm1[3],xmm8[3]
	vpunpckhwd	%xmm8, %xmm1, %xmm8     # xmm8 = xmm1[4],xmm8[4],xmm1[5],xmm8[5],xmm1[6],xmm8[6],xmm1[7],xmm8[7]
	vpunpcklwd	%xmm3, %xmm6, %xmm14    # xmm14 = xmm6[0],xmm3[0],xmm6[1],xmm3[1],xmm6[2],xmm3[2],xmm6[3],xmm3[3]
	vpunpckhwd	%xmm3, %xmm6, %xmm1     # xmm1 = xmm6[4],xmm3[4],xmm6[5],xmm3[5],xmm6[6],xmm3[6],xmm6[7],xmm3[7]
	vpunpcklbw	%xmm2, %xmm2, %xmm3     # xmm3 = xmm2[0,0,1,1,2,2,3,3,4,4,5,5,6,6,7,7]
	vpunpcklwd	%xmm3, %xmm3, %xmm6     # xmm6 = xmm3[0,0,1,1,2,2,3,3]
	vpbroadcastd	%xmm5, %xmm9
	vpxor	%xmm6, %xmm9, %xmm12
	vpunpckhwd	%xmm3, %xmm3, %xmm3     # xmm3 = xmm3[4,4,5,5,6,6,7,7]
	vpshufd	$85, %xmm5, %xmm6               # xmm6 = xmm5[1,1,1,1]
	vpxor	%xmm3, %xmm6, %xmm9
	vpunpckhbw	%xmm2, %xmm2, %xmm3     # xmm3 = xmm2[8,8,9,9,10,10,11,11,12,12,13,13,14,14,15,15]
	vpunpcklwd	%xmm3, %xmm3, %xmm2     # xmm2 = xmm3[0,0,1,1,2,2,3,3]
	vpshufd	$170, %xmm5, %xmm6              # xmm6 = xmm5[2,2,2,2]
	vpxor	%xmm2, %xmm6, %xmm0
	vmovdqa	%xmm0, -32(%rsp)                # 16-byte Spill
	vpunpckhwd	%xmm3, %xmm3, %xmm3     # xmm3 = xmm3[4,4,5,5,6,6,7,7]
	vpshufd	$255, %xmm5, %xmm5              # xmm5 = xmm5[3,3,3,3]
	vpxor	%xmm3, %xmm5, %xmm3
	vpunpcklbw	%xmm7, %xmm7, %xmm6     # xmm6 = xmm7[0,0,1,1,2,2,3,3,4,4,5,5,6,6,7,7]
	vpunpcklwd	%xmm6, %xmm6, %xmm5     # xmm5 = xmm6[0,0,1,1,2,2,3,3]
	vpbroadcastd	%xmm8, %xmm10
	vpxor	%xmm5, %xmm10, %xmm5
	vpunpckhwd	%xmm6, %xmm6, %xmm6     # xmm6 = xmm6[4,4,5,5,6,6,7,7]
	vpshufd	$85, %xmm8, %xmm10              # xmm10 = xmm8[1,1,1,1]
	vpxor	%xmm6, %xmm10, %xmm6
	vpunpckhbw	%xmm7, %xmm7, %xmm10    # xmm10 = xmm7[8,8,9,9,10,10,11,11,12,12,13,13,14,14,15,15]
	vpunpcklwd	%xmm10, %xmm10, %xmm7   # xmm7 = xmm10[0,0,1,1,2,2,3,3]
	vpshufd	$170, %xmm8, %xmm11             # xmm11 = xmm8[2,2,2,2]
	vpxor	%xmm7, %xmm11, %xmm7
	vpunpckhwd	%xmm10, %xmm10, %xmm10  # xmm10 = xmm10[4,4,5,5,6,6,7,7]
	vpshufd	$255, %xmm8, %xmm8              # xmm8 = xmm8[3,3,3,3]
	vpxor	%xmm10, %xmm8, %xmm8
	vpunpcklbw	%xmm13, %xmm13, %xmm11  # xmm11 = xmm13[0,0,1,1,2,2,3,3,4,4,5,5,6,6,7,7]
	vpunpcklwd	%xmm11, %xmm11, %xmm10  # xmm10 = xmm11[0,0,1,1,2,2,3,3]
	vpbroadcastd	%xmm14, %xmm15
	vpxor	%xmm10, %xmm15, %xmm10
	vpunpckhwd	%xmm11, %xmm11, %xmm11  # xmm11 = xmm11[4,4,5,5,6,6,7,7]
	vpshufd	$85, %xmm14, %xmm15             # xmm15 = xmm14[1,1,1,1]
	vpxor	%xmm11, %xmm15, %xmm11
	vpunpckhbw	%xmm13, %xmm13, %xmm15  # xmm15 = xmm13[8,8,9,9,10,10,11,11,12,12,13,13,14,14,15,15]
	vpunpcklwd	%xmm15, %xmm15, %xmm13  # xmm13 = xmm15[0,0,1,1,2,2,3,3]
	vpshufd	$170, %xmm14, %xmm0             # xmm0 = xmm14[2,2,2,2]
	vpxor	%xmm0, %xmm13, %xmm13
	vpunpckhwd	%xmm15, %xmm15, %xmm0   # xmm0 = xmm15[4,4,5,5,6,6,7,7]
	vpshufd	$255, %xmm14, %xmm14            # xmm14 = xmm14[3,3,3,3]
	vpxor	%xmm0, %xmm14, %xmm14
	vpunpcklbw	%xmm4, %xmm4, %xmm0     # xmm0 = xmm4[0,0,1,1,2,2,3,3,4,4,5,5,6,6,7,7]
	vpunpcklwd	%xmm0, %xmm0, %xmm15    # xmm15 = xmm0[0,0,1,1,2,2,3,3]
	vpbroadcastd	%xmm1, %xmm2
	vpxor	%xmm2, %xmm15, %xmm15
	vmovdqu	%xmm12, (%rdi)
	vpunpckhwd	%xmm0, %xmm0, %xmm0     # xmm0 = xmm0[4,4,5,5,6,6,7,7]
	vpshufd	$85, %xmm1, %xmm2               # xmm2 = xmm1[1,1,1,1]
	vpxor	%xmm0, %xmm2, %xmm12
	vpunpckhbw	%xmm4, %xmm4, %xmm0     # xmm0 = xmm4[8,8,9,9,10,10,11,11,12,12,13,13,14,14,15,15]
	vpunpcklwd	%xmm0, %xmm0, %xmm2     # xmm2 = xmm0[0,0,1,1,2,2,3,3]
	vpshufd	$170, %xmm1, %xmm4              # xmm4 = xmm1[2,2,2,2]
	vpxor	%xmm2, %xmm4, %xmm2
	vmovdqu	%xmm9, 16(%rdi)
	shldq	$63, %r9, %r8
	vpunpckhwd	%xmm0, %xmm0, %xmm0     # xmm0 = xmm0[4,4,5,5,6,6,7,7]
	vpshufd	$255, %xmm1, %xmm1              # xmm1 = xmm1[3,3,3,3]
	vmovaps	-32(%rsp), %xmm4                # 16-byte Reload
	vmovups	%xmm4, 32(%rdi)
	vmovdqu	%xmm3, 48(%rdi)
	vmovdqu	%xmm5, 64(%rdi)
	vmovdqu	%xmm6, 80(%rdi)
	vmovdqu	%xmm7, 96(%rdi)
	vmovdqu	%xmm8, 112(%rdi)
	vmovdqu	%xmm10, 128(%rdi)
	vmovdqu	%xmm11, 144(%rdi)
	vmovdqu	%xmm13, 160(%rdi)
	vmovdqu	%xmm14, 176(%rdi)
	vmovdqu	%xmm15, 192(%rdi)
	vmovdqu	%xmm12, 208(%rdi)
	vmovdqu	%xmm2, 224(%rdi)
	vpxor	%xmm0, %xmm1, %xmm0
	vmovdqu	%xmm0, 240(%rdi)
	shrq	%rcx
	movq	%rsi, %r9
	shlq	$60, %r9
	sarq	$63, %r9
	andq	%rax, %r9
	xorq	%rcx, %r9
	shldq	$63, %r8, %rcx
	movq	%r9, %rdx
	shrq	%rdx
	movq	%rsi, %r11
	shlq	$59, %r11
	sarq	$63, %r11
	andq	%rax, %r11
	xorq	%rdx, %r11
	shldq	$63, %rcx, %rdx
	movq	%r11, %r10
	shrq	%r10
	movq	%rsi, %rbx
	shlq	$58, %rbx
	sarq	$63, %rbx
	andq	%rax, %rbx
	xorq	%r10, %rbx
	shldq	$63, %rdx, %r10
	movq	%rbx, %r14
	shrq	%r14
	shlq	$57, %rsi
	sarq	$63, %rsi
	andq	%rax, %rsi
	xorq	%r14, %rsi
	bswapq	%r8
	bswapq	%r9
	vmovq	%r8, %xmm0
	vmovq	%r9, %xmm1
	bswapq	%rcx
	bswapq	%r11
	vpunpcklqdq	%xmm0, %xmm1, %xmm0     # xmm0 = xmm1[0],xmm0[0]
	vmovq	%rcx, %xmm1
	vmovq	%r11, %xmm2
	vpunpcklqdq	%xmm1, %xmm2, %xmm1     # xmm1 = xmm2[0],xmm1[0]
	bswapq	%rdx
	bswapq	%rbx
	vmovq	%rdx, %xmm2
	vmovq	%rbx, %xmm3
	bswapq	%r10
	vpunpcklqdq	%xmm2, %xmm3, %xmm2     # xmm2 = xmm3[0],xmm2[0]
	bswapq	%rsi
	vmovq	%r10, %xmm3
	vmovq	%rsi, %xmm4
	vpunpcklqdq	%xmm3, %xmm4, %xmm3     # xmm3 = xmm4[0],xmm3[0]
	vpxor	%xmm5, %xmm5, %xmm5
	vpunpcklbw	%xmm1, %xmm5, %xmm4     # xmm4 = xmm5[0],xmm1[0],xmm5[1],xmm1[1],xmm5[2],xmm1[2],xmm5[3],xmm1[3],xmm5[4],xmm1[4],xmm5[5],xmm1[5],xmm5[6],xmm1[6],xmm5[7],xmm1[7]
	vpunpckhbw	%xmm1, %xmm5, %xmm6     # xmm6 = xmm5[8],xmm1[8],xmm5[9],xmm1[9],xmm5[10],xmm1[10],xmm5[11],xmm1[11],xmm5[12],xmm1[12],xmm5[13],xmm1[13],xmm5[14],xmm1[14],xmm5[15],xmm1[15]
	vpxor	%xmm8, %xmm8, %xmm8
	vpxor	%xmm0, %xmm1, %xmm1
	vpunpcklbw	%xmm1, %xmm0, %xmm5     # xmm5 = xmm0[0],xmm1[0],xmm0[1],xmm1[1],xmm0[2],xmm1[2],xmm0[3],xmm1[3],xmm0[4],xmm1[4],xmm0[5],xmm1[5],xmm0[6],xmm1[6],xmm0[7],xmm1[7]
	vpunpckhbw	%xmm1, %xmm0, %xmm0     # xmm0 = xmm0[8],xmm1[8],xmm0[9],xmm1[9],xmm0[10],xmm1[10],xmm0[11],xmm1[11],xmm0[12],xmm1[12],xmm0[13],xmm1[13],xmm0[14],xmm1[14],xmm0[15],xmm1[15]
	vpunpcklwd	%xmm5, %xmm4, %xmm7     # xmm7 = xmm4[0],xmm5[0],xmm4[1],xmm5[1],xmm4[2],xmm5[2],xmm4[3],xmm5[3]
	vpunpckhwd	%xmm5, %xmm4, %xmm10    # xmm10 = xmm4[4],xmm5[4],xmm4[5],xmm5[5],xmm4[6],xmm5[6],xmm4[7],xmm5[7]
	vpunpcklwd	%xmm0, %xmm6, %xmm5     # xmm5 = xmm6[0],xmm0[0],xmm6[1],xmm0[1],xmm6[2],xmm0[2],xmm6[3],xmm0[3]
	vpunpckhwd	%xmm0, %xmm6, %xmm1     # xmm1 = xmm6[4],xmm0[4],xmm6[5],xmm0[5],xmm6[6],xmm0[6],xmm6[7],xmm0[7]
	vpunpcklbw	%xmm3, %xmm8, %xmm0     # xmm0 = xmm8[0],xmm3[0],xmm8[1],xmm3[1],xmm8[2],xmm3[2],xmm8[3],xmm3[3],xmm8[4],xmm3[4],xmm8[5],xmm3[5],xmm8[6],xmm3[6],xmm8[7],xmm3[7]
	vpunpckhbw	%xmm3, %xmm8, %xmm4     # xmm4 = xmm8[8],xmm3[8],xmm8[9],xmm3[9],xmm8[10],xmm3[10],xmm8[11],xmm3[11],xmm8[12],xmm3[12],xmm8[13],xmm3[13],xmm8[14],xmm3[14],xmm8[15],xmm3[15]
	vpxor	%xmm2, %xmm3, %xmm3
	vpunpcklbw	%xmm3, %xmm2, %xmm6     # xmm6 = xmm2[0],xmm3[0],xmm2[1],xmm3[1],xmm2[2],xmm3[2],xmm2[3],xmm3[3],xmm2[4],xmm3[4],xmm2[5],xmm3[5],xmm2[6],xmm3[6],xmm2[7],xmm3[7]
	vpunpckhbw	%xmm3, %xmm2, %xmm2     # xmm2 = xmm2[8],xmm3[8],xmm2[9],xmm3[9],xmm2[10],xmm3[10],xmm2[11],xmm3[11],xmm2[12],xmm3[12],xmm2[13],xmm3[13],xmm2[14],xmm3[14],xmm2[15],xmm3[15]
	vpunpcklwd	%xmm6, %xmm0, %xmm9     # xmm9 = xmm0[0],xmm6[0],xmm0[1],xmm6[1],xmm0[2],xmm6[2],xmm0[3],xmm6[3]
	vpunpckhwd	%xmm6, %xmm0, %xmm11    # xmm11 = xmm0[4],xmm6[4],xmm0[5],xmm6[5],xmm0[6],xmm6[6],xmm0[7],xmm6[7]
	vpunpcklwd	%xmm2, %xmm4, %xmm8     # xmm8 = xmm4[0],xmm2[0],xmm4[1],xmm2[1],xmm4[2],xmm2[2],xmm4[3],xmm2[3]
	vpunpckhwd	%xmm2, %xmm4, %xmm0     # xmm0 = xmm4[4],xmm2[4],xmm4[5],xmm2[5],xmm4[6],xmm2[6],xmm4[7],xmm2[7]
	vpunpcklbw	%xmm7, %xmm7, %xmm3     # xmm3 = xmm7[0,0,1,1,2,2,3,3,4,4,5,5,6,6,7,7]
	vpunpcklwd	%xmm3, %xmm3, %xmm2     # xmm2 = xmm3[0,0,1,1,2,2,3,3]
	vpbroadcastd	%xmm9, %xmm4
	vpxor	%xmm2, %xmm4, %xmm2
	vmovdqa	%xmm2, -32(%rsp)                # 16-byte Spill
	vpunpckhwd	%xmm3, %xmm3, %xmm3     # xmm3 = xmm3[4,4,5,5,6,6,7,7]
	vpshufd	$85, %xmm9, %xmm4               # xmm4 = xmm9[1,1,1,1]
	vpxor	%xmm3, %xmm4, %xmm2
	vmovdqa	%xmm2, -16(%rsp)                # 16-byte Spill
	vpunpckhbw	%xmm7, %xmm7, %xmm6     # xmm6 = xmm7[8,8,9,9,10,10,11,11,12,12,13,13,14,14,15,15]
	vpunpcklwd	%xmm6, %xmm6, %xmm4     # xmm4 = xmm6[0,0,1,1,2,2,3,3]
	vpshufd	$170, %xmm9, %xmm7              # xmm7 = xmm9[2,2,2,2]
	vpxor	%xmm4, %xmm7, %xmm4
	vpunpckhwd	%xmm6, %xmm6, %xmm6     # xmm6 = xmm6[4,4,5,5,6,6,7,7]
	vpshufd	$255, %xmm9, %xmm7              # xmm7 = xmm9[3,3,3,3]
	vpxor	%xmm6, %xmm7, %xmm6
	vpunpcklbw	%xmm10, %xmm10, %xmm9   # xmm9 = xmm10[0,0,1,1,2,2,3,3,4,4,5,5,6,6,7,7]
	vpunpcklwd	%xmm9, %xmm9, %xmm7     # xmm7 = xmm9[0,0,1,1,2,2,3,3]
	vpbroadcastd	%xmm11, %xmm12
	vpxor	%xmm7, %xmm12, %xmm7
	vpunpckhwd	%xmm9, %xmm9, %xmm9     # xmm9 = xmm9[4,4,5,5,6,6,7,7]
	vpshufd	$85, %xmm11, %xmm12             # xmm12 = xmm11[1,1,1,1]
	vpxor	%xmm9, %xmm12, %xmm9
	vpunpckhbw	%xmm10, %xmm10, %xmm12  # xmm12 = xmm10[8,8,9,9,10,10,11,11,12,12,13,13,14,14,15,15]
	vpunpcklwd	%xmm12, %xmm12, %xmm10  # xmm10 = xmm12[0,0,1,1,2,2,3,3]
	vpshufd	$170, %xmm11, %xmm13            # xmm13 = xmm11[2,2,2,2]
	vpxor	%xmm10, %xmm13, %xmm10
	vpunpckhwd	%xmm12, %xmm12, %xmm12  # xmm12 = xmm12[4,4,5,5,6,6,7,7]
	vpshufd	$255, %xmm11, %xmm11            # xmm11 = xmm11[3,3,3,3]
	vpxor	%xmm12, %xmm11, %xmm11
	vpunpcklbw	%xmm5, %xmm5, %xmm13    # xmm13 = xmm5[0,0,1,1,2,2,3,3,4,4,5,5,6,6,7,7]
	vpunpcklwd	%xmm13, %xmm13, %xmm12  # xmm12 = xmm13[0,0,1,1,2,2,3,3]
	vpbroadcastd	%xmm8, %xmm14
	vpxor	%xmm12, %xmm14, %xmm12
	vpunpckhwd	%xmm13, %xmm13, %xmm13  # xmm13 = xmm13[4,4,5,5,6,6,7,7]
	vpshufd	$85, %xmm8, %xmm14              # xmm14 = xmm8[1,1,1,1]
	vpxor	%xmm13, %xmm14, %xmm13
	vpunpckhbw	%xmm5, %xmm5, %xmm5     # xmm5 = xmm5[8,8,9,9,10,10,11,11,12,12,13,13,14,14,15,15]
	vpunpcklwd	%xmm5, %xmm5, %xmm14    # xmm14 = xmm5[0,0,1,1,2,2,3,3]
	vpshufd	$170, %xmm8, %xmm15             # xmm15 = xmm8[2,2,2,2]
	vpxor	%xmm14, %xmm15, %xmm14
	vpunpckhwd	%xmm5, %xmm5, %xmm5     # xmm5 = xmm5[4,4,5,5,6,6,7,7]
	vpshufd	$255, %xmm8, %xmm8              # xmm8 = xmm8[3,3,3,3]
	vpxor	%xmm5, %xmm8, %xmm5
	vpunpcklbw	%xmm1, %xmm1, %xmm8     # xmm8 = xmm1[0,0,1,1,2,2,3,3,4,4,5,5,6,6,7,7]
	vpunpcklwd	%xmm8, %xmm8, %xmm15    # xmm15 = xmm8[0,0,1,1,2,2,3,3]
	vpbroadcastd	%xmm0, %xmm2
	vpxor	%xmm2, %xmm15, %xmm2
	vpunpckhwd	%xmm8, %xmm8, %xmm8     # xmm8 = xmm8[4,4,5,5,6,6,7,7]
	vpshufd	$85, %xmm0, %xmm15              # xmm15 = xmm0[1,1,1,1]
	vpxor	%xmm8, %xmm15, %xmm8
	vpunpckhbw	%xmm1, %xmm1, %xmm1     # xmm1 = xmm1[8,8,9,9,10,10,11,11,12,12,13,13,14,14,15,15]
	vpunpcklwd	%xmm1, %xmm1, %xmm15    # xmm15 = xmm1[0,0,1,1,2,2,3,3]
	vpshufd	$170, %xmm0, %xmm3              # xmm3 = xmm0[2,2,2,2]
	vpxor	%xmm3, %xmm15, %xmm3
	vpunpckhwd	%xmm1, %xmm1, %xmm1     # xmm1 = xmm1[4,4,5,5,6,6,7,7]
	vpshufd	$255, %xmm0, %xmm0              # xmm0 = xmm0[3,3,3,3]
	vpxor	%xmm1, %xmm0, %xmm0
	vmovaps	-32(%rsp), %xmm1                # 16-byte Reload
	vmovups	%xmm1, 256(%rdi)
	vmovaps	-16(%rsp), %xmm1                # 16-byte Reload
	vmovups	%xmm1, 272(%rdi)
	vmovdqu	%xmm4, 288(%rdi)
	vmovdqu	%xmm6, 304(%rdi)
	vmovdqu	%xmm7, 320(%rdi)
	vmovdqu	%xmm9, 336(%rdi)
	vmovdqu	%xmm10, 352(%rdi)
	vmovdqu	%xmm11, 368(%rdi)
	vmovdqu	%xmm12, 384(%rdi)
	vmovdqu	%xmm13, 400(%rdi)
	vmovdqu	%xmm14, 416(%rdi)
	vmovdqu	%xmm5, 432(%rdi)
	vmovdqu	%xmm2, 448(%rdi)
	vmovdqu	%xmm8, 464(%rdi)
	vmovdqu	%xmm3, 480(%rdi)
	vmovdqu	%xmm0, 496(%rdi)
	popq	%rbx
	.cfi_def_cfa_offset 24
	popq	%r14
	.cfi_def_cfa_offset 16
	popq	%r15
	.cfi_def_cfa_offset 8
	retq
.Ldeerlapse_0_1_0_v3_func_end34:
	.size	"deerlapse_0_1_0_v3::aead_ciphers_wide::gcm::product::write_products", .Ldeerlapse_0_1_0_v3_func_end34-"deerlapse_0_1_0_v3::aead_ciphers_wide::gcm::product::write_products"
	.cfi_endproc
                                        # -- End function
	.section	.text.deerlapse_key_derivation,"ax",@progbits
	.type	"deerlapse_0_1_0_v3::key_derivation::hkdf::Expander::fill_okm::<#01e4f4eb65b1d8bb>",@function # -- Begin function key_derivation::hkdf::Expander::fill_okm::<#01e4f4eb65b1d8bb>
"deerlapse_0_1_0_v3::key_derivation::hkdf::Expander::fill_okm::<#01e4f4eb65b1d8bb>": # @"deerlapse_0_1_0_v3::key_derivation::hkdf::Expander::fill_okm::<#01e4f4eb65b1d8bb>"
	.cfi_startproc
# %bb.0:                                # %start
	pushq	%rbp
	.cfi_def_cfa_offset 16
	pushq	%r15
	.cfi_def_cfa_offset 24
	pushq	%r14
	.cfi_def_cfa_offset 32
	pushq	%r13
	.cfi_def_cfa_offset 40
	pushq	%r12
	.cfi_def_cfa_offset 48
	pushq	%rbx
	.cfi_def_cfa_offset 56
	subq	$1384, %rsp                     # imm = 0x568
	.cfi_def_cfa_offset 1440
	.cfi_offset %rbx, -56
	.cfi_offset %r12, -48
	.cfi_offset %r13, -40
	.cfi_offset %r14, -32
	.cfi_offset %r15, -24
	.cfi_offset %rbp, -16
	movq	%rdx, %r12
	movq	%rsi, 40(%rsp)                  # 8-byte Spill
	movq	%rdi, 16(%rsp)                  # 8-byte Spill
	leaq	47(%rcx), %rdx
	movabsq	$-6148914691236517205, %rax     # imm = 0xAAAAAAAAAAAAAAAB
	mulxq	%rax, %rax, %rax
	movq	%rax, 24(%rsp)                  # 8-byte Spill
	cmpq	$48, %rdx
	jb	.Ldeerlapse_0_1_0_v3_BB35_3
# %bb.1:                                # %join.7.lr.ph
	movq	%rcx, %r14
	shrq	$5, 24(%rsp)                    # 8-byte Folded Spill
	movq	16(%rsp), %rax                  # 8-byte Reload
	addq	$64, %rax
	movq	%rax, 32(%rsp)                  # 8-byte Spill
	xorl	%r13d, %r13d
	xorl	%r15d, %r15d
.Ldeerlapse_0_1_0_v3_BB35_2:                               # %join.7
                                        # =>This Inner Loop Header: Depth=1
	movq	16(%rsp), %rcx                  # 8-byte Reload
	vmovups	(%rcx), %ymm0
	vmovups	32(%rcx), %ymm1
	leaq	160(%rsp), %rsi
	vmovups	%ymm1, 32(%rsi)
	vmovups	%ymm0, (%rsi)
	movq	32(%rsp), %rax                  # 8-byte Reload
	vmovups	(%rax), %ymm0
	vmovups	32(%rax), %ymm1
	vmovups	64(%rax), %ymm2
	vmovups	96(%rax), %ymm3
	leaq	224(%rsp), %rax
	vmovups	%ymm3, 96(%rax)
	vmovups	%ymm2, 64(%rax)
	vmovups	%ymm1, 32(%rax)
	vmovups	%ymm0, (%rax)
	vmovaps	192(%rcx), %xmm0
	vmovaps	%xmm0, 48(%rsp)                 # 16-byte Spill
	movl	$192, %edx
	leaq	575(%rsp), %rbx
	movq	%rbx, %rdi
	vzeroupper
	callq	memcpy@PLT
	movl	$192, %edx
	leaq	976(%rsp), %rbp
	movq	%rbp, %rdi
	movq	%rbx, %rsi
	callq	memcpy@PLT
	leaq	768(%rsp), %rbx
	movl	$192, %edx
	movq	%rbx, %rdi
	movq	%rbp, %rsi
	callq	memcpy@PLT
	leaq	1168(%rsp), %rbp
	movl	$192, %edx
	movq	%rbp, %rdi
	movq	%rbx, %rsi
	callq	memcpy@PLT
	vmovaps	48(%rsp), %xmm0                 # 16-byte Reload
	vmovaps	%xmm0, 192(%rbp)
	xorl	%eax, %eax
	movq	%r13, %rcx
	subq	$48, %rcx
	cmovaeq	%rcx, %rax
	leaq	(%r12,%rax), %rsi
	movq	%r13, %rdx
	subq	%rax, %rdx
	movq	%rbp, %rdi
	callq	"deerlapse_0_1_0_v3::sha2::block512::Core512::update"
	leaq	560(%rsp), %rbx
	movl	$208, %edx
	movq	%rbx, %rdi
	movq	%rbp, %rsi
	callq	memcpy@PLT
	movq	40(%rsp), %rax                  # 8-byte Reload
	movq	(%rax), %rsi
	movq	8(%rax), %rdx
	movq	%rbx, %rdi
	callq	"deerlapse_0_1_0_v3::sha2::block512::Core512::update"
	leaq	352(%rsp), %rdi
	movl	$208, %edx
	movq	%rbx, %rsi
	callq	memcpy@PLT
	movl	$208, %edx
	movq	%rbp, %rdi
	leaq	352(%rsp), %rsi
	callq	memcpy@PLT
	incq	%r15
	leaq	15(%rsp), %rsi
	movb	%r15b, (%rsi)
	movl	$1, %edx
	movq	%rbp, %rdi
	callq	"deerlapse_0_1_0_v3::sha2::block512::Core512::update"
	leaq	112(%rsp), %rbx
	movq	%rbx, %rdi
	movq	16(%rsp), %rsi                  # 8-byte Reload
	movq	%rbp, %rdx
	callq	"deerlapse_0_1_0_v3::key_derivation::hmac::HmacKey::finish::<#01e4f4eb65b1d8bb>"
	vmovups	(%rbx), %ymm0
	vmovups	16(%rbx), %ymm1
	leaq	64(%rsp), %rsi
	vmovups	%ymm1, 16(%rsi)
	vmovups	%ymm0, (%rsi)
	movq	%r14, %rax
	subq	%r13, %rax
	cmpq	$48, %rax
	movl	$48, %edx
	cmovbq	%rax, %rdx
	leaq	(%rdx,%r13), %rbx
	addq	%r12, %r13
	movq	%r13, %rdi
	vzeroupper
	callq	memcpy@PLT
	movq	%rbx, %r13
	cmpq	%r15, 24(%rsp)                  # 8-byte Folded Reload
	jne	.Ldeerlapse_0_1_0_v3_BB35_2
.Ldeerlapse_0_1_0_v3_BB35_3:                               # %after.3
	addq	$1384, %rsp                     # imm = 0x568
	.cfi_def_cfa_offset 56
	popq	%rbx
	.cfi_def_cfa_offset 48
	popq	%r12
	.cfi_def_cfa_offset 40
	popq	%r13
	.cfi_def_cfa_offset 32
	popq	%r14
	.cfi_def_cfa_offset 24
	popq	%r15
	.cfi_def_cfa_offset 16
	popq	%rbp
	.cfi_def_cfa_offset 8
	retq
.Ldeerlapse_0_1_0_v3_func_end35:
	.size	"deerlapse_0_1_0_v3::key_derivation::hkdf::Expander::fill_okm::<#01e4f4eb65b1d8bb>", .Ldeerlapse_0_1_0_v3_func_end35-"deerlapse_0_1_0_v3::key_derivation::hkdf::Expander::fill_okm::<#01e4f4eb65b1d8bb>"
	.cfi_endproc
                                        # -- End function
	.section	.text.deerlapse_key_derivation,"ax",@progbits
	.type	"deerlapse_0_1_0_v3::key_derivation::hkdf::Expander::fill_labeled::<#01e4f4eb65b1d8bb>",@function # -- Begin function key_derivation::hkdf::Expander::fill_labeled::<#01e4f4eb65b1d8bb>
"deerlapse_0_1_0_v3::key_derivation::hkdf::Expander::fill_labeled::<#01e4f4eb65b1d8bb>": # @"deerlapse_0_1_0_v3::key_derivation::hkdf::Expander::fill_labeled::<#01e4f4eb65b1d8bb>"
	.cfi_startproc
# %bb.0:                                # %start
	pushq	%rbp
	.cfi_def_cfa_offset 16
	pushq	%r15
	.cfi_def_cfa_offset 24
	pushq	%r14
	.cfi_def_cfa_offset 32
	pushq	%r13
	.cfi_def_cfa_offset 40
	pushq	%r12
	.cfi_def_cfa_offset 48
	pushq	%rbx
	.cfi_def_cfa_offset 56
	subq	$552, %rsp                      # imm = 0x228
	.cfi_def_cfa_offset 608
	.cfi_offset %rbx, -56
	.cfi_offset %r12, -48
	.cfi_offset %r13, -40
	.cfi_offset %r14, -32
	.cfi_offset %r15, -24
	.cfi_offset %rbp, -16
	movq	%r9, 8(%rsp)                    # 8-byte Spill
	movq	%r8, %r14
	movq	%rcx, %r15
	movq	%rdx, %r12
	movq	%rsi, %r13
	movq	%rdi, %rbp
	leaq	41(%rsp), %rdi
	movl	$511, %edx                      # imm = 0x1FF
	xorl	%esi, %esi
	callq	memset@PLT
	leaq	38(%rsp), %rbx
	movq	%rbx, %rdi
	movq	%r13, %rsi
	movq	%r12, %rdx
	movq	%r15, %rcx
	movq	%r14, %r8
	movq	608(%rsp), %r9
                                        # kill: def $r9d killed $r9d killed $r9
	callq	"deerlapse_0_1_0_v3::key_derivation::hkdf::write_hkdf_label"
	leaq	16(%rsp), %rsi
	movq	%rbx, (%rsi)
	movq	%rax, 8(%rsi)
	movq	%rbp, %rdi
	movq	8(%rsp), %rdx                   # 8-byte Reload
	movq	608(%rsp), %rcx
	callq	"deerlapse_0_1_0_v3::key_derivation::hkdf::Expander::fill_okm::<#01e4f4eb65b1d8bb>"
	addq	$552, %rsp                      # imm = 0x228
	.cfi_def_cfa_offset 56
	popq	%rbx
	.cfi_def_cfa_offset 48
	popq	%r12
	.cfi_def_cfa_offset 40
	popq	%r13
	.cfi_def_cfa_offset 32
	popq	%r14
	.cfi_def_cfa_offset 24
	popq	%r15
	.cfi_def_cfa_offset 16
	popq	%rbp
	.cfi_def_cfa_offset 8
	retq
.Ldeerlapse_0_1_0_v3_func_end36:
	.size	"deerlapse_0_1_0_v3::key_derivation::hkdf::Expander::fill_labeled::<#01e4f4eb65b1d8bb>", .Ldeerlapse_0_1_0_v3_func_end36-"deerlapse_0_1_0_v3::key_derivation::hkdf::Expander::fill_labeled::<#01e4f4eb65b1d8bb>"
	.cfi_endproc
                                        # -- End function
	.section	.text.deerlapse_key_derivation,"ax",@progbits
	.type	"deerlapse_0_1_0_v3::key_derivation::secret::Secret::next",@function # -- Begin function key_derivation::secret::Secret::next
"deerlapse_0_1_0_v3::key_derivation::secret::Secret::next": # @"deerlapse_0_1_0_v3::key_derivation::secret::Secret::next"
	.cfi_startproc
# %bb.0:                                # %start
	pushq	%rbp
	.cfi_def_cfa_offset 16
	pushq	%r15
	.cfi_def_cfa_offset 24
	pushq	%r14
	.cfi_def_cfa_offset 32
	pushq	%r13
	.cfi_def_cfa_offset 40
	pushq	%r12
	.cfi_def_cfa_offset 48
	pushq	%rbx
	.cfi_def_cfa_offset 56
	subq	$824, %rsp                      # imm = 0x338
	.cfi_def_cfa_offset 880
	.cfi_offset %rbx, -56
	.cfi_offset %r12, -48
	.cfi_offset %r13, -40
	.cfi_offset %r14, -32
	.cfi_offset %r15, -24
	.cfi_offset %rbp, -16
	movq	%rcx, %r14
	movq	%rdx, %r15
	movq	%rsi, %rax
	movq	%rdi, %rbx
	incq	%rsi
	cmpb	$0, (%rax)
	je	.Ldeerlapse_0_1_0_v3_BB37_1
# %bb.2:                                # %arm.2
	leaq	400(%rsp), %r12
	movl	$48, %edx
	movq	%r12, %rdi
	callq	"deerlapse_0_1_0_v3::key_derivation::hmac::HmacKey::new::<#01e4f4eb65b1d8bb>"
	vxorps	%xmm0, %xmm0, %xmm0
	leaq	112(%rsp), %r13
	vmovups	%ymm0, 16(%r13)
	vmovups	%ymm0, (%r13)
	movq	$48, (%rsp)
	leaq	.Ldeerlapse_0_1_0_v3_static.6(%rip), %rcx
	movq	%r12, %rdi
	movq	%r15, %rsi
	movq	%r14, %rdx
	xorl	%r8d, %r8d
	movq	%r13, %r9
	vzeroupper
	callq	"deerlapse_0_1_0_v3::key_derivation::hkdf::Expander::fill_labeled::<#01e4f4eb65b1d8bb>"
	vmovups	(%r13), %ymm0
	vmovups	16(%r13), %ymm1
	vmovups	%ymm1, 80(%rsp)
	vmovups	%ymm0, 64(%rsp)
	vmovups	64(%rsp), %ymm0
	vmovups	%ymm0, 16(%rsp)
	vmovups	80(%rsp), %ymm0
	vmovups	%ymm0, 32(%rsp)
	movb	$1, %bpl
	jmp	.Ldeerlapse_0_1_0_v3_BB37_3
.Ldeerlapse_0_1_0_v3_BB37_1:                               # %arm.1
	leaq	192(%rsp), %r12
	movl	$32, %edx
	movq	%r12, %rdi
	callq	"deerlapse_0_1_0_v3::key_derivation::hmac::HmacKey::new::<#7cab53feae2e1c66>"
	vxorps	%xmm0, %xmm0, %xmm0
	leaq	112(%rsp), %r13
	vmovups	%ymm0, (%r13)
	movq	$32, (%rsp)
	leaq	.Ldeerlapse_0_1_0_v3_static.6(%rip), %rcx
	xorl	%ebp, %ebp
	movq	%r12, %rdi
	movq	%r15, %rsi
	movq	%r14, %rdx
	xorl	%r8d, %r8d
	movq	%r13, %r9
	vzeroupper
	callq	"deerlapse_0_1_0_v3::key_derivation::hkdf::Expander::fill_labeled::<#7cab53feae2e1c66>"
	vmovups	(%r13), %ymm0
	vmovups	%ymm0, 160(%rsp)
	vxorps	%xmm1, %xmm1, %xmm1
	vmovaps	%xmm1, 32(%r13)
	vmovups	%ymm0, (%r13)
	vmovups	%ymm0, 16(%rsp)
	vmovups	16(%r13), %xmm0
	vmovups	%xmm0, 32(%rsp)
	vmovups	32(%r13), %xmm0
	vmovups	%xmm0, 48(%rsp)
.Ldeerlapse_0_1_0_v3_BB37_3:                               # %join.4
	movb	%bpl, (%rbx)
	vmovups	16(%rsp), %xmm0
	vmovups	32(%rsp), %xmm1
	vmovups	32(%rsp), %xmm2
	vmovups	48(%rsp), %xmm3
	vmovups	%xmm0, 1(%rbx)
	vmovups	%xmm1, 17(%rbx)
	vmovups	%xmm2, 17(%rbx)
	vmovups	%xmm3, 33(%rbx)
	addq	$824, %rsp                      # imm = 0x338
	.cfi_def_cfa_offset 56
	popq	%rbx
	.cfi_def_cfa_offset 48
	popq	%r12
	.cfi_def_cfa_offset 40
	popq	%r13
	.cfi_def_cfa_offset 32
	popq	%r14
	.cfi_def_cfa_offset 24
	popq	%r15
	.cfi_def_cfa_offset 16
	popq	%rbp
	.cfi_def_cfa_offset 8
	vzeroupper
	retq
.Ldeerlapse_0_1_0_v3_func_end37:
	.size	"deerlapse_0_1_0_v3::key_derivation::secret::Secret::next", .Ldeerlapse_0_1_0_v3_func_end37-"deerlapse_0_1_0_v3::key_derivation::secret::Secret::next"
	.cfi_endproc
                                        # -- End function
	.section	.rodata.cst16,"aM",@progbits,16
	.p2align	4, 0x0                          # -- Begin function deerlapse_0_1_0_v3_chacha20
.Ldeerlapse_0_1_0_v3_CPI38_0:
	.long	1634760805                      # 0x61707865
	.long	857760878                       # 0x3320646e
	.long	2036477234                      # 0x79622d32
	.long	1797285236                      # 0x6b206574
.Ldeerlapse_0_1_0_v3_CPI38_1:
	.byte	2                               # 0x2
	.byte	3                               # 0x3
	.byte	0                               # 0x0
	.byte	1                               # 0x1
	.byte	6                               # 0x6
	.byte	7                               # 0x7
	.byte	4                               # 0x4
	.byte	5                               # 0x5
	.byte	10                              # 0xa
	.byte	11                              # 0xb
	.byte	8                               # 0x8
	.byte	9                               # 0x9
	.byte	14                              # 0xe
	.byte	15                              # 0xf
	.byte	12                              # 0xc
	.byte	13                              # 0xd
.Ldeerlapse_0_1_0_v3_CPI38_2:
	.byte	3                               # 0x3
	.byte	0                               # 0x0
	.byte	1                               # 0x1
	.byte	2                               # 0x2
	.byte	7                               # 0x7
	.byte	4                               # 0x4
	.byte	5                               # 0x5
	.byte	6                               # 0x6
	.byte	11                              # 0xb
	.byte	8                               # 0x8
	.byte	9                               # 0x9
	.byte	10                              # 0xa
	.byte	15                              # 0xf
	.byte	12                              # 0xc
	.byte	13                              # 0xd
	.byte	14                              # 0xe
.Ldeerlapse_0_1_0_v3_CPI38_3:
	.byte	14                              # 0xe
	.byte	15                              # 0xf
	.byte	12                              # 0xc
	.byte	13                              # 0xd
	.byte	2                               # 0x2
	.byte	3                               # 0x3
	.byte	0                               # 0x0
	.byte	1                               # 0x1
	.byte	6                               # 0x6
	.byte	7                               # 0x7
	.byte	4                               # 0x4
	.byte	5                               # 0x5
	.byte	10                              # 0xa
	.byte	11                              # 0xb
	.byte	8                               # 0x8
	.byte	9                               # 0x9
.Ldeerlapse_0_1_0_v3_CPI38_4:
	.long	0                               # 0x0
	.long	1                               # 0x1
	.long	2                               # 0x2
	.long	3                               # 0x3
	.section	.rodata.cst4,"aM",@progbits,4
	.p2align	2, 0x0
.Ldeerlapse_0_1_0_v3_CPI38_5:
	.long	1797285236                      # 0x6b206574
.Ldeerlapse_0_1_0_v3_CPI38_6:
	.long	2036477234                      # 0x79622d32
.Ldeerlapse_0_1_0_v3_CPI38_7:
	.long	857760878                       # 0x3320646e
.Ldeerlapse_0_1_0_v3_CPI38_8:
	.long	1634760805                      # 0x61707865
	.section	.text.deerlapse_0_1_0_v3_chacha20,"ax",@progbits
	.ifdef	deerlapse_in_rust
	.globl	deerlapse_0_1_0_v3_chacha20
	.p2align	4
	.type	deerlapse_0_1_0_v3_chacha20,@function
deerlapse_0_1_0_v3_chacha20:                     # @deerlapse_0_1_0_v3_chacha20
	.size	deerlapse_0_1_0_v3_chacha20, .Ldeerlapse_0_1_0_v3_func_end38-deerlapse_0_1_0_v3_chacha20
	.else
	.globl	deerlapse_chacha20
	.p2align	4
	.type	deerlapse_chacha20,@function
deerlapse_chacha20:                     # @deerlapse_chacha20
	.size	deerlapse_chacha20, .Ldeerlapse_0_1_0_v3_func_end38-deerlapse_chacha20
	.endif
	.cfi_startproc
# %bb.0:                                # %start
	endbr64
	pushq	%rbp
	.cfi_def_cfa_offset 16
	pushq	%r15
	.cfi_def_cfa_offset 24
	pushq	%r14
	.cfi_def_cfa_offset 32
	pushq	%r13
	.cfi_def_cfa_offset 40
	pushq	%r12
	.cfi_def_cfa_offset 48
	pushq	%rbx
	.cfi_def_cfa_offset 56
	subq	$696, %rsp                      # imm = 0x2B8
	.cfi_def_cfa_offset 752
	.cfi_offset %rbx, -56
	.cfi_offset %r12, -48
	.cfi_offset %r13, -40
	.cfi_offset %r14, -32
	.cfi_offset %r15, -24
	.cfi_offset %rbp, -16
	movq	%r8, %rbx
	movq	%rcx, %r14
	movl	%edx, %r15d
	xorl	%eax, %eax
	testq	%rcx, %rcx
	sete	%cl
	movl	%edx, %edx
	movabsq	$4294967296, %r8                # imm = 0x100000000
	subq	%rdx, %r8
	movq	%rbx, %r13
	shrq	$6, %r13
	movl	%ebx, %edx
	andl	$63, %edx
	cmpq	$1, %rdx
	sbbq	$-1, %r13
	movq	%r8, 56(%rsp)                   # 8-byte Spill
	cmpq	%r13, %r8
	jb	.Ldeerlapse_0_1_0_v3_BB38_17
# %bb.1:                                # %join.3.i
	testq	%rbx, %rbx
	je	.Ldeerlapse_0_1_0_v3_BB38_17
# %bb.2:                                # %join.5.lr.ph.i.i.i
	movb	%cl, %al
	shll	$12, %eax
	addq	%rax, %r14
	movl	(%rsi), %ebp
	movq	4(%rsi), %rcx
	vmovq	%rcx, %xmm0
	vmovdqa	%xmm0, 400(%rsp)                # 16-byte Spill
	movq	24(%rdi), %rax
	movq	8(%rdi), %rdx
	vmovd	%ebp, %xmm0
	vpbroadcastd	%xmm0, %xmm0
	vmovdqa	%xmm0, 288(%rsp)                # 16-byte Spill
	vmovd	%ecx, %xmm0
	vpbroadcastd	%xmm0, %xmm0
	vmovdqa	%xmm0, 272(%rsp)                # 16-byte Spill
	shrq	$32, %rcx
	vmovd	%ecx, %xmm0
	vpbroadcastd	%xmm0, %xmm0
	vmovdqa	%xmm0, 256(%rsp)                # 16-byte Spill
	vmovups	(%rdi), %xmm0
	vmovaps	%xmm0, 240(%rsp)                # 16-byte Spill
	vmovups	16(%rdi), %xmm0
	vmovaps	%xmm0, 224(%rsp)                # 16-byte Spill
	vbroadcastss	(%rdi), %xmm0
	vmovaps	%xmm0, 208(%rsp)                # 16-byte Spill
	vbroadcastss	4(%rdi), %xmm0
	vmovaps	%xmm0, 192(%rsp)                # 16-byte Spill
	vmovd	%edx, %xmm0
	vpbroadcastd	%xmm0, %xmm0
	vmovdqa	%xmm0, 176(%rsp)                # 16-byte Spill
	shrq	$32, %rdx
	vmovd	%edx, %xmm0
	vpbroadcastd	%xmm0, %xmm0
	vmovdqa	%xmm0, 160(%rsp)                # 16-byte Spill
	vbroadcastss	16(%rdi), %xmm0
	vmovaps	%xmm0, 144(%rsp)                # 16-byte Spill
	vbroadcastss	20(%rdi), %xmm0
	vmovaps	%xmm0, 128(%rsp)                # 16-byte Spill
	vmovd	%eax, %xmm0
	vpbroadcastd	%xmm0, %xmm0
	vmovdqa	%xmm0, 112(%rsp)                # 16-byte Spill
	shrq	$32, %rax
	vmovd	%eax, %xmm0
	vpbroadcastd	%xmm0, %xmm0
	vmovdqa	%xmm0, 96(%rsp)                 # 16-byte Spill
	xorl	%edi, %edi
	xorl	%r12d, %r12d
	jmp	.Ldeerlapse_0_1_0_v3_BB38_3
	.p2align	4
.Ldeerlapse_0_1_0_v3_BB38_15:                              # %"aead_ciphers_base::chacha::xor_stream::<=64>.exit.loopexit.i.i.i"
                                        #   in Loop: Header=BB38_3 Depth=1
	leaq	560(%rsp), %rsi
	vzeroupper
	callq	memcpy@PLT
	incq	%r12
	movq	%r12, %rdi
	shlq	$6, %rdi
	cmpq	%rbx, %rdi
	jae	.Ldeerlapse_0_1_0_v3_BB38_17
.Ldeerlapse_0_1_0_v3_BB38_3:                               # %join.5.i.i.i
                                        # =>This Loop Header: Depth=1
                                        #     Child Loop BB38_8 Depth 2
                                        #     Child Loop BB38_13 Depth 2
                                        #     Child Loop BB38_5 Depth 2
	movq	%rbx, %rax
	subq	%rdi, %rax
	leal	(%r15,%r12), %ecx
	vmovd	%ecx, %xmm0
	cmpq	$256, %rax                      # imm = 0x100
	jb	.Ldeerlapse_0_1_0_v3_BB38_7
# %bb.4:                                # %then.6.i.i.i
                                        #   in Loop: Header=BB38_3 Depth=1
	vpbroadcastd	%xmm0, %xmm0
	vpaddd	.Ldeerlapse_0_1_0_v3_CPI38_4(%rip), %xmm0, %xmm0
	vpbroadcastd	.Ldeerlapse_0_1_0_v3_CPI38_5(%rip), %xmm5  # xmm5 = [1797285236,1797285236,1797285236,1797285236]
	vpbroadcastd	.Ldeerlapse_0_1_0_v3_CPI38_6(%rip), %xmm8  # xmm8 = [2036477234,2036477234,2036477234,2036477234]
	vpbroadcastd	.Ldeerlapse_0_1_0_v3_CPI38_7(%rip), %xmm9  # xmm9 = [857760878,857760878,857760878,857760878]
	vpbroadcastd	.Ldeerlapse_0_1_0_v3_CPI38_8(%rip), %xmm10 # xmm10 = [1634760805,1634760805,1634760805,1634760805]
	movl	$10, %eax
	vmovdqa	208(%rsp), %xmm11               # 16-byte Reload
	vmovaps	192(%rsp), %xmm1                # 16-byte Reload
	vmovaps	%xmm1, 368(%rsp)                # 16-byte Spill
	vmovaps	176(%rsp), %xmm1                # 16-byte Reload
	vmovaps	%xmm1, 336(%rsp)                # 16-byte Spill
	vmovaps	160(%rsp), %xmm1                # 16-byte Reload
	vmovaps	%xmm1, 304(%rsp)                # 16-byte Spill
	vmovdqa	144(%rsp), %xmm15               # 16-byte Reload
	vmovdqa	128(%rsp), %xmm1                # 16-byte Reload
	vmovdqa	112(%rsp), %xmm6                # 16-byte Reload
	vmovdqa	96(%rsp), %xmm7                 # 16-byte Reload
	vmovdqa	%xmm0, (%rsp)                   # 16-byte Spill
	vmovdqa	288(%rsp), %xmm13               # 16-byte Reload
	vmovdqa	272(%rsp), %xmm14               # 16-byte Reload
	vmovaps	256(%rsp), %xmm2                # 16-byte Reload
	vmovaps	%xmm2, 64(%rsp)                 # 16-byte Spill
	.p2align	4
.Ldeerlapse_0_1_0_v3_BB38_5:                               # %join.5.i.i.i.i.i
                                        #   Parent Loop BB38_3 Depth=1
                                        # =>  This Inner Loop Header: Depth=2
	vpaddd	%xmm10, %xmm11, %xmm10
	vpxor	%xmm0, %xmm10, %xmm0
	vmovdqa	.Ldeerlapse_0_1_0_v3_CPI38_1(%rip), %xmm12         # xmm12 = [2,3,0,1,6,7,4,5,10,11,8,9,14,15,12,13]
	vpshufb	%xmm12, %xmm0, %xmm0
	vpaddd	%xmm0, %xmm15, %xmm15
	vpxor	%xmm11, %xmm15, %xmm11
	vpsrld	$20, %xmm11, %xmm2
	vpslld	$12, %xmm11, %xmm11
	vpor	%xmm2, %xmm11, %xmm2
	vpaddd	%xmm2, %xmm10, %xmm10
	vmovdqa	.Ldeerlapse_0_1_0_v3_CPI38_2(%rip), %xmm11         # xmm11 = [3,0,1,2,7,4,5,6,11,8,9,10,15,12,13,14]
	vpshufb	%xmm11, %xmm0, %xmm0
	vpshufb	%xmm11, %xmm10, %xmm3
	vpxor	%xmm0, %xmm3, %xmm0
	vmovdqa	%xmm0, 16(%rsp)                 # 16-byte Spill
	vpaddd	%xmm0, %xmm15, %xmm15
	vpxor	%xmm2, %xmm15, %xmm2
	vpsrld	$25, %xmm2, %xmm3
	vpslld	$7, %xmm2, %xmm2
	vpor	%xmm3, %xmm2, %xmm0
	vmovdqa	%xmm0, 528(%rsp)                # 16-byte Spill
	vmovdqa	368(%rsp), %xmm0                # 16-byte Reload
	vpaddd	%xmm0, %xmm9, %xmm2
	vpxor	%xmm2, %xmm13, %xmm3
	vpshufb	%xmm12, %xmm3, %xmm3
	vpaddd	%xmm1, %xmm3, %xmm13
	vpxor	%xmm0, %xmm13, %xmm1
	vpsrld	$20, %xmm1, %xmm9
	vpslld	$12, %xmm1, %xmm1
	vpor	%xmm1, %xmm9, %xmm4
	vpaddd	%xmm2, %xmm4, %xmm9
	vpshufb	%xmm11, %xmm3, %xmm1
	vpshufb	%xmm11, %xmm9, %xmm2
	vpxor	%xmm1, %xmm2, %xmm1
	vpaddd	%xmm1, %xmm13, %xmm0
	vmovdqa	%xmm0, 32(%rsp)                 # 16-byte Spill
	vpxor	%xmm4, %xmm0, %xmm2
	vpsrld	$25, %xmm2, %xmm3
	vpslld	$7, %xmm2, %xmm2
	vpor	%xmm3, %xmm2, %xmm13
	vmovdqa	336(%rsp), %xmm0                # 16-byte Reload
	vpaddd	%xmm0, %xmm8, %xmm2
	vpxor	%xmm2, %xmm14, %xmm3
	vpshufb	%xmm12, %xmm3, %xmm3
	vpaddd	%xmm6, %xmm3, %xmm4
	vpxor	%xmm0, %xmm4, %xmm6
	vpsrld	$20, %xmm6, %xmm8
	vpslld	$12, %xmm6, %xmm6
	vpor	%xmm6, %xmm8, %xmm6
	vpaddd	%xmm2, %xmm6, %xmm8
	vpshufb	%xmm11, %xmm3, %xmm2
	vpshufb	%xmm11, %xmm8, %xmm3
	vpxor	%xmm2, %xmm3, %xmm14
	vpaddd	%xmm4, %xmm14, %xmm4
	vpxor	%xmm6, %xmm4, %xmm2
	vpsrld	$25, %xmm2, %xmm3
	vpslld	$7, %xmm2, %xmm2
	vpor	%xmm3, %xmm2, %xmm2
	vmovdqa	304(%rsp), %xmm0                # 16-byte Reload
	vpaddd	%xmm5, %xmm0, %xmm3
	vpxor	64(%rsp), %xmm3, %xmm5          # 16-byte Folded Reload
	vpshufb	%xmm12, %xmm5, %xmm6
	vpaddd	%xmm7, %xmm6, %xmm7
	vpxor	%xmm0, %xmm7, %xmm5
	vpsrld	$20, %xmm5, %xmm0
	vpslld	$12, %xmm5, %xmm5
	vpor	%xmm0, %xmm5, %xmm0
	vpaddd	%xmm3, %xmm0, %xmm5
	vpshufb	%xmm11, %xmm6, %xmm3
	vpshufb	%xmm11, %xmm5, %xmm6
	vpxor	%xmm3, %xmm6, %xmm6
	vpaddd	%xmm7, %xmm6, %xmm7
	vpxor	%xmm0, %xmm7, %xmm0
	vpsrld	$25, %xmm0, %xmm3
	vpslld	$7, %xmm0, %xmm0
	vpor	%xmm3, %xmm0, %xmm3
	vpaddd	%xmm10, %xmm13, %xmm0
	vpshufb	%xmm12, %xmm6, %xmm6
	vpshufb	%xmm12, %xmm0, %xmm10
	vpxor	%xmm6, %xmm10, %xmm6
	vpaddd	%xmm4, %xmm6, %xmm4
	vpxor	%xmm4, %xmm13, %xmm10
	vpsrld	$20, %xmm10, %xmm13
	vpslld	$12, %xmm10, %xmm10
	vpor	%xmm13, %xmm10, %xmm13
	vpaddd	%xmm0, %xmm13, %xmm10
	vpshufb	%xmm11, %xmm6, %xmm0
	vpshufb	%xmm11, %xmm10, %xmm6
	vpxor	%xmm0, %xmm6, %xmm0
	vmovdqa	%xmm0, 64(%rsp)                 # 16-byte Spill
	vpaddd	%xmm4, %xmm0, %xmm6
	vpxor	%xmm6, %xmm13, %xmm0
	vpsrld	$25, %xmm0, %xmm4
	vpslld	$7, %xmm0, %xmm0
	vpor	%xmm4, %xmm0, %xmm0
	vmovdqa	%xmm0, 368(%rsp)                # 16-byte Spill
	vpaddd	%xmm2, %xmm9, %xmm0
	vmovdqa	16(%rsp), %xmm4                 # 16-byte Reload
	vpshufb	%xmm12, %xmm4, %xmm4
	vpshufb	%xmm12, %xmm0, %xmm9
	vpxor	%xmm4, %xmm9, %xmm4
	vpaddd	%xmm7, %xmm4, %xmm7
	vpxor	%xmm2, %xmm7, %xmm2
	vpsrld	$20, %xmm2, %xmm9
	vpslld	$12, %xmm2, %xmm2
	vpor	%xmm2, %xmm9, %xmm2
	vpaddd	%xmm0, %xmm2, %xmm9
	vpshufb	%xmm11, %xmm4, %xmm0
	vpshufb	%xmm11, %xmm9, %xmm4
	vpxor	%xmm0, %xmm4, %xmm0
	vpaddd	%xmm7, %xmm0, %xmm7
	vpxor	%xmm2, %xmm7, %xmm2
	vpsrld	$25, %xmm2, %xmm4
	vpslld	$7, %xmm2, %xmm2
	vpor	%xmm4, %xmm2, %xmm2
	vmovdqa	%xmm2, 336(%rsp)                # 16-byte Spill
	vpaddd	%xmm3, %xmm8, %xmm2
	vpshufb	%xmm12, %xmm1, %xmm1
	vpshufb	%xmm12, %xmm2, %xmm4
	vpxor	%xmm1, %xmm4, %xmm1
	vpaddd	%xmm1, %xmm15, %xmm4
	vpxor	%xmm3, %xmm4, %xmm3
	vpsrld	$20, %xmm3, %xmm8
	vpslld	$12, %xmm3, %xmm3
	vpor	%xmm3, %xmm8, %xmm3
	vpaddd	%xmm2, %xmm3, %xmm8
	vpshufb	%xmm11, %xmm1, %xmm1
	vpshufb	%xmm11, %xmm8, %xmm2
	vpxor	%xmm1, %xmm2, %xmm13
	vpaddd	%xmm4, %xmm13, %xmm15
	vpxor	%xmm3, %xmm15, %xmm1
	vpsrld	$25, %xmm1, %xmm2
	vpslld	$7, %xmm1, %xmm1
	vpor	%xmm2, %xmm1, %xmm1
	vmovdqa	%xmm1, 304(%rsp)                # 16-byte Spill
	vmovdqa	528(%rsp), %xmm4                # 16-byte Reload
	vpaddd	%xmm5, %xmm4, %xmm1
	vpshufb	%xmm12, %xmm14, %xmm2
	vpshufb	%xmm12, %xmm1, %xmm3
	vpxor	%xmm2, %xmm3, %xmm2
	vpaddd	32(%rsp), %xmm2, %xmm3          # 16-byte Folded Reload
	vpxor	%xmm4, %xmm3, %xmm4
	vpsrld	$20, %xmm4, %xmm5
	vpslld	$12, %xmm4, %xmm4
	vpor	%xmm5, %xmm4, %xmm4
	vpaddd	%xmm1, %xmm4, %xmm5
	vpshufb	%xmm11, %xmm2, %xmm1
	vpshufb	%xmm11, %xmm5, %xmm2
	vpxor	%xmm1, %xmm2, %xmm14
	vpaddd	%xmm3, %xmm14, %xmm1
	vpxor	%xmm4, %xmm1, %xmm2
	vpsrld	$25, %xmm2, %xmm3
	vpslld	$7, %xmm2, %xmm2
	vpor	%xmm3, %xmm2, %xmm11
	decl	%eax
	jne	.Ldeerlapse_0_1_0_v3_BB38_5
# %bb.6:                                # %vector.body
                                        #   in Loop: Header=BB38_3 Depth=1
	vpaddd	(%rsp), %xmm0, %xmm3            # 16-byte Folded Reload
	vmovdqa	%xmm3, 16(%rsp)                 # 16-byte Spill
	vpaddd	288(%rsp), %xmm13, %xmm4        # 16-byte Folded Reload
	vmovdqa	%xmm4, 32(%rsp)                 # 16-byte Spill
	vpaddd	272(%rsp), %xmm14, %xmm2        # 16-byte Folded Reload
	vmovdqa	%xmm2, 464(%rsp)                # 16-byte Spill
	vmovdqa	64(%rsp), %xmm0                 # 16-byte Reload
	vpaddd	256(%rsp), %xmm0, %xmm14        # 16-byte Folded Reload
	vpunpckhdq	%xmm4, %xmm3, %xmm0     # xmm0 = xmm3[2],xmm4[2],xmm3[3],xmm4[3]
	vmovdqa	%xmm0, 480(%rsp)                # 16-byte Spill
	vshufps	$254, %xmm2, %xmm0, %xmm0       # xmm0 = xmm0[2,3],xmm2[3,3]
	vblendps	$8, %xmm14, %xmm0, %xmm0        # xmm0 = xmm0[0,1,2],xmm14[3]
	vpaddd	144(%rsp), %xmm15, %xmm2        # 16-byte Folded Reload
	vmovdqa	%xmm2, 512(%rsp)                # 16-byte Spill
	vpaddd	128(%rsp), %xmm1, %xmm1         # 16-byte Folded Reload
	vmovdqa	%xmm1, (%rsp)                   # 16-byte Spill
	vpaddd	112(%rsp), %xmm6, %xmm3         # 16-byte Folded Reload
	vmovdqu	%ymm3, 64(%rsp)                 # 32-byte Spill
	vpaddd	96(%rsp), %xmm7, %xmm13         # 16-byte Folded Reload
	vpunpckhdq	%xmm1, %xmm2, %xmm6     # xmm6 = xmm2[2],xmm1[2],xmm2[3],xmm1[3]
	vshufps	$254, %xmm3, %xmm6, %xmm1       # xmm1 = xmm6[2,3],xmm3[3,3]
	vblendps	$8, %xmm13, %xmm1, %xmm1        # xmm1 = xmm1[0,1,2],xmm13[3]
	vinsertf128	$1, %xmm0, %ymm1, %ymm0
	vmovups	%ymm0, 528(%rsp)                # 32-byte Spill
	vpbroadcastd	.Ldeerlapse_0_1_0_v3_CPI38_8(%rip), %xmm0  # xmm0 = [1634760805,1634760805,1634760805,1634760805]
	vpaddd	%xmm0, %xmm10, %xmm1
	vmovdqa	%xmm1, 432(%rsp)                # 16-byte Spill
	vpbroadcastd	.Ldeerlapse_0_1_0_v3_CPI38_7(%rip), %xmm0  # xmm0 = [857760878,857760878,857760878,857760878]
	vpaddd	%xmm0, %xmm9, %xmm10
	vmovdqa	%xmm10, 448(%rsp)               # 16-byte Spill
	vpbroadcastd	.Ldeerlapse_0_1_0_v3_CPI38_6(%rip), %xmm0  # xmm0 = [2036477234,2036477234,2036477234,2036477234]
	vpaddd	%xmm0, %xmm8, %xmm7
	vpbroadcastd	.Ldeerlapse_0_1_0_v3_CPI38_5(%rip), %xmm0  # xmm0 = [1797285236,1797285236,1797285236,1797285236]
	vpaddd	%xmm0, %xmm5, %xmm12
	vpaddd	208(%rsp), %xmm11, %xmm2        # 16-byte Folded Reload
	vmovdqa	%xmm2, 416(%rsp)                # 16-byte Spill
	vmovdqa	368(%rsp), %xmm0                # 16-byte Reload
	vpaddd	192(%rsp), %xmm0, %xmm11        # 16-byte Folded Reload
	vmovdqa	336(%rsp), %xmm0                # 16-byte Reload
	vpaddd	176(%rsp), %xmm0, %xmm9         # 16-byte Folded Reload
	vmovdqa	304(%rsp), %xmm0                # 16-byte Reload
	vpaddd	160(%rsp), %xmm0, %xmm4         # 16-byte Folded Reload
	vpunpckhdq	%xmm11, %xmm2, %xmm3    # xmm3 = xmm2[2],xmm11[2],xmm2[3],xmm11[3]
	vshufps	$254, %xmm9, %xmm3, %xmm2       # xmm2 = xmm3[2,3],xmm9[3,3]
	vblendps	$8, %xmm4, %xmm2, %xmm2         # xmm2 = xmm2[0,1,2],xmm4[3]
	vpunpckhdq	%xmm10, %xmm1, %xmm0    # xmm0 = xmm1[2],xmm10[2],xmm1[3],xmm10[3]
	vmovdqu	%ymm7, 624(%rsp)                # 32-byte Spill
	vshufps	$254, %xmm7, %xmm0, %xmm15      # xmm15 = xmm0[2,3],xmm7[3,3]
	vblendps	$8, %xmm12, %xmm15, %xmm15      # xmm15 = xmm15[0,1,2],xmm12[3]
	vinsertf128	$1, %xmm2, %ymm15, %ymm1
	vmovups	%ymm1, 368(%rsp)                # 32-byte Spill
	vmovaps	464(%rsp), %xmm1                # 16-byte Reload
	vblendps	$3, 480(%rsp), %xmm1, %xmm2     # 16-byte Folded Reload
                                        # xmm2 = mem[0,1],xmm1[2,3]
	vmovups	64(%rsp), %ymm5                 # 32-byte Reload
	vblendps	$12, %xmm5, %xmm6, %xmm6        # xmm6 = xmm6[0,1],xmm5[2,3]
	vinsertf128	$1, %xmm2, %ymm6, %ymm6
	vinsertf128	$1, %xmm14, %ymm13, %ymm10
	vshufps	$170, %ymm10, %ymm10, %ymm15    # ymm15 = ymm10[2,2,2,2,6,6,6,6]
	vblendps	$136, %ymm15, %ymm6, %ymm2      # ymm2 = ymm6[0,1,2],ymm15[3],ymm6[4,5,6],ymm15[7]
	vmovups	%ymm2, 336(%rsp)                # 32-byte Spill
	vblendps	$12, %xmm9, %xmm3, %xmm3        # xmm3 = xmm3[0,1],xmm9[2,3]
	vblendps	$12, %xmm7, %xmm0, %xmm0        # xmm0 = xmm0[0,1],xmm7[2,3]
	vinsertf128	$1, %xmm3, %ymm0, %ymm0
	vinsertf128	$1, %xmm4, %ymm12, %ymm2
	vmovups	%ymm2, 480(%rsp)                # 32-byte Spill
	vshufps	$170, %ymm2, %ymm2, %ymm6       # ymm6 = ymm2[2,2,2,2,6,6,6,6]
	vblendps	$136, %ymm6, %ymm0, %ymm0       # ymm0 = ymm0[0,1,2],ymm6[3],ymm0[4,5,6],ymm6[7]
	vmovups	%ymm0, 304(%rsp)                # 32-byte Spill
	vmovaps	16(%rsp), %xmm8                 # 16-byte Reload
	vshufps	$85, %xmm8, %xmm8, %xmm6        # xmm6 = xmm8[1,1,1,1]
	vmovaps	32(%rsp), %xmm7                 # 16-byte Reload
	vblendps	$2, %xmm7, %xmm6, %xmm6         # xmm6 = xmm6[0],xmm7[1],xmm6[2,3]
	vmovaps	%xmm1, %xmm15
	vshufps	$212, %xmm1, %xmm6, %xmm6       # xmm6 = xmm6[0,1],xmm1[1,3]
	vinsertps	$112, %xmm14, %xmm6, %xmm6 # xmm6 = xmm6[0,1,2],xmm14[1]
	vmovaps	512(%rsp), %xmm2                # 16-byte Reload
	vshufps	$85, %xmm2, %xmm2, %xmm14       # xmm14 = xmm2[1,1,1,1]
	vmovaps	(%rsp), %xmm1                   # 16-byte Reload
	vblendps	$2, %xmm1, %xmm14, %xmm14       # xmm14 = xmm14[0],xmm1[1],xmm14[2,3]
	vshufps	$212, %xmm5, %xmm14, %xmm14     # xmm14 = xmm14[0,1],xmm5[1,3]
	vinsertps	$112, %xmm13, %xmm14, %xmm13 # xmm13 = xmm14[0,1,2],xmm13[1]
	vinsertf128	$1, %xmm6, %ymm13, %ymm0
	vmovups	%ymm0, 656(%rsp)                # 32-byte Spill
	vmovdqa	416(%rsp), %xmm6                # 16-byte Reload
	vpshufd	$85, %xmm6, %xmm13              # xmm13 = xmm6[1,1,1,1]
	vpblendd	$2, %xmm11, %xmm13, %xmm13      # xmm13 = xmm13[0],xmm11[1],xmm13[2,3]
	vshufps	$212, %xmm9, %xmm13, %xmm13     # xmm13 = xmm13[0,1],xmm9[1,3]
	vinsertps	$112, %xmm4, %xmm13, %xmm14 # xmm14 = xmm13[0,1,2],xmm4[1]
	vmovaps	432(%rsp), %xmm3                # 16-byte Reload
	vshufps	$85, %xmm3, %xmm3, %xmm13       # xmm13 = xmm3[1,1,1,1]
	vmovaps	448(%rsp), %xmm0                # 16-byte Reload
	vblendps	$2, %xmm0, %xmm13, %xmm13       # xmm13 = xmm13[0],xmm0[1],xmm13[2,3]
	vmovups	624(%rsp), %ymm5                # 32-byte Reload
	vshufps	$212, %xmm5, %xmm13, %xmm13     # xmm13 = xmm13[0,1],xmm5[1,3]
	vinsertps	$112, %xmm12, %xmm13, %xmm4 # xmm4 = xmm13[0,1,2],xmm12[1]
	vinsertf128	$1, %xmm14, %ymm4, %ymm14
	vunpcklps	%xmm7, %xmm8, %xmm4     # xmm4 = xmm8[0],xmm7[0],xmm8[1],xmm7[1]
	vunpcklps	%xmm1, %xmm2, %xmm13    # xmm13 = xmm2[0],xmm1[0],xmm2[1],xmm1[1]
	vinsertf128	$1, %xmm4, %ymm13, %ymm4
	vmovups	64(%rsp), %ymm1                 # 32-byte Reload
	vinsertf128	$1, %xmm15, %ymm1, %ymm12
	vunpcklpd	%ymm12, %ymm4, %ymm4    # ymm4 = ymm4[0],ymm12[0],ymm4[2],ymm12[2]
	vshufps	$0, %ymm10, %ymm10, %ymm2       # ymm2 = ymm10[0,0,0,0,4,4,4,4]
	vblendps	$136, %ymm2, %ymm4, %ymm2       # ymm2 = ymm4[0,1,2],ymm2[3],ymm4[4,5,6],ymm2[7]
	vpunpckldq	%xmm11, %xmm6, %xmm4    # xmm4 = xmm6[0],xmm11[0],xmm6[1],xmm11[1]
	vunpcklps	%xmm0, %xmm3, %xmm8     # xmm8 = xmm3[0],xmm0[0],xmm3[1],xmm0[1]
	vinsertf128	$1, %xmm4, %ymm8, %ymm4
	vinsertf128	$1, %xmm9, %ymm5, %ymm5
	vunpcklpd	%ymm5, %ymm4, %ymm4     # ymm4 = ymm4[0],ymm5[0],ymm4[2],ymm5[2]
	vpermilps	$0, 480(%rsp), %ymm3    # 32-byte Folded Reload
                                        # ymm3 = mem[0,0,0,0,4,4,4,4]
	vblendps	$136, %ymm3, %ymm4, %ymm3       # ymm3 = ymm4[0,1,2],ymm3[3],ymm4[4,5,6],ymm3[7]
	vxorps	(%r14,%rdi), %ymm3, %ymm3
	vxorps	32(%r14,%rdi), %ymm2, %ymm2
	vxorps	64(%r14,%rdi), %ymm14, %ymm1
	vmovdqu	656(%rsp), %ymm0                # 32-byte Reload
	vpxor	96(%r14,%rdi), %ymm0, %ymm4
	vmovdqu	304(%rsp), %ymm0                # 32-byte Reload
	vpxor	128(%r14,%rdi), %ymm0, %ymm0
	vmovdqu	336(%rsp), %ymm5                # 32-byte Reload
	vpxor	160(%r14,%rdi), %ymm5, %ymm5
	vmovdqu	368(%rsp), %ymm6                # 32-byte Reload
	vpxor	192(%r14,%rdi), %ymm6, %ymm6
	vmovdqu	528(%rsp), %ymm7                # 32-byte Reload
	vpxor	224(%r14,%rdi), %ymm7, %ymm7
	vmovups	%ymm3, (%r14,%rdi)
	vmovups	%ymm2, 32(%r14,%rdi)
	vmovups	%ymm1, 64(%r14,%rdi)
	vmovdqu	%ymm4, 96(%r14,%rdi)
	vmovdqu	%ymm0, 128(%r14,%rdi)
	vmovdqu	%ymm5, 160(%r14,%rdi)
	vmovdqu	%ymm6, 192(%r14,%rdi)
	vmovdqu	%ymm7, 224(%r14,%rdi)
	addq	$4, %r12
	movq	%r12, %rdi
	shlq	$6, %rdi
	cmpq	%rbx, %rdi
	jb	.Ldeerlapse_0_1_0_v3_BB38_3
	jmp	.Ldeerlapse_0_1_0_v3_BB38_17
	.p2align	4
.Ldeerlapse_0_1_0_v3_BB38_7:                               # %else.7.i.i.i
                                        #   in Loop: Header=BB38_3 Depth=1
	vpinsrd	$1, %ebp, %xmm0, %xmm0
	vpunpcklqdq	400(%rsp), %xmm0, %xmm0 # 16-byte Folded Reload
                                        # xmm0 = xmm0[0],mem[0]
	vmovdqa	.Ldeerlapse_0_1_0_v3_CPI38_0(%rip), %xmm1          # xmm1 = [1634760805,857760878,2036477234,1797285236]
	movl	$10, %ecx
	vmovdqa	240(%rsp), %xmm2                # 16-byte Reload
	vmovdqa	224(%rsp), %xmm3                # 16-byte Reload
	vmovdqa	%xmm0, %xmm4
	.p2align	4
.Ldeerlapse_0_1_0_v3_BB38_8:                               # %join.5.i.i40.i.i.i
                                        #   Parent Loop BB38_3 Depth=1
                                        # =>  This Inner Loop Header: Depth=2
	vpaddd	%xmm1, %xmm2, %xmm1
	vpxor	%xmm1, %xmm4, %xmm4
	vmovdqa	.Ldeerlapse_0_1_0_v3_CPI38_1(%rip), %xmm5          # xmm5 = [2,3,0,1,6,7,4,5,10,11,8,9,14,15,12,13]
	vpshufb	%xmm5, %xmm4, %xmm4
	vpaddd	%xmm3, %xmm4, %xmm3
	vpxor	%xmm2, %xmm3, %xmm2
	vpsrld	$20, %xmm2, %xmm6
	vpslld	$12, %xmm2, %xmm2
	vpor	%xmm6, %xmm2, %xmm2
	vpaddd	%xmm1, %xmm2, %xmm1
	vmovdqa	.Ldeerlapse_0_1_0_v3_CPI38_2(%rip), %xmm6          # xmm6 = [3,0,1,2,7,4,5,6,11,8,9,10,15,12,13,14]
	vpshufb	%xmm6, %xmm1, %xmm7
	vpshufb	%xmm6, %xmm4, %xmm4
	vpxor	%xmm4, %xmm7, %xmm4
	vpaddd	%xmm3, %xmm4, %xmm3
	vpxor	%xmm2, %xmm3, %xmm2
	vpsrld	$25, %xmm2, %xmm7
	vpslld	$7, %xmm2, %xmm2
	vpor	%xmm7, %xmm2, %xmm2
	vpshufd	$57, %xmm2, %xmm2               # xmm2 = xmm2[1,2,3,0]
	vpshufd	$78, %xmm3, %xmm3               # xmm3 = xmm3[2,3,0,1]
	vpaddd	%xmm1, %xmm2, %xmm1
	vpshufb	.Ldeerlapse_0_1_0_v3_CPI38_3(%rip), %xmm4, %xmm4   # xmm4 = xmm4[14,15,12,13,2,3,0,1,6,7,4,5,10,11,8,9]
	vpshufb	%xmm5, %xmm1, %xmm5
	vpxor	%xmm4, %xmm5, %xmm4
	vpaddd	%xmm3, %xmm4, %xmm3
	vpxor	%xmm2, %xmm3, %xmm2
	vpsrld	$20, %xmm2, %xmm5
	vpslld	$12, %xmm2, %xmm2
	vpor	%xmm5, %xmm2, %xmm2
	vpaddd	%xmm1, %xmm2, %xmm1
	vpshufb	%xmm6, %xmm1, %xmm5
	vpshufb	%xmm6, %xmm4, %xmm4
	vpxor	%xmm4, %xmm5, %xmm4
	vpaddd	%xmm3, %xmm4, %xmm3
	vpxor	%xmm2, %xmm3, %xmm2
	vpsrld	$25, %xmm2, %xmm5
	vpslld	$7, %xmm2, %xmm2
	vpor	%xmm5, %xmm2, %xmm2
	vpshufd	$147, %xmm2, %xmm2              # xmm2 = xmm2[3,0,1,2]
	vpshufd	$78, %xmm3, %xmm3               # xmm3 = xmm3[2,3,0,1]
	vpshufd	$57, %xmm4, %xmm4               # xmm4 = xmm4[1,2,3,0]
	decl	%ecx
	jne	.Ldeerlapse_0_1_0_v3_BB38_8
# %bb.9:                                # %iter.check
                                        #   in Loop: Header=BB38_3 Depth=1
	cmpq	$64, %rax
	movl	$64, %edx
	cmovbq	%rax, %rdx
	vpaddd	.Ldeerlapse_0_1_0_v3_CPI38_0(%rip), %xmm1, %xmm1
	vpaddd	240(%rsp), %xmm2, %xmm2         # 16-byte Folded Reload
	vpaddd	224(%rsp), %xmm3, %xmm3         # 16-byte Folded Reload
	vpaddd	%xmm0, %xmm4, %xmm0
	vmovdqu	%xmm2, 576(%rsp)
	vmovdqu	%xmm1, 560(%rsp)
	vmovdqu	%xmm0, 608(%rsp)
	vmovdqu	%xmm3, 592(%rsp)
	addq	%r14, %rdi
	cmpq	$32, %rax
	jae	.Ldeerlapse_0_1_0_v3_BB38_12
# %bb.10:                               #   in Loop: Header=BB38_3 Depth=1
	xorl	%eax, %eax
	jmp	.Ldeerlapse_0_1_0_v3_BB38_11
	.p2align	4
.Ldeerlapse_0_1_0_v3_BB38_12:                              # %vec.epilog.ph
                                        #   in Loop: Header=BB38_3 Depth=1
	movl	%edx, %eax
	andl	$96, %eax
	xorl	%ecx, %ecx
	.p2align	4
.Ldeerlapse_0_1_0_v3_BB38_13:                              # %vec.epilog.vector.body
                                        #   Parent Loop BB38_3 Depth=1
                                        # =>  This Inner Loop Header: Depth=2
	vmovdqu	560(%rsp,%rcx), %ymm0
	vpxor	(%rdi,%rcx), %ymm0, %ymm0
	vmovdqu	%ymm0, 560(%rsp,%rcx)
	addq	$32, %rcx
	cmpq	%rcx, %rax
	jne	.Ldeerlapse_0_1_0_v3_BB38_13
	jmp	.Ldeerlapse_0_1_0_v3_BB38_14
	.p2align	4
.Ldeerlapse_0_1_0_v3_BB38_11:                              # %join.5.i.i59.i.i.i
                                        #   in Loop: Header=BB38_3 Depth=1
	movzbl	(%rdi,%rax), %ecx
	xorb	%cl, 560(%rsp,%rax)
	incq	%rax
.Ldeerlapse_0_1_0_v3_BB38_14:                              # %join.5.i.i59.i.i.i
                                        #   in Loop: Header=BB38_3 Depth=1
	cmpq	%rax, %rdx
	jne	.Ldeerlapse_0_1_0_v3_BB38_11
	jmp	.Ldeerlapse_0_1_0_v3_BB38_15
.Ldeerlapse_0_1_0_v3_BB38_17:                              # %"deerlapse::chacha20::deerlapse_chacha20.exit"
	cmpq	%r13, 56(%rsp)                  # 8-byte Folded Reload
	setae	%al
	addq	$696, %rsp                      # imm = 0x2B8
	.cfi_def_cfa_offset 56
	popq	%rbx
	.cfi_def_cfa_offset 48
	popq	%r12
	.cfi_def_cfa_offset 40
	popq	%r13
	.cfi_def_cfa_offset 32
	popq	%r14
	.cfi_def_cfa_offset 24
	popq	%r15
	.cfi_def_cfa_offset 16
	popq	%rbp
	.cfi_def_cfa_offset 8
	vzeroupper
	retq
.Ldeerlapse_0_1_0_v3_func_end38:
	.cfi_endproc
                                        # -- End function
	.section	.text.deerlapse_0_1_0_v3_hmac,"ax",@progbits
	.ifdef	deerlapse_in_rust
	.globl	deerlapse_0_1_0_v3_hmac                  # -- Begin function deerlapse_0_1_0_v3_hmac
	.type	deerlapse_0_1_0_v3_hmac,@function
deerlapse_0_1_0_v3_hmac:                         # @deerlapse_0_1_0_v3_hmac
	.size	deerlapse_0_1_0_v3_hmac, .Ldeerlapse_0_1_0_v3_func_end39-deerlapse_0_1_0_v3_hmac
	.else
	.globl	deerlapse_hmac                  # -- Begin function deerlapse_hmac
	.type	deerlapse_hmac,@function
deerlapse_hmac:                         # @deerlapse_hmac
	.size	deerlapse_hmac, .Ldeerlapse_0_1_0_v3_func_end39-deerlapse_hmac
	.endif
	.cfi_startproc
# %bb.0:                                # %start
	endbr64
	pushq	%rax
	.cfi_def_cfa_offset 16
	xorl	%eax, %eax
	testq	%rdi, %rdi
	sete	%al
	shll	$12, %eax
	addq	%rax, %rdi
	xorl	%eax, %eax
	testq	%rdx, %rdx
	sete	%al
	shll	$12, %eax
	addq	%rax, %rdx
	xorl	%eax, %eax
	testq	%r8, %r8
	sete	%al
	shll	$12, %eax
	addq	%rax, %r8
	callq	"deerlapse_0_1_0_v3::deerlapse::hkdf::deerlapse_hmac"
	popq	%rcx
	.cfi_def_cfa_offset 8
	retq
.Ldeerlapse_0_1_0_v3_func_end39:
	.cfi_endproc
                                        # -- End function
	.section	.text.deerlapse_0_1_0_v3_hkdf_extract,"ax",@progbits
	.ifdef	deerlapse_in_rust
	.globl	deerlapse_0_1_0_v3_hkdf_extract          # -- Begin function deerlapse_0_1_0_v3_hkdf_extract
	.type	deerlapse_0_1_0_v3_hkdf_extract,@function
deerlapse_0_1_0_v3_hkdf_extract:                 # @deerlapse_0_1_0_v3_hkdf_extract
	.size	deerlapse_0_1_0_v3_hkdf_extract, .Ldeerlapse_0_1_0_v3_func_end40-deerlapse_0_1_0_v3_hkdf_extract
	.else
	.globl	deerlapse_hkdf_extract          # -- Begin function deerlapse_hkdf_extract
	.type	deerlapse_hkdf_extract,@function
deerlapse_hkdf_extract:                 # @deerlapse_hkdf_extract
	.size	deerlapse_hkdf_extract, .Ldeerlapse_0_1_0_v3_func_end40-deerlapse_hkdf_extract
	.endif
	.cfi_startproc
# %bb.0:                                # %start
	endbr64
	pushq	%rax
	.cfi_def_cfa_offset 16
	xorl	%eax, %eax
	testq	%rdi, %rdi
	sete	%al
	shll	$12, %eax
	addq	%rax, %rdi
	xorl	%eax, %eax
	testq	%rdx, %rdx
	sete	%al
	shll	$12, %eax
	addq	%rax, %rdx
	xorl	%eax, %eax
	testq	%r8, %r8
	sete	%al
	shll	$12, %eax
	addq	%rax, %r8
	callq	"deerlapse_0_1_0_v3::deerlapse::hkdf::deerlapse_hmac"
	popq	%rcx
	.cfi_def_cfa_offset 8
	retq
.Ldeerlapse_0_1_0_v3_func_end40:
	.cfi_endproc
                                        # -- End function
	.section	.text.deerlapse_0_1_0_v3_key_wipe,"ax",@progbits
	.ifdef	deerlapse_in_rust
	.globl	deerlapse_0_1_0_v3_key_wipe              # -- Begin function deerlapse_0_1_0_v3_key_wipe
	.p2align	4
	.type	deerlapse_0_1_0_v3_key_wipe,@function
deerlapse_0_1_0_v3_key_wipe:                     # @deerlapse_0_1_0_v3_key_wipe
	.size	deerlapse_0_1_0_v3_key_wipe, .Ldeerlapse_0_1_0_v3_func_end41-deerlapse_0_1_0_v3_key_wipe
	.else
	.globl	deerlapse_key_wipe              # -- Begin function deerlapse_key_wipe
	.p2align	4
	.type	deerlapse_key_wipe,@function
deerlapse_key_wipe:                     # @deerlapse_key_wipe
	.size	deerlapse_key_wipe, .Ldeerlapse_0_1_0_v3_func_end41-deerlapse_key_wipe
	.endif
	.cfi_startproc
# %bb.0:                                # %start
	endbr64
	movl	$3192, %edx                     # imm = 0xC78
	xorl	%esi, %esi
	jmp	memset@PLT                      # TAILCALL
.Ldeerlapse_0_1_0_v3_func_end41:
	.cfi_endproc
                                        # -- End function
	.section	.text.deerlapse_0_1_0_v3_mask_aes,"ax",@progbits
	.ifdef	deerlapse_in_rust
	.globl	deerlapse_0_1_0_v3_mask_aes              # -- Begin function deerlapse_0_1_0_v3_mask_aes
	.p2align	4
	.type	deerlapse_0_1_0_v3_mask_aes,@function
deerlapse_0_1_0_v3_mask_aes:                     # @deerlapse_0_1_0_v3_mask_aes
	.size	deerlapse_0_1_0_v3_mask_aes, .Ldeerlapse_0_1_0_v3_func_end42-deerlapse_0_1_0_v3_mask_aes
	.else
	.globl	deerlapse_mask_aes              # -- Begin function deerlapse_mask_aes
	.p2align	4
	.type	deerlapse_mask_aes,@function
deerlapse_mask_aes:                     # @deerlapse_mask_aes
	.size	deerlapse_mask_aes, .Ldeerlapse_0_1_0_v3_func_end42-deerlapse_mask_aes
	.endif
	.cfi_startproc
# %bb.0:                                # %start
	endbr64
	pushq	%r15
	.cfi_def_cfa_offset 16
	pushq	%r14
	.cfi_def_cfa_offset 24
	pushq	%rbx
	.cfi_def_cfa_offset 32
	subq	$528, %rsp                      # imm = 0x210
	.cfi_def_cfa_offset 560
	.cfi_offset %rbx, -32
	.cfi_offset %r14, -24
	.cfi_offset %r15, -16
	movq	%rcx, %r14
	movq	%rdx, %r15
	movq	%rdi, %rdx
	xorl	%ecx, %ecx
	testq	%rdi, %rdi
	sete	%dil
	movb	$1, %bl
	movb	$1, %al
	cmpq	$32, %rsi
	je	.Ldeerlapse_0_1_0_v3_BB42_4
# %bb.1:                                # %start
	cmpq	$16, %rsi
	jne	.Ldeerlapse_0_1_0_v3_BB42_2
# %bb.3:                                # %join.3.fold.split.i.i
	xorl	%eax, %eax
.Ldeerlapse_0_1_0_v3_BB42_4:                               # %arm.1.i
	movb	%dil, %cl
	shll	$12, %ecx
	addq	%rcx, %rdx
	vxorps	%xmm0, %xmm0, %xmm0
	vmovups	%ymm0, 240(%rsp)
	vmovups	%ymm0, 224(%rsp)
	vmovups	%ymm0, 192(%rsp)
	vmovups	%ymm0, 160(%rsp)
	vmovups	%ymm0, 128(%rsp)
	vmovups	%ymm0, 96(%rsp)
	vmovups	%ymm0, 64(%rsp)
	vmovups	%ymm0, 32(%rsp)
	movzbl	%al, %esi
	leaq	32(%rsp), %rdi
	vzeroupper
	callq	"deerlapse_0_1_0_v3::aead_ciphers_wide::aes::expand"
	vmovups	32(%rsp), %ymm0
	vmovups	64(%rsp), %ymm1
	vmovups	96(%rsp), %ymm2
	vmovups	128(%rsp), %ymm3
	vmovups	%ymm0, 272(%rsp)
	vmovups	%ymm1, 304(%rsp)
	vmovups	%ymm2, 336(%rsp)
	vmovups	%ymm3, 368(%rsp)
	vmovups	160(%rsp), %ymm0
	vmovups	%ymm0, 400(%rsp)
	vmovups	192(%rsp), %ymm0
	vmovups	%ymm0, 432(%rsp)
	vmovups	224(%rsp), %ymm0
	vmovups	%ymm0, 464(%rsp)
	vmovups	240(%rsp), %ymm0
	vmovups	%ymm0, 480(%rsp)
	movq	%rax, 512(%rsp)
	vxorps	%xmm0, %xmm0, %xmm0
	vmovaps	%xmm0, 16(%rsp)
	leaq	16(%rsp), %rdi
	leaq	272(%rsp), %rsi
	movq	%rax, %rdx
	movq	%r15, %rcx
	vzeroupper
	callq	"deerlapse_0_1_0_v3::aead_ciphers_wide::aes::block_key::BlockKeyRef::encrypt_one"
	movzbl	20(%rsp), %eax
	movb	%al, 12(%rsp)
	movl	16(%rsp), %ecx
	movl	%ecx, 8(%rsp)
	movb	%al, 4(%r14)
	movl	%ecx, (%r14)
	jmp	.Ldeerlapse_0_1_0_v3_BB42_5
.Ldeerlapse_0_1_0_v3_BB42_2:
	xorl	%ebx, %ebx
.Ldeerlapse_0_1_0_v3_BB42_5:                               # %"deerlapse::masks::deerlapse_mask_aes.exit"
	movl	%ebx, %eax
	addq	$528, %rsp                      # imm = 0x210
	.cfi_def_cfa_offset 32
	popq	%rbx
	.cfi_def_cfa_offset 24
	popq	%r14
	.cfi_def_cfa_offset 16
	popq	%r15
	.cfi_def_cfa_offset 8
	retq
.Ldeerlapse_0_1_0_v3_func_end42:
	.cfi_endproc
                                        # -- End function
	.section	.rodata.cst16,"aM",@progbits,16
	.p2align	4, 0x0                          # -- Begin function deerlapse_0_1_0_v3_mask_chacha20
.Ldeerlapse_0_1_0_v3_CPI43_0:
	.long	1634760805                      # 0x61707865
	.long	857760878                       # 0x3320646e
	.long	2036477234                      # 0x79622d32
	.long	1797285236                      # 0x6b206574
.Ldeerlapse_0_1_0_v3_CPI43_1:
	.byte	2                               # 0x2
	.byte	3                               # 0x3
	.byte	0                               # 0x0
	.byte	1                               # 0x1
	.byte	6                               # 0x6
	.byte	7                               # 0x7
	.byte	4                               # 0x4
	.byte	5                               # 0x5
	.byte	10                              # 0xa
	.byte	11                              # 0xb
	.byte	8                               # 0x8
	.byte	9                               # 0x9
	.byte	14                              # 0xe
	.byte	15                              # 0xf
	.byte	12                              # 0xc
	.byte	13                              # 0xd
.Ldeerlapse_0_1_0_v3_CPI43_2:
	.byte	3                               # 0x3
	.byte	0                               # 0x0
	.byte	1                               # 0x1
	.byte	2                               # 0x2
	.byte	7                               # 0x7
	.byte	4                               # 0x4
	.byte	5                               # 0x5
	.byte	6                               # 0x6
	.byte	11                              # 0xb
	.byte	8                               # 0x8
	.byte	9                               # 0x9
	.byte	10                              # 0xa
	.byte	15                              # 0xf
	.byte	12                              # 0xc
	.byte	13                              # 0xd
	.byte	14                              # 0xe
.Ldeerlapse_0_1_0_v3_CPI43_3:
	.byte	14                              # 0xe
	.byte	15                              # 0xf
	.byte	12                              # 0xc
	.byte	13                              # 0xd
	.byte	2                               # 0x2
	.byte	3                               # 0x3
	.byte	0                               # 0x0
	.byte	1                               # 0x1
	.byte	6                               # 0x6
	.byte	7                               # 0x7
	.byte	4                               # 0x4
	.byte	5                               # 0x5
	.byte	10                              # 0xa
	.byte	11                              # 0xb
	.byte	8                               # 0x8
	.byte	9                               # 0x9
.Ldeerlapse_0_1_0_v3_CPI43_4:
	.long	1634760805                      # 0x61707865
	.long	857760878                       # 0x3320646e
	.zero	4
	.zero	4
	.section	.text.deerlapse_0_1_0_v3_mask_chacha20,"ax",@progbits
	.ifdef	deerlapse_in_rust
	.globl	deerlapse_0_1_0_v3_mask_chacha20
	.p2align	4
	.type	deerlapse_0_1_0_v3_mask_chacha20,@function
deerlapse_0_1_0_v3_mask_chacha20:                # @deerlapse_0_1_0_v3_mask_chacha20
	.size	deerlapse_0_1_0_v3_mask_chacha20, .Ldeerlapse_0_1_0_v3_func_end43-deerlapse_0_1_0_v3_mask_chacha20
	.else
	.globl	deerlapse_mask_chacha20
	.p2align	4
	.type	deerlapse_mask_chacha20,@function
deerlapse_mask_chacha20:                # @deerlapse_mask_chacha20
	.size	deerlapse_mask_chacha20, .Ldeerlapse_0_1_0_v3_func_end43-deerlapse_mask_chacha20
	.endif
	.cfi_startproc
# %bb.0:                                # %start
	endbr64
	vmovdqu	(%rdi), %xmm1
	vmovdqu	16(%rdi), %xmm2
	vmovdqu	(%rsi), %xmm3
	vmovdqa	.Ldeerlapse_0_1_0_v3_CPI43_0(%rip), %xmm0          # xmm0 = [1634760805,857760878,2036477234,1797285236]
	movl	$10, %eax
	.p2align	4
.Ldeerlapse_0_1_0_v3_BB43_1:                               # %join.5.i.i.i.i
                                        # =>This Inner Loop Header: Depth=1
	vpaddd	%xmm0, %xmm1, %xmm0
	vpxor	%xmm0, %xmm3, %xmm3
	vmovdqa	.Ldeerlapse_0_1_0_v3_CPI43_1(%rip), %xmm4          # xmm4 = [2,3,0,1,6,7,4,5,10,11,8,9,14,15,12,13]
	vpshufb	%xmm4, %xmm3, %xmm3
	vpaddd	%xmm2, %xmm3, %xmm2
	vpxor	%xmm1, %xmm2, %xmm1
	vpsrld	$20, %xmm1, %xmm5
	vpslld	$12, %xmm1, %xmm1
	vpor	%xmm5, %xmm1, %xmm1
	vpaddd	%xmm0, %xmm1, %xmm0
	vmovdqa	.Ldeerlapse_0_1_0_v3_CPI43_2(%rip), %xmm5          # xmm5 = [3,0,1,2,7,4,5,6,11,8,9,10,15,12,13,14]
	vpshufb	%xmm5, %xmm0, %xmm6
	vpshufb	%xmm5, %xmm3, %xmm3
	vpxor	%xmm3, %xmm6, %xmm3
	vpaddd	%xmm2, %xmm3, %xmm2
	vpxor	%xmm1, %xmm2, %xmm1
	vpsrld	$25, %xmm1, %xmm6
	vpslld	$7, %xmm1, %xmm1
	vpor	%xmm6, %xmm1, %xmm1
	vpshufd	$57, %xmm1, %xmm1               # xmm1 = xmm1[1,2,3,0]
	vpshufd	$78, %xmm2, %xmm2               # xmm2 = xmm2[2,3,0,1]
	vpaddd	%xmm0, %xmm1, %xmm0
	vpshufb	.Ldeerlapse_0_1_0_v3_CPI43_3(%rip), %xmm3, %xmm3   # xmm3 = xmm3[14,15,12,13,2,3,0,1,6,7,4,5,10,11,8,9]
	vpshufb	%xmm4, %xmm0, %xmm4
	vpxor	%xmm3, %xmm4, %xmm3
	vpaddd	%xmm2, %xmm3, %xmm2
	vpxor	%xmm1, %xmm2, %xmm1
	vpsrld	$20, %xmm1, %xmm4
	vpslld	$12, %xmm1, %xmm1
	vpor	%xmm4, %xmm1, %xmm1
	vpaddd	%xmm0, %xmm1, %xmm0
	vpshufb	%xmm5, %xmm0, %xmm4
	vpshufb	%xmm5, %xmm3, %xmm3
	vpxor	%xmm3, %xmm4, %xmm3
	vpaddd	%xmm2, %xmm3, %xmm2
	vpxor	%xmm1, %xmm2, %xmm1
	vpsrld	$25, %xmm1, %xmm4
	vpslld	$7, %xmm1, %xmm1
	vpor	%xmm4, %xmm1, %xmm1
	vpshufd	$147, %xmm1, %xmm1              # xmm1 = xmm1[3,0,1,2]
	vpshufd	$78, %xmm2, %xmm2               # xmm2 = xmm2[2,3,0,1]
	vpshufd	$57, %xmm3, %xmm3               # xmm3 = xmm3[1,2,3,0]
	decl	%eax
	jne	.Ldeerlapse_0_1_0_v3_BB43_1
# %bb.2:                                # %"deerlapse::masks::deerlapse_mask_chacha20.exit"
	vpaddd	.Ldeerlapse_0_1_0_v3_CPI43_4(%rip), %xmm0, %xmm0
	vmovd	%xmm0, (%rdx)
	vpextrb	$4, %xmm0, 4(%rdx)
	retq
.Ldeerlapse_0_1_0_v3_func_end43:
	.cfi_endproc
                                        # -- End function
	.section	.text.deerlapse_0_1_0_v3_nonce,"ax",@progbits
	.ifdef	deerlapse_in_rust
	.globl	deerlapse_0_1_0_v3_nonce                 # -- Begin function deerlapse_0_1_0_v3_nonce
	.p2align	4
	.type	deerlapse_0_1_0_v3_nonce,@function
deerlapse_0_1_0_v3_nonce:                        # @deerlapse_0_1_0_v3_nonce
	.size	deerlapse_0_1_0_v3_nonce, .Ldeerlapse_0_1_0_v3_func_end44-deerlapse_0_1_0_v3_nonce
	.else
	.globl	deerlapse_nonce                 # -- Begin function deerlapse_nonce
	.p2align	4
	.type	deerlapse_nonce,@function
deerlapse_nonce:                        # @deerlapse_nonce
	.size	deerlapse_nonce, .Ldeerlapse_0_1_0_v3_func_end44-deerlapse_nonce
	.endif
	.cfi_startproc
# %bb.0:                                # %start
	endbr64
	bswapq	%rsi
	movl	%esi, %eax
	shrl	$24, %eax
	movl	%esi, %ecx
	shrl	$16, %ecx
	vmovd	4(%rdi), %xmm0                  # xmm0 = mem[0],zero,zero,zero
	vmovd	%esi, %xmm1
	movl	%esi, %r8d
	shrl	$8, %r8d
	vpinsrb	$1, %r8d, %xmm1, %xmm1
	vpinsrb	$2, %ecx, %xmm1, %xmm1
	vpinsrb	$3, %eax, %xmm1, %xmm1
	vpxor	%xmm1, %xmm0, %xmm0
	vmovd	(%rdi), %xmm1                   # xmm1 = mem[0],zero,zero,zero
	vpunpckldq	%xmm0, %xmm1, %xmm0     # xmm0 = xmm1[0],xmm0[0],xmm1[1],xmm0[1]
	movq	%rsi, %rax
	shrq	$56, %rax
	movq	%rsi, %rcx
	shrq	$48, %rcx
	movq	%rsi, %r8
	shrq	$40, %r8
	shrq	$32, %rsi
	vmovd	%esi, %xmm1
	vpinsrb	$1, %r8d, %xmm1, %xmm1
	vpinsrb	$2, %ecx, %xmm1, %xmm1
	vmovd	8(%rdi), %xmm2                  # xmm2 = mem[0],zero,zero,zero
	vpinsrb	$3, %eax, %xmm1, %xmm1
	vpxor	%xmm1, %xmm2, %xmm1
	vmovq	%xmm0, (%rdx)
	vmovd	%xmm1, 8(%rdx)
	retq
.Ldeerlapse_0_1_0_v3_func_end44:
	.cfi_endproc
                                        # -- End function
	.section	.text.deerlapse_0_1_0_v3_opener_next,"ax",@progbits
	.ifdef	deerlapse_in_rust
	.globl	deerlapse_0_1_0_v3_opener_next           # -- Begin function deerlapse_0_1_0_v3_opener_next
	.p2align	4
	.type	deerlapse_0_1_0_v3_opener_next,@function
deerlapse_0_1_0_v3_opener_next:                  # @deerlapse_0_1_0_v3_opener_next
	.size	deerlapse_0_1_0_v3_opener_next, .Ldeerlapse_0_1_0_v3_func_end45-deerlapse_0_1_0_v3_opener_next
	.else
	.globl	deerlapse_opener_next           # -- Begin function deerlapse_opener_next
	.p2align	4
	.type	deerlapse_opener_next,@function
deerlapse_opener_next:                  # @deerlapse_opener_next
	.size	deerlapse_opener_next, .Ldeerlapse_0_1_0_v3_func_end45-deerlapse_opener_next
	.endif
	.cfi_startproc
# %bb.0:                                # %start
	endbr64
	movq	3192(%rdi), %rax
	retq
.Ldeerlapse_0_1_0_v3_func_end45:
	.cfi_endproc
                                        # -- End function
	.section	.text.deerlapse_0_1_0_v3_quic_header_key_wipe,"ax",@progbits
	.ifdef	deerlapse_in_rust
	.globl	deerlapse_0_1_0_v3_quic_header_key_wipe  # -- Begin function deerlapse_0_1_0_v3_quic_header_key_wipe
	.p2align	4
	.type	deerlapse_0_1_0_v3_quic_header_key_wipe,@function
deerlapse_0_1_0_v3_quic_header_key_wipe:         # @deerlapse_0_1_0_v3_quic_header_key_wipe
	.size	deerlapse_0_1_0_v3_quic_header_key_wipe, .Ldeerlapse_0_1_0_v3_func_end46-deerlapse_0_1_0_v3_quic_header_key_wipe
	.else
	.globl	deerlapse_quic_header_key_wipe  # -- Begin function deerlapse_quic_header_key_wipe
	.p2align	4
	.type	deerlapse_quic_header_key_wipe,@function
deerlapse_quic_header_key_wipe:         # @deerlapse_quic_header_key_wipe
	.size	deerlapse_quic_header_key_wipe, .Ldeerlapse_0_1_0_v3_func_end46-deerlapse_quic_header_key_wipe
	.endif
	.cfi_startproc
# %bb.0:                                # %start
	endbr64
	vxorps	%xmm0, %xmm0, %xmm0
	vmovups	%ymm0, 216(%rdi)
	vmovups	%ymm0, 192(%rdi)
	vmovups	%ymm0, 160(%rdi)
	vmovups	%ymm0, 128(%rdi)
	vmovups	%ymm0, 96(%rdi)
	vmovups	%ymm0, 64(%rdi)
	vmovups	%ymm0, 32(%rdi)
	vmovups	%ymm0, (%rdi)
	vzeroupper
	retq
.Ldeerlapse_0_1_0_v3_func_end46:
	.cfi_endproc
                                        # -- End function
	.section	.text.deerlapse_0_1_0_v3_quic_initial_secrets,"ax",@progbits
	.ifdef	deerlapse_in_rust
	.globl	deerlapse_0_1_0_v3_quic_initial_secrets  # -- Begin function deerlapse_0_1_0_v3_quic_initial_secrets
	.type	deerlapse_0_1_0_v3_quic_initial_secrets,@function
deerlapse_0_1_0_v3_quic_initial_secrets:         # @deerlapse_0_1_0_v3_quic_initial_secrets
	.size	deerlapse_0_1_0_v3_quic_initial_secrets, .Ldeerlapse_0_1_0_v3_func_end47-deerlapse_0_1_0_v3_quic_initial_secrets
	.else
	.globl	deerlapse_quic_initial_secrets  # -- Begin function deerlapse_quic_initial_secrets
	.type	deerlapse_quic_initial_secrets,@function
deerlapse_quic_initial_secrets:         # @deerlapse_quic_initial_secrets
	.size	deerlapse_quic_initial_secrets, .Ldeerlapse_0_1_0_v3_func_end47-deerlapse_quic_initial_secrets
	.endif
	.cfi_startproc
# %bb.0:                                # %start
	endbr64
	pushq	%rbp
	.cfi_def_cfa_offset 16
	pushq	%r15
	.cfi_def_cfa_offset 24
	pushq	%r14
	.cfi_def_cfa_offset 32
	pushq	%r13
	.cfi_def_cfa_offset 40
	pushq	%r12
	.cfi_def_cfa_offset 48
	pushq	%rbx
	.cfi_def_cfa_offset 56
	subq	$232, %rsp
	.cfi_def_cfa_offset 288
	.cfi_offset %rbx, -56
	.cfi_offset %r12, -48
	.cfi_offset %r13, -40
	.cfi_offset %r14, -32
	.cfi_offset %r15, -24
	.cfi_offset %rbp, -16
	movq	%rdx, %r15
	movq	%rsi, %r12
	xorl	%esi, %esi
	testq	%r12, %r12
	sete	%dl
	xorl	%eax, %eax
	cmpl	$1, %edi
	je	.Ldeerlapse_0_1_0_v3_BB47_3
# %bb.1:                                # %start
	cmpl	$1798521807, %edi               # imm = 0x6B3343CF
	jne	.Ldeerlapse_0_1_0_v3_BB47_6
# %bb.2:                                # %arm.2.i.i
	movb	$1, %al
.Ldeerlapse_0_1_0_v3_BB47_3:                               # %arm.1.i
	movq	%rcx, (%rsp)                    # 8-byte Spill
	movq	%r8, 8(%rsp)                    # 8-byte Spill
	movb	%dl, %sil
	shll	$12, %esi
	addq	%rsi, %r12
	movzbl	%al, %ebp
	leaq	.Ldeerlapse_0_1_0_v3_static.5(%rip), %r8
	leaq	112(%rsp), %r13
	movq	%r13, %rdi
	movl	%ebp, %esi
	movq	%r12, %rdx
	movq	%r15, %rcx
	callq	"deerlapse_0_1_0_v3::key_derivation::quic::endpoint_secret"
	movb	(%r13), %r14b
	vmovups	3(%r13), %ymm0
	vmovups	%ymm0, 64(%rsp)
	movb	2(%r13), %bl
	vmovups	19(%r13), %ymm0
	vmovups	%ymm0, 80(%rsp)
	leaq	.Ldeerlapse_0_1_0_v3_static.8(%rip), %r8
	leaq	112(%rsp), %r13
	movq	%r13, %rdi
	movl	%ebp, %esi
	movq	%r12, %rdx
	movq	%r15, %rcx
	vzeroupper
	callq	"deerlapse_0_1_0_v3::key_derivation::quic::endpoint_secret"
	movb	(%r13), %al
	movb	2(%r13), %bpl
	vmovups	3(%r13), %ymm0
	vmovups	%ymm0, 16(%rsp)
	vmovups	19(%r13), %ymm0
	vmovups	%ymm0, 32(%rsp)
	orb	%r14b, %al
	jne	.Ldeerlapse_0_1_0_v3_BB47_4
# %bb.5:                                # %arm.10.i
	vmovups	64(%rsp), %ymm0
	vmovups	80(%rsp), %ymm1
	leaq	112(%rsp), %rsi
	vmovups	%ymm1, 16(%rsi)
	vmovups	%ymm0, (%rsi)
	vmovups	16(%rsp), %ymm0
	leaq	176(%rsp), %r15
	vmovups	%ymm0, (%r15)
	vmovups	32(%rsp), %ymm0
	vmovups	%ymm0, 16(%r15)
	xorl	%edx, %edx
	testb	%bl, %bl
	setne	%dl
	shll	$4, %edx
	orq	$32, %rdx
	movq	(%rsp), %rdi                    # 8-byte Reload
	vzeroupper
	callq	memcpy@PLT
	xorl	%edx, %edx
	testb	%bpl, %bpl
	setne	%dl
	shll	$4, %edx
	orq	$32, %rdx
	movq	8(%rsp), %rdi                   # 8-byte Reload
	movq	%r15, %rsi
	callq	memcpy@PLT
	movb	$1, %al
	jmp	.Ldeerlapse_0_1_0_v3_BB47_6
.Ldeerlapse_0_1_0_v3_BB47_4:
	xorl	%eax, %eax
.Ldeerlapse_0_1_0_v3_BB47_6:                               # %"deerlapse::quic_key::deerlapse_quic_initial_secrets.exit"
                                        # kill: def $al killed $al killed $eax
	addq	$232, %rsp
	.cfi_def_cfa_offset 56
	popq	%rbx
	.cfi_def_cfa_offset 48
	popq	%r12
	.cfi_def_cfa_offset 40
	popq	%r13
	.cfi_def_cfa_offset 32
	popq	%r14
	.cfi_def_cfa_offset 24
	popq	%r15
	.cfi_def_cfa_offset 16
	popq	%rbp
	.cfi_def_cfa_offset 8
	vzeroupper
	retq
.Ldeerlapse_0_1_0_v3_func_end47:
	.cfi_endproc
                                        # -- End function
	.section	.text.deerlapse_0_1_0_v3_sealer_next,"ax",@progbits
	.ifdef	deerlapse_in_rust
	.globl	deerlapse_0_1_0_v3_sealer_next           # -- Begin function deerlapse_0_1_0_v3_sealer_next
	.p2align	4
	.type	deerlapse_0_1_0_v3_sealer_next,@function
deerlapse_0_1_0_v3_sealer_next:                  # @deerlapse_0_1_0_v3_sealer_next
	.size	deerlapse_0_1_0_v3_sealer_next, .Ldeerlapse_0_1_0_v3_func_end48-deerlapse_0_1_0_v3_sealer_next
	.else
	.globl	deerlapse_sealer_next           # -- Begin function deerlapse_sealer_next
	.p2align	4
	.type	deerlapse_sealer_next,@function
deerlapse_sealer_next:                  # @deerlapse_sealer_next
	.size	deerlapse_sealer_next, .Ldeerlapse_0_1_0_v3_func_end48-deerlapse_sealer_next
	.endif
	.cfi_startproc
# %bb.0:                                # %start
	endbr64
	movq	3192(%rdi), %rax
	retq
.Ldeerlapse_0_1_0_v3_func_end48:
	.cfi_endproc
                                        # -- End function
	.section	.text.deerlapse_0_1_0_v3_version,"ax",@progbits
	.ifdef	deerlapse_in_rust
	.globl	deerlapse_0_1_0_v3_version               # -- Begin function deerlapse_0_1_0_v3_version
	.p2align	4
	.type	deerlapse_0_1_0_v3_version,@function
deerlapse_0_1_0_v3_version:                      # @deerlapse_0_1_0_v3_version
	.size	deerlapse_0_1_0_v3_version, .Ldeerlapse_0_1_0_v3_func_end49-deerlapse_0_1_0_v3_version
	.else
	.globl	deerlapse_version               # -- Begin function deerlapse_version
	.p2align	4
	.type	deerlapse_version,@function
deerlapse_version:                      # @deerlapse_version
	.size	deerlapse_version, .Ldeerlapse_0_1_0_v3_func_end49-deerlapse_version
	.endif
	.cfi_startproc
# %bb.0:                                # %start
	endbr64
	movl	$256, %eax                      # imm = 0x100
	retq
.Ldeerlapse_0_1_0_v3_func_end49:
	.cfi_endproc
                                        # -- End function
	.section	.text.deerlapse_0_1_0_v3_xaes_wipe,"ax",@progbits
	.ifdef	deerlapse_in_rust
	.globl	deerlapse_0_1_0_v3_xaes_wipe             # -- Begin function deerlapse_0_1_0_v3_xaes_wipe
	.p2align	4
	.type	deerlapse_0_1_0_v3_xaes_wipe,@function
deerlapse_0_1_0_v3_xaes_wipe:                    # @deerlapse_0_1_0_v3_xaes_wipe
	.size	deerlapse_0_1_0_v3_xaes_wipe, .Ldeerlapse_0_1_0_v3_func_end50-deerlapse_0_1_0_v3_xaes_wipe
	.else
	.globl	deerlapse_xaes_wipe             # -- Begin function deerlapse_xaes_wipe
	.p2align	4
	.type	deerlapse_xaes_wipe,@function
deerlapse_xaes_wipe:                    # @deerlapse_xaes_wipe
	.size	deerlapse_xaes_wipe, .Ldeerlapse_0_1_0_v3_func_end50-deerlapse_xaes_wipe
	.endif
	.cfi_startproc
# %bb.0:                                # %start
	endbr64
	vxorps	%xmm0, %xmm0, %xmm0
	vmovups	%ymm0, 224(%rdi)
	vmovups	%ymm0, 192(%rdi)
	vmovups	%ymm0, 160(%rdi)
	vmovups	%ymm0, 128(%rdi)
	vmovups	%ymm0, 96(%rdi)
	vmovups	%ymm0, 64(%rdi)
	vmovups	%ymm0, 32(%rdi)
	vmovups	%ymm0, (%rdi)
	movq	$0, 256(%rdi)
	vzeroupper
	retq
.Ldeerlapse_0_1_0_v3_func_end50:
	.cfi_endproc
                                        # -- End function
	.section	.text.deerlapse_0_1_0_v3_quic_header_key_init,"ax",@progbits
	.ifdef	deerlapse_in_rust
	.globl	deerlapse_0_1_0_v3_quic_header_key_init  # -- Begin function deerlapse_0_1_0_v3_quic_header_key_init
	.p2align	4
	.type	deerlapse_0_1_0_v3_quic_header_key_init,@function
deerlapse_0_1_0_v3_quic_header_key_init:         # @deerlapse_0_1_0_v3_quic_header_key_init
	.size	deerlapse_0_1_0_v3_quic_header_key_init, .Ldeerlapse_0_1_0_v3_func_end51-deerlapse_0_1_0_v3_quic_header_key_init
	.else
	.globl	deerlapse_quic_header_key_init  # -- Begin function deerlapse_quic_header_key_init
	.p2align	4
	.type	deerlapse_quic_header_key_init,@function
deerlapse_quic_header_key_init:         # @deerlapse_quic_header_key_init
	.size	deerlapse_quic_header_key_init, .Ldeerlapse_0_1_0_v3_func_end51-deerlapse_quic_header_key_init
	.endif
	.cfi_startproc
# %bb.0:                                # %start
	endbr64
	pushq	%r14
	.cfi_def_cfa_offset 16
	pushq	%rbx
	.cfi_def_cfa_offset 24
	pushq	%rax
	.cfi_def_cfa_offset 32
	.cfi_offset %rbx, -24
	.cfi_offset %r14, -16
	xorl	%eax, %eax
	testq	%rsi, %rsi
	sete	%r8b
	movb	$1, %bl
	movb	$1, %cl
	cmpq	$32, %rdx
	je	.Ldeerlapse_0_1_0_v3_BB51_4
# %bb.1:                                # %start
	cmpq	$16, %rdx
	jne	.Ldeerlapse_0_1_0_v3_BB51_2
# %bb.3:                                # %join.3.fold.split.i.i
	xorl	%ecx, %ecx
.Ldeerlapse_0_1_0_v3_BB51_4:                               # %arm.1.i
	movb	%r8b, %al
	shll	$12, %eax
	addq	%rax, %rsi
	leaq	8(%rdi), %rax
	movzbl	%cl, %ecx
	movq	%rdi, %r14
	movq	%rax, %rdi
	movq	%rsi, %rdx
	movl	%ecx, %esi
	callq	"deerlapse_0_1_0_v3::aead_ciphers_wide::aes::expand"
	movq	%rax, (%r14)
	jmp	.Ldeerlapse_0_1_0_v3_BB51_5
.Ldeerlapse_0_1_0_v3_BB51_2:
	xorl	%ebx, %ebx
.Ldeerlapse_0_1_0_v3_BB51_5:                               # %"deerlapse::header_key::deerlapse_quic_header_key_init.exit"
	movl	%ebx, %eax
	addq	$8, %rsp
	.cfi_def_cfa_offset 24
	popq	%rbx
	.cfi_def_cfa_offset 16
	popq	%r14
	.cfi_def_cfa_offset 8
	retq
.Ldeerlapse_0_1_0_v3_func_end51:
	.cfi_endproc
                                        # -- End function
	.section	.text.deerlapse_0_1_0_v3_quic_header_key_mask,"ax",@progbits
	.ifdef	deerlapse_in_rust
	.globl	deerlapse_0_1_0_v3_quic_header_key_mask  # -- Begin function deerlapse_0_1_0_v3_quic_header_key_mask
	.p2align	4
	.type	deerlapse_0_1_0_v3_quic_header_key_mask,@function
deerlapse_0_1_0_v3_quic_header_key_mask:         # @deerlapse_0_1_0_v3_quic_header_key_mask
	.size	deerlapse_0_1_0_v3_quic_header_key_mask, .Ldeerlapse_0_1_0_v3_func_end52-deerlapse_0_1_0_v3_quic_header_key_mask
	.else
	.globl	deerlapse_quic_header_key_mask  # -- Begin function deerlapse_quic_header_key_mask
	.p2align	4
	.type	deerlapse_quic_header_key_mask,@function
deerlapse_quic_header_key_mask:         # @deerlapse_quic_header_key_mask
	.size	deerlapse_quic_header_key_mask, .Ldeerlapse_0_1_0_v3_func_end52-deerlapse_quic_header_key_mask
	.endif
	.cfi_startproc
# %bb.0:                                # %start
	endbr64
	pushq	%r14
	.cfi_def_cfa_offset 16
	pushq	%rbx
	.cfi_def_cfa_offset 24
	subq	$40, %rsp
	.cfi_def_cfa_offset 64
	.cfi_offset %rbx, -24
	.cfi_offset %r14, -16
	movq	%rdx, %rbx
	movq	(%rdi), %rdx
	leaq	-10(%rdx), %r14
	cmpq	$4, %r14
	ja	.Ldeerlapse_0_1_0_v3_BB52_2
# %bb.1:                                # %join.3.i
	movq	%rsi, %rcx
	movq	%rdi, %rsi
	addq	$8, %rsi
	vxorps	%xmm0, %xmm0, %xmm0
	vmovaps	%xmm0, 16(%rsp)
	leaq	16(%rsp), %rdi
	callq	"deerlapse_0_1_0_v3::aead_ciphers_wide::aes::block_key::BlockKeyRef::encrypt_one"
	movzbl	20(%rsp), %eax
	movb	%al, 12(%rsp)
	movl	16(%rsp), %ecx
	movl	%ecx, 8(%rsp)
	movb	%al, 4(%rbx)
	movl	%ecx, (%rbx)
.Ldeerlapse_0_1_0_v3_BB52_2:                               # %"deerlapse::header_key::deerlapse_quic_header_key_mask.exit"
	cmpq	$5, %r14
	setb	%al
	addq	$40, %rsp
	.cfi_def_cfa_offset 24
	popq	%rbx
	.cfi_def_cfa_offset 16
	popq	%r14
	.cfi_def_cfa_offset 8
	retq
.Ldeerlapse_0_1_0_v3_func_end52:
	.cfi_endproc
                                        # -- End function
	.section	.text.deerlapse_0_1_0_v3_key_begin,"ax",@progbits
	.ifdef	deerlapse_in_rust
	.globl	deerlapse_0_1_0_v3_key_begin             # -- Begin function deerlapse_0_1_0_v3_key_begin
	.p2align	4
	.type	deerlapse_0_1_0_v3_key_begin,@function
deerlapse_0_1_0_v3_key_begin:                    # @deerlapse_0_1_0_v3_key_begin
	.size	deerlapse_0_1_0_v3_key_begin, .Ldeerlapse_0_1_0_v3_func_end53-deerlapse_0_1_0_v3_key_begin
	.else
	.globl	deerlapse_key_begin             # -- Begin function deerlapse_key_begin
	.p2align	4
	.type	deerlapse_key_begin,@function
deerlapse_key_begin:                    # @deerlapse_key_begin
	.size	deerlapse_key_begin, .Ldeerlapse_0_1_0_v3_func_end53-deerlapse_key_begin
	.endif
	.cfi_startproc
# %bb.0:                                # %start
	endbr64
	pushq	%rbp
	.cfi_def_cfa_offset 16
	pushq	%r15
	.cfi_def_cfa_offset 24
	pushq	%r14
	.cfi_def_cfa_offset 32
	pushq	%r13
	.cfi_def_cfa_offset 40
	pushq	%r12
	.cfi_def_cfa_offset 48
	pushq	%rbx
	.cfi_def_cfa_offset 56
	subq	$392, %rsp                      # imm = 0x188
	.cfi_def_cfa_offset 448
	.cfi_offset %rbx, -56
	.cfi_offset %r12, -48
	.cfi_offset %r13, -40
	.cfi_offset %r14, -32
	.cfi_offset %r15, -24
	.cfi_offset %rbp, -16
	movq	%rcx, %rbx
	xorl	%eax, %eax
	testq	%rdx, %rdx
	sete	%cl
	movl	1920(%rdi), %r9d
	addl	$-10, %r9d
	cmpl	$4, %r9d
	ja	.Ldeerlapse_0_1_0_v3_BB53_3
# %bb.1:                                # %join.3.i
	movabsq	$2305843009213693936, %r15      # imm = 0x1FFFFFFFFFFFFFF0
	leaq	2168(%rdi), %r14
	addq	$2680, %rdi                     # imm = 0xA78
	movq	%r14, 48(%rsp)
	movq	%rdi, 56(%rsp)
	leaq	15(%r15), %rdi
	cmpq	%rdi, %rbx
	jbe	.Ldeerlapse_0_1_0_v3_BB53_4
.Ldeerlapse_0_1_0_v3_BB53_3:
	xorl	%eax, %eax
	jmp	.Ldeerlapse_0_1_0_v3_BB53_7
.Ldeerlapse_0_1_0_v3_BB53_4:                               # %join.3.i.i.i
	movq	%rsi, %rbp
	movq	%r8, 24(%rsp)                   # 8-byte Spill
	movb	%cl, %al
	shll	$12, %eax
	vxorps	%xmm0, %xmm0, %xmm0
	vmovaps	%xmm0, (%rsp)
	addq	%rax, %rdx
	vmovaps	%xmm0, 32(%rsp)
	andq	%rbx, %r15
	leaq	48(%rsp), %rdi
	movq	%rsp, %rsi
	leaq	32(%rsp), %r8
	movq	%rdx, %r13
	movq	%r15, %rcx
	callq	"deerlapse_0_1_0_v3::aead_ciphers_wide::gcm::KeyRefUpdateBlocks::update_blocks"
	movq	%rbx, %r12
	andq	$15, %r12
	je	.Ldeerlapse_0_1_0_v3_BB53_6
# %bb.5:                                # %then.1.i.i.i.i.i
	addq	%r15, %r13
	movl	$16, %edx
	subq	%r12, %rdx
	leaq	(%rsp,%r12), %rdi
	addq	$224, %rdi
	xorl	%esi, %esi
	callq	memset@PLT
	leaq	224(%rsp), %r15
	movq	%r15, %rdi
	movq	%r13, %rsi
	movq	%r12, %rdx
	callq	memcpy@PLT
	movq	%rsp, %rsi
	leaq	32(%rsp), %rcx
	movq	%r14, %rdi
	movq	%r15, %rdx
	callq	"deerlapse_0_1_0_v3::aead_ciphers_wide::gcm::KeyRefUpdateBlock::update_block"
.Ldeerlapse_0_1_0_v3_BB53_6:                               # %arm.4.i
	vmovaps	(%rsp), %xmm0
	vmovaps	%xmm0, 64(%rsp)
	vxorps	%xmm0, %xmm0, %xmm0
	vmovups	%ymm0, 80(%rsp)
	vmovups	%ymm0, 112(%rsp)
	vmovups	%ymm0, 144(%rsp)
	vmovups	%ymm0, 176(%rsp)
	vmovups	%ymm0, 359(%rsp)
	vmovups	64(%rsp), %xmm0
	vmovups	%xmm0, 247(%rsp)
	vmovups	80(%rsp), %xmm0
	vmovups	%xmm0, 263(%rsp)
	vmovups	96(%rsp), %ymm0
	vmovups	%ymm0, 279(%rsp)
	vmovups	128(%rsp), %ymm0
	vmovups	%ymm0, 311(%rsp)
	vmovups	160(%rsp), %ymm0
	vmovups	%ymm0, 343(%rsp)
	vmovups	359(%rsp), %ymm0
	vmovups	%ymm0, 183(%rsp)
	vmovups	247(%rsp), %xmm0
	vmovups	263(%rsp), %xmm1
	vmovups	279(%rsp), %ymm2
	vmovups	311(%rsp), %ymm3
	vmovups	343(%rsp), %ymm4
	vmovups	%ymm4, 167(%rsp)
	vmovups	%ymm3, 135(%rsp)
	vmovups	%ymm2, 103(%rsp)
	vmovups	%xmm0, 71(%rsp)
	vmovups	%xmm1, 87(%rsp)
	movl	8(%rbp), %eax
	movl	%eax, 248(%rsp)
	movq	(%rbp), %rax
	movq	%rax, 240(%rsp)
	vmovups	183(%rsp), %ymm0
	movq	24(%rsp), %rax                  # 8-byte Reload
	vmovups	%ymm0, 112(%rax)
	vmovups	71(%rsp), %xmm0
	vmovups	87(%rsp), %xmm1
	vmovups	103(%rsp), %ymm2
	vmovups	135(%rsp), %ymm3
	vmovups	167(%rsp), %ymm4
	vmovups	%ymm4, 96(%rax)
	vmovups	%ymm3, 64(%rax)
	vmovups	%ymm2, 32(%rax)
	vmovups	%xmm0, (%rax)
	vmovups	%xmm1, 16(%rax)
	movq	%rbx, 144(%rax)
	movq	$0, 152(%rax)
	movq	240(%rsp), %rcx
	movq	%rcx, 160(%rax)
	movl	248(%rsp), %ecx
	movl	%ecx, 168(%rax)
	movl	$1, 172(%rax)
	movb	$1, %al
.Ldeerlapse_0_1_0_v3_BB53_7:                               # %"deerlapse::pieces::deerlapse_key_begin.exit"
                                        # kill: def $al killed $al killed $eax
	addq	$392, %rsp                      # imm = 0x188
	.cfi_def_cfa_offset 56
	popq	%rbx
	.cfi_def_cfa_offset 48
	popq	%r12
	.cfi_def_cfa_offset 40
	popq	%r13
	.cfi_def_cfa_offset 32
	popq	%r14
	.cfi_def_cfa_offset 24
	popq	%r15
	.cfi_def_cfa_offset 16
	popq	%rbp
	.cfi_def_cfa_offset 8
	vzeroupper
	retq
.Ldeerlapse_0_1_0_v3_func_end53:
	.cfi_endproc
                                        # -- End function
	.section	.text.deerlapse_0_1_0_v3_key_finish,"ax",@progbits
	.ifdef	deerlapse_in_rust
	.globl	deerlapse_0_1_0_v3_key_finish            # -- Begin function deerlapse_0_1_0_v3_key_finish
	.p2align	4
	.type	deerlapse_0_1_0_v3_key_finish,@function
deerlapse_0_1_0_v3_key_finish:                   # @deerlapse_0_1_0_v3_key_finish
	.size	deerlapse_0_1_0_v3_key_finish, .Ldeerlapse_0_1_0_v3_func_end54-deerlapse_0_1_0_v3_key_finish
	.else
	.globl	deerlapse_key_finish            # -- Begin function deerlapse_key_finish
	.p2align	4
	.type	deerlapse_key_finish,@function
deerlapse_key_finish:                   # @deerlapse_key_finish
	.size	deerlapse_key_finish, .Ldeerlapse_0_1_0_v3_func_end54-deerlapse_key_finish
	.endif
	.cfi_startproc
# %bb.0:                                # %start
	endbr64
	movl	1920(%rdi), %eax
	addl	$-10, %eax
	cmpl	$4, %eax
	ja	.Ldeerlapse_0_1_0_v3_BB54_6
# %bb.1:                                # %else.4.i
	cmpl	$0, 172(%rsi)
	je	.Ldeerlapse_0_1_0_v3_BB54_6
# %bb.2:                                # %after.1.i
	pushq	%rbp
	.cfi_def_cfa_offset 16
	pushq	%r15
	.cfi_def_cfa_offset 24
	pushq	%r14
	.cfi_def_cfa_offset 32
	pushq	%r13
	.cfi_def_cfa_offset 40
	pushq	%r12
	.cfi_def_cfa_offset 48
	pushq	%rbx
	.cfi_def_cfa_offset 56
	subq	$312, %rsp                      # imm = 0x138
	.cfi_def_cfa_offset 368
	.cfi_offset %rbx, -56
	.cfi_offset %r12, -48
	.cfi_offset %r13, -40
	.cfi_offset %r14, -32
	.cfi_offset %r15, -24
	.cfi_offset %rbp, -16
	movq	%rdi, %rbx
	movq	%rdx, 88(%rsp)                  # 8-byte Spill
	vmovups	144(%rsi), %ymm0
	vmovups	%ymm0, 272(%rsp)
	vmovups	128(%rsi), %ymm0
	vmovups	%ymm0, 256(%rsp)
	vmovups	(%rsi), %ymm0
	vmovups	32(%rsi), %ymm1
	vmovups	64(%rsi), %ymm2
	vmovups	96(%rsi), %ymm3
	vmovups	%ymm3, 224(%rsp)
	vmovups	%ymm2, 192(%rsp)
	vmovups	%ymm1, 160(%rsp)
	vmovups	%ymm0, 128(%rsp)
	vxorps	%xmm0, %xmm0, %xmm0
	vmovups	%ymm0, (%rsi)
	vmovups	%ymm0, 32(%rsi)
	vmovups	%ymm0, 64(%rsi)
	vmovups	%ymm0, 96(%rsi)
	vmovups	%ymm0, 128(%rsi)
	vmovups	%ymm0, 144(%rsi)
	movl	1920(%rdi), %eax
	movq	%rax, 80(%rsp)                  # 8-byte Spill
	leaq	2168(%rdi), %r15
	leaq	2680(%rdi), %rax
	movq	%r15, 96(%rsp)
	movq	%rax, 104(%rsp)
	vxorps	%xmm1, %xmm1, %xmm1
	vmovaps	%xmm1, 64(%rsp)
	vmovaps	%xmm1, (%rsp)
	movq	$0, 48(%rsp)
	movq	$0, 55(%rsp)
	movq	280(%rsp), %r14
	vmovaps	128(%rsp), %xmm0
	vmovaps	%xmm0, 16(%rsp)
	leaq	144(%rsp), %r12
	vmovaps	%xmm1, 32(%rsp)
	movl	%r14d, %ebp
	andl	$112, %ebp
	leaq	96(%rsp), %rdi
	leaq	16(%rsp), %rsi
	leaq	32(%rsp), %r8
	movq	%r12, %rdx
	movq	%rbp, %rcx
	vzeroupper
	callq	"deerlapse_0_1_0_v3::aead_ciphers_wide::gcm::KeyRefUpdateBlocks::update_blocks"
	movq	%r14, %r13
	andq	$15, %r13
	je	.Ldeerlapse_0_1_0_v3_BB54_4
# %bb.3:                                # %then.1.i.i.i.i.i
	addq	%rbp, %r12
	movl	$16, %edx
	subq	%r13, %rdx
	leaq	(%rsp,%r13), %rdi
	addq	$112, %rdi
	xorl	%esi, %esi
	callq	memset@PLT
	leaq	112(%rsp), %rbp
	movq	%rbp, %rdi
	movq	%r12, %rsi
	movq	%r13, %rdx
	callq	memcpy@PLT
	leaq	16(%rsp), %rsi
	leaq	32(%rsp), %rcx
	movq	%r15, %rdi
	movq	%rbp, %rdx
	callq	"deerlapse_0_1_0_v3::aead_ciphers_wide::gcm::KeyRefUpdateBlock::update_block"
.Ldeerlapse_0_1_0_v3_BB54_4:                               # %"aead_ciphers_wide::aes_gcm::ExpandedKey::finish.exit.i"
	movq	272(%rsp), %rax
	movq	%rax, %rcx
	shrq	$53, %rcx
	movb	%cl, (%rsp)
	movq	%rax, %rcx
	shrq	$45, %rcx
	movb	%cl, 1(%rsp)
	movq	%rax, %rcx
	shrq	$37, %rcx
	movb	%cl, 2(%rsp)
	movq	%rax, %rcx
	shrq	$29, %rcx
	movb	%cl, 3(%rsp)
	movl	%eax, %ecx
	shrl	$21, %ecx
	movb	%cl, 4(%rsp)
	movl	%eax, %ecx
	shrl	$13, %ecx
	movb	%cl, 5(%rsp)
	movl	%eax, %ecx
	shrl	$5, %ecx
	movb	%cl, 6(%rsp)
	shlb	$3, %al
	movb	%al, 7(%rsp)
	movq	%r14, %rax
	shrq	$53, %rax
	movb	%al, 8(%rsp)
	movq	%r14, %rax
	shrq	$45, %rax
	movb	%al, 9(%rsp)
	movq	%r14, %rax
	shrq	$37, %rax
	movb	%al, 10(%rsp)
	movq	%r14, %rax
	shrq	$29, %rax
	movb	%al, 11(%rsp)
	movl	%r14d, %eax
	shrl	$21, %eax
	movb	%al, 12(%rsp)
	movl	%r14d, %eax
	shrl	$13, %eax
	movb	%al, 13(%rsp)
	movl	%r14d, %eax
	shrl	$5, %eax
	movb	%al, 14(%rsp)
	shlb	$3, %r14b
	movb	%r14b, 15(%rsp)
	addq	$1928, %rbx                     # imm = 0x788
	vmovaps	16(%rsp), %xmm0
	vmovaps	%xmm0, 64(%rsp)
	vxorps	%xmm0, %xmm0, %xmm0
	vmovaps	%xmm0, 16(%rsp)
	leaq	96(%rsp), %rdi
	leaq	64(%rsp), %rsi
	movq	%rsp, %rdx
	leaq	16(%rsp), %r8
	movl	$16, %ecx
	callq	"deerlapse_0_1_0_v3::aead_ciphers_wide::gcm::KeyRefUpdateBlocks::update_blocks"
	movb	$0, 30(%rsp)
	movw	$0, 28(%rsp)
	movl	296(%rsp), %eax
	movl	%eax, 24(%rsp)
	movq	288(%rsp), %rax
	movq	%rax, 16(%rsp)
	movq	%rax, 48(%rsp)
	movq	23(%rsp), %rax
	movq	%rax, 55(%rsp)
	movq	48(%rsp), %rax
	movq	55(%rsp), %rcx
	movq	%rcx, 39(%rsp)
	movq	%rax, 32(%rsp)
	movb	$1, 47(%rsp)
	vxorps	%xmm0, %xmm0, %xmm0
	vmovaps	%xmm0, 16(%rsp)
	leaq	16(%rsp), %rdi
	leaq	32(%rsp), %rcx
	movq	%rbx, %rsi
	movq	80(%rsp), %rdx                  # 8-byte Reload
	callq	"deerlapse_0_1_0_v3::aead_ciphers_wide::aes::block_key::BlockKeyRef::encrypt_one"
	vmovaps	16(%rsp), %xmm0
	vxorps	64(%rsp), %xmm0, %xmm0
	movq	88(%rsp), %rax                  # 8-byte Reload
	vmovups	%xmm0, (%rax)
	movb	$1, %al
	addq	$312, %rsp                      # imm = 0x138
	.cfi_def_cfa_offset 56
	popq	%rbx
	.cfi_def_cfa_offset 48
	popq	%r12
	.cfi_def_cfa_offset 40
	popq	%r13
	.cfi_def_cfa_offset 32
	popq	%r14
	.cfi_def_cfa_offset 24
	popq	%r15
	.cfi_def_cfa_offset 16
	popq	%rbp
	.cfi_def_cfa_offset 8
	.cfi_restore %rbx
	.cfi_restore %r12
	.cfi_restore %r13
	.cfi_restore %r14
	.cfi_restore %r15
	.cfi_restore %rbp
                                        # kill: def $al killed $al killed $eax
	retq
.Ldeerlapse_0_1_0_v3_BB54_6:
	xorl	%eax, %eax
                                        # kill: def $al killed $al killed $eax
	retq
.Ldeerlapse_0_1_0_v3_func_end54:
	.cfi_endproc
                                        # -- End function
	.section	.text.deerlapse_0_1_0_v3_key_open,"ax",@progbits
	.ifdef	deerlapse_in_rust
	.globl	deerlapse_0_1_0_v3_key_open              # -- Begin function deerlapse_0_1_0_v3_key_open
	.p2align	4
	.type	deerlapse_0_1_0_v3_key_open,@function
deerlapse_0_1_0_v3_key_open:                     # @deerlapse_0_1_0_v3_key_open
	.size	deerlapse_0_1_0_v3_key_open, .Ldeerlapse_0_1_0_v3_func_end55-deerlapse_0_1_0_v3_key_open
	.else
	.globl	deerlapse_key_open              # -- Begin function deerlapse_key_open
	.p2align	4
	.type	deerlapse_key_open,@function
deerlapse_key_open:                     # @deerlapse_key_open
	.size	deerlapse_key_open, .Ldeerlapse_0_1_0_v3_func_end55-deerlapse_key_open
	.endif
	.cfi_startproc
# %bb.0:                                # %start
	endbr64
	pushq	%rbp
	.cfi_def_cfa_offset 16
	pushq	%r15
	.cfi_def_cfa_offset 24
	pushq	%r14
	.cfi_def_cfa_offset 32
	pushq	%r13
	.cfi_def_cfa_offset 40
	pushq	%r12
	.cfi_def_cfa_offset 48
	pushq	%rbx
	.cfi_def_cfa_offset 56
	subq	$168, %rsp
	.cfi_def_cfa_offset 224
	.cfi_offset %rbx, -56
	.cfi_offset %r12, -48
	.cfi_offset %r13, -40
	.cfi_offset %r14, -32
	.cfi_offset %r15, -24
	.cfi_offset %rbp, -16
	xorl	%r15d, %r15d
	testq	%rdx, %rdx
	sete	%r12b
	xorl	%r11d, %r11d
	testq	%r8, %r8
	sete	%bpl
	movl	1920(%rdi), %r10d
	leal	-10(%r10), %eax
	cmpl	$4, %eax
	ja	.Ldeerlapse_0_1_0_v3_BB55_6
# %bb.1:                                # %join.3.i
	cmpq	$16, %r9
	jb	.Ldeerlapse_0_1_0_v3_BB55_6
# %bb.2:                                # %arm.1.i.i
	leaq	-16(%r9), %r14
	movq	%r14, %rax
	subq	224(%rsp), %rax
	jb	.Ldeerlapse_0_1_0_v3_BB55_6
# %bb.3:                                # %arm.8.i.i
	movq	%rcx, %r13
	shrq	$61, %r13
	setne	%r13b
	movabsq	$68719476704, %rbx              # imm = 0xFFFFFFFE0
	cmpq	%rbx, %rax
	seta	%bl
	orb	%r13b, %bl
	movq	224(%rsp), %r13
	jne	.Ldeerlapse_0_1_0_v3_BB55_6
# %bb.4:                                # %then.11.i.i
	movb	%r12b, %r15b
	shll	$12, %r15d
	addq	%r15, %rdx
	movb	%bpl, %r11b
	shll	$12, %r11d
	addq	%r11, %r8
	addq	%r8, %r9
	addq	$-16, %r9
	leaq	1928(%rdi), %r11
	movl	1924(%rdi), %ebx
	movq	%rdi, 48(%rsp)
	movq	%r11, 56(%rsp)
	movq	%r10, 64(%rsp)
	movl	%ebx, 72(%rsp)
	movl	$0, 76(%rsp)
	leaq	2168(%rdi), %r10
	addq	$2680, %rdi                     # imm = 0xA78
	movq	%r10, 104(%rsp)
	movq	%rdi, 112(%rsp)
	vxorps	%xmm0, %xmm0, %xmm0
	vmovaps	%xmm0, 80(%rsp)
	movq	(%rsi), %rdi
	movq	%rdi, 32(%rsp)
	movl	8(%rsi), %esi
	movl	%esi, 40(%rsp)
	vmovups	(%r9), %xmm0
	vmovaps	%xmm0, 144(%rsp)
	movq	%r8, %r15
	leaq	(%r8,%r13), %rsi
	leaq	80(%rsp), %rdi
	movq	%rdi, 24(%rsp)
	movq	%rax, 16(%rsp)
	movq	%rsi, 8(%rsp)
	leaq	144(%rsp), %rax
	movq	%rax, (%rsp)
	leaq	127(%rsp), %rdi
	leaq	48(%rsp), %rsi
	leaq	104(%rsp), %rax
	leaq	32(%rsp), %r10
	movq	%rdx, %r8
	movq	%rax, %rdx
	movq	%rcx, %r9
	movq	%r10, %rcx
	callq	"deerlapse_0_1_0_v3::aead_ciphers::aes_gcm::opening::authenticate::<#7bfdf0a6b4753edd>"
	cmpb	$0, 127(%rsp)
	je	.Ldeerlapse_0_1_0_v3_BB55_8
.Ldeerlapse_0_1_0_v3_BB55_6:
	xorl	%eax, %eax
.Ldeerlapse_0_1_0_v3_BB55_7:                               # %"deerlapse::key::deerlapse_key_open.exit"
                                        # kill: def $al killed $al killed $eax
	addq	$168, %rsp
	.cfi_def_cfa_offset 56
	popq	%rbx
	.cfi_def_cfa_offset 48
	popq	%r12
	.cfi_def_cfa_offset 40
	popq	%r13
	.cfi_def_cfa_offset 32
	popq	%r14
	.cfi_def_cfa_offset 24
	popq	%r15
	.cfi_def_cfa_offset 16
	popq	%rbp
	.cfi_def_cfa_offset 8
	retq
.Ldeerlapse_0_1_0_v3_BB55_8:                               # %arm.4.i
	.cfi_def_cfa_offset 224
	movq	232(%rsp), %rbx
	leaq	128(%rsp), %rsi
	leaq	48(%rsp), %rdi
	leaq	80(%rsp), %r9
	movq	%r15, %rdx
	movq	%r14, %rcx
	movq	%r13, %r8
	callq	"deerlapse_0_1_0_v3::aead_ciphers::aes_gcm::counter_mode::encrypt_within::<#6fa349fe97f872a2>"
	movq	%rax, (%rbx)
	movb	$1, %al
	jmp	.Ldeerlapse_0_1_0_v3_BB55_7
.Ldeerlapse_0_1_0_v3_func_end55:
	.cfi_endproc
                                        # -- End function
	.section	.text.deerlapse_0_1_0_v3_key_open_separate_tag,"ax",@progbits
	.ifdef	deerlapse_in_rust
	.globl	deerlapse_0_1_0_v3_key_open_separate_tag # -- Begin function deerlapse_0_1_0_v3_key_open_separate_tag
	.p2align	4
	.type	deerlapse_0_1_0_v3_key_open_separate_tag,@function
deerlapse_0_1_0_v3_key_open_separate_tag:        # @deerlapse_0_1_0_v3_key_open_separate_tag
	.size	deerlapse_0_1_0_v3_key_open_separate_tag, .Ldeerlapse_0_1_0_v3_func_end56-deerlapse_0_1_0_v3_key_open_separate_tag
	.else
	.globl	deerlapse_key_open_separate_tag # -- Begin function deerlapse_key_open_separate_tag
	.p2align	4
	.type	deerlapse_key_open_separate_tag,@function
deerlapse_key_open_separate_tag:        # @deerlapse_key_open_separate_tag
	.size	deerlapse_key_open_separate_tag, .Ldeerlapse_0_1_0_v3_func_end56-deerlapse_key_open_separate_tag
	.endif
	.cfi_startproc
# %bb.0:                                # %start
	endbr64
	pushq	%rbp
	.cfi_def_cfa_offset 16
	pushq	%r15
	.cfi_def_cfa_offset 24
	pushq	%r14
	.cfi_def_cfa_offset 32
	pushq	%r13
	.cfi_def_cfa_offset 40
	pushq	%r12
	.cfi_def_cfa_offset 48
	pushq	%rbx
	.cfi_def_cfa_offset 56
	subq	$168, %rsp
	.cfi_def_cfa_offset 224
	.cfi_offset %rbx, -56
	.cfi_offset %r12, -48
	.cfi_offset %r13, -40
	.cfi_offset %r14, -32
	.cfi_offset %r15, -24
	.cfi_offset %rbp, -16
	xorl	%r15d, %r15d
	testq	%rdx, %rdx
	sete	%r12b
	xorl	%r11d, %r11d
	testq	%r8, %r8
	sete	%bpl
	xorl	%eax, %eax
	movq	%r9, %r10
	subq	224(%rsp), %r10
	movl	$0, %r13d
	cmovaeq	%r10, %r13
	jb	.Ldeerlapse_0_1_0_v3_BB56_8
# %bb.1:                                # %arm.3.i
	movl	1920(%rdi), %r14d
	leal	-10(%r14), %eax
	cmpl	$4, %eax
	ja	.Ldeerlapse_0_1_0_v3_BB56_7
# %bb.2:                                # %then.7.i
	xorl	%eax, %eax
	movq	%rcx, %rbx
	shrq	$61, %rbx
	jne	.Ldeerlapse_0_1_0_v3_BB56_8
# %bb.3:                                # %then.7.i
	movabsq	$68719476705, %rbx              # imm = 0xFFFFFFFE1
	cmpq	%rbx, %r13
	jae	.Ldeerlapse_0_1_0_v3_BB56_8
# %bb.4:                                # %join.3.i.i.i
	movq	%rbx, %r13
	vxorps	%xmm0, %xmm0, %xmm0
	vmovaps	%xmm0, 80(%rsp)
	leaq	1928(%rdi), %rax
	movl	1924(%rdi), %ebx
	movq	%rdi, 48(%rsp)
	movq	%rax, 56(%rsp)
	movq	%r14, 64(%rsp)
	movl	%ebx, 72(%rsp)
	movl	$0, 76(%rsp)
	leaq	2168(%rdi), %rax
	addq	$2680, %rdi                     # imm = 0xA78
	movq	%rax, 104(%rsp)
	movq	%rdi, 112(%rsp)
	cmpq	%r13, %r10
	jae	.Ldeerlapse_0_1_0_v3_BB56_7
# %bb.5:                                # %join.7.i.i.i
	movq	%r9, %r14
	movq	232(%rsp), %rax
	movb	%r12b, %r15b
	shll	$12, %r15d
	addq	%r15, %rdx
	movb	%bpl, %r11b
	shll	$12, %r11d
	addq	%r11, %r8
	movq	(%rsi), %rdi
	movq	%rdi, 32(%rsp)
	movl	8(%rsi), %esi
	movl	%esi, 40(%rsp)
	vmovups	(%rax), %xmm0
	vmovaps	%xmm0, 144(%rsp)
	movq	%r8, %r15
	movq	224(%rsp), %rbx
	leaq	(%r8,%rbx), %rax
	leaq	80(%rsp), %rsi
	movq	%rsi, 24(%rsp)
	movq	%r10, 16(%rsp)
	movq	%rax, 8(%rsp)
	leaq	144(%rsp), %rax
	movq	%rax, (%rsp)
	leaq	127(%rsp), %rdi
	leaq	48(%rsp), %rsi
	leaq	104(%rsp), %rax
	leaq	32(%rsp), %r10
	movq	%rdx, %r8
	movq	%rax, %rdx
	movq	%rcx, %r9
	movq	%r10, %rcx
	callq	"deerlapse_0_1_0_v3::aead_ciphers::aes_gcm::opening::authenticate::<#7bfdf0a6b4753edd>"
	cmpb	$0, 127(%rsp)
	sete	%al
	jne	.Ldeerlapse_0_1_0_v3_BB56_8
# %bb.6:                                # %arm.1.i.i.i.i
	leaq	128(%rsp), %rsi
	leaq	48(%rsp), %rdi
	leaq	80(%rsp), %r9
	movq	%r15, %rdx
	movq	%r14, %rcx
	movq	%rbx, %r8
	movq	%rax, %rbx
	callq	"deerlapse_0_1_0_v3::aead_ciphers::aes_gcm::counter_mode::encrypt_within::<#6fa349fe97f872a2>"
	movq	%rbx, %rax
	jmp	.Ldeerlapse_0_1_0_v3_BB56_8
.Ldeerlapse_0_1_0_v3_BB56_7:
	xorl	%eax, %eax
.Ldeerlapse_0_1_0_v3_BB56_8:                               # %"deerlapse::key::deerlapse_key_open_separate_tag.exit"
                                        # kill: def $al killed $al killed $rax
	addq	$168, %rsp
	.cfi_def_cfa_offset 56
	popq	%rbx
	.cfi_def_cfa_offset 48
	popq	%r12
	.cfi_def_cfa_offset 40
	popq	%r13
	.cfi_def_cfa_offset 32
	popq	%r14
	.cfi_def_cfa_offset 24
	popq	%r15
	.cfi_def_cfa_offset 16
	popq	%rbp
	.cfi_def_cfa_offset 8
	retq
.Ldeerlapse_0_1_0_v3_func_end56:
	.cfi_endproc
                                        # -- End function
	.section	.text.deerlapse_0_1_0_v3_key_open_to_sized,"ax",@progbits
	.ifdef	deerlapse_in_rust
	.globl	deerlapse_0_1_0_v3_key_open_to_sized     # -- Begin function deerlapse_0_1_0_v3_key_open_to_sized
	.p2align	4
	.type	deerlapse_0_1_0_v3_key_open_to_sized,@function
deerlapse_0_1_0_v3_key_open_to_sized:            # @deerlapse_0_1_0_v3_key_open_to_sized
	.size	deerlapse_0_1_0_v3_key_open_to_sized, .Ldeerlapse_0_1_0_v3_func_end57-deerlapse_0_1_0_v3_key_open_to_sized
	.else
	.globl	deerlapse_key_open_to_sized     # -- Begin function deerlapse_key_open_to_sized
	.p2align	4
	.type	deerlapse_key_open_to_sized,@function
deerlapse_key_open_to_sized:            # @deerlapse_key_open_to_sized
	.size	deerlapse_key_open_to_sized, .Ldeerlapse_0_1_0_v3_func_end57-deerlapse_key_open_to_sized
	.endif
	.cfi_startproc
# %bb.0:                                # %start
	endbr64
	subq	$24, %rsp
	.cfi_def_cfa_offset 32
	vmovups	40(%rsp), %xmm0
	movq	32(%rsp), %rax
	xorl	%r10d, %r10d
	testq	%rdx, %rdx
	sete	%r10b
	shll	$12, %r10d
	addq	%r10, %rdx
	xorl	%r10d, %r10d
	testq	%r8, %r8
	sete	%r10b
	shll	$12, %r10d
	addq	%r10, %r8
	xorl	%r10d, %r10d
	testq	%rax, %rax
	sete	%r10b
	shll	$12, %r10d
	addq	%rax, %r10
	vmovups	%xmm0, 8(%rsp)
	movq	%r10, (%rsp)
	callq	"deerlapse_0_1_0_v3::deerlapse::out_of_place::deerlapse_key_open_to_sized"
	addq	$24, %rsp
	.cfi_def_cfa_offset 8
	retq
.Ldeerlapse_0_1_0_v3_func_end57:
	.cfi_endproc
                                        # -- End function
	.section	.text.deerlapse_0_1_0_v3_key_open_appended_tag_sized,"ax",@progbits
	.ifdef	deerlapse_in_rust
	.globl	deerlapse_0_1_0_v3_key_open_appended_tag_sized # -- Begin function deerlapse_0_1_0_v3_key_open_appended_tag_sized
	.p2align	4
	.type	deerlapse_0_1_0_v3_key_open_appended_tag_sized,@function
deerlapse_0_1_0_v3_key_open_appended_tag_sized:  # @deerlapse_0_1_0_v3_key_open_appended_tag_sized
	.size	deerlapse_0_1_0_v3_key_open_appended_tag_sized, .Ldeerlapse_0_1_0_v3_func_end58-deerlapse_0_1_0_v3_key_open_appended_tag_sized
	.else
	.globl	deerlapse_key_open_appended_tag_sized # -- Begin function deerlapse_key_open_appended_tag_sized
	.p2align	4
	.type	deerlapse_key_open_appended_tag_sized,@function
deerlapse_key_open_appended_tag_sized:  # @deerlapse_key_open_appended_tag_sized
	.size	deerlapse_key_open_appended_tag_sized, .Ldeerlapse_0_1_0_v3_func_end58-deerlapse_key_open_appended_tag_sized
	.endif
	.cfi_startproc
# %bb.0:                                # %start
	endbr64
	cmpq	$16, %r9
	jae	.Ldeerlapse_0_1_0_v3_BB58_2
# %bb.1:
	xorl	%eax, %eax
                                        # kill: def $al killed $al killed $eax
	retq
.Ldeerlapse_0_1_0_v3_BB58_2:                               # %arm.1.i
	subq	$24, %rsp
	.cfi_def_cfa_offset 32
	movq	%r8, %rax
	movq	40(%rsp), %r10
	movq	32(%rsp), %r8
	xorl	%r11d, %r11d
	testq	%r8, %r8
	sete	%r11b
	shll	$12, %r11d
	addq	%r8, %r11
	xorl	%r8d, %r8d
	testq	%rax, %rax
	sete	%r8b
	shll	$12, %r8d
	addq	%rax, %r8
	xorl	%eax, %eax
	testq	%rdx, %rdx
	sete	%al
	shll	$12, %eax
	addq	%rdx, %rax
	leaq	(%r9,%r8), %rdx
	addq	$-16, %rdx
	addq	$-16, %r9
	movq	%r10, 8(%rsp)
	movq	%r11, (%rsp)
	movq	%rdx, 16(%rsp)
	movq	%rax, %rdx
	callq	"deerlapse_0_1_0_v3::deerlapse::out_of_place::deerlapse_key_open_to_sized"
                                        # kill: def $al killed $al def $eax
	addq	$24, %rsp
	.cfi_def_cfa_offset 8
                                        # kill: def $al killed $al killed $eax
	retq
.Ldeerlapse_0_1_0_v3_func_end58:
	.cfi_endproc
                                        # -- End function
	.section	.text.deerlapse_0_1_0_v3_key_seal,"ax",@progbits
	.ifdef	deerlapse_in_rust
	.globl	deerlapse_0_1_0_v3_key_seal              # -- Begin function deerlapse_0_1_0_v3_key_seal
	.p2align	4
	.type	deerlapse_0_1_0_v3_key_seal,@function
deerlapse_0_1_0_v3_key_seal:                     # @deerlapse_0_1_0_v3_key_seal
	.size	deerlapse_0_1_0_v3_key_seal, .Ldeerlapse_0_1_0_v3_func_end59-deerlapse_0_1_0_v3_key_seal
	.else
	.globl	deerlapse_key_seal              # -- Begin function deerlapse_key_seal
	.p2align	4
	.type	deerlapse_key_seal,@function
deerlapse_key_seal:                     # @deerlapse_key_seal
	.size	deerlapse_key_seal, .Ldeerlapse_0_1_0_v3_func_end59-deerlapse_key_seal
	.endif
	.cfi_startproc
# %bb.0:                                # %start
	endbr64
	pushq	%rax
	.cfi_def_cfa_offset 16
	movq	16(%rsp), %rax
	xorl	%r10d, %r10d
	testq	%rdx, %rdx
	sete	%r10b
	shll	$12, %r10d
	addq	%r10, %rdx
	xorl	%r10d, %r10d
	testq	%r8, %r8
	sete	%r10b
	shll	$12, %r10d
	addq	%r10, %r8
	movq	%rax, (%rsp)
	callq	"deerlapse_0_1_0_v3::deerlapse::key::deerlapse_key_seal"
	popq	%rcx
	.cfi_def_cfa_offset 8
	retq
.Ldeerlapse_0_1_0_v3_func_end59:
	.cfi_endproc
                                        # -- End function
	.section	.text.deerlapse_0_1_0_v3_key_seal_to_sized,"ax",@progbits
	.ifdef	deerlapse_in_rust
	.globl	deerlapse_0_1_0_v3_key_seal_to_sized     # -- Begin function deerlapse_0_1_0_v3_key_seal_to_sized
	.p2align	4
	.type	deerlapse_0_1_0_v3_key_seal_to_sized,@function
deerlapse_0_1_0_v3_key_seal_to_sized:            # @deerlapse_0_1_0_v3_key_seal_to_sized
	.size	deerlapse_0_1_0_v3_key_seal_to_sized, .Ldeerlapse_0_1_0_v3_func_end60-deerlapse_0_1_0_v3_key_seal_to_sized
	.else
	.globl	deerlapse_key_seal_to_sized     # -- Begin function deerlapse_key_seal_to_sized
	.p2align	4
	.type	deerlapse_key_seal_to_sized,@function
deerlapse_key_seal_to_sized:            # @deerlapse_key_seal_to_sized
	.size	deerlapse_key_seal_to_sized, .Ldeerlapse_0_1_0_v3_func_end60-deerlapse_key_seal_to_sized
	.endif
	.cfi_startproc
# %bb.0:                                # %start
	endbr64
	pushq	%rbp
	.cfi_def_cfa_offset 16
	pushq	%r15
	.cfi_def_cfa_offset 24
	pushq	%r14
	.cfi_def_cfa_offset 32
	pushq	%r13
	.cfi_def_cfa_offset 40
	pushq	%r12
	.cfi_def_cfa_offset 48
	pushq	%rbx
	.cfi_def_cfa_offset 56
	pushq	%rax
	.cfi_def_cfa_offset 64
	.cfi_offset %rbx, -56
	.cfi_offset %r12, -48
	.cfi_offset %r13, -40
	.cfi_offset %r14, -32
	.cfi_offset %r15, -24
	.cfi_offset %rbp, -16
	movq	72(%rsp), %rbx
	xorl	%r14d, %r14d
	testq	%rdx, %rdx
	sete	%r10b
	xorl	%r11d, %r11d
	testq	%r8, %r8
	sete	%r15b
	xorl	%r12d, %r12d
	cmpq	$0, 64(%rsp)
	sete	%bpl
	xorl	%eax, %eax
	cmpq	%r9, %rbx
	jne	.Ldeerlapse_0_1_0_v3_BB60_26
# %bb.1:                                # %start
	movl	1920(%rdi), %r9d
	addl	$-10, %r9d
	cmpl	$4, %r9d
	ja	.Ldeerlapse_0_1_0_v3_BB60_26
# %bb.2:                                # %else.7.i
	movabsq	$68719476608, %r13              # imm = 0xFFFFFFF80
	movq	%rcx, %rax
	shrq	$61, %rax
	setne	%al
	leaq	97(%r13), %r9
	cmpq	%r9, %rbx
	setae	%r9b
	orb	%al, %r9b
	jne	.Ldeerlapse_0_1_0_v3_BB60_6
# %bb.3:                                # %after.1.i
	movb	%r10b, %r14b
	shll	$12, %r14d
	addq	%r14, %rdx
	movb	%r15b, %r11b
	shll	$12, %r11d
	leaq	(%r8,%r11), %rax
	movb	%bpl, %r12b
	shll	$12, %r12d
	movq	64(%rsp), %r9
	leaq	(%r9,%r12), %r14
	movq	%r14, %r9
	subq	%rax, %r9
	cmpq	%rbx, %r9
	jae	.Ldeerlapse_0_1_0_v3_BB60_7
# %bb.4:                                # %iter.check
	cmpq	$8, %rbx
	jb	.Ldeerlapse_0_1_0_v3_BB60_5
# %bb.8:                                # %vector.memcheck
	cmpq	$128, %r9
	jae	.Ldeerlapse_0_1_0_v3_BB60_10
.Ldeerlapse_0_1_0_v3_BB60_5:
	xorl	%r9d, %r9d
.Ldeerlapse_0_1_0_v3_BB60_19:                              # %join.7.i.i.i.i.i.i.i.preheader
	movq	%rbx, %r10
	movq	%r9, %r13
	andq	$7, %r10
	je	.Ldeerlapse_0_1_0_v3_BB60_22
# %bb.20:                               # %join.7.i.i.i.i.i.i.i.prol.preheader
	movq	%r9, %r13
	.p2align	4
.Ldeerlapse_0_1_0_v3_BB60_21:                              # %join.7.i.i.i.i.i.i.i.prol
                                        # =>This Inner Loop Header: Depth=1
	movzbl	(%rax,%r13), %ebp
	movb	%bpl, (%r14,%r13)
	incq	%r13
	decq	%r10
	jne	.Ldeerlapse_0_1_0_v3_BB60_21
.Ldeerlapse_0_1_0_v3_BB60_22:                              # %join.7.i.i.i.i.i.i.i.prol.loopexit
	subq	%rbx, %r9
	cmpq	$-8, %r9
	ja	.Ldeerlapse_0_1_0_v3_BB60_25
# %bb.23:                               # %join.7.i.i.i.i.i.i.i.preheader13
	leaq	(%r11,%r8), %rax
	addq	$7, %rax
	movq	64(%rsp), %r8
	addq	%r12, %r8
	addq	$7, %r8
	.p2align	4
.Ldeerlapse_0_1_0_v3_BB60_24:                              # %join.7.i.i.i.i.i.i.i
                                        # =>This Inner Loop Header: Depth=1
	movzbl	-7(%rax,%r13), %r9d
	movb	%r9b, -7(%r8,%r13)
	movzbl	-6(%rax,%r13), %r9d
	movb	%r9b, -6(%r8,%r13)
	movzbl	-5(%rax,%r13), %r9d
	movb	%r9b, -5(%r8,%r13)
	movzbl	-4(%rax,%r13), %r9d
	movb	%r9b, -4(%r8,%r13)
	movzbl	-3(%rax,%r13), %r9d
	movb	%r9b, -3(%r8,%r13)
	movzbl	-2(%rax,%r13), %r9d
	movb	%r9b, -2(%r8,%r13)
	movzbl	-1(%rax,%r13), %r9d
	movb	%r9b, -1(%r8,%r13)
	movzbl	(%rax,%r13), %r9d
	movb	%r9b, (%r8,%r13)
	addq	$8, %r13
	cmpq	%r13, %rbx
	jne	.Ldeerlapse_0_1_0_v3_BB60_24
	jmp	.Ldeerlapse_0_1_0_v3_BB60_25
.Ldeerlapse_0_1_0_v3_BB60_6:
	xorl	%eax, %eax
	jmp	.Ldeerlapse_0_1_0_v3_BB60_26
.Ldeerlapse_0_1_0_v3_BB60_7:                               # %apart.2.i.i.i.i.i.i.i
	movq	%rdi, %r15
	movq	%r14, %rdi
	movq	%rsi, %r12
	movq	%rax, %rsi
	movq	%rdx, %r13
	movq	%rbx, %rdx
	movq	%rcx, %rbp
	callq	memmove@PLT
	movq	%r15, %rdi
	movq	%r12, %rsi
	movq	%r13, %rdx
	movq	%rbp, %rcx
.Ldeerlapse_0_1_0_v3_BB60_25:                              # %"core::slice::edits::slice+T::copy_from_slice::<i8,20'core::clone::U8Clone{}>.exit.i"
	movq	80(%rsp), %rax
	movq	%rax, (%rsp)
	movq	%r14, %r8
	movq	%rbx, %r9
	vzeroupper
	callq	"deerlapse_0_1_0_v3::deerlapse::key::deerlapse_key_seal"
                                        # kill: def $al killed $al def $eax
.Ldeerlapse_0_1_0_v3_BB60_26:                              # %"deerlapse::out_of_place::deerlapse_key_seal_to_sized.exit"
                                        # kill: def $al killed $al killed $eax
	addq	$8, %rsp
	.cfi_def_cfa_offset 56
	popq	%rbx
	.cfi_def_cfa_offset 48
	popq	%r12
	.cfi_def_cfa_offset 40
	popq	%r13
	.cfi_def_cfa_offset 32
	popq	%r14
	.cfi_def_cfa_offset 24
	popq	%r15
	.cfi_def_cfa_offset 16
	popq	%rbp
	.cfi_def_cfa_offset 8
	retq
.Ldeerlapse_0_1_0_v3_BB60_10:                              # %vector.main.loop.iter.check
	.cfi_def_cfa_offset 64
	cmpq	$128, %rbx
	jae	.Ldeerlapse_0_1_0_v3_BB60_12
# %bb.11:
	xorl	%r9d, %r9d
	jmp	.Ldeerlapse_0_1_0_v3_BB60_16
.Ldeerlapse_0_1_0_v3_BB60_12:                              # %vector.ph
	movq	%rbx, %r9
	andq	%r13, %r9
	leaq	(%r11,%r8), %r10
	addq	$96, %r10
	movq	64(%rsp), %r15
	addq	%r12, %r15
	addq	$96, %r15
	xorl	%ebp, %ebp
	.p2align	4
.Ldeerlapse_0_1_0_v3_BB60_13:                              # %vector.body
                                        # =>This Inner Loop Header: Depth=1
	vmovups	-96(%r10,%rbp), %ymm0
	vmovups	-64(%r10,%rbp), %ymm1
	vmovups	-32(%r10,%rbp), %ymm2
	vmovups	(%r10,%rbp), %ymm3
	vmovups	%ymm0, -96(%r15,%rbp)
	vmovups	%ymm1, -64(%r15,%rbp)
	vmovups	%ymm2, -32(%r15,%rbp)
	vmovups	%ymm3, (%r15,%rbp)
	subq	$-128, %rbp
	cmpq	%rbp, %r9
	jne	.Ldeerlapse_0_1_0_v3_BB60_13
# %bb.14:                               # %middle.block
	cmpq	%r9, %rbx
	je	.Ldeerlapse_0_1_0_v3_BB60_25
# %bb.15:                               # %vec.epilog.iter.check
	testb	$120, %bl
	je	.Ldeerlapse_0_1_0_v3_BB60_19
.Ldeerlapse_0_1_0_v3_BB60_16:                              # %vec.epilog.ph
	movq	%r9, %r10
	addq	$120, %r13
	movq	%r13, %r9
	andq	%rbx, %r9
	.p2align	4
.Ldeerlapse_0_1_0_v3_BB60_17:                              # %vec.epilog.vector.body
                                        # =>This Inner Loop Header: Depth=1
	movq	(%rax,%r10), %r15
	movq	%r15, (%r14,%r10)
	addq	$8, %r10
	cmpq	%r10, %r9
	jne	.Ldeerlapse_0_1_0_v3_BB60_17
# %bb.18:                               # %vec.epilog.middle.block
	cmpq	%r9, %rbx
	je	.Ldeerlapse_0_1_0_v3_BB60_25
	jmp	.Ldeerlapse_0_1_0_v3_BB60_19
.Ldeerlapse_0_1_0_v3_func_end60:
	.cfi_endproc
                                        # -- End function
	.section	.text.deerlapse_0_1_0_v3_key_seal_append_tag_sized,"ax",@progbits
	.ifdef	deerlapse_in_rust
	.globl	deerlapse_0_1_0_v3_key_seal_append_tag_sized # -- Begin function deerlapse_0_1_0_v3_key_seal_append_tag_sized
	.p2align	4
	.type	deerlapse_0_1_0_v3_key_seal_append_tag_sized,@function
deerlapse_0_1_0_v3_key_seal_append_tag_sized:    # @deerlapse_0_1_0_v3_key_seal_append_tag_sized
	.size	deerlapse_0_1_0_v3_key_seal_append_tag_sized, .Ldeerlapse_0_1_0_v3_func_end61-deerlapse_0_1_0_v3_key_seal_append_tag_sized
	.else
	.globl	deerlapse_key_seal_append_tag_sized # -- Begin function deerlapse_key_seal_append_tag_sized
	.p2align	4
	.type	deerlapse_key_seal_append_tag_sized,@function
deerlapse_key_seal_append_tag_sized:    # @deerlapse_key_seal_append_tag_sized
	.size	deerlapse_key_seal_append_tag_sized, .Ldeerlapse_0_1_0_v3_func_end61-deerlapse_key_seal_append_tag_sized
	.endif
	.cfi_startproc
# %bb.0:                                # %start
	endbr64
	pushq	%rbp
	.cfi_def_cfa_offset 16
	pushq	%r15
	.cfi_def_cfa_offset 24
	pushq	%r14
	.cfi_def_cfa_offset 32
	pushq	%r13
	.cfi_def_cfa_offset 40
	pushq	%r12
	.cfi_def_cfa_offset 48
	pushq	%rbx
	.cfi_def_cfa_offset 56
	subq	$24, %rsp
	.cfi_def_cfa_offset 80
	.cfi_offset %rbx, -56
	.cfi_offset %r12, -48
	.cfi_offset %r13, -40
	.cfi_offset %r14, -32
	.cfi_offset %r15, -24
	.cfi_offset %rbp, -16
	movq	%rsi, 16(%rsp)                  # 8-byte Spill
	movq	88(%rsp), %r15
	movq	80(%rsp), %rsi
	xorl	%ebx, %ebx
	testq	%rdx, %rdx
	sete	%r13b
	xorl	%r11d, %r11d
	testq	%r8, %r8
	sete	%r12b
	xorl	%r14d, %r14d
	testq	%rsi, %rsi
	sete	%bpl
	cmpq	$16, %r15
	jae	.Ldeerlapse_0_1_0_v3_BB61_3
.Ldeerlapse_0_1_0_v3_BB61_1:
	xorl	%eax, %eax
.Ldeerlapse_0_1_0_v3_BB61_2:                               # %"deerlapse::out_of_place::deerlapse_key_seal_append_tag_sized.exit"
                                        # kill: def $al killed $al killed $eax
	addq	$24, %rsp
	.cfi_def_cfa_offset 56
	popq	%rbx
	.cfi_def_cfa_offset 48
	popq	%r12
	.cfi_def_cfa_offset 40
	popq	%r13
	.cfi_def_cfa_offset 32
	popq	%r14
	.cfi_def_cfa_offset 24
	popq	%r15
	.cfi_def_cfa_offset 16
	popq	%rbp
	.cfi_def_cfa_offset 8
	retq
.Ldeerlapse_0_1_0_v3_BB61_3:                               # %arm.1.i
	.cfi_def_cfa_offset 80
	leaq	-16(%r15), %r10
	xorl	%eax, %eax
	cmpq	%r9, %r10
	jne	.Ldeerlapse_0_1_0_v3_BB61_2
# %bb.4:                                # %arm.1.i
	movl	1920(%rdi), %r10d
	addl	$-10, %r10d
	cmpl	$4, %r10d
	ja	.Ldeerlapse_0_1_0_v3_BB61_2
# %bb.5:                                # %else.7.i.i
	movabsq	$68719476608, %r10              # imm = 0xFFFFFFF80
	movq	%rcx, %rax
	shrq	$61, %rax
	setne	%al
	addq	$97, %r10
	cmpq	%r10, %r9
	setae	%r10b
	orb	%al, %r10b
	jne	.Ldeerlapse_0_1_0_v3_BB61_1
# %bb.6:                                # %after.1.i.i
	movb	%r13b, %bl
	shll	$12, %ebx
	addq	%rbx, %rdx
	movb	%r12b, %r11b
	shll	$12, %r11d
	leaq	(%r8,%r11), %rax
	movb	%bpl, %r14b
	shll	$12, %r14d
	leaq	(%rsi,%r14), %rbx
	leaq	(%rbx,%r15), %rbp
	addq	$-16, %rbp
	movq	%rbx, %r15
	subq	%rax, %r15
	cmpq	%r9, %r15
	jae	.Ldeerlapse_0_1_0_v3_BB61_10
# %bb.7:                                # %iter.check
	cmpq	$8, %r9
	jb	.Ldeerlapse_0_1_0_v3_BB61_8
# %bb.11:                               # %vector.memcheck
	cmpq	$128, %r15
	jae	.Ldeerlapse_0_1_0_v3_BB61_13
.Ldeerlapse_0_1_0_v3_BB61_8:
	xorl	%r12d, %r12d
.Ldeerlapse_0_1_0_v3_BB61_22:                              # %join.7.i.i.i.i.i.i.i.i.preheader
	movq	%rbp, %r15
	movq	%r9, %rbp
	movq	%r12, %r13
	andq	$7, %rbp
	je	.Ldeerlapse_0_1_0_v3_BB61_25
# %bb.23:                               # %join.7.i.i.i.i.i.i.i.i.prol.preheader
	movq	%r12, %r13
	.p2align	4
.Ldeerlapse_0_1_0_v3_BB61_24:                              # %join.7.i.i.i.i.i.i.i.i.prol
                                        # =>This Inner Loop Header: Depth=1
	movzbl	(%rax,%r13), %r10d
	movb	%r10b, (%rbx,%r13)
	incq	%r13
	decq	%rbp
	jne	.Ldeerlapse_0_1_0_v3_BB61_24
.Ldeerlapse_0_1_0_v3_BB61_25:                              # %join.7.i.i.i.i.i.i.i.i.prol.loopexit
	subq	%r9, %r12
	cmpq	$-8, %r12
	movq	%r15, %rbp
	ja	.Ldeerlapse_0_1_0_v3_BB61_28
# %bb.26:                               # %join.7.i.i.i.i.i.i.i.i.preheader13
	leaq	(%r11,%r8), %rax
	addq	$7, %rax
	leaq	(%r14,%rsi), %r8
	addq	$7, %r8
	.p2align	4
.Ldeerlapse_0_1_0_v3_BB61_27:                              # %join.7.i.i.i.i.i.i.i.i
                                        # =>This Inner Loop Header: Depth=1
	movzbl	-7(%rax,%r13), %esi
	movb	%sil, -7(%r8,%r13)
	movzbl	-6(%rax,%r13), %esi
	movb	%sil, -6(%r8,%r13)
	movzbl	-5(%rax,%r13), %esi
	movb	%sil, -5(%r8,%r13)
	movzbl	-4(%rax,%r13), %esi
	movb	%sil, -4(%r8,%r13)
	movzbl	-3(%rax,%r13), %esi
	movb	%sil, -3(%r8,%r13)
	movzbl	-2(%rax,%r13), %esi
	movb	%sil, -2(%r8,%r13)
	movzbl	-1(%rax,%r13), %esi
	movb	%sil, -1(%r8,%r13)
	movzbl	(%rax,%r13), %esi
	movb	%sil, (%r8,%r13)
	addq	$8, %r13
	cmpq	%r13, %r9
	jne	.Ldeerlapse_0_1_0_v3_BB61_27
	jmp	.Ldeerlapse_0_1_0_v3_BB61_28
.Ldeerlapse_0_1_0_v3_BB61_10:                              # %apart.2.i.i.i.i.i.i.i.i
	movq	%rdi, %r14
	movq	%rbx, %rdi
	movq	%rax, %rsi
	movq	%rdx, %r12
	movq	%r9, %rdx
	movq	%r9, %r13
	movq	%rbp, %r15
	movq	%rcx, %rbp
	callq	memmove@PLT
	movq	%r14, %rdi
	movq	%r12, %rdx
	movq	%rbp, %rcx
	movq	%r15, %rbp
	movq	%r13, %r9
.Ldeerlapse_0_1_0_v3_BB61_28:                              # %"core::slice::edits::slice+T::copy_from_slice::<i8,20'core::clone::U8Clone{}>.exit.i.i"
	movq	%rbp, (%rsp)
	movq	16(%rsp), %rsi                  # 8-byte Reload
	movq	%rbx, %r8
	vzeroupper
	callq	"deerlapse_0_1_0_v3::deerlapse::key::deerlapse_key_seal"
                                        # kill: def $al killed $al def $eax
	jmp	.Ldeerlapse_0_1_0_v3_BB61_2
.Ldeerlapse_0_1_0_v3_BB61_13:                              # %vector.main.loop.iter.check
	cmpq	$128, %r9
	jae	.Ldeerlapse_0_1_0_v3_BB61_15
# %bb.14:
	xorl	%r12d, %r12d
	jmp	.Ldeerlapse_0_1_0_v3_BB61_19
.Ldeerlapse_0_1_0_v3_BB61_15:                              # %vector.ph
	movq	%rbp, %r10
	movq	%r9, %r12
	movabsq	$68719476608, %r15              # imm = 0xFFFFFFF80
	andq	%r15, %r12
	leaq	(%r11,%r8), %r13
	addq	$96, %r13
	leaq	(%r14,%rsi), %rbp
	addq	$96, %rbp
	xorl	%r15d, %r15d
	.p2align	4
.Ldeerlapse_0_1_0_v3_BB61_16:                              # %vector.body
                                        # =>This Inner Loop Header: Depth=1
	vmovups	-96(%r13,%r15), %ymm0
	vmovups	-64(%r13,%r15), %ymm1
	vmovups	-32(%r13,%r15), %ymm2
	vmovups	(%r13,%r15), %ymm3
	vmovups	%ymm0, -96(%rbp,%r15)
	vmovups	%ymm1, -64(%rbp,%r15)
	vmovups	%ymm2, -32(%rbp,%r15)
	vmovups	%ymm3, (%rbp,%r15)
	subq	$-128, %r15
	cmpq	%r15, %r12
	jne	.Ldeerlapse_0_1_0_v3_BB61_16
# %bb.17:                               # %middle.block
	cmpq	%r12, %r9
	movq	%r10, %rbp
	je	.Ldeerlapse_0_1_0_v3_BB61_28
# %bb.18:                               # %vec.epilog.iter.check
	testb	$120, %r9b
	je	.Ldeerlapse_0_1_0_v3_BB61_22
.Ldeerlapse_0_1_0_v3_BB61_19:                              # %vec.epilog.ph
	movq	%r12, %r15
	movabsq	$68719476608, %r12              # imm = 0xFFFFFFF80
	addq	$120, %r12
	andq	%r9, %r12
	.p2align	4
.Ldeerlapse_0_1_0_v3_BB61_20:                              # %vec.epilog.vector.body
                                        # =>This Inner Loop Header: Depth=1
	movq	(%rax,%r15), %r10
	movq	%r10, (%rbx,%r15)
	addq	$8, %r15
	cmpq	%r15, %r12
	jne	.Ldeerlapse_0_1_0_v3_BB61_20
# %bb.21:                               # %vec.epilog.middle.block
	cmpq	%r12, %r9
	je	.Ldeerlapse_0_1_0_v3_BB61_28
	jmp	.Ldeerlapse_0_1_0_v3_BB61_22
.Ldeerlapse_0_1_0_v3_func_end61:
	.cfi_endproc
                                        # -- End function
	.section	.text.deerlapse_0_1_0_v3_key_update,"ax",@progbits
	.ifdef	deerlapse_in_rust
	.globl	deerlapse_0_1_0_v3_key_update            # -- Begin function deerlapse_0_1_0_v3_key_update
	.p2align	4
	.type	deerlapse_0_1_0_v3_key_update,@function
deerlapse_0_1_0_v3_key_update:                   # @deerlapse_0_1_0_v3_key_update
	.size	deerlapse_0_1_0_v3_key_update, .Ldeerlapse_0_1_0_v3_func_end62-deerlapse_0_1_0_v3_key_update
	.else
	.globl	deerlapse_key_update            # -- Begin function deerlapse_key_update
	.p2align	4
	.type	deerlapse_key_update,@function
deerlapse_key_update:                   # @deerlapse_key_update
	.size	deerlapse_key_update, .Ldeerlapse_0_1_0_v3_func_end62-deerlapse_key_update
	.endif
	.cfi_startproc
# %bb.0:                                # %start
	endbr64
	pushq	%rbp
	.cfi_def_cfa_offset 16
	pushq	%r15
	.cfi_def_cfa_offset 24
	pushq	%r14
	.cfi_def_cfa_offset 32
	pushq	%r13
	.cfi_def_cfa_offset 40
	pushq	%r12
	.cfi_def_cfa_offset 48
	pushq	%rbx
	.cfi_def_cfa_offset 56
	subq	$376, %rsp                      # imm = 0x178
	.cfi_def_cfa_offset 432
	.cfi_offset %rbx, -56
	.cfi_offset %r12, -48
	.cfi_offset %r13, -40
	.cfi_offset %r14, -32
	.cfi_offset %r15, -24
	.cfi_offset %rbp, -16
	movq	%rsi, %r14
	xorl	%r9d, %r9d
	testq	%rdx, %rdx
	sete	%sil
	movq	%rdi, 24(%rsp)                  # 8-byte Spill
	movl	1920(%rdi), %eax
	movq	%rax, 64(%rsp)                  # 8-byte Spill
	addl	$-10, %eax
	cmpl	$4, %eax
	ja	.Ldeerlapse_0_1_0_v3_BB62_51
# %bb.1:                                # %join.3.i
	cmpl	$0, 172(%r14)
	je	.Ldeerlapse_0_1_0_v3_BB62_51
# %bb.2:                                # %then.4.i
	movq	24(%rsp), %rdi                  # 8-byte Reload
	leaq	2168(%rdi), %rax
	addq	$2680, %rdi                     # imm = 0xA78
	movq	%rax, 80(%rsp)
	movq	%rdi, 88(%rsp)
	movq	152(%r14), %rax
	movabsq	$68719476704, %rdi              # imm = 0xFFFFFFFE0
	subq	%rax, %rdi
	cmpq	%rcx, %rdi
	setae	%r8b
	movl	%r8d, 20(%rsp)                  # 4-byte Spill
	leaq	-1(%rcx), %r8
	cmpq	%rdi, %r8
	jae	.Ldeerlapse_0_1_0_v3_BB62_50
# %bb.3:                                # %join.9.lr.ph.i.i.i
	movb	%sil, %r9b
	shll	$12, %r9d
	leaq	(%rdx,%r9), %rsi
	movq	%rsi, 40(%rsp)                  # 8-byte Spill
	leaq	16(%r14), %r13
	addq	%r9, %rdx
	addq	$7, %rdx
	movq	%rdx, 32(%rsp)                  # 8-byte Spill
	xorl	%r12d, %r12d
	movq	%rcx, 72(%rsp)                  # 8-byte Spill
	jmp	.Ldeerlapse_0_1_0_v3_BB62_5
	.p2align	4
.Ldeerlapse_0_1_0_v3_BB62_4:                               # %"aead_ciphers_wide::aes_gcm::pieces::SealState::seal_in_batch::<#7bfdf0a6b4753edd>.exit.i.i.i"
                                        #   in Loop: Header=BB62_5 Depth=1
	movq	%rbp, %rax
	movq	%rbx, %r12
	movq	72(%rsp), %rcx                  # 8-byte Reload
	cmpq	%rcx, %rbx
	jae	.Ldeerlapse_0_1_0_v3_BB62_50
.Ldeerlapse_0_1_0_v3_BB62_5:                               # %join.9.i.i.i
                                        # =>This Loop Header: Depth=1
                                        #     Child Loop BB62_18 Depth 2
                                        #     Child Loop BB62_22 Depth 2
                                        #     Child Loop BB62_25 Depth 2
                                        #     Child Loop BB62_39 Depth 2
                                        #     Child Loop BB62_43 Depth 2
                                        #     Child Loop BB62_46 Depth 2
	subq	%r12, %rcx
	movl	%eax, %r15d
	andl	$127, %r15d
	movl	$128, %ebp
	subq	%r15, %rbp
	cmpq	%rcx, %rbp
	cmovaeq	%rcx, %rbp
	vxorps	%xmm0, %xmm0, %xmm0
	vmovaps	%xmm0, 96(%rsp)
	testq	%r15, %r15
	je	.Ldeerlapse_0_1_0_v3_BB62_7
# %bb.6:                                # %then.1.i.i.i.i.i
                                        #   in Loop: Header=BB62_5 Depth=1
	vmovups	(%r13), %ymm0
	vmovups	32(%r13), %ymm1
	vmovups	64(%r13), %ymm2
	vmovups	96(%r13), %ymm3
	jmp	.Ldeerlapse_0_1_0_v3_BB62_8
	.p2align	4
.Ldeerlapse_0_1_0_v3_BB62_7:                               # %join.3.i.i.i.i.i
                                        #   in Loop: Header=BB62_5 Depth=1
	leaq	60(%rsp), %rcx
	movb	$0, 2(%rcx)
	movw	$0, (%rcx)
	leaq	160(%r14), %rdx
	movl	8(%rdx), %ecx
	movl	%ecx, 56(%rsp)
	movq	(%rdx), %rcx
	movq	%rcx, 48(%rsp)
	movq	55(%rsp), %rdx
	movq	%rdx, 7(%rsp)
	movq	%rcx, (%rsp)
	movb	$1, 15(%rsp)
	shrq	$4, %rax
	movbel	12(%rsp), %ecx
	addl	%ecx, %eax
	incl	%eax
	movbel	%eax, 12(%rsp)
	vxorps	%xmm0, %xmm0, %xmm0
	vmovups	%ymm0, 240(%rsp)
	vmovups	%ymm0, 272(%rsp)
	vmovups	%ymm0, 304(%rsp)
	vmovups	%ymm0, 336(%rsp)
	leaq	240(%rsp), %rdx
	movq	%rsp, %r8
	movl	$8, %r9d
	movq	24(%rsp), %rdi                  # 8-byte Reload
	movq	64(%rsp), %rsi                  # 8-byte Reload
	xorl	%ecx, %ecx
	vzeroupper
	callq	"deerlapse_0_1_0_v3::aead_ciphers_wide::aes::ctr32::encrypt_up_to_eight"
	vmovups	240(%rsp), %ymm0
	vmovups	272(%rsp), %ymm1
	vmovups	304(%rsp), %ymm2
	vmovups	336(%rsp), %ymm3
.Ldeerlapse_0_1_0_v3_BB62_8:                               # %iter.check17
                                        #   in Loop: Header=BB62_5 Depth=1
	vmovups	%ymm3, 208(%rsp)
	vmovups	%ymm2, 176(%rsp)
	vmovups	%ymm1, 144(%rsp)
	vmovups	%ymm0, 112(%rsp)
	leaq	(%r12,%rbp), %rbx
	movq	40(%rsp), %rax                  # 8-byte Reload
	leaq	(%rax,%r12), %rsi
	vmovups	112(%rsp), %ymm0
	vmovups	144(%rsp), %ymm1
	vmovups	176(%rsp), %ymm2
	vmovups	208(%rsp), %ymm3
	vmovups	%ymm3, 96(%r13)
	vmovups	%ymm2, 64(%r13)
	vmovups	%ymm1, 32(%r13)
	vmovups	%ymm0, (%r13)
	leaq	(%r15,%r13), %rdi
	cmpq	$8, %rbp
	jb	.Ldeerlapse_0_1_0_v3_BB62_9
# %bb.10:                               # %vector.memcheck11
                                        #   in Loop: Header=BB62_5 Depth=1
	movq	%r13, %rax
	addq	%rbp, %rax
	addq	%r15, %rax
	cmpq	%rax, %rsi
	jae	.Ldeerlapse_0_1_0_v3_BB62_13
# %bb.11:                               # %vector.memcheck11
                                        #   in Loop: Header=BB62_5 Depth=1
	movq	40(%rsp), %rax                  # 8-byte Reload
	addq	%rbx, %rax
	cmpq	%rax, %rdi
	jae	.Ldeerlapse_0_1_0_v3_BB62_13
.Ldeerlapse_0_1_0_v3_BB62_9:                               #   in Loop: Header=BB62_5 Depth=1
	xorl	%eax, %eax
.Ldeerlapse_0_1_0_v3_BB62_20:                              # %join.5.i.i.i.i.i.preheader
                                        #   in Loop: Header=BB62_5 Depth=1
	movq	%rbp, %rdx
	movq	%rax, %rcx
	andq	$7, %rdx
	je	.Ldeerlapse_0_1_0_v3_BB62_23
# %bb.21:                               # %join.5.i.i.i.i.i.prol.preheader
                                        #   in Loop: Header=BB62_5 Depth=1
	movq	%rax, %rcx
	.p2align	4
.Ldeerlapse_0_1_0_v3_BB62_22:                              # %join.5.i.i.i.i.i.prol
                                        #   Parent Loop BB62_5 Depth=1
                                        # =>  This Inner Loop Header: Depth=2
	movzbl	(%rdi,%rcx), %r8d
	xorb	%r8b, (%rsi,%rcx)
	incq	%rcx
	decq	%rdx
	jne	.Ldeerlapse_0_1_0_v3_BB62_22
.Ldeerlapse_0_1_0_v3_BB62_23:                              # %join.5.i.i.i.i.i.prol.loopexit
                                        #   in Loop: Header=BB62_5 Depth=1
	subq	%rbp, %rax
	cmpq	$-8, %rax
	ja	.Ldeerlapse_0_1_0_v3_BB62_26
# %bb.24:                               # %join.5.i.i.i.i.i.preheader53
                                        #   in Loop: Header=BB62_5 Depth=1
	movq	32(%rsp), %rax                  # 8-byte Reload
	addq	%r12, %rax
	leaq	23(%r14), %rdx
	addq	%r15, %rdx
	.p2align	4
.Ldeerlapse_0_1_0_v3_BB62_25:                              # %join.5.i.i.i.i.i
                                        #   Parent Loop BB62_5 Depth=1
                                        # =>  This Inner Loop Header: Depth=2
	movzbl	-7(%rdx,%rcx), %r8d
	xorb	%r8b, -7(%rax,%rcx)
	movzbl	-6(%rdx,%rcx), %r8d
	xorb	%r8b, -6(%rax,%rcx)
	movzbl	-5(%rdx,%rcx), %r8d
	xorb	%r8b, -5(%rax,%rcx)
	movzbl	-4(%rdx,%rcx), %r8d
	xorb	%r8b, -4(%rax,%rcx)
	movzbl	-3(%rdx,%rcx), %r8d
	xorb	%r8b, -3(%rax,%rcx)
	movzbl	-2(%rdx,%rcx), %r8d
	xorb	%r8b, -2(%rax,%rcx)
	movzbl	-1(%rdx,%rcx), %r8d
	xorb	%r8b, -1(%rax,%rcx)
	movzbl	(%rdx,%rcx), %r8d
	xorb	%r8b, (%rax,%rcx)
	addq	$8, %rcx
	cmpq	%rcx, %rbp
	jne	.Ldeerlapse_0_1_0_v3_BB62_25
.Ldeerlapse_0_1_0_v3_BB62_26:                              # %"aead_ciphers_base::bb::xor_assign_at_start.exit.i.loopexit.i.i.i"
                                        #   in Loop: Header=BB62_5 Depth=1
	movq	%rdi, %rax
	subq	%rsi, %rax
	cmpq	%rbp, %rax
	jae	.Ldeerlapse_0_1_0_v3_BB62_29
# %bb.27:                               # %iter.check
                                        #   in Loop: Header=BB62_5 Depth=1
	cmpq	$8, %rbp
	jb	.Ldeerlapse_0_1_0_v3_BB62_28
# %bb.30:                               # %vector.memcheck
                                        #   in Loop: Header=BB62_5 Depth=1
	cmpq	$64, %rax
	jae	.Ldeerlapse_0_1_0_v3_BB62_32
.Ldeerlapse_0_1_0_v3_BB62_28:                              #   in Loop: Header=BB62_5 Depth=1
	xorl	%eax, %eax
.Ldeerlapse_0_1_0_v3_BB62_41:                              # %join.7.i.i.i.i.i.i.i.i.i.i.preheader
                                        #   in Loop: Header=BB62_5 Depth=1
	movq	%rbp, %rdx
	movq	%rax, %rcx
	andq	$7, %rdx
	je	.Ldeerlapse_0_1_0_v3_BB62_44
# %bb.42:                               # %join.7.i.i.i.i.i.i.i.i.i.i.prol.preheader
                                        #   in Loop: Header=BB62_5 Depth=1
	movq	%rax, %rcx
	.p2align	4
.Ldeerlapse_0_1_0_v3_BB62_43:                              # %join.7.i.i.i.i.i.i.i.i.i.i.prol
                                        #   Parent Loop BB62_5 Depth=1
                                        # =>  This Inner Loop Header: Depth=2
	movzbl	(%rsi,%rcx), %r8d
	movb	%r8b, (%rdi,%rcx)
	incq	%rcx
	decq	%rdx
	jne	.Ldeerlapse_0_1_0_v3_BB62_43
.Ldeerlapse_0_1_0_v3_BB62_44:                              # %join.7.i.i.i.i.i.i.i.i.i.i.prol.loopexit
                                        #   in Loop: Header=BB62_5 Depth=1
	subq	%rbp, %rax
	cmpq	$-8, %rax
	ja	.Ldeerlapse_0_1_0_v3_BB62_47
# %bb.45:                               # %join.7.i.i.i.i.i.i.i.i.i.i.preheader52
                                        #   in Loop: Header=BB62_5 Depth=1
	addq	32(%rsp), %r12                  # 8-byte Folded Reload
	leaq	23(%r14), %rax
	addq	%r15, %rax
	.p2align	4
.Ldeerlapse_0_1_0_v3_BB62_46:                              # %join.7.i.i.i.i.i.i.i.i.i.i
                                        #   Parent Loop BB62_5 Depth=1
                                        # =>  This Inner Loop Header: Depth=2
	movzbl	-7(%r12,%rcx), %edx
	movb	%dl, -7(%rax,%rcx)
	movzbl	-6(%r12,%rcx), %edx
	movb	%dl, -6(%rax,%rcx)
	movzbl	-5(%r12,%rcx), %edx
	movb	%dl, -5(%rax,%rcx)
	movzbl	-4(%r12,%rcx), %edx
	movb	%dl, -4(%rax,%rcx)
	movzbl	-3(%r12,%rcx), %edx
	movb	%dl, -3(%rax,%rcx)
	movzbl	-2(%r12,%rcx), %edx
	movb	%dl, -2(%rax,%rcx)
	movzbl	-1(%r12,%rcx), %edx
	movb	%dl, -1(%rax,%rcx)
	movzbl	(%r12,%rcx), %edx
	movb	%dl, (%rax,%rcx)
	addq	$8, %rcx
	cmpq	%rcx, %rbp
	jne	.Ldeerlapse_0_1_0_v3_BB62_46
	jmp	.Ldeerlapse_0_1_0_v3_BB62_47
	.p2align	4
.Ldeerlapse_0_1_0_v3_BB62_29:                              # %apart.2.i.i.i.i.i.i.i.i.i.i
                                        #   in Loop: Header=BB62_5 Depth=1
	movq	%rbp, %rdx
	vzeroupper
	callq	memmove@PLT
.Ldeerlapse_0_1_0_v3_BB62_47:                              # %"core::slice::edits::slice+T::copy_from_slice::<i8,20'core::clone::U8Clone{}>.exit.i.i.i.i"
                                        #   in Loop: Header=BB62_5 Depth=1
	addq	%rbp, %r15
	addq	152(%r14), %rbp
	movq	%rbp, 152(%r14)
	cmpq	$128, %r15
	jne	.Ldeerlapse_0_1_0_v3_BB62_4
# %bb.48:                               # %then.1.i.i.i.i
                                        #   in Loop: Header=BB62_5 Depth=1
	vmovups	(%r14), %xmm0
	vmovaps	%xmm0, 240(%rsp)
	vxorps	%xmm0, %xmm0, %xmm0
	vmovaps	%xmm0, (%rsp)
	leaq	80(%rsp), %rdi
	leaq	240(%rsp), %rsi
	movq	%rsp, %r8
	movl	$128, %ecx
	movq	%r13, %rdx
	vzeroupper
	callq	"deerlapse_0_1_0_v3::aead_ciphers_wide::gcm::KeyRefUpdateBlocks::update_blocks"
	vmovaps	240(%rsp), %xmm0
	vmovaps	%xmm0, 96(%rsp)
	vmovups	%xmm0, (%r14)
	jmp	.Ldeerlapse_0_1_0_v3_BB62_4
	.p2align	4
.Ldeerlapse_0_1_0_v3_BB62_13:                              # %vector.main.loop.iter.check19
                                        #   in Loop: Header=BB62_5 Depth=1
	cmpq	$128, %rbp
	jae	.Ldeerlapse_0_1_0_v3_BB62_15
# %bb.14:                               #   in Loop: Header=BB62_5 Depth=1
	xorl	%eax, %eax
	jmp	.Ldeerlapse_0_1_0_v3_BB62_17
.Ldeerlapse_0_1_0_v3_BB62_15:                              # %vector.ph20
                                        #   in Loop: Header=BB62_5 Depth=1
	movl	%ebp, %eax
	vmovups	(%rsi), %ymm0
	vmovups	32(%rsi), %ymm1
	vmovups	64(%rsi), %ymm2
	vmovups	96(%rsi), %ymm3
	vxorps	(%rdi), %ymm0, %ymm0
	vxorps	32(%rdi), %ymm1, %ymm1
	vxorps	64(%rdi), %ymm2, %ymm2
	vxorps	96(%rdi), %ymm3, %ymm3
	vmovups	%ymm0, (%rsi)
	vmovups	%ymm1, 32(%rsi)
	vmovups	%ymm2, 64(%rsi)
	andl	$128, %eax
	vmovups	%ymm3, 96(%rsi)
	cmpq	%rax, %rbp
	je	.Ldeerlapse_0_1_0_v3_BB62_26
# %bb.16:                               # %vec.epilog.iter.check36
                                        #   in Loop: Header=BB62_5 Depth=1
	testb	$120, %bpl
	je	.Ldeerlapse_0_1_0_v3_BB62_20
.Ldeerlapse_0_1_0_v3_BB62_17:                              # %vec.epilog.ph38
                                        #   in Loop: Header=BB62_5 Depth=1
	movq	%rax, %rcx
	movl	%ebp, %eax
	andl	$248, %eax
	.p2align	4
.Ldeerlapse_0_1_0_v3_BB62_18:                              # %vec.epilog.vector.body41
                                        #   Parent Loop BB62_5 Depth=1
                                        # =>  This Inner Loop Header: Depth=2
	movq	(%rdi,%rcx), %rdx
	xorq	%rdx, (%rsi,%rcx)
	addq	$8, %rcx
	cmpq	%rcx, %rax
	jne	.Ldeerlapse_0_1_0_v3_BB62_18
# %bb.19:                               # %vec.epilog.middle.block46
                                        #   in Loop: Header=BB62_5 Depth=1
	cmpq	%rax, %rbp
	je	.Ldeerlapse_0_1_0_v3_BB62_26
	jmp	.Ldeerlapse_0_1_0_v3_BB62_20
.Ldeerlapse_0_1_0_v3_BB62_32:                              # %vector.main.loop.iter.check
                                        #   in Loop: Header=BB62_5 Depth=1
	cmpq	$64, %rbp
	jae	.Ldeerlapse_0_1_0_v3_BB62_34
# %bb.33:                               #   in Loop: Header=BB62_5 Depth=1
	xorl	%eax, %eax
	jmp	.Ldeerlapse_0_1_0_v3_BB62_38
.Ldeerlapse_0_1_0_v3_BB62_34:                              # %vector.ph
                                        #   in Loop: Header=BB62_5 Depth=1
	movl	%ebp, %eax
	vmovups	(%rsi), %ymm0
	vmovups	32(%rsi), %ymm1
	vmovups	%ymm0, (%rdi)
	andl	$192, %eax
	vmovups	%ymm1, 32(%rdi)
	cmpq	$64, %rax
	je	.Ldeerlapse_0_1_0_v3_BB62_36
# %bb.35:                               # %vector.body.1
                                        #   in Loop: Header=BB62_5 Depth=1
	vmovups	64(%rsi), %ymm0
	vmovups	96(%rsi), %ymm1
	vmovups	%ymm0, 64(%rdi)
	vmovups	%ymm1, 96(%rdi)
.Ldeerlapse_0_1_0_v3_BB62_36:                              # %middle.block
                                        #   in Loop: Header=BB62_5 Depth=1
	cmpq	%rax, %rbp
	je	.Ldeerlapse_0_1_0_v3_BB62_47
# %bb.37:                               # %vec.epilog.iter.check
                                        #   in Loop: Header=BB62_5 Depth=1
	testb	$56, %bpl
	je	.Ldeerlapse_0_1_0_v3_BB62_41
.Ldeerlapse_0_1_0_v3_BB62_38:                              # %vec.epilog.ph
                                        #   in Loop: Header=BB62_5 Depth=1
	movq	%rax, %rcx
	movl	%ebp, %eax
	andl	$248, %eax
	.p2align	4
.Ldeerlapse_0_1_0_v3_BB62_39:                              # %vec.epilog.vector.body
                                        #   Parent Loop BB62_5 Depth=1
                                        # =>  This Inner Loop Header: Depth=2
	movq	(%rsi,%rcx), %rdx
	movq	%rdx, (%rdi,%rcx)
	addq	$8, %rcx
	cmpq	%rcx, %rax
	jne	.Ldeerlapse_0_1_0_v3_BB62_39
# %bb.40:                               # %vec.epilog.middle.block
                                        #   in Loop: Header=BB62_5 Depth=1
	cmpq	%rax, %rbp
	je	.Ldeerlapse_0_1_0_v3_BB62_47
	jmp	.Ldeerlapse_0_1_0_v3_BB62_41
.Ldeerlapse_0_1_0_v3_BB62_51:
	xorl	%eax, %eax
	jmp	.Ldeerlapse_0_1_0_v3_BB62_52
.Ldeerlapse_0_1_0_v3_BB62_50:                              # %"aead_ciphers_wide::aes_gcm::ExpandedKey::update.exit.i"
	movl	20(%rsp), %eax                  # 4-byte Reload
.Ldeerlapse_0_1_0_v3_BB62_52:                              # %"deerlapse::pieces::deerlapse_key_update.exit"
                                        # kill: def $al killed $al killed $eax
	addq	$376, %rsp                      # imm = 0x178
	.cfi_def_cfa_offset 56
	popq	%rbx
	.cfi_def_cfa_offset 48
	popq	%r12
	.cfi_def_cfa_offset 40
	popq	%r13
	.cfi_def_cfa_offset 32
	popq	%r14
	.cfi_def_cfa_offset 24
	popq	%r15
	.cfi_def_cfa_offset 16
	popq	%rbp
	.cfi_def_cfa_offset 8
	vzeroupper
	retq
.Ldeerlapse_0_1_0_v3_func_end62:
	.cfi_endproc
                                        # -- End function
	.section	.text.deerlapse_0_1_0_v3_opener_open_number,"ax",@progbits
	.ifdef	deerlapse_in_rust
	.globl	deerlapse_0_1_0_v3_opener_open_number    # -- Begin function deerlapse_0_1_0_v3_opener_open_number
	.p2align	4
	.type	deerlapse_0_1_0_v3_opener_open_number,@function
deerlapse_0_1_0_v3_opener_open_number:           # @deerlapse_0_1_0_v3_opener_open_number
	.size	deerlapse_0_1_0_v3_opener_open_number, .Ldeerlapse_0_1_0_v3_func_end63-deerlapse_0_1_0_v3_opener_open_number
	.else
	.globl	deerlapse_opener_open_number    # -- Begin function deerlapse_opener_open_number
	.p2align	4
	.type	deerlapse_opener_open_number,@function
deerlapse_opener_open_number:           # @deerlapse_opener_open_number
	.size	deerlapse_opener_open_number, .Ldeerlapse_0_1_0_v3_func_end63-deerlapse_opener_open_number
	.endif
	.cfi_startproc
# %bb.0:                                # %start
	endbr64
	subq	$24, %rsp
	.cfi_def_cfa_offset 32
	vmovaps	32(%rsp), %xmm0
	xorl	%eax, %eax
	testq	%rdx, %rdx
	sete	%al
	shll	$12, %eax
	addq	%rax, %rdx
	xorl	%eax, %eax
	testq	%r8, %r8
	sete	%al
	shll	$12, %eax
	addq	%rax, %r8
	vmovups	%xmm0, (%rsp)
	callq	"deerlapse_0_1_0_v3::deerlapse::opener::deerlapse_opener_open_number"
	addq	$24, %rsp
	.cfi_def_cfa_offset 8
	retq
.Ldeerlapse_0_1_0_v3_func_end63:
	.cfi_endproc
                                        # -- End function
	.section	.text.deerlapse_0_1_0_v3_opener_open,"ax",@progbits
	.ifdef	deerlapse_in_rust
	.globl	deerlapse_0_1_0_v3_opener_open           # -- Begin function deerlapse_0_1_0_v3_opener_open
	.p2align	4
	.type	deerlapse_0_1_0_v3_opener_open,@function
deerlapse_0_1_0_v3_opener_open:                  # @deerlapse_0_1_0_v3_opener_open
	.size	deerlapse_0_1_0_v3_opener_open, .Ldeerlapse_0_1_0_v3_func_end64-deerlapse_0_1_0_v3_opener_open
	.else
	.globl	deerlapse_opener_open           # -- Begin function deerlapse_opener_open
	.p2align	4
	.type	deerlapse_opener_open,@function
deerlapse_opener_open:                  # @deerlapse_opener_open
	.size	deerlapse_opener_open, .Ldeerlapse_0_1_0_v3_func_end64-deerlapse_opener_open
	.endif
	.cfi_startproc
# %bb.0:                                # %start
	endbr64
	movq	%rsi, %r11
	movq	3192(%rdi), %rsi
	cmpq	%rsi, 3200(%rdi)
	jbe	.Ldeerlapse_0_1_0_v3_BB64_1
# %bb.3:                                # %else.4.i
	pushq	%rbx
	.cfi_def_cfa_offset 16
	subq	$16, %rsp
	.cfi_def_cfa_offset 32
	.cfi_offset %rbx, -16
	movq	%r8, %rax
	movq	%rdx, %r10
	movq	%rdi, %rbx
	movq	32(%rsp), %rdi
	xorl	%r8d, %r8d
	testq	%rcx, %rcx
	sete	%r8b
	shll	$12, %r8d
	addq	%rcx, %r8
	xorl	%edx, %edx
	testq	%r11, %r11
	sete	%dl
	shll	$12, %edx
	addq	%r11, %rdx
	movq	%rdi, 8(%rsp)
	movq	%r9, (%rsp)
	movq	%rbx, %rdi
	movq	%r10, %rcx
	movq	%rax, %r9
	callq	"deerlapse_0_1_0_v3::deerlapse::opener::deerlapse_opener_open_number"
	testb	%al, %al
	je	.Ldeerlapse_0_1_0_v3_BB64_4
# %bb.5:                                # %after.1.i
	incq	3192(%rbx)
	movb	$1, %al
	addq	$16, %rsp
	.cfi_def_cfa_offset 16
	popq	%rbx
	.cfi_def_cfa_offset 8
	.cfi_restore %rbx
                                        # kill: def $al killed $al killed $eax
	retq
.Ldeerlapse_0_1_0_v3_BB64_1:
	xorl	%eax, %eax
                                        # kill: def $al killed $al killed $eax
	retq
.Ldeerlapse_0_1_0_v3_BB64_4:
	.cfi_def_cfa_offset 32
	.cfi_offset %rbx, -16
	xorl	%eax, %eax
	addq	$16, %rsp
	.cfi_def_cfa_offset 16
	popq	%rbx
	.cfi_def_cfa_offset 8
	.cfi_restore %rbx
                                        # kill: def $al killed $al killed $eax
	retq
.Ldeerlapse_0_1_0_v3_func_end64:
	.cfi_endproc
                                        # -- End function
	.section	.text.deerlapse_0_1_0_v3_quic_key_open,"ax",@progbits
	.ifdef	deerlapse_in_rust
	.globl	deerlapse_0_1_0_v3_quic_key_open         # -- Begin function deerlapse_0_1_0_v3_quic_key_open
	.p2align	4
	.type	deerlapse_0_1_0_v3_quic_key_open,@function
deerlapse_0_1_0_v3_quic_key_open:                # @deerlapse_0_1_0_v3_quic_key_open
	.size	deerlapse_0_1_0_v3_quic_key_open, .Ldeerlapse_0_1_0_v3_func_end65-deerlapse_0_1_0_v3_quic_key_open
	.else
	.globl	deerlapse_quic_key_open         # -- Begin function deerlapse_quic_key_open
	.p2align	4
	.type	deerlapse_quic_key_open,@function
deerlapse_quic_key_open:                # @deerlapse_quic_key_open
	.size	deerlapse_quic_key_open, .Ldeerlapse_0_1_0_v3_func_end65-deerlapse_quic_key_open
	.endif
	.cfi_startproc
# %bb.0:                                # %start
	endbr64
	pushq	%rbp
	.cfi_def_cfa_offset 16
	pushq	%r15
	.cfi_def_cfa_offset 24
	pushq	%r14
	.cfi_def_cfa_offset 32
	pushq	%r12
	.cfi_def_cfa_offset 40
	pushq	%rbx
	.cfi_def_cfa_offset 48
	subq	$160, %rsp
	.cfi_def_cfa_offset 208
	.cfi_offset %rbx, -48
	.cfi_offset %r12, -40
	.cfi_offset %r14, -32
	.cfi_offset %r15, -24
	.cfi_offset %rbp, -16
	xorl	%r10d, %r10d
	testq	%rdx, %rdx
	sete	%bl
	xorl	%eax, %eax
	testq	%r8, %r8
	sete	%r11b
	movq	%rsi, %r14
	shrq	$62, %r14
	jne	.Ldeerlapse_0_1_0_v3_BB65_7
# %bb.2:                                # %join.3.i
	bswapq	%rsi
	movl	%esi, %ebp
	shrl	$24, %ebp
	movl	%esi, %r14d
	shrl	$16, %r14d
	vmovd	%esi, %xmm0
	movl	%esi, %r15d
	shrl	$8, %r15d
	vpinsrb	$1, %r15d, %xmm0, %xmm0
	vpinsrb	$2, %r14d, %xmm0, %xmm0
	vmovd	3196(%rdi), %xmm1               # xmm1 = mem[0],zero,zero,zero
	vpinsrb	$3, %ebp, %xmm0, %xmm0
	vpxor	%xmm0, %xmm1, %xmm0
	vmovd	3192(%rdi), %xmm1               # xmm1 = mem[0],zero,zero,zero
	vpunpckldq	%xmm0, %xmm1, %xmm0     # xmm0 = xmm1[0],xmm0[0],xmm1[1],xmm0[1]
	vmovq	%xmm0, 32(%rsp)
	movq	%rsi, %r14
	shrq	$56, %r14
	movq	%rsi, %r15
	shrq	$48, %r15
	movq	%rsi, %r12
	shrq	$40, %r12
	shrq	$32, %rsi
	vmovd	%esi, %xmm0
	vpinsrb	$1, %r12d, %xmm0, %xmm0
	vpinsrb	$2, %r15d, %xmm0, %xmm0
	vpinsrb	$3, %r14d, %xmm0, %xmm0
	vmovd	3200(%rdi), %xmm1               # xmm1 = mem[0],zero,zero,zero
	vpxor	%xmm0, %xmm1, %xmm0
	vmovd	%xmm0, 40(%rsp)
	movl	1920(%rdi), %esi
	leal	-10(%rsi), %ebp
	cmpl	$4, %ebp
	ja	.Ldeerlapse_0_1_0_v3_BB65_7
# %bb.3:                                # %join.3.i.i
	cmpq	$16, %r9
	jb	.Ldeerlapse_0_1_0_v3_BB65_7
# %bb.4:                                # %arm.1.i.i.i
	addq	$-16, %r9
	movq	%rcx, %r14
	shrq	$61, %r14
	setne	%bpl
	movabsq	$68719476704, %r14              # imm = 0xFFFFFFFE0
	cmpq	%r14, %r9
	seta	%r14b
	orb	%bpl, %r14b
	jne	.Ldeerlapse_0_1_0_v3_BB65_7
# %bb.5:                                # %then.11.i.i.i
	movb	%bl, %r10b
	shll	$12, %r10d
	addq	%r10, %rdx
	movb	%r11b, %al
	shll	$12, %eax
	addq	%rax, %r8
	leaq	1928(%rdi), %rax
	movl	1924(%rdi), %r10d
	movq	%rdi, 48(%rsp)
	movq	%rax, 56(%rsp)
	movq	%rsi, 64(%rsp)
	movl	%r10d, 72(%rsp)
	movl	$0, 76(%rsp)
	leaq	2168(%rdi), %rax
	addq	$2680, %rdi                     # imm = 0xA78
	movq	%rax, 104(%rsp)
	vpxor	%xmm0, %xmm0, %xmm0
	vmovdqa	%xmm0, 80(%rsp)
	movq	%rdi, 112(%rsp)
	vmovdqu	(%r8,%r9), %xmm0
	vmovdqa	%xmm0, 144(%rsp)
	leaq	80(%rsp), %rax
	movq	%rax, 24(%rsp)
	movq	%r9, %rbx
	movq	%r9, 16(%rsp)
	movq	%r8, %r14
	movq	%r8, 8(%rsp)
	leaq	144(%rsp), %rax
	movq	%rax, (%rsp)
	leaq	127(%rsp), %rdi
	leaq	48(%rsp), %rsi
	leaq	104(%rsp), %rax
	leaq	32(%rsp), %r10
	movq	%rdx, %r8
	movq	%rax, %rdx
	movq	%rcx, %r9
	movq	%r10, %rcx
	callq	"deerlapse_0_1_0_v3::aead_ciphers::aes_gcm::opening::authenticate::<#7bfdf0a6b4753edd>"
	cmpb	$0, 127(%rsp)
	je	.Ldeerlapse_0_1_0_v3_BB65_9
.Ldeerlapse_0_1_0_v3_BB65_7:
	xorl	%eax, %eax
.Ldeerlapse_0_1_0_v3_BB65_8:                               # %"deerlapse::quic_key::deerlapse_quic_key_open.exit"
                                        # kill: def $al killed $al killed $eax
	addq	$160, %rsp
	.cfi_def_cfa_offset 48
	popq	%rbx
	.cfi_def_cfa_offset 40
	popq	%r12
	.cfi_def_cfa_offset 32
	popq	%r14
	.cfi_def_cfa_offset 24
	popq	%r15
	.cfi_def_cfa_offset 16
	popq	%rbp
	.cfi_def_cfa_offset 8
	retq
.Ldeerlapse_0_1_0_v3_BB65_9:                               # %arm.4.i.i
	.cfi_def_cfa_offset 208
	movq	208(%rsp), %r15
	leaq	128(%rsp), %rsi
	leaq	48(%rsp), %rdi
	leaq	80(%rsp), %r9
	movq	%r14, %rdx
	movq	%rbx, %rcx
	xorl	%r8d, %r8d
	callq	"deerlapse_0_1_0_v3::aead_ciphers::aes_gcm::counter_mode::encrypt_within::<#6fa349fe97f872a2>"
	movq	%rax, (%r15)
	movb	$1, %al
	jmp	.Ldeerlapse_0_1_0_v3_BB65_8
.Ldeerlapse_0_1_0_v3_func_end65:
	.cfi_endproc
                                        # -- End function
	.section	.text.deerlapse_0_1_0_v3_quic_key_seal,"ax",@progbits
	.ifdef	deerlapse_in_rust
	.globl	deerlapse_0_1_0_v3_quic_key_seal         # -- Begin function deerlapse_0_1_0_v3_quic_key_seal
	.p2align	4
	.type	deerlapse_0_1_0_v3_quic_key_seal,@function
deerlapse_0_1_0_v3_quic_key_seal:                # @deerlapse_0_1_0_v3_quic_key_seal
	.size	deerlapse_0_1_0_v3_quic_key_seal, .Ldeerlapse_0_1_0_v3_func_end66-deerlapse_0_1_0_v3_quic_key_seal
	.else
	.globl	deerlapse_quic_key_seal         # -- Begin function deerlapse_quic_key_seal
	.p2align	4
	.type	deerlapse_quic_key_seal,@function
deerlapse_quic_key_seal:                # @deerlapse_quic_key_seal
	.size	deerlapse_quic_key_seal, .Ldeerlapse_0_1_0_v3_func_end66-deerlapse_quic_key_seal
	.endif
	.cfi_startproc
# %bb.0:                                # %start
	endbr64
	movq	%rdx, %rax
	movq	%rsi, %rdx
	shrq	$62, %rdx
	je	.Ldeerlapse_0_1_0_v3_BB66_2
# %bb.1:
	xorl	%eax, %eax
                                        # kill: def $al killed $al killed $eax
	retq
.Ldeerlapse_0_1_0_v3_BB66_2:                               # %join.3.i
	pushq	%rbx
	.cfi_def_cfa_offset 16
	subq	$32, %rsp
	.cfi_def_cfa_offset 48
	.cfi_offset %rbx, -16
	movq	%r8, %r10
	movq	48(%rsp), %r11
	xorl	%r8d, %r8d
	testq	%r10, %r10
	sete	%r8b
	shll	$12, %r8d
	addq	%r10, %r8
	xorl	%edx, %edx
	testq	%rax, %rax
	sete	%dl
	shll	$12, %edx
	bswapq	%rsi
	movl	%esi, %r10d
	vmovd	%esi, %xmm0
	movl	%esi, %ebx
	shrl	$8, %ebx
	vpinsrb	$1, %ebx, %xmm0, %xmm0
	shrl	$24, %r10d
	movl	%esi, %ebx
	shrl	$16, %ebx
	vpinsrb	$2, %ebx, %xmm0, %xmm0
	vmovd	3196(%rdi), %xmm1               # xmm1 = mem[0],zero,zero,zero
	vpinsrb	$3, %r10d, %xmm0, %xmm0
	vpxor	%xmm0, %xmm1, %xmm0
	vmovd	3192(%rdi), %xmm1               # xmm1 = mem[0],zero,zero,zero
	vpunpckldq	%xmm0, %xmm1, %xmm0     # xmm0 = xmm1[0],xmm0[0],xmm1[1],xmm0[1]
	vmovq	%xmm0, 16(%rsp)
	addq	%rax, %rdx
	movq	%rsi, %rax
	shrq	$56, %rax
	movq	%rsi, %r10
	shrq	$48, %r10
	movq	%rsi, %rbx
	shrq	$40, %rbx
	shrq	$32, %rsi
	vmovd	%esi, %xmm0
	vpinsrb	$1, %ebx, %xmm0, %xmm0
	vpinsrb	$2, %r10d, %xmm0, %xmm0
	vpinsrb	$3, %eax, %xmm0, %xmm0
	vmovd	3200(%rdi), %xmm1               # xmm1 = mem[0],zero,zero,zero
	vpxor	%xmm0, %xmm1, %xmm0
	vmovd	%xmm0, 24(%rsp)
	movq	%r11, (%rsp)
	leaq	16(%rsp), %rsi
	callq	"deerlapse_0_1_0_v3::deerlapse::key::deerlapse_key_seal"
                                        # kill: def $al killed $al def $eax
	addq	$32, %rsp
	.cfi_def_cfa_offset 16
	popq	%rbx
	.cfi_def_cfa_offset 8
	.cfi_restore %rbx
                                        # kill: def $al killed $al killed $eax
	retq
.Ldeerlapse_0_1_0_v3_func_end66:
	.cfi_endproc
                                        # -- End function
	.section	.text.deerlapse_0_1_0_v3_record_key_open,"ax",@progbits
	.ifdef	deerlapse_in_rust
	.globl	deerlapse_0_1_0_v3_record_key_open       # -- Begin function deerlapse_0_1_0_v3_record_key_open
	.p2align	4
	.type	deerlapse_0_1_0_v3_record_key_open,@function
deerlapse_0_1_0_v3_record_key_open:              # @deerlapse_0_1_0_v3_record_key_open
	.size	deerlapse_0_1_0_v3_record_key_open, .Ldeerlapse_0_1_0_v3_func_end67-deerlapse_0_1_0_v3_record_key_open
	.else
	.globl	deerlapse_record_key_open       # -- Begin function deerlapse_record_key_open
	.p2align	4
	.type	deerlapse_record_key_open,@function
deerlapse_record_key_open:              # @deerlapse_record_key_open
	.size	deerlapse_record_key_open, .Ldeerlapse_0_1_0_v3_func_end67-deerlapse_record_key_open
	.endif
	.cfi_startproc
# %bb.0:                                # %start
	endbr64
	pushq	%rbp
	.cfi_def_cfa_offset 16
	pushq	%r15
	.cfi_def_cfa_offset 24
	pushq	%r14
	.cfi_def_cfa_offset 32
	pushq	%r13
	.cfi_def_cfa_offset 40
	pushq	%r12
	.cfi_def_cfa_offset 48
	pushq	%rbx
	.cfi_def_cfa_offset 56
	subq	$184, %rsp
	.cfi_def_cfa_offset 240
	.cfi_offset %rbx, -56
	.cfi_offset %r12, -48
	.cfi_offset %r13, -40
	.cfi_offset %r14, -32
	.cfi_offset %r15, -24
	.cfi_offset %rbp, -16
	xorl	%r15d, %r15d
	testq	%rdx, %rdx
	sete	%al
	leaq	-16641(%rcx), %r10
	cmpq	$-16624, %r10                   # imm = 0xBF10
	jb	.Ldeerlapse_0_1_0_v3_BB67_1
# %bb.2:                                # %after.1.i
	bswapq	%rsi
	movl	%esi, %r10d
	shrl	$24, %r10d
	movl	%esi, %r11d
	shrl	$16, %r11d
	vmovd	%esi, %xmm0
	movl	%esi, %ebx
	shrl	$8, %ebx
	vpinsrb	$1, %ebx, %xmm0, %xmm0
	vpinsrb	$2, %r11d, %xmm0, %xmm0
	vmovd	3196(%rdi), %xmm1               # xmm1 = mem[0],zero,zero,zero
	vpinsrb	$3, %r10d, %xmm0, %xmm0
	vpxor	%xmm0, %xmm1, %xmm0
	vmovd	3192(%rdi), %xmm1               # xmm1 = mem[0],zero,zero,zero
	vpunpckldq	%xmm0, %xmm1, %xmm0     # xmm0 = xmm1[0],xmm0[0],xmm1[1],xmm0[1]
	vmovq	%xmm0, 48(%rsp)
	movq	%rsi, %r10
	shrq	$56, %r10
	movq	%rsi, %r11
	shrq	$48, %r11
	movq	%rsi, %rbx
	shrq	$40, %rbx
	shrq	$32, %rsi
	vmovd	%esi, %xmm0
	vpinsrb	$1, %ebx, %xmm0, %xmm0
	vpinsrb	$2, %r11d, %xmm0, %xmm0
	vpinsrb	$3, %r10d, %xmm0, %xmm0
	vmovd	3200(%rdi), %xmm1               # xmm1 = mem[0],zero,zero,zero
	vpxor	%xmm0, %xmm1, %xmm0
	vmovd	%xmm0, 56(%rsp)
	movw	$791, 35(%rsp)                  # imm = 0x317
	movb	$3, 37(%rsp)
	movb	%ch, 38(%rsp)
	movb	%cl, 39(%rsp)
	movl	1920(%rdi), %esi
	leal	-10(%rsi), %r10d
	cmpl	$4, %r10d
	ja	.Ldeerlapse_0_1_0_v3_BB67_1
# %bb.3:                                # %then.11.i.i.i
	movq	%r8, %rbp
	movq	%r9, %r13
	movb	%al, %r15b
	shll	$12, %r15d
	movq	%rdx, 40(%rsp)                  # 8-byte Spill
	leaq	(%rdx,%r15), %rbx
	leaq	-16(%rcx), %r14
	leaq	1928(%rdi), %rax
	movl	1924(%rdi), %edx
	movq	%rdi, 64(%rsp)
	movq	%rax, 72(%rsp)
	movq	%rsi, 80(%rsp)
	movl	%edx, 88(%rsp)
	movl	$0, 92(%rsp)
	leaq	2168(%rdi), %rax
	addq	$2680, %rdi                     # imm = 0xA78
	movq	%rax, 120(%rsp)
	vpxor	%xmm0, %xmm0, %xmm0
	vmovdqa	%xmm0, 96(%rsp)
	movq	%rdi, 128(%rsp)
	vmovdqu	-16(%rbx,%rcx), %xmm0
	vmovdqa	%xmm0, 160(%rsp)
	leaq	96(%rsp), %rax
	movq	%rax, 24(%rsp)
	movq	%r14, 16(%rsp)
	movq	%rbx, 8(%rsp)
	leaq	160(%rsp), %rax
	movq	%rax, (%rsp)
	leaq	143(%rsp), %rdi
	leaq	64(%rsp), %rsi
	leaq	120(%rsp), %rdx
	leaq	48(%rsp), %rcx
	leaq	35(%rsp), %r8
	movl	$5, %r9d
	callq	"deerlapse_0_1_0_v3::aead_ciphers::aes_gcm::opening::authenticate::<#7bfdf0a6b4753edd>"
	cmpb	$0, 143(%rsp)
	je	.Ldeerlapse_0_1_0_v3_BB67_6
.Ldeerlapse_0_1_0_v3_BB67_1:
	xorl	%eax, %eax
.Ldeerlapse_0_1_0_v3_BB67_17:                              # %"deerlapse::record_key::deerlapse_record_key_open.exit"
                                        # kill: def $al killed $al killed $eax
	addq	$184, %rsp
	.cfi_def_cfa_offset 56
	popq	%rbx
	.cfi_def_cfa_offset 48
	popq	%r12
	.cfi_def_cfa_offset 40
	popq	%r13
	.cfi_def_cfa_offset 32
	popq	%r14
	.cfi_def_cfa_offset 24
	popq	%r15
	.cfi_def_cfa_offset 16
	popq	%rbp
	.cfi_def_cfa_offset 8
	retq
.Ldeerlapse_0_1_0_v3_BB67_6:                               # %join.13.i
	.cfi_def_cfa_offset 240
	leaq	144(%rsp), %rsi
	xorl	%r12d, %r12d
	leaq	64(%rsp), %rdi
	leaq	96(%rsp), %r9
	movq	%rbx, %rdx
	movq	%r14, %rcx
	xorl	%r8d, %r8d
	callq	"deerlapse_0_1_0_v3::aead_ciphers::aes_gcm::counter_mode::encrypt_within::<#6fa349fe97f872a2>"
	testq	%rax, %rax
	movq	%rbp, %rdx
	je	.Ldeerlapse_0_1_0_v3_BB67_13
# %bb.7:                                # %join.6.i.i.preheader
	movl	%eax, %esi
	andl	$7, %esi
	cmpq	$8, %rax
	jae	.Ldeerlapse_0_1_0_v3_BB67_9
# %bb.8:
	xorl	%r12d, %r12d
	xorl	%edi, %edi
	jmp	.Ldeerlapse_0_1_0_v3_BB67_12
.Ldeerlapse_0_1_0_v3_BB67_9:                               # %join.6.i.i.preheader.new
	movq	%rax, %r8
	andq	$-8, %r8
	movq	40(%rsp), %rdi                  # 8-byte Reload
	leaq	(%r15,%rdi), %r9
	addq	$7, %r9
	xorl	%r12d, %r12d
	xorl	%edi, %edi
	.p2align	4
.Ldeerlapse_0_1_0_v3_BB67_10:                              # %join.6.i.i
                                        # =>This Inner Loop Header: Depth=1
	cmpb	$0, -7(%r9,%rdi)
	cmovneq	%rdi, %r12
	leaq	1(%rdi), %r10
	cmpb	$0, -6(%r9,%rdi)
	cmoveq	%r12, %r10
	cmpb	$0, -5(%r9,%rdi)
	leaq	2(%rdi), %r11
	cmoveq	%r10, %r11
	leaq	3(%rdi), %r10
	cmpb	$0, -4(%r9,%rdi)
	cmoveq	%r11, %r10
	leaq	4(%rdi), %r11
	cmpb	$0, -3(%r9,%rdi)
	cmoveq	%r10, %r11
	cmpb	$0, -2(%r9,%rdi)
	leaq	5(%rdi), %r10
	cmoveq	%r11, %r10
	leaq	6(%rdi), %r11
	cmpb	$0, -1(%r9,%rdi)
	cmoveq	%r10, %r11
	leaq	7(%rdi), %r12
	cmpb	$0, (%r9,%rdi)
	cmoveq	%r11, %r12
	addq	$8, %rdi
	cmpq	%r8, %rdi
	jne	.Ldeerlapse_0_1_0_v3_BB67_10
# %bb.11:                               # %after.1.i.i.loopexit.unr-lcssa
	testq	%rsi, %rsi
	je	.Ldeerlapse_0_1_0_v3_BB67_13
	.p2align	4
.Ldeerlapse_0_1_0_v3_BB67_12:                              # %join.6.i.i.epil
                                        # =>This Inner Loop Header: Depth=1
	cmpb	$0, (%rbx,%rdi)
	cmovneq	%rdi, %r12
	incq	%rdi
	decq	%rsi
	jne	.Ldeerlapse_0_1_0_v3_BB67_12
.Ldeerlapse_0_1_0_v3_BB67_13:                              # %after.1.i.i
	cmpq	%rax, %r12
	jae	.Ldeerlapse_0_1_0_v3_BB67_15
# %bb.14:                               # %"records::inner::last_nonzero.exit.i"
	movzbl	(%rbx,%r12), %eax
	xorl	%esi, %esi
	testb	%al, %al
	cmovneq	%r12, %rsi
	jmp	.Ldeerlapse_0_1_0_v3_BB67_16
.Ldeerlapse_0_1_0_v3_BB67_15:
	xorl	%eax, %eax
	xorl	%esi, %esi
.Ldeerlapse_0_1_0_v3_BB67_16:                              # %"records::inner::last_nonzero.exit.thread.i"
	movb	%al, (%rdx)
	movq	%rsi, (%r13)
	movb	$1, %al
	jmp	.Ldeerlapse_0_1_0_v3_BB67_17
.Ldeerlapse_0_1_0_v3_func_end67:
	.cfi_endproc
                                        # -- End function
	.section	.text.deerlapse_0_1_0_v3_record_key_seal,"ax",@progbits
	.ifdef	deerlapse_in_rust
	.globl	deerlapse_0_1_0_v3_record_key_seal       # -- Begin function deerlapse_0_1_0_v3_record_key_seal
	.p2align	4
	.type	deerlapse_0_1_0_v3_record_key_seal,@function
deerlapse_0_1_0_v3_record_key_seal:              # @deerlapse_0_1_0_v3_record_key_seal
	.size	deerlapse_0_1_0_v3_record_key_seal, .Ldeerlapse_0_1_0_v3_func_end68-deerlapse_0_1_0_v3_record_key_seal
	.else
	.globl	deerlapse_record_key_seal       # -- Begin function deerlapse_record_key_seal
	.p2align	4
	.type	deerlapse_record_key_seal,@function
deerlapse_record_key_seal:              # @deerlapse_record_key_seal
	.size	deerlapse_record_key_seal, .Ldeerlapse_0_1_0_v3_func_end68-deerlapse_record_key_seal
	.endif
	.cfi_startproc
# %bb.0:                                # %start
	endbr64
	pushq	%rbp
	.cfi_def_cfa_offset 16
	pushq	%r15
	.cfi_def_cfa_offset 24
	pushq	%r14
	.cfi_def_cfa_offset 32
	pushq	%r13
	.cfi_def_cfa_offset 40
	pushq	%r12
	.cfi_def_cfa_offset 48
	pushq	%rbx
	.cfi_def_cfa_offset 56
	subq	$72, %rsp
	.cfi_def_cfa_offset 128
	.cfi_offset %rbx, -56
	.cfi_offset %r12, -48
	.cfi_offset %r13, -40
	.cfi_offset %r14, -32
	.cfi_offset %r15, -24
	.cfi_offset %rbp, -16
	xorl	%r14d, %r14d
	testq	%rcx, %rcx
	sete	%r11b
	xorl	%eax, %eax
	testb	%dl, %dl
	je	.Ldeerlapse_0_1_0_v3_BB68_10
# %bb.1:                                # %start
	movq	%r9, %r10
	leaq	-16402(%r8), %r9
	cmpq	$-16385, %r9                    # imm = 0xBFFF
	jb	.Ldeerlapse_0_1_0_v3_BB68_10
# %bb.2:                                # %start
	leaq	-16(%r8), %r9
	movq	%r9, %rbx
	subq	%r10, %rbx
	jbe	.Ldeerlapse_0_1_0_v3_BB68_10
# %bb.3:                                # %else.13.i
	movl	1920(%rdi), %eax
	addl	$-10, %eax
	cmpl	$4, %eax
	ja	.Ldeerlapse_0_1_0_v3_BB68_4
# %bb.5:                                # %after.7.i
	movq	%r8, %r15
	movb	%r11b, %r14b
	shll	$12, %r14d
	addq	%r14, %rcx
	leaq	(%rcx,%r9), %r12
	movb	%dl, (%rcx,%r10)
	leaq	1(%r10), %rax
	cmpq	%rax, %r9
	je	.Ldeerlapse_0_1_0_v3_BB68_9
# %bb.6:                                # %loop.5.preheader.i.i.i
	leaq	(%rcx,%r10), %r14
	incq	%r14
	addq	$-2, %rbx
	je	.Ldeerlapse_0_1_0_v3_BB68_8
# %bb.7:                                # %join.8.preheader.i.i.i
	movq	%r12, 24(%rsp)                  # 8-byte Spill
	movq	%rdi, %r12
	movq	%r14, %rdi
	movq	%rsi, %r13
	xorl	%esi, %esi
	movq	%rbx, %rdx
	movq	%rcx, %rbp
	callq	memset@PLT
	movq	%r13, %rsi
	leaq	-16(%r15), %r9
	movq	%r12, %rdi
	movq	24(%rsp), %r12                  # 8-byte Reload
	movq	%rbp, %rcx
.Ldeerlapse_0_1_0_v3_BB68_8:                               # %after.4.i.i.i
	movb	$0, (%r14,%rbx)
.Ldeerlapse_0_1_0_v3_BB68_9:                               # %"records::inner::write_type_and_padding.exit.i"
	bswapq	%rsi
	movl	%esi, %eax
	shrl	$24, %eax
	movl	%esi, %edx
	shrl	$16, %edx
	vmovd	%esi, %xmm0
	movl	%esi, %r8d
	shrl	$8, %r8d
	vpinsrb	$1, %r8d, %xmm0, %xmm0
	vpinsrb	$2, %edx, %xmm0, %xmm0
	vmovd	3196(%rdi), %xmm1               # xmm1 = mem[0],zero,zero,zero
	vpinsrb	$3, %eax, %xmm0, %xmm0
	vpxor	%xmm0, %xmm1, %xmm0
	vmovd	3192(%rdi), %xmm1               # xmm1 = mem[0],zero,zero,zero
	vpunpckldq	%xmm0, %xmm1, %xmm0     # xmm0 = xmm1[0],xmm0[0],xmm1[1],xmm0[1]
	vmovq	%xmm0, 32(%rsp)
	movq	%rsi, %rax
	shrq	$56, %rax
	movq	%rsi, %rdx
	shrq	$48, %rdx
	movq	%rsi, %r8
	shrq	$40, %r8
	shrq	$32, %rsi
	vmovd	%esi, %xmm0
	vpinsrb	$1, %r8d, %xmm0, %xmm0
	vpinsrb	$2, %edx, %xmm0, %xmm0
	vpinsrb	$3, %eax, %xmm0, %xmm0
	vmovd	3200(%rdi), %xmm1               # xmm1 = mem[0],zero,zero,zero
	vpxor	%xmm0, %xmm1, %xmm0
	vmovd	%xmm0, 40(%rsp)
	vpxor	%xmm0, %xmm0, %xmm0
	vmovdqa	%xmm0, 48(%rsp)
	movw	$791, 19(%rsp)                  # imm = 0x317
	movb	$3, 21(%rsp)
	movq	%r15, %rax
	movb	%ah, 22(%rsp)
	movb	%al, 23(%rsp)
	leaq	48(%rsp), %rax
	movq	%rax, (%rsp)
	leaq	32(%rsp), %rsi
	leaq	19(%rsp), %rdx
	movq	%rcx, %r8
	movl	$5, %ecx
	callq	"deerlapse_0_1_0_v3::deerlapse::key::deerlapse_key_seal"
                                        # kill: def $al killed $al def $eax
	vmovaps	48(%rsp), %xmm0
	vmovups	%xmm0, (%r12)
	jmp	.Ldeerlapse_0_1_0_v3_BB68_10
.Ldeerlapse_0_1_0_v3_BB68_4:
	xorl	%eax, %eax
.Ldeerlapse_0_1_0_v3_BB68_10:                              # %"deerlapse::record_key::deerlapse_record_key_seal.exit"
                                        # kill: def $al killed $al killed $eax
	addq	$72, %rsp
	.cfi_def_cfa_offset 56
	popq	%rbx
	.cfi_def_cfa_offset 48
	popq	%r12
	.cfi_def_cfa_offset 40
	popq	%r13
	.cfi_def_cfa_offset 32
	popq	%r14
	.cfi_def_cfa_offset 24
	popq	%r15
	.cfi_def_cfa_offset 16
	popq	%rbp
	.cfi_def_cfa_offset 8
	retq
.Ldeerlapse_0_1_0_v3_func_end68:
	.cfi_endproc
                                        # -- End function
	.section	.text.deerlapse_0_1_0_v3_sealer_seal,"ax",@progbits
	.ifdef	deerlapse_in_rust
	.globl	deerlapse_0_1_0_v3_sealer_seal           # -- Begin function deerlapse_0_1_0_v3_sealer_seal
	.p2align	4
	.type	deerlapse_0_1_0_v3_sealer_seal,@function
deerlapse_0_1_0_v3_sealer_seal:                  # @deerlapse_0_1_0_v3_sealer_seal
	.size	deerlapse_0_1_0_v3_sealer_seal, .Ldeerlapse_0_1_0_v3_func_end69-deerlapse_0_1_0_v3_sealer_seal
	.else
	.globl	deerlapse_sealer_seal           # -- Begin function deerlapse_sealer_seal
	.p2align	4
	.type	deerlapse_sealer_seal,@function
deerlapse_sealer_seal:                  # @deerlapse_sealer_seal
	.size	deerlapse_sealer_seal, .Ldeerlapse_0_1_0_v3_func_end69-deerlapse_sealer_seal
	.endif
	.cfi_startproc
# %bb.0:                                # %start
	endbr64
	pushq	%rbx
	.cfi_def_cfa_offset 16
	subq	$32, %rsp
	.cfi_def_cfa_offset 48
	.cfi_offset %rbx, -16
	movq	%rdi, %rbx
	movq	3192(%rdi), %rdi
	cmpq	%rdi, 3200(%rbx)
	jbe	.Ldeerlapse_0_1_0_v3_BB69_4
# %bb.1:                                # %join.3.i
	movq	%r8, %rax
	movq	%rdx, %r10
	xorl	%r8d, %r8d
	testq	%rcx, %rcx
	sete	%r8b
	shll	$12, %r8d
	addq	%rcx, %r8
	xorl	%edx, %edx
	testq	%rsi, %rsi
	sete	%dl
	shll	$12, %edx
	bswapq	%rdi
	movl	%edi, %ecx
	vmovd	%edi, %xmm0
	movl	%edi, %r11d
	shrl	$8, %r11d
	vpinsrb	$1, %r11d, %xmm0, %xmm0
	shrl	$24, %ecx
	movl	%edi, %r11d
	shrl	$16, %r11d
	vpinsrb	$2, %r11d, %xmm0, %xmm0
	vmovd	3212(%rbx), %xmm1               # xmm1 = mem[0],zero,zero,zero
	vpinsrb	$3, %ecx, %xmm0, %xmm0
	vpxor	%xmm0, %xmm1, %xmm0
	vmovd	3208(%rbx), %xmm1               # xmm1 = mem[0],zero,zero,zero
	vpunpckldq	%xmm0, %xmm1, %xmm0     # xmm0 = xmm1[0],xmm0[0],xmm1[1],xmm0[1]
	vmovq	%xmm0, 16(%rsp)
	addq	%rsi, %rdx
	movq	%rdi, %rcx
	shrq	$56, %rcx
	movq	%rdi, %rsi
	shrq	$48, %rsi
	movq	%rdi, %r11
	shrq	$40, %r11
	shrq	$32, %rdi
	vmovd	%edi, %xmm0
	vpinsrb	$1, %r11d, %xmm0, %xmm0
	vpinsrb	$2, %esi, %xmm0, %xmm0
	vpinsrb	$3, %ecx, %xmm0, %xmm0
	vmovd	3216(%rbx), %xmm1               # xmm1 = mem[0],zero,zero,zero
	vpxor	%xmm0, %xmm1, %xmm0
	vmovd	%xmm0, 24(%rsp)
	movq	%r9, (%rsp)
	leaq	16(%rsp), %rsi
	movq	%rbx, %rdi
	movq	%r10, %rcx
	movq	%rax, %r9
	callq	"deerlapse_0_1_0_v3::deerlapse::key::deerlapse_key_seal"
	testb	%al, %al
	je	.Ldeerlapse_0_1_0_v3_BB69_4
# %bb.2:                                # %join.6.i
	incq	3192(%rbx)
	movb	$1, %al
                                        # kill: def $al killed $al killed $eax
	addq	$32, %rsp
	.cfi_def_cfa_offset 16
	popq	%rbx
	.cfi_def_cfa_offset 8
	retq
.Ldeerlapse_0_1_0_v3_BB69_4:
	.cfi_def_cfa_offset 48
	xorl	%eax, %eax
                                        # kill: def $al killed $al killed $eax
	addq	$32, %rsp
	.cfi_def_cfa_offset 16
	popq	%rbx
	.cfi_def_cfa_offset 8
	retq
.Ldeerlapse_0_1_0_v3_func_end69:
	.cfi_endproc
                                        # -- End function
	.section	.text.deerlapse_0_1_0_v3_xaes_open,"ax",@progbits
	.ifdef	deerlapse_in_rust
	.globl	deerlapse_0_1_0_v3_xaes_open             # -- Begin function deerlapse_0_1_0_v3_xaes_open
	.p2align	4
	.type	deerlapse_0_1_0_v3_xaes_open,@function
deerlapse_0_1_0_v3_xaes_open:                    # @deerlapse_0_1_0_v3_xaes_open
	.size	deerlapse_0_1_0_v3_xaes_open, .Ldeerlapse_0_1_0_v3_func_end70-deerlapse_0_1_0_v3_xaes_open
	.else
	.globl	deerlapse_xaes_open             # -- Begin function deerlapse_xaes_open
	.p2align	4
	.type	deerlapse_xaes_open,@function
deerlapse_xaes_open:                    # @deerlapse_xaes_open
	.size	deerlapse_xaes_open, .Ldeerlapse_0_1_0_v3_func_end70-deerlapse_xaes_open
	.endif
	.cfi_startproc
# %bb.0:                                # %start
	endbr64
	pushq	%rbp
	.cfi_def_cfa_offset 16
	pushq	%r15
	.cfi_def_cfa_offset 24
	pushq	%r14
	.cfi_def_cfa_offset 32
	pushq	%r13
	.cfi_def_cfa_offset 40
	pushq	%r12
	.cfi_def_cfa_offset 48
	pushq	%rbx
	.cfi_def_cfa_offset 56
	subq	$3072, %rsp                     # imm = 0xC00
	.cfi_adjust_cfa_offset 3072
	movq	$0, (%rsp)
	subq	$312, %rsp                      # imm = 0x138
	.cfi_def_cfa_offset 3440
	.cfi_offset %rbx, -56
	.cfi_offset %r12, -48
	.cfi_offset %r13, -40
	.cfi_offset %r14, -32
	.cfi_offset %r15, -24
	.cfi_offset %rbp, -16
	movq	%r9, %rbx
	movq	%rcx, 48(%rsp)                  # 8-byte Spill
	movq	%rdx, %r15
	movq	%rsi, %r14
	movq	%rdi, %r12
	testq	%rdx, %rdx
	sete	46(%rsp)                        # 1-byte Folded Spill
	movq	%r8, 56(%rsp)                   # 8-byte Spill
	testq	%r8, %r8
	sete	47(%rsp)                        # 1-byte Folded Spill
	leaq	192(%rsp), %r13
	xorl	%ebp, %ebp
	movl	$3192, %edx                     # imm = 0xC78
	movq	%r13, %rdi
	xorl	%esi, %esi
	callq	memset@PLT
	leaq	67(%rsp), %rdi
	movq	%r12, %rsi
	movq	%r14, %rdx
	movq	%r13, %rcx
	callq	"deerlapse_0_1_0_v3::deerlapse::xaes_key::expand_message_key"
	cmpb	$1, 67(%rsp)
	jne	.Ldeerlapse_0_1_0_v3_BB70_8
# %bb.1:                                # %arm.1.i
	movl	2112(%rsp), %edx
	leal	-10(%rdx), %eax
	cmpl	$4, %eax
	ja	.Ldeerlapse_0_1_0_v3_BB70_7
# %bb.2:                                # %join.3.i.i
	cmpq	$16, %rbx
	jb	.Ldeerlapse_0_1_0_v3_BB70_7
# %bb.3:                                # %arm.1.i.i.i
	movq	3440(%rsp), %r14
	leaq	-16(%rbx), %rbp
	movq	%rbp, %rax
	subq	%r14, %rax
	jb	.Ldeerlapse_0_1_0_v3_BB70_7
# %bb.4:                                # %arm.8.i.i.i
	movq	48(%rsp), %rcx                  # 8-byte Reload
	shrq	$61, %rcx
	setne	%cl
	movabsq	$68719476704, %rsi              # imm = 0xFFFFFFFE0
	cmpq	%rsi, %rax
	seta	%sil
	orb	%cl, %sil
	jne	.Ldeerlapse_0_1_0_v3_BB70_7
# %bb.5:                                # %then.11.i.i.i
	xorl	%ecx, %ecx
	movzbl	46(%rsp), %esi                  # 1-byte Folded Reload
	movb	%sil, %cl
	shll	$12, %ecx
	addq	%rcx, %r15
	xorl	%ecx, %ecx
	movzbl	47(%rsp), %esi                  # 1-byte Folded Reload
	movb	%sil, %cl
	shll	$12, %ecx
	movq	56(%rsp), %r12                  # 8-byte Reload
	addq	%rcx, %r12
	leaq	2120(%rsp), %rsi
	leaq	2360(%rsp), %rdi
	leaq	2872(%rsp), %r8
	leaq	68(%rsp), %rcx
	leaq	-16(%r12,%rbx), %r9
	movl	2116(%rsp), %r10d
	movq	%r13, 80(%rsp)
	movq	%rsi, 88(%rsp)
	movq	%rdx, 96(%rsp)
	movl	%r10d, 104(%rsp)
	movl	$0, 108(%rsp)
	movq	%rdi, 136(%rsp)
	movq	%r8, 144(%rsp)
	vxorps	%xmm0, %xmm0, %xmm0
	vmovaps	%xmm0, 112(%rsp)
	vmovups	(%r9), %xmm0
	vmovaps	%xmm0, 176(%rsp)
	leaq	(%r12,%r14), %rdx
	leaq	112(%rsp), %rsi
	movq	%rsi, 24(%rsp)
	movq	%rax, 16(%rsp)
	movq	%rdx, 8(%rsp)
	leaq	176(%rsp), %rax
	movq	%rax, (%rsp)
	leaq	159(%rsp), %rdi
	leaq	80(%rsp), %rsi
	leaq	136(%rsp), %rdx
	movq	%r15, %r8
	movq	48(%rsp), %r9                   # 8-byte Reload
	callq	"deerlapse_0_1_0_v3::aead_ciphers::aes_gcm::opening::authenticate::<#7bfdf0a6b4753edd>"
	cmpb	$0, 159(%rsp)
	je	.Ldeerlapse_0_1_0_v3_BB70_9
.Ldeerlapse_0_1_0_v3_BB70_7:
	xorl	%ebp, %ebp
.Ldeerlapse_0_1_0_v3_BB70_8:                               # %"deerlapse::xaes_key::deerlapse_xaes_open.exit"
	movl	%ebp, %eax
	addq	$3384, %rsp                     # imm = 0xD38
	.cfi_def_cfa_offset 56
	popq	%rbx
	.cfi_def_cfa_offset 48
	popq	%r12
	.cfi_def_cfa_offset 40
	popq	%r13
	.cfi_def_cfa_offset 32
	popq	%r14
	.cfi_def_cfa_offset 24
	popq	%r15
	.cfi_def_cfa_offset 16
	popq	%rbp
	.cfi_def_cfa_offset 8
	retq
.Ldeerlapse_0_1_0_v3_BB70_9:                               # %arm.4.i.i
	.cfi_def_cfa_offset 3440
	movq	%r14, %r8
	movq	3448(%rsp), %r14
	leaq	160(%rsp), %rsi
	leaq	80(%rsp), %rdi
	leaq	112(%rsp), %r9
	movq	%r12, %rdx
	movq	%rbp, %rcx
	callq	"deerlapse_0_1_0_v3::aead_ciphers::aes_gcm::counter_mode::encrypt_within::<#6fa349fe97f872a2>"
	movq	%rax, (%r14)
	movb	$1, %bpl
	jmp	.Ldeerlapse_0_1_0_v3_BB70_8
.Ldeerlapse_0_1_0_v3_func_end70:
	.cfi_endproc
                                        # -- End function
	.section	.text.deerlapse_0_1_0_v3_xaes_open_appended_tag_sized,"ax",@progbits
	.ifdef	deerlapse_in_rust
	.globl	deerlapse_0_1_0_v3_xaes_open_appended_tag_sized # -- Begin function deerlapse_0_1_0_v3_xaes_open_appended_tag_sized
	.p2align	4
	.type	deerlapse_0_1_0_v3_xaes_open_appended_tag_sized,@function
deerlapse_0_1_0_v3_xaes_open_appended_tag_sized: # @deerlapse_0_1_0_v3_xaes_open_appended_tag_sized
	.size	deerlapse_0_1_0_v3_xaes_open_appended_tag_sized, .Ldeerlapse_0_1_0_v3_func_end71-deerlapse_0_1_0_v3_xaes_open_appended_tag_sized
	.else
	.globl	deerlapse_xaes_open_appended_tag_sized # -- Begin function deerlapse_xaes_open_appended_tag_sized
	.p2align	4
	.type	deerlapse_xaes_open_appended_tag_sized,@function
deerlapse_xaes_open_appended_tag_sized: # @deerlapse_xaes_open_appended_tag_sized
	.size	deerlapse_xaes_open_appended_tag_sized, .Ldeerlapse_0_1_0_v3_func_end71-deerlapse_xaes_open_appended_tag_sized
	.endif
	.cfi_startproc
# %bb.0:                                # %start
	endbr64
	pushq	%rbp
	.cfi_def_cfa_offset 16
	pushq	%r15
	.cfi_def_cfa_offset 24
	pushq	%r14
	.cfi_def_cfa_offset 32
	pushq	%r13
	.cfi_def_cfa_offset 40
	pushq	%r12
	.cfi_def_cfa_offset 48
	pushq	%rbx
	.cfi_def_cfa_offset 56
	subq	$3072, %rsp                     # imm = 0xC00
	.cfi_adjust_cfa_offset 3072
	movq	$0, (%rsp)
	subq	$184, %rsp
	.cfi_def_cfa_offset 3312
	.cfi_offset %rbx, -56
	.cfi_offset %r12, -48
	.cfi_offset %r13, -40
	.cfi_offset %r14, -32
	.cfi_offset %r15, -24
	.cfi_offset %rbp, -16
	movq	%r9, %r12
	movq	%r8, %r15
	movq	%rcx, 40(%rsp)                  # 8-byte Spill
	movq	%rdx, 32(%rsp)                  # 8-byte Spill
	movq	%rsi, %r13
	movq	%rdi, %rbx
	leaq	64(%rsp), %r14
	xorl	%ebp, %ebp
	movl	$3192, %edx                     # imm = 0xC78
	movq	%r14, %rdi
	xorl	%esi, %esi
	callq	memset@PLT
	leaq	51(%rsp), %rdi
	movq	%rbx, %rsi
	movq	%r13, %rdx
	movq	%r14, %rcx
	callq	"deerlapse_0_1_0_v3::deerlapse::xaes_key::expand_message_key"
	cmpq	$16, %r12
	jb	.Ldeerlapse_0_1_0_v3_BB71_3
# %bb.1:                                # %start
	cmpb	$1, 51(%rsp)
	jne	.Ldeerlapse_0_1_0_v3_BB71_3
# %bb.2:                                # %arm.1.i.i
	movq	3320(%rsp), %rax
	movq	3312(%rsp), %rdx
	xorl	%ecx, %ecx
	testq	%rdx, %rdx
	sete	%cl
	shll	$12, %ecx
	addq	%rdx, %rcx
	xorl	%r8d, %r8d
	testq	%r15, %r15
	sete	%r8b
	shll	$12, %r8d
	addq	%r15, %r8
	xorl	%edx, %edx
	movq	32(%rsp), %rsi                  # 8-byte Reload
	testq	%rsi, %rsi
	sete	%dl
	shll	$12, %edx
	addq	%rsi, %rdx
	leaq	52(%rsp), %rsi
	leaq	(%r12,%r8), %rdi
	addq	$-16, %rdi
	addq	$-16, %r12
	movq	%rax, 8(%rsp)
	movq	%rcx, (%rsp)
	movq	%rdi, 16(%rsp)
	leaq	64(%rsp), %rdi
	movq	40(%rsp), %rcx                  # 8-byte Reload
	movq	%r12, %r9
	callq	"deerlapse_0_1_0_v3::deerlapse::out_of_place::deerlapse_key_open_to_sized"
	movl	%eax, %ebp
.Ldeerlapse_0_1_0_v3_BB71_3:                               # %"deerlapse::xaes_key::deerlapse_xaes_open_appended_tag_sized.exit"
	movl	%ebp, %eax
	addq	$3256, %rsp                     # imm = 0xCB8
	.cfi_def_cfa_offset 56
	popq	%rbx
	.cfi_def_cfa_offset 48
	popq	%r12
	.cfi_def_cfa_offset 40
	popq	%r13
	.cfi_def_cfa_offset 32
	popq	%r14
	.cfi_def_cfa_offset 24
	popq	%r15
	.cfi_def_cfa_offset 16
	popq	%rbp
	.cfi_def_cfa_offset 8
	retq
.Ldeerlapse_0_1_0_v3_func_end71:
	.cfi_endproc
                                        # -- End function
	.section	.text.deerlapse_0_1_0_v3_xaes_open_separate_tag,"ax",@progbits
	.ifdef	deerlapse_in_rust
	.globl	deerlapse_0_1_0_v3_xaes_open_separate_tag # -- Begin function deerlapse_0_1_0_v3_xaes_open_separate_tag
	.p2align	4
	.type	deerlapse_0_1_0_v3_xaes_open_separate_tag,@function
deerlapse_0_1_0_v3_xaes_open_separate_tag:       # @deerlapse_0_1_0_v3_xaes_open_separate_tag
	.size	deerlapse_0_1_0_v3_xaes_open_separate_tag, .Ldeerlapse_0_1_0_v3_func_end72-deerlapse_0_1_0_v3_xaes_open_separate_tag
	.else
	.globl	deerlapse_xaes_open_separate_tag # -- Begin function deerlapse_xaes_open_separate_tag
	.p2align	4
	.type	deerlapse_xaes_open_separate_tag,@function
deerlapse_xaes_open_separate_tag:       # @deerlapse_xaes_open_separate_tag
	.size	deerlapse_xaes_open_separate_tag, .Ldeerlapse_0_1_0_v3_func_end72-deerlapse_xaes_open_separate_tag
	.endif
	.cfi_startproc
# %bb.0:                                # %start
	endbr64
	pushq	%rbp
	.cfi_def_cfa_offset 16
	pushq	%r15
	.cfi_def_cfa_offset 24
	pushq	%r14
	.cfi_def_cfa_offset 32
	pushq	%r13
	.cfi_def_cfa_offset 40
	pushq	%r12
	.cfi_def_cfa_offset 48
	pushq	%rbx
	.cfi_def_cfa_offset 56
	subq	$3072, %rsp                     # imm = 0xC00
	.cfi_adjust_cfa_offset 3072
	movq	$0, (%rsp)
	subq	$312, %rsp                      # imm = 0x138
	.cfi_def_cfa_offset 3440
	.cfi_offset %rbx, -56
	.cfi_offset %r12, -48
	.cfi_offset %r13, -40
	.cfi_offset %r14, -32
	.cfi_offset %r15, -24
	.cfi_offset %rbp, -16
	movq	%r9, %r14
	movq	%rcx, 48(%rsp)                  # 8-byte Spill
	movq	%rdx, %r12
	movq	%rsi, %r15
	movq	%rdi, %rbx
	testq	%rdx, %rdx
	sete	46(%rsp)                        # 1-byte Folded Spill
	movq	%r8, 56(%rsp)                   # 8-byte Spill
	testq	%r8, %r8
	sete	47(%rsp)                        # 1-byte Folded Spill
	leaq	192(%rsp), %r13
	xorl	%ebp, %ebp
	movl	$3192, %edx                     # imm = 0xC78
	movq	%r13, %rdi
	xorl	%esi, %esi
	callq	memset@PLT
	leaq	67(%rsp), %rdi
	movq	%rbx, %rsi
	movq	%r15, %rdx
	movq	%r13, %rcx
	callq	"deerlapse_0_1_0_v3::deerlapse::xaes_key::expand_message_key"
	cmpb	$1, 67(%rsp)
	jne	.Ldeerlapse_0_1_0_v3_BB72_9
# %bb.1:                                # %arm.1.i
	movq	3440(%rsp), %r15
	xorl	%ebp, %ebp
	movq	%r14, %rax
	subq	%r15, %rax
	movl	$0, %edx
	cmovaeq	%rax, %rdx
	jb	.Ldeerlapse_0_1_0_v3_BB72_9
# %bb.2:                                # %arm.3.i.i
	movl	2112(%rsp), %ecx
	leal	-10(%rcx), %esi
	xorl	%ebp, %ebp
	cmpl	$4, %esi
	ja	.Ldeerlapse_0_1_0_v3_BB72_9
# %bb.3:                                # %then.7.i.i
	movq	48(%rsp), %rsi                  # 8-byte Reload
	shrq	$61, %rsi
	jne	.Ldeerlapse_0_1_0_v3_BB72_9
# %bb.4:                                # %then.7.i.i
	movabsq	$68719476705, %rsi              # imm = 0xFFFFFFFE1
	cmpq	%rsi, %rdx
	jae	.Ldeerlapse_0_1_0_v3_BB72_9
# %bb.5:                                # %join.3.i.i.i.i
	leaq	2120(%rsp), %rdx
	leaq	2360(%rsp), %rdi
	leaq	2872(%rsp), %r8
	vxorps	%xmm0, %xmm0, %xmm0
	vmovaps	%xmm0, 112(%rsp)
	movl	2116(%rsp), %r9d
	movq	%r13, 80(%rsp)
	movq	%rdx, 88(%rsp)
	movq	%rcx, 96(%rsp)
	movl	%r9d, 104(%rsp)
	movl	$0, 108(%rsp)
	movq	%rdi, 136(%rsp)
	movq	%r8, 144(%rsp)
	cmpq	%rsi, %rax
	jae	.Ldeerlapse_0_1_0_v3_BB72_6
# %bb.7:                                # %join.7.i.i.i.i
	movq	%r14, %rbx
	movq	3448(%rsp), %rdx
	xorl	%ecx, %ecx
	movzbl	46(%rsp), %esi                  # 1-byte Folded Reload
	movb	%sil, %cl
	shll	$12, %ecx
	addq	%rcx, %r12
	xorl	%ecx, %ecx
	movzbl	47(%rsp), %esi                  # 1-byte Folded Reload
	movb	%sil, %cl
	shll	$12, %ecx
	movq	56(%rsp), %r14                  # 8-byte Reload
	addq	%rcx, %r14
	leaq	68(%rsp), %rcx
	vmovups	(%rdx), %xmm0
	vmovaps	%xmm0, 176(%rsp)
	leaq	(%r14,%r15), %rdx
	leaq	112(%rsp), %rsi
	movq	%rsi, 24(%rsp)
	movq	%rax, 16(%rsp)
	movq	%rdx, 8(%rsp)
	leaq	176(%rsp), %rax
	movq	%rax, (%rsp)
	leaq	159(%rsp), %rdi
	leaq	80(%rsp), %rsi
	leaq	136(%rsp), %rdx
	movq	%r12, %r8
	movq	48(%rsp), %r9                   # 8-byte Reload
	callq	"deerlapse_0_1_0_v3::aead_ciphers::aes_gcm::opening::authenticate::<#7bfdf0a6b4753edd>"
	cmpb	$0, 159(%rsp)
	sete	%bpl
	jne	.Ldeerlapse_0_1_0_v3_BB72_9
# %bb.8:                                # %arm.1.i.i.i.i.i
	leaq	160(%rsp), %rsi
	leaq	80(%rsp), %rdi
	leaq	112(%rsp), %r9
	movq	%r14, %rdx
	movq	%rbx, %rcx
	movq	%r15, %r8
	callq	"deerlapse_0_1_0_v3::aead_ciphers::aes_gcm::counter_mode::encrypt_within::<#6fa349fe97f872a2>"
	jmp	.Ldeerlapse_0_1_0_v3_BB72_9
.Ldeerlapse_0_1_0_v3_BB72_6:
	xorl	%ebp, %ebp
.Ldeerlapse_0_1_0_v3_BB72_9:                               # %"deerlapse::xaes_key::deerlapse_xaes_open_separate_tag.exit"
	movl	%ebp, %eax
	addq	$3384, %rsp                     # imm = 0xD38
	.cfi_def_cfa_offset 56
	popq	%rbx
	.cfi_def_cfa_offset 48
	popq	%r12
	.cfi_def_cfa_offset 40
	popq	%r13
	.cfi_def_cfa_offset 32
	popq	%r14
	.cfi_def_cfa_offset 24
	popq	%r15
	.cfi_def_cfa_offset 16
	popq	%rbp
	.cfi_def_cfa_offset 8
	retq
.Ldeerlapse_0_1_0_v3_func_end72:
	.cfi_endproc
                                        # -- End function
	.section	.text.deerlapse_0_1_0_v3_xaes_open_to_sized,"ax",@progbits
	.ifdef	deerlapse_in_rust
	.globl	deerlapse_0_1_0_v3_xaes_open_to_sized    # -- Begin function deerlapse_0_1_0_v3_xaes_open_to_sized
	.p2align	4
	.type	deerlapse_0_1_0_v3_xaes_open_to_sized,@function
deerlapse_0_1_0_v3_xaes_open_to_sized:           # @deerlapse_0_1_0_v3_xaes_open_to_sized
	.size	deerlapse_0_1_0_v3_xaes_open_to_sized, .Ldeerlapse_0_1_0_v3_func_end73-deerlapse_0_1_0_v3_xaes_open_to_sized
	.else
	.globl	deerlapse_xaes_open_to_sized    # -- Begin function deerlapse_xaes_open_to_sized
	.p2align	4
	.type	deerlapse_xaes_open_to_sized,@function
deerlapse_xaes_open_to_sized:           # @deerlapse_xaes_open_to_sized
	.size	deerlapse_xaes_open_to_sized, .Ldeerlapse_0_1_0_v3_func_end73-deerlapse_xaes_open_to_sized
	.endif
	.cfi_startproc
# %bb.0:                                # %start
	endbr64
	pushq	%rbp
	.cfi_def_cfa_offset 16
	pushq	%r15
	.cfi_def_cfa_offset 24
	pushq	%r14
	.cfi_def_cfa_offset 32
	pushq	%r13
	.cfi_def_cfa_offset 40
	pushq	%r12
	.cfi_def_cfa_offset 48
	pushq	%rbx
	.cfi_def_cfa_offset 56
	subq	$3072, %rsp                     # imm = 0xC00
	.cfi_adjust_cfa_offset 3072
	movq	$0, (%rsp)
	subq	$184, %rsp
	.cfi_def_cfa_offset 3312
	.cfi_offset %rbx, -56
	.cfi_offset %r12, -48
	.cfi_offset %r13, -40
	.cfi_offset %r14, -32
	.cfi_offset %r15, -24
	.cfi_offset %rbp, -16
	movq	%r9, 40(%rsp)                   # 8-byte Spill
	movq	%r8, %r12
	movq	%rcx, 32(%rsp)                  # 8-byte Spill
	movq	%rdx, %r15
	movq	%rsi, %r13
	movq	%rdi, %rbx
	leaq	64(%rsp), %r14
	xorl	%ebp, %ebp
	movl	$3192, %edx                     # imm = 0xC78
	movq	%r14, %rdi
	xorl	%esi, %esi
	callq	memset@PLT
	leaq	51(%rsp), %rdi
	movq	%rbx, %rsi
	movq	%r13, %rdx
	movq	%r14, %rcx
	callq	"deerlapse_0_1_0_v3::deerlapse::xaes_key::expand_message_key"
	cmpb	$1, 51(%rsp)
	jne	.Ldeerlapse_0_1_0_v3_BB73_2
# %bb.1:                                # %arm.1.i
	movq	3328(%rsp), %rcx
	movq	3320(%rsp), %rax
	movq	3312(%rsp), %rdx
	xorl	%edi, %edi
	testq	%rdx, %rdx
	sete	%dil
	shll	$12, %edi
	addq	%rdx, %rdi
	xorl	%r8d, %r8d
	testq	%r12, %r12
	sete	%r8b
	shll	$12, %r8d
	addq	%r12, %r8
	xorl	%edx, %edx
	testq	%r15, %r15
	sete	%dl
	shll	$12, %edx
	addq	%r15, %rdx
	leaq	52(%rsp), %rsi
	movq	%rcx, 16(%rsp)
	movq	%rax, 8(%rsp)
	movq	%rdi, (%rsp)
	leaq	64(%rsp), %rdi
	movq	32(%rsp), %rcx                  # 8-byte Reload
	movq	40(%rsp), %r9                   # 8-byte Reload
	callq	"deerlapse_0_1_0_v3::deerlapse::out_of_place::deerlapse_key_open_to_sized"
	movl	%eax, %ebp
.Ldeerlapse_0_1_0_v3_BB73_2:                               # %"deerlapse::xaes_key::deerlapse_xaes_open_to_sized.exit"
	movl	%ebp, %eax
	addq	$3256, %rsp                     # imm = 0xCB8
	.cfi_def_cfa_offset 56
	popq	%rbx
	.cfi_def_cfa_offset 48
	popq	%r12
	.cfi_def_cfa_offset 40
	popq	%r13
	.cfi_def_cfa_offset 32
	popq	%r14
	.cfi_def_cfa_offset 24
	popq	%r15
	.cfi_def_cfa_offset 16
	popq	%rbp
	.cfi_def_cfa_offset 8
	retq
.Ldeerlapse_0_1_0_v3_func_end73:
	.cfi_endproc
                                        # -- End function
	.section	.text.deerlapse_0_1_0_v3_xaes_seal,"ax",@progbits
	.ifdef	deerlapse_in_rust
	.globl	deerlapse_0_1_0_v3_xaes_seal             # -- Begin function deerlapse_0_1_0_v3_xaes_seal
	.p2align	4
	.type	deerlapse_0_1_0_v3_xaes_seal,@function
deerlapse_0_1_0_v3_xaes_seal:                    # @deerlapse_0_1_0_v3_xaes_seal
	.size	deerlapse_0_1_0_v3_xaes_seal, .Ldeerlapse_0_1_0_v3_func_end74-deerlapse_0_1_0_v3_xaes_seal
	.else
	.globl	deerlapse_xaes_seal             # -- Begin function deerlapse_xaes_seal
	.p2align	4
	.type	deerlapse_xaes_seal,@function
deerlapse_xaes_seal:                    # @deerlapse_xaes_seal
	.size	deerlapse_xaes_seal, .Ldeerlapse_0_1_0_v3_func_end74-deerlapse_xaes_seal
	.endif
	.cfi_startproc
# %bb.0:                                # %start
	endbr64
	pushq	%rbp
	.cfi_def_cfa_offset 16
	pushq	%r15
	.cfi_def_cfa_offset 24
	pushq	%r14
	.cfi_def_cfa_offset 32
	pushq	%r13
	.cfi_def_cfa_offset 40
	pushq	%r12
	.cfi_def_cfa_offset 48
	pushq	%rbx
	.cfi_def_cfa_offset 56
	subq	$3072, %rsp                     # imm = 0xC00
	.cfi_adjust_cfa_offset 3072
	movq	$0, (%rsp)
	subq	$168, %rsp
	.cfi_def_cfa_offset 3296
	.cfi_offset %rbx, -56
	.cfi_offset %r12, -48
	.cfi_offset %r13, -40
	.cfi_offset %r14, -32
	.cfi_offset %r15, -24
	.cfi_offset %rbp, -16
	movq	%r9, 24(%rsp)                   # 8-byte Spill
	movq	%r8, %r12
	movq	%rcx, 16(%rsp)                  # 8-byte Spill
	movq	%rdx, %r15
	movq	%rsi, %r13
	movq	%rdi, %rbx
	leaq	48(%rsp), %r14
	xorl	%ebp, %ebp
	movl	$3192, %edx                     # imm = 0xC78
	movq	%r14, %rdi
	xorl	%esi, %esi
	callq	memset@PLT
	leaq	35(%rsp), %rdi
	movq	%rbx, %rsi
	movq	%r13, %rdx
	movq	%r14, %rcx
	callq	"deerlapse_0_1_0_v3::deerlapse::xaes_key::expand_message_key"
	cmpb	$1, 35(%rsp)
	jne	.Ldeerlapse_0_1_0_v3_BB74_2
# %bb.1:                                # %arm.1.i
	movq	3296(%rsp), %rax
	xorl	%r8d, %r8d
	testq	%r12, %r12
	sete	%r8b
	shll	$12, %r8d
	addq	%r12, %r8
	xorl	%edx, %edx
	testq	%r15, %r15
	sete	%dl
	shll	$12, %edx
	addq	%r15, %rdx
	leaq	36(%rsp), %rsi
	movq	%rax, (%rsp)
	leaq	48(%rsp), %rdi
	movq	16(%rsp), %rcx                  # 8-byte Reload
	movq	24(%rsp), %r9                   # 8-byte Reload
	callq	"deerlapse_0_1_0_v3::deerlapse::key::deerlapse_key_seal"
	movl	%eax, %ebp
.Ldeerlapse_0_1_0_v3_BB74_2:                               # %"deerlapse::xaes_key::deerlapse_xaes_seal.exit"
	movl	%ebp, %eax
	addq	$3240, %rsp                     # imm = 0xCA8
	.cfi_def_cfa_offset 56
	popq	%rbx
	.cfi_def_cfa_offset 48
	popq	%r12
	.cfi_def_cfa_offset 40
	popq	%r13
	.cfi_def_cfa_offset 32
	popq	%r14
	.cfi_def_cfa_offset 24
	popq	%r15
	.cfi_def_cfa_offset 16
	popq	%rbp
	.cfi_def_cfa_offset 8
	retq
.Ldeerlapse_0_1_0_v3_func_end74:
	.cfi_endproc
                                        # -- End function
	.section	.text.deerlapse_0_1_0_v3_xaes_seal_append_tag_sized,"ax",@progbits
	.ifdef	deerlapse_in_rust
	.globl	deerlapse_0_1_0_v3_xaes_seal_append_tag_sized # -- Begin function deerlapse_0_1_0_v3_xaes_seal_append_tag_sized
	.p2align	4
	.type	deerlapse_0_1_0_v3_xaes_seal_append_tag_sized,@function
deerlapse_0_1_0_v3_xaes_seal_append_tag_sized:   # @deerlapse_0_1_0_v3_xaes_seal_append_tag_sized
	.size	deerlapse_0_1_0_v3_xaes_seal_append_tag_sized, .Ldeerlapse_0_1_0_v3_func_end75-deerlapse_0_1_0_v3_xaes_seal_append_tag_sized
	.else
	.globl	deerlapse_xaes_seal_append_tag_sized # -- Begin function deerlapse_xaes_seal_append_tag_sized
	.p2align	4
	.type	deerlapse_xaes_seal_append_tag_sized,@function
deerlapse_xaes_seal_append_tag_sized:   # @deerlapse_xaes_seal_append_tag_sized
	.size	deerlapse_xaes_seal_append_tag_sized, .Ldeerlapse_0_1_0_v3_func_end75-deerlapse_xaes_seal_append_tag_sized
	.endif
	.cfi_startproc
# %bb.0:                                # %start
	endbr64
	pushq	%rbp
	.cfi_def_cfa_offset 16
	pushq	%r15
	.cfi_def_cfa_offset 24
	pushq	%r14
	.cfi_def_cfa_offset 32
	pushq	%r13
	.cfi_def_cfa_offset 40
	pushq	%r12
	.cfi_def_cfa_offset 48
	pushq	%rbx
	.cfi_def_cfa_offset 56
	subq	$3072, %rsp                     # imm = 0xC00
	.cfi_adjust_cfa_offset 3072
	movq	$0, (%rsp)
	subq	$184, %rsp
	.cfi_def_cfa_offset 3312
	.cfi_offset %rbx, -56
	.cfi_offset %r12, -48
	.cfi_offset %r13, -40
	.cfi_offset %r14, -32
	.cfi_offset %r15, -24
	.cfi_offset %rbp, -16
	movq	%r9, %r12
	movq	%rcx, 24(%rsp)                  # 8-byte Spill
	movq	%rsi, %r13
	movq	%rdi, %r14
	xorl	%r15d, %r15d
	movq	%rdx, 40(%rsp)                  # 8-byte Spill
	testq	%rdx, %rdx
	sete	21(%rsp)                        # 1-byte Folded Spill
	movq	%r8, 32(%rsp)                   # 8-byte Spill
	testq	%r8, %r8
	sete	22(%rsp)                        # 1-byte Folded Spill
	cmpq	$0, 3312(%rsp)
	sete	23(%rsp)                        # 1-byte Folded Spill
	leaq	64(%rsp), %rbx
	xorl	%ebp, %ebp
	movl	$3192, %edx                     # imm = 0xC78
	movq	%rbx, %rdi
	xorl	%esi, %esi
	callq	memset@PLT
	leaq	51(%rsp), %rdi
	movq	%r14, %rsi
	movq	%r13, %rdx
	movq	%rbx, %rcx
	callq	"deerlapse_0_1_0_v3::deerlapse::xaes_key::expand_message_key"
	cmpb	$1, 51(%rsp)
	jne	.Ldeerlapse_0_1_0_v3_BB75_3
# %bb.1:                                # %arm.1.i
	movq	3320(%rsp), %rax
	cmpq	$16, %rax
	jae	.Ldeerlapse_0_1_0_v3_BB75_4
.Ldeerlapse_0_1_0_v3_BB75_2:
	xorl	%ebp, %ebp
.Ldeerlapse_0_1_0_v3_BB75_3:                               # %"deerlapse::xaes_key::deerlapse_xaes_seal_append_tag_sized.exit"
	movl	%ebp, %eax
	addq	$3256, %rsp                     # imm = 0xCB8
	.cfi_def_cfa_offset 56
	popq	%rbx
	.cfi_def_cfa_offset 48
	popq	%r12
	.cfi_def_cfa_offset 40
	popq	%r13
	.cfi_def_cfa_offset 32
	popq	%r14
	.cfi_def_cfa_offset 24
	popq	%r15
	.cfi_def_cfa_offset 16
	popq	%rbp
	.cfi_def_cfa_offset 8
	retq
.Ldeerlapse_0_1_0_v3_BB75_4:                               # %arm.1.i.i
	.cfi_def_cfa_offset 3312
	leaq	-16(%rax), %rcx
	xorl	%ebp, %ebp
	cmpq	%r12, %rcx
	jne	.Ldeerlapse_0_1_0_v3_BB75_3
# %bb.5:                                # %arm.1.i.i
	movl	1984(%rsp), %ecx
	addl	$-10, %ecx
	cmpl	$4, %ecx
	ja	.Ldeerlapse_0_1_0_v3_BB75_3
# %bb.6:                                # %else.7.i.i.i
	movabsq	$68719476608, %rcx              # imm = 0xFFFFFFF80
	movq	24(%rsp), %rdx                  # 8-byte Reload
	shrq	$61, %rdx
	setne	%dl
	leaq	97(%rcx), %rsi
	cmpq	%rsi, %r12
	setae	%sil
	orb	%dl, %sil
	jne	.Ldeerlapse_0_1_0_v3_BB75_2
# %bb.7:                                # %after.1.i.i.i
	movq	%r12, %r14
	movzbl	21(%rsp), %edx                  # 1-byte Folded Reload
	movb	%dl, %r15b
	shll	$12, %r15d
	movq	40(%rsp), %rdx                  # 8-byte Reload
	addq	%r15, %rdx
	movq	%rdx, %r15
	xorl	%r11d, %r11d
	movzbl	22(%rsp), %edx                  # 1-byte Folded Reload
	movb	%dl, %r11b
	shll	$12, %r11d
	movq	32(%rsp), %r9                   # 8-byte Reload
	leaq	(%r9,%r11), %rsi
	xorl	%r12d, %r12d
	movzbl	23(%rsp), %edx                  # 1-byte Folded Reload
	movb	%dl, %r12b
	shll	$12, %r12d
	movq	3312(%rsp), %r10
	leaq	(%r10,%r12), %r13
	leaq	52(%rsp), %rbp
	leaq	(%rax,%r13), %rbx
	addq	$-16, %rbx
	movq	%r13, %rax
	subq	%rsi, %rax
	cmpq	%r14, %rax
	jae	.Ldeerlapse_0_1_0_v3_BB75_11
# %bb.8:                                # %iter.check
	cmpq	$8, %r14
	jb	.Ldeerlapse_0_1_0_v3_BB75_9
# %bb.12:                               # %vector.memcheck
	cmpq	$128, %rax
	jae	.Ldeerlapse_0_1_0_v3_BB75_14
.Ldeerlapse_0_1_0_v3_BB75_9:
	xorl	%eax, %eax
.Ldeerlapse_0_1_0_v3_BB75_23:                              # %join.7.i.i.i.i.i.i.i.i.i.preheader
	movq	%r14, %rdx
	movq	%rax, %rcx
	andq	$7, %rdx
	je	.Ldeerlapse_0_1_0_v3_BB75_26
# %bb.24:                               # %join.7.i.i.i.i.i.i.i.i.i.prol.preheader
	movq	%rax, %rcx
	.p2align	4
.Ldeerlapse_0_1_0_v3_BB75_25:                              # %join.7.i.i.i.i.i.i.i.i.i.prol
                                        # =>This Inner Loop Header: Depth=1
	movzbl	(%rsi,%rcx), %edi
	movb	%dil, (%r13,%rcx)
	incq	%rcx
	decq	%rdx
	jne	.Ldeerlapse_0_1_0_v3_BB75_25
.Ldeerlapse_0_1_0_v3_BB75_26:                              # %join.7.i.i.i.i.i.i.i.i.i.prol.loopexit
	subq	%r14, %rax
	cmpq	$-8, %rax
	ja	.Ldeerlapse_0_1_0_v3_BB75_29
# %bb.27:                               # %join.7.i.i.i.i.i.i.i.i.i.preheader13
	leaq	(%r11,%r9), %rax
	addq	$7, %rax
	leaq	(%r12,%r10), %rdx
	addq	$7, %rdx
	.p2align	4
.Ldeerlapse_0_1_0_v3_BB75_28:                              # %join.7.i.i.i.i.i.i.i.i.i
                                        # =>This Inner Loop Header: Depth=1
	movzbl	-7(%rax,%rcx), %esi
	movb	%sil, -7(%rdx,%rcx)
	movzbl	-6(%rax,%rcx), %esi
	movb	%sil, -6(%rdx,%rcx)
	movzbl	-5(%rax,%rcx), %esi
	movb	%sil, -5(%rdx,%rcx)
	movzbl	-4(%rax,%rcx), %esi
	movb	%sil, -4(%rdx,%rcx)
	movzbl	-3(%rax,%rcx), %esi
	movb	%sil, -3(%rdx,%rcx)
	movzbl	-2(%rax,%rcx), %esi
	movb	%sil, -2(%rdx,%rcx)
	movzbl	-1(%rax,%rcx), %esi
	movb	%sil, -1(%rdx,%rcx)
	movzbl	(%rax,%rcx), %esi
	movb	%sil, (%rdx,%rcx)
	addq	$8, %rcx
	cmpq	%rcx, %r14
	jne	.Ldeerlapse_0_1_0_v3_BB75_28
	jmp	.Ldeerlapse_0_1_0_v3_BB75_29
.Ldeerlapse_0_1_0_v3_BB75_11:                              # %apart.2.i.i.i.i.i.i.i.i.i
	movq	%r13, %rdi
	movq	%r14, %rdx
	callq	memmove@PLT
.Ldeerlapse_0_1_0_v3_BB75_29:                              # %"core::slice::edits::slice+T::copy_from_slice::<i8,20'core::clone::U8Clone{}>.exit.i.i.i"
	movq	%rbx, (%rsp)
	leaq	64(%rsp), %rdi
	movq	%rbp, %rsi
	movq	%r15, %rdx
	movq	24(%rsp), %rcx                  # 8-byte Reload
	movq	%r13, %r8
	movq	%r14, %r9
	vzeroupper
	callq	"deerlapse_0_1_0_v3::deerlapse::key::deerlapse_key_seal"
	movl	%eax, %ebp
	jmp	.Ldeerlapse_0_1_0_v3_BB75_3
.Ldeerlapse_0_1_0_v3_BB75_14:                              # %vector.main.loop.iter.check
	cmpq	$128, %r14
	jae	.Ldeerlapse_0_1_0_v3_BB75_16
# %bb.15:
	xorl	%eax, %eax
	jmp	.Ldeerlapse_0_1_0_v3_BB75_20
.Ldeerlapse_0_1_0_v3_BB75_16:                              # %vector.ph
	movq	%r14, %rax
	andq	%rcx, %rax
	leaq	(%r11,%r9), %rdx
	addq	$96, %rdx
	leaq	(%r12,%r10), %rdi
	addq	$96, %rdi
	xorl	%r8d, %r8d
.Ldeerlapse_0_1_0_v3_BB75_17:                              # %vector.body
                                        # =>This Inner Loop Header: Depth=1
	vmovups	-96(%rdx,%r8), %ymm0
	vmovups	-64(%rdx,%r8), %ymm1
	vmovups	-32(%rdx,%r8), %ymm2
	vmovups	(%rdx,%r8), %ymm3
	vmovups	%ymm0, -96(%rdi,%r8)
	vmovups	%ymm1, -64(%rdi,%r8)
	vmovups	%ymm2, -32(%rdi,%r8)
	vmovups	%ymm3, (%rdi,%r8)
	subq	$-128, %r8
	cmpq	%r8, %rax
	jne	.Ldeerlapse_0_1_0_v3_BB75_17
# %bb.18:                               # %middle.block
	cmpq	%rax, %r14
	je	.Ldeerlapse_0_1_0_v3_BB75_29
# %bb.19:                               # %vec.epilog.iter.check
	testb	$120, %r14b
	je	.Ldeerlapse_0_1_0_v3_BB75_23
.Ldeerlapse_0_1_0_v3_BB75_20:                              # %vec.epilog.ph
	movq	%rax, %rdx
	addq	$120, %rcx
	movq	%rcx, %rax
	andq	%r14, %rax
.Ldeerlapse_0_1_0_v3_BB75_21:                              # %vec.epilog.vector.body
                                        # =>This Inner Loop Header: Depth=1
	movq	(%rsi,%rdx), %rcx
	movq	%rcx, (%r13,%rdx)
	addq	$8, %rdx
	cmpq	%rdx, %rax
	jne	.Ldeerlapse_0_1_0_v3_BB75_21
# %bb.22:                               # %vec.epilog.middle.block
	cmpq	%rax, %r14
	je	.Ldeerlapse_0_1_0_v3_BB75_29
	jmp	.Ldeerlapse_0_1_0_v3_BB75_23
.Ldeerlapse_0_1_0_v3_func_end75:
	.cfi_endproc
                                        # -- End function
	.section	.text.deerlapse_0_1_0_v3_xaes_seal_to_sized,"ax",@progbits
	.ifdef	deerlapse_in_rust
	.globl	deerlapse_0_1_0_v3_xaes_seal_to_sized    # -- Begin function deerlapse_0_1_0_v3_xaes_seal_to_sized
	.p2align	4
	.type	deerlapse_0_1_0_v3_xaes_seal_to_sized,@function
deerlapse_0_1_0_v3_xaes_seal_to_sized:           # @deerlapse_0_1_0_v3_xaes_seal_to_sized
	.size	deerlapse_0_1_0_v3_xaes_seal_to_sized, .Ldeerlapse_0_1_0_v3_func_end76-deerlapse_0_1_0_v3_xaes_seal_to_sized
	.else
	.globl	deerlapse_xaes_seal_to_sized    # -- Begin function deerlapse_xaes_seal_to_sized
	.p2align	4
	.type	deerlapse_xaes_seal_to_sized,@function
deerlapse_xaes_seal_to_sized:           # @deerlapse_xaes_seal_to_sized
	.size	deerlapse_xaes_seal_to_sized, .Ldeerlapse_0_1_0_v3_func_end76-deerlapse_xaes_seal_to_sized
	.endif
	.cfi_startproc
# %bb.0:                                # %start
	endbr64
	pushq	%rbp
	.cfi_def_cfa_offset 16
	pushq	%r15
	.cfi_def_cfa_offset 24
	pushq	%r14
	.cfi_def_cfa_offset 32
	pushq	%r13
	.cfi_def_cfa_offset 40
	pushq	%r12
	.cfi_def_cfa_offset 48
	pushq	%rbx
	.cfi_def_cfa_offset 56
	subq	$3072, %rsp                     # imm = 0xC00
	.cfi_adjust_cfa_offset 3072
	movq	$0, (%rsp)
	subq	$184, %rsp
	.cfi_def_cfa_offset 3312
	.cfi_offset %rbx, -56
	.cfi_offset %r12, -48
	.cfi_offset %r13, -40
	.cfi_offset %r14, -32
	.cfi_offset %r15, -24
	.cfi_offset %rbp, -16
	movq	%r9, %r13
	movq	%rcx, 40(%rsp)                  # 8-byte Spill
	movq	%rsi, %r15
	movq	%rdi, %rbx
	xorl	%r12d, %r12d
	movq	%rdx, 24(%rsp)                  # 8-byte Spill
	testq	%rdx, %rdx
	sete	21(%rsp)                        # 1-byte Folded Spill
	movq	%r8, 32(%rsp)                   # 8-byte Spill
	testq	%r8, %r8
	sete	22(%rsp)                        # 1-byte Folded Spill
	cmpq	$0, 3312(%rsp)
	sete	23(%rsp)                        # 1-byte Folded Spill
	leaq	64(%rsp), %r14
	xorl	%ebp, %ebp
	movl	$3192, %edx                     # imm = 0xC78
	movq	%r14, %rdi
	xorl	%esi, %esi
	callq	memset@PLT
	leaq	51(%rsp), %rdi
	movq	%rbx, %rsi
	movq	%r15, %rdx
	movq	%r14, %rcx
	callq	"deerlapse_0_1_0_v3::deerlapse::xaes_key::expand_message_key"
	cmpb	$1, 51(%rsp)
	jne	.Ldeerlapse_0_1_0_v3_BB76_27
# %bb.1:                                # %arm.1.i
	movq	3320(%rsp), %r15
	xorl	%ebp, %ebp
	cmpq	%r13, %r15
	jne	.Ldeerlapse_0_1_0_v3_BB76_27
# %bb.2:                                # %arm.1.i
	movl	1984(%rsp), %eax
	addl	$-10, %eax
	cmpl	$4, %eax
	ja	.Ldeerlapse_0_1_0_v3_BB76_27
# %bb.3:                                # %else.7.i.i
	movabsq	$68719476608, %rcx              # imm = 0xFFFFFFF80
	movq	40(%rsp), %r14                  # 8-byte Reload
	movq	%r14, %rax
	shrq	$61, %rax
	setne	%al
	leaq	97(%rcx), %rdx
	cmpq	%rdx, %r15
	setae	%dl
	orb	%al, %dl
	jne	.Ldeerlapse_0_1_0_v3_BB76_7
# %bb.4:                                # %after.1.i.i
	movq	3328(%rsp), %rbx
	movzbl	21(%rsp), %eax                  # 1-byte Folded Reload
	movb	%al, %r12b
	shll	$12, %r12d
	movq	24(%rsp), %rax                  # 8-byte Reload
	addq	%r12, %rax
	movq	%rax, %r12
	xorl	%r11d, %r11d
	movzbl	22(%rsp), %eax                  # 1-byte Folded Reload
	movb	%al, %r11b
	shll	$12, %r11d
	movq	32(%rsp), %r9                   # 8-byte Reload
	leaq	(%r9,%r11), %rsi
	xorl	%r8d, %r8d
	movzbl	23(%rsp), %eax                  # 1-byte Folded Reload
	movb	%al, %r8b
	shll	$12, %r8d
	movq	3312(%rsp), %r10
	leaq	(%r10,%r8), %r13
	leaq	52(%rsp), %rbp
	movq	%r13, %rax
	subq	%rsi, %rax
	cmpq	%r15, %rax
	jae	.Ldeerlapse_0_1_0_v3_BB76_8
# %bb.5:                                # %iter.check
	cmpq	$8, %r15
	jb	.Ldeerlapse_0_1_0_v3_BB76_6
# %bb.9:                                # %vector.memcheck
	cmpq	$128, %rax
	jae	.Ldeerlapse_0_1_0_v3_BB76_11
.Ldeerlapse_0_1_0_v3_BB76_6:
	xorl	%eax, %eax
.Ldeerlapse_0_1_0_v3_BB76_20:                              # %join.7.i.i.i.i.i.i.i.i.preheader
	movq	%r15, %rdx
	movq	%rax, %rcx
	andq	$7, %rdx
	je	.Ldeerlapse_0_1_0_v3_BB76_23
# %bb.21:                               # %join.7.i.i.i.i.i.i.i.i.prol.preheader
	movq	%rax, %rcx
	.p2align	4
.Ldeerlapse_0_1_0_v3_BB76_22:                              # %join.7.i.i.i.i.i.i.i.i.prol
                                        # =>This Inner Loop Header: Depth=1
	movzbl	(%rsi,%rcx), %edi
	movb	%dil, (%r13,%rcx)
	incq	%rcx
	decq	%rdx
	jne	.Ldeerlapse_0_1_0_v3_BB76_22
.Ldeerlapse_0_1_0_v3_BB76_23:                              # %join.7.i.i.i.i.i.i.i.i.prol.loopexit
	subq	%r15, %rax
	cmpq	$-8, %rax
	ja	.Ldeerlapse_0_1_0_v3_BB76_26
# %bb.24:                               # %join.7.i.i.i.i.i.i.i.i.preheader13
	leaq	(%r11,%r9), %rax
	addq	$7, %rax
	leaq	(%r8,%r10), %rdx
	addq	$7, %rdx
	.p2align	4
.Ldeerlapse_0_1_0_v3_BB76_25:                              # %join.7.i.i.i.i.i.i.i.i
                                        # =>This Inner Loop Header: Depth=1
	movzbl	-7(%rax,%rcx), %esi
	movb	%sil, -7(%rdx,%rcx)
	movzbl	-6(%rax,%rcx), %esi
	movb	%sil, -6(%rdx,%rcx)
	movzbl	-5(%rax,%rcx), %esi
	movb	%sil, -5(%rdx,%rcx)
	movzbl	-4(%rax,%rcx), %esi
	movb	%sil, -4(%rdx,%rcx)
	movzbl	-3(%rax,%rcx), %esi
	movb	%sil, -3(%rdx,%rcx)
	movzbl	-2(%rax,%rcx), %esi
	movb	%sil, -2(%rdx,%rcx)
	movzbl	-1(%rax,%rcx), %esi
	movb	%sil, -1(%rdx,%rcx)
	movzbl	(%rax,%rcx), %esi
	movb	%sil, (%rdx,%rcx)
	addq	$8, %rcx
	cmpq	%rcx, %r15
	jne	.Ldeerlapse_0_1_0_v3_BB76_25
	jmp	.Ldeerlapse_0_1_0_v3_BB76_26
.Ldeerlapse_0_1_0_v3_BB76_7:
	xorl	%ebp, %ebp
	jmp	.Ldeerlapse_0_1_0_v3_BB76_27
.Ldeerlapse_0_1_0_v3_BB76_8:                               # %apart.2.i.i.i.i.i.i.i.i
	movq	%r13, %rdi
	movq	%r15, %rdx
	callq	memmove@PLT
.Ldeerlapse_0_1_0_v3_BB76_26:                              # %"core::slice::edits::slice+T::copy_from_slice::<i8,20'core::clone::U8Clone{}>.exit.i.i"
	movq	%rbx, (%rsp)
	leaq	64(%rsp), %rdi
	movq	%rbp, %rsi
	movq	%r12, %rdx
	movq	%r14, %rcx
	movq	%r13, %r8
	movq	%r15, %r9
	vzeroupper
	callq	"deerlapse_0_1_0_v3::deerlapse::key::deerlapse_key_seal"
	movl	%eax, %ebp
.Ldeerlapse_0_1_0_v3_BB76_27:                              # %"deerlapse::xaes_key::deerlapse_xaes_seal_to_sized.exit"
	movl	%ebp, %eax
	addq	$3256, %rsp                     # imm = 0xCB8
	.cfi_def_cfa_offset 56
	popq	%rbx
	.cfi_def_cfa_offset 48
	popq	%r12
	.cfi_def_cfa_offset 40
	popq	%r13
	.cfi_def_cfa_offset 32
	popq	%r14
	.cfi_def_cfa_offset 24
	popq	%r15
	.cfi_def_cfa_offset 16
	popq	%rbp
	.cfi_def_cfa_offset 8
	retq
.Ldeerlapse_0_1_0_v3_BB76_11:                              # %vector.main.loop.iter.check
	.cfi_def_cfa_offset 3312
	cmpq	$128, %r15
	jae	.Ldeerlapse_0_1_0_v3_BB76_13
# %bb.12:
	xorl	%eax, %eax
	jmp	.Ldeerlapse_0_1_0_v3_BB76_17
.Ldeerlapse_0_1_0_v3_BB76_13:                              # %vector.ph
	movq	%r15, %rax
	andq	%rcx, %rax
	leaq	(%r11,%r9), %rdx
	addq	$96, %rdx
	movq	%r8, 24(%rsp)                   # 8-byte Spill
	leaq	(%r8,%r10), %rdi
	addq	$96, %rdi
	xorl	%r8d, %r8d
	.p2align	4
.Ldeerlapse_0_1_0_v3_BB76_14:                              # %vector.body
                                        # =>This Inner Loop Header: Depth=1
	vmovups	-96(%rdx,%r8), %ymm0
	vmovups	-64(%rdx,%r8), %ymm1
	vmovups	-32(%rdx,%r8), %ymm2
	vmovups	(%rdx,%r8), %ymm3
	vmovups	%ymm0, -96(%rdi,%r8)
	vmovups	%ymm1, -64(%rdi,%r8)
	vmovups	%ymm2, -32(%rdi,%r8)
	vmovups	%ymm3, (%rdi,%r8)
	subq	$-128, %r8
	cmpq	%r8, %rax
	jne	.Ldeerlapse_0_1_0_v3_BB76_14
# %bb.15:                               # %middle.block
	cmpq	%rax, %r15
	movq	24(%rsp), %r8                   # 8-byte Reload
	je	.Ldeerlapse_0_1_0_v3_BB76_26
# %bb.16:                               # %vec.epilog.iter.check
	testb	$120, %r15b
	je	.Ldeerlapse_0_1_0_v3_BB76_20
.Ldeerlapse_0_1_0_v3_BB76_17:                              # %vec.epilog.ph
	movq	%rax, %rdx
	addq	$120, %rcx
	movq	%rcx, %rax
	andq	%r15, %rax
	.p2align	4
.Ldeerlapse_0_1_0_v3_BB76_18:                              # %vec.epilog.vector.body
                                        # =>This Inner Loop Header: Depth=1
	movq	(%rsi,%rdx), %rcx
	movq	%rcx, (%r13,%rdx)
	addq	$8, %rdx
	cmpq	%rdx, %rax
	jne	.Ldeerlapse_0_1_0_v3_BB76_18
# %bb.19:                               # %vec.epilog.middle.block
	cmpq	%rax, %r15
	je	.Ldeerlapse_0_1_0_v3_BB76_26
	jmp	.Ldeerlapse_0_1_0_v3_BB76_20
.Ldeerlapse_0_1_0_v3_func_end76:
	.cfi_endproc
                                        # -- End function
	.section	.text.deerlapse_0_1_0_v3_hkdf_expand,"ax",@progbits
	.ifdef	deerlapse_in_rust
	.globl	deerlapse_0_1_0_v3_hkdf_expand           # -- Begin function deerlapse_0_1_0_v3_hkdf_expand
	.type	deerlapse_0_1_0_v3_hkdf_expand,@function
deerlapse_0_1_0_v3_hkdf_expand:                  # @deerlapse_0_1_0_v3_hkdf_expand
	.size	deerlapse_0_1_0_v3_hkdf_expand, .Ldeerlapse_0_1_0_v3_func_end77-deerlapse_0_1_0_v3_hkdf_expand
	.else
	.globl	deerlapse_hkdf_expand           # -- Begin function deerlapse_hkdf_expand
	.type	deerlapse_hkdf_expand,@function
deerlapse_hkdf_expand:                  # @deerlapse_hkdf_expand
	.size	deerlapse_hkdf_expand, .Ldeerlapse_0_1_0_v3_func_end77-deerlapse_hkdf_expand
	.endif
	.cfi_startproc
# %bb.0:                                # %start
	endbr64
	pushq	%rbp
	.cfi_def_cfa_offset 16
	pushq	%r15
	.cfi_def_cfa_offset 24
	pushq	%r14
	.cfi_def_cfa_offset 32
	pushq	%r12
	.cfi_def_cfa_offset 40
	pushq	%rbx
	.cfi_def_cfa_offset 48
	subq	$544, %rsp                      # imm = 0x220
	.cfi_def_cfa_offset 592
	.cfi_offset %rbx, -48
	.cfi_offset %r12, -40
	.cfi_offset %r14, -32
	.cfi_offset %r15, -24
	.cfi_offset %rbp, -16
	movq	%r9, %rbx
	movq	%rcx, %r14
	xorl	%eax, %eax
	testq	%rdi, %rdi
	sete	%al
	shll	$12, %eax
	addq	%rdi, %rax
	xorl	%r12d, %r12d
	testq	%rdx, %rdx
	sete	%r12b
	shll	$12, %r12d
	addq	%rdx, %r12
	xorl	%r15d, %r15d
	testq	%r8, %r8
	sete	%r15b
	shll	$12, %r15d
	vxorps	%xmm0, %xmm0, %xmm0
	vmovups	%ymm0, 81(%rsp)
	addq	%r8, %r15
	vmovups	%ymm0, 64(%rsp)
	cmpq	$48, %rsi
	je	.Ldeerlapse_0_1_0_v3_BB77_5
# %bb.1:                                # %start
	cmpq	$32, %rsi
	jne	.Ldeerlapse_0_1_0_v3_BB77_2
# %bb.3:                                # %arm.1.i.i
	vxorps	%xmm0, %xmm0, %xmm0
	vmovaps	%xmm0, 48(%rsp)
	vmovups	(%rax), %ymm0
	vmovups	%ymm0, 16(%rsp)
	leaq	65(%rsp), %rsi
	vmovups	%ymm0, (%rsi)
	vmovups	32(%rsp), %xmm0
	vmovups	%xmm0, 16(%rsi)
	vmovups	48(%rsp), %xmm0
	vmovups	%xmm0, 32(%rsi)
	leaq	128(%rsp), %rdi
	movl	$32, %edx
	vzeroupper
	callq	"deerlapse_0_1_0_v3::key_derivation::hmac::HmacKey::new::<#7cab53feae2e1c66>"
	movq	%r12, (%rsp)
	movq	%r14, 8(%rsp)
	cmpq	$8161, %rbx                     # imm = 0x1FE1
	setae	%bpl
	jae	.Ldeerlapse_0_1_0_v3_BB77_7
# %bb.4:                                # %arm.1.i.i.i.i
	leaq	128(%rsp), %rdi
	movq	%rsp, %rsi
	movq	%r15, %rdx
	movq	%rbx, %rcx
	callq	"deerlapse_0_1_0_v3::key_derivation::hkdf::Expander::fill_okm::<#7cab53feae2e1c66>"
	jmp	.Ldeerlapse_0_1_0_v3_BB77_7
.Ldeerlapse_0_1_0_v3_BB77_5:                               # %arm.2.i.i
	leaq	65(%rsp), %rsi
	movb	$1, -1(%rsi)
	vmovups	(%rax), %ymm0
	vmovups	16(%rax), %ymm1
	vmovups	%ymm0, (%rsi)
	vmovups	%ymm1, 16(%rsi)
	leaq	128(%rsp), %rdi
	movl	$48, %edx
	vzeroupper
	callq	"deerlapse_0_1_0_v3::key_derivation::hmac::HmacKey::new::<#01e4f4eb65b1d8bb>"
	movq	%r12, 16(%rsp)
	movq	%r14, 24(%rsp)
	cmpq	$12241, %rbx                    # imm = 0x2FD1
	setae	%bpl
	jae	.Ldeerlapse_0_1_0_v3_BB77_7
# %bb.6:                                # %arm.1.i.i8.i.i
	leaq	128(%rsp), %rdi
	leaq	16(%rsp), %rsi
	movq	%r15, %rdx
	movq	%rbx, %rcx
	callq	"deerlapse_0_1_0_v3::key_derivation::hkdf::Expander::fill_okm::<#01e4f4eb65b1d8bb>"
.Ldeerlapse_0_1_0_v3_BB77_7:                               # %"key_derivation::secret::Secret::expand.exit.i"
	xorb	$1, %bpl
	jmp	.Ldeerlapse_0_1_0_v3_BB77_8
.Ldeerlapse_0_1_0_v3_BB77_2:
	xorl	%ebp, %ebp
.Ldeerlapse_0_1_0_v3_BB77_8:                               # %"deerlapse::hkdf::deerlapse_hkdf_expand.exit"
	movl	%ebp, %eax
	addq	$544, %rsp                      # imm = 0x220
	.cfi_def_cfa_offset 48
	popq	%rbx
	.cfi_def_cfa_offset 40
	popq	%r12
	.cfi_def_cfa_offset 32
	popq	%r14
	.cfi_def_cfa_offset 24
	popq	%r15
	.cfi_def_cfa_offset 16
	popq	%rbp
	.cfi_def_cfa_offset 8
	vzeroupper
	retq
.Ldeerlapse_0_1_0_v3_func_end77:
	.cfi_endproc
                                        # -- End function
	.section	.text.deerlapse_0_1_0_v3_hkdf_expand_label,"ax",@progbits
	.ifdef	deerlapse_in_rust
	.globl	deerlapse_0_1_0_v3_hkdf_expand_label     # -- Begin function deerlapse_0_1_0_v3_hkdf_expand_label
	.type	deerlapse_0_1_0_v3_hkdf_expand_label,@function
deerlapse_0_1_0_v3_hkdf_expand_label:            # @deerlapse_0_1_0_v3_hkdf_expand_label
	.size	deerlapse_0_1_0_v3_hkdf_expand_label, .Ldeerlapse_0_1_0_v3_func_end78-deerlapse_0_1_0_v3_hkdf_expand_label
	.else
	.globl	deerlapse_hkdf_expand_label     # -- Begin function deerlapse_hkdf_expand_label
	.type	deerlapse_hkdf_expand_label,@function
deerlapse_hkdf_expand_label:            # @deerlapse_hkdf_expand_label
	.size	deerlapse_hkdf_expand_label, .Ldeerlapse_0_1_0_v3_func_end78-deerlapse_hkdf_expand_label
	.endif
	.cfi_startproc
# %bb.0:                                # %start
	endbr64
	pushq	%rbp
	.cfi_def_cfa_offset 16
	pushq	%r15
	.cfi_def_cfa_offset 24
	pushq	%r14
	.cfi_def_cfa_offset 32
	pushq	%r13
	.cfi_def_cfa_offset 40
	pushq	%r12
	.cfi_def_cfa_offset 48
	pushq	%rbx
	.cfi_def_cfa_offset 56
	subq	$536, %rsp                      # imm = 0x218
	.cfi_def_cfa_offset 592
	.cfi_offset %rbx, -56
	.cfi_offset %r12, -48
	.cfi_offset %r13, -40
	.cfi_offset %r14, -32
	.cfi_offset %r15, -24
	.cfi_offset %rbp, -16
	movq	%r9, %rbx
	movq	%rcx, %r14
	movq	600(%rsp), %r9
	movq	592(%rsp), %rcx
	xorl	%eax, %eax
	testq	%rdi, %rdi
	sete	%al
	shll	$12, %eax
	addq	%rdi, %rax
	xorl	%r15d, %r15d
	testq	%rdx, %rdx
	sete	%r15b
	shll	$12, %r15d
	addq	%rdx, %r15
	xorl	%r12d, %r12d
	testq	%r8, %r8
	sete	%r12b
	shll	$12, %r12d
	addq	%r8, %r12
	xorl	%r13d, %r13d
	testq	%rcx, %rcx
	sete	%r13b
	shll	$12, %r13d
	addq	%rcx, %r13
	cmpq	$48, %rsi
	je	.Ldeerlapse_0_1_0_v3_BB78_7
# %bb.1:                                # %start
	cmpq	$32, %rsi
	jne	.Ldeerlapse_0_1_0_v3_BB78_2
# %bb.3:                                # %arm.1.i.i
	vxorps	%xmm0, %xmm0, %xmm0
	vmovaps	%xmm0, 96(%rsp)
	vmovups	(%rax), %ymm0
	vmovups	%ymm0, 64(%rsp)
	movb	$0, 15(%rsp)
	vmovups	%ymm0, 16(%rsp)
	vmovups	80(%rsp), %xmm0
	vmovups	%xmm0, 32(%rsp)
	vmovups	96(%rsp), %xmm0
	vmovups	%xmm0, 48(%rsp)
	leaq	-250(%r14), %rcx
	movb	$1, %al
	cmpq	$-249, %rcx
	jb	.Ldeerlapse_0_1_0_v3_BB78_12
# %bb.4:                                # %arm.1.i.i
	cmpq	$255, %rbx
	ja	.Ldeerlapse_0_1_0_v3_BB78_12
# %bb.5:                                # %arm.1.i.i
	cmpq	$8160, %r9                      # imm = 0x1FE0
	ja	.Ldeerlapse_0_1_0_v3_BB78_12
# %bb.6:                                # %arm.9.i.i.i
	leaq	16(%rsp), %rsi
	leaq	112(%rsp), %rbp
	movl	$32, %edx
	movq	%rbp, %rdi
	vzeroupper
	callq	"deerlapse_0_1_0_v3::key_derivation::hmac::HmacKey::new::<#7cab53feae2e1c66>"
	movq	600(%rsp), %rax
	movq	%rax, (%rsp)
	movq	%rbp, %rdi
	movq	%r15, %rsi
	movq	%r14, %rdx
	movq	%r12, %rcx
	movq	%rbx, %r8
	movq	%r13, %r9
	callq	"deerlapse_0_1_0_v3::key_derivation::hkdf::Expander::fill_labeled::<#7cab53feae2e1c66>"
	jmp	.Ldeerlapse_0_1_0_v3_BB78_11
.Ldeerlapse_0_1_0_v3_BB78_7:                               # %arm.2.i.i
	movb	$1, 15(%rsp)
	vmovups	(%rax), %ymm0
	vmovups	16(%rax), %ymm1
	vmovups	%ymm0, 16(%rsp)
	vmovups	%ymm1, 32(%rsp)
	leaq	-250(%r14), %rcx
	movb	$1, %al
	cmpq	$-249, %rcx
	jb	.Ldeerlapse_0_1_0_v3_BB78_12
# %bb.8:                                # %arm.2.i.i
	cmpq	$255, %rbx
	ja	.Ldeerlapse_0_1_0_v3_BB78_12
# %bb.9:                                # %arm.2.i.i
	cmpq	$12240, %r9                     # imm = 0x2FD0
	ja	.Ldeerlapse_0_1_0_v3_BB78_12
# %bb.10:                               # %arm.9.i15.i.i
	leaq	16(%rsp), %rsi
	leaq	112(%rsp), %rbp
	movl	$48, %edx
	movq	%rbp, %rdi
	vzeroupper
	callq	"deerlapse_0_1_0_v3::key_derivation::hmac::HmacKey::new::<#01e4f4eb65b1d8bb>"
	movq	600(%rsp), %rax
	movq	%rax, (%rsp)
	movq	%rbp, %rdi
	movq	%r15, %rsi
	movq	%r14, %rdx
	movq	%r12, %rcx
	movq	%rbx, %r8
	movq	%r13, %r9
	callq	"deerlapse_0_1_0_v3::key_derivation::hkdf::Expander::fill_labeled::<#01e4f4eb65b1d8bb>"
.Ldeerlapse_0_1_0_v3_BB78_11:                              # %"key_derivation::secret::Secret::expand_label.exit.i"
	xorl	%eax, %eax
.Ldeerlapse_0_1_0_v3_BB78_12:                              # %"key_derivation::secret::Secret::expand_label.exit.i"
	testb	%al, %al
	sete	%al
	jmp	.Ldeerlapse_0_1_0_v3_BB78_13
.Ldeerlapse_0_1_0_v3_BB78_2:
	xorl	%eax, %eax
.Ldeerlapse_0_1_0_v3_BB78_13:                              # %"deerlapse::hkdf::deerlapse_hkdf_expand_label.exit"
                                        # kill: def $al killed $al killed $eax
	addq	$536, %rsp                      # imm = 0x218
	.cfi_def_cfa_offset 56
	popq	%rbx
	.cfi_def_cfa_offset 48
	popq	%r12
	.cfi_def_cfa_offset 40
	popq	%r13
	.cfi_def_cfa_offset 32
	popq	%r14
	.cfi_def_cfa_offset 24
	popq	%r15
	.cfi_def_cfa_offset 16
	popq	%rbp
	.cfi_def_cfa_offset 8
	vzeroupper
	retq
.Ldeerlapse_0_1_0_v3_func_end78:
	.cfi_endproc
                                        # -- End function
	.section	.text.deerlapse_0_1_0_v3_quic_header_key_from_secret,"ax",@progbits
	.ifdef	deerlapse_in_rust
	.globl	deerlapse_0_1_0_v3_quic_header_key_from_secret # -- Begin function deerlapse_0_1_0_v3_quic_header_key_from_secret
	.type	deerlapse_0_1_0_v3_quic_header_key_from_secret,@function
deerlapse_0_1_0_v3_quic_header_key_from_secret:  # @deerlapse_0_1_0_v3_quic_header_key_from_secret
	.size	deerlapse_0_1_0_v3_quic_header_key_from_secret, .Ldeerlapse_0_1_0_v3_func_end79-deerlapse_0_1_0_v3_quic_header_key_from_secret
	.else
	.globl	deerlapse_quic_header_key_from_secret # -- Begin function deerlapse_quic_header_key_from_secret
	.type	deerlapse_quic_header_key_from_secret,@function
deerlapse_quic_header_key_from_secret:  # @deerlapse_quic_header_key_from_secret
	.size	deerlapse_quic_header_key_from_secret, .Ldeerlapse_0_1_0_v3_func_end79-deerlapse_quic_header_key_from_secret
	.endif
	.cfi_startproc
# %bb.0:                                # %start
	endbr64
	pushq	%rbp
	.cfi_def_cfa_offset 16
	pushq	%r15
	.cfi_def_cfa_offset 24
	pushq	%r14
	.cfi_def_cfa_offset 32
	pushq	%r13
	.cfi_def_cfa_offset 40
	pushq	%r12
	.cfi_def_cfa_offset 48
	pushq	%rbx
	.cfi_def_cfa_offset 56
	subq	$808, %rsp                      # imm = 0x328
	.cfi_def_cfa_offset 864
	.cfi_offset %rbx, -56
	.cfi_offset %r12, -48
	.cfi_offset %r13, -40
	.cfi_offset %r14, -32
	.cfi_offset %r15, -24
	.cfi_offset %rbp, -16
	movq	%rdi, %rbx
	xorl	%edi, %edi
	testq	%rdx, %rdx
	sete	%r8b
	xorl	%ebp, %ebp
	cmpl	$1, %esi
	je	.Ldeerlapse_0_1_0_v3_BB79_1
# %bb.2:                                # %start
	cmpl	$1798521807, %esi               # imm = 0x6B3343CF
	jne	.Ldeerlapse_0_1_0_v3_BB79_13
# %bb.3:                                # %arm.2.i.i
	movb	$1, %bpl
	xorl	%eax, %eax
	jmp	.Ldeerlapse_0_1_0_v3_BB79_4
.Ldeerlapse_0_1_0_v3_BB79_1:
	movb	$1, %al
.Ldeerlapse_0_1_0_v3_BB79_4:                               # %arm.1.i
	movb	%r8b, %dil
	shll	$12, %edi
	addq	%rdi, %rdx
	cmpq	$48, %rcx
	je	.Ldeerlapse_0_1_0_v3_BB79_8
# %bb.5:                                # %arm.1.i
	cmpq	$32, %rcx
	jne	.Ldeerlapse_0_1_0_v3_BB79_6
# %bb.7:                                # %arm.1.i.i
	vxorps	%xmm0, %xmm0, %xmm0
	vmovaps	%xmm0, 96(%rsp)
	vmovups	(%rdx), %ymm0
	vmovups	%ymm0, 64(%rsp)
	leaq	128(%rsp), %rsi
	movb	%bpl, -2(%rsi)
	movb	$0, -1(%rsi)
	vmovups	%ymm0, (%rsi)
	vmovups	80(%rsp), %xmm0
	vmovups	%xmm0, 16(%rsi)
	vmovups	96(%rsp), %xmm0
	vmovups	%xmm0, 32(%rsi)
	movl	%eax, %ecx
	xorb	$1, %cl
	movzbl	%cl, %ecx
	leaq	7(,%rcx,2), %r14
	leaq	.Ldeerlapse_0_1_0_v3_static.10(%rip), %rcx
	leaq	.Ldeerlapse_0_1_0_v3_static.11(%rip), %r15
	testb	%al, %al
	cmovneq	%rcx, %r15
	leaq	176(%rsp), %r12
	movl	$32, %edx
	movq	%r12, %rdi
	vzeroupper
	callq	"deerlapse_0_1_0_v3::key_derivation::hmac::HmacKey::new::<#7cab53feae2e1c66>"
	vxorps	%xmm0, %xmm0, %xmm0
	leaq	16(%rsp), %r9
	vmovups	%ymm0, (%r9)
	movl	$16, %eax
	movq	%rax, 32(%r9)
	movq	%rax, (%rsp)
	leaq	.Ldeerlapse_0_1_0_v3_static.6(%rip), %rcx
	movq	%r12, %rdi
	movq	%r15, %rsi
	movq	%r14, %rdx
	xorl	%r8d, %r8d
	vzeroupper
	callq	"deerlapse_0_1_0_v3::key_derivation::hkdf::Expander::fill_labeled::<#7cab53feae2e1c66>"
	jmp	.Ldeerlapse_0_1_0_v3_BB79_9
.Ldeerlapse_0_1_0_v3_BB79_8:                               # %arm.2.i3.i
	leaq	128(%rsp), %rsi
	movb	%bpl, -2(%rsi)
	movb	$1, -1(%rsi)
	vmovups	(%rdx), %ymm0
	vmovups	16(%rdx), %ymm1
	vmovups	%ymm0, (%rsi)
	vmovups	%ymm1, 16(%rsi)
	movl	%eax, %ecx
	xorb	$1, %cl
	movzbl	%cl, %ecx
	leaq	7(,%rcx,2), %r14
	leaq	.Ldeerlapse_0_1_0_v3_static.10(%rip), %rcx
	leaq	.Ldeerlapse_0_1_0_v3_static.11(%rip), %r15
	testb	%al, %al
	cmovneq	%rcx, %r15
	leaq	384(%rsp), %r12
	movl	$48, %edx
	movq	%r12, %rdi
	vzeroupper
	callq	"deerlapse_0_1_0_v3::key_derivation::hmac::HmacKey::new::<#01e4f4eb65b1d8bb>"
	vxorps	%xmm0, %xmm0, %xmm0
	leaq	64(%rsp), %r13
	vmovups	%ymm0, (%r13)
	movl	$32, %eax
	movq	%rax, 32(%r13)
	movq	%rax, (%rsp)
	leaq	.Ldeerlapse_0_1_0_v3_static.6(%rip), %rcx
	movq	%r12, %rdi
	movq	%r15, %rsi
	movq	%r14, %rdx
	xorl	%r8d, %r8d
	movq	%r13, %r9
	vzeroupper
	callq	"deerlapse_0_1_0_v3::key_derivation::hkdf::Expander::fill_labeled::<#01e4f4eb65b1d8bb>"
	movq	32(%r13), %rax
	movq	%rax, 48(%rsp)
	vmovups	(%r13), %ymm0
	vmovups	%ymm0, 16(%rsp)
.Ldeerlapse_0_1_0_v3_BB79_9:                               # %"key_derivation::quic::QuicSecret::header_key.exit.i"
	movb	$1, %bpl
	movq	48(%rsp), %rcx
	movb	$1, %al
	cmpq	$32, %rcx
	je	.Ldeerlapse_0_1_0_v3_BB79_12
# %bb.10:                               # %"key_derivation::quic::QuicSecret::header_key.exit.i"
	cmpq	$16, %rcx
	jne	.Ldeerlapse_0_1_0_v3_BB79_6
# %bb.11:                               # %join.3.fold.split.i.i.i
	xorl	%eax, %eax
.Ldeerlapse_0_1_0_v3_BB79_12:                              # %arm.1.i5.i
	leaq	8(%rbx), %rdi
	movzbl	%al, %esi
	leaq	16(%rsp), %rdx
	vzeroupper
	callq	"deerlapse_0_1_0_v3::aead_ciphers_wide::aes::expand"
	movq	%rax, (%rbx)
	jmp	.Ldeerlapse_0_1_0_v3_BB79_13
.Ldeerlapse_0_1_0_v3_BB79_6:
	xorl	%ebp, %ebp
.Ldeerlapse_0_1_0_v3_BB79_13:                              # %"deerlapse::header_key::deerlapse_quic_header_key_from_secret.exit"
	movl	%ebp, %eax
	addq	$808, %rsp                      # imm = 0x328
	.cfi_def_cfa_offset 56
	popq	%rbx
	.cfi_def_cfa_offset 48
	popq	%r12
	.cfi_def_cfa_offset 40
	popq	%r13
	.cfi_def_cfa_offset 32
	popq	%r14
	.cfi_def_cfa_offset 24
	popq	%r15
	.cfi_def_cfa_offset 16
	popq	%rbp
	.cfi_def_cfa_offset 8
	vzeroupper
	retq
.Ldeerlapse_0_1_0_v3_func_end79:
	.cfi_endproc
                                        # -- End function
	.section	.text.deerlapse_0_1_0_v3_quic_next_secret,"ax",@progbits
	.ifdef	deerlapse_in_rust
	.globl	deerlapse_0_1_0_v3_quic_next_secret      # -- Begin function deerlapse_0_1_0_v3_quic_next_secret
	.type	deerlapse_0_1_0_v3_quic_next_secret,@function
deerlapse_0_1_0_v3_quic_next_secret:             # @deerlapse_0_1_0_v3_quic_next_secret
	.size	deerlapse_0_1_0_v3_quic_next_secret, .Ldeerlapse_0_1_0_v3_func_end80-deerlapse_0_1_0_v3_quic_next_secret
	.else
	.globl	deerlapse_quic_next_secret      # -- Begin function deerlapse_quic_next_secret
	.type	deerlapse_quic_next_secret,@function
deerlapse_quic_next_secret:             # @deerlapse_quic_next_secret
	.size	deerlapse_quic_next_secret, .Ldeerlapse_0_1_0_v3_func_end80-deerlapse_quic_next_secret
	.endif
	.cfi_startproc
# %bb.0:                                # %start
	endbr64
	pushq	%r14
	.cfi_def_cfa_offset 16
	pushq	%rbx
	.cfi_def_cfa_offset 24
	subq	$200, %rsp
	.cfi_def_cfa_offset 224
	.cfi_offset %rbx, -24
	.cfi_offset %r14, -16
	movq	%rsi, %rbx
	xorl	%ecx, %ecx
	testq	%rsi, %rsi
	sete	%sil
	xorl	%eax, %eax
	cmpl	$1, %edi
	je	.Ldeerlapse_0_1_0_v3_BB80_1
# %bb.2:                                # %start
	cmpl	$1798521807, %edi               # imm = 0x6B3343CF
	jne	.Ldeerlapse_0_1_0_v3_BB80_10
# %bb.3:                                # %arm.2.i.i
	movb	$1, %al
	xorl	%edi, %edi
	jmp	.Ldeerlapse_0_1_0_v3_BB80_4
.Ldeerlapse_0_1_0_v3_BB80_1:
	movb	$1, %dil
.Ldeerlapse_0_1_0_v3_BB80_4:                               # %arm.1.i
	movb	%sil, %cl
	shll	$12, %ecx
	addq	%rcx, %rbx
	cmpq	$32, %rdx
	je	.Ldeerlapse_0_1_0_v3_BB80_8
# %bb.5:                                # %arm.1.i
	cmpq	$48, %rdx
	jne	.Ldeerlapse_0_1_0_v3_BB80_6
# %bb.7:                                # %arm.4.i.i
	vmovups	(%rbx), %ymm0
	vmovups	16(%rbx), %ymm1
	vmovups	%ymm1, 16(%rsp)
	vmovups	%ymm0, (%rsp)
	movb	$1, %cl
	jmp	.Ldeerlapse_0_1_0_v3_BB80_9
.Ldeerlapse_0_1_0_v3_BB80_8:                               # %arm.8.i.i
	vxorps	%xmm0, %xmm0, %xmm0
	vmovaps	%xmm0, 32(%rsp)
	vmovups	(%rbx), %ymm0
	vmovups	%ymm0, (%rsp)
	xorl	%ecx, %ecx
.Ldeerlapse_0_1_0_v3_BB80_9:                               # %arm.5.i
	leaq	151(%rsp), %rsi
	movb	%al, -1(%rsi)
	movb	%cl, (%rsi)
	vmovups	(%rsp), %ymm0
	vmovups	16(%rsp), %xmm1
	vmovups	32(%rsp), %xmm2
	vmovups	%ymm0, 1(%rsi)
	vmovups	%xmm1, 17(%rsi)
	vmovups	%xmm2, 33(%rsi)
	movl	%edi, %eax
	xorb	$1, %al
	movzbl	%al, %eax
	leaq	7(,%rax,2), %rcx
	leaq	.Ldeerlapse_0_1_0_v3_static.12(%rip), %rax
	leaq	.Ldeerlapse_0_1_0_v3_static.13(%rip), %rdx
	testb	%dil, %dil
	cmovneq	%rax, %rdx
	leaq	101(%rsp), %r14
	movq	%r14, %rdi
	vzeroupper
	callq	"deerlapse_0_1_0_v3::key_derivation::secret::Secret::next"
	vmovups	1(%r14), %ymm0
	vmovups	17(%r14), %ymm1
	leaq	48(%rsp), %rsi
	vmovups	%ymm0, (%rsi)
	vmovups	%ymm1, 16(%rsi)
	xorl	%edx, %edx
	cmpb	$0, (%r14)
	setne	%dl
	shll	$4, %edx
	orq	$32, %rdx
	movq	%rbx, %rdi
	vzeroupper
	callq	memcpy@PLT
	movb	$1, %al
	jmp	.Ldeerlapse_0_1_0_v3_BB80_10
.Ldeerlapse_0_1_0_v3_BB80_6:
	xorl	%eax, %eax
.Ldeerlapse_0_1_0_v3_BB80_10:                              # %"deerlapse::quic_key::deerlapse_quic_next_secret.exit"
                                        # kill: def $al killed $al killed $eax
	addq	$200, %rsp
	.cfi_def_cfa_offset 24
	popq	%rbx
	.cfi_def_cfa_offset 16
	popq	%r14
	.cfi_def_cfa_offset 8
	retq
.Ldeerlapse_0_1_0_v3_func_end80:
	.cfi_endproc
                                        # -- End function
	.section	.text.deerlapse_0_1_0_v3_tls_next_secret,"ax",@progbits
	.ifdef	deerlapse_in_rust
	.globl	deerlapse_0_1_0_v3_tls_next_secret       # -- Begin function deerlapse_0_1_0_v3_tls_next_secret
	.type	deerlapse_0_1_0_v3_tls_next_secret,@function
deerlapse_0_1_0_v3_tls_next_secret:              # @deerlapse_0_1_0_v3_tls_next_secret
	.size	deerlapse_0_1_0_v3_tls_next_secret, .Ldeerlapse_0_1_0_v3_func_end81-deerlapse_0_1_0_v3_tls_next_secret
	.else
	.globl	deerlapse_tls_next_secret       # -- Begin function deerlapse_tls_next_secret
	.type	deerlapse_tls_next_secret,@function
deerlapse_tls_next_secret:              # @deerlapse_tls_next_secret
	.size	deerlapse_tls_next_secret, .Ldeerlapse_0_1_0_v3_func_end81-deerlapse_tls_next_secret
	.endif
	.cfi_startproc
# %bb.0:                                # %start
	endbr64
	pushq	%r14
	.cfi_def_cfa_offset 16
	pushq	%rbx
	.cfi_def_cfa_offset 24
	subq	$200, %rsp
	.cfi_def_cfa_offset 224
	.cfi_offset %rbx, -24
	.cfi_offset %r14, -16
	xorl	%ebx, %ebx
	testq	%rdi, %rdi
	sete	%bl
	shll	$12, %ebx
	addq	%rdi, %rbx
	cmpq	$32, %rsi
	je	.Ldeerlapse_0_1_0_v3_BB81_4
# %bb.1:                                # %start
	cmpq	$48, %rsi
	jne	.Ldeerlapse_0_1_0_v3_BB81_2
# %bb.3:                                # %arm.4.i.i
	vmovups	(%rbx), %ymm0
	vmovups	16(%rbx), %ymm1
	vmovups	%ymm1, 16(%rsp)
	vmovups	%ymm0, (%rsp)
	movb	$1, %al
	jmp	.Ldeerlapse_0_1_0_v3_BB81_5
.Ldeerlapse_0_1_0_v3_BB81_4:                               # %arm.8.i.i
	vxorps	%xmm0, %xmm0, %xmm0
	vmovaps	%xmm0, 32(%rsp)
	vmovups	(%rbx), %ymm0
	vmovups	%ymm0, (%rsp)
	xorl	%eax, %eax
.Ldeerlapse_0_1_0_v3_BB81_5:                               # %arm.1.i
	leaq	102(%rsp), %rsi
	movb	%al, (%rsi)
	vmovups	(%rsp), %ymm0
	vmovups	16(%rsp), %xmm1
	vmovups	32(%rsp), %xmm2
	vmovups	%ymm0, 1(%rsi)
	vmovups	%xmm1, 17(%rsi)
	vmovups	%xmm2, 33(%rsi)
	leaq	.Ldeerlapse_0_1_0_v3_static.14(%rip), %rdx
	leaq	151(%rsp), %r14
	movl	$11, %ecx
	movq	%r14, %rdi
	vzeroupper
	callq	"deerlapse_0_1_0_v3::key_derivation::secret::Secret::next"
	vmovups	1(%r14), %ymm0
	vmovups	17(%r14), %ymm1
	leaq	48(%rsp), %rsi
	vmovups	%ymm0, (%rsi)
	vmovups	%ymm1, 16(%rsi)
	xorl	%edx, %edx
	cmpb	$0, (%r14)
	setne	%dl
	shll	$4, %edx
	orq	$32, %rdx
	movq	%rbx, %rdi
	vzeroupper
	callq	memcpy@PLT
	movb	$1, %al
	jmp	.Ldeerlapse_0_1_0_v3_BB81_6
.Ldeerlapse_0_1_0_v3_BB81_2:
	xorl	%eax, %eax
.Ldeerlapse_0_1_0_v3_BB81_6:                               # %"deerlapse::record_key::deerlapse_tls_next_secret.exit"
                                        # kill: def $al killed $al killed $eax
	addq	$200, %rsp
	.cfi_def_cfa_offset 24
	popq	%rbx
	.cfi_def_cfa_offset 16
	popq	%r14
	.cfi_def_cfa_offset 8
	retq
.Ldeerlapse_0_1_0_v3_func_end81:
	.cfi_endproc
                                        # -- End function
	.section	.text.deerlapse_0_1_0_v3_key_init,"ax",@progbits
	.ifdef	deerlapse_in_rust
	.globl	deerlapse_0_1_0_v3_key_init              # -- Begin function deerlapse_0_1_0_v3_key_init
	.p2align	4
	.type	deerlapse_0_1_0_v3_key_init,@function
deerlapse_0_1_0_v3_key_init:                     # @deerlapse_0_1_0_v3_key_init
	.size	deerlapse_0_1_0_v3_key_init, .Ldeerlapse_0_1_0_v3_func_end82-deerlapse_0_1_0_v3_key_init
	.else
	.globl	deerlapse_key_init              # -- Begin function deerlapse_key_init
	.p2align	4
	.type	deerlapse_key_init,@function
deerlapse_key_init:                     # @deerlapse_key_init
	.size	deerlapse_key_init, .Ldeerlapse_0_1_0_v3_func_end82-deerlapse_key_init
	.endif
	.cfi_startproc
# %bb.0:                                # %start
	endbr64
	pushq	%rbx
	.cfi_def_cfa_offset 16
	subq	$16, %rsp
	.cfi_def_cfa_offset 32
	.cfi_offset %rbx, -16
	xorl	%eax, %eax
	testq	%rsi, %rsi
	sete	%r8b
	movb	$1, %bl
	movb	$1, %cl
	cmpq	$32, %rdx
	je	.Ldeerlapse_0_1_0_v3_BB82_3
# %bb.1:                                # %start
	cmpq	$16, %rdx
	jne	.Ldeerlapse_0_1_0_v3_BB82_4
# %bb.2:                                # %join.3.fold.split.i.i.i
	xorl	%ecx, %ecx
.Ldeerlapse_0_1_0_v3_BB82_3:                               # %arm.1.i.i
	movb	%r8b, %al
	shll	$12, %eax
	addq	%rax, %rsi
	vxorps	%xmm0, %xmm0, %xmm0
	vmovaps	%xmm0, (%rsp)
	movzbl	%cl, %eax
	movq	%rsp, %r8
	movq	%rsi, %rdx
	movl	%eax, %esi
	movl	$1, %ecx
	callq	"deerlapse_0_1_0_v3::aead_ciphers_wide::aes_gcm::ExpandedKey::expand_with_width"
	movl	%ebx, %eax
	addq	$16, %rsp
	.cfi_def_cfa_offset 16
	popq	%rbx
	.cfi_def_cfa_offset 8
	retq
.Ldeerlapse_0_1_0_v3_BB82_4:                               # %arm.2.i.i
	.cfi_def_cfa_offset 32
	xorl	%ebx, %ebx
	movl	$3192, %edx                     # imm = 0xC78
	xorl	%esi, %esi
	callq	memset@PLT
	movl	%ebx, %eax
	addq	$16, %rsp
	.cfi_def_cfa_offset 16
	popq	%rbx
	.cfi_def_cfa_offset 8
	retq
.Ldeerlapse_0_1_0_v3_func_end82:
	.cfi_endproc
                                        # -- End function
	.section	.text.deerlapse_0_1_0_v3_open,"ax",@progbits
	.ifdef	deerlapse_in_rust
	.globl	deerlapse_0_1_0_v3_open                  # -- Begin function deerlapse_0_1_0_v3_open
	.p2align	4
	.type	deerlapse_0_1_0_v3_open,@function
deerlapse_0_1_0_v3_open:                         # @deerlapse_0_1_0_v3_open
	.size	deerlapse_0_1_0_v3_open, .Ldeerlapse_0_1_0_v3_func_end83-deerlapse_0_1_0_v3_open
	.else
	.globl	deerlapse_open                  # -- Begin function deerlapse_open
	.p2align	4
	.type	deerlapse_open,@function
deerlapse_open:                         # @deerlapse_open
	.size	deerlapse_open, .Ldeerlapse_0_1_0_v3_func_end83-deerlapse_open
	.endif
	.cfi_startproc
# %bb.0:                                # %start
	endbr64
	pushq	%rbp
	.cfi_def_cfa_offset 16
	pushq	%r15
	.cfi_def_cfa_offset 24
	pushq	%r14
	.cfi_def_cfa_offset 32
	pushq	%r13
	.cfi_def_cfa_offset 40
	pushq	%r12
	.cfi_def_cfa_offset 48
	pushq	%rbx
	.cfi_def_cfa_offset 56
	subq	$3072, %rsp                     # imm = 0xC00
	.cfi_adjust_cfa_offset 3072
	movq	$0, (%rsp)
	subq	$312, %rsp                      # imm = 0x138
	.cfi_def_cfa_offset 3440
	.cfi_offset %rbx, -56
	.cfi_offset %r12, -48
	.cfi_offset %r13, -40
	.cfi_offset %r14, -32
	.cfi_offset %r15, -24
	.cfi_offset %rbp, -16
	movq	%r9, %rbx
	movq	%r8, 40(%rsp)                   # 8-byte Spill
	movq	%rcx, %r15
	movq	%rdx, 88(%rsp)                  # 8-byte Spill
	movq	%rsi, %r13
	movq	%rdi, %rbp
	xorl	%r14d, %r14d
	testq	%rdi, %rdi
	sete	%r12b
	testq	%rcx, %rcx
	sete	38(%rsp)                        # 1-byte Folded Spill
	testq	%r9, %r9
	sete	39(%rsp)                        # 1-byte Folded Spill
	leaq	192(%rsp), %rdi
	movl	$3192, %edx                     # imm = 0xC78
	xorl	%esi, %esi
	callq	memset@PLT
	cmpq	$32, %r13
	je	.Ldeerlapse_0_1_0_v3_BB83_2
# %bb.1:                                # %start
	xorl	%eax, %eax
	cmpq	$16, %r13
	je	.Ldeerlapse_0_1_0_v3_BB83_3
	jmp	.Ldeerlapse_0_1_0_v3_BB83_10
.Ldeerlapse_0_1_0_v3_BB83_2:
	movb	$1, %al
.Ldeerlapse_0_1_0_v3_BB83_3:                               # %then.1.i.i
	movb	%r12b, %r14b
	shll	$12, %r14d
	addq	%r14, %rbp
	vxorps	%xmm0, %xmm0, %xmm0
	vmovaps	%xmm0, 48(%rsp)
	movzbl	%al, %esi
	leaq	192(%rsp), %r13
	leaq	48(%rsp), %r8
	movq	%r13, %rdi
	movq	%rbp, %rdx
	movl	$1, %ecx
	callq	"deerlapse_0_1_0_v3::aead_ciphers_wide::aes_gcm::ExpandedKey::expand_with_width"
	movl	2112(%rsp), %ecx
	leal	-10(%rcx), %eax
	cmpl	$4, %eax
	ja	.Ldeerlapse_0_1_0_v3_BB83_9
# %bb.4:                                # %join.3.i.i.i
	movq	3440(%rsp), %rdx
	cmpq	$16, %rdx
	jb	.Ldeerlapse_0_1_0_v3_BB83_9
# %bb.5:                                # %arm.1.i.i.i.i
	movq	3448(%rsp), %r12
	leaq	-16(%rdx), %rbp
	movq	%rbp, %rax
	subq	%r12, %rax
	jb	.Ldeerlapse_0_1_0_v3_BB83_9
# %bb.6:                                # %arm.8.i.i.i.i
	movq	40(%rsp), %rsi                  # 8-byte Reload
	shrq	$61, %rsi
	setne	%sil
	movabsq	$68719476704, %rdi              # imm = 0xFFFFFFFE0
	cmpq	%rdi, %rax
	seta	%dil
	orb	%sil, %dil
	jne	.Ldeerlapse_0_1_0_v3_BB83_9
# %bb.7:                                # %then.11.i.i.i.i
	xorl	%esi, %esi
	movzbl	38(%rsp), %edi                  # 1-byte Folded Reload
	movb	%dil, %sil
	shll	$12, %esi
	addq	%rsi, %r15
	xorl	%esi, %esi
	movzbl	39(%rsp), %edi                  # 1-byte Folded Reload
	movb	%dil, %sil
	shll	$12, %esi
	addq	%rsi, %rbx
	leaq	2120(%rsp), %rsi
	leaq	2360(%rsp), %rdi
	leaq	2872(%rsp), %r8
	addq	%rbx, %rdx
	addq	$-16, %rdx
	movl	2116(%rsp), %r9d
	movq	%r13, 48(%rsp)
	movq	%rsi, 56(%rsp)
	movq	%rcx, 64(%rsp)
	movl	%r9d, 72(%rsp)
	movl	$0, 76(%rsp)
	movq	%rdi, 136(%rsp)
	movq	%r8, 144(%rsp)
	vxorps	%xmm0, %xmm0, %xmm0
	vmovaps	%xmm0, 112(%rsp)
	movq	88(%rsp), %rsi                  # 8-byte Reload
	movq	(%rsi), %rcx
	movq	%rcx, 96(%rsp)
	movl	8(%rsi), %ecx
	movl	%ecx, 104(%rsp)
	vmovups	(%rdx), %xmm0
	vmovaps	%xmm0, 176(%rsp)
	leaq	(%rbx,%r12), %rcx
	leaq	112(%rsp), %rdx
	movq	%rdx, 24(%rsp)
	movq	%rax, 16(%rsp)
	movq	%rcx, 8(%rsp)
	leaq	176(%rsp), %rax
	movq	%rax, (%rsp)
	leaq	159(%rsp), %rdi
	leaq	48(%rsp), %rsi
	leaq	136(%rsp), %rdx
	leaq	96(%rsp), %rcx
	movq	%r15, %r8
	movq	40(%rsp), %r9                   # 8-byte Reload
	callq	"deerlapse_0_1_0_v3::aead_ciphers::aes_gcm::opening::authenticate::<#7bfdf0a6b4753edd>"
	cmpb	$0, 159(%rsp)
	je	.Ldeerlapse_0_1_0_v3_BB83_11
.Ldeerlapse_0_1_0_v3_BB83_9:
	xorl	%eax, %eax
.Ldeerlapse_0_1_0_v3_BB83_10:                              # %"deerlapse::aes_gcm::deerlapse_open.exit"
                                        # kill: def $al killed $al killed $eax
	addq	$3384, %rsp                     # imm = 0xD38
	.cfi_def_cfa_offset 56
	popq	%rbx
	.cfi_def_cfa_offset 48
	popq	%r12
	.cfi_def_cfa_offset 40
	popq	%r13
	.cfi_def_cfa_offset 32
	popq	%r14
	.cfi_def_cfa_offset 24
	popq	%r15
	.cfi_def_cfa_offset 16
	popq	%rbp
	.cfi_def_cfa_offset 8
	retq
.Ldeerlapse_0_1_0_v3_BB83_11:                              # %arm.4.i.i.i
	.cfi_def_cfa_offset 3440
	movq	3456(%rsp), %r14
	leaq	160(%rsp), %rsi
	leaq	48(%rsp), %rdi
	leaq	112(%rsp), %r9
	movq	%rbx, %rdx
	movq	%rbp, %rcx
	movq	%r12, %r8
	callq	"deerlapse_0_1_0_v3::aead_ciphers::aes_gcm::counter_mode::encrypt_within::<#6fa349fe97f872a2>"
	movq	%rax, (%r14)
	movb	$1, %al
	jmp	.Ldeerlapse_0_1_0_v3_BB83_10
.Ldeerlapse_0_1_0_v3_func_end83:
	.cfi_endproc
                                        # -- End function
	.section	.text.deerlapse_0_1_0_v3_opener_init,"ax",@progbits
	.ifdef	deerlapse_in_rust
	.globl	deerlapse_0_1_0_v3_opener_init           # -- Begin function deerlapse_0_1_0_v3_opener_init
	.p2align	4
	.type	deerlapse_0_1_0_v3_opener_init,@function
deerlapse_0_1_0_v3_opener_init:                  # @deerlapse_0_1_0_v3_opener_init
	.size	deerlapse_0_1_0_v3_opener_init, .Ldeerlapse_0_1_0_v3_func_end84-deerlapse_0_1_0_v3_opener_init
	.else
	.globl	deerlapse_opener_init           # -- Begin function deerlapse_opener_init
	.p2align	4
	.type	deerlapse_opener_init,@function
deerlapse_opener_init:                  # @deerlapse_opener_init
	.size	deerlapse_opener_init, .Ldeerlapse_0_1_0_v3_func_end84-deerlapse_opener_init
	.endif
	.cfi_startproc
# %bb.0:                                # %start
	endbr64
	xorl	%eax, %eax
	testq	%rsi, %rsi
	sete	%r10b
	cmpq	$32, %rdx
	je	.Ldeerlapse_0_1_0_v3_BB84_4
# %bb.1:                                # %start
	cmpq	$16, %rdx
	jne	.Ldeerlapse_0_1_0_v3_BB84_6
# %bb.2:                                # %join.3.fold.split.i.i.i
	xorl	%edx, %edx
	cmpq	%r8, %r9
	jae	.Ldeerlapse_0_1_0_v3_BB84_5
.Ldeerlapse_0_1_0_v3_BB84_6:
	xorl	%eax, %eax
                                        # kill: def $al killed $al killed $eax
	retq
.Ldeerlapse_0_1_0_v3_BB84_4:
	movb	$1, %dl
	cmpq	%r8, %r9
	jb	.Ldeerlapse_0_1_0_v3_BB84_6
.Ldeerlapse_0_1_0_v3_BB84_5:                               # %join.7.i.i
	pushq	%r15
	.cfi_def_cfa_offset 16
	pushq	%r14
	.cfi_def_cfa_offset 24
	pushq	%r12
	.cfi_def_cfa_offset 32
	pushq	%rbx
	.cfi_def_cfa_offset 40
	subq	$24, %rsp
	.cfi_def_cfa_offset 64
	.cfi_offset %rbx, -40
	.cfi_offset %r12, -32
	.cfi_offset %r14, -24
	.cfi_offset %r15, -16
	movb	%r10b, %al
	shll	$12, %eax
	addq	%rax, %rsi
	vxorps	%xmm0, %xmm0, %xmm0
	vmovaps	%xmm0, (%rsp)
	movzbl	%dl, %eax
	movq	%rsp, %r10
	movq	%rdi, %rbx
	movq	%rsi, %rdx
	movl	%eax, %esi
	movq	%rcx, %r14
	movl	$1, %ecx
	movq	%r8, %r15
	movq	%r10, %r8
	movq	%r9, %r12
	callq	"deerlapse_0_1_0_v3::aead_ciphers_wide::aes_gcm::ExpandedKey::expand_with_width"
	movq	%r15, 3192(%rbx)
	movq	%r12, 3200(%rbx)
	movq	(%r14), %rax
	movl	8(%r14), %ecx
	movl	%ecx, 3216(%rbx)
	movq	%rax, 3208(%rbx)
	vxorps	%xmm0, %xmm0, %xmm0
	vmovups	%ymm0, 3220(%rbx)
	vmovups	%ymm0, 3252(%rbx)
	vmovups	%ymm0, 3284(%rbx)
	vmovups	%ymm0, 3316(%rbx)
	vmovups	%ymm0, 3348(%rbx)
	vmovups	%ymm0, 3380(%rbx)
	vmovups	%ymm0, 3408(%rbx)
	movb	$1, %al
	addq	$24, %rsp
	.cfi_def_cfa_offset 40
	popq	%rbx
	.cfi_def_cfa_offset 32
	popq	%r12
	.cfi_def_cfa_offset 24
	popq	%r14
	.cfi_def_cfa_offset 16
	popq	%r15
	.cfi_def_cfa_offset 8
	.cfi_restore %rbx
	.cfi_restore %r12
	.cfi_restore %r14
	.cfi_restore %r15
                                        # kill: def $al killed $al killed $eax
	vzeroupper
	retq
.Ldeerlapse_0_1_0_v3_func_end84:
	.cfi_endproc
                                        # -- End function
	.section	.text.deerlapse_0_1_0_v3_quic_key_from_secret,"ax",@progbits
	.ifdef	deerlapse_in_rust
	.globl	deerlapse_0_1_0_v3_quic_key_from_secret  # -- Begin function deerlapse_0_1_0_v3_quic_key_from_secret
	.type	deerlapse_0_1_0_v3_quic_key_from_secret,@function
deerlapse_0_1_0_v3_quic_key_from_secret:         # @deerlapse_0_1_0_v3_quic_key_from_secret
	.size	deerlapse_0_1_0_v3_quic_key_from_secret, .Ldeerlapse_0_1_0_v3_func_end85-deerlapse_0_1_0_v3_quic_key_from_secret
	.else
	.globl	deerlapse_quic_key_from_secret  # -- Begin function deerlapse_quic_key_from_secret
	.type	deerlapse_quic_key_from_secret,@function
deerlapse_quic_key_from_secret:         # @deerlapse_quic_key_from_secret
	.size	deerlapse_quic_key_from_secret, .Ldeerlapse_0_1_0_v3_func_end85-deerlapse_quic_key_from_secret
	.endif
	.cfi_startproc
# %bb.0:                                # %start
	endbr64
	pushq	%rbp
	.cfi_def_cfa_offset 16
	pushq	%r15
	.cfi_def_cfa_offset 24
	pushq	%r14
	.cfi_def_cfa_offset 32
	pushq	%r13
	.cfi_def_cfa_offset 40
	pushq	%r12
	.cfi_def_cfa_offset 48
	pushq	%rbx
	.cfi_def_cfa_offset 56
	subq	$728, %rsp                      # imm = 0x2D8
	.cfi_def_cfa_offset 784
	.cfi_offset %rbx, -56
	.cfi_offset %r12, -48
	.cfi_offset %r13, -40
	.cfi_offset %r14, -32
	.cfi_offset %r15, -24
	.cfi_offset %rbp, -16
	movq	%rdi, %rbx
	xorl	%edi, %edi
	testq	%rdx, %rdx
	sete	%r8b
	vxorps	%xmm0, %xmm0, %xmm0
	vmovups	%ymm0, 80(%rsp)
	vmovups	%ymm0, 104(%rsp)
	xorl	%ebp, %ebp
	cmpl	$1, %esi
	je	.Ldeerlapse_0_1_0_v3_BB85_1
# %bb.2:                                # %start
	cmpl	$1798521807, %esi               # imm = 0x6B3343CF
	jne	.Ldeerlapse_0_1_0_v3_BB85_16
# %bb.3:                                # %arm.2.i.i.i
	movb	$1, %bpl
	xorl	%eax, %eax
	jmp	.Ldeerlapse_0_1_0_v3_BB85_4
.Ldeerlapse_0_1_0_v3_BB85_1:
	movb	$1, %al
.Ldeerlapse_0_1_0_v3_BB85_4:                               # %arm.1.i.i
	movb	%r8b, %dil
	shll	$12, %edi
	addq	%rdi, %rdx
	cmpq	$32, %rcx
	je	.Ldeerlapse_0_1_0_v3_BB85_8
# %bb.5:                                # %arm.1.i.i
	cmpq	$48, %rcx
	jne	.Ldeerlapse_0_1_0_v3_BB85_6
# %bb.7:                                # %arm.4.i.i.i
	vmovups	(%rdx), %ymm0
	vmovups	16(%rdx), %ymm1
	vmovups	%ymm1, 176(%rsp)
	vmovups	%ymm0, 160(%rsp)
	movb	$1, %dl
	xorl	%ecx, %ecx
	jmp	.Ldeerlapse_0_1_0_v3_BB85_9
.Ldeerlapse_0_1_0_v3_BB85_8:                               # %arm.8.i.i.i
	vxorps	%xmm0, %xmm0, %xmm0
	vmovaps	%xmm0, 192(%rsp)
	vmovups	(%rdx), %ymm0
	vmovups	%ymm0, 160(%rsp)
	movb	$1, %cl
	xorl	%edx, %edx
.Ldeerlapse_0_1_0_v3_BB85_9:                               # %arm.5.i.i
	leaq	256(%rsp), %rsi
	movb	%bpl, -2(%rsi)
	movb	%dl, -1(%rsi)
	vmovups	160(%rsp), %ymm0
	vmovups	176(%rsp), %xmm1
	vmovups	192(%rsp), %xmm2
	vmovups	%ymm0, (%rsi)
	vmovups	%xmm1, 16(%rsi)
	vmovups	%xmm2, 32(%rsi)
	movl	%eax, %edx
	xorb	$1, %dl
	movzbl	%dl, %r14d
	addl	%r14d, %r14d
	leaq	8(%r14), %r12
	leaq	.Ldeerlapse_0_1_0_v3_static.15(%rip), %rdx
	leaq	.Ldeerlapse_0_1_0_v3_static.16(%rip), %r13
	addq	$7, %r14
	testb	%al, %al
	cmovneq	%rdx, %r13
	leaq	.Ldeerlapse_0_1_0_v3_static.17(%rip), %rax
	leaq	.Ldeerlapse_0_1_0_v3_static.18(%rip), %r15
	cmovneq	%rax, %r15
	leaq	304(%rsp), %rdi
	testb	%cl, %cl
	je	.Ldeerlapse_0_1_0_v3_BB85_11
# %bb.10:                               # %arm.1.i.i.i
	movl	$32, %edx
	vzeroupper
	callq	"deerlapse_0_1_0_v3::key_derivation::hmac::HmacKey::new::<#7cab53feae2e1c66>"
	vxorps	%xmm0, %xmm0, %xmm0
	leaq	208(%rsp), %rbp
	vmovups	%ymm0, (%rbp)
	movl	$16, %eax
	movq	%rax, 32(%rbp)
	movq	%rax, (%rsp)
	leaq	.Ldeerlapse_0_1_0_v3_static.6(%rip), %rcx
	leaq	304(%rsp), %rdi
	movq	%r13, %rsi
	movq	%r12, %rdx
	movq	%rcx, %r13
	xorl	%r8d, %r8d
	movq	%rbp, %r9
	vzeroupper
	callq	"deerlapse_0_1_0_v3::key_derivation::hkdf::Expander::fill_labeled::<#7cab53feae2e1c66>"
	leaq	144(%rsp), %r12
	movl	$0, 8(%r12)
	movq	$0, (%r12)
	movq	$12, (%rsp)
	leaq	304(%rsp), %rdi
	movq	%r15, %rsi
	movq	%r14, %rdx
	movq	%r13, %rcx
	xorl	%r8d, %r8d
	movq	%r12, %r9
	callq	"deerlapse_0_1_0_v3::key_derivation::hkdf::Expander::fill_labeled::<#7cab53feae2e1c66>"
	jmp	.Ldeerlapse_0_1_0_v3_BB85_12
.Ldeerlapse_0_1_0_v3_BB85_11:                              # %arm.2.i3.i.i
	movl	$48, %edx
	movq	%rbx, 8(%rsp)                   # 8-byte Spill
	movq	%rdi, %rbx
	vzeroupper
	callq	"deerlapse_0_1_0_v3::key_derivation::hmac::HmacKey::new::<#01e4f4eb65b1d8bb>"
	vxorps	%xmm0, %xmm0, %xmm0
	leaq	208(%rsp), %rbp
	vmovups	%ymm0, (%rbp)
	movl	$32, %eax
	movq	%rax, 32(%rbp)
	movq	%rax, (%rsp)
	leaq	.Ldeerlapse_0_1_0_v3_static.6(%rip), %rcx
	movq	%rbx, %rdi
	movq	%r13, %rsi
	movq	%r12, %rdx
	movq	%rcx, %r13
	xorl	%r8d, %r8d
	movq	%rbp, %r9
	vzeroupper
	callq	"deerlapse_0_1_0_v3::key_derivation::hkdf::Expander::fill_labeled::<#01e4f4eb65b1d8bb>"
	leaq	144(%rsp), %r12
	movl	$0, 8(%r12)
	movq	$0, (%r12)
	movq	$12, (%rsp)
	movq	%rbx, %rdi
	movq	8(%rsp), %rbx                   # 8-byte Reload
	movq	%r15, %rsi
	movq	%r14, %rdx
	movq	%r13, %rcx
	xorl	%r8d, %r8d
	movq	%r12, %r9
	callq	"deerlapse_0_1_0_v3::key_derivation::hkdf::Expander::fill_labeled::<#01e4f4eb65b1d8bb>"
.Ldeerlapse_0_1_0_v3_BB85_12:                              # %"key_derivation::quic::QuicSecret::packet_keys.exit.i.i"
	movq	32(%rbp), %rax
	movq	%rax, 48(%rsp)
	vmovups	(%rbp), %ymm0
	vmovups	%ymm0, 16(%rsp)
	movl	8(%r12), %eax
	leaq	56(%rsp), %r14
	movl	%eax, 8(%r14)
	movq	(%r12), %rax
	movq	%rax, (%r14)
	vmovups	16(%rsp), %ymm0
	movq	36(%rsp), %rax
	movq	%rax, 100(%rsp)
	movl	44(%rsp), %eax
	movl	%eax, 108(%rsp)
	movq	48(%rsp), %rax
	movq	%rax, 112(%rsp)
	movq	56(%rsp), %rax
	movq	%rax, 120(%rsp)
	movl	64(%rsp), %eax
	movl	%eax, 128(%rsp)
	vmovups	%ymm0, 80(%rsp)
	movl	$0, 132(%rsp)
	movq	112(%rsp), %rcx
	movb	$1, %bpl
	movb	$1, %al
	cmpq	$32, %rcx
	je	.Ldeerlapse_0_1_0_v3_BB85_15
# %bb.13:                               # %"key_derivation::quic::QuicSecret::packet_keys.exit.i.i"
	cmpq	$16, %rcx
	jne	.Ldeerlapse_0_1_0_v3_BB85_6
# %bb.14:                               # %join.3.fold.split.i.i.i.i
	xorl	%eax, %eax
.Ldeerlapse_0_1_0_v3_BB85_15:                              # %arm.1.i6.i.i
	vxorps	%xmm0, %xmm0, %xmm0
	leaq	304(%rsp), %r8
	vmovaps	%xmm0, (%r8)
	movzbl	%al, %esi
	leaq	80(%rsp), %rdx
	movq	%rbx, %rdi
	movl	$1, %ecx
	vzeroupper
	callq	"deerlapse_0_1_0_v3::aead_ciphers_wide::aes_gcm::ExpandedKey::expand_with_width"
	movl	8(%r14), %eax
	movl	%eax, 3200(%rbx)
	movq	(%r14), %rax
	movq	%rax, 3192(%rbx)
	movl	$0, 3204(%rbx)
	jmp	.Ldeerlapse_0_1_0_v3_BB85_16
.Ldeerlapse_0_1_0_v3_BB85_6:
	xorl	%ebp, %ebp
.Ldeerlapse_0_1_0_v3_BB85_16:                              # %"deerlapse::quic_key::deerlapse_quic_key_from_secret.exit"
	movl	%ebp, %eax
	addq	$728, %rsp                      # imm = 0x2D8
	.cfi_def_cfa_offset 56
	popq	%rbx
	.cfi_def_cfa_offset 48
	popq	%r12
	.cfi_def_cfa_offset 40
	popq	%r13
	.cfi_def_cfa_offset 32
	popq	%r14
	.cfi_def_cfa_offset 24
	popq	%r15
	.cfi_def_cfa_offset 16
	popq	%rbp
	.cfi_def_cfa_offset 8
	vzeroupper
	retq
.Ldeerlapse_0_1_0_v3_func_end85:
	.cfi_endproc
                                        # -- End function
	.section	.text.deerlapse_0_1_0_v3_quic_key_init,"ax",@progbits
	.ifdef	deerlapse_in_rust
	.globl	deerlapse_0_1_0_v3_quic_key_init         # -- Begin function deerlapse_0_1_0_v3_quic_key_init
	.p2align	4
	.type	deerlapse_0_1_0_v3_quic_key_init,@function
deerlapse_0_1_0_v3_quic_key_init:                # @deerlapse_0_1_0_v3_quic_key_init
	.size	deerlapse_0_1_0_v3_quic_key_init, .Ldeerlapse_0_1_0_v3_func_end86-deerlapse_0_1_0_v3_quic_key_init
	.else
	.globl	deerlapse_quic_key_init         # -- Begin function deerlapse_quic_key_init
	.p2align	4
	.type	deerlapse_quic_key_init,@function
deerlapse_quic_key_init:                # @deerlapse_quic_key_init
	.size	deerlapse_quic_key_init, .Ldeerlapse_0_1_0_v3_func_end86-deerlapse_quic_key_init
	.endif
	.cfi_startproc
# %bb.0:                                # %start
	endbr64
	pushq	%r15
	.cfi_def_cfa_offset 16
	pushq	%r14
	.cfi_def_cfa_offset 24
	pushq	%rbx
	.cfi_def_cfa_offset 32
	subq	$16, %rsp
	.cfi_def_cfa_offset 48
	.cfi_offset %rbx, -32
	.cfi_offset %r14, -24
	.cfi_offset %r15, -16
	movq	%rcx, %r14
	xorl	%eax, %eax
	testq	%rsi, %rsi
	sete	%r8b
	movb	$1, %bl
	movb	$1, %cl
	cmpq	$32, %rdx
	je	.Ldeerlapse_0_1_0_v3_BB86_4
# %bb.1:                                # %start
	cmpq	$16, %rdx
	jne	.Ldeerlapse_0_1_0_v3_BB86_2
# %bb.3:                                # %join.3.fold.split.i.i.i
	xorl	%ecx, %ecx
.Ldeerlapse_0_1_0_v3_BB86_4:                               # %arm.1.i.i
	movb	%r8b, %al
	shll	$12, %eax
	addq	%rax, %rsi
	vxorps	%xmm0, %xmm0, %xmm0
	vmovaps	%xmm0, (%rsp)
	movzbl	%cl, %eax
	movq	%rsp, %r8
	movq	%rdi, %r15
	movq	%rsi, %rdx
	movl	%eax, %esi
	movl	$1, %ecx
	callq	"deerlapse_0_1_0_v3::aead_ciphers_wide::aes_gcm::ExpandedKey::expand_with_width"
	movq	(%r14), %rax
	movl	8(%r14), %ecx
	movl	%ecx, 3200(%r15)
	movq	%rax, 3192(%r15)
	movl	$0, 3204(%r15)
	jmp	.Ldeerlapse_0_1_0_v3_BB86_5
.Ldeerlapse_0_1_0_v3_BB86_2:
	xorl	%ebx, %ebx
.Ldeerlapse_0_1_0_v3_BB86_5:                               # %"deerlapse::quic_key::deerlapse_quic_key_init.exit"
	movl	%ebx, %eax
	addq	$16, %rsp
	.cfi_def_cfa_offset 32
	popq	%rbx
	.cfi_def_cfa_offset 24
	popq	%r14
	.cfi_def_cfa_offset 16
	popq	%r15
	.cfi_def_cfa_offset 8
	retq
.Ldeerlapse_0_1_0_v3_func_end86:
	.cfi_endproc
                                        # -- End function
	.section	.text.deerlapse_0_1_0_v3_record_key_from_secret,"ax",@progbits
	.ifdef	deerlapse_in_rust
	.globl	deerlapse_0_1_0_v3_record_key_from_secret # -- Begin function deerlapse_0_1_0_v3_record_key_from_secret
	.type	deerlapse_0_1_0_v3_record_key_from_secret,@function
deerlapse_0_1_0_v3_record_key_from_secret:       # @deerlapse_0_1_0_v3_record_key_from_secret
	.size	deerlapse_0_1_0_v3_record_key_from_secret, .Ldeerlapse_0_1_0_v3_func_end87-deerlapse_0_1_0_v3_record_key_from_secret
	.else
	.globl	deerlapse_record_key_from_secret # -- Begin function deerlapse_record_key_from_secret
	.type	deerlapse_record_key_from_secret,@function
deerlapse_record_key_from_secret:       # @deerlapse_record_key_from_secret
	.size	deerlapse_record_key_from_secret, .Ldeerlapse_0_1_0_v3_func_end87-deerlapse_record_key_from_secret
	.endif
	.cfi_startproc
# %bb.0:                                # %start
	endbr64
	pushq	%rbp
	.cfi_def_cfa_offset 16
	pushq	%r15
	.cfi_def_cfa_offset 24
	pushq	%r14
	.cfi_def_cfa_offset 32
	pushq	%r13
	.cfi_def_cfa_offset 40
	pushq	%r12
	.cfi_def_cfa_offset 48
	pushq	%rbx
	.cfi_def_cfa_offset 56
	subq	$680, %rsp                      # imm = 0x2A8
	.cfi_def_cfa_offset 736
	.cfi_offset %rbx, -56
	.cfi_offset %r12, -48
	.cfi_offset %r13, -40
	.cfi_offset %r14, -32
	.cfi_offset %r15, -24
	.cfi_offset %rbp, -16
	movq	%rdi, %rbx
	xorl	%eax, %eax
	testq	%rsi, %rsi
	sete	%al
	shll	$12, %eax
	vxorps	%xmm0, %xmm0, %xmm0
	vmovups	%ymm0, 144(%rsp)
	addq	%rsi, %rax
	vmovups	%ymm0, 161(%rsp)
	cmpq	$48, %rdx
	je	.Ldeerlapse_0_1_0_v3_BB87_4
# %bb.1:                                # %start
	cmpq	$32, %rdx
	jne	.Ldeerlapse_0_1_0_v3_BB87_2
# %bb.3:                                # %arm.1.i.i.i
	vxorps	%xmm0, %xmm0, %xmm0
	vmovaps	%xmm0, 112(%rsp)
	vmovups	(%rax), %ymm0
	vmovups	%ymm0, 80(%rsp)
	leaq	145(%rsp), %rsi
	vmovups	%ymm0, (%rsi)
	vmovups	96(%rsp), %xmm0
	vmovups	%xmm0, 16(%rsi)
	vmovups	112(%rsp), %xmm0
	vmovups	%xmm0, 32(%rsi)
	leaq	256(%rsp), %r14
	movl	$32, %edx
	movq	%r14, %rdi
	vzeroupper
	callq	"deerlapse_0_1_0_v3::key_derivation::hmac::HmacKey::new::<#7cab53feae2e1c66>"
	vxorps	%xmm0, %xmm0, %xmm0
	leaq	208(%rsp), %r15
	vmovups	%ymm0, (%r15)
	movl	$16, %eax
	movq	%rax, 32(%r15)
	movq	%rax, (%rsp)
	leaq	.Ldeerlapse_0_1_0_v3_static.19(%rip), %rsi
	leaq	.Ldeerlapse_0_1_0_v3_static.6(%rip), %r12
	movl	$3, %edx
	movq	%r14, %rdi
	movq	%r12, %rcx
	xorl	%r8d, %r8d
	movq	%r15, %r9
	vzeroupper
	callq	"deerlapse_0_1_0_v3::key_derivation::hkdf::Expander::fill_labeled::<#7cab53feae2e1c66>"
	leaq	128(%rsp), %r13
	movl	$0, 8(%r13)
	movq	$0, (%r13)
	movq	$12, (%rsp)
	leaq	.Ldeerlapse_0_1_0_v3_static.20(%rip), %rsi
	movl	$2, %edx
	movq	%r14, %rdi
	movq	%r12, %rcx
	xorl	%r8d, %r8d
	movq	%r13, %r9
	callq	"deerlapse_0_1_0_v3::key_derivation::hkdf::Expander::fill_labeled::<#7cab53feae2e1c66>"
	movq	32(%r15), %rax
	movq	%rax, 48(%rsp)
	vmovups	(%r15), %ymm0
	jmp	.Ldeerlapse_0_1_0_v3_BB87_5
.Ldeerlapse_0_1_0_v3_BB87_4:                               # %arm.2.i.i.i
	leaq	145(%rsp), %rsi
	movb	$1, -1(%rsi)
	vmovups	(%rax), %ymm0
	vmovups	16(%rax), %ymm1
	vmovups	%ymm0, (%rsi)
	vmovups	%ymm1, 16(%rsi)
	leaq	256(%rsp), %r15
	movl	$48, %edx
	movq	%r15, %rdi
	vzeroupper
	callq	"deerlapse_0_1_0_v3::key_derivation::hmac::HmacKey::new::<#01e4f4eb65b1d8bb>"
	leaq	80(%rsp), %r14
	vxorps	%xmm0, %xmm0, %xmm0
	vmovups	%ymm0, (%r14)
	movl	$32, %eax
	movq	%rax, 32(%r14)
	movq	%rax, (%rsp)
	leaq	.Ldeerlapse_0_1_0_v3_static.19(%rip), %rsi
	leaq	.Ldeerlapse_0_1_0_v3_static.6(%rip), %r12
	movl	$3, %edx
	movq	%r15, %rdi
	movq	%r12, %rcx
	xorl	%r8d, %r8d
	movq	%r14, %r9
	vzeroupper
	callq	"deerlapse_0_1_0_v3::key_derivation::hkdf::Expander::fill_labeled::<#01e4f4eb65b1d8bb>"
	leaq	208(%rsp), %r13
	movl	$0, 8(%r13)
	movq	$0, (%r13)
	movq	$12, (%rsp)
	leaq	.Ldeerlapse_0_1_0_v3_static.20(%rip), %rsi
	movl	$2, %edx
	movq	%r15, %rdi
	movq	%r12, %rcx
	xorl	%r8d, %r8d
	movq	%r13, %r9
	callq	"deerlapse_0_1_0_v3::key_derivation::hkdf::Expander::fill_labeled::<#01e4f4eb65b1d8bb>"
	movq	32(%r14), %rax
	movq	%rax, 48(%rsp)
	vmovups	(%r14), %ymm0
.Ldeerlapse_0_1_0_v3_BB87_5:                               # %"key_derivation::secret::Secret::record_keys.exit.i.i"
	vmovups	%ymm0, 16(%rsp)
	movq	(%r13), %rax
	movq	%rax, 56(%rsp)
	movl	8(%r13), %eax
	movl	%eax, 64(%rsp)
	vmovups	16(%rsp), %ymm0
	movq	36(%rsp), %rax
	movq	%rax, 276(%rsp)
	movl	44(%rsp), %eax
	movl	%eax, 284(%rsp)
	movq	48(%rsp), %rax
	movq	%rax, 288(%rsp)
	movq	56(%rsp), %rax
	movq	%rax, 296(%rsp)
	movl	64(%rsp), %eax
	movl	%eax, 304(%rsp)
	vmovups	%ymm0, 256(%rsp)
	movl	$0, 308(%rsp)
	movq	288(%rsp), %rcx
	movb	$1, %bpl
	movb	$1, %al
	cmpq	$32, %rcx
	je	.Ldeerlapse_0_1_0_v3_BB87_8
# %bb.6:                                # %"key_derivation::secret::Secret::record_keys.exit.i.i"
	cmpq	$16, %rcx
	jne	.Ldeerlapse_0_1_0_v3_BB87_2
# %bb.7:                                # %join.3.fold.split.i.i.i.i
	xorl	%eax, %eax
.Ldeerlapse_0_1_0_v3_BB87_8:                               # %arm.1.i3.i.i
	vxorps	%xmm0, %xmm0, %xmm0
	leaq	208(%rsp), %r8
	vmovaps	%xmm0, (%r8)
	movzbl	%al, %esi
	leaq	256(%rsp), %rdx
	movq	%rbx, %rdi
	movl	$1, %ecx
	vzeroupper
	callq	"deerlapse_0_1_0_v3::aead_ciphers_wide::aes_gcm::ExpandedKey::expand_with_width"
	movl	64(%rsp), %eax
	movl	%eax, 3200(%rbx)
	movq	56(%rsp), %rax
	movq	%rax, 3192(%rbx)
	movl	$0, 3204(%rbx)
	jmp	.Ldeerlapse_0_1_0_v3_BB87_9
.Ldeerlapse_0_1_0_v3_BB87_2:
	xorl	%ebp, %ebp
.Ldeerlapse_0_1_0_v3_BB87_9:                               # %"deerlapse::record_key::deerlapse_record_key_from_secret.exit"
	movl	%ebp, %eax
	addq	$680, %rsp                      # imm = 0x2A8
	.cfi_def_cfa_offset 56
	popq	%rbx
	.cfi_def_cfa_offset 48
	popq	%r12
	.cfi_def_cfa_offset 40
	popq	%r13
	.cfi_def_cfa_offset 32
	popq	%r14
	.cfi_def_cfa_offset 24
	popq	%r15
	.cfi_def_cfa_offset 16
	popq	%rbp
	.cfi_def_cfa_offset 8
	vzeroupper
	retq
.Ldeerlapse_0_1_0_v3_func_end87:
	.cfi_endproc
                                        # -- End function
	.section	.text.deerlapse_0_1_0_v3_record_key_init,"ax",@progbits
	.ifdef	deerlapse_in_rust
	.globl	deerlapse_0_1_0_v3_record_key_init       # -- Begin function deerlapse_0_1_0_v3_record_key_init
	.p2align	4
	.type	deerlapse_0_1_0_v3_record_key_init,@function
deerlapse_0_1_0_v3_record_key_init:              # @deerlapse_0_1_0_v3_record_key_init
	.size	deerlapse_0_1_0_v3_record_key_init, .Ldeerlapse_0_1_0_v3_func_end88-deerlapse_0_1_0_v3_record_key_init
	.else
	.globl	deerlapse_record_key_init       # -- Begin function deerlapse_record_key_init
	.p2align	4
	.type	deerlapse_record_key_init,@function
deerlapse_record_key_init:              # @deerlapse_record_key_init
	.size	deerlapse_record_key_init, .Ldeerlapse_0_1_0_v3_func_end88-deerlapse_record_key_init
	.endif
	.cfi_startproc
# %bb.0:                                # %start
	endbr64
	pushq	%r15
	.cfi_def_cfa_offset 16
	pushq	%r14
	.cfi_def_cfa_offset 24
	pushq	%rbx
	.cfi_def_cfa_offset 32
	subq	$16, %rsp
	.cfi_def_cfa_offset 48
	.cfi_offset %rbx, -32
	.cfi_offset %r14, -24
	.cfi_offset %r15, -16
	movq	%rcx, %r14
	xorl	%eax, %eax
	testq	%rsi, %rsi
	sete	%r8b
	movb	$1, %bl
	movb	$1, %cl
	cmpq	$32, %rdx
	je	.Ldeerlapse_0_1_0_v3_BB88_4
# %bb.1:                                # %start
	cmpq	$16, %rdx
	jne	.Ldeerlapse_0_1_0_v3_BB88_2
# %bb.3:                                # %join.3.fold.split.i.i.i
	xorl	%ecx, %ecx
.Ldeerlapse_0_1_0_v3_BB88_4:                               # %arm.1.i.i
	movb	%r8b, %al
	shll	$12, %eax
	addq	%rax, %rsi
	vxorps	%xmm0, %xmm0, %xmm0
	vmovaps	%xmm0, (%rsp)
	movzbl	%cl, %eax
	movq	%rsp, %r8
	movq	%rdi, %r15
	movq	%rsi, %rdx
	movl	%eax, %esi
	movl	$1, %ecx
	callq	"deerlapse_0_1_0_v3::aead_ciphers_wide::aes_gcm::ExpandedKey::expand_with_width"
	movq	(%r14), %rax
	movl	8(%r14), %ecx
	movl	%ecx, 3200(%r15)
	movq	%rax, 3192(%r15)
	movl	$0, 3204(%r15)
	jmp	.Ldeerlapse_0_1_0_v3_BB88_5
.Ldeerlapse_0_1_0_v3_BB88_2:
	xorl	%ebx, %ebx
.Ldeerlapse_0_1_0_v3_BB88_5:                               # %"deerlapse::record_key::deerlapse_record_key_init.exit"
	movl	%ebx, %eax
	addq	$16, %rsp
	.cfi_def_cfa_offset 32
	popq	%rbx
	.cfi_def_cfa_offset 24
	popq	%r14
	.cfi_def_cfa_offset 16
	popq	%r15
	.cfi_def_cfa_offset 8
	retq
.Ldeerlapse_0_1_0_v3_func_end88:
	.cfi_endproc
                                        # -- End function
	.section	.text.deerlapse_0_1_0_v3_seal,"ax",@progbits
	.ifdef	deerlapse_in_rust
	.globl	deerlapse_0_1_0_v3_seal                  # -- Begin function deerlapse_0_1_0_v3_seal
	.p2align	4
	.type	deerlapse_0_1_0_v3_seal,@function
deerlapse_0_1_0_v3_seal:                         # @deerlapse_0_1_0_v3_seal
	.size	deerlapse_0_1_0_v3_seal, .Ldeerlapse_0_1_0_v3_func_end89-deerlapse_0_1_0_v3_seal
	.else
	.globl	deerlapse_seal                  # -- Begin function deerlapse_seal
	.p2align	4
	.type	deerlapse_seal,@function
deerlapse_seal:                         # @deerlapse_seal
	.size	deerlapse_seal, .Ldeerlapse_0_1_0_v3_func_end89-deerlapse_seal
	.endif
	.cfi_startproc
# %bb.0:                                # %start
	endbr64
	pushq	%rbp
	.cfi_def_cfa_offset 16
	pushq	%r15
	.cfi_def_cfa_offset 24
	pushq	%r14
	.cfi_def_cfa_offset 32
	pushq	%r13
	.cfi_def_cfa_offset 40
	pushq	%r12
	.cfi_def_cfa_offset 48
	pushq	%rbx
	.cfi_def_cfa_offset 56
	subq	$3072, %rsp                     # imm = 0xC00
	.cfi_adjust_cfa_offset 3072
	movq	$0, (%rsp)
	subq	$184, %rsp
	.cfi_def_cfa_offset 3312
	.cfi_offset %rbx, -56
	.cfi_offset %r12, -48
	.cfi_offset %r13, -40
	.cfi_offset %r14, -32
	.cfi_offset %r15, -24
	.cfi_offset %rbp, -16
	movq	%r8, 32(%rsp)                   # 8-byte Spill
	movq	%rcx, %r15
	movq	%rdx, 24(%rsp)                  # 8-byte Spill
	movq	%rsi, %rbp
	movq	%rdi, %r13
	xorl	%ebx, %ebx
	testq	%rdi, %rdi
	sete	21(%rsp)                        # 1-byte Folded Spill
	xorl	%r12d, %r12d
	testq	%rcx, %rcx
	sete	22(%rsp)                        # 1-byte Folded Spill
	xorl	%r14d, %r14d
	movq	%r9, 40(%rsp)                   # 8-byte Spill
	testq	%r9, %r9
	sete	23(%rsp)                        # 1-byte Folded Spill
	leaq	64(%rsp), %rdi
	movl	$3192, %edx                     # imm = 0xC78
	xorl	%esi, %esi
	callq	memset@PLT
	cmpq	$32, %rbp
	je	.Ldeerlapse_0_1_0_v3_BB89_1
# %bb.2:                                # %start
	xorl	%eax, %eax
	cmpq	$16, %rbp
	je	.Ldeerlapse_0_1_0_v3_BB89_3
	jmp	.Ldeerlapse_0_1_0_v3_BB89_4
.Ldeerlapse_0_1_0_v3_BB89_1:
	movb	$1, %al
.Ldeerlapse_0_1_0_v3_BB89_3:                               # %then.1.i.i
	movzbl	21(%rsp), %ecx                  # 1-byte Folded Reload
	movb	%cl, %bl
	shll	$12, %ebx
	addq	%rbx, %r13
	movzbl	22(%rsp), %ecx                  # 1-byte Folded Reload
	movb	%cl, %r12b
	shll	$12, %r12d
	addq	%r12, %r15
	movzbl	23(%rsp), %ecx                  # 1-byte Folded Reload
	movb	%cl, %r14b
	shll	$12, %r14d
	movq	40(%rsp), %rbx                  # 8-byte Reload
	addq	%r14, %rbx
	vxorps	%xmm0, %xmm0, %xmm0
	vmovaps	%xmm0, 48(%rsp)
	movzbl	%al, %esi
	leaq	64(%rsp), %rbp
	leaq	48(%rsp), %r8
	movq	%rbp, %rdi
	movq	%r13, %rdx
	movl	$1, %ecx
	callq	"deerlapse_0_1_0_v3::aead_ciphers_wide::aes_gcm::ExpandedKey::expand_with_width"
	movq	3320(%rsp), %rax
	movq	%rax, (%rsp)
	movq	%rbp, %rdi
	movq	24(%rsp), %rsi                  # 8-byte Reload
	movq	%r15, %rdx
	movq	32(%rsp), %rcx                  # 8-byte Reload
	movq	%rbx, %r8
	movq	3312(%rsp), %r9
	callq	"deerlapse_0_1_0_v3::deerlapse::key::deerlapse_key_seal"
                                        # kill: def $al killed $al def $eax
.Ldeerlapse_0_1_0_v3_BB89_4:                               # %"deerlapse::aes_gcm::deerlapse_seal.exit"
                                        # kill: def $al killed $al killed $eax
	addq	$3256, %rsp                     # imm = 0xCB8
	.cfi_def_cfa_offset 56
	popq	%rbx
	.cfi_def_cfa_offset 48
	popq	%r12
	.cfi_def_cfa_offset 40
	popq	%r13
	.cfi_def_cfa_offset 32
	popq	%r14
	.cfi_def_cfa_offset 24
	popq	%r15
	.cfi_def_cfa_offset 16
	popq	%rbp
	.cfi_def_cfa_offset 8
	retq
.Ldeerlapse_0_1_0_v3_func_end89:
	.cfi_endproc
                                        # -- End function
	.section	.text.deerlapse_0_1_0_v3_sealer_init,"ax",@progbits
	.ifdef	deerlapse_in_rust
	.globl	deerlapse_0_1_0_v3_sealer_init           # -- Begin function deerlapse_0_1_0_v3_sealer_init
	.p2align	4
	.type	deerlapse_0_1_0_v3_sealer_init,@function
deerlapse_0_1_0_v3_sealer_init:                  # @deerlapse_0_1_0_v3_sealer_init
	.size	deerlapse_0_1_0_v3_sealer_init, .Ldeerlapse_0_1_0_v3_func_end90-deerlapse_0_1_0_v3_sealer_init
	.else
	.globl	deerlapse_sealer_init           # -- Begin function deerlapse_sealer_init
	.p2align	4
	.type	deerlapse_sealer_init,@function
deerlapse_sealer_init:                  # @deerlapse_sealer_init
	.size	deerlapse_sealer_init, .Ldeerlapse_0_1_0_v3_func_end90-deerlapse_sealer_init
	.endif
	.cfi_startproc
# %bb.0:                                # %start
	endbr64
	xorl	%eax, %eax
	testq	%rsi, %rsi
	sete	%r10b
	cmpq	$32, %rdx
	je	.Ldeerlapse_0_1_0_v3_BB90_4
# %bb.1:                                # %start
	cmpq	$16, %rdx
	jne	.Ldeerlapse_0_1_0_v3_BB90_6
# %bb.2:                                # %join.3.fold.split.i.i.i
	xorl	%edx, %edx
	cmpq	%r8, %r9
	jae	.Ldeerlapse_0_1_0_v3_BB90_5
.Ldeerlapse_0_1_0_v3_BB90_6:
	xorl	%eax, %eax
                                        # kill: def $al killed $al killed $eax
	retq
.Ldeerlapse_0_1_0_v3_BB90_4:
	movb	$1, %dl
	cmpq	%r8, %r9
	jb	.Ldeerlapse_0_1_0_v3_BB90_6
.Ldeerlapse_0_1_0_v3_BB90_5:                               # %join.7.i.i
	pushq	%r15
	.cfi_def_cfa_offset 16
	pushq	%r14
	.cfi_def_cfa_offset 24
	pushq	%r12
	.cfi_def_cfa_offset 32
	pushq	%rbx
	.cfi_def_cfa_offset 40
	subq	$24, %rsp
	.cfi_def_cfa_offset 64
	.cfi_offset %rbx, -40
	.cfi_offset %r12, -32
	.cfi_offset %r14, -24
	.cfi_offset %r15, -16
	movb	%r10b, %al
	shll	$12, %eax
	addq	%rax, %rsi
	vxorps	%xmm0, %xmm0, %xmm0
	vmovaps	%xmm0, (%rsp)
	movzbl	%dl, %eax
	movq	%rsp, %r10
	movq	%rdi, %rbx
	movq	%rsi, %rdx
	movl	%eax, %esi
	movq	%rcx, %r14
	movl	$1, %ecx
	movq	%r8, %r15
	movq	%r10, %r8
	movq	%r9, %r12
	callq	"deerlapse_0_1_0_v3::aead_ciphers_wide::aes_gcm::ExpandedKey::expand_with_width"
	movq	%r15, 3192(%rbx)
	movq	%r12, 3200(%rbx)
	movq	(%r14), %rax
	movl	8(%r14), %ecx
	movl	%ecx, 3216(%rbx)
	movq	%rax, 3208(%rbx)
	vxorps	%xmm0, %xmm0, %xmm0
	vmovups	%ymm0, 3220(%rbx)
	vmovups	%ymm0, 3252(%rbx)
	vmovups	%ymm0, 3284(%rbx)
	vmovups	%ymm0, 3316(%rbx)
	vmovups	%ymm0, 3348(%rbx)
	vmovups	%ymm0, 3380(%rbx)
	vmovups	%ymm0, 3408(%rbx)
	movb	$1, %al
	addq	$24, %rsp
	.cfi_def_cfa_offset 40
	popq	%rbx
	.cfi_def_cfa_offset 32
	popq	%r12
	.cfi_def_cfa_offset 24
	popq	%r14
	.cfi_def_cfa_offset 16
	popq	%r15
	.cfi_def_cfa_offset 8
	.cfi_restore %rbx
	.cfi_restore %r12
	.cfi_restore %r14
	.cfi_restore %r15
                                        # kill: def $al killed $al killed $eax
	vzeroupper
	retq
.Ldeerlapse_0_1_0_v3_func_end90:
	.cfi_endproc
                                        # -- End function
	.section	.rodata.cst16,"aM",@progbits,16
	.p2align	4, 0x0                          # -- Begin function deerlapse_0_1_0_v3_xaes_init
.Ldeerlapse_0_1_0_v3_CPI91_0:
	.zero	1
	.zero	1
	.zero	1
	.zero	1
	.byte	3                               # 0x3
	.byte	2                               # 0x2
	.byte	0                               # 0x0
	.byte	8                               # 0x8
	.zero	1
	.zero	1
	.zero	1
	.zero	1
	.zero	1
	.zero	1
	.zero	1
	.zero	1
.Ldeerlapse_0_1_0_v3_CPI91_1:
	.zero	1
	.zero	1
	.byte	0                               # 0x0
	.byte	8                               # 0x8
	.zero	1
	.zero	1
	.zero	1
	.zero	1
	.zero	1
	.zero	1
	.zero	1
	.zero	1
	.zero	1
	.zero	1
	.zero	1
	.zero	1
	.section	.rodata.cst4,"aM",@progbits,4
	.p2align	2, 0x0
.Ldeerlapse_0_1_0_v3_CPI91_2:
	.byte	3                               # 0x3
	.byte	2                               # 0x2
	.byte	0                               # 0x0
	.byte	8                               # 0x8
	.section	.text.deerlapse_0_1_0_v3_xaes_init,"ax",@progbits
	.ifdef	deerlapse_in_rust
	.globl	deerlapse_0_1_0_v3_xaes_init
	.p2align	4
	.type	deerlapse_0_1_0_v3_xaes_init,@function
deerlapse_0_1_0_v3_xaes_init:                    # @deerlapse_0_1_0_v3_xaes_init
	.size	deerlapse_0_1_0_v3_xaes_init, .Ldeerlapse_0_1_0_v3_func_end91-deerlapse_0_1_0_v3_xaes_init
	.else
	.globl	deerlapse_xaes_init
	.p2align	4
	.type	deerlapse_xaes_init,@function
deerlapse_xaes_init:                    # @deerlapse_xaes_init
	.size	deerlapse_xaes_init, .Ldeerlapse_0_1_0_v3_func_end91-deerlapse_xaes_init
	.endif
	.cfi_startproc
# %bb.0:                                # %start
	endbr64
	pushq	%r14
	.cfi_def_cfa_offset 16
	pushq	%rbx
	.cfi_def_cfa_offset 24
	subq	$40, %rsp
	.cfi_def_cfa_offset 64
	.cfi_offset %rbx, -24
	.cfi_offset %r14, -16
	movq	%rsi, %rdx
	movq	%rdi, %rbx
	leaq	8(%rdi), %r14
	movq	%r14, %rdi
	movl	$1, %esi
	callq	"deerlapse_0_1_0_v3::aead_ciphers_wide::aes::expand"
	movl	%eax, (%rbx)
	movl	$256, 4(%rbx)                   # imm = 0x100
	vxorps	%xmm0, %xmm0, %xmm0
	vmovaps	%xmm0, 16(%rsp)
	vmovaps	%xmm0, (%rsp)
	movq	%rsp, %rdi
	leaq	16(%rsp), %rcx
	movq	%r14, %rsi
	movq	%rax, %rdx
	callq	"deerlapse_0_1_0_v3::aead_ciphers_wide::aes::block_key::BlockKeyRef::encrypt_one"
	movbeq	8(%rsp), %rcx
	movbeq	(%rsp), %rdx
	movq	%rdx, %rsi
	shldq	$1, %rcx, %rsi
	leal	(%rcx,%rcx), %edi
	leaq	(%rdx,%rdx), %r8
	movq	%rdx, %rax
	sarq	$63, %rax
	andl	$135, %eax
	xorl	%edi, %eax
	movq	%r8, %rdi
	shrq	$40, %rdi
	shrq	$31, %rdx
	movq	%r8, %r9
	shrq	$56, %r9
	vmovq	%r8, %xmm0
	shrq	$48, %r8
	vpbroadcastd	.Ldeerlapse_0_1_0_v3_CPI91_2(%rip), %xmm1  # xmm1 = [3,2,0,8,3,2,0,8,3,2,0,8,3,2,0,8]
	vpshufb	%xmm1, %xmm0, %xmm2
	vmovq	%rsi, %xmm3
	vpsrlq	$8, %xmm0, %xmm0
	vpunpcklqdq	%xmm3, %xmm0, %xmm0     # xmm0 = xmm0[0],xmm3[0]
	vpshufb	%xmm1, %xmm0, %xmm0
	vpblendw	$8, %xmm0, %xmm2, %xmm0         # xmm0 = xmm2[0,1,2],xmm0[3],xmm2[4,5,6,7]
	vmovd	%r8d, %xmm1
	vmovd	%edx, %xmm2
	vmovd	%edi, %xmm3
	vpunpcklqdq	%xmm2, %xmm3, %xmm2     # xmm2 = xmm3[0],xmm2[0]
	vmovd	%r9d, %xmm3
	vpshufb	.Ldeerlapse_0_1_0_v3_CPI91_1(%rip), %xmm2, %xmm2   # xmm2 = xmm2[u,u,0,8,u,u,u,u,u,u,u,u,u,u,u,u]
	vpunpcklbw	%xmm1, %xmm3, %xmm1     # xmm1 = xmm3[0],xmm1[0],xmm3[1],xmm1[1],xmm3[2],xmm1[2],xmm3[3],xmm1[3],xmm3[4],xmm1[4],xmm3[5],xmm1[5],xmm3[6],xmm1[6],xmm3[7],xmm1[7]
	vpblendw	$2, %xmm2, %xmm1, %xmm1         # xmm1 = xmm1[0],xmm2[1],xmm1[2,3,4,5,6,7]
	movl	%ecx, %edx
	shrl	$7, %edx
	movl	%ecx, %esi
	shrl	$15, %esi
	movl	%ecx, %edi
	shrl	$23, %edi
	movq	%rcx, %r8
	shrq	$31, %r8
	movq	%rcx, %r9
	shrq	$39, %r9
	movq	%rcx, %r10
	shrq	$47, %r10
	shrq	$55, %rcx
	vmovd	%ecx, %xmm2
	vpinsrb	$1, %r10d, %xmm2, %xmm2
	vpinsrb	$2, %r9d, %xmm2, %xmm2
	vpinsrb	$3, %r8d, %xmm2, %xmm2
	vpinsrb	$4, %edi, %xmm2, %xmm2
	vpinsrb	$5, %esi, %xmm2, %xmm2
	vpinsrb	$6, %edx, %xmm2, %xmm2
	vpinsrb	$7, %eax, %xmm2, %xmm2
	vpblendd	$2, %xmm0, %xmm1, %xmm0         # xmm0 = xmm1[0],xmm0[1],xmm1[2,3]
	vpunpcklqdq	%xmm2, %xmm0, %xmm0     # xmm0 = xmm0[0],xmm2[0]
	vmovdqu	%xmm0, 248(%rbx)
	addq	$40, %rsp
	.cfi_def_cfa_offset 24
	popq	%rbx
	.cfi_def_cfa_offset 16
	popq	%r14
	.cfi_def_cfa_offset 8
	retq
.Ldeerlapse_0_1_0_v3_func_end91:
	.cfi_endproc
                                        # -- End function
	.section	.text.deerlapse_0_1_0_v3_opener_wipe,"ax",@progbits
	.ifdef	deerlapse_in_rust
	.globl	deerlapse_0_1_0_v3_opener_wipe           # -- Begin function deerlapse_0_1_0_v3_opener_wipe
	.p2align	4
	.type	deerlapse_0_1_0_v3_opener_wipe,@function
deerlapse_0_1_0_v3_opener_wipe:                  # @deerlapse_0_1_0_v3_opener_wipe
	.size	deerlapse_0_1_0_v3_opener_wipe, .Ldeerlapse_0_1_0_v3_func_end92-deerlapse_0_1_0_v3_opener_wipe
	.else
	.globl	deerlapse_opener_wipe           # -- Begin function deerlapse_opener_wipe
	.p2align	4
	.type	deerlapse_opener_wipe,@function
deerlapse_opener_wipe:                  # @deerlapse_opener_wipe
	.size	deerlapse_opener_wipe, .Ldeerlapse_0_1_0_v3_func_end92-deerlapse_opener_wipe
	.endif
	.cfi_startproc
# %bb.0:                                # %start
	endbr64
	movl	$3440, %edx                     # imm = 0xD70
	xorl	%esi, %esi
	jmp	memset@PLT                      # TAILCALL
.Ldeerlapse_0_1_0_v3_func_end92:
	.cfi_endproc
                                        # -- End function
	.section	.text.deerlapse_0_1_0_v3_sealer_wipe,"ax",@progbits
	.ifdef	deerlapse_in_rust
	.globl	deerlapse_0_1_0_v3_sealer_wipe           # -- Begin function deerlapse_0_1_0_v3_sealer_wipe
	.p2align	4
	.type	deerlapse_0_1_0_v3_sealer_wipe,@function
deerlapse_0_1_0_v3_sealer_wipe:                  # @deerlapse_0_1_0_v3_sealer_wipe
	.size	deerlapse_0_1_0_v3_sealer_wipe, .Ldeerlapse_0_1_0_v3_func_end93-deerlapse_0_1_0_v3_sealer_wipe
	.else
	.globl	deerlapse_sealer_wipe           # -- Begin function deerlapse_sealer_wipe
	.p2align	4
	.type	deerlapse_sealer_wipe,@function
deerlapse_sealer_wipe:                  # @deerlapse_sealer_wipe
	.size	deerlapse_sealer_wipe, .Ldeerlapse_0_1_0_v3_func_end93-deerlapse_sealer_wipe
	.endif
	.cfi_startproc
# %bb.0:                                # %start
	endbr64
	movl	$3440, %edx                     # imm = 0xD70
	xorl	%esi, %esi
	jmp	memset@PLT                      # TAILCALL
.Ldeerlapse_0_1_0_v3_func_end93:
	.cfi_endproc
                                        # -- End function
	.section	.text.deerlapse_0_1_0_v3_quic_key_wipe,"ax",@progbits
	.ifdef	deerlapse_in_rust
	.globl	deerlapse_0_1_0_v3_quic_key_wipe         # -- Begin function deerlapse_0_1_0_v3_quic_key_wipe
	.p2align	4
	.type	deerlapse_0_1_0_v3_quic_key_wipe,@function
deerlapse_0_1_0_v3_quic_key_wipe:                # @deerlapse_0_1_0_v3_quic_key_wipe
	.size	deerlapse_0_1_0_v3_quic_key_wipe, .Ldeerlapse_0_1_0_v3_func_end94-deerlapse_0_1_0_v3_quic_key_wipe
	.else
	.globl	deerlapse_quic_key_wipe         # -- Begin function deerlapse_quic_key_wipe
	.p2align	4
	.type	deerlapse_quic_key_wipe,@function
deerlapse_quic_key_wipe:                # @deerlapse_quic_key_wipe
	.size	deerlapse_quic_key_wipe, .Ldeerlapse_0_1_0_v3_func_end94-deerlapse_quic_key_wipe
	.endif
	.cfi_startproc
# %bb.0:                                # %start
	endbr64
	movl	$3208, %edx                     # imm = 0xC88
	xorl	%esi, %esi
	jmp	memset@PLT                      # TAILCALL
.Ldeerlapse_0_1_0_v3_func_end94:
	.cfi_endproc
                                        # -- End function
	.section	.text.deerlapse_0_1_0_v3_record_key_wipe,"ax",@progbits
	.ifdef	deerlapse_in_rust
	.globl	deerlapse_0_1_0_v3_record_key_wipe       # -- Begin function deerlapse_0_1_0_v3_record_key_wipe
	.p2align	4
	.type	deerlapse_0_1_0_v3_record_key_wipe,@function
deerlapse_0_1_0_v3_record_key_wipe:              # @deerlapse_0_1_0_v3_record_key_wipe
	.size	deerlapse_0_1_0_v3_record_key_wipe, .Ldeerlapse_0_1_0_v3_func_end95-deerlapse_0_1_0_v3_record_key_wipe
	.else
	.globl	deerlapse_record_key_wipe       # -- Begin function deerlapse_record_key_wipe
	.p2align	4
	.type	deerlapse_record_key_wipe,@function
deerlapse_record_key_wipe:              # @deerlapse_record_key_wipe
	.size	deerlapse_record_key_wipe, .Ldeerlapse_0_1_0_v3_func_end95-deerlapse_record_key_wipe
	.endif
	.cfi_startproc
# %bb.0:                                # %start
	endbr64
	movl	$3208, %edx                     # imm = 0xC88
	xorl	%esi, %esi
	jmp	memset@PLT                      # TAILCALL
.Ldeerlapse_0_1_0_v3_func_end95:
	.cfi_endproc
                                        # -- End function
	.type	.Ldeerlapse_0_1_0_v3_static.0,@object              # @static.0
	.section	.rodata,"a",@progbits
.Ldeerlapse_0_1_0_v3_static.0:
	.asciz	"\200\000\000\000\000\000\000\000\000\000\000\000\000\000\000\000\000\000\000\000\000\000\000\000\000\000\000\000\000\000\000\000\000\000\000\000\000\000\000\000\000\000\000\000\000\000\000\000\000\000\000\000\000\000\000\000\000\000\000\000\000\000\000"
	.size	.Ldeerlapse_0_1_0_v3_static.0, 64

	.type	.Ldeerlapse_0_1_0_v3_static.1,@object              # @static.1
	.p2align	2, 0x0
.Ldeerlapse_0_1_0_v3_static.1:
	.ascii	"\230/\212B\221D7q\317\373\300\265\245\333\265\351[\302V9\361\021\361Y\244\202?\222\325^\034\253\230\252\007\330\001[\203\022\276\2051$\303}\fUt]\276r\376\261\336\200\247\006\334\233t\361\233\301\301i\233\344\206G\276\357\306\235\301\017\314\241\f$o,\351-\252\204tJ\334\251\260\\\332\210\371vRQ>\230m\3061\250\310'\003\260\307\177Y\277\363\013\340\306G\221\247\325Qc\312\006g))\024\205\n\267'8!\033.\374m,M\023\r8STs\ne\273\njv.\311\302\201\205,r\222\241\350\277\242Kf\032\250p\213K\302\243Ql\307\031\350\222\321$\006\231\326\2055\016\364p\240j\020\026\301\244\031\bl7\036LwH'\265\274\2604\263\f\0349J\252\330NO\312\234[\363o.h\356\202\217toc\245x\024x\310\204\b\002\307\214\372\377\276\220\353lP\244\367\243\371\276\362xq\306"
	.size	.Ldeerlapse_0_1_0_v3_static.1, 256

	.type	.Ldeerlapse_0_1_0_v3_static.2,@object              # @static.2
.Ldeerlapse_0_1_0_v3_static.2:
	.asciz	"\200\000\000\000\000\000\000\000\000\000\000\000\000\000\000\000\000\000\000\000\000\000\000\000\000\000\000\000\000\000\000\000\000\000\000\000\000\000\000\000\000\000\000\000\000\000\000\000\000\000\000\000\000\000\000\000\000\000\000\000\000\000\000\000\000\000\000\000\000\000\000\000\000\000\000\000\000\000\000\000\000\000\000\000\000\000\000\000\000\000\000\000\000\000\000\000\000\000\000\000\000\000\000\000\000\000\000\000\000\000\000\000\000\000\000\000\000\000\000\000\000\000\000\000\000\000\000"
	.size	.Ldeerlapse_0_1_0_v3_static.2, 128

	.type	.Ldeerlapse_0_1_0_v3_static.3,@object              # @static.3
	.p2align	3, 0x0
.Ldeerlapse_0_1_0_v3_static.3:
	.ascii	"\"\256(\327\230/\212B\315e\357#\221D7q/;M\354\317\373\300\265\274\333\211\201\245\333\265\3518\265H\363[\302V9\031\320\005\266\361\021\361Y\233O\031\257\244\202?\222\030\201m\332\325^\034\253B\002\003\243\230\252\007\330\276opE\001[\203\022\214\262\344N\276\2051$\342\264\377\325\303}\fUo\211{\362t]\276r\261\226\026;\376\261\336\2005\022\307%\247\006\334\233\224&i\317t\361\233\301\322J\361\236\301i\233\344\343%O8\206G\276\357\265\325\214\213\306\235\301\017e\234\254w\314\241\f$u\002+Yo,\351-\203\344\246n\252\204tJ\324\373A\275\334\251\260\\\265S\021\203\332\210\371v\253\337f\356RQ>\230\0202\264-m\3061\250?!\373\230\310'\003\260\344\016\357\276\307\177Y\277\302\217\250=\363\013\340\306%\247\n\223G\221\247\325o\202\003\340Qc\312\006pn\016\ng))\024\374/\322F\205\n\267'&\311&\\8!\033.\355*\304Z\374m,M\337\263\225\235\023\r8S\336c\257\213Ts\ne\250\262w<\273\njv\346\256\355G.\311\302\201;5\202\024\205,r\222d\003\361L\241\350\277\242\0010B\274Kf\032\250\221\227\370\320p\213K\3020\276T\006\243Ql\307\030R\357\326\031\350\222\321\020\251eU$\006\231\326* qW\2055\016\364\270\321\2732p\240j\020\310\320\322\270\026\301\244\031S\253AQ\bl7\036\231\353\216\337LwH'\250H\233\341\265\274\2604cZ\311\305\263\f\0349\313\212A\343J\252\330Ns\343cwO\312\234[\243\270\262\326\363o.h\374\262\357]\356\202\217t`/\027Coc\245xr\253\360\241\024x\310\204\3549d\032\b\002\307\214(\036c#\372\377\276\220\351\275\202\336\353lP\244\025y\306\262\367\243\371\276+Sr\343\362xq\306\234a&\352\316>'\312\007\302\300!\307\270\206\321\036\353\340\315\326}\332\352x\321n\356\177O}\365\272o\027r\252g\360\006\246\230\310\242\305}c\n\256\r\371\276\004\230?\021\033G\034\0235\013q\033\204}\004#\365w\333(\223$\307@{\253\3122\274\276\311\025\n\276\236<L\r\020\234\304g\035C\266B>\313\276\324\305L*~e\374\234)\177Y\354\372\326:\253o\313_\027XGJ\214\031Dl"
	.size	.Ldeerlapse_0_1_0_v3_static.3, 640

	.type	.Ldeerlapse_0_1_0_v3_static.4,@object              # @static.4
.Ldeerlapse_0_1_0_v3_static.4:
	.ascii	"\001\002\004\b\020 @\200\0336"
	.size	.Ldeerlapse_0_1_0_v3_static.4, 10

	.type	.Ldeerlapse_0_1_0_v3_static.5,@object              # @static.5
.Ldeerlapse_0_1_0_v3_static.5:
	.ascii	"client in"
	.size	.Ldeerlapse_0_1_0_v3_static.5, 9

	.type	.Ldeerlapse_0_1_0_v3_static.6,@object              # @static.6
.Ldeerlapse_0_1_0_v3_static.6:
	.size	.Ldeerlapse_0_1_0_v3_static.6, 0

	.type	.Ldeerlapse_0_1_0_v3_static.7,@object              # @static.7
.Ldeerlapse_0_1_0_v3_static.7:
	.ascii	"tls13 "
	.size	.Ldeerlapse_0_1_0_v3_static.7, 6

	.type	.Ldeerlapse_0_1_0_v3_static.8,@object              # @static.8
.Ldeerlapse_0_1_0_v3_static.8:
	.ascii	"server in"
	.size	.Ldeerlapse_0_1_0_v3_static.8, 9

	.type	.Ldeerlapse_0_1_0_v3_static.10,@object             # @static.10
.Ldeerlapse_0_1_0_v3_static.10:
	.ascii	"quic hp"
	.size	.Ldeerlapse_0_1_0_v3_static.10, 7

	.type	.Ldeerlapse_0_1_0_v3_static.11,@object             # @static.11
.Ldeerlapse_0_1_0_v3_static.11:
	.ascii	"quicv2 hp"
	.size	.Ldeerlapse_0_1_0_v3_static.11, 9

	.type	.Ldeerlapse_0_1_0_v3_static.12,@object             # @static.12
.Ldeerlapse_0_1_0_v3_static.12:
	.ascii	"quic ku"
	.size	.Ldeerlapse_0_1_0_v3_static.12, 7

	.type	.Ldeerlapse_0_1_0_v3_static.13,@object             # @static.13
.Ldeerlapse_0_1_0_v3_static.13:
	.ascii	"quicv2 ku"
	.size	.Ldeerlapse_0_1_0_v3_static.13, 9

	.type	.Ldeerlapse_0_1_0_v3_static.14,@object             # @static.14
.Ldeerlapse_0_1_0_v3_static.14:
	.ascii	"traffic upd"
	.size	.Ldeerlapse_0_1_0_v3_static.14, 11

	.type	.Ldeerlapse_0_1_0_v3_static.15,@object             # @static.15
	.section	.rodata.cst8,"aM",@progbits,8
.Ldeerlapse_0_1_0_v3_static.15:
	.ascii	"quic key"
	.size	.Ldeerlapse_0_1_0_v3_static.15, 8

	.type	.Ldeerlapse_0_1_0_v3_static.16,@object             # @static.16
	.section	.rodata,"a",@progbits
.Ldeerlapse_0_1_0_v3_static.16:
	.ascii	"quicv2 key"
	.size	.Ldeerlapse_0_1_0_v3_static.16, 10

	.type	.Ldeerlapse_0_1_0_v3_static.17,@object             # @static.17
.Ldeerlapse_0_1_0_v3_static.17:
	.ascii	"quic iv"
	.size	.Ldeerlapse_0_1_0_v3_static.17, 7

	.type	.Ldeerlapse_0_1_0_v3_static.18,@object             # @static.18
.Ldeerlapse_0_1_0_v3_static.18:
	.ascii	"quicv2 iv"
	.size	.Ldeerlapse_0_1_0_v3_static.18, 9

	.type	.Ldeerlapse_0_1_0_v3_static.19,@object             # @static.19
.Ldeerlapse_0_1_0_v3_static.19:
	.ascii	"key"
	.size	.Ldeerlapse_0_1_0_v3_static.19, 3

	.type	.Ldeerlapse_0_1_0_v3_static.20,@object             # @static.20
.Ldeerlapse_0_1_0_v3_static.20:
	.ascii	"iv"
	.size	.Ldeerlapse_0_1_0_v3_static.20, 2

	.ident	"rattle logic=dac8208d650f15bf3e2dc313a14fa4c783a3acf887bdfab66e1714b038d9e11b"
	.section	".note.GNU-stack","",@progbits
