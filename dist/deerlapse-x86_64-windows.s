	.file	"rattle"
	.def	"deerlapse_0_1_0::deerlapse::hkdf::deerlapse_hmac";
	.scl	3;
	.type	32;
	.endef
	.text
"deerlapse_0_1_0::deerlapse::hkdf::deerlapse_hmac":      # -- Begin function deerlapse::hkdf::deerlapse_0_1_0_hmac
                                        # @"deerlapse_0_1_0::deerlapse::hkdf::deerlapse_hmac"
.seh_proc "deerlapse_0_1_0::deerlapse::hkdf::deerlapse_hmac"
# %bb.0:                                # %start
	pushq	%r15
	.seh_pushreg %r15
	pushq	%r14
	.seh_pushreg %r14
	pushq	%r12
	.seh_pushreg %r12
	pushq	%rsi
	.seh_pushreg %rsi
	pushq	%rdi
	.seh_pushreg %rdi
	pushq	%rbx
	.seh_pushreg %rbx
	subq	$984, %rsp                      # imm = 0x3D8
	.seh_stackalloc 984
	movaps	%xmm6, 960(%rsp)                # 16-byte Spill
	.seh_savexmm %xmm6, 960
	.seh_endprologue
	movq	%r9, %r14
	movq	%r8, %rbx
	movq	%rdx, %r8
	movq	%rcx, %rdx
	movq	1080(%rsp), %rax
	movq	1072(%rsp), %r12
	cmpq	$48, %rax
	je	.Ldeerlapse_0_1_0_BB0_4
# %bb.1:                                # %start
	cmpq	$32, %rax
	jne	.Ldeerlapse_0_1_0_BB0_2
# %bb.3:                                # %arm.1
	movq	%r14, 32(%rsp)
	leaq	48(%rsp), %rsi
	movq	%rsi, %rcx
	movq	%rbx, %r9
	callq	"deerlapse_0_1_0::key_derivation::hmac::hmac::<#7cab53feae2e1c66>"
	movups	(%rsi), %xmm0
	movups	16(%rsi), %xmm1
	jmp	.Ldeerlapse_0_1_0_BB0_5
.Ldeerlapse_0_1_0_BB0_4:                                # %arm.2
	leaq	544(%rsp), %r15
	movq	%r15, %rcx
	callq	"deerlapse_0_1_0::key_derivation::hmac::HmacKey::new::<#01e4f4eb65b1d8bb>"
	movaps	(%r15), %xmm0
	movaps	16(%r15), %xmm1
	movaps	32(%r15), %xmm2
	movaps	48(%r15), %xmm3
	leaq	192(%rsp), %rdi
	movaps	%xmm3, -16(%rdi)
	movaps	%xmm2, -32(%rdi)
	movaps	%xmm1, -48(%rdi)
	movaps	%xmm0, -64(%rdi)
	leaq	608(%rsp), %rax
	movl	$16, %ecx
	movq	%rax, %rsi
	rep;movsq (%rsi), %es:(%rdi)
	movaps	128(%rax), %xmm6
	leaq	351(%rsp), %rsi
	leaq	128(%rsp), %rdx
	movl	$192, %r8d
	movq	%rsi, %rcx
	callq	memcpy
	leaq	143(%rsp), %rdi
	movl	$192, %r8d
	movq	%rdi, %rcx
	movq	%rsi, %rdx
	callq	memcpy
	leaq	336(%rsp), %rsi
	movl	$192, %r8d
	movq	%rsi, %rcx
	movq	%rdi, %rdx
	callq	memcpy
	movaps	%xmm6, 192(%rsi)
	movq	%rsi, %rcx
	movq	%rbx, %rdx
	movq	%r14, %r8
	callq	"deerlapse_0_1_0::sha2::block512::Core512::update"
	leaq	80(%rsp), %rdi
	movq	%rdi, %rcx
	movq	%r15, %rdx
	movq	%rsi, %r8
	callq	"deerlapse_0_1_0::key_derivation::hmac::HmacKey::finish::<#01e4f4eb65b1d8bb>"
	movups	(%rdi), %xmm0
	movups	16(%rdi), %xmm1
	movups	32(%rdi), %xmm2
	movups	%xmm2, 32(%r12)
.Ldeerlapse_0_1_0_BB0_5:                                # %common.ret
	movups	%xmm1, 16(%r12)
	movups	%xmm0, (%r12)
	movb	$1, %al
	jmp	.Ldeerlapse_0_1_0_BB0_6
.Ldeerlapse_0_1_0_BB0_2:
	xorl	%eax, %eax
.Ldeerlapse_0_1_0_BB0_6:                                # %common.ret
                                        # kill: def $al killed $al killed $eax
	movaps	960(%rsp), %xmm6                # 16-byte Reload
	addq	$984, %rsp                      # imm = 0x3D8
	popq	%rbx
	popq	%rdi
	popq	%rsi
	popq	%r12
	popq	%r14
	popq	%r15
	retq
	.seh_endproc
                                        # -- End function
	.def	"deerlapse_0_1_0::key_derivation::hmac::hmac::<#7cab53feae2e1c66>";
	.scl	3;
	.type	32;
	.endef
"deerlapse_0_1_0::key_derivation::hmac::hmac::<#7cab53feae2e1c66>": # -- Begin function key_derivation::hmac::hmac::<#7cab53feae2e1c66>
                                        # @"deerlapse_0_1_0::key_derivation::hmac::hmac::<#7cab53feae2e1c66>"
.seh_proc "deerlapse_0_1_0::key_derivation::hmac::hmac::<#7cab53feae2e1c66>"
# %bb.0:                                # %start
	pushq	%r15
	.seh_pushreg %r15
	pushq	%r14
	.seh_pushreg %r14
	pushq	%r13
	.seh_pushreg %r13
	pushq	%r12
	.seh_pushreg %r12
	pushq	%rsi
	.seh_pushreg %rsi
	pushq	%rdi
	.seh_pushreg %rdi
	pushq	%rbx
	.seh_pushreg %rbx
	subq	$592, %rsp                      # imm = 0x250
	.seh_stackalloc 592
	.seh_endprologue
	movq	%r9, %rbx
	movq	%rcx, %rsi
	movq	688(%rsp), %r14
	leaq	384(%rsp), %rdi
	movq	%rdi, %rcx
	callq	"deerlapse_0_1_0::key_derivation::hmac::HmacKey::new::<#7cab53feae2e1c66>"
	movups	(%rdi), %xmm0
	movups	16(%rdi), %xmm1
	movups	32(%rdi), %xmm2
	movups	48(%rdi), %xmm3
	leaq	64(%rsp), %rdx
	movaps	%xmm1, 16(%rdx)
	movaps	%xmm0, (%rdx)
	movaps	%xmm2, 32(%rdx)
	movaps	%xmm3, 48(%rdx)
	movups	64(%rdi), %xmm0
	movaps	%xmm0, 64(%rdx)
	movups	80(%rdi), %xmm0
	movaps	%xmm0, 80(%rdx)
	movq	96(%rdi), %r13
	leaq	184(%rsp), %r15
	movl	$96, %r8d
	movq	%r15, %rcx
	callq	memcpy
	leaq	71(%rsp), %r12
	movl	$96, %r8d
	movq	%r12, %rcx
	movq	%r15, %rdx
	callq	memcpy
	leaq	280(%rsp), %r15
	movl	$96, %r8d
	movq	%r15, %rcx
	movq	%r12, %rdx
	callq	memcpy
	movq	%r13, 96(%r15)
	movq	%r15, %rcx
	movq	%rbx, %rdx
	movq	%r14, %r8
	callq	"deerlapse_0_1_0::sha2::block256::Core256::update"
	leaq	32(%rsp), %rbx
	movq	%rbx, %rcx
	movq	%rdi, %rdx
	movq	%r15, %r8
	callq	"deerlapse_0_1_0::key_derivation::hmac::HmacKey::finish::<#7cab53feae2e1c66>"
	movups	(%rbx), %xmm0
	movups	16(%rbx), %xmm1
	movups	%xmm1, 16(%rsi)
	movups	%xmm0, (%rsi)
	addq	$592, %rsp                      # imm = 0x250
	popq	%rbx
	popq	%rdi
	popq	%rsi
	popq	%r12
	popq	%r13
	popq	%r14
	popq	%r15
	retq
	.seh_endproc
                                        # -- End function
	.def	"deerlapse_0_1_0::key_derivation::hmac::HmacKey::new::<#7cab53feae2e1c66>";
	.scl	3;
	.type	32;
	.endef
	.section	.rdata,"dr"
	.p2align	4, 0x0                          # -- Begin function key_derivation::hmac::HmacKey::new::<#7cab53feae2e1c66>
.Ldeerlapse_0_1_0_CPI2_0:
	.long	1779033703                      # 0x6a09e667
	.long	3144134277                      # 0xbb67ae85
	.long	1013904242                      # 0x3c6ef372
	.long	2773480762                      # 0xa54ff53a
.Ldeerlapse_0_1_0_CPI2_1:
	.long	1359893119                      # 0x510e527f
	.long	2600822924                      # 0x9b05688c
	.long	528734635                       # 0x1f83d9ab
	.long	1541459225                      # 0x5be0cd19
	.text
"deerlapse_0_1_0::key_derivation::hmac::HmacKey::new::<#7cab53feae2e1c66>": # @"deerlapse_0_1_0::key_derivation::hmac::HmacKey::new::<#7cab53feae2e1c66>"
.seh_proc "deerlapse_0_1_0::key_derivation::hmac::HmacKey::new::<#7cab53feae2e1c66>"
# %bb.0:                                # %start
	pushq	%r15
	.seh_pushreg %r15
	pushq	%r14
	.seh_pushreg %r14
	pushq	%rsi
	.seh_pushreg %rsi
	pushq	%rdi
	.seh_pushreg %rdi
	pushq	%rbx
	.seh_pushreg %rbx
	subq	$864, %rsp                      # imm = 0x360
	.seh_stackalloc 864
	.seh_endprologue
	movq	%r8, %rsi
	movq	%rdx, %rdi
	movq	%rcx, %rbx
	xorl	%r14d, %r14d
	leaq	544(%rsp), %rcx
	movl	$208, %r8d
	xorl	%edx, %edx
	callq	memset
	xorps	%xmm0, %xmm0
	movaps	%xmm0, 384(%rsp)
	movaps	%xmm0, 400(%rsp)
	movaps	%xmm0, 416(%rsp)
	movaps	%xmm0, 432(%rsp)
	movaps	%xmm0, 448(%rsp)
	movaps	%xmm0, 464(%rsp)
	movaps	%xmm0, 480(%rsp)
	movaps	%xmm0, 496(%rsp)
	movaps	%xmm0, 272(%rsp)
	movaps	%xmm0, 288(%rsp)
	movaps	%xmm0, 304(%rsp)
	movaps	%xmm0, 320(%rsp)
	movaps	%xmm0, 336(%rsp)
	movaps	%xmm0, 352(%rsp)
	movq	%r14, 368(%rsp)
	movaps	%xmm0, 160(%rsp)
	movaps	%xmm0, 176(%rsp)
	movaps	%xmm0, 192(%rsp)
	movaps	%xmm0, 208(%rsp)
	movaps	%xmm0, 224(%rsp)
	movaps	%xmm0, 240(%rsp)
	movq	%r14, 256(%rsp)
	movaps	%xmm0, 144(%rsp)
	movaps	%xmm0, 128(%rsp)
	movaps	%xmm0, 112(%rsp)
	movaps	%xmm0, 96(%rsp)
	movaps	%xmm0, 80(%rsp)
	movaps	%xmm0, 64(%rsp)
	movaps	%xmm0, 48(%rsp)
	movaps	%xmm0, 32(%rsp)
	cmpq	$65, %rsi
	jb	.Ldeerlapse_0_1_0_BB2_2
# %bb.1:                                # %then.1.i
	leaq	512(%rsp), %r14
	movaps	%xmm0, (%r14)
	movaps	%xmm0, 16(%r14)
	leaq	752(%rsp), %r15
	movaps	%xmm0, 32(%r15)
	movaps	%xmm0, 48(%r15)
	movaps	%xmm0, 64(%r15)
	movaps	%xmm0, 80(%r15)
	movq	$0, 96(%r15)
	movaps	.Ldeerlapse_0_1_0_CPI2_0(%rip), %xmm0           # xmm0 = [1779033703,3144134277,1013904242,2773480762]
	movaps	%xmm0, (%r15)
	movaps	.Ldeerlapse_0_1_0_CPI2_1(%rip), %xmm0           # xmm0 = [1359893119,2600822924,528734635,1541459225]
	movaps	%xmm0, 16(%r15)
	movq	%r15, %rcx
	movq	%rdi, %rdx
	movq	%rsi, %r8
	callq	"deerlapse_0_1_0::sha2::block256::Core256::update"
	movq	%r14, %rcx
	movq	%r15, %rdx
	callq	"deerlapse_0_1_0::sha2::Sha256Digest::finalize"
	movaps	(%r14), %xmm0
	movaps	16(%r14), %xmm1
	movaps	%xmm0, 32(%rsp)
	movaps	%xmm1, 48(%rsp)
	jmp	.Ldeerlapse_0_1_0_BB2_3
.Ldeerlapse_0_1_0_BB2_2:                                # %else.2.i
	leaq	32(%rsp), %rcx
	movq	%rdi, %rdx
	movq	%rsi, %r8
	callq	memcpy
.Ldeerlapse_0_1_0_BB2_3:                                # %"key_derivation::hmac::key_block::<#7cab53feae2e1c66>.exit"
	leaq	384(%rsp), %rsi
	leaq	32(%rsp), %rdx
	movl	$128, %r8d
	movq	%rsi, %rcx
	callq	memcpy
	leaq	272(%rsp), %r14
	movq	%r14, %rcx
	movq	%rsi, %rdx
	movb	$54, %r8b
	callq	"deerlapse_0_1_0::key_derivation::hmac::absorb_xored::<#7cab53feae2e1c66>"
	leaq	160(%rsp), %r15
	movq	%r15, %rcx
	movq	%rsi, %rdx
	movb	$92, %r8b
	callq	"deerlapse_0_1_0::key_derivation::hmac::absorb_xored::<#7cab53feae2e1c66>"
	leaq	544(%rsp), %rdx
	movl	$13, %ecx
	movq	%rdx, %rdi
	movq	%r14, %rsi
	rep;movsq (%rsi), %es:(%rdi)
	leaq	648(%rsp), %rdi
	movl	$13, %ecx
	movq	%r15, %rsi
	rep;movsq (%rsi), %es:(%rdi)
	movl	$208, %r8d
	movq	%rbx, %rcx
	callq	memcpy
	nop
	addq	$864, %rsp                      # imm = 0x360
	popq	%rbx
	popq	%rdi
	popq	%rsi
	popq	%r14
	popq	%r15
	retq
	.seh_endproc
                                        # -- End function
	.def	"deerlapse_0_1_0::sha2::Sha256Digest::finalize";
	.scl	3;
	.type	32;
	.endef
	.section	.rdata,"dr"
	.p2align	4, 0x0                          # -- Begin function sha2::Sha256Digest::finalize
.Ldeerlapse_0_1_0_CPI3_0:
	.byte	0                               # 0x0
	.byte	0                               # 0x0
	.byte	0                               # 0x0
	.byte	0                               # 0x0
	.byte	0                               # 0x0
	.byte	0                               # 0x0
	.byte	255                             # 0xff
	.byte	0                               # 0x0
	.byte	0                               # 0x0
	.byte	0                               # 0x0
	.byte	0                               # 0x0
	.byte	0                               # 0x0
	.byte	0                               # 0x0
	.byte	255                             # 0xff
	.byte	0                               # 0x0
	.byte	0                               # 0x0
.Ldeerlapse_0_1_0_CPI3_1:
	.byte	0                               # 0x0
	.byte	0                               # 0x0
	.byte	0                               # 0x0
	.byte	0                               # 0x0
	.byte	255                             # 0xff
	.byte	0                               # 0x0
	.byte	0                               # 0x0
	.byte	0                               # 0x0
	.byte	255                             # 0xff
	.byte	255                             # 0xff
	.byte	255                             # 0xff
	.byte	255                             # 0xff
	.byte	255                             # 0xff
	.byte	255                             # 0xff
	.byte	255                             # 0xff
	.byte	255                             # 0xff
.Ldeerlapse_0_1_0_CPI3_2:
	.byte	128                             # 0x80
	.byte	128                             # 0x80
	.byte	128                             # 0x80
	.byte	4                               # 0x4
	.byte	128                             # 0x80
	.byte	128                             # 0x80
	.byte	128                             # 0x80
	.byte	128                             # 0x80
	.byte	128                             # 0x80
	.byte	128                             # 0x80
	.byte	13                              # 0xd
	.byte	128                             # 0x80
	.byte	128                             # 0x80
	.byte	128                             # 0x80
	.byte	128                             # 0x80
	.byte	128                             # 0x80
.Ldeerlapse_0_1_0_CPI3_3:
	.byte	128                             # 0x80
	.byte	6                               # 0x6
	.byte	128                             # 0x80
	.byte	128                             # 0x80
	.byte	128                             # 0x80
	.byte	128                             # 0x80
	.byte	128                             # 0x80
	.byte	128                             # 0x80
	.byte	15                              # 0xf
	.byte	128                             # 0x80
	.byte	128                             # 0x80
	.byte	128                             # 0x80
	.byte	128                             # 0x80
	.byte	128                             # 0x80
	.byte	128                             # 0x80
	.byte	128                             # 0x80
.Ldeerlapse_0_1_0_CPI3_4:
	.byte	3                               # 0x3
	.byte	2                               # 0x2
	.byte	1                               # 0x1
	.byte	0                               # 0x0
	.byte	7                               # 0x7
	.byte	6                               # 0x6
	.byte	5                               # 0x5
	.byte	4                               # 0x4
	.byte	11                              # 0xb
	.byte	10                              # 0xa
	.byte	9                               # 0x9
	.byte	8                               # 0x8
	.byte	15                              # 0xf
	.byte	14                              # 0xe
	.byte	13                              # 0xd
	.byte	12                              # 0xc
	.text
"deerlapse_0_1_0::sha2::Sha256Digest::finalize":         # @"deerlapse_0_1_0::sha2::Sha256Digest::finalize"
.seh_proc "deerlapse_0_1_0::sha2::Sha256Digest::finalize"
# %bb.0:                                # %start
	pushq	%rsi
	.seh_pushreg %rsi
	pushq	%rdi
	.seh_pushreg %rdi
	pushq	%rbx
	.seh_pushreg %rbx
	subq	$256, %rsp                      # imm = 0x100
	.seh_stackalloc 256
	.seh_endprologue
	movq	%rcx, %rsi
	leaq	152(%rsp), %rdi
	movl	$104, %r8d
	movq	%rdi, %rcx
	callq	memcpy
	movq	96(%rdi), %rbx
	movl	$55, %r8d
	subl	%ebx, %r8d
	andl	$63, %r8d
	incq	%r8
	leaq	.Ldeerlapse_0_1_0_static.0(%rip), %rdx
	movq	%rdi, %rcx
	callq	"deerlapse_0_1_0::sha2::block256::Core256::update"
	movq	%rbx, %xmm0
	pshufd	$68, %xmm0, %xmm1               # xmm1 = xmm0[0,1,0,1]
	movdqa	%xmm0, %xmm2
	psllq	$11, %xmm2
	movdqa	%xmm1, %xmm3
	psllq	$59, %xmm3
	pblendw	$15, %xmm2, %xmm3               # xmm3 = xmm2[0,1,2,3],xmm3[4,5,6,7]
	psllq	$43, %xmm0
	movdqa	%xmm1, %xmm2
	psllq	$27, %xmm2
	pblendw	$15, %xmm0, %xmm2               # xmm2 = xmm0[0,1,2,3],xmm2[4,5,6,7]
	psllq	$3, %xmm1
	pand	.Ldeerlapse_0_1_0_CPI3_0(%rip), %xmm2
	pand	.Ldeerlapse_0_1_0_CPI3_1(%rip), %xmm3
	movdqa	%xmm1, %xmm0
	pshufb	.Ldeerlapse_0_1_0_CPI3_2(%rip), %xmm0           # xmm0 = zero,zero,zero,xmm0[4],zero,zero,zero,zero,zero,zero,xmm0[13],zero,zero,zero,zero,zero
	por	%xmm2, %xmm0
	pshufb	.Ldeerlapse_0_1_0_CPI3_3(%rip), %xmm1           # xmm1 = zero,xmm1[6],zero,zero,zero,zero,zero,zero,xmm1[15],zero,zero,zero,zero,zero,zero,zero
	por	%xmm3, %xmm1
	por	%xmm0, %xmm1
	pshufd	$238, %xmm1, %xmm0              # xmm0 = xmm1[2,3,2,3]
	por	%xmm1, %xmm0
	leaq	72(%rsp), %rdx
	movq	%xmm0, (%rdx)
	movl	$8, %r8d
	movq	%rdi, %rcx
	callq	"deerlapse_0_1_0::sha2::block256::Core256::update"
	movdqu	(%rdi), %xmm0
	movups	16(%rdi), %xmm1
	movaps	%xmm1, 96(%rsp)
	movdqa	%xmm0, 80(%rsp)
	pxor	%xmm0, %xmm0
	movdqa	%xmm0, 32(%rsp)
	movdqa	%xmm0, 48(%rsp)
	xorl	%eax, %eax
.Ldeerlapse_0_1_0_BB3_1:                                # %vector.body
                                        # =>This Inner Loop Header: Depth=1
	movdqu	80(%rsp,%rax,4), %xmm0
	pshufb	.Ldeerlapse_0_1_0_CPI3_4(%rip), %xmm0           # xmm0 = xmm0[3,2,1,0,7,6,5,4,11,10,9,8,15,14,13,12]
	movdqu	%xmm0, 32(%rsp,%rax,4)
	addq	$4, %rax
	cmpq	$8, %rax
	jne	.Ldeerlapse_0_1_0_BB3_1
# %bb.2:                                # %"sha2::block256::Core256::finalize.exit"
	movaps	32(%rsp), %xmm0
	movaps	48(%rsp), %xmm1
	movaps	%xmm1, 128(%rsp)
	movaps	%xmm0, 112(%rsp)
	movups	%xmm1, 16(%rsi)
	movups	%xmm0, (%rsi)
	addq	$256, %rsp                      # imm = 0x100
	popq	%rbx
	popq	%rdi
	popq	%rsi
	retq
	.seh_endproc
                                        # -- End function
	.def	"deerlapse_0_1_0::sha2::block256::Core256::update";
	.scl	3;
	.type	32;
	.endef
"deerlapse_0_1_0::sha2::block256::Core256::update":      # -- Begin function sha2::block256::Core256::update
                                        # @"deerlapse_0_1_0::sha2::block256::Core256::update"
.seh_proc "deerlapse_0_1_0::sha2::block256::Core256::update"
# %bb.0:                                # %start
	pushq	%r15
	.seh_pushreg %r15
	pushq	%r14
	.seh_pushreg %r14
	pushq	%r13
	.seh_pushreg %r13
	pushq	%r12
	.seh_pushreg %r12
	pushq	%rsi
	.seh_pushreg %rsi
	pushq	%rdi
	.seh_pushreg %rdi
	pushq	%rbx
	.seh_pushreg %rbx
	subq	$32, %rsp
	.seh_stackalloc 32
	.seh_endprologue
	movq	%r8, %rsi
	movq	%rdx, %rdi
	movq	%rcx, %rbx
	movq	96(%rcx), %rax
	leaq	(%rax,%r8), %rcx
	movq	%rcx, 96(%rbx)
	andq	$63, %rax
	je	.Ldeerlapse_0_1_0_BB4_1
# %bb.6:                                # %then.1
	movl	$64, %r14d
	subq	%rax, %r14
	leaq	(%rbx,%rax), %rcx
	addq	$32, %rcx
	movq	%rcx, %rax
	subq	%rdi, %rax
	cmpq	%r14, %rsi
	jae	.Ldeerlapse_0_1_0_BB4_7
# %bb.2:                                # %then.4
	cmpq	%rsi, %rax
	jae	.Ldeerlapse_0_1_0_BB4_18
# %bb.3:                                # %join.7.i.i.i.i.i.i.preheader
	xorl	%eax, %eax
.Ldeerlapse_0_1_0_BB4_4:                                # %join.7.i.i.i.i.i.i
                                        # =>This Inner Loop Header: Depth=1
	movb	(%rdi,%rax), %dl
	movb	%dl, (%rcx,%rax)
	incq	%rax
	cmpq	%rax, %rsi
	jne	.Ldeerlapse_0_1_0_BB4_4
	jmp	.Ldeerlapse_0_1_0_BB4_5
.Ldeerlapse_0_1_0_BB4_1:
	xorl	%r14d, %r14d
	jmp	.Ldeerlapse_0_1_0_BB4_11
.Ldeerlapse_0_1_0_BB4_7:                                # %join.6
	leaq	32(%rbx), %r15
	cmpq	%r14, %rax
	jae	.Ldeerlapse_0_1_0_BB4_19
# %bb.8:                                # %join.7.i.i.i.i.i.i37.preheader
	xorl	%eax, %eax
.Ldeerlapse_0_1_0_BB4_9:                                # %join.7.i.i.i.i.i.i37
                                        # =>This Inner Loop Header: Depth=1
	movb	(%rdi,%rax), %dl
	movb	%dl, (%rcx,%rax)
	incq	%rax
	cmpq	%rax, %r14
	jne	.Ldeerlapse_0_1_0_BB4_9
	jmp	.Ldeerlapse_0_1_0_BB4_10
.Ldeerlapse_0_1_0_BB4_19:                               # %apart.2.i.i.i.i.i.i36
	movq	%rdi, %rdx
	movq	%r14, %r8
	callq	memmove
.Ldeerlapse_0_1_0_BB4_10:                               # %"core::slice::edits::slice+T::copy_from_slice::<i8,20'core::clone::U8Clone{}>.exit44"
	movq	%rbx, %rcx
	movq	%r15, %rdx
	callq	"deerlapse_0_1_0::sha2::block256::compress"
.Ldeerlapse_0_1_0_BB4_11:                               # %join.3
	movq	%rsi, %r12
	subq	%r14, %r12
	movq	%r12, %r13
	shrq	$6, %r13
	je	.Ldeerlapse_0_1_0_BB4_14
# %bb.12:                               # %join.11.lr.ph
	leaq	(%rdi,%r14), %r15
.Ldeerlapse_0_1_0_BB4_13:                               # %join.11
                                        # =>This Inner Loop Header: Depth=1
	movq	%rbx, %rcx
	movq	%r15, %rdx
	callq	"deerlapse_0_1_0::sha2::block256::compress"
	addq	$64, %r15
	decq	%r13
	jne	.Ldeerlapse_0_1_0_BB4_13
.Ldeerlapse_0_1_0_BB4_14:                               # %after.7
	andq	$-64, %r12
	addq	%r14, %r12
	addq	%r12, %rdi
	subq	%r12, %rsi
	addq	$32, %rbx
	movq	%rbx, %rax
	subq	%rdi, %rax
	cmpq	%rsi, %rax
	jae	.Ldeerlapse_0_1_0_BB4_17
# %bb.15:                               # %join.7.i.i.i.i.i.i50.preheader
	xorl	%eax, %eax
.Ldeerlapse_0_1_0_BB4_16:                               # %join.7.i.i.i.i.i.i50
                                        # =>This Inner Loop Header: Depth=1
	movb	(%rdi,%rax), %cl
	movb	%cl, (%rbx,%rax)
	incq	%rax
	cmpq	%rax, %rsi
	jne	.Ldeerlapse_0_1_0_BB4_16
.Ldeerlapse_0_1_0_BB4_5:                                # %common.ret
	addq	$32, %rsp
	popq	%rbx
	popq	%rdi
	popq	%rsi
	popq	%r12
	popq	%r13
	popq	%r14
	popq	%r15
	retq
.Ldeerlapse_0_1_0_BB4_17:                               # %apart.2.i.i.i.i.i.i49
	movq	%rbx, %rcx
.Ldeerlapse_0_1_0_BB4_18:                               # %apart.2.i.i.i.i.i.i
	movq	%rdi, %rdx
	movq	%rsi, %r8
	addq	$32, %rsp
	popq	%rbx
	popq	%rdi
	popq	%rsi
	popq	%r12
	popq	%r13
	popq	%r14
	popq	%r15
	jmp	memmove                         # TAILCALL
	.seh_endproc
                                        # -- End function
	.def	"deerlapse_0_1_0::sha2::block256::compress";
	.scl	3;
	.type	32;
	.endef
	.section	.rdata,"dr"
	.p2align	4, 0x0                          # -- Begin function sha2::block256::compress
.Ldeerlapse_0_1_0_CPI5_0:
	.byte	3                               # 0x3
	.byte	2                               # 0x2
	.byte	1                               # 0x1
	.byte	0                               # 0x0
	.byte	7                               # 0x7
	.byte	6                               # 0x6
	.byte	5                               # 0x5
	.byte	4                               # 0x4
	.byte	11                              # 0xb
	.byte	10                              # 0xa
	.byte	9                               # 0x9
	.byte	8                               # 0x8
	.byte	15                              # 0xf
	.byte	14                              # 0xe
	.byte	13                              # 0xd
	.byte	12                              # 0xc
	.text
"deerlapse_0_1_0::sha2::block256::compress":             # @"deerlapse_0_1_0::sha2::block256::compress"
.seh_proc "deerlapse_0_1_0::sha2::block256::compress"
# %bb.0:                                # %start
	pushq	%r15
	.seh_pushreg %r15
	pushq	%r14
	.seh_pushreg %r14
	pushq	%r13
	.seh_pushreg %r13
	pushq	%r12
	.seh_pushreg %r12
	pushq	%rsi
	.seh_pushreg %rsi
	pushq	%rdi
	.seh_pushreg %rdi
	pushq	%rbp
	.seh_pushreg %rbp
	pushq	%rbx
	.seh_pushreg %rbx
	subq	$200, %rsp
	.seh_stackalloc 200
	.seh_endprologue
	movq	%rcx, 96(%rsp)                  # 8-byte Spill
	pxor	%xmm0, %xmm0
	movdqa	%xmm0, 176(%rsp)
	movdqa	%xmm0, 160(%rsp)
	movdqa	%xmm0, 144(%rsp)
	movdqa	%xmm0, 128(%rsp)
	xorl	%eax, %eax
.Ldeerlapse_0_1_0_BB5_1:                                # %vector.body
                                        # =>This Inner Loop Header: Depth=1
	movdqu	(%rdx,%rax,4), %xmm0
	pshufb	.Ldeerlapse_0_1_0_CPI5_0(%rip), %xmm0           # xmm0 = xmm0[3,2,1,0,7,6,5,4,11,10,9,8,15,14,13,12]
	movdqu	%xmm0, 128(%rsp,%rax,4)
	addq	$4, %rax
	cmpq	$16, %rax
	jne	.Ldeerlapse_0_1_0_BB5_1
# %bb.2:                                # %after.3
	movq	96(%rsp), %r15                  # 8-byte Reload
	movl	8(%r15), %r9d
	movl	(%r15), %ecx
	movl	4(%r15), %esi
	movl	16(%r15), %r11d
	movl	%r11d, %edx
	shldl	$18, %edx, %edx
	movl	20(%r15), %r10d
	xorl	%r11d, %edx
	shldl	$27, %edx, %edx
	movl	24(%r15), %eax
	xorl	%r11d, %edx
	shldl	$26, %edx, %edx
	movl	%eax, %r8d
	xorl	%r10d, %r8d
	andl	%r11d, %r8d
	xorl	%eax, %r8d
	movl	128(%rsp), %ebx
	movl	28(%r15), %edi
	movl	%ebx, 56(%rsp)                  # 4-byte Spill
	addl	%ebx, %edi
	addl	%edx, %edi
	addl	%edi, %r8d
	addl	$1116352408, %r8d               # imm = 0x428A2F98
	movl	%ecx, %edi
	shldl	$23, %edi, %edi
	xorl	%ecx, %edi
	shldl	$21, %edi, %edi
	xorl	%ecx, %edi
	shldl	$30, %edi, %edi
	movl	%esi, %edx
	xorl	%ecx, %edx
	movl	%r9d, %r14d
	xorl	%esi, %r14d
	andl	%edx, %r14d
	xorl	%esi, %r14d
	addl	%edi, %r14d
	addl	%r8d, %r14d
	addl	12(%r15), %r8d
	movl	%r8d, %edi
	shldl	$18, %edi, %edi
	xorl	%r8d, %edi
	shldl	$27, %edi, %edi
	xorl	%r8d, %edi
	shldl	$26, %edi, %edi
	movl	132(%rsp), %ebp
	movl	%r10d, %ebx
	xorl	%r11d, %ebx
	andl	%r8d, %ebx
	xorl	%r10d, %ebx
	movl	%ebp, 88(%rsp)                  # 4-byte Spill
	addl	%ebp, %eax
	addl	%ebx, %eax
	leal	(%rax,%rdi), %ebx
	addl	%eax, %edi
	addl	$1899447441, %edi               # imm = 0x71374491
	movl	%r14d, %ebp
	shldl	$23, %ebp, %ebp
	xorl	%r14d, %ebp
	shldl	$21, %ebp, %ebp
	xorl	%r14d, %ebp
	shldl	$30, %ebp, %ebp
	movl	%r14d, %eax
	xorl	%ecx, %eax
	andl	%eax, %edx
	xorl	%ecx, %edx
	addl	%ebp, %edx
	addl	%edi, %edx
	addl	%ebx, %r9d
	addl	$1899447441, %r9d               # imm = 0x71374491
	movl	%r9d, %edi
	shldl	$18, %edi, %edi
	movl	136(%rsp), %ebp
	xorl	%r9d, %edi
	shldl	$27, %edi, %edi
	xorl	%r9d, %edi
	shldl	$26, %edi, %edi
	movl	%r8d, %ebx
	xorl	%r11d, %ebx
	andl	%r9d, %ebx
	xorl	%r11d, %ebx
	movl	%ebp, 84(%rsp)                  # 4-byte Spill
	addl	%ebp, %r10d
	addl	%ebx, %r10d
	movl	%edx, %ebx
	shldl	$23, %ebx, %ebx
	leal	(%r10,%rdi), %r15d
	xorl	%edx, %ebx
	shldl	$21, %ebx, %ebx
	addl	%r10d, %edi
	addl	$-1245643825, %edi              # imm = 0xB5C0FBCF
	xorl	%edx, %ebx
	shldl	$30, %ebx, %ebx
	movl	%edx, %r10d
	xorl	%r14d, %r10d
	andl	%r10d, %eax
	xorl	%r14d, %eax
	addl	%r15d, %esi
	addl	$-1245643825, %esi              # imm = 0xB5C0FBCF
	movl	%esi, %r15d
	shldl	$18, %r15d, %r15d
	addl	%ebx, %eax
	xorl	%esi, %r15d
	shldl	$27, %r15d, %r15d
	addl	%edi, %eax
	xorl	%esi, %r15d
	shldl	$26, %r15d, %r15d
	movl	140(%rsp), %ebx
	movl	%r9d, %edi
	xorl	%r8d, %edi
	andl	%esi, %edi
	xorl	%r8d, %edi
	movl	%ebx, 80(%rsp)                  # 4-byte Spill
	addl	%ebx, %r11d
	addl	%edi, %r11d
	leal	(%r11,%r15), %edi
	leal	(%r15,%r11), %ebx
	addl	$-373957723, %ebx               # imm = 0xE9B5DBA5
	movl	%eax, %ebp
	shldl	$23, %ebp, %ebp
	xorl	%eax, %ebp
	shldl	$21, %ebp, %ebp
	xorl	%eax, %ebp
	shldl	$30, %ebp, %ebp
	movl	%eax, %r13d
	xorl	%edx, %r13d
	andl	%r13d, %r10d
	xorl	%edx, %r10d
	addl	%ebp, %r10d
	addl	%ebx, %r10d
	leal	(%rcx,%rdi), %ebx
	addl	$-373957723, %ebx               # imm = 0xE9B5DBA5
	movl	%ebx, %ecx
	shldl	$18, %ecx, %ecx
	xorl	%ebx, %ecx
	shldl	$27, %ecx, %ecx
	xorl	%ebx, %ecx
	shldl	$26, %ecx, %ecx
	movl	%esi, %edi
	xorl	%r9d, %edi
	andl	%ebx, %edi
	xorl	%r9d, %edi
	movl	144(%rsp), %ebp
	movl	%ebp, 76(%rsp)                  # 4-byte Spill
	addl	%ebp, %r8d
	addl	%edi, %r8d
	movl	%r10d, %edi
	shldl	$23, %edi, %edi
	leal	(%rcx,%r8), %ebp
	addl	$961987163, %ebp                # imm = 0x3956C25B
	xorl	%r10d, %edi
	shldl	$21, %edi, %edi
	xorl	%r10d, %edi
	shldl	$30, %edi, %edi
	movl	%r10d, %r8d
	xorl	%eax, %r8d
	andl	%r8d, %r13d
	xorl	%eax, %r13d
	addl	%edi, %r13d
	addl	%ebp, %r14d
	movl	%r14d, %ecx
	shldl	$18, %ecx, %ecx
	addl	%ebp, %r13d
	xorl	%r14d, %ecx
	shldl	$27, %ecx, %ecx
	xorl	%r14d, %ecx
	shldl	$26, %ecx, %ecx
	movl	%ebx, %edi
	xorl	%esi, %edi
	andl	%r14d, %edi
	xorl	%esi, %edi
	movl	148(%rsp), %ebp
	movl	%ebp, 72(%rsp)                  # 4-byte Spill
	addl	%ebp, %r9d
	movl	%r13d, %ebp
	shldl	$23, %ebp, %ebp
	addl	%edi, %r9d
	xorl	%r13d, %ebp
	shldl	$21, %ebp, %ebp
	addl	%ecx, %r9d
	addl	$1508970993, %r9d               # imm = 0x59F111F1
	xorl	%r13d, %ebp
	shldl	$30, %ebp, %ebp
	movl	%r13d, %r11d
	xorl	%r10d, %r11d
	andl	%r11d, %r8d
	xorl	%r10d, %r8d
	addl	%r9d, %edx
	movl	%edx, %ecx
	shldl	$18, %ecx, %ecx
	addl	%ebp, %r8d
	xorl	%edx, %ecx
	shldl	$27, %ecx, %ecx
	addl	%r9d, %r8d
	xorl	%edx, %ecx
	shldl	$26, %ecx, %ecx
	movl	%r14d, %r9d
	xorl	%ebx, %r9d
	andl	%edx, %r9d
	xorl	%ebx, %r9d
	movl	%r8d, %edi
	shldl	$23, %edi, %edi
	movl	152(%rsp), %ebp
	movl	%ebp, 64(%rsp)                  # 4-byte Spill
	addl	%ebp, %esi
	xorl	%r8d, %edi
	shldl	$21, %edi, %edi
	addl	%r9d, %esi
	xorl	%r8d, %edi
	shldl	$30, %edi, %edi
	leal	(%rcx,%rsi), %r9d
	addl	$-1841331548, %r9d              # imm = 0x923F82A4
	movl	%r8d, %ecx
	xorl	%r13d, %ecx
	andl	%ecx, %r11d
	xorl	%r13d, %r11d
	addl	%edi, %r11d
	addl	%r9d, %r11d
	addl	%r9d, %eax
	movl	%eax, %r9d
	shldl	$18, %r9d, %r9d
	xorl	%eax, %r9d
	shldl	$27, %r9d, %r9d
	movl	%edx, %esi
	xorl	%r14d, %esi
	andl	%eax, %esi
	xorl	%r14d, %esi
	movl	156(%rsp), %edi
	movl	%edi, 68(%rsp)                  # 4-byte Spill
	addl	%edi, %ebx
	addl	%esi, %ebx
	xorl	%eax, %r9d
	shldl	$26, %r9d, %r9d
	addl	%ebx, %r9d
	addl	$-1424204075, %r9d              # imm = 0xAB1C5ED5
	movq	%r11, %rdi
	movl	%edi, %esi
	shldl	$23, %esi, %esi
	xorl	%edi, %esi
	shldl	$21, %esi, %esi
	xorl	%edi, %esi
	shldl	$30, %esi, %esi
	xorl	%r8d, %r11d
	andl	%r11d, %ecx
	xorl	%r8d, %ecx
	addl	%esi, %ecx
	addl	%r9d, %ecx
	addl	%r9d, %r10d
	movl	%r10d, %r9d
	shldl	$18, %r9d, %r9d
	xorl	%r10d, %r9d
	shldl	$27, %r9d, %r9d
	xorl	%r10d, %r9d
	shldl	$26, %r9d, %r9d
	movl	%eax, %esi
	xorl	%edx, %esi
	andl	%r10d, %esi
	xorl	%edx, %esi
	movl	160(%rsp), %ebx
	movl	%ebx, 52(%rsp)                  # 4-byte Spill
	addl	%ebx, %r14d
	addl	%esi, %r14d
	movl	%ecx, %esi
	shldl	$23, %esi, %esi
	leal	(%r9,%r14), %ebx
	addl	$-670586216, %ebx               # imm = 0xD807AA98
	xorl	%ecx, %esi
	shldl	$21, %esi, %esi
	xorl	%ecx, %esi
	shldl	$30, %esi, %esi
	movl	%ecx, %r15d
	movq	%rcx, %r14
	xorl	%edi, %r15d
	andl	%r15d, %r11d
	xorl	%edi, %r11d
	addl	%esi, %r11d
	addl	%ebx, %r13d
	movl	%r13d, %r9d
	shldl	$18, %r9d, %r9d
	addl	%ebx, %r11d
	xorl	%r13d, %r9d
	shldl	$27, %r9d, %r9d
	xorl	%r13d, %r9d
	shldl	$26, %r9d, %r9d
	movl	%r10d, %esi
	xorl	%eax, %esi
	andl	%r13d, %esi
	xorl	%eax, %esi
	movl	164(%rsp), %ebx
	movl	%ebx, 12(%rsp)                  # 4-byte Spill
	addl	%ebx, %edx
	movl	%r11d, %ebx
	shldl	$23, %ebx, %ebx
	addl	%esi, %edx
	xorl	%r11d, %ebx
	shldl	$21, %ebx, %ebx
	leal	(%r9,%rdx), %esi
	addl	$310598401, %esi                # imm = 0x12835B01
	xorl	%r11d, %ebx
	shldl	$30, %ebx, %ebx
	movl	%r11d, %ecx
	xorl	%r14d, %ecx
	andl	%ecx, %r15d
	xorl	%r14d, %r15d
	addl	%esi, %r8d
	movl	%r8d, %edx
	shldl	$18, %edx, %edx
	addl	%ebx, %r15d
	xorl	%r8d, %edx
	shldl	$27, %edx, %edx
	addl	%esi, %r15d
	xorl	%r8d, %edx
	shldl	$26, %edx, %edx
	movl	%r13d, %esi
	xorl	%r10d, %esi
	andl	%r8d, %esi
	xorl	%r10d, %esi
	movl	%r15d, %ebx
	shldl	$23, %ebx, %ebx
	movl	168(%rsp), %ebp
	movl	%ebp, 32(%rsp)                  # 4-byte Spill
	addl	%ebp, %eax
	xorl	%r15d, %ebx
	shldl	$21, %ebx, %ebx
	addl	%esi, %eax
	xorl	%r15d, %ebx
	shldl	$30, %ebx, %ebx
	addl	%edx, %eax
	addl	$607225278, %eax                # imm = 0x243185BE
	movl	%r15d, %r12d
	xorl	%r11d, %r12d
	andl	%r12d, %ecx
	xorl	%r11d, %ecx
	addl	%ebx, %ecx
	addl	%eax, %ecx
	addl	%eax, %edi
	movl	%edi, %eax
	shldl	$18, %eax, %eax
	xorl	%edi, %eax
	movq	%rdi, %rbp
	shldl	$27, %eax, %eax
	movl	%r8d, %edx
	xorl	%r13d, %edx
	andl	%ebp, %edx
	xorl	%r13d, %edx
	movl	172(%rsp), %esi
	movl	%esi, 16(%rsp)                  # 4-byte Spill
	addl	%esi, %r10d
	addl	%edx, %r10d
	xorl	%ebp, %eax
	shldl	$26, %eax, %eax
	addl	%r10d, %eax
	addl	$1426881987, %eax               # imm = 0x550C7DC3
	movl	%ecx, %edx
	shldl	$23, %edx, %edx
	xorl	%ecx, %edx
	shldl	$21, %edx, %edx
	xorl	%ecx, %edx
	shldl	$30, %edx, %edx
	movl	%ecx, %r9d
	xorl	%r15d, %r9d
	andl	%r9d, %r12d
	xorl	%r15d, %r12d
	addl	%edx, %r12d
	addl	%eax, %r12d
	movq	%r14, %r10
	addl	%eax, %r10d
	movl	%r10d, %eax
	shldl	$18, %eax, %eax
	xorl	%r10d, %eax
	shldl	$27, %eax, %eax
	xorl	%r10d, %eax
	shldl	$26, %eax, %eax
	movl	%ebp, %edx
	xorl	%r8d, %edx
	andl	%r10d, %edx
	movq	%r10, %rbx
	xorl	%r8d, %edx
	movl	176(%rsp), %r10d
	movl	%r10d, 36(%rsp)                 # 4-byte Spill
	addl	%r10d, %r13d
	addl	%edx, %r13d
	movl	%r12d, %edx
	shldl	$23, %edx, %edx
	leal	(%rax,%r13), %r10d
	addl	$1925078388, %r10d              # imm = 0x72BE5D74
	xorl	%r12d, %edx
	shldl	$21, %edx, %edx
	xorl	%r12d, %edx
	shldl	$30, %edx, %edx
	movl	%r12d, %r14d
	xorl	%ecx, %r14d
	andl	%r14d, %r9d
	xorl	%ecx, %r9d
	addl	%edx, %r9d
	addl	%r10d, %r11d
	movl	%r11d, %eax
	shldl	$18, %eax, %eax
	addl	%r10d, %r9d
	xorl	%r11d, %eax
	shldl	$27, %eax, %eax
	xorl	%r11d, %eax
	shldl	$26, %eax, %eax
	movl	%ebx, %edx
	xorl	%ebp, %edx
	andl	%r11d, %edx
	xorl	%ebp, %edx
	movl	180(%rsp), %r10d
	movl	%r10d, 44(%rsp)                 # 4-byte Spill
	addl	%r10d, %r8d
	movl	%r9d, %r10d
	shldl	$23, %r10d, %r10d
	addl	%edx, %r8d
	xorl	%r9d, %r10d
	shldl	$21, %r10d, %r10d
	addl	%eax, %r8d
	addl	$-2132889090, %r8d              # imm = 0x80DEB1FE
	xorl	%r9d, %r10d
	shldl	$30, %r10d, %r10d
	movl	%r9d, %edx
	xorl	%r12d, %edx
	andl	%edx, %r14d
	xorl	%r12d, %r14d
	addl	%r8d, %r15d
	movl	%r15d, %eax
	shldl	$18, %eax, %eax
	addl	%r10d, %r14d
	xorl	%r15d, %eax
	shldl	$27, %eax, %eax
	addl	%r8d, %r14d
	xorl	%r15d, %eax
	shldl	$26, %eax, %eax
	movl	%r11d, %r8d
	xorl	%ebx, %r8d
	andl	%r15d, %r8d
	xorl	%ebx, %r8d
	movl	%r14d, %r10d
	shldl	$23, %r10d, %r10d
	movl	184(%rsp), %edi
	addl	%edi, %ebp
	xorl	%r14d, %r10d
	shldl	$21, %r10d, %r10d
	addl	%r8d, %ebp
	xorl	%r14d, %r10d
	shldl	$30, %r10d, %r10d
	leal	(%rax,%rbp), %r8d
	addl	$-1680079193, %r8d              # imm = 0x9BDC06A7
	movl	12(%rsp), %r13d                 # 4-byte Reload
	movl	%r14d, %eax
	xorl	%r9d, %eax
	andl	%eax, %edx
	xorl	%r9d, %edx
	addl	%r10d, %edx
	addl	%r8d, %edx
	addl	%r8d, %ecx
	movl	%ecx, %r8d
	shldl	$18, %r8d, %r8d
	xorl	%ecx, %r8d
	shldl	$27, %r8d, %r8d
	movl	%r15d, %r10d
	xorl	%r11d, %r10d
	andl	%ecx, %r10d
	xorl	%r11d, %r10d
	movl	188(%rsp), %esi
	movl	%esi, 60(%rsp)                  # 4-byte Spill
	addl	%esi, %ebx
	addl	%r10d, %ebx
	movl	%ecx, 48(%rsp)                  # 4-byte Spill
	xorl	%ecx, %r8d
	shldl	$26, %r8d, %r8d
	leal	(%r8,%rbx), %ecx
	addl	$-1046744716, %ecx              # imm = 0xC19BF174
	movl	%edx, %r10d
	shldl	$23, %r10d, %r10d
	xorl	%edx, %r10d
	shldl	$21, %r10d, %r10d
	xorl	%edx, %r10d
	shldl	$30, %r10d, %r10d
	movl	%edx, %r8d
	xorl	%r14d, %r8d
	andl	%eax, %r8d
	xorl	%r14d, %r8d
	addl	%r10d, %r8d
	addl	%ecx, %r8d
	addl	%ecx, %r12d
	movq	96(%rsp), %rax                  # 8-byte Reload
	movdqu	(%rax), %xmm1
	movdqu	16(%rax), %xmm0
	xorl	%esi, %esi
.Ldeerlapse_0_1_0_BB5_3:                                # %join.12
                                        # =>This Inner Loop Header: Depth=1
	movl	%edi, 92(%rsp)                  # 4-byte Spill
	movq	%rsi, 24(%rsp)                  # 8-byte Spill
	movl	%edi, %eax
	shldl	$30, %eax, %eax
	xorl	%edi, %eax
	shldl	$15, %eax, %eax
	movl	%edi, %ecx
	shrl	$10, %ecx
	movl	88(%rsp), %ebp                  # 4-byte Reload
	movl	%ebp, %r10d
	shldl	$21, %r10d, %r10d
	xorl	%eax, %ecx
	xorl	%ebp, %r10d
	shldl	$25, %r10d, %r10d
	movl	%ebp, %eax
	shrl	$3, %eax
	xorl	%r10d, %eax
	movl	56(%rsp), %r10d                 # 4-byte Reload
	movl	%r13d, 12(%rsp)                 # 4-byte Spill
	addl	%r13d, %r10d
	addl	%ecx, %r10d
	movl	%r12d, %ecx
	shldl	$18, %ecx, %ecx
	addl	%eax, %r10d
	movl	%r10d, 56(%rsp)                 # 4-byte Spill
	xorl	%r12d, %ecx
	shldl	$27, %ecx, %ecx
	movl	%r15d, %r13d
	movl	48(%rsp), %ebx                  # 4-byte Reload
	xorl	%ebx, %r13d
	andl	%r12d, %r13d
	xorl	%r15d, %r13d
	addl	%r11d, %r13d
	xorl	%r12d, %ecx
	shldl	$26, %ecx, %ecx
	addl	%ecx, %r13d
	movl	%r8d, %eax
	shldl	$23, %eax, %eax
	xorl	%r8d, %eax
	shldl	$21, %eax, %eax
	xorl	%r8d, %eax
	shldl	$30, %eax, %eax
	movl	%edx, %edi
	xorl	%r8d, %edi
	movl	%r14d, %r11d
	xorl	%edx, %r11d
	andl	%edi, %r11d
	xorl	%edx, %r11d
	addl	%eax, %r11d
	leaq	.Ldeerlapse_0_1_0_static.1(%rip), %rax
	addl	64(%rsi,%rax), %r13d
	addl	%r10d, %r13d
	movl	60(%rsp), %ecx                  # 4-byte Reload
	movl	%ecx, %eax
	shldl	$30, %eax, %eax
	addl	%r13d, %r11d
	xorl	%ecx, %eax
	shldl	$15, %eax, %eax
	addl	%r9d, %r13d
	shrl	$10, %ecx
	xorl	%eax, %ecx
	movl	84(%rsp), %r10d                 # 4-byte Reload
	movl	%r10d, %eax
	shldl	$21, %eax, %eax
	xorl	%r10d, %eax
	shldl	$25, %eax, %eax
	movl	%r10d, %esi
	shrl	$3, %esi
	xorl	%eax, %esi
	movl	%r13d, %eax
	shldl	$18, %eax, %eax
	addl	32(%rsp), %ebp                  # 4-byte Folded Reload
	xorl	%r13d, %eax
	shldl	$27, %eax, %eax
	addl	%ecx, %ebp
	xorl	%r13d, %eax
	shldl	$26, %eax, %eax
	addl	%esi, %ebp
	movl	%ebx, %ecx
	xorl	%r12d, %ecx
	andl	%r13d, %ecx
	xorl	%ebx, %ecx
	movl	%ebx, %r9d
	movq	24(%rsp), %rsi                  # 8-byte Reload
	leaq	.Ldeerlapse_0_1_0_static.1(%rip), %rbx
	addl	68(%rsi,%rbx), %r15d
	addl	%ebp, %r15d
	addl	%ecx, %r15d
	movl	%r11d, %ecx
	shldl	$23, %ecx, %ecx
	addl	%eax, %r15d
	xorl	%r11d, %ecx
	shldl	$21, %ecx, %ecx
	xorl	%r11d, %ecx
	shldl	$30, %ecx, %ecx
	movl	%r11d, %ebx
	xorl	%r8d, %ebx
	andl	%ebx, %edi
	xorl	%r8d, %edi
	addl	%ecx, %edi
	addl	%r15d, %edi
	movl	%edi, 20(%rsp)                  # 4-byte Spill
	movl	56(%rsp), %ecx                  # 4-byte Reload
	movl	%ecx, %eax
	shldl	$30, %eax, %eax
	addl	%r14d, %r15d
	xorl	%ecx, %eax
	movl	%ecx, %edi
	shldl	$15, %eax, %eax
	movl	80(%rsp), %r14d                 # 4-byte Reload
	movl	%r14d, %ecx
	shldl	$21, %ecx, %ecx
	shrl	$10, %edi
	xorl	%r14d, %ecx
	shldl	$25, %ecx, %ecx
	xorl	%eax, %edi
	movl	%r14d, %eax
	shrl	$3, %eax
	xorl	%ecx, %eax
	addl	16(%rsp), %r10d                 # 4-byte Folded Reload
	movl	%r15d, %ecx
	shldl	$18, %ecx, %ecx
	addl	%eax, %r10d
	xorl	%r15d, %ecx
	shldl	$27, %ecx, %ecx
	addl	%edi, %r10d
	movl	%r13d, %eax
	xorl	%r12d, %eax
	andl	%r15d, %eax
	xorl	%r12d, %eax
	movq	24(%rsp), %rdi                  # 8-byte Reload
	leaq	.Ldeerlapse_0_1_0_static.1(%rip), %rsi
	addl	72(%rdi,%rsi), %r9d
	addl	%r10d, %r9d
	addl	%eax, %r9d
	xorl	%r15d, %ecx
	shldl	$26, %ecx, %ecx
	addl	%ecx, %r9d
	movl	20(%rsp), %esi                  # 4-byte Reload
	movl	%esi, %eax
	shldl	$23, %eax, %eax
	xorl	%esi, %eax
	shldl	$21, %eax, %eax
	xorl	%esi, %eax
	shldl	$30, %eax, %eax
	xorl	%r11d, %esi
	andl	%esi, %ebx
	xorl	%r11d, %ebx
	addl	%eax, %ebx
	addl	%r9d, %ebx
	addl	%edx, %r9d
	movl	%ebp, 88(%rsp)                  # 4-byte Spill
	movl	%ebp, %eax
	shldl	$30, %eax, %eax
	xorl	%ebp, %eax
	shldl	$15, %eax, %eax
	shrl	$10, %ebp
	movl	76(%rsp), %edi                  # 4-byte Reload
	movl	%edi, %edx
	shldl	$21, %edx, %edx
	xorl	%eax, %ebp
	xorl	%edi, %edx
	shldl	$25, %edx, %edx
	movl	%edi, %eax
	shrl	$3, %eax
	xorl	%edx, %eax
	addl	36(%rsp), %r14d                 # 4-byte Folded Reload
	addl	%eax, %r14d
	movl	%r9d, %eax
	shldl	$18, %eax, %eax
	addl	%ebp, %r14d
	movl	%r14d, %ebp
	xorl	%r9d, %eax
	shldl	$27, %eax, %eax
	xorl	%r9d, %eax
	shldl	$26, %eax, %eax
	movl	%r15d, %ecx
	xorl	%r13d, %ecx
	andl	%r9d, %ecx
	movq	24(%rsp), %rdx                  # 8-byte Reload
	leaq	.Ldeerlapse_0_1_0_static.1(%rip), %r14
	addl	76(%rdx,%r14), %r12d
	xorl	%r13d, %ecx
	movl	%ebx, 40(%rsp)                  # 4-byte Spill
	movl	%ebx, %edx
	shldl	$23, %edx, %edx
	addl	%ebp, %r12d
	xorl	%ebx, %edx
	shldl	$21, %edx, %edx
	addl	%ecx, %r12d
	xorl	%ebx, %edx
	shldl	$30, %edx, %edx
	addl	%eax, %r12d
	movl	20(%rsp), %eax                  # 4-byte Reload
	xorl	%eax, %ebx
	andl	%ebx, %esi
	xorl	%eax, %esi
	addl	%edx, %esi
	addl	%r12d, %esi
	addl	%r8d, %r12d
	movl	%r10d, 84(%rsp)                 # 4-byte Spill
	movl	%r10d, %eax
	shldl	$30, %eax, %eax
	xorl	%r10d, %eax
	shldl	$15, %eax, %eax
	shrl	$10, %r10d
	xorl	%eax, %r10d
	movl	72(%rsp), %r14d                 # 4-byte Reload
	movl	%r14d, %eax
	shldl	$21, %eax, %eax
	xorl	%r14d, %eax
	shldl	$25, %eax, %eax
	movl	%r14d, %r8d
	shrl	$3, %r8d
	xorl	%eax, %r8d
	addl	44(%rsp), %edi                  # 4-byte Folded Reload
	addl	%r8d, %edi
	addl	%r10d, %edi
	movl	%r12d, %eax
	shldl	$18, %eax, %eax
	xorl	%r12d, %eax
	shldl	$27, %eax, %eax
	xorl	%r12d, %eax
	shldl	$26, %eax, %eax
	movl	%r9d, %edx
	xorl	%r15d, %edx
	andl	%r12d, %edx
	xorl	%r15d, %edx
	movq	24(%rsp), %r8                   # 8-byte Reload
	leaq	.Ldeerlapse_0_1_0_static.1(%rip), %r10
	addl	80(%r8,%r10), %r13d
	addl	%edi, %r13d
	movl	%esi, %r8d
	shldl	$23, %r8d, %r8d
	addl	%edx, %r13d
	xorl	%esi, %r8d
	shldl	$21, %r8d, %r8d
	addl	%eax, %r13d
	xorl	%esi, %r8d
	shldl	$30, %r8d, %r8d
	movl	%esi, %ecx
	movl	40(%rsp), %eax                  # 4-byte Reload
	xorl	%eax, %ecx
	andl	%ecx, %ebx
	xorl	%eax, %ebx
	addl	%r8d, %ebx
	movl	%ebp, 80(%rsp)                  # 4-byte Spill
	movl	%ebp, %edx
	shldl	$30, %edx, %edx
	addl	%r13d, %ebx
	xorl	%ebp, %edx
	shldl	$15, %edx, %edx
	addl	%r11d, %r13d
	shrl	$10, %ebp
	xorl	%edx, %ebp
	movl	64(%rsp), %r11d                 # 4-byte Reload
	movl	%r11d, %edx
	shldl	$21, %edx, %edx
	xorl	%r11d, %edx
	shldl	$25, %edx, %edx
	movl	%r11d, %r8d
	shrl	$3, %r8d
	xorl	%edx, %r8d
	movl	%r13d, %edx
	shldl	$18, %edx, %edx
	addl	92(%rsp), %r14d                 # 4-byte Folded Reload
	xorl	%r13d, %edx
	shldl	$27, %edx, %edx
	addl	%r8d, %r14d
	xorl	%r13d, %edx
	shldl	$26, %edx, %edx
	addl	%ebp, %r14d
	movl	%r12d, %eax
	xorl	%r9d, %eax
	andl	%r13d, %eax
	movl	%r13d, 124(%rsp)                # 4-byte Spill
	xorl	%r9d, %eax
	movq	24(%rsp), %r8                   # 8-byte Reload
	addl	84(%r8,%r10), %r15d
	addl	%r14d, %r15d
	addl	%eax, %r15d
	movl	%ebx, %eax
	shldl	$23, %eax, %eax
	addl	%edx, %r15d
	xorl	%ebx, %eax
	shldl	$21, %eax, %eax
	xorl	%ebx, %eax
	shldl	$30, %eax, %eax
	movl	%ebx, %ebp
	movl	%esi, 48(%rsp)                  # 4-byte Spill
	xorl	%esi, %ebp
	andl	%ebp, %ecx
	xorl	%esi, %ecx
	addl	%eax, %ecx
	addl	%r15d, %ecx
	movl	%edi, %eax
	shldl	$30, %eax, %eax
	addl	20(%rsp), %r15d                 # 4-byte Folded Reload
	xorl	%edi, %eax
	movl	%edi, %r8d
	movl	%edi, 76(%rsp)                  # 4-byte Spill
	shldl	$15, %eax, %eax
	movl	68(%rsp), %esi                  # 4-byte Reload
	movl	%esi, %edx
	shldl	$21, %edx, %edx
	shrl	$10, %r8d
	xorl	%esi, %edx
	shldl	$25, %edx, %edx
	xorl	%eax, %r8d
	movl	%esi, %eax
	shrl	$3, %eax
	xorl	%edx, %eax
	addl	60(%rsp), %r11d                 # 4-byte Folded Reload
	movl	%r15d, %edx
	shldl	$18, %edx, %edx
	addl	%eax, %r11d
	xorl	%r15d, %edx
	shldl	$27, %edx, %edx
	addl	%r8d, %r11d
	movl	%r11d, 64(%rsp)                 # 4-byte Spill
	xorl	%r15d, %edx
	shldl	$26, %edx, %edx
	xorl	%r12d, %r13d
	movq	24(%rsp), %rax                  # 8-byte Reload
	addl	88(%rax,%r10), %r9d
	andl	%r15d, %r13d
	movl	%ecx, %eax
	shldl	$23, %eax, %eax
	xorl	%r12d, %r13d
	xorl	%ecx, %eax
	shldl	$21, %eax, %eax
	addl	%r11d, %r9d
	xorl	%ecx, %eax
	movl	%ecx, 120(%rsp)                 # 4-byte Spill
	shldl	$30, %eax, %eax
	addl	%r13d, %r9d
	movl	%r14d, %r11d
	shldl	$30, %r11d, %r11d
	addl	%edx, %r9d
	xorl	%r14d, %r11d
	movl	%r14d, %r10d
	movl	%r14d, 72(%rsp)                 # 4-byte Spill
	shldl	$15, %r11d, %r11d
	movl	52(%rsp), %r8d                  # 4-byte Reload
	movl	%r8d, %r14d
	shldl	$21, %r14d, %r14d
	movl	%ebx, %edx
	movl	%ebx, 112(%rsp)                 # 4-byte Spill
	xorl	%ebx, %ecx
	movl	%ecx, 116(%rsp)                 # 4-byte Spill
	xorl	%r8d, %r14d
	shldl	$25, %r14d, %r14d
	andl	%ecx, %ebp
	movl	12(%rsp), %ecx                  # 4-byte Reload
	movl	%ecx, %ebx
	shldl	$21, %ebx, %ebx
	xorl	%edx, %ebp
	xorl	%ecx, %ebx
	shldl	$25, %ebx, %ebx
	addl	%eax, %ebp
	movl	32(%rsp), %eax                  # 4-byte Reload
	movl	%eax, %r8d
	shldl	$21, %r8d, %r8d
	addl	%r9d, %ebp
	xorl	%eax, %r8d
	shldl	$25, %r8d, %r8d
	addl	40(%rsp), %r9d                  # 4-byte Folded Reload
	movl	16(%rsp), %r13d                 # 4-byte Reload
	movl	%r13d, %edi
	shldl	$21, %edi, %edi
	xorl	%r13d, %edi
	shldl	$25, %edi, %edi
	movl	%r10d, %edx
	shrl	$10, %edx
	movl	36(%rsp), %r10d                 # 4-byte Reload
	movl	%r10d, %esi
	shldl	$21, %esi, %esi
	xorl	%r11d, %edx
	xorl	%r10d, %esi
	shldl	$25, %esi, %esi
	movl	44(%rsp), %eax                  # 4-byte Reload
	movl	%eax, %r11d
	shldl	$21, %r11d, %r11d
	xorl	%eax, %r11d
	shldl	$25, %r11d, %r11d
	shrl	$3, %eax
	xorl	%r11d, %eax
	addl	%r10d, %eax
	movl	%eax, 40(%rsp)                  # 4-byte Spill
	shrl	$3, %r10d
	xorl	%esi, %r10d
	addl	%r13d, %r10d
	movl	%r10d, 20(%rsp)                 # 4-byte Spill
	shrl	$3, %r13d
	xorl	%edi, %r13d
	movl	32(%rsp), %eax                  # 4-byte Reload
	addl	%eax, %r13d
	movl	%r13d, 16(%rsp)                 # 4-byte Spill
	movl	%eax, %r13d
	shrl	$3, %r13d
	xorl	%r8d, %r13d
	movl	12(%rsp), %edi                  # 4-byte Reload
	addl	%edi, %r13d
	shrl	$3, %edi
	xorl	%ebx, %edi
	movl	52(%rsp), %eax                  # 4-byte Reload
	addl	%eax, %edi
	shrl	$3, %eax
	xorl	%r14d, %eax
	movl	68(%rsp), %r10d                 # 4-byte Reload
	addl	56(%rsp), %r10d                 # 4-byte Folded Reload
	addl	%eax, %r10d
	addl	%edx, %r10d
	movl	%r9d, %eax
	shldl	$18, %eax, %eax
	xorl	%r9d, %eax
	shldl	$27, %eax, %eax
	movq	24(%rsp), %rdx                  # 8-byte Reload
	leaq	.Ldeerlapse_0_1_0_static.1(%rip), %rcx
	movl	92(%rdx,%rcx), %esi
	addl	%r10d, %esi
	movl	%r10d, %r11d
	addl	%r12d, %esi
	xorl	%r9d, %eax
	shldl	$26, %eax, %eax
	movl	%r15d, %edx
	movl	124(%rsp), %ecx                 # 4-byte Reload
	xorl	%ecx, %edx
	andl	%r9d, %edx
	xorl	%ecx, %edx
	addl	%edx, %esi
	movl	%ebp, %edx
	shldl	$23, %edx, %edx
	addl	%eax, %esi
	xorl	%ebp, %edx
	shldl	$21, %edx, %edx
	xorl	%ebp, %edx
	shldl	$30, %edx, %edx
	movl	%ebp, %r14d
	movl	120(%rsp), %ebx                 # 4-byte Reload
	xorl	%ebx, %r14d
	movl	116(%rsp), %r8d                 # 4-byte Reload
	andl	%r14d, %r8d
	xorl	%ebx, %r8d
	addl	%edx, %r8d
	addl	%esi, %r8d
	movl	64(%rsp), %edx                  # 4-byte Reload
	movl	%edx, %eax
	shldl	$30, %eax, %eax
	addl	48(%rsp), %esi                  # 4-byte Folded Reload
	xorl	%edx, %eax
	shldl	$15, %eax, %eax
	shrl	$10, %edx
	xorl	%eax, %edx
	addl	88(%rsp), %edi                  # 4-byte Folded Reload
	addl	%edx, %edi
	movl	%esi, %eax
	shldl	$18, %eax, %eax
	xorl	%esi, %eax
	shldl	$27, %eax, %eax
	xorl	%esi, %eax
	shldl	$26, %eax, %eax
	movq	24(%rsp), %rdx                  # 8-byte Reload
	leaq	.Ldeerlapse_0_1_0_static.1(%rip), %r12
	movl	96(%rdx,%r12), %edx
	addl	%edi, %edx
	addl	%ecx, %edx
	movl	%r9d, %r10d
	xorl	%r15d, %r10d
	andl	%esi, %r10d
	xorl	%r15d, %r10d
	movl	%r11d, %ecx
	movl	%r11d, 68(%rsp)                 # 4-byte Spill
	shldl	$30, %r11d, %r11d
	addl	%r10d, %edx
	xorl	%ecx, %r11d
	shldl	$15, %r11d, %r11d
	addl	%eax, %edx
	movl	%ecx, %eax
	shrl	$10, %eax
	xorl	%r11d, %eax
	addl	84(%rsp), %r13d                 # 4-byte Folded Reload
	addl	%eax, %r13d
	movl	%r13d, 36(%rsp)                 # 4-byte Spill
	movq	24(%rsp), %rax                  # 8-byte Reload
	movl	100(%rax,%r12), %r12d
	addl	%r13d, %r12d
	addl	%r15d, %r12d
	movl	%r8d, %eax
	shldl	$23, %eax, %eax
	xorl	%r8d, %eax
	shldl	$21, %eax, %eax
	xorl	%r8d, %eax
	shldl	$30, %eax, %eax
	movl	%r8d, %r15d
	movl	%ebp, 108(%rsp)                 # 4-byte Spill
	xorl	%ebp, %r15d
	andl	%r15d, %r14d
	xorl	%ebp, %r14d
	addl	%eax, %r14d
	addl	%edx, %r14d
	addl	112(%rsp), %edx                 # 4-byte Folded Reload
	movl	92(%rsp), %r10d                 # 4-byte Reload
	movl	%r10d, %eax
	shldl	$21, %eax, %eax
	xorl	%r10d, %eax
	movl	%edx, %ecx
	shldl	$18, %ecx, %ecx
	shldl	$25, %eax, %eax
	movl	%r10d, %r11d
	movl	%r10d, %ebp
	shrl	$3, %r11d
	xorl	%eax, %r11d
	xorl	%edx, %ecx
	shldl	$27, %ecx, %ecx
	addl	44(%rsp), %r11d                 # 4-byte Folded Reload
	movl	%r11d, 44(%rsp)                 # 4-byte Spill
	xorl	%edx, %ecx
	shldl	$26, %ecx, %ecx
	movl	%esi, %eax
	xorl	%r9d, %eax
	andl	%edx, %eax
	xorl	%r9d, %eax
	addl	%eax, %r12d
	movl	%edi, 32(%rsp)                  # 4-byte Spill
	movl	%edi, %eax
	shldl	$30, %eax, %eax
	addl	%ecx, %r12d
	xorl	%edi, %eax
	shldl	$15, %eax, %eax
	shrl	$10, %edi
	xorl	%eax, %edi
	movl	16(%rsp), %eax                  # 4-byte Reload
	addl	80(%rsp), %eax                  # 4-byte Folded Reload
	addl	%edi, %eax
	movl	%eax, %r10d
	movl	%eax, 16(%rsp)                  # 4-byte Spill
	movl	%r14d, %eax
	shldl	$23, %eax, %eax
	xorl	%r14d, %eax
	shldl	$21, %eax, %eax
	xorl	%r14d, %eax
	shldl	$30, %eax, %eax
	movq	24(%rsp), %rcx                  # 8-byte Reload
	leaq	.Ldeerlapse_0_1_0_static.1(%rip), %r13
	movl	104(%rcx,%r13), %ecx
	addl	%r10d, %ecx
	addl	%r9d, %ecx
	movl	%r14d, %r11d
	xorl	%r8d, %r11d
	andl	%r11d, %r15d
	xorl	%r8d, %r15d
	addl	%eax, %r15d
	addl	%r12d, %r15d
	addl	%ebx, %r12d
	movl	60(%rsp), %r10d                 # 4-byte Reload
	movl	%r10d, %eax
	shldl	$21, %eax, %eax
	xorl	%r10d, %eax
	shldl	$25, %eax, %eax
	movl	%r10d, %r9d
	movl	%r10d, %ebx
	shrl	$3, %r9d
	xorl	%eax, %r9d
	movl	%r12d, %eax
	shldl	$18, %eax, %eax
	addl	%ebp, %r9d
	movl	%r9d, 12(%rsp)                  # 4-byte Spill
	xorl	%r12d, %eax
	shldl	$27, %eax, %eax
	movl	56(%rsp), %r10d                 # 4-byte Reload
	movl	%r10d, %edi
	shldl	$21, %edi, %edi
	xorl	%r10d, %edi
	shldl	$25, %edi, %edi
	shrl	$3, %r10d
	xorl	%edi, %r10d
	xorl	%r12d, %eax
	shldl	$26, %eax, %eax
	addl	%ebx, %r10d
	movl	%r10d, 52(%rsp)                 # 4-byte Spill
	movl	%edx, %edi
	xorl	%esi, %edi
	andl	%r12d, %edi
	xorl	%esi, %edi
	movl	%r15d, %ebx
	shldl	$23, %ebx, %ebx
	addl	%edi, %ecx
	xorl	%r15d, %ebx
	shldl	$21, %ebx, %ebx
	addl	%eax, %ecx
	xorl	%r15d, %ebx
	shldl	$30, %ebx, %ebx
	movl	%r15d, %ebp
	xorl	%r14d, %ebp
	andl	%ebp, %r11d
	xorl	%r14d, %r11d
	addl	%ebx, %r11d
	movl	36(%rsp), %edi                  # 4-byte Reload
	movl	%edi, %eax
	shldl	$30, %eax, %eax
	addl	%ecx, %r11d
	xorl	%edi, %eax
	shldl	$15, %eax, %eax
	addl	108(%rsp), %ecx                 # 4-byte Folded Reload
	shrl	$10, %edi
	xorl	%eax, %edi
	movl	20(%rsp), %r9d                  # 4-byte Reload
	addl	76(%rsp), %r9d                  # 4-byte Folded Reload
	addl	%edi, %r9d
	movl	%r9d, 20(%rsp)                  # 4-byte Spill
	movq	24(%rsp), %rax                  # 8-byte Reload
	movl	108(%rax,%r13), %eax
	movq	%r13, %rbx
	addl	%r9d, %eax
	addl	%esi, %eax
	movl	%ecx, %esi
	shldl	$18, %esi, %esi
	xorl	%ecx, %esi
	shldl	$27, %esi, %esi
	xorl	%ecx, %esi
	shldl	$26, %esi, %esi
	movl	%r12d, %edi
	xorl	%edx, %edi
	andl	%ecx, %edi
	movl	%r11d, %r13d
	shldl	$23, %r13d, %r13d
	xorl	%edx, %edi
	xorl	%r11d, %r13d
	shldl	$21, %r13d, %r13d
	addl	%edi, %eax
	xorl	%r11d, %r13d
	shldl	$30, %r13d, %r13d
	addl	%esi, %eax
	movl	%r11d, %r9d
	xorl	%r15d, %r9d
	andl	%r9d, %ebp
	xorl	%r15d, %ebp
	addl	%r13d, %ebp
	addl	%eax, %ebp
	addl	%r8d, %eax
	movl	16(%rsp), %esi                  # 4-byte Reload
	movl	%esi, %r8d
	shldl	$30, %r8d, %r8d
	xorl	%esi, %r8d
	shldl	$15, %r8d, %r8d
	shrl	$10, %esi
	xorl	%r8d, %esi
	movl	40(%rsp), %r10d                 # 4-byte Reload
	addl	72(%rsp), %r10d                 # 4-byte Folded Reload
	addl	%esi, %r10d
	movl	%eax, %r8d
	shldl	$18, %r8d, %r8d
	movq	24(%rsp), %rsi                  # 8-byte Reload
	movq	%rbx, %r13
	movl	112(%rsi,%rbx), %ebx
	addl	%r10d, %ebx
	addl	%edx, %ebx
	xorl	%eax, %r8d
	shldl	$27, %r8d, %r8d
	movl	%ecx, %edx
	xorl	%r12d, %edx
	andl	%eax, %edx
	xorl	%r12d, %edx
	addl	%edx, %ebx
	xorl	%eax, %r8d
	shldl	$26, %r8d, %r8d
	addl	%r8d, %ebx
	movl	%ebp, %edx
	shldl	$23, %edx, %edx
	xorl	%ebp, %edx
	shldl	$21, %edx, %edx
	xorl	%ebp, %edx
	shldl	$30, %edx, %edx
	movl	%ebp, %r8d
	xorl	%r11d, %r8d
	andl	%r8d, %r9d
	movl	20(%rsp), %edi                  # 4-byte Reload
	movl	%edi, %esi
	shldl	$30, %esi, %esi
	xorl	%r11d, %r9d
	xorl	%edi, %esi
	shldl	$15, %esi, %esi
	addl	%edx, %r9d
	movl	%edi, %edx
	shrl	$10, %edx
	xorl	%esi, %edx
	movl	44(%rsp), %edi                  # 4-byte Reload
	addl	64(%rsp), %edi                  # 4-byte Folded Reload
	addl	%edx, %edi
	movq	24(%rsp), %rdx                  # 8-byte Reload
	movl	116(%rdx,%r13), %edx
	addl	%edi, %edx
	addl	%r12d, %edx
	movl	%r10d, 40(%rsp)                 # 4-byte Spill
	movl	%r10d, %esi
	shldl	$30, %esi, %esi
	xorl	%r10d, %esi
	shldl	$15, %esi, %esi
	shrl	$10, %r10d
	xorl	%esi, %r10d
	movl	12(%rsp), %r13d                 # 4-byte Reload
	addl	68(%rsp), %r13d                 # 4-byte Folded Reload
	addl	%r10d, %r13d
	movl	%r13d, 12(%rsp)                 # 4-byte Spill
	movl	%edi, 44(%rsp)                  # 4-byte Spill
	movl	%edi, %esi
	shldl	$30, %esi, %esi
	xorl	%edi, %esi
	shldl	$15, %esi, %esi
	shrl	$10, %edi
	xorl	%esi, %edi
	movl	52(%rsp), %r10d                 # 4-byte Reload
	addl	32(%rsp), %r10d                 # 4-byte Folded Reload
	addl	%edi, %r10d
	addl	%ebx, %r9d
	addl	%r14d, %ebx
	movl	%eax, %r14d
	xorl	%ecx, %r14d
	movq	24(%rsp), %rsi                  # 8-byte Reload
	leaq	.Ldeerlapse_0_1_0_static.1(%rip), %rdi
	movl	120(%rsi,%rdi), %r12d
	addl	%r13d, %r12d
	addl	%ecx, %r12d
	andl	%ebx, %r14d
	xorl	%ecx, %r14d
	addl	%edx, %r14d
	movl	%ebx, %ecx
	shldl	$18, %ecx, %ecx
	xorl	%ebx, %ecx
	shldl	$27, %ecx, %ecx
	xorl	%ebx, %ecx
	shldl	$26, %ecx, %ecx
	addl	%ecx, %r14d
	movq	24(%rsp), %rcx                  # 8-byte Reload
	movl	124(%rcx,%rdi), %ecx
	addl	%r10d, %ecx
	movl	%r9d, %r13d
	shldl	$23, %r13d, %r13d
	xorl	%r9d, %r13d
	shldl	$21, %r13d, %r13d
	addl	%r14d, %r15d
	movl	%r15d, %edx
	shldl	$18, %edx, %edx
	addl	%eax, %ecx
	movl	%ebx, %esi
	xorl	%eax, %esi
	andl	%r15d, %esi
	xorl	%eax, %esi
	xorl	%r15d, %edx
	shldl	$27, %edx, %edx
	addl	%r12d, %esi
	xorl	%r15d, %edx
	shldl	$26, %edx, %edx
	addl	%edx, %esi
	xorl	%r9d, %r13d
	shldl	$30, %r13d, %r13d
	movl	%r9d, %edx
	xorl	%ebp, %edx
	andl	%edx, %r8d
	addl	%esi, %r11d
	movl	%r11d, %eax
	shldl	$18, %eax, %eax
	xorl	%ebp, %r8d
	xorl	%r11d, %eax
	shldl	$27, %eax, %eax
	addl	%r13d, %r8d
	xorl	%r11d, %eax
	shldl	$26, %eax, %eax
	addl	%r8d, %r14d
	movl	%r15d, %r12d
	xorl	%ebx, %r12d
	movl	%r11d, 48(%rsp)                 # 4-byte Spill
	andl	%r11d, %r12d
	xorl	%ebx, %r12d
	movl	%r14d, %r8d
	shldl	$23, %r8d, %r8d
	addl	%ecx, %r12d
	xorl	%r14d, %r8d
	shldl	$21, %r8d, %r8d
	addl	%eax, %r12d
	xorl	%r14d, %r8d
	shldl	$30, %r8d, %r8d
	movl	%r14d, %eax
	xorl	%r9d, %eax
	andl	%eax, %edx
	xorl	%r9d, %edx
	addl	%r8d, %edx
	addl	%esi, %edx
	movq	24(%rsp), %rsi                  # 8-byte Reload
	movl	%edx, %r8d
	xorl	%r14d, %r8d
	andl	%eax, %r8d
	movl	%edx, %eax
	shldl	$23, %eax, %eax
	xorl	%edx, %eax
	shldl	$21, %eax, %eax
	xorl	%edx, %eax
	shldl	$30, %eax, %eax
	xorl	%r14d, %r8d
	addl	%eax, %r8d
	addl	%r12d, %r8d
	addl	%ebp, %r12d
	movl	32(%rsp), %eax                  # 4-byte Reload
	movl	%eax, 52(%rsp)                  # 4-byte Spill
	movl	36(%rsp), %r13d                 # 4-byte Reload
	movl	16(%rsp), %eax                  # 4-byte Reload
	movl	%eax, 32(%rsp)                  # 4-byte Spill
	movl	20(%rsp), %eax                  # 4-byte Reload
	movl	%eax, 16(%rsp)                  # 4-byte Spill
	movl	40(%rsp), %eax                  # 4-byte Reload
	movl	%eax, 36(%rsp)                  # 4-byte Spill
	movl	%ebx, %r11d
	addq	$64, %rsi
	movl	12(%rsp), %edi                  # 4-byte Reload
	movl	%r10d, 60(%rsp)                 # 4-byte Spill
	cmpq	$192, %rsi
	jne	.Ldeerlapse_0_1_0_BB5_3
# %bb.4:                                # %after.8
	movd	%r8d, %xmm2
	pinsrd	$1, %edx, %xmm2
	pinsrd	$2, %r14d, %xmm2
	pinsrd	$3, %r9d, %xmm2
	movd	%r12d, %xmm3
	pinsrd	$1, 48(%rsp), %xmm3             # 4-byte Folded Reload
	pinsrd	$2, %r15d, %xmm3
	pinsrd	$3, %r11d, %xmm3
	paddd	%xmm1, %xmm2
	paddd	%xmm0, %xmm3
	movq	96(%rsp), %rax                  # 8-byte Reload
	movdqu	%xmm2, (%rax)
	movdqu	%xmm3, 16(%rax)
	addq	$200, %rsp
	popq	%rbx
	popq	%rbp
	popq	%rdi
	popq	%rsi
	popq	%r12
	popq	%r13
	popq	%r14
	popq	%r15
	retq
	.seh_endproc
                                        # -- End function
	.def	"deerlapse_0_1_0::key_derivation::hmac::absorb_xored::<#7cab53feae2e1c66>";
	.scl	3;
	.type	32;
	.endef
	.section	.rdata,"dr"
	.p2align	4, 0x0                          # -- Begin function key_derivation::hmac::absorb_xored::<#7cab53feae2e1c66>
.Ldeerlapse_0_1_0_CPI6_0:
	.long	1779033703                      # 0x6a09e667
	.long	3144134277                      # 0xbb67ae85
	.long	1013904242                      # 0x3c6ef372
	.long	2773480762                      # 0xa54ff53a
.Ldeerlapse_0_1_0_CPI6_1:
	.long	1359893119                      # 0x510e527f
	.long	2600822924                      # 0x9b05688c
	.long	528734635                       # 0x1f83d9ab
	.long	1541459225                      # 0x5be0cd19
	.text
"deerlapse_0_1_0::key_derivation::hmac::absorb_xored::<#7cab53feae2e1c66>": # @"deerlapse_0_1_0::key_derivation::hmac::absorb_xored::<#7cab53feae2e1c66>"
.seh_proc "deerlapse_0_1_0::key_derivation::hmac::absorb_xored::<#7cab53feae2e1c66>"
# %bb.0:                                # %start
	pushq	%rsi
	.seh_pushreg %rsi
	pushq	%rdi
	.seh_pushreg %rdi
	subq	$264, %rsp                      # imm = 0x108
	.seh_stackalloc 264
	.seh_endprologue
	movq	%rcx, %rsi
	pxor	%xmm1, %xmm1
	movdqa	%xmm1, 144(%rsp)
	movdqa	%xmm1, 128(%rsp)
	movdqa	%xmm1, 112(%rsp)
	movdqa	%xmm1, 96(%rsp)
	movdqa	%xmm1, 80(%rsp)
	movdqa	%xmm1, 64(%rsp)
	movdqa	%xmm1, 48(%rsp)
	movdqa	%xmm1, 32(%rsp)
	movzbl	%r8b, %eax
	movd	%eax, %xmm0
	pshufb	%xmm1, %xmm0
	xorl	%eax, %eax
.Ldeerlapse_0_1_0_BB6_1:                                # %vector.body
                                        # =>This Inner Loop Header: Depth=1
	movdqu	(%rdx,%rax), %xmm1
	pxor	%xmm0, %xmm1
	movdqu	%xmm1, 32(%rsp,%rax)
	addq	$16, %rax
	cmpq	$64, %rax
	jne	.Ldeerlapse_0_1_0_BB6_1
# %bb.2:                                # %after.1
	movaps	.Ldeerlapse_0_1_0_CPI6_0(%rip), %xmm0           # xmm0 = [1779033703,3144134277,1013904242,2773480762]
	leaq	160(%rsp), %rdi
	movaps	%xmm0, (%rdi)
	movaps	.Ldeerlapse_0_1_0_CPI6_1(%rip), %xmm0           # xmm0 = [1359893119,2600822924,528734635,1541459225]
	movaps	%xmm0, 16(%rdi)
	xorps	%xmm0, %xmm0
	movaps	%xmm0, 32(%rdi)
	movaps	%xmm0, 48(%rdi)
	movaps	%xmm0, 64(%rdi)
	movaps	%xmm0, 80(%rdi)
	movq	$0, 96(%rdi)
	leaq	32(%rsp), %rdx
	movl	$64, %r8d
	movq	%rdi, %rcx
	callq	"deerlapse_0_1_0::sha2::block256::Core256::update"
	movl	$104, %r8d
	movq	%rsi, %rcx
	movq	%rdi, %rdx
	callq	memcpy
	nop
	addq	$264, %rsp                      # imm = 0x108
	popq	%rdi
	popq	%rsi
	retq
	.seh_endproc
                                        # -- End function
	.def	"deerlapse_0_1_0::key_derivation::hmac::HmacKey::finish::<#7cab53feae2e1c66>";
	.scl	3;
	.type	32;
	.endef
"deerlapse_0_1_0::key_derivation::hmac::HmacKey::finish::<#7cab53feae2e1c66>": # -- Begin function key_derivation::hmac::HmacKey::finish::<#7cab53feae2e1c66>
                                        # @"deerlapse_0_1_0::key_derivation::hmac::HmacKey::finish::<#7cab53feae2e1c66>"
.seh_proc "deerlapse_0_1_0::key_derivation::hmac::HmacKey::finish::<#7cab53feae2e1c66>"
# %bb.0:                                # %start
	pushq	%r15
	.seh_pushreg %r15
	pushq	%r14
	.seh_pushreg %r14
	pushq	%r13
	.seh_pushreg %r13
	pushq	%r12
	.seh_pushreg %r12
	pushq	%rsi
	.seh_pushreg %rsi
	pushq	%rdi
	.seh_pushreg %rdi
	pushq	%rbx
	.seh_pushreg %rbx
	subq	$512, %rsp                      # imm = 0x200
	.seh_stackalloc 512
	.seh_endprologue
	movq	%r8, %r14
	movq	%rcx, %rsi
	xorps	%xmm0, %xmm0
	leaq	64(%rsp), %rdi
	movaps	%xmm0, 16(%rdi)
	movaps	%xmm0, (%rdi)
	leaq	32(%rsp), %rbx
	movaps	%xmm0, (%rbx)
	movaps	%xmm0, 16(%rbx)
	movups	104(%rdx), %xmm0
	movups	120(%rdx), %xmm1
	leaq	96(%rsp), %rax
	movaps	%xmm1, 16(%rax)
	movaps	%xmm0, (%rax)
	movups	136(%rdx), %xmm0
	movups	152(%rdx), %xmm1
	movups	168(%rdx), %xmm2
	movups	184(%rdx), %xmm3
	movaps	%xmm0, 32(%rax)
	movaps	%xmm1, 48(%rax)
	movaps	%xmm2, 64(%rax)
	movaps	%xmm3, 80(%rax)
	movq	200(%rdx), %r13
	leaq	208(%rsp), %r15
	movl	$96, %r8d
	movq	%r15, %rcx
	movq	%rax, %rdx
	callq	memcpy
	leaq	103(%rsp), %r12
	movl	$96, %r8d
	movq	%r12, %rcx
	movq	%r15, %rdx
	callq	memcpy
	leaq	408(%rsp), %r15
	movl	$96, %r8d
	movq	%r15, %rcx
	movq	%r12, %rdx
	callq	memcpy
	movq	%r13, 96(%r15)
	leaq	304(%rsp), %r12
	movl	$104, %r8d
	movq	%r12, %rcx
	movq	%r14, %rdx
	callq	memcpy
	movq	%rbx, %rcx
	movq	%r12, %rdx
	callq	"deerlapse_0_1_0::sha2::Sha256Digest::finalize"
	movl	$32, %r8d
	movq	%r15, %rcx
	movq	%rbx, %rdx
	callq	"deerlapse_0_1_0::sha2::block256::Core256::update"
	movq	%rdi, %rcx
	movq	%r15, %rdx
	callq	"deerlapse_0_1_0::sha2::Sha256Digest::finalize"
	movaps	(%rdi), %xmm0
	movaps	16(%rdi), %xmm1
	movups	%xmm1, 16(%rsi)
	movups	%xmm0, (%rsi)
	addq	$512, %rsp                      # imm = 0x200
	popq	%rbx
	popq	%rdi
	popq	%rsi
	popq	%r12
	popq	%r13
	popq	%r14
	popq	%r15
	retq
	.seh_endproc
                                        # -- End function
	.def	"deerlapse_0_1_0::key_derivation::hmac::HmacKey::new::<#01e4f4eb65b1d8bb>";
	.scl	3;
	.type	32;
	.endef
"deerlapse_0_1_0::key_derivation::hmac::HmacKey::new::<#01e4f4eb65b1d8bb>": # -- Begin function key_derivation::hmac::HmacKey::new::<#01e4f4eb65b1d8bb>
                                        # @"deerlapse_0_1_0::key_derivation::hmac::HmacKey::new::<#01e4f4eb65b1d8bb>"
.seh_proc "deerlapse_0_1_0::key_derivation::hmac::HmacKey::new::<#01e4f4eb65b1d8bb>"
# %bb.0:                                # %start
	pushq	%r15
	.seh_pushreg %r15
	pushq	%r14
	.seh_pushreg %r14
	pushq	%rsi
	.seh_pushreg %rsi
	pushq	%rdi
	.seh_pushreg %rdi
	pushq	%rbx
	.seh_pushreg %rbx
	subq	$1392, %rsp                     # imm = 0x570
	.seh_stackalloc 1392
	movaps	%xmm6, 1376(%rsp)               # 16-byte Spill
	.seh_savexmm %xmm6, 1376
	.seh_endprologue
	movq	%r8, %rdi
	movq	%rdx, %rbx
	movq	%rcx, %rsi
	leaq	960(%rsp), %rcx
	movl	$416, %r8d                      # imm = 0x1A0
	xorl	%edx, %edx
	callq	memset
	xorps	%xmm6, %xmm6
	movaps	%xmm6, 160(%rsp)
	movaps	%xmm6, 176(%rsp)
	movaps	%xmm6, 192(%rsp)
	movaps	%xmm6, 208(%rsp)
	movaps	%xmm6, 224(%rsp)
	movaps	%xmm6, 240(%rsp)
	movaps	%xmm6, 256(%rsp)
	movaps	%xmm6, 272(%rsp)
	leaq	544(%rsp), %rcx
	movl	$208, %r8d
	xorl	%edx, %edx
	callq	memset
	leaq	336(%rsp), %rcx
	movl	$208, %r8d
	xorl	%edx, %edx
	callq	memset
	movaps	%xmm6, 144(%rsp)
	movaps	%xmm6, 128(%rsp)
	movaps	%xmm6, 112(%rsp)
	movaps	%xmm6, 96(%rsp)
	movaps	%xmm6, 80(%rsp)
	movaps	%xmm6, 64(%rsp)
	movaps	%xmm6, 48(%rsp)
	movaps	%xmm6, 32(%rsp)
	cmpq	$129, %rdi
	jb	.Ldeerlapse_0_1_0_BB8_2
# %bb.1:                                # %then.1.i
	leaq	288(%rsp), %r14
	movaps	%xmm6, (%r14)
	movaps	%xmm6, 16(%r14)
	movaps	%xmm6, 32(%r14)
	leaq	816(%rsp), %r15
	movl	$144, %r8d
	movq	%r15, %rcx
	xorl	%edx, %edx
	callq	memset
	movabsq	$-3766243637369397544, %rax     # imm = 0xCBBB9D5DC1059ED8
	movq	%rax, -64(%r15)
	movabsq	$7105036623409894663, %rax      # imm = 0x629A292A367CD507
	movq	%rax, -56(%r15)
	movabsq	$-7973340178411365097, %rax     # imm = 0x9159015A3070DD17
	movq	%rax, -48(%r15)
	movabsq	$1526699215303891257, %rax      # imm = 0x152FECD8F70E5939
	movq	%rax, -40(%r15)
	movabsq	$7436329637833083697, %rax      # imm = 0x67332667FFC00B31
	movq	%rax, -32(%r15)
	movabsq	$-8163818279084223215, %rax     # imm = 0x8EB44A8768581511
	movq	%rax, -24(%r15)
	movabsq	$-2662702644619276377, %rax     # imm = 0xDB0C2E0D64F98FA7
	movq	%rax, -16(%r15)
	movabsq	$5167115440072839076, %rax      # imm = 0x47B5481DBEFA4FA4
	movq	%rax, -8(%r15)
	leaq	752(%rsp), %r15
	movq	%r15, %rcx
	movq	%rbx, %rdx
	movq	%rdi, %r8
	callq	"deerlapse_0_1_0::sha2::block512::Core512::update"
	movq	%r14, %rcx
	movq	%r15, %rdx
	callq	"deerlapse_0_1_0::sha2::Sha384Digest::finalize"
	movaps	(%r14), %xmm0
	movaps	16(%r14), %xmm1
	movaps	32(%r14), %xmm2
	movaps	%xmm0, 32(%rsp)
	movaps	%xmm1, 48(%rsp)
	movaps	%xmm2, 64(%rsp)
	jmp	.Ldeerlapse_0_1_0_BB8_3
.Ldeerlapse_0_1_0_BB8_2:                                # %else.2.i
	leaq	32(%rsp), %rcx
	movq	%rbx, %rdx
	movq	%rdi, %r8
	callq	memcpy
.Ldeerlapse_0_1_0_BB8_3:                                # %"key_derivation::hmac::key_block::<#01e4f4eb65b1d8bb>.exit"
	leaq	160(%rsp), %rdi
	leaq	32(%rsp), %rdx
	movl	$128, %r8d
	movq	%rdi, %rcx
	callq	memcpy
	leaq	544(%rsp), %rbx
	movq	%rbx, %rcx
	movq	%rdi, %rdx
	movb	$54, %r8b
	callq	"deerlapse_0_1_0::key_derivation::hmac::absorb_xored::<#01e4f4eb65b1d8bb>"
	leaq	336(%rsp), %r14
	movq	%r14, %rcx
	movq	%rdi, %rdx
	movb	$92, %r8b
	callq	"deerlapse_0_1_0::key_derivation::hmac::absorb_xored::<#01e4f4eb65b1d8bb>"
	leaq	960(%rsp), %rdi
	movl	$208, %r8d
	movq	%rdi, %rcx
	movq	%rbx, %rdx
	callq	memcpy
	leaq	1168(%rsp), %rcx
	movl	$208, %r8d
	movq	%r14, %rdx
	callq	memcpy
	movl	$416, %r8d                      # imm = 0x1A0
	movq	%rsi, %rcx
	movq	%rdi, %rdx
	callq	memcpy
	movaps	1376(%rsp), %xmm6               # 16-byte Reload
	addq	$1392, %rsp                     # imm = 0x570
	popq	%rbx
	popq	%rdi
	popq	%rsi
	popq	%r14
	popq	%r15
	retq
	.seh_endproc
                                        # -- End function
	.def	"deerlapse_0_1_0::sha2::Sha384Digest::finalize";
	.scl	3;
	.type	32;
	.endef
	.section	.rdata,"dr"
	.p2align	4, 0x0                          # -- Begin function sha2::Sha384Digest::finalize
.Ldeerlapse_0_1_0_CPI9_0:
	.byte	7                               # 0x7
	.byte	6                               # 0x6
	.byte	5                               # 0x5
	.byte	4                               # 0x4
	.byte	3                               # 0x3
	.byte	2                               # 0x2
	.byte	1                               # 0x1
	.byte	0                               # 0x0
	.byte	15                              # 0xf
	.byte	14                              # 0xe
	.byte	13                              # 0xd
	.byte	12                              # 0xc
	.byte	11                              # 0xb
	.byte	10                              # 0xa
	.byte	9                               # 0x9
	.byte	8                               # 0x8
	.text
"deerlapse_0_1_0::sha2::Sha384Digest::finalize":         # @"deerlapse_0_1_0::sha2::Sha384Digest::finalize"
.seh_proc "deerlapse_0_1_0::sha2::Sha384Digest::finalize"
# %bb.0:                                # %start
	pushq	%r15
	.seh_pushreg %r15
	pushq	%r14
	.seh_pushreg %r14
	pushq	%r12
	.seh_pushreg %r12
	pushq	%rsi
	.seh_pushreg %rsi
	pushq	%rdi
	.seh_pushreg %rdi
	pushq	%rbx
	.seh_pushreg %rbx
	subq	$472, %rsp                      # imm = 0x1D8
	.seh_stackalloc 472
	movaps	%xmm6, 448(%rsp)                # 16-byte Spill
	.seh_savexmm %xmm6, 448
	.seh_endprologue
	movq	%rcx, %rsi
	xorps	%xmm6, %xmm6
	movaps	%xmm6, 144(%rsp)
	movaps	%xmm6, 128(%rsp)
	movaps	%xmm6, 112(%rsp)
	movaps	%xmm6, 96(%rsp)
	leaq	240(%rsp), %rdi
	movl	$208, %r8d
	movq	%rdi, %rcx
	callq	memcpy
	movq	192(%rdi), %r14
	movq	200(%rdi), %rbx
	movl	$111, %r8d
	subl	%r14d, %r8d
	andl	$127, %r8d
	incq	%r8
	leaq	.Ldeerlapse_0_1_0_static.2(%rip), %rdx
	movq	%rdi, %rcx
	callq	"deerlapse_0_1_0::sha2::block512::Core512::update"
	leaq	(,%r14,8), %rcx
	movq	%rbx, %rdx
	shldq	$3, %r14, %rdx
	movq	%rdx, %rax
	movq	%rdx, %r8
	movq	%rdx, %r11
	movq	%rdx, %xmm0
	movq	%rdx, %r15
	shldq	$8, %rcx, %r15
	shldq	$16, %rcx, %rax
	leaq	(,%rbx,8), %r10
	movq	%r10, %rdx
	shrq	$56, %rdx
	movq	%r10, %r9
	shrq	$48, %r9
	shrq	$40, %r10
	movq	%r14, %r12
	shrq	$37, %r12
	shldq	$40, %rcx, %r8
	shldq	$48, %rcx, %r11
	movq	%r11, %xmm1
	movq	%r8, %xmm2
	punpcklbw	%xmm1, %xmm2            # xmm2 = xmm2[0],xmm1[0],xmm2[1],xmm1[1],xmm2[2],xmm1[2],xmm2[3],xmm1[3],xmm2[4],xmm1[4],xmm2[5],xmm1[5],xmm2[6],xmm1[6],xmm2[7],xmm1[7]
	pshufd	$0, %xmm2, %xmm1                # xmm1 = xmm2[0,0,0,0]
	movq	%rcx, %xmm2
	movd	%r14d, %xmm3
	psrld	$5, %xmm3
	punpcklbw	%xmm2, %xmm3            # xmm3 = xmm3[0],xmm2[0],xmm3[1],xmm2[1],xmm3[2],xmm2[2],xmm3[3],xmm2[3],xmm3[4],xmm2[4],xmm3[5],xmm2[5],xmm3[6],xmm2[6],xmm3[7],xmm2[7]
	pslldq	$14, %xmm3                      # xmm3 = zero,zero,zero,zero,zero,zero,zero,zero,zero,zero,zero,zero,zero,zero,xmm3[0,1]
	pblendw	$127, %xmm1, %xmm3              # xmm3 = xmm1[0,1,2,3,4,5,6],xmm3[7]
	movq	%rax, %xmm1
	movq	%r15, %xmm2
	punpcklbw	%xmm1, %xmm2            # xmm2 = xmm2[0],xmm1[0],xmm2[1],xmm1[1],xmm2[2],xmm1[2],xmm2[3],xmm1[3],xmm2[4],xmm1[4],xmm2[5],xmm1[5],xmm2[6],xmm1[6],xmm2[7],xmm1[7]
	pshufd	$68, %xmm2, %xmm2               # xmm2 = xmm2[0,1,0,1]
	movq	%r14, %xmm4
	psrlq	$29, %xmm4
	movd	%r12d, %xmm1
	punpcklbw	%xmm4, %xmm1            # xmm1 = xmm1[0],xmm4[0],xmm1[1],xmm4[1],xmm1[2],xmm4[2],xmm1[3],xmm4[3],xmm1[4],xmm4[4],xmm1[5],xmm4[5],xmm1[6],xmm4[6],xmm1[7],xmm4[7]
	pslldq	$10, %xmm1                      # xmm1 = zero,zero,zero,zero,zero,zero,zero,zero,zero,zero,xmm1[0,1,2,3,4,5]
	pblendw	$223, %xmm2, %xmm1              # xmm1 = xmm2[0,1,2,3,4],xmm1[5],xmm2[6,7]
	pblendw	$192, %xmm3, %xmm1              # xmm1 = xmm1[0,1,2,3,4,5],xmm3[6,7]
	movq	%rbx, %xmm2
	movdqa	%xmm2, %xmm3
	psrlq	$5, %xmm3
	punpcklbw	%xmm0, %xmm3            # xmm3 = xmm3[0],xmm0[0],xmm3[1],xmm0[1],xmm3[2],xmm0[2],xmm3[3],xmm0[3],xmm3[4],xmm0[4],xmm3[5],xmm0[5],xmm3[6],xmm0[6],xmm3[7],xmm0[7]
	psllq	$48, %xmm3
	movdqa	%xmm2, %xmm0
	psrlq	$13, %xmm0
	movdqa	%xmm2, %xmm4
	psrlq	$21, %xmm4
	punpcklbw	%xmm0, %xmm4            # xmm4 = xmm4[0],xmm0[0],xmm4[1],xmm0[1],xmm4[2],xmm0[2],xmm4[3],xmm0[3],xmm4[4],xmm0[4],xmm4[5],xmm0[5],xmm4[6],xmm0[6],xmm4[7],xmm0[7]
	pshufd	$80, %xmm4, %xmm0               # xmm0 = xmm4[0,0,1,1]
	pblendw	$8, %xmm3, %xmm0                # xmm0 = xmm0[0,1,2],xmm3[3],xmm0[4,5,6,7]
	psrlq	$29, %xmm2
	movd	%r10d, %xmm3
	punpcklbw	%xmm2, %xmm3            # xmm3 = xmm3[0],xmm2[0],xmm3[1],xmm2[1],xmm3[2],xmm2[2],xmm3[3],xmm2[3],xmm3[4],xmm2[4],xmm3[5],xmm2[5],xmm3[6],xmm2[6],xmm3[7],xmm2[7]
	movd	%r9d, %xmm2
	movd	%edx, %xmm4
	punpcklbw	%xmm2, %xmm4            # xmm4 = xmm4[0],xmm2[0],xmm4[1],xmm2[1],xmm4[2],xmm2[2],xmm4[3],xmm2[3],xmm4[4],xmm2[4],xmm4[5],xmm2[5],xmm4[6],xmm2[6],xmm4[7],xmm2[7]
	punpcklwd	%xmm3, %xmm4            # xmm4 = xmm4[0],xmm3[0],xmm4[1],xmm3[1],xmm4[2],xmm3[2],xmm4[3],xmm3[3]
	pblendw	$12, %xmm0, %xmm4               # xmm4 = xmm4[0,1],xmm0[2,3],xmm4[4,5,6,7]
	pblendw	$240, %xmm1, %xmm4              # xmm4 = xmm4[0,1,2,3],xmm1[4,5,6,7]
	leaq	224(%rsp), %rdx
	movdqa	%xmm4, (%rdx)
	movl	$16, %r8d
	movq	%rdi, %rcx
	callq	"deerlapse_0_1_0::sha2::block512::Core512::update"
	movdqa	(%rdi), %xmm0
	movaps	16(%rdi), %xmm1
	movaps	32(%rdi), %xmm2
	movaps	48(%rdi), %xmm3
	movaps	%xmm3, 208(%rsp)
	movaps	%xmm2, 192(%rsp)
	movaps	%xmm1, 176(%rsp)
	movdqa	%xmm0, 160(%rsp)
	movaps	%xmm6, 32(%rsp)
	movaps	%xmm6, 48(%rsp)
	movaps	%xmm6, 64(%rsp)
	movaps	%xmm6, 80(%rsp)
	xorl	%eax, %eax
.Ldeerlapse_0_1_0_BB9_1:                                # %vector.body
                                        # =>This Inner Loop Header: Depth=1
	movdqu	160(%rsp,%rax,8), %xmm0
	pshufb	.Ldeerlapse_0_1_0_CPI9_0(%rip), %xmm0           # xmm0 = xmm0[7,6,5,4,3,2,1,0,15,14,13,12,11,10,9,8]
	movdqu	%xmm0, 32(%rsp,%rax,8)
	addq	$2, %rax
	cmpq	$8, %rax
	jne	.Ldeerlapse_0_1_0_BB9_1
# %bb.2:                                # %"sha2::block512::Core512::finalize.exit"
	movaps	32(%rsp), %xmm0
	movaps	48(%rsp), %xmm1
	movaps	64(%rsp), %xmm2
	movaps	80(%rsp), %xmm3
	movaps	%xmm3, 144(%rsp)
	movaps	%xmm2, 128(%rsp)
	movaps	%xmm1, 112(%rsp)
	movaps	%xmm0, 96(%rsp)
	movups	%xmm2, 32(%rsi)
	movups	%xmm1, 16(%rsi)
	movups	%xmm0, (%rsi)
	movaps	448(%rsp), %xmm6                # 16-byte Reload
	addq	$472, %rsp                      # imm = 0x1D8
	popq	%rbx
	popq	%rdi
	popq	%rsi
	popq	%r12
	popq	%r14
	popq	%r15
	retq
	.seh_endproc
                                        # -- End function
	.def	"deerlapse_0_1_0::sha2::block512::Core512::update";
	.scl	3;
	.type	32;
	.endef
"deerlapse_0_1_0::sha2::block512::Core512::update":      # -- Begin function sha2::block512::Core512::update
                                        # @"deerlapse_0_1_0::sha2::block512::Core512::update"
.seh_proc "deerlapse_0_1_0::sha2::block512::Core512::update"
# %bb.0:                                # %start
	pushq	%r15
	.seh_pushreg %r15
	pushq	%r14
	.seh_pushreg %r14
	pushq	%r13
	.seh_pushreg %r13
	pushq	%r12
	.seh_pushreg %r12
	pushq	%rsi
	.seh_pushreg %rsi
	pushq	%rdi
	.seh_pushreg %rdi
	pushq	%rbx
	.seh_pushreg %rbx
	subq	$32, %rsp
	.seh_stackalloc 32
	.seh_endprologue
	movq	%r8, %rsi
	movq	%rcx, %rbx
	movq	192(%rcx), %rax
	movq	%rax, %rcx
	addq	%r8, %rcx
	adcq	$0, 200(%rbx)
	movq	%rdx, %rdi
	movq	%rcx, 192(%rbx)
	andq	$127, %rax
	je	.Ldeerlapse_0_1_0_BB10_1
# %bb.6:                                # %then.1
	movl	$128, %r14d
	subq	%rax, %r14
	leaq	(%rbx,%rax), %rcx
	addq	$64, %rcx
	movq	%rcx, %rax
	subq	%rdi, %rax
	cmpq	%r14, %rsi
	jae	.Ldeerlapse_0_1_0_BB10_7
# %bb.2:                                # %then.4
	cmpq	%rsi, %rax
	jae	.Ldeerlapse_0_1_0_BB10_18
# %bb.3:                                # %join.7.i.i.i.i.i.i.preheader
	xorl	%eax, %eax
.Ldeerlapse_0_1_0_BB10_4:                               # %join.7.i.i.i.i.i.i
                                        # =>This Inner Loop Header: Depth=1
	movb	(%rdi,%rax), %dl
	movb	%dl, (%rcx,%rax)
	incq	%rax
	cmpq	%rax, %rsi
	jne	.Ldeerlapse_0_1_0_BB10_4
	jmp	.Ldeerlapse_0_1_0_BB10_5
.Ldeerlapse_0_1_0_BB10_1:
	xorl	%r14d, %r14d
	jmp	.Ldeerlapse_0_1_0_BB10_11
.Ldeerlapse_0_1_0_BB10_7:                               # %join.6
	leaq	64(%rbx), %r15
	cmpq	%r14, %rax
	jae	.Ldeerlapse_0_1_0_BB10_19
# %bb.8:                                # %join.7.i.i.i.i.i.i37.preheader
	xorl	%eax, %eax
.Ldeerlapse_0_1_0_BB10_9:                               # %join.7.i.i.i.i.i.i37
                                        # =>This Inner Loop Header: Depth=1
	movb	(%rdi,%rax), %dl
	movb	%dl, (%rcx,%rax)
	incq	%rax
	cmpq	%rax, %r14
	jne	.Ldeerlapse_0_1_0_BB10_9
	jmp	.Ldeerlapse_0_1_0_BB10_10
.Ldeerlapse_0_1_0_BB10_19:                              # %apart.2.i.i.i.i.i.i36
	movq	%rdi, %rdx
	movq	%r14, %r8
	callq	memmove
.Ldeerlapse_0_1_0_BB10_10:                              # %"core::slice::edits::slice+T::copy_from_slice::<i8,20'core::clone::U8Clone{}>.exit44"
	movq	%rbx, %rcx
	movq	%r15, %rdx
	callq	"deerlapse_0_1_0::sha2::block512::compress"
.Ldeerlapse_0_1_0_BB10_11:                              # %join.3
	movq	%rsi, %r12
	subq	%r14, %r12
	movq	%r12, %r13
	shrq	$7, %r13
	je	.Ldeerlapse_0_1_0_BB10_14
# %bb.12:                               # %join.11.lr.ph
	leaq	(%rdi,%r14), %r15
.Ldeerlapse_0_1_0_BB10_13:                              # %join.11
                                        # =>This Inner Loop Header: Depth=1
	movq	%rbx, %rcx
	movq	%r15, %rdx
	callq	"deerlapse_0_1_0::sha2::block512::compress"
	subq	$-128, %r15
	decq	%r13
	jne	.Ldeerlapse_0_1_0_BB10_13
.Ldeerlapse_0_1_0_BB10_14:                              # %after.7
	andq	$-128, %r12
	addq	%r14, %r12
	addq	%r12, %rdi
	subq	%r12, %rsi
	addq	$64, %rbx
	movq	%rbx, %rax
	subq	%rdi, %rax
	cmpq	%rsi, %rax
	jae	.Ldeerlapse_0_1_0_BB10_17
# %bb.15:                               # %join.7.i.i.i.i.i.i50.preheader
	xorl	%eax, %eax
.Ldeerlapse_0_1_0_BB10_16:                              # %join.7.i.i.i.i.i.i50
                                        # =>This Inner Loop Header: Depth=1
	movb	(%rdi,%rax), %cl
	movb	%cl, (%rbx,%rax)
	incq	%rax
	cmpq	%rax, %rsi
	jne	.Ldeerlapse_0_1_0_BB10_16
.Ldeerlapse_0_1_0_BB10_5:                               # %common.ret
	addq	$32, %rsp
	popq	%rbx
	popq	%rdi
	popq	%rsi
	popq	%r12
	popq	%r13
	popq	%r14
	popq	%r15
	retq
.Ldeerlapse_0_1_0_BB10_17:                              # %apart.2.i.i.i.i.i.i49
	movq	%rbx, %rcx
.Ldeerlapse_0_1_0_BB10_18:                              # %apart.2.i.i.i.i.i.i
	movq	%rdi, %rdx
	movq	%rsi, %r8
	addq	$32, %rsp
	popq	%rbx
	popq	%rdi
	popq	%rsi
	popq	%r12
	popq	%r13
	popq	%r14
	popq	%r15
	jmp	memmove                         # TAILCALL
	.seh_endproc
                                        # -- End function
	.def	"deerlapse_0_1_0::sha2::block512::compress";
	.scl	3;
	.type	32;
	.endef
	.section	.rdata,"dr"
	.p2align	4, 0x0                          # -- Begin function sha2::block512::compress
.Ldeerlapse_0_1_0_CPI11_0:
	.byte	7                               # 0x7
	.byte	6                               # 0x6
	.byte	5                               # 0x5
	.byte	4                               # 0x4
	.byte	3                               # 0x3
	.byte	2                               # 0x2
	.byte	1                               # 0x1
	.byte	0                               # 0x0
	.byte	15                              # 0xf
	.byte	14                              # 0xe
	.byte	13                              # 0xd
	.byte	12                              # 0xc
	.byte	11                              # 0xb
	.byte	10                              # 0xa
	.byte	9                               # 0x9
	.byte	8                               # 0x8
	.text
"deerlapse_0_1_0::sha2::block512::compress":             # @"deerlapse_0_1_0::sha2::block512::compress"
.seh_proc "deerlapse_0_1_0::sha2::block512::compress"
# %bb.0:                                # %start
	pushq	%r15
	.seh_pushreg %r15
	pushq	%r14
	.seh_pushreg %r14
	pushq	%r13
	.seh_pushreg %r13
	pushq	%r12
	.seh_pushreg %r12
	pushq	%rsi
	.seh_pushreg %rsi
	pushq	%rdi
	.seh_pushreg %rdi
	pushq	%rbp
	.seh_pushreg %rbp
	pushq	%rbx
	.seh_pushreg %rbx
	subq	$392, %rsp                      # imm = 0x188
	.seh_stackalloc 392
	.seh_endprologue
	pxor	%xmm0, %xmm0
	movdqa	%xmm0, 368(%rsp)
	movdqa	%xmm0, 352(%rsp)
	movdqa	%xmm0, 336(%rsp)
	movdqa	%xmm0, 320(%rsp)
	movdqa	%xmm0, 304(%rsp)
	movdqa	%xmm0, 288(%rsp)
	movdqa	%xmm0, 272(%rsp)
	movdqa	%xmm0, 256(%rsp)
	xorl	%eax, %eax
.Ldeerlapse_0_1_0_BB11_1:                               # %vector.body
                                        # =>This Inner Loop Header: Depth=1
	movdqu	(%rdx,%rax,8), %xmm0
	pshufb	.Ldeerlapse_0_1_0_CPI11_0(%rip), %xmm0          # xmm0 = xmm0[7,6,5,4,3,2,1,0,15,14,13,12,11,10,9,8]
	movdqu	%xmm0, 256(%rsp,%rax,8)
	addq	$2, %rax
	cmpq	$16, %rax
	jne	.Ldeerlapse_0_1_0_BB11_1
# %bb.2:                                # %after.3
	movq	(%rcx), %r12
	movq	8(%rcx), %r15
	movq	16(%rcx), %rdi
	movq	24(%rcx), %r9
	movq	32(%rcx), %rsi
	movq	40(%rcx), %r11
	movq	48(%rcx), %r8
	movq	%rcx, 224(%rsp)                 # 8-byte Spill
	movq	56(%rcx), %rax
	movq	%rsi, %rcx
	shldq	$41, %rcx, %rcx
	xorq	%rsi, %rcx
	shldq	$60, %rcx, %rcx
	xorq	%rsi, %rcx
	shldq	$50, %rcx, %rcx
	movq	%r8, %rdx
	xorq	%r11, %rdx
	andq	%rsi, %rdx
	xorq	%r8, %rdx
	movq	256(%rsp), %r10
	movq	264(%rsp), %rbx
	movq	%rax, 216(%rsp)                 # 8-byte Spill
	movq	%r10, 88(%rsp)                  # 8-byte Spill
	addq	%r10, %rax
	addq	%rax, %rdx
	movabsq	$4794697086780616226, %rax      # imm = 0x428A2F98D728AE22
	addq	%rdx, %rax
	addq	%rcx, %rax
	movq	%r12, %rcx
	shldq	$59, %rcx, %rcx
	xorq	%r12, %rcx
	shldq	$58, %rcx, %rcx
	xorq	%r12, %rcx
	shldq	$36, %rcx, %rcx
	movq	%r15, %rdx
	xorq	%r12, %rdx
	movq	%rdi, %r10
	xorq	%r15, %r10
	andq	%rdx, %r10
	xorq	%r15, %r10
	addq	%rcx, %r10
	addq	%rax, %r10
	movq	%r9, 184(%rsp)                  # 8-byte Spill
	addq	%r9, %rax
	movq	%r11, %rcx
	xorq	%rsi, %rcx
	andq	%rax, %rcx
	xorq	%r11, %rcx
	movq	%r8, 208(%rsp)                  # 8-byte Spill
	movq	%rbx, 80(%rsp)                  # 8-byte Spill
	addq	%rbx, %r8
	addq	%r8, %rcx
	movq	%rax, %r8
	shldq	$41, %r8, %r8
	xorq	%rax, %r8
	shldq	$60, %r8, %r8
	movabsq	$8158064640168781261, %rbx      # imm = 0x7137449123EF65CD
	addq	%rcx, %rbx
	xorq	%rax, %r8
	shldq	$50, %r8, %r8
	addq	%r8, %rbx
	movq	%r10, %rcx
	shldq	$59, %rcx, %rcx
	xorq	%r10, %rcx
	shldq	$58, %rcx, %rcx
	xorq	%r10, %rcx
	shldq	$36, %rcx, %rcx
	movq	%r10, %r9
	xorq	%r12, %r9
	andq	%r9, %rdx
	xorq	%r12, %rdx
	addq	%rcx, %rdx
	addq	%rbx, %rdx
	movq	%rdi, 176(%rsp)                 # 8-byte Spill
	addq	%rdi, %rbx
	movq	%rbx, %rcx
	shldq	$41, %rcx, %rcx
	xorq	%rbx, %rcx
	shldq	$60, %rcx, %rcx
	xorq	%rbx, %rcx
	shldq	$50, %rcx, %rcx
	movq	%rax, %r8
	xorq	%rsi, %r8
	andq	%rbx, %r8
	xorq	%rsi, %r8
	movq	272(%rsp), %rdi
	movq	%r11, 200(%rsp)                 # 8-byte Spill
	movq	%rdi, 136(%rsp)                 # 8-byte Spill
	addq	%rdi, %r11
	addq	%r11, %r8
	movq	%rdx, %r11
	shldq	$59, %r11, %r11
	xorq	%rdx, %r11
	shldq	$58, %r11, %r11
	movabsq	$-5349999486874862801, %r14     # imm = 0xB5C0FBCFEC4D3B2F
	addq	%r8, %r14
	xorq	%rdx, %r11
	shldq	$36, %r11, %r11
	addq	%rcx, %r14
	movq	%rdx, %r8
	xorq	%r10, %r8
	andq	%r8, %r9
	xorq	%r10, %r9
	addq	%r11, %r9
	addq	%r14, %r9
	movq	%r15, 168(%rsp)                 # 8-byte Spill
	addq	%r15, %r14
	movq	%r14, %rcx
	shldq	$41, %rcx, %rcx
	xorq	%r14, %rcx
	shldq	$60, %rcx, %rcx
	movq	%rbx, %r11
	xorq	%rax, %r11
	andq	%r14, %r11
	xorq	%rax, %r11
	movq	280(%rsp), %rdi
	movq	%rsi, 192(%rsp)                 # 8-byte Spill
	movq	%rdi, 128(%rsp)                 # 8-byte Spill
	addq	%rdi, %rsi
	addq	%rsi, %r11
	xorq	%r14, %rcx
	shldq	$50, %rcx, %rcx
	movq	%r9, %rsi
	shldq	$59, %rsi, %rsi
	movabsq	$-1606136188198331460, %rdi     # imm = 0xE9B5DBA58189DBBC
	addq	%r11, %rdi
	xorq	%r9, %rsi
	shldq	$58, %rsi, %rsi
	addq	%rcx, %rdi
	xorq	%r9, %rsi
	shldq	$36, %rsi, %rsi
	movq	%r9, %rcx
	xorq	%rdx, %rcx
	andq	%rcx, %r8
	xorq	%rdx, %r8
	addq	%rsi, %r8
	addq	%rdi, %r8
	movq	%r12, 160(%rsp)                 # 8-byte Spill
	addq	%r12, %rdi
	movq	%rdi, %rsi
	shldq	$41, %rsi, %rsi
	movq	%r14, %r11
	xorq	%rbx, %r11
	andq	%rdi, %r11
	xorq	%rbx, %r11
	movq	288(%rsp), %r15
	movq	%r15, 120(%rsp)                 # 8-byte Spill
	addq	%r15, %rax
	addq	%r11, %rax
	xorq	%rdi, %rsi
	shldq	$60, %rsi, %rsi
	xorq	%rdi, %rsi
	shldq	$50, %rsi, %rsi
	movabsq	$4131703408338449720, %r11      # imm = 0x3956C25BF348B538
	addq	%rax, %r11
	movq	%r8, %r15
	shldq	$59, %r15, %r15
	addq	%rsi, %r11
	xorq	%r8, %r15
	shldq	$58, %r15, %r15
	xorq	%r8, %r15
	shldq	$36, %r15, %r15
	movq	%r8, %rax
	xorq	%r9, %rax
	andq	%rax, %rcx
	xorq	%r9, %rcx
	addq	%r15, %rcx
	addq	%r11, %rcx
	addq	%r10, %r11
	movq	%rdi, %r10
	xorq	%r14, %r10
	andq	%r11, %r10
	xorq	%r14, %r10
	movq	296(%rsp), %rsi
	movq	%rsi, 72(%rsp)                  # 8-byte Spill
	addq	%rsi, %rbx
	addq	%r10, %rbx
	movq	%r11, %r10
	shldq	$41, %r10, %r10
	xorq	%r11, %r10
	shldq	$60, %r10, %r10
	movabsq	$6480981068601479193, %rsi      # imm = 0x59F111F1B605D019
	addq	%rbx, %rsi
	xorq	%r11, %r10
	shldq	$50, %r10, %r10
	addq	%r10, %rsi
	movq	%rcx, %rbx
	shldq	$59, %rbx, %rbx
	xorq	%rcx, %rbx
	shldq	$58, %rbx, %rbx
	xorq	%rcx, %rbx
	shldq	$36, %rbx, %rbx
	movq	%rcx, %r10
	xorq	%r8, %r10
	andq	%r10, %rax
	xorq	%r8, %rax
	addq	%rbx, %rax
	addq	%rsi, %rax
	addq	%rdx, %rsi
	movq	%rsi, %rdx
	shldq	$41, %rdx, %rdx
	xorq	%rsi, %rdx
	shldq	$60, %rdx, %rdx
	xorq	%rsi, %rdx
	shldq	$50, %rdx, %rdx
	movq	%r11, %rbx
	xorq	%rdi, %rbx
	andq	%rsi, %rbx
	xorq	%rdi, %rbx
	movq	304(%rsp), %r15
	movq	%r15, 64(%rsp)                  # 8-byte Spill
	addq	%r15, %r14
	addq	%rbx, %r14
	movq	%rax, %r15
	shldq	$59, %r15, %r15
	xorq	%rax, %r15
	shldq	$58, %r15, %r15
	movabsq	$-7908458776815382629, %rbx     # imm = 0x923F82A4AF194F9B
	addq	%r14, %rbx
	xorq	%rax, %r15
	shldq	$36, %r15, %r15
	addq	%rdx, %rbx
	movq	%rax, %rdx
	xorq	%rcx, %rdx
	andq	%rdx, %r10
	xorq	%rcx, %r10
	addq	%r15, %r10
	addq	%rbx, %r10
	addq	%r9, %rbx
	movq	%rbx, %r9
	shldq	$41, %r9, %r9
	xorq	%rbx, %r9
	shldq	$60, %r9, %r9
	movq	%rsi, %r14
	xorq	%r11, %r14
	andq	%rbx, %r14
	xorq	%r11, %r14
	movq	312(%rsp), %r15
	movq	%r15, 112(%rsp)                 # 8-byte Spill
	addq	%r15, %rdi
	addq	%r14, %rdi
	xorq	%rbx, %r9
	shldq	$50, %r9, %r9
	movq	%r10, %r15
	shldq	$59, %r15, %r15
	movabsq	$-6116909921290321640, %r14     # imm = 0xAB1C5ED5DA6D8118
	addq	%rdi, %r14
	xorq	%r10, %r15
	shldq	$58, %r15, %r15
	addq	%r9, %r14
	xorq	%r10, %r15
	shldq	$36, %r15, %r15
	movq	%r10, %r9
	xorq	%rax, %r9
	andq	%r9, %rdx
	xorq	%rax, %rdx
	addq	%r15, %rdx
	addq	%r14, %rdx
	addq	%r8, %r14
	movq	%r14, %r8
	shldq	$41, %r8, %r8
	movq	%rbx, %rdi
	xorq	%rsi, %rdi
	andq	%r14, %rdi
	xorq	%rsi, %rdi
	movq	320(%rsp), %r15
	movq	%r15, 152(%rsp)                 # 8-byte Spill
	addq	%r15, %r11
	addq	%rdi, %r11
	xorq	%r14, %r8
	shldq	$60, %r8, %r8
	xorq	%r14, %r8
	shldq	$50, %r8, %r8
	movabsq	$-2880145864133508542, %rdi     # imm = 0xD807AA98A3030242
	addq	%r11, %rdi
	movq	%rdx, %r11
	shldq	$59, %r11, %r11
	addq	%r8, %rdi
	xorq	%rdx, %r11
	shldq	$58, %r11, %r11
	xorq	%rdx, %r11
	shldq	$36, %r11, %r11
	movq	%rdx, %r8
	xorq	%r10, %r8
	andq	%r8, %r9
	xorq	%r10, %r9
	addq	%r11, %r9
	addq	%rdi, %r9
	addq	%rcx, %rdi
	movq	%r14, %rcx
	xorq	%rbx, %rcx
	andq	%rdi, %rcx
	xorq	%rbx, %rcx
	movq	328(%rsp), %r13
	addq	%r13, %rsi
	addq	%rcx, %rsi
	movq	%rdi, %r11
	shldq	$41, %r11, %r11
	xorq	%rdi, %r11
	shldq	$60, %r11, %r11
	movabsq	$1334009975649890238, %rcx      # imm = 0x12835B0145706FBE
	addq	%rsi, %rcx
	xorq	%rdi, %r11
	shldq	$50, %r11, %r11
	addq	%r11, %rcx
	movq	%r9, %r11
	shldq	$59, %r11, %r11
	xorq	%r9, %r11
	shldq	$58, %r11, %r11
	xorq	%r9, %r11
	shldq	$36, %r11, %r11
	movq	%r9, %r15
	xorq	%rdx, %r15
	andq	%r15, %r8
	xorq	%rdx, %r8
	addq	%r11, %r8
	addq	%rcx, %r8
	addq	%rax, %rcx
	movq	%rcx, %rax
	shldq	$41, %rax, %rax
	xorq	%rcx, %rax
	shldq	$60, %rax, %rax
	xorq	%rcx, %rax
	shldq	$50, %rax, %rax
	movq	%rdi, %r11
	xorq	%r14, %r11
	andq	%rcx, %r11
	xorq	%r14, %r11
	movq	336(%rsp), %rsi
	movq	%rsi, 104(%rsp)                 # 8-byte Spill
	addq	%rsi, %rbx
	addq	%r11, %rbx
	movq	%r8, %r11
	shldq	$59, %r11, %r11
	xorq	%r8, %r11
	shldq	$58, %r11, %r11
	movabsq	$2608012711638119052, %rsi      # imm = 0x243185BE4EE4B28C
	addq	%rbx, %rsi
	xorq	%r8, %r11
	shldq	$36, %r11, %r11
	addq	%rax, %rsi
	movq	%r8, %rax
	xorq	%r9, %rax
	andq	%rax, %r15
	xorq	%r9, %r15
	addq	%r11, %r15
	addq	%rsi, %r15
	addq	%r10, %rsi
	movq	%rsi, %r10
	shldq	$41, %r10, %r10
	xorq	%rsi, %r10
	shldq	$60, %r10, %r10
	movq	%rcx, %r11
	xorq	%rdi, %r11
	andq	%rsi, %r11
	xorq	%rdi, %r11
	movq	344(%rsp), %rbx
	movq	%rbx, 40(%rsp)                  # 8-byte Spill
	addq	%rbx, %r14
	addq	%r11, %r14
	xorq	%rsi, %r10
	shldq	$50, %r10, %r10
	movq	%r15, %r11
	shldq	$59, %r11, %r11
	movabsq	$6128411473006802146, %rbx      # imm = 0x550C7DC3D5FFB4E2
	addq	%r14, %rbx
	xorq	%r15, %r11
	shldq	$58, %r11, %r11
	addq	%r10, %rbx
	xorq	%r15, %r11
	shldq	$36, %r11, %r11
	movq	%r15, %r12
	xorq	%r8, %r12
	andq	%r12, %rax
	xorq	%r8, %rax
	addq	%r11, %rax
	addq	%rbx, %rax
	addq	%rdx, %rbx
	movq	%rbx, %rdx
	shldq	$41, %rdx, %rdx
	movq	%rsi, %r10
	xorq	%rcx, %r10
	andq	%rbx, %r10
	xorq	%rcx, %r10
	movq	352(%rsp), %r11
	movq	%r11, 16(%rsp)                  # 8-byte Spill
	addq	%r11, %rdi
	addq	%r10, %rdi
	xorq	%rbx, %rdx
	shldq	$60, %rdx, %rdx
	xorq	%rbx, %rdx
	shldq	$50, %rdx, %rdx
	movabsq	$8268148722764581231, %r14      # imm = 0x72BE5D74F27B896F
	addq	%rdi, %r14
	movq	%rax, %r11
	shldq	$59, %r11, %r11
	addq	%rdx, %r14
	xorq	%rax, %r11
	shldq	$58, %r11, %r11
	xorq	%rax, %r11
	shldq	$36, %r11, %r11
	movq	%rax, %r10
	xorq	%r15, %r10
	andq	%r10, %r12
	xorq	%r15, %r12
	addq	%r11, %r12
	movq	%r13, %r11
	movq	%r12, %r13
	addq	%r14, %r13
	addq	%r9, %r14
	movq	%rbx, %rdx
	xorq	%rsi, %rdx
	andq	%r14, %rdx
	xorq	%rsi, %rdx
	movq	360(%rsp), %r9
	movq	%r9, 24(%rsp)                   # 8-byte Spill
	addq	%r9, %rcx
	addq	%rdx, %rcx
	movq	%r14, %rdx
	shldq	$41, %rdx, %rdx
	xorq	%r14, %rdx
	shldq	$60, %rdx, %rdx
	movabsq	$-9160688886553864527, %r12     # imm = 0x80DEB1FE3B1696B1
	addq	%rcx, %r12
	xorq	%r14, %rdx
	shldq	$50, %rdx, %rdx
	addq	%rdx, %r12
	movq	%r13, %rdx
	shldq	$59, %rdx, %rdx
	xorq	%r13, %rdx
	shldq	$58, %rdx, %rdx
	xorq	%r13, %rdx
	shldq	$36, %rdx, %rdx
	movq	%r13, %rcx
	xorq	%rax, %rcx
	andq	%rcx, %r10
	xorq	%rax, %r10
	addq	%rdx, %r10
	addq	%r12, %r10
	addq	%r8, %r12
	movq	%r12, %rdx
	shldq	$41, %rdx, %rdx
	xorq	%r12, %rdx
	shldq	$60, %rdx, %rdx
	xorq	%r12, %rdx
	shldq	$50, %rdx, %rdx
	movq	%r14, %r8
	xorq	%rbx, %r8
	andq	%r12, %r8
	xorq	%rbx, %r8
	movq	368(%rsp), %rbp
	addq	%rbp, %rsi
	addq	%r8, %rsi
	movq	%r10, %r8
	shldq	$59, %r8, %r8
	xorq	%r10, %r8
	shldq	$58, %r8, %r8
	movabsq	$-7215885187991268811, %rdi     # imm = 0x9BDC06A725C71235
	addq	%rsi, %rdi
	xorq	%r10, %r8
	shldq	$36, %r8, %r8
	addq	%rdx, %rdi
	movq	%r10, %rdx
	xorq	%r13, %rdx
	andq	%rdx, %rcx
	xorq	%r13, %rcx
	addq	%r8, %rcx
	addq	%rdi, %rcx
	addq	%r15, %rdi
	movq	%r12, %r8
	xorq	%r14, %r8
	andq	%rdi, %r8
	xorq	%r14, %r8
	movq	376(%rsp), %r9
	movq	%r9, 32(%rsp)                   # 8-byte Spill
	addq	%r9, %rbx
	addq	%r8, %rbx
	movabsq	$-4495734319001033068, %r9      # imm = 0xC19BF174CF692694
	addq	%rbx, %r9
	movq	%rdi, %r8
	shldq	$41, %r8, %r8
	xorq	%rdi, %r8
	shldq	$60, %r8, %r8
	xorq	%rdi, %r8
	shldq	$50, %r8, %r8
	addq	%r8, %r9
	movq	%rcx, %r8
	shldq	$59, %r8, %r8
	movq	%rcx, %rbx
	xorq	%r10, %rbx
	andq	%rdx, %rbx
	xorq	%rcx, %r8
	shldq	$58, %r8, %r8
	xorq	%rcx, %r8
	shldq	$36, %r8, %r8
	xorq	%r10, %rbx
	addq	%r8, %rbx
	addq	%r9, %rbx
	addq	%rax, %r9
	movq	%rbp, %rax
	xorl	%esi, %esi
.Ldeerlapse_0_1_0_BB11_3:                               # %join.12
                                        # =>This Inner Loop Header: Depth=1
	movq	%r11, 248(%rsp)                 # 8-byte Spill
	movq	%rsi, 8(%rsp)                   # 8-byte Spill
	movq	%rax, %rdx
	movq	%rax, 48(%rsp)                  # 8-byte Spill
	shldq	$22, %rax, %rax
	xorq	%rdx, %rax
	shldq	$45, %rax, %rax
	shrq	$6, %rdx
	xorq	%rax, %rdx
	movq	80(%rsp), %rbp                  # 8-byte Reload
	movq	%rbp, %r8
	shldq	$57, %r8, %r8
	movq	%rbp, %rax
	shrq	$7, %rax
	xorq	%rbp, %r8
	shldq	$63, %r8, %r8
	xorq	%rax, %r8
	movq	%r9, %rax
	shldq	$41, %rax, %rax
	movq	%r13, %r15
	movq	88(%rsp), %r13                  # 8-byte Reload
	addq	%r11, %r13
	xorq	%r9, %rax
	shldq	$60, %rax, %rax
	addq	%rdx, %r13
	xorq	%r9, %rax
	shldq	$50, %rax, %rax
	addq	%r8, %r13
	movq	%r13, 88(%rsp)                  # 8-byte Spill
	movq	%r13, %rdx
	movq	%r12, %r13
	xorq	%rdi, %r13
	andq	%r9, %r13
	xorq	%r12, %r13
	movq	%rbx, %r11
	shldq	$59, %r11, %r11
	addq	%r14, %r13
	xorq	%rbx, %r11
	shldq	$58, %r11, %r11
	addq	%rax, %r13
	xorq	%rbx, %r11
	shldq	$36, %r11, %r11
	movq	%rcx, %r8
	xorq	%rbx, %r8
	movq	%r10, %r14
	xorq	%rcx, %r14
	andq	%r8, %r14
	xorq	%rcx, %r14
	addq	%r11, %r14
	leaq	.Ldeerlapse_0_1_0_static.3(%rip), %rax
	addq	128(%rsi,%rax), %r13
	addq	%rdx, %r13
	addq	%r13, %r14
	addq	%r15, %r13
	movq	%r13, %r15
	movq	32(%rsp), %r11                  # 8-byte Reload
	movq	%r11, %rax
	shldq	$22, %rax, %rax
	xorq	%r11, %rax
	shldq	$45, %rax, %rax
	shrq	$6, %r11
	xorq	%rax, %r11
	movq	136(%rsp), %r13                 # 8-byte Reload
	movq	%r13, %rax
	shrq	$7, %rax
	movq	%r13, %rsi
	shldq	$57, %rsi, %rsi
	xorq	%r13, %rsi
	shldq	$63, %rsi, %rsi
	xorq	%rax, %rsi
	addq	104(%rsp), %rbp                 # 8-byte Folded Reload
	addq	%r11, %rbp
	movq	%r15, %rax
	shldq	$41, %rax, %rax
	addq	%rsi, %rbp
	movq	%rbp, 80(%rsp)                  # 8-byte Spill
	xorq	%r15, %rax
	shldq	$60, %rax, %rax
	xorq	%r15, %rax
	shldq	$50, %rax, %rax
	movq	%rdi, %r11
	xorq	%r9, %r11
	andq	%r15, %r11
	movq	8(%rsp), %rsi                   # 8-byte Reload
	leaq	.Ldeerlapse_0_1_0_static.3(%rip), %rdx
	addq	136(%rsi,%rdx), %r12
	xorq	%rdi, %r11
	movq	%r14, %rsi
	shldq	$59, %rsi, %rsi
	addq	%rbp, %r12
	xorq	%r14, %rsi
	shldq	$58, %rsi, %rsi
	addq	%r11, %r12
	xorq	%r14, %rsi
	shldq	$36, %rsi, %rsi
	addq	%rax, %r12
	movq	%r14, %rax
	xorq	%rbx, %rax
	andq	%rax, %r8
	xorq	%rbx, %r8
	addq	%rsi, %r8
	addq	%r12, %r8
	addq	%r10, %r12
	movq	88(%rsp), %r11                  # 8-byte Reload
	movq	%r11, %r10
	shldq	$22, %r10, %r10
	xorq	%r11, %r10
	shldq	$45, %r10, %r10
	shrq	$6, %r11
	xorq	%r10, %r11
	movq	128(%rsp), %rbp                 # 8-byte Reload
	movq	%rbp, %r10
	shldq	$57, %r10, %r10
	xorq	%rbp, %r10
	shldq	$63, %r10, %r10
	movq	%rbp, %rsi
	shrq	$7, %rsi
	xorq	%rsi, %r10
	addq	40(%rsp), %r13                  # 8-byte Folded Reload
	addq	%r10, %r13
	addq	%r11, %r13
	movq	%r12, %r10
	shldq	$41, %r10, %r10
	xorq	%r12, %r10
	shldq	$60, %r10, %r10
	xorq	%r12, %r10
	shldq	$50, %r10, %r10
	movq	%r15, %r11
	xorq	%r9, %r11
	andq	%r12, %r11
	xorq	%r9, %r11
	movq	8(%rsp), %rsi                   # 8-byte Reload
	addq	144(%rsi,%rdx), %rdi
	addq	%r13, %rdi
	movq	%r8, %rsi
	shldq	$59, %rsi, %rsi
	addq	%r11, %rdi
	movq	%r8, %rdx
	xorq	%r8, %rsi
	shldq	$58, %rsi, %rsi
	addq	%r10, %rdi
	xorq	%r8, %rsi
	shldq	$36, %rsi, %rsi
	xorq	%r14, %r8
	andq	%r8, %rax
	xorq	%r14, %rax
	addq	%rsi, %rax
	movq	80(%rsp), %r11                  # 8-byte Reload
	movq	%r11, %r10
	shldq	$22, %r10, %r10
	addq	%rdi, %rax
	xorq	%r11, %r10
	shldq	$45, %r10, %r10
	addq	%rcx, %rdi
	movq	%r11, %rcx
	shrq	$6, %rcx
	xorq	%r10, %rcx
	movq	120(%rsp), %rsi                 # 8-byte Reload
	movq	%rsi, %r10
	shldq	$57, %r10, %r10
	movq	%rsi, %r11
	shrq	$7, %r11
	xorq	%rsi, %r10
	shldq	$63, %r10, %r10
	xorq	%r11, %r10
	movq	%rdi, %r11
	shldq	$41, %r11, %r11
	addq	16(%rsp), %rbp                  # 8-byte Folded Reload
	xorq	%rdi, %r11
	shldq	$60, %r11, %r11
	addq	%r10, %rbp
	xorq	%rdi, %r11
	shldq	$50, %r11, %r11
	addq	%rcx, %rbp
	movq	%r12, %rcx
	movq	%r15, 144(%rsp)                 # 8-byte Spill
	xorq	%r15, %rcx
	andq	%rdi, %rcx
	xorq	%r15, %rcx
	movq	8(%rsp), %r10                   # 8-byte Reload
	leaq	.Ldeerlapse_0_1_0_static.3(%rip), %r15
	addq	152(%r10,%r15), %r9
	addq	%rbp, %r9
	addq	%rcx, %r9
	movq	%rax, 56(%rsp)                  # 8-byte Spill
	movq	%rax, %rcx
	shldq	$59, %rcx, %rcx
	addq	%r11, %r9
	xorq	%rax, %rcx
	shldq	$58, %rcx, %rcx
	xorq	%rax, %rcx
	shldq	$36, %rcx, %rcx
	movq	%rdx, 96(%rsp)                  # 8-byte Spill
	xorq	%rdx, %rax
	andq	%rax, %r8
	xorq	%rdx, %r8
	addq	%rcx, %r8
	addq	%r9, %r8
	movq	%r13, %r10
	movq	%r13, 136(%rsp)                 # 8-byte Spill
	movq	%r13, %rcx
	shldq	$22, %rcx, %rcx
	addq	%rbx, %r9
	xorq	%r13, %rcx
	shldq	$45, %rcx, %rcx
	shrq	$6, %r10
	xorq	%rcx, %r10
	movq	72(%rsp), %rbx                  # 8-byte Reload
	movq	%rbx, %rcx
	shrq	$7, %rcx
	movq	%rbx, %r11
	shldq	$57, %r11, %r11
	xorq	%rbx, %r11
	movq	%rbx, %r13
	shldq	$63, %r11, %r11
	xorq	%rcx, %r11
	addq	24(%rsp), %rsi                  # 8-byte Folded Reload
	movq	%r9, %rcx
	shldq	$41, %rcx, %rcx
	addq	%r11, %rsi
	xorq	%r9, %rcx
	shldq	$60, %rcx, %rcx
	addq	%r10, %rsi
	movq	%rdi, %r10
	xorq	%r12, %r10
	andq	%r9, %r10
	xorq	%r12, %r10
	movq	8(%rsp), %r11                   # 8-byte Reload
	movq	144(%rsp), %rbx                 # 8-byte Reload
	addq	160(%r11,%r15), %rbx
	addq	%rsi, %rbx
	addq	%r10, %rbx
	xorq	%r9, %rcx
	shldq	$50, %rcx, %rcx
	addq	%rcx, %rbx
	movq	%r8, %r15
	movq	%r8, %rcx
	shldq	$59, %rcx, %rcx
	xorq	%r8, %rcx
	shldq	$58, %rcx, %rcx
	xorq	%r8, %rcx
	shldq	$36, %rcx, %rcx
	movq	56(%rsp), %r10                  # 8-byte Reload
	xorq	%r10, %r8
	andq	%r8, %rax
	xorq	%r10, %rax
	addq	%rcx, %rax
	addq	%rbx, %rax
	addq	%r14, %rbx
	movq	%rbp, %rdx
	movq	%rbp, 128(%rsp)                 # 8-byte Spill
	movq	%rbp, %rcx
	shldq	$22, %rcx, %rcx
	xorq	%rbp, %rcx
	shldq	$45, %rcx, %rcx
	shrq	$6, %rdx
	xorq	%rcx, %rdx
	movq	64(%rsp), %r11                  # 8-byte Reload
	movq	%r11, %rcx
	shrq	$7, %rcx
	movq	%r11, %r10
	shldq	$57, %r10, %r10
	xorq	%r11, %r10
	movq	%r11, %rbp
	shldq	$63, %r10, %r10
	xorq	%rcx, %r10
	addq	48(%rsp), %r13                  # 8-byte Folded Reload
	addq	%r10, %r13
	movq	%rbx, %rcx
	shldq	$41, %rcx, %rcx
	addq	%rdx, %r13
	movq	%r13, 72(%rsp)                  # 8-byte Spill
	xorq	%rbx, %rcx
	shldq	$60, %rcx, %rcx
	xorq	%rbx, %rcx
	shldq	$50, %rcx, %rcx
	movq	%r9, %rdx
	xorq	%rdi, %rdx
	andq	%rbx, %rdx
	movq	%rbx, 144(%rsp)                 # 8-byte Spill
	movq	8(%rsp), %r10                   # 8-byte Reload
	leaq	.Ldeerlapse_0_1_0_static.3(%rip), %r11
	addq	168(%r10,%r11), %r12
	xorq	%rdi, %rdx
	movq	%rax, %r10
	shldq	$59, %r10, %r10
	addq	%r13, %r12
	xorq	%rax, %r10
	shldq	$58, %r10, %r10
	addq	%rdx, %r12
	xorq	%rax, %r10
	movq	%rax, %r13
	shldq	$36, %r10, %r10
	addq	%rcx, %r12
	movq	%rax, %r11
	movq	%r15, 240(%rsp)                 # 8-byte Spill
	xorq	%r15, %r11
	andq	%r11, %r8
	xorq	%r15, %r8
	addq	%r10, %r8
	addq	%r12, %r8
	movq	%r8, %rax
	addq	96(%rsp), %r12                  # 8-byte Folded Reload
	movq	%rsi, 120(%rsp)                 # 8-byte Spill
	movq	%rsi, %rcx
	shldq	$22, %rcx, %rcx
	xorq	%rsi, %rcx
	shldq	$45, %rcx, %rcx
	shrq	$6, %rsi
	xorq	%rcx, %rsi
	movq	112(%rsp), %r14                 # 8-byte Reload
	movq	%r14, %rcx
	shldq	$57, %rcx, %rcx
	xorq	%r14, %rcx
	shldq	$63, %rcx, %rcx
	movq	%r14, %r8
	shrq	$7, %r8
	xorq	%r8, %rcx
	movq	32(%rsp), %r15                  # 8-byte Reload
	addq	%r15, %rbp
	addq	%rcx, %rbp
	addq	%rsi, %rbp
	movq	%rbp, 64(%rsp)                  # 8-byte Spill
	movq	%r12, %rcx
	shldq	$41, %rcx, %rcx
	xorq	%r12, %rcx
	shldq	$60, %rcx, %rcx
	xorq	%r12, %rcx
	shldq	$50, %rcx, %rcx
	xorq	%r9, %rbx
	andq	%r12, %rbx
	xorq	%r9, %rbx
	movq	8(%rsp), %r8                    # 8-byte Reload
	leaq	.Ldeerlapse_0_1_0_static.3(%rip), %r10
	addq	176(%r8,%r10), %rdi
	addq	%rbp, %rdi
	movq	%rax, %rsi
	movq	%rax, %r8
	shldq	$59, %r8, %r8
	addq	%rbx, %rdi
	xorq	%rax, %r8
	shldq	$58, %r8, %r8
	addq	%rcx, %rdi
	xorq	%rax, %r8
	shldq	$36, %r8, %r8
	movq	%rax, %rbp
	movq	%r13, 232(%rsp)                 # 8-byte Spill
	xorq	%r13, %rbp
	andq	%rbp, %r11
	xorq	%r13, %r11
	addq	%r8, %r11
	movq	%r11, %rbx
	movq	72(%rsp), %r13                  # 8-byte Reload
	movq	%r13, %rcx
	shldq	$22, %rcx, %rcx
	addq	%rdi, %rbx
	xorq	%r13, %rcx
	shldq	$45, %rcx, %rcx
	addq	56(%rsp), %rdi                  # 8-byte Folded Reload
	movq	%r13, %r11
	shrq	$6, %r11
	xorq	%rcx, %r11
	movq	88(%rsp), %rcx                  # 8-byte Reload
	movq	%rcx, %r8
	shldq	$57, %r8, %r8
	movq	%rcx, %rax
	shrq	$7, %rax
	xorq	%rcx, %r8
	movq	%rcx, %rdx
	shldq	$63, %r8, %r8
	xorq	%rax, %r8
	movq	%r15, %rcx
	shldq	$57, %rcx, %rcx
	xorq	%r15, %rcx
	addq	%r15, %r8
	movq	%r8, 96(%rsp)                   # 8-byte Spill
	shrq	$7, %r15
	shldq	$63, %rcx, %rcx
	xorq	%r15, %rcx
	movq	48(%rsp), %rax                  # 8-byte Reload
	movq	%rax, %r8
	shldq	$57, %r8, %r8
	xorq	%rax, %r8
	addq	%rax, %rcx
	movq	%rcx, 56(%rsp)                  # 8-byte Spill
	shrq	$7, %rax
	shldq	$63, %r8, %r8
	xorq	%rax, %r8
	movq	24(%rsp), %rax                  # 8-byte Reload
	movq	%rax, %rcx
	shldq	$57, %rcx, %rcx
	xorq	%rax, %rcx
	addq	%rax, %r8
	movq	%r8, 48(%rsp)                   # 8-byte Spill
	shrq	$7, %rax
	shldq	$63, %rcx, %rcx
	xorq	%rax, %rcx
	movq	16(%rsp), %rax                  # 8-byte Reload
	movq	%rax, %r8
	shldq	$57, %r8, %r8
	xorq	%rax, %r8
	addq	%rax, %rcx
	movq	%rcx, 24(%rsp)                  # 8-byte Spill
	shrq	$7, %rax
	shldq	$63, %r8, %r8
	xorq	%rax, %r8
	movq	40(%rsp), %rax                  # 8-byte Reload
	movq	%rax, %rcx
	shldq	$57, %rcx, %rcx
	xorq	%rax, %rcx
	addq	%rax, %r8
	movq	%r8, 16(%rsp)                   # 8-byte Spill
	shrq	$7, %rax
	shldq	$63, %rcx, %rcx
	xorq	%rax, %rcx
	movq	104(%rsp), %rax                 # 8-byte Reload
	movq	%rax, %r10
	shldq	$57, %r10, %r10
	xorq	%rax, %r10
	addq	%rax, %rcx
	movq	%rcx, 40(%rsp)                  # 8-byte Spill
	shrq	$7, %rax
	shldq	$63, %r10, %r10
	xorq	%rax, %r10
	movq	248(%rsp), %rax                 # 8-byte Reload
	movq	%rax, %r8
	shldq	$57, %r8, %r8
	xorq	%rax, %r8
	addq	%rax, %r10
	movq	%r10, 32(%rsp)                  # 8-byte Spill
	shrq	$7, %rax
	shldq	$63, %r8, %r8
	xorq	%rax, %r8
	movq	152(%rsp), %rcx                 # 8-byte Reload
	movq	%rcx, %rax
	shldq	$57, %rax, %rax
	xorq	%rcx, %rax
	addq	%rcx, %r8
	shrq	$7, %rcx
	shldq	$63, %rax, %rax
	xorq	%rcx, %rax
	movq	%r14, %r15
	addq	%rdx, %r15
	addq	%rax, %r15
	addq	%r11, %r15
	movq	%rdi, %rax
	shldq	$41, %rax, %rax
	xorq	%rdi, %rax
	shldq	$60, %rax, %rax
	movq	8(%rsp), %rcx                   # 8-byte Reload
	leaq	.Ldeerlapse_0_1_0_static.3(%rip), %r13
	movq	184(%rcx,%r13), %rdx
	addq	%r15, %rdx
	addq	%r9, %rdx
	xorq	%rdi, %rax
	shldq	$50, %rax, %rax
	movq	%r12, %rcx
	movq	144(%rsp), %r11                 # 8-byte Reload
	xorq	%r11, %rcx
	andq	%rdi, %rcx
	xorq	%r11, %rcx
	addq	%rcx, %rdx
	movq	%rbx, %r10
	movq	%rbx, %r9
	shldq	$59, %r9, %r9
	addq	%rax, %rdx
	xorq	%rbx, %r9
	shldq	$58, %r9, %r9
	xorq	%rbx, %r9
	shldq	$36, %r9, %r9
	movq	%rbx, %rcx
	xorq	%rsi, %rcx
	andq	%rcx, %rbp
	xorq	%rsi, %rbp
	addq	%r9, %rbp
	addq	%rdx, %rbp
	movq	%rbp, %r14
	movq	64(%rsp), %r9                   # 8-byte Reload
	movq	%r9, %rax
	shldq	$22, %rax, %rax
	addq	240(%rsp), %rdx                 # 8-byte Folded Reload
	xorq	%r9, %rax
	shldq	$45, %rax, %rax
	shrq	$6, %r9
	xorq	%rax, %r9
	addq	80(%rsp), %r8                   # 8-byte Folded Reload
	addq	%r9, %r8
	movq	%rdx, %rax
	shldq	$41, %rax, %rax
	xorq	%rdx, %rax
	shldq	$60, %rax, %rax
	xorq	%rdx, %rax
	shldq	$50, %rax, %rax
	movq	8(%rsp), %r9                    # 8-byte Reload
	movq	192(%r9,%r13), %rbp
	addq	%r8, %rbp
	addq	%r11, %rbp
	movq	%rdi, %r9
	xorq	%r12, %r9
	andq	%rdx, %r9
	xorq	%r12, %r9
	movq	%r14, %r11
	shldq	$59, %r11, %r11
	addq	%r9, %rbp
	xorq	%r14, %r11
	shldq	$58, %r11, %r11
	addq	%rax, %rbp
	xorq	%r14, %r11
	shldq	$36, %r11, %r11
	movq	%r14, %rbx
	xorq	%r10, %rbx
	andq	%rbx, %rcx
	xorq	%r10, %rcx
	addq	%r11, %rcx
	movq	%r15, 112(%rsp)                 # 8-byte Spill
	movq	%r15, %rax
	shldq	$22, %rax, %rax
	addq	%rbp, %rcx
	xorq	%r15, %rax
	shldq	$45, %rax, %rax
	addq	232(%rsp), %rbp                 # 8-byte Folded Reload
	shrq	$6, %r15
	xorq	%rax, %r15
	movq	32(%rsp), %r11                  # 8-byte Reload
	addq	136(%rsp), %r11                 # 8-byte Folded Reload
	addq	%r15, %r11
	movq	%r11, 32(%rsp)                  # 8-byte Spill
	movq	8(%rsp), %rax                   # 8-byte Reload
	movq	200(%rax,%r13), %r15
	addq	%r11, %r15
	addq	%r12, %r15
	movq	%rbp, %rax
	shldq	$41, %rax, %rax
	xorq	%rbp, %rax
	shldq	$60, %rax, %rax
	xorq	%rbp, %rax
	shldq	$50, %rax, %rax
	movq	%rdx, %r9
	xorq	%rdi, %r9
	andq	%rbp, %r9
	movq	%rcx, %r11
	shldq	$59, %r11, %r11
	xorq	%rdi, %r9
	xorq	%rcx, %r11
	shldq	$58, %r11, %r11
	addq	%r9, %r15
	xorq	%rcx, %r11
	shldq	$36, %r11, %r11
	addq	%rax, %r15
	movq	%rcx, %r9
	xorq	%r14, %r9
	andq	%r9, %rbx
	xorq	%r14, %rbx
	addq	%r11, %rbx
	addq	%r15, %rbx
	addq	%rsi, %r15
	movq	%r8, %rax
	shldq	$22, %rax, %rax
	xorq	%r8, %rax
	shldq	$45, %rax, %rax
	movq	%r8, %r11
	shrq	$6, %r11
	xorq	%rax, %r11
	movq	40(%rsp), %rsi                  # 8-byte Reload
	addq	128(%rsp), %rsi                 # 8-byte Folded Reload
	addq	%r11, %rsi
	movq	%r15, %rax
	shldq	$41, %rax, %rax
	movq	8(%rsp), %r11                   # 8-byte Reload
	movq	208(%r11,%r13), %r11
	addq	%rsi, %r11
	movq	%rsi, %r12
	addq	%rdi, %r11
	xorq	%r15, %rax
	shldq	$60, %rax, %rax
	movq	%rbp, %rsi
	xorq	%rdx, %rsi
	andq	%r15, %rsi
	xorq	%rdx, %rsi
	addq	%rsi, %r11
	xorq	%r15, %rax
	shldq	$50, %rax, %rax
	addq	%rax, %r11
	movq	%rbx, %rax
	shldq	$59, %rax, %rax
	xorq	%rbx, %rax
	shldq	$58, %rax, %rax
	xorq	%rbx, %rax
	shldq	$36, %rax, %rax
	movq	%rbx, %rsi
	xorq	%rcx, %rsi
	andq	%rsi, %r9
	xorq	%rcx, %r9
	addq	%rax, %r9
	addq	%r11, %r9
	addq	%r10, %r11
	movq	32(%rsp), %rdi                  # 8-byte Reload
	movq	%rdi, %rax
	shldq	$22, %rax, %rax
	xorq	%rdi, %rax
	shldq	$45, %rax, %rax
	shrq	$6, %rdi
	xorq	%rax, %rdi
	movq	16(%rsp), %r10                  # 8-byte Reload
	addq	120(%rsp), %r10                 # 8-byte Folded Reload
	addq	%rdi, %r10
	movq	%r10, 16(%rsp)                  # 8-byte Spill
	movq	%r11, %rdi
	shldq	$41, %rdi, %rdi
	xorq	%r11, %rdi
	shldq	$60, %rdi, %rdi
	movq	8(%rsp), %rax                   # 8-byte Reload
	movq	216(%rax,%r13), %rax
	addq	%r10, %rax
	addq	%rdx, %rax
	xorq	%r11, %rdi
	shldq	$50, %rdi, %rdi
	movq	%r15, %rdx
	xorq	%rbp, %rdx
	andq	%r11, %rdx
	xorq	%rbp, %rdx
	addq	%rdx, %rax
	movq	%r9, %rdx
	shldq	$59, %rdx, %rdx
	addq	%rdi, %rax
	xorq	%r9, %rdx
	shldq	$58, %rdx, %rdx
	xorq	%r9, %rdx
	shldq	$36, %rdx, %rdx
	movq	%r9, %r13
	xorq	%rbx, %r13
	andq	%r13, %rsi
	xorq	%rbx, %rsi
	addq	%rdx, %rsi
	addq	%rax, %rsi
	movq	%r12, %r10
	movq	%r12, 40(%rsp)                  # 8-byte Spill
	movq	%r12, %rdx
	shldq	$22, %rdx, %rdx
	addq	%r14, %rax
	xorq	%r12, %rdx
	shldq	$45, %rdx, %rdx
	shrq	$6, %r10
	xorq	%rdx, %r10
	movq	24(%rsp), %rdx                  # 8-byte Reload
	addq	72(%rsp), %rdx                  # 8-byte Folded Reload
	addq	%r10, %rdx
	movq	%rdx, %r12
	movq	%rdx, 24(%rsp)                  # 8-byte Spill
	movq	%rax, %rdx
	shldq	$41, %rdx, %rdx
	xorq	%rax, %rdx
	shldq	$60, %rdx, %rdx
	xorq	%rax, %rdx
	shldq	$50, %rdx, %rdx
	movq	8(%rsp), %r10                   # 8-byte Reload
	leaq	.Ldeerlapse_0_1_0_static.3(%rip), %rdi
	movq	224(%r10,%rdi), %r14
	addq	%r12, %r14
	addq	%rbp, %r14
	movq	%r11, %r10
	xorq	%r15, %r10
	andq	%rax, %r10
	xorq	%r15, %r10
	movq	%rsi, %rdi
	shldq	$59, %rdi, %rdi
	addq	%r10, %r14
	xorq	%rsi, %rdi
	shldq	$58, %rdi, %rdi
	addq	%rdx, %r14
	xorq	%rsi, %rdi
	shldq	$36, %rdi, %rdi
	movq	%rsi, %r10
	xorq	%r9, %r10
	andq	%r10, %r13
	xorq	%r9, %r13
	addq	%rdi, %r13
	movq	16(%rsp), %rdi                  # 8-byte Reload
	movq	%rdi, %rdx
	shldq	$22, %rdx, %rdx
	addq	%r14, %r13
	xorq	%rdi, %rdx
	shldq	$45, %rdx, %rdx
	addq	%rcx, %r14
	movq	%rdi, %rcx
	shrq	$6, %rcx
	xorq	%rdx, %rcx
	movq	48(%rsp), %rdx                  # 8-byte Reload
	addq	64(%rsp), %rdx                  # 8-byte Folded Reload
	addq	%rcx, %rdx
	movq	%rdx, 48(%rsp)                  # 8-byte Spill
	movq	8(%rsp), %rcx                   # 8-byte Reload
	leaq	.Ldeerlapse_0_1_0_static.3(%rip), %rbp
	movq	232(%rcx,%rbp), %r12
	addq	%rdx, %r12
	addq	%r15, %r12
	movq	%r14, %rcx
	shldq	$41, %rcx, %rcx
	xorq	%r14, %rcx
	shldq	$60, %rcx, %rcx
	xorq	%r14, %rcx
	shldq	$50, %rcx, %rcx
	movq	%rax, %rdx
	xorq	%r11, %rdx
	andq	%r14, %rdx
	movq	%r13, %rdi
	shldq	$59, %rdi, %rdi
	xorq	%r11, %rdx
	xorq	%r13, %rdi
	shldq	$58, %rdi, %rdi
	addq	%rdx, %r12
	xorq	%r13, %rdi
	shldq	$36, %rdi, %rdi
	addq	%rcx, %r12
	movq	%r13, %rcx
	xorq	%rsi, %rcx
	andq	%rcx, %r10
	xorq	%rsi, %r10
	addq	%rdi, %r10
	addq	%r12, %r10
	addq	%rbx, %r12
	movq	24(%rsp), %rdi                  # 8-byte Reload
	movq	%rdi, %rdx
	shldq	$22, %rdx, %rdx
	xorq	%rdi, %rdx
	shldq	$45, %rdx, %rdx
	shrq	$6, %rdi
	xorq	%rdx, %rdi
	movq	56(%rsp), %r15                  # 8-byte Reload
	addq	112(%rsp), %r15                 # 8-byte Folded Reload
	addq	%rdi, %r15
	movq	%r15, 56(%rsp)                  # 8-byte Spill
	movq	%r12, %rdx
	shldq	$41, %rdx, %rdx
	movq	8(%rsp), %rdi                   # 8-byte Reload
	movq	%rbp, %rbx
	movq	240(%rdi,%rbp), %rdi
	addq	%r15, %rdi
	addq	%r11, %rdi
	xorq	%r12, %rdx
	shldq	$60, %rdx, %rdx
	movq	%r14, %r11
	xorq	%rax, %r11
	andq	%r12, %r11
	xorq	%rax, %r11
	addq	%r11, %rdi
	xorq	%r12, %rdx
	shldq	$50, %rdx, %rdx
	addq	%rdx, %rdi
	movq	%r10, %r11
	shldq	$59, %r11, %r11
	xorq	%r10, %r11
	shldq	$58, %r11, %r11
	xorq	%r10, %r11
	shldq	$36, %r11, %r11
	movq	%r10, %rdx
	xorq	%r13, %rdx
	andq	%rdx, %rcx
	xorq	%r13, %rcx
	addq	%r11, %rcx
	addq	%rdi, %rcx
	addq	%r9, %rdi
	movq	48(%rsp), %rbp                  # 8-byte Reload
	movq	%rbp, %r9
	shldq	$22, %r9, %r9
	xorq	%rbp, %r9
	shldq	$45, %r9, %r9
	movq	%rbp, %r11
	shrq	$6, %r11
	xorq	%r9, %r11
	movq	96(%rsp), %r15                  # 8-byte Reload
	addq	%r8, %r15
	addq	%r11, %r15
	movq	%rdi, %r11
	shldq	$41, %r11, %r11
	xorq	%rdi, %r11
	shldq	$60, %r11, %r11
	movq	8(%rsp), %r9                    # 8-byte Reload
	movq	248(%r9,%rbx), %r9
	addq	%r15, %r9
	addq	%rax, %r9
	xorq	%rdi, %r11
	shldq	$50, %r11, %r11
	movq	%r12, %rax
	xorq	%r14, %rax
	andq	%rdi, %rax
	xorq	%r14, %rax
	addq	%rax, %r9
	addq	%r11, %r9
	movq	%rcx, %rbx
	xorq	%r10, %rbx
	andq	%rdx, %rbx
	movq	%rcx, %rax
	shldq	$59, %rax, %rax
	xorq	%rcx, %rax
	shldq	$58, %rax, %rax
	xorq	%rcx, %rax
	shldq	$36, %rax, %rax
	xorq	%r10, %rbx
	addq	%rax, %rbx
	addq	%r9, %rbx
	addq	%rsi, %r9
	movq	8(%rsp), %rsi                   # 8-byte Reload
	movq	32(%rsp), %r11                  # 8-byte Reload
	movq	40(%rsp), %rax                  # 8-byte Reload
	movq	%rax, 104(%rsp)                 # 8-byte Spill
	movq	16(%rsp), %rax                  # 8-byte Reload
	movq	%rax, 40(%rsp)                  # 8-byte Spill
	movq	24(%rsp), %rax                  # 8-byte Reload
	movq	%rax, 16(%rsp)                  # 8-byte Spill
	movq	%rbp, 24(%rsp)                  # 8-byte Spill
	movq	%r8, 152(%rsp)                  # 8-byte Spill
	subq	$-128, %rsi
	movq	56(%rsp), %rax                  # 8-byte Reload
	movq	%r15, 32(%rsp)                  # 8-byte Spill
	cmpq	$512, %rsi                      # imm = 0x200
	jne	.Ldeerlapse_0_1_0_BB11_3
# %bb.4:                                # %after.8
	addq	160(%rsp), %rbx                 # 8-byte Folded Reload
	addq	168(%rsp), %rcx                 # 8-byte Folded Reload
	addq	176(%rsp), %r10                 # 8-byte Folded Reload
	addq	184(%rsp), %r13                 # 8-byte Folded Reload
	addq	192(%rsp), %r9                  # 8-byte Folded Reload
	addq	200(%rsp), %rdi                 # 8-byte Folded Reload
	addq	208(%rsp), %r12                 # 8-byte Folded Reload
	addq	216(%rsp), %r14                 # 8-byte Folded Reload
	movq	224(%rsp), %rax                 # 8-byte Reload
	movq	%rbx, (%rax)
	movq	%rcx, 8(%rax)
	movq	%r10, 16(%rax)
	movq	%r13, 24(%rax)
	movq	%r9, 32(%rax)
	movq	%rdi, 40(%rax)
	movq	%r12, 48(%rax)
	movq	%r14, 56(%rax)
	addq	$392, %rsp                      # imm = 0x188
	popq	%rbx
	popq	%rbp
	popq	%rdi
	popq	%rsi
	popq	%r12
	popq	%r13
	popq	%r14
	popq	%r15
	retq
	.seh_endproc
                                        # -- End function
	.def	"deerlapse_0_1_0::key_derivation::hmac::absorb_xored::<#01e4f4eb65b1d8bb>";
	.scl	3;
	.type	32;
	.endef
"deerlapse_0_1_0::key_derivation::hmac::absorb_xored::<#01e4f4eb65b1d8bb>": # -- Begin function key_derivation::hmac::absorb_xored::<#01e4f4eb65b1d8bb>
                                        # @"deerlapse_0_1_0::key_derivation::hmac::absorb_xored::<#01e4f4eb65b1d8bb>"
.seh_proc "deerlapse_0_1_0::key_derivation::hmac::absorb_xored::<#01e4f4eb65b1d8bb>"
# %bb.0:                                # %start
	pushq	%rsi
	.seh_pushreg %rsi
	pushq	%rdi
	.seh_pushreg %rdi
	subq	$376, %rsp                      # imm = 0x178
	.seh_stackalloc 376
	.seh_endprologue
	movq	%rcx, %rsi
	pxor	%xmm1, %xmm1
	movdqa	%xmm1, 144(%rsp)
	movdqa	%xmm1, 128(%rsp)
	movdqa	%xmm1, 112(%rsp)
	movdqa	%xmm1, 96(%rsp)
	movdqa	%xmm1, 80(%rsp)
	movdqa	%xmm1, 64(%rsp)
	movdqa	%xmm1, 48(%rsp)
	movdqa	%xmm1, 32(%rsp)
	movzbl	%r8b, %eax
	movd	%eax, %xmm0
	pshufb	%xmm1, %xmm0
	xorl	%eax, %eax
.Ldeerlapse_0_1_0_BB12_1:                               # %vector.body
                                        # =>This Inner Loop Header: Depth=1
	movdqu	(%rdx,%rax), %xmm1
	pxor	%xmm0, %xmm1
	movdqu	%xmm1, 32(%rsp,%rax)
	addq	$16, %rax
	cmpq	$128, %rax
	jne	.Ldeerlapse_0_1_0_BB12_1
# %bb.2:                                # %after.1
	movabsq	$-3766243637369397544, %rax     # imm = 0xCBBB9D5DC1059ED8
	leaq	224(%rsp), %rcx
	movq	%rax, -64(%rcx)
	movabsq	$7105036623409894663, %rax      # imm = 0x629A292A367CD507
	movq	%rax, -56(%rcx)
	movabsq	$-7973340178411365097, %rax     # imm = 0x9159015A3070DD17
	movq	%rax, -48(%rcx)
	movabsq	$1526699215303891257, %rax      # imm = 0x152FECD8F70E5939
	movq	%rax, -40(%rcx)
	movabsq	$7436329637833083697, %rax      # imm = 0x67332667FFC00B31
	movq	%rax, -32(%rcx)
	movabsq	$-8163818279084223215, %rax     # imm = 0x8EB44A8768581511
	movq	%rax, -24(%rcx)
	movabsq	$-2662702644619276377, %rax     # imm = 0xDB0C2E0D64F98FA7
	movq	%rax, -16(%rcx)
	movabsq	$5167115440072839076, %rax      # imm = 0x47B5481DBEFA4FA4
	movq	%rax, -8(%rcx)
	movl	$144, %r8d
	xorl	%edx, %edx
	callq	memset
	leaq	160(%rsp), %rdi
	leaq	32(%rsp), %rdx
	movl	$128, %r8d
	movq	%rdi, %rcx
	callq	"deerlapse_0_1_0::sha2::block512::Core512::update"
	movl	$208, %r8d
	movq	%rsi, %rcx
	movq	%rdi, %rdx
	callq	memcpy
	nop
	addq	$376, %rsp                      # imm = 0x178
	popq	%rdi
	popq	%rsi
	retq
	.seh_endproc
                                        # -- End function
	.def	"deerlapse_0_1_0::key_derivation::hmac::HmacKey::finish::<#01e4f4eb65b1d8bb>";
	.scl	3;
	.type	32;
	.endef
"deerlapse_0_1_0::key_derivation::hmac::HmacKey::finish::<#01e4f4eb65b1d8bb>": # -- Begin function key_derivation::hmac::HmacKey::finish::<#01e4f4eb65b1d8bb>
                                        # @"deerlapse_0_1_0::key_derivation::hmac::HmacKey::finish::<#01e4f4eb65b1d8bb>"
.seh_proc "deerlapse_0_1_0::key_derivation::hmac::HmacKey::finish::<#01e4f4eb65b1d8bb>"
# %bb.0:                                # %start
	pushq	%r15
	.seh_pushreg %r15
	pushq	%r14
	.seh_pushreg %r14
	pushq	%r12
	.seh_pushreg %r12
	pushq	%rsi
	.seh_pushreg %rsi
	pushq	%rdi
	.seh_pushreg %rdi
	pushq	%rbx
	.seh_pushreg %rbx
	subq	$984, %rsp                      # imm = 0x3D8
	.seh_stackalloc 984
	movaps	%xmm6, 960(%rsp)                # 16-byte Spill
	.seh_savexmm %xmm6, 960
	.seh_endprologue
	movq	%r8, %r14
	movq	%rdx, %r15
	movq	%rcx, %rsi
	xorps	%xmm0, %xmm0
	leaq	80(%rsp), %rdi
	movaps	%xmm0, 32(%rdi)
	movaps	%xmm0, 16(%rdi)
	movaps	%xmm0, (%rdi)
	leaq	32(%rsp), %rbx
	movaps	%xmm0, (%rbx)
	movaps	%xmm0, 16(%rbx)
	movaps	%xmm0, 32(%rbx)
	movups	208(%rdx), %xmm0
	movups	224(%rdx), %xmm1
	movups	240(%rdx), %xmm2
	movups	256(%rdx), %xmm3
	leaq	192(%rsp), %rcx
	movaps	%xmm3, -16(%rcx)
	movaps	%xmm2, -32(%rcx)
	movaps	%xmm1, -48(%rcx)
	movaps	%xmm0, -64(%rcx)
	addq	$272, %rdx                      # imm = 0x110
	movl	$128, %r8d
	callq	memcpy
	movaps	400(%r15), %xmm6
	leaq	352(%rsp), %r15
	leaq	128(%rsp), %rdx
	movl	$192, %r8d
	movq	%r15, %rcx
	callq	memcpy
	leaq	143(%rsp), %r12
	movl	$192, %r8d
	movq	%r12, %rcx
	movq	%r15, %rdx
	callq	memcpy
	leaq	752(%rsp), %r15
	movl	$192, %r8d
	movq	%r15, %rcx
	movq	%r12, %rdx
	callq	memcpy
	movaps	%xmm6, 192(%r15)
	leaq	544(%rsp), %r12
	movl	$208, %r8d
	movq	%r12, %rcx
	movq	%r14, %rdx
	callq	memcpy
	movq	%rbx, %rcx
	movq	%r12, %rdx
	callq	"deerlapse_0_1_0::sha2::Sha384Digest::finalize"
	movl	$48, %r8d
	movq	%r15, %rcx
	movq	%rbx, %rdx
	callq	"deerlapse_0_1_0::sha2::block512::Core512::update"
	movq	%rdi, %rcx
	movq	%r15, %rdx
	callq	"deerlapse_0_1_0::sha2::Sha384Digest::finalize"
	movaps	(%rdi), %xmm0
	movaps	16(%rdi), %xmm1
	movaps	32(%rdi), %xmm2
	movups	%xmm2, 32(%rsi)
	movups	%xmm1, 16(%rsi)
	movups	%xmm0, (%rsi)
	movaps	960(%rsp), %xmm6                # 16-byte Reload
	addq	$984, %rsp                      # imm = 0x3D8
	popq	%rbx
	popq	%rdi
	popq	%rsi
	popq	%r12
	popq	%r14
	popq	%r15
	retq
	.seh_endproc
                                        # -- End function
	.def	"deerlapse_0_1_0::aead_ciphers_wide::aes::expand";
	.scl	3;
	.type	32;
	.endef
	.section	.rdata,"dr"
	.p2align	4, 0x0                          # -- Begin function aead_ciphers_wide::aes::expand
.Ldeerlapse_0_1_0_CPI14_0:
	.zero	16,15
.Ldeerlapse_0_1_0_CPI14_1:
	.byte	0                               # 0x0
	.byte	1                               # 0x1
	.byte	39                              # 0x27
	.byte	38                              # 0x26
	.byte	192                             # 0xc0
	.byte	193                             # 0xc1
	.byte	231                             # 0xe7
	.byte	230                             # 0xe6
	.byte	195                             # 0xc3
	.byte	194                             # 0xc2
	.byte	228                             # 0xe4
	.byte	229                             # 0xe5
	.byte	3                               # 0x3
	.byte	2                               # 0x2
	.byte	36                              # 0x24
	.byte	37                              # 0x25
.Ldeerlapse_0_1_0_CPI14_2:
	.byte	0                               # 0x0
	.byte	170                             # 0xaa
	.byte	122                             # 0x7a
	.byte	208                             # 0xd0
	.byte	175                             # 0xaf
	.byte	5                               # 0x5
	.byte	213                             # 0xd5
	.byte	127                             # 0x7f
	.byte	216                             # 0xd8
	.byte	114                             # 0x72
	.byte	162                             # 0xa2
	.byte	8                               # 0x8
	.byte	119                             # 0x77
	.byte	221                             # 0xdd
	.byte	13                              # 0xd
	.byte	167                             # 0xa7
.Ldeerlapse_0_1_0_CPI14_3:
	.byte	128                             # 0x80
	.byte	3                               # 0x3
	.byte	13                              # 0xd
	.byte	1                               # 0x1
	.byte	10                              # 0xa
	.byte	8                               # 0x8
	.byte	12                              # 0xc
	.byte	11                              # 0xb
	.byte	5                               # 0x5
	.byte	14                              # 0xe
	.byte	4                               # 0x4
	.byte	7                               # 0x7
	.byte	6                               # 0x6
	.byte	2                               # 0x2
	.byte	9                               # 0x9
	.byte	15                              # 0xf
.Ldeerlapse_0_1_0_CPI14_4:
	.byte	128                             # 0x80
	.byte	1                               # 0x1
	.byte	12                              # 0xc
	.byte	8                               # 0x8
	.byte	6                               # 0x6
	.byte	15                              # 0xf
	.byte	4                               # 0x4
	.byte	14                              # 0xe
	.byte	3                               # 0x3
	.byte	13                              # 0xd
	.byte	11                              # 0xb
	.byte	10                              # 0xa
	.byte	2                               # 0x2
	.byte	9                               # 0x9
	.byte	7                               # 0x7
	.byte	5                               # 0x5
.Ldeerlapse_0_1_0_CPI14_5:
	.byte	0                               # 0x0
	.byte	250                             # 0xfa
	.byte	53                              # 0x35
	.byte	106                             # 0x6a
	.byte	43                              # 0x2b
	.byte	187                             # 0xbb
	.byte	95                              # 0x5f
	.byte	65                              # 0x41
	.byte	142                             # 0x8e
	.byte	207                             # 0xcf
	.byte	228                             # 0xe4
	.byte	30                              # 0x1e
	.byte	116                             # 0x74
	.byte	144                             # 0x90
	.byte	209                             # 0xd1
	.byte	165                             # 0xa5
.Ldeerlapse_0_1_0_CPI14_6:
	.byte	0                               # 0x0
	.byte	129                             # 0x81
	.byte	153                             # 0x99
	.byte	118                             # 0x76
	.byte	10                              # 0xa
	.byte	253                             # 0xfd
	.byte	239                             # 0xef
	.byte	124                             # 0x7c
	.byte	100                             # 0x64
	.byte	24                              # 0x18
	.byte	18                              # 0x12
	.byte	147                             # 0x93
	.byte	229                             # 0xe5
	.byte	247                             # 0xf7
	.byte	139                             # 0x8b
	.byte	110                             # 0x6e
.Ldeerlapse_0_1_0_CPI14_7:
	.byte	13                              # 0xd
	.byte	14                              # 0xe
	.byte	15                              # 0xf
	.byte	12                              # 0xc
	.byte	13                              # 0xd
	.byte	14                              # 0xe
	.byte	15                              # 0xf
	.byte	12                              # 0xc
	.byte	13                              # 0xd
	.byte	14                              # 0xe
	.byte	15                              # 0xf
	.byte	12                              # 0xc
	.byte	13                              # 0xd
	.byte	14                              # 0xe
	.byte	15                              # 0xf
	.byte	12                              # 0xc
.Ldeerlapse_0_1_0_CPI14_8:
	.byte	0                               # 0x0
	.byte	128                             # 0x80
	.byte	128                             # 0x80
	.byte	128                             # 0x80
	.byte	0                               # 0x0
	.byte	128                             # 0x80
	.byte	128                             # 0x80
	.byte	128                             # 0x80
	.byte	0                               # 0x0
	.byte	128                             # 0x80
	.byte	128                             # 0x80
	.byte	128                             # 0x80
	.byte	0                               # 0x0
	.byte	128                             # 0x80
	.byte	128                             # 0x80
	.byte	128                             # 0x80
.Ldeerlapse_0_1_0_CPI14_9:
	.zero	16,99
	.text
	.p2align	4
"deerlapse_0_1_0::aead_ciphers_wide::aes::expand":       # @"deerlapse_0_1_0::aead_ciphers_wide::aes::expand"
.seh_proc "deerlapse_0_1_0::aead_ciphers_wide::aes::expand"
# %bb.0:                                # %start
	pushq	%rsi
	.seh_pushreg %rsi
	pushq	%rdi
	.seh_pushreg %rdi
	subq	$40, %rsp
	.seh_stackalloc 40
	movdqa	%xmm7, 16(%rsp)                 # 16-byte Spill
	.seh_savexmm %xmm7, 16
	movdqa	%xmm6, (%rsp)                   # 16-byte Spill
	.seh_savexmm %xmm6, 0
	.seh_endprologue
	movq	%rcx, %rax
	xorl	%r11d, %r11d
	testb	%dl, %dl
	setne	%r11b
	shll	$4, %r11d
	addq	$16, %r11
	xorps	%xmm0, %xmm0
	movups	%xmm0, 224(%rcx)
	movups	%xmm0, 208(%rcx)
	movups	%xmm0, 192(%rcx)
	movups	%xmm0, 176(%rcx)
	movl	%r11d, %r9d
	shrl	$4, %r9d
	xorl	%ecx, %ecx
	movq	%r9, %r10
	.p2align	4
.Ldeerlapse_0_1_0_BB14_1:                               # %join.5.i617.i.epil
                                        # =>This Inner Loop Header: Depth=1
	movups	(%r8,%rcx), %xmm0
	movups	%xmm0, (%rax,%rcx)
	addq	$16, %rcx
	decq	%r10
	jne	.Ldeerlapse_0_1_0_BB14_1
# %bb.2:                                # %join.5.lr.ph.i
	xorl	%ecx, %ecx
	testb	%dl, %dl
	setne	%cl
	movl	%r11d, %r8d
	shrl	$2, %r8d
	movdqu	(%rax), %xmm1
	leaq	(%rax,%r11), %r10
	movdqu	-16(%rax,%r11), %xmm0
	leaq	6(%r8), %rax
	leaq	-1(%r9), %r11
	addq	$7, %r8
	jmp	.Ldeerlapse_0_1_0_BB14_3
	.p2align	4
.Ldeerlapse_0_1_0_BB14_8:                               # %"aead_ciphers_wide::aes::key_schedule::transformed.exit.i"
                                        #   in Loop: Header=BB14_3 Depth=1
	incq	%r9
	addq	$16, %r10
	movdqa	%xmm0, %xmm1
	movdqa	%xmm3, %xmm0
	cmpq	%r9, %r8
	je	.Ldeerlapse_0_1_0_BB14_9
.Ldeerlapse_0_1_0_BB14_3:                               # %join.5.i
                                        # =>This Inner Loop Header: Depth=1
	testq	%r11, %r9
	je	.Ldeerlapse_0_1_0_BB14_4
# %bb.5:                                # %else.4.i.i
                                        #   in Loop: Header=BB14_3 Depth=1
	pshufd	$255, %xmm0, %xmm2              # xmm2 = xmm0[3,3,3,3]
	movdqa	.Ldeerlapse_0_1_0_CPI14_0(%rip), %xmm3          # xmm3 = [15,15,15,15,15,15,15,15,15,15,15,15,15,15,15,15]
	movdqa	%xmm2, %xmm4
	pand	%xmm3, %xmm4
	movdqa	.Ldeerlapse_0_1_0_CPI14_1(%rip), %xmm5          # xmm5 = [0,1,39,38,192,193,231,230,195,194,228,229,3,2,36,37]
	pshufb	%xmm4, %xmm5
	psrlw	$4, %xmm2
	pand	%xmm3, %xmm2
	movdqa	.Ldeerlapse_0_1_0_CPI14_2(%rip), %xmm4          # xmm4 = [0,170,122,208,175,5,213,127,216,114,162,8,119,221,13,167]
	pshufb	%xmm2, %xmm4
	pxor	%xmm5, %xmm4
	movdqa	%xmm4, %xmm2
	pand	%xmm3, %xmm2
	psrlw	$4, %xmm4
	pand	%xmm3, %xmm4
	movdqa	%xmm4, %xmm3
	pxor	%xmm2, %xmm3
	movdqa	.Ldeerlapse_0_1_0_CPI14_3(%rip), %xmm5          # xmm5 = [128,3,13,1,10,8,12,11,5,14,4,7,6,2,9,15]
	pshufb	%xmm2, %xmm5
	movdqa	.Ldeerlapse_0_1_0_CPI14_4(%rip), %xmm6          # xmm6 = [128,1,12,8,6,15,4,14,3,13,11,10,2,9,7,5]
	movdqa	%xmm6, %xmm2
	pshufb	%xmm4, %xmm2
	pxor	%xmm5, %xmm2
	movdqa	%xmm6, %xmm7
	pshufb	%xmm3, %xmm7
	pxor	%xmm5, %xmm7
	movdqa	%xmm6, %xmm5
	pshufb	%xmm2, %xmm5
	pxor	%xmm3, %xmm5
	pshufb	%xmm7, %xmm6
	pxor	%xmm4, %xmm6
	movdqa	.Ldeerlapse_0_1_0_CPI14_5(%rip), %xmm3          # xmm3 = [0,250,53,106,43,187,95,65,142,207,228,30,116,144,209,165]
	pshufb	%xmm5, %xmm3
	movdqa	.Ldeerlapse_0_1_0_CPI14_6(%rip), %xmm2          # xmm2 = [0,129,153,118,10,253,239,124,100,24,18,147,229,247,139,110]
	pshufb	%xmm6, %xmm2
	pxor	%xmm3, %xmm2
	jmp	.Ldeerlapse_0_1_0_BB14_6
	.p2align	4
.Ldeerlapse_0_1_0_BB14_4:                               # %ok.6.i.i
                                        #   in Loop: Header=BB14_3 Depth=1
	movq	%r9, %rsi
	shrq	%cl, %rsi
	movdqa	%xmm0, %xmm2
	pshufb	.Ldeerlapse_0_1_0_CPI14_7(%rip), %xmm2          # xmm2 = xmm2[13,14,15,12,13,14,15,12,13,14,15,12,13,14,15,12]
	movdqa	.Ldeerlapse_0_1_0_CPI14_0(%rip), %xmm3          # xmm3 = [15,15,15,15,15,15,15,15,15,15,15,15,15,15,15,15]
	movdqa	%xmm2, %xmm4
	pand	%xmm3, %xmm4
	movdqa	.Ldeerlapse_0_1_0_CPI14_1(%rip), %xmm5          # xmm5 = [0,1,39,38,192,193,231,230,195,194,228,229,3,2,36,37]
	pshufb	%xmm4, %xmm5
	psrlw	$4, %xmm2
	pand	%xmm3, %xmm2
	movdqa	.Ldeerlapse_0_1_0_CPI14_2(%rip), %xmm4          # xmm4 = [0,170,122,208,175,5,213,127,216,114,162,8,119,221,13,167]
	pshufb	%xmm2, %xmm4
	pxor	%xmm5, %xmm4
	movdqa	%xmm4, %xmm2
	pand	%xmm3, %xmm2
	psrlw	$4, %xmm4
	pand	%xmm3, %xmm4
	movdqa	%xmm4, %xmm3
	pxor	%xmm2, %xmm3
	movdqa	.Ldeerlapse_0_1_0_CPI14_3(%rip), %xmm5          # xmm5 = [128,3,13,1,10,8,12,11,5,14,4,7,6,2,9,15]
	pshufb	%xmm2, %xmm5
	movdqa	.Ldeerlapse_0_1_0_CPI14_4(%rip), %xmm2          # xmm2 = [128,1,12,8,6,15,4,14,3,13,11,10,2,9,7,5]
	movdqa	%xmm2, %xmm6
	pshufb	%xmm4, %xmm6
	pxor	%xmm5, %xmm6
	movdqa	%xmm2, %xmm7
	pshufb	%xmm3, %xmm7
	pxor	%xmm5, %xmm7
	movdqa	%xmm2, %xmm5
	pshufb	%xmm6, %xmm5
	pxor	%xmm3, %xmm5
	pshufb	%xmm7, %xmm2
	pxor	%xmm4, %xmm2
	movdqa	.Ldeerlapse_0_1_0_CPI14_5(%rip), %xmm3          # xmm3 = [0,250,53,106,43,187,95,65,142,207,228,30,116,144,209,165]
	pshufb	%xmm5, %xmm3
	movdqa	.Ldeerlapse_0_1_0_CPI14_6(%rip), %xmm4          # xmm4 = [0,129,153,118,10,253,239,124,100,24,18,147,229,247,139,110]
	pshufb	%xmm2, %xmm4
	leaq	.Ldeerlapse_0_1_0_static.4(%rip), %rdi
	movzbl	-1(%rsi,%rdi), %esi
	movd	%esi, %xmm2
	pshufb	.Ldeerlapse_0_1_0_CPI14_8(%rip), %xmm2          # xmm2 = xmm2[0],zero,zero,zero,xmm2[0],zero,zero,zero,xmm2[0],zero,zero,zero,xmm2[0],zero,zero,zero
	pxor	%xmm3, %xmm2
	pxor	%xmm4, %xmm2
.Ldeerlapse_0_1_0_BB14_6:                               # %"aead_ciphers_wide::aes::key_schedule::transformed.exit.i"
                                        #   in Loop: Header=BB14_3 Depth=1
	movdqa	%xmm1, %xmm4
	pslldq	$4, %xmm4                       # xmm4 = zero,zero,zero,zero,xmm4[0,1,2,3,4,5,6,7,8,9,10,11]
	pxor	%xmm1, %xmm4
	movdqa	%xmm4, %xmm3
	pslldq	$8, %xmm3                       # xmm3 = zero,zero,zero,zero,zero,zero,zero,zero,xmm3[0,1,2,3,4,5,6,7]
	pxor	%xmm4, %xmm3
	pxor	%xmm2, %xmm3
	pxor	.Ldeerlapse_0_1_0_CPI14_9(%rip), %xmm3
	movdqu	%xmm3, (%r10)
	testb	%dl, %dl
	jne	.Ldeerlapse_0_1_0_BB14_8
# %bb.7:                                # %"aead_ciphers_wide::aes::key_schedule::transformed.exit.i"
                                        #   in Loop: Header=BB14_3 Depth=1
	movdqa	%xmm3, %xmm0
	jmp	.Ldeerlapse_0_1_0_BB14_8
.Ldeerlapse_0_1_0_BB14_9:                               # %"aead_ciphers_wide::aes::key_schedule::expand.exit"
	movaps	(%rsp), %xmm6                   # 16-byte Reload
	movaps	16(%rsp), %xmm7                 # 16-byte Reload
	addq	$40, %rsp
	popq	%rdi
	popq	%rsi
	retq
	.seh_endproc
                                        # -- End function
	.def	"deerlapse_0_1_0::aead_ciphers_wide::aes::block_key::BlockKeyRef::encrypt_one";
	.scl	3;
	.type	32;
	.endef
	.section	.rdata,"dr"
	.p2align	4, 0x0                          # -- Begin function aead_ciphers_wide::aes::block_key::BlockKeyRef::encrypt_one
.Ldeerlapse_0_1_0_CPI15_0:
	.zero	16,15
.Ldeerlapse_0_1_0_CPI15_1:
	.byte	0                               # 0x0
	.byte	1                               # 0x1
	.byte	39                              # 0x27
	.byte	38                              # 0x26
	.byte	192                             # 0xc0
	.byte	193                             # 0xc1
	.byte	231                             # 0xe7
	.byte	230                             # 0xe6
	.byte	195                             # 0xc3
	.byte	194                             # 0xc2
	.byte	228                             # 0xe4
	.byte	229                             # 0xe5
	.byte	3                               # 0x3
	.byte	2                               # 0x2
	.byte	36                              # 0x24
	.byte	37                              # 0x25
.Ldeerlapse_0_1_0_CPI15_2:
	.byte	0                               # 0x0
	.byte	170                             # 0xaa
	.byte	122                             # 0x7a
	.byte	208                             # 0xd0
	.byte	175                             # 0xaf
	.byte	5                               # 0x5
	.byte	213                             # 0xd5
	.byte	127                             # 0x7f
	.byte	216                             # 0xd8
	.byte	114                             # 0x72
	.byte	162                             # 0xa2
	.byte	8                               # 0x8
	.byte	119                             # 0x77
	.byte	221                             # 0xdd
	.byte	13                              # 0xd
	.byte	167                             # 0xa7
.Ldeerlapse_0_1_0_CPI15_3:
	.byte	128                             # 0x80
	.byte	3                               # 0x3
	.byte	13                              # 0xd
	.byte	1                               # 0x1
	.byte	10                              # 0xa
	.byte	8                               # 0x8
	.byte	12                              # 0xc
	.byte	11                              # 0xb
	.byte	5                               # 0x5
	.byte	14                              # 0xe
	.byte	4                               # 0x4
	.byte	7                               # 0x7
	.byte	6                               # 0x6
	.byte	2                               # 0x2
	.byte	9                               # 0x9
	.byte	15                              # 0xf
.Ldeerlapse_0_1_0_CPI15_4:
	.byte	128                             # 0x80
	.byte	1                               # 0x1
	.byte	12                              # 0xc
	.byte	8                               # 0x8
	.byte	6                               # 0x6
	.byte	15                              # 0xf
	.byte	4                               # 0x4
	.byte	14                              # 0xe
	.byte	3                               # 0x3
	.byte	13                              # 0xd
	.byte	11                              # 0xb
	.byte	10                              # 0xa
	.byte	2                               # 0x2
	.byte	9                               # 0x9
	.byte	7                               # 0x7
	.byte	5                               # 0x5
.Ldeerlapse_0_1_0_CPI15_5:
	.byte	0                               # 0x0
	.byte	250                             # 0xfa
	.byte	53                              # 0x35
	.byte	106                             # 0x6a
	.byte	43                              # 0x2b
	.byte	187                             # 0xbb
	.byte	95                              # 0x5f
	.byte	65                              # 0x41
	.byte	142                             # 0x8e
	.byte	207                             # 0xcf
	.byte	228                             # 0xe4
	.byte	30                              # 0x1e
	.byte	116                             # 0x74
	.byte	144                             # 0x90
	.byte	209                             # 0xd1
	.byte	165                             # 0xa5
.Ldeerlapse_0_1_0_CPI15_6:
	.byte	0                               # 0x0
	.byte	129                             # 0x81
	.byte	153                             # 0x99
	.byte	118                             # 0x76
	.byte	10                              # 0xa
	.byte	253                             # 0xfd
	.byte	239                             # 0xef
	.byte	124                             # 0x7c
	.byte	100                             # 0x64
	.byte	24                              # 0x18
	.byte	18                              # 0x12
	.byte	147                             # 0x93
	.byte	229                             # 0xe5
	.byte	247                             # 0xf7
	.byte	139                             # 0x8b
	.byte	110                             # 0x6e
.Ldeerlapse_0_1_0_CPI15_7:
	.zero	16,99
.Ldeerlapse_0_1_0_CPI15_8:
	.byte	0                               # 0x0
	.byte	5                               # 0x5
	.byte	10                              # 0xa
	.byte	15                              # 0xf
	.byte	4                               # 0x4
	.byte	9                               # 0x9
	.byte	14                              # 0xe
	.byte	3                               # 0x3
	.byte	8                               # 0x8
	.byte	13                              # 0xd
	.byte	2                               # 0x2
	.byte	7                               # 0x7
	.byte	12                              # 0xc
	.byte	1                               # 0x1
	.byte	6                               # 0x6
	.byte	11                              # 0xb
.Ldeerlapse_0_1_0_CPI15_9:
	.byte	5                               # 0x5
	.byte	10                              # 0xa
	.byte	15                              # 0xf
	.byte	0                               # 0x0
	.byte	9                               # 0x9
	.byte	14                              # 0xe
	.byte	3                               # 0x3
	.byte	4                               # 0x4
	.byte	13                              # 0xd
	.byte	2                               # 0x2
	.byte	7                               # 0x7
	.byte	8                               # 0x8
	.byte	1                               # 0x1
	.byte	6                               # 0x6
	.byte	11                              # 0xb
	.byte	12                              # 0xc
.Ldeerlapse_0_1_0_CPI15_10:
	.zero	16,27
	.text
	.p2align	4
"deerlapse_0_1_0::aead_ciphers_wide::aes::block_key::BlockKeyRef::encrypt_one": # @"deerlapse_0_1_0::aead_ciphers_wide::aes::block_key::BlockKeyRef::encrypt_one"
# %bb.0:                                # %start
	movdqu	(%r9), %xmm1
	movdqu	(%rdx), %xmm0
	pxor	%xmm1, %xmm0
	cmpq	$2, %r8
	jb	.Ldeerlapse_0_1_0_BB15_3
# %bb.1:                                # %join.5.preheader
	leaq	-1(%r8), %rax
	leaq	16(%rdx), %r9
	.p2align	4
.Ldeerlapse_0_1_0_BB15_2:                               # %join.5
                                        # =>This Inner Loop Header: Depth=1
	movdqa	.Ldeerlapse_0_1_0_CPI15_0(%rip), %xmm1          # xmm1 = [15,15,15,15,15,15,15,15,15,15,15,15,15,15,15,15]
	movdqa	%xmm0, %xmm2
	pand	%xmm1, %xmm2
	movdqa	.Ldeerlapse_0_1_0_CPI15_1(%rip), %xmm3          # xmm3 = [0,1,39,38,192,193,231,230,195,194,228,229,3,2,36,37]
	pshufb	%xmm2, %xmm3
	psrlw	$4, %xmm0
	pand	%xmm1, %xmm0
	movdqa	.Ldeerlapse_0_1_0_CPI15_2(%rip), %xmm2          # xmm2 = [0,170,122,208,175,5,213,127,216,114,162,8,119,221,13,167]
	pshufb	%xmm0, %xmm2
	pxor	%xmm3, %xmm2
	movdqa	%xmm2, %xmm0
	pand	%xmm1, %xmm0
	psrlw	$4, %xmm2
	pand	%xmm1, %xmm2
	movdqa	%xmm2, %xmm1
	pxor	%xmm0, %xmm1
	movdqa	.Ldeerlapse_0_1_0_CPI15_3(%rip), %xmm3          # xmm3 = [128,3,13,1,10,8,12,11,5,14,4,7,6,2,9,15]
	pshufb	%xmm0, %xmm3
	movdqa	.Ldeerlapse_0_1_0_CPI15_4(%rip), %xmm0          # xmm0 = [128,1,12,8,6,15,4,14,3,13,11,10,2,9,7,5]
	movdqa	%xmm0, %xmm4
	pshufb	%xmm2, %xmm4
	pxor	%xmm3, %xmm4
	movdqa	%xmm0, %xmm5
	pshufb	%xmm1, %xmm5
	pxor	%xmm3, %xmm5
	movdqa	%xmm0, %xmm3
	pshufb	%xmm4, %xmm3
	pxor	%xmm1, %xmm3
	pshufb	%xmm5, %xmm0
	pxor	%xmm2, %xmm0
	movdqa	.Ldeerlapse_0_1_0_CPI15_5(%rip), %xmm1          # xmm1 = [0,250,53,106,43,187,95,65,142,207,228,30,116,144,209,165]
	pshufb	%xmm3, %xmm1
	movdqa	.Ldeerlapse_0_1_0_CPI15_6(%rip), %xmm2          # xmm2 = [0,129,153,118,10,253,239,124,100,24,18,147,229,247,139,110]
	pshufb	%xmm0, %xmm2
	pxor	%xmm1, %xmm2
	pxor	.Ldeerlapse_0_1_0_CPI15_7(%rip), %xmm2
	movdqa	%xmm2, %xmm0
	pshufb	.Ldeerlapse_0_1_0_CPI15_8(%rip), %xmm0          # xmm0 = xmm0[0,5,10,15,4,9,14,3,8,13,2,7,12,1,6,11]
	pshufb	.Ldeerlapse_0_1_0_CPI15_9(%rip), %xmm2          # xmm2 = xmm2[5,10,15,0,9,14,3,4,13,2,7,8,1,6,11,12]
	pxor	%xmm2, %xmm0
	pxor	%xmm1, %xmm1
	pcmpgtb	%xmm0, %xmm1
	pshuflw	$177, %xmm0, %xmm3              # xmm3 = xmm0[1,0,3,2,4,5,6,7]
	paddb	%xmm0, %xmm0
	pand	.Ldeerlapse_0_1_0_CPI15_10(%rip), %xmm1
	pshufhw	$177, %xmm3, %xmm3              # xmm3 = xmm3[0,1,2,3,5,4,7,6]
	pxor	%xmm0, %xmm3
	movdqu	(%r9), %xmm0
	pxor	%xmm3, %xmm0
	pxor	%xmm2, %xmm0
	pxor	%xmm1, %xmm0
	addq	$16, %r9
	decq	%rax
	jne	.Ldeerlapse_0_1_0_BB15_2
.Ldeerlapse_0_1_0_BB15_3:                               # %after.1
	movdqa	.Ldeerlapse_0_1_0_CPI15_0(%rip), %xmm1          # xmm1 = [15,15,15,15,15,15,15,15,15,15,15,15,15,15,15,15]
	movdqa	%xmm0, %xmm2
	pand	%xmm1, %xmm2
	movdqa	.Ldeerlapse_0_1_0_CPI15_1(%rip), %xmm3          # xmm3 = [0,1,39,38,192,193,231,230,195,194,228,229,3,2,36,37]
	pshufb	%xmm2, %xmm3
	psrlw	$4, %xmm0
	pand	%xmm1, %xmm0
	movdqa	.Ldeerlapse_0_1_0_CPI15_2(%rip), %xmm2          # xmm2 = [0,170,122,208,175,5,213,127,216,114,162,8,119,221,13,167]
	pshufb	%xmm0, %xmm2
	pxor	%xmm3, %xmm2
	movdqa	%xmm2, %xmm0
	pand	%xmm1, %xmm0
	psrlw	$4, %xmm2
	pand	%xmm1, %xmm2
	movdqa	%xmm2, %xmm1
	pxor	%xmm0, %xmm1
	movdqa	.Ldeerlapse_0_1_0_CPI15_3(%rip), %xmm3          # xmm3 = [128,3,13,1,10,8,12,11,5,14,4,7,6,2,9,15]
	pshufb	%xmm0, %xmm3
	movdqa	.Ldeerlapse_0_1_0_CPI15_4(%rip), %xmm0          # xmm0 = [128,1,12,8,6,15,4,14,3,13,11,10,2,9,7,5]
	movdqa	%xmm0, %xmm4
	pshufb	%xmm2, %xmm4
	pxor	%xmm3, %xmm4
	movdqa	%xmm0, %xmm5
	pshufb	%xmm1, %xmm5
	pxor	%xmm3, %xmm5
	movdqa	%xmm0, %xmm3
	pshufb	%xmm4, %xmm3
	pxor	%xmm1, %xmm3
	pshufb	%xmm5, %xmm0
	pxor	%xmm2, %xmm0
	movdqa	.Ldeerlapse_0_1_0_CPI15_5(%rip), %xmm1          # xmm1 = [0,250,53,106,43,187,95,65,142,207,228,30,116,144,209,165]
	pshufb	%xmm3, %xmm1
	movdqa	.Ldeerlapse_0_1_0_CPI15_6(%rip), %xmm2          # xmm2 = [0,129,153,118,10,253,239,124,100,24,18,147,229,247,139,110]
	pshufb	%xmm0, %xmm2
	movdqa	.Ldeerlapse_0_1_0_CPI15_8(%rip), %xmm0          # xmm0 = [0,5,10,15,4,9,14,3,8,13,2,7,12,1,6,11]
	pshufb	%xmm0, %xmm1
	pshufb	%xmm0, %xmm2
	pxor	%xmm1, %xmm2
	pxor	.Ldeerlapse_0_1_0_CPI15_7(%rip), %xmm2
	shlq	$4, %r8
	movdqu	(%rdx,%r8), %xmm0
	pxor	%xmm2, %xmm0
	movdqu	%xmm0, (%rcx)
	retq
                                        # -- End function
	.def	"deerlapse_0_1_0::key_derivation::quic::endpoint_secret";
	.scl	3;
	.type	32;
	.endef
	.section	.rdata,"dr"
	.p2align	4, 0x0                          # -- Begin function key_derivation::quic::endpoint_secret
.Ldeerlapse_0_1_0_CPI16_0:
	.byte	56                              # 0x38
	.byte	118                             # 0x76
	.byte	44                              # 0x2c
	.byte	247                             # 0xf7
	.byte	245                             # 0xf5
	.byte	89                              # 0x59
	.byte	52                              # 0x34
	.byte	179                             # 0xb3
	.byte	77                              # 0x4d
	.byte	23                              # 0x17
	.byte	154                             # 0x9a
	.byte	230                             # 0xe6
	.byte	164                             # 0xa4
	.byte	200                             # 0xc8
	.byte	12                              # 0xc
	.byte	173                             # 0xad
.Ldeerlapse_0_1_0_CPI16_1:
	.byte	13                              # 0xd
	.byte	237                             # 0xed
	.byte	227                             # 0xe3
	.byte	222                             # 0xde
	.byte	247                             # 0xf7
	.byte	0                               # 0x0
	.byte	166                             # 0xa6
	.byte	219                             # 0xdb
	.byte	129                             # 0x81
	.byte	147                             # 0x93
	.byte	129                             # 0x81
	.byte	190                             # 0xbe
	.byte	110                             # 0x6e
	.byte	38                              # 0x26
	.byte	157                             # 0x9d
	.byte	203                             # 0xcb
.Ldeerlapse_0_1_0_CPI16_2:
	.byte	204                             # 0xcc
	.byte	187                             # 0xbb
	.byte	127                             # 0x7f
	.byte	10                              # 0xa
	.zero	1
	.zero	1
	.zero	1
	.zero	1
	.zero	1
	.zero	1
	.zero	1
	.zero	1
	.zero	1
	.zero	1
	.zero	1
	.zero	1
.Ldeerlapse_0_1_0_CPI16_3:
	.byte	249                             # 0xf9
	.byte	189                             # 0xbd
	.byte	46                              # 0x2e
	.byte	217                             # 0xd9
	.zero	1
	.zero	1
	.zero	1
	.zero	1
	.zero	1
	.zero	1
	.zero	1
	.zero	1
	.zero	1
	.zero	1
	.zero	1
	.zero	1
.Ldeerlapse_0_1_0_CPI16_4:
	.byte	204                             # 0xcc
	.byte	187                             # 0xbb
	.byte	127                             # 0x7f
	.byte	10                              # 0xa
	.byte	0                               # 0x0
	.byte	0                               # 0x0
	.byte	0                               # 0x0
	.byte	0                               # 0x0
	.byte	0                               # 0x0
	.byte	0                               # 0x0
	.byte	0                               # 0x0
	.byte	0                               # 0x0
	.byte	0                               # 0x0
	.byte	0                               # 0x0
	.byte	0                               # 0x0
	.byte	0                               # 0x0
	.text
"deerlapse_0_1_0::key_derivation::quic::endpoint_secret": # @"deerlapse_0_1_0::key_derivation::quic::endpoint_secret"
.seh_proc "deerlapse_0_1_0::key_derivation::quic::endpoint_secret"
# %bb.0:                                # %start
	pushq	%r15
	.seh_pushreg %r15
	pushq	%r14
	.seh_pushreg %r14
	pushq	%rsi
	.seh_pushreg %rsi
	pushq	%rdi
	.seh_pushreg %rdi
	pushq	%rbx
	.seh_pushreg %rbx
	subq	$544, %rsp                      # imm = 0x220
	.seh_stackalloc 544
	movaps	%xmm6, 528(%rsp)                # 16-byte Spill
	.seh_savexmm %xmm6, 528
	.seh_endprologue
	movq	%rcx, %rsi
	cmpq	$20, %r9
	jbe	.Ldeerlapse_0_1_0_BB16_2
# %bb.1:                                # %then.1
	movb	$1, (%rsi)
	xorps	%xmm0, %xmm0
	movups	%xmm0, 3(%rsi)
	movups	%xmm0, 19(%rsi)
	movups	%xmm0, 35(%rsi)
	movb	$1, %bl
	jmp	.Ldeerlapse_0_1_0_BB16_3
.Ldeerlapse_0_1_0_BB16_2:                               # %join.3
	movq	%r8, %rax
	movl	%edx, %ebx
	movq	624(%rsp), %rdi
	movzbl	%dl, %ecx
	movd	%ecx, %xmm0
	punpcklbw	%xmm0, %xmm0            # xmm0 = xmm0[0,0,1,1,2,2,3,3,4,4,5,5,6,6,7,7]
	pshuflw	$0, %xmm0, %xmm1                # xmm1 = xmm0[0,0,0,0,4,5,6,7]
	pshufd	$68, %xmm1, %xmm0               # xmm0 = xmm1[0,1,0,1]
	psllw	$7, %xmm0
	movdqa	.Ldeerlapse_0_1_0_CPI16_0(%rip), %xmm2          # xmm2 = [56,118,44,247,245,89,52,179,77,23,154,230,164,200,12,173]
	pblendvb	%xmm0, .Ldeerlapse_0_1_0_CPI16_1(%rip), %xmm2
	leaq	144(%rsp), %rdx
	movdqa	%xmm2, (%rdx)
	psllw	$7, %xmm1
	movd	.Ldeerlapse_0_1_0_CPI16_4(%rip), %xmm2          # xmm2 = [204,187,127,10,0,0,0,0,0,0,0,0,0,0,0,0]
	movdqa	%xmm1, %xmm0
	pblendvb	%xmm0, .Ldeerlapse_0_1_0_CPI16_3(%rip), %xmm2
	movd	%xmm2, 16(%rdx)
	movq	%r9, 32(%rsp)
	leaq	240(%rsp), %r14
	movl	$20, %r8d
	movq	%r14, %rcx
	movq	%rax, %r9
	callq	"deerlapse_0_1_0::key_derivation::hmac::hmac::<#7cab53feae2e1c66>"
	movups	(%r14), %xmm0
	movups	16(%r14), %xmm1
	leaq	176(%rsp), %rdx
	movaps	%xmm1, 16(%rdx)
	movaps	%xmm0, (%rdx)
	leaq	272(%rsp), %r14
	movl	$32, %r8d
	movq	%r14, %rcx
	callq	"deerlapse_0_1_0::key_derivation::hmac::HmacKey::new::<#7cab53feae2e1c66>"
	xorps	%xmm6, %xmm6
	leaq	208(%rsp), %r15
	movaps	%xmm6, 16(%r15)
	movaps	%xmm6, (%r15)
	movq	%r15, 40(%rsp)
	movq	$32, 48(%rsp)
	movq	$0, 32(%rsp)
	leaq	.Ldeerlapse_0_1_0_static.6(%rip), %r9
	movl	$9, %r8d
	movq	%r14, %rcx
	movq	%rdi, %rdx
	callq	"deerlapse_0_1_0::key_derivation::hkdf::Expander::fill_labeled::<#7cab53feae2e1c66>"
	movaps	(%r15), %xmm0
	movaps	16(%r15), %xmm1
	movaps	%xmm1, 128(%rsp)
	movaps	%xmm0, 112(%rsp)
	movaps	%xmm6, 96(%rsp)
	movaps	%xmm0, 64(%rsp)
	movaps	%xmm1, 80(%rsp)
	movb	$0, (%rsi)
	movaps	64(%rsp), %xmm0
	movaps	80(%rsp), %xmm1
	movaps	96(%rsp), %xmm2
	movups	%xmm0, 3(%rsi)
	movups	%xmm1, 19(%rsi)
	movups	%xmm2, 35(%rsi)
.Ldeerlapse_0_1_0_BB16_3:                               # %common.ret
	movb	%bl, 1(%rsi)
	movb	$0, 2(%rsi)
	movaps	528(%rsp), %xmm6                # 16-byte Reload
	addq	$544, %rsp                      # imm = 0x220
	popq	%rbx
	popq	%rdi
	popq	%rsi
	popq	%r14
	popq	%r15
	retq
	.seh_endproc
                                        # -- End function
	.def	"deerlapse_0_1_0::key_derivation::hkdf::Expander::fill_labeled::<#7cab53feae2e1c66>";
	.scl	3;
	.type	32;
	.endef
"deerlapse_0_1_0::key_derivation::hkdf::Expander::fill_labeled::<#7cab53feae2e1c66>": # -- Begin function key_derivation::hkdf::Expander::fill_labeled::<#7cab53feae2e1c66>
                                        # @"deerlapse_0_1_0::key_derivation::hkdf::Expander::fill_labeled::<#7cab53feae2e1c66>"
.seh_proc "deerlapse_0_1_0::key_derivation::hkdf::Expander::fill_labeled::<#7cab53feae2e1c66>"
# %bb.0:                                # %start
	pushq	%r15
	.seh_pushreg %r15
	pushq	%r14
	.seh_pushreg %r14
	pushq	%r13
	.seh_pushreg %r13
	pushq	%r12
	.seh_pushreg %r12
	pushq	%rsi
	.seh_pushreg %rsi
	pushq	%rdi
	.seh_pushreg %rdi
	pushq	%rbx
	.seh_pushreg %rbx
	subq	$592, %rsp                      # imm = 0x250
	.seh_stackalloc 592
	.seh_endprologue
	movq	%r9, %r14
	movq	%r8, %r15
	movq	%rdx, %r12
	movq	%rcx, %rdi
	movq	696(%rsp), %rsi
	movq	688(%rsp), %r13
	movq	704(%rsp), %rbx
	leaq	81(%rsp), %rcx
	movl	$511, %r8d                      # imm = 0x1FF
	xorl	%edx, %edx
	callq	memset
	movw	%bx, 40(%rsp)
	movq	%r13, 32(%rsp)
	leaq	78(%rsp), %r13
	movq	%r13, %rcx
	movq	%r12, %rdx
	movq	%r15, %r8
	movq	%r14, %r9
	callq	"deerlapse_0_1_0::key_derivation::hkdf::write_hkdf_label"
	leaq	56(%rsp), %rdx
	movq	%r13, (%rdx)
	movq	%rax, 8(%rdx)
	movq	%rdi, %rcx
	movq	%rsi, %r8
	movq	%rbx, %r9
	callq	"deerlapse_0_1_0::key_derivation::hkdf::Expander::fill_okm::<#7cab53feae2e1c66>"
	nop
	addq	$592, %rsp                      # imm = 0x250
	popq	%rbx
	popq	%rdi
	popq	%rsi
	popq	%r12
	popq	%r13
	popq	%r14
	popq	%r15
	retq
	.seh_endproc
                                        # -- End function
	.def	"deerlapse_0_1_0::key_derivation::hkdf::write_hkdf_label";
	.scl	3;
	.type	32;
	.endef
"deerlapse_0_1_0::key_derivation::hkdf::write_hkdf_label": # -- Begin function key_derivation::hkdf::write_hkdf_label
                                        # @"deerlapse_0_1_0::key_derivation::hkdf::write_hkdf_label"
.seh_proc "deerlapse_0_1_0::key_derivation::hkdf::write_hkdf_label"
# %bb.0:                                # %start
	pushq	%r14
	.seh_pushreg %r14
	pushq	%rsi
	.seh_pushreg %rsi
	pushq	%rdi
	.seh_pushreg %rdi
	pushq	%rbx
	.seh_pushreg %rbx
	subq	$40, %rsp
	.seh_stackalloc 40
	.seh_endprologue
	movq	%r9, %rdi
	movq	%r8, %rsi
	movq	%rcx, %rbx
	movzwl	120(%rsp), %eax
	rolw	$8, %ax
	movw	%ax, (%rcx)
	leal	6(%r8), %eax
	movb	%al, 2(%rcx)
	leaq	3(%rcx), %rax
	leaq	.Ldeerlapse_0_1_0_static.7(%rip), %rcx
	movq	%rcx, %r8
	negq	%r8
	addq	%rbx, %r8
	addq	$3, %r8
	cmpq	$5, %r8
	ja	.Ldeerlapse_0_1_0_BB18_10
# %bb.1:                                # %join.7.i.i.i.i.i.i.i23.preheader
	xorl	%r8d, %r8d
.Ldeerlapse_0_1_0_BB18_2:                               # %join.7.i.i.i.i.i.i.i23
                                        # =>This Inner Loop Header: Depth=1
	movb	(%r8,%rcx), %r9b
	movb	%r9b, (%rax,%r8)
	incq	%r8
	cmpq	$6, %r8
	jne	.Ldeerlapse_0_1_0_BB18_2
	jmp	.Ldeerlapse_0_1_0_BB18_3
.Ldeerlapse_0_1_0_BB18_10:                              # %apart.2.i.i.i.i.i.i.i22
	movw	$8243, 4(%rax)                  # imm = 0x2033
	movl	$829647988, (%rax)              # imm = 0x31736C74
.Ldeerlapse_0_1_0_BB18_3:                               # %"key_derivation::hkdf::write_at.exit30"
	movq	112(%rsp), %r14
	leaq	9(%rbx), %rcx
	movq	%rcx, %rax
	subq	%rdx, %rax
	cmpq	%rsi, %rax
	jae	.Ldeerlapse_0_1_0_BB18_11
# %bb.4:                                # %join.7.i.i.i.i.i.i.i37.preheader
	xorl	%eax, %eax
.Ldeerlapse_0_1_0_BB18_5:                               # %join.7.i.i.i.i.i.i.i37
                                        # =>This Inner Loop Header: Depth=1
	movb	(%rdx,%rax), %r8b
	movb	%r8b, (%rcx,%rax)
	incq	%rax
	cmpq	%rax, %rsi
	jne	.Ldeerlapse_0_1_0_BB18_5
	jmp	.Ldeerlapse_0_1_0_BB18_6
.Ldeerlapse_0_1_0_BB18_11:                              # %apart.2.i.i.i.i.i.i.i36
	movq	%rsi, %r8
	callq	memmove
.Ldeerlapse_0_1_0_BB18_6:                               # %"key_derivation::hkdf::write_at.exit44"
	leaq	(%rbx,%rsi), %rcx
	addq	$10, %rcx
	movb	%r14b, -1(%rcx)
	addq	$10, %rsi
	movq	%rcx, %rax
	subq	%rdi, %rax
	cmpq	%r14, %rax
	jae	.Ldeerlapse_0_1_0_BB18_12
# %bb.7:                                # %join.7.i.i.i.i.i.i.i67.preheader
	xorl	%eax, %eax
.Ldeerlapse_0_1_0_BB18_8:                               # %join.7.i.i.i.i.i.i.i67
                                        # =>This Inner Loop Header: Depth=1
	movb	(%rdi,%rax), %dl
	movb	%dl, (%rcx,%rax)
	incq	%rax
	cmpq	%rax, %r14
	jne	.Ldeerlapse_0_1_0_BB18_8
	jmp	.Ldeerlapse_0_1_0_BB18_9
.Ldeerlapse_0_1_0_BB18_12:                              # %apart.2.i.i.i.i.i.i.i65
	movq	%rdi, %rdx
	movq	%r14, %r8
	callq	memmove
.Ldeerlapse_0_1_0_BB18_9:                               # %"key_derivation::hkdf::write_at.exit74"
	addq	%rsi, %r14
	movq	%r14, %rax
	addq	$40, %rsp
	popq	%rbx
	popq	%rdi
	popq	%rsi
	popq	%r14
	retq
	.seh_endproc
                                        # -- End function
	.def	"deerlapse_0_1_0::key_derivation::hkdf::Expander::fill_okm::<#7cab53feae2e1c66>";
	.scl	3;
	.type	32;
	.endef
"deerlapse_0_1_0::key_derivation::hkdf::Expander::fill_okm::<#7cab53feae2e1c66>": # -- Begin function key_derivation::hkdf::Expander::fill_okm::<#7cab53feae2e1c66>
                                        # @"deerlapse_0_1_0::key_derivation::hkdf::Expander::fill_okm::<#7cab53feae2e1c66>"
.seh_proc "deerlapse_0_1_0::key_derivation::hkdf::Expander::fill_okm::<#7cab53feae2e1c66>"
# %bb.0:                                # %start
	pushq	%r15
	.seh_pushreg %r15
	pushq	%r14
	.seh_pushreg %r14
	pushq	%r13
	.seh_pushreg %r13
	pushq	%r12
	.seh_pushreg %r12
	pushq	%rsi
	.seh_pushreg %rsi
	pushq	%rdi
	.seh_pushreg %rdi
	pushq	%rbp
	.seh_pushreg %rbp
	pushq	%rbx
	.seh_pushreg %rbx
	subq	$760, %rsp                      # imm = 0x2F8
	.seh_stackalloc 760
	.seh_endprologue
	movq	%rdx, 72(%rsp)                  # 8-byte Spill
	movq	%rcx, 40(%rsp)                  # 8-byte Spill
	leaq	31(%r9), %rcx
	shrq	$5, %rcx
	je	.Ldeerlapse_0_1_0_BB19_3
# %bb.1:                                # %join.7.lr.ph
	movq	%r8, %r12
	movq	40(%rsp), %rax                  # 8-byte Reload
	addq	$32, %rax
	movq	%rax, 48(%rsp)                  # 8-byte Spill
	xorl	%r13d, %r13d
	xorl	%r14d, %r14d
	movq	%r9, 64(%rsp)                   # 8-byte Spill
	movq	%rcx, 56(%rsp)                  # 8-byte Spill
.Ldeerlapse_0_1_0_BB19_2:                               # %join.7
                                        # =>This Inner Loop Header: Depth=1
	movq	40(%rsp), %r15                  # 8-byte Reload
	movups	(%r15), %xmm0
	movups	16(%r15), %xmm1
	leaq	144(%rsp), %rdx
	movaps	%xmm1, 16(%rdx)
	movaps	%xmm0, (%rdx)
	movq	48(%rsp), %rax                  # 8-byte Reload
	movups	(%rax), %xmm0
	movups	16(%rax), %xmm1
	movups	32(%rax), %xmm2
	movups	48(%rax), %xmm3
	leaq	176(%rsp), %rax
	movups	%xmm3, 48(%rax)
	movups	%xmm2, 32(%rax)
	movups	%xmm1, 16(%rax)
	movups	%xmm0, (%rax)
	movq	96(%r15), %rbx
	movl	$96, %r8d
	leaq	255(%rsp), %rsi
	movq	%rsi, %rcx
	callq	memcpy
	movl	$96, %r8d
	leaq	456(%rsp), %rdi
	movq	%rdi, %rcx
	movq	%rsi, %rdx
	callq	memcpy
	leaq	352(%rsp), %rsi
	movl	$96, %r8d
	movq	%rsi, %rcx
	movq	%rdi, %rdx
	callq	memcpy
	leaq	656(%rsp), %rbp
	movl	$12, %ecx
	movq	%rbp, %rdi
	rep;movsq (%rsi), %es:(%rdi)
	xorl	%eax, %eax
	movq	%r13, %rcx
	subq	$32, %rcx
	cmovaeq	%rcx, %rax
	movq	%rbx, 96(%rbp)
	leaq	(%r12,%rax), %rdx
	movq	%r13, %r8
	subq	%rax, %r8
	movq	%rbp, %rcx
	callq	"deerlapse_0_1_0::sha2::block256::Core256::update"
	leaq	248(%rsp), %rbx
	movl	$13, %ecx
	movq	%rbx, %rdi
	movq	%rbp, %rsi
	rep;movsq (%rsi), %es:(%rdi)
	movq	72(%rsp), %rax                  # 8-byte Reload
	movq	(%rax), %rdx
	movq	8(%rax), %r8
	movq	%rbx, %rcx
	callq	"deerlapse_0_1_0::sha2::block256::Core256::update"
	leaq	552(%rsp), %rax
	movl	$13, %ecx
	movq	%rbx, %rsi
	movq	%rax, %rdi
	rep;movsq (%rsi), %es:(%rdi)
	movl	$13, %ecx
	movq	%rbp, %rdi
	movq	%rax, %rsi
	rep;movsq (%rsi), %es:(%rdi)
	movq	64(%rsp), %rdi                  # 8-byte Reload
	incq	%r14
	leaq	39(%rsp), %rdx
	movb	%r14b, (%rdx)
	movl	$1, %r8d
	movq	%rbp, %rcx
	callq	"deerlapse_0_1_0::sha2::block256::Core256::update"
	leaq	112(%rsp), %rsi
	movq	%rsi, %rcx
	movq	%r15, %rdx
	movq	%rbp, %r8
	callq	"deerlapse_0_1_0::key_derivation::hmac::HmacKey::finish::<#7cab53feae2e1c66>"
	movups	(%rsi), %xmm0
	movups	16(%rsi), %xmm1
	leaq	80(%rsp), %rdx
	movaps	%xmm1, 16(%rdx)
	movaps	%xmm0, (%rdx)
	movq	%rdi, %rax
	subq	%r13, %rax
	cmpq	$32, %rax
	movl	$32, %r8d
	cmovbq	%rax, %r8
	leaq	(%r8,%r13), %rsi
	addq	%r12, %r13
	movq	%r13, %rcx
	callq	memcpy
	movq	56(%rsp), %rcx                  # 8-byte Reload
	movq	%rsi, %r13
	cmpq	%r14, %rcx
	jne	.Ldeerlapse_0_1_0_BB19_2
.Ldeerlapse_0_1_0_BB19_3:                               # %after.3
	addq	$760, %rsp                      # imm = 0x2F8
	popq	%rbx
	popq	%rbp
	popq	%rdi
	popq	%rsi
	popq	%r12
	popq	%r13
	popq	%r14
	popq	%r15
	retq
	.seh_endproc
                                        # -- End function
	.def	"deerlapse_0_1_0::aead_ciphers_wide::gcm::KeyRefUpdateBlocks::update_blocks";
	.scl	3;
	.type	32;
	.endef
	.section	.rdata,"dr"
	.p2align	4, 0x0                          # -- Begin function aead_ciphers_wide::gcm::KeyRefUpdateBlocks::update_blocks
.Ldeerlapse_0_1_0_CPI20_0:
	.zero	16,15
.Ldeerlapse_0_1_0_CPI20_1:
	.zero	16,192
.Ldeerlapse_0_1_0_CPI20_2:
	.zero	16,63
.Ldeerlapse_0_1_0_CPI20_3:
	.zero	16,1
.Ldeerlapse_0_1_0_CPI20_4:
	.zero	16,127
	.text
	.p2align	4
"deerlapse_0_1_0::aead_ciphers_wide::gcm::KeyRefUpdateBlocks::update_blocks": # @"deerlapse_0_1_0::aead_ciphers_wide::gcm::KeyRefUpdateBlocks::update_blocks"
.seh_proc "deerlapse_0_1_0::aead_ciphers_wide::gcm::KeyRefUpdateBlocks::update_blocks"
# %bb.0:                                # %start
	subq	$232, %rsp
	.seh_stackalloc 232
	movdqa	%xmm15, 208(%rsp)               # 16-byte Spill
	.seh_savexmm %xmm15, 208
	movdqa	%xmm14, 192(%rsp)               # 16-byte Spill
	.seh_savexmm %xmm14, 192
	movdqa	%xmm13, 176(%rsp)               # 16-byte Spill
	.seh_savexmm %xmm13, 176
	movdqa	%xmm12, 160(%rsp)               # 16-byte Spill
	.seh_savexmm %xmm12, 160
	movdqa	%xmm11, 144(%rsp)               # 16-byte Spill
	.seh_savexmm %xmm11, 144
	movdqa	%xmm10, 128(%rsp)               # 16-byte Spill
	.seh_savexmm %xmm10, 128
	movdqa	%xmm9, 112(%rsp)                # 16-byte Spill
	.seh_savexmm %xmm9, 112
	movdqa	%xmm8, 96(%rsp)                 # 16-byte Spill
	.seh_savexmm %xmm8, 96
	movdqa	%xmm7, 80(%rsp)                 # 16-byte Spill
	.seh_savexmm %xmm7, 80
	movdqa	%xmm6, 64(%rsp)                 # 16-byte Spill
	.seh_savexmm %xmm6, 64
	.seh_endprologue
	movq	272(%rsp), %rax
	movdqu	(%rdx), %xmm2
	cmpq	$32, %r9
	jb	.Ldeerlapse_0_1_0_BB20_3
# %bb.1:                                # %arm.3.lr.ph
	movq	(%rcx), %r10
	movq	8(%rcx), %r11
	.p2align	4
.Ldeerlapse_0_1_0_BB20_2:                               # %arm.3
                                        # =>This Inner Loop Header: Depth=1
	movdqu	(%r8), %xmm14
	pxor	%xmm2, %xmm14
	movdqu	16(%r8), %xmm4
	movdqa	%xmm4, %xmm6
	psrlw	$4, %xmm6
	movdqa	.Ldeerlapse_0_1_0_CPI20_0(%rip), %xmm0          # xmm0 = [15,15,15,15,15,15,15,15,15,15,15,15,15,15,15,15]
	pand	%xmm0, %xmm4
	pand	%xmm0, %xmm6
	movdqu	240(%r10), %xmm5
	movdqu	496(%r10), %xmm7
	pshufb	%xmm4, %xmm7
	pshufb	%xmm6, %xmm5
	movdqu	224(%r10), %xmm8
	movdqu	480(%r10), %xmm1
	pshufb	%xmm4, %xmm1
	pshufb	%xmm6, %xmm8
	movdqu	208(%r10), %xmm9
	movdqu	464(%r10), %xmm15
	pshufb	%xmm4, %xmm15
	pshufb	%xmm6, %xmm9
	movdqu	192(%r10), %xmm10
	pshufb	%xmm6, %xmm10
	movdqu	448(%r10), %xmm2
	pxor	%xmm5, %xmm7
	pshufb	%xmm4, %xmm2
	movdqu	176(%r10), %xmm12
	pshufb	%xmm6, %xmm12
	pxor	%xmm8, %xmm1
	movdqu	432(%r10), %xmm13
	pshufb	%xmm4, %xmm13
	movdqu	160(%r10), %xmm8
	pxor	%xmm9, %xmm15
	pshufb	%xmm6, %xmm8
	movdqu	416(%r10), %xmm5
	pshufb	%xmm4, %xmm5
	pxor	%xmm10, %xmm2
	movdqu	144(%r10), %xmm9
	pshufb	%xmm6, %xmm9
	movdqu	400(%r10), %xmm0
	pxor	%xmm12, %xmm13
	pshufb	%xmm4, %xmm0
	movdqu	128(%r10), %xmm10
	pshufb	%xmm6, %xmm10
	pxor	%xmm8, %xmm5
	movdqu	384(%r10), %xmm11
	pshufb	%xmm4, %xmm11
	movdqu	112(%r10), %xmm8
	pxor	%xmm9, %xmm0
	movdqa	%xmm0, (%rsp)                   # 16-byte Spill
	pshufb	%xmm6, %xmm8
	movdqu	368(%r10), %xmm9
	pshufb	%xmm4, %xmm9
	pxor	%xmm10, %xmm11
	movdqu	96(%r10), %xmm10
	pshufb	%xmm6, %xmm10
	movdqu	352(%r10), %xmm12
	pxor	%xmm8, %xmm9
	pshufb	%xmm4, %xmm12
	movdqu	80(%r10), %xmm8
	pshufb	%xmm6, %xmm8
	pxor	%xmm10, %xmm12
	movdqu	336(%r10), %xmm0
	pshufb	%xmm4, %xmm0
	pxor	%xmm8, %xmm0
	movdqa	%xmm0, 16(%rsp)                 # 16-byte Spill
	movdqu	64(%r10), %xmm8
	pshufb	%xmm6, %xmm8
	movdqu	320(%r10), %xmm10
	pshufb	%xmm4, %xmm10
	pxor	%xmm8, %xmm10
	movdqu	304(%r10), %xmm0
	pshufb	%xmm4, %xmm0
	movdqu	48(%r10), %xmm8
	pshufb	%xmm6, %xmm8
	pxor	%xmm8, %xmm0
	movdqa	%xmm0, 32(%rsp)                 # 16-byte Spill
	movdqu	32(%r10), %xmm0
	pshufb	%xmm6, %xmm0
	movdqu	288(%r10), %xmm8
	pshufb	%xmm4, %xmm8
	pxor	%xmm0, %xmm8
	movdqu	16(%r10), %xmm0
	pshufb	%xmm6, %xmm0
	movdqu	272(%r10), %xmm3
	pshufb	%xmm4, %xmm3
	pxor	%xmm0, %xmm3
	movdqa	%xmm3, 48(%rsp)                 # 16-byte Spill
	movdqu	(%r10), %xmm0
	pshufb	%xmm6, %xmm0
	movdqu	256(%r10), %xmm6
	pshufb	%xmm4, %xmm6
	movdqa	%xmm14, %xmm4
	psrlw	$4, %xmm4
	movdqa	.Ldeerlapse_0_1_0_CPI20_0(%rip), %xmm3          # xmm3 = [15,15,15,15,15,15,15,15,15,15,15,15,15,15,15,15]
	pand	%xmm3, %xmm4
	pand	%xmm3, %xmm14
	pxor	%xmm0, %xmm6
	movdqu	224(%r11), %xmm0
	pshufb	%xmm4, %xmm0
	pxor	%xmm1, %xmm0
	movdqu	480(%r11), %xmm3
	pshufb	%xmm14, %xmm3
	pxor	%xmm0, %xmm3
	movdqu	240(%r11), %xmm0
	pshufb	%xmm4, %xmm0
	pxor	%xmm7, %xmm0
	movdqu	496(%r11), %xmm1
	pshufb	%xmm14, %xmm1
	pxor	%xmm0, %xmm1
	movdqu	192(%r11), %xmm0
	pshufb	%xmm4, %xmm0
	pxor	%xmm2, %xmm0
	movdqu	448(%r11), %xmm2
	pshufb	%xmm14, %xmm2
	pxor	%xmm0, %xmm2
	movdqu	208(%r11), %xmm0
	pshufb	%xmm4, %xmm0
	pxor	%xmm15, %xmm0
	movdqu	464(%r11), %xmm7
	pshufb	%xmm14, %xmm7
	pxor	%xmm0, %xmm7
	movdqu	160(%r11), %xmm0
	pshufb	%xmm4, %xmm0
	pxor	%xmm5, %xmm0
	movdqu	416(%r11), %xmm15
	pshufb	%xmm14, %xmm15
	pxor	%xmm0, %xmm15
	movdqu	176(%r11), %xmm0
	pshufb	%xmm4, %xmm0
	pxor	%xmm13, %xmm0
	movdqa	%xmm3, %xmm5
	pslldq	$2, %xmm5                       # xmm5 = zero,zero,xmm5[0,1,2,3,4,5,6,7,8,9,10,11,12,13]
	pxor	%xmm5, %xmm2
	movdqu	432(%r11), %xmm13
	pshufb	%xmm14, %xmm13
	pxor	%xmm0, %xmm13
	movdqu	128(%r11), %xmm0
	pshufb	%xmm4, %xmm0
	pxor	%xmm11, %xmm0
	movdqu	384(%r11), %xmm5
	pshufb	%xmm14, %xmm5
	pxor	%xmm0, %xmm5
	movdqa	%xmm1, %xmm0
	pslldq	$2, %xmm0                       # xmm0 = zero,zero,xmm0[0,1,2,3,4,5,6,7,8,9,10,11,12,13]
	pxor	%xmm0, %xmm7
	psrldq	$14, %xmm3                      # xmm3 = xmm3[14,15],zero,zero,zero,zero,zero,zero,zero,zero,zero,zero,zero,zero,zero,zero
	palignr	$14, %xmm2, %xmm3               # xmm3 = xmm2[14,15],xmm3[0,1,2,3,4,5,6,7,8,9,10,11,12,13]
	pslldq	$2, %xmm2                       # xmm2 = zero,zero,xmm2[0,1,2,3,4,5,6,7,8,9,10,11,12,13]
	pxor	%xmm2, %xmm15
	psrldq	$14, %xmm1                      # xmm1 = xmm1[14,15],zero,zero,zero,zero,zero,zero,zero,zero,zero,zero,zero,zero,zero,zero
	palignr	$14, %xmm7, %xmm1               # xmm1 = xmm7[14,15],xmm1[0,1,2,3,4,5,6,7,8,9,10,11,12,13]
	pslldq	$2, %xmm7                       # xmm7 = zero,zero,xmm7[0,1,2,3,4,5,6,7,8,9,10,11,12,13]
	pxor	%xmm7, %xmm13
	palignr	$14, %xmm15, %xmm3              # xmm3 = xmm15[14,15],xmm3[0,1,2,3,4,5,6,7,8,9,10,11,12,13]
	pslldq	$2, %xmm15                      # xmm15 = zero,zero,xmm15[0,1,2,3,4,5,6,7,8,9,10,11,12,13]
	pxor	%xmm15, %xmm5
	movdqu	144(%r11), %xmm0
	pshufb	%xmm4, %xmm0
	pxor	(%rsp), %xmm0                   # 16-byte Folded Reload
	movdqu	400(%r11), %xmm2
	pshufb	%xmm14, %xmm2
	pxor	%xmm0, %xmm2
	palignr	$14, %xmm13, %xmm1              # xmm1 = xmm13[14,15],xmm1[0,1,2,3,4,5,6,7,8,9,10,11,12,13]
	pslldq	$2, %xmm13                      # xmm13 = zero,zero,xmm13[0,1,2,3,4,5,6,7,8,9,10,11,12,13]
	pxor	%xmm13, %xmm2
	movdqu	96(%r11), %xmm0
	pshufb	%xmm4, %xmm0
	pxor	%xmm12, %xmm0
	movdqu	352(%r11), %xmm11
	pshufb	%xmm14, %xmm11
	pxor	%xmm0, %xmm11
	movdqu	112(%r11), %xmm0
	pshufb	%xmm4, %xmm0
	pxor	%xmm9, %xmm0
	palignr	$14, %xmm5, %xmm3               # xmm3 = xmm5[14,15],xmm3[0,1,2,3,4,5,6,7,8,9,10,11,12,13]
	pslldq	$2, %xmm5                       # xmm5 = zero,zero,xmm5[0,1,2,3,4,5,6,7,8,9,10,11,12,13]
	pxor	%xmm5, %xmm11
	movdqu	368(%r11), %xmm9
	pshufb	%xmm14, %xmm9
	pxor	%xmm0, %xmm9
	movdqu	64(%r11), %xmm0
	pshufb	%xmm4, %xmm0
	pxor	%xmm10, %xmm0
	movdqu	320(%r11), %xmm7
	pshufb	%xmm14, %xmm7
	pxor	%xmm0, %xmm7
	palignr	$14, %xmm2, %xmm1               # xmm1 = xmm2[14,15],xmm1[0,1,2,3,4,5,6,7,8,9,10,11,12,13]
	pslldq	$2, %xmm2                       # xmm2 = zero,zero,xmm2[0,1,2,3,4,5,6,7,8,9,10,11,12,13]
	pxor	%xmm2, %xmm9
	palignr	$14, %xmm11, %xmm3              # xmm3 = xmm11[14,15],xmm3[0,1,2,3,4,5,6,7,8,9,10,11,12,13]
	pslldq	$2, %xmm11                      # xmm11 = zero,zero,xmm11[0,1,2,3,4,5,6,7,8,9,10,11,12,13]
	pxor	%xmm11, %xmm7
	movdqu	80(%r11), %xmm0
	pshufb	%xmm4, %xmm0
	pxor	16(%rsp), %xmm0                 # 16-byte Folded Reload
	movdqu	336(%r11), %xmm5
	pshufb	%xmm14, %xmm5
	pxor	%xmm0, %xmm5
	palignr	$14, %xmm9, %xmm1               # xmm1 = xmm9[14,15],xmm1[0,1,2,3,4,5,6,7,8,9,10,11,12,13]
	pslldq	$2, %xmm9                       # xmm9 = zero,zero,xmm9[0,1,2,3,4,5,6,7,8,9,10,11,12,13]
	pxor	%xmm9, %xmm5
	movdqu	32(%r11), %xmm0
	pshufb	%xmm4, %xmm0
	pxor	%xmm8, %xmm0
	movdqu	288(%r11), %xmm2
	pshufb	%xmm14, %xmm2
	pxor	%xmm0, %xmm2
	movdqu	48(%r11), %xmm0
	pshufb	%xmm4, %xmm0
	pxor	32(%rsp), %xmm0                 # 16-byte Folded Reload
	palignr	$14, %xmm7, %xmm3               # xmm3 = xmm7[14,15],xmm3[0,1,2,3,4,5,6,7,8,9,10,11,12,13]
	pslldq	$2, %xmm7                       # xmm7 = zero,zero,xmm7[0,1,2,3,4,5,6,7,8,9,10,11,12,13]
	pxor	%xmm7, %xmm2
	movdqu	304(%r11), %xmm7
	pshufb	%xmm14, %xmm7
	pxor	%xmm0, %xmm7
	movdqu	(%r11), %xmm0
	pshufb	%xmm4, %xmm0
	pxor	%xmm6, %xmm0
	movdqu	256(%r11), %xmm6
	pshufb	%xmm14, %xmm6
	pxor	%xmm0, %xmm6
	palignr	$14, %xmm5, %xmm1               # xmm1 = xmm5[14,15],xmm1[0,1,2,3,4,5,6,7,8,9,10,11,12,13]
	pslldq	$2, %xmm5                       # xmm5 = zero,zero,xmm5[0,1,2,3,4,5,6,7,8,9,10,11,12,13]
	pxor	%xmm5, %xmm7
	movdqu	16(%r11), %xmm0
	pshufb	%xmm4, %xmm0
	pxor	48(%rsp), %xmm0                 # 16-byte Folded Reload
	movdqu	272(%r11), %xmm4
	pshufb	%xmm14, %xmm4
	pxor	%xmm0, %xmm4
	palignr	$14, %xmm7, %xmm1               # xmm1 = xmm7[14,15],xmm1[0,1,2,3,4,5,6,7,8,9,10,11,12,13]
	pslldq	$2, %xmm7                       # xmm7 = zero,zero,xmm7[0,1,2,3,4,5,6,7,8,9,10,11,12,13]
	pxor	%xmm7, %xmm4
	palignr	$14, %xmm2, %xmm3               # xmm3 = xmm2[14,15],xmm3[0,1,2,3,4,5,6,7,8,9,10,11,12,13]
	pslldq	$2, %xmm2                       # xmm2 = zero,zero,xmm2[0,1,2,3,4,5,6,7,8,9,10,11,12,13]
	pxor	%xmm2, %xmm6
	palignr	$15, %xmm4, %xmm1               # xmm1 = xmm4[15],xmm1[0,1,2,3,4,5,6,7,8,9,10,11,12,13,14]
	pslldq	$1, %xmm4                       # xmm4 = zero,xmm4[0,1,2,3,4,5,6,7,8,9,10,11,12,13,14]
	pxor	%xmm3, %xmm1
	pxor	%xmm6, %xmm4
	movdqa	%xmm1, %xmm0
	pslldq	$1, %xmm0                       # xmm0 = zero,xmm0[0,1,2,3,4,5,6,7,8,9,10,11,12,13,14]
	movdqa	%xmm1, %xmm3
	psrlw	$7, %xmm3
	pand	.Ldeerlapse_0_1_0_CPI20_3(%rip), %xmm3
	movdqa	%xmm1, %xmm2
	psrlw	$1, %xmm2
	pand	.Ldeerlapse_0_1_0_CPI20_4(%rip), %xmm2
	pxor	%xmm4, %xmm2
	movdqa	%xmm0, %xmm4
	paddb	%xmm0, %xmm4
	por	%xmm4, %xmm3
	pxor	%xmm3, %xmm2
	pxor	%xmm4, %xmm0
	psllw	$6, %xmm0
	pand	.Ldeerlapse_0_1_0_CPI20_1(%rip), %xmm0
	pxor	%xmm1, %xmm2
	psrlw	$2, %xmm1
	pand	.Ldeerlapse_0_1_0_CPI20_2(%rip), %xmm1
	por	%xmm0, %xmm1
	pxor	%xmm1, %xmm2
	addq	$-32, %r9
	addq	$32, %r8
	addq	$2, 8(%rax)
	cmpq	$31, %r9
	ja	.Ldeerlapse_0_1_0_BB20_2
.Ldeerlapse_0_1_0_BB20_3:                               # %after.1
	cmpq	$16, %r9
	jb	.Ldeerlapse_0_1_0_BB20_5
# %bb.4:                                # %arm.7
	movdqu	(%r8), %xmm1
	pxor	%xmm2, %xmm1
	movq	(%rcx), %rcx
	movdqa	%xmm1, %xmm2
	psrlw	$4, %xmm2
	movdqa	.Ldeerlapse_0_1_0_CPI20_0(%rip), %xmm0          # xmm0 = [15,15,15,15,15,15,15,15,15,15,15,15,15,15,15,15]
	pand	%xmm0, %xmm2
	pand	%xmm0, %xmm1
	movdqu	240(%rcx), %xmm3
	pshufb	%xmm2, %xmm3
	movdqu	496(%rcx), %xmm0
	pshufb	%xmm1, %xmm0
	pxor	%xmm3, %xmm0
	movdqa	%xmm0, %xmm3
	pslldq	$1, %xmm3                       # xmm3 = zero,xmm3[0,1,2,3,4,5,6,7,8,9,10,11,12,13,14]
	psrldq	$15, %xmm0                      # xmm0 = xmm0[15],zero,zero,zero,zero,zero,zero,zero,zero,zero,zero,zero,zero,zero,zero,zero
	movdqu	224(%rcx), %xmm4
	pshufb	%xmm2, %xmm4
	movdqu	480(%rcx), %xmm5
	pshufb	%xmm1, %xmm5
	pxor	%xmm4, %xmm5
	pxor	%xmm3, %xmm5
	palignr	$15, %xmm5, %xmm0               # xmm0 = xmm5[15],xmm0[0,1,2,3,4,5,6,7,8,9,10,11,12,13,14]
	pslldq	$1, %xmm5                       # xmm5 = zero,xmm5[0,1,2,3,4,5,6,7,8,9,10,11,12,13,14]
	movdqu	208(%rcx), %xmm3
	pshufb	%xmm2, %xmm3
	movdqu	464(%rcx), %xmm4
	pshufb	%xmm1, %xmm4
	pxor	%xmm3, %xmm4
	pxor	%xmm5, %xmm4
	palignr	$15, %xmm4, %xmm0               # xmm0 = xmm4[15],xmm0[0,1,2,3,4,5,6,7,8,9,10,11,12,13,14]
	pslldq	$1, %xmm4                       # xmm4 = zero,xmm4[0,1,2,3,4,5,6,7,8,9,10,11,12,13,14]
	movdqu	192(%rcx), %xmm3
	pshufb	%xmm2, %xmm3
	movdqu	448(%rcx), %xmm5
	pshufb	%xmm1, %xmm5
	pxor	%xmm3, %xmm5
	pxor	%xmm4, %xmm5
	palignr	$15, %xmm5, %xmm0               # xmm0 = xmm5[15],xmm0[0,1,2,3,4,5,6,7,8,9,10,11,12,13,14]
	pslldq	$1, %xmm5                       # xmm5 = zero,xmm5[0,1,2,3,4,5,6,7,8,9,10,11,12,13,14]
	movdqu	176(%rcx), %xmm3
	pshufb	%xmm2, %xmm3
	movdqu	432(%rcx), %xmm4
	pshufb	%xmm1, %xmm4
	pxor	%xmm3, %xmm4
	pxor	%xmm5, %xmm4
	palignr	$15, %xmm4, %xmm0               # xmm0 = xmm4[15],xmm0[0,1,2,3,4,5,6,7,8,9,10,11,12,13,14]
	pslldq	$1, %xmm4                       # xmm4 = zero,xmm4[0,1,2,3,4,5,6,7,8,9,10,11,12,13,14]
	movdqu	160(%rcx), %xmm3
	pshufb	%xmm2, %xmm3
	movdqu	416(%rcx), %xmm5
	pshufb	%xmm1, %xmm5
	pxor	%xmm3, %xmm5
	pxor	%xmm4, %xmm5
	palignr	$15, %xmm5, %xmm0               # xmm0 = xmm5[15],xmm0[0,1,2,3,4,5,6,7,8,9,10,11,12,13,14]
	pslldq	$1, %xmm5                       # xmm5 = zero,xmm5[0,1,2,3,4,5,6,7,8,9,10,11,12,13,14]
	movdqu	144(%rcx), %xmm3
	pshufb	%xmm2, %xmm3
	movdqu	400(%rcx), %xmm4
	pshufb	%xmm1, %xmm4
	pxor	%xmm3, %xmm4
	pxor	%xmm5, %xmm4
	palignr	$15, %xmm4, %xmm0               # xmm0 = xmm4[15],xmm0[0,1,2,3,4,5,6,7,8,9,10,11,12,13,14]
	pslldq	$1, %xmm4                       # xmm4 = zero,xmm4[0,1,2,3,4,5,6,7,8,9,10,11,12,13,14]
	movdqu	128(%rcx), %xmm3
	pshufb	%xmm2, %xmm3
	movdqu	384(%rcx), %xmm5
	pshufb	%xmm1, %xmm5
	pxor	%xmm3, %xmm5
	pxor	%xmm4, %xmm5
	palignr	$15, %xmm5, %xmm0               # xmm0 = xmm5[15],xmm0[0,1,2,3,4,5,6,7,8,9,10,11,12,13,14]
	pslldq	$1, %xmm5                       # xmm5 = zero,xmm5[0,1,2,3,4,5,6,7,8,9,10,11,12,13,14]
	movdqu	112(%rcx), %xmm3
	pshufb	%xmm2, %xmm3
	movdqu	368(%rcx), %xmm4
	pshufb	%xmm1, %xmm4
	pxor	%xmm3, %xmm4
	pxor	%xmm5, %xmm4
	palignr	$15, %xmm4, %xmm0               # xmm0 = xmm4[15],xmm0[0,1,2,3,4,5,6,7,8,9,10,11,12,13,14]
	pslldq	$1, %xmm4                       # xmm4 = zero,xmm4[0,1,2,3,4,5,6,7,8,9,10,11,12,13,14]
	movdqu	96(%rcx), %xmm3
	pshufb	%xmm2, %xmm3
	movdqu	352(%rcx), %xmm5
	pshufb	%xmm1, %xmm5
	pxor	%xmm3, %xmm5
	pxor	%xmm4, %xmm5
	palignr	$15, %xmm5, %xmm0               # xmm0 = xmm5[15],xmm0[0,1,2,3,4,5,6,7,8,9,10,11,12,13,14]
	pslldq	$1, %xmm5                       # xmm5 = zero,xmm5[0,1,2,3,4,5,6,7,8,9,10,11,12,13,14]
	movdqu	80(%rcx), %xmm3
	pshufb	%xmm2, %xmm3
	movdqu	336(%rcx), %xmm4
	pshufb	%xmm1, %xmm4
	pxor	%xmm3, %xmm4
	pxor	%xmm5, %xmm4
	palignr	$15, %xmm4, %xmm0               # xmm0 = xmm4[15],xmm0[0,1,2,3,4,5,6,7,8,9,10,11,12,13,14]
	pslldq	$1, %xmm4                       # xmm4 = zero,xmm4[0,1,2,3,4,5,6,7,8,9,10,11,12,13,14]
	movdqu	64(%rcx), %xmm3
	pshufb	%xmm2, %xmm3
	movdqu	320(%rcx), %xmm5
	pshufb	%xmm1, %xmm5
	pxor	%xmm3, %xmm5
	pxor	%xmm4, %xmm5
	palignr	$15, %xmm5, %xmm0               # xmm0 = xmm5[15],xmm0[0,1,2,3,4,5,6,7,8,9,10,11,12,13,14]
	pslldq	$1, %xmm5                       # xmm5 = zero,xmm5[0,1,2,3,4,5,6,7,8,9,10,11,12,13,14]
	movdqu	(%rcx), %xmm3
	movdqu	16(%rcx), %xmm4
	movdqu	32(%rcx), %xmm6
	movdqu	48(%rcx), %xmm7
	pshufb	%xmm2, %xmm7
	movdqu	304(%rcx), %xmm8
	pshufb	%xmm1, %xmm8
	pxor	%xmm7, %xmm8
	pxor	%xmm5, %xmm8
	palignr	$15, %xmm8, %xmm0               # xmm0 = xmm8[15],xmm0[0,1,2,3,4,5,6,7,8,9,10,11,12,13,14]
	pslldq	$1, %xmm8                       # xmm8 = zero,xmm8[0,1,2,3,4,5,6,7,8,9,10,11,12,13,14]
	pshufb	%xmm2, %xmm6
	movdqu	288(%rcx), %xmm5
	pshufb	%xmm1, %xmm5
	pxor	%xmm6, %xmm5
	pxor	%xmm8, %xmm5
	palignr	$15, %xmm5, %xmm0               # xmm0 = xmm5[15],xmm0[0,1,2,3,4,5,6,7,8,9,10,11,12,13,14]
	pslldq	$1, %xmm5                       # xmm5 = zero,xmm5[0,1,2,3,4,5,6,7,8,9,10,11,12,13,14]
	pshufb	%xmm2, %xmm4
	movdqu	272(%rcx), %xmm6
	pshufb	%xmm1, %xmm6
	pxor	%xmm4, %xmm6
	pxor	%xmm5, %xmm6
	palignr	$15, %xmm6, %xmm0               # xmm0 = xmm6[15],xmm0[0,1,2,3,4,5,6,7,8,9,10,11,12,13,14]
	pslldq	$1, %xmm6                       # xmm6 = zero,xmm6[0,1,2,3,4,5,6,7,8,9,10,11,12,13,14]
	pshufb	%xmm2, %xmm3
	pxor	%xmm6, %xmm3
	movdqu	256(%rcx), %xmm4
	pshufb	%xmm1, %xmm4
	pxor	%xmm3, %xmm4
	movdqa	%xmm0, %xmm1
	pslldq	$1, %xmm1                       # xmm1 = zero,xmm1[0,1,2,3,4,5,6,7,8,9,10,11,12,13,14]
	movdqa	%xmm1, %xmm2
	paddb	%xmm1, %xmm2
	pxor	%xmm2, %xmm1
	psllw	$6, %xmm1
	pand	.Ldeerlapse_0_1_0_CPI20_1(%rip), %xmm1
	movdqa	%xmm0, %xmm3
	psrlw	$7, %xmm3
	pand	.Ldeerlapse_0_1_0_CPI20_3(%rip), %xmm3
	por	%xmm2, %xmm3
	movdqa	%xmm0, %xmm2
	psrlw	$1, %xmm2
	pand	.Ldeerlapse_0_1_0_CPI20_4(%rip), %xmm2
	pxor	%xmm4, %xmm2
	pxor	%xmm3, %xmm2
	pxor	%xmm0, %xmm2
	psrlw	$2, %xmm0
	pand	.Ldeerlapse_0_1_0_CPI20_2(%rip), %xmm0
	por	%xmm1, %xmm0
	pxor	%xmm0, %xmm2
	incq	8(%rax)
.Ldeerlapse_0_1_0_BB20_5:                               # %join.9
	movdqu	%xmm2, (%rdx)
	movaps	64(%rsp), %xmm6                 # 16-byte Reload
	movaps	80(%rsp), %xmm7                 # 16-byte Reload
	movaps	96(%rsp), %xmm8                 # 16-byte Reload
	movaps	112(%rsp), %xmm9                # 16-byte Reload
	movaps	128(%rsp), %xmm10               # 16-byte Reload
	movaps	144(%rsp), %xmm11               # 16-byte Reload
	movaps	160(%rsp), %xmm12               # 16-byte Reload
	movaps	176(%rsp), %xmm13               # 16-byte Reload
	movaps	192(%rsp), %xmm14               # 16-byte Reload
	movaps	208(%rsp), %xmm15               # 16-byte Reload
	addq	$232, %rsp
	retq
	.seh_endproc
                                        # -- End function
	.def	"deerlapse_0_1_0::aead_ciphers_wide::gcm::KeyRefUpdateBlock::update_block";
	.scl	3;
	.type	32;
	.endef
	.section	.rdata,"dr"
	.p2align	4, 0x0                          # -- Begin function aead_ciphers_wide::gcm::KeyRefUpdateBlock::update_block
.Ldeerlapse_0_1_0_CPI21_0:
	.zero	16,15
.Ldeerlapse_0_1_0_CPI21_1:
	.zero	16,192
.Ldeerlapse_0_1_0_CPI21_2:
	.zero	16,63
.Ldeerlapse_0_1_0_CPI21_3:
	.zero	16,1
.Ldeerlapse_0_1_0_CPI21_4:
	.zero	16,127
	.text
	.p2align	4
"deerlapse_0_1_0::aead_ciphers_wide::gcm::KeyRefUpdateBlock::update_block": # @"deerlapse_0_1_0::aead_ciphers_wide::gcm::KeyRefUpdateBlock::update_block"
.seh_proc "deerlapse_0_1_0::aead_ciphers_wide::gcm::KeyRefUpdateBlock::update_block"
# %bb.0:                                # %start
	subq	$56, %rsp
	.seh_stackalloc 56
	movaps	%xmm8, 32(%rsp)                 # 16-byte Spill
	.seh_savexmm %xmm8, 32
	movaps	%xmm7, 16(%rsp)                 # 16-byte Spill
	.seh_savexmm %xmm7, 16
	movaps	%xmm6, (%rsp)                   # 16-byte Spill
	.seh_savexmm %xmm6, 0
	.seh_endprologue
	movdqu	(%r8), %xmm0
	movdqu	(%rdx), %xmm1
	pxor	%xmm0, %xmm1
	movdqa	%xmm1, %xmm2
	psrlw	$4, %xmm2
	movdqa	.Ldeerlapse_0_1_0_CPI21_0(%rip), %xmm0          # xmm0 = [15,15,15,15,15,15,15,15,15,15,15,15,15,15,15,15]
	pand	%xmm0, %xmm2
	pand	%xmm0, %xmm1
	movdqu	240(%rcx), %xmm3
	pshufb	%xmm2, %xmm3
	movdqu	496(%rcx), %xmm0
	pshufb	%xmm1, %xmm0
	pxor	%xmm3, %xmm0
	movdqa	%xmm0, %xmm3
	pslldq	$1, %xmm3                       # xmm3 = zero,xmm3[0,1,2,3,4,5,6,7,8,9,10,11,12,13,14]
	psrldq	$15, %xmm0                      # xmm0 = xmm0[15],zero,zero,zero,zero,zero,zero,zero,zero,zero,zero,zero,zero,zero,zero,zero
	movdqu	224(%rcx), %xmm4
	pshufb	%xmm2, %xmm4
	movdqu	480(%rcx), %xmm5
	pshufb	%xmm1, %xmm5
	pxor	%xmm4, %xmm5
	pxor	%xmm3, %xmm5
	palignr	$15, %xmm5, %xmm0               # xmm0 = xmm5[15],xmm0[0,1,2,3,4,5,6,7,8,9,10,11,12,13,14]
	pslldq	$1, %xmm5                       # xmm5 = zero,xmm5[0,1,2,3,4,5,6,7,8,9,10,11,12,13,14]
	movdqu	208(%rcx), %xmm3
	pshufb	%xmm2, %xmm3
	movdqu	464(%rcx), %xmm4
	pshufb	%xmm1, %xmm4
	pxor	%xmm3, %xmm4
	pxor	%xmm5, %xmm4
	palignr	$15, %xmm4, %xmm0               # xmm0 = xmm4[15],xmm0[0,1,2,3,4,5,6,7,8,9,10,11,12,13,14]
	pslldq	$1, %xmm4                       # xmm4 = zero,xmm4[0,1,2,3,4,5,6,7,8,9,10,11,12,13,14]
	movdqu	192(%rcx), %xmm3
	pshufb	%xmm2, %xmm3
	movdqu	448(%rcx), %xmm5
	pshufb	%xmm1, %xmm5
	pxor	%xmm3, %xmm5
	pxor	%xmm4, %xmm5
	palignr	$15, %xmm5, %xmm0               # xmm0 = xmm5[15],xmm0[0,1,2,3,4,5,6,7,8,9,10,11,12,13,14]
	pslldq	$1, %xmm5                       # xmm5 = zero,xmm5[0,1,2,3,4,5,6,7,8,9,10,11,12,13,14]
	movdqu	176(%rcx), %xmm3
	pshufb	%xmm2, %xmm3
	movdqu	432(%rcx), %xmm4
	pshufb	%xmm1, %xmm4
	pxor	%xmm3, %xmm4
	pxor	%xmm5, %xmm4
	palignr	$15, %xmm4, %xmm0               # xmm0 = xmm4[15],xmm0[0,1,2,3,4,5,6,7,8,9,10,11,12,13,14]
	pslldq	$1, %xmm4                       # xmm4 = zero,xmm4[0,1,2,3,4,5,6,7,8,9,10,11,12,13,14]
	movdqu	160(%rcx), %xmm3
	pshufb	%xmm2, %xmm3
	movdqu	416(%rcx), %xmm5
	pshufb	%xmm1, %xmm5
	pxor	%xmm3, %xmm5
	pxor	%xmm4, %xmm5
	palignr	$15, %xmm5, %xmm0               # xmm0 = xmm5[15],xmm0[0,1,2,3,4,5,6,7,8,9,10,11,12,13,14]
	pslldq	$1, %xmm5                       # xmm5 = zero,xmm5[0,1,2,3,4,5,6,7,8,9,10,11,12,13,14]
	movdqu	144(%rcx), %xmm3
	pshufb	%xmm2, %xmm3
	movdqu	400(%rcx), %xmm4
	pshufb	%xmm1, %xmm4
	pxor	%xmm3, %xmm4
	pxor	%xmm5, %xmm4
	palignr	$15, %xmm4, %xmm0               # xmm0 = xmm4[15],xmm0[0,1,2,3,4,5,6,7,8,9,10,11,12,13,14]
	pslldq	$1, %xmm4                       # xmm4 = zero,xmm4[0,1,2,3,4,5,6,7,8,9,10,11,12,13,14]
	movdqu	128(%rcx), %xmm3
	pshufb	%xmm2, %xmm3
	movdqu	384(%rcx), %xmm5
	pshufb	%xmm1, %xmm5
	pxor	%xmm3, %xmm5
	pxor	%xmm4, %xmm5
	palignr	$15, %xmm5, %xmm0               # xmm0 = xmm5[15],xmm0[0,1,2,3,4,5,6,7,8,9,10,11,12,13,14]
	pslldq	$1, %xmm5                       # xmm5 = zero,xmm5[0,1,2,3,4,5,6,7,8,9,10,11,12,13,14]
	movdqu	112(%rcx), %xmm3
	pshufb	%xmm2, %xmm3
	movdqu	368(%rcx), %xmm4
	pshufb	%xmm1, %xmm4
	pxor	%xmm3, %xmm4
	pxor	%xmm5, %xmm4
	palignr	$15, %xmm4, %xmm0               # xmm0 = xmm4[15],xmm0[0,1,2,3,4,5,6,7,8,9,10,11,12,13,14]
	pslldq	$1, %xmm4                       # xmm4 = zero,xmm4[0,1,2,3,4,5,6,7,8,9,10,11,12,13,14]
	movdqu	96(%rcx), %xmm3
	pshufb	%xmm2, %xmm3
	movdqu	352(%rcx), %xmm5
	pshufb	%xmm1, %xmm5
	pxor	%xmm3, %xmm5
	pxor	%xmm4, %xmm5
	palignr	$15, %xmm5, %xmm0               # xmm0 = xmm5[15],xmm0[0,1,2,3,4,5,6,7,8,9,10,11,12,13,14]
	pslldq	$1, %xmm5                       # xmm5 = zero,xmm5[0,1,2,3,4,5,6,7,8,9,10,11,12,13,14]
	movdqu	80(%rcx), %xmm3
	pshufb	%xmm2, %xmm3
	movdqu	336(%rcx), %xmm4
	pshufb	%xmm1, %xmm4
	pxor	%xmm3, %xmm4
	pxor	%xmm5, %xmm4
	palignr	$15, %xmm4, %xmm0               # xmm0 = xmm4[15],xmm0[0,1,2,3,4,5,6,7,8,9,10,11,12,13,14]
	pslldq	$1, %xmm4                       # xmm4 = zero,xmm4[0,1,2,3,4,5,6,7,8,9,10,11,12,13,14]
	movdqu	64(%rcx), %xmm3
	pshufb	%xmm2, %xmm3
	movdqu	320(%rcx), %xmm5
	pshufb	%xmm1, %xmm5
	pxor	%xmm3, %xmm5
	pxor	%xmm4, %xmm5
	palignr	$15, %xmm5, %xmm0               # xmm0 = xmm5[15],xmm0[0,1,2,3,4,5,6,7,8,9,10,11,12,13,14]
	pslldq	$1, %xmm5                       # xmm5 = zero,xmm5[0,1,2,3,4,5,6,7,8,9,10,11,12,13,14]
	movdqu	(%rcx), %xmm3
	movdqu	16(%rcx), %xmm4
	movdqu	32(%rcx), %xmm6
	movdqu	48(%rcx), %xmm7
	pshufb	%xmm2, %xmm7
	movdqu	304(%rcx), %xmm8
	pshufb	%xmm1, %xmm8
	pxor	%xmm7, %xmm8
	pxor	%xmm5, %xmm8
	palignr	$15, %xmm8, %xmm0               # xmm0 = xmm8[15],xmm0[0,1,2,3,4,5,6,7,8,9,10,11,12,13,14]
	pslldq	$1, %xmm8                       # xmm8 = zero,xmm8[0,1,2,3,4,5,6,7,8,9,10,11,12,13,14]
	pshufb	%xmm2, %xmm6
	movdqu	288(%rcx), %xmm5
	pshufb	%xmm1, %xmm5
	pxor	%xmm6, %xmm5
	pxor	%xmm8, %xmm5
	palignr	$15, %xmm5, %xmm0               # xmm0 = xmm5[15],xmm0[0,1,2,3,4,5,6,7,8,9,10,11,12,13,14]
	pslldq	$1, %xmm5                       # xmm5 = zero,xmm5[0,1,2,3,4,5,6,7,8,9,10,11,12,13,14]
	pshufb	%xmm2, %xmm4
	movdqu	272(%rcx), %xmm6
	pshufb	%xmm1, %xmm6
	pxor	%xmm4, %xmm6
	pxor	%xmm5, %xmm6
	palignr	$15, %xmm6, %xmm0               # xmm0 = xmm6[15],xmm0[0,1,2,3,4,5,6,7,8,9,10,11,12,13,14]
	pslldq	$1, %xmm6                       # xmm6 = zero,xmm6[0,1,2,3,4,5,6,7,8,9,10,11,12,13,14]
	pshufb	%xmm2, %xmm3
	pxor	%xmm6, %xmm3
	movdqu	256(%rcx), %xmm2
	pshufb	%xmm1, %xmm2
	pxor	%xmm3, %xmm2
	movdqa	%xmm0, %xmm1
	pslldq	$1, %xmm1                       # xmm1 = zero,xmm1[0,1,2,3,4,5,6,7,8,9,10,11,12,13,14]
	movdqa	%xmm1, %xmm3
	paddb	%xmm1, %xmm3
	pxor	%xmm3, %xmm1
	psllw	$6, %xmm1
	pand	.Ldeerlapse_0_1_0_CPI21_1(%rip), %xmm1
	movdqa	%xmm0, %xmm4
	psrlw	$7, %xmm4
	pand	.Ldeerlapse_0_1_0_CPI21_3(%rip), %xmm4
	por	%xmm3, %xmm4
	movdqa	%xmm0, %xmm3
	psrlw	$1, %xmm3
	pand	.Ldeerlapse_0_1_0_CPI21_4(%rip), %xmm3
	pxor	%xmm2, %xmm3
	pxor	%xmm4, %xmm3
	pxor	%xmm0, %xmm3
	psrlw	$2, %xmm0
	pand	.Ldeerlapse_0_1_0_CPI21_2(%rip), %xmm0
	por	%xmm1, %xmm0
	pxor	%xmm0, %xmm3
	movdqu	%xmm3, (%rdx)
	incq	8(%r9)
	movaps	(%rsp), %xmm6                   # 16-byte Reload
	movaps	16(%rsp), %xmm7                 # 16-byte Reload
	movaps	32(%rsp), %xmm8                 # 16-byte Reload
	addq	$56, %rsp
	retq
	.seh_endproc
                                        # -- End function
	.def	"deerlapse_0_1_0::aead_ciphers::aes_gcm::opening::authenticate::<#7bfdf0a6b4753edd>";
	.scl	3;
	.type	32;
	.endef
	.p2align	4                               # -- Begin function aead_ciphers::aes_gcm::opening::authenticate::<#7bfdf0a6b4753edd>
"deerlapse_0_1_0::aead_ciphers::aes_gcm::opening::authenticate::<#7bfdf0a6b4753edd>": # @"deerlapse_0_1_0::aead_ciphers::aes_gcm::opening::authenticate::<#7bfdf0a6b4753edd>"
.seh_proc "deerlapse_0_1_0::aead_ciphers::aes_gcm::opening::authenticate::<#7bfdf0a6b4753edd>"
# %bb.0:                                # %start
	pushq	%r15
	.seh_pushreg %r15
	pushq	%r14
	.seh_pushreg %r14
	pushq	%r13
	.seh_pushreg %r13
	pushq	%r12
	.seh_pushreg %r12
	pushq	%rsi
	.seh_pushreg %rsi
	pushq	%rdi
	.seh_pushreg %rdi
	pushq	%rbp
	.seh_pushreg %rbp
	pushq	%rbx
	.seh_pushreg %rbx
	subq	$296, %rsp                      # imm = 0x128
	.seh_stackalloc 296
	movaps	%xmm6, 272(%rsp)                # 16-byte Spill
	.seh_savexmm %xmm6, 272
	.seh_endprologue
	movq	%r8, %r12
	movq	%rdx, %rbx
	movq	%rcx, 120(%rsp)                 # 8-byte Spill
	movq	440(%rsp), %rdi
	movq	432(%rsp), %r14
	movq	424(%rsp), %r15
	movq	400(%rsp), %rbp
	movq	408(%rsp), %rsi
	movq	416(%rsp), %rax
	movl	8(%r9), %ecx
	movl	%ecx, 56(%rsp)
	movq	(%r9), %rcx
	movq	%rcx, 48(%rsp)
	movdqu	(%rax), %xmm6
	xorps	%xmm0, %xmm0
	movaps	%xmm0, 144(%rsp)
	movaps	%xmm0, 128(%rsp)
	movaps	%xmm0, 80(%rsp)
	movq	%r8, 96(%rsp)
	movq	%rsi, 104(%rsp)
	movq	%r14, 112(%rsp)
	movq	%rsi, %r13
	andq	$-16, %r13
	movq	%rdi, 32(%rsp)
	leaq	80(%rsp), %rdx
	movq	%r8, %rcx
	movq	%rbp, %r8
	movq	%r13, %r9
	callq	"deerlapse_0_1_0::aead_ciphers_wide::gcm::KeyRefUpdateBlocks::update_blocks"
	andq	$15, %rsi
	je	.Ldeerlapse_0_1_0_BB22_2
# %bb.1:                                # %then.1.i.i.i
	addq	%r13, %rbp
	movl	$16, %r8d
	subq	%rsi, %r8
	leaq	(%rsp,%rsi), %rcx
	addq	$64, %rcx
	xorl	%edx, %edx
	callq	memset
	leaq	64(%rsp), %r13
	movq	%r13, %rcx
	movq	%rbp, %rdx
	movq	%rsi, %r8
	callq	memcpy
	movq	(%r12), %rcx
	leaq	80(%rsp), %rdx
	movq	%r13, %r8
	movq	%rdi, %r9
	callq	"deerlapse_0_1_0::aead_ciphers_wide::gcm::KeyRefUpdateBlock::update_block"
.Ldeerlapse_0_1_0_BB22_2:                               # %"aead_ciphers::gcm::context::Context::of_fitting::<#3f2567b24793e466>.exit"
	movq	112(%rsp), %rax
	movq	%rax, 256(%rsp)
	movaps	80(%rsp), %xmm0
	movaps	96(%rsp), %xmm1
	movaps	%xmm1, 240(%rsp)
	movaps	%xmm0, 224(%rsp)
	movaps	%xmm1, 176(%rsp)
	movaps	%xmm0, 160(%rsp)
	movq	%rax, 192(%rsp)
	movq	176(%rsp), %r12
	movq	%r14, %rsi
	andq	$-16, %rsi
	movq	%rdi, 32(%rsp)
	leaq	160(%rsp), %rdx
	movq	%r12, %rcx
	movq	%r15, %r8
	movq	%rsi, %r9
	callq	"deerlapse_0_1_0::aead_ciphers_wide::gcm::KeyRefUpdateBlocks::update_blocks"
	andq	$15, %r14
	je	.Ldeerlapse_0_1_0_BB22_4
# %bb.3:                                # %then.1.i.i
	addq	%rsi, %r15
	movl	$16, %r8d
	subq	%r14, %r8
	leaq	(%rsp,%r14), %rcx
	addq	$208, %rcx
	xorl	%edx, %edx
	callq	memset
	leaq	208(%rsp), %rsi
	movq	%rsi, %rcx
	movq	%r15, %rdx
	movq	%r14, %r8
	callq	memcpy
	movq	(%r12), %rcx
	leaq	160(%rsp), %rdx
	movq	%rsi, %r8
	movq	%rdi, %r9
	callq	"deerlapse_0_1_0::aead_ciphers_wide::gcm::KeyRefUpdateBlock::update_block"
.Ldeerlapse_0_1_0_BB22_4:                               # %"aead_ciphers::gcm::context::Context::absorb::<#3f2567b24793e466>.exit"
	movq	8(%rbx), %rdx
	movq	16(%rbx), %r8
	movl	56(%rsp), %eax
	movl	%eax, 72(%rsp)
	movq	48(%rsp), %rax
	movq	%rax, 64(%rsp)
	movl	$16777216, 76(%rsp)             # imm = 0x1000000
	xorps	%xmm0, %xmm0
	movaps	%xmm0, 80(%rsp)
	incq	(%rdi)
	leaq	80(%rsp), %rcx
	leaq	64(%rsp), %r9
	callq	"deerlapse_0_1_0::aead_ciphers_wide::aes::block_key::BlockKeyRef::encrypt_one"
	movaps	80(%rsp), %xmm0
	movaps	%xmm0, 144(%rsp)
	leaq	128(%rsp), %rcx
	leaq	160(%rsp), %rdx
	leaq	144(%rsp), %r8
	movq	%rdi, %r9
	callq	"deerlapse_0_1_0::aead_ciphers::aes_gcm::hash::finish::<#0f83097016d41fe1>"
	pxor	128(%rsp), %xmm6
	pshufd	$238, %xmm6, %xmm0              # xmm0 = xmm6[2,3,2,3]
	por	%xmm6, %xmm0
	pshufd	$85, %xmm0, %xmm1               # xmm1 = xmm0[1,1,1,1]
	por	%xmm0, %xmm1
	movdqa	%xmm1, %xmm0
	psrld	$16, %xmm0
	por	%xmm1, %xmm0
	movdqa	%xmm0, %xmm1
	psrlw	$8, %xmm1
	por	%xmm0, %xmm1
	movd	%xmm1, %ecx
                                        # kill: def $cl killed $cl killed $ecx
	callq	"deerlapse_0_1_0::aead_ciphers_base::bb::is_zero"
	movq	120(%rsp), %rdx                 # 8-byte Reload
	leaq	1(%rdx), %rcx
	testb	%al, %al
	je	.Ldeerlapse_0_1_0_BB22_7
# %bb.5:                                # %arm.1
	movl	56(%rsp), %eax
	movl	%eax, 8(%rcx)
	movq	48(%rsp), %rax
	movq	%rax, (%rcx)
	movl	$33554432, %eax                 # imm = 0x2000000
	xorl	%ecx, %ecx
	jmp	.Ldeerlapse_0_1_0_BB22_6
.Ldeerlapse_0_1_0_BB22_7:                               # %arm.2
	movl	$0, 8(%rcx)
	movq	$0, (%rcx)
	xorl	%eax, %eax
	movb	$1, %cl
.Ldeerlapse_0_1_0_BB22_6:                               # %common.ret
	movb	%cl, (%rdx)
	movl	%eax, 13(%rdx)
	movaps	272(%rsp), %xmm6                # 16-byte Reload
	addq	$296, %rsp                      # imm = 0x128
	popq	%rbx
	popq	%rbp
	popq	%rdi
	popq	%rsi
	popq	%r12
	popq	%r13
	popq	%r14
	popq	%r15
	retq
	.seh_endproc
                                        # -- End function
	.def	"deerlapse_0_1_0::aead_ciphers::aes_gcm::hash::finish::<#0f83097016d41fe1>";
	.scl	3;
	.type	32;
	.endef
	.section	.rdata,"dr"
	.p2align	4, 0x0                          # -- Begin function aead_ciphers::aes_gcm::hash::finish::<#0f83097016d41fe1>
.Ldeerlapse_0_1_0_CPI23_0:
	.byte	255                             # 0xff
	.byte	0                               # 0x0
	.byte	0                               # 0x0
	.byte	0                               # 0x0
	.byte	0                               # 0x0
	.byte	0                               # 0x0
	.byte	0                               # 0x0
	.byte	0                               # 0x0
	.byte	255                             # 0xff
	.byte	0                               # 0x0
	.byte	0                               # 0x0
	.byte	0                               # 0x0
	.byte	0                               # 0x0
	.byte	0                               # 0x0
	.byte	0                               # 0x0
	.byte	0                               # 0x0
.Ldeerlapse_0_1_0_CPI23_1:
	.byte	0                               # 0x0
	.byte	0                               # 0x0
	.byte	0                               # 0x0
	.byte	0                               # 0x0
	.byte	0                               # 0x0
	.byte	0                               # 0x0
	.byte	255                             # 0xff
	.byte	0                               # 0x0
	.byte	0                               # 0x0
	.byte	0                               # 0x0
	.byte	0                               # 0x0
	.byte	0                               # 0x0
	.byte	0                               # 0x0
	.byte	0                               # 0x0
	.byte	255                             # 0xff
	.byte	0                               # 0x0
.Ldeerlapse_0_1_0_CPI23_2:
	.byte	0                               # 0x0
	.byte	0                               # 0x0
	.byte	0                               # 0x0
	.byte	0                               # 0x0
	.byte	0                               # 0x0
	.byte	255                             # 0xff
	.byte	0                               # 0x0
	.byte	0                               # 0x0
	.byte	0                               # 0x0
	.byte	0                               # 0x0
	.byte	0                               # 0x0
	.byte	0                               # 0x0
	.byte	0                               # 0x0
	.byte	255                             # 0xff
	.byte	0                               # 0x0
	.byte	0                               # 0x0
.Ldeerlapse_0_1_0_CPI23_3:
	.byte	0                               # 0x0
	.byte	0                               # 0x0
	.byte	0                               # 0x0
	.byte	0                               # 0x0
	.byte	255                             # 0xff
	.byte	0                               # 0x0
	.byte	0                               # 0x0
	.byte	0                               # 0x0
	.byte	0                               # 0x0
	.byte	0                               # 0x0
	.byte	0                               # 0x0
	.byte	0                               # 0x0
	.byte	255                             # 0xff
	.byte	0                               # 0x0
	.byte	0                               # 0x0
	.byte	0                               # 0x0
.Ldeerlapse_0_1_0_CPI23_4:
	.byte	0                               # 0x0
	.byte	0                               # 0x0
	.byte	0                               # 0x0
	.byte	255                             # 0xff
	.byte	0                               # 0x0
	.byte	0                               # 0x0
	.byte	0                               # 0x0
	.byte	0                               # 0x0
	.byte	0                               # 0x0
	.byte	0                               # 0x0
	.byte	0                               # 0x0
	.byte	255                             # 0xff
	.byte	0                               # 0x0
	.byte	0                               # 0x0
	.byte	0                               # 0x0
	.byte	0                               # 0x0
.Ldeerlapse_0_1_0_CPI23_5:
	.byte	0                               # 0x0
	.byte	0                               # 0x0
	.byte	255                             # 0xff
	.byte	0                               # 0x0
	.byte	0                               # 0x0
	.byte	0                               # 0x0
	.byte	0                               # 0x0
	.byte	0                               # 0x0
	.byte	0                               # 0x0
	.byte	0                               # 0x0
	.byte	255                             # 0xff
	.byte	0                               # 0x0
	.byte	0                               # 0x0
	.byte	0                               # 0x0
	.byte	0                               # 0x0
	.byte	0                               # 0x0
.Ldeerlapse_0_1_0_CPI23_6:
	.byte	0                               # 0x0
	.byte	255                             # 0xff
	.byte	0                               # 0x0
	.byte	0                               # 0x0
	.byte	0                               # 0x0
	.byte	0                               # 0x0
	.byte	0                               # 0x0
	.byte	0                               # 0x0
	.byte	0                               # 0x0
	.byte	255                             # 0xff
	.byte	0                               # 0x0
	.byte	0                               # 0x0
	.byte	0                               # 0x0
	.byte	0                               # 0x0
	.byte	0                               # 0x0
	.byte	0                               # 0x0
	.text
	.p2align	4
"deerlapse_0_1_0::aead_ciphers::aes_gcm::hash::finish::<#0f83097016d41fe1>": # @"deerlapse_0_1_0::aead_ciphers::aes_gcm::hash::finish::<#0f83097016d41fe1>"
.seh_proc "deerlapse_0_1_0::aead_ciphers::aes_gcm::hash::finish::<#0f83097016d41fe1>"
# %bb.0:                                # %start
	pushq	%rsi
	.seh_pushreg %rsi
	subq	$80, %rsp
	.seh_stackalloc 80
	movaps	%xmm6, 64(%rsp)                 # 16-byte Spill
	.seh_savexmm %xmm6, 64
	.seh_endprologue
	movq	%rcx, %rsi
	movq	16(%rdx), %rax
	movups	(%r8), %xmm6
	movups	(%rdx), %xmm0
	movaps	%xmm0, 32(%rsp)
	movdqu	24(%rdx), %xmm0
	movdqa	%xmm0, %xmm1
	psrlq	$53, %xmm1
	pand	.Ldeerlapse_0_1_0_CPI23_0(%rip), %xmm1
	movdqa	%xmm0, %xmm2
	psllq	$59, %xmm2
	movdqa	%xmm0, %xmm3
	psllq	$43, %xmm3
	pand	.Ldeerlapse_0_1_0_CPI23_1(%rip), %xmm3
	movdqa	%xmm0, %xmm4
	psllq	$27, %xmm4
	pand	.Ldeerlapse_0_1_0_CPI23_2(%rip), %xmm4
	movdqa	%xmm0, %xmm5
	psllq	$11, %xmm5
	pand	.Ldeerlapse_0_1_0_CPI23_3(%rip), %xmm5
	por	%xmm2, %xmm3
	por	%xmm4, %xmm5
	por	%xmm3, %xmm5
	movdqa	%xmm0, %xmm2
	psrlq	$5, %xmm2
	pand	.Ldeerlapse_0_1_0_CPI23_4(%rip), %xmm2
	movdqa	%xmm0, %xmm3
	psrlq	$21, %xmm3
	pand	.Ldeerlapse_0_1_0_CPI23_5(%rip), %xmm3
	por	%xmm2, %xmm3
	psrlq	$37, %xmm0
	pand	.Ldeerlapse_0_1_0_CPI23_6(%rip), %xmm0
	por	%xmm3, %xmm0
	por	%xmm5, %xmm0
	por	%xmm1, %xmm0
	movdqa	%xmm0, 48(%rsp)
	movq	(%rax), %rcx
	leaq	32(%rsp), %rdx
	leaq	48(%rsp), %r8
	callq	"deerlapse_0_1_0::aead_ciphers_wide::gcm::KeyRefUpdateBlock::update_block"
	xorps	32(%rsp), %xmm6
	movups	%xmm6, (%rsi)
	movaps	64(%rsp), %xmm6                 # 16-byte Reload
	addq	$80, %rsp
	popq	%rsi
	retq
	.seh_endproc
                                        # -- End function
	.def	"deerlapse_0_1_0::aead_ciphers_base::bb::is_zero";
	.scl	3;
	.type	32;
	.endef
	.p2align	4                               # -- Begin function aead_ciphers_base::bb::is_zero
"deerlapse_0_1_0::aead_ciphers_base::bb::is_zero":       # @"deerlapse_0_1_0::aead_ciphers_base::bb::is_zero"
# %bb.0:                                # %start
	testb	%cl, %cl
	sete	%al
	retq
                                        # -- End function
	.def	"deerlapse_0_1_0::aead_ciphers::aes_gcm::counter_mode::encrypt_within::<#6fa349fe97f872a2>";
	.scl	3;
	.type	32;
	.endef
	.p2align	4                               # -- Begin function aead_ciphers::aes_gcm::counter_mode::encrypt_within::<#6fa349fe97f872a2>
"deerlapse_0_1_0::aead_ciphers::aes_gcm::counter_mode::encrypt_within::<#6fa349fe97f872a2>": # @"deerlapse_0_1_0::aead_ciphers::aes_gcm::counter_mode::encrypt_within::<#6fa349fe97f872a2>"
.seh_proc "deerlapse_0_1_0::aead_ciphers::aes_gcm::counter_mode::encrypt_within::<#6fa349fe97f872a2>"
# %bb.0:                                # %start
	pushq	%r15
	.seh_pushreg %r15
	pushq	%r14
	.seh_pushreg %r14
	pushq	%r13
	.seh_pushreg %r13
	pushq	%r12
	.seh_pushreg %r12
	pushq	%rsi
	.seh_pushreg %rsi
	pushq	%rdi
	.seh_pushreg %rdi
	pushq	%rbp
	.seh_pushreg %rbp
	pushq	%rbx
	.seh_pushreg %rbx
	subq	$392, %rsp                      # imm = 0x188
	.seh_stackalloc 392
	.seh_endprologue
	movq	%r8, 104(%rsp)                  # 8-byte Spill
	movq	%rcx, %r14
	movq	496(%rsp), %r10
	movups	(%rdx), %xmm0
	movaps	%xmm0, 80(%rsp)
	movq	%r9, 64(%rsp)                   # 8-byte Spill
	movq	%r9, %rax
	subq	%r10, %rax
	movq	%rax, %rdx
	andq	$-256, %rdx
	testb	$15, %al
	movq	%rax, 72(%rsp)                  # 8-byte Spill
	cmoveq	%rax, %rdx
	testq	%rdx, %rdx
	je	.Ldeerlapse_0_1_0_BB25_11
# %bb.1:                                # %join.5.lr.ph
	movl	92(%rsp), %eax
	xorl	%r8d, %r8d
	movq	%rdx, 112(%rsp)                 # 8-byte Spill
	jmp	.Ldeerlapse_0_1_0_BB25_3
	.p2align	4
.Ldeerlapse_0_1_0_BB25_2:                               # %loop.2.loopexit
                                        #   in Loop: Header=BB25_3 Depth=1
	movq	120(%rsp), %r8                  # 8-byte Reload
	addq	%rdi, %r8
	movq	112(%rsp), %rdx                 # 8-byte Reload
	cmpq	%rdx, %r8
	jae	.Ldeerlapse_0_1_0_BB25_11
.Ldeerlapse_0_1_0_BB25_3:                               # %join.5
                                        # =>This Loop Header: Depth=1
                                        #     Child Loop BB25_5 Depth 2
	movq	%rdx, %rcx
	subq	%r8, %rcx
	cmpq	$3072, %rcx                     # imm = 0xC00
	movl	$3072, %edi                     # imm = 0xC00
	cmovbq	%rcx, %rdi
	xorl	%r15d, %r15d
	cmpl	$256, 24(%r14)                  # imm = 0x100
	sete	%cl
	cmpq	%r8, %rdx
	movq	%r8, 120(%rsp)                  # 8-byte Spill
	je	.Ldeerlapse_0_1_0_BB25_2
# %bb.4:                                # %join.8.i.preheader
                                        #   in Loop: Header=BB25_3 Depth=1
	movq	104(%rsp), %rdx                 # 8-byte Reload
	leaq	(%rdx,%r8), %rbx
	movb	%cl, %r15b
	shll	$7, %r15d
	subq	$-128, %r15
	bswapl	%eax
	xorl	%r12d, %r12d
	movl	%eax, %r13d
	jmp	.Ldeerlapse_0_1_0_BB25_5
	.p2align	4
.Ldeerlapse_0_1_0_BB25_6:                               # %then.1.i
                                        #   in Loop: Header=BB25_5 Depth=2
	movq	8(%r14), %rcx
	movq	16(%r14), %rdx
	movq	%rbp, 40(%rsp)
	leaq	80(%rsp), %rax
	movq	%rax, 32(%rsp)
	movq	%r10, %r9
	callq	"deerlapse_0_1_0::aead_ciphers_wide::aes::ctr32::encrypt_few"
.Ldeerlapse_0_1_0_BB25_10:                              # %"aead_ciphers_wide::aes::ctr32::encrypt_batch.exit"
                                        #   in Loop: Header=BB25_5 Depth=2
	addq	%rsi, %r12
	addl	%ebp, %r13d
	movl	%r13d, %eax
	bswapl	%eax
	movl	%eax, 92(%rsp)
	movq	504(%rsp), %rcx
	addq	%rbp, (%rcx)
	cmpq	%rdi, %r12
	movq	496(%rsp), %r10
	jae	.Ldeerlapse_0_1_0_BB25_2
.Ldeerlapse_0_1_0_BB25_5:                               # %join.8.i
                                        #   Parent Loop BB25_3 Depth=1
                                        # =>  This Inner Loop Header: Depth=2
	movq	%rdi, %rax
	subq	%r12, %rax
	cmpq	%r15, %rax
	movq	%r15, %rsi
	cmovbq	%rax, %rsi
	leaq	(%rbx,%r12), %r8
	movl	%esi, %ebp
	shrl	$4, %ebp
	cmpq	$79, %rax
	jbe	.Ldeerlapse_0_1_0_BB25_6
# %bb.7:                                # %else.2.i
                                        #   in Loop: Header=BB25_5 Depth=2
	movq	(%r14), %rcx
	movq	16(%r14), %rdx
	leaq	80(%rsp), %rax
	cmpq	$143, %rsi
	ja	.Ldeerlapse_0_1_0_BB25_9
# %bb.8:                                # %then.4.i
                                        #   in Loop: Header=BB25_5 Depth=2
	movq	%rbp, 40(%rsp)
	movq	%rax, 32(%rsp)
	movq	%r10, %r9
	callq	"deerlapse_0_1_0::aead_ciphers_wide::aes::ctr32::encrypt_up_to_eight"
	jmp	.Ldeerlapse_0_1_0_BB25_10
	.p2align	4
.Ldeerlapse_0_1_0_BB25_9:                               # %else.5.i
                                        #   in Loop: Header=BB25_5 Depth=2
	movq	%rbp, 40(%rsp)
	movq	%rax, 32(%rsp)
	movq	%r10, %r9
	callq	"deerlapse_0_1_0::aead_ciphers_wide::aes::ctr32::encrypt_up_to_sixteen"
	jmp	.Ldeerlapse_0_1_0_BB25_10
.Ldeerlapse_0_1_0_BB25_11:                              # %after.1
	movq	72(%rsp), %rax                  # 8-byte Reload
	cmpq	%rax, %rdx
	jae	.Ldeerlapse_0_1_0_BB25_24
# %bb.12:                               # %then.6
	movq	104(%rsp), %rcx                 # 8-byte Reload
	addq	%rdx, %rcx
	addq	%r10, %rdx
	movq	64(%rsp), %r12                  # 8-byte Reload
	subq	%rdx, %r12
	xorl	%esi, %esi
	testb	$15, %r12b
	setne	%sil
	shll	$4, %esi
	addq	%r12, %rsi
	movq	%rsi, %r13
	andq	$-16, %r13
	movq	%rcx, %rbp
	addq	%rcx, %r10
	cmpq	$64, %r13
	ja	.Ldeerlapse_0_1_0_BB25_16
# %bb.13:                               # %then.1.i20
	movq	%rax, %r15
	xorps	%xmm0, %xmm0
	movaps	%xmm0, 176(%rsp)
	movaps	%xmm0, 160(%rsp)
	movaps	%xmm0, 144(%rsp)
	movaps	%xmm0, 128(%rsp)
	movaps	80(%rsp), %xmm0
	movaps	%xmm0, 48(%rsp)
	leaq	128(%rsp), %rdi
	movq	%rdi, %rax
	subq	%r10, %rax
	cmpq	%r12, %rax
	leaq	128(%rsp), %rcx
	movq	%r10, %rdx
	movq	%r12, %r8
	callq	memcpy
	testq	%r13, %r13
	je	.Ldeerlapse_0_1_0_BB25_15
# %bb.14:                               # %join.8.i.i
	movl	60(%rsp), %ebx
	bswapl	%ebx
	shrq	$4, %rsi
	movq	8(%r14), %rcx
	movq	16(%r14), %rdx
	movq	%rsi, 40(%rsp)
	leaq	48(%rsp), %rax
	movq	%rax, 32(%rsp)
	leaq	128(%rsp), %r8
	xorl	%r9d, %r9d
	callq	"deerlapse_0_1_0::aead_ciphers_wide::aes::ctr32::encrypt_few"
	leal	(%rsi,%rbx), %eax
	bswapl	%eax
	movl	%eax, 60(%rsp)
	movq	504(%rsp), %rax
	addq	%rsi, (%rax)
.Ldeerlapse_0_1_0_BB25_15:                              # %"aead_ciphers::aes_gcm::counter_mode::encrypt_padded::<#6fa349fe97f872a2>.exit"
	movq	%rbp, %rax
	subq	%rdi, %rax
	cmpq	%r12, %rax
	leaq	128(%rsp), %rdx
	movq	%rbp, %rcx
	movq	%r12, %r8
	callq	memcpy
	movq	%r15, %rax
	jmp	.Ldeerlapse_0_1_0_BB25_24
.Ldeerlapse_0_1_0_BB25_16:                              # %else.2.i19
	xorps	%xmm0, %xmm0
	movaps	%xmm0, 368(%rsp)
	movaps	%xmm0, 352(%rsp)
	movaps	%xmm0, 336(%rsp)
	movaps	%xmm0, 320(%rsp)
	movaps	%xmm0, 304(%rsp)
	movaps	%xmm0, 288(%rsp)
	movaps	%xmm0, 272(%rsp)
	movaps	%xmm0, 256(%rsp)
	movaps	%xmm0, 240(%rsp)
	movaps	%xmm0, 224(%rsp)
	movaps	%xmm0, 208(%rsp)
	movaps	%xmm0, 192(%rsp)
	movaps	%xmm0, 176(%rsp)
	movaps	%xmm0, 160(%rsp)
	movaps	%xmm0, 144(%rsp)
	movaps	%xmm0, 128(%rsp)
	movaps	80(%rsp), %xmm0
	movaps	%xmm0, 48(%rsp)
	leaq	128(%rsp), %rax
	subq	%r10, %rax
	cmpq	%r12, %rax
	movq	%r12, 64(%rsp)                  # 8-byte Spill
	leaq	128(%rsp), %rcx
	movq	%r10, %rdx
	movq	%r12, %r8
	callq	memcpy
	xorl	%edi, %edi
	cmpl	$256, 24(%r14)                  # imm = 0x100
	sete	%dil
	shll	$7, %edi
	subq	$-128, %rdi
	movl	60(%rsp), %esi
	bswapl	%esi
	xorl	%ebx, %ebx
	jmp	.Ldeerlapse_0_1_0_BB25_17
	.p2align	4
.Ldeerlapse_0_1_0_BB25_18:                              # %then.1.i.i60
                                        #   in Loop: Header=BB25_17 Depth=1
	movq	8(%r14), %rcx
	movq	16(%r14), %rdx
	movq	%r15, 40(%rsp)
	leaq	48(%rsp), %rax
	movq	%rax, 32(%rsp)
	xorl	%r9d, %r9d
	callq	"deerlapse_0_1_0::aead_ciphers_wide::aes::ctr32::encrypt_few"
.Ldeerlapse_0_1_0_BB25_22:                              # %"aead_ciphers_wide::aes::ctr32::encrypt_batch.exit.i57"
                                        #   in Loop: Header=BB25_17 Depth=1
	addq	%r12, %rbx
	addl	%r15d, %esi
	movl	%esi, %eax
	bswapl	%eax
	movl	%eax, 60(%rsp)
	movq	504(%rsp), %rax
	addq	%r15, (%rax)
	cmpq	%r13, %rbx
	jae	.Ldeerlapse_0_1_0_BB25_23
.Ldeerlapse_0_1_0_BB25_17:                              # %join.8.i.i44
                                        # =>This Inner Loop Header: Depth=1
	movq	%r13, %rax
	subq	%rbx, %rax
	cmpq	%rdi, %rax
	movq	%rdi, %r12
	cmovbq	%rax, %r12
	leaq	(%rsp,%rbx), %r8
	addq	$128, %r8
	movl	%r12d, %r15d
	shrl	$4, %r15d
	cmpq	$79, %rax
	jbe	.Ldeerlapse_0_1_0_BB25_18
# %bb.19:                               # %else.2.i.i54
                                        #   in Loop: Header=BB25_17 Depth=1
	movq	(%r14), %rcx
	movq	16(%r14), %rdx
	leaq	48(%rsp), %rax
	cmpq	$143, %r12
	ja	.Ldeerlapse_0_1_0_BB25_21
# %bb.20:                               # %then.4.i.i59
                                        #   in Loop: Header=BB25_17 Depth=1
	movq	%r15, 40(%rsp)
	movq	%rax, 32(%rsp)
	xorl	%r9d, %r9d
	callq	"deerlapse_0_1_0::aead_ciphers_wide::aes::ctr32::encrypt_up_to_eight"
	jmp	.Ldeerlapse_0_1_0_BB25_22
	.p2align	4
.Ldeerlapse_0_1_0_BB25_21:                              # %else.5.i.i56
                                        #   in Loop: Header=BB25_17 Depth=1
	movq	%r15, 40(%rsp)
	movq	%rax, 32(%rsp)
	xorl	%r9d, %r9d
	callq	"deerlapse_0_1_0::aead_ciphers_wide::aes::ctr32::encrypt_up_to_sixteen"
	jmp	.Ldeerlapse_0_1_0_BB25_22
.Ldeerlapse_0_1_0_BB25_23:                              # %"aead_ciphers::aes_gcm::counter_mode::encrypt_padded::<#6fa349fe97f872a2>.exit65"
	movq	%rbp, %rax
	leaq	128(%rsp), %rdx
	subq	%rdx, %rax
	movq	64(%rsp), %r8                   # 8-byte Reload
	cmpq	%r8, %rax
	movq	%rbp, %rcx
	callq	memcpy
	movq	72(%rsp), %rax                  # 8-byte Reload
.Ldeerlapse_0_1_0_BB25_24:                              # %join.8
	addq	$392, %rsp                      # imm = 0x188
	popq	%rbx
	popq	%rbp
	popq	%rdi
	popq	%rsi
	popq	%r12
	popq	%r13
	popq	%r14
	popq	%r15
	retq
	.seh_endproc
                                        # -- End function
	.def	"deerlapse_0_1_0::aead_ciphers_wide::aes::ctr32::encrypt_few";
	.scl	3;
	.type	32;
	.endef
	.section	.rdata,"dr"
	.p2align	4, 0x0                          # -- Begin function aead_ciphers_wide::aes::ctr32::encrypt_few
.Ldeerlapse_0_1_0_CPI26_0:
	.zero	16,15
.Ldeerlapse_0_1_0_CPI26_1:
	.byte	0                               # 0x0
	.byte	1                               # 0x1
	.byte	39                              # 0x27
	.byte	38                              # 0x26
	.byte	192                             # 0xc0
	.byte	193                             # 0xc1
	.byte	231                             # 0xe7
	.byte	230                             # 0xe6
	.byte	195                             # 0xc3
	.byte	194                             # 0xc2
	.byte	228                             # 0xe4
	.byte	229                             # 0xe5
	.byte	3                               # 0x3
	.byte	2                               # 0x2
	.byte	36                              # 0x24
	.byte	37                              # 0x25
.Ldeerlapse_0_1_0_CPI26_2:
	.byte	0                               # 0x0
	.byte	170                             # 0xaa
	.byte	122                             # 0x7a
	.byte	208                             # 0xd0
	.byte	175                             # 0xaf
	.byte	5                               # 0x5
	.byte	213                             # 0xd5
	.byte	127                             # 0x7f
	.byte	216                             # 0xd8
	.byte	114                             # 0x72
	.byte	162                             # 0xa2
	.byte	8                               # 0x8
	.byte	119                             # 0x77
	.byte	221                             # 0xdd
	.byte	13                              # 0xd
	.byte	167                             # 0xa7
.Ldeerlapse_0_1_0_CPI26_3:
	.byte	128                             # 0x80
	.byte	3                               # 0x3
	.byte	13                              # 0xd
	.byte	1                               # 0x1
	.byte	10                              # 0xa
	.byte	8                               # 0x8
	.byte	12                              # 0xc
	.byte	11                              # 0xb
	.byte	5                               # 0x5
	.byte	14                              # 0xe
	.byte	4                               # 0x4
	.byte	7                               # 0x7
	.byte	6                               # 0x6
	.byte	2                               # 0x2
	.byte	9                               # 0x9
	.byte	15                              # 0xf
.Ldeerlapse_0_1_0_CPI26_4:
	.byte	128                             # 0x80
	.byte	1                               # 0x1
	.byte	12                              # 0xc
	.byte	8                               # 0x8
	.byte	6                               # 0x6
	.byte	15                              # 0xf
	.byte	4                               # 0x4
	.byte	14                              # 0xe
	.byte	3                               # 0x3
	.byte	13                              # 0xd
	.byte	11                              # 0xb
	.byte	10                              # 0xa
	.byte	2                               # 0x2
	.byte	9                               # 0x9
	.byte	7                               # 0x7
	.byte	5                               # 0x5
.Ldeerlapse_0_1_0_CPI26_5:
	.byte	0                               # 0x0
	.byte	250                             # 0xfa
	.byte	53                              # 0x35
	.byte	106                             # 0x6a
	.byte	43                              # 0x2b
	.byte	187                             # 0xbb
	.byte	95                              # 0x5f
	.byte	65                              # 0x41
	.byte	142                             # 0x8e
	.byte	207                             # 0xcf
	.byte	228                             # 0xe4
	.byte	30                              # 0x1e
	.byte	116                             # 0x74
	.byte	144                             # 0x90
	.byte	209                             # 0xd1
	.byte	165                             # 0xa5
.Ldeerlapse_0_1_0_CPI26_6:
	.byte	0                               # 0x0
	.byte	129                             # 0x81
	.byte	153                             # 0x99
	.byte	118                             # 0x76
	.byte	10                              # 0xa
	.byte	253                             # 0xfd
	.byte	239                             # 0xef
	.byte	124                             # 0x7c
	.byte	100                             # 0x64
	.byte	24                              # 0x18
	.byte	18                              # 0x12
	.byte	147                             # 0x93
	.byte	229                             # 0xe5
	.byte	247                             # 0xf7
	.byte	139                             # 0x8b
	.byte	110                             # 0x6e
.Ldeerlapse_0_1_0_CPI26_7:
	.zero	16,99
.Ldeerlapse_0_1_0_CPI26_8:
	.byte	0                               # 0x0
	.byte	5                               # 0x5
	.byte	10                              # 0xa
	.byte	15                              # 0xf
	.byte	4                               # 0x4
	.byte	9                               # 0x9
	.byte	14                              # 0xe
	.byte	3                               # 0x3
	.byte	8                               # 0x8
	.byte	13                              # 0xd
	.byte	2                               # 0x2
	.byte	7                               # 0x7
	.byte	12                              # 0xc
	.byte	1                               # 0x1
	.byte	6                               # 0x6
	.byte	11                              # 0xb
.Ldeerlapse_0_1_0_CPI26_9:
	.byte	5                               # 0x5
	.byte	10                              # 0xa
	.byte	15                              # 0xf
	.byte	0                               # 0x0
	.byte	9                               # 0x9
	.byte	14                              # 0xe
	.byte	3                               # 0x3
	.byte	4                               # 0x4
	.byte	13                              # 0xd
	.byte	2                               # 0x2
	.byte	7                               # 0x7
	.byte	8                               # 0x8
	.byte	1                               # 0x1
	.byte	6                               # 0x6
	.byte	11                              # 0xb
	.byte	12                              # 0xc
.Ldeerlapse_0_1_0_CPI26_10:
	.zero	16,27
	.text
	.p2align	4
"deerlapse_0_1_0::aead_ciphers_wide::aes::ctr32::encrypt_few": # @"deerlapse_0_1_0::aead_ciphers_wide::aes::ctr32::encrypt_few"
.seh_proc "deerlapse_0_1_0::aead_ciphers_wide::aes::ctr32::encrypt_few"
# %bb.0:                                # %start
	pushq	%r15
	.seh_pushreg %r15
	pushq	%r14
	.seh_pushreg %r14
	pushq	%r13
	.seh_pushreg %r13
	pushq	%r12
	.seh_pushreg %r12
	pushq	%rsi
	.seh_pushreg %rsi
	pushq	%rdi
	.seh_pushreg %rdi
	pushq	%rbp
	.seh_pushreg %rbp
	pushq	%rbx
	.seh_pushreg %rbx
	subq	$232, %rsp
	.seh_stackalloc 232
	movdqa	%xmm14, 208(%rsp)               # 16-byte Spill
	.seh_savexmm %xmm14, 208
	movdqa	%xmm13, 192(%rsp)               # 16-byte Spill
	.seh_savexmm %xmm13, 192
	movdqa	%xmm12, 176(%rsp)               # 16-byte Spill
	.seh_savexmm %xmm12, 176
	movdqa	%xmm11, 160(%rsp)               # 16-byte Spill
	.seh_savexmm %xmm11, 160
	movdqa	%xmm10, 144(%rsp)               # 16-byte Spill
	.seh_savexmm %xmm10, 144
	movdqa	%xmm9, 128(%rsp)                # 16-byte Spill
	.seh_savexmm %xmm9, 128
	movdqa	%xmm8, 112(%rsp)                # 16-byte Spill
	.seh_savexmm %xmm8, 112
	movdqa	%xmm7, 96(%rsp)                 # 16-byte Spill
	.seh_savexmm %xmm7, 96
	movdqa	%xmm6, 80(%rsp)                 # 16-byte Spill
	.seh_savexmm %xmm6, 80
	.seh_endprologue
	movq	%r9, 40(%rsp)                   # 8-byte Spill
	movq	%r8, %rsi
	movq	%rdx, %r8
	movq	%rcx, %rdx
	movq	344(%rsp), %r9
	movq	336(%rsp), %rcx
	pxor	%xmm0, %xmm0
	movdqa	%xmm0, 64(%rsp)
	shrq	%r9
	je	.Ldeerlapse_0_1_0_BB26_7
# %bb.1:                                # %join.5.lr.ph
	movq	%r8, %r10
	shlq	$4, %r10
	movq	40(%rsp), %rax                  # 8-byte Reload
	leaq	(%rsi,%rax), %r11
	leaq	16(%rdx), %r14
	xorl	%r15d, %r15d
	jmp	.Ldeerlapse_0_1_0_BB26_2
	.p2align	4
.Ldeerlapse_0_1_0_BB26_3:                               #   in Loop: Header=BB26_2 Depth=1
	movdqa	%xmm1, %xmm3
.Ldeerlapse_0_1_0_BB26_6:                               # %"aead_ciphers_wide::aes::block_key::BlockKeyRef::encrypt_two.exit"
                                        #   in Loop: Header=BB26_2 Depth=1
	movq	%r15, %r12
	shlq	$5, %r12
	movdqa	.Ldeerlapse_0_1_0_CPI26_0(%rip), %xmm2          # xmm2 = [15,15,15,15,15,15,15,15,15,15,15,15,15,15,15,15]
	movdqa	%xmm0, %xmm1
	pand	%xmm2, %xmm1
	movdqa	.Ldeerlapse_0_1_0_CPI26_1(%rip), %xmm6          # xmm6 = [0,1,39,38,192,193,231,230,195,194,228,229,3,2,36,37]
	movdqa	%xmm6, %xmm4
	pshufb	%xmm1, %xmm4
	psrlw	$4, %xmm0
	pand	%xmm2, %xmm0
	movdqa	.Ldeerlapse_0_1_0_CPI26_2(%rip), %xmm1          # xmm1 = [0,170,122,208,175,5,213,127,216,114,162,8,119,221,13,167]
	movdqa	%xmm1, %xmm5
	pshufb	%xmm0, %xmm5
	pxor	%xmm4, %xmm5
	movdqa	%xmm5, %xmm0
	pand	%xmm2, %xmm0
	psrlw	$4, %xmm5
	pand	%xmm2, %xmm5
	movdqa	%xmm5, %xmm8
	pxor	%xmm0, %xmm8
	movdqa	.Ldeerlapse_0_1_0_CPI26_3(%rip), %xmm7          # xmm7 = [128,3,13,1,10,8,12,11,5,14,4,7,6,2,9,15]
	movdqa	%xmm7, %xmm9
	pshufb	%xmm0, %xmm9
	movdqa	.Ldeerlapse_0_1_0_CPI26_4(%rip), %xmm4          # xmm4 = [128,1,12,8,6,15,4,14,3,13,11,10,2,9,7,5]
	movdqa	%xmm4, %xmm0
	pshufb	%xmm5, %xmm0
	pxor	%xmm9, %xmm0
	movdqa	%xmm4, %xmm10
	pshufb	%xmm8, %xmm10
	pxor	%xmm9, %xmm10
	movdqa	%xmm4, %xmm9
	pshufb	%xmm0, %xmm9
	pxor	%xmm8, %xmm9
	movdqa	%xmm4, %xmm11
	pshufb	%xmm10, %xmm11
	pxor	%xmm5, %xmm11
	movdqa	.Ldeerlapse_0_1_0_CPI26_5(%rip), %xmm0          # xmm0 = [0,250,53,106,43,187,95,65,142,207,228,30,116,144,209,165]
	movdqa	%xmm0, %xmm5
	pshufb	%xmm9, %xmm5
	movdqa	.Ldeerlapse_0_1_0_CPI26_6(%rip), %xmm8          # xmm8 = [0,129,153,118,10,253,239,124,100,24,18,147,229,247,139,110]
	movdqa	%xmm8, %xmm9
	pshufb	%xmm11, %xmm9
	movdqa	.Ldeerlapse_0_1_0_CPI26_7(%rip), %xmm10         # xmm10 = [99,99,99,99,99,99,99,99,99,99,99,99,99,99,99,99]
	movdqa	.Ldeerlapse_0_1_0_CPI26_8(%rip), %xmm11         # xmm11 = [0,5,10,15,4,9,14,3,8,13,2,7,12,1,6,11]
	pshufb	%xmm11, %xmm5
	pshufb	%xmm11, %xmm9
	pxor	%xmm10, %xmm5
	pxor	%xmm9, %xmm5
	movdqu	(%rdx,%r10), %xmm9
	movdqa	%xmm3, %xmm12
	pand	%xmm2, %xmm12
	pshufb	%xmm12, %xmm6
	psrlw	$4, %xmm3
	pand	%xmm2, %xmm3
	pshufb	%xmm3, %xmm1
	pxor	%xmm6, %xmm1
	movdqa	%xmm1, %xmm3
	pand	%xmm2, %xmm3
	psrlw	$4, %xmm1
	pand	%xmm2, %xmm1
	movdqa	%xmm1, %xmm2
	pxor	%xmm3, %xmm2
	pshufb	%xmm3, %xmm7
	movdqa	%xmm4, %xmm3
	pshufb	%xmm1, %xmm3
	pxor	%xmm7, %xmm3
	movdqa	%xmm4, %xmm6
	pshufb	%xmm2, %xmm6
	pxor	%xmm7, %xmm6
	movdqa	%xmm4, %xmm7
	pshufb	%xmm3, %xmm7
	pxor	%xmm2, %xmm7
	pshufb	%xmm6, %xmm4
	pxor	%xmm1, %xmm4
	pshufb	%xmm7, %xmm0
	pshufb	%xmm4, %xmm8
	pshufb	%xmm11, %xmm0
	pshufb	%xmm11, %xmm8
	pxor	%xmm10, %xmm0
	pxor	%xmm8, %xmm0
	movdqu	(%r11,%r12), %xmm1
	pxor	%xmm9, %xmm1
	pxor	%xmm5, %xmm1
	movdqu	%xmm1, (%rsi,%r12)
	movdqu	16(%r11,%r12), %xmm1
	pxor	%xmm9, %xmm1
	pxor	%xmm0, %xmm1
	movdqu	%xmm1, 16(%rsi,%r12)
	incq	%r15
	cmpq	%r9, %r15
	je	.Ldeerlapse_0_1_0_BB26_7
.Ldeerlapse_0_1_0_BB26_2:                               # %join.5
                                        # =>This Loop Header: Depth=1
                                        #     Child Loop BB26_5 Depth 2
	movl	12(%rcx), %r13d
	bswapl	%r13d
	leal	(%r13,%r15,2), %ebp
	bswapl	%ebp
	movl	%ebp, %edi
	movl	%ebp, %r12d
	movd	(%rcx), %xmm0                   # xmm0 = mem[0],zero,zero,zero
	movq	4(%rcx), %xmm1                  # xmm1 = mem[0],zero
	movq	%xmm0, %xmm0                    # xmm0 = xmm0[0],zero
	pshufd	$80, %xmm1, %xmm1               # xmm1 = xmm1[0,0,1,1]
	pblendw	$195, %xmm0, %xmm1              # xmm1 = xmm0[0,1],xmm1[2,3,4,5],xmm0[6,7]
	movdqa	%xmm1, %xmm0
	pinsrb	$12, %ebp, %xmm0
	shrl	$8, %ebp
	shrl	$16, %edi
	shrl	$24, %r12d
	leal	1(%r13,%r15,2), %r13d
	bswapl	%r13d
	movl	%r13d, %eax
	movl	%r13d, %ebx
	pinsrb	$12, %r13d, %xmm1
	shrl	$8, %r13d
	shrl	$16, %eax
	shrl	$24, %ebx
	pinsrb	$13, %ebp, %xmm0
	pinsrb	$14, %edi, %xmm0
	pinsrb	$15, %r12d, %xmm0
	movdqu	(%rdx), %xmm2
	pxor	%xmm2, %xmm0
	pinsrb	$13, %r13d, %xmm1
	pinsrb	$14, %eax, %xmm1
	pinsrb	$15, %ebx, %xmm1
	pxor	%xmm2, %xmm1
	cmpq	$2, %r8
	jb	.Ldeerlapse_0_1_0_BB26_3
# %bb.4:                                # %join.5.i.preheader
                                        #   in Loop: Header=BB26_2 Depth=1
	movq	%r14, %r12
	leaq	-1(%r8), %r13
	.p2align	4
.Ldeerlapse_0_1_0_BB26_5:                               # %join.5.i
                                        #   Parent Loop BB26_2 Depth=1
                                        # =>  This Inner Loop Header: Depth=2
	movdqa	.Ldeerlapse_0_1_0_CPI26_0(%rip), %xmm4          # xmm4 = [15,15,15,15,15,15,15,15,15,15,15,15,15,15,15,15]
	movdqa	%xmm0, %xmm2
	pand	%xmm4, %xmm2
	movdqa	.Ldeerlapse_0_1_0_CPI26_1(%rip), %xmm6          # xmm6 = [0,1,39,38,192,193,231,230,195,194,228,229,3,2,36,37]
	movdqa	%xmm6, %xmm5
	pshufb	%xmm2, %xmm5
	psrlw	$4, %xmm0
	pand	%xmm4, %xmm0
	movdqa	.Ldeerlapse_0_1_0_CPI26_2(%rip), %xmm3          # xmm3 = [0,170,122,208,175,5,213,127,216,114,162,8,119,221,13,167]
	movdqa	%xmm3, %xmm2
	pshufb	%xmm0, %xmm2
	pxor	%xmm5, %xmm2
	movdqa	%xmm2, %xmm0
	pand	%xmm4, %xmm0
	psrlw	$4, %xmm2
	pand	%xmm4, %xmm2
	movdqa	%xmm2, %xmm8
	pxor	%xmm0, %xmm8
	movdqa	.Ldeerlapse_0_1_0_CPI26_3(%rip), %xmm7          # xmm7 = [128,3,13,1,10,8,12,11,5,14,4,7,6,2,9,15]
	movdqa	%xmm7, %xmm9
	pshufb	%xmm0, %xmm9
	movdqa	.Ldeerlapse_0_1_0_CPI26_4(%rip), %xmm5          # xmm5 = [128,1,12,8,6,15,4,14,3,13,11,10,2,9,7,5]
	movdqa	%xmm5, %xmm0
	pshufb	%xmm2, %xmm0
	pxor	%xmm9, %xmm0
	movdqa	%xmm5, %xmm10
	pshufb	%xmm8, %xmm10
	pxor	%xmm9, %xmm10
	movdqa	%xmm5, %xmm9
	pshufb	%xmm0, %xmm9
	pxor	%xmm8, %xmm9
	movdqa	%xmm5, %xmm0
	pshufb	%xmm10, %xmm0
	pxor	%xmm2, %xmm0
	movdqa	.Ldeerlapse_0_1_0_CPI26_5(%rip), %xmm2          # xmm2 = [0,250,53,106,43,187,95,65,142,207,228,30,116,144,209,165]
	movdqa	%xmm2, %xmm13
	pshufb	%xmm9, %xmm13
	movdqa	.Ldeerlapse_0_1_0_CPI26_6(%rip), %xmm8          # xmm8 = [0,129,153,118,10,253,239,124,100,24,18,147,229,247,139,110]
	movdqa	%xmm8, %xmm10
	pshufb	%xmm0, %xmm10
	movdqa	.Ldeerlapse_0_1_0_CPI26_7(%rip), %xmm9          # xmm9 = [99,99,99,99,99,99,99,99,99,99,99,99,99,99,99,99]
	pxor	%xmm9, %xmm13
	pxor	%xmm10, %xmm13
	movdqa	.Ldeerlapse_0_1_0_CPI26_8(%rip), %xmm10         # xmm10 = [0,5,10,15,4,9,14,3,8,13,2,7,12,1,6,11]
	movdqa	%xmm13, %xmm12
	pshufb	%xmm10, %xmm12
	movdqa	.Ldeerlapse_0_1_0_CPI26_9(%rip), %xmm11         # xmm11 = [5,10,15,0,9,14,3,4,13,2,7,8,1,6,11,12]
	pshufb	%xmm11, %xmm13
	pxor	%xmm13, %xmm12
	pxor	%xmm0, %xmm0
	pcmpgtb	%xmm12, %xmm0
	pshuflw	$177, %xmm12, %xmm14            # xmm14 = xmm12[1,0,3,2,4,5,6,7]
	paddb	%xmm12, %xmm12
	pshufhw	$177, %xmm14, %xmm14            # xmm14 = xmm14[0,1,2,3,5,4,7,6]
	pxor	%xmm12, %xmm14
	movdqa	.Ldeerlapse_0_1_0_CPI26_10(%rip), %xmm12        # xmm12 = [27,27,27,27,27,27,27,27,27,27,27,27,27,27,27,27]
	pand	%xmm12, %xmm0
	pxor	%xmm13, %xmm0
	pxor	%xmm14, %xmm0
	movdqa	%xmm1, %xmm13
	pand	%xmm4, %xmm13
	pshufb	%xmm13, %xmm6
	psrlw	$4, %xmm1
	pand	%xmm4, %xmm1
	pshufb	%xmm1, %xmm3
	pxor	%xmm6, %xmm3
	movdqa	%xmm3, %xmm1
	pand	%xmm4, %xmm1
	psrlw	$4, %xmm3
	pand	%xmm4, %xmm3
	movdqa	%xmm3, %xmm4
	pxor	%xmm1, %xmm4
	pshufb	%xmm1, %xmm7
	movdqa	%xmm5, %xmm1
	pshufb	%xmm3, %xmm1
	pxor	%xmm7, %xmm1
	movdqa	%xmm5, %xmm6
	pshufb	%xmm4, %xmm6
	pxor	%xmm7, %xmm6
	movdqa	%xmm5, %xmm7
	pshufb	%xmm1, %xmm7
	pxor	%xmm4, %xmm7
	pshufb	%xmm6, %xmm5
	pxor	%xmm3, %xmm5
	pshufb	%xmm7, %xmm2
	pshufb	%xmm5, %xmm8
	pxor	%xmm9, %xmm2
	pxor	%xmm8, %xmm2
	movdqa	%xmm2, %xmm1
	pshufb	%xmm10, %xmm1
	pshufb	%xmm11, %xmm2
	pxor	%xmm3, %xmm3
	pxor	%xmm2, %xmm1
	pcmpgtb	%xmm1, %xmm3
	pand	%xmm12, %xmm3
	pshuflw	$177, %xmm1, %xmm4              # xmm4 = xmm1[1,0,3,2,4,5,6,7]
	paddb	%xmm1, %xmm1
	pshufhw	$177, %xmm4, %xmm4              # xmm4 = xmm4[0,1,2,3,5,4,7,6]
	pxor	%xmm1, %xmm4
	movdqu	(%r12), %xmm1
	pxor	%xmm1, %xmm0
	pxor	%xmm1, %xmm3
	pxor	%xmm4, %xmm3
	pxor	%xmm2, %xmm3
	addq	$16, %r12
	movdqa	%xmm3, %xmm1
	decq	%r13
	jne	.Ldeerlapse_0_1_0_BB26_5
	jmp	.Ldeerlapse_0_1_0_BB26_6
.Ldeerlapse_0_1_0_BB26_7:                               # %after.1
	movq	344(%rsp), %r9
	testb	$1, %r9b
	je	.Ldeerlapse_0_1_0_BB26_9
# %bb.8:                                # %then.6
	decq	%r9
	movq	%r9, %rdi
	shlq	$4, %rdi
	movl	8(%rcx), %eax
	movl	%eax, 56(%rsp)
	movq	(%rcx), %rax
	movq	%rax, 48(%rsp)
	movl	12(%rcx), %eax
	bswapl	%eax
	addl	%r9d, %eax
	bswapl	%eax
	movl	%eax, 60(%rsp)
	leaq	64(%rsp), %rcx
	leaq	48(%rsp), %r9
	callq	"deerlapse_0_1_0::aead_ciphers_wide::aes::block_key::BlockKeyRef::encrypt_one"
	leaq	(%rsi,%rdi), %rax
	movq	40(%rsp), %rcx                  # 8-byte Reload
	movdqu	(%rcx,%rax), %xmm0
	pxor	64(%rsp), %xmm0
	movdqu	%xmm0, (%rsi,%rdi)
.Ldeerlapse_0_1_0_BB26_9:                               # %join.8
	movaps	80(%rsp), %xmm6                 # 16-byte Reload
	movaps	96(%rsp), %xmm7                 # 16-byte Reload
	movaps	112(%rsp), %xmm8                # 16-byte Reload
	movaps	128(%rsp), %xmm9                # 16-byte Reload
	movaps	144(%rsp), %xmm10               # 16-byte Reload
	movaps	160(%rsp), %xmm11               # 16-byte Reload
	movaps	176(%rsp), %xmm12               # 16-byte Reload
	movaps	192(%rsp), %xmm13               # 16-byte Reload
	movaps	208(%rsp), %xmm14               # 16-byte Reload
	addq	$232, %rsp
	popq	%rbx
	popq	%rbp
	popq	%rdi
	popq	%rsi
	popq	%r12
	popq	%r13
	popq	%r14
	popq	%r15
	retq
	.seh_endproc
                                        # -- End function
	.def	"deerlapse_0_1_0::aead_ciphers_wide::aes::ctr32::encrypt_up_to_eight";
	.scl	3;
	.type	32;
	.endef
	.section	.rdata,"dr"
	.p2align	4, 0x0                          # -- Begin function aead_ciphers_wide::aes::ctr32::encrypt_up_to_eight
.Ldeerlapse_0_1_0_CPI27_0:
	.byte	4                               # 0x4
	.byte	5                               # 0x5
	.byte	6                               # 0x6
	.byte	7                               # 0x7
	.byte	8                               # 0x8
	.byte	9                               # 0x9
	.byte	10                              # 0xa
	.byte	11                              # 0xb
	.byte	12                              # 0xc
	.byte	13                              # 0xd
	.byte	14                              # 0xe
	.byte	15                              # 0xf
	.byte	3                               # 0x3
	.byte	2                               # 0x2
	.byte	1                               # 0x1
	.byte	0                               # 0x0
.Ldeerlapse_0_1_0_CPI27_1:
	.zero	4
	.zero	4
	.zero	4
	.long	2                               # 0x2
.Ldeerlapse_0_1_0_CPI27_2:
	.zero	4
	.zero	4
	.zero	4
	.long	3                               # 0x3
.Ldeerlapse_0_1_0_CPI27_3:
	.zero	4
	.zero	4
	.zero	4
	.long	4                               # 0x4
.Ldeerlapse_0_1_0_CPI27_4:
	.zero	4
	.zero	4
	.zero	4
	.long	5                               # 0x5
.Ldeerlapse_0_1_0_CPI27_5:
	.zero	4
	.zero	4
	.zero	4
	.long	6                               # 0x6
.Ldeerlapse_0_1_0_CPI27_6:
	.zero	4
	.zero	4
	.zero	4
	.long	7                               # 0x7
.Ldeerlapse_0_1_0_CPI27_7:
	.zero	16,15
.Ldeerlapse_0_1_0_CPI27_8:
	.zero	16,51
.Ldeerlapse_0_1_0_CPI27_9:
	.zero	16,85
.Ldeerlapse_0_1_0_CPI27_10:
	.byte	0                               # 0x0
	.byte	5                               # 0x5
	.byte	10                              # 0xa
	.byte	15                              # 0xf
	.byte	4                               # 0x4
	.byte	9                               # 0x9
	.byte	14                              # 0xe
	.byte	3                               # 0x3
	.byte	8                               # 0x8
	.byte	13                              # 0xd
	.byte	2                               # 0x2
	.byte	7                               # 0x7
	.byte	12                              # 0xc
	.byte	1                               # 0x1
	.byte	6                               # 0x6
	.byte	11                              # 0xb
.Ldeerlapse_0_1_0_CPI27_11:
	.byte	5                               # 0x5
	.byte	10                              # 0xa
	.byte	15                              # 0xf
	.byte	0                               # 0x0
	.byte	9                               # 0x9
	.byte	14                              # 0xe
	.byte	3                               # 0x3
	.byte	4                               # 0x4
	.byte	13                              # 0xd
	.byte	2                               # 0x2
	.byte	7                               # 0x7
	.byte	8                               # 0x8
	.byte	1                               # 0x1
	.byte	6                               # 0x6
	.byte	11                              # 0xb
	.byte	12                              # 0xc
	.text
	.p2align	4
"deerlapse_0_1_0::aead_ciphers_wide::aes::ctr32::encrypt_up_to_eight": # @"deerlapse_0_1_0::aead_ciphers_wide::aes::ctr32::encrypt_up_to_eight"
.seh_proc "deerlapse_0_1_0::aead_ciphers_wide::aes::ctr32::encrypt_up_to_eight"
# %bb.0:                                # %start
	subq	$360, %rsp                      # imm = 0x168
	.seh_stackalloc 360
	movaps	%xmm15, 336(%rsp)               # 16-byte Spill
	.seh_savexmm %xmm15, 336
	movaps	%xmm14, 320(%rsp)               # 16-byte Spill
	.seh_savexmm %xmm14, 320
	movdqa	%xmm13, 304(%rsp)               # 16-byte Spill
	.seh_savexmm %xmm13, 304
	movaps	%xmm12, 288(%rsp)               # 16-byte Spill
	.seh_savexmm %xmm12, 288
	movaps	%xmm11, 272(%rsp)               # 16-byte Spill
	.seh_savexmm %xmm11, 272
	movaps	%xmm10, 256(%rsp)               # 16-byte Spill
	.seh_savexmm %xmm10, 256
	movaps	%xmm9, 240(%rsp)                # 16-byte Spill
	.seh_savexmm %xmm9, 240
	movaps	%xmm8, 224(%rsp)                # 16-byte Spill
	.seh_savexmm %xmm8, 224
	movaps	%xmm7, 208(%rsp)                # 16-byte Spill
	.seh_savexmm %xmm7, 208
	movaps	%xmm6, 192(%rsp)                # 16-byte Spill
	.seh_savexmm %xmm6, 192
	.seh_endprologue
	movq	400(%rsp), %rax
	movd	(%rax), %xmm0                   # xmm0 = mem[0],zero,zero,zero
	movq	4(%rax), %xmm1                  # xmm1 = mem[0],zero
	movl	12(%rax), %eax
	bswapl	%eax
	movd	%eax, %xmm2
	pshufd	$0, %xmm2, %xmm5                # xmm5 = xmm2[0,0,0,0]
	movq	%xmm0, %xmm2                    # xmm2 = xmm0[0],zero
	pshufd	$80, %xmm1, %xmm0               # xmm0 = xmm1[0,0,1,1]
	pblendw	$195, %xmm2, %xmm0              # xmm0 = xmm2[0,1],xmm0[2,3,4,5],xmm2[6,7]
	movdqa	%xmm0, %xmm4
	palignr	$12, %xmm5, %xmm4               # xmm4 = xmm5[12,13,14,15],xmm4[0,1,2,3,4,5,6,7,8,9,10,11]
	movdqa	.Ldeerlapse_0_1_0_CPI27_0(%rip), %xmm6          # xmm6 = [4,5,6,7,8,9,10,11,12,13,14,15,3,2,1,0]
	pshufb	%xmm6, %xmm4
	pcmpeqd	%xmm2, %xmm2
	movdqa	%xmm5, %xmm1
	psubd	%xmm2, %xmm1
	movdqa	%xmm0, %xmm3
	palignr	$12, %xmm1, %xmm3               # xmm3 = xmm1[12,13,14,15],xmm3[0,1,2,3,4,5,6,7,8,9,10,11]
	pshufb	%xmm6, %xmm3
	movdqa	.Ldeerlapse_0_1_0_CPI27_1(%rip), %xmm1          # xmm1 = [u,u,u,2]
	paddd	%xmm5, %xmm1
	movdqa	%xmm0, %xmm2
	palignr	$12, %xmm1, %xmm2               # xmm2 = xmm1[12,13,14,15],xmm2[0,1,2,3,4,5,6,7,8,9,10,11]
	pshufb	%xmm6, %xmm2
	movdqa	.Ldeerlapse_0_1_0_CPI27_2(%rip), %xmm7          # xmm7 = [u,u,u,3]
	paddd	%xmm5, %xmm7
	movdqa	%xmm0, %xmm1
	palignr	$12, %xmm7, %xmm1               # xmm1 = xmm7[12,13,14,15],xmm1[0,1,2,3,4,5,6,7,8,9,10,11]
	pshufb	%xmm6, %xmm1
	movdqa	.Ldeerlapse_0_1_0_CPI27_3(%rip), %xmm8          # xmm8 = [u,u,u,4]
	paddd	%xmm5, %xmm8
	movdqa	%xmm0, %xmm7
	palignr	$12, %xmm8, %xmm7               # xmm7 = xmm8[12,13,14,15],xmm7[0,1,2,3,4,5,6,7,8,9,10,11]
	pshufb	%xmm6, %xmm7
	movdqa	.Ldeerlapse_0_1_0_CPI27_4(%rip), %xmm8          # xmm8 = [u,u,u,5]
	paddd	%xmm5, %xmm8
	movdqa	%xmm0, %xmm10
	palignr	$12, %xmm8, %xmm10              # xmm10 = xmm8[12,13,14,15],xmm10[0,1,2,3,4,5,6,7,8,9,10,11]
	pshufb	%xmm6, %xmm10
	movdqa	.Ldeerlapse_0_1_0_CPI27_5(%rip), %xmm8          # xmm8 = [u,u,u,6]
	paddd	%xmm5, %xmm8
	movdqa	%xmm0, %xmm9
	palignr	$12, %xmm8, %xmm9               # xmm9 = xmm8[12,13,14,15],xmm9[0,1,2,3,4,5,6,7,8,9,10,11]
	paddd	.Ldeerlapse_0_1_0_CPI27_6(%rip), %xmm5
	pshufb	%xmm6, %xmm9
	palignr	$12, %xmm5, %xmm0               # xmm0 = xmm5[12,13,14,15],xmm0[0,1,2,3,4,5,6,7,8,9,10,11]
	pshufb	%xmm6, %xmm0
	movdqa	%xmm4, %xmm5
	psrlq	$4, %xmm5
	pxor	%xmm7, %xmm5
	movdqa	.Ldeerlapse_0_1_0_CPI27_7(%rip), %xmm11         # xmm11 = [1085102592571150095,1085102592571150095]
	pand	%xmm11, %xmm5
	movdqa	%xmm5, %xmm8
	psllq	$4, %xmm8
	pxor	%xmm4, %xmm8
	pxor	%xmm7, %xmm5
	movdqa	%xmm3, %xmm6
	psrlq	$4, %xmm6
	pxor	%xmm10, %xmm6
	pand	%xmm11, %xmm6
	movdqa	%xmm6, %xmm7
	psllq	$4, %xmm7
	pxor	%xmm3, %xmm7
	pxor	%xmm10, %xmm6
	movdqa	%xmm2, %xmm10
	psrlq	$4, %xmm10
	pxor	%xmm9, %xmm10
	pand	%xmm11, %xmm10
	movdqa	%xmm10, %xmm3
	psllq	$4, %xmm3
	pxor	%xmm2, %xmm3
	pxor	%xmm9, %xmm10
	movdqa	%xmm1, %xmm9
	psrlq	$4, %xmm9
	pxor	%xmm0, %xmm9
	pand	%xmm11, %xmm9
	movdqa	%xmm9, %xmm11
	psllq	$4, %xmm11
	pxor	%xmm1, %xmm11
	pxor	%xmm0, %xmm9
	movdqa	%xmm8, %xmm2
	psrlq	$2, %xmm2
	pxor	%xmm3, %xmm2
	movdqa	.Ldeerlapse_0_1_0_CPI27_8(%rip), %xmm12         # xmm12 = [3689348814741910323,3689348814741910323]
	pand	%xmm12, %xmm2
	movdqa	%xmm2, %xmm4
	psllq	$2, %xmm4
	pxor	%xmm8, %xmm4
	pxor	%xmm3, %xmm2
	movdqa	%xmm5, %xmm0
	psrlq	$2, %xmm0
	pxor	%xmm10, %xmm0
	pand	%xmm12, %xmm0
	movdqa	%xmm0, %xmm3
	psllq	$2, %xmm3
	pxor	%xmm5, %xmm3
	pxor	%xmm10, %xmm0
	movdqa	%xmm7, %xmm5
	psrlq	$2, %xmm5
	pxor	%xmm11, %xmm5
	pand	%xmm12, %xmm5
	movdqa	%xmm5, %xmm8
	psllq	$2, %xmm8
	pxor	%xmm7, %xmm8
	pxor	%xmm11, %xmm5
	movdqa	%xmm6, %xmm1
	psrlq	$2, %xmm1
	pxor	%xmm9, %xmm1
	pand	%xmm12, %xmm1
	movdqa	%xmm1, %xmm10
	psllq	$2, %xmm10
	pxor	%xmm6, %xmm10
	pxor	%xmm9, %xmm1
	movdqu	(%rcx), %xmm14
	pxor	%xmm4, %xmm14
	psrlq	$1, %xmm4
	pxor	%xmm8, %xmm4
	movdqa	.Ldeerlapse_0_1_0_CPI27_9(%rip), %xmm9          # xmm9 = [6148914691236517205,6148914691236517205]
	pand	%xmm9, %xmm4
	movdqu	16(%rcx), %xmm7
	pxor	%xmm8, %xmm7
	pxor	%xmm4, %xmm7
	movdqa	%xmm4, %xmm6
	paddq	%xmm6, %xmm6
	movdqu	32(%rcx), %xmm15
	pxor	%xmm2, %xmm15
	psrlq	$1, %xmm2
	pxor	%xmm5, %xmm2
	movdqu	64(%rcx), %xmm4
	pxor	%xmm3, %xmm4
	psrlq	$1, %xmm3
	pxor	%xmm10, %xmm3
	pxor	%xmm6, %xmm14
	movdqu	48(%rcx), %xmm11
	pxor	%xmm5, %xmm11
	movdqu	80(%rcx), %xmm12
	pxor	%xmm10, %xmm12
	pand	%xmm9, %xmm2
	pxor	%xmm2, %xmm11
	paddq	%xmm2, %xmm2
	pand	%xmm9, %xmm3
	pxor	%xmm3, %xmm12
	paddq	%xmm3, %xmm3
	pxor	%xmm2, %xmm15
	movdqu	96(%rcx), %xmm2
	pxor	%xmm0, %xmm2
	psrlq	$1, %xmm0
	pxor	%xmm1, %xmm0
	pxor	%xmm3, %xmm4
	movdqu	112(%rcx), %xmm10
	pxor	%xmm1, %xmm10
	pand	%xmm9, %xmm0
	pxor	%xmm0, %xmm10
	paddq	%xmm0, %xmm0
	pxor	%xmm0, %xmm2
	movq	408(%rsp), %rax
	cmpq	$2, %rdx
	jb	.Ldeerlapse_0_1_0_BB27_3
# %bb.1:                                # %join.5.i.i.preheader
	leaq	-1(%rdx), %r10
	leaq	240(%rcx), %r11
	.p2align	4
.Ldeerlapse_0_1_0_BB27_2:                               # %join.5.i.i
                                        # =>This Inner Loop Header: Depth=1
	movdqa	%xmm14, 16(%rsp)                # 16-byte Spill
	movdqa	%xmm2, %xmm1
	pxor	%xmm14, %xmm1
	movdqa	%xmm1, %xmm0
	pxor	%xmm12, %xmm0
	pxor	%xmm7, %xmm11
	movdqa	%xmm0, %xmm3
	movdqa	%xmm0, 64(%rsp)                 # 16-byte Spill
	pxor	%xmm7, %xmm3
	movdqa	%xmm10, %xmm9
	pxor	%xmm4, %xmm9
	movdqa	%xmm9, %xmm6
	pxor	%xmm11, %xmm6
	movdqa	%xmm6, 48(%rsp)                 # 16-byte Spill
	pxor	%xmm14, %xmm6
	pxor	%xmm15, %xmm11
	pxor	%xmm11, %xmm1
	movdqa	%xmm1, (%rsp)                   # 16-byte Spill
	movdqa	%xmm10, %xmm5
	movdqa	%xmm0, %xmm1
	pxor	%xmm10, %xmm1
	movdqa	%xmm1, 32(%rsp)                 # 16-byte Spill
	pxor	%xmm7, %xmm10
	movdqa	%xmm0, %xmm14
	pxor	%xmm4, %xmm14
	pxor	%xmm15, %xmm5
	pxor	%xmm11, %xmm12
	pxor	%xmm2, %xmm11
	movdqa	%xmm6, %xmm2
	movdqa	%xmm6, 144(%rsp)                # 16-byte Spill
	pxor	%xmm0, %xmm6
	pxor	%xmm15, %xmm4
	movdqa	%xmm6, %xmm1
	pxor	%xmm11, %xmm1
	movdqa	%xmm1, 176(%rsp)                # 16-byte Spill
	pand	%xmm4, %xmm1
	movdqa	%xmm9, %xmm0
	pand	%xmm11, %xmm0
	pxor	%xmm0, %xmm1
	movdqa	%xmm6, %xmm8
	movdqa	%xmm6, %xmm15
	movdqa	%xmm6, 160(%rsp)                # 16-byte Spill
	pand	%xmm5, %xmm8
	pxor	%xmm0, %xmm8
	movdqa	%xmm3, %xmm6
	movdqa	%xmm3, 128(%rsp)                # 16-byte Spill
	movdqa	%xmm3, %xmm13
	pxor	%xmm5, %xmm13
	movdqa	%xmm13, %xmm3
	pand	%xmm2, %xmm3
	movdqa	%xmm11, %xmm0
	pxor	%xmm9, %xmm0
	pxor	%xmm3, %xmm0
	movdqa	%xmm13, %xmm7
	pxor	%xmm14, %xmm7
	movdqa	%xmm7, 112(%rsp)                # 16-byte Spill
	pand	48(%rsp), %xmm7                 # 16-byte Folded Reload
	movdqa	%xmm14, %xmm3
	pand	16(%rsp), %xmm3                 # 16-byte Folded Reload
	pxor	%xmm5, %xmm3
	pxor	%xmm15, %xmm3
	pxor	%xmm7, %xmm3
	pxor	%xmm7, %xmm0
	movdqa	%xmm12, %xmm2
	movdqa	%xmm10, %xmm12
	pand	%xmm2, %xmm12
	movdqa	%xmm2, 96(%rsp)                 # 16-byte Spill
	movdqa	32(%rsp), %xmm7                 # 16-byte Reload
	por	(%rsp), %xmm7                   # 16-byte Folded Reload
	pxor	%xmm12, %xmm7
	pxor	%xmm8, %xmm3
	pxor	%xmm8, %xmm7
	movdqa	%xmm6, %xmm8
	pand	64(%rsp), %xmm8                 # 16-byte Folded Reload
	movdqa	%xmm10, %xmm15
	por	%xmm2, %xmm15
	pxor	%xmm8, %xmm15
	pxor	%xmm1, %xmm0
	pxor	%xmm1, %xmm15
	movdqa	%xmm0, %xmm12
	pand	%xmm15, %xmm12
	movdqa	%xmm12, %xmm2
	pxor	%xmm3, %xmm2
	movdqa	%xmm0, %xmm8
	pxor	%xmm3, %xmm8
	pxor	%xmm7, %xmm12
	pand	%xmm8, %xmm12
	pxor	%xmm3, %xmm12
	pand	%xmm7, %xmm3
	movdqa	%xmm8, %xmm1
	pxor	%xmm3, %xmm1
	pand	%xmm15, %xmm1
	pxor	%xmm7, %xmm15
	pand	%xmm15, %xmm2
	pxor	%xmm7, %xmm2
	pxor	%xmm15, %xmm1
	pxor	%xmm3, %xmm15
	pand	%xmm0, %xmm15
	pxor	%xmm8, %xmm15
	movdqa	%xmm2, %xmm7
	pxor	%xmm12, %xmm7
	movdqa	%xmm1, %xmm3
	pxor	%xmm15, %xmm3
	movdqa	%xmm7, %xmm0
	pxor	%xmm3, %xmm0
	pand	%xmm0, %xmm4
	pand	%xmm7, %xmm9
	pxor	%xmm9, %xmm4
	pand	%xmm3, %xmm5
	pxor	%xmm9, %xmm5
	movdqa	%xmm5, 80(%rsp)                 # 16-byte Spill
	movdqa	%xmm2, %xmm5
	pxor	%xmm1, %xmm5
	movdqa	112(%rsp), %xmm6                # 16-byte Reload
	pand	%xmm5, %xmm6
	pand	48(%rsp), %xmm5                 # 16-byte Folded Reload
	pand	%xmm2, %xmm14
	pand	16(%rsp), %xmm2                 # 16-byte Folded Reload
	pand	%xmm1, %xmm13
	pand	144(%rsp), %xmm1                # 16-byte Folded Reload
	pxor	%xmm5, %xmm2
	pxor	%xmm5, %xmm1
	movdqa	%xmm12, %xmm5
	pxor	%xmm15, %xmm5
	pand	%xmm5, %xmm10
	pand	96(%rsp), %xmm5                 # 16-byte Folded Reload
	movdqa	32(%rsp), %xmm9                 # 16-byte Reload
	pand	%xmm12, %xmm9
	pand	(%rsp), %xmm12                  # 16-byte Folded Reload
	movdqa	%xmm11, %xmm8
	movdqa	128(%rsp), %xmm11               # 16-byte Reload
	pand	%xmm15, %xmm11
	pand	64(%rsp), %xmm15                # 16-byte Folded Reload
	pxor	%xmm5, %xmm12
	pxor	%xmm5, %xmm15
	pand	176(%rsp), %xmm0                # 16-byte Folded Reload
	pand	%xmm8, %xmm7
	pxor	%xmm6, %xmm13
	pxor	%xmm10, %xmm9
	pxor	%xmm4, %xmm13
	movdqa	80(%rsp), %xmm8                 # 16-byte Reload
	pxor	%xmm8, %xmm9
	pxor	%xmm7, %xmm0
	pand	160(%rsp), %xmm3                # 16-byte Folded Reload
	pxor	%xmm7, %xmm3
	pxor	%xmm10, %xmm11
	pxor	%xmm3, %xmm11
	pxor	%xmm12, %xmm11
	pxor	%xmm2, %xmm12
	movdqa	%xmm2, %xmm7
	pxor	%xmm3, %xmm7
	pxor	%xmm0, %xmm1
	pxor	%xmm15, %xmm0
	movdqa	%xmm13, %xmm15
	pxor	%xmm0, %xmm15
	movdqa	%xmm15, %xmm5
	pxor	%xmm1, %xmm5
	pxor	%xmm7, %xmm9
	pcmpeqd	%xmm2, %xmm2
	pxor	%xmm2, %xmm4
	pxor	%xmm11, %xmm4
	pxor	%xmm4, %xmm7
	pxor	%xmm0, %xmm4
	pxor	%xmm6, %xmm14
	pxor	%xmm8, %xmm14
	pxor	%xmm9, %xmm14
	pxor	%xmm15, %xmm14
	pxor	%xmm5, %xmm12
	pxor	%xmm13, %xmm1
	movdqa	.Ldeerlapse_0_1_0_CPI27_10(%rip), %xmm0         # xmm0 = [0,5,10,15,4,9,14,3,8,13,2,7,12,1,6,11]
	movdqa	%xmm7, %xmm2
	pshufb	%xmm0, %xmm2
	movdqa	%xmm4, %xmm6
	pshufb	%xmm0, %xmm6
	movdqa	%xmm14, %xmm11
	pshufb	%xmm0, %xmm11
	movdqa	%xmm12, %xmm3
	pshufb	%xmm0, %xmm3
	movdqa	%xmm3, 16(%rsp)                 # 16-byte Spill
	movdqa	%xmm5, %xmm8
	pshufb	%xmm0, %xmm8
	pcmpeqd	%xmm3, %xmm3
	pxor	%xmm3, %xmm9
	movdqa	%xmm9, %xmm10
	pshufb	%xmm0, %xmm10
	pxor	%xmm3, %xmm1
	movdqa	%xmm1, %xmm3
	pshufb	%xmm0, %xmm3
	movdqa	%xmm15, %xmm13
	pshufb	%xmm0, %xmm13
	movdqa	.Ldeerlapse_0_1_0_CPI27_11(%rip), %xmm0         # xmm0 = [5,10,15,0,9,14,3,4,13,2,7,8,1,6,11,12]
	pshufb	%xmm0, %xmm7
	pshufb	%xmm0, %xmm4
	pshufb	%xmm0, %xmm14
	pshufb	%xmm0, %xmm12
	pshufb	%xmm0, %xmm5
	pshufb	%xmm0, %xmm9
	pshufb	%xmm0, %xmm1
	pshufb	%xmm0, %xmm15
	pxor	%xmm4, %xmm6
	pxor	%xmm14, %xmm11
	pshuflw	$177, %xmm6, %xmm0              # xmm0 = xmm6[1,0,3,2,4,5,6,7]
	movdqa	%xmm0, (%rsp)                   # 16-byte Spill
	pxor	%xmm14, %xmm6
	pxor	%xmm7, %xmm2
	movdqa	16(%rsp), %xmm14                # 16-byte Reload
	pxor	%xmm12, %xmm14
	movdqa	%xmm14, 16(%rsp)                # 16-byte Spill
	pxor	%xmm5, %xmm8
	pxor	%xmm15, %xmm13
	pxor	%xmm13, %xmm7
	pxor	%xmm13, %xmm4
	pxor	%xmm13, %xmm12
	pshuflw	$177, %xmm13, %xmm0             # xmm0 = xmm13[1,0,3,2,4,5,6,7]
	pxor	%xmm5, %xmm13
	pshuflw	$177, %xmm8, %xmm5              # xmm5 = xmm8[1,0,3,2,4,5,6,7]
	pshufhw	$177, %xmm5, %xmm5              # xmm5 = xmm5[0,1,2,3,5,4,7,6]
	pxor	%xmm14, %xmm13
	pxor	%xmm5, %xmm13
	pxor	%xmm9, %xmm10
	pxor	%xmm9, %xmm8
	pshuflw	$177, %xmm10, %xmm5             # xmm5 = xmm10[1,0,3,2,4,5,6,7]
	pshufhw	$177, %xmm5, %xmm5              # xmm5 = xmm5[0,1,2,3,5,4,7,6]
	pxor	%xmm5, %xmm8
	pxor	%xmm1, %xmm3
	pxor	%xmm1, %xmm10
	pshuflw	$177, %xmm3, %xmm5              # xmm5 = xmm3[1,0,3,2,4,5,6,7]
	pxor	%xmm15, %xmm3
	pshufhw	$177, %xmm0, %xmm0              # xmm0 = xmm0[0,1,2,3,5,4,7,6]
	pxor	%xmm0, %xmm3
	movdqu	-112(%r11), %xmm14
	pxor	%xmm7, %xmm14
	pxor	%xmm2, %xmm4
	pshuflw	$177, %xmm2, %xmm0              # xmm0 = xmm2[1,0,3,2,4,5,6,7]
	pshufhw	$177, %xmm0, %xmm0              # xmm0 = xmm0[0,1,2,3,5,4,7,6]
	pxor	%xmm0, %xmm14
	movdqu	-96(%r11), %xmm7
	pxor	%xmm4, %xmm7
	pshufhw	$177, (%rsp), %xmm0             # 16-byte Folded Reload
                                        # xmm0 = mem[0,1,2,3,5,4,7,6]
	pxor	%xmm0, %xmm7
	movdqu	-80(%r11), %xmm15
	pxor	%xmm6, %xmm15
	pxor	%xmm11, %xmm12
	pshuflw	$177, %xmm11, %xmm0             # xmm0 = xmm11[1,0,3,2,4,5,6,7]
	pshufhw	$177, %xmm0, %xmm0              # xmm0 = xmm0[0,1,2,3,5,4,7,6]
	pxor	%xmm0, %xmm15
	movdqu	-64(%r11), %xmm11
	pxor	%xmm12, %xmm11
	pshuflw	$177, 16(%rsp), %xmm0           # 16-byte Folded Reload
                                        # xmm0 = mem[1,0,3,2,4,5,6,7]
	pshufhw	$177, %xmm0, %xmm0              # xmm0 = xmm0[0,1,2,3,5,4,7,6]
	pxor	%xmm0, %xmm11
	movdqu	-48(%r11), %xmm4
	pxor	%xmm13, %xmm4
	movdqu	-32(%r11), %xmm12
	pxor	%xmm8, %xmm12
	movdqu	-16(%r11), %xmm2
	pxor	%xmm10, %xmm2
	pshufhw	$177, %xmm5, %xmm0              # xmm0 = xmm5[0,1,2,3,5,4,7,6]
	pxor	%xmm0, %xmm2
	movdqu	(%r11), %xmm10
	pxor	%xmm3, %xmm10
	subq	$-128, %r11
	decq	%r10
	jne	.Ldeerlapse_0_1_0_BB27_2
.Ldeerlapse_0_1_0_BB27_3:                               # %"aead_ciphers_wide::aes::KeyRef::encrypt_eight.exit"
	movdqa	%xmm14, %xmm1
	pxor	%xmm2, %xmm1
	movdqa	%xmm1, %xmm0
	pxor	%xmm12, %xmm0
	pxor	%xmm7, %xmm11
	movdqa	%xmm0, %xmm13
	pxor	%xmm7, %xmm13
	movdqa	%xmm4, %xmm9
	pxor	%xmm10, %xmm9
	movdqa	%xmm15, %xmm5
	pxor	%xmm10, %xmm5
	movdqa	%xmm0, %xmm8
	pxor	%xmm10, %xmm8
	movdqa	%xmm8, 80(%rsp)                 # 16-byte Spill
	pxor	%xmm10, %xmm7
	movdqa	%xmm11, %xmm10
	pxor	%xmm15, %xmm11
	pxor	%xmm11, %xmm1
	movdqa	%xmm1, 48(%rsp)                 # 16-byte Spill
	pxor	%xmm11, %xmm12
	pxor	%xmm2, %xmm11
	movdqa	%xmm0, 32(%rsp)                 # 16-byte Spill
	movdqa	%xmm0, %xmm8
	pxor	%xmm4, %xmm8
	pxor	%xmm4, %xmm15
	pxor	%xmm9, %xmm10
	movdqa	%xmm10, %xmm6
	movdqa	%xmm10, 128(%rsp)               # 16-byte Spill
	movdqa	%xmm14, 16(%rsp)                # 16-byte Spill
	pxor	%xmm14, %xmm6
	movdqa	%xmm6, %xmm1
	movdqa	%xmm6, 160(%rsp)                # 16-byte Spill
	pxor	%xmm0, %xmm1
	movdqa	%xmm1, %xmm0
	movdqa	%xmm1, %xmm4
	movdqa	%xmm1, 176(%rsp)                # 16-byte Spill
	pxor	%xmm11, %xmm0
	movdqa	%xmm0, 64(%rsp)                 # 16-byte Spill
	pand	%xmm15, %xmm0
	movdqa	%xmm11, %xmm1
	pand	%xmm9, %xmm1
	movdqa	%xmm9, 96(%rsp)                 # 16-byte Spill
	pxor	%xmm1, %xmm0
	movdqa	%xmm4, %xmm3
	movdqa	%xmm5, (%rsp)                   # 16-byte Spill
	pand	%xmm5, %xmm3
	pxor	%xmm1, %xmm3
	movdqa	%xmm8, %xmm1
	pand	%xmm14, %xmm1
	movdqa	%xmm5, %xmm2
	pxor	%xmm4, %xmm2
	pxor	%xmm1, %xmm2
	movdqa	%xmm13, 144(%rsp)               # 16-byte Spill
	movdqa	%xmm13, %xmm14
	pxor	%xmm5, %xmm14
	movdqa	%xmm14, %xmm4
	pand	%xmm6, %xmm4
	movdqa	%xmm9, %xmm1
	pxor	%xmm11, %xmm1
	pxor	%xmm4, %xmm1
	movdqa	%xmm14, %xmm4
	pxor	%xmm8, %xmm4
	movdqa	%xmm4, 112(%rsp)                # 16-byte Spill
	pand	%xmm10, %xmm4
	pxor	%xmm3, %xmm2
	pxor	%xmm4, %xmm2
	pxor	%xmm4, %xmm1
	movdqa	%xmm12, %xmm5
	pand	%xmm7, %xmm5
	movdqa	80(%rsp), %xmm9                 # 16-byte Reload
	movdqa	%xmm9, %xmm4
	por	48(%rsp), %xmm4                 # 16-byte Folded Reload
	pxor	%xmm5, %xmm4
	pxor	%xmm3, %xmm4
	pand	32(%rsp), %xmm13                # 16-byte Folded Reload
	movdqa	%xmm12, %xmm3
	por	%xmm7, %xmm3
	pxor	%xmm13, %xmm3
	pxor	%xmm0, %xmm1
	pxor	%xmm0, %xmm3
	movdqa	%xmm1, %xmm0
	pand	%xmm3, %xmm0
	movdqa	%xmm0, %xmm6
	pxor	%xmm2, %xmm6
	movdqa	%xmm1, %xmm5
	pxor	%xmm2, %xmm5
	pxor	%xmm4, %xmm0
	pand	%xmm5, %xmm0
	pxor	%xmm2, %xmm0
	pand	%xmm4, %xmm2
	movdqa	%xmm5, %xmm10
	pxor	%xmm2, %xmm10
	pand	%xmm3, %xmm10
	pxor	%xmm4, %xmm3
	pand	%xmm3, %xmm6
	pxor	%xmm4, %xmm6
	pxor	%xmm3, %xmm10
	pxor	%xmm2, %xmm3
	pand	%xmm1, %xmm3
	pxor	%xmm5, %xmm3
	movdqa	%xmm6, %xmm5
	pxor	%xmm0, %xmm5
	movdqa	%xmm10, %xmm4
	pxor	%xmm3, %xmm4
	movdqa	%xmm5, %xmm1
	pxor	%xmm4, %xmm1
	pand	%xmm1, %xmm15
	movdqa	96(%rsp), %xmm2                 # 16-byte Reload
	pand	%xmm5, %xmm2
	pxor	%xmm2, %xmm15
	movdqa	%xmm2, %xmm13
	movdqa	(%rsp), %xmm2                   # 16-byte Reload
	pand	%xmm4, %xmm2
	pxor	%xmm13, %xmm2
	movdqa	%xmm2, (%rsp)                   # 16-byte Spill
	movdqa	%xmm6, %xmm2
	pxor	%xmm10, %xmm2
	movdqa	112(%rsp), %xmm13               # 16-byte Reload
	pand	%xmm2, %xmm13
	pand	128(%rsp), %xmm2                # 16-byte Folded Reload
	pand	%xmm6, %xmm8
	pand	16(%rsp), %xmm6                 # 16-byte Folded Reload
	pand	%xmm10, %xmm14
	pand	160(%rsp), %xmm10               # 16-byte Folded Reload
	pxor	%xmm2, %xmm6
	pxor	%xmm2, %xmm10
	movdqa	%xmm0, %xmm2
	pxor	%xmm3, %xmm2
	pand	%xmm2, %xmm7
	pand	%xmm12, %xmm2
	pand	%xmm0, %xmm9
	pand	48(%rsp), %xmm0                 # 16-byte Folded Reload
	movdqa	144(%rsp), %xmm12               # 16-byte Reload
	pand	%xmm3, %xmm12
	pand	32(%rsp), %xmm3                 # 16-byte Folded Reload
	pxor	%xmm2, %xmm0
	pxor	%xmm2, %xmm3
	pand	64(%rsp), %xmm1                 # 16-byte Folded Reload
	pand	%xmm11, %xmm5
	pand	176(%rsp), %xmm4                # 16-byte Folded Reload
	pxor	%xmm5, %xmm1
	pxor	%xmm5, %xmm4
	pxor	%xmm7, %xmm9
	movdqa	%xmm12, %xmm2
	pxor	%xmm7, %xmm2
	pxor	%xmm4, %xmm2
	pxor	%xmm0, %xmm2
	movdqa	%xmm2, %xmm5
	pxor	%xmm6, %xmm0
	movdqa	%xmm6, %xmm7
	pxor	%xmm4, %xmm7
	pxor	%xmm1, %xmm10
	pxor	%xmm3, %xmm1
	pxor	%xmm13, %xmm14
	pxor	%xmm15, %xmm14
	movdqa	%xmm9, %xmm6
	movdqa	(%rsp), %xmm9                   # 16-byte Reload
	pxor	%xmm9, %xmm6
	pcmpeqd	%xmm2, %xmm2
	pxor	%xmm2, %xmm15
	pxor	%xmm5, %xmm15
	movdqa	%xmm14, %xmm4
	pxor	%xmm1, %xmm4
	pxor	%xmm7, %xmm6
	pxor	%xmm15, %xmm7
	pxor	%xmm1, %xmm15
	pxor	%xmm13, %xmm8
	shlq	$7, %rdx
	pxor	%xmm9, %xmm8
	movdqa	%xmm4, %xmm3
	pxor	%xmm10, %xmm3
	pxor	%xmm6, %xmm8
	pxor	%xmm4, %xmm8
	pxor	%xmm3, %xmm0
	pxor	%xmm14, %xmm10
	movdqa	.Ldeerlapse_0_1_0_CPI27_10(%rip), %xmm1         # xmm1 = [0,5,10,15,4,9,14,3,8,13,2,7,12,1,6,11]
	pshufb	%xmm1, %xmm7
	pshufb	%xmm1, %xmm15
	pshufb	%xmm1, %xmm8
	pshufb	%xmm1, %xmm0
	pshufb	%xmm1, %xmm3
	pshufb	%xmm1, %xmm6
	pshufb	%xmm1, %xmm10
	pshufb	%xmm1, %xmm4
	movdqu	(%rcx,%rdx), %xmm11
	pxor	%xmm7, %xmm11
	movdqu	16(%rcx,%rdx), %xmm7
	pxor	%xmm15, %xmm7
	movdqu	32(%rcx,%rdx), %xmm5
	pxor	%xmm8, %xmm5
	movdqu	48(%rcx,%rdx), %xmm1
	pxor	%xmm0, %xmm1
	movdqu	64(%rcx,%rdx), %xmm0
	pxor	%xmm3, %xmm0
	movdqu	112(%rcx,%rdx), %xmm3
	pxor	%xmm4, %xmm3
	movdqu	80(%rcx,%rdx), %xmm8
	pxor	%xmm2, %xmm8
	pxor	%xmm6, %xmm8
	movdqu	96(%rcx,%rdx), %xmm9
	pxor	%xmm2, %xmm9
	pxor	%xmm10, %xmm9
	movdqa	%xmm11, %xmm2
	psrlq	$4, %xmm2
	pxor	%xmm0, %xmm2
	movdqa	.Ldeerlapse_0_1_0_CPI27_7(%rip), %xmm12         # xmm12 = [1085102592571150095,1085102592571150095]
	pand	%xmm12, %xmm2
	movdqa	%xmm2, %xmm6
	psllq	$4, %xmm6
	pxor	%xmm11, %xmm6
	pxor	%xmm0, %xmm2
	movdqa	%xmm7, %xmm0
	psrlq	$4, %xmm0
	pxor	%xmm8, %xmm0
	pand	%xmm12, %xmm0
	movdqa	%xmm0, %xmm4
	psllq	$4, %xmm4
	pxor	%xmm7, %xmm4
	pxor	%xmm8, %xmm0
	movdqa	%xmm5, %xmm8
	psrlq	$4, %xmm8
	pxor	%xmm9, %xmm8
	pand	%xmm12, %xmm8
	movdqa	%xmm8, %xmm10
	psllq	$4, %xmm10
	pxor	%xmm5, %xmm10
	pxor	%xmm9, %xmm8
	movdqa	%xmm1, %xmm5
	psrlq	$4, %xmm5
	pxor	%xmm3, %xmm5
	pand	%xmm12, %xmm5
	movdqa	%xmm5, %xmm9
	psllq	$4, %xmm9
	pxor	%xmm1, %xmm9
	pxor	%xmm3, %xmm5
	movdqa	%xmm6, %xmm3
	psrlq	$2, %xmm3
	pxor	%xmm10, %xmm3
	movdqa	.Ldeerlapse_0_1_0_CPI27_8(%rip), %xmm11         # xmm11 = [3689348814741910323,3689348814741910323]
	pand	%xmm11, %xmm3
	movdqa	%xmm3, %xmm7
	psllq	$2, %xmm7
	pxor	%xmm6, %xmm7
	pxor	%xmm10, %xmm3
	movdqa	%xmm2, %xmm1
	psrlq	$2, %xmm1
	pxor	%xmm8, %xmm1
	pand	%xmm11, %xmm1
	movdqa	%xmm1, %xmm6
	psllq	$2, %xmm6
	pxor	%xmm2, %xmm6
	pxor	%xmm8, %xmm1
	movdqa	%xmm4, %xmm2
	psrlq	$2, %xmm2
	pxor	%xmm9, %xmm2
	pand	%xmm11, %xmm2
	movdqa	%xmm2, %xmm12
	psllq	$2, %xmm12
	pxor	%xmm4, %xmm12
	pxor	%xmm9, %xmm2
	movdqa	%xmm0, %xmm8
	psrlq	$2, %xmm8
	pxor	%xmm5, %xmm8
	pand	%xmm11, %xmm8
	movdqa	%xmm8, %xmm11
	psllq	$2, %xmm11
	pxor	%xmm0, %xmm11
	pxor	%xmm5, %xmm8
	movdqa	%xmm7, %xmm5
	psrlq	$1, %xmm5
	pxor	%xmm12, %xmm5
	movdqa	.Ldeerlapse_0_1_0_CPI27_9(%rip), %xmm13         # xmm13 = [6148914691236517205,6148914691236517205]
	pand	%xmm13, %xmm5
	movdqa	%xmm5, %xmm10
	paddq	%xmm10, %xmm10
	pxor	%xmm7, %xmm10
	pxor	%xmm12, %xmm5
	movdqa	%xmm3, %xmm4
	psrlq	$1, %xmm4
	pxor	%xmm2, %xmm4
	pand	%xmm13, %xmm4
	movdqa	%xmm4, %xmm9
	paddq	%xmm9, %xmm9
	pxor	%xmm3, %xmm9
	pxor	%xmm2, %xmm4
	movdqa	%xmm6, %xmm2
	psrlq	$1, %xmm2
	pxor	%xmm11, %xmm2
	pand	%xmm13, %xmm2
	movdqa	%xmm2, %xmm7
	paddq	%xmm7, %xmm7
	pxor	%xmm6, %xmm7
	pxor	%xmm11, %xmm2
	movdqa	%xmm1, %xmm0
	psrlq	$1, %xmm0
	pxor	%xmm8, %xmm0
	pand	%xmm13, %xmm0
	movdqa	%xmm0, %xmm3
	paddq	%xmm3, %xmm3
	pxor	%xmm1, %xmm3
	pxor	%xmm8, %xmm0
	cmpq	$8, %rax
	jne	.Ldeerlapse_0_1_0_BB27_5
# %bb.4:                                # %then.1
	movdqu	(%r8,%r9), %xmm1
	pxor	%xmm10, %xmm1
	movdqu	%xmm1, (%r8)
	movdqu	16(%r8,%r9), %xmm1
	pxor	%xmm5, %xmm1
	movdqu	%xmm1, 16(%r8)
	movdqu	32(%r8,%r9), %xmm1
	pxor	%xmm9, %xmm1
	movdqu	%xmm1, 32(%r8)
	movdqu	48(%r8,%r9), %xmm1
	pxor	%xmm4, %xmm1
	movdqu	%xmm1, 48(%r8)
	movdqu	64(%r8,%r9), %xmm1
	pxor	%xmm7, %xmm1
	movdqu	%xmm1, 64(%r8)
	movdqu	80(%r8,%r9), %xmm1
	pxor	%xmm2, %xmm1
	movdqu	%xmm1, 80(%r8)
	movdqu	96(%r8,%r9), %xmm1
	pxor	%xmm3, %xmm1
	movdqu	%xmm1, 96(%r8)
.Ldeerlapse_0_1_0_BB27_8:                               # %join.5.i318.7
	movdqu	112(%r8,%r9), %xmm1
	pxor	%xmm0, %xmm1
	movdqu	%xmm1, 112(%r8)
	jmp	.Ldeerlapse_0_1_0_BB27_9
.Ldeerlapse_0_1_0_BB27_5:                               # %else.2
	movdqu	(%r8,%r9), %xmm1
	pxor	%xmm10, %xmm1
	movdqu	%xmm1, (%r8)
	movdqu	16(%r8,%r9), %xmm1
	pxor	%xmm5, %xmm1
	movdqu	%xmm1, 16(%r8)
	movdqu	32(%r8,%r9), %xmm1
	pxor	%xmm9, %xmm1
	movdqu	%xmm1, 32(%r8)
	movdqu	48(%r8,%r9), %xmm1
	pxor	%xmm4, %xmm1
	movdqu	%xmm1, 48(%r8)
	movdqu	64(%r8,%r9), %xmm1
	pxor	%xmm7, %xmm1
	movdqu	%xmm1, 64(%r8)
	cmpq	$5, %rax
	je	.Ldeerlapse_0_1_0_BB27_9
# %bb.6:                                # %join.5.i318.5
	movdqu	80(%r8,%r9), %xmm1
	pxor	%xmm2, %xmm1
	movdqu	%xmm1, 80(%r8)
	cmpq	$6, %rax
	je	.Ldeerlapse_0_1_0_BB27_9
# %bb.7:                                # %join.5.i318.6
	movdqu	96(%r8,%r9), %xmm1
	pxor	%xmm3, %xmm1
	movdqu	%xmm1, 96(%r8)
	cmpq	$7, %rax
	jne	.Ldeerlapse_0_1_0_BB27_8
.Ldeerlapse_0_1_0_BB27_9:                               # %join.3
	movaps	192(%rsp), %xmm6                # 16-byte Reload
	movaps	208(%rsp), %xmm7                # 16-byte Reload
	movaps	224(%rsp), %xmm8                # 16-byte Reload
	movaps	240(%rsp), %xmm9                # 16-byte Reload
	movaps	256(%rsp), %xmm10               # 16-byte Reload
	movaps	272(%rsp), %xmm11               # 16-byte Reload
	movaps	288(%rsp), %xmm12               # 16-byte Reload
	movaps	304(%rsp), %xmm13               # 16-byte Reload
	movaps	320(%rsp), %xmm14               # 16-byte Reload
	movaps	336(%rsp), %xmm15               # 16-byte Reload
	addq	$360, %rsp                      # imm = 0x168
	retq
	.seh_endproc
                                        # -- End function
	.def	"deerlapse_0_1_0::aead_ciphers_wide::aes::ctr32::encrypt_up_to_sixteen";
	.scl	3;
	.type	32;
	.endef
	.section	.rdata,"dr"
	.p2align	4, 0x0                          # -- Begin function aead_ciphers_wide::aes::ctr32::encrypt_up_to_sixteen
.Ldeerlapse_0_1_0_CPI28_0:
	.byte	4                               # 0x4
	.byte	5                               # 0x5
	.byte	6                               # 0x6
	.byte	7                               # 0x7
	.byte	8                               # 0x8
	.byte	9                               # 0x9
	.byte	10                              # 0xa
	.byte	11                              # 0xb
	.byte	12                              # 0xc
	.byte	13                              # 0xd
	.byte	14                              # 0xe
	.byte	15                              # 0xf
	.byte	3                               # 0x3
	.byte	2                               # 0x2
	.byte	1                               # 0x1
	.byte	0                               # 0x0
.Ldeerlapse_0_1_0_CPI28_1:
	.zero	4
	.zero	4
	.zero	4
	.long	2                               # 0x2
.Ldeerlapse_0_1_0_CPI28_2:
	.zero	4
	.zero	4
	.zero	4
	.long	3                               # 0x3
.Ldeerlapse_0_1_0_CPI28_3:
	.zero	4
	.zero	4
	.zero	4
	.long	4                               # 0x4
.Ldeerlapse_0_1_0_CPI28_4:
	.zero	4
	.zero	4
	.zero	4
	.long	5                               # 0x5
.Ldeerlapse_0_1_0_CPI28_5:
	.zero	4
	.zero	4
	.zero	4
	.long	6                               # 0x6
.Ldeerlapse_0_1_0_CPI28_6:
	.zero	4
	.zero	4
	.zero	4
	.long	7                               # 0x7
.Ldeerlapse_0_1_0_CPI28_7:
	.zero	4
	.zero	4
	.zero	4
	.long	8                               # 0x8
.Ldeerlapse_0_1_0_CPI28_8:
	.zero	4
	.zero	4
	.zero	4
	.long	9                               # 0x9
.Ldeerlapse_0_1_0_CPI28_9:
	.zero	4
	.zero	4
	.zero	4
	.long	10                              # 0xa
.Ldeerlapse_0_1_0_CPI28_10:
	.zero	4
	.zero	4
	.zero	4
	.long	11                              # 0xb
.Ldeerlapse_0_1_0_CPI28_11:
	.zero	4
	.zero	4
	.zero	4
	.long	12                              # 0xc
.Ldeerlapse_0_1_0_CPI28_12:
	.zero	4
	.zero	4
	.zero	4
	.long	13                              # 0xd
.Ldeerlapse_0_1_0_CPI28_13:
	.zero	4
	.zero	4
	.zero	4
	.long	14                              # 0xe
.Ldeerlapse_0_1_0_CPI28_14:
	.zero	4
	.zero	4
	.zero	4
	.long	15                              # 0xf
.Ldeerlapse_0_1_0_CPI28_15:
	.zero	16,15
.Ldeerlapse_0_1_0_CPI28_16:
	.zero	16,51
.Ldeerlapse_0_1_0_CPI28_17:
	.zero	16,85
.Ldeerlapse_0_1_0_CPI28_18:
	.byte	0                               # 0x0
	.byte	5                               # 0x5
	.byte	10                              # 0xa
	.byte	15                              # 0xf
	.byte	4                               # 0x4
	.byte	9                               # 0x9
	.byte	14                              # 0xe
	.byte	3                               # 0x3
	.byte	8                               # 0x8
	.byte	13                              # 0xd
	.byte	2                               # 0x2
	.byte	7                               # 0x7
	.byte	12                              # 0xc
	.byte	1                               # 0x1
	.byte	6                               # 0x6
	.byte	11                              # 0xb
.Ldeerlapse_0_1_0_CPI28_19:
	.byte	5                               # 0x5
	.byte	10                              # 0xa
	.byte	15                              # 0xf
	.byte	0                               # 0x0
	.byte	9                               # 0x9
	.byte	14                              # 0xe
	.byte	3                               # 0x3
	.byte	4                               # 0x4
	.byte	13                              # 0xd
	.byte	2                               # 0x2
	.byte	7                               # 0x7
	.byte	8                               # 0x8
	.byte	1                               # 0x1
	.byte	6                               # 0x6
	.byte	11                              # 0xb
	.byte	12                              # 0xc
	.text
	.p2align	4
"deerlapse_0_1_0::aead_ciphers_wide::aes::ctr32::encrypt_up_to_sixteen": # @"deerlapse_0_1_0::aead_ciphers_wide::aes::ctr32::encrypt_up_to_sixteen"
.seh_proc "deerlapse_0_1_0::aead_ciphers_wide::aes::ctr32::encrypt_up_to_sixteen"
# %bb.0:                                # %start
	subq	$1048, %rsp                     # imm = 0x418
	.seh_stackalloc 1048
	movaps	%xmm15, 1024(%rsp)              # 16-byte Spill
	.seh_savexmm %xmm15, 1024
	movaps	%xmm14, 1008(%rsp)              # 16-byte Spill
	.seh_savexmm %xmm14, 1008
	movaps	%xmm13, 992(%rsp)               # 16-byte Spill
	.seh_savexmm %xmm13, 992
	movaps	%xmm12, 976(%rsp)               # 16-byte Spill
	.seh_savexmm %xmm12, 976
	movaps	%xmm11, 960(%rsp)               # 16-byte Spill
	.seh_savexmm %xmm11, 960
	movaps	%xmm10, 944(%rsp)               # 16-byte Spill
	.seh_savexmm %xmm10, 944
	movaps	%xmm9, 928(%rsp)                # 16-byte Spill
	.seh_savexmm %xmm9, 928
	movaps	%xmm8, 912(%rsp)                # 16-byte Spill
	.seh_savexmm %xmm8, 912
	movaps	%xmm7, 896(%rsp)                # 16-byte Spill
	.seh_savexmm %xmm7, 896
	movaps	%xmm6, 880(%rsp)                # 16-byte Spill
	.seh_savexmm %xmm6, 880
	.seh_endprologue
	movq	1088(%rsp), %rax
	movd	(%rax), %xmm0                   # xmm0 = mem[0],zero,zero,zero
	movq	4(%rax), %xmm1                  # xmm1 = mem[0],zero
	movl	12(%rax), %eax
	bswapl	%eax
	movd	%eax, %xmm2
	pshufd	$0, %xmm2, %xmm6                # xmm6 = xmm2[0,0,0,0]
	movq	%xmm0, %xmm2                    # xmm2 = xmm0[0],zero
	pshufd	$80, %xmm1, %xmm9               # xmm9 = xmm1[0,0,1,1]
	pblendw	$195, %xmm2, %xmm9              # xmm9 = xmm2[0,1],xmm9[2,3,4,5],xmm2[6,7]
	pcmpeqd	%xmm2, %xmm2
	movdqa	%xmm6, %xmm1
	psubd	%xmm2, %xmm1
	movdqa	%xmm9, %xmm3
	palignr	$12, %xmm1, %xmm3               # xmm3 = xmm1[12,13,14,15],xmm3[0,1,2,3,4,5,6,7,8,9,10,11]
	movdqa	.Ldeerlapse_0_1_0_CPI28_1(%rip), %xmm1          # xmm1 = [u,u,u,2]
	paddd	%xmm6, %xmm1
	movdqa	%xmm9, %xmm0
	palignr	$12, %xmm1, %xmm0               # xmm0 = xmm1[12,13,14,15],xmm0[0,1,2,3,4,5,6,7,8,9,10,11]
	movdqa	%xmm0, %xmm11
	movdqa	.Ldeerlapse_0_1_0_CPI28_2(%rip), %xmm1          # xmm1 = [u,u,u,3]
	paddd	%xmm6, %xmm1
	movdqa	%xmm9, %xmm5
	palignr	$12, %xmm1, %xmm5               # xmm5 = xmm1[12,13,14,15],xmm5[0,1,2,3,4,5,6,7,8,9,10,11]
	movdqa	.Ldeerlapse_0_1_0_CPI28_3(%rip), %xmm1          # xmm1 = [u,u,u,4]
	paddd	%xmm6, %xmm1
	movdqa	%xmm9, %xmm0
	palignr	$12, %xmm1, %xmm0               # xmm0 = xmm1[12,13,14,15],xmm0[0,1,2,3,4,5,6,7,8,9,10,11]
	movdqa	%xmm0, 32(%rsp)                 # 16-byte Spill
	movdqa	.Ldeerlapse_0_1_0_CPI28_4(%rip), %xmm1          # xmm1 = [u,u,u,5]
	paddd	%xmm6, %xmm1
	movdqa	%xmm9, %xmm0
	palignr	$12, %xmm1, %xmm0               # xmm0 = xmm1[12,13,14,15],xmm0[0,1,2,3,4,5,6,7,8,9,10,11]
	movdqa	%xmm0, 48(%rsp)                 # 16-byte Spill
	movdqa	.Ldeerlapse_0_1_0_CPI28_5(%rip), %xmm1          # xmm1 = [u,u,u,6]
	paddd	%xmm6, %xmm1
	movdqa	%xmm9, %xmm2
	palignr	$12, %xmm1, %xmm2               # xmm2 = xmm1[12,13,14,15],xmm2[0,1,2,3,4,5,6,7,8,9,10,11]
	movdqa	%xmm2, 16(%rsp)                 # 16-byte Spill
	movdqa	.Ldeerlapse_0_1_0_CPI28_6(%rip), %xmm1          # xmm1 = [u,u,u,7]
	paddd	%xmm6, %xmm1
	movdqa	%xmm9, %xmm2
	palignr	$12, %xmm1, %xmm2               # xmm2 = xmm1[12,13,14,15],xmm2[0,1,2,3,4,5,6,7,8,9,10,11]
	movdqa	%xmm2, %xmm13
	movdqa	.Ldeerlapse_0_1_0_CPI28_7(%rip), %xmm1          # xmm1 = [u,u,u,8]
	paddd	%xmm6, %xmm1
	movdqa	%xmm9, %xmm15
	palignr	$12, %xmm1, %xmm15              # xmm15 = xmm1[12,13,14,15],xmm15[0,1,2,3,4,5,6,7,8,9,10,11]
	movdqa	.Ldeerlapse_0_1_0_CPI28_8(%rip), %xmm1          # xmm1 = [u,u,u,9]
	paddd	%xmm6, %xmm1
	movdqa	%xmm9, %xmm12
	palignr	$12, %xmm1, %xmm12              # xmm12 = xmm1[12,13,14,15],xmm12[0,1,2,3,4,5,6,7,8,9,10,11]
	movdqa	.Ldeerlapse_0_1_0_CPI28_9(%rip), %xmm1          # xmm1 = [u,u,u,10]
	paddd	%xmm6, %xmm1
	movdqa	%xmm9, %xmm4
	palignr	$12, %xmm1, %xmm4               # xmm4 = xmm1[12,13,14,15],xmm4[0,1,2,3,4,5,6,7,8,9,10,11]
	movdqa	.Ldeerlapse_0_1_0_CPI28_10(%rip), %xmm2         # xmm2 = [u,u,u,11]
	paddd	%xmm6, %xmm2
	movdqa	%xmm9, %xmm1
	palignr	$12, %xmm2, %xmm1               # xmm1 = xmm2[12,13,14,15],xmm1[0,1,2,3,4,5,6,7,8,9,10,11]
	movdqa	.Ldeerlapse_0_1_0_CPI28_11(%rip), %xmm2         # xmm2 = [u,u,u,12]
	paddd	%xmm6, %xmm2
	movdqa	%xmm9, %xmm8
	palignr	$12, %xmm2, %xmm8               # xmm8 = xmm2[12,13,14,15],xmm8[0,1,2,3,4,5,6,7,8,9,10,11]
	movdqa	.Ldeerlapse_0_1_0_CPI28_12(%rip), %xmm2         # xmm2 = [u,u,u,13]
	paddd	%xmm6, %xmm2
	movdqa	%xmm9, %xmm14
	palignr	$12, %xmm2, %xmm14              # xmm14 = xmm2[12,13,14,15],xmm14[0,1,2,3,4,5,6,7,8,9,10,11]
	movdqa	%xmm9, %xmm10
	palignr	$12, %xmm6, %xmm10              # xmm10 = xmm6[12,13,14,15],xmm10[0,1,2,3,4,5,6,7,8,9,10,11]
	movdqa	.Ldeerlapse_0_1_0_CPI28_13(%rip), %xmm7         # xmm7 = [u,u,u,14]
	paddd	%xmm6, %xmm7
	paddd	.Ldeerlapse_0_1_0_CPI28_14(%rip), %xmm6
	movdqa	%xmm9, %xmm0
	palignr	$12, %xmm7, %xmm0               # xmm0 = xmm7[12,13,14,15],xmm0[0,1,2,3,4,5,6,7,8,9,10,11]
	palignr	$12, %xmm6, %xmm9               # xmm9 = xmm6[12,13,14,15],xmm9[0,1,2,3,4,5,6,7,8,9,10,11]
	movdqa	.Ldeerlapse_0_1_0_CPI28_0(%rip), %xmm6          # xmm6 = [4,5,6,7,8,9,10,11,12,13,14,15,3,2,1,0]
	pshufb	%xmm6, %xmm10
	pshufb	%xmm6, %xmm3
	pshufb	%xmm6, %xmm11
	movdqa	%xmm11, (%rsp)                  # 16-byte Spill
	pshufb	%xmm6, %xmm5
	movdqa	32(%rsp), %xmm7                 # 16-byte Reload
	pshufb	%xmm6, %xmm7
	movdqa	48(%rsp), %xmm2                 # 16-byte Reload
	pshufb	%xmm6, %xmm2
	movdqa	%xmm2, 48(%rsp)                 # 16-byte Spill
	movdqa	16(%rsp), %xmm2                 # 16-byte Reload
	pshufb	%xmm6, %xmm2
	movdqa	%xmm2, 16(%rsp)                 # 16-byte Spill
	pshufb	%xmm6, %xmm13
	movdqa	%xmm13, 32(%rsp)                # 16-byte Spill
	pshufb	%xmm6, %xmm15
	pshufb	%xmm6, %xmm12
	pshufb	%xmm6, %xmm4
	pshufb	%xmm6, %xmm1
	pshufb	%xmm6, %xmm8
	pshufb	%xmm6, %xmm14
	pshufb	%xmm6, %xmm0
	movdqa	%xmm0, 208(%rsp)                # 16-byte Spill
	pshufb	%xmm6, %xmm9
	movdqa	%xmm3, %xmm11
	psrlq	$4, %xmm11
	pxor	%xmm12, %xmm11
	movdqa	.Ldeerlapse_0_1_0_CPI28_15(%rip), %xmm0         # xmm0 = [1085102592571150095,1085102592571150095]
	pand	%xmm0, %xmm11
	movdqa	%xmm11, %xmm2
	psllq	$4, %xmm2
	pxor	%xmm3, %xmm2
	movdqa	%xmm10, %xmm13
	psrlq	$4, %xmm13
	pxor	%xmm15, %xmm13
	pand	%xmm0, %xmm13
	movdqa	%xmm13, %xmm3
	psllq	$4, %xmm3
	pxor	%xmm10, %xmm3
	movdqa	%xmm3, 64(%rsp)                 # 16-byte Spill
	pxor	%xmm12, %xmm11
	pxor	%xmm15, %xmm13
	movdqa	%xmm5, %xmm15
	psrlq	$4, %xmm15
	pxor	%xmm1, %xmm15
	pand	%xmm0, %xmm15
	movdqa	%xmm15, %xmm10
	psllq	$4, %xmm10
	pxor	%xmm5, %xmm10
	movdqa	%xmm10, 112(%rsp)               # 16-byte Spill
	movdqa	(%rsp), %xmm5                   # 16-byte Reload
	movdqa	%xmm5, %xmm12
	psrlq	$4, %xmm12
	pxor	%xmm4, %xmm12
	pand	%xmm0, %xmm12
	movdqa	%xmm0, %xmm10
	movdqa	%xmm12, %xmm3
	psllq	$4, %xmm3
	pxor	%xmm5, %xmm3
	movdqa	%xmm3, (%rsp)                   # 16-byte Spill
	pxor	%xmm4, %xmm12
	pxor	%xmm1, %xmm15
	movdqa	48(%rsp), %xmm1                 # 16-byte Reload
	movdqa	%xmm1, %xmm5
	psrlq	$4, %xmm5
	pxor	%xmm14, %xmm5
	pand	%xmm0, %xmm5
	movdqa	%xmm5, %xmm6
	psllq	$4, %xmm6
	pxor	%xmm1, %xmm6
	movdqa	%xmm7, %xmm4
	psrlq	$4, %xmm4
	pxor	%xmm8, %xmm4
	pand	%xmm0, %xmm4
	movdqa	%xmm4, %xmm3
	psllq	$4, %xmm3
	pxor	%xmm7, %xmm3
	pxor	%xmm8, %xmm4
	pxor	%xmm14, %xmm5
	movdqa	16(%rsp), %xmm7                 # 16-byte Reload
	movdqa	%xmm7, %xmm8
	psrlq	$4, %xmm8
	movdqa	208(%rsp), %xmm0                # 16-byte Reload
	pxor	%xmm0, %xmm8
	pand	%xmm10, %xmm8
	movdqa	%xmm8, %xmm1
	psllq	$4, %xmm1
	pxor	%xmm7, %xmm1
	movdqa	%xmm1, 48(%rsp)                 # 16-byte Spill
	movdqa	32(%rsp), %xmm7                 # 16-byte Reload
	movdqa	%xmm7, %xmm14
	psrlq	$4, %xmm14
	pxor	%xmm9, %xmm14
	pand	%xmm10, %xmm14
	movdqa	%xmm14, %xmm10
	psllq	$4, %xmm10
	pxor	%xmm7, %xmm10
	pxor	%xmm9, %xmm14
	pxor	%xmm0, %xmm8
	movdqa	%xmm2, %xmm7
	psrlq	$2, %xmm7
	pxor	%xmm6, %xmm7
	movdqa	.Ldeerlapse_0_1_0_CPI28_16(%rip), %xmm9         # xmm9 = [3689348814741910323,3689348814741910323]
	pand	%xmm9, %xmm7
	movdqa	%xmm7, %xmm0
	psllq	$2, %xmm0
	pxor	%xmm2, %xmm0
	movdqa	%xmm0, 80(%rsp)                 # 16-byte Spill
	movdqa	64(%rsp), %xmm2                 # 16-byte Reload
	movdqa	%xmm2, %xmm1
	psrlq	$2, %xmm1
	pxor	%xmm3, %xmm1
	pand	%xmm9, %xmm1
	movdqa	%xmm1, %xmm0
	psllq	$2, %xmm0
	pxor	%xmm2, %xmm0
	movdqa	%xmm0, 128(%rsp)                # 16-byte Spill
	pxor	%xmm3, %xmm1
	movdqa	%xmm1, 16(%rsp)                 # 16-byte Spill
	pxor	%xmm6, %xmm7
	movdqa	%xmm13, %xmm0
	psrlq	$2, %xmm0
	pxor	%xmm4, %xmm0
	pand	%xmm9, %xmm0
	movdqa	%xmm0, %xmm1
	psllq	$2, %xmm1
	pxor	%xmm13, %xmm1
	movdqa	%xmm1, 144(%rsp)                # 16-byte Spill
	movdqa	%xmm11, %xmm13
	psrlq	$2, %xmm13
	pxor	%xmm5, %xmm13
	pand	%xmm9, %xmm13
	movdqa	%xmm9, %xmm3
	movdqa	%xmm13, %xmm1
	psllq	$2, %xmm1
	pxor	%xmm11, %xmm1
	movdqa	%xmm1, 32(%rsp)                 # 16-byte Spill
	pxor	%xmm4, %xmm0
	pxor	%xmm5, %xmm13
	movdqa	(%rsp), %xmm1                   # 16-byte Reload
	movdqa	%xmm1, %xmm4
	psrlq	$2, %xmm4
	movdqa	48(%rsp), %xmm9                 # 16-byte Reload
	pxor	%xmm9, %xmm4
	pand	%xmm3, %xmm4
	movdqa	%xmm4, %xmm2
	psllq	$2, %xmm2
	pxor	%xmm1, %xmm2
	movdqa	112(%rsp), %xmm1                # 16-byte Reload
	movdqa	%xmm1, %xmm5
	psrlq	$2, %xmm5
	pxor	%xmm10, %xmm5
	pand	%xmm3, %xmm5
	movdqa	%xmm3, %xmm11
	movdqa	%xmm5, %xmm6
	psllq	$2, %xmm6
	pxor	%xmm1, %xmm6
	pxor	%xmm10, %xmm5
	movdqa	%xmm5, %xmm3
	pxor	%xmm9, %xmm4
	movdqa	%xmm4, %xmm10
	movdqa	%xmm15, %xmm1
	psrlq	$2, %xmm1
	pxor	%xmm14, %xmm1
	movdqa	%xmm11, %xmm5
	pand	%xmm11, %xmm1
	movdqa	%xmm1, %xmm4
	psllq	$2, %xmm4
	pxor	%xmm15, %xmm4
	movdqa	%xmm4, %xmm15
	movdqa	80(%rsp), %xmm11                # 16-byte Reload
	movdqa	%xmm12, %xmm9
	psrlq	$2, %xmm9
	pxor	%xmm8, %xmm9
	pand	%xmm5, %xmm9
	movdqa	%xmm9, %xmm4
	psllq	$2, %xmm4
	pxor	%xmm12, %xmm4
	movdqa	128(%rsp), %xmm12               # 16-byte Reload
	pxor	%xmm14, %xmm1
	movdqa	%xmm4, %xmm14
	pxor	%xmm8, %xmm9
	movdqa	%xmm11, %xmm4
	psrlq	$1, %xmm4
	pxor	%xmm6, %xmm4
	movdqa	.Ldeerlapse_0_1_0_CPI28_17(%rip), %xmm8         # xmm8 = [6148914691236517205,6148914691236517205]
	pand	%xmm8, %xmm4
	movdqu	16(%rcx), %xmm5
	pxor	%xmm5, %xmm6
	pxor	%xmm4, %xmm6
	movdqa	%xmm6, 240(%rsp)                # 16-byte Spill
	paddq	%xmm4, %xmm4
	movdqu	(%rcx), %xmm6
	pxor	%xmm6, %xmm11
	pxor	%xmm4, %xmm11
	movdqa	%xmm11, 80(%rsp)                # 16-byte Spill
	movdqa	%xmm12, %xmm4
	pxor	%xmm6, %xmm12
	psrlq	$1, %xmm4
	pxor	%xmm2, %xmm4
	pxor	%xmm5, %xmm2
	pand	%xmm8, %xmm4
	pxor	%xmm4, %xmm2
	movdqa	%xmm2, 160(%rsp)                # 16-byte Spill
	movdqa	%xmm15, %xmm2
	paddq	%xmm4, %xmm4
	pxor	%xmm4, %xmm12
	movdqa	%xmm12, 128(%rsp)               # 16-byte Spill
	movdqa	16(%rsp), %xmm15                # 16-byte Reload
	movdqa	%xmm15, %xmm4
	psrlq	$1, %xmm4
	pxor	%xmm10, %xmm4
	pand	%xmm8, %xmm4
	movdqu	48(%rcx), %xmm5
	pxor	%xmm5, %xmm10
	pxor	%xmm4, %xmm10
	movdqa	%xmm10, 272(%rsp)               # 16-byte Spill
	paddq	%xmm4, %xmm4
	movdqu	32(%rcx), %xmm6
	pxor	%xmm6, %xmm15
	pxor	%xmm4, %xmm15
	movdqa	%xmm7, %xmm4
	pxor	%xmm6, %xmm7
	psrlq	$1, %xmm4
	pxor	%xmm3, %xmm4
	pxor	%xmm5, %xmm3
	pand	%xmm8, %xmm4
	pxor	%xmm4, %xmm3
	paddq	%xmm4, %xmm4
	pxor	%xmm4, %xmm7
	movdqa	%xmm7, (%rsp)                   # 16-byte Spill
	movdqa	144(%rsp), %xmm7                # 16-byte Reload
	movdqa	%xmm7, %xmm4
	psrlq	$1, %xmm4
	pxor	%xmm14, %xmm4
	pand	%xmm8, %xmm4
	movdqu	80(%rcx), %xmm5
	pxor	%xmm5, %xmm14
	pxor	%xmm4, %xmm14
	paddq	%xmm4, %xmm4
	movdqu	64(%rcx), %xmm6
	pxor	%xmm6, %xmm7
	pxor	%xmm4, %xmm7
	movdqa	%xmm7, 144(%rsp)                # 16-byte Spill
	movdqa	32(%rsp), %xmm7                 # 16-byte Reload
	movdqa	%xmm7, %xmm4
	pxor	%xmm6, %xmm7
	psrlq	$1, %xmm4
	pxor	%xmm2, %xmm4
	pxor	%xmm5, %xmm2
	pand	%xmm8, %xmm4
	pxor	%xmm4, %xmm2
	paddq	%xmm4, %xmm4
	pxor	%xmm4, %xmm7
	movdqa	%xmm7, 32(%rsp)                 # 16-byte Spill
	movdqa	%xmm0, %xmm4
	psrlq	$1, %xmm4
	pxor	%xmm9, %xmm4
	pand	%xmm8, %xmm4
	movdqu	112(%rcx), %xmm5
	pxor	%xmm5, %xmm9
	pxor	%xmm4, %xmm9
	paddq	%xmm4, %xmm4
	movdqu	96(%rcx), %xmm6
	pxor	%xmm6, %xmm0
	pxor	%xmm4, %xmm0
	movdqa	%xmm13, %xmm4
	pxor	%xmm6, %xmm13
	psrlq	$1, %xmm4
	pxor	%xmm1, %xmm4
	pxor	%xmm5, %xmm1
	pand	%xmm8, %xmm4
	pxor	%xmm4, %xmm1
	paddq	%xmm4, %xmm4
	pxor	%xmm4, %xmm13
	movdqa	%xmm13, %xmm11
	movq	1096(%rsp), %rax
	cmpq	$2, %rdx
	jb	.Ldeerlapse_0_1_0_BB28_1
# %bb.2:                                # %join.5.i.i.preheader
	leaq	-1(%rdx), %r10
	leaq	240(%rcx), %r11
	movdqa	%xmm1, %xmm7
	movdqa	%xmm9, 96(%rsp)                 # 16-byte Spill
	movdqa	%xmm2, %xmm8
	movdqa	%xmm14, 176(%rsp)               # 16-byte Spill
	.p2align	4
.Ldeerlapse_0_1_0_BB28_3:                               # %join.5.i.i
                                        # =>This Inner Loop Header: Depth=1
	movdqa	%xmm11, 192(%rsp)               # 16-byte Spill
	pxor	80(%rsp), %xmm11                # 16-byte Folded Reload
	movdqa	%xmm11, %xmm10
	movdqa	%xmm11, %xmm6
	pxor	%xmm8, %xmm10
	movdqa	%xmm8, %xmm11
	movdqa	240(%rsp), %xmm2                # 16-byte Reload
	movdqa	%xmm3, %xmm9
	pxor	%xmm2, %xmm9
	movdqa	%xmm10, %xmm1
	pxor	%xmm2, %xmm1
	movdqa	%xmm1, 416(%rsp)                # 16-byte Spill
	movdqa	%xmm10, %xmm1
	pxor	%xmm7, %xmm1
	movdqa	%xmm1, 208(%rsp)                # 16-byte Spill
	movdqa	%xmm7, %xmm1
	movdqa	%xmm7, 256(%rsp)                # 16-byte Spill
	pxor	%xmm2, %xmm7
	movdqa	%xmm7, 544(%rsp)                # 16-byte Spill
	movdqa	%xmm0, %xmm13
	pxor	128(%rsp), %xmm13               # 16-byte Folded Reload
	movdqa	%xmm13, %xmm8
	movdqa	176(%rsp), %xmm12               # 16-byte Reload
	pxor	%xmm12, %xmm8
	movdqa	160(%rsp), %xmm2                # 16-byte Reload
	movdqa	%xmm15, %xmm3
	movdqa	272(%rsp), %xmm15               # 16-byte Reload
	pxor	%xmm2, %xmm15
	movdqa	%xmm8, %xmm4
	pxor	%xmm2, %xmm4
	movdqa	%xmm4, 224(%rsp)                # 16-byte Spill
	movdqa	%xmm8, %xmm4
	movdqa	96(%rsp), %xmm7                 # 16-byte Reload
	pxor	%xmm7, %xmm4
	movdqa	%xmm4, 48(%rsp)                 # 16-byte Spill
	movdqa	%xmm9, %xmm4
	movdqa	%xmm7, %xmm9
	movdqa	%xmm7, %xmm5
	pxor	%xmm2, %xmm7
	movdqa	%xmm7, 96(%rsp)                 # 16-byte Spill
	movdqa	144(%rsp), %xmm14               # 16-byte Reload
	movdqa	%xmm9, %xmm2
	pxor	%xmm14, %xmm2
	movdqa	%xmm2, 528(%rsp)                # 16-byte Spill
	pxor	%xmm15, %xmm2
	movdqa	%xmm2, 400(%rsp)                # 16-byte Spill
	pxor	%xmm3, %xmm15
	pxor	%xmm15, %xmm13
	movdqa	%xmm13, 352(%rsp)               # 16-byte Spill
	pxor	%xmm15, %xmm12
	movdqa	%xmm12, %xmm13
	pxor	%xmm0, %xmm15
	movdqa	%xmm15, 272(%rsp)               # 16-byte Spill
	movdqa	32(%rsp), %xmm12                # 16-byte Reload
	pxor	%xmm12, %xmm1
	movdqa	%xmm1, %xmm0
	movdqa	%xmm1, 432(%rsp)                # 16-byte Spill
	pxor	%xmm4, %xmm0
	movdqa	%xmm0, %xmm7
	movdqa	%xmm0, 448(%rsp)                # 16-byte Spill
	movdqa	(%rsp), %xmm0                   # 16-byte Reload
	pxor	%xmm0, %xmm4
	pxor	%xmm4, %xmm6
	movdqa	%xmm6, 336(%rsp)                # 16-byte Spill
	pxor	%xmm4, %xmm11
	movdqa	%xmm11, 560(%rsp)               # 16-byte Spill
	pxor	192(%rsp), %xmm4                # 16-byte Folded Reload
	movdqa	%xmm10, 368(%rsp)               # 16-byte Spill
	movdqa	%xmm10, %xmm2
	pxor	%xmm12, %xmm2
	movdqa	%xmm2, 112(%rsp)                # 16-byte Spill
	movdqa	256(%rsp), %xmm6                # 16-byte Reload
	pxor	%xmm0, %xmm6
	pxor	%xmm0, %xmm12
	movdqa	%xmm12, 32(%rsp)                # 16-byte Spill
	movdqa	%xmm8, %xmm2
	movdqa	%xmm8, 480(%rsp)                # 16-byte Spill
	movdqa	%xmm8, %xmm0
	pxor	%xmm14, %xmm0
	movdqa	%xmm0, 16(%rsp)                 # 16-byte Spill
	pxor	%xmm3, %xmm5
	pxor	%xmm3, %xmm14
	movdqa	%xmm14, 144(%rsp)               # 16-byte Spill
	movdqa	%xmm7, %xmm0
	pxor	80(%rsp), %xmm0                 # 16-byte Folded Reload
	movdqa	%xmm0, 464(%rsp)                # 16-byte Spill
	pxor	%xmm10, %xmm0
	movdqa	%xmm0, %xmm10
	movdqa	%xmm0, %xmm7
	movdqa	%xmm0, 512(%rsp)                # 16-byte Spill
	movdqa	%xmm4, 384(%rsp)                # 16-byte Spill
	pxor	%xmm4, %xmm10
	movdqa	%xmm10, 592(%rsp)               # 16-byte Spill
	pand	%xmm12, %xmm10
	movdqa	%xmm1, %xmm0
	pand	%xmm4, %xmm0
	pxor	%xmm0, %xmm10
	pand	%xmm6, %xmm7
	movdqa	%xmm6, %xmm11
	pxor	%xmm0, %xmm7
	movdqa	400(%rsp), %xmm9                # 16-byte Reload
	movdqa	%xmm9, %xmm0
	movdqa	128(%rsp), %xmm8                # 16-byte Reload
	pxor	%xmm8, %xmm0
	movdqa	%xmm0, %xmm12
	movdqa	%xmm0, %xmm1
	movdqa	%xmm0, 608(%rsp)                # 16-byte Spill
	pxor	%xmm2, %xmm12
	movdqa	%xmm12, 496(%rsp)               # 16-byte Spill
	movdqa	%xmm12, %xmm3
	pxor	%xmm15, %xmm3
	movdqa	%xmm3, 576(%rsp)                # 16-byte Spill
	pand	%xmm14, %xmm3
	movdqa	528(%rsp), %xmm6                # 16-byte Reload
	movdqa	%xmm6, %xmm0
	pand	%xmm15, %xmm0
	pxor	%xmm0, %xmm3
	movdqa	%xmm5, 240(%rsp)                # 16-byte Spill
	pand	%xmm5, %xmm12
	pxor	%xmm0, %xmm12
	movdqa	224(%rsp), %xmm0                # 16-byte Reload
	pxor	%xmm5, %xmm0
	movdqa	%xmm0, %xmm4
	movdqa	%xmm0, 304(%rsp)                # 16-byte Spill
	pand	%xmm1, %xmm4
	movdqa	%xmm15, %xmm2
	pxor	%xmm6, %xmm2
	pxor	%xmm4, %xmm2
	movdqa	416(%rsp), %xmm6                # 16-byte Reload
	movdqa	%xmm6, %xmm5
	movdqa	%xmm11, %xmm1
	movdqa	%xmm11, 256(%rsp)               # 16-byte Spill
	pxor	%xmm11, %xmm5
	movdqa	%xmm5, 192(%rsp)                # 16-byte Spill
	movdqa	%xmm5, %xmm4
	pand	464(%rsp), %xmm4                # 16-byte Folded Reload
	movdqa	384(%rsp), %xmm11               # 16-byte Reload
	pxor	432(%rsp), %xmm11               # 16-byte Folded Reload
	pxor	%xmm4, %xmm11
	movdqa	112(%rsp), %xmm4                # 16-byte Reload
	pxor	%xmm4, %xmm5
	movdqa	%xmm5, 160(%rsp)                # 16-byte Spill
	pand	448(%rsp), %xmm5                # 16-byte Folded Reload
	pand	80(%rsp), %xmm4                 # 16-byte Folded Reload
	pxor	%xmm1, %xmm4
	pxor	512(%rsp), %xmm4                # 16-byte Folded Reload
	pxor	%xmm5, %xmm4
	pxor	%xmm5, %xmm11
	movdqa	16(%rsp), %xmm5                 # 16-byte Reload
	pxor	%xmm5, %xmm0
	movdqa	%xmm0, 320(%rsp)                # 16-byte Spill
	pand	%xmm9, %xmm0
	pand	%xmm8, %xmm5
	pxor	240(%rsp), %xmm5                # 16-byte Folded Reload
	pxor	496(%rsp), %xmm5                # 16-byte Folded Reload
	pxor	%xmm0, %xmm5
	pxor	%xmm0, %xmm2
	movdqa	96(%rsp), %xmm0                 # 16-byte Reload
	movdqa	%xmm0, %xmm14
	movdqa	%xmm13, %xmm1
	movdqa	%xmm13, 176(%rsp)               # 16-byte Spill
	pand	%xmm13, %xmm14
	movdqa	48(%rsp), %xmm8                 # 16-byte Reload
	por	352(%rsp), %xmm8                # 16-byte Folded Reload
	pxor	%xmm14, %xmm8
	movdqa	544(%rsp), %xmm13               # 16-byte Reload
	movdqa	%xmm13, %xmm14
	movdqa	560(%rsp), %xmm9                # 16-byte Reload
	pand	%xmm9, %xmm14
	movdqa	208(%rsp), %xmm15               # 16-byte Reload
	por	336(%rsp), %xmm15               # 16-byte Folded Reload
	pxor	%xmm14, %xmm15
	pxor	%xmm12, %xmm5
	pxor	%xmm12, %xmm8
	pxor	%xmm7, %xmm4
	pxor	%xmm7, %xmm15
	movdqa	224(%rsp), %xmm12               # 16-byte Reload
	pand	480(%rsp), %xmm12               # 16-byte Folded Reload
	movdqa	%xmm0, %xmm7
	por	%xmm1, %xmm7
	pxor	%xmm12, %xmm7
	pand	368(%rsp), %xmm6                # 16-byte Folded Reload
	movdqa	%xmm13, %xmm12
	por	%xmm9, %xmm12
	pxor	%xmm6, %xmm12
	pxor	%xmm3, %xmm2
	pxor	%xmm3, %xmm7
	pxor	%xmm10, %xmm11
	pxor	%xmm10, %xmm12
	movdqa	%xmm2, %xmm14
	pand	%xmm7, %xmm14
	movdqa	%xmm14, %xmm0
	pxor	%xmm5, %xmm0
	movdqa	%xmm0, %xmm13
	movdqa	%xmm2, %xmm3
	pxor	%xmm5, %xmm3
	pxor	%xmm8, %xmm14
	pand	%xmm3, %xmm14
	pxor	%xmm5, %xmm14
	pand	%xmm8, %xmm5
	movdqa	%xmm3, %xmm0
	pxor	%xmm5, %xmm0
	pand	%xmm7, %xmm0
	movdqa	%xmm0, %xmm1
	pxor	%xmm8, %xmm7
	pand	%xmm7, %xmm13
	pxor	%xmm8, %xmm13
	movdqa	%xmm11, %xmm8
	pand	%xmm12, %xmm8
	movdqa	%xmm8, %xmm0
	pxor	%xmm4, %xmm0
	movdqa	%xmm11, %xmm6
	pxor	%xmm4, %xmm6
	pxor	%xmm15, %xmm8
	pand	%xmm6, %xmm8
	pxor	%xmm4, %xmm8
	movdqa	%xmm8, %xmm10
	movdqa	%xmm8, (%rsp)                   # 16-byte Spill
	pand	%xmm15, %xmm4
	movdqa	%xmm6, %xmm8
	pxor	%xmm4, %xmm8
	pand	%xmm12, %xmm8
	movdqa	%xmm8, %xmm9
	movdqa	%xmm12, %xmm8
	pxor	%xmm15, %xmm8
	pand	%xmm8, %xmm0
	pxor	%xmm15, %xmm0
	pxor	%xmm8, %xmm9
	pxor	%xmm4, %xmm8
	pxor	%xmm7, %xmm1
	pxor	%xmm5, %xmm7
	pand	%xmm2, %xmm7
	pand	%xmm11, %xmm8
	pxor	%xmm6, %xmm8
	pxor	%xmm3, %xmm7
	movdqa	%xmm13, %xmm4
	pxor	%xmm14, %xmm4
	movdqa	%xmm1, %xmm11
	movdqa	%xmm1, %xmm6
	pxor	%xmm7, %xmm6
	movdqa	%xmm4, %xmm2
	pxor	%xmm6, %xmm2
	movdqa	%xmm2, 288(%rsp)                # 16-byte Spill
	movdqa	144(%rsp), %xmm1                # 16-byte Reload
	pand	%xmm2, %xmm1
	movdqa	528(%rsp), %xmm2                # 16-byte Reload
	pand	%xmm4, %xmm2
	pxor	%xmm2, %xmm1
	movdqa	%xmm1, 144(%rsp)                # 16-byte Spill
	movdqa	240(%rsp), %xmm1                # 16-byte Reload
	pand	%xmm6, %xmm1
	pxor	%xmm2, %xmm1
	movdqa	%xmm1, 240(%rsp)                # 16-byte Spill
	movdqa	%xmm0, %xmm3
	pxor	%xmm10, %xmm3
	movdqa	%xmm9, 64(%rsp)                 # 16-byte Spill
	movdqa	%xmm9, %xmm15
	pxor	%xmm8, %xmm15
	movdqa	%xmm3, %xmm10
	pxor	%xmm15, %xmm10
	movdqa	32(%rsp), %xmm1                 # 16-byte Reload
	pand	%xmm10, %xmm1
	movdqa	432(%rsp), %xmm2                # 16-byte Reload
	pand	%xmm3, %xmm2
	pxor	%xmm2, %xmm1
	movdqa	%xmm1, 32(%rsp)                 # 16-byte Spill
	movdqa	256(%rsp), %xmm1                # 16-byte Reload
	pand	%xmm15, %xmm1
	pxor	%xmm2, %xmm1
	movdqa	%xmm1, 256(%rsp)                # 16-byte Spill
	movdqa	%xmm0, %xmm12
	pxor	%xmm9, %xmm12
	movdqa	160(%rsp), %xmm1                # 16-byte Reload
	pand	%xmm12, %xmm1
	movdqa	%xmm1, 160(%rsp)                # 16-byte Spill
	pand	448(%rsp), %xmm12               # 16-byte Folded Reload
	movdqa	%xmm13, %xmm5
	pxor	%xmm11, %xmm5
	movdqa	%xmm11, %xmm9
	movdqa	320(%rsp), %xmm2                # 16-byte Reload
	pand	%xmm5, %xmm2
	movdqa	%xmm2, 320(%rsp)                # 16-byte Spill
	pand	400(%rsp), %xmm5                # 16-byte Folded Reload
	movdqa	112(%rsp), %xmm2                # 16-byte Reload
	pand	%xmm0, %xmm2
	movdqa	%xmm2, 112(%rsp)                # 16-byte Spill
	pand	80(%rsp), %xmm0                 # 16-byte Folded Reload
	movdqa	%xmm0, %xmm11
	movdqa	16(%rsp), %xmm2                 # 16-byte Reload
	pand	%xmm13, %xmm2
	movdqa	%xmm2, 16(%rsp)                 # 16-byte Spill
	pand	128(%rsp), %xmm13               # 16-byte Folded Reload
	movdqa	64(%rsp), %xmm0                 # 16-byte Reload
	movdqa	192(%rsp), %xmm1                # 16-byte Reload
	pand	%xmm0, %xmm1
	movdqa	%xmm1, 192(%rsp)                # 16-byte Spill
	pand	464(%rsp), %xmm0                # 16-byte Folded Reload
	movdqa	304(%rsp), %xmm1                # 16-byte Reload
	pand	%xmm9, %xmm1
	movdqa	%xmm1, 304(%rsp)                # 16-byte Spill
	pand	608(%rsp), %xmm9                # 16-byte Folded Reload
	pxor	%xmm5, %xmm13
	movdqa	%xmm13, 80(%rsp)                # 16-byte Spill
	pxor	%xmm5, %xmm9
	pxor	%xmm12, %xmm11
	movdqa	%xmm11, 128(%rsp)               # 16-byte Spill
	pxor	%xmm12, %xmm0
	movdqa	%xmm0, 64(%rsp)                 # 16-byte Spill
	movdqa	(%rsp), %xmm12                  # 16-byte Reload
	movdqa	%xmm12, %xmm5
	pxor	%xmm8, %xmm5
	movdqa	544(%rsp), %xmm2                # 16-byte Reload
	pand	%xmm5, %xmm2
	pand	560(%rsp), %xmm5                # 16-byte Folded Reload
	movdqa	%xmm14, %xmm11
	pxor	%xmm7, %xmm11
	movdqa	96(%rsp), %xmm1                 # 16-byte Reload
	pand	%xmm11, %xmm1
	movdqa	%xmm1, 96(%rsp)                 # 16-byte Spill
	pand	176(%rsp), %xmm11               # 16-byte Folded Reload
	movdqa	208(%rsp), %xmm1                # 16-byte Reload
	pand	%xmm12, %xmm1
	pand	336(%rsp), %xmm12               # 16-byte Folded Reload
	movdqa	48(%rsp), %xmm0                 # 16-byte Reload
	pand	%xmm14, %xmm0
	movdqa	%xmm0, 48(%rsp)                 # 16-byte Spill
	pand	352(%rsp), %xmm14               # 16-byte Folded Reload
	movdqa	224(%rsp), %xmm13               # 16-byte Reload
	pand	%xmm7, %xmm13
	pand	480(%rsp), %xmm7                # 16-byte Folded Reload
	movdqa	416(%rsp), %xmm0                # 16-byte Reload
	pand	%xmm8, %xmm0
	pand	368(%rsp), %xmm8                # 16-byte Folded Reload
	pxor	%xmm5, %xmm12
	movdqa	%xmm12, (%rsp)                  # 16-byte Spill
	pxor	%xmm5, %xmm8
	pxor	%xmm11, %xmm14
	movdqa	%xmm14, 224(%rsp)               # 16-byte Spill
	pxor	%xmm11, %xmm7
	pand	592(%rsp), %xmm10               # 16-byte Folded Reload
	movdqa	288(%rsp), %xmm5                # 16-byte Reload
	pand	576(%rsp), %xmm5                # 16-byte Folded Reload
	pand	384(%rsp), %xmm3                # 16-byte Folded Reload
	pand	272(%rsp), %xmm4                # 16-byte Folded Reload
	pand	512(%rsp), %xmm15               # 16-byte Folded Reload
	pand	496(%rsp), %xmm6                # 16-byte Folded Reload
	pxor	%xmm4, %xmm5
	pxor	%xmm4, %xmm6
	pxor	%xmm3, %xmm10
	pxor	%xmm3, %xmm15
	pxor	%xmm5, %xmm9
	movdqa	%xmm9, 176(%rsp)                # 16-byte Spill
	pxor	%xmm7, %xmm5
	movdqa	%xmm5, 288(%rsp)                # 16-byte Spill
	movdqa	64(%rsp), %xmm3                 # 16-byte Reload
	pxor	%xmm10, %xmm3
	movdqa	%xmm3, 64(%rsp)                 # 16-byte Spill
	pxor	%xmm8, %xmm10
	movdqa	%xmm1, %xmm7
	pxor	%xmm2, %xmm7
	pxor	%xmm2, %xmm0
	movdqa	48(%rsp), %xmm5                 # 16-byte Reload
	movdqa	96(%rsp), %xmm8                 # 16-byte Reload
	pxor	%xmm8, %xmm5
	pxor	%xmm8, %xmm13
	movdqa	80(%rsp), %xmm12                # 16-byte Reload
	pxor	%xmm6, %xmm12
	pxor	%xmm6, %xmm13
	movdqa	%xmm13, %xmm6
	movdqa	128(%rsp), %xmm11               # 16-byte Reload
	pxor	%xmm15, %xmm11
	pxor	%xmm15, %xmm0
	movdqa	192(%rsp), %xmm4                # 16-byte Reload
	pxor	160(%rsp), %xmm4                # 16-byte Folded Reload
	movdqa	32(%rsp), %xmm1                 # 16-byte Reload
	pxor	%xmm1, %xmm4
	movdqa	%xmm4, %xmm8
	movdqa	%xmm4, 192(%rsp)                # 16-byte Spill
	pxor	(%rsp), %xmm0                   # 16-byte Folded Reload
	movdqa	%xmm0, %xmm4
	pcmpeqd	%xmm0, %xmm0
	pxor	%xmm0, %xmm1
	pxor	%xmm4, %xmm1
	movdqa	304(%rsp), %xmm2                # 16-byte Reload
	movdqa	320(%rsp), %xmm14               # 16-byte Reload
	pxor	%xmm14, %xmm2
	movdqa	144(%rsp), %xmm13               # 16-byte Reload
	pxor	%xmm13, %xmm2
	movdqa	224(%rsp), %xmm15               # 16-byte Reload
	pxor	%xmm15, %xmm6
	pxor	%xmm0, %xmm13
	pxor	%xmm6, %xmm13
	movdqa	%xmm7, %xmm0
	movdqa	256(%rsp), %xmm3                # 16-byte Reload
	pxor	%xmm3, %xmm0
	movdqa	%xmm8, %xmm6
	pxor	%xmm10, %xmm6
	pxor	%xmm11, %xmm0
	movdqa	%xmm0, 208(%rsp)                # 16-byte Spill
	pxor	%xmm1, %xmm11
	pxor	%xmm10, %xmm1
	movdqa	%xmm1, 32(%rsp)                 # 16-byte Spill
	movdqa	%xmm5, %xmm4
	movdqa	240(%rsp), %xmm0                # 16-byte Reload
	pxor	%xmm0, %xmm4
	movdqa	%xmm2, %xmm9
	movdqa	%xmm2, %xmm7
	movdqa	288(%rsp), %xmm1                # 16-byte Reload
	pxor	%xmm1, %xmm9
	pxor	%xmm12, %xmm4
	movdqa	%xmm4, %xmm10
	pxor	%xmm13, %xmm12
	pxor	%xmm1, %xmm13
	movdqa	112(%rsp), %xmm5                # 16-byte Reload
	pxor	160(%rsp), %xmm5                # 16-byte Folded Reload
	movdqa	16(%rsp), %xmm8                 # 16-byte Reload
	pxor	%xmm14, %xmm8
	pxor	%xmm0, %xmm8
	pxor	%xmm3, %xmm5
	pxor	80(%rsp), %xmm15                # 16-byte Folded Reload
	movdqa	(%rsp), %xmm2                   # 16-byte Reload
	pxor	128(%rsp), %xmm2                # 16-byte Folded Reload
	movdqa	%xmm6, %xmm14
	movdqa	64(%rsp), %xmm1                 # 16-byte Reload
	pxor	%xmm1, %xmm14
	pxor	192(%rsp), %xmm1                # 16-byte Folded Reload
	movdqa	%xmm9, %xmm4
	movdqa	176(%rsp), %xmm0                # 16-byte Reload
	pxor	%xmm0, %xmm4
	pxor	%xmm7, %xmm0
	movdqa	208(%rsp), %xmm7                # 16-byte Reload
	pxor	%xmm7, %xmm5
	pxor	%xmm10, %xmm8
	pcmpeqd	%xmm3, %xmm3
	pxor	%xmm3, %xmm10
	movdqa	%xmm10, 48(%rsp)                # 16-byte Spill
	pxor	%xmm3, %xmm7
	pcmpeqd	%xmm10, %xmm10
	movdqa	%xmm7, %xmm3
	pxor	%xmm10, %xmm0
	movdqa	%xmm0, 176(%rsp)                # 16-byte Spill
	pxor	%xmm10, %xmm1
	movdqa	%xmm1, %xmm7
	pxor	%xmm9, %xmm8
	movdqa	%xmm8, 16(%rsp)                 # 16-byte Spill
	pxor	%xmm6, %xmm5
	movdqa	%xmm5, 112(%rsp)                # 16-byte Spill
	pxor	%xmm14, %xmm2
	movdqa	%xmm2, %xmm1
	movdqa	%xmm2, (%rsp)                   # 16-byte Spill
	movdqa	%xmm15, %xmm0
	pxor	%xmm4, %xmm0
	movdqa	%xmm0, 224(%rsp)                # 16-byte Spill
	movdqa	.Ldeerlapse_0_1_0_CPI28_18(%rip), %xmm2         # xmm2 = [0,5,10,15,4,9,14,3,8,13,2,7,12,1,6,11]
	movdqa	%xmm11, %xmm10
	pshufb	%xmm2, %xmm10
	movdqa	%xmm10, 128(%rsp)               # 16-byte Spill
	movdqa	%xmm12, %xmm10
	pshufb	%xmm2, %xmm10
	movdqa	%xmm10, 336(%rsp)               # 16-byte Spill
	movdqa	%xmm13, %xmm10
	pshufb	%xmm2, %xmm10
	movdqa	%xmm10, 160(%rsp)               # 16-byte Spill
	movdqa	32(%rsp), %xmm15                # 16-byte Reload
	movdqa	%xmm15, %xmm10
	pshufb	%xmm2, %xmm10
	movdqa	%xmm10, 240(%rsp)               # 16-byte Spill
	pshufb	%xmm2, %xmm5
	movdqa	%xmm5, 384(%rsp)                # 16-byte Spill
	movdqa	%xmm8, %xmm10
	pshufb	%xmm2, %xmm10
	movdqa	%xmm0, %xmm5
	pshufb	%xmm2, %xmm5
	movdqa	%xmm5, 272(%rsp)                # 16-byte Spill
	movdqa	%xmm1, %xmm0
	pshufb	%xmm2, %xmm0
	movdqa	%xmm0, 288(%rsp)                # 16-byte Spill
	movdqa	%xmm4, %xmm0
	pshufb	%xmm2, %xmm0
	movdqa	%xmm0, 320(%rsp)                # 16-byte Spill
	movdqa	%xmm14, %xmm0
	pshufb	%xmm2, %xmm0
	movdqa	%xmm0, 304(%rsp)                # 16-byte Spill
	movdqa	%xmm3, %xmm0
	pshufb	%xmm2, %xmm0
	movdqa	%xmm0, 192(%rsp)                # 16-byte Spill
	movdqa	48(%rsp), %xmm0                 # 16-byte Reload
	movdqa	%xmm0, %xmm1
	pshufb	%xmm2, %xmm1
	movdqa	%xmm1, 352(%rsp)                # 16-byte Spill
	movdqa	%xmm7, %xmm1
	pshufb	%xmm2, %xmm1
	movdqa	%xmm1, 144(%rsp)                # 16-byte Spill
	movdqa	176(%rsp), %xmm1                # 16-byte Reload
	movdqa	%xmm1, %xmm8
	pshufb	%xmm2, %xmm8
	movdqa	%xmm8, 256(%rsp)                # 16-byte Spill
	movdqa	%xmm6, %xmm5
	pshufb	%xmm2, %xmm5
	movdqa	%xmm5, 80(%rsp)                 # 16-byte Spill
	movdqa	%xmm9, %xmm5
	pshufb	%xmm2, %xmm5
	movdqa	%xmm5, 96(%rsp)                 # 16-byte Spill
	movdqa	.Ldeerlapse_0_1_0_CPI28_19(%rip), %xmm2         # xmm2 = [5,10,15,0,9,14,3,4,13,2,7,8,1,6,11,12]
	pshufb	%xmm2, %xmm11
	pshufb	%xmm2, %xmm12
	pshufb	%xmm2, %xmm13
	pshufb	%xmm2, %xmm15
	movdqa	%xmm15, 32(%rsp)                # 16-byte Spill
	movdqa	112(%rsp), %xmm8                # 16-byte Reload
	pshufb	%xmm2, %xmm8
	movdqa	%xmm8, 112(%rsp)                # 16-byte Spill
	movdqa	16(%rsp), %xmm8                 # 16-byte Reload
	pshufb	%xmm2, %xmm8
	movdqa	%xmm8, 16(%rsp)                 # 16-byte Spill
	movdqa	224(%rsp), %xmm5                # 16-byte Reload
	pshufb	%xmm2, %xmm5
	movdqa	%xmm5, 224(%rsp)                # 16-byte Spill
	movdqa	(%rsp), %xmm15                  # 16-byte Reload
	pshufb	%xmm2, %xmm15
	movdqa	%xmm15, (%rsp)                  # 16-byte Spill
	pshufb	%xmm2, %xmm4
	pshufb	%xmm2, %xmm14
	pshufb	%xmm2, %xmm3
	movdqa	%xmm3, 208(%rsp)                # 16-byte Spill
	pshufb	%xmm2, %xmm0
	movdqa	%xmm0, 48(%rsp)                 # 16-byte Spill
	pshufb	%xmm2, %xmm7
	movdqa	%xmm7, 64(%rsp)                 # 16-byte Spill
	pshufb	%xmm2, %xmm1
	movdqa	%xmm1, 176(%rsp)                # 16-byte Spill
	pshufb	%xmm2, %xmm6
	pshufb	%xmm2, %xmm9
	movdqa	336(%rsp), %xmm3                # 16-byte Reload
	pxor	%xmm12, %xmm3
	movdqa	128(%rsp), %xmm5                # 16-byte Reload
	pxor	%xmm11, %xmm5
	movdqu	-112(%r11), %xmm2
	pxor	%xmm2, %xmm11
	pxor	%xmm2, %xmm12
	movdqa	96(%rsp), %xmm8                 # 16-byte Reload
	pxor	%xmm9, %xmm8
	pshuflw	$177, %xmm3, %xmm2              # xmm2 = xmm3[1,0,3,2,4,5,6,7]
	pshufhw	$177, %xmm2, %xmm2              # xmm2 = xmm2[0,1,2,3,5,4,7,6]
	pxor	%xmm8, %xmm12
	pxor	%xmm2, %xmm12
	movdqa	%xmm12, 128(%rsp)               # 16-byte Spill
	movdqa	80(%rsp), %xmm1                 # 16-byte Reload
	pxor	%xmm6, %xmm1
	pshuflw	$177, %xmm5, %xmm2              # xmm2 = xmm5[1,0,3,2,4,5,6,7]
	pshufhw	$177, %xmm2, %xmm2              # xmm2 = xmm2[0,1,2,3,5,4,7,6]
	pxor	%xmm1, %xmm11
	movdqa	%xmm1, %xmm15
	pxor	%xmm2, %xmm11
	movdqa	%xmm11, 80(%rsp)                # 16-byte Spill
	movdqa	32(%rsp), %xmm1                 # 16-byte Reload
	movdqa	240(%rsp), %xmm7                # 16-byte Reload
	pxor	%xmm1, %xmm7
	movdqa	160(%rsp), %xmm11               # 16-byte Reload
	pxor	%xmm13, %xmm11
	movdqu	-96(%r11), %xmm2
	pxor	%xmm2, %xmm13
	pxor	%xmm2, %xmm1
	pxor	%xmm5, %xmm1
	movdqa	112(%rsp), %xmm5                # 16-byte Reload
	pxor	%xmm3, %xmm13
	movdqa	384(%rsp), %xmm3                # 16-byte Reload
	pshuflw	$177, %xmm11, %xmm2             # xmm2 = xmm11[1,0,3,2,4,5,6,7]
	pshufhw	$177, %xmm2, %xmm2              # xmm2 = xmm2[0,1,2,3,5,4,7,6]
	pxor	%xmm8, %xmm13
	movdqa	%xmm8, 96(%rsp)                 # 16-byte Spill
	movdqa	%xmm13, %xmm12
	pxor	%xmm2, %xmm12
	movdqa	%xmm12, 160(%rsp)               # 16-byte Spill
	pshuflw	$177, %xmm7, %xmm2              # xmm2 = xmm7[1,0,3,2,4,5,6,7]
	pshufhw	$177, %xmm2, %xmm2              # xmm2 = xmm2[0,1,2,3,5,4,7,6]
	pxor	%xmm15, %xmm1
	movdqa	%xmm15, %xmm0
	pxor	%xmm2, %xmm1
	movdqa	%xmm1, 240(%rsp)                # 16-byte Spill
	movdqa	16(%rsp), %xmm15                # 16-byte Reload
	pxor	%xmm15, %xmm10
	pxor	%xmm5, %xmm3
	movdqu	-80(%r11), %xmm1
	pxor	%xmm1, %xmm5
	pxor	%xmm1, %xmm15
	pxor	%xmm11, %xmm15
	pshuflw	$177, %xmm10, %xmm1             # xmm1 = xmm10[1,0,3,2,4,5,6,7]
	pshufhw	$177, %xmm1, %xmm1              # xmm1 = xmm1[0,1,2,3,5,4,7,6]
	pxor	%xmm1, %xmm15
	pxor	%xmm7, %xmm5
	pshuflw	$177, %xmm3, %xmm1              # xmm1 = xmm3[1,0,3,2,4,5,6,7]
	pshufhw	$177, %xmm1, %xmm1              # xmm1 = xmm1[0,1,2,3,5,4,7,6]
	pxor	%xmm1, %xmm5
	movdqu	-64(%r11), %xmm1
	pxor	%xmm1, %xmm10
	pxor	%xmm1, %xmm3
	movdqa	(%rsp), %xmm1                   # 16-byte Reload
	movdqa	288(%rsp), %xmm7                # 16-byte Reload
	pxor	%xmm1, %xmm7
	pxor	%xmm1, %xmm3
	movdqa	224(%rsp), %xmm1                # 16-byte Reload
	movdqa	272(%rsp), %xmm2                # 16-byte Reload
	pxor	%xmm1, %xmm2
	pxor	%xmm1, %xmm10
	pshuflw	$177, %xmm2, %xmm1              # xmm1 = xmm2[1,0,3,2,4,5,6,7]
	movdqa	%xmm2, %xmm12
	pshufhw	$177, %xmm1, %xmm1              # xmm1 = xmm1[0,1,2,3,5,4,7,6]
	pxor	%xmm8, %xmm10
	pxor	%xmm1, %xmm10
	movdqa	%xmm10, 272(%rsp)               # 16-byte Spill
	pshuflw	$177, %xmm7, %xmm1              # xmm1 = xmm7[1,0,3,2,4,5,6,7]
	pshufhw	$177, %xmm1, %xmm1              # xmm1 = xmm1[0,1,2,3,5,4,7,6]
	pxor	%xmm0, %xmm3
	movdqa	%xmm0, %xmm10
	pxor	%xmm1, %xmm3
	movdqa	304(%rsp), %xmm2                # 16-byte Reload
	pxor	%xmm14, %xmm2
	movdqa	320(%rsp), %xmm11               # 16-byte Reload
	pxor	%xmm4, %xmm11
	movdqu	-48(%r11), %xmm1
	pxor	%xmm1, %xmm4
	pxor	%xmm1, %xmm14
	pxor	%xmm7, %xmm14
	pshuflw	$177, %xmm2, %xmm1              # xmm1 = xmm2[1,0,3,2,4,5,6,7]
	movdqa	%xmm2, %xmm7
	pshufhw	$177, %xmm1, %xmm1              # xmm1 = xmm1[0,1,2,3,5,4,7,6]
	pxor	%xmm1, %xmm14
	pxor	%xmm12, %xmm4
	pshuflw	$177, %xmm11, %xmm1             # xmm1 = xmm11[1,0,3,2,4,5,6,7]
	movdqa	%xmm11, %xmm12
	pshufhw	$177, %xmm1, %xmm1              # xmm1 = xmm1[0,1,2,3,5,4,7,6]
	pxor	%xmm1, %xmm4
	movdqa	48(%rsp), %xmm2                 # 16-byte Reload
	movdqa	352(%rsp), %xmm0                # 16-byte Reload
	pxor	%xmm2, %xmm0
	movdqa	208(%rsp), %xmm8                # 16-byte Reload
	movdqa	192(%rsp), %xmm11               # 16-byte Reload
	pxor	%xmm8, %xmm11
	movdqu	-32(%r11), %xmm1
	pxor	%xmm1, %xmm8
	pxor	%xmm1, %xmm2
	pxor	%xmm12, %xmm2
	pshuflw	$177, %xmm0, %xmm1              # xmm1 = xmm0[1,0,3,2,4,5,6,7]
	pshufhw	$177, %xmm1, %xmm1              # xmm1 = xmm1[0,1,2,3,5,4,7,6]
	pxor	%xmm1, %xmm2
	pxor	%xmm7, %xmm8
	pshuflw	$177, %xmm11, %xmm1             # xmm1 = xmm11[1,0,3,2,4,5,6,7]
	pshufhw	$177, %xmm1, %xmm1              # xmm1 = xmm1[0,1,2,3,5,4,7,6]
	pxor	%xmm1, %xmm8
	movdqu	-16(%r11), %xmm1
	pxor	%xmm1, %xmm11
	pxor	%xmm1, %xmm0
	movdqa	176(%rsp), %xmm1                # 16-byte Reload
	movdqa	256(%rsp), %xmm12               # 16-byte Reload
	pxor	%xmm1, %xmm12
	pxor	%xmm1, %xmm0
	pshuflw	$177, %xmm12, %xmm1             # xmm1 = xmm12[1,0,3,2,4,5,6,7]
	movdqa	%xmm12, %xmm13
	pshufhw	$177, %xmm1, %xmm1              # xmm1 = xmm1[0,1,2,3,5,4,7,6]
	pxor	%xmm1, %xmm0
	movdqa	64(%rsp), %xmm1                 # 16-byte Reload
	movdqa	144(%rsp), %xmm12               # 16-byte Reload
	pxor	%xmm1, %xmm12
	pxor	%xmm1, %xmm11
	pshuflw	$177, %xmm12, %xmm1             # xmm1 = xmm12[1,0,3,2,4,5,6,7]
	pshufhw	$177, %xmm1, %xmm1              # xmm1 = xmm1[0,1,2,3,5,4,7,6]
	pxor	%xmm1, %xmm11
	movdqu	(%r11), %xmm1
	pxor	%xmm1, %xmm6
	pxor	%xmm1, %xmm9
	pxor	%xmm13, %xmm9
	movdqa	96(%rsp), %xmm1                 # 16-byte Reload
	pxor	%xmm1, %xmm4
	pshuflw	$177, %xmm1, %xmm1              # xmm1 = xmm1[1,0,3,2,4,5,6,7]
	pshufhw	$177, %xmm1, %xmm1              # xmm1 = xmm1[0,1,2,3,5,4,7,6]
	pxor	%xmm1, %xmm9
	pxor	%xmm12, %xmm6
	pxor	%xmm10, %xmm14
	pshuflw	$177, %xmm10, %xmm1             # xmm1 = xmm10[1,0,3,2,4,5,6,7]
	pshufhw	$177, %xmm1, %xmm1              # xmm1 = xmm1[0,1,2,3,5,4,7,6]
	pxor	%xmm1, %xmm6
	subq	$-128, %r11
	movdqa	%xmm15, 16(%rsp)                # 16-byte Spill
	movdqa	%xmm5, (%rsp)                   # 16-byte Spill
	movdqa	%xmm4, 144(%rsp)                # 16-byte Spill
	movdqa	%xmm14, 32(%rsp)                # 16-byte Spill
	movdqa	%xmm2, 48(%rsp)                 # 16-byte Spill
	movdqa	%xmm2, 176(%rsp)                # 16-byte Spill
	movdqa	%xmm8, %xmm2
	movdqa	%xmm9, 96(%rsp)                 # 16-byte Spill
	movdqa	%xmm6, %xmm7
	decq	%r10
	jne	.Ldeerlapse_0_1_0_BB28_3
	jmp	.Ldeerlapse_0_1_0_BB28_4
.Ldeerlapse_0_1_0_BB28_1:
	movdqa	%xmm1, %xmm6
	movdqa	%xmm14, 48(%rsp)                # 16-byte Spill
	movdqa	144(%rsp), %xmm4                # 16-byte Reload
	movdqa	32(%rsp), %xmm14                # 16-byte Reload
	movdqa	%xmm15, 16(%rsp)                # 16-byte Spill
	movdqa	(%rsp), %xmm5                   # 16-byte Reload
.Ldeerlapse_0_1_0_BB28_4:                               # %"aead_ciphers_wide::aes::KeyRef::encrypt_sixteen.exit"
	movdqa	80(%rsp), %xmm7                 # 16-byte Reload
	movdqa	%xmm11, 192(%rsp)               # 16-byte Spill
	pxor	%xmm11, %xmm7
	movdqa	%xmm7, 144(%rsp)                # 16-byte Spill
	movdqa	%xmm2, %xmm11
	pxor	%xmm2, %xmm7
	movdqa	240(%rsp), %xmm1                # 16-byte Reload
	pxor	%xmm1, %xmm3
	movdqa	%xmm7, %xmm2
	movdqa	%xmm7, 336(%rsp)                # 16-byte Spill
	pxor	%xmm1, %xmm2
	movdqa	%xmm2, 368(%rsp)                # 16-byte Spill
	movdqa	%xmm1, %xmm2
	movdqa	%xmm14, %xmm1
	pxor	%xmm6, %xmm1
	movdqa	%xmm1, 400(%rsp)                # 16-byte Spill
	movdqa	%xmm5, %xmm1
	pxor	%xmm6, %xmm1
	movdqa	%xmm1, 224(%rsp)                # 16-byte Spill
	movdqa	%xmm7, %xmm1
	pxor	%xmm6, %xmm1
	movdqa	%xmm1, 512(%rsp)                # 16-byte Spill
	pxor	%xmm6, %xmm2
	movdqa	%xmm2, 240(%rsp)                # 16-byte Spill
	movdqa	128(%rsp), %xmm2                # 16-byte Reload
	movdqa	%xmm2, %xmm7
	movdqa	%xmm2, %xmm13
	pxor	%xmm0, %xmm7
	movdqa	%xmm7, %xmm12
	movdqa	48(%rsp), %xmm6                 # 16-byte Reload
	pxor	%xmm6, %xmm12
	movdqa	160(%rsp), %xmm8                # 16-byte Reload
	movdqa	272(%rsp), %xmm15               # 16-byte Reload
	pxor	%xmm8, %xmm15
	movdqa	%xmm12, %xmm1
	pxor	%xmm8, %xmm1
	movdqa	%xmm1, 256(%rsp)                # 16-byte Spill
	movdqa	%xmm4, %xmm1
	pxor	%xmm9, %xmm1
	movdqa	%xmm1, 64(%rsp)                 # 16-byte Spill
	movdqa	16(%rsp), %xmm10                # 16-byte Reload
	movdqa	%xmm10, %xmm1
	pxor	%xmm9, %xmm1
	movdqa	%xmm1, 176(%rsp)                # 16-byte Spill
	movdqa	%xmm12, %xmm1
	pxor	%xmm9, %xmm1
	movdqa	%xmm1, 32(%rsp)                 # 16-byte Spill
	pxor	%xmm9, %xmm8
	movdqa	%xmm8, 160(%rsp)                # 16-byte Spill
	movdqa	%xmm15, %xmm9
	pxor	%xmm10, %xmm15
	pxor	%xmm15, %xmm7
	movdqa	%xmm7, 496(%rsp)                # 16-byte Spill
	pxor	%xmm15, %xmm6
	movdqa	%xmm6, 48(%rsp)                 # 16-byte Spill
	pxor	%xmm0, %xmm15
	movdqa	%xmm3, %xmm1
	pxor	%xmm5, %xmm3
	movdqa	144(%rsp), %xmm0                # 16-byte Reload
	pxor	%xmm3, %xmm0
	movdqa	%xmm0, 144(%rsp)                # 16-byte Spill
	pxor	%xmm3, %xmm11
	movdqa	%xmm11, 208(%rsp)               # 16-byte Spill
	pxor	192(%rsp), %xmm3                # 16-byte Folded Reload
	movdqa	%xmm3, 384(%rsp)                # 16-byte Spill
	movdqa	336(%rsp), %xmm2                # 16-byte Reload
	movdqa	%xmm2, %xmm0
	pxor	%xmm14, %xmm0
	movdqa	%xmm0, 96(%rsp)                 # 16-byte Spill
	pxor	%xmm14, %xmm5
	movdqa	%xmm5, 112(%rsp)                # 16-byte Spill
	movdqa	%xmm12, 480(%rsp)               # 16-byte Spill
	movdqa	%xmm12, %xmm0
	pxor	%xmm4, %xmm0
	movdqa	%xmm0, %xmm14
	pxor	%xmm4, %xmm10
	movdqa	%xmm10, 16(%rsp)                # 16-byte Spill
	movdqa	64(%rsp), %xmm7                 # 16-byte Reload
	pxor	%xmm7, %xmm9
	movdqa	%xmm9, 448(%rsp)                # 16-byte Spill
	movdqa	%xmm9, %xmm0
	pxor	%xmm13, %xmm0
	movdqa	%xmm13, %xmm11
	movdqa	%xmm13, 128(%rsp)               # 16-byte Spill
	movdqa	%xmm0, 464(%rsp)                # 16-byte Spill
	pxor	%xmm12, %xmm0
	movdqa	%xmm0, %xmm6
	movdqa	%xmm0, %xmm4
	movdqa	%xmm15, %xmm0
	movdqa	%xmm15, 272(%rsp)               # 16-byte Spill
	pxor	%xmm15, %xmm6
	movdqa	%xmm6, 560(%rsp)                # 16-byte Spill
	pand	%xmm10, %xmm6
	pand	%xmm7, %xmm0
	pxor	%xmm0, %xmm6
	movdqa	%xmm6, (%rsp)                   # 16-byte Spill
	movdqa	%xmm4, 544(%rsp)                # 16-byte Spill
	movdqa	%xmm4, %xmm7
	movdqa	176(%rsp), %xmm12               # 16-byte Reload
	pand	%xmm12, %xmm7
	pxor	%xmm0, %xmm7
	movdqa	400(%rsp), %xmm13               # 16-byte Reload
	movdqa	%xmm1, %xmm0
	pxor	%xmm13, %xmm0
	movdqa	%xmm0, 416(%rsp)                # 16-byte Spill
	movdqa	%xmm0, %xmm6
	movdqa	80(%rsp), %xmm1                 # 16-byte Reload
	pxor	%xmm1, %xmm6
	movdqa	%xmm6, 432(%rsp)                # 16-byte Spill
	movdqa	%xmm6, %xmm0
	pxor	%xmm2, %xmm0
	movdqa	%xmm0, %xmm15
	movdqa	%xmm0, %xmm2
	pxor	%xmm3, %xmm15
	movdqa	%xmm15, 528(%rsp)               # 16-byte Spill
	pand	%xmm5, %xmm15
	movdqa	%xmm3, %xmm0
	pand	%xmm13, %xmm0
	pxor	%xmm0, %xmm15
	movdqa	%xmm2, %xmm8
	movdqa	%xmm2, 592(%rsp)                # 16-byte Spill
	movdqa	%xmm2, %xmm9
	movdqa	224(%rsp), %xmm6                # 16-byte Reload
	pand	%xmm6, %xmm9
	pxor	%xmm0, %xmm9
	movdqa	%xmm14, %xmm0
	movdqa	%xmm14, %xmm10
	movdqa	%xmm14, 192(%rsp)               # 16-byte Spill
	pand	%xmm11, %xmm0
	movdqa	%xmm12, %xmm14
	movdqa	%xmm12, %xmm5
	pxor	%xmm4, %xmm14
	pxor	%xmm0, %xmm14
	movdqa	96(%rsp), %xmm2                 # 16-byte Reload
	movdqa	%xmm2, %xmm0
	pand	%xmm1, %xmm0
	movdqa	%xmm6, %xmm4
	pxor	%xmm8, %xmm4
	pxor	%xmm0, %xmm4
	movdqa	256(%rsp), %xmm12               # 16-byte Reload
	movdqa	%xmm12, %xmm8
	pxor	%xmm5, %xmm8
	movdqa	%xmm8, %xmm5
	movdqa	%xmm8, 288(%rsp)                # 16-byte Spill
	pand	464(%rsp), %xmm5                # 16-byte Folded Reload
	movdqa	64(%rsp), %xmm11                # 16-byte Reload
	pxor	272(%rsp), %xmm11               # 16-byte Folded Reload
	pxor	%xmm5, %xmm11
	movdqa	368(%rsp), %xmm0                # 16-byte Reload
	pxor	%xmm6, %xmm0
	movdqa	%xmm0, 320(%rsp)                # 16-byte Spill
	movdqa	%xmm0, %xmm6
	pand	432(%rsp), %xmm6                # 16-byte Folded Reload
	movdqa	%xmm13, %xmm5
	pxor	%xmm3, %xmm5
	pxor	%xmm6, %xmm5
	movdqa	%xmm0, %xmm6
	pxor	%xmm2, %xmm6
	movdqa	%xmm6, 304(%rsp)                # 16-byte Spill
	pand	416(%rsp), %xmm6                # 16-byte Folded Reload
	pxor	%xmm9, %xmm4
	pxor	%xmm6, %xmm4
	pxor	%xmm6, %xmm5
	pxor	%xmm10, %xmm8
	movdqa	%xmm8, 352(%rsp)                # 16-byte Spill
	pand	448(%rsp), %xmm8                # 16-byte Folded Reload
	pxor	%xmm7, %xmm14
	pxor	%xmm8, %xmm14
	pxor	%xmm8, %xmm11
	movdqa	48(%rsp), %xmm0                 # 16-byte Reload
	movdqa	%xmm0, %xmm8
	movdqa	160(%rsp), %xmm1                # 16-byte Reload
	pand	%xmm1, %xmm8
	movdqa	32(%rsp), %xmm6                 # 16-byte Reload
	por	496(%rsp), %xmm6                # 16-byte Folded Reload
	pxor	%xmm8, %xmm6
	movdqa	208(%rsp), %xmm2                # 16-byte Reload
	movdqa	%xmm2, %xmm10
	movdqa	240(%rsp), %xmm13               # 16-byte Reload
	pand	%xmm13, %xmm10
	movdqa	512(%rsp), %xmm8                # 16-byte Reload
	por	144(%rsp), %xmm8                # 16-byte Folded Reload
	pxor	%xmm10, %xmm8
	pxor	%xmm7, %xmm6
	pxor	%xmm9, %xmm8
	movdqa	%xmm12, %xmm7
	pand	480(%rsp), %xmm7                # 16-byte Folded Reload
	movdqa	%xmm0, %xmm12
	por	%xmm1, %xmm12
	pxor	%xmm7, %xmm12
	movdqa	368(%rsp), %xmm7                # 16-byte Reload
	pand	336(%rsp), %xmm7                # 16-byte Folded Reload
	movdqa	%xmm2, %xmm9
	por	%xmm13, %xmm9
	pxor	%xmm7, %xmm9
	movdqa	(%rsp), %xmm0                   # 16-byte Reload
	pxor	%xmm0, %xmm11
	pxor	%xmm0, %xmm12
	pxor	%xmm15, %xmm5
	pxor	%xmm15, %xmm9
	movdqa	%xmm11, %xmm10
	movdqa	%xmm11, %xmm13
	pand	%xmm12, %xmm10
	movdqa	%xmm10, %xmm3
	pxor	%xmm14, %xmm3
	movdqa	%xmm11, %xmm2
	pxor	%xmm14, %xmm2
	pxor	%xmm6, %xmm10
	pand	%xmm2, %xmm10
	pxor	%xmm14, %xmm10
	movdqa	%xmm14, %xmm11
	pand	%xmm6, %xmm11
	movdqa	%xmm2, %xmm7
	pxor	%xmm11, %xmm7
	pand	%xmm12, %xmm7
	movdqa	%xmm12, %xmm1
	pxor	%xmm6, %xmm1
	pand	%xmm1, %xmm3
	pxor	%xmm6, %xmm3
	movdqa	%xmm5, %xmm0
	pand	%xmm9, %xmm0
	movdqa	%xmm0, %xmm14
	pxor	%xmm4, %xmm14
	movdqa	%xmm5, %xmm6
	pxor	%xmm4, %xmm6
	pxor	%xmm8, %xmm0
	pand	%xmm6, %xmm0
	pxor	%xmm4, %xmm0
	movdqa	%xmm0, (%rsp)                   # 16-byte Spill
	pand	%xmm8, %xmm4
	movdqa	%xmm6, %xmm15
	pxor	%xmm4, %xmm15
	pand	%xmm9, %xmm15
	movdqa	%xmm9, %xmm0
	pxor	%xmm8, %xmm0
	pand	%xmm0, %xmm14
	pxor	%xmm8, %xmm14
	pxor	%xmm0, %xmm15
	pxor	%xmm4, %xmm0
	pxor	%xmm1, %xmm7
	pxor	%xmm11, %xmm1
	pand	%xmm13, %xmm1
	pand	%xmm5, %xmm0
	pxor	%xmm6, %xmm0
	pxor	%xmm2, %xmm1
	movdqa	%xmm3, %xmm9
	movdqa	%xmm3, %xmm13
	pxor	%xmm10, %xmm9
	movdqa	%xmm7, %xmm5
	pxor	%xmm1, %xmm5
	movdqa	%xmm9, %xmm3
	pxor	%xmm5, %xmm3
	movdqa	%xmm3, 576(%rsp)                # 16-byte Spill
	movdqa	16(%rsp), %xmm2                 # 16-byte Reload
	pand	%xmm3, %xmm2
	movdqa	64(%rsp), %xmm4                 # 16-byte Reload
	pand	%xmm9, %xmm4
	pxor	%xmm4, %xmm2
	movdqa	%xmm2, 16(%rsp)                 # 16-byte Spill
	movdqa	176(%rsp), %xmm2                # 16-byte Reload
	pand	%xmm5, %xmm2
	pxor	%xmm4, %xmm2
	movdqa	%xmm2, 176(%rsp)                # 16-byte Spill
	movdqa	%xmm14, %xmm2
	pxor	(%rsp), %xmm2                   # 16-byte Folded Reload
	movdqa	%xmm15, %xmm12
	movdqa	%xmm15, %xmm8
	pxor	%xmm0, %xmm8
	movdqa	%xmm2, %xmm15
	pxor	%xmm8, %xmm15
	movdqa	112(%rsp), %xmm4                # 16-byte Reload
	pand	%xmm15, %xmm4
	movdqa	400(%rsp), %xmm6                # 16-byte Reload
	pand	%xmm2, %xmm6
	pxor	%xmm6, %xmm4
	movdqa	%xmm4, 112(%rsp)                # 16-byte Spill
	movdqa	224(%rsp), %xmm4                # 16-byte Reload
	pand	%xmm8, %xmm4
	pxor	%xmm6, %xmm4
	movdqa	%xmm4, 224(%rsp)                # 16-byte Spill
	movdqa	%xmm14, %xmm6
	pxor	%xmm12, %xmm6
	movdqa	304(%rsp), %xmm4                # 16-byte Reload
	pand	%xmm6, %xmm4
	movdqa	%xmm4, 304(%rsp)                # 16-byte Spill
	pand	416(%rsp), %xmm6                # 16-byte Folded Reload
	movdqa	%xmm13, %xmm11
	pxor	%xmm7, %xmm11
	movdqa	352(%rsp), %xmm4                # 16-byte Reload
	pand	%xmm11, %xmm4
	movdqa	%xmm4, 352(%rsp)                # 16-byte Spill
	pand	448(%rsp), %xmm11               # 16-byte Folded Reload
	movdqa	96(%rsp), %xmm4                 # 16-byte Reload
	pand	%xmm14, %xmm4
	movdqa	%xmm4, 96(%rsp)                 # 16-byte Spill
	pand	80(%rsp), %xmm14                # 16-byte Folded Reload
	movdqa	192(%rsp), %xmm4                # 16-byte Reload
	pand	%xmm13, %xmm4
	movdqa	%xmm4, 192(%rsp)                # 16-byte Spill
	pand	128(%rsp), %xmm13               # 16-byte Folded Reload
	movdqa	320(%rsp), %xmm4                # 16-byte Reload
	pand	%xmm12, %xmm4
	movdqa	%xmm4, 320(%rsp)                # 16-byte Spill
	pand	432(%rsp), %xmm12               # 16-byte Folded Reload
	movdqa	288(%rsp), %xmm4                # 16-byte Reload
	pand	%xmm7, %xmm4
	movdqa	%xmm4, 288(%rsp)                # 16-byte Spill
	pand	464(%rsp), %xmm7                # 16-byte Folded Reload
	pxor	%xmm11, %xmm13
	movdqa	%xmm13, 128(%rsp)               # 16-byte Spill
	pxor	%xmm11, %xmm7
	movdqa	%xmm7, 64(%rsp)                 # 16-byte Spill
	pxor	%xmm6, %xmm14
	pxor	%xmm6, %xmm12
	movdqa	%xmm12, 80(%rsp)                # 16-byte Spill
	movdqa	%xmm10, %xmm6
	pxor	%xmm1, %xmm6
	movdqa	160(%rsp), %xmm4                # 16-byte Reload
	pand	%xmm6, %xmm4
	movdqa	%xmm4, 160(%rsp)                # 16-byte Spill
	pand	48(%rsp), %xmm6                 # 16-byte Folded Reload
	movdqa	(%rsp), %xmm13                  # 16-byte Reload
	movdqa	%xmm13, %xmm11
	pxor	%xmm0, %xmm11
	movdqa	240(%rsp), %xmm3                # 16-byte Reload
	pand	%xmm11, %xmm3
	pand	208(%rsp), %xmm11               # 16-byte Folded Reload
	movdqa	32(%rsp), %xmm4                 # 16-byte Reload
	pand	%xmm10, %xmm4
	pand	496(%rsp), %xmm10               # 16-byte Folded Reload
	movdqa	512(%rsp), %xmm12               # 16-byte Reload
	pand	%xmm13, %xmm12
	pand	144(%rsp), %xmm13               # 16-byte Folded Reload
	movdqa	%xmm13, %xmm7
	movdqa	256(%rsp), %xmm13               # 16-byte Reload
	pand	%xmm1, %xmm13
	movdqa	%xmm13, 256(%rsp)               # 16-byte Spill
	pand	480(%rsp), %xmm1                # 16-byte Folded Reload
	movdqa	368(%rsp), %xmm13               # 16-byte Reload
	pand	%xmm0, %xmm13
	pand	336(%rsp), %xmm0                # 16-byte Folded Reload
	pxor	%xmm11, %xmm7
	pxor	%xmm11, %xmm0
	pxor	%xmm6, %xmm10
	pxor	%xmm6, %xmm1
	pand	528(%rsp), %xmm15               # 16-byte Folded Reload
	movdqa	576(%rsp), %xmm11               # 16-byte Reload
	pand	560(%rsp), %xmm11               # 16-byte Folded Reload
	pand	384(%rsp), %xmm2                # 16-byte Folded Reload
	pand	272(%rsp), %xmm9                # 16-byte Folded Reload
	pand	592(%rsp), %xmm8                # 16-byte Folded Reload
	pand	544(%rsp), %xmm5                # 16-byte Folded Reload
	pxor	%xmm9, %xmm11
	pxor	%xmm9, %xmm5
	pxor	%xmm2, %xmm15
	pxor	%xmm2, %xmm8
	pxor	%xmm3, %xmm12
	movdqa	%xmm13, %xmm6
	pxor	%xmm3, %xmm6
	pxor	%xmm8, %xmm6
	pxor	%xmm7, %xmm6
	movdqa	%xmm6, %xmm3
	pxor	%xmm14, %xmm7
	movdqa	%xmm7, (%rsp)                   # 16-byte Spill
	movdqa	%xmm14, %xmm7
	pxor	%xmm8, %xmm7
	movdqa	160(%rsp), %xmm9                # 16-byte Reload
	pxor	%xmm9, %xmm4
	movdqa	256(%rsp), %xmm8                # 16-byte Reload
	pxor	%xmm9, %xmm8
	pxor	%xmm5, %xmm8
	pxor	%xmm10, %xmm8
	movdqa	128(%rsp), %xmm9                # 16-byte Reload
	pxor	%xmm9, %xmm10
	movdqa	%xmm10, 48(%rsp)                # 16-byte Spill
	pxor	%xmm5, %xmm9
	movdqa	%xmm11, %xmm5
	movdqa	64(%rsp), %xmm2                 # 16-byte Reload
	pxor	%xmm11, %xmm2
	movdqa	%xmm2, 64(%rsp)                 # 16-byte Spill
	pxor	%xmm1, %xmm5
	movdqa	%xmm5, %xmm13
	movdqa	80(%rsp), %xmm2                 # 16-byte Reload
	pxor	%xmm15, %xmm2
	pxor	%xmm0, %xmm15
	movdqa	288(%rsp), %xmm6                # 16-byte Reload
	movdqa	352(%rsp), %xmm14               # 16-byte Reload
	pxor	%xmm14, %xmm6
	movdqa	16(%rsp), %xmm0                 # 16-byte Reload
	pxor	%xmm0, %xmm6
	pcmpeqd	%xmm1, %xmm1
	pxor	%xmm1, %xmm0
	pxor	%xmm8, %xmm0
	movdqa	320(%rsp), %xmm8                # 16-byte Reload
	movdqa	304(%rsp), %xmm10               # 16-byte Reload
	pxor	%xmm10, %xmm8
	movdqa	112(%rsp), %xmm11               # 16-byte Reload
	pxor	%xmm11, %xmm8
	pxor	%xmm1, %xmm11
	pxor	%xmm3, %xmm11
	movdqa	176(%rsp), %xmm3                # 16-byte Reload
	pxor	%xmm3, %xmm4
	movdqa	%xmm6, %xmm5
	pxor	%xmm13, %xmm5
	pxor	%xmm9, %xmm4
	movdqa	%xmm4, 32(%rsp)                 # 16-byte Spill
	pxor	%xmm0, %xmm9
	pxor	%xmm13, %xmm0
	movdqa	%xmm0, 16(%rsp)                 # 16-byte Spill
	movdqa	%xmm12, %xmm4
	movdqa	224(%rsp), %xmm1                # 16-byte Reload
	pxor	%xmm1, %xmm4
	movdqa	%xmm8, %xmm0
	pxor	%xmm15, %xmm0
	pxor	%xmm7, %xmm4
	pxor	%xmm11, %xmm7
	pxor	%xmm15, %xmm11
	movdqa	96(%rsp), %xmm12                # 16-byte Reload
	pxor	%xmm10, %xmm12
	movdqa	192(%rsp), %xmm13               # 16-byte Reload
	pxor	%xmm14, %xmm13
	pxor	%xmm3, %xmm13
	pxor	%xmm1, %xmm12
	movdqa	%xmm0, %xmm3
	movdqa	%xmm0, %xmm14
	pxor	%xmm2, %xmm3
	pxor	%xmm8, %xmm2
	movdqa	%xmm5, %xmm10
	movdqa	64(%rsp), %xmm0                 # 16-byte Reload
	pxor	%xmm0, %xmm10
	pxor	%xmm6, %xmm0
	movdqa	%xmm0, 64(%rsp)                 # 16-byte Spill
	pxor	%xmm4, %xmm12
	movdqa	32(%rsp), %xmm1                 # 16-byte Reload
	pxor	%xmm1, %xmm13
	pxor	%xmm5, %xmm13
	pxor	%xmm14, %xmm12
	movdqa	%xmm14, %xmm8
	movdqa	(%rsp), %xmm14                  # 16-byte Reload
	pxor	%xmm3, %xmm14
	movdqa	48(%rsp), %xmm6                 # 16-byte Reload
	pxor	%xmm10, %xmm6
	movdqa	.Ldeerlapse_0_1_0_CPI28_18(%rip), %xmm0         # xmm0 = [0,5,10,15,4,9,14,3,8,13,2,7,12,1,6,11]
	pshufb	%xmm0, %xmm9
	pshufb	%xmm0, %xmm7
	pshufb	%xmm0, %xmm11
	movdqa	16(%rsp), %xmm15                # 16-byte Reload
	pshufb	%xmm0, %xmm15
	pshufb	%xmm0, %xmm12
	pshufb	%xmm0, %xmm13
	pshufb	%xmm0, %xmm6
	pshufb	%xmm0, %xmm14
	pshufb	%xmm0, %xmm3
	pshufb	%xmm0, %xmm10
	pshufb	%xmm0, %xmm1
	movdqa	%xmm1, 32(%rsp)                 # 16-byte Spill
	pshufb	%xmm0, %xmm4
	movdqa	64(%rsp), %xmm1                 # 16-byte Reload
	pshufb	%xmm0, %xmm1
	pshufb	%xmm0, %xmm2
	pshufb	%xmm0, %xmm8
	pshufb	%xmm0, %xmm5
	shlq	$7, %rdx
	movdqu	(%rcx,%rdx), %xmm0
	pxor	%xmm0, %xmm7
	pxor	%xmm0, %xmm9
	movdqu	16(%rcx,%rdx), %xmm0
	pxor	%xmm0, %xmm15
	movdqa	%xmm15, 16(%rsp)                # 16-byte Spill
	pxor	%xmm0, %xmm11
	movdqu	32(%rcx,%rdx), %xmm0
	pxor	%xmm0, %xmm13
	pxor	%xmm0, %xmm12
	movdqu	48(%rcx,%rdx), %xmm0
	pxor	%xmm0, %xmm14
	movdqa	%xmm14, (%rsp)                  # 16-byte Spill
	pxor	%xmm0, %xmm6
	movdqa	%xmm6, 48(%rsp)                 # 16-byte Spill
	movdqu	64(%rcx,%rdx), %xmm0
	pxor	%xmm0, %xmm10
	pxor	%xmm0, %xmm3
	movdqu	80(%rcx,%rdx), %xmm0
	pcmpeqd	%xmm6, %xmm6
	pxor	%xmm6, %xmm0
	pxor	%xmm0, %xmm4
	movdqa	%xmm4, %xmm14
	pxor	32(%rsp), %xmm0                 # 16-byte Folded Reload
	movdqu	96(%rcx,%rdx), %xmm4
	pxor	%xmm6, %xmm4
	pxor	%xmm4, %xmm2
	movdqa	%xmm2, 80(%rsp)                 # 16-byte Spill
	pxor	%xmm1, %xmm4
	movdqu	112(%rcx,%rdx), %xmm1
	pxor	%xmm1, %xmm5
	movdqa	%xmm5, 208(%rsp)                # 16-byte Spill
	pxor	%xmm1, %xmm8
	movdqa	%xmm8, %xmm5
	movdqa	%xmm9, %xmm15
	psrlq	$4, %xmm15
	pxor	%xmm10, %xmm15
	movdqa	.Ldeerlapse_0_1_0_CPI28_15(%rip), %xmm6         # xmm6 = [1085102592571150095,1085102592571150095]
	pand	%xmm6, %xmm15
	movdqa	%xmm15, %xmm1
	psllq	$4, %xmm1
	pxor	%xmm9, %xmm1
	movdqa	%xmm1, 112(%rsp)                # 16-byte Spill
	movdqa	%xmm7, %xmm8
	psrlq	$4, %xmm8
	pxor	%xmm3, %xmm8
	pand	%xmm6, %xmm8
	movdqa	%xmm8, %xmm9
	psllq	$4, %xmm9
	pxor	%xmm7, %xmm9
	pxor	%xmm10, %xmm15
	pxor	%xmm3, %xmm8
	movdqa	%xmm11, %xmm1
	psrlq	$4, %xmm1
	pxor	%xmm14, %xmm1
	pand	%xmm6, %xmm1
	movdqa	%xmm1, %xmm3
	psllq	$4, %xmm3
	pxor	%xmm11, %xmm3
	movdqa	%xmm3, 32(%rsp)                 # 16-byte Spill
	movdqa	16(%rsp), %xmm2                 # 16-byte Reload
	movdqa	%xmm2, %xmm11
	psrlq	$4, %xmm11
	pxor	%xmm0, %xmm11
	pand	%xmm6, %xmm11
	movdqa	%xmm11, %xmm3
	psllq	$4, %xmm3
	pxor	%xmm2, %xmm3
	movdqa	%xmm3, 64(%rsp)                 # 16-byte Spill
	pxor	%xmm14, %xmm1
	movdqa	%xmm1, 16(%rsp)                 # 16-byte Spill
	pxor	%xmm0, %xmm11
	movdqa	%xmm12, %xmm1
	psrlq	$4, %xmm1
	movdqa	80(%rsp), %xmm3                 # 16-byte Reload
	pxor	%xmm3, %xmm1
	pand	%xmm6, %xmm1
	movdqa	%xmm1, %xmm7
	psllq	$4, %xmm7
	pxor	%xmm12, %xmm7
	movdqa	%xmm13, %xmm0
	psrlq	$4, %xmm0
	pxor	%xmm4, %xmm0
	pand	%xmm6, %xmm0
	movdqa	%xmm0, %xmm2
	psllq	$4, %xmm2
	pxor	%xmm13, %xmm2
	pxor	%xmm3, %xmm1
	pxor	%xmm4, %xmm0
	movdqa	48(%rsp), %xmm3                 # 16-byte Reload
	movdqa	%xmm3, %xmm12
	psrlq	$4, %xmm12
	movdqa	(%rsp), %xmm13                  # 16-byte Reload
	movdqa	%xmm13, %xmm10
	psrlq	$4, %xmm10
	pxor	%xmm5, %xmm10
	movdqa	208(%rsp), %xmm4                # 16-byte Reload
	pxor	%xmm4, %xmm12
	pand	%xmm6, %xmm12
	pand	%xmm6, %xmm10
	movdqa	%xmm12, %xmm14
	psllq	$4, %xmm14
	pxor	%xmm3, %xmm14
	movdqa	%xmm10, %xmm6
	psllq	$4, %xmm6
	pxor	%xmm13, %xmm6
	pxor	%xmm4, %xmm12
	pxor	%xmm5, %xmm10
	movdqa	%xmm9, %xmm13
	psrlq	$2, %xmm13
	pxor	%xmm7, %xmm13
	movdqa	.Ldeerlapse_0_1_0_CPI28_16(%rip), %xmm5         # xmm5 = [3689348814741910323,3689348814741910323]
	pand	%xmm5, %xmm13
	movdqa	%xmm13, %xmm3
	psllq	$2, %xmm3
	pxor	%xmm9, %xmm3
	movdqa	%xmm3, (%rsp)                   # 16-byte Spill
	movdqa	112(%rsp), %xmm3                # 16-byte Reload
	movdqa	%xmm3, %xmm9
	psrlq	$2, %xmm9
	pxor	%xmm2, %xmm9
	pand	%xmm5, %xmm9
	movdqa	%xmm9, %xmm4
	psllq	$2, %xmm4
	pxor	%xmm3, %xmm4
	movdqa	%xmm4, 96(%rsp)                 # 16-byte Spill
	pxor	%xmm7, %xmm13
	pxor	%xmm2, %xmm9
	movdqa	%xmm8, %xmm2
	psrlq	$2, %xmm2
	pxor	%xmm1, %xmm2
	pand	%xmm5, %xmm2
	movdqa	%xmm2, %xmm3
	psllq	$2, %xmm3
	pxor	%xmm8, %xmm3
	movdqa	%xmm3, 112(%rsp)                # 16-byte Spill
	movdqa	%xmm15, %xmm3
	psrlq	$2, %xmm3
	pxor	%xmm0, %xmm3
	pand	%xmm5, %xmm3
	movdqa	%xmm5, %xmm7
	movdqa	%xmm3, %xmm8
	psllq	$2, %xmm8
	pxor	%xmm15, %xmm8
	pxor	%xmm1, %xmm2
	movdqa	%xmm2, 48(%rsp)                 # 16-byte Spill
	pxor	%xmm0, %xmm3
	movdqa	%xmm3, 208(%rsp)                # 16-byte Spill
	movdqa	64(%rsp), %xmm1                 # 16-byte Reload
	movdqa	%xmm1, %xmm0
	psrlq	$2, %xmm0
	pxor	%xmm14, %xmm0
	pand	%xmm5, %xmm0
	movdqa	%xmm0, %xmm3
	psllq	$2, %xmm3
	pxor	%xmm1, %xmm3
	movdqa	32(%rsp), %xmm4                 # 16-byte Reload
	movdqa	%xmm4, %xmm1
	psrlq	$2, %xmm1
	pxor	%xmm6, %xmm1
	pand	%xmm5, %xmm1
	movdqa	%xmm1, %xmm2
	psllq	$2, %xmm2
	pxor	%xmm4, %xmm2
	pxor	%xmm14, %xmm0
	pxor	%xmm6, %xmm1
	movdqa	%xmm11, %xmm6
	psrlq	$2, %xmm6
	movdqa	16(%rsp), %xmm4                 # 16-byte Reload
	movdqa	%xmm4, %xmm5
	psrlq	$2, %xmm5
	pxor	%xmm10, %xmm5
	pxor	%xmm12, %xmm6
	pand	%xmm7, %xmm6
	pand	%xmm7, %xmm5
	movdqa	%xmm6, %xmm14
	psllq	$2, %xmm14
	pxor	%xmm11, %xmm14
	movdqa	%xmm5, %xmm7
	psllq	$2, %xmm7
	pxor	%xmm4, %xmm7
	pxor	%xmm12, %xmm6
	pxor	%xmm10, %xmm5
	movdqa	96(%rsp), %xmm12                # 16-byte Reload
	movdqa	%xmm12, %xmm11
	psrlq	$1, %xmm11
	pxor	%xmm3, %xmm11
	movdqa	.Ldeerlapse_0_1_0_CPI28_17(%rip), %xmm15        # xmm15 = [6148914691236517205,6148914691236517205]
	pand	%xmm15, %xmm11
	movdqa	%xmm11, %xmm4
	paddq	%xmm4, %xmm4
	pxor	%xmm12, %xmm4
	movdqa	%xmm4, 16(%rsp)                 # 16-byte Spill
	movdqa	(%rsp), %xmm4                   # 16-byte Reload
	movdqa	%xmm4, %xmm10
	psrlq	$1, %xmm10
	pxor	%xmm2, %xmm10
	pand	%xmm15, %xmm10
	movdqa	%xmm10, %xmm12
	paddq	%xmm12, %xmm12
	pxor	%xmm4, %xmm12
	movdqa	%xmm12, 32(%rsp)                # 16-byte Spill
	pxor	%xmm3, %xmm11
	pxor	%xmm2, %xmm10
	movdqa	%xmm9, %xmm3
	psrlq	$1, %xmm3
	pxor	%xmm0, %xmm3
	pand	%xmm15, %xmm3
	movdqa	%xmm3, %xmm2
	paddq	%xmm2, %xmm2
	pxor	%xmm9, %xmm2
	movdqa	%xmm2, (%rsp)                   # 16-byte Spill
	movdqa	%xmm13, %xmm9
	psrlq	$1, %xmm9
	pxor	%xmm1, %xmm9
	pand	%xmm15, %xmm9
	movdqa	%xmm9, %xmm2
	paddq	%xmm2, %xmm2
	pxor	%xmm13, %xmm2
	movdqa	%xmm2, 64(%rsp)                 # 16-byte Spill
	pxor	%xmm0, %xmm3
	pxor	%xmm1, %xmm9
	movdqa	%xmm8, %xmm4
	psrlq	$1, %xmm4
	pxor	%xmm14, %xmm4
	pand	%xmm15, %xmm4
	movdqa	%xmm4, %xmm2
	paddq	%xmm2, %xmm2
	pxor	%xmm8, %xmm2
	movdqa	112(%rsp), %xmm1                # 16-byte Reload
	movdqa	%xmm1, %xmm0
	psrlq	$1, %xmm0
	pxor	%xmm7, %xmm0
	pand	%xmm15, %xmm0
	movdqa	%xmm0, %xmm12
	paddq	%xmm12, %xmm12
	pxor	%xmm1, %xmm12
	pxor	%xmm14, %xmm4
	pxor	%xmm7, %xmm0
	movdqa	208(%rsp), %xmm1                # 16-byte Reload
	movdqa	%xmm1, %xmm8
	psrlq	$1, %xmm8
	movdqa	48(%rsp), %xmm14                # 16-byte Reload
	movdqa	%xmm14, %xmm7
	psrlq	$1, %xmm7
	pxor	%xmm5, %xmm7
	pxor	%xmm6, %xmm8
	pand	%xmm15, %xmm8
	pand	%xmm15, %xmm7
	movdqa	%xmm8, %xmm13
	paddq	%xmm13, %xmm13
	pxor	%xmm1, %xmm13
	movdqa	%xmm7, %xmm1
	paddq	%xmm1, %xmm1
	pxor	%xmm14, %xmm1
	pxor	%xmm6, %xmm8
	pxor	%xmm5, %xmm7
	cmpq	$16, %rax
	jne	.Ldeerlapse_0_1_0_BB28_6
# %bb.5:                                # %join.5.i
	movups	(%r8,%r9), %xmm5
	xorps	16(%rsp), %xmm5                 # 16-byte Folded Reload
	movups	%xmm5, (%r8)
	movups	16(%r8,%r9), %xmm5
	xorps	32(%rsp), %xmm5                 # 16-byte Folded Reload
	movups	%xmm5, 16(%r8)
	movdqu	32(%r8,%r9), %xmm5
	pxor	%xmm11, %xmm5
	movdqu	%xmm5, 32(%r8)
	movdqu	48(%r8,%r9), %xmm5
	pxor	%xmm10, %xmm5
	movdqu	%xmm5, 48(%r8)
	movups	64(%r8,%r9), %xmm5
	xorps	(%rsp), %xmm5                   # 16-byte Folded Reload
	movups	%xmm5, 64(%r8)
	movups	80(%r8,%r9), %xmm5
	xorps	64(%rsp), %xmm5                 # 16-byte Folded Reload
	movups	%xmm5, 80(%r8)
	movdqu	96(%r8,%r9), %xmm5
	pxor	%xmm3, %xmm5
	movdqu	%xmm5, 96(%r8)
	movdqu	112(%r8,%r9), %xmm3
	pxor	%xmm9, %xmm3
	movdqu	%xmm3, 112(%r8)
	movdqu	128(%r8,%r9), %xmm3
	pxor	%xmm2, %xmm3
	movdqu	%xmm3, 128(%r8)
	movdqu	144(%r8,%r9), %xmm2
	pxor	%xmm12, %xmm2
	movdqu	%xmm2, 144(%r8)
	movdqu	160(%r8,%r9), %xmm2
	pxor	%xmm4, %xmm2
	movdqu	%xmm2, 160(%r8)
	movdqu	176(%r8,%r9), %xmm2
	pxor	%xmm0, %xmm2
	movdqu	%xmm2, 176(%r8)
	movdqu	192(%r8,%r9), %xmm0
	pxor	%xmm13, %xmm0
	movdqu	%xmm0, 192(%r8)
	movdqu	208(%r8,%r9), %xmm0
	pxor	%xmm1, %xmm0
	movdqu	%xmm0, 208(%r8)
	movdqu	224(%r8,%r9), %xmm0
	pxor	%xmm8, %xmm0
	movdqu	%xmm0, 224(%r8)
	movdqu	240(%r8,%r9), %xmm0
	pxor	%xmm7, %xmm0
	movdqu	%xmm0, 240(%r8)
	jmp	.Ldeerlapse_0_1_0_BB28_10
.Ldeerlapse_0_1_0_BB28_6:                               # %else.2
	pxor	%xmm5, %xmm5
	movdqu	%xmm5, 713(%rsp)
	movdqu	%xmm5, 729(%rsp)
	movdqu	%xmm5, 745(%rsp)
	movdqu	%xmm5, 761(%rsp)
	movdqu	%xmm5, 777(%rsp)
	movdqu	%xmm5, 793(%rsp)
	movdqu	%xmm5, 809(%rsp)
	movdqu	%xmm5, 825(%rsp)
	movdqu	%xmm5, 841(%rsp)
	movdqu	%xmm5, 857(%rsp)
	movq	$0, 872(%rsp)
	movaps	16(%rsp), %xmm5                 # 16-byte Reload
	movaps	%xmm5, 624(%rsp)
	movaps	32(%rsp), %xmm5                 # 16-byte Reload
	movaps	%xmm5, 640(%rsp)
	movdqa	%xmm11, 656(%rsp)
	movdqa	%xmm10, 672(%rsp)
	movaps	(%rsp), %xmm5                   # 16-byte Reload
	movaps	%xmm5, 688(%rsp)
	movdqa	64(%rsp), %xmm5                 # 16-byte Reload
	movdqa	%xmm5, 704(%rsp)
	movdqa	%xmm3, 720(%rsp)
	movdqa	%xmm9, 736(%rsp)
	movdqa	%xmm2, 752(%rsp)
	movdqa	%xmm12, 768(%rsp)
	movdqa	%xmm4, 784(%rsp)
	movdqa	%xmm0, 800(%rsp)
	movdqa	%xmm13, 816(%rsp)
	movdqa	%xmm1, 832(%rsp)
	movdqa	%xmm8, 848(%rsp)
	movdqa	%xmm7, 864(%rsp)
	addq	%r8, %r9
	movabsq	$1152921504606846974, %rdx      # imm = 0xFFFFFFFFFFFFFFE
	andq	%rax, %rdx
	xorl	%ecx, %ecx
	.p2align	4
.Ldeerlapse_0_1_0_BB28_7:                               # %join.5.i660
                                        # =>This Inner Loop Header: Depth=1
	movups	(%r9,%rcx), %xmm0
	xorps	624(%rsp,%rcx), %xmm0
	movups	%xmm0, (%r8,%rcx)
	movdqu	16(%r9,%rcx), %xmm0
	pxor	640(%rsp,%rcx), %xmm0
	movdqu	%xmm0, 16(%r8,%rcx)
	addq	$32, %rcx
	addq	$-2, %rdx
	jne	.Ldeerlapse_0_1_0_BB28_7
# %bb.8:                                # %"aead_ciphers_wide::aes::ctr32::add_keystream::<=16>.exit716.unr-lcssa"
	testb	$1, %al
	je	.Ldeerlapse_0_1_0_BB28_10
# %bb.9:                                # %join.5.i660.epil.preheader
	movdqu	(%r9,%rcx), %xmm0
	pxor	624(%rsp,%rcx), %xmm0
	movdqu	%xmm0, (%r8,%rcx)
.Ldeerlapse_0_1_0_BB28_10:                              # %join.3
	movaps	880(%rsp), %xmm6                # 16-byte Reload
	movaps	896(%rsp), %xmm7                # 16-byte Reload
	movaps	912(%rsp), %xmm8                # 16-byte Reload
	movaps	928(%rsp), %xmm9                # 16-byte Reload
	movaps	944(%rsp), %xmm10               # 16-byte Reload
	movaps	960(%rsp), %xmm11               # 16-byte Reload
	movaps	976(%rsp), %xmm12               # 16-byte Reload
	movaps	992(%rsp), %xmm13               # 16-byte Reload
	movaps	1008(%rsp), %xmm14              # 16-byte Reload
	movaps	1024(%rsp), %xmm15              # 16-byte Reload
	addq	$1048, %rsp                     # imm = 0x418
	retq
	.seh_endproc
                                        # -- End function
	.def	"deerlapse_0_1_0::deerlapse::out_of_place::deerlapse_key_open_to_sized";
	.scl	3;
	.type	32;
	.endef
	.p2align	4                               # -- Begin function deerlapse::out_of_place::deerlapse_0_1_0_key_open_to_sized
"deerlapse_0_1_0::deerlapse::out_of_place::deerlapse_key_open_to_sized": # @"deerlapse_0_1_0::deerlapse::out_of_place::deerlapse_key_open_to_sized"
.seh_proc "deerlapse_0_1_0::deerlapse::out_of_place::deerlapse_key_open_to_sized"
# %bb.0:                                # %start
	pushq	%r15
	.seh_pushreg %r15
	pushq	%r14
	.seh_pushreg %r14
	pushq	%r12
	.seh_pushreg %r12
	pushq	%rsi
	.seh_pushreg %rsi
	pushq	%rdi
	.seh_pushreg %rdi
	pushq	%rbp
	.seh_pushreg %rbp
	pushq	%rbx
	.seh_pushreg %rbx
	subq	$208, %rsp
	.seh_stackalloc 208
	.seh_endprologue
	movq	328(%rsp), %rsi
	movl	1920(%rcx), %eax
	leal	-10(%rax), %r10d
	cmpl	$5, %r10d
	setae	%r10b
	cmpq	312(%rsp), %rsi
	setne	%r11b
	orb	%r10b, %r11b
	jne	.Ldeerlapse_0_1_0_BB29_2
# %bb.1:                                # %else.7
	movabsq	$68719476704, %r12              # imm = 0xFFFFFFFE0
	movq	%r9, %r10
	shrq	$61, %r10
	sete	%r10b
	leaq	1(%r12), %r11
	cmpq	%r11, %rsi
	setb	%r11b
	testb	%r11b, %r10b
	je	.Ldeerlapse_0_1_0_BB29_2
# %bb.4:                                # %join.3.i.i
	movq	336(%rsp), %r10
	movq	304(%rsp), %rdi
	xorps	%xmm0, %xmm0
	movaps	%xmm0, 176(%rsp)
	movl	8(%rdx), %r11d
	movl	%r11d, 96(%rsp)
	movq	(%rdx), %rdx
	movq	%rdx, 88(%rsp)
	movups	(%r10), %xmm0
	movaps	%xmm0, 192(%rsp)
	leaq	1928(%rcx), %rdx
	movl	1924(%rcx), %r10d
	movq	%rcx, 104(%rsp)
	movq	%rdx, 112(%rsp)
	movq	%rax, 120(%rsp)
	movl	%r10d, 128(%rsp)
	movl	$0, 132(%rsp)
	leaq	2168(%rcx), %rax
	addq	$2680, %rcx                     # imm = 0xA78
	movq	%rax, 136(%rsp)
	movq	%rcx, 144(%rsp)
	leaq	176(%rsp), %r15
	movq	%r15, 72(%rsp)
	movq	%rsi, 64(%rsp)
	movq	%rdi, 56(%rsp)
	leaq	192(%rsp), %rax
	movq	%rax, 48(%rsp)
	movq	%r9, 40(%rsp)
	movq	%r8, 32(%rsp)
	leaq	159(%rsp), %rcx
	leaq	104(%rsp), %rdx
	leaq	136(%rsp), %r8
	leaq	88(%rsp), %r9
	callq	"deerlapse_0_1_0::aead_ciphers::aes_gcm::opening::authenticate::<#7bfdf0a6b4753edd>"
	cmpb	$0, 159(%rsp)
	sete	%al
	jne	.Ldeerlapse_0_1_0_BB29_3
# %bb.5:                                # %arm.5.i.i
	movq	320(%rsp), %rbx
	leaq	160(%rsp), %r14
	movq	%rbx, %rcx
	subq	%rdi, %rcx
	cmpq	%rsi, %rcx
	jae	.Ldeerlapse_0_1_0_BB29_23
# %bb.6:                                # %iter.check
	cmpq	$4, %rsi
	setb	%dl
	cmpq	$32, %rcx
	setb	%cl
	movl	%eax, %ebp
	orb	%dl, %cl
	je	.Ldeerlapse_0_1_0_BB29_8
# %bb.7:
	xorl	%eax, %eax
	jmp	.Ldeerlapse_0_1_0_BB29_17
.Ldeerlapse_0_1_0_BB29_2:
	xorl	%eax, %eax
.Ldeerlapse_0_1_0_BB29_3:                               # %common.ret
                                        # kill: def $al killed $al killed $eax
	addq	$208, %rsp
	popq	%rbx
	popq	%rbp
	popq	%rdi
	popq	%rsi
	popq	%r12
	popq	%r14
	popq	%r15
	retq
.Ldeerlapse_0_1_0_BB29_23:                              # %apart.2.i.i.i.i.i.i.i.i
	movl	%eax, %ebp
	movq	%rbx, %rcx
	movq	%rdi, %rdx
	movq	%rsi, %r8
	callq	memmove
	jmp	.Ldeerlapse_0_1_0_BB29_22
.Ldeerlapse_0_1_0_BB29_8:                               # %vector.main.loop.iter.check
	cmpq	$32, %rsi
	jae	.Ldeerlapse_0_1_0_BB29_10
# %bb.9:
	xorl	%eax, %eax
	jmp	.Ldeerlapse_0_1_0_BB29_14
.Ldeerlapse_0_1_0_BB29_10:                              # %vector.ph
	movq	%rsi, %rax
	andq	%r12, %rax
	xorl	%ecx, %ecx
	.p2align	4
.Ldeerlapse_0_1_0_BB29_11:                              # %vector.body
                                        # =>This Inner Loop Header: Depth=1
	movups	(%rdi,%rcx), %xmm0
	movups	16(%rdi,%rcx), %xmm1
	movups	%xmm0, (%rbx,%rcx)
	movups	%xmm1, 16(%rbx,%rcx)
	addq	$32, %rcx
	cmpq	%rcx, %rax
	jne	.Ldeerlapse_0_1_0_BB29_11
# %bb.12:                               # %middle.block
	cmpq	%rax, %rsi
	je	.Ldeerlapse_0_1_0_BB29_22
# %bb.13:                               # %vec.epilog.iter.check
	testb	$28, %sil
	je	.Ldeerlapse_0_1_0_BB29_17
.Ldeerlapse_0_1_0_BB29_14:                              # %vec.epilog.ph
	movq	%rax, %rcx
	addq	$28, %r12
	movq	%r12, %rax
	andq	%rsi, %rax
	.p2align	4
.Ldeerlapse_0_1_0_BB29_15:                              # %vec.epilog.vector.body
                                        # =>This Inner Loop Header: Depth=1
	movl	(%rdi,%rcx), %edx
	movl	%edx, (%rbx,%rcx)
	addq	$4, %rcx
	cmpq	%rcx, %rax
	jne	.Ldeerlapse_0_1_0_BB29_15
# %bb.16:                               # %vec.epilog.middle.block
	cmpq	%rax, %rsi
	je	.Ldeerlapse_0_1_0_BB29_22
.Ldeerlapse_0_1_0_BB29_17:                              # %join.7.i.i.i.i.i.i.i.i.preheader
	movq	%rsi, %rdx
	movq	%rax, %rcx
	andq	$3, %rdx
	je	.Ldeerlapse_0_1_0_BB29_20
# %bb.18:                               # %join.7.i.i.i.i.i.i.i.i.prol.preheader
	movq	%rax, %rcx
	.p2align	4
.Ldeerlapse_0_1_0_BB29_19:                              # %join.7.i.i.i.i.i.i.i.i.prol
                                        # =>This Inner Loop Header: Depth=1
	movzbl	(%rdi,%rcx), %r8d
	movb	%r8b, (%rbx,%rcx)
	incq	%rcx
	decq	%rdx
	jne	.Ldeerlapse_0_1_0_BB29_19
.Ldeerlapse_0_1_0_BB29_20:                              # %join.7.i.i.i.i.i.i.i.i.prol.loopexit
	subq	%rsi, %rax
	cmpq	$-4, %rax
	ja	.Ldeerlapse_0_1_0_BB29_22
	.p2align	4
.Ldeerlapse_0_1_0_BB29_21:                              # %join.7.i.i.i.i.i.i.i.i
                                        # =>This Inner Loop Header: Depth=1
	movzbl	(%rdi,%rcx), %eax
	movb	%al, (%rbx,%rcx)
	movzbl	1(%rdi,%rcx), %eax
	movb	%al, 1(%rbx,%rcx)
	movzbl	2(%rdi,%rcx), %eax
	movb	%al, 2(%rbx,%rcx)
	movzbl	3(%rdi,%rcx), %eax
	movb	%al, 3(%rbx,%rcx)
	addq	$4, %rcx
	cmpq	%rcx, %rsi
	jne	.Ldeerlapse_0_1_0_BB29_21
.Ldeerlapse_0_1_0_BB29_22:                              # %"core::slice::edits::slice+T::copy_from_slice::<i8,20'core::clone::U8Clone{}>.exit.i.i"
	movq	%r15, 40(%rsp)
	movq	$0, 32(%rsp)
	leaq	104(%rsp), %rcx
	movq	%r14, %rdx
	movq	%rbx, %r8
	movq	%rsi, %r9
	callq	"deerlapse_0_1_0::aead_ciphers::aes_gcm::counter_mode::encrypt_within::<#6fa349fe97f872a2>"
	movl	%ebp, %eax
	jmp	.Ldeerlapse_0_1_0_BB29_3
	.seh_endproc
                                        # -- End function
	.def	"deerlapse_0_1_0::deerlapse::key::deerlapse_key_seal";
	.scl	3;
	.type	32;
	.endef
	.p2align	4                               # -- Begin function deerlapse::key::deerlapse_0_1_0_key_seal
"deerlapse_0_1_0::deerlapse::key::deerlapse_key_seal":   # @"deerlapse_0_1_0::deerlapse::key::deerlapse_key_seal"
.seh_proc "deerlapse_0_1_0::deerlapse::key::deerlapse_key_seal"
# %bb.0:                                # %start
	pushq	%r15
	.seh_pushreg %r15
	pushq	%r14
	.seh_pushreg %r14
	pushq	%r13
	.seh_pushreg %r13
	pushq	%r12
	.seh_pushreg %r12
	pushq	%rsi
	.seh_pushreg %rsi
	pushq	%rdi
	.seh_pushreg %rdi
	pushq	%rbp
	.seh_pushreg %rbp
	pushq	%rbx
	.seh_pushreg %rbx
	subq	$696, %rsp                      # imm = 0x2B8
	.seh_stackalloc 696
	.seh_endprologue
	xorps	%xmm0, %xmm0
	movaps	%xmm0, 608(%rsp)
	movl	1920(%rcx), %eax
	movq	%rax, 48(%rsp)                  # 8-byte Spill
	addl	$-10, %eax
	cmpl	$5, %eax
	jae	.Ldeerlapse_0_1_0_BB30_1
# %bb.3:                                # %join.3
	movq	808(%rsp), %r13
	movabsq	$2305843009213693936, %r14      # imm = 0x1FFFFFFFFFFFFFF0
	movabsq	$68719476480, %r10              # imm = 0xFFFFFFF00
	movaps	%xmm0, 64(%rsp)
	movl	1924(%rcx), %r11d
	leaq	2168(%rcx), %rbx
	leaq	2680(%rcx), %rax
	movq	%rbx, 592(%rsp)
	movq	%rax, 600(%rsp)
	movaps	%xmm0, 560(%rsp)
	movaps	%xmm0, 544(%rsp)
	leaq	16(%r14), %rax
	cmpq	%rax, %r9
	setae	%al
	addq	$225, %r10
	cmpq	%r10, %r13
	setae	%r10b
	orb	%al, %r10b
	jne	.Ldeerlapse_0_1_0_BB30_1
# %bb.4:                                # %join.3.i.i
	movl	%r11d, 100(%rsp)                # 4-byte Spill
	movq	%rcx, 56(%rsp)                  # 8-byte Spill
	movq	%rdx, %rdi
	movaps	%xmm0, 144(%rsp)
	leaq	592(%rsp), %rcx
	movq	%rcx, 160(%rsp)
	movq	%r9, 168(%rsp)
	movq	%r13, 176(%rsp)
	andq	%r9, %r14
	leaq	64(%rsp), %rax
	movq	%rax, 32(%rsp)
	leaq	144(%rsp), %rdx
	movq	%r8, %rsi
	movq	%r9, %r15
	movq	%r14, %r9
	callq	"deerlapse_0_1_0::aead_ciphers_wide::gcm::KeyRefUpdateBlocks::update_blocks"
	movq	%r15, %rax
	andq	$15, %rax
	je	.Ldeerlapse_0_1_0_BB30_6
# %bb.5:                                # %then.1.i.i.i.i.i
	addq	%r14, %rsi
	movl	$16, %r8d
	subq	%rax, %r8
	leaq	(%rsp,%rax), %rcx
	addq	$272, %rcx                      # imm = 0x110
	xorl	%edx, %edx
	movq	%rax, %r14
	callq	memset
	leaq	272(%rsp), %r12
	movq	%r12, %rcx
	movq	%rsi, %rdx
	movq	%r14, %r8
	callq	memcpy
	leaq	144(%rsp), %rdx
	leaq	64(%rsp), %r9
	movq	%rbx, %rcx
	movq	%r12, %r8
	callq	"deerlapse_0_1_0::aead_ciphers_wide::gcm::KeyRefUpdateBlock::update_block"
.Ldeerlapse_0_1_0_BB30_6:                               # %"aead_ciphers::gcm::context::Context::of_fitting::<#3f2567b24793e466>.exit.i.i"
	movq	816(%rsp), %r14
	movq	800(%rsp), %rbx
	movq	56(%rsp), %rax                  # 8-byte Reload
	addq	$1928, %rax                     # imm = 0x788
	movq	%rax, 128(%rsp)                 # 8-byte Spill
	leaq	-1(%r13), %rax
	cmpq	$239, %rax
	ja	.Ldeerlapse_0_1_0_BB30_20
# %bb.7:                                # %then.8.i.i
	xorl	%eax, %eax
	movq	%r13, %r12
	andq	$15, %r12
	setne	%al
	shll	$4, %eax
	leaq	(%rax,%r13), %rbx
	addq	$16, %rbx
	movl	%ebx, %esi
	andl	$1008, %esi                     # imm = 0x3F0
	xorps	%xmm0, %xmm0
	cmpq	$64, %rsi
	ja	.Ldeerlapse_0_1_0_BB30_9
# %bb.8:                                # %then.1.i114.i.i
	movaps	%xmm0, 320(%rsp)
	movaps	%xmm0, 304(%rsp)
	movaps	%xmm0, 288(%rsp)
	movaps	%xmm0, 272(%rsp)
	leaq	288(%rsp), %r15
	movq	%r15, %rcx
	movq	800(%rsp), %rsi
	movq	%rsi, %rdx
	movq	%r13, %r8
	callq	memcpy
	movw	$0, 228(%rsp)
	movb	$0, 230(%rsp)
	movl	8(%rdi), %eax
	movl	%eax, 224(%rsp)
	movq	(%rdi), %rax
	movq	%rax, 216(%rsp)
	movq	%rax, 80(%rsp)
	movq	223(%rsp), %rax
	movq	%rax, 87(%rsp)
	movb	$1, 95(%rsp)
	shrq	$4, %rbx
	movq	%rbx, 40(%rsp)
	leaq	80(%rsp), %rax
	movq	%rax, 32(%rsp)
	leaq	272(%rsp), %r8
	movq	128(%rsp), %rcx                 # 8-byte Reload
	movq	48(%rsp), %rdx                  # 8-byte Reload
	xorl	%r9d, %r9d
	callq	"deerlapse_0_1_0::aead_ciphers_wide::aes::ctr32::encrypt_few"
	addq	%rbx, 64(%rsp)
	movq	%rsi, %rbx
	movq	%rsi, %rcx
	movq	%r15, %rdx
	movq	%r13, %r8
	callq	memcpy
	movaps	272(%rsp), %xmm0
	movaps	%xmm0, 576(%rsp)
	jmp	.Ldeerlapse_0_1_0_BB30_17
.Ldeerlapse_0_1_0_BB30_1:
	xorl	%eax, %eax
	jmp	.Ldeerlapse_0_1_0_BB30_2
.Ldeerlapse_0_1_0_BB30_20:                              # %after.4.i.i
	movb	$0, 262(%rsp)
	movw	$0, 260(%rsp)
	movq	(%rdi), %rax
	movq	%rax, 248(%rsp)
	movl	8(%rdi), %ecx
	movl	%ecx, 256(%rsp)
	movq	%rax, 104(%rsp)
	movq	255(%rsp), %rax
	movq	%rax, 111(%rsp)
	movb	$1, 119(%rsp)
	movq	104(%rsp), %rax
	movq	%rax, 192(%rsp)
	movl	112(%rsp), %eax
	movl	%eax, 200(%rsp)
	movzwl	116(%rsp), %eax
	movw	%ax, 204(%rsp)
	movzbl	118(%rsp), %eax
	movb	%al, 206(%rsp)
	movzbl	119(%rsp), %eax
	movb	%al, 207(%rsp)
	movl	116(%rsp), %edi
	bswapl	%edi
	incl	%edi
	bswapl	%edi
	movl	%edi, 116(%rsp)
	movq	%r13, %rcx
	movabsq	$68719476480, %rax              # imm = 0xFFFFFFF00
	andq	%rax, %rcx
	movq	%r13, %rax
	andq	$15, %rax
	movq	%rax, 120(%rsp)                 # 8-byte Spill
	cmoveq	%r13, %rcx
	testq	%rcx, %rcx
	je	.Ldeerlapse_0_1_0_BB30_34
# %bb.21:                               # %join.17.lr.ph.i.i
	xorl	%r14d, %r14d
	cmpl	$256, 100(%rsp)                 # 4-byte Folded Reload
                                        # imm = 0x100
	sete	%r14b
	shll	$7, %r14d
	subq	$-128, %r14
	xorl	%edx, %edx
	movq	%rcx, 264(%rsp)                 # 8-byte Spill
	jmp	.Ldeerlapse_0_1_0_BB30_22
	.p2align	4
.Ldeerlapse_0_1_0_BB30_33:                              # %"aead_ciphers::gcm::context::Context::absorb::<#3f2567b24793e466>.exit142.i.i"
                                        #   in Loop: Header=BB30_22 Depth=1
	movq	136(%rsp), %rdx                 # 8-byte Reload
	addq	%rsi, %rdx
	movq	264(%rsp), %rcx                 # 8-byte Reload
	cmpq	%rcx, %rdx
	jae	.Ldeerlapse_0_1_0_BB30_34
.Ldeerlapse_0_1_0_BB30_22:                              # %join.17.i.i
                                        # =>This Loop Header: Depth=1
                                        #     Child Loop BB30_24 Depth 2
	movq	%rcx, %rax
	subq	%rdx, %rax
	cmpq	$3072, %rax                     # imm = 0xC00
	movl	$3072, %esi                     # imm = 0xC00
	cmovbq	%rax, %rsi
	leaq	(%rbx,%rdx), %r13
	movq	%rdx, 136(%rsp)                 # 8-byte Spill
	cmpq	%rdx, %rcx
	je	.Ldeerlapse_0_1_0_BB30_31
# %bb.23:                               # %join.8.i.preheader.i.i
                                        #   in Loop: Header=BB30_22 Depth=1
	bswapl	%edi
	movq	64(%rsp), %r15
	xorl	%r12d, %r12d
	movl	%edi, %ebp
	jmp	.Ldeerlapse_0_1_0_BB30_24
	.p2align	4
.Ldeerlapse_0_1_0_BB30_25:                              # %then.1.i.i.i
                                        #   in Loop: Header=BB30_24 Depth=2
	movq	%rbx, 40(%rsp)
	movq	%rax, 32(%rsp)
	movq	56(%rsp), %rax                  # 8-byte Reload
	leaq	1928(%rax), %rcx
	movq	48(%rsp), %rdx                  # 8-byte Reload
	xorl	%r9d, %r9d
	callq	"deerlapse_0_1_0::aead_ciphers_wide::aes::ctr32::encrypt_few"
.Ldeerlapse_0_1_0_BB30_29:                              # %"aead_ciphers_wide::aes::ctr32::encrypt_batch.exit.i.i"
                                        #   in Loop: Header=BB30_24 Depth=2
	addq	%rdi, %r12
	addl	%ebx, %ebp
	movl	%ebp, %edi
	bswapl	%edi
	movl	%edi, 116(%rsp)
	addq	%rbx, %r15
	cmpq	%rsi, %r12
	jae	.Ldeerlapse_0_1_0_BB30_30
.Ldeerlapse_0_1_0_BB30_24:                              # %join.8.i.i.i
                                        #   Parent Loop BB30_22 Depth=1
                                        # =>  This Inner Loop Header: Depth=2
	movq	%rsi, %rcx
	subq	%r12, %rcx
	cmpq	%r14, %rcx
	movq	%r14, %rdi
	cmovbq	%rcx, %rdi
	leaq	(%r12,%r13), %r8
	movl	%edi, %ebx
	shrl	$4, %ebx
	leaq	104(%rsp), %rax
	cmpq	$79, %rcx
	jbe	.Ldeerlapse_0_1_0_BB30_25
# %bb.26:                               # %else.2.i.i.i
                                        #   in Loop: Header=BB30_24 Depth=2
	cmpq	$143, %rdi
	ja	.Ldeerlapse_0_1_0_BB30_28
# %bb.27:                               # %then.4.i.i.i
                                        #   in Loop: Header=BB30_24 Depth=2
	movq	%rbx, 40(%rsp)
	movq	%rax, 32(%rsp)
	movq	56(%rsp), %rcx                  # 8-byte Reload
	movq	48(%rsp), %rdx                  # 8-byte Reload
	xorl	%r9d, %r9d
	callq	"deerlapse_0_1_0::aead_ciphers_wide::aes::ctr32::encrypt_up_to_eight"
	jmp	.Ldeerlapse_0_1_0_BB30_29
	.p2align	4
.Ldeerlapse_0_1_0_BB30_28:                              # %else.5.i.i.i
                                        #   in Loop: Header=BB30_24 Depth=2
	movq	%rbx, 40(%rsp)
	movq	%rax, 32(%rsp)
	movq	56(%rsp), %rcx                  # 8-byte Reload
	movq	48(%rsp), %rdx                  # 8-byte Reload
	xorl	%r9d, %r9d
	callq	"deerlapse_0_1_0::aead_ciphers_wide::aes::ctr32::encrypt_up_to_sixteen"
	jmp	.Ldeerlapse_0_1_0_BB30_29
	.p2align	4
.Ldeerlapse_0_1_0_BB30_30:                              # %"aead_ciphers_wide::aes::ctr32::KeyRefEncryptCtr32::ctr32_encrypt_within.exit.i.i.loopexit"
                                        #   in Loop: Header=BB30_22 Depth=1
	movq	%r15, 64(%rsp)
	movq	800(%rsp), %rbx
.Ldeerlapse_0_1_0_BB30_31:                              # %"aead_ciphers_wide::aes::ctr32::KeyRefEncryptCtr32::ctr32_encrypt_within.exit.i.i"
                                        #   in Loop: Header=BB30_22 Depth=1
	movq	160(%rsp), %rbp
	movl	%esi, %r15d
	andl	$4080, %r15d                    # imm = 0xFF0
	leaq	64(%rsp), %rax
	movq	%rax, 32(%rsp)
	leaq	144(%rsp), %rdx
	movq	%rbp, %rcx
	movq	%r13, %r8
	movq	%r15, %r9
	callq	"deerlapse_0_1_0::aead_ciphers_wide::gcm::KeyRefUpdateBlocks::update_blocks"
	movq	%rsi, %r12
	andq	$15, %r12
	je	.Ldeerlapse_0_1_0_BB30_33
# %bb.32:                               # %then.1.i.i139.i.i
                                        #   in Loop: Header=BB30_22 Depth=1
	addq	%r15, %r13
	movl	$16, %r8d
	subq	%r12, %r8
	leaq	(%rsp,%r12), %rcx
	addq	$272, %rcx                      # imm = 0x110
	xorl	%edx, %edx
	callq	memset
	leaq	272(%rsp), %rcx
	movq	%r13, %rdx
	movq	%r12, %r8
	callq	memcpy
	movups	272(%rsp), %xmm0
	movaps	%xmm0, 80(%rsp)
	movq	(%rbp), %rcx
	leaq	144(%rsp), %rdx
	leaq	80(%rsp), %r8
	leaq	64(%rsp), %r9
	callq	"deerlapse_0_1_0::aead_ciphers_wide::gcm::KeyRefUpdateBlock::update_block"
	jmp	.Ldeerlapse_0_1_0_BB30_33
.Ldeerlapse_0_1_0_BB30_34:                              # %after.13.i.i
	movq	808(%rsp), %rbx
	subq	%rcx, %rbx
	movq	816(%rsp), %r14
	jbe	.Ldeerlapse_0_1_0_BB30_49
# %bb.35:                               # %then.18.i.i
	xorl	%edi, %edi
	cmpq	$0, 120(%rsp)                   # 8-byte Folded Reload
	setne	%dil
	movq	800(%rsp), %rdx
	addq	%rcx, %rdx
	shll	$4, %edi
	addq	%rbx, %rdi
	movabsq	$137438953456, %rsi             # imm = 0x1FFFFFFFF0
	andq	%rdi, %rsi
	cmpq	$64, %rsi
	movq	%rdx, %rbp
	xorps	%xmm0, %xmm0
	ja	.Ldeerlapse_0_1_0_BB30_39
# %bb.36:                               # %then.1.i37.i.i
	movaps	%xmm0, 320(%rsp)
	movaps	%xmm0, 304(%rsp)
	movaps	%xmm0, 288(%rsp)
	movaps	%xmm0, 272(%rsp)
	leaq	272(%rsp), %rcx
	movq	%rbx, %r8
	callq	memcpy
	testq	%rsi, %rsi
	je	.Ldeerlapse_0_1_0_BB30_38
# %bb.37:                               # %join.8.i.i.lr.ph.i.i
	shrq	$4, %rdi
	movq	%rdi, 40(%rsp)
	leaq	104(%rsp), %rax
	movq	%rax, 32(%rsp)
	leaq	272(%rsp), %r8
	movq	128(%rsp), %rcx                 # 8-byte Reload
	movq	48(%rsp), %rdx                  # 8-byte Reload
	xorl	%r9d, %r9d
	callq	"deerlapse_0_1_0::aead_ciphers_wide::aes::ctr32::encrypt_few"
	addq	%rdi, 64(%rsp)
.Ldeerlapse_0_1_0_BB30_38:                              # %"aead_ciphers::aes_gcm::counter_mode::encrypt_padded::<#6fa349fe97f872a2>.exit.i.i"
	leaq	272(%rsp), %rdx
	movq	%rbp, %rsi
	movq	%rbp, %rcx
	movq	%rbx, %r8
	callq	memcpy
	jmp	.Ldeerlapse_0_1_0_BB30_47
.Ldeerlapse_0_1_0_BB30_9:                               # %else.2.i113.i.i
	movaps	%xmm0, 512(%rsp)
	movaps	%xmm0, 496(%rsp)
	movaps	%xmm0, 480(%rsp)
	movaps	%xmm0, 464(%rsp)
	movaps	%xmm0, 448(%rsp)
	movaps	%xmm0, 432(%rsp)
	movaps	%xmm0, 416(%rsp)
	movaps	%xmm0, 400(%rsp)
	movaps	%xmm0, 384(%rsp)
	movaps	%xmm0, 368(%rsp)
	movaps	%xmm0, 352(%rsp)
	movaps	%xmm0, 336(%rsp)
	movaps	%xmm0, 320(%rsp)
	movaps	%xmm0, 304(%rsp)
	movaps	%xmm0, 288(%rsp)
	movaps	%xmm0, 272(%rsp)
	leaq	288(%rsp), %rcx
	movq	800(%rsp), %rdx
	movq	%r13, %r8
	callq	memcpy
	movw	$0, 244(%rsp)
	movb	$0, 246(%rsp)
	movl	8(%rdi), %eax
	movl	%eax, 240(%rsp)
	movq	(%rdi), %rax
	movq	%rax, 232(%rsp)
	movq	239(%rsp), %rcx
	movq	%rcx, 87(%rsp)
	movq	%rax, 80(%rsp)
	movb	$1, 95(%rsp)
	xorl	%r13d, %r13d
	cmpl	$256, 100(%rsp)                 # 4-byte Folded Reload
                                        # imm = 0x100
	sete	%r13b
	shll	$7, %r13d
	subq	$-128, %r13
	movl	92(%rsp), %ebx
	bswapl	%ebx
	xorl	%r14d, %r14d
	movq	64(%rsp), %r15
	jmp	.Ldeerlapse_0_1_0_BB30_10
	.p2align	4
.Ldeerlapse_0_1_0_BB30_11:                              # %then.1.i.i43.i.i.i
                                        #   in Loop: Header=BB30_10 Depth=1
	movq	%rbp, 40(%rsp)
	leaq	80(%rsp), %rax
	movq	%rax, 32(%rsp)
	movq	56(%rsp), %rax                  # 8-byte Reload
	leaq	1928(%rax), %rcx
	movq	48(%rsp), %rdx                  # 8-byte Reload
	xorl	%r9d, %r9d
	callq	"deerlapse_0_1_0::aead_ciphers_wide::aes::ctr32::encrypt_few"
.Ldeerlapse_0_1_0_BB30_15:                              # %"aead_ciphers_wide::aes::ctr32::encrypt_batch.exit.i40.i.i.i"
                                        #   in Loop: Header=BB30_10 Depth=1
	addq	%rdi, %r14
	addl	%ebp, %ebx
	movl	%ebx, %eax
	bswapl	%eax
	movl	%eax, 92(%rsp)
	addq	%rbp, %r15
	cmpq	%rsi, %r14
	jae	.Ldeerlapse_0_1_0_BB30_16
.Ldeerlapse_0_1_0_BB30_10:                              # %join.8.i.i27.i.i.i
                                        # =>This Inner Loop Header: Depth=1
	movq	%rsi, %rax
	subq	%r14, %rax
	cmpq	%r13, %rax
	movq	%r13, %rdi
	cmovbq	%rax, %rdi
	leaq	(%rsp,%r14), %r8
	addq	$272, %r8                       # imm = 0x110
	movl	%edi, %ebp
	shrl	$4, %ebp
	cmpq	$79, %rax
	jbe	.Ldeerlapse_0_1_0_BB30_11
# %bb.12:                               # %else.2.i.i37.i.i.i
                                        #   in Loop: Header=BB30_10 Depth=1
	cmpl	$143, %edi
	ja	.Ldeerlapse_0_1_0_BB30_14
# %bb.13:                               # %then.4.i.i42.i.i.i
                                        #   in Loop: Header=BB30_10 Depth=1
	movq	%rbp, 40(%rsp)
	leaq	80(%rsp), %rax
	movq	%rax, 32(%rsp)
	movq	56(%rsp), %rcx                  # 8-byte Reload
	movq	48(%rsp), %rdx                  # 8-byte Reload
	xorl	%r9d, %r9d
	callq	"deerlapse_0_1_0::aead_ciphers_wide::aes::ctr32::encrypt_up_to_eight"
	jmp	.Ldeerlapse_0_1_0_BB30_15
	.p2align	4
.Ldeerlapse_0_1_0_BB30_14:                              # %else.5.i.i39.i.i.i
                                        #   in Loop: Header=BB30_10 Depth=1
	movq	%rbp, 40(%rsp)
	leaq	80(%rsp), %rax
	movq	%rax, 32(%rsp)
	movq	56(%rsp), %rcx                  # 8-byte Reload
	movq	48(%rsp), %rdx                  # 8-byte Reload
	xorl	%r9d, %r9d
	callq	"deerlapse_0_1_0::aead_ciphers_wide::aes::ctr32::encrypt_up_to_sixteen"
	jmp	.Ldeerlapse_0_1_0_BB30_15
.Ldeerlapse_0_1_0_BB30_16:                              # %"aead_ciphers::aes_gcm::sealing::encrypt_after_zeros::<#6fa349fe97f872a2>.exit48.i.i.i"
	movq	%r15, 64(%rsp)
	movq	800(%rsp), %rbx
	movq	%rbx, %rcx
	leaq	288(%rsp), %rdx
	movq	808(%rsp), %r13
	movq	%r13, %r8
	callq	memcpy
	movaps	272(%rsp), %xmm0
	movaps	%xmm0, 576(%rsp)
	movq	816(%rsp), %r14
.Ldeerlapse_0_1_0_BB30_17:                              # %"aead_ciphers::aes_gcm::sealing::encrypt_short::<#6fa349fe97f872a2>.exit.i.i"
	movaps	576(%rsp), %xmm0
	movaps	%xmm0, 624(%rsp)
	movq	160(%rsp), %rdi
	andl	$240, %r13d
	leaq	64(%rsp), %rax
	movq	%rax, 32(%rsp)
	leaq	144(%rsp), %rdx
	movq	%rdi, %rcx
	movq	%rbx, %r8
	movq	%r13, %r9
	callq	"deerlapse_0_1_0::aead_ciphers_wide::gcm::KeyRefUpdateBlocks::update_blocks"
	testq	%r12, %r12
	je	.Ldeerlapse_0_1_0_BB30_19
# %bb.18:                               # %then.1.i.i121.i.i
	addq	%r13, %rbx
	movl	$16, %r8d
	subq	%r12, %r8
	leaq	(%rsp,%r12), %rcx
	addq	$664, %rcx                      # imm = 0x298
	xorl	%edx, %edx
	callq	memset
	leaq	664(%rsp), %rsi
	movq	%rsi, %rcx
	movq	%rbx, %rdx
	movq	%r12, %r8
	callq	memcpy
	movq	(%rdi), %rcx
	leaq	144(%rsp), %rdx
	leaq	64(%rsp), %r9
	movq	%rsi, %r8
	callq	"deerlapse_0_1_0::aead_ciphers_wide::gcm::KeyRefUpdateBlock::update_block"
.Ldeerlapse_0_1_0_BB30_19:                              # %"aead_ciphers::gcm::context::Context::absorb::<#3f2567b24793e466>.exit.i.i"
	leaq	560(%rsp), %rcx
	leaq	144(%rsp), %rdx
	leaq	624(%rsp), %r8
	leaq	64(%rsp), %r9
	callq	"deerlapse_0_1_0::aead_ciphers::aes_gcm::hash::finish::<#0f83097016d41fe1>"
	movaps	560(%rsp), %xmm0
	jmp	.Ldeerlapse_0_1_0_BB30_50
.Ldeerlapse_0_1_0_BB30_39:                              # %else.2.i36.i.i
	movaps	%xmm0, 512(%rsp)
	movaps	%xmm0, 496(%rsp)
	movaps	%xmm0, 480(%rsp)
	movaps	%xmm0, 464(%rsp)
	movaps	%xmm0, 448(%rsp)
	movaps	%xmm0, 432(%rsp)
	movaps	%xmm0, 416(%rsp)
	movaps	%xmm0, 400(%rsp)
	movaps	%xmm0, 384(%rsp)
	movaps	%xmm0, 368(%rsp)
	movaps	%xmm0, 352(%rsp)
	movaps	%xmm0, 336(%rsp)
	movaps	%xmm0, 320(%rsp)
	movaps	%xmm0, 304(%rsp)
	movaps	%xmm0, 288(%rsp)
	movaps	%xmm0, 272(%rsp)
	movups	104(%rsp), %xmm0
	movaps	%xmm0, 80(%rsp)
	leaq	272(%rsp), %rcx
	movq	%rbx, 136(%rsp)                 # 8-byte Spill
	movq	%rbx, %r8
	callq	memcpy
	xorl	%edi, %edi
	cmpl	$256, 100(%rsp)                 # 4-byte Folded Reload
                                        # imm = 0x100
	sete	%dil
	shll	$7, %edi
	subq	$-128, %rdi
	movl	92(%rsp), %ebx
	bswapl	%ebx
	xorl	%r14d, %r14d
	movq	64(%rsp), %r15
	jmp	.Ldeerlapse_0_1_0_BB30_40
	.p2align	4
.Ldeerlapse_0_1_0_BB30_41:                              # %then.1.i.i75.i.i
                                        #   in Loop: Header=BB30_40 Depth=1
	movq	%r12, 40(%rsp)
	leaq	80(%rsp), %rax
	movq	%rax, 32(%rsp)
	movq	56(%rsp), %rax                  # 8-byte Reload
	leaq	1928(%rax), %rcx
	movq	48(%rsp), %rdx                  # 8-byte Reload
	xorl	%r9d, %r9d
	callq	"deerlapse_0_1_0::aead_ciphers_wide::aes::ctr32::encrypt_few"
.Ldeerlapse_0_1_0_BB30_45:                              # %"aead_ciphers_wide::aes::ctr32::encrypt_batch.exit.i72.i.i"
                                        #   in Loop: Header=BB30_40 Depth=1
	addq	%r13, %r14
	addl	%r12d, %ebx
	movl	%ebx, %eax
	bswapl	%eax
	movl	%eax, 92(%rsp)
	addq	%r12, %r15
	cmpq	%rsi, %r14
	jae	.Ldeerlapse_0_1_0_BB30_46
.Ldeerlapse_0_1_0_BB30_40:                              # %join.8.i.i59.i.i
                                        # =>This Inner Loop Header: Depth=1
	movq	%rsi, %rax
	subq	%r14, %rax
	cmpq	%rdi, %rax
	movq	%rdi, %r13
	cmovbq	%rax, %r13
	leaq	(%rsp,%r14), %r8
	addq	$272, %r8                       # imm = 0x110
	movl	%r13d, %r12d
	shrl	$4, %r12d
	cmpq	$79, %rax
	jbe	.Ldeerlapse_0_1_0_BB30_41
# %bb.42:                               # %else.2.i.i69.i.i
                                        #   in Loop: Header=BB30_40 Depth=1
	cmpq	$143, %r13
	ja	.Ldeerlapse_0_1_0_BB30_44
# %bb.43:                               # %then.4.i.i74.i.i
                                        #   in Loop: Header=BB30_40 Depth=1
	movq	%r12, 40(%rsp)
	leaq	80(%rsp), %rax
	movq	%rax, 32(%rsp)
	movq	56(%rsp), %rcx                  # 8-byte Reload
	movq	48(%rsp), %rdx                  # 8-byte Reload
	xorl	%r9d, %r9d
	callq	"deerlapse_0_1_0::aead_ciphers_wide::aes::ctr32::encrypt_up_to_eight"
	jmp	.Ldeerlapse_0_1_0_BB30_45
	.p2align	4
.Ldeerlapse_0_1_0_BB30_44:                              # %else.5.i.i71.i.i
                                        #   in Loop: Header=BB30_40 Depth=1
	movq	%r12, 40(%rsp)
	leaq	80(%rsp), %rax
	movq	%rax, 32(%rsp)
	movq	56(%rsp), %rcx                  # 8-byte Reload
	movq	48(%rsp), %rdx                  # 8-byte Reload
	xorl	%r9d, %r9d
	callq	"deerlapse_0_1_0::aead_ciphers_wide::aes::ctr32::encrypt_up_to_sixteen"
	jmp	.Ldeerlapse_0_1_0_BB30_45
.Ldeerlapse_0_1_0_BB30_46:                              # %"aead_ciphers::aes_gcm::counter_mode::encrypt_padded::<#6fa349fe97f872a2>.exit80.i.i"
	movq	%r15, 64(%rsp)
	leaq	272(%rsp), %rdx
	movq	%rbp, %rsi
	movq	%rbp, %rcx
	movq	136(%rsp), %rbx                 # 8-byte Reload
	movq	%rbx, %r8
	callq	memcpy
	movq	816(%rsp), %r14
.Ldeerlapse_0_1_0_BB30_47:                              # %"aead_ciphers::aes_gcm::counter_mode::encrypt_rest::<#6fa349fe97f872a2>.exit.i.i"
	movq	160(%rsp), %r15
	movabsq	$68719476480, %rax              # imm = 0xFFFFFFF00
	addq	$240, %rax
	andq	%rax, %rbx
	leaq	64(%rsp), %rax
	movq	%rax, 32(%rsp)
	leaq	144(%rsp), %rdx
	movq	%r15, %rcx
	movq	%rsi, %r8
	movq	%rbx, %r9
	callq	"deerlapse_0_1_0::aead_ciphers_wide::gcm::KeyRefUpdateBlocks::update_blocks"
	cmpq	$0, 120(%rsp)                   # 8-byte Folded Reload
	je	.Ldeerlapse_0_1_0_BB30_49
# %bb.48:                               # %then.1.i.i214.i.i
	addq	%rbx, %rbp
	movl	$16, %r8d
	movq	120(%rsp), %rbx                 # 8-byte Reload
	subq	%rbx, %r8
	leaq	(%rsp,%rbx), %rcx
	addq	$680, %rcx                      # imm = 0x2A8
	xorl	%edx, %edx
	callq	memset
	leaq	680(%rsp), %rsi
	movq	%rsi, %rcx
	movq	%rbp, %rdx
	movq	%rbx, %r8
	callq	memcpy
	movq	(%r15), %rcx
	leaq	144(%rsp), %rdx
	leaq	64(%rsp), %r9
	movq	%rsi, %r8
	callq	"deerlapse_0_1_0::aead_ciphers_wide::gcm::KeyRefUpdateBlock::update_block"
.Ldeerlapse_0_1_0_BB30_49:                              # %join.20.i.i
	xorps	%xmm0, %xmm0
	movaps	%xmm0, 640(%rsp)
	incq	64(%rsp)
	leaq	640(%rsp), %rsi
	leaq	192(%rsp), %r9
	movq	%rsi, %rcx
	movq	128(%rsp), %rdx                 # 8-byte Reload
	movq	48(%rsp), %r8                   # 8-byte Reload
	callq	"deerlapse_0_1_0::aead_ciphers_wide::aes::block_key::BlockKeyRef::encrypt_one"
	leaq	544(%rsp), %rcx
	leaq	144(%rsp), %rdx
	leaq	64(%rsp), %r9
	movq	%rsi, %r8
	callq	"deerlapse_0_1_0::aead_ciphers::aes_gcm::hash::finish::<#0f83097016d41fe1>"
	movaps	544(%rsp), %xmm0
.Ldeerlapse_0_1_0_BB30_50:                              # %arm.4
	movaps	%xmm0, 528(%rsp)
	movaps	528(%rsp), %xmm0
	movaps	%xmm0, 608(%rsp)
	movups	%xmm0, (%r14)
	movb	$1, %al
.Ldeerlapse_0_1_0_BB30_2:                               # %common.ret
                                        # kill: def $al killed $al killed $eax
	addq	$696, %rsp                      # imm = 0x2B8
	popq	%rbx
	popq	%rbp
	popq	%rdi
	popq	%rsi
	popq	%r12
	popq	%r13
	popq	%r14
	popq	%r15
	retq
	.seh_endproc
                                        # -- End function
	.def	"deerlapse_0_1_0::deerlapse::opener::deerlapse_opener_open_number";
	.scl	3;
	.type	32;
	.endef
	.p2align	4                               # -- Begin function deerlapse::opener::deerlapse_0_1_0_opener_open_number
"deerlapse_0_1_0::deerlapse::opener::deerlapse_opener_open_number": # @"deerlapse_0_1_0::deerlapse::opener::deerlapse_opener_open_number"
.seh_proc "deerlapse_0_1_0::deerlapse::opener::deerlapse_opener_open_number"
# %bb.0:                                # %start
	pushq	%r15
	.seh_pushreg %r15
	pushq	%r14
	.seh_pushreg %r14
	pushq	%rsi
	.seh_pushreg %rsi
	pushq	%rdi
	.seh_pushreg %rdi
	pushq	%rbp
	.seh_pushreg %rbp
	pushq	%rbx
	.seh_pushreg %rbx
	subq	$216, %rsp
	.seh_stackalloc 216
	.seh_endprologue
	bswapq	%rdx
	movl	%edx, %eax
	shrl	$24, %eax
	movl	%edx, %r10d
	shrl	$16, %r10d
	movd	3212(%rcx), %xmm0               # xmm0 = mem[0],zero,zero,zero
	movd	%edx, %xmm1
	movl	%edx, %r11d
	shrl	$8, %r11d
	pinsrb	$1, %r11d, %xmm1
	pinsrb	$2, %r10d, %xmm1
	pinsrb	$3, %eax, %xmm1
	pxor	%xmm0, %xmm1
	movd	3208(%rcx), %xmm0               # xmm0 = mem[0],zero,zero,zero
	punpckldq	%xmm1, %xmm0            # xmm0 = xmm0[0],xmm1[0],xmm0[1],xmm1[1]
	movq	%rdx, %rax
	shrq	$56, %rax
	movq	%rdx, %r10
	shrq	$48, %r10
	movq	%rdx, %r11
	shrq	$40, %r11
	shrq	$32, %rdx
	movd	3216(%rcx), %xmm1               # xmm1 = mem[0],zero,zero,zero
	movd	%edx, %xmm2
	pinsrb	$1, %r11d, %xmm2
	pinsrb	$2, %r10d, %xmm2
	pinsrb	$3, %eax, %xmm2
	pxor	%xmm1, %xmm2
	movq	%xmm0, 88(%rsp)
	movd	%xmm2, 96(%rsp)
	movl	1920(%rcx), %edx
	leal	-10(%rdx), %eax
	cmpl	$4, %eax
	ja	.Ldeerlapse_0_1_0_BB31_6
# %bb.1:                                # %join.3.i
	movq	312(%rsp), %r10
	cmpq	$16, %r10
	jb	.Ldeerlapse_0_1_0_BB31_6
# %bb.2:                                # %arm.1.i.i
	movq	320(%rsp), %rbx
	leaq	-16(%r10), %rsi
	movq	%rsi, %rax
	subq	%rbx, %rax
	jb	.Ldeerlapse_0_1_0_BB31_6
# %bb.3:                                # %arm.8.i.i
	movq	%r9, %r11
	shrq	$61, %r11
	setne	%r11b
	movabsq	$68719476704, %rdi              # imm = 0xFFFFFFFE0
	cmpq	%rdi, %rax
	seta	%dil
	orb	%r11b, %dil
	jne	.Ldeerlapse_0_1_0_BB31_6
# %bb.4:                                # %then.11.i.i
	movq	304(%rsp), %rdi
	addq	%rdi, %r10
	addq	$-16, %r10
	leaq	1928(%rcx), %r11
	movl	1924(%rcx), %ebp
	movq	%rcx, 104(%rsp)
	movq	%r11, 112(%rsp)
	movq	%rdx, 120(%rsp)
	movl	%ebp, 128(%rsp)
	movl	$0, 132(%rsp)
	leaq	2168(%rcx), %rdx
	addq	$2680, %rcx                     # imm = 0xA78
	movq	%rdx, 136(%rsp)
	movq	%rcx, 144(%rsp)
	pxor	%xmm0, %xmm0
	movdqa	%xmm0, 176(%rsp)
	movdqu	(%r10), %xmm0
	movdqa	%xmm0, 192(%rsp)
	leaq	(%rdi,%rbx), %rcx
	leaq	176(%rsp), %r14
	movq	%r14, 72(%rsp)
	movq	%rax, 64(%rsp)
	movq	%rcx, 56(%rsp)
	leaq	192(%rsp), %rax
	movq	%rax, 48(%rsp)
	movq	%r9, 40(%rsp)
	movq	%r8, 32(%rsp)
	leaq	159(%rsp), %rcx
	leaq	104(%rsp), %rdx
	leaq	136(%rsp), %r8
	leaq	88(%rsp), %r9
	callq	"deerlapse_0_1_0::aead_ciphers::aes_gcm::opening::authenticate::<#7bfdf0a6b4753edd>"
	cmpb	$0, 159(%rsp)
	je	.Ldeerlapse_0_1_0_BB31_8
.Ldeerlapse_0_1_0_BB31_6:
	xorl	%eax, %eax
.Ldeerlapse_0_1_0_BB31_7:                               # %"deerlapse::key::deerlapse_key_open.exit"
                                        # kill: def $al killed $al killed $eax
	addq	$216, %rsp
	popq	%rbx
	popq	%rbp
	popq	%rdi
	popq	%rsi
	popq	%r14
	popq	%r15
	retq
.Ldeerlapse_0_1_0_BB31_8:                               # %arm.4.i
	movq	328(%rsp), %r15
	leaq	160(%rsp), %rdx
	movq	%r14, 40(%rsp)
	movq	%rbx, 32(%rsp)
	leaq	104(%rsp), %rcx
	movq	%rdi, %r8
	movq	%rsi, %r9
	callq	"deerlapse_0_1_0::aead_ciphers::aes_gcm::counter_mode::encrypt_within::<#6fa349fe97f872a2>"
	movq	%rax, (%r15)
	movb	$1, %al
	jmp	.Ldeerlapse_0_1_0_BB31_7
	.seh_endproc
                                        # -- End function
	.def	"deerlapse_0_1_0::deerlapse::xaes_key::expand_message_key";
	.scl	3;
	.type	32;
	.endef
	.section	.rdata,"dr"
	.p2align	4, 0x0                          # -- Begin function deerlapse::xaes_key::expand_message_key
.Ldeerlapse_0_1_0_CPI32_0:
	.byte	0                               # 0x0
	.byte	1                               # 0x1
	.byte	88                              # 0x58
	.byte	0                               # 0x0
	.zero	1
	.zero	1
	.zero	1
	.zero	1
	.zero	1
	.zero	1
	.zero	1
	.zero	1
	.zero	1
	.zero	1
	.zero	1
	.zero	1
.Ldeerlapse_0_1_0_CPI32_1:
	.byte	2                               # 0x2
	.byte	128                             # 0x80
	.byte	4                               # 0x4
	.byte	5                               # 0x5
	.byte	6                               # 0x6
	.byte	7                               # 0x7
	.byte	8                               # 0x8
	.byte	9                               # 0x9
	.zero	1
	.zero	1
	.zero	1
	.zero	1
	.zero	1
	.zero	1
	.zero	1
	.zero	1
.Ldeerlapse_0_1_0_CPI32_2:
	.byte	128                             # 0x80
	.byte	3                               # 0x3
	.byte	128                             # 0x80
	.byte	128                             # 0x80
	.byte	128                             # 0x80
	.byte	128                             # 0x80
	.byte	128                             # 0x80
	.byte	128                             # 0x80
	.zero	1
	.zero	1
	.zero	1
	.zero	1
	.zero	1
	.zero	1
	.zero	1
	.zero	1
.Ldeerlapse_0_1_0_CPI32_3:
	.byte	0                               # 0x0
	.byte	1                               # 0x1
	.byte	88                              # 0x58
	.byte	0                               # 0x0
	.byte	0                               # 0x0
	.byte	0                               # 0x0
	.byte	0                               # 0x0
	.byte	0                               # 0x0
	.byte	0                               # 0x0
	.byte	0                               # 0x0
	.byte	0                               # 0x0
	.byte	0                               # 0x0
	.byte	0                               # 0x0
	.byte	0                               # 0x0
	.byte	0                               # 0x0
	.byte	0                               # 0x0
	.text
	.p2align	4
"deerlapse_0_1_0::deerlapse::xaes_key::expand_message_key": # @"deerlapse_0_1_0::deerlapse::xaes_key::expand_message_key"
.seh_proc "deerlapse_0_1_0::deerlapse::xaes_key::expand_message_key"
# %bb.0:                                # %start
	pushq	%r15
	.seh_pushreg %r15
	pushq	%r14
	.seh_pushreg %r14
	pushq	%rsi
	.seh_pushreg %rsi
	pushq	%rdi
	.seh_pushreg %rdi
	pushq	%rbp
	.seh_pushreg %rbp
	pushq	%rbx
	.seh_pushreg %rbx
	subq	$200, %rsp
	.seh_stackalloc 200
	movdqa	%xmm8, 176(%rsp)                # 16-byte Spill
	.seh_savexmm %xmm8, 176
	movdqa	%xmm7, 160(%rsp)                # 16-byte Spill
	.seh_savexmm %xmm7, 160
	movaps	%xmm6, 144(%rsp)                # 16-byte Spill
	.seh_savexmm %xmm6, 144
	.seh_endprologue
	movq	%rcx, %rsi
	cmpl	$14, (%rdx)
	jne	.Ldeerlapse_0_1_0_BB32_1
# %bb.3:                                # %join.3
	movq	%r9, %rdi
	movq	12(%r8), %rax
	movq	%rax, 64(%rsp)
	movl	20(%r8), %eax
	movl	%eax, 72(%rsp)
	leaq	8(%rdx), %rbx
	movd	(%r8), %xmm0                    # xmm0 = mem[0],zero,zero,zero
	movq	4(%r8), %xmm1                   # xmm1 = mem[0],zero
	movdqu	248(%rdx), %xmm8
	movzbl	248(%rdx), %ebp
	movd	.Ldeerlapse_0_1_0_CPI32_3(%rip), %xmm7          # xmm7 = [0,1,88,0,0,0,0,0,0,0,0,0,0,0,0,0]
	punpckldq	%xmm0, %xmm7            # xmm7 = xmm7[0],xmm0[0],xmm7[1],xmm0[1]
	punpcklqdq	%xmm1, %xmm7            # xmm7 = xmm7[0],xmm1[0]
	pxor	%xmm8, %xmm7
	movdqa	%xmm7, 112(%rsp)
	xorps	%xmm6, %xmm6
	movaps	%xmm6, 80(%rsp)
	leaq	80(%rsp), %rcx
	leaq	112(%rsp), %r9
	movl	$14, %r8d
	movq	%rdx, %r15
	movq	%rbx, %rdx
	callq	"deerlapse_0_1_0::aead_ciphers_wide::aes::block_key::BlockKeyRef::encrypt_one"
	movaps	80(%rsp), %xmm0
	movaps	%xmm0, 112(%rsp)
	pextrb	$1, %xmm8, %eax
	xorb	$2, %al
	movb	%bpl, 48(%rsp)
	movb	%al, 49(%rsp)
	movdqa	%xmm7, %xmm0
	pshufb	.Ldeerlapse_0_1_0_CPI32_1(%rip), %xmm0          # xmm0 = xmm0[2],zero,xmm0[4,5,6,7,8,9,u,u,u,u,u,u,u,u]
	pshufb	.Ldeerlapse_0_1_0_CPI32_2(%rip), %xmm8          # xmm8 = zero,xmm8[3],zero,zero,zero,zero,zero,zero,xmm8[u,u,u,u,u,u,u,u]
	por	%xmm0, %xmm8
	movq	%xmm8, 50(%rsp)
	movdqa	%xmm7, %xmm0
	psrldq	$10, %xmm0                      # xmm0 = xmm0[10,11,12,13,14,15],zero,zero,zero,zero,zero,zero,zero,zero,zero,zero
	movd	%xmm0, 58(%rsp)
	pextrb	$14, %xmm7, 62(%rsp)
	pextrb	$15, %xmm7, 63(%rsp)
	movaps	%xmm6, 96(%rsp)
	leaq	96(%rsp), %r14
	leaq	48(%rsp), %r9
	movl	$14, %r8d
	movq	%r14, %rcx
	movq	%rbx, %rdx
	callq	"deerlapse_0_1_0::aead_ciphers_wide::aes::block_key::BlockKeyRef::encrypt_one"
	movaps	96(%rsp), %xmm0
	movaps	%xmm0, 80(%rsp)
	movaps	%xmm0, 128(%rsp)
	cmpl	$256, 4(%r15)                   # imm = 0x100
	sete	%r9b
	movaps	%xmm6, 96(%rsp)
	movq	%r14, 32(%rsp)
	movb	$1, %bl
	leaq	112(%rsp), %r8
	movq	%rdi, %rcx
	movb	$1, %dl
	callq	"deerlapse_0_1_0::aead_ciphers_wide::aes_gcm::ExpandedKey::expand_with_width"
	movl	72(%rsp), %eax
	movl	%eax, 9(%rsi)
	movq	64(%rsp), %rax
	movq	%rax, 1(%rsi)
	jmp	.Ldeerlapse_0_1_0_BB32_2
.Ldeerlapse_0_1_0_BB32_1:                               # %then.1
	movl	$0, 9(%rsi)
	movq	$0, 1(%rsi)
	xorl	%ebx, %ebx
.Ldeerlapse_0_1_0_BB32_2:                               # %common.ret
	movb	%bl, (%rsi)
	movaps	144(%rsp), %xmm6                # 16-byte Reload
	movaps	160(%rsp), %xmm7                # 16-byte Reload
	movaps	176(%rsp), %xmm8                # 16-byte Reload
	addq	$200, %rsp
	popq	%rbx
	popq	%rbp
	popq	%rdi
	popq	%rsi
	popq	%r14
	popq	%r15
	retq
	.seh_endproc
                                        # -- End function
	.def	"deerlapse_0_1_0::aead_ciphers_wide::aes_gcm::ExpandedKey::expand_with_width";
	.scl	3;
	.type	32;
	.endef
	.section	.rdata,"dr"
	.p2align	4, 0x0                          # -- Begin function aead_ciphers_wide::aes_gcm::ExpandedKey::expand_with_width
.Ldeerlapse_0_1_0_CPI33_0:
	.zero	16,15
.Ldeerlapse_0_1_0_CPI33_1:
	.byte	0                               # 0x0
	.byte	255                             # 0xff
	.byte	0                               # 0x0
	.byte	255                             # 0xff
	.byte	0                               # 0x0
	.byte	255                             # 0xff
	.byte	0                               # 0x0
	.byte	255                             # 0xff
	.byte	0                               # 0x0
	.byte	255                             # 0xff
	.byte	0                               # 0x0
	.byte	255                             # 0xff
	.byte	0                               # 0x0
	.byte	255                             # 0xff
	.byte	0                               # 0x0
	.byte	255                             # 0xff
.Ldeerlapse_0_1_0_CPI33_2:
	.byte	0                               # 0x0
	.byte	0                               # 0x0
	.byte	255                             # 0xff
	.byte	255                             # 0xff
	.byte	0                               # 0x0
	.byte	0                               # 0x0
	.byte	255                             # 0xff
	.byte	255                             # 0xff
	.byte	0                               # 0x0
	.byte	0                               # 0x0
	.byte	255                             # 0xff
	.byte	255                             # 0xff
	.byte	0                               # 0x0
	.byte	0                               # 0x0
	.byte	255                             # 0xff
	.byte	255                             # 0xff
.Ldeerlapse_0_1_0_CPI33_3:
	.byte	0                               # 0x0
	.byte	0                               # 0x0
	.byte	0                               # 0x0
	.byte	0                               # 0x0
	.byte	255                             # 0xff
	.byte	255                             # 0xff
	.byte	255                             # 0xff
	.byte	255                             # 0xff
	.byte	0                               # 0x0
	.byte	0                               # 0x0
	.byte	0                               # 0x0
	.byte	0                               # 0x0
	.byte	255                             # 0xff
	.byte	255                             # 0xff
	.byte	255                             # 0xff
	.byte	255                             # 0xff
.Ldeerlapse_0_1_0_CPI33_4:
	.byte	0                               # 0x0
	.byte	0                               # 0x0
	.byte	0                               # 0x0
	.byte	0                               # 0x0
	.byte	0                               # 0x0
	.byte	0                               # 0x0
	.byte	0                               # 0x0
	.byte	0                               # 0x0
	.byte	255                             # 0xff
	.byte	255                             # 0xff
	.byte	255                             # 0xff
	.byte	255                             # 0xff
	.byte	255                             # 0xff
	.byte	255                             # 0xff
	.byte	255                             # 0xff
	.byte	255                             # 0xff
.Ldeerlapse_0_1_0_CPI33_5:
	.zero	16,192
.Ldeerlapse_0_1_0_CPI33_6:
	.zero	16,63
.Ldeerlapse_0_1_0_CPI33_7:
	.zero	16,1
.Ldeerlapse_0_1_0_CPI33_8:
	.zero	16,127
	.text
	.p2align	4
"deerlapse_0_1_0::aead_ciphers_wide::aes_gcm::ExpandedKey::expand_with_width": # @"deerlapse_0_1_0::aead_ciphers_wide::aes_gcm::ExpandedKey::expand_with_width"
.seh_proc "deerlapse_0_1_0::aead_ciphers_wide::aes_gcm::ExpandedKey::expand_with_width"
# %bb.0:                                # %start
	pushq	%r15
	.seh_pushreg %r15
	pushq	%r14
	.seh_pushreg %r14
	pushq	%rsi
	.seh_pushreg %rsi
	pushq	%rdi
	.seh_pushreg %rdi
	pushq	%rbp
	.seh_pushreg %rbp
	pushq	%rbx
	.seh_pushreg %rbx
	subq	$152, %rsp
	.seh_stackalloc 152
	movdqa	%xmm10, 128(%rsp)               # 16-byte Spill
	.seh_savexmm %xmm10, 128
	movdqa	%xmm9, 112(%rsp)                # 16-byte Spill
	.seh_savexmm %xmm9, 112
	movdqa	%xmm8, 96(%rsp)                 # 16-byte Spill
	.seh_savexmm %xmm8, 96
	movdqa	%xmm7, 80(%rsp)                 # 16-byte Spill
	.seh_savexmm %xmm7, 80
	movdqa	%xmm6, 64(%rsp)                 # 16-byte Spill
	.seh_savexmm %xmm6, 64
	.seh_endprologue
	movl	%r9d, %ebp
	movq	%rcx, %rsi
	movq	240(%rsp), %r14
	leaq	1928(%rcx), %rdi
	movq	%rdi, %rcx
	callq	"deerlapse_0_1_0::aead_ciphers_wide::aes::expand"
	movq	%rax, %rbx
	leaq	1408(%rsi), %rcx
	xorl	%r15d, %r15d
	movl	$512, %r8d                      # imm = 0x200
	xorl	%edx, %edx
	callq	memset
	movq	%rbx, %rax
	shlq	$4, %rax
	addq	$16, %rax
	.p2align	4
.Ldeerlapse_0_1_0_BB33_1:                               # %join.7.i
                                        # =>This Inner Loop Header: Depth=1
	movdqu	1928(%rsi,%r15), %xmm0
	movdqa	.Ldeerlapse_0_1_0_CPI33_0(%rip), %xmm7          # xmm7 = [15,15,15,15,15,15,15,15,15,15,15,15,15,15,15,15]
	movdqa	%xmm0, %xmm1
	pand	%xmm7, %xmm1
	psrlw	$4, %xmm0
	pand	%xmm7, %xmm0
	movdqa	.Ldeerlapse_0_1_0_CPI33_1(%rip), %xmm2          # xmm2 = [0,255,0,255,0,255,0,255,0,255,0,255,0,255,0,255]
	movdqa	%xmm2, %xmm3
	pshufb	%xmm1, %xmm3
	movdqa	.Ldeerlapse_0_1_0_CPI33_2(%rip), %xmm4          # xmm4 = [0,0,255,255,0,0,255,255,0,0,255,255,0,0,255,255]
	movdqa	%xmm4, %xmm5
	pshufb	%xmm1, %xmm5
	movdqa	.Ldeerlapse_0_1_0_CPI33_3(%rip), %xmm6          # xmm6 = [0,0,0,0,255,255,255,255,0,0,0,0,255,255,255,255]
	movdqa	%xmm6, %xmm8
	pshufb	%xmm1, %xmm8
	movdqa	.Ldeerlapse_0_1_0_CPI33_4(%rip), %xmm9          # xmm9 = [0,0,0,0,0,0,0,0,255,255,255,255,255,255,255,255]
	movdqa	%xmm9, %xmm10
	pshufb	%xmm1, %xmm10
	pshufb	%xmm0, %xmm2
	pshufb	%xmm0, %xmm4
	pshufb	%xmm0, %xmm6
	pshufb	%xmm0, %xmm9
	movdqu	%xmm3, (%rsi,%r15,8)
	movdqu	%xmm5, 16(%rsi,%r15,8)
	movdqu	%xmm8, 32(%rsi,%r15,8)
	movdqu	%xmm10, 48(%rsi,%r15,8)
	movdqu	%xmm2, 64(%rsi,%r15,8)
	movdqu	%xmm4, 80(%rsi,%r15,8)
	movdqu	%xmm6, 96(%rsi,%r15,8)
	movdqu	%xmm9, 112(%rsi,%r15,8)
	addq	$16, %r15
	cmpq	%r15, %rax
	jne	.Ldeerlapse_0_1_0_BB33_1
# %bb.2:                                # %"aead_ciphers_wide::aes::round_keys::write_planes.exit"
	movl	%ebx, 1920(%rsi)
	movzbl	%bpl, %eax
	shll	$7, %eax
	subl	$-128, %eax
	movl	%eax, 1924(%rsi)
	pxor	%xmm0, %xmm0
	movdqa	%xmm0, 48(%rsp)
	movdqa	%xmm0, 32(%rsp)
	incq	(%r14)
	leaq	32(%rsp), %rcx
	leaq	48(%rsp), %r9
	movq	%rdi, %rdx
	movq	%rbx, %r8
	callq	"deerlapse_0_1_0::aead_ciphers_wide::aes::block_key::BlockKeyRef::encrypt_one"
	movq	32(%rsp), %r8
	movq	40(%rsp), %rdx
	movdqa	32(%rsp), %xmm6
	leaq	2168(%rsi), %rcx
	leaq	2680(%rsi), %rdi
	bswapq	%rdx
	bswapq	%r8
	callq	"deerlapse_0_1_0::aead_ciphers_wide::gcm::product::write_products"
	movdqa	%xmm6, %xmm1
	psrlw	$4, %xmm1
	pand	%xmm7, %xmm1
	pand	%xmm7, %xmm6
	movdqu	2408(%rsi), %xmm2
	pshufb	%xmm1, %xmm2
	movdqu	2664(%rsi), %xmm0
	pshufb	%xmm6, %xmm0
	pxor	%xmm2, %xmm0
	movdqa	%xmm0, %xmm2
	pslldq	$1, %xmm2                       # xmm2 = zero,xmm2[0,1,2,3,4,5,6,7,8,9,10,11,12,13,14]
	psrldq	$15, %xmm0                      # xmm0 = xmm0[15],zero,zero,zero,zero,zero,zero,zero,zero,zero,zero,zero,zero,zero,zero,zero
	movdqu	2392(%rsi), %xmm3
	pshufb	%xmm1, %xmm3
	movdqu	2648(%rsi), %xmm4
	pshufb	%xmm6, %xmm4
	pxor	%xmm3, %xmm4
	pxor	%xmm2, %xmm4
	palignr	$15, %xmm4, %xmm0               # xmm0 = xmm4[15],xmm0[0,1,2,3,4,5,6,7,8,9,10,11,12,13,14]
	pslldq	$1, %xmm4                       # xmm4 = zero,xmm4[0,1,2,3,4,5,6,7,8,9,10,11,12,13,14]
	movdqu	2376(%rsi), %xmm2
	pshufb	%xmm1, %xmm2
	movdqu	2632(%rsi), %xmm3
	pshufb	%xmm6, %xmm3
	pxor	%xmm2, %xmm3
	pxor	%xmm4, %xmm3
	palignr	$15, %xmm3, %xmm0               # xmm0 = xmm3[15],xmm0[0,1,2,3,4,5,6,7,8,9,10,11,12,13,14]
	pslldq	$1, %xmm3                       # xmm3 = zero,xmm3[0,1,2,3,4,5,6,7,8,9,10,11,12,13,14]
	movdqu	2360(%rsi), %xmm2
	pshufb	%xmm1, %xmm2
	movdqu	2616(%rsi), %xmm4
	pshufb	%xmm6, %xmm4
	pxor	%xmm2, %xmm4
	pxor	%xmm3, %xmm4
	palignr	$15, %xmm4, %xmm0               # xmm0 = xmm4[15],xmm0[0,1,2,3,4,5,6,7,8,9,10,11,12,13,14]
	pslldq	$1, %xmm4                       # xmm4 = zero,xmm4[0,1,2,3,4,5,6,7,8,9,10,11,12,13,14]
	movdqu	2344(%rsi), %xmm2
	pshufb	%xmm1, %xmm2
	movdqu	2600(%rsi), %xmm3
	pshufb	%xmm6, %xmm3
	pxor	%xmm2, %xmm3
	pxor	%xmm4, %xmm3
	palignr	$15, %xmm3, %xmm0               # xmm0 = xmm3[15],xmm0[0,1,2,3,4,5,6,7,8,9,10,11,12,13,14]
	pslldq	$1, %xmm3                       # xmm3 = zero,xmm3[0,1,2,3,4,5,6,7,8,9,10,11,12,13,14]
	movdqu	2328(%rsi), %xmm2
	pshufb	%xmm1, %xmm2
	movdqu	2584(%rsi), %xmm4
	pshufb	%xmm6, %xmm4
	pxor	%xmm2, %xmm4
	pxor	%xmm3, %xmm4
	palignr	$15, %xmm4, %xmm0               # xmm0 = xmm4[15],xmm0[0,1,2,3,4,5,6,7,8,9,10,11,12,13,14]
	pslldq	$1, %xmm4                       # xmm4 = zero,xmm4[0,1,2,3,4,5,6,7,8,9,10,11,12,13,14]
	movdqu	2312(%rsi), %xmm2
	pshufb	%xmm1, %xmm2
	movdqu	2568(%rsi), %xmm3
	pshufb	%xmm6, %xmm3
	pxor	%xmm2, %xmm3
	pxor	%xmm4, %xmm3
	palignr	$15, %xmm3, %xmm0               # xmm0 = xmm3[15],xmm0[0,1,2,3,4,5,6,7,8,9,10,11,12,13,14]
	pslldq	$1, %xmm3                       # xmm3 = zero,xmm3[0,1,2,3,4,5,6,7,8,9,10,11,12,13,14]
	movdqu	2296(%rsi), %xmm2
	pshufb	%xmm1, %xmm2
	movdqu	2552(%rsi), %xmm4
	pshufb	%xmm6, %xmm4
	pxor	%xmm2, %xmm4
	pxor	%xmm3, %xmm4
	palignr	$15, %xmm4, %xmm0               # xmm0 = xmm4[15],xmm0[0,1,2,3,4,5,6,7,8,9,10,11,12,13,14]
	pslldq	$1, %xmm4                       # xmm4 = zero,xmm4[0,1,2,3,4,5,6,7,8,9,10,11,12,13,14]
	movdqu	2280(%rsi), %xmm2
	pshufb	%xmm1, %xmm2
	movdqu	2536(%rsi), %xmm3
	pshufb	%xmm6, %xmm3
	pxor	%xmm2, %xmm3
	pxor	%xmm4, %xmm3
	palignr	$15, %xmm3, %xmm0               # xmm0 = xmm3[15],xmm0[0,1,2,3,4,5,6,7,8,9,10,11,12,13,14]
	pslldq	$1, %xmm3                       # xmm3 = zero,xmm3[0,1,2,3,4,5,6,7,8,9,10,11,12,13,14]
	movdqu	2264(%rsi), %xmm2
	pshufb	%xmm1, %xmm2
	movdqu	2520(%rsi), %xmm4
	pshufb	%xmm6, %xmm4
	pxor	%xmm2, %xmm4
	pxor	%xmm3, %xmm4
	palignr	$15, %xmm4, %xmm0               # xmm0 = xmm4[15],xmm0[0,1,2,3,4,5,6,7,8,9,10,11,12,13,14]
	pslldq	$1, %xmm4                       # xmm4 = zero,xmm4[0,1,2,3,4,5,6,7,8,9,10,11,12,13,14]
	movdqu	2248(%rsi), %xmm2
	pshufb	%xmm1, %xmm2
	movdqu	2504(%rsi), %xmm3
	pshufb	%xmm6, %xmm3
	pxor	%xmm2, %xmm3
	pxor	%xmm4, %xmm3
	palignr	$15, %xmm3, %xmm0               # xmm0 = xmm3[15],xmm0[0,1,2,3,4,5,6,7,8,9,10,11,12,13,14]
	pslldq	$1, %xmm3                       # xmm3 = zero,xmm3[0,1,2,3,4,5,6,7,8,9,10,11,12,13,14]
	movdqu	2232(%rsi), %xmm2
	pshufb	%xmm1, %xmm2
	movdqu	2488(%rsi), %xmm4
	pshufb	%xmm6, %xmm4
	pxor	%xmm2, %xmm4
	pxor	%xmm3, %xmm4
	palignr	$15, %xmm4, %xmm0               # xmm0 = xmm4[15],xmm0[0,1,2,3,4,5,6,7,8,9,10,11,12,13,14]
	pslldq	$1, %xmm4                       # xmm4 = zero,xmm4[0,1,2,3,4,5,6,7,8,9,10,11,12,13,14]
	movdqu	2168(%rsi), %xmm2
	movdqu	2184(%rsi), %xmm3
	movdqu	2200(%rsi), %xmm5
	movdqu	2216(%rsi), %xmm7
	pshufb	%xmm1, %xmm7
	movdqu	2472(%rsi), %xmm8
	pshufb	%xmm6, %xmm8
	pxor	%xmm7, %xmm8
	pxor	%xmm4, %xmm8
	palignr	$15, %xmm8, %xmm0               # xmm0 = xmm8[15],xmm0[0,1,2,3,4,5,6,7,8,9,10,11,12,13,14]
	pslldq	$1, %xmm8                       # xmm8 = zero,xmm8[0,1,2,3,4,5,6,7,8,9,10,11,12,13,14]
	pshufb	%xmm1, %xmm5
	movdqu	2456(%rsi), %xmm4
	pshufb	%xmm6, %xmm4
	pxor	%xmm5, %xmm4
	pxor	%xmm8, %xmm4
	palignr	$15, %xmm4, %xmm0               # xmm0 = xmm4[15],xmm0[0,1,2,3,4,5,6,7,8,9,10,11,12,13,14]
	pslldq	$1, %xmm4                       # xmm4 = zero,xmm4[0,1,2,3,4,5,6,7,8,9,10,11,12,13,14]
	pshufb	%xmm1, %xmm3
	movdqu	2440(%rsi), %xmm5
	pshufb	%xmm6, %xmm5
	pxor	%xmm3, %xmm5
	pxor	%xmm4, %xmm5
	palignr	$15, %xmm5, %xmm0               # xmm0 = xmm5[15],xmm0[0,1,2,3,4,5,6,7,8,9,10,11,12,13,14]
	pslldq	$1, %xmm5                       # xmm5 = zero,xmm5[0,1,2,3,4,5,6,7,8,9,10,11,12,13,14]
	pshufb	%xmm1, %xmm2
	pxor	%xmm5, %xmm2
	movdqu	2424(%rsi), %xmm3
	pshufb	%xmm6, %xmm3
	pxor	%xmm2, %xmm3
	movdqa	%xmm0, %xmm1
	pslldq	$1, %xmm1                       # xmm1 = zero,xmm1[0,1,2,3,4,5,6,7,8,9,10,11,12,13,14]
	movdqa	%xmm1, %xmm2
	paddb	%xmm1, %xmm2
	pxor	%xmm2, %xmm1
	psllw	$6, %xmm1
	pand	.Ldeerlapse_0_1_0_CPI33_5(%rip), %xmm1
	movdqa	%xmm0, %xmm4
	psrlw	$7, %xmm4
	pand	.Ldeerlapse_0_1_0_CPI33_7(%rip), %xmm4
	por	%xmm2, %xmm4
	movdqa	%xmm0, %xmm2
	psrlw	$1, %xmm2
	pand	.Ldeerlapse_0_1_0_CPI33_8(%rip), %xmm2
	pxor	%xmm3, %xmm2
	pxor	%xmm4, %xmm2
	pxor	%xmm0, %xmm2
	psrlw	$2, %xmm0
	pand	.Ldeerlapse_0_1_0_CPI33_6(%rip), %xmm0
	por	%xmm1, %xmm0
	pxor	%xmm0, %xmm2
	movq	%xmm2, %r8
	pextrq	$1, %xmm2, %rdx
	bswapq	%rdx
	bswapq	%r8
	movq	%rdi, %rcx
	movaps	64(%rsp), %xmm6                 # 16-byte Reload
	movaps	80(%rsp), %xmm7                 # 16-byte Reload
	movaps	96(%rsp), %xmm8                 # 16-byte Reload
	movaps	112(%rsp), %xmm9                # 16-byte Reload
	movaps	128(%rsp), %xmm10               # 16-byte Reload
	addq	$152, %rsp
	popq	%rbx
	popq	%rbp
	popq	%rdi
	popq	%rsi
	popq	%r14
	popq	%r15
	jmp	"deerlapse_0_1_0::aead_ciphers_wide::gcm::product::write_products" # TAILCALL
	.seh_endproc
                                        # -- End function
	.def	"deerlapse_0_1_0::aead_ciphers_wide::gcm::product::write_products";
	.scl	3;
	.type	32;
	.endef
	.p2align	4                               # -- Begin function aead_ciphers_wide::gcm::product::write_products
"deerlapse_0_1_0::aead_ciphers_wide::gcm::product::write_products": # @"deerlapse_0_1_0::aead_ciphers_wide::gcm::product::write_products"
.seh_proc "deerlapse_0_1_0::aead_ciphers_wide::gcm::product::write_products"
# %bb.0:                                # %start
	pushq	%r15
	.seh_pushreg %r15
	pushq	%r14
	.seh_pushreg %r14
	pushq	%rsi
	.seh_pushreg %rsi
	pushq	%rdi
	.seh_pushreg %rdi
	pushq	%rbx
	.seh_pushreg %rbx
	subq	$192, %rsp
	.seh_stackalloc 192
	movaps	%xmm15, 176(%rsp)               # 16-byte Spill
	.seh_savexmm %xmm15, 176
	movaps	%xmm14, 160(%rsp)               # 16-byte Spill
	.seh_savexmm %xmm14, 160
	movaps	%xmm13, 144(%rsp)               # 16-byte Spill
	.seh_savexmm %xmm13, 144
	movaps	%xmm12, 128(%rsp)               # 16-byte Spill
	.seh_savexmm %xmm12, 128
	movdqa	%xmm11, 112(%rsp)               # 16-byte Spill
	.seh_savexmm %xmm11, 112
	movdqa	%xmm10, 96(%rsp)                # 16-byte Spill
	.seh_savexmm %xmm10, 96
	movdqa	%xmm9, 80(%rsp)                 # 16-byte Spill
	.seh_savexmm %xmm9, 80
	movaps	%xmm8, 64(%rsp)                 # 16-byte Spill
	.seh_savexmm %xmm8, 64
	movaps	%xmm7, 48(%rsp)                 # 16-byte Spill
	.seh_savexmm %xmm7, 48
	movaps	%xmm6, 32(%rsp)                 # 16-byte Spill
	.seh_savexmm %xmm6, 32
	.seh_endprologue
	movq	%r8, %rdi
	shldq	$63, %rdx, %rdi
	movq	%r8, %rsi
	shrq	%rsi
	movl	%edx, %ebx
	andl	$1, %ebx
	negq	%rbx
	movabsq	$-2233785415175766016, %rax     # imm = 0xE100000000000000
	andq	%rax, %rbx
	xorq	%rsi, %rbx
	shldq	$63, %rdi, %rsi
	movq	%rbx, %r11
	shrq	%r11
	movq	%rdx, %r14
	shlq	$62, %r14
	sarq	$63, %r14
	andq	%rax, %r14
	xorq	%r11, %r14
	shldq	$63, %rsi, %r11
	movq	%r14, %r10
	shrq	%r10
	movq	%rdx, %r9
	shlq	$61, %r9
	sarq	$63, %r9
	andq	%rax, %r9
	bswapq	%r8
	xorq	%r10, %r9
	movq	%rdx, %r15
	bswapq	%r15
	movq	%r15, %xmm0
	movq	%r8, %xmm2
	bswapq	%rbx
	punpcklqdq	%xmm0, %xmm2            # xmm2 = xmm2[0],xmm0[0]
	bswapq	%rdi
	movq	%rdi, %xmm0
	movq	%rbx, %xmm3
	punpcklqdq	%xmm0, %xmm3            # xmm3 = xmm3[0],xmm0[0]
	bswapq	%r14
	bswapq	%rsi
	movq	%r14, %xmm1
	movq	%rsi, %xmm0
	punpcklqdq	%xmm0, %xmm1            # xmm1 = xmm1[0],xmm0[0]
	movq	%r9, %r8
	bswapq	%r8
	movq	%r11, %rsi
	bswapq	%rsi
	movq	%rsi, %xmm0
	movq	%r8, %xmm4
	punpcklqdq	%xmm0, %xmm4            # xmm4 = xmm4[0],xmm0[0]
	pxor	%xmm9, %xmm9
	punpcklbw	%xmm3, %xmm9            # xmm9 = xmm9[0],xmm3[0],xmm9[1],xmm3[1],xmm9[2],xmm3[2],xmm9[3],xmm3[3],xmm9[4],xmm3[4],xmm9[5],xmm3[5],xmm9[6],xmm3[6],xmm9[7],xmm3[7]
	pxor	%xmm10, %xmm10
	punpckhbw	%xmm3, %xmm10           # xmm10 = xmm10[8],xmm3[8],xmm10[9],xmm3[9],xmm10[10],xmm3[10],xmm10[11],xmm3[11],xmm10[12],xmm3[12],xmm10[13],xmm3[13],xmm10[14],xmm3[14],xmm10[15],xmm3[15]
	pxor	%xmm2, %xmm3
	movdqa	%xmm2, %xmm5
	punpcklbw	%xmm3, %xmm5            # xmm5 = xmm5[0],xmm3[0],xmm5[1],xmm3[1],xmm5[2],xmm3[2],xmm5[3],xmm3[3],xmm5[4],xmm3[4],xmm5[5],xmm3[5],xmm5[6],xmm3[6],xmm5[7],xmm3[7]
	punpckhbw	%xmm3, %xmm2            # xmm2 = xmm2[8],xmm3[8],xmm2[9],xmm3[9],xmm2[10],xmm3[10],xmm2[11],xmm3[11],xmm2[12],xmm3[12],xmm2[13],xmm3[13],xmm2[14],xmm3[14],xmm2[15],xmm3[15]
	movdqa	%xmm9, %xmm7
	punpcklwd	%xmm5, %xmm7            # xmm7 = xmm7[0],xmm5[0],xmm7[1],xmm5[1],xmm7[2],xmm5[2],xmm7[3],xmm5[3]
	punpckhwd	%xmm5, %xmm9            # xmm9 = xmm9[4],xmm5[4],xmm9[5],xmm5[5],xmm9[6],xmm5[6],xmm9[7],xmm5[7]
	movdqa	%xmm10, %xmm6
	punpcklwd	%xmm2, %xmm6            # xmm6 = xmm6[0],xmm2[0],xmm6[1],xmm2[1],xmm6[2],xmm2[2],xmm6[3],xmm2[3]
	punpckhwd	%xmm2, %xmm10           # xmm10 = xmm10[4],xmm2[4],xmm10[5],xmm2[5],xmm10[6],xmm2[6],xmm10[7],xmm2[7]
	pxor	%xmm11, %xmm11
	punpcklbw	%xmm4, %xmm11           # xmm11 = xmm11[0],xmm4[0],xmm11[1],xmm4[1],xmm11[2],xmm4[2],xmm11[3],xmm4[3],xmm11[4],xmm4[4],xmm11[5],xmm4[5],xmm11[6],xmm4[6],xmm11[7],xmm4[7]
	pxor	%xmm2, %xmm2
	punpckhbw	%xmm4, %xmm2            # xmm2 = xmm2[8],xmm4[8],xmm2[9],xmm4[9],xmm2[10],xmm4[10],xmm2[11],xmm4[11],xmm2[12],xmm4[12],xmm2[13],xmm4[13],xmm2[14],xmm4[14],xmm2[15],xmm4[15]
	pxor	%xmm1, %xmm4
	movdqa	%xmm1, %xmm3
	punpcklbw	%xmm4, %xmm3            # xmm3 = xmm3[0],xmm4[0],xmm3[1],xmm4[1],xmm3[2],xmm4[2],xmm3[3],xmm4[3],xmm3[4],xmm4[4],xmm3[5],xmm4[5],xmm3[6],xmm4[6],xmm3[7],xmm4[7]
	punpckhbw	%xmm4, %xmm1            # xmm1 = xmm1[8],xmm4[8],xmm1[9],xmm4[9],xmm1[10],xmm4[10],xmm1[11],xmm4[11],xmm1[12],xmm4[12],xmm1[13],xmm4[13],xmm1[14],xmm4[14],xmm1[15],xmm4[15]
	movdqa	%xmm11, %xmm5
	punpcklwd	%xmm3, %xmm5            # xmm5 = xmm5[0],xmm3[0],xmm5[1],xmm3[1],xmm5[2],xmm3[2],xmm5[3],xmm3[3]
	punpckhwd	%xmm3, %xmm11           # xmm11 = xmm11[4],xmm3[4],xmm11[5],xmm3[5],xmm11[6],xmm3[6],xmm11[7],xmm3[7]
	movdqa	%xmm2, %xmm12
	punpcklwd	%xmm1, %xmm12           # xmm12 = xmm12[0],xmm1[0],xmm12[1],xmm1[1],xmm12[2],xmm1[2],xmm12[3],xmm1[3]
	punpckhwd	%xmm1, %xmm2            # xmm2 = xmm2[4],xmm1[4],xmm2[5],xmm1[5],xmm2[6],xmm1[6],xmm2[7],xmm1[7]
	movdqa	%xmm7, %xmm1
	punpcklbw	%xmm7, %xmm1            # xmm1 = xmm1[0],xmm7[0],xmm1[1],xmm7[1],xmm1[2],xmm7[2],xmm1[3],xmm7[3],xmm1[4],xmm7[4],xmm1[5],xmm7[5],xmm1[6],xmm7[6],xmm1[7],xmm7[7]
	movdqa	%xmm1, %xmm3
	punpcklwd	%xmm1, %xmm3            # xmm3 = xmm3[0],xmm1[0],xmm3[1],xmm1[1],xmm3[2],xmm1[2],xmm3[3],xmm1[3]
	pshufd	$0, %xmm5, %xmm0                # xmm0 = xmm5[0,0,0,0]
	pxor	%xmm3, %xmm0
	movdqa	%xmm0, 16(%rsp)                 # 16-byte Spill
	punpckhwd	%xmm1, %xmm1            # xmm1 = xmm1[4,4,5,5,6,6,7,7]
	pshufd	$85, %xmm5, %xmm0               # xmm0 = xmm5[1,1,1,1]
	pxor	%xmm1, %xmm0
	movdqa	%xmm0, (%rsp)                   # 16-byte Spill
	punpckhbw	%xmm7, %xmm7            # xmm7 = xmm7[8,8,9,9,10,10,11,11,12,12,13,13,14,14,15,15]
	movdqa	%xmm7, %xmm1
	punpcklwd	%xmm7, %xmm1            # xmm1 = xmm1[0],xmm7[0],xmm1[1],xmm7[1],xmm1[2],xmm7[2],xmm1[3],xmm7[3]
	pshufd	$170, %xmm5, %xmm4              # xmm4 = xmm5[2,2,2,2]
	pxor	%xmm1, %xmm4
	punpckhwd	%xmm7, %xmm7            # xmm7 = xmm7[4,4,5,5,6,6,7,7]
	pshufd	$255, %xmm5, %xmm5              # xmm5 = xmm5[3,3,3,3]
	pxor	%xmm7, %xmm5
	movdqa	%xmm9, %xmm1
	punpcklbw	%xmm9, %xmm1            # xmm1 = xmm1[0],xmm9[0],xmm1[1],xmm9[1],xmm1[2],xmm9[2],xmm1[3],xmm9[3],xmm1[4],xmm9[4],xmm1[5],xmm9[5],xmm1[6],xmm9[6],xmm1[7],xmm9[7]
	movdqa	%xmm1, %xmm8
	punpcklwd	%xmm1, %xmm8            # xmm8 = xmm8[0],xmm1[0],xmm8[1],xmm1[1],xmm8[2],xmm1[2],xmm8[3],xmm1[3]
	pshufd	$0, %xmm11, %xmm7               # xmm7 = xmm11[0,0,0,0]
	pxor	%xmm8, %xmm7
	punpckhwd	%xmm1, %xmm1            # xmm1 = xmm1[4,4,5,5,6,6,7,7]
	pshufd	$85, %xmm11, %xmm8              # xmm8 = xmm11[1,1,1,1]
	pxor	%xmm1, %xmm8
	punpckhbw	%xmm9, %xmm9            # xmm9 = xmm9[8,8,9,9,10,10,11,11,12,12,13,13,14,14,15,15]
	movdqa	%xmm9, %xmm1
	punpcklwd	%xmm9, %xmm1            # xmm1 = xmm1[0],xmm9[0],xmm1[1],xmm9[1],xmm1[2],xmm9[2],xmm1[3],xmm9[3]
	pshufd	$170, %xmm11, %xmm3             # xmm3 = xmm11[2,2,2,2]
	pxor	%xmm1, %xmm3
	punpckhwd	%xmm9, %xmm9            # xmm9 = xmm9[4,4,5,5,6,6,7,7]
	pshufd	$255, %xmm11, %xmm11            # xmm11 = xmm11[3,3,3,3]
	pxor	%xmm9, %xmm11
	movdqa	%xmm6, %xmm1
	punpcklbw	%xmm6, %xmm1            # xmm1 = xmm1[0],xmm6[0],xmm1[1],xmm6[1],xmm1[2],xmm6[2],xmm1[3],xmm6[3],xmm1[4],xmm6[4],xmm1[5],xmm6[5],xmm1[6],xmm6[6],xmm1[7],xmm6[7]
	movdqa	%xmm1, %xmm13
	punpcklwd	%xmm1, %xmm13           # xmm13 = xmm13[0],xmm1[0],xmm13[1],xmm1[1],xmm13[2],xmm1[2],xmm13[3],xmm1[3]
	pshufd	$0, %xmm12, %xmm9               # xmm9 = xmm12[0,0,0,0]
	pxor	%xmm13, %xmm9
	punpckhwd	%xmm1, %xmm1            # xmm1 = xmm1[4,4,5,5,6,6,7,7]
	pshufd	$85, %xmm12, %xmm13             # xmm13 = xmm12[1,1,1,1]
	pxor	%xmm1, %xmm13
	punpckhbw	%xmm6, %xmm6            # xmm6 = xmm6[8,8,9,9,10,10,11,11,12,12,13,13,14,14,15,15]
	movdqa	%xmm6, %xmm1
	punpcklwd	%xmm6, %xmm1            # xmm1 = xmm1[0],xmm6[0],xmm1[1],xmm6[1],xmm1[2],xmm6[2],xmm1[3],xmm6[3]
	pshufd	$170, %xmm12, %xmm14            # xmm14 = xmm12[2,2,2,2]
	pxor	%xmm1, %xmm14
	punpckhwd	%xmm6, %xmm6            # xmm6 = xmm6[4,4,5,5,6,6,7,7]
	pshufd	$255, %xmm12, %xmm12            # xmm12 = xmm12[3,3,3,3]
	pxor	%xmm6, %xmm12
	movdqa	%xmm10, %xmm1
	punpcklbw	%xmm10, %xmm1           # xmm1 = xmm1[0],xmm10[0],xmm1[1],xmm10[1],xmm1[2],xmm10[2],xmm1[3],xmm10[3],xmm1[4],xmm10[4],xmm1[5],xmm10[5],xmm1[6],xmm10[6],xmm1[7],xmm10[7]
	movdqa	%xmm1, %xmm15
	punpcklwd	%xmm1, %xmm15           # xmm15 = xmm15[0],xmm1[0],xmm15[1],xmm1[1],xmm15[2],xmm1[2],xmm15[3],xmm1[3]
	pshufd	$0, %xmm2, %xmm6                # xmm6 = xmm2[0,0,0,0]
	pxor	%xmm15, %xmm6
	punpckhwd	%xmm1, %xmm1            # xmm1 = xmm1[4,4,5,5,6,6,7,7]
	pshufd	$85, %xmm2, %xmm15              # xmm15 = xmm2[1,1,1,1]
	pxor	%xmm1, %xmm15
	punpckhbw	%xmm10, %xmm10          # xmm10 = xmm10[8,8,9,9,10,10,11,11,12,12,13,13,14,14,15,15]
	movdqa	%xmm10, %xmm0
	punpcklwd	%xmm10, %xmm0           # xmm0 = xmm0[0],xmm10[0],xmm0[1],xmm10[1],xmm0[2],xmm10[2],xmm0[3],xmm10[3]
	pshufd	$170, %xmm2, %xmm1              # xmm1 = xmm2[2,2,2,2]
	pxor	%xmm0, %xmm1
	punpckhwd	%xmm10, %xmm10          # xmm10 = xmm10[4,4,5,5,6,6,7,7]
	pshufd	$255, %xmm2, %xmm2              # xmm2 = xmm2[3,3,3,3]
	pxor	%xmm10, %xmm2
	shldq	$63, %r11, %r10
	movdqa	16(%rsp), %xmm0                 # 16-byte Reload
	movdqu	%xmm0, (%rcx)
	pxor	%xmm0, %xmm0
	movaps	(%rsp), %xmm10                  # 16-byte Reload
	movups	%xmm10, 16(%rcx)
	movdqu	%xmm4, 32(%rcx)
	movdqu	%xmm5, 48(%rcx)
	movdqu	%xmm7, 64(%rcx)
	movdqu	%xmm8, 80(%rcx)
	movdqu	%xmm3, 96(%rcx)
	movdqu	%xmm11, 112(%rcx)
	movdqu	%xmm9, 128(%rcx)
	movdqu	%xmm13, 144(%rcx)
	movdqu	%xmm14, 160(%rcx)
	movdqu	%xmm12, 176(%rcx)
	movdqu	%xmm6, 192(%rcx)
	movdqu	%xmm15, 208(%rcx)
	movdqu	%xmm1, 224(%rcx)
	shrq	%r9
	movq	%rdx, %rsi
	shlq	$60, %rsi
	sarq	$63, %rsi
	andq	%rax, %rsi
	xorq	%r9, %rsi
	shldq	$63, %r10, %r9
	movdqu	%xmm2, 240(%rcx)
	movq	%rsi, %r8
	shrq	%r8
	movq	%rdx, %rdi
	shlq	$59, %rdi
	sarq	$63, %rdi
	andq	%rax, %rdi
	xorq	%r8, %rdi
	shldq	$63, %r9, %r8
	movq	%rdi, %r11
	shrq	%r11
	movq	%rdx, %rbx
	shlq	$58, %rbx
	sarq	$63, %rbx
	andq	%rax, %rbx
	xorq	%r11, %rbx
	shldq	$63, %r8, %r11
	movq	%rbx, %r14
	shrq	%r14
	shlq	$57, %rdx
	sarq	$63, %rdx
	andq	%rax, %rdx
	bswapq	%r10
	bswapq	%rsi
	xorq	%r14, %rdx
	movq	%r10, %xmm1
	movq	%rsi, %xmm4
	punpcklqdq	%xmm1, %xmm4            # xmm4 = xmm4[0],xmm1[0]
	bswapq	%r9
	bswapq	%rdi
	movq	%r9, %xmm1
	movq	%rdi, %xmm2
	bswapq	%r8
	punpcklqdq	%xmm1, %xmm2            # xmm2 = xmm2[0],xmm1[0]
	bswapq	%rbx
	movq	%r8, %xmm1
	movq	%rbx, %xmm3
	punpcklqdq	%xmm1, %xmm3            # xmm3 = xmm3[0],xmm1[0]
	bswapq	%r11
	bswapq	%rdx
	movq	%r11, %xmm1
	movq	%rdx, %xmm6
	punpcklqdq	%xmm1, %xmm6            # xmm6 = xmm6[0],xmm1[0]
	pxor	%xmm5, %xmm5
	punpcklbw	%xmm2, %xmm5            # xmm5 = xmm5[0],xmm2[0],xmm5[1],xmm2[1],xmm5[2],xmm2[2],xmm5[3],xmm2[3],xmm5[4],xmm2[4],xmm5[5],xmm2[5],xmm5[6],xmm2[6],xmm5[7],xmm2[7]
	pxor	%xmm1, %xmm1
	punpckhbw	%xmm2, %xmm1            # xmm1 = xmm1[8],xmm2[8],xmm1[9],xmm2[9],xmm1[10],xmm2[10],xmm1[11],xmm2[11],xmm1[12],xmm2[12],xmm1[13],xmm2[13],xmm1[14],xmm2[14],xmm1[15],xmm2[15]
	pxor	%xmm4, %xmm2
	movdqa	%xmm4, %xmm7
	punpcklbw	%xmm2, %xmm7            # xmm7 = xmm7[0],xmm2[0],xmm7[1],xmm2[1],xmm7[2],xmm2[2],xmm7[3],xmm2[3],xmm7[4],xmm2[4],xmm7[5],xmm2[5],xmm7[6],xmm2[6],xmm7[7],xmm2[7]
	punpckhbw	%xmm2, %xmm4            # xmm4 = xmm4[8],xmm2[8],xmm4[9],xmm2[9],xmm4[10],xmm2[10],xmm4[11],xmm2[11],xmm4[12],xmm2[12],xmm4[13],xmm2[13],xmm4[14],xmm2[14],xmm4[15],xmm2[15]
	movdqa	%xmm5, %xmm9
	punpcklwd	%xmm7, %xmm9            # xmm9 = xmm9[0],xmm7[0],xmm9[1],xmm7[1],xmm9[2],xmm7[2],xmm9[3],xmm7[3]
	punpckhwd	%xmm7, %xmm5            # xmm5 = xmm5[4],xmm7[4],xmm5[5],xmm7[5],xmm5[6],xmm7[6],xmm5[7],xmm7[7]
	movdqa	%xmm1, %xmm2
	punpcklwd	%xmm4, %xmm2            # xmm2 = xmm2[0],xmm4[0],xmm2[1],xmm4[1],xmm2[2],xmm4[2],xmm2[3],xmm4[3]
	punpckhwd	%xmm4, %xmm1            # xmm1 = xmm1[4],xmm4[4],xmm1[5],xmm4[5],xmm1[6],xmm4[6],xmm1[7],xmm4[7]
	pxor	%xmm11, %xmm11
	punpcklbw	%xmm6, %xmm11           # xmm11 = xmm11[0],xmm6[0],xmm11[1],xmm6[1],xmm11[2],xmm6[2],xmm11[3],xmm6[3],xmm11[4],xmm6[4],xmm11[5],xmm6[5],xmm11[6],xmm6[6],xmm11[7],xmm6[7]
	punpckhbw	%xmm6, %xmm0            # xmm0 = xmm0[8],xmm6[8],xmm0[9],xmm6[9],xmm0[10],xmm6[10],xmm0[11],xmm6[11],xmm0[12],xmm6[12],xmm0[13],xmm6[13],xmm0[14],xmm6[14],xmm0[15],xmm6[15]
	pxor	%xmm3, %xmm6
	movdqa	%xmm3, %xmm4
	punpcklbw	%xmm6, %xmm4            # xmm4 = xmm4[0],xmm6[0],xmm4[1],xmm6[1],xmm4[2],xmm6[2],xmm4[3],xmm6[3],xmm4[4],xmm6[4],xmm4[5],xmm6[5],xmm4[6],xmm6[6],xmm4[7],xmm6[7]
	punpckhbw	%xmm6, %xmm3            # xmm3 = xmm3[8],xmm6[8],xmm3[9],xmm6[9],xmm3[10],xmm6[10],xmm3[11],xmm6[11],xmm3[12],xmm6[12],xmm3[13],xmm6[13],xmm3[14],xmm6[14],xmm3[15],xmm6[15]
	movdqa	%xmm11, %xmm7
	punpcklwd	%xmm4, %xmm7            # xmm7 = xmm7[0],xmm4[0],xmm7[1],xmm4[1],xmm7[2],xmm4[2],xmm7[3],xmm4[3]
	punpckhwd	%xmm4, %xmm11           # xmm11 = xmm11[4],xmm4[4],xmm11[5],xmm4[5],xmm11[6],xmm4[6],xmm11[7],xmm4[7]
	movdqa	%xmm0, %xmm8
	punpcklwd	%xmm3, %xmm8            # xmm8 = xmm8[0],xmm3[0],xmm8[1],xmm3[1],xmm8[2],xmm3[2],xmm8[3],xmm3[3]
	punpckhwd	%xmm3, %xmm0            # xmm0 = xmm0[4],xmm3[4],xmm0[5],xmm3[5],xmm0[6],xmm3[6],xmm0[7],xmm3[7]
	movdqa	%xmm9, %xmm6
	punpcklbw	%xmm9, %xmm6            # xmm6 = xmm6[0],xmm9[0],xmm6[1],xmm9[1],xmm6[2],xmm9[2],xmm6[3],xmm9[3],xmm6[4],xmm9[4],xmm6[5],xmm9[5],xmm6[6],xmm9[6],xmm6[7],xmm9[7]
	movdqa	%xmm6, %xmm4
	punpcklwd	%xmm6, %xmm4            # xmm4 = xmm4[0],xmm6[0],xmm4[1],xmm6[1],xmm4[2],xmm6[2],xmm4[3],xmm6[3]
	pshufd	$0, %xmm7, %xmm3                # xmm3 = xmm7[0,0,0,0]
	pxor	%xmm4, %xmm3
	movdqa	%xmm3, 16(%rsp)                 # 16-byte Spill
	punpckhwd	%xmm6, %xmm6            # xmm6 = xmm6[4,4,5,5,6,6,7,7]
	pshufd	$85, %xmm7, %xmm3               # xmm3 = xmm7[1,1,1,1]
	pxor	%xmm6, %xmm3
	movdqa	%xmm3, (%rsp)                   # 16-byte Spill
	punpckhbw	%xmm9, %xmm9            # xmm9 = xmm9[8,8,9,9,10,10,11,11,12,12,13,13,14,14,15,15]
	movdqa	%xmm9, %xmm10
	punpcklwd	%xmm9, %xmm10           # xmm10 = xmm10[0],xmm9[0],xmm10[1],xmm9[1],xmm10[2],xmm9[2],xmm10[3],xmm9[3]
	pshufd	$170, %xmm7, %xmm6              # xmm6 = xmm7[2,2,2,2]
	pxor	%xmm10, %xmm6
	punpckhwd	%xmm9, %xmm9            # xmm9 = xmm9[4,4,5,5,6,6,7,7]
	pshufd	$255, %xmm7, %xmm7              # xmm7 = xmm7[3,3,3,3]
	pxor	%xmm9, %xmm7
	movdqa	%xmm5, %xmm12
	punpcklbw	%xmm5, %xmm12           # xmm12 = xmm12[0],xmm5[0],xmm12[1],xmm5[1],xmm12[2],xmm5[2],xmm12[3],xmm5[3],xmm12[4],xmm5[4],xmm12[5],xmm5[5],xmm12[6],xmm5[6],xmm12[7],xmm5[7]
	movdqa	%xmm12, %xmm10
	punpcklwd	%xmm12, %xmm10          # xmm10 = xmm10[0],xmm12[0],xmm10[1],xmm12[1],xmm10[2],xmm12[2],xmm10[3],xmm12[3]
	pshufd	$0, %xmm11, %xmm9               # xmm9 = xmm11[0,0,0,0]
	pxor	%xmm10, %xmm9
	punpckhwd	%xmm12, %xmm12          # xmm12 = xmm12[4,4,5,5,6,6,7,7]
	pshufd	$85, %xmm11, %xmm10             # xmm10 = xmm11[1,1,1,1]
	pxor	%xmm12, %xmm10
	punpckhbw	%xmm5, %xmm5            # xmm5 = xmm5[8,8,9,9,10,10,11,11,12,12,13,13,14,14,15,15]
	movdqa	%xmm5, %xmm13
	punpcklwd	%xmm5, %xmm13           # xmm13 = xmm13[0],xmm5[0],xmm13[1],xmm5[1],xmm13[2],xmm5[2],xmm13[3],xmm5[3]
	pshufd	$170, %xmm11, %xmm12            # xmm12 = xmm11[2,2,2,2]
	pxor	%xmm13, %xmm12
	punpckhwd	%xmm5, %xmm5            # xmm5 = xmm5[4,4,5,5,6,6,7,7]
	pshufd	$255, %xmm11, %xmm11            # xmm11 = xmm11[3,3,3,3]
	pxor	%xmm5, %xmm11
	movdqa	%xmm2, %xmm14
	punpcklbw	%xmm2, %xmm14           # xmm14 = xmm14[0],xmm2[0],xmm14[1],xmm2[1],xmm14[2],xmm2[2],xmm14[3],xmm2[3],xmm14[4],xmm2[4],xmm14[5],xmm2[5],xmm14[6],xmm2[6],xmm14[7],xmm2[7]
	movdqa	%xmm14, %xmm13
	punpcklwd	%xmm14, %xmm13          # xmm13 = xmm13[0],xmm14[0],xmm13[1],xmm14[1],xmm13[2],xmm14[2],xmm13[3],xmm14[3]
	pshufd	$0, %xmm8, %xmm5                # xmm5 = xmm8[0,0,0,0]
	pxor	%xmm13, %xmm5
	punpckhwd	%xmm14, %xmm14          # xmm14 = xmm14[4,4,5,5,6,6,7,7]
	pshufd	$85, %xmm8, %xmm13              # xmm13 = xmm8[1,1,1,1]
	pxor	%xmm14, %xmm13
	punpckhbw	%xmm2, %xmm2            # xmm2 = xmm2[8,8,9,9,10,10,11,11,12,12,13,13,14,14,15,15]
	movdqa	%xmm2, %xmm15
	punpcklwd	%xmm2, %xmm15           # xmm15 = xmm15[0],xmm2[0],xmm15[1],xmm2[1],xmm15[2],xmm2[2],xmm15[3],xmm2[3]
	pshufd	$170, %xmm8, %xmm14             # xmm14 = xmm8[2,2,2,2]
	pxor	%xmm15, %xmm14
	punpckhwd	%xmm2, %xmm2            # xmm2 = xmm2[4,4,5,5,6,6,7,7]
	pshufd	$255, %xmm8, %xmm8              # xmm8 = xmm8[3,3,3,3]
	pxor	%xmm2, %xmm8
	movdqa	%xmm1, %xmm2
	punpcklbw	%xmm1, %xmm2            # xmm2 = xmm2[0],xmm1[0],xmm2[1],xmm1[1],xmm2[2],xmm1[2],xmm2[3],xmm1[3],xmm2[4],xmm1[4],xmm2[5],xmm1[5],xmm2[6],xmm1[6],xmm2[7],xmm1[7]
	movdqa	%xmm2, %xmm15
	punpcklwd	%xmm2, %xmm15           # xmm15 = xmm15[0],xmm2[0],xmm15[1],xmm2[1],xmm15[2],xmm2[2],xmm15[3],xmm2[3]
	pshufd	$0, %xmm0, %xmm4                # xmm4 = xmm0[0,0,0,0]
	pxor	%xmm15, %xmm4
	punpckhwd	%xmm2, %xmm2            # xmm2 = xmm2[4,4,5,5,6,6,7,7]
	pshufd	$85, %xmm0, %xmm15              # xmm15 = xmm0[1,1,1,1]
	pxor	%xmm2, %xmm15
	punpckhbw	%xmm1, %xmm1            # xmm1 = xmm1[8,8,9,9,10,10,11,11,12,12,13,13,14,14,15,15]
	movdqa	%xmm1, %xmm2
	punpcklwd	%xmm1, %xmm2            # xmm2 = xmm2[0],xmm1[0],xmm2[1],xmm1[1],xmm2[2],xmm1[2],xmm2[3],xmm1[3]
	pshufd	$170, %xmm0, %xmm3              # xmm3 = xmm0[2,2,2,2]
	pxor	%xmm2, %xmm3
	punpckhwd	%xmm1, %xmm1            # xmm1 = xmm1[4,4,5,5,6,6,7,7]
	pshufd	$255, %xmm0, %xmm2              # xmm2 = xmm0[3,3,3,3]
	pxor	%xmm1, %xmm2
	movaps	16(%rsp), %xmm0                 # 16-byte Reload
	movups	%xmm0, 256(%rcx)
	movaps	(%rsp), %xmm0                   # 16-byte Reload
	movups	%xmm0, 272(%rcx)
	movdqu	%xmm6, 288(%rcx)
	movdqu	%xmm7, 304(%rcx)
	movdqu	%xmm9, 320(%rcx)
	movdqu	%xmm10, 336(%rcx)
	movdqu	%xmm12, 352(%rcx)
	movdqu	%xmm11, 368(%rcx)
	movdqu	%xmm5, 384(%rcx)
	movdqu	%xmm13, 400(%rcx)
	movdqu	%xmm14, 416(%rcx)
	movdqu	%xmm8, 432(%rcx)
	movdqu	%xmm4, 448(%rcx)
	movdqu	%xmm15, 464(%rcx)
	movdqu	%xmm3, 480(%rcx)
	movdqu	%xmm2, 496(%rcx)
	movaps	32(%rsp), %xmm6                 # 16-byte Reload
	movaps	48(%rsp), %xmm7                 # 16-byte Reload
	movaps	64(%rsp), %xmm8                 # 16-byte Reload
	movaps	80(%rsp), %xmm9                 # 16-byte Reload
	movaps	96(%rsp), %xmm10                # 16-byte Reload
	movaps	112(%rsp), %xmm11               # 16-byte Reload
	movaps	128(%rsp), %xmm12               # 16-byte Reload
	movaps	144(%rsp), %xmm13               # 16-byte Reload
	movaps	160(%rsp), %xmm14               # 16-byte Reload
	movaps	176(%rsp), %xmm15               # 16-byte Reload
	addq	$192, %rsp
	popq	%rbx
	popq	%rdi
	popq	%rsi
	popq	%r14
	popq	%r15
	retq
	.seh_endproc
                                        # -- End function
	.def	"deerlapse_0_1_0::key_derivation::hkdf::Expander::fill_okm::<#01e4f4eb65b1d8bb>";
	.scl	3;
	.type	32;
	.endef
"deerlapse_0_1_0::key_derivation::hkdf::Expander::fill_okm::<#01e4f4eb65b1d8bb>": # -- Begin function key_derivation::hkdf::Expander::fill_okm::<#01e4f4eb65b1d8bb>
                                        # @"deerlapse_0_1_0::key_derivation::hkdf::Expander::fill_okm::<#01e4f4eb65b1d8bb>"
.seh_proc "deerlapse_0_1_0::key_derivation::hkdf::Expander::fill_okm::<#01e4f4eb65b1d8bb>"
# %bb.0:                                # %start
	pushq	%r15
	.seh_pushreg %r15
	pushq	%r14
	.seh_pushreg %r14
	pushq	%r13
	.seh_pushreg %r13
	pushq	%r12
	.seh_pushreg %r12
	pushq	%rsi
	.seh_pushreg %rsi
	pushq	%rdi
	.seh_pushreg %rdi
	pushq	%rbp
	.seh_pushreg %rbp
	pushq	%rbx
	.seh_pushreg %rbx
	subq	$1400, %rsp                     # imm = 0x578
	.seh_stackalloc 1400
	movaps	%xmm6, 1376(%rsp)               # 16-byte Spill
	.seh_savexmm %xmm6, 1376
	.seh_endprologue
	movq	%rdx, %rbx
	movq	%rcx, %r14
	leaq	47(%r9), %rcx
	movabsq	$-6148914691236517205, %rdx     # imm = 0xAAAAAAAAAAAAAAAB
	movq	%rcx, %rax
	mulq	%rdx
	movq	%rdx, 48(%rsp)                  # 8-byte Spill
	cmpq	$48, %rcx
	jb	.Ldeerlapse_0_1_0_BB35_3
# %bb.1:                                # %join.7.lr.ph
	movq	%r9, %r12
	movq	%r8, %rsi
	shrq	$5, 48(%rsp)                    # 8-byte Folded Spill
	xorl	%r13d, %r13d
	xorl	%r15d, %r15d
	movq	%rbx, 56(%rsp)                  # 8-byte Spill
.Ldeerlapse_0_1_0_BB35_2:                               # %join.7
                                        # =>This Inner Loop Header: Depth=1
	movups	(%r14), %xmm0
	movups	16(%r14), %xmm1
	movups	32(%r14), %xmm2
	movups	48(%r14), %xmm3
	leaq	160(%rsp), %rbp
	movaps	%xmm3, 48(%rbp)
	movaps	%xmm2, 32(%rbp)
	movaps	%xmm1, 16(%rbp)
	movaps	%xmm0, (%rbp)
	movl	$128, %r8d
	leaq	224(%rsp), %rcx
	leaq	64(%r14), %rdx
	callq	memcpy
	movaps	192(%r14), %xmm6
	movl	$192, %r8d
	leaq	367(%rsp), %rdi
	movq	%rdi, %rcx
	movq	%rbp, %rdx
	callq	memcpy
	movl	$192, %r8d
	leaq	768(%rsp), %rbp
	movq	%rbp, %rcx
	movq	%rdi, %rdx
	callq	memcpy
	movq	%r12, %rdi
	leaq	560(%rsp), %r12
	movl	$192, %r8d
	movq	%r12, %rcx
	movq	%rbp, %rdx
	callq	memcpy
	leaq	1168(%rsp), %rbp
	movl	$192, %r8d
	movq	%rbp, %rcx
	movq	%r12, %rdx
	callq	memcpy
	xorl	%eax, %eax
	movq	%r13, %rcx
	subq	$48, %rcx
	cmovaeq	%rcx, %rax
	movaps	%xmm6, 192(%rbp)
	leaq	(%rsi,%rax), %rdx
	movq	%r13, %r8
	subq	%rax, %r8
	movq	%rbp, %rcx
	callq	"deerlapse_0_1_0::sha2::block512::Core512::update"
	leaq	352(%rsp), %r12
	movl	$208, %r8d
	movq	%r12, %rcx
	movq	%rbp, %rdx
	callq	memcpy
	movq	(%rbx), %rdx
	movq	8(%rbx), %r8
	movq	%r12, %rcx
	callq	"deerlapse_0_1_0::sha2::block512::Core512::update"
	movq	%rsi, %rbx
	leaq	960(%rsp), %rsi
	movl	$208, %r8d
	movq	%rsi, %rcx
	movq	%r12, %rdx
	movq	%rdi, %r12
	callq	memcpy
	movl	$208, %r8d
	movq	%rbp, %rcx
	movq	%rsi, %rdx
	callq	memcpy
	incq	%r15
	leaq	47(%rsp), %rdx
	movb	%r15b, (%rdx)
	movl	$1, %r8d
	movq	%rbp, %rcx
	callq	"deerlapse_0_1_0::sha2::block512::Core512::update"
	leaq	112(%rsp), %rsi
	movq	%rsi, %rcx
	movq	%r14, %rdx
	movq	%rbp, %r8
	callq	"deerlapse_0_1_0::key_derivation::hmac::HmacKey::finish::<#01e4f4eb65b1d8bb>"
	movups	(%rsi), %xmm0
	movups	16(%rsi), %xmm1
	movups	32(%rsi), %xmm2
	leaq	64(%rsp), %rdx
	movaps	%xmm2, 32(%rdx)
	movaps	%xmm1, 16(%rdx)
	movaps	%xmm0, (%rdx)
	movq	%rdi, %rax
	subq	%r13, %rax
	cmpq	$48, %rax
	movl	$48, %r8d
	cmovbq	%rax, %r8
	leaq	(%r8,%r13), %rsi
	addq	%rbx, %r13
	movq	%r13, %rcx
	callq	memcpy
	movq	%rsi, %r13
	movq	%rbx, %rsi
	movq	56(%rsp), %rbx                  # 8-byte Reload
	cmpq	%r15, 48(%rsp)                  # 8-byte Folded Reload
	jne	.Ldeerlapse_0_1_0_BB35_2
.Ldeerlapse_0_1_0_BB35_3:                               # %after.3
	movaps	1376(%rsp), %xmm6               # 16-byte Reload
	addq	$1400, %rsp                     # imm = 0x578
	popq	%rbx
	popq	%rbp
	popq	%rdi
	popq	%rsi
	popq	%r12
	popq	%r13
	popq	%r14
	popq	%r15
	retq
	.seh_endproc
                                        # -- End function
	.def	"deerlapse_0_1_0::key_derivation::hkdf::Expander::fill_labeled::<#01e4f4eb65b1d8bb>";
	.scl	3;
	.type	32;
	.endef
"deerlapse_0_1_0::key_derivation::hkdf::Expander::fill_labeled::<#01e4f4eb65b1d8bb>": # -- Begin function key_derivation::hkdf::Expander::fill_labeled::<#01e4f4eb65b1d8bb>
                                        # @"deerlapse_0_1_0::key_derivation::hkdf::Expander::fill_labeled::<#01e4f4eb65b1d8bb>"
.seh_proc "deerlapse_0_1_0::key_derivation::hkdf::Expander::fill_labeled::<#01e4f4eb65b1d8bb>"
# %bb.0:                                # %start
	pushq	%r15
	.seh_pushreg %r15
	pushq	%r14
	.seh_pushreg %r14
	pushq	%r13
	.seh_pushreg %r13
	pushq	%r12
	.seh_pushreg %r12
	pushq	%rsi
	.seh_pushreg %rsi
	pushq	%rdi
	.seh_pushreg %rdi
	pushq	%rbx
	.seh_pushreg %rbx
	subq	$592, %rsp                      # imm = 0x250
	.seh_stackalloc 592
	.seh_endprologue
	movq	%r9, %r14
	movq	%r8, %r15
	movq	%rdx, %r12
	movq	%rcx, %rdi
	movq	696(%rsp), %rsi
	movq	688(%rsp), %r13
	movq	704(%rsp), %rbx
	leaq	81(%rsp), %rcx
	movl	$511, %r8d                      # imm = 0x1FF
	xorl	%edx, %edx
	callq	memset
	movw	%bx, 40(%rsp)
	movq	%r13, 32(%rsp)
	leaq	78(%rsp), %r13
	movq	%r13, %rcx
	movq	%r12, %rdx
	movq	%r15, %r8
	movq	%r14, %r9
	callq	"deerlapse_0_1_0::key_derivation::hkdf::write_hkdf_label"
	leaq	56(%rsp), %rdx
	movq	%r13, (%rdx)
	movq	%rax, 8(%rdx)
	movq	%rdi, %rcx
	movq	%rsi, %r8
	movq	%rbx, %r9
	callq	"deerlapse_0_1_0::key_derivation::hkdf::Expander::fill_okm::<#01e4f4eb65b1d8bb>"
	nop
	addq	$592, %rsp                      # imm = 0x250
	popq	%rbx
	popq	%rdi
	popq	%rsi
	popq	%r12
	popq	%r13
	popq	%r14
	popq	%r15
	retq
	.seh_endproc
                                        # -- End function
	.def	"deerlapse_0_1_0::key_derivation::secret::Secret::next";
	.scl	3;
	.type	32;
	.endef
"deerlapse_0_1_0::key_derivation::secret::Secret::next": # -- Begin function key_derivation::secret::Secret::next
                                        # @"deerlapse_0_1_0::key_derivation::secret::Secret::next"
.seh_proc "deerlapse_0_1_0::key_derivation::secret::Secret::next"
# %bb.0:                                # %start
	pushq	%r15
	.seh_pushreg %r15
	pushq	%r14
	.seh_pushreg %r14
	pushq	%rsi
	.seh_pushreg %rsi
	pushq	%rdi
	.seh_pushreg %rdi
	pushq	%rbx
	.seh_pushreg %rbx
	subq	$928, %rsp                      # imm = 0x3A0
	.seh_stackalloc 928
	movaps	%xmm6, 912(%rsp)                # 16-byte Spill
	.seh_savexmm %xmm6, 912
	.seh_endprologue
	movq	%r9, %rdi
	movq	%r8, %rbx
	movq	%rdx, %rax
	movq	%rcx, %rsi
	incq	%rdx
	cmpb	$0, (%rax)
	je	.Ldeerlapse_0_1_0_BB37_1
# %bb.2:                                # %arm.2
	leaq	448(%rsp), %r14
	movl	$48, %r8d
	movq	%r14, %rcx
	callq	"deerlapse_0_1_0::key_derivation::hmac::HmacKey::new::<#01e4f4eb65b1d8bb>"
	xorps	%xmm0, %xmm0
	leaq	192(%rsp), %r15
	movaps	%xmm0, 32(%r15)
	movaps	%xmm0, 16(%r15)
	movaps	%xmm0, (%r15)
	movq	%r15, 40(%rsp)
	movq	$48, 48(%rsp)
	movq	$0, 32(%rsp)
	leaq	.Ldeerlapse_0_1_0_static.6(%rip), %r9
	movq	%r14, %rcx
	movq	%rbx, %rdx
	movq	%rdi, %r8
	callq	"deerlapse_0_1_0::key_derivation::hkdf::Expander::fill_labeled::<#01e4f4eb65b1d8bb>"
	movaps	(%r15), %xmm0
	movaps	16(%r15), %xmm1
	movaps	32(%r15), %xmm2
	movaps	%xmm2, 144(%rsp)
	movaps	%xmm1, 128(%rsp)
	movaps	%xmm0, 112(%rsp)
	movaps	%xmm0, 64(%rsp)
	movaps	%xmm1, 80(%rsp)
	movaps	%xmm2, 96(%rsp)
	movb	$1, %al
	jmp	.Ldeerlapse_0_1_0_BB37_3
.Ldeerlapse_0_1_0_BB37_1:                               # %arm.1
	leaq	240(%rsp), %r14
	movl	$32, %r8d
	movq	%r14, %rcx
	callq	"deerlapse_0_1_0::key_derivation::hmac::HmacKey::new::<#7cab53feae2e1c66>"
	xorps	%xmm6, %xmm6
	leaq	192(%rsp), %r15
	movaps	%xmm6, 16(%r15)
	movaps	%xmm6, (%r15)
	movq	%r15, 40(%rsp)
	movq	$32, 48(%rsp)
	movq	$0, 32(%rsp)
	leaq	.Ldeerlapse_0_1_0_static.6(%rip), %r9
	movq	%r14, %rcx
	movq	%rbx, %rdx
	movq	%rdi, %r8
	callq	"deerlapse_0_1_0::key_derivation::hkdf::Expander::fill_labeled::<#7cab53feae2e1c66>"
	movaps	(%r15), %xmm0
	movaps	16(%r15), %xmm1
	movaps	%xmm1, 176(%rsp)
	movaps	%xmm0, 160(%rsp)
	movaps	%xmm6, 96(%rsp)
	movaps	%xmm0, 64(%rsp)
	movaps	%xmm1, 80(%rsp)
	xorl	%eax, %eax
.Ldeerlapse_0_1_0_BB37_3:                               # %join.4
	movb	%al, (%rsi)
	movaps	64(%rsp), %xmm0
	movaps	80(%rsp), %xmm1
	movaps	96(%rsp), %xmm2
	movups	%xmm0, 1(%rsi)
	movups	%xmm1, 17(%rsi)
	movups	%xmm2, 33(%rsi)
	movaps	912(%rsp), %xmm6                # 16-byte Reload
	addq	$928, %rsp                      # imm = 0x3A0
	popq	%rbx
	popq	%rdi
	popq	%rsi
	popq	%r14
	popq	%r15
	retq
	.seh_endproc
                                        # -- End function
	.section	.rdata,"dr"
	.p2align	4, 0x0                          # -- Begin function deerlapse_0_1_0_chacha20
.Ldeerlapse_0_1_0_CPI38_0:
	.long	1634760805                      # 0x61707865
	.long	857760878                       # 0x3320646e
	.long	2036477234                      # 0x79622d32
	.long	1797285236                      # 0x6b206574
.Ldeerlapse_0_1_0_CPI38_1:
	.byte	2                               # 0x2
	.byte	3                               # 0x3
	.byte	0                               # 0x0
	.byte	1                               # 0x1
	.byte	6                               # 0x6
	.byte	7                               # 0x7
	.byte	4                               # 0x4
	.byte	5                               # 0x5
	.byte	10                              # 0xa
	.byte	11                              # 0xb
	.byte	8                               # 0x8
	.byte	9                               # 0x9
	.byte	14                              # 0xe
	.byte	15                              # 0xf
	.byte	12                              # 0xc
	.byte	13                              # 0xd
.Ldeerlapse_0_1_0_CPI38_2:
	.byte	3                               # 0x3
	.byte	0                               # 0x0
	.byte	1                               # 0x1
	.byte	2                               # 0x2
	.byte	7                               # 0x7
	.byte	4                               # 0x4
	.byte	5                               # 0x5
	.byte	6                               # 0x6
	.byte	11                              # 0xb
	.byte	8                               # 0x8
	.byte	9                               # 0x9
	.byte	10                              # 0xa
	.byte	15                              # 0xf
	.byte	12                              # 0xc
	.byte	13                              # 0xd
	.byte	14                              # 0xe
.Ldeerlapse_0_1_0_CPI38_3:
	.byte	14                              # 0xe
	.byte	15                              # 0xf
	.byte	12                              # 0xc
	.byte	13                              # 0xd
	.byte	2                               # 0x2
	.byte	3                               # 0x3
	.byte	0                               # 0x0
	.byte	1                               # 0x1
	.byte	6                               # 0x6
	.byte	7                               # 0x7
	.byte	4                               # 0x4
	.byte	5                               # 0x5
	.byte	10                              # 0xa
	.byte	11                              # 0xb
	.byte	8                               # 0x8
	.byte	9                               # 0x9
.Ldeerlapse_0_1_0_CPI38_4:
	.long	0                               # 0x0
	.long	1                               # 0x1
	.long	2                               # 0x2
	.long	3                               # 0x3
.Ldeerlapse_0_1_0_CPI38_5:
	.long	1797285236                      # 0x6b206574
	.long	1797285236                      # 0x6b206574
	.long	1797285236                      # 0x6b206574
	.long	1797285236                      # 0x6b206574
.Ldeerlapse_0_1_0_CPI38_6:
	.long	2036477234                      # 0x79622d32
	.long	2036477234                      # 0x79622d32
	.long	2036477234                      # 0x79622d32
	.long	2036477234                      # 0x79622d32
.Ldeerlapse_0_1_0_CPI38_7:
	.long	857760878                       # 0x3320646e
	.long	857760878                       # 0x3320646e
	.long	857760878                       # 0x3320646e
	.long	857760878                       # 0x3320646e
.Ldeerlapse_0_1_0_CPI38_8:
	.long	1634760805                      # 0x61707865
	.long	1634760805                      # 0x61707865
	.long	1634760805                      # 0x61707865
	.long	1634760805                      # 0x61707865
	.text
	.ifdef	deerlapse_in_rust
	.globl	deerlapse_0_1_0_chacha20
	.p2align	4
deerlapse_0_1_0_chacha20:                     # @deerlapse_0_1_0_chacha20
.seh_proc deerlapse_0_1_0_chacha20
	.def	deerlapse_0_1_0_chacha20;
	.scl	2;
	.type	32;
	.endef
	.else
	.globl	deerlapse_chacha20
	.p2align	4
deerlapse_chacha20:                     # @deerlapse_chacha20
.seh_proc deerlapse_chacha20
	.def	deerlapse_chacha20;
	.scl	2;
	.type	32;
	.endef
	.endif
# %bb.0:                                # %start
	pushq	%r15
	.seh_pushreg %r15
	pushq	%r14
	.seh_pushreg %r14
	pushq	%r13
	.seh_pushreg %r13
	pushq	%r12
	.seh_pushreg %r12
	pushq	%rsi
	.seh_pushreg %rsi
	pushq	%rdi
	.seh_pushreg %rdi
	pushq	%rbp
	.seh_pushreg %rbp
	pushq	%rbx
	.seh_pushreg %rbx
	subq	$664, %rsp                      # imm = 0x298
	.seh_stackalloc 664
	movdqa	%xmm15, 640(%rsp)               # 16-byte Spill
	.seh_savexmm %xmm15, 640
	movaps	%xmm14, 624(%rsp)               # 16-byte Spill
	.seh_savexmm %xmm14, 624
	movaps	%xmm13, 608(%rsp)               # 16-byte Spill
	.seh_savexmm %xmm13, 608
	movaps	%xmm12, 592(%rsp)               # 16-byte Spill
	.seh_savexmm %xmm12, 592
	movdqa	%xmm11, 576(%rsp)               # 16-byte Spill
	.seh_savexmm %xmm11, 576
	movdqa	%xmm10, 560(%rsp)               # 16-byte Spill
	.seh_savexmm %xmm10, 560
	movdqa	%xmm9, 544(%rsp)                # 16-byte Spill
	.seh_savexmm %xmm9, 544
	movdqa	%xmm8, 528(%rsp)                # 16-byte Spill
	.seh_savexmm %xmm8, 528
	movdqa	%xmm7, 512(%rsp)                # 16-byte Spill
	.seh_savexmm %xmm7, 512
	movaps	%xmm6, 496(%rsp)                # 16-byte Spill
	.seh_savexmm %xmm6, 496
	.seh_endprologue
	movl	%r8d, %esi
	movq	768(%rsp), %rdi
	xorl	%eax, %eax
	testq	%r9, %r9
	sete	%r8b
	movl	%esi, %r10d
	movabsq	$4294967296, %rbx               # imm = 0x100000000
	subq	%r10, %rbx
	movq	%rdi, %r14
	shrq	$6, %r14
	movl	%edi, %r10d
	andl	$63, %r10d
	cmpq	$1, %r10
	sbbq	$-1, %r14
	cmpq	%r14, %rbx
	jb	.Ldeerlapse_0_1_0_BB38_23
# %bb.1:                                # %join.3.i
	testq	%rdi, %rdi
	je	.Ldeerlapse_0_1_0_BB38_23
# %bb.2:                                # %join.5.lr.ph.i.i.i
	movb	%r8b, %al
	shll	$12, %eax
	leaq	(%r9,%rax), %r15
	movl	(%rdx), %ebp
	movq	4(%rdx), %xmm3                  # xmm3 = mem[0],zero
	movq	24(%rcx), %xmm0                 # xmm0 = mem[0],zero
	movq	8(%rcx), %xmm1                  # xmm1 = mem[0],zero
	movd	%ebp, %xmm2
	pshufd	$0, %xmm2, %xmm2                # xmm2 = xmm2[0,0,0,0]
	movdqa	%xmm2, 304(%rsp)                # 16-byte Spill
	pshufd	$0, %xmm3, %xmm2                # xmm2 = xmm3[0,0,0,0]
	movdqa	%xmm2, 288(%rsp)                # 16-byte Spill
	movdqa	%xmm3, 416(%rsp)                # 16-byte Spill
	pshufd	$85, %xmm3, %xmm2               # xmm2 = xmm3[1,1,1,1]
	movdqa	%xmm2, 272(%rsp)                # 16-byte Spill
	movdqu	(%rcx), %xmm8
	movdqu	16(%rcx), %xmm9
	movd	(%rcx), %xmm2                   # xmm2 = mem[0],zero,zero,zero
	pshufd	$0, %xmm2, %xmm2                # xmm2 = xmm2[0,0,0,0]
	movdqa	%xmm2, 256(%rsp)                # 16-byte Spill
	movd	4(%rcx), %xmm2                  # xmm2 = mem[0],zero,zero,zero
	pshufd	$0, %xmm2, %xmm2                # xmm2 = xmm2[0,0,0,0]
	movdqa	%xmm2, 240(%rsp)                # 16-byte Spill
	pshufd	$0, %xmm1, %xmm2                # xmm2 = xmm1[0,0,0,0]
	movdqa	%xmm2, 224(%rsp)                # 16-byte Spill
	pshufd	$85, %xmm1, %xmm1               # xmm1 = xmm1[1,1,1,1]
	movdqa	%xmm1, 208(%rsp)                # 16-byte Spill
	movd	16(%rcx), %xmm1                 # xmm1 = mem[0],zero,zero,zero
	pshufd	$0, %xmm1, %xmm1                # xmm1 = xmm1[0,0,0,0]
	movdqa	%xmm1, 192(%rsp)                # 16-byte Spill
	movd	20(%rcx), %xmm1                 # xmm1 = mem[0],zero,zero,zero
	pshufd	$0, %xmm1, %xmm1                # xmm1 = xmm1[0,0,0,0]
	movdqa	%xmm1, 176(%rsp)                # 16-byte Spill
	pshufd	$0, %xmm0, %xmm1                # xmm1 = xmm0[0,0,0,0]
	movdqa	%xmm1, 160(%rsp)                # 16-byte Spill
	pshufd	$85, %xmm0, %xmm0               # xmm0 = xmm0[1,1,1,1]
	movdqa	%xmm0, 144(%rsp)                # 16-byte Spill
	leaq	(%rax,%r9), %r12
	addq	$16, %r12
	xorl	%eax, %eax
	xorl	%r13d, %r13d
	movdqa	%xmm8, 400(%rsp)                # 16-byte Spill
	movdqa	%xmm9, 384(%rsp)                # 16-byte Spill
	jmp	.Ldeerlapse_0_1_0_BB38_3
	.p2align	4
.Ldeerlapse_0_1_0_BB38_21:                              # %"aead_ciphers_base::chacha::xor_stream::<=64>.exit.loopexit.i.i.i"
                                        #   in Loop: Header=BB38_3 Depth=1
	leaq	320(%rsp), %rdx
	callq	memcpy
	incq	%r13
	movq	%r13, %rax
	shlq	$6, %rax
	cmpq	%rdi, %rax
	jae	.Ldeerlapse_0_1_0_BB38_23
.Ldeerlapse_0_1_0_BB38_3:                               # %join.5.i.i.i
                                        # =>This Loop Header: Depth=1
                                        #     Child Loop BB38_8 Depth 2
                                        #     Child Loop BB38_15 Depth 2
                                        #     Child Loop BB38_19 Depth 2
                                        #     Child Loop BB38_5 Depth 2
	movq	%rdi, %rdx
	subq	%rax, %rdx
	leal	(%rsi,%r13), %ecx
	movd	%ecx, %xmm0
	cmpq	$256, %rdx                      # imm = 0x100
	jb	.Ldeerlapse_0_1_0_BB38_7
# %bb.4:                                # %then.6.i.i.i
                                        #   in Loop: Header=BB38_3 Depth=1
	pshufd	$0, %xmm0, %xmm12               # xmm12 = xmm0[0,0,0,0]
	paddd	.Ldeerlapse_0_1_0_CPI38_4(%rip), %xmm12
	movaps	.Ldeerlapse_0_1_0_CPI38_5(%rip), %xmm0          # xmm0 = [1797285236,1797285236,1797285236,1797285236]
	movaps	%xmm0, 64(%rsp)                 # 16-byte Spill
	movaps	.Ldeerlapse_0_1_0_CPI38_6(%rip), %xmm0          # xmm0 = [2036477234,2036477234,2036477234,2036477234]
	movaps	%xmm0, 96(%rsp)                 # 16-byte Spill
	movaps	.Ldeerlapse_0_1_0_CPI38_7(%rip), %xmm0          # xmm0 = [857760878,857760878,857760878,857760878]
	movaps	%xmm0, 80(%rsp)                 # 16-byte Spill
	movaps	.Ldeerlapse_0_1_0_CPI38_8(%rip), %xmm0          # xmm0 = [1634760805,1634760805,1634760805,1634760805]
	movaps	%xmm0, 48(%rsp)                 # 16-byte Spill
	movl	$10, %ecx
	movdqa	256(%rsp), %xmm4                # 16-byte Reload
	movdqa	240(%rsp), %xmm13               # 16-byte Reload
	movdqa	224(%rsp), %xmm14               # 16-byte Reload
	movdqa	208(%rsp), %xmm5                # 16-byte Reload
	movdqa	192(%rsp), %xmm6                # 16-byte Reload
	movdqa	176(%rsp), %xmm7                # 16-byte Reload
	movdqa	160(%rsp), %xmm8                # 16-byte Reload
	movdqa	144(%rsp), %xmm9                # 16-byte Reload
	movdqa	%xmm12, 112(%rsp)               # 16-byte Spill
	movdqa	304(%rsp), %xmm11               # 16-byte Reload
	movdqa	288(%rsp), %xmm10               # 16-byte Reload
	movdqa	272(%rsp), %xmm15               # 16-byte Reload
	.p2align	4
.Ldeerlapse_0_1_0_BB38_5:                               # %join.5.i.i.i.i.i
                                        #   Parent Loop BB38_3 Depth=1
                                        # =>  This Inner Loop Header: Depth=2
	movdqa	48(%rsp), %xmm2                 # 16-byte Reload
	paddd	%xmm4, %xmm2
	pxor	%xmm2, %xmm12
	pshufb	.Ldeerlapse_0_1_0_CPI38_1(%rip), %xmm12         # xmm12 = xmm12[2,3,0,1,6,7,4,5,10,11,8,9,14,15,12,13]
	paddd	%xmm12, %xmm6
	pxor	%xmm6, %xmm4
	movdqa	%xmm4, %xmm0
	psrld	$20, %xmm0
	pslld	$12, %xmm4
	por	%xmm0, %xmm4
	paddd	%xmm4, %xmm2
	movdqa	.Ldeerlapse_0_1_0_CPI38_2(%rip), %xmm3          # xmm3 = [3,0,1,2,7,4,5,6,11,8,9,10,15,12,13,14]
	movdqa	%xmm2, %xmm0
	pshufb	%xmm3, %xmm0
	pshufb	%xmm3, %xmm12
	pxor	%xmm0, %xmm12
	paddd	%xmm12, %xmm6
	movdqa	%xmm6, 32(%rsp)                 # 16-byte Spill
	pxor	%xmm6, %xmm4
	movdqa	%xmm4, %xmm0
	psrld	$25, %xmm0
	pslld	$7, %xmm4
	por	%xmm0, %xmm4
	movdqa	80(%rsp), %xmm6                 # 16-byte Reload
	paddd	%xmm13, %xmm6
	pxor	%xmm6, %xmm11
	movdqa	.Ldeerlapse_0_1_0_CPI38_1(%rip), %xmm1          # xmm1 = [2,3,0,1,6,7,4,5,10,11,8,9,14,15,12,13]
	pshufb	%xmm1, %xmm11
	paddd	%xmm11, %xmm7
	pxor	%xmm7, %xmm13
	movdqa	%xmm13, %xmm0
	psrld	$20, %xmm0
	pslld	$12, %xmm13
	por	%xmm0, %xmm13
	paddd	%xmm13, %xmm6
	movdqa	%xmm6, %xmm0
	pshufb	%xmm3, %xmm0
	pshufb	%xmm3, %xmm11
	pxor	%xmm0, %xmm11
	paddd	%xmm11, %xmm7
	movdqa	%xmm7, 128(%rsp)                # 16-byte Spill
	pxor	%xmm7, %xmm13
	movdqa	%xmm13, %xmm0
	psrld	$25, %xmm0
	pslld	$7, %xmm13
	por	%xmm0, %xmm13
	movdqa	96(%rsp), %xmm3                 # 16-byte Reload
	paddd	%xmm14, %xmm3
	pxor	%xmm3, %xmm10
	pshufb	%xmm1, %xmm10
	movdqa	%xmm1, %xmm7
	paddd	%xmm10, %xmm8
	pxor	%xmm8, %xmm14
	movdqa	%xmm14, %xmm0
	psrld	$20, %xmm0
	pslld	$12, %xmm14
	por	%xmm0, %xmm14
	paddd	%xmm14, %xmm3
	movdqa	%xmm3, %xmm0
	movdqa	.Ldeerlapse_0_1_0_CPI38_2(%rip), %xmm1          # xmm1 = [3,0,1,2,7,4,5,6,11,8,9,10,15,12,13,14]
	pshufb	%xmm1, %xmm0
	pshufb	%xmm1, %xmm10
	pxor	%xmm0, %xmm10
	paddd	%xmm10, %xmm8
	pxor	%xmm8, %xmm14
	movdqa	%xmm14, %xmm0
	psrld	$25, %xmm0
	pslld	$7, %xmm14
	por	%xmm0, %xmm14
	movdqa	64(%rsp), %xmm1                 # 16-byte Reload
	paddd	%xmm5, %xmm1
	pxor	%xmm1, %xmm15
	pshufb	%xmm7, %xmm15
	paddd	%xmm15, %xmm9
	pxor	%xmm9, %xmm5
	movdqa	%xmm5, %xmm0
	psrld	$20, %xmm0
	pslld	$12, %xmm5
	por	%xmm0, %xmm5
	paddd	%xmm5, %xmm1
	movdqa	%xmm1, %xmm0
	movdqa	.Ldeerlapse_0_1_0_CPI38_2(%rip), %xmm7          # xmm7 = [3,0,1,2,7,4,5,6,11,8,9,10,15,12,13,14]
	pshufb	%xmm7, %xmm0
	pshufb	%xmm7, %xmm15
	pxor	%xmm0, %xmm15
	paddd	%xmm15, %xmm9
	pxor	%xmm9, %xmm5
	movdqa	%xmm5, %xmm0
	psrld	$25, %xmm0
	pslld	$7, %xmm5
	por	%xmm0, %xmm5
	paddd	%xmm13, %xmm2
	movdqa	%xmm2, %xmm0
	movdqa	%xmm8, %xmm7
	movdqa	%xmm9, %xmm8
	movdqa	.Ldeerlapse_0_1_0_CPI38_1(%rip), %xmm9          # xmm9 = [2,3,0,1,6,7,4,5,10,11,8,9,14,15,12,13]
	pshufb	%xmm9, %xmm0
	pshufb	%xmm9, %xmm15
	movdqa	%xmm8, %xmm9
	movdqa	%xmm7, %xmm8
	movdqa	128(%rsp), %xmm7                # 16-byte Reload
	pxor	%xmm0, %xmm15
	paddd	%xmm15, %xmm8
	pxor	%xmm8, %xmm13
	movdqa	%xmm13, %xmm0
	psrld	$20, %xmm0
	pslld	$12, %xmm13
	por	%xmm0, %xmm13
	paddd	%xmm13, %xmm2
	movdqa	%xmm2, 48(%rsp)                 # 16-byte Spill
	movdqa	%xmm2, %xmm0
	movdqa	.Ldeerlapse_0_1_0_CPI38_2(%rip), %xmm2          # xmm2 = [3,0,1,2,7,4,5,6,11,8,9,10,15,12,13,14]
	pshufb	%xmm2, %xmm0
	pshufb	%xmm2, %xmm15
	pxor	%xmm0, %xmm15
	paddd	%xmm15, %xmm8
	pxor	%xmm8, %xmm13
	movdqa	%xmm13, %xmm0
	psrld	$25, %xmm0
	pslld	$7, %xmm13
	por	%xmm0, %xmm13
	paddd	%xmm14, %xmm6
	movdqa	%xmm6, %xmm0
	movdqa	.Ldeerlapse_0_1_0_CPI38_1(%rip), %xmm2          # xmm2 = [2,3,0,1,6,7,4,5,10,11,8,9,14,15,12,13]
	pshufb	%xmm2, %xmm0
	pshufb	%xmm2, %xmm12
	pxor	%xmm0, %xmm12
	paddd	%xmm12, %xmm9
	pxor	%xmm9, %xmm14
	movdqa	%xmm14, %xmm0
	psrld	$20, %xmm0
	pslld	$12, %xmm14
	por	%xmm0, %xmm14
	paddd	%xmm14, %xmm6
	movdqa	%xmm6, 80(%rsp)                 # 16-byte Spill
	movdqa	%xmm6, %xmm0
	movdqa	32(%rsp), %xmm6                 # 16-byte Reload
	movdqa	.Ldeerlapse_0_1_0_CPI38_2(%rip), %xmm2          # xmm2 = [3,0,1,2,7,4,5,6,11,8,9,10,15,12,13,14]
	pshufb	%xmm2, %xmm0
	pshufb	%xmm2, %xmm12
	pxor	%xmm0, %xmm12
	paddd	%xmm12, %xmm9
	pxor	%xmm9, %xmm14
	movdqa	%xmm14, %xmm0
	psrld	$25, %xmm0
	pslld	$7, %xmm14
	por	%xmm0, %xmm14
	paddd	%xmm5, %xmm3
	movdqa	%xmm3, %xmm0
	movdqa	.Ldeerlapse_0_1_0_CPI38_1(%rip), %xmm2          # xmm2 = [2,3,0,1,6,7,4,5,10,11,8,9,14,15,12,13]
	pshufb	%xmm2, %xmm0
	pshufb	%xmm2, %xmm11
	pxor	%xmm0, %xmm11
	paddd	%xmm11, %xmm6
	pxor	%xmm6, %xmm5
	movdqa	%xmm5, %xmm0
	psrld	$20, %xmm0
	pslld	$12, %xmm5
	por	%xmm0, %xmm5
	paddd	%xmm5, %xmm3
	movdqa	%xmm3, 96(%rsp)                 # 16-byte Spill
	movdqa	%xmm3, %xmm0
	movdqa	.Ldeerlapse_0_1_0_CPI38_2(%rip), %xmm3          # xmm3 = [3,0,1,2,7,4,5,6,11,8,9,10,15,12,13,14]
	pshufb	%xmm3, %xmm0
	pshufb	%xmm3, %xmm11
	pxor	%xmm0, %xmm11
	paddd	%xmm11, %xmm6
	pxor	%xmm6, %xmm5
	movdqa	%xmm5, %xmm0
	psrld	$25, %xmm0
	pslld	$7, %xmm5
	por	%xmm0, %xmm5
	paddd	%xmm4, %xmm1
	movdqa	%xmm1, %xmm0
	movdqa	.Ldeerlapse_0_1_0_CPI38_1(%rip), %xmm2          # xmm2 = [2,3,0,1,6,7,4,5,10,11,8,9,14,15,12,13]
	pshufb	%xmm2, %xmm0
	pshufb	%xmm2, %xmm10
	pxor	%xmm0, %xmm10
	paddd	%xmm10, %xmm7
	pxor	%xmm7, %xmm4
	movdqa	%xmm4, %xmm0
	psrld	$20, %xmm0
	pslld	$12, %xmm4
	por	%xmm0, %xmm4
	paddd	%xmm4, %xmm1
	movdqa	%xmm1, 64(%rsp)                 # 16-byte Spill
	pshufb	%xmm3, %xmm1
	pshufb	%xmm3, %xmm10
	pxor	%xmm1, %xmm10
	paddd	%xmm10, %xmm7
	pxor	%xmm7, %xmm4
	movdqa	%xmm4, %xmm0
	psrld	$25, %xmm0
	pslld	$7, %xmm4
	por	%xmm0, %xmm4
	decl	%ecx
	jne	.Ldeerlapse_0_1_0_BB38_5
# %bb.6:                                # %vector.body
                                        #   in Loop: Header=BB38_3 Depth=1
	paddd	112(%rsp), %xmm12               # 16-byte Folded Reload
	paddd	304(%rsp), %xmm11               # 16-byte Folded Reload
	movdqa	%xmm12, %xmm1
	punpckhdq	%xmm11, %xmm1           # xmm1 = xmm1[2],xmm11[2],xmm1[3],xmm11[3]
	paddd	288(%rsp), %xmm10               # 16-byte Folded Reload
	paddd	272(%rsp), %xmm15               # 16-byte Folded Reload
	movdqa	%xmm1, 32(%rsp)                 # 16-byte Spill
	pblendw	$240, %xmm10, %xmm1             # xmm1 = xmm1[0,1,2,3],xmm10[4,5,6,7]
	pshufd	$170, %xmm15, %xmm0             # xmm0 = xmm15[2,2,2,2]
	pblendw	$63, %xmm1, %xmm0               # xmm0 = xmm1[0,1,2,3,4,5],xmm0[6,7]
	movdqa	%xmm0, 128(%rsp)                # 16-byte Spill
	paddd	192(%rsp), %xmm6                # 16-byte Folded Reload
	paddd	176(%rsp), %xmm7                # 16-byte Folded Reload
	movdqa	%xmm6, %xmm0
	punpckhdq	%xmm7, %xmm0            # xmm0 = xmm0[2],xmm7[2],xmm0[3],xmm7[3]
	paddd	160(%rsp), %xmm8                # 16-byte Folded Reload
	paddd	144(%rsp), %xmm9                # 16-byte Folded Reload
	movdqa	%xmm0, 464(%rsp)                # 16-byte Spill
	pblendw	$240, %xmm8, %xmm0              # xmm0 = xmm0[0,1,2,3],xmm8[4,5,6,7]
	pshufd	$170, %xmm9, %xmm1              # xmm1 = xmm9[2,2,2,2]
	pblendw	$63, %xmm0, %xmm1               # xmm1 = xmm0[0,1,2,3,4,5],xmm1[6,7]
	movdqa	%xmm1, 112(%rsp)                # 16-byte Spill
	paddd	256(%rsp), %xmm4                # 16-byte Folded Reload
	paddd	240(%rsp), %xmm13               # 16-byte Folded Reload
	movdqa	%xmm4, %xmm0
	punpckhdq	%xmm13, %xmm0           # xmm0 = xmm0[2],xmm13[2],xmm0[3],xmm13[3]
	paddd	224(%rsp), %xmm14               # 16-byte Folded Reload
	movdqa	48(%rsp), %xmm3                 # 16-byte Reload
	paddd	.Ldeerlapse_0_1_0_CPI38_8(%rip), %xmm3
	movdqa	80(%rsp), %xmm1                 # 16-byte Reload
	paddd	.Ldeerlapse_0_1_0_CPI38_7(%rip), %xmm1
	movdqa	%xmm1, 80(%rsp)                 # 16-byte Spill
	paddd	208(%rsp), %xmm5                # 16-byte Folded Reload
	movdqa	%xmm0, 448(%rsp)                # 16-byte Spill
	pblendw	$240, %xmm14, %xmm0             # xmm0 = xmm0[0,1,2,3],xmm14[4,5,6,7]
	pshufd	$170, %xmm5, %xmm2              # xmm2 = xmm5[2,2,2,2]
	pblendw	$63, %xmm0, %xmm2               # xmm2 = xmm0[0,1,2,3,4,5],xmm2[6,7]
	movdqa	%xmm2, 48(%rsp)                 # 16-byte Spill
	movdqa	96(%rsp), %xmm2                 # 16-byte Reload
	paddd	.Ldeerlapse_0_1_0_CPI38_6(%rip), %xmm2
	movdqa	%xmm2, 96(%rsp)                 # 16-byte Spill
	movdqa	%xmm3, %xmm0
	punpckhdq	%xmm1, %xmm0            # xmm0 = xmm0[2],xmm1[2],xmm0[3],xmm1[3]
	movdqa	64(%rsp), %xmm1                 # 16-byte Reload
	paddd	.Ldeerlapse_0_1_0_CPI38_5(%rip), %xmm1
	movdqa	%xmm0, 480(%rsp)                # 16-byte Spill
	pblendw	$240, %xmm2, %xmm0              # xmm0 = xmm0[0,1,2,3],xmm2[4,5,6,7]
	pshufd	$170, %xmm1, %xmm2              # xmm2 = xmm1[2,2,2,2]
	pblendw	$63, %xmm0, %xmm2               # xmm2 = xmm0[0,1,2,3,4,5],xmm2[6,7]
	movdqa	%xmm2, 64(%rsp)                 # 16-byte Spill
	pshufd	$85, %xmm12, %xmm2              # xmm2 = xmm12[1,1,1,1]
	pblendw	$12, %xmm11, %xmm2              # xmm2 = xmm2[0,1],xmm11[2,3],xmm2[4,5,6,7]
	punpckldq	%xmm11, %xmm12          # xmm12 = xmm12[0],xmm11[0],xmm12[1],xmm11[1]
	movaps	32(%rsp), %xmm0                 # 16-byte Reload
	shufps	$254, %xmm10, %xmm0             # xmm0 = xmm0[2,3],xmm10[3,3]
	shufps	$212, %xmm10, %xmm2             # xmm2 = xmm2[0,1],xmm10[1,3]
	punpcklqdq	%xmm10, %xmm12          # xmm12 = xmm12[0],xmm10[0]
	blendps	$8, %xmm15, %xmm0               # xmm0 = xmm0[0,1,2],xmm15[3]
	movaps	%xmm0, 32(%rsp)                 # 16-byte Spill
	insertps	$112, %xmm15, %xmm2             # xmm2 = xmm2[0,1,2],xmm15[1]
	movaps	%xmm2, 432(%rsp)                # 16-byte Spill
	pshufd	$0, %xmm15, %xmm11              # xmm11 = xmm15[0,0,0,0]
	pblendw	$63, %xmm12, %xmm11             # xmm11 = xmm12[0,1,2,3,4,5],xmm11[6,7]
	pshufd	$85, %xmm6, %xmm10              # xmm10 = xmm6[1,1,1,1]
	pblendw	$12, %xmm7, %xmm10              # xmm10 = xmm10[0,1],xmm7[2,3],xmm10[4,5,6,7]
	punpckldq	%xmm7, %xmm6            # xmm6 = xmm6[0],xmm7[0],xmm6[1],xmm7[1]
	movaps	464(%rsp), %xmm15               # 16-byte Reload
	shufps	$254, %xmm8, %xmm15             # xmm15 = xmm15[2,3],xmm8[3,3]
	shufps	$212, %xmm8, %xmm10             # xmm10 = xmm10[0,1],xmm8[1,3]
	punpcklqdq	%xmm8, %xmm6            # xmm6 = xmm6[0],xmm8[0]
	blendps	$8, %xmm9, %xmm15               # xmm15 = xmm15[0,1,2],xmm9[3]
	insertps	$112, %xmm9, %xmm10             # xmm10 = xmm10[0,1,2],xmm9[1]
	pshufd	$0, %xmm9, %xmm7                # xmm7 = xmm9[0,0,0,0]
	pblendw	$63, %xmm6, %xmm7               # xmm7 = xmm6[0,1,2,3,4,5],xmm7[6,7]
	pshufd	$85, %xmm4, %xmm6               # xmm6 = xmm4[1,1,1,1]
	pblendw	$12, %xmm13, %xmm6              # xmm6 = xmm6[0,1],xmm13[2,3],xmm6[4,5,6,7]
	punpckldq	%xmm13, %xmm4           # xmm4 = xmm4[0],xmm13[0],xmm4[1],xmm13[1]
	movaps	448(%rsp), %xmm0                # 16-byte Reload
	shufps	$254, %xmm14, %xmm0             # xmm0 = xmm0[2,3],xmm14[3,3]
	shufps	$212, %xmm14, %xmm6             # xmm6 = xmm6[0,1],xmm14[1,3]
	punpcklqdq	%xmm14, %xmm4           # xmm4 = xmm4[0],xmm14[0]
	blendps	$8, %xmm5, %xmm0                # xmm0 = xmm0[0,1,2],xmm5[3]
	movaps	%xmm0, %xmm14
	insertps	$112, %xmm5, %xmm6              # xmm6 = xmm6[0,1,2],xmm5[1]
	pshufd	$0, %xmm5, %xmm5                # xmm5 = xmm5[0,0,0,0]
	pblendw	$63, %xmm4, %xmm5               # xmm5 = xmm4[0,1,2,3,4,5],xmm5[6,7]
	pshufd	$85, %xmm3, %xmm8               # xmm8 = xmm3[1,1,1,1]
	movdqa	80(%rsp), %xmm0                 # 16-byte Reload
	pblendw	$12, %xmm0, %xmm8               # xmm8 = xmm8[0,1],xmm0[2,3],xmm8[4,5,6,7]
	punpckldq	%xmm0, %xmm3            # xmm3 = xmm3[0],xmm0[0],xmm3[1],xmm0[1]
	movaps	480(%rsp), %xmm13               # 16-byte Reload
	movaps	96(%rsp), %xmm0                 # 16-byte Reload
	shufps	$254, %xmm0, %xmm13             # xmm13 = xmm13[2,3],xmm0[3,3]
	shufps	$212, %xmm0, %xmm8              # xmm8 = xmm8[0,1],xmm0[1,3]
	punpcklqdq	%xmm0, %xmm3            # xmm3 = xmm3[0],xmm0[0]
	blendps	$8, %xmm1, %xmm13               # xmm13 = xmm13[0,1,2],xmm1[3]
	insertps	$112, %xmm1, %xmm8              # xmm8 = xmm8[0,1,2],xmm1[1]
	pshufd	$0, %xmm1, %xmm2                # xmm2 = xmm1[0,0,0,0]
	pblendw	$63, %xmm3, %xmm2               # xmm2 = xmm3[0,1,2,3,4,5],xmm2[6,7]
	movdqu	(%r15,%rax), %xmm0
	pxor	%xmm2, %xmm0
	movdqu	16(%r15,%rax), %xmm1
	pxor	%xmm5, %xmm1
	movdqu	32(%r15,%rax), %xmm2
	pxor	%xmm7, %xmm2
	movdqu	48(%r15,%rax), %xmm3
	pxor	%xmm11, %xmm3
	movups	64(%r15,%rax), %xmm4
	xorps	%xmm8, %xmm4
	movups	80(%r15,%rax), %xmm5
	xorps	%xmm6, %xmm5
	movups	96(%r15,%rax), %xmm6
	xorps	%xmm10, %xmm6
	movdqu	112(%r15,%rax), %xmm7
	pxor	432(%rsp), %xmm7                # 16-byte Folded Reload
	movups	128(%r15,%rax), %xmm8
	xorps	64(%rsp), %xmm8                 # 16-byte Folded Reload
	movups	144(%r15,%rax), %xmm9
	xorps	48(%rsp), %xmm9                 # 16-byte Folded Reload
	movdqu	160(%r15,%rax), %xmm10
	pxor	112(%rsp), %xmm10               # 16-byte Folded Reload
	movdqu	176(%r15,%rax), %xmm11
	pxor	128(%rsp), %xmm11               # 16-byte Folded Reload
	movups	192(%r15,%rax), %xmm12
	xorps	%xmm13, %xmm12
	movups	208(%r15,%rax), %xmm13
	xorps	%xmm14, %xmm13
	movups	224(%r15,%rax), %xmm14
	xorps	%xmm15, %xmm14
	movdqu	240(%r15,%rax), %xmm15
	pxor	32(%rsp), %xmm15                # 16-byte Folded Reload
	movdqu	%xmm0, (%r15,%rax)
	movdqu	%xmm1, 16(%r15,%rax)
	movdqu	%xmm2, 32(%r15,%rax)
	movdqu	%xmm3, 48(%r15,%rax)
	movups	%xmm4, 64(%r15,%rax)
	movups	%xmm5, 80(%r15,%rax)
	movups	%xmm6, 96(%r15,%rax)
	movdqu	%xmm7, 112(%r15,%rax)
	movups	%xmm8, 128(%r15,%rax)
	movups	%xmm9, 144(%r15,%rax)
	movdqu	%xmm10, 160(%r15,%rax)
	movdqu	%xmm11, 176(%r15,%rax)
	movups	%xmm12, 192(%r15,%rax)
	movups	%xmm13, 208(%r15,%rax)
	movups	%xmm14, 224(%r15,%rax)
	movdqu	%xmm15, 240(%r15,%rax)
	addq	$4, %r13
	movdqa	400(%rsp), %xmm8                # 16-byte Reload
	movdqa	384(%rsp), %xmm9                # 16-byte Reload
	movq	%r13, %rax
	shlq	$6, %rax
	cmpq	%rdi, %rax
	jb	.Ldeerlapse_0_1_0_BB38_3
	jmp	.Ldeerlapse_0_1_0_BB38_23
	.p2align	4
.Ldeerlapse_0_1_0_BB38_7:                               # %else.7.i.i.i
                                        #   in Loop: Header=BB38_3 Depth=1
	pinsrd	$1, %ebp, %xmm0
	punpcklqdq	416(%rsp), %xmm0        # 16-byte Folded Reload
                                        # xmm0 = xmm0[0],mem[0]
	movdqa	.Ldeerlapse_0_1_0_CPI38_0(%rip), %xmm1          # xmm1 = [1634760805,857760878,2036477234,1797285236]
	movl	$10, %ecx
	movdqa	%xmm8, %xmm3
	movdqa	%xmm9, %xmm4
	movdqa	%xmm0, %xmm2
	.p2align	4
.Ldeerlapse_0_1_0_BB38_8:                               # %join.5.i.i40.i.i.i
                                        #   Parent Loop BB38_3 Depth=1
                                        # =>  This Inner Loop Header: Depth=2
	paddd	%xmm3, %xmm1
	pxor	%xmm1, %xmm2
	movdqa	.Ldeerlapse_0_1_0_CPI38_1(%rip), %xmm6          # xmm6 = [2,3,0,1,6,7,4,5,10,11,8,9,14,15,12,13]
	pshufb	%xmm6, %xmm2
	paddd	%xmm2, %xmm4
	pxor	%xmm4, %xmm3
	movdqa	%xmm3, %xmm5
	psrld	$20, %xmm5
	pslld	$12, %xmm3
	por	%xmm5, %xmm3
	paddd	%xmm3, %xmm1
	movdqa	.Ldeerlapse_0_1_0_CPI38_2(%rip), %xmm5          # xmm5 = [3,0,1,2,7,4,5,6,11,8,9,10,15,12,13,14]
	movdqa	%xmm1, %xmm7
	pshufb	%xmm5, %xmm7
	pshufb	%xmm5, %xmm2
	pxor	%xmm7, %xmm2
	paddd	%xmm2, %xmm4
	pxor	%xmm4, %xmm3
	movdqa	%xmm3, %xmm7
	psrld	$25, %xmm7
	pslld	$7, %xmm3
	por	%xmm7, %xmm3
	pshufd	$57, %xmm3, %xmm3               # xmm3 = xmm3[1,2,3,0]
	pshufd	$78, %xmm4, %xmm4               # xmm4 = xmm4[2,3,0,1]
	paddd	%xmm3, %xmm1
	movdqa	%xmm1, %xmm7
	pshufb	%xmm6, %xmm7
	pshufb	.Ldeerlapse_0_1_0_CPI38_3(%rip), %xmm2          # xmm2 = xmm2[14,15,12,13,2,3,0,1,6,7,4,5,10,11,8,9]
	pxor	%xmm7, %xmm2
	paddd	%xmm2, %xmm4
	pxor	%xmm4, %xmm3
	movdqa	%xmm3, %xmm6
	psrld	$20, %xmm6
	pslld	$12, %xmm3
	por	%xmm6, %xmm3
	paddd	%xmm3, %xmm1
	movdqa	%xmm1, %xmm6
	pshufb	%xmm5, %xmm6
	pshufb	%xmm5, %xmm2
	pxor	%xmm6, %xmm2
	paddd	%xmm2, %xmm4
	pxor	%xmm4, %xmm3
	movdqa	%xmm3, %xmm5
	psrld	$25, %xmm5
	pslld	$7, %xmm3
	por	%xmm5, %xmm3
	pshufd	$147, %xmm3, %xmm3              # xmm3 = xmm3[3,0,1,2]
	pshufd	$78, %xmm4, %xmm4               # xmm4 = xmm4[2,3,0,1]
	pshufd	$57, %xmm2, %xmm2               # xmm2 = xmm2[1,2,3,0]
	decl	%ecx
	jne	.Ldeerlapse_0_1_0_BB38_8
# %bb.9:                                # %iter.check
                                        #   in Loop: Header=BB38_3 Depth=1
	cmpq	$64, %rdx
	movl	$64, %r8d
	cmovbq	%rdx, %r8
	paddd	.Ldeerlapse_0_1_0_CPI38_0(%rip), %xmm1
	paddd	%xmm8, %xmm3
	paddd	%xmm9, %xmm4
	paddd	%xmm0, %xmm2
	movdqa	%xmm1, 320(%rsp)
	movdqa	%xmm3, 336(%rsp)
	movdqa	%xmm4, 352(%rsp)
	movdqa	%xmm2, 368(%rsp)
	leaq	(%r15,%rax), %rcx
	cmpq	$4, %rdx
	jae	.Ldeerlapse_0_1_0_BB38_12
# %bb.10:                               #   in Loop: Header=BB38_3 Depth=1
	xorl	%edx, %edx
	jmp	.Ldeerlapse_0_1_0_BB38_11
	.p2align	4
.Ldeerlapse_0_1_0_BB38_12:                              # %vector.main.loop.iter.check
                                        #   in Loop: Header=BB38_3 Depth=1
	cmpq	$32, %rdx
	jae	.Ldeerlapse_0_1_0_BB38_14
# %bb.13:                               #   in Loop: Header=BB38_3 Depth=1
	xorl	%edx, %edx
	jmp	.Ldeerlapse_0_1_0_BB38_18
.Ldeerlapse_0_1_0_BB38_14:                              # %vector.ph6
                                        #   in Loop: Header=BB38_3 Depth=1
	movl	%r8d, %edx
	andl	$96, %edx
	addq	%r12, %rax
	xorl	%r9d, %r9d
	.p2align	4
.Ldeerlapse_0_1_0_BB38_15:                              # %vector.body7
                                        #   Parent Loop BB38_3 Depth=1
                                        # =>  This Inner Loop Header: Depth=2
	movdqu	-16(%rax,%r9), %xmm0
	movdqu	(%rax,%r9), %xmm1
	pxor	320(%rsp,%r9), %xmm0
	pxor	336(%rsp,%r9), %xmm1
	movdqa	%xmm0, 320(%rsp,%r9)
	movdqa	%xmm1, 336(%rsp,%r9)
	addq	$32, %r9
	cmpq	%r9, %rdx
	jne	.Ldeerlapse_0_1_0_BB38_15
# %bb.16:                               # %middle.block14
                                        #   in Loop: Header=BB38_3 Depth=1
	cmpq	%rdx, %r8
	je	.Ldeerlapse_0_1_0_BB38_21
# %bb.17:                               # %vec.epilog.iter.check
                                        #   in Loop: Header=BB38_3 Depth=1
	testb	$28, %r8b
	je	.Ldeerlapse_0_1_0_BB38_11
.Ldeerlapse_0_1_0_BB38_18:                              # %vec.epilog.ph
                                        #   in Loop: Header=BB38_3 Depth=1
	movq	%rdx, %rax
	movl	%r8d, %edx
	andl	$124, %edx
	.p2align	4
.Ldeerlapse_0_1_0_BB38_19:                              # %vec.epilog.vector.body
                                        #   Parent Loop BB38_3 Depth=1
                                        # =>  This Inner Loop Header: Depth=2
	movl	(%rcx,%rax), %r9d
	xorl	%r9d, 320(%rsp,%rax)
	addq	$4, %rax
	cmpq	%rax, %rdx
	jne	.Ldeerlapse_0_1_0_BB38_19
	jmp	.Ldeerlapse_0_1_0_BB38_20
	.p2align	4
.Ldeerlapse_0_1_0_BB38_11:                              # %join.5.i.i59.i.i.i
                                        #   in Loop: Header=BB38_3 Depth=1
	movzbl	(%rcx,%rdx), %eax
	xorb	%al, 320(%rsp,%rdx)
	incq	%rdx
.Ldeerlapse_0_1_0_BB38_20:                              # %join.5.i.i59.i.i.i
                                        #   in Loop: Header=BB38_3 Depth=1
	cmpq	%rdx, %r8
	jne	.Ldeerlapse_0_1_0_BB38_11
	jmp	.Ldeerlapse_0_1_0_BB38_21
.Ldeerlapse_0_1_0_BB38_23:                              # %"deerlapse::chacha20::deerlapse_chacha20.exit"
	cmpq	%r14, %rbx
	setae	%al
	movaps	496(%rsp), %xmm6                # 16-byte Reload
	movaps	512(%rsp), %xmm7                # 16-byte Reload
	movaps	528(%rsp), %xmm8                # 16-byte Reload
	movaps	544(%rsp), %xmm9                # 16-byte Reload
	movaps	560(%rsp), %xmm10               # 16-byte Reload
	movaps	576(%rsp), %xmm11               # 16-byte Reload
	movaps	592(%rsp), %xmm12               # 16-byte Reload
	movaps	608(%rsp), %xmm13               # 16-byte Reload
	movaps	624(%rsp), %xmm14               # 16-byte Reload
	movaps	640(%rsp), %xmm15               # 16-byte Reload
	addq	$664, %rsp                      # imm = 0x298
	popq	%rbx
	popq	%rbp
	popq	%rdi
	popq	%rsi
	popq	%r12
	popq	%r13
	popq	%r14
	popq	%r15
	retq
	.seh_endproc
                                        # -- End function
	.ifdef	deerlapse_in_rust
	.globl	deerlapse_0_1_0_hmac                  # -- Begin function deerlapse_0_1_0_hmac
deerlapse_0_1_0_hmac:                         # @deerlapse_0_1_0_hmac
.seh_proc deerlapse_0_1_0_hmac
	.def	deerlapse_0_1_0_hmac;
	.scl	2;
	.type	32;
	.endef
	.else
	.globl	deerlapse_hmac                  # -- Begin function deerlapse_hmac
deerlapse_hmac:                         # @deerlapse_hmac
.seh_proc deerlapse_hmac
	.def	deerlapse_hmac;
	.scl	2;
	.type	32;
	.endef
	.endif
# %bb.0:                                # %start
	subq	$56, %rsp
	.seh_stackalloc 56
	.seh_endprologue
	movq	104(%rsp), %rax
	movq	96(%rsp), %r10
	xorl	%r11d, %r11d
	testq	%rcx, %rcx
	sete	%r11b
	shll	$12, %r11d
	addq	%r11, %rcx
	xorl	%r11d, %r11d
	testq	%r8, %r8
	sete	%r11b
	shll	$12, %r11d
	addq	%r11, %r8
	xorl	%r11d, %r11d
	testq	%r10, %r10
	sete	%r11b
	shll	$12, %r11d
	addq	%r10, %r11
	movq	%rax, 40(%rsp)
	movq	%r11, 32(%rsp)
	callq	"deerlapse_0_1_0::deerlapse::hkdf::deerlapse_hmac"
	nop
	addq	$56, %rsp
	retq
	.seh_endproc
                                        # -- End function
	.ifdef	deerlapse_in_rust
	.globl	deerlapse_0_1_0_hkdf_extract          # -- Begin function deerlapse_0_1_0_hkdf_extract
deerlapse_0_1_0_hkdf_extract:                 # @deerlapse_0_1_0_hkdf_extract
.seh_proc deerlapse_0_1_0_hkdf_extract
	.def	deerlapse_0_1_0_hkdf_extract;
	.scl	2;
	.type	32;
	.endef
	.else
	.globl	deerlapse_hkdf_extract          # -- Begin function deerlapse_hkdf_extract
deerlapse_hkdf_extract:                 # @deerlapse_hkdf_extract
.seh_proc deerlapse_hkdf_extract
	.def	deerlapse_hkdf_extract;
	.scl	2;
	.type	32;
	.endef
	.endif
# %bb.0:                                # %start
	subq	$56, %rsp
	.seh_stackalloc 56
	.seh_endprologue
	movq	104(%rsp), %rax
	movq	96(%rsp), %r10
	xorl	%r11d, %r11d
	testq	%rcx, %rcx
	sete	%r11b
	shll	$12, %r11d
	addq	%r11, %rcx
	xorl	%r11d, %r11d
	testq	%r8, %r8
	sete	%r11b
	shll	$12, %r11d
	addq	%r11, %r8
	xorl	%r11d, %r11d
	testq	%r10, %r10
	sete	%r11b
	shll	$12, %r11d
	addq	%r10, %r11
	movq	%rax, 40(%rsp)
	movq	%r11, 32(%rsp)
	callq	"deerlapse_0_1_0::deerlapse::hkdf::deerlapse_hmac"
	nop
	addq	$56, %rsp
	retq
	.seh_endproc
                                        # -- End function
	.ifdef	deerlapse_in_rust
	.globl	deerlapse_0_1_0_key_wipe              # -- Begin function deerlapse_0_1_0_key_wipe
	.p2align	4
deerlapse_0_1_0_key_wipe:                     # @deerlapse_0_1_0_key_wipe
	.def	deerlapse_0_1_0_key_wipe;
	.scl	2;
	.type	32;
	.endef
	.else
	.globl	deerlapse_key_wipe              # -- Begin function deerlapse_key_wipe
	.p2align	4
deerlapse_key_wipe:                     # @deerlapse_key_wipe
	.def	deerlapse_key_wipe;
	.scl	2;
	.type	32;
	.endef
	.endif
# %bb.0:                                # %start
	movl	$3192, %r8d                     # imm = 0xC78
	xorl	%edx, %edx
	jmp	memset                          # TAILCALL
                                        # -- End function
	.ifdef	deerlapse_in_rust
	.globl	deerlapse_0_1_0_mask_aes              # -- Begin function deerlapse_0_1_0_mask_aes
	.p2align	4
deerlapse_0_1_0_mask_aes:                     # @deerlapse_0_1_0_mask_aes
.seh_proc deerlapse_0_1_0_mask_aes
	.def	deerlapse_0_1_0_mask_aes;
	.scl	2;
	.type	32;
	.endef
	.else
	.globl	deerlapse_mask_aes              # -- Begin function deerlapse_mask_aes
	.p2align	4
deerlapse_mask_aes:                     # @deerlapse_mask_aes
.seh_proc deerlapse_mask_aes
	.def	deerlapse_mask_aes;
	.scl	2;
	.type	32;
	.endef
	.endif
# %bb.0:                                # %start
	pushq	%r15
	.seh_pushreg %r15
	pushq	%r14
	.seh_pushreg %r14
	pushq	%r12
	.seh_pushreg %r12
	pushq	%rsi
	.seh_pushreg %rsi
	pushq	%rdi
	.seh_pushreg %rdi
	pushq	%rbx
	.seh_pushreg %rbx
	subq	$584, %rsp                      # imm = 0x248
	.seh_stackalloc 584
	movaps	%xmm6, 560(%rsp)                # 16-byte Spill
	.seh_savexmm %xmm6, 560
	.seh_endprologue
	movq	%r9, %rdi
	movq	%r8, %rbx
	movq	%rdx, %rax
	movq	%rcx, %r8
	xorl	%ecx, %ecx
	testq	%r8, %r8
	sete	%r9b
	movb	$1, %sil
	movb	$1, %dl
	cmpq	$32, %rax
	je	.Ldeerlapse_0_1_0_BB42_4
# %bb.1:                                # %start
	cmpq	$16, %rax
	jne	.Ldeerlapse_0_1_0_BB42_2
# %bb.3:                                # %join.3.fold.split.i.i
	xorl	%edx, %edx
.Ldeerlapse_0_1_0_BB42_4:                               # %arm.1.i
	movb	%r9b, %cl
	shll	$12, %ecx
	addq	%rcx, %r8
	xorps	%xmm6, %xmm6
	movaps	%xmm6, 288(%rsp)
	movaps	%xmm6, 272(%rsp)
	movaps	%xmm6, 256(%rsp)
	movaps	%xmm6, 240(%rsp)
	movaps	%xmm6, 224(%rsp)
	movaps	%xmm6, 208(%rsp)
	movaps	%xmm6, 192(%rsp)
	movaps	%xmm6, 176(%rsp)
	movaps	%xmm6, 160(%rsp)
	movaps	%xmm6, 144(%rsp)
	movaps	%xmm6, 128(%rsp)
	movaps	%xmm6, 112(%rsp)
	movaps	%xmm6, 96(%rsp)
	movaps	%xmm6, 80(%rsp)
	movaps	%xmm6, 64(%rsp)
	leaq	64(%rsp), %r14
	movq	%r14, %rcx
                                        # kill: def $dl killed $dl killed $edx
	callq	"deerlapse_0_1_0::aead_ciphers_wide::aes::expand"
	movq	%rax, %r15
	leaq	312(%rsp), %r12
	movl	$240, %r8d
	movq	%r12, %rcx
	movq	%r14, %rdx
	callq	memcpy
	movq	%r15, 552(%rsp)
	movaps	%xmm6, 48(%rsp)
	leaq	48(%rsp), %rcx
	movq	%r12, %rdx
	movq	%r15, %r8
	movq	%rbx, %r9
	callq	"deerlapse_0_1_0::aead_ciphers_wide::aes::block_key::BlockKeyRef::encrypt_one"
	movzbl	52(%rsp), %eax
	movb	%al, 44(%rsp)
	movl	48(%rsp), %ecx
	movl	%ecx, 40(%rsp)
	movb	%al, 4(%rdi)
	movl	%ecx, (%rdi)
	jmp	.Ldeerlapse_0_1_0_BB42_5
.Ldeerlapse_0_1_0_BB42_2:
	xorl	%esi, %esi
.Ldeerlapse_0_1_0_BB42_5:                               # %"deerlapse::masks::deerlapse_mask_aes.exit"
	movl	%esi, %eax
	movaps	560(%rsp), %xmm6                # 16-byte Reload
	addq	$584, %rsp                      # imm = 0x248
	popq	%rbx
	popq	%rdi
	popq	%rsi
	popq	%r12
	popq	%r14
	popq	%r15
	retq
	.seh_endproc
                                        # -- End function
	.section	.rdata,"dr"
	.p2align	4, 0x0                          # -- Begin function deerlapse_0_1_0_mask_chacha20
.Ldeerlapse_0_1_0_CPI43_0:
	.long	1634760805                      # 0x61707865
	.long	857760878                       # 0x3320646e
	.long	2036477234                      # 0x79622d32
	.long	1797285236                      # 0x6b206574
.Ldeerlapse_0_1_0_CPI43_1:
	.byte	2                               # 0x2
	.byte	3                               # 0x3
	.byte	0                               # 0x0
	.byte	1                               # 0x1
	.byte	6                               # 0x6
	.byte	7                               # 0x7
	.byte	4                               # 0x4
	.byte	5                               # 0x5
	.byte	10                              # 0xa
	.byte	11                              # 0xb
	.byte	8                               # 0x8
	.byte	9                               # 0x9
	.byte	14                              # 0xe
	.byte	15                              # 0xf
	.byte	12                              # 0xc
	.byte	13                              # 0xd
.Ldeerlapse_0_1_0_CPI43_2:
	.byte	3                               # 0x3
	.byte	0                               # 0x0
	.byte	1                               # 0x1
	.byte	2                               # 0x2
	.byte	7                               # 0x7
	.byte	4                               # 0x4
	.byte	5                               # 0x5
	.byte	6                               # 0x6
	.byte	11                              # 0xb
	.byte	8                               # 0x8
	.byte	9                               # 0x9
	.byte	10                              # 0xa
	.byte	15                              # 0xf
	.byte	12                              # 0xc
	.byte	13                              # 0xd
	.byte	14                              # 0xe
.Ldeerlapse_0_1_0_CPI43_3:
	.byte	14                              # 0xe
	.byte	15                              # 0xf
	.byte	12                              # 0xc
	.byte	13                              # 0xd
	.byte	2                               # 0x2
	.byte	3                               # 0x3
	.byte	0                               # 0x0
	.byte	1                               # 0x1
	.byte	6                               # 0x6
	.byte	7                               # 0x7
	.byte	4                               # 0x4
	.byte	5                               # 0x5
	.byte	10                              # 0xa
	.byte	11                              # 0xb
	.byte	8                               # 0x8
	.byte	9                               # 0x9
.Ldeerlapse_0_1_0_CPI43_4:
	.long	1634760805                      # 0x61707865
	.long	857760878                       # 0x3320646e
	.zero	4
	.zero	4
	.text
	.ifdef	deerlapse_in_rust
	.globl	deerlapse_0_1_0_mask_chacha20
	.p2align	4
deerlapse_0_1_0_mask_chacha20:                # @deerlapse_0_1_0_mask_chacha20
.seh_proc deerlapse_0_1_0_mask_chacha20
	.def	deerlapse_0_1_0_mask_chacha20;
	.scl	2;
	.type	32;
	.endef
	.else
	.globl	deerlapse_mask_chacha20
	.p2align	4
deerlapse_mask_chacha20:                # @deerlapse_mask_chacha20
.seh_proc deerlapse_mask_chacha20
	.def	deerlapse_mask_chacha20;
	.scl	2;
	.type	32;
	.endef
	.endif
# %bb.0:                                # %start
	subq	$24, %rsp
	.seh_stackalloc 24
	movdqa	%xmm6, (%rsp)                   # 16-byte Spill
	.seh_savexmm %xmm6, 0
	.seh_endprologue
	movdqu	(%rcx), %xmm2
	movdqu	16(%rcx), %xmm3
	movdqu	(%rdx), %xmm1
	movdqa	.Ldeerlapse_0_1_0_CPI43_0(%rip), %xmm0          # xmm0 = [1634760805,857760878,2036477234,1797285236]
	movl	$10, %eax
	.p2align	4
.Ldeerlapse_0_1_0_BB43_1:                               # %join.5.i.i.i.i
                                        # =>This Inner Loop Header: Depth=1
	paddd	%xmm2, %xmm0
	pxor	%xmm0, %xmm1
	movdqa	.Ldeerlapse_0_1_0_CPI43_1(%rip), %xmm5          # xmm5 = [2,3,0,1,6,7,4,5,10,11,8,9,14,15,12,13]
	pshufb	%xmm5, %xmm1
	paddd	%xmm1, %xmm3
	pxor	%xmm3, %xmm2
	movdqa	%xmm2, %xmm4
	psrld	$20, %xmm4
	pslld	$12, %xmm2
	por	%xmm4, %xmm2
	paddd	%xmm2, %xmm0
	movdqa	.Ldeerlapse_0_1_0_CPI43_2(%rip), %xmm4          # xmm4 = [3,0,1,2,7,4,5,6,11,8,9,10,15,12,13,14]
	movdqa	%xmm0, %xmm6
	pshufb	%xmm4, %xmm6
	pshufb	%xmm4, %xmm1
	pxor	%xmm6, %xmm1
	paddd	%xmm1, %xmm3
	pxor	%xmm3, %xmm2
	movdqa	%xmm2, %xmm6
	psrld	$25, %xmm6
	pslld	$7, %xmm2
	por	%xmm6, %xmm2
	pshufd	$57, %xmm2, %xmm2               # xmm2 = xmm2[1,2,3,0]
	pshufd	$78, %xmm3, %xmm3               # xmm3 = xmm3[2,3,0,1]
	paddd	%xmm2, %xmm0
	movdqa	%xmm0, %xmm6
	pshufb	%xmm5, %xmm6
	pshufb	.Ldeerlapse_0_1_0_CPI43_3(%rip), %xmm1          # xmm1 = xmm1[14,15,12,13,2,3,0,1,6,7,4,5,10,11,8,9]
	pxor	%xmm6, %xmm1
	paddd	%xmm1, %xmm3
	pxor	%xmm3, %xmm2
	movdqa	%xmm2, %xmm5
	psrld	$20, %xmm5
	pslld	$12, %xmm2
	por	%xmm5, %xmm2
	paddd	%xmm2, %xmm0
	movdqa	%xmm0, %xmm5
	pshufb	%xmm4, %xmm5
	pshufb	%xmm4, %xmm1
	pxor	%xmm5, %xmm1
	paddd	%xmm1, %xmm3
	pxor	%xmm3, %xmm2
	movdqa	%xmm2, %xmm4
	psrld	$25, %xmm4
	pslld	$7, %xmm2
	por	%xmm4, %xmm2
	pshufd	$147, %xmm2, %xmm2              # xmm2 = xmm2[3,0,1,2]
	pshufd	$78, %xmm3, %xmm3               # xmm3 = xmm3[2,3,0,1]
	pshufd	$57, %xmm1, %xmm1               # xmm1 = xmm1[1,2,3,0]
	decl	%eax
	jne	.Ldeerlapse_0_1_0_BB43_1
# %bb.2:                                # %"deerlapse::masks::deerlapse_mask_chacha20.exit"
	paddd	.Ldeerlapse_0_1_0_CPI43_4(%rip), %xmm0
	movd	%xmm0, (%r8)
	pextrb	$4, %xmm0, 4(%r8)
	movaps	(%rsp), %xmm6                   # 16-byte Reload
	addq	$24, %rsp
	retq
	.seh_endproc
                                        # -- End function
	.ifdef	deerlapse_in_rust
	.globl	deerlapse_0_1_0_nonce                 # -- Begin function deerlapse_0_1_0_nonce
	.p2align	4
deerlapse_0_1_0_nonce:                        # @deerlapse_0_1_0_nonce
	.def	deerlapse_0_1_0_nonce;
	.scl	2;
	.type	32;
	.endef
	.else
	.globl	deerlapse_nonce                 # -- Begin function deerlapse_nonce
	.p2align	4
deerlapse_nonce:                        # @deerlapse_nonce
	.def	deerlapse_nonce;
	.scl	2;
	.type	32;
	.endef
	.endif
# %bb.0:                                # %start
	bswapq	%rdx
	movl	%edx, %eax
	shrl	$24, %eax
	movl	%edx, %r9d
	shrl	$16, %r9d
	movd	%edx, %xmm0
	movl	%edx, %r10d
	shrl	$8, %r10d
	pinsrb	$1, %r10d, %xmm0
	pinsrb	$2, %r9d, %xmm0
	movd	4(%rcx), %xmm1                  # xmm1 = mem[0],zero,zero,zero
	pinsrb	$3, %eax, %xmm0
	pxor	%xmm1, %xmm0
	movd	(%rcx), %xmm1                   # xmm1 = mem[0],zero,zero,zero
	punpckldq	%xmm0, %xmm1            # xmm1 = xmm1[0],xmm0[0],xmm1[1],xmm0[1]
	movq	%rdx, %rax
	shrq	$56, %rax
	movq	%rdx, %r9
	shrq	$48, %r9
	movq	%rdx, %r10
	shrq	$40, %r10
	shrq	$32, %rdx
	movd	%edx, %xmm0
	pinsrb	$1, %r10d, %xmm0
	pinsrb	$2, %r9d, %xmm0
	pinsrb	$3, %eax, %xmm0
	movd	8(%rcx), %xmm2                  # xmm2 = mem[0],zero,zero,zero
	pxor	%xmm2, %xmm0
	movq	%xmm1, (%r8)
	movd	%xmm0, 8(%r8)
	retq
                                        # -- End function
	.ifdef	deerlapse_in_rust
	.globl	deerlapse_0_1_0_opener_next           # -- Begin function deerlapse_0_1_0_opener_next
	.p2align	4
deerlapse_0_1_0_opener_next:                  # @deerlapse_0_1_0_opener_next
	.def	deerlapse_0_1_0_opener_next;
	.scl	2;
	.type	32;
	.endef
	.else
	.globl	deerlapse_opener_next           # -- Begin function deerlapse_opener_next
	.p2align	4
deerlapse_opener_next:                  # @deerlapse_opener_next
	.def	deerlapse_opener_next;
	.scl	2;
	.type	32;
	.endef
	.endif
# %bb.0:                                # %start
	movq	3192(%rcx), %rax
	retq
                                        # -- End function
	.ifdef	deerlapse_in_rust
	.globl	deerlapse_0_1_0_quic_header_key_wipe  # -- Begin function deerlapse_0_1_0_quic_header_key_wipe
	.p2align	4
deerlapse_0_1_0_quic_header_key_wipe:         # @deerlapse_0_1_0_quic_header_key_wipe
	.def	deerlapse_0_1_0_quic_header_key_wipe;
	.scl	2;
	.type	32;
	.endef
	.else
	.globl	deerlapse_quic_header_key_wipe  # -- Begin function deerlapse_quic_header_key_wipe
	.p2align	4
deerlapse_quic_header_key_wipe:         # @deerlapse_quic_header_key_wipe
	.def	deerlapse_quic_header_key_wipe;
	.scl	2;
	.type	32;
	.endef
	.endif
# %bb.0:                                # %start
	xorps	%xmm0, %xmm0
	movups	%xmm0, 224(%rcx)
	movups	%xmm0, 208(%rcx)
	movups	%xmm0, 192(%rcx)
	movups	%xmm0, 176(%rcx)
	movups	%xmm0, 160(%rcx)
	movups	%xmm0, 144(%rcx)
	movups	%xmm0, 128(%rcx)
	movups	%xmm0, 112(%rcx)
	movups	%xmm0, 96(%rcx)
	movups	%xmm0, 80(%rcx)
	movups	%xmm0, 64(%rcx)
	movups	%xmm0, 48(%rcx)
	movups	%xmm0, 32(%rcx)
	movups	%xmm0, 16(%rcx)
	movups	%xmm0, (%rcx)
	movq	$0, 240(%rcx)
	retq
                                        # -- End function
	.ifdef	deerlapse_in_rust
	.globl	deerlapse_0_1_0_quic_initial_secrets  # -- Begin function deerlapse_0_1_0_quic_initial_secrets
deerlapse_0_1_0_quic_initial_secrets:         # @deerlapse_0_1_0_quic_initial_secrets
.seh_proc deerlapse_0_1_0_quic_initial_secrets
	.def	deerlapse_0_1_0_quic_initial_secrets;
	.scl	2;
	.type	32;
	.endef
	.else
	.globl	deerlapse_quic_initial_secrets  # -- Begin function deerlapse_quic_initial_secrets
deerlapse_quic_initial_secrets:         # @deerlapse_quic_initial_secrets
.seh_proc deerlapse_quic_initial_secrets
	.def	deerlapse_quic_initial_secrets;
	.scl	2;
	.type	32;
	.endef
	.endif
# %bb.0:                                # %start
	pushq	%r15
	.seh_pushreg %r15
	pushq	%r14
	.seh_pushreg %r14
	pushq	%r12
	.seh_pushreg %r12
	pushq	%rsi
	.seh_pushreg %rsi
	pushq	%rdi
	.seh_pushreg %rdi
	pushq	%rbp
	.seh_pushreg %rbp
	pushq	%rbx
	.seh_pushreg %rbx
	subq	$256, %rsp                      # imm = 0x100
	.seh_stackalloc 256
	.seh_endprologue
	movq	%r9, %rsi
	movq	%r8, %rdi
	movq	%rdx, %r14
	xorl	%eax, %eax
	testq	%rdx, %rdx
	sete	%dl
	xorl	%ebx, %ebx
	cmpl	$1, %ecx
	je	.Ldeerlapse_0_1_0_BB47_3
# %bb.1:                                # %start
	cmpl	$1798521807, %ecx               # imm = 0x6B3343CF
	jne	.Ldeerlapse_0_1_0_BB47_6
# %bb.2:                                # %arm.2.i.i
	movb	$1, %bl
.Ldeerlapse_0_1_0_BB47_3:                               # %arm.1.i
	movb	%dl, %al
	shll	$12, %eax
	addq	%rax, %r14
	leaq	.Ldeerlapse_0_1_0_static.5(%rip), %rax
	movq	%rax, 32(%rsp)
	leaq	144(%rsp), %r15
	movq	%r15, %rcx
	movl	%ebx, %edx
	movq	%r14, %r8
	movq	%rdi, %r9
	callq	"deerlapse_0_1_0::key_derivation::quic::endpoint_secret"
	movb	(%r15), %r12b
	movb	2(%r15), %bpl
	movups	3(%r15), %xmm0
	movaps	%xmm0, 96(%rsp)
	movups	19(%r15), %xmm0
	movaps	%xmm0, 112(%rsp)
	movups	35(%r15), %xmm0
	movaps	%xmm0, 128(%rsp)
	leaq	.Ldeerlapse_0_1_0_static.8(%rip), %rax
	movq	%rax, 32(%rsp)
	leaq	144(%rsp), %r15
	movq	%r15, %rcx
	movl	%ebx, %edx
	movq	%r14, %r8
	movq	%rdi, %r9
	callq	"deerlapse_0_1_0::key_derivation::quic::endpoint_secret"
	movb	(%r15), %al
	movb	2(%r15), %r14b
	movups	3(%r15), %xmm0
	movaps	%xmm0, 48(%rsp)
	movups	19(%r15), %xmm0
	movaps	%xmm0, 64(%rsp)
	movups	35(%r15), %xmm0
	movaps	%xmm0, 80(%rsp)
	orb	%r12b, %al
	jne	.Ldeerlapse_0_1_0_BB47_4
# %bb.5:                                # %arm.10.i
	movq	352(%rsp), %rdi
	movaps	96(%rsp), %xmm0
	movaps	112(%rsp), %xmm1
	movaps	128(%rsp), %xmm2
	leaq	144(%rsp), %rdx
	movaps	%xmm2, 32(%rdx)
	movaps	%xmm1, 16(%rdx)
	movaps	%xmm0, (%rdx)
	movaps	48(%rsp), %xmm0
	movaps	64(%rsp), %xmm1
	movaps	80(%rsp), %xmm2
	leaq	208(%rsp), %rbx
	movaps	%xmm0, (%rbx)
	movaps	%xmm1, 16(%rbx)
	movaps	%xmm2, 32(%rbx)
	xorl	%r8d, %r8d
	testb	%bpl, %bpl
	setne	%r8b
	shll	$4, %r8d
	orq	$32, %r8
	movq	%rsi, %rcx
	callq	memcpy
	xorl	%r8d, %r8d
	testb	%r14b, %r14b
	setne	%r8b
	shll	$4, %r8d
	orq	$32, %r8
	movq	%rdi, %rcx
	movq	%rbx, %rdx
	callq	memcpy
	movb	$1, %bl
	jmp	.Ldeerlapse_0_1_0_BB47_6
.Ldeerlapse_0_1_0_BB47_4:
	xorl	%ebx, %ebx
.Ldeerlapse_0_1_0_BB47_6:                               # %"deerlapse::quic_key::deerlapse_quic_initial_secrets.exit"
	movl	%ebx, %eax
	addq	$256, %rsp                      # imm = 0x100
	popq	%rbx
	popq	%rbp
	popq	%rdi
	popq	%rsi
	popq	%r12
	popq	%r14
	popq	%r15
	retq
	.seh_endproc
                                        # -- End function
	.ifdef	deerlapse_in_rust
	.globl	deerlapse_0_1_0_sealer_next           # -- Begin function deerlapse_0_1_0_sealer_next
	.p2align	4
deerlapse_0_1_0_sealer_next:                  # @deerlapse_0_1_0_sealer_next
	.def	deerlapse_0_1_0_sealer_next;
	.scl	2;
	.type	32;
	.endef
	.else
	.globl	deerlapse_sealer_next           # -- Begin function deerlapse_sealer_next
	.p2align	4
deerlapse_sealer_next:                  # @deerlapse_sealer_next
	.def	deerlapse_sealer_next;
	.scl	2;
	.type	32;
	.endef
	.endif
# %bb.0:                                # %start
	movq	3192(%rcx), %rax
	retq
                                        # -- End function
	.ifdef	deerlapse_in_rust
	.globl	deerlapse_0_1_0_version               # -- Begin function deerlapse_0_1_0_version
	.p2align	4
deerlapse_0_1_0_version:                      # @deerlapse_0_1_0_version
	.def	deerlapse_0_1_0_version;
	.scl	2;
	.type	32;
	.endef
	.else
	.globl	deerlapse_version               # -- Begin function deerlapse_version
	.p2align	4
deerlapse_version:                      # @deerlapse_version
	.def	deerlapse_version;
	.scl	2;
	.type	32;
	.endef
	.endif
# %bb.0:                                # %start
	movl	$256, %eax                      # imm = 0x100
	retq
                                        # -- End function
	.ifdef	deerlapse_in_rust
	.globl	deerlapse_0_1_0_xaes_wipe             # -- Begin function deerlapse_0_1_0_xaes_wipe
	.p2align	4
deerlapse_0_1_0_xaes_wipe:                    # @deerlapse_0_1_0_xaes_wipe
	.def	deerlapse_0_1_0_xaes_wipe;
	.scl	2;
	.type	32;
	.endef
	.else
	.globl	deerlapse_xaes_wipe             # -- Begin function deerlapse_xaes_wipe
	.p2align	4
deerlapse_xaes_wipe:                    # @deerlapse_xaes_wipe
	.def	deerlapse_xaes_wipe;
	.scl	2;
	.type	32;
	.endef
	.endif
# %bb.0:                                # %start
	movl	$264, %r8d                      # imm = 0x108
	xorl	%edx, %edx
	jmp	memset                          # TAILCALL
                                        # -- End function
	.ifdef	deerlapse_in_rust
	.globl	deerlapse_0_1_0_quic_header_key_init  # -- Begin function deerlapse_0_1_0_quic_header_key_init
	.p2align	4
deerlapse_0_1_0_quic_header_key_init:         # @deerlapse_0_1_0_quic_header_key_init
.seh_proc deerlapse_0_1_0_quic_header_key_init
	.def	deerlapse_0_1_0_quic_header_key_init;
	.scl	2;
	.type	32;
	.endef
	.else
	.globl	deerlapse_quic_header_key_init  # -- Begin function deerlapse_quic_header_key_init
	.p2align	4
deerlapse_quic_header_key_init:         # @deerlapse_quic_header_key_init
.seh_proc deerlapse_quic_header_key_init
	.def	deerlapse_quic_header_key_init;
	.scl	2;
	.type	32;
	.endef
	.endif
# %bb.0:                                # %start
	pushq	%rsi
	.seh_pushreg %rsi
	pushq	%rdi
	.seh_pushreg %rdi
	subq	$40, %rsp
	.seh_stackalloc 40
	.seh_endprologue
	movq	%rdx, %rax
	xorl	%r9d, %r9d
	testq	%rdx, %rdx
	sete	%r10b
	movb	$1, %sil
	movb	$1, %dl
	cmpq	$32, %r8
	je	.Ldeerlapse_0_1_0_BB51_4
# %bb.1:                                # %start
	cmpq	$16, %r8
	jne	.Ldeerlapse_0_1_0_BB51_2
# %bb.3:                                # %join.3.fold.split.i.i
	xorl	%edx, %edx
.Ldeerlapse_0_1_0_BB51_4:                               # %arm.1.i
	movb	%r10b, %r9b
	shll	$12, %r9d
	addq	%r9, %rax
	leaq	8(%rcx), %r8
	movq	%rcx, %rdi
	movq	%r8, %rcx
                                        # kill: def $dl killed $dl killed $edx
	movq	%rax, %r8
	callq	"deerlapse_0_1_0::aead_ciphers_wide::aes::expand"
	movq	%rax, (%rdi)
	jmp	.Ldeerlapse_0_1_0_BB51_5
.Ldeerlapse_0_1_0_BB51_2:
	xorl	%esi, %esi
.Ldeerlapse_0_1_0_BB51_5:                               # %"deerlapse::header_key::deerlapse_quic_header_key_init.exit"
	movl	%esi, %eax
	addq	$40, %rsp
	popq	%rdi
	popq	%rsi
	retq
	.seh_endproc
                                        # -- End function
	.ifdef	deerlapse_in_rust
	.globl	deerlapse_0_1_0_quic_header_key_mask  # -- Begin function deerlapse_0_1_0_quic_header_key_mask
	.p2align	4
deerlapse_0_1_0_quic_header_key_mask:         # @deerlapse_0_1_0_quic_header_key_mask
.seh_proc deerlapse_0_1_0_quic_header_key_mask
	.def	deerlapse_0_1_0_quic_header_key_mask;
	.scl	2;
	.type	32;
	.endef
	.else
	.globl	deerlapse_quic_header_key_mask  # -- Begin function deerlapse_quic_header_key_mask
	.p2align	4
deerlapse_quic_header_key_mask:         # @deerlapse_quic_header_key_mask
.seh_proc deerlapse_quic_header_key_mask
	.def	deerlapse_quic_header_key_mask;
	.scl	2;
	.type	32;
	.endef
	.endif
# %bb.0:                                # %start
	pushq	%rsi
	.seh_pushreg %rsi
	pushq	%rdi
	.seh_pushreg %rdi
	subq	$72, %rsp
	.seh_stackalloc 72
	.seh_endprologue
	movq	%r8, %rsi
	movq	(%rcx), %r8
	leaq	-10(%r8), %rdi
	cmpq	$4, %rdi
	ja	.Ldeerlapse_0_1_0_BB52_2
# %bb.1:                                # %join.3.i
	movq	%rdx, %r9
	movq	%rcx, %rdx
	addq	$8, %rdx
	xorps	%xmm0, %xmm0
	movaps	%xmm0, 48(%rsp)
	leaq	48(%rsp), %rcx
	callq	"deerlapse_0_1_0::aead_ciphers_wide::aes::block_key::BlockKeyRef::encrypt_one"
	movzbl	52(%rsp), %eax
	movb	%al, 44(%rsp)
	movl	48(%rsp), %ecx
	movl	%ecx, 40(%rsp)
	movb	%al, 4(%rsi)
	movl	%ecx, (%rsi)
.Ldeerlapse_0_1_0_BB52_2:                               # %"deerlapse::header_key::deerlapse_quic_header_key_mask.exit"
	cmpq	$5, %rdi
	setb	%al
	addq	$72, %rsp
	popq	%rdi
	popq	%rsi
	retq
	.seh_endproc
                                        # -- End function
	.ifdef	deerlapse_in_rust
	.globl	deerlapse_0_1_0_key_begin             # -- Begin function deerlapse_0_1_0_key_begin
	.p2align	4
deerlapse_0_1_0_key_begin:                    # @deerlapse_0_1_0_key_begin
.seh_proc deerlapse_0_1_0_key_begin
	.def	deerlapse_0_1_0_key_begin;
	.scl	2;
	.type	32;
	.endef
	.else
	.globl	deerlapse_key_begin             # -- Begin function deerlapse_key_begin
	.p2align	4
deerlapse_key_begin:                    # @deerlapse_key_begin
.seh_proc deerlapse_key_begin
	.def	deerlapse_key_begin;
	.scl	2;
	.type	32;
	.endef
	.endif
# %bb.0:                                # %start
	pushq	%r15
	.seh_pushreg %r15
	pushq	%r14
	.seh_pushreg %r14
	pushq	%r13
	.seh_pushreg %r13
	pushq	%r12
	.seh_pushreg %r12
	pushq	%rsi
	.seh_pushreg %rsi
	pushq	%rdi
	.seh_pushreg %rdi
	pushq	%rbx
	.seh_pushreg %rbx
	subq	$432, %rsp                      # imm = 0x1B0
	.seh_stackalloc 432
	movaps	%xmm6, 416(%rsp)                # 16-byte Spill
	.seh_savexmm %xmm6, 416
	.seh_endprologue
	movq	%r9, %rsi
	xorl	%eax, %eax
	testq	%r8, %r8
	sete	%r9b
	movl	1920(%rcx), %r10d
	addl	$-10, %r10d
	cmpl	$4, %r10d
	ja	.Ldeerlapse_0_1_0_BB53_3
# %bb.1:                                # %join.3.i
	movabsq	$2305843009213693936, %r14      # imm = 0x1FFFFFFFFFFFFFF0
	leaq	2168(%rcx), %rbx
	addq	$2680, %rcx                     # imm = 0xA78
	movq	%rbx, 80(%rsp)
	movq	%rcx, 88(%rsp)
	leaq	15(%r14), %rcx
	cmpq	%rcx, %rsi
	jbe	.Ldeerlapse_0_1_0_BB53_4
.Ldeerlapse_0_1_0_BB53_3:
	xorl	%eax, %eax
	jmp	.Ldeerlapse_0_1_0_BB53_7
.Ldeerlapse_0_1_0_BB53_4:                               # %join.3.i.i.i
	movq	%rdx, %r13
	movq	528(%rsp), %rdi
	movb	%r9b, %al
	shll	$12, %eax
	addq	%rax, %r8
	xorps	%xmm6, %xmm6
	movaps	%xmm6, 48(%rsp)
	movaps	%xmm6, 64(%rsp)
	andq	%rsi, %r14
	leaq	64(%rsp), %rax
	movq	%rax, 32(%rsp)
	leaq	80(%rsp), %rcx
	leaq	48(%rsp), %rdx
	movq	%r8, %r12
	movq	%r14, %r9
	callq	"deerlapse_0_1_0::aead_ciphers_wide::gcm::KeyRefUpdateBlocks::update_blocks"
	movq	%rsi, %r15
	andq	$15, %r15
	je	.Ldeerlapse_0_1_0_BB53_6
# %bb.5:                                # %then.1.i.i.i.i.i
	addq	%r14, %r12
	movl	$16, %r8d
	subq	%r15, %r8
	leaq	(%rsp,%r15), %rcx
	addq	$96, %rcx
	xorl	%edx, %edx
	callq	memset
	leaq	96(%rsp), %r14
	movq	%r14, %rcx
	movq	%r12, %rdx
	movq	%r15, %r8
	callq	memcpy
	leaq	48(%rsp), %rdx
	leaq	64(%rsp), %r9
	movq	%rbx, %rcx
	movq	%r14, %r8
	callq	"deerlapse_0_1_0::aead_ciphers_wide::gcm::KeyRefUpdateBlock::update_block"
.Ldeerlapse_0_1_0_BB53_6:                               # %arm.4.i
	movaps	48(%rsp), %xmm0
	movaps	%xmm0, 112(%rsp)
	movaps	%xmm6, 128(%rsp)
	movaps	%xmm6, 144(%rsp)
	movaps	%xmm6, 160(%rsp)
	movaps	%xmm6, 176(%rsp)
	movaps	%xmm6, 192(%rsp)
	movaps	%xmm6, 208(%rsp)
	movaps	%xmm6, 224(%rsp)
	movaps	%xmm6, 240(%rsp)
	leaq	271(%rsp), %rbx
	leaq	112(%rsp), %rdx
	movl	$144, %r8d
	movq	%rbx, %rcx
	callq	memcpy
	leaq	119(%rsp), %r14
	movl	$144, %r8d
	movq	%r14, %rcx
	movq	%rbx, %rdx
	callq	memcpy
	movq	(%r13), %rax
	movq	%rax, 264(%rsp)
	movl	8(%r13), %eax
	movl	%eax, 272(%rsp)
	movl	$144, %r8d
	movq	%rdi, %rcx
	movq	%r14, %rdx
	callq	memcpy
	movq	%rsi, 144(%rdi)
	movq	$0, 152(%rdi)
	movq	264(%rsp), %rax
	movq	%rax, 160(%rdi)
	movl	272(%rsp), %eax
	movl	%eax, 168(%rdi)
	movl	$1, 172(%rdi)
	movb	$1, %al
.Ldeerlapse_0_1_0_BB53_7:                               # %"deerlapse::pieces::deerlapse_key_begin.exit"
                                        # kill: def $al killed $al killed $eax
	movaps	416(%rsp), %xmm6                # 16-byte Reload
	addq	$432, %rsp                      # imm = 0x1B0
	popq	%rbx
	popq	%rdi
	popq	%rsi
	popq	%r12
	popq	%r13
	popq	%r14
	popq	%r15
	retq
	.seh_endproc
                                        # -- End function
	.ifdef	deerlapse_in_rust
	.globl	deerlapse_0_1_0_key_finish            # -- Begin function deerlapse_0_1_0_key_finish
	.p2align	4
deerlapse_0_1_0_key_finish:                   # @deerlapse_0_1_0_key_finish
.seh_proc deerlapse_0_1_0_key_finish
	.def	deerlapse_0_1_0_key_finish;
	.scl	2;
	.type	32;
	.endef
	.else
	.globl	deerlapse_key_finish            # -- Begin function deerlapse_key_finish
	.p2align	4
deerlapse_key_finish:                   # @deerlapse_key_finish
.seh_proc deerlapse_key_finish
	.def	deerlapse_key_finish;
	.scl	2;
	.type	32;
	.endef
	.endif
# %bb.0:                                # %start
	pushq	%r15
	.seh_pushreg %r15
	pushq	%r14
	.seh_pushreg %r14
	pushq	%r13
	.seh_pushreg %r13
	pushq	%r12
	.seh_pushreg %r12
	pushq	%rsi
	.seh_pushreg %rsi
	pushq	%rdi
	.seh_pushreg %rdi
	pushq	%rbp
	.seh_pushreg %rbp
	pushq	%rbx
	.seh_pushreg %rbx
	subq	$376, %rsp                      # imm = 0x178
	.seh_stackalloc 376
	movaps	%xmm6, 352(%rsp)                # 16-byte Spill
	.seh_savexmm %xmm6, 352
	.seh_endprologue
	movl	1920(%rcx), %eax
	addl	$-10, %eax
	cmpl	$4, %eax
	ja	.Ldeerlapse_0_1_0_BB54_6
# %bb.1:                                # %else.4.i
	cmpl	$0, 172(%rdx)
	je	.Ldeerlapse_0_1_0_BB54_6
# %bb.2:                                # %after.1.i
	movq	%rcx, %rsi
	movq	%r8, 136(%rsp)                  # 8-byte Spill
	leaq	176(%rsp), %rcx
	movl	$176, %r8d
	movq	%rdx, %rdi
	callq	memcpy
	xorps	%xmm6, %xmm6
	movups	%xmm6, (%rdi)
	movups	%xmm6, 16(%rdi)
	movups	%xmm6, 32(%rdi)
	movups	%xmm6, 48(%rdi)
	movups	%xmm6, 64(%rdi)
	movups	%xmm6, 80(%rdi)
	movups	%xmm6, 96(%rdi)
	movups	%xmm6, 112(%rdi)
	movups	%xmm6, 128(%rdi)
	movups	%xmm6, 144(%rdi)
	movups	%xmm6, 160(%rdi)
	movl	1920(%rsi), %edi
	leaq	2168(%rsi), %r14
	leaq	2680(%rsi), %rax
	movq	%r14, 144(%rsp)
	movq	%rax, 152(%rsp)
	movaps	%xmm6, 112(%rsp)
	movaps	%xmm6, 48(%rsp)
	movq	$0, 96(%rsp)
	movq	$0, 103(%rsp)
	movq	328(%rsp), %rbp
	leaq	192(%rsp), %r15
	movaps	176(%rsp), %xmm0
	movaps	%xmm0, 64(%rsp)
	movaps	%xmm6, 80(%rsp)
	movl	%ebp, %r13d
	andl	$112, %r13d
	leaq	80(%rsp), %rax
	movq	%rax, 32(%rsp)
	leaq	144(%rsp), %rcx
	leaq	64(%rsp), %rbx
	movq	%rbx, %rdx
	movq	%r15, %r8
	movq	%r13, %r9
	callq	"deerlapse_0_1_0::aead_ciphers_wide::gcm::KeyRefUpdateBlocks::update_blocks"
	movq	%rbp, %r12
	andq	$15, %r12
	je	.Ldeerlapse_0_1_0_BB54_4
# %bb.3:                                # %then.1.i.i.i.i.i
	addq	%r13, %r15
	movl	$16, %r8d
	subq	%r12, %r8
	leaq	(%rsp,%r12), %rcx
	addq	$160, %rcx
	xorl	%edx, %edx
	callq	memset
	leaq	160(%rsp), %r13
	movq	%r13, %rcx
	movq	%r15, %rdx
	movq	%r12, %r8
	callq	memcpy
	leaq	64(%rsp), %rdx
	leaq	80(%rsp), %r9
	movq	%r14, %rcx
	movq	%r13, %r8
	callq	"deerlapse_0_1_0::aead_ciphers_wide::gcm::KeyRefUpdateBlock::update_block"
.Ldeerlapse_0_1_0_BB54_4:                               # %"aead_ciphers_wide::aes_gcm::ExpandedKey::finish.exit.i"
	movq	320(%rsp), %rax
	movq	%rax, %rcx
	shrq	$53, %rcx
	movb	%cl, 48(%rsp)
	movq	%rax, %rcx
	shrq	$45, %rcx
	movb	%cl, 49(%rsp)
	movq	%rax, %rcx
	shrq	$37, %rcx
	movb	%cl, 50(%rsp)
	movq	%rax, %rcx
	shrq	$29, %rcx
	movb	%cl, 51(%rsp)
	movl	%eax, %ecx
	shrl	$21, %ecx
	movb	%cl, 52(%rsp)
	movl	%eax, %ecx
	shrl	$13, %ecx
	movb	%cl, 53(%rsp)
	movl	%eax, %ecx
	shrl	$5, %ecx
	movb	%cl, 54(%rsp)
	shlb	$3, %al
	movb	%al, 55(%rsp)
	movq	%rbp, %rax
	shrq	$53, %rax
	movb	%al, 56(%rsp)
	movq	%rbp, %rax
	shrq	$45, %rax
	movb	%al, 57(%rsp)
	movq	%rbp, %rax
	shrq	$37, %rax
	movb	%al, 58(%rsp)
	movq	%rbp, %rax
	shrq	$29, %rax
	movb	%al, 59(%rsp)
	movl	%ebp, %eax
	shrl	$21, %eax
	movb	%al, 60(%rsp)
	movl	%ebp, %eax
	shrl	$13, %eax
	movb	%al, 61(%rsp)
	movl	%ebp, %eax
	shrl	$5, %eax
	movb	%al, 62(%rsp)
	shlb	$3, %bpl
	movb	%bpl, 63(%rsp)
	addq	$1928, %rsi                     # imm = 0x788
	movaps	64(%rsp), %xmm0
	movaps	%xmm0, 112(%rsp)
	movaps	%xmm6, 64(%rsp)
	movq	%rbx, 32(%rsp)
	leaq	144(%rsp), %rcx
	leaq	112(%rsp), %rdx
	leaq	48(%rsp), %r8
	movl	$16, %r9d
	callq	"deerlapse_0_1_0::aead_ciphers_wide::gcm::KeyRefUpdateBlocks::update_blocks"
	movb	$0, 78(%rsp)
	movw	$0, 76(%rsp)
	movl	344(%rsp), %eax
	movl	%eax, 72(%rsp)
	movq	336(%rsp), %rax
	movq	%rax, 64(%rsp)
	movq	%rax, 96(%rsp)
	movq	71(%rsp), %rax
	movq	%rax, 103(%rsp)
	movq	96(%rsp), %rax
	movq	103(%rsp), %rcx
	movq	%rcx, 87(%rsp)
	movq	%rax, 80(%rsp)
	movb	$1, 95(%rsp)
	movaps	%xmm6, 64(%rsp)
	leaq	64(%rsp), %rcx
	leaq	80(%rsp), %r9
	movq	%rsi, %rdx
	movq	%rdi, %r8
	callq	"deerlapse_0_1_0::aead_ciphers_wide::aes::block_key::BlockKeyRef::encrypt_one"
	movaps	64(%rsp), %xmm0
	xorps	112(%rsp), %xmm0
	movq	136(%rsp), %rax                 # 8-byte Reload
	movups	%xmm0, (%rax)
	movb	$1, %al
	jmp	.Ldeerlapse_0_1_0_BB54_7
.Ldeerlapse_0_1_0_BB54_6:
	xorl	%eax, %eax
.Ldeerlapse_0_1_0_BB54_7:                               # %"deerlapse::pieces::deerlapse_key_finish.exit"
                                        # kill: def $al killed $al killed $eax
	movaps	352(%rsp), %xmm6                # 16-byte Reload
	addq	$376, %rsp                      # imm = 0x178
	popq	%rbx
	popq	%rbp
	popq	%rdi
	popq	%rsi
	popq	%r12
	popq	%r13
	popq	%r14
	popq	%r15
	retq
	.seh_endproc
                                        # -- End function
	.ifdef	deerlapse_in_rust
	.globl	deerlapse_0_1_0_key_open              # -- Begin function deerlapse_0_1_0_key_open
	.p2align	4
deerlapse_0_1_0_key_open:                     # @deerlapse_0_1_0_key_open
.seh_proc deerlapse_0_1_0_key_open
	.def	deerlapse_0_1_0_key_open;
	.scl	2;
	.type	32;
	.endef
	.else
	.globl	deerlapse_key_open              # -- Begin function deerlapse_key_open
	.p2align	4
deerlapse_key_open:                     # @deerlapse_key_open
.seh_proc deerlapse_key_open
	.def	deerlapse_key_open;
	.scl	2;
	.type	32;
	.endef
	.endif
# %bb.0:                                # %start
	pushq	%r15
	.seh_pushreg %r15
	pushq	%r14
	.seh_pushreg %r14
	pushq	%r13
	.seh_pushreg %r13
	pushq	%r12
	.seh_pushreg %r12
	pushq	%rsi
	.seh_pushreg %rsi
	pushq	%rdi
	.seh_pushreg %rdi
	pushq	%rbp
	.seh_pushreg %rbp
	pushq	%rbx
	.seh_pushreg %rbx
	subq	$216, %rsp
	.seh_stackalloc 216
	.seh_endprologue
	movq	320(%rsp), %rsi
	xorl	%r14d, %r14d
	testq	%r8, %r8
	sete	%r12b
	xorl	%r11d, %r11d
	testq	%rsi, %rsi
	sete	%bpl
	movl	1920(%rcx), %r10d
	leal	-10(%r10), %eax
	cmpl	$4, %eax
	ja	.Ldeerlapse_0_1_0_BB55_6
# %bb.1:                                # %join.3.i
	movq	328(%rsp), %r15
	cmpq	$16, %r15
	jb	.Ldeerlapse_0_1_0_BB55_6
# %bb.2:                                # %arm.1.i.i
	leaq	-16(%r15), %rdi
	movq	%rdi, %rax
	subq	336(%rsp), %rax
	jb	.Ldeerlapse_0_1_0_BB55_6
# %bb.3:                                # %arm.8.i.i
	movq	%r9, %r13
	shrq	$61, %r13
	setne	%r13b
	movabsq	$68719476704, %rbx              # imm = 0xFFFFFFFE0
	cmpq	%rbx, %rax
	seta	%bl
	orb	%r13b, %bl
	movq	336(%rsp), %r13
	jne	.Ldeerlapse_0_1_0_BB55_6
# %bb.4:                                # %then.11.i.i
	movb	%r12b, %r14b
	shll	$12, %r14d
	addq	%r14, %r8
	movb	%bpl, %r11b
	shll	$12, %r11d
	addq	%r11, %rsi
	leaq	(%rsi,%r15), %r11
	addq	$-16, %r11
	leaq	1928(%rcx), %rbx
	movl	1924(%rcx), %ebp
	movq	%rcx, 104(%rsp)
	movq	%rbx, 112(%rsp)
	movq	%r10, 120(%rsp)
	movl	%ebp, 128(%rsp)
	movl	$0, 132(%rsp)
	leaq	2168(%rcx), %r10
	addq	$2680, %rcx                     # imm = 0xA78
	movq	%r10, 136(%rsp)
	movq	%rcx, 144(%rsp)
	xorps	%xmm0, %xmm0
	movaps	%xmm0, 176(%rsp)
	movq	(%rdx), %rcx
	movq	%rcx, 88(%rsp)
	movl	8(%rdx), %ecx
	movl	%ecx, 96(%rsp)
	movups	(%r11), %xmm0
	movaps	%xmm0, 192(%rsp)
	leaq	(%rsi,%r13), %rcx
	leaq	176(%rsp), %r14
	movq	%r14, 72(%rsp)
	movq	%rax, 64(%rsp)
	movq	%rcx, 56(%rsp)
	leaq	192(%rsp), %rax
	movq	%rax, 48(%rsp)
	movq	%r9, 40(%rsp)
	movq	%r8, 32(%rsp)
	leaq	159(%rsp), %rcx
	leaq	104(%rsp), %rdx
	leaq	136(%rsp), %r8
	leaq	88(%rsp), %r9
	callq	"deerlapse_0_1_0::aead_ciphers::aes_gcm::opening::authenticate::<#7bfdf0a6b4753edd>"
	cmpb	$0, 159(%rsp)
	je	.Ldeerlapse_0_1_0_BB55_8
.Ldeerlapse_0_1_0_BB55_6:
	xorl	%eax, %eax
.Ldeerlapse_0_1_0_BB55_7:                               # %"deerlapse::key::deerlapse_key_open.exit"
                                        # kill: def $al killed $al killed $eax
	addq	$216, %rsp
	popq	%rbx
	popq	%rbp
	popq	%rdi
	popq	%rsi
	popq	%r12
	popq	%r13
	popq	%r14
	popq	%r15
	retq
.Ldeerlapse_0_1_0_BB55_8:                               # %arm.4.i
	movq	344(%rsp), %rbx
	leaq	160(%rsp), %rdx
	movq	%r14, 40(%rsp)
	movq	%r13, 32(%rsp)
	leaq	104(%rsp), %rcx
	movq	%rsi, %r8
	movq	%rdi, %r9
	callq	"deerlapse_0_1_0::aead_ciphers::aes_gcm::counter_mode::encrypt_within::<#6fa349fe97f872a2>"
	movq	%rax, (%rbx)
	movb	$1, %al
	jmp	.Ldeerlapse_0_1_0_BB55_7
	.seh_endproc
                                        # -- End function
	.ifdef	deerlapse_in_rust
	.globl	deerlapse_0_1_0_key_open_separate_tag # -- Begin function deerlapse_0_1_0_key_open_separate_tag
	.p2align	4
deerlapse_0_1_0_key_open_separate_tag:        # @deerlapse_0_1_0_key_open_separate_tag
.seh_proc deerlapse_0_1_0_key_open_separate_tag
	.def	deerlapse_0_1_0_key_open_separate_tag;
	.scl	2;
	.type	32;
	.endef
	.else
	.globl	deerlapse_key_open_separate_tag # -- Begin function deerlapse_key_open_separate_tag
	.p2align	4
deerlapse_key_open_separate_tag:        # @deerlapse_key_open_separate_tag
.seh_proc deerlapse_key_open_separate_tag
	.def	deerlapse_key_open_separate_tag;
	.scl	2;
	.type	32;
	.endef
	.endif
# %bb.0:                                # %start
	pushq	%r15
	.seh_pushreg %r15
	pushq	%r14
	.seh_pushreg %r14
	pushq	%r13
	.seh_pushreg %r13
	pushq	%r12
	.seh_pushreg %r12
	pushq	%rsi
	.seh_pushreg %rsi
	pushq	%rdi
	.seh_pushreg %rdi
	pushq	%rbp
	.seh_pushreg %rbp
	pushq	%rbx
	.seh_pushreg %rbx
	subq	$216, %rsp
	.seh_stackalloc 216
	.seh_endprologue
	movq	336(%rsp), %rbx
	movq	328(%rsp), %r10
	movq	320(%rsp), %rdi
	xorl	%r14d, %r14d
	testq	%r8, %r8
	sete	%r15b
	xorl	%r11d, %r11d
	testq	%rdi, %rdi
	sete	%bpl
	xorl	%eax, %eax
	subq	%rbx, %r10
	movl	$0, %r13d
	cmovaeq	%r10, %r13
	jb	.Ldeerlapse_0_1_0_BB56_8
# %bb.1:                                # %arm.3.i
	movl	1920(%rcx), %r12d
	leal	-10(%r12), %eax
	cmpl	$4, %eax
	ja	.Ldeerlapse_0_1_0_BB56_7
# %bb.2:                                # %then.7.i
	movq	%r9, %rsi
	xorl	%eax, %eax
	shrq	$61, %r9
	jne	.Ldeerlapse_0_1_0_BB56_8
# %bb.3:                                # %then.7.i
	movabsq	$68719476705, %r9               # imm = 0xFFFFFFFE1
	cmpq	%r9, %r13
	jae	.Ldeerlapse_0_1_0_BB56_8
# %bb.4:                                # %join.3.i.i.i
	movq	%r9, %r13
	xorps	%xmm0, %xmm0
	movaps	%xmm0, 176(%rsp)
	leaq	1928(%rcx), %rax
	movl	1924(%rcx), %r9d
	movq	%rcx, 104(%rsp)
	movq	%rax, 112(%rsp)
	movq	%r12, 120(%rsp)
	movl	%r9d, 128(%rsp)
	movl	$0, 132(%rsp)
	leaq	2168(%rcx), %rax
	addq	$2680, %rcx                     # imm = 0xA78
	movq	%rax, 136(%rsp)
	movq	%rcx, 144(%rsp)
	cmpq	%r13, %r10
	jae	.Ldeerlapse_0_1_0_BB56_7
# %bb.5:                                # %join.7.i.i.i
	movq	344(%rsp), %rax
	movb	%r15b, %r14b
	shll	$12, %r14d
	addq	%r14, %r8
	movb	%bpl, %r11b
	shll	$12, %r11d
	addq	%r11, %rdi
	movq	(%rdx), %rcx
	movq	%rcx, 88(%rsp)
	movl	8(%rdx), %ecx
	movl	%ecx, 96(%rsp)
	movups	(%rax), %xmm0
	movaps	%xmm0, 192(%rsp)
	leaq	(%rdi,%rbx), %rax
	leaq	176(%rsp), %r14
	movq	%r14, 72(%rsp)
	movq	%r10, 64(%rsp)
	movq	%rax, 56(%rsp)
	leaq	192(%rsp), %rax
	movq	%rax, 48(%rsp)
	movq	%rsi, 40(%rsp)
	movq	%r8, 32(%rsp)
	leaq	159(%rsp), %rcx
	leaq	104(%rsp), %rdx
	leaq	136(%rsp), %r8
	leaq	88(%rsp), %r9
	callq	"deerlapse_0_1_0::aead_ciphers::aes_gcm::opening::authenticate::<#7bfdf0a6b4753edd>"
	cmpb	$0, 159(%rsp)
	sete	%al
	jne	.Ldeerlapse_0_1_0_BB56_8
# %bb.6:                                # %arm.1.i.i.i.i
	leaq	160(%rsp), %rdx
	movq	%r14, 40(%rsp)
	movq	%rbx, 32(%rsp)
	leaq	104(%rsp), %rcx
	movq	%rdi, %r8
	movq	328(%rsp), %r9
	movq	%rax, %rsi
	callq	"deerlapse_0_1_0::aead_ciphers::aes_gcm::counter_mode::encrypt_within::<#6fa349fe97f872a2>"
	movq	%rsi, %rax
	jmp	.Ldeerlapse_0_1_0_BB56_8
.Ldeerlapse_0_1_0_BB56_7:
	xorl	%eax, %eax
.Ldeerlapse_0_1_0_BB56_8:                               # %"deerlapse::key::deerlapse_key_open_separate_tag.exit"
                                        # kill: def $al killed $al killed $rax
	addq	$216, %rsp
	popq	%rbx
	popq	%rbp
	popq	%rdi
	popq	%rsi
	popq	%r12
	popq	%r13
	popq	%r14
	popq	%r15
	retq
	.seh_endproc
                                        # -- End function
	.ifdef	deerlapse_in_rust
	.globl	deerlapse_0_1_0_key_open_to_sized     # -- Begin function deerlapse_0_1_0_key_open_to_sized
	.p2align	4
deerlapse_0_1_0_key_open_to_sized:            # @deerlapse_0_1_0_key_open_to_sized
.seh_proc deerlapse_0_1_0_key_open_to_sized
	.def	deerlapse_0_1_0_key_open_to_sized;
	.scl	2;
	.type	32;
	.endef
	.else
	.globl	deerlapse_key_open_to_sized     # -- Begin function deerlapse_key_open_to_sized
	.p2align	4
deerlapse_key_open_to_sized:            # @deerlapse_key_open_to_sized
.seh_proc deerlapse_key_open_to_sized
	.def	deerlapse_key_open_to_sized;
	.scl	2;
	.type	32;
	.endef
	.endif
# %bb.0:                                # %start
	pushq	%rsi
	.seh_pushreg %rsi
	subq	$80, %rsp
	.seh_stackalloc 80
	.seh_endprologue
	movq	136(%rsp), %rax
	movups	152(%rsp), %xmm0
	movq	144(%rsp), %r10
	movq	128(%rsp), %r11
	xorl	%esi, %esi
	testq	%r8, %r8
	sete	%sil
	shll	$12, %esi
	addq	%rsi, %r8
	xorl	%esi, %esi
	testq	%r11, %r11
	sete	%sil
	shll	$12, %esi
	addq	%r11, %rsi
	xorl	%r11d, %r11d
	testq	%r10, %r10
	sete	%r11b
	shll	$12, %r11d
	addq	%r10, %r11
	movups	%xmm0, 56(%rsp)
	movq	%rax, 40(%rsp)
	movq	%r11, 48(%rsp)
	movq	%rsi, 32(%rsp)
	callq	"deerlapse_0_1_0::deerlapse::out_of_place::deerlapse_key_open_to_sized"
	nop
	addq	$80, %rsp
	popq	%rsi
	retq
	.seh_endproc
                                        # -- End function
	.ifdef	deerlapse_in_rust
	.globl	deerlapse_0_1_0_key_open_appended_tag_sized # -- Begin function deerlapse_0_1_0_key_open_appended_tag_sized
	.p2align	4
deerlapse_0_1_0_key_open_appended_tag_sized:  # @deerlapse_0_1_0_key_open_appended_tag_sized
.seh_proc deerlapse_0_1_0_key_open_appended_tag_sized
	.def	deerlapse_0_1_0_key_open_appended_tag_sized;
	.scl	2;
	.type	32;
	.endef
	.else
	.globl	deerlapse_key_open_appended_tag_sized # -- Begin function deerlapse_key_open_appended_tag_sized
	.p2align	4
deerlapse_key_open_appended_tag_sized:  # @deerlapse_key_open_appended_tag_sized
.seh_proc deerlapse_key_open_appended_tag_sized
	.def	deerlapse_key_open_appended_tag_sized;
	.scl	2;
	.type	32;
	.endef
	.endif
# %bb.0:                                # %start
	pushq	%rsi
	.seh_pushreg %rsi
	pushq	%rdi
	.seh_pushreg %rdi
	pushq	%rbx
	.seh_pushreg %rbx
	subq	$80, %rsp
	.seh_stackalloc 80
	.seh_endprologue
	movq	152(%rsp), %r10
	cmpq	$16, %r10
	jae	.Ldeerlapse_0_1_0_BB58_2
# %bb.1:
	xorl	%eax, %eax
	jmp	.Ldeerlapse_0_1_0_BB58_3
.Ldeerlapse_0_1_0_BB58_2:                               # %arm.1.i
	movq	168(%rsp), %r11
	movq	160(%rsp), %rax
	movq	144(%rsp), %rdi
	xorl	%esi, %esi
	testq	%rax, %rax
	sete	%sil
	shll	$12, %esi
	addq	%rax, %rsi
	xorl	%ebx, %ebx
	testq	%rdi, %rdi
	sete	%bl
	shll	$12, %ebx
	addq	%rdi, %rbx
	xorl	%eax, %eax
	testq	%r8, %r8
	sete	%al
	shll	$12, %eax
	addq	%r8, %rax
	leaq	(%r10,%rbx), %r8
	addq	$-16, %r8
	addq	$-16, %r10
	movq	%r11, 56(%rsp)
	movq	%r10, 40(%rsp)
	movq	%rsi, 48(%rsp)
	movq	%rbx, 32(%rsp)
	movq	%r8, 64(%rsp)
	movq	%rax, %r8
	callq	"deerlapse_0_1_0::deerlapse::out_of_place::deerlapse_key_open_to_sized"
	nop
                                        # kill: def $al killed $al def $eax
.Ldeerlapse_0_1_0_BB58_3:                               # %"deerlapse::out_of_place::deerlapse_key_open_appended_tag_sized.exit"
                                        # kill: def $al killed $al killed $eax
	addq	$80, %rsp
	popq	%rbx
	popq	%rdi
	popq	%rsi
	retq
	.seh_endproc
                                        # -- End function
	.ifdef	deerlapse_in_rust
	.globl	deerlapse_0_1_0_key_seal              # -- Begin function deerlapse_0_1_0_key_seal
	.p2align	4
deerlapse_0_1_0_key_seal:                     # @deerlapse_0_1_0_key_seal
.seh_proc deerlapse_0_1_0_key_seal
	.def	deerlapse_0_1_0_key_seal;
	.scl	2;
	.type	32;
	.endef
	.else
	.globl	deerlapse_key_seal              # -- Begin function deerlapse_key_seal
	.p2align	4
deerlapse_key_seal:                     # @deerlapse_key_seal
.seh_proc deerlapse_key_seal
	.def	deerlapse_key_seal;
	.scl	2;
	.type	32;
	.endef
	.endif
# %bb.0:                                # %start
	subq	$56, %rsp
	.seh_stackalloc 56
	.seh_endprologue
	movups	104(%rsp), %xmm0
	movq	96(%rsp), %rax
	xorl	%r10d, %r10d
	testq	%r8, %r8
	sete	%r10b
	shll	$12, %r10d
	addq	%r10, %r8
	xorl	%r10d, %r10d
	testq	%rax, %rax
	sete	%r10b
	shll	$12, %r10d
	addq	%rax, %r10
	movups	%xmm0, 40(%rsp)
	movq	%r10, 32(%rsp)
	callq	"deerlapse_0_1_0::deerlapse::key::deerlapse_key_seal"
	nop
	addq	$56, %rsp
	retq
	.seh_endproc
                                        # -- End function
	.ifdef	deerlapse_in_rust
	.globl	deerlapse_0_1_0_key_seal_to_sized     # -- Begin function deerlapse_0_1_0_key_seal_to_sized
	.p2align	4
deerlapse_0_1_0_key_seal_to_sized:            # @deerlapse_0_1_0_key_seal_to_sized
.seh_proc deerlapse_0_1_0_key_seal_to_sized
	.def	deerlapse_0_1_0_key_seal_to_sized;
	.scl	2;
	.type	32;
	.endef
	.else
	.globl	deerlapse_key_seal_to_sized     # -- Begin function deerlapse_key_seal_to_sized
	.p2align	4
deerlapse_key_seal_to_sized:            # @deerlapse_key_seal_to_sized
.seh_proc deerlapse_key_seal_to_sized
	.def	deerlapse_key_seal_to_sized;
	.scl	2;
	.type	32;
	.endef
	.endif
# %bb.0:                                # %start
	pushq	%r15
	.seh_pushreg %r15
	pushq	%r14
	.seh_pushreg %r14
	pushq	%r13
	.seh_pushreg %r13
	pushq	%r12
	.seh_pushreg %r12
	pushq	%rsi
	.seh_pushreg %rsi
	pushq	%rdi
	.seh_pushreg %rdi
	pushq	%rbp
	.seh_pushreg %rbp
	pushq	%rbx
	.seh_pushreg %rbx
	subq	$56, %rsp
	.seh_stackalloc 56
	.seh_endprologue
	movq	184(%rsp), %rsi
	movq	160(%rsp), %r11
	xorl	%edi, %edi
	testq	%r8, %r8
	sete	%bl
	xorl	%r14d, %r14d
	testq	%r11, %r11
	sete	%r12b
	xorl	%r15d, %r15d
	cmpq	$0, 176(%rsp)
	sete	%bpl
	xorl	%eax, %eax
	cmpq	168(%rsp), %rsi
	jne	.Ldeerlapse_0_1_0_BB60_26
# %bb.1:                                # %start
	movl	1920(%rcx), %r10d
	addl	$-10, %r10d
	cmpl	$4, %r10d
	ja	.Ldeerlapse_0_1_0_BB60_26
# %bb.2:                                # %else.7.i
	movabsq	$68719476704, %r13              # imm = 0xFFFFFFFE0
	movq	%r9, %rax
	shrq	$61, %rax
	setne	%al
	leaq	1(%r13), %r10
	cmpq	%r10, %rsi
	setae	%r10b
	orb	%al, %r10b
	jne	.Ldeerlapse_0_1_0_BB60_6
# %bb.3:                                # %after.1.i
	movb	%bl, %dil
	shll	$12, %edi
	addq	%rdi, %r8
	movb	%r12b, %r14b
	shll	$12, %r14d
	leaq	(%r11,%r14), %rax
	movb	%bpl, %r15b
	shll	$12, %r15d
	movq	176(%rsp), %r10
	leaq	(%r10,%r15), %rdi
	movq	%rdi, %r10
	subq	%rax, %r10
	cmpq	%rsi, %r10
	jae	.Ldeerlapse_0_1_0_BB60_7
# %bb.4:                                # %iter.check
	cmpq	$4, %rsi
	jb	.Ldeerlapse_0_1_0_BB60_5
# %bb.8:                                # %vector.memcheck
	cmpq	$32, %r10
	jae	.Ldeerlapse_0_1_0_BB60_10
.Ldeerlapse_0_1_0_BB60_5:
	xorl	%r12d, %r12d
.Ldeerlapse_0_1_0_BB60_19:                              # %join.7.i.i.i.i.i.i.i.preheader
	movq	%rsi, %rbx
	movq	%r12, %r13
	andq	$3, %rbx
	je	.Ldeerlapse_0_1_0_BB60_22
# %bb.20:                               # %join.7.i.i.i.i.i.i.i.prol.preheader
	movq	%r12, %r13
	.p2align	4
.Ldeerlapse_0_1_0_BB60_21:                              # %join.7.i.i.i.i.i.i.i.prol
                                        # =>This Inner Loop Header: Depth=1
	movzbl	(%rax,%r13), %r10d
	movb	%r10b, (%rdi,%r13)
	incq	%r13
	decq	%rbx
	jne	.Ldeerlapse_0_1_0_BB60_21
.Ldeerlapse_0_1_0_BB60_22:                              # %join.7.i.i.i.i.i.i.i.prol.loopexit
	subq	%rsi, %r12
	cmpq	$-4, %r12
	ja	.Ldeerlapse_0_1_0_BB60_25
# %bb.23:                               # %join.7.i.i.i.i.i.i.i.preheader11
	leaq	(%r14,%r11), %rax
	addq	$3, %rax
	movq	176(%rsp), %r10
	addq	%r15, %r10
	addq	$3, %r10
	.p2align	4
.Ldeerlapse_0_1_0_BB60_24:                              # %join.7.i.i.i.i.i.i.i
                                        # =>This Inner Loop Header: Depth=1
	movzbl	-3(%rax,%r13), %r11d
	movb	%r11b, -3(%r10,%r13)
	movzbl	-2(%rax,%r13), %r11d
	movb	%r11b, -2(%r10,%r13)
	movzbl	-1(%rax,%r13), %r11d
	movb	%r11b, -1(%r10,%r13)
	movzbl	(%rax,%r13), %r11d
	movb	%r11b, (%r10,%r13)
	addq	$4, %r13
	cmpq	%r13, %rsi
	jne	.Ldeerlapse_0_1_0_BB60_24
	jmp	.Ldeerlapse_0_1_0_BB60_25
.Ldeerlapse_0_1_0_BB60_6:
	xorl	%eax, %eax
	jmp	.Ldeerlapse_0_1_0_BB60_26
.Ldeerlapse_0_1_0_BB60_7:                               # %apart.2.i.i.i.i.i.i.i
	movq	%rcx, %rbx
	movq	%rdi, %rcx
	movq	%rdx, %r14
	movq	%rax, %rdx
	movq	%r8, %r15
	movq	%rsi, %r8
	movq	%r9, %r12
	callq	memmove
	movq	%rbx, %rcx
	movq	%r14, %rdx
	movq	%r15, %r8
	movq	%r12, %r9
.Ldeerlapse_0_1_0_BB60_25:                              # %"core::slice::edits::slice+T::copy_from_slice::<i8,20'core::clone::U8Clone{}>.exit.i"
	movq	192(%rsp), %rax
	movq	%rax, 48(%rsp)
	movq	%rsi, 40(%rsp)
	movq	%rdi, 32(%rsp)
	callq	"deerlapse_0_1_0::deerlapse::key::deerlapse_key_seal"
	nop
                                        # kill: def $al killed $al def $eax
.Ldeerlapse_0_1_0_BB60_26:                              # %"deerlapse::out_of_place::deerlapse_key_seal_to_sized.exit"
                                        # kill: def $al killed $al killed $eax
	addq	$56, %rsp
	popq	%rbx
	popq	%rbp
	popq	%rdi
	popq	%rsi
	popq	%r12
	popq	%r13
	popq	%r14
	popq	%r15
	retq
.Ldeerlapse_0_1_0_BB60_10:                              # %vector.main.loop.iter.check
	cmpq	$32, %rsi
	jae	.Ldeerlapse_0_1_0_BB60_12
# %bb.11:
	xorl	%r12d, %r12d
	jmp	.Ldeerlapse_0_1_0_BB60_16
.Ldeerlapse_0_1_0_BB60_12:                              # %vector.ph
	movq	%rsi, %r12
	andq	%r13, %r12
	leaq	(%r14,%r11), %rbx
	addq	$16, %rbx
	movq	176(%rsp), %r10
	leaq	(%r15,%r10), %rbp
	addq	$16, %rbp
	xorl	%r10d, %r10d
	.p2align	4
.Ldeerlapse_0_1_0_BB60_13:                              # %vector.body
                                        # =>This Inner Loop Header: Depth=1
	movups	-16(%rbx,%r10), %xmm0
	movups	(%rbx,%r10), %xmm1
	movups	%xmm0, -16(%rbp,%r10)
	movups	%xmm1, (%rbp,%r10)
	addq	$32, %r10
	cmpq	%r10, %r12
	jne	.Ldeerlapse_0_1_0_BB60_13
# %bb.14:                               # %middle.block
	cmpq	%r12, %rsi
	je	.Ldeerlapse_0_1_0_BB60_25
# %bb.15:                               # %vec.epilog.iter.check
	testb	$28, %sil
	je	.Ldeerlapse_0_1_0_BB60_19
.Ldeerlapse_0_1_0_BB60_16:                              # %vec.epilog.ph
	movq	%r12, %rbx
	addq	$28, %r13
	movq	%r13, %r12
	andq	%rsi, %r12
	.p2align	4
.Ldeerlapse_0_1_0_BB60_17:                              # %vec.epilog.vector.body
                                        # =>This Inner Loop Header: Depth=1
	movl	(%rax,%rbx), %r10d
	movl	%r10d, (%rdi,%rbx)
	addq	$4, %rbx
	cmpq	%rbx, %r12
	jne	.Ldeerlapse_0_1_0_BB60_17
# %bb.18:                               # %vec.epilog.middle.block
	cmpq	%r12, %rsi
	je	.Ldeerlapse_0_1_0_BB60_25
	jmp	.Ldeerlapse_0_1_0_BB60_19
	.seh_endproc
                                        # -- End function
	.ifdef	deerlapse_in_rust
	.globl	deerlapse_0_1_0_key_seal_append_tag_sized # -- Begin function deerlapse_0_1_0_key_seal_append_tag_sized
	.p2align	4
deerlapse_0_1_0_key_seal_append_tag_sized:    # @deerlapse_0_1_0_key_seal_append_tag_sized
.seh_proc deerlapse_0_1_0_key_seal_append_tag_sized
	.def	deerlapse_0_1_0_key_seal_append_tag_sized;
	.scl	2;
	.type	32;
	.endef
	.else
	.globl	deerlapse_key_seal_append_tag_sized # -- Begin function deerlapse_key_seal_append_tag_sized
	.p2align	4
deerlapse_key_seal_append_tag_sized:    # @deerlapse_key_seal_append_tag_sized
.seh_proc deerlapse_key_seal_append_tag_sized
	.def	deerlapse_key_seal_append_tag_sized;
	.scl	2;
	.type	32;
	.endef
	.endif
# %bb.0:                                # %start
	pushq	%r15
	.seh_pushreg %r15
	pushq	%r14
	.seh_pushreg %r14
	pushq	%r13
	.seh_pushreg %r13
	pushq	%r12
	.seh_pushreg %r12
	pushq	%rsi
	.seh_pushreg %rsi
	pushq	%rdi
	.seh_pushreg %rdi
	pushq	%rbp
	.seh_pushreg %rbp
	pushq	%rbx
	.seh_pushreg %rbx
	subq	$72, %rsp
	.seh_stackalloc 72
	.seh_endprologue
	movq	200(%rsp), %r15
	movq	176(%rsp), %r11
	xorl	%edi, %edi
	testq	%r8, %r8
	sete	%r13b
	xorl	%ebx, %ebx
	testq	%r11, %r11
	sete	%r12b
	xorl	%r14d, %r14d
	cmpq	$0, 192(%rsp)
	sete	%bpl
	cmpq	$16, %r15
	jae	.Ldeerlapse_0_1_0_BB61_3
.Ldeerlapse_0_1_0_BB61_1:
	xorl	%eax, %eax
.Ldeerlapse_0_1_0_BB61_2:                               # %"deerlapse::out_of_place::deerlapse_key_seal_append_tag_sized.exit"
                                        # kill: def $al killed $al killed $eax
	addq	$72, %rsp
	popq	%rbx
	popq	%rbp
	popq	%rdi
	popq	%rsi
	popq	%r12
	popq	%r13
	popq	%r14
	popq	%r15
	retq
.Ldeerlapse_0_1_0_BB61_3:                               # %arm.1.i
	movq	184(%rsp), %rsi
	leaq	-16(%r15), %r10
	xorl	%eax, %eax
	cmpq	%rsi, %r10
	jne	.Ldeerlapse_0_1_0_BB61_2
# %bb.4:                                # %arm.1.i
	movl	1920(%rcx), %r10d
	addl	$-10, %r10d
	cmpl	$4, %r10d
	ja	.Ldeerlapse_0_1_0_BB61_2
# %bb.5:                                # %else.7.i.i
	movabsq	$68719476704, %r10              # imm = 0xFFFFFFFE0
	movq	%r9, %rax
	shrq	$61, %rax
	setne	%al
	incq	%r10
	cmpq	%r10, %rsi
	setae	%r10b
	orb	%al, %r10b
	jne	.Ldeerlapse_0_1_0_BB61_1
# %bb.6:                                # %after.1.i.i
	movb	%r13b, %dil
	shll	$12, %edi
	addq	%rdi, %r8
	movb	%r12b, %bl
	shll	$12, %ebx
	leaq	(%r11,%rbx), %rax
	movb	%bpl, %r14b
	shll	$12, %r14d
	movq	192(%rsp), %r10
	leaq	(%r10,%r14), %rdi
	leaq	(%rdi,%r15), %rbp
	addq	$-16, %rbp
	movq	%rdi, %r15
	subq	%rax, %r15
	cmpq	%rsi, %r15
	jae	.Ldeerlapse_0_1_0_BB61_10
# %bb.7:                                # %iter.check
	cmpq	$4, %rsi
	jb	.Ldeerlapse_0_1_0_BB61_8
# %bb.11:                               # %vector.memcheck
	cmpq	$32, %r15
	jae	.Ldeerlapse_0_1_0_BB61_13
.Ldeerlapse_0_1_0_BB61_8:
	xorl	%r12d, %r12d
.Ldeerlapse_0_1_0_BB61_22:                              # %join.7.i.i.i.i.i.i.i.i.preheader
	movq	%rbp, %r15
	movq	%rsi, %rbp
	movq	%r12, %r13
	andq	$3, %rbp
	je	.Ldeerlapse_0_1_0_BB61_25
# %bb.23:                               # %join.7.i.i.i.i.i.i.i.i.prol.preheader
	movq	%r12, %r13
	.p2align	4
.Ldeerlapse_0_1_0_BB61_24:                              # %join.7.i.i.i.i.i.i.i.i.prol
                                        # =>This Inner Loop Header: Depth=1
	movzbl	(%rax,%r13), %r10d
	movb	%r10b, (%rdi,%r13)
	incq	%r13
	decq	%rbp
	jne	.Ldeerlapse_0_1_0_BB61_24
.Ldeerlapse_0_1_0_BB61_25:                              # %join.7.i.i.i.i.i.i.i.i.prol.loopexit
	subq	%rsi, %r12
	cmpq	$-4, %r12
	movq	%r15, %rbp
	ja	.Ldeerlapse_0_1_0_BB61_28
# %bb.26:                               # %join.7.i.i.i.i.i.i.i.i.preheader11
	leaq	(%rbx,%r11), %rax
	addq	$3, %rax
	movq	192(%rsp), %r10
	addq	%r14, %r10
	addq	$3, %r10
	.p2align	4
.Ldeerlapse_0_1_0_BB61_27:                              # %join.7.i.i.i.i.i.i.i.i
                                        # =>This Inner Loop Header: Depth=1
	movzbl	-3(%rax,%r13), %r11d
	movb	%r11b, -3(%r10,%r13)
	movzbl	-2(%rax,%r13), %r11d
	movb	%r11b, -2(%r10,%r13)
	movzbl	-1(%rax,%r13), %r11d
	movb	%r11b, -1(%r10,%r13)
	movzbl	(%rax,%r13), %r11d
	movb	%r11b, (%r10,%r13)
	addq	$4, %r13
	cmpq	%r13, %rsi
	jne	.Ldeerlapse_0_1_0_BB61_27
	jmp	.Ldeerlapse_0_1_0_BB61_28
.Ldeerlapse_0_1_0_BB61_10:                              # %apart.2.i.i.i.i.i.i.i.i
	movq	%rcx, %rbx
	movq	%rdi, %rcx
	movq	%rdx, %r14
	movq	%rax, %rdx
	movq	%r8, %r15
	movq	%rsi, %r8
	movq	%r9, %r12
	callq	memmove
	movq	%rbx, %rcx
	movq	%r14, %rdx
	movq	%r15, %r8
	movq	%r12, %r9
.Ldeerlapse_0_1_0_BB61_28:                              # %"core::slice::edits::slice+T::copy_from_slice::<i8,20'core::clone::U8Clone{}>.exit.i.i"
	movq	%rbp, 48(%rsp)
	movq	%rsi, 40(%rsp)
	movq	%rdi, 32(%rsp)
	callq	"deerlapse_0_1_0::deerlapse::key::deerlapse_key_seal"
                                        # kill: def $al killed $al def $eax
	jmp	.Ldeerlapse_0_1_0_BB61_2
.Ldeerlapse_0_1_0_BB61_13:                              # %vector.main.loop.iter.check
	cmpq	$32, %rsi
	jae	.Ldeerlapse_0_1_0_BB61_15
# %bb.14:
	xorl	%r12d, %r12d
	jmp	.Ldeerlapse_0_1_0_BB61_19
.Ldeerlapse_0_1_0_BB61_15:                              # %vector.ph
	movq	%rbp, 64(%rsp)                  # 8-byte Spill
	movq	%rsi, %r12
	movabsq	$68719476704, %r15              # imm = 0xFFFFFFFE0
	andq	%r15, %r12
	leaq	(%rbx,%r11), %r13
	addq	$16, %r13
	leaq	(%r14,%r10), %rbp
	addq	$16, %rbp
	xorl	%r15d, %r15d
	.p2align	4
.Ldeerlapse_0_1_0_BB61_16:                              # %vector.body
                                        # =>This Inner Loop Header: Depth=1
	movups	-16(%r13,%r15), %xmm0
	movups	(%r13,%r15), %xmm1
	movups	%xmm0, -16(%rbp,%r15)
	movups	%xmm1, (%rbp,%r15)
	addq	$32, %r15
	cmpq	%r15, %r12
	jne	.Ldeerlapse_0_1_0_BB61_16
# %bb.17:                               # %middle.block
	cmpq	%r12, %rsi
	movq	64(%rsp), %rbp                  # 8-byte Reload
	je	.Ldeerlapse_0_1_0_BB61_28
# %bb.18:                               # %vec.epilog.iter.check
	testb	$28, %sil
	je	.Ldeerlapse_0_1_0_BB61_22
.Ldeerlapse_0_1_0_BB61_19:                              # %vec.epilog.ph
	movq	%r12, %r13
	movabsq	$68719476704, %r12              # imm = 0xFFFFFFFE0
	addq	$28, %r12
	andq	%rsi, %r12
	.p2align	4
.Ldeerlapse_0_1_0_BB61_20:                              # %vec.epilog.vector.body
                                        # =>This Inner Loop Header: Depth=1
	movl	(%rax,%r13), %r10d
	movl	%r10d, (%rdi,%r13)
	addq	$4, %r13
	cmpq	%r13, %r12
	jne	.Ldeerlapse_0_1_0_BB61_20
# %bb.21:                               # %vec.epilog.middle.block
	cmpq	%r12, %rsi
	je	.Ldeerlapse_0_1_0_BB61_28
	jmp	.Ldeerlapse_0_1_0_BB61_22
	.seh_endproc
                                        # -- End function
	.ifdef	deerlapse_in_rust
	.globl	deerlapse_0_1_0_key_update            # -- Begin function deerlapse_0_1_0_key_update
	.p2align	4
deerlapse_0_1_0_key_update:                   # @deerlapse_0_1_0_key_update
.seh_proc deerlapse_0_1_0_key_update
	.def	deerlapse_0_1_0_key_update;
	.scl	2;
	.type	32;
	.endef
	.else
	.globl	deerlapse_key_update            # -- Begin function deerlapse_key_update
	.p2align	4
deerlapse_key_update:                   # @deerlapse_key_update
.seh_proc deerlapse_key_update
	.def	deerlapse_key_update;
	.scl	2;
	.type	32;
	.endef
	.endif
# %bb.0:                                # %start
	pushq	%r15
	.seh_pushreg %r15
	pushq	%r14
	.seh_pushreg %r14
	pushq	%r13
	.seh_pushreg %r13
	pushq	%r12
	.seh_pushreg %r12
	pushq	%rsi
	.seh_pushreg %rsi
	pushq	%rdi
	.seh_pushreg %rdi
	pushq	%rbp
	.seh_pushreg %rbp
	pushq	%rbx
	.seh_pushreg %rbx
	subq	$408, %rsp                      # imm = 0x198
	.seh_stackalloc 408
	.seh_endprologue
	movq	%rdx, %rdi
	xorl	%r11d, %r11d
	testq	%r8, %r8
	sete	%dl
	movq	%rcx, 72(%rsp)                  # 8-byte Spill
	movl	1920(%rcx), %eax
	movq	%rax, 104(%rsp)                 # 8-byte Spill
	addl	$-10, %eax
	cmpl	$4, %eax
	ja	.Ldeerlapse_0_1_0_BB62_57
# %bb.1:                                # %join.3.i
	cmpl	$0, 172(%rdi)
	je	.Ldeerlapse_0_1_0_BB62_57
# %bb.2:                                # %then.4.i
	movq	%r9, %rsi
	movq	72(%rsp), %rcx                  # 8-byte Reload
	leaq	2168(%rcx), %rax
	leaq	2680(%rcx), %r9
	movq	%rax, 240(%rsp)
	movq	%r9, 248(%rsp)
	movq	152(%rdi), %rax
	movabsq	$68719476704, %r9               # imm = 0xFFFFFFFE0
	subq	%rax, %r9
	cmpq	%rsi, %r9
	setae	%cl
	movl	%ecx, 68(%rsp)                  # 4-byte Spill
	leaq	-1(%rsi), %r10
	cmpq	%r9, %r10
	jae	.Ldeerlapse_0_1_0_BB62_56
# %bb.3:                                # %join.9.lr.ph.i.i.i
	movb	%dl, %r11b
	shll	$12, %r11d
	leaq	(%r8,%r11), %r13
	leaq	16(%rdi), %r15
	leaq	(%r11,%r8), %rcx
	addq	$3, %rcx
	movq	%rcx, 80(%rsp)                  # 8-byte Spill
	xorl	%r14d, %r14d
	jmp	.Ldeerlapse_0_1_0_BB62_5
	.p2align	4
.Ldeerlapse_0_1_0_BB62_4:                               # %"aead_ciphers_wide::aes_gcm::pieces::SealState::seal_in_batch::<#7bfdf0a6b4753edd>.exit.i.i.i"
                                        #   in Loop: Header=BB62_5 Depth=1
	movq	%r12, %rax
	movq	%rbx, %r14
	cmpq	%rsi, %rbx
	jae	.Ldeerlapse_0_1_0_BB62_56
.Ldeerlapse_0_1_0_BB62_5:                               # %join.9.i.i.i
                                        # =>This Loop Header: Depth=1
                                        #     Child Loop BB62_22 Depth 2
                                        #     Child Loop BB62_26 Depth 2
                                        #     Child Loop BB62_29 Depth 2
                                        #     Child Loop BB62_45 Depth 2
                                        #     Child Loop BB62_49 Depth 2
                                        #     Child Loop BB62_52 Depth 2
	movq	%rsi, %rcx
	subq	%r14, %rcx
	movl	%eax, %ebp
	andl	$127, %ebp
	movl	$128, %r12d
	subq	%rbp, %r12
	cmpq	%rcx, %r12
	cmovaeq	%rcx, %r12
	xorps	%xmm0, %xmm0
	movaps	%xmm0, 384(%rsp)
	testq	%rbp, %rbp
	je	.Ldeerlapse_0_1_0_BB62_7
# %bb.6:                                # %then.1.i.i.i.i.i
                                        #   in Loop: Header=BB62_5 Depth=1
	movups	112(%r15), %xmm0
	movaps	%xmm0, 224(%rsp)
	movups	96(%r15), %xmm0
	movaps	%xmm0, 208(%rsp)
	movups	80(%r15), %xmm0
	movaps	%xmm0, 192(%rsp)
	movups	64(%r15), %xmm0
	movaps	%xmm0, 176(%rsp)
	movups	(%r15), %xmm0
	movups	16(%r15), %xmm1
	movups	32(%r15), %xmm2
	movups	48(%r15), %xmm3
	jmp	.Ldeerlapse_0_1_0_BB62_8
	.p2align	4
.Ldeerlapse_0_1_0_BB62_7:                               # %join.3.i.i.i.i.i
                                        #   in Loop: Header=BB62_5 Depth=1
	leaq	100(%rsp), %rcx
	movb	$0, 2(%rcx)
	movw	$0, (%rcx)
	leaq	160(%rdi), %rdx
	movl	8(%rdx), %ecx
	movl	%ecx, 96(%rsp)
	movq	(%rdx), %rcx
	movq	%rcx, 88(%rsp)
	movq	95(%rsp), %rdx
	movq	%rdx, 55(%rsp)
	movq	%rcx, 48(%rsp)
	movb	$1, 63(%rsp)
	shrq	$4, %rax
	movl	60(%rsp), %ecx
	bswapl	%ecx
	addl	%ecx, %eax
	incl	%eax
	bswapl	%eax
	movl	%eax, 60(%rsp)
	movaps	%xmm0, 256(%rsp)
	movaps	%xmm0, 272(%rsp)
	movaps	%xmm0, 288(%rsp)
	movaps	%xmm0, 304(%rsp)
	movaps	%xmm0, 320(%rsp)
	movaps	%xmm0, 336(%rsp)
	movaps	%xmm0, 352(%rsp)
	movaps	%xmm0, 368(%rsp)
	leaq	48(%rsp), %rax
	movq	%rax, 32(%rsp)
	movq	$8, 40(%rsp)
	leaq	256(%rsp), %r8
	movq	72(%rsp), %rcx                  # 8-byte Reload
	movq	104(%rsp), %rdx                 # 8-byte Reload
	xorl	%r9d, %r9d
	callq	"deerlapse_0_1_0::aead_ciphers_wide::aes::ctr32::encrypt_up_to_eight"
	movaps	368(%rsp), %xmm0
	movaps	%xmm0, 224(%rsp)
	movaps	352(%rsp), %xmm0
	movaps	%xmm0, 208(%rsp)
	movaps	336(%rsp), %xmm0
	movaps	%xmm0, 192(%rsp)
	movaps	320(%rsp), %xmm0
	movaps	%xmm0, 176(%rsp)
	movaps	256(%rsp), %xmm0
	movaps	272(%rsp), %xmm1
	movaps	288(%rsp), %xmm2
	movaps	304(%rsp), %xmm3
.Ldeerlapse_0_1_0_BB62_8:                               # %iter.check17
                                        #   in Loop: Header=BB62_5 Depth=1
	movaps	%xmm3, 160(%rsp)
	movaps	%xmm2, 144(%rsp)
	movaps	%xmm1, 128(%rsp)
	movaps	%xmm0, 112(%rsp)
	leaq	(%r12,%r14), %rbx
	leaq	(%r13,%r14), %rdx
	movaps	224(%rsp), %xmm0
	movups	%xmm0, 112(%r15)
	movaps	208(%rsp), %xmm0
	movups	%xmm0, 96(%r15)
	movaps	192(%rsp), %xmm0
	movups	%xmm0, 80(%r15)
	movaps	176(%rsp), %xmm0
	movups	%xmm0, 64(%r15)
	movaps	112(%rsp), %xmm0
	movaps	128(%rsp), %xmm1
	movaps	144(%rsp), %xmm2
	movaps	160(%rsp), %xmm3
	movups	%xmm3, 48(%r15)
	movups	%xmm2, 32(%r15)
	movups	%xmm1, 16(%r15)
	movups	%xmm0, (%r15)
	leaq	(%r15,%rbp), %rcx
	cmpq	$4, %r12
	jb	.Ldeerlapse_0_1_0_BB62_9
# %bb.10:                               # %vector.memcheck11
                                        #   in Loop: Header=BB62_5 Depth=1
	leaq	(%r15,%r12), %rax
	addq	%rbp, %rax
	cmpq	%rax, %rdx
	jae	.Ldeerlapse_0_1_0_BB62_13
# %bb.11:                               # %vector.memcheck11
                                        #   in Loop: Header=BB62_5 Depth=1
	leaq	(%rbx,%r13), %rax
	cmpq	%rax, %rcx
	jae	.Ldeerlapse_0_1_0_BB62_13
.Ldeerlapse_0_1_0_BB62_9:                               #   in Loop: Header=BB62_5 Depth=1
	xorl	%eax, %eax
.Ldeerlapse_0_1_0_BB62_24:                              # %join.5.i.i.i.i.i.preheader
                                        #   in Loop: Header=BB62_5 Depth=1
	movq	%r12, %r9
	movq	%rax, %r8
	andq	$3, %r9
	je	.Ldeerlapse_0_1_0_BB62_27
# %bb.25:                               # %join.5.i.i.i.i.i.prol.preheader
                                        #   in Loop: Header=BB62_5 Depth=1
	movq	%rax, %r8
	.p2align	4
.Ldeerlapse_0_1_0_BB62_26:                              # %join.5.i.i.i.i.i.prol
                                        #   Parent Loop BB62_5 Depth=1
                                        # =>  This Inner Loop Header: Depth=2
	movzbl	(%rcx,%r8), %r10d
	xorb	%r10b, (%rdx,%r8)
	incq	%r8
	decq	%r9
	jne	.Ldeerlapse_0_1_0_BB62_26
.Ldeerlapse_0_1_0_BB62_27:                              # %join.5.i.i.i.i.i.prol.loopexit
                                        #   in Loop: Header=BB62_5 Depth=1
	subq	%r12, %rax
	cmpq	$-4, %rax
	ja	.Ldeerlapse_0_1_0_BB62_30
# %bb.28:                               # %join.5.i.i.i.i.i.preheader51
                                        #   in Loop: Header=BB62_5 Depth=1
	movq	80(%rsp), %rax                  # 8-byte Reload
	addq	%r14, %rax
	leaq	19(%rdi), %r9
	addq	%rbp, %r9
	.p2align	4
.Ldeerlapse_0_1_0_BB62_29:                              # %join.5.i.i.i.i.i
                                        #   Parent Loop BB62_5 Depth=1
                                        # =>  This Inner Loop Header: Depth=2
	movzbl	-3(%r9,%r8), %r10d
	xorb	%r10b, -3(%rax,%r8)
	movzbl	-2(%r9,%r8), %r10d
	xorb	%r10b, -2(%rax,%r8)
	movzbl	-1(%r9,%r8), %r10d
	xorb	%r10b, -1(%rax,%r8)
	movzbl	(%r9,%r8), %r10d
	xorb	%r10b, (%rax,%r8)
	addq	$4, %r8
	cmpq	%r8, %r12
	jne	.Ldeerlapse_0_1_0_BB62_29
.Ldeerlapse_0_1_0_BB62_30:                              # %"aead_ciphers_base::bb::xor_assign_at_start.exit.i.loopexit.i.i.i"
                                        #   in Loop: Header=BB62_5 Depth=1
	movq	%rcx, %rax
	subq	%rdx, %rax
	cmpq	%r12, %rax
	jae	.Ldeerlapse_0_1_0_BB62_33
# %bb.31:                               # %iter.check
                                        #   in Loop: Header=BB62_5 Depth=1
	cmpq	$4, %r12
	jb	.Ldeerlapse_0_1_0_BB62_32
# %bb.34:                               # %vector.memcheck
                                        #   in Loop: Header=BB62_5 Depth=1
	cmpq	$32, %rax
	jae	.Ldeerlapse_0_1_0_BB62_36
.Ldeerlapse_0_1_0_BB62_32:                              #   in Loop: Header=BB62_5 Depth=1
	xorl	%eax, %eax
.Ldeerlapse_0_1_0_BB62_47:                              # %join.7.i.i.i.i.i.i.i.i.i.i.preheader
                                        #   in Loop: Header=BB62_5 Depth=1
	movq	%r12, %r9
	movq	%rax, %r8
	andq	$3, %r9
	je	.Ldeerlapse_0_1_0_BB62_50
# %bb.48:                               # %join.7.i.i.i.i.i.i.i.i.i.i.prol.preheader
                                        #   in Loop: Header=BB62_5 Depth=1
	movq	%rax, %r8
	.p2align	4
.Ldeerlapse_0_1_0_BB62_49:                              # %join.7.i.i.i.i.i.i.i.i.i.i.prol
                                        #   Parent Loop BB62_5 Depth=1
                                        # =>  This Inner Loop Header: Depth=2
	movzbl	(%rdx,%r8), %r10d
	movb	%r10b, (%rcx,%r8)
	incq	%r8
	decq	%r9
	jne	.Ldeerlapse_0_1_0_BB62_49
.Ldeerlapse_0_1_0_BB62_50:                              # %join.7.i.i.i.i.i.i.i.i.i.i.prol.loopexit
                                        #   in Loop: Header=BB62_5 Depth=1
	subq	%r12, %rax
	cmpq	$-4, %rax
	ja	.Ldeerlapse_0_1_0_BB62_53
# %bb.51:                               # %join.7.i.i.i.i.i.i.i.i.i.i.preheader50
                                        #   in Loop: Header=BB62_5 Depth=1
	addq	80(%rsp), %r14                  # 8-byte Folded Reload
	leaq	19(%rdi), %rax
	addq	%rbp, %rax
	.p2align	4
.Ldeerlapse_0_1_0_BB62_52:                              # %join.7.i.i.i.i.i.i.i.i.i.i
                                        #   Parent Loop BB62_5 Depth=1
                                        # =>  This Inner Loop Header: Depth=2
	movzbl	-3(%r14,%r8), %ecx
	movb	%cl, -3(%rax,%r8)
	movzbl	-2(%r14,%r8), %ecx
	movb	%cl, -2(%rax,%r8)
	movzbl	-1(%r14,%r8), %ecx
	movb	%cl, -1(%rax,%r8)
	movzbl	(%r14,%r8), %ecx
	movb	%cl, (%rax,%r8)
	addq	$4, %r8
	cmpq	%r8, %r12
	jne	.Ldeerlapse_0_1_0_BB62_52
	jmp	.Ldeerlapse_0_1_0_BB62_53
	.p2align	4
.Ldeerlapse_0_1_0_BB62_33:                              # %apart.2.i.i.i.i.i.i.i.i.i.i
                                        #   in Loop: Header=BB62_5 Depth=1
	movq	%r12, %r8
	callq	memmove
.Ldeerlapse_0_1_0_BB62_53:                              # %"core::slice::edits::slice+T::copy_from_slice::<i8,20'core::clone::U8Clone{}>.exit.i.i.i.i"
                                        #   in Loop: Header=BB62_5 Depth=1
	addq	%r12, %rbp
	addq	152(%rdi), %r12
	movq	%r12, 152(%rdi)
	cmpq	$128, %rbp
	jne	.Ldeerlapse_0_1_0_BB62_4
# %bb.54:                               # %then.1.i.i.i.i
                                        #   in Loop: Header=BB62_5 Depth=1
	movups	(%rdi), %xmm0
	movaps	%xmm0, 256(%rsp)
	xorps	%xmm0, %xmm0
	movaps	%xmm0, 48(%rsp)
	leaq	48(%rsp), %rax
	movq	%rax, 32(%rsp)
	leaq	240(%rsp), %rcx
	leaq	256(%rsp), %rdx
	movl	$128, %r9d
	movq	%r15, %r8
	callq	"deerlapse_0_1_0::aead_ciphers_wide::gcm::KeyRefUpdateBlocks::update_blocks"
	movaps	256(%rsp), %xmm0
	movaps	%xmm0, 384(%rsp)
	movups	%xmm0, (%rdi)
	jmp	.Ldeerlapse_0_1_0_BB62_4
	.p2align	4
.Ldeerlapse_0_1_0_BB62_13:                              # %vector.main.loop.iter.check19
                                        #   in Loop: Header=BB62_5 Depth=1
	cmpq	$32, %r12
	jae	.Ldeerlapse_0_1_0_BB62_15
# %bb.14:                               #   in Loop: Header=BB62_5 Depth=1
	xorl	%eax, %eax
	jmp	.Ldeerlapse_0_1_0_BB62_21
.Ldeerlapse_0_1_0_BB62_15:                              # %vector.ph20
                                        #   in Loop: Header=BB62_5 Depth=1
	movl	%r12d, %eax
	andl	$224, %eax
	movups	(%rcx), %xmm0
	movups	16(%rcx), %xmm1
	movups	(%rdx), %xmm2
	xorps	%xmm0, %xmm2
	movups	16(%rdx), %xmm0
	xorps	%xmm1, %xmm0
	movups	%xmm2, (%rdx)
	movups	%xmm0, 16(%rdx)
	cmpq	$32, %rax
	je	.Ldeerlapse_0_1_0_BB62_19
# %bb.16:                               # %vector.body23.1
                                        #   in Loop: Header=BB62_5 Depth=1
	movups	32(%rcx), %xmm0
	movups	48(%rcx), %xmm1
	movups	32(%rdx), %xmm2
	xorps	%xmm0, %xmm2
	movups	48(%rdx), %xmm0
	xorps	%xmm1, %xmm0
	movups	%xmm2, 32(%rdx)
	movups	%xmm0, 48(%rdx)
	cmpl	$64, %eax
	je	.Ldeerlapse_0_1_0_BB62_19
# %bb.17:                               # %vector.body23.2
                                        #   in Loop: Header=BB62_5 Depth=1
	movups	64(%rcx), %xmm0
	movups	80(%rcx), %xmm1
	movups	64(%rdx), %xmm2
	xorps	%xmm0, %xmm2
	movups	80(%rdx), %xmm0
	xorps	%xmm1, %xmm0
	movups	%xmm2, 64(%rdx)
	movups	%xmm0, 80(%rdx)
	cmpl	$96, %eax
	je	.Ldeerlapse_0_1_0_BB62_19
# %bb.18:                               # %vector.body23.3
                                        #   in Loop: Header=BB62_5 Depth=1
	movups	96(%rcx), %xmm0
	movups	112(%rcx), %xmm1
	movups	96(%rdx), %xmm2
	xorps	%xmm0, %xmm2
	movups	112(%rdx), %xmm0
	xorps	%xmm1, %xmm0
	movups	%xmm2, 96(%rdx)
	movups	%xmm0, 112(%rdx)
.Ldeerlapse_0_1_0_BB62_19:                              # %middle.block30
                                        #   in Loop: Header=BB62_5 Depth=1
	cmpq	%rax, %r12
	je	.Ldeerlapse_0_1_0_BB62_30
# %bb.20:                               # %vec.epilog.iter.check34
                                        #   in Loop: Header=BB62_5 Depth=1
	testb	$28, %r12b
	je	.Ldeerlapse_0_1_0_BB62_24
.Ldeerlapse_0_1_0_BB62_21:                              # %vec.epilog.ph36
                                        #   in Loop: Header=BB62_5 Depth=1
	movq	%rax, %r8
	movl	%r12d, %eax
	andl	$252, %eax
	.p2align	4
.Ldeerlapse_0_1_0_BB62_22:                              # %vec.epilog.vector.body39
                                        #   Parent Loop BB62_5 Depth=1
                                        # =>  This Inner Loop Header: Depth=2
	movl	(%rcx,%r8), %r9d
	xorl	%r9d, (%rdx,%r8)
	addq	$4, %r8
	cmpq	%r8, %rax
	jne	.Ldeerlapse_0_1_0_BB62_22
# %bb.23:                               # %vec.epilog.middle.block44
                                        #   in Loop: Header=BB62_5 Depth=1
	cmpq	%rax, %r12
	je	.Ldeerlapse_0_1_0_BB62_30
	jmp	.Ldeerlapse_0_1_0_BB62_24
.Ldeerlapse_0_1_0_BB62_36:                              # %vector.main.loop.iter.check
                                        #   in Loop: Header=BB62_5 Depth=1
	cmpq	$32, %r12
	jae	.Ldeerlapse_0_1_0_BB62_38
# %bb.37:                               #   in Loop: Header=BB62_5 Depth=1
	xorl	%eax, %eax
	jmp	.Ldeerlapse_0_1_0_BB62_44
.Ldeerlapse_0_1_0_BB62_38:                              # %vector.ph
                                        #   in Loop: Header=BB62_5 Depth=1
	movl	%r12d, %eax
	andl	$224, %eax
	movups	(%rdx), %xmm0
	movups	16(%rdx), %xmm1
	movups	%xmm0, (%rcx)
	movups	%xmm1, 16(%rcx)
	cmpq	$32, %rax
	je	.Ldeerlapse_0_1_0_BB62_42
# %bb.39:                               # %vector.body.1
                                        #   in Loop: Header=BB62_5 Depth=1
	movups	32(%rdx), %xmm0
	movups	48(%rdx), %xmm1
	movups	%xmm0, 32(%rcx)
	movups	%xmm1, 48(%rcx)
	cmpl	$64, %eax
	je	.Ldeerlapse_0_1_0_BB62_42
# %bb.40:                               # %vector.body.2
                                        #   in Loop: Header=BB62_5 Depth=1
	movups	64(%rdx), %xmm0
	movups	80(%rdx), %xmm1
	movups	%xmm0, 64(%rcx)
	movups	%xmm1, 80(%rcx)
	cmpl	$96, %eax
	je	.Ldeerlapse_0_1_0_BB62_42
# %bb.41:                               # %vector.body.3
                                        #   in Loop: Header=BB62_5 Depth=1
	movups	96(%rdx), %xmm0
	movups	112(%rdx), %xmm1
	movups	%xmm0, 96(%rcx)
	movups	%xmm1, 112(%rcx)
.Ldeerlapse_0_1_0_BB62_42:                              # %middle.block
                                        #   in Loop: Header=BB62_5 Depth=1
	cmpq	%rax, %r12
	je	.Ldeerlapse_0_1_0_BB62_53
# %bb.43:                               # %vec.epilog.iter.check
                                        #   in Loop: Header=BB62_5 Depth=1
	testb	$28, %r12b
	je	.Ldeerlapse_0_1_0_BB62_47
.Ldeerlapse_0_1_0_BB62_44:                              # %vec.epilog.ph
                                        #   in Loop: Header=BB62_5 Depth=1
	movq	%rax, %r8
	movl	%r12d, %eax
	andl	$252, %eax
	.p2align	4
.Ldeerlapse_0_1_0_BB62_45:                              # %vec.epilog.vector.body
                                        #   Parent Loop BB62_5 Depth=1
                                        # =>  This Inner Loop Header: Depth=2
	movl	(%rdx,%r8), %r9d
	movl	%r9d, (%rcx,%r8)
	addq	$4, %r8
	cmpq	%r8, %rax
	jne	.Ldeerlapse_0_1_0_BB62_45
# %bb.46:                               # %vec.epilog.middle.block
                                        #   in Loop: Header=BB62_5 Depth=1
	cmpq	%rax, %r12
	je	.Ldeerlapse_0_1_0_BB62_53
	jmp	.Ldeerlapse_0_1_0_BB62_47
.Ldeerlapse_0_1_0_BB62_57:
	xorl	%eax, %eax
	jmp	.Ldeerlapse_0_1_0_BB62_58
.Ldeerlapse_0_1_0_BB62_56:                              # %"aead_ciphers_wide::aes_gcm::ExpandedKey::update.exit.i"
	movl	68(%rsp), %eax                  # 4-byte Reload
.Ldeerlapse_0_1_0_BB62_58:                              # %"deerlapse::pieces::deerlapse_key_update.exit"
                                        # kill: def $al killed $al killed $eax
	addq	$408, %rsp                      # imm = 0x198
	popq	%rbx
	popq	%rbp
	popq	%rdi
	popq	%rsi
	popq	%r12
	popq	%r13
	popq	%r14
	popq	%r15
	retq
	.seh_endproc
                                        # -- End function
	.ifdef	deerlapse_in_rust
	.globl	deerlapse_0_1_0_opener_open_number    # -- Begin function deerlapse_0_1_0_opener_open_number
	.p2align	4
deerlapse_0_1_0_opener_open_number:           # @deerlapse_0_1_0_opener_open_number
.seh_proc deerlapse_0_1_0_opener_open_number
	.def	deerlapse_0_1_0_opener_open_number;
	.scl	2;
	.type	32;
	.endef
	.else
	.globl	deerlapse_opener_open_number    # -- Begin function deerlapse_opener_open_number
	.p2align	4
deerlapse_opener_open_number:           # @deerlapse_opener_open_number
.seh_proc deerlapse_opener_open_number
	.def	deerlapse_opener_open_number;
	.scl	2;
	.type	32;
	.endef
	.endif
# %bb.0:                                # %start
	subq	$72, %rsp
	.seh_stackalloc 72
	.seh_endprologue
	movups	120(%rsp), %xmm0
	movq	136(%rsp), %rax
	movq	112(%rsp), %r10
	xorl	%r11d, %r11d
	testq	%r8, %r8
	sete	%r11b
	shll	$12, %r11d
	addq	%r11, %r8
	xorl	%r11d, %r11d
	testq	%r10, %r10
	sete	%r11b
	shll	$12, %r11d
	addq	%r10, %r11
	movq	%rax, 56(%rsp)
	movups	%xmm0, 40(%rsp)
	movq	%r11, 32(%rsp)
	callq	"deerlapse_0_1_0::deerlapse::opener::deerlapse_opener_open_number"
	nop
	addq	$72, %rsp
	retq
	.seh_endproc
                                        # -- End function
	.ifdef	deerlapse_in_rust
	.globl	deerlapse_0_1_0_opener_open           # -- Begin function deerlapse_0_1_0_opener_open
	.p2align	4
deerlapse_0_1_0_opener_open:                  # @deerlapse_0_1_0_opener_open
.seh_proc deerlapse_0_1_0_opener_open
	.def	deerlapse_0_1_0_opener_open;
	.scl	2;
	.type	32;
	.endef
	.else
	.globl	deerlapse_opener_open           # -- Begin function deerlapse_opener_open
	.p2align	4
deerlapse_opener_open:                  # @deerlapse_opener_open
.seh_proc deerlapse_opener_open
	.def	deerlapse_opener_open;
	.scl	2;
	.type	32;
	.endef
	.endif
# %bb.0:                                # %start
	pushq	%rsi
	.seh_pushreg %rsi
	pushq	%rdi
	.seh_pushreg %rdi
	pushq	%rbx
	.seh_pushreg %rbx
	subq	$64, %rsp
	.seh_stackalloc 64
	.seh_endprologue
	movq	%rdx, %rax
	movq	3192(%rcx), %rdx
	cmpq	%rdx, 3200(%rcx)
	jbe	.Ldeerlapse_0_1_0_BB64_4
# %bb.1:                                # %else.4.i
	movq	%r8, %r10
	movq	%rcx, %rsi
	movq	144(%rsp), %rcx
	movq	136(%rsp), %r11
	movq	128(%rsp), %rdi
	xorl	%ebx, %ebx
	testq	%r9, %r9
	sete	%bl
	shll	$12, %ebx
	addq	%r9, %rbx
	xorl	%r8d, %r8d
	testq	%rax, %rax
	sete	%r8b
	shll	$12, %r8d
	addq	%rax, %r8
	movq	%rcx, 56(%rsp)
	movq	%r11, 48(%rsp)
	movq	%rdi, 40(%rsp)
	movq	%rbx, 32(%rsp)
	movq	%rsi, %rcx
	movq	%r10, %r9
	callq	"deerlapse_0_1_0::deerlapse::opener::deerlapse_opener_open_number"
	testb	%al, %al
	je	.Ldeerlapse_0_1_0_BB64_4
# %bb.2:                                # %after.1.i
	incq	3192(%rsi)
	movb	$1, %al
	jmp	.Ldeerlapse_0_1_0_BB64_5
.Ldeerlapse_0_1_0_BB64_4:
	xorl	%eax, %eax
.Ldeerlapse_0_1_0_BB64_5:                               # %"deerlapse::opener::deerlapse_opener_open.exit"
                                        # kill: def $al killed $al killed $eax
	addq	$64, %rsp
	popq	%rbx
	popq	%rdi
	popq	%rsi
	retq
	.seh_endproc
                                        # -- End function
	.ifdef	deerlapse_in_rust
	.globl	deerlapse_0_1_0_quic_key_open         # -- Begin function deerlapse_0_1_0_quic_key_open
	.p2align	4
deerlapse_0_1_0_quic_key_open:                # @deerlapse_0_1_0_quic_key_open
.seh_proc deerlapse_0_1_0_quic_key_open
	.def	deerlapse_0_1_0_quic_key_open;
	.scl	2;
	.type	32;
	.endef
	.else
	.globl	deerlapse_quic_key_open         # -- Begin function deerlapse_quic_key_open
	.p2align	4
deerlapse_quic_key_open:                # @deerlapse_quic_key_open
.seh_proc deerlapse_quic_key_open
	.def	deerlapse_quic_key_open;
	.scl	2;
	.type	32;
	.endef
	.endif
# %bb.0:                                # %start
	pushq	%r15
	.seh_pushreg %r15
	pushq	%r14
	.seh_pushreg %r14
	pushq	%rsi
	.seh_pushreg %rsi
	pushq	%rdi
	.seh_pushreg %rdi
	pushq	%rbp
	.seh_pushreg %rbp
	pushq	%rbx
	.seh_pushreg %rbx
	subq	$216, %rsp
	.seh_stackalloc 216
	.seh_endprologue
	movq	304(%rsp), %rsi
	xorl	%r10d, %r10d
	testq	%r8, %r8
	sete	%bl
	xorl	%eax, %eax
	testq	%rsi, %rsi
	sete	%r11b
	movq	%rdx, %rdi
	shrq	$62, %rdi
	jne	.Ldeerlapse_0_1_0_BB65_7
# %bb.2:                                # %join.3.i
	bswapq	%rdx
	movl	%edx, %edi
	shrl	$24, %edi
	movl	%edx, %ebp
	shrl	$16, %ebp
	movd	3196(%rcx), %xmm0               # xmm0 = mem[0],zero,zero,zero
	movd	%edx, %xmm1
	movl	%edx, %r14d
	shrl	$8, %r14d
	pinsrb	$1, %r14d, %xmm1
	pinsrb	$2, %ebp, %xmm1
	pinsrb	$3, %edi, %xmm1
	pxor	%xmm0, %xmm1
	movd	3192(%rcx), %xmm0               # xmm0 = mem[0],zero,zero,zero
	punpckldq	%xmm1, %xmm0            # xmm0 = xmm0[0],xmm1[0],xmm0[1],xmm1[1]
	movq	%xmm0, 88(%rsp)
	movq	%rdx, %rdi
	shrq	$56, %rdi
	movq	%rdx, %r14
	shrq	$48, %r14
	movq	%rdx, %r15
	shrq	$40, %r15
	shrq	$32, %rdx
	movd	%edx, %xmm0
	pinsrb	$1, %r15d, %xmm0
	pinsrb	$2, %r14d, %xmm0
	movd	3200(%rcx), %xmm1               # xmm1 = mem[0],zero,zero,zero
	pinsrb	$3, %edi, %xmm0
	pxor	%xmm1, %xmm0
	movd	%xmm0, 96(%rsp)
	movl	1920(%rcx), %edx
	leal	-10(%rdx), %edi
	cmpl	$4, %edi
	ja	.Ldeerlapse_0_1_0_BB65_7
# %bb.3:                                # %join.3.i.i
	movq	312(%rsp), %rdi
	cmpq	$16, %rdi
	jb	.Ldeerlapse_0_1_0_BB65_7
# %bb.4:                                # %arm.1.i.i.i
	addq	$-16, %rdi
	movq	%r9, %r14
	shrq	$61, %r14
	setne	%bpl
	movabsq	$68719476704, %r14              # imm = 0xFFFFFFFE0
	cmpq	%r14, %rdi
	seta	%r14b
	orb	%bpl, %r14b
	jne	.Ldeerlapse_0_1_0_BB65_7
# %bb.5:                                # %then.11.i.i.i
	movb	%bl, %r10b
	shll	$12, %r10d
	addq	%r10, %r8
	movb	%r11b, %al
	shll	$12, %eax
	addq	%rax, %rsi
	leaq	1928(%rcx), %rax
	movl	1924(%rcx), %r10d
	movq	%rcx, 104(%rsp)
	movq	%rax, 112(%rsp)
	movq	%rdx, 120(%rsp)
	movl	%r10d, 128(%rsp)
	movl	$0, 132(%rsp)
	leaq	2168(%rcx), %rax
	addq	$2680, %rcx                     # imm = 0xA78
	movq	%rax, 136(%rsp)
	movq	%rcx, 144(%rsp)
	pxor	%xmm0, %xmm0
	movdqa	%xmm0, 176(%rsp)
	movdqu	(%rsi,%rdi), %xmm0
	movdqa	%xmm0, 192(%rsp)
	leaq	176(%rsp), %rbx
	movq	%rbx, 72(%rsp)
	movq	%rdi, 64(%rsp)
	movq	%rsi, 56(%rsp)
	leaq	192(%rsp), %rax
	movq	%rax, 48(%rsp)
	movq	%r9, 40(%rsp)
	movq	%r8, 32(%rsp)
	leaq	159(%rsp), %rcx
	leaq	104(%rsp), %rdx
	leaq	136(%rsp), %r8
	leaq	88(%rsp), %r9
	callq	"deerlapse_0_1_0::aead_ciphers::aes_gcm::opening::authenticate::<#7bfdf0a6b4753edd>"
	cmpb	$0, 159(%rsp)
	je	.Ldeerlapse_0_1_0_BB65_9
.Ldeerlapse_0_1_0_BB65_7:
	xorl	%eax, %eax
.Ldeerlapse_0_1_0_BB65_8:                               # %"deerlapse::quic_key::deerlapse_quic_key_open.exit"
                                        # kill: def $al killed $al killed $eax
	addq	$216, %rsp
	popq	%rbx
	popq	%rbp
	popq	%rdi
	popq	%rsi
	popq	%r14
	popq	%r15
	retq
.Ldeerlapse_0_1_0_BB65_9:                               # %arm.4.i.i
	movq	320(%rsp), %r14
	leaq	160(%rsp), %rdx
	movq	%rbx, 40(%rsp)
	movq	$0, 32(%rsp)
	leaq	104(%rsp), %rcx
	movq	%rsi, %r8
	movq	%rdi, %r9
	callq	"deerlapse_0_1_0::aead_ciphers::aes_gcm::counter_mode::encrypt_within::<#6fa349fe97f872a2>"
	movq	%rax, (%r14)
	movb	$1, %al
	jmp	.Ldeerlapse_0_1_0_BB65_8
	.seh_endproc
                                        # -- End function
	.ifdef	deerlapse_in_rust
	.globl	deerlapse_0_1_0_quic_key_seal         # -- Begin function deerlapse_0_1_0_quic_key_seal
	.p2align	4
deerlapse_0_1_0_quic_key_seal:                # @deerlapse_0_1_0_quic_key_seal
.seh_proc deerlapse_0_1_0_quic_key_seal
	.def	deerlapse_0_1_0_quic_key_seal;
	.scl	2;
	.type	32;
	.endef
	.else
	.globl	deerlapse_quic_key_seal         # -- Begin function deerlapse_quic_key_seal
	.p2align	4
deerlapse_quic_key_seal:                # @deerlapse_quic_key_seal
.seh_proc deerlapse_quic_key_seal
	.def	deerlapse_quic_key_seal;
	.scl	2;
	.type	32;
	.endef
	.endif
# %bb.0:                                # %start
	pushq	%rsi
	.seh_pushreg %rsi
	pushq	%rdi
	.seh_pushreg %rdi
	pushq	%rbx
	.seh_pushreg %rbx
	subq	$80, %rsp
	.seh_stackalloc 80
	.seh_endprologue
	movq	%r8, %rax
	movq	%rdx, %r8
	shrq	$62, %r8
	je	.Ldeerlapse_0_1_0_BB66_2
# %bb.1:
	xorl	%eax, %eax
	jmp	.Ldeerlapse_0_1_0_BB66_3
.Ldeerlapse_0_1_0_BB66_2:                               # %join.3.i
	movq	160(%rsp), %r11
	movq	152(%rsp), %r10
	movq	144(%rsp), %r8
	xorl	%esi, %esi
	testq	%r8, %r8
	sete	%sil
	shll	$12, %esi
	addq	%r8, %rsi
	xorl	%r8d, %r8d
	testq	%rax, %rax
	sete	%r8b
	shll	$12, %r8d
	bswapq	%rdx
	addq	%rax, %r8
	movl	%edx, %eax
	shrl	$24, %eax
	movl	%edx, %edi
	shrl	$16, %edi
	movd	%edx, %xmm0
	movl	%edx, %ebx
	shrl	$8, %ebx
	pinsrb	$1, %ebx, %xmm0
	pinsrb	$2, %edi, %xmm0
	movd	3196(%rcx), %xmm1               # xmm1 = mem[0],zero,zero,zero
	pinsrb	$3, %eax, %xmm0
	pxor	%xmm1, %xmm0
	movd	3192(%rcx), %xmm1               # xmm1 = mem[0],zero,zero,zero
	punpckldq	%xmm0, %xmm1            # xmm1 = xmm1[0],xmm0[0],xmm1[1],xmm0[1]
	movq	%xmm1, 64(%rsp)
	movq	%rdx, %rax
	shrq	$56, %rax
	movq	%rdx, %rdi
	shrq	$48, %rdi
	movq	%rdx, %rbx
	shrq	$40, %rbx
	shrq	$32, %rdx
	movd	3200(%rcx), %xmm0               # xmm0 = mem[0],zero,zero,zero
	movd	%edx, %xmm1
	pinsrb	$1, %ebx, %xmm1
	pinsrb	$2, %edi, %xmm1
	pinsrb	$3, %eax, %xmm1
	pxor	%xmm0, %xmm1
	movd	%xmm1, 72(%rsp)
	movq	%r11, 48(%rsp)
	movq	%r10, 40(%rsp)
	movq	%rsi, 32(%rsp)
	leaq	64(%rsp), %rdx
	callq	"deerlapse_0_1_0::deerlapse::key::deerlapse_key_seal"
	nop
                                        # kill: def $al killed $al def $eax
.Ldeerlapse_0_1_0_BB66_3:                               # %"deerlapse::quic_key::deerlapse_quic_key_seal.exit"
                                        # kill: def $al killed $al killed $eax
	addq	$80, %rsp
	popq	%rbx
	popq	%rdi
	popq	%rsi
	retq
	.seh_endproc
                                        # -- End function
	.ifdef	deerlapse_in_rust
	.globl	deerlapse_0_1_0_record_key_open       # -- Begin function deerlapse_0_1_0_record_key_open
	.p2align	4
deerlapse_0_1_0_record_key_open:              # @deerlapse_0_1_0_record_key_open
.seh_proc deerlapse_0_1_0_record_key_open
	.def	deerlapse_0_1_0_record_key_open;
	.scl	2;
	.type	32;
	.endef
	.else
	.globl	deerlapse_record_key_open       # -- Begin function deerlapse_record_key_open
	.p2align	4
deerlapse_record_key_open:              # @deerlapse_record_key_open
.seh_proc deerlapse_record_key_open
	.def	deerlapse_record_key_open;
	.scl	2;
	.type	32;
	.endef
	.endif
# %bb.0:                                # %start
	pushq	%r15
	.seh_pushreg %r15
	pushq	%r14
	.seh_pushreg %r14
	pushq	%rsi
	.seh_pushreg %rsi
	pushq	%rdi
	.seh_pushreg %rdi
	pushq	%rbx
	.seh_pushreg %rbx
	subq	$208, %rsp
	.seh_stackalloc 208
	.seh_endprologue
	movq	%r9, %rax
	xorl	%ebx, %ebx
	testq	%r8, %r8
	sete	%r9b
	leaq	-16641(%rax), %r10
	cmpq	$-16624, %r10                   # imm = 0xBF10
	jb	.Ldeerlapse_0_1_0_BB67_1
# %bb.2:                                # %after.1.i
	bswapq	%rdx
	movl	%edx, %r10d
	shrl	$24, %r10d
	movl	%edx, %r11d
	shrl	$16, %r11d
	movd	3196(%rcx), %xmm0               # xmm0 = mem[0],zero,zero,zero
	movd	%edx, %xmm1
	movl	%edx, %esi
	shrl	$8, %esi
	pinsrb	$1, %esi, %xmm1
	pinsrb	$2, %r11d, %xmm1
	pinsrb	$3, %r10d, %xmm1
	pxor	%xmm0, %xmm1
	movd	3192(%rcx), %xmm0               # xmm0 = mem[0],zero,zero,zero
	punpckldq	%xmm1, %xmm0            # xmm0 = xmm0[0],xmm1[0],xmm0[1],xmm1[1]
	movq	%xmm0, 88(%rsp)
	movq	%rdx, %r10
	shrq	$56, %r10
	movq	%rdx, %r11
	shrq	$48, %r11
	movq	%rdx, %rsi
	shrq	$40, %rsi
	shrq	$32, %rdx
	movd	%edx, %xmm0
	pinsrb	$1, %esi, %xmm0
	pinsrb	$2, %r11d, %xmm0
	movd	3200(%rcx), %xmm1               # xmm1 = mem[0],zero,zero,zero
	pinsrb	$3, %r10d, %xmm0
	pxor	%xmm1, %xmm0
	movd	%xmm0, 96(%rsp)
	movw	$791, 83(%rsp)                  # imm = 0x317
	movb	$3, 85(%rsp)
	movb	%ah, 86(%rsp)
	movb	%al, 87(%rsp)
	movl	1920(%rcx), %edx
	leal	-10(%rdx), %r10d
	cmpl	$4, %r10d
	ja	.Ldeerlapse_0_1_0_BB67_1
# %bb.3:                                # %then.11.i.i.i
	movb	%r9b, %bl
	shll	$12, %ebx
	movq	%r8, %r14
	leaq	(%r8,%rbx), %rsi
	leaq	-16(%rax), %rdi
	leaq	1928(%rcx), %r8
	movl	1924(%rcx), %r9d
	movq	%rcx, 104(%rsp)
	movq	%r8, 112(%rsp)
	movq	%rdx, 120(%rsp)
	movl	%r9d, 128(%rsp)
	movl	$0, 132(%rsp)
	leaq	2168(%rcx), %rdx
	addq	$2680, %rcx                     # imm = 0xA78
	movq	%rdx, 136(%rsp)
	movq	%rcx, 144(%rsp)
	pxor	%xmm0, %xmm0
	movdqa	%xmm0, 176(%rsp)
	movdqu	-16(%rsi,%rax), %xmm0
	movdqa	%xmm0, 192(%rsp)
	leaq	176(%rsp), %r15
	movq	%r15, 72(%rsp)
	movq	%rdi, 64(%rsp)
	movq	%rsi, 56(%rsp)
	leaq	192(%rsp), %rax
	movq	%rax, 48(%rsp)
	leaq	83(%rsp), %rax
	movq	%rax, 32(%rsp)
	movq	$5, 40(%rsp)
	leaq	159(%rsp), %rcx
	leaq	104(%rsp), %rdx
	leaq	136(%rsp), %r8
	leaq	88(%rsp), %r9
	callq	"deerlapse_0_1_0::aead_ciphers::aes_gcm::opening::authenticate::<#7bfdf0a6b4753edd>"
	cmpb	$0, 159(%rsp)
	je	.Ldeerlapse_0_1_0_BB67_6
.Ldeerlapse_0_1_0_BB67_1:
	xorl	%eax, %eax
.Ldeerlapse_0_1_0_BB67_18:                              # %"deerlapse::record_key::deerlapse_record_key_open.exit"
                                        # kill: def $al killed $al killed $eax
	addq	$208, %rsp
	popq	%rbx
	popq	%rdi
	popq	%rsi
	popq	%r14
	popq	%r15
	retq
.Ldeerlapse_0_1_0_BB67_6:                               # %join.13.i
	leaq	160(%rsp), %rdx
	movq	%r15, 40(%rsp)
	movq	$0, 32(%rsp)
	leaq	104(%rsp), %rcx
	movq	%rsi, %r8
	movq	%rdi, %r9
	callq	"deerlapse_0_1_0::aead_ciphers::aes_gcm::counter_mode::encrypt_within::<#6fa349fe97f872a2>"
	testq	%rax, %rax
	je	.Ldeerlapse_0_1_0_BB67_9
# %bb.7:                                # %join.6.i.i.preheader
	movl	%eax, %edx
	andl	$3, %edx
	cmpq	$4, %rax
	jae	.Ldeerlapse_0_1_0_BB67_10
# %bb.8:
	xorl	%ecx, %ecx
	xorl	%r8d, %r8d
	jmp	.Ldeerlapse_0_1_0_BB67_13
.Ldeerlapse_0_1_0_BB67_9:
	xorl	%ecx, %ecx
	jmp	.Ldeerlapse_0_1_0_BB67_14
.Ldeerlapse_0_1_0_BB67_10:                              # %join.6.i.i.preheader.new
	movq	%rax, %r9
	andq	$-4, %r9
	leaq	(%rbx,%r14), %r10
	addq	$3, %r10
	xorl	%ecx, %ecx
	xorl	%r8d, %r8d
	.p2align	4
.Ldeerlapse_0_1_0_BB67_11:                              # %join.6.i.i
                                        # =>This Inner Loop Header: Depth=1
	cmpb	$0, -3(%r10,%r8)
	cmovneq	%r8, %rcx
	cmpb	$0, -2(%r10,%r8)
	leaq	1(%r8), %r11
	cmoveq	%rcx, %r11
	leaq	2(%r8), %rdi
	cmpb	$0, -1(%r10,%r8)
	cmoveq	%r11, %rdi
	leaq	3(%r8), %rcx
	cmpb	$0, (%r10,%r8)
	cmoveq	%rdi, %rcx
	addq	$4, %r8
	cmpq	%r9, %r8
	jne	.Ldeerlapse_0_1_0_BB67_11
# %bb.12:                               # %after.1.i.i.loopexit.unr-lcssa
	testq	%rdx, %rdx
	je	.Ldeerlapse_0_1_0_BB67_14
	.p2align	4
.Ldeerlapse_0_1_0_BB67_13:                              # %join.6.i.i.epil
                                        # =>This Inner Loop Header: Depth=1
	cmpb	$0, (%rsi,%r8)
	cmovneq	%r8, %rcx
	incq	%r8
	decq	%rdx
	jne	.Ldeerlapse_0_1_0_BB67_13
.Ldeerlapse_0_1_0_BB67_14:                              # %after.1.i.i
	movq	296(%rsp), %rdx
	movq	288(%rsp), %r8
	cmpq	%rax, %rcx
	jae	.Ldeerlapse_0_1_0_BB67_16
# %bb.15:                               # %"records::inner::last_nonzero.exit.i"
	movzbl	(%rsi,%rcx), %eax
	xorl	%r9d, %r9d
	testb	%al, %al
	cmovneq	%rcx, %r9
	jmp	.Ldeerlapse_0_1_0_BB67_17
.Ldeerlapse_0_1_0_BB67_16:
	xorl	%eax, %eax
	xorl	%r9d, %r9d
.Ldeerlapse_0_1_0_BB67_17:                              # %"records::inner::last_nonzero.exit.thread.i"
	movb	%al, (%r8)
	movq	%r9, (%rdx)
	movb	$1, %al
	jmp	.Ldeerlapse_0_1_0_BB67_18
	.seh_endproc
                                        # -- End function
	.ifdef	deerlapse_in_rust
	.globl	deerlapse_0_1_0_record_key_seal       # -- Begin function deerlapse_0_1_0_record_key_seal
	.p2align	4
deerlapse_0_1_0_record_key_seal:              # @deerlapse_0_1_0_record_key_seal
.seh_proc deerlapse_0_1_0_record_key_seal
	.def	deerlapse_0_1_0_record_key_seal;
	.scl	2;
	.type	32;
	.endef
	.else
	.globl	deerlapse_record_key_seal       # -- Begin function deerlapse_record_key_seal
	.p2align	4
deerlapse_record_key_seal:              # @deerlapse_record_key_seal
.seh_proc deerlapse_record_key_seal
	.def	deerlapse_record_key_seal;
	.scl	2;
	.type	32;
	.endef
	.endif
# %bb.0:                                # %start
	pushq	%r15
	.seh_pushreg %r15
	pushq	%r14
	.seh_pushreg %r14
	pushq	%r13
	.seh_pushreg %r13
	pushq	%r12
	.seh_pushreg %r12
	pushq	%rsi
	.seh_pushreg %rsi
	pushq	%rdi
	.seh_pushreg %rdi
	pushq	%rbp
	.seh_pushreg %rbp
	pushq	%rbx
	.seh_pushreg %rbx
	subq	$104, %rsp
	.seh_stackalloc 104
	.seh_endprologue
	xorl	%r10d, %r10d
	testq	%r9, %r9
	sete	%dil
	xorl	%eax, %eax
	testb	%r8b, %r8b
	je	.Ldeerlapse_0_1_0_BB68_10
# %bb.1:                                # %start
	movq	208(%rsp), %rbx
	leaq	-16402(%rbx), %r11
	cmpq	$-16385, %r11                   # imm = 0xBFFF
	jb	.Ldeerlapse_0_1_0_BB68_10
# %bb.2:                                # %start
	movq	216(%rsp), %r11
	leaq	-16(%rbx), %r14
	movq	%r14, %rsi
	subq	%r11, %rsi
	jbe	.Ldeerlapse_0_1_0_BB68_10
# %bb.3:                                # %else.13.i
	movl	1920(%rcx), %eax
	addl	$-10, %eax
	cmpl	$4, %eax
	ja	.Ldeerlapse_0_1_0_BB68_4
# %bb.5:                                # %after.7.i
	movb	%dil, %r10b
	shll	$12, %r10d
	addq	%r10, %r9
	leaq	(%r9,%r14), %r15
	movb	%r8b, (%r9,%r11)
	leaq	1(%r11), %rax
	cmpq	%rax, %r14
	je	.Ldeerlapse_0_1_0_BB68_9
# %bb.6:                                # %loop.5.preheader.i.i.i
	leaq	(%r9,%r11), %rdi
	incq	%rdi
	addq	$-2, %rsi
	je	.Ldeerlapse_0_1_0_BB68_8
# %bb.7:                                # %join.8.preheader.i.i.i
	movq	%rcx, %r12
	movq	%rdi, %rcx
	movq	%rdx, %r13
	xorl	%edx, %edx
	movq	%rsi, %r8
	movq	%r9, %rbp
	callq	memset
	movq	%r13, %rdx
	movq	%rbp, %r9
	movq	%r12, %rcx
.Ldeerlapse_0_1_0_BB68_8:                               # %after.4.i.i.i
	movb	$0, (%rdi,%rsi)
.Ldeerlapse_0_1_0_BB68_9:                               # %"records::inner::write_type_and_padding.exit.i"
	bswapq	%rdx
	movl	%edx, %eax
	shrl	$24, %eax
	movl	%edx, %r8d
	shrl	$16, %r8d
	movd	%edx, %xmm0
	movl	%edx, %r10d
	shrl	$8, %r10d
	pinsrb	$1, %r10d, %xmm0
	pinsrb	$2, %r8d, %xmm0
	pinsrb	$3, %eax, %xmm0
	movd	3196(%rcx), %xmm1               # xmm1 = mem[0],zero,zero,zero
	pxor	%xmm1, %xmm0
	movd	3192(%rcx), %xmm1               # xmm1 = mem[0],zero,zero,zero
	punpckldq	%xmm0, %xmm1            # xmm1 = xmm1[0],xmm0[0],xmm1[1],xmm0[1]
	movq	%xmm1, 64(%rsp)
	movq	%rdx, %rax
	shrq	$56, %rax
	movq	%rdx, %r8
	shrq	$48, %r8
	movq	%rdx, %r10
	shrq	$40, %r10
	shrq	$32, %rdx
	movd	3200(%rcx), %xmm0               # xmm0 = mem[0],zero,zero,zero
	movd	%edx, %xmm1
	pinsrb	$1, %r10d, %xmm1
	pinsrb	$2, %r8d, %xmm1
	pinsrb	$3, %eax, %xmm1
	pxor	%xmm0, %xmm1
	movd	%xmm1, 72(%rsp)
	pxor	%xmm0, %xmm0
	movdqa	%xmm0, 80(%rsp)
	movw	$791, 59(%rsp)                  # imm = 0x317
	movb	$3, 61(%rsp)
	movb	%bh, 62(%rsp)
	movb	%bl, 63(%rsp)
	leaq	80(%rsp), %rax
	movq	%rax, 48(%rsp)
	movq	%r14, 40(%rsp)
	movq	%r9, 32(%rsp)
	leaq	64(%rsp), %rdx
	leaq	59(%rsp), %r8
	movl	$5, %r9d
	callq	"deerlapse_0_1_0::deerlapse::key::deerlapse_key_seal"
                                        # kill: def $al killed $al def $eax
	movaps	80(%rsp), %xmm0
	movups	%xmm0, (%r15)
	jmp	.Ldeerlapse_0_1_0_BB68_10
.Ldeerlapse_0_1_0_BB68_4:
	xorl	%eax, %eax
.Ldeerlapse_0_1_0_BB68_10:                              # %"deerlapse::record_key::deerlapse_record_key_seal.exit"
                                        # kill: def $al killed $al killed $eax
	addq	$104, %rsp
	popq	%rbx
	popq	%rbp
	popq	%rdi
	popq	%rsi
	popq	%r12
	popq	%r13
	popq	%r14
	popq	%r15
	retq
	.seh_endproc
                                        # -- End function
	.ifdef	deerlapse_in_rust
	.globl	deerlapse_0_1_0_sealer_seal           # -- Begin function deerlapse_0_1_0_sealer_seal
	.p2align	4
deerlapse_0_1_0_sealer_seal:                  # @deerlapse_0_1_0_sealer_seal
.seh_proc deerlapse_0_1_0_sealer_seal
	.def	deerlapse_0_1_0_sealer_seal;
	.scl	2;
	.type	32;
	.endef
	.else
	.globl	deerlapse_sealer_seal           # -- Begin function deerlapse_sealer_seal
	.p2align	4
deerlapse_sealer_seal:                  # @deerlapse_sealer_seal
.seh_proc deerlapse_sealer_seal
	.def	deerlapse_sealer_seal;
	.scl	2;
	.type	32;
	.endef
	.endif
# %bb.0:                                # %start
	pushq	%rsi
	.seh_pushreg %rsi
	pushq	%rdi
	.seh_pushreg %rdi
	pushq	%rbx
	.seh_pushreg %rbx
	subq	$80, %rsp
	.seh_stackalloc 80
	.seh_endprologue
	movq	3192(%rcx), %rdi
	cmpq	%rdi, 3200(%rcx)
	jbe	.Ldeerlapse_0_1_0_BB69_4
# %bb.1:                                # %join.3.i
	movq	%r8, %rax
	movq	%rcx, %rsi
	movq	152(%rsp), %r10
	movq	144(%rsp), %rcx
	xorl	%r11d, %r11d
	testq	%r9, %r9
	sete	%r11b
	shll	$12, %r11d
	addq	%r9, %r11
	xorl	%r8d, %r8d
	testq	%rdx, %rdx
	sete	%r8b
	shll	$12, %r8d
	bswapq	%rdi
	addq	%rdx, %r8
	movl	%edi, %edx
	shrl	$24, %edx
	movl	%edi, %r9d
	shrl	$16, %r9d
	movd	%edi, %xmm0
	movl	%edi, %ebx
	shrl	$8, %ebx
	pinsrb	$1, %ebx, %xmm0
	pinsrb	$2, %r9d, %xmm0
	movd	3212(%rsi), %xmm1               # xmm1 = mem[0],zero,zero,zero
	pinsrb	$3, %edx, %xmm0
	pxor	%xmm1, %xmm0
	movd	3208(%rsi), %xmm1               # xmm1 = mem[0],zero,zero,zero
	punpckldq	%xmm0, %xmm1            # xmm1 = xmm1[0],xmm0[0],xmm1[1],xmm0[1]
	movq	%xmm1, 64(%rsp)
	movq	%rdi, %rdx
	shrq	$56, %rdx
	movq	%rdi, %r9
	shrq	$48, %r9
	movq	%rdi, %rbx
	shrq	$40, %rbx
	shrq	$32, %rdi
	movd	3216(%rsi), %xmm0               # xmm0 = mem[0],zero,zero,zero
	movd	%edi, %xmm1
	pinsrb	$1, %ebx, %xmm1
	pinsrb	$2, %r9d, %xmm1
	pinsrb	$3, %edx, %xmm1
	pxor	%xmm0, %xmm1
	movd	%xmm1, 72(%rsp)
	movq	%r10, 48(%rsp)
	movq	%rcx, 40(%rsp)
	movq	%r11, 32(%rsp)
	leaq	64(%rsp), %rdx
	movq	%rsi, %rcx
	movq	%rax, %r9
	callq	"deerlapse_0_1_0::deerlapse::key::deerlapse_key_seal"
	testb	%al, %al
	je	.Ldeerlapse_0_1_0_BB69_4
# %bb.2:                                # %join.6.i
	incq	3192(%rsi)
	movb	$1, %al
	jmp	.Ldeerlapse_0_1_0_BB69_5
.Ldeerlapse_0_1_0_BB69_4:
	xorl	%eax, %eax
.Ldeerlapse_0_1_0_BB69_5:                               # %"deerlapse::sealer::deerlapse_sealer_seal.exit"
                                        # kill: def $al killed $al killed $eax
	addq	$80, %rsp
	popq	%rbx
	popq	%rdi
	popq	%rsi
	retq
	.seh_endproc
                                        # -- End function
	.ifdef	deerlapse_in_rust
	.globl	deerlapse_0_1_0_xaes_open             # -- Begin function deerlapse_0_1_0_xaes_open
	.p2align	4
deerlapse_0_1_0_xaes_open:                    # @deerlapse_0_1_0_xaes_open
.seh_proc deerlapse_0_1_0_xaes_open
	.def	deerlapse_0_1_0_xaes_open;
	.scl	2;
	.type	32;
	.endef
	.else
	.globl	deerlapse_xaes_open             # -- Begin function deerlapse_xaes_open
	.p2align	4
deerlapse_xaes_open:                    # @deerlapse_xaes_open
.seh_proc deerlapse_xaes_open
	.def	deerlapse_xaes_open;
	.scl	2;
	.type	32;
	.endef
	.endif
# %bb.0:                                # %start
	pushq	%r15
	.seh_pushreg %r15
	pushq	%r14
	.seh_pushreg %r14
	pushq	%r13
	.seh_pushreg %r13
	pushq	%r12
	.seh_pushreg %r12
	pushq	%rsi
	.seh_pushreg %rsi
	pushq	%rdi
	.seh_pushreg %rdi
	pushq	%rbp
	.seh_pushreg %rbp
	pushq	%rbx
	.seh_pushreg %rbx
	subq	$3416, %rsp
	.seh_stackalloc 3416
	.seh_endprologue
	movq	%r9, 96(%rsp)                   # 8-byte Spill
	movq	%r8, %rdi
	movq	%rdx, %r14
	movq	%rcx, %r12
	movq	3520(%rsp), %rsi
	xorl	%ebx, %ebx
	testq	%r8, %r8
	sete	%r13b
	testq	%rsi, %rsi
	sete	95(%rsp)                        # 1-byte Folded Spill
	xorl	%ebp, %ebp
	leaq	224(%rsp), %r15
	movl	$3192, %r8d                     # imm = 0xC78
	movq	%r15, %rcx
	xorl	%edx, %edx
	callq	memset
	leaq	107(%rsp), %rcx
	movq	%r12, %rdx
	movq	%r14, %r8
	movq	%r15, %r9
	callq	"deerlapse_0_1_0::deerlapse::xaes_key::expand_message_key"
	cmpb	$1, 107(%rsp)
	jne	.Ldeerlapse_0_1_0_BB70_8
# %bb.1:                                # %arm.1.i
	movl	2144(%rsp), %eax
	leal	-10(%rax), %ecx
	cmpl	$4, %ecx
	ja	.Ldeerlapse_0_1_0_BB70_7
# %bb.2:                                # %join.3.i.i
	movq	3528(%rsp), %rdx
	cmpq	$16, %rdx
	jb	.Ldeerlapse_0_1_0_BB70_7
# %bb.3:                                # %arm.1.i.i.i
	movq	3536(%rsp), %r12
	leaq	-16(%rdx), %r14
	movq	%r14, %rcx
	subq	%r12, %rcx
	jb	.Ldeerlapse_0_1_0_BB70_7
# %bb.4:                                # %arm.8.i.i.i
	movq	96(%rsp), %r8                   # 8-byte Reload
	shrq	$61, %r8
	setne	%r8b
	movabsq	$68719476704, %r9               # imm = 0xFFFFFFFE0
	cmpq	%r9, %rcx
	seta	%r9b
	orb	%r8b, %r9b
	jne	.Ldeerlapse_0_1_0_BB70_7
# %bb.5:                                # %then.11.i.i.i
	movb	%r13b, %bl
	shll	$12, %ebx
	addq	%rbx, %rdi
	xorl	%r8d, %r8d
	movzbl	95(%rsp), %r9d                  # 1-byte Folded Reload
	movb	%r9b, %r8b
	shll	$12, %r8d
	addq	%r8, %rsi
	leaq	2152(%rsp), %r8
	leaq	2392(%rsp), %r10
	leaq	2904(%rsp), %r11
	leaq	108(%rsp), %r9
	leaq	-16(%rsi,%rdx), %rdx
	movl	2148(%rsp), %ebx
	movq	%r15, 120(%rsp)
	movq	%r8, 128(%rsp)
	movq	%rax, 136(%rsp)
	movl	%ebx, 144(%rsp)
	movl	$0, 148(%rsp)
	movq	%r10, 152(%rsp)
	movq	%r11, 160(%rsp)
	xorps	%xmm0, %xmm0
	movaps	%xmm0, 192(%rsp)
	movups	(%rdx), %xmm0
	movaps	%xmm0, 208(%rsp)
	leaq	(%rsi,%r12), %rax
	leaq	192(%rsp), %rbx
	movq	%rbx, 72(%rsp)
	movq	%rcx, 64(%rsp)
	movq	%rax, 56(%rsp)
	leaq	208(%rsp), %rax
	movq	%rax, 48(%rsp)
	movq	96(%rsp), %rax                  # 8-byte Reload
	movq	%rax, 40(%rsp)
	movq	%rdi, 32(%rsp)
	leaq	175(%rsp), %rcx
	leaq	120(%rsp), %rdx
	leaq	152(%rsp), %r8
	callq	"deerlapse_0_1_0::aead_ciphers::aes_gcm::opening::authenticate::<#7bfdf0a6b4753edd>"
	cmpb	$0, 175(%rsp)
	je	.Ldeerlapse_0_1_0_BB70_9
.Ldeerlapse_0_1_0_BB70_7:
	xorl	%ebp, %ebp
.Ldeerlapse_0_1_0_BB70_8:                               # %"deerlapse::xaes_key::deerlapse_xaes_open.exit"
	movl	%ebp, %eax
	addq	$3416, %rsp                     # imm = 0xD58
	popq	%rbx
	popq	%rbp
	popq	%rdi
	popq	%rsi
	popq	%r12
	popq	%r13
	popq	%r14
	popq	%r15
	retq
.Ldeerlapse_0_1_0_BB70_9:                               # %arm.4.i.i
	movq	3544(%rsp), %rdi
	leaq	176(%rsp), %rdx
	movq	%rbx, 40(%rsp)
	movq	%r12, 32(%rsp)
	leaq	120(%rsp), %rcx
	movq	%rsi, %r8
	movq	%r14, %r9
	callq	"deerlapse_0_1_0::aead_ciphers::aes_gcm::counter_mode::encrypt_within::<#6fa349fe97f872a2>"
	movq	%rax, (%rdi)
	movb	$1, %bpl
	jmp	.Ldeerlapse_0_1_0_BB70_8
	.seh_endproc
                                        # -- End function
	.ifdef	deerlapse_in_rust
	.globl	deerlapse_0_1_0_xaes_open_appended_tag_sized # -- Begin function deerlapse_0_1_0_xaes_open_appended_tag_sized
	.p2align	4
deerlapse_0_1_0_xaes_open_appended_tag_sized: # @deerlapse_0_1_0_xaes_open_appended_tag_sized
.seh_proc deerlapse_0_1_0_xaes_open_appended_tag_sized
	.def	deerlapse_0_1_0_xaes_open_appended_tag_sized;
	.scl	2;
	.type	32;
	.endef
	.else
	.globl	deerlapse_xaes_open_appended_tag_sized # -- Begin function deerlapse_xaes_open_appended_tag_sized
	.p2align	4
deerlapse_xaes_open_appended_tag_sized: # @deerlapse_xaes_open_appended_tag_sized
.seh_proc deerlapse_xaes_open_appended_tag_sized
	.def	deerlapse_xaes_open_appended_tag_sized;
	.scl	2;
	.type	32;
	.endef
	.endif
# %bb.0:                                # %start
	pushq	%r15
	.seh_pushreg %r15
	pushq	%r14
	.seh_pushreg %r14
	pushq	%r13
	.seh_pushreg %r13
	pushq	%r12
	.seh_pushreg %r12
	pushq	%rsi
	.seh_pushreg %rsi
	pushq	%rdi
	.seh_pushreg %rdi
	pushq	%rbx
	.seh_pushreg %rbx
	subq	$3280, %rsp
	.seh_stackalloc 3280
	.seh_endprologue
	movq	%r9, %rsi
	movq	%r8, %rdi
	movq	%rdx, %r14
	movq	%rcx, %r15
	movq	3384(%rsp), %r13
	xorl	%ebx, %ebx
	leaq	88(%rsp), %r12
	movl	$3192, %r8d                     # imm = 0xC78
	movq	%r12, %rcx
	xorl	%edx, %edx
	callq	memset
	leaq	75(%rsp), %rcx
	movq	%r15, %rdx
	movq	%r14, %r8
	movq	%r12, %r9
	callq	"deerlapse_0_1_0::deerlapse::xaes_key::expand_message_key"
	cmpq	$16, %r13
	jb	.Ldeerlapse_0_1_0_BB71_3
# %bb.1:                                # %start
	cmpb	$1, 75(%rsp)
	jne	.Ldeerlapse_0_1_0_BB71_3
# %bb.2:                                # %arm.1.i.i
	movq	3400(%rsp), %rax
	movq	3392(%rsp), %rdx
	movq	3376(%rsp), %r8
	xorl	%ecx, %ecx
	testq	%rdx, %rdx
	sete	%cl
	shll	$12, %ecx
	addq	%rdx, %rcx
	xorl	%r9d, %r9d
	testq	%r8, %r8
	sete	%r9b
	shll	$12, %r9d
	addq	%r8, %r9
	xorl	%r8d, %r8d
	testq	%rdi, %rdi
	sete	%r8b
	shll	$12, %r8d
	addq	%rdi, %r8
	leaq	76(%rsp), %rdx
	leaq	(%r9,%r13), %r10
	addq	$-16, %r10
	addq	$-16, %r13
	movq	%rax, 56(%rsp)
	movq	%r13, 40(%rsp)
	movq	%rcx, 48(%rsp)
	movq	%r9, 32(%rsp)
	movq	%r10, 64(%rsp)
	leaq	88(%rsp), %rcx
	movq	%rsi, %r9
	callq	"deerlapse_0_1_0::deerlapse::out_of_place::deerlapse_key_open_to_sized"
	movl	%eax, %ebx
.Ldeerlapse_0_1_0_BB71_3:                               # %"deerlapse::xaes_key::deerlapse_xaes_open_appended_tag_sized.exit"
	movl	%ebx, %eax
	addq	$3280, %rsp                     # imm = 0xCD0
	popq	%rbx
	popq	%rdi
	popq	%rsi
	popq	%r12
	popq	%r13
	popq	%r14
	popq	%r15
	retq
	.seh_endproc
                                        # -- End function
	.ifdef	deerlapse_in_rust
	.globl	deerlapse_0_1_0_xaes_open_separate_tag # -- Begin function deerlapse_0_1_0_xaes_open_separate_tag
	.p2align	4
deerlapse_0_1_0_xaes_open_separate_tag:       # @deerlapse_0_1_0_xaes_open_separate_tag
.seh_proc deerlapse_0_1_0_xaes_open_separate_tag
	.def	deerlapse_0_1_0_xaes_open_separate_tag;
	.scl	2;
	.type	32;
	.endef
	.else
	.globl	deerlapse_xaes_open_separate_tag # -- Begin function deerlapse_xaes_open_separate_tag
	.p2align	4
deerlapse_xaes_open_separate_tag:       # @deerlapse_xaes_open_separate_tag
.seh_proc deerlapse_xaes_open_separate_tag
	.def	deerlapse_xaes_open_separate_tag;
	.scl	2;
	.type	32;
	.endef
	.endif
# %bb.0:                                # %start
	pushq	%r15
	.seh_pushreg %r15
	pushq	%r14
	.seh_pushreg %r14
	pushq	%r13
	.seh_pushreg %r13
	pushq	%r12
	.seh_pushreg %r12
	pushq	%rsi
	.seh_pushreg %rsi
	pushq	%rdi
	.seh_pushreg %rdi
	pushq	%rbp
	.seh_pushreg %rbp
	pushq	%rbx
	.seh_pushreg %rbx
	subq	$3416, %rsp
	.seh_stackalloc 3416
	.seh_endprologue
	movq	%r9, 96(%rsp)                   # 8-byte Spill
	movq	%r8, %rdi
	movq	%rdx, %r14
	movq	%rcx, %r13
	movq	3520(%rsp), %rsi
	xorl	%ebx, %ebx
	testq	%r8, %r8
	sete	94(%rsp)                        # 1-byte Folded Spill
	xorl	%ebp, %ebp
	testq	%rsi, %rsi
	sete	95(%rsp)                        # 1-byte Folded Spill
	xorl	%r15d, %r15d
	leaq	224(%rsp), %r12
	movl	$3192, %r8d                     # imm = 0xC78
	movq	%r12, %rcx
	xorl	%edx, %edx
	callq	memset
	leaq	107(%rsp), %rcx
	movq	%r13, %rdx
	movq	%r14, %r8
	movq	%r12, %r9
	callq	"deerlapse_0_1_0::deerlapse::xaes_key::expand_message_key"
	cmpb	$1, 107(%rsp)
	jne	.Ldeerlapse_0_1_0_BB72_9
# %bb.1:                                # %arm.1.i
	movq	3536(%rsp), %r13
	movq	3528(%rsp), %r14
	xorl	%r15d, %r15d
	movq	%r14, %rax
	subq	%r13, %rax
	movl	$0, %edx
	cmovaeq	%rax, %rdx
	jb	.Ldeerlapse_0_1_0_BB72_9
# %bb.2:                                # %arm.3.i.i
	movl	2144(%rsp), %ecx
	leal	-10(%rcx), %r8d
	xorl	%r15d, %r15d
	cmpl	$4, %r8d
	ja	.Ldeerlapse_0_1_0_BB72_9
# %bb.3:                                # %then.7.i.i
	movq	96(%rsp), %r8                   # 8-byte Reload
	shrq	$61, %r8
	jne	.Ldeerlapse_0_1_0_BB72_9
# %bb.4:                                # %then.7.i.i
	movabsq	$68719476705, %r8               # imm = 0xFFFFFFFE1
	cmpq	%r8, %rdx
	jae	.Ldeerlapse_0_1_0_BB72_9
# %bb.5:                                # %join.3.i.i.i.i
	leaq	2152(%rsp), %rdx
	leaq	2392(%rsp), %r9
	leaq	2904(%rsp), %r10
	xorps	%xmm0, %xmm0
	movaps	%xmm0, 192(%rsp)
	movl	2148(%rsp), %r11d
	movq	%r12, 120(%rsp)
	movq	%rdx, 128(%rsp)
	movq	%rcx, 136(%rsp)
	movl	%r11d, 144(%rsp)
	movl	$0, 148(%rsp)
	movq	%r9, 152(%rsp)
	movq	%r10, 160(%rsp)
	cmpq	%r8, %rax
	jae	.Ldeerlapse_0_1_0_BB72_6
# %bb.7:                                # %join.7.i.i.i.i
	movq	3544(%rsp), %rcx
	movzbl	94(%rsp), %edx                  # 1-byte Folded Reload
	movb	%dl, %bl
	shll	$12, %ebx
	addq	%rbx, %rdi
	movzbl	95(%rsp), %edx                  # 1-byte Folded Reload
	movb	%dl, %bpl
	shll	$12, %ebp
	addq	%rbp, %rsi
	leaq	108(%rsp), %r9
	movups	(%rcx), %xmm0
	movaps	%xmm0, 208(%rsp)
	leaq	(%rsi,%r13), %rcx
	leaq	192(%rsp), %rbx
	movq	%rbx, 72(%rsp)
	movq	%rax, 64(%rsp)
	movq	%rcx, 56(%rsp)
	leaq	208(%rsp), %rax
	movq	%rax, 48(%rsp)
	movq	96(%rsp), %rax                  # 8-byte Reload
	movq	%rax, 40(%rsp)
	movq	%rdi, 32(%rsp)
	leaq	175(%rsp), %rcx
	leaq	120(%rsp), %rdx
	leaq	152(%rsp), %r8
	callq	"deerlapse_0_1_0::aead_ciphers::aes_gcm::opening::authenticate::<#7bfdf0a6b4753edd>"
	cmpb	$0, 175(%rsp)
	sete	%r15b
	jne	.Ldeerlapse_0_1_0_BB72_9
# %bb.8:                                # %arm.1.i.i.i.i.i
	leaq	176(%rsp), %rdx
	movq	%rbx, 40(%rsp)
	movq	%r13, 32(%rsp)
	leaq	120(%rsp), %rcx
	movq	%rsi, %r8
	movq	%r14, %r9
	callq	"deerlapse_0_1_0::aead_ciphers::aes_gcm::counter_mode::encrypt_within::<#6fa349fe97f872a2>"
	jmp	.Ldeerlapse_0_1_0_BB72_9
.Ldeerlapse_0_1_0_BB72_6:
	xorl	%r15d, %r15d
.Ldeerlapse_0_1_0_BB72_9:                               # %"deerlapse::xaes_key::deerlapse_xaes_open_separate_tag.exit"
	movl	%r15d, %eax
	addq	$3416, %rsp                     # imm = 0xD58
	popq	%rbx
	popq	%rbp
	popq	%rdi
	popq	%rsi
	popq	%r12
	popq	%r13
	popq	%r14
	popq	%r15
	retq
	.seh_endproc
                                        # -- End function
	.ifdef	deerlapse_in_rust
	.globl	deerlapse_0_1_0_xaes_open_to_sized    # -- Begin function deerlapse_0_1_0_xaes_open_to_sized
	.p2align	4
deerlapse_0_1_0_xaes_open_to_sized:           # @deerlapse_0_1_0_xaes_open_to_sized
.seh_proc deerlapse_0_1_0_xaes_open_to_sized
	.def	deerlapse_0_1_0_xaes_open_to_sized;
	.scl	2;
	.type	32;
	.endef
	.else
	.globl	deerlapse_xaes_open_to_sized    # -- Begin function deerlapse_xaes_open_to_sized
	.p2align	4
deerlapse_xaes_open_to_sized:           # @deerlapse_xaes_open_to_sized
.seh_proc deerlapse_xaes_open_to_sized
	.def	deerlapse_xaes_open_to_sized;
	.scl	2;
	.type	32;
	.endef
	.endif
# %bb.0:                                # %start
	pushq	%r15
	.seh_pushreg %r15
	pushq	%r14
	.seh_pushreg %r14
	pushq	%r12
	.seh_pushreg %r12
	pushq	%rsi
	.seh_pushreg %rsi
	pushq	%rdi
	.seh_pushreg %rdi
	pushq	%rbx
	.seh_pushreg %rbx
	subq	$3288, %rsp
	.seh_stackalloc 3288
	.seh_endprologue
	movq	%r9, %rsi
	movq	%r8, %rdi
	movq	%rdx, %r14
	movq	%rcx, %r15
	xorl	%ebx, %ebx
	leaq	96(%rsp), %r12
	movl	$3192, %r8d                     # imm = 0xC78
	movq	%r12, %rcx
	xorl	%edx, %edx
	callq	memset
	leaq	83(%rsp), %rcx
	movq	%r15, %rdx
	movq	%r14, %r8
	movq	%r12, %r9
	callq	"deerlapse_0_1_0::deerlapse::xaes_key::expand_message_key"
	cmpb	$1, 83(%rsp)
	jne	.Ldeerlapse_0_1_0_BB73_2
# %bb.1:                                # %arm.1.i
	movq	3408(%rsp), %rcx
	movq	3400(%rsp), %rax
	movq	3392(%rsp), %rdx
	movq	3384(%rsp), %r9
	movq	3376(%rsp), %r8
	xorl	%r10d, %r10d
	testq	%rdx, %rdx
	sete	%r10b
	shll	$12, %r10d
	addq	%rdx, %r10
	xorl	%r11d, %r11d
	testq	%r8, %r8
	sete	%r11b
	shll	$12, %r11d
	addq	%r8, %r11
	xorl	%r8d, %r8d
	testq	%rdi, %rdi
	sete	%r8b
	shll	$12, %r8d
	addq	%rdi, %r8
	leaq	84(%rsp), %rdx
	movq	%rcx, 64(%rsp)
	movq	%rax, 56(%rsp)
	movq	%r9, 40(%rsp)
	movq	%r10, 48(%rsp)
	movq	%r11, 32(%rsp)
	leaq	96(%rsp), %rcx
	movq	%rsi, %r9
	callq	"deerlapse_0_1_0::deerlapse::out_of_place::deerlapse_key_open_to_sized"
	movl	%eax, %ebx
.Ldeerlapse_0_1_0_BB73_2:                               # %"deerlapse::xaes_key::deerlapse_xaes_open_to_sized.exit"
	movl	%ebx, %eax
	addq	$3288, %rsp                     # imm = 0xCD8
	popq	%rbx
	popq	%rdi
	popq	%rsi
	popq	%r12
	popq	%r14
	popq	%r15
	retq
	.seh_endproc
                                        # -- End function
	.ifdef	deerlapse_in_rust
	.globl	deerlapse_0_1_0_xaes_seal             # -- Begin function deerlapse_0_1_0_xaes_seal
	.p2align	4
deerlapse_0_1_0_xaes_seal:                    # @deerlapse_0_1_0_xaes_seal
.seh_proc deerlapse_0_1_0_xaes_seal
	.def	deerlapse_0_1_0_xaes_seal;
	.scl	2;
	.type	32;
	.endef
	.else
	.globl	deerlapse_xaes_seal             # -- Begin function deerlapse_xaes_seal
	.p2align	4
deerlapse_xaes_seal:                    # @deerlapse_xaes_seal
.seh_proc deerlapse_xaes_seal
	.def	deerlapse_xaes_seal;
	.scl	2;
	.type	32;
	.endef
	.endif
# %bb.0:                                # %start
	pushq	%r15
	.seh_pushreg %r15
	pushq	%r14
	.seh_pushreg %r14
	pushq	%r12
	.seh_pushreg %r12
	pushq	%rsi
	.seh_pushreg %rsi
	pushq	%rdi
	.seh_pushreg %rdi
	pushq	%rbx
	.seh_pushreg %rbx
	subq	$3272, %rsp
	.seh_stackalloc 3272
	.seh_endprologue
	movq	%r9, %rsi
	movq	%r8, %rdi
	movq	%rdx, %r14
	movq	%rcx, %r15
	xorl	%ebx, %ebx
	leaq	80(%rsp), %r12
	movl	$3192, %r8d                     # imm = 0xC78
	movq	%r12, %rcx
	xorl	%edx, %edx
	callq	memset
	leaq	67(%rsp), %rcx
	movq	%r15, %rdx
	movq	%r14, %r8
	movq	%r12, %r9
	callq	"deerlapse_0_1_0::deerlapse::xaes_key::expand_message_key"
	cmpb	$1, 67(%rsp)
	jne	.Ldeerlapse_0_1_0_BB74_2
# %bb.1:                                # %arm.1.i
	movq	3376(%rsp), %rax
	movq	3368(%rsp), %rcx
	movq	3360(%rsp), %rdx
	xorl	%r9d, %r9d
	testq	%rdx, %rdx
	sete	%r9b
	shll	$12, %r9d
	addq	%rdx, %r9
	xorl	%r8d, %r8d
	testq	%rdi, %rdi
	sete	%r8b
	shll	$12, %r8d
	addq	%rdi, %r8
	leaq	68(%rsp), %rdx
	movq	%rax, 48(%rsp)
	movq	%rcx, 40(%rsp)
	movq	%r9, 32(%rsp)
	leaq	80(%rsp), %rcx
	movq	%rsi, %r9
	callq	"deerlapse_0_1_0::deerlapse::key::deerlapse_key_seal"
	movl	%eax, %ebx
.Ldeerlapse_0_1_0_BB74_2:                               # %"deerlapse::xaes_key::deerlapse_xaes_seal.exit"
	movl	%ebx, %eax
	addq	$3272, %rsp                     # imm = 0xCC8
	popq	%rbx
	popq	%rdi
	popq	%rsi
	popq	%r12
	popq	%r14
	popq	%r15
	retq
	.seh_endproc
                                        # -- End function
	.ifdef	deerlapse_in_rust
	.globl	deerlapse_0_1_0_xaes_seal_append_tag_sized # -- Begin function deerlapse_0_1_0_xaes_seal_append_tag_sized
	.p2align	4
deerlapse_0_1_0_xaes_seal_append_tag_sized:   # @deerlapse_0_1_0_xaes_seal_append_tag_sized
.seh_proc deerlapse_0_1_0_xaes_seal_append_tag_sized
	.def	deerlapse_0_1_0_xaes_seal_append_tag_sized;
	.scl	2;
	.type	32;
	.endef
	.else
	.globl	deerlapse_xaes_seal_append_tag_sized # -- Begin function deerlapse_xaes_seal_append_tag_sized
	.p2align	4
deerlapse_xaes_seal_append_tag_sized:   # @deerlapse_xaes_seal_append_tag_sized
.seh_proc deerlapse_xaes_seal_append_tag_sized
	.def	deerlapse_xaes_seal_append_tag_sized;
	.scl	2;
	.type	32;
	.endef
	.endif
# %bb.0:                                # %start
	pushq	%r15
	.seh_pushreg %r15
	pushq	%r14
	.seh_pushreg %r14
	pushq	%r13
	.seh_pushreg %r13
	pushq	%r12
	.seh_pushreg %r12
	pushq	%rsi
	.seh_pushreg %rsi
	pushq	%rdi
	.seh_pushreg %rdi
	pushq	%rbp
	.seh_pushreg %rbp
	pushq	%rbx
	.seh_pushreg %rbx
	subq	$3288, %rsp
	.seh_stackalloc 3288
	.seh_endprologue
	movq	%r9, 72(%rsp)                   # 8-byte Spill
	movq	%rdx, %rbx
	movq	%rcx, %r14
	xorl	%r13d, %r13d
	movq	%r8, %rsi
	testq	%r8, %r8
	sete	%dil
	cmpq	$0, 3392(%rsp)
	sete	%r12b
	cmpq	$0, 3408(%rsp)
	sete	71(%rsp)                        # 1-byte Folded Spill
	xorl	%ebp, %ebp
	leaq	96(%rsp), %r15
	movl	$3192, %r8d                     # imm = 0xC78
	movq	%r15, %rcx
	xorl	%edx, %edx
	callq	memset
	leaq	83(%rsp), %rcx
	movq	%r14, %rdx
	movq	%rbx, %r8
	movq	%r15, %r9
	callq	"deerlapse_0_1_0::deerlapse::xaes_key::expand_message_key"
	cmpb	$1, 83(%rsp)
	jne	.Ldeerlapse_0_1_0_BB75_3
# %bb.1:                                # %arm.1.i
	movq	3416(%rsp), %rax
	cmpq	$16, %rax
	jae	.Ldeerlapse_0_1_0_BB75_4
.Ldeerlapse_0_1_0_BB75_2:
	xorl	%ebp, %ebp
.Ldeerlapse_0_1_0_BB75_3:                               # %"deerlapse::xaes_key::deerlapse_xaes_seal_append_tag_sized.exit"
	movl	%ebp, %eax
	addq	$3288, %rsp                     # imm = 0xCD8
	popq	%rbx
	popq	%rbp
	popq	%rdi
	popq	%rsi
	popq	%r12
	popq	%r13
	popq	%r14
	popq	%r15
	retq
.Ldeerlapse_0_1_0_BB75_4:                               # %arm.1.i.i
	movq	3400(%rsp), %rbx
	leaq	-16(%rax), %rcx
	xorl	%ebp, %ebp
	cmpq	%rbx, %rcx
	jne	.Ldeerlapse_0_1_0_BB75_3
# %bb.5:                                # %arm.1.i.i
	movl	2016(%rsp), %ecx
	addl	$-10, %ecx
	cmpl	$4, %ecx
	ja	.Ldeerlapse_0_1_0_BB75_3
# %bb.6:                                # %else.7.i.i.i
	movabsq	$68719476704, %rcx              # imm = 0xFFFFFFFE0
	movq	72(%rsp), %rdx                  # 8-byte Reload
	shrq	$61, %rdx
	setne	%dl
	leaq	1(%rcx), %r8
	cmpq	%r8, %rbx
	setae	%r8b
	orb	%dl, %r8b
	jne	.Ldeerlapse_0_1_0_BB75_2
# %bb.7:                                # %after.1.i.i.i
	movb	%dil, %r13b
	shll	$12, %r13d
	movq	%rsi, %rdi
	addq	%r13, %rdi
	xorl	%edx, %edx
	movb	%r12b, %dl
	movq	%rdx, %r12
	shll	$12, %r12d
	movq	3392(%rsp), %rsi
	leaq	(%rsi,%r12), %rdx
	xorl	%r13d, %r13d
	movzbl	71(%rsp), %r8d                  # 1-byte Folded Reload
	movb	%r8b, %r13b
	shll	$12, %r13d
	movq	3408(%rsp), %r11
	leaq	(%r11,%r13), %r15
	leaq	84(%rsp), %r14
	leaq	(%r15,%rax), %rbp
	addq	$-16, %rbp
	movq	%r15, %rax
	subq	%rdx, %rax
	cmpq	%rbx, %rax
	jae	.Ldeerlapse_0_1_0_BB75_11
# %bb.8:                                # %iter.check
	cmpq	$4, %rbx
	jb	.Ldeerlapse_0_1_0_BB75_9
# %bb.12:                               # %vector.memcheck
	cmpq	$32, %rax
	jae	.Ldeerlapse_0_1_0_BB75_14
.Ldeerlapse_0_1_0_BB75_9:
	xorl	%eax, %eax
.Ldeerlapse_0_1_0_BB75_23:                              # %join.7.i.i.i.i.i.i.i.i.i.preheader
	movq	%rbx, %r8
	movq	%rax, %rcx
	andq	$3, %r8
	je	.Ldeerlapse_0_1_0_BB75_26
# %bb.24:                               # %join.7.i.i.i.i.i.i.i.i.i.prol.preheader
	movq	%rax, %rcx
	.p2align	4
.Ldeerlapse_0_1_0_BB75_25:                              # %join.7.i.i.i.i.i.i.i.i.i.prol
                                        # =>This Inner Loop Header: Depth=1
	movzbl	(%rdx,%rcx), %r9d
	movb	%r9b, (%r15,%rcx)
	incq	%rcx
	decq	%r8
	jne	.Ldeerlapse_0_1_0_BB75_25
.Ldeerlapse_0_1_0_BB75_26:                              # %join.7.i.i.i.i.i.i.i.i.i.prol.loopexit
	subq	%rbx, %rax
	cmpq	$-4, %rax
	ja	.Ldeerlapse_0_1_0_BB75_29
# %bb.27:                               # %join.7.i.i.i.i.i.i.i.i.i.preheader11
	leaq	(%r12,%rsi), %rax
	addq	$3, %rax
	leaq	(%r11,%r13), %rdx
	addq	$3, %rdx
	.p2align	4
.Ldeerlapse_0_1_0_BB75_28:                              # %join.7.i.i.i.i.i.i.i.i.i
                                        # =>This Inner Loop Header: Depth=1
	movzbl	-3(%rax,%rcx), %r8d
	movb	%r8b, -3(%rdx,%rcx)
	movzbl	-2(%rax,%rcx), %r8d
	movb	%r8b, -2(%rdx,%rcx)
	movzbl	-1(%rax,%rcx), %r8d
	movb	%r8b, -1(%rdx,%rcx)
	movzbl	(%rax,%rcx), %r8d
	movb	%r8b, (%rdx,%rcx)
	addq	$4, %rcx
	cmpq	%rcx, %rbx
	jne	.Ldeerlapse_0_1_0_BB75_28
	jmp	.Ldeerlapse_0_1_0_BB75_29
.Ldeerlapse_0_1_0_BB75_11:                              # %apart.2.i.i.i.i.i.i.i.i.i
	movq	%r15, %rcx
	movq	%rbx, %r8
	callq	memmove
.Ldeerlapse_0_1_0_BB75_29:                              # %"core::slice::edits::slice+T::copy_from_slice::<i8,20'core::clone::U8Clone{}>.exit.i.i.i"
	movq	%rbp, 48(%rsp)
	movq	%rbx, 40(%rsp)
	movq	%r15, 32(%rsp)
	leaq	96(%rsp), %rcx
	movq	%r14, %rdx
	movq	%rdi, %r8
	movq	72(%rsp), %r9                   # 8-byte Reload
	callq	"deerlapse_0_1_0::deerlapse::key::deerlapse_key_seal"
	movl	%eax, %ebp
	jmp	.Ldeerlapse_0_1_0_BB75_3
.Ldeerlapse_0_1_0_BB75_14:                              # %vector.main.loop.iter.check
	cmpq	$32, %rbx
	jae	.Ldeerlapse_0_1_0_BB75_16
# %bb.15:
	xorl	%eax, %eax
	jmp	.Ldeerlapse_0_1_0_BB75_20
.Ldeerlapse_0_1_0_BB75_16:                              # %vector.ph
	movq	%rbx, %rax
	andq	%rcx, %rax
	leaq	(%r12,%rsi), %r8
	addq	$16, %r8
	leaq	(%r11,%r13), %r9
	addq	$16, %r9
	xorl	%r10d, %r10d
.Ldeerlapse_0_1_0_BB75_17:                              # %vector.body
                                        # =>This Inner Loop Header: Depth=1
	movups	-16(%r8,%r10), %xmm0
	movups	(%r8,%r10), %xmm1
	movups	%xmm0, -16(%r9,%r10)
	movups	%xmm1, (%r9,%r10)
	addq	$32, %r10
	cmpq	%r10, %rax
	jne	.Ldeerlapse_0_1_0_BB75_17
# %bb.18:                               # %middle.block
	cmpq	%rax, %rbx
	je	.Ldeerlapse_0_1_0_BB75_29
# %bb.19:                               # %vec.epilog.iter.check
	testb	$28, %bl
	je	.Ldeerlapse_0_1_0_BB75_23
.Ldeerlapse_0_1_0_BB75_20:                              # %vec.epilog.ph
	movq	%rax, %r8
	addq	$28, %rcx
	movq	%rcx, %rax
	andq	%rbx, %rax
.Ldeerlapse_0_1_0_BB75_21:                              # %vec.epilog.vector.body
                                        # =>This Inner Loop Header: Depth=1
	movl	(%rdx,%r8), %ecx
	movl	%ecx, (%r15,%r8)
	addq	$4, %r8
	cmpq	%r8, %rax
	jne	.Ldeerlapse_0_1_0_BB75_21
# %bb.22:                               # %vec.epilog.middle.block
	cmpq	%rax, %rbx
	je	.Ldeerlapse_0_1_0_BB75_29
	jmp	.Ldeerlapse_0_1_0_BB75_23
	.seh_endproc
                                        # -- End function
	.ifdef	deerlapse_in_rust
	.globl	deerlapse_0_1_0_xaes_seal_to_sized    # -- Begin function deerlapse_0_1_0_xaes_seal_to_sized
	.p2align	4
deerlapse_0_1_0_xaes_seal_to_sized:           # @deerlapse_0_1_0_xaes_seal_to_sized
.seh_proc deerlapse_0_1_0_xaes_seal_to_sized
	.def	deerlapse_0_1_0_xaes_seal_to_sized;
	.scl	2;
	.type	32;
	.endef
	.else
	.globl	deerlapse_xaes_seal_to_sized    # -- Begin function deerlapse_xaes_seal_to_sized
	.p2align	4
deerlapse_xaes_seal_to_sized:           # @deerlapse_xaes_seal_to_sized
.seh_proc deerlapse_xaes_seal_to_sized
	.def	deerlapse_xaes_seal_to_sized;
	.scl	2;
	.type	32;
	.endef
	.endif
# %bb.0:                                # %start
	pushq	%r15
	.seh_pushreg %r15
	pushq	%r14
	.seh_pushreg %r14
	pushq	%r13
	.seh_pushreg %r13
	pushq	%r12
	.seh_pushreg %r12
	pushq	%rsi
	.seh_pushreg %rsi
	pushq	%rdi
	.seh_pushreg %rdi
	pushq	%rbp
	.seh_pushreg %rbp
	pushq	%rbx
	.seh_pushreg %rbx
	subq	$3288, %rsp
	.seh_stackalloc 3288
	.seh_endprologue
	movq	%r9, 72(%rsp)                   # 8-byte Spill
	movq	%rdx, %rbx
	movq	%rcx, %r14
	xorl	%esi, %esi
	movq	%r8, %r12
	testq	%r8, %r8
	sete	%dil
	cmpq	$0, 3392(%rsp)
	sete	%r13b
	cmpq	$0, 3408(%rsp)
	sete	71(%rsp)                        # 1-byte Folded Spill
	xorl	%ebp, %ebp
	leaq	96(%rsp), %r15
	movl	$3192, %r8d                     # imm = 0xC78
	movq	%r15, %rcx
	xorl	%edx, %edx
	callq	memset
	leaq	83(%rsp), %rcx
	movq	%r14, %rdx
	movq	%rbx, %r8
	movq	%r15, %r9
	callq	"deerlapse_0_1_0::deerlapse::xaes_key::expand_message_key"
	cmpb	$1, 83(%rsp)
	jne	.Ldeerlapse_0_1_0_BB76_27
# %bb.1:                                # %arm.1.i
	movq	3416(%rsp), %rbx
	xorl	%ebp, %ebp
	cmpq	3400(%rsp), %rbx
	jne	.Ldeerlapse_0_1_0_BB76_27
# %bb.2:                                # %arm.1.i
	movl	2016(%rsp), %eax
	addl	$-10, %eax
	cmpl	$4, %eax
	ja	.Ldeerlapse_0_1_0_BB76_27
# %bb.3:                                # %else.7.i.i
	movabsq	$68719476704, %rcx              # imm = 0xFFFFFFFE0
	movq	72(%rsp), %rax                  # 8-byte Reload
	shrq	$61, %rax
	setne	%al
	leaq	1(%rcx), %rdx
	cmpq	%rdx, %rbx
	setae	%dl
	orb	%al, %dl
	jne	.Ldeerlapse_0_1_0_BB76_7
# %bb.4:                                # %after.1.i.i
	movq	3424(%rsp), %rbp
	movb	%dil, %sil
	shll	$12, %esi
	addq	%rsi, %r12
	movq	%r12, %rsi
	xorl	%r12d, %r12d
	movb	%r13b, %r12b
	shll	$12, %r12d
	movq	3392(%rsp), %rdi
	leaq	(%rdi,%r12), %rdx
	xorl	%r13d, %r13d
	movzbl	71(%rsp), %eax                  # 1-byte Folded Reload
	movb	%al, %r13b
	shll	$12, %r13d
	movq	3408(%rsp), %r11
	leaq	(%r11,%r13), %r15
	leaq	84(%rsp), %r14
	movq	%r15, %rax
	subq	%rdx, %rax
	cmpq	%rbx, %rax
	jae	.Ldeerlapse_0_1_0_BB76_8
# %bb.5:                                # %iter.check
	cmpq	$4, %rbx
	jb	.Ldeerlapse_0_1_0_BB76_6
# %bb.9:                                # %vector.memcheck
	cmpq	$32, %rax
	jae	.Ldeerlapse_0_1_0_BB76_11
.Ldeerlapse_0_1_0_BB76_6:
	xorl	%eax, %eax
.Ldeerlapse_0_1_0_BB76_20:                              # %join.7.i.i.i.i.i.i.i.i.preheader
	movq	%rbx, %r8
	movq	%rax, %rcx
	andq	$3, %r8
	je	.Ldeerlapse_0_1_0_BB76_23
# %bb.21:                               # %join.7.i.i.i.i.i.i.i.i.prol.preheader
	movq	%rax, %rcx
	.p2align	4
.Ldeerlapse_0_1_0_BB76_22:                              # %join.7.i.i.i.i.i.i.i.i.prol
                                        # =>This Inner Loop Header: Depth=1
	movzbl	(%rdx,%rcx), %r9d
	movb	%r9b, (%r15,%rcx)
	incq	%rcx
	decq	%r8
	jne	.Ldeerlapse_0_1_0_BB76_22
.Ldeerlapse_0_1_0_BB76_23:                              # %join.7.i.i.i.i.i.i.i.i.prol.loopexit
	subq	%rbx, %rax
	cmpq	$-4, %rax
	ja	.Ldeerlapse_0_1_0_BB76_26
# %bb.24:                               # %join.7.i.i.i.i.i.i.i.i.preheader11
	leaq	(%r12,%rdi), %rax
	addq	$3, %rax
	leaq	(%r11,%r13), %rdx
	addq	$3, %rdx
	.p2align	4
.Ldeerlapse_0_1_0_BB76_25:                              # %join.7.i.i.i.i.i.i.i.i
                                        # =>This Inner Loop Header: Depth=1
	movzbl	-3(%rax,%rcx), %r8d
	movb	%r8b, -3(%rdx,%rcx)
	movzbl	-2(%rax,%rcx), %r8d
	movb	%r8b, -2(%rdx,%rcx)
	movzbl	-1(%rax,%rcx), %r8d
	movb	%r8b, -1(%rdx,%rcx)
	movzbl	(%rax,%rcx), %r8d
	movb	%r8b, (%rdx,%rcx)
	addq	$4, %rcx
	cmpq	%rcx, %rbx
	jne	.Ldeerlapse_0_1_0_BB76_25
	jmp	.Ldeerlapse_0_1_0_BB76_26
.Ldeerlapse_0_1_0_BB76_7:
	xorl	%ebp, %ebp
	jmp	.Ldeerlapse_0_1_0_BB76_27
.Ldeerlapse_0_1_0_BB76_8:                               # %apart.2.i.i.i.i.i.i.i.i
	movq	%r15, %rcx
	movq	%rbx, %r8
	callq	memmove
.Ldeerlapse_0_1_0_BB76_26:                              # %"core::slice::edits::slice+T::copy_from_slice::<i8,20'core::clone::U8Clone{}>.exit.i.i"
	movq	%rbp, 48(%rsp)
	movq	%rbx, 40(%rsp)
	movq	%r15, 32(%rsp)
	leaq	96(%rsp), %rcx
	movq	%r14, %rdx
	movq	%rsi, %r8
	movq	72(%rsp), %r9                   # 8-byte Reload
	callq	"deerlapse_0_1_0::deerlapse::key::deerlapse_key_seal"
	movl	%eax, %ebp
.Ldeerlapse_0_1_0_BB76_27:                              # %"deerlapse::xaes_key::deerlapse_xaes_seal_to_sized.exit"
	movl	%ebp, %eax
	addq	$3288, %rsp                     # imm = 0xCD8
	popq	%rbx
	popq	%rbp
	popq	%rdi
	popq	%rsi
	popq	%r12
	popq	%r13
	popq	%r14
	popq	%r15
	retq
.Ldeerlapse_0_1_0_BB76_11:                              # %vector.main.loop.iter.check
	cmpq	$32, %rbx
	jae	.Ldeerlapse_0_1_0_BB76_13
# %bb.12:
	xorl	%eax, %eax
	jmp	.Ldeerlapse_0_1_0_BB76_17
.Ldeerlapse_0_1_0_BB76_13:                              # %vector.ph
	movq	%rbx, %rax
	andq	%rcx, %rax
	leaq	(%r12,%rdi), %r8
	addq	$16, %r8
	leaq	(%r11,%r13), %r9
	addq	$16, %r9
	xorl	%r10d, %r10d
	.p2align	4
.Ldeerlapse_0_1_0_BB76_14:                              # %vector.body
                                        # =>This Inner Loop Header: Depth=1
	movups	-16(%r8,%r10), %xmm0
	movups	(%r8,%r10), %xmm1
	movups	%xmm0, -16(%r9,%r10)
	movups	%xmm1, (%r9,%r10)
	addq	$32, %r10
	cmpq	%r10, %rax
	jne	.Ldeerlapse_0_1_0_BB76_14
# %bb.15:                               # %middle.block
	cmpq	%rax, %rbx
	je	.Ldeerlapse_0_1_0_BB76_26
# %bb.16:                               # %vec.epilog.iter.check
	testb	$28, %bl
	je	.Ldeerlapse_0_1_0_BB76_20
.Ldeerlapse_0_1_0_BB76_17:                              # %vec.epilog.ph
	movq	%rax, %r8
	addq	$28, %rcx
	movq	%rcx, %rax
	andq	%rbx, %rax
	.p2align	4
.Ldeerlapse_0_1_0_BB76_18:                              # %vec.epilog.vector.body
                                        # =>This Inner Loop Header: Depth=1
	movl	(%rdx,%r8), %ecx
	movl	%ecx, (%r15,%r8)
	addq	$4, %r8
	cmpq	%r8, %rax
	jne	.Ldeerlapse_0_1_0_BB76_18
# %bb.19:                               # %vec.epilog.middle.block
	cmpq	%rax, %rbx
	je	.Ldeerlapse_0_1_0_BB76_26
	jmp	.Ldeerlapse_0_1_0_BB76_20
	.seh_endproc
                                        # -- End function
	.ifdef	deerlapse_in_rust
	.globl	deerlapse_0_1_0_hkdf_expand           # -- Begin function deerlapse_0_1_0_hkdf_expand
deerlapse_0_1_0_hkdf_expand:                  # @deerlapse_0_1_0_hkdf_expand
.seh_proc deerlapse_0_1_0_hkdf_expand
	.def	deerlapse_0_1_0_hkdf_expand;
	.scl	2;
	.type	32;
	.endef
	.else
	.globl	deerlapse_hkdf_expand           # -- Begin function deerlapse_hkdf_expand
deerlapse_hkdf_expand:                  # @deerlapse_hkdf_expand
.seh_proc deerlapse_hkdf_expand
	.def	deerlapse_hkdf_expand;
	.scl	2;
	.type	32;
	.endef
	.endif
# %bb.0:                                # %start
	pushq	%r14
	.seh_pushreg %r14
	pushq	%rsi
	.seh_pushreg %rsi
	pushq	%rdi
	.seh_pushreg %rdi
	pushq	%rbx
	.seh_pushreg %rbx
	subq	$584, %rsp                      # imm = 0x248
	.seh_stackalloc 584
	.seh_endprologue
	movq	%r9, %rdi
	movq	664(%rsp), %rsi
	movq	656(%rsp), %r9
	xorl	%eax, %eax
	testq	%rcx, %rcx
	sete	%al
	shll	$12, %eax
	addq	%rcx, %rax
	xorl	%r14d, %r14d
	testq	%r8, %r8
	sete	%r14b
	shll	$12, %r14d
	addq	%r8, %r14
	xorl	%ebx, %ebx
	testq	%r9, %r9
	sete	%bl
	shll	$12, %ebx
	addq	%r9, %rbx
	xorps	%xmm0, %xmm0
	movaps	%xmm0, 128(%rsp)
	movaps	%xmm0, 112(%rsp)
	movaps	%xmm0, 96(%rsp)
	movb	$0, 144(%rsp)
	cmpq	$48, %rdx
	je	.Ldeerlapse_0_1_0_BB77_5
# %bb.1:                                # %start
	cmpq	$32, %rdx
	jne	.Ldeerlapse_0_1_0_BB77_2
# %bb.3:                                # %arm.1.i.i
	movaps	%xmm0, 80(%rsp)
	movups	(%rax), %xmm1
	movups	16(%rax), %xmm2
	movaps	%xmm1, 48(%rsp)
	movaps	%xmm2, 64(%rsp)
	leaq	97(%rsp), %rdx
	movups	%xmm1, (%rdx)
	movups	%xmm2, 16(%rdx)
	movups	%xmm0, 32(%rdx)
	leaq	160(%rsp), %rcx
	movl	$32, %r8d
	callq	"deerlapse_0_1_0::key_derivation::hmac::HmacKey::new::<#7cab53feae2e1c66>"
	movq	%r14, 32(%rsp)
	movq	%rdi, 40(%rsp)
	cmpq	$8161, %rsi                     # imm = 0x1FE1
	setae	%dil
	jae	.Ldeerlapse_0_1_0_BB77_7
# %bb.4:                                # %arm.1.i.i.i.i
	leaq	160(%rsp), %rcx
	leaq	32(%rsp), %rdx
	movq	%rbx, %r8
	movq	%rsi, %r9
	callq	"deerlapse_0_1_0::key_derivation::hkdf::Expander::fill_okm::<#7cab53feae2e1c66>"
	jmp	.Ldeerlapse_0_1_0_BB77_7
.Ldeerlapse_0_1_0_BB77_5:                               # %arm.2.i.i
	leaq	97(%rsp), %rdx
	movb	$1, -1(%rdx)
	movups	(%rax), %xmm0
	movups	16(%rax), %xmm1
	movups	32(%rax), %xmm2
	movups	%xmm0, (%rdx)
	movups	%xmm1, 16(%rdx)
	movups	%xmm2, 32(%rdx)
	leaq	160(%rsp), %rcx
	movl	$48, %r8d
	callq	"deerlapse_0_1_0::key_derivation::hmac::HmacKey::new::<#01e4f4eb65b1d8bb>"
	movq	%r14, 48(%rsp)
	movq	%rdi, 56(%rsp)
	cmpq	$12241, %rsi                    # imm = 0x2FD1
	setae	%dil
	jae	.Ldeerlapse_0_1_0_BB77_7
# %bb.6:                                # %arm.1.i.i8.i.i
	leaq	160(%rsp), %rcx
	leaq	48(%rsp), %rdx
	movq	%rbx, %r8
	movq	%rsi, %r9
	callq	"deerlapse_0_1_0::key_derivation::hkdf::Expander::fill_okm::<#01e4f4eb65b1d8bb>"
.Ldeerlapse_0_1_0_BB77_7:                               # %"key_derivation::secret::Secret::expand.exit.i"
	xorb	$1, %dil
	jmp	.Ldeerlapse_0_1_0_BB77_8
.Ldeerlapse_0_1_0_BB77_2:
	xorl	%edi, %edi
.Ldeerlapse_0_1_0_BB77_8:                               # %"deerlapse::hkdf::deerlapse_hkdf_expand.exit"
	movl	%edi, %eax
	addq	$584, %rsp                      # imm = 0x248
	popq	%rbx
	popq	%rdi
	popq	%rsi
	popq	%r14
	retq
	.seh_endproc
                                        # -- End function
	.ifdef	deerlapse_in_rust
	.globl	deerlapse_0_1_0_hkdf_expand_label     # -- Begin function deerlapse_0_1_0_hkdf_expand_label
deerlapse_0_1_0_hkdf_expand_label:            # @deerlapse_0_1_0_hkdf_expand_label
.seh_proc deerlapse_0_1_0_hkdf_expand_label
	.def	deerlapse_0_1_0_hkdf_expand_label;
	.scl	2;
	.type	32;
	.endef
	.else
	.globl	deerlapse_hkdf_expand_label     # -- Begin function deerlapse_hkdf_expand_label
deerlapse_hkdf_expand_label:            # @deerlapse_hkdf_expand_label
.seh_proc deerlapse_hkdf_expand_label
	.def	deerlapse_hkdf_expand_label;
	.scl	2;
	.type	32;
	.endef
	.endif
# %bb.0:                                # %start
	pushq	%r15
	.seh_pushreg %r15
	pushq	%r14
	.seh_pushreg %r14
	pushq	%r13
	.seh_pushreg %r13
	pushq	%r12
	.seh_pushreg %r12
	pushq	%rsi
	.seh_pushreg %rsi
	pushq	%rdi
	.seh_pushreg %rdi
	pushq	%rbx
	.seh_pushreg %rbx
	subq	$576, %rsp                      # imm = 0x240
	.seh_stackalloc 576
	.seh_endprologue
	movq	%r9, %rsi
	movq	696(%rsp), %r12
	movq	680(%rsp), %r15
	movq	688(%rsp), %r9
	movq	672(%rsp), %r10
	xorl	%eax, %eax
	testq	%rcx, %rcx
	sete	%al
	shll	$12, %eax
	addq	%rcx, %rax
	xorl	%edi, %edi
	testq	%r8, %r8
	sete	%dil
	shll	$12, %edi
	addq	%r8, %rdi
	xorl	%ebx, %ebx
	testq	%r10, %r10
	sete	%bl
	shll	$12, %ebx
	addq	%r10, %rbx
	xorl	%r13d, %r13d
	testq	%r9, %r9
	sete	%r13b
	shll	$12, %r13d
	addq	%r9, %r13
	cmpq	$48, %rdx
	je	.Ldeerlapse_0_1_0_BB78_7
# %bb.1:                                # %start
	cmpq	$32, %rdx
	jne	.Ldeerlapse_0_1_0_BB78_2
# %bb.3:                                # %arm.1.i.i
	xorps	%xmm0, %xmm0
	movaps	%xmm0, 144(%rsp)
	movups	(%rax), %xmm1
	movups	16(%rax), %xmm2
	movaps	%xmm1, 112(%rsp)
	movaps	%xmm2, 128(%rsp)
	movb	$0, 63(%rsp)
	movups	%xmm1, 64(%rsp)
	movups	%xmm2, 80(%rsp)
	movups	%xmm0, 96(%rsp)
	leaq	-250(%rsi), %rcx
	movb	$1, %al
	cmpq	$-249, %rcx
	jb	.Ldeerlapse_0_1_0_BB78_12
# %bb.4:                                # %arm.1.i.i
	cmpq	$255, %r15
	ja	.Ldeerlapse_0_1_0_BB78_12
# %bb.5:                                # %arm.1.i.i
	cmpq	$8160, %r12                     # imm = 0x1FE0
	ja	.Ldeerlapse_0_1_0_BB78_12
# %bb.6:                                # %arm.9.i.i.i
	leaq	64(%rsp), %rdx
	leaq	160(%rsp), %r14
	movl	$32, %r8d
	movq	%r14, %rcx
	callq	"deerlapse_0_1_0::key_derivation::hmac::HmacKey::new::<#7cab53feae2e1c66>"
	movq	%r12, 48(%rsp)
	movq	%r13, 40(%rsp)
	movq	%r15, 32(%rsp)
	movq	%r14, %rcx
	movq	%rdi, %rdx
	movq	%rsi, %r8
	movq	%rbx, %r9
	callq	"deerlapse_0_1_0::key_derivation::hkdf::Expander::fill_labeled::<#7cab53feae2e1c66>"
	jmp	.Ldeerlapse_0_1_0_BB78_11
.Ldeerlapse_0_1_0_BB78_7:                               # %arm.2.i.i
	movb	$1, 63(%rsp)
	movups	(%rax), %xmm0
	movups	16(%rax), %xmm1
	movups	32(%rax), %xmm2
	movups	%xmm0, 64(%rsp)
	movups	%xmm1, 80(%rsp)
	movups	%xmm2, 96(%rsp)
	leaq	-250(%rsi), %rcx
	movb	$1, %al
	cmpq	$-249, %rcx
	jb	.Ldeerlapse_0_1_0_BB78_12
# %bb.8:                                # %arm.2.i.i
	cmpq	$255, %r15
	ja	.Ldeerlapse_0_1_0_BB78_12
# %bb.9:                                # %arm.2.i.i
	cmpq	$12240, %r12                    # imm = 0x2FD0
	ja	.Ldeerlapse_0_1_0_BB78_12
# %bb.10:                               # %arm.9.i15.i.i
	leaq	64(%rsp), %rdx
	leaq	160(%rsp), %r14
	movl	$48, %r8d
	movq	%r14, %rcx
	callq	"deerlapse_0_1_0::key_derivation::hmac::HmacKey::new::<#01e4f4eb65b1d8bb>"
	movq	%r12, 48(%rsp)
	movq	%r13, 40(%rsp)
	movq	%r15, 32(%rsp)
	movq	%r14, %rcx
	movq	%rdi, %rdx
	movq	%rsi, %r8
	movq	%rbx, %r9
	callq	"deerlapse_0_1_0::key_derivation::hkdf::Expander::fill_labeled::<#01e4f4eb65b1d8bb>"
.Ldeerlapse_0_1_0_BB78_11:                              # %"key_derivation::secret::Secret::expand_label.exit.i"
	xorl	%eax, %eax
.Ldeerlapse_0_1_0_BB78_12:                              # %"key_derivation::secret::Secret::expand_label.exit.i"
	testb	%al, %al
	sete	%al
	jmp	.Ldeerlapse_0_1_0_BB78_13
.Ldeerlapse_0_1_0_BB78_2:
	xorl	%eax, %eax
.Ldeerlapse_0_1_0_BB78_13:                              # %"deerlapse::hkdf::deerlapse_hkdf_expand_label.exit"
                                        # kill: def $al killed $al killed $eax
	addq	$576, %rsp                      # imm = 0x240
	popq	%rbx
	popq	%rdi
	popq	%rsi
	popq	%r12
	popq	%r13
	popq	%r14
	popq	%r15
	retq
	.seh_endproc
                                        # -- End function
	.ifdef	deerlapse_in_rust
	.globl	deerlapse_0_1_0_quic_header_key_from_secret # -- Begin function deerlapse_0_1_0_quic_header_key_from_secret
deerlapse_0_1_0_quic_header_key_from_secret:  # @deerlapse_0_1_0_quic_header_key_from_secret
.seh_proc deerlapse_0_1_0_quic_header_key_from_secret
	.def	deerlapse_0_1_0_quic_header_key_from_secret;
	.scl	2;
	.type	32;
	.endef
	.else
	.globl	deerlapse_quic_header_key_from_secret # -- Begin function deerlapse_quic_header_key_from_secret
deerlapse_quic_header_key_from_secret:  # @deerlapse_quic_header_key_from_secret
.seh_proc deerlapse_quic_header_key_from_secret
	.def	deerlapse_quic_header_key_from_secret;
	.scl	2;
	.type	32;
	.endef
	.endif
# %bb.0:                                # %start
	pushq	%r15
	.seh_pushreg %r15
	pushq	%r14
	.seh_pushreg %r14
	pushq	%rsi
	.seh_pushreg %rsi
	pushq	%rdi
	.seh_pushreg %rdi
	pushq	%rbx
	.seh_pushreg %rbx
	subq	$864, %rsp                      # imm = 0x360
	.seh_stackalloc 864
	movaps	%xmm6, 848(%rsp)                # 16-byte Spill
	.seh_savexmm %xmm6, 848
	.seh_endprologue
	movq	%rcx, %rsi
	xorl	%ecx, %ecx
	testq	%r8, %r8
	sete	%r10b
	xorl	%edi, %edi
	cmpl	$1, %edx
	je	.Ldeerlapse_0_1_0_BB79_1
# %bb.2:                                # %start
	cmpl	$1798521807, %edx               # imm = 0x6B3343CF
	jne	.Ldeerlapse_0_1_0_BB79_13
# %bb.3:                                # %arm.2.i.i
	movb	$1, %dil
	xorl	%eax, %eax
	jmp	.Ldeerlapse_0_1_0_BB79_4
.Ldeerlapse_0_1_0_BB79_1:
	movb	$1, %al
.Ldeerlapse_0_1_0_BB79_4:                               # %arm.1.i
	movb	%r10b, %cl
	shll	$12, %ecx
	addq	%rcx, %r8
	cmpq	$48, %r9
	je	.Ldeerlapse_0_1_0_BB79_8
# %bb.5:                                # %arm.1.i
	cmpq	$32, %r9
	jne	.Ldeerlapse_0_1_0_BB79_6
# %bb.7:                                # %arm.1.i.i
	xorps	%xmm6, %xmm6
	movaps	%xmm6, 144(%rsp)
	movups	(%r8), %xmm0
	movups	16(%r8), %xmm1
	movaps	%xmm0, 112(%rsp)
	movaps	%xmm1, 128(%rsp)
	leaq	176(%rsp), %rdx
	movb	%dil, -2(%rdx)
	movb	$0, -1(%rdx)
	movups	%xmm0, (%rdx)
	movups	%xmm1, 16(%rdx)
	movups	%xmm6, 32(%rdx)
	movl	%eax, %ecx
	xorb	$1, %cl
	movzbl	%cl, %ecx
	leaq	7(,%rcx,2), %rdi
	leaq	.Ldeerlapse_0_1_0_static.10(%rip), %rcx
	leaq	.Ldeerlapse_0_1_0_static.11(%rip), %rbx
	testb	%al, %al
	cmovneq	%rcx, %rbx
	leaq	224(%rsp), %r14
	movl	$32, %r8d
	movq	%r14, %rcx
	callq	"deerlapse_0_1_0::key_derivation::hmac::HmacKey::new::<#7cab53feae2e1c66>"
	leaq	64(%rsp), %rax
	movaps	%xmm6, 16(%rax)
	movaps	%xmm6, (%rax)
	movl	$16, %ecx
	movq	%rcx, 32(%rax)
	movq	%rcx, 48(%rsp)
	movq	%rax, 40(%rsp)
	movq	$0, 32(%rsp)
	leaq	.Ldeerlapse_0_1_0_static.6(%rip), %r9
	movq	%r14, %rcx
	movq	%rbx, %rdx
	movq	%rdi, %r8
	callq	"deerlapse_0_1_0::key_derivation::hkdf::Expander::fill_labeled::<#7cab53feae2e1c66>"
	jmp	.Ldeerlapse_0_1_0_BB79_9
.Ldeerlapse_0_1_0_BB79_8:                               # %arm.2.i3.i
	leaq	176(%rsp), %rdx
	movb	%dil, -2(%rdx)
	movb	$1, -1(%rdx)
	movups	(%r8), %xmm0
	movups	16(%r8), %xmm1
	movups	32(%r8), %xmm2
	movups	%xmm0, (%rdx)
	movups	%xmm1, 16(%rdx)
	movups	%xmm2, 32(%rdx)
	movl	%eax, %ecx
	xorb	$1, %cl
	movzbl	%cl, %ecx
	leaq	7(,%rcx,2), %rdi
	leaq	.Ldeerlapse_0_1_0_static.10(%rip), %rcx
	leaq	.Ldeerlapse_0_1_0_static.11(%rip), %rbx
	testb	%al, %al
	cmovneq	%rcx, %rbx
	leaq	432(%rsp), %r14
	movl	$48, %r8d
	movq	%r14, %rcx
	callq	"deerlapse_0_1_0::key_derivation::hmac::HmacKey::new::<#01e4f4eb65b1d8bb>"
	xorps	%xmm0, %xmm0
	leaq	112(%rsp), %r15
	movaps	%xmm0, 16(%r15)
	movaps	%xmm0, (%r15)
	movl	$32, %eax
	movq	%rax, 32(%r15)
	movq	%rax, 48(%rsp)
	movq	%r15, 40(%rsp)
	movq	$0, 32(%rsp)
	leaq	.Ldeerlapse_0_1_0_static.6(%rip), %r9
	movq	%r14, %rcx
	movq	%rbx, %rdx
	movq	%rdi, %r8
	callq	"deerlapse_0_1_0::key_derivation::hkdf::Expander::fill_labeled::<#01e4f4eb65b1d8bb>"
	movq	32(%r15), %rax
	movq	%rax, 96(%rsp)
	movaps	(%r15), %xmm0
	movaps	16(%r15), %xmm1
	movaps	%xmm1, 80(%rsp)
	movaps	%xmm0, 64(%rsp)
.Ldeerlapse_0_1_0_BB79_9:                               # %"key_derivation::quic::QuicSecret::header_key.exit.i"
	movb	$1, %dil
	movq	96(%rsp), %rax
	movb	$1, %dl
	cmpq	$32, %rax
	je	.Ldeerlapse_0_1_0_BB79_12
# %bb.10:                               # %"key_derivation::quic::QuicSecret::header_key.exit.i"
	cmpq	$16, %rax
	jne	.Ldeerlapse_0_1_0_BB79_6
# %bb.11:                               # %join.3.fold.split.i.i.i
	xorl	%edx, %edx
.Ldeerlapse_0_1_0_BB79_12:                              # %arm.1.i5.i
	leaq	8(%rsi), %rcx
	leaq	64(%rsp), %r8
                                        # kill: def $dl killed $dl killed $edx
	callq	"deerlapse_0_1_0::aead_ciphers_wide::aes::expand"
	movq	%rax, (%rsi)
	jmp	.Ldeerlapse_0_1_0_BB79_13
.Ldeerlapse_0_1_0_BB79_6:
	xorl	%edi, %edi
.Ldeerlapse_0_1_0_BB79_13:                              # %"deerlapse::header_key::deerlapse_quic_header_key_from_secret.exit"
	movl	%edi, %eax
	movaps	848(%rsp), %xmm6                # 16-byte Reload
	addq	$864, %rsp                      # imm = 0x360
	popq	%rbx
	popq	%rdi
	popq	%rsi
	popq	%r14
	popq	%r15
	retq
	.seh_endproc
                                        # -- End function
	.ifdef	deerlapse_in_rust
	.globl	deerlapse_0_1_0_quic_next_secret      # -- Begin function deerlapse_0_1_0_quic_next_secret
deerlapse_0_1_0_quic_next_secret:             # @deerlapse_0_1_0_quic_next_secret
.seh_proc deerlapse_0_1_0_quic_next_secret
	.def	deerlapse_0_1_0_quic_next_secret;
	.scl	2;
	.type	32;
	.endef
	.else
	.globl	deerlapse_quic_next_secret      # -- Begin function deerlapse_quic_next_secret
deerlapse_quic_next_secret:             # @deerlapse_quic_next_secret
.seh_proc deerlapse_quic_next_secret
	.def	deerlapse_quic_next_secret;
	.scl	2;
	.type	32;
	.endef
	.endif
# %bb.0:                                # %start
	pushq	%rsi
	.seh_pushreg %rsi
	pushq	%rdi
	.seh_pushreg %rdi
	subq	$232, %rsp
	.seh_stackalloc 232
	.seh_endprologue
	movq	%rdx, %rsi
	xorl	%edx, %edx
	testq	%rsi, %rsi
	sete	%r9b
	xorl	%eax, %eax
	cmpl	$1, %ecx
	je	.Ldeerlapse_0_1_0_BB80_1
# %bb.2:                                # %start
	cmpl	$1798521807, %ecx               # imm = 0x6B3343CF
	jne	.Ldeerlapse_0_1_0_BB80_10
# %bb.3:                                # %arm.2.i.i
	movb	$1, %al
	xorl	%ecx, %ecx
	jmp	.Ldeerlapse_0_1_0_BB80_4
.Ldeerlapse_0_1_0_BB80_1:
	movb	$1, %cl
.Ldeerlapse_0_1_0_BB80_4:                               # %arm.1.i
	movb	%r9b, %dl
	shll	$12, %edx
	addq	%rdx, %rsi
	cmpq	$32, %r8
	je	.Ldeerlapse_0_1_0_BB80_8
# %bb.5:                                # %arm.1.i
	cmpq	$48, %r8
	jne	.Ldeerlapse_0_1_0_BB80_6
# %bb.7:                                # %arm.4.i.i
	movups	(%rsi), %xmm0
	movups	16(%rsi), %xmm1
	movups	32(%rsi), %xmm2
	movaps	%xmm2, 64(%rsp)
	movaps	%xmm1, 48(%rsp)
	movaps	%xmm0, 32(%rsp)
	movb	$1, %r8b
	jmp	.Ldeerlapse_0_1_0_BB80_9
.Ldeerlapse_0_1_0_BB80_8:                               # %arm.8.i.i
	xorps	%xmm0, %xmm0
	movaps	%xmm0, 64(%rsp)
	movups	(%rsi), %xmm0
	movups	16(%rsi), %xmm1
	movaps	%xmm0, 32(%rsp)
	movaps	%xmm1, 48(%rsp)
	xorl	%r8d, %r8d
.Ldeerlapse_0_1_0_BB80_9:                               # %arm.5.i
	leaq	183(%rsp), %rdx
	movb	%al, -1(%rdx)
	movb	%r8b, (%rdx)
	movaps	32(%rsp), %xmm0
	movaps	48(%rsp), %xmm1
	movaps	64(%rsp), %xmm2
	movups	%xmm0, 1(%rdx)
	movups	%xmm1, 17(%rdx)
	movups	%xmm2, 33(%rdx)
	movl	%ecx, %eax
	xorb	$1, %al
	movzbl	%al, %eax
	leaq	7(,%rax,2), %r9
	leaq	.Ldeerlapse_0_1_0_static.12(%rip), %rax
	leaq	.Ldeerlapse_0_1_0_static.13(%rip), %r8
	testb	%cl, %cl
	cmovneq	%rax, %r8
	leaq	133(%rsp), %rdi
	movq	%rdi, %rcx
	callq	"deerlapse_0_1_0::key_derivation::secret::Secret::next"
	movups	1(%rdi), %xmm0
	movups	17(%rdi), %xmm1
	movups	33(%rdi), %xmm2
	leaq	80(%rsp), %rdx
	movaps	%xmm0, (%rdx)
	movaps	%xmm1, 16(%rdx)
	xorl	%r8d, %r8d
	cmpb	$0, (%rdi)
	movaps	%xmm2, 32(%rdx)
	setne	%r8b
	shll	$4, %r8d
	orq	$32, %r8
	movq	%rsi, %rcx
	callq	memcpy
	movb	$1, %al
	jmp	.Ldeerlapse_0_1_0_BB80_10
.Ldeerlapse_0_1_0_BB80_6:
	xorl	%eax, %eax
.Ldeerlapse_0_1_0_BB80_10:                              # %"deerlapse::quic_key::deerlapse_quic_next_secret.exit"
                                        # kill: def $al killed $al killed $eax
	addq	$232, %rsp
	popq	%rdi
	popq	%rsi
	retq
	.seh_endproc
                                        # -- End function
	.ifdef	deerlapse_in_rust
	.globl	deerlapse_0_1_0_tls_next_secret       # -- Begin function deerlapse_0_1_0_tls_next_secret
deerlapse_0_1_0_tls_next_secret:              # @deerlapse_0_1_0_tls_next_secret
.seh_proc deerlapse_0_1_0_tls_next_secret
	.def	deerlapse_0_1_0_tls_next_secret;
	.scl	2;
	.type	32;
	.endef
	.else
	.globl	deerlapse_tls_next_secret       # -- Begin function deerlapse_tls_next_secret
deerlapse_tls_next_secret:              # @deerlapse_tls_next_secret
.seh_proc deerlapse_tls_next_secret
	.def	deerlapse_tls_next_secret;
	.scl	2;
	.type	32;
	.endef
	.endif
# %bb.0:                                # %start
	pushq	%rsi
	.seh_pushreg %rsi
	pushq	%rdi
	.seh_pushreg %rdi
	subq	$232, %rsp
	.seh_stackalloc 232
	.seh_endprologue
	xorl	%esi, %esi
	testq	%rcx, %rcx
	sete	%sil
	shll	$12, %esi
	addq	%rcx, %rsi
	cmpq	$32, %rdx
	je	.Ldeerlapse_0_1_0_BB81_4
# %bb.1:                                # %start
	cmpq	$48, %rdx
	jne	.Ldeerlapse_0_1_0_BB81_2
# %bb.3:                                # %arm.4.i.i
	movups	(%rsi), %xmm0
	movups	16(%rsi), %xmm1
	movups	32(%rsi), %xmm2
	movaps	%xmm2, 64(%rsp)
	movaps	%xmm1, 48(%rsp)
	movaps	%xmm0, 32(%rsp)
	movb	$1, %al
	jmp	.Ldeerlapse_0_1_0_BB81_5
.Ldeerlapse_0_1_0_BB81_4:                               # %arm.8.i.i
	xorps	%xmm0, %xmm0
	movaps	%xmm0, 64(%rsp)
	movups	(%rsi), %xmm0
	movups	16(%rsi), %xmm1
	movaps	%xmm0, 32(%rsp)
	movaps	%xmm1, 48(%rsp)
	xorl	%eax, %eax
.Ldeerlapse_0_1_0_BB81_5:                               # %arm.1.i
	leaq	134(%rsp), %rdx
	movb	%al, (%rdx)
	movaps	32(%rsp), %xmm0
	movaps	48(%rsp), %xmm1
	movaps	64(%rsp), %xmm2
	movups	%xmm0, 1(%rdx)
	movups	%xmm1, 17(%rdx)
	movups	%xmm2, 33(%rdx)
	leaq	.Ldeerlapse_0_1_0_static.14(%rip), %r8
	leaq	183(%rsp), %rdi
	movl	$11, %r9d
	movq	%rdi, %rcx
	callq	"deerlapse_0_1_0::key_derivation::secret::Secret::next"
	movups	1(%rdi), %xmm0
	movups	17(%rdi), %xmm1
	movups	33(%rdi), %xmm2
	leaq	80(%rsp), %rdx
	movaps	%xmm0, (%rdx)
	movaps	%xmm1, 16(%rdx)
	xorl	%r8d, %r8d
	cmpb	$0, (%rdi)
	movaps	%xmm2, 32(%rdx)
	setne	%r8b
	shll	$4, %r8d
	orq	$32, %r8
	movq	%rsi, %rcx
	callq	memcpy
	movb	$1, %al
	jmp	.Ldeerlapse_0_1_0_BB81_6
.Ldeerlapse_0_1_0_BB81_2:
	xorl	%eax, %eax
.Ldeerlapse_0_1_0_BB81_6:                               # %"deerlapse::record_key::deerlapse_tls_next_secret.exit"
                                        # kill: def $al killed $al killed $eax
	addq	$232, %rsp
	popq	%rdi
	popq	%rsi
	retq
	.seh_endproc
                                        # -- End function
	.ifdef	deerlapse_in_rust
	.globl	deerlapse_0_1_0_key_init              # -- Begin function deerlapse_0_1_0_key_init
	.p2align	4
deerlapse_0_1_0_key_init:                     # @deerlapse_0_1_0_key_init
.seh_proc deerlapse_0_1_0_key_init
	.def	deerlapse_0_1_0_key_init;
	.scl	2;
	.type	32;
	.endef
	.else
	.globl	deerlapse_key_init              # -- Begin function deerlapse_key_init
	.p2align	4
deerlapse_key_init:                     # @deerlapse_key_init
.seh_proc deerlapse_key_init
	.def	deerlapse_key_init;
	.scl	2;
	.type	32;
	.endef
	.endif
# %bb.0:                                # %start
	pushq	%rsi
	.seh_pushreg %rsi
	subq	$64, %rsp
	.seh_stackalloc 64
	.seh_endprologue
	movq	%rdx, %rax
	xorl	%r9d, %r9d
	testq	%rdx, %rdx
	sete	%r10b
	movb	$1, %sil
	movb	$1, %dl
	cmpq	$32, %r8
	je	.Ldeerlapse_0_1_0_BB82_3
# %bb.1:                                # %start
	cmpq	$16, %r8
	jne	.Ldeerlapse_0_1_0_BB82_4
# %bb.2:                                # %join.3.fold.split.i.i.i
	xorl	%edx, %edx
.Ldeerlapse_0_1_0_BB82_3:                               # %arm.1.i.i
	movb	%r10b, %r9b
	shll	$12, %r9d
	addq	%r9, %rax
	xorps	%xmm0, %xmm0
	movaps	%xmm0, 48(%rsp)
	leaq	48(%rsp), %r8
	movq	%r8, 32(%rsp)
                                        # kill: def $dl killed $dl killed $edx
	movq	%rax, %r8
	xorl	%r9d, %r9d
	callq	"deerlapse_0_1_0::aead_ciphers_wide::aes_gcm::ExpandedKey::expand_with_width"
	movl	%esi, %eax
	addq	$64, %rsp
	popq	%rsi
	retq
.Ldeerlapse_0_1_0_BB82_4:                               # %arm.2.i.i
	xorl	%esi, %esi
	movl	$3192, %r8d                     # imm = 0xC78
	xorl	%edx, %edx
	callq	memset
	movl	%esi, %eax
	addq	$64, %rsp
	popq	%rsi
	retq
	.seh_endproc
                                        # -- End function
	.ifdef	deerlapse_in_rust
	.globl	deerlapse_0_1_0_open                  # -- Begin function deerlapse_0_1_0_open
	.p2align	4
deerlapse_0_1_0_open:                         # @deerlapse_0_1_0_open
.seh_proc deerlapse_0_1_0_open
	.def	deerlapse_0_1_0_open;
	.scl	2;
	.type	32;
	.endef
	.else
	.globl	deerlapse_open                  # -- Begin function deerlapse_open
	.p2align	4
deerlapse_open:                         # @deerlapse_open
.seh_proc deerlapse_open
	.def	deerlapse_open;
	.scl	2;
	.type	32;
	.endef
	.endif
# %bb.0:                                # %start
	pushq	%r15
	.seh_pushreg %r15
	pushq	%r14
	.seh_pushreg %r14
	pushq	%r13
	.seh_pushreg %r13
	pushq	%r12
	.seh_pushreg %r12
	pushq	%rsi
	.seh_pushreg %rsi
	pushq	%rdi
	.seh_pushreg %rdi
	pushq	%rbp
	.seh_pushreg %rbp
	pushq	%rbx
	.seh_pushreg %rbx
	subq	$3416, %rsp
	.seh_stackalloc 3416
	.seh_endprologue
	movq	%r9, %rdi
	movq	%r8, 128(%rsp)                  # 8-byte Spill
	movq	%rdx, %r15
	movq	%rcx, %r14
	movq	3528(%rsp), %rsi
	xorl	%ebp, %ebp
	testq	%rcx, %rcx
	sete	%bl
	xorl	%r13d, %r13d
	testq	%r9, %r9
	sete	94(%rsp)                        # 1-byte Folded Spill
	xorl	%r12d, %r12d
	testq	%rsi, %rsi
	sete	95(%rsp)                        # 1-byte Folded Spill
	leaq	224(%rsp), %rcx
	movl	$3192, %r8d                     # imm = 0xC78
	xorl	%edx, %edx
	callq	memset
	cmpq	$32, %r15
	je	.Ldeerlapse_0_1_0_BB83_3
# %bb.1:                                # %start
	cmpq	$16, %r15
	jne	.Ldeerlapse_0_1_0_BB83_10
# %bb.2:                                # %join.3.fold.split.i.i.i.i
	xorl	%edx, %edx
	jmp	.Ldeerlapse_0_1_0_BB83_4
.Ldeerlapse_0_1_0_BB83_3:
	movb	$1, %dl
.Ldeerlapse_0_1_0_BB83_4:                               # %then.1.i.i
	movb	%bl, %bpl
	shll	$12, %ebp
	addq	%rbp, %r14
	xorps	%xmm0, %xmm0
	movaps	%xmm0, 96(%rsp)
	leaq	96(%rsp), %rax
	movq	%rax, 32(%rsp)
	xorl	%ebp, %ebp
	leaq	224(%rsp), %r15
	movq	%r15, %rcx
                                        # kill: def $dl killed $dl killed $edx
	movq	%r14, %r8
	xorl	%r9d, %r9d
	callq	"deerlapse_0_1_0::aead_ciphers_wide::aes_gcm::ExpandedKey::expand_with_width"
	movl	2144(%rsp), %edx
	leal	-10(%rdx), %eax
	cmpl	$4, %eax
	ja	.Ldeerlapse_0_1_0_BB83_11
# %bb.5:                                # %join.3.i.i.i
	movq	3536(%rsp), %r8
	cmpq	$16, %r8
	jb	.Ldeerlapse_0_1_0_BB83_10
# %bb.6:                                # %arm.1.i.i.i.i
	movq	3544(%rsp), %rbp
	leaq	-16(%r8), %r14
	movq	%r14, %rax
	subq	%rbp, %rax
	jb	.Ldeerlapse_0_1_0_BB83_10
# %bb.7:                                # %arm.8.i.i.i.i
	movq	3520(%rsp), %rcx
	movq	%rcx, %r9
	shrq	$61, %r9
	setne	%r9b
	movabsq	$68719476704, %r10              # imm = 0xFFFFFFFE0
	cmpq	%r10, %rax
	seta	%r10b
	orb	%r9b, %r10b
	jne	.Ldeerlapse_0_1_0_BB83_10
# %bb.8:                                # %then.11.i.i.i.i
	movzbl	94(%rsp), %r9d                  # 1-byte Folded Reload
	movb	%r9b, %r13b
	shll	$12, %r13d
	addq	%r13, %rdi
	movzbl	95(%rsp), %r9d                  # 1-byte Folded Reload
	movb	%r9b, %r12b
	shll	$12, %r12d
	addq	%r12, %rsi
	leaq	2152(%rsp), %r9
	leaq	2392(%rsp), %r10
	leaq	2904(%rsp), %r11
	addq	%rsi, %r8
	addq	$-16, %r8
	movl	2148(%rsp), %ebx
	movq	%r15, 96(%rsp)
	movq	%r9, 104(%rsp)
	movq	%rdx, 112(%rsp)
	movl	%ebx, 120(%rsp)
	movl	$0, 124(%rsp)
	movq	%r10, 152(%rsp)
	movq	%r11, 160(%rsp)
	xorps	%xmm0, %xmm0
	movaps	%xmm0, 192(%rsp)
	movq	128(%rsp), %r9                  # 8-byte Reload
	movq	(%r9), %rdx
	movq	%rdx, 136(%rsp)
	movl	8(%r9), %edx
	movl	%edx, 144(%rsp)
	movups	(%r8), %xmm0
	movaps	%xmm0, 208(%rsp)
	leaq	(%rsi,%rbp), %rdx
	leaq	192(%rsp), %rbx
	movq	%rbx, 72(%rsp)
	movq	%rax, 64(%rsp)
	movq	%rdx, 56(%rsp)
	leaq	208(%rsp), %rax
	movq	%rax, 48(%rsp)
	movq	%rcx, 40(%rsp)
	movq	%rdi, 32(%rsp)
	leaq	175(%rsp), %rcx
	leaq	96(%rsp), %rdx
	leaq	152(%rsp), %r8
	leaq	136(%rsp), %r9
	callq	"deerlapse_0_1_0::aead_ciphers::aes_gcm::opening::authenticate::<#7bfdf0a6b4753edd>"
	cmpb	$0, 175(%rsp)
	je	.Ldeerlapse_0_1_0_BB83_12
.Ldeerlapse_0_1_0_BB83_10:                              # %"deerlapse::key::expand.exit.i.i"
	xorl	%ebp, %ebp
.Ldeerlapse_0_1_0_BB83_11:                              # %"deerlapse::aes_gcm::deerlapse_open.exit"
	movl	%ebp, %eax
	addq	$3416, %rsp                     # imm = 0xD58
	popq	%rbx
	popq	%rbp
	popq	%rdi
	popq	%rsi
	popq	%r12
	popq	%r13
	popq	%r14
	popq	%r15
	retq
.Ldeerlapse_0_1_0_BB83_12:                              # %arm.4.i.i.i
	movq	3552(%rsp), %rdi
	leaq	176(%rsp), %rdx
	movq	%rbx, 40(%rsp)
	movq	%rbp, 32(%rsp)
	leaq	96(%rsp), %rcx
	movq	%rsi, %r8
	movq	%r14, %r9
	callq	"deerlapse_0_1_0::aead_ciphers::aes_gcm::counter_mode::encrypt_within::<#6fa349fe97f872a2>"
	movq	%rax, (%rdi)
	movb	$1, %bpl
	jmp	.Ldeerlapse_0_1_0_BB83_11
	.seh_endproc
                                        # -- End function
	.ifdef	deerlapse_in_rust
	.globl	deerlapse_0_1_0_opener_init           # -- Begin function deerlapse_0_1_0_opener_init
	.p2align	4
deerlapse_0_1_0_opener_init:                  # @deerlapse_0_1_0_opener_init
.seh_proc deerlapse_0_1_0_opener_init
	.def	deerlapse_0_1_0_opener_init;
	.scl	2;
	.type	32;
	.endef
	.else
	.globl	deerlapse_opener_init           # -- Begin function deerlapse_opener_init
	.p2align	4
deerlapse_opener_init:                  # @deerlapse_opener_init
.seh_proc deerlapse_opener_init
	.def	deerlapse_opener_init;
	.scl	2;
	.type	32;
	.endef
	.endif
# %bb.0:                                # %start
	pushq	%r14
	.seh_pushreg %r14
	pushq	%rsi
	.seh_pushreg %rsi
	pushq	%rdi
	.seh_pushreg %rdi
	pushq	%rbx
	.seh_pushreg %rbx
	subq	$88, %rsp
	.seh_stackalloc 88
	movaps	%xmm6, 64(%rsp)                 # 16-byte Spill
	.seh_savexmm %xmm6, 64
	.seh_endprologue
	movq	%rdx, %rax
	xorl	%r10d, %r10d
	testq	%rdx, %rdx
	sete	%r11b
	cmpq	$32, %r8
	je	.Ldeerlapse_0_1_0_BB84_4
# %bb.1:                                # %start
	cmpq	$16, %r8
	jne	.Ldeerlapse_0_1_0_BB84_6
# %bb.2:                                # %join.3.fold.split.i.i.i
	xorl	%edx, %edx
	movq	168(%rsp), %rdi
	movq	160(%rsp), %rbx
	cmpq	%rbx, %rdi
	jae	.Ldeerlapse_0_1_0_BB84_5
.Ldeerlapse_0_1_0_BB84_6:
	xorl	%eax, %eax
	jmp	.Ldeerlapse_0_1_0_BB84_7
.Ldeerlapse_0_1_0_BB84_4:
	movb	$1, %dl
	movq	168(%rsp), %rdi
	movq	160(%rsp), %rbx
	cmpq	%rbx, %rdi
	jb	.Ldeerlapse_0_1_0_BB84_6
.Ldeerlapse_0_1_0_BB84_5:                               # %join.7.i.i
	movb	%r11b, %r10b
	shll	$12, %r10d
	addq	%r10, %rax
	xorps	%xmm6, %xmm6
	movaps	%xmm6, 48(%rsp)
	leaq	48(%rsp), %r8
	movq	%r8, 32(%rsp)
	movq	%rcx, %rsi
                                        # kill: def $dl killed $dl killed $edx
	movq	%rax, %r8
	movq	%r9, %r14
	xorl	%r9d, %r9d
	callq	"deerlapse_0_1_0::aead_ciphers_wide::aes_gcm::ExpandedKey::expand_with_width"
	movq	%rbx, 3192(%rsi)
	movq	%rdi, 3200(%rsi)
	movq	(%r14), %rax
	movl	8(%r14), %ecx
	movl	%ecx, 3216(%rsi)
	movq	%rax, 3208(%rsi)
	movups	%xmm6, 3220(%rsi)
	movups	%xmm6, 3236(%rsi)
	movups	%xmm6, 3252(%rsi)
	movups	%xmm6, 3268(%rsi)
	movups	%xmm6, 3284(%rsi)
	movups	%xmm6, 3300(%rsi)
	movups	%xmm6, 3316(%rsi)
	movups	%xmm6, 3332(%rsi)
	movups	%xmm6, 3348(%rsi)
	movups	%xmm6, 3364(%rsi)
	movups	%xmm6, 3380(%rsi)
	movups	%xmm6, 3396(%rsi)
	movups	%xmm6, 3412(%rsi)
	movups	%xmm6, 3424(%rsi)
	movb	$1, %al
.Ldeerlapse_0_1_0_BB84_7:                               # %"deerlapse::opener::deerlapse_opener_init.exit"
                                        # kill: def $al killed $al killed $eax
	movaps	64(%rsp), %xmm6                 # 16-byte Reload
	addq	$88, %rsp
	popq	%rbx
	popq	%rdi
	popq	%rsi
	popq	%r14
	retq
	.seh_endproc
                                        # -- End function
	.ifdef	deerlapse_in_rust
	.globl	deerlapse_0_1_0_quic_key_from_secret  # -- Begin function deerlapse_0_1_0_quic_key_from_secret
deerlapse_0_1_0_quic_key_from_secret:         # @deerlapse_0_1_0_quic_key_from_secret
.seh_proc deerlapse_0_1_0_quic_key_from_secret
	.def	deerlapse_0_1_0_quic_key_from_secret;
	.scl	2;
	.type	32;
	.endef
	.else
	.globl	deerlapse_quic_key_from_secret  # -- Begin function deerlapse_quic_key_from_secret
deerlapse_quic_key_from_secret:         # @deerlapse_quic_key_from_secret
.seh_proc deerlapse_quic_key_from_secret
	.def	deerlapse_quic_key_from_secret;
	.scl	2;
	.type	32;
	.endef
	.endif
# %bb.0:                                # %start
	pushq	%r15
	.seh_pushreg %r15
	pushq	%r14
	.seh_pushreg %r14
	pushq	%r13
	.seh_pushreg %r13
	pushq	%r12
	.seh_pushreg %r12
	pushq	%rsi
	.seh_pushreg %rsi
	pushq	%rdi
	.seh_pushreg %rdi
	pushq	%rbp
	.seh_pushreg %rbp
	pushq	%rbx
	.seh_pushreg %rbx
	subq	$776, %rsp                      # imm = 0x308
	.seh_stackalloc 776
	.seh_endprologue
	movq	%rcx, %rsi
	xorl	%ecx, %ecx
	testq	%r8, %r8
	sete	%r10b
	xorps	%xmm0, %xmm0
	movaps	%xmm0, 128(%rsp)
	movaps	%xmm0, 144(%rsp)
	movaps	%xmm0, 160(%rsp)
	movq	$0, 176(%rsp)
	xorl	%edi, %edi
	cmpl	$1, %edx
	je	.Ldeerlapse_0_1_0_BB85_1
# %bb.2:                                # %start
	cmpl	$1798521807, %edx               # imm = 0x6B3343CF
	jne	.Ldeerlapse_0_1_0_BB85_16
# %bb.3:                                # %arm.2.i.i.i
	movb	$1, %dil
	xorl	%eax, %eax
	jmp	.Ldeerlapse_0_1_0_BB85_4
.Ldeerlapse_0_1_0_BB85_1:
	movb	$1, %al
.Ldeerlapse_0_1_0_BB85_4:                               # %arm.1.i.i
	movb	%r10b, %cl
	shll	$12, %ecx
	addq	%rcx, %r8
	cmpq	$32, %r9
	je	.Ldeerlapse_0_1_0_BB85_8
# %bb.5:                                # %arm.1.i.i
	cmpq	$48, %r9
	jne	.Ldeerlapse_0_1_0_BB85_6
# %bb.7:                                # %arm.4.i.i.i
	movups	(%r8), %xmm0
	movups	16(%r8), %xmm1
	movups	32(%r8), %xmm2
	movaps	%xmm2, 224(%rsp)
	movaps	%xmm1, 208(%rsp)
	movaps	%xmm0, 192(%rsp)
	movb	$1, %r8b
	xorl	%ecx, %ecx
	jmp	.Ldeerlapse_0_1_0_BB85_9
.Ldeerlapse_0_1_0_BB85_8:                               # %arm.8.i.i.i
	movaps	%xmm0, 224(%rsp)
	movups	(%r8), %xmm0
	movups	16(%r8), %xmm1
	movaps	%xmm0, 192(%rsp)
	movaps	%xmm1, 208(%rsp)
	movb	$1, %cl
	xorl	%r8d, %r8d
.Ldeerlapse_0_1_0_BB85_9:                               # %arm.5.i.i
	leaq	304(%rsp), %rdx
	movb	%dil, -2(%rdx)
	movb	%r8b, -1(%rdx)
	movaps	192(%rsp), %xmm0
	movaps	208(%rsp), %xmm1
	movaps	224(%rsp), %xmm2
	movups	%xmm0, (%rdx)
	movups	%xmm1, 16(%rdx)
	movups	%xmm2, 32(%rdx)
	movl	%eax, %r8d
	xorb	$1, %r8b
	movzbl	%r8b, %edi
	addl	%edi, %edi
	leaq	8(%rdi), %r14
	leaq	.Ldeerlapse_0_1_0_static.15(%rip), %r8
	leaq	.Ldeerlapse_0_1_0_static.16(%rip), %r15
	addq	$7, %rdi
	testb	%al, %al
	cmovneq	%r8, %r15
	leaq	.Ldeerlapse_0_1_0_static.17(%rip), %rax
	leaq	.Ldeerlapse_0_1_0_static.18(%rip), %rbx
	cmovneq	%rax, %rbx
	testb	%cl, %cl
	je	.Ldeerlapse_0_1_0_BB85_11
# %bb.10:                               # %arm.1.i.i.i
	leaq	352(%rsp), %rcx
	movl	$32, %r8d
	callq	"deerlapse_0_1_0::key_derivation::hmac::HmacKey::new::<#7cab53feae2e1c66>"
	xorps	%xmm0, %xmm0
	leaq	256(%rsp), %rbp
	movaps	%xmm0, 16(%rbp)
	movaps	%xmm0, (%rbp)
	movl	$16, %eax
	movq	%rax, 32(%rbp)
	movq	%rax, 48(%rsp)
	movq	%rbp, 40(%rsp)
	xorl	%r12d, %r12d
	movq	%r12, 32(%rsp)
	leaq	.Ldeerlapse_0_1_0_static.6(%rip), %r13
	leaq	352(%rsp), %rcx
	movq	%r15, %rdx
	movq	%r14, %r8
	movq	%r13, %r9
	callq	"deerlapse_0_1_0::key_derivation::hkdf::Expander::fill_labeled::<#7cab53feae2e1c66>"
	leaq	240(%rsp), %r14
	movq	%r12, (%r14)
	movl	$0, 8(%r14)
	movq	%r14, 40(%rsp)
	movq	%r12, 32(%rsp)
	movq	$12, 48(%rsp)
	leaq	352(%rsp), %rcx
	movq	%rbx, %rdx
	movq	%rdi, %r8
	movq	%r13, %r9
	callq	"deerlapse_0_1_0::key_derivation::hkdf::Expander::fill_labeled::<#7cab53feae2e1c66>"
	jmp	.Ldeerlapse_0_1_0_BB85_12
.Ldeerlapse_0_1_0_BB85_11:                              # %arm.2.i3.i.i
	leaq	352(%rsp), %rcx
	movl	$48, %r8d
	callq	"deerlapse_0_1_0::key_derivation::hmac::HmacKey::new::<#01e4f4eb65b1d8bb>"
	xorps	%xmm0, %xmm0
	leaq	256(%rsp), %rbp
	movaps	%xmm0, 16(%rbp)
	movaps	%xmm0, (%rbp)
	movl	$32, %eax
	movq	%rax, 32(%rbp)
	movq	%rax, 48(%rsp)
	movq	%rbp, 40(%rsp)
	xorl	%r12d, %r12d
	movq	%r12, 32(%rsp)
	leaq	.Ldeerlapse_0_1_0_static.6(%rip), %r13
	leaq	352(%rsp), %rcx
	movq	%r15, %rdx
	movq	%r14, %r8
	movq	%r13, %r9
	callq	"deerlapse_0_1_0::key_derivation::hkdf::Expander::fill_labeled::<#01e4f4eb65b1d8bb>"
	leaq	240(%rsp), %r14
	movq	%r12, (%r14)
	movl	$0, 8(%r14)
	movq	%r14, 40(%rsp)
	movq	%r12, 32(%rsp)
	movq	$12, 48(%rsp)
	leaq	352(%rsp), %rcx
	movq	%rbx, %rdx
	movq	%rdi, %r8
	movq	%r13, %r9
	callq	"deerlapse_0_1_0::key_derivation::hkdf::Expander::fill_labeled::<#01e4f4eb65b1d8bb>"
.Ldeerlapse_0_1_0_BB85_12:                              # %"key_derivation::quic::QuicSecret::packet_keys.exit.i.i"
	movq	32(%rbp), %rax
	movq	%rax, 96(%rsp)
	movaps	(%rbp), %xmm0
	movaps	16(%rbp), %xmm1
	movaps	%xmm1, 80(%rsp)
	movaps	%xmm0, 64(%rsp)
	movl	8(%r14), %eax
	leaq	104(%rsp), %rbx
	movl	%eax, 8(%rbx)
	movq	(%r14), %rax
	movq	%rax, (%rbx)
	movaps	64(%rsp), %xmm0
	movaps	80(%rsp), %xmm1
	movq	96(%rsp), %rax
	movq	%rax, 160(%rsp)
	movq	104(%rsp), %rax
	movq	%rax, 168(%rsp)
	movaps	%xmm0, 128(%rsp)
	movaps	%xmm1, 144(%rsp)
	movl	112(%rsp), %eax
	movl	%eax, 176(%rsp)
	movl	$0, 180(%rsp)
	movq	160(%rsp), %rax
	movb	$1, %dil
	movb	$1, %dl
	cmpq	$32, %rax
	je	.Ldeerlapse_0_1_0_BB85_15
# %bb.13:                               # %"key_derivation::quic::QuicSecret::packet_keys.exit.i.i"
	cmpq	$16, %rax
	jne	.Ldeerlapse_0_1_0_BB85_6
# %bb.14:                               # %join.3.fold.split.i.i.i.i
	xorl	%edx, %edx
.Ldeerlapse_0_1_0_BB85_15:                              # %arm.1.i6.i.i
	xorps	%xmm0, %xmm0
	leaq	352(%rsp), %rax
	movaps	%xmm0, (%rax)
	movq	%rax, 32(%rsp)
	leaq	128(%rsp), %r8
	movq	%rsi, %rcx
                                        # kill: def $dl killed $dl killed $edx
	xorl	%r9d, %r9d
	callq	"deerlapse_0_1_0::aead_ciphers_wide::aes_gcm::ExpandedKey::expand_with_width"
	movl	8(%rbx), %eax
	movl	%eax, 3200(%rsi)
	movq	(%rbx), %rax
	movq	%rax, 3192(%rsi)
	movl	$0, 3204(%rsi)
	jmp	.Ldeerlapse_0_1_0_BB85_16
.Ldeerlapse_0_1_0_BB85_6:
	xorl	%edi, %edi
.Ldeerlapse_0_1_0_BB85_16:                              # %"deerlapse::quic_key::deerlapse_quic_key_from_secret.exit"
	movl	%edi, %eax
	addq	$776, %rsp                      # imm = 0x308
	popq	%rbx
	popq	%rbp
	popq	%rdi
	popq	%rsi
	popq	%r12
	popq	%r13
	popq	%r14
	popq	%r15
	retq
	.seh_endproc
                                        # -- End function
	.ifdef	deerlapse_in_rust
	.globl	deerlapse_0_1_0_quic_key_init         # -- Begin function deerlapse_0_1_0_quic_key_init
	.p2align	4
deerlapse_0_1_0_quic_key_init:                # @deerlapse_0_1_0_quic_key_init
.seh_proc deerlapse_0_1_0_quic_key_init
	.def	deerlapse_0_1_0_quic_key_init;
	.scl	2;
	.type	32;
	.endef
	.else
	.globl	deerlapse_quic_key_init         # -- Begin function deerlapse_quic_key_init
	.p2align	4
deerlapse_quic_key_init:                # @deerlapse_quic_key_init
.seh_proc deerlapse_quic_key_init
	.def	deerlapse_quic_key_init;
	.scl	2;
	.type	32;
	.endef
	.endif
# %bb.0:                                # %start
	pushq	%rsi
	.seh_pushreg %rsi
	pushq	%rdi
	.seh_pushreg %rdi
	pushq	%rbx
	.seh_pushreg %rbx
	subq	$64, %rsp
	.seh_stackalloc 64
	.seh_endprologue
	movq	%r9, %rdi
	movq	%rdx, %rax
	xorl	%r9d, %r9d
	testq	%rdx, %rdx
	sete	%r10b
	movb	$1, %sil
	movb	$1, %dl
	cmpq	$32, %r8
	je	.Ldeerlapse_0_1_0_BB86_4
# %bb.1:                                # %start
	cmpq	$16, %r8
	jne	.Ldeerlapse_0_1_0_BB86_2
# %bb.3:                                # %join.3.fold.split.i.i.i
	xorl	%edx, %edx
.Ldeerlapse_0_1_0_BB86_4:                               # %arm.1.i.i
	movb	%r10b, %r9b
	shll	$12, %r9d
	addq	%r9, %rax
	xorps	%xmm0, %xmm0
	movaps	%xmm0, 48(%rsp)
	leaq	48(%rsp), %r8
	movq	%r8, 32(%rsp)
	movq	%rcx, %rbx
                                        # kill: def $dl killed $dl killed $edx
	movq	%rax, %r8
	xorl	%r9d, %r9d
	callq	"deerlapse_0_1_0::aead_ciphers_wide::aes_gcm::ExpandedKey::expand_with_width"
	movq	(%rdi), %rax
	movl	8(%rdi), %ecx
	movl	%ecx, 3200(%rbx)
	movq	%rax, 3192(%rbx)
	movl	$0, 3204(%rbx)
	jmp	.Ldeerlapse_0_1_0_BB86_5
.Ldeerlapse_0_1_0_BB86_2:
	xorl	%esi, %esi
.Ldeerlapse_0_1_0_BB86_5:                               # %"deerlapse::quic_key::deerlapse_quic_key_init.exit"
	movl	%esi, %eax
	addq	$64, %rsp
	popq	%rbx
	popq	%rdi
	popq	%rsi
	retq
	.seh_endproc
                                        # -- End function
	.ifdef	deerlapse_in_rust
	.globl	deerlapse_0_1_0_record_key_from_secret # -- Begin function deerlapse_0_1_0_record_key_from_secret
deerlapse_0_1_0_record_key_from_secret:       # @deerlapse_0_1_0_record_key_from_secret
.seh_proc deerlapse_0_1_0_record_key_from_secret
	.def	deerlapse_0_1_0_record_key_from_secret;
	.scl	2;
	.type	32;
	.endef
	.else
	.globl	deerlapse_record_key_from_secret # -- Begin function deerlapse_record_key_from_secret
deerlapse_record_key_from_secret:       # @deerlapse_record_key_from_secret
.seh_proc deerlapse_record_key_from_secret
	.def	deerlapse_record_key_from_secret;
	.scl	2;
	.type	32;
	.endef
	.endif
# %bb.0:                                # %start
	pushq	%r15
	.seh_pushreg %r15
	pushq	%r14
	.seh_pushreg %r14
	pushq	%r12
	.seh_pushreg %r12
	pushq	%rsi
	.seh_pushreg %rsi
	pushq	%rdi
	.seh_pushreg %rdi
	pushq	%rbx
	.seh_pushreg %rbx
	subq	$744, %rsp                      # imm = 0x2E8
	.seh_stackalloc 744
	movaps	%xmm6, 720(%rsp)                # 16-byte Spill
	.seh_savexmm %xmm6, 720
	.seh_endprologue
	movq	%rcx, %rsi
	xorl	%eax, %eax
	testq	%rdx, %rdx
	sete	%al
	shll	$12, %eax
	addq	%rdx, %rax
	xorps	%xmm6, %xmm6
	movaps	%xmm6, 128(%rsp)
	movaps	%xmm6, 144(%rsp)
	movaps	%xmm6, 160(%rsp)
	movb	$0, 176(%rsp)
	cmpq	$48, %r8
	je	.Ldeerlapse_0_1_0_BB87_4
# %bb.1:                                # %start
	cmpq	$32, %r8
	jne	.Ldeerlapse_0_1_0_BB87_2
# %bb.3:                                # %arm.1.i.i.i
	movaps	%xmm6, 224(%rsp)
	movups	(%rax), %xmm0
	movups	16(%rax), %xmm1
	movaps	%xmm0, 192(%rsp)
	movaps	%xmm1, 208(%rsp)
	leaq	129(%rsp), %rdx
	movups	%xmm0, (%rdx)
	movups	%xmm1, 16(%rdx)
	movups	%xmm6, 32(%rdx)
	leaq	304(%rsp), %rdi
	movl	$32, %r8d
	movq	%rdi, %rcx
	callq	"deerlapse_0_1_0::key_derivation::hmac::HmacKey::new::<#7cab53feae2e1c66>"
	leaq	256(%rsp), %r14
	movaps	%xmm6, 16(%r14)
	movaps	%xmm6, (%r14)
	movl	$16, %eax
	movq	%rax, 32(%r14)
	movq	%rax, 48(%rsp)
	movq	%r14, 40(%rsp)
	xorl	%r15d, %r15d
	movq	%r15, 32(%rsp)
	leaq	.Ldeerlapse_0_1_0_static.19(%rip), %rdx
	leaq	.Ldeerlapse_0_1_0_static.6(%rip), %rbx
	movl	$3, %r8d
	movq	%rdi, %rcx
	movq	%rbx, %r9
	callq	"deerlapse_0_1_0::key_derivation::hkdf::Expander::fill_labeled::<#7cab53feae2e1c66>"
	leaq	240(%rsp), %r12
	movq	%r15, (%r12)
	movl	$0, 8(%r12)
	movq	%r12, 40(%rsp)
	movq	%r15, 32(%rsp)
	movq	$12, 48(%rsp)
	leaq	.Ldeerlapse_0_1_0_static.20(%rip), %rdx
	movl	$2, %r8d
	movq	%rdi, %rcx
	movq	%rbx, %r9
	callq	"deerlapse_0_1_0::key_derivation::hkdf::Expander::fill_labeled::<#7cab53feae2e1c66>"
	jmp	.Ldeerlapse_0_1_0_BB87_5
.Ldeerlapse_0_1_0_BB87_4:                               # %arm.2.i.i.i
	leaq	129(%rsp), %rdx
	movb	$1, -1(%rdx)
	movups	(%rax), %xmm0
	movups	16(%rax), %xmm1
	movups	32(%rax), %xmm2
	movups	%xmm0, (%rdx)
	movups	%xmm1, 16(%rdx)
	movups	%xmm2, 32(%rdx)
	leaq	304(%rsp), %rdi
	movl	$48, %r8d
	movq	%rdi, %rcx
	callq	"deerlapse_0_1_0::key_derivation::hmac::HmacKey::new::<#01e4f4eb65b1d8bb>"
	leaq	192(%rsp), %r14
	movaps	%xmm6, 16(%r14)
	movaps	%xmm6, (%r14)
	movl	$32, %eax
	movq	%rax, 32(%r14)
	movq	%rax, 48(%rsp)
	movq	%r14, 40(%rsp)
	xorl	%r15d, %r15d
	movq	%r15, 32(%rsp)
	leaq	.Ldeerlapse_0_1_0_static.19(%rip), %rdx
	leaq	.Ldeerlapse_0_1_0_static.6(%rip), %rbx
	movl	$3, %r8d
	movq	%rdi, %rcx
	movq	%rbx, %r9
	callq	"deerlapse_0_1_0::key_derivation::hkdf::Expander::fill_labeled::<#01e4f4eb65b1d8bb>"
	leaq	256(%rsp), %r12
	movq	%r15, (%r12)
	movl	$0, 8(%r12)
	movq	%r12, 40(%rsp)
	movq	%r15, 32(%rsp)
	movq	$12, 48(%rsp)
	leaq	.Ldeerlapse_0_1_0_static.20(%rip), %rdx
	movl	$2, %r8d
	movq	%rdi, %rcx
	movq	%rbx, %r9
	callq	"deerlapse_0_1_0::key_derivation::hkdf::Expander::fill_labeled::<#01e4f4eb65b1d8bb>"
.Ldeerlapse_0_1_0_BB87_5:                               # %"key_derivation::secret::Secret::record_keys.exit.i.i"
	movq	32(%r14), %rax
	movq	%rax, 96(%rsp)
	movaps	(%r14), %xmm0
	movaps	16(%r14), %xmm1
	movaps	%xmm1, 80(%rsp)
	movaps	%xmm0, 64(%rsp)
	movq	(%r12), %rax
	movq	%rax, 104(%rsp)
	movl	8(%r12), %eax
	movl	%eax, 112(%rsp)
	movaps	64(%rsp), %xmm0
	movaps	80(%rsp), %xmm1
	movq	96(%rsp), %rax
	movq	%rax, 336(%rsp)
	movq	104(%rsp), %rax
	movq	%rax, 344(%rsp)
	movl	112(%rsp), %eax
	movl	%eax, 352(%rsp)
	movaps	%xmm1, 320(%rsp)
	movaps	%xmm0, 304(%rsp)
	movl	$0, 356(%rsp)
	movq	336(%rsp), %rax
	movb	$1, %dil
	movb	$1, %dl
	cmpq	$32, %rax
	je	.Ldeerlapse_0_1_0_BB87_8
# %bb.6:                                # %"key_derivation::secret::Secret::record_keys.exit.i.i"
	cmpq	$16, %rax
	jne	.Ldeerlapse_0_1_0_BB87_2
# %bb.7:                                # %join.3.fold.split.i.i.i.i
	xorl	%edx, %edx
.Ldeerlapse_0_1_0_BB87_8:                               # %arm.1.i3.i.i
	xorps	%xmm0, %xmm0
	leaq	256(%rsp), %rax
	movaps	%xmm0, (%rax)
	movq	%rax, 32(%rsp)
	leaq	304(%rsp), %r8
	movq	%rsi, %rcx
                                        # kill: def $dl killed $dl killed $edx
	xorl	%r9d, %r9d
	callq	"deerlapse_0_1_0::aead_ciphers_wide::aes_gcm::ExpandedKey::expand_with_width"
	movl	112(%rsp), %eax
	movl	%eax, 3200(%rsi)
	movq	104(%rsp), %rax
	movq	%rax, 3192(%rsi)
	movl	$0, 3204(%rsi)
	jmp	.Ldeerlapse_0_1_0_BB87_9
.Ldeerlapse_0_1_0_BB87_2:
	xorl	%edi, %edi
.Ldeerlapse_0_1_0_BB87_9:                               # %"deerlapse::record_key::deerlapse_record_key_from_secret.exit"
	movl	%edi, %eax
	movaps	720(%rsp), %xmm6                # 16-byte Reload
	addq	$744, %rsp                      # imm = 0x2E8
	popq	%rbx
	popq	%rdi
	popq	%rsi
	popq	%r12
	popq	%r14
	popq	%r15
	retq
	.seh_endproc
                                        # -- End function
	.ifdef	deerlapse_in_rust
	.globl	deerlapse_0_1_0_record_key_init       # -- Begin function deerlapse_0_1_0_record_key_init
	.p2align	4
deerlapse_0_1_0_record_key_init:              # @deerlapse_0_1_0_record_key_init
.seh_proc deerlapse_0_1_0_record_key_init
	.def	deerlapse_0_1_0_record_key_init;
	.scl	2;
	.type	32;
	.endef
	.else
	.globl	deerlapse_record_key_init       # -- Begin function deerlapse_record_key_init
	.p2align	4
deerlapse_record_key_init:              # @deerlapse_record_key_init
.seh_proc deerlapse_record_key_init
	.def	deerlapse_record_key_init;
	.scl	2;
	.type	32;
	.endef
	.endif
# %bb.0:                                # %start
	pushq	%rsi
	.seh_pushreg %rsi
	pushq	%rdi
	.seh_pushreg %rdi
	pushq	%rbx
	.seh_pushreg %rbx
	subq	$64, %rsp
	.seh_stackalloc 64
	.seh_endprologue
	movq	%r9, %rdi
	movq	%rdx, %rax
	xorl	%r9d, %r9d
	testq	%rdx, %rdx
	sete	%r10b
	movb	$1, %sil
	movb	$1, %dl
	cmpq	$32, %r8
	je	.Ldeerlapse_0_1_0_BB88_4
# %bb.1:                                # %start
	cmpq	$16, %r8
	jne	.Ldeerlapse_0_1_0_BB88_2
# %bb.3:                                # %join.3.fold.split.i.i.i
	xorl	%edx, %edx
.Ldeerlapse_0_1_0_BB88_4:                               # %arm.1.i.i
	movb	%r10b, %r9b
	shll	$12, %r9d
	addq	%r9, %rax
	xorps	%xmm0, %xmm0
	movaps	%xmm0, 48(%rsp)
	leaq	48(%rsp), %r8
	movq	%r8, 32(%rsp)
	movq	%rcx, %rbx
                                        # kill: def $dl killed $dl killed $edx
	movq	%rax, %r8
	xorl	%r9d, %r9d
	callq	"deerlapse_0_1_0::aead_ciphers_wide::aes_gcm::ExpandedKey::expand_with_width"
	movq	(%rdi), %rax
	movl	8(%rdi), %ecx
	movl	%ecx, 3200(%rbx)
	movq	%rax, 3192(%rbx)
	movl	$0, 3204(%rbx)
	jmp	.Ldeerlapse_0_1_0_BB88_5
.Ldeerlapse_0_1_0_BB88_2:
	xorl	%esi, %esi
.Ldeerlapse_0_1_0_BB88_5:                               # %"deerlapse::record_key::deerlapse_record_key_init.exit"
	movl	%esi, %eax
	addq	$64, %rsp
	popq	%rbx
	popq	%rdi
	popq	%rsi
	retq
	.seh_endproc
                                        # -- End function
	.ifdef	deerlapse_in_rust
	.globl	deerlapse_0_1_0_seal                  # -- Begin function deerlapse_0_1_0_seal
	.p2align	4
deerlapse_0_1_0_seal:                         # @deerlapse_0_1_0_seal
.seh_proc deerlapse_0_1_0_seal
	.def	deerlapse_0_1_0_seal;
	.scl	2;
	.type	32;
	.endef
	.else
	.globl	deerlapse_seal                  # -- Begin function deerlapse_seal
	.p2align	4
deerlapse_seal:                         # @deerlapse_seal
.seh_proc deerlapse_seal
	.def	deerlapse_seal;
	.scl	2;
	.type	32;
	.endef
	.endif
# %bb.0:                                # %start
	pushq	%r15
	.seh_pushreg %r15
	pushq	%r14
	.seh_pushreg %r14
	pushq	%r13
	.seh_pushreg %r13
	pushq	%r12
	.seh_pushreg %r12
	pushq	%rsi
	.seh_pushreg %rsi
	pushq	%rdi
	.seh_pushreg %rdi
	pushq	%rbp
	.seh_pushreg %rbp
	pushq	%rbx
	.seh_pushreg %rbx
	subq	$3288, %rsp
	.seh_stackalloc 3288
	.seh_endprologue
	movq	%r9, %rsi
	movq	%r8, 72(%rsp)                   # 8-byte Spill
	movq	%rdx, %r14
	movq	%rcx, %rbx
	movq	3400(%rsp), %r12
	xorl	%edi, %edi
	testq	%rcx, %rcx
	sete	%bpl
	xorl	%r13d, %r13d
	testq	%r9, %r9
	sete	70(%rsp)                        # 1-byte Folded Spill
	xorl	%r15d, %r15d
	testq	%r12, %r12
	sete	71(%rsp)                        # 1-byte Folded Spill
	leaq	96(%rsp), %rcx
	movl	$3192, %r8d                     # imm = 0xC78
	xorl	%edx, %edx
	callq	memset
	cmpq	$32, %r14
	je	.Ldeerlapse_0_1_0_BB89_1
# %bb.2:                                # %start
	cmpq	$16, %r14
	jne	.Ldeerlapse_0_1_0_BB89_6
# %bb.3:                                # %join.3.fold.split.i.i.i.i
	xorl	%edx, %edx
	jmp	.Ldeerlapse_0_1_0_BB89_4
.Ldeerlapse_0_1_0_BB89_1:
	movb	$1, %dl
.Ldeerlapse_0_1_0_BB89_4:                               # %then.1.i.i
	movq	3408(%rsp), %r14
	movb	%bpl, %dil
	shll	$12, %edi
	addq	%rdi, %rbx
	movzbl	70(%rsp), %eax                  # 1-byte Folded Reload
	movb	%al, %r13b
	shll	$12, %r13d
	addq	%r13, %rsi
	movzbl	71(%rsp), %eax                  # 1-byte Folded Reload
	movb	%al, %r15b
	shll	$12, %r15d
	addq	%r15, %r12
	xorps	%xmm0, %xmm0
	movaps	%xmm0, 80(%rsp)
	leaq	80(%rsp), %rax
	movq	%rax, 32(%rsp)
	leaq	96(%rsp), %r15
	movq	%r15, %rcx
                                        # kill: def $dl killed $dl killed $edx
	movq	%rbx, %r8
	xorl	%r9d, %r9d
	callq	"deerlapse_0_1_0::aead_ciphers_wide::aes_gcm::ExpandedKey::expand_with_width"
	movq	3416(%rsp), %rax
	movq	%rax, 48(%rsp)
	movq	%r14, 40(%rsp)
	movq	%r12, 32(%rsp)
	movq	%r15, %rcx
	movq	72(%rsp), %rdx                  # 8-byte Reload
	movq	%rsi, %r8
	movq	3392(%rsp), %r9
	callq	"deerlapse_0_1_0::deerlapse::key::deerlapse_key_seal"
                                        # kill: def $al killed $al def $eax
	jmp	.Ldeerlapse_0_1_0_BB89_5
.Ldeerlapse_0_1_0_BB89_6:                               # %"deerlapse::key::expand.exit.i.i"
	xorl	%eax, %eax
.Ldeerlapse_0_1_0_BB89_5:                               # %"deerlapse::aes_gcm::deerlapse_seal.exit"
                                        # kill: def $al killed $al killed $eax
	addq	$3288, %rsp                     # imm = 0xCD8
	popq	%rbx
	popq	%rbp
	popq	%rdi
	popq	%rsi
	popq	%r12
	popq	%r13
	popq	%r14
	popq	%r15
	retq
	.seh_endproc
                                        # -- End function
	.ifdef	deerlapse_in_rust
	.globl	deerlapse_0_1_0_sealer_init           # -- Begin function deerlapse_0_1_0_sealer_init
	.p2align	4
deerlapse_0_1_0_sealer_init:                  # @deerlapse_0_1_0_sealer_init
.seh_proc deerlapse_0_1_0_sealer_init
	.def	deerlapse_0_1_0_sealer_init;
	.scl	2;
	.type	32;
	.endef
	.else
	.globl	deerlapse_sealer_init           # -- Begin function deerlapse_sealer_init
	.p2align	4
deerlapse_sealer_init:                  # @deerlapse_sealer_init
.seh_proc deerlapse_sealer_init
	.def	deerlapse_sealer_init;
	.scl	2;
	.type	32;
	.endef
	.endif
# %bb.0:                                # %start
	pushq	%r14
	.seh_pushreg %r14
	pushq	%rsi
	.seh_pushreg %rsi
	pushq	%rdi
	.seh_pushreg %rdi
	pushq	%rbx
	.seh_pushreg %rbx
	subq	$88, %rsp
	.seh_stackalloc 88
	movaps	%xmm6, 64(%rsp)                 # 16-byte Spill
	.seh_savexmm %xmm6, 64
	.seh_endprologue
	movq	%rdx, %rax
	xorl	%r10d, %r10d
	testq	%rdx, %rdx
	sete	%r11b
	cmpq	$32, %r8
	je	.Ldeerlapse_0_1_0_BB90_4
# %bb.1:                                # %start
	cmpq	$16, %r8
	jne	.Ldeerlapse_0_1_0_BB90_6
# %bb.2:                                # %join.3.fold.split.i.i.i
	xorl	%edx, %edx
	movq	168(%rsp), %rdi
	movq	160(%rsp), %rbx
	cmpq	%rbx, %rdi
	jae	.Ldeerlapse_0_1_0_BB90_5
.Ldeerlapse_0_1_0_BB90_6:
	xorl	%eax, %eax
	jmp	.Ldeerlapse_0_1_0_BB90_7
.Ldeerlapse_0_1_0_BB90_4:
	movb	$1, %dl
	movq	168(%rsp), %rdi
	movq	160(%rsp), %rbx
	cmpq	%rbx, %rdi
	jb	.Ldeerlapse_0_1_0_BB90_6
.Ldeerlapse_0_1_0_BB90_5:                               # %join.7.i.i
	movb	%r11b, %r10b
	shll	$12, %r10d
	addq	%r10, %rax
	xorps	%xmm6, %xmm6
	movaps	%xmm6, 48(%rsp)
	leaq	48(%rsp), %r8
	movq	%r8, 32(%rsp)
	movq	%rcx, %rsi
                                        # kill: def $dl killed $dl killed $edx
	movq	%rax, %r8
	movq	%r9, %r14
	xorl	%r9d, %r9d
	callq	"deerlapse_0_1_0::aead_ciphers_wide::aes_gcm::ExpandedKey::expand_with_width"
	movq	%rbx, 3192(%rsi)
	movq	%rdi, 3200(%rsi)
	movq	(%r14), %rax
	movl	8(%r14), %ecx
	movl	%ecx, 3216(%rsi)
	movq	%rax, 3208(%rsi)
	movups	%xmm6, 3220(%rsi)
	movups	%xmm6, 3236(%rsi)
	movups	%xmm6, 3252(%rsi)
	movups	%xmm6, 3268(%rsi)
	movups	%xmm6, 3284(%rsi)
	movups	%xmm6, 3300(%rsi)
	movups	%xmm6, 3316(%rsi)
	movups	%xmm6, 3332(%rsi)
	movups	%xmm6, 3348(%rsi)
	movups	%xmm6, 3364(%rsi)
	movups	%xmm6, 3380(%rsi)
	movups	%xmm6, 3396(%rsi)
	movups	%xmm6, 3412(%rsi)
	movups	%xmm6, 3424(%rsi)
	movb	$1, %al
.Ldeerlapse_0_1_0_BB90_7:                               # %"deerlapse::sealer::deerlapse_sealer_init.exit"
                                        # kill: def $al killed $al killed $eax
	movaps	64(%rsp), %xmm6                 # 16-byte Reload
	addq	$88, %rsp
	popq	%rbx
	popq	%rdi
	popq	%rsi
	popq	%r14
	retq
	.seh_endproc
                                        # -- End function
	.ifdef	deerlapse_in_rust
	.globl	deerlapse_0_1_0_xaes_init             # -- Begin function deerlapse_0_1_0_xaes_init
	.p2align	4
deerlapse_0_1_0_xaes_init:                    # @deerlapse_0_1_0_xaes_init
.seh_proc deerlapse_0_1_0_xaes_init
	.def	deerlapse_0_1_0_xaes_init;
	.scl	2;
	.type	32;
	.endef
	.else
	.globl	deerlapse_xaes_init             # -- Begin function deerlapse_xaes_init
	.p2align	4
deerlapse_xaes_init:                    # @deerlapse_xaes_init
.seh_proc deerlapse_xaes_init
	.def	deerlapse_xaes_init;
	.scl	2;
	.type	32;
	.endef
	.endif
# %bb.0:                                # %start
	pushq	%rsi
	.seh_pushreg %rsi
	pushq	%rdi
	.seh_pushreg %rdi
	subq	$72, %rsp
	.seh_stackalloc 72
	.seh_endprologue
	movq	%rdx, %r8
	movq	%rcx, %rsi
	leaq	8(%rcx), %rdi
	movq	%rdi, %rcx
	movb	$1, %dl
	callq	"deerlapse_0_1_0::aead_ciphers_wide::aes::expand"
	movl	%eax, (%rsi)
	movl	$128, 4(%rsi)
	xorps	%xmm0, %xmm0
	movaps	%xmm0, 48(%rsp)
	movaps	%xmm0, 32(%rsp)
	leaq	32(%rsp), %rcx
	leaq	48(%rsp), %r9
	movq	%rdi, %rdx
	movq	%rax, %r8
	callq	"deerlapse_0_1_0::aead_ciphers_wide::aes::block_key::BlockKeyRef::encrypt_one"
	movq	40(%rsp), %rcx
	bswapq	%rcx
	movq	32(%rsp), %rdx
	bswapq	%rdx
	movq	%rdx, %r10
	shldq	$1, %rcx, %r10
	leal	(%rcx,%rcx), %r9d
	leaq	(%rdx,%rdx), %r8
	movq	%rdx, %rax
	sarq	$63, %rax
	andl	$135, %eax
	xorl	%r9d, %eax
	movq	%r8, %r9
	shrq	$56, %r9
	movq	%r8, %r11
	shrq	$48, %r11
	shrq	$40, %r8
	movq	%r10, %xmm0
	movq	%rdx, %xmm1
	shrq	$31, %rdx
	movdqa	%xmm1, %xmm2
	psrlq	$7, %xmm2
	punpcklbw	%xmm0, %xmm2            # xmm2 = xmm2[0],xmm0[0],xmm2[1],xmm0[1],xmm2[2],xmm0[2],xmm2[3],xmm0[3],xmm2[4],xmm0[4],xmm2[5],xmm0[5],xmm2[6],xmm0[6],xmm2[7],xmm0[7]
	psllq	$48, %xmm2
	movdqa	%xmm1, %xmm0
	psrlq	$15, %xmm0
	psrlq	$23, %xmm1
	punpcklbw	%xmm0, %xmm1            # xmm1 = xmm1[0],xmm0[0],xmm1[1],xmm0[1],xmm1[2],xmm0[2],xmm1[3],xmm0[3],xmm1[4],xmm0[4],xmm1[5],xmm0[5],xmm1[6],xmm0[6],xmm1[7],xmm0[7]
	pshufd	$80, %xmm1, %xmm1               # xmm1 = xmm1[0,0,1,1]
	pblendw	$8, %xmm2, %xmm1                # xmm1 = xmm1[0,1,2],xmm2[3],xmm1[4,5,6,7]
	movd	%edx, %xmm0
	movd	%r8d, %xmm2
	punpcklbw	%xmm0, %xmm2            # xmm2 = xmm2[0],xmm0[0],xmm2[1],xmm0[1],xmm2[2],xmm0[2],xmm2[3],xmm0[3],xmm2[4],xmm0[4],xmm2[5],xmm0[5],xmm2[6],xmm0[6],xmm2[7],xmm0[7]
	movd	%r11d, %xmm3
	movd	%r9d, %xmm0
	punpcklbw	%xmm3, %xmm0            # xmm0 = xmm0[0],xmm3[0],xmm0[1],xmm3[1],xmm0[2],xmm3[2],xmm0[3],xmm3[3],xmm0[4],xmm3[4],xmm0[5],xmm3[5],xmm0[6],xmm3[6],xmm0[7],xmm3[7]
	punpcklwd	%xmm2, %xmm0            # xmm0 = xmm0[0],xmm2[0],xmm0[1],xmm2[1],xmm0[2],xmm2[2],xmm0[3],xmm2[3]
	pblendw	$12, %xmm1, %xmm0               # xmm0 = xmm0[0,1],xmm1[2,3],xmm0[4,5,6,7]
	movl	%ecx, %edx
	shrl	$7, %edx
	movl	%ecx, %r8d
	shrl	$15, %r8d
	movl	%ecx, %r9d
	shrl	$23, %r9d
	movq	%rcx, %r10
	shrq	$31, %r10
	movq	%rcx, %r11
	shrq	$39, %r11
	movq	%rcx, %rdi
	shrq	$47, %rdi
	shrq	$55, %rcx
	movd	%ecx, %xmm1
	pinsrb	$1, %edi, %xmm1
	pinsrb	$2, %r11d, %xmm1
	pinsrb	$3, %r10d, %xmm1
	pinsrb	$4, %r9d, %xmm1
	pinsrb	$5, %r8d, %xmm1
	pinsrb	$6, %edx, %xmm1
	pinsrb	$7, %eax, %xmm1
	punpcklqdq	%xmm1, %xmm0            # xmm0 = xmm0[0],xmm1[0]
	movdqu	%xmm0, 248(%rsi)
	addq	$72, %rsp
	popq	%rdi
	popq	%rsi
	retq
	.seh_endproc
                                        # -- End function
	.ifdef	deerlapse_in_rust
	.globl	deerlapse_0_1_0_opener_wipe           # -- Begin function deerlapse_0_1_0_opener_wipe
	.p2align	4
deerlapse_0_1_0_opener_wipe:                  # @deerlapse_0_1_0_opener_wipe
	.def	deerlapse_0_1_0_opener_wipe;
	.scl	2;
	.type	32;
	.endef
	.else
	.globl	deerlapse_opener_wipe           # -- Begin function deerlapse_opener_wipe
	.p2align	4
deerlapse_opener_wipe:                  # @deerlapse_opener_wipe
	.def	deerlapse_opener_wipe;
	.scl	2;
	.type	32;
	.endef
	.endif
# %bb.0:                                # %start
	movl	$3440, %r8d                     # imm = 0xD70
	xorl	%edx, %edx
	jmp	memset                          # TAILCALL
                                        # -- End function
	.ifdef	deerlapse_in_rust
	.globl	deerlapse_0_1_0_sealer_wipe           # -- Begin function deerlapse_0_1_0_sealer_wipe
	.p2align	4
deerlapse_0_1_0_sealer_wipe:                  # @deerlapse_0_1_0_sealer_wipe
	.def	deerlapse_0_1_0_sealer_wipe;
	.scl	2;
	.type	32;
	.endef
	.else
	.globl	deerlapse_sealer_wipe           # -- Begin function deerlapse_sealer_wipe
	.p2align	4
deerlapse_sealer_wipe:                  # @deerlapse_sealer_wipe
	.def	deerlapse_sealer_wipe;
	.scl	2;
	.type	32;
	.endef
	.endif
# %bb.0:                                # %start
	movl	$3440, %r8d                     # imm = 0xD70
	xorl	%edx, %edx
	jmp	memset                          # TAILCALL
                                        # -- End function
	.ifdef	deerlapse_in_rust
	.globl	deerlapse_0_1_0_quic_key_wipe         # -- Begin function deerlapse_0_1_0_quic_key_wipe
	.p2align	4
deerlapse_0_1_0_quic_key_wipe:                # @deerlapse_0_1_0_quic_key_wipe
	.def	deerlapse_0_1_0_quic_key_wipe;
	.scl	2;
	.type	32;
	.endef
	.else
	.globl	deerlapse_quic_key_wipe         # -- Begin function deerlapse_quic_key_wipe
	.p2align	4
deerlapse_quic_key_wipe:                # @deerlapse_quic_key_wipe
	.def	deerlapse_quic_key_wipe;
	.scl	2;
	.type	32;
	.endef
	.endif
# %bb.0:                                # %start
	movl	$3208, %r8d                     # imm = 0xC88
	xorl	%edx, %edx
	jmp	memset                          # TAILCALL
                                        # -- End function
	.ifdef	deerlapse_in_rust
	.globl	deerlapse_0_1_0_record_key_wipe       # -- Begin function deerlapse_0_1_0_record_key_wipe
	.p2align	4
deerlapse_0_1_0_record_key_wipe:              # @deerlapse_0_1_0_record_key_wipe
	.def	deerlapse_0_1_0_record_key_wipe;
	.scl	2;
	.type	32;
	.endef
	.else
	.globl	deerlapse_record_key_wipe       # -- Begin function deerlapse_record_key_wipe
	.p2align	4
deerlapse_record_key_wipe:              # @deerlapse_record_key_wipe
	.def	deerlapse_record_key_wipe;
	.scl	2;
	.type	32;
	.endef
	.endif
# %bb.0:                                # %start
	movl	$3208, %r8d                     # imm = 0xC88
	xorl	%edx, %edx
	jmp	memset                          # TAILCALL
                                        # -- End function
	.section	.rdata,"dr"
.Ldeerlapse_0_1_0_static.0:                             # @static.0
	.asciz	"\200\000\000\000\000\000\000\000\000\000\000\000\000\000\000\000\000\000\000\000\000\000\000\000\000\000\000\000\000\000\000\000\000\000\000\000\000\000\000\000\000\000\000\000\000\000\000\000\000\000\000\000\000\000\000\000\000\000\000\000\000\000\000"

	.p2align	2, 0x0                          # @static.1
.Ldeerlapse_0_1_0_static.1:
	.ascii	"\230/\212B\221D7q\317\373\300\265\245\333\265\351[\302V9\361\021\361Y\244\202?\222\325^\034\253\230\252\007\330\001[\203\022\276\2051$\303}\fUt]\276r\376\261\336\200\247\006\334\233t\361\233\301\301i\233\344\206G\276\357\306\235\301\017\314\241\f$o,\351-\252\204tJ\334\251\260\\\332\210\371vRQ>\230m\3061\250\310'\003\260\307\177Y\277\363\013\340\306G\221\247\325Qc\312\006g))\024\205\n\267'8!\033.\374m,M\023\r8STs\ne\273\njv.\311\302\201\205,r\222\241\350\277\242Kf\032\250p\213K\302\243Ql\307\031\350\222\321$\006\231\326\2055\016\364p\240j\020\026\301\244\031\bl7\036LwH'\265\274\2604\263\f\0349J\252\330NO\312\234[\363o.h\356\202\217toc\245x\024x\310\204\b\002\307\214\372\377\276\220\353lP\244\367\243\371\276\362xq\306"

.Ldeerlapse_0_1_0_static.2:                             # @static.2
	.asciz	"\200\000\000\000\000\000\000\000\000\000\000\000\000\000\000\000\000\000\000\000\000\000\000\000\000\000\000\000\000\000\000\000\000\000\000\000\000\000\000\000\000\000\000\000\000\000\000\000\000\000\000\000\000\000\000\000\000\000\000\000\000\000\000\000\000\000\000\000\000\000\000\000\000\000\000\000\000\000\000\000\000\000\000\000\000\000\000\000\000\000\000\000\000\000\000\000\000\000\000\000\000\000\000\000\000\000\000\000\000\000\000\000\000\000\000\000\000\000\000\000\000\000\000\000\000\000\000"

	.p2align	3, 0x0                          # @static.3
.Ldeerlapse_0_1_0_static.3:
	.ascii	"\"\256(\327\230/\212B\315e\357#\221D7q/;M\354\317\373\300\265\274\333\211\201\245\333\265\3518\265H\363[\302V9\031\320\005\266\361\021\361Y\233O\031\257\244\202?\222\030\201m\332\325^\034\253B\002\003\243\230\252\007\330\276opE\001[\203\022\214\262\344N\276\2051$\342\264\377\325\303}\fUo\211{\362t]\276r\261\226\026;\376\261\336\2005\022\307%\247\006\334\233\224&i\317t\361\233\301\322J\361\236\301i\233\344\343%O8\206G\276\357\265\325\214\213\306\235\301\017e\234\254w\314\241\f$u\002+Yo,\351-\203\344\246n\252\204tJ\324\373A\275\334\251\260\\\265S\021\203\332\210\371v\253\337f\356RQ>\230\0202\264-m\3061\250?!\373\230\310'\003\260\344\016\357\276\307\177Y\277\302\217\250=\363\013\340\306%\247\n\223G\221\247\325o\202\003\340Qc\312\006pn\016\ng))\024\374/\322F\205\n\267'&\311&\\8!\033.\355*\304Z\374m,M\337\263\225\235\023\r8S\336c\257\213Ts\ne\250\262w<\273\njv\346\256\355G.\311\302\201;5\202\024\205,r\222d\003\361L\241\350\277\242\0010B\274Kf\032\250\221\227\370\320p\213K\3020\276T\006\243Ql\307\030R\357\326\031\350\222\321\020\251eU$\006\231\326* qW\2055\016\364\270\321\2732p\240j\020\310\320\322\270\026\301\244\031S\253AQ\bl7\036\231\353\216\337LwH'\250H\233\341\265\274\2604cZ\311\305\263\f\0349\313\212A\343J\252\330Ns\343cwO\312\234[\243\270\262\326\363o.h\374\262\357]\356\202\217t`/\027Coc\245xr\253\360\241\024x\310\204\3549d\032\b\002\307\214(\036c#\372\377\276\220\351\275\202\336\353lP\244\025y\306\262\367\243\371\276+Sr\343\362xq\306\234a&\352\316>'\312\007\302\300!\307\270\206\321\036\353\340\315\326}\332\352x\321n\356\177O}\365\272o\027r\252g\360\006\246\230\310\242\305}c\n\256\r\371\276\004\230?\021\033G\034\0235\013q\033\204}\004#\365w\333(\223$\307@{\253\3122\274\276\311\025\n\276\236<L\r\020\234\304g\035C\266B>\313\276\324\305L*~e\374\234)\177Y\354\372\326:\253o\313_\027XGJ\214\031Dl"

.Ldeerlapse_0_1_0_static.4:                             # @static.4
	.ascii	"\001\002\004\b\020 @\200\0336"

.Ldeerlapse_0_1_0_static.5:                             # @static.5
	.ascii	"client in"

.Ldeerlapse_0_1_0_static.6:                             # @static.6

.Ldeerlapse_0_1_0_static.7:                             # @static.7
	.ascii	"tls13 "

.Ldeerlapse_0_1_0_static.8:                             # @static.8
	.ascii	"server in"

.Ldeerlapse_0_1_0_static.10:                            # @static.10
	.ascii	"quic hp"

.Ldeerlapse_0_1_0_static.11:                            # @static.11
	.ascii	"quicv2 hp"

.Ldeerlapse_0_1_0_static.12:                            # @static.12
	.ascii	"quic ku"

.Ldeerlapse_0_1_0_static.13:                            # @static.13
	.ascii	"quicv2 ku"

.Ldeerlapse_0_1_0_static.14:                            # @static.14
	.ascii	"traffic upd"

.Ldeerlapse_0_1_0_static.15:                            # @static.15
	.ascii	"quic key"

.Ldeerlapse_0_1_0_static.16:                            # @static.16
	.ascii	"quicv2 key"

.Ldeerlapse_0_1_0_static.17:                            # @static.17
	.ascii	"quic iv"

.Ldeerlapse_0_1_0_static.18:                            # @static.18
	.ascii	"quicv2 iv"

.Ldeerlapse_0_1_0_static.19:                            # @static.19
	.ascii	"key"

.Ldeerlapse_0_1_0_static.20:                            # @static.20
	.ascii	"iv"

