	.ifndef	deerlapse_in_rust
	.section	.note.gnu.property,"a",@note
	.p2align	3, 0x0
	.word	4
	.word	16
	.word	5
	.asciz	"GNU"
	.word	3221225472
	.word	4
	.word	1
	.word	0
.Ldeerlapse_0_1_0_sec_end0:
	.endif
	.text
	.file	"rattle"
	.section	.text.deerlapse_key_derivation,"ax",@progbits
	.p2align	2                               // -- Begin function deerlapse::hkdf::deerlapse_0_1_0_hmac
	.type	"deerlapse_0_1_0::deerlapse::hkdf::deerlapse_hmac",@function
"deerlapse_0_1_0::deerlapse::hkdf::deerlapse_hmac":      // @"deerlapse_0_1_0::deerlapse::hkdf::deerlapse_hmac"
	.cfi_startproc
// %bb.0:                               // %start
	stp	x29, x30, [sp, #-80]!           // 16-byte Folded Spill
	.cfi_def_cfa_offset 80
	stp	x28, x25, [sp, #16]             // 16-byte Folded Spill
	stp	x24, x23, [sp, #32]             // 16-byte Folded Spill
	stp	x22, x21, [sp, #48]             // 16-byte Folded Spill
	stp	x20, x19, [sp, #64]             // 16-byte Folded Spill
	mov	x29, sp
	.cfi_def_cfa w29, 80
	.cfi_offset w19, -8
	.cfi_offset w20, -16
	.cfi_offset w21, -24
	.cfi_offset w22, -32
	.cfi_offset w23, -40
	.cfi_offset w24, -48
	.cfi_offset w25, -56
	.cfi_offset w28, -64
	.cfi_offset w30, -72
	.cfi_offset w29, -80
	sub	sp, sp, #1104
	mov	x19, x4
	mov	x20, x3
	mov	x21, x2
	mov	x2, x1
	cmp	x5, #48
	mov	x1, x0
	str	xzr, [sp]
	b.eq	.Ldeerlapse_0_1_0_BB0_3
// %bb.1:                               // %start
	cmp	x5, #32
	b.ne	.Ldeerlapse_0_1_0_BB0_5
// %bb.2:                               // %arm.1
	add	x0, sp, #48
	mov	x3, x21
	mov	x4, x20
	bl	"deerlapse_0_1_0::key_derivation::hmac::hmac::<#7cab53feae2e1c66>"
	ldp	q0, q1, [sp, #48]
	b	.Ldeerlapse_0_1_0_BB0_4
.Ldeerlapse_0_1_0_BB0_3:                                // %arm.2
	add	x0, sp, #80
	add	x22, sp, #80
	bl	"deerlapse_0_1_0::key_derivation::hmac::HmacKey::new::<#01e4f4eb65b1d8bb>"
	ldp	q0, q1, [sp, #80]
	sub	x8, x29, #192
	add	x0, x8, #64
	add	x1, x22, #64
	mov	w2, #128                        // =0x80
	str	xzr, [sp, #712]
	stp	q0, q1, [x29, #-192]
	ldp	q2, q0, [sp, #112]
	str	xzr, [sp, #704]
	stp	xzr, xzr, [sp, #496]
	stp	q2, q0, [x29, #-160]
	bl	memcpy
	ldp	x22, x23, [sp, #272]
	add	x24, sp, #496
	add	x0, x24, #15
	sub	x1, x29, #192
	mov	w2, #192                        // =0xc0
	bl	memcpy
	add	x25, sp, #704
	add	x1, x24, #15
	mov	w2, #192                        // =0xc0
	add	x0, x25, #15
	bl	memcpy
	add	x0, sp, #496
	add	x1, x25, #15
	mov	w2, #192                        // =0xc0
	bl	memcpy
	add	x0, sp, #496
	mov	x1, x21
	mov	x2, x20
	str	x23, [sp, #696]
	str	x22, [sp, #688]
	bl	"deerlapse_0_1_0::sha2::block512::Core512::update"
	mov	x0, sp
	add	x1, sp, #80
	add	x2, sp, #496
	bl	"deerlapse_0_1_0::key_derivation::hmac::HmacKey::finish::<#01e4f4eb65b1d8bb>"
	ldp	q0, q1, [sp]
	ldr	q2, [sp, #32]
	str	q2, [x19, #32]
.Ldeerlapse_0_1_0_BB0_4:                                // %common.ret
	stp	q0, q1, [x19]
	mov	w0, #1                          // =0x1
	b	.Ldeerlapse_0_1_0_BB0_6
.Ldeerlapse_0_1_0_BB0_5:
	mov	w0, wzr
.Ldeerlapse_0_1_0_BB0_6:                                // %common.ret
	add	sp, sp, #1104
	.cfi_def_cfa wsp, 80
	ldp	x20, x19, [sp, #64]             // 16-byte Folded Reload
	ldp	x22, x21, [sp, #48]             // 16-byte Folded Reload
	ldp	x24, x23, [sp, #32]             // 16-byte Folded Reload
	ldp	x28, x25, [sp, #16]             // 16-byte Folded Reload
	ldp	x29, x30, [sp], #80             // 16-byte Folded Reload
	.cfi_def_cfa_offset 0
	.cfi_restore w19
	.cfi_restore w20
	.cfi_restore w21
	.cfi_restore w22
	.cfi_restore w23
	.cfi_restore w24
	.cfi_restore w25
	.cfi_restore w28
	.cfi_restore w30
	.cfi_restore w29
	ret
.Ldeerlapse_0_1_0_func_end0:
	.size	"deerlapse_0_1_0::deerlapse::hkdf::deerlapse_hmac", .Ldeerlapse_0_1_0_func_end0-"deerlapse_0_1_0::deerlapse::hkdf::deerlapse_hmac"
	.cfi_endproc
                                        // -- End function
	.section	.text.deerlapse_key_derivation,"ax",@progbits
	.p2align	2                               // -- Begin function key_derivation::hmac::hmac::<#7cab53feae2e1c66>
	.type	"deerlapse_0_1_0::key_derivation::hmac::hmac::<#7cab53feae2e1c66>",@function
"deerlapse_0_1_0::key_derivation::hmac::hmac::<#7cab53feae2e1c66>": // @"deerlapse_0_1_0::key_derivation::hmac::hmac::<#7cab53feae2e1c66>"
	.cfi_startproc
// %bb.0:                               // %start
	stp	x29, x30, [sp, #-64]!           // 16-byte Folded Spill
	.cfi_def_cfa_offset 64
	stp	x28, x23, [sp, #16]             // 16-byte Folded Spill
	stp	x22, x21, [sp, #32]             // 16-byte Folded Spill
	stp	x20, x19, [sp, #48]             // 16-byte Folded Spill
	mov	x29, sp
	.cfi_def_cfa w29, 64
	.cfi_offset w19, -8
	.cfi_offset w20, -16
	.cfi_offset w21, -24
	.cfi_offset w22, -32
	.cfi_offset w23, -40
	.cfi_offset w28, -48
	.cfi_offset w30, -56
	.cfi_offset w29, -64
	sub	sp, sp, #448
	mov	x19, x0
	add	x0, sp, #8
	mov	x20, x4
	mov	x21, x3
	sub	x22, x29, #128
	bl	"deerlapse_0_1_0::key_derivation::hmac::HmacKey::new::<#7cab53feae2e1c66>"
	ldur	q0, [sp, #9]
	ldur	q1, [sp, #24]
	sub	x1, x29, #96
	ldrb	w8, [sp, #8]
	ldr	x23, [sp, #104]
	mov	w2, #95                         // =0x5f
	str	q0, [x22, #32]
	ldur	q0, [sp, #40]
	stur	q1, [x22, #47]
	ldur	q1, [sp, #56]
	stur	q0, [x22, #63]
	ldur	q0, [sp, #72]
	strb	w8, [sp, #216]
	add	x8, sp, #216
	stur	q0, [x22, #95]
	ldur	q0, [sp, #88]
	orr	x0, x8, #0x1
	stur	q1, [x22, #79]
	stur	q0, [x22, #111]
	bl	memcpy
	add	x0, sp, #216
	mov	x1, x21
	mov	x2, x20
	str	x23, [sp, #312]
	bl	"deerlapse_0_1_0::sha2::block256::Core256::update"
	sub	x0, x29, #128
	add	x1, sp, #8
	add	x2, sp, #216
	bl	"deerlapse_0_1_0::key_derivation::hmac::HmacKey::finish::<#7cab53feae2e1c66>"
	ldp	q0, q1, [x22]
	stp	q0, q1, [x19]
	add	sp, sp, #448
	.cfi_def_cfa wsp, 64
	ldp	x20, x19, [sp, #48]             // 16-byte Folded Reload
	ldp	x22, x21, [sp, #32]             // 16-byte Folded Reload
	ldp	x28, x23, [sp, #16]             // 16-byte Folded Reload
	ldp	x29, x30, [sp], #64             // 16-byte Folded Reload
	.cfi_def_cfa_offset 0
	.cfi_restore w19
	.cfi_restore w20
	.cfi_restore w21
	.cfi_restore w22
	.cfi_restore w23
	.cfi_restore w28
	.cfi_restore w30
	.cfi_restore w29
	ret
.Ldeerlapse_0_1_0_func_end1:
	.size	"deerlapse_0_1_0::key_derivation::hmac::hmac::<#7cab53feae2e1c66>", .Ldeerlapse_0_1_0_func_end1-"deerlapse_0_1_0::key_derivation::hmac::hmac::<#7cab53feae2e1c66>"
	.cfi_endproc
                                        // -- End function
	.section	.rodata.cst16,"aM",@progbits,16
	.p2align	4, 0x0                          // -- Begin function key_derivation::hmac::HmacKey::new::<#7cab53feae2e1c66>
.Ldeerlapse_0_1_0_CPI2_0:
	.word	1779033703                      // 0x6a09e667
	.word	3144134277                      // 0xbb67ae85
	.word	1013904242                      // 0x3c6ef372
	.word	2773480762                      // 0xa54ff53a
.Ldeerlapse_0_1_0_CPI2_1:
	.word	1359893119                      // 0x510e527f
	.word	2600822924                      // 0x9b05688c
	.word	528734635                       // 0x1f83d9ab
	.word	1541459225                      // 0x5be0cd19
	.section	.text.deerlapse_key_derivation,"ax",@progbits
	.p2align	2
	.type	"deerlapse_0_1_0::key_derivation::hmac::HmacKey::new::<#7cab53feae2e1c66>",@function
"deerlapse_0_1_0::key_derivation::hmac::HmacKey::new::<#7cab53feae2e1c66>": // @"deerlapse_0_1_0::key_derivation::hmac::HmacKey::new::<#7cab53feae2e1c66>"
	.cfi_startproc
// %bb.0:                               // %start
	stp	x29, x30, [sp, #-48]!           // 16-byte Folded Spill
	.cfi_def_cfa_offset 48
	stp	x28, x21, [sp, #16]             // 16-byte Folded Spill
	stp	x20, x19, [sp, #32]             // 16-byte Folded Spill
	mov	x29, sp
	.cfi_def_cfa w29, 48
	.cfi_offset w19, -8
	.cfi_offset w20, -16
	.cfi_offset w21, -24
	.cfi_offset w28, -32
	.cfi_offset w30, -40
	.cfi_offset w29, -48
	sub	sp, sp, #832
	mov	x20, x2
	mov	x21, x1
	mov	x19, x0
	add	x0, sp, #352
	mov	w1, wzr
	mov	w2, #208                        // =0xd0
	bl	memset
	movi	v0.2d, #0000000000000000
	cmp	x20, #65
	str	xzr, [sp, #208]
	str	xzr, [sp, #96]
	stp	q0, q0, [sp]
	stp	q0, q0, [sp, #32]
	stp	q0, q0, [sp, #64]
	stp	q0, q0, [sp, #112]
	stp	q0, q0, [sp, #144]
	stp	q0, q0, [sp, #176]
	stp	q0, q0, [sp, #224]
	stp	q0, q0, [sp, #256]
	stp	q0, q0, [sp, #288]
	stp	q0, q0, [sp, #320]
	stp	q0, q0, [sp, #560]
	stp	q0, q0, [sp, #592]
	stp	q0, q0, [sp, #624]
	stp	q0, q0, [sp, #656]
	b.lo	.Ldeerlapse_0_1_0_BB2_2
// %bb.1:                               // %then.1.i
	adrp	x8, .Ldeerlapse_0_1_0_CPI2_0
	stp	q0, q0, [x29, #-144]
	sub	x0, x29, #112
	stp	q0, q0, [x29, #-80]
	mov	x1, x21
	mov	x2, x20
	stp	q0, q0, [x29, #-48]
	ldr	q0, [x8, :lo12:.Ldeerlapse_0_1_0_CPI2_0]
	adrp	x8, .Ldeerlapse_0_1_0_CPI2_1
	ldr	q1, [x8, :lo12:.Ldeerlapse_0_1_0_CPI2_1]
	stur	xzr, [x29, #-16]
	stp	q0, q1, [x29, #-112]
	bl	"deerlapse_0_1_0::sha2::block256::Core256::update"
	sub	x0, x29, #144
	sub	x1, x29, #112
	bl	"deerlapse_0_1_0::sha2::Sha256Digest::finalize"
	ldp	q0, q1, [x29, #-144]
	stp	q0, q1, [sp, #560]
	b	.Ldeerlapse_0_1_0_BB2_3
.Ldeerlapse_0_1_0_BB2_2:                                // %else.2.i
	add	x0, sp, #560
	mov	x1, x21
	mov	x2, x20
	bl	memcpy
.Ldeerlapse_0_1_0_BB2_3:                                // %"key_derivation::hmac::key_block::<#7cab53feae2e1c66>.exit"
	add	x0, sp, #224
	add	x1, sp, #560
	mov	w2, #128                        // =0x80
	bl	memcpy
	add	x0, sp, #112
	add	x1, sp, #224
	mov	w2, #54                         // =0x36
	bl	"deerlapse_0_1_0::key_derivation::hmac::absorb_xored::<#7cab53feae2e1c66>"
	mov	x0, sp
	add	x1, sp, #224
	mov	w2, #92                         // =0x5c
	bl	"deerlapse_0_1_0::key_derivation::hmac::absorb_xored::<#7cab53feae2e1c66>"
	add	x0, sp, #352
	add	x1, sp, #112
	mov	w2, #104                        // =0x68
	add	x20, sp, #352
	bl	memcpy
	add	x0, x20, #104
	mov	x1, sp
	mov	w2, #104                        // =0x68
	bl	memcpy
	add	x1, sp, #352
	mov	x0, x19
	mov	w2, #208                        // =0xd0
	bl	memcpy
	add	sp, sp, #832
	.cfi_def_cfa wsp, 48
	ldp	x20, x19, [sp, #32]             // 16-byte Folded Reload
	ldp	x28, x21, [sp, #16]             // 16-byte Folded Reload
	ldp	x29, x30, [sp], #48             // 16-byte Folded Reload
	.cfi_def_cfa_offset 0
	.cfi_restore w19
	.cfi_restore w20
	.cfi_restore w21
	.cfi_restore w28
	.cfi_restore w30
	.cfi_restore w29
	ret
.Ldeerlapse_0_1_0_func_end2:
	.size	"deerlapse_0_1_0::key_derivation::hmac::HmacKey::new::<#7cab53feae2e1c66>", .Ldeerlapse_0_1_0_func_end2-"deerlapse_0_1_0::key_derivation::hmac::HmacKey::new::<#7cab53feae2e1c66>"
	.cfi_endproc
                                        // -- End function
	.section	.text.deerlapse_key_derivation,"ax",@progbits
	.p2align	2                               // -- Begin function sha2::Sha256Digest::finalize
	.type	"deerlapse_0_1_0::sha2::Sha256Digest::finalize",@function
"deerlapse_0_1_0::sha2::Sha256Digest::finalize":         // @"deerlapse_0_1_0::sha2::Sha256Digest::finalize"
	.cfi_startproc
// %bb.0:                               // %start
	sub	sp, sp, #176
	.cfi_def_cfa_offset 176
	stp	x29, x30, [sp, #112]            // 16-byte Folded Spill
	str	x23, [sp, #128]                 // 8-byte Spill
	stp	x22, x21, [sp, #144]            // 16-byte Folded Spill
	stp	x20, x19, [sp, #160]            // 16-byte Folded Spill
	add	x29, sp, #112
	.cfi_def_cfa w29, 64
	.cfi_offset w19, -8
	.cfi_offset w20, -16
	.cfi_offset w21, -24
	.cfi_offset w22, -32
	.cfi_offset w23, -48
	.cfi_offset w30, -56
	.cfi_offset w29, -64
	mov	x19, x0
	mov	x0, sp
	mov	w2, #104                        // =0x68
	bl	memcpy
	ldr	x20, [sp, #96]
	mov	w8, #55                         // =0x37
	adrp	x1, .Ldeerlapse_0_1_0_static.0
	add	x1, x1, :lo12:.Ldeerlapse_0_1_0_static.0
	mov	x0, sp
	sub	w8, w8, w20
	lsr	x21, x20, #21
	lsr	x22, x20, #13
	and	x8, x8, #0x3f
	lsl	x23, x20, #3
	add	x2, x8, #1
	bl	"deerlapse_0_1_0::sha2::block256::Core256::update"
	lsl	x8, x20, #43
	lsr	x9, x20, #5
	lsr	x10, x20, #37
	and	x11, x21, #0xff0000
	mov	x0, sp
	add	x1, x29, #24
	and	x8, x8, #0xff000000000000
	and	x9, x9, #0xff000000
	and	x10, x10, #0xff00
	orr	x8, x8, x20, lsl #59
	orr	x9, x9, x11
	mov	w2, #8                          // =0x8
	orr	x9, x9, x10
	bfi	x8, x22, #40, #8
	bfi	x8, x21, #32, #8
	orr	x8, x8, x9
	orr	x8, x8, x23, lsr #56
	str	x8, [x29, #24]
	bl	"deerlapse_0_1_0::sha2::block256::Core256::update"
	ldp	q0, q1, [sp]
	rev32	v0.16b, v0.16b
	rev32	v1.16b, v1.16b
	stp	q0, q1, [x19]
	.cfi_def_cfa wsp, 176
	ldp	x20, x19, [sp, #160]            // 16-byte Folded Reload
	ldr	x23, [sp, #128]                 // 8-byte Reload
	ldp	x22, x21, [sp, #144]            // 16-byte Folded Reload
	ldp	x29, x30, [sp, #112]            // 16-byte Folded Reload
	add	sp, sp, #176
	.cfi_def_cfa_offset 0
	.cfi_restore w19
	.cfi_restore w20
	.cfi_restore w21
	.cfi_restore w22
	.cfi_restore w23
	.cfi_restore w30
	.cfi_restore w29
	ret
.Ldeerlapse_0_1_0_func_end3:
	.size	"deerlapse_0_1_0::sha2::Sha256Digest::finalize", .Ldeerlapse_0_1_0_func_end3-"deerlapse_0_1_0::sha2::Sha256Digest::finalize"
	.cfi_endproc
                                        // -- End function
	.section	.text.deerlapse_key_derivation,"ax",@progbits
	.p2align	2                               // -- Begin function sha2::block256::Core256::update
	.type	"deerlapse_0_1_0::sha2::block256::Core256::update",@function
"deerlapse_0_1_0::sha2::block256::Core256::update":      // @"deerlapse_0_1_0::sha2::block256::Core256::update"
	.cfi_startproc
// %bb.0:                               // %start
	stp	x29, x30, [sp, #-80]!           // 16-byte Folded Spill
	.cfi_def_cfa_offset 80
	str	x25, [sp, #16]                  // 8-byte Spill
	stp	x24, x23, [sp, #32]             // 16-byte Folded Spill
	stp	x22, x21, [sp, #48]             // 16-byte Folded Spill
	stp	x20, x19, [sp, #64]             // 16-byte Folded Spill
	mov	x29, sp
	.cfi_def_cfa w29, 80
	.cfi_offset w19, -8
	.cfi_offset w20, -16
	.cfi_offset w21, -24
	.cfi_offset w22, -32
	.cfi_offset w23, -40
	.cfi_offset w24, -48
	.cfi_offset w25, -64
	.cfi_offset w30, -72
	.cfi_offset w29, -80
	.cfi_remember_state
	ldr	x9, [x0, #96]
	mov	x19, x2
	mov	x20, x1
	mov	x21, x0
	ands	x8, x9, #0x3f
	add	x9, x9, x2
	str	x9, [x0, #96]
	b.eq	.Ldeerlapse_0_1_0_BB4_4
// %bb.1:                               // %then.1
	mov	w9, #64                         // =0x40
	sub	x22, x9, x8
	add	x9, x21, #32
	add	x0, x9, x8
	cmp	x19, x22
	sub	x10, x0, x20
	b.hs	.Ldeerlapse_0_1_0_BB4_5
// %bb.2:                               // %then.4
	cmp	x10, x19
	b.hs	.Ldeerlapse_0_1_0_BB4_7
.Ldeerlapse_0_1_0_BB4_3:                                // %join.7.i.i.i.i.i.i
                                        // =>This Inner Loop Header: Depth=1
	ldrb	w8, [x20], #1
	subs	x19, x19, #1
	strb	w8, [x0], #1
	b.ne	.Ldeerlapse_0_1_0_BB4_3
	b	.Ldeerlapse_0_1_0_BB4_15
.Ldeerlapse_0_1_0_BB4_4:
	mov	x22, xzr
	b	.Ldeerlapse_0_1_0_BB4_10
.Ldeerlapse_0_1_0_BB4_5:                                // %join.6
	cmp	x10, x22
	mov	x10, x20
	b.hs	.Ldeerlapse_0_1_0_BB4_8
.Ldeerlapse_0_1_0_BB4_6:                                // %join.7.i.i.i.i.i.i37
                                        // =>This Inner Loop Header: Depth=1
	ldrb	w11, [x10], #1
	strb	w11, [x9, x8]
	add	x8, x8, #1
	cmp	x8, #64
	b.ne	.Ldeerlapse_0_1_0_BB4_6
	b	.Ldeerlapse_0_1_0_BB4_9
.Ldeerlapse_0_1_0_BB4_7:                                // %apart.2.i.i.i.i.i.i
	mov	x1, x20
	mov	x2, x19
	.cfi_def_cfa wsp, 80
	b	.Ldeerlapse_0_1_0_BB4_17
.Ldeerlapse_0_1_0_BB4_8:                                // %apart.2.i.i.i.i.i.i36
	.cfi_restore_state
	.cfi_remember_state
	mov	x1, x20
	mov	x2, x22
	bl	memmove
.Ldeerlapse_0_1_0_BB4_9:                                // %"core::slice::edits::slice+T::copy_from_slice::<i8,20'core::clone::U8Clone{}>.exit44"
	add	x1, x21, #32
	mov	x0, x21
	bl	"deerlapse_0_1_0::sha2::block256::compress"
.Ldeerlapse_0_1_0_BB4_10:                               // %join.3
	sub	x24, x19, x22
	lsr	x25, x24, #6
	cbz	x25, .Ldeerlapse_0_1_0_BB4_13
// %bb.11:                              // %join.11.lr.ph
	add	x23, x20, x22
.Ldeerlapse_0_1_0_BB4_12:                               // %join.11
                                        // =>This Inner Loop Header: Depth=1
	mov	x0, x21
	mov	x1, x23
	bl	"deerlapse_0_1_0::sha2::block256::compress"
	subs	x25, x25, #1
	add	x23, x23, #64
	b.ne	.Ldeerlapse_0_1_0_BB4_12
.Ldeerlapse_0_1_0_BB4_13:                               // %after.7
	and	x8, x24, #0xffffffffffffffc0
	add	x0, x21, #32
	add	x8, x8, x22
	add	x1, x20, x8
	sub	x2, x19, x8
	sub	x8, x0, x1
	cmp	x8, x2
	b.hs	.Ldeerlapse_0_1_0_BB4_16
.Ldeerlapse_0_1_0_BB4_14:                               // %join.7.i.i.i.i.i.i50
                                        // =>This Inner Loop Header: Depth=1
	ldrb	w8, [x1], #1
	subs	x2, x2, #1
	strb	w8, [x0], #1
	b.ne	.Ldeerlapse_0_1_0_BB4_14
.Ldeerlapse_0_1_0_BB4_15:                               // %common.ret
	.cfi_def_cfa wsp, 80
	ldp	x20, x19, [sp, #64]             // 16-byte Folded Reload
	ldr	x25, [sp, #16]                  // 8-byte Reload
	ldp	x22, x21, [sp, #48]             // 16-byte Folded Reload
	ldp	x24, x23, [sp, #32]             // 16-byte Folded Reload
	ldp	x29, x30, [sp], #80             // 16-byte Folded Reload
	.cfi_def_cfa_offset 0
	.cfi_restore w19
	.cfi_restore w20
	.cfi_restore w21
	.cfi_restore w22
	.cfi_restore w23
	.cfi_restore w24
	.cfi_restore w25
	.cfi_restore w30
	.cfi_restore w29
	ret
.Ldeerlapse_0_1_0_BB4_16:                               // %apart.2.i.i.i.i.i.i49
	.cfi_restore_state
	.cfi_def_cfa wsp, 80
.Ldeerlapse_0_1_0_BB4_17:                               // %apart.2.i.i.i.i.i.i49
	ldp	x20, x19, [sp, #64]             // 16-byte Folded Reload
	ldr	x25, [sp, #16]                  // 8-byte Reload
	ldp	x22, x21, [sp, #48]             // 16-byte Folded Reload
	ldp	x24, x23, [sp, #32]             // 16-byte Folded Reload
	ldp	x29, x30, [sp], #80             // 16-byte Folded Reload
	.cfi_def_cfa_offset 0
	.cfi_restore w19
	.cfi_restore w20
	.cfi_restore w21
	.cfi_restore w22
	.cfi_restore w23
	.cfi_restore w24
	.cfi_restore w25
	.cfi_restore w30
	.cfi_restore w29
	b	memmove
.Ldeerlapse_0_1_0_func_end4:
	.size	"deerlapse_0_1_0::sha2::block256::Core256::update", .Ldeerlapse_0_1_0_func_end4-"deerlapse_0_1_0::sha2::block256::Core256::update"
	.cfi_endproc
                                        // -- End function
	.section	.text.deerlapse_key_derivation,"ax",@progbits
	.p2align	2                               // -- Begin function sha2::block256::compress
	.type	"deerlapse_0_1_0::sha2::block256::compress",@function
"deerlapse_0_1_0::sha2::block256::compress":             // @"deerlapse_0_1_0::sha2::block256::compress"
	.cfi_startproc
// %bb.0:                               // %start
	sub	sp, sp, #256
	.cfi_def_cfa_offset 256
	str	x30, [sp, #160]                 // 8-byte Spill
	stp	x28, x27, [sp, #176]            // 16-byte Folded Spill
	stp	x26, x25, [sp, #192]            // 16-byte Folded Spill
	stp	x24, x23, [sp, #208]            // 16-byte Folded Spill
	stp	x22, x21, [sp, #224]            // 16-byte Folded Spill
	stp	x20, x19, [sp, #240]            // 16-byte Folded Spill
	.cfi_offset w19, -8
	.cfi_offset w20, -16
	.cfi_offset w21, -24
	.cfi_offset w22, -32
	.cfi_offset w23, -40
	.cfi_offset w24, -48
	.cfi_offset w25, -56
	.cfi_offset w26, -64
	.cfi_offset w27, -72
	.cfi_offset w28, -80
	.cfi_offset w30, -96
	movi	v0.2d, #0000000000000000
	mov	x8, xzr
	stp	q0, q0, [sp, #96]
	stp	q0, q0, [sp, #128]
.Ldeerlapse_0_1_0_BB5_1:                                // %vector.body
                                        // =>This Inner Loop Header: Depth=1
	ldr	q0, [x1, x8]
	add	x9, sp, #96
	rev32	v0.16b, v0.16b
	str	q0, [x9, x8]
	add	x8, x8, #16
	cmp	x8, #64
	b.ne	.Ldeerlapse_0_1_0_BB5_1
// %bb.2:                               // %after.3
	ldp	w16, w2, [x0, #16]
	ldp	w19, w6, [x0]
	ldp	w17, w13, [x0, #24]
	eor	w9, w16, w16, ror #14
	and	w12, w2, w16
	mov	w8, #12184                      // =0x2f98
	eor	w11, w19, w19, ror #9
	movk	w8, #17034, lsl #16
	str	x0, [sp, #40]                   // 8-byte Spill
	ldp	w7, w1, [sp, #96]
	ldp	w3, w15, [x0, #8]
	bic	w10, w17, w16
	eor	w9, w16, w9, ror #5
	eor	w11, w19, w11, ror #11
	str	w13, [sp, #24]                  // 4-byte Spill
	add	w13, w13, w7
	orr	w10, w12, w10
	eor	w12, w6, w19
	add	w10, w13, w10
	ror	w9, w9, #6
	ror	w11, w11, #2
	bic	w13, w6, w12
	and	w14, w3, w12
	add	w8, w10, w8
	orr	w10, w14, w13
	str	w15, [sp, #12]                  // 4-byte Spill
	add	w9, w8, w9
	add	w8, w11, w10
	mov	w13, #17553                     // =0x4491
	add	w8, w8, w9
	add	w11, w9, w15
	str	w1, [sp, #172]                  // 4-byte Spill
	eor	w9, w11, w11, ror #14
	eor	w10, w8, w8, ror #9
	bic	w14, w2, w11
	and	w15, w16, w11
	eor	w0, w8, w19
	add	w1, w17, w1
	eor	w9, w11, w9, ror #5
	eor	w10, w8, w10, ror #11
	orr	w14, w15, w14
	movk	w13, #28983, lsl #16
	and	w12, w0, w12
	add	w14, w1, w14
	ror	w9, w9, #6
	ror	w10, w10, #2
	eor	w12, w12, w19
	add	w13, w14, w13
	str	w17, [sp, #32]                  // 4-byte Spill
	add	w13, w13, w9
	add	w9, w10, w12
	str	w3, [sp, #8]                    // 4-byte Spill
	add	w9, w9, w13
	add	w12, w13, w3
	mov	w10, #64463                     // =0xfbcf
	eor	w13, w12, w12, ror #14
	eor	w14, w9, w9, ror #9
	bic	w15, w16, w12
	ldp	w17, w1, [sp, #104]
	and	w3, w11, w12
	eor	w13, w12, w13, ror #5
	eor	w14, w9, w14, ror #11
	eor	w4, w9, w8
	orr	w15, w3, w15
	movk	w10, #46528, lsl #16
	add	w5, w2, w17
	and	w0, w4, w0
	ror	w13, w13, #6
	add	w15, w5, w15
	ror	w14, w14, #2
	eor	w0, w0, w8
	add	w10, w15, w10
	str	w2, [sp, #28]                   // 4-byte Spill
	mov	w2, w7
	add	w13, w10, w13
	add	w10, w14, w0
	str	w6, [sp, #16]                   // 4-byte Spill
	add	w10, w10, w13
	add	w13, w13, w6
	mov	w0, #56229                      // =0xdba5
	eor	w14, w13, w13, ror #14
	eor	w15, w10, w10, ror #9
	bic	w3, w11, w13
	and	w5, w12, w13
	eor	w6, w10, w9
	add	w7, w16, w1
	eor	w14, w13, w14, ror #5
	eor	w15, w10, w15, ror #11
	orr	w3, w5, w3
	movk	w0, #59829, lsl #16
	and	w4, w6, w4
	add	w3, w7, w3
	ror	w14, w14, #6
	ror	w15, w15, #2
	eor	w4, w4, w9
	add	w0, w3, w0
	str	w17, [sp, #168]                 // 4-byte Spill
	add	w0, w0, w14
	add	w14, w15, w4
	str	w16, [sp, #36]                  // 4-byte Spill
	add	w14, w14, w0
	add	w7, w0, w19
	str	w19, [sp, #20]                  // 4-byte Spill
	eor	w0, w7, w7, ror #14
	eor	w5, w14, w14, ror #9
	bic	w19, w12, w7
	ldp	w16, w17, [sp, #112]
	and	w20, w13, w7
	eor	w0, w7, w0, ror #5
	eor	w5, w14, w5, ror #11
	mov	w15, #49755                     // =0xc25b
	eor	w21, w14, w10
	orr	w19, w20, w19
	add	w11, w16, w11
	movk	w15, #14678, lsl #16
	and	w6, w21, w6
	add	w11, w11, w19
	ror	w0, w0, #6
	ror	w5, w5, #2
	eor	w6, w6, w10
	add	w11, w11, w15
	add	w12, w17, w12
	add	w15, w11, w0
	add	w11, w5, w6
	mov	w5, #4593                       // =0x11f1
	add	w11, w11, w15
	add	w15, w15, w8
	movk	w5, #23025, lsl #16
	eor	w8, w15, w15, ror #14
	eor	w0, w11, w11, ror #9
	bic	w6, w13, w15
	and	w19, w7, w15
	eor	w22, w11, w14
	stp	w16, w1, [sp, #88]              // 8-byte Folded Spill
	eor	w8, w15, w8, ror #5
	eor	w0, w11, w0, ror #11
	orr	w6, w19, w6
	add	w12, w12, w6
	and	w19, w22, w21
	mov	w16, #3                         // =0x3
	ror	w8, w8, #6
	ror	w0, w0, #2
	add	w12, w12, w5
	eor	w6, w19, w14
	add	w8, w12, w8
	add	w12, w0, w6
	mov	w0, #33444                      // =0x82a4
	add	w20, w8, w9
	add	w12, w12, w8
	movk	w0, #37439, lsl #16
	eor	w8, w20, w20, ror #14
	eor	w9, w12, w12, ror #9
	bic	w19, w7, w20
	ldp	w5, w6, [sp, #120]
	and	w21, w15, w20
	eor	w8, w20, w8, ror #5
	eor	w9, w12, w9, ror #11
	orr	w19, w21, w19
	eor	w23, w12, w11
	str	w17, [sp, #84]                  // 4-byte Spill
	add	w13, w5, w13
	ror	w8, w8, #6
	and	w21, w23, w22
	add	w13, w13, w19
	ror	w9, w9, #2
	eor	w19, w21, w11
	add	w13, w13, w0
	add	w7, w6, w7
	add	w8, w13, w8
	add	w9, w9, w19
	mov	w13, #24277                     // =0x5ed5
	add	w0, w8, w10
	add	w9, w9, w8
	movk	w13, #43804, lsl #16
	eor	w8, w0, w0, ror #14
	eor	w10, w9, w9, ror #9
	bic	w19, w15, w0
	and	w21, w20, w0
	eor	w22, w9, w12
	eor	w8, w0, w8, ror #5
	eor	w10, w9, w10, ror #11
	orr	w19, w21, w19
	add	w7, w7, w19
	and	w21, w22, w23
	ror	w8, w8, #6
	ror	w10, w10, #2
	add	w13, w7, w13
	eor	w19, w21, w12
	add	w13, w13, w8
	add	w8, w10, w19
	add	w14, w13, w14
	add	w8, w8, w13
	ldp	w3, w7, [sp, #128]
	eor	w10, w14, w14, ror #14
	eor	w13, w8, w8, ror #9
	bic	w21, w20, w14
	and	w23, w0, w14
	eor	w10, w14, w10, ror #5
	add	w15, w3, w15
	orr	w21, w23, w21
	eor	w13, w8, w13, ror #11
	mov	w23, #43672                     // =0xaa98
	add	w15, w15, w21
	movk	w23, #55303, lsl #16
	eor	w21, w8, w9
	ror	w10, w10, #6
	and	w22, w21, w22
	ror	w13, w13, #2
	add	w15, w15, w23
	eor	w22, w22, w9
	add	w15, w15, w10
	add	w20, w7, w20
	add	w10, w13, w22
	add	w11, w15, w11
	add	w10, w10, w15
	eor	w13, w11, w11, ror #14
	bic	w22, w0, w11
	eor	w15, w10, w10, ror #9
	and	w23, w14, w11
	eor	w13, w11, w13, ror #5
	orr	w22, w23, w22
	mov	w23, #23297                     // =0x5b01
	eor	w15, w10, w15, ror #11
	movk	w23, #4739, lsl #16
	add	w20, w20, w22
	eor	w22, w10, w8
	ror	w13, w13, #6
	add	w20, w20, w23
	and	w21, w22, w21
	ror	w15, w15, #2
	eor	w21, w21, w8
	add	w23, w20, w13
	add	w13, w15, w21
	add	w24, w23, w12
	ldp	w19, w20, [sp, #136]
	add	w13, w13, w23
	eor	w12, w24, w24, ror #14
	bic	w15, w14, w24
	and	w21, w11, w24
	eor	w23, w13, w13, ror #9
	eor	w25, w13, w10
	orr	w15, w21, w15
	add	w0, w19, w0
	eor	w12, w24, w12, ror #5
	add	w15, w0, w15
	eor	w0, w13, w23, ror #11
	mov	w23, #34238                     // =0x85be
	ror	w12, w12, #6
	movk	w23, #9265, lsl #16
	and	w22, w25, w22
	add	w15, w15, w23
	ror	w0, w0, #2
	add	w14, w20, w14
	add	w12, w15, w12
	eor	w15, w22, w10
	add	w0, w0, w15
	add	w15, w12, w9
	add	w9, w0, w12
	eor	w12, w15, w15, ror #14
	bic	w0, w11, w15
	eor	w23, w9, w9, ror #9
	and	w22, w24, w15
	eor	w26, w9, w13
	eor	w12, w15, w12, ror #5
	orr	w0, w22, w0
	eor	w22, w9, w23, ror #11
	mov	w23, #32195                     // =0x7dc3
	add	w14, w14, w0
	ror	w12, w12, #6
	movk	w23, #21772, lsl #16
	and	w0, w26, w25
	add	w14, w14, w23
	ror	w22, w22, #2
	eor	w0, w0, w13
	add	w14, w14, w12
	add	w8, w14, w8
	add	w12, w22, w0
	bic	w0, w24, w8
	and	w23, w15, w8
	add	w12, w12, w14
	orr	w0, w23, w0
	eor	w14, w8, w8, ror #14
	eor	w25, w12, w12, ror #9
	ldp	w22, w23, [sp, #144]
	eor	w14, w8, w14, ror #5
	eor	w27, w12, w9
	add	w11, w22, w11
	ror	w14, w14, #6
	add	w11, w11, w0
	eor	w0, w12, w25, ror #11
	mov	w25, #23924                     // =0x5d74
	movk	w25, #29374, lsl #16
	add	w11, w11, w25
	and	w25, w27, w26
	ror	w0, w0, #2
	add	w11, w11, w14
	eor	w14, w25, w9
	add	w14, w0, w14
	add	w30, w11, w10
	add	w28, w14, w11
	eor	w10, w30, w30, ror #14
	bic	w11, w15, w30
	eor	w0, w28, w28, ror #9
	and	w14, w8, w30
	eor	w26, w28, w12
	eor	w10, w30, w10, ror #5
	orr	w11, w14, w11
	add	w14, w23, w24
	eor	w0, w28, w0, ror #11
	mov	w24, #45566                     // =0xb1fe
	add	w11, w14, w11
	ror	w10, w10, #6
	movk	w24, #32990, lsl #16
	and	w14, w26, w27
	ror	w0, w0, #2
	add	w11, w11, w24
	eor	w14, w14, w12
	add	w10, w11, w10
	add	w11, w0, w14
	add	w14, w10, w13
	ldp	w24, w25, [sp, #152]
	add	w11, w11, w10
	eor	w10, w14, w14, ror #14
	bic	w13, w8, w14
	and	w0, w30, w14
	eor	w27, w11, w28
	orr	w13, w0, w13
	eor	w0, w11, w11, ror #9
	add	w15, w24, w15
	eor	w10, w14, w10, ror #5
	add	w13, w15, w13
	add	w8, w25, w8
	eor	w15, w11, w0, ror #11
	mov	w0, #1703                       // =0x6a7
	ror	w10, w10, #6
	movk	w0, #39900, lsl #16
	add	w13, w13, w0
	and	w0, w27, w26
	ror	w15, w15, #2
	add	w10, w13, w10
	eor	w13, w0, w28
	add	w13, w15, w13
	add	w9, w10, w9
	add	w15, w13, w10
	eor	w10, w9, w9, ror #14
	bic	w13, w30, w9
	eor	w26, w15, w15, ror #9
	and	w0, w14, w9
	orr	w13, w0, w13
	eor	w10, w9, w10, ror #5
	eor	w0, w15, w26, ror #11
	add	w8, w8, w13
	bic	w13, w11, w27
	and	w26, w15, w27
	mov	w27, #61812                     // =0xf174
	ror	w10, w10, #6
	ror	w0, w0, #2
	movk	w27, #49563, lsl #16
	orr	w13, w26, w13
	add	w8, w8, w27
	adrp	x26, .Ldeerlapse_0_1_0_static.1+124
	add	x26, x26, :lo12:.Ldeerlapse_0_1_0_static.1+124
	add	w8, w8, w10
	add	w10, w0, w13
	add	w10, w10, w8
	add	w13, w8, w12
.Ldeerlapse_0_1_0_BB5_3:                                // %join.12
                                        // =>This Inner Loop Header: Depth=1
	stp	w3, w19, [sp, #64]              // 8-byte Folded Spill
	ldr	w3, [sp, #172]                  // 4-byte Reload
	eor	w8, w24, w24, ror #2
	eor	w27, w13, w13, ror #14
	str	x16, [sp, #72]                  // 8-byte Spill
	bic	w0, w14, w13
	eor	w12, w3, w3, ror #11
	and	w16, w9, w13
	add	w17, w2, w7
	eor	w1, w10, w10, ror #9
	ror	w8, w8, #17
	orr	w16, w16, w0
	eor	w0, w13, w27, ror #5
	ror	w12, w12, #7
	add	w16, w30, w16
	ldp	w27, w2, [x26, #-60]
	eor	w8, w8, w24, lsr #10
	eor	w1, w10, w1, ror #11
	ror	w0, w0, #6
	stp	w7, w20, [sp, #56]              // 8-byte Folded Spill
	eor	w12, w12, w3, lsr #3
	ldr	w7, [sp, #168]                  // 4-byte Reload
	add	w16, w16, w27
	add	w8, w17, w8
	add	w14, w2, w14
	add	w16, w0, w16
	ror	w0, w1, #2
	eor	w1, w25, w25, ror #2
	add	w4, w8, w12
	eor	w12, w15, w10
	eor	w8, w7, w7, ror #11
	bic	w27, w15, w12
	and	w30, w11, w12
	ror	w1, w1, #17
	add	w16, w16, w4
	orr	w27, w30, w27
	ror	w30, w8, #7
	add	w8, w16, w28
	eor	w1, w1, w25, lsr #10
	add	w0, w0, w27
	eor	w27, w30, w7, lsr #3
	add	w30, w19, w3
	eor	w17, w8, w8, ror #14
	add	w28, w0, w16
	add	w16, w30, w1
	and	w0, w13, w8
	add	w3, w16, w27
	eor	w16, w8, w17, ror #5
	bic	w17, w9, w8
	ldr	w19, [sp, #92]                  // 4-byte Reload
	eor	w1, w28, w28, ror #9
	orr	w17, w0, w17
	ror	w16, w16, #6
	add	w14, w14, w3
	eor	w2, w3, w3, ror #2
	add	w14, w14, w17
	eor	w0, w19, w19, ror #11
	eor	w17, w28, w1, ror #11
	add	w16, w14, w16
	eor	w1, w4, w4, ror #2
	eor	w14, w28, w10
	add	w30, w16, w11
	ror	w11, w0, #7
	ror	w17, w17, #2
	and	w12, w14, w12
	ror	w0, w1, #17
	eor	w1, w30, w30, ror #14
	eor	w12, w12, w10
	eor	w11, w11, w19, lsr #3
	str	w4, [sp, #52]                   // 4-byte Spill
	add	w12, w17, w12
	eor	w17, w0, w4, lsr #10
	add	w0, w20, w7
	add	w11, w0, w11
	and	w0, w8, w30
	eor	w1, w30, w1, ror #5
	add	w7, w11, w17
	bic	w17, w13, w30
	add	w12, w12, w16
	orr	w17, w0, w17
	ror	w16, w1, #6
	eor	w1, w12, w12, ror #9
	ldp	w11, w0, [x26, #-52]
	ldr	w20, [sp, #88]                  // 4-byte Reload
	stp	w7, w3, [sp, #168]              // 8-byte Folded Spill
	add	w9, w11, w9
	eor	w11, w12, w1, ror #11
	eor	w1, w20, w20, ror #11
	add	w9, w9, w7
	add	w13, w0, w13
	add	w9, w9, w17
	eor	w17, w12, w28
	ror	w11, w11, #2
	and	w14, w17, w14
	ror	w1, w1, #7
	add	w9, w9, w16
	eor	w14, w14, w28
	ror	w16, w2, #17
	add	w11, w11, w14
	add	w14, w9, w15
	eor	w15, w1, w20, lsr #3
	eor	w16, w16, w3, lsr #10
	add	w1, w22, w19
	eor	w2, w14, w14, ror #14
	add	w11, w11, w9
	add	w9, w1, w15
	bic	w15, w8, w14
	add	w19, w9, w16
	eor	w9, w14, w2, ror #5
	and	w16, w30, w14
	ldr	w2, [sp, #84]                   // 4-byte Reload
	eor	w0, w11, w11, ror #9
	orr	w15, w16, w15
	ror	w9, w9, #6
	add	w13, w13, w19
	eor	w1, w19, w19, ror #2
	add	w13, w13, w15
	eor	w16, w2, w2, ror #11
	eor	w15, w11, w0, ror #11
	add	w13, w13, w9
	eor	w9, w11, w12
	eor	w0, w7, w7, ror #2
	and	w17, w9, w17
	add	w27, w13, w10
	ror	w10, w16, #7
	ror	w15, w15, #2
	eor	w16, w17, w12
	ror	w17, w0, #17
	eor	w10, w10, w2, lsr #3
	eor	w0, w27, w27, ror #14
	ror	w1, w1, #17
	add	w15, w15, w16
	eor	w16, w17, w7, lsr #10
	add	w17, w23, w20
	add	w10, w17, w10
	and	w17, w14, w27
	eor	w0, w27, w0, ror #5
	add	w20, w10, w16
	bic	w16, w30, w27
	add	w13, w15, w13
	orr	w16, w17, w16
	ror	w15, w0, #6
	eor	w0, w13, w13, ror #9
	ldp	w10, w17, [x26, #-44]
	stp	w20, w19, [sp, #88]             // 8-byte Folded Spill
	add	w8, w10, w8
	eor	w10, w13, w0, ror #11
	eor	w0, w5, w5, ror #11
	add	w8, w8, w20
	add	w17, w17, w30
	ldr	w30, [sp, #64]                  // 4-byte Reload
	add	w8, w8, w16
	eor	w16, w13, w11
	ror	w10, w10, #2
	and	w9, w16, w9
	ror	w0, w0, #7
	add	w8, w8, w15
	eor	w9, w9, w11
	add	w15, w8, w28
	add	w9, w10, w9
	eor	w10, w0, w5, lsr #3
	eor	w0, w1, w19, lsr #10
	add	w1, w2, w24
	eor	w2, w15, w15, ror #14
	add	w9, w9, w8
	add	w8, w1, w10
	bic	w10, w14, w15
	eor	w1, w9, w9, ror #9
	add	w21, w8, w0
	eor	w8, w15, w2, ror #5
	and	w0, w27, w15
	orr	w10, w0, w10
	add	w17, w17, w21
	eor	w2, w20, w20, ror #2
	ror	w8, w8, #6
	add	w10, w17, w10
	eor	w17, w9, w1, ror #11
	eor	w1, w6, w6, ror #11
	add	w5, w5, w25
	str	w21, [sp, #84]                  // 4-byte Spill
	add	w0, w10, w8
	eor	w8, w9, w13
	ror	w17, w17, #2
	and	w16, w8, w16
	add	w10, w0, w12
	ror	w12, w1, #7
	eor	w16, w16, w13
	ror	w1, w2, #17
	eor	w2, w10, w10, ror #14
	add	w16, w17, w16
	eor	w17, w12, w6, lsr #3
	add	w6, w6, w4
	eor	w1, w1, w20, lsr #10
	eor	w2, w10, w2, ror #5
	add	w12, w16, w0
	add	w16, w5, w17
	bic	w0, w27, w10
	ldr	w4, [sp, #56]                   // 4-byte Reload
	add	w5, w16, w1
	ror	w16, w2, #6
	and	w1, w15, w10
	ldp	w17, w2, [x26, #-36]
	add	w14, w14, w17
	orr	w17, w1, w0
	eor	w0, w12, w12, ror #9
	add	w14, w14, w5
	eor	w1, w12, w9
	add	w14, w14, w17
	eor	w17, w30, w30, ror #11
	and	w8, w1, w8
	add	w14, w14, w16
	eor	w16, w12, w0, ror #11
	eor	w0, w21, w21, ror #2
	ror	w17, w17, #7
	add	w11, w14, w11
	eor	w8, w8, w9
	ror	w0, w0, #17
	ror	w16, w16, #2
	eor	w28, w11, w11, ror #14
	eor	w17, w17, w30, lsr #3
	eor	w0, w0, w21, lsr #10
	add	w8, w16, w8
	eor	w28, w11, w28, ror #5
	add	w16, w6, w17
	and	w17, w10, w11
	add	w14, w8, w14
	add	w6, w16, w0
	bic	w16, w15, w11
	ror	w8, w28, #6
	add	w0, w6, w2
	orr	w16, w17, w16
	eor	w2, w6, w6, ror #2
	add	w17, w0, w27
	eor	w0, w14, w14, ror #9
	eor	w27, w14, w12
	add	w16, w17, w16
	eor	w17, w4, w4, ror #11
	add	w8, w16, w8
	eor	w16, w14, w0, ror #11
	and	w0, w27, w1
	ror	w17, w17, #7
	eor	w1, w5, w5, ror #2
	add	w28, w8, w13
	ror	w16, w16, #2
	eor	w0, w0, w12
	eor	w17, w17, w4, lsr #3
	ror	w13, w1, #17
	eor	w1, w28, w28, ror #14
	add	w16, w16, w0
	add	w17, w17, w30
	eor	w13, w13, w5, lsr #10
	eor	w0, w28, w1, ror #5
	add	w8, w16, w8
	add	w16, w3, w17
	ldr	w30, [sp, #68]                  // 4-byte Reload
	ldp	w17, w1, [x26, #-28]
	add	w3, w16, w13
	ror	w13, w0, #6
	bic	w16, w10, w28
	and	w0, w11, w28
	add	w17, w3, w17
	orr	w16, w0, w16
	add	w15, w17, w15
	eor	w17, w8, w8, ror #9
	add	w15, w15, w16
	eor	w16, w30, w30, ror #11
	add	w15, w15, w13
	eor	w13, w8, w17, ror #11
	eor	w17, w8, w14
	ror	w16, w16, #7
	and	w0, w17, w27
	ror	w27, w13, #2
	add	w13, w15, w9
	ror	w9, w2, #17
	eor	w16, w16, w30, lsr #3
	eor	w0, w0, w14
	eor	w2, w13, w13, ror #14
	add	w0, w27, w0
	eor	w27, w9, w6, lsr #10
	add	w16, w16, w4
	add	w9, w0, w15
	eor	w2, w13, w2, ror #5
	add	w15, w16, w7
	ldr	w4, [sp, #60]                   // 4-byte Reload
	bic	w16, w11, w13
	add	w7, w15, w27
	and	w0, w28, w13
	ror	w15, w2, #6
	add	w1, w7, w1
	eor	w2, w4, w4, ror #11
	orr	w16, w0, w16
	add	w10, w1, w10
	eor	w0, w9, w9, ror #9
	add	w10, w10, w16
	eor	w16, w3, w3, ror #2
	ror	w1, w2, #7
	add	w2, w10, w15
	eor	w15, w9, w0, ror #11
	eor	w10, w9, w8
	and	w17, w10, w17
	ror	w16, w16, #17
	eor	w0, w1, w4, lsr #3
	ror	w1, w15, #2
	eor	w17, w17, w8
	add	w15, w2, w12
	eor	w12, w16, w3, lsr #10
	add	w16, w0, w30
	eor	w0, w15, w15, ror #14
	add	w17, w1, w17
	add	w16, w16, w19
	ldp	w1, w30, [x26, #-20]
	add	w19, w16, w12
	eor	w12, w15, w0, ror #5
	bic	w16, w28, w15
	and	w0, w13, w15
	add	w1, w19, w1
	ror	w12, w12, #6
	orr	w16, w0, w16
	add	w0, w1, w11
	add	w11, w17, w2
	eor	w17, w22, w22, ror #11
	add	w16, w0, w16
	eor	w1, w7, w7, ror #2
	eor	w0, w11, w9
	add	w12, w16, w12
	eor	w16, w11, w11, ror #9
	ror	w17, w17, #7
	add	w27, w12, w14
	ror	w14, w1, #17
	and	w10, w0, w10
	eor	w16, w11, w16, ror #11
	eor	w17, w17, w22, lsr #3
	eor	w10, w10, w9
	eor	w14, w14, w7, lsr #10
	eor	w1, w27, w27, ror #14
	ror	w16, w16, #2
	add	w17, w17, w4
	eor	w1, w27, w1, ror #5
	add	w10, w16, w10
	add	w16, w17, w20
	add	w20, w16, w14
	add	w10, w10, w12
	bic	w14, w13, w27
	and	w16, w15, w27
	add	w17, w20, w30
	ror	w12, w1, #6
	orr	w14, w16, w14
	add	w16, w17, w28
	eor	w17, w10, w10, ror #9
	add	w14, w16, w14
	eor	w16, w23, w23, ror #11
	eor	w1, w19, w19, ror #2
	eor	w17, w10, w17, ror #11
	add	w12, w14, w12
	eor	w14, w10, w11
	ror	w16, w16, #7
	and	w0, w14, w0
	add	w8, w12, w8
	ror	w17, w17, #2
	eor	w0, w0, w11
	ror	w1, w1, #17
	eor	w16, w16, w23, lsr #3
	eor	w2, w8, w8, ror #14
	add	w17, w17, w0
	eor	w0, w1, w19, lsr #10
	add	w16, w16, w22
	eor	w1, w8, w2, ror #5
	add	w12, w17, w12
	ldp	w17, w2, [x26, #-12]
	add	w16, w16, w21
	add	w22, w16, w0
	ror	w16, w1, #6
	bic	w0, w15, w8
	and	w1, w27, w8
	add	w17, w22, w17
	orr	w0, w1, w0
	add	w13, w17, w13
	eor	w17, w12, w12, ror #9
	add	w13, w13, w0
	eor	w0, w24, w24, ror #11
	eor	w1, w20, w20, ror #2
	add	w13, w13, w16
	eor	w16, w12, w17, ror #11
	eor	w17, w12, w10
	ror	w0, w0, #7
	and	w14, w17, w14
	add	w30, w13, w9
	ror	w16, w16, #2
	ror	w9, w1, #17
	eor	w14, w14, w10
	eor	w0, w0, w24, lsr #3
	eor	w1, w30, w30, ror #14
	add	w14, w16, w14
	eor	w9, w9, w20, lsr #10
	add	w16, w23, w0
	eor	w0, w30, w1, ror #5
	add	w28, w14, w13
	add	w13, w16, w5
	bic	w14, w27, w30
	and	w16, w8, w30
	add	w23, w13, w9
	ror	w13, w0, #6
	eor	w9, w28, w28, ror #9
	add	w0, w23, w2
	orr	w14, w16, w14
	ldr	w2, [sp, #52]                   // 4-byte Reload
	add	w15, w0, w15
	eor	w16, w28, w9, ror #11
	eor	w9, w28, w12
	add	w14, w15, w14
	eor	w15, w25, w25, ror #11
	eor	w1, w23, w23, ror #2
	add	w13, w14, w13
	ror	w14, w16, #2
	and	w16, w9, w17
	eor	w17, w22, w22, ror #2
	ror	w15, w15, #7
	eor	w16, w16, w12
	add	w16, w14, w16
	add	w14, w13, w11
	ror	w17, w17, #17
	eor	w15, w15, w25, lsr #3
	eor	w0, w14, w14, ror #14
	add	w11, w16, w13
	eor	w13, w17, w22, lsr #10
	add	w15, w15, w24
	eor	w16, w14, w0, ror #5
	add	w15, w15, w6
	ldur	w17, [x26, #-4]
	eor	w0, w11, w11, ror #9
	add	w24, w15, w13
	ror	w13, w16, #6
	bic	w15, w8, w14
	and	w16, w30, w14
	add	w17, w24, w17
	eor	w0, w11, w0, ror #11
	orr	w15, w16, w15
	add	w16, w17, w27
	eor	w17, w2, w2, ror #11
	add	w15, w16, w15
	ror	w16, w0, #2
	eor	w0, w11, w28
	and	w9, w0, w9
	ror	w17, w17, #7
	add	w13, w15, w13
	eor	w9, w9, w28
	add	w9, w16, w9
	ror	w16, w1, #17
	eor	w17, w17, w2, lsr #3
	add	w15, w9, w13
	add	w9, w13, w10
	eor	w10, w16, w23, lsr #10
	add	w13, w17, w25
	eor	w16, w9, w9, ror #14
	eor	w1, w15, w15, ror #9
	add	w13, w13, w3
	ldr	w17, [x26], #64
	add	w25, w13, w10
	eor	w10, w9, w16, ror #5
	eor	w1, w15, w1, ror #11
	bic	w13, w30, w9
	and	w16, w14, w9
	add	w17, w25, w17
	orr	w13, w16, w13
	ror	w10, w10, #6
	add	w8, w17, w8
	ror	w16, w1, #2
	and	w17, w15, w0
	bic	w0, w11, w0
	add	w8, w8, w13
	orr	w13, w17, w0
	add	w8, w8, w10
	add	w10, w16, w13
	ldr	x16, [sp, #72]                  // 8-byte Reload
	add	w10, w10, w8
	add	w13, w8, w12
	subs	x16, x16, #1
	b.ne	.Ldeerlapse_0_1_0_BB5_3
// %bb.4:                               // %after.8
	ldr	w8, [sp, #20]                   // 4-byte Reload
	ldr	x12, [sp, #40]                  // 8-byte Reload
	ldp	x20, x19, [sp, #240]            // 16-byte Folded Reload
	add	w8, w10, w8
	ldr	w10, [sp, #16]                  // 4-byte Reload
	ldp	x22, x21, [sp, #224]            // 16-byte Folded Reload
	add	w10, w15, w10
	ldp	x24, x23, [sp, #208]            // 16-byte Folded Reload
	stp	w8, w10, [x12]
	ldp	x26, x25, [sp, #192]            // 16-byte Folded Reload
	ldp	w8, w10, [sp, #8]               // 8-byte Folded Reload
	add	w8, w11, w8
	add	w10, w28, w10
	stp	w8, w10, [x12, #8]
	ldr	w8, [sp, #36]                   // 4-byte Reload
	ldr	w10, [sp, #28]                  // 4-byte Reload
	ldp	x28, x27, [sp, #176]            // 16-byte Folded Reload
	add	w8, w13, w8
	add	w9, w9, w10
	stp	w8, w9, [x12, #16]
	ldr	w8, [sp, #32]                   // 4-byte Reload
	ldr	w9, [sp, #24]                   // 4-byte Reload
	add	w8, w14, w8
	add	w9, w30, w9
	ldr	x30, [sp, #160]                 // 8-byte Reload
	stp	w8, w9, [x12, #24]
	add	sp, sp, #256
	.cfi_def_cfa_offset 0
	.cfi_restore w19
	.cfi_restore w20
	.cfi_restore w21
	.cfi_restore w22
	.cfi_restore w23
	.cfi_restore w24
	.cfi_restore w25
	.cfi_restore w26
	.cfi_restore w27
	.cfi_restore w28
	.cfi_restore w30
	ret
.Ldeerlapse_0_1_0_func_end5:
	.size	"deerlapse_0_1_0::sha2::block256::compress", .Ldeerlapse_0_1_0_func_end5-"deerlapse_0_1_0::sha2::block256::compress"
	.cfi_endproc
                                        // -- End function
	.section	.rodata.cst16,"aM",@progbits,16
	.p2align	4, 0x0                          // -- Begin function key_derivation::hmac::absorb_xored::<#7cab53feae2e1c66>
.Ldeerlapse_0_1_0_CPI6_0:
	.word	1779033703                      // 0x6a09e667
	.word	3144134277                      // 0xbb67ae85
	.word	1013904242                      // 0x3c6ef372
	.word	2773480762                      // 0xa54ff53a
.Ldeerlapse_0_1_0_CPI6_1:
	.word	1359893119                      // 0x510e527f
	.word	2600822924                      // 0x9b05688c
	.word	528734635                       // 0x1f83d9ab
	.word	1541459225                      // 0x5be0cd19
	.section	.text.deerlapse_key_derivation,"ax",@progbits
	.p2align	2
	.type	"deerlapse_0_1_0::key_derivation::hmac::absorb_xored::<#7cab53feae2e1c66>",@function
"deerlapse_0_1_0::key_derivation::hmac::absorb_xored::<#7cab53feae2e1c66>": // @"deerlapse_0_1_0::key_derivation::hmac::absorb_xored::<#7cab53feae2e1c66>"
	.cfi_startproc
// %bb.0:                               // %start
	sub	sp, sp, #272
	.cfi_def_cfa_offset 272
	stp	x29, x30, [sp, #240]            // 16-byte Folded Spill
	stp	x28, x19, [sp, #256]            // 16-byte Folded Spill
	add	x29, sp, #240
	.cfi_def_cfa w29, 32
	.cfi_offset w19, -8
	.cfi_offset w28, -16
	.cfi_offset w30, -24
	.cfi_offset w29, -32
	movi	v1.2d, #0000000000000000
	dup	v0.16b, w2
	mov	x19, x0
	mov	x8, xzr
	stp	q1, q1, [sp, #112]
	stp	q1, q1, [sp, #144]
	stp	q1, q1, [sp, #176]
	stp	q1, q1, [sp, #208]
.Ldeerlapse_0_1_0_BB6_1:                                // %vector.body
                                        // =>This Inner Loop Header: Depth=1
	ldr	q1, [x1, x8]
	add	x9, sp, #112
	eor	v1.16b, v1.16b, v0.16b
	str	q1, [x9, x8]
	add	x8, x8, #16
	cmp	x8, #64
	b.ne	.Ldeerlapse_0_1_0_BB6_1
// %bb.2:                               // %after.1
	movi	v0.2d, #0000000000000000
	adrp	x8, .Ldeerlapse_0_1_0_CPI6_0
	adrp	x9, .Ldeerlapse_0_1_0_CPI6_1
	ldr	q1, [x8, :lo12:.Ldeerlapse_0_1_0_CPI6_0]
	ldr	q2, [x9, :lo12:.Ldeerlapse_0_1_0_CPI6_1]
	mov	x0, sp
	add	x1, sp, #112
	mov	w2, #64                         // =0x40
	str	xzr, [sp, #96]
	stp	q1, q2, [sp]
	stp	q0, q0, [sp, #32]
	stp	q0, q0, [sp, #64]
	bl	"deerlapse_0_1_0::sha2::block256::Core256::update"
	mov	x1, sp
	mov	x0, x19
	mov	w2, #104                        // =0x68
	bl	memcpy
	.cfi_def_cfa wsp, 272
	ldp	x28, x19, [sp, #256]            // 16-byte Folded Reload
	ldp	x29, x30, [sp, #240]            // 16-byte Folded Reload
	add	sp, sp, #272
	.cfi_def_cfa_offset 0
	.cfi_restore w19
	.cfi_restore w28
	.cfi_restore w30
	.cfi_restore w29
	ret
.Ldeerlapse_0_1_0_func_end6:
	.size	"deerlapse_0_1_0::key_derivation::hmac::absorb_xored::<#7cab53feae2e1c66>", .Ldeerlapse_0_1_0_func_end6-"deerlapse_0_1_0::key_derivation::hmac::absorb_xored::<#7cab53feae2e1c66>"
	.cfi_endproc
                                        // -- End function
	.section	.text.deerlapse_key_derivation,"ax",@progbits
	.p2align	2                               // -- Begin function key_derivation::hmac::HmacKey::finish::<#7cab53feae2e1c66>
	.type	"deerlapse_0_1_0::key_derivation::hmac::HmacKey::finish::<#7cab53feae2e1c66>",@function
"deerlapse_0_1_0::key_derivation::hmac::HmacKey::finish::<#7cab53feae2e1c66>": // @"deerlapse_0_1_0::key_derivation::hmac::HmacKey::finish::<#7cab53feae2e1c66>"
	.cfi_startproc
// %bb.0:                               // %start
	sub	sp, sp, #448
	.cfi_def_cfa_offset 448
	stp	x29, x30, [sp, #384]            // 16-byte Folded Spill
	str	x28, [sp, #400]                 // 8-byte Spill
	stp	x22, x21, [sp, #416]            // 16-byte Folded Spill
	stp	x20, x19, [sp, #432]            // 16-byte Folded Spill
	add	x29, sp, #384
	.cfi_def_cfa w29, 64
	.cfi_offset w19, -8
	.cfi_offset w20, -16
	.cfi_offset w21, -24
	.cfi_offset w22, -32
	.cfi_offset w28, -48
	.cfi_offset w30, -56
	.cfi_offset w29, -64
	movi	v0.2d, #0000000000000000
	ldur	q1, [x1, #105]
	sub	x21, x29, #128
	ldrb	w8, [x1, #104]
	mov	x20, x2
	mov	x19, x0
	ldr	x22, [x1, #200]
	mov	w2, #95                         // =0x5f
	strb	w8, [sp, #152]
	add	x8, sp, #152
	stp	q0, q1, [x21, #16]
	ldur	q1, [x1, #120]
	orr	x0, x8, #0x1
	str	q0, [x21]
	stp	q0, q0, [sp, #112]
	ldur	q0, [x1, #136]
	stur	q1, [x21, #47]
	ldur	q1, [x1, #152]
	stur	q0, [x21, #63]
	ldur	q0, [x1, #168]
	stur	q1, [x21, #79]
	stur	q0, [x21, #95]
	ldur	q0, [x1, #184]
	sub	x1, x29, #96
	stur	q0, [x21, #111]
	bl	memcpy
	add	x0, sp, #8
	mov	x1, x20
	mov	w2, #104                        // =0x68
	str	x22, [sp, #248]
	bl	memcpy
	add	x0, sp, #112
	add	x1, sp, #8
	bl	"deerlapse_0_1_0::sha2::Sha256Digest::finalize"
	add	x0, sp, #152
	add	x1, sp, #112
	mov	w2, #32                         // =0x20
	bl	"deerlapse_0_1_0::sha2::block256::Core256::update"
	sub	x0, x29, #128
	add	x1, sp, #152
	bl	"deerlapse_0_1_0::sha2::Sha256Digest::finalize"
	ldp	q0, q1, [x21]
	stp	q0, q1, [x19]
	.cfi_def_cfa wsp, 448
	ldp	x20, x19, [sp, #432]            // 16-byte Folded Reload
	ldr	x28, [sp, #400]                 // 8-byte Reload
	ldp	x22, x21, [sp, #416]            // 16-byte Folded Reload
	ldp	x29, x30, [sp, #384]            // 16-byte Folded Reload
	add	sp, sp, #448
	.cfi_def_cfa_offset 0
	.cfi_restore w19
	.cfi_restore w20
	.cfi_restore w21
	.cfi_restore w22
	.cfi_restore w28
	.cfi_restore w30
	.cfi_restore w29
	ret
.Ldeerlapse_0_1_0_func_end7:
	.size	"deerlapse_0_1_0::key_derivation::hmac::HmacKey::finish::<#7cab53feae2e1c66>", .Ldeerlapse_0_1_0_func_end7-"deerlapse_0_1_0::key_derivation::hmac::HmacKey::finish::<#7cab53feae2e1c66>"
	.cfi_endproc
                                        // -- End function
	.section	.rodata.cst16,"aM",@progbits,16
	.p2align	4, 0x0                          // -- Begin function key_derivation::hmac::HmacKey::new::<#01e4f4eb65b1d8bb>
.Ldeerlapse_0_1_0_CPI8_0:
	.xword	-3766243637369397544            // 0xcbbb9d5dc1059ed8
	.xword	7105036623409894663             // 0x629a292a367cd507
.Ldeerlapse_0_1_0_CPI8_1:
	.xword	-7973340178411365097            // 0x9159015a3070dd17
	.xword	1526699215303891257             // 0x152fecd8f70e5939
.Ldeerlapse_0_1_0_CPI8_2:
	.xword	7436329637833083697             // 0x67332667ffc00b31
	.xword	-8163818279084223215            // 0x8eb44a8768581511
.Ldeerlapse_0_1_0_CPI8_3:
	.xword	-2662702644619276377            // 0xdb0c2e0d64f98fa7
	.xword	5167115440072839076             // 0x47b5481dbefa4fa4
	.section	.text.deerlapse_key_derivation,"ax",@progbits
	.p2align	2
	.type	"deerlapse_0_1_0::key_derivation::hmac::HmacKey::new::<#01e4f4eb65b1d8bb>",@function
"deerlapse_0_1_0::key_derivation::hmac::HmacKey::new::<#01e4f4eb65b1d8bb>": // @"deerlapse_0_1_0::key_derivation::hmac::HmacKey::new::<#01e4f4eb65b1d8bb>"
	.cfi_startproc
// %bb.0:                               // %start
	stp	x29, x30, [sp, #-48]!           // 16-byte Folded Spill
	.cfi_def_cfa_offset 48
	stp	x28, x21, [sp, #16]             // 16-byte Folded Spill
	stp	x20, x19, [sp, #32]             // 16-byte Folded Spill
	mov	x29, sp
	.cfi_def_cfa w29, 48
	.cfi_offset w19, -8
	.cfi_offset w20, -16
	.cfi_offset w21, -24
	.cfi_offset w28, -32
	.cfi_offset w30, -40
	.cfi_offset w29, -48
	sub	sp, sp, #1344
	mov	x20, x2
	mov	x21, x1
	mov	x19, x0
	add	x0, sp, #544
	mov	w1, wzr
	mov	w2, #416                        // =0x1a0
	str	xzr, [sp]
	bl	memset
	movi	v0.2d, #0000000000000000
	add	x0, sp, #208
	mov	w1, wzr
	mov	w2, #208                        // =0xd0
	stp	q0, q0, [sp, #416]
	stp	q0, q0, [sp, #448]
	stp	q0, q0, [sp, #480]
	stp	q0, q0, [sp, #512]
	bl	memset
	mov	x0, sp
	mov	w1, wzr
	mov	w2, #208                        // =0xd0
	bl	memset
	movi	v0.2d, #0000000000000000
	cmp	x20, #129
	str	q0, [sp, #1072]
	str	q0, [sp, #1056]
	str	q0, [sp, #1040]
	stp	q0, q0, [sp, #976]
	stp	q0, q0, [sp, #1008]
	str	q0, [sp, #960]
	b.lo	.Ldeerlapse_0_1_0_BB8_2
// %bb.1:                               // %then.1.i
	sub	x8, x29, #208
	mov	w1, wzr
	mov	w2, #144                        // =0x90
	add	x0, x8, #64
	stp	q0, q0, [x29, #-256]
	stur	q0, [x29, #-224]
	bl	memset
	adrp	x8, .Ldeerlapse_0_1_0_CPI8_0
	adrp	x9, .Ldeerlapse_0_1_0_CPI8_1
	sub	x0, x29, #208
	ldr	q0, [x8, :lo12:.Ldeerlapse_0_1_0_CPI8_0]
	ldr	q1, [x9, :lo12:.Ldeerlapse_0_1_0_CPI8_1]
	adrp	x8, .Ldeerlapse_0_1_0_CPI8_2
	adrp	x9, .Ldeerlapse_0_1_0_CPI8_3
	ldr	q2, [x8, :lo12:.Ldeerlapse_0_1_0_CPI8_2]
	mov	x1, x21
	stp	q0, q1, [x29, #-208]
	ldr	q0, [x9, :lo12:.Ldeerlapse_0_1_0_CPI8_3]
	mov	x2, x20
	stp	q2, q0, [x29, #-176]
	bl	"deerlapse_0_1_0::sha2::block512::Core512::update"
	sub	x0, x29, #256
	sub	x1, x29, #208
	bl	"deerlapse_0_1_0::sha2::Sha384Digest::finalize"
	ldp	q0, q1, [x29, #-256]
	ldur	q2, [x29, #-224]
	str	q2, [sp, #992]
	stp	q0, q1, [sp, #960]
	b	.Ldeerlapse_0_1_0_BB8_3
.Ldeerlapse_0_1_0_BB8_2:                                // %else.2.i
	add	x0, sp, #960
	mov	x1, x21
	mov	x2, x20
	bl	memcpy
.Ldeerlapse_0_1_0_BB8_3:                                // %"key_derivation::hmac::key_block::<#01e4f4eb65b1d8bb>.exit"
	add	x0, sp, #416
	add	x1, sp, #960
	mov	w2, #128                        // =0x80
	bl	memcpy
	add	x0, sp, #208
	add	x1, sp, #416
	mov	w2, #54                         // =0x36
	bl	"deerlapse_0_1_0::key_derivation::hmac::absorb_xored::<#01e4f4eb65b1d8bb>"
	mov	x0, sp
	add	x1, sp, #416
	mov	w2, #92                         // =0x5c
	bl	"deerlapse_0_1_0::key_derivation::hmac::absorb_xored::<#01e4f4eb65b1d8bb>"
	add	x0, sp, #544
	add	x1, sp, #208
	mov	w2, #208                        // =0xd0
	add	x20, sp, #544
	bl	memcpy
	add	x0, x20, #208
	mov	x1, sp
	mov	w2, #208                        // =0xd0
	bl	memcpy
	add	x1, sp, #544
	mov	x0, x19
	mov	w2, #416                        // =0x1a0
	bl	memcpy
	add	sp, sp, #1344
	.cfi_def_cfa wsp, 48
	ldp	x20, x19, [sp, #32]             // 16-byte Folded Reload
	ldp	x28, x21, [sp, #16]             // 16-byte Folded Reload
	ldp	x29, x30, [sp], #48             // 16-byte Folded Reload
	.cfi_def_cfa_offset 0
	.cfi_restore w19
	.cfi_restore w20
	.cfi_restore w21
	.cfi_restore w28
	.cfi_restore w30
	.cfi_restore w29
	ret
.Ldeerlapse_0_1_0_func_end8:
	.size	"deerlapse_0_1_0::key_derivation::hmac::HmacKey::new::<#01e4f4eb65b1d8bb>", .Ldeerlapse_0_1_0_func_end8-"deerlapse_0_1_0::key_derivation::hmac::HmacKey::new::<#01e4f4eb65b1d8bb>"
	.cfi_endproc
                                        // -- End function
	.section	.text.deerlapse_key_derivation,"ax",@progbits
	.p2align	2                               // -- Begin function sha2::Sha384Digest::finalize
	.type	"deerlapse_0_1_0::sha2::Sha384Digest::finalize",@function
"deerlapse_0_1_0::sha2::Sha384Digest::finalize":         // @"deerlapse_0_1_0::sha2::Sha384Digest::finalize"
	.cfi_startproc
// %bb.0:                               // %start
	sub	sp, sp, #464
	.cfi_def_cfa_offset 464
	stp	x29, x30, [sp, #416]            // 16-byte Folded Spill
	stp	x28, x21, [sp, #432]            // 16-byte Folded Spill
	stp	x20, x19, [sp, #448]            // 16-byte Folded Spill
	add	x29, sp, #416
	.cfi_def_cfa w29, 48
	.cfi_offset w19, -8
	.cfi_offset w20, -16
	.cfi_offset w21, -24
	.cfi_offset w28, -32
	.cfi_offset w30, -40
	.cfi_offset w29, -48
	movi	v0.2d, #0000000000000000
	mov	x19, x0
	add	x0, sp, #208
	mov	w2, #208                        // =0xd0
	stp	q0, q0, [sp]
	stp	q0, q0, [sp, #32]
	bl	memcpy
	ldp	x20, x21, [sp, #400]
	mov	w8, #111                        // =0x6f
	adrp	x1, .Ldeerlapse_0_1_0_static.2
	add	x1, x1, :lo12:.Ldeerlapse_0_1_0_static.2
	add	x0, sp, #208
	sub	w8, w8, w20
	and	x8, x8, #0x7f
	add	x2, x8, #1
	bl	"deerlapse_0_1_0::sha2::block512::Core512::update"
	ubfx	x8, x21, #53, #8
	ubfx	x9, x21, #45, #16
	add	x0, sp, #208
	add	x1, sp, #64
	mov	w2, #16                         // =0x10
	fmov	s0, w8
	ubfx	x8, x21, #37, #24
	mov	v0.b[1], w9
	lsl	x9, x20, #3
	mov	v0.b[2], w8
	lsr	x8, x21, #29
	mov	v0.b[3], w8
	lsr	x8, x21, #21
	mov	v0.b[4], w8
	lsr	x8, x21, #13
	mov	v0.b[5], w8
	lsr	x8, x21, #5
	mov	v0.b[6], w8
	extr	x8, x21, x20, #61
	extr	x10, x8, x9, #56
	mov	v0.b[7], w8
	mov	v0.b[8], w10
	extr	x10, x8, x9, #48
	extr	x8, x8, x9, #40
	mov	v0.b[9], w10
	mov	v0.b[10], w8
	lsr	x8, x20, #29
	mov	v0.b[11], w8
	lsr	x8, x20, #21
	mov	v0.b[12], w8
	lsr	x8, x20, #13
	mov	v0.b[13], w8
	lsr	x8, x20, #5
	mov	v0.b[14], w8
	mov	v0.b[15], w9
	str	q0, [sp, #64]
	bl	"deerlapse_0_1_0::sha2::block512::Core512::update"
	ldp	q0, q1, [sp, #208]
	mov	x8, xzr
	stp	q0, q1, [sp, #144]
	ldp	q0, q2, [sp, #240]
	stp	q0, q2, [sp, #176]
	movi	v0.2d, #0000000000000000
	stp	q0, q0, [sp, #80]
	stp	q0, q0, [sp, #112]
.Ldeerlapse_0_1_0_BB9_1:                                // %vector.body
                                        // =>This Inner Loop Header: Depth=1
	add	x9, sp, #144
	ldr	q0, [x9, x8]
	add	x9, sp, #80
	rev64	v0.16b, v0.16b
	str	q0, [x9, x8]
	add	x8, x8, #16
	cmp	x8, #64
	b.ne	.Ldeerlapse_0_1_0_BB9_1
// %bb.2:                               // %"sha2::block512::Core512::finalize.exit"
	ldp	q0, q1, [sp, #80]
	ldp	q2, q3, [sp, #112]
	stp	q0, q1, [sp]
	stp	q2, q3, [sp, #32]
	stp	q0, q1, [x19]
	str	q2, [x19, #32]
	.cfi_def_cfa wsp, 464
	ldp	x20, x19, [sp, #448]            // 16-byte Folded Reload
	ldp	x28, x21, [sp, #432]            // 16-byte Folded Reload
	ldp	x29, x30, [sp, #416]            // 16-byte Folded Reload
	add	sp, sp, #464
	.cfi_def_cfa_offset 0
	.cfi_restore w19
	.cfi_restore w20
	.cfi_restore w21
	.cfi_restore w28
	.cfi_restore w30
	.cfi_restore w29
	ret
.Ldeerlapse_0_1_0_func_end9:
	.size	"deerlapse_0_1_0::sha2::Sha384Digest::finalize", .Ldeerlapse_0_1_0_func_end9-"deerlapse_0_1_0::sha2::Sha384Digest::finalize"
	.cfi_endproc
                                        // -- End function
	.section	.text.deerlapse_key_derivation,"ax",@progbits
	.p2align	2                               // -- Begin function sha2::block512::Core512::update
	.type	"deerlapse_0_1_0::sha2::block512::Core512::update",@function
"deerlapse_0_1_0::sha2::block512::Core512::update":      // @"deerlapse_0_1_0::sha2::block512::Core512::update"
	.cfi_startproc
// %bb.0:                               // %start
	stp	x29, x30, [sp, #-80]!           // 16-byte Folded Spill
	.cfi_def_cfa_offset 80
	str	x25, [sp, #16]                  // 8-byte Spill
	stp	x24, x23, [sp, #32]             // 16-byte Folded Spill
	stp	x22, x21, [sp, #48]             // 16-byte Folded Spill
	stp	x20, x19, [sp, #64]             // 16-byte Folded Spill
	mov	x29, sp
	.cfi_def_cfa w29, 80
	.cfi_offset w19, -8
	.cfi_offset w20, -16
	.cfi_offset w21, -24
	.cfi_offset w22, -32
	.cfi_offset w23, -40
	.cfi_offset w24, -48
	.cfi_offset w25, -64
	.cfi_offset w30, -72
	.cfi_offset w29, -80
	.cfi_remember_state
	ldp	x8, x9, [x0, #192]
	mov	x19, x2
	mov	x20, x1
	mov	x21, x0
	adds	x10, x8, x2
	and	x8, x8, #0x7f
	cinc	x9, x9, hs
	stp	x10, x9, [x0, #192]
	cbz	x8, .Ldeerlapse_0_1_0_BB10_4
// %bb.1:                               // %then.1
	mov	w9, #128                        // =0x80
	sub	x22, x9, x8
	add	x9, x21, #64
	add	x0, x9, x8
	cmp	x19, x22
	sub	x10, x0, x20
	b.hs	.Ldeerlapse_0_1_0_BB10_5
// %bb.2:                               // %then.4
	cmp	x10, x19
	b.hs	.Ldeerlapse_0_1_0_BB10_7
.Ldeerlapse_0_1_0_BB10_3:                               // %join.7.i.i.i.i.i.i
                                        // =>This Inner Loop Header: Depth=1
	ldrb	w8, [x20], #1
	subs	x19, x19, #1
	strb	w8, [x0], #1
	b.ne	.Ldeerlapse_0_1_0_BB10_3
	b	.Ldeerlapse_0_1_0_BB10_15
.Ldeerlapse_0_1_0_BB10_4:
	mov	x22, xzr
	b	.Ldeerlapse_0_1_0_BB10_10
.Ldeerlapse_0_1_0_BB10_5:                               // %join.6
	cmp	x10, x22
	mov	x10, x20
	b.hs	.Ldeerlapse_0_1_0_BB10_8
.Ldeerlapse_0_1_0_BB10_6:                               // %join.7.i.i.i.i.i.i37
                                        // =>This Inner Loop Header: Depth=1
	ldrb	w11, [x10], #1
	strb	w11, [x9, x8]
	add	x8, x8, #1
	cmp	x8, #128
	b.ne	.Ldeerlapse_0_1_0_BB10_6
	b	.Ldeerlapse_0_1_0_BB10_9
.Ldeerlapse_0_1_0_BB10_7:                               // %apart.2.i.i.i.i.i.i
	mov	x1, x20
	mov	x2, x19
	.cfi_def_cfa wsp, 80
	b	.Ldeerlapse_0_1_0_BB10_17
.Ldeerlapse_0_1_0_BB10_8:                               // %apart.2.i.i.i.i.i.i36
	.cfi_restore_state
	.cfi_remember_state
	mov	x1, x20
	mov	x2, x22
	bl	memmove
.Ldeerlapse_0_1_0_BB10_9:                               // %"core::slice::edits::slice+T::copy_from_slice::<i8,20'core::clone::U8Clone{}>.exit44"
	add	x1, x21, #64
	mov	x0, x21
	bl	"deerlapse_0_1_0::sha2::block512::compress"
.Ldeerlapse_0_1_0_BB10_10:                              // %join.3
	sub	x24, x19, x22
	lsr	x25, x24, #7
	cbz	x25, .Ldeerlapse_0_1_0_BB10_13
// %bb.11:                              // %join.11.lr.ph
	add	x23, x20, x22
.Ldeerlapse_0_1_0_BB10_12:                              // %join.11
                                        // =>This Inner Loop Header: Depth=1
	mov	x0, x21
	mov	x1, x23
	bl	"deerlapse_0_1_0::sha2::block512::compress"
	subs	x25, x25, #1
	add	x23, x23, #128
	b.ne	.Ldeerlapse_0_1_0_BB10_12
.Ldeerlapse_0_1_0_BB10_13:                              // %after.7
	and	x8, x24, #0xffffffffffffff80
	add	x0, x21, #64
	add	x8, x8, x22
	add	x1, x20, x8
	sub	x2, x19, x8
	sub	x8, x0, x1
	cmp	x8, x2
	b.hs	.Ldeerlapse_0_1_0_BB10_16
.Ldeerlapse_0_1_0_BB10_14:                              // %join.7.i.i.i.i.i.i50
                                        // =>This Inner Loop Header: Depth=1
	ldrb	w8, [x1], #1
	subs	x2, x2, #1
	strb	w8, [x0], #1
	b.ne	.Ldeerlapse_0_1_0_BB10_14
.Ldeerlapse_0_1_0_BB10_15:                              // %common.ret
	.cfi_def_cfa wsp, 80
	ldp	x20, x19, [sp, #64]             // 16-byte Folded Reload
	ldr	x25, [sp, #16]                  // 8-byte Reload
	ldp	x22, x21, [sp, #48]             // 16-byte Folded Reload
	ldp	x24, x23, [sp, #32]             // 16-byte Folded Reload
	ldp	x29, x30, [sp], #80             // 16-byte Folded Reload
	.cfi_def_cfa_offset 0
	.cfi_restore w19
	.cfi_restore w20
	.cfi_restore w21
	.cfi_restore w22
	.cfi_restore w23
	.cfi_restore w24
	.cfi_restore w25
	.cfi_restore w30
	.cfi_restore w29
	ret
.Ldeerlapse_0_1_0_BB10_16:                              // %apart.2.i.i.i.i.i.i49
	.cfi_restore_state
	.cfi_def_cfa wsp, 80
.Ldeerlapse_0_1_0_BB10_17:                              // %apart.2.i.i.i.i.i.i49
	ldp	x20, x19, [sp, #64]             // 16-byte Folded Reload
	ldr	x25, [sp, #16]                  // 8-byte Reload
	ldp	x22, x21, [sp, #48]             // 16-byte Folded Reload
	ldp	x24, x23, [sp, #32]             // 16-byte Folded Reload
	ldp	x29, x30, [sp], #80             // 16-byte Folded Reload
	.cfi_def_cfa_offset 0
	.cfi_restore w19
	.cfi_restore w20
	.cfi_restore w21
	.cfi_restore w22
	.cfi_restore w23
	.cfi_restore w24
	.cfi_restore w25
	.cfi_restore w30
	.cfi_restore w29
	b	memmove
.Ldeerlapse_0_1_0_func_end10:
	.size	"deerlapse_0_1_0::sha2::block512::Core512::update", .Ldeerlapse_0_1_0_func_end10-"deerlapse_0_1_0::sha2::block512::Core512::update"
	.cfi_endproc
                                        // -- End function
	.section	.text.deerlapse_key_derivation,"ax",@progbits
	.p2align	2                               // -- Begin function sha2::block512::compress
	.type	"deerlapse_0_1_0::sha2::block512::compress",@function
"deerlapse_0_1_0::sha2::block512::compress":             // @"deerlapse_0_1_0::sha2::block512::compress"
	.cfi_startproc
// %bb.0:                               // %start
	sub	sp, sp, #400
	.cfi_def_cfa_offset 400
	str	x30, [sp, #304]                 // 8-byte Spill
	stp	x28, x27, [sp, #320]            // 16-byte Folded Spill
	stp	x26, x25, [sp, #336]            // 16-byte Folded Spill
	stp	x24, x23, [sp, #352]            // 16-byte Folded Spill
	stp	x22, x21, [sp, #368]            // 16-byte Folded Spill
	stp	x20, x19, [sp, #384]            // 16-byte Folded Spill
	.cfi_offset w19, -8
	.cfi_offset w20, -16
	.cfi_offset w21, -24
	.cfi_offset w22, -32
	.cfi_offset w23, -40
	.cfi_offset w24, -48
	.cfi_offset w25, -56
	.cfi_offset w26, -64
	.cfi_offset w27, -72
	.cfi_offset w28, -80
	.cfi_offset w30, -96
	movi	v0.2d, #0000000000000000
	mov	x8, xzr
	stp	q0, q0, [sp, #176]
	stp	q0, q0, [sp, #208]
	stp	q0, q0, [sp, #240]
	stp	q0, q0, [sp, #272]
.Ldeerlapse_0_1_0_BB11_1:                               // %vector.body
                                        // =>This Inner Loop Header: Depth=1
	ldr	q0, [x1, x8]
	add	x9, sp, #176
	rev64	v0.16b, v0.16b
	str	q0, [x9, x8]
	add	x8, x8, #16
	cmp	x8, #128
	b.ne	.Ldeerlapse_0_1_0_BB11_1
// %bb.2:                               // %after.3
	ldp	x16, x2, [x0, #32]
	mov	x8, #44578                      // =0xae22
	ldp	x19, x6, [x0]
	movk	x8, #55080, lsl #16
	ldp	x17, x13, [x0, #48]
	movk	x8, #12184, lsl #32
	eor	x9, x16, x16, ror #23
	ldp	x14, x1, [sp, #176]
	eor	x11, x19, x19, ror #5
	ldp	x3, x15, [x0, #16]
	bic	x10, x17, x16
	and	x12, x2, x16
	eor	x9, x16, x9, ror #4
	eor	x11, x19, x11, ror #6
	str	x13, [sp, #48]                  // 8-byte Spill
	add	x13, x13, x14
	orr	x10, x12, x10
	eor	x12, x6, x19
	movk	x8, #17034, lsl #48
	str	x14, [sp, #312]                 // 8-byte Spill
	add	x10, x13, x10
	ror	x9, x9, #14
	ror	x11, x11, #28
	bic	x13, x6, x12
	and	x14, x3, x12
	add	x8, x10, x8
	orr	x10, x14, x13
	mov	x13, #26061                     // =0x65cd
	add	x9, x8, x9
	add	x8, x11, x10
	str	x15, [sp, #24]                  // 8-byte Spill
	add	x8, x8, x9
	add	x11, x9, x15
	movk	x13, #9199, lsl #16
	eor	x9, x11, x11, ror #23
	eor	x10, x8, x8, ror #5
	bic	x14, x2, x11
	and	x15, x16, x11
	str	x0, [sp, #80]                   // 8-byte Spill
	movk	x13, #17553, lsl #32
	eor	x9, x11, x9, ror #4
	eor	x10, x8, x10, ror #6
	eor	x0, x8, x19
	str	x1, [sp, #168]                  // 8-byte Spill
	add	x1, x17, x1
	orr	x14, x15, x14
	movk	x13, #28983, lsl #48
	and	x12, x0, x12
	add	x14, x1, x14
	ror	x9, x9, #14
	ror	x10, x10, #28
	eor	x12, x12, x19
	add	x13, x14, x13
	str	x17, [sp, #64]                  // 8-byte Spill
	add	x13, x13, x9
	add	x9, x10, x12
	mov	x10, #15151                     // =0x3b2f
	add	x9, x9, x13
	add	x12, x13, x3
	movk	x10, #60493, lsl #16
	eor	x13, x12, x12, ror #23
	eor	x14, x9, x9, ror #5
	str	x3, [sp, #16]                   // 8-byte Spill
	ldp	x17, x1, [sp, #192]
	bic	x15, x16, x12
	and	x3, x11, x12
	eor	x13, x12, x13, ror #4
	eor	x14, x9, x14, ror #6
	movk	x10, #64463, lsl #32
	eor	x4, x9, x8
	orr	x15, x3, x15
	add	x5, x2, x17
	movk	x10, #46528, lsl #48
	and	x0, x4, x0
	add	x15, x5, x15
	ror	x13, x13, #14
	ror	x14, x14, #28
	eor	x0, x0, x8
	add	x10, x15, x10
	str	x6, [sp, #32]                   // 8-byte Spill
	add	x13, x10, x13
	add	x10, x14, x0
	mov	x0, #56252                      // =0xdbbc
	add	x10, x10, x13
	add	x13, x13, x6
	movk	x0, #33161, lsl #16
	eor	x14, x13, x13, ror #23
	eor	x15, x10, x10, ror #5
	bic	x3, x11, x13
	and	x5, x12, x13
	movk	x0, #56229, lsl #32
	eor	x6, x10, x9
	eor	x14, x13, x14, ror #4
	eor	x15, x10, x15, ror #6
	add	x7, x16, x1
	orr	x3, x5, x3
	movk	x0, #59829, lsl #48
	and	x4, x6, x4
	add	x3, x7, x3
	ror	x14, x14, #14
	ror	x15, x15, #28
	eor	x4, x4, x9
	add	x0, x3, x0
	str	x16, [sp, #72]                  // 8-byte Spill
	add	x0, x0, x14
	add	x14, x15, x4
	stp	x1, x17, [sp, #152]             // 16-byte Folded Spill
	add	x14, x14, x0
	add	x16, x0, x19
	eor	x0, x16, x16, ror #23
	eor	x5, x14, x14, ror #5
	mov	x15, #46392                     // =0xb538
	ldp	x17, x1, [sp, #208]
	movk	x15, #62280, lsl #16
	str	x19, [sp, #40]                  // 8-byte Spill
	bic	x19, x12, x16
	and	x20, x13, x16
	eor	x0, x16, x0, ror #4
	eor	x5, x14, x5, ror #6
	movk	x15, #49755, lsl #32
	eor	x21, x14, x10
	add	x11, x17, x11
	orr	x19, x20, x19
	movk	x15, #14678, lsl #48
	and	x6, x21, x6
	add	x11, x11, x19
	ror	x0, x0, #14
	ror	x5, x5, #28
	eor	x6, x6, x10
	add	x11, x11, x15
	add	x12, x1, x12
	mov	x7, x17
	add	x15, x11, x0
	add	x11, x5, x6
	mov	x5, #53273                      // =0xd019
	add	x11, x11, x15
	add	x15, x15, x8
	movk	x5, #46597, lsl #16
	eor	x8, x15, x15, ror #23
	eor	x0, x11, x11, ror #5
	bic	x6, x13, x15
	and	x19, x16, x15
	movk	x5, #4593, lsl #32
	eor	x22, x11, x14
	eor	x8, x15, x8, ror #4
	eor	x0, x11, x0, ror #6
	orr	x6, x19, x6
	movk	x5, #23025, lsl #48
	and	x19, x22, x21
	add	x12, x12, x6
	ror	x8, x8, #14
	ror	x0, x0, #28
	eor	x6, x19, x14
	add	x12, x12, x5
	ldp	x3, x5, [sp, #240]
	add	x8, x12, x8
	add	x12, x0, x6
	mov	x0, #20379                      // =0x4f9b
	add	x12, x12, x8
	add	x20, x8, x9
	movk	x0, #44825, lsl #16
	eor	x8, x20, x20, ror #23
	eor	x9, x12, x12, ror #5
	bic	x19, x16, x20
	ldp	x17, x6, [sp, #224]
	and	x21, x15, x20
	eor	x8, x20, x8, ror #4
	eor	x9, x12, x9, ror #6
	movk	x0, #33444, lsl #32
	eor	x23, x12, x11
	orr	x19, x21, x19
	movk	x0, #37439, lsl #48
	add	x13, x17, x13
	and	x21, x23, x22
	ror	x8, x8, #14
	add	x13, x13, x19
	ror	x9, x9, #28
	eor	x19, x21, x11
	add	x13, x13, x0
	add	x16, x6, x16
	ldr	x4, [sp, #312]                  // 8-byte Reload
	add	x8, x13, x8
	add	x9, x9, x19
	mov	x13, #33048                     // =0x8118
	add	x9, x9, x8
	add	x0, x8, x10
	movk	x13, #55917, lsl #16
	eor	x8, x0, x0, ror #23
	eor	x10, x9, x9, ror #5
	bic	x19, x15, x0
	and	x21, x20, x0
	movk	x13, #24277, lsl #32
	eor	x22, x9, x12
	eor	x8, x0, x8, ror #4
	eor	x10, x9, x10, ror #6
	orr	x19, x21, x19
	movk	x13, #43804, lsl #48
	and	x21, x22, x23
	add	x16, x16, x19
	ror	x8, x8, #14
	ror	x10, x10, #28
	eor	x19, x21, x12
	add	x13, x16, x13
	add	x15, x3, x15
	str	x2, [sp, #56]                   // 8-byte Spill
	add	x13, x13, x8
	add	x8, x10, x19
	stp	x17, x1, [sp, #136]             // 16-byte Folded Spill
	add	x8, x8, x13
	add	x14, x13, x14
	eor	x10, x14, x14, ror #23
	eor	x13, x8, x8, ror #5
	bic	x21, x20, x14
	and	x23, x0, x14
	add	x20, x5, x20
	orr	x21, x23, x21
	mov	x23, #578                       // =0x242
	eor	x10, x14, x10, ror #4
	eor	x13, x8, x13, ror #6
	movk	x23, #41731, lsl #16
	add	x15, x15, x21
	movk	x23, #43672, lsl #32
	eor	x21, x8, x9
	ror	x10, x10, #14
	movk	x23, #55303, lsl #48
	and	x22, x21, x22
	ror	x13, x13, #28
	eor	x22, x22, x9
	add	x15, x15, x23
	add	x15, x15, x10
	add	x10, x13, x22
	add	x10, x10, x15
	add	x11, x15, x11
	eor	x13, x11, x11, ror #23
	eor	x15, x10, x10, ror #5
	bic	x22, x0, x11
	and	x23, x14, x11
	orr	x22, x23, x22
	mov	x23, #28606                     // =0x6fbe
	eor	x13, x11, x13, ror #4
	eor	x15, x10, x15, ror #6
	movk	x23, #17776, lsl #16
	add	x20, x20, x22
	movk	x23, #23297, lsl #32
	eor	x22, x10, x8
	ror	x13, x13, #14
	movk	x23, #4739, lsl #48
	and	x21, x22, x21
	ror	x15, x15, #28
	eor	x21, x21, x8
	add	x20, x20, x23
	add	x23, x20, x13
	add	x13, x15, x21
	ldp	x19, x20, [sp, #256]
	add	x13, x13, x23
	add	x24, x23, x12
	eor	x23, x13, x13, ror #5
	eor	x25, x13, x10
	bic	x15, x14, x24
	and	x21, x11, x24
	eor	x12, x24, x24, ror #23
	orr	x15, x21, x15
	add	x0, x19, x0
	and	x22, x25, x22
	add	x15, x0, x15
	eor	x0, x13, x23, ror #6
	mov	x23, #45708                     // =0xb28c
	eor	x12, x24, x12, ror #4
	movk	x23, #20196, lsl #16
	add	x14, x20, x14
	movk	x23, #34238, lsl #32
	ror	x0, x0, #28
	ror	x12, x12, #14
	movk	x23, #9265, lsl #48
	add	x15, x15, x23
	add	x12, x15, x12
	eor	x15, x22, x10
	add	x0, x0, x15
	add	x15, x12, x9
	add	x9, x0, x12
	eor	x12, x15, x15, ror #23
	bic	x0, x11, x15
	eor	x23, x9, x9, ror #5
	and	x22, x24, x15
	eor	x26, x9, x13
	orr	x0, x22, x0
	eor	x12, x15, x12, ror #4
	eor	x22, x9, x23, ror #6
	mov	x23, #46306                     // =0xb4e2
	add	x14, x14, x0
	movk	x23, #54783, lsl #16
	and	x0, x26, x25
	ror	x12, x12, #14
	movk	x23, #32195, lsl #32
	ror	x22, x22, #28
	eor	x0, x0, x13
	movk	x23, #21772, lsl #48
	add	x14, x14, x23
	add	x14, x14, x12
	add	x12, x22, x0
	ldp	x22, x21, [sp, #272]
	add	x12, x12, x14
	add	x8, x14, x8
	eor	x25, x12, x12, ror #5
	eor	x27, x12, x9
	bic	x0, x24, x8
	and	x23, x15, x8
	eor	x14, x8, x8, ror #23
	orr	x0, x23, x0
	add	x11, x22, x11
	add	x11, x11, x0
	eor	x0, x12, x25, ror #6
	mov	x25, #35183                     // =0x896f
	eor	x14, x8, x14, ror #4
	movk	x25, #62075, lsl #16
	movk	x25, #23924, lsl #32
	ror	x0, x0, #28
	ror	x14, x14, #14
	movk	x25, #29374, lsl #48
	add	x11, x11, x25
	and	x25, x27, x26
	add	x11, x11, x14
	eor	x14, x25, x9
	add	x14, x0, x14
	add	x30, x11, x10
	add	x28, x14, x11
	eor	x10, x30, x30, ror #23
	bic	x11, x15, x30
	and	x14, x8, x30
	eor	x0, x28, x28, ror #5
	eor	x26, x28, x12
	orr	x11, x14, x11
	add	x14, x21, x24
	mov	x24, #38577                     // =0x96b1
	eor	x10, x30, x10, ror #4
	movk	x24, #15126, lsl #16
	eor	x0, x28, x0, ror #6
	movk	x24, #45566, lsl #32
	add	x11, x14, x11
	and	x14, x26, x27
	ror	x10, x10, #14
	movk	x24, #32990, lsl #48
	ror	x0, x0, #28
	add	x11, x11, x24
	eor	x14, x14, x12
	add	x10, x11, x10
	add	x11, x0, x14
	add	x14, x10, x13
	ldp	x23, x24, [sp, #288]
	add	x11, x11, x10
	bic	x13, x8, x14
	and	x0, x30, x14
	orr	x13, x0, x13
	eor	x0, x11, x11, ror #5
	eor	x10, x14, x14, ror #23
	add	x15, x23, x15
	eor	x27, x11, x28
	add	x8, x24, x8
	add	x13, x15, x13
	eor	x15, x11, x0, ror #6
	mov	x0, #4661                       // =0x1235
	eor	x10, x14, x10, ror #4
	movk	x0, #9671, lsl #16
	movk	x0, #1703, lsl #32
	ror	x15, x15, #28
	ror	x10, x10, #14
	movk	x0, #39900, lsl #48
	add	x13, x13, x0
	and	x0, x27, x26
	add	x10, x13, x10
	eor	x13, x0, x28
	add	x13, x15, x13
	add	x9, x10, x9
	add	x15, x13, x10
	bic	x13, x30, x9
	and	x0, x14, x9
	eor	x26, x15, x15, ror #5
	eor	x10, x9, x9, ror #23
	orr	x13, x0, x13
	add	x8, x8, x13
	bic	x13, x11, x27
	eor	x0, x15, x26, ror #6
	and	x26, x15, x27
	mov	x27, #9876                      // =0x2694
	eor	x10, x9, x10, ror #4
	movk	x27, #53097, lsl #16
	orr	x13, x26, x13
	movk	x27, #61812, lsl #32
	ror	x0, x0, #28
	adrp	x26, .Ldeerlapse_0_1_0_static.3+248
	add	x26, x26, :lo12:.Ldeerlapse_0_1_0_static.3+248
	ror	x10, x10, #14
	movk	x27, #49563, lsl #48
	add	x8, x8, x27
	add	x8, x8, x10
	add	x10, x0, x13
	add	x10, x10, x8
	add	x13, x8, x12
	mov	w12, #4                         // =0x4
.Ldeerlapse_0_1_0_BB11_3:                               // %join.12
                                        // =>This Inner Loop Header: Depth=1
	str	x3, [sp, #104]                  // 8-byte Spill
	ldr	x3, [sp, #168]                  // 8-byte Reload
	eor	x8, x23, x23, ror #42
	eor	x27, x13, x13, ror #23
	stp	x23, x12, [sp, #120]            // 16-byte Folded Spill
	bic	x0, x14, x13
	eor	x12, x3, x3, ror #7
	and	x16, x9, x13
	eor	x1, x10, x10, ror #5
	ror	x8, x8, #19
	orr	x16, x16, x0
	eor	x0, x13, x27, ror #4
	ldp	x27, x2, [x26, #-120]
	ror	x12, x12, #1
	eor	x8, x8, x23, lsr #6
	add	x16, x30, x16
	eor	x1, x10, x1, ror #6
	ror	x0, x0, #14
	stp	x5, x21, [sp, #88]              // 16-byte Folded Spill
	add	x17, x4, x5
	add	x16, x16, x27
	eor	x12, x12, x3, lsr #7
	ldr	x5, [sp, #160]                  // 8-byte Reload
	add	x8, x17, x8
	add	x16, x0, x16
	ror	x0, x1, #28
	eor	x1, x24, x24, ror #42
	add	x4, x8, x12
	eor	x27, x15, x10
	eor	x8, x5, x5, ror #7
	bic	x12, x15, x27
	and	x30, x11, x27
	ror	x1, x1, #19
	add	x16, x16, x4
	orr	x12, x30, x12
	ror	x8, x8, #1
	add	x0, x0, x12
	add	x12, x16, x28
	eor	x1, x1, x24, lsr #6
	add	x30, x19, x3
	eor	x17, x12, x12, ror #23
	eor	x8, x8, x5, lsr #7
	add	x28, x0, x16
	add	x14, x2, x14
	add	x16, x30, x1
	ldr	x2, [sp, #152]                  // 8-byte Reload
	eor	x0, x28, x28, ror #5
	add	x3, x16, x8
	eor	x8, x12, x17, ror #4
	bic	x16, x9, x12
	and	x17, x13, x12
	add	x14, x14, x3
	mov	x25, x24
	ror	x8, x8, #14
	orr	x16, x17, x16
	eor	x17, x2, x2, ror #7
	add	x14, x14, x16
	eor	x16, x28, x0, ror #6
	eor	x0, x4, x4, ror #42
	add	x14, x14, x8
	eor	x8, x28, x10
	str	x24, [sp, #112]                 // 8-byte Spill
	and	x1, x8, x27
	add	x27, x14, x11
	ror	x11, x17, #1
	ror	x16, x16, #28
	ror	x0, x0, #19
	eor	x17, x1, x10
	eor	x11, x11, x2, lsr #7
	eor	x1, x27, x27, ror #23
	mov	x24, x19
	add	x16, x16, x17
	eor	x17, x0, x4, lsr #6
	add	x0, x20, x5
	add	x11, x0, x11
	add	x30, x16, x14
	bic	x16, x13, x27
	add	x5, x11, x17
	and	x17, x12, x27
	eor	x0, x30, x30, ror #5
	orr	x16, x17, x16
	ldp	x11, x17, [x26, #-104]
	eor	x1, x27, x1, ror #4
	mov	x19, x7
	str	x4, [sp, #312]                  // 8-byte Spill
	str	x3, [sp, #168]                  // 8-byte Spill
	add	x9, x11, x9
	eor	x11, x30, x0, ror #6
	eor	x0, x7, x7, ror #7
	ror	x14, x1, #14
	add	x9, x9, x5
	eor	x1, x3, x3, ror #42
	add	x9, x9, x16
	eor	x16, x30, x28
	ror	x0, x0, #1
	ror	x11, x11, #28
	and	x8, x16, x8
	add	x9, x9, x14
	ror	x1, x1, #19
	eor	x8, x8, x28
	add	x14, x9, x15
	eor	x15, x0, x7, lsr #7
	add	x8, x11, x8
	add	x13, x17, x13
	eor	x0, x1, x3, lsr #6
	add	x1, x22, x2
	eor	x2, x14, x14, ror #23
	add	x11, x8, x9
	add	x8, x1, x15
	bic	x9, x12, x14
	add	x7, x8, x0
	eor	x8, x14, x2, ror #4
	and	x15, x27, x14
	eor	x17, x11, x11, ror #5
	ldr	x2, [sp, #144]                  // 8-byte Reload
	orr	x9, x15, x9
	ror	x8, x8, #14
	add	x13, x13, x7
	eor	x0, x5, x5, ror #42
	add	x9, x13, x9
	eor	x13, x11, x17, ror #6
	eor	x17, x2, x2, ror #7
	add	x15, x9, x8
	eor	x9, x11, x30
	eor	x1, x7, x7, ror #42
	add	x8, x15, x10
	ror	x10, x17, #1
	ror	x13, x13, #28
	and	x16, x9, x16
	ror	x17, x0, #19
	eor	x0, x8, x8, ror #23
	eor	x16, x16, x30
	eor	x10, x10, x2, lsr #7
	ror	x1, x1, #19
	add	x13, x13, x16
	eor	x16, x17, x5, lsr #6
	add	x17, x21, x19
	add	x10, x17, x10
	and	x17, x14, x8
	eor	x0, x8, x0, ror #4
	add	x19, x10, x16
	bic	x16, x27, x8
	add	x13, x13, x15
	orr	x16, x17, x16
	ldp	x10, x17, [x26, #-88]
	ror	x15, x0, #14
	eor	x0, x13, x13, ror #5
	ldr	x21, [sp, #136]                 // 8-byte Reload
	stp	x7, x5, [sp, #152]              // 16-byte Folded Spill
	add	x10, x10, x12
	eor	x12, x13, x0, ror #6
	eor	x0, x21, x21, ror #7
	add	x10, x10, x19
	add	x17, x17, x27
	add	x10, x10, x16
	eor	x16, x13, x11
	ror	x12, x12, #28
	and	x9, x16, x9
	ror	x0, x0, #1
	add	x10, x10, x15
	eor	x9, x9, x11
	add	x15, x10, x28
	add	x9, x12, x9
	eor	x12, x0, x21, lsr #7
	eor	x0, x1, x7, lsr #6
	add	x1, x2, x23
	eor	x2, x15, x15, ror #23
	add	x9, x9, x10
	add	x10, x1, x12
	mov	x23, x22
	mov	x22, x20
	add	x20, x10, x0
	eor	x10, x15, x2, ror #4
	bic	x12, x14, x15
	and	x0, x8, x15
	eor	x1, x9, x9, ror #5
	add	x17, x17, x20
	ror	x10, x10, #14
	orr	x12, x0, x12
	eor	x0, x6, x6, ror #7
	add	x12, x17, x12
	eor	x17, x9, x1, ror #6
	eor	x27, x9, x13
	add	x12, x12, x10
	eor	x1, x19, x19, ror #42
	and	x16, x27, x16
	ror	x17, x17, #28
	add	x10, x12, x30
	ror	x0, x0, #1
	eor	x16, x16, x13
	ror	x1, x1, #19
	eor	x2, x10, x10, ror #23
	add	x16, x17, x16
	eor	x17, x0, x6, lsr #7
	add	x6, x6, x4
	eor	x0, x1, x19, lsr #6
	add	x1, x21, x25
	eor	x2, x10, x2, ror #4
	add	x12, x16, x12
	add	x16, x1, x17
	and	x1, x15, x10
	add	x21, x16, x0
	ror	x16, x2, #14
	bic	x0, x8, x10
	ldp	x17, x2, [x26, #-72]
	ldr	x25, [sp, #104]                 // 8-byte Reload
	ldr	x4, [sp, #88]                   // 8-byte Reload
	stp	x21, x20, [sp, #136]            // 16-byte Folded Spill
	add	x14, x14, x17
	orr	x17, x1, x0
	eor	x0, x12, x12, ror #5
	add	x14, x14, x21
	eor	x1, x12, x9
	add	x14, x14, x17
	eor	x17, x25, x25, ror #7
	add	x14, x14, x16
	eor	x16, x12, x0, ror #6
	eor	x0, x20, x20, ror #42
	add	x28, x14, x11
	ror	x11, x17, #1
	and	x17, x1, x27
	ror	x0, x0, #19
	ror	x16, x16, #28
	eor	x27, x28, x28, ror #23
	eor	x11, x11, x25, lsr #7
	eor	x17, x17, x9
	eor	x0, x0, x20, lsr #6
	add	x16, x16, x17
	eor	x27, x28, x27, ror #4
	add	x11, x6, x11
	add	x30, x16, x14
	bic	x14, x15, x28
	add	x6, x11, x0
	and	x16, x10, x28
	ror	x11, x27, #14
	add	x17, x6, x2
	orr	x14, x16, x14
	eor	x16, x30, x30, ror #5
	add	x8, x17, x8
	eor	x0, x21, x21, ror #42
	add	x8, x8, x14
	eor	x14, x4, x4, ror #7
	eor	x16, x30, x16, ror #6
	add	x11, x8, x11
	eor	x8, x30, x12
	ror	x0, x0, #19
	ror	x14, x14, #1
	add	x13, x11, x13
	and	x17, x8, x1
	ror	x16, x16, #28
	eor	x1, x13, x13, ror #23
	eor	x17, x17, x12
	eor	x14, x14, x4, lsr #7
	add	x16, x16, x17
	eor	x17, x0, x21, lsr #6
	eor	x1, x13, x1, ror #4
	add	x0, x14, x25
	add	x14, x16, x11
	add	x11, x3, x0
	and	x0, x28, x13
	add	x3, x11, x17
	ror	x11, x1, #14
	bic	x17, x10, x13
	ldp	x16, x1, [x26, #-56]
	orr	x17, x0, x17
	eor	x0, x6, x6, ror #42
	add	x16, x3, x16
	add	x15, x16, x15
	eor	x16, x14, x14, ror #5
	add	x15, x15, x17
	eor	x17, x24, x24, ror #7
	add	x11, x15, x11
	eor	x15, x14, x16, ror #6
	eor	x16, x14, x30
	ror	x17, x17, #1
	and	x8, x16, x8
	ror	x2, x15, #28
	add	x15, x11, x9
	ror	x9, x0, #19
	eor	x17, x17, x24, lsr #7
	eor	x8, x8, x30
	eor	x0, x15, x15, ror #23
	add	x8, x2, x8
	eor	x9, x9, x6, lsr #6
	add	x17, x17, x4
	eor	x0, x15, x0, ror #4
	add	x11, x8, x11
	add	x8, x17, x5
	and	x17, x13, x15
	add	x5, x8, x9
	ror	x8, x0, #14
	bic	x9, x28, x15
	add	x0, x5, x1
	eor	x1, x22, x22, ror #7
	orr	x9, x17, x9
	add	x10, x0, x10
	eor	x17, x11, x11, ror #5
	add	x9, x10, x9
	eor	x10, x3, x3, ror #42
	ror	x0, x1, #1
	add	x1, x9, x8
	eor	x8, x11, x17, ror #6
	eor	x9, x11, x14
	and	x16, x9, x16
	ror	x10, x10, #19
	eor	x17, x0, x22, lsr #7
	ror	x0, x8, #28
	eor	x16, x16, x14
	add	x8, x1, x12
	eor	x10, x10, x3, lsr #6
	add	x12, x17, x24
	eor	x17, x8, x8, ror #23
	add	x16, x0, x16
	ldp	x0, x2, [x26, #-40]
	add	x12, x12, x7
	add	x27, x16, x1
	eor	x16, x23, x23, ror #7
	add	x4, x12, x10
	eor	x10, x8, x17, ror #4
	bic	x12, x13, x8
	and	x17, x15, x8
	add	x0, x4, x0
	ror	x16, x16, #1
	ror	x10, x10, #14
	orr	x12, x17, x12
	add	x17, x0, x28
	add	x12, x17, x12
	eor	x0, x5, x5, ror #42
	eor	x17, x27, x11
	add	x12, x12, x10
	eor	x10, x27, x27, ror #5
	eor	x16, x16, x23, lsr #7
	ror	x0, x0, #19
	and	x9, x17, x9
	ldr	x24, [sp, #96]                  // 8-byte Reload
	eor	x1, x27, x10, ror #6
	add	x10, x12, x30
	eor	x9, x9, x11
	eor	x0, x0, x5, lsr #6
	add	x16, x16, x22
	eor	x28, x10, x10, ror #23
	ror	x1, x1, #28
	add	x16, x16, x19
	mov	x7, x19
	mov	x19, x4
	add	x4, x16, x0
	bic	x16, x15, x10
	add	x9, x1, x9
	and	x0, x8, x10
	eor	x1, x24, x24, ror #7
	add	x9, x9, x12
	eor	x28, x10, x28, ror #4
	orr	x16, x0, x16
	add	x0, x4, x2
	eor	x2, x9, x9, ror #5
	ror	x1, x1, #1
	add	x13, x0, x13
	eor	x0, x19, x19, ror #42
	ror	x12, x28, #14
	add	x13, x13, x16
	eor	x16, x9, x2, ror #6
	eor	x28, x9, x27
	ror	x0, x0, #19
	eor	x1, x1, x24, lsr #7
	and	x17, x28, x17
	add	x13, x13, x12
	ror	x16, x16, #28
	eor	x17, x17, x27
	add	x12, x13, x14
	eor	x14, x0, x19, lsr #6
	add	x0, x1, x23
	add	x16, x16, x17
	add	x17, x0, x20
	eor	x0, x12, x12, ror #23
	add	x22, x17, x14
	ldp	x14, x1, [x26, #-24]
	ldr	x23, [sp, #120]                 // 8-byte Reload
	add	x13, x16, x13
	eor	x16, x12, x0, ror #4
	bic	x17, x8, x12
	and	x0, x10, x12
	eor	x2, x13, x13, ror #5
	add	x14, x22, x14
	orr	x17, x0, x17
	ror	x16, x16, #14
	add	x14, x14, x15
	eor	x15, x23, x23, ror #7
	eor	x0, x13, x9
	add	x14, x14, x17
	eor	x17, x13, x2, ror #6
	eor	x2, x4, x4, ror #42
	ror	x15, x15, #1
	add	x14, x14, x16
	mov	x20, x4
	ror	x16, x17, #28
	and	x17, x0, x28
	ror	x2, x2, #19
	eor	x15, x15, x23, lsr #7
	eor	x17, x17, x9
	add	x30, x14, x11
	add	x16, x16, x17
	eor	x11, x2, x4, lsr #6
	eor	x17, x30, x30, ror #23
	add	x15, x24, x15
	add	x28, x16, x14
	ldr	x24, [sp, #112]                 // 8-byte Reload
	add	x14, x15, x21
	and	x15, x12, x30
	ldr	x4, [sp, #312]                  // 8-byte Reload
	add	x21, x14, x11
	bic	x14, x10, x30
	eor	x11, x30, x17, ror #4
	eor	x17, x28, x28, ror #5
	orr	x14, x15, x14
	eor	x15, x24, x24, ror #7
	add	x16, x21, x1
	ror	x11, x11, #14
	add	x8, x16, x8
	eor	x16, x28, x17, ror #6
	eor	x17, x22, x22, ror #42
	ror	x15, x15, #1
	add	x14, x8, x14
	eor	x8, x28, x13
	ror	x17, x17, #19
	ror	x16, x16, #28
	and	x0, x8, x0
	eor	x15, x15, x24, lsr #7
	add	x11, x14, x11
	eor	x0, x0, x13
	eor	x17, x17, x22, lsr #6
	add	x14, x11, x27
	add	x16, x16, x0
	add	x15, x15, x23
	eor	x1, x14, x14, ror #23
	add	x11, x16, x11
	add	x15, x15, x6
	bic	x0, x12, x14
	add	x23, x15, x17
	ldp	x15, x2, [x26, #-8]
	eor	x17, x11, x11, ror #5
	eor	x16, x14, x1, ror #4
	and	x1, x30, x14
	orr	x0, x1, x0
	eor	x1, x21, x21, ror #42
	add	x26, x26, #128
	add	x15, x23, x15
	eor	x17, x11, x17, ror #6
	ror	x16, x16, #14
	add	x10, x15, x10
	eor	x15, x4, x4, ror #7
	add	x10, x10, x0
	eor	x0, x11, x28
	ror	x17, x17, #28
	and	x8, x0, x8
	ror	x15, x15, #1
	add	x10, x10, x16
	eor	x8, x8, x28
	ror	x16, x1, #19
	add	x9, x10, x9
	add	x8, x17, x8
	eor	x17, x15, x4, lsr #7
	add	x15, x8, x10
	eor	x8, x16, x21, lsr #6
	eor	x16, x9, x9, ror #23
	add	x10, x17, x24
	eor	x17, x15, x15, ror #5
	add	x10, x10, x3
	add	x24, x10, x8
	eor	x8, x9, x16, ror #4
	eor	x17, x15, x17, ror #6
	bic	x10, x30, x9
	and	x16, x14, x9
	add	x1, x24, x2
	orr	x10, x16, x10
	ror	x8, x8, #14
	add	x12, x1, x12
	ror	x16, x17, #28
	and	x17, x15, x0
	bic	x0, x11, x0
	add	x10, x12, x10
	orr	x12, x17, x0
	add	x8, x10, x8
	add	x10, x16, x12
	ldr	x12, [sp, #128]                 // 8-byte Reload
	add	x10, x10, x8
	add	x13, x8, x13
	subs	x12, x12, #1
	b.ne	.Ldeerlapse_0_1_0_BB11_3
// %bb.4:                               // %after.8
	ldr	x8, [sp, #40]                   // 8-byte Reload
	ldr	x12, [sp, #80]                  // 8-byte Reload
	ldp	x20, x19, [sp, #384]            // 16-byte Folded Reload
	add	x8, x10, x8
	ldr	x10, [sp, #32]                  // 8-byte Reload
	ldp	x22, x21, [sp, #368]            // 16-byte Folded Reload
	add	x10, x15, x10
	ldp	x24, x23, [sp, #352]            // 16-byte Folded Reload
	stp	x8, x10, [x12]
	ldp	x8, x10, [sp, #16]              // 16-byte Folded Reload
	ldp	x26, x25, [sp, #336]            // 16-byte Folded Reload
	add	x8, x11, x8
	add	x10, x28, x10
	stp	x8, x10, [x12, #16]
	ldr	x8, [sp, #72]                   // 8-byte Reload
	ldr	x10, [sp, #56]                  // 8-byte Reload
	ldp	x28, x27, [sp, #320]            // 16-byte Folded Reload
	add	x8, x13, x8
	add	x9, x9, x10
	stp	x8, x9, [x12, #32]
	ldr	x8, [sp, #64]                   // 8-byte Reload
	ldr	x9, [sp, #48]                   // 8-byte Reload
	add	x8, x14, x8
	add	x9, x30, x9
	ldr	x30, [sp, #304]                 // 8-byte Reload
	stp	x8, x9, [x12, #48]
	add	sp, sp, #400
	.cfi_def_cfa_offset 0
	.cfi_restore w19
	.cfi_restore w20
	.cfi_restore w21
	.cfi_restore w22
	.cfi_restore w23
	.cfi_restore w24
	.cfi_restore w25
	.cfi_restore w26
	.cfi_restore w27
	.cfi_restore w28
	.cfi_restore w30
	ret
.Ldeerlapse_0_1_0_func_end11:
	.size	"deerlapse_0_1_0::sha2::block512::compress", .Ldeerlapse_0_1_0_func_end11-"deerlapse_0_1_0::sha2::block512::compress"
	.cfi_endproc
                                        // -- End function
	.section	.rodata.cst16,"aM",@progbits,16
	.p2align	4, 0x0                          // -- Begin function key_derivation::hmac::absorb_xored::<#01e4f4eb65b1d8bb>
.Ldeerlapse_0_1_0_CPI12_0:
	.xword	-3766243637369397544            // 0xcbbb9d5dc1059ed8
	.xword	7105036623409894663             // 0x629a292a367cd507
.Ldeerlapse_0_1_0_CPI12_1:
	.xword	-7973340178411365097            // 0x9159015a3070dd17
	.xword	1526699215303891257             // 0x152fecd8f70e5939
.Ldeerlapse_0_1_0_CPI12_2:
	.xword	7436329637833083697             // 0x67332667ffc00b31
	.xword	-8163818279084223215            // 0x8eb44a8768581511
.Ldeerlapse_0_1_0_CPI12_3:
	.xword	-2662702644619276377            // 0xdb0c2e0d64f98fa7
	.xword	5167115440072839076             // 0x47b5481dbefa4fa4
	.section	.text.deerlapse_key_derivation,"ax",@progbits
	.p2align	2
	.type	"deerlapse_0_1_0::key_derivation::hmac::absorb_xored::<#01e4f4eb65b1d8bb>",@function
"deerlapse_0_1_0::key_derivation::hmac::absorb_xored::<#01e4f4eb65b1d8bb>": // @"deerlapse_0_1_0::key_derivation::hmac::absorb_xored::<#01e4f4eb65b1d8bb>"
	.cfi_startproc
// %bb.0:                               // %start
	sub	sp, sp, #368
	.cfi_def_cfa_offset 368
	stp	x29, x30, [sp, #336]            // 16-byte Folded Spill
	stp	x28, x19, [sp, #352]            // 16-byte Folded Spill
	add	x29, sp, #336
	.cfi_def_cfa w29, 32
	.cfi_offset w19, -8
	.cfi_offset w28, -16
	.cfi_offset w30, -24
	.cfi_offset w29, -32
	movi	v1.2d, #0000000000000000
	dup	v0.16b, w2
	mov	x19, x0
	mov	x8, xzr
	stp	q1, q1, [x29, #-128]
	stp	q1, q1, [x29, #-96]
	stp	q1, q1, [x29, #-64]
	stp	q1, q1, [x29, #-32]
.Ldeerlapse_0_1_0_BB12_1:                               // %vector.body
                                        // =>This Inner Loop Header: Depth=1
	ldr	q1, [x1, x8]
	sub	x9, x29, #128
	eor	v1.16b, v1.16b, v0.16b
	str	q1, [x9, x8]
	add	x8, x8, #16
	cmp	x8, #128
	b.ne	.Ldeerlapse_0_1_0_BB12_1
// %bb.2:                               // %after.1
	adrp	x8, .Ldeerlapse_0_1_0_CPI12_0
	adrp	x9, .Ldeerlapse_0_1_0_CPI12_1
	mov	w1, wzr
	ldr	q0, [x8, :lo12:.Ldeerlapse_0_1_0_CPI12_0]
	ldr	q1, [x9, :lo12:.Ldeerlapse_0_1_0_CPI12_1]
	adrp	x8, .Ldeerlapse_0_1_0_CPI12_2
	adrp	x9, .Ldeerlapse_0_1_0_CPI12_3
	ldr	q2, [x8, :lo12:.Ldeerlapse_0_1_0_CPI12_2]
	mov	x8, sp
	stp	q0, q1, [sp]
	ldr	q0, [x9, :lo12:.Ldeerlapse_0_1_0_CPI12_3]
	add	x0, x8, #64
	mov	w2, #144                        // =0x90
	stp	q2, q0, [sp, #32]
	bl	memset
	mov	x0, sp
	sub	x1, x29, #128
	mov	w2, #128                        // =0x80
	bl	"deerlapse_0_1_0::sha2::block512::Core512::update"
	mov	x1, sp
	mov	x0, x19
	mov	w2, #208                        // =0xd0
	bl	memcpy
	.cfi_def_cfa wsp, 368
	ldp	x28, x19, [sp, #352]            // 16-byte Folded Reload
	ldp	x29, x30, [sp, #336]            // 16-byte Folded Reload
	add	sp, sp, #368
	.cfi_def_cfa_offset 0
	.cfi_restore w19
	.cfi_restore w28
	.cfi_restore w30
	.cfi_restore w29
	ret
.Ldeerlapse_0_1_0_func_end12:
	.size	"deerlapse_0_1_0::key_derivation::hmac::absorb_xored::<#01e4f4eb65b1d8bb>", .Ldeerlapse_0_1_0_func_end12-"deerlapse_0_1_0::key_derivation::hmac::absorb_xored::<#01e4f4eb65b1d8bb>"
	.cfi_endproc
                                        // -- End function
	.section	.text.deerlapse_key_derivation,"ax",@progbits
	.p2align	2                               // -- Begin function key_derivation::hmac::HmacKey::finish::<#01e4f4eb65b1d8bb>
	.type	"deerlapse_0_1_0::key_derivation::hmac::HmacKey::finish::<#01e4f4eb65b1d8bb>",@function
"deerlapse_0_1_0::key_derivation::hmac::HmacKey::finish::<#01e4f4eb65b1d8bb>": // @"deerlapse_0_1_0::key_derivation::hmac::HmacKey::finish::<#01e4f4eb65b1d8bb>"
	.cfi_startproc
// %bb.0:                               // %start
	stp	x29, x30, [sp, #-80]!           // 16-byte Folded Spill
	.cfi_def_cfa_offset 80
	str	x28, [sp, #16]                  // 8-byte Spill
	stp	x24, x23, [sp, #32]             // 16-byte Folded Spill
	stp	x22, x21, [sp, #48]             // 16-byte Folded Spill
	stp	x20, x19, [sp, #64]             // 16-byte Folded Spill
	mov	x29, sp
	.cfi_def_cfa w29, 80
	.cfi_offset w19, -8
	.cfi_offset w20, -16
	.cfi_offset w21, -24
	.cfi_offset w22, -32
	.cfi_offset w23, -40
	.cfi_offset w24, -48
	.cfi_offset w28, -64
	.cfi_offset w30, -72
	.cfi_offset w29, -80
	sub	sp, sp, #1120
	movi	v0.2d, #0000000000000000
	str	xzr, [sp]
	sub	x8, x29, #192
	mov	x20, x2
	mov	x21, x1
	mov	x19, x0
	add	x0, x8, #64
	mov	w2, #128                        // =0x80
	str	xzr, [sp, #520]
	str	xzr, [sp, #512]
	str	q0, [sp, #464]
	stp	q0, q0, [sp, #208]
	stp	q0, q0, [sp, #480]
	str	q0, [sp, #240]
	ldp	q1, q0, [x1, #208]
	str	xzr, [sp, #728]
	str	xzr, [sp, #720]
	stp	q1, q0, [x29, #-192]
	ldp	q2, q0, [x1, #240]
	add	x1, x1, #272
	stp	q2, q0, [x29, #-160]
	bl	memcpy
	ldp	x22, x21, [x21, #400]
	add	x23, sp, #720
	add	x0, x23, #15
	sub	x1, x29, #192
	mov	w2, #192                        // =0xc0
	bl	memcpy
	add	x24, sp, #512
	add	x1, x23, #15
	mov	w2, #192                        // =0xc0
	add	x0, x24, #15
	bl	memcpy
	add	x0, sp, #256
	add	x1, x24, #15
	mov	w2, #192                        // =0xc0
	bl	memcpy
	mov	x0, sp
	mov	x1, x20
	mov	w2, #208                        // =0xd0
	stp	x22, x21, [sp, #448]
	bl	memcpy
	add	x0, sp, #208
	mov	x1, sp
	bl	"deerlapse_0_1_0::sha2::Sha384Digest::finalize"
	add	x0, sp, #256
	add	x1, sp, #208
	mov	w2, #48                         // =0x30
	bl	"deerlapse_0_1_0::sha2::block512::Core512::update"
	add	x0, sp, #464
	add	x1, sp, #256
	bl	"deerlapse_0_1_0::sha2::Sha384Digest::finalize"
	ldp	q0, q1, [sp, #464]
	ldr	q2, [sp, #496]
	str	q2, [x19, #32]
	stp	q0, q1, [x19]
	add	sp, sp, #1120
	.cfi_def_cfa wsp, 80
	ldp	x20, x19, [sp, #64]             // 16-byte Folded Reload
	ldr	x28, [sp, #16]                  // 8-byte Reload
	ldp	x22, x21, [sp, #48]             // 16-byte Folded Reload
	ldp	x24, x23, [sp, #32]             // 16-byte Folded Reload
	ldp	x29, x30, [sp], #80             // 16-byte Folded Reload
	.cfi_def_cfa_offset 0
	.cfi_restore w19
	.cfi_restore w20
	.cfi_restore w21
	.cfi_restore w22
	.cfi_restore w23
	.cfi_restore w24
	.cfi_restore w28
	.cfi_restore w30
	.cfi_restore w29
	ret
.Ldeerlapse_0_1_0_func_end13:
	.size	"deerlapse_0_1_0::key_derivation::hmac::HmacKey::finish::<#01e4f4eb65b1d8bb>", .Ldeerlapse_0_1_0_func_end13-"deerlapse_0_1_0::key_derivation::hmac::HmacKey::finish::<#01e4f4eb65b1d8bb>"
	.cfi_endproc
                                        // -- End function
	.section	.rodata.cst16,"aM",@progbits,16
	.p2align	4, 0x0                          // -- Begin function aead_ciphers_wide::aes::expand
.Ldeerlapse_0_1_0_CPI14_0:
	.byte	0                               // 0x0
	.byte	1                               // 0x1
	.byte	39                              // 0x27
	.byte	38                              // 0x26
	.byte	192                             // 0xc0
	.byte	193                             // 0xc1
	.byte	231                             // 0xe7
	.byte	230                             // 0xe6
	.byte	195                             // 0xc3
	.byte	194                             // 0xc2
	.byte	228                             // 0xe4
	.byte	229                             // 0xe5
	.byte	3                               // 0x3
	.byte	2                               // 0x2
	.byte	36                              // 0x24
	.byte	37                              // 0x25
.Ldeerlapse_0_1_0_CPI14_1:
	.byte	0                               // 0x0
	.byte	170                             // 0xaa
	.byte	122                             // 0x7a
	.byte	208                             // 0xd0
	.byte	175                             // 0xaf
	.byte	5                               // 0x5
	.byte	213                             // 0xd5
	.byte	127                             // 0x7f
	.byte	216                             // 0xd8
	.byte	114                             // 0x72
	.byte	162                             // 0xa2
	.byte	8                               // 0x8
	.byte	119                             // 0x77
	.byte	221                             // 0xdd
	.byte	13                              // 0xd
	.byte	167                             // 0xa7
.Ldeerlapse_0_1_0_CPI14_2:
	.byte	128                             // 0x80
	.byte	3                               // 0x3
	.byte	13                              // 0xd
	.byte	1                               // 0x1
	.byte	10                              // 0xa
	.byte	8                               // 0x8
	.byte	12                              // 0xc
	.byte	11                              // 0xb
	.byte	5                               // 0x5
	.byte	14                              // 0xe
	.byte	4                               // 0x4
	.byte	7                               // 0x7
	.byte	6                               // 0x6
	.byte	2                               // 0x2
	.byte	9                               // 0x9
	.byte	15                              // 0xf
.Ldeerlapse_0_1_0_CPI14_3:
	.byte	128                             // 0x80
	.byte	1                               // 0x1
	.byte	12                              // 0xc
	.byte	8                               // 0x8
	.byte	6                               // 0x6
	.byte	15                              // 0xf
	.byte	4                               // 0x4
	.byte	14                              // 0xe
	.byte	3                               // 0x3
	.byte	13                              // 0xd
	.byte	11                              // 0xb
	.byte	10                              // 0xa
	.byte	2                               // 0x2
	.byte	9                               // 0x9
	.byte	7                               // 0x7
	.byte	5                               // 0x5
.Ldeerlapse_0_1_0_CPI14_4:
	.byte	0                               // 0x0
	.byte	250                             // 0xfa
	.byte	53                              // 0x35
	.byte	106                             // 0x6a
	.byte	43                              // 0x2b
	.byte	187                             // 0xbb
	.byte	95                              // 0x5f
	.byte	65                              // 0x41
	.byte	142                             // 0x8e
	.byte	207                             // 0xcf
	.byte	228                             // 0xe4
	.byte	30                              // 0x1e
	.byte	116                             // 0x74
	.byte	144                             // 0x90
	.byte	209                             // 0xd1
	.byte	165                             // 0xa5
.Ldeerlapse_0_1_0_CPI14_5:
	.byte	0                               // 0x0
	.byte	129                             // 0x81
	.byte	153                             // 0x99
	.byte	118                             // 0x76
	.byte	10                              // 0xa
	.byte	253                             // 0xfd
	.byte	239                             // 0xef
	.byte	124                             // 0x7c
	.byte	100                             // 0x64
	.byte	24                              // 0x18
	.byte	18                              // 0x12
	.byte	147                             // 0x93
	.byte	229                             // 0xe5
	.byte	247                             // 0xf7
	.byte	139                             // 0x8b
	.byte	110                             // 0x6e
.Ldeerlapse_0_1_0_CPI14_6:
	.byte	13                              // 0xd
	.byte	14                              // 0xe
	.byte	15                              // 0xf
	.byte	12                              // 0xc
	.byte	13                              // 0xd
	.byte	14                              // 0xe
	.byte	15                              // 0xf
	.byte	12                              // 0xc
	.byte	13                              // 0xd
	.byte	14                              // 0xe
	.byte	15                              // 0xf
	.byte	12                              // 0xc
	.byte	13                              // 0xd
	.byte	14                              // 0xe
	.byte	15                              // 0xf
	.byte	12                              // 0xc
.Ldeerlapse_0_1_0_CPI14_7:
	.byte	255                             // 0xff
	.byte	255                             // 0xff
	.byte	255                             // 0xff
	.byte	255                             // 0xff
	.byte	0                               // 0x0
	.byte	1                               // 0x1
	.byte	2                               // 0x2
	.byte	3                               // 0x3
	.byte	4                               // 0x4
	.byte	5                               // 0x5
	.byte	6                               // 0x6
	.byte	7                               // 0x7
	.byte	8                               // 0x8
	.byte	9                               // 0x9
	.byte	10                              // 0xa
	.byte	11                              // 0xb
.Ldeerlapse_0_1_0_CPI14_8:
	.byte	255                             // 0xff
	.byte	255                             // 0xff
	.byte	255                             // 0xff
	.byte	255                             // 0xff
	.byte	255                             // 0xff
	.byte	255                             // 0xff
	.byte	255                             // 0xff
	.byte	255                             // 0xff
	.byte	0                               // 0x0
	.byte	1                               // 0x1
	.byte	2                               // 0x2
	.byte	3                               // 0x3
	.byte	4                               // 0x4
	.byte	5                               // 0x5
	.byte	6                               // 0x6
	.byte	7                               // 0x7
	.section	.text.deerlapse_aes_gcm,"ax",@progbits
	.p2align	2
	.type	"deerlapse_0_1_0::aead_ciphers_wide::aes::expand",@function
"deerlapse_0_1_0::aead_ciphers_wide::aes::expand":       // @"deerlapse_0_1_0::aead_ciphers_wide::aes::expand"
	.cfi_startproc
// %bb.0:                               // %start
	mov	w8, #16                         // =0x10
	mov	w10, #32                        // =0x20
	tst	w1, #0xff
	movi	v0.2d, #0000000000000000
	csel	x10, x10, x8, ne
	mov	x9, xzr
	lsr	x8, x10, #4
	mov	x11, x8
	stp	q0, q0, [x0, #176]
	stp	q0, q0, [x0, #208]
.Ldeerlapse_0_1_0_BB14_1:                               // %join.5.i617.i
                                        // =>This Inner Loop Header: Depth=1
	ldr	q0, [x2, x9]
	subs	x11, x11, #1
	str	q0, [x0, x9]
	add	x9, x9, #16
	b.ne	.Ldeerlapse_0_1_0_BB14_1
// %bb.2:                               // %join.5.lr.ph.i
	lsr	x9, x10, #2
	add	x10, x0, x10
	tst	w1, #0xff
	ldr	q1, [x0]
	ldur	q0, [x10, #-16]
	cset	w11, ne
	sub	x12, x8, #1
	add	x13, x9, #7
	b	.Ldeerlapse_0_1_0_BB14_5
.Ldeerlapse_0_1_0_BB14_3:                               // %else.4.i.i
                                        //   in Loop: Header=BB14_5 Depth=1
	movi	v2.16b, #15
	dup	v3.4s, v0.s[3]
	ldr	q5, [x2, :lo12:.Ldeerlapse_0_1_0_CPI14_0]
	ldr	q6, [x0, :lo12:.Ldeerlapse_0_1_0_CPI14_1]
	and	v4.16b, v3.16b, v2.16b
	ushr	v3.16b, v3.16b, #4
	tbl	v4.16b, { v5.16b }, v4.16b
	tbl	v3.16b, { v6.16b }, v3.16b
	ldr	q5, [x17, :lo12:.Ldeerlapse_0_1_0_CPI14_2]
	ldr	q6, [x16, :lo12:.Ldeerlapse_0_1_0_CPI14_3]
	eor	v3.16b, v3.16b, v4.16b
	and	v2.16b, v3.16b, v2.16b
	ushr	v3.16b, v3.16b, #4
	eor	v4.16b, v3.16b, v2.16b
	tbl	v2.16b, { v5.16b }, v2.16b
	tbl	v5.16b, { v6.16b }, v3.16b
	tbl	v7.16b, { v6.16b }, v4.16b
	eor	v5.16b, v5.16b, v2.16b
	eor	v2.16b, v7.16b, v2.16b
	tbl	v5.16b, { v6.16b }, v5.16b
	tbl	v2.16b, { v6.16b }, v2.16b
	eor	v4.16b, v5.16b, v4.16b
	ldr	q5, [x14, :lo12:.Ldeerlapse_0_1_0_CPI14_5]
	eor	v2.16b, v2.16b, v3.16b
	ldr	q3, [x15, :lo12:.Ldeerlapse_0_1_0_CPI14_4]
	tbl	v3.16b, { v3.16b }, v4.16b
	tbl	v2.16b, { v5.16b }, v2.16b
.Ldeerlapse_0_1_0_BB14_4:                               // %"aead_ciphers_wide::aes::key_schedule::transformed.exit.i"
                                        //   in Loop: Header=BB14_5 Depth=1
	adrp	x14, .Ldeerlapse_0_1_0_CPI14_7
	eor	v2.16b, v2.16b, v3.16b
	movi	d3, #0000000000000000
	ldr	q4, [x14, :lo12:.Ldeerlapse_0_1_0_CPI14_7]
	adrp	x14, .Ldeerlapse_0_1_0_CPI14_8
	fmov	s5, w1
	movi	v6.16b, #99
	add	x8, x8, #1
	tbl	v4.16b, { v1.16b }, v4.16b
	cmp	x13, x8
	cmeq	v3.16b, v5.16b, v3.16b
	eor	v1.16b, v4.16b, v1.16b
	ldr	q4, [x14, :lo12:.Ldeerlapse_0_1_0_CPI14_8]
	mvn	v3.16b, v3.16b
	tbl	v4.16b, { v1.16b }, v4.16b
	dup	v3.16b, v3.b[0]
	eor	v1.16b, v4.16b, v1.16b
	eor	v1.16b, v1.16b, v6.16b
	eor	v2.16b, v1.16b, v2.16b
	mov	v1.16b, v3.16b
	bsl	v1.16b, v0.16b, v2.16b
	mov	v0.16b, v2.16b
	str	q2, [x10], #16
	b.eq	.Ldeerlapse_0_1_0_BB14_7
.Ldeerlapse_0_1_0_BB14_5:                               // %join.5.i
                                        // =>This Inner Loop Header: Depth=1
	tst	x8, x12
	adrp	x2, .Ldeerlapse_0_1_0_CPI14_0
	adrp	x0, .Ldeerlapse_0_1_0_CPI14_1
	adrp	x17, .Ldeerlapse_0_1_0_CPI14_2
	adrp	x16, .Ldeerlapse_0_1_0_CPI14_3
	adrp	x15, .Ldeerlapse_0_1_0_CPI14_4
	adrp	x14, .Ldeerlapse_0_1_0_CPI14_5
	b.ne	.Ldeerlapse_0_1_0_BB14_3
// %bb.6:                               // %ok.6.i.i
                                        //   in Loop: Header=BB14_5 Depth=1
	adrp	x3, .Ldeerlapse_0_1_0_CPI14_6
	movi	v3.16b, #15
	ldr	q5, [x2, :lo12:.Ldeerlapse_0_1_0_CPI14_0]
	ldr	q2, [x3, :lo12:.Ldeerlapse_0_1_0_CPI14_6]
	ldr	q6, [x0, :lo12:.Ldeerlapse_0_1_0_CPI14_1]
	lsr	x0, x8, x11
	tbl	v2.16b, { v0.16b }, v2.16b
	and	v4.16b, v2.16b, v3.16b
	ushr	v2.16b, v2.16b, #4
	tbl	v4.16b, { v5.16b }, v4.16b
	tbl	v2.16b, { v6.16b }, v2.16b
	ldr	q5, [x16, :lo12:.Ldeerlapse_0_1_0_CPI14_3]
	adrp	x16, .Ldeerlapse_0_1_0_static.4
	add	x16, x16, :lo12:.Ldeerlapse_0_1_0_static.4
	movi	v6.2d, #0000000000000000
	add	x16, x16, x0
	ldurb	w16, [x16, #-1]
	eor	v2.16b, v2.16b, v4.16b
	ldr	q4, [x17, :lo12:.Ldeerlapse_0_1_0_CPI14_2]
	mov	v6.b[0], w16
	and	v3.16b, v2.16b, v3.16b
	ushr	v2.16b, v2.16b, #4
	mov	v6.b[4], w16
	eor	v7.16b, v2.16b, v3.16b
	tbl	v3.16b, { v4.16b }, v3.16b
	tbl	v4.16b, { v5.16b }, v2.16b
	tbl	v16.16b, { v5.16b }, v7.16b
	mov	v6.b[8], w16
	eor	v4.16b, v4.16b, v3.16b
	eor	v3.16b, v16.16b, v3.16b
	tbl	v4.16b, { v5.16b }, v4.16b
	mov	v6.b[12], w16
	tbl	v3.16b, { v5.16b }, v3.16b
	ldr	q5, [x15, :lo12:.Ldeerlapse_0_1_0_CPI14_4]
	eor	v4.16b, v4.16b, v7.16b
	eor	v2.16b, v3.16b, v2.16b
	tbl	v3.16b, { v5.16b }, v4.16b
	ldr	q4, [x14, :lo12:.Ldeerlapse_0_1_0_CPI14_5]
	tbl	v2.16b, { v4.16b }, v2.16b
	eor	v3.16b, v3.16b, v6.16b
	b	.Ldeerlapse_0_1_0_BB14_4
.Ldeerlapse_0_1_0_BB14_7:                               // %"aead_ciphers_wide::aes::key_schedule::expand.exit"
	add	x0, x9, #6
	ret
.Ldeerlapse_0_1_0_func_end14:
	.size	"deerlapse_0_1_0::aead_ciphers_wide::aes::expand", .Ldeerlapse_0_1_0_func_end14-"deerlapse_0_1_0::aead_ciphers_wide::aes::expand"
	.cfi_endproc
                                        // -- End function
	.section	.rodata.cst16,"aM",@progbits,16
	.p2align	4, 0x0                          // -- Begin function aead_ciphers_wide::aes::block_key::BlockKeyRef::encrypt_one
.Ldeerlapse_0_1_0_CPI15_0:
	.byte	0                               // 0x0
	.byte	1                               // 0x1
	.byte	39                              // 0x27
	.byte	38                              // 0x26
	.byte	192                             // 0xc0
	.byte	193                             // 0xc1
	.byte	231                             // 0xe7
	.byte	230                             // 0xe6
	.byte	195                             // 0xc3
	.byte	194                             // 0xc2
	.byte	228                             // 0xe4
	.byte	229                             // 0xe5
	.byte	3                               // 0x3
	.byte	2                               // 0x2
	.byte	36                              // 0x24
	.byte	37                              // 0x25
.Ldeerlapse_0_1_0_CPI15_1:
	.byte	0                               // 0x0
	.byte	170                             // 0xaa
	.byte	122                             // 0x7a
	.byte	208                             // 0xd0
	.byte	175                             // 0xaf
	.byte	5                               // 0x5
	.byte	213                             // 0xd5
	.byte	127                             // 0x7f
	.byte	216                             // 0xd8
	.byte	114                             // 0x72
	.byte	162                             // 0xa2
	.byte	8                               // 0x8
	.byte	119                             // 0x77
	.byte	221                             // 0xdd
	.byte	13                              // 0xd
	.byte	167                             // 0xa7
.Ldeerlapse_0_1_0_CPI15_2:
	.byte	128                             // 0x80
	.byte	3                               // 0x3
	.byte	13                              // 0xd
	.byte	1                               // 0x1
	.byte	10                              // 0xa
	.byte	8                               // 0x8
	.byte	12                              // 0xc
	.byte	11                              // 0xb
	.byte	5                               // 0x5
	.byte	14                              // 0xe
	.byte	4                               // 0x4
	.byte	7                               // 0x7
	.byte	6                               // 0x6
	.byte	2                               // 0x2
	.byte	9                               // 0x9
	.byte	15                              // 0xf
.Ldeerlapse_0_1_0_CPI15_3:
	.byte	128                             // 0x80
	.byte	1                               // 0x1
	.byte	12                              // 0xc
	.byte	8                               // 0x8
	.byte	6                               // 0x6
	.byte	15                              // 0xf
	.byte	4                               // 0x4
	.byte	14                              // 0xe
	.byte	3                               // 0x3
	.byte	13                              // 0xd
	.byte	11                              // 0xb
	.byte	10                              // 0xa
	.byte	2                               // 0x2
	.byte	9                               // 0x9
	.byte	7                               // 0x7
	.byte	5                               // 0x5
.Ldeerlapse_0_1_0_CPI15_4:
	.byte	0                               // 0x0
	.byte	250                             // 0xfa
	.byte	53                              // 0x35
	.byte	106                             // 0x6a
	.byte	43                              // 0x2b
	.byte	187                             // 0xbb
	.byte	95                              // 0x5f
	.byte	65                              // 0x41
	.byte	142                             // 0x8e
	.byte	207                             // 0xcf
	.byte	228                             // 0xe4
	.byte	30                              // 0x1e
	.byte	116                             // 0x74
	.byte	144                             // 0x90
	.byte	209                             // 0xd1
	.byte	165                             // 0xa5
.Ldeerlapse_0_1_0_CPI15_5:
	.byte	0                               // 0x0
	.byte	129                             // 0x81
	.byte	153                             // 0x99
	.byte	118                             // 0x76
	.byte	10                              // 0xa
	.byte	253                             // 0xfd
	.byte	239                             // 0xef
	.byte	124                             // 0x7c
	.byte	100                             // 0x64
	.byte	24                              // 0x18
	.byte	18                              // 0x12
	.byte	147                             // 0x93
	.byte	229                             // 0xe5
	.byte	247                             // 0xf7
	.byte	139                             // 0x8b
	.byte	110                             // 0x6e
.Ldeerlapse_0_1_0_CPI15_6:
	.byte	0                               // 0x0
	.byte	5                               // 0x5
	.byte	10                              // 0xa
	.byte	15                              // 0xf
	.byte	4                               // 0x4
	.byte	9                               // 0x9
	.byte	14                              // 0xe
	.byte	3                               // 0x3
	.byte	8                               // 0x8
	.byte	13                              // 0xd
	.byte	2                               // 0x2
	.byte	7                               // 0x7
	.byte	12                              // 0xc
	.byte	1                               // 0x1
	.byte	6                               // 0x6
	.byte	11                              // 0xb
.Ldeerlapse_0_1_0_CPI15_7:
	.byte	5                               // 0x5
	.byte	10                              // 0xa
	.byte	15                              // 0xf
	.byte	0                               // 0x0
	.byte	9                               // 0x9
	.byte	14                              // 0xe
	.byte	3                               // 0x3
	.byte	4                               // 0x4
	.byte	13                              // 0xd
	.byte	2                               // 0x2
	.byte	7                               // 0x7
	.byte	8                               // 0x8
	.byte	1                               // 0x1
	.byte	6                               // 0x6
	.byte	11                              // 0xb
	.byte	12                              // 0xc
	.section	.text.deerlapse_aes_gcm,"ax",@progbits
	.p2align	2
	.type	"deerlapse_0_1_0::aead_ciphers_wide::aes::block_key::BlockKeyRef::encrypt_one",@function
"deerlapse_0_1_0::aead_ciphers_wide::aes::block_key::BlockKeyRef::encrypt_one": // @"deerlapse_0_1_0::aead_ciphers_wide::aes::block_key::BlockKeyRef::encrypt_one"
	.cfi_startproc
// %bb.0:                               // %start
	ldr	q0, [x3]
	ldr	q1, [x1]
	cmp	x2, #2
	adrp	x13, .Ldeerlapse_0_1_0_CPI15_0
	adrp	x14, .Ldeerlapse_0_1_0_CPI15_1
	adrp	x12, .Ldeerlapse_0_1_0_CPI15_2
	eor	v0.16b, v1.16b, v0.16b
	adrp	x11, .Ldeerlapse_0_1_0_CPI15_3
	adrp	x10, .Ldeerlapse_0_1_0_CPI15_4
	adrp	x9, .Ldeerlapse_0_1_0_CPI15_5
	adrp	x8, .Ldeerlapse_0_1_0_CPI15_6
	b.lo	.Ldeerlapse_0_1_0_BB15_3
// %bb.1:                               // %join.5.preheader
	sub	x15, x2, #1
	add	x16, x1, #16
.Ldeerlapse_0_1_0_BB15_2:                               // %join.5
                                        // =>This Inner Loop Header: Depth=1
	movi	v1.16b, #15
	ldr	q3, [x13, :lo12:.Ldeerlapse_0_1_0_CPI15_0]
	ldr	q4, [x14, :lo12:.Ldeerlapse_0_1_0_CPI15_1]
	adrp	x17, .Ldeerlapse_0_1_0_CPI15_7
	subs	x15, x15, #1
	and	v2.16b, v0.16b, v1.16b
	ushr	v0.16b, v0.16b, #4
	tbl	v2.16b, { v3.16b }, v2.16b
	tbl	v0.16b, { v4.16b }, v0.16b
	ldr	q3, [x11, :lo12:.Ldeerlapse_0_1_0_CPI15_3]
	eor	v0.16b, v0.16b, v2.16b
	ldr	q2, [x12, :lo12:.Ldeerlapse_0_1_0_CPI15_2]
	and	v1.16b, v0.16b, v1.16b
	ushr	v0.16b, v0.16b, #4
	eor	v4.16b, v0.16b, v1.16b
	tbl	v1.16b, { v2.16b }, v1.16b
	tbl	v2.16b, { v3.16b }, v0.16b
	tbl	v5.16b, { v3.16b }, v4.16b
	eor	v2.16b, v2.16b, v1.16b
	eor	v1.16b, v5.16b, v1.16b
	tbl	v2.16b, { v3.16b }, v2.16b
	tbl	v1.16b, { v3.16b }, v1.16b
	ldr	q3, [x10, :lo12:.Ldeerlapse_0_1_0_CPI15_4]
	eor	v2.16b, v2.16b, v4.16b
	eor	v0.16b, v1.16b, v0.16b
	tbl	v1.16b, { v3.16b }, v2.16b
	movi	v2.16b, #99
	ldr	q3, [x9, :lo12:.Ldeerlapse_0_1_0_CPI15_5]
	tbl	v0.16b, { v3.16b }, v0.16b
	eor	v1.16b, v1.16b, v2.16b
	ldr	q2, [x17, :lo12:.Ldeerlapse_0_1_0_CPI15_7]
	eor	v0.16b, v1.16b, v0.16b
	ldr	q1, [x8, :lo12:.Ldeerlapse_0_1_0_CPI15_6]
	tbl	v1.16b, { v0.16b }, v1.16b
	tbl	v0.16b, { v0.16b }, v2.16b
	movi	v2.16b, #27
	eor	v1.16b, v0.16b, v1.16b
	rev32	v3.8h, v1.8h
	add	v4.16b, v1.16b, v1.16b
	cmlt	v1.16b, v1.16b, #0
	and	v1.16b, v1.16b, v2.16b
	eor	v2.16b, v4.16b, v3.16b
	ldr	q3, [x16], #16
	eor	v1.16b, v1.16b, v3.16b
	eor	v0.16b, v2.16b, v0.16b
	eor	v0.16b, v0.16b, v1.16b
	b.ne	.Ldeerlapse_0_1_0_BB15_2
.Ldeerlapse_0_1_0_BB15_3:                               // %after.1
	movi	v1.16b, #15
	ldr	q3, [x13, :lo12:.Ldeerlapse_0_1_0_CPI15_0]
	ldr	q4, [x14, :lo12:.Ldeerlapse_0_1_0_CPI15_1]
	and	v2.16b, v0.16b, v1.16b
	ushr	v0.16b, v0.16b, #4
	tbl	v2.16b, { v3.16b }, v2.16b
	tbl	v0.16b, { v4.16b }, v0.16b
	ldr	q3, [x11, :lo12:.Ldeerlapse_0_1_0_CPI15_3]
	eor	v0.16b, v0.16b, v2.16b
	ldr	q2, [x12, :lo12:.Ldeerlapse_0_1_0_CPI15_2]
	and	v1.16b, v0.16b, v1.16b
	ushr	v0.16b, v0.16b, #4
	eor	v4.16b, v0.16b, v1.16b
	tbl	v1.16b, { v2.16b }, v1.16b
	tbl	v2.16b, { v3.16b }, v0.16b
	tbl	v5.16b, { v3.16b }, v4.16b
	eor	v2.16b, v2.16b, v1.16b
	eor	v1.16b, v5.16b, v1.16b
	tbl	v2.16b, { v3.16b }, v2.16b
	tbl	v1.16b, { v3.16b }, v1.16b
	ldr	q3, [x10, :lo12:.Ldeerlapse_0_1_0_CPI15_4]
	eor	v2.16b, v2.16b, v4.16b
	eor	v0.16b, v1.16b, v0.16b
	tbl	v1.16b, { v3.16b }, v2.16b
	movi	v2.16b, #99
	ldr	q3, [x9, :lo12:.Ldeerlapse_0_1_0_CPI15_5]
	tbl	v0.16b, { v3.16b }, v0.16b
	eor	v1.16b, v1.16b, v2.16b
	eor	v0.16b, v1.16b, v0.16b
	ldr	q1, [x8, :lo12:.Ldeerlapse_0_1_0_CPI15_6]
	tbl	v0.16b, { v0.16b }, v1.16b
	ldr	q1, [x1, x2, lsl #4]
	eor	v0.16b, v1.16b, v0.16b
	str	q0, [x0]
	ret
.Ldeerlapse_0_1_0_func_end15:
	.size	"deerlapse_0_1_0::aead_ciphers_wide::aes::block_key::BlockKeyRef::encrypt_one", .Ldeerlapse_0_1_0_func_end15-"deerlapse_0_1_0::aead_ciphers_wide::aes::block_key::BlockKeyRef::encrypt_one"
	.cfi_endproc
                                        // -- End function
	.section	.text.deerlapse_key_derivation,"ax",@progbits
	.p2align	2                               // -- Begin function key_derivation::quic::endpoint_secret
	.type	"deerlapse_0_1_0::key_derivation::quic::endpoint_secret",@function
"deerlapse_0_1_0::key_derivation::quic::endpoint_secret": // @"deerlapse_0_1_0::key_derivation::quic::endpoint_secret"
	.cfi_startproc
// %bb.0:                               // %start
	sub	sp, sp, #480
	.cfi_def_cfa_offset 480
	stp	x29, x30, [sp, #432]            // 16-byte Folded Spill
	stp	x28, x21, [sp, #448]            // 16-byte Folded Spill
	stp	x20, x19, [sp, #464]            // 16-byte Folded Spill
	add	x29, sp, #432
	.cfi_def_cfa w29, 48
	.cfi_offset w19, -8
	.cfi_offset w20, -16
	.cfi_offset w21, -24
	.cfi_offset w28, -32
	.cfi_offset w30, -40
	.cfi_offset w29, -48
	mov	x21, x4
	mov	x4, x3
	cmp	x3, #20
	mov	x19, x0
	b.ls	.Ldeerlapse_0_1_0_BB16_2
// %bb.1:                               // %then.1
	movi	v0.2d, #0000000000000000
	mov	w20, #1                         // =0x1
	strb	w20, [x19]
	stur	q0, [x19, #3]
	stur	q0, [x19, #19]
	stur	q0, [x19, #35]
	b	.Ldeerlapse_0_1_0_BB16_3
.Ldeerlapse_0_1_0_BB16_2:                               // %join.3
	tst	w1, #0x1
	mov	w8, #56                         // =0x38
	mov	w9, #13                         // =0xd
	mov	w10, #118                       // =0x76
	mov	w11, #-19                       // =0xffffffed
	csel	w8, w9, w8, ne
	csel	w9, w11, w10, ne
	mov	w10, #44                        // =0x2c
	mov	w11, #-29                       // =0xffffffe3
	csel	w10, w11, w10, ne
	mov	w11, #-9                        // =0xfffffff7
	mov	w12, #-34                       // =0xffffffde
	mov	w13, #-11                       // =0xfffffff5
	mov	w14, #89                        // =0x59
	csel	w12, w12, w11, ne
	csel	w11, w11, w13, ne
	csel	w13, wzr, w14, ne
	mov	w14, #52                        // =0x34
	mov	w15, #-90                       // =0xffffffa6
	mov	w16, #-77                       // =0xffffffb3
	mov	w17, #-37                       // =0xffffffdb
	csel	w14, w15, w14, ne
	csel	w15, w17, w16, ne
	sturb	w8, [x29, #-164]
	mov	w8, #77                         // =0x4d
	mov	w16, #-127                      // =0xffffff81
	sturb	w9, [x29, #-163]
	mov	w9, #23                         // =0x17
	sturb	w10, [x29, #-162]
	mov	w10, #-109                      // =0xffffff93
	mov	w17, #-102                      // =0xffffff9a
	csel	w8, w16, w8, ne
	sturb	w12, [x29, #-161]
	csel	w9, w10, w9, ne
	csel	w10, w16, w17, ne
	sturb	w11, [x29, #-160]
	mov	w11, #-26                       // =0xffffffe6
	mov	w12, #-66                       // =0xffffffbe
	sturb	w13, [x29, #-159]
	mov	w13, #-92                       // =0xffffffa4
	mov	w16, #110                       // =0x6e
	sturb	w14, [x29, #-158]
	csel	w11, w12, w11, ne
	csel	w12, w16, w13, ne
	mov	w13, #-56                       // =0xffffffc8
	mov	w14, #38                        // =0x26
	sturb	w15, [x29, #-157]
	mov	w15, #-99                       // =0xffffff9d
	sturb	w8, [x29, #-156]
	mov	w8, #12                         // =0xc
	mov	x3, x2
	sturb	w9, [x29, #-155]
	csel	w9, w14, w13, ne
	mov	w13, #-53                       // =0xffffffcb
	sturb	w10, [x29, #-154]
	mov	w10, #-83                       // =0xffffffad
	mov	w14, #-7                        // =0xfffffff9
	sturb	w11, [x29, #-153]
	mov	w11, #-52                       // =0xffffffcc
	csel	w8, w15, w8, ne
	sturb	w12, [x29, #-152]
	csel	w10, w13, w10, ne
	csel	w11, w14, w11, ne
	sturb	w9, [x29, #-151]
	mov	w9, #-69                        // =0xffffffbb
	mov	w12, #-67                       // =0xffffffbd
	sturb	w8, [x29, #-150]
	mov	w8, #127                        // =0x7f
	mov	w13, #46                        // =0x2e
	sturb	w10, [x29, #-149]
	csel	w9, w12, w9, ne
	mov	w10, #10                        // =0xa
	sturb	w11, [x29, #-148]
	mov	w11, #-39                       // =0xffffffd9
	mov	w20, w1
	csel	w8, w13, w8, ne
	sturb	w9, [x29, #-147]
	csel	w9, w11, w10, ne
	sub	x0, x29, #144
	sub	x1, x29, #164
	mov	w2, #20                         // =0x14
	sturb	w8, [x29, #-146]
	sturb	w9, [x29, #-145]
	bl	"deerlapse_0_1_0::key_derivation::hmac::hmac::<#7cab53feae2e1c66>"
	ldp	q0, q1, [x29, #-144]
	add	x0, sp, #56
	sub	x1, x29, #80
	mov	w2, #32                         // =0x20
	stp	q0, q1, [x29, #-80]
	bl	"deerlapse_0_1_0::key_derivation::hmac::HmacKey::new::<#7cab53feae2e1c66>"
	movi	v0.2d, #0000000000000000
	adrp	x3, .Ldeerlapse_0_1_0_static.6
	add	x3, x3, :lo12:.Ldeerlapse_0_1_0_static.6
	add	x0, sp, #56
	sub	x5, x29, #48
	mov	x1, x21
	mov	w2, #9                          // =0x9
	mov	x4, xzr
	mov	w6, #32                         // =0x20
	stp	q0, q0, [x29, #-48]
	bl	"deerlapse_0_1_0::key_derivation::hkdf::Expander::fill_labeled::<#7cab53feae2e1c66>"
	ldp	q1, q0, [x29, #-48]
	stp	xzr, xzr, [x29, #-16]
	ldur	q2, [x29, #-16]
	strb	wzr, [x19]
	stp	q1, q0, [x29, #-112]
	stp	q1, q0, [sp]
	str	q2, [sp, #32]
	stur	q1, [x19, #3]
	stur	q0, [x19, #19]
	stur	q2, [x19, #35]
.Ldeerlapse_0_1_0_BB16_3:                               // %common.ret
	strb	w20, [x19, #1]
	strb	wzr, [x19, #2]
	.cfi_def_cfa wsp, 480
	ldp	x20, x19, [sp, #464]            // 16-byte Folded Reload
	ldp	x28, x21, [sp, #448]            // 16-byte Folded Reload
	ldp	x29, x30, [sp, #432]            // 16-byte Folded Reload
	add	sp, sp, #480
	.cfi_def_cfa_offset 0
	.cfi_restore w19
	.cfi_restore w20
	.cfi_restore w21
	.cfi_restore w28
	.cfi_restore w30
	.cfi_restore w29
	ret
.Ldeerlapse_0_1_0_func_end16:
	.size	"deerlapse_0_1_0::key_derivation::quic::endpoint_secret", .Ldeerlapse_0_1_0_func_end16-"deerlapse_0_1_0::key_derivation::quic::endpoint_secret"
	.cfi_endproc
                                        // -- End function
	.section	.text.deerlapse_key_derivation,"ax",@progbits
	.p2align	2                               // -- Begin function key_derivation::hkdf::Expander::fill_labeled::<#7cab53feae2e1c66>
	.type	"deerlapse_0_1_0::key_derivation::hkdf::Expander::fill_labeled::<#7cab53feae2e1c66>",@function
"deerlapse_0_1_0::key_derivation::hkdf::Expander::fill_labeled::<#7cab53feae2e1c66>": // @"deerlapse_0_1_0::key_derivation::hkdf::Expander::fill_labeled::<#7cab53feae2e1c66>"
	.cfi_startproc
// %bb.0:                               // %start
	stp	x29, x30, [sp, #-96]!           // 16-byte Folded Spill
	.cfi_def_cfa_offset 96
	str	x28, [sp, #16]                  // 8-byte Spill
	stp	x26, x25, [sp, #32]             // 16-byte Folded Spill
	stp	x24, x23, [sp, #48]             // 16-byte Folded Spill
	stp	x22, x21, [sp, #64]             // 16-byte Folded Spill
	stp	x20, x19, [sp, #80]             // 16-byte Folded Spill
	mov	x29, sp
	.cfi_def_cfa w29, 96
	.cfi_offset w19, -8
	.cfi_offset w20, -16
	.cfi_offset w21, -24
	.cfi_offset w22, -32
	.cfi_offset w23, -40
	.cfi_offset w24, -48
	.cfi_offset w25, -56
	.cfi_offset w26, -64
	.cfi_offset w28, -80
	.cfi_offset w30, -88
	.cfi_offset w29, -96
	sub	sp, sp, #544
	add	x26, sp, #30
	mov	x23, x2
	mov	x24, x1
	mov	x25, x0
	add	x0, x26, #3
	mov	w1, wzr
	mov	w2, #511                        // =0x1ff
	mov	x19, x6
	mov	x20, x5
	mov	x21, x4
	mov	x22, x3
	bl	memset
	add	x0, sp, #30
	mov	x1, x24
	mov	x2, x23
	mov	x3, x22
	mov	x4, x21
	mov	w5, w19
	bl	"deerlapse_0_1_0::key_derivation::hkdf::write_hkdf_label"
	stp	x26, x0, [sp, #8]
	add	x1, sp, #8
	mov	x0, x25
	mov	x2, x20
	mov	x3, x19
	bl	"deerlapse_0_1_0::key_derivation::hkdf::Expander::fill_okm::<#7cab53feae2e1c66>"
	add	sp, sp, #544
	.cfi_def_cfa wsp, 96
	ldp	x20, x19, [sp, #80]             // 16-byte Folded Reload
	ldr	x28, [sp, #16]                  // 8-byte Reload
	ldp	x22, x21, [sp, #64]             // 16-byte Folded Reload
	ldp	x24, x23, [sp, #48]             // 16-byte Folded Reload
	ldp	x26, x25, [sp, #32]             // 16-byte Folded Reload
	ldp	x29, x30, [sp], #96             // 16-byte Folded Reload
	.cfi_def_cfa_offset 0
	.cfi_restore w19
	.cfi_restore w20
	.cfi_restore w21
	.cfi_restore w22
	.cfi_restore w23
	.cfi_restore w24
	.cfi_restore w25
	.cfi_restore w26
	.cfi_restore w28
	.cfi_restore w30
	.cfi_restore w29
	ret
.Ldeerlapse_0_1_0_func_end17:
	.size	"deerlapse_0_1_0::key_derivation::hkdf::Expander::fill_labeled::<#7cab53feae2e1c66>", .Ldeerlapse_0_1_0_func_end17-"deerlapse_0_1_0::key_derivation::hkdf::Expander::fill_labeled::<#7cab53feae2e1c66>"
	.cfi_endproc
                                        // -- End function
	.section	.text.deerlapse_key_derivation,"ax",@progbits
	.p2align	2                               // -- Begin function key_derivation::hkdf::write_hkdf_label
	.type	"deerlapse_0_1_0::key_derivation::hkdf::write_hkdf_label",@function
"deerlapse_0_1_0::key_derivation::hkdf::write_hkdf_label": // @"deerlapse_0_1_0::key_derivation::hkdf::write_hkdf_label"
	.cfi_startproc
// %bb.0:                               // %start
	stp	x29, x30, [sp, #-64]!           // 16-byte Folded Spill
	.cfi_def_cfa_offset 64
	str	x23, [sp, #16]                  // 8-byte Spill
	stp	x22, x21, [sp, #32]             // 16-byte Folded Spill
	stp	x20, x19, [sp, #48]             // 16-byte Folded Spill
	mov	x29, sp
	.cfi_def_cfa w29, 64
	.cfi_offset w19, -8
	.cfi_offset w20, -16
	.cfi_offset w21, -24
	.cfi_offset w22, -32
	.cfi_offset w23, -48
	.cfi_offset w30, -56
	.cfi_offset w29, -64
	rev	w9, w5
	add	x8, x0, #3
	mov	x22, x2
	lsr	w10, w9, #16
	adrp	x9, .Ldeerlapse_0_1_0_static.7
	add	x9, x9, :lo12:.Ldeerlapse_0_1_0_static.7
	sub	x11, x8, x9
	mov	x19, x4
	mov	x20, x3
	mov	x21, x0
	cmp	x11, #5
	strh	w10, [x0]
	add	w10, w22, #6
	strb	w10, [x0, #2]
	b.hi	.Ldeerlapse_0_1_0_BB18_3
// %bb.1:                               // %join.7.i.i.i.i.i.i.i23.preheader
	mov	x10, xzr
.Ldeerlapse_0_1_0_BB18_2:                               // %join.7.i.i.i.i.i.i.i23
                                        // =>This Inner Loop Header: Depth=1
	ldrb	w11, [x9, x10]
	strb	w11, [x8, x10]
	add	x10, x10, #1
	cmp	x10, #6
	b.ne	.Ldeerlapse_0_1_0_BB18_2
	b	.Ldeerlapse_0_1_0_BB18_4
.Ldeerlapse_0_1_0_BB18_3:                               // %apart.2.i.i.i.i.i.i.i22
	mov	w10, #27764                     // =0x6c74
	mov	w9, #8243                       // =0x2033
	movk	w10, #12659, lsl #16
	strh	w9, [x8, #4]
	str	w10, [x8]
.Ldeerlapse_0_1_0_BB18_4:                               // %"key_derivation::hkdf::write_at.exit30"
	add	x8, x21, #9
	sub	x9, x8, x1
	cmp	x9, x22
	b.hs	.Ldeerlapse_0_1_0_BB18_7
// %bb.5:
	mov	x9, x22
.Ldeerlapse_0_1_0_BB18_6:                               // %join.7.i.i.i.i.i.i.i37
                                        // =>This Inner Loop Header: Depth=1
	ldrb	w10, [x1], #1
	subs	x9, x9, #1
	strb	w10, [x8], #1
	b.ne	.Ldeerlapse_0_1_0_BB18_6
	b	.Ldeerlapse_0_1_0_BB18_8
.Ldeerlapse_0_1_0_BB18_7:                               // %apart.2.i.i.i.i.i.i.i36
	add	x0, x21, #9
	mov	x2, x22
	bl	memmove
.Ldeerlapse_0_1_0_BB18_8:                               // %"key_derivation::hkdf::write_at.exit44"
	add	x23, x22, #10
	add	x9, x21, x22
	add	x0, x21, x23
	strb	w19, [x9, #9]
	sub	x8, x0, x20
	cmp	x8, x19
	b.hs	.Ldeerlapse_0_1_0_BB18_11
// %bb.9:
	mov	x8, x19
.Ldeerlapse_0_1_0_BB18_10:                              // %join.7.i.i.i.i.i.i.i67
                                        // =>This Inner Loop Header: Depth=1
	ldrb	w9, [x20], #1
	subs	x8, x8, #1
	strb	w9, [x0], #1
	b.ne	.Ldeerlapse_0_1_0_BB18_10
	b	.Ldeerlapse_0_1_0_BB18_12
.Ldeerlapse_0_1_0_BB18_11:                              // %apart.2.i.i.i.i.i.i.i65
	mov	x1, x20
	mov	x2, x19
	bl	memmove
.Ldeerlapse_0_1_0_BB18_12:                              // %"key_derivation::hkdf::write_at.exit74"
	add	x0, x19, x23
	.cfi_def_cfa wsp, 64
	ldp	x20, x19, [sp, #48]             // 16-byte Folded Reload
	ldr	x23, [sp, #16]                  // 8-byte Reload
	ldp	x22, x21, [sp, #32]             // 16-byte Folded Reload
	ldp	x29, x30, [sp], #64             // 16-byte Folded Reload
	.cfi_def_cfa_offset 0
	.cfi_restore w19
	.cfi_restore w20
	.cfi_restore w21
	.cfi_restore w22
	.cfi_restore w23
	.cfi_restore w30
	.cfi_restore w29
	ret
.Ldeerlapse_0_1_0_func_end18:
	.size	"deerlapse_0_1_0::key_derivation::hkdf::write_hkdf_label", .Ldeerlapse_0_1_0_func_end18-"deerlapse_0_1_0::key_derivation::hkdf::write_hkdf_label"
	.cfi_endproc
                                        // -- End function
	.section	.text.deerlapse_key_derivation,"ax",@progbits
	.p2align	2                               // -- Begin function key_derivation::hkdf::Expander::fill_okm::<#7cab53feae2e1c66>
	.type	"deerlapse_0_1_0::key_derivation::hkdf::Expander::fill_okm::<#7cab53feae2e1c66>",@function
"deerlapse_0_1_0::key_derivation::hkdf::Expander::fill_okm::<#7cab53feae2e1c66>": // @"deerlapse_0_1_0::key_derivation::hkdf::Expander::fill_okm::<#7cab53feae2e1c66>"
	.cfi_startproc
// %bb.0:                               // %start
	stp	x29, x30, [sp, #-96]!           // 16-byte Folded Spill
	.cfi_def_cfa_offset 96
	stp	x28, x27, [sp, #16]             // 16-byte Folded Spill
	stp	x26, x25, [sp, #32]             // 16-byte Folded Spill
	stp	x24, x23, [sp, #48]             // 16-byte Folded Spill
	stp	x22, x21, [sp, #64]             // 16-byte Folded Spill
	stp	x20, x19, [sp, #80]             // 16-byte Folded Spill
	mov	x29, sp
	.cfi_def_cfa w29, 96
	.cfi_offset w19, -8
	.cfi_offset w20, -16
	.cfi_offset w21, -24
	.cfi_offset w22, -32
	.cfi_offset w23, -40
	.cfi_offset w24, -48
	.cfi_offset w25, -56
	.cfi_offset w26, -64
	.cfi_offset w27, -72
	.cfi_offset w28, -80
	.cfi_offset w30, -88
	.cfi_offset w29, -96
	sub	sp, sp, #512
	add	x8, x3, #31
	lsr	x23, x8, #5
	cbz	x23, .Ldeerlapse_0_1_0_BB19_3
// %bb.1:                               // %join.7.lr.ph
	mov	x19, x3
	mov	x25, x2
	mov	x24, x1
	mov	x22, x0
	mov	x28, xzr
	mov	w27, #1                         // =0x1
.Ldeerlapse_0_1_0_BB19_2:                               // %join.7
                                        // =>This Inner Loop Header: Depth=1
	ldur	q0, [x22, #1]
	add	x8, sp, #240
	mov	x21, x19
	ldrb	w19, [x22]
	ldr	x20, [x22, #96]
	add	x0, sp, #144
	str	q0, [x8, #144]
	ldp	q1, q0, [x22, #16]
	sub	x1, x29, #128
	mov	w2, #95                         // =0x5f
	stur	q1, [x8, #159]
	sub	x8, x29, #128
	stur	q0, [x8, #31]
	ldp	q1, q0, [x22, #48]
	stur	q1, [x8, #47]
	ldur	q1, [x22, #80]
	stur	q0, [x8, #63]
	stur	q1, [x8, #79]
	bl	memcpy
	sub	x8, x29, #232
	add	x1, sp, #144
	mov	w2, #95                         // =0x5f
	orr	x0, x8, #0x1
	sturb	w19, [x29, #-232]
	mov	x19, x21
	bl	memcpy
	subs	x8, x28, #32
	add	x9, sp, #240
	sub	x0, x29, #232
	csel	x8, xzr, x8, lo
	str	x20, [x9, #136]
	sub	x2, x28, x8
	add	x1, x25, x8
	bl	"deerlapse_0_1_0::sha2::block256::Core256::update"
	sub	x0, x29, #128
	sub	x1, x29, #232
	mov	w2, #104                        // =0x68
	bl	memcpy
	ldp	x1, x2, [x24]
	sub	x0, x29, #128
	bl	"deerlapse_0_1_0::sha2::block256::Core256::update"
	add	x0, sp, #40
	sub	x1, x29, #128
	mov	w2, #104                        // =0x68
	bl	memcpy
	sub	x0, x29, #232
	add	x1, sp, #40
	mov	w2, #104                        // =0x68
	bl	memcpy
	sub	x0, x29, #232
	add	x1, sp, #36
	mov	w2, #1                          // =0x1
	strb	w27, [sp, #36]
	bl	"deerlapse_0_1_0::sha2::block256::Core256::update"
	add	x0, sp, #4
	sub	x2, x29, #232
	mov	x1, x22
	bl	"deerlapse_0_1_0::key_derivation::hmac::HmacKey::finish::<#7cab53feae2e1c66>"
	sub	x8, x21, x28
	ldur	q0, [sp, #4]
	ldur	q1, [sp, #20]
	cmp	x8, #32
	mov	w9, #32                         // =0x20
	add	x0, x25, x28
	csel	x2, x8, x9, lo
	add	x8, sp, #240
	add	x1, sp, #240
	stp	q0, q1, [x8]
	add	x28, x2, x28
	bl	memcpy
	subs	x23, x23, #1
	add	x27, x27, #1
	b.ne	.Ldeerlapse_0_1_0_BB19_2
.Ldeerlapse_0_1_0_BB19_3:                               // %after.3
	add	sp, sp, #512
	.cfi_def_cfa wsp, 96
	ldp	x20, x19, [sp, #80]             // 16-byte Folded Reload
	ldp	x22, x21, [sp, #64]             // 16-byte Folded Reload
	ldp	x24, x23, [sp, #48]             // 16-byte Folded Reload
	ldp	x26, x25, [sp, #32]             // 16-byte Folded Reload
	ldp	x28, x27, [sp, #16]             // 16-byte Folded Reload
	ldp	x29, x30, [sp], #96             // 16-byte Folded Reload
	.cfi_def_cfa_offset 0
	.cfi_restore w19
	.cfi_restore w20
	.cfi_restore w21
	.cfi_restore w22
	.cfi_restore w23
	.cfi_restore w24
	.cfi_restore w25
	.cfi_restore w26
	.cfi_restore w27
	.cfi_restore w28
	.cfi_restore w30
	.cfi_restore w29
	ret
.Ldeerlapse_0_1_0_func_end19:
	.size	"deerlapse_0_1_0::key_derivation::hkdf::Expander::fill_okm::<#7cab53feae2e1c66>", .Ldeerlapse_0_1_0_func_end19-"deerlapse_0_1_0::key_derivation::hkdf::Expander::fill_okm::<#7cab53feae2e1c66>"
	.cfi_endproc
                                        // -- End function
	.section	.text.deerlapse_aes_gcm,"ax",@progbits
	.p2align	2                               // -- Begin function aead_ciphers_wide::gcm::KeyRefUpdateBlocks::update_blocks
	.type	"deerlapse_0_1_0::aead_ciphers_wide::gcm::KeyRefUpdateBlocks::update_blocks",@function
"deerlapse_0_1_0::aead_ciphers_wide::gcm::KeyRefUpdateBlocks::update_blocks": // @"deerlapse_0_1_0::aead_ciphers_wide::gcm::KeyRefUpdateBlocks::update_blocks"
	.cfi_startproc
// %bb.0:                               // %start
	ldr	q1, [x1]
	cmp	x3, #32
	b.hs	.Ldeerlapse_0_1_0_BB20_3
// %bb.1:                               // %after.1
	cmp	x3, #16
	b.hs	.Ldeerlapse_0_1_0_BB20_6
.Ldeerlapse_0_1_0_BB20_2:                               // %join.9
	str	q1, [x1]
	ret
.Ldeerlapse_0_1_0_BB20_3:                               // %arm.3.lr.ph
	ldp	x8, x9, [x0]
.Ldeerlapse_0_1_0_BB20_4:                               // %arm.3
                                        // =>This Inner Loop Header: Depth=1
	movi	v2.16b, #15
	ldp	q4, q3, [x2]
	ldp	q7, q5, [x8, #224]
	sub	x3, x3, #32
	ldp	q21, q20, [x8, #192]
	add	x10, x2, #32
	ushr	v0.16b, v3.16b, #4
	eor	v22.16b, v4.16b, v1.16b
	ldr	x11, [x4, #8]
	and	v1.16b, v3.16b, v2.16b
	ldp	q17, q23, [x8, #448]
	ldp	q19, q18, [x8, #480]
	add	x11, x11, #2
	tbl	v6.16b, { v5.16b }, v0.16b
	tbl	v4.16b, { v20.16b }, v0.16b
	tbl	v5.16b, { v21.16b }, v0.16b
	ushr	v3.16b, v22.16b, #4
	and	v2.16b, v22.16b, v2.16b
	tbl	v20.16b, { v23.16b }, v1.16b
	ldp	q21, q22, [x9, #224]
	tbl	v18.16b, { v18.16b }, v1.16b
	ldp	q23, q24, [x9, #480]
	tbl	v7.16b, { v7.16b }, v0.16b
	ldp	q28, q29, [x9, #192]
	tbl	v19.16b, { v19.16b }, v1.16b
	tbl	v22.16b, { v22.16b }, v3.16b
	tbl	v21.16b, { v21.16b }, v3.16b
	tbl	v17.16b, { v17.16b }, v1.16b
	tbl	v24.16b, { v24.16b }, v2.16b
	tbl	v23.16b, { v23.16b }, v2.16b
	eor	v6.16b, v18.16b, v6.16b
	ldp	q26, q16, [x8, #160]
	eor	v20.16b, v20.16b, v4.16b
	ldp	q27, q25, [x8, #416]
	movi	v4.2d, #0000000000000000
	eor	v19.16b, v19.16b, v7.16b
	eor	v5.16b, v17.16b, v5.16b
	cmp	x3, #31
	eor	v18.16b, v22.16b, v24.16b
	tbl	v22.16b, { v29.16b }, v3.16b
	eor	v21.16b, v21.16b, v23.16b
	ldp	q24, q29, [x9, #448]
	tbl	v23.16b, { v28.16b }, v3.16b
	tbl	v16.16b, { v16.16b }, v0.16b
	tbl	v25.16b, { v25.16b }, v1.16b
	tbl	v26.16b, { v26.16b }, v0.16b
	eor	v6.16b, v6.16b, v18.16b
	tbl	v18.16b, { v27.16b }, v1.16b
	eor	v19.16b, v19.16b, v21.16b
	tbl	v17.16b, { v29.16b }, v2.16b
	eor	v20.16b, v20.16b, v22.16b
	tbl	v24.16b, { v24.16b }, v2.16b
	ldp	q22, q28, [x9, #160]
	eor	v21.16b, v5.16b, v23.16b
	ext	v5.16b, v4.16b, v6.16b, #14
	eor	v16.16b, v25.16b, v16.16b
	ext	v6.16b, v6.16b, v4.16b, #14
	ldp	q27, q7, [x8, #128]
	mov	x2, x10
	eor	v17.16b, v20.16b, v17.16b
	tbl	v20.16b, { v28.16b }, v3.16b
	tbl	v22.16b, { v22.16b }, v3.16b
	ldp	q23, q28, [x9, #416]
	eor	v21.16b, v21.16b, v24.16b
	ldp	q29, q25, [x8, #384]
	tbl	v7.16b, { v7.16b }, v0.16b
	eor	v5.16b, v17.16b, v5.16b
	eor	v17.16b, v18.16b, v26.16b
	tbl	v26.16b, { v27.16b }, v0.16b
	tbl	v18.16b, { v28.16b }, v2.16b
	eor	v16.16b, v16.16b, v20.16b
	ext	v27.16b, v4.16b, v19.16b, #14
	ldp	q28, q20, [x8, #96]
	tbl	v25.16b, { v25.16b }, v1.16b
	eor	v17.16b, v17.16b, v22.16b
	ext	v22.16b, v4.16b, v5.16b, #14
	tbl	v24.16b, { v29.16b }, v1.16b
	tbl	v23.16b, { v23.16b }, v2.16b
	ext	v19.16b, v19.16b, v4.16b, #14
	ext	v5.16b, v5.16b, v6.16b, #14
	eor	v18.16b, v16.16b, v18.16b
	tbl	v16.16b, { v20.16b }, v0.16b
	eor	v21.16b, v21.16b, v27.16b
	ldp	q20, q29, [x9, #128]
	eor	v7.16b, v25.16b, v7.16b
	eor	v24.16b, v24.16b, v26.16b
	tbl	v28.16b, { v28.16b }, v0.16b
	eor	v18.16b, v18.16b, v22.16b
	eor	v17.16b, v17.16b, v23.16b
	ext	v26.16b, v4.16b, v21.16b, #14
	tbl	v22.16b, { v29.16b }, v3.16b
	ldp	q25, q29, [x9, #384]
	tbl	v20.16b, { v20.16b }, v3.16b
	ldp	q27, q23, [x8, #352]
	ext	v19.16b, v21.16b, v19.16b, #14
	tbl	v29.16b, { v29.16b }, v2.16b
	tbl	v25.16b, { v25.16b }, v2.16b
	eor	v17.16b, v17.16b, v26.16b
	eor	v22.16b, v7.16b, v22.16b
	tbl	v23.16b, { v23.16b }, v1.16b
	tbl	v27.16b, { v27.16b }, v1.16b
	eor	v20.16b, v24.16b, v20.16b
	ext	v24.16b, v4.16b, v18.16b, #14
	ext	v18.16b, v18.16b, v5.16b, #14
	ldp	q26, q7, [x8, #64]
	eor	v22.16b, v22.16b, v29.16b
	ldp	q21, q29, [x9, #96]
	eor	v16.16b, v23.16b, v16.16b
	eor	v20.16b, v20.16b, v25.16b
	ext	v25.16b, v4.16b, v17.16b, #14
	eor	v27.16b, v27.16b, v28.16b
	ldp	q28, q30, [x8, #320]
	eor	v6.16b, v22.16b, v24.16b
	tbl	v22.16b, { v29.16b }, v3.16b
	tbl	v21.16b, { v21.16b }, v3.16b
	ldp	q23, q24, [x9, #352]
	tbl	v7.16b, { v7.16b }, v0.16b
	tbl	v29.16b, { v30.16b }, v1.16b
	ext	v17.16b, v17.16b, v19.16b, #14
	eor	v20.16b, v20.16b, v25.16b
	tbl	v26.16b, { v26.16b }, v0.16b
	tbl	v28.16b, { v28.16b }, v1.16b
	tbl	v24.16b, { v24.16b }, v2.16b
	eor	v16.16b, v16.16b, v22.16b
	tbl	v22.16b, { v23.16b }, v2.16b
	eor	v21.16b, v27.16b, v21.16b
	ext	v23.16b, v4.16b, v6.16b, #14
	ext	v6.16b, v6.16b, v18.16b, #14
	ldp	q30, q27, [x8, #32]
	ext	v5.16b, v20.16b, v17.16b, #14
	ext	v17.16b, v4.16b, v20.16b, #14
	eor	v18.16b, v28.16b, v26.16b
	ldr	q28, [x9, #304]
	eor	v16.16b, v16.16b, v24.16b
	ldp	q24, q25, [x9, #64]
	eor	v20.16b, v21.16b, v22.16b
	eor	v22.16b, v29.16b, v7.16b
	tbl	v29.16b, { v30.16b }, v0.16b
	tbl	v27.16b, { v27.16b }, v0.16b
	tbl	v21.16b, { v25.16b }, v3.16b
	ldp	q25, q7, [x9, #320]
	eor	v16.16b, v16.16b, v23.16b
	ldp	q23, q19, [x8, #288]
	tbl	v30.16b, { v7.16b }, v2.16b
	eor	v7.16b, v20.16b, v17.16b
	tbl	v20.16b, { v24.16b }, v3.16b
	eor	v17.16b, v22.16b, v21.16b
	tbl	v19.16b, { v19.16b }, v1.16b
	ext	v24.16b, v4.16b, v16.16b, #14
	ldp	q21, q22, [x9, #32]
	tbl	v25.16b, { v25.16b }, v2.16b
	tbl	v23.16b, { v23.16b }, v1.16b
	ext	v6.16b, v16.16b, v6.16b, #14
	ext	v5.16b, v7.16b, v5.16b, #14
	eor	v17.16b, v17.16b, v30.16b
	eor	v18.16b, v18.16b, v20.16b
	tbl	v22.16b, { v22.16b }, v3.16b
	eor	v19.16b, v19.16b, v27.16b
	tbl	v21.16b, { v21.16b }, v3.16b
	ldp	q20, q26, [x8]
	eor	v17.16b, v17.16b, v24.16b
	tbl	v24.16b, { v28.16b }, v2.16b
	eor	v18.16b, v18.16b, v25.16b
	ldp	q28, q27, [x8, #256]
	ldr	q25, [x9, #16]
	tbl	v26.16b, { v26.16b }, v0.16b
	eor	v19.16b, v19.16b, v22.16b
	ext	v22.16b, v4.16b, v7.16b, #14
	eor	v16.16b, v23.16b, v29.16b
	ext	v23.16b, v4.16b, v17.16b, #14
	ext	v6.16b, v17.16b, v6.16b, #14
	tbl	v27.16b, { v27.16b }, v1.16b
	tbl	v0.16b, { v20.16b }, v0.16b
	tbl	v1.16b, { v28.16b }, v1.16b
	eor	v19.16b, v19.16b, v24.16b
	tbl	v24.16b, { v25.16b }, v3.16b
	eor	v18.16b, v18.16b, v22.16b
	eor	v16.16b, v16.16b, v21.16b
	eor	v26.16b, v27.16b, v26.16b
	ldp	q27, q25, [x9, #272]
	eor	v19.16b, v19.16b, v23.16b
	ext	v7.16b, v4.16b, v18.16b, #14
	ext	v5.16b, v18.16b, v5.16b, #14
	ldr	q18, [x9]
	eor	v0.16b, v1.16b, v0.16b
	ldr	q1, [x9, #256]
	tbl	v22.16b, { v25.16b }, v2.16b
	tbl	v23.16b, { v27.16b }, v2.16b
	eor	v21.16b, v26.16b, v24.16b
	ext	v17.16b, v4.16b, v19.16b, #14
	ext	v6.16b, v19.16b, v6.16b, #14
	tbl	v3.16b, { v18.16b }, v3.16b
	tbl	v1.16b, { v1.16b }, v2.16b
	str	x11, [x4, #8]
	eor	v16.16b, v16.16b, v22.16b
	eor	v21.16b, v21.16b, v23.16b
	eor	v0.16b, v0.16b, v3.16b
	eor	v7.16b, v16.16b, v7.16b
	eor	v16.16b, v21.16b, v17.16b
	eor	v0.16b, v0.16b, v1.16b
	ext	v5.16b, v7.16b, v5.16b, #14
	ext	v6.16b, v16.16b, v6.16b, #15
	ext	v3.16b, v4.16b, v7.16b, #14
	ext	v1.16b, v4.16b, v16.16b, #15
	eor	v2.16b, v6.16b, v5.16b
	eor	v0.16b, v0.16b, v3.16b
	ext	v4.16b, v4.16b, v2.16b, #15
	eor	v0.16b, v0.16b, v1.16b
	ushr	v1.16b, v2.16b, #1
	eor	v0.16b, v0.16b, v1.16b
	add	v3.16b, v4.16b, v4.16b
	eor	v1.16b, v3.16b, v4.16b
	usra	v3.16b, v2.16b, #7
	eor	v0.16b, v0.16b, v3.16b
	shl	v1.16b, v1.16b, #6
	usra	v1.16b, v2.16b, #2
	eor	v0.16b, v0.16b, v2.16b
	eor	v1.16b, v0.16b, v1.16b
	b.hi	.Ldeerlapse_0_1_0_BB20_4
// %bb.5:
	mov	x2, x10
	cmp	x3, #16
	b.lo	.Ldeerlapse_0_1_0_BB20_2
.Ldeerlapse_0_1_0_BB20_6:                               // %arm.7
	ldr	q0, [x2]
	movi	v2.16b, #15
	ldr	x8, [x0]
	eor	v0.16b, v0.16b, v1.16b
	ldp	q4, q3, [x8, #224]
	ldp	q16, q7, [x8, #192]
	ushr	v1.16b, v0.16b, #4
	and	v0.16b, v0.16b, v2.16b
	ldp	q5, q2, [x8, #480]
	tbl	v3.16b, { v3.16b }, v1.16b
	tbl	v4.16b, { v4.16b }, v1.16b
	tbl	v7.16b, { v7.16b }, v1.16b
	tbl	v6.16b, { v2.16b }, v0.16b
	movi	v2.2d, #0000000000000000
	tbl	v5.16b, { v5.16b }, v0.16b
	eor	v3.16b, v6.16b, v3.16b
	eor	v4.16b, v4.16b, v5.16b
	ldp	q17, q5, [x8, #448]
	ext	v6.16b, v2.16b, v3.16b, #15
	ext	v3.16b, v3.16b, v2.16b, #15
	tbl	v5.16b, { v5.16b }, v0.16b
	eor	v4.16b, v4.16b, v6.16b
	eor	v5.16b, v7.16b, v5.16b
	tbl	v7.16b, { v16.16b }, v1.16b
	tbl	v16.16b, { v17.16b }, v0.16b
	ldp	q18, q17, [x8, #160]
	ext	v6.16b, v2.16b, v4.16b, #15
	ext	v3.16b, v4.16b, v3.16b, #15
	eor	v7.16b, v7.16b, v16.16b
	ldp	q19, q16, [x8, #416]
	tbl	v17.16b, { v17.16b }, v1.16b
	eor	v5.16b, v5.16b, v6.16b
	tbl	v16.16b, { v16.16b }, v0.16b
	ext	v6.16b, v2.16b, v5.16b, #15
	ext	v3.16b, v5.16b, v3.16b, #15
	eor	v16.16b, v17.16b, v16.16b
	tbl	v17.16b, { v18.16b }, v1.16b
	tbl	v18.16b, { v19.16b }, v0.16b
	ldp	q20, q19, [x8, #128]
	eor	v7.16b, v7.16b, v6.16b
	eor	v17.16b, v17.16b, v18.16b
	ldp	q21, q18, [x8, #384]
	ext	v6.16b, v2.16b, v7.16b, #15
	tbl	v19.16b, { v19.16b }, v1.16b
	ext	v3.16b, v7.16b, v3.16b, #15
	tbl	v18.16b, { v18.16b }, v0.16b
	eor	v6.16b, v16.16b, v6.16b
	eor	v18.16b, v19.16b, v18.16b
	tbl	v19.16b, { v20.16b }, v1.16b
	tbl	v20.16b, { v21.16b }, v0.16b
	ext	v16.16b, v2.16b, v6.16b, #15
	ldp	q22, q21, [x8, #96]
	ext	v3.16b, v6.16b, v3.16b, #15
	eor	v19.16b, v19.16b, v20.16b
	tbl	v21.16b, { v21.16b }, v1.16b
	tbl	v5.16b, { v22.16b }, v1.16b
	eor	v16.16b, v17.16b, v16.16b
	ext	v17.16b, v2.16b, v16.16b, #15
	ext	v3.16b, v16.16b, v3.16b, #15
	eor	v17.16b, v18.16b, v17.16b
	ext	v18.16b, v2.16b, v17.16b, #15
	ext	v3.16b, v17.16b, v3.16b, #15
	eor	v18.16b, v19.16b, v18.16b
	ldp	q19, q20, [x8, #352]
	tbl	v20.16b, { v20.16b }, v0.16b
	ext	v4.16b, v2.16b, v18.16b, #15
	tbl	v19.16b, { v19.16b }, v0.16b
	ext	v3.16b, v18.16b, v3.16b, #15
	eor	v20.16b, v21.16b, v20.16b
	eor	v5.16b, v5.16b, v19.16b
	ldp	q6, q19, [x8, #320]
	eor	v4.16b, v20.16b, v4.16b
	ldp	q21, q20, [x8, #64]
	tbl	v19.16b, { v19.16b }, v0.16b
	tbl	v6.16b, { v6.16b }, v0.16b
	ext	v7.16b, v2.16b, v4.16b, #15
	tbl	v20.16b, { v20.16b }, v1.16b
	tbl	v16.16b, { v21.16b }, v1.16b
	ext	v3.16b, v4.16b, v3.16b, #15
	eor	v5.16b, v5.16b, v7.16b
	eor	v19.16b, v20.16b, v19.16b
	eor	v6.16b, v16.16b, v6.16b
	ext	v7.16b, v2.16b, v5.16b, #15
	ext	v3.16b, v5.16b, v3.16b, #15
	eor	v7.16b, v19.16b, v7.16b
	ldp	q19, q18, [x8, #32]
	ext	v17.16b, v2.16b, v7.16b, #15
	tbl	v18.16b, { v18.16b }, v1.16b
	tbl	v5.16b, { v19.16b }, v1.16b
	ext	v3.16b, v7.16b, v3.16b, #15
	eor	v6.16b, v6.16b, v17.16b
	ldp	q17, q16, [x8, #288]
	tbl	v16.16b, { v16.16b }, v0.16b
	ext	v4.16b, v2.16b, v6.16b, #15
	tbl	v17.16b, { v17.16b }, v0.16b
	ext	v3.16b, v6.16b, v3.16b, #15
	eor	v16.16b, v18.16b, v16.16b
	eor	v5.16b, v5.16b, v17.16b
	ldp	q17, q6, [x8]
	eor	v4.16b, v16.16b, v4.16b
	tbl	v6.16b, { v6.16b }, v1.16b
	tbl	v1.16b, { v17.16b }, v1.16b
	ext	v7.16b, v2.16b, v4.16b, #15
	ext	v3.16b, v4.16b, v3.16b, #15
	eor	v5.16b, v5.16b, v7.16b
	ldp	q7, q16, [x8, #256]
	ldr	x8, [x4, #8]
	tbl	v16.16b, { v16.16b }, v0.16b
	ext	v4.16b, v2.16b, v5.16b, #15
	ext	v3.16b, v5.16b, v3.16b, #15
	tbl	v0.16b, { v7.16b }, v0.16b
	add	x8, x8, #1
	str	x8, [x4, #8]
	eor	v6.16b, v6.16b, v16.16b
	eor	v4.16b, v6.16b, v4.16b
	ext	v3.16b, v4.16b, v3.16b, #15
	ext	v4.16b, v2.16b, v4.16b, #15
	ext	v2.16b, v2.16b, v3.16b, #15
	ushr	v5.16b, v3.16b, #1
	eor	v1.16b, v1.16b, v4.16b
	eor	v1.16b, v1.16b, v5.16b
	add	v4.16b, v2.16b, v2.16b
	eor	v0.16b, v1.16b, v0.16b
	eor	v2.16b, v4.16b, v2.16b
	usra	v4.16b, v3.16b, #7
	shl	v1.16b, v2.16b, #6
	eor	v0.16b, v0.16b, v4.16b
	usra	v1.16b, v3.16b, #2
	eor	v0.16b, v0.16b, v3.16b
	eor	v1.16b, v0.16b, v1.16b
	str	q1, [x1]
	ret
.Ldeerlapse_0_1_0_func_end20:
	.size	"deerlapse_0_1_0::aead_ciphers_wide::gcm::KeyRefUpdateBlocks::update_blocks", .Ldeerlapse_0_1_0_func_end20-"deerlapse_0_1_0::aead_ciphers_wide::gcm::KeyRefUpdateBlocks::update_blocks"
	.cfi_endproc
                                        // -- End function
	.section	.text.deerlapse_aes_gcm,"ax",@progbits
	.p2align	2                               // -- Begin function aead_ciphers_wide::gcm::KeyRefUpdateBlock::update_block
	.type	"deerlapse_0_1_0::aead_ciphers_wide::gcm::KeyRefUpdateBlock::update_block",@function
"deerlapse_0_1_0::aead_ciphers_wide::gcm::KeyRefUpdateBlock::update_block": // @"deerlapse_0_1_0::aead_ciphers_wide::gcm::KeyRefUpdateBlock::update_block"
	.cfi_startproc
// %bb.0:                               // %start
	ldr	q0, [x2]
	ldr	q1, [x1]
	movi	v2.16b, #15
	ldp	q4, q3, [x0, #224]
	eor	v0.16b, v1.16b, v0.16b
	ldp	q16, q7, [x0, #192]
	ushr	v1.16b, v0.16b, #4
	and	v0.16b, v0.16b, v2.16b
	ldp	q5, q2, [x0, #480]
	tbl	v3.16b, { v3.16b }, v1.16b
	tbl	v4.16b, { v4.16b }, v1.16b
	tbl	v7.16b, { v7.16b }, v1.16b
	tbl	v6.16b, { v2.16b }, v0.16b
	movi	v2.2d, #0000000000000000
	tbl	v5.16b, { v5.16b }, v0.16b
	eor	v3.16b, v6.16b, v3.16b
	eor	v4.16b, v4.16b, v5.16b
	ldp	q17, q5, [x0, #448]
	ext	v6.16b, v2.16b, v3.16b, #15
	ext	v3.16b, v3.16b, v2.16b, #15
	tbl	v5.16b, { v5.16b }, v0.16b
	eor	v4.16b, v4.16b, v6.16b
	eor	v5.16b, v7.16b, v5.16b
	tbl	v7.16b, { v16.16b }, v1.16b
	tbl	v16.16b, { v17.16b }, v0.16b
	ldp	q18, q17, [x0, #160]
	ext	v6.16b, v2.16b, v4.16b, #15
	ext	v3.16b, v4.16b, v3.16b, #15
	eor	v7.16b, v7.16b, v16.16b
	ldp	q19, q16, [x0, #416]
	tbl	v17.16b, { v17.16b }, v1.16b
	eor	v5.16b, v5.16b, v6.16b
	tbl	v16.16b, { v16.16b }, v0.16b
	ext	v6.16b, v2.16b, v5.16b, #15
	ext	v3.16b, v5.16b, v3.16b, #15
	eor	v16.16b, v17.16b, v16.16b
	tbl	v17.16b, { v18.16b }, v1.16b
	tbl	v18.16b, { v19.16b }, v0.16b
	ldp	q20, q19, [x0, #128]
	eor	v7.16b, v7.16b, v6.16b
	eor	v17.16b, v17.16b, v18.16b
	ldp	q21, q18, [x0, #384]
	ext	v6.16b, v2.16b, v7.16b, #15
	tbl	v19.16b, { v19.16b }, v1.16b
	ext	v3.16b, v7.16b, v3.16b, #15
	tbl	v18.16b, { v18.16b }, v0.16b
	eor	v6.16b, v16.16b, v6.16b
	eor	v18.16b, v19.16b, v18.16b
	tbl	v19.16b, { v20.16b }, v1.16b
	tbl	v20.16b, { v21.16b }, v0.16b
	ext	v16.16b, v2.16b, v6.16b, #15
	ldp	q22, q21, [x0, #96]
	ext	v3.16b, v6.16b, v3.16b, #15
	eor	v19.16b, v19.16b, v20.16b
	tbl	v21.16b, { v21.16b }, v1.16b
	tbl	v5.16b, { v22.16b }, v1.16b
	eor	v16.16b, v17.16b, v16.16b
	ext	v17.16b, v2.16b, v16.16b, #15
	ext	v3.16b, v16.16b, v3.16b, #15
	eor	v17.16b, v18.16b, v17.16b
	ext	v18.16b, v2.16b, v17.16b, #15
	ext	v3.16b, v17.16b, v3.16b, #15
	eor	v18.16b, v19.16b, v18.16b
	ldp	q19, q20, [x0, #352]
	tbl	v20.16b, { v20.16b }, v0.16b
	ext	v4.16b, v2.16b, v18.16b, #15
	tbl	v19.16b, { v19.16b }, v0.16b
	ext	v3.16b, v18.16b, v3.16b, #15
	eor	v20.16b, v21.16b, v20.16b
	eor	v5.16b, v5.16b, v19.16b
	ldp	q6, q19, [x0, #320]
	eor	v4.16b, v20.16b, v4.16b
	ldp	q21, q20, [x0, #64]
	tbl	v19.16b, { v19.16b }, v0.16b
	tbl	v6.16b, { v6.16b }, v0.16b
	ext	v7.16b, v2.16b, v4.16b, #15
	tbl	v20.16b, { v20.16b }, v1.16b
	tbl	v16.16b, { v21.16b }, v1.16b
	ext	v3.16b, v4.16b, v3.16b, #15
	eor	v5.16b, v5.16b, v7.16b
	eor	v19.16b, v20.16b, v19.16b
	eor	v6.16b, v16.16b, v6.16b
	ext	v7.16b, v2.16b, v5.16b, #15
	ext	v3.16b, v5.16b, v3.16b, #15
	eor	v7.16b, v19.16b, v7.16b
	ldp	q19, q18, [x0, #32]
	ext	v17.16b, v2.16b, v7.16b, #15
	tbl	v18.16b, { v18.16b }, v1.16b
	tbl	v5.16b, { v19.16b }, v1.16b
	ext	v3.16b, v7.16b, v3.16b, #15
	eor	v6.16b, v6.16b, v17.16b
	ldp	q17, q16, [x0, #288]
	tbl	v16.16b, { v16.16b }, v0.16b
	ext	v4.16b, v2.16b, v6.16b, #15
	tbl	v17.16b, { v17.16b }, v0.16b
	ext	v3.16b, v6.16b, v3.16b, #15
	eor	v16.16b, v18.16b, v16.16b
	eor	v5.16b, v5.16b, v17.16b
	ldp	q17, q6, [x0]
	eor	v4.16b, v16.16b, v4.16b
	tbl	v6.16b, { v6.16b }, v1.16b
	tbl	v1.16b, { v17.16b }, v1.16b
	ext	v7.16b, v2.16b, v4.16b, #15
	ext	v3.16b, v4.16b, v3.16b, #15
	eor	v5.16b, v5.16b, v7.16b
	ldp	q7, q16, [x0, #256]
	tbl	v16.16b, { v16.16b }, v0.16b
	ext	v4.16b, v2.16b, v5.16b, #15
	ext	v3.16b, v5.16b, v3.16b, #15
	tbl	v0.16b, { v7.16b }, v0.16b
	eor	v6.16b, v6.16b, v16.16b
	eor	v4.16b, v6.16b, v4.16b
	ext	v3.16b, v4.16b, v3.16b, #15
	ext	v4.16b, v2.16b, v4.16b, #15
	ext	v2.16b, v2.16b, v3.16b, #15
	ushr	v5.16b, v3.16b, #1
	eor	v1.16b, v1.16b, v4.16b
	eor	v1.16b, v1.16b, v5.16b
	add	v4.16b, v2.16b, v2.16b
	eor	v0.16b, v1.16b, v0.16b
	eor	v2.16b, v4.16b, v2.16b
	usra	v4.16b, v3.16b, #7
	shl	v1.16b, v2.16b, #6
	eor	v0.16b, v0.16b, v4.16b
	usra	v1.16b, v3.16b, #2
	eor	v0.16b, v0.16b, v3.16b
	eor	v0.16b, v0.16b, v1.16b
	str	q0, [x1]
	ldr	x8, [x3, #8]
	add	x8, x8, #1
	str	x8, [x3, #8]
	ret
.Ldeerlapse_0_1_0_func_end21:
	.size	"deerlapse_0_1_0::aead_ciphers_wide::gcm::KeyRefUpdateBlock::update_block", .Ldeerlapse_0_1_0_func_end21-"deerlapse_0_1_0::aead_ciphers_wide::gcm::KeyRefUpdateBlock::update_block"
	.cfi_endproc
                                        // -- End function
	.section	.text.deerlapse_aes_gcm,"ax",@progbits
	.p2align	2                               // -- Begin function aead_ciphers::aes_gcm::opening::authenticate::<#7bfdf0a6b4753edd>
	.type	"deerlapse_0_1_0::aead_ciphers::aes_gcm::opening::authenticate::<#7bfdf0a6b4753edd>",@function
"deerlapse_0_1_0::aead_ciphers::aes_gcm::opening::authenticate::<#7bfdf0a6b4753edd>": // @"deerlapse_0_1_0::aead_ciphers::aes_gcm::opening::authenticate::<#7bfdf0a6b4753edd>"
	.cfi_startproc
// %bb.0:                               // %start
	sub	sp, sp, #336
	.cfi_def_cfa_offset 336
	stp	x29, x30, [sp, #240]            // 16-byte Folded Spill
	stp	x28, x27, [sp, #256]            // 16-byte Folded Spill
	stp	x26, x25, [sp, #272]            // 16-byte Folded Spill
	stp	x24, x23, [sp, #288]            // 16-byte Folded Spill
	stp	x22, x21, [sp, #304]            // 16-byte Folded Spill
	stp	x20, x19, [sp, #320]            // 16-byte Folded Spill
	add	x29, sp, #240
	.cfi_def_cfa w29, 96
	.cfi_offset w19, -8
	.cfi_offset w20, -16
	.cfi_offset w21, -24
	.cfi_offset w22, -32
	.cfi_offset w23, -40
	.cfi_offset w24, -48
	.cfi_offset w25, -56
	.cfi_offset w26, -64
	.cfi_offset w27, -72
	.cfi_offset w28, -80
	.cfi_offset w30, -88
	.cfi_offset w29, -96
	ldp	x28, x21, [x29, #96]
	and	x26, x5, #0xfffffffffffffff0
	ldr	x8, [x3]
	ldr	w9, [x3, #8]
	mov	x24, x4
	ldr	q0, [x6]
	mov	x23, x2
	mov	x20, x1
	mov	x19, x0
	stp	x2, x5, [x29, #-72]
	sub	x1, x29, #88
	mov	x0, x2
	mov	x2, x4
	mov	x3, x26
	mov	x4, x21
	mov	x22, x7
	stur	x8, [x29, #-104]
	stur	w9, [x29, #-96]
	sub	x27, x29, #88
	and	x25, x5, #0xf
	stp	xzr, xzr, [sp, #80]
	stp	xzr, xzr, [sp, #16]
	stp	xzr, xzr, [x29, #-88]
	str	q0, [sp]                        // 16-byte Spill
	stur	x28, [x29, #-56]
	bl	"deerlapse_0_1_0::aead_ciphers_wide::gcm::KeyRefUpdateBlocks::update_blocks"
	cbz	x25, .Ldeerlapse_0_1_0_BB22_2
// %bb.1:                               // %then.1.i.i.i
	mov	w8, #16                         // =0x10
	mov	w1, wzr
	sub	x2, x8, x25
	sub	x8, x29, #32
	add	x0, x8, x25
	bl	memset
	sub	x0, x29, #32
	add	x1, x24, x26
	mov	x2, x25
	bl	memcpy
	ldr	x0, [x23]
	sub	x1, x29, #88
	sub	x2, x29, #32
	mov	x3, x21
	bl	"deerlapse_0_1_0::aead_ciphers_wide::gcm::KeyRefUpdateBlock::update_block"
.Ldeerlapse_0_1_0_BB22_2:                               // %"aead_ciphers::gcm::context::Context::of_fitting::<#3f2567b24793e466>.exit"
	ldp	q0, q1, [x27]
	and	x25, x28, #0xfffffffffffffff0
	ldur	x8, [x29, #-56]
	add	x1, sp, #96
	mov	x2, x22
	mov	x3, x25
	mov	x4, x21
	and	x24, x28, #0xf
	stp	q0, q1, [sp, #32]
	stp	q0, q1, [sp, #96]
	ldr	x23, [sp, #112]
	str	x8, [sp, #64]
	str	x8, [sp, #128]
	mov	x0, x23
	bl	"deerlapse_0_1_0::aead_ciphers_wide::gcm::KeyRefUpdateBlocks::update_blocks"
	cbz	x24, .Ldeerlapse_0_1_0_BB22_4
// %bb.3:                               // %then.1.i.i
	mov	w8, #16                         // =0x10
	mov	w1, wzr
	sub	x2, x8, x24
	sub	x8, x29, #48
	add	x0, x8, x24
	bl	memset
	sub	x0, x29, #48
	add	x1, x22, x25
	mov	x2, x24
	bl	memcpy
	ldr	x0, [x23]
	add	x1, sp, #96
	sub	x2, x29, #48
	mov	x3, x21
	bl	"deerlapse_0_1_0::aead_ciphers_wide::gcm::KeyRefUpdateBlock::update_block"
.Ldeerlapse_0_1_0_BB22_4:                               // %"aead_ciphers::gcm::context::Context::absorb::<#3f2567b24793e466>.exit"
	ldur	x8, [x29, #-104]
	ldur	w9, [x29, #-96]
	sub	x0, x29, #88
	ldr	x10, [x21]
	ldp	x1, x2, [x20, #8]
	stur	x8, [x29, #-32]
	mov	w8, #16777216                   // =0x1000000
	sub	x3, x29, #32
	stp	w9, w8, [x29, #-24]
	add	x8, x10, #1
	stp	xzr, xzr, [x29, #-88]
	str	x8, [x21]
	bl	"deerlapse_0_1_0::aead_ciphers_wide::aes::block_key::BlockKeyRef::encrypt_one"
	ldr	q0, [x27]
	add	x0, sp, #16
	add	x1, sp, #96
	add	x2, sp, #80
	mov	x3, x21
	str	q0, [sp, #80]
	bl	"deerlapse_0_1_0::aead_ciphers::aes_gcm::hash::finish::<#0f83097016d41fe1>"
	ldp	q1, q0, [sp]                    // 16-byte Folded Reload
	eor	v0.16b, v1.16b, v0.16b
	ext	v1.16b, v0.16b, v0.16b, #8
	orr	v0.8b, v0.8b, v1.8b
	fmov	x8, d0
	orr	x8, x8, x8, lsr #32
	orr	x8, x8, x8, lsr #16
	lsr	x9, x8, #8
	orr	w0, w8, w9
	bl	"deerlapse_0_1_0::aead_ciphers_base::bb::is_zero"
	cbz	w0, .Ldeerlapse_0_1_0_BB22_6
// %bb.5:                               // %arm.1
	ldur	x8, [x29, #-104]
	ldur	w10, [x29, #-96]
	mov	w9, wzr
	stur	x8, [x19, #1]
	mov	w8, #33554432                   // =0x2000000
	stur	w10, [x19, #9]
	b	.Ldeerlapse_0_1_0_BB22_7
.Ldeerlapse_0_1_0_BB22_6:                               // %arm.2
	mov	w8, wzr
	stur	wzr, [x19, #9]
	mov	w9, #1                          // =0x1
	stur	xzr, [x19, #1]
.Ldeerlapse_0_1_0_BB22_7:                               // %common.ret
	strb	w9, [x19]
	stur	w8, [x19, #13]
	.cfi_def_cfa wsp, 336
	ldp	x20, x19, [sp, #320]            // 16-byte Folded Reload
	ldp	x22, x21, [sp, #304]            // 16-byte Folded Reload
	ldp	x24, x23, [sp, #288]            // 16-byte Folded Reload
	ldp	x26, x25, [sp, #272]            // 16-byte Folded Reload
	ldp	x28, x27, [sp, #256]            // 16-byte Folded Reload
	ldp	x29, x30, [sp, #240]            // 16-byte Folded Reload
	add	sp, sp, #336
	.cfi_def_cfa_offset 0
	.cfi_restore w19
	.cfi_restore w20
	.cfi_restore w21
	.cfi_restore w22
	.cfi_restore w23
	.cfi_restore w24
	.cfi_restore w25
	.cfi_restore w26
	.cfi_restore w27
	.cfi_restore w28
	.cfi_restore w30
	.cfi_restore w29
	ret
.Ldeerlapse_0_1_0_func_end22:
	.size	"deerlapse_0_1_0::aead_ciphers::aes_gcm::opening::authenticate::<#7bfdf0a6b4753edd>", .Ldeerlapse_0_1_0_func_end22-"deerlapse_0_1_0::aead_ciphers::aes_gcm::opening::authenticate::<#7bfdf0a6b4753edd>"
	.cfi_endproc
                                        // -- End function
	.section	.text.deerlapse_aes_gcm,"ax",@progbits
	.p2align	2                               // -- Begin function aead_ciphers::aes_gcm::hash::finish::<#0f83097016d41fe1>
	.type	"deerlapse_0_1_0::aead_ciphers::aes_gcm::hash::finish::<#0f83097016d41fe1>",@function
"deerlapse_0_1_0::aead_ciphers::aes_gcm::hash::finish::<#0f83097016d41fe1>": // @"deerlapse_0_1_0::aead_ciphers::aes_gcm::hash::finish::<#0f83097016d41fe1>"
	.cfi_startproc
// %bb.0:                               // %start
	sub	sp, sp, #80
	.cfi_def_cfa_offset 80
	stp	x29, x30, [sp, #48]             // 16-byte Folded Spill
	str	x19, [sp, #64]                  // 8-byte Spill
	add	x29, sp, #48
	.cfi_def_cfa w29, 32
	.cfi_offset w19, -16
	.cfi_offset w30, -24
	.cfi_offset w29, -32
	ldur	q0, [x1, #24]
	movi	v2.2d, #0x00ff0000000000
	movi	v1.2d, #0xff000000000000
	movi	v3.2d, #0x0000ff00000000
	movi	v6.2d, #0x000000ff000000
	ldr	x8, [x1, #16]
	shl	v5.2d, v0.2d, #27
	movi	v7.2d, #0x00000000ff0000
	mov	x19, x0
	shl	v4.2d, v0.2d, #43
	shl	v16.2d, v0.2d, #11
	ldr	x0, [x8]
	ushr	v17.2d, v0.2d, #5
	ushr	v18.2d, v0.2d, #21
	and	v2.16b, v5.16b, v2.16b
	movi	v5.2d, #0x0000000000ff00
	and	v1.16b, v4.16b, v1.16b
	shl	v4.2d, v0.2d, #59
	and	v3.16b, v16.16b, v3.16b
	and	v6.16b, v17.16b, v6.16b
	and	v7.16b, v18.16b, v7.16b
	ushr	v16.2d, v0.2d, #37
	ushr	v0.2d, v0.2d, #53
	orr	v1.16b, v1.16b, v4.16b
	orr	v2.16b, v2.16b, v3.16b
	and	v3.16b, v16.16b, v5.16b
	orr	v4.16b, v6.16b, v7.16b
	movi	v5.2d, #0x000000000000ff
	orr	v1.16b, v1.16b, v2.16b
	orr	v2.16b, v4.16b, v3.16b
	and	v0.16b, v0.16b, v5.16b
	orr	v1.16b, v1.16b, v2.16b
	ldr	q2, [x1]
	sub	x1, x29, #16
	stur	q2, [x29, #-16]
	orr	v0.16b, v1.16b, v0.16b
	ldr	q1, [x2]
	add	x2, sp, #16
	stp	q1, q0, [sp]                    // 16-byte Folded Spill
	bl	"deerlapse_0_1_0::aead_ciphers_wide::gcm::KeyRefUpdateBlock::update_block"
	ldur	q0, [x29, #-16]
	ldr	q1, [sp]                        // 16-byte Reload
	eor	v0.16b, v0.16b, v1.16b
	str	q0, [x19]
	.cfi_def_cfa wsp, 80
	ldp	x29, x30, [sp, #48]             // 16-byte Folded Reload
	ldr	x19, [sp, #64]                  // 8-byte Reload
	add	sp, sp, #80
	.cfi_def_cfa_offset 0
	.cfi_restore w19
	.cfi_restore w30
	.cfi_restore w29
	ret
.Ldeerlapse_0_1_0_func_end23:
	.size	"deerlapse_0_1_0::aead_ciphers::aes_gcm::hash::finish::<#0f83097016d41fe1>", .Ldeerlapse_0_1_0_func_end23-"deerlapse_0_1_0::aead_ciphers::aes_gcm::hash::finish::<#0f83097016d41fe1>"
	.cfi_endproc
                                        // -- End function
	.section	.text.deerlapse_aes_gcm,"ax",@progbits
	.p2align	2                               // -- Begin function aead_ciphers_base::bb::is_zero
	.type	"deerlapse_0_1_0::aead_ciphers_base::bb::is_zero",@function
"deerlapse_0_1_0::aead_ciphers_base::bb::is_zero":       // @"deerlapse_0_1_0::aead_ciphers_base::bb::is_zero"
	.cfi_startproc
// %bb.0:                               // %start
	tst	w0, #0xff
	cset	w0, eq
	ret
.Ldeerlapse_0_1_0_func_end24:
	.size	"deerlapse_0_1_0::aead_ciphers_base::bb::is_zero", .Ldeerlapse_0_1_0_func_end24-"deerlapse_0_1_0::aead_ciphers_base::bb::is_zero"
	.cfi_endproc
                                        // -- End function
	.section	.text.deerlapse_aes_gcm,"ax",@progbits
	.p2align	2                               // -- Begin function aead_ciphers::aes_gcm::counter_mode::encrypt_within::<#6fa349fe97f872a2>
	.type	"deerlapse_0_1_0::aead_ciphers::aes_gcm::counter_mode::encrypt_within::<#6fa349fe97f872a2>",@function
"deerlapse_0_1_0::aead_ciphers::aes_gcm::counter_mode::encrypt_within::<#6fa349fe97f872a2>": // @"deerlapse_0_1_0::aead_ciphers::aes_gcm::counter_mode::encrypt_within::<#6fa349fe97f872a2>"
	.cfi_startproc
// %bb.0:                               // %start
	sub	sp, sp, #432
	.cfi_def_cfa_offset 432
	stp	x29, x30, [sp, #336]            // 16-byte Folded Spill
	stp	x28, x27, [sp, #352]            // 16-byte Folded Spill
	stp	x26, x25, [sp, #368]            // 16-byte Folded Spill
	stp	x24, x23, [sp, #384]            // 16-byte Folded Spill
	stp	x22, x21, [sp, #400]            // 16-byte Folded Spill
	stp	x20, x19, [sp, #416]            // 16-byte Folded Spill
	add	x29, sp, #336
	.cfi_def_cfa w29, 96
	.cfi_offset w19, -8
	.cfi_offset w20, -16
	.cfi_offset w21, -24
	.cfi_offset w22, -32
	.cfi_offset w23, -40
	.cfi_offset w24, -48
	.cfi_offset w25, -56
	.cfi_offset w26, -64
	.cfi_offset w27, -72
	.cfi_offset w28, -80
	.cfi_offset w30, -88
	.cfi_offset w29, -96
	sub	x9, x3, x4
	ldr	q0, [x1]
	mov	x22, x5
	and	x8, x9, #0xffffffffffffff00
	tst	x9, #0xf
	mov	x23, x0
	csel	x27, x9, x8, eq
	stp	x2, x4, [sp, #16]               // 16-byte Folded Spill
	str	q0, [sp, #32]
	stp	x3, x27, [sp]                   // 16-byte Folded Spill
	cbz	x27, .Ldeerlapse_0_1_0_BB25_12
// %bb.1:                               // %join.5.lr.ph
	ldr	w8, [sp, #44]
	mov	x26, xzr
	b	.Ldeerlapse_0_1_0_BB25_4
.Ldeerlapse_0_1_0_BB25_2:                               //   in Loop: Header=BB25_4 Depth=1
	ldr	x27, [sp, #8]                   // 8-byte Reload
.Ldeerlapse_0_1_0_BB25_3:                               // %loop.2.loopexit
                                        //   in Loop: Header=BB25_4 Depth=1
	add	x26, x28, x26
	cmp	x26, x27
	b.hs	.Ldeerlapse_0_1_0_BB25_12
.Ldeerlapse_0_1_0_BB25_4:                               // %join.5
                                        // =>This Loop Header: Depth=1
                                        //     Child Loop BB25_8 Depth 2
	subs	x9, x27, x26
	ldr	w11, [x23, #24]
	mov	w10, #3072                      // =0xc00
	cmp	x9, #3072
	csel	x28, x9, x10, lo
	cmp	w11, #256
	mov	w9, #128                        // =0x80
	mov	w10, #256                       // =0x100
	csel	x20, x10, x9, eq
	cmp	x27, x26
	b.eq	.Ldeerlapse_0_1_0_BB25_3
// %bb.5:                               // %join.8.i.preheader
                                        //   in Loop: Header=BB25_4 Depth=1
	ldr	x9, [sp, #16]                   // 8-byte Reload
	mov	x19, xzr
	rev	w27, w8
	add	x24, x9, x26
	b	.Ldeerlapse_0_1_0_BB25_8
.Ldeerlapse_0_1_0_BB25_6:                               // %then.1.i
                                        //   in Loop: Header=BB25_8 Depth=2
	ldp	x0, x1, [x23, #8]
	add	x2, x24, x19
	ldr	x3, [sp, #24]                   // 8-byte Reload
	add	x4, sp, #32
	mov	x5, x25
	bl	"deerlapse_0_1_0::aead_ciphers_wide::aes::ctr32::encrypt_few"
.Ldeerlapse_0_1_0_BB25_7:                               // %"aead_ciphers_wide::aes::ctr32::encrypt_batch.exit"
                                        //   in Loop: Header=BB25_8 Depth=2
	add	x27, x27, x21, lsr #4
	ldr	x9, [x22]
	add	x19, x21, x19
	cmp	x19, x28
	rev	w8, w27
	add	x9, x9, x25
                                        // kill: def $w27 killed $w27 killed $x27 def $x27
	str	w8, [sp, #44]
	str	x9, [x22]
	b.hs	.Ldeerlapse_0_1_0_BB25_2
.Ldeerlapse_0_1_0_BB25_8:                               // %join.8.i
                                        //   Parent Loop BB25_4 Depth=1
                                        // =>  This Inner Loop Header: Depth=2
	sub	x8, x28, x19
	cmp	x8, x20
	csel	x21, x8, x20, lo
	cmp	x8, #79
	lsr	x25, x21, #4
	b.ls	.Ldeerlapse_0_1_0_BB25_6
// %bb.9:                               // %else.2.i
                                        //   in Loop: Header=BB25_8 Depth=2
	ldr	x0, [x23]
	ldr	x1, [x23, #16]
	add	x2, x24, x19
	add	x4, sp, #32
	cmp	x21, #143
	b.hi	.Ldeerlapse_0_1_0_BB25_11
// %bb.10:                              // %then.4.i
                                        //   in Loop: Header=BB25_8 Depth=2
	ldr	x3, [sp, #24]                   // 8-byte Reload
	mov	x5, x25
	bl	"deerlapse_0_1_0::aead_ciphers_wide::aes::ctr32::encrypt_up_to_eight"
	b	.Ldeerlapse_0_1_0_BB25_7
.Ldeerlapse_0_1_0_BB25_11:                              // %else.5.i
                                        //   in Loop: Header=BB25_8 Depth=2
	ldr	x3, [sp, #24]                   // 8-byte Reload
	mov	x5, x25
	bl	"deerlapse_0_1_0::aead_ciphers_wide::aes::ctr32::encrypt_up_to_sixteen"
	b	.Ldeerlapse_0_1_0_BB25_7
.Ldeerlapse_0_1_0_BB25_12:                              // %after.1
	ldr	x21, [sp]                       // 8-byte Reload
	ldr	x24, [sp, #24]                  // 8-byte Reload
	sub	x20, x21, x24
	cmp	x27, x20
	b.hs	.Ldeerlapse_0_1_0_BB25_36
// %bb.13:                              // %then.6
	sub	x8, x21, x24
	movi	v0.2d, #0000000000000000
	sub	x25, x8, x27
	mov	w8, #16                         // =0x10
	tst	x25, #0xf
	csel	x8, xzr, x8, eq
	add	x19, x8, x25
	ldr	x8, [sp, #16]                   // 8-byte Reload
	and	x28, x19, #0xfffffffffffffff0
	add	x26, x8, x27
	cmp	x28, #64
	add	x8, x26, x24
	b.hi	.Ldeerlapse_0_1_0_BB25_16
// %bb.14:                              // %then.1.i20
	add	x9, sp, #48
	ldr	q1, [sp, #32]
	stp	q0, q0, [sp, #48]
	sub	x8, x9, x8
	stp	q0, q0, [sp, #80]
	cmp	x8, x25
	stur	q1, [x29, #-32]
	b.hs	.Ldeerlapse_0_1_0_BB25_18
// %bb.15:                              // %join.7.i.i.i.i.i.i.preheader
	sub	x8, x21, x24
	add	x0, sp, #48
	add	x1, x26, x24
	sub	x2, x8, x27
	bl	memcpy
	cbnz	x28, .Ldeerlapse_0_1_0_BB25_19
	b	.Ldeerlapse_0_1_0_BB25_20
.Ldeerlapse_0_1_0_BB25_16:                              // %else.2.i19
	add	x9, sp, #48
	ldr	q1, [sp, #32]
	stp	q0, q0, [sp, #48]
	sub	x8, x9, x8
	stp	q0, q0, [sp, #80]
	cmp	x8, x25
	stp	q0, q0, [sp, #112]
	stp	q0, q0, [sp, #144]
	stp	q0, q0, [sp, #176]
	stp	q0, q0, [sp, #208]
	stp	q0, q0, [sp, #240]
	stp	q0, q0, [sp, #272]
	stur	q1, [x29, #-32]
	b.hs	.Ldeerlapse_0_1_0_BB25_22
// %bb.17:                              // %join.7.i.i.i.i.i.i122.preheader
	sub	x8, x21, x24
	add	x0, sp, #48
	mov	x21, x26
	add	x1, x26, x24
	sub	x2, x8, x27
	b	.Ldeerlapse_0_1_0_BB25_23
.Ldeerlapse_0_1_0_BB25_18:                              // %apart.2.i.i.i.i.i.i
	add	x0, sp, #48
	add	x1, x26, x24
	mov	x2, x25
	bl	memcpy
	cbz	x28, .Ldeerlapse_0_1_0_BB25_20
.Ldeerlapse_0_1_0_BB25_19:                              // %join.8.i.i
	mov	x21, x26
	lsr	x26, x19, #4
	ldur	w8, [x29, #-20]
	ldp	x0, x1, [x23, #8]
	add	x2, sp, #48
	sub	x4, x29, #32
	mov	x3, xzr
	mov	x5, x26
	rev	w19, w8
	bl	"deerlapse_0_1_0::aead_ciphers_wide::aes::ctr32::encrypt_few"
	add	w8, w19, w26
	ldr	x9, [x22]
	ldr	x24, [sp, #24]                  // 8-byte Reload
	rev	w8, w8
	stur	w8, [x29, #-20]
	add	x8, x9, x26
	mov	x26, x21
	ldr	x21, [sp]                       // 8-byte Reload
	str	x8, [x22]
.Ldeerlapse_0_1_0_BB25_20:                              // %"aead_ciphers::aes_gcm::counter_mode::encrypt_padded::<#6fa349fe97f872a2>.exit"
	add	x8, sp, #48
	sub	x8, x26, x8
	cmp	x8, x25
	b.hs	.Ldeerlapse_0_1_0_BB25_32
// %bb.21:                              // %join.7.i.i.i.i.i.i109.preheader
	sub	x8, x21, x24
	add	x1, sp, #48
	mov	x0, x26
	sub	x2, x8, x27
	b	.Ldeerlapse_0_1_0_BB25_35
.Ldeerlapse_0_1_0_BB25_22:                              // %apart.2.i.i.i.i.i.i121
	add	x0, sp, #48
	mov	x21, x26
	add	x1, x26, x24
	mov	x2, x25
.Ldeerlapse_0_1_0_BB25_23:                              // %"core::slice::edits::slice+T::copy_from_slice::<i8,20'core::clone::U8Clone{}>.exit129"
	bl	memcpy
	ldr	w8, [x23, #24]
	ldur	w9, [x29, #-20]
	mov	w10, #256                       // =0x100
	mov	x20, xzr
	cmp	w8, #256
	mov	w8, #128                        // =0x80
	rev	w19, w9
	csel	x24, x10, x8, eq
	b	.Ldeerlapse_0_1_0_BB25_26
.Ldeerlapse_0_1_0_BB25_24:                              // %then.1.i.i60
                                        //   in Loop: Header=BB25_26 Depth=1
	ldp	x0, x1, [x23, #8]
	add	x2, x8, x20
	sub	x4, x29, #32
	mov	x3, xzr
	mov	x5, x26
	bl	"deerlapse_0_1_0::aead_ciphers_wide::aes::ctr32::encrypt_few"
.Ldeerlapse_0_1_0_BB25_25:                              // %"aead_ciphers_wide::aes::ctr32::encrypt_batch.exit.i57"
                                        //   in Loop: Header=BB25_26 Depth=1
	add	x19, x19, x27, lsr #4
	ldr	x8, [x22]
	add	x20, x27, x20
	cmp	x20, x28
	rev	w9, w19
	add	x8, x8, x26
                                        // kill: def $w19 killed $w19 killed $x19 def $x19
	stur	w9, [x29, #-20]
	str	x8, [x22]
	b.hs	.Ldeerlapse_0_1_0_BB25_30
.Ldeerlapse_0_1_0_BB25_26:                              // %join.8.i.i44
                                        // =>This Inner Loop Header: Depth=1
	sub	x8, x28, x20
	cmp	x8, x24
	csel	x27, x8, x24, lo
	cmp	x8, #79
	add	x8, sp, #48
	lsr	x26, x27, #4
	b.ls	.Ldeerlapse_0_1_0_BB25_24
// %bb.27:                              // %else.2.i.i54
                                        //   in Loop: Header=BB25_26 Depth=1
	ldr	x0, [x23]
	ldr	x1, [x23, #16]
	add	x2, x8, x20
	sub	x4, x29, #32
	cmp	x27, #143
	b.hi	.Ldeerlapse_0_1_0_BB25_29
// %bb.28:                              // %then.4.i.i59
                                        //   in Loop: Header=BB25_26 Depth=1
	mov	x3, xzr
	mov	x5, x26
	bl	"deerlapse_0_1_0::aead_ciphers_wide::aes::ctr32::encrypt_up_to_eight"
	b	.Ldeerlapse_0_1_0_BB25_25
.Ldeerlapse_0_1_0_BB25_29:                              // %else.5.i.i56
                                        //   in Loop: Header=BB25_26 Depth=1
	mov	x3, xzr
	mov	x5, x26
	bl	"deerlapse_0_1_0::aead_ciphers_wide::aes::ctr32::encrypt_up_to_sixteen"
	b	.Ldeerlapse_0_1_0_BB25_25
.Ldeerlapse_0_1_0_BB25_30:                              // %"aead_ciphers::aes_gcm::counter_mode::encrypt_padded::<#6fa349fe97f872a2>.exit65"
	add	x8, sp, #48
	ldr	x9, [sp]                        // 8-byte Reload
	mov	x0, x21
	sub	x8, x21, x8
	cmp	x8, x25
	ldr	x8, [sp, #24]                   // 8-byte Reload
	sub	x20, x9, x8
	b.hs	.Ldeerlapse_0_1_0_BB25_33
// %bb.31:                              // %join.7.i.i.i.i.i.i147.preheader
	ldr	x10, [sp, #8]                   // 8-byte Reload
	add	x1, sp, #48
	add	x8, x10, x8
	sub	x2, x9, x8
	b	.Ldeerlapse_0_1_0_BB25_35
.Ldeerlapse_0_1_0_BB25_32:                              // %apart.2.i.i.i.i.i.i108
	add	x1, sp, #48
	mov	x0, x26
	b	.Ldeerlapse_0_1_0_BB25_34
.Ldeerlapse_0_1_0_BB25_33:                              // %apart.2.i.i.i.i.i.i146
	add	x1, sp, #48
.Ldeerlapse_0_1_0_BB25_34:                              // %"core::slice::edits::slice+T::copy_from_slice::<i8,20'core::clone::U8Clone{}>.exit154"
	mov	x2, x25
.Ldeerlapse_0_1_0_BB25_35:                              // %"core::slice::edits::slice+T::copy_from_slice::<i8,20'core::clone::U8Clone{}>.exit154"
	bl	memcpy
.Ldeerlapse_0_1_0_BB25_36:                              // %join.8
	mov	x0, x20
	.cfi_def_cfa wsp, 432
	ldp	x20, x19, [sp, #416]            // 16-byte Folded Reload
	ldp	x22, x21, [sp, #400]            // 16-byte Folded Reload
	ldp	x24, x23, [sp, #384]            // 16-byte Folded Reload
	ldp	x26, x25, [sp, #368]            // 16-byte Folded Reload
	ldp	x28, x27, [sp, #352]            // 16-byte Folded Reload
	ldp	x29, x30, [sp, #336]            // 16-byte Folded Reload
	add	sp, sp, #432
	.cfi_def_cfa_offset 0
	.cfi_restore w19
	.cfi_restore w20
	.cfi_restore w21
	.cfi_restore w22
	.cfi_restore w23
	.cfi_restore w24
	.cfi_restore w25
	.cfi_restore w26
	.cfi_restore w27
	.cfi_restore w28
	.cfi_restore w30
	.cfi_restore w29
	ret
.Ldeerlapse_0_1_0_func_end25:
	.size	"deerlapse_0_1_0::aead_ciphers::aes_gcm::counter_mode::encrypt_within::<#6fa349fe97f872a2>", .Ldeerlapse_0_1_0_func_end25-"deerlapse_0_1_0::aead_ciphers::aes_gcm::counter_mode::encrypt_within::<#6fa349fe97f872a2>"
	.cfi_endproc
                                        // -- End function
	.section	.rodata.cst16,"aM",@progbits,16
	.p2align	4, 0x0                          // -- Begin function aead_ciphers_wide::aes::ctr32::encrypt_few
.Ldeerlapse_0_1_0_CPI26_0:
	.word	0                               // 0x0
	.word	4294967288                      // 0xfffffff8
	.word	4294967280                      // 0xfffffff0
	.word	4294967272                      // 0xffffffe8
.Ldeerlapse_0_1_0_CPI26_1:
	.byte	0                               // 0x0
	.byte	1                               // 0x1
	.byte	39                              // 0x27
	.byte	38                              // 0x26
	.byte	192                             // 0xc0
	.byte	193                             // 0xc1
	.byte	231                             // 0xe7
	.byte	230                             // 0xe6
	.byte	195                             // 0xc3
	.byte	194                             // 0xc2
	.byte	228                             // 0xe4
	.byte	229                             // 0xe5
	.byte	3                               // 0x3
	.byte	2                               // 0x2
	.byte	36                              // 0x24
	.byte	37                              // 0x25
.Ldeerlapse_0_1_0_CPI26_2:
	.byte	0                               // 0x0
	.byte	170                             // 0xaa
	.byte	122                             // 0x7a
	.byte	208                             // 0xd0
	.byte	175                             // 0xaf
	.byte	5                               // 0x5
	.byte	213                             // 0xd5
	.byte	127                             // 0x7f
	.byte	216                             // 0xd8
	.byte	114                             // 0x72
	.byte	162                             // 0xa2
	.byte	8                               // 0x8
	.byte	119                             // 0x77
	.byte	221                             // 0xdd
	.byte	13                              // 0xd
	.byte	167                             // 0xa7
.Ldeerlapse_0_1_0_CPI26_3:
	.byte	128                             // 0x80
	.byte	3                               // 0x3
	.byte	13                              // 0xd
	.byte	1                               // 0x1
	.byte	10                              // 0xa
	.byte	8                               // 0x8
	.byte	12                              // 0xc
	.byte	11                              // 0xb
	.byte	5                               // 0x5
	.byte	14                              // 0xe
	.byte	4                               // 0x4
	.byte	7                               // 0x7
	.byte	6                               // 0x6
	.byte	2                               // 0x2
	.byte	9                               // 0x9
	.byte	15                              // 0xf
.Ldeerlapse_0_1_0_CPI26_4:
	.byte	128                             // 0x80
	.byte	1                               // 0x1
	.byte	12                              // 0xc
	.byte	8                               // 0x8
	.byte	6                               // 0x6
	.byte	15                              // 0xf
	.byte	4                               // 0x4
	.byte	14                              // 0xe
	.byte	3                               // 0x3
	.byte	13                              // 0xd
	.byte	11                              // 0xb
	.byte	10                              // 0xa
	.byte	2                               // 0x2
	.byte	9                               // 0x9
	.byte	7                               // 0x7
	.byte	5                               // 0x5
.Ldeerlapse_0_1_0_CPI26_5:
	.byte	0                               // 0x0
	.byte	250                             // 0xfa
	.byte	53                              // 0x35
	.byte	106                             // 0x6a
	.byte	43                              // 0x2b
	.byte	187                             // 0xbb
	.byte	95                              // 0x5f
	.byte	65                              // 0x41
	.byte	142                             // 0x8e
	.byte	207                             // 0xcf
	.byte	228                             // 0xe4
	.byte	30                              // 0x1e
	.byte	116                             // 0x74
	.byte	144                             // 0x90
	.byte	209                             // 0xd1
	.byte	165                             // 0xa5
.Ldeerlapse_0_1_0_CPI26_6:
	.byte	0                               // 0x0
	.byte	129                             // 0x81
	.byte	153                             // 0x99
	.byte	118                             // 0x76
	.byte	10                              // 0xa
	.byte	253                             // 0xfd
	.byte	239                             // 0xef
	.byte	124                             // 0x7c
	.byte	100                             // 0x64
	.byte	24                              // 0x18
	.byte	18                              // 0x12
	.byte	147                             // 0x93
	.byte	229                             // 0xe5
	.byte	247                             // 0xf7
	.byte	139                             // 0x8b
	.byte	110                             // 0x6e
.Ldeerlapse_0_1_0_CPI26_7:
	.byte	0                               // 0x0
	.byte	5                               // 0x5
	.byte	10                              // 0xa
	.byte	15                              // 0xf
	.byte	4                               // 0x4
	.byte	9                               // 0x9
	.byte	14                              // 0xe
	.byte	3                               // 0x3
	.byte	8                               // 0x8
	.byte	13                              // 0xd
	.byte	2                               // 0x2
	.byte	7                               // 0x7
	.byte	12                              // 0xc
	.byte	1                               // 0x1
	.byte	6                               // 0x6
	.byte	11                              // 0xb
.Ldeerlapse_0_1_0_CPI26_8:
	.byte	5                               // 0x5
	.byte	10                              // 0xa
	.byte	15                              // 0xf
	.byte	0                               // 0x0
	.byte	9                               // 0x9
	.byte	14                              // 0xe
	.byte	3                               // 0x3
	.byte	4                               // 0x4
	.byte	13                              // 0xd
	.byte	2                               // 0x2
	.byte	7                               // 0x7
	.byte	8                               // 0x8
	.byte	1                               // 0x1
	.byte	6                               // 0x6
	.byte	11                              // 0xb
	.byte	12                              // 0xc
	.section	.text.deerlapse_aes_gcm,"ax",@progbits
	.p2align	2
	.type	"deerlapse_0_1_0::aead_ciphers_wide::aes::ctr32::encrypt_few",@function
"deerlapse_0_1_0::aead_ciphers_wide::aes::ctr32::encrypt_few": // @"deerlapse_0_1_0::aead_ciphers_wide::aes::ctr32::encrypt_few"
	.cfi_startproc
// %bb.0:                               // %start
	sub	sp, sp, #80
	.cfi_def_cfa_offset 80
	stp	x29, x30, [sp, #32]             // 16-byte Folded Spill
	str	x21, [sp, #48]                  // 8-byte Spill
	stp	x20, x19, [sp, #64]             // 16-byte Folded Spill
	add	x29, sp, #32
	.cfi_def_cfa w29, 48
	.cfi_offset w19, -8
	.cfi_offset w20, -16
	.cfi_offset w21, -32
	.cfi_offset w30, -40
	.cfi_offset w29, -48
	lsr	x8, x5, #1
	mov	x19, x3
	mov	x20, x2
	mov	x2, x1
	mov	x1, x0
	stp	xzr, xzr, [sp, #16]
	cbz	x8, .Ldeerlapse_0_1_0_BB26_6
// %bb.1:                               // %join.5.lr.ph
	mov	x9, xzr
	add	x10, x20, x19
	b	.Ldeerlapse_0_1_0_BB26_3
.Ldeerlapse_0_1_0_BB26_2:                               // %"aead_ciphers_wide::aes::block_key::BlockKeyRef::encrypt_two.exit"
                                        //   in Loop: Header=BB26_3 Depth=1
	movi	v2.16b, #15
	ldr	q4, [x16, :lo12:.Ldeerlapse_0_1_0_CPI26_1]
	ldr	q5, [x17, :lo12:.Ldeerlapse_0_1_0_CPI26_2]
	ldr	q7, [x14, :lo12:.Ldeerlapse_0_1_0_CPI26_3]
	ldr	q16, [x15, :lo12:.Ldeerlapse_0_1_0_CPI26_4]
	ldr	q18, [x12, :lo12:.Ldeerlapse_0_1_0_CPI26_6]
	lsl	x12, x9, #5
	add	x9, x9, #1
	cmp	x9, x8
	and	v3.16b, v1.16b, v2.16b
	ushr	v1.16b, v1.16b, #4
	tbl	v3.16b, { v4.16b }, v3.16b
	tbl	v1.16b, { v5.16b }, v1.16b
	eor	v1.16b, v1.16b, v3.16b
	and	v3.16b, v0.16b, v2.16b
	ushr	v0.16b, v0.16b, #4
	and	v6.16b, v1.16b, v2.16b
	ushr	v1.16b, v1.16b, #4
	tbl	v3.16b, { v4.16b }, v3.16b
	tbl	v0.16b, { v5.16b }, v0.16b
	eor	v4.16b, v1.16b, v6.16b
	tbl	v5.16b, { v7.16b }, v6.16b
	tbl	v6.16b, { v16.16b }, v1.16b
	eor	v0.16b, v0.16b, v3.16b
	tbl	v17.16b, { v16.16b }, v4.16b
	eor	v3.16b, v6.16b, v5.16b
	and	v2.16b, v0.16b, v2.16b
	ushr	v0.16b, v0.16b, #4
	eor	v5.16b, v17.16b, v5.16b
	tbl	v3.16b, { v16.16b }, v3.16b
	eor	v6.16b, v0.16b, v2.16b
	tbl	v2.16b, { v7.16b }, v2.16b
	tbl	v7.16b, { v16.16b }, v0.16b
	tbl	v5.16b, { v16.16b }, v5.16b
	eor	v3.16b, v3.16b, v4.16b
	ldr	q4, [x13, :lo12:.Ldeerlapse_0_1_0_CPI26_5]
	tbl	v17.16b, { v16.16b }, v6.16b
	eor	v7.16b, v7.16b, v2.16b
	eor	v1.16b, v5.16b, v1.16b
	tbl	v3.16b, { v4.16b }, v3.16b
	movi	v5.16b, #99
	eor	v2.16b, v17.16b, v2.16b
	tbl	v7.16b, { v16.16b }, v7.16b
	tbl	v1.16b, { v18.16b }, v1.16b
	eor	v3.16b, v3.16b, v5.16b
	tbl	v2.16b, { v16.16b }, v2.16b
	eor	v6.16b, v7.16b, v6.16b
	ldr	q7, [x1, x2, lsl #4]
	eor	v1.16b, v3.16b, v1.16b
	ldr	q3, [x11, :lo12:.Ldeerlapse_0_1_0_CPI26_7]
	add	x11, x10, x12
	eor	v0.16b, v2.16b, v0.16b
	tbl	v2.16b, { v4.16b }, v6.16b
	ldr	q4, [x11]
	add	x12, x20, x12
	tbl	v1.16b, { v1.16b }, v3.16b
	eor	v4.16b, v4.16b, v7.16b
	tbl	v0.16b, { v18.16b }, v0.16b
	eor	v2.16b, v2.16b, v5.16b
	eor	v1.16b, v1.16b, v4.16b
	eor	v0.16b, v2.16b, v0.16b
	str	q1, [x12]
	ldr	q1, [x11, #16]
	tbl	v0.16b, { v0.16b }, v3.16b
	eor	v1.16b, v1.16b, v7.16b
	eor	v0.16b, v0.16b, v1.16b
	str	q0, [x12, #16]
	b.eq	.Ldeerlapse_0_1_0_BB26_6
.Ldeerlapse_0_1_0_BB26_3:                               // %join.5
                                        // =>This Loop Header: Depth=1
                                        //     Child Loop BB26_5 Depth 2
	ldr	w11, [x4, #12]
	cmp	x2, #2
	adrp	x16, .Ldeerlapse_0_1_0_CPI26_1
	adrp	x17, .Ldeerlapse_0_1_0_CPI26_2
	adrp	x14, .Ldeerlapse_0_1_0_CPI26_3
	adrp	x15, .Ldeerlapse_0_1_0_CPI26_4
	rev	w11, w11
	adrp	x13, .Ldeerlapse_0_1_0_CPI26_5
	add	w11, w11, w9, lsl #1
	rev	w12, w11
	add	w11, w11, #1
	dup	v0.4s, w12
	adrp	x12, .Ldeerlapse_0_1_0_CPI26_0
	rev	w11, w11
	ldr	q1, [x12, :lo12:.Ldeerlapse_0_1_0_CPI26_0]
	dup	v2.4s, w11
	add	x11, x4, #8
	adrp	x12, .Ldeerlapse_0_1_0_CPI26_6
	ushl	v0.4s, v0.4s, v1.4s
	ushl	v1.4s, v2.4s, v1.4s
	ldr	d2, [x4]
	xtn	v0.4h, v0.4s
	ld1	{ v2.s }[2], [x11]
	adrp	x11, .Ldeerlapse_0_1_0_CPI26_7
	xtn	v1.4h, v1.4s
	mov	v3.16b, v2.16b
	uzp1	v0.8b, v0.8b, v0.8b
	uzp1	v1.8b, v1.8b, v0.8b
	mov	v3.s[3], v0.s[0]
	ldr	q0, [x1]
	mov	v2.s[3], v1.s[0]
	eor	v1.16b, v0.16b, v3.16b
	eor	v0.16b, v0.16b, v2.16b
	b.lo	.Ldeerlapse_0_1_0_BB26_2
// %bb.4:                               // %join.5.i.preheader
                                        //   in Loop: Header=BB26_3 Depth=1
	add	x0, x1, #16
	sub	x3, x2, #1
.Ldeerlapse_0_1_0_BB26_5:                               // %join.5.i
                                        //   Parent Loop BB26_3 Depth=1
                                        // =>  This Inner Loop Header: Depth=2
	movi	v2.16b, #15
	ushr	v4.16b, v1.16b, #4
	ldr	q3, [x16, :lo12:.Ldeerlapse_0_1_0_CPI26_1]
	ushr	v6.16b, v0.16b, #4
	ldr	q5, [x17, :lo12:.Ldeerlapse_0_1_0_CPI26_2]
	adrp	x6, .Ldeerlapse_0_1_0_CPI26_8
	subs	x3, x3, #1
	tbl	v4.16b, { v5.16b }, v4.16b
	and	v1.16b, v1.16b, v2.16b
	and	v0.16b, v0.16b, v2.16b
	tbl	v5.16b, { v5.16b }, v6.16b
	tbl	v1.16b, { v3.16b }, v1.16b
	tbl	v0.16b, { v3.16b }, v0.16b
	ldr	q3, [x14, :lo12:.Ldeerlapse_0_1_0_CPI26_3]
	eor	v1.16b, v4.16b, v1.16b
	eor	v0.16b, v5.16b, v0.16b
	ldr	q5, [x15, :lo12:.Ldeerlapse_0_1_0_CPI26_4]
	and	v4.16b, v1.16b, v2.16b
	ushr	v1.16b, v1.16b, #4
	and	v2.16b, v0.16b, v2.16b
	ushr	v0.16b, v0.16b, #4
	eor	v6.16b, v1.16b, v4.16b
	tbl	v4.16b, { v3.16b }, v4.16b
	tbl	v7.16b, { v5.16b }, v1.16b
	eor	v16.16b, v0.16b, v2.16b
	tbl	v2.16b, { v3.16b }, v2.16b
	tbl	v3.16b, { v5.16b }, v0.16b
	tbl	v17.16b, { v5.16b }, v6.16b
	tbl	v18.16b, { v5.16b }, v16.16b
	eor	v7.16b, v7.16b, v4.16b
	eor	v3.16b, v3.16b, v2.16b
	eor	v4.16b, v17.16b, v4.16b
	tbl	v7.16b, { v5.16b }, v7.16b
	eor	v2.16b, v18.16b, v2.16b
	tbl	v3.16b, { v5.16b }, v3.16b
	tbl	v4.16b, { v5.16b }, v4.16b
	tbl	v2.16b, { v5.16b }, v2.16b
	eor	v5.16b, v7.16b, v6.16b
	ldr	q6, [x13, :lo12:.Ldeerlapse_0_1_0_CPI26_5]
	eor	v3.16b, v3.16b, v16.16b
	movi	v7.16b, #99
	eor	v1.16b, v4.16b, v1.16b
	tbl	v4.16b, { v6.16b }, v5.16b
	ldr	q5, [x12, :lo12:.Ldeerlapse_0_1_0_CPI26_6]
	eor	v0.16b, v2.16b, v0.16b
	tbl	v2.16b, { v6.16b }, v3.16b
	tbl	v1.16b, { v5.16b }, v1.16b
	tbl	v0.16b, { v5.16b }, v0.16b
	eor	v3.16b, v4.16b, v7.16b
	eor	v2.16b, v2.16b, v7.16b
	eor	v1.16b, v3.16b, v1.16b
	ldr	q3, [x11, :lo12:.Ldeerlapse_0_1_0_CPI26_7]
	eor	v0.16b, v2.16b, v0.16b
	ldr	q2, [x6, :lo12:.Ldeerlapse_0_1_0_CPI26_8]
	tbl	v4.16b, { v1.16b }, v3.16b
	tbl	v1.16b, { v1.16b }, v2.16b
	tbl	v3.16b, { v0.16b }, v3.16b
	tbl	v0.16b, { v0.16b }, v2.16b
	eor	v2.16b, v1.16b, v4.16b
	movi	v4.16b, #27
	eor	v3.16b, v0.16b, v3.16b
	rev32	v6.8h, v2.8h
	cmlt	v5.16b, v2.16b, #0
	add	v2.16b, v2.16b, v2.16b
	rev32	v7.8h, v3.8h
	add	v16.16b, v3.16b, v3.16b
	cmlt	v3.16b, v3.16b, #0
	and	v5.16b, v5.16b, v4.16b
	eor	v2.16b, v6.16b, v2.16b
	and	v3.16b, v3.16b, v4.16b
	eor	v4.16b, v7.16b, v16.16b
	ldr	q6, [x0], #16
	eor	v1.16b, v5.16b, v1.16b
	eor	v2.16b, v2.16b, v6.16b
	eor	v3.16b, v3.16b, v6.16b
	eor	v0.16b, v4.16b, v0.16b
	eor	v1.16b, v2.16b, v1.16b
	eor	v0.16b, v0.16b, v3.16b
	b.ne	.Ldeerlapse_0_1_0_BB26_5
	b	.Ldeerlapse_0_1_0_BB26_2
.Ldeerlapse_0_1_0_BB26_6:                               // %after.1
	tbz	w5, #0, .Ldeerlapse_0_1_0_BB26_8
// %bb.7:                               // %then.6
	ldp	w10, w8, [x4, #8]
	sub	x21, x5, #1
	ldr	x9, [x4]
	add	x0, sp, #16
	mov	x3, sp
	rev	w8, w8
	str	x9, [sp]
	add	w8, w8, w21
	rev	w8, w8
	stp	w10, w8, [sp, #8]
	bl	"deerlapse_0_1_0::aead_ciphers_wide::aes::block_key::BlockKeyRef::encrypt_one"
	add	x8, x20, x21, lsl #4
	ldr	q0, [sp, #16]
	ldr	q1, [x8, x19]
	eor	v0.16b, v1.16b, v0.16b
	str	q0, [x8]
.Ldeerlapse_0_1_0_BB26_8:                               // %join.8
	.cfi_def_cfa wsp, 80
	ldp	x20, x19, [sp, #64]             // 16-byte Folded Reload
	ldr	x21, [sp, #48]                  // 8-byte Reload
	ldp	x29, x30, [sp, #32]             // 16-byte Folded Reload
	add	sp, sp, #80
	.cfi_def_cfa_offset 0
	.cfi_restore w19
	.cfi_restore w20
	.cfi_restore w21
	.cfi_restore w30
	.cfi_restore w29
	ret
.Ldeerlapse_0_1_0_func_end26:
	.size	"deerlapse_0_1_0::aead_ciphers_wide::aes::ctr32::encrypt_few", .Ldeerlapse_0_1_0_func_end26-"deerlapse_0_1_0::aead_ciphers_wide::aes::ctr32::encrypt_few"
	.cfi_endproc
                                        // -- End function
	.section	.rodata.cst16,"aM",@progbits,16
	.p2align	4, 0x0                          // -- Begin function aead_ciphers_wide::aes::ctr32::encrypt_up_to_eight
.Ldeerlapse_0_1_0_CPI27_0:
	.byte	0                               // 0x0
	.byte	1                               // 0x1
	.byte	2                               // 0x2
	.byte	3                               // 0x3
	.byte	4                               // 0x4
	.byte	5                               // 0x5
	.byte	6                               // 0x6
	.byte	7                               // 0x7
	.byte	8                               // 0x8
	.byte	9                               // 0x9
	.byte	10                              // 0xa
	.byte	11                              // 0xb
	.byte	31                              // 0x1f
	.byte	30                              // 0x1e
	.byte	29                              // 0x1d
	.byte	28                              // 0x1c
.Ldeerlapse_0_1_0_CPI27_1:
	.byte	0                               // 0x0
	.byte	5                               // 0x5
	.byte	10                              // 0xa
	.byte	15                              // 0xf
	.byte	4                               // 0x4
	.byte	9                               // 0x9
	.byte	14                              // 0xe
	.byte	3                               // 0x3
	.byte	8                               // 0x8
	.byte	13                              // 0xd
	.byte	2                               // 0x2
	.byte	7                               // 0x7
	.byte	12                              // 0xc
	.byte	1                               // 0x1
	.byte	6                               // 0x6
	.byte	11                              // 0xb
.Ldeerlapse_0_1_0_CPI27_2:
	.byte	5                               // 0x5
	.byte	10                              // 0xa
	.byte	15                              // 0xf
	.byte	0                               // 0x0
	.byte	9                               // 0x9
	.byte	14                              // 0xe
	.byte	3                               // 0x3
	.byte	4                               // 0x4
	.byte	13                              // 0xd
	.byte	2                               // 0x2
	.byte	7                               // 0x7
	.byte	8                               // 0x8
	.byte	1                               // 0x1
	.byte	6                               // 0x6
	.byte	11                              // 0xb
	.byte	12                              // 0xc
	.section	.text.deerlapse_aes_gcm,"ax",@progbits
	.p2align	2
	.type	"deerlapse_0_1_0::aead_ciphers_wide::aes::ctr32::encrypt_up_to_eight",@function
"deerlapse_0_1_0::aead_ciphers_wide::aes::ctr32::encrypt_up_to_eight": // @"deerlapse_0_1_0::aead_ciphers_wide::aes::ctr32::encrypt_up_to_eight"
	.cfi_startproc
// %bb.0:                               // %start
	str	d14, [sp, #-64]!                // 8-byte Folded Spill
	.cfi_def_cfa_offset 64
	stp	d13, d12, [sp, #16]             // 16-byte Folded Spill
	stp	d11, d10, [sp, #32]             // 16-byte Folded Spill
	stp	d9, d8, [sp, #48]               // 16-byte Folded Spill
	.cfi_offset b8, -8
	.cfi_offset b9, -16
	.cfi_offset b10, -24
	.cfi_offset b11, -32
	.cfi_offset b12, -40
	.cfi_offset b13, -48
	.cfi_offset b14, -64
	.cfi_remember_state
	ldr	w8, [x4, #12]
	movi	v0.4s, #7
	movi	v3.4s, #6
	movi	v4.4s, #5
	movi	v7.4s, #4
	ldr	d1, [x4]
	rev	w8, w8
	movi	v16.4s, #3
	movi	v17.4s, #2
	movi	v18.4s, #1
	dup	v6.4s, w8
	add	x8, x4, #8
	ld1	{ v1.s }[2], [x8]
	adrp	x8, .Ldeerlapse_0_1_0_CPI27_0
	ldr	q28, [x0, #64]
	ldr	q19, [x8, :lo12:.Ldeerlapse_0_1_0_CPI27_0]
	ldr	q30, [x0, #112]
	cmp	x1, #2
	add	v2.4s, v6.4s, v0.4s
	add	v21.4s, v6.4s, v3.4s
	add	v4.4s, v6.4s, v4.4s
	add	v23.4s, v6.4s, v7.4s
	add	v25.4s, v6.4s, v16.4s
	add	v17.4s, v6.4s, v17.4s
	add	v27.4s, v6.4s, v18.4s
	mov	v5.16b, v1.16b
	mov	v22.16b, v1.16b
	mov	v26.16b, v1.16b
	mov	v16.16b, v1.16b
	mov	v3.16b, v1.16b
	mov	v24.16b, v1.16b
	mov	v20.16b, v1.16b
	adrp	x8, .Ldeerlapse_0_1_0_CPI27_1
	tbl	v5.16b, { v5.16b, v6.16b }, v19.16b
	movi	v0.16b, #15
	tbl	v1.16b, { v1.16b, v2.16b }, v19.16b
	tbl	v6.16b, { v26.16b, v27.16b }, v19.16b
	ldp	q26, q27, [x0, #32]
	tbl	v7.16b, { v16.16b, v17.16b }, v19.16b
	tbl	v16.16b, { v22.16b, v23.16b }, v19.16b
	tbl	v18.16b, { v24.16b, v25.16b }, v19.16b
	tbl	v3.16b, { v3.16b, v4.16b }, v19.16b
	ldp	q29, q25, [x0, #80]
	ushr	v17.2d, v5.2d, #4
	tbl	v4.16b, { v20.16b, v21.16b }, v19.16b
	ushr	v20.2d, v6.2d, #4
	ushr	v21.2d, v7.2d, #4
	ushr	v2.2d, v18.2d, #4
	eor	v17.16b, v17.16b, v16.16b
	eor	v19.16b, v20.16b, v3.16b
	eor	v20.16b, v21.16b, v4.16b
	eor	v2.16b, v2.16b, v1.16b
	and	v17.16b, v17.16b, v0.16b
	and	v19.16b, v19.16b, v0.16b
	and	v20.16b, v20.16b, v0.16b
	and	v22.16b, v2.16b, v0.16b
	shl	v21.2d, v17.2d, #4
	eor	v16.16b, v17.16b, v16.16b
	shl	v2.2d, v19.2d, #4
	eor	v3.16b, v19.16b, v3.16b
	shl	v17.2d, v20.2d, #4
	eor	v4.16b, v20.16b, v4.16b
	shl	v19.2d, v22.2d, #4
	eor	v5.16b, v21.16b, v5.16b
	eor	v21.16b, v22.16b, v1.16b
	eor	v6.16b, v2.16b, v6.16b
	movi	v2.16b, #51
	ushr	v1.2d, v3.2d, #2
	eor	v7.16b, v17.16b, v7.16b
	ushr	v17.2d, v16.2d, #2
	eor	v18.16b, v19.16b, v18.16b
	ushr	v20.2d, v5.2d, #2
	ushr	v19.2d, v6.2d, #2
	eor	v1.16b, v1.16b, v21.16b
	eor	v17.16b, v4.16b, v17.16b
	eor	v20.16b, v7.16b, v20.16b
	eor	v19.16b, v19.16b, v18.16b
	and	v22.16b, v1.16b, v2.16b
	and	v17.16b, v17.16b, v2.16b
	and	v20.16b, v20.16b, v2.16b
	and	v19.16b, v19.16b, v2.16b
	shl	v24.2d, v22.2d, #2
	eor	v21.16b, v22.16b, v21.16b
	shl	v1.2d, v17.2d, #2
	eor	v4.16b, v17.16b, v4.16b
	shl	v23.2d, v20.2d, #2
	eor	v7.16b, v20.16b, v7.16b
	shl	v20.2d, v19.2d, #2
	eor	v17.16b, v19.16b, v18.16b
	eor	v3.16b, v24.16b, v3.16b
	eor	v16.16b, v1.16b, v16.16b
	ushr	v22.2d, v4.2d, #1
	movi	v1.16b, #85
	eor	v5.16b, v23.16b, v5.16b
	ushr	v18.2d, v7.2d, #1
	eor	v25.16b, v25.16b, v4.16b
	eor	v6.16b, v20.16b, v6.16b
	ldp	q23, q24, [x0]
	ushr	v19.2d, v16.2d, #1
	eor	v22.16b, v22.16b, v21.16b
	eor	v7.16b, v26.16b, v7.16b
	ushr	v20.2d, v5.2d, #1
	eor	v18.16b, v18.16b, v17.16b
	eor	v17.16b, v17.16b, v27.16b
	eor	v16.16b, v28.16b, v16.16b
	eor	v5.16b, v23.16b, v5.16b
	eor	v26.16b, v21.16b, v30.16b
	eor	v19.16b, v19.16b, v3.16b
	and	v22.16b, v22.16b, v1.16b
	eor	v27.16b, v3.16b, v29.16b
	eor	v20.16b, v20.16b, v6.16b
	and	v4.16b, v18.16b, v1.16b
	eor	v6.16b, v6.16b, v24.16b
	and	v18.16b, v19.16b, v1.16b
	add	v28.2d, v22.2d, v22.2d
	and	v19.16b, v20.16b, v1.16b
	add	v20.2d, v4.2d, v4.2d
	eor	v4.16b, v17.16b, v4.16b
	add	v23.2d, v18.2d, v18.2d
	add	v24.2d, v19.2d, v19.2d
	eor	v21.16b, v6.16b, v19.16b
	eor	v6.16b, v7.16b, v20.16b
	eor	v20.16b, v27.16b, v18.16b
	eor	v18.16b, v26.16b, v22.16b
	eor	v17.16b, v16.16b, v23.16b
	eor	v23.16b, v25.16b, v28.16b
	eor	v3.16b, v5.16b, v24.16b
	b.lo	.Ldeerlapse_0_1_0_BB27_3
// %bb.1:                               // %join.5.i.i.preheader
	sub	x9, x1, #1
	add	x10, x0, #240
.Ldeerlapse_0_1_0_BB27_2:                               // %join.5.i.i
                                        // =>This Inner Loop Header: Depth=1
	eor	v7.16b, v4.16b, v21.16b
	eor	v4.16b, v18.16b, v17.16b
	adrp	x11, .Ldeerlapse_0_1_0_CPI27_2
	eor	v25.16b, v23.16b, v3.16b
	subs	x9, x9, #1
	eor	v5.16b, v4.16b, v7.16b
	eor	v28.16b, v7.16b, v6.16b
	eor	v7.16b, v18.16b, v6.16b
	eor	v16.16b, v25.16b, v20.16b
	eor	v6.16b, v17.16b, v6.16b
	eor	v22.16b, v5.16b, v3.16b
	eor	v19.16b, v28.16b, v20.16b
	eor	v23.16b, v23.16b, v28.16b
	eor	v24.16b, v16.16b, v21.16b
	eor	v26.16b, v16.16b, v17.16b
	eor	v21.16b, v18.16b, v21.16b
	eor	v25.16b, v25.16b, v28.16b
	eor	v28.16b, v16.16b, v18.16b
	eor	v20.16b, v22.16b, v16.16b
	eor	v31.16b, v23.16b, v4.16b
	and	v10.16b, v4.16b, v23.16b
	eor	v27.16b, v24.16b, v7.16b
	and	v29.16b, v26.16b, v3.16b
	and	v30.16b, v21.16b, v19.16b
	and	v9.16b, v24.16b, v16.16b
	orr	v11.16b, v28.16b, v25.16b
	orr	v12.16b, v21.16b, v19.16b
	eor	v17.16b, v20.16b, v23.16b
	and	v13.16b, v20.16b, v7.16b
	eor	v18.16b, v27.16b, v26.16b
	and	v8.16b, v27.16b, v22.16b
	eor	v29.16b, v29.16b, v7.16b
	eor	v30.16b, v11.16b, v30.16b
	and	v14.16b, v17.16b, v6.16b
	eor	v11.16b, v13.16b, v10.16b
	eor	v31.16b, v31.16b, v8.16b
	and	v8.16b, v18.16b, v5.16b
	eor	v29.16b, v29.16b, v20.16b
	eor	v10.16b, v14.16b, v10.16b
	eor	v30.16b, v30.16b, v11.16b
	eor	v29.16b, v29.16b, v8.16b
	eor	v31.16b, v31.16b, v8.16b
	eor	v8.16b, v9.16b, v12.16b
	eor	v29.16b, v29.16b, v11.16b
	eor	v31.16b, v31.16b, v10.16b
	eor	v8.16b, v8.16b, v10.16b
	and	v9.16b, v29.16b, v30.16b
	and	v10.16b, v31.16b, v8.16b
	eor	v11.16b, v31.16b, v29.16b
	eor	v12.16b, v8.16b, v30.16b
	eor	v13.16b, v10.16b, v29.16b
	eor	v14.16b, v11.16b, v9.16b
	eor	v10.16b, v10.16b, v30.16b
	eor	v9.16b, v12.16b, v9.16b
	and	v13.16b, v13.16b, v12.16b
	and	v8.16b, v14.16b, v8.16b
	and	v10.16b, v10.16b, v11.16b
	and	v31.16b, v9.16b, v31.16b
	eor	v30.16b, v13.16b, v30.16b
	eor	v8.16b, v8.16b, v12.16b
	eor	v29.16b, v10.16b, v29.16b
	eor	v31.16b, v31.16b, v11.16b
	eor	v10.16b, v30.16b, v29.16b
	eor	v9.16b, v30.16b, v8.16b
	and	v28.16b, v29.16b, v28.16b
	eor	v11.16b, v8.16b, v31.16b
	eor	v12.16b, v29.16b, v31.16b
	and	v24.16b, v31.16b, v24.16b
	and	v25.16b, v29.16b, v25.16b
	and	v27.16b, v8.16b, v27.16b
	and	v16.16b, v31.16b, v16.16b
	and	v23.16b, v10.16b, v23.16b
	and	v18.16b, v9.16b, v18.16b
	and	v4.16b, v10.16b, v4.16b
	eor	v29.16b, v10.16b, v11.16b
	and	v21.16b, v12.16b, v21.16b
	and	v20.16b, v11.16b, v20.16b
	and	v7.16b, v11.16b, v7.16b
	and	v19.16b, v12.16b, v19.16b
	and	v3.16b, v30.16b, v3.16b
	and	v5.16b, v9.16b, v5.16b
	and	v22.16b, v8.16b, v22.16b
	eor	v27.16b, v18.16b, v27.16b
	and	v6.16b, v29.16b, v6.16b
	and	v17.16b, v29.16b, v17.16b
	eor	v20.16b, v23.16b, v20.16b
	eor	v24.16b, v24.16b, v21.16b
	eor	v21.16b, v21.16b, v28.16b
	eor	v7.16b, v4.16b, v7.16b
	eor	v25.16b, v19.16b, v25.16b
	and	v26.16b, v30.16b, v26.16b
	eor	v3.16b, v5.16b, v3.16b
	eor	v4.16b, v6.16b, v4.16b
	eor	v6.16b, v19.16b, v16.16b
	eor	v16.16b, v17.16b, v23.16b
	eor	v17.16b, v24.16b, v20.16b
	eor	v19.16b, v21.16b, v7.16b
	eor	v5.16b, v5.16b, v22.16b
	eor	v18.16b, v18.16b, v26.16b
	eor	v20.16b, v3.16b, v20.16b
	eor	v3.16b, v25.16b, v3.16b
	eor	v21.16b, v27.16b, v4.16b
	eor	v6.16b, v6.16b, v16.16b
	eor	v17.16b, v17.16b, v25.16b
	eor	v5.16b, v5.16b, v16.16b
	eor	v19.16b, v19.16b, v20.16b
	eor	v7.16b, v18.16b, v7.16b
	ldr	q18, [x8, :lo12:.Ldeerlapse_0_1_0_CPI27_1]
	eor	v16.16b, v21.16b, v6.16b
	eor	v4.16b, v17.16b, v4.16b
	eor	v7.16b, v7.16b, v19.16b
	mvn	v19.16b, v19.16b
	eor	v17.16b, v16.16b, v5.16b
	eor	v5.16b, v5.16b, v21.16b
	tbl	v26.16b, { v16.16b }, v18.16b
	mvn	v4.16b, v4.16b
	eor	v7.16b, v7.16b, v16.16b
	tbl	v27.16b, { v19.16b }, v18.16b
	eor	v3.16b, v3.16b, v17.16b
	mvn	v5.16b, v5.16b
	tbl	v22.16b, { v17.16b }, v18.16b
	eor	v20.16b, v20.16b, v4.16b
	eor	v4.16b, v6.16b, v4.16b
	ldr	q6, [x11, :lo12:.Ldeerlapse_0_1_0_CPI27_2]
	tbl	v21.16b, { v7.16b }, v18.16b
	tbl	v25.16b, { v3.16b }, v18.16b
	tbl	v3.16b, { v3.16b }, v6.16b
	tbl	v16.16b, { v16.16b }, v6.16b
	tbl	v23.16b, { v20.16b }, v18.16b
	tbl	v24.16b, { v4.16b }, v18.16b
	tbl	v20.16b, { v20.16b }, v6.16b
	tbl	v4.16b, { v4.16b }, v6.16b
	tbl	v7.16b, { v7.16b }, v6.16b
	tbl	v17.16b, { v17.16b }, v6.16b
	tbl	v19.16b, { v19.16b }, v6.16b
	tbl	v18.16b, { v5.16b }, v18.16b
	tbl	v5.16b, { v5.16b }, v6.16b
	eor	v6.16b, v20.16b, v23.16b
	eor	v23.16b, v4.16b, v24.16b
	eor	v24.16b, v3.16b, v25.16b
	eor	v25.16b, v16.16b, v26.16b
	eor	v21.16b, v7.16b, v21.16b
	eor	v22.16b, v17.16b, v22.16b
	eor	v26.16b, v19.16b, v27.16b
	eor	v18.16b, v5.16b, v18.16b
	rev32	v27.8h, v6.8h
	eor	v4.16b, v25.16b, v4.16b
	eor	v3.16b, v25.16b, v3.16b
	eor	v17.16b, v17.16b, v25.16b
	rev32	v29.8h, v21.8h
	rev32	v31.8h, v22.8h
	rev32	v8.8h, v26.8h
	rev32	v10.8h, v25.8h
	rev32	v28.8h, v23.8h
	rev32	v30.8h, v24.8h
	rev32	v9.8h, v18.8h
	eor	v20.16b, v25.16b, v20.16b
	eor	v4.16b, v4.16b, v6.16b
	eor	v6.16b, v7.16b, v23.16b
	eor	v3.16b, v3.16b, v21.16b
	eor	v7.16b, v17.16b, v24.16b
	ldp	q23, q24, [x10, #-48]
	eor	v19.16b, v19.16b, v22.16b
	ldp	q21, q22, [x10, #-80]
	eor	v5.16b, v26.16b, v5.16b
	ldp	q25, q26, [x10, #-16]
	eor	v16.16b, v16.16b, v18.16b
	ldp	q17, q18, [x10, #-112]
	add	x10, x10, #128
	eor	v5.16b, v25.16b, v5.16b
	eor	v17.16b, v17.16b, v20.16b
	eor	v4.16b, v18.16b, v4.16b
	eor	v18.16b, v21.16b, v29.16b
	eor	v20.16b, v22.16b, v3.16b
	eor	v22.16b, v23.16b, v31.16b
	eor	v23.16b, v24.16b, v8.16b
	eor	v24.16b, v26.16b, v10.16b
	eor	v3.16b, v17.16b, v27.16b
	eor	v21.16b, v4.16b, v28.16b
	eor	v6.16b, v18.16b, v6.16b
	eor	v4.16b, v20.16b, v30.16b
	eor	v17.16b, v22.16b, v7.16b
	eor	v20.16b, v23.16b, v19.16b
	eor	v23.16b, v5.16b, v9.16b
	eor	v18.16b, v24.16b, v16.16b
	b.ne	.Ldeerlapse_0_1_0_BB27_2
.Ldeerlapse_0_1_0_BB27_3:                               // %"aead_ciphers_wide::aes::KeyRef::encrypt_eight.exit"
	eor	v25.16b, v3.16b, v23.16b
	eor	v5.16b, v21.16b, v4.16b
	add	x9, x0, x1, lsl #7
	eor	v7.16b, v17.16b, v18.16b
	eor	v19.16b, v6.16b, v18.16b
	cmp	x5, #8
	eor	v28.16b, v21.16b, v18.16b
	eor	v4.16b, v25.16b, v20.16b
	eor	v26.16b, v5.16b, v6.16b
	eor	v6.16b, v6.16b, v17.16b
	eor	v16.16b, v5.16b, v7.16b
	eor	v27.16b, v4.16b, v21.16b
	eor	v22.16b, v4.16b, v17.16b
	eor	v23.16b, v26.16b, v23.16b
	eor	v5.16b, v16.16b, v3.16b
	eor	v25.16b, v26.16b, v25.16b
	eor	v17.16b, v4.16b, v18.16b
	eor	v26.16b, v26.16b, v20.16b
	eor	v21.16b, v27.16b, v19.16b
	and	v29.16b, v22.16b, v3.16b
	eor	v30.16b, v7.16b, v23.16b
	eor	v24.16b, v5.16b, v4.16b
	and	v8.16b, v23.16b, v7.16b
	and	v12.16b, v27.16b, v4.16b
	and	v11.16b, v26.16b, v28.16b
	orr	v13.16b, v26.16b, v28.16b
	eor	v20.16b, v21.16b, v22.16b
	and	v31.16b, v21.16b, v5.16b
	eor	v18.16b, v24.16b, v23.16b
	and	v9.16b, v24.16b, v19.16b
	eor	v10.16b, v19.16b, v24.16b
	eor	v12.16b, v12.16b, v13.16b
	and	v14.16b, v20.16b, v16.16b
	eor	v30.16b, v30.16b, v31.16b
	and	v31.16b, v18.16b, v6.16b
	eor	v9.16b, v9.16b, v8.16b
	eor	v29.16b, v10.16b, v29.16b
	orr	v10.16b, v17.16b, v25.16b
	eor	v30.16b, v30.16b, v14.16b
	eor	v31.16b, v31.16b, v8.16b
	eor	v29.16b, v29.16b, v9.16b
	eor	v8.16b, v10.16b, v11.16b
	eor	v30.16b, v30.16b, v31.16b
	eor	v31.16b, v12.16b, v31.16b
	eor	v8.16b, v8.16b, v9.16b
	eor	v9.16b, v29.16b, v14.16b
	and	v29.16b, v30.16b, v31.16b
	and	v10.16b, v9.16b, v8.16b
	eor	v11.16b, v31.16b, v8.16b
	eor	v12.16b, v30.16b, v9.16b
	eor	v13.16b, v29.16b, v9.16b
	eor	v29.16b, v29.16b, v8.16b
	eor	v14.16b, v12.16b, v10.16b
	eor	v10.16b, v10.16b, v11.16b
	and	v13.16b, v13.16b, v11.16b
	and	v31.16b, v14.16b, v31.16b
	and	v14.16b, v29.16b, v12.16b
	and	v30.16b, v10.16b, v30.16b
	eor	v8.16b, v13.16b, v8.16b
	eor	v29.16b, v31.16b, v11.16b
	eor	v31.16b, v14.16b, v9.16b
	eor	v30.16b, v30.16b, v12.16b
	and	v3.16b, v8.16b, v3.16b
	and	v22.16b, v8.16b, v22.16b
	eor	v9.16b, v31.16b, v30.16b
	eor	v10.16b, v8.16b, v31.16b
	eor	v11.16b, v29.16b, v30.16b
	and	v27.16b, v30.16b, v27.16b
	eor	v12.16b, v8.16b, v29.16b
	and	v25.16b, v31.16b, v25.16b
	and	v17.16b, v31.16b, v17.16b
	and	v21.16b, v29.16b, v21.16b
	and	v4.16b, v30.16b, v4.16b
	and	v28.16b, v9.16b, v28.16b
	and	v23.16b, v10.16b, v23.16b
	and	v24.16b, v11.16b, v24.16b
	eor	v13.16b, v10.16b, v11.16b
	and	v26.16b, v9.16b, v26.16b
	and	v7.16b, v10.16b, v7.16b
	and	v19.16b, v11.16b, v19.16b
	and	v16.16b, v12.16b, v16.16b
	and	v20.16b, v12.16b, v20.16b
	eor	v24.16b, v23.16b, v24.16b
	eor	v27.16b, v27.16b, v28.16b
	eor	v17.16b, v28.16b, v17.16b
	and	v6.16b, v13.16b, v6.16b
	eor	v25.16b, v26.16b, v25.16b
	and	v18.16b, v13.16b, v18.16b
	eor	v19.16b, v7.16b, v19.16b
	eor	v3.16b, v16.16b, v3.16b
	and	v5.16b, v29.16b, v5.16b
	eor	v27.16b, v27.16b, v24.16b
	eor	v21.16b, v20.16b, v21.16b
	eor	v4.16b, v26.16b, v4.16b
	eor	v6.16b, v6.16b, v7.16b
	eor	v20.16b, v20.16b, v22.16b
	eor	v18.16b, v18.16b, v23.16b
	eor	v17.16b, v17.16b, v19.16b
	eor	v22.16b, v3.16b, v24.16b
	eor	v5.16b, v16.16b, v5.16b
	eor	v7.16b, v27.16b, v25.16b
	eor	v3.16b, v25.16b, v3.16b
	eor	v4.16b, v4.16b, v18.16b
	eor	v16.16b, v20.16b, v19.16b
	ldr	q20, [x8, :lo12:.Ldeerlapse_0_1_0_CPI27_1]
	eor	v17.16b, v17.16b, v22.16b
	eor	v5.16b, v5.16b, v18.16b
	add	x8, x2, x3
	eor	v7.16b, v7.16b, v6.16b
	eor	v6.16b, v21.16b, v6.16b
	eor	v16.16b, v16.16b, v17.16b
	mvn	v17.16b, v17.16b
	mvn	v7.16b, v7.16b
	eor	v18.16b, v6.16b, v4.16b
	eor	v19.16b, v22.16b, v7.16b
	eor	v21.16b, v18.16b, v5.16b
	eor	v4.16b, v4.16b, v7.16b
	eor	v5.16b, v5.16b, v6.16b
	eor	v6.16b, v16.16b, v18.16b
	tbl	v18.16b, { v18.16b }, v20.16b
	ldp	q22, q23, [x9, #32]
	tbl	v7.16b, { v19.16b }, v20.16b
	ldp	q16, q19, [x9]
	eor	v3.16b, v3.16b, v21.16b
	tbl	v4.16b, { v4.16b }, v20.16b
	mvn	v5.16b, v5.16b
	tbl	v6.16b, { v6.16b }, v20.16b
	tbl	v21.16b, { v21.16b }, v20.16b
	eor	v7.16b, v16.16b, v7.16b
	tbl	v16.16b, { v17.16b }, v20.16b
	tbl	v3.16b, { v3.16b }, v20.16b
	ldp	q17, q24, [x9, #64]
	tbl	v5.16b, { v5.16b }, v20.16b
	eor	v4.16b, v19.16b, v4.16b
	eor	v6.16b, v22.16b, v6.16b
	ushr	v19.2d, v7.2d, #4
	eor	v17.16b, v17.16b, v21.16b
	ldp	q21, q22, [x9, #96]
	eor	v16.16b, v24.16b, v16.16b
	eor	v3.16b, v23.16b, v3.16b
	ushr	v20.2d, v4.2d, #4
	eor	v5.16b, v21.16b, v5.16b
	ushr	v21.2d, v6.2d, #4
	eor	v19.16b, v19.16b, v17.16b
	eor	v18.16b, v22.16b, v18.16b
	ushr	v22.2d, v3.2d, #4
	eor	v20.16b, v20.16b, v16.16b
	eor	v21.16b, v21.16b, v5.16b
	and	v19.16b, v19.16b, v0.16b
	eor	v22.16b, v22.16b, v18.16b
	and	v20.16b, v20.16b, v0.16b
	and	v21.16b, v21.16b, v0.16b
	shl	v23.2d, v19.2d, #4
	eor	v17.16b, v19.16b, v17.16b
	and	v0.16b, v22.16b, v0.16b
	shl	v22.2d, v20.2d, #4
	eor	v16.16b, v20.16b, v16.16b
	shl	v24.2d, v21.2d, #4
	eor	v7.16b, v23.16b, v7.16b
	eor	v5.16b, v21.16b, v5.16b
	shl	v19.2d, v0.2d, #4
	eor	v4.16b, v22.16b, v4.16b
	ushr	v20.2d, v17.2d, #2
	eor	v0.16b, v0.16b, v18.16b
	ushr	v18.2d, v16.2d, #2
	eor	v6.16b, v24.16b, v6.16b
	ushr	v21.2d, v7.2d, #2
	eor	v3.16b, v19.16b, v3.16b
	ushr	v19.2d, v4.2d, #2
	eor	v20.16b, v20.16b, v5.16b
	eor	v18.16b, v18.16b, v0.16b
	eor	v21.16b, v21.16b, v6.16b
	eor	v19.16b, v19.16b, v3.16b
	and	v20.16b, v20.16b, v2.16b
	and	v18.16b, v18.16b, v2.16b
	and	v21.16b, v21.16b, v2.16b
	and	v2.16b, v19.16b, v2.16b
	shl	v19.2d, v20.2d, #2
	shl	v23.2d, v18.2d, #2
	eor	v0.16b, v18.16b, v0.16b
	shl	v22.2d, v21.2d, #2
	eor	v21.16b, v21.16b, v6.16b
	shl	v24.2d, v2.2d, #2
	eor	v17.16b, v19.16b, v17.16b
	eor	v19.16b, v20.16b, v5.16b
	eor	v2.16b, v2.16b, v3.16b
	eor	v16.16b, v23.16b, v16.16b
	eor	v7.16b, v22.16b, v7.16b
	eor	v3.16b, v24.16b, v4.16b
	ushr	v4.2d, v21.2d, #1
	ushr	v5.2d, v17.2d, #1
	ushr	v18.2d, v19.2d, #1
	ushr	v6.2d, v7.2d, #1
	eor	v4.16b, v4.16b, v2.16b
	eor	v5.16b, v5.16b, v16.16b
	eor	v18.16b, v18.16b, v0.16b
	eor	v6.16b, v6.16b, v3.16b
	and	v4.16b, v4.16b, v1.16b
	and	v20.16b, v5.16b, v1.16b
	and	v18.16b, v18.16b, v1.16b
	and	v5.16b, v6.16b, v1.16b
	add	v1.2d, v4.2d, v4.2d
	add	v22.2d, v20.2d, v20.2d
	eor	v4.16b, v4.16b, v2.16b
	add	v24.2d, v18.2d, v18.2d
	eor	v2.16b, v20.16b, v16.16b
	eor	v0.16b, v18.16b, v0.16b
	add	v23.2d, v5.2d, v5.2d
	eor	v6.16b, v5.16b, v3.16b
	eor	v5.16b, v1.16b, v21.16b
	eor	v3.16b, v22.16b, v17.16b
	eor	v1.16b, v24.16b, v19.16b
	eor	v7.16b, v23.16b, v7.16b
	b.ne	.Ldeerlapse_0_1_0_BB27_6
// %bb.4:                               // %then.1
	ldr	q16, [x8]
	eor	v7.16b, v16.16b, v7.16b
	str	q7, [x2]
	ldr	q7, [x8, #16]
	eor	v6.16b, v7.16b, v6.16b
	str	q6, [x2, #16]
	ldr	q6, [x8, #32]
	eor	v5.16b, v6.16b, v5.16b
	str	q5, [x2, #32]
	ldr	q5, [x8, #48]
	eor	v4.16b, v5.16b, v4.16b
	str	q4, [x2, #48]
	ldr	q4, [x8, #64]
	eor	v3.16b, v4.16b, v3.16b
	str	q3, [x2, #64]
	ldr	q3, [x8, #80]
	eor	v2.16b, v3.16b, v2.16b
	str	q2, [x2, #80]
	ldr	q2, [x8, #96]
	eor	v1.16b, v2.16b, v1.16b
	str	q1, [x2, #96]
.Ldeerlapse_0_1_0_BB27_5:                               // %join.5.i318.7
	ldr	q1, [x8, #112]
	eor	v0.16b, v1.16b, v0.16b
	str	q0, [x2, #112]
	ldp	d9, d8, [sp, #48]               // 16-byte Folded Reload
	ldp	d11, d10, [sp, #32]             // 16-byte Folded Reload
	ldp	d13, d12, [sp, #16]             // 16-byte Folded Reload
	ldr	d14, [sp], #64                  // 8-byte Folded Reload
	.cfi_def_cfa_offset 0
	.cfi_restore b8
	.cfi_restore b9
	.cfi_restore b10
	.cfi_restore b11
	.cfi_restore b12
	.cfi_restore b13
	.cfi_restore b14
	ret
.Ldeerlapse_0_1_0_BB27_6:                               // %else.2
	.cfi_restore_state
	ldr	q16, [x8]
	cmp	x5, #5
	eor	v7.16b, v16.16b, v7.16b
	str	q7, [x2]
	ldr	q7, [x8, #16]
	eor	v6.16b, v7.16b, v6.16b
	str	q6, [x2, #16]
	ldr	q6, [x8, #32]
	eor	v5.16b, v6.16b, v5.16b
	str	q5, [x2, #32]
	ldr	q5, [x8, #48]
	eor	v4.16b, v5.16b, v4.16b
	str	q4, [x2, #48]
	ldr	q4, [x8, #64]
	eor	v3.16b, v4.16b, v3.16b
	str	q3, [x2, #64]
	b.eq	.Ldeerlapse_0_1_0_BB27_9
// %bb.7:                               // %join.5.i318.5
	ldr	q3, [x8, #80]
	cmp	x5, #6
	eor	v2.16b, v3.16b, v2.16b
	str	q2, [x2, #80]
	b.eq	.Ldeerlapse_0_1_0_BB27_9
// %bb.8:                               // %join.5.i318.6
	ldr	q2, [x8, #96]
	cmp	x5, #7
	eor	v1.16b, v2.16b, v1.16b
	str	q1, [x2, #96]
	b.ne	.Ldeerlapse_0_1_0_BB27_5
.Ldeerlapse_0_1_0_BB27_9:                               // %join.3
	ldp	d9, d8, [sp, #48]               // 16-byte Folded Reload
	ldp	d11, d10, [sp, #32]             // 16-byte Folded Reload
	ldp	d13, d12, [sp, #16]             // 16-byte Folded Reload
	ldr	d14, [sp], #64                  // 8-byte Folded Reload
	.cfi_def_cfa_offset 0
	.cfi_restore b8
	.cfi_restore b9
	.cfi_restore b10
	.cfi_restore b11
	.cfi_restore b12
	.cfi_restore b13
	.cfi_restore b14
	ret
.Ldeerlapse_0_1_0_func_end27:
	.size	"deerlapse_0_1_0::aead_ciphers_wide::aes::ctr32::encrypt_up_to_eight", .Ldeerlapse_0_1_0_func_end27-"deerlapse_0_1_0::aead_ciphers_wide::aes::ctr32::encrypt_up_to_eight"
	.cfi_endproc
                                        // -- End function
	.section	.rodata.cst16,"aM",@progbits,16
	.p2align	4, 0x0                          // -- Begin function aead_ciphers_wide::aes::ctr32::encrypt_up_to_sixteen
.Ldeerlapse_0_1_0_CPI28_0:
	.byte	0                               // 0x0
	.byte	1                               // 0x1
	.byte	2                               // 0x2
	.byte	3                               // 0x3
	.byte	4                               // 0x4
	.byte	5                               // 0x5
	.byte	6                               // 0x6
	.byte	7                               // 0x7
	.byte	8                               // 0x8
	.byte	9                               // 0x9
	.byte	10                              // 0xa
	.byte	11                              // 0xb
	.byte	31                              // 0x1f
	.byte	30                              // 0x1e
	.byte	29                              // 0x1d
	.byte	28                              // 0x1c
.Ldeerlapse_0_1_0_CPI28_1:
	.byte	0                               // 0x0
	.byte	5                               // 0x5
	.byte	10                              // 0xa
	.byte	15                              // 0xf
	.byte	4                               // 0x4
	.byte	9                               // 0x9
	.byte	14                              // 0xe
	.byte	3                               // 0x3
	.byte	8                               // 0x8
	.byte	13                              // 0xd
	.byte	2                               // 0x2
	.byte	7                               // 0x7
	.byte	12                              // 0xc
	.byte	1                               // 0x1
	.byte	6                               // 0x6
	.byte	11                              // 0xb
.Ldeerlapse_0_1_0_CPI28_2:
	.byte	5                               // 0x5
	.byte	10                              // 0xa
	.byte	15                              // 0xf
	.byte	0                               // 0x0
	.byte	9                               // 0x9
	.byte	14                              // 0xe
	.byte	3                               // 0x3
	.byte	4                               // 0x4
	.byte	13                              // 0xd
	.byte	2                               // 0x2
	.byte	7                               // 0x7
	.byte	8                               // 0x8
	.byte	1                               // 0x1
	.byte	6                               // 0x6
	.byte	11                              // 0xb
	.byte	12                              // 0xc
	.section	.text.deerlapse_aes_gcm,"ax",@progbits
	.p2align	2
	.type	"deerlapse_0_1_0::aead_ciphers_wide::aes::ctr32::encrypt_up_to_sixteen",@function
"deerlapse_0_1_0::aead_ciphers_wide::aes::ctr32::encrypt_up_to_sixteen": // @"deerlapse_0_1_0::aead_ciphers_wide::aes::ctr32::encrypt_up_to_sixteen"
	.cfi_startproc
// %bb.0:                               // %start
	stp	d15, d14, [sp, #-80]!           // 16-byte Folded Spill
	.cfi_def_cfa_offset 80
	stp	d13, d12, [sp, #16]             // 16-byte Folded Spill
	stp	d11, d10, [sp, #32]             // 16-byte Folded Spill
	stp	d9, d8, [sp, #48]               // 16-byte Folded Spill
	str	x30, [sp, #64]                  // 8-byte Spill
	.cfi_offset w30, -16
	.cfi_offset b8, -24
	.cfi_offset b9, -32
	.cfi_offset b10, -40
	.cfi_offset b11, -48
	.cfi_offset b12, -56
	.cfi_offset b13, -64
	.cfi_offset b14, -72
	.cfi_offset b15, -80
	sub	sp, sp, #784
	.cfi_def_cfa_offset 864
	ldr	w8, [x4, #12]
	movi	v4.4s, #15
	movi	v5.4s, #14
	ldr	d20, [x4]
	movi	v18.4s, #11
	movi	v19.4s, #10
	rev	w8, w8
	movi	v31.4s, #9
	movi	v25.4s, #5
	dup	v3.4s, w8
	add	x8, x4, #8
	movi	v24.4s, #1
	ld1	{ v20.s }[2], [x8]
	movi	v6.4s, #13
	movi	v7.4s, #12
	movi	v22.4s, #7
	movi	v23.4s, #4
	add	x8, sp, #496
	add	v21.4s, v3.4s, v4.4s
	add	v1.4s, v3.4s, v5.4s
	cmp	x1, #2
	movi	v4.4s, #6
	movi	v28.4s, #3
	movi	v12.4s, #8
	add	v30.4s, v3.4s, v18.4s
	add	v9.4s, v3.4s, v19.4s
	add	v11.4s, v3.4s, v31.4s
	st1	{ v0.2d, v1.2d }, [x8]          // 32-byte Folded Spill
	adrp	x8, .Ldeerlapse_0_1_0_CPI28_0
	movi	v31.4s, #2
	add	v19.4s, v3.4s, v25.4s
	add	v25.4s, v3.4s, v24.4s
	add	v27.4s, v3.4s, v6.4s
	mov	v24.16b, v20.16b
	add	v17.4s, v3.4s, v7.4s
	add	v15.4s, v3.4s, v22.4s
	add	v7.4s, v3.4s, v4.4s
	add	v5.4s, v3.4s, v23.4s
	add	v23.4s, v3.4s, v28.4s
	ldr	q28, [x8, :lo12:.Ldeerlapse_0_1_0_CPI28_0]
	add	x8, sp, #496
	add	v13.4s, v3.4s, v12.4s
	add	v1.4s, v3.4s, v31.4s
	mov	v2.16b, v20.16b
	mov	v4.16b, v20.16b
	tbl	v25.16b, { v24.16b, v25.16b }, v28.16b
	mov	v22.16b, v20.16b
	mov	v18.16b, v20.16b
	mov	v10.16b, v20.16b
	mov	v0.16b, v20.16b
	mov	v14.16b, v20.16b
	tbl	v3.16b, { v2.16b, v3.16b }, v28.16b
	tbl	v2.16b, { v4.16b, v5.16b }, v28.16b
	mov	v6.16b, v20.16b
	tbl	v23.16b, { v22.16b, v23.16b }, v28.16b
	tbl	v24.16b, { v18.16b, v19.16b }, v28.16b
	mov	v12.16b, v20.16b
	tbl	v4.16b, { v10.16b, v11.16b }, v28.16b
	mov	v26.16b, v20.16b
	mov	v29.16b, v20.16b
	tbl	v31.16b, { v0.16b, v1.16b }, v28.16b
	ushr	v0.2d, v25.2d, #4
	mov	v16.16b, v20.16b
	mov	v8.16b, v20.16b
	tbl	v19.16b, { v6.16b, v7.16b }, v28.16b
	tbl	v18.16b, { v14.16b, v15.16b }, v28.16b
	tbl	v22.16b, { v12.16b, v13.16b }, v28.16b
	tbl	v5.16b, { v29.16b, v30.16b }, v28.16b
	tbl	v7.16b, { v26.16b, v27.16b }, v28.16b
	movi	v14.16b, #15
	tbl	v6.16b, { v16.16b, v17.16b }, v28.16b
	ushr	v17.2d, v3.2d, #4
	ushr	v26.2d, v23.2d, #4
	eor	v0.16b, v0.16b, v4.16b
	ushr	v29.2d, v24.2d, #4
	tbl	v8.16b, { v8.16b, v9.16b }, v28.16b
	ld1	{ v9.2d, v10.2d }, [x8]         // 32-byte Folded Reload
	adrp	x8, .Ldeerlapse_0_1_0_CPI28_1
	mov	v9.16b, v20.16b
	tbl	v1.16b, { v20.16b, v21.16b }, v28.16b
	ushr	v20.2d, v31.2d, #4
	eor	v17.16b, v17.16b, v22.16b
	eor	v21.16b, v26.16b, v5.16b
	ushr	v26.2d, v2.2d, #4
	and	v27.16b, v0.16b, v14.16b
	eor	v0.16b, v29.16b, v7.16b
	ushr	v29.2d, v18.2d, #4
	tbl	v16.16b, { v9.16b, v10.16b }, v28.16b
	eor	v20.16b, v20.16b, v8.16b
	ushr	v9.2d, v19.2d, #4
	and	v17.16b, v17.16b, v14.16b
	and	v28.16b, v21.16b, v14.16b
	eor	v21.16b, v26.16b, v6.16b
	shl	v26.2d, v27.2d, #4
	and	v10.16b, v0.16b, v14.16b
	eor	v0.16b, v29.16b, v1.16b
	and	v30.16b, v20.16b, v14.16b
	movi	v15.16b, #85
	eor	v20.16b, v9.16b, v16.16b
	shl	v9.2d, v17.2d, #4
	shl	v11.2d, v28.2d, #4
	and	v12.16b, v21.16b, v14.16b
	eor	v25.16b, v26.16b, v25.16b
	shl	v21.2d, v10.2d, #4
	and	v29.16b, v0.16b, v14.16b
	shl	v13.2d, v30.2d, #4
	eor	v0.16b, v17.16b, v22.16b
	and	v14.16b, v20.16b, v14.16b
	eor	v26.16b, v9.16b, v3.16b
	eor	v23.16b, v11.16b, v23.16b
	shl	v3.2d, v12.2d, #4
	eor	v24.16b, v21.16b, v24.16b
	ushr	v9.2d, v25.2d, #2
	shl	v20.2d, v29.2d, #4
	eor	v21.16b, v13.16b, v31.16b
	movi	v13.16b, #51
	eor	v31.16b, v27.16b, v4.16b
	shl	v22.2d, v14.2d, #4
	eor	v4.16b, v10.16b, v7.16b
	eor	v17.16b, v3.16b, v2.16b
	ushr	v2.2d, v26.2d, #2
	eor	v3.16b, v9.16b, v24.16b
	eor	v18.16b, v20.16b, v18.16b
	ushr	v20.2d, v23.2d, #2
	eor	v7.16b, v12.16b, v6.16b
	ushr	v9.2d, v31.2d, #2
	eor	v19.16b, v22.16b, v19.16b
	ushr	v22.2d, v21.2d, #2
	eor	v2.16b, v2.16b, v17.16b
	and	v3.16b, v3.16b, v13.16b
	ushr	v10.2d, v0.2d, #2
	eor	v6.16b, v20.16b, v18.16b
	eor	v27.16b, v28.16b, v5.16b
	eor	v20.16b, v30.16b, v8.16b
	eor	v28.16b, v14.16b, v16.16b
	eor	v8.16b, v9.16b, v4.16b
	eor	v22.16b, v22.16b, v19.16b
	and	v30.16b, v2.16b, v13.16b
	shl	v2.2d, v3.2d, #2
	eor	v5.16b, v10.16b, v7.16b
	and	v16.16b, v6.16b, v13.16b
	eor	v1.16b, v29.16b, v1.16b
	ushr	v29.2d, v20.2d, #2
	ushr	v10.2d, v27.2d, #2
	and	v8.16b, v8.16b, v13.16b
	and	v9.16b, v22.16b, v13.16b
	eor	v6.16b, v2.16b, v25.16b
	shl	v22.2d, v30.2d, #2
	and	v11.16b, v5.16b, v13.16b
	shl	v25.2d, v16.2d, #2
	eor	v2.16b, v3.16b, v24.16b
	eor	v3.16b, v29.16b, v28.16b
	eor	v24.16b, v10.16b, v1.16b
	shl	v29.2d, v8.2d, #2
	shl	v12.2d, v9.2d, #2
	eor	v22.16b, v22.16b, v26.16b
	shl	v26.2d, v11.2d, #2
	eor	v17.16b, v30.16b, v17.16b
	eor	v5.16b, v25.16b, v23.16b
	ushr	v25.2d, v6.2d, #1
	and	v10.16b, v3.16b, v13.16b
	and	v30.16b, v24.16b, v13.16b
	eor	v3.16b, v29.16b, v31.16b
	eor	v16.16b, v16.16b, v18.16b
	ushr	v29.2d, v2.2d, #1
	eor	v23.16b, v12.16b, v21.16b
	ushr	v21.2d, v22.2d, #1
	eor	v24.16b, v25.16b, v5.16b
	eor	v18.16b, v26.16b, v0.16b
	eor	v0.16b, v9.16b, v19.16b
	shl	v26.2d, v10.2d, #2
	shl	v31.2d, v30.2d, #2
	eor	v19.16b, v10.16b, v28.16b
	eor	v29.16b, v29.16b, v16.16b
	eor	v21.16b, v21.16b, v23.16b
	eor	v4.16b, v8.16b, v4.16b
	and	v25.16b, v24.16b, v15.16b
	ushr	v24.2d, v17.2d, #1
	eor	v7.16b, v11.16b, v7.16b
	eor	v20.16b, v26.16b, v20.16b
	ushr	v9.2d, v3.2d, #1
	ushr	v8.2d, v18.2d, #1
	and	v26.16b, v21.16b, v15.16b
	eor	v21.16b, v31.16b, v27.16b
	eor	v1.16b, v30.16b, v1.16b
	eor	v28.16b, v24.16b, v0.16b
	and	v24.16b, v29.16b, v15.16b
	add	v27.2d, v25.2d, v25.2d
	ldp	q29, q10, [x0]
	eor	v8.16b, v8.16b, v20.16b
	add	v31.2d, v26.2d, v26.2d
	eor	v30.16b, v9.16b, v21.16b
	ushr	v9.2d, v7.2d, #1
	and	v28.16b, v28.16b, v15.16b
	eor	v6.16b, v29.16b, v6.16b
	eor	v22.16b, v29.16b, v22.16b
	eor	v23.16b, v23.16b, v10.16b
	add	v29.2d, v24.2d, v24.2d
	eor	v5.16b, v5.16b, v10.16b
	and	v8.16b, v8.16b, v15.16b
	and	v12.16b, v30.16b, v15.16b
	add	v11.2d, v28.2d, v28.2d
	eor	v6.16b, v6.16b, v27.16b
	eor	v22.16b, v22.16b, v31.16b
	eor	v14.16b, v23.16b, v26.16b
	add	v26.2d, v8.2d, v8.2d
	str	q6, [sp, #432]                  // 16-byte Spill
	ldp	q6, q27, [x0, #32]
	str	q22, [sp, #496]                 // 16-byte Spill
	ushr	v22.2d, v4.2d, #1
	eor	v31.16b, v6.16b, v2.16b
	eor	v23.16b, v16.16b, v27.16b
	eor	v10.16b, v6.16b, v17.16b
	eor	v2.16b, v5.16b, v25.16b
	eor	v5.16b, v9.16b, v19.16b
	eor	v22.16b, v22.16b, v1.16b
	eor	v27.16b, v0.16b, v27.16b
	add	v25.2d, v12.2d, v12.2d
	eor	v17.16b, v31.16b, v29.16b
	eor	v0.16b, v23.16b, v24.16b
	eor	v16.16b, v10.16b, v11.16b
	ldp	q29, q23, [x0, #64]
	str	q2, [sp, #416]                  // 16-byte Spill
	and	v5.16b, v5.16b, v15.16b
	and	v22.16b, v22.16b, v15.16b
	eor	v30.16b, v27.16b, v28.16b
	eor	v3.16b, v29.16b, v3.16b
	eor	v18.16b, v29.16b, v18.16b
	eor	v29.16b, v20.16b, v23.16b
	eor	v20.16b, v21.16b, v23.16b
	ldp	q24, q21, [x0, #96]
	add	v23.2d, v22.2d, v22.2d
	add	v9.2d, v5.2d, v5.2d
	eor	v13.16b, v3.16b, v25.16b
	eor	v18.16b, v18.16b, v26.16b
	eor	v4.16b, v24.16b, v4.16b
	eor	v7.16b, v24.16b, v7.16b
	eor	v31.16b, v21.16b, v19.16b
	eor	v1.16b, v21.16b, v1.16b
	eor	v28.16b, v20.16b, v12.16b
	eor	v21.16b, v29.16b, v8.16b
	eor	v23.16b, v4.16b, v23.16b
	eor	v26.16b, v7.16b, v9.16b
	eor	v10.16b, v31.16b, v5.16b
	eor	v1.16b, v1.16b, v22.16b
	b.lo	.Ldeerlapse_0_1_0_BB28_3
// %bb.1:                               // %join.5.i.i.preheader
	ldr	q15, [sp, #496]                 // 16-byte Reload
	ldr	q12, [sp, #432]                 // 16-byte Reload
	sub	x9, x1, #1
	add	x10, x0, #240
.Ldeerlapse_0_1_0_BB28_2:                               // %join.5.i.i
                                        // =>This Inner Loop Header: Depth=1
	ldr	q25, [sp, #416]                 // 16-byte Reload
	eor	v5.16b, v1.16b, v13.16b
	mov	v31.16b, v12.16b
	eor	v3.16b, v23.16b, v12.16b
	mov	v19.16b, v1.16b
	str	q14, [sp, #16]                  // 16-byte Spill
	eor	v0.16b, v0.16b, v25.16b
	mov	v2.16b, v13.16b
	adrp	x11, .Ldeerlapse_0_1_0_CPI28_2
	mov	v12.16b, v5.16b
	eor	v20.16b, v26.16b, v15.16b
	str	q31, [sp, #432]                 // 16-byte Spill
	eor	v1.16b, v3.16b, v28.16b
	eor	v7.16b, v30.16b, v14.16b
	subs	x9, x9, #1
	eor	v4.16b, v5.16b, v0.16b
	eor	v0.16b, v0.16b, v17.16b
	mov	v27.16b, v10.16b
	eor	v29.16b, v10.16b, v18.16b
	eor	v13.16b, v19.16b, v17.16b
	eor	v8.16b, v20.16b, v21.16b
	eor	v9.16b, v10.16b, v16.16b
	mov	v10.16b, v26.16b
	mov	v26.16b, v28.16b
	stp	q4, q15, [sp, #480]             // 32-byte Folded Spill
	eor	v5.16b, v4.16b, v31.16b
	eor	v23.16b, v23.16b, v0.16b
	stp	q1, q8, [sp, #240]              // 32-byte Folded Spill
	eor	v28.16b, v2.16b, v17.16b
	eor	v17.16b, v7.16b, v16.16b
	eor	v4.16b, v18.16b, v16.16b
	eor	v24.16b, v29.16b, v7.16b
	mov	v6.16b, v25.16b
	str	q5, [sp, #352]                  // 16-byte Spill
	eor	v22.16b, v5.16b, v1.16b
	eor	v16.16b, v1.16b, v25.16b
	str	q28, [sp, #288]                 // 16-byte Spill
	eor	v25.16b, v3.16b, v0.16b
	eor	v3.16b, v20.16b, v17.16b
	str	q4, [sp, #48]                   // 16-byte Spill
	eor	v20.16b, v8.16b, v18.16b
	eor	v18.16b, v0.16b, v26.16b
	stp	q24, q12, [sp, #80]             // 32-byte Folded Spill
	eor	v7.16b, v22.16b, v23.16b
	eor	v0.16b, v17.16b, v21.16b
	and	v4.16b, v12.16b, v23.16b
	eor	v14.16b, v8.16b, v14.16b
	mov	v30.16b, v5.16b
	eor	v26.16b, v10.16b, v17.16b
	eor	v21.16b, v19.16b, v6.16b
	stp	q23, q7, [sp, #384]             // 32-byte Folded Spill
	eor	v2.16b, v1.16b, v2.16b
	eor	v10.16b, v16.16b, v13.16b
	stp	q14, q16, [sp, #208]            // 32-byte Folded Spill
	eor	v17.16b, v1.16b, v19.16b
	mov	v19.16b, v1.16b
	stp	q21, q18, [sp, #112]            // 32-byte Folded Spill
	mov	v5.16b, v22.16b
	eor	v11.16b, v14.16b, v9.16b
	stp	q2, q20, [sp, #144]             // 32-byte Folded Spill
	and	v6.16b, v21.16b, v18.16b
	stp	q0, q3, [sp, #448]              // 32-byte Folded Spill
	and	v0.16b, v7.16b, v28.16b
	eor	v7.16b, v24.16b, v15.16b
	stp	q17, q25, [sp, #304]            // 32-byte Folded Spill
	and	v15.16b, v20.16b, v15.16b
	mov	v28.16b, v16.16b
	stp	q10, q11, [sp, #176]            // 32-byte Folded Spill
	eor	v16.16b, v26.16b, v29.16b
	orr	v25.16b, v17.16b, v25.16b
	str	q7, [sp, #336]                  // 16-byte Spill
	eor	v0.16b, v0.16b, v4.16b
	mov	v1.16b, v7.16b
	str	q5, [sp, #368]                  // 16-byte Spill
	and	v22.16b, v11.16b, v7.16b
	and	v7.16b, v5.16b, v13.16b
	str	q26, [sp, #272]                 // 16-byte Spill
	str	q0, [sp, #32]                   // 16-byte Spill
	mov	v0.16b, v20.16b
	and	v20.16b, v2.16b, v31.16b
	and	v31.16b, v10.16b, v30.16b
	eor	v3.16b, v1.16b, v8.16b
	eor	v1.16b, v23.16b, v12.16b
	eor	v17.16b, v7.16b, v4.16b
	eor	v4.16b, v15.16b, v9.16b
	eor	v30.16b, v10.16b, v2.16b
	ldr	q2, [sp, #448]                  // 16-byte Reload
	eor	v20.16b, v20.16b, v13.16b
	eor	v7.16b, v11.16b, v0.16b
	eor	v12.16b, v1.16b, v31.16b
	ldr	q1, [sp, #16]                   // 16-byte Reload
	eor	v0.16b, v3.16b, v26.16b
	eor	v23.16b, v16.16b, v22.16b
	eor	v15.16b, v25.16b, v6.16b
	eor	v22.16b, v4.16b, v3.16b
	str	q7, [sp, #64]                   // 16-byte Spill
	eor	v31.16b, v27.16b, v1.16b
	ldr	q1, [sp, #480]                  // 16-byte Reload
	str	q0, [sp, #416]                  // 16-byte Spill
	eor	v27.16b, v8.16b, v27.16b
	mov	v11.16b, v3.16b
	eor	v20.16b, v20.16b, v5.16b
	and	v10.16b, v30.16b, v1.16b
	and	v16.16b, v14.16b, v8.16b
	ldr	q8, [sp, #48]                   // 16-byte Reload
	orr	v4.16b, v31.16b, v2.16b
	and	v6.16b, v31.16b, v2.16b
	and	v2.16b, v3.16b, v9.16b
	ldr	q3, [sp, #464]                  // 16-byte Reload
	and	v25.16b, v7.16b, v24.16b
	and	v5.16b, v0.16b, v8.16b
	and	v0.16b, v29.16b, v26.16b
	and	v7.16b, v28.16b, v19.16b
	orr	v1.16b, v21.16b, v18.16b
	orr	v3.16b, v27.16b, v3.16b
	eor	v20.16b, v20.16b, v10.16b
	mov	v28.16b, v9.16b
	mov	v9.16b, v27.16b
	eor	v27.16b, v23.16b, v25.16b
	eor	v5.16b, v5.16b, v0.16b
	eor	v19.16b, v12.16b, v10.16b
	eor	v4.16b, v16.16b, v4.16b
	eor	v1.16b, v7.16b, v1.16b
	eor	v0.16b, v2.16b, v0.16b
	eor	v2.16b, v22.16b, v25.16b
	eor	v3.16b, v3.16b, v6.16b
	eor	v6.16b, v20.16b, v17.16b
	eor	v7.16b, v15.16b, v17.16b
	ldr	q17, [sp, #32]                  // 16-byte Reload
	eor	v16.16b, v27.16b, v5.16b
	eor	v4.16b, v4.16b, v5.16b
	eor	v2.16b, v2.16b, v0.16b
	eor	v5.16b, v19.16b, v17.16b
	eor	v1.16b, v1.16b, v17.16b
	eor	v0.16b, v3.16b, v0.16b
	and	v24.16b, v6.16b, v7.16b
	and	v18.16b, v16.16b, v4.16b
	eor	v21.16b, v16.16b, v2.16b
	and	v17.16b, v5.16b, v1.16b
	and	v19.16b, v2.16b, v0.16b
	eor	v20.16b, v5.16b, v6.16b
	eor	v25.16b, v1.16b, v7.16b
	eor	v22.16b, v4.16b, v0.16b
	eor	v27.16b, v18.16b, v2.16b
	eor	v23.16b, v18.16b, v0.16b
	eor	v10.16b, v17.16b, v6.16b
	eor	v18.16b, v21.16b, v19.16b
	eor	v3.16b, v20.16b, v24.16b
	eor	v17.16b, v17.16b, v7.16b
	eor	v24.16b, v25.16b, v24.16b
	eor	v19.16b, v22.16b, v19.16b
	and	v27.16b, v27.16b, v22.16b
	and	v10.16b, v10.16b, v25.16b
	and	v1.16b, v3.16b, v1.16b
	and	v3.16b, v18.16b, v4.16b
	and	v4.16b, v23.16b, v21.16b
	and	v5.16b, v24.16b, v5.16b
	and	v17.16b, v17.16b, v20.16b
	and	v16.16b, v19.16b, v16.16b
	eor	v18.16b, v27.16b, v0.16b
	eor	v19.16b, v10.16b, v7.16b
	eor	v0.16b, v3.16b, v22.16b
	eor	v22.16b, v1.16b, v25.16b
	eor	v2.16b, v4.16b, v2.16b
	eor	v1.16b, v17.16b, v6.16b
	eor	v4.16b, v5.16b, v20.16b
	ldr	q5, [sp, #288]                  // 16-byte Reload
	eor	v3.16b, v16.16b, v21.16b
	eor	v21.16b, v19.16b, v1.16b
	eor	v24.16b, v22.16b, v4.16b
	eor	v17.16b, v18.16b, v2.16b
	eor	v23.16b, v0.16b, v3.16b
	eor	v12.16b, v1.16b, v4.16b
	eor	v14.16b, v2.16b, v3.16b
	eor	v10.16b, v21.16b, v24.16b
	and	v16.16b, v17.16b, v29.16b
	and	v27.16b, v24.16b, v13.16b
	and	v25.16b, v23.16b, v28.16b
	eor	v26.16b, v17.16b, v23.16b
	eor	v28.16b, v19.16b, v22.16b
	and	v31.16b, v14.16b, v31.16b
	and	v23.16b, v23.16b, v11.16b
	ldr	q11, [sp, #416]                 // 16-byte Reload
	and	v7.16b, v10.16b, v5.16b
	ldr	q5, [sp, #96]                   // 16-byte Reload
	and	v6.16b, v26.16b, v8.16b
	eor	v8.16b, v18.16b, v0.16b
	and	v26.16b, v26.16b, v11.16b
	and	v20.16b, v21.16b, v5.16b
	eor	v5.16b, v16.16b, v25.16b
	and	v25.16b, v28.16b, v30.16b
	eor	v29.16b, v6.16b, v16.16b
	str	q5, [sp, #288]                  // 16-byte Spill
	eor	v5.16b, v20.16b, v27.16b
	eor	v15.16b, v7.16b, v20.16b
	str	q5, [sp, #96]                   // 16-byte Spill
	ldr	q5, [sp, #480]                  // 16-byte Reload
	and	v27.16b, v28.16b, v5.16b
	ldr	q5, [sp, #64]                   // 16-byte Reload
	and	v20.16b, v8.16b, v5.16b
	ldp	q5, q11, [sp, #80]              // 32-byte Folded Reload
	and	v8.16b, v8.16b, v5.16b
	ldr	q5, [sp, #144]                  // 16-byte Reload
	and	v5.16b, v19.16b, v5.16b
	str	q5, [sp, #480]                  // 16-byte Spill
	ldr	q5, [sp, #432]                  // 16-byte Reload
	and	v19.16b, v19.16b, v5.16b
	ldr	q5, [sp, #160]                  // 16-byte Reload
	and	v5.16b, v18.16b, v5.16b
	eor	v19.16b, v27.16b, v19.16b
	str	q5, [sp, #432]                  // 16-byte Spill
	ldr	q5, [sp, #496]                  // 16-byte Reload
	and	v18.16b, v18.16b, v5.16b
	ldr	q5, [sp, #176]                  // 16-byte Reload
	and	v13.16b, v22.16b, v5.16b
	ldr	q5, [sp, #352]                  // 16-byte Reload
	eor	v18.16b, v8.16b, v18.16b
	and	v22.16b, v22.16b, v5.16b
	ldr	q5, [sp, #192]                  // 16-byte Reload
	and	v6.16b, v0.16b, v5.16b
	ldp	q7, q5, [sp, #320]              // 32-byte Folded Reload
	and	v28.16b, v0.16b, v5.16b
	ldp	q0, q5, [sp, #112]              // 32-byte Folded Reload
	and	v16.16b, v1.16b, v7.16b
	and	v7.16b, v2.16b, v9.16b
	eor	v6.16b, v20.16b, v6.16b
	ldp	q9, q30, [sp, #240]             // 32-byte Folded Reload
	and	v0.16b, v12.16b, v0.16b
	and	v12.16b, v12.16b, v5.16b
	ldr	q5, [sp, #448]                  // 16-byte Reload
	eor	v7.16b, v31.16b, v7.16b
	eor	v6.16b, v6.16b, v29.16b
	and	v14.16b, v14.16b, v5.16b
	ldr	q5, [sp, #304]                  // 16-byte Reload
	eor	v16.16b, v12.16b, v16.16b
	and	v5.16b, v1.16b, v5.16b
	ldr	q1, [sp, #464]                  // 16-byte Reload
	and	v2.16b, v2.16b, v1.16b
	ldr	q1, [sp, #208]                  // 16-byte Reload
	eor	v5.16b, v0.16b, v5.16b
	and	v1.16b, v3.16b, v1.16b
	and	v3.16b, v3.16b, v30.16b
	ldr	q30, [sp, #224]                 // 16-byte Reload
	eor	v2.16b, v14.16b, v2.16b
	and	v30.16b, v4.16b, v30.16b
	and	v4.16b, v4.16b, v9.16b
	ldr	q9, [sp, #400]                  // 16-byte Reload
	eor	v1.16b, v1.16b, v31.16b
	eor	v31.16b, v5.16b, v11.16b
	eor	v3.16b, v14.16b, v3.16b
	and	v9.16b, v10.16b, v9.16b
	ldr	q10, [sp, #384]                 // 16-byte Reload
	eor	v0.16b, v30.16b, v0.16b
	eor	v4.16b, v12.16b, v4.16b
	ldr	q12, [x8, :lo12:.Ldeerlapse_0_1_0_CPI28_1]
	and	v21.16b, v21.16b, v10.16b
	ldr	q10, [sp, #272]                 // 16-byte Reload
	and	v17.16b, v17.16b, v10.16b
	ldr	q10, [sp, #368]                 // 16-byte Reload
	eor	v5.16b, v9.16b, v21.16b
	ldr	q9, [x11, :lo12:.Ldeerlapse_0_1_0_CPI28_2]
	and	v24.16b, v24.16b, v10.16b
	eor	v10.16b, v25.16b, v13.16b
	eor	v23.16b, v17.16b, v23.16b
	eor	v17.16b, v26.16b, v17.16b
	eor	v4.16b, v4.16b, v5.16b
	eor	v24.16b, v21.16b, v24.16b
	eor	v21.16b, v27.16b, v22.16b
	eor	v22.16b, v8.16b, v28.16b
	eor	v3.16b, v3.16b, v17.16b
	eor	v1.16b, v1.16b, v23.16b
	eor	v10.16b, v10.16b, v15.16b
	ldr	q27, [sp, #288]                 // 16-byte Reload
	eor	v23.16b, v18.16b, v23.16b
	eor	v0.16b, v0.16b, v24.16b
	eor	v26.16b, v21.16b, v5.16b
	ldr	q5, [sp, #480]                  // 16-byte Reload
	eor	v24.16b, v19.16b, v24.16b
	eor	v17.16b, v22.16b, v17.16b
	eor	v30.16b, v6.16b, v3.16b
	eor	v21.16b, v25.16b, v5.16b
	ldr	q5, [sp, #432]                  // 16-byte Reload
	eor	v1.16b, v1.16b, v2.16b
	eor	v0.16b, v0.16b, v16.16b
	eor	v28.16b, v10.16b, v4.16b
	eor	v7.16b, v7.16b, v27.16b
	eor	v20.16b, v20.16b, v5.16b
	eor	v22.16b, v31.16b, v24.16b
	eor	v16.16b, v16.16b, v19.16b
	eor	v1.16b, v1.16b, v29.16b
	eor	v0.16b, v0.16b, v15.16b
	eor	v7.16b, v7.16b, v23.16b
	eor	v25.16b, v20.16b, v27.16b
	eor	v20.16b, v30.16b, v17.16b
	eor	v27.16b, v21.16b, v11.16b
	eor	v21.16b, v28.16b, v26.16b
	mvn	v29.16b, v22.16b
	mvn	v1.16b, v1.16b
	mvn	v0.16b, v0.16b
	eor	v25.16b, v25.16b, v7.16b
	eor	v13.16b, v3.16b, v1.16b
	eor	v3.16b, v26.16b, v10.16b
	mvn	v26.16b, v7.16b
	eor	v14.16b, v24.16b, v0.16b
	eor	v24.16b, v2.16b, v18.16b
	eor	v2.16b, v4.16b, v0.16b
	eor	v0.16b, v17.16b, v6.16b
	eor	v15.16b, v23.16b, v1.16b
	eor	v23.16b, v27.16b, v22.16b
	mvn	v27.16b, v3.16b
	tbl	v3.16b, { v30.16b }, v12.16b
	tbl	v6.16b, { v30.16b }, v9.16b
	eor	v8.16b, v24.16b, v20.16b
	eor	v1.16b, v25.16b, v30.16b
	eor	v18.16b, v16.16b, v21.16b
	mvn	v24.16b, v0.16b
	tbl	v0.16b, { v20.16b }, v12.16b
	eor	v31.16b, v23.16b, v28.16b
	tbl	v11.16b, { v15.16b }, v12.16b
	tbl	v15.16b, { v15.16b }, v9.16b
	tbl	v7.16b, { v13.16b }, v12.16b
	tbl	v17.16b, { v1.16b }, v12.16b
	tbl	v19.16b, { v18.16b }, v12.16b
	tbl	v5.16b, { v13.16b }, v9.16b
	tbl	v16.16b, { v31.16b }, v12.16b
	tbl	v30.16b, { v31.16b }, v9.16b
	tbl	v31.16b, { v1.16b }, v9.16b
	str	q0, [sp, #416]                  // 16-byte Spill
	tbl	v0.16b, { v21.16b }, v12.16b
	tbl	v13.16b, { v18.16b }, v9.16b
	eor	v18.16b, v6.16b, v3.16b
	ldp	q1, q3, [x10, #-112]
	tbl	v22.16b, { v8.16b }, v12.16b
	tbl	v4.16b, { v8.16b }, v9.16b
	eor	v8.16b, v15.16b, v11.16b
	tbl	v25.16b, { v14.16b }, v12.16b
	tbl	v23.16b, { v2.16b }, v12.16b
	tbl	v10.16b, { v28.16b }, v12.16b
	str	q0, [sp, #400]                  // 16-byte Spill
	tbl	v0.16b, { v29.16b }, v12.16b
	tbl	v14.16b, { v14.16b }, v9.16b
	tbl	v11.16b, { v21.16b }, v9.16b
	eor	v21.16b, v3.16b, v5.16b
	eor	v5.16b, v5.16b, v7.16b
	tbl	v29.16b, { v29.16b }, v9.16b
	eor	v22.16b, v4.16b, v22.16b
	eor	v17.16b, v31.16b, v17.16b
	eor	v19.16b, v13.16b, v19.16b
	str	q0, [sp, #464]                  // 16-byte Spill
	tbl	v0.16b, { v26.16b }, v12.16b
	eor	v21.16b, v21.16b, v18.16b
	eor	v7.16b, v14.16b, v25.16b
	rev32	v25.8h, v5.8h
	eor	v21.16b, v21.16b, v8.16b
	str	q0, [sp, #432]                  // 16-byte Spill
	tbl	v0.16b, { v27.16b }, v12.16b
	str	q0, [sp, #480]                  // 16-byte Spill
	tbl	v0.16b, { v24.16b }, v12.16b
	tbl	v12.16b, { v2.16b }, v9.16b
	rev32	v2.8h, v8.8h
	tbl	v24.16b, { v24.16b }, v9.16b
	str	q0, [sp, #448]                  // 16-byte Spill
	eor	v0.16b, v1.16b, v15.16b
	tbl	v15.16b, { v20.16b }, v9.16b
	tbl	v20.16b, { v28.16b }, v9.16b
	tbl	v28.16b, { v26.16b }, v9.16b
	tbl	v26.16b, { v27.16b }, v9.16b
	eor	v1.16b, v1.16b, v14.16b
	eor	v3.16b, v3.16b, v12.16b
	eor	v9.16b, v30.16b, v16.16b
	eor	v27.16b, v0.16b, v18.16b
	eor	v14.16b, v21.16b, v25.16b
	rev32	v25.8h, v22.8h
	eor	v0.16b, v20.16b, v10.16b
	rev32	v21.8h, v9.8h
	rev32	v10.8h, v18.8h
	eor	v2.16b, v27.16b, v2.16b
	ldp	q8, q27, [x10, #-80]
	eor	v1.16b, v1.16b, v0.16b
	eor	v3.16b, v3.16b, v0.16b
	str	q2, [sp, #496]                  // 16-byte Spill
	eor	v2.16b, v12.16b, v23.16b
	rev32	v23.8h, v7.8h
	eor	v4.16b, v27.16b, v4.16b
	eor	v16.16b, v8.16b, v31.16b
	eor	v3.16b, v3.16b, v7.16b
	rev32	v7.8h, v2.8h
	eor	v12.16b, v1.16b, v23.16b
	eor	v1.16b, v8.16b, v30.16b
	eor	v4.16b, v4.16b, v18.16b
	eor	v5.16b, v16.16b, v5.16b
	ldp	q16, q31, [x10, #-48]
	eor	v23.16b, v27.16b, v13.16b
	eor	v1.16b, v1.16b, v2.16b
	rev32	v2.8h, v17.8h
	eor	v4.16b, v4.16b, v17.16b
	eor	v8.16b, v16.16b, v15.16b
	ldr	q17, [sp, #416]                 // 16-byte Reload
	eor	v3.16b, v3.16b, v7.16b
	eor	v7.16b, v16.16b, v11.16b
	eor	v27.16b, v15.16b, v17.16b
	eor	v17.16b, v1.16b, v21.16b
	eor	v1.16b, v23.16b, v0.16b
	eor	v16.16b, v5.16b, v2.16b
	eor	v30.16b, v4.16b, v25.16b
	eor	v4.16b, v8.16b, v18.16b
	ldp	q5, q23, [sp, #464]             // 32-byte Folded Reload
	str	q3, [sp, #416]                  // 16-byte Spill
	ldp	q2, q21, [sp, #432]             // 32-byte Folded Reload
	ldr	q3, [sp, #400]                  // 16-byte Reload
	eor	v25.16b, v31.16b, v28.16b
	eor	v4.16b, v4.16b, v22.16b
	eor	v7.16b, v7.16b, v0.16b
	eor	v5.16b, v29.16b, v5.16b
	eor	v29.16b, v31.16b, v29.16b
	eor	v3.16b, v11.16b, v3.16b
	ldp	q22, q31, [x10, #-16]
	eor	v2.16b, v28.16b, v2.16b
	eor	v21.16b, v24.16b, v21.16b
	eor	v23.16b, v26.16b, v23.16b
	eor	v1.16b, v1.16b, v9.16b
	rev32	v28.8h, v19.8h
	eor	v7.16b, v7.16b, v19.16b
	rev32	v19.8h, v27.8h
	eor	v24.16b, v22.16b, v24.16b
	eor	v22.16b, v22.16b, v26.16b
	eor	v20.16b, v31.16b, v20.16b
	eor	v6.16b, v31.16b, v6.16b
	eor	v25.16b, v25.16b, v27.16b
	rev32	v27.8h, v3.8h
	rev32	v26.8h, v5.8h
	rev32	v31.8h, v2.8h
	eor	v3.16b, v29.16b, v3.16b
	rev32	v29.8h, v21.8h
	rev32	v8.8h, v23.8h
	rev32	v9.8h, v0.8h
	eor	v24.16b, v24.16b, v2.16b
	eor	v5.16b, v22.16b, v5.16b
	eor	v6.16b, v6.16b, v21.16b
	eor	v22.16b, v20.16b, v23.16b
	eor	v0.16b, v1.16b, v28.16b
	eor	v18.16b, v4.16b, v19.16b
	eor	v13.16b, v7.16b, v27.16b
	eor	v21.16b, v25.16b, v31.16b
	eor	v28.16b, v3.16b, v26.16b
	eor	v26.16b, v24.16b, v29.16b
	eor	v23.16b, v5.16b, v8.16b
	eor	v10.16b, v6.16b, v10.16b
	eor	v1.16b, v22.16b, v9.16b
	ldr	q15, [sp, #496]                 // 16-byte Reload
	add	x10, x10, #128
	b.ne	.Ldeerlapse_0_1_0_BB28_2
	b	.Ldeerlapse_0_1_0_BB28_4
.Ldeerlapse_0_1_0_BB28_3:
	ldr	q15, [sp, #496]                 // 16-byte Reload
	ldr	q12, [sp, #432]                 // 16-byte Reload
.Ldeerlapse_0_1_0_BB28_4:                               // %"aead_ciphers_wide::aes::KeyRef::encrypt_sixteen.exit"
	ldr	q31, [sp, #416]                 // 16-byte Reload
	eor	v6.16b, v13.16b, v1.16b
	eor	v4.16b, v14.16b, v30.16b
	eor	v2.16b, v18.16b, v10.16b
	eor	v27.16b, v17.16b, v13.16b
	stp	q31, q12, [sp, #416]            // 32-byte Folded Spill
	eor	v3.16b, v31.16b, v0.16b
	eor	v0.16b, v12.16b, v23.16b
	eor	v20.16b, v16.16b, v10.16b
	mov	v9.16b, v6.16b
	add	x9, x0, x1, lsl #7
	eor	v11.16b, v4.16b, v2.16b
	eor	v4.16b, v4.16b, v16.16b
	str	q2, [sp, #16]                   // 16-byte Spill
	eor	v5.16b, v3.16b, v6.16b
	eor	v30.16b, v0.16b, v28.16b
	str	q27, [sp, #272]                 // 16-byte Spill
	eor	v3.16b, v3.16b, v17.16b
	str	q20, [sp, #96]                  // 16-byte Spill
	cmp	x5, #16
	eor	v25.16b, v11.16b, v15.16b
	eor	v19.16b, v4.16b, v26.16b
	stp	q6, q11, [sp, #64]              // 32-byte Folded Spill
	eor	v29.16b, v5.16b, v12.16b
	stp	q5, q15, [sp, #480]             // 32-byte Folded Spill
	eor	v5.16b, v15.16b, v26.16b
	eor	v22.16b, v3.16b, v23.16b
	eor	v0.16b, v3.16b, v0.16b
	eor	v23.16b, v17.16b, v1.16b
	eor	v17.16b, v16.16b, v18.16b
	str	q25, [sp, #240]                 // 16-byte Spill
	eor	v24.16b, v29.16b, v30.16b
	eor	v8.16b, v5.16b, v21.16b
	eor	v2.16b, v4.16b, v5.16b
	stp	q0, q2, [sp, #448]              // 32-byte Folded Spill
	eor	v0.16b, v3.16b, v28.16b
	mov	v28.16b, v14.16b
	str	q17, [sp, #128]                 // 16-byte Spill
	eor	v7.16b, v24.16b, v22.16b
	eor	v2.16b, v4.16b, v21.16b
	eor	v26.16b, v25.16b, v8.16b
	and	v4.16b, v22.16b, v6.16b
	eor	v6.16b, v8.16b, v14.16b
	eor	v21.16b, v30.16b, v31.16b
	str	q0, [sp]                        // 16-byte Spill
	eor	v31.16b, v30.16b, v13.16b
	and	v5.16b, v7.16b, v27.16b
	stp	q7, q2, [sp, #384]              // 32-byte Folded Spill
	mov	v7.16b, v19.16b
	eor	v16.16b, v26.16b, v19.16b
	mov	v27.16b, v12.16b
	eor	v12.16b, v8.16b, v18.16b
	eor	v19.16b, v6.16b, v20.16b
	mov	v0.16b, v26.16b
	stp	q22, q26, [sp, #336]            // 32-byte Folded Spill
	eor	v3.16b, v5.16b, v4.16b
	eor	v18.16b, v21.16b, v23.16b
	str	q6, [sp, #192]                  // 16-byte Spill
	and	v5.16b, v16.16b, v17.16b
	mov	v17.16b, v7.16b
	str	q16, [sp, #368]                 // 16-byte Spill
	and	v13.16b, v12.16b, v15.16b
	mov	v2.16b, v12.16b
	stp	q12, q19, [sp, #144]            // 32-byte Folded Spill
	str	q3, [sp, #32]                   // 16-byte Spill
	and	v3.16b, v24.16b, v23.16b
	ldr	q12, [sp, #16]                  // 16-byte Reload
	stp	q18, q21, [sp, #208]            // 32-byte Folded Spill
	mov	v26.16b, v6.16b
	mov	v15.16b, v23.16b
	and	v6.16b, v7.16b, v12.16b
	stp	q29, q7, [sp, #304]             // 32-byte Folded Spill
	and	v7.16b, v0.16b, v20.16b
	and	v16.16b, v18.16b, v29.16b
	mov	v23.16b, v18.16b
	eor	v18.16b, v20.16b, v0.16b
	eor	v14.16b, v3.16b, v4.16b
	and	v4.16b, v19.16b, v25.16b
	eor	v0.16b, v12.16b, v17.16b
	eor	v20.16b, v9.16b, v22.16b
	str	q30, [sp, #256]                 // 16-byte Spill
	eor	v17.16b, v5.16b, v6.16b
	eor	v5.16b, v19.16b, v2.16b
	str	q24, [sp, #288]                 // 16-byte Spill
	eor	v3.16b, v23.16b, v31.16b
	eor	v19.16b, v30.16b, v1.16b
	str	q31, [sp, #112]                 // 16-byte Spill
	eor	v22.16b, v0.16b, v4.16b
	ldr	q0, [sp, #416]                  // 16-byte Reload
	eor	v9.16b, v28.16b, v10.16b
	eor	v2.16b, v8.16b, v10.16b
	eor	v7.16b, v7.16b, v6.16b
	str	q5, [sp, #48]                   // 16-byte Spill
	eor	v29.16b, v0.16b, v1.16b
	ldp	q0, q1, [sp, #464]              // 32-byte Folded Reload
	eor	v25.16b, v18.16b, v13.16b
	and	v18.16b, v31.16b, v27.16b
	eor	v10.16b, v15.16b, v24.16b
	eor	v20.16b, v20.16b, v16.16b
	and	v4.16b, v5.16b, v11.16b
	str	q2, [sp, #176]                  // 16-byte Spill
	and	v6.16b, v3.16b, v1.16b
	ldr	q1, [sp, #400]                  // 16-byte Reload
	mov	v11.16b, v3.16b
	and	v16.16b, v21.16b, v30.16b
	orr	v3.16b, v2.16b, v0.16b
	ldr	q30, [sp]                       // 16-byte Reload
	and	v13.16b, v1.16b, v9.16b
	orr	v0.16b, v1.16b, v9.16b
	ldr	q1, [sp, #448]                  // 16-byte Reload
	and	v5.16b, v26.16b, v8.16b
	orr	v2.16b, v30.16b, v29.16b
	eor	v18.16b, v10.16b, v18.16b
	and	v10.16b, v30.16b, v29.16b
	orr	v1.16b, v19.16b, v1.16b
	eor	v20.16b, v20.16b, v6.16b
	eor	v3.16b, v3.16b, v13.16b
	eor	v21.16b, v25.16b, v7.16b
	mov	v27.16b, v19.16b
	eor	v0.16b, v5.16b, v0.16b
	eor	v2.16b, v16.16b, v2.16b
	eor	v5.16b, v22.16b, v4.16b
	eor	v1.16b, v1.16b, v10.16b
	eor	v16.16b, v18.16b, v14.16b
	eor	v3.16b, v3.16b, v7.16b
	ldr	q7, [sp, #32]                   // 16-byte Reload
	eor	v4.16b, v21.16b, v4.16b
	eor	v0.16b, v0.16b, v17.16b
	eor	v19.16b, v20.16b, v7.16b
	eor	v2.16b, v2.16b, v7.16b
	eor	v7.16b, v5.16b, v17.16b
	eor	v6.16b, v16.16b, v6.16b
	eor	v1.16b, v1.16b, v14.16b
	and	v25.16b, v4.16b, v3.16b
	eor	v23.16b, v0.16b, v3.16b
	and	v17.16b, v7.16b, v0.16b
	and	v18.16b, v19.16b, v2.16b
	eor	v20.16b, v7.16b, v4.16b
	and	v24.16b, v6.16b, v1.16b
	eor	v21.16b, v19.16b, v6.16b
	eor	v22.16b, v2.16b, v1.16b
	eor	v10.16b, v18.16b, v6.16b
	eor	v13.16b, v17.16b, v4.16b
	eor	v18.16b, v18.16b, v1.16b
	eor	v16.16b, v21.16b, v24.16b
	eor	v17.16b, v17.16b, v3.16b
	eor	v24.16b, v24.16b, v22.16b
	eor	v5.16b, v20.16b, v25.16b
	eor	v25.16b, v25.16b, v23.16b
	and	v13.16b, v13.16b, v23.16b
	and	v10.16b, v10.16b, v22.16b
	and	v2.16b, v16.16b, v2.16b
	and	v16.16b, v18.16b, v21.16b
	and	v19.16b, v24.16b, v19.16b
	and	v17.16b, v17.16b, v20.16b
	and	v5.16b, v5.16b, v0.16b
	and	v7.16b, v25.16b, v7.16b
	eor	v0.16b, v10.16b, v1.16b
	eor	v24.16b, v13.16b, v3.16b
	eor	v1.16b, v2.16b, v22.16b
	eor	v2.16b, v16.16b, v6.16b
	ldr	q16, [sp, #272]                 // 16-byte Reload
	eor	v3.16b, v17.16b, v4.16b
	ldr	q17, [sp, #128]                 // 16-byte Reload
	eor	v4.16b, v19.16b, v21.16b
	ldr	q19, [sp, #64]                  // 16-byte Reload
	ldr	q21, [sp, #96]                  // 16-byte Reload
	eor	v23.16b, v5.16b, v23.16b
	eor	v6.16b, v0.16b, v2.16b
	eor	v18.16b, v7.16b, v20.16b
	eor	v5.16b, v1.16b, v4.16b
	eor	v25.16b, v24.16b, v3.16b
	eor	v26.16b, v24.16b, v23.16b
	eor	v10.16b, v23.16b, v18.16b
	and	v19.16b, v6.16b, v19.16b
	eor	v7.16b, v6.16b, v5.16b
	and	v22.16b, v5.16b, v15.16b
	and	v20.16b, v25.16b, v12.16b
	eor	v15.16b, v0.16b, v1.16b
	and	v21.16b, v10.16b, v21.16b
	eor	v13.16b, v25.16b, v10.16b
	and	v16.16b, v7.16b, v16.16b
	and	v17.16b, v13.16b, v17.16b
	eor	v12.16b, v16.16b, v19.16b
	eor	v16.16b, v19.16b, v22.16b
	eor	v28.16b, v17.16b, v20.16b
	ldr	q17, [sp, #480]                 // 16-byte Reload
	str	q16, [sp, #416]                 // 16-byte Spill
	eor	v16.16b, v20.16b, v21.16b
	and	v31.16b, v15.16b, v17.16b
	str	q16, [sp, #272]                 // 16-byte Spill
	ldr	q16, [sp, #48]                  // 16-byte Reload
	and	v21.16b, v26.16b, v16.16b
	ldr	q16, [sp, #80]                  // 16-byte Reload
	and	v20.16b, v26.16b, v16.16b
	ldr	q16, [sp, #144]                 // 16-byte Reload
	and	v26.16b, v15.16b, v11.16b
	eor	v11.16b, v2.16b, v4.16b
	and	v16.16b, v24.16b, v16.16b
	str	q16, [sp, #480]                 // 16-byte Spill
	ldr	q16, [sp, #496]                 // 16-byte Reload
	and	v19.16b, v24.16b, v16.16b
	ldr	q16, [sp, #160]                 // 16-byte Reload
	and	v24.16b, v23.16b, v16.16b
	ldr	q16, [sp, #240]                 // 16-byte Reload
	eor	v19.16b, v20.16b, v19.16b
	and	v23.16b, v23.16b, v16.16b
	ldr	q16, [sp, #112]                 // 16-byte Reload
	and	v15.16b, v0.16b, v16.16b
	ldr	q16, [sp, #432]                 // 16-byte Reload
	eor	v20.16b, v20.16b, v23.16b
	and	v23.16b, v11.16b, v29.16b
	and	v29.16b, v11.16b, v30.16b
	and	v14.16b, v0.16b, v16.16b
	ldr	q16, [sp, #208]                 // 16-byte Reload
	eor	v0.16b, v3.16b, v18.16b
	and	v11.16b, v2.16b, v27.16b
	ldr	q27, [sp, #256]                 // 16-byte Reload
	and	v17.16b, v1.16b, v16.16b
	ldp	q16, q30, [sp, #304]            // 32-byte Folded Reload
	and	v9.16b, v0.16b, v9.16b
	and	v25.16b, v25.16b, v30.16b
	and	v22.16b, v1.16b, v16.16b
	ldr	q1, [sp, #400]                  // 16-byte Reload
	eor	v11.16b, v23.16b, v11.16b
	eor	v17.16b, v26.16b, v17.16b
	and	v0.16b, v0.16b, v1.16b
	ldr	q1, [sp, #448]                  // 16-byte Reload
	eor	v22.16b, v31.16b, v22.16b
	and	v16.16b, v2.16b, v1.16b
	ldr	q1, [sp, #176]                  // 16-byte Reload
	eor	v17.16b, v17.16b, v12.16b
	and	v2.16b, v3.16b, v1.16b
	ldr	q1, [sp, #464]                  // 16-byte Reload
	eor	v16.16b, v29.16b, v16.16b
	and	v3.16b, v3.16b, v1.16b
	ldr	q1, [sp, #224]                  // 16-byte Reload
	eor	v2.16b, v9.16b, v2.16b
	and	v1.16b, v4.16b, v1.16b
	and	v4.16b, v4.16b, v27.16b
	ldr	q27, [sp, #192]                 // 16-byte Reload
	eor	v3.16b, v0.16b, v3.16b
	and	v27.16b, v18.16b, v27.16b
	and	v18.16b, v18.16b, v8.16b
	ldp	q30, q8, [sp, #352]             // 32-byte Folded Reload
	eor	v1.16b, v1.16b, v23.16b
	eor	v4.16b, v29.16b, v4.16b
	ldr	q29, [sp, #416]                 // 16-byte Reload
	eor	v23.16b, v27.16b, v9.16b
	eor	v0.16b, v0.16b, v18.16b
	eor	v18.16b, v21.16b, v24.16b
	and	v30.16b, v10.16b, v30.16b
	and	v10.16b, v13.16b, v8.16b
	ldr	q8, [sp, #336]                  // 16-byte Reload
	ldr	q13, [sp, #384]                 // 16-byte Reload
	eor	v24.16b, v31.16b, v14.16b
	movi	v14.16b, #15
	and	v6.16b, v6.16b, v8.16b
	eor	v18.16b, v18.16b, v28.16b
	and	v7.16b, v7.16b, v13.16b
	eor	v27.16b, v25.16b, v30.16b
	ldp	q30, q8, [sp, #272]             // 32-byte Folded Reload
	and	v5.16b, v5.16b, v8.16b
	eor	v2.16b, v2.16b, v30.16b
	eor	v5.16b, v6.16b, v5.16b
	eor	v6.16b, v7.16b, v6.16b
	eor	v7.16b, v23.16b, v27.16b
	eor	v23.16b, v10.16b, v25.16b
	eor	v25.16b, v11.16b, v29.16b
	eor	v27.16b, v19.16b, v27.16b
	eor	v1.16b, v1.16b, v5.16b
	eor	v7.16b, v7.16b, v3.16b
	eor	v5.16b, v24.16b, v5.16b
	eor	v0.16b, v0.16b, v23.16b
	eor	v20.16b, v20.16b, v23.16b
	ldr	q23, [sp, #480]                 // 16-byte Reload
	eor	v4.16b, v4.16b, v6.16b
	eor	v6.16b, v22.16b, v6.16b
	eor	v2.16b, v2.16b, v27.16b
	eor	v1.16b, v1.16b, v16.16b
	eor	v21.16b, v21.16b, v23.16b
	eor	v23.16b, v26.16b, v15.16b
	eor	v7.16b, v7.16b, v28.16b
	eor	v22.16b, v18.16b, v0.16b
	eor	v25.16b, v25.16b, v5.16b
	eor	v26.16b, v17.16b, v4.16b
	eor	v16.16b, v16.16b, v24.16b
	eor	v3.16b, v3.16b, v19.16b
	eor	v1.16b, v1.16b, v12.16b
	eor	v23.16b, v23.16b, v29.16b
	eor	v21.16b, v21.16b, v30.16b
	mvn	v7.16b, v7.16b
	eor	v29.16b, v22.16b, v20.16b
	mvn	v19.16b, v25.16b
	eor	v28.16b, v26.16b, v6.16b
	eor	v6.16b, v6.16b, v17.16b
	ldr	q17, [x8, :lo12:.Ldeerlapse_0_1_0_CPI28_1]
	mvn	v1.16b, v1.16b
	eor	v21.16b, v21.16b, v2.16b
	eor	v23.16b, v23.16b, v25.16b
	eor	v27.16b, v27.16b, v7.16b
	eor	v0.16b, v0.16b, v7.16b
	eor	v3.16b, v3.16b, v29.16b
	eor	v16.16b, v16.16b, v28.16b
	mvn	v2.16b, v2.16b
	tbl	v25.16b, { v29.16b }, v17.16b
	eor	v5.16b, v5.16b, v1.16b
	eor	v1.16b, v4.16b, v1.16b
	eor	v4.16b, v20.16b, v18.16b
	eor	v7.16b, v23.16b, v26.16b
	eor	v18.16b, v21.16b, v22.16b
	tbl	v21.16b, { v27.16b }, v17.16b
	tbl	v0.16b, { v0.16b }, v17.16b
	tbl	v24.16b, { v16.16b }, v17.16b
	tbl	v3.16b, { v3.16b }, v17.16b
	mvn	v20.16b, v4.16b
	mvn	v4.16b, v6.16b
	tbl	v5.16b, { v5.16b }, v17.16b
	tbl	v1.16b, { v1.16b }, v17.16b
	tbl	v18.16b, { v18.16b }, v17.16b
	tbl	v23.16b, { v7.16b }, v17.16b
	tbl	v7.16b, { v28.16b }, v17.16b
	tbl	v19.16b, { v19.16b }, v17.16b
	tbl	v27.16b, { v2.16b }, v17.16b
	tbl	v4.16b, { v4.16b }, v17.16b
	tbl	v28.16b, { v20.16b }, v17.16b
	tbl	v6.16b, { v22.16b }, v17.16b
	tbl	v16.16b, { v26.16b }, v17.16b
	ldp	q2, q17, [x9]
	ldp	q20, q22, [x9, #32]
	ldp	q26, q29, [x9, #64]
	eor	v5.16b, v2.16b, v5.16b
	eor	v2.16b, v2.16b, v21.16b
	eor	v1.16b, v17.16b, v1.16b
	ldp	q30, q31, [x9, #96]
	eor	v21.16b, v17.16b, v0.16b
	eor	v7.16b, v26.16b, v7.16b
	eor	v17.16b, v20.16b, v23.16b
	eor	v20.16b, v20.16b, v18.16b
	ushr	v8.2d, v5.2d, #4
	eor	v23.16b, v26.16b, v25.16b
	ushr	v18.2d, v2.2d, #4
	eor	v0.16b, v22.16b, v3.16b
	eor	v3.16b, v22.16b, v24.16b
	eor	v22.16b, v29.16b, v27.16b
	eor	v19.16b, v29.16b, v19.16b
	ushr	v27.2d, v1.2d, #4
	eor	v24.16b, v30.16b, v28.16b
	eor	v25.16b, v8.16b, v7.16b
	eor	v18.16b, v18.16b, v23.16b
	ushr	v28.2d, v20.2d, #4
	ushr	v26.2d, v21.2d, #4
	eor	v29.16b, v30.16b, v4.16b
	ushr	v8.2d, v17.2d, #4
	eor	v4.16b, v31.16b, v6.16b
	and	v30.16b, v25.16b, v14.16b
	eor	v25.16b, v31.16b, v16.16b
	eor	v16.16b, v27.16b, v19.16b
	and	v27.16b, v18.16b, v14.16b
	eor	v6.16b, v28.16b, v24.16b
	eor	v26.16b, v26.16b, v22.16b
	eor	v28.16b, v8.16b, v29.16b
	ushr	v31.2d, v3.2d, #4
	shl	v18.2d, v30.2d, #4
	and	v8.16b, v16.16b, v14.16b
	ushr	v16.2d, v0.2d, #4
	shl	v9.2d, v27.2d, #4
	and	v10.16b, v6.16b, v14.16b
	and	v26.16b, v26.16b, v14.16b
	and	v28.16b, v28.16b, v14.16b
	eor	v31.16b, v31.16b, v25.16b
	eor	v6.16b, v18.16b, v5.16b
	shl	v11.2d, v8.2d, #4
	eor	v13.16b, v16.16b, v4.16b
	eor	v18.16b, v9.16b, v2.16b
	eor	v5.16b, v30.16b, v7.16b
	shl	v30.2d, v10.2d, #4
	shl	v12.2d, v26.2d, #4
	eor	v16.16b, v27.16b, v23.16b
	shl	v23.2d, v28.2d, #4
	and	v31.16b, v31.16b, v14.16b
	eor	v7.16b, v11.16b, v1.16b
	and	v9.16b, v13.16b, v14.16b
	eor	v1.16b, v26.16b, v22.16b
	eor	v22.16b, v30.16b, v20.16b
	ushr	v20.2d, v18.2d, #2
	eor	v2.16b, v12.16b, v21.16b
	movi	v12.16b, #51
	eor	v23.16b, v23.16b, v17.16b
	shl	v26.2d, v31.2d, #4
	ushr	v27.2d, v6.2d, #2
	eor	v17.16b, v8.16b, v19.16b
	eor	v24.16b, v10.16b, v24.16b
	shl	v19.2d, v9.2d, #4
	eor	v21.16b, v28.16b, v29.16b
	eor	v20.16b, v20.16b, v22.16b
	ushr	v28.2d, v16.2d, #2
	ushr	v29.2d, v5.2d, #2
	eor	v26.16b, v26.16b, v3.16b
	eor	v3.16b, v27.16b, v23.16b
	ushr	v30.2d, v17.2d, #2
	eor	v27.16b, v19.16b, v0.16b
	eor	v19.16b, v31.16b, v25.16b
	ushr	v0.2d, v7.2d, #2
	and	v25.16b, v20.16b, v12.16b
	eor	v20.16b, v28.16b, v24.16b
	ushr	v28.2d, v2.2d, #2
	and	v3.16b, v3.16b, v12.16b
	eor	v31.16b, v9.16b, v4.16b
	eor	v29.16b, v29.16b, v21.16b
	eor	v0.16b, v0.16b, v26.16b
	ushr	v4.2d, v1.2d, #2
	eor	v30.16b, v30.16b, v19.16b
	and	v9.16b, v20.16b, v12.16b
	eor	v20.16b, v28.16b, v27.16b
	shl	v8.2d, v25.2d, #2
	shl	v28.2d, v3.2d, #2
	and	v29.16b, v29.16b, v12.16b
	and	v10.16b, v0.16b, v12.16b
	eor	v0.16b, v4.16b, v31.16b
	and	v30.16b, v30.16b, v12.16b
	and	v11.16b, v20.16b, v12.16b
	eor	v18.16b, v8.16b, v18.16b
	shl	v8.2d, v9.2d, #2
	eor	v20.16b, v28.16b, v6.16b
	eor	v4.16b, v25.16b, v22.16b
	eor	v6.16b, v3.16b, v23.16b
	shl	v22.2d, v10.2d, #2
	shl	v28.2d, v29.2d, #2
	and	v25.16b, v0.16b, v12.16b
	shl	v23.2d, v11.2d, #2
	eor	v3.16b, v8.16b, v16.16b
	eor	v0.16b, v9.16b, v24.16b
	shl	v24.2d, v30.2d, #2
	ushr	v8.2d, v20.2d, #1
	movi	v12.16b, #85
	eor	v16.16b, v22.16b, v7.16b
	eor	v7.16b, v29.16b, v21.16b
	ushr	v29.2d, v18.2d, #1
	eor	v23.16b, v23.16b, v2.16b
	eor	v5.16b, v28.16b, v5.16b
	shl	v28.2d, v25.2d, #2
	eor	v22.16b, v10.16b, v26.16b
	eor	v2.16b, v24.16b, v17.16b
	ushr	v26.2d, v6.2d, #1
	eor	v24.16b, v8.16b, v16.16b
	eor	v17.16b, v30.16b, v19.16b
	eor	v21.16b, v11.16b, v27.16b
	eor	v19.16b, v29.16b, v23.16b
	eor	v1.16b, v28.16b, v1.16b
	ushr	v27.2d, v4.2d, #1
	eor	v28.16b, v25.16b, v31.16b
	ushr	v25.2d, v5.2d, #1
	ushr	v29.2d, v3.2d, #1
	and	v24.16b, v24.16b, v12.16b
	eor	v26.16b, v26.16b, v22.16b
	ushr	v30.2d, v7.2d, #1
	and	v19.16b, v19.16b, v12.16b
	ushr	v31.2d, v0.2d, #1
	eor	v27.16b, v27.16b, v21.16b
	eor	v29.16b, v29.16b, v1.16b
	eor	v25.16b, v25.16b, v2.16b
	add	v8.2d, v24.2d, v24.2d
	and	v9.16b, v26.16b, v12.16b
	eor	v26.16b, v30.16b, v17.16b
	add	v30.2d, v19.2d, v19.2d
	eor	v31.16b, v31.16b, v28.16b
	and	v10.16b, v27.16b, v12.16b
	and	v11.16b, v25.16b, v12.16b
	and	v29.16b, v29.16b, v12.16b
	eor	v24.16b, v24.16b, v16.16b
	eor	v25.16b, v8.16b, v20.16b
	and	v8.16b, v26.16b, v12.16b
	add	v20.2d, v9.2d, v9.2d
	eor	v27.16b, v30.16b, v18.16b
	and	v30.16b, v31.16b, v12.16b
	add	v18.2d, v10.2d, v10.2d
	add	v31.2d, v29.2d, v29.2d
	add	v12.2d, v11.2d, v11.2d
	eor	v16.16b, v9.16b, v22.16b
	add	v13.2d, v8.2d, v8.2d
	eor	v26.16b, v19.16b, v23.16b
	eor	v19.16b, v20.16b, v6.16b
	add	v22.2d, v30.2d, v30.2d
	eor	v23.16b, v18.16b, v4.16b
	eor	v20.16b, v10.16b, v21.16b
	eor	v6.16b, v12.16b, v5.16b
	eor	v18.16b, v31.16b, v3.16b
	eor	v4.16b, v11.16b, v2.16b
	eor	v5.16b, v29.16b, v1.16b
	eor	v2.16b, v13.16b, v7.16b
	eor	v1.16b, v30.16b, v28.16b
	eor	v3.16b, v22.16b, v0.16b
	eor	v0.16b, v8.16b, v17.16b
	b.ne	.Ldeerlapse_0_1_0_BB28_6
// %bb.5:                               // %join.5.i
	add	x8, x2, x3
	ldr	q7, [x8]
	eor	v7.16b, v7.16b, v27.16b
	str	q7, [x2]
	ldr	q7, [x8, #16]
	eor	v7.16b, v7.16b, v25.16b
	str	q7, [x2, #16]
	ldr	q7, [x8, #32]
	eor	v7.16b, v7.16b, v26.16b
	str	q7, [x2, #32]
	ldr	q7, [x8, #48]
	eor	v7.16b, v7.16b, v24.16b
	str	q7, [x2, #48]
	ldr	q7, [x8, #64]
	eor	v7.16b, v7.16b, v23.16b
	str	q7, [x2, #64]
	ldr	q7, [x8, #80]
	eor	v7.16b, v7.16b, v19.16b
	str	q7, [x2, #80]
	ldr	q7, [x8, #96]
	eor	v7.16b, v7.16b, v20.16b
	str	q7, [x2, #96]
	ldr	q7, [x8, #112]
	eor	v7.16b, v7.16b, v16.16b
	str	q7, [x2, #112]
	ldr	q7, [x8, #128]
	eor	v7.16b, v7.16b, v18.16b
	str	q7, [x2, #128]
	ldr	q7, [x8, #144]
	eor	v6.16b, v7.16b, v6.16b
	str	q6, [x2, #144]
	ldr	q6, [x8, #160]
	eor	v5.16b, v6.16b, v5.16b
	str	q5, [x2, #160]
	ldr	q5, [x8, #176]
	eor	v4.16b, v5.16b, v4.16b
	str	q4, [x2, #176]
	ldr	q4, [x8, #192]
	eor	v3.16b, v4.16b, v3.16b
	str	q3, [x2, #192]
	ldr	q3, [x8, #208]
	eor	v2.16b, v3.16b, v2.16b
	str	q2, [x2, #208]
	ldr	q2, [x8, #224]
	eor	v1.16b, v2.16b, v1.16b
	str	q1, [x2, #224]
	ldr	q1, [x8, #240]
	eor	v0.16b, v1.16b, v0.16b
	str	q0, [x2, #240]
	b	.Ldeerlapse_0_1_0_BB28_8
.Ldeerlapse_0_1_0_BB28_6:                               // %else.2
	movi	v7.2d, #0000000000000000
	add	x8, sp, #362
	add	x9, sp, #394
	stp	q27, q25, [sp, #528]
	stp	q26, q24, [sp, #560]
	stur	q7, [x8, #255]
	add	x8, sp, #378
	stur	q7, [x8, #255]
	add	x8, sp, #528
	stur	q7, [x9, #255]
	stur	q7, [x8, #137]
	stur	q7, [x8, #153]
	stur	q7, [x8, #169]
	stur	q7, [x8, #185]
	stur	q7, [x8, #201]
	stur	q7, [x8, #217]
	stur	q7, [x8, #233]
	str	xzr, [sp, #776]
	stp	q23, q19, [sp, #592]
	stp	q20, q16, [sp, #624]
	stp	q18, q6, [sp, #656]
	stp	q5, q4, [sp, #688]
	stp	q3, q2, [sp, #720]
	stp	q1, q0, [sp, #752]
.Ldeerlapse_0_1_0_BB28_7:                               // %join.5.i660
                                        // =>This Inner Loop Header: Depth=1
	ldr	q0, [x8], #16
	ldr	q1, [x2, x3]
	subs	x5, x5, #1
	eor	v0.16b, v1.16b, v0.16b
	str	q0, [x2], #16
	b.ne	.Ldeerlapse_0_1_0_BB28_7
.Ldeerlapse_0_1_0_BB28_8:                               // %join.3
	add	sp, sp, #784
	.cfi_def_cfa_offset 80
	ldp	d9, d8, [sp, #48]               // 16-byte Folded Reload
	ldr	x30, [sp, #64]                  // 8-byte Reload
	ldp	d11, d10, [sp, #32]             // 16-byte Folded Reload
	ldp	d13, d12, [sp, #16]             // 16-byte Folded Reload
	ldp	d15, d14, [sp], #80             // 16-byte Folded Reload
	.cfi_def_cfa_offset 0
	.cfi_restore w30
	.cfi_restore b8
	.cfi_restore b9
	.cfi_restore b10
	.cfi_restore b11
	.cfi_restore b12
	.cfi_restore b13
	.cfi_restore b14
	.cfi_restore b15
	ret
.Ldeerlapse_0_1_0_func_end28:
	.size	"deerlapse_0_1_0::aead_ciphers_wide::aes::ctr32::encrypt_up_to_sixteen", .Ldeerlapse_0_1_0_func_end28-"deerlapse_0_1_0::aead_ciphers_wide::aes::ctr32::encrypt_up_to_sixteen"
	.cfi_endproc
                                        // -- End function
	.section	.text.deerlapse_aes_gcm,"ax",@progbits
	.p2align	2                               // -- Begin function deerlapse::out_of_place::deerlapse_0_1_0_key_open_to_sized
	.type	"deerlapse_0_1_0::deerlapse::out_of_place::deerlapse_key_open_to_sized",@function
"deerlapse_0_1_0::deerlapse::out_of_place::deerlapse_key_open_to_sized": // @"deerlapse_0_1_0::deerlapse::out_of_place::deerlapse_key_open_to_sized"
	.cfi_startproc
// %bb.0:                               // %start
	cmp	x7, x5
	mov	w8, wzr
	b.ne	.Ldeerlapse_0_1_0_BB29_22
// %bb.1:                               // %start
	ldr	w9, [x0, #1920]
	sub	w10, w9, #10
	cmp	w10, #4
	b.hi	.Ldeerlapse_0_1_0_BB29_22
// %bb.2:                               // %else.7
	lsr	x10, x3, #61
	mov	w8, wzr
	cbnz	x10, .Ldeerlapse_0_1_0_BB29_22
// %bb.3:                               // %else.7
	sub	sp, sp, #208
	.cfi_def_cfa_offset 208
	stp	x29, x30, [sp, #144]            // 16-byte Folded Spill
	str	x23, [sp, #160]                 // 8-byte Spill
	stp	x22, x21, [sp, #176]            // 16-byte Folded Spill
	stp	x20, x19, [sp, #192]            // 16-byte Folded Spill
	add	x29, sp, #144
	.cfi_def_cfa w29, 64
	.cfi_offset w19, -8
	.cfi_offset w20, -16
	.cfi_offset w21, -24
	.cfi_offset w22, -32
	.cfi_offset w23, -48
	.cfi_offset w30, -56
	.cfi_offset w29, -64
	mov	x10, #68719411200               // =0xfffff0000
	mov	x19, x7
	movk	x10, #65505
	cmp	x7, x10
	b.hs	.Ldeerlapse_0_1_0_BB29_21
// %bb.4:                               // %join.3.i.i
	ldr	x8, [x29, #64]
	ldr	x10, [x1]
	mov	x20, x4
	ldr	w11, [x1, #8]
	str	x9, [sp, #72]
	add	x9, x0, #2680
	ldr	q0, [x8]
	add	x8, x0, #1928
	stur	x10, [x29, #-16]
	stp	x0, x8, [sp, #56]
	ldr	w10, [x0, #1924]
	add	x8, x0, #2168
	mov	x4, x2
	mov	x23, x6
	stp	x8, x9, [sp, #40]
	add	x8, sp, #24
	sub	x0, x29, #52
	add	x1, sp, #56
	add	x2, sp, #40
	mov	x5, x3
	sub	x3, x29, #16
	sub	x6, x29, #32
	mov	x7, x20
	stp	xzr, xzr, [sp, #24]
	stur	w11, [x29, #-8]
	sub	x21, x29, #52
	stur	q0, [x29, #-32]
	stp	w10, wzr, [sp, #80]
	stp	x19, x8, [sp]
	bl	"deerlapse_0_1_0::aead_ciphers::aes_gcm::opening::authenticate::<#7bfdf0a6b4753edd>"
	ldurb	w9, [x29, #-52]
	cmp	w9, #0
	cset	w8, eq
	cbnz	w9, .Ldeerlapse_0_1_0_BB29_21
// %bb.5:                               // %arm.5.i.i
	sub	x9, x23, x20
	mov	x2, x23
	mov	w22, w8
	cmp	x9, x19
	b.hs	.Ldeerlapse_0_1_0_BB29_10
// %bb.6:                               // %iter.check
	cmp	x19, #8
	mov	x8, xzr
	b.lo	.Ldeerlapse_0_1_0_BB29_18
// %bb.7:                               // %iter.check
	cmp	x9, #31
	b.ls	.Ldeerlapse_0_1_0_BB29_18
// %bb.8:                               // %vector.main.loop.iter.check
	cmp	x19, #32
	b.hs	.Ldeerlapse_0_1_0_BB29_11
// %bb.9:
	mov	x8, xzr
	b	.Ldeerlapse_0_1_0_BB29_15
.Ldeerlapse_0_1_0_BB29_10:                              // %apart.2.i.i.i.i.i.i.i.i
	mov	x0, x2
	mov	x1, x20
	mov	x2, x19
	bl	memmove
	mov	x2, x23
	b	.Ldeerlapse_0_1_0_BB29_20
.Ldeerlapse_0_1_0_BB29_11:                              // %vector.ph
	and	x9, x19, #0x18
	and	x8, x19, #0xfffffffe0
	add	x10, x20, #16
	add	x11, x2, #16
	and	x12, x19, #0xfffffffe0
.Ldeerlapse_0_1_0_BB29_12:                              // %vector.body
                                        // =>This Inner Loop Header: Depth=1
	ldp	q0, q1, [x10, #-16]
	subs	x12, x12, #32
	add	x10, x10, #32
	stp	q0, q1, [x11, #-16]
	add	x11, x11, #32
	b.ne	.Ldeerlapse_0_1_0_BB29_12
// %bb.13:                              // %middle.block
	cmp	x19, x8
	b.eq	.Ldeerlapse_0_1_0_BB29_20
// %bb.14:                              // %vec.epilog.iter.check
	cbz	x9, .Ldeerlapse_0_1_0_BB29_18
.Ldeerlapse_0_1_0_BB29_15:                              // %vec.epilog.ph
	mov	x11, x8
	and	x8, x19, #0xffffffff8
	sub	x9, x11, x8
	add	x10, x20, x11
	add	x11, x2, x11
.Ldeerlapse_0_1_0_BB29_16:                              // %vec.epilog.vector.body
                                        // =>This Inner Loop Header: Depth=1
	ldr	d0, [x10], #8
	adds	x9, x9, #8
	str	d0, [x11], #8
	b.ne	.Ldeerlapse_0_1_0_BB29_16
// %bb.17:                              // %vec.epilog.middle.block
	cmp	x19, x8
	b.eq	.Ldeerlapse_0_1_0_BB29_20
.Ldeerlapse_0_1_0_BB29_18:                              // %join.7.i.i.i.i.i.i.i.i.preheader
	sub	x9, x19, x8
	add	x10, x20, x8
	add	x8, x2, x8
.Ldeerlapse_0_1_0_BB29_19:                              // %join.7.i.i.i.i.i.i.i.i
                                        // =>This Inner Loop Header: Depth=1
	ldrb	w11, [x10], #1
	subs	x9, x9, #1
	strb	w11, [x8], #1
	b.ne	.Ldeerlapse_0_1_0_BB29_19
.Ldeerlapse_0_1_0_BB29_20:                              // %"core::slice::edits::slice+T::copy_from_slice::<i8,20'core::clone::U8Clone{}>.exit.i.i"
	add	x0, sp, #56
	orr	x1, x21, #0x1
	add	x5, sp, #24
	mov	x3, x19
	mov	x4, xzr
	bl	"deerlapse_0_1_0::aead_ciphers::aes_gcm::counter_mode::encrypt_within::<#6fa349fe97f872a2>"
	mov	w8, w22
.Ldeerlapse_0_1_0_BB29_21:
	.cfi_def_cfa wsp, 208
	ldp	x20, x19, [sp, #192]            // 16-byte Folded Reload
	ldr	x23, [sp, #160]                 // 8-byte Reload
	ldp	x22, x21, [sp, #176]            // 16-byte Folded Reload
	ldp	x29, x30, [sp, #144]            // 16-byte Folded Reload
	add	sp, sp, #208
	.cfi_def_cfa_offset 0
	.cfi_restore w19
	.cfi_restore w20
	.cfi_restore w21
	.cfi_restore w22
	.cfi_restore w23
	.cfi_restore w30
	.cfi_restore w29
.Ldeerlapse_0_1_0_BB29_22:                              // %common.ret
	mov	w0, w8
	ret
.Ldeerlapse_0_1_0_func_end29:
	.size	"deerlapse_0_1_0::deerlapse::out_of_place::deerlapse_key_open_to_sized", .Ldeerlapse_0_1_0_func_end29-"deerlapse_0_1_0::deerlapse::out_of_place::deerlapse_key_open_to_sized"
	.cfi_endproc
                                        // -- End function
	.section	.text.deerlapse_aes_gcm,"ax",@progbits
	.p2align	2                               // -- Begin function deerlapse::key::deerlapse_0_1_0_key_seal
	.type	"deerlapse_0_1_0::deerlapse::key::deerlapse_key_seal",@function
"deerlapse_0_1_0::deerlapse::key::deerlapse_key_seal":   // @"deerlapse_0_1_0::deerlapse::key::deerlapse_key_seal"
	.cfi_startproc
// %bb.0:                               // %start
	stp	x29, x30, [sp, #-96]!           // 16-byte Folded Spill
	.cfi_def_cfa_offset 96
	stp	x28, x27, [sp, #16]             // 16-byte Folded Spill
	stp	x26, x25, [sp, #32]             // 16-byte Folded Spill
	stp	x24, x23, [sp, #48]             // 16-byte Folded Spill
	stp	x22, x21, [sp, #64]             // 16-byte Folded Spill
	stp	x20, x19, [sp, #80]             // 16-byte Folded Spill
	mov	x29, sp
	.cfi_def_cfa w29, 96
	.cfi_offset w19, -8
	.cfi_offset w20, -16
	.cfi_offset w21, -24
	.cfi_offset w22, -32
	.cfi_offset w23, -40
	.cfi_offset w24, -48
	.cfi_offset w25, -56
	.cfi_offset w26, -64
	.cfi_offset w27, -72
	.cfi_offset w28, -80
	.cfi_offset w30, -88
	.cfi_offset w29, -96
	sub	sp, sp, #656
	ldr	w8, [x0, #1920]
	stp	xzr, xzr, [sp, #80]
	str	x8, [sp, #56]                   // 8-byte Spill
	sub	w8, w8, #10
	cmp	w8, #5
	b.hs	.Ldeerlapse_0_1_0_BB30_8
// %bb.1:                               // %join.3
	add	x8, x0, #2168
	add	x9, x0, #2680
	ldr	w21, [x0, #1924]
	stp	x8, x9, [sp, #96]
	lsr	x8, x3, #61
	mov	x20, x0
	stp	xzr, xzr, [sp, #64]
	stp	xzr, xzr, [sp, #144]
	stp	xzr, xzr, [sp, #128]
	cbnz	x8, .Ldeerlapse_0_1_0_BB30_8
// %bb.2:                               // %join.3
	mov	x8, #68719476704                // =0xfffffffe0
	mov	x28, x5
	cmp	x5, x8
	b.hi	.Ldeerlapse_0_1_0_BB30_8
// %bb.3:                               // %join.3.i.i
	add	x8, sp, #96
	and	x24, x3, #0x1ffffffffffffff0
	stp	x6, x4, [sp, #32]               // 16-byte Folded Spill
	mov	x27, x1
	stp	x8, x3, [sp, #232]
	and	x23, x3, #0xf
	add	x0, sp, #96
	add	x1, sp, #216
	add	x4, sp, #64
	mov	x3, x24
	stp	xzr, xzr, [sp, #216]
	mov	x19, x2
	str	x28, [sp, #248]
	bl	"deerlapse_0_1_0::aead_ciphers_wide::gcm::KeyRefUpdateBlocks::update_blocks"
	cbz	x23, .Ldeerlapse_0_1_0_BB30_5
// %bb.4:                               // %then.1.i.i.i.i.i
	mov	w8, #16                         // =0x10
	mov	w1, wzr
	sub	x2, x8, x23
	add	x8, sp, #272
	add	x0, x8, x23
	bl	memset
	add	x0, sp, #272
	add	x1, x19, x24
	mov	x2, x23
	bl	memcpy
	add	x0, x20, #2168
	add	x1, sp, #216
	add	x2, sp, #272
	add	x3, sp, #64
	bl	"deerlapse_0_1_0::aead_ciphers_wide::gcm::KeyRefUpdateBlock::update_block"
.Ldeerlapse_0_1_0_BB30_5:                               // %"aead_ciphers::gcm::context::Context::of_fitting::<#3f2567b24793e466>.exit.i.i"
	sub	x8, x28, #1
	sub	x22, x29, #128
	cmp	x8, #239
	b.hi	.Ldeerlapse_0_1_0_BB30_9
// %bb.6:                               // %then.8.i.i
	ands	x23, x28, #0xf
	mov	w8, #16                         // =0x10
	movi	v0.2d, #0000000000000000
	csel	x8, xzr, x8, eq
	add	x8, x28, x8
	add	x19, x8, #16
	and	x25, x19, #0x3f0
	cmp	x25, #64
	b.hi	.Ldeerlapse_0_1_0_BB30_28
// %bb.7:                               // %then.1.i114.i.i
	ldr	x25, [sp, #40]                  // 8-byte Reload
	add	x21, sp, #272
	mov	x2, x28
	add	x0, x21, #16
	stp	q0, q0, [sp, #272]
	mov	x1, x25
	stp	q0, q0, [sp, #304]
	bl	memcpy
	ldr	x8, [x27]
	ldr	w9, [x27, #8]
	lsr	x24, x19, #4
	sturb	wzr, [x29, #-114]
	ldr	x1, [sp, #56]                   // 8-byte Reload
	add	x0, x20, #1928
	sturh	wzr, [x29, #-116]
	add	x2, sp, #272
	sub	x4, x29, #64
	stur	x8, [x29, #-128]
	mov	x3, xzr
	mov	x5, x24
	stur	w9, [x29, #-120]
	ldur	x9, [x22, #7]
	stur	x8, [x29, #-64]
	mov	w8, #1                          // =0x1
	sturb	w8, [x29, #-49]
	stur	x9, [x22, #71]
	bl	"deerlapse_0_1_0::aead_ciphers_wide::aes::ctr32::encrypt_few"
	ldr	x8, [sp, #64]
	add	x1, x21, #16
	mov	x0, x25
	add	x8, x8, x24
	str	x8, [sp, #64]
	b	.Ldeerlapse_0_1_0_BB30_36
.Ldeerlapse_0_1_0_BB30_8:
	mov	w0, wzr
	b	.Ldeerlapse_0_1_0_BB30_51
.Ldeerlapse_0_1_0_BB30_9:                               // %after.4.i.i
	ldr	x8, [x27]
	ldr	w9, [x27, #8]
	sturb	wzr, [x29, #-66]
	sturh	wzr, [x29, #-68]
	ldr	x27, [sp, #40]                  // 8-byte Reload
	stur	x8, [x29, #-80]
	stur	w9, [x29, #-72]
	ldur	x9, [x22, #55]
	str	x8, [sp, #176]
	mov	w8, #1                          // =0x1
	strb	w8, [sp, #191]
	stur	x9, [sp, #183]
	ands	x9, x28, #0xf
	ldr	w8, [sp, #188]
	ldr	q0, [sp, #176]
	stp	x9, x28, [sp, #16]              // 16-byte Folded Spill
	and	x9, x28, #0xfffffff00
	str	w21, [sp, #12]                  // 4-byte Spill
	rev	w8, w8
	csel	x10, x28, x9, eq
	str	q0, [sp, #160]
	add	w8, w8, #1
	rev	w22, w8
	str	w22, [sp, #188]
	cbz	x10, .Ldeerlapse_0_1_0_BB30_23
// %bb.10:                              // %join.17.lr.ph.i.i
	ldr	w8, [sp, #12]                   // 4-byte Reload
	mov	w9, #256                        // =0x100
	mov	x28, xzr
	str	x10, [sp, #48]                  // 8-byte Spill
	cmp	w8, #256
	mov	w8, #128                        // =0x80
	csel	x25, x9, x8, eq
	b	.Ldeerlapse_0_1_0_BB30_12
.Ldeerlapse_0_1_0_BB30_11:                              // %"aead_ciphers::gcm::context::Context::absorb::<#3f2567b24793e466>.exit142.i.i"
                                        //   in Loop: Header=BB30_12 Depth=1
	ldr	x10, [sp, #48]                  // 8-byte Reload
	add	x28, x23, x28
	cmp	x28, x10
	b.hs	.Ldeerlapse_0_1_0_BB30_23
.Ldeerlapse_0_1_0_BB30_12:                              // %join.17.i.i
                                        // =>This Loop Header: Depth=1
                                        //     Child Loop BB30_16 Depth 2
	subs	x8, x10, x28
	mov	w9, #3072                       // =0xc00
	add	x26, x27, x28
	cmp	x8, #3072
	csel	x23, x8, x9, lo
	cmp	x10, x28
	b.eq	.Ldeerlapse_0_1_0_BB30_21
// %bb.13:                              // %join.8.i.preheader.i.i
                                        //   in Loop: Header=BB30_12 Depth=1
	ldr	x27, [sp, #64]
	mov	x21, xzr
	rev	w19, w22
	b	.Ldeerlapse_0_1_0_BB30_16
.Ldeerlapse_0_1_0_BB30_14:                              // %then.1.i.i.i
                                        //   in Loop: Header=BB30_16 Depth=2
	ldr	x1, [sp, #56]                   // 8-byte Reload
	add	x0, x20, #1928
	add	x2, x26, x21
	add	x4, sp, #176
	mov	x3, xzr
	mov	x5, x24
	bl	"deerlapse_0_1_0::aead_ciphers_wide::aes::ctr32::encrypt_few"
.Ldeerlapse_0_1_0_BB30_15:                              // %"aead_ciphers_wide::aes::ctr32::encrypt_batch.exit.i.i"
                                        //   in Loop: Header=BB30_16 Depth=2
	add	x19, x19, x22, lsr #4
	add	x21, x22, x21
	add	x27, x27, x24
	cmp	x21, x23
	rev	w22, w19
                                        // kill: def $w19 killed $w19 killed $x19 def $x19
	str	w22, [sp, #188]
	b.hs	.Ldeerlapse_0_1_0_BB30_20
.Ldeerlapse_0_1_0_BB30_16:                              // %join.8.i.i.i
                                        //   Parent Loop BB30_12 Depth=1
                                        // =>  This Inner Loop Header: Depth=2
	sub	x8, x23, x21
	cmp	x8, x25
	csel	x22, x8, x25, lo
	cmp	x8, #79
	lsr	x24, x22, #4
	b.ls	.Ldeerlapse_0_1_0_BB30_14
// %bb.17:                              // %else.2.i.i.i
                                        //   in Loop: Header=BB30_16 Depth=2
	add	x2, x26, x21
	add	x4, sp, #176
	mov	x0, x20
	cmp	x22, #143
	b.hi	.Ldeerlapse_0_1_0_BB30_19
// %bb.18:                              // %then.4.i.i.i
                                        //   in Loop: Header=BB30_16 Depth=2
	ldr	x1, [sp, #56]                   // 8-byte Reload
	mov	x3, xzr
	mov	x5, x24
	bl	"deerlapse_0_1_0::aead_ciphers_wide::aes::ctr32::encrypt_up_to_eight"
	b	.Ldeerlapse_0_1_0_BB30_15
.Ldeerlapse_0_1_0_BB30_19:                              // %else.5.i.i.i
                                        //   in Loop: Header=BB30_16 Depth=2
	ldr	x1, [sp, #56]                   // 8-byte Reload
	mov	x3, xzr
	mov	x5, x24
	bl	"deerlapse_0_1_0::aead_ciphers_wide::aes::ctr32::encrypt_up_to_sixteen"
	b	.Ldeerlapse_0_1_0_BB30_15
.Ldeerlapse_0_1_0_BB30_20:                              // %"aead_ciphers_wide::aes::ctr32::KeyRefEncryptCtr32::ctr32_encrypt_within.exit.i.i.loopexit"
                                        //   in Loop: Header=BB30_12 Depth=1
	str	x27, [sp, #64]
	ldr	x27, [sp, #40]                  // 8-byte Reload
.Ldeerlapse_0_1_0_BB30_21:                              // %"aead_ciphers_wide::aes::ctr32::KeyRefEncryptCtr32::ctr32_encrypt_within.exit.i.i"
                                        //   in Loop: Header=BB30_12 Depth=1
	ldr	x24, [sp, #232]
	add	x1, sp, #216
	add	x2, x27, x28
	and	x3, x23, #0xff0
	add	x4, sp, #64
	and	x19, x23, #0xff0
	mov	x0, x24
	and	x21, x23, #0xf
	bl	"deerlapse_0_1_0::aead_ciphers_wide::gcm::KeyRefUpdateBlocks::update_blocks"
	cbz	x21, .Ldeerlapse_0_1_0_BB30_11
// %bb.22:                              // %then.1.i.i139.i.i
                                        //   in Loop: Header=BB30_12 Depth=1
	mov	w8, #16                         // =0x10
	mov	w1, wzr
	sub	x2, x8, x21
	add	x8, sp, #272
	add	x0, x8, x21
	bl	memset
	add	x0, sp, #272
	add	x1, x26, x19
	and	x2, x23, #0xf
	bl	memcpy
	ldr	q0, [sp, #272]
	ldr	x0, [x24]
	add	x1, sp, #216
	sub	x2, x29, #64
	add	x3, sp, #64
	stur	q0, [x29, #-64]
	bl	"deerlapse_0_1_0::aead_ciphers_wide::gcm::KeyRefUpdateBlock::update_block"
	b	.Ldeerlapse_0_1_0_BB30_11
.Ldeerlapse_0_1_0_BB30_23:                              // %after.13.i.i
	ldr	x8, [sp, #24]                   // 8-byte Reload
	subs	x22, x8, x10
	b.ls	.Ldeerlapse_0_1_0_BB30_49
// %bb.24:                              // %then.18.i.i
	ldr	x8, [sp, #16]                   // 8-byte Reload
	movi	v0.2d, #0000000000000000
	add	x21, x27, x10
	cmp	x8, #0
	mov	w8, #16                         // =0x10
	csel	x8, xzr, x8, eq
	add	x19, x22, x8
	and	x23, x19, #0x1ffffffff0
	cmp	x23, #64
	b.hi	.Ldeerlapse_0_1_0_BB30_39
// %bb.25:                              // %then.1.i37.i.i
	add	x0, sp, #272
	mov	x1, x21
	mov	x2, x22
	stp	q0, q0, [sp, #272]
	stp	q0, q0, [sp, #304]
	bl	memcpy
	cbz	x23, .Ldeerlapse_0_1_0_BB30_27
// %bb.26:                              // %join.8.i.i.lr.ph.i.i
	lsr	x24, x19, #4
	ldr	x1, [sp, #56]                   // 8-byte Reload
	add	x0, x20, #1928
	add	x2, sp, #272
	add	x4, sp, #176
	mov	x3, xzr
	mov	x5, x24
	bl	"deerlapse_0_1_0::aead_ciphers_wide::aes::ctr32::encrypt_few"
	ldr	x8, [sp, #64]
	add	x8, x8, x24
	str	x8, [sp, #64]
.Ldeerlapse_0_1_0_BB30_27:                              // %"aead_ciphers::aes_gcm::counter_mode::encrypt_padded::<#6fa349fe97f872a2>.exit.i.i"
	add	x1, sp, #272
	b	.Ldeerlapse_0_1_0_BB30_47
.Ldeerlapse_0_1_0_BB30_28:                              // %else.2.i113.i.i
	add	x26, sp, #272
	ldr	x1, [sp, #40]                   // 8-byte Reload
	mov	x2, x28
	add	x0, x26, #16
	stp	q0, q0, [sp, #272]
	stp	q0, q0, [sp, #304]
	stp	q0, q0, [sp, #336]
	stp	q0, q0, [sp, #368]
	stp	q0, q0, [sp, #400]
	stp	q0, q0, [sp, #432]
	stp	q0, q0, [sp, #464]
	stp	q0, q0, [sp, #496]
	str	x28, [sp, #24]                  // 8-byte Spill
	bl	memcpy
	ldr	x8, [x27]
	ldr	w9, [x27, #8]
	mov	w10, #1                         // =0x1
	sturb	wzr, [x29, #-98]
	cmp	w21, #256
	mov	w11, #256                       // =0x100
	sturh	wzr, [x29, #-100]
	ldr	x21, [sp, #64]
	mov	x28, xzr
	stur	x8, [x29, #-112]
	stur	w9, [x29, #-104]
	ldur	x9, [x22, #23]
	sturb	w10, [x29, #-49]
	mov	w10, #128                       // =0x80
	stur	x9, [x22, #71]
	csel	x22, x11, x10, eq
	ldur	w9, [x29, #-52]
	stur	x8, [x29, #-64]
	rev	w27, w9
	b	.Ldeerlapse_0_1_0_BB30_31
.Ldeerlapse_0_1_0_BB30_29:                              // %then.1.i.i43.i.i.i
                                        //   in Loop: Header=BB30_31 Depth=1
	ldr	x1, [sp, #56]                   // 8-byte Reload
	add	x0, x20, #1928
	add	x2, x26, x28
	sub	x4, x29, #64
	mov	x3, xzr
	mov	x5, x24
	bl	"deerlapse_0_1_0::aead_ciphers_wide::aes::ctr32::encrypt_few"
.Ldeerlapse_0_1_0_BB30_30:                              // %"aead_ciphers_wide::aes::ctr32::encrypt_batch.exit.i40.i.i.i"
                                        //   in Loop: Header=BB30_31 Depth=1
	add	x27, x27, x19, lsr #4
	add	x28, x19, x28
	add	x21, x21, x24
	cmp	x28, x25
	rev	w8, w27
                                        // kill: def $w27 killed $w27 killed $x27 def $x27
	stur	w8, [x29, #-52]
	b.hs	.Ldeerlapse_0_1_0_BB30_35
.Ldeerlapse_0_1_0_BB30_31:                              // %join.8.i.i27.i.i.i
                                        // =>This Inner Loop Header: Depth=1
	sub	x8, x25, x28
	cmp	x8, x22
	csel	x19, x8, x22, lo
	cmp	x8, #79
	lsr	x24, x19, #4
	b.ls	.Ldeerlapse_0_1_0_BB30_29
// %bb.32:                              // %else.2.i.i37.i.i.i
                                        //   in Loop: Header=BB30_31 Depth=1
	add	x2, x26, x28
	sub	x4, x29, #64
	mov	x0, x20
	cmp	x19, #143
	b.hi	.Ldeerlapse_0_1_0_BB30_34
// %bb.33:                              // %then.4.i.i42.i.i.i
                                        //   in Loop: Header=BB30_31 Depth=1
	ldr	x1, [sp, #56]                   // 8-byte Reload
	mov	x3, xzr
	mov	x5, x24
	bl	"deerlapse_0_1_0::aead_ciphers_wide::aes::ctr32::encrypt_up_to_eight"
	b	.Ldeerlapse_0_1_0_BB30_30
.Ldeerlapse_0_1_0_BB30_34:                              // %else.5.i.i39.i.i.i
                                        //   in Loop: Header=BB30_31 Depth=1
	ldr	x1, [sp, #56]                   // 8-byte Reload
	mov	x3, xzr
	mov	x5, x24
	bl	"deerlapse_0_1_0::aead_ciphers_wide::aes::ctr32::encrypt_up_to_sixteen"
	b	.Ldeerlapse_0_1_0_BB30_30
.Ldeerlapse_0_1_0_BB30_35:                              // %"aead_ciphers::aes_gcm::sealing::encrypt_after_zeros::<#6fa349fe97f872a2>.exit48.i.i.i"
	ldr	x25, [sp, #40]                  // 8-byte Reload
	ldr	x28, [sp, #24]                  // 8-byte Reload
	add	x1, x26, #16
	str	x21, [sp, #64]
	mov	x0, x25
.Ldeerlapse_0_1_0_BB30_36:                              // %"aead_ciphers::aes_gcm::sealing::encrypt_short::<#6fa349fe97f872a2>.exit.i.i"
	mov	x2, x28
	bl	memcpy
	ldr	q0, [sp, #272]
	ldr	x19, [sp, #232]
	and	x20, x28, #0xf0
	add	x1, sp, #216
	add	x4, sp, #64
	mov	x2, x25
	str	q0, [sp, #256]
	mov	x0, x19
	mov	x3, x20
	ldr	q0, [sp, #256]
	str	q0, [sp, #192]
	bl	"deerlapse_0_1_0::aead_ciphers_wide::gcm::KeyRefUpdateBlocks::update_blocks"
	cbz	x23, .Ldeerlapse_0_1_0_BB30_38
// %bb.37:                              // %then.1.i.i121.i.i
	mov	w8, #16                         // =0x10
	mov	w1, wzr
	sub	x2, x8, x23
	sub	x8, x29, #96
	add	x0, x8, x23
	bl	memset
	sub	x0, x29, #96
	add	x1, x25, x20
	mov	x2, x23
	bl	memcpy
	ldr	x0, [x19]
	add	x1, sp, #216
	sub	x2, x29, #96
	add	x3, sp, #64
	bl	"deerlapse_0_1_0::aead_ciphers_wide::gcm::KeyRefUpdateBlock::update_block"
.Ldeerlapse_0_1_0_BB30_38:                              // %"aead_ciphers::gcm::context::Context::absorb::<#3f2567b24793e466>.exit.i.i"
	add	x0, sp, #144
	add	x1, sp, #216
	add	x2, sp, #192
	add	x3, sp, #64
	bl	"deerlapse_0_1_0::aead_ciphers::aes_gcm::hash::finish::<#0f83097016d41fe1>"
	ldr	q0, [sp, #144]
	b	.Ldeerlapse_0_1_0_BB30_50
.Ldeerlapse_0_1_0_BB30_39:                              // %else.2.i36.i.i
	ldr	q1, [sp, #176]
	add	x0, sp, #272
	mov	x1, x21
	mov	x2, x22
	stp	q0, q0, [sp, #272]
	add	x25, sp, #272
	stp	q0, q0, [sp, #304]
	stp	q0, q0, [sp, #336]
	stp	q0, q0, [sp, #368]
	stp	q0, q0, [sp, #400]
	stp	q0, q0, [sp, #432]
	stp	q0, q0, [sp, #464]
	stp	q0, q0, [sp, #496]
	stur	q1, [x29, #-64]
	str	x21, [sp, #48]                  // 8-byte Spill
	bl	memcpy
	ldr	w8, [sp, #12]                   // 4-byte Reload
	mov	w9, #128                        // =0x80
	mov	w10, #256                       // =0x100
	ldr	x27, [sp, #64]
	mov	x26, xzr
	cmp	w8, #256
	ldur	w8, [x29, #-52]
	csel	x28, x10, x9, eq
	rev	w21, w8
	b	.Ldeerlapse_0_1_0_BB30_42
.Ldeerlapse_0_1_0_BB30_40:                              // %then.1.i.i75.i.i
                                        //   in Loop: Header=BB30_42 Depth=1
	ldr	x1, [sp, #56]                   // 8-byte Reload
	add	x0, x20, #1928
	add	x2, x25, x26
	sub	x4, x29, #64
	mov	x3, xzr
	mov	x5, x24
	bl	"deerlapse_0_1_0::aead_ciphers_wide::aes::ctr32::encrypt_few"
.Ldeerlapse_0_1_0_BB30_41:                              // %"aead_ciphers_wide::aes::ctr32::encrypt_batch.exit.i72.i.i"
                                        //   in Loop: Header=BB30_42 Depth=1
	add	x21, x21, x19, lsr #4
	add	x26, x19, x26
	add	x27, x27, x24
	cmp	x26, x23
	rev	w8, w21
                                        // kill: def $w21 killed $w21 killed $x21 def $x21
	stur	w8, [x29, #-52]
	b.hs	.Ldeerlapse_0_1_0_BB30_46
.Ldeerlapse_0_1_0_BB30_42:                              // %join.8.i.i59.i.i
                                        // =>This Inner Loop Header: Depth=1
	sub	x8, x23, x26
	cmp	x8, x28
	csel	x19, x8, x28, lo
	cmp	x8, #79
	lsr	x24, x19, #4
	b.ls	.Ldeerlapse_0_1_0_BB30_40
// %bb.43:                              // %else.2.i.i69.i.i
                                        //   in Loop: Header=BB30_42 Depth=1
	add	x2, x25, x26
	sub	x4, x29, #64
	mov	x0, x20
	cmp	x19, #143
	b.hi	.Ldeerlapse_0_1_0_BB30_45
// %bb.44:                              // %then.4.i.i74.i.i
                                        //   in Loop: Header=BB30_42 Depth=1
	ldr	x1, [sp, #56]                   // 8-byte Reload
	mov	x3, xzr
	mov	x5, x24
	bl	"deerlapse_0_1_0::aead_ciphers_wide::aes::ctr32::encrypt_up_to_eight"
	b	.Ldeerlapse_0_1_0_BB30_41
.Ldeerlapse_0_1_0_BB30_45:                              // %else.5.i.i71.i.i
                                        //   in Loop: Header=BB30_42 Depth=1
	ldr	x1, [sp, #56]                   // 8-byte Reload
	mov	x3, xzr
	mov	x5, x24
	bl	"deerlapse_0_1_0::aead_ciphers_wide::aes::ctr32::encrypt_up_to_sixteen"
	b	.Ldeerlapse_0_1_0_BB30_41
.Ldeerlapse_0_1_0_BB30_46:                              // %"aead_ciphers::aes_gcm::counter_mode::encrypt_padded::<#6fa349fe97f872a2>.exit80.i.i"
	ldr	x21, [sp, #48]                  // 8-byte Reload
	add	x1, sp, #272
	str	x27, [sp, #64]
.Ldeerlapse_0_1_0_BB30_47:                              // %"aead_ciphers::aes_gcm::counter_mode::encrypt_rest::<#6fa349fe97f872a2>.exit.i.i"
	mov	x0, x21
	mov	x2, x22
	bl	memcpy
	ldr	x24, [sp, #232]
	and	x22, x22, #0xffffffff0
	add	x1, sp, #216
	add	x4, sp, #64
	mov	x2, x21
	mov	x3, x22
	mov	x0, x24
	bl	"deerlapse_0_1_0::aead_ciphers_wide::gcm::KeyRefUpdateBlocks::update_blocks"
	ldr	x8, [sp, #16]                   // 8-byte Reload
	cbz	x8, .Ldeerlapse_0_1_0_BB30_49
// %bb.48:                              // %then.1.i.i214.i.i
	ldr	x19, [sp, #16]                  // 8-byte Reload
	mov	w8, #16                         // =0x10
	mov	w1, wzr
	sub	x2, x8, x19
	sub	x8, x29, #48
	add	x0, x8, x19
	bl	memset
	sub	x0, x29, #48
	add	x1, x21, x22
	mov	x2, x19
	bl	memcpy
	ldr	x0, [x24]
	add	x1, sp, #216
	sub	x2, x29, #48
	add	x3, sp, #64
	bl	"deerlapse_0_1_0::aead_ciphers_wide::gcm::KeyRefUpdateBlock::update_block"
.Ldeerlapse_0_1_0_BB30_49:                              // %join.20.i.i
	ldp	x2, x8, [sp, #56]               // 8-byte Folded Reload
	sub	x0, x29, #32
	add	x1, x20, #1928
	add	x3, sp, #160
	stp	xzr, xzr, [x29, #-32]
	add	x8, x8, #1
	str	x8, [sp, #64]
	bl	"deerlapse_0_1_0::aead_ciphers_wide::aes::block_key::BlockKeyRef::encrypt_one"
	add	x0, sp, #128
	add	x1, sp, #216
	sub	x2, x29, #32
	add	x3, sp, #64
	bl	"deerlapse_0_1_0::aead_ciphers::aes_gcm::hash::finish::<#0f83097016d41fe1>"
	ldr	q0, [sp, #128]
.Ldeerlapse_0_1_0_BB30_50:                              // %arm.4
	str	q0, [sp, #112]
	ldr	x8, [sp, #32]                   // 8-byte Reload
	mov	w0, #1                          // =0x1
	ldr	q0, [sp, #112]
	str	q0, [sp, #80]
	str	q0, [x8]
.Ldeerlapse_0_1_0_BB30_51:                              // %common.ret
	add	sp, sp, #656
	.cfi_def_cfa wsp, 96
	ldp	x20, x19, [sp, #80]             // 16-byte Folded Reload
	ldp	x22, x21, [sp, #64]             // 16-byte Folded Reload
	ldp	x24, x23, [sp, #48]             // 16-byte Folded Reload
	ldp	x26, x25, [sp, #32]             // 16-byte Folded Reload
	ldp	x28, x27, [sp, #16]             // 16-byte Folded Reload
	ldp	x29, x30, [sp], #96             // 16-byte Folded Reload
	.cfi_def_cfa_offset 0
	.cfi_restore w19
	.cfi_restore w20
	.cfi_restore w21
	.cfi_restore w22
	.cfi_restore w23
	.cfi_restore w24
	.cfi_restore w25
	.cfi_restore w26
	.cfi_restore w27
	.cfi_restore w28
	.cfi_restore w30
	.cfi_restore w29
	ret
.Ldeerlapse_0_1_0_func_end30:
	.size	"deerlapse_0_1_0::deerlapse::key::deerlapse_key_seal", .Ldeerlapse_0_1_0_func_end30-"deerlapse_0_1_0::deerlapse::key::deerlapse_key_seal"
	.cfi_endproc
                                        // -- End function
	.section	.rodata.cst16,"aM",@progbits,16
	.p2align	4, 0x0                          // -- Begin function deerlapse::opener::deerlapse_0_1_0_opener_open_number
.Ldeerlapse_0_1_0_CPI31_0:
	.xword	-16                             // 0xfffffffffffffff0
	.xword	-24                             // 0xffffffffffffffe8
.Ldeerlapse_0_1_0_CPI31_1:
	.xword	0                               // 0x0
	.xword	-8                              // 0xfffffffffffffff8
.Ldeerlapse_0_1_0_CPI31_2:
	.xword	-48                             // 0xffffffffffffffd0
	.xword	-56                             // 0xffffffffffffffc8
.Ldeerlapse_0_1_0_CPI31_3:
	.xword	-32                             // 0xffffffffffffffe0
	.xword	-40                             // 0xffffffffffffffd8
	.section	.text.deerlapse_aes_gcm,"ax",@progbits
	.p2align	2
	.type	"deerlapse_0_1_0::deerlapse::opener::deerlapse_opener_open_number",@function
"deerlapse_0_1_0::deerlapse::opener::deerlapse_opener_open_number": // @"deerlapse_0_1_0::deerlapse::opener::deerlapse_opener_open_number"
	.cfi_startproc
// %bb.0:                               // %start
	sub	sp, sp, #208
	.cfi_def_cfa_offset 208
	stp	x29, x30, [sp, #144]            // 16-byte Folded Spill
	str	x23, [sp, #160]                 // 8-byte Spill
	stp	x22, x21, [sp, #176]            // 16-byte Folded Spill
	stp	x20, x19, [sp, #192]            // 16-byte Folded Spill
	add	x29, sp, #144
	.cfi_def_cfa w29, 64
	.cfi_offset w19, -8
	.cfi_offset w20, -16
	.cfi_offset w21, -24
	.cfi_offset w22, -32
	.cfi_offset w23, -48
	.cfi_offset w30, -56
	.cfi_offset w29, -64
	.cfi_remember_state
	rev	x8, x1
	adrp	x9, .Ldeerlapse_0_1_0_CPI31_0
	dup	v0.2d, x8
	adrp	x8, .Ldeerlapse_0_1_0_CPI31_1
	ldr	q1, [x9, :lo12:.Ldeerlapse_0_1_0_CPI31_0]
	ldr	q2, [x8, :lo12:.Ldeerlapse_0_1_0_CPI31_1]
	adrp	x8, .Ldeerlapse_0_1_0_CPI31_2
	adrp	x9, .Ldeerlapse_0_1_0_CPI31_3
	ldr	q3, [x8, :lo12:.Ldeerlapse_0_1_0_CPI31_2]
	ldr	q4, [x9, :lo12:.Ldeerlapse_0_1_0_CPI31_3]
	ldr	w8, [x0, #1920]
	ushl	v1.2d, v0.2d, v1.2d
	ushl	v2.2d, v0.2d, v2.2d
	ushl	v3.2d, v0.2d, v3.2d
	ushl	v0.2d, v0.2d, v4.2d
	ldr	s4, [x0, #3208]
	sub	w9, w8, #10
	uzp1	v1.4s, v2.4s, v1.4s
	ldr	s2, [x0, #3212]
	zip1	v4.8b, v4.8b, v4.8b
	uzp1	v0.4s, v0.4s, v3.4s
	ldr	s3, [x0, #3216]
	cmp	w9, #4
	zip1	v2.8b, v2.8b, v2.8b
	zip1	v3.8b, v3.8b, v3.8b
	xtn	v1.4h, v1.4s
	xtn	v0.4h, v0.4s
	eor	v1.8b, v2.8b, v1.8b
	eor	v0.8b, v3.8b, v0.8b
	uzp1	v1.8b, v4.8b, v1.8b
	uzp1	v0.8b, v0.8b, v0.8b
	str	d1, [sp, #24]
	str	s0, [sp, #32]
	b.hi	.Ldeerlapse_0_1_0_BB31_6
// %bb.1:                               // %join.3.i
	subs	x19, x5, #16
	b.lo	.Ldeerlapse_0_1_0_BB31_6
// %bb.2:                               // %arm.1.i.i
	subs	x9, x19, x6
	b.lo	.Ldeerlapse_0_1_0_BB31_6
// %bb.3:                               // %arm.8.i.i
	lsr	x10, x3, #61
	cbnz	x10, .Ldeerlapse_0_1_0_BB31_6
// %bb.4:                               // %arm.8.i.i
	mov	x10, #68719476704               // =0xfffffffe0
	cmp	x9, x10
	b.hi	.Ldeerlapse_0_1_0_BB31_6
// %bb.5:                               // %then.11.i.i
	add	x10, x0, #1928
	str	x8, [sp, #88]
	add	x8, x0, #2168
	stp	x0, x10, [sp, #72]
	add	x10, x0, #2680
	ldr	w11, [x0, #1924]
	stp	x8, x10, [sp, #56]
	add	x10, sp, #40
	ldr	q0, [x4, x19]
	mov	x8, x2
	stp	x9, x10, [sp]
	mov	x10, x6
	mov	x22, x7
	sub	x0, x29, #36
	add	x1, sp, #72
	add	x2, sp, #56
	mov	x5, x3
	add	x3, sp, #24
	sub	x6, x29, #16
	mov	x21, x4
	add	x7, x4, x10
	mov	x4, x8
	stp	w11, wzr, [sp, #96]
	mov	x20, x10
	stp	xzr, xzr, [sp, #40]
	sub	x23, x29, #36
	stur	q0, [x29, #-16]
	bl	"deerlapse_0_1_0::aead_ciphers::aes_gcm::opening::authenticate::<#7bfdf0a6b4753edd>"
	ldurb	w8, [x29, #-36]
	cbz	w8, .Ldeerlapse_0_1_0_BB31_7
.Ldeerlapse_0_1_0_BB31_6:
	mov	w0, wzr
	.cfi_def_cfa wsp, 208
	ldp	x20, x19, [sp, #192]            // 16-byte Folded Reload
	ldr	x23, [sp, #160]                 // 8-byte Reload
	ldp	x22, x21, [sp, #176]            // 16-byte Folded Reload
	ldp	x29, x30, [sp, #144]            // 16-byte Folded Reload
	add	sp, sp, #208
	.cfi_def_cfa_offset 0
	.cfi_restore w19
	.cfi_restore w20
	.cfi_restore w21
	.cfi_restore w22
	.cfi_restore w23
	.cfi_restore w30
	.cfi_restore w29
	ret
.Ldeerlapse_0_1_0_BB31_7:                               // %arm.4.i
	.cfi_restore_state
	add	x0, sp, #72
	orr	x1, x23, #0x1
	add	x5, sp, #40
	mov	x2, x21
	mov	x3, x19
	mov	x4, x20
	bl	"deerlapse_0_1_0::aead_ciphers::aes_gcm::counter_mode::encrypt_within::<#6fa349fe97f872a2>"
	mov	x8, x0
	mov	w0, #1                          // =0x1
	str	x8, [x22]
	.cfi_def_cfa wsp, 208
	ldp	x20, x19, [sp, #192]            // 16-byte Folded Reload
	ldr	x23, [sp, #160]                 // 8-byte Reload
	ldp	x22, x21, [sp, #176]            // 16-byte Folded Reload
	ldp	x29, x30, [sp, #144]            // 16-byte Folded Reload
	add	sp, sp, #208
	.cfi_def_cfa_offset 0
	.cfi_restore w19
	.cfi_restore w20
	.cfi_restore w21
	.cfi_restore w22
	.cfi_restore w23
	.cfi_restore w30
	.cfi_restore w29
	ret
.Ldeerlapse_0_1_0_func_end31:
	.size	"deerlapse_0_1_0::deerlapse::opener::deerlapse_opener_open_number", .Ldeerlapse_0_1_0_func_end31-"deerlapse_0_1_0::deerlapse::opener::deerlapse_opener_open_number"
	.cfi_endproc
                                        // -- End function
	.section	.rodata.cst8,"aM",@progbits,8
	.p2align	3, 0x0                          // -- Begin function deerlapse::xaes_key::expand_message_key
.Ldeerlapse_0_1_0_CPI32_0:
	.byte	0                               // 0x0
	.byte	1                               // 0x1
	.byte	88                              // 0x58
	.byte	0                               // 0x0
	.zero	1
	.zero	1
	.zero	1
	.zero	1
	.section	.text.deerlapse_aes_gcm,"ax",@progbits
	.p2align	2
	.type	"deerlapse_0_1_0::deerlapse::xaes_key::expand_message_key",@function
"deerlapse_0_1_0::deerlapse::xaes_key::expand_message_key": // @"deerlapse_0_1_0::deerlapse::xaes_key::expand_message_key"
	.cfi_startproc
// %bb.0:                               // %start
	sub	sp, sp, #176
	.cfi_def_cfa_offset 176
	stp	x29, x30, [sp, #128]            // 16-byte Folded Spill
	stp	x22, x21, [sp, #144]            // 16-byte Folded Spill
	stp	x20, x19, [sp, #160]            // 16-byte Folded Spill
	add	x29, sp, #128
	.cfi_def_cfa w29, 48
	.cfi_offset w19, -8
	.cfi_offset w20, -16
	.cfi_offset w21, -24
	.cfi_offset w22, -32
	.cfi_offset w30, -40
	.cfi_offset w29, -48
	.cfi_remember_state
	ldr	w8, [x1]
	mov	x19, x0
	cmp	w8, #14
	b.ne	.Ldeerlapse_0_1_0_BB32_2
// %bb.1:                               // %join.3
	adrp	x8, .Ldeerlapse_0_1_0_CPI32_0
	ldur	d0, [x2, #4]
	ldr	w9, [x2, #20]
	ldr	d1, [x8, :lo12:.Ldeerlapse_0_1_0_CPI32_0]
	ldur	x8, [x2, #12]
	mov	x20, x3
	ldrb	w22, [x1, #248]
	sub	x0, x29, #48
	mov	x21, x1
	mov	v1.d[1], v0.d[0]
	ldur	q0, [x1, #248]
	add	x1, x1, #8
	add	x3, sp, #48
	str	x8, [sp, #32]
	str	q0, [sp, #16]                   // 16-byte Spill
	str	w9, [sp, #40]
	ld1	{ v1.s }[1], [x2]
	mov	w2, #14                         // =0xe
	stp	xzr, xzr, [x29, #-48]
	eor	v0.16b, v0.16b, v1.16b
	str	q0, [sp]                        // 16-byte Spill
	str	q0, [sp, #48]
	bl	"deerlapse_0_1_0::aead_ciphers_wide::aes::block_key::BlockKeyRef::encrypt_one"
	ldp	q3, q2, [sp]                    // 32-byte Folded Reload
	sub	x0, x29, #16
	ldur	q1, [x29, #-48]
	add	x1, x21, #8
	sub	x3, x29, #32
	mov	w2, #14                         // =0xe
	sturb	w22, [x29, #-32]
	umov	w8, v3.b[12]
	umov	w9, v3.b[13]
	str	q1, [sp, #48]
	ext	v1.16b, v3.16b, v3.16b, #4
	stp	xzr, xzr, [x29, #-16]
	fmov	s0, w8
	umov	w8, v3.b[14]
	stur	d1, [x29, #-28]
	mov	v0.h[1], w9
	umov	w9, v3.b[15]
	mov	v0.h[2], w8
	umov	w8, v2.b[1]
	mov	v0.h[3], w9
	sub	x9, x29, #32
	eor	w8, w8, #0x2
	orr	x10, x9, #0x2
	orr	x9, x9, #0x3
	sturb	w8, [x29, #-31]
	st1	{ v3.b }[2], [x10]
	st1	{ v2.b }[3], [x9]
	xtn	v0.8b, v0.8h
	stur	s0, [x29, #-20]
	bl	"deerlapse_0_1_0::aead_ciphers_wide::aes::block_key::BlockKeyRef::encrypt_one"
	ldr	w8, [x21, #4]
	ldur	q0, [x29, #-16]
	add	x2, sp, #48
	sub	x4, x29, #16
	mov	x0, x20
	mov	w1, #1                          // =0x1
	cmp	w8, #256
	stur	q0, [x29, #-48]
	mov	w20, #1                         // =0x1
	cset	w3, eq
	str	q0, [sp, #64]
	stp	xzr, xzr, [x29, #-16]
	bl	"deerlapse_0_1_0::aead_ciphers_wide::aes_gcm::ExpandedKey::expand_with_width"
	ldr	x8, [sp, #32]
	ldr	w9, [sp, #40]
	stur	x8, [x19, #1]
	stur	w9, [x19, #9]
	strb	w20, [x19]
	.cfi_def_cfa wsp, 176
	ldp	x20, x19, [sp, #160]            // 16-byte Folded Reload
	ldp	x22, x21, [sp, #144]            // 16-byte Folded Reload
	ldp	x29, x30, [sp, #128]            // 16-byte Folded Reload
	add	sp, sp, #176
	.cfi_def_cfa_offset 0
	.cfi_restore w19
	.cfi_restore w20
	.cfi_restore w21
	.cfi_restore w22
	.cfi_restore w30
	.cfi_restore w29
	ret
.Ldeerlapse_0_1_0_BB32_2:                               // %then.1
	.cfi_restore_state
	stur	wzr, [x19, #9]
	stur	xzr, [x19, #1]
	strb	wzr, [x19]
	.cfi_def_cfa wsp, 176
	ldp	x20, x19, [sp, #160]            // 16-byte Folded Reload
	ldp	x22, x21, [sp, #144]            // 16-byte Folded Reload
	ldp	x29, x30, [sp, #128]            // 16-byte Folded Reload
	add	sp, sp, #176
	.cfi_def_cfa_offset 0
	.cfi_restore w19
	.cfi_restore w20
	.cfi_restore w21
	.cfi_restore w22
	.cfi_restore w30
	.cfi_restore w29
	ret
.Ldeerlapse_0_1_0_func_end32:
	.size	"deerlapse_0_1_0::deerlapse::xaes_key::expand_message_key", .Ldeerlapse_0_1_0_func_end32-"deerlapse_0_1_0::deerlapse::xaes_key::expand_message_key"
	.cfi_endproc
                                        // -- End function
	.section	.rodata.cst16,"aM",@progbits,16
	.p2align	4, 0x0                          // -- Begin function aead_ciphers_wide::aes_gcm::ExpandedKey::expand_with_width
.Ldeerlapse_0_1_0_CPI33_0:
	.byte	0                               // 0x0
	.byte	0                               // 0x0
	.byte	0                               // 0x0
	.byte	0                               // 0x0
	.byte	0                               // 0x0
	.byte	0                               // 0x0
	.byte	0                               // 0x0
	.byte	0                               // 0x0
	.byte	255                             // 0xff
	.byte	255                             // 0xff
	.byte	255                             // 0xff
	.byte	255                             // 0xff
	.byte	255                             // 0xff
	.byte	255                             // 0xff
	.byte	255                             // 0xff
	.byte	255                             // 0xff
.Ldeerlapse_0_1_0_CPI33_1:
	.xword	-16                             // 0xfffffffffffffff0
	.xword	-24                             // 0xffffffffffffffe8
.Ldeerlapse_0_1_0_CPI33_2:
	.xword	0                               // 0x0
	.xword	-8                              // 0xfffffffffffffff8
.Ldeerlapse_0_1_0_CPI33_3:
	.xword	-48                             // 0xffffffffffffffd0
	.xword	-56                             // 0xffffffffffffffc8
.Ldeerlapse_0_1_0_CPI33_4:
	.xword	-32                             // 0xffffffffffffffe0
	.xword	-40                             // 0xffffffffffffffd8
	.section	.text.deerlapse_aes_gcm,"ax",@progbits
	.p2align	2
	.type	"deerlapse_0_1_0::aead_ciphers_wide::aes_gcm::ExpandedKey::expand_with_width",@function
"deerlapse_0_1_0::aead_ciphers_wide::aes_gcm::ExpandedKey::expand_with_width": // @"deerlapse_0_1_0::aead_ciphers_wide::aes_gcm::ExpandedKey::expand_with_width"
	.cfi_startproc
// %bb.0:                               // %start
	sub	sp, sp, #112
	.cfi_def_cfa_offset 112
	stp	x29, x30, [sp, #64]             // 16-byte Folded Spill
	stp	x22, x21, [sp, #80]             // 16-byte Folded Spill
	stp	x20, x19, [sp, #96]             // 16-byte Folded Spill
	add	x29, sp, #64
	.cfi_def_cfa w29, 48
	.cfi_offset w19, -8
	.cfi_offset w20, -16
	.cfi_offset w21, -24
	.cfi_offset w22, -32
	.cfi_offset w30, -40
	.cfi_offset w29, -48
	mov	x19, x0
	add	x22, x0, #1928
	add	x0, x0, #1928
	mov	x20, x4
	mov	w21, w3
	bl	"deerlapse_0_1_0::aead_ciphers_wide::aes::expand"
	movi	v0.2d, #0000000000000000
	mov	x2, x0
	add	x8, x0, #1
	add	x9, x19, #64
	add	x10, x19, #1928
	str	q0, [x19, #1408]
	str	q0, [x19, #1424]
	str	q0, [x19, #1440]
	str	q0, [x19, #1456]
	str	q0, [x19, #1472]
	str	q0, [x19, #1488]
	str	q0, [x19, #1504]
	str	q0, [x19, #1520]
	str	q0, [x19, #1536]
	str	q0, [x19, #1552]
	str	q0, [x19, #1568]
	str	q0, [x19, #1584]
	str	q0, [x19, #1600]
	str	q0, [x19, #1616]
	str	q0, [x19, #1632]
	str	q0, [x19, #1648]
	str	q0, [x19, #1664]
	str	q0, [x19, #1680]
	str	q0, [x19, #1696]
	str	q0, [x19, #1712]
	str	q0, [x19, #1728]
	str	q0, [x19, #1744]
	str	q0, [x19, #1760]
	str	q0, [x19, #1776]
	str	q0, [x19, #1792]
	str	q0, [x19, #1808]
	str	q0, [x19, #1824]
	str	q0, [x19, #1840]
	str	q0, [x19, #1856]
	str	q0, [x19, #1872]
	str	q0, [x19, #1888]
	str	q0, [x19, #1904]
.Ldeerlapse_0_1_0_BB33_1:                               // %join.7.i
                                        // =>This Inner Loop Header: Depth=1
	movi	v4.16b, #15
	ldr	q0, [x10], #16
	movi	v1.2d, #0xff00ff00ff00ff00
	movi	v2.2d, #0xffff0000ffff0000
	adrp	x11, .Ldeerlapse_0_1_0_CPI33_0
	ushr	v3.16b, v0.16b, #4
	ldr	q7, [x11, :lo12:.Ldeerlapse_0_1_0_CPI33_0]
	subs	x8, x8, #1
	and	v0.16b, v0.16b, v4.16b
	movi	v4.2d, #0xffffffff00000000
	tbl	v5.16b, { v1.16b }, v3.16b
	tbl	v6.16b, { v2.16b }, v3.16b
	tbl	v1.16b, { v1.16b }, v0.16b
	tbl	v2.16b, { v2.16b }, v0.16b
	tbl	v16.16b, { v4.16b }, v0.16b
	tbl	v0.16b, { v7.16b }, v0.16b
	tbl	v4.16b, { v4.16b }, v3.16b
	stp	q5, q6, [x9]
	stp	q1, q2, [x9, #-64]
	tbl	v1.16b, { v7.16b }, v3.16b
	stp	q16, q0, [x9, #-32]
	stp	q4, q1, [x9, #32]
	add	x9, x9, #128
	b.ne	.Ldeerlapse_0_1_0_BB33_1
// %bb.2:                               // %"aead_ciphers_wide::aes::round_keys::write_planes.exit"
	tst	w21, #0x1
	mov	w8, #128                        // =0x80
	mov	w9, #256                        // =0x100
	csel	w8, w9, w8, ne
	str	w2, [x19, #1920]
	sub	x0, x29, #16
	str	w8, [x19, #1924]
	add	x1, x19, #1928
	add	x3, sp, #32
	ldr	x8, [x20]
	stp	xzr, xzr, [sp, #32]
	stp	xzr, xzr, [x29, #-16]
	add	x8, x8, #1
	str	x8, [x20]
	bl	"deerlapse_0_1_0::aead_ciphers_wide::aes::block_key::BlockKeyRef::encrypt_one"
	ldur	q0, [x29, #-16]
	add	x0, x22, #240
	dup	v1.2d, v0.d[1]
	mov	x8, v0.d[1]
	fmov	x9, d0
	str	q1, [sp, #16]                   // 16-byte Spill
	dup	v1.2d, v0.d[0]
	rev	x3, x9
	rev	x2, x8
	str	q1, [sp]                        // 16-byte Spill
	bl	"deerlapse_0_1_0::aead_ciphers_wide::gcm::product::write_products"
	adrp	x8, .Ldeerlapse_0_1_0_CPI33_1
	adrp	x9, .Ldeerlapse_0_1_0_CPI33_2
	ldr	q0, [x8, :lo12:.Ldeerlapse_0_1_0_CPI33_1]
	adrp	x8, .Ldeerlapse_0_1_0_CPI33_3
	ldr	q1, [x9, :lo12:.Ldeerlapse_0_1_0_CPI33_2]
	adrp	x9, .Ldeerlapse_0_1_0_CPI33_4
	ldp	q17, q16, [sp]                  // 32-byte Folded Reload
	ldr	q2, [x8, :lo12:.Ldeerlapse_0_1_0_CPI33_3]
	ldr	q3, [x9, :lo12:.Ldeerlapse_0_1_0_CPI33_4]
	ushl	v4.2d, v17.2d, v0.2d
	ushl	v5.2d, v17.2d, v1.2d
	ushl	v6.2d, v17.2d, v2.2d
	ushl	v2.2d, v16.2d, v2.2d
	ushl	v7.2d, v16.2d, v3.2d
	ushl	v3.2d, v17.2d, v3.2d
	ushl	v0.2d, v16.2d, v0.2d
	ushl	v1.2d, v16.2d, v1.2d
	uzp1	v2.4s, v7.4s, v2.4s
	ldp	q16, q7, [x22, #432]
	uzp1	v0.4s, v1.4s, v0.4s
	uzp1	v1.4s, v3.4s, v6.4s
	uzp1	v3.4s, v5.4s, v4.4s
	uzp1	v0.8h, v0.8h, v2.8h
	uzp1	v1.8h, v3.8h, v1.8h
	movi	v2.16b, #15
	ldp	q4, q3, [x22, #464]
	uzp1	v0.16b, v1.16b, v0.16b
	ushr	v1.16b, v0.16b, #4
	and	v0.16b, v0.16b, v2.16b
	ldp	q5, q2, [x22, #720]
	tbl	v3.16b, { v3.16b }, v1.16b
	tbl	v4.16b, { v4.16b }, v1.16b
	tbl	v7.16b, { v7.16b }, v1.16b
	tbl	v6.16b, { v2.16b }, v0.16b
	movi	v2.2d, #0000000000000000
	tbl	v5.16b, { v5.16b }, v0.16b
	eor	v3.16b, v6.16b, v3.16b
	eor	v4.16b, v4.16b, v5.16b
	ldp	q17, q5, [x22, #688]
	ext	v6.16b, v2.16b, v3.16b, #15
	ext	v3.16b, v3.16b, v2.16b, #15
	tbl	v5.16b, { v5.16b }, v0.16b
	eor	v4.16b, v4.16b, v6.16b
	eor	v5.16b, v7.16b, v5.16b
	tbl	v7.16b, { v16.16b }, v1.16b
	tbl	v16.16b, { v17.16b }, v0.16b
	ldp	q18, q17, [x22, #400]
	ext	v6.16b, v2.16b, v4.16b, #15
	ext	v3.16b, v4.16b, v3.16b, #15
	eor	v7.16b, v7.16b, v16.16b
	ldp	q19, q16, [x22, #656]
	tbl	v17.16b, { v17.16b }, v1.16b
	eor	v5.16b, v5.16b, v6.16b
	tbl	v16.16b, { v16.16b }, v0.16b
	ext	v6.16b, v2.16b, v5.16b, #15
	ext	v3.16b, v5.16b, v3.16b, #15
	eor	v16.16b, v17.16b, v16.16b
	tbl	v17.16b, { v18.16b }, v1.16b
	tbl	v18.16b, { v19.16b }, v0.16b
	ldp	q20, q19, [x22, #368]
	eor	v7.16b, v7.16b, v6.16b
	eor	v17.16b, v17.16b, v18.16b
	ldp	q21, q18, [x22, #624]
	ext	v6.16b, v2.16b, v7.16b, #15
	tbl	v19.16b, { v19.16b }, v1.16b
	ext	v3.16b, v7.16b, v3.16b, #15
	tbl	v18.16b, { v18.16b }, v0.16b
	eor	v6.16b, v16.16b, v6.16b
	eor	v18.16b, v19.16b, v18.16b
	tbl	v19.16b, { v20.16b }, v1.16b
	tbl	v20.16b, { v21.16b }, v0.16b
	ext	v16.16b, v2.16b, v6.16b, #15
	ldp	q22, q21, [x22, #336]
	ext	v3.16b, v6.16b, v3.16b, #15
	eor	v19.16b, v19.16b, v20.16b
	tbl	v21.16b, { v21.16b }, v1.16b
	tbl	v5.16b, { v22.16b }, v1.16b
	eor	v16.16b, v17.16b, v16.16b
	ext	v17.16b, v2.16b, v16.16b, #15
	ext	v3.16b, v16.16b, v3.16b, #15
	eor	v17.16b, v18.16b, v17.16b
	ext	v18.16b, v2.16b, v17.16b, #15
	ext	v3.16b, v17.16b, v3.16b, #15
	eor	v18.16b, v19.16b, v18.16b
	ldp	q19, q20, [x22, #592]
	tbl	v20.16b, { v20.16b }, v0.16b
	ext	v4.16b, v2.16b, v18.16b, #15
	tbl	v19.16b, { v19.16b }, v0.16b
	ext	v3.16b, v18.16b, v3.16b, #15
	eor	v20.16b, v21.16b, v20.16b
	eor	v5.16b, v5.16b, v19.16b
	ldp	q6, q19, [x22, #560]
	eor	v4.16b, v20.16b, v4.16b
	ldp	q21, q20, [x22, #304]
	tbl	v19.16b, { v19.16b }, v0.16b
	tbl	v6.16b, { v6.16b }, v0.16b
	ext	v7.16b, v2.16b, v4.16b, #15
	tbl	v20.16b, { v20.16b }, v1.16b
	tbl	v16.16b, { v21.16b }, v1.16b
	ext	v3.16b, v4.16b, v3.16b, #15
	eor	v5.16b, v5.16b, v7.16b
	eor	v19.16b, v20.16b, v19.16b
	eor	v6.16b, v16.16b, v6.16b
	ext	v7.16b, v2.16b, v5.16b, #15
	ext	v3.16b, v5.16b, v3.16b, #15
	eor	v7.16b, v19.16b, v7.16b
	ldp	q19, q18, [x22, #272]
	ext	v17.16b, v2.16b, v7.16b, #15
	tbl	v18.16b, { v18.16b }, v1.16b
	tbl	v5.16b, { v19.16b }, v1.16b
	ext	v3.16b, v7.16b, v3.16b, #15
	eor	v6.16b, v6.16b, v17.16b
	ldp	q17, q16, [x22, #528]
	tbl	v16.16b, { v16.16b }, v0.16b
	ext	v4.16b, v2.16b, v6.16b, #15
	tbl	v17.16b, { v17.16b }, v0.16b
	ext	v3.16b, v6.16b, v3.16b, #15
	eor	v16.16b, v18.16b, v16.16b
	eor	v5.16b, v5.16b, v17.16b
	ldp	q17, q6, [x22, #240]
	eor	v4.16b, v16.16b, v4.16b
	tbl	v6.16b, { v6.16b }, v1.16b
	tbl	v1.16b, { v17.16b }, v1.16b
	ext	v7.16b, v2.16b, v4.16b, #15
	ext	v3.16b, v4.16b, v3.16b, #15
	eor	v5.16b, v5.16b, v7.16b
	ldp	q7, q16, [x22, #496]
	tbl	v16.16b, { v16.16b }, v0.16b
	ext	v4.16b, v2.16b, v5.16b, #15
	ext	v3.16b, v5.16b, v3.16b, #15
	tbl	v0.16b, { v7.16b }, v0.16b
	eor	v6.16b, v6.16b, v16.16b
	eor	v4.16b, v6.16b, v4.16b
	ext	v3.16b, v4.16b, v3.16b, #15
	ext	v4.16b, v2.16b, v4.16b, #15
	ext	v2.16b, v2.16b, v3.16b, #15
	ushr	v5.16b, v3.16b, #1
	eor	v1.16b, v1.16b, v4.16b
	eor	v1.16b, v1.16b, v5.16b
	add	v4.16b, v2.16b, v2.16b
	eor	v0.16b, v1.16b, v0.16b
	eor	v2.16b, v4.16b, v2.16b
	usra	v4.16b, v3.16b, #7
	shl	v1.16b, v2.16b, #6
	eor	v0.16b, v0.16b, v4.16b
	usra	v1.16b, v3.16b, #2
	eor	v0.16b, v0.16b, v3.16b
	eor	v0.16b, v0.16b, v1.16b
	mov	x8, v0.d[1]
	fmov	x9, d0
	rev	x3, x9
	rev	x2, x8
	add	x0, x19, #2680
	.cfi_def_cfa wsp, 112
	ldp	x20, x19, [sp, #96]             // 16-byte Folded Reload
	ldp	x22, x21, [sp, #80]             // 16-byte Folded Reload
	ldp	x29, x30, [sp, #64]             // 16-byte Folded Reload
	add	sp, sp, #112
	.cfi_def_cfa_offset 0
	.cfi_restore w19
	.cfi_restore w20
	.cfi_restore w21
	.cfi_restore w22
	.cfi_restore w30
	.cfi_restore w29
	b	"deerlapse_0_1_0::aead_ciphers_wide::gcm::product::write_products"
.Ldeerlapse_0_1_0_func_end33:
	.size	"deerlapse_0_1_0::aead_ciphers_wide::aes_gcm::ExpandedKey::expand_with_width", .Ldeerlapse_0_1_0_func_end33-"deerlapse_0_1_0::aead_ciphers_wide::aes_gcm::ExpandedKey::expand_with_width"
	.cfi_endproc
                                        // -- End function
	.section	.rodata.cst16,"aM",@progbits,16
	.p2align	4, 0x0                          // -- Begin function aead_ciphers_wide::gcm::product::write_products
.Ldeerlapse_0_1_0_CPI34_0:
	.byte	0                               // 0x0
	.byte	0                               // 0x0
	.byte	0                               // 0x0
	.byte	0                               // 0x0
	.byte	1                               // 0x1
	.byte	1                               // 0x1
	.byte	1                               // 0x1
	.byte	1                               // 0x1
	.byte	2                               // 0x2
	.byte	2                               // 0x2
	.byte	2                               // 0x2
	.byte	2                               // 0x2
	.byte	3                               // 0x3
	.byte	3                               // 0x3
	.byte	3                               // 0x3
	.byte	3                               // 0x3
.Ldeerlapse_0_1_0_CPI34_1:
	.byte	4                               // 0x4
	.byte	4                               // 0x4
	.byte	4                               // 0x4
	.byte	4                               // 0x4
	.byte	5                               // 0x5
	.byte	5                               // 0x5
	.byte	5                               // 0x5
	.byte	5                               // 0x5
	.byte	6                               // 0x6
	.byte	6                               // 0x6
	.byte	6                               // 0x6
	.byte	6                               // 0x6
	.byte	7                               // 0x7
	.byte	7                               // 0x7
	.byte	7                               // 0x7
	.byte	7                               // 0x7
.Ldeerlapse_0_1_0_CPI34_2:
	.byte	8                               // 0x8
	.byte	8                               // 0x8
	.byte	8                               // 0x8
	.byte	8                               // 0x8
	.byte	9                               // 0x9
	.byte	9                               // 0x9
	.byte	9                               // 0x9
	.byte	9                               // 0x9
	.byte	10                              // 0xa
	.byte	10                              // 0xa
	.byte	10                              // 0xa
	.byte	10                              // 0xa
	.byte	11                              // 0xb
	.byte	11                              // 0xb
	.byte	11                              // 0xb
	.byte	11                              // 0xb
.Ldeerlapse_0_1_0_CPI34_3:
	.byte	12                              // 0xc
	.byte	12                              // 0xc
	.byte	12                              // 0xc
	.byte	12                              // 0xc
	.byte	13                              // 0xd
	.byte	13                              // 0xd
	.byte	13                              // 0xd
	.byte	13                              // 0xd
	.byte	14                              // 0xe
	.byte	14                              // 0xe
	.byte	14                              // 0xe
	.byte	14                              // 0xe
	.byte	15                              // 0xf
	.byte	15                              // 0xf
	.byte	15                              // 0xf
	.byte	15                              // 0xf
	.section	.text.deerlapse_aes_gcm,"ax",@progbits
	.p2align	2
	.type	"deerlapse_0_1_0::aead_ciphers_wide::gcm::product::write_products",@function
"deerlapse_0_1_0::aead_ciphers_wide::gcm::product::write_products": // @"deerlapse_0_1_0::aead_ciphers_wide::gcm::product::write_products"
	.cfi_startproc
// %bb.0:                               // %start
	stp	d11, d10, [sp, #-32]!           // 16-byte Folded Spill
	.cfi_def_cfa_offset 32
	stp	d9, d8, [sp, #16]               // 16-byte Folded Spill
	.cfi_offset b8, -8
	.cfi_offset b9, -16
	.cfi_offset b10, -24
	.cfi_offset b11, -32
	sbfx	x9, x2, #0, #1
	mov	x8, #-2233785415175766016       // =0xe100000000000000
	lsr	x10, x3, #1
	lsl	x11, x2, #62
	extr	x12, x3, x2, #1
	lsl	x14, x2, #61
	and	x9, x9, x8
	rev	x16, x3
	rev	x15, x2
	eor	x9, x9, x10
	and	x11, x8, x11, asr #63
	fmov	d0, x16
	lsr	x13, x9, #1
	extr	x16, x10, x12, #1
	rev	x10, x9
	fmov	d1, x10
	rev	x12, x12
	movi	v4.2d, #0000000000000000
	eor	x17, x13, x11
	and	x11, x8, x14, asr #63
	extr	x10, x13, x16, #1
	lsr	x9, x17, #1
	rev	x13, x17
	mov	v0.d[1], x15
	fmov	d5, x13
	mov	v1.d[1], x12
	rev	x12, x16
	eor	x11, x9, x11
	rev	x13, x10
	adrp	x15, .Ldeerlapse_0_1_0_CPI34_3
	rev	x14, x11
	lsr	x11, x11, #1
	extr	x9, x9, x10, #1
	fmov	d6, x14
	mov	v5.d[1], x12
	adrp	x12, .Ldeerlapse_0_1_0_CPI34_0
	eor	v2.16b, v1.16b, v0.16b
	zip1	v7.16b, v4.16b, v1.16b
	zip2	v20.16b, v4.16b, v1.16b
	adrp	x14, .Ldeerlapse_0_1_0_CPI34_2
	mov	v6.d[1], x13
	adrp	x13, .Ldeerlapse_0_1_0_CPI34_1
	ldr	q1, [x14, :lo12:.Ldeerlapse_0_1_0_CPI34_2]
	zip1	v17.16b, v0.16b, v2.16b
	zip2	v21.16b, v0.16b, v2.16b
	ldr	q2, [x12, :lo12:.Ldeerlapse_0_1_0_CPI34_0]
	lsl	x12, x2, #60
	ldr	q3, [x13, :lo12:.Ldeerlapse_0_1_0_CPI34_1]
	ldr	q0, [x15, :lo12:.Ldeerlapse_0_1_0_CPI34_3]
	lsl	x13, x2, #59
	lsl	x15, x2, #58
	eor	v16.16b, v6.16b, v5.16b
	zip1	v18.16b, v4.16b, v6.16b
	and	x12, x8, x12, asr #63
	zip1	v22.8h, v7.8h, v17.8h
	zip2	v7.8h, v7.8h, v17.8h
	zip2	v17.16b, v4.16b, v6.16b
	zip1	v23.8h, v20.8h, v21.8h
	zip2	v6.8h, v20.8h, v21.8h
	eor	x12, x11, x12
	zip1	v19.16b, v5.16b, v16.16b
	zip2	v5.16b, v5.16b, v16.16b
	lsr	x14, x12, #1
	and	x13, x8, x13, asr #63
	and	x15, x8, x15, asr #63
	extr	x11, x11, x9, #1
	tbl	v20.16b, { v22.16b }, v2.16b
	tbl	v21.16b, { v22.16b }, v3.16b
	tbl	v24.16b, { v22.16b }, v1.16b
	tbl	v22.16b, { v22.16b }, v0.16b
	tbl	v30.16b, { v23.16b }, v3.16b
	eor	x10, x14, x13
	zip1	v16.8h, v18.8h, v19.8h
	zip1	v31.8h, v17.8h, v5.8h
	zip2	v18.8h, v18.8h, v19.8h
	lsl	x13, x2, #57
	lsr	x16, x10, #1
	rev	x10, x10
	tbl	v25.16b, { v7.16b }, v2.16b
	tbl	v26.16b, { v7.16b }, v3.16b
	tbl	v27.16b, { v7.16b }, v1.16b
	and	x8, x8, x13, asr #63
	tbl	v7.16b, { v7.16b }, v0.16b
	tbl	v28.16b, { v23.16b }, v2.16b
	dup	v19.4s, v16.s[0]
	dup	v29.4s, v16.s[1]
	dup	v8.4s, v16.s[2]
	dup	v16.4s, v16.s[3]
	eor	x13, x16, x15
	zip2	v5.8h, v17.8h, v5.8h
	dup	v17.4s, v18.s[0]
	dup	v11.4s, v18.s[3]
	eor	x8, x8, x13, lsr #1
	eor	v9.16b, v19.16b, v20.16b
	eor	v29.16b, v29.16b, v21.16b
	dup	v20.4s, v18.s[1]
	eor	v19.16b, v16.16b, v22.16b
	dup	v16.4s, v31.s[1]
	eor	v24.16b, v8.16b, v24.16b
	dup	v8.4s, v31.s[0]
	extr	x14, x14, x11, #1
	rev	x12, x12
	rev	x11, x11
	stp	q9, q29, [x0]
	fmov	d29, x12
	eor	v16.16b, v16.16b, v30.16b
	fmov	d30, x10
	rev	x8, x8
	eor	v21.16b, v17.16b, v25.16b
	eor	v20.16b, v20.16b, v26.16b
	eor	v17.16b, v11.16b, v7.16b
	eor	v7.16b, v8.16b, v28.16b
	dup	v25.4s, v31.s[2]
	dup	v26.4s, v31.s[3]
	mov	v30.d[1], x11
	rev	x11, x13
	extr	x10, x16, x14, #1
	fmov	d31, x11
	fmov	d8, x8
	dup	v10.4s, v18.s[2]
	rev	x9, x9
	rev	x10, x10
	tbl	v22.16b, { v23.16b }, v1.16b
	mov	v29.d[1], x9
	rev	x9, x14
	tbl	v23.16b, { v23.16b }, v0.16b
	mov	v31.d[1], x9
	mov	v8.d[1], x10
	eor	v18.16b, v10.16b, v27.16b
	tbl	v27.16b, { v6.16b }, v2.16b
	dup	v28.4s, v5.s[0]
	stp	q24, q19, [x0, #32]
	stp	q21, q20, [x0, #64]
	eor	v22.16b, v25.16b, v22.16b
	tbl	v24.16b, { v6.16b }, v3.16b
	eor	v20.16b, v30.16b, v29.16b
	stp	q18, q17, [x0, #96]
	zip1	v17.16b, v4.16b, v30.16b
	eor	v18.16b, v8.16b, v31.16b
	eor	v23.16b, v26.16b, v23.16b
	tbl	v25.16b, { v6.16b }, v1.16b
	eor	v19.16b, v28.16b, v27.16b
	tbl	v6.16b, { v6.16b }, v0.16b
	stp	q7, q16, [x0, #128]
	zip1	v27.16b, v29.16b, v20.16b
	zip1	v7.16b, v4.16b, v8.16b
	dup	v21.4s, v5.s[1]
	zip1	v16.16b, v31.16b, v18.16b
	dup	v26.4s, v5.s[2]
	dup	v5.4s, v5.s[3]
	stp	q22, q23, [x0, #160]
	zip2	v20.16b, v29.16b, v20.16b
	zip2	v28.16b, v4.16b, v30.16b
	eor	v21.16b, v21.16b, v24.16b
	zip2	v4.16b, v4.16b, v8.16b
	zip2	v18.16b, v31.16b, v18.16b
	zip1	v23.8h, v17.8h, v27.8h
	eor	v22.16b, v26.16b, v25.16b
	eor	v6.16b, v5.16b, v6.16b
	zip1	v24.8h, v7.8h, v16.8h
	zip2	v17.8h, v17.8h, v27.8h
	stp	q19, q21, [x0, #192]
	zip1	v5.8h, v28.8h, v20.8h
	zip2	v20.8h, v28.8h, v20.8h
	stp	q22, q6, [x0, #224]
	zip2	v6.8h, v7.8h, v16.8h
	zip1	v30.8h, v4.8h, v18.8h
	tbl	v7.16b, { v23.16b }, v2.16b
	tbl	v19.16b, { v23.16b }, v3.16b
	tbl	v22.16b, { v23.16b }, v1.16b
	tbl	v23.16b, { v23.16b }, v0.16b
	dup	v16.4s, v24.s[0]
	dup	v21.4s, v24.s[1]
	dup	v25.4s, v24.s[2]
	dup	v24.4s, v24.s[3]
	tbl	v26.16b, { v17.16b }, v2.16b
	tbl	v27.16b, { v17.16b }, v3.16b
	dup	v28.4s, v6.s[0]
	dup	v29.4s, v6.s[1]
	eor	v7.16b, v16.16b, v7.16b
	eor	v16.16b, v21.16b, v19.16b
	zip2	v4.8h, v4.8h, v18.8h
	eor	v19.16b, v24.16b, v23.16b
	tbl	v23.16b, { v17.16b }, v1.16b
	tbl	v17.16b, { v17.16b }, v0.16b
	dup	v24.4s, v6.s[2]
	dup	v6.4s, v6.s[3]
	eor	v18.16b, v25.16b, v22.16b
	stp	q7, q16, [x0, #256]
	eor	v22.16b, v29.16b, v27.16b
	tbl	v25.16b, { v5.16b }, v2.16b
	tbl	v27.16b, { v5.16b }, v3.16b
	tbl	v29.16b, { v5.16b }, v1.16b
	tbl	v5.16b, { v5.16b }, v0.16b
	eor	v16.16b, v24.16b, v23.16b
	eor	v6.16b, v6.16b, v17.16b
	tbl	v2.16b, { v20.16b }, v2.16b
	tbl	v3.16b, { v20.16b }, v3.16b
	tbl	v1.16b, { v20.16b }, v1.16b
	tbl	v0.16b, { v20.16b }, v0.16b
	eor	v21.16b, v28.16b, v26.16b
	dup	v26.4s, v30.s[0]
	dup	v28.4s, v30.s[1]
	dup	v7.4s, v30.s[2]
	dup	v23.4s, v30.s[3]
	stp	q18, q19, [x0, #288]
	dup	v19.4s, v4.s[0]
	stp	q16, q6, [x0, #352]
	dup	v16.4s, v4.s[1]
	dup	v6.4s, v4.s[2]
	dup	v4.4s, v4.s[3]
	eor	v17.16b, v26.16b, v25.16b
	eor	v18.16b, v28.16b, v27.16b
	eor	v7.16b, v7.16b, v29.16b
	eor	v5.16b, v23.16b, v5.16b
	eor	v2.16b, v19.16b, v2.16b
	eor	v3.16b, v16.16b, v3.16b
	stp	q21, q22, [x0, #320]
	eor	v1.16b, v6.16b, v1.16b
	eor	v0.16b, v4.16b, v0.16b
	ldp	d9, d8, [sp, #16]               // 16-byte Folded Reload
	stp	q17, q18, [x0, #384]
	stp	q7, q5, [x0, #416]
	stp	q2, q3, [x0, #448]
	stp	q1, q0, [x0, #480]
	ldp	d11, d10, [sp], #32             // 16-byte Folded Reload
	.cfi_def_cfa_offset 0
	.cfi_restore b8
	.cfi_restore b9
	.cfi_restore b10
	.cfi_restore b11
	ret
.Ldeerlapse_0_1_0_func_end34:
	.size	"deerlapse_0_1_0::aead_ciphers_wide::gcm::product::write_products", .Ldeerlapse_0_1_0_func_end34-"deerlapse_0_1_0::aead_ciphers_wide::gcm::product::write_products"
	.cfi_endproc
                                        // -- End function
	.section	.text.deerlapse_key_derivation,"ax",@progbits
	.p2align	2                               // -- Begin function key_derivation::hkdf::Expander::fill_okm::<#01e4f4eb65b1d8bb>
	.type	"deerlapse_0_1_0::key_derivation::hkdf::Expander::fill_okm::<#01e4f4eb65b1d8bb>",@function
"deerlapse_0_1_0::key_derivation::hkdf::Expander::fill_okm::<#01e4f4eb65b1d8bb>": // @"deerlapse_0_1_0::key_derivation::hkdf::Expander::fill_okm::<#01e4f4eb65b1d8bb>"
	.cfi_startproc
// %bb.0:                               // %start
	add	x8, x3, #47
	cmp	x8, #48
	b.lo	.Ldeerlapse_0_1_0_BB35_4
// %bb.1:                               // %join.7.lr.ph
	stp	x29, x30, [sp, #-96]!           // 16-byte Folded Spill
	.cfi_def_cfa_offset 96
	stp	x28, x27, [sp, #16]             // 16-byte Folded Spill
	stp	x26, x25, [sp, #32]             // 16-byte Folded Spill
	stp	x24, x23, [sp, #48]             // 16-byte Folded Spill
	stp	x22, x21, [sp, #64]             // 16-byte Folded Spill
	stp	x20, x19, [sp, #80]             // 16-byte Folded Spill
	mov	x29, sp
	.cfi_def_cfa w29, 96
	.cfi_offset w19, -8
	.cfi_offset w20, -16
	.cfi_offset w21, -24
	.cfi_offset w22, -32
	.cfi_offset w23, -40
	.cfi_offset w24, -48
	.cfi_offset w25, -56
	.cfi_offset w26, -64
	.cfi_offset w27, -72
	.cfi_offset w28, -80
	.cfi_offset w30, -88
	.cfi_offset w29, -96
	sub	sp, sp, #1360
	mov	x9, #-6148914691236517206       // =0xaaaaaaaaaaaaaaaa
	mov	x19, x3
	mov	x20, x2
	movk	x9, #43691
	mov	x21, x1
	mov	x22, x0
	umulh	x8, x8, x9
	mov	x25, xzr
	add	x23, sp, #480
	mov	w28, #1                         // =0x1
	str	xzr, [sp]
	lsr	x8, x8, #5
.Ldeerlapse_0_1_0_BB35_2:                               // %join.7
                                        // =>This Inner Loop Header: Depth=1
	ldp	q0, q1, [x22]
	add	x1, x22, #64
	str	x8, [sp, #16]                   // 8-byte Spill
	add	x8, sp, #944
	mov	w2, #128                        // =0x80
	add	x0, x8, #64
	stp	xzr, xzr, [x23, #256]
	mov	x26, x25
	stp	q0, q1, [x23, #464]
	ldp	q2, q0, [x22, #32]
	str	xzr, [x23, #664]
	str	xzr, [x23, #656]
	stp	q2, q0, [x23, #496]
	bl	memcpy
	ldp	x8, x27, [x22, #192]
	sub	x24, x29, #224
	add	x0, x24, #15
	add	x1, sp, #944
	mov	w2, #192                        // =0xc0
	str	x8, [sp, #8]                    // 8-byte Spill
	bl	memcpy
	add	x25, sp, #736
	add	x1, x24, #15
	mov	w2, #192                        // =0xc0
	add	x0, x25, #15
	bl	memcpy
	add	x0, sp, #288
	add	x1, x25, #15
	mov	w2, #192                        // =0xc0
	bl	memcpy
	add	x0, sp, #528
	add	x1, sp, #288
	mov	w2, #192                        // =0xc0
	bl	memcpy
	subs	x8, x26, #48
	ldr	x9, [sp, #8]                    // 8-byte Reload
	add	x0, sp, #528
	csel	x8, xzr, x8, lo
	sub	x2, x26, x8
	add	x1, x20, x8
	stp	x9, x27, [x23, #240]
	bl	"deerlapse_0_1_0::sha2::block512::Core512::update"
	sub	x0, x29, #224
	add	x1, sp, #528
	mov	w2, #208                        // =0xd0
	bl	memcpy
	ldp	x1, x2, [x21]
	sub	x0, x29, #224
	bl	"deerlapse_0_1_0::sha2::block512::Core512::update"
	add	x0, sp, #80
	sub	x1, x29, #224
	mov	w2, #208                        // =0xd0
	bl	memcpy
	add	x0, sp, #528
	add	x1, sp, #80
	mov	w2, #208                        // =0xd0
	bl	memcpy
	add	x0, sp, #528
	add	x1, sp, #76
	mov	w2, #1                          // =0x1
	strb	w28, [sp, #76]
	bl	"deerlapse_0_1_0::sha2::block512::Core512::update"
	add	x0, sp, #28
	add	x2, sp, #528
	mov	x1, x22
	bl	"deerlapse_0_1_0::key_derivation::hmac::HmacKey::finish::<#01e4f4eb65b1d8bb>"
	sub	x8, x19, x26
	ldur	q0, [sp, #28]
	ldur	q1, [sp, #44]
	ldur	q2, [sp, #60]
	mov	w9, #48                         // =0x30
	cmp	x8, #48
	csel	x2, x8, x9, lo
	add	x0, x20, x26
	add	x1, sp, #480
	stp	q0, q1, [x23]
	add	x25, x2, x26
	str	q2, [x23, #32]
	bl	memcpy
	ldr	x8, [sp, #16]                   // 8-byte Reload
	add	x28, x28, #1
	subs	x8, x8, #1
	b.ne	.Ldeerlapse_0_1_0_BB35_2
// %bb.3:
	add	sp, sp, #1360
	.cfi_def_cfa wsp, 96
	ldp	x20, x19, [sp, #80]             // 16-byte Folded Reload
	ldp	x22, x21, [sp, #64]             // 16-byte Folded Reload
	ldp	x24, x23, [sp, #48]             // 16-byte Folded Reload
	ldp	x26, x25, [sp, #32]             // 16-byte Folded Reload
	ldp	x28, x27, [sp, #16]             // 16-byte Folded Reload
	ldp	x29, x30, [sp], #96             // 16-byte Folded Reload
	.cfi_def_cfa_offset 0
	.cfi_restore w19
	.cfi_restore w20
	.cfi_restore w21
	.cfi_restore w22
	.cfi_restore w23
	.cfi_restore w24
	.cfi_restore w25
	.cfi_restore w26
	.cfi_restore w27
	.cfi_restore w28
	.cfi_restore w30
	.cfi_restore w29
.Ldeerlapse_0_1_0_BB35_4:                               // %after.3
	ret
.Ldeerlapse_0_1_0_func_end35:
	.size	"deerlapse_0_1_0::key_derivation::hkdf::Expander::fill_okm::<#01e4f4eb65b1d8bb>", .Ldeerlapse_0_1_0_func_end35-"deerlapse_0_1_0::key_derivation::hkdf::Expander::fill_okm::<#01e4f4eb65b1d8bb>"
	.cfi_endproc
                                        // -- End function
	.section	.text.deerlapse_key_derivation,"ax",@progbits
	.p2align	2                               // -- Begin function key_derivation::hkdf::Expander::fill_labeled::<#01e4f4eb65b1d8bb>
	.type	"deerlapse_0_1_0::key_derivation::hkdf::Expander::fill_labeled::<#01e4f4eb65b1d8bb>",@function
"deerlapse_0_1_0::key_derivation::hkdf::Expander::fill_labeled::<#01e4f4eb65b1d8bb>": // @"deerlapse_0_1_0::key_derivation::hkdf::Expander::fill_labeled::<#01e4f4eb65b1d8bb>"
	.cfi_startproc
// %bb.0:                               // %start
	stp	x29, x30, [sp, #-96]!           // 16-byte Folded Spill
	.cfi_def_cfa_offset 96
	str	x28, [sp, #16]                  // 8-byte Spill
	stp	x26, x25, [sp, #32]             // 16-byte Folded Spill
	stp	x24, x23, [sp, #48]             // 16-byte Folded Spill
	stp	x22, x21, [sp, #64]             // 16-byte Folded Spill
	stp	x20, x19, [sp, #80]             // 16-byte Folded Spill
	mov	x29, sp
	.cfi_def_cfa w29, 96
	.cfi_offset w19, -8
	.cfi_offset w20, -16
	.cfi_offset w21, -24
	.cfi_offset w22, -32
	.cfi_offset w23, -40
	.cfi_offset w24, -48
	.cfi_offset w25, -56
	.cfi_offset w26, -64
	.cfi_offset w28, -80
	.cfi_offset w30, -88
	.cfi_offset w29, -96
	sub	sp, sp, #544
	add	x26, sp, #30
	mov	x23, x2
	mov	x24, x1
	mov	x25, x0
	add	x0, x26, #3
	mov	w1, wzr
	mov	w2, #511                        // =0x1ff
	mov	x19, x6
	mov	x20, x5
	mov	x21, x4
	mov	x22, x3
	bl	memset
	add	x0, sp, #30
	mov	x1, x24
	mov	x2, x23
	mov	x3, x22
	mov	x4, x21
	mov	w5, w19
	bl	"deerlapse_0_1_0::key_derivation::hkdf::write_hkdf_label"
	stp	x26, x0, [sp, #8]
	add	x1, sp, #8
	mov	x0, x25
	mov	x2, x20
	mov	x3, x19
	bl	"deerlapse_0_1_0::key_derivation::hkdf::Expander::fill_okm::<#01e4f4eb65b1d8bb>"
	add	sp, sp, #544
	.cfi_def_cfa wsp, 96
	ldp	x20, x19, [sp, #80]             // 16-byte Folded Reload
	ldr	x28, [sp, #16]                  // 8-byte Reload
	ldp	x22, x21, [sp, #64]             // 16-byte Folded Reload
	ldp	x24, x23, [sp, #48]             // 16-byte Folded Reload
	ldp	x26, x25, [sp, #32]             // 16-byte Folded Reload
	ldp	x29, x30, [sp], #96             // 16-byte Folded Reload
	.cfi_def_cfa_offset 0
	.cfi_restore w19
	.cfi_restore w20
	.cfi_restore w21
	.cfi_restore w22
	.cfi_restore w23
	.cfi_restore w24
	.cfi_restore w25
	.cfi_restore w26
	.cfi_restore w28
	.cfi_restore w30
	.cfi_restore w29
	ret
.Ldeerlapse_0_1_0_func_end36:
	.size	"deerlapse_0_1_0::key_derivation::hkdf::Expander::fill_labeled::<#01e4f4eb65b1d8bb>", .Ldeerlapse_0_1_0_func_end36-"deerlapse_0_1_0::key_derivation::hkdf::Expander::fill_labeled::<#01e4f4eb65b1d8bb>"
	.cfi_endproc
                                        // -- End function
	.section	.text.deerlapse_key_derivation,"ax",@progbits
	.p2align	2                               // -- Begin function key_derivation::secret::Secret::next
	.type	"deerlapse_0_1_0::key_derivation::secret::Secret::next",@function
"deerlapse_0_1_0::key_derivation::secret::Secret::next": // @"deerlapse_0_1_0::key_derivation::secret::Secret::next"
	.cfi_startproc
// %bb.0:                               // %start
	stp	x29, x30, [sp, #-48]!           // 16-byte Folded Spill
	.cfi_def_cfa_offset 48
	stp	x28, x21, [sp, #16]             // 16-byte Folded Spill
	stp	x20, x19, [sp, #32]             // 16-byte Folded Spill
	mov	x29, sp
	.cfi_def_cfa w29, 48
	.cfi_offset w19, -8
	.cfi_offset w20, -16
	.cfi_offset w21, -24
	.cfi_offset w28, -32
	.cfi_offset w30, -40
	.cfi_offset w29, -48
	sub	sp, sp, #800
	ldrb	w8, [x1], #1
	mov	x20, x3
	mov	x21, x2
	mov	x19, x0
	cbz	w8, .Ldeerlapse_0_1_0_BB37_2
// %bb.1:                               // %arm.2
	mov	x0, sp
	mov	w2, #48                         // =0x30
	bl	"deerlapse_0_1_0::key_derivation::hmac::HmacKey::new::<#01e4f4eb65b1d8bb>"
	movi	v0.2d, #0000000000000000
	adrp	x3, .Ldeerlapse_0_1_0_static.6
	add	x3, x3, :lo12:.Ldeerlapse_0_1_0_static.6
	mov	x0, sp
	sub	x5, x29, #48
	mov	x1, x21
	mov	x2, x20
	mov	x4, xzr
	mov	w6, #48                         // =0x30
	stp	q0, q0, [x29, #-32]
	stur	q0, [x29, #-48]
	bl	"deerlapse_0_1_0::key_derivation::hkdf::Expander::fill_labeled::<#01e4f4eb65b1d8bb>"
	ldp	q1, q0, [x29, #-32]
	mov	w8, #1                          // =0x1
	ldur	q2, [x29, #-48]
	stp	q1, q0, [sp, #432]
	str	q2, [sp, #416]
	stp	q2, q1, [x29, #-96]
	stur	q0, [x29, #-64]
	b	.Ldeerlapse_0_1_0_BB37_3
.Ldeerlapse_0_1_0_BB37_2:                               // %arm.1
	add	x0, sp, #464
	mov	w2, #32                         // =0x20
	bl	"deerlapse_0_1_0::key_derivation::hmac::HmacKey::new::<#7cab53feae2e1c66>"
	movi	v0.2d, #0000000000000000
	adrp	x3, .Ldeerlapse_0_1_0_static.6
	add	x3, x3, :lo12:.Ldeerlapse_0_1_0_static.6
	add	x0, sp, #464
	sub	x5, x29, #48
	mov	x1, x21
	mov	x2, x20
	mov	x4, xzr
	mov	w6, #32                         // =0x20
	stp	q0, q0, [x29, #-48]
	bl	"deerlapse_0_1_0::key_derivation::hkdf::Expander::fill_labeled::<#7cab53feae2e1c66>"
	ldp	q1, q0, [x29, #-48]
	mov	w8, wzr
	stp	xzr, xzr, [x29, #-16]
	ldur	q2, [x29, #-16]
	stp	q1, q0, [x29, #-128]
	stp	q1, q0, [x29, #-96]
	stur	q2, [x29, #-64]
.Ldeerlapse_0_1_0_BB37_3:                               // %join.4
	ldp	q0, q1, [x29, #-96]
	ldur	q2, [x29, #-64]
	strb	w8, [x19]
	stur	q2, [x19, #33]
	stur	q0, [x19, #1]
	stur	q1, [x19, #17]
	add	sp, sp, #800
	.cfi_def_cfa wsp, 48
	ldp	x20, x19, [sp, #32]             // 16-byte Folded Reload
	ldp	x28, x21, [sp, #16]             // 16-byte Folded Reload
	ldp	x29, x30, [sp], #48             // 16-byte Folded Reload
	.cfi_def_cfa_offset 0
	.cfi_restore w19
	.cfi_restore w20
	.cfi_restore w21
	.cfi_restore w28
	.cfi_restore w30
	.cfi_restore w29
	ret
.Ldeerlapse_0_1_0_func_end37:
	.size	"deerlapse_0_1_0::key_derivation::secret::Secret::next", .Ldeerlapse_0_1_0_func_end37-"deerlapse_0_1_0::key_derivation::secret::Secret::next"
	.cfi_endproc
                                        // -- End function
	.section	.rodata.cst16,"aM",@progbits,16
	.p2align	4, 0x0                          // -- Begin function deerlapse_0_1_0_chacha20
.Ldeerlapse_0_1_0_CPI38_0:
	.word	1634760805                      // 0x61707865
	.word	857760878                       // 0x3320646e
	.word	2036477234                      // 0x79622d32
	.word	1797285236                      // 0x6b206574
.Ldeerlapse_0_1_0_CPI38_1:
	.word	0                               // 0x0
	.word	1                               // 0x1
	.word	2                               // 0x2
	.word	3                               // 0x3
	.section	.text.deerlapse_0_1_0_chacha20,"ax",@progbits
	.ifdef	deerlapse_in_rust
	.globl	deerlapse_0_1_0_chacha20
	.p2align	2
	.type	deerlapse_0_1_0_chacha20,@function
deerlapse_0_1_0_chacha20:                     // @deerlapse_0_1_0_chacha20
	.size	deerlapse_0_1_0_chacha20, .Ldeerlapse_0_1_0_func_end38-deerlapse_0_1_0_chacha20
	.else
	.globl	deerlapse_chacha20
	.p2align	2
	.type	deerlapse_chacha20,@function
deerlapse_chacha20:                     // @deerlapse_chacha20
	.size	deerlapse_chacha20, .Ldeerlapse_0_1_0_func_end38-deerlapse_chacha20
	.endif
	.cfi_startproc
// %bb.0:                               // %start
	hint	#34
	sub	sp, sp, #464
	.cfi_def_cfa_offset 464
	stp	d15, d14, [sp, #304]            // 16-byte Folded Spill
	stp	d13, d12, [sp, #320]            // 16-byte Folded Spill
	stp	d11, d10, [sp, #336]            // 16-byte Folded Spill
	stp	d9, d8, [sp, #352]              // 16-byte Folded Spill
	stp	x29, x30, [sp, #368]            // 16-byte Folded Spill
	stp	x28, x27, [sp, #384]            // 16-byte Folded Spill
	stp	x26, x25, [sp, #400]            // 16-byte Folded Spill
	stp	x24, x23, [sp, #416]            // 16-byte Folded Spill
	stp	x22, x21, [sp, #432]            // 16-byte Folded Spill
	stp	x20, x19, [sp, #448]            // 16-byte Folded Spill
	add	x29, sp, #368
	.cfi_def_cfa w29, 96
	.cfi_offset w19, -8
	.cfi_offset w20, -16
	.cfi_offset w21, -24
	.cfi_offset w22, -32
	.cfi_offset w23, -40
	.cfi_offset w24, -48
	.cfi_offset w25, -56
	.cfi_offset w26, -64
	.cfi_offset w27, -72
	.cfi_offset w28, -80
	.cfi_offset w30, -88
	.cfi_offset w29, -96
	.cfi_offset b8, -104
	.cfi_offset b9, -112
	.cfi_offset b10, -120
	.cfi_offset b11, -128
	.cfi_offset b12, -136
	.cfi_offset b13, -144
	.cfi_offset b14, -152
	.cfi_offset b15, -160
	cmp	x3, #0
	mov	w8, #4096                       // =0x1000
	mov	x10, #4294967296                // =0x100000000
	lsr	x11, x4, #6
	csel	x9, x8, xzr, eq
	sub	x21, x10, w2, uxtw
	tst	x4, #0x3f
	cinc	x22, x11, ne
	cmp	x21, x22
	b.lo	.Ldeerlapse_0_1_0_BB38_23
// %bb.1:                               // %join.3.i
	mov	x19, x4
	cbz	x4, .Ldeerlapse_0_1_0_BB38_23
// %bb.2:                               // %join.5.lr.ph.i.i.i
	ldp	w10, w13, [x0]
	ldur	d2, [x1, #4]
	ldr	d1, [x0, #8]
	add	x25, x3, x9
	ldp	w11, w12, [x0, #16]
	fmov	s10, w10
	dup	v15.4s, v2.s[0]
	str	q2, [sp, #64]                   // 16-byte Spill
	dup	v2.4s, v2.s[1]
	ldr	d0, [x0, #24]
	ldr	w24, [x1]
	fmov	s11, w11
	dup	v12.4s, w10
	dup	v13.4s, w11
	mov	v10.s[1], w13
	dup	v14.4s, w24
	sub	x10, x29, #144
	stur	q2, [x29, #-160]                // 16-byte Folded Spill
	dup	v2.4s, w13
	mov	w20, w2
	mov	v11.s[1], w12
	mov	x8, xzr
	mov	x23, xzr
	add	x26, x3, x9
	add	x27, x10, #16
	add	x28, x25, #16
	mov	v10.d[1], v1.d[0]
	stur	q2, [x29, #-176]                // 16-byte Folded Spill
	dup	v2.4s, v1.s[0]
	dup	v1.4s, v1.s[1]
	stp	q15, q14, [sp]                  // 32-byte Folded Spill
	mov	v11.d[1], v0.d[0]
	stp	q13, q12, [sp, #32]             // 32-byte Folded Spill
	stp	q1, q2, [sp, #160]              // 32-byte Folded Spill
	dup	v1.4s, w12
	stp	q11, q10, [sp, #80]             // 32-byte Folded Spill
	str	q1, [sp, #144]                  // 16-byte Spill
	dup	v1.4s, v0.s[0]
	dup	v0.4s, v0.s[1]
	stp	q0, q1, [sp, #112]              // 32-byte Folded Spill
	b	.Ldeerlapse_0_1_0_BB38_4
.Ldeerlapse_0_1_0_BB38_3:                               // %"aead_ciphers_base::chacha::xor_stream::<=64>.exit.loopexit.i.i.i"
                                        //   in Loop: Header=BB38_4 Depth=1
	add	x0, x26, x8
	sub	x1, x29, #144
	bl	memcpy
	ldp	q11, q10, [sp, #80]             // 32-byte Folded Reload
	add	x23, x23, #1
	ldp	q13, q12, [sp, #32]             // 32-byte Folded Reload
	ldp	q15, q14, [sp]                  // 32-byte Folded Reload
	lsl	x8, x23, #6
	cmp	x8, x19
	b.hs	.Ldeerlapse_0_1_0_BB38_23
.Ldeerlapse_0_1_0_BB38_4:                               // %join.5.i.i.i
                                        // =>This Loop Header: Depth=1
                                        //     Child Loop BB38_9 Depth 2
                                        //     Child Loop BB38_15 Depth 2
                                        //     Child Loop BB38_19 Depth 2
                                        //     Child Loop BB38_22 Depth 2
                                        //     Child Loop BB38_6 Depth 2
	add	w10, w20, w23
	sub	x9, x19, x8
	fmov	s0, w10
	cmp	x9, #256
	b.lo	.Ldeerlapse_0_1_0_BB38_8
// %bb.5:                               // %then.6.i.i.i
                                        //   in Loop: Header=BB38_4 Depth=1
	adrp	x9, .Ldeerlapse_0_1_0_CPI38_1
	dup	v0.4s, v0.s[0]
	mov	w10, #25972                     // =0x6574
	ldr	q2, [x9, :lo12:.Ldeerlapse_0_1_0_CPI38_1]
	mov	w9, #11570                      // =0x2d32
	movk	w10, #27424, lsl #16
	movk	w9, #31074, lsl #16
	dup	v1.4s, w10
	mov	w10, #25710                     // =0x646e
	add	v0.4s, v0.4s, v2.4s
	dup	v5.4s, w9
	mov	w9, #30821                      // =0x7865
	movk	w10, #13088, lsl #16
	movk	w9, #24944, lsl #16
	mov	v19.16b, v12.16b
	dup	v24.4s, w10
	dup	v23.4s, w9
	mov	v21.16b, v13.16b
	ldp	q17, q3, [x29, #-176]           // 32-byte Folded Reload
	mov	v18.16b, v0.16b
	ldp	q2, q6, [sp, #160]              // 32-byte Folded Reload
	mov	v20.16b, v14.16b
	ldp	q7, q22, [sp, #128]             // 32-byte Folded Reload
	mov	v16.16b, v15.16b
	ldr	q4, [sp, #112]                  // 16-byte Reload
	mov	w9, #10                         // =0xa
.Ldeerlapse_0_1_0_BB38_6:                               // %join.5.i.i.i.i.i
                                        //   Parent Loop BB38_4 Depth=1
                                        // =>  This Inner Loop Header: Depth=2
	add	v24.4s, v17.4s, v24.4s
	add	v23.4s, v19.4s, v23.4s
	subs	w9, w9, #1
	add	v5.4s, v6.4s, v5.4s
	add	v1.4s, v2.4s, v1.4s
	eor	v20.16b, v20.16b, v24.16b
	eor	v18.16b, v18.16b, v23.16b
	eor	v16.16b, v16.16b, v5.16b
	eor	v3.16b, v3.16b, v1.16b
	rev32	v20.8h, v20.8h
	rev32	v18.8h, v18.8h
	rev32	v16.8h, v16.8h
	rev32	v3.8h, v3.8h
	add	v22.4s, v20.4s, v22.4s
	add	v21.4s, v18.4s, v21.4s
	add	v7.4s, v16.4s, v7.4s
	add	v25.4s, v3.4s, v4.4s
	eor	v4.16b, v22.16b, v17.16b
	eor	v17.16b, v21.16b, v19.16b
	eor	v6.16b, v7.16b, v6.16b
	eor	v2.16b, v25.16b, v2.16b
	shl	v26.4s, v4.4s, #12
	shl	v27.4s, v17.4s, #12
	shl	v28.4s, v6.4s, #12
	shl	v29.4s, v2.4s, #12
	usra	v26.4s, v4.4s, #20
	usra	v27.4s, v17.4s, #20
	usra	v28.4s, v6.4s, #20
	usra	v29.4s, v2.4s, #20
	add	v24.4s, v26.4s, v24.4s
	add	v30.4s, v27.4s, v23.4s
	add	v23.4s, v28.4s, v5.4s
	add	v1.4s, v29.4s, v1.4s
	eor	v6.16b, v24.16b, v20.16b
	eor	v17.16b, v30.16b, v18.16b
	eor	v16.16b, v23.16b, v16.16b
	eor	v3.16b, v1.16b, v3.16b
	shl	v2.4s, v6.4s, #8
	shl	v5.4s, v17.4s, #8
	shl	v4.4s, v16.4s, #8
	shl	v18.4s, v3.4s, #8
	usra	v2.4s, v6.4s, #24
	usra	v5.4s, v17.4s, #24
	usra	v4.4s, v16.4s, #24
	usra	v18.4s, v3.4s, #24
	add	v3.4s, v2.4s, v22.4s
	add	v6.4s, v5.4s, v21.4s
	add	v17.4s, v4.4s, v7.4s
	add	v19.4s, v18.4s, v25.4s
	eor	v7.16b, v3.16b, v26.16b
	eor	v25.16b, v6.16b, v27.16b
	eor	v26.16b, v17.16b, v28.16b
	eor	v27.16b, v19.16b, v29.16b
	shl	v20.4s, v7.4s, #7
	shl	v16.4s, v25.4s, #7
	shl	v21.4s, v26.4s, #7
	shl	v22.4s, v27.4s, #7
	usra	v20.4s, v7.4s, #25
	usra	v16.4s, v25.4s, #25
	usra	v21.4s, v26.4s, #25
	usra	v22.4s, v27.4s, #25
	add	v7.4s, v20.4s, v30.4s
	add	v1.4s, v16.4s, v1.4s
	add	v24.4s, v21.4s, v24.4s
	add	v25.4s, v22.4s, v23.4s
	eor	v18.16b, v7.16b, v18.16b
	eor	v4.16b, v1.16b, v4.16b
	eor	v5.16b, v24.16b, v5.16b
	eor	v2.16b, v25.16b, v2.16b
	rev32	v18.8h, v18.8h
	rev32	v4.8h, v4.8h
	rev32	v26.8h, v5.8h
	rev32	v2.8h, v2.8h
	add	v17.4s, v18.4s, v17.4s
	add	v27.4s, v4.4s, v3.4s
	add	v19.4s, v26.4s, v19.4s
	add	v6.4s, v2.4s, v6.4s
	eor	v3.16b, v17.16b, v20.16b
	eor	v16.16b, v27.16b, v16.16b
	eor	v5.16b, v19.16b, v21.16b
	eor	v20.16b, v6.16b, v22.16b
	shl	v28.4s, v3.4s, #12
	shl	v31.4s, v16.4s, #12
	shl	v29.4s, v5.4s, #12
	shl	v30.4s, v20.4s, #12
	usra	v28.4s, v3.4s, #20
	usra	v31.4s, v16.4s, #20
	usra	v29.4s, v5.4s, #20
	usra	v30.4s, v20.4s, #20
	add	v23.4s, v28.4s, v7.4s
	add	v1.4s, v31.4s, v1.4s
	add	v24.4s, v29.4s, v24.4s
	add	v5.4s, v30.4s, v25.4s
	eor	v7.16b, v23.16b, v18.16b
	eor	v4.16b, v1.16b, v4.16b
	eor	v21.16b, v24.16b, v26.16b
	eor	v2.16b, v5.16b, v2.16b
	shl	v3.4s, v7.4s, #8
	shl	v16.4s, v4.4s, #8
	shl	v18.4s, v21.4s, #8
	shl	v20.4s, v2.4s, #8
	usra	v3.4s, v7.4s, #24
	usra	v16.4s, v4.4s, #24
	usra	v18.4s, v21.4s, #24
	usra	v20.4s, v2.4s, #24
	add	v7.4s, v3.4s, v17.4s
	add	v22.4s, v16.4s, v27.4s
	add	v4.4s, v18.4s, v19.4s
	add	v21.4s, v20.4s, v6.4s
	eor	v25.16b, v7.16b, v28.16b
	eor	v28.16b, v22.16b, v31.16b
	eor	v26.16b, v4.16b, v29.16b
	eor	v27.16b, v21.16b, v30.16b
	shl	v17.4s, v25.4s, #7
	shl	v19.4s, v28.4s, #7
	shl	v6.4s, v26.4s, #7
	shl	v2.4s, v27.4s, #7
	usra	v17.4s, v25.4s, #25
	usra	v19.4s, v28.4s, #25
	usra	v6.4s, v26.4s, #25
	usra	v2.4s, v27.4s, #25
	b.ne	.Ldeerlapse_0_1_0_BB38_6
// %bb.7:                               // %vector.body
                                        //   in Loop: Header=BB38_4 Depth=1
	mov	w9, #30821                      // =0x7865
	mov	w10, #25710                     // =0x646e
	add	v0.4s, v18.4s, v0.4s
	movk	w9, #24944, lsl #16
	movk	w10, #13088, lsl #16
	ldr	q27, [sp, #144]                 // 16-byte Reload
	dup	v25.4s, w9
	dup	v26.4s, w10
	mov	w9, #11570                      // =0x2d32
	movk	w9, #31074, lsl #16
	ldp	q31, q18, [sp, #112]            // 32-byte Folded Reload
	add	v21.4s, v21.4s, v13.4s
	add	v22.4s, v22.4s, v27.4s
	add	v19.4s, v19.4s, v12.4s
	add	v23.4s, v23.4s, v25.4s
	add	v25.4s, v24.4s, v26.4s
	dup	v26.4s, w9
	ldur	q24, [x29, #-176]               // 16-byte Folded Reload
	add	v7.4s, v7.4s, v18.4s
	mov	w9, #25972                      // =0x6574
	movk	w9, #27424, lsl #16
	add	v16.4s, v16.4s, v15.4s
	add	v4.4s, v4.4s, v31.4s
	add	v18.4s, v5.4s, v26.4s
	ldr	q5, [sp, #176]                  // 16-byte Reload
	add	v24.4s, v17.4s, v24.4s
	add	v17.4s, v20.4s, v14.4s
	zip1	v20.4s, v21.4s, v22.4s
	zip1	v27.4s, v23.4s, v25.4s
	add	v5.4s, v6.4s, v5.4s
	dup	v6.4s, w9
	trn2	v30.4s, v23.4s, v25.4s
	zip1	v28.4s, v19.4s, v24.4s
	trn2	v29.4s, v19.4s, v24.4s
	add	x8, x26, x8
	zip1	v26.4s, v0.4s, v17.4s
	ldr	q31, [x8]
	add	x23, x23, #4
	add	v6.4s, v1.4s, v6.4s
	ldur	q1, [x29, #-160]                // 16-byte Folded Reload
	mov	v20.s[2], v7.s[0]
	mov	v27.s[2], v18.s[0]
	mov	v30.s[2], v18.s[1]
	add	v1.4s, v3.4s, v1.4s
	ldr	q3, [sp, #160]                  // 16-byte Reload
	mov	v28.s[2], v5.s[0]
	mov	v26.s[2], v16.s[0]
	mov	v29.s[2], v5.s[1]
	add	v2.4s, v2.4s, v3.4s
	mov	v20.s[3], v4.s[0]
	mov	v27.s[3], v6.s[0]
	ldp	q8, q3, [x8, #16]
	mov	v30.s[3], v6.s[1]
	mov	v28.s[3], v2.s[0]
	mov	v26.s[3], v1.s[0]
	mov	v29.s[3], v2.s[1]
	eor	v3.16b, v3.16b, v20.16b
	trn2	v20.4s, v21.4s, v22.4s
	eor	v27.16b, v31.16b, v27.16b
	ldp	q9, q31, [x8, #48]
	eor	v28.16b, v8.16b, v28.16b
	ldr	q8, [x8, #80]
	eor	v26.16b, v9.16b, v26.16b
	eor	v30.16b, v31.16b, v30.16b
	str	q27, [x8]
	eor	v29.16b, v8.16b, v29.16b
	zip2	v27.4s, v23.4s, v25.4s
	mov	v20.s[2], v7.s[1]
	stp	q28, q3, [x8, #16]
	trn2	v3.4s, v0.4s, v17.4s
	uzp2	v25.4s, v23.4s, v25.4s
	stp	q26, q30, [x8, #48]
	zip2	v26.4s, v19.4s, v24.4s
	uzp2	v24.4s, v19.4s, v24.4s
	str	q29, [x8, #80]
	uzp2	v28.4s, v21.4s, v22.4s
	zip2	v22.4s, v21.4s, v22.4s
	uzp2	v29.4s, v0.4s, v17.4s
	zip2	v17.4s, v0.4s, v17.4s
	mov	v20.s[3], v4.s[1]
	mov	v3.s[2], v16.s[1]
	uzp2	v23.4s, v25.4s, v23.4s
	mov	v27.s[2], v18.s[2]
	mov	v26.s[2], v5.s[2]
	uzp2	v19.4s, v24.4s, v19.4s
	ldp	q25, q24, [x8, #96]
	uzp2	v21.4s, v28.4s, v21.4s
	mov	v22.s[2], v7.s[2]
	uzp2	v0.4s, v29.4s, v0.4s
	mov	v17.s[2], v16.s[2]
	mov	v3.s[3], v1.s[1]
	mov	v23.s[2], v18.s[3]
	mov	v27.s[3], v6.s[2]
	mov	v26.s[3], v2.s[2]
	mov	v19.s[2], v5.s[3]
	eor	v20.16b, v25.16b, v20.16b
	ldp	q18, q5, [x8, #128]
	mov	v21.s[2], v7.s[3]
	mov	v22.s[3], v4.s[2]
	mov	v0.s[2], v16.s[3]
	mov	v17.s[3], v1.s[2]
	eor	v3.16b, v24.16b, v3.16b
	mov	v23.s[3], v6.s[3]
	mov	v19.s[3], v2.s[3]
	eor	v7.16b, v18.16b, v27.16b
	mov	v21.s[3], v4.s[3]
	stp	q20, q3, [x8, #96]
	eor	v3.16b, v5.16b, v26.16b
	mov	v0.s[3], v1.s[3]
	ldp	q5, q2, [x8, #160]
	stp	q7, q3, [x8, #128]
	eor	v4.16b, v5.16b, v22.16b
	eor	v1.16b, v2.16b, v17.16b
	ldp	q5, q2, [x8, #192]
	stp	q4, q1, [x8, #160]
	eor	v3.16b, v5.16b, v23.16b
	ldp	q5, q4, [x8, #224]
	eor	v2.16b, v2.16b, v19.16b
	eor	v1.16b, v5.16b, v21.16b
	eor	v0.16b, v4.16b, v0.16b
	stp	q3, q2, [x8, #192]
	stp	q1, q0, [x8, #224]
	lsl	x8, x23, #6
	cmp	x8, x19
	b.lo	.Ldeerlapse_0_1_0_BB38_4
	b	.Ldeerlapse_0_1_0_BB38_23
.Ldeerlapse_0_1_0_BB38_8:                               // %else.7.i.i.i
                                        //   in Loop: Header=BB38_4 Depth=1
	mov	v0.s[1], w24
	ldr	q1, [sp, #64]                   // 16-byte Reload
	adrp	x10, .Ldeerlapse_0_1_0_CPI38_0
	mov	v2.16b, v10.16b
	mov	v3.16b, v11.16b
	mov	w11, #10                        // =0xa
	mov	v0.d[1], v1.d[0]
	ldr	q1, [x10, :lo12:.Ldeerlapse_0_1_0_CPI38_0]
	mov	v4.16b, v0.16b
.Ldeerlapse_0_1_0_BB38_9:                               // %join.5.i.i40.i.i.i
                                        //   Parent Loop BB38_4 Depth=1
                                        // =>  This Inner Loop Header: Depth=2
	add	v1.4s, v2.4s, v1.4s
	subs	w11, w11, #1
	eor	v4.16b, v4.16b, v1.16b
	rev32	v4.8h, v4.8h
	add	v3.4s, v4.4s, v3.4s
	eor	v2.16b, v3.16b, v2.16b
	shl	v5.4s, v2.4s, #12
	usra	v5.4s, v2.4s, #20
	add	v1.4s, v5.4s, v1.4s
	eor	v2.16b, v1.16b, v4.16b
	shl	v4.4s, v2.4s, #8
	usra	v4.4s, v2.4s, #24
	add	v2.4s, v4.4s, v3.4s
	ext	v4.16b, v4.16b, v4.16b, #12
	eor	v3.16b, v2.16b, v5.16b
	ext	v2.16b, v2.16b, v2.16b, #8
	shl	v5.4s, v3.4s, #7
	usra	v5.4s, v3.4s, #25
	ext	v3.16b, v5.16b, v5.16b, #4
	add	v1.4s, v3.4s, v1.4s
	eor	v4.16b, v1.16b, v4.16b
	rev32	v4.8h, v4.8h
	add	v2.4s, v4.4s, v2.4s
	eor	v3.16b, v2.16b, v3.16b
	shl	v5.4s, v3.4s, #12
	usra	v5.4s, v3.4s, #20
	add	v1.4s, v5.4s, v1.4s
	eor	v3.16b, v1.16b, v4.16b
	shl	v4.4s, v3.4s, #8
	usra	v4.4s, v3.4s, #24
	add	v3.4s, v4.4s, v2.4s
	ext	v4.16b, v4.16b, v4.16b, #4
	eor	v2.16b, v3.16b, v5.16b
	ext	v3.16b, v3.16b, v3.16b, #8
	shl	v5.4s, v2.4s, #7
	usra	v5.4s, v2.4s, #25
	ext	v2.16b, v5.16b, v5.16b, #12
	b.ne	.Ldeerlapse_0_1_0_BB38_9
// %bb.10:                              // %iter.check
                                        //   in Loop: Header=BB38_4 Depth=1
	ldr	q5, [x10, :lo12:.Ldeerlapse_0_1_0_CPI38_0]
	add	v2.4s, v2.4s, v10.4s
	add	v3.4s, v3.4s, v11.4s
	add	v0.4s, v4.4s, v0.4s
	cmp	x9, #64
	mov	w10, #64                        // =0x40
	add	v1.4s, v1.4s, v5.4s
	csel	x2, x9, x10, lo
	cmp	x9, #8
	stp	q3, q0, [x29, #-112]
	stp	q1, q2, [x29, #-144]
	b.hs	.Ldeerlapse_0_1_0_BB38_12
// %bb.11:                              //   in Loop: Header=BB38_4 Depth=1
	mov	x9, xzr
	b	.Ldeerlapse_0_1_0_BB38_21
.Ldeerlapse_0_1_0_BB38_12:                              // %vector.main.loop.iter.check
                                        //   in Loop: Header=BB38_4 Depth=1
	cmp	x9, #32
	b.hs	.Ldeerlapse_0_1_0_BB38_14
// %bb.13:                              //   in Loop: Header=BB38_4 Depth=1
	mov	x9, xzr
	b	.Ldeerlapse_0_1_0_BB38_18
.Ldeerlapse_0_1_0_BB38_14:                              // %vector.ph6
                                        //   in Loop: Header=BB38_4 Depth=1
	and	x10, x2, #0x18
	and	x9, x2, #0x60
	add	x11, x28, x8
	mov	x12, x27
	and	x13, x2, #0x60
.Ldeerlapse_0_1_0_BB38_15:                              // %vector.body7
                                        //   Parent Loop BB38_4 Depth=1
                                        // =>  This Inner Loop Header: Depth=2
	ldp	q0, q3, [x12, #-16]
	subs	x13, x13, #32
	ldp	q1, q2, [x11, #-16]
	add	x11, x11, #32
	eor	v0.16b, v0.16b, v1.16b
	eor	v1.16b, v3.16b, v2.16b
	stp	q0, q1, [x12, #-16]
	add	x12, x12, #32
	b.ne	.Ldeerlapse_0_1_0_BB38_15
// %bb.16:                              // %middle.block14
                                        //   in Loop: Header=BB38_4 Depth=1
	cmp	x2, x9
	b.eq	.Ldeerlapse_0_1_0_BB38_3
// %bb.17:                              // %vec.epilog.iter.check
                                        //   in Loop: Header=BB38_4 Depth=1
	cbz	x10, .Ldeerlapse_0_1_0_BB38_21
.Ldeerlapse_0_1_0_BB38_18:                              // %vec.epilog.ph
                                        //   in Loop: Header=BB38_4 Depth=1
	mov	x11, x9
	and	x9, x2, #0x78
	sub	x12, x29, #144
	add	x13, x11, x8
	sub	x10, x11, x9
	add	x11, x12, x11
	add	x12, x25, x13
.Ldeerlapse_0_1_0_BB38_19:                              // %vec.epilog.vector.body
                                        //   Parent Loop BB38_4 Depth=1
                                        // =>  This Inner Loop Header: Depth=2
	ldr	d0, [x12], #8
	ldr	d1, [x11]
	adds	x10, x10, #8
	eor	v0.8b, v1.8b, v0.8b
	str	d0, [x11], #8
	b.ne	.Ldeerlapse_0_1_0_BB38_19
// %bb.20:                              // %vec.epilog.middle.block
                                        //   in Loop: Header=BB38_4 Depth=1
	cmp	x2, x9
	b.eq	.Ldeerlapse_0_1_0_BB38_3
.Ldeerlapse_0_1_0_BB38_21:                              // %join.5.i.i59.i.i.i.preheader
                                        //   in Loop: Header=BB38_4 Depth=1
	sub	x11, x29, #144
	add	x12, x9, x8
	sub	x10, x2, x9
	add	x9, x11, x9
	add	x11, x25, x12
.Ldeerlapse_0_1_0_BB38_22:                              // %join.5.i.i59.i.i.i
                                        //   Parent Loop BB38_4 Depth=1
                                        // =>  This Inner Loop Header: Depth=2
	ldrb	w12, [x11], #1
	ldrb	w13, [x9]
	subs	x10, x10, #1
	eor	w12, w13, w12
	strb	w12, [x9], #1
	b.ne	.Ldeerlapse_0_1_0_BB38_22
	b	.Ldeerlapse_0_1_0_BB38_3
.Ldeerlapse_0_1_0_BB38_23:                              // %"deerlapse::chacha20::deerlapse_chacha20.exit"
	cmp	x21, x22
	cset	w0, hs
	.cfi_def_cfa wsp, 464
	ldp	x20, x19, [sp, #448]            // 16-byte Folded Reload
	ldp	x22, x21, [sp, #432]            // 16-byte Folded Reload
	ldp	x24, x23, [sp, #416]            // 16-byte Folded Reload
	ldp	x26, x25, [sp, #400]            // 16-byte Folded Reload
	ldp	x28, x27, [sp, #384]            // 16-byte Folded Reload
	ldp	x29, x30, [sp, #368]            // 16-byte Folded Reload
	ldp	d9, d8, [sp, #352]              // 16-byte Folded Reload
	ldp	d11, d10, [sp, #336]            // 16-byte Folded Reload
	ldp	d13, d12, [sp, #320]            // 16-byte Folded Reload
	ldp	d15, d14, [sp, #304]            // 16-byte Folded Reload
	add	sp, sp, #464
	.cfi_def_cfa_offset 0
	.cfi_restore w19
	.cfi_restore w20
	.cfi_restore w21
	.cfi_restore w22
	.cfi_restore w23
	.cfi_restore w24
	.cfi_restore w25
	.cfi_restore w26
	.cfi_restore w27
	.cfi_restore w28
	.cfi_restore w30
	.cfi_restore w29
	.cfi_restore b8
	.cfi_restore b9
	.cfi_restore b10
	.cfi_restore b11
	.cfi_restore b12
	.cfi_restore b13
	.cfi_restore b14
	.cfi_restore b15
	ret
.Ldeerlapse_0_1_0_func_end38:
	.cfi_endproc
                                        // -- End function
	.section	.text.deerlapse_0_1_0_hmac,"ax",@progbits
	.ifdef	deerlapse_in_rust
	.globl	deerlapse_0_1_0_hmac                  // -- Begin function deerlapse_0_1_0_hmac
	.p2align	2
	.type	deerlapse_0_1_0_hmac,@function
deerlapse_0_1_0_hmac:                         // @deerlapse_0_1_0_hmac
	.size	deerlapse_0_1_0_hmac, .Ldeerlapse_0_1_0_func_end39-deerlapse_0_1_0_hmac
	.else
	.globl	deerlapse_hmac                  // -- Begin function deerlapse_hmac
	.p2align	2
	.type	deerlapse_hmac,@function
deerlapse_hmac:                         // @deerlapse_hmac
	.size	deerlapse_hmac, .Ldeerlapse_0_1_0_func_end39-deerlapse_hmac
	.endif
	.cfi_startproc
// %bb.0:                               // %start
	hint	#34
	stp	x29, x30, [sp, #-16]!           // 16-byte Folded Spill
	.cfi_def_cfa_offset 16
	mov	x29, sp
	.cfi_def_cfa w29, 16
	.cfi_offset w30, -8
	.cfi_offset w29, -16
	cmp	x0, #0
	mov	w8, #4096                       // =0x1000
	csel	x9, x8, xzr, eq
	cmp	x2, #0
	csel	x10, x8, xzr, eq
	cmp	x4, #0
	add	x0, x0, x9
	csel	x8, x8, xzr, eq
	add	x2, x2, x10
	add	x4, x4, x8
	bl	"deerlapse_0_1_0::deerlapse::hkdf::deerlapse_hmac"
	.cfi_def_cfa wsp, 16
	ldp	x29, x30, [sp], #16             // 16-byte Folded Reload
	.cfi_def_cfa_offset 0
	.cfi_restore w30
	.cfi_restore w29
	ret
.Ldeerlapse_0_1_0_func_end39:
	.cfi_endproc
                                        // -- End function
	.section	.text.deerlapse_0_1_0_hkdf_extract,"ax",@progbits
	.ifdef	deerlapse_in_rust
	.globl	deerlapse_0_1_0_hkdf_extract          // -- Begin function deerlapse_0_1_0_hkdf_extract
	.p2align	2
	.type	deerlapse_0_1_0_hkdf_extract,@function
deerlapse_0_1_0_hkdf_extract:                 // @deerlapse_0_1_0_hkdf_extract
	.size	deerlapse_0_1_0_hkdf_extract, .Ldeerlapse_0_1_0_func_end40-deerlapse_0_1_0_hkdf_extract
	.else
	.globl	deerlapse_hkdf_extract          // -- Begin function deerlapse_hkdf_extract
	.p2align	2
	.type	deerlapse_hkdf_extract,@function
deerlapse_hkdf_extract:                 // @deerlapse_hkdf_extract
	.size	deerlapse_hkdf_extract, .Ldeerlapse_0_1_0_func_end40-deerlapse_hkdf_extract
	.endif
	.cfi_startproc
// %bb.0:                               // %start
	hint	#34
	stp	x29, x30, [sp, #-16]!           // 16-byte Folded Spill
	.cfi_def_cfa_offset 16
	mov	x29, sp
	.cfi_def_cfa w29, 16
	.cfi_offset w30, -8
	.cfi_offset w29, -16
	cmp	x0, #0
	mov	w8, #4096                       // =0x1000
	csel	x9, x8, xzr, eq
	cmp	x2, #0
	csel	x10, x8, xzr, eq
	cmp	x4, #0
	add	x0, x0, x9
	csel	x8, x8, xzr, eq
	add	x2, x2, x10
	add	x4, x4, x8
	bl	"deerlapse_0_1_0::deerlapse::hkdf::deerlapse_hmac"
	.cfi_def_cfa wsp, 16
	ldp	x29, x30, [sp], #16             // 16-byte Folded Reload
	.cfi_def_cfa_offset 0
	.cfi_restore w30
	.cfi_restore w29
	ret
.Ldeerlapse_0_1_0_func_end40:
	.cfi_endproc
                                        // -- End function
	.section	.text.deerlapse_0_1_0_key_wipe,"ax",@progbits
	.ifdef	deerlapse_in_rust
	.globl	deerlapse_0_1_0_key_wipe              // -- Begin function deerlapse_0_1_0_key_wipe
	.p2align	2
	.type	deerlapse_0_1_0_key_wipe,@function
deerlapse_0_1_0_key_wipe:                     // @deerlapse_0_1_0_key_wipe
	.size	deerlapse_0_1_0_key_wipe, .Ldeerlapse_0_1_0_func_end41-deerlapse_0_1_0_key_wipe
	.else
	.globl	deerlapse_key_wipe              // -- Begin function deerlapse_key_wipe
	.p2align	2
	.type	deerlapse_key_wipe,@function
deerlapse_key_wipe:                     // @deerlapse_key_wipe
	.size	deerlapse_key_wipe, .Ldeerlapse_0_1_0_func_end41-deerlapse_key_wipe
	.endif
	.cfi_startproc
// %bb.0:                               // %start
	hint	#34
	mov	w1, wzr
	mov	w2, #3192                       // =0xc78
	b	memset
.Ldeerlapse_0_1_0_func_end41:
	.cfi_endproc
                                        // -- End function
	.section	.text.deerlapse_0_1_0_mask_aes,"ax",@progbits
	.ifdef	deerlapse_in_rust
	.globl	deerlapse_0_1_0_mask_aes              // -- Begin function deerlapse_0_1_0_mask_aes
	.p2align	2
	.type	deerlapse_0_1_0_mask_aes,@function
deerlapse_0_1_0_mask_aes:                     // @deerlapse_0_1_0_mask_aes
	.size	deerlapse_0_1_0_mask_aes, .Ldeerlapse_0_1_0_func_end42-deerlapse_0_1_0_mask_aes
	.else
	.globl	deerlapse_mask_aes              // -- Begin function deerlapse_mask_aes
	.p2align	2
	.type	deerlapse_mask_aes,@function
deerlapse_mask_aes:                     // @deerlapse_mask_aes
	.size	deerlapse_mask_aes, .Ldeerlapse_0_1_0_func_end42-deerlapse_mask_aes
	.endif
	.cfi_startproc
// %bb.0:                               // %start
	hint	#34
	stp	x29, x30, [sp, #-48]!           // 16-byte Folded Spill
	.cfi_def_cfa_offset 48
	str	x28, [sp, #16]                  // 8-byte Spill
	stp	x20, x19, [sp, #32]             // 16-byte Folded Spill
	mov	x29, sp
	.cfi_def_cfa w29, 48
	.cfi_offset w19, -8
	.cfi_offset w20, -16
	.cfi_offset w28, -32
	.cfi_offset w30, -40
	.cfi_offset w29, -48
	.cfi_remember_state
	sub	sp, sp, #512
	cmp	x0, #0
	mov	w9, #4096                       // =0x1000
	mov	x19, x3
	mov	x8, x0
	csel	x9, x9, xzr, eq
	cmp	x1, #32
	mov	x20, x2
	b.eq	.Ldeerlapse_0_1_0_BB42_3
// %bb.1:                               // %start
	cmp	x1, #16
	b.ne	.Ldeerlapse_0_1_0_BB42_5
// %bb.2:                               // %join.3.fold.split.i.i
	mov	w1, wzr
	b	.Ldeerlapse_0_1_0_BB42_4
.Ldeerlapse_0_1_0_BB42_3:
	mov	w1, #1                          // =0x1
.Ldeerlapse_0_1_0_BB42_4:                               // %arm.1.i
	movi	v0.2d, #0000000000000000
	add	x0, sp, #256
	add	x2, x8, x9
	stp	q0, q0, [sp, #272]
	stp	q0, q0, [sp, #304]
	stp	q0, q0, [sp, #336]
	stp	q0, q0, [sp, #368]
	stp	q0, q0, [sp, #400]
	stp	q0, q0, [sp, #432]
	stp	q0, q0, [sp, #464]
	str	q0, [sp, #256]
	bl	"deerlapse_0_1_0::aead_ciphers_wide::aes::expand"
	ldp	q0, q1, [sp, #448]
	mov	x2, x0
	ldr	q2, [sp, #480]
	str	x0, [sp, #240]
	sub	x0, x29, #16
	mov	x1, sp
	mov	x3, x20
	stp	xzr, xzr, [x29, #-16]
	stp	q0, q1, [sp, #192]
	ldp	q0, q1, [sp, #384]
	str	q2, [sp, #224]
	stp	q0, q1, [sp, #128]
	ldp	q0, q2, [sp, #416]
	stp	q0, q2, [sp, #160]
	ldp	q1, q0, [sp, #320]
	stp	q1, q0, [sp, #64]
	ldp	q0, q2, [sp, #352]
	stp	q0, q2, [sp, #96]
	ldp	q1, q0, [sp, #256]
	stp	q1, q0, [sp]
	ldp	q0, q2, [sp, #288]
	stp	q0, q2, [sp, #32]
	bl	"deerlapse_0_1_0::aead_ciphers_wide::aes::block_key::BlockKeyRef::encrypt_one"
	ldurb	w8, [x29, #-12]
	ldur	w9, [x29, #-16]
	mov	w0, #1                          // =0x1
	strb	w8, [x29, #28]
	str	w9, [x29, #24]
	str	w9, [x19]
	strb	w8, [x19, #4]
	add	sp, sp, #512
	.cfi_def_cfa wsp, 48
	ldp	x20, x19, [sp, #32]             // 16-byte Folded Reload
	ldr	x28, [sp, #16]                  // 8-byte Reload
	ldp	x29, x30, [sp], #48             // 16-byte Folded Reload
	.cfi_def_cfa_offset 0
	.cfi_restore w19
	.cfi_restore w20
	.cfi_restore w28
	.cfi_restore w30
	.cfi_restore w29
	ret
.Ldeerlapse_0_1_0_BB42_5:
	.cfi_restore_state
	mov	w0, wzr
	add	sp, sp, #512
	.cfi_def_cfa wsp, 48
	ldp	x20, x19, [sp, #32]             // 16-byte Folded Reload
	ldr	x28, [sp, #16]                  // 8-byte Reload
	ldp	x29, x30, [sp], #48             // 16-byte Folded Reload
	.cfi_def_cfa_offset 0
	.cfi_restore w19
	.cfi_restore w20
	.cfi_restore w28
	.cfi_restore w30
	.cfi_restore w29
	ret
.Ldeerlapse_0_1_0_func_end42:
	.cfi_endproc
                                        // -- End function
	.section	.rodata.cst16,"aM",@progbits,16
	.p2align	4, 0x0                          // -- Begin function deerlapse_0_1_0_mask_chacha20
.Ldeerlapse_0_1_0_CPI43_0:
	.word	1634760805                      // 0x61707865
	.word	857760878                       // 0x3320646e
	.word	2036477234                      // 0x79622d32
	.word	1797285236                      // 0x6b206574
.Ldeerlapse_0_1_0_CPI43_1:
	.word	1634760805                      // 0x61707865
	.word	857760878                       // 0x3320646e
	.zero	4
	.zero	4
	.section	.text.deerlapse_0_1_0_mask_chacha20,"ax",@progbits
	.ifdef	deerlapse_in_rust
	.globl	deerlapse_0_1_0_mask_chacha20
	.p2align	2
	.type	deerlapse_0_1_0_mask_chacha20,@function
deerlapse_0_1_0_mask_chacha20:                // @deerlapse_0_1_0_mask_chacha20
	.size	deerlapse_0_1_0_mask_chacha20, .Ldeerlapse_0_1_0_func_end43-deerlapse_0_1_0_mask_chacha20
	.else
	.globl	deerlapse_mask_chacha20
	.p2align	2
	.type	deerlapse_mask_chacha20,@function
deerlapse_mask_chacha20:                // @deerlapse_mask_chacha20
	.size	deerlapse_mask_chacha20, .Ldeerlapse_0_1_0_func_end43-deerlapse_mask_chacha20
	.endif
	.cfi_startproc
// %bb.0:                               // %start
	hint	#34
	adrp	x8, .Ldeerlapse_0_1_0_CPI43_0
	ldp	q1, q2, [x0]
	ldr	q0, [x8, :lo12:.Ldeerlapse_0_1_0_CPI43_0]
	ldr	q3, [x1]
	mov	w8, #10                         // =0xa
.Ldeerlapse_0_1_0_BB43_1:                               // %join.5.i.i.i.i
                                        // =>This Inner Loop Header: Depth=1
	add	v0.4s, v1.4s, v0.4s
	subs	w8, w8, #1
	eor	v3.16b, v3.16b, v0.16b
	rev32	v3.8h, v3.8h
	add	v2.4s, v3.4s, v2.4s
	eor	v1.16b, v2.16b, v1.16b
	shl	v4.4s, v1.4s, #12
	usra	v4.4s, v1.4s, #20
	add	v0.4s, v4.4s, v0.4s
	eor	v1.16b, v0.16b, v3.16b
	shl	v3.4s, v1.4s, #8
	usra	v3.4s, v1.4s, #24
	add	v1.4s, v3.4s, v2.4s
	ext	v3.16b, v3.16b, v3.16b, #12
	eor	v2.16b, v1.16b, v4.16b
	ext	v1.16b, v1.16b, v1.16b, #8
	shl	v4.4s, v2.4s, #7
	usra	v4.4s, v2.4s, #25
	ext	v2.16b, v4.16b, v4.16b, #4
	add	v0.4s, v2.4s, v0.4s
	eor	v3.16b, v0.16b, v3.16b
	rev32	v3.8h, v3.8h
	add	v1.4s, v3.4s, v1.4s
	eor	v2.16b, v1.16b, v2.16b
	shl	v4.4s, v2.4s, #12
	usra	v4.4s, v2.4s, #20
	add	v0.4s, v4.4s, v0.4s
	eor	v2.16b, v0.16b, v3.16b
	shl	v3.4s, v2.4s, #8
	usra	v3.4s, v2.4s, #24
	add	v2.4s, v3.4s, v1.4s
	ext	v3.16b, v3.16b, v3.16b, #4
	eor	v1.16b, v2.16b, v4.16b
	ext	v2.16b, v2.16b, v2.16b, #8
	shl	v4.4s, v1.4s, #7
	usra	v4.4s, v1.4s, #25
	ext	v1.16b, v4.16b, v4.16b, #12
	b.ne	.Ldeerlapse_0_1_0_BB43_1
// %bb.2:                               // %"deerlapse::masks::deerlapse_mask_chacha20.exit"
	adrp	x8, .Ldeerlapse_0_1_0_CPI43_1
	ldr	q1, [x8, :lo12:.Ldeerlapse_0_1_0_CPI43_1]
	add	v0.4s, v0.4s, v1.4s
	mov	b1, v0.b[4]
	str	s0, [x2]
	stur	b1, [x2, #4]
	ret
.Ldeerlapse_0_1_0_func_end43:
	.cfi_endproc
                                        // -- End function
	.section	.rodata.cst16,"aM",@progbits,16
	.p2align	4, 0x0                          // -- Begin function deerlapse_0_1_0_nonce
.Ldeerlapse_0_1_0_CPI44_0:
	.xword	-16                             // 0xfffffffffffffff0
	.xword	-24                             // 0xffffffffffffffe8
.Ldeerlapse_0_1_0_CPI44_1:
	.xword	0                               // 0x0
	.xword	-8                              // 0xfffffffffffffff8
.Ldeerlapse_0_1_0_CPI44_2:
	.xword	-48                             // 0xffffffffffffffd0
	.xword	-56                             // 0xffffffffffffffc8
.Ldeerlapse_0_1_0_CPI44_3:
	.xword	-32                             // 0xffffffffffffffe0
	.xword	-40                             // 0xffffffffffffffd8
	.section	.text.deerlapse_0_1_0_nonce,"ax",@progbits
	.ifdef	deerlapse_in_rust
	.globl	deerlapse_0_1_0_nonce
	.p2align	2
	.type	deerlapse_0_1_0_nonce,@function
deerlapse_0_1_0_nonce:                        // @deerlapse_0_1_0_nonce
	.size	deerlapse_0_1_0_nonce, .Ldeerlapse_0_1_0_func_end44-deerlapse_0_1_0_nonce
	.else
	.globl	deerlapse_nonce
	.p2align	2
	.type	deerlapse_nonce,@function
deerlapse_nonce:                        // @deerlapse_nonce
	.size	deerlapse_nonce, .Ldeerlapse_0_1_0_func_end44-deerlapse_nonce
	.endif
	.cfi_startproc
// %bb.0:                               // %start
	hint	#34
	adrp	x8, .Ldeerlapse_0_1_0_CPI44_0
	rev	x9, x1
	ldr	q0, [x8, :lo12:.Ldeerlapse_0_1_0_CPI44_0]
	adrp	x8, .Ldeerlapse_0_1_0_CPI44_1
	dup	v1.2d, x9
	adrp	x9, .Ldeerlapse_0_1_0_CPI44_2
	ldr	q2, [x8, :lo12:.Ldeerlapse_0_1_0_CPI44_1]
	adrp	x8, .Ldeerlapse_0_1_0_CPI44_3
	ldr	q3, [x9, :lo12:.Ldeerlapse_0_1_0_CPI44_2]
	ldr	q4, [x8, :lo12:.Ldeerlapse_0_1_0_CPI44_3]
	ushl	v0.2d, v1.2d, v0.2d
	ushl	v2.2d, v1.2d, v2.2d
	ushl	v3.2d, v1.2d, v3.2d
	ushl	v1.2d, v1.2d, v4.2d
	ldr	s4, [x0]
	uzp1	v0.4s, v2.4s, v0.4s
	zip1	v4.8b, v4.8b, v4.8b
	uzp1	v1.4s, v1.4s, v3.4s
	ldp	s2, s3, [x0, #4]
	zip1	v2.8b, v2.8b, v2.8b
	xtn	v0.4h, v0.4s
	zip1	v3.8b, v3.8b, v3.8b
	xtn	v1.4h, v1.4s
	eor	v0.8b, v2.8b, v0.8b
	eor	v1.8b, v3.8b, v1.8b
	uzp1	v0.8b, v4.8b, v0.8b
	uzp1	v1.8b, v1.8b, v0.8b
	str	d0, [x2]
	str	s1, [x2, #8]
	ret
.Ldeerlapse_0_1_0_func_end44:
	.cfi_endproc
                                        // -- End function
	.section	.text.deerlapse_0_1_0_opener_next,"ax",@progbits
	.ifdef	deerlapse_in_rust
	.globl	deerlapse_0_1_0_opener_next           // -- Begin function deerlapse_0_1_0_opener_next
	.p2align	2
	.type	deerlapse_0_1_0_opener_next,@function
deerlapse_0_1_0_opener_next:                  // @deerlapse_0_1_0_opener_next
	.size	deerlapse_0_1_0_opener_next, .Ldeerlapse_0_1_0_func_end45-deerlapse_0_1_0_opener_next
	.else
	.globl	deerlapse_opener_next           // -- Begin function deerlapse_opener_next
	.p2align	2
	.type	deerlapse_opener_next,@function
deerlapse_opener_next:                  // @deerlapse_opener_next
	.size	deerlapse_opener_next, .Ldeerlapse_0_1_0_func_end45-deerlapse_opener_next
	.endif
	.cfi_startproc
// %bb.0:                               // %start
	hint	#34
	ldr	x0, [x0, #3192]
	ret
.Ldeerlapse_0_1_0_func_end45:
	.cfi_endproc
                                        // -- End function
	.section	.text.deerlapse_0_1_0_quic_header_key_wipe,"ax",@progbits
	.ifdef	deerlapse_in_rust
	.globl	deerlapse_0_1_0_quic_header_key_wipe  // -- Begin function deerlapse_0_1_0_quic_header_key_wipe
	.p2align	2
	.type	deerlapse_0_1_0_quic_header_key_wipe,@function
deerlapse_0_1_0_quic_header_key_wipe:         // @deerlapse_0_1_0_quic_header_key_wipe
	.size	deerlapse_0_1_0_quic_header_key_wipe, .Ldeerlapse_0_1_0_func_end46-deerlapse_0_1_0_quic_header_key_wipe
	.else
	.globl	deerlapse_quic_header_key_wipe  // -- Begin function deerlapse_quic_header_key_wipe
	.p2align	2
	.type	deerlapse_quic_header_key_wipe,@function
deerlapse_quic_header_key_wipe:         // @deerlapse_quic_header_key_wipe
	.size	deerlapse_quic_header_key_wipe, .Ldeerlapse_0_1_0_func_end46-deerlapse_quic_header_key_wipe
	.endif
	.cfi_startproc
// %bb.0:                               // %start
	hint	#34
	movi	v0.2d, #0000000000000000
	str	xzr, [x0, #240]
	stp	q0, q0, [x0, #16]
	stp	q0, q0, [x0, #48]
	stp	q0, q0, [x0, #80]
	stp	q0, q0, [x0, #112]
	stp	q0, q0, [x0, #144]
	stp	q0, q0, [x0, #176]
	stp	q0, q0, [x0, #208]
	str	q0, [x0]
	ret
.Ldeerlapse_0_1_0_func_end46:
	.cfi_endproc
                                        // -- End function
	.section	.text.deerlapse_0_1_0_quic_initial_secrets,"ax",@progbits
	.ifdef	deerlapse_in_rust
	.globl	deerlapse_0_1_0_quic_initial_secrets  // -- Begin function deerlapse_0_1_0_quic_initial_secrets
	.p2align	2
	.type	deerlapse_0_1_0_quic_initial_secrets,@function
deerlapse_0_1_0_quic_initial_secrets:         // @deerlapse_0_1_0_quic_initial_secrets
	.size	deerlapse_0_1_0_quic_initial_secrets, .Ldeerlapse_0_1_0_func_end47-deerlapse_0_1_0_quic_initial_secrets
	.else
	.globl	deerlapse_quic_initial_secrets  // -- Begin function deerlapse_quic_initial_secrets
	.p2align	2
	.type	deerlapse_quic_initial_secrets,@function
deerlapse_quic_initial_secrets:         // @deerlapse_quic_initial_secrets
	.size	deerlapse_quic_initial_secrets, .Ldeerlapse_0_1_0_func_end47-deerlapse_quic_initial_secrets
	.endif
	.cfi_startproc
// %bb.0:                               // %start
	hint	#34
	sub	sp, sp, #304
	.cfi_def_cfa_offset 304
	stp	x29, x30, [sp, #208]            // 16-byte Folded Spill
	stp	x28, x27, [sp, #224]            // 16-byte Folded Spill
	stp	x26, x25, [sp, #240]            // 16-byte Folded Spill
	stp	x24, x23, [sp, #256]            // 16-byte Folded Spill
	stp	x22, x21, [sp, #272]            // 16-byte Folded Spill
	stp	x20, x19, [sp, #288]            // 16-byte Folded Spill
	add	x29, sp, #208
	.cfi_def_cfa w29, 96
	.cfi_offset w19, -8
	.cfi_offset w20, -16
	.cfi_offset w21, -24
	.cfi_offset w22, -32
	.cfi_offset w23, -40
	.cfi_offset w24, -48
	.cfi_offset w25, -56
	.cfi_offset w26, -64
	.cfi_offset w27, -72
	.cfi_offset w28, -80
	.cfi_offset w30, -88
	.cfi_offset w29, -96
	cmp	x1, #0
	mov	w8, #4096                       // =0x1000
	mov	x19, x4
	mov	x20, x3
	mov	x21, x1
	csel	x24, x8, xzr, eq
	cmp	w0, #1
	mov	x22, x2
	b.eq	.Ldeerlapse_0_1_0_BB47_3
// %bb.1:                               // %start
	mov	w8, #17359                      // =0x43cf
	movk	w8, #27443, lsl #16
	cmp	w0, w8
	b.ne	.Ldeerlapse_0_1_0_BB47_6
// %bb.2:                               // %arm.2.i.i
	mov	w23, #1                         // =0x1
	b	.Ldeerlapse_0_1_0_BB47_4
.Ldeerlapse_0_1_0_BB47_3:
	mov	w23, wzr
.Ldeerlapse_0_1_0_BB47_4:                               // %arm.1.i
	adrp	x4, .Ldeerlapse_0_1_0_static.5
	add	x4, x4, :lo12:.Ldeerlapse_0_1_0_static.5
	sub	x0, x29, #64
	add	x2, x21, x24
	mov	w1, w23
	mov	x3, x22
	sub	x26, x29, #64
	bl	"deerlapse_0_1_0::key_derivation::quic::endpoint_secret"
	ldur	q0, [x26, #3]
	ldur	q1, [x26, #19]
	adrp	x4, .Ldeerlapse_0_1_0_static.8
	add	x4, x4, :lo12:.Ldeerlapse_0_1_0_static.8
	ldur	q2, [x26, #35]
	ldurb	w27, [x29, #-64]
	ldurb	w25, [x29, #-62]
	sub	x0, x29, #64
	add	x2, x21, x24
	mov	w1, w23
	mov	x3, x22
	stp	q0, q1, [sp, #48]
	str	q2, [sp, #80]
	bl	"deerlapse_0_1_0::key_derivation::quic::endpoint_secret"
	ldurb	w8, [x29, #-64]
	ldur	q0, [x26, #3]
	ldur	q1, [x26, #19]
	ldurb	w21, [x29, #-62]
	and	w8, w8, #0xff
	stp	q0, q1, [sp]
	ldur	q0, [x26, #35]
	orr	w8, w27, w8
	str	q0, [sp, #32]
	cbnz	w8, .Ldeerlapse_0_1_0_BB47_6
// %bb.5:                               // %arm.10.i
	ldp	q0, q1, [sp, #48]
	cmp	w25, #0
	ldr	q2, [sp, #80]
	mov	w22, #48                        // =0x30
	mov	w23, #32                        // =0x20
	csel	x2, x23, x22, eq
	sub	x1, x29, #64
	mov	x0, x20
	stp	q0, q1, [x29, #-64]
	ldp	q0, q1, [sp]
	stur	q2, [x29, #-32]
	stp	q0, q1, [sp, #96]
	ldr	q0, [sp, #32]
	str	q0, [sp, #128]
	bl	memcpy
	cmp	w21, #0
	add	x1, sp, #96
	mov	x0, x19
	csel	x2, x23, x22, eq
	bl	memcpy
	mov	w0, #1                          // =0x1
	b	.Ldeerlapse_0_1_0_BB47_7
.Ldeerlapse_0_1_0_BB47_6:
	mov	w0, wzr
.Ldeerlapse_0_1_0_BB47_7:                               // %"deerlapse::quic_key::deerlapse_quic_initial_secrets.exit"
	.cfi_def_cfa wsp, 304
	ldp	x20, x19, [sp, #288]            // 16-byte Folded Reload
	ldp	x22, x21, [sp, #272]            // 16-byte Folded Reload
	ldp	x24, x23, [sp, #256]            // 16-byte Folded Reload
	ldp	x26, x25, [sp, #240]            // 16-byte Folded Reload
	ldp	x28, x27, [sp, #224]            // 16-byte Folded Reload
	ldp	x29, x30, [sp, #208]            // 16-byte Folded Reload
	add	sp, sp, #304
	.cfi_def_cfa_offset 0
	.cfi_restore w19
	.cfi_restore w20
	.cfi_restore w21
	.cfi_restore w22
	.cfi_restore w23
	.cfi_restore w24
	.cfi_restore w25
	.cfi_restore w26
	.cfi_restore w27
	.cfi_restore w28
	.cfi_restore w30
	.cfi_restore w29
	ret
.Ldeerlapse_0_1_0_func_end47:
	.cfi_endproc
                                        // -- End function
	.section	.text.deerlapse_0_1_0_sealer_next,"ax",@progbits
	.ifdef	deerlapse_in_rust
	.globl	deerlapse_0_1_0_sealer_next           // -- Begin function deerlapse_0_1_0_sealer_next
	.p2align	2
	.type	deerlapse_0_1_0_sealer_next,@function
deerlapse_0_1_0_sealer_next:                  // @deerlapse_0_1_0_sealer_next
	.size	deerlapse_0_1_0_sealer_next, .Ldeerlapse_0_1_0_func_end48-deerlapse_0_1_0_sealer_next
	.else
	.globl	deerlapse_sealer_next           // -- Begin function deerlapse_sealer_next
	.p2align	2
	.type	deerlapse_sealer_next,@function
deerlapse_sealer_next:                  // @deerlapse_sealer_next
	.size	deerlapse_sealer_next, .Ldeerlapse_0_1_0_func_end48-deerlapse_sealer_next
	.endif
	.cfi_startproc
// %bb.0:                               // %start
	hint	#34
	ldr	x0, [x0, #3192]
	ret
.Ldeerlapse_0_1_0_func_end48:
	.cfi_endproc
                                        // -- End function
	.section	.text.deerlapse_0_1_0_version,"ax",@progbits
	.ifdef	deerlapse_in_rust
	.globl	deerlapse_0_1_0_version               // -- Begin function deerlapse_0_1_0_version
	.p2align	2
	.type	deerlapse_0_1_0_version,@function
deerlapse_0_1_0_version:                      // @deerlapse_0_1_0_version
	.size	deerlapse_0_1_0_version, .Ldeerlapse_0_1_0_func_end49-deerlapse_0_1_0_version
	.else
	.globl	deerlapse_version               // -- Begin function deerlapse_version
	.p2align	2
	.type	deerlapse_version,@function
deerlapse_version:                      // @deerlapse_version
	.size	deerlapse_version, .Ldeerlapse_0_1_0_func_end49-deerlapse_version
	.endif
	.cfi_startproc
// %bb.0:                               // %start
	hint	#34
	mov	w0, #256                        // =0x100
	ret
.Ldeerlapse_0_1_0_func_end49:
	.cfi_endproc
                                        // -- End function
	.section	.text.deerlapse_0_1_0_xaes_wipe,"ax",@progbits
	.ifdef	deerlapse_in_rust
	.globl	deerlapse_0_1_0_xaes_wipe             // -- Begin function deerlapse_0_1_0_xaes_wipe
	.p2align	2
	.type	deerlapse_0_1_0_xaes_wipe,@function
deerlapse_0_1_0_xaes_wipe:                    // @deerlapse_0_1_0_xaes_wipe
	.size	deerlapse_0_1_0_xaes_wipe, .Ldeerlapse_0_1_0_func_end50-deerlapse_0_1_0_xaes_wipe
	.else
	.globl	deerlapse_xaes_wipe             // -- Begin function deerlapse_xaes_wipe
	.p2align	2
	.type	deerlapse_xaes_wipe,@function
deerlapse_xaes_wipe:                    // @deerlapse_xaes_wipe
	.size	deerlapse_xaes_wipe, .Ldeerlapse_0_1_0_func_end50-deerlapse_xaes_wipe
	.endif
	.cfi_startproc
// %bb.0:                               // %start
	hint	#34
	movi	v0.2d, #0000000000000000
	str	xzr, [x0, #256]
	stp	q0, q0, [x0]
	stp	q0, q0, [x0, #32]
	stp	q0, q0, [x0, #64]
	stp	q0, q0, [x0, #96]
	stp	q0, q0, [x0, #128]
	stp	q0, q0, [x0, #160]
	stp	q0, q0, [x0, #192]
	stp	q0, q0, [x0, #224]
	ret
.Ldeerlapse_0_1_0_func_end50:
	.cfi_endproc
                                        // -- End function
	.section	.text.deerlapse_0_1_0_quic_header_key_init,"ax",@progbits
	.ifdef	deerlapse_in_rust
	.globl	deerlapse_0_1_0_quic_header_key_init  // -- Begin function deerlapse_0_1_0_quic_header_key_init
	.p2align	2
	.type	deerlapse_0_1_0_quic_header_key_init,@function
deerlapse_0_1_0_quic_header_key_init:         // @deerlapse_0_1_0_quic_header_key_init
	.size	deerlapse_0_1_0_quic_header_key_init, .Ldeerlapse_0_1_0_func_end51-deerlapse_0_1_0_quic_header_key_init
	.else
	.globl	deerlapse_quic_header_key_init  // -- Begin function deerlapse_quic_header_key_init
	.p2align	2
	.type	deerlapse_quic_header_key_init,@function
deerlapse_quic_header_key_init:         // @deerlapse_quic_header_key_init
	.size	deerlapse_quic_header_key_init, .Ldeerlapse_0_1_0_func_end51-deerlapse_quic_header_key_init
	.endif
	.cfi_startproc
// %bb.0:                               // %start
	hint	#34
	mov	w8, #4096                       // =0x1000
	cmp	x1, #0
	csel	x9, x8, xzr, eq
	cmp	x2, #32
	b.eq	.Ldeerlapse_0_1_0_BB51_3
// %bb.1:                               // %start
	cmp	x2, #16
	b.ne	.Ldeerlapse_0_1_0_BB51_5
// %bb.2:                               // %join.3.fold.split.i.i
	mov	w8, wzr
	b	.Ldeerlapse_0_1_0_BB51_4
.Ldeerlapse_0_1_0_BB51_3:
	mov	w8, #1                          // =0x1
.Ldeerlapse_0_1_0_BB51_4:                               // %arm.1.i
	stp	x29, x30, [sp, #-32]!           // 16-byte Folded Spill
	.cfi_def_cfa_offset 32
	str	x19, [sp, #16]                  // 8-byte Spill
	mov	x29, sp
	.cfi_def_cfa w29, 32
	.cfi_offset w19, -16
	.cfi_offset w30, -24
	.cfi_offset w29, -32
	mov	x19, x0
	add	x0, x0, #8
	add	x2, x1, x9
	mov	w1, w8
	bl	"deerlapse_0_1_0::aead_ciphers_wide::aes::expand"
	mov	x8, x0
	mov	w0, #1                          // =0x1
	str	x8, [x19]
	.cfi_def_cfa wsp, 32
	ldr	x19, [sp, #16]                  // 8-byte Reload
	ldp	x29, x30, [sp], #32             // 16-byte Folded Reload
	.cfi_def_cfa_offset 0
	.cfi_restore w19
	.cfi_restore w30
	.cfi_restore w29
	ret
.Ldeerlapse_0_1_0_BB51_5:
	mov	w0, wzr
	ret
.Ldeerlapse_0_1_0_func_end51:
	.cfi_endproc
                                        // -- End function
	.section	.text.deerlapse_0_1_0_quic_header_key_mask,"ax",@progbits
	.ifdef	deerlapse_in_rust
	.globl	deerlapse_0_1_0_quic_header_key_mask  // -- Begin function deerlapse_0_1_0_quic_header_key_mask
	.p2align	2
	.type	deerlapse_0_1_0_quic_header_key_mask,@function
deerlapse_0_1_0_quic_header_key_mask:         // @deerlapse_0_1_0_quic_header_key_mask
	.size	deerlapse_0_1_0_quic_header_key_mask, .Ldeerlapse_0_1_0_func_end52-deerlapse_0_1_0_quic_header_key_mask
	.else
	.globl	deerlapse_quic_header_key_mask  // -- Begin function deerlapse_quic_header_key_mask
	.p2align	2
	.type	deerlapse_quic_header_key_mask,@function
deerlapse_quic_header_key_mask:         // @deerlapse_quic_header_key_mask
	.size	deerlapse_quic_header_key_mask, .Ldeerlapse_0_1_0_func_end52-deerlapse_quic_header_key_mask
	.endif
	.cfi_startproc
// %bb.0:                               // %start
	hint	#34
	sub	sp, sp, #64
	.cfi_def_cfa_offset 64
	stp	x29, x30, [sp, #32]             // 16-byte Folded Spill
	stp	x20, x19, [sp, #48]             // 16-byte Folded Spill
	add	x29, sp, #32
	.cfi_def_cfa w29, 32
	.cfi_offset w19, -8
	.cfi_offset w20, -16
	.cfi_offset w30, -24
	.cfi_offset w29, -32
	mov	x19, x2
	ldr	x2, [x0]
	sub	x20, x2, #10
	cmp	x20, #4
	b.hi	.Ldeerlapse_0_1_0_BB52_2
// %bb.1:                               // %join.3.i
	mov	x8, x0
	mov	x3, x1
	add	x0, sp, #16
	add	x1, x8, #8
	stp	xzr, xzr, [sp, #16]
	bl	"deerlapse_0_1_0::aead_ciphers_wide::aes::block_key::BlockKeyRef::encrypt_one"
	ldrb	w8, [sp, #20]
	ldr	w9, [sp, #16]
	strb	w8, [sp, #12]
	str	w9, [sp, #8]
	str	w9, [x19]
	strb	w8, [x19, #4]
.Ldeerlapse_0_1_0_BB52_2:                               // %"deerlapse::header_key::deerlapse_quic_header_key_mask.exit"
	cmp	x20, #5
	cset	w0, lo
	.cfi_def_cfa wsp, 64
	ldp	x20, x19, [sp, #48]             // 16-byte Folded Reload
	ldp	x29, x30, [sp, #32]             // 16-byte Folded Reload
	add	sp, sp, #64
	.cfi_def_cfa_offset 0
	.cfi_restore w19
	.cfi_restore w20
	.cfi_restore w30
	.cfi_restore w29
	ret
.Ldeerlapse_0_1_0_func_end52:
	.cfi_endproc
                                        // -- End function
	.section	.text.deerlapse_0_1_0_key_begin,"ax",@progbits
	.ifdef	deerlapse_in_rust
	.globl	deerlapse_0_1_0_key_begin             // -- Begin function deerlapse_0_1_0_key_begin
	.p2align	2
	.type	deerlapse_0_1_0_key_begin,@function
deerlapse_0_1_0_key_begin:                    // @deerlapse_0_1_0_key_begin
	.size	deerlapse_0_1_0_key_begin, .Ldeerlapse_0_1_0_func_end53-deerlapse_0_1_0_key_begin
	.else
	.globl	deerlapse_key_begin             // -- Begin function deerlapse_key_begin
	.p2align	2
	.type	deerlapse_key_begin,@function
deerlapse_key_begin:                    // @deerlapse_key_begin
	.size	deerlapse_key_begin, .Ldeerlapse_0_1_0_func_end53-deerlapse_key_begin
	.endif
	.cfi_startproc
// %bb.0:                               // %start
	hint	#34
	ldr	w8, [x0, #1920]
	cmp	x2, #0
	mov	w9, #4096                       // =0x1000
	sub	w10, w8, #10
	csel	x8, x9, xzr, eq
	cmp	w10, #4
	b.hi	.Ldeerlapse_0_1_0_BB53_3
// %bb.1:                               // %join.3.i
	sub	sp, sp, #304
	.cfi_def_cfa_offset 304
	stp	x29, x30, [sp, #208]            // 16-byte Folded Spill
	str	x28, [sp, #224]                 // 8-byte Spill
	stp	x26, x25, [sp, #240]            // 16-byte Folded Spill
	stp	x24, x23, [sp, #256]            // 16-byte Folded Spill
	stp	x22, x21, [sp, #272]            // 16-byte Folded Spill
	stp	x20, x19, [sp, #288]            // 16-byte Folded Spill
	add	x29, sp, #208
	.cfi_def_cfa w29, 96
	.cfi_offset w19, -8
	.cfi_offset w20, -16
	.cfi_offset w21, -24
	.cfi_offset w22, -32
	.cfi_offset w23, -40
	.cfi_offset w24, -48
	.cfi_offset w25, -56
	.cfi_offset w26, -64
	.cfi_offset w28, -80
	.cfi_offset w30, -88
	.cfi_offset w29, -96
	.cfi_remember_state
	lsr	x9, x3, #61
	mov	x19, x3
	add	x20, x0, #2168
	add	x10, x0, #2680
	stp	x20, x10, [sp]
	cbz	x9, .Ldeerlapse_0_1_0_BB53_4
// %bb.2:                               // %"aead_ciphers_wide::aes_gcm::ExpandedKey::begin.exit.i"
	mov	w0, wzr
	b	.Ldeerlapse_0_1_0_BB53_7
.Ldeerlapse_0_1_0_BB53_3:
	.cfi_def_cfa wsp, 0
	.cfi_same_value w19
	.cfi_same_value w20
	.cfi_same_value w21
	.cfi_same_value w22
	.cfi_same_value w23
	.cfi_same_value w24
	.cfi_same_value w25
	.cfi_same_value w26
	.cfi_same_value w28
	.cfi_same_value w30
	.cfi_same_value w29
	mov	w0, wzr
	ret
.Ldeerlapse_0_1_0_BB53_4:                               // %join.3.i.i.i
	.cfi_restore_state
	add	x21, x2, x8
	mov	x24, x1
	mov	x22, x4
	mov	x0, sp
	sub	x1, x29, #32
	and	x3, x19, #0x1ffffffffffffff0
	sub	x4, x29, #48
	mov	x2, x21
	stp	xzr, xzr, [x29, #-32]
	add	x23, sp, #16
	stp	xzr, xzr, [x29, #-48]
	and	x25, x19, #0x1ffffffffffffff0
	and	x26, x19, #0xf
	bl	"deerlapse_0_1_0::aead_ciphers_wide::gcm::KeyRefUpdateBlocks::update_blocks"
	cbz	x26, .Ldeerlapse_0_1_0_BB53_6
// %bb.5:                               // %then.1.i.i.i.i.i
	mov	w8, #16                         // =0x10
	mov	w1, wzr
	sub	x2, x8, x26
	sub	x8, x29, #16
	add	x0, x8, x26
	bl	memset
	sub	x0, x29, #16
	add	x1, x21, x25
	and	x2, x19, #0xf
	bl	memcpy
	sub	x1, x29, #32
	sub	x2, x29, #16
	sub	x3, x29, #48
	mov	x0, x20
	bl	"deerlapse_0_1_0::aead_ciphers_wide::gcm::KeyRefUpdateBlock::update_block"
.Ldeerlapse_0_1_0_BB53_6:                               // %arm.4.i
	movi	v0.2d, #0000000000000000
	ldur	x8, [x23, #161]
	ldur	x9, [x29, #-24]
	ldurb	w10, [x29, #-32]
	mov	w0, #1                          // =0x1
	str	x8, [sp, #16]
	ldr	x8, [x24]
	stur	x9, [sp, #23]
	ldr	w9, [x24, #8]
	stur	q0, [sp, #95]
	stur	q0, [sp, #111]
	stur	q0, [x23, #127]
	stur	q0, [sp, #127]
	stur	q0, [sp, #31]
	stur	q0, [sp, #47]
	ldr	q3, [sp, #16]
	stur	q0, [sp, #63]
	stur	q0, [sp, #79]
	ldp	q0, q1, [sp, #96]
	stur	w9, [x29, #-8]
	mov	w9, w9
	stur	x8, [x29, #-16]
	stur	q0, [x22, #81]
	ldr	q0, [sp, #128]
	stur	q1, [x22, #97]
	ldur	q1, [x23, #127]
	stur	q0, [x22, #113]
	str	q1, [x22, #128]
	ldp	q0, q1, [sp, #32]
	strb	w10, [x22]
	stur	q3, [x22, #1]
	stur	q0, [x22, #17]
	ldp	q0, q2, [sp, #64]
	stur	q1, [x22, #33]
	stp	x19, xzr, [x22, #144]
	stur	q0, [x22, #49]
	stur	q2, [x22, #65]
	str	x8, [x22, #160]
	stp	w9, w0, [x22, #168]
.Ldeerlapse_0_1_0_BB53_7:
	.cfi_def_cfa wsp, 304
	ldp	x20, x19, [sp, #288]            // 16-byte Folded Reload
	ldr	x28, [sp, #224]                 // 8-byte Reload
	ldp	x22, x21, [sp, #272]            // 16-byte Folded Reload
	ldp	x24, x23, [sp, #256]            // 16-byte Folded Reload
	ldp	x26, x25, [sp, #240]            // 16-byte Folded Reload
	ldp	x29, x30, [sp, #208]            // 16-byte Folded Reload
	add	sp, sp, #304
	.cfi_def_cfa_offset 0
	.cfi_restore w19
	.cfi_restore w20
	.cfi_restore w21
	.cfi_restore w22
	.cfi_restore w23
	.cfi_restore w24
	.cfi_restore w25
	.cfi_restore w26
	.cfi_restore w28
	.cfi_restore w30
	.cfi_restore w29
	ret
.Ldeerlapse_0_1_0_func_end53:
	.cfi_endproc
                                        // -- End function
	.section	.rodata.cst16,"aM",@progbits,16
	.p2align	4, 0x0                          // -- Begin function deerlapse_0_1_0_key_finish
.Ldeerlapse_0_1_0_CPI54_0:
	.xword	3                               // 0x3
	.xword	0                               // 0x0
.Ldeerlapse_0_1_0_CPI54_1:
	.xword	-40                             // 0xffffffffffffffd8
	.xword	-32                             // 0xffffffffffffffe0
.Ldeerlapse_0_1_0_CPI54_2:
	.xword	-56                             // 0xffffffffffffffc8
	.xword	-48                             // 0xffffffffffffffd0
.Ldeerlapse_0_1_0_CPI54_3:
	.xword	-5                              // 0xfffffffffffffffb
	.xword	0                               // 0x0
.Ldeerlapse_0_1_0_CPI54_4:
	.xword	-21                             // 0xffffffffffffffeb
	.xword	-13                             // 0xfffffffffffffff3
.Ldeerlapse_0_1_0_CPI54_5:
	.byte	0                               // 0x0
	.byte	0                               // 0x0
	.byte	0                               // 0x0
	.byte	0                               // 0x0
	.byte	0                               // 0x0
	.byte	0                               // 0x0
	.byte	0                               // 0x0
	.byte	3                               // 0x3
	.byte	0                               // 0x0
	.byte	0                               // 0x0
	.byte	0                               // 0x0
	.byte	0                               // 0x0
	.byte	0                               // 0x0
	.byte	0                               // 0x0
	.byte	0                               // 0x0
	.byte	3                               // 0x3
	.section	.text.deerlapse_0_1_0_key_finish,"ax",@progbits
	.ifdef	deerlapse_in_rust
	.globl	deerlapse_0_1_0_key_finish
	.p2align	2
	.type	deerlapse_0_1_0_key_finish,@function
deerlapse_0_1_0_key_finish:                   // @deerlapse_0_1_0_key_finish
	.size	deerlapse_0_1_0_key_finish, .Ldeerlapse_0_1_0_func_end54-deerlapse_0_1_0_key_finish
	.else
	.globl	deerlapse_key_finish
	.p2align	2
	.type	deerlapse_key_finish,@function
deerlapse_key_finish:                   // @deerlapse_key_finish
	.size	deerlapse_key_finish, .Ldeerlapse_0_1_0_func_end54-deerlapse_key_finish
	.endif
	.cfi_startproc
// %bb.0:                               // %start
	hint	#34
	ldr	w8, [x0, #1920]
	sub	w8, w8, #10
	cmp	w8, #4
	b.hi	.Ldeerlapse_0_1_0_BB54_5
// %bb.1:                               // %else.4.i
	ldr	w8, [x1, #172]
	cbz	w8, .Ldeerlapse_0_1_0_BB54_5
// %bb.2:                               // %after.1.i
	sub	sp, sp, #384
	.cfi_def_cfa_offset 384
	stp	x29, x30, [sp, #288]            // 16-byte Folded Spill
	stp	x28, x27, [sp, #304]            // 16-byte Folded Spill
	stp	x26, x25, [sp, #320]            // 16-byte Folded Spill
	stp	x24, x23, [sp, #336]            // 16-byte Folded Spill
	stp	x22, x21, [sp, #352]            // 16-byte Folded Spill
	stp	x20, x19, [sp, #368]            // 16-byte Folded Spill
	add	x29, sp, #288
	.cfi_def_cfa w29, 96
	.cfi_offset w19, -8
	.cfi_offset w20, -16
	.cfi_offset w21, -24
	.cfi_offset w22, -32
	.cfi_offset w23, -40
	.cfi_offset w24, -48
	.cfi_offset w25, -56
	.cfi_offset w26, -64
	.cfi_offset w27, -72
	.cfi_offset w28, -80
	.cfi_offset w30, -88
	.cfi_offset w29, -96
	ldp	q0, q1, [x1, #128]
	mov	x24, sp
	ldr	q2, [x1, #160]
	mov	x19, x0
	mov	x21, x2
	add	x8, x0, #2168
	add	x9, x0, #2680
	sub	x22, x29, #96
	stp	q0, q1, [sp, #128]
	ldp	q0, q1, [x1, #64]
	str	q2, [sp, #160]
	ldr	x23, [sp, #152]
	add	x2, x24, #16
	sub	x4, x29, #32
	stp	x8, x9, [x29, #-112]
	add	x25, x24, #16
	stp	q0, q1, [sp, #64]
	ldp	q0, q2, [x1, #96]
	and	x3, x23, #0x70
	stp	xzr, xzr, [x29, #-64]
	and	x26, x23, #0x70
	stp	xzr, xzr, [x29, #-80]
	and	x27, x23, #0xf
	stp	q0, q2, [sp, #96]
	ldp	q1, q0, [x1]
	movi	v2.2d, #0000000000000000
	stur	xzr, [x29, #-96]
	stur	xzr, [x22, #7]
	stp	q1, q0, [sp]
	ldp	q0, q3, [x1, #32]
	stp	xzr, xzr, [x29, #-32]
	stp	q2, q2, [x1, #16]
	stp	q0, q3, [sp, #32]
	ldr	q0, [sp]
	stp	q2, q2, [x1, #48]
	stp	q2, q2, [x1, #80]
	stp	q2, q2, [x1, #112]
	stp	q2, q2, [x1, #144]
	str	q2, [x1]
	sub	x1, x29, #16
	ldr	w20, [x0, #1920]
	sub	x0, x29, #112
	stur	q0, [x29, #-16]
	bl	"deerlapse_0_1_0::aead_ciphers_wide::gcm::KeyRefUpdateBlocks::update_blocks"
	cbz	x27, .Ldeerlapse_0_1_0_BB54_4
// %bb.3:                               // %then.1.i.i.i.i.i
	mov	w8, #16                         // =0x10
	mov	w1, wzr
	sub	x2, x8, x27
	sub	x8, x29, #48
	add	x0, x8, x27
	bl	memset
	sub	x0, x29, #48
	add	x1, x25, x26
	and	x2, x23, #0xf
	bl	memcpy
	add	x0, x19, #2168
	sub	x1, x29, #16
	sub	x2, x29, #48
	sub	x3, x29, #32
	bl	"deerlapse_0_1_0::aead_ciphers_wide::gcm::KeyRefUpdateBlock::update_block"
.Ldeerlapse_0_1_0_BB54_4:                               // %"aead_ciphers_wide::aes_gcm::ExpandedKey::finish.exit.i"
	add	x8, x24, #144
	adrp	x9, .Ldeerlapse_0_1_0_CPI54_0
	adrp	x10, .Ldeerlapse_0_1_0_CPI54_4
	ld1r	{ v0.2d }, [x8]
	ldr	q1, [x9, :lo12:.Ldeerlapse_0_1_0_CPI54_0]
	lsl	x8, x23, #3
	adrp	x9, .Ldeerlapse_0_1_0_CPI54_3
	ldr	q3, [x10, :lo12:.Ldeerlapse_0_1_0_CPI54_4]
	adrp	x10, .Ldeerlapse_0_1_0_CPI54_2
	ldr	q2, [x9, :lo12:.Ldeerlapse_0_1_0_CPI54_3]
	adrp	x9, .Ldeerlapse_0_1_0_CPI54_1
	dup	v4.2d, x8
	ushl	v0.2d, v0.2d, v1.2d
	dup	v1.2d, x23
	ldr	q6, [x9, :lo12:.Ldeerlapse_0_1_0_CPI54_1]
	ldr	q7, [x10, :lo12:.Ldeerlapse_0_1_0_CPI54_2]
	adrp	x8, .Ldeerlapse_0_1_0_CPI54_5
	sub	x0, x29, #112
	ushl	v17.2d, v4.2d, v6.2d
	sub	x1, x29, #64
	sub	x2, x29, #80
	dup	v5.2d, v0.d[0]
	dup	v0.2d, v0.d[1]
	ushl	v16.2d, v1.2d, v2.2d
	ushl	v1.2d, v1.2d, v3.2d
	ushl	v4.2d, v4.2d, v7.2d
	sub	x4, x29, #16
	mov	w3, #16                         // =0x10
	ushl	v6.2d, v5.2d, v6.2d
	ushl	v5.2d, v5.2d, v7.2d
	ushl	v2.2d, v0.2d, v2.2d
	ushl	v0.2d, v0.2d, v3.2d
	uzp1	v1.4s, v1.4s, v16.4s
	uzp1	v3.4s, v4.4s, v17.4s
	uzp1	v0.4s, v0.4s, v2.4s
	uzp1	v2.4s, v5.4s, v6.4s
	uzp1	v1.8h, v3.8h, v1.8h
	uzp1	v0.8h, v2.8h, v0.8h
	ldur	q2, [x29, #-16]
	stp	xzr, xzr, [x29, #-16]
	uzp1	v0.16b, v0.16b, v1.16b
	ldr	q1, [x8, :lo12:.Ldeerlapse_0_1_0_CPI54_5]
	ushl	v0.16b, v0.16b, v1.16b
	stp	q0, q2, [x29, #-80]
	bl	"deerlapse_0_1_0::aead_ciphers_wide::gcm::KeyRefUpdateBlocks::update_blocks"
	ldr	w8, [sp, #168]
	ldr	x9, [sp, #160]
	sub	x0, x29, #16
	sturb	wzr, [x29, #-2]
	add	x1, x19, #1928
	sub	x3, x29, #32
	sturh	wzr, [x29, #-4]
	mov	x2, x20
	stur	w8, [x29, #-8]
	stur	x9, [x29, #-16]
	ldur	x8, [x22, #87]
	stur	x9, [x29, #-96]
	stp	xzr, xzr, [x29, #-16]
	stur	x8, [x22, #7]
	ldur	x8, [x29, #-96]
	ldur	x9, [x22, #7]
	stur	x8, [x29, #-32]
	mov	w8, #1                          // =0x1
	stur	x9, [x22, #71]
	sturb	w8, [x29, #-17]
	bl	"deerlapse_0_1_0::aead_ciphers_wide::aes::block_key::BlockKeyRef::encrypt_one"
	ldur	q0, [x29, #-64]
	ldur	q1, [x29, #-16]
	mov	w0, #1                          // =0x1
	eor	v0.16b, v1.16b, v0.16b
	str	q0, [x21]
	.cfi_def_cfa wsp, 384
	ldp	x20, x19, [sp, #368]            // 16-byte Folded Reload
	ldp	x22, x21, [sp, #352]            // 16-byte Folded Reload
	ldp	x24, x23, [sp, #336]            // 16-byte Folded Reload
	ldp	x26, x25, [sp, #320]            // 16-byte Folded Reload
	ldp	x28, x27, [sp, #304]            // 16-byte Folded Reload
	ldp	x29, x30, [sp, #288]            // 16-byte Folded Reload
	add	sp, sp, #384
	.cfi_def_cfa_offset 0
	.cfi_restore w19
	.cfi_restore w20
	.cfi_restore w21
	.cfi_restore w22
	.cfi_restore w23
	.cfi_restore w24
	.cfi_restore w25
	.cfi_restore w26
	.cfi_restore w27
	.cfi_restore w28
	.cfi_restore w30
	.cfi_restore w29
	ret
.Ldeerlapse_0_1_0_BB54_5:
	mov	w0, wzr
	ret
.Ldeerlapse_0_1_0_func_end54:
	.cfi_endproc
                                        // -- End function
	.section	.text.deerlapse_0_1_0_key_open,"ax",@progbits
	.ifdef	deerlapse_in_rust
	.globl	deerlapse_0_1_0_key_open              // -- Begin function deerlapse_0_1_0_key_open
	.p2align	2
	.type	deerlapse_0_1_0_key_open,@function
deerlapse_0_1_0_key_open:                     // @deerlapse_0_1_0_key_open
	.size	deerlapse_0_1_0_key_open, .Ldeerlapse_0_1_0_func_end55-deerlapse_0_1_0_key_open
	.else
	.globl	deerlapse_key_open              // -- Begin function deerlapse_key_open
	.p2align	2
	.type	deerlapse_key_open,@function
deerlapse_key_open:                     // @deerlapse_key_open
	.size	deerlapse_key_open, .Ldeerlapse_0_1_0_func_end55-deerlapse_key_open
	.endif
	.cfi_startproc
// %bb.0:                               // %start
	hint	#34
	ldr	w11, [x0, #1920]
	cmp	x2, #0
	mov	w9, #4096                       // =0x1000
	csel	x8, x9, xzr, eq
	cmp	x4, #0
	sub	w12, w11, #10
	csel	x10, x9, xzr, eq
	cmp	w12, #4
	b.hi	.Ldeerlapse_0_1_0_BB55_7
// %bb.1:                               // %join.3.i
	sub	sp, sp, #208
	.cfi_def_cfa_offset 208
	stp	x29, x30, [sp, #144]            // 16-byte Folded Spill
	str	x23, [sp, #160]                 // 8-byte Spill
	stp	x22, x21, [sp, #176]            // 16-byte Folded Spill
	stp	x20, x19, [sp, #192]            // 16-byte Folded Spill
	add	x29, sp, #144
	.cfi_def_cfa w29, 64
	.cfi_offset w19, -8
	.cfi_offset w20, -16
	.cfi_offset w21, -24
	.cfi_offset w22, -32
	.cfi_offset w23, -48
	.cfi_offset w30, -56
	.cfi_offset w29, -64
	.cfi_remember_state
	subs	x19, x5, #16
	b.lo	.Ldeerlapse_0_1_0_BB55_6
// %bb.2:                               // %arm.1.i.i
	subs	x9, x19, x6
	b.lo	.Ldeerlapse_0_1_0_BB55_6
// %bb.3:                               // %arm.8.i.i
	lsr	x12, x3, #61
	cbnz	x12, .Ldeerlapse_0_1_0_BB55_6
// %bb.4:                               // %arm.8.i.i
	mov	x12, #68719476704               // =0xfffffffe0
	cmp	x9, x12
	b.hi	.Ldeerlapse_0_1_0_BB55_6
// %bb.5:                               // %then.11.i.i
	add	x12, x0, #1928
	str	x11, [sp, #72]
	add	x11, x0, #2168
	stp	x0, x12, [sp, #56]
	ldr	w12, [x0, #1924]
	add	x20, x4, x10
	ldr	w10, [x1, #8]
	ldr	q0, [x20, x19]
	mov	x22, x7
	stp	w12, wzr, [sp, #80]
	add	x12, x0, #2680
	sub	x0, x29, #52
	stp	x11, x12, [sp, #40]
	ldr	x11, [x1]
	add	x1, sp, #56
	stur	w10, [x29, #-8]
	add	x10, sp, #24
	mov	x5, x3
	stur	x11, [x29, #-16]
	mov	x11, x2
	add	x2, sp, #40
	add	x4, x11, x8
	mov	x8, x6
	sub	x3, x29, #16
	sub	x6, x29, #32
	add	x7, x20, x8
	stp	xzr, xzr, [sp, #24]
	stur	q0, [x29, #-32]
	mov	x21, x8
	sub	x23, x29, #52
	stp	x9, x10, [sp]
	bl	"deerlapse_0_1_0::aead_ciphers::aes_gcm::opening::authenticate::<#7bfdf0a6b4753edd>"
	ldurb	w8, [x29, #-52]
	cbz	w8, .Ldeerlapse_0_1_0_BB55_8
.Ldeerlapse_0_1_0_BB55_6:                               // %"aead_ciphers_wide::aes_gcm::ExpandedKey::open_within_to_front.exit.i"
	mov	w0, wzr
	.cfi_def_cfa wsp, 208
	ldp	x20, x19, [sp, #192]            // 16-byte Folded Reload
	ldr	x23, [sp, #160]                 // 8-byte Reload
	ldp	x22, x21, [sp, #176]            // 16-byte Folded Reload
	ldp	x29, x30, [sp, #144]            // 16-byte Folded Reload
	add	sp, sp, #208
	.cfi_def_cfa_offset 0
	.cfi_restore w19
	.cfi_restore w20
	.cfi_restore w21
	.cfi_restore w22
	.cfi_restore w23
	.cfi_restore w30
	.cfi_restore w29
	ret
.Ldeerlapse_0_1_0_BB55_7:
	mov	w0, wzr
	ret
.Ldeerlapse_0_1_0_BB55_8:                               // %arm.4.i
	.cfi_restore_state
	add	x0, sp, #56
	orr	x1, x23, #0x1
	add	x5, sp, #24
	mov	x2, x20
	mov	x3, x19
	mov	x4, x21
	bl	"deerlapse_0_1_0::aead_ciphers::aes_gcm::counter_mode::encrypt_within::<#6fa349fe97f872a2>"
	mov	x8, x0
	mov	w0, #1                          // =0x1
	str	x8, [x22]
	.cfi_def_cfa wsp, 208
	ldp	x20, x19, [sp, #192]            // 16-byte Folded Reload
	ldr	x23, [sp, #160]                 // 8-byte Reload
	ldp	x22, x21, [sp, #176]            // 16-byte Folded Reload
	ldp	x29, x30, [sp, #144]            // 16-byte Folded Reload
	add	sp, sp, #208
	.cfi_def_cfa_offset 0
	.cfi_restore w19
	.cfi_restore w20
	.cfi_restore w21
	.cfi_restore w22
	.cfi_restore w23
	.cfi_restore w30
	.cfi_restore w29
	ret
.Ldeerlapse_0_1_0_func_end55:
	.cfi_endproc
                                        // -- End function
	.section	.text.deerlapse_0_1_0_key_open_separate_tag,"ax",@progbits
	.ifdef	deerlapse_in_rust
	.globl	deerlapse_0_1_0_key_open_separate_tag // -- Begin function deerlapse_0_1_0_key_open_separate_tag
	.p2align	2
	.type	deerlapse_0_1_0_key_open_separate_tag,@function
deerlapse_0_1_0_key_open_separate_tag:        // @deerlapse_0_1_0_key_open_separate_tag
	.size	deerlapse_0_1_0_key_open_separate_tag, .Ldeerlapse_0_1_0_func_end56-deerlapse_0_1_0_key_open_separate_tag
	.else
	.globl	deerlapse_key_open_separate_tag // -- Begin function deerlapse_key_open_separate_tag
	.p2align	2
	.type	deerlapse_key_open_separate_tag,@function
deerlapse_key_open_separate_tag:        // @deerlapse_key_open_separate_tag
	.size	deerlapse_key_open_separate_tag, .Ldeerlapse_0_1_0_func_end56-deerlapse_key_open_separate_tag
	.endif
	.cfi_startproc
// %bb.0:                               // %start
	hint	#34
	cmp	x2, #0
	mov	w8, #4096                       // =0x1000
	csel	x9, x8, xzr, eq
	cmp	x4, #0
	csel	x10, x8, xzr, eq
	subs	x8, x5, x6
	csel	x13, xzr, x8, lo
	b.lo	.Ldeerlapse_0_1_0_BB56_9
// %bb.1:                               // %arm.3.i
	ldr	w11, [x0, #1920]
	sub	w12, w11, #10
	cmp	w12, #4
	b.hi	.Ldeerlapse_0_1_0_BB56_9
// %bb.2:                               // %then.7.i
	lsr	x12, x3, #61
	mov	x14, x0
	mov	w0, wzr
	cbnz	x12, .Ldeerlapse_0_1_0_BB56_8
// %bb.3:                               // %then.7.i
	mov	x12, #68719411200               // =0xfffff0000
	movk	x12, #65505
	cmp	x13, x12
	b.hs	.Ldeerlapse_0_1_0_BB56_8
// %bb.4:                               // %join.3.i.i.i
	sub	sp, sp, #208
	.cfi_def_cfa_offset 208
	stp	x29, x30, [sp, #144]            // 16-byte Folded Spill
	str	x23, [sp, #160]                 // 8-byte Spill
	stp	x22, x21, [sp, #176]            // 16-byte Folded Spill
	stp	x20, x19, [sp, #192]            // 16-byte Folded Spill
	add	x29, sp, #144
	.cfi_def_cfa w29, 64
	.cfi_offset w19, -8
	.cfi_offset w20, -16
	.cfi_offset w21, -24
	.cfi_offset w22, -32
	.cfi_offset w23, -48
	.cfi_offset w30, -56
	.cfi_offset w29, -64
	add	x13, x14, #1928
	mov	w0, wzr
	str	x11, [sp, #72]
	stp	x14, x13, [sp, #56]
	ldr	w13, [x14, #1924]
	add	x11, x14, #2168
	cmp	x8, x12
	stp	xzr, xzr, [sp, #24]
	stp	w13, wzr, [sp, #80]
	add	x13, x14, #2680
	stp	x11, x13, [sp, #40]
	b.hs	.Ldeerlapse_0_1_0_BB56_7
// %bb.5:                               // %join.7.i.i.i
	ldr	x11, [x1]
	ldr	w12, [x1, #8]
	add	x20, x4, x10
	ldr	q0, [x7]
	mov	x19, x5
	add	x10, sp, #24
	stur	x11, [x29, #-16]
	sub	x0, x29, #52
	add	x4, x2, x9
	mov	x9, x6
	add	x1, sp, #56
	add	x2, sp, #40
	mov	x5, x3
	sub	x3, x29, #16
	sub	x6, x29, #32
	add	x7, x20, x9
	stur	w12, [x29, #-8]
	stur	q0, [x29, #-32]
	mov	x21, x9
	sub	x22, x29, #52
	stp	x8, x10, [sp]
	bl	"deerlapse_0_1_0::aead_ciphers::aes_gcm::opening::authenticate::<#7bfdf0a6b4753edd>"
	ldurb	w8, [x29, #-52]
	cmp	w8, #0
	cset	w0, eq
	cbnz	w8, .Ldeerlapse_0_1_0_BB56_7
// %bb.6:                               // %arm.1.i.i.i.i
	mov	w23, w0
	add	x0, sp, #56
	orr	x1, x22, #0x1
	add	x5, sp, #24
	mov	x2, x20
	mov	x3, x19
	mov	x4, x21
	bl	"deerlapse_0_1_0::aead_ciphers::aes_gcm::counter_mode::encrypt_within::<#6fa349fe97f872a2>"
	mov	w0, w23
.Ldeerlapse_0_1_0_BB56_7:                               // %"aead_ciphers_wide::aes_gcm::ExpandedKeyGcmKey::open.exit.i"
	.cfi_def_cfa wsp, 208
	ldp	x20, x19, [sp, #192]            // 16-byte Folded Reload
	ldr	x23, [sp, #160]                 // 8-byte Reload
	ldp	x22, x21, [sp, #176]            // 16-byte Folded Reload
	ldp	x29, x30, [sp, #144]            // 16-byte Folded Reload
	add	sp, sp, #208
	.cfi_def_cfa_offset 0
	.cfi_restore w19
	.cfi_restore w20
	.cfi_restore w21
	.cfi_restore w22
	.cfi_restore w23
	.cfi_restore w30
	.cfi_restore w29
.Ldeerlapse_0_1_0_BB56_8:                               // %"deerlapse::key::deerlapse_key_open_separate_tag.exit"
	ret
.Ldeerlapse_0_1_0_BB56_9:
	mov	w0, wzr
	ret
.Ldeerlapse_0_1_0_func_end56:
	.cfi_endproc
                                        // -- End function
	.section	.text.deerlapse_0_1_0_key_open_to_sized,"ax",@progbits
	.ifdef	deerlapse_in_rust
	.globl	deerlapse_0_1_0_key_open_to_sized     // -- Begin function deerlapse_0_1_0_key_open_to_sized
	.p2align	2
	.type	deerlapse_0_1_0_key_open_to_sized,@function
deerlapse_0_1_0_key_open_to_sized:            // @deerlapse_0_1_0_key_open_to_sized
	.size	deerlapse_0_1_0_key_open_to_sized, .Ldeerlapse_0_1_0_func_end57-deerlapse_0_1_0_key_open_to_sized
	.else
	.globl	deerlapse_key_open_to_sized     // -- Begin function deerlapse_key_open_to_sized
	.p2align	2
	.type	deerlapse_key_open_to_sized,@function
deerlapse_key_open_to_sized:            // @deerlapse_key_open_to_sized
	.size	deerlapse_key_open_to_sized, .Ldeerlapse_0_1_0_func_end57-deerlapse_key_open_to_sized
	.endif
	.cfi_startproc
// %bb.0:                               // %start
	hint	#34
	sub	sp, sp, #32
	.cfi_def_cfa_offset 32
	stp	x29, x30, [sp, #16]             // 16-byte Folded Spill
	add	x29, sp, #16
	.cfi_def_cfa w29, 16
	.cfi_offset w30, -8
	.cfi_offset w29, -16
	cmp	x2, #0
	mov	w8, #4096                       // =0x1000
	ldr	x10, [x29, #16]
	csel	x9, x8, xzr, eq
	cmp	x4, #0
	csel	x11, x8, xzr, eq
	cmp	x6, #0
	add	x2, x2, x9
	csel	x8, x8, xzr, eq
	add	x4, x4, x11
	str	x10, [sp]
	add	x6, x6, x8
	bl	"deerlapse_0_1_0::deerlapse::out_of_place::deerlapse_key_open_to_sized"
	.cfi_def_cfa wsp, 32
	ldp	x29, x30, [sp, #16]             // 16-byte Folded Reload
	add	sp, sp, #32
	.cfi_def_cfa_offset 0
	.cfi_restore w30
	.cfi_restore w29
	ret
.Ldeerlapse_0_1_0_func_end57:
	.cfi_endproc
                                        // -- End function
	.section	.text.deerlapse_0_1_0_key_open_appended_tag_sized,"ax",@progbits
	.ifdef	deerlapse_in_rust
	.globl	deerlapse_0_1_0_key_open_appended_tag_sized // -- Begin function deerlapse_0_1_0_key_open_appended_tag_sized
	.p2align	2
	.type	deerlapse_0_1_0_key_open_appended_tag_sized,@function
deerlapse_0_1_0_key_open_appended_tag_sized:  // @deerlapse_0_1_0_key_open_appended_tag_sized
	.size	deerlapse_0_1_0_key_open_appended_tag_sized, .Ldeerlapse_0_1_0_func_end58-deerlapse_0_1_0_key_open_appended_tag_sized
	.else
	.globl	deerlapse_key_open_appended_tag_sized // -- Begin function deerlapse_key_open_appended_tag_sized
	.p2align	2
	.type	deerlapse_key_open_appended_tag_sized,@function
deerlapse_key_open_appended_tag_sized:  // @deerlapse_key_open_appended_tag_sized
	.size	deerlapse_key_open_appended_tag_sized, .Ldeerlapse_0_1_0_func_end58-deerlapse_key_open_appended_tag_sized
	.endif
	.cfi_startproc
// %bb.0:                               // %start
	hint	#34
	subs	x5, x5, #16
	b.hs	.Ldeerlapse_0_1_0_BB58_2
// %bb.1:
	mov	w0, wzr
	ret
.Ldeerlapse_0_1_0_BB58_2:                               // %arm.1.i
	sub	sp, sp, #32
	.cfi_def_cfa_offset 32
	stp	x29, x30, [sp, #16]             // 16-byte Folded Spill
	add	x29, sp, #16
	.cfi_def_cfa w29, 16
	.cfi_offset w30, -8
	.cfi_offset w29, -16
	cmp	x6, #0
	mov	w8, #4096                       // =0x1000
	csel	x9, x8, xzr, eq
	cmp	x4, #0
	csel	x10, x8, xzr, eq
	cmp	x2, #0
	add	x6, x6, x9
	add	x4, x4, x10
	csel	x8, x8, xzr, eq
	add	x10, x4, x5
	add	x2, x2, x8
	str	x10, [sp]
	bl	"deerlapse_0_1_0::deerlapse::out_of_place::deerlapse_key_open_to_sized"
	.cfi_def_cfa wsp, 32
	ldp	x29, x30, [sp, #16]             // 16-byte Folded Reload
	add	sp, sp, #32
	.cfi_def_cfa_offset 0
	.cfi_restore w30
	.cfi_restore w29
	ret
.Ldeerlapse_0_1_0_func_end58:
	.cfi_endproc
                                        // -- End function
	.section	.text.deerlapse_0_1_0_key_seal,"ax",@progbits
	.ifdef	deerlapse_in_rust
	.globl	deerlapse_0_1_0_key_seal              // -- Begin function deerlapse_0_1_0_key_seal
	.p2align	2
	.type	deerlapse_0_1_0_key_seal,@function
deerlapse_0_1_0_key_seal:                     // @deerlapse_0_1_0_key_seal
	.size	deerlapse_0_1_0_key_seal, .Ldeerlapse_0_1_0_func_end59-deerlapse_0_1_0_key_seal
	.else
	.globl	deerlapse_key_seal              // -- Begin function deerlapse_key_seal
	.p2align	2
	.type	deerlapse_key_seal,@function
deerlapse_key_seal:                     // @deerlapse_key_seal
	.size	deerlapse_key_seal, .Ldeerlapse_0_1_0_func_end59-deerlapse_key_seal
	.endif
	.cfi_startproc
// %bb.0:                               // %start
	hint	#34
	stp	x29, x30, [sp, #-16]!           // 16-byte Folded Spill
	.cfi_def_cfa_offset 16
	mov	x29, sp
	.cfi_def_cfa w29, 16
	.cfi_offset w30, -8
	.cfi_offset w29, -16
	cmp	x2, #0
	mov	w8, #4096                       // =0x1000
	csel	x9, x8, xzr, eq
	cmp	x4, #0
	csel	x8, x8, xzr, eq
	add	x2, x2, x9
	add	x4, x4, x8
	bl	"deerlapse_0_1_0::deerlapse::key::deerlapse_key_seal"
	.cfi_def_cfa wsp, 16
	ldp	x29, x30, [sp], #16             // 16-byte Folded Reload
	.cfi_def_cfa_offset 0
	.cfi_restore w30
	.cfi_restore w29
	ret
.Ldeerlapse_0_1_0_func_end59:
	.cfi_endproc
                                        // -- End function
	.section	.text.deerlapse_0_1_0_key_seal_to_sized,"ax",@progbits
	.ifdef	deerlapse_in_rust
	.globl	deerlapse_0_1_0_key_seal_to_sized     // -- Begin function deerlapse_0_1_0_key_seal_to_sized
	.p2align	2
	.type	deerlapse_0_1_0_key_seal_to_sized,@function
deerlapse_0_1_0_key_seal_to_sized:            // @deerlapse_0_1_0_key_seal_to_sized
	.size	deerlapse_0_1_0_key_seal_to_sized, .Ldeerlapse_0_1_0_func_end60-deerlapse_0_1_0_key_seal_to_sized
	.else
	.globl	deerlapse_key_seal_to_sized     // -- Begin function deerlapse_key_seal_to_sized
	.p2align	2
	.type	deerlapse_key_seal_to_sized,@function
deerlapse_key_seal_to_sized:            // @deerlapse_key_seal_to_sized
	.size	deerlapse_key_seal_to_sized, .Ldeerlapse_0_1_0_func_end60-deerlapse_key_seal_to_sized
	.endif
	.cfi_startproc
// %bb.0:                               // %start
	hint	#34
	stp	x29, x30, [sp, #-80]!           // 16-byte Folded Spill
	.cfi_def_cfa_offset 80
	stp	x26, x25, [sp, #16]             // 16-byte Folded Spill
	stp	x24, x23, [sp, #32]             // 16-byte Folded Spill
	stp	x22, x21, [sp, #48]             // 16-byte Folded Spill
	stp	x20, x19, [sp, #64]             // 16-byte Folded Spill
	mov	x29, sp
	.cfi_def_cfa w29, 80
	.cfi_offset w19, -8
	.cfi_offset w20, -16
	.cfi_offset w21, -24
	.cfi_offset w22, -32
	.cfi_offset w23, -40
	.cfi_offset w24, -48
	.cfi_offset w25, -56
	.cfi_offset w26, -64
	.cfi_offset w30, -72
	.cfi_offset w29, -80
	.cfi_remember_state
	cmp	x2, #0
	mov	w8, #4096                       // =0x1000
	csel	x21, x8, xzr, eq
	cmp	x4, #0
	csel	x10, x8, xzr, eq
	cmp	x6, #0
	csel	x9, x8, xzr, eq
	cmp	x7, x5
	mov	w5, wzr
	b.ne	.Ldeerlapse_0_1_0_BB60_12
// %bb.1:                               // %start
	ldr	w8, [x0, #1920]
	sub	w8, w8, #10
	cmp	w8, #4
	b.hi	.Ldeerlapse_0_1_0_BB60_12
// %bb.2:                               // %else.7.i
	lsr	x8, x3, #61
	mov	w5, wzr
	cbnz	x8, .Ldeerlapse_0_1_0_BB60_12
// %bb.3:                               // %else.7.i
	mov	x8, #68719476704                // =0xfffffffe0
	cmp	x7, x8
	b.hi	.Ldeerlapse_0_1_0_BB60_12
// %bb.4:                               // %after.1.i
	add	x8, x4, x10
	add	x19, x6, x9
	ldr	x20, [x29, #80]
	sub	x11, x19, x8
	cmp	x11, x7
	b.hs	.Ldeerlapse_0_1_0_BB60_10
// %bb.5:                               // %iter.check
	cmp	x7, #7
	b.ls	.Ldeerlapse_0_1_0_BB60_7
// %bb.6:                               // %vector.memcheck
	add	x8, x9, x6
	add	x11, x10, x4
	sub	x8, x8, x11
	cmp	x8, #32
	b.hs	.Ldeerlapse_0_1_0_BB60_13
.Ldeerlapse_0_1_0_BB60_7:
	mov	x8, xzr
.Ldeerlapse_0_1_0_BB60_8:                               // %join.7.i.i.i.i.i.i.i.preheader
	add	x10, x10, x8
	add	x11, x9, x8
	sub	x8, x7, x8
	add	x9, x4, x10
	add	x10, x6, x11
.Ldeerlapse_0_1_0_BB60_9:                               // %join.7.i.i.i.i.i.i.i
                                        // =>This Inner Loop Header: Depth=1
	ldrb	w11, [x9], #1
	subs	x8, x8, #1
	strb	w11, [x10], #1
	b.ne	.Ldeerlapse_0_1_0_BB60_9
	b	.Ldeerlapse_0_1_0_BB60_11
.Ldeerlapse_0_1_0_BB60_10:                              // %apart.2.i.i.i.i.i.i.i
	mov	x22, x0
	mov	x0, x19
	mov	x23, x1
	mov	x1, x8
	mov	x24, x2
	mov	x2, x7
	mov	x25, x7
	mov	x26, x3
	bl	memmove
	mov	x0, x22
	mov	x1, x23
	mov	x2, x24
	mov	x3, x26
	mov	x7, x25
.Ldeerlapse_0_1_0_BB60_11:                              // %"core::slice::edits::slice+T::copy_from_slice::<i8,20'core::clone::U8Clone{}>.exit.i"
	add	x2, x2, x21
	mov	x4, x19
	mov	x5, x7
	mov	x6, x20
	bl	"deerlapse_0_1_0::deerlapse::key::deerlapse_key_seal"
	mov	w5, w0
.Ldeerlapse_0_1_0_BB60_12:                              // %"deerlapse::out_of_place::deerlapse_key_seal_to_sized.exit"
	mov	w0, w5
	.cfi_def_cfa wsp, 80
	ldp	x20, x19, [sp, #64]             // 16-byte Folded Reload
	ldp	x22, x21, [sp, #48]             // 16-byte Folded Reload
	ldp	x24, x23, [sp, #32]             // 16-byte Folded Reload
	ldp	x26, x25, [sp, #16]             // 16-byte Folded Reload
	ldp	x29, x30, [sp], #80             // 16-byte Folded Reload
	.cfi_def_cfa_offset 0
	.cfi_restore w19
	.cfi_restore w20
	.cfi_restore w21
	.cfi_restore w22
	.cfi_restore w23
	.cfi_restore w24
	.cfi_restore w25
	.cfi_restore w26
	.cfi_restore w30
	.cfi_restore w29
	ret
.Ldeerlapse_0_1_0_BB60_13:                              // %vector.main.loop.iter.check
	.cfi_restore_state
	cmp	x7, #32
	b.hs	.Ldeerlapse_0_1_0_BB60_15
// %bb.14:
	mov	x8, xzr
	b	.Ldeerlapse_0_1_0_BB60_19
.Ldeerlapse_0_1_0_BB60_15:                              // %vector.ph
	add	x12, x10, x4
	add	x13, x9, x6
	and	x11, x7, #0x18
	and	x8, x7, #0xfffffffe0
	add	x12, x12, #16
	add	x13, x13, #16
	and	x14, x7, #0xfffffffe0
.Ldeerlapse_0_1_0_BB60_16:                              // %vector.body
                                        // =>This Inner Loop Header: Depth=1
	ldp	q0, q1, [x12, #-16]
	subs	x14, x14, #32
	add	x12, x12, #32
	stp	q0, q1, [x13, #-16]
	add	x13, x13, #32
	b.ne	.Ldeerlapse_0_1_0_BB60_16
// %bb.17:                              // %middle.block
	cmp	x7, x8
	b.eq	.Ldeerlapse_0_1_0_BB60_11
// %bb.18:                              // %vec.epilog.iter.check
	cbz	x11, .Ldeerlapse_0_1_0_BB60_8
.Ldeerlapse_0_1_0_BB60_19:                              // %vec.epilog.ph
	mov	x11, x8
	and	x8, x7, #0xffffffff8
	add	x12, x10, x11
	add	x13, x9, x11
	sub	x11, x11, x8
	add	x12, x4, x12
	add	x13, x6, x13
.Ldeerlapse_0_1_0_BB60_20:                              // %vec.epilog.vector.body
                                        // =>This Inner Loop Header: Depth=1
	ldr	d0, [x12], #8
	adds	x11, x11, #8
	str	d0, [x13], #8
	b.ne	.Ldeerlapse_0_1_0_BB60_20
// %bb.21:                              // %vec.epilog.middle.block
	cmp	x7, x8
	b.ne	.Ldeerlapse_0_1_0_BB60_8
	b	.Ldeerlapse_0_1_0_BB60_11
.Ldeerlapse_0_1_0_func_end60:
	.cfi_endproc
                                        // -- End function
	.section	.text.deerlapse_0_1_0_key_seal_append_tag_sized,"ax",@progbits
	.ifdef	deerlapse_in_rust
	.globl	deerlapse_0_1_0_key_seal_append_tag_sized // -- Begin function deerlapse_0_1_0_key_seal_append_tag_sized
	.p2align	2
	.type	deerlapse_0_1_0_key_seal_append_tag_sized,@function
deerlapse_0_1_0_key_seal_append_tag_sized:    // @deerlapse_0_1_0_key_seal_append_tag_sized
	.size	deerlapse_0_1_0_key_seal_append_tag_sized, .Ldeerlapse_0_1_0_func_end61-deerlapse_0_1_0_key_seal_append_tag_sized
	.else
	.globl	deerlapse_key_seal_append_tag_sized // -- Begin function deerlapse_key_seal_append_tag_sized
	.p2align	2
	.type	deerlapse_key_seal_append_tag_sized,@function
deerlapse_key_seal_append_tag_sized:    // @deerlapse_key_seal_append_tag_sized
	.size	deerlapse_key_seal_append_tag_sized, .Ldeerlapse_0_1_0_func_end61-deerlapse_key_seal_append_tag_sized
	.endif
	.cfi_startproc
// %bb.0:                               // %start
	hint	#34
	stp	x29, x30, [sp, #-80]!           // 16-byte Folded Spill
	.cfi_def_cfa_offset 80
	stp	x26, x25, [sp, #16]             // 16-byte Folded Spill
	stp	x24, x23, [sp, #32]             // 16-byte Folded Spill
	stp	x22, x21, [sp, #48]             // 16-byte Folded Spill
	stp	x20, x19, [sp, #64]             // 16-byte Folded Spill
	mov	x29, sp
	.cfi_def_cfa w29, 80
	.cfi_offset w19, -8
	.cfi_offset w20, -16
	.cfi_offset w21, -24
	.cfi_offset w22, -32
	.cfi_offset w23, -40
	.cfi_offset w24, -48
	.cfi_offset w25, -56
	.cfi_offset w26, -64
	.cfi_offset w30, -72
	.cfi_offset w29, -80
	.cfi_remember_state
	cmp	x2, #0
	mov	w8, #4096                       // =0x1000
	csel	x20, x8, xzr, eq
	cmp	x4, #0
	csel	x10, x8, xzr, eq
	cmp	x6, #0
	csel	x9, x8, xzr, eq
	subs	x21, x7, #16
	b.hs	.Ldeerlapse_0_1_0_BB61_3
// %bb.1:
	mov	w7, wzr
.Ldeerlapse_0_1_0_BB61_2:                               // %"deerlapse::out_of_place::deerlapse_key_seal_append_tag_sized.exit"
	mov	w0, w7
	.cfi_def_cfa wsp, 80
	ldp	x20, x19, [sp, #64]             // 16-byte Folded Reload
	ldp	x22, x21, [sp, #48]             // 16-byte Folded Reload
	ldp	x24, x23, [sp, #32]             // 16-byte Folded Reload
	ldp	x26, x25, [sp, #16]             // 16-byte Folded Reload
	ldp	x29, x30, [sp], #80             // 16-byte Folded Reload
	.cfi_def_cfa_offset 0
	.cfi_restore w19
	.cfi_restore w20
	.cfi_restore w21
	.cfi_restore w22
	.cfi_restore w23
	.cfi_restore w24
	.cfi_restore w25
	.cfi_restore w26
	.cfi_restore w30
	.cfi_restore w29
	ret
.Ldeerlapse_0_1_0_BB61_3:                               // %arm.1.i
	.cfi_restore_state
	cmp	x21, x5
	mov	w7, wzr
	b.ne	.Ldeerlapse_0_1_0_BB61_2
// %bb.4:                               // %arm.1.i
	ldr	w8, [x0, #1920]
	sub	w8, w8, #10
	cmp	w8, #4
	b.hi	.Ldeerlapse_0_1_0_BB61_2
// %bb.5:                               // %else.7.i.i
	lsr	x8, x3, #61
	mov	w7, wzr
	cbnz	x8, .Ldeerlapse_0_1_0_BB61_2
// %bb.6:                               // %else.7.i.i
	mov	x8, #68719476704                // =0xfffffffe0
	cmp	x5, x8
	b.hi	.Ldeerlapse_0_1_0_BB61_2
// %bb.7:                               // %after.1.i.i
	add	x8, x4, x10
	add	x19, x6, x9
	sub	x11, x19, x8
	cmp	x11, x5
	b.hs	.Ldeerlapse_0_1_0_BB61_13
// %bb.8:                               // %iter.check
	cmp	x5, #7
	b.ls	.Ldeerlapse_0_1_0_BB61_10
// %bb.9:                               // %vector.memcheck
	add	x8, x9, x6
	add	x11, x10, x4
	sub	x8, x8, x11
	cmp	x8, #32
	b.hs	.Ldeerlapse_0_1_0_BB61_15
.Ldeerlapse_0_1_0_BB61_10:
	mov	x8, xzr
.Ldeerlapse_0_1_0_BB61_11:                              // %join.7.i.i.i.i.i.i.i.i.preheader
	add	x10, x10, x8
	add	x11, x9, x8
	sub	x8, x5, x8
	add	x9, x4, x10
	add	x10, x6, x11
.Ldeerlapse_0_1_0_BB61_12:                              // %join.7.i.i.i.i.i.i.i.i
                                        // =>This Inner Loop Header: Depth=1
	ldrb	w11, [x9], #1
	subs	x8, x8, #1
	strb	w11, [x10], #1
	b.ne	.Ldeerlapse_0_1_0_BB61_12
	b	.Ldeerlapse_0_1_0_BB61_14
.Ldeerlapse_0_1_0_BB61_13:                              // %apart.2.i.i.i.i.i.i.i.i
	mov	x22, x0
	mov	x0, x19
	mov	x23, x1
	mov	x1, x8
	mov	x24, x2
	mov	x2, x5
	mov	x25, x5
	mov	x26, x3
	bl	memmove
	mov	x0, x22
	mov	x2, x24
	mov	x1, x23
	mov	x3, x26
	mov	x5, x25
.Ldeerlapse_0_1_0_BB61_14:                              // %"core::slice::edits::slice+T::copy_from_slice::<i8,20'core::clone::U8Clone{}>.exit.i.i"
	add	x2, x2, x20
	add	x6, x19, x21
	mov	x4, x19
	bl	"deerlapse_0_1_0::deerlapse::key::deerlapse_key_seal"
	mov	w7, w0
	b	.Ldeerlapse_0_1_0_BB61_2
.Ldeerlapse_0_1_0_BB61_15:                              // %vector.main.loop.iter.check
	cmp	x5, #32
	b.hs	.Ldeerlapse_0_1_0_BB61_17
// %bb.16:
	mov	x8, xzr
	b	.Ldeerlapse_0_1_0_BB61_21
.Ldeerlapse_0_1_0_BB61_17:                              // %vector.ph
	add	x12, x10, x4
	add	x13, x9, x6
	and	x11, x5, #0x18
	and	x8, x5, #0xfffffffe0
	add	x12, x12, #16
	add	x13, x13, #16
	and	x14, x5, #0xfffffffe0
.Ldeerlapse_0_1_0_BB61_18:                              // %vector.body
                                        // =>This Inner Loop Header: Depth=1
	ldp	q0, q1, [x12, #-16]
	subs	x14, x14, #32
	add	x12, x12, #32
	stp	q0, q1, [x13, #-16]
	add	x13, x13, #32
	b.ne	.Ldeerlapse_0_1_0_BB61_18
// %bb.19:                              // %middle.block
	cmp	x5, x8
	b.eq	.Ldeerlapse_0_1_0_BB61_14
// %bb.20:                              // %vec.epilog.iter.check
	cbz	x11, .Ldeerlapse_0_1_0_BB61_11
.Ldeerlapse_0_1_0_BB61_21:                              // %vec.epilog.ph
	mov	x11, x8
	and	x8, x5, #0xffffffff8
	add	x12, x10, x11
	add	x13, x9, x11
	sub	x11, x11, x8
	add	x12, x4, x12
	add	x13, x6, x13
.Ldeerlapse_0_1_0_BB61_22:                              // %vec.epilog.vector.body
                                        // =>This Inner Loop Header: Depth=1
	ldr	d0, [x12], #8
	adds	x11, x11, #8
	str	d0, [x13], #8
	b.ne	.Ldeerlapse_0_1_0_BB61_22
// %bb.23:                              // %vec.epilog.middle.block
	cmp	x5, x8
	b.ne	.Ldeerlapse_0_1_0_BB61_11
	b	.Ldeerlapse_0_1_0_BB61_14
.Ldeerlapse_0_1_0_func_end61:
	.cfi_endproc
                                        // -- End function
	.section	.text.deerlapse_0_1_0_key_update,"ax",@progbits
	.ifdef	deerlapse_in_rust
	.globl	deerlapse_0_1_0_key_update            // -- Begin function deerlapse_0_1_0_key_update
	.p2align	2
	.type	deerlapse_0_1_0_key_update,@function
deerlapse_0_1_0_key_update:                   // @deerlapse_0_1_0_key_update
	.size	deerlapse_0_1_0_key_update, .Ldeerlapse_0_1_0_func_end62-deerlapse_0_1_0_key_update
	.else
	.globl	deerlapse_key_update            // -- Begin function deerlapse_key_update
	.p2align	2
	.type	deerlapse_key_update,@function
deerlapse_key_update:                   // @deerlapse_key_update
	.size	deerlapse_key_update, .Ldeerlapse_0_1_0_func_end62-deerlapse_key_update
	.endif
	.cfi_startproc
// %bb.0:                               // %start
	hint	#34
	sub	sp, sp, #464
	.cfi_def_cfa_offset 464
	stp	x29, x30, [sp, #368]            // 16-byte Folded Spill
	stp	x28, x27, [sp, #384]            // 16-byte Folded Spill
	stp	x26, x25, [sp, #400]            // 16-byte Folded Spill
	stp	x24, x23, [sp, #416]            // 16-byte Folded Spill
	stp	x22, x21, [sp, #432]            // 16-byte Folded Spill
	stp	x20, x19, [sp, #448]            // 16-byte Folded Spill
	add	x29, sp, #368
	.cfi_def_cfa w29, 96
	.cfi_offset w19, -8
	.cfi_offset w20, -16
	.cfi_offset w21, -24
	.cfi_offset w22, -32
	.cfi_offset w23, -40
	.cfi_offset w24, -48
	.cfi_offset w25, -56
	.cfi_offset w26, -64
	.cfi_offset w27, -72
	.cfi_offset w28, -80
	.cfi_offset w30, -88
	.cfi_offset w29, -96
	ldr	w9, [x0, #1920]
	cmp	x2, #0
	mov	w8, #4096                       // =0x1000
	csel	x8, x8, xzr, eq
	stp	x9, x0, [sp, #16]               // 16-byte Folded Spill
	sub	w9, w9, #10
	cmp	w9, #4
	b.hi	.Ldeerlapse_0_1_0_BB62_45
// %bb.1:                               // %join.3.i
	ldr	w9, [x1, #172]
	mov	x22, x1
	cbz	w9, .Ldeerlapse_0_1_0_BB62_45
// %bb.2:                               // %then.4.i
	ldr	x20, [x22, #152]
	mov	x9, #68719476704                // =0xfffffffe0
	ldr	x11, [sp, #24]                  // 8-byte Reload
	sub	x12, x3, #1
	mov	x19, x3
	sub	x9, x9, x20
	add	x10, x11, #2168
	add	x11, x11, #2680
	cmp	x9, x3
	stp	x10, x11, [sp, #32]
	cset	w13, hs
	cmp	x12, x9
	str	w13, [sp, #12]                  // 4-byte Spill
	b.hs	.Ldeerlapse_0_1_0_BB62_46
// %bb.3:                               // %join.9.lr.ph.i.i.i
	mov	x25, xzr
	add	x26, x2, x8
	add	x27, x22, #16
	add	x28, x8, x2
	b	.Ldeerlapse_0_1_0_BB62_5
.Ldeerlapse_0_1_0_BB62_4:                               // %"aead_ciphers_wide::aes_gcm::pieces::SealState::seal_in_batch::<#7bfdf0a6b4753edd>.exit.i.i.i"
                                        //   in Loop: Header=BB62_5 Depth=1
	cmp	x21, x19
	mov	x25, x21
	b.hs	.Ldeerlapse_0_1_0_BB62_46
.Ldeerlapse_0_1_0_BB62_5:                               // %join.9.i.i.i
                                        // =>This Loop Header: Depth=1
                                        //     Child Loop BB62_32 Depth 2
                                        //     Child Loop BB62_13 Depth 2
                                        //     Child Loop BB62_43 Depth 2
                                        //     Child Loop BB62_19 Depth 2
	and	x23, x20, #0x7f
	mov	w8, #128                        // =0x80
	sub	x9, x19, x25
	sub	x8, x8, x23
	stp	xzr, xzr, [sp, #48]
	cmp	x8, x9
	csel	x24, x8, x9, lo
	cbz	x23, .Ldeerlapse_0_1_0_BB62_7
// %bb.6:                               // %then.1.i.i.i.i.i
                                        //   in Loop: Header=BB62_5 Depth=1
	ldp	q0, q1, [x27, #64]
	stp	q0, q1, [sp, #128]
	ldp	q0, q2, [x27, #96]
	stp	q0, q2, [sp, #160]
	ldp	q1, q0, [x27]
	stp	q1, q0, [sp, #64]
	ldp	q2, q0, [x27, #32]
	b	.Ldeerlapse_0_1_0_BB62_8
.Ldeerlapse_0_1_0_BB62_7:                               // %join.3.i.i.i.i.i
                                        //   in Loop: Header=BB62_5 Depth=1
	sub	x9, x29, #48
	ldur	x8, [x22, #160]
	sub	x11, x29, #48
	sturb	wzr, [x9, #14]
	movi	v0.2d, #0000000000000000
	sub	x2, x29, #176
	sturh	wzr, [x9, #12]
	ldur	w9, [x22, #168]
	sub	x4, x29, #32
	stur	x8, [x29, #-48]
	ldp	x1, x0, [sp, #16]               // 16-byte Folded Reload
	stur	w9, [x29, #-40]
	mov	w9, #1                          // =0x1
	mov	x3, xzr
	ldur	x10, [x11, #7]
	sturb	w9, [x29, #-17]
	mov	w5, #8                          // =0x8
	stp	q0, q0, [x29, #-176]
	stur	x10, [x11, #23]
	ldur	w9, [x29, #-20]
	stur	x8, [x29, #-32]
	stp	q0, q0, [x29, #-144]
	rev	w9, w9
	stp	q0, q0, [x29, #-112]
	add	x9, x9, x20, lsr #4
	stp	q0, q0, [x29, #-80]
	add	w9, w9, #1
	rev	w8, w9
	stur	w8, [x29, #-20]
	bl	"deerlapse_0_1_0::aead_ciphers_wide::aes::ctr32::encrypt_up_to_eight"
	ldp	q0, q1, [x29, #-112]
	stp	q0, q1, [sp, #128]
	ldp	q0, q2, [x29, #-80]
	stp	q0, q2, [sp, #160]
	ldp	q1, q0, [x29, #-176]
	stp	q1, q0, [sp, #64]
	ldp	q2, q0, [x29, #-144]
.Ldeerlapse_0_1_0_BB62_8:                               // %iter.check17
                                        //   in Loop: Header=BB62_5 Depth=1
	stp	q2, q0, [sp, #96]
	ldp	q0, q1, [sp, #128]
	add	x21, x24, x25
	cmp	x24, #8
	add	x1, x26, x25
	add	x8, x27, x23
	stp	q0, q1, [x27, #64]
	ldp	q0, q2, [sp, #160]
	stp	q0, q2, [x27, #96]
	ldp	q1, q0, [sp, #64]
	stp	q1, q0, [x27]
	ldp	q2, q0, [sp, #96]
	stp	q2, q0, [x27, #32]
	b.lo	.Ldeerlapse_0_1_0_BB62_11
// %bb.9:                               // %vector.memcheck11
                                        //   in Loop: Header=BB62_5 Depth=1
	add	x9, x27, x24
	add	x9, x9, x23
	cmp	x1, x9
	b.hs	.Ldeerlapse_0_1_0_BB62_23
// %bb.10:                              // %vector.memcheck11
                                        //   in Loop: Header=BB62_5 Depth=1
	add	x9, x28, x21
	cmp	x8, x9
	b.hs	.Ldeerlapse_0_1_0_BB62_23
.Ldeerlapse_0_1_0_BB62_11:                              //   in Loop: Header=BB62_5 Depth=1
	mov	x9, xzr
.Ldeerlapse_0_1_0_BB62_12:                              // %join.5.i.i.i.i.i.preheader
                                        //   in Loop: Header=BB62_5 Depth=1
	add	x10, x9, x25
	add	x11, x9, x23
	sub	x9, x9, x24
	add	x10, x28, x10
	add	x11, x27, x11
.Ldeerlapse_0_1_0_BB62_13:                              // %join.5.i.i.i.i.i
                                        //   Parent Loop BB62_5 Depth=1
                                        // =>  This Inner Loop Header: Depth=2
	ldrb	w12, [x11], #1
	ldrb	w13, [x10]
	adds	x9, x9, #1
	eor	w12, w13, w12
	strb	w12, [x10], #1
	b.lo	.Ldeerlapse_0_1_0_BB62_13
.Ldeerlapse_0_1_0_BB62_14:                              // %"aead_ciphers_base::bb::xor_assign_at_start.exit.i.loopexit.i.i.i"
                                        //   in Loop: Header=BB62_5 Depth=1
	sub	x9, x8, x1
	cmp	x9, x24
	b.hs	.Ldeerlapse_0_1_0_BB62_20
// %bb.15:                              // %iter.check
                                        //   in Loop: Header=BB62_5 Depth=1
	cmp	x24, #7
	b.ls	.Ldeerlapse_0_1_0_BB62_17
// %bb.16:                              // %vector.memcheck
                                        //   in Loop: Header=BB62_5 Depth=1
	add	x9, x27, x23
	add	x10, x28, x25
	sub	x9, x9, x10
	cmp	x9, #32
	b.hs	.Ldeerlapse_0_1_0_BB62_34
.Ldeerlapse_0_1_0_BB62_17:                              //   in Loop: Header=BB62_5 Depth=1
	mov	x9, xzr
.Ldeerlapse_0_1_0_BB62_18:                              // %join.7.i.i.i.i.i.i.i.i.i.i.preheader
                                        //   in Loop: Header=BB62_5 Depth=1
	add	x10, x9, x25
	add	x11, x9, x23
	sub	x8, x9, x24
	add	x9, x28, x10
	add	x10, x27, x11
.Ldeerlapse_0_1_0_BB62_19:                              // %join.7.i.i.i.i.i.i.i.i.i.i
                                        //   Parent Loop BB62_5 Depth=1
                                        // =>  This Inner Loop Header: Depth=2
	ldrb	w11, [x9], #1
	adds	x8, x8, #1
	strb	w11, [x10], #1
	b.lo	.Ldeerlapse_0_1_0_BB62_19
	b	.Ldeerlapse_0_1_0_BB62_21
.Ldeerlapse_0_1_0_BB62_20:                              // %apart.2.i.i.i.i.i.i.i.i.i.i
                                        //   in Loop: Header=BB62_5 Depth=1
	add	x0, x27, x23
	mov	x2, x24
	bl	memmove
.Ldeerlapse_0_1_0_BB62_21:                              // %"core::slice::edits::slice+T::copy_from_slice::<i8,20'core::clone::U8Clone{}>.exit.i.i.i.i"
                                        //   in Loop: Header=BB62_5 Depth=1
	ldr	x8, [x22, #152]
	add	x9, x24, x23
	cmp	x9, #128
	add	x20, x8, x24
	str	x20, [x22, #152]
	b.ne	.Ldeerlapse_0_1_0_BB62_4
// %bb.22:                              // %then.1.i.i.i.i
                                        //   in Loop: Header=BB62_5 Depth=1
	ldr	q0, [x22]
	add	x0, sp, #32
	sub	x1, x29, #176
	add	x2, x22, #16
	sub	x4, x29, #32
	mov	w3, #128                        // =0x80
	stur	q0, [x29, #-176]
	stp	xzr, xzr, [x29, #-32]
	bl	"deerlapse_0_1_0::aead_ciphers_wide::gcm::KeyRefUpdateBlocks::update_blocks"
	ldur	q0, [x29, #-176]
	str	q0, [sp, #48]
	str	q0, [x22]
	b	.Ldeerlapse_0_1_0_BB62_4
.Ldeerlapse_0_1_0_BB62_23:                              // %vector.main.loop.iter.check19
                                        //   in Loop: Header=BB62_5 Depth=1
	cmp	x24, #32
	b.hs	.Ldeerlapse_0_1_0_BB62_25
// %bb.24:                              //   in Loop: Header=BB62_5 Depth=1
	mov	x9, xzr
	b	.Ldeerlapse_0_1_0_BB62_31
.Ldeerlapse_0_1_0_BB62_25:                              // %vector.ph20
                                        //   in Loop: Header=BB62_5 Depth=1
	ldp	q0, q3, [x1]
	and	x9, x24, #0xe0
	ldp	q1, q2, [x8]
	cmp	x9, #32
	eor	v0.16b, v0.16b, v1.16b
	eor	v1.16b, v3.16b, v2.16b
	stp	q0, q1, [x1]
	b.eq	.Ldeerlapse_0_1_0_BB62_29
// %bb.26:                              // %vector.body23.1
                                        //   in Loop: Header=BB62_5 Depth=1
	ldp	q0, q3, [x1, #32]
	cmp	x9, #64
	ldp	q1, q2, [x8, #32]
	eor	v0.16b, v0.16b, v1.16b
	eor	v1.16b, v3.16b, v2.16b
	stp	q0, q1, [x1, #32]
	b.eq	.Ldeerlapse_0_1_0_BB62_29
// %bb.27:                              // %vector.body23.2
                                        //   in Loop: Header=BB62_5 Depth=1
	ldp	q0, q3, [x1, #64]
	cmp	x9, #96
	ldp	q1, q2, [x8, #64]
	eor	v0.16b, v0.16b, v1.16b
	eor	v1.16b, v3.16b, v2.16b
	stp	q0, q1, [x1, #64]
	b.eq	.Ldeerlapse_0_1_0_BB62_29
// %bb.28:                              // %vector.body23.3
                                        //   in Loop: Header=BB62_5 Depth=1
	ldp	q0, q3, [x1, #96]
	ldp	q1, q2, [x8, #96]
	eor	v0.16b, v0.16b, v1.16b
	eor	v1.16b, v3.16b, v2.16b
	stp	q0, q1, [x1, #96]
.Ldeerlapse_0_1_0_BB62_29:                              // %middle.block30
                                        //   in Loop: Header=BB62_5 Depth=1
	cmp	x24, x9
	b.eq	.Ldeerlapse_0_1_0_BB62_14
// %bb.30:                              // %vec.epilog.iter.check34
                                        //   in Loop: Header=BB62_5 Depth=1
	and	x10, x24, #0x18
	cbz	x10, .Ldeerlapse_0_1_0_BB62_12
.Ldeerlapse_0_1_0_BB62_31:                              // %vec.epilog.ph36
                                        //   in Loop: Header=BB62_5 Depth=1
	mov	x10, x9
	and	x9, x24, #0xf8
	add	x11, x10, x25
	add	x12, x10, x23
	sub	x10, x10, x9
	add	x11, x28, x11
	add	x12, x27, x12
.Ldeerlapse_0_1_0_BB62_32:                              // %vec.epilog.vector.body39
                                        //   Parent Loop BB62_5 Depth=1
                                        // =>  This Inner Loop Header: Depth=2
	ldr	d0, [x12], #8
	ldr	d1, [x11]
	adds	x10, x10, #8
	eor	v0.8b, v1.8b, v0.8b
	str	d0, [x11], #8
	b.ne	.Ldeerlapse_0_1_0_BB62_32
// %bb.33:                              // %vec.epilog.middle.block44
                                        //   in Loop: Header=BB62_5 Depth=1
	cmp	x24, x9
	b.eq	.Ldeerlapse_0_1_0_BB62_14
	b	.Ldeerlapse_0_1_0_BB62_12
.Ldeerlapse_0_1_0_BB62_34:                              // %vector.main.loop.iter.check
                                        //   in Loop: Header=BB62_5 Depth=1
	cmp	x24, #32
	b.hs	.Ldeerlapse_0_1_0_BB62_36
// %bb.35:                              //   in Loop: Header=BB62_5 Depth=1
	mov	x9, xzr
	b	.Ldeerlapse_0_1_0_BB62_42
.Ldeerlapse_0_1_0_BB62_36:                              // %vector.ph
                                        //   in Loop: Header=BB62_5 Depth=1
	ldp	q0, q1, [x1]
	and	x9, x24, #0xe0
	cmp	x9, #32
	stp	q0, q1, [x8]
	b.eq	.Ldeerlapse_0_1_0_BB62_40
// %bb.37:                              // %vector.body.1
                                        //   in Loop: Header=BB62_5 Depth=1
	ldp	q0, q1, [x1, #32]
	cmp	x9, #64
	stp	q0, q1, [x8, #32]
	b.eq	.Ldeerlapse_0_1_0_BB62_40
// %bb.38:                              // %vector.body.2
                                        //   in Loop: Header=BB62_5 Depth=1
	ldp	q0, q1, [x1, #64]
	cmp	x9, #96
	stp	q0, q1, [x8, #64]
	b.eq	.Ldeerlapse_0_1_0_BB62_40
// %bb.39:                              // %vector.body.3
                                        //   in Loop: Header=BB62_5 Depth=1
	ldp	q0, q1, [x1, #96]
	stp	q0, q1, [x8, #96]
.Ldeerlapse_0_1_0_BB62_40:                              // %middle.block
                                        //   in Loop: Header=BB62_5 Depth=1
	cmp	x24, x9
	b.eq	.Ldeerlapse_0_1_0_BB62_21
// %bb.41:                              // %vec.epilog.iter.check
                                        //   in Loop: Header=BB62_5 Depth=1
	and	x8, x24, #0x18
	cbz	x8, .Ldeerlapse_0_1_0_BB62_18
.Ldeerlapse_0_1_0_BB62_42:                              // %vec.epilog.ph
                                        //   in Loop: Header=BB62_5 Depth=1
	mov	x8, x9
	and	x9, x24, #0xf8
	add	x10, x8, x25
	add	x11, x8, x23
	sub	x8, x8, x9
	add	x10, x28, x10
	add	x11, x27, x11
.Ldeerlapse_0_1_0_BB62_43:                              // %vec.epilog.vector.body
                                        //   Parent Loop BB62_5 Depth=1
                                        // =>  This Inner Loop Header: Depth=2
	ldr	d0, [x10], #8
	adds	x8, x8, #8
	str	d0, [x11], #8
	b.ne	.Ldeerlapse_0_1_0_BB62_43
// %bb.44:                              // %vec.epilog.middle.block
                                        //   in Loop: Header=BB62_5 Depth=1
	cmp	x24, x9
	b.ne	.Ldeerlapse_0_1_0_BB62_18
	b	.Ldeerlapse_0_1_0_BB62_21
.Ldeerlapse_0_1_0_BB62_45:
	mov	w0, wzr
	b	.Ldeerlapse_0_1_0_BB62_47
.Ldeerlapse_0_1_0_BB62_46:                              // %"aead_ciphers_wide::aes_gcm::ExpandedKey::update.exit.i"
	ldr	w0, [sp, #12]                   // 4-byte Reload
.Ldeerlapse_0_1_0_BB62_47:                              // %"deerlapse::pieces::deerlapse_key_update.exit"
	.cfi_def_cfa wsp, 464
	ldp	x20, x19, [sp, #448]            // 16-byte Folded Reload
	ldp	x22, x21, [sp, #432]            // 16-byte Folded Reload
	ldp	x24, x23, [sp, #416]            // 16-byte Folded Reload
	ldp	x26, x25, [sp, #400]            // 16-byte Folded Reload
	ldp	x28, x27, [sp, #384]            // 16-byte Folded Reload
	ldp	x29, x30, [sp, #368]            // 16-byte Folded Reload
	add	sp, sp, #464
	.cfi_def_cfa_offset 0
	.cfi_restore w19
	.cfi_restore w20
	.cfi_restore w21
	.cfi_restore w22
	.cfi_restore w23
	.cfi_restore w24
	.cfi_restore w25
	.cfi_restore w26
	.cfi_restore w27
	.cfi_restore w28
	.cfi_restore w30
	.cfi_restore w29
	ret
.Ldeerlapse_0_1_0_func_end62:
	.cfi_endproc
                                        // -- End function
	.section	.text.deerlapse_0_1_0_opener_open_number,"ax",@progbits
	.ifdef	deerlapse_in_rust
	.globl	deerlapse_0_1_0_opener_open_number    // -- Begin function deerlapse_0_1_0_opener_open_number
	.p2align	2
	.type	deerlapse_0_1_0_opener_open_number,@function
deerlapse_0_1_0_opener_open_number:           // @deerlapse_0_1_0_opener_open_number
	.size	deerlapse_0_1_0_opener_open_number, .Ldeerlapse_0_1_0_func_end63-deerlapse_0_1_0_opener_open_number
	.else
	.globl	deerlapse_opener_open_number    // -- Begin function deerlapse_opener_open_number
	.p2align	2
	.type	deerlapse_opener_open_number,@function
deerlapse_opener_open_number:           // @deerlapse_opener_open_number
	.size	deerlapse_opener_open_number, .Ldeerlapse_0_1_0_func_end63-deerlapse_opener_open_number
	.endif
	.cfi_startproc
// %bb.0:                               // %start
	hint	#34
	stp	x29, x30, [sp, #-16]!           // 16-byte Folded Spill
	.cfi_def_cfa_offset 16
	mov	x29, sp
	.cfi_def_cfa w29, 16
	.cfi_offset w30, -8
	.cfi_offset w29, -16
	cmp	x2, #0
	mov	w8, #4096                       // =0x1000
	csel	x9, x8, xzr, eq
	cmp	x4, #0
	csel	x8, x8, xzr, eq
	add	x2, x2, x9
	add	x4, x4, x8
	bl	"deerlapse_0_1_0::deerlapse::opener::deerlapse_opener_open_number"
	.cfi_def_cfa wsp, 16
	ldp	x29, x30, [sp], #16             // 16-byte Folded Reload
	.cfi_def_cfa_offset 0
	.cfi_restore w30
	.cfi_restore w29
	ret
.Ldeerlapse_0_1_0_func_end63:
	.cfi_endproc
                                        // -- End function
	.section	.text.deerlapse_0_1_0_opener_open,"ax",@progbits
	.ifdef	deerlapse_in_rust
	.globl	deerlapse_0_1_0_opener_open           // -- Begin function deerlapse_0_1_0_opener_open
	.p2align	2
	.type	deerlapse_0_1_0_opener_open,@function
deerlapse_0_1_0_opener_open:                  // @deerlapse_0_1_0_opener_open
	.size	deerlapse_0_1_0_opener_open, .Ldeerlapse_0_1_0_func_end64-deerlapse_0_1_0_opener_open
	.else
	.globl	deerlapse_opener_open           // -- Begin function deerlapse_opener_open
	.p2align	2
	.type	deerlapse_opener_open,@function
deerlapse_opener_open:                  // @deerlapse_opener_open
	.size	deerlapse_opener_open, .Ldeerlapse_0_1_0_func_end64-deerlapse_opener_open
	.endif
	.cfi_startproc
// %bb.0:                               // %start
	hint	#34
	ldr	x9, [x0, #3192]
	ldr	x10, [x0, #3200]
	cmp	x10, x9
	b.ls	.Ldeerlapse_0_1_0_BB64_4
// %bb.1:                               // %else.4.i
	stp	x29, x30, [sp, #-32]!           // 16-byte Folded Spill
	.cfi_def_cfa_offset 32
	str	x19, [sp, #16]                  // 8-byte Spill
	mov	x29, sp
	.cfi_def_cfa w29, 32
	.cfi_offset w19, -16
	.cfi_offset w30, -24
	.cfi_offset w29, -32
	cmp	x3, #0
	mov	w10, #4096                      // =0x1000
	mov	x8, x2
	csel	x11, x10, xzr, eq
	cmp	x1, #0
	mov	x7, x6
	csel	x10, x10, xzr, eq
	mov	x6, x5
	mov	x5, x4
	add	x2, x1, x10
	add	x4, x3, x11
	mov	x1, x9
	mov	x3, x8
	mov	x19, x0
	bl	"deerlapse_0_1_0::deerlapse::opener::deerlapse_opener_open_number"
	cbz	w0, .Ldeerlapse_0_1_0_BB64_3
// %bb.2:                               // %after.1.i
	ldr	x8, [x19, #3192]
	mov	w0, #1                          // =0x1
	add	x8, x8, #1
	str	x8, [x19, #3192]
.Ldeerlapse_0_1_0_BB64_3:
	.cfi_def_cfa wsp, 32
	ldr	x19, [sp, #16]                  // 8-byte Reload
	ldp	x29, x30, [sp], #32             // 16-byte Folded Reload
	.cfi_def_cfa_offset 0
	.cfi_restore w19
	.cfi_restore w30
	.cfi_restore w29
	ret
.Ldeerlapse_0_1_0_BB64_4:
	mov	w0, wzr
	ret
.Ldeerlapse_0_1_0_func_end64:
	.cfi_endproc
                                        // -- End function
	.section	.rodata.cst16,"aM",@progbits,16
	.p2align	4, 0x0                          // -- Begin function deerlapse_0_1_0_quic_key_open
.Ldeerlapse_0_1_0_CPI65_0:
	.xword	-16                             // 0xfffffffffffffff0
	.xword	-24                             // 0xffffffffffffffe8
.Ldeerlapse_0_1_0_CPI65_1:
	.xword	0                               // 0x0
	.xword	-8                              // 0xfffffffffffffff8
.Ldeerlapse_0_1_0_CPI65_2:
	.xword	-48                             // 0xffffffffffffffd0
	.xword	-56                             // 0xffffffffffffffc8
.Ldeerlapse_0_1_0_CPI65_3:
	.xword	-32                             // 0xffffffffffffffe0
	.xword	-40                             // 0xffffffffffffffd8
	.section	.text.deerlapse_0_1_0_quic_key_open,"ax",@progbits
	.ifdef	deerlapse_in_rust
	.globl	deerlapse_0_1_0_quic_key_open
	.p2align	2
	.type	deerlapse_0_1_0_quic_key_open,@function
deerlapse_0_1_0_quic_key_open:                // @deerlapse_0_1_0_quic_key_open
	.size	deerlapse_0_1_0_quic_key_open, .Ldeerlapse_0_1_0_func_end65-deerlapse_0_1_0_quic_key_open
	.else
	.globl	deerlapse_quic_key_open
	.p2align	2
	.type	deerlapse_quic_key_open,@function
deerlapse_quic_key_open:                // @deerlapse_quic_key_open
	.size	deerlapse_quic_key_open, .Ldeerlapse_0_1_0_func_end65-deerlapse_quic_key_open
	.endif
	.cfi_startproc
// %bb.0:                               // %start
	hint	#34
	cmp	x2, #0
	mov	w9, #4096                       // =0x1000
	lsr	x10, x1, #62
	csel	x8, x9, xzr, eq
	cmp	x4, #0
	csel	x9, x9, xzr, eq
	cbz	x10, .Ldeerlapse_0_1_0_BB65_2
// %bb.1:
	mov	w0, wzr
	ret
.Ldeerlapse_0_1_0_BB65_2:                               // %join.3.i
	sub	sp, sp, #192
	.cfi_def_cfa_offset 192
	stp	x29, x30, [sp, #144]            // 16-byte Folded Spill
	stp	x22, x21, [sp, #160]            // 16-byte Folded Spill
	stp	x20, x19, [sp, #176]            // 16-byte Folded Spill
	add	x29, sp, #144
	.cfi_def_cfa w29, 48
	.cfi_offset w19, -8
	.cfi_offset w20, -16
	.cfi_offset w21, -24
	.cfi_offset w22, -32
	.cfi_offset w30, -40
	.cfi_offset w29, -48
	.cfi_remember_state
	rev	x10, x1
	adrp	x11, .Ldeerlapse_0_1_0_CPI65_0
	dup	v0.2d, x10
	adrp	x10, .Ldeerlapse_0_1_0_CPI65_1
	ldr	q1, [x11, :lo12:.Ldeerlapse_0_1_0_CPI65_0]
	adrp	x11, .Ldeerlapse_0_1_0_CPI65_2
	ldr	q2, [x10, :lo12:.Ldeerlapse_0_1_0_CPI65_1]
	adrp	x10, .Ldeerlapse_0_1_0_CPI65_3
	ldr	q3, [x11, :lo12:.Ldeerlapse_0_1_0_CPI65_2]
	ldr	q4, [x10, :lo12:.Ldeerlapse_0_1_0_CPI65_3]
	ldr	w10, [x0, #1920]
	ushl	v1.2d, v0.2d, v1.2d
	ushl	v2.2d, v0.2d, v2.2d
	ushl	v3.2d, v0.2d, v3.2d
	ushl	v0.2d, v0.2d, v4.2d
	ldr	s4, [x0, #3192]
	sub	w11, w10, #10
	uzp1	v1.4s, v2.4s, v1.4s
	ldr	s2, [x0, #3196]
	zip1	v4.8b, v4.8b, v4.8b
	uzp1	v0.4s, v0.4s, v3.4s
	ldr	s3, [x0, #3200]
	cmp	w11, #4
	zip1	v2.8b, v2.8b, v2.8b
	zip1	v3.8b, v3.8b, v3.8b
	xtn	v1.4h, v1.4s
	xtn	v0.4h, v0.4s
	eor	v1.8b, v2.8b, v1.8b
	eor	v0.8b, v3.8b, v0.8b
	uzp1	v1.8b, v4.8b, v1.8b
	uzp1	v0.8b, v0.8b, v0.8b
	str	d1, [sp, #24]
	str	s0, [sp, #32]
	b.hi	.Ldeerlapse_0_1_0_BB65_7
// %bb.3:                               // %join.3.i.i
	subs	x19, x5, #16
	b.lo	.Ldeerlapse_0_1_0_BB65_7
// %bb.4:                               // %arm.1.i.i.i
	lsr	x11, x3, #61
	cbnz	x11, .Ldeerlapse_0_1_0_BB65_7
// %bb.5:                               // %arm.1.i.i.i
	mov	x11, #68719476704               // =0xfffffffe0
	cmp	x19, x11
	b.hi	.Ldeerlapse_0_1_0_BB65_7
// %bb.6:                               // %then.11.i.i.i
	add	x11, x0, #1928
	str	x10, [sp, #88]
	add	x10, x0, #2168
	stp	x0, x11, [sp, #72]
	ldr	w11, [x0, #1924]
	add	x20, x4, x9
	ldr	q0, [x20, x19]
	mov	x21, x6
	add	x9, sp, #40
	stp	w11, wzr, [sp, #96]
	add	x11, x0, #2680
	sub	x0, x29, #36
	stp	x10, x11, [sp, #56]
	mov	x10, x2
	add	x1, sp, #72
	add	x2, sp, #56
	mov	x5, x3
	add	x3, sp, #24
	add	x4, x10, x8
	sub	x6, x29, #16
	mov	x7, x20
	stp	xzr, xzr, [sp, #40]
	sub	x22, x29, #36
	stur	q0, [x29, #-16]
	stp	x19, x9, [sp]
	bl	"deerlapse_0_1_0::aead_ciphers::aes_gcm::opening::authenticate::<#7bfdf0a6b4753edd>"
	ldurb	w8, [x29, #-36]
	cbz	w8, .Ldeerlapse_0_1_0_BB65_8
.Ldeerlapse_0_1_0_BB65_7:
	mov	w0, wzr
	.cfi_def_cfa wsp, 192
	ldp	x20, x19, [sp, #176]            // 16-byte Folded Reload
	ldp	x22, x21, [sp, #160]            // 16-byte Folded Reload
	ldp	x29, x30, [sp, #144]            // 16-byte Folded Reload
	add	sp, sp, #192
	.cfi_def_cfa_offset 0
	.cfi_restore w19
	.cfi_restore w20
	.cfi_restore w21
	.cfi_restore w22
	.cfi_restore w30
	.cfi_restore w29
	ret
.Ldeerlapse_0_1_0_BB65_8:                               // %arm.4.i.i
	.cfi_restore_state
	add	x0, sp, #72
	orr	x1, x22, #0x1
	add	x5, sp, #40
	mov	x2, x20
	mov	x3, x19
	mov	x4, xzr
	bl	"deerlapse_0_1_0::aead_ciphers::aes_gcm::counter_mode::encrypt_within::<#6fa349fe97f872a2>"
	mov	x8, x0
	mov	w0, #1                          // =0x1
	str	x8, [x21]
	.cfi_def_cfa wsp, 192
	ldp	x20, x19, [sp, #176]            // 16-byte Folded Reload
	ldp	x22, x21, [sp, #160]            // 16-byte Folded Reload
	ldp	x29, x30, [sp, #144]            // 16-byte Folded Reload
	add	sp, sp, #192
	.cfi_def_cfa_offset 0
	.cfi_restore w19
	.cfi_restore w20
	.cfi_restore w21
	.cfi_restore w22
	.cfi_restore w30
	.cfi_restore w29
	ret
.Ldeerlapse_0_1_0_func_end65:
	.cfi_endproc
                                        // -- End function
	.section	.rodata.cst16,"aM",@progbits,16
	.p2align	4, 0x0                          // -- Begin function deerlapse_0_1_0_quic_key_seal
.Ldeerlapse_0_1_0_CPI66_0:
	.xword	-16                             // 0xfffffffffffffff0
	.xword	-24                             // 0xffffffffffffffe8
.Ldeerlapse_0_1_0_CPI66_1:
	.xword	0                               // 0x0
	.xword	-8                              // 0xfffffffffffffff8
.Ldeerlapse_0_1_0_CPI66_2:
	.xword	-48                             // 0xffffffffffffffd0
	.xword	-56                             // 0xffffffffffffffc8
.Ldeerlapse_0_1_0_CPI66_3:
	.xword	-32                             // 0xffffffffffffffe0
	.xword	-40                             // 0xffffffffffffffd8
	.section	.text.deerlapse_0_1_0_quic_key_seal,"ax",@progbits
	.ifdef	deerlapse_in_rust
	.globl	deerlapse_0_1_0_quic_key_seal
	.p2align	2
	.type	deerlapse_0_1_0_quic_key_seal,@function
deerlapse_0_1_0_quic_key_seal:                // @deerlapse_0_1_0_quic_key_seal
	.size	deerlapse_0_1_0_quic_key_seal, .Ldeerlapse_0_1_0_func_end66-deerlapse_0_1_0_quic_key_seal
	.else
	.globl	deerlapse_quic_key_seal
	.p2align	2
	.type	deerlapse_quic_key_seal,@function
deerlapse_quic_key_seal:                // @deerlapse_quic_key_seal
	.size	deerlapse_quic_key_seal, .Ldeerlapse_0_1_0_func_end66-deerlapse_quic_key_seal
	.endif
	.cfi_startproc
// %bb.0:                               // %start
	hint	#34
	lsr	x8, x1, #62
	cbz	x8, .Ldeerlapse_0_1_0_BB66_2
// %bb.1:
	mov	w0, wzr
	ret
.Ldeerlapse_0_1_0_BB66_2:                               // %join.3.i
	sub	sp, sp, #32
	.cfi_def_cfa_offset 32
	stp	x29, x30, [sp, #16]             // 16-byte Folded Spill
	add	x29, sp, #16
	.cfi_def_cfa w29, 16
	.cfi_offset w30, -8
	.cfi_offset w29, -16
	rev	x8, x1
	adrp	x9, .Ldeerlapse_0_1_0_CPI66_0
	adrp	x10, .Ldeerlapse_0_1_0_CPI66_1
	dup	v0.2d, x8
	adrp	x8, .Ldeerlapse_0_1_0_CPI66_2
	ldr	q1, [x9, :lo12:.Ldeerlapse_0_1_0_CPI66_0]
	adrp	x9, .Ldeerlapse_0_1_0_CPI66_3
	ldr	q2, [x10, :lo12:.Ldeerlapse_0_1_0_CPI66_1]
	ldr	q3, [x8, :lo12:.Ldeerlapse_0_1_0_CPI66_2]
	ldr	q4, [x9, :lo12:.Ldeerlapse_0_1_0_CPI66_3]
	cmp	x4, #0
	mov	w8, #4096                       // =0x1000
	ushl	v1.2d, v0.2d, v1.2d
	ushl	v2.2d, v0.2d, v2.2d
	ushl	v3.2d, v0.2d, v3.2d
	ushl	v0.2d, v0.2d, v4.2d
	ldr	s4, [x0, #3192]
	csel	x9, x8, xzr, eq
	cmp	x2, #0
	mov	x1, sp
	add	x4, x4, x9
	uzp1	v1.4s, v2.4s, v1.4s
	ldr	s2, [x0, #3196]
	zip1	v4.8b, v4.8b, v4.8b
	uzp1	v0.4s, v0.4s, v3.4s
	ldr	s3, [x0, #3200]
	csel	x8, x8, xzr, eq
	zip1	v2.8b, v2.8b, v2.8b
	add	x2, x2, x8
	zip1	v3.8b, v3.8b, v3.8b
	xtn	v1.4h, v1.4s
	xtn	v0.4h, v0.4s
	eor	v1.8b, v2.8b, v1.8b
	eor	v0.8b, v3.8b, v0.8b
	uzp1	v1.8b, v4.8b, v1.8b
	uzp1	v0.8b, v0.8b, v0.8b
	str	d1, [sp]
	str	s0, [sp, #8]
	bl	"deerlapse_0_1_0::deerlapse::key::deerlapse_key_seal"
	.cfi_def_cfa wsp, 32
	ldp	x29, x30, [sp, #16]             // 16-byte Folded Reload
	add	sp, sp, #32
	.cfi_def_cfa_offset 0
	.cfi_restore w30
	.cfi_restore w29
	ret
.Ldeerlapse_0_1_0_func_end66:
	.cfi_endproc
                                        // -- End function
	.section	.rodata.cst16,"aM",@progbits,16
	.p2align	4, 0x0                          // -- Begin function deerlapse_0_1_0_record_key_open
.Ldeerlapse_0_1_0_CPI67_0:
	.xword	-16                             // 0xfffffffffffffff0
	.xword	-24                             // 0xffffffffffffffe8
.Ldeerlapse_0_1_0_CPI67_1:
	.xword	0                               // 0x0
	.xword	-8                              // 0xfffffffffffffff8
.Ldeerlapse_0_1_0_CPI67_2:
	.xword	-48                             // 0xffffffffffffffd0
	.xword	-56                             // 0xffffffffffffffc8
.Ldeerlapse_0_1_0_CPI67_3:
	.xword	-32                             // 0xffffffffffffffe0
	.xword	-40                             // 0xffffffffffffffd8
	.section	.text.deerlapse_0_1_0_record_key_open,"ax",@progbits
	.ifdef	deerlapse_in_rust
	.globl	deerlapse_0_1_0_record_key_open
	.p2align	2
	.type	deerlapse_0_1_0_record_key_open,@function
deerlapse_0_1_0_record_key_open:              // @deerlapse_0_1_0_record_key_open
	.size	deerlapse_0_1_0_record_key_open, .Ldeerlapse_0_1_0_func_end67-deerlapse_0_1_0_record_key_open
	.else
	.globl	deerlapse_record_key_open
	.p2align	2
	.type	deerlapse_record_key_open,@function
deerlapse_record_key_open:              // @deerlapse_record_key_open
	.size	deerlapse_record_key_open, .Ldeerlapse_0_1_0_func_end67-deerlapse_record_key_open
	.endif
	.cfi_startproc
// %bb.0:                               // %start
	hint	#34
	mov	x8, #-16641                     // =0xffffffffffffbeff
	cmp	x2, #0
	mov	w9, #4096                       // =0x1000
	add	x10, x3, x8
	mov	x11, #-16624                    // =0xffffffffffffbf10
	csel	x8, x9, xzr, eq
	cmp	x10, x11
	b.hs	.Ldeerlapse_0_1_0_BB67_2
// %bb.1:
	mov	w0, wzr
	ret
.Ldeerlapse_0_1_0_BB67_2:                               // %after.1.i
	sub	sp, sp, #208
	.cfi_def_cfa_offset 208
	stp	x29, x30, [sp, #144]            // 16-byte Folded Spill
	str	x23, [sp, #160]                 // 8-byte Spill
	stp	x22, x21, [sp, #176]            // 16-byte Folded Spill
	stp	x20, x19, [sp, #192]            // 16-byte Folded Spill
	add	x29, sp, #144
	.cfi_def_cfa w29, 64
	.cfi_offset w19, -8
	.cfi_offset w20, -16
	.cfi_offset w21, -24
	.cfi_offset w22, -32
	.cfi_offset w23, -48
	.cfi_offset w30, -56
	.cfi_offset w29, -64
	.cfi_remember_state
	rev	x9, x1
	adrp	x10, .Ldeerlapse_0_1_0_CPI67_0
	strb	w3, [x29, #28]
	dup	v0.2d, x9
	adrp	x9, .Ldeerlapse_0_1_0_CPI67_1
	ldr	q1, [x10, :lo12:.Ldeerlapse_0_1_0_CPI67_0]
	adrp	x10, .Ldeerlapse_0_1_0_CPI67_2
	ldr	q2, [x9, :lo12:.Ldeerlapse_0_1_0_CPI67_1]
	adrp	x9, .Ldeerlapse_0_1_0_CPI67_3
	ldr	q3, [x10, :lo12:.Ldeerlapse_0_1_0_CPI67_2]
	ldr	q4, [x9, :lo12:.Ldeerlapse_0_1_0_CPI67_3]
	mov	w9, #791                        // =0x317
	ushl	v1.2d, v0.2d, v1.2d
	ushl	v2.2d, v0.2d, v2.2d
	strh	w9, [x29, #24]
	ushl	v3.2d, v0.2d, v3.2d
	ushl	v0.2d, v0.2d, v4.2d
	ldr	s4, [x0, #3192]
	mov	w9, #3                          // =0x3
	lsr	x10, x3, #8
	uzp1	v1.4s, v2.4s, v1.4s
	ldr	s2, [x0, #3196]
	zip1	v4.8b, v4.8b, v4.8b
	uzp1	v0.4s, v0.4s, v3.4s
	ldr	s3, [x0, #3200]
	strb	w9, [x29, #26]
	zip1	v2.8b, v2.8b, v2.8b
	ldr	w9, [x0, #1920]
	strb	w10, [x29, #27]
	zip1	v3.8b, v3.8b, v3.8b
	xtn	v1.4h, v1.4s
	sub	w10, w9, #10
	xtn	v0.4h, v0.4s
	cmp	w10, #4
	eor	v1.8b, v2.8b, v1.8b
	eor	v0.8b, v3.8b, v0.8b
	uzp1	v1.8b, v4.8b, v1.8b
	uzp1	v0.8b, v0.8b, v0.8b
	str	d1, [sp, #24]
	str	s0, [sp, #32]
	b.hi	.Ldeerlapse_0_1_0_BB67_4
// %bb.3:                               // %then.11.i.i.i
	add	x10, x0, #1928
	add	x19, x2, x8
	sub	x20, x3, #16
	stp	x0, x10, [sp, #72]
	ldr	w10, [x0, #1924]
	ldr	q0, [x19, x20]
	mov	x21, x4
	mov	x22, x5
	str	x9, [sp, #88]
	stp	w10, wzr, [sp, #96]
	add	x9, x0, #2168
	add	x10, x0, #2680
	add	x8, sp, #40
	sub	x0, x29, #36
	add	x1, sp, #72
	add	x2, sp, #56
	add	x3, sp, #24
	add	x4, x29, #24
	sub	x6, x29, #16
	mov	w5, #5                          // =0x5
	mov	x7, x19
	stp	x9, x10, [sp, #56]
	sub	x23, x29, #36
	stp	xzr, xzr, [sp, #40]
	stur	q0, [x29, #-16]
	stp	x20, x8, [sp]
	bl	"deerlapse_0_1_0::aead_ciphers::aes_gcm::opening::authenticate::<#7bfdf0a6b4753edd>"
	ldurb	w8, [x29, #-36]
	cbz	w8, .Ldeerlapse_0_1_0_BB67_5
.Ldeerlapse_0_1_0_BB67_4:
	mov	w0, wzr
	.cfi_def_cfa wsp, 208
	ldp	x20, x19, [sp, #192]            // 16-byte Folded Reload
	ldr	x23, [sp, #160]                 // 8-byte Reload
	ldp	x22, x21, [sp, #176]            // 16-byte Folded Reload
	ldp	x29, x30, [sp, #144]            // 16-byte Folded Reload
	add	sp, sp, #208
	.cfi_def_cfa_offset 0
	.cfi_restore w19
	.cfi_restore w20
	.cfi_restore w21
	.cfi_restore w22
	.cfi_restore w23
	.cfi_restore w30
	.cfi_restore w29
	ret
.Ldeerlapse_0_1_0_BB67_5:                               // %join.13.i
	.cfi_restore_state
	add	x0, sp, #72
	orr	x1, x23, #0x1
	add	x5, sp, #40
	mov	x2, x19
	mov	x3, x20
	mov	x4, xzr
	bl	"deerlapse_0_1_0::aead_ciphers::aes_gcm::counter_mode::encrypt_within::<#6fa349fe97f872a2>"
	mov	x8, xzr
	cbz	x0, .Ldeerlapse_0_1_0_BB67_8
// %bb.6:                               // %join.6.i.i.preheader
	mov	x9, xzr
.Ldeerlapse_0_1_0_BB67_7:                               // %join.6.i.i
                                        // =>This Inner Loop Header: Depth=1
	ldrb	w10, [x19, x9]
	cmp	w10, #0
	csel	x8, x8, x9, eq
	add	x9, x9, #1
	cmp	x0, x9
	b.ne	.Ldeerlapse_0_1_0_BB67_7
.Ldeerlapse_0_1_0_BB67_8:                               // %after.1.i.i
	cmp	x8, x0
	b.hs	.Ldeerlapse_0_1_0_BB67_10
// %bb.9:                               // %"records::inner::last_nonzero.exit.i"
	ldrb	w9, [x19, x8]
	cmp	w9, #0
	csel	x8, xzr, x8, eq
	b	.Ldeerlapse_0_1_0_BB67_11
.Ldeerlapse_0_1_0_BB67_10:
	mov	w9, wzr
	mov	x8, xzr
.Ldeerlapse_0_1_0_BB67_11:                              // %"records::inner::last_nonzero.exit.thread.i"
	mov	w0, #1                          // =0x1
	strb	w9, [x21]
	str	x8, [x22]
	.cfi_def_cfa wsp, 208
	ldp	x20, x19, [sp, #192]            // 16-byte Folded Reload
	ldr	x23, [sp, #160]                 // 8-byte Reload
	ldp	x22, x21, [sp, #176]            // 16-byte Folded Reload
	ldp	x29, x30, [sp, #144]            // 16-byte Folded Reload
	add	sp, sp, #208
	.cfi_def_cfa_offset 0
	.cfi_restore w19
	.cfi_restore w20
	.cfi_restore w21
	.cfi_restore w22
	.cfi_restore w23
	.cfi_restore w30
	.cfi_restore w29
	ret
.Ldeerlapse_0_1_0_func_end67:
	.cfi_endproc
                                        // -- End function
	.section	.rodata.cst16,"aM",@progbits,16
	.p2align	4, 0x0                          // -- Begin function deerlapse_0_1_0_record_key_seal
.Ldeerlapse_0_1_0_CPI68_0:
	.xword	-16                             // 0xfffffffffffffff0
	.xword	-24                             // 0xffffffffffffffe8
.Ldeerlapse_0_1_0_CPI68_1:
	.xword	0                               // 0x0
	.xword	-8                              // 0xfffffffffffffff8
.Ldeerlapse_0_1_0_CPI68_2:
	.xword	-48                             // 0xffffffffffffffd0
	.xword	-56                             // 0xffffffffffffffc8
.Ldeerlapse_0_1_0_CPI68_3:
	.xword	-32                             // 0xffffffffffffffe0
	.xword	-40                             // 0xffffffffffffffd8
	.section	.text.deerlapse_0_1_0_record_key_seal,"ax",@progbits
	.ifdef	deerlapse_in_rust
	.globl	deerlapse_0_1_0_record_key_seal
	.p2align	2
	.type	deerlapse_0_1_0_record_key_seal,@function
deerlapse_0_1_0_record_key_seal:              // @deerlapse_0_1_0_record_key_seal
	.size	deerlapse_0_1_0_record_key_seal, .Ldeerlapse_0_1_0_func_end68-deerlapse_0_1_0_record_key_seal
	.else
	.globl	deerlapse_record_key_seal
	.p2align	2
	.type	deerlapse_record_key_seal,@function
deerlapse_record_key_seal:              // @deerlapse_record_key_seal
	.size	deerlapse_record_key_seal, .Ldeerlapse_0_1_0_func_end68-deerlapse_record_key_seal
	.endif
	.cfi_startproc
// %bb.0:                               // %start
	hint	#34
	cmp	x3, #0
	mov	w8, #4096                       // =0x1000
	mov	w6, wzr
	and	w9, w2, #0xff
	csel	x8, x8, xzr, eq
	cbz	w9, .Ldeerlapse_0_1_0_BB68_11
// %bb.1:                               // %start
	mov	x9, #-16402                     // =0xffffffffffffbfee
	mov	x10, #-16385                    // =0xffffffffffffbfff
	add	x9, x4, x9
	cmp	x9, x10
	b.lo	.Ldeerlapse_0_1_0_BB68_11
// %bb.2:                               // %start
	sub	sp, sp, #112
	.cfi_def_cfa_offset 112
	stp	x29, x30, [sp, #32]             // 16-byte Folded Spill
	str	x25, [sp, #48]                  // 8-byte Spill
	stp	x24, x23, [sp, #64]             // 16-byte Folded Spill
	stp	x22, x21, [sp, #80]             // 16-byte Folded Spill
	stp	x20, x19, [sp, #96]             // 16-byte Folded Spill
	add	x29, sp, #32
	.cfi_def_cfa w29, 80
	.cfi_offset w19, -8
	.cfi_offset w20, -16
	.cfi_offset w21, -24
	.cfi_offset w22, -32
	.cfi_offset w23, -40
	.cfi_offset w24, -48
	.cfi_offset w25, -64
	.cfi_offset w30, -72
	.cfi_offset w29, -80
	sub	x19, x4, #16
	subs	x9, x19, x5
	b.ls	.Ldeerlapse_0_1_0_BB68_10
// %bb.3:                               // %else.13.i
	ldr	w10, [x0, #1920]
	sub	w10, w10, #10
	cmp	w10, #4
	b.hi	.Ldeerlapse_0_1_0_BB68_9
// %bb.4:                               // %after.7.i
	add	x10, x5, #1
	add	x20, x3, x8
	cmp	x19, x10
	strb	w2, [x20, x5]
	b.eq	.Ldeerlapse_0_1_0_BB68_8
// %bb.5:                               // %loop.5.preheader.i.i.i
	subs	x21, x9, #2
	add	x22, x20, x10
	b.eq	.Ldeerlapse_0_1_0_BB68_7
// %bb.6:                               // %join.8.preheader.i.i.i
	mov	x23, x0
	mov	x0, x22
	mov	x24, x1
	mov	w1, wzr
	mov	x2, x21
	mov	x25, x4
	bl	memset
	mov	x1, x24
	mov	x4, x25
	mov	x0, x23
.Ldeerlapse_0_1_0_BB68_7:                               // %after.4.i.i.i
	strb	wzr, [x22, x21]
.Ldeerlapse_0_1_0_BB68_8:                               // %"records::inner::write_type_and_padding.exit.i"
	rev	x8, x1
	adrp	x9, .Ldeerlapse_0_1_0_CPI68_0
	strb	w4, [x29, #28]
	dup	v0.2d, x8
	adrp	x8, .Ldeerlapse_0_1_0_CPI68_1
	ldr	q1, [x9, :lo12:.Ldeerlapse_0_1_0_CPI68_0]
	adrp	x9, .Ldeerlapse_0_1_0_CPI68_2
	ldr	q2, [x8, :lo12:.Ldeerlapse_0_1_0_CPI68_1]
	adrp	x8, .Ldeerlapse_0_1_0_CPI68_3
	ldr	q3, [x9, :lo12:.Ldeerlapse_0_1_0_CPI68_2]
	ldr	q4, [x8, :lo12:.Ldeerlapse_0_1_0_CPI68_3]
	lsr	x8, x4, #8
	ushl	v1.2d, v0.2d, v1.2d
	ushl	v2.2d, v0.2d, v2.2d
	mov	w9, #791                        // =0x317
	ushl	v3.2d, v0.2d, v3.2d
	ushl	v0.2d, v0.2d, v4.2d
	ldr	s4, [x0, #3192]
	strh	w9, [x29, #24]
	mov	w9, #3                          // =0x3
	mov	x1, sp
	uzp1	v1.4s, v2.4s, v1.4s
	ldr	s2, [x0, #3196]
	zip1	v4.8b, v4.8b, v4.8b
	uzp1	v0.4s, v0.4s, v3.4s
	ldr	s3, [x0, #3200]
	add	x2, x29, #24
	zip1	v2.8b, v2.8b, v2.8b
	add	x6, sp, #16
	mov	w3, #5                          // =0x5
	zip1	v3.8b, v3.8b, v3.8b
	mov	x4, x20
	mov	x5, x19
	xtn	v1.4h, v1.4s
	stp	xzr, xzr, [sp, #16]
	xtn	v0.4h, v0.4s
	strb	w9, [x29, #26]
	strb	w8, [x29, #27]
	eor	v1.8b, v2.8b, v1.8b
	eor	v0.8b, v3.8b, v0.8b
	uzp1	v1.8b, v4.8b, v1.8b
	uzp1	v0.8b, v0.8b, v0.8b
	str	d1, [sp]
	str	s0, [sp, #8]
	bl	"deerlapse_0_1_0::deerlapse::key::deerlapse_key_seal"
	mov	w6, w0
	ldr	q0, [sp, #16]
	str	q0, [x20, x19]
	b	.Ldeerlapse_0_1_0_BB68_10
.Ldeerlapse_0_1_0_BB68_9:
	mov	w6, wzr
.Ldeerlapse_0_1_0_BB68_10:
	.cfi_def_cfa wsp, 112
	ldp	x20, x19, [sp, #96]             // 16-byte Folded Reload
	ldr	x25, [sp, #48]                  // 8-byte Reload
	ldp	x22, x21, [sp, #80]             // 16-byte Folded Reload
	ldp	x24, x23, [sp, #64]             // 16-byte Folded Reload
	ldp	x29, x30, [sp, #32]             // 16-byte Folded Reload
	add	sp, sp, #112
	.cfi_def_cfa_offset 0
	.cfi_restore w19
	.cfi_restore w20
	.cfi_restore w21
	.cfi_restore w22
	.cfi_restore w23
	.cfi_restore w24
	.cfi_restore w25
	.cfi_restore w30
	.cfi_restore w29
.Ldeerlapse_0_1_0_BB68_11:                              // %"deerlapse::record_key::deerlapse_record_key_seal.exit"
	mov	w0, w6
	ret
.Ldeerlapse_0_1_0_func_end68:
	.cfi_endproc
                                        // -- End function
	.section	.rodata.cst16,"aM",@progbits,16
	.p2align	4, 0x0                          // -- Begin function deerlapse_0_1_0_sealer_seal
.Ldeerlapse_0_1_0_CPI69_0:
	.xword	-16                             // 0xfffffffffffffff0
	.xword	-24                             // 0xffffffffffffffe8
.Ldeerlapse_0_1_0_CPI69_1:
	.xword	0                               // 0x0
	.xword	-8                              // 0xfffffffffffffff8
.Ldeerlapse_0_1_0_CPI69_2:
	.xword	-48                             // 0xffffffffffffffd0
	.xword	-56                             // 0xffffffffffffffc8
.Ldeerlapse_0_1_0_CPI69_3:
	.xword	-32                             // 0xffffffffffffffe0
	.xword	-40                             // 0xffffffffffffffd8
	.section	.text.deerlapse_0_1_0_sealer_seal,"ax",@progbits
	.ifdef	deerlapse_in_rust
	.globl	deerlapse_0_1_0_sealer_seal
	.p2align	2
	.type	deerlapse_0_1_0_sealer_seal,@function
deerlapse_0_1_0_sealer_seal:                  // @deerlapse_0_1_0_sealer_seal
	.size	deerlapse_0_1_0_sealer_seal, .Ldeerlapse_0_1_0_func_end69-deerlapse_0_1_0_sealer_seal
	.else
	.globl	deerlapse_sealer_seal
	.p2align	2
	.type	deerlapse_sealer_seal,@function
deerlapse_sealer_seal:                  // @deerlapse_sealer_seal
	.size	deerlapse_sealer_seal, .Ldeerlapse_0_1_0_func_end69-deerlapse_sealer_seal
	.endif
	.cfi_startproc
// %bb.0:                               // %start
	hint	#34
	ldr	x9, [x0, #3192]
	ldr	x10, [x0, #3200]
	cmp	x10, x9
	b.ls	.Ldeerlapse_0_1_0_BB69_4
// %bb.1:                               // %join.3.i
	sub	sp, sp, #48
	.cfi_def_cfa_offset 48
	stp	x29, x30, [sp, #16]             // 16-byte Folded Spill
	str	x19, [sp, #32]                  // 8-byte Spill
	add	x29, sp, #16
	.cfi_def_cfa w29, 32
	.cfi_offset w19, -16
	.cfi_offset w30, -24
	.cfi_offset w29, -32
	rev	x9, x9
	adrp	x10, .Ldeerlapse_0_1_0_CPI69_0
	adrp	x11, .Ldeerlapse_0_1_0_CPI69_1
	dup	v0.2d, x9
	adrp	x9, .Ldeerlapse_0_1_0_CPI69_2
	ldr	q1, [x10, :lo12:.Ldeerlapse_0_1_0_CPI69_0]
	adrp	x10, .Ldeerlapse_0_1_0_CPI69_3
	ldr	q2, [x11, :lo12:.Ldeerlapse_0_1_0_CPI69_1]
	ldr	q3, [x9, :lo12:.Ldeerlapse_0_1_0_CPI69_2]
	ldr	q4, [x10, :lo12:.Ldeerlapse_0_1_0_CPI69_3]
	cmp	x3, #0
	mov	w9, #4096                       // =0x1000
	ushl	v1.2d, v0.2d, v1.2d
	ushl	v2.2d, v0.2d, v2.2d
	ushl	v3.2d, v0.2d, v3.2d
	ushl	v0.2d, v0.2d, v4.2d
	ldr	s4, [x0, #3208]
	csel	x10, x9, xzr, eq
	cmp	x1, #0
	mov	x8, x2
	mov	x11, x1
	uzp1	v1.4s, v2.4s, v1.4s
	ldr	s2, [x0, #3212]
	zip1	v4.8b, v4.8b, v4.8b
	uzp1	v0.4s, v0.4s, v3.4s
	ldr	s3, [x0, #3216]
	csel	x9, x9, xzr, eq
	zip1	v2.8b, v2.8b, v2.8b
	mov	x6, x5
	mov	x5, x4
	zip1	v3.8b, v3.8b, v3.8b
	mov	x1, sp
	add	x2, x11, x9
	xtn	v1.4h, v1.4s
	add	x4, x3, x10
	mov	x3, x8
	xtn	v0.4h, v0.4s
	mov	x19, x0
	eor	v1.8b, v2.8b, v1.8b
	eor	v0.8b, v3.8b, v0.8b
	uzp1	v1.8b, v4.8b, v1.8b
	uzp1	v0.8b, v0.8b, v0.8b
	str	d1, [sp]
	str	s0, [sp, #8]
	bl	"deerlapse_0_1_0::deerlapse::key::deerlapse_key_seal"
	cbz	w0, .Ldeerlapse_0_1_0_BB69_3
// %bb.2:                               // %join.6.i
	ldr	x8, [x19, #3192]
	mov	w0, #1                          // =0x1
	add	x8, x8, #1
	str	x8, [x19, #3192]
.Ldeerlapse_0_1_0_BB69_3:
	.cfi_def_cfa wsp, 48
	ldp	x29, x30, [sp, #16]             // 16-byte Folded Reload
	ldr	x19, [sp, #32]                  // 8-byte Reload
	add	sp, sp, #48
	.cfi_def_cfa_offset 0
	.cfi_restore w19
	.cfi_restore w30
	.cfi_restore w29
	ret
.Ldeerlapse_0_1_0_BB69_4:
	mov	w0, wzr
	ret
.Ldeerlapse_0_1_0_func_end69:
	.cfi_endproc
                                        // -- End function
	.section	.text.deerlapse_0_1_0_xaes_open,"ax",@progbits
	.ifdef	deerlapse_in_rust
	.globl	deerlapse_0_1_0_xaes_open             // -- Begin function deerlapse_0_1_0_xaes_open
	.p2align	2
	.type	deerlapse_0_1_0_xaes_open,@function
deerlapse_0_1_0_xaes_open:                    // @deerlapse_0_1_0_xaes_open
	.size	deerlapse_0_1_0_xaes_open, .Ldeerlapse_0_1_0_func_end70-deerlapse_0_1_0_xaes_open
	.else
	.globl	deerlapse_xaes_open             // -- Begin function deerlapse_xaes_open
	.p2align	2
	.type	deerlapse_xaes_open,@function
deerlapse_xaes_open:                    // @deerlapse_xaes_open
	.size	deerlapse_xaes_open, .Ldeerlapse_0_1_0_func_end70-deerlapse_xaes_open
	.endif
	.cfi_startproc
// %bb.0:                               // %start
	hint	#34
	stp	x29, x30, [sp, #-96]!           // 16-byte Folded Spill
	.cfi_def_cfa_offset 96
	stp	x28, x27, [sp, #16]             // 16-byte Folded Spill
	stp	x26, x25, [sp, #32]             // 16-byte Folded Spill
	stp	x24, x23, [sp, #48]             // 16-byte Folded Spill
	stp	x22, x21, [sp, #64]             // 16-byte Folded Spill
	stp	x20, x19, [sp, #80]             // 16-byte Folded Spill
	mov	x29, sp
	.cfi_def_cfa w29, 96
	.cfi_offset w19, -8
	.cfi_offset w20, -16
	.cfi_offset w21, -24
	.cfi_offset w22, -32
	.cfi_offset w23, -40
	.cfi_offset w24, -48
	.cfi_offset w25, -56
	.cfi_offset w26, -64
	.cfi_offset w27, -72
	.cfi_offset w28, -80
	.cfi_offset w30, -88
	.cfi_offset w29, -96
	.cfi_remember_state
	sub	sp, sp, #3072
	str	xzr, [sp]
	sub	sp, sp, #272
	cmp	x2, #0
	mov	w8, #4096                       // =0x1000
	mov	x22, x2
	mov	x25, x1
	mov	x26, x0
	csel	x27, x8, xzr, eq
	cmp	x4, #0
	add	x0, sp, #32
	mov	w1, wzr
	mov	w2, #3192                       // =0xc78
	mov	x19, x7
	mov	x20, x6
	mov	x23, x5
	mov	x24, x4
	mov	x21, x3
	csel	x28, x8, xzr, eq
	bl	memset
	add	x0, sp, #16
	add	x3, sp, #32
	mov	x1, x26
	mov	x2, x25
	add	x25, sp, #16
	bl	"deerlapse_0_1_0::deerlapse::xaes_key::expand_message_key"
	ldrb	w8, [sp, #16]
	cmp	w8, #1
	b.ne	.Ldeerlapse_0_1_0_BB70_7
// %bb.1:                               // %arm.1.i
	ldr	w9, [sp, #1952]
	sub	w8, w9, #10
	cmp	w8, #4
	b.hi	.Ldeerlapse_0_1_0_BB70_7
// %bb.2:                               // %join.3.i.i
	subs	x23, x23, #16
	b.lo	.Ldeerlapse_0_1_0_BB70_7
// %bb.3:                               // %arm.1.i.i.i
	subs	x8, x23, x20
	b.lo	.Ldeerlapse_0_1_0_BB70_7
// %bb.4:                               // %arm.8.i.i.i
	lsr	x10, x21, #61
	cbnz	x10, .Ldeerlapse_0_1_0_BB70_7
// %bb.5:                               // %arm.8.i.i.i
	mov	x10, #68719476704               // =0xfffffffe0
	cmp	x8, x10
	b.hi	.Ldeerlapse_0_1_0_BB70_7
// %bb.6:                               // %then.11.i.i.i
	add	x12, sp, #32
	add	x10, sp, #32
	add	x24, x24, x28
	add	x11, x12, #1928
	stur	x9, [x29, #-72]
	add	x9, x12, #2168
	stp	x10, x11, [x29, #-88]
	ldr	w10, [sp, #1956]
	ldr	q0, [x24, x23]
	sub	x0, x29, #52
	sub	x1, x29, #88
	sub	x2, x29, #104
	stp	w10, wzr, [x29, #-64]
	add	x10, x12, #2680
	orr	x3, x25, #0x1
	stp	x9, x10, [x29, #-104]
	sub	x9, x29, #120
	add	x4, x22, x27
	sub	x6, x29, #32
	add	x7, x24, x20
	mov	x5, x21
	stp	xzr, xzr, [x29, #-120]
	sub	x21, x29, #52
	stur	q0, [x29, #-32]
	stp	x8, x9, [sp]
	bl	"deerlapse_0_1_0::aead_ciphers::aes_gcm::opening::authenticate::<#7bfdf0a6b4753edd>"
	ldurb	w8, [x29, #-52]
	cbz	w8, .Ldeerlapse_0_1_0_BB70_9
.Ldeerlapse_0_1_0_BB70_7:
	mov	w0, wzr
.Ldeerlapse_0_1_0_BB70_8:                               // %"deerlapse::xaes_key::deerlapse_xaes_open.exit"
	add	sp, sp, #3344
	.cfi_def_cfa wsp, 96
	ldp	x20, x19, [sp, #80]             // 16-byte Folded Reload
	ldp	x22, x21, [sp, #64]             // 16-byte Folded Reload
	ldp	x24, x23, [sp, #48]             // 16-byte Folded Reload
	ldp	x26, x25, [sp, #32]             // 16-byte Folded Reload
	ldp	x28, x27, [sp, #16]             // 16-byte Folded Reload
	ldp	x29, x30, [sp], #96             // 16-byte Folded Reload
	.cfi_def_cfa_offset 0
	.cfi_restore w19
	.cfi_restore w20
	.cfi_restore w21
	.cfi_restore w22
	.cfi_restore w23
	.cfi_restore w24
	.cfi_restore w25
	.cfi_restore w26
	.cfi_restore w27
	.cfi_restore w28
	.cfi_restore w30
	.cfi_restore w29
	ret
.Ldeerlapse_0_1_0_BB70_9:                               // %arm.4.i.i
	.cfi_restore_state
	sub	x0, x29, #88
	orr	x1, x21, #0x1
	sub	x5, x29, #120
	mov	x2, x24
	mov	x3, x23
	mov	x4, x20
	bl	"deerlapse_0_1_0::aead_ciphers::aes_gcm::counter_mode::encrypt_within::<#6fa349fe97f872a2>"
	mov	x8, x0
	mov	w0, #1                          // =0x1
	str	x8, [x19]
	b	.Ldeerlapse_0_1_0_BB70_8
.Ldeerlapse_0_1_0_func_end70:
	.cfi_endproc
                                        // -- End function
	.section	.text.deerlapse_0_1_0_xaes_open_appended_tag_sized,"ax",@progbits
	.ifdef	deerlapse_in_rust
	.globl	deerlapse_0_1_0_xaes_open_appended_tag_sized // -- Begin function deerlapse_0_1_0_xaes_open_appended_tag_sized
	.p2align	2
	.type	deerlapse_0_1_0_xaes_open_appended_tag_sized,@function
deerlapse_0_1_0_xaes_open_appended_tag_sized: // @deerlapse_0_1_0_xaes_open_appended_tag_sized
	.size	deerlapse_0_1_0_xaes_open_appended_tag_sized, .Ldeerlapse_0_1_0_func_end71-deerlapse_0_1_0_xaes_open_appended_tag_sized
	.else
	.globl	deerlapse_xaes_open_appended_tag_sized // -- Begin function deerlapse_xaes_open_appended_tag_sized
	.p2align	2
	.type	deerlapse_xaes_open_appended_tag_sized,@function
deerlapse_xaes_open_appended_tag_sized: // @deerlapse_xaes_open_appended_tag_sized
	.size	deerlapse_xaes_open_appended_tag_sized, .Ldeerlapse_0_1_0_func_end71-deerlapse_xaes_open_appended_tag_sized
	.endif
	.cfi_startproc
// %bb.0:                               // %start
	hint	#34
	stp	x29, x30, [sp, #-96]!           // 16-byte Folded Spill
	.cfi_def_cfa_offset 96
	str	x28, [sp, #16]                  // 8-byte Spill
	stp	x26, x25, [sp, #32]             // 16-byte Folded Spill
	stp	x24, x23, [sp, #48]             // 16-byte Folded Spill
	stp	x22, x21, [sp, #64]             // 16-byte Folded Spill
	stp	x20, x19, [sp, #80]             // 16-byte Folded Spill
	mov	x29, sp
	.cfi_def_cfa w29, 96
	.cfi_offset w19, -8
	.cfi_offset w20, -16
	.cfi_offset w21, -24
	.cfi_offset w22, -32
	.cfi_offset w23, -40
	.cfi_offset w24, -48
	.cfi_offset w25, -56
	.cfi_offset w26, -64
	.cfi_offset w28, -80
	.cfi_offset w30, -88
	.cfi_offset w29, -96
	sub	sp, sp, #3072
	str	xzr, [sp], #-144
	mov	x22, x2
	mov	x25, x1
	mov	x26, x0
	add	x0, sp, #24
	mov	w1, wzr
	mov	w2, #3192                       // =0xc78
	mov	x19, x7
	mov	x20, x6
	mov	x24, x5
	mov	x23, x4
	mov	x21, x3
	bl	memset
	add	x0, sp, #8
	add	x3, sp, #24
	mov	x1, x26
	mov	x2, x25
	bl	"deerlapse_0_1_0::deerlapse::xaes_key::expand_message_key"
	subs	x5, x24, #16
	mov	w0, wzr
	b.lo	.Ldeerlapse_0_1_0_BB71_3
// %bb.1:                               // %start
	ldrb	w8, [sp, #8]
	cmp	w8, #1
	b.ne	.Ldeerlapse_0_1_0_BB71_3
// %bb.2:                               // %arm.1.i.i
	cmp	x20, #0
	mov	w8, #4096                       // =0x1000
	add	x0, sp, #24
	csel	x9, x8, xzr, eq
	cmp	x23, #0
	mov	x3, x21
	csel	x10, x8, xzr, eq
	cmp	x22, #0
	add	x6, x20, x9
	add	x4, x23, x10
	csel	x8, x8, xzr, eq
	add	x10, sp, #8
	add	x11, x4, x5
	orr	x1, x10, #0x1
	add	x2, x22, x8
	mov	x7, x19
	str	x11, [sp]
	bl	"deerlapse_0_1_0::deerlapse::out_of_place::deerlapse_key_open_to_sized"
.Ldeerlapse_0_1_0_BB71_3:                               // %"deerlapse::xaes_key::deerlapse_xaes_open_appended_tag_sized.exit"
	add	sp, sp, #3216
	.cfi_def_cfa wsp, 96
	ldp	x20, x19, [sp, #80]             // 16-byte Folded Reload
	ldr	x28, [sp, #16]                  // 8-byte Reload
	ldp	x22, x21, [sp, #64]             // 16-byte Folded Reload
	ldp	x24, x23, [sp, #48]             // 16-byte Folded Reload
	ldp	x26, x25, [sp, #32]             // 16-byte Folded Reload
	ldp	x29, x30, [sp], #96             // 16-byte Folded Reload
	.cfi_def_cfa_offset 0
	.cfi_restore w19
	.cfi_restore w20
	.cfi_restore w21
	.cfi_restore w22
	.cfi_restore w23
	.cfi_restore w24
	.cfi_restore w25
	.cfi_restore w26
	.cfi_restore w28
	.cfi_restore w30
	.cfi_restore w29
	ret
.Ldeerlapse_0_1_0_func_end71:
	.cfi_endproc
                                        // -- End function
	.section	.text.deerlapse_0_1_0_xaes_open_separate_tag,"ax",@progbits
	.ifdef	deerlapse_in_rust
	.globl	deerlapse_0_1_0_xaes_open_separate_tag // -- Begin function deerlapse_0_1_0_xaes_open_separate_tag
	.p2align	2
	.type	deerlapse_0_1_0_xaes_open_separate_tag,@function
deerlapse_0_1_0_xaes_open_separate_tag:       // @deerlapse_0_1_0_xaes_open_separate_tag
	.size	deerlapse_0_1_0_xaes_open_separate_tag, .Ldeerlapse_0_1_0_func_end72-deerlapse_0_1_0_xaes_open_separate_tag
	.else
	.globl	deerlapse_xaes_open_separate_tag // -- Begin function deerlapse_xaes_open_separate_tag
	.p2align	2
	.type	deerlapse_xaes_open_separate_tag,@function
deerlapse_xaes_open_separate_tag:       // @deerlapse_xaes_open_separate_tag
	.size	deerlapse_xaes_open_separate_tag, .Ldeerlapse_0_1_0_func_end72-deerlapse_xaes_open_separate_tag
	.endif
	.cfi_startproc
// %bb.0:                               // %start
	hint	#34
	stp	x29, x30, [sp, #-96]!           // 16-byte Folded Spill
	.cfi_def_cfa_offset 96
	stp	x28, x27, [sp, #16]             // 16-byte Folded Spill
	stp	x26, x25, [sp, #32]             // 16-byte Folded Spill
	stp	x24, x23, [sp, #48]             // 16-byte Folded Spill
	stp	x22, x21, [sp, #64]             // 16-byte Folded Spill
	stp	x20, x19, [sp, #80]             // 16-byte Folded Spill
	mov	x29, sp
	.cfi_def_cfa w29, 96
	.cfi_offset w19, -8
	.cfi_offset w20, -16
	.cfi_offset w21, -24
	.cfi_offset w22, -32
	.cfi_offset w23, -40
	.cfi_offset w24, -48
	.cfi_offset w25, -56
	.cfi_offset w26, -64
	.cfi_offset w27, -72
	.cfi_offset w28, -80
	.cfi_offset w30, -88
	.cfi_offset w29, -96
	sub	sp, sp, #3072
	str	xzr, [sp]
	sub	sp, sp, #272
	cmp	x2, #0
	mov	w8, #4096                       // =0x1000
	mov	x22, x2
	mov	x25, x1
	mov	x26, x0
	csel	x27, x8, xzr, eq
	cmp	x4, #0
	add	x0, sp, #32
	mov	w1, wzr
	mov	w2, #3192                       // =0xc78
	mov	x23, x7
	mov	x19, x6
	mov	x20, x5
	mov	x24, x4
	mov	x21, x3
	csel	x28, x8, xzr, eq
	bl	memset
	add	x0, sp, #16
	add	x3, sp, #32
	mov	x1, x26
	mov	x2, x25
	add	x25, sp, #16
	bl	"deerlapse_0_1_0::deerlapse::xaes_key::expand_message_key"
	ldrb	w8, [sp, #16]
	mov	w0, wzr
	cmp	w8, #1
	b.ne	.Ldeerlapse_0_1_0_BB72_9
// %bb.1:                               // %arm.1.i
	subs	x8, x20, x19
	csel	x11, xzr, x8, lo
	b.lo	.Ldeerlapse_0_1_0_BB72_8
// %bb.2:                               // %arm.3.i.i
	ldr	w9, [sp, #1952]
	sub	w10, w9, #10
	cmp	w10, #4
	b.hi	.Ldeerlapse_0_1_0_BB72_8
// %bb.3:                               // %then.7.i.i
	lsr	x10, x21, #61
	mov	w0, wzr
	cbnz	x10, .Ldeerlapse_0_1_0_BB72_9
// %bb.4:                               // %then.7.i.i
	mov	x10, #68719411200               // =0xfffff0000
	movk	x10, #65505
	cmp	x11, x10
	b.hs	.Ldeerlapse_0_1_0_BB72_9
// %bb.5:                               // %join.3.i.i.i.i
	add	x13, sp, #32
	add	x11, sp, #32
	mov	w0, wzr
	add	x12, x13, #1928
	stur	x9, [x29, #-72]
	add	x9, x13, #2168
	stp	x11, x12, [x29, #-88]
	ldr	w11, [sp, #1956]
	cmp	x8, x10
	stp	xzr, xzr, [x29, #-120]
	stp	w11, wzr, [x29, #-64]
	add	x11, x13, #2680
	stp	x9, x11, [x29, #-104]
	b.hs	.Ldeerlapse_0_1_0_BB72_9
// %bb.6:                               // %join.7.i.i.i.i
	ldr	q0, [x23]
	add	x23, x24, x28
	sub	x9, x29, #120
	sub	x0, x29, #52
	sub	x1, x29, #88
	sub	x2, x29, #104
	orr	x3, x25, #0x1
	add	x4, x22, x27
	sub	x6, x29, #32
	add	x7, x23, x19
	mov	x5, x21
	stur	q0, [x29, #-32]
	stp	x8, x9, [sp]
	sub	x21, x29, #52
	bl	"deerlapse_0_1_0::aead_ciphers::aes_gcm::opening::authenticate::<#7bfdf0a6b4753edd>"
	ldurb	w8, [x29, #-52]
	cmp	w8, #0
	cset	w0, eq
	cbnz	w8, .Ldeerlapse_0_1_0_BB72_9
// %bb.7:                               // %arm.1.i.i.i.i.i
	mov	w22, w0
	sub	x0, x29, #88
	orr	x1, x21, #0x1
	sub	x5, x29, #120
	mov	x2, x23
	mov	x3, x20
	mov	x4, x19
	bl	"deerlapse_0_1_0::aead_ciphers::aes_gcm::counter_mode::encrypt_within::<#6fa349fe97f872a2>"
	mov	w0, w22
	b	.Ldeerlapse_0_1_0_BB72_9
.Ldeerlapse_0_1_0_BB72_8:
	mov	w0, wzr
.Ldeerlapse_0_1_0_BB72_9:                               // %"deerlapse::xaes_key::deerlapse_xaes_open_separate_tag.exit"
	add	sp, sp, #3344
	.cfi_def_cfa wsp, 96
	ldp	x20, x19, [sp, #80]             // 16-byte Folded Reload
	ldp	x22, x21, [sp, #64]             // 16-byte Folded Reload
	ldp	x24, x23, [sp, #48]             // 16-byte Folded Reload
	ldp	x26, x25, [sp, #32]             // 16-byte Folded Reload
	ldp	x28, x27, [sp, #16]             // 16-byte Folded Reload
	ldp	x29, x30, [sp], #96             // 16-byte Folded Reload
	.cfi_def_cfa_offset 0
	.cfi_restore w19
	.cfi_restore w20
	.cfi_restore w21
	.cfi_restore w22
	.cfi_restore w23
	.cfi_restore w24
	.cfi_restore w25
	.cfi_restore w26
	.cfi_restore w27
	.cfi_restore w28
	.cfi_restore w30
	.cfi_restore w29
	ret
.Ldeerlapse_0_1_0_func_end72:
	.cfi_endproc
                                        // -- End function
	.section	.text.deerlapse_0_1_0_xaes_open_to_sized,"ax",@progbits
	.ifdef	deerlapse_in_rust
	.globl	deerlapse_0_1_0_xaes_open_to_sized    // -- Begin function deerlapse_0_1_0_xaes_open_to_sized
	.p2align	2
	.type	deerlapse_0_1_0_xaes_open_to_sized,@function
deerlapse_0_1_0_xaes_open_to_sized:           // @deerlapse_0_1_0_xaes_open_to_sized
	.size	deerlapse_0_1_0_xaes_open_to_sized, .Ldeerlapse_0_1_0_func_end73-deerlapse_0_1_0_xaes_open_to_sized
	.else
	.globl	deerlapse_xaes_open_to_sized    // -- Begin function deerlapse_xaes_open_to_sized
	.p2align	2
	.type	deerlapse_xaes_open_to_sized,@function
deerlapse_xaes_open_to_sized:           // @deerlapse_xaes_open_to_sized
	.size	deerlapse_xaes_open_to_sized, .Ldeerlapse_0_1_0_func_end73-deerlapse_xaes_open_to_sized
	.endif
	.cfi_startproc
// %bb.0:                               // %start
	hint	#34
	stp	x29, x30, [sp, #-96]!           // 16-byte Folded Spill
	.cfi_def_cfa_offset 96
	str	x28, [sp, #16]                  // 8-byte Spill
	stp	x26, x25, [sp, #32]             // 16-byte Folded Spill
	stp	x24, x23, [sp, #48]             // 16-byte Folded Spill
	stp	x22, x21, [sp, #64]             // 16-byte Folded Spill
	stp	x20, x19, [sp, #80]             // 16-byte Folded Spill
	mov	x29, sp
	.cfi_def_cfa w29, 96
	.cfi_offset w19, -8
	.cfi_offset w20, -16
	.cfi_offset w21, -24
	.cfi_offset w22, -32
	.cfi_offset w23, -40
	.cfi_offset w24, -48
	.cfi_offset w25, -56
	.cfi_offset w26, -64
	.cfi_offset w28, -80
	.cfi_offset w30, -88
	.cfi_offset w29, -96
	sub	sp, sp, #3072
	str	xzr, [sp], #-144
	mov	x24, x2
	mov	x25, x1
	mov	x26, x0
	add	x0, sp, #24
	mov	w1, wzr
	mov	w2, #3192                       // =0xc78
	mov	x19, x7
	mov	x21, x6
	mov	x20, x5
	mov	x23, x4
	mov	x22, x3
	bl	memset
	add	x0, sp, #8
	add	x3, sp, #24
	mov	x1, x26
	mov	x2, x25
	add	x25, sp, #8
	bl	"deerlapse_0_1_0::deerlapse::xaes_key::expand_message_key"
	ldrb	w8, [sp, #8]
	mov	w0, wzr
	cmp	w8, #1
	b.ne	.Ldeerlapse_0_1_0_BB73_2
// %bb.1:                               // %arm.1.i
	cmp	x21, #0
	mov	w8, #4096                       // =0x1000
	ldr	x10, [x29, #96]
	csel	x9, x8, xzr, eq
	cmp	x23, #0
	add	x0, sp, #24
	csel	x11, x8, xzr, eq
	cmp	x24, #0
	orr	x1, x25, #0x1
	csel	x8, x8, xzr, eq
	add	x4, x23, x11
	add	x6, x21, x9
	add	x2, x24, x8
	mov	x3, x22
	mov	x5, x20
	mov	x7, x19
	str	x10, [sp]
	bl	"deerlapse_0_1_0::deerlapse::out_of_place::deerlapse_key_open_to_sized"
.Ldeerlapse_0_1_0_BB73_2:                               // %"deerlapse::xaes_key::deerlapse_xaes_open_to_sized.exit"
	add	sp, sp, #3216
	.cfi_def_cfa wsp, 96
	ldp	x20, x19, [sp, #80]             // 16-byte Folded Reload
	ldr	x28, [sp, #16]                  // 8-byte Reload
	ldp	x22, x21, [sp, #64]             // 16-byte Folded Reload
	ldp	x24, x23, [sp, #48]             // 16-byte Folded Reload
	ldp	x26, x25, [sp, #32]             // 16-byte Folded Reload
	ldp	x29, x30, [sp], #96             // 16-byte Folded Reload
	.cfi_def_cfa_offset 0
	.cfi_restore w19
	.cfi_restore w20
	.cfi_restore w21
	.cfi_restore w22
	.cfi_restore w23
	.cfi_restore w24
	.cfi_restore w25
	.cfi_restore w26
	.cfi_restore w28
	.cfi_restore w30
	.cfi_restore w29
	ret
.Ldeerlapse_0_1_0_func_end73:
	.cfi_endproc
                                        // -- End function
	.section	.text.deerlapse_0_1_0_xaes_seal,"ax",@progbits
	.ifdef	deerlapse_in_rust
	.globl	deerlapse_0_1_0_xaes_seal             // -- Begin function deerlapse_0_1_0_xaes_seal
	.p2align	2
	.type	deerlapse_0_1_0_xaes_seal,@function
deerlapse_0_1_0_xaes_seal:                    // @deerlapse_0_1_0_xaes_seal
	.size	deerlapse_0_1_0_xaes_seal, .Ldeerlapse_0_1_0_func_end74-deerlapse_0_1_0_xaes_seal
	.else
	.globl	deerlapse_xaes_seal             // -- Begin function deerlapse_xaes_seal
	.p2align	2
	.type	deerlapse_xaes_seal,@function
deerlapse_xaes_seal:                    // @deerlapse_xaes_seal
	.size	deerlapse_xaes_seal, .Ldeerlapse_0_1_0_func_end74-deerlapse_xaes_seal
	.endif
	.cfi_startproc
// %bb.0:                               // %start
	hint	#34
	stp	x29, x30, [sp, #-80]!           // 16-byte Folded Spill
	.cfi_def_cfa_offset 80
	stp	x28, x25, [sp, #16]             // 16-byte Folded Spill
	stp	x24, x23, [sp, #32]             // 16-byte Folded Spill
	stp	x22, x21, [sp, #48]             // 16-byte Folded Spill
	stp	x20, x19, [sp, #64]             // 16-byte Folded Spill
	mov	x29, sp
	.cfi_def_cfa w29, 80
	.cfi_offset w19, -8
	.cfi_offset w20, -16
	.cfi_offset w21, -24
	.cfi_offset w22, -32
	.cfi_offset w23, -40
	.cfi_offset w24, -48
	.cfi_offset w25, -56
	.cfi_offset w28, -64
	.cfi_offset w30, -72
	.cfi_offset w29, -80
	sub	sp, sp, #3072
	str	xzr, [sp], #-144
	mov	x23, x2
	mov	x24, x1
	mov	x25, x0
	add	x0, sp, #24
	mov	w1, wzr
	mov	w2, #3192                       // =0xc78
	mov	x19, x6
	mov	x20, x5
	mov	x22, x4
	mov	x21, x3
	bl	memset
	add	x0, sp, #8
	add	x3, sp, #24
	mov	x1, x25
	mov	x2, x24
	add	x24, sp, #8
	bl	"deerlapse_0_1_0::deerlapse::xaes_key::expand_message_key"
	ldrb	w8, [sp, #8]
	mov	w0, wzr
	cmp	w8, #1
	b.ne	.Ldeerlapse_0_1_0_BB74_2
// %bb.1:                               // %arm.1.i
	cmp	x22, #0
	mov	w8, #4096                       // =0x1000
	add	x0, sp, #24
	csel	x9, x8, xzr, eq
	cmp	x23, #0
	orr	x1, x24, #0x1
	csel	x8, x8, xzr, eq
	add	x4, x22, x9
	mov	x3, x21
	add	x2, x23, x8
	mov	x5, x20
	mov	x6, x19
	bl	"deerlapse_0_1_0::deerlapse::key::deerlapse_key_seal"
.Ldeerlapse_0_1_0_BB74_2:                               // %"deerlapse::xaes_key::deerlapse_xaes_seal.exit"
	add	sp, sp, #3216
	.cfi_def_cfa wsp, 80
	ldp	x20, x19, [sp, #64]             // 16-byte Folded Reload
	ldp	x22, x21, [sp, #48]             // 16-byte Folded Reload
	ldp	x24, x23, [sp, #32]             // 16-byte Folded Reload
	ldp	x28, x25, [sp, #16]             // 16-byte Folded Reload
	ldp	x29, x30, [sp], #80             // 16-byte Folded Reload
	.cfi_def_cfa_offset 0
	.cfi_restore w19
	.cfi_restore w20
	.cfi_restore w21
	.cfi_restore w22
	.cfi_restore w23
	.cfi_restore w24
	.cfi_restore w25
	.cfi_restore w28
	.cfi_restore w30
	.cfi_restore w29
	ret
.Ldeerlapse_0_1_0_func_end74:
	.cfi_endproc
                                        // -- End function
	.section	.text.deerlapse_0_1_0_xaes_seal_append_tag_sized,"ax",@progbits
	.ifdef	deerlapse_in_rust
	.globl	deerlapse_0_1_0_xaes_seal_append_tag_sized // -- Begin function deerlapse_0_1_0_xaes_seal_append_tag_sized
	.p2align	2
	.type	deerlapse_0_1_0_xaes_seal_append_tag_sized,@function
deerlapse_0_1_0_xaes_seal_append_tag_sized:   // @deerlapse_0_1_0_xaes_seal_append_tag_sized
	.size	deerlapse_0_1_0_xaes_seal_append_tag_sized, .Ldeerlapse_0_1_0_func_end75-deerlapse_0_1_0_xaes_seal_append_tag_sized
	.else
	.globl	deerlapse_xaes_seal_append_tag_sized // -- Begin function deerlapse_xaes_seal_append_tag_sized
	.p2align	2
	.type	deerlapse_xaes_seal_append_tag_sized,@function
deerlapse_xaes_seal_append_tag_sized:   // @deerlapse_xaes_seal_append_tag_sized
	.size	deerlapse_xaes_seal_append_tag_sized, .Ldeerlapse_0_1_0_func_end75-deerlapse_xaes_seal_append_tag_sized
	.endif
	.cfi_startproc
// %bb.0:                               // %start
	hint	#34
	stp	x29, x30, [sp, #-96]!           // 16-byte Folded Spill
	.cfi_def_cfa_offset 96
	stp	x28, x27, [sp, #16]             // 16-byte Folded Spill
	stp	x26, x25, [sp, #32]             // 16-byte Folded Spill
	stp	x24, x23, [sp, #48]             // 16-byte Folded Spill
	stp	x22, x21, [sp, #64]             // 16-byte Folded Spill
	stp	x20, x19, [sp, #80]             // 16-byte Folded Spill
	mov	x29, sp
	.cfi_def_cfa w29, 96
	.cfi_offset w19, -8
	.cfi_offset w20, -16
	.cfi_offset w21, -24
	.cfi_offset w22, -32
	.cfi_offset w23, -40
	.cfi_offset w24, -48
	.cfi_offset w25, -56
	.cfi_offset w26, -64
	.cfi_offset w27, -72
	.cfi_offset w28, -80
	.cfi_offset w30, -88
	.cfi_offset w29, -96
	.cfi_remember_state
	sub	sp, sp, #3072
	str	xzr, [sp], #-160
	cmp	x2, #0
	mov	w8, #4096                       // =0x1000
	mov	x21, x2
	csel	x9, x8, xzr, eq
	cmp	x4, #0
	mov	x25, x1
	mov	x26, x0
	csel	x27, x8, xzr, eq
	cmp	x6, #0
	add	x0, sp, #32
	mov	w1, wzr
	mov	w2, #3192                       // =0xc78
	mov	x24, x7
	mov	x22, x6
	mov	x19, x5
	mov	x23, x4
	mov	x20, x3
	str	x9, [sp, #8]                    // 8-byte Spill
	csel	x28, x8, xzr, eq
	bl	memset
	add	x0, sp, #16
	add	x3, sp, #32
	mov	x1, x26
	mov	x2, x25
	add	x25, sp, #16
	bl	"deerlapse_0_1_0::deerlapse::xaes_key::expand_message_key"
	ldrb	w8, [sp, #16]
	cmp	w8, #1
	b.ne	.Ldeerlapse_0_1_0_BB75_2
// %bb.1:                               // %arm.1.i
	subs	x26, x24, #16
	b.hs	.Ldeerlapse_0_1_0_BB75_4
.Ldeerlapse_0_1_0_BB75_2:
	mov	w0, wzr
.Ldeerlapse_0_1_0_BB75_3:                               // %"deerlapse::xaes_key::deerlapse_xaes_seal_append_tag_sized.exit"
	add	sp, sp, #3232
	.cfi_def_cfa wsp, 96
	ldp	x20, x19, [sp, #80]             // 16-byte Folded Reload
	ldp	x22, x21, [sp, #64]             // 16-byte Folded Reload
	ldp	x24, x23, [sp, #48]             // 16-byte Folded Reload
	ldp	x26, x25, [sp, #32]             // 16-byte Folded Reload
	ldp	x28, x27, [sp, #16]             // 16-byte Folded Reload
	ldp	x29, x30, [sp], #96             // 16-byte Folded Reload
	.cfi_def_cfa_offset 0
	.cfi_restore w19
	.cfi_restore w20
	.cfi_restore w21
	.cfi_restore w22
	.cfi_restore w23
	.cfi_restore w24
	.cfi_restore w25
	.cfi_restore w26
	.cfi_restore w27
	.cfi_restore w28
	.cfi_restore w30
	.cfi_restore w29
	ret
.Ldeerlapse_0_1_0_BB75_4:                               // %arm.1.i.i
	.cfi_restore_state
	cmp	x26, x19
	mov	w0, wzr
	b.ne	.Ldeerlapse_0_1_0_BB75_3
// %bb.5:                               // %arm.1.i.i
	ldr	w8, [sp, #1952]
	sub	w8, w8, #10
	cmp	w8, #4
	b.hi	.Ldeerlapse_0_1_0_BB75_3
// %bb.6:                               // %else.7.i.i.i
	lsr	x8, x20, #61
	mov	w0, wzr
	cbnz	x8, .Ldeerlapse_0_1_0_BB75_3
// %bb.7:                               // %else.7.i.i.i
	mov	x8, #68719476704                // =0xfffffffe0
	cmp	x19, x8
	b.hi	.Ldeerlapse_0_1_0_BB75_3
// %bb.8:                               // %after.1.i.i.i
	add	x1, x23, x27
	add	x24, x22, x28
	sub	x8, x24, x1
	cmp	x8, x19
	b.hs	.Ldeerlapse_0_1_0_BB75_14
// %bb.9:                               // %iter.check
	cmp	x19, #7
	b.ls	.Ldeerlapse_0_1_0_BB75_11
// %bb.10:                              // %vector.memcheck
	add	x8, x28, x22
	add	x9, x27, x23
	sub	x8, x8, x9
	cmp	x8, #32
	b.hs	.Ldeerlapse_0_1_0_BB75_16
.Ldeerlapse_0_1_0_BB75_11:
	mov	x8, xzr
.Ldeerlapse_0_1_0_BB75_12:                              // %join.7.i.i.i.i.i.i.i.i.i.preheader
	add	x9, x27, x8
	add	x10, x28, x8
	sub	x8, x19, x8
	add	x9, x23, x9
	add	x10, x22, x10
.Ldeerlapse_0_1_0_BB75_13:                              // %join.7.i.i.i.i.i.i.i.i.i
                                        // =>This Inner Loop Header: Depth=1
	ldrb	w11, [x9], #1
	subs	x8, x8, #1
	strb	w11, [x10], #1
	b.ne	.Ldeerlapse_0_1_0_BB75_13
	b	.Ldeerlapse_0_1_0_BB75_15
.Ldeerlapse_0_1_0_BB75_14:                              // %apart.2.i.i.i.i.i.i.i.i.i
	mov	x0, x24
	mov	x2, x19
	bl	memmove
.Ldeerlapse_0_1_0_BB75_15:                              // %"core::slice::edits::slice+T::copy_from_slice::<i8,20'core::clone::U8Clone{}>.exit.i.i.i"
	ldr	x8, [sp, #8]                    // 8-byte Reload
	add	x0, sp, #32
	orr	x1, x25, #0x1
	add	x6, x24, x26
	mov	x3, x20
	mov	x4, x24
	add	x2, x21, x8
	mov	x5, x19
	bl	"deerlapse_0_1_0::deerlapse::key::deerlapse_key_seal"
	b	.Ldeerlapse_0_1_0_BB75_3
.Ldeerlapse_0_1_0_BB75_16:                              // %vector.main.loop.iter.check
	cmp	x19, #32
	b.hs	.Ldeerlapse_0_1_0_BB75_18
// %bb.17:
	mov	x8, xzr
	b	.Ldeerlapse_0_1_0_BB75_22
.Ldeerlapse_0_1_0_BB75_18:                              // %vector.ph
	add	x10, x27, x23
	add	x11, x28, x22
	and	x9, x19, #0x18
	and	x8, x19, #0xfffffffe0
	add	x10, x10, #16
	add	x11, x11, #16
	and	x12, x19, #0xfffffffe0
.Ldeerlapse_0_1_0_BB75_19:                              // %vector.body
                                        // =>This Inner Loop Header: Depth=1
	ldp	q0, q1, [x10, #-16]
	subs	x12, x12, #32
	add	x10, x10, #32
	stp	q0, q1, [x11, #-16]
	add	x11, x11, #32
	b.ne	.Ldeerlapse_0_1_0_BB75_19
// %bb.20:                              // %middle.block
	cmp	x19, x8
	b.eq	.Ldeerlapse_0_1_0_BB75_15
// %bb.21:                              // %vec.epilog.iter.check
	cbz	x9, .Ldeerlapse_0_1_0_BB75_12
.Ldeerlapse_0_1_0_BB75_22:                              // %vec.epilog.ph
	mov	x9, x8
	and	x8, x19, #0xffffffff8
	add	x10, x27, x9
	add	x11, x28, x9
	sub	x9, x9, x8
	add	x10, x23, x10
	add	x11, x22, x11
.Ldeerlapse_0_1_0_BB75_23:                              // %vec.epilog.vector.body
                                        // =>This Inner Loop Header: Depth=1
	ldr	d0, [x10], #8
	adds	x9, x9, #8
	str	d0, [x11], #8
	b.ne	.Ldeerlapse_0_1_0_BB75_23
// %bb.24:                              // %vec.epilog.middle.block
	cmp	x19, x8
	b.ne	.Ldeerlapse_0_1_0_BB75_12
	b	.Ldeerlapse_0_1_0_BB75_15
.Ldeerlapse_0_1_0_func_end75:
	.cfi_endproc
                                        // -- End function
	.section	.text.deerlapse_0_1_0_xaes_seal_to_sized,"ax",@progbits
	.ifdef	deerlapse_in_rust
	.globl	deerlapse_0_1_0_xaes_seal_to_sized    // -- Begin function deerlapse_0_1_0_xaes_seal_to_sized
	.p2align	2
	.type	deerlapse_0_1_0_xaes_seal_to_sized,@function
deerlapse_0_1_0_xaes_seal_to_sized:           // @deerlapse_0_1_0_xaes_seal_to_sized
	.size	deerlapse_0_1_0_xaes_seal_to_sized, .Ldeerlapse_0_1_0_func_end76-deerlapse_0_1_0_xaes_seal_to_sized
	.else
	.globl	deerlapse_xaes_seal_to_sized    // -- Begin function deerlapse_xaes_seal_to_sized
	.p2align	2
	.type	deerlapse_xaes_seal_to_sized,@function
deerlapse_xaes_seal_to_sized:           // @deerlapse_xaes_seal_to_sized
	.size	deerlapse_xaes_seal_to_sized, .Ldeerlapse_0_1_0_func_end76-deerlapse_xaes_seal_to_sized
	.endif
	.cfi_startproc
// %bb.0:                               // %start
	hint	#34
	stp	x29, x30, [sp, #-96]!           // 16-byte Folded Spill
	.cfi_def_cfa_offset 96
	stp	x28, x27, [sp, #16]             // 16-byte Folded Spill
	stp	x26, x25, [sp, #32]             // 16-byte Folded Spill
	stp	x24, x23, [sp, #48]             // 16-byte Folded Spill
	stp	x22, x21, [sp, #64]             // 16-byte Folded Spill
	stp	x20, x19, [sp, #80]             // 16-byte Folded Spill
	mov	x29, sp
	.cfi_def_cfa w29, 96
	.cfi_offset w19, -8
	.cfi_offset w20, -16
	.cfi_offset w21, -24
	.cfi_offset w22, -32
	.cfi_offset w23, -40
	.cfi_offset w24, -48
	.cfi_offset w25, -56
	.cfi_offset w26, -64
	.cfi_offset w27, -72
	.cfi_offset w28, -80
	.cfi_offset w30, -88
	.cfi_offset w29, -96
	.cfi_remember_state
	sub	sp, sp, #3072
	str	xzr, [sp], #-160
	cmp	x2, #0
	mov	w8, #4096                       // =0x1000
	mov	x20, x2
	csel	x21, x8, xzr, eq
	cmp	x4, #0
	mov	x25, x1
	mov	x26, x0
	csel	x27, x8, xzr, eq
	cmp	x6, #0
	add	x0, sp, #32
	mov	w1, wzr
	mov	w2, #3192                       // =0xc78
	mov	x19, x7
	mov	x22, x6
	mov	x24, x5
	mov	x23, x4
	str	x3, [sp, #8]                    // 8-byte Spill
	csel	x28, x8, xzr, eq
	bl	memset
	add	x0, sp, #16
	add	x3, sp, #32
	mov	x1, x26
	mov	x2, x25
	add	x26, sp, #16
	bl	"deerlapse_0_1_0::deerlapse::xaes_key::expand_message_key"
	ldrb	w8, [sp, #16]
	mov	w0, wzr
	cmp	w8, #1
	b.ne	.Ldeerlapse_0_1_0_BB76_13
// %bb.1:                               // %arm.1.i
	cmp	x19, x24
	mov	w0, wzr
	b.ne	.Ldeerlapse_0_1_0_BB76_13
// %bb.2:                               // %arm.1.i
	ldr	w8, [sp, #1952]
	sub	w8, w8, #10
	cmp	w8, #4
	b.hi	.Ldeerlapse_0_1_0_BB76_13
// %bb.3:                               // %else.7.i.i
	ldr	x8, [sp, #8]                    // 8-byte Reload
	mov	w0, wzr
	lsr	x8, x8, #61
	cbnz	x8, .Ldeerlapse_0_1_0_BB76_13
// %bb.4:                               // %else.7.i.i
	mov	x8, #68719476704                // =0xfffffffe0
	cmp	x19, x8
	b.hi	.Ldeerlapse_0_1_0_BB76_13
// %bb.5:                               // %after.1.i.i
	add	x1, x23, x27
	add	x24, x22, x28
	ldr	x25, [x29, #96]
	sub	x8, x24, x1
	cmp	x8, x19
	b.hs	.Ldeerlapse_0_1_0_BB76_11
// %bb.6:                               // %iter.check
	cmp	x19, #7
	b.ls	.Ldeerlapse_0_1_0_BB76_8
// %bb.7:                               // %vector.memcheck
	add	x8, x28, x22
	add	x9, x27, x23
	sub	x8, x8, x9
	cmp	x8, #32
	b.hs	.Ldeerlapse_0_1_0_BB76_14
.Ldeerlapse_0_1_0_BB76_8:
	mov	x8, xzr
.Ldeerlapse_0_1_0_BB76_9:                               // %join.7.i.i.i.i.i.i.i.i.preheader
	add	x9, x27, x8
	add	x10, x28, x8
	sub	x8, x19, x8
	add	x9, x23, x9
	add	x10, x22, x10
.Ldeerlapse_0_1_0_BB76_10:                              // %join.7.i.i.i.i.i.i.i.i
                                        // =>This Inner Loop Header: Depth=1
	ldrb	w11, [x9], #1
	subs	x8, x8, #1
	strb	w11, [x10], #1
	b.ne	.Ldeerlapse_0_1_0_BB76_10
	b	.Ldeerlapse_0_1_0_BB76_12
.Ldeerlapse_0_1_0_BB76_11:                              // %apart.2.i.i.i.i.i.i.i.i
	mov	x0, x24
	mov	x2, x19
	bl	memmove
.Ldeerlapse_0_1_0_BB76_12:                              // %"core::slice::edits::slice+T::copy_from_slice::<i8,20'core::clone::U8Clone{}>.exit.i.i"
	ldr	x3, [sp, #8]                    // 8-byte Reload
	add	x0, sp, #32
	orr	x1, x26, #0x1
	add	x2, x20, x21
	mov	x4, x24
	mov	x5, x19
	mov	x6, x25
	bl	"deerlapse_0_1_0::deerlapse::key::deerlapse_key_seal"
.Ldeerlapse_0_1_0_BB76_13:                              // %"deerlapse::xaes_key::deerlapse_xaes_seal_to_sized.exit"
	add	sp, sp, #3232
	.cfi_def_cfa wsp, 96
	ldp	x20, x19, [sp, #80]             // 16-byte Folded Reload
	ldp	x22, x21, [sp, #64]             // 16-byte Folded Reload
	ldp	x24, x23, [sp, #48]             // 16-byte Folded Reload
	ldp	x26, x25, [sp, #32]             // 16-byte Folded Reload
	ldp	x28, x27, [sp, #16]             // 16-byte Folded Reload
	ldp	x29, x30, [sp], #96             // 16-byte Folded Reload
	.cfi_def_cfa_offset 0
	.cfi_restore w19
	.cfi_restore w20
	.cfi_restore w21
	.cfi_restore w22
	.cfi_restore w23
	.cfi_restore w24
	.cfi_restore w25
	.cfi_restore w26
	.cfi_restore w27
	.cfi_restore w28
	.cfi_restore w30
	.cfi_restore w29
	ret
.Ldeerlapse_0_1_0_BB76_14:                              // %vector.main.loop.iter.check
	.cfi_restore_state
	cmp	x19, #32
	b.hs	.Ldeerlapse_0_1_0_BB76_16
// %bb.15:
	mov	x8, xzr
	b	.Ldeerlapse_0_1_0_BB76_20
.Ldeerlapse_0_1_0_BB76_16:                              // %vector.ph
	add	x10, x27, x23
	add	x11, x28, x22
	and	x9, x19, #0x18
	and	x8, x19, #0xfffffffe0
	add	x10, x10, #16
	add	x11, x11, #16
	and	x12, x19, #0xfffffffe0
.Ldeerlapse_0_1_0_BB76_17:                              // %vector.body
                                        // =>This Inner Loop Header: Depth=1
	ldp	q0, q1, [x10, #-16]
	subs	x12, x12, #32
	add	x10, x10, #32
	stp	q0, q1, [x11, #-16]
	add	x11, x11, #32
	b.ne	.Ldeerlapse_0_1_0_BB76_17
// %bb.18:                              // %middle.block
	cmp	x19, x8
	b.eq	.Ldeerlapse_0_1_0_BB76_12
// %bb.19:                              // %vec.epilog.iter.check
	cbz	x9, .Ldeerlapse_0_1_0_BB76_9
.Ldeerlapse_0_1_0_BB76_20:                              // %vec.epilog.ph
	mov	x9, x8
	and	x8, x19, #0xffffffff8
	add	x10, x27, x9
	add	x11, x28, x9
	sub	x9, x9, x8
	add	x10, x23, x10
	add	x11, x22, x11
.Ldeerlapse_0_1_0_BB76_21:                              // %vec.epilog.vector.body
                                        // =>This Inner Loop Header: Depth=1
	ldr	d0, [x10], #8
	adds	x9, x9, #8
	str	d0, [x11], #8
	b.ne	.Ldeerlapse_0_1_0_BB76_21
// %bb.22:                              // %vec.epilog.middle.block
	cmp	x19, x8
	b.ne	.Ldeerlapse_0_1_0_BB76_9
	b	.Ldeerlapse_0_1_0_BB76_12
.Ldeerlapse_0_1_0_func_end76:
	.cfi_endproc
                                        // -- End function
	.section	.text.deerlapse_0_1_0_hkdf_expand,"ax",@progbits
	.ifdef	deerlapse_in_rust
	.globl	deerlapse_0_1_0_hkdf_expand           // -- Begin function deerlapse_0_1_0_hkdf_expand
	.p2align	2
	.type	deerlapse_0_1_0_hkdf_expand,@function
deerlapse_0_1_0_hkdf_expand:                  // @deerlapse_0_1_0_hkdf_expand
	.size	deerlapse_0_1_0_hkdf_expand, .Ldeerlapse_0_1_0_func_end77-deerlapse_0_1_0_hkdf_expand
	.else
	.globl	deerlapse_hkdf_expand           // -- Begin function deerlapse_hkdf_expand
	.p2align	2
	.type	deerlapse_hkdf_expand,@function
deerlapse_hkdf_expand:                  // @deerlapse_hkdf_expand
	.size	deerlapse_hkdf_expand, .Ldeerlapse_0_1_0_func_end77-deerlapse_hkdf_expand
	.endif
	.cfi_startproc
// %bb.0:                               // %start
	hint	#34
	stp	x29, x30, [sp, #-64]!           // 16-byte Folded Spill
	.cfi_def_cfa_offset 64
	stp	x28, x23, [sp, #16]             // 16-byte Folded Spill
	stp	x22, x21, [sp, #32]             // 16-byte Folded Spill
	stp	x20, x19, [sp, #48]             // 16-byte Folded Spill
	mov	x29, sp
	.cfi_def_cfa w29, 64
	.cfi_offset w19, -8
	.cfi_offset w20, -16
	.cfi_offset w21, -24
	.cfi_offset w22, -32
	.cfi_offset w23, -40
	.cfi_offset w28, -48
	.cfi_offset w30, -56
	.cfi_offset w29, -64
	sub	sp, sp, #544
	movi	v0.2d, #0000000000000000
	mov	w8, #4096                       // =0x1000
	cmp	x0, #0
	csel	x9, x8, xzr, eq
	cmp	x2, #0
	mov	x19, x5
	csel	x10, x8, xzr, eq
	cmp	x4, #0
	mov	x20, x4
	mov	x21, x3
	csel	x22, x8, xzr, eq
	cmp	x1, #48
	add	x8, x0, x9
	add	x23, x2, x10
	strb	wzr, [sp, #48]
	stp	q0, q0, [sp, #16]
	str	q0, [sp]
	b.eq	.Ldeerlapse_0_1_0_BB77_4
// %bb.1:                               // %start
	cmp	x1, #32
	mov	w0, wzr
	b.ne	.Ldeerlapse_0_1_0_BB77_7
// %bb.2:                               // %arm.1.i.i
	ldp	q0, q1, [x8]
	mov	x8, sp
	stp	xzr, xzr, [sp, #96]
	add	x0, sp, #128
	orr	x1, x8, #0x1
	mov	w2, #32                         // =0x20
	stp	q0, q1, [sp, #64]
	stur	q0, [sp, #1]
	ldr	q0, [sp, #96]
	stur	q1, [sp, #17]
	stur	q0, [sp, #33]
	bl	"deerlapse_0_1_0::key_derivation::hmac::HmacKey::new::<#7cab53feae2e1c66>"
	mov	w8, #8160                       // =0x1fe0
	stp	x23, x21, [sp, #112]
	cmp	x19, x8
	cset	w21, hi
	b.hi	.Ldeerlapse_0_1_0_BB77_6
// %bb.3:                               // %arm.1.i.i.i.i
	add	x0, sp, #128
	add	x1, sp, #112
	add	x2, x20, x22
	mov	x3, x19
	bl	"deerlapse_0_1_0::key_derivation::hkdf::Expander::fill_okm::<#7cab53feae2e1c66>"
	b	.Ldeerlapse_0_1_0_BB77_6
.Ldeerlapse_0_1_0_BB77_4:                               // %arm.2.i.i
	ldp	q0, q1, [x8]
	mov	w9, #1                          // =0x1
	ldr	q2, [x8, #32]
	mov	x8, sp
	add	x0, sp, #128
	orr	x1, x8, #0x1
	mov	w2, #48                         // =0x30
	strb	w9, [sp]
	stur	q0, [sp, #1]
	stur	q1, [sp, #17]
	stur	q2, [sp, #33]
	bl	"deerlapse_0_1_0::key_derivation::hmac::HmacKey::new::<#01e4f4eb65b1d8bb>"
	mov	w8, #12240                      // =0x2fd0
	stp	x23, x21, [sp, #64]
	cmp	x19, x8
	cset	w21, hi
	b.hi	.Ldeerlapse_0_1_0_BB77_6
// %bb.5:                               // %arm.1.i.i8.i.i
	add	x0, sp, #128
	add	x1, sp, #64
	add	x2, x20, x22
	mov	x3, x19
	bl	"deerlapse_0_1_0::key_derivation::hkdf::Expander::fill_okm::<#01e4f4eb65b1d8bb>"
.Ldeerlapse_0_1_0_BB77_6:                               // %"key_derivation::secret::Secret::expand.exit.i"
	eor	w0, w21, #0x1
.Ldeerlapse_0_1_0_BB77_7:                               // %"deerlapse::hkdf::deerlapse_hkdf_expand.exit"
	add	sp, sp, #544
	.cfi_def_cfa wsp, 64
	ldp	x20, x19, [sp, #48]             // 16-byte Folded Reload
	ldp	x22, x21, [sp, #32]             // 16-byte Folded Reload
	ldp	x28, x23, [sp, #16]             // 16-byte Folded Reload
	ldp	x29, x30, [sp], #64             // 16-byte Folded Reload
	.cfi_def_cfa_offset 0
	.cfi_restore w19
	.cfi_restore w20
	.cfi_restore w21
	.cfi_restore w22
	.cfi_restore w23
	.cfi_restore w28
	.cfi_restore w30
	.cfi_restore w29
	ret
.Ldeerlapse_0_1_0_func_end77:
	.cfi_endproc
                                        // -- End function
	.section	.text.deerlapse_0_1_0_hkdf_expand_label,"ax",@progbits
	.ifdef	deerlapse_in_rust
	.globl	deerlapse_0_1_0_hkdf_expand_label     // -- Begin function deerlapse_0_1_0_hkdf_expand_label
	.p2align	2
	.type	deerlapse_0_1_0_hkdf_expand_label,@function
deerlapse_0_1_0_hkdf_expand_label:            // @deerlapse_0_1_0_hkdf_expand_label
	.size	deerlapse_0_1_0_hkdf_expand_label, .Ldeerlapse_0_1_0_func_end78-deerlapse_0_1_0_hkdf_expand_label
	.else
	.globl	deerlapse_hkdf_expand_label     // -- Begin function deerlapse_hkdf_expand_label
	.p2align	2
	.type	deerlapse_hkdf_expand_label,@function
deerlapse_hkdf_expand_label:            // @deerlapse_hkdf_expand_label
	.size	deerlapse_hkdf_expand_label, .Ldeerlapse_0_1_0_func_end78-deerlapse_hkdf_expand_label
	.endif
	.cfi_startproc
// %bb.0:                               // %start
	hint	#34
	stp	x29, x30, [sp, #-96]!           // 16-byte Folded Spill
	.cfi_def_cfa_offset 96
	stp	x28, x27, [sp, #16]             // 16-byte Folded Spill
	stp	x26, x25, [sp, #32]             // 16-byte Folded Spill
	stp	x24, x23, [sp, #48]             // 16-byte Folded Spill
	stp	x22, x21, [sp, #64]             // 16-byte Folded Spill
	stp	x20, x19, [sp, #80]             // 16-byte Folded Spill
	mov	x29, sp
	.cfi_def_cfa w29, 96
	.cfi_offset w19, -8
	.cfi_offset w20, -16
	.cfi_offset w21, -24
	.cfi_offset w22, -32
	.cfi_offset w23, -40
	.cfi_offset w24, -48
	.cfi_offset w25, -56
	.cfi_offset w26, -64
	.cfi_offset w27, -72
	.cfi_offset w28, -80
	.cfi_offset w30, -88
	.cfi_offset w29, -96
	sub	sp, sp, #528
	cmp	x0, #0
	mov	w8, #4096                       // =0x1000
	mov	x19, x7
	csel	x9, x8, xzr, eq
	cmp	x2, #0
	mov	x21, x6
	csel	x27, x8, xzr, eq
	cmp	x4, #0
	mov	x20, x5
	csel	x26, x8, xzr, eq
	cmp	x6, #0
	mov	x24, x2
	mov	x23, x4
	mov	x22, x3
	csel	x25, x8, xzr, eq
	cmp	x1, #48
	add	x9, x0, x9
	b.eq	.Ldeerlapse_0_1_0_BB78_6
// %bb.1:                               // %start
	cmp	x1, #32
	b.ne	.Ldeerlapse_0_1_0_BB78_12
// %bb.2:                               // %arm.1.i.i
	ldp	q0, q1, [x9]
	sub	x8, x22, #250
	stp	xzr, xzr, [sp, #96]
	cmn	x8, #249
	mov	w8, #1                          // =0x1
	strb	wzr, [sp, #12]
	stp	q0, q1, [sp, #64]
	stur	q0, [sp, #13]
	ldr	q0, [sp, #96]
	stur	q1, [sp, #29]
	stur	q0, [sp, #45]
	b.lo	.Ldeerlapse_0_1_0_BB78_11
// %bb.3:                               // %arm.1.i.i
	cmp	x20, #255
	b.hi	.Ldeerlapse_0_1_0_BB78_11
// %bb.4:                               // %arm.1.i.i
	mov	w9, #8160                       // =0x1fe0
	cmp	x19, x9
	b.hi	.Ldeerlapse_0_1_0_BB78_11
// %bb.5:                               // %arm.9.i.i.i
	add	x8, sp, #12
	add	x0, sp, #112
	mov	w2, #32                         // =0x20
	orr	x1, x8, #0x1
	bl	"deerlapse_0_1_0::key_derivation::hmac::HmacKey::new::<#7cab53feae2e1c66>"
	add	x0, sp, #112
	add	x1, x24, x27
	add	x3, x23, x26
	add	x5, x21, x25
	mov	x2, x22
	mov	x4, x20
	mov	x6, x19
	bl	"deerlapse_0_1_0::key_derivation::hkdf::Expander::fill_labeled::<#7cab53feae2e1c66>"
	b	.Ldeerlapse_0_1_0_BB78_10
.Ldeerlapse_0_1_0_BB78_6:                               // %arm.2.i.i
	ldp	q0, q1, [x9]
	mov	w8, #1                          // =0x1
	ldr	q2, [x9, #32]
	sub	x9, x22, #250
	strb	w8, [sp, #12]
	cmn	x9, #249
	stur	q0, [sp, #13]
	stur	q1, [sp, #29]
	stur	q2, [sp, #45]
	b.lo	.Ldeerlapse_0_1_0_BB78_11
// %bb.7:                               // %arm.2.i.i
	cmp	x20, #255
	b.hi	.Ldeerlapse_0_1_0_BB78_11
// %bb.8:                               // %arm.2.i.i
	mov	w9, #12240                      // =0x2fd0
	cmp	x19, x9
	b.hi	.Ldeerlapse_0_1_0_BB78_11
// %bb.9:                               // %arm.9.i15.i.i
	add	x8, sp, #12
	add	x0, sp, #112
	mov	w2, #48                         // =0x30
	orr	x1, x8, #0x1
	bl	"deerlapse_0_1_0::key_derivation::hmac::HmacKey::new::<#01e4f4eb65b1d8bb>"
	add	x0, sp, #112
	add	x1, x24, x27
	add	x3, x23, x26
	add	x5, x21, x25
	mov	x2, x22
	mov	x4, x20
	mov	x6, x19
	bl	"deerlapse_0_1_0::key_derivation::hkdf::Expander::fill_labeled::<#01e4f4eb65b1d8bb>"
.Ldeerlapse_0_1_0_BB78_10:                              // %"key_derivation::secret::Secret::expand_label.exit.i"
	mov	w8, wzr
.Ldeerlapse_0_1_0_BB78_11:                              // %"key_derivation::secret::Secret::expand_label.exit.i"
	cmp	w8, #0
	cset	w0, eq
	b	.Ldeerlapse_0_1_0_BB78_13
.Ldeerlapse_0_1_0_BB78_12:
	mov	w0, wzr
.Ldeerlapse_0_1_0_BB78_13:                              // %"deerlapse::hkdf::deerlapse_hkdf_expand_label.exit"
	add	sp, sp, #528
	.cfi_def_cfa wsp, 96
	ldp	x20, x19, [sp, #80]             // 16-byte Folded Reload
	ldp	x22, x21, [sp, #64]             // 16-byte Folded Reload
	ldp	x24, x23, [sp, #48]             // 16-byte Folded Reload
	ldp	x26, x25, [sp, #32]             // 16-byte Folded Reload
	ldp	x28, x27, [sp, #16]             // 16-byte Folded Reload
	ldp	x29, x30, [sp], #96             // 16-byte Folded Reload
	.cfi_def_cfa_offset 0
	.cfi_restore w19
	.cfi_restore w20
	.cfi_restore w21
	.cfi_restore w22
	.cfi_restore w23
	.cfi_restore w24
	.cfi_restore w25
	.cfi_restore w26
	.cfi_restore w27
	.cfi_restore w28
	.cfi_restore w30
	.cfi_restore w29
	ret
.Ldeerlapse_0_1_0_func_end78:
	.cfi_endproc
                                        // -- End function
	.section	.text.deerlapse_0_1_0_quic_header_key_from_secret,"ax",@progbits
	.ifdef	deerlapse_in_rust
	.globl	deerlapse_0_1_0_quic_header_key_from_secret // -- Begin function deerlapse_0_1_0_quic_header_key_from_secret
	.p2align	2
	.type	deerlapse_0_1_0_quic_header_key_from_secret,@function
deerlapse_0_1_0_quic_header_key_from_secret:  // @deerlapse_0_1_0_quic_header_key_from_secret
	.size	deerlapse_0_1_0_quic_header_key_from_secret, .Ldeerlapse_0_1_0_func_end79-deerlapse_0_1_0_quic_header_key_from_secret
	.else
	.globl	deerlapse_quic_header_key_from_secret // -- Begin function deerlapse_quic_header_key_from_secret
	.p2align	2
	.type	deerlapse_quic_header_key_from_secret,@function
deerlapse_quic_header_key_from_secret:  // @deerlapse_quic_header_key_from_secret
	.size	deerlapse_quic_header_key_from_secret, .Ldeerlapse_0_1_0_func_end79-deerlapse_quic_header_key_from_secret
	.endif
	.cfi_startproc
// %bb.0:                               // %start
	hint	#34
	stp	x29, x30, [sp, #-64]!           // 16-byte Folded Spill
	.cfi_def_cfa_offset 64
	str	x28, [sp, #16]                  // 8-byte Spill
	stp	x22, x21, [sp, #32]             // 16-byte Folded Spill
	stp	x20, x19, [sp, #48]             // 16-byte Folded Spill
	mov	x29, sp
	.cfi_def_cfa w29, 64
	.cfi_offset w19, -8
	.cfi_offset w20, -16
	.cfi_offset w21, -24
	.cfi_offset w22, -32
	.cfi_offset w28, -48
	.cfi_offset w30, -56
	.cfi_offset w29, -64
	sub	sp, sp, #784
	cmp	x2, #0
	mov	w8, #4096                       // =0x1000
	mov	x19, x0
	csel	x10, x8, xzr, eq
	cmp	w1, #1
	b.eq	.Ldeerlapse_0_1_0_BB79_3
// %bb.1:                               // %start
	mov	w8, #17359                      // =0x43cf
	movk	w8, #27443, lsl #16
	cmp	w1, w8
	b.ne	.Ldeerlapse_0_1_0_BB79_11
// %bb.2:                               // %arm.2.i.i
	mov	w8, wzr
	mov	w9, #1                          // =0x1
	b	.Ldeerlapse_0_1_0_BB79_4
.Ldeerlapse_0_1_0_BB79_3:
	mov	w9, wzr
	mov	w8, #1                          // =0x1
.Ldeerlapse_0_1_0_BB79_4:                               // %arm.1.i
	cmp	x3, #48
	sub	x22, x29, #48
	add	x10, x2, x10
	b.eq	.Ldeerlapse_0_1_0_BB79_7
// %bb.5:                               // %arm.1.i
	cmp	x3, #32
	b.ne	.Ldeerlapse_0_1_0_BB79_11
// %bb.6:                               // %arm.1.i.i
	ldp	q0, q1, [x10]
	cmp	w8, #0
	stp	xzr, xzr, [sp, #96]
	mov	w8, #9                          // =0x9
	adrp	x10, .Ldeerlapse_0_1_0_static.11
	add	x10, x10, :lo12:.Ldeerlapse_0_1_0_static.11
	strb	w9, [sp, #12]
	mov	w9, #7                          // =0x7
	stp	q0, q1, [sp, #64]
	csel	x20, x9, x8, ne
	add	x9, sp, #12
	stur	q0, [sp, #14]
	ldr	q0, [sp, #96]
	adrp	x8, .Ldeerlapse_0_1_0_static.10
	add	x8, x8, :lo12:.Ldeerlapse_0_1_0_static.10
	sub	x0, x29, #256
	orr	x1, x9, #0x2
	mov	w2, #32                         // =0x20
	strb	wzr, [sp, #13]
	csel	x21, x8, x10, ne
	stur	q1, [sp, #30]
	stur	q0, [sp, #46]
	bl	"deerlapse_0_1_0::key_derivation::hmac::HmacKey::new::<#7cab53feae2e1c66>"
	movi	v0.2d, #0000000000000000
	mov	w8, #16                         // =0x10
	adrp	x3, .Ldeerlapse_0_1_0_static.6
	add	x3, x3, :lo12:.Ldeerlapse_0_1_0_static.6
	sub	x0, x29, #256
	sub	x5, x29, #48
	mov	x1, x21
	mov	x2, x20
	mov	x4, xzr
	mov	w6, #16                         // =0x10
	str	x8, [x22, #32]
	stp	q0, q0, [x22]
	bl	"deerlapse_0_1_0::key_derivation::hkdf::Expander::fill_labeled::<#7cab53feae2e1c66>"
	b	.Ldeerlapse_0_1_0_BB79_8
.Ldeerlapse_0_1_0_BB79_7:                               // %arm.2.i3.i
	ldp	q0, q1, [x10]
	cmp	w8, #0
	strb	w9, [sp, #12]
	mov	w9, #1                          // =0x1
	mov	w8, #9                          // =0x9
	strb	w9, [sp, #13]
	add	x9, sp, #12
	add	x0, sp, #112
	stur	q0, [sp, #14]
	ldr	q0, [x10, #32]
	mov	w10, #7                         // =0x7
	csel	x20, x10, x8, ne
	adrp	x8, .Ldeerlapse_0_1_0_static.11
	add	x8, x8, :lo12:.Ldeerlapse_0_1_0_static.11
	adrp	x10, .Ldeerlapse_0_1_0_static.10
	add	x10, x10, :lo12:.Ldeerlapse_0_1_0_static.10
	orr	x1, x9, #0x2
	mov	w2, #48                         // =0x30
	stur	q1, [sp, #30]
	csel	x21, x10, x8, ne
	stur	q0, [sp, #46]
	bl	"deerlapse_0_1_0::key_derivation::hmac::HmacKey::new::<#01e4f4eb65b1d8bb>"
	movi	v0.2d, #0000000000000000
	mov	w8, #32                         // =0x20
	adrp	x3, .Ldeerlapse_0_1_0_static.6
	add	x3, x3, :lo12:.Ldeerlapse_0_1_0_static.6
	add	x0, sp, #112
	add	x5, sp, #64
	mov	x1, x21
	mov	x2, x20
	mov	x4, xzr
	mov	w6, #32                         // =0x20
	str	x8, [sp, #96]
	stp	q0, q0, [sp, #64]
	bl	"deerlapse_0_1_0::key_derivation::hkdf::Expander::fill_labeled::<#01e4f4eb65b1d8bb>"
	ldp	q0, q1, [sp, #64]
	ldr	x8, [sp, #96]
	str	x8, [x22, #32]
	stp	q0, q1, [x22]
.Ldeerlapse_0_1_0_BB79_8:                               // %"key_derivation::quic::QuicSecret::header_key.exit.i"
	ldr	x8, [x22, #32]
	cmp	x8, #32
	b.eq	.Ldeerlapse_0_1_0_BB79_12
// %bb.9:                               // %"key_derivation::quic::QuicSecret::header_key.exit.i"
	cmp	x8, #16
	b.ne	.Ldeerlapse_0_1_0_BB79_11
// %bb.10:                              // %join.3.fold.split.i.i.i
	mov	w1, wzr
	b	.Ldeerlapse_0_1_0_BB79_13
.Ldeerlapse_0_1_0_BB79_11:
	mov	w0, wzr
	b	.Ldeerlapse_0_1_0_BB79_14
.Ldeerlapse_0_1_0_BB79_12:
	mov	w1, #1                          // =0x1
.Ldeerlapse_0_1_0_BB79_13:                              // %arm.1.i5.i
	add	x0, x19, #8
	sub	x2, x29, #48
	bl	"deerlapse_0_1_0::aead_ciphers_wide::aes::expand"
	mov	x8, x0
	mov	w0, #1                          // =0x1
	str	x8, [x19]
.Ldeerlapse_0_1_0_BB79_14:                              // %"deerlapse::header_key::deerlapse_quic_header_key_from_secret.exit"
	add	sp, sp, #784
	.cfi_def_cfa wsp, 64
	ldp	x20, x19, [sp, #48]             // 16-byte Folded Reload
	ldr	x28, [sp, #16]                  // 8-byte Reload
	ldp	x22, x21, [sp, #32]             // 16-byte Folded Reload
	ldp	x29, x30, [sp], #64             // 16-byte Folded Reload
	.cfi_def_cfa_offset 0
	.cfi_restore w19
	.cfi_restore w20
	.cfi_restore w21
	.cfi_restore w22
	.cfi_restore w28
	.cfi_restore w30
	.cfi_restore w29
	ret
.Ldeerlapse_0_1_0_func_end79:
	.cfi_endproc
                                        // -- End function
	.section	.text.deerlapse_0_1_0_quic_next_secret,"ax",@progbits
	.ifdef	deerlapse_in_rust
	.globl	deerlapse_0_1_0_quic_next_secret      // -- Begin function deerlapse_0_1_0_quic_next_secret
	.p2align	2
	.type	deerlapse_0_1_0_quic_next_secret,@function
deerlapse_0_1_0_quic_next_secret:             // @deerlapse_0_1_0_quic_next_secret
	.size	deerlapse_0_1_0_quic_next_secret, .Ldeerlapse_0_1_0_func_end80-deerlapse_0_1_0_quic_next_secret
	.else
	.globl	deerlapse_quic_next_secret      // -- Begin function deerlapse_quic_next_secret
	.p2align	2
	.type	deerlapse_quic_next_secret,@function
deerlapse_quic_next_secret:             // @deerlapse_quic_next_secret
	.size	deerlapse_quic_next_secret, .Ldeerlapse_0_1_0_func_end80-deerlapse_quic_next_secret
	.endif
	.cfi_startproc
// %bb.0:                               // %start
	hint	#34
	mov	w8, #4096                       // =0x1000
	cmp	x1, #0
	csel	x10, x8, xzr, eq
	cmp	w0, #1
	b.eq	.Ldeerlapse_0_1_0_BB80_3
// %bb.1:                               // %start
	mov	w8, #17359                      // =0x43cf
	movk	w8, #27443, lsl #16
	cmp	w0, w8
	b.ne	.Ldeerlapse_0_1_0_BB80_7
// %bb.2:                               // %arm.2.i.i
	mov	w8, wzr
	mov	w9, #1                          // =0x1
	b	.Ldeerlapse_0_1_0_BB80_4
.Ldeerlapse_0_1_0_BB80_3:
	mov	w9, wzr
	mov	w8, #1                          // =0x1
.Ldeerlapse_0_1_0_BB80_4:                               // %arm.1.i
	sub	sp, sp, #256
	.cfi_def_cfa_offset 256
	stp	x29, x30, [sp, #224]            // 16-byte Folded Spill
	stp	x20, x19, [sp, #240]            // 16-byte Folded Spill
	add	x29, sp, #224
	.cfi_def_cfa w29, 32
	.cfi_offset w19, -8
	.cfi_offset w20, -16
	.cfi_offset w30, -24
	.cfi_offset w29, -32
	.cfi_remember_state
	cmp	x2, #32
	add	x20, sp, #112
	add	x19, x1, x10
	b.eq	.Ldeerlapse_0_1_0_BB80_8
// %bb.5:                               // %arm.1.i
	cmp	x2, #48
	b.ne	.Ldeerlapse_0_1_0_BB80_10
// %bb.6:                               // %arm.4.i.i
	ldp	q0, q1, [x19]
	mov	w10, #1                         // =0x1
	ldr	q2, [x19, #32]
	stp	q0, q1, [sp, #112]
	str	q2, [x20, #32]
	b	.Ldeerlapse_0_1_0_BB80_9
.Ldeerlapse_0_1_0_BB80_7:
	.cfi_def_cfa wsp, 0
	.cfi_same_value w19
	.cfi_same_value w20
	.cfi_same_value w30
	.cfi_same_value w29
	mov	w0, wzr
	ret
.Ldeerlapse_0_1_0_BB80_8:                               // %arm.8.i.i
	.cfi_restore_state
	ldp	q0, q1, [x19]
	mov	w10, wzr
	stp	xzr, xzr, [x20, #32]
	stp	q0, q1, [sp, #112]
.Ldeerlapse_0_1_0_BB80_9:                               // %arm.5.i
	ldp	q0, q1, [sp, #112]
	cmp	w8, #0
	strb	w9, [sp, #12]
	mov	w8, #9                          // =0x9
	mov	w9, #7                          // =0x7
	add	x11, sp, #12
	csel	x3, x9, x8, ne
	adrp	x8, .Ldeerlapse_0_1_0_static.13
	add	x8, x8, :lo12:.Ldeerlapse_0_1_0_static.13
	stur	q0, [sp, #14]
	ldr	q0, [x20, #32]
	adrp	x9, .Ldeerlapse_0_1_0_static.12
	add	x9, x9, :lo12:.Ldeerlapse_0_1_0_static.12
	sub	x0, x29, #52
	csel	x2, x9, x8, ne
	orr	x1, x11, #0x1
	stur	q1, [sp, #30]
	strb	w10, [sp, #13]
	stur	q0, [sp, #46]
	bl	"deerlapse_0_1_0::key_derivation::secret::Secret::next"
	ldur	q0, [x20, #61]
	ldur	q1, [x20, #77]
	mov	w9, #32                         // =0x20
	ldurb	w8, [x29, #-52]
	add	x1, sp, #64
	mov	x0, x19
	stp	q0, q1, [sp, #64]
	ldur	q0, [x20, #93]
	cmp	w8, #0
	mov	w8, #48                         // =0x30
	csel	x2, x9, x8, eq
	str	q0, [sp, #96]
	bl	memcpy
	mov	w0, #1                          // =0x1
	b	.Ldeerlapse_0_1_0_BB80_11
.Ldeerlapse_0_1_0_BB80_10:
	mov	w0, wzr
.Ldeerlapse_0_1_0_BB80_11:
	.cfi_def_cfa wsp, 256
	ldp	x20, x19, [sp, #240]            // 16-byte Folded Reload
	ldp	x29, x30, [sp, #224]            // 16-byte Folded Reload
	add	sp, sp, #256
	.cfi_def_cfa_offset 0
	.cfi_restore w19
	.cfi_restore w20
	.cfi_restore w30
	.cfi_restore w29
	ret
.Ldeerlapse_0_1_0_func_end80:
	.cfi_endproc
                                        // -- End function
	.section	.text.deerlapse_0_1_0_tls_next_secret,"ax",@progbits
	.ifdef	deerlapse_in_rust
	.globl	deerlapse_0_1_0_tls_next_secret       // -- Begin function deerlapse_0_1_0_tls_next_secret
	.p2align	2
	.type	deerlapse_0_1_0_tls_next_secret,@function
deerlapse_0_1_0_tls_next_secret:              // @deerlapse_0_1_0_tls_next_secret
	.size	deerlapse_0_1_0_tls_next_secret, .Ldeerlapse_0_1_0_func_end81-deerlapse_0_1_0_tls_next_secret
	.else
	.globl	deerlapse_tls_next_secret       // -- Begin function deerlapse_tls_next_secret
	.p2align	2
	.type	deerlapse_tls_next_secret,@function
deerlapse_tls_next_secret:              // @deerlapse_tls_next_secret
	.size	deerlapse_tls_next_secret, .Ldeerlapse_0_1_0_func_end81-deerlapse_tls_next_secret
	.endif
	.cfi_startproc
// %bb.0:                               // %start
	hint	#34
	sub	sp, sp, #256
	.cfi_def_cfa_offset 256
	stp	x29, x30, [sp, #224]            // 16-byte Folded Spill
	stp	x20, x19, [sp, #240]            // 16-byte Folded Spill
	add	x29, sp, #224
	.cfi_def_cfa w29, 32
	.cfi_offset w19, -8
	.cfi_offset w20, -16
	.cfi_offset w30, -24
	.cfi_offset w29, -32
	mov	w8, #4096                       // =0x1000
	cmp	x0, #0
	csel	x8, x8, xzr, eq
	cmp	x1, #32
	add	x19, x0, x8
	b.eq	.Ldeerlapse_0_1_0_BB81_3
// %bb.1:                               // %start
	cmp	x1, #48
	b.ne	.Ldeerlapse_0_1_0_BB81_5
// %bb.2:                               // %arm.4.i.i
	ldp	q0, q1, [x19]
	mov	w8, #1                          // =0x1
	ldr	q2, [x19, #32]
	stp	q0, q1, [sp, #112]
	str	q2, [sp, #144]
	b	.Ldeerlapse_0_1_0_BB81_4
.Ldeerlapse_0_1_0_BB81_3:                               // %arm.8.i.i
	ldp	q0, q1, [x19]
	mov	w8, wzr
	stp	xzr, xzr, [sp, #144]
	stp	q0, q1, [sp, #112]
.Ldeerlapse_0_1_0_BB81_4:                               // %arm.1.i
	ldp	q0, q1, [sp, #112]
	adrp	x2, .Ldeerlapse_0_1_0_static.14
	add	x2, x2, :lo12:.Ldeerlapse_0_1_0_static.14
	ldr	q2, [sp, #144]
	sub	x0, x29, #52
	add	x1, sp, #60
	mov	w3, #11                         // =0xb
	strb	w8, [sp, #60]
	stur	q0, [sp, #61]
	sub	x20, x29, #52
	stur	q1, [sp, #77]
	stur	q2, [sp, #93]
	bl	"deerlapse_0_1_0::key_derivation::secret::Secret::next"
	ldur	q0, [x20, #1]
	ldur	q1, [x20, #17]
	mov	w9, #32                         // =0x20
	ldurb	w8, [x29, #-52]
	mov	x1, sp
	mov	x0, x19
	stp	q0, q1, [sp]
	ldur	q0, [x20, #33]
	cmp	w8, #0
	mov	w8, #48                         // =0x30
	csel	x2, x9, x8, eq
	str	q0, [sp, #32]
	bl	memcpy
	mov	w0, #1                          // =0x1
	b	.Ldeerlapse_0_1_0_BB81_6
.Ldeerlapse_0_1_0_BB81_5:
	mov	w0, wzr
.Ldeerlapse_0_1_0_BB81_6:                               // %"deerlapse::record_key::deerlapse_tls_next_secret.exit"
	.cfi_def_cfa wsp, 256
	ldp	x20, x19, [sp, #240]            // 16-byte Folded Reload
	ldp	x29, x30, [sp, #224]            // 16-byte Folded Reload
	add	sp, sp, #256
	.cfi_def_cfa_offset 0
	.cfi_restore w19
	.cfi_restore w20
	.cfi_restore w30
	.cfi_restore w29
	ret
.Ldeerlapse_0_1_0_func_end81:
	.cfi_endproc
                                        // -- End function
	.section	.text.deerlapse_0_1_0_key_init,"ax",@progbits
	.ifdef	deerlapse_in_rust
	.globl	deerlapse_0_1_0_key_init              // -- Begin function deerlapse_0_1_0_key_init
	.p2align	2
	.type	deerlapse_0_1_0_key_init,@function
deerlapse_0_1_0_key_init:                     // @deerlapse_0_1_0_key_init
	.size	deerlapse_0_1_0_key_init, .Ldeerlapse_0_1_0_func_end82-deerlapse_0_1_0_key_init
	.else
	.globl	deerlapse_key_init              // -- Begin function deerlapse_key_init
	.p2align	2
	.type	deerlapse_key_init,@function
deerlapse_key_init:                     // @deerlapse_key_init
	.size	deerlapse_key_init, .Ldeerlapse_0_1_0_func_end82-deerlapse_key_init
	.endif
	.cfi_startproc
// %bb.0:                               // %start
	hint	#34
	sub	sp, sp, #32
	.cfi_def_cfa_offset 32
	stp	x29, x30, [sp, #16]             // 16-byte Folded Spill
	add	x29, sp, #16
	.cfi_def_cfa w29, 16
	.cfi_offset w30, -8
	.cfi_offset w29, -16
	.cfi_remember_state
	mov	w8, #4096                       // =0x1000
	cmp	x1, #0
	csel	x9, x8, xzr, eq
	cmp	x2, #32
	b.eq	.Ldeerlapse_0_1_0_BB82_3
// %bb.1:                               // %start
	cmp	x2, #16
	b.ne	.Ldeerlapse_0_1_0_BB82_5
// %bb.2:                               // %join.3.fold.split.i.i.i
	mov	w8, wzr
	b	.Ldeerlapse_0_1_0_BB82_4
.Ldeerlapse_0_1_0_BB82_3:
	mov	w8, #1                          // =0x1
.Ldeerlapse_0_1_0_BB82_4:                               // %arm.1.i.i
	add	x2, x1, x9
	mov	x4, sp
	mov	w1, w8
	mov	w3, wzr
	stp	xzr, xzr, [sp]
	bl	"deerlapse_0_1_0::aead_ciphers_wide::aes_gcm::ExpandedKey::expand_with_width"
	mov	w0, #1                          // =0x1
	.cfi_def_cfa wsp, 32
	ldp	x29, x30, [sp, #16]             // 16-byte Folded Reload
	add	sp, sp, #32
	.cfi_def_cfa_offset 0
	.cfi_restore w30
	.cfi_restore w29
	ret
.Ldeerlapse_0_1_0_BB82_5:                               // %arm.2.i.i
	.cfi_restore_state
	mov	w1, wzr
	mov	w2, #3192                       // =0xc78
	bl	memset
	mov	w0, wzr
	.cfi_def_cfa wsp, 32
	ldp	x29, x30, [sp, #16]             // 16-byte Folded Reload
	add	sp, sp, #32
	.cfi_def_cfa_offset 0
	.cfi_restore w30
	.cfi_restore w29
	ret
.Ldeerlapse_0_1_0_func_end82:
	.cfi_endproc
                                        // -- End function
	.section	.text.deerlapse_0_1_0_open,"ax",@progbits
	.ifdef	deerlapse_in_rust
	.globl	deerlapse_0_1_0_open                  // -- Begin function deerlapse_0_1_0_open
	.p2align	2
	.type	deerlapse_0_1_0_open,@function
deerlapse_0_1_0_open:                         // @deerlapse_0_1_0_open
	.size	deerlapse_0_1_0_open, .Ldeerlapse_0_1_0_func_end83-deerlapse_0_1_0_open
	.else
	.globl	deerlapse_open                  // -- Begin function deerlapse_open
	.p2align	2
	.type	deerlapse_open,@function
deerlapse_open:                         // @deerlapse_open
	.size	deerlapse_open, .Ldeerlapse_0_1_0_func_end83-deerlapse_open
	.endif
	.cfi_startproc
// %bb.0:                               // %start
	hint	#34
	stp	x29, x30, [sp, #-96]!           // 16-byte Folded Spill
	.cfi_def_cfa_offset 96
	stp	x28, x27, [sp, #16]             // 16-byte Folded Spill
	stp	x26, x25, [sp, #32]             // 16-byte Folded Spill
	stp	x24, x23, [sp, #48]             // 16-byte Folded Spill
	stp	x22, x21, [sp, #64]             // 16-byte Folded Spill
	stp	x20, x19, [sp, #80]             // 16-byte Folded Spill
	mov	x29, sp
	.cfi_def_cfa w29, 96
	.cfi_offset w19, -8
	.cfi_offset w20, -16
	.cfi_offset w21, -24
	.cfi_offset w22, -32
	.cfi_offset w23, -40
	.cfi_offset w24, -48
	.cfi_offset w25, -56
	.cfi_offset w26, -64
	.cfi_offset w27, -72
	.cfi_offset w28, -80
	.cfi_offset w30, -88
	.cfi_offset w29, -96
	.cfi_remember_state
	sub	sp, sp, #3072
	str	xzr, [sp]
	sub	sp, sp, #288
	cmp	x0, #0
	mov	w8, #4096                       // =0x1000
	mov	x25, x0
	csel	x19, x8, xzr, eq
	cmp	x3, #0
	mov	x23, x2
	mov	x26, x1
	csel	x27, x8, xzr, eq
	cmp	x5, #0
	add	x0, sp, #32
	mov	w1, wzr
	mov	w2, #3192                       // =0xc78
	mov	x20, x7
	mov	x24, x6
	mov	x22, x5
	mov	x21, x3
	str	x4, [sp, #24]                   // 8-byte Spill
	csel	x28, x8, xzr, eq
	bl	memset
	cmp	x26, #32
	b.eq	.Ldeerlapse_0_1_0_BB83_3
// %bb.1:                               // %start
	cmp	x26, #16
	b.ne	.Ldeerlapse_0_1_0_BB83_10
// %bb.2:                               // %join.3.fold.split.i.i.i.i
	mov	w1, wzr
	b	.Ldeerlapse_0_1_0_BB83_4
.Ldeerlapse_0_1_0_BB83_3:
	mov	w1, #1                          // =0x1
.Ldeerlapse_0_1_0_BB83_4:                               // %then.1.i.i
	add	x0, sp, #32
	add	x2, x25, x19
	sub	x4, x29, #104
	mov	w3, wzr
	stp	xzr, xzr, [x29, #-104]
	bl	"deerlapse_0_1_0::aead_ciphers_wide::aes_gcm::ExpandedKey::expand_with_width"
	ldr	w9, [sp, #1952]
	mov	w0, wzr
	sub	w8, w9, #10
	cmp	w8, #4
	b.hi	.Ldeerlapse_0_1_0_BB83_11
// %bb.5:                               // %join.3.i.i.i
	subs	x24, x24, #16
	b.lo	.Ldeerlapse_0_1_0_BB83_10
// %bb.6:                               // %arm.1.i.i.i.i
	mov	x25, x20
	subs	x8, x24, x20
	b.lo	.Ldeerlapse_0_1_0_BB83_10
// %bb.7:                               // %arm.8.i.i.i.i
	ldr	x10, [sp, #24]                  // 8-byte Reload
	lsr	x10, x10, #61
	cbnz	x10, .Ldeerlapse_0_1_0_BB83_10
// %bb.8:                               // %arm.8.i.i.i.i
	mov	x10, #68719476704               // =0xfffffffe0
	cmp	x8, x10
	b.hi	.Ldeerlapse_0_1_0_BB83_10
// %bb.9:                               // %then.11.i.i.i.i
	add	x12, sp, #32
	add	x10, sp, #32
	stur	x9, [x29, #-88]
	add	x11, x12, #1928
	add	x9, x12, #2168
	add	x22, x22, x28
	stp	x10, x11, [x29, #-104]
	ldr	w10, [sp, #1956]
	ldr	q0, [x22, x24]
	ldr	x5, [sp, #24]                   // 8-byte Reload
	sub	x0, x29, #68
	sub	x1, x29, #104
	stp	w10, wzr, [x29, #-80]
	add	x10, x12, #2680
	sub	x2, x29, #120
	stp	x9, x10, [x29, #-120]
	ldr	x9, [x23]
	ldr	w10, [x23, #8]
	sub	x3, x29, #24
	add	x4, x21, x27
	sub	x6, x29, #48
	stur	x9, [x29, #-24]
	sub	x9, x29, #136
	add	x7, x22, x25
	stp	xzr, xzr, [x29, #-136]
	sub	x19, x29, #68
	stur	w10, [x29, #-16]
	stur	q0, [x29, #-48]
	stp	x8, x9, [sp]
	bl	"deerlapse_0_1_0::aead_ciphers::aes_gcm::opening::authenticate::<#7bfdf0a6b4753edd>"
	ldurb	w8, [x29, #-68]
	cbz	w8, .Ldeerlapse_0_1_0_BB83_12
.Ldeerlapse_0_1_0_BB83_10:                              // %"deerlapse::key::expand.exit.i.i"
	mov	w0, wzr
.Ldeerlapse_0_1_0_BB83_11:                              // %"deerlapse::aes_gcm::deerlapse_open.exit"
	add	sp, sp, #3360
	.cfi_def_cfa wsp, 96
	ldp	x20, x19, [sp, #80]             // 16-byte Folded Reload
	ldp	x22, x21, [sp, #64]             // 16-byte Folded Reload
	ldp	x24, x23, [sp, #48]             // 16-byte Folded Reload
	ldp	x26, x25, [sp, #32]             // 16-byte Folded Reload
	ldp	x28, x27, [sp, #16]             // 16-byte Folded Reload
	ldp	x29, x30, [sp], #96             // 16-byte Folded Reload
	.cfi_def_cfa_offset 0
	.cfi_restore w19
	.cfi_restore w20
	.cfi_restore w21
	.cfi_restore w22
	.cfi_restore w23
	.cfi_restore w24
	.cfi_restore w25
	.cfi_restore w26
	.cfi_restore w27
	.cfi_restore w28
	.cfi_restore w30
	.cfi_restore w29
	ret
.Ldeerlapse_0_1_0_BB83_12:                              // %arm.4.i.i.i
	.cfi_restore_state
	ldr	x20, [x29, #96]
	sub	x0, x29, #104
	orr	x1, x19, #0x1
	sub	x5, x29, #136
	mov	x2, x22
	mov	x3, x24
	mov	x4, x25
	bl	"deerlapse_0_1_0::aead_ciphers::aes_gcm::counter_mode::encrypt_within::<#6fa349fe97f872a2>"
	mov	x8, x0
	mov	w0, #1                          // =0x1
	str	x8, [x20]
	b	.Ldeerlapse_0_1_0_BB83_11
.Ldeerlapse_0_1_0_func_end83:
	.cfi_endproc
                                        // -- End function
	.section	.text.deerlapse_0_1_0_opener_init,"ax",@progbits
	.ifdef	deerlapse_in_rust
	.globl	deerlapse_0_1_0_opener_init           // -- Begin function deerlapse_0_1_0_opener_init
	.p2align	2
	.type	deerlapse_0_1_0_opener_init,@function
deerlapse_0_1_0_opener_init:                  // @deerlapse_0_1_0_opener_init
	.size	deerlapse_0_1_0_opener_init, .Ldeerlapse_0_1_0_func_end84-deerlapse_0_1_0_opener_init
	.else
	.globl	deerlapse_opener_init           // -- Begin function deerlapse_opener_init
	.p2align	2
	.type	deerlapse_opener_init,@function
deerlapse_opener_init:                  // @deerlapse_opener_init
	.size	deerlapse_opener_init, .Ldeerlapse_0_1_0_func_end84-deerlapse_opener_init
	.endif
	.cfi_startproc
// %bb.0:                               // %start
	hint	#34
	mov	w8, #4096                       // =0x1000
	cmp	x1, #0
	csel	x9, x8, xzr, eq
	cmp	x2, #32
	b.eq	.Ldeerlapse_0_1_0_BB84_4
// %bb.1:                               // %start
	cmp	x2, #16
	b.ne	.Ldeerlapse_0_1_0_BB84_3
// %bb.2:                               // %join.3.fold.split.i.i.i
	mov	w8, wzr
	cmp	x5, x4
	b.hs	.Ldeerlapse_0_1_0_BB84_5
.Ldeerlapse_0_1_0_BB84_3:
	mov	w0, wzr
	ret
.Ldeerlapse_0_1_0_BB84_4:
	mov	w8, #1                          // =0x1
	cmp	x5, x4
	b.lo	.Ldeerlapse_0_1_0_BB84_3
.Ldeerlapse_0_1_0_BB84_5:                               // %join.7.i.i
	sub	sp, sp, #64
	.cfi_def_cfa_offset 64
	stp	x29, x30, [sp, #16]             // 16-byte Folded Spill
	stp	x22, x21, [sp, #32]             // 16-byte Folded Spill
	stp	x20, x19, [sp, #48]             // 16-byte Folded Spill
	add	x29, sp, #16
	.cfi_def_cfa w29, 48
	.cfi_offset w19, -8
	.cfi_offset w20, -16
	.cfi_offset w21, -24
	.cfi_offset w22, -32
	.cfi_offset w30, -40
	.cfi_offset w29, -48
	add	x2, x1, x9
	mov	x20, x4
	mov	x4, sp
	mov	w1, w8
	mov	x21, x3
	mov	w3, wzr
	stp	xzr, xzr, [sp]
	mov	x19, x0
	mov	x22, x5
	bl	"deerlapse_0_1_0::aead_ciphers_wide::aes_gcm::ExpandedKey::expand_with_width"
	str	x20, [x19, #3192]
	movi	v0.2d, #0000000000000000
	mov	w0, #1                          // =0x1
	str	x22, [x19, #3200]
	ldr	w8, [x21, #8]
	ldr	x9, [x21]
	str	w8, [x19, #3216]
	add	x8, x19, #3220
	str	x9, [x19, #3208]
	stp	q0, q0, [x8]
	stp	q0, q0, [x8, #32]
	stp	q0, q0, [x8, #64]
	stp	q0, q0, [x8, #96]
	stp	q0, q0, [x8, #128]
	stp	q0, q0, [x8, #160]
	str	q0, [x8, #192]
	str	q0, [x19, #3424]
	.cfi_def_cfa wsp, 64
	ldp	x20, x19, [sp, #48]             // 16-byte Folded Reload
	ldp	x22, x21, [sp, #32]             // 16-byte Folded Reload
	ldp	x29, x30, [sp, #16]             // 16-byte Folded Reload
	add	sp, sp, #64
	.cfi_def_cfa_offset 0
	.cfi_restore w19
	.cfi_restore w20
	.cfi_restore w21
	.cfi_restore w22
	.cfi_restore w30
	.cfi_restore w29
	ret
.Ldeerlapse_0_1_0_func_end84:
	.cfi_endproc
                                        // -- End function
	.section	.text.deerlapse_0_1_0_quic_key_from_secret,"ax",@progbits
	.ifdef	deerlapse_in_rust
	.globl	deerlapse_0_1_0_quic_key_from_secret  // -- Begin function deerlapse_0_1_0_quic_key_from_secret
	.p2align	2
	.type	deerlapse_0_1_0_quic_key_from_secret,@function
deerlapse_0_1_0_quic_key_from_secret:         // @deerlapse_0_1_0_quic_key_from_secret
	.size	deerlapse_0_1_0_quic_key_from_secret, .Ldeerlapse_0_1_0_func_end85-deerlapse_0_1_0_quic_key_from_secret
	.else
	.globl	deerlapse_quic_key_from_secret  // -- Begin function deerlapse_quic_key_from_secret
	.p2align	2
	.type	deerlapse_quic_key_from_secret,@function
deerlapse_quic_key_from_secret:         // @deerlapse_quic_key_from_secret
	.size	deerlapse_quic_key_from_secret, .Ldeerlapse_0_1_0_func_end85-deerlapse_quic_key_from_secret
	.endif
	.cfi_startproc
// %bb.0:                               // %start
	hint	#34
	stp	x29, x30, [sp, #-96]!           // 16-byte Folded Spill
	.cfi_def_cfa_offset 96
	str	x28, [sp, #16]                  // 8-byte Spill
	stp	x26, x25, [sp, #32]             // 16-byte Folded Spill
	stp	x24, x23, [sp, #48]             // 16-byte Folded Spill
	stp	x22, x21, [sp, #64]             // 16-byte Folded Spill
	stp	x20, x19, [sp, #80]             // 16-byte Folded Spill
	mov	x29, sp
	.cfi_def_cfa w29, 96
	.cfi_offset w19, -8
	.cfi_offset w20, -16
	.cfi_offset w21, -24
	.cfi_offset w22, -32
	.cfi_offset w23, -40
	.cfi_offset w24, -48
	.cfi_offset w25, -56
	.cfi_offset w26, -64
	.cfi_offset w28, -80
	.cfi_offset w30, -88
	.cfi_offset w29, -96
	sub	sp, sp, #720
	movi	v0.2d, #0000000000000000
	mov	w8, #4096                       // =0x1000
	cmp	x2, #0
	mov	x19, x0
	csel	x10, x8, xzr, eq
	cmp	w1, #1
	str	xzr, [sp, #112]
	stp	q0, q0, [sp, #64]
	str	q0, [sp, #96]
	b.eq	.Ldeerlapse_0_1_0_BB85_3
// %bb.1:                               // %start
	mov	w8, #17359                      // =0x43cf
	movk	w8, #27443, lsl #16
	cmp	w1, w8
	b.ne	.Ldeerlapse_0_1_0_BB85_7
// %bb.2:                               // %arm.2.i.i.i
	mov	w8, wzr
	mov	w9, #1                          // =0x1
	b	.Ldeerlapse_0_1_0_BB85_4
.Ldeerlapse_0_1_0_BB85_3:
	mov	w9, wzr
	mov	w8, #1                          // =0x1
.Ldeerlapse_0_1_0_BB85_4:                               // %arm.1.i.i
	cmp	x3, #32
	add	x25, sp, #128
	add	x12, x2, x10
	b.eq	.Ldeerlapse_0_1_0_BB85_8
// %bb.5:                               // %arm.1.i.i
	cmp	x3, #48
	b.ne	.Ldeerlapse_0_1_0_BB85_7
// %bb.6:                               // %arm.4.i.i.i
	ldp	q0, q1, [x12]
	mov	w10, wzr
	ldr	q2, [x12, #32]
	mov	w11, #1                         // =0x1
	str	q0, [sp, #128]
	stp	q1, q2, [x25, #16]
	b	.Ldeerlapse_0_1_0_BB85_9
.Ldeerlapse_0_1_0_BB85_7:
	mov	w0, wzr
	b	.Ldeerlapse_0_1_0_BB85_17
.Ldeerlapse_0_1_0_BB85_8:                               // %arm.8.i.i.i
	ldp	q0, q1, [x12]
	mov	w11, wzr
	mov	w10, #1                         // =0x1
	stp	xzr, xzr, [x25, #32]
	str	q0, [sp, #128]
	str	q1, [x25, #16]
.Ldeerlapse_0_1_0_BB85_9:                               // %arm.5.i.i
	ldr	q0, [sp, #128]
	cmp	w8, #0
	mov	w8, #10                         // =0xa
	strb	w11, [sp, #13]
	adrp	x11, .Ldeerlapse_0_1_0_static.16
	add	x11, x11, :lo12:.Ldeerlapse_0_1_0_static.16
	mov	w12, #8                         // =0x8
	adrp	x13, .Ldeerlapse_0_1_0_static.15
	add	x13, x13, :lo12:.Ldeerlapse_0_1_0_static.15
	stur	q0, [sp, #14]
	ldp	q1, q0, [x25, #16]
	csel	x22, x12, x8, ne
	csel	x23, x13, x11, ne
	mov	w8, #9                          // =0x9
	mov	w11, #7                         // =0x7
	strb	w9, [sp, #12]
	add	x9, sp, #12
	adrp	x12, .Ldeerlapse_0_1_0_static.18
	add	x12, x12, :lo12:.Ldeerlapse_0_1_0_static.18
	csel	x20, x11, x8, ne
	adrp	x8, .Ldeerlapse_0_1_0_static.17
	add	x8, x8, :lo12:.Ldeerlapse_0_1_0_static.17
	sub	x26, x29, #128
	csel	x21, x8, x12, ne
	add	x0, sp, #176
	orr	x1, x9, #0x2
	stur	q1, [sp, #30]
	stur	q0, [sp, #46]
	cbz	w10, .Ldeerlapse_0_1_0_BB85_11
// %bb.10:                              // %arm.1.i.i.i
	mov	w2, #32                         // =0x20
	bl	"deerlapse_0_1_0::key_derivation::hmac::HmacKey::new::<#7cab53feae2e1c66>"
	movi	v0.2d, #0000000000000000
	adrp	x24, .Ldeerlapse_0_1_0_static.6
	add	x24, x24, :lo12:.Ldeerlapse_0_1_0_static.6
	mov	w8, #16                         // =0x10
	add	x0, sp, #176
	sub	x5, x29, #64
	mov	x1, x23
	mov	x2, x22
	mov	x3, x24
	mov	x4, xzr
	mov	w6, #16                         // =0x10
	str	x8, [x25, #560]
	stp	q0, q0, [x25, #528]
	bl	"deerlapse_0_1_0::key_derivation::hkdf::Expander::fill_labeled::<#7cab53feae2e1c66>"
	add	x0, sp, #176
	sub	x5, x29, #16
	mov	x1, x21
	mov	x2, x20
	mov	x3, x24
	mov	x4, xzr
	mov	w6, #12                         // =0xc
	stur	wzr, [x29, #-8]
	str	xzr, [x25, #576]
	bl	"deerlapse_0_1_0::key_derivation::hkdf::Expander::fill_labeled::<#7cab53feae2e1c66>"
	b	.Ldeerlapse_0_1_0_BB85_12
.Ldeerlapse_0_1_0_BB85_11:                              // %arm.2.i3.i.i
	mov	w2, #48                         // =0x30
	bl	"deerlapse_0_1_0::key_derivation::hmac::HmacKey::new::<#01e4f4eb65b1d8bb>"
	movi	v0.2d, #0000000000000000
	adrp	x24, .Ldeerlapse_0_1_0_static.6
	add	x24, x24, :lo12:.Ldeerlapse_0_1_0_static.6
	mov	w8, #32                         // =0x20
	add	x0, sp, #176
	sub	x5, x29, #64
	mov	x1, x23
	mov	x2, x22
	mov	x3, x24
	mov	x4, xzr
	mov	w6, #32                         // =0x20
	str	x8, [x25, #560]
	stp	q0, q0, [x25, #528]
	bl	"deerlapse_0_1_0::key_derivation::hkdf::Expander::fill_labeled::<#01e4f4eb65b1d8bb>"
	add	x0, sp, #176
	sub	x5, x29, #16
	mov	x1, x21
	mov	x2, x20
	mov	x3, x24
	mov	x4, xzr
	mov	w6, #12                         // =0xc
	stur	wzr, [x29, #-8]
	str	xzr, [x25, #576]
	bl	"deerlapse_0_1_0::key_derivation::hkdf::Expander::fill_labeled::<#01e4f4eb65b1d8bb>"
.Ldeerlapse_0_1_0_BB85_12:                              // %"key_derivation::quic::QuicSecret::packet_keys.exit.i.i"
	ldp	q0, q1, [x25, #528]
	ldr	x8, [x25, #560]
	ldr	x9, [x25, #576]
	str	x8, [x25, #496]
	ldur	w8, [x29, #-8]
	stur	x9, [x26, #40]
	stp	q0, q1, [x25, #464]
	ldr	q0, [x25, #496]
	stur	w8, [x26, #48]
	str	q0, [sp, #96]
	ldp	q1, q0, [x25, #464]
	ldr	x8, [sp, #96]
	ldur	w9, [x29, #-80]
	cmp	x8, #32
	stp	q1, q0, [sp, #64]
	stp	w9, wzr, [sp, #112]
	b.eq	.Ldeerlapse_0_1_0_BB85_15
// %bb.13:                              // %"key_derivation::quic::QuicSecret::packet_keys.exit.i.i"
	cmp	x8, #16
	mov	w0, wzr
	b.ne	.Ldeerlapse_0_1_0_BB85_17
// %bb.14:                              // %join.3.fold.split.i.i.i.i
	mov	w1, wzr
	b	.Ldeerlapse_0_1_0_BB85_16
.Ldeerlapse_0_1_0_BB85_15:
	mov	w1, #1                          // =0x1
.Ldeerlapse_0_1_0_BB85_16:                              // %arm.1.i6.i.i
	add	x2, sp, #64
	add	x4, sp, #176
	mov	x0, x19
	mov	w3, wzr
	stp	xzr, xzr, [x25, #48]
	bl	"deerlapse_0_1_0::aead_ciphers_wide::aes_gcm::ExpandedKey::expand_with_width"
	ldur	x8, [x26, #40]
	ldur	w9, [x26, #48]
	mov	w0, #1                          // =0x1
	str	wzr, [x19, #3204]
	str	x8, [x19, #3192]
	str	w9, [x19, #3200]
.Ldeerlapse_0_1_0_BB85_17:                              // %"deerlapse::quic_key::deerlapse_quic_key_from_secret.exit"
	add	sp, sp, #720
	.cfi_def_cfa wsp, 96
	ldp	x20, x19, [sp, #80]             // 16-byte Folded Reload
	ldr	x28, [sp, #16]                  // 8-byte Reload
	ldp	x22, x21, [sp, #64]             // 16-byte Folded Reload
	ldp	x24, x23, [sp, #48]             // 16-byte Folded Reload
	ldp	x26, x25, [sp, #32]             // 16-byte Folded Reload
	ldp	x29, x30, [sp], #96             // 16-byte Folded Reload
	.cfi_def_cfa_offset 0
	.cfi_restore w19
	.cfi_restore w20
	.cfi_restore w21
	.cfi_restore w22
	.cfi_restore w23
	.cfi_restore w24
	.cfi_restore w25
	.cfi_restore w26
	.cfi_restore w28
	.cfi_restore w30
	.cfi_restore w29
	ret
.Ldeerlapse_0_1_0_func_end85:
	.cfi_endproc
                                        // -- End function
	.section	.text.deerlapse_0_1_0_quic_key_init,"ax",@progbits
	.ifdef	deerlapse_in_rust
	.globl	deerlapse_0_1_0_quic_key_init         // -- Begin function deerlapse_0_1_0_quic_key_init
	.p2align	2
	.type	deerlapse_0_1_0_quic_key_init,@function
deerlapse_0_1_0_quic_key_init:                // @deerlapse_0_1_0_quic_key_init
	.size	deerlapse_0_1_0_quic_key_init, .Ldeerlapse_0_1_0_func_end86-deerlapse_0_1_0_quic_key_init
	.else
	.globl	deerlapse_quic_key_init         // -- Begin function deerlapse_quic_key_init
	.p2align	2
	.type	deerlapse_quic_key_init,@function
deerlapse_quic_key_init:                // @deerlapse_quic_key_init
	.size	deerlapse_quic_key_init, .Ldeerlapse_0_1_0_func_end86-deerlapse_quic_key_init
	.endif
	.cfi_startproc
// %bb.0:                               // %start
	hint	#34
	sub	sp, sp, #48
	.cfi_def_cfa_offset 48
	stp	x29, x30, [sp, #16]             // 16-byte Folded Spill
	stp	x20, x19, [sp, #32]             // 16-byte Folded Spill
	add	x29, sp, #16
	.cfi_def_cfa w29, 32
	.cfi_offset w19, -8
	.cfi_offset w20, -16
	.cfi_offset w30, -24
	.cfi_offset w29, -32
	.cfi_remember_state
	cmp	x1, #0
	mov	w8, #4096                       // =0x1000
	mov	x19, x3
	csel	x9, x8, xzr, eq
	cmp	x2, #32
	b.eq	.Ldeerlapse_0_1_0_BB86_3
// %bb.1:                               // %start
	cmp	x2, #16
	b.ne	.Ldeerlapse_0_1_0_BB86_5
// %bb.2:                               // %join.3.fold.split.i.i.i
	mov	w8, wzr
	b	.Ldeerlapse_0_1_0_BB86_4
.Ldeerlapse_0_1_0_BB86_3:
	mov	w8, #1                          // =0x1
.Ldeerlapse_0_1_0_BB86_4:                               // %arm.1.i.i
	add	x2, x1, x9
	mov	x4, sp
	mov	w1, w8
	mov	w3, wzr
	stp	xzr, xzr, [sp]
	mov	x20, x0
	bl	"deerlapse_0_1_0::aead_ciphers_wide::aes_gcm::ExpandedKey::expand_with_width"
	ldr	w8, [x19, #8]
	ldr	x9, [x19]
	mov	w0, #1                          // =0x1
	str	wzr, [x20, #3204]
	str	w8, [x20, #3200]
	str	x9, [x20, #3192]
	.cfi_def_cfa wsp, 48
	ldp	x20, x19, [sp, #32]             // 16-byte Folded Reload
	ldp	x29, x30, [sp, #16]             // 16-byte Folded Reload
	add	sp, sp, #48
	.cfi_def_cfa_offset 0
	.cfi_restore w19
	.cfi_restore w20
	.cfi_restore w30
	.cfi_restore w29
	ret
.Ldeerlapse_0_1_0_BB86_5:
	.cfi_restore_state
	mov	w0, wzr
	.cfi_def_cfa wsp, 48
	ldp	x20, x19, [sp, #32]             // 16-byte Folded Reload
	ldp	x29, x30, [sp, #16]             // 16-byte Folded Reload
	add	sp, sp, #48
	.cfi_def_cfa_offset 0
	.cfi_restore w19
	.cfi_restore w20
	.cfi_restore w30
	.cfi_restore w29
	ret
.Ldeerlapse_0_1_0_func_end86:
	.cfi_endproc
                                        // -- End function
	.section	.text.deerlapse_0_1_0_record_key_from_secret,"ax",@progbits
	.ifdef	deerlapse_in_rust
	.globl	deerlapse_0_1_0_record_key_from_secret // -- Begin function deerlapse_0_1_0_record_key_from_secret
	.p2align	2
	.type	deerlapse_0_1_0_record_key_from_secret,@function
deerlapse_0_1_0_record_key_from_secret:       // @deerlapse_0_1_0_record_key_from_secret
	.size	deerlapse_0_1_0_record_key_from_secret, .Ldeerlapse_0_1_0_func_end87-deerlapse_0_1_0_record_key_from_secret
	.else
	.globl	deerlapse_record_key_from_secret // -- Begin function deerlapse_record_key_from_secret
	.p2align	2
	.type	deerlapse_record_key_from_secret,@function
deerlapse_record_key_from_secret:       // @deerlapse_record_key_from_secret
	.size	deerlapse_record_key_from_secret, .Ldeerlapse_0_1_0_func_end87-deerlapse_record_key_from_secret
	.endif
	.cfi_startproc
// %bb.0:                               // %start
	hint	#34
	stp	x29, x30, [sp, #-48]!           // 16-byte Folded Spill
	.cfi_def_cfa_offset 48
	str	x28, [sp, #16]                  // 8-byte Spill
	stp	x20, x19, [sp, #32]             // 16-byte Folded Spill
	mov	x29, sp
	.cfi_def_cfa w29, 48
	.cfi_offset w19, -8
	.cfi_offset w20, -16
	.cfi_offset w28, -32
	.cfi_offset w30, -40
	.cfi_offset w29, -48
	movi	v0.2d, #0000000000000000
	mov	x19, x0
	stp	q0, q0, [sp, #-656]!
	mov	w8, #4096                       // =0x1000
	cmp	x1, #0
	str	q0, [sp, #32]
	csel	x8, x8, xzr, eq
	cmp	x2, #48
	strb	wzr, [sp, #48]
	add	x8, x1, x8
	b.eq	.Ldeerlapse_0_1_0_BB87_3
// %bb.1:                               // %start
	cmp	x2, #32
	mov	w0, wzr
	b.ne	.Ldeerlapse_0_1_0_BB87_9
// %bb.2:                               // %arm.1.i.i.i
	ldp	q0, q1, [x8]
	mov	x8, sp
	stp	xzr, xzr, [sp, #96]
	add	x0, sp, #176
	orr	x1, x8, #0x1
	stp	q0, q1, [sp, #64]
	stur	q0, [sp, #1]
	ldr	q0, [sp, #96]
	stur	q1, [sp, #17]
	stur	q0, [sp, #33]
	bl	"deerlapse_0_1_0::key_derivation::hmac::HmacKey::new::<#7cab53feae2e1c66>"
	movi	v0.2d, #0000000000000000
	adrp	x20, .Ldeerlapse_0_1_0_static.6
	add	x20, x20, :lo12:.Ldeerlapse_0_1_0_static.6
	mov	w8, #16                         // =0x10
	adrp	x1, .Ldeerlapse_0_1_0_static.19
	add	x1, x1, :lo12:.Ldeerlapse_0_1_0_static.19
	add	x0, sp, #176
	add	x5, sp, #112
	mov	w2, #3                          // =0x3
	mov	x3, x20
	mov	x4, xzr
	mov	w6, #16                         // =0x10
	stp	q0, q0, [sp, #112]
	str	x8, [sp, #144]
	bl	"deerlapse_0_1_0::key_derivation::hkdf::Expander::fill_labeled::<#7cab53feae2e1c66>"
	adrp	x1, .Ldeerlapse_0_1_0_static.20
	add	x1, x1, :lo12:.Ldeerlapse_0_1_0_static.20
	add	x0, sp, #176
	add	x5, sp, #160
	mov	w2, #2                          // =0x2
	mov	x3, x20
	mov	x4, xzr
	mov	w6, #12                         // =0xc
	str	wzr, [sp, #168]
	str	xzr, [sp, #160]
	bl	"deerlapse_0_1_0::key_derivation::hkdf::Expander::fill_labeled::<#7cab53feae2e1c66>"
	ldp	q0, q1, [sp, #112]
	ldr	x8, [sp, #144]
	ldr	x9, [sp, #160]
	ldr	w10, [sp, #168]
	b	.Ldeerlapse_0_1_0_BB87_4
.Ldeerlapse_0_1_0_BB87_3:                               // %arm.2.i.i.i
	ldp	q0, q1, [x8]
	mov	w9, #1                          // =0x1
	ldr	q2, [x8, #32]
	mov	x8, sp
	add	x0, sp, #176
	orr	x1, x8, #0x1
	strb	w9, [sp]
	stur	q0, [sp, #1]
	stur	q1, [sp, #17]
	stur	q2, [sp, #33]
	bl	"deerlapse_0_1_0::key_derivation::hmac::HmacKey::new::<#01e4f4eb65b1d8bb>"
	movi	v0.2d, #0000000000000000
	adrp	x20, .Ldeerlapse_0_1_0_static.6
	add	x20, x20, :lo12:.Ldeerlapse_0_1_0_static.6
	mov	w8, #32                         // =0x20
	adrp	x1, .Ldeerlapse_0_1_0_static.19
	add	x1, x1, :lo12:.Ldeerlapse_0_1_0_static.19
	add	x0, sp, #176
	add	x5, sp, #64
	mov	w2, #3                          // =0x3
	mov	x3, x20
	mov	x4, xzr
	mov	w6, #32                         // =0x20
	stp	q0, q0, [sp, #64]
	str	x8, [sp, #96]
	bl	"deerlapse_0_1_0::key_derivation::hkdf::Expander::fill_labeled::<#01e4f4eb65b1d8bb>"
	adrp	x1, .Ldeerlapse_0_1_0_static.20
	add	x1, x1, :lo12:.Ldeerlapse_0_1_0_static.20
	add	x0, sp, #176
	add	x5, sp, #112
	mov	w2, #2                          // =0x2
	mov	x3, x20
	mov	x4, xzr
	mov	w6, #12                         // =0xc
	str	wzr, [sp, #120]
	str	xzr, [sp, #112]
	bl	"deerlapse_0_1_0::key_derivation::hkdf::Expander::fill_labeled::<#01e4f4eb65b1d8bb>"
	ldp	q0, q1, [sp, #64]
	ldr	x8, [sp, #96]
	ldr	x9, [sp, #112]
	ldr	w10, [sp, #120]
.Ldeerlapse_0_1_0_BB87_4:                               // %"key_derivation::secret::Secret::record_keys.exit.i.i"
	stp	q0, q1, [x29, #-64]
	stp	x8, x9, [x29, #-32]
	ldur	q0, [x29, #-32]
	stur	w10, [x29, #-16]
	stp	w10, wzr, [sp, #224]
	str	q0, [sp, #208]
	ldp	q1, q0, [x29, #-64]
	ldr	x8, [sp, #208]
	cmp	x8, #32
	stp	q1, q0, [sp, #176]
	b.eq	.Ldeerlapse_0_1_0_BB87_7
// %bb.5:                               // %"key_derivation::secret::Secret::record_keys.exit.i.i"
	cmp	x8, #16
	mov	w0, wzr
	b.ne	.Ldeerlapse_0_1_0_BB87_9
// %bb.6:                               // %join.3.fold.split.i.i.i.i
	mov	w1, wzr
	b	.Ldeerlapse_0_1_0_BB87_8
.Ldeerlapse_0_1_0_BB87_7:
	mov	w1, #1                          // =0x1
.Ldeerlapse_0_1_0_BB87_8:                               // %arm.1.i3.i.i
	add	x2, sp, #176
	add	x4, sp, #112
	mov	x0, x19
	mov	w3, wzr
	stp	xzr, xzr, [sp, #112]
	bl	"deerlapse_0_1_0::aead_ciphers_wide::aes_gcm::ExpandedKey::expand_with_width"
	ldur	x8, [x29, #-24]
	ldur	w9, [x29, #-16]
	mov	w0, #1                          // =0x1
	str	wzr, [x19, #3204]
	str	x8, [x19, #3192]
	str	w9, [x19, #3200]
.Ldeerlapse_0_1_0_BB87_9:                               // %"deerlapse::record_key::deerlapse_record_key_from_secret.exit"
	add	sp, sp, #656
	.cfi_def_cfa wsp, 48
	ldp	x20, x19, [sp, #32]             // 16-byte Folded Reload
	ldr	x28, [sp, #16]                  // 8-byte Reload
	ldp	x29, x30, [sp], #48             // 16-byte Folded Reload
	.cfi_def_cfa_offset 0
	.cfi_restore w19
	.cfi_restore w20
	.cfi_restore w28
	.cfi_restore w30
	.cfi_restore w29
	ret
.Ldeerlapse_0_1_0_func_end87:
	.cfi_endproc
                                        // -- End function
	.section	.text.deerlapse_0_1_0_record_key_init,"ax",@progbits
	.ifdef	deerlapse_in_rust
	.globl	deerlapse_0_1_0_record_key_init       // -- Begin function deerlapse_0_1_0_record_key_init
	.p2align	2
	.type	deerlapse_0_1_0_record_key_init,@function
deerlapse_0_1_0_record_key_init:              // @deerlapse_0_1_0_record_key_init
	.size	deerlapse_0_1_0_record_key_init, .Ldeerlapse_0_1_0_func_end88-deerlapse_0_1_0_record_key_init
	.else
	.globl	deerlapse_record_key_init       // -- Begin function deerlapse_record_key_init
	.p2align	2
	.type	deerlapse_record_key_init,@function
deerlapse_record_key_init:              // @deerlapse_record_key_init
	.size	deerlapse_record_key_init, .Ldeerlapse_0_1_0_func_end88-deerlapse_record_key_init
	.endif
	.cfi_startproc
// %bb.0:                               // %start
	hint	#34
	sub	sp, sp, #48
	.cfi_def_cfa_offset 48
	stp	x29, x30, [sp, #16]             // 16-byte Folded Spill
	stp	x20, x19, [sp, #32]             // 16-byte Folded Spill
	add	x29, sp, #16
	.cfi_def_cfa w29, 32
	.cfi_offset w19, -8
	.cfi_offset w20, -16
	.cfi_offset w30, -24
	.cfi_offset w29, -32
	.cfi_remember_state
	cmp	x1, #0
	mov	w8, #4096                       // =0x1000
	mov	x19, x3
	csel	x9, x8, xzr, eq
	cmp	x2, #32
	b.eq	.Ldeerlapse_0_1_0_BB88_3
// %bb.1:                               // %start
	cmp	x2, #16
	b.ne	.Ldeerlapse_0_1_0_BB88_5
// %bb.2:                               // %join.3.fold.split.i.i.i
	mov	w8, wzr
	b	.Ldeerlapse_0_1_0_BB88_4
.Ldeerlapse_0_1_0_BB88_3:
	mov	w8, #1                          // =0x1
.Ldeerlapse_0_1_0_BB88_4:                               // %arm.1.i.i
	add	x2, x1, x9
	mov	x4, sp
	mov	w1, w8
	mov	w3, wzr
	stp	xzr, xzr, [sp]
	mov	x20, x0
	bl	"deerlapse_0_1_0::aead_ciphers_wide::aes_gcm::ExpandedKey::expand_with_width"
	ldr	w8, [x19, #8]
	ldr	x9, [x19]
	mov	w0, #1                          // =0x1
	str	wzr, [x20, #3204]
	str	w8, [x20, #3200]
	str	x9, [x20, #3192]
	.cfi_def_cfa wsp, 48
	ldp	x20, x19, [sp, #32]             // 16-byte Folded Reload
	ldp	x29, x30, [sp, #16]             // 16-byte Folded Reload
	add	sp, sp, #48
	.cfi_def_cfa_offset 0
	.cfi_restore w19
	.cfi_restore w20
	.cfi_restore w30
	.cfi_restore w29
	ret
.Ldeerlapse_0_1_0_BB88_5:
	.cfi_restore_state
	mov	w0, wzr
	.cfi_def_cfa wsp, 48
	ldp	x20, x19, [sp, #32]             // 16-byte Folded Reload
	ldp	x29, x30, [sp, #16]             // 16-byte Folded Reload
	add	sp, sp, #48
	.cfi_def_cfa_offset 0
	.cfi_restore w19
	.cfi_restore w20
	.cfi_restore w30
	.cfi_restore w29
	ret
.Ldeerlapse_0_1_0_func_end88:
	.cfi_endproc
                                        // -- End function
	.section	.text.deerlapse_0_1_0_seal,"ax",@progbits
	.ifdef	deerlapse_in_rust
	.globl	deerlapse_0_1_0_seal                  // -- Begin function deerlapse_0_1_0_seal
	.p2align	2
	.type	deerlapse_0_1_0_seal,@function
deerlapse_0_1_0_seal:                         // @deerlapse_0_1_0_seal
	.size	deerlapse_0_1_0_seal, .Ldeerlapse_0_1_0_func_end89-deerlapse_0_1_0_seal
	.else
	.globl	deerlapse_seal                  // -- Begin function deerlapse_seal
	.p2align	2
	.type	deerlapse_seal,@function
deerlapse_seal:                         // @deerlapse_seal
	.size	deerlapse_seal, .Ldeerlapse_0_1_0_func_end89-deerlapse_seal
	.endif
	.cfi_startproc
// %bb.0:                               // %start
	hint	#34
	stp	x29, x30, [sp, #-96]!           // 16-byte Folded Spill
	.cfi_def_cfa_offset 96
	stp	x28, x27, [sp, #16]             // 16-byte Folded Spill
	stp	x26, x25, [sp, #32]             // 16-byte Folded Spill
	stp	x24, x23, [sp, #48]             // 16-byte Folded Spill
	stp	x22, x21, [sp, #64]             // 16-byte Folded Spill
	stp	x20, x19, [sp, #80]             // 16-byte Folded Spill
	mov	x29, sp
	.cfi_def_cfa w29, 96
	.cfi_offset w19, -8
	.cfi_offset w20, -16
	.cfi_offset w21, -24
	.cfi_offset w22, -32
	.cfi_offset w23, -40
	.cfi_offset w24, -48
	.cfi_offset w25, -56
	.cfi_offset w26, -64
	.cfi_offset w27, -72
	.cfi_offset w28, -80
	.cfi_offset w30, -88
	.cfi_offset w29, -96
	sub	sp, sp, #3072
	str	xzr, [sp], #-160
	cmp	x0, #0
	mov	w8, #4096                       // =0x1000
	mov	x25, x0
	csel	x19, x8, xzr, eq
	cmp	x3, #0
	mov	x23, x2
	mov	x26, x1
	csel	x27, x8, xzr, eq
	cmp	x5, #0
	add	x0, sp, #16
	mov	w1, wzr
	mov	w2, #3192                       // =0xc78
	str	x7, [sp, #8]                    // 8-byte Spill
	mov	x20, x6
	mov	x21, x5
	mov	x24, x3
	mov	x22, x4
	csel	x28, x8, xzr, eq
	bl	memset
	cmp	x26, #32
	b.eq	.Ldeerlapse_0_1_0_BB89_3
// %bb.1:                               // %start
	cmp	x26, #16
	b.ne	.Ldeerlapse_0_1_0_BB89_5
// %bb.2:                               // %join.3.fold.split.i.i.i.i
	mov	w1, wzr
	b	.Ldeerlapse_0_1_0_BB89_4
.Ldeerlapse_0_1_0_BB89_3:
	mov	w1, #1                          // =0x1
.Ldeerlapse_0_1_0_BB89_4:                               // %then.1.i.i
	add	x0, sp, #16
	add	x2, x25, x19
	sub	x4, x29, #24
	mov	w3, wzr
	stp	xzr, xzr, [x29, #-24]
	bl	"deerlapse_0_1_0::aead_ciphers_wide::aes_gcm::ExpandedKey::expand_with_width"
	ldr	x6, [sp, #8]                    // 8-byte Reload
	add	x0, sp, #16
	add	x2, x24, x27
	add	x4, x21, x28
	mov	x1, x23
	mov	x3, x22
	mov	x5, x20
	bl	"deerlapse_0_1_0::deerlapse::key::deerlapse_key_seal"
	b	.Ldeerlapse_0_1_0_BB89_6
.Ldeerlapse_0_1_0_BB89_5:                               // %"deerlapse::key::expand.exit.i.i"
	mov	w0, wzr
.Ldeerlapse_0_1_0_BB89_6:                               // %"deerlapse::aes_gcm::deerlapse_seal.exit"
	add	sp, sp, #3232
	.cfi_def_cfa wsp, 96
	ldp	x20, x19, [sp, #80]             // 16-byte Folded Reload
	ldp	x22, x21, [sp, #64]             // 16-byte Folded Reload
	ldp	x24, x23, [sp, #48]             // 16-byte Folded Reload
	ldp	x26, x25, [sp, #32]             // 16-byte Folded Reload
	ldp	x28, x27, [sp, #16]             // 16-byte Folded Reload
	ldp	x29, x30, [sp], #96             // 16-byte Folded Reload
	.cfi_def_cfa_offset 0
	.cfi_restore w19
	.cfi_restore w20
	.cfi_restore w21
	.cfi_restore w22
	.cfi_restore w23
	.cfi_restore w24
	.cfi_restore w25
	.cfi_restore w26
	.cfi_restore w27
	.cfi_restore w28
	.cfi_restore w30
	.cfi_restore w29
	ret
.Ldeerlapse_0_1_0_func_end89:
	.cfi_endproc
                                        // -- End function
	.section	.text.deerlapse_0_1_0_sealer_init,"ax",@progbits
	.ifdef	deerlapse_in_rust
	.globl	deerlapse_0_1_0_sealer_init           // -- Begin function deerlapse_0_1_0_sealer_init
	.p2align	2
	.type	deerlapse_0_1_0_sealer_init,@function
deerlapse_0_1_0_sealer_init:                  // @deerlapse_0_1_0_sealer_init
	.size	deerlapse_0_1_0_sealer_init, .Ldeerlapse_0_1_0_func_end90-deerlapse_0_1_0_sealer_init
	.else
	.globl	deerlapse_sealer_init           // -- Begin function deerlapse_sealer_init
	.p2align	2
	.type	deerlapse_sealer_init,@function
deerlapse_sealer_init:                  // @deerlapse_sealer_init
	.size	deerlapse_sealer_init, .Ldeerlapse_0_1_0_func_end90-deerlapse_sealer_init
	.endif
	.cfi_startproc
// %bb.0:                               // %start
	hint	#34
	mov	w8, #4096                       // =0x1000
	cmp	x1, #0
	csel	x9, x8, xzr, eq
	cmp	x2, #32
	b.eq	.Ldeerlapse_0_1_0_BB90_4
// %bb.1:                               // %start
	cmp	x2, #16
	b.ne	.Ldeerlapse_0_1_0_BB90_3
// %bb.2:                               // %join.3.fold.split.i.i.i
	mov	w8, wzr
	cmp	x5, x4
	b.hs	.Ldeerlapse_0_1_0_BB90_5
.Ldeerlapse_0_1_0_BB90_3:
	mov	w0, wzr
	ret
.Ldeerlapse_0_1_0_BB90_4:
	mov	w8, #1                          // =0x1
	cmp	x5, x4
	b.lo	.Ldeerlapse_0_1_0_BB90_3
.Ldeerlapse_0_1_0_BB90_5:                               // %join.7.i.i
	sub	sp, sp, #64
	.cfi_def_cfa_offset 64
	stp	x29, x30, [sp, #16]             // 16-byte Folded Spill
	stp	x22, x21, [sp, #32]             // 16-byte Folded Spill
	stp	x20, x19, [sp, #48]             // 16-byte Folded Spill
	add	x29, sp, #16
	.cfi_def_cfa w29, 48
	.cfi_offset w19, -8
	.cfi_offset w20, -16
	.cfi_offset w21, -24
	.cfi_offset w22, -32
	.cfi_offset w30, -40
	.cfi_offset w29, -48
	add	x2, x1, x9
	mov	x20, x4
	mov	x4, sp
	mov	w1, w8
	mov	x21, x3
	mov	w3, wzr
	stp	xzr, xzr, [sp]
	mov	x19, x0
	mov	x22, x5
	bl	"deerlapse_0_1_0::aead_ciphers_wide::aes_gcm::ExpandedKey::expand_with_width"
	str	x20, [x19, #3192]
	movi	v0.2d, #0000000000000000
	mov	w0, #1                          // =0x1
	str	x22, [x19, #3200]
	ldr	w8, [x21, #8]
	ldr	x9, [x21]
	str	w8, [x19, #3216]
	add	x8, x19, #3220
	str	x9, [x19, #3208]
	stp	q0, q0, [x8]
	stp	q0, q0, [x8, #32]
	stp	q0, q0, [x8, #64]
	stp	q0, q0, [x8, #96]
	stp	q0, q0, [x8, #128]
	stp	q0, q0, [x8, #160]
	str	q0, [x8, #192]
	str	q0, [x19, #3424]
	.cfi_def_cfa wsp, 64
	ldp	x20, x19, [sp, #48]             // 16-byte Folded Reload
	ldp	x22, x21, [sp, #32]             // 16-byte Folded Reload
	ldp	x29, x30, [sp, #16]             // 16-byte Folded Reload
	add	sp, sp, #64
	.cfi_def_cfa_offset 0
	.cfi_restore w19
	.cfi_restore w20
	.cfi_restore w21
	.cfi_restore w22
	.cfi_restore w30
	.cfi_restore w29
	ret
.Ldeerlapse_0_1_0_func_end90:
	.cfi_endproc
                                        // -- End function
	.section	.rodata.cst16,"aM",@progbits,16
	.p2align	4, 0x0                          // -- Begin function deerlapse_0_1_0_xaes_init
.Ldeerlapse_0_1_0_CPI91_0:
	.byte	0                               // 0x0
	.byte	1                               // 0x1
	.byte	16                              // 0x10
	.byte	17                              // 0x11
	.byte	32                              // 0x20
	.byte	33                              // 0x21
	.byte	48                              // 0x30
	.byte	49                              // 0x31
	.byte	255                             // 0xff
	.byte	255                             // 0xff
	.byte	255                             // 0xff
	.byte	255                             // 0xff
	.byte	255                             // 0xff
	.byte	255                             // 0xff
	.byte	255                             // 0xff
	.byte	255                             // 0xff
	.section	.text.deerlapse_0_1_0_xaes_init,"ax",@progbits
	.ifdef	deerlapse_in_rust
	.globl	deerlapse_0_1_0_xaes_init
	.p2align	2
	.type	deerlapse_0_1_0_xaes_init,@function
deerlapse_0_1_0_xaes_init:                    // @deerlapse_0_1_0_xaes_init
	.size	deerlapse_0_1_0_xaes_init, .Ldeerlapse_0_1_0_func_end91-deerlapse_0_1_0_xaes_init
	.else
	.globl	deerlapse_xaes_init
	.p2align	2
	.type	deerlapse_xaes_init,@function
deerlapse_xaes_init:                    // @deerlapse_xaes_init
	.size	deerlapse_xaes_init, .Ldeerlapse_0_1_0_func_end91-deerlapse_xaes_init
	.endif
	.cfi_startproc
// %bb.0:                               // %start
	hint	#34
	sub	sp, sp, #64
	.cfi_def_cfa_offset 64
	stp	x29, x30, [sp, #32]             // 16-byte Folded Spill
	str	x19, [sp, #48]                  // 8-byte Spill
	add	x29, sp, #32
	.cfi_def_cfa w29, 32
	.cfi_offset w19, -16
	.cfi_offset w30, -24
	.cfi_offset w29, -32
	mov	x2, x1
	mov	x19, x0
	add	x0, x0, #8
	mov	w1, #1                          // =0x1
	bl	"deerlapse_0_1_0::aead_ciphers_wide::aes::expand"
	mov	x2, x0
	mov	w8, #128                        // =0x80
	add	x0, sp, #16
	add	x1, x19, #8
	mov	x3, sp
	stp	w2, w8, [x19]
	stp	xzr, xzr, [sp]
	stp	xzr, xzr, [sp, #16]
	bl	"deerlapse_0_1_0::aead_ciphers_wide::aes::block_key::BlockKeyRef::encrypt_one"
	ldp	x8, x9, [sp, #16]
	adrp	x15, .Ldeerlapse_0_1_0_CPI91_0
	ldr	q5, [x15, :lo12:.Ldeerlapse_0_1_0_CPI91_0]
	rev	x8, x8
	ubfx	x10, x8, #55, #8
	ubfx	x11, x8, #47, #16
	lsr	x13, x8, #15
	fmov	s0, w10
	ubfx	x10, x8, #39, #24
	mov	v0.b[1], w11
	lsr	x11, x8, #23
	mov	v0.b[2], w10
	lsr	x10, x8, #31
	mov	v0.b[3], w10
	rev	x10, x9
	extr	x12, x8, x10, #63
	lsl	x9, x10, #1
	extr	x14, x12, x9, #40
	extr	x16, x12, x9, #48
	mov	v0.b[4], w11
	extr	x11, x12, x9, #32
	fmov	d4, x11
	extr	x11, x12, x9, #56
	fmov	d3, x14
	mov	v0.b[5], w13
	fmov	d2, x16
	lsr	x13, x8, #7
	fmov	d1, x11
	asr	x8, x8, #63
	lsr	w11, w10, #23
	and	w8, w8, #0xffffff87
	strb	w11, [x19, #260]
	tbl	v1.16b, { v1.16b, v2.16b, v3.16b, v4.16b }, v5.16b
	mov	v0.b[6], w13
	lsr	w13, w10, #15
	lsr	w10, w10, #7
	eor	w8, w8, w9
	strb	w13, [x19, #261]
	strb	w10, [x19, #262]
	xtn	v1.8b, v1.8h
	mov	v0.b[7], w12
	str	s1, [x19, #256]
	str	d0, [x19, #248]
	strb	w8, [x19, #263]
	.cfi_def_cfa wsp, 64
	ldp	x29, x30, [sp, #32]             // 16-byte Folded Reload
	ldr	x19, [sp, #48]                  // 8-byte Reload
	add	sp, sp, #64
	.cfi_def_cfa_offset 0
	.cfi_restore w19
	.cfi_restore w30
	.cfi_restore w29
	ret
.Ldeerlapse_0_1_0_func_end91:
	.cfi_endproc
                                        // -- End function
	.section	.text.deerlapse_0_1_0_opener_wipe,"ax",@progbits
	.ifdef	deerlapse_in_rust
	.globl	deerlapse_0_1_0_opener_wipe           // -- Begin function deerlapse_0_1_0_opener_wipe
	.p2align	2
	.type	deerlapse_0_1_0_opener_wipe,@function
deerlapse_0_1_0_opener_wipe:                  // @deerlapse_0_1_0_opener_wipe
	.size	deerlapse_0_1_0_opener_wipe, .Ldeerlapse_0_1_0_func_end92-deerlapse_0_1_0_opener_wipe
	.else
	.globl	deerlapse_opener_wipe           // -- Begin function deerlapse_opener_wipe
	.p2align	2
	.type	deerlapse_opener_wipe,@function
deerlapse_opener_wipe:                  // @deerlapse_opener_wipe
	.size	deerlapse_opener_wipe, .Ldeerlapse_0_1_0_func_end92-deerlapse_opener_wipe
	.endif
	.cfi_startproc
// %bb.0:                               // %start
	hint	#34
	mov	w1, wzr
	mov	w2, #3440                       // =0xd70
	b	memset
.Ldeerlapse_0_1_0_func_end92:
	.cfi_endproc
                                        // -- End function
	.section	.text.deerlapse_0_1_0_sealer_wipe,"ax",@progbits
	.ifdef	deerlapse_in_rust
	.globl	deerlapse_0_1_0_sealer_wipe           // -- Begin function deerlapse_0_1_0_sealer_wipe
	.p2align	2
	.type	deerlapse_0_1_0_sealer_wipe,@function
deerlapse_0_1_0_sealer_wipe:                  // @deerlapse_0_1_0_sealer_wipe
	.size	deerlapse_0_1_0_sealer_wipe, .Ldeerlapse_0_1_0_func_end93-deerlapse_0_1_0_sealer_wipe
	.else
	.globl	deerlapse_sealer_wipe           // -- Begin function deerlapse_sealer_wipe
	.p2align	2
	.type	deerlapse_sealer_wipe,@function
deerlapse_sealer_wipe:                  // @deerlapse_sealer_wipe
	.size	deerlapse_sealer_wipe, .Ldeerlapse_0_1_0_func_end93-deerlapse_sealer_wipe
	.endif
	.cfi_startproc
// %bb.0:                               // %start
	hint	#34
	mov	w1, wzr
	mov	w2, #3440                       // =0xd70
	b	memset
.Ldeerlapse_0_1_0_func_end93:
	.cfi_endproc
                                        // -- End function
	.section	.text.deerlapse_0_1_0_quic_key_wipe,"ax",@progbits
	.ifdef	deerlapse_in_rust
	.globl	deerlapse_0_1_0_quic_key_wipe         // -- Begin function deerlapse_0_1_0_quic_key_wipe
	.p2align	2
	.type	deerlapse_0_1_0_quic_key_wipe,@function
deerlapse_0_1_0_quic_key_wipe:                // @deerlapse_0_1_0_quic_key_wipe
	.size	deerlapse_0_1_0_quic_key_wipe, .Ldeerlapse_0_1_0_func_end94-deerlapse_0_1_0_quic_key_wipe
	.else
	.globl	deerlapse_quic_key_wipe         // -- Begin function deerlapse_quic_key_wipe
	.p2align	2
	.type	deerlapse_quic_key_wipe,@function
deerlapse_quic_key_wipe:                // @deerlapse_quic_key_wipe
	.size	deerlapse_quic_key_wipe, .Ldeerlapse_0_1_0_func_end94-deerlapse_quic_key_wipe
	.endif
	.cfi_startproc
// %bb.0:                               // %start
	hint	#34
	mov	w1, wzr
	mov	w2, #3208                       // =0xc88
	b	memset
.Ldeerlapse_0_1_0_func_end94:
	.cfi_endproc
                                        // -- End function
	.section	.text.deerlapse_0_1_0_record_key_wipe,"ax",@progbits
	.ifdef	deerlapse_in_rust
	.globl	deerlapse_0_1_0_record_key_wipe       // -- Begin function deerlapse_0_1_0_record_key_wipe
	.p2align	2
	.type	deerlapse_0_1_0_record_key_wipe,@function
deerlapse_0_1_0_record_key_wipe:              // @deerlapse_0_1_0_record_key_wipe
	.size	deerlapse_0_1_0_record_key_wipe, .Ldeerlapse_0_1_0_func_end95-deerlapse_0_1_0_record_key_wipe
	.else
	.globl	deerlapse_record_key_wipe       // -- Begin function deerlapse_record_key_wipe
	.p2align	2
	.type	deerlapse_record_key_wipe,@function
deerlapse_record_key_wipe:              // @deerlapse_record_key_wipe
	.size	deerlapse_record_key_wipe, .Ldeerlapse_0_1_0_func_end95-deerlapse_record_key_wipe
	.endif
	.cfi_startproc
// %bb.0:                               // %start
	hint	#34
	mov	w1, wzr
	mov	w2, #3208                       // =0xc88
	b	memset
.Ldeerlapse_0_1_0_func_end95:
	.cfi_endproc
                                        // -- End function
	.type	.Ldeerlapse_0_1_0_static.0,@object              // @static.0
	.section	.rodata,"a",@progbits
.Ldeerlapse_0_1_0_static.0:
	.asciz	"\200\000\000\000\000\000\000\000\000\000\000\000\000\000\000\000\000\000\000\000\000\000\000\000\000\000\000\000\000\000\000\000\000\000\000\000\000\000\000\000\000\000\000\000\000\000\000\000\000\000\000\000\000\000\000\000\000\000\000\000\000\000\000"
	.size	.Ldeerlapse_0_1_0_static.0, 64

	.type	.Ldeerlapse_0_1_0_static.1,@object              // @static.1
	.p2align	2, 0x0
.Ldeerlapse_0_1_0_static.1:
	.ascii	"\230/\212B\221D7q\317\373\300\265\245\333\265\351[\302V9\361\021\361Y\244\202?\222\325^\034\253\230\252\007\330\001[\203\022\276\2051$\303}\fUt]\276r\376\261\336\200\247\006\334\233t\361\233\301\301i\233\344\206G\276\357\306\235\301\017\314\241\f$o,\351-\252\204tJ\334\251\260\\\332\210\371vRQ>\230m\3061\250\310'\003\260\307\177Y\277\363\013\340\306G\221\247\325Qc\312\006g))\024\205\n\267'8!\033.\374m,M\023\r8STs\ne\273\njv.\311\302\201\205,r\222\241\350\277\242Kf\032\250p\213K\302\243Ql\307\031\350\222\321$\006\231\326\2055\016\364p\240j\020\026\301\244\031\bl7\036LwH'\265\274\2604\263\f\0349J\252\330NO\312\234[\363o.h\356\202\217toc\245x\024x\310\204\b\002\307\214\372\377\276\220\353lP\244\367\243\371\276\362xq\306"
	.size	.Ldeerlapse_0_1_0_static.1, 256

	.type	.Ldeerlapse_0_1_0_static.2,@object              // @static.2
.Ldeerlapse_0_1_0_static.2:
	.asciz	"\200\000\000\000\000\000\000\000\000\000\000\000\000\000\000\000\000\000\000\000\000\000\000\000\000\000\000\000\000\000\000\000\000\000\000\000\000\000\000\000\000\000\000\000\000\000\000\000\000\000\000\000\000\000\000\000\000\000\000\000\000\000\000\000\000\000\000\000\000\000\000\000\000\000\000\000\000\000\000\000\000\000\000\000\000\000\000\000\000\000\000\000\000\000\000\000\000\000\000\000\000\000\000\000\000\000\000\000\000\000\000\000\000\000\000\000\000\000\000\000\000\000\000\000\000\000\000"
	.size	.Ldeerlapse_0_1_0_static.2, 128

	.type	.Ldeerlapse_0_1_0_static.3,@object              // @static.3
	.p2align	3, 0x0
.Ldeerlapse_0_1_0_static.3:
	.ascii	"\"\256(\327\230/\212B\315e\357#\221D7q/;M\354\317\373\300\265\274\333\211\201\245\333\265\3518\265H\363[\302V9\031\320\005\266\361\021\361Y\233O\031\257\244\202?\222\030\201m\332\325^\034\253B\002\003\243\230\252\007\330\276opE\001[\203\022\214\262\344N\276\2051$\342\264\377\325\303}\fUo\211{\362t]\276r\261\226\026;\376\261\336\2005\022\307%\247\006\334\233\224&i\317t\361\233\301\322J\361\236\301i\233\344\343%O8\206G\276\357\265\325\214\213\306\235\301\017e\234\254w\314\241\f$u\002+Yo,\351-\203\344\246n\252\204tJ\324\373A\275\334\251\260\\\265S\021\203\332\210\371v\253\337f\356RQ>\230\0202\264-m\3061\250?!\373\230\310'\003\260\344\016\357\276\307\177Y\277\302\217\250=\363\013\340\306%\247\n\223G\221\247\325o\202\003\340Qc\312\006pn\016\ng))\024\374/\322F\205\n\267'&\311&\\8!\033.\355*\304Z\374m,M\337\263\225\235\023\r8S\336c\257\213Ts\ne\250\262w<\273\njv\346\256\355G.\311\302\201;5\202\024\205,r\222d\003\361L\241\350\277\242\0010B\274Kf\032\250\221\227\370\320p\213K\3020\276T\006\243Ql\307\030R\357\326\031\350\222\321\020\251eU$\006\231\326* qW\2055\016\364\270\321\2732p\240j\020\310\320\322\270\026\301\244\031S\253AQ\bl7\036\231\353\216\337LwH'\250H\233\341\265\274\2604cZ\311\305\263\f\0349\313\212A\343J\252\330Ns\343cwO\312\234[\243\270\262\326\363o.h\374\262\357]\356\202\217t`/\027Coc\245xr\253\360\241\024x\310\204\3549d\032\b\002\307\214(\036c#\372\377\276\220\351\275\202\336\353lP\244\025y\306\262\367\243\371\276+Sr\343\362xq\306\234a&\352\316>'\312\007\302\300!\307\270\206\321\036\353\340\315\326}\332\352x\321n\356\177O}\365\272o\027r\252g\360\006\246\230\310\242\305}c\n\256\r\371\276\004\230?\021\033G\034\0235\013q\033\204}\004#\365w\333(\223$\307@{\253\3122\274\276\311\025\n\276\236<L\r\020\234\304g\035C\266B>\313\276\324\305L*~e\374\234)\177Y\354\372\326:\253o\313_\027XGJ\214\031Dl"
	.size	.Ldeerlapse_0_1_0_static.3, 640

	.type	.Ldeerlapse_0_1_0_static.4,@object              // @static.4
.Ldeerlapse_0_1_0_static.4:
	.ascii	"\001\002\004\b\020 @\200\0336"
	.size	.Ldeerlapse_0_1_0_static.4, 10

	.type	.Ldeerlapse_0_1_0_static.5,@object              // @static.5
.Ldeerlapse_0_1_0_static.5:
	.ascii	"client in"
	.size	.Ldeerlapse_0_1_0_static.5, 9

	.type	.Ldeerlapse_0_1_0_static.6,@object              // @static.6
.Ldeerlapse_0_1_0_static.6:
	.size	.Ldeerlapse_0_1_0_static.6, 0

	.type	.Ldeerlapse_0_1_0_static.7,@object              // @static.7
.Ldeerlapse_0_1_0_static.7:
	.ascii	"tls13 "
	.size	.Ldeerlapse_0_1_0_static.7, 6

	.type	.Ldeerlapse_0_1_0_static.8,@object              // @static.8
.Ldeerlapse_0_1_0_static.8:
	.ascii	"server in"
	.size	.Ldeerlapse_0_1_0_static.8, 9

	.type	.Ldeerlapse_0_1_0_static.10,@object             // @static.10
.Ldeerlapse_0_1_0_static.10:
	.ascii	"quic hp"
	.size	.Ldeerlapse_0_1_0_static.10, 7

	.type	.Ldeerlapse_0_1_0_static.11,@object             // @static.11
.Ldeerlapse_0_1_0_static.11:
	.ascii	"quicv2 hp"
	.size	.Ldeerlapse_0_1_0_static.11, 9

	.type	.Ldeerlapse_0_1_0_static.12,@object             // @static.12
.Ldeerlapse_0_1_0_static.12:
	.ascii	"quic ku"
	.size	.Ldeerlapse_0_1_0_static.12, 7

	.type	.Ldeerlapse_0_1_0_static.13,@object             // @static.13
.Ldeerlapse_0_1_0_static.13:
	.ascii	"quicv2 ku"
	.size	.Ldeerlapse_0_1_0_static.13, 9

	.type	.Ldeerlapse_0_1_0_static.14,@object             // @static.14
.Ldeerlapse_0_1_0_static.14:
	.ascii	"traffic upd"
	.size	.Ldeerlapse_0_1_0_static.14, 11

	.type	.Ldeerlapse_0_1_0_static.15,@object             // @static.15
	.section	.rodata.cst8,"aM",@progbits,8
.Ldeerlapse_0_1_0_static.15:
	.ascii	"quic key"
	.size	.Ldeerlapse_0_1_0_static.15, 8

	.type	.Ldeerlapse_0_1_0_static.16,@object             // @static.16
	.section	.rodata,"a",@progbits
.Ldeerlapse_0_1_0_static.16:
	.ascii	"quicv2 key"
	.size	.Ldeerlapse_0_1_0_static.16, 10

	.type	.Ldeerlapse_0_1_0_static.17,@object             // @static.17
.Ldeerlapse_0_1_0_static.17:
	.ascii	"quic iv"
	.size	.Ldeerlapse_0_1_0_static.17, 7

	.type	.Ldeerlapse_0_1_0_static.18,@object             // @static.18
.Ldeerlapse_0_1_0_static.18:
	.ascii	"quicv2 iv"
	.size	.Ldeerlapse_0_1_0_static.18, 9

	.type	.Ldeerlapse_0_1_0_static.19,@object             // @static.19
.Ldeerlapse_0_1_0_static.19:
	.ascii	"key"
	.size	.Ldeerlapse_0_1_0_static.19, 3

	.type	.Ldeerlapse_0_1_0_static.20,@object             // @static.20
.Ldeerlapse_0_1_0_static.20:
	.ascii	"iv"
	.size	.Ldeerlapse_0_1_0_static.20, 2

	.ident	"rattle logic=dac8208d650f15bf3e2dc313a14fa4c783a3acf887bdfab66e1714b038d9e11b"
	.section	".note.GNU-stack","",@progbits
