/* Written by c/write.py. What each call owes and is owed: docs/C.md. */
#ifndef HUQMERIS_H
#define HUQMERIS_H

#include <stddef.h>
#include <stdint.h>
#include <string.h>

#ifdef __cplusplus
#define HQ_RESTRICT __restrict
extern "C" {
#else
#define HQ_RESTRICT restrict
#endif

/* The version of this interface. */
#define HQ_VERSION 2u
/* The call did what it says. */
#define HQ_OK 0
/* The integers are no instruction of the core. */
#define HQ_BAD_INST 1
/* The integers are no place. */
#define HQ_BAD_PLACE 2
/* No line of the core has this number. */
#define HQ_BAD_LINE 3
/*
 * The operands aren't those that the line takes. The detail says which: 0: reg, 1: vvvv, 2: the place, 3: whether there is an
 * immediate, 4: the immediate's range.
 */
#define HQ_BAD_OPERANDS 4
/* No line of the core reads what stands there. */
#define HQ_NONE 5
/* The slice is too short. Nothing was written. */
#define HQ_FULL 6
/* What was read is none of an instruction that can be made. */
#define HQ_NO_INST 7
/* The integers are no reading. */
#define HQ_BAD_READING 8
/* The sum isn't of 32 bits. */
#define HQ_OUT_OF_RANGE 9
/*
 * A register isn't below 16. The detail is its place, from 0, among those that the instruction has, in the order reg, vvvv, base,
 * index.
 */
#define HQ_FAULT_REGISTER 16
/* The index is the stack pointer. The detail is its place, as above. */
#define HQ_FAULT_INDEX 17
/* A register that the line fixes is another one. No instruction of the core has this fault. */
#define HQ_FAULT_FIXED 18
/* A late offset isn't known. The detail is its key. */
#define HQ_FAULT_UNKNOWN 19
/* The displacement and its late offset have a sum that isn't of 32 bits. */
#define HQ_FAULT_RANGE 20
/* There are more than 165,191,049 instructions or items. */
#define HQ_TOO_MANY 10
/* The allocator gave no memory. */
#define HQ_NO_MEMORY 11
/* The integers are no item, or one of code behind data. */
#define HQ_BAD_ITEM 12
/* The label's number isn't below that of all items. */
#define HQ_BAD_LABEL 13
/* The label or the constant has a position already. */
#define HQ_BOUND_TWICE 14
/* A label or a constant that is referred to has no position. */
#define HQ_UNBOUND 15
/* A register has no name: it isn't below 16. */
#define HQ_NO_NAME 21
/* A place: nothing. */
#define HQ_PLACE_NOTHING 0u
/* A place: a register. */
#define HQ_PLACE_REGISTER 1u
/* A place: memory at a base and a displacement. */
#define HQ_PLACE_BASE 2u
/* A place: memory at a base, an index times its scale, and a displacement. */
#define HQ_PLACE_INDEX 3u
/* A place: memory relative to the end of the instruction, at a label. */
#define HQ_PLACE_LABEL 4u
/* A place: memory relative to the end of the instruction, at a constant. */
#define HQ_PLACE_CONSTANT 5u
/* A place: memory relative to the end of the instruction, of which isn't told where. */
#define HQ_PLACE_UNTOLD 6u
/* An operand that was read: nothing. */
#define HQ_READ_NOTHING 0u
/* An operand that was read: a register. */
#define HQ_READ_REGISTER 1u
/* An operand that was read: the high byte of one of the first four registers. */
#define HQ_READ_HIGH_BYTE 2u
/* An operand that was read: memory. */
#define HQ_READ_MEMORY 3u
/* An operand that was read: memory relative to the end of the instruction. */
#define HQ_READ_RELATIVE 4u
/* What is told: nothing. */
#define HQ_TOLD_NOTHING 0u
/* What is told: the code of a trap. */
#define HQ_TOLD_TRAP 1u
/* What is told: that a relative place refers to a label. */
#define HQ_TOLD_LABEL 2u
/* What is told: that it refers to a constant. */
#define HQ_TOLD_CONSTANT 3u
/* What is told: a relative place, and not what it refers to. */
#define HQ_TOLD_PLACE 4u
/* An item: an instruction. */
#define HQ_ITEM_INST 0u
/* An item: the position of a label, which is that of what comes next. */
#define HQ_ITEM_LABEL 1u
/* An item: a jump to a label, which is always taken. */
#define HQ_ITEM_JMP 2u
/* An item: a call of a label. */
#define HQ_ITEM_CALL 3u
/* An item: a jump to a label at overflow. */
#define HQ_ITEM_JO 4u
/* An item: a jump to a label at no overflow. */
#define HQ_ITEM_JNO 5u
/* An item: a jump to a label at below, of unsigned numbers. */
#define HQ_ITEM_JB 6u
/* An item: a jump to a label at above or equal, of unsigned numbers. */
#define HQ_ITEM_JAE 7u
/* An item: a jump to a label at equal. */
#define HQ_ITEM_JE 8u
/* An item: a jump to a label at not equal. */
#define HQ_ITEM_JNE 9u
/* An item: a jump to a label at below or equal, of unsigned numbers. */
#define HQ_ITEM_JBE 10u
/* An item: a jump to a label at above, of unsigned numbers. */
#define HQ_ITEM_JA 11u
/* An item: a jump to a label at sign. */
#define HQ_ITEM_JS 12u
/* An item: a jump to a label at no sign. */
#define HQ_ITEM_JNS 13u
/* An item: a jump to a label at parity even. */
#define HQ_ITEM_JP 14u
/* An item: a jump to a label at parity odd. */
#define HQ_ITEM_JNP 15u
/* An item: a jump to a label at less, of signed numbers. */
#define HQ_ITEM_JL 16u
/* An item: a jump to a label at greater or equal, of signed numbers. */
#define HQ_ITEM_JGE 17u
/* An item: a jump to a label at less or equal, of signed numbers. */
#define HQ_ITEM_JLE 18u
/* An item: a jump to a label at greater, of signed numbers. */
#define HQ_ITEM_JG 19u
/*
 * An item: the position of a constant, which is that of what comes next. It is data: behind it only data and positions of labels
 * stand.
 */
#define HQ_ITEM_CONSTANT 20u
/* An item: bytes, which are data too: the first of the 24 in which an instruction would stand, as many as the number says. */
#define HQ_ITEM_BYTES 21u
/* An item: padding, which is data too: zeros, up to a multiple of 2 to the number, at most 6, from the first byte on. */
#define HQ_ITEM_ALIGN 22u
/* Where an operand is: a register in the reg field. */
#define HQ_HOME_REG 0u
/* Where an operand is: a register in vvvv. */
#define HQ_HOME_VVVV 1u
/* Where an operand is: the register or memory of the place. */
#define HQ_HOME_PLACE 2u
/* Where an operand is: a register that the line fixes, and that stands nowhere in the bytes. */
#define HQ_HOME_FIXED 3u
/* Where an operand is: the immediate. */
#define HQ_HOME_IMM 4u
/* Where an operand is: memory of the stack, which stands nowhere in the bytes. */
#define HQ_HOME_STACK 5u
/* What registers an operand may be: none. It's memory, or the immediate. */
#define HQ_CLASS_NONE 0u
/* What registers an operand may be: general ones. */
#define HQ_CLASS_GENERAL 1u
/* What registers an operand may be: vector registers. */
#define HQ_CLASS_VECTOR 2u
/* What is done with an operand: nothing, as with the memory of `lea`. */
#define HQ_ACCESS_NONE 0u
/* What is done with an operand: it's read. */
#define HQ_ACCESS_READ 1u
/* What is done with an operand: it's written, and nothing of what it was stays. */
#define HQ_ACCESS_WRITE 2u
/* What is done with an operand: it's read and written, or written so that it or a part of it may stay. */
#define HQ_ACCESS_READ_WRITE 3u
/* The flag CF. */
#define HQ_FLAG_CF 1u
/* The flag PF. */
#define HQ_FLAG_PF 4u
/* The flag AF. */
#define HQ_FLAG_AF 16u
/* The flag ZF. */
#define HQ_FLAG_ZF 64u
/* The flag SF. */
#define HQ_FLAG_SF 128u
/* The flag OF. */
#define HQ_FLAG_OF 2048u
/* No register is given. */
#define HQ_NO_REG 256u
/* No immediate is given. */
#define HQ_NO_IMM INT64_MIN

/* The lines. */
enum {
    HQ_LINE_LOCK_ADDB_MI = 0,
    HQ_LINE_LOCK_ADDW_MI = 1,
    HQ_LINE_LOCK_ADDL_MI = 2,
    HQ_LINE_LOCK_ADDQ_MI_SXL = 3,
    HQ_LINE_LOCK_ADDL_MI_SXB = 4,
    HQ_LINE_LOCK_ADDQ_MI_SXB = 5,
    HQ_LINE_LOCK_ADDB_MR = 6,
    HQ_LINE_LOCK_ADDW_MR = 7,
    HQ_LINE_LOCK_ADDL_MR = 8,
    HQ_LINE_LOCK_ADDQ_MR = 9,
    HQ_LINE_LOCK_ORB_MI = 10,
    HQ_LINE_LOCK_ORW_MI = 11,
    HQ_LINE_LOCK_ORL_MI = 12,
    HQ_LINE_LOCK_ORQ_MI_SXL = 13,
    HQ_LINE_LOCK_ORL_MI_SXB = 14,
    HQ_LINE_LOCK_ORQ_MI_SXB = 15,
    HQ_LINE_LOCK_ORB_MR = 16,
    HQ_LINE_LOCK_ORW_MR = 17,
    HQ_LINE_LOCK_ORL_MR = 18,
    HQ_LINE_LOCK_ORQ_MR = 19,
    HQ_LINE_LOCK_ADCB_MI = 20,
    HQ_LINE_LOCK_ADCW_MI = 21,
    HQ_LINE_LOCK_ADCL_MI = 22,
    HQ_LINE_LOCK_ADCQ_MI_SXL = 23,
    HQ_LINE_LOCK_ADCL_MI_SXB = 24,
    HQ_LINE_LOCK_ADCQ_MI_SXB = 25,
    HQ_LINE_LOCK_ADCB_MR = 26,
    HQ_LINE_LOCK_ADCW_MR = 27,
    HQ_LINE_LOCK_ADCL_MR = 28,
    HQ_LINE_LOCK_ADCQ_MR = 29,
    HQ_LINE_LOCK_SBBB_MI = 30,
    HQ_LINE_LOCK_SBBW_MI = 31,
    HQ_LINE_LOCK_SBBL_MI = 32,
    HQ_LINE_LOCK_SBBQ_MI_SXL = 33,
    HQ_LINE_LOCK_SBBL_MI_SXB = 34,
    HQ_LINE_LOCK_SBBQ_MI_SXB = 35,
    HQ_LINE_LOCK_SBBB_MR = 36,
    HQ_LINE_LOCK_SBBW_MR = 37,
    HQ_LINE_LOCK_SBBL_MR = 38,
    HQ_LINE_LOCK_SBBQ_MR = 39,
    HQ_LINE_LOCK_ANDB_MI = 40,
    HQ_LINE_LOCK_ANDW_MI = 41,
    HQ_LINE_LOCK_ANDL_MI = 42,
    HQ_LINE_LOCK_ANDQ_MI_SXL = 43,
    HQ_LINE_LOCK_ANDL_MI_SXB = 44,
    HQ_LINE_LOCK_ANDQ_MI_SXB = 45,
    HQ_LINE_LOCK_ANDB_MR = 46,
    HQ_LINE_LOCK_ANDW_MR = 47,
    HQ_LINE_LOCK_ANDL_MR = 48,
    HQ_LINE_LOCK_ANDQ_MR = 49,
    HQ_LINE_LOCK_SUBB_MI = 50,
    HQ_LINE_LOCK_SUBW_MI = 51,
    HQ_LINE_LOCK_SUBL_MI = 52,
    HQ_LINE_LOCK_SUBQ_MI_SXL = 53,
    HQ_LINE_LOCK_SUBL_MI_SXB = 54,
    HQ_LINE_LOCK_SUBQ_MI_SXB = 55,
    HQ_LINE_LOCK_SUBB_MR = 56,
    HQ_LINE_LOCK_SUBW_MR = 57,
    HQ_LINE_LOCK_SUBL_MR = 58,
    HQ_LINE_LOCK_SUBQ_MR = 59,
    HQ_LINE_LOCK_XORB_MI = 60,
    HQ_LINE_LOCK_XORW_MI = 61,
    HQ_LINE_LOCK_XORL_MI = 62,
    HQ_LINE_LOCK_XORQ_MI_SXL = 63,
    HQ_LINE_LOCK_XORL_MI_SXB = 64,
    HQ_LINE_LOCK_XORQ_MI_SXB = 65,
    HQ_LINE_LOCK_XORB_MR = 66,
    HQ_LINE_LOCK_XORW_MR = 67,
    HQ_LINE_LOCK_XORL_MR = 68,
    HQ_LINE_LOCK_XORQ_MR = 69,
    HQ_LINE_LOCK_XADDB_MR = 70,
    HQ_LINE_LOCK_XADDW_MR = 71,
    HQ_LINE_LOCK_XADDL_MR = 72,
    HQ_LINE_LOCK_XADDQ_MR = 73,
    HQ_LINE_LOCK_CMPXCHGB_MR = 74,
    HQ_LINE_LOCK_CMPXCHGW_MR = 75,
    HQ_LINE_LOCK_CMPXCHGL_MR = 76,
    HQ_LINE_LOCK_CMPXCHGQ_MR = 77,
    HQ_LINE_LOCK_CMPXCHG16B_M = 78,
    HQ_LINE_XCHGB_RM = 79,
    HQ_LINE_XCHGW_RM = 80,
    HQ_LINE_XCHGL_RM = 81,
    HQ_LINE_XCHGQ_RM = 82,
    HQ_LINE_ROLB_M1 = 83,
    HQ_LINE_ROLW_M1 = 84,
    HQ_LINE_ROLL_M1 = 85,
    HQ_LINE_ROLQ_M1 = 86,
    HQ_LINE_RORB_M1 = 87,
    HQ_LINE_RORW_M1 = 88,
    HQ_LINE_RORL_M1 = 89,
    HQ_LINE_RORQ_M1 = 90,
    HQ_LINE_SHLB_M1 = 91,
    HQ_LINE_SHLW_M1 = 92,
    HQ_LINE_SHLL_M1 = 93,
    HQ_LINE_SHLQ_M1 = 94,
    HQ_LINE_SHRB_M1 = 95,
    HQ_LINE_SHRW_M1 = 96,
    HQ_LINE_SHRL_M1 = 97,
    HQ_LINE_SHRQ_M1 = 98,
    HQ_LINE_SARB_M1 = 99,
    HQ_LINE_SARW_M1 = 100,
    HQ_LINE_SARL_M1 = 101,
    HQ_LINE_SARQ_M1 = 102,
    HQ_LINE_CALLQ_M = 103,
    HQ_LINE_JMPQ_M = 104,
    HQ_LINE_ANDPS_A = 105,
    HQ_LINE_CMPPS_A = 106,
    HQ_LINE_CMPPD_A = 107,
    HQ_LINE_CMPSS_A = 108,
    HQ_LINE_CMPSD_A = 109,
    HQ_LINE_ANDB_I = 110,
    HQ_LINE_CALLQ_D = 111,
    HQ_LINE_JMP_D8 = 112,
    HQ_LINE_JMP_D32 = 113,
    HQ_LINE_JO_D8 = 114,
    HQ_LINE_JNO_D8 = 115,
    HQ_LINE_JB_D8 = 116,
    HQ_LINE_JAE_D8 = 117,
    HQ_LINE_JE_D8 = 118,
    HQ_LINE_JNE_D8 = 119,
    HQ_LINE_JBE_D8 = 120,
    HQ_LINE_JA_D8 = 121,
    HQ_LINE_JS_D8 = 122,
    HQ_LINE_JNS_D8 = 123,
    HQ_LINE_JP_D8 = 124,
    HQ_LINE_JNP_D8 = 125,
    HQ_LINE_JL_D8 = 126,
    HQ_LINE_JGE_D8 = 127,
    HQ_LINE_JLE_D8 = 128,
    HQ_LINE_JG_D8 = 129,
    HQ_LINE_JO_D32 = 130,
    HQ_LINE_JNO_D32 = 131,
    HQ_LINE_JB_D32 = 132,
    HQ_LINE_JAE_D32 = 133,
    HQ_LINE_JE_D32 = 134,
    HQ_LINE_JNE_D32 = 135,
    HQ_LINE_JBE_D32 = 136,
    HQ_LINE_JA_D32 = 137,
    HQ_LINE_JS_D32 = 138,
    HQ_LINE_JNS_D32 = 139,
    HQ_LINE_JP_D32 = 140,
    HQ_LINE_JNP_D32 = 141,
    HQ_LINE_JL_D32 = 142,
    HQ_LINE_JGE_D32 = 143,
    HQ_LINE_JLE_D32 = 144,
    HQ_LINE_JG_D32 = 145,
    HQ_LINE_VCMPPS_B = 146,
    HQ_LINE_VCMPPD_B = 147,
    HQ_LINE_VCMPSS_B = 148,
    HQ_LINE_VCMPSD_B = 149,
    HQ_LINE_VCVTPD2PS_A = 150,
    HQ_LINE_VCVTTPD2DQ_A = 151,
    HQ_LINE_MULXL_RVM = 152,
    HQ_LINE_MULXQ_RVM = 153,
    HQ_LINE_NOP_1B = 154,
    HQ_LINE_NOP_2B = 155,
    HQ_LINE_NOPL_RM = 156,
    HQ_LINE_NOPW_RM = 157,
    HQ_LINE_ADDB_I = 158,
    HQ_LINE_ADDB_MI = 159,
    HQ_LINE_ADDB_MR = 160,
    HQ_LINE_ADDB_RM = 161,
    HQ_LINE_ADDW_I = 162,
    HQ_LINE_ADDW_MI = 163,
    HQ_LINE_ADDW_MR = 164,
    HQ_LINE_ADDW_RM = 165,
    HQ_LINE_ADDL_I = 166,
    HQ_LINE_ADDL_MI = 167,
    HQ_LINE_ADDL_MI_SXB = 168,
    HQ_LINE_ADDL_MR = 169,
    HQ_LINE_ADDL_RM = 170,
    HQ_LINE_ADDQ_MI_SXL = 171,
    HQ_LINE_ADDQ_MI_SXB = 172,
    HQ_LINE_ADDQ_MR = 173,
    HQ_LINE_ADDQ_RM = 174,
    HQ_LINE_ORB_I = 175,
    HQ_LINE_ORB_MI = 176,
    HQ_LINE_ORB_MR = 177,
    HQ_LINE_ORB_RM = 178,
    HQ_LINE_ORW_I = 179,
    HQ_LINE_ORW_MI = 180,
    HQ_LINE_ORW_MR = 181,
    HQ_LINE_ORW_RM = 182,
    HQ_LINE_ORL_I = 183,
    HQ_LINE_ORL_MI = 184,
    HQ_LINE_ORL_MI_SXB = 185,
    HQ_LINE_ORL_MR = 186,
    HQ_LINE_ORL_RM = 187,
    HQ_LINE_ORQ_MI_SXL = 188,
    HQ_LINE_ORQ_MI_SXB = 189,
    HQ_LINE_ORQ_MR = 190,
    HQ_LINE_ORQ_RM = 191,
    HQ_LINE_ADCB_I = 192,
    HQ_LINE_ADCB_MI = 193,
    HQ_LINE_ADCB_MR = 194,
    HQ_LINE_ADCB_RM = 195,
    HQ_LINE_ADCW_I = 196,
    HQ_LINE_ADCW_MI = 197,
    HQ_LINE_ADCW_MR = 198,
    HQ_LINE_ADCW_RM = 199,
    HQ_LINE_ADCL_I = 200,
    HQ_LINE_ADCL_MI = 201,
    HQ_LINE_ADCL_MI_SXB = 202,
    HQ_LINE_ADCL_MR = 203,
    HQ_LINE_ADCL_RM = 204,
    HQ_LINE_ADCQ_MI_SXL = 205,
    HQ_LINE_ADCQ_MI_SXB = 206,
    HQ_LINE_ADCQ_MR = 207,
    HQ_LINE_ADCQ_RM = 208,
    HQ_LINE_SBBB_I = 209,
    HQ_LINE_SBBB_MI = 210,
    HQ_LINE_SBBB_MR = 211,
    HQ_LINE_SBBB_RM = 212,
    HQ_LINE_SBBW_I = 213,
    HQ_LINE_SBBW_MI = 214,
    HQ_LINE_SBBW_MR = 215,
    HQ_LINE_SBBW_RM = 216,
    HQ_LINE_SBBL_I = 217,
    HQ_LINE_SBBL_MI = 218,
    HQ_LINE_SBBL_MI_SXB = 219,
    HQ_LINE_SBBL_MR = 220,
    HQ_LINE_SBBL_RM = 221,
    HQ_LINE_SBBQ_MI_SXL = 222,
    HQ_LINE_SBBQ_MI_SXB = 223,
    HQ_LINE_SBBQ_MR = 224,
    HQ_LINE_SBBQ_RM = 225,
    HQ_LINE_ANDB_MI = 226,
    HQ_LINE_ANDB_MR = 227,
    HQ_LINE_ANDB_RM = 228,
    HQ_LINE_ANDW_I = 229,
    HQ_LINE_ANDW_MI = 230,
    HQ_LINE_ANDW_MR = 231,
    HQ_LINE_ANDW_RM = 232,
    HQ_LINE_ANDL_I = 233,
    HQ_LINE_ANDL_MI = 234,
    HQ_LINE_ANDL_MI_SXB = 235,
    HQ_LINE_ANDL_MR = 236,
    HQ_LINE_ANDL_RM = 237,
    HQ_LINE_ANDQ_MI_SXL = 238,
    HQ_LINE_ANDQ_MI_SXB = 239,
    HQ_LINE_ANDQ_MR = 240,
    HQ_LINE_ANDQ_RM = 241,
    HQ_LINE_SUBB_I = 242,
    HQ_LINE_SUBB_MI = 243,
    HQ_LINE_SUBB_MR = 244,
    HQ_LINE_SUBB_RM = 245,
    HQ_LINE_SUBW_I = 246,
    HQ_LINE_SUBW_MI = 247,
    HQ_LINE_SUBW_MR = 248,
    HQ_LINE_SUBW_RM = 249,
    HQ_LINE_SUBL_I = 250,
    HQ_LINE_SUBL_MI = 251,
    HQ_LINE_SUBL_MI_SXB = 252,
    HQ_LINE_SUBL_MR = 253,
    HQ_LINE_SUBL_RM = 254,
    HQ_LINE_SUBQ_MI_SXL = 255,
    HQ_LINE_SUBQ_MI_SXB = 256,
    HQ_LINE_SUBQ_MR = 257,
    HQ_LINE_SUBQ_RM = 258,
    HQ_LINE_XORB_I = 259,
    HQ_LINE_XORB_MI = 260,
    HQ_LINE_XORB_MR = 261,
    HQ_LINE_XORB_RM = 262,
    HQ_LINE_XORW_I = 263,
    HQ_LINE_XORW_MI = 264,
    HQ_LINE_XORW_MR = 265,
    HQ_LINE_XORW_RM = 266,
    HQ_LINE_XORL_I = 267,
    HQ_LINE_XORL_MI = 268,
    HQ_LINE_XORL_MI_SXB = 269,
    HQ_LINE_XORL_MR = 270,
    HQ_LINE_XORL_RM = 271,
    HQ_LINE_XORQ_MI_SXL = 272,
    HQ_LINE_XORQ_MI_SXB = 273,
    HQ_LINE_XORQ_MR = 274,
    HQ_LINE_XORQ_RM = 275,
    HQ_LINE_CMPB_I = 276,
    HQ_LINE_CMPB_MI = 277,
    HQ_LINE_CMPB_MR = 278,
    HQ_LINE_CMPB_RM = 279,
    HQ_LINE_CMPW_I = 280,
    HQ_LINE_CMPW_MI = 281,
    HQ_LINE_CMPW_MR = 282,
    HQ_LINE_CMPW_RM = 283,
    HQ_LINE_CMPL_I = 284,
    HQ_LINE_CMPL_MI = 285,
    HQ_LINE_CMPL_MI_SXB = 286,
    HQ_LINE_CMPL_MR = 287,
    HQ_LINE_CMPL_RM = 288,
    HQ_LINE_CMPQ_MI_SXL = 289,
    HQ_LINE_CMPQ_MI_SXB = 290,
    HQ_LINE_CMPQ_MR = 291,
    HQ_LINE_CMPQ_RM = 292,
    HQ_LINE_TESTB_I = 293,
    HQ_LINE_TESTB_MI = 294,
    HQ_LINE_TESTB_MR = 295,
    HQ_LINE_TESTW_I = 296,
    HQ_LINE_TESTW_MI = 297,
    HQ_LINE_TESTW_MR = 298,
    HQ_LINE_TESTL_I = 299,
    HQ_LINE_TESTL_MI = 300,
    HQ_LINE_TESTL_MR = 301,
    HQ_LINE_TESTQ_MI_SXL = 302,
    HQ_LINE_TESTQ_MR = 303,
    HQ_LINE_MOVB_MR = 304,
    HQ_LINE_MOVB_RM = 305,
    HQ_LINE_MOVB_MI = 306,
    HQ_LINE_MOVW_MR = 307,
    HQ_LINE_MOVW_RM = 308,
    HQ_LINE_MOVW_MI = 309,
    HQ_LINE_MOVL_MR = 310,
    HQ_LINE_MOVL_RM = 311,
    HQ_LINE_MOVL_MI = 312,
    HQ_LINE_MOVQ_MR = 313,
    HQ_LINE_MOVQ_RM = 314,
    HQ_LINE_MOVQ_MI_SXL = 315,
    HQ_LINE_MOVSBW_RM = 316,
    HQ_LINE_MOVSBL_RM = 317,
    HQ_LINE_MOVSBQ_RM = 318,
    HQ_LINE_MOVSWL_RM = 319,
    HQ_LINE_MOVSWQ_RM = 320,
    HQ_LINE_MOVSLQ_RM = 321,
    HQ_LINE_MOVZBW_RM = 322,
    HQ_LINE_MOVZBL_RM = 323,
    HQ_LINE_MOVZBQ_RM = 324,
    HQ_LINE_MOVZWL_RM = 325,
    HQ_LINE_MOVZWQ_RM = 326,
    HQ_LINE_LEAW_RM = 327,
    HQ_LINE_LEAL_RM = 328,
    HQ_LINE_LEAQ_RM = 329,
    HQ_LINE_MULB_M = 330,
    HQ_LINE_MULW_M = 331,
    HQ_LINE_MULL_M = 332,
    HQ_LINE_MULQ_M = 333,
    HQ_LINE_IMULB_M = 334,
    HQ_LINE_IMULW_M = 335,
    HQ_LINE_IMULL_M = 336,
    HQ_LINE_IMULQ_M = 337,
    HQ_LINE_IMULW_RM = 338,
    HQ_LINE_IMULW_RMI_SXB = 339,
    HQ_LINE_IMULW_RMI = 340,
    HQ_LINE_IMULL_RM = 341,
    HQ_LINE_IMULL_RMI_SXB = 342,
    HQ_LINE_IMULL_RMI = 343,
    HQ_LINE_IMULQ_RM = 344,
    HQ_LINE_IMULQ_RMI_SXB = 345,
    HQ_LINE_IMULQ_RMI_SXL = 346,
    HQ_LINE_DIVB_M = 347,
    HQ_LINE_DIVW_M = 348,
    HQ_LINE_DIVL_M = 349,
    HQ_LINE_DIVQ_M = 350,
    HQ_LINE_IDIVB_M = 351,
    HQ_LINE_IDIVW_M = 352,
    HQ_LINE_IDIVL_M = 353,
    HQ_LINE_IDIVQ_M = 354,
    HQ_LINE_NOTB_M = 355,
    HQ_LINE_NOTW_M = 356,
    HQ_LINE_NOTL_M = 357,
    HQ_LINE_NOTQ_M = 358,
    HQ_LINE_NEGB_M = 359,
    HQ_LINE_NEGW_M = 360,
    HQ_LINE_NEGL_M = 361,
    HQ_LINE_NEGQ_M = 362,
    HQ_LINE_CBTW_ZO = 363,
    HQ_LINE_CWTL_ZO = 364,
    HQ_LINE_CWTD_ZO = 365,
    HQ_LINE_CLTD_ZO = 366,
    HQ_LINE_ROLB_MC = 367,
    HQ_LINE_ROLB_MI = 368,
    HQ_LINE_ROLW_MC = 369,
    HQ_LINE_ROLW_MI = 370,
    HQ_LINE_ROLL_MC = 371,
    HQ_LINE_ROLL_MI = 372,
    HQ_LINE_ROLQ_MC = 373,
    HQ_LINE_ROLQ_MI = 374,
    HQ_LINE_RORB_MC = 375,
    HQ_LINE_RORB_MI = 376,
    HQ_LINE_RORW_MC = 377,
    HQ_LINE_RORW_MI = 378,
    HQ_LINE_RORL_MC = 379,
    HQ_LINE_RORL_MI = 380,
    HQ_LINE_RORQ_MC = 381,
    HQ_LINE_RORQ_MI = 382,
    HQ_LINE_SHLB_MC = 383,
    HQ_LINE_SHLB_MI = 384,
    HQ_LINE_SHLW_MC = 385,
    HQ_LINE_SHLW_MI = 386,
    HQ_LINE_SHLL_MC = 387,
    HQ_LINE_SHLL_MI = 388,
    HQ_LINE_SHLQ_MC = 389,
    HQ_LINE_SHLQ_MI = 390,
    HQ_LINE_SHRB_MC = 391,
    HQ_LINE_SHRB_MI = 392,
    HQ_LINE_SHRW_MC = 393,
    HQ_LINE_SHRW_MI = 394,
    HQ_LINE_SHRL_MC = 395,
    HQ_LINE_SHRL_MI = 396,
    HQ_LINE_SHRQ_MC = 397,
    HQ_LINE_SHRQ_MI = 398,
    HQ_LINE_SARB_MC = 399,
    HQ_LINE_SARB_MI = 400,
    HQ_LINE_SARW_MC = 401,
    HQ_LINE_SARW_MI = 402,
    HQ_LINE_SARL_MC = 403,
    HQ_LINE_SARL_MI = 404,
    HQ_LINE_SARQ_MC = 405,
    HQ_LINE_SARQ_MI = 406,
    HQ_LINE_SHLDW_MRI = 407,
    HQ_LINE_SHLDW_MRC = 408,
    HQ_LINE_SHLDL_MRI = 409,
    HQ_LINE_SHLDL_MRC = 410,
    HQ_LINE_SHLDQ_MRI = 411,
    HQ_LINE_SHLDQ_MRC = 412,
    HQ_LINE_SETO_M = 413,
    HQ_LINE_SETNO_M = 414,
    HQ_LINE_SETB_M = 415,
    HQ_LINE_SETAE_M = 416,
    HQ_LINE_SETE_M = 417,
    HQ_LINE_SETNE_M = 418,
    HQ_LINE_SETBE_M = 419,
    HQ_LINE_SETA_M = 420,
    HQ_LINE_SETS_M = 421,
    HQ_LINE_SETNS_M = 422,
    HQ_LINE_SETP_M = 423,
    HQ_LINE_SETNP_M = 424,
    HQ_LINE_SETL_M = 425,
    HQ_LINE_SETGE_M = 426,
    HQ_LINE_SETLE_M = 427,
    HQ_LINE_SETG_M = 428,
    HQ_LINE_CMOVOW_RM = 429,
    HQ_LINE_CMOVOL_RM = 430,
    HQ_LINE_CMOVOQ_RM = 431,
    HQ_LINE_CMOVNOW_RM = 432,
    HQ_LINE_CMOVNOL_RM = 433,
    HQ_LINE_CMOVNOQ_RM = 434,
    HQ_LINE_CMOVBW_RM = 435,
    HQ_LINE_CMOVBL_RM = 436,
    HQ_LINE_CMOVBQ_RM = 437,
    HQ_LINE_CMOVAEW_RM = 438,
    HQ_LINE_CMOVAEL_RM = 439,
    HQ_LINE_CMOVAEQ_RM = 440,
    HQ_LINE_CMOVEW_RM = 441,
    HQ_LINE_CMOVEL_RM = 442,
    HQ_LINE_CMOVEQ_RM = 443,
    HQ_LINE_CMOVNEW_RM = 444,
    HQ_LINE_CMOVNEL_RM = 445,
    HQ_LINE_CMOVNEQ_RM = 446,
    HQ_LINE_CMOVBEW_RM = 447,
    HQ_LINE_CMOVBEL_RM = 448,
    HQ_LINE_CMOVBEQ_RM = 449,
    HQ_LINE_CMOVAW_RM = 450,
    HQ_LINE_CMOVAL_RM = 451,
    HQ_LINE_CMOVAQ_RM = 452,
    HQ_LINE_CMOVSW_RM = 453,
    HQ_LINE_CMOVSL_RM = 454,
    HQ_LINE_CMOVSQ_RM = 455,
    HQ_LINE_CMOVNSW_RM = 456,
    HQ_LINE_CMOVNSL_RM = 457,
    HQ_LINE_CMOVNSQ_RM = 458,
    HQ_LINE_CMOVPW_RM = 459,
    HQ_LINE_CMOVPL_RM = 460,
    HQ_LINE_CMOVPQ_RM = 461,
    HQ_LINE_CMOVNPW_RM = 462,
    HQ_LINE_CMOVNPL_RM = 463,
    HQ_LINE_CMOVNPQ_RM = 464,
    HQ_LINE_CMOVLW_RM = 465,
    HQ_LINE_CMOVLL_RM = 466,
    HQ_LINE_CMOVLQ_RM = 467,
    HQ_LINE_CMOVGEW_RM = 468,
    HQ_LINE_CMOVGEL_RM = 469,
    HQ_LINE_CMOVGEQ_RM = 470,
    HQ_LINE_CMOVLEW_RM = 471,
    HQ_LINE_CMOVLEL_RM = 472,
    HQ_LINE_CMOVLEQ_RM = 473,
    HQ_LINE_CMOVGW_RM = 474,
    HQ_LINE_CMOVGL_RM = 475,
    HQ_LINE_CMOVGQ_RM = 476,
    HQ_LINE_PUSHW_M = 477,
    HQ_LINE_PUSHQ_M = 478,
    HQ_LINE_PUSHQ_I8 = 479,
    HQ_LINE_PUSHW_I16 = 480,
    HQ_LINE_PUSHQ_I32 = 481,
    HQ_LINE_POPW_M = 482,
    HQ_LINE_POPQ_M = 483,
    HQ_LINE_RETQ_ZO = 484,
    HQ_LINE_RETQ_I = 485,
    HQ_LINE_LEAVEQ_ZO = 486,
    HQ_LINE_UD2_ZO = 487,
    HQ_LINE_INT3_ZO = 488,
    HQ_LINE_HLT_ZO = 489,
    HQ_LINE_BSFW_RM = 490,
    HQ_LINE_BSRW_RM = 491,
    HQ_LINE_BSFL_RM = 492,
    HQ_LINE_BSRL_RM = 493,
    HQ_LINE_BSFQ_RM = 494,
    HQ_LINE_BSRQ_RM = 495,
    HQ_LINE_TZCNTW_RM = 496,
    HQ_LINE_LZCNTW_RM = 497,
    HQ_LINE_POPCNTW_RM = 498,
    HQ_LINE_TZCNTL_RM = 499,
    HQ_LINE_LZCNTL_RM = 500,
    HQ_LINE_POPCNTL_RM = 501,
    HQ_LINE_TZCNTQ_RM = 502,
    HQ_LINE_LZCNTQ_RM = 503,
    HQ_LINE_POPCNTQ_RM = 504,
    HQ_LINE_BTW_MR = 505,
    HQ_LINE_BTW_MI = 506,
    HQ_LINE_BTL_MR = 507,
    HQ_LINE_BTL_MI = 508,
    HQ_LINE_BTQ_MR = 509,
    HQ_LINE_BTQ_MI = 510,
    HQ_LINE_XADDB_MR = 511,
    HQ_LINE_CMPXCHGB_MR = 512,
    HQ_LINE_XADDW_MR = 513,
    HQ_LINE_CMPXCHGW_MR = 514,
    HQ_LINE_XADDL_MR = 515,
    HQ_LINE_CMPXCHGL_MR = 516,
    HQ_LINE_XADDQ_MR = 517,
    HQ_LINE_CMPXCHGQ_MR = 518,
    HQ_LINE_CMPXCHG16B_M = 519,
    HQ_LINE_ADDSS_A = 520,
    HQ_LINE_ADDSD_A = 521,
    HQ_LINE_MULSS_A = 522,
    HQ_LINE_MULSD_A = 523,
    HQ_LINE_SUBSS_A = 524,
    HQ_LINE_SUBSD_A = 525,
    HQ_LINE_MINSS_A = 526,
    HQ_LINE_MINSD_A = 527,
    HQ_LINE_DIVSS_A = 528,
    HQ_LINE_DIVSD_A = 529,
    HQ_LINE_MAXSS_A = 530,
    HQ_LINE_MAXSD_A = 531,
    HQ_LINE_SQRTSS_A = 532,
    HQ_LINE_SQRTSD_A = 533,
    HQ_LINE_UCOMISS_A = 534,
    HQ_LINE_UCOMISD_A = 535,
    HQ_LINE_ANDPD_A = 536,
    HQ_LINE_ANDNPS_A = 537,
    HQ_LINE_ANDNPD_A = 538,
    HQ_LINE_ORPS_A = 539,
    HQ_LINE_ORPD_A = 540,
    HQ_LINE_XORPS_A = 541,
    HQ_LINE_XORPD_A = 542,
    HQ_LINE_PXOR_A = 543,
    HQ_LINE_MOVSS_A_M = 544,
    HQ_LINE_MOVSS_C_M = 545,
    HQ_LINE_MOVSD_A_M = 546,
    HQ_LINE_MOVSD_C_M = 547,
    HQ_LINE_MOVAPS_A = 548,
    HQ_LINE_MOVAPS_B = 549,
    HQ_LINE_MOVAPD_A = 550,
    HQ_LINE_MOVAPD_B = 551,
    HQ_LINE_MOVUPS_A = 552,
    HQ_LINE_MOVUPS_B = 553,
    HQ_LINE_MOVUPD_A = 554,
    HQ_LINE_MOVUPD_B = 555,
    HQ_LINE_MOVDQA_A = 556,
    HQ_LINE_MOVDQA_B = 557,
    HQ_LINE_MOVDQU_A = 558,
    HQ_LINE_MOVDQU_B = 559,
    HQ_LINE_MOVD_A = 560,
    HQ_LINE_MOVQ_A = 561,
    HQ_LINE_MOVD_B = 562,
    HQ_LINE_MOVQ_B = 563,
    HQ_LINE_CVTSI2SSL_A = 564,
    HQ_LINE_CVTSS2SIL_A = 565,
    HQ_LINE_CVTTSS2SIL_A = 566,
    HQ_LINE_CVTSI2SSQ_A = 567,
    HQ_LINE_CVTSS2SIQ_A = 568,
    HQ_LINE_CVTTSS2SIQ_A = 569,
    HQ_LINE_CVTSI2SDL_A = 570,
    HQ_LINE_CVTSD2SIL_A = 571,
    HQ_LINE_CVTTSD2SIL_A = 572,
    HQ_LINE_CVTSI2SDQ_A = 573,
    HQ_LINE_CVTSD2SIQ_A = 574,
    HQ_LINE_CVTTSD2SIQ_A = 575,
    HQ_LINE_CVTSS2SD_A = 576,
    HQ_LINE_CVTSD2SS_A = 577,
    HQ_LINE_CVTPS2PD_A = 578,
    HQ_LINE_CVTPD2PS_A = 579,
    HQ_LINE_CVTDQ2PS_A = 580,
    HQ_LINE_CVTTPS2DQ_A = 581,
    HQ_LINE_CVTDQ2PD_A = 582,
    HQ_LINE_CVTTPD2DQ_A = 583,
    HQ_LINE_COUNT = 584
};

/* What the rest of the tail names, in integers: a register, memory, or nothing. What it lacks is 0. */
typedef struct hq_place {
    /* Which place it is: `HQ_PLACE_NOTHING` and the like. */
    uint8_t place;
    /* The register, or the base. */
    uint8_t base;
    /* The index. */
    uint8_t index;
    /* What the index is multiplied by, as the two bits of a SIB byte: 0 to 3. */
    uint8_t scale;
    /* The code of the trap that the access may raise, 0 for none. */
    uint8_t trap;
    /* 1 where an offset is added to the displacement that is known late. */
    uint8_t has_offset;
    /* Its key. */
    uint8_t offset;
    /* 0. */
    uint8_t reserved;
    /* The displacement in bytes. */
    int32_t disp;
    /* The number of the label or of the constant. */
    uint32_t target;
} hq_place;
#if !defined(__cplusplus) && __STDC_VERSION__ >= 201112L
_Static_assert(sizeof(hq_place) == 16, "hq_place");
_Static_assert(offsetof(hq_place, place) == 0, "hq_place.place");
_Static_assert(offsetof(hq_place, base) == 1, "hq_place.base");
_Static_assert(offsetof(hq_place, index) == 2, "hq_place.index");
_Static_assert(offsetof(hq_place, scale) == 3, "hq_place.scale");
_Static_assert(offsetof(hq_place, trap) == 4, "hq_place.trap");
_Static_assert(offsetof(hq_place, has_offset) == 5, "hq_place.has_offset");
_Static_assert(offsetof(hq_place, offset) == 6, "hq_place.offset");
_Static_assert(offsetof(hq_place, reserved) == 7, "hq_place.reserved");
_Static_assert(offsetof(hq_place, disp) == 8, "hq_place.disp");
_Static_assert(offsetof(hq_place, target) == 12, "hq_place.target");
#endif

/* An instruction of the core in integers: its line, and each number where it stands in the bytes. What it lacks is 0. */
typedef struct hq_inst {
    /* The number of its line. */
    uint16_t line;
    /* What the rest of the tail names: `HQ_PLACE_NOTHING` and the like. */
    uint8_t place;
    /* The register in the reg field of ModR/M. */
    uint8_t reg;
    /* The register in vvvv of a VEX prefix. */
    uint8_t vvvv;
    /* The register of the place, or its base. */
    uint8_t base;
    /* The index of the place. */
    uint8_t index;
    /* What the index is multiplied by, as the two bits of a SIB byte: 0 to 3. */
    uint8_t scale;
    /* The code of the trap that the access may raise, 0 for none. */
    uint8_t trap;
    /* 1 where an offset is added to the displacement that is known late. */
    uint8_t has_offset;
    /* Its key. */
    uint8_t offset;
    /* 0. */
    uint8_t reserved;
    /* The displacement in bytes. */
    int32_t disp;
    /* The number of the label or of the constant. */
    uint32_t target;
    /* The low 32 bits of the immediate. */
    uint32_t imm;
} hq_inst;
#if !defined(__cplusplus) && __STDC_VERSION__ >= 201112L
_Static_assert(sizeof(hq_inst) == 24, "hq_inst");
_Static_assert(offsetof(hq_inst, line) == 0, "hq_inst.line");
_Static_assert(offsetof(hq_inst, place) == 2, "hq_inst.place");
_Static_assert(offsetof(hq_inst, reg) == 3, "hq_inst.reg");
_Static_assert(offsetof(hq_inst, vvvv) == 4, "hq_inst.vvvv");
_Static_assert(offsetof(hq_inst, base) == 5, "hq_inst.base");
_Static_assert(offsetof(hq_inst, index) == 6, "hq_inst.index");
_Static_assert(offsetof(hq_inst, scale) == 7, "hq_inst.scale");
_Static_assert(offsetof(hq_inst, trap) == 8, "hq_inst.trap");
_Static_assert(offsetof(hq_inst, has_offset) == 9, "hq_inst.has_offset");
_Static_assert(offsetof(hq_inst, offset) == 10, "hq_inst.offset");
_Static_assert(offsetof(hq_inst, reserved) == 11, "hq_inst.reserved");
_Static_assert(offsetof(hq_inst, disp) == 12, "hq_inst.disp");
_Static_assert(offsetof(hq_inst, target) == 16, "hq_inst.target");
_Static_assert(offsetof(hq_inst, imm) == 20, "hq_inst.imm");
#endif

/* An instruction of the core as it is read, in integers. What it lacks is 0. */
typedef struct hq_reading {
    /* The immediate, unsigned or signed, as the line has it. */
    int64_t imm;
    /* The displacement of memory, or the distance from the end of the instruction, in bytes. */
    int32_t disp;
    /* The number of its line. */
    uint16_t line;
    /* The number of its bytes, 1 to 13. */
    uint8_t length;
    /* The number of bytes of ModR/M, SIB and displacement. */
    uint8_t tail;
    /* What stands in the reg field of ModR/M: `HQ_READ_NOTHING`, `HQ_READ_REGISTER` or `HQ_READ_HIGH_BYTE`. */
    uint8_t reg_kind;
    /* Its number: of a high byte 0 to 3. */
    uint8_t reg;
    /* 1 where a register stands in vvvv of a VEX prefix. */
    uint8_t has_vvvv;
    /* Its number. */
    uint8_t vvvv;
    /* What the rest of the tail names: `HQ_READ_NOTHING` and the like. */
    uint8_t place_kind;
    /* 1 where memory has a base. */
    uint8_t has_base;
    /* The number of the register of the place, or of its base. */
    uint8_t base;
    /* 1 where memory has an index. */
    uint8_t has_index;
    /* Its number. */
    uint8_t index;
    /* What it is multiplied by: 1, 2, 4 or 8. */
    uint8_t factor;
    /* 1 where there is an immediate. */
    uint8_t has_imm;
    /* 0. */
    uint8_t reserved;
    /* 0. */
    uint32_t reserved_word;
} hq_reading;
#if !defined(__cplusplus) && __STDC_VERSION__ >= 201112L
_Static_assert(sizeof(hq_reading) == 32, "hq_reading");
_Static_assert(offsetof(hq_reading, imm) == 0, "hq_reading.imm");
_Static_assert(offsetof(hq_reading, disp) == 8, "hq_reading.disp");
_Static_assert(offsetof(hq_reading, line) == 12, "hq_reading.line");
_Static_assert(offsetof(hq_reading, length) == 14, "hq_reading.length");
_Static_assert(offsetof(hq_reading, tail) == 15, "hq_reading.tail");
_Static_assert(offsetof(hq_reading, reg_kind) == 16, "hq_reading.reg_kind");
_Static_assert(offsetof(hq_reading, reg) == 17, "hq_reading.reg");
_Static_assert(offsetof(hq_reading, has_vvvv) == 18, "hq_reading.has_vvvv");
_Static_assert(offsetof(hq_reading, vvvv) == 19, "hq_reading.vvvv");
_Static_assert(offsetof(hq_reading, place_kind) == 20, "hq_reading.place_kind");
_Static_assert(offsetof(hq_reading, has_base) == 21, "hq_reading.has_base");
_Static_assert(offsetof(hq_reading, base) == 22, "hq_reading.base");
_Static_assert(offsetof(hq_reading, has_index) == 23, "hq_reading.has_index");
_Static_assert(offsetof(hq_reading, index) == 24, "hq_reading.index");
_Static_assert(offsetof(hq_reading, factor) == 25, "hq_reading.factor");
_Static_assert(offsetof(hq_reading, has_imm) == 26, "hq_reading.has_imm");
_Static_assert(offsetof(hq_reading, reserved) == 27, "hq_reading.reserved");
_Static_assert(offsetof(hq_reading, reserved_word) == 28, "hq_reading.reserved_word");
#endif

/* What is told beside the bytes of an instruction: the code of its trap, or what a relative place refers to. */
typedef struct hq_use {
    /* How many bytes of the instruction, or of a list's code, stand before it: before a target its four bytes follow. */
    uint32_t at;
    /* What is told: `HQ_TOLD_NOTHING` and the like. */
    uint32_t kind;
    /* Of the trap, of the label or of the constant. */
    uint32_t number;
} hq_use;
#if !defined(__cplusplus) && __STDC_VERSION__ >= 201112L
_Static_assert(sizeof(hq_use) == 12, "hq_use");
_Static_assert(offsetof(hq_use, at) == 0, "hq_use.at");
_Static_assert(offsetof(hq_use, kind) == 4, "hq_use.kind");
_Static_assert(offsetof(hq_use, number) == 8, "hq_use.number");
#endif

/* How far a list of instructions or items was gone through, and what they have. */
typedef struct hq_done {
    /* How many instructions or items there are, or those before the first that is refused, which has this number. */
    size_t items;
    /* How many bytes they have. */
    size_t bytes;
    /* How many traps and targets they tell. */
    size_t uses;
} hq_done;
#if !defined(__cplusplus) && __STDC_VERSION__ >= 201112L
_Static_assert(sizeof(hq_done) == 24, "hq_done");
_Static_assert(offsetof(hq_done, items) == 0, "hq_done.items");
_Static_assert(offsetof(hq_done, bytes) == 8, "hq_done.bytes");
_Static_assert(offsetof(hq_done, uses) == 16, "hq_done.uses");
#endif

/* What is assembled: an instruction, the position of a label, a jump to one, or data behind the code. */
typedef struct hq_item {
    /* Which it is: `HQ_ITEM_INST` and the like. */
    uint32_t kind;
    /*
     * The number of the label, below that of all items; that of the constant; how many bytes there are; or the power of
     * 2 of padding. Of an instruction it isn't looked at.
     */
    uint32_t number;
    /* The instruction, or the bytes. Of other items it isn't looked at. */
    hq_inst inst;
} hq_item;
#if !defined(__cplusplus) && __STDC_VERSION__ >= 201112L
_Static_assert(sizeof(hq_item) == 32, "hq_item");
_Static_assert(offsetof(hq_item, kind) == 0, "hq_item.kind");
_Static_assert(offsetof(hq_item, number) == 4, "hq_item.number");
_Static_assert(offsetof(hq_item, inst) == 8, "hq_item.inst");
#endif

/* An operand of a line, or a register or memory that it uses beside its operands. */
typedef struct hq_operand {
    /* Where it is: `HQ_HOME_REG` and the like. */
    uint8_t home;
    /* The register's, where the line fixes one, else 0. */
    uint8_t number;
    /* What registers it may be: `HQ_CLASS_GENERAL` and the like. */
    uint8_t registers;
    /* What is done with it: `HQ_ACCESS_READ` and the like. */
    uint8_t access;
    /* How many bits it has: 8 to 128. */
    uint8_t bits;
    /* Whether it's among the operands that a text has: 0 or 1. */
    uint8_t printed;
} hq_operand;
#if !defined(__cplusplus) && __STDC_VERSION__ >= 201112L
_Static_assert(sizeof(hq_operand) == 6, "hq_operand");
_Static_assert(offsetof(hq_operand, home) == 0, "hq_operand.home");
_Static_assert(offsetof(hq_operand, number) == 1, "hq_operand.number");
_Static_assert(offsetof(hq_operand, registers) == 2, "hq_operand.registers");
_Static_assert(offsetof(hq_operand, access) == 3, "hq_operand.access");
_Static_assert(offsetof(hq_operand, bits) == 4, "hq_operand.bits");
_Static_assert(offsetof(hq_operand, printed) == 5, "hq_operand.printed");
#endif

/*
 * The flags that a line reads, writes and leaves undefined: sums of `HQ_FLAG_CF` and the like, each at its place in EFLAGS. A flag
 * that is read, and written or undefined too, may be one that the line leaves as it was.
 */
typedef struct hq_flags {
    uint16_t read;
    uint16_t written;
    uint16_t undefined;
} hq_flags;
#if !defined(__cplusplus) && __STDC_VERSION__ >= 201112L
_Static_assert(sizeof(hq_flags) == 6, "hq_flags");
_Static_assert(offsetof(hq_flags, read) == 0, "hq_flags.read");
_Static_assert(offsetof(hq_flags, written) == 2, "hq_flags.written");
_Static_assert(offsetof(hq_flags, undefined) == 4, "hq_flags.undefined");
#endif

/*
 * Assembles items into the front of some bytes, all of them or nothing: instructions, positions of labels, and jumps to them;
 * behind them data, which instructions refer to as constants or labels. The first item that is data begins it: behind that no
 * instruction and no jump may stand.
 *
 * A label's number is below that of all items. Each jump has the shortest form in which all of them reach: no choice of forms
 * has fewer bytes. A jump to a label behind data has its long form. An instruction may refer to a label too. `uses` gets the
 * traps of the instructions, in their order, each at the position of its instruction. No late offset is known.
 *
 * At `HQ_OK` `done` has how many items, bytes and traps there are, at `HQ_FULL` how many there would be. At another status
 * `bytes` and `uses` are 0, and `items` is the number of the item that is refused, from 0: the first that is none, or else the
 * first that has a fault or whose label or constant can't be bound, or else, at `HQ_UNBOUND`, the first that refers to what has no
 * position. At `HQ_TOO_MANY`, `HQ_OUT_OF_RANGE` and `HQ_NO_MEMORY` none is named, and `items` is 0.
 *
 * It asks for memory, and has given all of it back when it answers.
 */
int32_t hq_assemble(const hq_item *items, size_t items_len, uint8_t *HQ_RESTRICT code, size_t code_len, hq_use *HQ_RESTRICT uses, size_t uses_len, hq_done *HQ_RESTRICT done);

/*
 * Why an instruction can't be encoded by `hq_encode`, which knows no late offsets: the first register that isn't below 16, or
 * an index that is the stack pointer, or else a late offset. 0 where it can.
 */
int32_t hq_check(const hq_inst *inst);

/*
 * Reads the instruction at the front of some bytes, of which all lines of the core are known; what follows it is not read.
 * `HQ_NONE` where no line reads what stands there.
 */
int32_t hq_decode(const uint8_t *bytes, size_t bytes_len, hq_reading *HQ_RESTRICT out);

/*
 * Reads instructions one behind the other from the front of some bytes, into as many slots as there are or until no line of the
 * core reads what stands there, and says how many were read and how many bytes they have. The other slots are as before.
 */
int32_t hq_decode_all(const uint8_t *bytes, size_t bytes_len, hq_reading *HQ_RESTRICT out, size_t out_len, size_t *HQ_RESTRICT count, size_t *HQ_RESTRICT end);

/*
 * Encodes an instruction into the front of some bytes, and says how many it has, 1 to 13, and what it tells beside them.
 * `HQ_FULL` where they are too few. No late offset is known.
 */
int32_t hq_encode(const hq_inst *inst, uint8_t *HQ_RESTRICT code, size_t code_len, uint32_t *HQ_RESTRICT len, hq_use *HQ_RESTRICT told);

/*
 * Encodes instructions one behind the other into the front of some bytes, and says how many they have, and what they tell
 * beside them: all of them, or none.
 *
 * A use's `at` counts from the beginning of `code`. At `HQ_OK` `done` has how many instructions, bytes and uses were put, at
 * `HQ_FULL` how many there would be. Where an instruction is refused, `items` is its number, from 0, and the rest of `done` is
 * of those before it; the status is that of `hq_check`. `HQ_TOO_MANY` above 165,191,049 instructions, and `done` is all 0. No late
 * offset is known.
 */
int32_t hq_encode_all(const hq_inst *insts, size_t insts_len, uint8_t *HQ_RESTRICT code, size_t code_len, hq_use *HQ_RESTRICT uses, size_t uses_len, hq_done *HQ_RESTRICT done);

/*
 * Puts the name of the extension that a line asks for at the front of some bytes, as `hq_format` does with a text, but without
 * memory: `sse`, `sse2`, `bmi1`, `bmi2`, `lzcnt`, `popcnt`, `avx` or `cmpxchg16b`, or nothing. `HQ_BAD_LINE` where no line has
 * the number.
 */
int32_t hq_extension(uint16_t line, uint8_t *HQ_RESTRICT text, size_t text_len, size_t *HQ_RESTRICT len);

/*
 * Puts the text of an instruction in AT&T's form at the front of some bytes, without a zero behind it, and says how many bytes
 * it has. `HQ_FULL` where they are too few: `len` is how many are needed, and the bytes are as before. `HQ_NO_NAME` where a
 * register isn't below 16.
 *
 * It asks for memory, and has given all of it back when it answers.
 */
int32_t hq_format(const hq_inst *inst, uint8_t *HQ_RESTRICT text, size_t text_len, size_t *HQ_RESTRICT len);

/*
 * The instruction that is read as this, where the reading has an operand for each that its line takes and no other, and an
 * immediate in its range. It has no trap code and no late offset, and can be encoded.
 *
 * `HQ_NO_INST` where there is none, as of a high byte, of a place relative to the end and of memory without a base;
 * `HQ_BAD_READING` where the integers are no reading. The length isn't looked at.
 */
int32_t hq_inst_of_reading(const hq_reading *reading, hq_inst *HQ_RESTRICT out);

/* Whether what stands in this archive was proved: 1 where it was, 0 where it was only compiled. */
uint32_t hq_is_proved(void);

/* The number of bytes that `hq_encode` writes, 1 to 13. */
int32_t hq_length(const hq_inst *inst, uint32_t *HQ_RESTRICT len);

/* The flags that a line reads, writes and leaves undefined. `HQ_BAD_LINE` where no line has the number. */
int32_t hq_line_flags(uint16_t line, hq_flags *HQ_RESTRICT flags);

/*
 * The operand of this index of a line, counted from 0: first those of its bytes and those that it fixes, in the manual's order,
 * and then the registers and memory that it uses beside them, as a push does with the stack. `HQ_NONE` where there are no more,
 * `HQ_BAD_LINE` where no line has the number.
 *
 * Base and index of memory are read too. A write of 8 or 16 bits leaves the others of a register, and one of 32 bits makes the
 * upper half 0.
 */
int32_t hq_line_operand(uint16_t line, size_t index, hq_operand *HQ_RESTRICT operand);

/*
 * Makes the instruction of a line with these operands, where they are those that it takes: a register in reg and in vvvv
 * where one stands there, a register or memory in the rest of the tail, an immediate in the line's range. Registers aren't
 * tested.
 *
 * A register from 256 on (`HQ_NO_REG`) means that none is given, and so does the least immediate (`HQ_NO_IMM`).
 * `HQ_BAD_LINE` where no line has the number, `HQ_BAD_PLACE` where the place is none, `HQ_BAD_OPERANDS` where the line takes
 * others.
 */
int32_t hq_make(uint16_t line, uint16_t reg, uint16_t vvvv, const hq_place *place, int64_t imm, hq_inst *HQ_RESTRICT out);

/* Puts the mnemonic of an instruction at the front of some bytes, as `hq_format` does with its text, but without memory. */
int32_t hq_mnemonic(const hq_inst *inst, uint8_t *HQ_RESTRICT text, size_t text_len, size_t *HQ_RESTRICT len);

/* The operands of an instruction, of which `hq_make` makes it again: `HQ_NO_REG` and `HQ_NO_IMM` for those that its line lacks. */
int32_t hq_operands(const hq_inst *inst, uint16_t *HQ_RESTRICT reg, uint16_t *HQ_RESTRICT vvvv, hq_place *HQ_RESTRICT place, int64_t *HQ_RESTRICT imm);

/*
 * What a relative field is to hold: what is stored in it, and the distance from the field's end to the target. `place` is the
 * position of the field's first byte. `HQ_OUT_OF_RANGE` where that isn't of 32 bits.
 */
int32_t hq_patched(uint64_t place, uint64_t target, int32_t stored, int32_t *HQ_RESTRICT field);

/* Puts others in the place of all registers of an instruction, each by its number in this table. All else stays. */
int32_t hq_rename(hq_inst *HQ_RESTRICT inst, const uint8_t homes[256]);

/* The version of the header that fits this library. */
uint32_t hq_version(void);

/* The number and the detail of a status. */
static inline int32_t hq_code(int32_t status) { return status & 0xff; }
static inline int32_t hq_detail(int32_t status) { return status >> 8; }

/* Places: nothing, a register, memory at a base, at a base and an index times 1 << scale, at a label, at a constant. */
static inline hq_place hq_nothing(void)
{
    hq_place p = {0, 0, 0, 0, 0, 0, 0, 0, 0, 0};
    return p;
}

static inline hq_place hq_reg(uint8_t reg)
{
    hq_place p = hq_nothing();
    p.place = HQ_PLACE_REGISTER;
    p.base = reg;
    return p;
}

static inline hq_place hq_mem(uint8_t base, int32_t disp)
{
    hq_place p = hq_nothing();
    p.place = HQ_PLACE_BASE;
    p.base = base;
    p.disp = disp;
    return p;
}

static inline hq_place hq_index(uint8_t base, uint8_t index, uint8_t scale, int32_t disp)
{
    hq_place p = hq_mem(base, disp);
    p.place = HQ_PLACE_INDEX;
    p.index = index;
    p.scale = scale;
    return p;
}

static inline hq_place hq_label(uint32_t label)
{
    hq_place p = hq_nothing();
    p.place = HQ_PLACE_LABEL;
    p.target = label;
    return p;
}

static inline hq_place hq_constant(uint32_t constant)
{
    hq_place p = hq_nothing();
    p.place = HQ_PLACE_CONSTANT;
    p.target = constant;
    return p;
}

/* Items: an instruction; the place of a label or a constant, a jump to a label, or padding, by kind and number; bytes. */
static inline hq_item hq_item_of(const hq_inst *inst)
{
    hq_item i = {HQ_ITEM_INST, 0, {0, 0, 0, 0, 0, 0, 0, 0, 0, 0, 0, 0, 0, 0}};
    i.inst = *inst;
    return i;
}

static inline hq_item hq_item_at(uint32_t kind, uint32_t number)
{
    hq_item i = {0, 0, {0, 0, 0, 0, 0, 0, 0, 0, 0, 0, 0, 0, 0, 0}};
    i.kind = kind;
    i.number = number;
    return i;
}

/* An item of up to 24 bytes. Of more none is read, and `hq_assemble` refuses the item. */
static inline hq_item hq_item_bytes(const void *bytes, uint32_t count)
{
    hq_item i = hq_item_at(HQ_ITEM_BYTES, count);
    if (count > 0 && count <= sizeof i.inst)
        memcpy(&i.inst, bytes, count);
    return i;
}

#ifdef __cplusplus
}
#endif
#endif
