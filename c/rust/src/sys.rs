//! Written by c/write.py: what the static library declares.
#![allow(non_camel_case_types)]

/// The version of this interface.
pub const HQ_VERSION: u32 = 2;
/// The call did what it says.
pub const HQ_OK: i32 = 0;
/// The integers are no instruction of the core.
pub const HQ_BAD_INST: i32 = 1;
/// The integers are no place.
pub const HQ_BAD_PLACE: i32 = 2;
/// No line of the core has this number.
pub const HQ_BAD_LINE: i32 = 3;
/// The operands aren't those that the line takes. The detail says which: 0: reg, 1: vvvv, 2: the place, 3: whether there is an
/// immediate, 4: the immediate's range.
pub const HQ_BAD_OPERANDS: i32 = 4;
/// No line of the core reads what stands there.
pub const HQ_NONE: i32 = 5;
/// The slice is too short. Nothing was written.
pub const HQ_FULL: i32 = 6;
/// What was read is none of an instruction that can be made.
pub const HQ_NO_INST: i32 = 7;
/// The integers are no reading.
pub const HQ_BAD_READING: i32 = 8;
/// The sum isn't of 32 bits.
pub const HQ_OUT_OF_RANGE: i32 = 9;
/// A register isn't below 16. The detail is its place, from 0, among those that the instruction has, in the order reg, vvvv, base,
/// index.
pub const HQ_FAULT_REGISTER: i32 = 16;
/// The index is the stack pointer. The detail is its place, as above.
pub const HQ_FAULT_INDEX: i32 = 17;
/// A register that the line fixes is another one. No instruction of the core has this fault.
pub const HQ_FAULT_FIXED: i32 = 18;
/// A late offset isn't known. The detail is its key.
pub const HQ_FAULT_UNKNOWN: i32 = 19;
/// The displacement and its late offset have a sum that isn't of 32 bits.
pub const HQ_FAULT_RANGE: i32 = 20;
/// There are more than 165,191,049 instructions or items.
pub const HQ_TOO_MANY: i32 = 10;
/// The allocator gave no memory.
pub const HQ_NO_MEMORY: i32 = 11;
/// The integers are no item, or one of code behind data.
pub const HQ_BAD_ITEM: i32 = 12;
/// The label's number isn't below that of all items.
pub const HQ_BAD_LABEL: i32 = 13;
/// The label or the constant has a position already.
pub const HQ_BOUND_TWICE: i32 = 14;
/// A label or a constant that is referred to has no position.
pub const HQ_UNBOUND: i32 = 15;
/// A register has no name: it isn't below 16.
pub const HQ_NO_NAME: i32 = 21;
/// A place: nothing.
pub const HQ_PLACE_NOTHING: u8 = 0;
/// A place: a register.
pub const HQ_PLACE_REGISTER: u8 = 1;
/// A place: memory at a base and a displacement.
pub const HQ_PLACE_BASE: u8 = 2;
/// A place: memory at a base, an index times its scale, and a displacement.
pub const HQ_PLACE_INDEX: u8 = 3;
/// A place: memory relative to the end of the instruction, at a label.
pub const HQ_PLACE_LABEL: u8 = 4;
/// A place: memory relative to the end of the instruction, at a constant.
pub const HQ_PLACE_CONSTANT: u8 = 5;
/// A place: memory relative to the end of the instruction, of which isn't told where.
pub const HQ_PLACE_UNTOLD: u8 = 6;
/// An operand that was read: nothing.
pub const HQ_READ_NOTHING: u8 = 0;
/// An operand that was read: a register.
pub const HQ_READ_REGISTER: u8 = 1;
/// An operand that was read: the high byte of one of the first four registers.
pub const HQ_READ_HIGH_BYTE: u8 = 2;
/// An operand that was read: memory.
pub const HQ_READ_MEMORY: u8 = 3;
/// An operand that was read: memory relative to the end of the instruction.
pub const HQ_READ_RELATIVE: u8 = 4;
/// What is told: nothing.
pub const HQ_TOLD_NOTHING: u32 = 0;
/// What is told: the code of a trap.
pub const HQ_TOLD_TRAP: u32 = 1;
/// What is told: that a relative place refers to a label.
pub const HQ_TOLD_LABEL: u32 = 2;
/// What is told: that it refers to a constant.
pub const HQ_TOLD_CONSTANT: u32 = 3;
/// What is told: a relative place, and not what it refers to.
pub const HQ_TOLD_PLACE: u32 = 4;
/// An item: an instruction.
pub const HQ_ITEM_INST: u32 = 0;
/// An item: the position of a label, which is that of what comes next.
pub const HQ_ITEM_LABEL: u32 = 1;
/// An item: a jump to a label, which is always taken.
pub const HQ_ITEM_JMP: u32 = 2;
/// An item: a call of a label.
pub const HQ_ITEM_CALL: u32 = 3;
/// An item: a jump to a label at overflow.
pub const HQ_ITEM_JO: u32 = 4;
/// An item: a jump to a label at no overflow.
pub const HQ_ITEM_JNO: u32 = 5;
/// An item: a jump to a label at below, of unsigned numbers.
pub const HQ_ITEM_JB: u32 = 6;
/// An item: a jump to a label at above or equal, of unsigned numbers.
pub const HQ_ITEM_JAE: u32 = 7;
/// An item: a jump to a label at equal.
pub const HQ_ITEM_JE: u32 = 8;
/// An item: a jump to a label at not equal.
pub const HQ_ITEM_JNE: u32 = 9;
/// An item: a jump to a label at below or equal, of unsigned numbers.
pub const HQ_ITEM_JBE: u32 = 10;
/// An item: a jump to a label at above, of unsigned numbers.
pub const HQ_ITEM_JA: u32 = 11;
/// An item: a jump to a label at sign.
pub const HQ_ITEM_JS: u32 = 12;
/// An item: a jump to a label at no sign.
pub const HQ_ITEM_JNS: u32 = 13;
/// An item: a jump to a label at parity even.
pub const HQ_ITEM_JP: u32 = 14;
/// An item: a jump to a label at parity odd.
pub const HQ_ITEM_JNP: u32 = 15;
/// An item: a jump to a label at less, of signed numbers.
pub const HQ_ITEM_JL: u32 = 16;
/// An item: a jump to a label at greater or equal, of signed numbers.
pub const HQ_ITEM_JGE: u32 = 17;
/// An item: a jump to a label at less or equal, of signed numbers.
pub const HQ_ITEM_JLE: u32 = 18;
/// An item: a jump to a label at greater, of signed numbers.
pub const HQ_ITEM_JG: u32 = 19;
/// An item: the position of a constant, which is that of what comes next. It is data: behind it only data and positions of labels
/// stand.
pub const HQ_ITEM_CONSTANT: u32 = 20;
/// An item: bytes, which are data too: the first of the 24 in which an instruction would stand, as many as the number says.
pub const HQ_ITEM_BYTES: u32 = 21;
/// An item: padding, which is data too: zeros, up to a multiple of 2 to the number, at most 6, from the first byte on.
pub const HQ_ITEM_ALIGN: u32 = 22;
/// Where an operand is: a register in the reg field.
pub const HQ_HOME_REG: u8 = 0;
/// Where an operand is: a register in vvvv.
pub const HQ_HOME_VVVV: u8 = 1;
/// Where an operand is: the register or memory of the place.
pub const HQ_HOME_PLACE: u8 = 2;
/// Where an operand is: a register that the line fixes, and that stands nowhere in the bytes.
pub const HQ_HOME_FIXED: u8 = 3;
/// Where an operand is: the immediate.
pub const HQ_HOME_IMM: u8 = 4;
/// Where an operand is: memory of the stack, which stands nowhere in the bytes.
pub const HQ_HOME_STACK: u8 = 5;
/// What registers an operand may be: none. It's memory, or the immediate.
pub const HQ_CLASS_NONE: u8 = 0;
/// What registers an operand may be: general ones.
pub const HQ_CLASS_GENERAL: u8 = 1;
/// What registers an operand may be: vector registers.
pub const HQ_CLASS_VECTOR: u8 = 2;
/// What is done with an operand: nothing, as with the memory of `lea`.
pub const HQ_ACCESS_NONE: u8 = 0;
/// What is done with an operand: it's read.
pub const HQ_ACCESS_READ: u8 = 1;
/// What is done with an operand: it's written, and nothing of what it was stays.
pub const HQ_ACCESS_WRITE: u8 = 2;
/// What is done with an operand: it's read and written, or written so that it or a part of it may stay.
pub const HQ_ACCESS_READ_WRITE: u8 = 3;
/// The flag CF.
pub const HQ_FLAG_CF: u16 = 1;
/// The flag PF.
pub const HQ_FLAG_PF: u16 = 4;
/// The flag AF.
pub const HQ_FLAG_AF: u16 = 16;
/// The flag ZF.
pub const HQ_FLAG_ZF: u16 = 64;
/// The flag SF.
pub const HQ_FLAG_SF: u16 = 128;
/// The flag OF.
pub const HQ_FLAG_OF: u16 = 2048;
/// No register is given.
pub const HQ_NO_REG: u16 = 256;
/// No immediate is given.
pub const HQ_NO_IMM: i64 = i64::MIN;

/// How many lines there are.
pub const HQ_LINE_COUNT: u16 = 584;
pub const HQ_LINE_LOCK_ADDB_MI: u16 = 0;
pub const HQ_LINE_LOCK_ADDW_MI: u16 = 1;
pub const HQ_LINE_LOCK_ADDL_MI: u16 = 2;
pub const HQ_LINE_LOCK_ADDQ_MI_SXL: u16 = 3;
pub const HQ_LINE_LOCK_ADDL_MI_SXB: u16 = 4;
pub const HQ_LINE_LOCK_ADDQ_MI_SXB: u16 = 5;
pub const HQ_LINE_LOCK_ADDB_MR: u16 = 6;
pub const HQ_LINE_LOCK_ADDW_MR: u16 = 7;
pub const HQ_LINE_LOCK_ADDL_MR: u16 = 8;
pub const HQ_LINE_LOCK_ADDQ_MR: u16 = 9;
pub const HQ_LINE_LOCK_ORB_MI: u16 = 10;
pub const HQ_LINE_LOCK_ORW_MI: u16 = 11;
pub const HQ_LINE_LOCK_ORL_MI: u16 = 12;
pub const HQ_LINE_LOCK_ORQ_MI_SXL: u16 = 13;
pub const HQ_LINE_LOCK_ORL_MI_SXB: u16 = 14;
pub const HQ_LINE_LOCK_ORQ_MI_SXB: u16 = 15;
pub const HQ_LINE_LOCK_ORB_MR: u16 = 16;
pub const HQ_LINE_LOCK_ORW_MR: u16 = 17;
pub const HQ_LINE_LOCK_ORL_MR: u16 = 18;
pub const HQ_LINE_LOCK_ORQ_MR: u16 = 19;
pub const HQ_LINE_LOCK_ADCB_MI: u16 = 20;
pub const HQ_LINE_LOCK_ADCW_MI: u16 = 21;
pub const HQ_LINE_LOCK_ADCL_MI: u16 = 22;
pub const HQ_LINE_LOCK_ADCQ_MI_SXL: u16 = 23;
pub const HQ_LINE_LOCK_ADCL_MI_SXB: u16 = 24;
pub const HQ_LINE_LOCK_ADCQ_MI_SXB: u16 = 25;
pub const HQ_LINE_LOCK_ADCB_MR: u16 = 26;
pub const HQ_LINE_LOCK_ADCW_MR: u16 = 27;
pub const HQ_LINE_LOCK_ADCL_MR: u16 = 28;
pub const HQ_LINE_LOCK_ADCQ_MR: u16 = 29;
pub const HQ_LINE_LOCK_SBBB_MI: u16 = 30;
pub const HQ_LINE_LOCK_SBBW_MI: u16 = 31;
pub const HQ_LINE_LOCK_SBBL_MI: u16 = 32;
pub const HQ_LINE_LOCK_SBBQ_MI_SXL: u16 = 33;
pub const HQ_LINE_LOCK_SBBL_MI_SXB: u16 = 34;
pub const HQ_LINE_LOCK_SBBQ_MI_SXB: u16 = 35;
pub const HQ_LINE_LOCK_SBBB_MR: u16 = 36;
pub const HQ_LINE_LOCK_SBBW_MR: u16 = 37;
pub const HQ_LINE_LOCK_SBBL_MR: u16 = 38;
pub const HQ_LINE_LOCK_SBBQ_MR: u16 = 39;
pub const HQ_LINE_LOCK_ANDB_MI: u16 = 40;
pub const HQ_LINE_LOCK_ANDW_MI: u16 = 41;
pub const HQ_LINE_LOCK_ANDL_MI: u16 = 42;
pub const HQ_LINE_LOCK_ANDQ_MI_SXL: u16 = 43;
pub const HQ_LINE_LOCK_ANDL_MI_SXB: u16 = 44;
pub const HQ_LINE_LOCK_ANDQ_MI_SXB: u16 = 45;
pub const HQ_LINE_LOCK_ANDB_MR: u16 = 46;
pub const HQ_LINE_LOCK_ANDW_MR: u16 = 47;
pub const HQ_LINE_LOCK_ANDL_MR: u16 = 48;
pub const HQ_LINE_LOCK_ANDQ_MR: u16 = 49;
pub const HQ_LINE_LOCK_SUBB_MI: u16 = 50;
pub const HQ_LINE_LOCK_SUBW_MI: u16 = 51;
pub const HQ_LINE_LOCK_SUBL_MI: u16 = 52;
pub const HQ_LINE_LOCK_SUBQ_MI_SXL: u16 = 53;
pub const HQ_LINE_LOCK_SUBL_MI_SXB: u16 = 54;
pub const HQ_LINE_LOCK_SUBQ_MI_SXB: u16 = 55;
pub const HQ_LINE_LOCK_SUBB_MR: u16 = 56;
pub const HQ_LINE_LOCK_SUBW_MR: u16 = 57;
pub const HQ_LINE_LOCK_SUBL_MR: u16 = 58;
pub const HQ_LINE_LOCK_SUBQ_MR: u16 = 59;
pub const HQ_LINE_LOCK_XORB_MI: u16 = 60;
pub const HQ_LINE_LOCK_XORW_MI: u16 = 61;
pub const HQ_LINE_LOCK_XORL_MI: u16 = 62;
pub const HQ_LINE_LOCK_XORQ_MI_SXL: u16 = 63;
pub const HQ_LINE_LOCK_XORL_MI_SXB: u16 = 64;
pub const HQ_LINE_LOCK_XORQ_MI_SXB: u16 = 65;
pub const HQ_LINE_LOCK_XORB_MR: u16 = 66;
pub const HQ_LINE_LOCK_XORW_MR: u16 = 67;
pub const HQ_LINE_LOCK_XORL_MR: u16 = 68;
pub const HQ_LINE_LOCK_XORQ_MR: u16 = 69;
pub const HQ_LINE_LOCK_XADDB_MR: u16 = 70;
pub const HQ_LINE_LOCK_XADDW_MR: u16 = 71;
pub const HQ_LINE_LOCK_XADDL_MR: u16 = 72;
pub const HQ_LINE_LOCK_XADDQ_MR: u16 = 73;
pub const HQ_LINE_LOCK_CMPXCHGB_MR: u16 = 74;
pub const HQ_LINE_LOCK_CMPXCHGW_MR: u16 = 75;
pub const HQ_LINE_LOCK_CMPXCHGL_MR: u16 = 76;
pub const HQ_LINE_LOCK_CMPXCHGQ_MR: u16 = 77;
pub const HQ_LINE_LOCK_CMPXCHG16B_M: u16 = 78;
pub const HQ_LINE_XCHGB_RM: u16 = 79;
pub const HQ_LINE_XCHGW_RM: u16 = 80;
pub const HQ_LINE_XCHGL_RM: u16 = 81;
pub const HQ_LINE_XCHGQ_RM: u16 = 82;
pub const HQ_LINE_ROLB_M1: u16 = 83;
pub const HQ_LINE_ROLW_M1: u16 = 84;
pub const HQ_LINE_ROLL_M1: u16 = 85;
pub const HQ_LINE_ROLQ_M1: u16 = 86;
pub const HQ_LINE_RORB_M1: u16 = 87;
pub const HQ_LINE_RORW_M1: u16 = 88;
pub const HQ_LINE_RORL_M1: u16 = 89;
pub const HQ_LINE_RORQ_M1: u16 = 90;
pub const HQ_LINE_SHLB_M1: u16 = 91;
pub const HQ_LINE_SHLW_M1: u16 = 92;
pub const HQ_LINE_SHLL_M1: u16 = 93;
pub const HQ_LINE_SHLQ_M1: u16 = 94;
pub const HQ_LINE_SHRB_M1: u16 = 95;
pub const HQ_LINE_SHRW_M1: u16 = 96;
pub const HQ_LINE_SHRL_M1: u16 = 97;
pub const HQ_LINE_SHRQ_M1: u16 = 98;
pub const HQ_LINE_SARB_M1: u16 = 99;
pub const HQ_LINE_SARW_M1: u16 = 100;
pub const HQ_LINE_SARL_M1: u16 = 101;
pub const HQ_LINE_SARQ_M1: u16 = 102;
pub const HQ_LINE_CALLQ_M: u16 = 103;
pub const HQ_LINE_JMPQ_M: u16 = 104;
pub const HQ_LINE_ANDPS_A: u16 = 105;
pub const HQ_LINE_CMPPS_A: u16 = 106;
pub const HQ_LINE_CMPPD_A: u16 = 107;
pub const HQ_LINE_CMPSS_A: u16 = 108;
pub const HQ_LINE_CMPSD_A: u16 = 109;
pub const HQ_LINE_ANDB_I: u16 = 110;
pub const HQ_LINE_CALLQ_D: u16 = 111;
pub const HQ_LINE_JMP_D8: u16 = 112;
pub const HQ_LINE_JMP_D32: u16 = 113;
pub const HQ_LINE_JO_D8: u16 = 114;
pub const HQ_LINE_JNO_D8: u16 = 115;
pub const HQ_LINE_JB_D8: u16 = 116;
pub const HQ_LINE_JAE_D8: u16 = 117;
pub const HQ_LINE_JE_D8: u16 = 118;
pub const HQ_LINE_JNE_D8: u16 = 119;
pub const HQ_LINE_JBE_D8: u16 = 120;
pub const HQ_LINE_JA_D8: u16 = 121;
pub const HQ_LINE_JS_D8: u16 = 122;
pub const HQ_LINE_JNS_D8: u16 = 123;
pub const HQ_LINE_JP_D8: u16 = 124;
pub const HQ_LINE_JNP_D8: u16 = 125;
pub const HQ_LINE_JL_D8: u16 = 126;
pub const HQ_LINE_JGE_D8: u16 = 127;
pub const HQ_LINE_JLE_D8: u16 = 128;
pub const HQ_LINE_JG_D8: u16 = 129;
pub const HQ_LINE_JO_D32: u16 = 130;
pub const HQ_LINE_JNO_D32: u16 = 131;
pub const HQ_LINE_JB_D32: u16 = 132;
pub const HQ_LINE_JAE_D32: u16 = 133;
pub const HQ_LINE_JE_D32: u16 = 134;
pub const HQ_LINE_JNE_D32: u16 = 135;
pub const HQ_LINE_JBE_D32: u16 = 136;
pub const HQ_LINE_JA_D32: u16 = 137;
pub const HQ_LINE_JS_D32: u16 = 138;
pub const HQ_LINE_JNS_D32: u16 = 139;
pub const HQ_LINE_JP_D32: u16 = 140;
pub const HQ_LINE_JNP_D32: u16 = 141;
pub const HQ_LINE_JL_D32: u16 = 142;
pub const HQ_LINE_JGE_D32: u16 = 143;
pub const HQ_LINE_JLE_D32: u16 = 144;
pub const HQ_LINE_JG_D32: u16 = 145;
pub const HQ_LINE_VCMPPS_B: u16 = 146;
pub const HQ_LINE_VCMPPD_B: u16 = 147;
pub const HQ_LINE_VCMPSS_B: u16 = 148;
pub const HQ_LINE_VCMPSD_B: u16 = 149;
pub const HQ_LINE_VCVTPD2PS_A: u16 = 150;
pub const HQ_LINE_VCVTTPD2DQ_A: u16 = 151;
pub const HQ_LINE_MULXL_RVM: u16 = 152;
pub const HQ_LINE_MULXQ_RVM: u16 = 153;
pub const HQ_LINE_NOP_1B: u16 = 154;
pub const HQ_LINE_NOP_2B: u16 = 155;
pub const HQ_LINE_NOPL_RM: u16 = 156;
pub const HQ_LINE_NOPW_RM: u16 = 157;
pub const HQ_LINE_ADDB_I: u16 = 158;
pub const HQ_LINE_ADDB_MI: u16 = 159;
pub const HQ_LINE_ADDB_MR: u16 = 160;
pub const HQ_LINE_ADDB_RM: u16 = 161;
pub const HQ_LINE_ADDW_I: u16 = 162;
pub const HQ_LINE_ADDW_MI: u16 = 163;
pub const HQ_LINE_ADDW_MR: u16 = 164;
pub const HQ_LINE_ADDW_RM: u16 = 165;
pub const HQ_LINE_ADDL_I: u16 = 166;
pub const HQ_LINE_ADDL_MI: u16 = 167;
pub const HQ_LINE_ADDL_MI_SXB: u16 = 168;
pub const HQ_LINE_ADDL_MR: u16 = 169;
pub const HQ_LINE_ADDL_RM: u16 = 170;
pub const HQ_LINE_ADDQ_MI_SXL: u16 = 171;
pub const HQ_LINE_ADDQ_MI_SXB: u16 = 172;
pub const HQ_LINE_ADDQ_MR: u16 = 173;
pub const HQ_LINE_ADDQ_RM: u16 = 174;
pub const HQ_LINE_ORB_I: u16 = 175;
pub const HQ_LINE_ORB_MI: u16 = 176;
pub const HQ_LINE_ORB_MR: u16 = 177;
pub const HQ_LINE_ORB_RM: u16 = 178;
pub const HQ_LINE_ORW_I: u16 = 179;
pub const HQ_LINE_ORW_MI: u16 = 180;
pub const HQ_LINE_ORW_MR: u16 = 181;
pub const HQ_LINE_ORW_RM: u16 = 182;
pub const HQ_LINE_ORL_I: u16 = 183;
pub const HQ_LINE_ORL_MI: u16 = 184;
pub const HQ_LINE_ORL_MI_SXB: u16 = 185;
pub const HQ_LINE_ORL_MR: u16 = 186;
pub const HQ_LINE_ORL_RM: u16 = 187;
pub const HQ_LINE_ORQ_MI_SXL: u16 = 188;
pub const HQ_LINE_ORQ_MI_SXB: u16 = 189;
pub const HQ_LINE_ORQ_MR: u16 = 190;
pub const HQ_LINE_ORQ_RM: u16 = 191;
pub const HQ_LINE_ADCB_I: u16 = 192;
pub const HQ_LINE_ADCB_MI: u16 = 193;
pub const HQ_LINE_ADCB_MR: u16 = 194;
pub const HQ_LINE_ADCB_RM: u16 = 195;
pub const HQ_LINE_ADCW_I: u16 = 196;
pub const HQ_LINE_ADCW_MI: u16 = 197;
pub const HQ_LINE_ADCW_MR: u16 = 198;
pub const HQ_LINE_ADCW_RM: u16 = 199;
pub const HQ_LINE_ADCL_I: u16 = 200;
pub const HQ_LINE_ADCL_MI: u16 = 201;
pub const HQ_LINE_ADCL_MI_SXB: u16 = 202;
pub const HQ_LINE_ADCL_MR: u16 = 203;
pub const HQ_LINE_ADCL_RM: u16 = 204;
pub const HQ_LINE_ADCQ_MI_SXL: u16 = 205;
pub const HQ_LINE_ADCQ_MI_SXB: u16 = 206;
pub const HQ_LINE_ADCQ_MR: u16 = 207;
pub const HQ_LINE_ADCQ_RM: u16 = 208;
pub const HQ_LINE_SBBB_I: u16 = 209;
pub const HQ_LINE_SBBB_MI: u16 = 210;
pub const HQ_LINE_SBBB_MR: u16 = 211;
pub const HQ_LINE_SBBB_RM: u16 = 212;
pub const HQ_LINE_SBBW_I: u16 = 213;
pub const HQ_LINE_SBBW_MI: u16 = 214;
pub const HQ_LINE_SBBW_MR: u16 = 215;
pub const HQ_LINE_SBBW_RM: u16 = 216;
pub const HQ_LINE_SBBL_I: u16 = 217;
pub const HQ_LINE_SBBL_MI: u16 = 218;
pub const HQ_LINE_SBBL_MI_SXB: u16 = 219;
pub const HQ_LINE_SBBL_MR: u16 = 220;
pub const HQ_LINE_SBBL_RM: u16 = 221;
pub const HQ_LINE_SBBQ_MI_SXL: u16 = 222;
pub const HQ_LINE_SBBQ_MI_SXB: u16 = 223;
pub const HQ_LINE_SBBQ_MR: u16 = 224;
pub const HQ_LINE_SBBQ_RM: u16 = 225;
pub const HQ_LINE_ANDB_MI: u16 = 226;
pub const HQ_LINE_ANDB_MR: u16 = 227;
pub const HQ_LINE_ANDB_RM: u16 = 228;
pub const HQ_LINE_ANDW_I: u16 = 229;
pub const HQ_LINE_ANDW_MI: u16 = 230;
pub const HQ_LINE_ANDW_MR: u16 = 231;
pub const HQ_LINE_ANDW_RM: u16 = 232;
pub const HQ_LINE_ANDL_I: u16 = 233;
pub const HQ_LINE_ANDL_MI: u16 = 234;
pub const HQ_LINE_ANDL_MI_SXB: u16 = 235;
pub const HQ_LINE_ANDL_MR: u16 = 236;
pub const HQ_LINE_ANDL_RM: u16 = 237;
pub const HQ_LINE_ANDQ_MI_SXL: u16 = 238;
pub const HQ_LINE_ANDQ_MI_SXB: u16 = 239;
pub const HQ_LINE_ANDQ_MR: u16 = 240;
pub const HQ_LINE_ANDQ_RM: u16 = 241;
pub const HQ_LINE_SUBB_I: u16 = 242;
pub const HQ_LINE_SUBB_MI: u16 = 243;
pub const HQ_LINE_SUBB_MR: u16 = 244;
pub const HQ_LINE_SUBB_RM: u16 = 245;
pub const HQ_LINE_SUBW_I: u16 = 246;
pub const HQ_LINE_SUBW_MI: u16 = 247;
pub const HQ_LINE_SUBW_MR: u16 = 248;
pub const HQ_LINE_SUBW_RM: u16 = 249;
pub const HQ_LINE_SUBL_I: u16 = 250;
pub const HQ_LINE_SUBL_MI: u16 = 251;
pub const HQ_LINE_SUBL_MI_SXB: u16 = 252;
pub const HQ_LINE_SUBL_MR: u16 = 253;
pub const HQ_LINE_SUBL_RM: u16 = 254;
pub const HQ_LINE_SUBQ_MI_SXL: u16 = 255;
pub const HQ_LINE_SUBQ_MI_SXB: u16 = 256;
pub const HQ_LINE_SUBQ_MR: u16 = 257;
pub const HQ_LINE_SUBQ_RM: u16 = 258;
pub const HQ_LINE_XORB_I: u16 = 259;
pub const HQ_LINE_XORB_MI: u16 = 260;
pub const HQ_LINE_XORB_MR: u16 = 261;
pub const HQ_LINE_XORB_RM: u16 = 262;
pub const HQ_LINE_XORW_I: u16 = 263;
pub const HQ_LINE_XORW_MI: u16 = 264;
pub const HQ_LINE_XORW_MR: u16 = 265;
pub const HQ_LINE_XORW_RM: u16 = 266;
pub const HQ_LINE_XORL_I: u16 = 267;
pub const HQ_LINE_XORL_MI: u16 = 268;
pub const HQ_LINE_XORL_MI_SXB: u16 = 269;
pub const HQ_LINE_XORL_MR: u16 = 270;
pub const HQ_LINE_XORL_RM: u16 = 271;
pub const HQ_LINE_XORQ_MI_SXL: u16 = 272;
pub const HQ_LINE_XORQ_MI_SXB: u16 = 273;
pub const HQ_LINE_XORQ_MR: u16 = 274;
pub const HQ_LINE_XORQ_RM: u16 = 275;
pub const HQ_LINE_CMPB_I: u16 = 276;
pub const HQ_LINE_CMPB_MI: u16 = 277;
pub const HQ_LINE_CMPB_MR: u16 = 278;
pub const HQ_LINE_CMPB_RM: u16 = 279;
pub const HQ_LINE_CMPW_I: u16 = 280;
pub const HQ_LINE_CMPW_MI: u16 = 281;
pub const HQ_LINE_CMPW_MR: u16 = 282;
pub const HQ_LINE_CMPW_RM: u16 = 283;
pub const HQ_LINE_CMPL_I: u16 = 284;
pub const HQ_LINE_CMPL_MI: u16 = 285;
pub const HQ_LINE_CMPL_MI_SXB: u16 = 286;
pub const HQ_LINE_CMPL_MR: u16 = 287;
pub const HQ_LINE_CMPL_RM: u16 = 288;
pub const HQ_LINE_CMPQ_MI_SXL: u16 = 289;
pub const HQ_LINE_CMPQ_MI_SXB: u16 = 290;
pub const HQ_LINE_CMPQ_MR: u16 = 291;
pub const HQ_LINE_CMPQ_RM: u16 = 292;
pub const HQ_LINE_TESTB_I: u16 = 293;
pub const HQ_LINE_TESTB_MI: u16 = 294;
pub const HQ_LINE_TESTB_MR: u16 = 295;
pub const HQ_LINE_TESTW_I: u16 = 296;
pub const HQ_LINE_TESTW_MI: u16 = 297;
pub const HQ_LINE_TESTW_MR: u16 = 298;
pub const HQ_LINE_TESTL_I: u16 = 299;
pub const HQ_LINE_TESTL_MI: u16 = 300;
pub const HQ_LINE_TESTL_MR: u16 = 301;
pub const HQ_LINE_TESTQ_MI_SXL: u16 = 302;
pub const HQ_LINE_TESTQ_MR: u16 = 303;
pub const HQ_LINE_MOVB_MR: u16 = 304;
pub const HQ_LINE_MOVB_RM: u16 = 305;
pub const HQ_LINE_MOVB_MI: u16 = 306;
pub const HQ_LINE_MOVW_MR: u16 = 307;
pub const HQ_LINE_MOVW_RM: u16 = 308;
pub const HQ_LINE_MOVW_MI: u16 = 309;
pub const HQ_LINE_MOVL_MR: u16 = 310;
pub const HQ_LINE_MOVL_RM: u16 = 311;
pub const HQ_LINE_MOVL_MI: u16 = 312;
pub const HQ_LINE_MOVQ_MR: u16 = 313;
pub const HQ_LINE_MOVQ_RM: u16 = 314;
pub const HQ_LINE_MOVQ_MI_SXL: u16 = 315;
pub const HQ_LINE_MOVSBW_RM: u16 = 316;
pub const HQ_LINE_MOVSBL_RM: u16 = 317;
pub const HQ_LINE_MOVSBQ_RM: u16 = 318;
pub const HQ_LINE_MOVSWL_RM: u16 = 319;
pub const HQ_LINE_MOVSWQ_RM: u16 = 320;
pub const HQ_LINE_MOVSLQ_RM: u16 = 321;
pub const HQ_LINE_MOVZBW_RM: u16 = 322;
pub const HQ_LINE_MOVZBL_RM: u16 = 323;
pub const HQ_LINE_MOVZBQ_RM: u16 = 324;
pub const HQ_LINE_MOVZWL_RM: u16 = 325;
pub const HQ_LINE_MOVZWQ_RM: u16 = 326;
pub const HQ_LINE_LEAW_RM: u16 = 327;
pub const HQ_LINE_LEAL_RM: u16 = 328;
pub const HQ_LINE_LEAQ_RM: u16 = 329;
pub const HQ_LINE_MULB_M: u16 = 330;
pub const HQ_LINE_MULW_M: u16 = 331;
pub const HQ_LINE_MULL_M: u16 = 332;
pub const HQ_LINE_MULQ_M: u16 = 333;
pub const HQ_LINE_IMULB_M: u16 = 334;
pub const HQ_LINE_IMULW_M: u16 = 335;
pub const HQ_LINE_IMULL_M: u16 = 336;
pub const HQ_LINE_IMULQ_M: u16 = 337;
pub const HQ_LINE_IMULW_RM: u16 = 338;
pub const HQ_LINE_IMULW_RMI_SXB: u16 = 339;
pub const HQ_LINE_IMULW_RMI: u16 = 340;
pub const HQ_LINE_IMULL_RM: u16 = 341;
pub const HQ_LINE_IMULL_RMI_SXB: u16 = 342;
pub const HQ_LINE_IMULL_RMI: u16 = 343;
pub const HQ_LINE_IMULQ_RM: u16 = 344;
pub const HQ_LINE_IMULQ_RMI_SXB: u16 = 345;
pub const HQ_LINE_IMULQ_RMI_SXL: u16 = 346;
pub const HQ_LINE_DIVB_M: u16 = 347;
pub const HQ_LINE_DIVW_M: u16 = 348;
pub const HQ_LINE_DIVL_M: u16 = 349;
pub const HQ_LINE_DIVQ_M: u16 = 350;
pub const HQ_LINE_IDIVB_M: u16 = 351;
pub const HQ_LINE_IDIVW_M: u16 = 352;
pub const HQ_LINE_IDIVL_M: u16 = 353;
pub const HQ_LINE_IDIVQ_M: u16 = 354;
pub const HQ_LINE_NOTB_M: u16 = 355;
pub const HQ_LINE_NOTW_M: u16 = 356;
pub const HQ_LINE_NOTL_M: u16 = 357;
pub const HQ_LINE_NOTQ_M: u16 = 358;
pub const HQ_LINE_NEGB_M: u16 = 359;
pub const HQ_LINE_NEGW_M: u16 = 360;
pub const HQ_LINE_NEGL_M: u16 = 361;
pub const HQ_LINE_NEGQ_M: u16 = 362;
pub const HQ_LINE_CBTW_ZO: u16 = 363;
pub const HQ_LINE_CWTL_ZO: u16 = 364;
pub const HQ_LINE_CWTD_ZO: u16 = 365;
pub const HQ_LINE_CLTD_ZO: u16 = 366;
pub const HQ_LINE_ROLB_MC: u16 = 367;
pub const HQ_LINE_ROLB_MI: u16 = 368;
pub const HQ_LINE_ROLW_MC: u16 = 369;
pub const HQ_LINE_ROLW_MI: u16 = 370;
pub const HQ_LINE_ROLL_MC: u16 = 371;
pub const HQ_LINE_ROLL_MI: u16 = 372;
pub const HQ_LINE_ROLQ_MC: u16 = 373;
pub const HQ_LINE_ROLQ_MI: u16 = 374;
pub const HQ_LINE_RORB_MC: u16 = 375;
pub const HQ_LINE_RORB_MI: u16 = 376;
pub const HQ_LINE_RORW_MC: u16 = 377;
pub const HQ_LINE_RORW_MI: u16 = 378;
pub const HQ_LINE_RORL_MC: u16 = 379;
pub const HQ_LINE_RORL_MI: u16 = 380;
pub const HQ_LINE_RORQ_MC: u16 = 381;
pub const HQ_LINE_RORQ_MI: u16 = 382;
pub const HQ_LINE_SHLB_MC: u16 = 383;
pub const HQ_LINE_SHLB_MI: u16 = 384;
pub const HQ_LINE_SHLW_MC: u16 = 385;
pub const HQ_LINE_SHLW_MI: u16 = 386;
pub const HQ_LINE_SHLL_MC: u16 = 387;
pub const HQ_LINE_SHLL_MI: u16 = 388;
pub const HQ_LINE_SHLQ_MC: u16 = 389;
pub const HQ_LINE_SHLQ_MI: u16 = 390;
pub const HQ_LINE_SHRB_MC: u16 = 391;
pub const HQ_LINE_SHRB_MI: u16 = 392;
pub const HQ_LINE_SHRW_MC: u16 = 393;
pub const HQ_LINE_SHRW_MI: u16 = 394;
pub const HQ_LINE_SHRL_MC: u16 = 395;
pub const HQ_LINE_SHRL_MI: u16 = 396;
pub const HQ_LINE_SHRQ_MC: u16 = 397;
pub const HQ_LINE_SHRQ_MI: u16 = 398;
pub const HQ_LINE_SARB_MC: u16 = 399;
pub const HQ_LINE_SARB_MI: u16 = 400;
pub const HQ_LINE_SARW_MC: u16 = 401;
pub const HQ_LINE_SARW_MI: u16 = 402;
pub const HQ_LINE_SARL_MC: u16 = 403;
pub const HQ_LINE_SARL_MI: u16 = 404;
pub const HQ_LINE_SARQ_MC: u16 = 405;
pub const HQ_LINE_SARQ_MI: u16 = 406;
pub const HQ_LINE_SHLDW_MRI: u16 = 407;
pub const HQ_LINE_SHLDW_MRC: u16 = 408;
pub const HQ_LINE_SHLDL_MRI: u16 = 409;
pub const HQ_LINE_SHLDL_MRC: u16 = 410;
pub const HQ_LINE_SHLDQ_MRI: u16 = 411;
pub const HQ_LINE_SHLDQ_MRC: u16 = 412;
pub const HQ_LINE_SETO_M: u16 = 413;
pub const HQ_LINE_SETNO_M: u16 = 414;
pub const HQ_LINE_SETB_M: u16 = 415;
pub const HQ_LINE_SETAE_M: u16 = 416;
pub const HQ_LINE_SETE_M: u16 = 417;
pub const HQ_LINE_SETNE_M: u16 = 418;
pub const HQ_LINE_SETBE_M: u16 = 419;
pub const HQ_LINE_SETA_M: u16 = 420;
pub const HQ_LINE_SETS_M: u16 = 421;
pub const HQ_LINE_SETNS_M: u16 = 422;
pub const HQ_LINE_SETP_M: u16 = 423;
pub const HQ_LINE_SETNP_M: u16 = 424;
pub const HQ_LINE_SETL_M: u16 = 425;
pub const HQ_LINE_SETGE_M: u16 = 426;
pub const HQ_LINE_SETLE_M: u16 = 427;
pub const HQ_LINE_SETG_M: u16 = 428;
pub const HQ_LINE_CMOVOW_RM: u16 = 429;
pub const HQ_LINE_CMOVOL_RM: u16 = 430;
pub const HQ_LINE_CMOVOQ_RM: u16 = 431;
pub const HQ_LINE_CMOVNOW_RM: u16 = 432;
pub const HQ_LINE_CMOVNOL_RM: u16 = 433;
pub const HQ_LINE_CMOVNOQ_RM: u16 = 434;
pub const HQ_LINE_CMOVBW_RM: u16 = 435;
pub const HQ_LINE_CMOVBL_RM: u16 = 436;
pub const HQ_LINE_CMOVBQ_RM: u16 = 437;
pub const HQ_LINE_CMOVAEW_RM: u16 = 438;
pub const HQ_LINE_CMOVAEL_RM: u16 = 439;
pub const HQ_LINE_CMOVAEQ_RM: u16 = 440;
pub const HQ_LINE_CMOVEW_RM: u16 = 441;
pub const HQ_LINE_CMOVEL_RM: u16 = 442;
pub const HQ_LINE_CMOVEQ_RM: u16 = 443;
pub const HQ_LINE_CMOVNEW_RM: u16 = 444;
pub const HQ_LINE_CMOVNEL_RM: u16 = 445;
pub const HQ_LINE_CMOVNEQ_RM: u16 = 446;
pub const HQ_LINE_CMOVBEW_RM: u16 = 447;
pub const HQ_LINE_CMOVBEL_RM: u16 = 448;
pub const HQ_LINE_CMOVBEQ_RM: u16 = 449;
pub const HQ_LINE_CMOVAW_RM: u16 = 450;
pub const HQ_LINE_CMOVAL_RM: u16 = 451;
pub const HQ_LINE_CMOVAQ_RM: u16 = 452;
pub const HQ_LINE_CMOVSW_RM: u16 = 453;
pub const HQ_LINE_CMOVSL_RM: u16 = 454;
pub const HQ_LINE_CMOVSQ_RM: u16 = 455;
pub const HQ_LINE_CMOVNSW_RM: u16 = 456;
pub const HQ_LINE_CMOVNSL_RM: u16 = 457;
pub const HQ_LINE_CMOVNSQ_RM: u16 = 458;
pub const HQ_LINE_CMOVPW_RM: u16 = 459;
pub const HQ_LINE_CMOVPL_RM: u16 = 460;
pub const HQ_LINE_CMOVPQ_RM: u16 = 461;
pub const HQ_LINE_CMOVNPW_RM: u16 = 462;
pub const HQ_LINE_CMOVNPL_RM: u16 = 463;
pub const HQ_LINE_CMOVNPQ_RM: u16 = 464;
pub const HQ_LINE_CMOVLW_RM: u16 = 465;
pub const HQ_LINE_CMOVLL_RM: u16 = 466;
pub const HQ_LINE_CMOVLQ_RM: u16 = 467;
pub const HQ_LINE_CMOVGEW_RM: u16 = 468;
pub const HQ_LINE_CMOVGEL_RM: u16 = 469;
pub const HQ_LINE_CMOVGEQ_RM: u16 = 470;
pub const HQ_LINE_CMOVLEW_RM: u16 = 471;
pub const HQ_LINE_CMOVLEL_RM: u16 = 472;
pub const HQ_LINE_CMOVLEQ_RM: u16 = 473;
pub const HQ_LINE_CMOVGW_RM: u16 = 474;
pub const HQ_LINE_CMOVGL_RM: u16 = 475;
pub const HQ_LINE_CMOVGQ_RM: u16 = 476;
pub const HQ_LINE_PUSHW_M: u16 = 477;
pub const HQ_LINE_PUSHQ_M: u16 = 478;
pub const HQ_LINE_PUSHQ_I8: u16 = 479;
pub const HQ_LINE_PUSHW_I16: u16 = 480;
pub const HQ_LINE_PUSHQ_I32: u16 = 481;
pub const HQ_LINE_POPW_M: u16 = 482;
pub const HQ_LINE_POPQ_M: u16 = 483;
pub const HQ_LINE_RETQ_ZO: u16 = 484;
pub const HQ_LINE_RETQ_I: u16 = 485;
pub const HQ_LINE_LEAVEQ_ZO: u16 = 486;
pub const HQ_LINE_UD2_ZO: u16 = 487;
pub const HQ_LINE_INT3_ZO: u16 = 488;
pub const HQ_LINE_HLT_ZO: u16 = 489;
pub const HQ_LINE_BSFW_RM: u16 = 490;
pub const HQ_LINE_BSRW_RM: u16 = 491;
pub const HQ_LINE_BSFL_RM: u16 = 492;
pub const HQ_LINE_BSRL_RM: u16 = 493;
pub const HQ_LINE_BSFQ_RM: u16 = 494;
pub const HQ_LINE_BSRQ_RM: u16 = 495;
pub const HQ_LINE_TZCNTW_RM: u16 = 496;
pub const HQ_LINE_LZCNTW_RM: u16 = 497;
pub const HQ_LINE_POPCNTW_RM: u16 = 498;
pub const HQ_LINE_TZCNTL_RM: u16 = 499;
pub const HQ_LINE_LZCNTL_RM: u16 = 500;
pub const HQ_LINE_POPCNTL_RM: u16 = 501;
pub const HQ_LINE_TZCNTQ_RM: u16 = 502;
pub const HQ_LINE_LZCNTQ_RM: u16 = 503;
pub const HQ_LINE_POPCNTQ_RM: u16 = 504;
pub const HQ_LINE_BTW_MR: u16 = 505;
pub const HQ_LINE_BTW_MI: u16 = 506;
pub const HQ_LINE_BTL_MR: u16 = 507;
pub const HQ_LINE_BTL_MI: u16 = 508;
pub const HQ_LINE_BTQ_MR: u16 = 509;
pub const HQ_LINE_BTQ_MI: u16 = 510;
pub const HQ_LINE_XADDB_MR: u16 = 511;
pub const HQ_LINE_CMPXCHGB_MR: u16 = 512;
pub const HQ_LINE_XADDW_MR: u16 = 513;
pub const HQ_LINE_CMPXCHGW_MR: u16 = 514;
pub const HQ_LINE_XADDL_MR: u16 = 515;
pub const HQ_LINE_CMPXCHGL_MR: u16 = 516;
pub const HQ_LINE_XADDQ_MR: u16 = 517;
pub const HQ_LINE_CMPXCHGQ_MR: u16 = 518;
pub const HQ_LINE_CMPXCHG16B_M: u16 = 519;
pub const HQ_LINE_ADDSS_A: u16 = 520;
pub const HQ_LINE_ADDSD_A: u16 = 521;
pub const HQ_LINE_MULSS_A: u16 = 522;
pub const HQ_LINE_MULSD_A: u16 = 523;
pub const HQ_LINE_SUBSS_A: u16 = 524;
pub const HQ_LINE_SUBSD_A: u16 = 525;
pub const HQ_LINE_MINSS_A: u16 = 526;
pub const HQ_LINE_MINSD_A: u16 = 527;
pub const HQ_LINE_DIVSS_A: u16 = 528;
pub const HQ_LINE_DIVSD_A: u16 = 529;
pub const HQ_LINE_MAXSS_A: u16 = 530;
pub const HQ_LINE_MAXSD_A: u16 = 531;
pub const HQ_LINE_SQRTSS_A: u16 = 532;
pub const HQ_LINE_SQRTSD_A: u16 = 533;
pub const HQ_LINE_UCOMISS_A: u16 = 534;
pub const HQ_LINE_UCOMISD_A: u16 = 535;
pub const HQ_LINE_ANDPD_A: u16 = 536;
pub const HQ_LINE_ANDNPS_A: u16 = 537;
pub const HQ_LINE_ANDNPD_A: u16 = 538;
pub const HQ_LINE_ORPS_A: u16 = 539;
pub const HQ_LINE_ORPD_A: u16 = 540;
pub const HQ_LINE_XORPS_A: u16 = 541;
pub const HQ_LINE_XORPD_A: u16 = 542;
pub const HQ_LINE_PXOR_A: u16 = 543;
pub const HQ_LINE_MOVSS_A_M: u16 = 544;
pub const HQ_LINE_MOVSS_C_M: u16 = 545;
pub const HQ_LINE_MOVSD_A_M: u16 = 546;
pub const HQ_LINE_MOVSD_C_M: u16 = 547;
pub const HQ_LINE_MOVAPS_A: u16 = 548;
pub const HQ_LINE_MOVAPS_B: u16 = 549;
pub const HQ_LINE_MOVAPD_A: u16 = 550;
pub const HQ_LINE_MOVAPD_B: u16 = 551;
pub const HQ_LINE_MOVUPS_A: u16 = 552;
pub const HQ_LINE_MOVUPS_B: u16 = 553;
pub const HQ_LINE_MOVUPD_A: u16 = 554;
pub const HQ_LINE_MOVUPD_B: u16 = 555;
pub const HQ_LINE_MOVDQA_A: u16 = 556;
pub const HQ_LINE_MOVDQA_B: u16 = 557;
pub const HQ_LINE_MOVDQU_A: u16 = 558;
pub const HQ_LINE_MOVDQU_B: u16 = 559;
pub const HQ_LINE_MOVD_A: u16 = 560;
pub const HQ_LINE_MOVQ_A: u16 = 561;
pub const HQ_LINE_MOVD_B: u16 = 562;
pub const HQ_LINE_MOVQ_B: u16 = 563;
pub const HQ_LINE_CVTSI2SSL_A: u16 = 564;
pub const HQ_LINE_CVTSS2SIL_A: u16 = 565;
pub const HQ_LINE_CVTTSS2SIL_A: u16 = 566;
pub const HQ_LINE_CVTSI2SSQ_A: u16 = 567;
pub const HQ_LINE_CVTSS2SIQ_A: u16 = 568;
pub const HQ_LINE_CVTTSS2SIQ_A: u16 = 569;
pub const HQ_LINE_CVTSI2SDL_A: u16 = 570;
pub const HQ_LINE_CVTSD2SIL_A: u16 = 571;
pub const HQ_LINE_CVTTSD2SIL_A: u16 = 572;
pub const HQ_LINE_CVTSI2SDQ_A: u16 = 573;
pub const HQ_LINE_CVTSD2SIQ_A: u16 = 574;
pub const HQ_LINE_CVTTSD2SIQ_A: u16 = 575;
pub const HQ_LINE_CVTSS2SD_A: u16 = 576;
pub const HQ_LINE_CVTSD2SS_A: u16 = 577;
pub const HQ_LINE_CVTPS2PD_A: u16 = 578;
pub const HQ_LINE_CVTPD2PS_A: u16 = 579;
pub const HQ_LINE_CVTDQ2PS_A: u16 = 580;
pub const HQ_LINE_CVTTPS2DQ_A: u16 = 581;
pub const HQ_LINE_CVTDQ2PD_A: u16 = 582;
pub const HQ_LINE_CVTTPD2DQ_A: u16 = 583;

/// What the rest of the tail names, in integers: a register, memory, or nothing. What it lacks is 0.
#[repr(C)]
#[derive(Clone, Copy, Debug, Default, PartialEq, Eq, Hash)]
pub struct hq_place {
    /// Which place it is: `HQ_PLACE_NOTHING` and the like.
    pub place: u8,
    /// The register, or the base.
    pub base: u8,
    /// The index.
    pub index: u8,
    /// What the index is multiplied by, as the two bits of a SIB byte: 0 to 3.
    pub scale: u8,
    /// The code of the trap that the access may raise, 0 for none.
    pub trap: u8,
    /// 1 where an offset is added to the displacement that is known late.
    pub has_offset: u8,
    /// Its key.
    pub offset: u8,
    /// 0.
    pub reserved: u8,
    /// The displacement in bytes.
    pub disp: i32,
    /// The number of the label or of the constant.
    pub target: u32,
}

const _: () = assert!(size_of::<hq_place>() == 16 && align_of::<hq_place>() == 4);

/// An instruction of the core in integers: its line, and each number where it stands in the bytes. What it lacks is 0.
#[repr(C)]
#[derive(Clone, Copy, Debug, Default, PartialEq, Eq, Hash)]
pub struct hq_inst {
    /// The number of its line.
    pub line: u16,
    /// What the rest of the tail names: `HQ_PLACE_NOTHING` and the like.
    pub place: u8,
    /// The register in the reg field of ModR/M.
    pub reg: u8,
    /// The register in vvvv of a VEX prefix.
    pub vvvv: u8,
    /// The register of the place, or its base.
    pub base: u8,
    /// The index of the place.
    pub index: u8,
    /// What the index is multiplied by, as the two bits of a SIB byte: 0 to 3.
    pub scale: u8,
    /// The code of the trap that the access may raise, 0 for none.
    pub trap: u8,
    /// 1 where an offset is added to the displacement that is known late.
    pub has_offset: u8,
    /// Its key.
    pub offset: u8,
    /// 0.
    pub reserved: u8,
    /// The displacement in bytes.
    pub disp: i32,
    /// The number of the label or of the constant.
    pub target: u32,
    /// The low 32 bits of the immediate.
    pub imm: u32,
}

const _: () = assert!(size_of::<hq_inst>() == 24 && align_of::<hq_inst>() == 4);

/// An instruction of the core as it is read, in integers. What it lacks is 0.
#[repr(C)]
#[derive(Clone, Copy, Debug, Default, PartialEq, Eq, Hash)]
pub struct hq_reading {
    /// The immediate, unsigned or signed, as the line has it.
    pub imm: i64,
    /// The displacement of memory, or the distance from the end of the instruction, in bytes.
    pub disp: i32,
    /// The number of its line.
    pub line: u16,
    /// The number of its bytes, 1 to 13.
    pub length: u8,
    /// The number of bytes of ModR/M, SIB and displacement.
    pub tail: u8,
    /// What stands in the reg field of ModR/M: `HQ_READ_NOTHING`, `HQ_READ_REGISTER` or `HQ_READ_HIGH_BYTE`.
    pub reg_kind: u8,
    /// Its number: of a high byte 0 to 3.
    pub reg: u8,
    /// 1 where a register stands in vvvv of a VEX prefix.
    pub has_vvvv: u8,
    /// Its number.
    pub vvvv: u8,
    /// What the rest of the tail names: `HQ_READ_NOTHING` and the like.
    pub place_kind: u8,
    /// 1 where memory has a base.
    pub has_base: u8,
    /// The number of the register of the place, or of its base.
    pub base: u8,
    /// 1 where memory has an index.
    pub has_index: u8,
    /// Its number.
    pub index: u8,
    /// What it is multiplied by: 1, 2, 4 or 8.
    pub factor: u8,
    /// 1 where there is an immediate.
    pub has_imm: u8,
    /// 0.
    pub reserved: u8,
    /// 0.
    pub reserved_word: u32,
}

const _: () = assert!(size_of::<hq_reading>() == 32 && align_of::<hq_reading>() == 8);

/// What is told beside the bytes of an instruction: the code of its trap, or what a relative place refers to.
#[repr(C)]
#[derive(Clone, Copy, Debug, Default, PartialEq, Eq, Hash)]
pub struct hq_use {
    /// How many bytes of the instruction, or of a list's code, stand before it: before a target its four bytes follow.
    pub at: u32,
    /// What is told: `HQ_TOLD_NOTHING` and the like.
    pub kind: u32,
    /// Of the trap, of the label or of the constant.
    pub number: u32,
}

const _: () = assert!(size_of::<hq_use>() == 12 && align_of::<hq_use>() == 4);

/// How far a list of instructions or items was gone through, and what they have.
#[repr(C)]
#[derive(Clone, Copy, Debug, Default, PartialEq, Eq, Hash)]
pub struct hq_done {
    /// How many instructions or items there are, or those before the first that is refused, which has this number.
    pub items: usize,
    /// How many bytes they have.
    pub bytes: usize,
    /// How many traps and targets they tell.
    pub uses: usize,
}

const _: () = assert!(size_of::<hq_done>() == 24 && align_of::<hq_done>() == 8);

/// What is assembled: an instruction, the position of a label, a jump to one, or data behind the code.
#[repr(C)]
#[derive(Clone, Copy, Debug, Default, PartialEq, Eq, Hash)]
pub struct hq_item {
    /// Which it is: `HQ_ITEM_INST` and the like.
    pub kind: u32,
    /// The number of the label, below that of all items; that of the constant; how many bytes there are; or the power of
    /// 2 of padding. Of an instruction it isn't looked at.
    pub number: u32,
    /// The instruction, or the bytes. Of other items it isn't looked at.
    pub inst: hq_inst,
}

const _: () = assert!(size_of::<hq_item>() == 32 && align_of::<hq_item>() == 4);

/// An operand of a line, or a register or memory that it uses beside its operands.
#[repr(C)]
#[derive(Clone, Copy, Debug, Default, PartialEq, Eq, Hash)]
pub struct hq_operand {
    /// Where it is: `HQ_HOME_REG` and the like.
    pub home: u8,
    /// The register's, where the line fixes one, else 0.
    pub number: u8,
    /// What registers it may be: `HQ_CLASS_GENERAL` and the like.
    pub registers: u8,
    /// What is done with it: `HQ_ACCESS_READ` and the like.
    pub access: u8,
    /// How many bits it has: 8 to 128.
    pub bits: u8,
    /// Whether it's among the operands that a text has: 0 or 1.
    pub printed: u8,
}

const _: () = assert!(size_of::<hq_operand>() == 6 && align_of::<hq_operand>() == 1);

/// The flags that a line reads, writes and leaves undefined: sums of `HQ_FLAG_CF` and the like, each at its place in EFLAGS. A flag
/// that is read, and written or undefined too, may be one that the line leaves as it was.
#[repr(C)]
#[derive(Clone, Copy, Debug, Default, PartialEq, Eq, Hash)]
pub struct hq_flags {
    pub read: u16,
    pub written: u16,
    pub undefined: u16,
}

const _: () = assert!(size_of::<hq_flags>() == 6 && align_of::<hq_flags>() == 2);

#[link(name = "huqmeris", kind = "static")]
unsafe extern "C" {
    /// Assembles items into the front of some bytes, all of them or nothing: instructions, positions of labels, and jumps to them;
    /// behind them data, which instructions refer to as constants or labels. The first item that is data begins it: behind that no
    /// instruction and no jump may stand.
    ///
    /// A label's number is below that of all items. Each jump has the shortest form in which all of them reach: no choice of forms
    /// has fewer bytes. A jump to a label behind data has its long form. An instruction may refer to a label too. `uses` gets the
    /// traps of the instructions, in their order, each at the position of its instruction. No late offset is known.
    ///
    /// At `HQ_OK` `done` has how many items, bytes and traps there are, at `HQ_FULL` how many there would be. At another status
    /// `bytes` and `uses` are 0, and `items` is the number of the item that is refused, from 0: the first that is none, or else the
    /// first that has a fault or whose label or constant can't be bound, or else, at `HQ_UNBOUND`, the first that refers to what has no
    /// position. At `HQ_TOO_MANY`, `HQ_OUT_OF_RANGE` and `HQ_NO_MEMORY` none is named, and `items` is 0.
    ///
    /// It asks for memory, and has given all of it back when it answers.
    pub unsafe fn hq_assemble(items: *const hq_item, items_len: usize, code: *mut u8, code_len: usize, uses: *mut hq_use, uses_len: usize, done: *mut hq_done) -> i32;
    /// Why an instruction can't be encoded by `hq_encode`, which knows no late offsets: the first register that isn't below 16, or
    /// an index that is the stack pointer, or else a late offset. 0 where it can.
    pub unsafe fn hq_check(inst: *const hq_inst) -> i32;
    /// Reads the instruction at the front of some bytes, of which all lines of the core are known; what follows it is not read.
    /// `HQ_NONE` where no line reads what stands there.
    pub unsafe fn hq_decode(bytes: *const u8, bytes_len: usize, out: *mut hq_reading) -> i32;
    /// Reads instructions one behind the other from the front of some bytes, into as many slots as there are or until no line of the
    /// core reads what stands there, and says how many were read and how many bytes they have. The other slots are as before.
    pub unsafe fn hq_decode_all(bytes: *const u8, bytes_len: usize, out: *mut hq_reading, out_len: usize, count: *mut usize, end: *mut usize) -> i32;
    /// Encodes an instruction into the front of some bytes, and says how many it has, 1 to 13, and what it tells beside them.
    /// `HQ_FULL` where they are too few. No late offset is known.
    pub unsafe fn hq_encode(inst: *const hq_inst, code: *mut u8, code_len: usize, len: *mut u32, told: *mut hq_use) -> i32;
    /// Encodes instructions one behind the other into the front of some bytes, and says how many they have, and what they tell
    /// beside them: all of them, or none.
    ///
    /// A use's `at` counts from the beginning of `code`. At `HQ_OK` `done` has how many instructions, bytes and uses were put, at
    /// `HQ_FULL` how many there would be. Where an instruction is refused, `items` is its number, from 0, and the rest of `done` is
    /// of those before it; the status is that of `hq_check`. `HQ_TOO_MANY` above 165,191,049 instructions, and `done` is all 0. No late
    /// offset is known.
    pub unsafe fn hq_encode_all(insts: *const hq_inst, insts_len: usize, code: *mut u8, code_len: usize, uses: *mut hq_use, uses_len: usize, done: *mut hq_done) -> i32;
    /// Puts the name of the extension that a line asks for at the front of some bytes, as `hq_format` does with a text, but without
    /// memory: `sse`, `sse2`, `bmi1`, `bmi2`, `lzcnt`, `popcnt`, `avx` or `cmpxchg16b`, or nothing. `HQ_BAD_LINE` where no line has
    /// the number.
    pub unsafe fn hq_extension(line: u16, text: *mut u8, text_len: usize, len: *mut usize) -> i32;
    /// Puts the text of an instruction in AT&T's form at the front of some bytes, without a zero behind it, and says how many bytes
    /// it has. `HQ_FULL` where they are too few: `len` is how many are needed, and the bytes are as before. `HQ_NO_NAME` where a
    /// register isn't below 16.
    ///
    /// It asks for memory, and has given all of it back when it answers.
    pub unsafe fn hq_format(inst: *const hq_inst, text: *mut u8, text_len: usize, len: *mut usize) -> i32;
    /// The instruction that is read as this, where the reading has an operand for each that its line takes and no other, and an
    /// immediate in its range. It has no trap code and no late offset, and can be encoded.
    ///
    /// `HQ_NO_INST` where there is none, as of a high byte, of a place relative to the end and of memory without a base;
    /// `HQ_BAD_READING` where the integers are no reading. The length isn't looked at.
    pub unsafe fn hq_inst_of_reading(reading: *const hq_reading, out: *mut hq_inst) -> i32;
    /// Whether what stands in this archive was proved: 1 where it was, 0 where it was only compiled.
    pub safe fn hq_is_proved() -> u32;
    /// The number of bytes that `hq_encode` writes, 1 to 13.
    pub unsafe fn hq_length(inst: *const hq_inst, len: *mut u32) -> i32;
    /// The flags that a line reads, writes and leaves undefined. `HQ_BAD_LINE` where no line has the number.
    pub unsafe fn hq_line_flags(line: u16, flags: *mut hq_flags) -> i32;
    /// The operand of this index of a line, counted from 0: first those of its bytes and those that it fixes, in the manual's order,
    /// and then the registers and memory that it uses beside them, as a push does with the stack. `HQ_NONE` where there are no more,
    /// `HQ_BAD_LINE` where no line has the number.
    ///
    /// Base and index of memory are read too. A write of 8 or 16 bits leaves the others of a register, and one of 32 bits makes the
    /// upper half 0.
    pub unsafe fn hq_line_operand(line: u16, index: usize, operand: *mut hq_operand) -> i32;
    /// Makes the instruction of a line with these operands, where they are those that it takes: a register in reg and in vvvv
    /// where one stands there, a register or memory in the rest of the tail, an immediate in the line's range. Registers aren't
    /// tested.
    ///
    /// A register from 256 on (`HQ_NO_REG`) means that none is given, and so does the least immediate (`HQ_NO_IMM`).
    /// `HQ_BAD_LINE` where no line has the number, `HQ_BAD_PLACE` where the place is none, `HQ_BAD_OPERANDS` where the line takes
    /// others.
    pub unsafe fn hq_make(line: u16, reg: u16, vvvv: u16, place: *const hq_place, imm: i64, out: *mut hq_inst) -> i32;
    /// Puts the mnemonic of an instruction at the front of some bytes, as `hq_format` does with its text, but without memory.
    pub unsafe fn hq_mnemonic(inst: *const hq_inst, text: *mut u8, text_len: usize, len: *mut usize) -> i32;
    /// The operands of an instruction, of which `hq_make` makes it again: `HQ_NO_REG` and `HQ_NO_IMM` for those that its line lacks.
    pub unsafe fn hq_operands(inst: *const hq_inst, reg: *mut u16, vvvv: *mut u16, place: *mut hq_place, imm: *mut i64) -> i32;
    /// What a relative field is to hold: what is stored in it, and the distance from the field's end to the target. `place` is the
    /// position of the field's first byte. `HQ_OUT_OF_RANGE` where that isn't of 32 bits.
    pub unsafe fn hq_patched(place: u64, target: u64, stored: i32, field: *mut i32) -> i32;
    /// Puts others in the place of all registers of an instruction, each by its number in this table. All else stays.
    pub unsafe fn hq_rename(inst: *mut hq_inst, homes: *const [u8; 256]) -> i32;
    /// The version of the header that fits this library.
    pub safe fn hq_version() -> u32;
}
