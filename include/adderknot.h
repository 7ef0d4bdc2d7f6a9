/*
 * adderknot.h: the C interface of Adderknot.
 *
 * Adderknot is the L0 side of nested virtualization on POWER (the H_GUEST_* calls of PAPR), made for a test bench. It
 * keeps nested guests and their vCPUs in one block of bytes that the caller lends, the store, and answers each call as
 * the interface says. It runs no guest code and follows no address. All that it knows is in the store: an answer
 * depends on the lent bytes and the numbers alone, and a store may be copied, saved and lent again at any address.
 *
 * THE RULES FOR ALL FUNCTIONS
 *
 * - A piece of memory is lent as a pointer and a length in bytes. The pointer is valid for that many bytes and is not
 *   null, even where the length is 0. Pieces lent to one call do not overlap. A piece is lent only for the call.
 *   Summary records are lent as an array and their number.
 * - Every other input is allowed. Numbers are compared in all 64 bits: guest 2^32 + 1 is not guest 1.
 * - A call either succeeds (r3 is 0) or is refused (r3 tells why). A refusal changes no lent byte, but that adk_tally
 *   counts some in a summary record. A call never changes what is lent through a pointer to const.
 * - Where several refusals apply, the first one in the order that the function's comment gives is the answer.
 * - Bits are numbered as in Power: bit 0 is the most significant of 64. ADK_BIT(n) is bit n.
 * - A call takes 512 bytes of stack at most, and adk_tally 640, return addresses included, beside what the caller pushes
 *   as arguments.
 */
#ifndef ADDERKNOT_H
#define ADDERKNOT_H

#include <stddef.h>
#include <stdint.h>

#ifdef __cplusplus
extern "C" {
#endif

/* The version of the library, as pkg-config tells it. */
#define ADK_VERSION "0.1"

/* Bit n of 64, bit 0 the most significant. */
#define ADK_BIT(n) (UINT64_C(1) << (63 - (n)))

/*
 * THE STORE
 *
 * There are two sizes, told apart by length. Every call takes both, and any other length is ADK_BAD_STORE:
 *
 *                bytes                             guests                        slots of vCPUs
 *     small      29,580   ADK_STORE_SIZE           1 to 8    ADK_GUESTS          16   ADK_SLOTS
 *     large     119,924   ADK_LARGE_STORE_SIZE     1 to 63   ADK_LARGE_GUESTS    64   ADK_LARGE_SLOTS
 *
 * Slots are numbered from 0. Fields are packed most significant first: numbers have their most significant byte first,
 * and the first of several bits is the most significant of the first byte.
 *
 *     the small store
 *     from        bytes          holds
 *     byte 0      8              the agreed capabilities
 *     byte 8      1              the live guests: 8 bits, guest 1 first
 *     byte 9      1              zero
 *     byte 10     16 * 2         the slot words, 16 bits each: used (1 bit), guest (4 bits), vCPU (11 bits); that of
 *                                guest 3, vCPU 2047 is 0x9FFF
 *     byte 42     2              the taken marks: 16 bits, slot 0 first
 *     byte 44     8 * 52         the values of each guest
 *     byte 460    16 * 1,820     the values of the vCPU in each slot
 *
 *     the large store
 *     from        bytes          holds
 *     byte 0      8              the agreed capabilities
 *     byte 8      8              the live guests: 63 bits, guest 1 first; the last bit is zero
 *     byte 16     8              the taken marks: 64 bits, slot 0 first
 *     byte 24     144            the slot words, 64 of 18 bits without gaps: used (1 bit), guest (6 bits), vCPU (11
 *                                bits); that of guest 3, vCPU 2047 is 0x21FFF. Word i begins at bit 18 * i of them
 *     byte 168    63 * 52        the values of each guest
 *     byte 3,444  64 * 1,820     the values of the vCPU in each slot
 *
 * A taken mark tells whether L1 has the state of the vCPU in the slot. The values of a guest are its logical PVR
 * (element 0x0003) at 0, TB offset (0x0004) at 4, partition table (0x0005) at 12 and process table (0x0006) at 36;
 * those of a vCPU stand in order of element ID without gaps.
 *
 * A store is well formed if its length is one of the two, byte 9 of a small one or the last live bit of a large one is
 * zero, no capability but bits 1 and 2 is agreed, each used word names a live guest, no two used words name the same
 * guest and vCPU, unused words are zero, and no unused slot has a taken mark. Value bytes may be anything, those of a
 * taken vCPU too. adk_fresh_store makes a store of any bytes, and adk_convert a large one of a small one; every other
 * call that is lent a store keeps a well-formed one well formed and answers ADK_BAD_STORE for one that is not.
 */
#define ADK_STORE_SIZE 29580
#define ADK_GUESTS 8
#define ADK_SLOTS 16

#define ADK_LARGE_STORE_SIZE 119924
#define ADK_LARGE_GUESTS 63
#define ADK_LARGE_SLOTS 64

/* The greatest vCPU id. */
#define ADK_VCPU_MAX 2047

/* The capabilities that are offered: guests as on POWER9 and as on POWER10. */
#define ADK_CAP_POWER9 ADK_BIT(1)
#define ADK_CAP_POWER10 ADK_BIT(2)

/* The continue token of adk_create_guest: all ones. */
#define ADK_TOKEN UINT64_MAX

/* Flag of adk_get_state and adk_set_state: state of the guest instead of one vCPU. */
#define ADK_GUEST_WIDE ADK_BIT(0)

/* Flag of adk_get_state: take the whole state of a vCPU; of adk_set_state: give it back. Not with ADK_GUEST_WIDE. */
#define ADK_HAND_OVER ADK_BIT(1)

/* Flags of adk_run_vcpu: interrupts that L0 is to generate in the vCPU. They are supported and change nothing here. */
#define ADK_RUN_EXTERNAL_INTERRUPT ADK_BIT(0)
#define ADK_RUN_PRIVILEGED_DOORBELL ADK_BIT(1)
#define ADK_RUN_SYSTEM_RESET ADK_BIT(2)

/* Flag of adk_delete_guest: delete all guests. */
#define ADK_DELETE_ALL ADK_BIT(0)

/*
 * THE GUEST STATE BUFFER
 *
 * State travels in a guest state buffer of ADK_BUFFER_MIN to ADK_BUFFER_MAX bytes. All numbers in it, the values too,
 * have their most significant byte first:
 *
 *     byte 0     4 bytes    the count: how many elements there are
 *     byte 4                the elements, one behind the other without gaps. Each is
 *                               2 bytes    the ID
 *                               2 bytes    the size of the value in bytes
 *                               size       the value
 *
 * Bytes after the last counted element are ignored. The count is not trusted: every counted element must lie within
 * the buffer, and one that does not is ADK_INVALID_ELEMENT_SIZE. IDs may come in any order and more than once.
 *
 * Get state, set state and run judge the elements in turn, up to the first bad one. The answer is then, in this order,
 *
 *     ADK_INVALID_ELEMENT_SIZE     if the four bytes of ID and size do not fit into the buffer
 *     ADK_INVALID_ELEMENT_ID       if the ID is not listed below, has the other scope, its access excludes the call, or
 *                                  it is one that the guest, a POWER9 one, lacks
 *     ADK_INVALID_ELEMENT_SIZE     if the size is not the listed one, or the value runs past the end of the buffer
 *     ADK_INVALID_ELEMENT_VALUE    in set state, if the value breaks the rule of its element
 *
 * and the place of that element is told: r4 is its index, from 0, and r5 the byte offset of its first byte, counted from
 * the buffer's. In the input of a run it is the other way round: r4 is the offset, r5 the index. In the effect of a run
 * the answer is ADK_BAD_EFFECT for each of these, with the offset in r4 and the index in r5.
 *
 * THE ELEMENTS
 *
 * Scope: guest-wide elements go with ADK_GUEST_WIDE, thread elements without it and in a run. Access: R can be read
 * with get state, W written with set state. The input of a run takes what set state takes, but not 0x0C00 and 0x0C01.
 * The effect of a run takes every thread element, whatever its access, but not 0x0C00 to 0x0C02. Numbers in brackets
 * are the bytes of each part. Where no rule is told every value is good. Addresses are kept and never followed. The
 * values of a new guest or vCPU are 0.
 *
 * POWER9: whether a POWER9 guest has the element. That is a guest whose logical PVR (0x0003) is ADK_PVR_ARCH_300 at the
 * start of the call; to one with any other number, 0 too, the whole list is offered. A POWER9 guest lacks the nine
 * registers that came later, marked "not POWER9" below: in thread get state, thread set state, and the input and the
 * effect of a run, their IDs are refused as unlisted ones are, whatever their size. What its vCPUs hold for the nine
 * stays where it is and is handed over with them; with another PVR it is read again.
 *
 *     ID               Size  Access  POWER9  Value
 *     0x0000           any   RW      yes     NOP, in both scopes: its value bytes are neither read nor written
 *
 *                                            Guest-wide
 *     0x0001           8     R       yes     size of L0's vCPU state, as it is handed over: always 1,844, ADK_FORM_MAX
 *     0x0002           8     R       yes     least size of a run vCPU output buffer: always 124
 *     0x0003           4     RW      yes     logical PVR. Rule: ADK_PVR_ARCH_300, if ADK_CAP_POWER9 is agreed at the
 *                                            call, or ADK_PVR_ARCH_31, if ADK_CAP_POWER10 is
 *     0x0004           8     RW      yes     TB offset, relative to L1's timebase. It is kept as set; the clock rounds
 *                                            it up
 *     0x0005           24    RW      yes     partition-scoped page table: address (8), number of address bits (8), size
 *                                            of the root directory (8)
 *     0x0006           16    RW      yes     process table: address (8), size (8)
 *
 *                                            Thread
 *     0x0C00           16    RW      yes     run vCPU input buffer: address (8), size (8). Rule: the size is 4 to
 *                                            65,536
 *     0x0C01           16    RW      yes     run vCPU output buffer: address (8), size (8). Rule: the size is 124 to
 *                                            65,536
 *     0x0C02           8     RW      yes     address of the VPA
 *     0x1000-0x1053    8     RW      part    GPR 0 to 31 and the registers of 64 bits named below; but 0x103A, PPR, is
 *                                            W. POWER9 lacks 0x1031, 0x103E, 0x1041, 0x1042 and 0x104E to 0x1051
 *     0x2000-0x200E    4     RW      part    the registers of 32 bits named below. POWER9 lacks 0x2006
 *     0x3000-0x303F    16    RW      yes     VSR 0 to 63
 *     0xF000           8     R       yes     HDAR
 *     0xF001           4     R       yes     HDSISR
 *     0xF002           4     R       yes     HEIR; Linux's L1 code gives it 8 bytes, which is
 *                                            ADK_INVALID_ELEMENT_SIZE here
 *     0xF003           8     R       yes     ASDR
 *
 * The names below follow Linux's guest-state-buffer.h.
 */
#define ADK_BUFFER_MIN 4
#define ADK_BUFFER_MAX 65536

/* The least size of a run vCPU output buffer. */
#define ADK_RUN_OUTPUT_MIN 124

/* Logical PVRs: Power ISA 3.0 (POWER9) and 3.1 (POWER10). */
#define ADK_PVR_ARCH_300 0x0F000005
#define ADK_PVR_ARCH_31 0x0F000006

/* IDs of numbered registers, by the number in the register's name. */
#define ADK_GSID_GPR(n) (0x1000 + (n))  /* 0 to 31 */
#define ADK_GSID_SPRG(n) (0x1036 + (n)) /* 0 to 3 */
#define ADK_GSID_MMCR(n) (0x103B + (n)) /* 0 to 3; 3 is not POWER9 */
#define ADK_GSID_PMC(n) (0x2006 + (n))  /* 1 to 6: 0x2007 to 0x200C */
#define ADK_GSID_VSR(n) (0x3000 + (n))  /* 0 to 63 */

enum {
    ADK_GSID_NOP = 0x0000,

    ADK_GSID_HOST_STATE_SIZE = 0x0001,
    ADK_GSID_RUN_OUTPUT_MIN_SIZE = 0x0002,
    ADK_GSID_LOGICAL_PVR = 0x0003,
    ADK_GSID_TB_OFFSET = 0x0004,
    ADK_GSID_PARTITION_TABLE = 0x0005,
    ADK_GSID_PROCESS_TABLE = 0x0006,

    ADK_GSID_RUN_INPUT = 0x0C00,
    ADK_GSID_RUN_OUTPUT = 0x0C01,
    ADK_GSID_VPA = 0x0C02,

    ADK_GSID_HDEC_EXPIRY_TB = 0x1020,
    ADK_GSID_NIA = 0x1021,
    ADK_GSID_MSR = 0x1022,
    ADK_GSID_LR = 0x1023,
    ADK_GSID_XER = 0x1024,
    ADK_GSID_CTR = 0x1025,
    ADK_GSID_CFAR = 0x1026,
    ADK_GSID_SRR0 = 0x1027,
    ADK_GSID_SRR1 = 0x1028,
    ADK_GSID_DAR = 0x1029,
    ADK_GSID_DEC_EXPIRY_TB = 0x102A,
    ADK_GSID_VTB = 0x102B,
    ADK_GSID_LPCR = 0x102C,
    ADK_GSID_HFSCR = 0x102D,
    ADK_GSID_FSCR = 0x102E,
    ADK_GSID_FPSCR = 0x102F,
    ADK_GSID_DAWR0 = 0x1030,
    ADK_GSID_DAWR1 = 0x1031, /* not POWER9 */
    ADK_GSID_CIABR = 0x1032,
    ADK_GSID_PURR = 0x1033,
    ADK_GSID_SPURR = 0x1034,
    ADK_GSID_IC = 0x1035,
    ADK_GSID_PPR = 0x103A,
    ADK_GSID_MMCRA = 0x103F,
    ADK_GSID_SIER = 0x1040,
    ADK_GSID_SIER2 = 0x1041, /* not POWER9 */
    ADK_GSID_SIER3 = 0x1042, /* not POWER9 */
    ADK_GSID_BESCR = 0x1043,
    ADK_GSID_EBBHR = 0x1044,
    ADK_GSID_EBBRR = 0x1045,
    ADK_GSID_AMR = 0x1046,
    ADK_GSID_IAMR = 0x1047,
    ADK_GSID_AMOR = 0x1048,
    ADK_GSID_UAMOR = 0x1049,
    ADK_GSID_SDAR = 0x104A,
    ADK_GSID_SIAR = 0x104B,
    ADK_GSID_DSCR = 0x104C,
    ADK_GSID_TAR = 0x104D,
    ADK_GSID_DEXCR = 0x104E,     /* not POWER9 */
    ADK_GSID_HDEXCR = 0x104F,    /* not POWER9 */
    ADK_GSID_HASHKEYR = 0x1050,  /* not POWER9 */
    ADK_GSID_HASHPKEYR = 0x1051, /* not POWER9 */
    ADK_GSID_CTRL = 0x1052,
    ADK_GSID_DPDES = 0x1053,

    ADK_GSID_CR = 0x2000,
    ADK_GSID_PIDR = 0x2001,
    ADK_GSID_DSISR = 0x2002,
    ADK_GSID_VSCR = 0x2003,
    ADK_GSID_VRSAVE = 0x2004,
    ADK_GSID_DAWRX0 = 0x2005,
    ADK_GSID_DAWRX1 = 0x2006, /* not POWER9 */
    ADK_GSID_WORT = 0x200D,
    ADK_GSID_PSPB = 0x200E,

    ADK_GSID_HDAR = 0xF000,
    ADK_GSID_HDSISR = 0xF001,
    ADK_GSID_HEIR = 0xF002,
    ADK_GSID_ASDR = 0xF003
};

/* Exit reasons of a run. adk_run_vcpu tells the output of each. */
enum {
    ADK_EXIT_UNSPECIFIED = 0x000,
    ADK_EXIT_HDEC = 0x980,
    ADK_EXIT_HCALL = 0xC00,
    ADK_EXIT_HDSI = 0xE00,
    ADK_EXIT_HISI = 0xE20,
    ADK_EXIT_HEA = 0xE40,
    ADK_EXIT_HV_FAC_UNAVAIL = 0xF80
};

/*
 * A vCPU HANDED OVER
 *
 * L1 may take the whole state of an idle vCPU, with adk_get_state and ADK_HAND_OVER, and give it back later, with
 * adk_set_state and ADK_HAND_OVER. In between the vCPU is taken: it exists and keeps its slot, its values here are
 * zero, and get state, set state and run of it are ADK_WRONG_OWNER. Guest-wide calls, the clock and the capabilities
 * are as ever, creating it again is ADK_VCPU_EXISTS, and deleting its guest drops it.
 *
 * The state travels in a form of ADK_FORM_MIN to ADK_FORM_MAX bytes, which is no guest state buffer. It is bits, packed
 * most significant first:
 *
 *     4 bits      the version, 1
 *     11 bits     the vCPU id
 *     1 bit       zero
 *     170 bits    for each thread element, in order of ID, whether its value is present: exactly if it is not all zero
 *     6 bits      zero
 *                 from byte 24 on the present values, in order of ID without gaps
 *
 * Each state has one form. It holds what the vCPU held, whatever the access of an element: PPR and 0xF000 to 0xF003
 * too, and sizes of run buffers that break their rule. It does not name the guest: a vCPU with the same id of another
 * guest, if taken, may be given it.
 */
#define ADK_FORM_MIN 24
#define ADK_FORM_MAX 1844

/*
 * CALL RECORDS
 *
 * A call can be written down as a record, and made by its number: adk_write_record and adk_call. Records follow each
 * other without gaps; so they are a night that can be made again, from a fresh store, without the bench that made it. A
 * record is bits, packed most significant first:
 *
 *     4 bits      the kind, 1 to 8: which call it is
 *     64 bits     the flags
 *     64 bits     the guest
 *     64 bits     the number: the vCPU, the token of create guest, the bitmap of set capabilities
 *     12 bits     the exit reason
 *     17 bits     the length of the data in bytes
 *     17 bits     the length of the effect in bytes
 *     6 bits      zero
 *                 from byte 31 on the data, behind it the effect
 *
 * The data is the buffer of get and set state, and the input of a run. Of a get state it is what was lent. What a call
 * has no use for may be anything and is ignored. An output is not recorded: it is lent as registered, with as many
 * bytes as the size in element 0x0C01 says where that meets its rule, and with none where it does not.
 */
enum {
    ADK_KIND_GET_CAPABILITIES = 1,
    ADK_KIND_SET_CAPABILITIES = 2,
    ADK_KIND_CREATE_GUEST = 3,
    ADK_KIND_CREATE_VCPU = 4,
    ADK_KIND_GET_STATE = 5,
    ADK_KIND_SET_STATE = 6,
    ADK_KIND_RUN_VCPU = 7,
    ADK_KIND_DELETE_GUEST = 8
};

/* The bytes before the data; the most that data and effect can have, each; and the most that a record can have. */
#define ADK_RECORD_HEAD 31
#define ADK_RECORD_PIECE_MAX 131071
#define ADK_LONGEST_RECORD 262173

/* The greatest exit reason that a record holds; those of a run are all below. */
#define ADK_RECORD_EXIT_MAX 4095

/*
 * THE TALLY
 *
 * Which vCPUs a night really touched is told by summary records, one for each slot, lent together: ADK_SLOTS of them
 * beside a small store, ADK_LARGE_SLOTS beside a large one. adk_tally makes a call by its number and keeps them; the
 * calls themselves don't read them.
 *
 *     runs            the accepted runs
 *     elements        the elements set by set state or a run's input, each time: those that an accepted buffer counts,
 *                     without NOPs. A run's effect and the giving back of a taken vCPU set none
 *     refusals        the get states, set states and runs that were answered ADK_INVALID_ELEMENT_ID,
 *                     ADK_INVALID_ELEMENT_SIZE or ADK_INVALID_ELEMENT_VALUE
 *     exit_reason     that of the last accepted run, ADK_NO_EXIT before any
 *
 * Only calls on the vCPU in the slot count in its record; guest-wide calls never count. A counter at 2^32 - 1 stays
 * there. Creating or dropping a vCPU makes its record that of a new one, ADK_NEW_SUMMARY.
 *
 * To begin, make a fresh store and every record a new one's, so again after each fresh store. From then on, as long as
 * nothing but adk_tally writes the store or the records, each record tells what the calls since the creation of its
 * vCPU come to, and that of an unused slot is a new one's. adk_convert leaves each vCPU in its slot: the large store
 * goes on with the records of the small one, and new ones behind them.
 */
typedef struct {
    uint32_t runs, elements, refusals, exit_reason;
} adk_summary;

/* In place of an exit reason: there was no accepted run. */
#define ADK_NO_EXIT 4095

/* The record of a new vCPU, as an initializer. */
#define ADK_NEW_SUMMARY { 0, 0, 0, ADK_NO_EXIT }

/*
 * THE ANSWERS
 *
 * An answer is three numbers, the registers R3, R4 and R5 after the hypercall. r4 and r5 are 0 where nothing is said.
 *
 *     r3                          Given when
 *  0  ADK_OK                      success. r4: get capabilities, the offered bitmap; create guest, the guest's
 *                                 number; run, the exit reason; clock, the time; join, the joined length; writing a
 *                                 record, its length
 *  1  ADK_BAD_STORE               the store is not well formed; conversion: the source is not a well-formed small one
 *  2  ADK_BAD_FLAG                a flag bit is set that the call does not support. r4: the lowest-numbered such bit
 *  3  ADK_BAD_PARAMETER           the guest is not live; create guest: the token is not ADK_TOKEN; set capabilities:
 *                                 a bit that is not offered. r4: set capabilities, 1
 *  4  ADK_BAD_VCPU                the vCPU id is above ADK_VCPU_MAX, or (not when creating) the vCPU is absent
 *  5  ADK_BAD_LENGTH              the buffer has under ADK_BUFFER_MIN or over ADK_BUFFER_MAX bytes; never in a run.
 *                                 Taking a vCPU: under ADK_FORM_MAX; giving it back: under ADK_FORM_MIN. Conversion:
 *                                 the target has other than ADK_LARGE_STORE_SIZE bytes. Join: also if the joined buffer would
 *                                 have over ADK_BUFFER_MAX bytes
 *  6  ADK_INVALID_ELEMENT_ID      get and set state, run input: an element's ID is not listed, of the wrong scope, not
 *                                 permitted in the call, or not offered to a POWER9 guest. r4: its index, from 0; r5:
 *                                 its byte offset; in a run input r4 is the offset and r5 the index. Judging an output:
 *                                 its ID is none of the exit's, or comes again; r4 the index, r5 the offset. Lookup: no
 *                                 counted element has the ID. r4: the count
 *  7  ADK_INVALID_ELEMENT_SIZE    an element is cut off by the buffer's end; get and set state, run input, judging an
 *                                 output: or its size is not the listed one. r4 and r5 as with 6; lookup and join: r4
 *                                 the index, r5 the offset
 *  8  ADK_INVALID_ELEMENT_VALUE   set state: an element's value breaks its rule; judging an output: it is not the
 *                                 vCPU's. r4 and r5 as with 6
 *  9  ADK_NOT_ENOUGH_RESOURCES    no free guest number, or no free slot
 * 10  ADK_VCPU_EXISTS             the vCPU already exists
 * 11  ADK_NOT_REGISTERED          run: a run buffer is not registered. r4: 0 input, 1 output
 * 12  ADK_LENT_TOO_SHORT          run: a lent run buffer is shorter than registered. r4: 0 input, 1 output. Join: the
 *                                 result is too short; writing a record: the bytes are. r4: 1
 * 13  ADK_UNKNOWN_EXIT            run, judging an output: unknown exit reason
 * 14  ADK_BAD_EFFECT              run: the effect has under ADK_BUFFER_MIN or over ADK_BUFFER_MAX bytes, or a bad
 *                                 element. r4: the byte offset of its first bad element; r5: that one's index; both 0
 *                                 if its length is bad
 * 16  ADK_WRONG_OWNER             get state, set state and run of a vCPU, judging an output of it: it is taken; giving
 *                                 back: it is not
 * 17  ADK_BAD_FORM                giving back: the buffer does not begin with a form of this vCPU
 * 18  ADK_WRONG_RECORD_COUNT      tally: other than ADK_SLOTS summary records are lent, or, with a store of
 *                                 ADK_LARGE_STORE_SIZE bytes, other than ADK_LARGE_SLOTS
 * 19  ADK_BAD_RECORD              a call by its number: the kind is none of the eight. Writing a record: no record
 *                                 holds what is given
 * 20  ADK_MISSING_ELEMENT         judging an output: an element of the exit is not in it. r4: the smallest missing ID
 * 21  ADK_CAPABILITIES_IN_USE     set capabilities: a guest is live, and the bitmap is not the agreed one
 *
 * 15 is a fault of the L1 cache, which C cannot call.
 */
enum {
    ADK_OK = 0,
    ADK_BAD_STORE = 1,
    ADK_BAD_FLAG = 2,
    ADK_BAD_PARAMETER = 3,
    ADK_BAD_VCPU = 4,
    ADK_BAD_LENGTH = 5,
    ADK_INVALID_ELEMENT_ID = 6,
    ADK_INVALID_ELEMENT_SIZE = 7,
    ADK_INVALID_ELEMENT_VALUE = 8,
    ADK_NOT_ENOUGH_RESOURCES = 9,
    ADK_VCPU_EXISTS = 10,
    ADK_NOT_REGISTERED = 11,
    ADK_LENT_TOO_SHORT = 12,
    ADK_UNKNOWN_EXIT = 13,
    ADK_BAD_EFFECT = 14,
    ADK_WRONG_OWNER = 16,
    ADK_BAD_FORM = 17,
    ADK_WRONG_RECORD_COUNT = 18,
    ADK_BAD_RECORD = 19,
    ADK_MISSING_ELEMENT = 20,
    ADK_CAPABILITIES_IN_USE = 21
};

typedef struct {
    uint64_t r3, r4, r5;
} adk_answer;

/* The answer of a lookup. The value is the len bytes from byte at of the caller's buffer; both are 0 in a refusal. */
typedef struct {
    uint64_t r3, r4, r5, at, len;
} adk_found;

/*
 * THE CALLS
 *
 * store, store_len: the store, a small or a large one. flags: the flag bits, of which the call supports none unless its
 * comment names some. guest: a guest number, as adk_create_guest gave it. vcpu: a vCPU id, chosen by the caller.
 */

/*
 * Makes a fresh store, small or large by its length: all bytes zero, no capability agreed, no guest. The bytes may be
 * anything before.
 *
 * Answers: ADK_BAD_STORE (store_len is neither ADK_STORE_SIZE nor ADK_LARGE_STORE_SIZE), ADK_OK.
 */
adk_answer adk_fresh_store(uint8_t *store, size_t store_len);

/*
 * H_GUEST_GET_CAPABILITIES. Tells the offered capabilities, ADK_CAP_POWER9 | ADK_CAP_POWER10, whatever is agreed.
 *
 * Answers: ADK_BAD_STORE, ADK_BAD_FLAG, ADK_OK (r4: the offered bitmap).
 */
adk_answer adk_get_capabilities(const uint8_t *store, size_t store_len, uint64_t flags);

/*
 * H_GUEST_SET_CAPABILITIES. Agrees on the capabilities in bitmap, in place of those agreed before. The bitmap may be 0.
 * While a guest is live what is agreed stays, so that no guest is left with a logical PVR that is no longer agreed.
 * Then only the agreed bitmap is accepted, and changes nothing.
 *
 * Answers: ADK_BAD_STORE, ADK_BAD_FLAG, ADK_BAD_PARAMETER (r4 1, r5 0: a bit that is not offered),
 * ADK_CAPABILITIES_IN_USE (a guest is live, and bitmap is not the agreed one), ADK_OK.
 */
adk_answer adk_set_capabilities(uint8_t *store, size_t store_len, uint64_t flags, uint64_t bitmap);

/*
 * H_GUEST_CREATE. Creates a guest under the lowest free number, from 1 to ADK_GUESTS in a small store and to
 * ADK_LARGE_GUESTS in a large one. Its values are zero, and it has no vCPU. token is ADK_TOKEN.
 *
 * Answers: ADK_BAD_STORE, ADK_BAD_FLAG, ADK_BAD_PARAMETER (another token), ADK_NOT_ENOUGH_RESOURCES, ADK_OK (r4: the
 * guest's number).
 */
adk_answer adk_create_guest(uint8_t *store, size_t store_len, uint64_t flags, uint64_t token);

/*
 * H_GUEST_CREATE_VCPU. Creates a vCPU of a live guest in the first free slot. Its values are zero, and it is not taken.
 *
 * Answers: ADK_BAD_STORE, ADK_BAD_FLAG, ADK_BAD_PARAMETER (the guest is not live), ADK_BAD_VCPU (above ADK_VCPU_MAX),
 * ADK_VCPU_EXISTS, ADK_NOT_ENOUGH_RESOURCES, ADK_OK.
 */
adk_answer adk_create_vcpu(uint8_t *store, size_t store_len, uint64_t flags, uint64_t guest, uint64_t vcpu);

/*
 * H_GUEST_GET_STATE. Reads elements of a vCPU or, with ADK_GUEST_WIDE, of a guest: vcpu is then ignored. The caller
 * writes the count and each element's ID and size; the call fills in the value bytes of each, also where an ID comes
 * more than once, and writes nothing else of the buffer. The store stays.
 *
 * Answers: ADK_BAD_STORE, ADK_BAD_FLAG (a bit other than ADK_GUEST_WIDE), ADK_BAD_PARAMETER (the guest is not live),
 * ADK_BAD_VCPU, ADK_WRONG_OWNER (the vCPU is taken; neither of these with ADK_GUEST_WIDE), ADK_BAD_LENGTH, then of the
 * first bad element ADK_INVALID_ELEMENT_ID or ADK_INVALID_ELEMENT_SIZE (r4: its index, from 0; r5: its byte offset),
 * ADK_OK.
 *
 * With ADK_HAND_OVER it takes the vCPU. The buffer is not read: its first bytes become the form of the vCPU, and the
 * rest of it stays. The vCPU's values are zeroed, and it is taken. It is the only get state that writes the store.
 *
 * Answers: ADK_BAD_STORE, ADK_BAD_FLAG (a bit other than ADK_HAND_OVER; with ADK_GUEST_WIDE it is ADK_HAND_OVER itself,
 * r4 1), ADK_BAD_PARAMETER, ADK_BAD_VCPU, ADK_WRONG_OWNER (the vCPU is taken already), ADK_BAD_LENGTH (under
 * ADK_FORM_MAX, whatever the form would need, or over ADK_BUFFER_MAX), ADK_OK.
 */
adk_answer adk_get_state(uint8_t *store, size_t store_len, uint64_t flags, uint64_t guest, uint64_t vcpu,
                         uint8_t *buffer, size_t buffer_len);

/*
 * H_GUEST_SET_STATE. Writes elements of a vCPU or, with ADK_GUEST_WIDE, of a guest: vcpu is then ignored. The whole
 * buffer is judged before anything is set. Elements are set in order, so of two with one ID the later counts; those
 * that the buffer does not name stay.
 *
 * Answers: ADK_BAD_STORE, ADK_BAD_FLAG (a bit other than ADK_GUEST_WIDE), ADK_BAD_PARAMETER (the guest is not live),
 * ADK_BAD_VCPU, ADK_WRONG_OWNER (the vCPU is taken; neither of these with ADK_GUEST_WIDE), ADK_BAD_LENGTH, then of the
 * first bad element ADK_INVALID_ELEMENT_ID, ADK_INVALID_ELEMENT_SIZE or ADK_INVALID_ELEMENT_VALUE (r4: its index, from
 * 0; r5: its byte offset), ADK_OK.
 *
 * With ADK_HAND_OVER it gives back a taken vCPU. The buffer begins with a form of it, mostly the one that was taken;
 * bytes behind the form are ignored. The vCPU's values become those of the form, all others zero, and it is no longer
 * taken.
 *
 * Answers: ADK_BAD_STORE, ADK_BAD_FLAG (as in taking), ADK_BAD_PARAMETER, ADK_BAD_VCPU, ADK_WRONG_OWNER (the vCPU is
 * not taken), ADK_BAD_LENGTH (under ADK_FORM_MIN or over ADK_BUFFER_MAX), ADK_BAD_FORM (another version or vCPU id, a
 * bit that must be zero is not, a present value runs past the end of the buffer or is all zero), ADK_OK.
 */
adk_answer adk_set_state(uint8_t *store, size_t store_len, uint64_t flags, uint64_t guest, uint64_t vcpu,
                         const uint8_t *buffer, size_t buffer_len);

/*
 * H_GUEST_RUN_VCPU. Runs a vCPU. No guest code is run: the caller tells what the processor did, by effect, a guest
 * state buffer of what it wrote, and exit_reason, why it stopped. The elements of the input are set in order, then
 * those of the effect, so of two with one ID the later counts. Then the output's first bytes are written: the count and
 * the elements of the exit, in the order below, with the values that they have then. The rest of the output stays.
 *
 *     exit_reason                       bytes    elements
 *     0xC00  ADK_EXIT_HCALL             124      0x1003 to 0x100C (GPR 3 to 12)
 *     0xE00  ADK_EXIT_HDSI              36       0xF000 (HDAR), 0xF001 (HDSISR), 0xF003 (ASDR)
 *     0xE20  ADK_EXIT_HISI              16       0xF003 (ASDR)
 *     0xE40  ADK_EXIT_HEA               12       0xF002 (HEIR)
 *     0xF80  ADK_EXIT_HV_FAC_UNAVAIL    16       0x102D (HFSCR)
 *     0x000  ADK_EXIT_UNSPECIFIED       4        none
 *     0x980  ADK_EXIT_HDEC              4        none
 *
 * input and output are the run buffers that L1 registers beforehand, by setting elements 0x0C00 and 0x0C01 of the vCPU.
 * Their addresses are not followed; the caller lends the memory. A buffer counts as registered while the size kept in
 * its element meets the element's rule; the size of a new vCPU, 0, does not. What is lent has at least the registered
 * size, the output also where fewer bytes are written. It may be longer: the input ends at the registered size, and
 * what is lent beyond is not looked at. Where there is nothing to set, input and effect hold a count of 0.
 *
 * Everything is judged before anything is set. The flags ADK_RUN_EXTERNAL_INTERRUPT, ADK_RUN_PRIVILEGED_DOORBELL and
 * ADK_RUN_SYSTEM_RESET are supported.
 *
 * Answers: ADK_BAD_STORE, ADK_BAD_FLAG (a bit other than 0 to 2), ADK_BAD_PARAMETER (the guest is not live),
 * ADK_BAD_VCPU, ADK_WRONG_OWNER (the vCPU is taken), ADK_NOT_REGISTERED (r4 0: the input; then r4 1: the output),
 * ADK_LENT_TOO_SHORT (r4 0: the input; then r4 1: the output), then of the input's first bad element
 * ADK_INVALID_ELEMENT_ID or ADK_INVALID_ELEMENT_SIZE (r4: its byte offset; r5: its index), ADK_UNKNOWN_EXIT,
 * ADK_BAD_EFFECT (r4: the byte offset of its first bad element; r5: that one's index; both 0 if its length is bad),
 * ADK_OK (r4: exit_reason).
 */
adk_answer adk_run_vcpu(uint8_t *store, size_t store_len, uint64_t flags, uint64_t guest, uint64_t vcpu,
                        const uint8_t *input, size_t input_len, uint8_t *output, size_t output_len,
                        const uint8_t *effect, size_t effect_len, uint64_t exit_reason);

/*
 * H_GUEST_DELETE. Deletes a live guest and its vCPUs, taken ones too, or, with ADK_DELETE_ALL, every guest and vCPU:
 * guest is then ignored, and no guest need be live. Numbers and slots so freed are used again. Agreed capabilities and
 * value bytes stay.
 *
 * Answers: ADK_BAD_STORE, ADK_BAD_FLAG (a bit other than ADK_DELETE_ALL), ADK_BAD_PARAMETER (the guest is not live),
 * ADK_OK.
 */
adk_answer adk_delete_guest(uint8_t *store, size_t store_len, uint64_t flags, uint64_t guest);

/*
 * The guest clock: what a live guest's timebase shows while L1's shows timebase. It is the sum of timebase and the
 * guest's TB offset (element 0x0004) rounded up to a multiple of 2^24: a hypervisor can set only the upper 40 bits of a
 * timebase. Rounding and sum wrap at 2^64. With timebase 5, offset 1 gives 16,777,221, and offset 2^64 - 1 gives 5. Get
 * state gives back the offset as it was set.
 *
 * Answers: ADK_BAD_STORE, ADK_BAD_PARAMETER (the guest is not live), ADK_OK (r4: the guest's time).
 */
adk_answer adk_guest_clock(const uint8_t *store, size_t store_len, uint64_t guest, uint64_t timebase);

/*
 * Writes a small store as a large one. Capabilities, live guests and vCPUs, taken marks, and the values of each guest
 * and slot, in use or not, are then those of the small store, under the same numbers; every other byte of the large one
 * is zero. Its bytes may be anything before. The small store stays.
 *
 * From then on any list of the eight calls and the clock gives the same answers and buffers on both stores, up to the
 * first create that the small one answers with ADK_NOT_ENOUGH_RESOURCES.
 *
 * Answers: ADK_BAD_STORE (the source is not a well-formed small store; a large store is none), ADK_BAD_LENGTH
 * (large_len is not ADK_LARGE_STORE_SIZE), ADK_OK.
 */
adk_answer adk_convert(const uint8_t *small, size_t small_len, uint8_t *large, size_t large_len);

/*
 * Finds an element in a guest state buffer. Of several elements with the ID the last counts. Any ID may be asked for;
 * IDs and sizes are not judged, but every counted element must lie within the buffer, those behind a match too.
 *
 * Answers: ADK_BAD_LENGTH, ADK_INVALID_ELEMENT_SIZE (r4: the index of the first element that is cut off; r5: its byte
 * offset), ADK_INVALID_ELEMENT_ID (r4: the count), ADK_OK (at, len: the value; at is told for an empty value too).
 */
adk_found adk_lookup(const uint8_t *buffer, size_t buffer_len, uint16_t id);

/*
 * Joins two guest state buffers into one. The result's first bytes become the sum of the counts, the counted elements
 * of the first and then those of the second; bytes behind the counted elements of either are dropped, and the rest of
 * the result stays. IDs and sizes are not judged, as in a lookup, but every counted element must lie within its buffer.
 *
 * A set state with the joined buffer, without ADK_HAND_OVER, leaves the store that two leave, first one with the first
 * buffer and straight after it one with the second, if both are accepted; and it is accepted then. Joining is
 * associative. Where the two buffers share no ID but the NOP's, either order gives the same store.
 *
 * result_len may be greater than ADK_BUFFER_MAX. A result of ADK_BUFFER_MAX bytes holds every joined buffer.
 *
 * Answers: ADK_BAD_LENGTH (of first, then of second), ADK_INVALID_ELEMENT_SIZE (of first, then of second; r4: the index
 * of its first element that is cut off; r5: that one's byte offset), ADK_BAD_LENGTH (the joined buffer would have over
 * ADK_BUFFER_MAX bytes), ADK_LENT_TOO_SHORT (r4 1: the result is shorter than the joined buffer), ADK_OK (r4: the
 * length of the joined buffer).
 */
adk_answer adk_join(const uint8_t *first, size_t first_len, const uint8_t *second, size_t second_len, uint8_t *result,
                    size_t result_len);

/*
 * Judges the output of another hypervisor's run by the state that the vCPU has here after the same run. It need not be
 * ours byte for byte: the elements may come in any order, with NOPs of any size anywhere among them. It is accepted
 * exactly if every counted element lies within the buffer, each element of the exit (adk_run_vcpu, above) is there once
 * with the vCPU's value, and nothing else but NOPs is. An exit without elements is accepted with NOPs alone, or none.
 *
 * Whether run buffers are registered is not looked at. What adk_run_vcpu wrote is accepted, with the store that it left
 * and its exit reason: the whole lent output up to the registered size, and its elements in any order. Every list of
 * elements has those of the exits, so a POWER9 guest's output is judged as any other. Nothing is written.
 *
 * The elements are judged in turn, up to the first bad one. The answer is then, in this order,
 *
 *     ADK_INVALID_ELEMENT_SIZE     if the four bytes of ID and size do not fit into the buffer
 *     ADK_INVALID_ELEMENT_ID       if the ID is none of the exit's and not the NOP's, or an element before has it,
 *                                  whatever the size of either
 *     ADK_INVALID_ELEMENT_SIZE     if the size is not the listed one, of a NOP any, or the value runs past the end of
 *                                  the buffer
 *     ADK_INVALID_ELEMENT_VALUE    if the value is not the vCPU's
 *
 * Answers: ADK_BAD_STORE, ADK_BAD_PARAMETER (the guest is not live), ADK_BAD_VCPU, ADK_WRONG_OWNER (the vCPU is taken),
 * ADK_BAD_LENGTH, ADK_UNKNOWN_EXIT, then of the first bad element one of these three (r4: its index, from 0; r5: its
 * byte offset), ADK_MISSING_ELEMENT (r4: the smallest ID of the exit that no element has), ADK_OK.
 */
adk_answer adk_judge_output(const uint8_t *store, size_t store_len, uint64_t guest, uint64_t vcpu,
                            uint64_t exit_reason, const uint8_t *buffer, size_t buffer_len);

/*
 * Makes one of the eight calls by its kind: it is that call, with its answers and all that it writes.
 *
 *     kind                            the call, with the arguments that it takes of these
 *     1  ADK_KIND_GET_CAPABILITIES    adk_get_capabilities(store, flags)
 *     2  ADK_KIND_SET_CAPABILITIES    adk_set_capabilities(store, flags, number)
 *     3  ADK_KIND_CREATE_GUEST        adk_create_guest(store, flags, number)
 *     4  ADK_KIND_CREATE_VCPU         adk_create_vcpu(store, flags, guest, number)
 *     5  ADK_KIND_GET_STATE           adk_get_state(store, flags, guest, number, data)
 *     6  ADK_KIND_SET_STATE           adk_set_state(store, flags, guest, number, data)
 *     7  ADK_KIND_RUN_VCPU            adk_run_vcpu(store, flags, guest, number, data, output, effect, exit_reason)
 *     8  ADK_KIND_DELETE_GUEST        adk_delete_guest(store, flags, guest)
 *
 * What the call does not take is ignored, whatever it holds; memory that it does not take is neither read nor written,
 * and may be lent with 0 bytes. Only a get state writes data, and only a run writes output.
 *
 * Answers: ADK_BAD_RECORD (another kind; the store is not looked at), then those of the call.
 */
adk_answer adk_call(uint8_t *store, size_t store_len, uint64_t kind, uint64_t flags, uint64_t guest, uint64_t number,
                    uint64_t exit_reason, uint8_t *data, size_t data_len, uint8_t *output, size_t output_len,
                    const uint8_t *effect, size_t effect_len);

/*
 * The tally: adk_call, with the summary records beside the store. There are record_count records, that of slot 0
 * first: ADK_LARGE_SLOTS of them where store_len is ADK_LARGE_STORE_SIZE, else ADK_SLOTS, whatever the store holds. The
 * answer, the store, data and output are those of adk_call, and the records are brought up to date (THE TALLY, above).
 * Refusals of a bad element are counted, so they write a record, and nothing else; no other refusal writes one.
 *
 * Answers: ADK_WRONG_RECORD_COUNT (another number of records; no lent byte is looked at), ADK_BAD_RECORD (another
 * kind; the store is not looked at), then those of the call.
 */
adk_answer adk_tally(adk_summary *records, size_t record_count, uint8_t *store, size_t store_len, uint64_t kind,
                     uint64_t flags, uint64_t guest, uint64_t number, uint64_t exit_reason, uint8_t *data,
                     size_t data_len, uint8_t *output, size_t output_len, const uint8_t *effect, size_t effect_len);

/*
 * Writes a call as a record: the first bytes become the record, and the rest stays. It looks at no store, and judges
 * nothing of the call but that a record can hold it. Bytes of ADK_LONGEST_RECORD hold every record. adderknot_record.h
 * appends records to a file, and reads them.
 *
 * Answers: ADK_BAD_RECORD (a kind that is none of the eight, an exit reason above ADK_RECORD_EXIT_MAX, or data or
 * effect of over ADK_RECORD_PIECE_MAX bytes), ADK_LENT_TOO_SHORT (r4 1: the record is longer than bytes), ADK_OK (r4:
 * the length of the record).
 */
adk_answer adk_write_record(uint8_t *bytes, size_t bytes_len, uint64_t kind, uint64_t flags, uint64_t guest,
                            uint64_t number, uint64_t exit_reason, const uint8_t *data, size_t data_len,
                            const uint8_t *effect, size_t effect_len);

#ifdef __cplusplus
}
#endif

#endif
