/*
 * adderknot_gsb.h: helps with adderknot.h, for the person who writes a bench. All of it is optional and static inline:
 * nothing is linked. It is C99 and C++11.
 *
 * It has numbers read and written most significant byte first, a builder and a reader of guest state buffers, the names
 * of answers, elements and exits, which elements a guest is offered, and PAPR's return code for an answer. A buffer
 * that names two elements to be read:
 *
 *     uint8_t bytes[64];
 *     adk_gsb gsb;
 *     adk_gsb_begin(&gsb, bytes, sizeof bytes);
 *     adk_gsb_add(&gsb, ADK_GSID_GPR(3));
 *     adk_gsb_add(&gsb, ADK_GSID_NIA);
 *     answer = adk_get_state(store, sizeof store, 0, guest, vcpu, bytes, adk_gsb_length(&gsb));
 *
 * and the values in it afterwards:
 *
 *     adk_gsb_reader reader;
 *     adk_element element;
 *     for (adk_gsb_open(&reader, bytes, sizeof bytes); adk_gsb_next(&reader, &element);)
 *         use(element.id, adk_element_number(&element));
 */
#ifndef ADDERKNOT_GSB_H
#define ADDERKNOT_GSB_H

#include "adderknot.h"

#include <string.h>

/* ---- Numbers of n bytes, most significant first; n is at most 8 ---- */

static inline uint64_t adk_read_be(const uint8_t *at, size_t n)
{
    uint64_t number = 0;
    size_t i;
    for (i = 0; i < n; i++)
        number = number << 8 | at[i];
    return number;
}

static inline void adk_write_be(uint8_t *at, size_t n, uint64_t number)
{
    while (n-- > 0) {
        at[n] = (uint8_t)number;
        number >>= 8;
    }
}

/* ---- Elements ---- */

/* The sizes of the listed elements, in ranges of IDs. */
typedef struct {
    uint16_t first, last, size;
} adk_size_row;

/* The listed size of an element in bytes; 0 for the NOP, which has any size, and for an ID that is not listed. */
static inline uint16_t adk_element_size(uint16_t id)
{
    static const adk_size_row rows[] = {
        { 0x0001, 0x0002, 8 },  { 0x0003, 0x0003, 4 },  { 0x0004, 0x0004, 8 },  { 0x0005, 0x0005, 24 },
        { 0x0006, 0x0006, 16 }, { 0x0C00, 0x0C01, 16 }, { 0x0C02, 0x0C02, 8 },  { 0x1000, 0x1053, 8 },
        { 0x2000, 0x200E, 4 },  { 0x3000, 0x303F, 16 }, { 0xF000, 0xF000, 8 },  { 0xF001, 0xF002, 4 },
        { 0xF003, 0xF003, 8 },
    };
    size_t i;
    for (i = 0; i < sizeof rows / sizeof rows[0]; i++)
        if (id >= rows[i].first && id <= rows[i].last)
            return rows[i].size;
    return 0;
}

/* Whether a guest with this logical PVR is offered the element. A POWER9 guest, of ADK_PVR_ARCH_300, lacks nine that
   other guests have; the NOP is offered to all, and an ID that is not listed to none. */
static inline int adk_element_offered(uint16_t id, uint32_t logical_pvr)
{
    static const uint16_t later[] = {
        ADK_GSID_DAWR1,  ADK_GSID_MMCR(3),  ADK_GSID_SIER2,     ADK_GSID_SIER3, ADK_GSID_DEXCR,
        ADK_GSID_HDEXCR, ADK_GSID_HASHKEYR, ADK_GSID_HASHPKEYR, ADK_GSID_DAWRX1,
    };
    size_t i;
    for (i = 0; logical_pvr == ADK_PVR_ARCH_300 && i < sizeof later / sizeof later[0]; i++)
        if (id == later[i])
            return 0;
    return id == ADK_GSID_NOP || adk_element_size(id) != 0;
}

/* Names of elements in a row of IDs. */
typedef struct {
    uint16_t first;
    size_t count;
    const char *const *names;
} adk_name_row;

/* The name of an element that has one of its own, as in Linux's guest-state-buffer.h; NULL for the others. */
static inline const char *adk_own_name(uint16_t id)
{
    static const char *const wide[] = { "NOP",           "HOST_STATE_SIZE", "RUN_OUTPUT_MIN_SIZE", "LOGICAL_PVR",
                                        "TB_OFFSET",     "PARTITION_TABLE", "PROCESS_TABLE" };
    static const char *const run[] = { "RUN_INPUT", "RUN_OUTPUT", "VPA" };
    static const char *const wide_registers[] = {
        "HDEC_EXPIRY_TB", "NIA",   "MSR",   "LR",    "XER",   "CTR",   "CFAR",  "SRR0",   "SRR1",     "DAR",
        "DEC_EXPIRY_TB",  "VTB",   "LPCR",  "HFSCR", "FSCR",  "FPSCR", "DAWR0", "DAWR1",  "CIABR",    "PURR",
        "SPURR",          "IC",    "SPRG0", "SPRG1", "SPRG2", "SPRG3", "PPR",   "MMCR0",  "MMCR1",    "MMCR2",
        "MMCR3",          "MMCRA", "SIER",  "SIER2", "SIER3", "BESCR", "EBBHR", "EBBRR",  "AMR",      "IAMR",
        "AMOR",           "UAMOR", "SDAR",  "SIAR",  "DSCR",  "TAR",   "DEXCR", "HDEXCR", "HASHKEYR", "HASHPKEYR",
        "CTRL",           "DPDES"
    };
    static const char *const registers[] = { "CR",   "PIDR", "DSISR", "VSCR", "VRSAVE", "DAWRX0", "DAWRX1", "PMC1",
                                             "PMC2", "PMC3", "PMC4",  "PMC5", "PMC6",   "WORT",   "PSPB" };
    static const char *const faults[] = { "HDAR", "HDSISR", "HEIR", "ASDR" };
    static const adk_name_row rows[] = {
        { 0x0000, sizeof wide / sizeof wide[0], wide },
        { 0x0C00, sizeof run / sizeof run[0], run },
        { 0x1020, sizeof wide_registers / sizeof wide_registers[0], wide_registers },
        { 0x2000, sizeof registers / sizeof registers[0], registers },
        { 0xF000, sizeof faults / sizeof faults[0], faults },
    };
    size_t i;
    for (i = 0; i < sizeof rows / sizeof rows[0]; i++)
        if (id >= rows[i].first && (size_t)(id - rows[i].first) < rows[i].count)
            return rows[i].names[id - rows[i].first];
    return NULL;
}

/* Room for the name of any element. */
#define ADK_NAME_SIZE 24

/* Writes the name of an element to name and gives it back: GPR3, VSR63, LOGICAL_PVR; "unlisted" where there is none. */
static inline const char *adk_element_name(uint16_t id, char name[ADK_NAME_SIZE])
{
    const char *own = adk_own_name(id);
    if (own != NULL) {
        strcpy(name, own);
    } else if (adk_element_size(id) != 0) {
        unsigned number = id & 0xFF;
        char *digit = name + 3;
        strcpy(name, id < 0x3000 ? "GPR" : "VSR");
        if (number >= 10)
            *digit++ = (char)('0' + number / 10);
        *digit++ = (char)('0' + number % 10);
        *digit = '\0';
    } else {
        strcpy(name, "unlisted");
    }
    return name;
}

/* ---- Building a guest state buffer ---- */

/* A buffer under construction in lent bytes. */
typedef struct {
    uint8_t *bytes;
    size_t room, len;
    int full; /* something did not fit, and was left out */
} adk_gsb;

/* Begins a buffer without elements. */
static inline void adk_gsb_begin(adk_gsb *gsb, uint8_t *bytes, size_t room)
{
    gsb->bytes = bytes;
    gsb->room = room;
    gsb->full = room < ADK_BUFFER_MIN;
    gsb->len = gsb->full ? 0 : ADK_BUFFER_MIN;
    memset(bytes, 0, gsb->len);
}

/* Adds an element of any ID and size, its value zero. Gives back its value, or NULL if it does not fit. */
static inline uint8_t *adk_gsb_add_sized(adk_gsb *gsb, uint16_t id, uint16_t size)
{
    uint8_t *element = gsb->bytes + gsb->len;
    if (gsb->full || gsb->room - gsb->len < 4 + (size_t)size) {
        gsb->full = 1;
        return NULL;
    }
    adk_write_be(element, 2, id);
    adk_write_be(element + 2, 2, size);
    memset(element + 4, 0, size);
    gsb->len += 4 + (size_t)size;
    adk_write_be(gsb->bytes, 4, adk_read_be(gsb->bytes, 4) + 1);
    return element + 4;
}

/* The same with the listed size: enough for a get. */
static inline uint8_t *adk_gsb_add(adk_gsb *gsb, uint16_t id)
{
    return adk_gsb_add_sized(gsb, id, adk_element_size(id));
}

/* Adds an element whose value is a number; in values of 16 and 24 bytes it is the first 8. */
static inline void adk_gsb_add_number(adk_gsb *gsb, uint16_t id, uint64_t number)
{
    uint16_t size = adk_element_size(id);
    uint8_t *value = adk_gsb_add_sized(gsb, id, size);
    if (value != NULL)
        adk_write_be(value, size < 8 ? size : 8, number);
}

/* Adds an element of 16 bytes with two numbers in it: a run buffer or a table, address and size. */
static inline void adk_gsb_add_pair(adk_gsb *gsb, uint16_t id, uint64_t address, uint64_t size)
{
    uint8_t *value = adk_gsb_add_sized(gsb, id, 16);
    if (value != NULL) {
        adk_write_be(value, 8, address);
        adk_write_be(value + 8, 8, size);
    }
}

/* The length of the buffer; 0, which every call refuses, if something did not fit. */
static inline size_t adk_gsb_length(const adk_gsb *gsb)
{
    return gsb->full ? 0 : gsb->len;
}

/* ---- Reading one ---- */

/* An element: its place in the buffer, and its value there. */
typedef struct {
    uint32_t index;
    size_t offset;
    uint16_t id, size;
    const uint8_t *value;
} adk_element;

/* index is that of the next element. Where the reader has stopped before count, an element is cut off by the end. */
typedef struct {
    const uint8_t *bytes;
    size_t len, offset;
    uint32_t count, index;
} adk_gsb_reader;

/* A buffer of under four bytes is read as one without elements. */
static inline void adk_gsb_open(adk_gsb_reader *reader, const uint8_t *bytes, size_t len)
{
    reader->bytes = bytes;
    reader->len = len;
    reader->offset = len < ADK_BUFFER_MIN ? len : ADK_BUFFER_MIN;
    reader->count = len < ADK_BUFFER_MIN ? 0 : (uint32_t)adk_read_be(bytes, 4);
    reader->index = 0;
}

/* The next counted element; 0 if there is none, or if it does not lie within the buffer. */
static inline int adk_gsb_next(adk_gsb_reader *reader, adk_element *element)
{
    const uint8_t *at = reader->bytes + reader->offset;
    size_t left = reader->len - reader->offset;
    if (reader->index >= reader->count || left < 4)
        return 0;
    element->index = reader->index;
    element->offset = reader->offset;
    element->id = (uint16_t)adk_read_be(at, 2);
    element->size = (uint16_t)adk_read_be(at + 2, 2);
    element->value = at + 4;
    if (left - 4 < element->size)
        return 0;
    reader->offset += 4 + (size_t)element->size;
    reader->index++;
    return 1;
}

/* The value as a number; of a longer value its first 8 bytes. */
static inline uint64_t adk_element_number(const adk_element *element)
{
    return adk_read_be(element->value, element->size < 8 ? element->size : 8);
}

/* ---- Answers and exits ---- */

static inline const char *adk_answer_name(uint64_t r3)
{
    static const char *const names[] = {
        "success", "store not well formed", "unsupported flag", "bad parameter", "bad vCPU", "bad length",
        "invalid element ID", "invalid element size", "invalid element value", "not enough resources", "vCPU exists",
        "run buffer not registered", "lent too short", "unknown exit", "bad effect", "cache not well formed",
        "wrong owner of the state", "bad form", "wrong number of summary records", "bad record", NULL,
        "capabilities in use"
    };
    return r3 < sizeof names / sizeof names[0] && names[r3] != NULL ? names[r3] : "no answer of a call";
}

static inline const char *adk_exit_name(uint64_t exit_reason)
{
    switch (exit_reason) {
    case ADK_EXIT_UNSPECIFIED: return "unspecified";
    case ADK_EXIT_HDEC: return "HDEC";
    case ADK_EXIT_HCALL: return "HCALL";
    case ADK_EXIT_HDSI: return "HDSI";
    case ADK_EXIT_HISI: return "HISI";
    case ADK_EXIT_HEA: return "HEA";
    case ADK_EXIT_HV_FAC_UNAVAIL: return "HV Fac Unavail";
    default: return "unknown exit";
    }
}

/*
 * PAPR's return codes, with the numbers of Linux's arch/powerpc/include/asm/hvcall.h. An unsupported flag has a code
 * for each bit: ADK_H_UNSUPPORTED_FLAG_START for bit 0, one less for each bit after it.
 */
enum {
    ADK_H_SUCCESS = 0,
    ADK_H_NOT_ENOUGH_RESOURCES = -44,
    ADK_H_P2 = -55,
    ADK_H_P3 = -56,
    ADK_H_P5 = -58,
    ADK_H_BAD_DATA = -70,
    ADK_H_STATE = -75,
    ADK_H_IN_USE = -77,
    ADK_H_INVALID_ELEMENT_ID = -79,
    ADK_H_INVALID_ELEMENT_SIZE = -80,
    ADK_H_INVALID_ELEMENT_VALUE = -81,
    ADK_H_INPUT_BUFFER_NOT_DEFINED = -82,
    ADK_H_INPUT_BUFFER_TOO_SMALL = -83,
    ADK_H_OUTPUT_BUFFER_NOT_DEFINED = -84,
    ADK_H_OUTPUT_BUFFER_TOO_SMALL = -85,
    ADK_H_GUEST_VCPU_STATE_NOT_HV_OWNED = -87,
    ADK_H_UNSUPPORTED_FLAG_START = -256
};

/* No code of PAPR: the store, the exit reason and the effect are the bench's, and no hypercall is given them, nor judges
   an output. */
#define ADK_H_NONE INT64_MIN

/*
 * The return code of a hypercall that is answered so. A guest, a token and a bitmap are a call's second parameter, a
 * vCPU id its third, the size of a buffer its fifth. ADK_H_IN_USE says that what the call names is taken, a vCPU id;
 * ADK_H_STATE that the call does not fit the state it meets, capabilities that would change under a live guest. Of
 * adk_guest_clock and adk_lookup, which are no hypercalls, it is that of a hypercall with this answer.
 *
 * ADK_H_GUEST_VCPU_STATE_NOT_HV_OWNED is hvcall.h's code for a vCPU whose state is with L1, and is told for giving back
 * a vCPU that is not taken too. ADK_H_BAD_DATA, hvcall.h's H_BAD_DATA, is our choice for bytes that are no form of the
 * vCPU.
 */
static inline int64_t adk_papr_code(uint64_t r3, uint64_t r4)
{
    switch (r3) {
    case ADK_OK: return ADK_H_SUCCESS;
    case ADK_BAD_FLAG: return ADK_H_UNSUPPORTED_FLAG_START - (int64_t)r4;
    case ADK_BAD_PARAMETER: return ADK_H_P2;
    case ADK_BAD_VCPU: return ADK_H_P3;
    case ADK_BAD_LENGTH: return ADK_H_P5;
    case ADK_INVALID_ELEMENT_ID: return ADK_H_INVALID_ELEMENT_ID;
    case ADK_INVALID_ELEMENT_SIZE: return ADK_H_INVALID_ELEMENT_SIZE;
    case ADK_INVALID_ELEMENT_VALUE: return ADK_H_INVALID_ELEMENT_VALUE;
    case ADK_NOT_ENOUGH_RESOURCES: return ADK_H_NOT_ENOUGH_RESOURCES;
    case ADK_VCPU_EXISTS: return ADK_H_IN_USE;
    case ADK_NOT_REGISTERED: return r4 == 0 ? ADK_H_INPUT_BUFFER_NOT_DEFINED : ADK_H_OUTPUT_BUFFER_NOT_DEFINED;
    case ADK_LENT_TOO_SHORT: return r4 == 0 ? ADK_H_INPUT_BUFFER_TOO_SMALL : ADK_H_OUTPUT_BUFFER_TOO_SMALL;
    case ADK_WRONG_OWNER: return ADK_H_GUEST_VCPU_STATE_NOT_HV_OWNED;
    case ADK_BAD_FORM: return ADK_H_BAD_DATA;
    case ADK_CAPABILITIES_IN_USE: return ADK_H_STATE;
    default: return ADK_H_NONE;
    }
}

#endif
