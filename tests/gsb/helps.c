/*
 * helps.c: what include/adderknot_gsb.h and include/adderknot_record.h promise, tried by themselves and on the library.
 * It is C99 and C++11, and compiled as both. A line 'passed gsb ..' or 'failed gsb ..' for each case.
 */
#include "adderknot_record.h"

#include <stdlib.h>

static int failures;

static void check(const char *name, int holds)
{
    printf("%s gsb %s\n", holds ? "passed" : "failed", name);
    failures += !holds;
}

static void numbers(void)
{
    uint8_t bytes[9];
    memset(bytes, 0xEE, sizeof bytes);
    adk_write_be(bytes, 8, UINT64_C(0x0102030405060708));
    check("numbers", bytes[0] == 1 && bytes[7] == 8 && bytes[8] == 0xEE && adk_read_be(bytes + 1, 2) == 0x0203 &&
                         adk_read_be(bytes, 0) == 0);
}

static void builder(void)
{
    static const uint8_t right[] = { 0, 0, 0, 2, 0x10, 0x03, 0, 8, 0, 0, 0, 0, 0, 0, 0, 7, 0, 0, 0, 1, 0 };
    uint8_t bytes[sizeof right + 3];
    adk_gsb gsb;
    adk_gsb_begin(&gsb, bytes, sizeof bytes);
    adk_gsb_add_number(&gsb, ADK_GSID_GPR(3), 7);
    adk_gsb_add_sized(&gsb, ADK_GSID_NOP, 1);
    check("builder", adk_gsb_length(&gsb) == sizeof right && memcmp(bytes, right, sizeof right) == 0);
    adk_gsb_add(&gsb, ADK_GSID_NOP);
    check("an element that does not fit", adk_gsb_length(&gsb) == 0 && memcmp(bytes, right, sizeof right) == 0);
    adk_gsb_begin(&gsb, bytes, 3);
    check("a buffer without room", adk_gsb_length(&gsb) == 0 && adk_gsb_add(&gsb, ADK_GSID_CR) == NULL);
}

static void reader(void)
{
    static const uint8_t cut[] = { 0, 0, 0, 3, 0x20, 0, 0, 4, 0, 0, 0, 9, 0, 0, 0, 0, 0x10, 0x03, 0, 8, 1 };
    adk_gsb_reader r;
    adk_element e;
    adk_gsb_open(&r, cut, sizeof cut);
    int first = adk_gsb_next(&r, &e) && e.index == 0 && e.offset == 4 && e.id == ADK_GSID_CR && e.size == 4 &&
                adk_element_number(&e) == 9;
    int second = adk_gsb_next(&r, &e) && e.index == 1 && e.offset == 12 && e.id == ADK_GSID_NOP && e.size == 0;
    check("reader", first && second && !adk_gsb_next(&r, &e) && r.index == 2 && r.count == 3 && r.offset == 16);
    adk_gsb_open(&r, cut, 3);
    check("reader of three bytes", !adk_gsb_next(&r, &e) && r.count == 0);
}

/* Sets the logical PVR of the guest; 0 is that of a new one. */
static void set_pvr(uint8_t *store, uint64_t guest, uint32_t pvr)
{
    uint8_t bytes[16];
    adk_gsb gsb;
    adk_gsb_begin(&gsb, bytes, sizeof bytes);
    adk_gsb_add_number(&gsb, ADK_GSID_LOGICAL_PVR, pvr);
    adk_set_state(store, ADK_STORE_SIZE, ADK_GUEST_WIDE, guest, 0, bytes, adk_gsb_length(&gsb));
}

/* How many elements are offered, if each is set or read with the size that is told, and all other IDs are refused. */
static unsigned offered(uint8_t *store, uint64_t guest, uint32_t pvr)
{
    uint8_t bytes[64];
    unsigned n = 0, wrong = 0, id;
    set_pvr(store, guest, pvr);
    for (id = 1; id <= 0xFFFF; id++) {
        uint64_t flags = id <= 0x0006 ? ADK_GUEST_WIDE : 0;
        adk_gsb gsb;
        adk_answer get, set;
        adk_gsb_begin(&gsb, bytes, sizeof bytes);
        adk_gsb_add(&gsb, (uint16_t)id);
        get = adk_get_state(store, ADK_STORE_SIZE, flags, guest, 0, bytes, adk_gsb_length(&gsb));
        set = adk_set_state(store, ADK_STORE_SIZE, flags, guest, 0, bytes, adk_gsb_length(&gsb));
        n += adk_element_offered((uint16_t)id, pvr) != 0;
        if (!adk_element_offered((uint16_t)id, pvr))
            wrong += get.r3 != ADK_INVALID_ELEMENT_ID || set.r3 != ADK_INVALID_ELEMENT_ID;
        else
            wrong += get.r3 == ADK_INVALID_ELEMENT_SIZE || set.r3 == ADK_INVALID_ELEMENT_SIZE ||
                     (get.r3 != ADK_OK && set.r3 != ADK_OK);
    }
    return wrong == 0 ? n : 0;
}

static void sizes(uint8_t *store, uint64_t guest)
{
    check("sizes of all elements, as the library has them", offered(store, guest, 0) == 176);
    check("what a POWER9 guest is offered, as the library has it", offered(store, guest, ADK_PVR_ARCH_300) == 167);
    check("what a POWER10 guest is offered, as the library has it", offered(store, guest, ADK_PVR_ARCH_31) == 176);
    check("the NOP is offered to all",
          adk_element_offered(ADK_GSID_NOP, ADK_PVR_ARCH_300) && adk_element_offered(ADK_GSID_NOP, 0));
}

static int named(unsigned id, const char *name)
{
    char text[ADK_NAME_SIZE];
    return strcmp(adk_element_name((uint16_t)id, text), name) == 0;
}

/* Each listed element has a name, and no two the same. */
static void names(void)
{
    char (*text)[ADK_NAME_SIZE] = (char (*)[ADK_NAME_SIZE])calloc(256, ADK_NAME_SIZE);
    unsigned n = 0, id, i, same = 0;
    for (id = 0; text != NULL && id <= 0xFFFF && n < 256; id++)
        if (id == ADK_GSID_NOP || adk_element_size((uint16_t)id) != 0) {
            adk_element_name((uint16_t)id, text[n]);
            for (i = 0; i < n; i++)
                same += strcmp(text[i], text[n]) == 0;
            n++;
        }
    free(text);
    check("names of all elements", n == 177 && same == 0 && named(0x101F, "GPR31") && named(0x3009, "VSR9") &&
                                       named(0x1031, "DAWR1") && named(0x2007, "PMC1") && named(0x1053, "DPDES") &&
                                       named(0xF003, "ASDR") && named(0x1054, "unlisted") && named(0x0007, "unlisted"));
    check("names of answers and exits", strcmp(adk_answer_name(14), "bad effect") == 0 &&
                                            strcmp(adk_answer_name(16), "wrong owner of the state") == 0 &&
                                            strcmp(adk_answer_name(17), "bad form") == 0 &&
                                            strcmp(adk_answer_name(18), "wrong number of summary records") == 0 &&
                                            strcmp(adk_answer_name(19), "bad record") == 0 &&
                                            strcmp(adk_answer_name(20), "no answer of a call") == 0 &&
                                            strcmp(adk_answer_name(21), "capabilities in use") == 0 &&
                                            strcmp(adk_answer_name(22), "no answer of a call") == 0 &&
                                            strcmp(adk_answer_name(UINT64_MAX), "no answer of a call") == 0 &&
                                            strcmp(adk_exit_name(0xF80), "HV Fac Unavail") == 0 &&
                                            strcmp(adk_exit_name(1), "unknown exit") == 0);
}

/* R3, R4 and the number in Linux's hvcall.h. */
static void papr(void)
{
    static const struct {
        uint64_t r3, r4;
        int64_t code;
    } rows[] = { { 0, 0xC00, 0 },   { 1, 0, INT64_MIN }, { 2, 0, -256 }, { 2, 63, -319 }, { 3, 1, -55 },
                 { 4, 0, -56 },     { 5, 0, -58 },       { 6, 3, -79 },  { 7, 3, -80 },   { 8, 3, -81 },
                 { 9, 0, -44 },     { 10, 0, -77 },      { 11, 0, -82 }, { 11, 1, -84 },  { 12, 0, -83 },
                 { 12, 1, -85 },    { 13, 0, INT64_MIN }, { 14, 4, INT64_MIN }, { 16, 0, -87 },
                 { 17, 0, -70 },    { 20, 0x1003, INT64_MIN }, { 21, 0, -75 } };
    int right = 1;
    size_t i;
    for (i = 0; i < sizeof rows / sizeof rows[0]; i++)
        right = right && adk_papr_code(rows[i].r3, rows[i].r4) == rows[i].code;
    check("PAPR's return codes", right);
}

static int same_record(const adk_record *a, const adk_record *b)
{
    return a->kind == b->kind && a->flags == b->flags && a->guest == b->guest && a->number == b->number &&
           a->exit_reason == b->exit_reason && a->data_len == b->data_len && a->effect_len == b->effect_len &&
           (a->data_len == 0 || memcmp(a->data, b->data, a->data_len) == 0) &&
           (a->effect_len == 0 || memcmp(a->effect, b->effect, a->effect_len) == 0);
}

/* Two records in a file, of 31 and 36 bytes, and one that is refused and leaves it as it is. */
static void records(void)
{
    static const uint8_t data[] = { 1, 2, 3 }, effect[] = { 9, 8 };
    static const adk_record first = { ADK_KIND_CREATE_GUEST, 0, 0, ADK_TOKEN, 0, NULL, 0, NULL, 0 };
    static const adk_record second = { ADK_KIND_RUN_VCPU, ADK_BIT(2), 1, ADK_VCPU_MAX, ADK_EXIT_HCALL, data, 3,
                                       effect, 2 };
    static const adk_record third = { 9, 0, 0, 0, 0, NULL, 0, NULL, 0 };
    uint8_t room[64], bytes[128];
    adk_record read;
    size_t n;
    FILE *file = tmpfile();
    int appended = file != NULL && adk_append_record(file, &first, room, sizeof room) &&
                   !adk_append_record(file, &third, room, sizeof room) &&
                   !adk_append_record(file, &second, room, 35) && adk_append_record(file, &second, room, 36);
    check("records appended to a file", appended);
    if (!appended)
        return;
    rewind(file);
    n = fread(bytes, 1, sizeof bytes, file);
    fclose(file);
    check("records read", n == 31 + 36 && adk_read_record(&read, bytes, n) == 31 && same_record(&read, &first) &&
                              adk_read_record(&read, bytes + 31, n - 31) == 36 && same_record(&read, &second) &&
                              adk_record_length(&read) == 36 && read.data == bytes + 62 && read.effect == bytes + 65);
    check("a record that is cut", adk_read_record(&read, bytes + 31, 35) == 0 &&
                                      adk_read_record(&read, bytes + 31, 30) == 0 &&
                                      adk_read_record(&read, bytes, 0) == 0);
    check("a head alone", adk_read_head(&read, bytes + 31) && read.data_len == 3 && read.data == NULL);
    bytes[30] |= 1;
    check("padding that is not zero", !adk_read_head(&read, bytes) && adk_read_record(&read, bytes, 31) == 0);
    bytes[31] = 0x9F;
    check("a kind that is none", !adk_read_head(&read, bytes + 31) && adk_read_record(&read, bytes + 31, 36) == 0);
}

/* A record is initialized in each language, and lent with its slots' others. */
static void tally(uint8_t *store, uint64_t guest)
{
    static const uint8_t two[] = { 0, 0, 0, 2, 0x20, 0, 0, 4, 0, 0, 0, 1, 0, 0, 0, 0 };
    const adk_summary new_vcpu = ADK_NEW_SUMMARY;
    adk_summary summaries[ADK_SLOTS];
    uint8_t data[sizeof two], output[1] = { 0 };
    adk_answer few, set;
    size_t i;
    for (i = 0; i < ADK_SLOTS; i++)
        summaries[i] = new_vcpu;
    memcpy(data, two, sizeof two);
    few = adk_tally(summaries, ADK_SLOTS - 1, store, ADK_STORE_SIZE, ADK_KIND_SET_STATE, 0, guest, 0, 0, data,
                    sizeof data, output, 0, output, 0);
    set = adk_tally(summaries, ADK_SLOTS, store, ADK_STORE_SIZE, ADK_KIND_SET_STATE, 0, guest, 0, 0, data, sizeof data,
                    output, 0, output, 0);
    check("a call through the tally", few.r3 == ADK_WRONG_RECORD_COUNT && set.r3 == ADK_OK && summaries[0].runs == 0 &&
                                          summaries[0].elements == 1 && summaries[0].refusals == 0 &&
                                          summaries[0].exit_reason == ADK_NO_EXIT && summaries[1].elements == 0);
}

/* An output with a NOP before its element, one with another value, and one that holds nothing. */
static void judge(uint8_t *store, uint64_t guest)
{
    uint8_t bytes[32];
    adk_gsb gsb;
    adk_answer good, bad, missing;
    adk_gsb_begin(&gsb, bytes, sizeof bytes);
    missing = adk_judge_output(store, ADK_STORE_SIZE, guest, 0, ADK_EXIT_HISI, bytes, adk_gsb_length(&gsb));
    adk_gsb_add_sized(&gsb, ADK_GSID_NOP, 3);
    adk_gsb_add_number(&gsb, ADK_GSID_ASDR, 0);
    good = adk_judge_output(store, ADK_STORE_SIZE, guest, 0, ADK_EXIT_HISI, bytes, adk_gsb_length(&gsb));
    bytes[22] = 1;
    bad = adk_judge_output(store, ADK_STORE_SIZE, guest, 0, ADK_EXIT_HISI, bytes, adk_gsb_length(&gsb));
    check("an output judged", missing.r3 == ADK_MISSING_ELEMENT && missing.r4 == ADK_GSID_ASDR && good.r3 == ADK_OK &&
                                  bad.r3 == ADK_INVALID_ELEMENT_VALUE && bad.r4 == 1 && bad.r5 == 11);
}

int main(void)
{
    uint8_t *store = (uint8_t *)malloc(ADK_STORE_SIZE);
    adk_answer guest;
    if (store == NULL)
        return 1;
    adk_fresh_store(store, ADK_STORE_SIZE);
    adk_set_capabilities(store, ADK_STORE_SIZE, 0, ADK_CAP_POWER9 | ADK_CAP_POWER10);
    guest = adk_create_guest(store, ADK_STORE_SIZE, 0, ADK_TOKEN);
    adk_create_vcpu(store, ADK_STORE_SIZE, 0, guest.r4, 0);
    numbers();
    builder();
    reader();
    sizes(store, guest.r4);
    names();
    papr();
    records();
    tally(store, guest.r4);
    judge(store, guest.r4);
    free(store);
    return failures != 0;
}
