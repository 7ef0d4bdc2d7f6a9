/*
 * replay_model.c: the program replay once more, in plain C on the model. The tests lay replay beside it, and
 * replay_speed.sh times the two.
 *
 *     make target/bench/replay_model
 *     replay_model < FILE
 *
 * It reads call records, makes each call on a small store, fresh at first, and prints a line for each: its number from
 * 0, kind, R3, R4 and R5. At a record that is cut, has another kind or padding that is not zero it prints 'answer 19
 * offset N', where N is the offset of the record's first byte, and reads no further.
 */
#define _GNU_SOURCE

#include "adderknot_record.h"
#include "model.h"

#include <inttypes.h>
#include <stdbool.h>
#include <stdio.h>
#include <unistd.h>

static uint8_t store[ADK_STORE_SIZE], output[ADK_BUFFER_MAX];
static uint8_t data[ADK_RECORD_PIECE_MAX], effect[ADK_RECORD_PIECE_MAX];

/* ---- Records ---- */

enum next { RECORD, BAD, NONE };

static bool read_piece(FILE *from, uint8_t *bytes, size_t n)
{
    return fread(bytes, 1, n, from) == n;
}

static enum next read_record(FILE *from, adk_record *r)
{
    uint8_t head[ADK_RECORD_HEAD];
    size_t n = fread(head, 1, sizeof head, from);
    if (n == 0)
        return NONE;
    if (n < sizeof head || !adk_read_head(r, head))
        return BAD;
    return read_piece(from, data, r->data_len) && read_piece(from, effect, r->effect_len) ? RECORD : BAD;
}

/* ---- Calls ---- */

/* L9: a run's output is lent as registered: what element 0x0C01 says, or nothing. */
static size_t registered_output(const adk_record *r)
{
    uint8_t buffer[] = { 0, 0, 0, 1, 0x0C, 0x01, 0, 16, [23] = 0 };
    adk_answer a = mdl_get_state(store, sizeof store, 0, r->guest, r->number, buffer, sizeof buffer);
    uint64_t size = adk_read_be(buffer + 16, 8);
    return a.r3 == ADK_OK && size >= ADK_RUN_OUTPUT_MIN && size <= ADK_BUFFER_MAX ? size : 0;
}

static adk_answer make_call(const adk_record *r)
{
    size_t output_len = r->kind == ADK_KIND_RUN_VCPU ? registered_output(r) : 0;
    return mdl_call(store, sizeof store, r->kind, r->flags, r->guest, r->number, r->exit_reason, data, r->data_len,
                    output, output_len, effect, r->effect_len);
}

/* ---- The program ---- */

/* What is printed is out before the program waits for more; where it cannot be, there is no more to read. */
static ssize_t read_input(void *cookie, char *bytes, size_t n)
{
    (void)cookie;
    return fflush(stdout) == 0 ? read(STDIN_FILENO, bytes, n) : -1;
}

int main(void)
{
    static char buffer[1 << 16];
    FILE *input = fopencookie(NULL, "r", (cookie_io_functions_t){ .read = read_input });
    uint64_t number = 0, offset = 0;
    enum next next;
    adk_record r;
    if (input == NULL || setvbuf(input, buffer, _IOFBF, sizeof buffer) != 0)
        return 2;
    mdl_fresh_store(store, sizeof store);
    while ((next = read_record(input, &r)) == RECORD) {
        adk_answer a = make_call(&r);
        printf("%" PRIu64 " %" PRIu64 " %" PRIu64 " %" PRIu64 " %" PRIu64 "\n", number++, r.kind, a.r3, a.r4, a.r5);
        offset += adk_record_length(&r);
    }
    if (next == BAD)
        printf("answer 19 offset %" PRIu64 "\n", offset);
    return fflush(stdout) == 0 ? 0 : 1;
}
