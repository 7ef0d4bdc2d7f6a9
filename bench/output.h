/*
 * output.h: outputs of runs, as a vendor may give them back, to be judged (02, L10): the store in the piece STORE, the
 * output in BUFFER (lent.h).
 */
#ifndef OUTPUT_H
#define OUTPUT_H

#include "night.h"

/* What is special in an output, or in the call that judges it. */
enum scene {
    OWN,
    ORDERED,
    WITH_NOP,
    SOME,
    REPEATED,
    OTHER_ID,
    OTHER_SIZE,
    OTHER_VALUE,
    SHORTER,
    CUT_ID,
    LYING_COUNT,
    BEHIND,
    TWO_FAULTS,
    FULL,
    REFUSED_BEFORE,
    CHANCE,
    SCENES
};

extern const char *const SCENE_NAME[SCENES];

struct output {
    enum scene scene;
    uint64_t guest, vcpu, exit_reason;
    size_t len[PIECES]; /* how much is lent */
    adk_answer answer;  /* what the request says; left open by chance */
};

/* Tries an output. BEFORE and both sides hold what is lent. */
typedef void try_output(const struct output *o);

/* A store of this size with vCPUs of both lists, in the first slot and in the last one, and with a taken one; most of
   their run buffers are not registered. False if it could not be made. */
bool begin_outputs(enum size size);

/* Tries outputs of each exit and each vCPU: each that SCENE_NAME lists. all: every ID, and buffers of up to 65,537
   bytes, are among them. */
void each_output(bool all, try_output *try);

/* An output by chance, of which most are good or nearly so; values of the store are stirred. */
struct output any_output(void);

/* The judging of an output, as it is lent to a side. */
typedef __typeof__(adk_judge_output) judge_entry;
adk_answer judge_as_lent(judge_entry *judge, enum side s, const struct output *o);

/* The name of a piece in which something that was lent or lies beside it changed, or NULL. What is done to the store
   stays until it is stirred, so it need not be looked at each time. */
const char *changed_piece(const struct output *o, bool store_too);

/* How many elements the exit has, of EXITS; and how many a scene needs to be there. */
unsigned exit_elements(uint64_t exit_reason);
unsigned elements_needed(enum scene s);

#endif
