/* order.c: see order.h. */
#define _XOPEN_SOURCE 700

#include "order.h"

#include "chance.h"

#include <inttypes.h>
#include <string.h>
#include <unistd.h>

/* ---- Values ---- */

static bool read_text(const char *value, const char **text)
{
    *text = value;
    return *value != '\0';
}

static bool read_between(const char *value, uint64_t least, uint64_t most, uint64_t *n)
{
    return read_number(value, n) && *n >= least && *n <= most;
}

static bool read_vendor(struct order *o, const char *value)
{
    return read_text(value, &o->vendor);
}

static bool read_report(struct order *o, const char *value)
{
    return read_text(value, &o->report);
}

static bool read_record(struct order *o, const char *value)
{
    return read_text(value, &o->record);
}

static bool read_answers(struct order *o, const char *value)
{
    return read_text(value, &o->answers);
}

static bool read_calls(struct order *o, const char *value)
{
    return read_between(value, 1, UINT32_MAX, &o->calls);
}

static bool read_order_seed(struct order *o, const char *value)
{
    return read_seed(value, &o->seed);
}

static bool read_only(struct order *o, const char *value)
{
    return read_between(value, 1, UINT32_MAX, &o->only);
}

static bool read_jobs(struct order *o, const char *value)
{
    return read_between(value, 1, JOBS_MOST, &o->jobs);
}

static bool read_limit(struct order *o, const char *value)
{
    return read_between(value, 1, 3600, &o->seconds);
}

static bool set_opaque(struct order *o, const char *value)
{
    (void)value;
    return o->manner.opaque = true;
}

static bool set_judge_outputs(struct order *o, const char *value)
{
    (void)value;
    return o->judge_outputs = true;
}

static bool set_large(struct order *o, const char *value)
{
    (void)value;
    return o->manner.large = true;
}

static bool set_nops(struct order *o, const char *value)
{
    (void)value;
    return o->manner.only_nops = true;
}

static bool set_csv(struct order *o, const char *value)
{
    (void)value;
    return o->csv = true;
}

static bool set_help(struct order *o, const char *value)
{
    (void)value;
    return o->help = true;
}

static bool set_version(struct order *o, const char *value)
{
    (void)value;
    return o->version = true;
}

/* ---- Options ---- */

#define A_CALL "a number from 1 to 4294967295"

/* value: how the help calls it, NULL where there is none; rule: what it must be. */
static const struct option {
    const char *name, *value;
    bool (*read)(struct order *o, const char *value);
    const char *rule, *help;
} OPTIONS[] = {
    { "--vendor", "FILE", read_vendor, "the name of a file",
      "the vendor's library, a shared object that exports the adk_* functions;\n"
      "without it model.so, which is beside this program" },
    { "--opaque", NULL, set_opaque, NULL,
      "for a vendor that keeps its own state: what it keeps changes by calls only,\n"
      "and nothing of the lent store is written or compared" },
    { "--judge-outputs", NULL, set_judge_outputs, NULL,
      "a run's output may have its elements in any order, and NOPs among them: it is\n"
      "judged by them, and not compared byte for byte; only with --opaque" },
    { "--large", NULL, set_large, NULL,
      "a night of the large store, of 63 guests and 64 slots; some of its stores are small\n"
      "ones that are converted, if the vendor exports adk_convert" },
    { "--report", "FILE", read_report, "the name of a file", "write the score as a page, to be opened in a browser" },
    { "--record", "FILE", read_record, "the name of a file",
      "write the calls as records, for the program replay; only with --opaque" },
    { "--answers", "FILE", read_answers, "the name of a file",
      "write what replay prints for these records: the library's answers" },
    { "--calls", "N", read_calls, A_CALL, "how many calls the night has (200000)" },
    { "--seed", "S", read_order_seed, "a number of at most 64 bits, or the word fresh",
      "the number that the night is made from, or the word fresh: one of its own" },
    { "--jobs", "N", read_jobs, "a number from 1 to 64",
      "make parts of the night side by side, in N processes (1); the figures are the same" },
    { "--limit", "S", read_limit, "a number of seconds from 1 to 3600", "how many seconds a call may take (5)" },
    { "--only", "N", read_only, A_CALL, "tell everything about call N of the night, and nothing else" },
    { "--csv", NULL, set_csv, NULL, "rows of figures: section, subject, measure, number" },
    { "--nops", NULL, set_nops, NULL, "a night whose buffers hold NOPs and nothing else" },
    { "--version", NULL, set_version, NULL, "the version, and nothing else" },
    { "--help", NULL, set_help, NULL, "this text; so does -h" },
};

enum { NAME_COLUMNS = 10, HELP_COLUMN = 19 };

/* A name that is longer than its columns, and then has no value, stands on a line of its own. */
static void print_option(FILE *to, const struct option *option)
{
    if (strlen(option->name) > NAME_COLUMNS)
        fprintf(to, "  %s\n%*s", option->name, HELP_COLUMN, "");
    else
        fprintf(to, "  %-*s %-5s ", NAME_COLUMNS, option->name, option->value == NULL ? "" : option->value);
    for (const char *c = option->help; *c != '\0'; c++)
        if (*c == '\n')
            fprintf(to, "\n%*s", HELP_COLUMN, "");
        else
            fputc(*c, to);
    fputc('\n', to);
}

void print_usage(FILE *to)
{
    fprintf(to, "usage: score [options]\n");
    for (size_t i = 0; i < COUNT(OPTIONS); i++)
        print_option(to, &OPTIONS[i]);
    fprintf(to, "A value stands behind its option or after '=', as in --calls=1000. The usual seed is 0x%" PRIX64 ".\n"
                "exit status: 0 passed, 1 something disagreed, 2 an unfit option or library, or output that could\n"
                "not be written, 3 all agreed and the night is worth nothing, since no element was set, 4 stopped\n",
            SEED);
}

/* The option of this name, up to an '=', or NULL. */
static const struct option *option_of(const char *word)
{
    size_t n = strcspn(word, "=");
    if (strcmp(word, "-h") == 0)
        word = "--help";
    for (size_t i = 0; i < COUNT(OPTIONS); i++)
        if (strcmp(word, OPTIONS[i].name) == 0 ||
            (n == strlen(OPTIONS[i].name) && strncmp(word, OPTIONS[i].name, n) == 0))
            return &OPTIONS[i];
    return NULL;
}

static bool unfit(const char *word, const char *value, const char *why)
{
    fprintf(stderr, "score: %s%s%s: %s; see score --help\n", word, value == NULL ? "" : " ", value == NULL ? "" : value,
            why);
    return false;
}

/* Reads the option at *i, and its value if it has one. */
static bool read_option(struct order *o, int argc, char **argv, int *i)
{
    const struct option *option = option_of(argv[*i]);
    if (option == NULL)
        return unfit(argv[*i], NULL, "no such option");
    const char *equals = strchr(argv[*i], '='), *value = equals == NULL ? NULL : equals + 1;
    if (option->value == NULL && value != NULL)
        return unfit(option->name, value, "takes no value");
    if (option->value != NULL && value == NULL) {
        if (++*i == argc)
            return unfit(option->name, NULL, option->rule);
        value = argv[*i];
    }
    if (option->read(o, value))
        return true;
    char rule[96];
    snprintf(rule, sizeof rule, "it must be %s", option->rule);
    return unfit(option->name, value, rule);
}

/*
 * The model as a vendor's library, in the folder of this program: it is found from wherever this one is called. A name
 * without a folder was found through PATH; the system knows where.
 */
static const char *beside(const char *program)
{
    static char own[4096], path[sizeof own + sizeof "model.so"];
    if (strchr(program, '/') == NULL && readlink("/proc/self/exe", own, sizeof own - 1) > 0)
        program = own;
    const char *slash = strrchr(program, '/');
    int folder = slash == NULL ? 0 : (int)(slash - program) + 1;
    snprintf(path, sizeof path, "%.*smodel.so", folder, program);
    return path;
}

/* Records are made again on a small store that changes by calls only. */
static bool fit_recording(const struct order *o, const char *option, const char *file)
{
    if (file != NULL && o->manner.large)
        return unfit(option, file, "not together with --large, since replay has a small store");
    if (file != NULL && !o->manner.opaque)
        return unfit(option, file, "only with --opaque, since no record tells what is written between calls");
    return true;
}

bool read_order(struct order *o, int argc, char **argv)
{
    *o = (struct order){ .program = argv[0], .seed = SEED, .calls = 200000, .jobs = 1, .seconds = USUAL_SECONDS };
    for (int i = 1; i < argc; i++)
        if (!read_option(o, argc, argv, &i))
            return false;
    if (o->only != 0 && o->report != NULL)
        return unfit("--report", o->report, "not together with --only, which tells one call");
    if (o->judge_outputs && !o->manner.opaque)
        return unfit("--judge-outputs", NULL, "only with --opaque, since every byte is compared without that");
    if (!fit_recording(o, "--record", o->record) || !fit_recording(o, "--answers", o->answers))
        return false;
    if (o->record != NULL || o->answers != NULL)
        o->jobs = 1; /* so that calls are written in their order */
    if (o->only != 0) {
        o->calls = o->only;
        o->jobs = 1;
    }
    o->model = o->vendor == NULL;
    if (o->model)
        o->vendor = beside(argv[0]);
    return true;
}

/* ---- Commands ---- */

/* A word of a command, in quotes where the shell would take it apart. */
static void print_word(FILE *to, const char *word)
{
    static const char plain[] = "ABCDEFGHIJKLMNOPQRSTUVWXYZabcdefghijklmnopqrstuvwxyz0123456789_./+-:@%=,";
    if (*word != '\0' && word[strspn(word, plain)] == '\0') {
        fprintf(to, "%s", word);
        return;
    }
    fprintf(to, "'");
    for (; *word != '\0'; word++)
        fprintf(to, *word == '\'' ? "'\\'%c" : "%c", *word);
    fprintf(to, "'");
}

void print_command(FILE *to, const struct order *o, uint64_t number)
{
    print_word(to, o->program);
    fprintf(to, " --vendor ");
    print_word(to, o->vendor);
    fprintf(to, "%s%s%s%s --seed 0x%" PRIX64, o->manner.opaque ? " --opaque" : "",
            o->judge_outputs ? " --judge-outputs" : "", o->manner.large ? " --large" : "",
            o->manner.only_nops ? " --nops" : "", o->seed);
    if (o->seconds != USUAL_SECONDS)
        fprintf(to, " --limit %" PRIu64, o->seconds);
    if (number != 0)
        fprintf(to, " --only %" PRIu64, number);
    else
        fprintf(to, " --calls %" PRIu64, o->calls);
}
