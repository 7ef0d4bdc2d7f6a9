/* page.c: the score as one page, to be read in a browser, printed and signed. It needs nothing from elsewhere. */
#define _XOPEN_SOURCE 700

#include "result.h"

#include "tell.h"

#include <inttypes.h>
#include <stdlib.h>
#include <string.h>

/* ---- How it looks ---- */

static const char *const STYLE[] = {
    "*{box-sizing:border-box}",
    "body{font:15px/1.45 system-ui,'Liberation Sans','DejaVu Sans',Arial,sans-serif;color:#1b1f24;background:#fff;",
    "max-width:1060px;margin:0 auto;padding:32px 28px 40px}",
    "h1{font-size:26px;margin:0 0 2px}h2{font-size:18px;margin:34px 0 8px;padding-bottom:4px;",
    "border-bottom:1px solid #c9d1d9}h3{font-size:14px;margin:16px 0 4px}p{margin:6px 0}",
    ".over{font-size:13px;color:#57606a;margin:0 0 10px}",
    ".verdict{display:flex;align-items:center;gap:18px;border:2px solid;border-radius:8px;padding:14px 18px;",
    "margin:16px 0}.verdict b{font-size:28px;letter-spacing:.04em;white-space:nowrap}",
    ".passed{color:#0a5c2b;background:#eaf7ee;border-color:#1a7f42}.failed{color:#8c1515;background:#fdeeee;",
    "border-color:#b42318}.worth{color:#6b4a00;background:#fff6e0;border-color:#a87400}",
    ".stopped{color:#3d444d;background:#f1f3f5;border-color:#6e7781}",
    "dl{display:grid;grid-template-columns:max-content 1fr;gap:3px 18px;margin:0}dt{color:#57606a}dd{margin:0;",
    "overflow-wrap:anywhere}",
    "code,pre,.n,.id{font-family:'Liberation Mono','DejaVu Sans Mono',Consolas,monospace;font-size:12.5px}",
    "table{border-collapse:collapse;width:100%;font-size:13px}th,td{padding:3px 7px;text-align:left;",
    "border-bottom:1px solid #e3e7eb;vertical-align:top}th{color:#57606a;font-weight:600;background:#f6f8fa}",
    "th.n{font:inherit;font-weight:600}td.n,th.n{text-align:right;white-space:nowrap}.sort{white-space:nowrap}",
    "tr.kind td{border-bottom:0;padding-bottom:0}tr.how td{padding-top:0}td.no{color:#b6bdc5;text-align:right}",
    "td.zero{background:#fff0c9;color:#7a5200;font-weight:700}",
    ".narrow td,.narrow th{padding:3px 5px;font-size:12px}.half{width:auto;min-width:480px}",
    "pre{background:#f6f8fa;border:1px solid #e3e7eb;border-radius:6px;padding:10px 12px;white-space:pre-wrap;",
    "overflow-wrap:anywhere;font-size:11.5px;line-height:1.35;margin:6px 0}",
    ".map{display:grid;grid-template-columns:repeat(16,1fr);gap:3px}",
    ".cell{border:1px solid #d0d7de;border-radius:3px;padding:2px 3px 3px;min-width:0;background:#fff}",
    ".cell.bad{border-color:#b42318;background:#fdeeee}",
    ".cell span{display:block;font-size:8.5px;line-height:1.25;white-space:nowrap;overflow:hidden;",
    "text-overflow:ellipsis}.ways{display:grid;grid-template-columns:repeat(6,1fr);gap:1px;margin-top:1px}",
    "i{display:block;height:7px;border-radius:1px;border:1px solid transparent}",
    "i.yes{background:#1a7f42}i.missed{background:#fff;border-color:#b42318}i.cannot{background:#e9edf0}",
    ".wide{grid-column:span 2}",
    ".key{display:flex;flex-wrap:wrap;gap:6px 20px;font-size:13px;margin:6px 0 10px}.key i{display:inline-block;",
    "width:20px;height:10px;margin-right:6px}",
    ".sign{display:grid;grid-template-columns:2fr 1fr 2fr;gap:34px;margin-top:60px}.sign div{",
    "border-top:1px solid #1b1f24;padding-top:4px;font-size:13px;color:#57606a}",
    "@media print{body{padding:0;max-width:none;font-size:12px}h2{break-after:avoid}.verdict,.map,tr,.cell,",
    ".sign{break-inside:avoid}*{-webkit-print-color-adjust:exact;print-color-adjust:exact}}",
};

/* ---- Text ---- */

/* Text as it is, whatever it holds. */
static void put_text(FILE *to, const char *text)
{
    for (; *text != '\0'; text++)
        switch (*text) {
        case '&': fputs("&amp;", to); break;
        case '<': fputs("&lt;", to); break;
        case '>': fputs("&gt;", to); break;
        case '"': fputs("&quot;", to); break;
        default: fputc(*text, to);
        }
}

/* A number with its thousands apart. */
static void put_number(FILE *to, uint64_t n)
{
    char digits[24];
    int length = snprintf(digits, sizeof digits, "%" PRIu64, n);
    for (int i = 0; i < length; i++)
        fprintf(to, i > 0 && (length - i) % 3 == 0 ? ",%c" : "%c", digits[i]);
}

/* A sentence of the score's own words, with the thousands of its numbers apart. */
static void put_sentence(FILE *to, const char *text)
{
    while (*text != '\0') {
        size_t digits = strspn(text, "0123456789");
        if (digits == 0)
            fputc(*text++, to);
        else
            put_number(to, strtoull(text, NULL, 10));
        text += digits;
    }
}

static void put_cell(FILE *to, uint64_t n)
{
    fputs("<td class=\"n\">", to);
    put_number(to, n);
    fputs("</td>", to);
}

/* A count that is to be there; 0 is marked. */
static void put_expected(FILE *to, uint64_t n)
{
    if (n == 0)
        fputs("<td class=\"n zero\">0</td>", to);
    else
        put_cell(to, n);
}

static void put_command(FILE *to, const struct order *o, uint64_t number)
{
    char command[8192];
    FILE *text = fmemopen(command, sizeof command - 1, "w");
    if (text == NULL)
        return;
    print_command(text, o, number);
    fclose(text);
    fputs("<code>", to);
    put_text(to, command);
    fputs("</code>", to);
}

static void put_fact(FILE *to, const char *name, const char *value)
{
    fprintf(to, "<dt>%s</dt><dd>", name);
    put_text(to, value);
    fputs("</dd>\n", to);
}

/* A fact that is typed or compared sign by sign. */
static void put_code(FILE *to, const char *name, const char *value)
{
    fprintf(to, "<dt>%s</dt><dd><code>", name);
    put_text(to, value);
    fputs("</code></dd>\n", to);
}

/* ---- The head ---- */

static const char *file_name(const char *path)
{
    const char *slash = strrchr(path, '/');
    return slash == NULL ? path : slash + 1;
}

static void put_head(FILE *to, const struct result *r)
{
    static const char *const look[] = { [PASSED] = "passed", [FAILED] = "failed", [UNFIT] = "failed",
                                        [WORTH_NOTHING] = "worth", [STOPPED] = "stopped" };
    const char *name = file_name(r->order->vendor);
    fputs("<!DOCTYPE html>\n<html lang=\"en\"><head><meta charset=\"utf-8\"><title>", to);
    fprintf(to, "%s: ", verdict_name(r->verdict));
    put_text(to, name);
    fputs("</title>\n<style>\n", to);
    for (size_t i = 0; i < COUNT(STYLE); i++)
        fprintf(to, "%s\n", STYLE[i]);
    fputs("</style></head><body>\n<p class=\"over\">Score of an L0 for nested guests on POWER, against Adderknot "
          ADK_VERSION "</p>\n<h1>", to);
    put_text(to, name);
    fprintf(to, "</h1>\n<div class=\"verdict %s\"><b id=\"verdict\">%s</b><span id=\"sentence\">", look[r->verdict],
            verdict_name(r->verdict));
    put_sentence(to, r->sentence);
    fputs("</span></div>\n", to);
}

/* The store's size, and whether small ones were converted; and how full it was. */
static void put_store(FILE *to, struct manner m, const struct cover *v)
{
    const struct layout *l = layout_of_night(m);
    char text[160];
    snprintf(text, sizeof text, "%s: %u guests, %u slots, %zu bytes%s", l->name, l->guests, l->slots, l->size,
             !m.large ? "" : m.no_conversion ? "; the vendor exports no conversion, so it is not scored"
                                             : "; some begin as small ones, which are converted");
    fputs("<dt>Store</dt><dd id=\"store\">", to);
    put_sentence(to, text);
    fputs("</dd>\n<dt>Fullest store</dt><dd id=\"fullest\">", to);
    fprintf(to, "%" PRIu64 " of %u guests, %" PRIu64 " of %u slots</dd>\n", v->guests, l->guests, v->slots, l->slots);
}

/* Where the vendor keeps its state, and what is compared. */
static const char *way_of(const struct order *o)
{
    if (o->judge_outputs)
        return "the vendor's own (--opaque): answers and buffers are compared, outputs judged (--judge-outputs)";
    return o->manner.opaque ? "the vendor's own (--opaque): answers and buffers are compared"
                            : "in the lent store: answers, buffers and every byte of the store are compared";
}

static void put_facts(FILE *to, const struct result *r)
{
    const struct order *o = r->order;
    char start[64], text[160];
    strftime(start, sizeof start, "%Y-%m-%d %H:%M:%S %z", localtime(&r->start));
    fputs("<dl>\n", to);
    snprintf(text, sizeof text, "%.100s%s", o->vendor, o->model ? " (the model, since no vendor was named)" : "");
    put_fact(to, "Vendor's library", text);
    put_code(to, "SHA-256", r->sha256);
    put_fact(to, "Measured against", "Adderknot " ADK_VERSION);
    put_fact(to, "State", way_of(o));
    put_store(to, o->manner, &r->figures->cover);
    snprintf(text, sizeof text, "0x%" PRIX64 "%s", o->seed, o->manner.only_nops ? ", buffers of NOPs only" : "");
    put_code(to, "Seed", text);
    snprintf(text, sizeof text, "%" PRIu64 " made, %" PRIu64 " agreed, %" PRIu64 " disagreed, %" PRIu64 " not made",
             r->figures->made, r->figures->agreed, r->figures->made - r->figures->agreed, o->calls - r->figures->made);
    fputs("<dt>Calls</dt><dd id=\"calls\">", to);
    put_sentence(to, text);
    fputs("</dd>\n", to);
    snprintf(text, sizeof text, "%s, for %.1f seconds", start, r->seconds);
    put_fact(to, "Started", text);
    fputs("<dt>To repeat</dt><dd>", to);
    put_command(to, o, 0);
    fputs("</dd>\n</dl>\n", to);
}

/* ---- Disagreements ---- */

static void put_sight(FILE *to, const struct order *o, const struct sight *s)
{
    unsigned ours, theirs;
    char sort[KIND_TEXT];
    name_sort(s->sort, sort);
    fprintf(to, "<tr class=\"kind\"><td>%s</td><td class=\"sort\">", KINDS[s->call].name);
    put_text(to, sort);
    fputs("</td><td>", to);
    if (is_pair(s->sort, &ours, &theirs))
        fprintf(to, "%s &rarr; %s%s", adk_answer_name(ours), adk_answer_name(theirs),
                ours == theirs ? ", with another R4, R5 or place" : "");
    fputs("</td>", to);
    put_cell(to, s->seen->calls);
    put_cell(to, s->seen->first);
    fputs("</tr>\n<tr class=\"how\"><td></td><td colspan=\"4\">", to);
    put_command(to, o, s->seen->first);
    fputs("</td></tr>\n", to);
}

static void put_disagreements(FILE *to, const struct result *r)
{
    static struct sight sights[SIGHTS_MOST];
    size_t n = list_sights(r->figures, sights);
    fputs("<h2>Disagreements</h2>\n", to);
    if (n == 0) {
        fputs("<p>None.</p>\n", to);
        return;
    }
    fputs("<table><tr><th>Call</th><th>Differs in</th><th>R3: library &rarr; vendor</th><th class=\"n\">Calls</th>"
          "<th class=\"n\">First call, and how to repeat it</th></tr>\n", to);
    for (size_t i = 0; i < n; i++)
        put_sight(to, r->order, &sights[i]);
    fputs("</table>\n", to);
}

static void put_told(FILE *to, const struct figures *f)
{
    if (f->told_count == 0)
        return;
    fputs("<h2>The first disagreement of each kind, in full</h2>\n", to);
    for (unsigned i = 0; i < f->told_count; i++) {
        fputs("<pre>", to);
        put_text(to, f->told[i].text);
        fputs("</pre>\n", to);
    }
}

/* ---- Answers ---- */

static void put_answers(FILE *to, const struct cover *v, struct manner manner)
{
    fputs("<h2>Answers by call</h2>\n<p>How often the library gave each answer. A dash: the call cannot give it. A "
          "marked 0: it can, and did not in this night.</p>\n<table class=\"narrow\"><tr><th>R3</th>", to);
    for (int a = 0; a < ANSWERS; a++)
        if (some_call_gives(a))
            fprintf(to, "<th class=\"n\" title=\"%s\">%d</th>", adk_answer_name((uint64_t)a), a);
    fputs("</tr>\n", to);
    for (size_t k = 0; k < KIND_COUNT; k++) {
        if (!is_made(&KINDS[k], manner))
            continue;
        fprintf(to, "<tr class=\"call\"><td>%s</td>", KINDS[k].name);
        for (int a = 0; a < ANSWERS; a++)
            if (!some_call_gives(a))
                continue;
            else if (!can_answer(&KINDS[k], a, manner))
                fputs("<td class=\"no\">&ndash;</td>", to);
            else
                put_expected(to, v->answers[k][a]);
        fputs("</tr>\n", to);
    }
    fputs("</table>\n<p class=\"over\">", to);
    for (int a = 0; a < ANSWERS; a++)
        if (some_call_gives(a))
            fprintf(to, "%s%d %s", a == 0 ? "" : ", ", a, adk_answer_name((uint64_t)a));
    fputs("</p>\n", to);
}

/* ---- Elements ---- */

static void put_ways(FILE *to, const struct cover *v)
{
    fputs("<table class=\"half\"><tr><th>Elements</th>", to);
    for (enum list list = 0; list < LISTS; list++)
        fprintf(to, "<th colspan=\"3\" class=\"n\">By %s</th>", LIST_NAME[list]);
    fputs("</tr>\n<tr><th></th>", to);
    for (enum list list = 0; list < LISTS; list++)
        fputs("<th class=\"n\">Covered</th><th class=\"n\">Can be</th><th class=\"n\">Missed</th>", to);
    fputs("</tr>\n", to);
    for (enum way way = 0; way < WAYS; way++) {
        fprintf(to, "<tr class=\"way\"><td>%s</td>", WAY_NAME[way]);
        for (enum list list = 0; list < LISTS; list++) {
            put_cell(to, how_many(v, list, way, is_covered));
            put_cell(to, how_many_can_be(list, way));
            put_cell(to, how_many(v, list, way, is_missed));
        }
        fputs("</tr>\n", to);
    }
    fputs("</table>\n", to);
}

static void put_refused(FILE *to, const struct cover *v)
{
    char name[ADK_NAME_SIZE];
    fprintf(to, "<h3>What POWER9 guests lack</h3>\n<p>How often each of the %d was refused. A marked 0: it was not in "
                "this night.</p>\n<table class=\"narrow\"><tr><th>Buffer</th>", LATER_COUNT);
    for (unsigned i = 0; i < LATER_COUNT; i++)
        fprintf(to, "<th class=\"n\" title=\"0x%04X\">%s</th>", later_id(i),
                adk_element_name((uint16_t)later_id(i), name));
    fputs("</tr>\n", to);
    for (int j = 0; j < JUDGED; j++) {
        fprintf(to, "<tr class=\"refused\"><td>%s</td>", JUDGED_NAME[j]);
        for (unsigned i = 0; i < LATER_COUNT; i++)
            put_expected(to, v->refused[j][i]);
        fputs("</tr>\n", to);
    }
    fputs("</table>\n", to);
}

static void put_key(FILE *to)
{
    fprintf(to, "<p class=\"key\"><span><i class=\"yes\"></i>covered</span><span><i class=\"missed\"></i>missed"
                "</span><span><i class=\"cannot\"></i>cannot be covered</span><span>In each cell from the left: set "
                "(by set state or a run's input), read, written by an effect, returned by a run, taken with its vCPU, "
                "given back; above by %s, below by %s.</span></p>\n", LIST_NAME[WHOLE], LIST_NAME[POWER9]);
}

/* The counts of an element, as the text that a browser shows over its cell. */
static void put_counts(FILE *to, const struct cover *v, enum list list, unsigned id)
{
    fprintf(to, "%s%s:", list == 0 ? "" : "; ", LIST_NAME[list]);
    for (enum way way = 0; way < WAYS; way++)
        if (can_be(list, way, id))
            fprintf(to, " %s %" PRIu64, WAY_NAME[way], v->elements[list][way][id]);
}

static void put_bars(FILE *to, const struct cover *v, enum list list, unsigned id)
{
    for (enum way way = 0; way < WAYS; way++) {
        bool covered = is_covered(v, list, way, id);
        fprintf(to, "<i class=\"%s\"></i>", covered ? "yes" : can_be(list, way, id) ? "missed" : "cannot");
    }
}

static bool some_missed(const struct cover *v, unsigned id)
{
    bool missed = false;
    for (enum list list = 0; list < LISTS; list++)
        for (enum way way = 0; way < WAYS; way++)
            missed = missed || is_missed(v, list, way, id);
    return missed;
}

static void put_element(FILE *to, const struct cover *v, unsigned id)
{
    char name[ADK_NAME_SIZE];
    adk_element_name((uint16_t)id, name);
    fprintf(to, "<div class=\"cell%s%s\" title=\"0x%04X %s, ", some_missed(v, id) ? " bad" : "",
            strlen(name) > 9 ? " wide" : "", id, name);
    for (enum list list = 0; list < LISTS; list++)
        put_counts(to, v, list, id);
    fprintf(to, "\"><span>%s</span><div class=\"ways\">", name);
    for (enum list list = 0; list < LISTS; list++)
        put_bars(to, v, list, id);
    fputs("</div></div>\n", to);
}

/* The elements in the groups that the header lists them in. */
static const struct group {
    const char *name;
    unsigned first, last;
} GROUPS[] = {
    { "Guest-wide", 0x0001, 0x0006 },
    { "Run buffers and VPA", 0x0C00, 0x0C02 },
    { "General purpose registers", 0x1000, 0x101F },
    { "Registers of 64 bits", 0x1020, 0x1053 },
    { "Registers of 32 bits", 0x2000, 0x200E },
    { "Vector-scalar registers", 0x3000, 0x303F },
    { "Of an exit", 0xF000, 0xF003 },
};

static void put_elements(FILE *to, const struct cover *v)
{
    fprintf(to, "<h2>Coverage of the %d elements</h2>\n", ELEMENTS);
    put_ways(to, v);
    put_refused(to, v);
    put_key(to);
    for (size_t i = 0; i < COUNT(GROUPS); i++) {
        fprintf(to, "<h3>%s, 0x%04X to 0x%04X</h3>\n<div class=\"map\">\n", GROUPS[i].name, GROUPS[i].first,
                GROUPS[i].last);
        for (unsigned id = GROUPS[i].first; id <= GROUPS[i].last; id++)
            put_element(to, v, id);
        fputs("</div>\n", to);
    }
}

static void put_buffers(FILE *to, const struct cover *v)
{
    fputs("<h2>Accepted buffers</h2>\n<table class=\"half\"><tr><th>Buffer</th><th class=\"n\">Accepted</th>"
          "<th class=\"n\">Nothing but NOPs</th><th class=\"n\">Longest, in bytes</th></tr>\n", to);
    for (int j = 0; j < JUDGED; j++) {
        fprintf(to, "<tr class=\"buffer\"><td>%s</td>", JUDGED_NAME[j]);
        put_cell(to, v->accepted[j]);
        put_cell(to, v->only_nops[j]);
        put_cell(to, v->longest[j]);
        fputs("</tr>\n", to);
    }
    fputs("</table>\n<p>", to);
    put_number(to, all_only_nops(v));
    fputs(" of ", to);
    put_number(to, all_accepted(v));
    fputs(" accepted buffers held nothing but NOPs.</p>\n", to);
}

static void put_handed(FILE *to, const struct cover *v)
{
    fputs("<h2>vCPUs handed over</h2>\n<table class=\"half\"><tr><th>vCPUs</th><th class=\"n\">All</th>"
          "<th class=\"n\">Without a value</th><th class=\"n\">With all 170</th></tr>\n", to);
    for (int h = 0; h < HANDS; h++) {
        fprintf(to, "<tr class=\"handed\"><td>%s</td>", HAND_NAME[h]);
        put_cell(to, v->handed[h].vcpus);
        put_cell(to, v->handed[h].empty);
        put_cell(to, v->handed[h].full);
        fputs("</tr>\n", to);
    }
    fputs("</table>\n", to);
}

static void put_outputs(FILE *to, const struct outputs *o)
{
    fputs("<h2>Outputs judged</h2>\n<p id=\"outputs\">", to);
    put_number(to, o->other);
    fputs(" of ", to);
    put_number(to, o->all);
    fputs(" accepted runs gave other bytes than ours; ", to);
    put_number(to, o->refused);
    fputs(" of these were refused. The others hold each element of their exit once with our value, in an order of "
          "their own or with NOPs.</p>\n", to);
}

static void put_touched(FILE *to, const struct touched *t)
{
    char exit[EXIT_TEXT];
    fputs("<h2>vCPUs touched</h2>\n<p id=\"touched\">", to);
    put_number(to, t->touched);
    fputs(" of ", to);
    put_number(to, t->created);
    fprintf(to, " vCPUs ran, were set or were refused an element. %s</p>\n",
            t->vcpus == 0 ? "None is there at the night's end." : "Those that are there at the night's end:");
    if (t->vcpus == 0)
        return;
    fputs("<table class=\"half\"><tr><th>vCPU</th><th class=\"n\">Slot</th><th class=\"n\">Accepted runs</th>"
          "<th class=\"n\">Elements set</th><th class=\"n\">Refusals</th><th>Last exit</th></tr>\n", to);
    for (const struct vcpu *v = t->vcpu; v < t->vcpu + t->vcpus; v++) {
        name_exit(&v->record, exit);
        fprintf(to, "<tr class=\"tally\"><td>guest %u vCPU %u</td>", v->guest, v->id);
        put_cell(to, v->slot);
        put_cell(to, v->record.runs);
        put_cell(to, v->record.elements);
        put_cell(to, v->record.refusals);
        fprintf(to, "<td>%s</td></tr>\n", exit);
    }
    fputs("</table>\n", to);
}

/* ---- The page ---- */

void page_score(FILE *to, const struct result *r)
{
    const struct cover *v = &r->figures->cover;
    put_head(to, r);
    put_facts(to, r);
    put_disagreements(to, r);
    put_elements(to, v);
    put_buffers(to, v);
    put_handed(to, v);
    if (r->order->judge_outputs)
        put_outputs(to, &r->figures->outputs);
    if (r->order->manner.opaque)
        put_touched(to, &r->figures->touched);
    put_answers(to, v, r->order->manner);
    put_told(to, r->figures);
    fputs("<div class=\"sign\"><div>Inspector</div><div>Date</div><div>Signature</div></div>\n</body></html>\n", to);
}
