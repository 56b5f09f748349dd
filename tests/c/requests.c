#include "requests.h"

#include <inttypes.h>
#include <stdlib.h>
#include <string.h>

const char *call_name(unsigned call)
{
    static const char *const names[] = { "no call", "read",    "check",     "judge",   "translate", "load",
                                         "run",     "print",   "explain",   "summarize", "recheck", "fix_octal", "pact",
                                         "compare", "count",   "run_all" };
    return names[call <= LAST_CALL ? call : 0];
}

const char *input_name(unsigned call, unsigned input)
{
    static const char *const names[][INPUTS] = {
        [READ] = { "text", "", "", "" },
        [CHECK] = { "text", "list", "", "" },
        [JUDGE] = { "text", "list", "entry", "" },
        [TRANSLATE] = { "text", "list", "buffer", "" },
        [LOAD] = { "list", "blocks", "", "" },
        [RUN] = { "list", "blocks", "entry", "" },
        [PRINT] = { "text", "", "buffer", "" },
        [EXPLAIN] = { "text", "list", "entry", "" },
        [SUMMARIZE] = { "text", "list", "", "" },
        [RECHECK] = { "text", "list", "entry", [OLD_ENTRY] = "old entry" },
        [FIX_OCTAL] = { "text", "", "buffer", "" },
        [PACT] = { "contract", "list", "buffer", [TABLE] = "table" },
        [COMPARE] = { "text", "list", "blocks", "" },
        [COUNT] = { "text", "list", "entries", [PARTS] = "parts" },
        [RUN_ALL] = { "list", "blocks", "entries", [ANSWERS] = "answers" },
    };
    return names[call][input];
}

size_t unit(unsigned call, unsigned input)
{
    return (call == PACT && input == TABLE) || (call == COUNT && input == PARTS) ? sizeof(uint64_t) : 1;
}

bool writes(unsigned call)
{
    return call == TRANSLATE || call == PRINT || call == FIX_OCTAL || call == PACT;
}

bool writes_to(unsigned call, unsigned input)
{
    switch (call) {
    case COUNT: return input == PARTS;
    case RUN_ALL: return input == ANSWERS;
    default: return input == 2 && writes(call);
    }
}

static void read_exactly(FILE *file, uint8_t *into, size_t length)
{
    if (fread(into, 1, length, file) == length)
        return;
    fprintf(stderr, "the last request is cut\n");
    exit(3);
}

/*
 * How many inputs a request has, and what stands in the third one before the old entry of a recheck, the numbers of a contract, or the answers of a
 * run of many entries.
 */
enum { FRAMED = 3, SIZE = 4, CHANGE_HEAD = 1 + SIZE, TABLE_HEAD = 2, ANSWERS_HEAD = SIZE, NUMBER = sizeof(uint64_t) };

static size_t size_at(const uint8_t head[4])
{
    return (size_t)head[0] << 24 | (size_t)head[1] << 16 | (size_t)head[2] << 8 | head[3];
}

static void set_size(uint8_t head[4], size_t size)
{
    for (int i = 0; i < 4; i++)
        head[i] = (uint8_t)(size >> 8 * (3 - i));
}

/* Reads one input; false if it is longer than any may be, and then it is passed over. */
static bool read_input(FILE *file, uint8_t memory[LONGEST_INPUT], struct input *input)
{
    uint8_t head[4];
    read_exactly(file, head, sizeof head);
    size_t length = size_at(head);
    *input = (struct input){ memory, length };
    bool fits = length <= LONGEST_INPUT;
    while (length > 0) {
        size_t part = length < LONGEST_INPUT ? length : LONGEST_INPUT;
        read_exactly(file, memory, part);
        length -= part;
    }
    return fits;
}

/* Takes the third input apart: after a head that ends in its length an input by itself, and the rest; false if it is too short. */
static bool take_apart(struct request *request, size_t head, struct input *first)
{
    struct input both = request->inputs[2];
    if (both.length < head)
        return false;
    size_t length = size_at(both.at + head - SIZE), room = both.length - head;
    if (length > room)
        return false;
    *first = (struct input){ both.at + head, length };
    request->inputs[2] = (struct input){ both.at + head + length, room - length };
    return true;
}

static bool take_change(struct request *request)
{
    const uint8_t *earlier = request->inputs[2].at;
    if (!take_apart(request, CHANGE_HEAD, &request->inputs[OLD_ENTRY]))
        return false;
    request->earlier = *earlier;
    return true;
}

static uint64_t number_at(const uint8_t *at)
{
    return (uint64_t)size_at(at) << 32 | size_at(at + 4);
}

/* The same of a contract's; its numbers go to where a machine can read them. */
static bool take_table(struct request *request)
{
    static uint64_t numbers[LONGEST_INPUT / NUMBER];
    struct input lent = request->inputs[2];
    if (lent.length < TABLE_HEAD)
        return false;
    size_t count = (size_t)lent.at[0] << 8 | lent.at[1], room = lent.length - TABLE_HEAD;
    if (count * NUMBER > room)
        return false;
    for (size_t i = 0; i < count; i++)
        numbers[i] = number_at(lent.at + TABLE_HEAD + i * NUMBER);
    request->inputs[TABLE] = (struct input){ (uint8_t *)numbers, count * NUMBER };
    request->inputs[2] = (struct input){ lent.at + TABLE_HEAD + count * NUMBER, room - count * NUMBER };
    return true;
}

/* Numbers for the parts, none of which is one that entries of such a length can have. */
static bool take_parts(struct request *request)
{
    static uint64_t numbers[POLLUX_MAX_PARTS];
    memset(numbers, 0xa5, sizeof numbers);
    request->inputs[PARTS] = (struct input){ (uint8_t *)numbers, sizeof numbers };
    return true;
}

static bool take_third(struct request *request)
{
    switch (request->call) {
    case RECHECK: return take_change(request);
    case PACT: return take_table(request);
    case COUNT: return take_parts(request);
    case RUN_ALL: return take_apart(request, ANSWERS_HEAD, &request->inputs[ANSWERS]);
    default: return true;
    }
}

bool read_request(FILE *file, struct request *request)
{
    static uint8_t memory[FRAMED][LONGEST_INPUT];
    int call;
    while ((call = getc(file)) != EOF) {
        bool good = call >= READ && call <= LAST_CALL;
        *request = (struct request){ .call = (unsigned)call, .inputs[OLD_ENTRY] = { memory[2], 0 } };
        for (int i = 0; i < FRAMED; i++)
            good &= read_input(file, memory[i], &request->inputs[i]);
        if (good && take_third(request))
            return true;
    }
    return false;
}

static void write_size(FILE *file, size_t size)
{
    uint8_t head[4];
    set_size(head, size);
    fwrite(head, 1, sizeof head, file);
}

static void write_input(FILE *file, const struct input *input)
{
    write_size(file, input->length);
    fwrite(input->at, 1, input->length, file);
}

/* The earlier answer and the old entry, which stand before the new one in the third input of a recheck. */
static void write_old(FILE *file, const struct request *request)
{
    fwrite(&request->earlier, 1, 1, file);
    write_input(file, &request->inputs[OLD_ENTRY]);
}

/* The count and the numbers, which stand before the buffer in the third input of a contract. */
static void write_table(FILE *file, const struct request *request)
{
    const uint64_t *numbers = (const uint64_t *)request->inputs[TABLE].at;
    size_t count = request->inputs[TABLE].length / NUMBER;
    uint8_t head[TABLE_HEAD] = { (uint8_t)(count >> 8), (uint8_t)count };
    fwrite(head, 1, sizeof head, file);
    for (size_t i = 0; i < count; i++) {
        write_size(file, (size_t)(numbers[i] >> 32));
        write_size(file, (size_t)(uint32_t)numbers[i]);
    }
}

/* The bytes that stand before the third input as it is lent. */
static size_t length_before(const struct request *request)
{
    switch (request->call) {
    case RECHECK: return CHANGE_HEAD + request->inputs[OLD_ENTRY].length;
    case PACT: return TABLE_HEAD + request->inputs[TABLE].length;
    case RUN_ALL: return ANSWERS_HEAD + request->inputs[ANSWERS].length;
    default: return 0;
    }
}

static void write_before(FILE *file, const struct request *request)
{
    if (request->call == RECHECK)
        write_old(file, request);
    if (request->call == PACT)
        write_table(file, request);
    if (request->call == RUN_ALL)
        write_input(file, &request->inputs[ANSWERS]);
}

bool can_be_read(const struct request *request)
{
    const struct input *inputs = request->inputs;
    return inputs[0].length <= LONGEST_INPUT && inputs[1].length <= LONGEST_INPUT &&
           length_before(request) + inputs[2].length <= LONGEST_INPUT;
}

void write_request(FILE *file, const struct request *request)
{
    uint8_t call = (uint8_t)request->call;
    fwrite(&call, 1, 1, file);
    for (int i = 0; i < FRAMED; i++) {
        const struct input *input = &request->inputs[i];
        write_size(file, input->length + (i == 2 ? length_before(request) : 0));
        if (i == 2)
            write_before(file, request);
        fwrite(input->at, 1, input->length, file);
    }
}

const struct calls pollux_calls = {
    pollux_read, pollux_check, pollux_judge,   pollux_translate, pollux_load,
    pollux_run,  pollux_print, pollux_explain, pollux_summarize, pollux_recheck, pollux_fix_octal,
    pollux_pact, pollux_compare, pollux_count, pollux_run_all,
};

static struct pollux_answer make_plain_call(const struct calls *calls, const struct request *request)
{
    const struct input *a = &request->inputs[0], *b = &request->inputs[1], *c = &request->inputs[2], *table = &request->inputs[TABLE];
    switch (request->call) {
    case READ: return calls->read(a->at, a->length);
    case CHECK: return calls->check(a->at, a->length, b->at, b->length);
    case JUDGE: return calls->judge(a->at, a->length, b->at, b->length, c->at, c->length);
    case TRANSLATE: return calls->translate(a->at, a->length, b->at, b->length, c->at, c->length);
    case LOAD: return calls->load(a->at, a->length, b->at, b->length);
    case PRINT: return calls->print(a->at, a->length, c->at, c->length);
    case FIX_OCTAL: return calls->fix_octal(a->at, a->length, c->at, c->length);
    case PACT:
        return calls->pact(a->at, a->length, (const uint64_t *)table->at, table->length / NUMBER, b->at, b->length, c->at, c->length);
    case COMPARE: return calls->compare(a->at, a->length, b->at, b->length, c->at, c->length);
    default: return calls->run(a->at, a->length, b->at, b->length, c->at, c->length);
    }
}

/*
 * The earlier answer that a byte stands for. Some of the bytes that stand for a refusal are told by numbers that are no answer of a
 * judgement, which count as that refusal.
 */
static struct pollux_answer earlier_answer(uint8_t byte)
{
    switch (byte) {
    case POLLUX_ACCEPTED: return (struct pollux_answer){ .says = POLLUX_ACCEPTED };
    case POLLUX_VIOLATED: return (struct pollux_answer){ .says = POLLUX_VIOLATED };
    case 3: return (struct pollux_answer){ .says = POLLUX_DONE };
    case 20: return (struct pollux_answer){ .says = POLLUX_ACCEPTED, .value = 1 };
    case 255: return (struct pollux_answer){ POLLUX_REFUSED, 256 + POLLUX_ENTRY_RULE, POLLUX_ENTRY, 7 };
    default: return (struct pollux_answer){ POLLUX_REFUSED, POLLUX_ENTRY_RULE, POLLUX_ENTRY, 0 };
    }
}

static struct told tell_reason(struct pollux_reason it)
{
    return (struct told){ .says = it.says, .number = it.number, .input = it.input, .value = it.value,
                          .part = it.part, .place = it.place, .start = it.start, .length = it.length };
}

static struct told tell_summary(struct pollux_summary it)
{
    return (struct told){ .says = it.says, .number = it.number, .input = it.input, .value = it.value,
                          .keys = it.keys, .priority = it.priority, .count = it.count };
}

static struct told tell_recheck(struct pollux_rechecked it)
{
    return (struct told){ .says = it.says, .number = it.number, .input = it.input, .value = it.value, .reused = it.reused };
}

static struct told tell_counts(struct pollux_counts it)
{
    return (struct told){ .says = it.says, .number = it.number, .input = it.input, .value = it.value,
                          .accepted = it.accepted, .violated = it.violated, .refused = it.refused, .cut = it.cut };
}

static struct told tell_table(struct pollux_table it)
{
    return (struct told){ .says = it.says, .number = it.number, .input = it.input, .value = it.value, .steps = it.steps };
}

static uint64_t *parts_of(const struct request *request)
{
    return (uint64_t *)request->inputs[PARTS].at;
}

struct told make_call(const struct calls *calls, const struct request *request)
{
    const struct input *a = &request->inputs[0], *b = &request->inputs[1], *c = &request->inputs[2], *old = &request->inputs[OLD_ENTRY],
                       *answers = &request->inputs[ANSWERS];
    switch (request->call) {
    case COUNT: return tell_counts(calls->count(a->at, a->length, b->at, b->length, c->at, c->length, parts_of(request)));
    case EXPLAIN: return tell_reason(calls->explain(a->at, a->length, b->at, b->length, c->at, c->length));
    case SUMMARIZE: return tell_summary(calls->summarize(a->at, a->length, b->at, b->length));
    case RECHECK:
        return tell_recheck(calls->recheck(a->at, a->length, b->at, b->length, old->at, old->length, earlier_answer(request->earlier),
                                           c->at, c->length));
    case RUN_ALL:
        return tell_table(calls->run_all(a->at, a->length, b->at, b->length, c->at, c->length, answers->at, answers->length));
    default: {
        struct pollux_answer answer = make_plain_call(calls, request);
        return (struct told){ .says = answer.says, .number = answer.number, .input = answer.input, .value = answer.value };
    }
    }
}

static uint32_t adler32(struct input input)
{
    uint32_t low = 1, high = 0;
    for (size_t i = 0; i < input.length; i++) {
        low = (low + input.at[i]) % 65521;
        high = (high + low) % 65521;
    }
    return high << 16 | low;
}

/* ---- Does an answer say what its call may say, with zeros where it says nothing? */

static bool fits_call(unsigned call, struct told answer)
{
    bool judges = call == JUDGE || call == RUN || call == EXPLAIN || call == RECHECK;
    switch (answer.says) {
    case POLLUX_REFUSED: return answer.number >= 1 && answer.input >= POLLUX_TEXT && answer.input <= POLLUX_TABLE;
    case POLLUX_ACCEPTED:
    case POLLUX_VIOLATED: return judges && answer.number == 0 && answer.input == 0 && (call == RUN || answer.value == 0);
    case POLLUX_DONE:
        return !judges && call != COMPARE && answer.number == 0 && answer.input == 0 &&
               ((call != CHECK && call != SUMMARIZE) || answer.value == 0);
    case POLLUX_AGREES:
    case POLLUX_DIFFERS: return call == COMPARE && answer.number == 0 && answer.input == 0 && answer.value == 0;
    default: return false;
    }
}

/* A run takes a step at least, and never more than there are instructions, of which each block tells the number. */
static bool fits_steps(const struct request *request, struct told answer)
{
    enum { TOTAL_AT = 504 };
    if (request->call != RUN || answer.says == POLLUX_REFUSED)
        return true;
    const uint8_t *total = request->inputs[1].at + TOTAL_AT;
    return answer.value >= 1 && answer.value <= ((uint64_t)total[0] << 8 | total[1]);
}

/* What an explanation must show: a part of the text for a violated entry, a key for one refused with 20 at a record, else nothing. */
enum shown { NOTHING, PART, KEY };

static enum shown what_is_shown(unsigned call, struct told answer)
{
    if (call != EXPLAIN)
        return NOTHING;
    if (answer.says == POLLUX_VIOLATED)
        return PART;
    return answer.says == POLLUX_REFUSED && answer.number == POLLUX_ENTRY_RULE && answer.value >= POLLUX_PRIORITY_SIZE ? KEY : NOTHING;
}

static bool lies_in(struct told answer, size_t length)
{
    return answer.length >= 1 && answer.start <= length && answer.length <= length - answer.start;
}

static bool fits_shown(const struct request *request, struct told answer)
{
    switch (what_is_shown(request->call, answer)) {
    case PART:
        return answer.part >= 1 && answer.part <= POLLUX_MAX_PARTS && lies_in(answer, request->inputs[0].length) &&
               answer.place >= answer.start && answer.place - answer.start < answer.length;
    case KEY:
        return answer.part == 0 && answer.place == answer.value && lies_in(answer, request->inputs[1].length) &&
               answer.length <= POLLUX_MAX_NAME;
    default: return answer.part == 0 && answer.place == 0 && answer.start == 0 && answer.length == 0;
    }
}

/* Only a summary names keys, and only a recheck reuses. */
static bool fits_named(const struct request *request, struct told answer)
{
    bool named = request->call == SUMMARIZE && answer.says == POLLUX_DONE;
    uint64_t keys = named ? request->inputs[1].length / POLLUX_KEY_SIZE : 0;
    return answer.keys >> keys == 0 && answer.count <= keys && answer.priority <= named && answer.reused <= (request->call == RECHECK);
}

/* Are the numbers of the parts such that some part is false for each entry that is violated, and none for any other? */
static bool fits_parts(const uint64_t *numbers, uint64_t parts, uint64_t violated)
{
    uint64_t all = 0;
    for (uint64_t k = 0; k < parts; k++) {
        if (numbers[k] > violated)
            return false;
        all += numbers[k];
    }
    return all >= violated;
}

/* Only a count has totals, which are of all whole entries. */
static bool fits_totals(const struct request *request, struct told answer)
{
    uint64_t entries = answer.accepted + answer.violated + answer.refused;
    if (request->call != COUNT || answer.says == POLLUX_REFUSED)
        return entries == 0 && answer.cut == 0;
    size_t size = POLLUX_ENTRY_SIZE(request->inputs[1].length / POLLUX_KEY_SIZE), length = request->inputs[2].length;
    return entries == length / size && answer.cut == length % size && answer.value >= 1 && answer.value <= POLLUX_MAX_PARTS &&
           fits_parts(parts_of(request), answer.value, answer.violated);
}

/*
 * Only a run of many entries tells the steps of all. Each of them has a byte, which is what a run of it alone says, and the steps are the sum of
 * theirs.
 */
static bool fits_table(const struct request *request, struct told answer)
{
    if (request->call != RUN_ALL || answer.says == POLLUX_REFUSED)
        return answer.steps == 0;
    const struct input *list = &request->inputs[0], *blocks = &request->inputs[1], *entries = &request->inputs[2];
    size_t size = POLLUX_ENTRY_SIZE(list->length / POLLUX_KEY_SIZE);
    if (answer.value * size != entries->length || answer.value > request->inputs[ANSWERS].length)
        return false;
    for (size_t k = 0; k < answer.value; k++) {
        struct pollux_answer one = pollux_run(list->at, list->length, blocks->at, blocks->length, entries->at + k * size, size);
        if (request->inputs[ANSWERS].at[k] != one.says)
            return false;
        answer.steps -= one.says == POLLUX_REFUSED ? 0 : one.value;
    }
    return answer.steps == 0;
}

/* ---- Lines. */

/* Writes at the end of a line. */
#define ADD(line, ...) snprintf((line) + strlen(line), LINE_SIZE - strlen(line), __VA_ARGS__)

static void add_answer(char line[LINE_SIZE], unsigned call, struct told answer)
{
    static const char *const inputs[] = { "", "text", "list", "entry", "blocks", "buffer", "contract", "table" };
    static const char *const counted[] = {
        [READ] = "read",   [TRANSLATE] = "translated", [LOAD] = "loaded", [PRINT] = "printed",
        [FIX_OCTAL] = "fixed", [PACT] = "drafted"
    };
    static const char *const words[] = {
        [POLLUX_ACCEPTED] = "accepted", [POLLUX_VIOLATED] = "violated", [POLLUX_DONE] = "passed",
        [POLLUX_AGREES] = "agrees", [POLLUX_DIFFERS] = "differs"
    };
    if (answer.says == POLLUX_REFUSED)
        ADD(line, "refused %" PRIu64 " %s %" PRIu64, answer.number, inputs[answer.input], answer.value);
    else if (call == RUN_ALL)
        ADD(line, "ran %" PRIu64 " %" PRIu64, answer.value, answer.steps);
    else if (call == SUMMARIZE)
        ADD(line, "summary %" PRIu64 " %" PRIu64 " %" PRIu64, answer.keys, answer.priority, answer.count);
    else if (answer.says == POLLUX_DONE && call != CHECK)
        ADD(line, "%s %" PRIu64, counted[call], answer.value);
    else
        ADD(line, "%s", words[answer.says]);
    if (call == RUN && answer.says != POLLUX_REFUSED)
        ADD(line, " %" PRIu64, answer.value);
}

static void add_piece(char line[LINE_SIZE], struct told answer, struct input input)
{
    struct input piece = { input.at + answer.start, (size_t)answer.length };
    ADD(line, " at %" PRIu64 " %" PRIu64 " %" PRIu64 " %u", answer.place, answer.start, answer.length, adler32(piece));
}

static void add_explanation(char line[LINE_SIZE], const struct request *request, struct told answer)
{
    switch (what_is_shown(EXPLAIN, answer)) {
    case PART:
        ADD(line, "part %" PRIu64, answer.part);
        add_piece(line, answer, request->inputs[0]);
        break;
    case KEY:
        ADD(line, "key");
        add_piece(line, answer, request->inputs[1]);
        break;
    default:
        ADD(line, "nothing ");
        add_answer(line, EXPLAIN, answer);
    }
}

static void add_counts(char line[LINE_SIZE], const struct request *request, struct told answer)
{
    ADD(line, "counted %" PRIu64 " %" PRIu64 " %" PRIu64 " %" PRIu64, answer.accepted, answer.violated, answer.refused, answer.cut);
    for (uint64_t k = 0; k < answer.value; k++)
        ADD(line, " %" PRIu64, parts_of(request)[k]);
}

/* Does the answer say what its call may say? */
static bool fits(const struct request *request, struct told answer)
{
    return fits_call(request->call, answer) && fits_steps(request, answer) && fits_shown(request, answer) && fits_named(request, answer) &&
           fits_totals(request, answer) && fits_table(request, answer);
}

static void add_odd(char line[LINE_SIZE], struct told answer)
{
    uint64_t numbers[sizeof answer / sizeof(uint64_t)];
    memcpy(numbers, &answer, sizeof answer);
    ADD(line, "odd");
    for (size_t i = 0; i < sizeof numbers / sizeof numbers[0]; i++)
        ADD(line, " %" PRIu64, numbers[i]);
}

void answer_line(char line[LINE_SIZE], const struct request *request, struct told answer)
{
    line[0] = '\0';
    if (!fits(request, answer))
        add_odd(line, answer);
    else if (request->call == EXPLAIN)
        add_explanation(line, request, answer);
    else if (request->call == COUNT && answer.says == POLLUX_DONE)
        add_counts(line, request, answer);
    else {
        if (request->call == RECHECK)
            ADD(line, "%s ", answer.reused ? "reused" : "judged");
        add_answer(line, request->call, answer);
    }
    if (writes(request->call))
        ADD(line, " %u", adler32(request->inputs[2]));
    if (request->call == RUN_ALL)
        ADD(line, " %u", adler32(request->inputs[ANSWERS]));
}
