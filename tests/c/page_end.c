/*
 * Lends the inputs of every call at the very end of a page, with the next page out of bounds, and a little before it, so that
 * they begin at every alignment, a table and the numbers for the parts at those that numbers have; and at the very start of a page, with the one before out of bounds. A call that touches a byte
 * outside its inputs ends this program with a message that names the case.
 *
 *   page_end vary < REQUESTS > VARIED     the requests of the incident, of an octal numeral, of a contract, of another order of
 *                                         parts, of a count and of many entries, and those given, each whole, and with one input a byte
 *                                         shorter or a byte longer, of a table a number; the numbers for the parts are always as many
 *   page_end VARIED LINES                 makes the calls and holds their answers to the lines
 *
 * LINES is what `desk answer` says of VARIED. The last line is 'N passed, M failed'; the status is 0 if M is 0.
 */
#include <signal.h>
#include <stdlib.h>
#include <string.h>
#include <sys/mman.h>
#include <unistd.h>

#include "requests.h"

enum { PAGE = 4096, ROOM = LONGEST_INPUT + PAGE, MARGIN = 64, ALIGNMENTS = 16, AT_START = ALIGNMENTS, PLACINGS };

/* Room for one input between two pages that nobody may touch. */
struct arena {
    uint8_t *room;
};

static struct arena arenas[INPUTS];

/* What is being done, for the message after a fault and for the counts. */
static struct {
    unsigned long request;
    const struct request *lent;
    unsigned placing;
    unsigned long passed, failed;
} now;

/* ---- Requests with inputs that are a byte too short or too long. */

/* A digit: at a text's end it makes a word or a numeral longer. */
enum { MORE = '1' };

static void write_varied(const struct request *request, unsigned input)
{
    static _Alignas(uint64_t) uint8_t longer[LONGEST_INPUT + sizeof(uint64_t)];
    struct request varied = *request;
    size_t length = request->inputs[input].length, step = unit(request->call, input);
    if (length > 0) {
        varied.inputs[input].length = length - step;
        write_request(stdout, &varied);
    }
    memcpy(longer, request->inputs[input].at, length);
    memset(longer + length, MORE, step);
    varied.inputs[input] = (struct input){ longer, length + step };
    if (can_be_read(&varied))
        write_request(stdout, &varied);
}

static void write_all_varied(const struct request *request)
{
    write_request(stdout, request);
    for (unsigned input = 0; input < INPUTS; input++)
        if (input_name(request->call, input)[0] != '\0' && !(request->call == COUNT && input == PARTS))
            write_varied(request, input);
}

/*
 * The incident: a key name that fills its record to the last byte of the list, and a text whose word is that name and goes on.
 * Compared by the word's length, the name is read past the list's end. (The longer word comes from a byte more of text.)
 */
static void write_incident(void)
{
    static uint8_t list[POLLUX_KEY_SIZE] = { POLLUX_MAX_NAME, 0, 1 };
    static uint8_t entry[POLLUX_ENTRY_SIZE(1)] = { [4] = 1, [23] = 1 };
    static uint8_t buffer[POLLUX_BLOCK_SIZE];
    uint8_t *name = list + POLLUX_KEY_SIZE - POLLUX_MAX_NAME;
    memset(name, 'k', POLLUX_MAX_NAME);
    struct request request = { .inputs = { { name, POLLUX_MAX_NAME }, { list, sizeof list }, { buffer, 0 }, { entry, 0 } } };
    request.call = CHECK;
    write_all_varied(&request);
    request.call = SUMMARIZE;
    write_all_varied(&request);
    request.inputs[2] = (struct input){ entry, sizeof entry };
    request.call = JUDGE;
    write_all_varied(&request);
    request.call = EXPLAIN;
    write_all_varied(&request);
    request.call = RECHECK;
    request.earlier = POLLUX_ACCEPTED;
    request.inputs[OLD_ENTRY] = (struct input){ entry, sizeof entry };
    write_all_varied(&request);
    request.call = TRANSLATE;
    request.inputs[2] = (struct input){ buffer, sizeof buffer };
    write_all_varied(&request);
}

/* An octal numeral that the text ends in, into a buffer that has no byte more than is written. */
static void write_octal(void)
{
    static uint8_t text[] = { 'v', '=', '=', '0', 'o', '0', '1', '7' }, buffer[sizeof text - 2];
    struct request request = { .call = FIX_OCTAL, .inputs = { { text, sizeof text }, { text, 0 }, { buffer, sizeof buffer }, { text, 0 } } };
    write_all_varied(&request);
}

/* A name that fills its record, the last number of a table, and a buffer that has no byte more than is written. */
static void write_contract(void)
{
    static uint8_t contract[] = { 0x00, 0x01 }, list[POLLUX_KEY_SIZE] = { POLLUX_MAX_NAME, 0, POLLUX_INPUT_WIDTH };
    static uint8_t buffer[POLLUX_MAX_NAME + sizeof " == 7" - 1];
    static uint64_t table[] = { 0, 7 };
    memset(list + POLLUX_KEY_SIZE - POLLUX_MAX_NAME, 'k', POLLUX_MAX_NAME);
    struct request request = { .call = PACT, .inputs = { { contract, sizeof contract }, { list, sizeof list },
                                                         { buffer, sizeof buffer }, { (uint8_t *)table, sizeof table } } };
    write_all_varied(&request);
}

/* Blocks of a text's parts in another order; the text ends in a name that fills its record to the last byte of the list. */
static void write_comparison(void)
{
    static uint8_t list[POLLUX_KEY_SIZE] = { POLLUX_MAX_NAME, 0, 1 }, text[] = "true;1==", other[] = ";true";
    static uint8_t ours[sizeof text - 1 + POLLUX_MAX_NAME], theirs[sizeof ours], blocks[POLLUX_BLOCK_SIZE];
    memset(list + POLLUX_KEY_SIZE - POLLUX_MAX_NAME, 'k', POLLUX_MAX_NAME);
    memset(ours, 'k', sizeof ours);
    memset(theirs, 'k', sizeof theirs);
    memcpy(ours, text, sizeof text - 1);
    memcpy(theirs, "1==", 3);
    memcpy(theirs + sizeof theirs - (sizeof other - 1), other, sizeof other - 1);
    pollux_translate(theirs, sizeof theirs, list, sizeof list, blocks, sizeof blocks);
    struct request request = { .call = COMPARE, .inputs = { { ours, sizeof ours }, { list, sizeof list },
                                                            { blocks, sizeof blocks }, { text, 0 } } };
    write_all_varied(&request);
    request.inputs[0] = (struct input){ text, sizeof "true" - 1 };
    write_all_varied(&request);
}

/* An entry that is accepted and one that is violated, and no byte more; the text ends in a name that fills its record to the last byte of the list. */
static void write_count(void)
{
    static uint8_t list[POLLUX_KEY_SIZE] = { POLLUX_MAX_NAME, 0, 1 }, text[] = "true;1==", ours[sizeof text - 1 + POLLUX_MAX_NAME];
    static uint8_t entries[2 * POLLUX_ENTRY_SIZE(1)] = { [4] = 1, [23] = 1, [POLLUX_ENTRY_SIZE(1) + 4] = 1 };
    static uint64_t parts[POLLUX_MAX_PARTS];
    memset(list + POLLUX_KEY_SIZE - POLLUX_MAX_NAME, 'k', POLLUX_MAX_NAME);
    memset(ours, 'k', sizeof ours);
    memcpy(ours, text, sizeof text - 1);
    struct request request = { .call = COUNT, .inputs = { { ours, sizeof ours }, { list, sizeof list },
                                                          { entries, sizeof entries }, { (uint8_t *)parts, sizeof parts } } };
    write_all_varied(&request);
}

/* An entry that is accepted, one that is violated and one that is refused, with a byte for each, and no byte more. */
static void write_many(void)
{
    enum { ONE = POLLUX_ENTRY_SIZE(1), ENTRIES = 3 };
    static uint8_t list[POLLUX_KEY_SIZE] = { 1, 0, 1, [POLLUX_KEY_SIZE - POLLUX_MAX_NAME] = 'k' }, text[] = "k==1", blocks[POLLUX_BLOCK_SIZE];
    static uint8_t entries[ENTRIES * ONE] = { [4] = 1, [23] = 1, [ONE + 4] = 1 }, answers[ENTRIES] = { 0xa5, 0x5a, 0xff };
    pollux_translate(text, sizeof text - 1, list, sizeof list, blocks, sizeof blocks);
    struct request request = { .call = RUN_ALL, .inputs = { { list, sizeof list }, { blocks, sizeof blocks },
                                                            { entries, sizeof entries }, { answers, sizeof answers } } };
    write_all_varied(&request);
    request.inputs[2].length = 0;
    write_all_varied(&request);
}

static int vary(void)
{
    struct request request;
    write_incident();
    write_octal();
    write_contract();
    write_comparison();
    write_count();
    write_many();
    while (read_request(stdin, &request))
        write_all_varied(&request);
    return fflush(stdout) == 0 ? 0 : 3;
}

/* ---- Pages. */

static _Noreturn void give_up(const char *what)
{
    perror(what);
    exit(3);
}

static void protect(const struct arena *arena, int protection)
{
    if (mprotect(arena->room, ROOM, protection) != 0)
        give_up("mprotect");
}

static void make_arena(struct arena *arena)
{
    uint8_t *pages = mmap(NULL, PAGE + ROOM + PAGE, PROT_NONE, MAP_PRIVATE | MAP_ANONYMOUS, -1, 0);
    if (pages == MAP_FAILED)
        give_up("mmap");
    arena->room = pages + PAGE;
    protect(arena, PROT_READ | PROT_WRITE);
}

/* The bytes around an input have a value that changes from placing to placing, so an answer that depends on them changes too. */
static uint8_t surroundings(unsigned placing)
{
    static const uint8_t values[] = { 0x00, MORE, 0xff, ' ', '\'', 0xa5 };
    return values[placing % sizeof values];
}

/* The bytes before and after an input that are watched: as many as the room has, and at most MARGIN. */
static struct input before(const struct arena *arena, struct input lent)
{
    size_t room = (size_t)(lent.at - arena->room);
    size_t length = room < MARGIN ? room : MARGIN;
    return (struct input){ lent.at - length, length };
}

static struct input after(const struct arena *arena, struct input lent)
{
    uint8_t *end = lent.at + lent.length;
    size_t room = (size_t)(arena->room + ROOM - end);
    return (struct input){ end, room < MARGIN ? room : MARGIN };
}

static bool all_are(struct input part, uint8_t byte)
{
    for (size_t i = 0; i < part.length; i++)
        if (part.at[i] != byte)
            return false;
    return true;
}

/* Of the bytes between an input and the end of a page as many stay as its unit goes into. */
static struct input lend(const struct arena *arena, struct input input, unsigned placing, size_t unit)
{
    uint8_t *at = placing == AT_START ? arena->room : arena->room + ROOM - placing / unit * unit - input.length;
    struct input lent = { at, input.length };
    struct input front = before(arena, lent), back = after(arena, lent);
    memcpy(at, input.at, input.length);
    memset(front.at, surroundings(placing), front.length);
    memset(back.at, surroundings(placing), back.length);
    return lent;
}

static bool untouched_around(const struct arena *arena, struct input lent, unsigned placing)
{
    uint8_t byte = surroundings(placing);
    return all_are(before(arena, lent), byte) && all_are(after(arena, lent), byte);
}

/* ---- Faults. */

static void tell_case(void)
{
    printf("request %lu, %s", now.request, call_name(now.lent->call));
    if (now.placing == AT_START)
        printf(", inputs at the start of a page");
    else
        printf(", inputs that end %u bytes before the end of a page", now.placing);
    for (unsigned input = 0; input < INPUTS; input++)
        if (input_name(now.lent->call, input)[0] != '\0')
            printf(", %s of %zu bytes", input_name(now.lent->call, input), now.lent->inputs[input].length);
    printf("\n");
}

static void tell_place(const uint8_t *address)
{
    for (unsigned input = 0; input < INPUTS; input++) {
        const uint8_t *room = arenas[input].room;
        const struct input *lent = &now.lent->inputs[input];
        const char *name = input_name(now.lent->call, input);
        if (address < room - PAGE || address >= room + ROOM + PAGE)
            continue;
        if (address < lent->at)
            printf("FAULT at byte %td before the %s: ", lent->at - address, name);
        else if (address >= lent->at + lent->length)
            printf("FAULT at byte %td past the end of the %s: ", address - lent->at - (ptrdiff_t)lent->length + 1, name);
        else
            printf("FAULT by writing byte %td of the %s: ", address - lent->at, name);
        return;
    }
    printf("FAULT at %p, outside all inputs (the stack, if nothing else): ", (const void *)address);
}

/* An emulator may enter a handler with a stack that is 8 bytes off, which printf does not bear; hence the attribute. */
__attribute__((force_align_arg_pointer)) static void on_fault(int signal, siginfo_t *what, void *context)
{
    (void)signal;
    (void)context;
    tell_place(what->si_addr);
    tell_case();
    printf("%lu passed, %lu failed\n", now.passed, now.failed + 1);
    fflush(stdout);
    _exit(1);
}

static void catch_faults(void)
{
    static uint8_t memory[65536];
    stack_t own = { .ss_sp = memory, .ss_size = sizeof memory };
    struct sigaction action = { .sa_sigaction = on_fault, .sa_flags = SA_SIGINFO | SA_ONSTACK };
    if (sigaltstack(&own, NULL) != 0 || sigaction(SIGSEGV, &action, NULL) != 0 || sigaction(SIGBUS, &action, NULL) != 0)
        give_up("sigaction");
}

/* ---- The calls. */

static bool failed(const char *what)
{
    printf("FAILED, %s: ", what);
    tell_case();
    return false;
}

/* How many bytes an answer tells of. */
static size_t written_for(unsigned call, struct told answer)
{
    if (answer.says != POLLUX_DONE)
        return 0;
    switch (call) {
    case TRANSLATE: return POLLUX_BLOCKS_SIZE(answer.value);
    case COUNT: return answer.value * sizeof(uint64_t);
    default: return answer.value;
    }
}

/* Only the blocks, the text, the numbers or the answers that an answer tells of may have changed, and after a refusal nothing. */
static bool kept_rest(const struct request *request, const struct request *lent, struct told answer)
{
    size_t written = written_for(request->call, answer);
    for (unsigned i = 0; i < INPUTS; i++) {
        const struct input *before = &request->inputs[i], *after = &lent->inputs[i];
        if (!writes_to(request->call, i))
            continue;
        if (written > after->length || memcmp(before->at + written, after->at + written, after->length - written) != 0)
            return false;
    }
    return true;
}

static bool same_answer(const struct request *lent, struct told answer, const char *line)
{
    char got[LINE_SIZE];
    answer_line(got, lent, answer);
    if (strcmp(got, line) == 0)
        return true;
    printf("answer '%s', expected '%s': ", got, line);
    return false;
}

static bool try_placing(const struct request *request, const char *line, unsigned placing)
{
    struct request lent = *request;
    now.lent = &lent;
    now.placing = placing;
    for (unsigned i = 0; i < INPUTS; i++) {
        lent.inputs[i] = lend(&arenas[i], request->inputs[i], placing, unit(request->call, i));
        if (!writes_to(request->call, i))
            protect(&arenas[i], PROT_READ);
    }
    struct told answer = make_call(&pollux_calls, &lent);
    for (unsigned i = 0; i < INPUTS; i++) {
        protect(&arenas[i], PROT_READ | PROT_WRITE);
        if (!untouched_around(&arenas[i], lent.inputs[i], placing))
            return failed("bytes around an input were written");
    }
    if (!kept_rest(request, &lent, answer))
        return failed("bytes of the buffer or of the answers, or numbers for the parts, changed that must stay");
    return same_answer(&lent, answer, line) || failed("another answer");
}

static void try_request(const struct request *request, const char *line)
{
    for (unsigned placing = 0; placing < PLACINGS; placing++) {
        if (!try_placing(request, line, placing)) {
            now.failed++;
            return;
        }
    }
    now.passed++;
}

static FILE *opened(const char *path)
{
    FILE *file = fopen(path, "rb");
    if (file == NULL)
        give_up(path);
    return file;
}

static int try_all(FILE *requests, FILE *lines)
{
    char line[LINE_SIZE];
    struct request request;
    for (unsigned i = 0; i < INPUTS; i++)
        make_arena(&arenas[i]);
    catch_faults();
    while (read_request(requests, &request)) {
        now.request++;
        if (fgets(line, sizeof line, lines) == NULL) {
            fprintf(stderr, "there are fewer lines than requests\n");
            return 3;
        }
        line[strcspn(line, "\n")] = '\0';
        try_request(&request, line);
    }
    printf("%lu passed, %lu failed\n", now.passed, now.failed);
    return now.failed == 0 ? 0 : 1;
}

int main(int count, char **words)
{
    if (count == 2 && strcmp(words[1], "vary") == 0)
        return vary();
    if (count != 3) {
        fprintf(stderr, "usage: page_end vary < REQUESTS > VARIED\n       page_end VARIED LINES\n");
        return 3;
    }
    return try_all(opened(words[1]), opened(words[2]));
}
