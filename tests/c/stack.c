/*
 * Measures how much stack the calls take. Each call has a stack of its own, filled beforehand with a byte, with a page that
 * nobody may touch below it; how far it is no longer that byte at the end is the most that was used.
 *
 *   stack < REQUESTS
 *
 * Makes the deepest texts and contracts that the limits allow, and the requests given. Prints the most that each call took, in bytes, and then
 * 'N passed, M failed': a call passes if it stayed within POLLUX_MAX_STACK.
 */
#include <stdlib.h>
#include <string.h>
#include <sys/mman.h>

#include "requests.h"

enum { PAGE = 4096, STACK = 4 * 1024 * 1024, FILL = 0x5a };

static uint8_t *stacks[LAST_CALL + 1];

static uint8_t *make_stack(void)
{
    uint8_t *pages = mmap(NULL, PAGE + STACK, PROT_READ | PROT_WRITE, MAP_PRIVATE | MAP_ANONYMOUS, -1, 0);
    if (pages == MAP_FAILED || mprotect(pages, PAGE, PROT_NONE) != 0) {
        perror("stack");
        exit(3);
    }
    memset(pages + PAGE, FILL, STACK);
    return pages + PAGE;
}

static size_t used(const uint8_t *stack)
{
    size_t unused = 0;
    while (unused < STACK && stack[unused] == FILL)
        unused++;
    return STACK - unused;
}

static const struct request *current;

static void make_current_call(void)
{
    make_call(&pollux_calls, current);
}

/* Calls make_current_call on another stack. */
static void call_on(uint8_t *top)
{
    __asm__ volatile("movq %%rsp, %%rbx\n\t"
                     "movq %0, %%rsp\n\t"
                     "call *%1\n\t"
                     "movq %%rbx, %%rsp"
                     :
                     : "r"(top), "r"(make_current_call)
                     : "rbx", "rax", "rcx", "rdx", "rsi", "rdi", "r8", "r9", "r10", "r11", "memory", "cc", "xmm0", "xmm1", "xmm2",
                       "xmm3", "xmm4", "xmm5", "xmm6", "xmm7", "xmm8", "xmm9", "xmm10", "xmm11", "xmm12", "xmm13", "xmm14", "xmm15");
}

static void measure(const struct request *request)
{
    current = request;
    call_on(stacks[request->call] + STACK);
}

/*
 * ---- The deepest texts: of 1,024 tokens in a row, and of 64 levels, the innermost of which holds the rest of the tokens. The last
 * word is false, so that an explanation has all parts to go through and one to show.
 */

static size_t repeat(uint8_t *text, const char *piece, size_t times)
{
    size_t length = strlen(piece);
    for (size_t i = 0; i < times; i++)
        memcpy(text + i * length, piece, length);
    return times * length;
}

static uint8_t entry[POLLUX_PRIORITY_SIZE], buffer[POLLUX_MAX_BLOCKS_SIZE];

/* The blocks of a translation, if that passes: against its text, and by themselves. */
static void measure_blocks(const struct request *translation)
{
    struct told written = make_call(&pollux_calls, translation);
    if (written.says != POLLUX_DONE)
        return;
    struct input blocks = { buffer, POLLUX_BLOCKS_SIZE(written.value) };
    struct request request = { .call = COMPARE, .inputs = { translation->inputs[0], translation->inputs[1], blocks, { entry, 0 } } };
    measure(&request);
    request = (struct request){ .call = LOAD, .inputs = { { entry, 0 }, blocks, { entry, sizeof entry }, { entry, 0 } } };
    measure(&request);
    request.call = RUN;
    measure(&request);
    static uint8_t entries[2 * POLLUX_PRIORITY_SIZE], answers[2];
    request.call = RUN_ALL;
    request.inputs[2] = (struct input){ entries, sizeof entries };
    request.inputs[ANSWERS] = (struct input){ answers, sizeof answers };
    measure(&request);
}

/* Two entries, the second of which is cut: more of them take no more. */
static void measure_count(uint8_t *text, size_t length)
{
    static uint8_t entries[2 * POLLUX_PRIORITY_SIZE - 1];
    static uint64_t parts[POLLUX_MAX_PARTS];
    struct request request = { .call = COUNT, .inputs = { { text, length }, { entry, 0 }, { entries, sizeof entries },
                                                          { (uint8_t *)parts, sizeof parts } } };
    measure(&request);
}

static void measure_text(uint8_t *text, size_t length)
{
    struct request request = { .inputs = { { text, length }, { entry, 0 }, { entry, sizeof entry }, { entry, 0 } } };
    for (request.call = READ; request.call <= JUDGE; request.call++)
        measure(&request);
    request.call = EXPLAIN;
    measure(&request);
    request.call = SUMMARIZE;
    measure(&request);
    measure_count(text, length);
    /* Without an old entry the new one is judged, with one it is not. */
    request.call = RECHECK;
    measure(&request);
    request.inputs[OLD_ENTRY].length = sizeof entry;
    measure(&request);
    request.inputs[2] = (struct input){ buffer, sizeof buffer };
    request.call = TRANSLATE;
    measure(&request);
    measure_blocks(&request);
    request.call = PRINT;
    measure(&request);
    request.call = FIX_OCTAL;
    measure(&request);
}

/* As many octal numerals as a text may have, in a text that is as long as one may be. */
static void measure_octal(uint8_t text[POLLUX_MAX_TEXT])
{
    struct request request = { .call = FIX_OCTAL, .inputs[1] = { entry, 0 }, .inputs[2] = { buffer, sizeof buffer } };
    request.inputs[0] = (struct input){ text, repeat(text, "0o7;", POLLUX_MAX_TOKENS / 2) };
    request.inputs[0].length += repeat(text + request.inputs[0].length, " ", POLLUX_MAX_TEXT - request.inputs[0].length);
    measure(&request);
}

static void measure_deepest(void)
{
    static uint8_t text[POLLUX_MAX_TEXT];
    size_t end = repeat(text, "true;", POLLUX_MAX_PARTS - 1);
    end += repeat(text + end, "false;", 1);
    measure_text(text, end);

    /* Each level with how many tokens it takes. A parenthesis is deepest after an operator of each kind. */
    static const struct {
        const char *opens, *holds, *closes;
        size_t tokens;
    } levels[] = {
        { "(", "true", ")", 2 },
        { "true;true->true||true&&true==(", "true", ")", 12 },
        { "!", "true", "", 2 },
        { "-", "ipv6('1:2:3:4:5:6:7:8')==1", "", 2 },
    };
    for (size_t i = 0; i < sizeof levels / sizeof levels[0]; i++) {
        end = repeat(text, levels[i].opens, POLLUX_MAX_LEVELS);
        end += repeat(text + end, levels[i].holds, 1);
        end += repeat(text + end, ";true", (POLLUX_MAX_TOKENS - levels[i].tokens * POLLUX_MAX_LEVELS) / 2 - 7);
        end += repeat(text + end, ";false", 1);
        end += repeat(text + end, levels[i].closes, POLLUX_MAX_LEVELS);
        measure_text(text, end);
    }
    measure_octal(text);
}

/*
 * Contracts of one input and one number: the most clauses and the most levels that a text may have, by exclusive or and by NOT over AND,
 * one more of each, and a contract that is far longer than any text.
 */
static void measure_contracts(void)
{
    static const struct {
        uint8_t conjunction; /* 0 for none */
        size_t assertions;
    } contracts[] = { { 0, 256 }, { 0, 257 }, { 0x88, 65 }, { 0x88, 66 }, { 0xc0, 33 }, { 0xc0, 34 }, { 0x80, 256 }, { 0xc8, 20000 } };
    static uint8_t contract[LONGEST_INPUT], list[POLLUX_KEY_SIZE] = { 1, 0, POLLUX_INPUT_WIDTH, [POLLUX_KEY_SIZE - POLLUX_MAX_NAME] = 'i' };
    static uint64_t table[] = { 1 };
    struct request request = { .call = PACT, .inputs = { { contract, 0 }, { list, sizeof list }, { buffer, sizeof buffer },
                                                         { (uint8_t *)table, sizeof table } } };
    for (size_t i = 0; i < sizeof contracts / sizeof contracts[0]; i++) {
        size_t end = 0;
        for (size_t made = 0; made < contracts[i].assertions; made++) {
            if (made > 0 && contracts[i].conjunction != 0)
                contract[end++] = contracts[i].conjunction;
            contract[end++] = 0;
            contract[end++] = 0;
        }
        request.inputs[0].length = end;
        measure(&request);
    }
}

int main(void)
{
    struct request request;
    for (unsigned call = READ; call <= LAST_CALL; call++)
        stacks[call] = make_stack();
    measure_deepest();
    measure_contracts();
    while (read_request(stdin, &request))
        measure(&request);
    unsigned failed = 0;
    for (unsigned call = READ; call <= LAST_CALL; call++) {
        size_t bytes = used(stacks[call]);
        printf("%s: %zu bytes of stack, of %d\n", call_name(call), bytes, POLLUX_MAX_STACK);
        failed += bytes > POLLUX_MAX_STACK;
    }
    printf("%u passed, %u failed\n", LAST_CALL - failed, failed);
    return failed == 0 ? 0 : 1;
}
