/*
 * Numbers that have no place in a record. The functions that write records refuse them and leave no step: whoever
 * takes the record all the same is refused, and the world stays as it was, though a step stood in the record before.
 * And order numbers, previews, awaited messages, what came first and settles, asked for and refused: what was lent
 * stays as it was.
 */
#include <stdio.h>
#include <string.h>
#include <wardrobeteal.h>

static uint16_t world[WT_WORLD_WORDS], before[WT_WORLD_WORDS];
/* The second slice of a preview, with a word to spare, and what it held. */
static uint16_t second[WT_WORLD_WORDS + 1], held[WT_WORLD_WORDS + 1];
static uint8_t record[WT_RECORD_BYTES];

/* A record in which a step stands that the world would take. */
static uint8_t *used(void) {
    wt_put_multicast(record, 0, WT_GROUP(1));
    return record;
}

static const char *state(const void *was, const void *is, size_t size) {
    return memcmp(was, is, size) == 0 ? "as it was" : "changed";
}

/* What writing a step answered, and what comes of taking the record all the same. */
static void print_step(const char *what, uint32_t put) {
    uint32_t i, sum = 0, taken;
    for (i = 0; i < WT_RECORD_BYTES; i++) sum += record[i];
    memcpy(before, world, sizeof world);
    taken = wt_step(world, WT_WORLD_WORDS, record, sizeof record);
    printf("%s: refusal %u, record %s, taken all the same: refusal %u, world %s\n", what, (unsigned)put,
           sum == 0 ? "zeros" : "written", (unsigned)taken, state(before, world, sizeof world));
}

/* What the preview of the step in the record answered, with so many words of the world and the second slice lent. */
static void print_preview(const char *what, size_t words, size_t second_words) {
    uint32_t fifo = 7, causal = 8, answer;
    memset(second, 0x5A, sizeof second);
    memcpy(held, second, sizeof second);
    memcpy(before, world, sizeof world);
    answer = wt_preview(world, words, record, sizeof record, second, second_words, &fifo, &causal);
    printf("preview of %s: refusal %u, numbers %u %u, second slice %s, world %s\n", what, (unsigned)answer,
           (unsigned)fifo, (unsigned)causal, state(held, second, sizeof second), state(before, world, sizeof world));
}

/* Previews in a world without messages, and when words are cut, too many, or those of no world. */
static void print_previews(void) {
    used();
    print_preview("multicast 0 to 1", WT_WORLD_WORDS, WT_WORLD_WORDS);
    print_preview("it, world a word too short", WT_WORLD_WORDS - 1, WT_WORLD_WORDS);
    print_preview("it, second slice a word too short", WT_WORLD_WORDS, WT_WORLD_WORDS - 1);
    print_preview("it, second slice a word too long", WT_WORLD_WORDS, WT_WORLD_WORDS + 1);
    print_preview("it, second slice empty", WT_WORLD_WORDS, 0);
    world[WT_PLACE_COUNT] = WT_MESSAGES + 1;
    print_preview("it in no world", WT_WORLD_WORDS, WT_WORLD_WORDS);
    print_preview("it in no world, second slice a word too short", WT_WORLD_WORDS, WT_WORLD_WORDS - 1);
    world[WT_PLACE_COUNT] = 0;
    wt_put_crash(record, 3);
    print_preview("crash 3", WT_WORLD_WORDS, WT_WORLD_WORDS);
    print_preview("crash 3, second slice a word too short", WT_WORLD_WORDS, WT_WORLD_WORDS - 1);
}

/* What asking for the order number of a message answered, with so many words lent. */
static void print_order(const char *what, size_t words, uint32_t message) {
    uint32_t number = 7;
    uint32_t answer = wt_order(world, words, message, &number);
    printf("%s: refusal %u, number %u\n", what, (unsigned)answer, (unsigned)number);
}

/* Order numbers of a world of one message, and when the words are cut or those of no world. */
static void print_orders(void) {
    wt_put_multicast_with_order(record, 0, WT_GROUP(1), 1017);
    wt_step(world, WT_WORLD_WORDS, record, sizeof record);
    print_order("order of message 0", WT_WORLD_WORDS, 0);
    print_order("order of message 1", WT_WORLD_WORDS, 1);
    print_order("order of message 2^32 - 1", WT_WORLD_WORDS, 0xFFFFFFFF);
    print_order("order of message 0, a word too few", WT_WORLD_WORDS - 1, 0);
    world[WT_PLACE_COUNT] = WT_MESSAGES + 1;
    print_order("order of message 0 of no world", WT_WORLD_WORDS, 0);
}

/* What asking for the awaited message answered, with so many words lent. */
static void print_awaited(const char *what, size_t words, uint32_t process, uint32_t message) {
    uint32_t kind = 7, of = 8, awaited = 9, answer;
    memcpy(before, world, sizeof world);
    answer = wt_awaited(world, words, process, message, &kind, &of, &awaited);
    printf("awaited %s: refusal %u, numbers %u %u %u, world %s\n", what, (unsigned)answer, (unsigned)kind,
           (unsigned)of, (unsigned)awaited, state(before, world, sizeof world));
}

/* Takes the step that was written, and adds to the answers. */
static void then(uint32_t *answers, uint32_t put) {
    *answers += put + wt_step(world, WT_WORLD_WORDS, record, sizeof record);
}

/* Message 1 waits at process 2 for message 0, which process 1 has delivered; then it is asked for, rightly and not. */
static void print_awaiteds(void) {
    const size_t del = WT_PLACE_PROCESSES + 2 * WT_PROCESS_BLOCK + 154;
    const size_t counter = WT_PLACE_MESSAGES + 2 + WT_PROCESSES;
    uint32_t answers = 0;
    world[WT_PLACE_COUNT] = 1;
    then(&answers, wt_put_trust(record, 1, WT_PROCESS(1)));
    then(&answers, wt_put_arrival(record, WT_LETTER_FIRST, 0, 0, 1));
    then(&answers, wt_put_arrival(record, WT_LETTER_OK, 0, 1, 1));
    then(&answers, wt_put_multicast(record, 1, WT_GROUP(1)));
    then(&answers, wt_put_trust(record, 2, WT_PROCESS(2)));
    then(&answers, wt_put_arrival(record, WT_LETTER_FIRST, 1, 1, 2));
    then(&answers, wt_put_arrival(record, WT_LETTER_OK, 1, 2, 2));
    printf("message 1 at process 2: refused %u\n", (unsigned)answers);
    print_awaited("there", WT_WORLD_WORDS, 2, 1);
    print_awaited("there, a word too few", WT_WORLD_WORDS - 1, 2, 1);
    print_awaited("at process 3 by message 2", WT_WORLD_WORDS, 3, 2);
    print_awaited("at process 2^32 - 1 by message 1", WT_WORLD_WORDS, 0xFFFFFFFF, 1);
    print_awaited("by message 2", WT_WORLD_WORDS, 2, 2);
    print_awaited("by message 2^32 - 1", WT_WORLD_WORDS, 2, 0xFFFFFFFF);
    print_awaited("by message 0, which is not in the FIFO log", WT_WORLD_WORDS, 2, 0);
    print_awaited("by message 0 at process 1, where it is in both logs", WT_WORLD_WORDS, 1, 0);
    world[del] = 1;
    print_awaited("there with del[0] 1", WT_WORLD_WORDS, 2, 1);
    world[del] = 0;
    world[counter] = 2;
    print_awaited("there with C[1][0] of message 0 2", WT_WORLD_WORDS, 2, 1);
    world[WT_PLACE_COUNT] = WT_MESSAGES + 1;
    print_awaited("in no world", WT_WORLD_WORDS, 2, 1);
}

/* What asking about pairs answered, with so many words of the world and the pairs and so many bytes lent. */
static void print_precedes(const char *what, size_t words, const uint16_t *pairs, size_t pair_words, size_t bytes) {
    uint8_t answers[2 * WT_PAIRS];
    uint32_t different = 7, answer, zeros = 0, ones = 0, kept = 0, i;
    memset(answers, 0x5A, sizeof answers);
    memcpy(before, world, sizeof world);
    answer = wt_precedes(world, words, pairs, pair_words, answers, bytes, &different);
    for (i = 0; i < sizeof answers; i++) {
        zeros += answers[i] == 0;
        ones += answers[i] == 1;
        kept += answers[i] == 0x5A;
    }
    printf("pairs, %s: refusal %u, number %u, bytes 0: %u, 1: %u, as they were: %u, world %s\n", what, (unsigned)answer,
           (unsigned)different, (unsigned)zeros, (unsigned)ones, (unsigned)kept, state(before, world, sizeof world));
}

/* Message 0 precedes message 1, and there are no others; then pairs are asked about, rightly and not. */
static void print_pairs(void) {
    uint16_t pairs[2 * WT_PAIRS + 2] = {0, 1, 1, 0, 0, 0};
    world[WT_PLACE_COUNT] = 2;
    world[WT_PLACE_MESSAGES + 2 + WT_PROCESSES] = 1;
    print_precedes("three", WT_WORLD_WORDS, pairs, 6, 3);
    print_precedes("256", WT_WORLD_WORDS, pairs, 512, 256);
    print_precedes("none", WT_WORLD_WORDS, pairs, 0, 0);
    print_precedes("three, a word of the world too few", WT_WORLD_WORDS - 1, pairs, 6, 3);
    print_precedes("an odd length", WT_WORLD_WORDS, pairs, 5, 2);
    print_precedes("257", WT_WORLD_WORDS, pairs, 514, 257);
    print_precedes("three, a byte too few", WT_WORLD_WORDS, pairs, 6, 2);
    print_precedes("three, a byte too many", WT_WORLD_WORDS, pairs, 6, 4);
    print_precedes("none, a byte too many", WT_WORLD_WORDS, pairs, 0, 1);
    pairs[5] = 2;
    print_precedes("three, the last word 2", WT_WORLD_WORDS, pairs, 6, 3);
    print_precedes("three, the last word 2, a byte too few", WT_WORLD_WORDS, pairs, 6, 2);
    pairs[5] = 65535;
    print_precedes("three, the last word 65535", WT_WORLD_WORDS, pairs, 6, 3);
    world[WT_PLACE_COUNT] = WT_MESSAGES + 1;
    print_precedes("an odd length in no world", WT_WORLD_WORDS, pairs, 5, 2);
}

/* What both settles answered with budget 1, with so many words lent. */
static void print_settles(const char *what, size_t words) {
    uint32_t i;
    memcpy(before, world, sizeof world);
    for (i = 0; i < 2; i++) {
        uint32_t arrivals = 7, done = 8;
        uint32_t answer = (i == 0 ? wt_settle : wt_settle_fair)(world, words, 1, &arrivals, &done);
        printf("%s, %s: refusal %u, numbers %u %u, world %s\n", i == 0 ? "settle" : "fair settle", what,
               (unsigned)answer, (unsigned)arrivals, (unsigned)done, state(before, world, sizeof world));
        memcpy(world, before, sizeof world);
    }
}

/* Settles of a world with letters in flight, and when the words are cut or those of no world. */
static void print_settled(void) {
    world[WT_PLACE_COUNT] = 2;
    print_settles("one arrival", WT_WORLD_WORDS);
    print_settles("a word too few", WT_WORLD_WORDS - 1);
    print_settles("no words", 0);
    world[WT_PLACE_COUNT] = WT_MESSAGES + 1;
    print_settles("in no world", WT_WORLD_WORDS);
    print_settles("in no world, a word too few", WT_WORLD_WORDS - 1);
}

static void print_setup(const char *what, const uint8_t *groups, size_t processes) {
    uint32_t put = wt_put_setup(used(), groups, processes);
    printf("%s: refusal %u, made all the same: refusal %u\n", what, (unsigned)put,
           (unsigned)wt_world_make(world, WT_WORLD_WORDS, record, sizeof record));
}

int main(void) {
    const uint8_t groups[] = {0, 1, 1};
    const uint8_t wrong[] = {0, 8};
    const uint8_t seventeen[17] = {0};
    const uint64_t large = UINT64_C(0x100000003);
    wt_put_setup(record, groups, 3);
    wt_world_make(world, WT_WORLD_WORDS, record, sizeof record);
    print_step("crash 259", wt_put_crash(used(), 259));
    print_step("crash -1", wt_put_crash(used(), (uint64_t)-1));
    print_step("crash 2^32 + 3", wt_put_crash(used(), large));
    print_step("multicast 256 to 1", wt_put_multicast(used(), 256, WT_GROUP(1)));
    print_step("multicast 0 to 1 9", wt_put_multicast(used(), 0, WT_GROUP(1) | WT_GROUP(9)));
    print_step("multicast 0 to 65", wt_put_multicast(used(), 0, WT_GROUP(65)));
    print_step("multicast 256 to 9", wt_put_multicast(used(), 256, WT_GROUP(9)));
    print_step("multicast 0 to 1 order 65536", wt_put_multicast_with_order(used(), 0, WT_GROUP(1), 65536));
    print_step("multicast 0 to 1 order 2^32 + 3", wt_put_multicast_with_order(used(), 0, WT_GROUP(1), large));
    print_step("multicast 256 to 9 order 65536", wt_put_multicast_with_order(used(), 256, WT_GROUP(9), 65536));
    print_step("multicast 256 to 9 order 65535", wt_put_multicast_with_order(used(), 256, WT_GROUP(9), 65535));
    print_step("multicast 0 to 9 order 65535", wt_put_multicast_with_order(used(), 0, WT_GROUP(9), 65535));
    print_step("arrival kind 256 of 0 from 0 to 1", wt_put_arrival(used(), 256, 0, 0, 1));
    print_step("arrival first 256 from 0 to 1", wt_put_arrival(used(), WT_LETTER_FIRST, 256, 0, 1));
    print_step("arrival first 0 from 256 to 1", wt_put_arrival(used(), WT_LETTER_FIRST, 0, 256, 1));
    print_step("loss first 0 from 0 to 257", wt_put_loss(used(), WT_LETTER_FIRST, 0, 0, 257));
    print_step("trust 0 in 0 17", wt_put_trust(used(), 0, WT_PROCESS(0) | WT_PROCESS(17)));
    print_step("trust 258 in 0", wt_put_trust(used(), 258, WT_PROCESS(0)));
    /* These have a place, and the world has no such process. */
    print_step("crash 3", wt_put_crash(used(), 3));
    print_step("trust 0 in 0 15", wt_put_trust(used(), 0, WT_PROCESS(0) | WT_PROCESS(15)));
    print_step("multicast 3 to 1 order 65535", wt_put_multicast_with_order(used(), 3, WT_GROUP(1), 65535));
    print_previews();
    print_orders();
    print_awaiteds();
    print_pairs();
    print_settled();
    print_setup("setup 0 8", wrong, 2);
    print_setup("setup of 17", seventeen, 17);
    print_setup("setup of none", groups, 0);
    return 0;
}
