/*
 * Prints what the header states beside its declarations: sizes, the refusals' words, records written by its
 * functions, and what its functions read from a world; what two previews show, whose message is awaited, which came
 * first, and what the two settles do. The wrapper's tests hold the wrapper to the same lines.
 */
#include <stdio.h>
#include <string.h>
#include <wardrobeteal.h>

static uint16_t world[WT_WORLD_WORDS], shown[WT_WORLD_WORDS], after[WT_WORLD_WORDS];

static void print_record(const char *what, const uint8_t *record) {
    int i;
    printf("%s:", what);
    for (i = 0; i < WT_RECORD_BYTES; i++) printf(" %02x", (unsigned)record[i]);
    printf("\n");
}

/* The version has three forms: the header's text and number, and the archive's number. */
static void print_version(void) {
    char text[32];
    uint32_t number = wt_version();
    sprintf(text, "%u.%u.%u", (unsigned)(number / 1000000), (unsigned)(number / 1000 % 1000),
            (unsigned)(number % 1000));
    printf("version: %s\n",
           number == WT_VERSION_NUMBER && strcmp(text, WT_VERSION) == 0 ? "that of the archive" : "wrong");
}

static void print_sizes(void) {
    printf("sizes: %d processes, %d groups, %d messages, %d words\n", (int)WT_PROCESSES, (int)WT_GROUPS,
           (int)WT_MESSAGES, (int)WT_WORLD_WORDS);
    printf("journal: %d bytes, %d records of %d bytes\n", (int)WT_JOURNAL_BYTES, (int)WT_JOURNAL_RECORDS,
           (int)WT_RECORD_BYTES);
    printf("blocks: %s\n", WT_JOURNAL_BLOCKS * WT_BLOCK_BYTES == WT_JOURNAL_BYTES &&
                                   WT_JOURNAL_BLOCKS * WT_BLOCK_RECORDS == WT_JOURNAL_RECORDS
                               ? "as many as the bytes and the records"
                               : "wrong");
    printf("a whole settle: %d arrivals\n", (int)WT_SETTLE_ALL);
    printf("at once: %d pairs\n", (int)WT_PAIRS);
}

static void print_refusals(void) {
    uint32_t number;
    for (number = 1; number <= WT_REFUSAL_PAIRS_LENGTH; number++) {
        printf("refusal %u: %s\n", (unsigned)number, wt_refusal_sentence(number));
        printf("caused by %s\n", wt_refusal_text(number));
    }
}

static void print_records(void) {
    const uint8_t three[] = {0, 1, 2};
    const uint8_t most[] = {0, 1, 2, 3, 4, 5, 6, 7, 7, 6, 5, 4, 3, 2, 1, 0};
    const uint8_t wrong[] = {0, 8};
    const uint8_t seventeen[17] = {0};
    uint8_t record[WT_RECORD_BYTES];
    wt_put_setup(record, three, 3);
    print_record("setup 0 1 2", record);
    wt_put_setup(record, most, 16);
    print_record("setup 0 to 7 to 0", record);
    printf("setup 0 8: %u; setup of 17: %u\n", (unsigned)wt_put_setup(record, wrong, 2),
           (unsigned)wt_put_setup(record, seventeen, 17));
    wt_put_multicast(record, 15, WT_GROUP(0) | WT_GROUP(7));
    print_record("multicast 15 to 0 7", record);
    wt_put_multicast_with_order(record, 15, WT_GROUP(0) | WT_GROUP(7), 1017);
    print_record("multicast 15 to 0 7 order 1017", record);
    wt_put_multicast_with_order(record, 15, WT_GROUP(0) | WT_GROUP(7), 65535);
    print_record("multicast 15 to 0 7 order 65535", record);
    wt_put_arrival(record, WT_LETTER_FIRST, 63, 1, 2);
    print_record("arrival first 63 from 1 to 2", record);
    wt_put_arrival(record, WT_LETTER_RELAY, 3, 4, 5);
    print_record("arrival relay 3 from 4 to 5", record);
    wt_put_loss(record, WT_LETTER_OK, 6, 7, 8);
    print_record("loss ok 6 from 7 to 8", record);
    wt_put_trust(record, 9, WT_PROCESS(0) | WT_PROCESS(9) | WT_PROCESS(15));
    print_record("trust 9 in 0 9 15", record);
    wt_put_crash(record, 10);
    print_record("crash 10", record);
}

static void print_letters(void) {
    struct wt_letter l;
    uint32_t cursor = 0;
    while (wt_next_letter(world, &cursor, &l)) {
        printf("in flight: message %u, kind %u, from %u, to %u\n", (unsigned)l.message, (unsigned)l.kind,
               (unsigned)l.from, (unsigned)l.to);
    }
}

static void print_processes(void) {
    uint32_t p, group, trusted;
    for (p = 0; p <= WT_PROCESSES; p++) {
        if (!wt_group(world, p, &group) || !wt_trust_mask(world, p, &trusted)) continue;
        printf("process %u: group %u, trusts %04x, %s\n", (unsigned)p, (unsigned)group, (unsigned)trusted,
               wt_is_up(world, p) ? "up" : "down");
    }
}

static void print_messages(void) {
    uint32_t m, sender, groups, order = 0, refused = 0;
    for (m = 0; m <= WT_MESSAGES; m++) {
        uint32_t answer = wt_order(world, WT_WORLD_WORDS, m, &order);
        refused += answer == WT_REFUSAL_MESSAGE;
        if (!wt_sender(world, m, &sender) || !wt_group_mask(world, m, &groups) || answer != 0) continue;
        printf("message %u: sender %u, groups %02x, order %u\n", (unsigned)m, (unsigned)sender, (unsigned)groups,
               (unsigned)order);
    }
    printf("no such message: %u\n", (unsigned)refused);
}

/* What a step would do in some words: what it adds, and how many letters are in flight then. */
static void print_preview(const char *what, const uint16_t *words, const uint8_t *step, uint16_t *second) {
    struct wt_letter l;
    uint32_t fifo = 7, causal = 8, cursor = 0, letters = 0;
    uint32_t answer =
        wt_preview(words, WT_WORLD_WORDS, step, WT_RECORD_BYTES, second, WT_WORLD_WORDS, &fifo, &causal);
    while (wt_next_letter(second, &cursor, &l)) letters++;
    printf("preview of %s: refusal %u, %u FIFO, %u causal, %u letters\n", what, (unsigned)answer, (unsigned)fifo,
           (unsigned)causal, (unsigned)letters);
}

/* A letter that would be answered, and then a trust step that would let in two messages. */
static void print_previews(void) {
    uint8_t record[WT_RECORD_BYTES];
    wt_put_arrival(record, WT_LETTER_FIRST, 0, 0, 1);
    print_preview("arrival first 0 from 0 to 1", world, record, shown);
    wt_put_trust(record, 1, 0);
    print_preview("trust 1 in none, after it", shown, record, after);
}

static uint32_t take(const uint8_t *step) { return wt_step(world, WT_WORLD_WORDS, step, WT_RECORD_BYTES); }

/* Takes the step that was written, and adds to the answers. */
static void then(uint32_t *answers, uint32_t put, const uint8_t *record) { *answers += put + take(record); }

/* Three multicasts, an arrival, a trust step and a crash; then what the header's functions read. */
static void print_world(void) {
    const uint8_t groups[] = {0, 1, 1};
    uint8_t record[WT_RECORD_BYTES];
    uint32_t answers = wt_put_setup(record, groups, 3);
    answers += wt_world_make(world, WT_WORLD_WORDS, record, sizeof record);
    then(&answers, wt_put_multicast(record, 0, WT_GROUP(1)), record);
    then(&answers, wt_put_multicast_with_order(record, 1, WT_GROUP(0) | WT_GROUP(1), 1017), record);
    then(&answers, wt_put_multicast_with_order(record, 0, WT_GROUP(1), 65535), record);
    then(&answers, wt_put_arrival(record, WT_LETTER_FIRST, 2, 0, 1), record);
    then(&answers, wt_put_trust(record, 1, WT_PROCESS(0) | WT_PROCESS(1)), record);
    then(&answers, wt_put_crash(record, 2), record);
    printf("refused: %u\n", (unsigned)answers);
    printf("world: %u processes, %u messages\n", (unsigned)wt_processes(world), (unsigned)wt_messages(world));
    print_processes();
    print_messages();
    print_previews();
    print_letters();
}

/* What message 2 awaits at process 2, with a word of the world edited. */
static void print_awaited(const char *what, size_t place, uint16_t word) {
    uint32_t kind = 7, of = 8, awaited = 9;
    uint16_t kept = world[place];
    world[place] = word;
    printf("awaited at process 2 by message 2, %s: ", what);
    if (wt_awaited(world, WT_WORLD_WORDS, 2, 2, &kind, &of, &awaited) != 0) {
        printf("refused\n");
    } else if (kind == WT_AWAITED_NOTHING) {
        printf("nothing\n");
    } else if (kind == WT_AWAITED_MESSAGE) {
        printf("message %u of process %u\n", (unsigned)awaited, (unsigned)of);
    } else if (kind == WT_AWAITED_PROCESS) {
        printf("process %u\n", (unsigned)of);
    }
    world[place] = kept;
}

/* Which of the three messages came first, with a word of the world edited. */
static void print_precedes(const char *what, size_t place, uint16_t word) {
    const uint16_t pairs[] = {0, 1, 0, 2, 1, 2, 1, 0, 2, 0, 2, 1, 0, 0};
    uint8_t answers[7];
    uint32_t different = 7;
    size_t i;
    uint16_t kept = world[place];
    world[place] = word;
    printf("precedes, %s:", what);
    if (wt_precedes(world, WT_WORLD_WORDS, pairs, 2 * sizeof answers, answers, sizeof answers, &different) != 0) {
        printf(" refused\n");
    } else {
        for (i = 0; i < sizeof answers; i++) {
            printf(" %u %u %s,", (unsigned)pairs[2 * i], (unsigned)pairs[2 * i + 1], answers[i] == 1 ? "yes" : "no");
        }
        printf(" %u different\n", (unsigned)different);
    }
    world[place] = kept;
}

/*
 * A message that waits; then edited words, in which nothing is awaited, or a process alone. And which came first in these
 * worlds.
 */
static void print_waiting(void) {
    const uint8_t groups[] = {0, 1, 2};
    const size_t del = WT_PLACE_PROCESSES + 2 * WT_PROCESS_BLOCK + 154;
    const size_t counter = WT_PLACE_MESSAGES + 2 + 2 * WT_PROCESSES;
    uint8_t record[WT_RECORD_BYTES];
    uint32_t answers = wt_put_setup(record, groups, 3);
    answers += wt_world_make(world, WT_WORLD_WORDS, record, sizeof record);
    then(&answers, wt_put_multicast(record, 0, WT_GROUP(2)), record);
    then(&answers, wt_put_multicast(record, 0, WT_GROUP(1)), record);
    then(&answers, wt_put_arrival(record, WT_LETTER_FIRST, 1, 0, 1), record);
    then(&answers, wt_put_arrival(record, WT_LETTER_OK, 1, 1, 1), record);
    then(&answers, wt_put_multicast(record, 1, WT_GROUP(2)), record);
    then(&answers, wt_put_arrival(record, WT_LETTER_FIRST, 2, 1, 2), record);
    then(&answers, wt_put_arrival(record, WT_LETTER_OK, 2, 2, 2), record);
    printf("refused: %u\n", (unsigned)answers);
    print_awaited("as it is", 0, 3);
    print_awaited("del[0] 1", del, 1);
    print_awaited("C[2][0] of message 0 2", counter, 2);
    print_precedes("as it is", 0, 3);
    print_precedes("C[2][0] of message 0 2", counter, 2);
}

typedef uint32_t settle_call(uint16_t *, size_t, uint32_t, uint32_t *, uint32_t *);

/* What a settle does on a copy of the world: its answers, and how many messages each process has causally delivered. */
static void print_settle(const char *what, settle_call *settle, uint32_t budget) {
    uint32_t arrivals = 7, done = 8, p, start, items, answer;
    memcpy(after, world, sizeof world);
    answer = settle(after, WT_WORLD_WORDS, budget, &arrivals, &done);
    printf("%s %u: refusal %u, %u arrivals, %s, causally delivered", what, (unsigned)budget, (unsigned)answer,
           (unsigned)arrivals, done == 1 ? "done" : done == 0 ? "stopped" : "wrong");
    for (p = 0; p < wt_processes(after); p++) {
        if (wt_world_log(after, WT_WORLD_WORDS, p, true, &start, &items) == 0) printf(" %u", (unsigned)items);
    }
    printf("\n");
}

/* The first letter to the first process, of those behind this one and this one at the end, that is up and has one. */
static bool next_in_turn(uint32_t last, struct wt_letter *letter) {
    uint32_t n = wt_processes(world), i;
    for (i = 1; i <= n; i++) {
        uint32_t to = (last + i) % n, cursor = 0;
        while (wt_is_up(world, to) && wt_next_letter(world, &cursor, letter)) {
            if (letter->to == to) return true;
        }
    }
    return false;
}

/* The arrivals of a whole fair settle, taken as steps: they leave the words that are in the copy. */
static void print_settled_by_steps(void) {
    struct wt_letter l;
    uint8_t record[WT_RECORD_BYTES];
    uint32_t last = wt_processes(world) - 1, answers = 0, steps = 0;
    for (; next_in_turn(last, &l); last = l.to, steps++) {
        then(&answers, wt_put_arrival(record, l.kind, l.message, l.from, l.to), record);
    }
    printf("fair settle as %u steps: refused %u, %s\n", (unsigned)steps, (unsigned)answers,
           memcmp(world, after, sizeof world) == 0 ? "the same words" : "other words");
}

/* The office sends four messages to two mixers and a fifth to a silo store, and crashes; then the settles. */
static void print_settles(void) {
    const uint8_t groups[] = {0, 1, 1, 2};
    uint8_t record[WT_RECORD_BYTES];
    uint32_t m, answers = wt_put_setup(record, groups, 4);
    answers += wt_world_make(world, WT_WORLD_WORDS, record, sizeof record);
    for (m = 0; m < 5; m++) then(&answers, wt_put_multicast(record, 0, WT_GROUP(m < 4 ? 1 : 2)), record);
    then(&answers, wt_put_crash(record, 0), record);
    printf("refused: %u\n", (unsigned)answers);
    print_settle("settle", wt_settle, 0);
    print_settle("settle", wt_settle, 8);
    print_settle("settle", wt_settle, WT_SETTLE_ALL);
    print_settle("fair settle", wt_settle_fair, 0);
    print_settle("fair settle", wt_settle_fair, 8);
    print_settle("fair settle", wt_settle_fair, WT_SETTLE_ALL);
    print_settled_by_steps();
}

int main(void) {
    print_version();
    print_sizes();
    print_refusals();
    print_records();
    print_world();
    print_waiting();
    print_settles();
    return 0;
}
