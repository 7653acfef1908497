/*
 * A recipe that is overtaken. The office sends the mixers a recipe change (message 0) and the weighbridge a release (1).
 * The weighbridge acts on the release and calls the batch at the mixers (2). The line from the office to the mixers is
 * slow, and the call comes before the recipe: the mixer has the call, but does not act on it before the recipe, which
 * causally precedes it. The recipe and the batch are for one sales order, whose number they carry; the release is for
 * none. Before the last letter of the call and that of the recipe arrive, previews show what each would do; in between
 * the engine says whose message the call awaits, and which of the two came first.
 *
 * cc -Idist samples/overtaken.c dist/libengine.a -o overtaken && ./overtaken
 */
#include <stdio.h>
#include <stdlib.h>
#include <wardrobeteal.h>

enum { OFFICE, WEIGHBRIDGE, MIXER, MACHINES };

static const char *const names[MACHINES] = {"office", "weighbridge", "mixer"};
static const char *const bodies[] = {"the new recipe", "release of lorry 7", "call for the batch"};
static const char *const kinds[] = {"first letter", "relay", "OK"};

/* Order numbers: that of the sales order, and the one that means no order. */
enum { NO_ORDER = 0, SALES_ORDER = 1017 };

/* The engine's storage, and how many messages of its causal log each machine has acted on. */
static uint16_t world[WT_WORLD_WORDS];
static uint32_t acted[MACHINES];

static void check(uint32_t answer) {
    if (answer != 0) {
        fprintf(stderr, "refusal %u: %s\n", (unsigned)answer, wt_refusal_sentence(answer));
        exit(EXIT_FAILURE);
    }
}

/* The log of a machine in these words, with its length. */
static const uint16_t *log_of(const uint16_t *words, uint32_t machine, bool causal, uint32_t *items) {
    uint32_t start = 0;
    check(wt_world_log(words, WT_WORLD_WORDS, machine, causal, &start, items));
    return words + start;
}

/* A message, with the order that it is for. */
static void print_message(uint32_t message) {
    uint32_t order = NO_ORDER;
    check(wt_order(world, WT_WORLD_WORDS, message, &order));
    printf("message %u: %s", (unsigned)message, bodies[message]);
    if (order != NO_ORDER) printf(", order %u", (unsigned)order);
    printf("\n");
}

/* Each machine acts on what is new in its causal log, in the log's order. */
static void act(void) {
    uint32_t machine, items;
    for (machine = 0; machine < MACHINES; machine++) {
        const uint16_t *log = log_of(world, machine, true, &items);
        for (; acted[machine] < items; acted[machine]++) {
            printf("  %s acts on ", names[machine]);
            print_message(log[acted[machine]]);
        }
    }
}

static uint32_t take(const uint8_t *step) { return wt_step(world, WT_WORLD_WORDS, step, WT_RECORD_BYTES); }

static void multicast(uint32_t from, uint32_t group, uint32_t order) {
    uint8_t step[WT_RECORD_BYTES];
    uint32_t message = wt_messages(world);
    check(wt_put_multicast_with_order(step, from, WT_GROUP(group), order));
    check(take(step));
    printf("%s sends message %u to group %u: %s\n", names[from], (unsigned)message, (unsigned)group,
           bodies[message]);
    act();
}

static void arrive(uint32_t kind, uint32_t message, uint32_t from, uint32_t to) {
    uint8_t step[WT_RECORD_BYTES];
    check(wt_put_arrival(step, kind, message, from, to));
    check(take(step));
    printf("%s of message %u from %s arrives at %s\n", kinds[kind], (unsigned)message, names[from], names[to]);
    act();
}

static void print_log(const uint16_t *words, uint32_t machine, bool causal) {
    uint32_t i, items;
    const uint16_t *log = log_of(words, machine, causal, &items);
    printf(" %s", causal ? "causal" : "FIFO");
    for (i = 0; i < items; i++) printf(" %u", (unsigned)log[i]);
}

static void print_logs_of(const uint16_t *words, uint32_t machine) {
    printf("%s:", names[machine]);
    print_log(words, machine, false);
    printf(";");
    print_log(words, machine, true);
    printf("\n");
}

/* What a letter would do, and the logs that its receiver would have. The world stays as it is. */
static void preview(uint32_t kind, uint32_t message, uint32_t from, uint32_t to) {
    static uint16_t second[WT_WORLD_WORDS];
    uint8_t step[WT_RECORD_BYTES];
    uint32_t fifo = 0, causal = 0;
    check(wt_put_arrival(step, kind, message, from, to));
    check(wt_preview(world, WT_WORLD_WORDS, step, sizeof step, second, WT_WORLD_WORDS, &fifo, &causal));
    printf("preview: %s of message %u from %s would make %u FIFO and %u causal deliveries, then ", kinds[kind],
           (unsigned)message, names[from], (unsigned)fifo, (unsigned)causal);
    print_logs_of(second, to);
}

/* What the network has still to carry. */
static void print_letters(void) {
    struct wt_letter letter;
    uint32_t cursor = 0;
    while (wt_next_letter(world, &cursor, &letter)) {
        printf("still travelling: message %u from %s to %s\n", (unsigned)letter.message, names[letter.from],
               names[letter.to]);
    }
}

/* Whose message is awaited by one that a machine has and does not act on yet. */
static void print_awaited(uint32_t machine, uint32_t message) {
    uint32_t kind = WT_AWAITED_NOTHING, of = 0, awaited = 0;
    check(wt_awaited(world, WT_WORLD_WORDS, machine, message, &kind, &of, &awaited));
    if (kind == WT_AWAITED_MESSAGE) {
        printf("message %u waits at %s for message %u of %s\n", (unsigned)message, names[machine],
               (unsigned)awaited, names[of]);
    }
}

/* Which came first, the recipe or the call. */
static void print_precedes(void) {
    const uint16_t pairs[] = {0, 2, 2, 0};
    uint8_t answers[2];
    uint32_t i, different = 0;
    check(wt_precedes(world, WT_WORLD_WORDS, pairs, 4, answers, 2, &different));
    for (i = 0; i < 2; i++) {
        printf("message %u %s message %u\n", (unsigned)pairs[2 * i],
               answers[i] == 1 ? "precedes" : "does not precede", (unsigned)pairs[2 * i + 1]);
    }
}

static void print_logs(void) {
    uint32_t machine;
    for (machine = 0; machine < MACHINES; machine++) print_logs_of(world, machine);
}

int main(void) {
    const uint8_t groups[MACHINES] = {0, 1, 2};
    uint8_t record[WT_RECORD_BYTES];
    uint32_t answer;

    if (wt_version() != WT_VERSION_NUMBER) {
        fprintf(stderr, "libengine.a is of version %u, wardrobeteal.h of version %u\n", (unsigned)wt_version(),
                (unsigned)WT_VERSION_NUMBER);
        return EXIT_FAILURE;
    }
    check(wt_put_setup(record, groups, MACHINES));
    check(wt_world_make(world, WT_WORLD_WORDS, record, sizeof record));

    multicast(OFFICE, 2, SALES_ORDER);
    multicast(OFFICE, 1, NO_ORDER);
    arrive(WT_LETTER_FIRST, 1, OFFICE, WEIGHBRIDGE);
    arrive(WT_LETTER_OK, 1, WEIGHBRIDGE, WEIGHBRIDGE);
    multicast(WEIGHBRIDGE, 2, SALES_ORDER);
    arrive(WT_LETTER_FIRST, 2, WEIGHBRIDGE, MIXER);
    preview(WT_LETTER_OK, 2, MIXER, MIXER);
    arrive(WT_LETTER_OK, 2, MIXER, MIXER);
    print_letters();
    print_awaited(MIXER, 2);
    print_precedes();
    print_logs();
    arrive(WT_LETTER_FIRST, 0, OFFICE, MIXER);
    preview(WT_LETTER_OK, 0, MIXER, MIXER);
    arrive(WT_LETTER_OK, 0, MIXER, MIXER);
    print_logs();

    /* A letter arrives once only. */
    check(wt_put_arrival(record, WT_LETTER_OK, 0, MIXER, MIXER));
    answer = take(record);
    printf("the same letter again: refusal %u: %s\n", (unsigned)answer, wt_refusal_sentence(answer));
    return 0;
}
