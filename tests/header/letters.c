/*
 * The cursor over the letters in flight finds just those that are found by asking for each of the 49,152, in their
 * order, from every place on: in a fresh world, in the largest one with letters of every kind, when one of these
 * has arrived, and with all letters in flight. What is read of the last process and the last message is printed too.
 */
#include <stdio.h>
#include <wardrobeteal.h>

static uint16_t world[WT_WORLD_WORDS];
static uint32_t refused;

/* Whether this letter stands at this place of their order, and is in flight. */
static bool flies(uint32_t place, struct wt_letter *l) {
    l->to = place % WT_PROCESSES;
    l->from = place / WT_PROCESSES % WT_PROCESSES;
    l->kind = place / 256 % 3;
    l->message = place / 768;
    return wt_in_flight(world, l->kind, l->message, l->from, l->to);
}

static bool same(const struct wt_letter *a, const struct wt_letter *b) {
    return a->message == b->message && a->kind == b->kind && a->from == b->from && a->to == b->to;
}

/* Looks from every place on, from the last one down: the letter that is due is the lowest one met so far. */
static void print_letters(const char *what) {
    struct wt_letter due = {0, 0, 0, 0}, asked, found;
    uint32_t place = 49152, letters = 0, wrong = 0, behind = 0;
    while (place-- > 0) {
        uint32_t cursor = place;
        if (flies(place, &asked)) {
            due = asked;
            behind = place + 1;
            letters++;
        }
        if (wt_next_letter(world, &cursor, &found)) {
            wrong += letters == 0 || !same(&found, &due) || cursor != behind;
        } else {
            wrong += letters != 0 || cursor != place;
        }
    }
    printf("%s: %u letters, %u wrong\n", what, (unsigned)letters, (unsigned)wrong);
}

/* Takes the step that was written. */
static void take(uint32_t put, const uint8_t *step) {
    refused += (put != 0) + (wt_step(world, WT_WORLD_WORDS, step, WT_RECORD_BYTES) != 0);
}

static void make(void) {
    const uint8_t groups[WT_PROCESSES] = {0, 1, 2, 3, 4, 5, 6, 7, 7, 6, 5, 4, 3, 2, 1, 0};
    uint8_t setup[WT_RECORD_BYTES];
    refused += wt_put_setup(setup, groups, WT_PROCESSES);
    refused += wt_world_make(world, WT_WORLD_WORDS, setup, sizeof setup);
}

/* 64 messages with order numbers to all; then each process but the first gets two of each sender, the later first. */
static void fill(void) {
    uint8_t step[WT_RECORD_BYTES];
    uint32_t m, p;
    for (m = 0; m < WT_MESSAGES; m++) {
        take(wt_put_multicast_with_order(step, m % WT_PROCESSES, 0xFF, 1000 + m), step);
    }
    for (m = 0; m < WT_PROCESSES; m++) {
        for (p = 1; p < WT_PROCESSES; p++) {
            take(wt_put_arrival(step, WT_LETTER_FIRST, m + 16, m, p), step);
            take(wt_put_arrival(step, WT_LETTER_FIRST, m, m, p), step);
        }
    }
}

/* Puts every letter in flight that a sound world may have: first letters from the sender, the others from all. */
static void all_fly(void) {
    uint32_t m, i, sender = 0;
    for (m = 0; m < WT_MESSAGES; m++) {
        uint16_t *masks = world + WT_PLACE_MESSAGES + m * WT_MESSAGE_BLOCK + WT_MESSAGE_FLIGHT;
        wt_sender(world, m, &sender);
        for (i = 0; i < WT_MESSAGE_MASKS; i++) masks[i] = i == sender || i >= WT_PROCESSES ? 0xFFFF : 0;
    }
}

/* What is read of the last process and the last message. */
static void print_last(void) {
    uint32_t group = 0, trusted = 0, sender = 0, groups = 0, order = 0;
    wt_group(world, 15, &group);
    wt_trust_mask(world, 15, &trusted);
    wt_sender(world, 63, &sender);
    wt_group_mask(world, 63, &groups);
    refused += wt_order(world, WT_WORLD_WORDS, 63, &order);
    printf("process 15: group %u, trusts %04x, %s\n", (unsigned)group, (unsigned)trusted,
           wt_is_up(world, 15) ? "up" : "down");
    printf("message 63: sender %u, groups %02x, order %u\n", (unsigned)sender, (unsigned)groups, (unsigned)order);
}

int main(void) {
    uint8_t step[WT_RECORD_BYTES];
    struct wt_letter l = {7, 7, 7, 7};
    uint32_t cursor = 0;
    bool found;
    make();
    print_letters("fresh");
    found = wt_next_letter(world, &cursor, &l);
    printf("found: %d, cursor %u, letter of message %u\n", (int)found, (unsigned)cursor, (unsigned)l.message);
    fill();
    print_letters("largest");
    wt_next_letter(world, &cursor, &l);
    take(wt_put_arrival(step, l.kind, l.message, l.from, l.to), step);
    print_letters("one arrived");
    take(wt_put_trust(step, 15, WT_PROCESS(14) | WT_PROCESS(15)), step);
    print_last();
    all_fly();
    print_letters("all in flight");
    take(wt_put_trust(step, 15, WT_PROCESS(15)), step);
    printf("refused: %u\n", (unsigned)refused);
    return 0;
}
