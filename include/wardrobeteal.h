/*
 * Wardrobeteal: the message engine for feed mill control software. FIFO and causal multicast among groups of
 * processes, after Nicolas Schiper and Fernando Pedone, "Fast, Flexible, and Highly Resilient Genuine Fifo and
 * Causal Multicast Algorithms", University of Lugano, Technical Report 2009/003, October 2009.
 *
 * docs/WORDS.md explains the words (process, group, letter, hold, OK, mark, trust set and the others),
 * docs/RUNNING.md how to build the engine into your software, docs/REFUSALS.md what each refusal means.
 *
 * For C99 or later and C++. Link with libengine.a, for x86-64 Linux, which calls nothing but memcpy and memset.
 *
 * The calls are the functions of the archive. Every call but wt_version takes any storage, any step and any journal.
 * It returns 0, or the number of a refusal (below); where several apply, the one that the call's comment names first.
 * A refused call changes nothing that was lent: no word, no byte, no number. No call allocates, blocks, keeps a
 * pointer or has a state of its own, so calls on different worlds may run at the same time. A call asks of the caller
 * only what C asks: each pointer is to as many items as the length beside it says, a pointer to a number is to one,
 * and what a call changes overlaps nothing else that is lent to it. A pointer is never null, also where the length
 * is 0. Behind the calls stand functions of the header's own, which write records and read words.
 *
 * YOUR ONE DUTY: THE TRUST RULE. A message enters the FIFO log of a process only with an OK from every process that
 * it trusts in the groups of the message. A process trusts all processes in a fresh world, and from an accepted trust
 * step on those that the step names, until its next one. The rule, for all that happened from the fresh world on:
 *
 *   1. Every trust set that was in force at a process while that process was up, the starting set included, names
 *      for each group that has members up at the end at least one of those.
 *   2. At the end each process that is up trusts only processes that are up.
 *
 * Kept, with the office 0 and the mixers 1 and 2 in a group of their own: the office sends a recipe and crashes;
 * mixer 1 trusts 1 and 2 from then on. With the OKs of both it delivers the recipe, and crashes. Mixer 2 trusts
 * itself alone from then on. Each set of mixer 1 named mixer 2, which is up at the end: mixer 2 has the recipe too.
 * Broken: mixer 1 trusts itself alone before the OK of mixer 2 has come, delivers the recipe, and crashes as the
 * office does. No set of mixer 1 may leave out mixer 2, the only one of the group that is up at the end. All letters
 * to mixer 2 can be lost, and it never gets the recipe that mixer 1 acted on.
 *
 * If the rule is kept, a settle with WT_SETTLE_ALL, wt_settle or wt_settle_fair, says done and leaves, in the FIFO log
 * of every addressee that is up, each message that a process that is up multicast, or that any process, up or down,
 * has FIFO-delivered. If it is broken, the settle still says done, but the FIFO logs need not agree so. The order
 * within the logs holds in either case.
 */
#ifndef WARDROBETEAL_H
#define WARDROBETEAL_H

#include <stdbool.h>
#include <stddef.h>
#include <stdint.h>

/* The version of this header, as text and as the number that wt_version gives. */
#define WT_VERSION "9.6.0"
#define WT_VERSION_NUMBER 9006000

#ifdef __cplusplus
extern "C" {
#endif

/* Sizes. */
enum {
    WT_PROCESSES = 16,         /* the most processes of a world, numbered from 0 */
    WT_GROUPS = 8,             /* the most groups, numbered from 0 */
    WT_MESSAGES = 64,          /* the most messages, numbered from 0 in the order of their multicasts */
    WT_WORLD_WORDS = 20480,    /* the words, of 16 bits, of a world */
    WT_RECORD_BYTES = 8,       /* the bytes of a setup record, of a step, and of each record of a journal */
    WT_BLOCK_BYTES = 512,      /* the bytes of a journal's block */
    WT_BLOCK_RECORDS = 63,     /* the most records in a block */
    WT_JOURNAL_BLOCKS = 128,   /* the most blocks of a journal */
    WT_JOURNAL_BYTES = 65536,  /* the most bytes of a journal */
    WT_JOURNAL_RECORDS = 8064, /* the most records of a journal, its setup included */
    WT_SETTLE_ALL = 33792,     /* a settle with this budget says done, in a world that steps reached */
    WT_PAIRS = 256             /* the most pairs of messages that wt_precedes takes, two words each */
};

/* The first byte of a step. */
enum { WT_STEP_MULTICAST = 1, WT_STEP_ARRIVAL = 2, WT_STEP_LOSS = 3, WT_STEP_TRUST = 4, WT_STEP_CRASH = 5 };

/* The kinds of letters: the first one, sent by the sender of a message; a relay and an OK, sent by an addressee. */
enum { WT_LETTER_FIRST = 0, WT_LETTER_RELAY = 1, WT_LETTER_OK = 2 };

/* The kinds of answers of wt_awaited. */
enum { WT_AWAITED_NOTHING = 0, WT_AWAITED_MESSAGE = 1, WT_AWAITED_PROCESS = 2 };

/*
 * The version of the archive: a million times its first number, a thousand times its second, and its third. It is
 * WT_VERSION_NUMBER; test it once at the start, since an archive of another version may have other calls.
 */
uint32_t wt_version(void);

/*
 * The calls on a world. In each of them:
 *   world          the words of a world, lent by the caller; docs/LAYOUT.md has what they hold
 *   world_length   how many words are lent: WT_WORLD_WORDS, else the call is refused
 */

/*
 * Makes a fresh world, over whatever the words hold.
 *   setup, setup_length   a setup record, which wt_put_setup writes: 8 bytes, 0, the number n of processes (1 to 16),
 *                         then 48 bits, low byte first; bits 3i to 3i+2 are the group of process i, zero from n on;
 *                         groups have no gap
 * Returns 0, or refusal 1, 3. Changes the words of world.
 */
uint32_t wt_world_make(uint16_t *world, size_t world_length, const uint8_t *setup, size_t setup_length);

/*
 * Takes a step.
 *   step, step_length   8 bytes, a kind, its operands, zeros; wt_put_multicast and the others below write them. The
 *                       operands of a multicast are its process, its group mask and its order number, two bytes, low
 *                       byte first; number 0 means no order
 * Returns 0, or refusal 1, 2, 4 to 12, the lowest that applies. Changes the words of world.
 */
uint32_t wt_step(uint16_t *world, size_t world_length, const uint8_t *step, size_t step_length);

/*
 * Shows what a step would do, before it is done: the words that it would leave, and how many deliveries it adds. The
 * world is left as lent.
 *   step, step_length       the step, as wt_step takes it
 *   second, second_length   where the words go that wt_step would leave on a copy of world: WT_WORLD_WORDS words, over
 *                           whatever they hold
 *   fifo, causal            where is put how many FIFO and how many causal deliveries the step adds, those of all
 *                           processes together
 * Returns 0, or refusal 1 (of world or of second), 2 (of world), 4 to 12, the lowest that applies. Changes the words of
 * second, *fifo and *causal.
 */
uint32_t wt_preview(const uint16_t *world, size_t world_length, const uint8_t *step, size_t step_length,
                    uint16_t *second, size_t second_length, uint32_t *fifo, uint32_t *causal);

/*
 * Makes arrivals, each of the lowest letter in flight whose receiver is up, by message, kind, from, to. Whether the
 * process that it is from is up or down does not matter: the last letters of one that has crashed still come.
 *   budget     the most arrivals to make
 *   arrivals   where the number of those made is put
 *   done       where 1 is put if no such letter remains, or 0 if the budget is used and one remains
 * Returns 0, or refusal 1, 2. Changes the words of world, *arrivals and *done.
 *
 * Once it says done, nothing is left to come to a process that is up: letters to processes that are down stay in
 * flight, and one that was lost is gone. With budget 0 it changes no word, and tells whether anything is to come.
 *
 * It is for trials, and for a program that carries the letters itself: with a network, take the arrivals that have
 * happened. Its arrivals are no records: a journal of your steps alone does not replay to the world that a settle
 * leaves. If you keep a journal, take the arrivals as steps instead: with wt_next_letter from 0, find the first letter
 * whose receiver is up, take its arrival, and begin again, until there is none. That leaves the very words that this
 * call leaves.
 */
uint32_t wt_settle(uint16_t *world, size_t world_length, uint32_t budget, uint32_t *arrivals, uint32_t *done);

/*
 * Makes arrivals as wt_settle does, but serves the processes in turn: after an arrival at process p the next is at the
 * first process after p that is up and has a letter in flight to it, of the lowest letter to it, by message, kind,
 * from. Behind the last process comes process 0, and p itself is tried last. Each call tries process 0 first, wherever
 * the call before has stopped.
 *   budget, arrivals, done   as for wt_settle
 * Returns 0, or refusal 1, 2. Changes the words of world, *arrivals and *done.
 *
 * While a letter waits for a process that is up, among n processes, at most n - 1 arrivals elsewhere pass before one
 * arrives there, if the budget allows. So take this call to share out a small budget, and at least n arrivals in each
 * call, since each begins with process 0; if all is to come, either will do. In a world that steps reached both calls
 * with WT_SETTLE_ALL end with the same messages in every log, the trust rule kept or not; the order of a log may differ.
 *
 * What is said of wt_settle is so of this call too, but for the steps that leave the same words. To take its arrivals as
 * steps, keep the process of the last one, at first the last process of all. Try those after it, then those from 0 on,
 * and it at the end, for one that is up: with wt_next_letter from 0, find the first letter to it. Take the arrival of
 * the first letter that is found so, and begin again, until there is none.
 */
uint32_t wt_settle_fair(uint16_t *world, size_t world_length, uint32_t budget, uint32_t *arrivals, uint32_t *done);

/*
 * Finds a log of a process. Its items are message numbers: world[*start] and those that follow.
 *   process   the process
 *   causal    true for its causal log, false for its FIFO log
 *   start     where the place of the log among the words is put
 *   items     where the length of the log is put
 * Returns 0, or refusal 1, 2, 5. Changes *start and *items.
 */
uint32_t wt_world_log(const uint16_t *world, size_t world_length, uint32_t process, bool causal, uint32_t *start,
                      uint32_t *items);

/*
 * Gives the order number of a message: the one that its multicast carried. Number 0 means no order.
 *   message   the message
 *   number    where its order number is put
 * Returns 0, or refusal 1, 2, 7. Changes *number.
 */
uint32_t wt_order(const uint16_t *world, size_t world_length, uint32_t message, uint32_t *number);

/*
 * Says whose message is awaited by one that is in the FIFO log of a process and not in its causal log: the lowest
 * process, other than its sender, of which the causal log lacks messages that precede it, and the next message of that
 * process.
 *   process   the process, up or down
 *   message   the message that waits there
 *   kind      where the kind of the answer is put:
 *               WT_AWAITED_NOTHING   nothing is awaited: the message is deliverable
 *               WT_AWAITED_MESSAGE   a message is awaited, *awaited, whose sender is process *of
 *               WT_AWAITED_PROCESS   a message of process *of is awaited, and there is none that would be the next
 *   of        where that process is put; left as lent with WT_AWAITED_NOTHING
 *   awaited   where that message is put; left as lent with WT_AWAITED_NOTHING and WT_AWAITED_PROCESS
 * Returns 0, or refusal 1, 2, 5, 7, 18, the lowest that applies. Changes *kind, *of and *awaited.
 *
 * In a world that steps reached it is always WT_AWAITED_MESSAGE: the message exists, precedes the one that waits, is to
 * the group of the process, and is not in its causal log. If it is in the FIFO log, it waits there too: ask for it in
 * turn, and so on, until refusal 18 tells of one that is not there yet. The other two kinds are met only in words that
 * were edited or damaged and are still sound; there, asking on and on can lead back to the same message.
 */
uint32_t wt_awaited(const uint16_t *world, size_t world_length, uint32_t process, uint32_t message, uint32_t *kind,
                    uint32_t *of, uint32_t *awaited);

/*
 * Says which came first, for many pairs of messages: whether the first of a pair precedes the second.
 *   pairs, pairs_length       the pairs, two words each, the first message and the second; at most WT_PAIRS pairs, and
 *                             there may be none
 *   answers, answers_length   where a byte is put for each pair, 1 if its first message precedes its second, else 0: as
 *                             many bytes as there are pairs
 *   different                 where is put how many different messages the pairs name
 * Returns 0, or refusal 1, 2, 19, 7, the first of these that applies. Changes the bytes of answers and *different.
 *
 * In a world that steps reached the byte is 1 exactly when the multicast of the first could have led to that of the
 * second; a message never precedes itself. One counter tells it: of the messages of the first's sender to the lowest
 * group of the first, the second counts at least as many as the first. In words that were edited or damaged and are
 * still sound the byte is what this counter says, and two different messages may each precede the other.
 */
uint32_t wt_precedes(const uint16_t *world, size_t world_length, const uint16_t *pairs, size_t pairs_length,
                     uint8_t *answers, size_t answers_length, uint32_t *different);

/*
 * Replays a journal, over whatever the words hold: makes the world from its first record, takes all others as steps.
 * The arrivals of wt_settle and wt_settle_fair are not in a journal, unless they were taken as steps (see there).
 *   journal, journal_length   the bytes of the journal
 *   steps                     where the number of records after the first is put
 *   refused                   where is put how many of these were refused; they changed nothing
 * Returns 0, or refusal 1, 13, block by block 14 and 15, then 3. Changes the words of world, *steps and *refused.
 */
uint32_t wt_replay(uint16_t *world, size_t world_length, const uint8_t *journal, size_t journal_length,
                   uint32_t *steps, uint32_t *refused);

/*
 * The calls on a journal: records of 8 bytes in blocks of 512 bytes, each with a checksum. Neither reading nor writing
 * looks at what records mean.
 */

/*
 * Tells how long a journal will be.
 *   records_length   the bytes of its records
 *   needed           where the bytes of the journal are put
 * Returns 0, or refusal 16. Changes *needed.
 */
uint32_t wt_journal_length(size_t records_length, uint32_t *needed);

/*
 * Writes a journal.
 *   records, records_length   the bytes of its records
 *   out, out_length           where the journal goes, as long as wt_journal_length says
 * Returns 0, or refusal 16, 17. Changes the bytes of out.
 */
uint32_t wt_journal_write(const uint8_t *records, size_t records_length, uint8_t *out, size_t out_length);

/*
 * Tests a journal and counts its records.
 *   journal, journal_length   the bytes of the journal
 *   count                     where the number of records is put
 * Returns 0, or refusal 13, block by block 14 and 15. Changes *count.
 */
uint32_t wt_journal_count(const uint8_t *journal, size_t journal_length, uint32_t *count);

/*
 * Reads the records of a journal.
 *   journal, journal_length   the bytes of the journal
 *   records, records_length   where the records go, 8 bytes for each
 * Returns 0, or refusal 13, block by block 14 and 15, then 17. Changes the bytes of records.
 */
uint32_t wt_journal_read(const uint8_t *journal, size_t journal_length, uint8_t *records, size_t records_length);

/* The refusals, by number. */
enum {
    /* Whoever lends storage. */
    WT_REFUSAL_WORLD_LENGTH = 1, /* world not 20,480 words */
    WT_REFUSAL_NOT_SOUND = 2,    /* world not sound */
    /* Whoever sets up. */
    WT_REFUSAL_SETUP = 3, /* setup record not as above, or not 8 bytes */
    /* Whoever writes a step. */
    WT_REFUSAL_FORM = 4,       /* not 8 bytes, kind outside 1 to 5, letter kind above 2, unused byte not zero */
    WT_REFUSAL_PROCESS = 5,    /* process not below n */
    WT_REFUSAL_GROUP_MASK = 6, /* mask empty or naming an absent group */
    WT_REFUSAL_MESSAGE = 7,    /* message not below count */
    WT_REFUSAL_TRUST_MASK = 8, /* trust mask naming an absent process */
    /* The state of the mill. */
    WT_REFUSAL_DOWN = 9, /* the process of a multicast, trust or crash step, or the receiver of an arrival, is down */
    WT_REFUSAL_FULL = 10,          /* count is 64 */
    WT_REFUSAL_NOT_IN_FLIGHT = 11, /* letter not in flight */
    WT_REFUSAL_BOTH_UP = 12,       /* loss with both ends up */
    /* Whoever carries a journal. */
    WT_REFUSAL_JOURNAL_LENGTH = 13, /* length 0, over 65,536 or no multiple of 512 */
    WT_REFUSAL_CHECK = 14,          /* check not exactly that number (FFFF does not stand for 0000) */
    WT_REFUSAL_BLOCK = 15,          /* any other block rule */
    /* Whoever writes one. */
    WT_REFUSAL_RECORDS_LENGTH = 16, /* records length 0, no multiple of 8, over 8,064 records */
    WT_REFUSAL_OUTPUT_LENGTH = 17,  /* output length not what is needed */
    /* The state of the mill, when asked what is awaited. */
    WT_REFUSAL_NOT_WAITING = 18, /* message that isn't in that process's FIFO log or is already in its causal log */
    /* Whoever lends storage, when asked which came first. */
    WT_REFUSAL_PAIRS_LENGTH = 19 /* odd or over-long pair slice or an answer slice of another length than the number of pairs */
};

/* The refusal's words: who causes it, and how, for whoever looks it up. "no refusal" for any other number. */
static inline const char *wt_refusal_text(uint32_t number) {
    switch (number) {
    case WT_REFUSAL_WORLD_LENGTH: return "whoever lends storage: world not 20,480 words";
    case WT_REFUSAL_NOT_SOUND: return "whoever lends storage: world not sound";
    case WT_REFUSAL_SETUP: return "whoever sets up: setup record not as above, or not 8 bytes";
    case WT_REFUSAL_FORM:
        return "whoever writes a step: not 8 bytes, kind outside 1 to 5, letter kind above 2, unused byte not zero";
    case WT_REFUSAL_PROCESS: return "whoever writes a step: process not below n";
    case WT_REFUSAL_GROUP_MASK: return "whoever writes a step: mask empty or naming an absent group";
    case WT_REFUSAL_MESSAGE: return "whoever writes a step: message not below count";
    case WT_REFUSAL_TRUST_MASK: return "whoever writes a step: trust mask naming an absent process";
    case WT_REFUSAL_DOWN:
        return "the state of the mill: the process of a multicast, trust or crash step, or the receiver of an "
               "arrival, is down";
    case WT_REFUSAL_FULL: return "the state of the mill: count is 64";
    case WT_REFUSAL_NOT_IN_FLIGHT: return "the state of the mill: letter not in flight";
    case WT_REFUSAL_BOTH_UP: return "the state of the mill: loss with both ends up";
    case WT_REFUSAL_JOURNAL_LENGTH: return "whoever carries a journal: length 0, over 65,536 or no multiple of 512";
    case WT_REFUSAL_CHECK:
        return "whoever carries a journal: check not exactly that number (FFFF does not stand for 0000)";
    case WT_REFUSAL_BLOCK: return "whoever carries a journal: any other block rule";
    case WT_REFUSAL_RECORDS_LENGTH:
        return "whoever writes one: records length 0, no multiple of 8, over 8,064 records";
    case WT_REFUSAL_OUTPUT_LENGTH: return "whoever writes one: output length not what is needed";
    case WT_REFUSAL_NOT_WAITING:
        return "the state of the mill: message that isn't in that process's FIFO log or is already in its causal log";
    case WT_REFUSAL_PAIRS_LENGTH:
        return "whoever lends storage: odd or over-long pair slice or an answer slice of another length than the number "
               "of pairs";
    default: return "no refusal";
    }
}

/* What was wrong, in a plain sentence for whoever sees it happen. "nothing was refused" for any other number. */
static inline const char *wt_refusal_sentence(uint32_t number) {
    switch (number) {
    case WT_REFUSAL_WORLD_LENGTH: return "the world that was lent is not 20,480 words long";
    case WT_REFUSAL_NOT_SOUND: return "the words that were lent are not a world that this engine could have left";
    case WT_REFUSAL_SETUP:
        return "the setup record is not one: 8 bytes, 1 to 16 processes, groups numbered from 0 without a gap";
    case WT_REFUSAL_FORM:
        return "these bytes are not a step: 8 bytes, a known kind of step and of letter, and zeros behind";
    case WT_REFUSAL_PROCESS: return "this world has no process of that number";
    case WT_REFUSAL_GROUP_MASK: return "the message is to no group, or to one that this world does not have";
    case WT_REFUSAL_MESSAGE: return "no message of that number has been multicast in this world";
    case WT_REFUSAL_TRUST_MASK: return "the trust set names a process that this world does not have";
    case WT_REFUSAL_DOWN: return "that process has crashed, and sends, receives and trusts no more";
    case WT_REFUSAL_FULL: return "the world is full: 64 messages have been multicast in it";
    case WT_REFUSAL_NOT_IN_FLIGHT: return "that letter is not in flight: it was not sent, has arrived or was lost";
    case WT_REFUSAL_BOTH_UP: return "a letter between two processes that are up cannot be lost";
    case WT_REFUSAL_JOURNAL_LENGTH: return "a journal is 1 to 128 blocks of 512 bytes, and this one is not";
    case WT_REFUSAL_CHECK: return "this block's checksum does not match its bytes";
    case WT_REFUSAL_BLOCK: return "this block's number, its count of records or a byte that must be zero is wrong";
    case WT_REFUSAL_RECORDS_LENGTH: return "a journal is written of 1 to 8,064 records of 8 bytes, and these are not";
    case WT_REFUSAL_OUTPUT_LENGTH: return "what was lent for the output is not just as long as the output";
    case WT_REFUSAL_NOT_WAITING:
        return "that message does not wait at that process: its FIFO log lacks it, or its causal log has it already";
    case WT_REFUSAL_PAIRS_LENGTH:
        return "pairs are two words each, at most 256 pairs, with one answer byte for each, and these are not";
    default: return "nothing was refused";
    }
}

/*
 * Setup records and steps, written into 8 bytes. No number is cut: where one has no place in the record, the function
 * returns the refusal that is meant for it, the lowest that applies, and leaves no step there but 8 zeros, which every
 * world refuses. What has a place is judged by wt_world_make, wt_step and wt_preview.
 */

/* The mask of one group, and of one process; masks are joined by |. Above 62 it is a bit that no record has. */
static inline uint64_t wt_bit(uint64_t number) { return UINT64_C(1) << (number < 63 ? number : 63); }
#define WT_GROUP(group) wt_bit(group)
#define WT_PROCESS(process) wt_bit(process)

/* A record of these bytes, or of zeros if there is a refusal. */
static inline uint32_t wt_put_record(uint8_t *record, uint32_t refusal, uint64_t kind, uint64_t a, uint64_t b,
                                     uint64_t c, uint64_t d) {
    const uint64_t bytes[WT_RECORD_BYTES] = {kind, a, b, c, d, 0, 0, 0};
    int i;
    for (i = 0; i < WT_RECORD_BYTES; i++) record[i] = refusal == 0 ? (uint8_t)bytes[i] : 0;
    return refusal;
}

/* The step of a letter: refusal 4, 5, 7 for a kind, process or message above 255. */
static inline uint32_t wt_put_letter(uint8_t *step, uint64_t of, uint64_t kind, uint64_t message, uint64_t from,
                                     uint64_t to) {
    uint32_t refusal = kind > 0xFF                ? WT_REFUSAL_FORM
                       : from > 0xFF || to > 0xFF ? WT_REFUSAL_PROCESS
                       : message > 0xFF           ? WT_REFUSAL_MESSAGE
                                                  : 0;
    return wt_put_record(step, refusal, of, kind, message, from, to);
}

/*
 * The setup record of processes in these groups, groups[i] that of process i. Refusal 3 for more than 16 processes or a
 * group above 7.
 */
static inline uint32_t wt_put_setup(uint8_t *setup, const uint8_t *groups, size_t processes) {
    uint64_t bits = 0;
    size_t i;
    for (i = 0; i < processes; i++) {
        if (i >= WT_PROCESSES || groups[i] >= WT_GROUPS) return wt_put_record(setup, WT_REFUSAL_SETUP, 0, 0, 0, 0, 0);
        bits |= (uint64_t)groups[i] << (3 * i);
    }
    setup[0] = 0;
    setup[1] = (uint8_t)processes;
    for (i = 0; i < 6; i++) setup[2 + i] = (uint8_t)(bits >> (8 * i));
    return 0;
}

/*
 * The process multicasts the next message to the groups of the mask, with an order number. Refusal 4 for an order
 * number above 65,535, which would reach into the bytes that must be zero; 5; or 6 for a group above 7.
 */
static inline uint32_t wt_put_multicast_with_order(uint8_t *step, uint64_t process, uint64_t groups, uint64_t order) {
    uint32_t refusal = order > 0xFFFF   ? WT_REFUSAL_FORM
                       : process > 0xFF ? WT_REFUSAL_PROCESS
                       : groups > 0xFF  ? WT_REFUSAL_GROUP_MASK
                                        : 0;
    return wt_put_record(step, refusal, WT_STEP_MULTICAST, process, groups, order & 0xFF, order >> 8);
}

/* The same with no order, number 0. Refusal 5, or 6 for a group above 7. */
static inline uint32_t wt_put_multicast(uint8_t *step, uint64_t process, uint64_t groups) {
    return wt_put_multicast_with_order(step, process, groups, 0);
}

/* The letter arrives. Refusal 4, 5, 7. */
static inline uint32_t wt_put_arrival(uint8_t *step, uint64_t kind, uint64_t message, uint64_t from, uint64_t to) {
    return wt_put_letter(step, WT_STEP_ARRIVAL, kind, message, from, to);
}

/* The letter is lost. Refusal 4, 5, 7. */
static inline uint32_t wt_put_loss(uint8_t *step, uint64_t kind, uint64_t message, uint64_t from, uint64_t to) {
    return wt_put_letter(step, WT_STEP_LOSS, kind, message, from, to);
}

/* From now on the process trusts those of the mask and no others. Refusal 5, or 8 for a process above 15 in it. */
static inline uint32_t wt_put_trust(uint8_t *step, uint64_t process, uint64_t trusted) {
    uint32_t refusal = process > 0xFF ? WT_REFUSAL_PROCESS : trusted > 0xFFFF ? WT_REFUSAL_TRUST_MASK : 0;
    return wt_put_record(step, refusal, WT_STEP_TRUST, process, trusted & 0xFF, trusted >> 8, 0);
}

/* The process crashes. Refusal 5. */
static inline uint32_t wt_put_crash(uint8_t *step, uint64_t process) {
    return wt_put_record(step, process > 0xFF ? WT_REFUSAL_PROCESS : 0, WT_STEP_CRASH, process, 0, 0, 0);
}

/*
 * What stands in a world of WT_WORLD_WORDS words, by docs/LAYOUT.md. The words are not tested here: they are those
 * that a call has made or taken. A number that is absent there gives false, and then nothing is changed.
 */

enum {
    WT_PLACE_COUNT = 1,
    WT_PLACE_PROCESSES = 3, /* the blocks of the processes */
    WT_PROCESS_BLOCK = 429,
    WT_PROCESS_GROUP = 0,
    WT_PROCESS_TRUST = 1,
    WT_PROCESS_UP = 170,
    WT_PLACE_MESSAGES = 6867, /* the blocks of the messages */
    WT_MESSAGE_BLOCK = 187,
    WT_MESSAGE_SENDER = 0,
    WT_MESSAGE_GROUPS = 1,
    WT_MESSAGE_FLIGHT = 138,
    WT_MESSAGE_MASKS = 48,   /* the masks of receivers, for each kind and origin */
    WT_LETTER_PLACES = 49152 /* 64 messages, 48 masks, 16 receivers */
};

static inline uint32_t wt_processes(const uint16_t *world) { return world[0]; }

/* The count of messages so far. */
static inline uint32_t wt_messages(const uint16_t *world) { return world[WT_PLACE_COUNT]; }

/* A word of a process, and of a message. */
static inline bool wt_of_process(const uint16_t *world, uint32_t process, uint32_t offset, uint32_t *value) {
    if (process >= WT_PROCESSES || process >= wt_processes(world)) return false;
    *value = world[WT_PLACE_PROCESSES + process * WT_PROCESS_BLOCK + offset];
    return true;
}

static inline bool wt_of_message(const uint16_t *world, uint32_t message, uint32_t offset, uint32_t *value) {
    if (message >= WT_MESSAGES || message >= wt_messages(world)) return false;
    *value = world[WT_PLACE_MESSAGES + message * WT_MESSAGE_BLOCK + offset];
    return true;
}

/* Whether there is such a process and it is up. */
static inline bool wt_is_up(const uint16_t *world, uint32_t process) {
    uint32_t up = 0;
    return wt_of_process(world, process, WT_PROCESS_UP, &up) && up == 1;
}

/* The group of a process. */
static inline bool wt_group(const uint16_t *world, uint32_t process, uint32_t *group) {
    return wt_of_process(world, process, WT_PROCESS_GROUP, group);
}

/* The mask of the processes that a process trusts. */
static inline bool wt_trust_mask(const uint16_t *world, uint32_t process, uint32_t *trusted) {
    return wt_of_process(world, process, WT_PROCESS_TRUST, trusted);
}

/* The sender of a message. */
static inline bool wt_sender(const uint16_t *world, uint32_t message, uint32_t *sender) {
    return wt_of_message(world, message, WT_MESSAGE_SENDER, sender);
}

/* The mask of the groups that a message is to. */
static inline bool wt_group_mask(const uint16_t *world, uint32_t message, uint32_t *groups) {
    return wt_of_message(world, message, WT_MESSAGE_GROUPS, groups);
}

/* Whether this letter is in flight. */
static inline bool wt_in_flight(const uint16_t *world, uint32_t kind, uint32_t message, uint32_t from, uint32_t to) {
    uint32_t block = WT_PLACE_MESSAGES + message * WT_MESSAGE_BLOCK;
    if (kind > WT_LETTER_OK || message >= WT_MESSAGES || from >= WT_PROCESSES || to >= WT_PROCESSES) return false;
    return (world[block + WT_MESSAGE_FLIGHT + kind * WT_PROCESSES + from] >> to & 1) == 1;
}

/* A letter carries a message from one process to one addressee. */
struct wt_letter {
    uint32_t message, kind, from, to;
};

/*
 * The letters in flight, which a network has to carry, one after the other by message, kind, from, to.
 *   cursor   from where to look: 0 for the first one; it is moved behind the letter that is found
 *   letter   where that letter is put
 * False, and nothing changed, if there is none from there on. The world may change between two calls: what flies
 * then, from the cursor on, is found. A letter is found each time until its arrival or its loss: which ones you have
 * handed to your network already is yours to remember.
 */
static inline bool wt_next_letter(const uint16_t *world, uint32_t *cursor, struct wt_letter *letter) {
    uint32_t place = *cursor, receivers = 0;
    /* The place of a letter: 16 for each mask before its own, message by message, and its receiver. */
    for (; place < WT_LETTER_PLACES; place = (place / WT_PROCESSES + 1) * WT_PROCESSES) {
        uint32_t mask = place / WT_PROCESSES, message = mask / WT_MESSAGE_MASKS;
        if (!wt_of_message(world, message, WT_MESSAGE_FLIGHT + mask % WT_MESSAGE_MASKS, &receivers)) return false;
        for (receivers >>= place % WT_PROCESSES; receivers != 0; receivers >>= 1, place++) {
            if ((receivers & 1) == 0) continue;
            letter->message = message;
            letter->kind = mask % WT_MESSAGE_MASKS / WT_PROCESSES;
            letter->from = mask % WT_PROCESSES;
            letter->to = place % WT_PROCESSES;
            *cursor = place + 1;
            return true;
        }
    }
    return false;
}

#ifdef __cplusplus
}
#endif

#endif
