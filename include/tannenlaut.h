/* Tannenlaut: a reviewer of packet-filter rule books. Link with libreviewer.a.
 *
 * Each function here is proved to write exactly what document 01 says, for any bytes and words that it is lent. A call keeps nothing for
 * the next one, allocates no memory, makes no system call, always returns, and reads and writes only what it is lent. Two calls may run
 * at the same time as long as no memory that one of them writes is lent to the other. On the stack a call takes at most 192 KiB: that is
 * measured (tests/stack) and not proved; it grows with the calls and levels of a book, which are limited.
 *
 * A pointer with a length of 0 must not be NULL, but nothing is read or written through it. What is written (words, text, state, answer)
 * must not overlap anything else that is lent to the same call. Words and states are uint32_t in the machine's own byte order.
 *
 * ANSWERS. Every call fills the six words of answer:
 *     answer[0]      0, or the number of the refusal
 *     answer[1]      0, or the refusal's place
 *     answer[2..4]   the values named at each function; 0 on a refusal, and where there are fewer
 *     answer[5]      0
 * A number that does not fit 32 bits is told as 4,294,967,295. A refusal changes no lent word, byte or state, but for 19 (see
 * tannenlaut_report).
 *
 * REFUSALS         given exactly when                                                    place
 *      1           the book is longer than 65,535 bytes                                  0
 *      2           the book's bytes end inside or before a needed number                 its start
 *      3           a number is too large, or not in its shortest writing                 its start
 *      4           an edition, count, policy, action, kind or field is out of limits     that number's start
 *      5           a called chain is 0 or not in the book                                that number's start
 *      6           an expression would stand at level 17                                 where its kind would start
 *      7           a 513th source range stands in the book                               its kind's start
 *      8           bytes follow the last rule                                            the first of them
 *      9           some chain reaches itself by one or more calls                        the lowest such chain
 *     10           the weight of chain 0 is above 16,384                                 0
 *     11           the plan breaks a rule of its own                                     the first bad or missing number, or first extra byte; 0 if too long
 *     12           the asked port is not in the plan                                     the port
 *     13           the lent words are fewer than the list needs                          the words needed
 *     14           the state or the list part is no review of this book                  the state's place
 *     15           the next suspects need more than 640 ranges                           the state's place
 *     16           the answers are not 32 bytes                                          their length
 *     17           no rule of the book has that number                                   that number
 *     19           the lent text is shorter than the report                              the bytes needed
 *
 * Every call reads the book first (1 to 10), then come 16 or 17, then 11, 12, 13, then 14, 15. The order is part of the promise.
 */
#ifndef TANNENLAUT_H
#define TANNENLAUT_H

#include <stddef.h>
#include <stdint.h>

#ifdef __cplusplus
extern "C" {
#endif

#define TANNENLAUT_ANSWER 6     /* words of an answer */
#define TANNENLAUT_PACKET 5     /* words of a packet: source, destination, protocol, destination port number, input port; each of any value */
#define TANNENLAUT_ANSWERS 32   /* bytes of the answers to the unread matches: match k is bit k % 8 of byte k / 8 */
#define TANNENLAUT_RANGES 640   /* ranges of suspects that a state has room for */
#define TANNENLAUT_STATE 1286   /* words of a state */

/* The words of a state: */
#define TANNENLAUT_STATE_PORT 0     /* the port that is reviewed */
#define TANNENLAUT_STATE_PLACE 1    /* the next rule's place in the words of the list */
#define TANNENLAUT_STATE_PHASE 2    /* one of the phases below; any other number is no state and is refused with 14 */
#define TANNENLAUT_STATE_RULE 3     /* where refused: the rule that may accept a suspect, else 0 */
#define TANNENLAUT_STATE_SOURCE 4   /* where refused: the lowest suspect that it may accept, else 0 */
#define TANNENLAUT_STATE_COUNT 5    /* how many ranges of suspects there are */
#define TANNENLAUT_STATE_LOW 6      /* 640 lows; those past the count are 0 */
#define TANNENLAUT_STATE_HIGH 646   /* 640 highs; those past the count are 0 */

#define TANNENLAUT_RUNNING 0
#define TANNENLAUT_CERTIFIED 1
#define TANNENLAUT_REFUSED 2

#define TANNENLAUT_ACCEPT 0
#define TANNENLAUT_DROP 1

/* Checks a book. Values: its chains, its rules. Refusals 1 to 10. */
void tannenlaut_check(const uint8_t *book, size_t book_bytes, uint32_t answer[TANNENLAUT_ANSWER]);

/* A rule by its number. Values: the place of its first byte, and of the first byte behind it. Refusals 1 to 10, 17. */
void tannenlaut_rule(const uint8_t *book, size_t book_bytes, uint32_t rule, uint32_t answer[TANNENLAUT_ANSWER]);

/* Unfolds a book: the first words are then its list, the others stay. Values: the words and the rules of the list. Refusals 1 to 10, 13.
 * To learn how many words a book needs, lend none: 13's place tells. */
void tannenlaut_unfold(const uint8_t *book, size_t book_bytes, uint32_t *words, size_t words_lent, uint32_t answer[TANNENLAUT_ANSWER]);

/* The chains' verdict on a packet under answers to the unread matches. Value: 0 accept, 1 drop. Refusals 1 to 10, 16. */
void tannenlaut_chain_verdict(const uint8_t *book, size_t book_bytes, const uint8_t *answers, size_t answers_bytes,
                              const uint32_t packet[TANNENLAUT_PACKET], uint32_t answer[TANNENLAUT_ANSWER]);

/* The same by the list, which is unfolded into the words first. Value: 0 accept, 1 drop. Refusals 1 to 10, 16, 13. */
void tannenlaut_list_verdict(const uint8_t *book, size_t book_bytes, const uint8_t *answers, size_t answers_bytes,
                             const uint32_t packet[TANNENLAUT_PACKET], uint32_t *words, size_t words_lent, uint32_t answer[TANNENLAUT_ANSWER]);

/* A closure: the verdict that is reached where unread matches are unknown. In doubt the upper one (upper is not 0) takes an accept and
 * skips a drop, the lower one (upper is 0) the reverse. The list is unfolded into the words first. Value: 0 accept, 1 drop.
 * Refusals 1 to 10, 13. */
void tannenlaut_closure(const uint8_t *book, size_t book_bytes, uint32_t upper, const uint32_t packet[TANNENLAUT_PACKET], uint32_t *words,
                        size_t words_lent, uint32_t answer[TANNENLAUT_ANSWER]);

/* The review of one port of the plan. The list is unfolded into the words first. Values: the phase, 1 certified or 2 refused; where refused,
 * the number of the rule that may accept a source outside the port's ranges, and the lowest such source. The policy counts as a rule whose
 * number is the count of rules. Refusals 1 to 10, 11, 12, 13. */
void tannenlaut_review(const uint8_t *book, size_t book_bytes, const uint8_t *plan, size_t plan_bytes, uint32_t port, uint32_t *words,
                       size_t words_lent, uint32_t answer[TANNENLAUT_ANSWER]);

/* Starts the same review in slices: unfolds the list into the first words, and writes a state that runs at word 0. Values: the words and the
 * rules of the list. A refusal leaves the state's words as they were: look at answer[0] before the first step. Refusals 1 to 10, 11, 12, 13. */
void tannenlaut_start(const uint8_t *book, size_t book_bytes, const uint8_t *plan, size_t plan_bytes, uint32_t port, uint32_t *words,
                      size_t words_lent, uint32_t state[TANNENLAUT_STATE], uint32_t answer[TANNENLAUT_ANSWER]);

/* One call of the review in slices, over one rule of the list. The list part is the words that the start has just written and no others.
 * Value: the phase after it. A state that runs becomes the next one; the words of a finished state stay as they are, whatever they are.
 * On a refusal they stay too. Refusals 1 to 10, 14, 15. */
void tannenlaut_step(const uint8_t *book, size_t book_bytes, const uint32_t *list, size_t list_words, uint32_t state[TANNENLAUT_STATE],
                     uint32_t answer[TANNENLAUT_ANSWER]);

/* The report on all ports of the plan, as text with no 0 at its end. Value: its bytes. A refusal of the book, the plan or the room is part of
 * the text, and no refusal of this call. The first words are the list where there is room for it, else all stay. Refusal 19, which document
 * 01 does not have: the text is then as it was, and the words are as without the refusal. */
void tannenlaut_report(const uint8_t *book, size_t book_bytes, const uint8_t *plan, size_t plan_bytes, uint32_t *words, size_t words_lent,
                       uint8_t *text, size_t text_bytes, uint32_t answer[TANNENLAUT_ANSWER]);

#ifdef __cplusplus
}
#endif

#endif
