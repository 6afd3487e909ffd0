/*
 * Yarnspire: a recogniser for Nez grammars, proved. The rules are in docs/01-scope.md, called 01 here; how grammars are written is docs/notation.md.
 *
 * Link libyarnspire.a, which scripts/archive makes for x86-64 Linux. The library needs nothing but memcpy and memset, keeps nothing between calls, and allocates
 * nothing, so any number of threads may call it. A call takes less than 256 KiB of stack.
 *
 * What a caller owes, for all three functions:
 *   - each pointer is valid for its length: a text, an image or an input for as many bytes, the slots for as many numbers of 32 bits, every other pointer for one;
 *   - no pointer is null, not even beside a length of 0 (any address that is valid and aligned will do);
 *   - nothing that is written (the slots, the image that compile writes, and the numbers of the answer) overlaps anything else that is passed. What is
 *     passed as const is only read.
 * Nothing else: every text, image, input, limit and length gets its answer.
 */
#ifndef YARNSPIRE_H
#define YARNSPIRE_H

#include <stddef.h>
#include <stdint.h>

#ifdef __cplusplus
extern "C" {
#endif

/*
 * The kinds of an answer:
 *
 *    0  accepted
 *   99  failed
 *
 * and the refusals, each with its place. In the image:
 *
 *    1  the image is over 16,384 bytes                                        place 0
 *    2  it ends inside a number or raw bytes, or where a number is due        its length
 *    3  a number is badly written: its third byte still continues, or it
 *       ends in a needless zero group                                         where the number starts
 *    4  the edition is not 1                                                  0
 *    5  more than 8 tables, 8 conditions or 512 nodes, or no node             where the number starts
 *    6  a tag over 18: no kind of node has it                                 where the tag starts
 *    7  a start, pattern or operand is outside its range                      where it starts
 *    8  bytes after the last node                                             the first of them
 *
 * before the run:
 *
 *    9  the input is over 65,535 bytes                                        0
 *   10  a limit is outside its range                                          0
 *   11  the slot buffer has fewer than three numbers for each symbol of room  0
 *
 * in the run:
 *
 *   12  the step limit is reached                                             where the input stood
 *   13  the depth limit is reached                                            where the input stood
 *   14  there is no room for another symbol                                   where the symbol begins
 *   15  a round of a star passed and consumed nothing                         where the round began
 *
 * and of a grammar's text, with the place in it (docs/notation.md):
 *
 *   20  the text is not of the notation, or over 65,535 bytes                 where reading stopped
 *   21  a name is not defined, or a table has no def                          the name
 *   22  a name is defined twice                                               the second one
 *   23  a table has two patterns                                              the def that differs from the first
 *   24  a limit of 01 is passed                                               the name or quoted text that goes over
 *   25  the buffer is too short for the image                                 0
 */
#define YARNSPIRE_ACCEPTED 0
#define YARNSPIRE_FAILED 99

/*
 * Writes the image of a grammar's text, in the notation of docs/notation.md. An image has at most 16,384 bytes.
 *
 * text, text_len     the text, and how many bytes it has
 * image, image_len   a buffer for the image, and how many bytes it has. What lies past the image is never written, and nothing is if the text is refused
 * number             written: 0 if the image was written, else the number of the refusal, 20 to 25
 * length             written: how many bytes the image has, 0 for a refusal
 * at                 written: where in the text the trouble is, 0 if there is none
 */
void yarnspire_compile(const uint8_t *text, size_t text_len, uint8_t *image, size_t image_len,
                       uint32_t *number, uint32_t *length, uint32_t *at);

/*
 * Says whether an image is good.
 *
 * image, image_len   the image, and how many bytes it has
 * number             written: 0 for a good image, else the number of its first fault, 1 to 8
 * place              written: where in the image that is, 0 for a good image
 */
void yarnspire_check(const uint8_t *image, size_t image_len, uint32_t *number, uint32_t *place);

/*
 * Runs the input through the grammar of the image. If it is accepted, the accepted text is the input's first `consumed` bytes.
 *
 * image, image_len   the image, and how many bytes it has
 * input, input_len   the input, and how many bytes it has
 * steps              the step limit, 1 to 1,000,000
 * depth              the depth limit, 1 to 256
 * room               how many symbols may be held at a time, 0 to 256
 * slots, slots_len   a buffer for the symbols, and how many numbers it has: at least 3 * room. Accepted fills the first 3 * room with table, start and end of
 *                    each held symbol (start and end in the input, the end not included), oldest first, and with zeros behind them. Failed and refusals 12 to
 *                    15 write zeros there. Refusals 1 to 11 write no slot, and what lies past 3 * room is never written
 * kind               written: 0 accepted, 99 failed, else the number of the refusal
 * consumed           written: how many bytes were accepted, 0 if none were
 * count              written: the steps spent, 0 for refusals 1 to 11
 * deepest            written: the greatest depth entered, 0 for refusals 1 to 11
 * symbols            written: how many symbols are held, 0 if the answer is not accepted
 * place              written: the refusal's place, 0 for accepted and failed
 */
void yarnspire_recognise(const uint8_t *image, size_t image_len,
                         const uint8_t *input, size_t input_len,
                         uint32_t steps, uint32_t depth, uint32_t room,
                         uint32_t *slots, size_t slots_len,
                         uint32_t *kind, uint32_t *consumed, uint32_t *count,
                         uint32_t *deepest, uint32_t *symbols, uint32_t *place);

#ifdef __cplusplus
}
#endif

#endif
