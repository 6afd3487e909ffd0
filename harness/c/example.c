/* Compiles a grammar, a name of letters A to Z, then `=`, then the same name, to 01's image H, and recognises the input A=A with it. Prints the line that
 * 01's program would print, the six numbers of the answer, and the slots. */
#include <inttypes.h>
#include <stdio.h>

#include "yarnspire.h"

#define ROOM 1
#define LONGEST_IMAGE 16384

static const char grammar[] = "Start = <def NAME [A-Z]+> '=' <is NAME>";
static const uint8_t input[] = {'A', '=', 'A'};

int main(void)
{
    uint32_t number, length, at, place, kind, consumed, count, deepest, symbols;
    uint32_t slots[3 * ROOM];
    uint8_t image[LONGEST_IMAGE];

    yarnspire_compile((const uint8_t *)grammar, sizeof grammar - 1, image, sizeof image, &number, &length, &at);
    if (number != 0) {
        printf("refuse %" PRIu32 ", at byte %" PRIu32 " of the grammar\n", number, at);
        return 1;
    }

    yarnspire_check(image, length, &number, &place);
    if (number != 0) {
        printf("refuse %" PRIu32 " %" PRIu32 "\n", number, place);
        return 1;
    }

    yarnspire_recognise(image, length, input, sizeof input, 1000, 100, ROOM, slots, 3 * ROOM,
                        &kind, &consumed, &count, &deepest, &symbols, &place);
    if (kind == YARNSPIRE_ACCEPTED)
        printf("accept %" PRIu32 " %" PRIu32 " %" PRIu32 " %" PRIu32 "\n", consumed, count, deepest, symbols);
    else if (kind == YARNSPIRE_FAILED)
        printf("fail %" PRIu32 " %" PRIu32 "\n", count, deepest);
    else
        printf("refuse %" PRIu32 " %" PRIu32 "\n", kind, place);

    printf("numbers %" PRIu32 " %" PRIu32 " %" PRIu32 " %" PRIu32 " %" PRIu32 " %" PRIu32 "\n",
           kind, consumed, count, deepest, symbols, place);
    printf("slots");
    for (size_t i = 0; i < 3 * ROOM; i++)
        printf(" %" PRIu32, slots[i]);
    printf("\n");
    return 0;
}
