/* The words for the numbers, as the refusal table has them. */
#include "station_line.h"

static const char *const words[] = {
    "no refusal",
    "table length not a multiple of 512",
    "more than 64 blocks",
    "a check fails",
    "a field outside the layout",
    "a left, where there is one, not below its own station, or a right, where there is one, not above it",
    "two blocks with one station number",
    "a neighbour or introduction names a station without a block",
    "step list not a multiple of 12 bytes, or over 4,096 steps",
    "room shorter than the table read, or than the list that would fill it",
    "malformed step",
    "station not present",
    "message not in that bag",
    "exit by a staying station",
    "exit, leaving, NIDEC false",
    "a bag that must receive holds 32",
    "a file can't be read, or is over 32,768 (table) or 49,152 (steps) bytes",
    "more than 64 stations asked",
};

const char *station_line_words(uint32_t number) {
    return number < sizeof words / sizeof words[0] ? words[number] : "a number without a meaning";
}
