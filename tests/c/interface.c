/* The C interface as a C program meets it: interface CASES QUESTIONS. All seven functions on the example of document 01, on every refusal
 * number, with rooms too short, exact and longer than needed, every byte compared, with site codes and without, the two lasting facts
 * (lasting.c), and the stored questions asked. What is handed over lies against pages that may not be touched (areas.h). The last line is
 * 'N passed, M failed', counting cases. */
#include <stdio.h>

#include "calls.h"
#include "cases.h"
#include "tries.h"

int main(int argc, char **argv) {
    if (argc != 3) {
        fputs("interface CASES QUESTIONS\n", stderr);
        return 2;
    }
    (void)setvbuf(stdout, NULL, _IOLBF, 0);
    watch_pages();
    make_areas();
    try_runs();
    try_refusals();
    try_stops();
    try_allowed();
    try_questions();
    try_roll_call();
    try_views();
    try_sites();
    try_lasting();
    try_stored(argv[1], argv[2]);
    return end_cases();
}
