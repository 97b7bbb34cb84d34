/* Hands files to the harness one by one, without a fuzzer: for the kept cases as tests. The last line is 'N passed, M failed'; a case
 * that breaks a law stops the program before that line. */
#include "case.h"

#include <stdio.h>
#include <stdlib.h>

int LLVMFuzzerTestOneInput(const uint8_t *data, size_t size);

static void print_met(const char *what, const uint64_t *met, int count)
{
    printf("%s:", what);
    for (int k = 0; k < count; k++) {
        printf(" %d: %llu%s", k, (unsigned long long)met[k], k < count - 1 ? "," : "\n");
    }
}

int main(int argc, char **argv)
{
    static uint8_t data[HEAD + MOST_TABLE + MOST_STEPS + 1];
    for (int k = 1; k < argc; k++) {
        FILE *file = fopen(argv[k], "rb");
        if (file == NULL) {
            perror(argv[k]);
            return 2;
        }
        size_t size = fread(data, 1, sizeof data, file);
        if (ferror(file) || !feof(file)) {
            fprintf(stderr, "%s: not read to its end\n", argv[k]);
            return 2;
        }
        fclose(file);
        fprintf(stderr, "%s\n", argv[k]);
        LLVMFuzzerTestOneInput(data, size);
    }
    print_met("answers met", answers_met, 16);
    print_met("answers of the list of allowed steps met", lists_met, 10);
    print_met("line question, no and yes met", lines_met, 2);
    print_met("reasons of the leave question met", reasons_met, 4);
    print_met("reasons of a 14 met", stops_met, 4);
    print_met("answers of the roll call met", calls_met, 18);
    print_met("reasons in its records met", records_met, 4);
    print_met("site codes: none, some, and one above the bound met", sites_met, 3);
    print_met("lasting facts met, of the line and of a station", lasting_met, 2);
    printf("%d passed, 0 failed\n", argc - 1);
    return argc == 1;
}
