#include "commands.h"

#include <string.h>

const struct command commands[] = {
    {.name = "check",
     .words = {"TABLE"},
     .options = {[ALL] = true},
     .does = check_command,
     .usage = "check TABLE [--all]",
     .summary = "the number of the check, 0 for accepted",
     .details = "Prints the number of the check: 0 for a table that is accepted, else 1 to 7.\n"
                "Standard error names the first block, station and field that stand behind it.\n"
                "\n"
                "  --all    name all of them, those of higher numbers too\n"},
    {.name = "run",
     .words = {"TABLE", "STEPS"},
     .options = {[OUTPUT] = true, [ALL_OR_NOTHING] = true, [TRACE] = true},
     .does = run_command,
     .usage = "run TABLE STEPS [-o NEW] [--trace]",
     .summary = "run a step list, print the listing",
     .details = "Runs the step list over the table and prints the listing: the answer, the\n"
                "steps done, the stations left, and a line for each of them. The run stops at\n"
                "the first refused step. At 14 the first line ends in what holds the station, as\n"
                "'leave' prints it.\n"
                "\n"
                "  -o, --output NEW    write the new table to NEW, at answer 0 and at 10 to 15,\n"
                "                      where the run stopped\n"
                "  --all-or-nothing    write it at answer 0 only\n"
                "  --trace             before the listing, print a line for each step: what it\n"
                "                      changed and sent to whom, or the refusal and what was\n"
                "                      missing\n"},
    {.name = "allowed",
     .words = {"TABLE"},
     .options = {[OUTPUT] = true},
     .does = allowed_command,
     .usage = "allowed TABLE [-o STEPS]",
     .summary = "every step that may happen next",
     .details = "Prints every step that a run would accept as its first one, a line each: by\n"
                "rising station number, and for a station its timeout, the deliveries from its\n"
                "bag and its exit. Copies of a message make one delivery. 'assemble steps' takes\n"
                "these lines.\n"
                "\n"
                "  -o, --output STEPS    write them to STEPS as well, as a step list\n"},
    {.name = "leave",
     .words = {"TABLE", "NUMBER"},
     .does = leave_command,
     .usage = "leave TABLE NUMBER",
     .summary = "may the station leave? yes, or why not",
     .details = "Prints yes where the station may leave; bag where its own bag is not empty; else\n"
                "held-by and the smallest station that has it as a neighbour or as an\n"
                "introduction in its bag. The exit status is 0 for yes and 1 for the others.\n"},
    {.name = "roll-call",
     .words = {"TABLE"},
     .more = true,
     .does = roll_call_command,
     .usage = "roll-call TABLE [STATION...]",
     .summary = "the same of many stations, a line each",
     .details = "Prints a line for each station, in the order given: its number and yes, bag or\n"
                "held-by as 'leave' prints it, or absent where the table has no such station.\n"
                "At most 64 stations may be asked about (17); a station may be named again.\n"
                "Without a station it asks about all of the table, by rising number.\n"
                "\n"
                "The lines are the answers, so the exit status is 0 whatever they say.\n"},
    {.name = "line",
     .words = {"TABLE"},
     .does = line_command,
     .usage = "line TABLE",
     .summary = "is the table in line? yes or no",
     .details = "Prints yes where each station's left is the next smaller station present, none\n"
                "for the smallest, and likewise its right, no bag holds a remove-left or\n"
                "remove-right, and no station is leaving, else no. Introductions may wait: in\n"
                "such a table none of them can change a neighbour. The exit status is 0 for yes\n"
                "and 1 for no.\n"},
    {.name = "view",
     .words = {"TABLE"},
     .does = view_command,
     .usage = "view TABLE",
     .summary = "where the blocks lie, then 'end'",
     .details = "Prints for each block, in stored order, its number, its offset and its station\n"
                "line, and then 'end'. 'dump table' prints the station lines alone, which\n"
                "'assemble' takes.\n"},
    {.name = "draw",
     .words = {"TABLE"},
     .options = {[ONLY] = true, [AROUND] = true},
     .does = draw_command,
     .usage = "draw TABLE [--around STATION]",
     .summary = "the line as text for Graphviz",
     .details = "Prints the line as text for Graphviz:\n"
                "\n"
                "  station-line draw table.bin | dot -Tsvg > line.svg\n"
                "\n"
                "Solid arrows lead to neighbours, dashed ones to stations introduced in a bag,\n"
                "with ×n for copies. A station shows the l and r that wait in its bag and how\n"
                "full the bag is. Leaving stations are grey, those with a full bag red.\n"
                "\n"
                "  --only neighbours    no introductions\n"
                "  --around STATION     only the links from and to this station\n"},
    {.name = "assemble",
     .words = {"table|steps", "TEXT"},
     .options = {[OUTPUT] = true},
     .does = assemble_command,
     .usage = "assemble table|steps TEXT [-o OUT]",
     .summary = "lines of text into a table or step list",
     .details = "Makes a table from station lines such as '5 3 - stay i7 l' or, at site 1234,\n"
                "'5 3 - stay i7 l @1234', or a step list from lines such as 'timeout 5', 'deliver\n"
                "5 i7' and 'exit 5'. Empty lines and lines that begin with '#' are passed over.\n"
                "\n"
                "  -o, --output OUT    write to OUT; without it, or where it is '-', to standard\n"
                "                      output\n"},
    {.name = "dump",
     .words = {"table|steps", "FILE"},
     .options = {[DAMAGED] = true},
     .does = dump_command,
     .usage = "dump table|steps FILE [--damaged]",
     .summary = "a table or step list back into lines",
     .details = "Prints the lines that 'assemble' turns back into the same bytes.\n"
                "\n"
                "  --damaged    of any bytes, what can be read of a table, with offsets and what\n"
                "               is wrong behind '#'\n"},
    {.name = NULL},
};

const struct command *find_command(const char *name) {
    for (const struct command *command = commands; command->name != NULL; command++)
        if (strcmp(command->name, name) == 0)
            return command;
    return NULL;
}
