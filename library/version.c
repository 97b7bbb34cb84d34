#include "station_line.h"

const char *station_line_version(void) {
    return STATION_LINE_VERSION;
}
