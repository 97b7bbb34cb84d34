/* What the stand-in does wrong with site codes where the environment's WRONG says so (sites.c). */
#ifndef SITES_H
#define SITES_H

#include <stddef.h>
#include <stdint.h>

#include "station_line.h"

/* The table that is handed on in the place of this one. */
const uint8_t *with_other_bound(const uint8_t *table, size_t table_len);

/* Changes the codes of the table written. */
void spoil_sites(const uint8_t *table, uint8_t *room, uint32_t stations);

/* Changes a yes of the leave question. */
void hold_by_site(struct station_line_leave *leave, const uint8_t *table, size_t table_len, uint32_t station);

#endif
