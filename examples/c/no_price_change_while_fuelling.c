/*
 * No price change while a delivery is authorised or under way (the site refuses that by itself), nor
 * while point 1 or 2 is open and has a nozzle up.
 * Slot: prices. Mask: 0. Needs: nothing; for more points change POINTS.
 */
#include "forecourt.h"

#define POINTS 2

RULE(no_price_change_while_fuelling, request)
{
	if (request->busy_points != 0)
		return DENY;
	for (uint32_t point = 1; point <= POINTS; point++)
		if (point_state(point) == STATE_CALLING)
			return DENY;
	return request->asked;
}
