/*
 * The last price of the day is kept through the night: no price change from 22:00 to 06:00.
 * Slot: prices. Mask: 0. Needs: the moment, in seconds; hours are those of UTC.
 */
#include "forecourt.h"

RULE(price_kept_at_night, request)
{
	uint64_t hour = request->moment % 86400 / 3600;

	return hour < 6 || hour >= 22 ? DENY : request->asked;
}
