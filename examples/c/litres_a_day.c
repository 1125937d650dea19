/*
 * So many litres a day over the whole station: 2,000.00, filled up again with the first request of a day (of UTC). What
 * is asked counts, by the price of now, whether it is all fuelled or not.
 * Slot: releases. Mask: 6. Needs: a nozzle that is up; the moment, in seconds; counter 1, the centilitres that are
 * left, with a bound of at least the quota; counter 2, the day of the last filling, with bound 100,000 or more.
 * A till whose clock is a day ahead fills it up a day early: until that day is over, no other till does.
 */
#include "forecourt.h"

enum {
	CENTILITRES_LEFT = 1,
	LAST_DAY = 2,
};

RULE(litres_a_day, request)
{
	uint64_t today = request->moment / 86400;

	if (counter_get(LAST_DAY) < today) {
		counter_take(LAST_DAY, counter_get(LAST_DAY));
		counter_add(LAST_DAY, today);
		counter_take(CENTILITRES_LEFT, counter_get(CENTILITRES_LEFT));
		counter_add(CENTILITRES_LEFT, 200000);
	}
	if (request->price == 0)
		return DENY;
	if (!counter_take(CENTILITRES_LEFT, request->asked * 1000 / request->price))
		return DENY;
	return request->asked;
}
