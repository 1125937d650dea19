/*
 * By day (06:00 to 22:00) till 1 may release up to 100.00 and the others up to 50.00; by night till 1 up to 30.00 and
 * the others nothing.
 * Slot: releases. Mask: 0. Needs: the moment, in seconds; hours are those of UTC.
 */
#include "forecourt.h"

RULE(cap_by_hour_and_till, request)
{
	uint64_t hour = request->moment % 86400 / 3600;

	if (hour >= 6 && hour < 22)
		return request->till == 1 ? 10000 : 5000;
	return request->till == 1 ? 3000 : DENY;
}
