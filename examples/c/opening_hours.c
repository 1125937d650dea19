/*
 * While somebody is at the station, what is asked: from Monday to Friday from 06:00 to 20:00, on Saturday from 08:00 to
 * 14:00. Else at most 40.00, and on Sunday nothing. Local time is an hour ahead of UTC, all year.
 * Slot: releases. Mask: 0. Needs: the moment, in seconds.
 */
#include "forecourt.h"

#define AHEAD 3600

enum day { SUNDAY, MONDAY, TUESDAY, WEDNESDAY, THURSDAY, FRIDAY, SATURDAY };

RULE(opening_hours, request)
{
	uint64_t local = request->moment + AHEAD;
	/* The first of January 1970 was a Thursday. */
	uint64_t day = (local / 86400 + THURSDAY) % 7;
	uint64_t hour = local % 86400 / 3600;

	switch (day) {
	case SUNDAY:
		return DENY;
	case SATURDAY:
		return hour >= 8 && hour < 14 ? request->asked : 4000;
	default:
		return hour >= 6 && hour < 20 ? request->asked : 4000;
	}
}
