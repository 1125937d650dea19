/*
 * From 22:00 to 06:00 at most 30.00; by day what is asked.
 * Slot: releases. Mask: 0. Needs: the moment, in seconds; hours are those of UTC.
 */
#include "forecourt.h"

RULE(night_limit, request)
{
	uint64_t hour = request->moment % 86400 / 3600;

	return hour < 6 || hour >= 22 ? 3000 : request->asked;
}
