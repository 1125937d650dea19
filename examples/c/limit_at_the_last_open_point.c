/*
 * At most 30.00 where every other open point is busy (authorised or fuelling), so that nobody waits long; else what is
 * asked.
 * Slot: releases. Mask: 0. Layout: 2. Needs: nothing; it suits a station of any size. A single open point is always the
 * last one.
 */
#include "forecourt.h"

RULE2(limit_at_the_last_open_point, request)
{
	return request->busy_points + 1 >= request->open_points ? 3000 : request->asked;
}
