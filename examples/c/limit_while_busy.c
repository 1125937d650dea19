/*
 * At most 30.00 while three points or more are busy (authorised or fuelling), so that nobody waits long; else what is
 * asked.
 * Slot: releases. Mask: 0. Needs: four points or more, since the point that asks isn't busy itself.
 */
#include "forecourt.h"

RULE(limit_while_busy, request)
{
	return request->busy_points >= 3 ? 3000 : request->asked;
}
