/*
 * Nozzle 2 is released by till 2 alone; all others by every till.
 * Slot: releases. Mask: 0. Needs: a nozzle that is up. With none up it is denied, or the customer could lift nozzle 2
 * after the grant.
 */
#include "forecourt.h"

RULE(nozzle_for_one_till, request)
{
	if (request->nozzle == 0 || (request->nozzle == 2 && request->till != 2))
		return DENY;
	return request->asked;
}
