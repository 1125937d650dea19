/*
 * Point 2 is released to nobody.
 * Slot: releases. Mask: 0. Needs: nothing.
 */
#include "forecourt.h"

RULE(point_out_of_service, request)
{
	return request->point == 2 ? DENY : request->asked;
}
