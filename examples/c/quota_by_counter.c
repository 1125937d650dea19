/*
 * Each grant takes one of counter 0; when it is used up, nothing is granted.
 * Slot: releases or presets. Mask: 1. Needs: counter 0, how many grants are left.
 */
#include "forecourt.h"

enum { GRANTS_LEFT = 0 };

RULE(quota_by_counter, request)
{
	return counter_take(GRANTS_LEFT, 1) ? request->asked : DENY;
}
