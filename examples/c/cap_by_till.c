/*
 * Till 1 may release up to 100.00, every other till up to 50.00.
 * Slot: releases. Mask: 0. Needs: nothing.
 */
#include "forecourt.h"

RULE(cap_by_till, request)
{
	return request->till == 1 ? 10000 : 5000;
}
