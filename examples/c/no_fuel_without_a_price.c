/*
 * What is asked, where the lifted nozzle's product has a price; else, and before a nozzle is lifted, nothing.
 * Slot: releases. Mask: 0. Needs: nothing.
 */
#include "forecourt.h"

RULE(no_fuel_without_a_price, request)
{
	return request->price == 0 ? DENY : request->asked;
}
